/* SPDX-License-Identifier: Apache-2.0 */
#include "stack.h"
#include "address.h"
#include "way.h"

#include <osmocom/core/application.h>
#include <osmocom/core/logging.h>
#include <osmocom/core/msgb.h>
#include <osmocom/core/prim.h>
#include <osmocom/core/select.h>
#include <osmocom/core/talloc.h>
#include <osmocom/core/timer.h>
#include <osmocom/sigtran/osmo_ss7.h>
#include <osmocom/sigtran/sccp_helpers.h>
#include <string.h>

enum { MAX_SUBSYSTEMS = 4, IPA_PORT = 5000, M3UA_PORT = 2905 };

/*
 * A UDT in a signal unit of MTP: at most 272 octets (Q.703, 2.3.8), less four of the routing label (Q.704, 2.2), and in the UDT the
 * type, the class, three pointers and three length octets (Q.713, 4.10). A length octet counts to 255.
 */
enum { UDT_ROOM = 272 - 4 - 8, MAX_DATA = 255 };

/* how long the end waits until all is sent */
enum { END_MILLISECONDS = 1000 };

static const struct stack_user *the_user;
static void *context;
static struct osmo_sccp_instance *sccp;
static struct osmo_sccp_user *users[MAX_SUBSYSTEMS];
static size_t user_count;
/* what came in this wait, and whether its time is over */
static uint64_t came;
static bool is_late;

static const struct log_info_cat no_categories[] = { { 0 } };
static const struct log_info log_info = { .cat = no_categories, .num_cat = 0 };

static void take_unitdata(const struct osmo_scu_unitdata_param *unitdata, struct msgb *msg)
{
	struct stack_frame frame = { &unitdata->calling_addr, &unitdata->called_addr, msgb_l2(msg), msgb_l2len(msg) };

	came++;
	the_user->take_frame(&frame);
}

/* The cause is that of Q.713, 3.12, in the low octet. */
static void take_notice(const struct osmo_scu_notice_param *notice, struct msgb *msg)
{
	struct stack_frame returned = { &notice->calling_addr, &notice->called_addr, msgb_l2(msg), msgb_l2len(msg) };

	came++;
	the_user->take_notice(&returned, notice->cause & 0xFF);
}

static int take_primitive(struct osmo_prim_hdr *header, void *user)
{
	const struct osmo_scu_prim *primitive = (const struct osmo_scu_prim *)header;

	(void)user;
	if (header->operation == PRIM_OP_INDICATION && header->primitive == OSMO_SCU_PRIM_N_UNITDATA)
		take_unitdata(&primitive->u.unitdata, header->msg);
	else if (header->operation == PRIM_OP_INDICATION && header->primitive == OSMO_SCU_PRIM_N_NOTICE)
		take_notice(&primitive->u.notice, header->msg);
	/* (states of point codes and subsystems are not the register's) */
	msgb_free(header->msg);
	return 0;
}

static bool bind_subsystems(void)
{
	for (const uint32_t *subsystem = the_user->subsystems; *subsystem; subsystem++) {
		if (user_count == MAX_SUBSYSTEMS)
			return false;
		users[user_count] = osmo_sccp_user_bind(sccp, the_user->name, take_primitive, (uint16_t)*subsystem);
		if (!users[user_count])
			return false;
		user_count++;
	}
	return user_count > 0;
}

/* The library tells much; only its errors are shown. */
static bool start_library(void)
{
	context = talloc_named_const(NULL, 0, the_user->name);
	if (!context || osmo_init_logging2(context, &log_info) < 0)
		return false;
	log_set_log_level(osmo_stderr_target, LOGL_ERROR);
	log_set_use_color(osmo_stderr_target, 0);
	osmo_init_ignore_signals(); /* SIGPIPE above all */
	return osmo_ss7_init() >= 0;
}

bool stack_use(const struct stack_user *user, struct osmo_sccp_instance *instance)
{
	the_user = user;
	sccp = instance;
	if (!bind_subsystems())
		return false;
	way_open(user, sccp, users[0]);
	return true;
}

bool stack_open(const struct stack_user *user, const char *protocol)
{
	bool is_ipa = !strcmp(protocol, "ipa");

	if (!is_ipa && strcmp(protocol, "m3ua"))
		return false;
	the_user = user;
	if (!start_library())
		return false;
	/* (a local port of 0 is any port) */
	sccp = osmo_sccp_simple_client(context, user->name, user->point_code, is_ipa ? OSMO_SS7_ASP_PROT_IPA : OSMO_SS7_ASP_PROT_M3UA,
				       0, "127.0.0.1", is_ipa ? IPA_PORT : M3UA_PORT, "127.0.0.1");
	return sccp && stack_use(user, sccp);
}

static const char *why_not(const struct stack_frame *frame)
{
	size_t addresses;

	if (!is_writable(frame->calling) || !is_writable(frame->called))
		return "the library cannot write an address of it";
	addresses = address_len(frame->calling) + address_len(frame->called);
	if (frame->len > MAX_DATA || frame->len + addresses > UDT_ROOM)
		return "it does not fit a UDT, and the library sends no XUDT";
	return NULL;
}

bool stack_send(const struct stack_frame *frame)
{
	struct osmo_sccp_addr called = *frame->called;
	const struct stack_frame whole = { frame->calling, &called, frame->octets, frame->len };
	const char *why;

	/* (the library puts 0 where an address had a subsystem alone and IPA told no point code) */
	if (!(called.presence & OSMO_SCCP_ADDR_T_PC) || !called.pc) {
		called.presence |= OSMO_SCCP_ADDR_T_PC;
		called.pc = the_user->other_point_code;
	}
	why = why_not(&whole);
	if (!why && !way_send(&whole))
		why = "there is no memory";
	if (why)
		stack_tell(the_user, "a frame of %zu octets is not sent: %s", frame->len, why);
	return !why;
}

static void end_wait(void *data)
{
	(void)data;
	is_late = true;
}

/* Has the library work until something is so, and not longer than this. */
static void work_until(bool (*is_so)(void), unsigned milliseconds)
{
	struct osmo_timer_list timer = { .cb = end_wait };

	is_late = false;
	osmo_timer_schedule(&timer, (int)(milliseconds / 1000), (int)(milliseconds % 1000 * 1000));
	while (!is_late && !is_so()) {
		osmo_select_main_ctx(0);
		way_turn();
	}
	osmo_timer_del(&timer);
}

static bool has_come(void)
{
	return came != 0;
}

bool stack_wait(unsigned milliseconds)
{
	came = 0;
	work_until(has_come, milliseconds);
	return has_come();
}

static bool is_all_sent(void)
{
	return !way_waiting() || !way_is_up();
}

void stack_close(void)
{
	struct osmo_ss7_instance *ss7 = sccp ? osmo_sccp_get_ss7(sccp) : NULL;

	if (sccp)
		work_until(is_all_sent, END_MILLISECONDS);
	way_close();
	if (sccp)
		osmo_sccp_instance_destroy(sccp); /* and its users */
	if (ss7)
		osmo_ss7_instance_destroy(ss7);
	sccp = NULL;
	user_count = 0;
	log_fini();
	talloc_free(context);
	context = NULL;
}
