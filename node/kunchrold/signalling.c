/* SPDX-License-Identifier: Apache-2.0 */
#include "signalling.h"
#include "../../integrations/osmo-sccp/address.h"
#include "../../integrations/osmo-sccp/stack.h"
#include "../../integrations/osmo-sccp/transaction.h"
#include "../../integrations/osmo-sccp/way.h"
#include "address_words.h"
#include "daemon.h"
#include "service.h"

#include <osmocom/sigtran/osmo_ss7.h>
#include <osmocom/sigtran/protocol/m3ua.h>
#include <stdio.h>
#include <string.h>

enum { INSTANCE = 0, IPA_PORT = 5000 };

/* what waits at most while the STP is away: a frame for each dialogue that sixteen shards hold, of 128 octets in the mean */
enum { MOST_UNSENT = 65536, MOST_OCTETS = MOST_UNSENT * 128 };

/* A line F with the longest frame. */
enum { MAX_LINE = KUNCHROL_MAX_DIGITS + 8 + 2 * KUNCHROL_MAX_OCTETS };

static const uint32_t subsystems[] = { OSMO_SCCP_SSN_HLR, 0 };
static struct stack_user user = { .name = "kunchrol", .subsystems = subsystems, .limits = { MOST_UNSENT, MOST_OCTETS } };

/* ---- frames that come */

static size_t put_hexadecimal(char *at, const uint8_t *octets, size_t len)
{
	static const char digits[] = "0123456789ABCDEF";

	for (size_t octet = 0; octet < len; octet++) {
		at[2 * octet] = digits[octets[octet] >> 4];
		at[2 * octet + 1] = digits[octets[octet] & 15];
	}
	at[2 * len] = 0;
	return 2 * len;
}

/* The note of the dialogue of a message that names the peer's transaction id: its calling party address. */
static bool has_note(const struct stack_frame *frame, const char *name, struct note *note)
{
	struct transaction transaction;

	read_transaction(frame->octets, frame->len, &transaction);
	snprintf(note->digits, sizeof(note->digits), "%s", name);
	put_hexadecimal(note->id, transaction.originating.octets, transaction.originating.len);
	return transaction.originating.len && words_of_address(frame->calling, note->words);
}

static void take_frame(const struct stack_frame *frame)
{
	static char line[MAX_LINE];
	struct note note;
	peer_name name;
	size_t len;

	if (!name_address(frame->calling, name) || frame->len > KUNCHROL_MAX_OCTETS) {
		if (count_and_tell(FRAMES_UNREADABLE))
			LOGP(DSCCP, LOGL_NOTICE, "a frame without number and subsystem, or of more than %d octets, is dropped\n", KUNCHROL_MAX_OCTETS);
		return;
	}
	len = (size_t)snprintf(line, sizeof(line), "F %s %s", name, frame->len ? "" : "-");
	len += put_hexadecimal(line + len, frame->octets, frame->len);
	service_take_frame(has_note(frame, name, &note) ? &note : NULL, line, len);
}

/* TCAP has no answer to a frame that came back: the timers of its invocations run out. */
static void take_notice(const struct stack_frame *frame, uint32_t cause)
{
	peer_name name;
	bool is_named = name_address(frame->calling, name);

	if (count_and_tell(FRAMES_RETURNED))
		LOGP(DSCCP, LOGL_NOTICE, "a frame to %s was returned, cause %u (Q.713, 3.12)\n", is_named ? name : "somebody", (unsigned)cause);
}

/* ---- frames that go */

/*
 * Where a frame goes: an answer to the calling party address that is noted of its dialogue. What begins a dialogue goes to a VLR with this
 * number, and so does an answer without a note. Digits that stand for a point code and a subsystem (address.h) become these again.
 */
static struct osmo_sccp_addr address_for(const struct durable_frame *frame, const char *to)
{
	char id[NOTE_ID + 1];
	unsigned point_code, subsystem;
	struct transaction transaction;
	struct osmo_sccp_addr address;
	const char *words;

	read_transaction(frame->octets, frame->len, &transaction);
	put_hexadecimal(id, transaction.destination.octets, transaction.destination.len);
	words = durable_noted(service_register(), to, id);
	if (words && address_of_words(words, &address))
		return address;
	if (sscanf(to, "00%5u%3u", &point_code, &subsystem) != 2)
		return address_of_number(to, user.other_point_code, OSMO_SCCP_SSN_VLR);
	return (struct osmo_sccp_addr){ .presence = OSMO_SCCP_ADDR_T_PC | OSMO_SCCP_ADDR_T_SSN, .ri = OSMO_SCCP_RI_SSN_PC, .pc = point_code,
					.ssn = subsystem };
}

/* Of those that were to be sent: too much waits for the STP, which is away or takes less than is sent, or the library refused them. */
static void count_lost(void)
{
	static unsigned long counted;

	for (; counted < way_lost(); counted++)
		if (count_and_tell(FRAMES_LOST))
			LOGP(DSCCP, LOGL_ERROR, "frames are dropped: %zu wait for the STP\n", way_waiting());
}

void signalling_send(void)
{
	struct osmo_sccp_addr calling = address_of_number(service_number(), user.point_code, OSMO_SCCP_SSN_HLR);
	struct durable_frame frame;
	peer_name to;

	while (durable_next(service_register(), &frame)) {
		struct osmo_sccp_addr called;

		snprintf(to, sizeof(to), "%.*s", (int)frame.to_len, (const char *)frame.to);
		called = address_for(&frame, to);
		count(stack_send(&(struct stack_frame){ &calling, &called, frame.octets, frame.len }) ? FRAMES_SENT : FRAMES_UNSENT);
	}
	count_lost();
}

/* ---- the STP */

/* The point code to which frames go whose address has none. */
static bool find_peers(void)
{
	struct osmo_sccp_addr peers = { 0 };

	if (!osmo_sccp_addr_by_name(&peers, settings.peers) || !(peers.presence & OSMO_SCCP_ADDR_T_PC)) {
		LOGP(DSCCP, LOGL_FATAL, "peers %s: there is no sccp-address of this name with a point code\n", settings.peers);
		return false;
	}
	user.other_point_code = peers.pc;
	return true;
}

bool signalling_begin(void)
{
	struct osmo_ss7_instance *ss7 = osmo_ss7_instance_find(INSTANCE);
	struct osmo_sccp_instance *sccp;
	bool is_ipa;

	if (!ss7 || !osmo_ss7_pc_is_valid(ss7->cfg.primary_pc)) {
		LOGP(DSCCP, LOGL_FATAL, "cs7 instance %d has no point-code\n", INSTANCE);
		return false;
	}
	is_ipa = osmo_ss7_as_find_by_proto(ss7, OSMO_SS7_ASP_PROT_IPA);
	sccp = osmo_sccp_simple_client_on_ss7_id(daemon_context, INSTANCE, user.name, ss7->cfg.primary_pc,
						 is_ipa ? OSMO_SS7_ASP_PROT_IPA : OSMO_SS7_ASP_PROT_M3UA, 0, "127.0.0.1",
						 is_ipa ? IPA_PORT : M3UA_PORT, "127.0.0.1");
	user.point_code = ss7->cfg.primary_pc;
	user.take_frame = take_frame;
	user.take_notice = take_notice;
	return sccp && find_peers() && stack_use(&user, sccp);
}
