/* SPDX-License-Identifier: Apache-2.0 */
#include "control.h"
#include "daemon.h"
#include "service.h"

#include <inttypes.h>
#include <osmocom/core/linuxlist.h>
#include <osmocom/core/talloc.h>
#include <osmocom/ctrl/control_cmd.h>
#include <osmocom/ctrl/control_if.h>
#include <osmocom/ctrl/control_vty.h>
#include <stdio.h>
#include <string.h>

enum { PORT = 4298 };

/* A change that was given and whose row is not durable yet. */
struct waiting {
	struct llist_head list;
	uint64_t row;
	struct ctrl_cmd_def *command;
};
static LLIST_HEAD(all_waiting);

CTRL_CMD_DEFINE_RO(role, "role");
static int get_role(struct ctrl_cmd *command, void *data)
{
	(void)data;
	command->reply = talloc_asprintf(command, "%s %" PRIu64, service_register()->leads ? "leads" : "follows", service_last_row());
	return command->reply ? CTRL_CMD_REPLY : CTRL_CMD_ERROR;
}

/* Gives a change. It is answered when its row is durable. */
static int give(struct ctrl_cmd *command, const char *line)
{
	const uint32_t code = service_give(line, strlen(line));
	struct waiting *it = code ? NULL : talloc_zero(daemon_context, struct waiting);

	if (!code)
		count(EVENTS_OF_OPERATOR);
	if (it)
		it->command = ctrl_cmd_def_make(daemon_context, command, NULL, 0);
	if (!it || !it->command) {
		command->reply = talloc_strdup(command, code == KUNCHROL_CLOSED ? "it does not lead" :
							code == KUNCHROL_NONE   ? "no such subscriber" :
										  kunchrol_name(code));
		talloc_free(it);
		return CTRL_CMD_ERROR;
	}
	it->row = service_row();
	llist_add_tail(&it->list, &all_waiting);
	return CTRL_CMD_HANDLED;
}

CTRL_CMD_DEFINE_WO_NOVRF(codes, "codes");
static int set_codes(struct ctrl_cmd *command, void *data)
{
	char line[160], imsi[KUNCHROL_MAX_DIGITS + 1], codes[100 + 1];
	int end = 0;

	(void)data;
	if (sscanf(command->value, "%16[0-9];%100s%n", imsi, codes, &end) != 2 || command->value[end]) {
		command->reply = "the value is <imsi>;<codes or none>";
		return CTRL_CMD_ERROR;
	}
	snprintf(line, sizeof(line), "O %s %s", imsi, strcmp(codes, "none") ? codes : "-");
	return give(command, line);
}

CTRL_CMD_DEFINE_WO_NOVRF(withdraw, "withdraw");
static int set_withdraw(struct ctrl_cmd *command, void *data)
{
	char line[80];

	(void)data;
	snprintf(line, sizeof(line), "X %s", command->value);
	return give(command, line);
}

static void answer(struct waiting *it, uint64_t row)
{
	struct ctrl_cmd *command = it->command->cmd;

	/* (who asked is gone if there is no command. The library's own way to find that out, ctrl_cmd_def_is_zombie, fails then) */
	if (command) {
		command->type = row ? CTRL_TYPE_SET : CTRL_TYPE_ERROR; /* (the library makes the reply of a SET) */
		command->reply = row ? talloc_asprintf(command, "row %" PRIu64, it->row) : "it is not known whether it was done";
		ctrl_cmd_def_send(it->command);
	} else {
		talloc_free(it->command);
	}
	llist_del(&it->list);
	talloc_free(it);
}

void control_answer(uint64_t row)
{
	struct waiting *it, *next;

	llist_for_each_entry_safe(it, next, &all_waiting, list)
		if (!row || it->row <= row)
			answer(it, row);
}

bool control_begin(void)
{
	if (!ctrl_interface_setup_dynip(NULL, ctrl_vty_get_bind_addr(), PORT, NULL))
		return false;
	return !ctrl_cmd_install(CTRL_NODE_ROOT, &cmd_role) && !ctrl_cmd_install(CTRL_NODE_ROOT, &cmd_codes) &&
	       !ctrl_cmd_install(CTRL_NODE_ROOT, &cmd_withdraw);
}
