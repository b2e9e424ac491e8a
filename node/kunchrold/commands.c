/* SPDX-License-Identifier: Apache-2.0 */
#include "commands.h"
#include "../../integrations/osmo-sccp/way.h"
#include "daemon.h"
#include "service.h"

#include <inttypes.h>
#include <osmocom/vty/command.h>
#include <osmocom/vty/misc.h>
#include <stdio.h>
#include <string.h>

enum { MAX_SHOWN = 100 };

#define SUBSCRIBER_STR "A subscriber\n"
#define IMSI_STR "Named by the IMSI\nThe IMSI\n"

/* ---- what there is */

/* Shows a record, a line of a records file (docs/PROTOCOL.md). */
static void show_record(struct vty *vty, char *record)
{
	static const char *const labels[] = { "IMSI", "MSISDN", "Teleservices", "Allowed VLRs", "Register (VLR, MSC, LMSI, s or p)", "State" };
	char *place = NULL, *word = strtok_r(record, " ", &place);

	for (size_t field = 0; word && field < sizeof(labels) / sizeof(labels[0]); field++, word = strtok_r(NULL, " ", &place))
		vty_out(vty, "  %s: %s%s", labels[field], field < 5 ? word : *word == 'w' ? "withdrawn" : "active", VTY_NEWLINE);
}

DEFUN(show_subscriber, show_subscriber_cmd, "show subscriber (imsi|msisdn) DIGITS",
      SHOW_STR SUBSCRIBER_STR "Named by the IMSI\nNamed by the MSISDN\nIts digits\n")
{
	const uint8_t *digits = (const uint8_t *)argv[1];
	char record[KUNCHROL_MAX_LINE + 1];
	size_t len = 0;
	uint32_t code;

	if (argv[0][0] == 'i')
		code = kunchrol_record(&service_register()->hlr, digits, strlen(argv[1]), (uint8_t *)record, KUNCHROL_MAX_LINE, &len);
	else
		code = kunchrol_record_of_number(&service_register()->hlr, digits, strlen(argv[1]), (uint8_t *)record, KUNCHROL_MAX_LINE, &len);
	if (code) {
		vty_out(vty, "%% %s%s", code == KUNCHROL_NONE ? "no such subscriber" : kunchrol_name(code), VTY_NEWLINE);
		return CMD_WARNING;
	}
	record[len] = 0;
	show_record(vty, record);
	return CMD_SUCCESS;
}

static size_t count_dialogues(void)
{
	size_t all = 0, dialogues = 0, entries;

	for (uint8_t shard = 0; shard < KUNCHROL_SHARDS; shard++)
		all += kunchrol_counts(&service_register()->hlr, shard, &dialogues, &entries) ? 0 : dialogues;
	return all;
}

/* Shows the lines of a shard, as long as some may be shown. */
static uint32_t show_shard(struct vty *vty, uint8_t shard, unsigned *shown)
{
	struct text text = { NULL, 0, 0 };
	uint32_t code = durable_write(service_register(), DURABLE_DIALOGUES, shard, &text);

	for (size_t at = 0, len; !code && at < text.len && *shown < MAX_SHOWN; at += len + 1, ++*shown) {
		const uint8_t *end = memchr(text.at + at, '\n', text.len - at);

		len = (size_t)(end - text.at) - at;
		vty_out(vty, "  %.*s%s", (int)len, (const char *)text.at + at, VTY_NEWLINE);
	}
	text_free(&text);
	return code;
}

DEFUN(show_dialogues, show_dialogues_cmd, "show dialogues", SHOW_STR "Open dialogues: lines D, and I for their invocations (docs/PROTOCOL.md)\n")
{
	uint32_t code = KUNCHROL_OK;
	unsigned shown = 0;

	vty_out(vty, "%zu dialogues are open%s", count_dialogues(), VTY_NEWLINE);
	for (uint8_t shard = 0; shard < KUNCHROL_SHARDS && !code && shown < MAX_SHOWN; shard++)
		code = show_shard(vty, shard, &shown);
	if (shown == MAX_SHOWN)
		vty_out(vty, "  .. (%d lines are shown)%s", MAX_SHOWN, VTY_NEWLINE);
	return code ? CMD_WARNING : CMD_SUCCESS;
}

DEFUN(show_role, show_role_cmd, "show role", SHOW_STR "Whether this process leads, and how far the store is\n")
{
	const struct durable *it = service_register();

	vty_out(vty, "%s, %s. The last durable row: %" PRIu64 "%s", it->leads ? "leads" : "follows", service_is_paired() ? "one of a pair" : "alone",
		service_last_row(), VTY_NEWLINE);
	vty_out(vty, "Waiting for the store: %zu octets of events; its job, for %llu milliseconds%s", it->lines.len, service_waits(), VTY_NEWLINE);
	vty_out(vty, "The way to the STP is %s: %zu frames wait, %lu were lost%s", way_is_up() ? "up" : "down", way_waiting(), way_lost(), VTY_NEWLINE);
	return CMD_SUCCESS;
}

DEFUN(show_counters, show_counters_cmd, "show counters", SHOW_STR "Counters since this process began\n")
{
	vty_out_rate_ctr_group(vty, "", counters);
	return CMD_SUCCESS;
}

/* ---- changes */

/* Gives a change. A command cannot wait: it says which row will have it. */
static int change(struct vty *vty, const char *line)
{
	const uint32_t code = service_give(line, strlen(line));

	if (code) {
		vty_out(vty, "%% %s%s",
			code == KUNCHROL_CLOSED ? "this process does not lead" :
			code == KUNCHROL_NONE   ? "no such subscriber" :
						  kunchrol_name(code),
			VTY_NEWLINE);
		return CMD_WARNING;
	}
	count(EVENTS_OF_OPERATOR);
	vty_out(vty, "given: done when row %" PRIu64 " is durable (show role)%s", service_row(), VTY_NEWLINE);
	return CMD_SUCCESS;
}

DEFUN(subscriber_codes, subscriber_codes_cmd, "subscriber imsi IMSI codes CODES",
      SUBSCRIBER_STR IMSI_STR "Other teleservices\nCodes of two hexadecimal digits with commas, 11,21 say, or none\n")
{
	char line[256];
	const int len = snprintf(line, sizeof(line), "O %s %s", argv[0], strcmp(argv[1], "none") ? argv[1] : "-");

	if (len >= (int)sizeof(line)) {
		vty_out(vty, "%% too long%s", VTY_NEWLINE);
		return CMD_WARNING;
	}
	return change(vty, line);
}

DEFUN(subscriber_withdraw, subscriber_withdraw_cmd, "subscriber imsi IMSI withdraw", SUBSCRIBER_STR IMSI_STR "The end of the subscription\n")
{
	char line[256];

	if (snprintf(line, sizeof(line), "X %s", argv[0]) >= (int)sizeof(line)) {
		vty_out(vty, "%% too long%s", VTY_NEWLINE);
		return CMD_WARNING;
	}
	return change(vty, line);
}

DEFUN(leave, leave_cmd, "leave", "Of a pair: commit, and let the other process lead\n")
{
	if (service_leave())
		return CMD_SUCCESS;
	vty_out(vty, "%% this process is not one of a pair that leads%s", VTY_NEWLINE);
	return CMD_WARNING;
}

void commands_install(void)
{
	install_element_ve(&show_subscriber_cmd);
	install_element_ve(&show_dialogues_cmd);
	install_element_ve(&show_role_cmd);
	install_element_ve(&show_counters_cmd);
	install_element(ENABLE_NODE, &subscriber_codes_cmd);
	install_element(ENABLE_NODE, &subscriber_withdraw_cmd);
	install_element(ENABLE_NODE, &leave_cmd);
}
