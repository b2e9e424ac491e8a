/* SPDX-License-Identifier: Apache-2.0 */
/*
 * Who writes to the register: peer NUMBER SCRIPT ipa|m3ua FORM plays the VLR, MSC and SMSC of a script, through the same STP. NUMBER is the
 * register's. FORM says what its calling party addresses have: `digits` (and point code and subsystem), `point-code` (and subsystem),
 * `subsystem` alone, or `unbound`: digits, with a subsystem that nobody here answers for, so that the answer comes back to its sender.
 *
 * At each `W` and at the end it waits until nothing came for a while, at an `E` until a timer of the register brings something. It
 * prints what comes as the program `hlr` prints what it sends, `S <to> <octets>`, where <to> is `-` for an address without digits. The
 * status is 1 where a line is not a peer's or is not sent.
 */
#include "address.h"
#include "script.h"
#include "stack.h"
#include "way.h"

#include <stdio.h>
#include <string.h>

enum { MAX_LINE = 16384, QUIET_MILLISECONDS = 400, TIMER_MILLISECONDS = 5000, UP_MILLISECONDS = 100, MAX_WAITS = 100 };
enum { MOST_UNSENT = 1000, MOST_OCTETS = 100000 };

/* what nobody here is bound to: the SGSN's */
enum { UNBOUND = OSMO_SCCP_SSN_SGSN_MAP };

static void take_frame(const struct stack_frame *frame)
{
	bool has_digits = frame->called->presence & OSMO_SCCP_ADDR_T_GT;

	print_frame(stdout, has_digits ? frame->called->gt.digits : "-", frame->octets, frame->len);
	note_letter(frame->octets, frame->len);
}

static void take_notice(const struct stack_frame *returned, uint32_t cause)
{
	(void)returned;
	fprintf(stderr, "peer: a frame was returned, cause %u (Q.713, 3.12)\n", (unsigned)cause);
}

/* An SMSC asks for a route (a Begin with operation 45) from subsystem 8; everything else comes from a VLR, 7. */
static uint32_t subsystem_of(const struct script_line *line)
{
	static const uint8_t route[] = { 0x02, 0x01, 45 };

	for (size_t at = 0; at + sizeof(route) <= line->len; at++)
		if (!memcmp(line->octets + at, route, sizeof(route)))
			return OSMO_SCCP_SSN_MSC;
	return OSMO_SCCP_SSN_VLR;
}

static bool calling_address(const char *form, const struct script_line *line, struct osmo_sccp_addr *calling)
{
	*calling = address_of_number(line->from, PEER_POINT_CODE, subsystem_of(line));
	if (!strcmp(form, "digits"))
		return true;
	if (!strcmp(form, "unbound"))
		calling->ssn = UNBOUND;
	else if (!strcmp(form, "point-code"))
		calling->presence = OSMO_SCCP_ADDR_T_PC | OSMO_SCCP_ADDR_T_SSN;
	else if (!strcmp(form, "subsystem"))
		calling->presence = OSMO_SCCP_ADDR_T_SSN;
	else
		return false;
	return true;
}

static void wait_until_quiet(void)
{
	for (int waits = 0; waits < MAX_WAITS && stack_wait(QUIET_MILLISECONDS); waits++)
		;
}

static bool play_line(const char *number, const char *form, const char *text)
{
	static struct script_line line;
	struct osmo_sccp_addr calling, called = address_of_number(number, REGISTER_POINT_CODE, OSMO_SCCP_SSN_HLR);

	if (!read_line(text, &line) || (line.kind == FRAME_LINE && !calling_address(form, &line, &calling))) {
		fprintf(stderr, "peer: a line that is none of a peer's: %.80s\n", text);
		return false;
	}
	if (line.kind != FRAME_LINE) {
		if (line.kind == EXPIRY_LINE)
			stack_wait(TIMER_MILLISECONDS);
		wait_until_quiet();
		return true;
	}
	return stack_send(&(struct stack_frame){ &calling, &called, line.octets, line.len });
}

static bool play(const char *number, const char *form, FILE *script)
{
	static char text[MAX_LINE];
	bool is_played = true;

	for (int waits = 0; waits < MAX_WAITS && !way_is_up(); waits++)
		stack_wait(UP_MILLISECONDS);
	while (is_played && fgets(text, sizeof(text), script)) {
		text[strcspn(text, "\n")] = 0;
		is_played = play_line(number, form, text);
	}
	wait_until_quiet();
	return is_played;
}

int main(int argc, char **argv)
{
	static const uint32_t subsystems[] = { OSMO_SCCP_SSN_VLR, OSMO_SCCP_SSN_MSC, 0 };
	static const struct stack_user user =
		{ "peer", PEER_POINT_CODE, REGISTER_POINT_CODE, subsystems, { MOST_UNSENT, MOST_OCTETS }, take_frame, take_notice };
	FILE *script = argc == 5 ? fopen(argv[2], "r") : NULL;
	bool is_played;

	if (!script) {
		fprintf(stderr, "peer NUMBER SCRIPT ipa|m3ua digits|point-code|subsystem|unbound\n");
		return 2;
	}
	is_played = stack_open(&user, argv[3]) && play(argv[1], argv[4], script);
	stack_close();
	fclose(script);
	return !is_played;
}
