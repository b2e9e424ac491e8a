/* SPDX-License-Identifier: Apache-2.0 */
/*
 * The register behind SCCP: register RECORDS ipa|m3ua TICKS [SENT].
 *
 * Each UNITDATA for subsystem 6 is given to the register, and what the register answers is sent. Its clock goes so many ticks a second.
 * Into the file SENT, if there is one, each frame that is to be sent is written, as the program `hlr` prints it. It runs until SIGTERM or
 * SIGINT, and then tells what came and went, and how long its ticks took. The status is 1 where something was not given or not sent.
 */
#include "dialogues.h"
#include "hlr.h"
#include "script.h"
#include "stack.h"
#include "ticks.h"
#include "way.h"

#include <signal.h>
#include <stdio.h>
#include <stdlib.h>
#include <string.h>
#include <time.h>

/* the expiries of one turn: if more timers are due, frames come and go between them, however late the clock is */
enum { MAX_TICKS_A_SECOND = 1000, WAIT_MILLISECONDS = 50, MOST_EXPIRIES = 4096 };

/* what waits at most while the STP is away: a frame for each dialogue that sixteen shards hold, of 128 octets in the mean */
enum { MOST_UNSENT = 65536, MOST_OCTETS = MOST_UNSENT * 128 };

static volatile sig_atomic_t is_ended;
static char own[KUNCHROL_MAX_DIGITS + 1];
static FILE *sent_file;
static unsigned long taken, sent, faults, returned;

/* the frame that is being handled and who it is from; null between frames */
static const struct stack_frame *handled;
static peer_name handled_name;

/*
 * Where a frame goes: an answer to the calling party address of the message that named its transaction id, as that came; an answer
 * whose id could not be read to that of the frame being handled; what begins a dialogue to a VLR with this number.
 */
static struct osmo_sccp_addr address_for(const char *to, const uint8_t *octets, size_t len)
{
	const struct osmo_sccp_addr *noted = NULL;
	struct transaction transaction;

	read_transaction(octets, len, &transaction);
	if (transaction.destination.len)
		noted = dialogue_address(to, &transaction.destination);
	if (noted)
		return *noted;
	if (transaction.destination.len && handled && !strcmp(to, handled_name))
		return *handled->calling;
	return address_of_number(to, PEER_POINT_CODE, OSMO_SCCP_SSN_VLR);
}

static void send_from_register(const char *to, const uint8_t *octets, size_t len)
{
	struct osmo_sccp_addr calling = address_of_number(own, REGISTER_POINT_CODE, OSMO_SCCP_SSN_HLR);
	struct osmo_sccp_addr called = address_for(to, octets, len);

	if (!stack_send(&(struct stack_frame){ &calling, &called, octets, len })) {
		faults++;
		return;
	}
	sent++;
	if (sent_file)
		print_frame(sent_file, to, octets, len);
}

static void tell_fault(const char *of, uint32_t code)
{
	faults++;
	fprintf(stderr, "hlr: %s: %s\n", of, kunchrol_name(code));
}

static void take_frame(const struct stack_frame *frame)
{
	struct transaction transaction;
	uint32_t code;

	taken++;
	if (!name_address(frame->calling, handled_name)) {
		faults++;
		fprintf(stderr, "hlr: a frame whose calling party address has no number of at most 16 digits and no subsystem\n");
		return;
	}
	read_transaction(frame->octets, frame->len, &transaction);
	if (transaction.originating.len)
		note_dialogue(handled_name, &transaction.originating, frame->calling);
	handled = frame;
	code = hlr_frame(handled_name, frame->octets, frame->len);
	handled = NULL;
	if (code)
		tell_fault(handled_name, code);
}

/* TCAP has no answer to a frame that came back: the timers of its invocations run out. */
static void take_notice(const struct stack_frame *frame, uint32_t cause)
{
	peer_name name;
	bool is_named = name_address(frame->calling, name);

	returned++;
	fprintf(stderr, "hlr: a frame to %s was returned, cause %u (Q.713, 3.12)\n", is_named ? name : "somebody", (unsigned)cause);
}

static void end(int number)
{
	(void)number;
	is_ended = 1;
}

static uint64_t ticks_now(unsigned long ticks_a_second)
{
	struct timespec now;

	clock_gettime(CLOCK_MONOTONIC, &now);
	return (uint64_t)now.tv_sec * ticks_a_second + (uint64_t)now.tv_nsec * ticks_a_second / 1000000000u;
}

/* Sets the clock, and gives expiries, as many as one turn may have. Whether more may be due. */
static bool tick(uint64_t now)
{
	uint32_t code;

	tick_begins();
	code = hlr_time(now);
	if (!code)
		code = hlr_expire(MOST_EXPIRIES);
	tick_has_ended();
	if (code && code != KUNCHROL_NONE)
		tell_fault("the clock", code);
	return !code;
}

static void run(unsigned long ticks_a_second)
{
	uint64_t begun = ticks_now(ticks_a_second), given = 0;
	bool is_due = false;

	while (!is_ended) {
		uint64_t now = ticks_now(ticks_a_second) - begun;

		if (now > given || is_due)
			is_due = tick(given = now);
		stack_wait(is_due ? 0 : WAIT_MILLISECONDS);
	}
}

static void tell_end(void)
{
	struct tick_time half = tick_time(50), most = tick_time(99), longest = tick_time(100);

	printf("hlr: %llu ticks, p50 %llu microseconds (%llu of the processor), p99 %llu (%llu)\n", (unsigned long long)tick_count(),
	       (unsigned long long)half.elapsed, (unsigned long long)half.processor, (unsigned long long)most.elapsed,
	       (unsigned long long)most.processor);
	printf("hlr: %lu frames taken, %lu sent, %lu lost, %lu faults, %lu returned, longest tick %llu microseconds (%llu of the processor)\n",
	       taken, sent, way_lost(), faults, returned, (unsigned long long)longest.elapsed, (unsigned long long)longest.processor);
}

/* Runs until it is ended; false if there is no way to begin. */
static bool serve(const char *protocol, unsigned long ticks_a_second)
{
	static const uint32_t subsystems[] = { OSMO_SCCP_SSN_HLR, 0 };
	static const struct stack_user user =
		{ "hlr", REGISTER_POINT_CODE, PEER_POINT_CODE, subsystems, { MOST_UNSENT, MOST_OCTETS }, take_frame, take_notice };
	bool is_open = stack_open(&user, protocol);

	if (is_open)
		run(ticks_a_second);
	else
		fprintf(stderr, "hlr: no way to the STP by %s\n", protocol);
	stack_close();
	return is_open;
}

static bool open_sent_file(const char *path)
{
	if (path && !(sent_file = fopen(path, "w")))
		perror(path);
	return !path || sent_file;
}

static void close_sent_file(const char *path)
{
	if (sent_file && (ferror(sent_file) | fclose(sent_file))) {
		fprintf(stderr, "hlr: %s cannot be written\n", path);
		faults++;
	}
}

int main(int argc, char **argv)
{
	unsigned long ticks_a_second = argc == 4 || argc == 5 ? strtoul(argv[3], NULL, 10) : 0;
	bool has_served;

	if (ticks_a_second < 1 || ticks_a_second > MAX_TICKS_A_SECOND) {
		fprintf(stderr, "register RECORDS ipa|m3ua TICKS [SENT]: 1 to 1000 ticks a second\n");
		return 2;
	}
	if (!open_sent_file(argv[4]) || !hlr_open(argv[1], send_from_register, own))
		return 2;
	signal(SIGTERM, end);
	signal(SIGINT, end);
	has_served = serve(argv[2], ticks_a_second);
	hlr_close();
	close_sent_file(argv[4]);
	tell_end();
	return !has_served ? 2 : faults || way_lost();
}
