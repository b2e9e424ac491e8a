/* SPDX-License-Identifier: Apache-2.0 */
/*
 * A VLR that asks and never answers: load NUMBER SCRIPT SUBSCRIBERS RATE SECONDS ipa|m3ua FRAMES OCTETS UNANSWERED begins RATE updates a second
 * through the STP, of one subscriber after the other, and leaves each insertSubscriberData without an answer. NUMBER is the register's; the first
 * frame of SCRIPT is one with an updateLocation, which is sent with other ids and IMSIs: subscriber n has 234150 and n in nine digits.
 *
 * With the word `answers` after these it answers each insertSubscriberData, by the second frame of SCRIPT, and tells how long updates took, from
 * their Begin to the End that confirms them; it does not print what comes.
 *
 * Each update has one end: error 34 when the timer of its insert has expired, or, just if its shard is full, an Abort. When all have one, or nothing
 * came for a while, or at SIGTERM, it ends. FRAMES and OCTETS are what waits at most while there is no way to the STP; while there is one it begins
 * no update if half of that waits, or if more than UNANSWERED have no frame of the register. It prints what comes, as the program `hlr` prints what it
 * sends, and on standard error when the way is there, and in the end how many updates had which end.
 * The status is 1 if something else comes, or an update has no end, and 2 if it cannot begin.
 */
#define _GNU_SOURCE
#include "address.h"
#include "script.h"
#include "stack.h"
#include "transaction.h"
#include "way.h"

#include <signal.h>
#include <stdio.h>
#include <stdlib.h>
#include <string.h>
#include <time.h>

enum { WAIT_MILLISECONDS = 2, QUIET_SECONDS = 30 };
/* where an updateLocation has its transaction id, and so an answer, and where that has the register's */
enum { ID_AT = 4, OTHER_ID_AT = 10, IMSI_DIGITS = 15 };
/* how many dialogues a shard holds (docs/PROTOCOL.md) */
enum { FULL = 4096 };
enum { END = 0x64, CONTINUE = 0x65, ABORT = 0x67 };

static struct script_line update, answer;
static uint8_t *imsi_of_update;
static bool is_answering;

/* how far each update is, by its number, which is its transaction id too */
enum { UNKNOWN, BEGUN, INSERTED, ENDED };
static uint8_t *states;
static uint32_t begun, most;
static unsigned long inserts, failed, turned_away, confirmed, strange;
/* when each update began, and how long each took that was confirmed */
static double *began, *took;
static unsigned long subscribers, most_unanswered;
static const char *register_number;
/* the open dialogues of each shard: frames come in the order in which the register sent them, so what it had when it sent one is known */
static unsigned open_dialogues[KUNCHROL_SHARDS];
static double last_came;
static volatile sig_atomic_t is_ended;

static double seconds_now(void)
{
	struct timespec now;

	clock_gettime(CLOCK_MONOTONIC, &now);
	return (double)now.tv_sec + (double)now.tv_nsec / 1e9;
}

static bool has(const struct stack_frame *frame, const void *part, size_t len)
{
	return memmem(frame->octets, frame->len, part, len) != NULL;
}

/* The dialogues of the shard of an update: that of the last two digits of its IMSI. */
static unsigned *dialogues_of(uint32_t number)
{
	return &open_dialogues[number % subscribers % 100 % KUNCHROL_SHARDS];
}

/* Notes that an update is so far, if it was there just before and its shard was as it must be. */
static void note(uint32_t number, uint8_t before, uint8_t after, unsigned long *counted)
{
	unsigned *dialogues = dialogues_of(number);

	if (states[number] != before || (before == BEGUN && (*dialogues == FULL) != (after == ENDED))) {
		strange++;
		return;
	}
	states[number] = after;
	*dialogues += after == INSERTED;
	*dialogues -= before == INSERTED;
	++*counted;
}

/* Sends a frame of the script, with the number of an update as its transaction id. */
static void send_with_id(struct script_line *line, uint32_t number)
{
	struct osmo_sccp_addr calling = address_of_number(line->from, PEER_POINT_CODE, OSMO_SCCP_SSN_VLR);
	struct osmo_sccp_addr called = address_of_number(register_number, REGISTER_POINT_CODE, OSMO_SCCP_SSN_HLR);

	for (size_t octet = 0; octet < MAX_ID; octet++)
		line->octets[ID_AT + octet] = (uint8_t)(number >> 8 * (MAX_ID - 1 - octet));
	if (!stack_send(&(struct stack_frame){ &calling, &called, line->octets, line->len }))
		strange++;
}

static void take_insert(uint32_t number, const struct transaction_id *own)
{
	note(number, BEGUN, INSERTED, &inserts);
	if (is_answering && own->len == MAX_ID) {
		memcpy(answer.octets + OTHER_ID_AT, own->octets, MAX_ID);
		send_with_id(&answer, number);
	}
}

static void take_end(uint32_t number)
{
	unsigned long before = confirmed;

	note(number, INSERTED, ENDED, &confirmed);
	if (confirmed > before)
		took[before] = last_came - began[number];
}

static void take_frame(const struct stack_frame *frame)
{
	/* a ReturnError to invocation 1 with error 34, and the cause resourceLimitation (Q.773) */
	static const uint8_t system_failure[] = { 0xA3, 6, 2, 1, 1, 2, 1, 34 }, resource_limitation[] = { 0x4A, 1, 4 };
	struct transaction transaction;
	uint32_t number = 0;

	last_came = seconds_now();
	if (!is_answering)
		print_frame(stdout, frame->called->gt.digits, frame->octets, frame->len);
	read_transaction(frame->octets, frame->len, &transaction);
	for (size_t at = 0; at < transaction.destination.len; at++)
		number = number << 8 | transaction.destination.octets[at];
	if (number < begun && frame->octets[0] == CONTINUE)
		take_insert(number, &transaction.originating);
	else if (number < begun && frame->octets[0] == END && has(frame, system_failure, sizeof(system_failure)))
		note(number, INSERTED, ENDED, &failed);
	else if (number < begun && frame->octets[0] == END && is_answering)
		take_end(number);
	else if (number < begun && frame->octets[0] == ABORT && has(frame, resource_limitation, sizeof(resource_limitation)))
		note(number, BEGUN, ENDED, &turned_away);
	else
		strange++;
}

static void take_notice(const struct stack_frame *returned, uint32_t cause)
{
	(void)returned;
	strange++;
	fprintf(stderr, "load: a frame was returned, cause %u (Q.713, 3.12)\n", (unsigned)cause);
}

/* Digits as TBCD (TS 29.002): two an octet, the first in the low half, and a filler if their count is odd. */
static void put_digits(uint8_t *at, const char *digits, size_t count)
{
	for (size_t digit = 0; digit < count; digit += 2)
		*at++ = (uint8_t)((digits[digit] - '0') | (digit + 1 < count ? digits[digit + 1] - '0' : 15) << 4);
}

static void begin_update(void)
{
	char imsi[32];

	snprintf(imsi, sizeof(imsi), "234150%09lu", begun % subscribers);
	put_digits(imsi_of_update, imsi, IMSI_DIGITS);
	states[begun] = BEGUN;
	began[begun] = seconds_now();
	send_with_id(&update, begun++);
}

static const uint32_t subsystems[] = { OSMO_SCCP_SSN_VLR, 0 };
static struct stack_user user = { "peer", PEER_POINT_CODE, REGISTER_POINT_CODE, subsystems, { 0, 0 }, take_frame, take_notice };

/*
 * Whether so much waits, though there is a way, that more would soon be dropped: here, or by the register, where the STP takes less than that sends.
 */
static bool is_ahead(void)
{
	return way_is_up() && (way_waiting() > user.limits.frames / 2 || way_waiting() * update.len > user.limits.octets / 2 ||
			       begun - inserts - turned_away > most_unanswered);
}

static void end(int number)
{
	(void)number;
	is_ended = 1;
}

static unsigned long ended_updates(void)
{
	return failed + turned_away + confirmed;
}

static void play(double rate)
{
	double start;

	while (!is_ended && !way_is_up())
		stack_wait(WAIT_MILLISECONDS);
	for (start = last_came = seconds_now(); !is_ended && begun < most; stack_wait(WAIT_MILLISECONDS))
		while (begun < most && begun < (seconds_now() - start) * rate && !is_ahead())
			begin_update();
	fprintf(stderr, "load: %u begun in %.1f seconds\n", (unsigned)begun, seconds_now() - start);
	while (!is_ended && ended_updates() < begun && seconds_now() - last_came < QUIET_SECONDS)
		stack_wait(WAIT_MILLISECONDS);
}

/* Reads the next frame of a script; false if there is none. */
static bool read_next_frame(FILE *script, struct script_line *line)
{
	char *text = NULL;
	size_t size = 0;
	bool is_read = false;

	line->kind = BATCH_END;
	while (line->kind != FRAME_LINE && (is_read = getline(&text, &size, script) > 0)) {
		text[strcspn(text, "\n")] = 0;
		is_read = read_line(text, line);
	}
	free(text);
	return is_read;
}

/* Reads the update of a script, and finds the IMSI in it; and what answers its insert, in which the register's id may be any. */
static bool has_frames(const char *path)
{
	static const uint8_t front[] = { 4, 8, 0x32, 0x14, 0x05 }, any[] = { 0x65, 6, 0x48, MAX_ID, 0, 0, 0, 0 };
	FILE *script = fopen(path, "r");
	bool is_read;

	note_letter(any, sizeof(any));
	is_read = script && read_next_frame(script, &update) && read_next_frame(script, &answer);
	imsi_of_update = is_read ? memmem(update.octets, update.len, front, sizeof(front)) : NULL;
	if (script)
		fclose(script);
	if (!imsi_of_update)
		return false;
	imsi_of_update += 2;
	return true;
}

static int compare_seconds(const void *one, const void *other)
{
	double difference = *(const double *)one - *(const double *)other;

	return (difference > 0) - (difference < 0);
}

static void tell_seconds(void)
{
	if (!confirmed)
		return;
	qsort(took, confirmed, sizeof(*took), compare_seconds);
	fprintf(stderr, "load: %lu confirmed, p50 %.1f milliseconds, p99 %.1f, longest %.1f\n", confirmed, 1000 * took[confirmed / 2],
		1000 * took[confirmed * 99 / 100], 1000 * took[confirmed - 1]);
}

int main(int argc, char **argv)
{
	bool is_called_so = argc == 10 || (is_answering = argc == 11 && !strcmp(argv[10], "answers"));
	double rate = is_called_so ? atof(argv[4]) : 0;

	subscribers = is_called_so ? strtoul(argv[3], NULL, 10) : 0;
	most = is_called_so ? (uint32_t)(rate * atof(argv[5])) : 0;
	states = calloc(most + 1, 1);
	began = calloc(most + 1, sizeof(*began));
	took = calloc(most + 1, sizeof(*took));
	if (!subscribers || !most || !states || !began || !took || !has_frames(argv[2])) {
		fprintf(stderr, "load NUMBER SCRIPT SUBSCRIBERS RATE SECONDS ipa|m3ua FRAMES OCTETS UNANSWERED [answers]\n");
		return 2;
	}
	register_number = argv[1];
	signal(SIGTERM, end);
	user.limits = (struct stack_limits){ strtoul(argv[7], NULL, 10), strtoul(argv[8], NULL, 10) };
	most_unanswered = strtoul(argv[9], NULL, 10);
	if (!stack_open(&user, argv[6]))
		return 2;
	play(rate);
	stack_close();
	tell_seconds();
	free(states);
	free(began);
	free(took);
	fprintf(stderr, "load: %u begun, %lu inserts, %lu ended by error 34, %lu turned away, %lu without an end, %lu not sent, %lu strange\n",
		(unsigned)begun, inserts, failed, turned_away, begun - ended_updates(), way_lost(), strange);
	if (fflush(stdout) || ferror(stdout)) {
		fprintf(stderr, "load: standard output cannot be written\n");
		strange++;
	}
	return strange || ended_updates() != begun;
}
