/* SPDX-License-Identifier: Apache-2.0 */
#include "service.h"
#include "../status.h"
#include "control.h"
#include "daemon.h"
#include "signalling.h"

#include <inttypes.h>
#include <osmocom/core/select.h>
#include <osmocom/core/timer.h>
#include <stdio.h>
#include <string.h>

/* How often one who follows looks for rows, and how much may wait for the store: then frames are dropped. */
enum { PACE_MICROSECONDS = 50000, MAX_WAITING = 16 << 20, MAX_RECORDS = 1 << 30, FRONT = 64 };

static struct store *store;
static struct durable it;
static struct osmo_fd answer_fd = { .fd = -1 };
static struct osmo_timer_list tick_timer, rest_timer;
static bool rests, is_ending, is_leaving, is_over;
static int status;

/* As the settings were at the start: seconds of one of a pair, and ticks a second. */
static unsigned patience, ticks_a_second;
static char number[KUNCHROL_MAX_DIGITS + 1];

/* The clock of the register: its value when this process began to lead, at this time, and the value given last. */
static uint64_t clock_then, clock_given;
static struct timespec led_at;

static struct timespec now(void)
{
	struct timespec time = { 0, 0 };

	clock_gettime(CLOCK_MONOTONIC, &time);
	return time;
}

static int64_t microseconds_since(struct timespec then)
{
	struct timespec time = now();

	return (int64_t)(time.tv_sec - then.tv_sec) * 1000000 + (time.tv_nsec - then.tv_nsec) / 1000;
}

static void end_with(int with)
{
	status = with;
	is_over = true;
}

/* ---- opening */

static int open_status(enum store_answer answer)
{
	return answer ? END_STORE + (int)answer : END_WELL;
}

/* Puts the records of the settings into a store that has no register, if no other process does so first. */
static int begin_records(void)
{
	FILE *file = fopen(settings.records, "rb");
	struct text text = { NULL, 0, 0 };
	int code = END_WORDS;

	while (file && !feof(file) && !ferror(file) && text.len < MAX_RECORDS && text_has_space(&text, 1 << 16))
		text.len += fread(text.at + text.len, 1, 1 << 16, file);
	if (file && feof(file)) {
		enum store_answer answer = durable_begin(store, text.at, text.len);

		code = answer == STORE_TAKEN ? END_WELL : open_status(answer);
	} else {
		LOGP(DKUNCHROL, LOGL_FATAL, "the records %s cannot be read\n", settings.records);
	}
	text_free(&text);
	if (file)
		fclose(file);
	return code;
}

static int take_answer(struct osmo_fd *fd, unsigned what);

/* The first octets of what the register writes, as a text. */
static uint32_t read_front(enum durable_part part, char front[FRONT])
{
	struct text text = { NULL, 0, 0 };
	uint32_t code = durable_write(&it, part, 0, &text);

	snprintf(front, FRONT, "%.*s", (int)(text.len < FRONT ? text.len : FRONT - 1), code ? "" : (const char *)text.at);
	text_free(&text);
	return code;
}

static void read_number(void)
{
	char front[FRONT];

	if (read_front(DURABLE_RECORDS, front) || sscanf(front, "HLR%*1[12] %16[0-9]", number) != 1)
		number[0] = 0;
}

static int open_register(void)
{
	enum store_answer answer = durable_open(&it, store);

	if (answer == STORE_NONE && settings.records) {
		int code = begin_records();

		if (code)
			return code;
		answer = durable_open(&it, store);
	}
	if (answer)
		return open_status(answer);
	read_number();
	osmo_fd_setup(&answer_fd, durable_fd(&it), OSMO_FD_READ, take_answer, NULL, 0);
	osmo_fd_register(&answer_fd);
	rests = false;
	LOGP(DKUNCHROL, LOGL_NOTICE, "the register %s is open, row %" PRIu64 "\n", number, service_last_row());
	return END_WELL;
}

static void close_register(void)
{
	if (answer_fd.fd >= 0)
		osmo_fd_unregister(&answer_fd);
	answer_fd.fd = -1;
	durable_close(&it);
}

/* ---- the clock */

static bool is_taking(void)
{
	return it.leads && !is_ending && !is_leaving;
}

/* The clock goes on from the value that the register has, which a line of its image tells (docs/PROTOCOL.md). All shards have the same. */
static uint32_t read_clock(void)
{
	char front[FRONT];
	uint32_t code = read_front(DURABLE_IMAGE, front);

	if (!code && sscanf(front, "S1 0 %" SCNu64, &clock_then) != 1)
		code = KUNCHROL_ARGUMENT;
	clock_given = clock_then;
	led_at = now();
	return code;
}

static uint64_t ticks_now(void)
{
	return clock_then + (uint64_t)microseconds_since(led_at) * ticks_a_second / 1000000;
}

static void tell_refused(const char *line, uint32_t code)
{
	if (count_and_tell(EVENTS_REFUSED))
		LOGP(DKUNCHROL, LOGL_ERROR, "%.40s: %s\n", line, kunchrol_name(code));
}

static uint32_t give(const char *line, size_t len)
{
	uint32_t code = durable_line(&it, (const uint8_t *)line, len);

	if (code && code != KUNCHROL_NONE)
		tell_refused(line, code);
	return code;
}

static void set_clock(uint64_t ticks)
{
	char line[32];

	if (ticks > clock_given && !give(line, (size_t)snprintf(line, sizeof(line), "C %" PRIu64, ticks)))
		clock_given = ticks;
}

static void expire(void)
{
	char line[8];

	for (unsigned shard = 0; shard < KUNCHROL_SHARDS; shard++)
		while (!give(line, (size_t)snprintf(line, sizeof(line), "E %u", shard)))
			;
}

/* Before the time of the first timer a clock value does nothing, but for one of a pair it is the sign of life. */
static void on_tick(void *data)
{
	const uint64_t ticks = ticks_now();
	uint64_t when;

	(void)data;
	osmo_timer_schedule(&tick_timer, ticks_a_second == 1, ticks_a_second == 1 ? 0 : (int)(1000000 / ticks_a_second));
	if (!is_taking())
		return;
	if (patience)
		set_clock(ticks);
	if (!kunchrol_deadline(&it.hlr, &when) && when <= ticks) {
		set_clock(ticks);
		expire();
	}
}

/* ---- answers of the store */

static void begin_to_lead(void)
{
	uint32_t code = read_clock();

	if (code) {
		LOGP(DKUNCHROL, LOGL_FATAL, "the clock: %s\n", kunchrol_name(code));
		end_with(END_STOPPED);
		return;
	}
	count(LEADS);
	LOGP(DKUNCHROL, LOGL_NOTICE, "leads, row %" PRIu64 "\n", service_last_row());
}

static void begin_to_follow(void)
{
	is_leaving = false;
	count(FOLLOWS);
	LOGP(DKUNCHROL, LOGL_NOTICE, "follows, row %" PRIu64 "\n", service_last_row());
}

/*
 * Another process was faster. One of a pair goes on from what is in the store, if its register has events that the store has not. So does one that is
 * alone and does not lead yet: what came may be the last row of a process that was killed, which a server had still to do.
 */
static void yield_to_other(enum durable_job job)
{
	control_answer(0);
	if (!patience && job != DURABLE_LEAD) {
		LOGP(DKUNCHROL, LOGL_FATAL, "taken: another process has written to the store\n");
		end_with(END_TAKEN);
		return;
	}
	if (!patience || it.answer) {
		close_register();
		status = open_register();
		is_over = status;
	}
	if (!is_over && patience)
		begin_to_follow();
}

static void job_is_done(enum durable_job job)
{
	if (job == DURABLE_COMMIT) {
		count(ROWS);
		control_answer(service_last_row());
	} else if (job == DURABLE_LEAD) {
		begin_to_lead();
	} else if (job == DURABLE_LEAVE) {
		LOGP(DKUNCHROL, LOGL_NOTICE, "leaves, row %" PRIu64 "\n", service_last_row());
		begin_to_follow();
	}
}

static void on_rested(void *data)
{
	(void)data;
	rests = false;
}

static int take_answer(struct osmo_fd *fd, unsigned what)
{
	const enum durable_job job = it.job;
	const enum store_answer answer = durable_finish(&it);

	(void)fd;
	(void)what;
	signalling_send();
	if (answer == STORE_TAKEN) {
		yield_to_other(job);
	} else if (answer) {
		LOGP(DKUNCHROL, LOGL_FATAL, "%s\n", answer == STORE_REFUSED ? "refused by the store" : "the register cannot go on");
		control_answer(0);
		end_with(END_STORE + (int)answer);
	} else {
		job_is_done(job);
	}
	rests = job == DURABLE_FOLLOW && !it.found;
	if (rests)
		osmo_timer_schedule(&rest_timer, 0, PACE_MICROSECONDS);
	return 0;
}

/* ---- events */

uint32_t service_give(const char *line, size_t len)
{
	return is_taking() ? durable_line(&it, (const uint8_t *)line, len) : KUNCHROL_CLOSED;
}

void service_take_frame(const struct note *note, const char *line, size_t len)
{
	uint32_t code;

	if (!is_taking()) {
		if (count_and_tell(FRAMES_NOT_LEADING))
			LOGP(DSCCP, LOGL_NOTICE, "frames are dropped: this process does not lead\n");
		return;
	}
	if (it.lines.len > MAX_WAITING) {
		if (count_and_tell(FRAMES_NO_ROOM))
			LOGP(DSTORE, LOGL_ERROR, "frames are dropped: %zu octets wait for the store, its job for %llu milliseconds\n", it.lines.len,
			     service_waits());
		return;
	}
	set_clock(ticks_now());
	code = note ? durable_note(&it, note) : KUNCHROL_OK;
	if (!code)
		code = durable_line(&it, (const uint8_t *)line, len);
	if (code)
		tell_refused("a frame", code);
	else
		count(FRAMES_TAKEN);
}

uint64_t service_row(void)
{
	return it.next + (it.job == DURABLE_COMMIT && it.lines.len);
}

bool service_is_paired(void)
{
	return patience;
}

bool service_leave(void)
{
	is_leaving = patience && it.leads;
	return is_leaving;
}

/* ---- turns */

/* A process that leads commits what has gathered, and then leaves or ends if it is to. */
static void go_on(void)
{
	if (durable_start(&it, DURABLE_COMMIT) || it.job || it.lines.len)
		return;
	if (patience && (is_ending || is_leaving))
		durable_start(&it, DURABLE_LEAVE);
	else if (is_ending)
		end_with(END_WELL);
}

void service_turn(void)
{
	if (is_over)
		return;
	if (it.leads)
		go_on();
	else if (is_ending && !it.job)
		end_with(END_WELL);
	else if (!rests)
		durable_start(&it, durable_may_lead(&it, 1000 * patience) ? DURABLE_LEAD : DURABLE_FOLLOW);
}

int service_begin(void)
{
	int code = END_STORE;

	patience = settings.patience;
	ticks_a_second = settings.ticks;
	store = store_open(settings.store, settings.records);
	if (store)
		code = open_register();
	if (code)
		return code;
	if (patience)
		begin_to_follow();
	while (!patience && !is_over && !it.leads) { /* before there is a way to the peers, who would write to nobody */
		durable_start(&it, DURABLE_LEAD);
		take_answer(&answer_fd, OSMO_FD_READ);
	}
	osmo_timer_setup(&rest_timer, on_rested, NULL);
	osmo_timer_setup(&tick_timer, on_tick, NULL);
	osmo_timer_schedule(&tick_timer, 0, 0);
	return status;
}

void service_end(void)
{
	LOGP(DKUNCHROL, LOGL_NOTICE, "ends in order\n");
	is_ending = true;
}

bool service_is_over(void)
{
	return is_over;
}

int service_status(void)
{
	return status;
}

void service_close(void)
{
	osmo_timer_del(&tick_timer);
	osmo_timer_del(&rest_timer);
	close_register();
	if (store)
		store->close(store);
}

struct durable *service_register(void)
{
	return &it;
}

uint64_t service_last_row(void)
{
	return it.next - 1;
}

const char *service_number(void)
{
	return number;
}

unsigned long long service_waits(void)
{
	return it.job ? (unsigned long long)microseconds_since(it.asked_at) / 1000 : 0;
}
