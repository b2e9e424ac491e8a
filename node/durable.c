/* SPDX-License-Identifier: Apache-2.0 */
#define _DEFAULT_SOURCE /* getrandom, gethostname */
#include "durable.h"

#include <stdio.h>
#include <string.h>
#include <sys/random.h>
#include <time.h>
#include <unistd.h>

enum { MAX_HEAD = 160 };

static const struct durable CLOSED = { .hlr = KUNCHROL_CLOSED_HANDLE, .answer = STORE_NONE };

/* How long an answer of the store may take and still say something of the one who leads. */
enum { PROMPT_MILLISECONDS = 1000 };

/* What the first line of the row of one who leaves ends in. */
static const char LEAVES[] = " leaves\n";

static struct timespec now(void)
{
	struct timespec time = { 0, 0 };

	clock_gettime(CLOCK_MONOTONIC, &time);
	return time;
}

static long long milliseconds_since(struct timespec then)
{
	struct timespec time = now();

	return (long long)(time.tv_sec - then.tv_sec) * 1000 + (time.tv_nsec - then.tv_nsec) / 1000000;
}

/* ---- opening */

static unsigned long long lines_in(const uint8_t *text, size_t len)
{
	unsigned long long count = 0;

	for (size_t at = 0; at < len; at++)
		count += text[at] == '\n';
	return count;
}

/* The register of an image, before which the notes of its dialogues stand. */
static bool restore(void *context, const struct store_image *image)
{
	struct durable *it = context;
	size_t notes = 0, octets;
	uint64_t line = 0;
	uint32_t code;

	while ((octets = notes_take(it->notes, image->image + notes, image->image_len - notes)))
		notes += octets;
	kunchrol_close(&it->hlr); /* of a read that began anew */
	if (image->seq)
		code = kunchrol_restore(image->records, image->records_len, image->image + notes, image->image_len - notes, 0, &it->hlr, &line);
	else
		code = kunchrol_open(image->records, image->records_len, 0, it->store->start, &it->hlr, &line);
	if (code == KUNCHROL_IMAGE_LINE)
		line += lines_in(image->image, notes);
	it->from = image->seq;
	it->next = code ? 0 : image->seq + 1;
	if (code)
		store_tell("durable: image %llu: line %llu: %s\n", (unsigned long long)it->from, (unsigned long long)line, kunchrol_name(code));
	return !code;
}

/* The octets of a row's first line, or 0 if the row is not whole. */
static size_t head_len(const uint8_t *row, size_t len)
{
	char head[MAX_HEAD + 1] = { 0 };
	const uint8_t *end = memchr(row, '\n', len < MAX_HEAD ? len : MAX_HEAD);
	size_t octets = 0, count = end ? (size_t)(end - row) + 1 : 0;

	memcpy(head, row, count);
	return sscanf(head, "# epoch %*u %*s %zu\n", &octets) == 1 && count + octets == len ? count : 0;
}

static void tell_missing(uint64_t row)
{
	store_tell("durable: row %llu is missing\n", (unsigned long long)row);
}

/* Gives the lines of a row, up to one that is not done, and stores the octets that were done. */
static uint32_t replay_lines(struct durable *it, const uint8_t *lines, size_t len, size_t *done)
{
	uint32_t code = KUNCHROL_OK;
	uint64_t line;
	size_t octets = 1;

	for (*done = 0; *done < len && octets && !code; *done += octets) {
		const uint8_t *at = lines + *done;

		octets = 0;
		if (*at == '#')
			octets = notes_take(it->notes, at, len - *done);
		else
			code = kunchrol_replay(&it->hlr, at, notes_front(at, len - *done), &octets, &line);
	}
	return code;
}

/* The events of a row. What they send was sent, or lost. */
static bool replay(void *context, uint64_t seq, const uint8_t *lines, size_t len)
{
	struct durable *it = context;
	size_t head = head_len(lines, len), used = 0;
	uint32_t code = KUNCHROL_OK;
	bool is_next = seq == it->next;

	it->is_behind = seq > it->next;
	if (is_next && head && !(code = replay_lines(it, lines + head, len - head, &used)) && used == len - head &&
	    !(code = kunchrol_drop_frames(&it->hlr))) {
		it->next++;
		it->is_left = head > sizeof(LEAVES) && !memcmp(lines + head - strlen(LEAVES), LEAVES, strlen(LEAVES));
		return true;
	}
	if (!is_next)
		tell_missing(it->next);
	else if (code)
		store_tell("durable: row %llu: line %llu: %s\n", (unsigned long long)seq, lines_in(lines, head + used) + 1, kunchrol_name(code));
	else
		store_tell("durable: row %llu is not whole\n", (unsigned long long)seq);
	return false;
}

/* Of the newest image that can be restored. */
static enum store_answer open_newest(struct durable *it)
{
	const struct store_reader reader = { restore, replay, it };
	enum store_answer answer = it->store->read(it->store, INT64_MAX, &reader);
	uint64_t newest = it->from;

	while (answer == STORE_STOPPED && !it->next && it->from) {
		answer = it->store->read(it->store, it->from - 1, &reader);
		if (answer == STORE_NONE)
			return STORE_STOPPED;
	}
	if (answer || it->next > newest)
		return answer;
	tell_missing(it->next);
	return STORE_STOPPED;
}

enum store_answer durable_open(struct durable *it, struct store *store)
{
	*it = CLOSED;
	it->store = store;
	it->notes = notes_begin();
	it->answer = it->notes ? open_newest(it) : STORE_REFUSED;
	it->heard_at = now();
	if (!it->answer && !(it->caller = caller_begin(store))) {
		store_tell("durable: no thread\n");
		it->answer = STORE_REFUSED;
	}
	if (it->answer) {
		kunchrol_close(&it->hlr);
		notes_end(it->notes);
		it->notes = NULL;
	}
	return it->answer;
}

enum store_answer durable_begin(struct store *store, const uint8_t *records, size_t len)
{
	const struct store_image image = { .seq = 0, .records = records, .records_len = len };
	struct kunchrol hlr = KUNCHROL_CLOSED_HANDLE;
	uint64_t line = 0;
	uint32_t code = kunchrol_open(records, len, 0, store->start, &hlr, &line);

	kunchrol_close(&hlr);
	if (!code)
		return store->put_image(store, &image, 0);
	store_tell("durable: records: line %llu: %s\n", (unsigned long long)line, kunchrol_name(code));
	return STORE_STOPPED;
}

/* ---- events */

/* What the rows of this process begin with: the machine and the process, for whoever reads it, and what no other process has. */
static void name_rows(struct durable *it)
{
	struct timespec now = { 0, 0 };
	char machine[24] = "";
	uint64_t own = 0;

	clock_gettime(CLOCK_REALTIME, &now);
	if (getrandom(&own, sizeof(own), 0) != sizeof(own))
		own = (uint64_t)now.tv_nsec;
	gethostname(machine, sizeof(machine) - 1);
	snprintf(it->name, sizeof(it->name), "%llu %s.%ld.%lld.%016llx", (unsigned long long)it->next, machine, (long)getpid(),
		 (long long)now.tv_sec, (unsigned long long)own);
}

/* The first line of a row, which always has one length. */
static size_t put_head(struct durable *it, uint8_t *at, size_t octets, const char *end)
{
	char head[MAX_HEAD];
	int len = snprintf(head, sizeof(head), "# epoch %s %010zu%s", it->name, octets, end);

	memcpy(at, head, (size_t)len);
	return (size_t)len;
}

/* Adds a line without its line feed to the group, for which there is space. */
static void add_line(struct durable *it, const void *line, size_t len)
{
	if (!it->lines.len)
		it->lines.len = put_head(it, it->lines.at, 0, "\n");
	text_add(&it->lines, line, len);
	text_add(&it->lines, "\n", 1);
}

/* OK if a line of this length can be added to the group. */
static uint32_t code_of_space(struct durable *it, size_t len)
{
	return !it->leads ? KUNCHROL_CLOSED : text_has_space(&it->lines, MAX_HEAD + len + 1) ? KUNCHROL_OK : KUNCHROL_MEMORY;
}

uint32_t durable_line(struct durable *it, const uint8_t *line, size_t len)
{
	uint32_t code = code_of_space(it, len);

	if (!code)
		code = kunchrol_line(&it->hlr, line, len);
	if (!code)
		add_line(it, line, len);
	return code;
}

uint32_t durable_note(struct durable *it, const struct note *note)
{
	char line[NOTE_LINE + 1];
	const size_t len = note_write(line, note);
	uint32_t code = code_of_space(it, len);

	if (code)
		return code;
	notes_keep(it->notes, note);
	add_line(it, line, len - 1);
	return KUNCHROL_OK;
}

const char *durable_noted(const struct durable *it, const char *digits, const char *id)
{
	return it->notes ? notes_find(it->notes, digits, id) : NULL;
}

/* ---- jobs */

/* Takes what the events of the group sent, to hold it back. */
static bool has_taken_frames(struct durable *it)
{
	const size_t front = offsetof(struct durable_frame, octets);
	struct durable_frame frame;

	text_drop(&it->frames, it->taken); /* those that went out */
	it->free -= it->taken;
	it->taken = 0;
	while (text_has_space(&it->frames, sizeof(frame))) {
		uint32_t code = kunchrol_next(&it->hlr, frame.to, sizeof(frame.to), &frame.to_len, frame.octets, sizeof(frame.octets), &frame.len);

		if (code)
			return code == KUNCHROL_NONE;
		text_add(&it->frames, &frame, front + frame.len);
	}
	return false;
}

/* Makes the row of the group, for the thread, and begins another group. */
static bool has_row_of_group(struct durable *it)
{
	struct text row = it->lines;

	it->lines = it->row;
	it->lines.len = 0;
	it->row = row;
	put_head(it, row.at, row.len - put_head(it, row.at, 0, "\n"), "\n");
	return has_taken_frames(it);
}

/* Makes a row without events. */
static bool has_row_without_events(struct durable *it, const char *end)
{
	it->row.len = 0;
	if (!text_has_space(&it->row, MAX_HEAD))
		return false;
	it->row.len = put_head(it, it->row.at, 0, end);
	return true;
}

static bool has_row(struct durable *it)
{
	if (it->job == DURABLE_COMMIT)
		return has_row_of_group(it);
	if (it->job == DURABLE_LEAD)
		name_rows(it);
	return has_row_without_events(it, it->job == DURABLE_LEAD ? "\n" : LEAVES);
}

static bool is_for_its_role(const struct durable *it, enum durable_job job)
{
	if (job == DURABLE_COMMIT || job == DURABLE_LEAVE)
		return it->leads && (job == DURABLE_COMMIT) == (it->lines.len > 0);
	return job && !it->leads;
}

bool durable_start(struct durable *it, enum durable_job job)
{
	if (it->answer || it->job || !is_for_its_role(it, job))
		return false;
	it->job = job;
	it->asked_at = now();
	if (job == DURABLE_FOLLOW) {
		caller_read(it->caller, it->next - 1);
	} else if (has_row(it)) {
		caller_append(it->caller, it->next, it->row.at, it->row.len);
	} else {
		store_tell("durable: row %llu: %s\n", (unsigned long long)it->next, kunchrol_name(KUNCHROL_MEMORY));
		caller_append(it->caller, it->next, NULL, 0);
	}
	return true;
}

int durable_fd(const struct durable *it)
{
	return caller_fd(it->caller);
}

/* Closes the register, and drops what was held back. */
static void close_by(struct durable *it, enum store_answer answer)
{
	it->answer = answer;
	it->leads = false;
	it->frames.len = it->free;
	kunchrol_close(&it->hlr);
}

/* A row was appended. */
static void go_on(struct durable *it, enum durable_job job)
{
	it->next++;
	it->free = it->frames.len;
	it->leads = job != DURABLE_LEAVE;
	it->is_left = false;
	it->heard_at = now();
}

/* Replays what was read. A row that comes too early is no damage: those before it are in an image by now. */
static enum store_answer replay_read(struct durable *it)
{
	const struct store_reader reader = { NULL, replay, it };
	const uint64_t before = it->next;
	enum store_answer answer = caller_rows(it->caller, &reader) ? STORE_DURABLE : it->is_behind ? STORE_TAKEN : STORE_STOPPED;

	it->found = it->next - before;
	if (it->found || milliseconds_since(it->asked_at) > PROMPT_MILLISECONDS)
		it->heard_at = now();
	return answer;
}

enum store_answer durable_finish(struct durable *it)
{
	const enum durable_job job = it->job;
	enum store_answer answer;

	if (!job)
		return it->answer;
	answer = caller_answer(it->caller);
	it->job = DURABLE_NOTHING;
	if (job == DURABLE_FOLLOW && !answer)
		answer = replay_read(it);
	else if (!answer)
		go_on(it, job);
	if (answer == STORE_TAKEN && (job == DURABLE_LEAD || job == DURABLE_LEAVE)) {
		it->leads = it->is_left = false;
		it->heard_at = now();
	} else if (answer && !(answer == STORE_REFUSED && (job == DURABLE_LEAD || job == DURABLE_FOLLOW))) {
		close_by(it, answer);
	}
	return answer;
}

bool durable_may_lead(const struct durable *it, unsigned milliseconds)
{
	return it->is_left || milliseconds_since(it->heard_at) >= milliseconds;
}

bool durable_next(struct durable *it, struct durable_frame *frame)
{
	const size_t front = offsetof(struct durable_frame, octets);

	if (it->taken == it->free)
		return false;
	memcpy(frame, it->frames.at + it->taken, front);
	memcpy(frame->octets, it->frames.at + it->taken + front, frame->len);
	it->taken += front + frame->len;
	return true;
}

/* ---- what it has */

static uint32_t write_notes(struct durable *it, uint8_t shard, struct text *text)
{
	struct text image = { NULL, 0, 0 };
	uint32_t code = durable_write(it, DURABLE_IMAGE, shard, &image);
	struct note note;

	for (size_t at = 0, end; !code && at < image.len; at = end) {
		end = (size_t)((uint8_t *)memchr(image.at + at, '\n', image.len - at) - image.at) + 1;
		if (!notes_of_image_line(it->notes, image.at + at, end - at, &note))
			continue;
		if (text_has_space(text, NOTE_LINE + 1))
			text->len += note_write((char *)text->at + text->len, &note);
		else
			code = KUNCHROL_MEMORY;
	}
	text_free(&image);
	return code;
}

uint32_t durable_write(struct durable *it, enum durable_part part, uint8_t shard, struct text *text)
{
	size_t len = 1;
	uint32_t code = KUNCHROL_SMALL;

	if (part == DURABLE_NOTES)
		return write_notes(it, shard, text);
	while (code == KUNCHROL_SMALL && text_has_space(text, len)) {
		uint8_t *at = text->at + text->len;
		size_t size = text->size - text->len;

		if (part == DURABLE_RECORDS)
			code = kunchrol_save(&it->hlr, at, size, &len);
		else if (part == DURABLE_IMAGE)
			code = kunchrol_image(&it->hlr, shard, at, size, &len);
		else
			code = kunchrol_dialogues(&it->hlr, shard, at, size, &len);
	}
	text->len += code ? 0 : len;
	return code == KUNCHROL_SMALL ? KUNCHROL_MEMORY : code;
}

enum store_answer durable_put_image(struct durable *it)
{
	struct text records = { NULL, 0, 0 }, image = { NULL, 0, 0 };
	enum store_answer answer = STORE_REFUSED;
	uint32_t code = durable_write(it, DURABLE_RECORDS, 0, &records);

	for (uint8_t shard = 0; shard < KUNCHROL_SHARDS && !code; shard++)
		code = durable_write(it, DURABLE_NOTES, shard, &image);
	for (uint8_t shard = 0; shard < KUNCHROL_SHARDS && !code; shard++)
		code = durable_write(it, DURABLE_IMAGE, shard, &image);
	if (code)
		store_tell("durable: image %llu: %s\n", (unsigned long long)it->next - 1, kunchrol_name(code));
	else
		answer = it->store->put_image(it->store, &(struct store_image){ it->next - 1, records.at, image.at, records.len, image.len }, it->from);
	text_free(&records);
	text_free(&image);
	return answer;
}

void durable_close(struct durable *it)
{
	durable_finish(it);
	if (it->caller)
		caller_end(it->caller);
	kunchrol_close(&it->hlr);
	notes_end(it->notes);
	text_free(&it->lines);
	text_free(&it->row);
	text_free(&it->frames);
	*it = CLOSED;
}
