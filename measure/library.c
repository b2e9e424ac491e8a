/*
 * What calls of the library take: library KIND RECORDS COUNT prints a line of numbers, of which measure/library makes tables: octets of the
 * records, the images and the log, and then seconds of the processor, of ticks the least of three runs. No journals are kept.
 *
 *   texts   to open, to save, to write the sixteen images, and to restore, COUNT updates being open
 *   ticks   COUNT updates being open: ten ticks when no timer is due; the one when all are; to take the frames that this one sends
 *   frames  COUNT routes; COUNT updates: Begin, result of the insert, result of the cancel. All frames are made before, and given in four ways, for
 *           each of which both are printed: what they send is copied by kunchrol_next; is looked up by a kunchrol_next that has no space to copy
 *           to, and dropped; is dropped unseen; and the same in Rattle, by the loop of library_loop.rs, if the archive has it, otherwise 0
 *   log     to replay COUNT lines in pieces of 64 KiB, after each of which the frames that they send are dropped
 */
#include "../include/kunchrol.h"
#include "../integrations/c/events.h"

enum { MAX_TEXT = 67108864, MAX_IMAGE = 8388608, MAX_LOG = 134217728, MAX_FRAMES = 16777216, PIECE = 65536 };

/* The parts of a run that are printed, and what is done between them. */
enum { PARTS = 8, BETWEEN = PARTS };

/* Subscribers are numbered from FIRST on, in the last digits of IMSI and MSISDN; the next one that is named is STRIDE further. */
enum { FIRST = 10000000, STRIDE = 7919 };

/* The timer of an update is due after so many ticks; that of a change expires in a log so many clock values later. */
enum { DUE = 20, LATE = 24 };

/* How many ticks are timed while no timer is due, and how many lines of a log are made together. */
enum { IDLE = 10, ROUND = 10 };

/* Where the digits of UPDATE's IMSI and of ROUTE's MSISDN stand, and the first of them that tells subscribers apart; the end of UPDATE's VLR. */
enum { IMSI_AT = 54, IMSI_DIGIT = 7, MSISDN_AT = 55, MSISDN_DIGIT = 4, VLR_AT = 79 };

_Noreturn void exit(int status);

/* The loop of library_loop.rs: each frame, after an octet that is its length, is given, and the octets that it sends are added. */
__attribute__((weak)) uint32_t measured_frames(struct kunchrol *hlr, const uint8_t *from, size_t from_len, const uint8_t *frames, size_t frames_len,
					       uint64_t *sent);

static struct kunchrol hlr = KUNCHROL_CLOSED_HANDLE, restored = KUNCHROL_CLOSED_HANDLE;
static uint8_t records[MAX_TEXT], image[MAX_IMAGE], log_text[MAX_LOG], frames[MAX_FRAMES];
static size_t registered, count, records_len, image_len, log_len, frames_len, sent;
static uint64_t octets_sent;
static int is_logged, is_noted;
static uint64_t fault;
static double begun, least[PARTS + 1];

static void expect(int is_so, const char *what)
{
	if (is_so)
		return;
	dprintf(STANDARD_ERROR, "library: %s\n", what);
	exit(1);
}

static void must(uint32_t code)
{
	expect(code == KUNCHROL_OK, kunchrol_name(code));
}

/* The time since the last call is that of this part, if it is less than in earlier runs. */
static void lap(size_t part)
{
	double now = seconds(PROCESSOR), taken = now - begun;

	if (least[part] == 0 || taken < least[part])
		least[part] = taken;
	begun = now;
}

/* The register, and what it is given. */

static size_t number_of(size_t turn)
{
	return FIRST + turn * STRIDE % registered;
}

static void make_records(void)
{
	records_len = (size_t)snprintf((char *)records, MAX_TEXT, "HLR2 447700900100\n");
	for (size_t number = FIRST; number < FIRST + registered; number++)
		records_len += (size_t)snprintf((char *)records + records_len, MAX_TEXT - records_len,
						"2341500%zu 4477%zu 11,21 * 447700900011,447700900001,-,s a\n", number, number);
}

static void open_register(void)
{
	must(kunchrol_open(records, records_len, 0, 0, &hlr, &fault));
}

static size_t dialogues(struct kunchrol *of)
{
	size_t sum = 0, open, entries;

	for (uint8_t shard = 0; shard < KUNCHROL_SHARDS; shard++, sum += open)
		must(kunchrol_counts(of, shard, &open, &entries));
	return sum;
}

/* Takes what waits; the ids of dialogues that begin or go on are noted. */
static void take_all(void)
{
	uint8_t to[KUNCHROL_MAX_DIGITS], octets[KUNCHROL_MAX_OCTETS];
	size_t to_len, len;
	uint32_t code;

	for (; !(code = kunchrol_next(&hlr, to, sizeof(to), &to_len, octets, sizeof(octets), &len)); sent++, octets_sent += len)
		note_ids(octets);
	expect(code == KUNCHROL_NONE, kunchrol_name(code));
}

/* Notes a frame, after an octet that is its length. */
static void note_frame(const uint8_t *frame, size_t len)
{
	expect(len < 256 && frames_len + len < MAX_FRAMES, "too many frames");
	frames[frames_len] = (uint8_t)len;
	memcpy(frames + frames_len + 1, frame, len);
	frames_len += 1 + len;
}

/* Gives the line that was made, and adds it to the log. */
static void give_line(size_t len)
{
	uint32_t code = kunchrol_line(&hlr, (const uint8_t *)line, len);

	expect(code <= KUNCHROL_NONE && log_len + len < MAX_LOG, kunchrol_name(code));
	line[len] = '\n';
	memcpy(log_text + log_len, line, len + 1);
	log_len += len + 1;
	take_all();
}

static void give(const uint8_t *frame, size_t len)
{
	if (is_logged) {
		give_line(put_frame(frame, len));
		return;
	}
	if (is_noted)
		note_frame(frame, len);
	must(kunchrol_frame(&hlr, (const uint8_t *)ASKING, strlen(ASKING), frame, len));
	take_all();
}

/* Puts the eight digits of a number, two in an octet, from this digit on. */
static void put_digits(uint8_t *digits, size_t at, size_t number)
{
	for (size_t place = at + 8; place-- > at; number /= 10) {
		size_t shift = place % 2 * 4;

		digits[place / 2] = (uint8_t)((digits[place / 2] & 0xF0 >> shift) | number % 10 << shift);
	}
}

static void route(size_t turn)
{
	uint8_t frame[sizeof(ROUTE)];

	memcpy(frame, ROUTE, sizeof(frame));
	put_digits(frame + MSISDN_AT, MSISDN_DIGIT, number_of(turn));
	give(frame, sizeof(frame));
}

/* The Begin of an update, at another VLR than the last one of this subscriber. */
static void begin_update(size_t turn)
{
	uint8_t frame[sizeof(UPDATE)];

	memcpy(frame, UPDATE, sizeof(frame));
	put_digits(frame + IMSI_AT, IMSI_DIGIT, number_of(turn));
	frame[VLR_AT] = turn / registered % 2 ? 0x31 : 0x21;
	give(frame, sizeof(frame));
}

static void update(size_t turn)
{
	uint8_t inserted[] = { 0x65, 0x13, 0x48, 4, 0, 0, 0, 0x0B, 0x49, 4, 0, 0, 0, 0, 0x6C, 5, 0xA2, 3, 2, 1, 1 };
	uint8_t cancelled[] = { 0x64, 0x0D, 0x49, 4, 0, 0, 0, 0, 0x6C, 5, 0xA2, 3, 2, 1, 1 };

	begin_update(turn);
	memcpy(inserted + 10, ids[(last_id - 1) % IDS].local, 4);
	give(inserted, sizeof(inserted));
	memcpy(cancelled + 4, ids[(last_id - 1) % IDS].local, 4);
	give(cancelled, sizeof(cancelled));
}

static void each(void (*give_one)(size_t turn))
{
	for (size_t turn = 0; turn < count; turn++)
		give_one(turn);
}

/* Ten lines: an update, four routes, a change whose result does not come, a clock value, and the expiry of an earlier change. */
static void make_lines(size_t turn)
{
	size_t late = number_of(turn < LATE ? 0 : turn - LATE);

	update(turn);
	for (size_t more = 0; more < 4; more++)
		route(turn * 4 + more);
	give_line(put_word(put_number(put_word(0, "O 2341500"), number_of(turn)), turn / registered % 2 ? " 11,21" : " 11"));
	give_line(put_number(put_word(0, "C "), turn + 1));
	give_line(put_number(put_word(0, "E "), late % 100 % KUNCHROL_SHARDS));
}

static void tick(uint64_t now)
{
	uint32_t code;

	must(kunchrol_clock(&hlr, now));
	for (uint8_t shard = 0; shard < KUNCHROL_SHARDS; shard++) {
		while (!(code = kunchrol_expire(&hlr, shard)))
			;
		expect(code == KUNCHROL_NONE, kunchrol_name(code));
	}
}

/* One run of each kind. */

/* As in a start, memory is new to the process; the register that is restored stands beside the other. */
static void time_texts(void)
{
	lap(BETWEEN);
	open_register();
	lap(0);
	each(begin_update);
	lap(BETWEEN);
	must(kunchrol_save(&hlr, records, MAX_TEXT, &records_len));
	lap(1);
	image_len = 0;
	for (size_t shard = 0, len; shard < KUNCHROL_SHARDS; shard++, image_len += len)
		must(kunchrol_image(&hlr, (uint8_t)shard, image + image_len, MAX_IMAGE - image_len, &len));
	lap(2);
	must(kunchrol_restore(records, records_len, image, image_len, 0, &restored, &fault));
	lap(3);
	expect(dialogues(&restored) == count, "a dialogue is not restored");
	kunchrol_close(&restored);
}

static void time_ticks(void)
{
	open_register();
	each(begin_update);
	lap(BETWEEN);
	for (uint64_t now = 1; now <= IDLE; now++)
		tick(now);
	lap(0);
	expect(dialogues(&hlr) == count, "an update is not open");
	lap(BETWEEN);
	tick(DUE);
	lap(1);
	take_all();
	lap(2);
	expect(dialogues(&hlr) == 0, "a timer does not expire");
}

/* The ways in which what a frame sends is taken. */

static void take_copies(void)
{
	uint8_t to[KUNCHROL_MAX_DIGITS], octets[KUNCHROL_MAX_OCTETS];
	size_t to_len, len;
	uint32_t code;

	while (!(code = kunchrol_next(&hlr, to, sizeof(to), &to_len, octets, sizeof(octets), &len)))
		octets_sent += len;
	expect(code == KUNCHROL_NONE, kunchrol_name(code));
}

static void drop_unseen(void)
{
	must(kunchrol_drop_frames(&hlr));
}

/* Of two frames that wait the first alone is looked up. */
static void look_up_and_drop(void)
{
	uint8_t to, octet;
	size_t to_len, len;
	uint32_t code = kunchrol_next(&hlr, &to, 0, &to_len, &octet, 0, &len);

	expect(code == KUNCHROL_SMALL || code == KUNCHROL_NONE, kunchrol_name(code));
	drop_unseen();
}

/* Gives the frames that were noted from here to there. */
static void give_again(const uint8_t *from, const uint8_t *to, void (*take)(void))
{
	if (!take)
		must(measured_frames(&hlr, (const uint8_t *)ASKING, strlen(ASKING), from, (size_t)(to - from), &octets_sent));
	for (; take && from < to; from += 1 + *from) {
		must(kunchrol_frame(&hlr, (const uint8_t *)ASKING, strlen(ASKING), from + 1, *from));
		take();
	}
}

/* Makes the frames of the routes, and then those of the updates; where these begin. */
static const uint8_t *make_frames(void)
{
	const uint8_t *updates;

	frames_len = sent = octets_sent = 0;
	is_noted = 1;
	open_register();
	each(route);
	updates = frames + frames_len;
	each(update);
	is_noted = 0;
	expect(sent == 4 * count && dialogues(&hlr) == 0, "a frame is not answered");
	return updates;
}

static void time_frames(void)
{
	static void (*const ways[])(void) = { take_copies, look_up_and_drop, drop_unseen, NULL };
	const uint8_t *updates = make_frames(), *end = frames + frames_len;
	uint64_t wanted = octets_sent;

	for (size_t way = 0; way < sizeof(ways) / sizeof(ways[0]) && (ways[way] || measured_frames); way++) {
		kunchrol_close(&hlr);
		open_register();
		octets_sent = 0;
		lap(BETWEEN);
		give_again(frames, updates, ways[way]);
		lap(2 * way);
		give_again(updates, end, ways[way]);
		lap(2 * way + 1);
		expect(dialogues(&hlr) == 0, "an update is not completed");
		expect(octets_sent == (ways[way] == look_up_and_drop || ways[way] == drop_unseen ? 0 : wanted), "other octets are sent");
	}
}

static void time_log(void)
{
	size_t left, used = 1;

	open_register();
	is_logged = 1;
	for (size_t turn = 0; turn < count / ROUND; turn++)
		make_lines(turn);
	left = dialogues(&hlr);
	kunchrol_close(&hlr);
	open_register();
	lap(BETWEEN);
	for (size_t at = 0; at < log_len && used; at += used) {
		must(kunchrol_replay(&hlr, log_text + at, log_len - at < PIECE ? log_len - at : PIECE, &used, &fault));
		must(kunchrol_drop_frames(&hlr));
	}
	lap(0);
	expect(dialogues(&hlr) == left, "the log is not replayed");
}

int main(int argc, char **argv)
{
	static const struct {
		const char *word;
		void (*run)(void);
		size_t runs;
	} kinds[] = { { "texts", time_texts, 1 }, { "ticks", time_ticks, 3 }, { "frames", time_frames, 1 }, { "log", time_log, 1 } };

	expect(argc == 4, "KIND RECORDS COUNT");
	registered = strtoull(argv[2], NULL, 10);
	count = strtoull(argv[3], NULL, 10);
	make_records();
	for (size_t kind = 0; kind < sizeof(kinds) / sizeof(kinds[0]); kind++)
		for (size_t run = 0; run < kinds[kind].runs && !strcmp(argv[1], kinds[kind].word); run++, kunchrol_close(&hlr))
			kinds[kind].run();
	printf("%zu %zu %zu", records_len, image_len, log_len);
	for (size_t part = 0; part < PARTS; part++)
		printf(" %.9f", least[part]);
	printf("\n");
	return 0;
}
