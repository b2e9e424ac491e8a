/* SPDX-License-Identifier: Apache-2.0 */
/*
 * Whom the last event was about: subjects [--again] checks kunchrol_subject after each kind of event and of refusal. With --again a call that
 * returns MEMORY leaves the subject as it was, and is made once more.
 *
 * subjects EVENTS keeps the records in rows of its own, as a program with a database does: after each event the row of its subject is the line
 * of kunchrol_record. After each event the rows have to be the records that kunchrol_save writes, and the subject the one that the entry in the
 * event's journal has; and in the end the rows open as a register with the same records. It prints how many events had a subject, and
 * how many changed a row.
 *
 * What does not hold is reported with its line on standard error, and the status is then 1.
 */
#include "answers.h"
#include "events.h"

enum { MAX_FILE = 16384, MAX_IMSI = 15, FIRST_COLUMN = 13 };

/* a subscriber with the shortest IMSI that there is, and one without a record */
static const char SHORT[] = "23415", NOBODY[] = "234150000000009";
static const char WITH_SHORT[] = "HLR1 447700900100\n"
				 "234150000000001 447700900000 11,21 * 447700900011,447700900001,-,s\n"
				 "23415 447700900202 11 * -\n";

/* The results of an insert and of a cancel, in the dialogues of a register that is start 0; the Ends and the Abort have no portions. */
static const uint8_t INSERTED[] = { 0x65, 0x13, 0x48, 4, 0, 0, 0, 11, 0x49, 4, 1, 0, 0x10, 0, 0x6C, 5, 0xA2, 3, 2, 1, 1 };
static const uint8_t CANCELLED[] = { 0x64, 0x0D, 0x49, 4, 1, 0, 0x20, 0, 0x6C, 5, 0xA2, 3, 2, 1, 1 };
static const uint8_t ENDED[] = { 0x64, 0x06, 0x49, 4, 1, 0, 0x10, 0 }, ABORTED[] = { 0x67, 0x06, 0x49, 4, 1, 0, 0x10, 0 };

static char rows[MANY][KUNCHROL_MAX_LINE + 1], saved[MAX_FILE], composed[MAX_FILE];
static uint8_t listing[MAX_FILE];

/* the call answers this, and then this is the subject; where memory was refused it is still the one before */
#define AFTER(wanted, subject, call) \
	do { \
		char before[KUNCHROL_MAX_DIGITS + 1]; \
		uint32_t answered; \
		note_subject(before); \
		answered = (call); \
		if (answered == KUNCHROL_MEMORY && is_made_again) { \
			HOLDS(is_subject(*before ? before : NULL)); \
			answered = (call); \
		} \
		HOLDS(answered == (wanted)); \
		HOLDS(is_subject(subject)); \
	} while (0)

static void note_subject(char *imsi)
{
	size_t count = 0;

	if (kunchrol_subject(&hlr, (uint8_t *)imsi, KUNCHROL_MAX_DIGITS, &count))
		count = 0;
	imsi[count] = 0;
}

static uint32_t give(const uint8_t *frame, size_t frame_len)
{
	return kunchrol_frame(&hlr, TEXT(ASKING), frame, frame_len);
}

/* An update of another subscriber, by the last digit. */
static uint32_t give_update_of(uint8_t digit)
{
	uint8_t frame[sizeof(UPDATE)];

	memcpy(frame, UPDATE, sizeof(frame));
	frame[61] = (uint8_t)(0xF0 + digit);
	return give(frame, sizeof(frame));
}

/* A route to another number, by its last two digits. */
static uint32_t give_route_to(uint8_t digits)
{
	uint8_t frame[sizeof(ROUTE)];

	memcpy(frame, ROUTE, sizeof(frame));
	frame[60] = digits;
	return give(frame, sizeof(frame));
}

static void open_with(const char *records)
{
	uint64_t fault = FILL;

	kunchrol_close(&hlr);
	ANSWERS(KUNCHROL_OK, kunchrol_open(TEXT(records), 0, 0, &hlr, &fault));
}

/* Between two events about the subscriber there is one about nobody, so that no subject is that of an earlier event. */
static void check_update(void)
{
	open_with(RECORDS);
	HOLDS(is_subject(NULL));
	AFTER(KUNCHROL_OK, KNOWN, give(ROUTE, sizeof(ROUTE)));
	AFTER(KUNCHROL_OK, NULL, kunchrol_clock(&hlr, 1));
	AFTER(KUNCHROL_OK, KNOWN, give(UPDATE, sizeof(UPDATE)));
	AFTER(KUNCHROL_OK, NULL, kunchrol_clock(&hlr, 1));
	AFTER(KUNCHROL_OK, KNOWN, give(INSERTED, sizeof(INSERTED)));
	AFTER(KUNCHROL_OK, NULL, kunchrol_clock(&hlr, 0));
	AFTER(KUNCHROL_OK, KNOWN, give(CANCELLED, sizeof(CANCELLED)));
	AFTER(KUNCHROL_OK, NULL, give(CANCELLED, sizeof(CANCELLED)));
	HOLDS(is_count(1, 0, 0));
}

/* an End and an Abort alone are for the dialogue's subscriber, whoever the event before was about */
static void check_ends(void)
{
	open_with(RECORDS);
	AFTER(KUNCHROL_OK, KNOWN, give(UPDATE, sizeof(UPDATE)));
	AFTER(KUNCHROL_OK, "234150000000002", give_update_of(2));
	AFTER(KUNCHROL_OK, KNOWN, give(ENDED, sizeof(ENDED)));
	AFTER(KUNCHROL_OK, NULL, give(ENDED, sizeof(ENDED)));
	open_with(RECORDS);
	AFTER(KUNCHROL_OK, KNOWN, give(UPDATE, sizeof(UPDATE)));
	AFTER(KUNCHROL_OK, "234150000000002", give_update_of(2));
	AFTER(KUNCHROL_OK, KNOWN, give(ABORTED, sizeof(ABORTED)));
}

/* no message; a Begin that names nobody with a record; a frame for no open dialogue */
static void check_nobody(void)
{
	open_with(RECORDS);
	AFTER(KUNCHROL_OK, KNOWN, give(ROUTE, sizeof(ROUTE)));
	AFTER(KUNCHROL_OK, NULL, give(ROUTE, 0));
	AFTER(KUNCHROL_OK, KNOWN, give(ROUTE, sizeof(ROUTE)));
	AFTER(KUNCHROL_OK, NULL, give(ROUTE, sizeof(ROUTE) - 1));
	AFTER(KUNCHROL_OK, KNOWN, give(ROUTE, sizeof(ROUTE)));
	AFTER(KUNCHROL_OK, NULL, give_update_of(9));
	AFTER(KUNCHROL_OK, KNOWN, give_route_to(0));
	AFTER(KUNCHROL_OK, NULL, give_route_to(0x99));
	AFTER(KUNCHROL_OK, KNOWN, give(ROUTE, sizeof(ROUTE)));
	AFTER(KUNCHROL_OK, NULL, give(INSERTED, sizeof(INSERTED)));
	AFTER(KUNCHROL_OK, KNOWN, give(ROUTE, sizeof(ROUTE)));
	AFTER(KUNCHROL_OK, NULL, give(ABORTED, sizeof(ABORTED)));
}

/* also of a subscriber without a serving register, for whom nothing is sent, and of one who is withdrawn already */
static void check_changes(void)
{
	open_with(WITH_SHORT);
	AFTER(KUNCHROL_OK, KNOWN, kunchrol_codes(&hlr, TEXT(KNOWN), TEXT("11")));
	AFTER(KUNCHROL_OK, SHORT, kunchrol_codes(&hlr, TEXT(SHORT), TEXT("-")));
	AFTER(KUNCHROL_OK, KNOWN, kunchrol_withdraw(&hlr, TEXT(KNOWN)));
	AFTER(KUNCHROL_OK, SHORT, kunchrol_withdraw(&hlr, TEXT(SHORT)));
	AFTER(KUNCHROL_OK, KNOWN, kunchrol_withdraw(&hlr, TEXT(KNOWN)));
	AFTER(KUNCHROL_OK, KNOWN, give(ROUTE, sizeof(ROUTE)));
}

static void check_timers(void)
{
	open_with(RECORDS);
	AFTER(KUNCHROL_OK, KNOWN, give(UPDATE, sizeof(UPDATE)));
	AFTER(KUNCHROL_NONE, KNOWN, kunchrol_expire(&hlr, 1));
	AFTER(KUNCHROL_OK, NULL, kunchrol_clock(&hlr, 20));
	AFTER(KUNCHROL_NONE, NULL, kunchrol_expire(&hlr, 2));
	AFTER(KUNCHROL_OK, KNOWN, kunchrol_expire(&hlr, 1));
	AFTER(KUNCHROL_NONE, KNOWN, kunchrol_expire(&hlr, 1));
}

/* what is refused or does nothing is no event */
static void check_refused(void)
{
	uint64_t fault;
	size_t used;

	open_with(RECORDS);
	AFTER(KUNCHROL_ARGUMENT, NULL, kunchrol_line(&hlr, TEXT("Q 1")));
	AFTER(KUNCHROL_OK, KNOWN, give(ROUTE, sizeof(ROUTE)));
	AFTER(KUNCHROL_ARGUMENT, KNOWN, kunchrol_line(&hlr, TEXT("E 16")));
	AFTER(KUNCHROL_ARGUMENT, KNOWN, kunchrol_line(&hlr, TEXT("C 4611686018427387905")));
	AFTER(KUNCHROL_ARGUMENT, KNOWN, kunchrol_frame(&hlr, TEXT(""), ROUTE, 0));
	AFTER(KUNCHROL_ARGUMENT, KNOWN, kunchrol_clock(&hlr, 4611686018427387905u));
	AFTER(KUNCHROL_ARGUMENT, KNOWN, kunchrol_expire(&hlr, KUNCHROL_SHARDS));
	AFTER(KUNCHROL_ARGUMENT, KNOWN, kunchrol_codes(&hlr, TEXT("234150000000002"), TEXT("11,")));
	AFTER(KUNCHROL_ARGUMENT, KNOWN, kunchrol_withdraw(&hlr, TEXT("2341")));
	AFTER(KUNCHROL_NONE, KNOWN, kunchrol_codes(&hlr, TEXT(NOBODY), TEXT("11")));
	AFTER(KUNCHROL_NONE, KNOWN, kunchrol_withdraw(&hlr, TEXT(NOBODY)));
	AFTER(KUNCHROL_ARGUMENT, KNOWN, kunchrol_replay(&hlr, TEXT("x\n"), &used, &fault));
	AFTER(KUNCHROL_OPEN, KNOWN, kunchrol_open(TEXT(RECORDS), 0, 0, &hlr, &fault));
}

/* nor is what only takes or looks up */
static void check_looked_up(void)
{
	size_t dialogues, entries;
	uint64_t when;

	kunchrol_close(&hlr);
	open_register(KUNCHROL_KEEP_JOURNALS, 0);
	AFTER(KUNCHROL_OK, KNOWN, give(UPDATE, sizeof(UPDATE)));
	AFTER(KUNCHROL_OK, KNOWN, kunchrol_next(&hlr, to, sizeof(to), &to_len, octets, sizeof(octets), &len));
	AFTER(KUNCHROL_OK, KNOWN, kunchrol_drop_frames(&hlr));
	AFTER(KUNCHROL_OK, KNOWN, kunchrol_record(&hlr, TEXT("234150000000002"), text, sizeof(text), &len));
	AFTER(KUNCHROL_OK, KNOWN, kunchrol_record_of_number(&hlr, TEXT("447700900202"), text, sizeof(text), &len));
	AFTER(KUNCHROL_NONE, KNOWN, kunchrol_record(&hlr, TEXT(NOBODY), text, sizeof(text), &len));
	AFTER(KUNCHROL_OK, KNOWN, kunchrol_deadline(&hlr, &when));
	AFTER(KUNCHROL_OK, KNOWN, kunchrol_counts(&hlr, 1, &dialogues, &entries));
	AFTER(KUNCHROL_OK, KNOWN, kunchrol_dialogues(&hlr, 1, text, sizeof(text), &len));
	AFTER(KUNCHROL_OK, KNOWN, kunchrol_save(&hlr, text, sizeof(text), &len));
	AFTER(KUNCHROL_OK, KNOWN, kunchrol_image(&hlr, 1, text, sizeof(text), &len));
	AFTER(KUNCHROL_OK, KNOWN, kunchrol_cut(&hlr, 1, text, sizeof(text), &len));
}

/* each size that is too small, and those that are not */
static void check_sizes(const char *imsi)
{
	size_t needed = strlen(imsi);

	open_with(WITH_SHORT);
	AFTER(KUNCHROL_OK, imsi, kunchrol_codes(&hlr, TEXT(imsi), TEXT("21")));
	for (size_t size = 0; size <= KUNCHROL_MAX_DIGITS; size++) {
		fill();
		ANSWERS(size < needed ? KUNCHROL_SMALL : KUNCHROL_OK, kunchrol_subject(&hlr, text, size, &len));
		HOLDS(len == needed);
		HOLDS(size < needed ? is_untouched() : is_text(text, len, imsi) && is_filled(text + len, sizeof(text) - len));
	}
}

/* each line has the subject of the call that it stands for */
static void check_lines(void)
{
	open_with(RECORDS);
	AFTER(KUNCHROL_OK, "234150000000002", kunchrol_line(&hlr, TEXT("O 234150000000002 11")));
	AFTER(KUNCHROL_OK, KNOWN, kunchrol_line(&hlr, TEXT("X 234150000000001")));
	AFTER(KUNCHROL_NONE, KNOWN, kunchrol_line(&hlr, TEXT("X 234150000000009")));
	AFTER(KUNCHROL_OK, NULL, kunchrol_line(&hlr, TEXT("C 20")));
	AFTER(KUNCHROL_OK, KNOWN, kunchrol_line(&hlr, TEXT("E 1")));
	AFTER(KUNCHROL_NONE, KNOWN, kunchrol_line(&hlr, TEXT("E 1")));
	AFTER(KUNCHROL_OK, NULL, kunchrol_line(&hlr, TEXT("F 447700909999 -")));
}

/* replays a text, also from a line on for which memory was refused */
static uint32_t replay(const char *words)
{
	const uint8_t *at = (const uint8_t *)words;
	size_t used, left = strlen(words);
	uint64_t fault;
	uint32_t code;

	do {
		code = kunchrol_replay(&hlr, at, left, &used, &fault);
		at += used;
		left -= used;
	} while (code == KUNCHROL_MEMORY && is_made_again);
	return code;
}

/* the last line that is done and does something, also before one that is none, and before one that is cut off */
static void check_replay(void)
{
	open_with(RECORDS);
	HOLDS(replay("E 1\nX 234150000000009\n") == KUNCHROL_OK && is_subject(NULL));
	HOLDS(replay("C 1\nO 234150000000002 11\nE 3\nX 234150000000009\nX 234150000000001") == KUNCHROL_OK && is_subject("234150000000002"));
	HOLDS(replay("") == KUNCHROL_OK && is_subject("234150000000002"));
	HOLDS(replay("O 234150000000001 11\nE 16\nC 2\n") == KUNCHROL_ARGUMENT && is_subject(KNOWN));
	HOLDS(replay("O 234150000000002 -\nC 2\n") == KUNCHROL_OK && is_subject(NULL));
}

/* a register that is restored has had no event, and the dialogue's subscriber is told all the same */
static void check_restored(void)
{
	static uint8_t records[sizeof(text)], image[sizeof(text)];
	size_t records_len, image_len = 0;
	uint64_t fault = FILL;

	open_with(RECORDS);
	AFTER(KUNCHROL_OK, KNOWN, give(UPDATE, sizeof(UPDATE)));
	ANSWERS(KUNCHROL_OK, kunchrol_save(&hlr, records, sizeof(records), &records_len));
	for (uint8_t shard = 0; shard < KUNCHROL_SHARDS; shard++, image_len += len)
		ANSWERS(KUNCHROL_OK, kunchrol_image(&hlr, shard, image + image_len, sizeof(image) - image_len, &len));
	kunchrol_close(&hlr);
	ANSWERS(KUNCHROL_OK, kunchrol_restore(records, records_len, image, image_len, 0, &hlr, &fault));
	HOLDS(is_subject(NULL));
	AFTER(KUNCHROL_OK, KNOWN, give(INSERTED, sizeof(INSERTED)));
	kunchrol_close(&hlr);
	fill();
	ANSWERS(KUNCHROL_CLOSED, kunchrol_subject(&hlr, text, sizeof(text), &len));
	HOLDS(is_untouched() && len == FILL);
}

/* The rows, with the subscriber's number, from 1, of each. */

/* Takes a record as the row of its subscriber; whether it is another one than before. */
static int take_row(const char *imsi, size_t imsi_len)
{
	uint8_t row[KUNCHROL_MAX_LINE];
	size_t number = strtoull(imsi + FIRST_COLUMN, NULL, 10), count = 0;
	char *old = rows[number - 1];
	int is_other;

	ANSWERS(KUNCHROL_OK, kunchrol_record(&hlr, (const uint8_t *)imsi, imsi_len, row, sizeof(row), &count));
	is_other = count != strlen(old) || memcmp(old, row, count);
	memcpy(old, row, count);
	old[count] = 0;
	return is_other;
}

/* The records file of the rows. */
static size_t compose(void)
{
	size_t count = (size_t)snprintf(composed, sizeof(composed), "HLR2 447700900100\n");

	for (size_t row = 0; row < MANY; row++)
		count += (size_t)snprintf(composed + count, sizeof(composed) - count, "%s\n", rows[row]);
	return count;
}

/* Opens the register of many subscribers, with their rows. */
static void begin_rows(void)
{
	char records[MAX_RECORDS], imsi[MAX_IMSI + 1];
	size_t records_len = make_many(records);
	uint64_t fault = FILL;

	ANSWERS(KUNCHROL_OK, kunchrol_open((const uint8_t *)records, records_len, KUNCHROL_KEEP_JOURNALS, 0, &hlr, &fault));
	for (unsigned number = 1; number <= MANY; number++) {
		snprintf(imsi, sizeof(imsi), "2341500000000%02u", number);
		take_row(imsi, MAX_IMSI);
	}
}

static int are_rows_saved(void)
{
	size_t count = compose(), saved_len = 0;

	ANSWERS(KUNCHROL_OK, kunchrol_save(&hlr, (uint8_t *)saved, sizeof(saved), &saved_len));
	return saved_len == count && !memcmp(saved, composed, count);
}

/* Cuts all journals; whether the one entry of an event, or each of those of a clock value, has this subject. */
static int is_journalled(const char *imsi, int is_done)
{
	size_t entries = 0, count = 0;

	for (uint8_t shard = 0; shard < KUNCHROL_SHARDS; shard++) {
		char *word = (char *)listing;

		ANSWERS(KUNCHROL_OK, kunchrol_cut(&hlr, shard, listing, sizeof(listing) - 1, &count));
		listing[count] = 0;
		for (size_t space = 0; count && space < 4; space++)
			word = strchr(word, ' ') + 1;
		if (count && (memcmp(word, imsi, strlen(imsi)) || word[strlen(imsi)] != ' '))
			return 0;
		entries += count != 0;
	}
	return !is_done ? entries == 0 : line[0] == 'C' ? entries == KUNCHROL_SHARDS : entries == 1;
}

/* An event by its number: whether it has a subject, and whether that subject's row is another one now. */
static void give_event(uint64_t number, size_t *with_subject, size_t *changed)
{
	char before[KUNCHROL_MAX_DIGITS + 1], imsi[KUNCHROL_MAX_DIGITS + 1];
	uint32_t code;

	note_subject(before);
	code = kunchrol_line(&hlr, (const uint8_t *)line, make_line(number));
	note_subject(imsi);
	HOLDS(code == KUNCHROL_OK || (code == KUNCHROL_NONE && !strcmp(imsi, before)));
	if (code == KUNCHROL_OK && *imsi) {
		*with_subject += 1;
		*changed += (size_t)take_row(imsi, strlen(imsi));
	}
	HOLDS(are_rows_saved());
	HOLDS(is_journalled(*imsi ? imsi : "-", code == KUNCHROL_OK));
	while (!kunchrol_next(&hlr, to, sizeof(to), &to_len, octets, sizeof(octets), &len))
		note_ids(octets);
}

static void keep_rows(uint64_t events)
{
	size_t with_subject = 0, changed = 0;
	uint64_t fault = FILL;

	begin_rows();
	for (uint64_t number = 0; number < events && !faults; number++)
		give_event(number, &with_subject, &changed);
	kunchrol_close(&hlr);
	ANSWERS(KUNCHROL_OK, kunchrol_open((const uint8_t *)composed, compose(), 0, 1, &hlr, &fault));
	HOLDS(are_rows_saved() && is_subject(NULL));
	kunchrol_close(&hlr);
	HOLDS(with_subject > events / 4 && changed > events / 50);
	printf("%llu events: %zu with a subject, of which %zu changed a row\n", (unsigned long long)events, with_subject, changed);
}

static void check_all(void)
{
	check_update();
	check_ends();
	check_nobody();
	check_changes();
	check_timers();
	check_refused();
	check_looked_up();
	check_sizes(KNOWN);
	check_sizes(SHORT);
	check_lines();
	check_replay();
	check_restored();
}

int main(int argc, char **argv)
{
	is_made_again = argc == 2 && !strcmp(argv[1], "--again");
	if (argc == 2 && !is_made_again)
		keep_rows(strtoull(argv[1], NULL, 10));
	else
		check_all();
	return faults != 0;
}
