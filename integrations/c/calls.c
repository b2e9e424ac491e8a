/*
 * Checks what the calls answer and what they leave: calls [--again]. With --again a call that returns MEMORY is made once more, and all has to
 * be as without. What does not hold is reported with its line on standard error, and the status is then 1.
 */
#include "answers.h"

enum { MAX_LISTING = 8192 };

static uint8_t listing[MAX_LISTING];
static size_t left_over;

static const char OTHER[] = "234150000000003", NUMBER[] = "447700900000";
static const char RECORD[] = "234150000000001 447700900000 11,21 * 447700900011,447700900001,-,s a";

static void check_closed(void)
{
	uint64_t when = FILL, line = FILL;
	size_t used = FILL;

	fill();
	ANSWERS(KUNCHROL_CLOSED, kunchrol_frame(&hlr, TEXT(ASKING), ROUTE, sizeof(ROUTE)));
	ANSWERS(KUNCHROL_CLOSED, kunchrol_clock(&hlr, 1));
	ANSWERS(KUNCHROL_CLOSED, kunchrol_expire(&hlr, 1));
	ANSWERS(KUNCHROL_CLOSED, kunchrol_deadline(&hlr, &when));
	ANSWERS(KUNCHROL_CLOSED, kunchrol_codes(&hlr, TEXT(KNOWN), TEXT("11")));
	ANSWERS(KUNCHROL_CLOSED, kunchrol_withdraw(&hlr, TEXT(KNOWN)));
	ANSWERS(KUNCHROL_CLOSED, kunchrol_line(&hlr, TEXT("C 1")));
	ANSWERS(KUNCHROL_CLOSED, kunchrol_line(&hlr, TEXT("E 1")));
	ANSWERS(KUNCHROL_CLOSED, kunchrol_replay(&hlr, TEXT("C 1\n"), &used, &line));
	HOLDS(used == 0 && line == 0);
	ANSWERS(KUNCHROL_CLOSED, kunchrol_drop_frames(&hlr));
	ANSWERS(KUNCHROL_CLOSED, kunchrol_next(&hlr, to, sizeof(to), &to_len, octets, sizeof(octets), &len));
	ANSWERS(KUNCHROL_CLOSED, kunchrol_subject(&hlr, text, sizeof(text), &len));
	ANSWERS(KUNCHROL_CLOSED, kunchrol_record(&hlr, TEXT(KNOWN), text, sizeof(text), &len));
	ANSWERS(KUNCHROL_CLOSED, kunchrol_record_of_number(&hlr, TEXT(NUMBER), text, sizeof(text), &len));
	ANSWERS(KUNCHROL_CLOSED, kunchrol_dialogues(&hlr, 1, text, sizeof(text), &len));
	ANSWERS(KUNCHROL_CLOSED, kunchrol_save(&hlr, text, sizeof(text), &len));
	ANSWERS(KUNCHROL_CLOSED, kunchrol_image(&hlr, 1, text, sizeof(text), &len));
	ANSWERS(KUNCHROL_CLOSED, kunchrol_cut(&hlr, 1, text, sizeof(text), &len));
	HOLDS(is_untouched() && len == FILL && to_len == FILL && when == FILL);
	HOLDS(is_no_count(1, KUNCHROL_CLOSED));
	kunchrol_close(&hlr);
}

static void check_opening(void)
{
	uint64_t line = 0;

	ANSWERS(KUNCHROL_LINE, kunchrol_open(TEXT("HLR1 447700900100\n1\n"), 0, 0, &hlr, &line));
	HOLDS(line == 2);
	open_register(0, 0);
	ANSWERS(KUNCHROL_OPEN, kunchrol_open(TEXT(RECORDS), 0, 0, &hlr, &line));
	line = FILL;
	ANSWERS(KUNCHROL_OPEN, kunchrol_restore(TEXT(RECORDS), TEXT("S1 0 0 0"), 0, &hlr, &line));
	HOLDS(line == 0);
	HOLDS(kunchrol_version() == KUNCHROL_VERSION_NUMBER);
}

/* what is not of its form is refused, whatever the register has */
static void check_arguments(void)
{
	fill();
	ANSWERS(KUNCHROL_ARGUMENT, kunchrol_frame(&hlr, TEXT(""), ROUTE, sizeof(ROUTE)));
	ANSWERS(KUNCHROL_ARGUMENT, kunchrol_frame(&hlr, TEXT("12345678901234567"), ROUTE, sizeof(ROUTE)));
	ANSWERS(KUNCHROL_ARGUMENT, kunchrol_clock(&hlr, 4611686018427387905u));
	ANSWERS(KUNCHROL_ARGUMENT, kunchrol_expire(&hlr, KUNCHROL_SHARDS));
	ANSWERS(KUNCHROL_ARGUMENT, kunchrol_codes(&hlr, TEXT("2341"), TEXT("11")));
	ANSWERS(KUNCHROL_ARGUMENT, kunchrol_codes(&hlr, TEXT(KNOWN), TEXT("11,")));
	ANSWERS(KUNCHROL_ARGUMENT, kunchrol_withdraw(&hlr, TEXT("23415000000000x")));
	ANSWERS(KUNCHROL_ARGUMENT, kunchrol_record(&hlr, TEXT("1234567890123456"), text, sizeof(text), &len));
	ANSWERS(KUNCHROL_ARGUMENT, kunchrol_record_of_number(&hlr, TEXT("+44"), text, sizeof(text), &len));
	ANSWERS(KUNCHROL_ARGUMENT, kunchrol_dialogues(&hlr, KUNCHROL_SHARDS, text, sizeof(text), &len));
	ANSWERS(KUNCHROL_ARGUMENT, kunchrol_image(&hlr, KUNCHROL_SHARDS, text, sizeof(text), &len));
	ANSWERS(KUNCHROL_ARGUMENT, kunchrol_cut(&hlr, 255, text, sizeof(text), &len));
	ANSWERS(KUNCHROL_NONE, kunchrol_next(&hlr, to, sizeof(to), &to_len, octets, sizeof(octets), &len));
	HOLDS(is_untouched() && len == FILL && to_len == FILL);
	HOLDS(is_no_count(KUNCHROL_SHARDS, KUNCHROL_ARGUMENT));
	HOLDS(is_no_count(255, KUNCHROL_ARGUMENT));
}

/* what is no line of a log, a script's lines that are none included */
static void check_bad_lines(void)
{
	static const char *const lines[] = { "", "E", "W", "E 16", "E 01", "E 1 ", "E -1", "C 4611686018427387905", "C", "C 1\n", "F 4477",
					     "F 4477 ", "F 4477 6", "F 4477 6G", "F 4477 $A", "F 12345678901234567 -", "F 4477 62 62", "F  62",
					     "O 234150000000001", "O 234150000000001 11,", "O 2341 11", "X 2341", "X", "Q 1", "f 4477 62" };

	for (size_t at = 0; at < sizeof(lines) / sizeof(lines[0]); at++)
		ANSWERS(KUNCHROL_ARGUMENT, kunchrol_line(&hlr, TEXT(lines[at])));
}

/* three routes and an update are answered in this order, whenever their frames are taken */
static void check_waiting(void)
{
	static const uint8_t kinds[] = { 0x64, 0x64, 0x65, 0x64 };

	ANSWERS(KUNCHROL_OK, kunchrol_frame(&hlr, TEXT(ASKING), ROUTE, sizeof(ROUTE)));
	ANSWERS(KUNCHROL_OK, kunchrol_frame(&hlr, TEXT(ASKING), ROUTE, sizeof(ROUTE)));
	ANSWERS(KUNCHROL_OK, kunchrol_frame(&hlr, TEXT(ASKING), UPDATE, sizeof(UPDATE)));
	fill();
	ANSWERS(KUNCHROL_SMALL, kunchrol_next(&hlr, to, 11, &to_len, octets, sizeof(octets), &len));
	HOLDS(is_untouched() && to_len == 12 && len > 2);
	for (size_t at = 0; at < sizeof(kinds); at++) {
		if (at == 1) {
			ANSWERS(KUNCHROL_OK, kunchrol_frame(&hlr, TEXT(ASKING), (const uint8_t *)"", 0));
			ANSWERS(KUNCHROL_OK, kunchrol_frame(&hlr, TEXT(ASKING), ROUTE, sizeof(ROUTE)));
		}
		fill();
		ANSWERS(KUNCHROL_OK, kunchrol_next(&hlr, to, sizeof(to), &to_len, octets, sizeof(octets), &len));
		HOLDS(is_text(to, to_len, ASKING) && octets[0] == kinds[at] && is_filled(octets + len, sizeof(octets) - len));
	}
	ANSWERS(KUNCHROL_NONE, kunchrol_next(&hlr, to, sizeof(to), &to_len, octets, sizeof(octets), &len));
}

static void check_no_expiry(void)
{
	for (uint8_t shard = 0; shard < KUNCHROL_SHARDS; shard++)
		ANSWERS(KUNCHROL_NONE, kunchrol_expire(&hlr, shard));
}

/* the update waits for the answer to its insert, 20 ticks, and then ends */
static void check_timers(void)
{
	uint64_t when = 0;

	ANSWERS(KUNCHROL_OK, kunchrol_deadline(&hlr, &when));
	HOLDS(when == 20);
	check_no_expiry();
	ANSWERS(KUNCHROL_OK, kunchrol_clock(&hlr, 19));
	check_no_expiry();
	ANSWERS(KUNCHROL_OK, kunchrol_clock(&hlr, 20));
	ANSWERS(KUNCHROL_OK, kunchrol_clock(&hlr, 3));
	ANSWERS(KUNCHROL_OK, kunchrol_deadline(&hlr, &when));
	HOLDS(when == 20);
	HOLDS(is_count(1, 1, 0));
	ANSWERS(KUNCHROL_OK, kunchrol_expire(&hlr, 1));
	HOLDS(is_count(1, 0, 0));
	check_no_expiry();
	when = FILL;
	ANSWERS(KUNCHROL_NONE, kunchrol_deadline(&hlr, &when));
	HOLDS(when == FILL);
	ANSWERS(KUNCHROL_OK, kunchrol_next(&hlr, to, sizeof(to), &to_len, octets, sizeof(octets), &len));
	HOLDS(octets[0] == 0x64);
	ANSWERS(KUNCHROL_NONE, kunchrol_next(&hlr, to, sizeof(to), &to_len, octets, sizeof(octets), &len));
}

static void check_records(void)
{
	fill();
	ANSWERS(KUNCHROL_NONE, kunchrol_record(&hlr, TEXT(OTHER), text, sizeof(text), &len));
	ANSWERS(KUNCHROL_NONE, kunchrol_record_of_number(&hlr, TEXT("44"), text, sizeof(text), &len));
	HOLDS(is_untouched() && len == FILL);
	ANSWERS(KUNCHROL_SMALL, kunchrol_record(&hlr, TEXT(KNOWN), text, strlen(RECORD) - 1, &len));
	HOLDS(is_untouched() && len == strlen(RECORD));
	ANSWERS(KUNCHROL_OK, kunchrol_record(&hlr, TEXT(KNOWN), text, strlen(RECORD), &len));
	HOLDS(is_text(text, len, RECORD) && is_filled(text + len, sizeof(text) - len));
	fill();
	ANSWERS(KUNCHROL_OK, kunchrol_record_of_number(&hlr, TEXT(NUMBER), text, sizeof(text), &len));
	HOLDS(is_text(text, len, RECORD) && is_filled(text + len, sizeof(text) - len));
}

static void check_dialogues(void)
{
	static const char begins[] = "D 01001000 update Active 234150000000001 0000000B\nI 1 sent 20\n";

	fill();
	ANSWERS(KUNCHROL_OK, kunchrol_dialogues(&hlr, 2, text, sizeof(text), &len));
	HOLDS(is_untouched() && len == 0);
	HOLDS(is_count(1, 1, 0));
	HOLDS(is_count(2, 0, 0));
	ANSWERS(KUNCHROL_SMALL, kunchrol_dialogues(&hlr, 1, text, 1, &len));
	HOLDS(is_untouched() && len >= strlen(begins));
	ANSWERS(KUNCHROL_OK, kunchrol_dialogues(&hlr, 1, text, sizeof(text), &len));
	HOLDS(len >= strlen(begins) && !memcmp(text, begins, strlen(begins)));
}

/* the image of a shard that is as it began, and of one with an open update */
static void check_image(void)
{
	static const char image[] = "S1 1 0 0\nT 01001000\nI 1 sent 20\n"
				    "D 01001000 234150000000001 447700909999 0000000B * update 447700900012 447700900002 - 1\nE\n";

	fill();
	ANSWERS(KUNCHROL_SMALL, kunchrol_image(&hlr, 1, text, strlen(image) - 1, &len));
	HOLDS(is_untouched() && len == strlen(image));
	ANSWERS(KUNCHROL_OK, kunchrol_image(&hlr, 1, text, strlen(image), &len));
	HOLDS(is_text(text, len, image) && is_filled(text + len, sizeof(text) - len));
	ANSWERS(KUNCHROL_OK, kunchrol_image(&hlr, 2, text, sizeof(text), &len));
	HOLDS(is_text(text, len, "S1 2 0 0\nE\n"));
}

/* a change of nobody's record is no event; one of a record opens a dialogue with the VLR that serves it */
static void check_changes(void)
{
	uint64_t when = 0;

	ANSWERS(KUNCHROL_NONE, kunchrol_codes(&hlr, TEXT(OTHER), TEXT("11")));
	ANSWERS(KUNCHROL_NONE, kunchrol_withdraw(&hlr, TEXT(OTHER)));
	ANSWERS(KUNCHROL_NONE, kunchrol_deadline(&hlr, &when));
	ANSWERS(KUNCHROL_OK, kunchrol_codes(&hlr, TEXT(KNOWN), TEXT("-")));
	ANSWERS(KUNCHROL_OK, kunchrol_record(&hlr, TEXT(KNOWN), text, sizeof(text), &len));
	HOLDS(is_text(text, len, "234150000000001 447700900000 - * 447700900011,447700900001,-,s a"));
	ANSWERS(KUNCHROL_OK, kunchrol_withdraw(&hlr, TEXT(KNOWN)));
	ANSWERS(KUNCHROL_OK, kunchrol_record(&hlr, TEXT(KNOWN), text, sizeof(text), &len));
	HOLDS(is_text(text, len, "234150000000001 447700900000 - * - w"));
}

/* with journals a clock value is taken by all shards or by none; what does nothing has no entry */
static void check_journals(void)
{
	uint32_t code;

	open_register(KUNCHROL_KEEP_JOURNALS, 0);
	ANSWERS(KUNCHROL_OK, kunchrol_frame(&hlr, TEXT(ASKING), UPDATE, sizeof(UPDATE)));
	HOLDS(is_count(1, 1, 1));
	code = kunchrol_clock(&hlr, 20);
	if (code == KUNCHROL_MEMORY) {
		HOLDS(is_count(1, 1, 1));
		check_no_expiry();
		MADE(code, kunchrol_clock(&hlr, 20));
	}
	HOLDS(code == KUNCHROL_OK);
	HOLDS(is_count(3, 0, 1));
	ANSWERS(KUNCHROL_OK, kunchrol_expire(&hlr, 1));
	ANSWERS(KUNCHROL_NONE, kunchrol_expire(&hlr, 1));
	HOLDS(is_count(1, 0, 3));
	ANSWERS(KUNCHROL_NONE, kunchrol_withdraw(&hlr, TEXT(OTHER)));
	ANSWERS(KUNCHROL_OK, kunchrol_cut(&hlr, 1, text, sizeof(text), &len));
	HOLDS(is_text(text, len, "J 1 0 F 234150000000001 1\nJ 1 1 C - 0\nJ 1 2 E 234150000000001 1\n"));
	HOLDS(is_count(1, 0, 0));
	ANSWERS(KUNCHROL_OK, kunchrol_cut(&hlr, 3, text, sizeof(text), &len));
	HOLDS(is_text(text, len, "J 3 0 C - 0\n"));
	kunchrol_close(&hlr);
}

/* the records in `text`, and the images of all shards in the listing; the length of these */
static size_t save_both(void)
{
	size_t count = 0;

	for (uint8_t shard = 0; shard < KUNCHROL_SHARDS; shard++) {
		ANSWERS(KUNCHROL_OK, kunchrol_image(&hlr, shard, listing + count, sizeof(listing) - count, &len));
		count += len;
	}
	ANSWERS(KUNCHROL_OK, kunchrol_save(&hlr, text, sizeof(text), &len));
	return count;
}

/* no register is restored from texts with a fault, of which the first is named */
static void check_no_restore(const char *records, const char *image, uint32_t code, uint64_t number)
{
	uint64_t line = FILL, when = FILL;

	ANSWERS(code, kunchrol_restore(TEXT(records), TEXT(image), 0, &hlr, &line));
	HOLDS(line == number);
	ANSWERS(KUNCHROL_CLOSED, kunchrol_deadline(&hlr, &when));
}

static void check_bad_images(void)
{
	static const char twice[] = "HLR1 447700900100\n234150000000001 1 11 * -\n234150000000001 2 11 * -\n";
	static const char unknown[] = "S1 0 0 0\nE\nS1 1 0 0\nT 01001000\nI 1 sent 20\nD 01001000 234150000000033 4477 - - data\n";

	check_no_restore("HLR1 447700900100\n1\n", "x\n", KUNCHROL_LINE, 2);
	check_no_restore(twice, "x\n", KUNCHROL_TWICE, 3);
	check_no_restore(RECORDS, "x\n", KUNCHROL_IMAGE_LINE, 1);
	check_no_restore(RECORDS, "S1 0 0 0\nS1 1 0 0\n", KUNCHROL_IMAGE_LINE, 2);
	check_no_restore(RECORDS, "S1 0 0 0\nE\nS1 2 0 0\n", KUNCHROL_IMAGE_LINE, 3);
	check_no_restore(RECORDS, "S1 0 0 0\nE\nE\n", KUNCHROL_IMAGE_LINE, 3);
	check_no_restore(RECORDS, unknown, KUNCHROL_IMAGE_LINE, 6);
	check_no_restore(RECORDS, "S1 0 0 0\nE\nS1 1 0 0\n", KUNCHROL_IMAGE_SHORT, 0);
	check_no_restore(RECORDS, "S1 0 0 0\nE\nS1 1 0 0\nE\n", KUNCHROL_IMAGE_SHORT, 0);
	check_no_restore(RECORDS, "", KUNCHROL_IMAGE_SHORT, 0);
}

/* a register is restored with its clock and its update, which completes; frames that waited are gone, and a journal begins */
static void check_restored(void)
{
	static const uint8_t end[] = { 0x65, 0x13, 0x48, 4, 0, 0, 0, 11, 0x49, 4, 1, 0, 0x10, 0, 0x6C, 5, 0xA2, 3, 2, 1, 1 };
	static uint8_t records[sizeof(text)], image[sizeof(text)];
	size_t records_len, image_len;
	uint64_t line = FILL, when = FILL;

	open_register(0, 0);
	ANSWERS(KUNCHROL_OK, kunchrol_clock(&hlr, 5));
	ANSWERS(KUNCHROL_OK, kunchrol_frame(&hlr, TEXT(ASKING), UPDATE, sizeof(UPDATE)));
	image_len = save_both();
	records_len = len;
	memcpy(records, text, records_len);
	memcpy(image, listing, image_len);
	kunchrol_close(&hlr);
	ANSWERS(KUNCHROL_OK, kunchrol_restore(records, records_len, image, image_len, KUNCHROL_KEEP_JOURNALS, &hlr, &line));
	HOLDS(line == 0 && save_both() == image_len && !memcmp(listing, image, image_len));
	HOLDS(len == records_len && !memcmp(text, records, records_len));
	ANSWERS(KUNCHROL_NONE, kunchrol_next(&hlr, to, sizeof(to), &to_len, octets, sizeof(octets), &len));
	ANSWERS(KUNCHROL_OK, kunchrol_deadline(&hlr, &when));
	HOLDS(when == 25);
	HOLDS(is_count(1, 1, 0));
	ANSWERS(KUNCHROL_OK, kunchrol_cut(&hlr, 1, text, sizeof(text), &len));
	HOLDS(len == 0);
	ANSWERS(KUNCHROL_OK, kunchrol_frame(&hlr, TEXT(ASKING), end, sizeof(end)));
	ANSWERS(KUNCHROL_OK, kunchrol_cut(&hlr, 1, text, sizeof(text), &len));
	HOLDS(is_text(text, len, "J 1 0 F 234150000000001 2\n"));
	ANSWERS(KUNCHROL_OK, kunchrol_record(&hlr, TEXT(KNOWN), text, sizeof(text), &len));
	HOLDS(is_text(text, len, "234150000000001 447700900000 11,21 * 447700900012,447700900002,-,s a"));
	kunchrol_close(&hlr);
}

/* the update that is open, if any, has this id */
static void check_open(const char *begins)
{
	ANSWERS(KUNCHROL_OK, kunchrol_dialogues(&hlr, 1, text, sizeof(text), &len));
	HOLDS(len >= strlen(begins) && !memcmp(text, begins, strlen(begins)));
	HOLDS(*begins || len == 0);
}

/* what a peer sends for a dialogue of another start changes nothing; for one of this start it does */
static void check_starts(void)
{
	static const uint8_t end[] = { 0x64, 0x06, 0x49, 0x04, 0x01, 0x00, 0x10, 0x00 };
	static const char *const begins[] = { "D 01001000 update", "D 019E4000 update", "D 013C8000 update", "D 01001000 update" };
	static const uint32_t starts[] = { 0, 1, 2, 4095 };

	for (size_t at = 0; at < sizeof(starts) / sizeof(starts[0]); at++) {
		open_register(0, starts[at]);
		ANSWERS(KUNCHROL_OK, kunchrol_frame(&hlr, TEXT(ASKING), UPDATE, sizeof(UPDATE)));
		check_open(begins[at]);
		ANSWERS(KUNCHROL_OK, kunchrol_frame(&hlr, TEXT(ASKING), end, sizeof(end)));
		check_open(starts[at] % 4095 ? begins[at] : "");
		kunchrol_close(&hlr);
	}
}

/* each line does what the call does that it stands for */
static void check_lines(void)
{
	uint64_t when = 0;

	open_register(0, 0);
	ANSWERS(KUNCHROL_OK, kunchrol_line(&hlr, TEXT("F 447700909999 -")));
	ANSWERS(KUNCHROL_NONE, kunchrol_line(&hlr, TEXT("E 1")));
	ANSWERS(KUNCHROL_NONE, kunchrol_line(&hlr, TEXT("X 234150000000003")));
	ANSWERS(KUNCHROL_OK, kunchrol_frame(&hlr, TEXT(ASKING), UPDATE, sizeof(UPDATE)));
	ANSWERS(KUNCHROL_OK, kunchrol_line(&hlr, TEXT("C 20")));
	ANSWERS(KUNCHROL_OK, kunchrol_deadline(&hlr, &when));
	HOLDS(when == 20);
	ANSWERS(KUNCHROL_OK, kunchrol_line(&hlr, TEXT("E 1")));
	ANSWERS(KUNCHROL_NONE, kunchrol_line(&hlr, TEXT("E 1")));
	ANSWERS(KUNCHROL_OK, kunchrol_line(&hlr, TEXT("O 234150000000001 -")));
	ANSWERS(KUNCHROL_OK, kunchrol_record(&hlr, TEXT(KNOWN), text, sizeof(text), &len));
	HOLDS(is_text(text, len, "234150000000001 447700900000 - * 447700900011,447700900001,-,s a"));
	ANSWERS(KUNCHROL_OK, kunchrol_line(&hlr, TEXT("X 234150000000001")));
	ANSWERS(KUNCHROL_OK, kunchrol_record(&hlr, TEXT(KNOWN), text, sizeof(text), &len));
	HOLDS(is_text(text, len, "234150000000001 447700900000 - * - w"));
	kunchrol_close(&hlr);
}

/* replays a text, also from a line on for which memory was refused, and counts the octets that are left over */
static uint32_t replay(const char *words, uint64_t *line)
{
	const uint8_t *at = (const uint8_t *)words;
	size_t used;
	uint32_t code;

	left_over = strlen(words);
	do {
		code = kunchrol_replay(&hlr, at, left_over, &used, line);
		at += used;
		left_over -= used;
	} while (code == KUNCHROL_MEMORY && is_made_again);
	return code;
}

/* the lines of a text are done up to the first that is none; what follows the last line feed is left over; frames wait, or are dropped */
static void check_replay(void)
{
	uint64_t line = FILL, when = 0;

	open_register(0, 0);
	HOLDS(replay("E 1\nC 5\nO 234150000000001 -\nX 234150000000003\nC 2", &line) == KUNCHROL_OK && line == 0 && left_over == 3);
	ANSWERS(KUNCHROL_OK, kunchrol_record(&hlr, TEXT(KNOWN), text, sizeof(text), &len));
	HOLDS(is_text(text, len, "234150000000001 447700900000 - * 447700900011,447700900001,-,s a"));
	HOLDS(replay("C 6\nC 7\nE 16\nX 234150000000001\n", &line) == KUNCHROL_ARGUMENT && line == 3 && left_over == 23);
	HOLDS(replay("\n", &line) == KUNCHROL_ARGUMENT && line == 1 && left_over == 1);
	HOLDS(replay("", &line) == KUNCHROL_OK && line == 0 && left_over == 0);
	ANSWERS(KUNCHROL_OK, kunchrol_frame(&hlr, TEXT(ASKING), UPDATE, sizeof(UPDATE)));
	ANSWERS(KUNCHROL_OK, kunchrol_drop_frames(&hlr));
	ANSWERS(KUNCHROL_NONE, kunchrol_next(&hlr, to, sizeof(to), &to_len, octets, sizeof(octets), &len));
	ANSWERS(KUNCHROL_OK, kunchrol_deadline(&hlr, &when));
	HOLDS(when == 25);
	ANSWERS(KUNCHROL_OK, kunchrol_frame(&hlr, TEXT(ASKING), ROUTE, sizeof(ROUTE)));
	ANSWERS(KUNCHROL_OK, kunchrol_next(&hlr, to, sizeof(to), &to_len, octets, sizeof(octets), &len));
	kunchrol_close(&hlr);
}

int main(int argc, char **argv)
{
	is_made_again = argc == 2 && !strcmp(argv[1], "--again");
	check_closed();
	check_opening();
	check_arguments();
	check_bad_lines();
	check_records();
	check_waiting();
	check_dialogues();
	check_image();
	check_timers();
	check_changes();
	kunchrol_close(&hlr);
	check_journals();
	check_starts();
	check_lines();
	check_replay();
	check_bad_images();
	check_restored();
	return faults != 0;
}
