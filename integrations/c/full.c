/*
 * Checks what the calls answer and what they leave when a journal is full, and when a shard is. What does not hold is reported with its line on
 * standard error, and the status is then 1.
 */
#include "answers.h"

enum { MAX_LISTING = 4194304, ENTRIES = 65536, DIALOGUES = 4096 };

static uint8_t listing[MAX_LISTING];

static void check_no_expiry(void)
{
	for (uint8_t shard = 0; shard < KUNCHROL_SHARDS; shard++)
		ANSWERS(KUNCHROL_NONE, kunchrol_expire(&hlr, shard));
}

/* one full journal has no clock set; the others are cut in vain */
static void check_full_journal(void)
{
	open_register(KUNCHROL_KEEP_JOURNALS, 0);
	ANSWERS(KUNCHROL_OK, kunchrol_frame(&hlr, TEXT(ASKING), UPDATE, sizeof(UPDATE)));
	for (unsigned entry = 0; entry < ENTRIES - 1; entry++)
		ANSWERS(KUNCHROL_OK, kunchrol_frame(&hlr, TEXT(ASKING), ROUTE, sizeof(ROUTE)));
	ANSWERS(KUNCHROL_JOURNAL, kunchrol_frame(&hlr, TEXT(ASKING), ROUTE, sizeof(ROUTE)));
	HOLDS(is_count(1, 1, ENTRIES));
	HOLDS(is_subject(KNOWN));
	for (uint8_t shard = 0; shard < KUNCHROL_SHARDS; shard++) {
		ANSWERS(KUNCHROL_JOURNAL, kunchrol_clock(&hlr, 20));
		HOLDS(is_subject(KNOWN));
		check_no_expiry();
		if (shard != 1) {
			ANSWERS(KUNCHROL_OK, kunchrol_cut(&hlr, shard, listing, sizeof(listing), &len));
			HOLDS(len == 0);
		}
	}
	ANSWERS(KUNCHROL_OK, kunchrol_cut(&hlr, 1, listing, sizeof(listing), &len));
	ANSWERS(KUNCHROL_OK, kunchrol_clock(&hlr, 20));
	ANSWERS(KUNCHROL_OK, kunchrol_expire(&hlr, 1));
	kunchrol_close(&hlr);
}

/* in a full shard an update is turned away and a change is refused, until a timer expires */
static void check_full_shard(void)
{
	open_register(0, 0);
	for (unsigned update = 0; update < DIALOGUES; update++) {
		HOLDS(is_count(1, update, 0));
		ANSWERS(KUNCHROL_OK, kunchrol_frame(&hlr, TEXT(ASKING), UPDATE, sizeof(UPDATE)));
	}
	ANSWERS(KUNCHROL_OK, kunchrol_drop_frames(&hlr));
	HOLDS(is_count(1, DIALOGUES, 0));
	ANSWERS(KUNCHROL_OK, kunchrol_frame(&hlr, TEXT(ASKING), UPDATE, sizeof(UPDATE)));
	ANSWERS(KUNCHROL_OK, kunchrol_next(&hlr, to, sizeof(to), &to_len, octets, sizeof(octets), &len));
	HOLDS(octets[0] == 0x67);
	HOLDS(is_subject(KNOWN));
	ANSWERS(KUNCHROL_OK, kunchrol_clock(&hlr, 1));
	ANSWERS(KUNCHROL_NO_ROOM, kunchrol_codes(&hlr, TEXT(KNOWN), TEXT("-")));
	HOLDS(is_subject(NULL));
	HOLDS(is_count(1, DIALOGUES, 0));
	HOLDS(is_count(2, 0, 0));
	ANSWERS(KUNCHROL_OK, kunchrol_clock(&hlr, 20));
	ANSWERS(KUNCHROL_OK, kunchrol_expire(&hlr, 1));
	HOLDS(is_count(1, DIALOGUES - 1, 0));
	ANSWERS(KUNCHROL_OK, kunchrol_codes(&hlr, TEXT(KNOWN), TEXT("-")));
	HOLDS(is_count(1, DIALOGUES, 0));
	kunchrol_close(&hlr);
}

int main(void)
{
	check_full_journal();
	check_full_shard();
	return faults != 0;
}
