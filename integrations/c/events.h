/*
 * Lines of a log: events that follow from their number and from what the register has sent before, as with peers. A register that dies
 * and is started again therefore gets the events of one that never died.
 */
#ifndef EVENTS_H
#define EVENTS_H

#include "frames.h"

enum { MAX_LINE = 1024, IDS = 8, MANY = 20, MAX_RECORDS = 2048, WITHDRAWALS = 997 };

/* Codes for two inserts. */
static const char NINE_CODES[] = " 11,12,20,21,22,61,62,91,92";

/* The subscribers that events are about, numbered from 1: those of RECORDS, or with make_many those of many. There are more kinds of events
 * for many. */
static size_t subscribers = 2;
static char line[MAX_LINE];
static uint64_t drawn;

/* The dialogues that the register opened or went on with last: its id, and the peer's. */
static struct {
	uint8_t local[4];
	uint8_t remote[4];
} ids[IDS];
static size_t last_id;

/* xorshift, so that a number gives the same events everywhere */
static inline void sow(uint64_t number)
{
	drawn = (number + 1) * 0x9E3779B97F4A7C15u;
}

static inline size_t draw(size_t below)
{
	drawn ^= drawn << 13;
	drawn ^= drawn >> 7;
	drawn ^= drawn << 17;
	return (size_t)(drawn % below);
}

/* Records of twenty subscribers in all sixteen shards; every second one has codes for two inserts, every third no serving register. */
static inline size_t make_many(char *records)
{
	size_t len = strlen("HLR1 447700900100\n");

	subscribers = MANY;
	memcpy(records, "HLR1 447700900100\n", len);
	for (unsigned number = 1; number <= MANY; number++)
		len += (size_t)snprintf(records + len, MAX_RECORDS - len, "2341500000000%02u 4477009000%02u%s * %s\n", number, number - 1,
					number % 2 ? " 11,21" : NINE_CODES,
					number % 3 ? "447700900011,447700900001,-,s" : "-");
	return len;
}

/* Notes the ids of a frame that the register sends, if it begins a dialogue or goes on with it. */
static inline void note_ids(const uint8_t *frame)
{
	const uint8_t *at = frame + (frame[1] == 0x81 ? 5 : frame[1] == 0x82 ? 6 : 4);

	if (frame[0] != 0x62 && frame[0] != 0x65)
		return;
	memcpy(ids[last_id % IDS].local, at, 4);
	memcpy(ids[last_id % IDS].remote, frame[0] == 0x65 && at[5] == 4 ? at + 6 : at, 4);
	last_id++;
}

static inline size_t put_word(size_t at, const char *word)
{
	memcpy(line + at, word, strlen(word));
	return at + strlen(word);
}

static inline size_t put_number(size_t at, uint64_t number)
{
	if (number > 9)
		at = put_number(at, number / 10);
	line[at] = (char)('0' + number % 10);
	return at + 1;
}

static inline size_t put_frame(const uint8_t *frame, size_t len)
{
	static const char digits[] = "0123456789ABCDEF";
	size_t at = put_word(put_word(put_word(0, "F "), ASKING), " ");

	for (size_t octet = 0; octet < len; octet++) {
		line[at++] = digits[frame[octet] / 16];
		line[at++] = digits[frame[octet] % 16];
	}
	return at;
}

/* an update of one of the subscribers, at one of ten registers; the peer's id tells it from others */
static inline size_t put_update(uint64_t number, size_t subscriber)
{
	uint8_t frame[sizeof(UPDATE)];

	memcpy(frame, UPDATE, sizeof(frame));
	frame[6] = (uint8_t)(number >> 8);
	frame[7] = (uint8_t)number;
	frame[60] = (uint8_t)(subscriber / 10 * 16);
	frame[61] = (uint8_t)(0xF0 + subscriber % 10);
	frame[79] = (uint8_t)(draw(10) * 16 + 1);
	return put_frame(frame, sizeof(frame));
}

/* an End with a result, or only an End, or for many a Continue with a result, in a dialogue that the register has opened */
static inline size_t put_answer(void)
{
	size_t number = draw(IDS);
	const uint8_t *local = ids[number].local, *remote = ids[number].remote;
	const uint8_t end[] = { 0x64, 0x0D, 0x49, 4, local[0], local[1], local[2], local[3], 0x6C, 5, 0xA2, 3, 2, 1, 1 };
	const uint8_t alone[] = { 0x64, 0x06, 0x49, 4, local[0], local[1], local[2], local[3] };
	const uint8_t more[] = { 0x65, 0x13, 0x48, 4, remote[0], remote[1], remote[2], remote[3], 0x49, 4, local[0],
				 local[1], local[2], local[3], 0x6C, 5, 0xA2, 3, 2, 1, (uint8_t)(1 + draw(2)) };

	switch (draw(subscribers == MANY ? 8 : 4)) {
	case 0:
		return put_frame(alone, sizeof(alone));
	case 4:
	case 5:
	case 6:
		return put_frame(more, sizeof(more));
	default:
		return put_frame(end, sizeof(end));
	}
}

/* an IMSI after a word, and what follows it */
static inline size_t put_subscriber(const char *word, size_t subscriber, const char *rest)
{
	size_t at = put_word(put_word(0, word), "2341500000000");

	return put_word(put_number(put_number(at, subscriber / 10), subscriber % 10), rest);
}

/* The line of the event with this number, without its line feed; its length. */
static inline size_t make_line(uint64_t number)
{
	static const char *const codes[] = { " 11,21", " -", NINE_CODES };

	size_t subscriber;

	sow(number);
	subscriber = 1 + draw(subscribers);
	if (subscribers == MANY && number % WITHDRAWALS == WITHDRAWALS - 1)
		return put_subscriber("X ", subscriber, "");
	switch (draw(subscribers == MANY ? 10 : 8)) {
	case 0:
		return put_frame(ROUTE, sizeof(ROUTE));
	case 1:
		return put_number(put_word(0, "C "), number / 8);
	case 2:
	case 8:
	case 9:
		return put_number(put_word(0, "E "), subscriber % KUNCHROL_SHARDS);
	case 3:
		return put_subscriber("O ", subscriber, codes[draw(subscribers == MANY ? 3 : 2)]);
	case 4:
	case 5:
		return put_answer();
	default:
		return put_update(number, subscriber);
	}
}

#endif
