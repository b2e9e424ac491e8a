/*
 * The register and the buffers of a trial of the calls, and what compares: a fact that does not hold, or a call that answers another code,
 * is reported with its line on standard error, and counted.
 */
#ifndef ANSWERS_H
#define ANSWERS_H

#include "../../include/kunchrol.h"
#include "frames.h"

enum { FILL = 0x5A, MAX_TEXT = 512 };

static struct kunchrol hlr = KUNCHROL_CLOSED_HANDLE;
static uint8_t to[KUNCHROL_MAX_DIGITS], octets[KUNCHROL_MAX_OCTETS], text[MAX_TEXT];
static size_t to_len, len;
static int is_made_again, faults;

/* the IMSI of the subscriber of the frames, whose shard is 1 */
static const char KNOWN[] = "234150000000001";

/* the call, and once more where memory was refused and is no longer */
#define MADE(code, call) \
	do { \
		if (((code) = (call)) == KUNCHROL_MEMORY && is_made_again) \
			(code) = (call); \
	} while (0)

#define HOLDS(fact) \
	do { \
		if (!(fact)) { \
			faults++; \
			dprintf(STANDARD_ERROR, "%s:%d: %s\n", __FILE__, __LINE__, #fact); \
		} \
	} while (0)

#define ANSWERS(wanted, call) \
	do { \
		uint32_t answered; \
		MADE(answered, call); \
		if (answered != (wanted)) { \
			faults++; \
			dprintf(STANDARD_ERROR, "%s:%d: %s: %s\n", __FILE__, __LINE__, #call, kunchrol_name(answered)); \
		} \
	} while (0)

/* a text of C as the two words that it is passed as */
#define TEXT(words) (const uint8_t *)(words), strlen(words)

/* fills what a call may write, so that it is seen whether it did */
static inline void fill(void)
{
	for (size_t at = 0; at < sizeof(text); at++)
		text[at] = FILL;
	for (size_t at = 0; at < sizeof(octets); at++)
		octets[at] = FILL;
	for (size_t at = 0; at < sizeof(to); at++)
		to[at] = FILL;
	to_len = len = FILL;
}

static inline int is_filled(const uint8_t *buffer, size_t size)
{
	for (size_t at = 0; at < size; at++)
		if (buffer[at] != FILL)
			return 0;
	return 1;
}

static inline int is_untouched(void)
{
	return is_filled(text, sizeof(text)) && is_filled(octets, sizeof(octets)) && is_filled(to, sizeof(to));
}

static inline int is_text(const uint8_t *buffer, size_t count, const char *wanted)
{
	return count == strlen(wanted) && !memcmp(buffer, wanted, count);
}

/* whether so many dialogues are open in a shard, and its journal has so many entries */
static inline int is_count(uint8_t shard, size_t wanted_dialogues, size_t wanted_entries)
{
	size_t dialogues = FILL, entries = FILL;

	return !kunchrol_counts(&hlr, shard, &dialogues, &entries) && dialogues == wanted_dialogues && entries == wanted_entries;
}

/* whether nothing is counted, for this reason */
static inline int is_no_count(uint8_t shard, uint32_t code)
{
	size_t dialogues = FILL, entries = FILL;

	return kunchrol_counts(&hlr, shard, &dialogues, &entries) == code && dialogues == FILL && entries == FILL;
}

/* whether the last event was about this subscriber, or with NULL about nobody; what the call does not write stays */
static inline int is_subject(const char *imsi)
{
	uint32_t code;

	fill();
	code = kunchrol_subject(&hlr, text, KUNCHROL_MAX_DIGITS, &len);
	if (!imsi)
		return code == KUNCHROL_NONE && is_untouched() && len == FILL;
	return code == KUNCHROL_OK && is_text(text, len, imsi) && is_filled(text + len, sizeof(text) - len);
}

static inline void open_register(uint8_t journals, uint32_t start)
{
	uint64_t line = FILL;

	ANSWERS(KUNCHROL_OK, kunchrol_open(TEXT(RECORDS), journals, start, &hlr, &line));
	HOLDS(line == 0);
}

#endif
