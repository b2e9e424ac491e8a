/* SPDX-License-Identifier: Apache-2.0 */
#include "script.h"
#include "transaction.h"

#include <ctype.h>
#include <string.h>

enum { MAX_LETTERS = 26 };

static uint8_t ids[MAX_LETTERS][MAX_ID];
static size_t id_count;

void note_letter(const uint8_t *octets, size_t len)
{
	struct transaction transaction;

	read_transaction(octets, len, &transaction);
	if (transaction.originating.len != MAX_ID || id_count == MAX_LETTERS)
		return;
	for (size_t at = 0; at < id_count; at++)
		if (!memcmp(ids[at], transaction.originating.octets, MAX_ID))
			return;
	memcpy(ids[id_count++], transaction.originating.octets, MAX_ID);
}

static int digit(char c)
{
	return isdigit((unsigned char)c) ? c - '0' : isxdigit((unsigned char)c) ? toupper((unsigned char)c) - 'A' + 10 : -1;
}

/* the octets that the next two characters stand for: four of an id for a letter, else one; 0 where they stand for none */
static size_t read_pair(const char *text, uint8_t *octets)
{
	size_t letter = (size_t)(text[1] - 'A');

	if (text[0] == '$') {
		if (text[1] < 'A' || letter >= id_count)
			return 0;
		memcpy(octets, ids[letter], MAX_ID);
		return MAX_ID;
	}
	if (digit(text[0]) < 0 || digit(text[1]) < 0)
		return 0;
	*octets = (uint8_t)(digit(text[0]) * 16 + digit(text[1]));
	return 1;
}

static bool read_frame(const char *text, struct script_line *line)
{
	int behind = 0;

	line->kind = FRAME_LINE;
	line->len = 0;
	if (sscanf(text, "F %16[0-9] %n", line->from, &behind) != 1 || !behind)
		return false;
	for (text += behind; *text; text += 2) {
		size_t count = line->len + MAX_ID > MAX_FRAME ? 0 : read_pair(text, line->octets + line->len);

		if (!count)
			return false;
		line->len += count;
	}
	return true;
}

bool read_line(const char *text, struct script_line *line)
{
	line->kind = strcmp(text, "E") ? BATCH_END : EXPIRY_LINE;
	return !strcmp(text, "E") || !strcmp(text, "W") || read_frame(text, line);
}

void print_frame(FILE *file, const char *to, const uint8_t *octets, size_t len)
{
	fprintf(file, "S %s ", to);
	for (size_t at = 0; at < len; at++)
		fprintf(file, "%02X", octets[at]);
	putc('\n', file);
}
