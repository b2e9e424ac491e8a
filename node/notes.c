/* SPDX-License-Identifier: Apache-2.0 */
#define _GNU_SOURCE /* memmem */
#include "notes.h"

#include <stdio.h>
#include <stdlib.h>
#include <string.h>

/* 131,072 in all, twice as many as sixteen shards hold dialogues; a dialogue has its place in one of the sets */
enum { SETS = 16384, WAYS = 8 };

struct kept {
	uint64_t number; /* which it was, from 1; 0 if there is none */
	struct note note;
};

struct notes {
	uint64_t count;
	struct kept sets[SETS][WAYS];
};

struct notes *notes_begin(void)
{
	return calloc(1, sizeof(struct notes));
}

void notes_end(struct notes *it)
{
	free(it);
}

/* The hash FNV-1a goes on with a text. */
static uint32_t mixed(uint32_t sum, const char *text)
{
	while (*text)
		sum = (sum ^ (uint8_t)*text++) * 16777619u;
	return sum;
}

static size_t set_of(const char *digits, const char *id)
{
	return mixed(mixed(2166136261u, digits), id) % SETS;
}

static bool is_of(const struct kept *kept, const char *digits, const char *id)
{
	return kept->number && !strcmp(kept->note.digits, digits) && !strcmp(kept->note.id, id);
}

void notes_keep(struct notes *it, const struct note *note)
{
	struct kept *set = it->sets[set_of(note->digits, note->id)], *place = set;

	for (size_t way = 1; way < WAYS; way++)
		if (set[way].number < place->number)
			place = &set[way];
	for (size_t way = 0; way < WAYS; way++)
		if (is_of(&set[way], note->digits, note->id))
			place = &set[way];
	*place = (struct kept){ ++it->count, *note };
}

const char *notes_find(const struct notes *it, const char *digits, const char *id)
{
	const struct kept *set = it->sets[set_of(digits, id)];

	for (size_t way = 0; way < WAYS; way++)
		if (is_of(&set[way], digits, id))
			return set[way].note.words;
	return NULL;
}

size_t note_write(char line[NOTE_LINE + 1], const struct note *note)
{
	return (size_t)snprintf(line, NOTE_LINE + 1, "# note %s %s %s\n", note->digits, note->id, note->words);
}

bool note_read(const uint8_t *line, size_t len, struct note *note)
{
	char text[NOTE_LINE + 1] = { 0 };
	int end = 0;

	if (len >= NOTE_LINE)
		return false;
	memcpy(text, line, len);
	return sscanf(text, "# note %16[0-9] %8[0-9A-F] %96[^\n]%n", note->digits, note->id, note->words, &end) == 3 && (size_t)end == len;
}

size_t notes_front(const uint8_t *text, size_t len)
{
	const uint8_t *found = !len || *text == '#' ? text : memmem(text, len, "\n#", 2);

	return found == text ? 0 : found ? (size_t)(found - text) + 1 : len;
}

size_t notes_take(struct notes *it, const uint8_t *text, size_t len)
{
	const uint8_t *end = memchr(text, '\n', len);
	struct note note;

	if (!end || !note_read(text, (size_t)(end - text), &note))
		return 0;
	notes_keep(it, &note);
	return (size_t)(end - text) + 1;
}

bool notes_of_image_line(const struct notes *it, const uint8_t *line, size_t len, struct note *note)
{
	char front[80] = { 0 };
	const char *words = NULL;

	memcpy(front, line, len < sizeof(front) ? len : sizeof(front) - 1);
	if (sscanf(front, "D %*s %*s %16[0-9] %8[0-9A-F]", note->digits, note->id) == 2)
		words = notes_find(it, note->digits, note->id);
	if (words)
		snprintf(note->words, sizeof(note->words), "%s", words);
	return words;
}
