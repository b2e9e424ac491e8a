/* SPDX-License-Identifier: Apache-2.0 */
/*
 * What a front end knows of the peers' dialogues besides the digits, such as an address: words, by the peer's digits and the transaction id that
 * the peer gave, in hexadecimal. In a row of the log, and before an image, a note is a line
 *
 *     # note <digits> <id> <words>
 */
#ifndef NOTES_H
#define NOTES_H

#include "../include/kunchrol.h"

#include <stdbool.h>

enum { NOTE_ID = 8, NOTE_WORDS = 96, NOTE_LINE = NOTE_WORDS + KUNCHROL_MAX_DIGITS + NOTE_ID + 16 };

struct note {
	char digits[KUNCHROL_MAX_DIGITS + 1], id[NOTE_ID + 1], words[NOTE_WORDS + 1];
};

struct notes;

/* A memory of notes; null if there is none to be had. */
struct notes *notes_begin(void);
void notes_end(struct notes *it);

/* Keeps a note, in the place of one of the same dialogue: 131,072 of them, in sets of eight; in a full set the oldest gives way. */
void notes_keep(struct notes *it, const struct note *note);

/* The words of a dialogue, or null. */
const char *notes_find(const struct notes *it, const char *digits, const char *id);

/* Writes a note as a line with its line feed, of at most NOTE_LINE octets, and returns how many. */
size_t note_write(char line[NOTE_LINE + 1], const struct note *note);

/* Reads a line, without its line feed; false if it is no note. */
bool note_read(const uint8_t *line, size_t len, struct note *note);

/* How many octets of a text stand before its first line that begins with #. */
size_t notes_front(const uint8_t *text, size_t len);

/* Reads and keeps the note that a text begins with, and returns its octets, with its line feed; 0 if there is none. */
size_t notes_take(struct notes *it, const uint8_t *text, size_t len);

/* The note of the open dialogue that is on a line of an image (docs/PROTOCOL.md). False if the line is another one, or there is no note. */
bool notes_of_image_line(const struct notes *it, const uint8_t *line, size_t len, struct note *note);

#endif
