/* SPDX-License-Identifier: Apache-2.0 */
/* Scripts of the program `hlr` (docs/PROTOCOL.md), as far as they are a peer's: lines `F <from> <octets>`, `W` and `E`. */
#ifndef SCRIPT_H
#define SCRIPT_H

#include <stdbool.h>
#include <stddef.h>
#include <stdint.h>
#include <stdio.h>

enum { MAX_FRAME = 4096, MAX_NUMBER = 16 };

struct script_line {
	enum { FRAME_LINE, BATCH_END, EXPIRY_LINE } kind;
	char from[MAX_NUMBER + 1];
	uint8_t octets[MAX_FRAME];
	size_t len;
};

/* Notes the id that a frame from the register names as its own: the first is $A, the second $B, .. */
void note_letter(const uint8_t *octets, size_t len);

/* Reads a line, with the ids that were noted in the place of letters. False where it is none of a peer's. */
bool read_line(const char *text, struct script_line *line);

/* Writes a frame as the program `hlr` prints what it sends: `S <to> <octets>`. */
void print_frame(FILE *file, const char *to, const uint8_t *octets, size_t len);

#endif
