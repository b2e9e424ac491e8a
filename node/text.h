/* SPDX-License-Identifier: Apache-2.0 */
/* A text that grows. It begins as all zeros. */
#ifndef TEXT_H
#define TEXT_H

#include <stdbool.h>
#include <stdint.h>
#include <stdlib.h>
#include <string.h>

struct text {
	uint8_t *at;
	size_t len, size;
};

/* Whether there is memory for so many octets more. */
static inline bool text_has_space(struct text *text, size_t more)
{
	size_t size = 2 * (text->len + more);
	uint8_t *at;

	if (text->len + more <= text->size)
		return true;
	at = realloc(text->at, size);
	if (!at)
		return false;
	text->at = at;
	text->size = size;
	return true;
}

/* Adds octets, for which there is space. */
static inline void text_add(struct text *text, const void *octets, size_t len)
{
	memcpy(text->at + text->len, octets, len);
	text->len += len;
}

/* Takes the first octets away. */
static inline void text_drop(struct text *text, size_t len)
{
	text->len -= len;
	if (len && text->len)
		memmove(text->at, text->at + len, text->len);
}

static inline void text_free(struct text *text)
{
	free(text->at);
	*text = (struct text){ NULL, 0, 0 };
}

#endif
