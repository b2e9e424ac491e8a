/* SPDX-License-Identifier: Apache-2.0 */
#include "hlr.h"

#include <stdio.h>
#include <stdlib.h>
#include <string.h>
#include <time.h>

static struct kunchrol hlr = KUNCHROL_CLOSED_HANDLE;
static send_function send_frame;

/* Sends all frames that wait, after a call that answered so. */
static uint32_t send_after(uint32_t code)
{
	uint8_t to[KUNCHROL_MAX_DIGITS], octets[KUNCHROL_MAX_OCTETS];
	char digits[KUNCHROL_MAX_DIGITS + 1];
	size_t to_len, len;

	if (code)
		return code;
	while (!(code = kunchrol_next(&hlr, to, sizeof(to), &to_len, octets, sizeof(octets), &len))) {
		memcpy(digits, to, to_len);
		digits[to_len] = 0;
		send_frame(digits, octets, len);
	}
	return code == KUNCHROL_NONE ? KUNCHROL_OK : code;
}

uint32_t hlr_frame(const char *from, const uint8_t *octets, size_t len)
{
	return send_after(kunchrol_frame(&hlr, (const uint8_t *)from, strlen(from), octets, len));
}

uint32_t hlr_time(uint64_t now)
{
	return kunchrol_clock(&hlr, now);
}

uint32_t hlr_expire(unsigned most)
{
	static uint8_t shard; /* it goes on where it stopped, so that each has its turn */
	unsigned without = 0;

	while (most && without < KUNCHROL_SHARDS) {
		uint32_t code = send_after(kunchrol_expire(&hlr, shard));

		if (code && code != KUNCHROL_NONE)
			return code;
		if (code == KUNCHROL_NONE) {
			shard = (shard + 1) % KUNCHROL_SHARDS;
			without++;
		} else {
			without = 0;
			most--;
		}
	}
	return without == KUNCHROL_SHARDS ? KUNCHROL_NONE : KUNCHROL_OK;
}

/* The text of a file, with its length; null if it cannot be had. The caller frees it. */
static char *read_text(FILE *file, size_t *len)
{
	size_t size = 65536;
	char *text = malloc(size), *longer;

	*len = 0;
	while (text && (*len += fread(text + *len, 1, size - *len, file)) == size) {
		longer = realloc(text, size *= 2);
		if (!longer)
			free(text);
		text = longer;
	}
	if (text && !ferror(file)) {
		text[*len] = 0;
		return text;
	}
	free(text);
	return NULL;
}

bool hlr_open(const char *path, send_function send, char own[KUNCHROL_MAX_DIGITS + 1])
{
	FILE *file = fopen(path, "rb");
	size_t len = 0;
	char *text = file ? read_text(file, &len) : NULL;
	uint32_t code = KUNCHROL_MEMORY;
	uint64_t line = 0;

	if (text)
		code = kunchrol_open((const uint8_t *)text, len, 0, (uint32_t)time(NULL), &hlr, &line);
	if (!text)
		fprintf(stderr, "hlr: cannot read %s\n", path);
	else if (code)
		fprintf(stderr, "hlr: %s line %llu: %s\n", path, (unsigned long long)line, kunchrol_name(code));
	else if (sscanf(text, "HLR%*1[12] %16[0-9]", own) != 1)
		own[0] = 0;
	free(text);
	if (file)
		fclose(file);
	send_frame = send;
	return code == KUNCHROL_OK;
}

void hlr_close(void)
{
	kunchrol_close(&hlr);
}
