/* The replay of a log that lies in a file, for the trials that die. */
#ifndef REPLAY_H
#define REPLAY_H

#include "../../include/kunchrol.h"
#include "libc.h"

enum { PIECE = 1237 };

/* Gives the whole lines of the log again, piece by piece, takes what they send, and cuts off a line that is not whole. Counts the events. */
static inline uint32_t replay(struct kunchrol *hlr, int file, char *text, size_t *events, uint32_t (*take)(void))
{
	size_t len = 0, used = 0, at = 0;
	uint32_t code = KUNCHROL_OK;
	uint64_t fault;
	long count;

	while (!code && (count = read(file, text + len, PIECE)) > 0) {
		len += (size_t)count;
		code = kunchrol_replay(hlr, (const uint8_t *)text + at, len - at, &used, &fault);
		for (size_t end = at + used; at < end; at++)
			*events += text[at] == '\n';
		if (!code)
			code = take();
	}
	return ftruncate(file, (long)at) || lseek(file, (long)at, 0) < 0 ? KUNCHROL_MEMORY : code;
}

#endif
