/* SPDX-License-Identifier: Apache-2.0 */
#include "ticks.h"

#include <stdlib.h>
#include <string.h>
#include <time.h>

enum { KEPT = 4096 };

/* the last ones, each in the place of its number modulo their count */
static uint64_t elapsed[KEPT], processor[KEPT];
static struct tick_time begun, longest;
static uint64_t count;

static uint64_t microseconds(clockid_t clock)
{
	struct timespec now = { 0, 0 };

	clock_gettime(clock, &now);
	return (uint64_t)now.tv_sec * 1000000 + (uint64_t)now.tv_nsec / 1000;
}

static struct tick_time time_now(void)
{
	return (struct tick_time){ microseconds(CLOCK_MONOTONIC), microseconds(CLOCK_PROCESS_CPUTIME_ID) };
}

static uint64_t greater(uint64_t a, uint64_t b)
{
	return a > b ? a : b;
}

void tick_begins(void)
{
	begun = time_now();
}

void tick_has_ended(void)
{
	struct tick_time now = time_now();
	size_t place = count++ % KEPT;

	elapsed[place] = now.elapsed - begun.elapsed;
	processor[place] = now.processor - begun.processor;
	longest.elapsed = greater(longest.elapsed, elapsed[place]);
	longest.processor = greater(longest.processor, processor[place]);
}

static int by_size(const void *a, const void *b)
{
	const uint64_t *one = a, *other = b;

	return (*one > *other) - (*one < *other);
}

static uint64_t part_of(const uint64_t *times, unsigned percent)
{
	static uint64_t sorted[KEPT];
	size_t kept = count < KEPT ? (size_t)count : KEPT;

	if (!kept)
		return 0;
	memcpy(sorted, times, kept * sizeof(*times));
	qsort(sorted, kept, sizeof(*sorted), by_size);
	return sorted[(kept - 1) * percent / 100];
}

struct tick_time tick_time(unsigned percent)
{
	if (percent == 100)
		return longest;
	return (struct tick_time){ part_of(elapsed, percent), part_of(processor, percent) };
}

uint64_t tick_count(void)
{
	return count;
}
