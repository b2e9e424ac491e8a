/* SPDX-License-Identifier: Apache-2.0 */
/* How long the ticks of the register take: by the clock on the wall, which has other processes in it, and by its processor time. */
#ifndef TICKS_H
#define TICKS_H

#include <stdint.h>

/* A tick, or a part of one that has too many expiries for one turn, begins, and has ended: all that lies between is measured. */
void tick_begins(void);
void tick_has_ended(void);

/* Of `percent` % of the last 4,096 ticks, or of all if there were fewer, none was longer; 100 is the longest tick of all. In microseconds. */
struct tick_time {
	uint64_t elapsed, processor;
};
struct tick_time tick_time(unsigned percent);

/* How many ticks there were. */
uint64_t tick_count(void);

#endif
