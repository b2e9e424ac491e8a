/* SPDX-License-Identifier: Apache-2.0 */
/* What all parts of the daemon share: its settings, its counters, the categories of its log. */
#ifndef DAEMON_H
#define DAEMON_H

#include <osmocom/core/logging.h>
#include <osmocom/core/rate_ctr.h>
#include <stdbool.h>

/* Categories of the log: the daemon and its events, the store, the way to the peers. */
enum { DKUNCHROL, DSTORE, DSCCP };
extern const struct log_info daemon_log_info;

/* What the configuration says. It is read at the start: a change of one of these is for the next start. */
struct settings {
	char *store;
	char *records; /* or null */
	char *peers;   /* the name of an SCCP address, whose point code stands for that of a peer that gives none */
	unsigned patience; /* seconds, of one of a pair; 0 for one that is alone */
	unsigned ticks;    /* a second */
};
extern struct settings settings;

enum counter {
	FRAMES_TAKEN,
	FRAMES_SENT,
	FRAMES_UNSENT,
	FRAMES_LOST,
	FRAMES_RETURNED,
	FRAMES_UNREADABLE,
	FRAMES_NOT_LEADING,
	FRAMES_NO_ROOM,
	EVENTS_REFUSED,
	EVENTS_OF_OPERATOR,
	ROWS,
	LEADS,
	FOLLOWS,
	COUNTERS
};
extern struct rate_ctr_group *counters;

/* All that is allocated by talloc belongs to this. */
extern void *daemon_context;

/* Counts one. */
void count(enum counter counter);

/* Counts one, and says whether there was no such count for a second, so that it may be told. */
bool count_and_tell(enum counter counter);

/* Gets the logging and the counters ready, before anything else. */
void daemon_begin(void);

#endif
