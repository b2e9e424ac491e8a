/* SPDX-License-Identifier: Apache-2.0 */
/*
 * A register that loses nothing: its events are rows of a log in a store, and what they send is held back until the store has them.
 *
 * Events gather in a group: each is a line of a log (docs/PROTOCOL.md), which is given to the register. A commit appends the lines of the
 * group as one row, and only then are the frames that they sent handed out. A row begins with a line
 *
 *     # epoch <n> <name> <octets>
 *
 * with the number of the first row of this process, a name that no other process has, and how many octets follow in the row. So no two
 * processes write one text, and a row that is not whole is known. A further line that begins with # is a note of the front end (notes.h), which
 * is as durable as the events beside it.
 *
 * Of the processes on one store one leads: it alone is given events. To lead is to append a row with such a line alone. That row settles what
 * was there before: a row that a process who died was just writing is before it and stays, or never comes. The others follow: they replay the
 * rows that are new, and drop the frames. Nobody is asked to stop leading. Whoever leads finds the number of its next row taken.
 *
 * The calls of the store are made by a thread: durable_start asks for one, durable_fd becomes readable when the answer is there, and
 * durable_finish takes it. Meanwhile events may be given, which gather for the next row. All calls here are for one thread.
 *
 * The events of a group that was not appended cannot be taken back. After another answer than DURABLE nothing of it is handed out and the
 * register is closed: open it again from the store, or end. If the process dies after a row is in the log and before its frames went out,
 * they do not go out later: for the register they were sent, and for the peers they were lost.
 */
#ifndef DURABLE_H
#define DURABLE_H

#include "../include/kunchrol.h"
#include "caller.h"
#include "notes.h"
#include "store.h"
#include "text.h"

#include <time.h>

/* What the store is asked to do. After another answer than DURABLE the register is closed, unless it says otherwise. */
enum durable_job {
	DURABLE_NOTHING,
	DURABLE_LEAD,   /* appends a row without events, and leads. TAKEN: another was faster: it follows on; REFUSED leaves it open too */
	DURABLE_COMMIT, /* of one who leads: appends the group */
	DURABLE_LEAVE,  /* of one who leads and has no group: appends a row that says so, and follows: another may lead at once. TAKEN as above */
	DURABLE_FOLLOW  /* of one who does not lead: replays the rows that are new. TAKEN: the log has gone on without it, or is another one: open it
			   again; STOPPED: a row is damaged; REFUSED leaves it open */
};

struct durable {
	struct kunchrol hlr; /* it has events that the store may not have: for calls that only read */
	struct store *store;
	struct caller *caller;
	struct notes *notes;
	enum store_answer answer;          /* DURABLE as long as it is open, otherwise why it is not */
	enum durable_job job;              /* what the store was asked to do and has not been finished */
	bool leads;
	bool is_left;                      /* the last row is that of one who leaves */
	bool is_behind;                    /* the row that came last is not the next one, but a later one */
	uint64_t next;                     /* the number of the next row */
	uint64_t from;                     /* that of the image that it was opened from */
	uint64_t found;                    /* how many rows the last FOLLOW found */
	struct timespec asked_at, heard_at; /* when the job was started, and when a row was seen */
	char name[128];                    /* `<n> <name>` */
	struct text lines;                 /* the group that gathers */
	struct text row;                   /* the row that is being appended */
	struct text frames;                /* those that may be handed out, from `taken` to `free`, and then those of that row */
	size_t taken, free;
};

struct durable_frame {
	size_t to_len, len;
	uint8_t to[KUNCHROL_MAX_DIGITS], octets[KUNCHROL_MAX_OCTETS];
};

/* Puts the text of a records file into a store that has nothing, as image 0. TAKEN if it has something, STOPPED if the text has a fault. */
enum store_answer durable_begin(struct store *store, const uint8_t *records, size_t len);

/*
 * Opens the register that is in the store, in a struct that has none: of the newest image that can be restored, and the rows after it. It
 * waits for the store. NONE if the store has nothing yet, STOPPED if no image can be restored or a row is damaged; it is told which. Close
 * it in any case.
 */
enum store_answer durable_open(struct durable *it, struct store *store);

/*
 * Gives an event, and adds it to the group. Another code than OK: nothing happened, and it is not in the group (kunchrol_line); CLOSED also
 * if it does not lead. A group grows as long as its commit is not started: give no more when lines.len is as much as you want to have waiting.
 */
KUNCHROL_CHECKED uint32_t durable_line(struct durable *it, const uint8_t *line, size_t len);

/*
 * Adds a note to the group. Answers as durable_line. Give it with each frame that names the peer's id, also if it says what the last one did: an
 * image keeps the notes of the dialogues that are open, and nobody here knows whether that one still was.
 */
KUNCHROL_CHECKED uint32_t durable_note(struct durable *it, const struct note *note);

/*
 * The words of the last note of a dialogue, also of one that is not committed, or null. Those of all dialogues that are open are there, and for a
 * while those of others; of very many that fall into one place the oldest are forgotten (notes_keep).
 */
const char *durable_noted(const struct durable *it, const char *digits, const char *id);

/* Whether the store was asked: not if the register is closed, a job is under way, no event has gathered, or it is not for this role. */
bool durable_start(struct durable *it, enum durable_job job);

/* Readable when the answer is there; the same until the register is closed by durable_close. */
int durable_fd(const struct durable *it);

/* The answer to the job that is under way, for which it waits. If none is, DURABLE, or why the register is closed. */
enum store_answer durable_finish(struct durable *it);

/*
 * Whether it is time to lead: the last row says that its process leaves, or no row was seen for so long. While the store itself gave no
 * answer nothing is known of the one who leads, so that time does not count.
 */
bool durable_may_lead(const struct durable *it, unsigned milliseconds);

/* The next frame that may be sent, in the order of sending; false if there is none. */
bool durable_next(struct durable *it, struct durable_frame *frame);

/* Adds to a text what the register has now: its records, or of a shard the image, the open dialogues, or their notes. */
enum durable_part { DURABLE_RECORDS, DURABLE_IMAGE, DURABLE_DIALOGUES, DURABLE_NOTES };
KUNCHROL_CHECKED uint32_t durable_write(struct durable *it, enum durable_part part, uint8_t shard, struct text *text);

/* Puts the image of a register that was opened and given no event since. It waits for the store. */
enum store_answer durable_put_image(struct durable *it);

/*
 * Frees its memory, after the answer to a job that is under way. What was not committed is not in the store. The store stays open. A process
 * that cannot wait ends without this call, as if it was killed.
 */
void durable_close(struct durable *it);

#endif
