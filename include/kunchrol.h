/* SPDX-License-Identifier: Apache-2.0 */
/*
 * Kunchrol: the signalling core of a home location register, for a program in C.
 *
 * Link with libkunchrol.a and, after it, the toolchain's liblibc_c.a (docs/USING.md), whose allocator calls malloc, realloc and free.
 *
 * Octets and texts are passed as a pointer and a length. Pointers must not be null, even if the length is 0, and nobody else may change
 * what they point to during a call. Buffers must not overlap. A text is ASCII and ends by its length, not by a zero octet.
 *
 * A struct kunchrol begins as KUNCHROL_CLOSED_HANDLE. From kunchrol_open or kunchrol_restore on it owns memory. Do not copy it, use it in
 * one call at a time and always from the same thread, and leave `at` alone. kunchrol_close frees all its memory. No call keeps a pointer
 * that it was passed, blocks, starts a thread, reads a clock, opens a file or prints.
 *
 * Each call but kunchrol_close and kunchrol_version returns KUNCHROL_OK, or the reason why it did nothing. In that case the register, its
 * clocks and the frames that wait are unchanged, and so is what the call was to write, but for the lengths after KUNCHROL_SMALL, the line
 * of kunchrol_open and kunchrol_restore, and kunchrol_replay, which leaves the lines done that it did before. Any call with a register may
 * return KUNCHROL_CLOSED.
 *
 * A register that is opened or restored with KUNCHROL_KEEP_JOURNALS keeps a journal of each of its sixteen shards: an entry for each event,
 * with the whole frame that came and the frames that were sent. A journal grows until it has 65,536 entries, whether anybody reads it or not;
 * kunchrol_cut empties it. Without that flag no entry is kept, no memory is taken for one, and no event is refused for a full journal.
 */
#ifndef KUNCHROL_H
#define KUNCHROL_H

#include <stddef.h>
#include <stdint.h>

#define KUNCHROL_VERSION_MAJOR 0
#define KUNCHROL_VERSION_MINOR 1
#define KUNCHROL_VERSION_PATCH 0
#define KUNCHROL_VERSION_NUMBER (KUNCHROL_VERSION_MAJOR * 65536 + KUNCHROL_VERSION_MINOR * 256 + KUNCHROL_VERSION_PATCH)

/* The return code of these calls is to be looked at. */
#if defined(__GNUC__)
#define KUNCHROL_CHECKED __attribute__((warn_unused_result))
#else
#define KUNCHROL_CHECKED
#endif

#ifdef __cplusplus
extern "C" {
#endif

enum {
	KUNCHROL_OK = 0,
	KUNCHROL_NONE = 1,        /* no frame waits; no timer is due, or runs; there is no such record; the last event was about nobody */
	KUNCHROL_SMALL = 2,       /* a buffer is too small; the lengths that are needed are stored */
	KUNCHROL_ARGUMENT = 3,    /* digits, codes, a shard, a clock value or a line of a log are not of their form */
	KUNCHROL_CLOSED = 4,      /* the handle has no register */
	KUNCHROL_OPEN = 5,        /* kunchrol_open, kunchrol_restore: the handle already has a register */
	KUNCHROL_JOURNAL = 6,     /* a journal in which an entry is to be made has 65,536: call kunchrol_cut, then repeat the call */
	KUNCHROL_NO_ROOM = 7,     /* an operator's change would open a dialogue, and 4,096 are open in the shard */
	KUNCHROL_MEMORY = 8,      /* out of memory; the call may be repeated */
	KUNCHROL_LINE = 9,        /* kunchrol_open, kunchrol_restore: a line of the records file is not of its form */
	KUNCHROL_TWICE = 10,      /* the same calls: the IMSI or MSISDN of a line of the records file stands on an earlier line */
	KUNCHROL_IMAGE_LINE = 11, /* kunchrol_restore: a line of the image is not of its form, or cannot follow those before it */
	KUNCHROL_IMAGE_SHORT = 12 /* kunchrol_restore: the image ends before all shards are whole */
};

enum {
	KUNCHROL_SHARDS = 16,       /* shards, numbered from 0 */
	KUNCHROL_MAX_DIGITS = 16,   /* the most digits of an address */
	KUNCHROL_MAX_OCTETS = 4096, /* a buffer of this size holds every frame that is sent */
	KUNCHROL_MAX_LINE = 312     /* a buffer of this size holds every record */
};

struct kunchrol {
	void *at;
};

#define KUNCHROL_CLOSED_HANDLE { NULL }

/* The name of a return code. */
static inline const char *kunchrol_name(uint32_t code)
{
	static const char *const names[] = { "ok", "none", "buffer too small", "argument", "closed", "open", "journal full", "no room",
					     "memory", "records line", "records line twice", "image line", "image ends early" };

	return code < sizeof(names) / sizeof(names[0]) ? names[code] : "unknown";
}

/* KUNCHROL_VERSION_NUMBER of the library that is linked. */
uint32_t kunchrol_version(void);

enum {
	KUNCHROL_KEEP_JOURNALS = 1 /* kunchrol_open, kunchrol_restore: keep the entries that kunchrol_cut lists */
};

/*
 * Opens a register, in a closed handle, on the text of a records file (docs/PROTOCOL.md): no dialogue is open, each shard's clock is
 * at 0, and no frame waits. With KUNCHROL_KEEP_JOURNALS as journals it keeps a journal of each shard, with 0 none. If a line has a
 * fault, its number, from 1, is stored at line, otherwise 0.
 *
 * start is a number that differs from one start to the next: a count of starts, or the time in seconds. Local ids begin at a place that it
 * decides, so that what a peer sends for a dialogue of an earlier start names, as a rule, none of this one. Starts whose numbers are
 * equal modulo 4,095 begin alike. To replay a log, pass the number that was passed when the log began.
 */
KUNCHROL_CHECKED uint32_t kunchrol_open(const uint8_t *records, size_t records_len, uint8_t journals, uint32_t start, struct kunchrol *hlr,
					uint64_t *line);

/*
 * Opens, in a closed handle, the register that goes on where it was saved: records is the text that kunchrol_save wrote, and image what
 * kunchrol_image wrote of each of the sixteen shards, one after the other in the order of their numbers, with no event between all these
 * calls. Open dialogues, timers, local ids and clocks are as they were, so there is no number of a start. Journals are kept or not as in
 * kunchrol_open, and are empty. No frame waits: those that waited when the register was saved are not in the texts.
 *
 * The first line with a fault is reported, of the records (KUNCHROL_LINE, KUNCHROL_TWICE) before the image (KUNCHROL_IMAGE_LINE): its
 * number in its text, from 1, is stored at line, otherwise 0. An image that is cut off is refused, wherever it is cut: only its last line
 * feed may be missing. Nothing else tells whether the two texts belong together and are whole, so that is for the caller to see to
 * (docs/OPERATING.md, "Restart without loss"). Records that lack their last lines, an image of another save, and octets that have changed, such
 * as a digit of a deadline, are restored if each line can follow.
 */
KUNCHROL_CHECKED uint32_t kunchrol_restore(const uint8_t *records, size_t records_len, const uint8_t *image, size_t image_len,
					   uint8_t journals, struct kunchrol *hlr, uint64_t *line);

/*
 * The four calls below give one event each, and kunchrol_clock sixteen. What an event sends waits for kunchrol_next, after the frames
 * that still wait: no event drops any.
 *
 * A frame that came: the user data of SCCP's UNITDATA (TCAP), of any octets, and the digits of the calling party's address as ASCII,
 * 1 to 16 digits in international form, without a prefix or filler.
 */
KUNCHROL_CHECKED uint32_t kunchrol_frame(struct kunchrol *hlr, const uint8_t *from, size_t from_len, const uint8_t *octets,
					 size_t octets_len);

/*
 * Sets the clock of all sixteen shards, in ticks, at most 2^62; a lesser value than a shard's clock does not change that one. This does
 * not make any timer expire, and sends nothing. A register without journals never refuses it for want of memory. With journals, one that
 * is full, or memory that is refused, leaves all clocks as they were.
 */
KUNCHROL_CHECKED uint32_t kunchrol_clock(struct kunchrol *hlr, uint64_t now);

/*
 * Expires the timer of a shard that has been due longest. KUNCHROL_NONE, and no event, if none is due at the shard's clock. One call
 * expires one timer: repeat it until KUNCHROL_NONE.
 */
KUNCHROL_CHECKED uint32_t kunchrol_expire(struct kunchrol *hlr, uint8_t shard);

/*
 * Stores when the first timer of all shards is due, in ticks, also if that is past. KUNCHROL_NONE if no timer runs. Until a clock has
 * that value, and as long as no event comes, kunchrol_expire has nothing to do.
 */
KUNCHROL_CHECKED uint32_t kunchrol_deadline(struct kunchrol *hlr, uint64_t *when);

/*
 * New teleservice codes for the subscriber with this IMSI, as a records file has them: `11,21`, or `-` for none. KUNCHROL_NONE, and no
 * event, if there is no record with this IMSI.
 */
KUNCHROL_CHECKED uint32_t kunchrol_codes(struct kunchrol *hlr, const uint8_t *imsi, size_t imsi_len, const uint8_t *codes, size_t codes_len);

/* The end of the subscription with this IMSI. KUNCHROL_NONE, and no event, if there is no record with it. */
KUNCHROL_CHECKED uint32_t kunchrol_withdraw(struct kunchrol *hlr, const uint8_t *imsi, size_t imsi_len);

/*
 * Does what a line of a log says, without its line feed, and answers as the call that it stands for: `F <from> <octets>` kunchrol_frame, the
 * octets in hexadecimal, or `-` for none; `C <ticks>` kunchrol_clock; `E <shard>` kunchrol_expire; `O <imsi> <codes>` kunchrol_codes;
 * `X <imsi>` kunchrol_withdraw. KUNCHROL_ARGUMENT if it is no such line.
 *
 * If you write each line to a log and then give it, the log has exactly what the register was given. The same lines, given in the same
 * order to a register that was opened on the same text with the same start, or restored from the same texts, send the same frames, local
 * ids included, and lead to the same state.
 */
KUNCHROL_CHECKED uint32_t kunchrol_line(struct kunchrol *hlr, const uint8_t *line, size_t line_len);

/*
 * Replays a log: does what each whole line of this text says, one after the other, as kunchrol_line does. A line whose event does nothing is
 * done too. The octets of the lines that are done, with their line feeds, are counted at used. What follows the last line feed is a line whose
 * writing was cut off, and is not read. So a log can be given in pieces that end anywhere: the next one begins at used. What the lines
 * send waits, and takes memory: take or drop it after each piece.
 *
 * If a line is not done, its number in this text, from 1, is stored at line, otherwise 0, and the code says why: KUNCHROL_ARGUMENT if it is no
 * line of a log, otherwise as the call that it stands for. This is the one call that may change the register and return another code
 * than KUNCHROL_OK: the lines before that one are done, and the call may be repeated from used on.
 */
KUNCHROL_CHECKED uint32_t kunchrol_replay(struct kunchrol *hlr, const uint8_t *text, size_t text_len, size_t *used, uint64_t *line);

/* Drops each frame that waits. Nothing else changes. */
KUNCHROL_CHECKED uint32_t kunchrol_drop_frames(struct kunchrol *hlr);

/*
 * Takes the next frame to be sent, in the order of sending: the digits of the address that it goes to, as ASCII, and its octets, the user
 * data of a UNITDATA. KUNCHROL_NONE if none waits. If a buffer is too small, the frame still waits.
 */
KUNCHROL_CHECKED uint32_t kunchrol_next(struct kunchrol *hlr, uint8_t *to, size_t to_size, size_t *to_len, uint8_t *octets,
					size_t octets_size, size_t *octets_len);

/*
 * Stores the IMSI of the subscriber that the last event was about, as ASCII digits, with its length at len; KUNCHROL_MAX_DIGITS hold every one. It
 * is the subscriber of the open dialogue that the event was for, otherwise the one that a Begin or an operator's change names, if there is a
 * record. KUNCHROL_NONE: the last event was about nobody, as a clock value is, and a frame that is no message, or is for no open dialogue and
 * names nobody with a record; or no event has come since the register was opened or restored.
 *
 * An event that did nothing (KUNCHROL_NONE of kunchrol_expire, kunchrol_codes and kunchrol_withdraw) or was refused is none: it stays with the event
 * before. After kunchrol_line the event is that of the line, after kunchrol_replay that of the last line that was done and did something.
 *
 * An event changes no record but this subscriber's. Whether it did is not told: whoever keeps records elsewhere compares the line of
 * kunchrol_record with the one that they have (docs/OPERATING.md, "Records in a database of your own").
 */
KUNCHROL_CHECKED uint32_t kunchrol_subject(struct kunchrol *hlr, uint8_t *imsi, size_t size, size_t *len);

/*
 * The record with this IMSI or MSISDN, as a line of a records file of version 2, without the line feed, with its length at len.
 * KUNCHROL_NONE if there is none.
 */
KUNCHROL_CHECKED uint32_t kunchrol_record(struct kunchrol *hlr, const uint8_t *imsi, size_t imsi_len, uint8_t *buffer, size_t size,
					  size_t *len);
KUNCHROL_CHECKED uint32_t kunchrol_record_of_number(struct kunchrol *hlr, const uint8_t *msisdn, size_t msisdn_len, uint8_t *buffer,
						    size_t size, size_t *len);

/*
 * Stores how many dialogues are open in a shard, of which 4,096 fit, and how many entries its journal has, of which 65,536 fit. When 4,096
 * are open, a peer's Begin that needs one is turned away, and an operator's change that needs one answers KUNCHROL_NO_ROOM. This is for
 * monitoring: it copies and allocates nothing. KUNCHROL_ARGUMENT if there is no such shard.
 */
KUNCHROL_CHECKED uint32_t kunchrol_counts(struct kunchrol *hlr, uint8_t shard, size_t *dialogues, size_t *entries);

/*
 * Lists the open dialogues of a shard, each as a line D and a line I for each of its invocations (docs/PROTOCOL.md, "The program
 * profile"), with the length at len, which is 0 if none is open.
 */
KUNCHROL_CHECKED uint32_t kunchrol_dialogues(struct kunchrol *hlr, uint8_t shard, uint8_t *buffer, size_t size, size_t *len);

/*
 * Writes the records as a records file of version 2 into the buffer, with its length at len. kunchrol_open and kunchrol_restore always read it, as
 * the same records of a register with the same number: they never answer KUNCHROL_LINE or KUNCHROL_TWICE to it. A line has at most 312
 * octets, the first line 22. Open dialogues and clocks are not in it (kunchrol_image writes them), nor journals and the frames that wait. To
 * make it last is the caller's job (docs/OPERATING.md). There is no limit here, in kunchrol_open or in kunchrol_restore, but the program hlr
 * loads no file of more than 16,777,216 octets.
 */
KUNCHROL_CHECKED uint32_t kunchrol_save(struct kunchrol *hlr, uint8_t *buffer, size_t size, size_t *len);

/*
 * Writes the image of a shard into the buffer, with its length at len: its clock, its local ids and its open dialogues with their timers
 * (docs/PROTOCOL.md, "The image of a register"). Nothing changes. For kunchrol_restore call it for each shard from 0 to 15, and
 * kunchrol_save, with no event between these calls; take the frames that wait, before or after.
 */
KUNCHROL_CHECKED uint32_t kunchrol_image(struct kunchrol *hlr, uint8_t shard, uint8_t *buffer, size_t size, size_t *len);

/*
 * Empties the journal of a shard, and writes its listing into the buffer, with its length at len: a line of at most 31 octets for each
 * entry, 2,031,616 octets for a full journal. No record, dialogue or clock changes.
 *
 * After a cut the next event of the shard copies the shard's state, all its records among it, as the state in which the next journal
 * begins. So do not cut after each event (docs/OPERATING.md, "What a journal costs").
 */
KUNCHROL_CHECKED uint32_t kunchrol_cut(struct kunchrol *hlr, uint8_t shard, uint8_t *buffer, size_t size, size_t *len);

/* Frees the register's memory, and leaves the handle closed. Nothing happens to a handle that is closed. */
void kunchrol_close(struct kunchrol *hlr);

#ifdef __cplusplus
}
#endif

#endif
