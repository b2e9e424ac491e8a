/* SPDX-License-Identifier: Apache-2.0 */
/*
 * A thread that makes the calls of a store, one at a time, so that whoever asks need not wait for a disk or another machine.
 *
 * After a call was asked for, the store and what was passed belong to the thread until caller_answer.
 */
#ifndef CALLER_H
#define CALLER_H

#include "store.h"
#include "text.h"

struct caller;

/* Null if there is no memory, or no thread. */
struct caller *caller_begin(struct store *store);

/* Asks for a call. The octets of a row stay where they are; null stands for a row for which there was no memory: it is refused. */
void caller_append(struct caller *it, uint64_t seq, const uint8_t *lines, size_t len);
void caller_read(struct caller *it, uint64_t after);

/* Becomes readable when the answer is there. */
int caller_fd(const struct caller *it);

/* Waits for the answer. */
enum store_answer caller_answer(struct caller *it);

/* Gives the reader each row that the last call has read; false if it returned false. */
bool caller_rows(const struct caller *it, const struct store_reader *reader);

/* Ends the thread. No call may be under way. */
void caller_end(struct caller *it);

#endif
