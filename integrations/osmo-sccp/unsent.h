/* SPDX-License-Identifier: Apache-2.0 */
/*
 * Frames that wait until they can be sent, in the order in which they came: at most so many, with so many octets of user data. If one more is
 * too much, the oldest are dropped: who waits for these has waited longest, and gives a dialogue up first. To the peer such a frame was lost.
 */
#ifndef UNSENT_H
#define UNSENT_H

#include "stack.h"

#include <osmocom/core/linuxlist.h>

/* A frame with what it points to. Who has taken it frees it. */
struct unsent {
	struct llist_head list;
	struct stack_frame frame;
	struct osmo_sccp_addr calling, called;
	uint8_t octets[];
};

/* Adds a frame. False if there is no memory. */
bool unsent_add(const struct stack_frame *frame, const struct stack_limits *limits);

/* Takes the oldest one out; null if none waits. */
struct unsent *unsent_take(void);

/* Puts one back that was taken: it is the oldest again. */
void unsent_put_back(struct unsent *it);

/* How many wait, and how many were dropped since the program began. */
size_t unsent_count(void);
unsigned long unsent_dropped(void);

#endif
