/* SPDX-License-Identifier: Apache-2.0 */
/*
 * The way of frames to the STP. What is to be sent while there is none waits (unsent.h), and is sent, in order, when there is one again. What
 * was in the sockets of an STP that has died is not sent once more: the STP has passed it on or not.
 */
#ifndef WAY_H
#define WAY_H

#include "stack.h"

/* Begins to send as one of the library's users. */
void way_open(const struct stack_user *user, struct osmo_sccp_instance *sccp, struct osmo_sccp_user *sender);

/* Sends a frame, or has it wait. False if there is no memory. */
bool way_send(const struct stack_frame *frame);

/* Looks whether there is a way, tells if that has changed, and sends what waits. To be called after each turn of the library. */
void way_turn(void);

/* Whether the STP takes frames. */
bool way_is_up(void);

/* How many frames wait to be sent. */
size_t way_waiting(void);

/* How many frames that were to be sent are lost: dropped, refused by the library, or waiting at the end. */
unsigned long way_lost(void);

/* Drops what waits. */
void way_close(void);

#endif
