/* SPDX-License-Identifier: Apache-2.0 */
/* The way between the peers and the register: frames of SCCP become lines of the log, and what the register sends becomes frames. */
#ifndef SIGNALLING_H
#define SIGNALLING_H

#include <stdbool.h>

/* Connects to the STP, as the nodes cs7 of the configuration say. */
bool signalling_begin(void);

/* Sends what the register hands out. */
void signalling_send(void);

#endif
