/* SPDX-License-Identifier: Apache-2.0 */
/* The register as a program with a clock uses it: frames, and ticks. It keeps no journals. */
#ifndef HLR_H
#define HLR_H

#include "../../include/kunchrol.h"

#include <stdbool.h>

/* Takes each frame that the register sends, in order. */
typedef void (*send_function)(const char *to, const uint8_t *octets, size_t len);

/* Opens the register on a records file. The register's own number is put at `own`. A fault is told on standard error. */
bool hlr_open(const char *path, send_function send, char own[KUNCHROL_MAX_DIGITS + 1]);

/* Gives a frame, and sends what waits. The number of the answer; where it is not KUNCHROL_OK the register is as it was. */
uint32_t hlr_frame(const char *from, const uint8_t *octets, size_t len);

/* Sets the clock. */
uint32_t hlr_time(uint64_t now);

/* Gives at most so many expiries, and sends what waits. KUNCHROL_NONE if no timer is due any more. */
uint32_t hlr_expire(unsigned most);

void hlr_close(void);

#endif
