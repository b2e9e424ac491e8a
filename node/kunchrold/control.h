/* SPDX-License-Identifier: Apache-2.0 */
/* The control interface of Osmocom: GET role, SET codes, SET withdraw; and GET of the counters, as libosmocore has them. */
#ifndef CONTROL_H
#define CONTROL_H

#include <stdbool.h>
#include <stdint.h>

/* Opens the port. */
bool control_begin(void);

/* Answers the changes that wait for a row up to this one, which is durable. 0: none of them will be. */
void control_answer(uint64_t row);

#endif
