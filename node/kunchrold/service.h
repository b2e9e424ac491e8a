/* SPDX-License-Identifier: Apache-2.0 */
/*
 * The register of the daemon, on the event loop of libosmocore: it leads, or follows another process, gathers events, has them committed one
 * group at a time, and hands out frames only after that.
 */
#ifndef SERVICE_H
#define SERVICE_H

#include "../durable.h"

/* Opens the store and the register that the settings name, and begins. The status with which the process is to end (status.h), or 0. */
int service_begin(void);

/* Does what is to be done after a turn of the loop: begins a job of the store, and sends what may be sent. */
void service_turn(void);

/* Has it end in order: what has gathered is committed, and one of a pair leaves. */
void service_end(void);

/* Whether it has ended, and with which status. */
bool service_is_over(void);
int service_status(void);

/* Frees all, after an answer of the store that is under way. */
void service_close(void);

/* Gives an event. Another code than OK: nothing happened; CLOSED also if it does not lead, or ends. */
uint32_t service_give(const char *line, size_t len);

/* The same with a frame, before which the note of its dialogue is kept, if there is one. It is dropped if it cannot be taken now. */
void service_take_frame(const struct note *note, const char *line, size_t len);

/* The number of the row that has what was given last, when it is durable. */
uint64_t service_row(void);

/* Whether this process is one of a pair. */
bool service_is_paired(void);

/* Has one of a pair that leads commit and leave; false if it is none. */
bool service_leave(void);

/* The register, to be read, and the number of the last row that is durable. */
struct durable *service_register(void);
uint64_t service_last_row(void);

/* The register's own number. */
const char *service_number(void);

/* How long the job of the store that is under way has taken, in milliseconds; 0 if there is none. */
unsigned long long service_waits(void);

#endif
