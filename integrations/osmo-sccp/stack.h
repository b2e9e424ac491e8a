/* SPDX-License-Identifier: Apache-2.0 */
/* A user of connectionless SCCP (Q.711) over Debian's libosmo-sigtran: a client of an STP on the loopback, by IPA or M3UA. */
#ifndef STACK_H
#define STACK_H

#include <osmocom/sigtran/sccp_sap.h>
#include <stdbool.h>

/* point codes of the loopback, as the STP's files have them: 0.23.2 and 0.23.3 */
enum { REGISTER_POINT_CODE = 23 * 8 + 2, PEER_POINT_CODE = 23 * 8 + 3 };

/* What an N-UNITDATA or N-NOTICE indication says. It lasts for the call. */
struct stack_frame {
	const struct osmo_sccp_addr *calling, *called;
	const uint8_t *octets;
	size_t len;
};

/* How much waits at most until there is a way to the STP: frames, and octets of their user data. */
struct stack_limits {
	size_t frames, octets;
};

struct stack_user {
	const char *name; /* `hlr` or `peer`, by which the STP's file knows it */
	uint32_t point_code;
	uint32_t other_point_code; /* where frames go whose address names none, since the library routes by point codes alone */
	const uint32_t *subsystems; /* ended by 0 */
	struct stack_limits limits;
	void (*take_frame)(const struct stack_frame *frame);
	void (*take_notice)(const struct stack_frame *returned, uint32_t cause);
};

/* Connects to the STP on the loopback, by `ipa` or `m3ua`, for each of the user's subsystems. */
bool stack_open(const struct stack_user *user, const char *protocol);

/* The same with an instance of the library that the program has made, and whose turns it takes (way.h). */
bool stack_use(const struct stack_user *user, struct osmo_sccp_instance *instance);

/*
 * Sends a frame as a UDT, in order, as soon as the STP takes it: what is sent while there is no way to the STP waits. Of more than the limits
 * allow, the oldest frames are dropped (unsent.h). False, and it is told, where a frame is never sent: an address cannot be written, it
 * does not fit (the library sends no XUDT), or there is no memory.
 */
bool stack_send(const struct stack_frame *frame);

/* Waits until something came, and not longer than this. Whether something came. */
bool stack_wait(unsigned milliseconds);

/* Sends what waits if that can be done in a second, and gives everything back. */
void stack_close(void);

/* Tells of a user what happens, as printf does, in a line without its line feed: each program in its own way (told.c). */
void stack_tell(const struct stack_user *user, const char *format, ...) __attribute__((format(printf, 2, 3)));

#endif
