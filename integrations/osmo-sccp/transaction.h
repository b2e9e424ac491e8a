/* SPDX-License-Identifier: Apache-2.0 */
/* The transaction ids of a TCAP message (Q.773), which say what dialogue it belongs to. */
#ifndef TRANSACTION_H
#define TRANSACTION_H

#include <stddef.h>
#include <stdint.h>

enum { MAX_ID = 4 };

/* A transaction id of one to four octets. The length is 0 where a message has none. */
struct transaction_id {
	size_t len;
	uint8_t octets[MAX_ID];
};

struct transaction {
	struct transaction_id originating;
	struct transaction_id destination;
};

/* Reads the ids at the front of a message. What cannot be read counts as no id; the register has its own, proved reader. */
void read_transaction(const uint8_t *octets, size_t len, struct transaction *read);

#endif
