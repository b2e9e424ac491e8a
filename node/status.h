/* SPDX-License-Identifier: Apache-2.0 */
/* How the programs end: a status, and a line on standard error. */
#ifndef STATUS_H
#define STATUS_H

#include "store.h"

#include <stdio.h>

enum {
	END_WELL = 0,
	END_WORDS = 2,    /* the words of the command, or a file that they name, cannot be used */
	END_STORE = 3,    /* the store cannot be opened; after it, up to 7, the answers of a store but DURABLE */
	END_TAKEN = END_STORE + STORE_TAKEN,
	END_REFUSED = END_STORE + STORE_REFUSED,
	END_NONE = END_STORE + STORE_NONE,
	END_STOPPED = END_STORE + STORE_STOPPED,
	END_PIPE = 8      /* standard input or output failed */
};

static inline int ended(int status)
{
	static const char *const words[] = { "",
					     "",
					     "wrong words",
					     "the store cannot be opened",
					     "taken: another process has written to the store",
					     "refused by the store",
					     "the store has no register",
					     "the register cannot be opened",
					     "standard input or output failed" };

	if (status)
		fprintf(stderr, "ended: %s\n", words[status]);
	return status;
}

static inline int ended_by(enum store_answer answer)
{
	return ended(answer ? END_STORE + (int)answer : END_WELL);
}

#endif
