/* SPDX-License-Identifier: Apache-2.0 */
#include "unsent.h"

#include <stdlib.h>
#include <string.h>

static LLIST_HEAD(all);
static size_t count, octets;
static unsigned long dropped;

struct unsent *unsent_take(void)
{
	struct unsent *it = llist_first_entry_or_null(&all, struct unsent, list);

	if (!it)
		return NULL;
	llist_del(&it->list);
	count--;
	octets -= it->frame.len;
	return it;
}

void unsent_put_back(struct unsent *it)
{
	llist_add(&it->list, &all);
	count++;
	octets += it->frame.len;
}

bool unsent_add(const struct stack_frame *frame, const struct stack_limits *limits)
{
	struct unsent *it = malloc(sizeof(*it) + frame->len);

	if (!it)
		return false;
	it->calling = *frame->calling;
	it->called = *frame->called;
	it->frame = (struct stack_frame){ &it->calling, &it->called, it->octets, frame->len };
	memcpy(it->octets, frame->octets, frame->len);
	llist_add_tail(&it->list, &all);
	count++;
	octets += frame->len;
	for (; count > limits->frames || octets > limits->octets; dropped++)
		free(unsent_take());
	return true;
}

size_t unsent_count(void)
{
	return count;
}

unsigned long unsent_dropped(void)
{
	return dropped;
}
