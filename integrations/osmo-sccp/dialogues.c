/* SPDX-License-Identifier: Apache-2.0 */
#include "dialogues.h"

#include <string.h>

/* 65,536 in all, as many dialogues as sixteen shards hold; an id has its place in one of the sets */
enum { SETS = 16384, WAYS = 4 };

struct dialogue {
	uint64_t noted; /* which note it was, from 1; 0 if there is none */
	peer_name name;
	struct transaction_id id;
	struct osmo_sccp_addr address;
};

static struct dialogue dialogues[SETS][WAYS];
static uint64_t notes;

static uint32_t mix(uint32_t sum, const void *octets, size_t len)
{
	for (size_t at = 0; at < len; at++)
		sum = (sum ^ ((const uint8_t *)octets)[at]) * 16777619u;
	return sum;
}

static struct dialogue *set_of(const peer_name name, const struct transaction_id *id)
{
	return dialogues[mix(mix(2166136261u, name, strlen(name)), id->octets, id->len) % SETS];
}

static bool is_of(const struct dialogue *dialogue, const peer_name name, const struct transaction_id *id)
{
	return dialogue->noted && !strcmp(dialogue->name, name) && dialogue->id.len == id->len &&
	       !memcmp(dialogue->id.octets, id->octets, id->len);
}

static struct dialogue *find(const peer_name name, const struct transaction_id *id)
{
	struct dialogue *set = set_of(name, id);

	for (size_t way = 0; way < WAYS; way++)
		if (is_of(&set[way], name, id))
			return &set[way];
	return NULL;
}

static struct dialogue *oldest(struct dialogue *set)
{
	struct dialogue *found = set;

	for (size_t way = 1; way < WAYS; way++)
		if (set[way].noted < found->noted)
			found = &set[way];
	return found;
}

void note_dialogue(const peer_name name, const struct transaction_id *id, const struct osmo_sccp_addr *address)
{
	struct dialogue *dialogue = find(name, id);

	if (!dialogue)
		dialogue = oldest(set_of(name, id));
	dialogue->noted = ++notes;
	memcpy(dialogue->name, name, sizeof(peer_name));
	dialogue->id = *id;
	dialogue->address = *address;
}

const struct osmo_sccp_addr *dialogue_address(const peer_name name, const struct transaction_id *id)
{
	const struct dialogue *dialogue = find(name, id);

	return dialogue ? &dialogue->address : NULL;
}
