/* SPDX-License-Identifier: Apache-2.0 */
/*
 * Where the messages of a dialogue go: the calling party address of the peer's message that named its transaction id, as it came.
 * The register names a peer by digits alone.
 */
#ifndef DIALOGUES_H
#define DIALOGUES_H

#include "address.h"
#include "transaction.h"

/* Notes the address that came with a peer's transaction id: 65,536 of them, in sets of four; in a full set the oldest gives way. */
void note_dialogue(const peer_name name, const struct transaction_id *id, const struct osmo_sccp_addr *address);

/* The address noted for a peer's transaction id, or null. */
const struct osmo_sccp_addr *dialogue_address(const peer_name name, const struct transaction_id *id);

#endif
