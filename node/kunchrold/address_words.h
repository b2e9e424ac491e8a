/* SPDX-License-Identifier: Apache-2.0 */
/* An address of SCCP as the words of a note, so that a start, or another process, answers where this one would have. */
#ifndef ADDRESS_WORDS_H
#define ADDRESS_WORDS_H

#include "../notes.h"

#include <osmocom/sigtran/sccp_sap.h>

/*
 * `<ri> <pc or -> <ssn or -> <gti or -> <tt> <npi> <nai> <digits>`: the routing indicator, point code, subsystem, and the title, if there is one;
 * numbers in decimal, those of libosmo-sigtran. False if it has something else, or digits that are no decimal ones.
 */
bool words_of_address(const struct osmo_sccp_addr *address, char words[NOTE_WORDS + 1]);
bool address_of_words(const char *words, struct osmo_sccp_addr *address);

#endif
