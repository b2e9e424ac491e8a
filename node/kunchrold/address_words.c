/* SPDX-License-Identifier: Apache-2.0 */
#include "address_words.h"

#include <stdio.h>
#include <string.h>

enum { PARTS = OSMO_SCCP_ADDR_T_PC | OSMO_SCCP_ADDR_T_SSN | OSMO_SCCP_ADDR_T_GT };

/* A number that is there if the address says so. */
static size_t put(char *at, size_t size, bool is_there, uint32_t number)
{
	return (size_t)(is_there ? snprintf(at, size, " %u", (unsigned)number) : snprintf(at, size, " -"));
}

bool words_of_address(const struct osmo_sccp_addr *address, char words[NOTE_WORDS + 1])
{
	const bool has_title = address->presence & OSMO_SCCP_ADDR_T_GT;
	const struct osmo_sccp_gt *title = &address->gt;
	const size_t size = NOTE_WORDS + 1;
	size_t len = (size_t)snprintf(words, size, "%u", (unsigned)address->ri);

	if (address->presence & ~(uint32_t)PARTS || (has_title && (!*title->digits || title->digits[strspn(title->digits, "0123456789")])))
		return false;
	len += put(words + len, size - len, address->presence & OSMO_SCCP_ADDR_T_PC, address->pc);
	len += put(words + len, size - len, address->presence & OSMO_SCCP_ADDR_T_SSN, address->ssn);
	if (has_title)
		len += (size_t)snprintf(words + len, size - len, " %u %u %u %u %s", title->gti, title->tt, (unsigned)title->npi, (unsigned)title->nai,
					title->digits);
	else
		len += put(words + len, size - len, false, 0);
	return len < size;
}

/* Reads a number that may be missing. False if there is neither. */
static bool get(const char **words, uint32_t part, uint32_t *presence, uint32_t *number)
{
	unsigned read = 0;
	int len = 0;

	if (sscanf(*words, " %u%n", &read, &len) == 1)
		*presence |= part;
	else if (sscanf(*words, " -%n", &len) || !len)
		return false;
	*words += len;
	*number = read;
	return true;
}

bool address_of_words(const char *words, struct osmo_sccp_addr *address)
{
	uint32_t ri = 0, none = 0, gti = 0;
	unsigned tt = 0, npi = 0, nai = 0;

	*address = (struct osmo_sccp_addr){ 0 };
	if (!get(&words, 0, &none, &ri) || !get(&words, OSMO_SCCP_ADDR_T_PC, &address->presence, &address->pc) ||
	    !get(&words, OSMO_SCCP_ADDR_T_SSN, &address->presence, &address->ssn) || !get(&words, OSMO_SCCP_ADDR_T_GT, &address->presence, &gti))
		return false;
	address->ri = (enum osmo_sccp_routing_ind)ri;
	if (!(address->presence & OSMO_SCCP_ADDR_T_GT))
		return true;
	if (sscanf(words, " %u %u %u %31[0-9]", &tt, &npi, &nai, address->gt.digits) != 4)
		return false;
	address->gt.gti = (uint8_t)gti;
	address->gt.tt = (uint8_t)tt;
	address->gt.npi = npi;
	address->gt.nai = nai;
	return true;
}
