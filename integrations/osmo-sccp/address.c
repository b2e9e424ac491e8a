/* SPDX-License-Identifier: Apache-2.0 */
#include "address.h"

#include <osmocom/sigtran/sccp_helpers.h>
#include <stdio.h>
#include <string.h>

enum { MAX_POINT_CODE = 0x3FFF, MAX_SUBSYSTEM = 255 };

static bool has(const struct osmo_sccp_addr *address, uint32_t part)
{
	return (address->presence & part) != 0;
}

static bool is_international(const struct osmo_sccp_gt *title)
{
	if (title->nai != OSMO_SCCP_NAI_INTL || title->digits[0] == '0')
		return false;
	return title->gti == OSMO_SCCP_GTI_NAI_ONLY ||
	       (title->gti == OSMO_SCCP_GTI_TT_NPL_ENC_NAI && title->npi == OSMO_SCCP_NPI_E164_ISDN);
}

static bool name_title(const struct osmo_sccp_gt *title, peer_name name)
{
	size_t front = is_international(title) ? 0 : 1, len = strlen(title->digits);

	if (!len || strspn(title->digits, "0123456789") != len || front + len > KUNCHROL_MAX_DIGITS)
		return false;
	name[0] = '0';
	memcpy(name + front, title->digits, len + 1);
	return true;
}

bool name_address(const struct osmo_sccp_addr *address, peer_name name)
{
	uint32_t point_code = has(address, OSMO_SCCP_ADDR_T_PC) ? address->pc : 0;

	if (has(address, OSMO_SCCP_ADDR_T_GT))
		return name_title(&address->gt, name);
	if (!has(address, OSMO_SCCP_ADDR_T_SSN) || point_code > MAX_POINT_CODE || address->ssn > MAX_SUBSYSTEM)
		return false;
	snprintf(name, sizeof(peer_name), "00%05u%03u", (unsigned)point_code, (unsigned)address->ssn);
	return true;
}

struct osmo_sccp_addr address_of_number(const char *digits, uint32_t point_code, uint32_t subsystem)
{
	struct osmo_sccp_addr address;

	osmo_sccp_make_addr_pc_ssn(&address, point_code, subsystem);
	address.presence |= OSMO_SCCP_ADDR_T_GT;
	address.gt.gti = OSMO_SCCP_GTI_TT_NPL_ENC_NAI;
	address.gt.npi = OSMO_SCCP_NPI_E164_ISDN;
	address.gt.nai = OSMO_SCCP_NAI_INTL;
	snprintf(address.gt.digits, sizeof(address.gt.digits), "%s", digits);
	return address;
}

/* The octets of a global title before its digits, by its indicator; 0 where the library cannot write it. */
static size_t title_front(const struct osmo_sccp_gt *title)
{
	switch (title->gti) {
	case OSMO_SCCP_GTI_NAI_ONLY:
		return 1;
	case OSMO_SCCP_GTI_TT_NPL_ENC:
		return 2;
	case OSMO_SCCP_GTI_TT_NPL_ENC_NAI:
		return 3;
	default:
		return 0;
	}
}

bool is_writable(const struct osmo_sccp_addr *address)
{
	if (address->ri != OSMO_SCCP_RI_GT && address->ri != OSMO_SCCP_RI_SSN_PC)
		return false;
	if (has(address, OSMO_SCCP_ADDR_T_PC) && address->pc > MAX_POINT_CODE)
		return false;
	if (has(address, OSMO_SCCP_ADDR_T_SSN) && address->ssn > MAX_SUBSYSTEM)
		return false;
	return !has(address, OSMO_SCCP_ADDR_T_GT) || title_front(&address->gt) != 0;
}

size_t address_len(const struct osmo_sccp_addr *address)
{
	size_t len = 1;

	if (has(address, OSMO_SCCP_ADDR_T_PC))
		len += 2;
	if (has(address, OSMO_SCCP_ADDR_T_SSN))
		len += 1;
	if (has(address, OSMO_SCCP_ADDR_T_GT))
		len += title_front(&address->gt) + (strlen(address->gt.digits) + 1) / 2;
	return len;
}
