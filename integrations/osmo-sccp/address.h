/* SPDX-License-Identifier: Apache-2.0 */
/* Addresses of SCCP (Q.713, 3.4), and the digits by which the register knows who has one. */
#ifndef ADDRESS_H
#define ADDRESS_H

#include "../../include/kunchrol.h"

#include <osmocom/sigtran/sccp_sap.h>
#include <stdbool.h>

/* A name that the register is given, with its zero octet. */
typedef char peer_name[KUNCHROL_MAX_DIGITS + 1];

/*
 * The digits by which the register knows who has this address: an international number (E.164) as it is. Other addresses get digits
 * with which no international number begins: 0 and the digits of a number of another kind, or 00, the point code in five digits and
 * the subsystem in three. False where an address has neither digits nor a subsystem.
 */
bool name_address(const struct osmo_sccp_addr *address, peer_name name);

/* The address of an international number at a point code, routed by the point code and the subsystem number. */
struct osmo_sccp_addr address_of_number(const char *digits, uint32_t point_code, uint32_t subsystem);

/* Whether the library can write an address. It writes one that it cannot into a message all the same, without a word. */
bool is_writable(const struct osmo_sccp_addr *address);

/* The octets that an address takes in a message. */
size_t address_len(const struct osmo_sccp_addr *address);

#endif
