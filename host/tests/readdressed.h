/* Two addresses, and frames that get others than they were written with (document 02, Req 05). */
#ifndef READDRESSED_H
#define READDRESSED_H

#include "reference.h"

/* The addresses of the unit and of the tool. */
typedef struct {
    uint8_t unit, tool;
} addresses;

/* The lab's. */
extern const addresses LAB;

bool same_addresses(addresses a, addresses b);
bool is_lab(addresses a);

/* Gives a frame to that end these addresses instead of its own; under 5 bytes there is none. Its checksum is right then where it was right
 * before, and only there. */
void readdress(uint8_t *frame, size_t len, addresses a, bool to_tool);

/* An address, often 00, FF, one of the lab's or a byte that begins a frame; two that differ; two that are not these in this order: the
 * lab's, these swapped, one of them changed, or any. */
uint8_t some_address(void);
addresses different_addresses(void);
addresses other_addresses(addresses a);

#endif
