/* What the reference's files share. */
#ifndef TABLES_H
#define TABLES_H

#include "tacho.h"

bool ref_known(uint8_t kind, uint8_t trtp);
bool ref_activities(uint8_t trtp);
bool ref_named(uint8_t trep, uint32_t second); /* number 12's rule for a name */
uint32_t ref_be16(const uint8_t *b);
uint32_t ref_be32(const uint8_t *b);
tacho_part ref_store_find(const uint8_t *store, uint8_t trep, uint32_t second); /* in a checked store */

/* Where a frame goes that an end sends: the two addresses, and the lent output, of at least 260 bytes. */
typedef struct {
    uint8_t unit, tool, *bytes;
} ref_output;

/* A reader of one field of a packed state, by the file's own `unpack` into its struct. */
#define REF_READER(name, unpacked, field)                         \
    size_t name(const uint8_t *state, size_t len)                 \
    {                                                             \
        unpacked u;                                               \
        return unpack(state, len, &u) ? u.field : TACHO_NO_STATE; \
    }

#endif
