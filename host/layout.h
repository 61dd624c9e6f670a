/* What the host knows of the bytes on the drives: the places of a header's fields and of a record's, and the length of a spare. */
#ifndef LAYOUT_H
#define LAYOUT_H

#include <stddef.h>

enum {
    HEADER_VERSION = 2,           /* as the header says of itself */
    ZONES_AT = 13,                /* 4 bytes for each drive */
    ADDRESS_AT = 0, STAMP_AT = 8, /* 8 bytes each */
    STRIPE_AT = 16,               /* 4 bytes */
    SPARE = 20
};

/* of n drives: the header's length, and where its serials lie, 8 bytes each */
static inline size_t header_length(size_t n) { return 37 + 4 * n; }
static inline size_t serial_at(size_t n) { return ZONES_AT + 4 * n + 8; }
static inline size_t copied_at(size_t n) { return serial_at(n) + 8; }

#endif
