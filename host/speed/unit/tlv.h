/* The TLVs of a request: what the list comes to, and the copy of those that are unknown. */
#ifndef TLV_H
#define TLV_H
#include "octets.h"

struct list {
    int bad, timed;
    uint32_t seconds;
    size_t unknown; /* octets of unknown TLVs */
};

WITHIN struct list read_list(const uint8_t *pdu, size_t n, size_t at);

/* Of a list that is not bad. */
WITHIN size_t copy_unknown(uint8_t *out, const uint8_t *pdu, size_t at);

#endif
