/* A frame that came, and a request for an MP. */
#ifndef REQUEST_H
#define REQUEST_H
#include "octets.h"

struct arrival {
    uint8_t *b, *out;
    const uint8_t *frame, *flow, *pdu;
    size_t n, tags, pdu_len;
    uint64_t port, source, key;
    unsigned side, level;
};

WITHIN uint64_t request(const struct arrival *a, int multicast);

#endif
