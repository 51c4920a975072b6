/* The answer as one number, and what is written into the output. */
#ifndef REPLY_H
#define REPLY_H
#include "octets.h"

enum { FORWARD = 1, DROP = 2, LOOP = 3, REPLY = 4, REPLY_AND_FORWARD = 5, DONE = 6 };

struct reply {
    uint64_t to, port;
    const uint8_t *tag;
    size_t tags;
    unsigned level, type, code, side;
    int active;
    uint32_t left;
    const uint8_t *pdu; /* of the request, if unknown TLVs are copied */
};

WITHIN uint64_t refused(unsigned number);
WITHIN uint64_t sent(unsigned outcome, size_t length);

WITHIN size_t put_reply(uint8_t *out, const struct reply *r);
WITHIN uint64_t put_loop(uint8_t *out, uint64_t port, const uint8_t *frame, size_t n);

#endif
