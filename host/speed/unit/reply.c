#include "reply.h"
#include "tlv.h"
#include <string.h>

uint64_t refused(unsigned number) {
    return number << 8;
}

uint64_t sent(unsigned outcome, size_t length) {
    return outcome | (uint64_t)length << 32;
}

static unsigned flags_of(const struct reply *r) {
    unsigned status = r->active && r->type >= 1 && r->type <= 3 ? (r->side == 0 ? 3 : 1) : 0;
    return status | (r->pdu ? 4 : 0);
}

size_t put_reply(uint8_t *out, const struct reply *r) {
    put_net6(out, r->to);
    put_net6(out + 6, r->port);
    memcpy(out + 12, r->tag, r->tags);
    uint8_t *p = out + 12 + r->tags;
    p[0] = 0x89;
    p[1] = 0x02;
    p[2] = (uint8_t)(r->level << 5);
    p[3] = 56;
    p[4] = (uint8_t)flags_of(r);
    p[5] = 8;
    p[6] = (uint8_t)r->type;
    p[7] = (uint8_t)r->code;
    put_net6(p + 8, r->port);
    p += 14;
    if (r->code != 1 && (r->type == 1 || r->type == 3)) {
        memcpy(p, "\x25\x00\x05\x01", 4);
        put_net4(p + 4, r->active ? (r->left + 999) / 1000 : 0);
        p += 8;
    }
    if (r->pdu)
        p += copy_unknown(p, r->pdu, 4 + (size_t)r->pdu[3]);
    *p++ = 0;
    return (size_t)(p - out);
}

uint64_t put_loop(uint8_t *out, uint64_t port, const uint8_t *frame, size_t n) {
    memcpy(out, frame + 6, 6);
    if (frame[0] & 1)
        put_net6(out + 6, port);
    else
        memcpy(out + 6, frame, 6);
    memcpy(out + 12, frame + 12, n - 12);
    return sent(LOOP, n);
}
