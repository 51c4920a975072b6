#include "varied.h"
#include <string.h>

uint64_t below(uint64_t *random, uint64_t n) {
    *random ^= *random << 13;
    *random ^= *random >> 7;
    *random ^= *random << 17;
    return (*random >> 11) % n;
}

int one_in(uint64_t *random, uint64_t n) {
    return below(random, n) == 0;
}

static uint32_t any_reading(const uint8_t *image, uint64_t *random) {
    uint32_t clock, left;
    memcpy(&clock, image, 4);
    memcpy(&left, image + 1536 + 32 * below(random, 16) + 8, 4);
    if (one_in(random, 16))
        return clock + 0x7fffffff + (uint32_t)below(random, 3);
    return clock + (one_in(random, 8) ? left : (uint32_t)below(random, one_in(random, 3) ? 3000000 : 3000));
}

struct event any_event(const uint8_t *image, uint64_t *random) {
    struct event e = {.call = FRAME, .image_len = 4096, .out_len = 2008 + below(random, 40)};
    uint64_t which = below(random, 100);
    int due = 0;
    for (int i = 0; i < 16; i++)
        due |= image[1536 + 32 * i + 12];
    e.call = which < 85 ? FRAME : which < 88 ? TICK : which < 95 ? ALLOW : which < 97 ? PROHIBIT : which < 99 ? NOTICE : RESTART;
    if (due && !one_in(random, 4))
        e.call = NOTICE;
    if (one_in(random, 100))
        e.out_len = 2000 + below(random, 9);
    if (one_in(random, 300))
        e.image_len = below(random, 4096);
    if (e.call == FRAME) {
        any_frame(&e, image, random);
    } else {
        e.number = e.call == TICK || e.call == RESTART ? any_reading(image, random) : (uint32_t)below(random, 36);
    }
    return e;
}

uint64_t carried_out(const struct unit *u, const struct event *e, uint8_t *image, uint8_t *out) {
    switch (e->call) {
    case FRAME:
        return u->frame(image, e->image_len, e->number, e->side, e->frame.octets, e->frame.len, out, e->out_len);
    case TICK:
        return u->tick(image, e->image_len, e->number);
    case ALLOW:
        return u->allow(image, e->image_len, e->number);
    case PROHIBIT:
        return u->prohibit(image, e->image_len, e->number);
    case NOTICE:
        return u->notice(image, e->image_len, out, e->out_len);
    case RESTART:
        return u->restart(image, e->image_len, e->number);
    }
    return 0;
}
