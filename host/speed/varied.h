/* Calls of every kind on an image, drawn at random, most of them such that something happens. */
#ifndef VARIED_H
#define VARIED_H
#include "frames.h"
#include "unit.h"

struct event {
    enum { FRAME, TICK, ALLOW, PROHIBIT, NOTICE, RESTART } call;
    uint32_t number, side; /* a port, a flow or a reading of the clock; the side of a frame */
    struct frame frame;
    size_t image_len, out_len;
};

struct event any_event(const uint8_t *image, uint64_t *random);

/* The part of it that a frame call has. */
void any_frame(struct event *e, const uint8_t *image, uint64_t *random);

uint64_t below(uint64_t *random, uint64_t n);
int one_in(uint64_t *random, uint64_t n);

uint64_t carried_out(const struct unit *u, const struct event *e, uint8_t *image, uint8_t *out);

#endif
