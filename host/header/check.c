/* The header, compiled as C and as C++: each part of an answer is read at its place, and each entry has its name in the library. */
#include "tmavolice.h"
#include <stdio.h>

struct sample {
    const char *name;
    uint64_t answer;
    uint32_t outcome, refusal, fault, line, length, port, side;
};

static const struct sample samples[] = {
    {"refused, 8", UINT64_C(0x0000000000000800), TMAVOLICE_REFUSED, TMAVOLICE_NO_VALID_IMAGE, 0, 0, 0, 0, 0},
    {"forward", UINT64_C(0x0000000000000001), TMAVOLICE_FORWARD, 0, 0, 0, 0, 0, 0},
    {"drop", UINT64_C(0x0000000000000002), TMAVOLICE_DROP, 0, 0, 0, 0, 0, 0},
    {"loop, 2,000", UINT64_C(0x000007D000000003), TMAVOLICE_LOOP, 0, 0, 0, 2000, 0, 0},
    {"reply, 39", UINT64_C(0x0000002700000004), TMAVOLICE_REPLY, 0, 0, 0, 39, 0, 0},
    {"notice, port 8, CEN, 31", UINT64_C(0x0000001F01080004), TMAVOLICE_REPLY, 0, 0, 0, 31, 8, TMAVOLICE_CEN},
    {"reply and forward, 43", UINT64_C(0x0000002B00000005), TMAVOLICE_REPLY_AND_FORWARD, 0, 0, 0, 43, 0, 0},
    {"done", UINT64_C(0x0000000000000006), TMAVOLICE_DONE, 0, 0, 0, 0, 0, 0},
    {"fault, line 12, reason 4", UINT64_C(0x0000000C00000407), TMAVOLICE_PLAN_FAULT, 0, TMAVOLICE_REPEATED, 12, 0, 0, 0},
};

static int same(uint32_t x, uint32_t y) { return x == y; }

static int taken_apart(const struct sample *s) {
    uint64_t a = s->answer;
    int good = same(tmavolice_outcome_of(a), s->outcome) && same(tmavolice_refusal_of(a), s->refusal) &&
               same(tmavolice_fault_of(a), s->fault) && same(tmavolice_line_of(a), s->line) &&
               tmavolice_length_of(a) == s->length && same(tmavolice_port_of(a), s->port) &&
               same(tmavolice_side_of(a), s->side);
    if (!good)
        fprintf(stderr, "%s: not taken apart as it was put together\n", s->name);
    return good;
}

/* Each entry refuses an image of no octets. */
static int all_refuse(void) {
    static uint8_t image[1], octets[1], out[1];
    return tmavolice_refusal_of(tmavolice_make(image, 0, octets, 0, 0)) == TMAVOLICE_NO_VALID_IMAGE &&
           tmavolice_refusal_of(tmavolice_frame(image, 0, 1, 0, octets, 0, out, 0)) == TMAVOLICE_NO_VALID_IMAGE &&
           tmavolice_refusal_of(tmavolice_tick(image, 0, 0)) == TMAVOLICE_NO_VALID_IMAGE &&
           tmavolice_refusal_of(tmavolice_allow(image, 0, 1)) == TMAVOLICE_NO_VALID_IMAGE &&
           tmavolice_refusal_of(tmavolice_prohibit(image, 0, 1)) == TMAVOLICE_NO_VALID_IMAGE &&
           tmavolice_refusal_of(tmavolice_notice(image, 0, out, 0)) == TMAVOLICE_NO_VALID_IMAGE &&
           tmavolice_refusal_of(tmavolice_restart(image, 0, 0)) == TMAVOLICE_NO_VALID_IMAGE;
}

int main(void) {
    size_t i;
    int good = all_refuse();
    if (!good)
        fprintf(stderr, "an entry takes an image of no octets\n");
    for (i = 0; i < sizeof samples / sizeof *samples; i++)
        good &= taken_apart(&samples[i]);
    return good ? 0 : 1;
}
