#ifndef UNIT_H
#define UNIT_H
#include "tmavolice.h"

/* A unit as its host keeps it: the image, and one output that serves every call. */
struct unit {
    uint8_t image[TMAVOLICE_IMAGE_LEN];
    uint8_t out[TMAVOLICE_OUT_LEN];
};

/* What the output holds before a call. */
enum { FILLER = 0xEE };

enum call { NO_CALL, FRAME, TICK, NOTICE, RESTART };

/* One call: a frame from the CEN, in words; the reading of a tick or a restart. */
struct step {
    enum call call;
    const char *frame;
    uint32_t clock;
};

/* The paper's bench unit: port 1 is a UNI, flow 1 is c 20 with an up MP at level 4, flow 2 is c 30; flow 1 allowed at clock 0. */
void make_bench_unit(struct unit *u);

/* Makes the call, on an output that holds nothing but FILLER, and returns the answer. */
uint64_t play(struct unit *u, const struct step *s);

#endif
