/* The cases that are measured. */
#ifndef CASES_H
#define CASES_H
#include "varied.h"

enum { CASES = 16 };

/* One event, or two that bring the image back to what it was. The outcome and the refusal of each, bits 0 to 15 of the answer, are
 * as the name says. */
struct work {
    char name[64];
    unsigned outcome;
    uint8_t image[4096];
    int events;
    struct event event[2];
};

void make_cases(struct work *works);

/* The work on an image, for the i-th time from 1; a tick is one of i ms from where the clock stood at first. */
void work_once(const struct unit *u, const struct work *w, uint8_t *image, uint8_t *out, uint32_t i);

#endif
