/* Images to call on, made by the library's own calls. */
#ifndef PLANS_H
#define PLANS_H
#include "frames.h"

/* The way from a tester to a flow of an image, by the flow's row from 0; its port, a side, and the level of an MP that faces it. */
struct path {
    struct way way;
    uint32_t port, side;
    unsigned level;
};

struct path path_to(const uint8_t *image, int row);

/* Opens a session of 86,400 seconds at the end of that path. */
void open_on(uint8_t *image, int row);

/* The paper's bench plan with its one session, of 86,400 seconds. */
void bench_unit(uint8_t *image);

/* 8 ports, 32 flows with an MP each, and 16 sessions, the last of them on the last flow. */
void full_unit(uint8_t *image);

/* Its text, of less than 4,096 octets. */
void full_plan(char *plan);

/* 2 ports and 7 flows with 32 MPs, up to eight each; no session yet. */
void mixed_unit(uint8_t *image);

#endif
