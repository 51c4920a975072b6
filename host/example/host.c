/* A forwarding plane in small. It makes a unit from a plan, serves the frames of one port, keeps time, takes notices, and comes up
 * again from a stored image. */
#include "ports.h"
#include "tmavolice.h"
#include <stdio.h>
#include <stdlib.h>
#include <string.h>

static uint8_t image[TMAVOLICE_IMAGE_LEN];  /* the unit's whole state */
static uint8_t stored[TMAVOLICE_IMAGE_LEN]; /* a copy that outlives the program */
static uint8_t out[TMAVOLICE_OUT_LEN];      /* what the unit writes */

static const char plan[] = "port\t1\tuni\t020000000001\n"
                           "flow\t1\t1\tc\t20\n"
                           "mp\t1\tup\t4\n";

static void report(const char *call, uint64_t answer) {
    fprintf(stderr, "%s: outcome %d, refusal %d\n", call, tmavolice_outcome_of(answer), tmavolice_refusal_of(answer));
}

/* An answer that only a mistake of the host can get. */
static void wrong(const char *call, uint64_t answer) {
    report(call, answer);
    exit(1);
}

static void must_be_done(const char *call, uint64_t answer) {
    if (tmavolice_outcome_of(answer) != TMAVOLICE_DONE)
        wrong(call, answer);
}

/* The first start. The text's length leaves out the zero behind it, which is no part of the plan. */
static void start(uint32_t clock) {
    uint64_t answer = tmavolice_make(image, sizeof image, (const uint8_t *)plan, sizeof plan - 1, clock);
    if (tmavolice_outcome_of(answer) == TMAVOLICE_PLAN_FAULT) {
        fprintf(stderr, "plan, line %u: reason %d\n", (unsigned)tmavolice_line_of(answer), tmavolice_fault_of(answer));
        exit(1);
    }
    must_be_done("make", answer);
}

static void allow(uint32_t flow) { must_be_done("allow", tmavolice_allow(image, sizeof image, flow)); }

/* Takes and sends every notice that is due. */
static void take_notices(void) {
    uint64_t answer = tmavolice_notice(image, sizeof image, out, sizeof out);
    while (tmavolice_outcome_of(answer) == TMAVOLICE_REPLY) {
        transmit(tmavolice_port_of(answer), tmavolice_side_of(answer), out, tmavolice_length_of(answer));
        answer = tmavolice_notice(image, sizeof image, out, sizeof out);
    }
    if (tmavolice_refusal_of(answer) != TMAVOLICE_NO_NOTICE_DUE)
        wrong("notice", answer);
}

/* A step that is refused can't be timed: all sessions are closed. */
static void tick(uint32_t clock) {
    uint64_t answer = tmavolice_tick(image, sizeof image, clock);
    if (tmavolice_refusal_of(answer) == TMAVOLICE_CLOCK_JUMPED)
        answer = tmavolice_restart(image, sizeof image, clock);
    must_be_done("tick", answer);
    take_notices();
}

static void prohibit(uint32_t flow) {
    must_be_done("prohibit", tmavolice_prohibit(image, sizeof image, flow));
    take_notices();
}

static void arrived(uint32_t port, uint32_t side, const uint8_t *frame, size_t length) {
    uint64_t answer = tmavolice_frame(image, sizeof image, port, side, frame, length, out, sizeof out);
    switch (tmavolice_outcome_of(answer)) {
    case TMAVOLICE_FORWARD:
        forward(port, side, frame, length);
        break;
    case TMAVOLICE_DROP:
        printf("  dropped\n");
        break;
    case TMAVOLICE_LOOP:
    case TMAVOLICE_REPLY:
        transmit(port, side, out, tmavolice_length_of(answer));
        break;
    case TMAVOLICE_REPLY_AND_FORWARD:
        transmit(port, side, out, tmavolice_length_of(answer));
        forward(port, side, frame, length);
        break;
    default: /* Whatever comes from the wire, the host goes on. What the unit does not take, as it is too short or too long, passes. */
        if (tmavolice_refusal_of(answer) != TMAVOLICE_FRAME_LENGTH)
            report("frame", answer);
        forward(port, side, frame, length);
    }
}

/* Between two calls the image is the whole state. */
static void store(void) { memcpy(stored, image, sizeof stored); }

/* A later start, from the stored image; from the plan where that is damaged, and then every flow has to be allowed again. */
static void start_again(uint32_t clock) {
    uint64_t answer;
    memcpy(image, stored, sizeof image);
    answer = tmavolice_restart(image, sizeof image, clock);
    if (tmavolice_refusal_of(answer) == TMAVOLICE_NO_VALID_IMAGE)
        start(clock);
    else
        must_be_done("restart", answer);
}

/* Ticks, then serves what has arrived. */
static void turn(uint32_t second) {
    size_t i;
    printf("second %u\n", (unsigned)second);
    tick(1000 * second);
    for (i = 0; i < ARRIVALS; i++)
        if (arrivals[i].second == second) {
            printf("  %s\n", arrivals[i].what);
            arrived(1, TMAVOLICE_CEN, arrivals[i].octets, arrivals[i].length);
        }
}

int main(void) {
    uint32_t second;
    start(0);
    allow(1);
    for (second = 1; second <= 8; second++)
        turn(second);
    printf("flow 1 is prohibited\n");
    prohibit(1);
    store();
    printf("the device starts again\n");
    start_again(9000);
    turn(10);
    return 0;
}
