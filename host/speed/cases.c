#include "cases.h"
#include "plans.h"
#include <stdio.h>
#include <string.h>

static struct event framed(struct path p, struct frame f) {
    struct event e = {.call = FRAME, .number = p.port, .side = p.side, .frame = f, .image_len = 4096, .out_len = 2048};
    return e;
}

enum { REFUSED_2 = 0x200, FORWARD = 1, LOOP = 3, REPLY = 4, DONE = 6 };

static struct work *add(struct work *w, unsigned outcome, const char *plan, const char *name, const uint8_t *image,
                        struct event e) {
    w->outcome = outcome;
    snprintf(w->name, sizeof w->name, "%s, %s", plan, name);
    memcpy(w->image, image, 4096);
    w->events = 1;
    w->event[0] = e;
    return w + 1;
}

/* Looping, and requests, at the path to an open session; forwarding at the path to a flow without one. */
static struct work *add_all(struct work *w, const char *plan, const uint8_t *image, struct path open, struct path idle) {
    struct event tick = {.call = TICK, .image_len = 4096};
    struct event refresh = framed(open, request_frame(open.way, open.level, ACTIVATE, 86400));
    struct event closing = framed(open, request_frame(open.way, open.level, DEACTIVATE, 0));
    struct frame state = request_frame(open.way, open.level, STATE, 0);
    w = add(w, REFUSED_2, plan, "refused: a frame of 13 octets", image, framed(open, data_frame(open.way, 13)));
    w = add(w, FORWARD, plan, "data forwarded", image, framed(idle, data_frame(idle.way, 64)));
    w = add(w, LOOP, plan, "64 octets looped", image, framed(open, data_frame(open.way, 64)));
    w = add(w, LOOP, plan, "1,500 octets looped", image, framed(open, data_frame(open.way, 1500)));
    w = add(w, REPLY, plan, "Activate, refreshing", image, refresh);
    w = add(w, REPLY, plan, "Deactivate and Activate, both", image, closing);
    w[-1].event[w[-1].events++] = refresh;
    w = add(w, REPLY, plan, "State, 1,400 octets of TLV copied", image, framed(open, with_tlv(state, 9, 1400, 1)));
    return add(w, DONE, plan, "tick", image, tick);
}

void make_cases(struct work *works) {
    static uint8_t image[4096];
    bench_unit(image);
    works = add_all(works, "bench plan", image, path_to(image, 0), path_to(image, 1));
    full_unit(image);
    add_all(works, "full plan", image, path_to(image, 31), path_to(image, 30));
}

void work_once(const struct unit *u, const struct work *w, uint8_t *image, uint8_t *out, uint32_t i) {
    if (w->event[0].call == TICK) {
        u->tick(image, 4096, i);
        return;
    }
    for (int j = 0; j < w->events; j++) {
        const struct event *e = &w->event[j];
        u->frame(image, 4096, e->number, e->side, e->frame.octets, e->frame.len, out, 2048);
    }
}
