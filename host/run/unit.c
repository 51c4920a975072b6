#include "unit.h"
#include "words.h"
#include <stdio.h>
#include <stdlib.h>
#include <string.h>

static const char bench_plan[] = "port\t1\tuni\t020000000001\n"
                                 "flow\t1\t1\tc\t20\n"
                                 "flow\t2\t1\tc\t30\n"
                                 "mp\t1\tup\t4\n";

static void must_be_done(const char *call, uint64_t answer) {
    if (tmavolice_outcome_of(answer) != TMAVOLICE_DONE) {
        fprintf(stderr, "%s: outcome %d\n", call, tmavolice_outcome_of(answer));
        exit(1);
    }
}

void make_bench_unit(struct unit *u) {
    memset(u, 0, sizeof *u);
    must_be_done("make", tmavolice_make(u->image, sizeof u->image, (const uint8_t *)bench_plan, sizeof bench_plan - 1, 0));
    must_be_done("allow", tmavolice_allow(u->image, sizeof u->image, 1));
}

static uint64_t hand_in(struct unit *u, const char *words) {
    uint8_t frame[TMAVOLICE_FRAME_MAX];
    size_t length = octets_of(words, frame, sizeof frame);
    return tmavolice_frame(u->image, sizeof u->image, 1, TMAVOLICE_CEN, frame, length, u->out, sizeof u->out);
}

uint64_t play(struct unit *u, const struct step *s) {
    memset(u->out, FILLER, sizeof u->out);
    switch (s->call) {
    case FRAME:
        return hand_in(u, s->frame);
    case TICK:
        return tmavolice_tick(u->image, sizeof u->image, s->clock);
    case NOTICE:
        return tmavolice_notice(u->image, sizeof u->image, u->out, sizeof u->out);
    case RESTART:
        return tmavolice_restart(u->image, sizeof u->image, s->clock);
    default:
        fprintf(stderr, "no such call\n");
        exit(1);
    }
}
