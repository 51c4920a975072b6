#include "seen.h"
#include "tmavolice.h"
#include <stdio.h>

/* A bit for each number. */
struct numbers {
    unsigned outcomes, refusals, codes;
};

static struct numbers seen[6];

#define N(number) (1u << (number))

enum {
    REFUSED_OR_DONE = N(TMAVOLICE_REFUSED) | N(TMAVOLICE_DONE),
    NO_IMAGE = N(TMAVOLICE_NO_VALID_IMAGE),
    NO_FLOW = NO_IMAGE | N(TMAVOLICE_NOTICE_DUE) | N(TMAVOLICE_NO_SUCH_FLOW)
};

static const struct numbers all[6] = {
    [FRAME] = {N(TMAVOLICE_REFUSED) | N(TMAVOLICE_FORWARD) | N(TMAVOLICE_DROP) | N(TMAVOLICE_LOOP) | N(TMAVOLICE_REPLY) |
                   N(TMAVOLICE_REPLY_AND_FORWARD),
               NO_IMAGE | N(TMAVOLICE_NO_SUCH_PLACE) | N(TMAVOLICE_FRAME_LENGTH) | N(TMAVOLICE_SHORT_OUTPUT) | N(TMAVOLICE_NOTICE_DUE),
               N(0) | N(1) | N(2) | N(4) | N(5) | N(6) | N(7) | N(10)},
    [TICK] = {REFUSED_OR_DONE, NO_IMAGE | N(TMAVOLICE_NOTICE_DUE) | N(TMAVOLICE_CLOCK_JUMPED), 0},
    [ALLOW] = {REFUSED_OR_DONE, NO_FLOW, 0},
    [PROHIBIT] = {REFUSED_OR_DONE, NO_FLOW, 0},
    [NOTICE] = {N(TMAVOLICE_REFUSED) | N(TMAVOLICE_REPLY), NO_IMAGE | N(TMAVOLICE_SHORT_OUTPUT) | N(TMAVOLICE_NO_NOTICE_DUE), N(8) | N(9)},
    [RESTART] = {REFUSED_OR_DONE, NO_IMAGE, 0},
};

/* Of a number that no call should give, the highest bit. */
static unsigned bit_of(unsigned number) {
    return N(number < 31 ? number : 31);
}

/* The response code is the sixth octet of the PDU, which stands behind the type 0x8902 and, before that, a tag or none. */
static unsigned code_in(const uint8_t *out) {
    return out[out[12] == 0x89 ? 19 : 23];
}

void see(const struct event *e, uint64_t answer, const uint8_t *out) {
    enum tmavolice_outcome outcome = tmavolice_outcome_of(answer);
    struct numbers *of = &seen[e->call];
    of->outcomes |= bit_of(outcome);
    if (outcome == TMAVOLICE_REFUSED)
        of->refusals |= bit_of(tmavolice_refusal_of(answer));
    if (outcome == TMAVOLICE_REPLY || outcome == TMAVOLICE_REPLY_AND_FORWARD)
        of->codes |= bit_of(code_in(out));
}

int all_seen(void) {
    int right = 1;
    for (int i = 0; i < 6; i++)
        if (seen[i].outcomes != all[i].outcomes || seen[i].refusals != all[i].refusals || seen[i].codes != all[i].codes) {
            fprintf(stderr, "call %d: outcomes %x, refusals %x, codes %x, of %x, %x, %x\n", i, seen[i].outcomes, seen[i].refusals,
                    seen[i].codes, all[i].outcomes, all[i].refusals, all[i].codes);
            right = 0;
        }
    return right;
}
