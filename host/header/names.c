/* The header, compiled as C and as C++: each constant has its name by family, its number and its first name; each number has a text. */
#include "tmavolice.h"
#include <stdio.h>
#include <string.h>

/* A constant by its number, by family and by its first name. */
struct constant {
    unsigned number, by_family, first;
};

static const struct constant constants[] = {
    {0, TMAVOLICE_SIDE_EXTERNAL, TMAVOLICE_EXTERNAL},
    {1, TMAVOLICE_SIDE_CEN, TMAVOLICE_CEN},

    {0, TMAVOLICE_OUTCOME_REFUSED, TMAVOLICE_REFUSED},
    {1, TMAVOLICE_OUTCOME_FORWARD, TMAVOLICE_FORWARD},
    {2, TMAVOLICE_OUTCOME_DROP, TMAVOLICE_DROP},
    {3, TMAVOLICE_OUTCOME_LOOP, TMAVOLICE_LOOP},
    {4, TMAVOLICE_OUTCOME_REPLY, TMAVOLICE_REPLY},
    {5, TMAVOLICE_OUTCOME_REPLY_AND_FORWARD, TMAVOLICE_REPLY_AND_FORWARD},
    {6, TMAVOLICE_OUTCOME_DONE, TMAVOLICE_DONE},
    {7, TMAVOLICE_OUTCOME_PLAN_FAULT, TMAVOLICE_PLAN_FAULT},

    {0, TMAVOLICE_REFUSAL_NONE, TMAVOLICE_NOT_REFUSED},
    {1, TMAVOLICE_REFUSAL_NO_SUCH_PORT, TMAVOLICE_NO_SUCH_PLACE},
    {2, TMAVOLICE_REFUSAL_FRAME_LENGTH, TMAVOLICE_FRAME_LENGTH},
    {3, TMAVOLICE_REFUSAL_SHORT_OUTPUT, TMAVOLICE_SHORT_OUTPUT},
    {4, TMAVOLICE_REFUSAL_NOTICE_DUE, TMAVOLICE_NOTICE_DUE},
    {5, TMAVOLICE_REFUSAL_CLOCK_JUMPED, TMAVOLICE_CLOCK_JUMPED},
    {6, TMAVOLICE_REFUSAL_NO_SUCH_FLOW, TMAVOLICE_NO_SUCH_FLOW},
    {7, TMAVOLICE_REFUSAL_NO_NOTICE_DUE, TMAVOLICE_NO_NOTICE_DUE},
    {8, TMAVOLICE_REFUSAL_NO_VALID_IMAGE, TMAVOLICE_NO_VALID_IMAGE},

    {0, TMAVOLICE_FAULT_NONE, TMAVOLICE_NO_FAULT},
    {1, TMAVOLICE_FAULT_UNREADABLE, TMAVOLICE_UNREADABLE},
    {2, TMAVOLICE_FAULT_OUT_OF_RANGE, TMAVOLICE_OUT_OF_RANGE},
    {3, TMAVOLICE_FAULT_UNNAMED, TMAVOLICE_UNNAMED},
    {4, TMAVOLICE_FAULT_REPEATED, TMAVOLICE_REPEATED},
    {5, TMAVOLICE_FAULT_TEXT_TOO_LONG, TMAVOLICE_TEXT_TOO_LONG},
    {6, TMAVOLICE_FAULT_NO_PORT, TMAVOLICE_NO_PORT},
    {7, TMAVOLICE_FAULT_TOO_MANY_MPS, TMAVOLICE_TOO_MANY_MPS},
};

static int all_agree(void) {
    size_t i;
    int good = 1;
    for (i = 0; i < sizeof constants / sizeof *constants; i++) {
        const struct constant *c = &constants[i];
        if (c->by_family != c->number || c->first != c->number) {
            fprintf(stderr, "constant %u: %u by its family, %u by its first name, and not %u\n", (unsigned)i, c->by_family, c->first,
                    c->number);
            good = 0;
        }
    }
    return good;
}

/* Each number has a text of its own, and the next one has none. */
static int all_texts(void) {
    int i, j, good = 1;
    for (i = 0; i <= 10; i++)
        for (j = 0; j < i; j++) {
            good &= i > 7 || strcmp(tmavolice_outcome_text((enum tmavolice_outcome)i), tmavolice_outcome_text((enum tmavolice_outcome)j)) != 0;
            good &= i > 8 || strcmp(tmavolice_refusal_text((enum tmavolice_refusal)i), tmavolice_refusal_text((enum tmavolice_refusal)j)) != 0;
            good &= i > 7 || strcmp(tmavolice_fault_text((enum tmavolice_fault)i), tmavolice_fault_text((enum tmavolice_fault)j)) != 0;
            good &= strcmp(tmavolice_code_text((unsigned)i), tmavolice_code_text((unsigned)j)) != 0;
        }
#ifndef __cplusplus /* there 8 has no place in an enum of 0 to 7 */
    good &= strcmp(tmavolice_outcome_text((enum tmavolice_outcome)8), "unknown outcome") == 0 &&
            strcmp(tmavolice_fault_text((enum tmavolice_fault)8), "unknown fault") == 0;
#endif
    good &= strcmp(tmavolice_refusal_text((enum tmavolice_refusal)9), "unknown refusal") == 0 &&
            strcmp(tmavolice_code_text(11), "Unknown Error") == 0 && strcmp(tmavolice_code_text(255), "Unknown Error") == 0;
    if (!good)
        fprintf(stderr, "a number has no text of its own\n");
    return good;
}

int main(void) { return all_agree() & all_texts() ? 0 : 1; }
