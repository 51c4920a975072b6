/* Plays the paper's bench cases B1 to B12 on the C entries, shows each call and its answer, and compares them with the paper's. */
#include "cases.h"
#include "compare.h"
#include "show.h"
#include <stdio.h>

enum { STEPS = sizeof bench_cases[0].before / sizeof bench_cases[0].before[0] };

/* The calls before: a frame must get a reply, and any other call be done. */
static int prepare(struct unit *u, const struct bench_case *c) {
    size_t i;
    make_bench_unit(u);
    for (i = 0; i < STEPS && c->before[i].call != NO_CALL; i++)
        if (tmavolice_outcome_of(play(u, &c->before[i])) != (c->before[i].call == FRAME ? TMAVOLICE_REPLY : TMAVOLICE_DONE)) {
            printf("    DIFFERS call %lu before it is not served\n", (unsigned long)i + 1);
            return 0;
        }
    return 1;
}

static int played(const struct bench_case *c) {
    static struct unit u;
    uint64_t answer;
    printf("%-3s %s\n", c->name, c->says);
    if (!prepare(&u, c))
        return 0;
    show_step(&c->now);
    answer = play(&u, &c->now);
    show_answer(answer, u.out);
    return as_expected(&c->expected, answer, u.out);
}

int main(void) {
    int i, good = 0;
    printf("Port 1 is a UNI; flow 1 is c 20, flow 2 is c 30; an up MP, level 4, on flow 1; flow 1 allowed at clock 0.\n");
    printf("Each case starts there. Frames come from the CEN. Below a frame's addresses, tag and type stand its other octets.\n");
    for (i = 0; i < CASES; i++)
        good += played(&bench_cases[i]);
    printf("%d of %d cases as the paper has them\n", good, CASES);
    return good == CASES ? 0 : 1;
}
