/* How long a whole call takes: ours and the unit in C, by each compiler, in turn, the best of many runs of each. One line a case,
 * ending in the ratio of ours to the better of the others. Before that, that all of them do the same; with the argument 'check'
 * only that. */
#include "agree.h"
#include "cases.h"
#include <stdio.h>
#include <string.h>
#include <time.h>

enum { ROUNDS = 640, CALLS = 300, PLACES = 64 };

/* The image stands at another place in each round: where it lies beside the stack costs either side up to a tenth. */
static double ns_per_call(const struct unit *u, const struct work *w, int round) {
    static uint8_t room[4096 + 64 * PLACES] __attribute__((aligned(4096))), out[2048];
    uint8_t *image = room + 64 * (round % PLACES);
    struct timespec from, to;
    memcpy(image, w->image, 4096);
    clock_gettime(CLOCK_MONOTONIC, &from);
    for (uint32_t i = 1; i <= CALLS; i++)
        work_once(u, w, image, out, i);
    clock_gettime(CLOCK_MONOTONIC, &to);
    return ((double)(to.tv_sec - from.tv_sec) * 1e9 + (double)(to.tv_nsec - from.tv_nsec)) / CALLS;
}

static double least(double a, double b) {
    return a < b ? a : b;
}

static void measure(const struct work *w) {
    double own = 1e9, others[4] = {1e9, 1e9, 1e9, 1e9}, best = 1e9;
    for (int i = 0; i < ROUNDS; i++) {
        own = least(own, ns_per_call(&ours, w, i));
        for (int j = 0; units_in_c[j]; j++)
            others[j] = least(others[j], ns_per_call(units_in_c[j], w, i));
    }
    printf("%-46s ours %4.0f ns", w->name, own);
    for (int j = 0; units_in_c[j]; j++) {
        printf(", %s %4.0f ns", units_in_c[j]->name, others[j]);
        best = least(best, others[j]);
    }
    printf(", ratio %.2f\n", own / best);
}

static int same_work(const struct work *w) {
    for (int j = 0; units_in_c[j]; j++) {
        uint8_t image[4096];
        uint64_t answer;
        memcpy(image, w->image, 4096);
        for (int i = 0; i < w->events; i++)
            if (!same_for(units_in_c[j], &w->event[i], image, &answer) || (answer & 0xffff) != w->outcome)
                return 0;
    }
    return 1;
}

int main(int argc, char **argv) {
    static struct work works[CASES];
    make_cases(works);
    for (int i = 0; i < CASES; i++)
        if (!same_work(&works[i])) {
            fprintf(stderr, "%s: it is not so\n", works[i].name);
            return 1;
        }
    if (!agree())
        return 1;
    if (argc > 1 && strcmp(argv[1], "check") == 0)
        return 0;
    if (!units_in_c[1])
        printf("there is no clang here: gcc alone\n");
    for (int i = 0; i < CASES; i++)
        measure(&works[i]);
    return 0;
}
