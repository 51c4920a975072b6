#include "agree.h"
#include "plans.h"
#include "seen.h"
#include <stdio.h>
#include <string.h>

enum { CALLS = 100000 };

int same_for(const struct unit *c, const struct event *e, uint8_t *image, uint64_t *answer) {
    static uint8_t other[4096], out[2][2048];
    memcpy(other, image, 4096);
    memset(out, (int)e->number, sizeof out);
    uint64_t a = carried_out(&ours, e, image, out[0]), b = carried_out(c, e, other, out[1]);
    see(e, a, out[0]);
    *answer = a;
    if (a == b && memcmp(image, other, 4096) == 0 && memcmp(out[0], out[1], 2048) == 0)
        return 1;
    fprintf(stderr, "call %d with %u, %u: ours %llx, %s %llx\n", (int)e->call, e->number, e->side, (unsigned long long)a, c->name,
            (unsigned long long)b);
    return 0;
}

/* One octet of the image changed, mostly one that is not 0 or stands beside one. */
static void damage(uint8_t *image, uint64_t *random) {
    uint64_t at = below(random, 4096);
    for (int i = 0; i < 100 && image[at] == 0 && image[(at + 1) % 4096] == 0; i++)
        at = below(random, 2048);
    image[at] = (uint8_t)(below(random, 2) ? image[at] ^ 1u << below(random, 8) : below(random, 10));
}

static int agree_from(const struct unit *c, void (*make)(uint8_t *)) {
    static uint8_t image[4096], damaged[4096];
    uint64_t random = 0x9e3779b97f4a7c15, answer;
    make(image);
    for (int i = 0; i < CALLS; i++) {
        struct event e = any_event(image, &random);
        memcpy(damaged, image, 4096);
        damage(damaged, &random);
        if (!same_for(c, &e, damaged, &answer) || !same_for(c, &e, image, &answer))
            return 0;
    }
    return 1;
}

int agree(void) {
    for (int i = 0; units_in_c[i]; i++) {
        const struct unit *c = units_in_c[i];
        if (!agree_from(c, bench_unit) || !agree_from(c, full_unit) || !agree_from(c, mixed_unit))
            return 0;
        printf("ours and %s agree on %d calls\n", c->name, 6 * CALLS);
    }
    return all_seen();
}
