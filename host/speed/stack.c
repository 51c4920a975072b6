/* The deepest stack of our calls: of each kind of frame at every length, of each call among many of every kind, and of making. Fails
 * where one reaches its limit, and where a call was not seen to answer all that it can. */
#include "kinds.h"
#include "makings.h"
#include "paint.h"
#include "seen.h"
#include "tmavolice.h"
#include <stdio.h>
#include <string.h>

enum { CALLS = 20000, LIMIT = 512, LIMIT_OF_MAKING = 4096 };

static uint8_t image[4096], out[2048];
static int right = 1;

static int larger(int a, int b) {
    return a > b ? a : b;
}

static void tell(const char *call, const char *name, int depth, int limit) {
    printf("%-8s %-40s %4d octets of stack\n", call, name, depth);
    if (depth >= limit) {
        fprintf(stderr, "%s, %s: not below %d octets of stack\n", call, name, limit);
        right = 0;
    }
}

static void tell_making(const char *name, int depth) {
    tell("make", name, depth, LIMIT_OF_MAKING);
}

/* A kind of frame at every length, on the flow of one tag. */
static int deepest_of_lengths(const struct unit *u, const struct kind *k, const uint8_t *start, int row) {
    struct path p = k->path(start, row);
    size_t least = k->least + (p.way.tag == UNTAGGED ? 0 : 4);
    struct event e = {.call = FRAME, .number = p.port, .side = p.side, .image_len = sizeof image, .out_len = TMAVOLICE_OUT_LEN};
    int deepest = 0;
    for (size_t len = 0; len <= LONGEST; len++) {
        uint64_t answer;
        e.frame = k->frame(p, len);
        memcpy(image, start, sizeof image);
        deepest = larger(deepest, depth_of(u, &e, image, out, &answer));
        see(&e, answer, out);
        if (len >= least && len <= TMAVOLICE_FRAME_MAX && tmavolice_outcome_of(answer) != k->outcome) {
            fprintf(stderr, "%s, %zu octets: it is not so (%llx)\n", k->name, len, (unsigned long long)answer);
            right = 0;
        }
    }
    return deepest;
}

/* What would be wrong: a unit that turns a frame round in a buffer of its own. */
static uint64_t frame_by_own_buffer(uint8_t *b, size_t n, uint32_t port, uint32_t side, const uint8_t *f, size_t f_len, uint8_t *to,
                                    size_t to_len) {
    uint8_t own[TMAVOLICE_OUT_LEN] = {0};
    uint64_t answer = tmavolice_frame(b, n, port, side, f, f_len, own, to_len);
    memcpy(to, own, tmavolice_length_of(answer));
    return answer;
}

static const struct unit by_own_buffer = {.name = "by an own buffer", .frame = frame_by_own_buffer};

/* Would its stack be seen, all of the buffer below which ours begins? */
static void insist_on_paint(const struct kind *k, const uint8_t *start, int row, int without) {
    if (deepest_of_lengths(&by_own_buffer, k, start, row) < without + TMAVOLICE_OUT_LEN) {
        fprintf(stderr, "%s: a buffer of %d octets was not seen\n", k->name, TMAVOLICE_OUT_LEN);
        right = 0;
    }
}

static void tell_frames(void) {
    static uint8_t start[4096];
    int rows[TAGS];
    unit_with_sessions(start, rows);
    for (int i = 0; i < count_of_kinds; i++) {
        int deepest = 0;
        for (int tag = 0; tag < TAGS; tag++)
            deepest = larger(deepest, deepest_of_lengths(&ours, &kinds[i], start, rows[tag]));
        tell("frame", kinds[i].name, deepest, LIMIT);
        if (kinds[i].outcome == TMAVOLICE_LOOP)
            insist_on_paint(&kinds[i], start, rows[0], deepest);
    }
}

static void draw(void (*make_unit)(uint8_t *), int *deepest) {
    uint64_t random = 0x2545f4914f6cdd1d, answer;
    make_unit(image);
    for (int i = 0; i < CALLS; i++) {
        struct event e = any_event(image, &random);
        deepest[e.call] = larger(deepest[e.call], depth_of(&ours, &e, image, out, &answer));
        see(&e, answer, out);
    }
}

static void tell_calls(void) {
    static const char *const names[] = {"frame", "tick", "allow", "prohibit", "notice", "restart"};
    int deepest[6] = {0};
    draw(bench_unit, deepest);
    draw(full_unit, deepest);
    draw(mixed_unit, deepest);
    for (int i = 0; i < 6; i++)
        tell(names[i], "the deepest of many, drawn at random", deepest[i], LIMIT);
}

int main(void) {
    tell_frames();
    tell_calls();
    right &= tell_makings(tell_making);
    return !(right & all_seen());
}
