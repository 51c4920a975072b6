#include "plans.h"
#include "tmavolice.h"
#include <stdio.h>
#include <stdlib.h>
#include <string.h>

enum { DONE = 6, REPLY = 4, TESTER = 0xaa };

static void insist(uint64_t answer, unsigned outcome) {
    if ((answer & 255) != outcome) {
        fprintf(stderr, "no image: the answer was %llx\n", (unsigned long long)answer);
        exit(1);
    }
}

/* The tester is 02-00-00-00-00-AA. */
struct path path_to(const uint8_t *image, int row) {
    static const unsigned tags[] = {UNTAGGED, UNTAGGED, C_TAG, S_TAG};
    const uint8_t *flow = image + 256 + 32 * row, *port = image + 128;
    while (port[7] != flow[7])
        port += 16;
    struct path p = {.port = flow[7], .way = {.from = 0x020000000000 + TESTER}};
    for (int i = 5; i >= 0; i--)
        p.way.to = p.way.to << 8 | port[i];
    p.way.tag = tags[flow[6] & 3];
    p.way.vid = flow[4] | (unsigned)flow[5] << 8;
    while (p.level < 7 && flow[8 + p.level] == 0)
        p.level++;
    p.side = flow[8 + p.level] != 2;
    return p;
}

static void make(uint8_t *image, const char *plan) {
    insist(tmavolice_make(image, 4096, (const uint8_t *)plan, strlen(plan), 0), DONE);
}

void open_on(uint8_t *image, int row) {
    uint8_t out[2008];
    struct path p = path_to(image, row);
    struct frame f = request_frame(p.way, p.level, ACTIVATE, 86400);
    insist(tmavolice_frame(image, 4096, p.port, p.side, f.octets, f.len, out, sizeof out), REPLY);
}

void bench_unit(uint8_t *image) {
    make(image, "port\t1\tuni\t020000000001\nflow\t1\t1\tc\t20\nflow\t2\t1\tc\t30\nmp\t1\tup\t4\n");
    insist(tmavolice_allow(image, 4096, 1), DONE);
    open_on(image, 0);
}

/* The flow in row i from 0: rows are ordered by port and set, and numbers by nothing, save that the last row is flow 32. */
static int number_in(int row) {
    return (row * 7 + 6) % 32 + 1;
}

void full_plan(char *plan) {
    static const char *const mps[] = {"up", "down", "mip"};
    int n = 0;
    for (int i = 1; i <= 8; i++)
        n += sprintf(plan + n, "port\t%d\t%s\t0200000000%02x\n", i, i % 2 ? "uni" : "enni", i);
    for (int i = 0; i < 32; i++)
        n += sprintf(plan + n, "flow\t%d\t%d\t%c\t%d\n", number_in(i), i / 4 + 1, "ucs"[i % 4 ? 1 + i / 4 % 2 : 0],
                     i % 4 ? 100 + i : 0);
    for (int i = 0; i < 32; i++)
        n += sprintf(plan + n, "mp\t%d\t%s\t%d\n", number_in(i), mps[i % 3], i % 8);
}

void full_unit(uint8_t *image) {
    char plan[4096];
    full_plan(plan);
    make(image, plan);
    for (uint32_t flow = 1; flow <= 32; flow++)
        insist(tmavolice_allow(image, 4096, flow), DONE);
    for (int i = 0; i < 32; i++)
        if (number_in(i) % 2 == 0)
            open_on(image, i);
}

void mixed_unit(uint8_t *image) {
    make(image, "port\t3\tuni\t0a0000000003\nport\t7\tenni\t0a0000000007\n"
                "flow\t5\t3\tu\t0\nflow\t9\t3\tc\t1\nflow\t1\t3\tc\t4094\nflow\t30\t7\ts\t1\nflow\t31\t7\ts\t20\nflow\t2\t7\tu\t0\n"
                "flow\t32\t7\ts\t4094\n"
                "mp\t5\tup\t0\nmp\t5\tup\t1\nmp\t5\tdown\t2\nmp\t5\tdown\t3\nmp\t5\tmip\t4\nmp\t5\tmip\t5\n"
                "mp\t5\tmip\t6\nmp\t5\tup\t7\nmp\t9\tdown\t0\nmp\t9\tdown\t1\nmp\t9\tmip\t2\nmp\t9\tup\t3\n"
                "mp\t9\tmip\t4\nmp\t9\tup\t5\nmp\t9\tmip\t6\nmp\t9\tdown\t7\nmp\t30\tmip\t0\nmp\t30\tup\t1\n"
                "mp\t30\tup\t2\nmp\t30\tmip\t3\nmp\t30\tdown\t4\nmp\t30\tmip\t5\nmp\t30\tup\t6\nmp\t30\tmip\t7\n"
                "mp\t1\tup\t6\nmp\t31\tmip\t3\nmp\t31\tmip\t4\nmp\t31\tmip\t5\nmp\t2\tdown\t4\nmp\t2\tmip\t5\n"
                "mp\t32\tmip\t0\nmp\t32\tup\t7\n");
    insist(tmavolice_allow(image, 4096, 5), DONE);
    insist(tmavolice_allow(image, 4096, 9), DONE);
    insist(tmavolice_allow(image, 4096, 30), DONE);
}
