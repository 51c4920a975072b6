/* The library's calls, made for a program that can't link it (src/lib.rs): it writes requests to our standard input and reads
 * answers from our standard output. Numbers have eight octets, the lowest first.
 *   A request: the call's number; five numbers, first those that the call takes; the lengths of image, input and output; the octets
 *     of each. The input is a plan, a frame, or the image that is looked at.
 *   An answer: the number that the call gave; the octets of image and output after it.
 * The end of the input ends us. What is no request, and a call that touches what it was not lent, ends us with no answer. */
#include "tmavolice.h"
#include <stdio.h>
#include <stdlib.h>
#include <string.h>

enum { MAKE, FRAME, TICK, ALLOW, PROHIBIT, NOTICE, RESTART, LOOK };
enum { MARGIN = 64, SHIFTS = 16, AROUND = 0xc3, BUFFER = 65536 };

uint64_t probe_look(const uint8_t *image, size_t image_len, uint8_t port, uint8_t kind, uint16_t vid, uint8_t level,
                    uint64_t source);

struct request {
    uint64_t call, number[5], image_len, in_len, out_len;
};

/* Octets lent to a call, with others around them that it must not touch. */
struct lent {
    uint8_t *memory, *octets;
    size_t before, len;
};

static uint8_t around[MARGIN + SHIFTS];

static void give_up(const char *why) {
    fprintf(stderr, "served: %s\n", why);
    exit(1);
}

/* The request's next octets, which begin that far behind a place where others would. */
static struct lent lend(uint64_t len, unsigned shift) {
    struct lent l = {.before = MARGIN + shift, .len = len};
    l.memory = malloc(l.before + len + MARGIN);
    if (!l.memory)
        give_up("no memory");
    l.octets = l.memory + l.before;
    memcpy(l.memory, around, l.before);
    memcpy(l.octets + len, around, MARGIN);
    if (fread(l.octets, 1, len, stdin) != len)
        give_up("a request is cut short");
    return l;
}

static void insist_untouched_around(struct lent l) {
    if (memcmp(l.memory, around, l.before) != 0 || memcmp(l.octets + l.len, around, MARGIN) != 0)
        give_up("a call touched octets around those that it was lent");
}

static void give_back(struct lent l) {
    fwrite(l.octets, 1, l.len, stdout);
    free(l.memory);
}

static uint64_t carried_out(const struct request *r, struct lent image, struct lent in, struct lent out) {
    uint32_t first = (uint32_t)r->number[0], second = (uint32_t)r->number[1];
    switch (r->call) {
    case MAKE:
        return tmavolice_make(image.octets, image.len, in.octets, in.len, first);
    case FRAME:
        return tmavolice_frame(image.octets, image.len, first, second, in.octets, in.len, out.octets, out.len);
    case TICK:
        return tmavolice_tick(image.octets, image.len, first);
    case ALLOW:
        return tmavolice_allow(image.octets, image.len, first);
    case PROHIBIT:
        return tmavolice_prohibit(image.octets, image.len, first);
    case NOTICE:
        return tmavolice_notice(image.octets, image.len, out.octets, out.len);
    case RESTART:
        return tmavolice_restart(image.octets, image.len, first);
    case LOOK:
        return probe_look(in.octets, in.len, (uint8_t)first, (uint8_t)second, (uint16_t)r->number[2], (uint8_t)r->number[3],
                          r->number[4]);
    }
    give_up("there is no such call");
    return 0;
}

static void serve(const struct request *r, unsigned count) {
    struct lent image = lend(r->image_len, count % SHIFTS);
    struct lent in = lend(r->in_len, 3 * count % SHIFTS);
    struct lent out = lend(r->out_len, count % 11);
    uint64_t answer = carried_out(r, image, in, out);
    insist_untouched_around(image);
    insist_untouched_around(in);
    insist_untouched_around(out);
    fwrite(&answer, 1, sizeof answer, stdout);
    give_back(image);
    give_back(out);
    free(in.memory);
    if (fflush(stdout) != 0)
        give_up("an answer can't be written");
}

int main(void) {
    static char incoming[BUFFER], outgoing[BUFFER];
    struct request r;
    setvbuf(stdin, incoming, _IOFBF, BUFFER);
    setvbuf(stdout, outgoing, _IOFBF, BUFFER);
    memset(around, AROUND, sizeof around);
    for (unsigned count = 0; fread(&r, 1, sizeof r, stdin) == sizeof r; count++)
        serve(&r, count);
    return 0;
}
