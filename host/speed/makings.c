#include "makings.h"
#include "paint.h"
#include "plans.h"
#include "tmavolice.h"
#include <stdio.h>
#include <string.h>

enum { ROOM = TMAVOLICE_PLAN_MAX + 100 };

/* A text: some lines, behind the full plan or alone. How its making ends: the outcome, and the refusal's or fault's number. */
struct making {
    const char *name;
    unsigned outcome, why;
    size_t image_len;
    int is_behind_full_plan;
    const char *lines;
};

static const struct making makings[] = {
    {"the full plan", TMAVOLICE_DONE, 0, 4096, 1, ""},
    {"the full plan and an image too short", TMAVOLICE_REFUSED, TMAVOLICE_NO_VALID_IMAGE, 4095, 1, ""},
    {"a line that is no record", TMAVOLICE_PLAN_FAULT, TMAVOLICE_UNREADABLE, 4096, 1, "port\n"},
    {"a number out of range", TMAVOLICE_PLAN_FAULT, TMAVOLICE_OUT_OF_RANGE, 4096, 1, "port\t9\tuni\t0200000000aa\n"},
    {"a port without a name", TMAVOLICE_PLAN_FAULT, TMAVOLICE_UNNAMED, 4096, 0, "flow\t1\t1\tu\t0\n"},
    {"a port repeated", TMAVOLICE_PLAN_FAULT, TMAVOLICE_REPEATED, 4096, 1, "port\t8\tuni\t0200000000aa\n"},
    {"an empty text", TMAVOLICE_PLAN_FAULT, TMAVOLICE_NO_PORT, 4096, 0, ""},
    {"a 33rd MP", TMAVOLICE_PLAN_FAULT, TMAVOLICE_TOO_MANY_MPS, 4096, 1, "mp\t1\tup\t0\n"},
};

static uint8_t image[4096];
static char text[ROOM];

static int is_so(const char *name, uint64_t answer, unsigned outcome, unsigned why) {
    if ((answer & 255) == outcome && (answer >> 8 & 255) == why)
        return 1;
    fprintf(stderr, "making of %s: it is not so (%llx)\n", name, (unsigned long long)answer);
    return 0;
}

/* The full plan and line feeds behind it, cut at every length; too long at the end. */
static int deepest_of_lengths(uint64_t *last) {
    int deepest = 0;
    full_plan(text);
    memset(text + strlen(text), '\n', ROOM - strlen(text));
    for (size_t len = 0; len <= ROOM; len++) {
        int depth = depth_of_make(text, len, image, sizeof image, last);
        deepest = depth > deepest ? depth : deepest;
    }
    return deepest;
}

int tell_makings(void (*tell)(const char *name, int depth)) {
    uint64_t answer;
    int right = 1;
    for (size_t i = 0; i < sizeof makings / sizeof makings[0]; i++) {
        const struct making *m = &makings[i];
        text[0] = 0;
        if (m->is_behind_full_plan)
            full_plan(text);
        strcat(text, m->lines);
        tell(m->name, depth_of_make(text, strlen(text), image, m->image_len, &answer));
        right &= is_so(m->name, answer, m->outcome, m->why);
    }
    tell("a text cut at every length", deepest_of_lengths(&answer));
    return right & is_so("a text too long", answer, TMAVOLICE_PLAN_FAULT, TMAVOLICE_TEXT_TOO_LONG);
}
