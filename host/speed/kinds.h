/* Kinds of frames of every length, on a unit with sessions, with each tag. */
#ifndef KINDS_H
#define KINDS_H
#include "plans.h"

enum { TAGS = 3, LONGEST = 2048 };

struct kind {
    const char *name;
    unsigned outcome; /* of a frame of at least `least` octets beside its tag, and at most 2,000 in all */
    size_t least;
    struct path (*path)(const uint8_t *image, int row);
    struct frame (*frame)(struct path p, size_t len);
};

extern const struct kind kinds[];
extern const int count_of_kinds;

/* A unit with a session on the flow of each tag: untagged, a C-tag, an S-tag. Tells the flows' rows. */
void unit_with_sessions(uint8_t *image, int *rows);

#endif
