/* For a switch that loops back by itself: the open sessions of an image, as rules to program. */
#ifndef RULES_H
#define RULES_H
#include <stddef.h>
#include <stdint.h>

enum { RULES = 16 };

/* Frames of this port, tag and source address. From this side they are sent back, with the addresses swapped or, to a group address,
 * from the port's address to the tester; from the other side they are dropped. */
struct rule {
    uint32_t port, side;
    unsigned kind, vid; /* 1 neither C- nor S-tag first, 2 C-tag, 3 S-tag; the VID of the tag */
    uint8_t tester[6], address[6];
};

/* Reads them off the image of a valid state; says how many there are. */
size_t rules_of(const uint8_t *image, struct rule *rules);

#endif
