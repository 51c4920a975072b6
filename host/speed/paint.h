/* The stack that a call of the library uses, by painting: it runs on a stack filled with one octet, and what is no longer that
 * octet was used. It is counted from where its caller's stack ends: a return address that the call itself pushes counts, what its
 * caller uses does not, nor do arguments that lie on the stack. */
#ifndef PAINT_H
#define PAINT_H
#include "varied.h"

/* Of one event on an image, which becomes the one after it. */
int depth_of(const struct unit *u, const struct event *e, uint8_t *image, uint8_t *out, uint64_t *answer);

/* Of making an image from a plan. */
int depth_of_make(const char *plan, size_t plan_len, uint8_t *image, size_t image_len, uint64_t *answer);

#endif
