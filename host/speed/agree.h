#ifndef AGREE_H
#define AGREE_H
#include "varied.h"

/* Do ours and this unit in C give the same answer, the same octets of output and the same image for the event? The image becomes
 * the one after it, and the answer is told. Says on stderr where not. */
int same_for(const struct unit *c, const struct event *e, uint8_t *image, uint64_t *answer);

/* Do they on many calls of every kind, on three plans, some on a damaged image? One line on stdout. */
int agree(void);

#endif
