/* What there was of what a call can answer. */
#ifndef SEEN_H
#define SEEN_H
#include "varied.h"

void see(const struct event *e, uint64_t answer, const uint8_t *out);

/* Every outcome, every refusal and every code of a reply, of each call? Says on stderr where not. */
int all_seen(void);

#endif
