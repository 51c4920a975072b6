/* The calls without a frame: tick, allow, prohibit, take notice, restart. */
#ifndef MANAGE_H
#define MANAGE_H
#include "within.h"
#include <stddef.h>
#include <stdint.h>

WITHIN uint64_t tick(uint8_t *b, size_t b_len, uint32_t clock);
WITHIN uint64_t allow(uint8_t *b, size_t b_len, uint32_t flow);
WITHIN uint64_t prohibit(uint8_t *b, size_t b_len, uint32_t flow);
WITHIN uint64_t notice(uint8_t *b, size_t b_len, uint8_t *out, size_t room);
WITHIN uint64_t restart(uint8_t *b, size_t b_len, uint32_t clock);

#endif
