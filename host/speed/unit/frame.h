/* The frame call. */
#ifndef FRAME_H
#define FRAME_H
#include "within.h"
#include <stddef.h>
#include <stdint.h>

WITHIN uint64_t frame(uint8_t *b, size_t b_len, uint32_t number, uint32_t side, const uint8_t *frame, size_t n, uint8_t *out,
                      size_t room);

#endif
