/* Numbers and runs of octets. An image has the lowest octet first, as this machine must have it; a frame has network order. */
#ifndef OCTETS_H
#define OCTETS_H
#include "within.h"
#include <stddef.h>
#include <stdint.h>

static const uint64_t ADDRESS = 0xffffffffffff;

/* In an image. */
WITHIN uint64_t get8(const uint8_t *p);
WITHIN uint32_t get4(const uint8_t *p);
WITHIN unsigned get2(const uint8_t *p);
WITHIN void put4(uint8_t *p, uint32_t x);

/* In a frame. */
WITHIN unsigned net2(const uint8_t *p);
WITHIN uint32_t net4(const uint8_t *p);
WITHIN uint64_t net6(const uint8_t *p);
WITHIN void put_net4(uint8_t *p, uint32_t x);
WITHIN void put_net6(uint8_t *p, uint64_t x);

WITHIN int is_group(uint64_t address);

/* Are they all 0? At most 2,560 octets. */
WITHIN int zero(const uint8_t *p, size_t n);

#endif
