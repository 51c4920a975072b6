#include "octets.h"
#include <string.h>

uint64_t get8(const uint8_t *p) {
    uint64_t x;
    memcpy(&x, p, 8);
    return x;
}

uint32_t get4(const uint8_t *p) {
    uint32_t x;
    memcpy(&x, p, 4);
    return x;
}

unsigned get2(const uint8_t *p) {
    uint16_t x;
    memcpy(&x, p, 2);
    return x;
}

void put4(uint8_t *p, uint32_t x) {
    memcpy(p, &x, 4);
}

unsigned net2(const uint8_t *p) {
    return (unsigned)p[0] << 8 | p[1];
}

uint32_t net4(const uint8_t *p) {
    return (uint32_t)net2(p) << 16 | net2(p + 2);
}

uint64_t net6(const uint8_t *p) {
    return (uint64_t)net2(p) << 32 | net4(p + 2);
}

void put_net4(uint8_t *p, uint32_t x) {
    for (int i = 0; i < 4; i++)
        p[i] = (uint8_t)(x >> (24 - 8 * i));
}

void put_net6(uint8_t *p, uint64_t x) {
    for (int i = 0; i < 6; i++)
        p[i] = (uint8_t)(x >> (40 - 8 * i));
}

int is_group(uint64_t address) {
    return address >> 40 & 1;
}

/* By OR, 64 octets a turn in four sums; or by the C library. Which is quicker is the machine's affair. */
#ifdef ZEROS_BY_OR
typedef uint64_t wide __attribute__((vector_size(16), aligned(1), may_alias));

int zero(const uint8_t *p, size_t n) {
    wide a = {0, 0}, b = a, c = a, d = a;
    uint8_t rest = 0;
    for (; n >= 64; n -= 64, p += 64) {
        const wide *w = (const wide *)p;
        a |= w[0];
        b |= w[1];
        c |= w[2];
        d |= w[3];
    }
    for (; n >= 16; n -= 16, p += 16)
        a |= *(const wide *)p;
    for (; n; n--)
        rest |= *p++;
    a |= b | c | d;
    return (a[0] | a[1] | rest) == 0;
}
#else
int zero(const uint8_t *p, size_t n) {
    static const uint8_t zeros[2560];
    return memcmp(p, zeros, n) == 0;
}
#endif
