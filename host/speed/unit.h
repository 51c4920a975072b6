/* A unit's calls but for making, as a table, so that ours and those in C are called alike. */
#ifndef UNIT_H
#define UNIT_H
#include <stddef.h>
#include <stdint.h>

struct unit {
    const char *name;
    uint64_t (*frame)(uint8_t *image, size_t image_len, uint32_t port, uint32_t side, const uint8_t *frame, size_t frame_len,
                      uint8_t *out, size_t out_len);
    uint64_t (*tick)(uint8_t *image, size_t image_len, uint32_t clock);
    uint64_t (*allow)(uint8_t *image, size_t image_len, uint32_t flow);
    uint64_t (*prohibit)(uint8_t *image, size_t image_len, uint32_t flow);
    uint64_t (*notice)(uint8_t *image, size_t image_len, uint8_t *out, size_t out_len);
    uint64_t (*restart)(uint8_t *image, size_t image_len, uint32_t clock);
};

/* The unit in C, twice for each compiler that the machine has for it: zeros tested by the C library, and by OR. NULL ends the list. */
extern const struct unit unit_gcc, unit_gcc_or, unit_clang, unit_clang_or;
extern const struct unit *const units_in_c[];

/* The proved one. */
extern const struct unit ours;

#endif
