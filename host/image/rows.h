/* The rows of an image in words, as docs/LAYOUT.md lays them out. */
#ifndef ROWS_H
#define ROWS_H
#include <stdint.h>

void print_image(const uint8_t *image);

#endif
