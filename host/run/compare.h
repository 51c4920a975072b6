#ifndef COMPARE_H
#define COMPARE_H
#include "cases.h"

/* Is the answer as expected, and every octet of the output, those behind the length written too? Says what differs. */
int as_expected(const struct expected *e, uint64_t answer, const uint8_t *out);

#endif
