#include "compare.h"
#include "words.h"
#include <stdio.h>
#include <string.h>

/* Says where a number is not the expected one. */
static int same(const char *what, unsigned long is, unsigned long expected) {
    if (is != expected)
        printf("    DIFFERS %s is %lu, expected %lu\n", what, is, expected);
    return is == expected;
}

static int same_octets(const uint8_t *out, const uint8_t *expected) {
    size_t i;
    for (i = 0; i < TMAVOLICE_OUT_LEN; i++)
        if (out[i] != expected[i]) {
            printf("    DIFFERS octet %lu of the output is %02X, expected %02X\n", (unsigned long)i, out[i], expected[i]);
            return 0;
        }
    return 1;
}

int as_expected(const struct expected *e, uint64_t answer, const uint8_t *out) {
    uint8_t octets[TMAVOLICE_OUT_LEN];
    size_t length;
    int good;
    memset(octets, FILLER, sizeof octets);
    length = octets_of(e->out, octets, sizeof octets);
    good = same("the outcome", tmavolice_outcome_of(answer), e->outcome);
    good &= same("the refusal", tmavolice_refusal_of(answer), e->refusal);
    good &= same("the port", tmavolice_port_of(answer), e->port);
    good &= same("the side", tmavolice_side_of(answer), e->side);
    good &= same("the length", tmavolice_length_of(answer), length);
    return good & same_octets(out, octets);
}
