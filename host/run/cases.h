#ifndef CASES_H
#define CASES_H
#include "unit.h"

/* What a call must answer, and the output in words. */
struct expected {
    enum tmavolice_outcome outcome;
    enum tmavolice_refusal refusal;
    uint32_t port, side; /* of a notice */
    const char *out;
};

/* The calls before; the call that is looked at; what it must answer. */
struct bench_case {
    const char *name, *says;
    struct step before[4], now;
    struct expected expected;
};

enum { CASES = 13 };

extern const struct bench_case bench_cases[CASES];

#endif
