/* What is wrong with a plan, in words. That something is wrong, in which line and why, is the library's own verdict. */
#ifndef EXPLAIN_H
#define EXPLAIN_H
#include "line.h"
#include "tmavolice.h"

struct explained {
    size_t column; /* from 1 */
    char words[160];
};

struct explained explain(const char *text, size_t length, unsigned number, enum tmavolice_fault fault);

#endif
