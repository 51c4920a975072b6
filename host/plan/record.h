/* The three records of a plan, and what each field of a line has to look like. */
#ifndef RECORD_H
#define RECORD_H
#include "line.h"

enum kind { PORT, FLOW, MP, NO_RECORD };

enum kind kind_of(const struct line *l);

/* Has a line of the text an MP of this flow? */
int has_mp(const char *text, size_t length, struct field flow);

/* What keeps a line from being a record: words, and the field from 0 that they are about. A field of -1 is the end of the line. */
const char *unreadable(const struct line *l, int *field);

#endif
