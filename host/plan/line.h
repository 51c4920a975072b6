/* A plan's text as lines, and a line as fields between tabs. */
#ifndef LINE_H
#define LINE_H
#include <stddef.h>

enum { MOST_FIELDS = 8 };

struct field {
    const char *text;
    size_t length;
};

struct line {
    struct field whole, field[MOST_FIELDS];
    int fields; /* how many there are, MOST_FIELDS or more counted as MOST_FIELDS */
    int has_lf;
};

/* Line n from 1; 0 if the text has none. */
int line_at(const char *text, size_t length, unsigned n, struct line *line);

int is_word(struct field f, const char *word);
int is_same(struct field f, struct field other);

/* A decimal number without leading zeros? */
int is_number(struct field f);

/* Its value; a large one is told as 999999. */
long value_of(struct field f);

#endif
