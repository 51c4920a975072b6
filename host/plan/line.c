#include "line.h"
#include <string.h>

static void part(struct line *l) {
    const char *at = l->whole.text, *end = at + l->whole.length;
    l->fields = 0;
    for (;;) {
        const char *tab = memchr(at, '\t', (size_t)(end - at)), *behind = tab ? tab : end;
        struct field f = {at, (size_t)(behind - at)};
        if (l->fields < MOST_FIELDS)
            l->field[l->fields++] = f;
        if (!tab)
            return;
        at = tab + 1;
    }
}

int line_at(const char *text, size_t length, unsigned n, struct line *line) {
    const char *at = text, *end = text + length;
    for (; at < end; n--) {
        const char *lf = memchr(at, '\n', (size_t)(end - at));
        line->whole.text = at;
        line->whole.length = (size_t)((lf ? lf : end) - at);
        line->has_lf = lf != NULL;
        if (n == 1) {
            part(line);
            return 1;
        }
        if (!lf)
            return 0;
        at = lf + 1;
    }
    return 0;
}

int is_word(struct field f, const char *word) { return f.length == strlen(word) && memcmp(f.text, word, f.length) == 0; }

int is_same(struct field f, struct field other) { return f.length == other.length && memcmp(f.text, other.text, f.length) == 0; }

int is_number(struct field f) {
    size_t i;
    for (i = 0; i < f.length; i++)
        if (f.text[i] < '0' || f.text[i] > '9')
            return 0;
    return f.length == 1 || (f.length > 1 && f.text[0] != '0');
}

long value_of(struct field f) {
    long value = 0;
    size_t i;
    for (i = 0; i < f.length; i++)
        value = value > 99999 ? 999999 : 10 * value + (f.text[i] - '0');
    return value;
}
