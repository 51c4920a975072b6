#include "record.h"
#include <string.h>

/* Behind the first word: n a number, w one of the words, a an address. */
static const struct {
    const char *name, *shape;
    const char *words[4];
    const char *fields, *choice;
} records[] = {
    {"port", "nwa", {"uni", "enni", NULL}, "a port line has 4 fields: port, number, uni or enni, address", "this must be uni or enni"},
    {"flow", "nnwn", {"u", "c", "s", NULL}, "a flow line has 5 fields: flow, number, port, u or c or s, VID", "this must be u, c or s"},
    {"mp", "nwn", {"up", "down", "mip", NULL}, "an mp line has 4 fields: mp, flow, up or down or mip, level",
     "this must be up, down or mip"},
};

enum kind kind_of(const struct line *l) {
    int k = 0;
    while (k < NO_RECORD && !is_word(l->field[0], records[k].name))
        k++;
    return (enum kind)k;
}

int has_mp(const char *text, size_t length, struct field flow) {
    struct line l;
    unsigned n;
    for (n = 1; line_at(text, length, n, &l); n++)
        if (kind_of(&l) == MP && l.fields > 1 && is_same(l.field[1], flow))
            return 1;
    return 0;
}

static int is_listed(struct field f, const char *const *words) {
    while (*words && !is_word(f, *words))
        words++;
    return *words != NULL;
}

static int is_address(struct field f) {
    return f.length == 12 && strspn(f.text, "0123456789abcdef") >= 12;
}

static const char *of_another_shape(struct field f, char shape, int kind) {
    switch (shape) {
    case 'n':
        return is_number(f) ? NULL : "this must be a decimal number without leading zeros";
    case 'w':
        return is_listed(f, records[kind].words) ? NULL : records[kind].choice;
    default:
        return is_address(f) ? NULL : "an address must have 12 lower-case hex digits and nothing else";
    }
}

static const char *misshapen(struct field f, char shape, int kind) {
    const char *why = of_another_shape(f, shape, kind);
    if (why && f.length == 0)
        return "an empty field: between two fields there is one tab";
    if (why && memchr(f.text, ' ', f.length))
        return "fields are separated by one tab, and in this one is a space";
    return why;
}

static int begins_with_a_name_and_a_space(struct field whole) {
    int k;
    for (k = 0; k < NO_RECORD; k++) {
        size_t length = strlen(records[k].name);
        if (whole.length > length && memcmp(whole.text, records[k].name, length) == 0 && whole.text[length] == ' ')
            return 1;
    }
    return 0;
}

/* A line of no record. */
static const char *no_record(const struct line *l) {
    if (l->whole.length == 0)
        return "an empty line is not allowed";
    if (l->whole.text[0] == '#')
        return "a plan has no comments";
    if (begins_with_a_name_and_a_space(l->whole))
        return "fields are separated by one tab, and here is a space";
    return "a line begins with port, flow or mp";
}

const char *unreadable(const struct line *l, int *field) {
    int kind = (int)kind_of(l), wanted, i;
    *field = -1;
    if (l->whole.length > 0 && l->whole.text[l->whole.length - 1] == '\r')
        return "the line ends in CR LF; a plan has LF alone";
    *field = 0;
    if (kind == NO_RECORD)
        return no_record(l);
    wanted = 1 + (int)strlen(records[kind].shape);
    for (i = 1; i < wanted && i < l->fields; i++) {
        const char *why = misshapen(l->field[i], records[kind].shape[i - 1], kind);
        *field = i;
        if (why)
            return why;
    }
    *field = l->fields > wanted ? wanted : -1;
    if (l->fields != wanted)
        return records[kind].fields;
    return l->has_lf ? NULL : "the last line has no LF at its end";
}
