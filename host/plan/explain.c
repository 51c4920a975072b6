#include "explain.h"
#include "record.h"
#include <stdio.h>
#include <string.h>

struct at {
    const char *text;
    size_t length;
    unsigned number;
    struct line line;
    enum kind kind;
};

static struct explained about(const struct at *at, int field, const char *words) {
    struct explained e = {1, ""};
    const struct line *l = &at->line;
    e.column = 1 + (field < 0 ? l->whole.length : (size_t)(l->field[field].text - l->whole.text));
    snprintf(e.words, sizeof e.words, "%s", words);
    return e;
}

/* The first line before this one that has the same in each of these fields, given as characters from '0'; 0 if none has. */
static unsigned earlier(const struct at *at, enum kind kind, const char *own, const char *theirs) {
    unsigned n;
    for (n = 1; n < at->number; n++) {
        struct line l;
        int i = 0;
        if (!line_at(at->text, at->length, n, &l) || kind_of(&l) != kind)
            continue;
        while (own[i] && is_same(at->line.field[own[i] - '0'], l.field[theirs[i] - '0']))
            i++;
        if (!own[i])
            return n;
    }
    return 0;
}

static int is_between(struct field f, long least, long most) { return least <= value_of(f) && value_of(f) <= most; }

/* An odd second digit is a group address. */
static int is_group(struct field f) { return strchr("13579bdf", f.text[1]) != NULL; }

static struct explained port_out_of_range(const struct at *at) {
    const struct field *f = at->line.field;
    if (!is_between(f[1], 1, 8))
        return about(at, 1, "a port's number must be 1 to 8");
    if (is_word(f[3], "000000000000"))
        return about(at, 3, "a port's address must not be zero");
    return about(at, 3, is_group(f[3]) ? "a port's address must not be a group address" : "a port's address is out of range");
}

static struct explained flow_out_of_range(const struct at *at) {
    const struct field *f = at->line.field;
    if (!is_between(f[1], 1, 32))
        return about(at, 1, "a flow's number must be 1 to 32");
    if (!is_between(f[2], 1, 8))
        return about(at, 2, "a port's number must be 1 to 8");
    if (is_word(f[3], "u") && !is_between(f[4], 0, 0))
        return about(at, 4, "the VID of a u flow must be 0");
    if (!is_word(f[3], "u") && !is_between(f[4], 1, 4094))
        return about(at, 4, "a VID must be 1 to 4094");
    return about(at, 3, is_word(f[3], "c") ? "a c flow needs a UNI, and this port is an ENNI"
                                           : "an s flow needs an ENNI, and this port is a UNI");
}

static struct explained out_of_range(const struct at *at) {
    if (at->kind == PORT)
        return port_out_of_range(at);
    if (at->kind == FLOW)
        return flow_out_of_range(at);
    return is_between(at->line.field[1], 1, 32) ? about(at, 3, "a level must be 0 to 7") : about(at, 1, "a flow's number must be 1 to 32");
}

static struct explained on_line(struct explained e, unsigned n) {
    size_t used = strlen(e.words);
    snprintf(e.words + used, sizeof e.words - used, ", on line %u", n);
    return e;
}

static struct explained repeated(const struct at *at) {
    unsigned n;
    if (at->kind == MP)
        return on_line(about(at, 3, "this flow has an MP at this level already"), earlier(at, MP, "13", "13"));
    if ((n = earlier(at, at->kind, "1", "1")) != 0)
        return on_line(about(at, 1, at->kind == PORT ? "there is a port with this number already"
                                                     : "there is a flow with this number already"), n);
    if (at->kind == PORT)
        return on_line(about(at, 3, "there is a port with this address already"), earlier(at, PORT, "3", "3"));
    return on_line(about(at, 3, "this port has a flow with this kind and VID already"), earlier(at, FLOW, "234", "234"));
}

static struct explained unreadable_line(const struct at *at) {
    int field;
    const char *words = unreadable(&at->line, &field);
    return about(at, words ? field : 0, words ? words : tmavolice_fault_text(TMAVOLICE_FAULT_UNREADABLE));
}

struct explained explain(const char *text, size_t length, unsigned number, enum tmavolice_fault fault) {
    struct at at = {text, length, number, {{text, 0}, {{text, 0}}, 0, 0}, NO_RECORD};
    if (number != 0 && line_at(text, length, number, &at.line))
        at.kind = kind_of(&at.line);
    switch (fault) {
    case TMAVOLICE_FAULT_UNREADABLE:
        return unreadable_line(&at);
    case TMAVOLICE_FAULT_OUT_OF_RANGE:
        return out_of_range(&at);
    case TMAVOLICE_FAULT_UNNAMED:
        return at.kind == FLOW ? about(&at, 2, "this port is not defined on any line above")
                               : about(&at, 1, "this flow is not defined on any line above");
    case TMAVOLICE_FAULT_REPEATED:
        return repeated(&at);
    case TMAVOLICE_FAULT_TEXT_TOO_LONG:
        return about(&at, 0, "a plan has at most 8,192 octets");
    case TMAVOLICE_FAULT_NO_PORT:
        return about(&at, 0, "an empty plan: there must be at least one port");
    default:
        return about(&at, 0, "this is the 33rd MP, and a plan has at most 32");
    }
}
