/* tmavolice-plan: says whether a plan is good, and if not what is wrong with it: file, line, column and why. */
#include "../tool/input.h"
#include "explain.h"
#include "record.h"
#include <stdio.h>

static const char tool[] = "tmavolice-plan";
static const char help[] = "Checks a plan; says what is wrong with it, with line and column.\n"
                           "Without a file, or with '-', it reads standard input.\n"
                           "Ends with 0 if the plan is good, 1 if not, 2 if it can't be read.\n";

/* A line is shown with its tabs; what could upset a terminal is not. */
static int is_shown(char c) { return c == '\t' || (c >= ' ' && c <= '~'); }

static void show_line(const struct line *l, size_t column) {
    size_t i;
    printf("    ");
    for (i = 0; i < l->whole.length; i++)
        putchar(is_shown(l->whole.text[i]) ? l->whole.text[i] : '?');
    printf("\n    ");
    for (i = 1; i < column; i++)
        putchar(l->whole.text[i - 1] == '\t' ? '\t' : ' ');
    printf("^\n");
}

static void tell_fault(const char *name, const char *text, size_t length, uint64_t answer) {
    unsigned number = (unsigned)tmavolice_line_of(answer);
    enum tmavolice_fault fault = tmavolice_fault_of(answer);
    struct explained e = explain(text, length, number, fault);
    struct line l;
    if (number == 0 || !line_at(text, length, number, &l)) {
        printf("%s: %s (reason %d, %s)\n", name, e.words, (int)fault, tmavolice_fault_text(fault));
        return;
    }
    printf("%s:%u:%u: %s (reason %d, %s)\n", name, number, (unsigned)e.column, e.words, (int)fault, tmavolice_fault_text(fault));
    show_line(&l, e.column);
}

/* Of a good plan, what no loop can be opened on. */
static void tell_good(const char *name, const char *text, size_t length) {
    unsigned n, counts[NO_RECORD] = {0};
    struct line l;
    for (n = 1; line_at(text, length, n, &l); n++) {
        counts[kind_of(&l)]++;
        if (kind_of(&l) == FLOW && !has_mp(text, length, l.field[1]))
            printf("%s:%u: flow %.*s has no MP, so no loop can be opened on it\n", name, n, (int)l.field[1].length, l.field[1].text);
    }
    printf("%s: good; ports: %u, flows: %u, MPs: %u\n", name, counts[PORT], counts[FLOW], counts[MP]);
}

int main(int argc, char **argv) {
    static uint8_t image[TMAVOLICE_IMAGE_LEN];
    static char text[TMAVOLICE_PLAN_MAX + 1];
    struct input in = read_input(tool, help, argc, argv, text, sizeof text);
    uint64_t answer = tmavolice_make(image, sizeof image, (const uint8_t *)text, in.length, 0);
    int good = tmavolice_outcome_of(answer) == TMAVOLICE_OUTCOME_DONE;
    if (good)
        tell_good(in.name, text, in.length);
    else
        tell_fault(in.name, text, in.length, answer);
    end_with(tool, !good);
}
