#include "input.h"
#include "tmavolice.h"
#include <errno.h>
#include <stdio.h>
#include <stdlib.h>
#include <string.h>

enum { UNUSABLE = 2 };

static void fail(const char *tool, const char *name, const char *what) {
    fprintf(stderr, "%s: %s: %s: %s\n", tool, name, what, strerror(errno));
    exit(UNUSABLE);
}

static void answer_options(const char *tool, const char *help, int argc, char **argv) {
    if (argc == 2 && strcmp(argv[1], "--version") == 0) {
        printf("%s %s\n", tool, TMAVOLICE_VERSION);
        end_with(tool, 0);
    }
    if (argc == 2 && (strcmp(argv[1], "--help") == 0 || strcmp(argv[1], "-h") == 0)) {
        printf("usage: %s [FILE]\n%s", tool, help);
        end_with(tool, 0);
    }
    if (argc > 2 || (argc == 2 && argv[1][0] == '-' && argv[1][1] != '\0')) {
        fprintf(stderr, "usage: %s [FILE]\n", tool);
        exit(UNUSABLE);
    }
}

struct input read_input(const char *tool, const char *help, int argc, char **argv, void *room, size_t most) {
    struct input in = {"standard input", 0};
    FILE *file = stdin;
    answer_options(tool, help, argc, argv);
    if (argc == 2 && strcmp(argv[1], "-") != 0) {
        in.name = argv[1];
        file = fopen(in.name, "rb");
        if (!file)
            fail(tool, in.name, "can't be opened");
    }
    in.length = fread(room, 1, most, file);
    if (ferror(file))
        fail(tool, in.name, "can't be read");
    return in;
}

void end_with(const char *tool, int status) {
    if (fflush(stdout) != 0 || ferror(stdout))
        fail(tool, "standard output", "can't be written");
    exit(status);
}
