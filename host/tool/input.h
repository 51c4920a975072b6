/* What both tools do with their arguments: read the one file that is named, or standard input. */
#ifndef INPUT_H
#define INPUT_H
#include <stddef.h>

struct input {
    const char *name;
    size_t length;
};

/* Reads up to `most` octets. On --help or --version, and where nothing can be read, it says so and ends the program. */
struct input read_input(const char *tool, const char *help, int argc, char **argv, void *room, size_t most);

/* Ends the program with this status, or with 2 where what it printed could not be written. */
void end_with(const char *tool, int status);

#endif
