/* What the kit's archive for x86-64 defines of the files that the program opens, for a machine that is not x86-64. */
#include <errno.h>
#include <fcntl.h>

int rattle_open_to_read(const char *path);
void rattle_set_errno(int error);

int rattle_open_to_read(const char *path) { return open(path, O_RDONLY | O_CLOEXEC); }

void rattle_set_errno(int error) { errno = error; }
