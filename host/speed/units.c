#include "unit.h"

const struct unit *const units_in_c[] = {
#ifdef WITH_gcc
    &unit_gcc,
    &unit_gcc_or,
#endif
#ifdef WITH_clang
    &unit_clang,
    &unit_clang_or,
#endif
    NULL,
};
