#include "tmavolice.h"
#include "unit.h"

const struct unit ours = {"ours", tmavolice_frame, tmavolice_tick, tmavolice_allow, tmavolice_prohibit, tmavolice_notice,
                          tmavolice_restart};
