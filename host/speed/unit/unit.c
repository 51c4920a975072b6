/* The unit's calls, written by hand in C for the same contract and the same image, to be measured against. It is compiled once by
 * each compiler, under the name UNIT. It makes no image of a plan. */
#include "../unit.h"
#include "frame.h"
#include "manage.h"

const struct unit UNIT = {NAME, frame, tick, allow, prohibit, notice, restart};
