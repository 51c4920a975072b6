/* "Worked on the bench": B1 to B12, with the paper's octets. B10 is two cases: of 60,000 ms elapsed 16 leaves 59,984, so that after
 * 59,983 more there is 1 second left, and a millisecond later none. */
#include "cases.h"

#define ASKS(pdu) {FRAME, "PORT TESTER C20 OAM " pdu, 0}
#define TICKS(reading) {TICK, "", reading}
#define RESTARTS(reading) {RESTART, "", reading}
#define TAKES_NOTICE {NOTICE, "", 0}
#define AT_ONCE {{NO_CALL, "", 0}}

#define IS_REPLY(pdu) {TMAVOLICE_REPLY, TMAVOLICE_NOT_REFUSED, 0, 0, "TESTER PORT C20 OAM " pdu}
#define IS_NOTICE(pdu) {TMAVOLICE_REPLY, TMAVOLICE_NOT_REFUSED, 1, TMAVOLICE_CEN, "TESTER PORT C20 OAM " pdu}
#define IS_REFUSED(why) {TMAVOLICE_REFUSED, why, 0, 0, ""}
#define IS_FORWARD {TMAVOLICE_FORWARD, TMAVOLICE_NOT_REFUSED, 0, 0, ""}

#define B1 ASKS("80 39 00 08 01 00 02 00 00 00 00 01 25 00 05 01 00 00 00 3C 00")
#define STATE ASKS("80 39 00 08 03 00 02 00 00 00 00 01 00")
#define ONE_SECOND IS_REPLY("80 38 01 08 03 00 02 00 00 00 00 01 25 00 05 01 00 00 00 01 00")
#define TIMEOUT IS_NOTICE("80 38 00 08 02 08 02 00 00 00 00 01 00")

const struct bench_case bench_cases[CASES] = {
    {"B1", "Activate, 60 seconds: code 0", AT_ONCE, B1,
     IS_REPLY("80 38 01 08 01 00 02 00 00 00 00 01 25 00 05 01 00 00 00 3C 00")},
    {"B2", "the same of a later version, with an unknown TLV: that TLV is copied", AT_ONCE,
     ASKS("81 39 00 0A 01 00 02 00 00 00 00 01 00 00 09 00 01 FF 25 00 05 01 00 00 00 3C 00"),
     IS_REPLY("80 38 05 08 01 00 02 00 00 00 00 01 25 00 05 01 00 00 00 3C 09 00 01 FF 00")},
    {"B3", "B1 twice: code 4", {B1}, B1, IS_REPLY("80 38 01 08 01 04 02 00 00 00 00 01 25 00 05 01 00 00 00 3C 00")},
    {"B4", "B1 with End cut off: code 1", AT_ONCE,
     ASKS("80 39 00 08 01 00 02 00 00 00 00 01 25 00 05 01 00 00 00 3C"), IS_REPLY("80 38 00 08 01 01 02 00 00 00 00 01 00")},
    {"B5", "seconds 0: code 6", AT_ONCE, ASKS("80 39 00 08 01 00 02 00 00 00 00 01 25 00 05 01 00 00 00 00 00"),
     IS_REPLY("80 38 00 08 01 06 02 00 00 00 00 01 25 00 05 01 00 00 00 00 00")},
    {"B6", "seconds 86,400: code 0", AT_ONCE, ASKS("80 39 00 08 01 00 02 00 00 00 00 01 25 00 05 01 00 01 51 80 00"),
     IS_REPLY("80 38 01 08 01 00 02 00 00 00 00 01 25 00 05 01 00 01 51 80 00")},
    {"B7", "seconds 86,401: code 6", AT_ONCE, ASKS("80 39 00 08 01 00 02 00 00 00 00 01 25 00 05 01 00 01 51 81 00"),
     IS_REPLY("80 38 00 08 01 06 02 00 00 00 00 01 25 00 05 01 00 00 00 00 00")},
    {"B8", "after B1, tick 59,999: State says 1 second", {B1, TICKS(59999)}, STATE, ONE_SECOND},
    {"B9", "after B1, tick 60,000: closed, notice code 8", {B1, TICKS(60000)}, TAKES_NOTICE, TIMEOUT},
    {"B10", "restart at 4,294,967,290, B1, tick 10, so 16 ms elapsed; tick 59,993: 1 second",
     {RESTARTS(4294967290), B1, TICKS(10), TICKS(59993)}, STATE, ONE_SECOND},
    {"B10", "the same with tick 59,994: closed, notice code 8", {RESTARTS(4294967290), B1, TICKS(10), TICKS(59994)},
     TAKES_NOTICE, TIMEOUT},
    {"B11", "the clock moves 2,147,483,648 ms: refusal 5", AT_ONCE, TICKS(2147483648),
     IS_REFUSED(TMAVOLICE_CLOCK_JUMPED)},
    {"B12", "after B1, the tester's VID 30 frame: forward", {B1}, {FRAME, "PORT TESTER C30 IPV4 45 00", 0}, IS_FORWARD},
};
