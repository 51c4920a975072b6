/* A short text for each outcome, refusal, plan fault and response code. Included by tmavolice.h. */
#ifndef TMAVOLICE_TEXT_H
#define TMAVOLICE_TEXT_H

#include "tmavolice.h"

static inline const char *tmavolice_outcome_text(enum tmavolice_outcome outcome) {
    static const char *const texts[] = {"refused", "forward", "drop", "loop", "reply", "reply and forward", "done", "plan fault"};
    return (unsigned)outcome < sizeof texts / sizeof *texts ? texts[outcome] : "unknown outcome";
}

static inline const char *tmavolice_refusal_text(enum tmavolice_refusal refusal) {
    static const char *const texts[] = {"not refused",
                                        "no such port or side",
                                        "frame too short or too long",
                                        "output buffer too short",
                                        "a notice is due",
                                        "the clock jumped",
                                        "no such flow",
                                        "no notice is due",
                                        "no valid image"};
    return (unsigned)refusal < sizeof texts / sizeof *texts ? texts[refusal] : "unknown refusal";
}

static inline const char *tmavolice_fault_text(enum tmavolice_fault fault) {
    static const char *const texts[] = {"no fault",
                                        "not a record",
                                        "out of range",
                                        "port or flow not named before",
                                        "repeated",
                                        "text too long",
                                        "no port",
                                        "too many MPs"};
    return (unsigned)fault < sizeof texts / sizeof *texts ? texts[fault] : "unknown fault";
}

/* The response code of an LLR: the sixth octet of its PDU, in a frame with one tag frame[23]. MEF 46 has 11 to 254 read as 255. */
static inline const char *tmavolice_code_text(unsigned code) {
    static const char *const texts[] = {"No Error",         "Malformed Request", "Max Sessions Exceeded", "Resource Unavailable",
                                        "Already Active",   "Already Inactive",  "Unsupported",           "Wrong MP",
                                        "Timeout",          "Prohibited",        "Unknown Message Type"};
    return code < sizeof texts / sizeof *texts ? texts[code] : "Unknown Error";
}

#endif
