/* Tmavolice 1.0.0: a responder for MEF 46 latching loopback.
 *
 *     uint64_t answer = tmavolice_frame(image, sizeof image, port, side, frame, length, out, sizeof out);
 *     enum tmavolice_outcome outcome = tmavolice_outcome_of(answer);
 *     if (tmavolice_length_of(answer) > 0) // looped back, or an LLR
 *         transmit(port, side, out, tmavolice_length_of(answer));
 *     if (outcome != TMAVOLICE_OUTCOME_LOOP && outcome != TMAVOLICE_OUTCOME_REPLY && outcome != TMAVOLICE_OUTCOME_DROP)
 *         forward(port, side, frame, length);
 *
 * The responder's whole state is an image of 4,096 octets that you own and pass to each call; the library keeps nothing between
 * calls. Up to 16 sessions can be open at once, each for 1 to 86,400 seconds. docs/HOST.md in the source tree shows how a forwarding
 * plane uses the library, step by step; tmavolice(3) is the same in short.
 *
 * Each buffer is a pointer and a length. No call can check these, so they are up to you:
 * - a pointer leads to at least as many octets as its length says, all of them initialised; it is not null, not even with length
 *   0; no length is 2^63 or more;
 * - the buffers of one call do not overlap, so you can't have the reply written into the request's own buffer;
 * - until the call returns, nothing else reads or writes the image or the output, or writes the frame or the plan.
 * Buffers need no alignment. Every other argument may have any value: one that is of no use gets a refusal, and nothing changes. */
#ifndef TMAVOLICE_H
#define TMAVOLICE_H

#include <stddef.h>
#include <stdint.h>

#define TMAVOLICE_VERSION_MAJOR 1
#define TMAVOLICE_VERSION_MINOR 0
#define TMAVOLICE_VERSION_PATCH 0
#define TMAVOLICE_VERSION "1.0.0"

#ifdef __cplusplus
extern "C" {
#endif

/* Lengths, in octets. */
enum {
    TMAVOLICE_IMAGE_LEN = 4096, /* an image, exactly */
    TMAVOLICE_OUT_LEN = 2008,   /* an output buffer, at least */
    TMAVOLICE_FRAME_MIN = 14,   /* a frame, without FCS */
    TMAVOLICE_FRAME_MAX = 2000,
    TMAVOLICE_PLAN_MAX = 8192 /* a plan's text */
};

/* The side that a frame comes from, and that a notice goes to. */
enum tmavolice_side {
    TMAVOLICE_SIDE_EXTERNAL = 0, /* the External Network */
    TMAVOLICE_SIDE_CEN = 1,      /* the carrier Ethernet network */
    /* The same by their first names. */
    TMAVOLICE_EXTERNAL = TMAVOLICE_SIDE_EXTERNAL,
    TMAVOLICE_CEN = TMAVOLICE_SIDE_CEN
};

/* What a call answers, and what you do then. */
enum tmavolice_outcome {
    TMAVOLICE_OUTCOME_REFUSED = 0,           /* nothing has changed; tmavolice_refusal_of says why */
    TMAVOLICE_OUTCOME_FORWARD = 1,           /* forward the frame as if there were no responder */
    TMAVOLICE_OUTCOME_DROP = 2,              /* discard the frame */
    TMAVOLICE_OUTCOME_LOOP = 3,              /* send the output back where the frame came from, and discard the frame */
    TMAVOLICE_OUTCOME_REPLY = 4,             /* the same; for a notice, send the output to the answer's port and side */
    TMAVOLICE_OUTCOME_REPLY_AND_FORWARD = 5, /* send the output back where the frame came from, and forward the frame */
    TMAVOLICE_OUTCOME_DONE = 6,              /* done; after a tick or a prohibit take the notices */
    TMAVOLICE_OUTCOME_PLAN_FAULT = 7,        /* nothing has changed; tmavolice_fault_of and tmavolice_line_of say why */
    /* The same by their first names. */
    TMAVOLICE_REFUSED = TMAVOLICE_OUTCOME_REFUSED,
    TMAVOLICE_FORWARD = TMAVOLICE_OUTCOME_FORWARD,
    TMAVOLICE_DROP = TMAVOLICE_OUTCOME_DROP,
    TMAVOLICE_LOOP = TMAVOLICE_OUTCOME_LOOP,
    TMAVOLICE_REPLY = TMAVOLICE_OUTCOME_REPLY,
    TMAVOLICE_REPLY_AND_FORWARD = TMAVOLICE_OUTCOME_REPLY_AND_FORWARD,
    TMAVOLICE_DONE = TMAVOLICE_OUTCOME_DONE,
    TMAVOLICE_PLAN_FAULT = TMAVOLICE_OUTCOME_PLAN_FAULT
};

/* Why a call was refused. */
enum tmavolice_refusal {
    TMAVOLICE_REFUSAL_NONE = 0,
    TMAVOLICE_REFUSAL_NO_SUCH_PORT = 1,   /* the plan has no such port, or the side is neither 0 nor 1 */
    TMAVOLICE_REFUSAL_FRAME_LENGTH = 2,   /* a frame of fewer than 14 or more than 2,000 octets */
    TMAVOLICE_REFUSAL_SHORT_OUTPUT = 3,   /* an output buffer of fewer than 2,008 octets */
    TMAVOLICE_REFUSAL_NOTICE_DUE = 4,     /* a notice has to be taken first */
    TMAVOLICE_REFUSAL_CLOCK_JUMPED = 5,   /* the step from the last timestamp, modulo 2^32, is 2,147,483,648 ms or more */
    TMAVOLICE_REFUSAL_NO_SUCH_FLOW = 6,   /* the plan has no such flow */
    TMAVOLICE_REFUSAL_NO_NOTICE_DUE = 7,  /* there is no notice to take */
    TMAVOLICE_REFUSAL_NO_VALID_IMAGE = 8, /* not 4,096 octets, or not a valid state's image */
    /* The same by their first names. */
    TMAVOLICE_NOT_REFUSED = TMAVOLICE_REFUSAL_NONE,
    TMAVOLICE_NO_SUCH_PLACE = TMAVOLICE_REFUSAL_NO_SUCH_PORT,
    TMAVOLICE_FRAME_LENGTH = TMAVOLICE_REFUSAL_FRAME_LENGTH,
    TMAVOLICE_SHORT_OUTPUT = TMAVOLICE_REFUSAL_SHORT_OUTPUT,
    TMAVOLICE_NOTICE_DUE = TMAVOLICE_REFUSAL_NOTICE_DUE,
    TMAVOLICE_CLOCK_JUMPED = TMAVOLICE_REFUSAL_CLOCK_JUMPED,
    TMAVOLICE_NO_SUCH_FLOW = TMAVOLICE_REFUSAL_NO_SUCH_FLOW,
    TMAVOLICE_NO_NOTICE_DUE = TMAVOLICE_REFUSAL_NO_NOTICE_DUE,
    TMAVOLICE_NO_VALID_IMAGE = TMAVOLICE_REFUSAL_NO_VALID_IMAGE
};

/* What is wrong with a plan. */
enum tmavolice_fault {
    TMAVOLICE_FAULT_NONE = 0,
    TMAVOLICE_FAULT_UNREADABLE = 1,    /* the line is no record */
    TMAVOLICE_FAULT_OUT_OF_RANGE = 2,  /* a number, VID or address out of range, or a kind that its port can't have */
    TMAVOLICE_FAULT_UNNAMED = 3,       /* a port or flow that no line before it names */
    TMAVOLICE_FAULT_REPEATED = 4,      /* a number, an address, a kind and VID, or an MP level for the second time */
    TMAVOLICE_FAULT_TEXT_TOO_LONG = 5, /* more than 8,192 octets; line 0 */
    TMAVOLICE_FAULT_NO_PORT = 6,       /* an empty text; line 0 */
    TMAVOLICE_FAULT_TOO_MANY_MPS = 7,  /* a 33rd MP */
    /* The same by their first names. */
    TMAVOLICE_NO_FAULT = TMAVOLICE_FAULT_NONE,
    TMAVOLICE_UNREADABLE = TMAVOLICE_FAULT_UNREADABLE,
    TMAVOLICE_OUT_OF_RANGE = TMAVOLICE_FAULT_OUT_OF_RANGE,
    TMAVOLICE_UNNAMED = TMAVOLICE_FAULT_UNNAMED,
    TMAVOLICE_REPEATED = TMAVOLICE_FAULT_REPEATED,
    TMAVOLICE_TEXT_TOO_LONG = TMAVOLICE_FAULT_TEXT_TOO_LONG,
    TMAVOLICE_NO_PORT = TMAVOLICE_FAULT_NO_PORT,
    TMAVOLICE_TOO_MANY_MPS = TMAVOLICE_FAULT_TOO_MANY_MPS
};

/* The response code of an LLR, as MEF 46 numbers them. */
enum tmavolice_code {
    TMAVOLICE_CODE_NO_ERROR = 0,
    TMAVOLICE_CODE_MALFORMED_REQUEST = 1,
    TMAVOLICE_CODE_MAX_SESSIONS_EXCEEDED = 2,
    TMAVOLICE_CODE_RESOURCE_UNAVAILABLE = 3, /* not sent */
    TMAVOLICE_CODE_ALREADY_ACTIVE = 4,
    TMAVOLICE_CODE_ALREADY_INACTIVE = 5,
    TMAVOLICE_CODE_UNSUPPORTED = 6,
    TMAVOLICE_CODE_WRONG_MP = 7,
    TMAVOLICE_CODE_TIMEOUT = 8,
    TMAVOLICE_CODE_PROHIBITED = 9,
    TMAVOLICE_CODE_UNKNOWN_MESSAGE_TYPE = 10,
    TMAVOLICE_CODE_UNKNOWN_ERROR = 255 /* not sent */
};

/* Makes a state from a plan's text, with every flow prohibited, and writes its image over whatever was there. */
uint64_t tmavolice_make(uint8_t *image, size_t image_len, const uint8_t *plan, size_t plan_len, uint32_t clock);

/* Hands in a frame, with its port and the side that it comes from. The port of a frame from the CEN is the one by which it would leave. */
uint64_t tmavolice_frame(uint8_t *image, size_t image_len, uint32_t port, uint32_t side, const uint8_t *frame, size_t frame_len,
                         uint8_t *out, size_t out_len);

/* Gives the library the time, as a timestamp in milliseconds that wraps. Sessions whose time is up close, each with a notice due. Only
 * the step modulo 2^32 is seen: after 24 days or more without a tick, or when the clock was set, call tmavolice_restart instead. */
uint64_t tmavolice_tick(uint8_t *image, size_t image_len, uint32_t clock);

/* Allows loopback sessions on a flow. */
uint64_t tmavolice_allow(uint8_t *image, size_t image_len, uint32_t flow);

/* Prohibits them; the flow's sessions close, each with a notice due. */
uint64_t tmavolice_prohibit(uint8_t *image, size_t image_len, uint32_t flow);

/* Takes the first notice that is due: an unsolicited LLR for the tester whose session has closed. */
uint64_t tmavolice_notice(uint8_t *image, size_t image_len, uint8_t *out, size_t out_len);

/* For a start from the stored image, and where a tick gets refusal 5: closes every session without a notice, drops the notices due, and
 * sets the clock; prohibitions stay. */
uint64_t tmavolice_restart(uint8_t *image, size_t image_len, uint32_t clock);

/* An answer, taken apart. */

static inline enum tmavolice_outcome tmavolice_outcome_of(uint64_t answer) { return (enum tmavolice_outcome)(answer & 0xff); }

/* TMAVOLICE_REFUSAL_NONE unless the outcome is refused. */
static inline enum tmavolice_refusal tmavolice_refusal_of(uint64_t answer) {
    return tmavolice_outcome_of(answer) == TMAVOLICE_OUTCOME_REFUSED ? (enum tmavolice_refusal)(answer >> 8 & 0xff)
                                                                     : TMAVOLICE_REFUSAL_NONE;
}

/* TMAVOLICE_FAULT_NONE unless the outcome is a plan fault. */
static inline enum tmavolice_fault tmavolice_fault_of(uint64_t answer) {
    return tmavolice_outcome_of(answer) == TMAVOLICE_OUTCOME_PLAN_FAULT ? (enum tmavolice_fault)(answer >> 8 & 0xff)
                                                                        : TMAVOLICE_FAULT_NONE;
}

/* The faulty line of a plan, counted from 1; 0 where it is the text as a whole, or there is no plan fault. */
static inline uint32_t tmavolice_line_of(uint64_t answer) {
    return tmavolice_outcome_of(answer) == TMAVOLICE_OUTCOME_PLAN_FAULT ? (uint32_t)(answer >> 32) : 0;
}

/* How many octets were written at the front of the output buffer: a frame without FCS and without padding, so pad it to the minimum
 * length before you send it. The octets after them stay as they were. */
static inline size_t tmavolice_length_of(uint64_t answer) {
    return tmavolice_outcome_of(answer) == TMAVOLICE_OUTCOME_PLAN_FAULT ? 0 : (size_t)(answer >> 32);
}

/* The port and the side that a notice goes to. The port of any other answer is 0. */
static inline uint32_t tmavolice_port_of(uint64_t answer) { return (uint32_t)(answer >> 16 & 0xff); }

static inline uint32_t tmavolice_side_of(uint64_t answer) { return (uint32_t)(answer >> 24 & 0xff); }

#ifdef __cplusplus
}
#endif

#include "tmavolice_text.h"

#endif
