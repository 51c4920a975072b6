/* Frames, built where they are needed. */
#ifndef FRAMES_H
#define FRAMES_H
#include <stddef.h>
#include <stdint.h>

struct frame {
    size_t len;
    uint8_t octets[2048];
};

enum { UNTAGGED = 0, C_TAG = 0x8100, S_TAG = 0x88a8 };
enum { ACTIVATE = 1, DEACTIVATE = 2, STATE = 3 };

/* Where a frame comes from and goes to. */
struct way {
    uint64_t to, from;
    unsigned tag, vid;
};

/* A data frame of so many octets, at most 2,048; it may be cut short in its tag or its addresses. */
struct frame data_frame(struct way w, size_t len);

/* A request at a level; an Activate has its seconds. */
struct frame request_frame(struct way w, unsigned level, unsigned type, uint32_t seconds);

/* The request with one TLV more before its End; the value's first octet, if it has one, is given. */
struct frame with_tlv(struct frame f, unsigned type, size_t len, unsigned first);

#endif
