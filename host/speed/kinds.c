#include "kinds.h"
#include "tmavolice.h"

enum { UP = 1, DOWN = 2, MIP = 3 };

/* Paths, beside the one to a flow on which a session is open. */

static struct path of_no_flow(const uint8_t *image, int row) {
    struct path p = path_to(image, row);
    p.way.tag = p.way.tag == S_TAG ? C_TAG : S_TAG;
    return p;
}

static struct path from_another_tester(const uint8_t *image, int row) {
    struct path p = path_to(image, row);
    p.way.from++;
    return p;
}

static struct path from_the_other_side(const uint8_t *image, int row) {
    struct path p = path_to(image, row);
    p.side = 1 - p.side;
    return p;
}

static struct path to_a_group(const uint8_t *image, int row) {
    struct path p = path_to(image, row);
    p.way.to = 0xffffffffffff;
    return p;
}

/* To another flow with the same tag. */
static struct path to_a_prohibited_flow(const uint8_t *image, int row) {
    int other = 0;
    while (other == row || path_to(image, other).way.tag != path_to(image, row).way.tag)
        other++;
    return path_to(image, other);
}

/* To all MPs of a level, of which one is of this kind. */
static struct path to_mps(const uint8_t *image, int row, unsigned mp) {
    struct path p = path_to(image, row);
    p.level = 0;
    while (image[256 + 32 * row + 8 + p.level] != mp)
        p.level++;
    p.side = mp != DOWN;
    p.way.to = 0x0180c2000038 + p.level;
    return p;
}

static struct path to_up_mps(const uint8_t *image, int row) {
    return to_mps(image, row, UP);
}

static struct path to_down_mps(const uint8_t *image, int row) {
    return to_mps(image, row, DOWN);
}

static struct path to_mips(const uint8_t *image, int row) {
    return to_mps(image, row, MIP);
}

/* Frames by length. */

static struct frame data(struct path p, size_t len) {
    return data_frame(p.way, len);
}

/* A request that is cut to a length, or has one unknown TLV more and then that length; less than a TLV is zeros behind its End. */
static struct frame resized(struct frame f, size_t len) {
    size_t tlv = 3;
    if (len >= f.len + tlv)
        f = with_tlv(f, 9, len - f.len - tlv, 1);
    f.len = len;
    return f;
}

static struct frame activate(struct path p, size_t len) {
    return resized(request_frame(p.way, p.level, ACTIVATE, 60), len);
}

static struct frame deactivate(struct path p, size_t len) {
    return resized(request_frame(p.way, p.level, DEACTIVATE, 0), len);
}

static struct frame state(struct path p, size_t len) {
    return resized(request_frame(p.way, p.level, STATE, 0), len);
}

static struct frame reserved(struct path p, size_t len) {
    return resized(request_frame(p.way, p.level, 200, 0), len);
}

static struct frame state_of_many_tlvs(struct path p, size_t len) {
    struct frame f = request_frame(p.way, p.level, STATE, 0);
    while (f.len + 6 <= len)
        f = with_tlv(f, 9, 0, 0);
    return resized(f, len);
}

/* Without an End, whatever its length. */
static struct frame malformed(struct path p, size_t len) {
    struct frame f = with_tlv(request_frame(p.way, p.level, STATE, 0), 9, 2000, 1);
    f.len = len;
    return f;
}

enum { ADDRESSES = 12, TYPE = 2, HEADER = 12, TIMER = 8, END = 1 };
enum { ANY = ADDRESSES + TYPE, EMPTY = ANY + HEADER, LISTED = EMPTY + END, TIMED = LISTED + TIMER };

const struct kind kinds[] = {
    {"data of no flow, forwarded", TMAVOLICE_FORWARD, ANY, of_no_flow, data},
    {"data of another tester, forwarded", TMAVOLICE_FORWARD, ANY, from_another_tester, data},
    {"data from the other side, dropped", TMAVOLICE_DROP, ANY, from_the_other_side, data},
    {"data, looped", TMAVOLICE_LOOP, ANY, path_to, data},
    {"data to a group, looped", TMAVOLICE_LOOP, ANY, to_a_group, data},
    {"Activate, refreshing", TMAVOLICE_REPLY, TIMED, path_to, activate},
    {"Activate, opening", TMAVOLICE_REPLY, TIMED, from_another_tester, activate},
    {"Deactivate", TMAVOLICE_REPLY, LISTED, path_to, deactivate},
    {"State", TMAVOLICE_REPLY, LISTED, path_to, state},
    {"State with TLVs without a value", TMAVOLICE_REPLY, LISTED, path_to, state_of_many_tlvs},
    {"State to all up MPs", TMAVOLICE_REPLY, LISTED, to_up_mps, state},
    {"State to all down MPs", TMAVOLICE_REPLY, LISTED, to_down_mps, state},
    {"State to all MIPs", TMAVOLICE_REPLY_AND_FORWARD, LISTED, to_mips, state},
    {"State to a prohibited flow, dropped", TMAVOLICE_DROP, LISTED, to_a_prohibited_flow, state},
    {"a request of a reserved type", TMAVOLICE_REPLY, LISTED, path_to, reserved},
    {"a malformed request", TMAVOLICE_REPLY, EMPTY, path_to, malformed},
};

const int count_of_kinds = sizeof kinds / sizeof kinds[0];

void unit_with_sessions(uint8_t *image, int *rows) {
    static const int allowed[TAGS] = {0, 1, 4};
    mixed_unit(image);
    for (int i = 0; i < TAGS; i++) {
        rows[i] = allowed[i];
        open_on(image, rows[i]);
    }
}
