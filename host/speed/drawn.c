/* Frames drawn at random, most of them for a flow or an MP of the image. */
#include "plans.h"
#include "varied.h"
#include <string.h>

/* A path to a flow of the image, to one of its MPs if it has one, from one of 24 testers. */
static struct path any_path(const uint8_t *image, uint64_t *random) {
    int rows = 0;
    while (rows < 32 && image[256 + 32 * rows + 7])
        rows++;
    int row = (int)below(random, (uint64_t)rows);
    const uint8_t *mps = image + 256 + 32 * row + 8;
    struct path p = path_to(image, row);
    for (int i = 0; i < 20 && (i == 0 || mps[p.level] == 0); i++)
        p.level = (unsigned)below(random, 8);
    p.side = mps[p.level] == 3 || one_in(random, 8) ? (uint32_t)below(random, 2) : mps[p.level] != 2;
    p.way.from = one_in(random, 50) ? below(random, (uint64_t)1 << 48) : 0x020000000000 + below(random, 24);
    return p;
}

static struct frame any_data(struct path p, uint64_t *random) {
    static const size_t lens[] = {14, 18, 19, 20, 60, 64, 1500, 1999, 2000, 2001, 13};
    if (one_in(random, 4))
        p.way.to = one_in(random, 2) ? 0xffffffffffff : below(random, (uint64_t)1 << 48);
    return data_frame(p.way, one_in(random, 2) ? lens[below(random, 11)] : 14 + below(random, 200));
}

/* Octets put between the header and the first TLV, as a version other than 0 may have them. */
static void shift(struct frame *f, size_t at, size_t by) {
    if (f->len < at + 12 || f->len + by > sizeof f->octets)
        return;
    memmove(f->octets + at + 12 + by, f->octets + at + 12, f->len - at - 12);
    f->octets[at] |= 1;
    f->octets[at + 3] = (uint8_t)(f->octets[at + 3] + by);
    f->len += by;
}

/* A list that stands where none may: at the header's last octet, which is its End. */
static void early(struct frame *f, size_t at) {
    f->octets[at] |= 1;
    f->octets[at + 3] = 7;
    f->octets[at + 11] = 0;
}

static struct frame any_request(struct path p, uint64_t *random) {
    static const uint32_t seconds[] = {0, 1, 60, 86400, 86401};
    static const unsigned types[] = {9, 31, 37, 255};
    unsigned type = one_in(random, 12) ? (unsigned)below(random, 256) : 1 + (unsigned)below(random, 3);
    if (one_in(random, 5)) {
        p.way.to = 0x0180c2000038 + p.level;
        type = one_in(random, 4) ? type : STATE;
    }
    struct frame f = request_frame(p.way, p.level, type, seconds[below(random, 5)]);
    while (one_in(random, 3))
        f = with_tlv(f, types[below(random, 4)], below(random, one_in(random, 8) ? 900 : 8), (unsigned)below(random, 3));
    if (one_in(random, 8))
        shift(&f, p.way.tag == UNTAGGED ? 14 : 18, below(random, 30));
    if (one_in(random, 50))
        early(&f, p.way.tag == UNTAGGED ? 14 : 18);
    return f;
}

/* One octet changed, or the end cut off, or another tag. */
static void spoil(struct frame *f, uint64_t *random) {
    size_t near = f->len < 48 ? f->len : 48;
    if (one_in(random, 3))
        f->len = below(random, f->len + 1);
    else if (one_in(random, 3))
        f->octets[13] = one_in(random, 2) ? 0x00 : 0xa8;
    else
        f->octets[below(random, near)] ^= (uint8_t)(1u << below(random, 8));
}

void any_frame(struct event *e, const uint8_t *image, uint64_t *random) {
    struct path p = any_path(image, random);
    e->number = one_in(random, 40) ? (uint32_t)below(random, 300) : p.port;
    e->side = one_in(random, 40) ? (uint32_t)below(random, 300) : p.side;
    e->frame = one_in(random, 3) ? any_data(p, random) : any_request(p, random);
    if (one_in(random, 5))
        spoil(&e->frame, random);
}
