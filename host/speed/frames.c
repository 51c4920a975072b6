#include "frames.h"

static void add(struct frame *f, uint64_t number, int octets) {
    while (octets-- > 0 && f->len < sizeof f->octets)
        f->octets[f->len++] = (uint8_t)(number >> 8 * octets);
}

static struct frame begun(struct way w, unsigned type) {
    struct frame f = {0};
    add(&f, w.to, 6);
    add(&f, w.from, 6);
    if (w.tag != UNTAGGED) {
        add(&f, w.tag, 2);
        add(&f, w.vid, 2);
    }
    add(&f, type, 2);
    return f;
}

struct frame data_frame(struct way w, size_t len) {
    struct frame f = begun(w, 0x0800);
    while (f.len < len)
        add(&f, f.len * 7, 1);
    f.len = len;
    return f;
}

struct frame request_frame(struct way w, unsigned level, unsigned type, uint32_t seconds) {
    struct frame f = begun(w, 0x8902);
    add(&f, level << 5, 1);
    add(&f, 57, 1);
    add(&f, 8, 2);
    add(&f, type << 8, 2);
    add(&f, w.to, 6);
    if (type == ACTIVATE) {
        add(&f, 0x25000501, 4);
        add(&f, seconds, 4);
    }
    add(&f, 0, 1);
    return f;
}

struct frame with_tlv(struct frame f, unsigned type, size_t len, unsigned first) {
    f.len--;
    add(&f, type, 1);
    add(&f, len, 2);
    for (size_t i = 0; i < len; i++)
        add(&f, first + i * 5, 1);
    add(&f, 0, 1);
    return f;
}
