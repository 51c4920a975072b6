#include "tlv.h"
#include <string.h>

static int is_timer(unsigned type, const uint8_t *value, size_t len) {
    return type == 37 && len > 0 && value[0] == 1;
}

struct list read_list(const uint8_t *pdu, size_t n, size_t at) {
    static const struct list bad = {1, 0, 0, 0};
    struct list x = {0, 0, 0, 0};
    while (at < n) {
        unsigned type = pdu[at];
        if (type == 0)
            return x;
        if (n - at < 3)
            return bad;
        size_t len = net2(pdu + at + 1);
        const uint8_t *value = pdu + at + 3;
        if (n - at - 3 < len || (type == 37 && len == 0))
            return bad;
        if (is_timer(type, value, len)) {
            if (len != 5 || x.timed)
                return bad;
            x.timed = 1;
            x.seconds = net4(value + 1);
        } else {
            x.unknown += 3 + len;
        }
        at += 3 + len;
    }
    return bad;
}

size_t copy_unknown(uint8_t *out, const uint8_t *pdu, size_t at) {
    size_t n = 0;
    while (pdu[at] != 0) {
        size_t len = net2(pdu + at + 1);
        if (!is_timer(pdu[at], pdu + at + 3, len)) {
            memcpy(out + n, pdu + at, 3 + len);
            n += 3 + len;
        }
        at += 3 + len;
    }
    return n;
}
