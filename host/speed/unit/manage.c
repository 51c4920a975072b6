#include "manage.h"
#include "reply.h"
#include "rows.h"
#include "valid.h"
#include <string.h>

uint64_t tick(uint8_t *b, size_t b_len, uint32_t clock) {
    if (!is_image(b, b_len))
        return refused(8);
    if (notice_due(b))
        return refused(4);
    uint32_t elapsed = clock - get4(b);
    if (elapsed >= 0x80000000)
        return refused(5);
    for (uint8_t *s = b + SESSIONS; s < b + FREE && get8(s) != 0; s += 32) {
        uint32_t left = get4(s + 8);
        put4(s + 8, left <= elapsed ? 0 : left - elapsed);
        s[12] = left <= elapsed ? 8 : 0;
    }
    put4(b, clock);
    return DONE;
}

/* Allow or prohibit. */
static uint64_t manage(uint8_t *b, size_t b_len, uint32_t flow, int on) {
    if (!is_image(b, b_len))
        return refused(8);
    if (notice_due(b))
        return refused(4);
    if (flow < 1 || flow > 32 || b[PLACES + flow] == 0)
        return refused(6);
    for (uint8_t *s = b + SESSIONS; !on && s < b + FREE; s += 32)
        if (get2(s + 6) == flow) {
            put4(s + 8, 0);
            s[12] = 9;
        }
    b[ALLOWED + flow] = (uint8_t)on;
    return DONE;
}

uint64_t allow(uint8_t *b, size_t b_len, uint32_t flow) {
    return manage(b, b_len, flow, 1);
}

uint64_t prohibit(uint8_t *b, size_t b_len, uint32_t flow) {
    return manage(b, b_len, flow, 0);
}

uint64_t notice(uint8_t *b, size_t b_len, uint8_t *out, size_t room) {
    if (!is_image(b, b_len))
        return refused(8);
    if (room < 2008)
        return refused(3);
    if (!notice_due(b))
        return refused(7);
    uint8_t *s = b + SESSIONS, tag[4];
    while (s[12] == 0)
        s += 32;
    unsigned number = b[FLOWS - 32 + 32 * b[PLACES + get2(s + 6)] + 7], side = s[14];
    put_net4(tag, get4(s + 16));
    struct reply r = {.to = get8(s) & ADDRESS, .port = get8(port_row(b, number)) & ADDRESS, .tag = tag, .tags = s[15],
                      .level = s[13], .type = 2, .code = s[12]};
    size_t n = put_reply(out, &r);
    remove_row(b, s);
    return sent(REPLY, n) | number << 16 | side << 24;
}

uint64_t restart(uint8_t *b, size_t b_len, uint32_t clock) {
    if (!is_image(b, b_len))
        return refused(8);
    memset(b + SESSIONS, 0, FREE - SESSIONS);
    put4(b, clock);
    return DONE;
}
