/* The frame call: data, or a request for an MP. */
#include "frame.h"
#include "reply.h"
#include "request.h"
#include "rows.h"
#include "valid.h"

static uint64_t data(const struct arrival *a, int soam) {
    const uint8_t *s = session_row(a->b, a->key);
    if (s == NULL || (soam && a->level <= s[13]))
        return FORWARD;
    return s[14] == a->side ? put_loop(a->out, a->port, a->frame, a->n) : DROP;
}

/* The set of a frame at a port of this kind: its kind, or 0 for none. */
static unsigned set_of(unsigned port_kind, const uint8_t *frame, size_t n, unsigned *vid) {
    unsigned first = net2(frame + 12);
    *vid = 0;
    if (frame[6] & 1)
        return 0;
    if (first != 0x8100 && first != 0x88a8)
        return 1;
    if (n < 18 || first != (port_kind == 1 ? 0x8100 : 0x88a8))
        return 0;
    *vid = net2(frame + 14) & 4095;
    return *vid == 0 || *vid == 4095 ? 0 : port_kind + 1;
}

static uint64_t serve(struct arrival *a) {
    int soam = net2(a->frame + 12 + a->tags) == 0x8902;
    a->pdu = a->frame + 14 + a->tags;
    a->pdu_len = a->n - 14 - a->tags;
    a->level = a->pdu_len ? a->pdu[0] >> 5 : 0;
    a->source = net6(a->frame + 6);
    a->key = (uint64_t)a->flow[1] << 48 | a->source;
    if (soam && a->pdu_len >= 2 && a->pdu[1] == 57 && faces(a->flow[8 + a->level], a->side)) {
        uint64_t to = net6(a->frame);
        if (to == a->port)
            return request(a, 0);
        if (to == 0x0180c2000038u + a->level && a->pdu_len >= 12 && a->pdu[4] == 3)
            return request(a, 1);
    }
    return data(a, soam);
}

uint64_t frame(uint8_t *b, size_t b_len, uint32_t number, uint32_t side, const uint8_t *frame, size_t n, uint8_t *out,
                      size_t room) {
    if (!is_image(b, b_len))
        return refused(8);
    const uint8_t *port = port_row(b, number);
    if (port == NULL || side > 1)
        return refused(1);
    if (n < 14 || n > 2000)
        return refused(2);
    if (room < 2008)
        return refused(3);
    if (notice_due(b))
        return refused(4);
    unsigned vid, kind = set_of(port[6], frame, n, &vid);
    const uint8_t *flow = kind ? flow_row(b, number, kind, vid) : NULL;
    if (flow == NULL)
        return FORWARD;
    struct arrival a = {.b = b, .out = out, .frame = frame, .n = n, .flow = flow, .tags = kind == 1 ? 0 : 4,
                        .port = get8(port) & ADDRESS, .side = side};
    return serve(&a);
}
