#include "request.h"
#include "reply.h"
#include "rows.h"
#include "tlv.h"
#include "valid.h"
#include <string.h>

static int malformed(const struct arrival *a, int multicast, const struct list *x) {
    const uint8_t *p = a->pdu;
    if (!multicast && memcmp(p + 6, a->frame, 6) != 0)
        return 1;
    if ((p[0] & 31) == 0 ? p[3] != 8 : p[3] < 8)
        return 1;
    return x->bad || (p[4] == 1 && !x->timed);
}

static void open_session(const struct arrival *a, uint32_t seconds) {
    uint8_t *s = insert_row(a->b, a->key);
    put4(s + 8, seconds * 1000);
    s[13] = (uint8_t)a->level;
    s[14] = (uint8_t)a->side;
    s[15] = (uint8_t)a->tags;
    if (a->tags)
        put4(s + 16, net4(a->frame + 12));
}

static unsigned activate(const struct arrival *a, uint8_t *s, uint32_t seconds) {
    if (s && (s[13] != a->level || s[14] != a->side))
        return 7;
    if (seconds < 1 || seconds > 86400)
        return 6;
    if (s) {
        put4(s + 8, seconds * 1000);
        return 4;
    }
    if (table_full(a->b))
        return 2;
    open_session(a, seconds);
    return 0;
}

static unsigned deactivate(const struct arrival *a, uint8_t *s) {
    if (s == NULL)
        return 5;
    if (s[13] != a->level || s[14] != a->side)
        return 7;
    remove_row(a->b, s);
    return 0;
}

/* The code of the reply to a request that is not malformed; carries it out. */
static unsigned decide(const struct arrival *a, uint32_t seconds) {
    uint8_t *s = session_row(a->b, a->key);
    switch (a->pdu[4]) {
    case 1:
        return activate(a, s, seconds);
    case 2:
        return deactivate(a, s);
    case 3:
        return 0;
    default:
        return 10;
    }
}

uint64_t request(const struct arrival *a, int multicast) {
    int goes_on = multicast && a->flow[8 + a->level] == 3;
    if (!a->b[ALLOWED + a->flow[1]])
        return goes_on ? FORWARD : DROP;
    if (a->pdu_len < 12)
        return DROP;
    struct list x = read_list(a->pdu, a->pdu_len, 4 + (size_t)a->pdu[3]);
    int wrong = malformed(a, multicast, &x);
    unsigned code = wrong ? 1 : decide(a, x.seconds);
    const uint8_t *s = session_row(a->b, a->key);
    struct reply r = {.to = a->source, .port = a->port, .tag = a->frame + 12, .tags = a->tags, .level = a->level,
                      .type = a->pdu[4], .code = code, .active = s != NULL, .pdu = wrong || !x.unknown ? NULL : a->pdu};
    if (s) {
        r.side = s[14];
        r.left = get4(s + 8);
    }
    return sent(goes_on ? REPLY_AND_FORWARD : REPLY, put_reply(a->out, &r));
}
