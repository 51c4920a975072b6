/* A line of a unit's log, read into an event. */
#include "event.h"

#include <string.h>

/* What a lower-case digit counts, plus one; 0 for any other octet. */
static const uint8_t DIGIT[256] = {
    ['0'] = 1,  ['1'] = 2,  ['2'] = 3,  ['3'] = 4,  ['4'] = 5,  ['5'] = 6,  ['6'] = 7,  ['7'] = 8,
    ['8'] = 9,  ['9'] = 10, ['a'] = 11, ['b'] = 12, ['c'] = 13, ['d'] = 14, ['e'] = 15, ['f'] = 16,
};

static int read_number(const uint8_t *s, size_t length, uint32_t *number) {
    uint64_t so = 0;
    if (length == 0 || length > 10 || (length > 1 && s[0] == '0'))
        return 0;
    for (size_t i = 0; i < length; i++) {
        if (s[i] < '0' || s[i] > '9')
            return 0;
        so = so * 10 + (s[i] - '0');
    }
    *number = (uint32_t)so;
    return so <= UINT32_MAX;
}

static int read_octets(const uint8_t *s, size_t length, uint8_t *frame, size_t *octets) {
    *octets = length / 2;
    if (length == 1 && s[0] == '-')
        return 1;
    if (length == 0 || length % 2 != 0)
        return 0;
    for (size_t i = 0; i < length / 2; i++) {
        unsigned high = DIGIT[s[2 * i]], low = DIGIT[s[2 * i + 1]];
        if (high == 0 || low == 0)
            return 0;
        frame[i] = (uint8_t)((high - 1) << 4 | (low - 1));
    }
    return 1;
}

static int is(const uint8_t *s, size_t length, const char *word) {
    return length == strlen(word) && memcmp(s, word, length) == 0;
}

static int read_frame(const uint8_t *s, size_t length, uint8_t *frame, struct event *event) {
    const uint8_t *one = memchr(s, '\t', length);
    if (!one)
        return 0;
    const uint8_t *two = memchr(one + 1, '\t', (size_t)(s + length - one - 1));
    return two && read_number(s, (size_t)(one - s), &event->number) &&
           read_number(one + 1, (size_t)(two - one - 1), &event->side) &&
           read_octets(two + 1, (size_t)(s + length - two - 1), frame, &event->length);
}

struct event read_event(const uint8_t *line, size_t length, uint8_t *frame) {
    static const struct event bad = {BAD, 0, 0, 0};
    static const struct {
        const char *name;
        enum word word;
    } numbered[] = {{"tick", TICK}, {"allow", ALLOW}, {"prohibit", PROHIBIT}, {"restart", RESTART}};
    struct event event = bad;
    if (length > LINE_ROOM)
        return bad;
    const uint8_t *tab = memchr(line, '\t', length);
    if (!tab) {
        event.word = is(line, length, "notice") ? NOTICE : BAD;
        return event;
    }
    size_t word = (size_t)(tab - line), rest = length - word - 1;
    if (is(line, word, "frame")) {
        event.word = FRAME;
        return read_frame(tab + 1, rest, frame, &event) ? event : bad;
    }
    for (size_t i = 0; i < sizeof numbered / sizeof *numbered; i++)
        if (is(line, word, numbered[i].name)) {
            event.word = numbered[i].word;
            return read_number(tab + 1, rest, &event.number) ? event : bad;
        }
    return bad;
}
