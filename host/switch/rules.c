#include "rules.h"

/* Octets of the image, from docs/LAYOUT.md. */
enum { PLACES = 64, PORTS = 128, PORT_WIDTH = 16, FLOWS = 256, SESSIONS = 1536, SESSIONS_END = 2048, WIDTH = 32 };

/* An address, whose last octet on the wire stands first in the image. */
static void copy_address(uint8_t *to, const uint8_t *row) {
    int i;
    for (i = 0; i < 6; i++)
        to[i] = row[5 - i];
}

static const uint8_t *row_of_port(const uint8_t *image, uint8_t port) {
    const uint8_t *row = image + PORTS;
    while (row[7] != port)
        row += PORT_WIDTH;
    return row;
}

size_t rules_of(const uint8_t *image, struct rule *rules) {
    size_t count = 0;
    const uint8_t *row;
    for (row = image + SESSIONS; row < image + SESSIONS_END && row[6] != 0; row += WIDTH) {
        const uint8_t *flow = image + FLOWS + WIDTH * (image[PLACES + row[6] - 1] - 1);
        struct rule *rule = &rules[count];
        rule->port = flow[7];
        rule->side = row[14];
        rule->kind = flow[6];
        rule->vid = flow[4] | (unsigned)flow[5] << 8;
        copy_address(rule->tester, row);
        copy_address(rule->address, row_of_port(image, flow[7]));
        count += row[12] == 0; /* 8 or 9: closed, a notice is due */
    }
    return count;
}
