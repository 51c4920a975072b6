#include "rows.h"
#include <stdio.h>

enum { CLOCK = 0, ALLOWED = 32, PORTS = 128, FLOWS = 256, SESSIONS = 1536 };
enum { PORT_ROWS = 8, FLOW_ROWS = 32, SESSION_ROWS = 16, PORT_WIDTH = 16, FLOW_WIDTH = 32, SESSION_WIDTH = 32 };

/* A number whose lowest octet stands first. */
static unsigned long number(const uint8_t *octets, int count) {
    unsigned long sum = 0;
    while (count-- > 0)
        sum = sum << 8 | octets[count];
    return sum;
}

static int is_empty(const uint8_t *row) { return number(row, 4) == 0 && number(row + 4, 4) == 0; }

static const char *name_of(unsigned value, unsigned count, const char *const *names) {
    return value < count ? names[value] : "?";
}

static void print_address(const uint8_t *a) {
    printf("%02X-%02X-%02X-%02X-%02X-%02X", a[5], a[4], a[3], a[2], a[1], a[0]);
}

static void print_port(const uint8_t *row) {
    static const char *const kinds[] = {"?", "UNI", "ENNI"};
    printf("port %u: %s ", row[7], name_of(row[6], 3, kinds));
    print_address(row);
    printf("\n");
}

static void print_flow(const uint8_t *row, const uint8_t *allowed) {
    static const char *const kinds[] = {"?", "untagged", "C-VID", "S-VID"}, *const mps[] = {"?", "up MEP", "down MEP", "MIP"};
    unsigned flow = row[1], level;
    printf("flow %u: port %u, %s", flow, row[7], name_of(row[6], 4, kinds));
    if (row[6] != 1)
        printf(" %lu", number(row + 4, 2));
    printf(", %s", flow >= 1 && flow <= FLOW_ROWS && allowed[flow - 1] ? "allowed" : "prohibited");
    for (level = 0; level < 8; level++)
        if (row[8 + level] != 0)
            printf(", %s at level %u", name_of(row[8 + level], 4, mps), level);
    printf("\n");
}

static void print_session(const uint8_t *row) {
    unsigned long left = number(row + 8, 4);
    int i;
    printf("session: flow %lu, tester ", number(row + 6, 2));
    print_address(row);
    printf(", level %u, from the %s", row[13], row[14] == 0 ? "External Network" : "CEN");
    for (i = row[15]; i > 0 && row[15] <= 8; i--)
        printf("%s%02X", i == row[15] ? ", tag " : " ", row[15 + i]);
    if (row[12] == 0)
        printf(", open, %lu.%03lu s left\n", left / 1000, left % 1000);
    else
        printf(", closed, a notice with code %u is due\n", row[12]);
}

void print_image(const uint8_t *image) {
    int i;
    printf("clock: %lu ms\n", number(image + CLOCK, 4));
    for (i = 0; i < PORT_ROWS && !is_empty(image + PORTS + PORT_WIDTH * i); i++)
        print_port(image + PORTS + PORT_WIDTH * i);
    for (i = 0; i < FLOW_ROWS && !is_empty(image + FLOWS + FLOW_WIDTH * i); i++)
        print_flow(image + FLOWS + FLOW_WIDTH * i, image + ALLOWED);
    for (i = 0; i < SESSION_ROWS && !is_empty(image + SESSIONS + SESSION_WIDTH * i); i++)
        print_session(image + SESSIONS + SESSION_WIDTH * i);
    if (i == 0)
        printf("no session\n");
}
