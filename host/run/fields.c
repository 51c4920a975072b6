#include "fields.h"
#include <stdio.h>

/* A PDU's octets, counted from 0. */
enum { LEVEL, OPCODE, FLAGS, OFFSET, MESSAGE, CODE, ADDRESS, BEHIND_OFFSET = 4 };
enum { REQUEST = 57 };
enum { ACTIVE = 1, FROM_EXTERNAL = 2, COPIED = 4 };
enum { END = 0, LOOPBACK_TLV = 37, TIMER = 1 };

static const char *const codes[] = {
    "No Error",    "Malformed Request", "Max Sessions Exceeded", "Resource Unavailable", "Already Active",       "Already Inactive",
    "Unsupported", "Wrong MP",          "Timeout",               "Prohibited",           "Unknown Message Type",
};

void show_octets(const uint8_t *octets, size_t length, char between) {
    size_t i;
    for (i = 0; i < length; i++) {
        if (i > 0)
            printf("%c", between);
        printf("%02X", octets[i]);
    }
}

int is_oam(const uint8_t *type) { return type[0] == 0x89 && type[1] == 0x02; }

const char *message_of(const uint8_t *pdu) {
    static const char *const requests[] = {"Activate request", "Deactivate request", "State request"};
    static const char *const replies[] = {"Activate reply", "Deactivate reply", "State reply"};
    if (pdu[MESSAGE] < 1 || pdu[MESSAGE] > 3)
        return "unknown message";
    return (pdu[OPCODE] == REQUEST ? requests : replies)[pdu[MESSAGE] - 1];
}

static void show_flags(uint8_t flags) {
    printf("flags %02X", flags);
    if (flags & ACTIVE)
        printf(" active from the %s", flags & FROM_EXTERNAL ? "External Network" : "CEN");
    if (flags & COPIED)
        printf(" with TLVs copied");
}

static void show_tlv(const uint8_t *tlv, size_t length) {
    if (tlv[0] == LOOPBACK_TLV && length == 5 && tlv[3] == TIMER)
        printf(", timer %lu s", (unsigned long)tlv[4] << 24 | (unsigned long)tlv[5] << 16 | (unsigned long)tlv[6] << 8 | tlv[7]);
    else
        printf(", TLV %d", tlv[0]);
}

void show_fields(const uint8_t *pdu, size_t length) {
    size_t at = BEHIND_OFFSET + (size_t)pdu[OFFSET], value;
    printf("%s, level %d, ", message_of(pdu), pdu[LEVEL] >> 5);
    show_flags(pdu[FLAGS]);
    printf(", code %d %s", pdu[CODE], pdu[CODE] < sizeof codes / sizeof *codes ? codes[pdu[CODE]] : "");
    while (at + 2 < length && pdu[at] != END) {
        value = (size_t)pdu[at + 1] << 8 | pdu[at + 2];
        show_tlv(pdu + at, value);
        at += 3 + value;
    }
    printf("%s", at < length && pdu[at] == END ? ", End" : ", no End");
}
