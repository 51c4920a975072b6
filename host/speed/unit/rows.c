#include "rows.h"
#include "valid.h"
#include <string.h>

const uint8_t *port_row(const uint8_t *b, uint32_t number) {
    for (const uint8_t *row = b + PORTS; row < b + FLOWS && row[7] != 0; row += 16)
        if (row[7] == number)
            return row;
    return NULL;
}

const uint8_t *flow_row(const uint8_t *b, unsigned port, unsigned kind, unsigned vid) {
    uint32_t key = (uint32_t)port << 24 | (uint32_t)kind << 16 | vid;
    for (const uint8_t *row = b + FLOWS; row < b + FLOWS + 1024 && get4(row + 4) != 0; row += 32)
        if (get4(row + 4) == key)
            return row;
    return NULL;
}

int notice_due(const uint8_t *b) {
    for (const uint8_t *row = b + SESSIONS; row < b + FREE && get8(row) != 0; row += 32)
        if (row[12] != 0)
            return 1;
    return 0;
}

/* The row with this key, or the one before which it belongs, or the end of the table. */
static uint8_t *session_place(uint8_t *b, uint64_t key) {
    uint8_t *row = b + SESSIONS;
    while (row < b + FREE && get8(row) != 0 && get8(row) < key)
        row += 32;
    return row;
}

uint8_t *session_row(uint8_t *b, uint64_t key) {
    for (uint8_t *row = b + SESSIONS; row < b + FREE && get8(row) != 0; row += 32)
        if (get8(row) == key)
            return row[12] == 0 ? row : NULL;
    return NULL;
}

int table_full(const uint8_t *b) {
    return get8(b + FREE - 32) != 0;
}

uint8_t *insert_row(uint8_t *b, uint64_t key) {
    uint8_t *row = session_place(b, key);
    memmove(row + 32, row, (size_t)(b + FREE - 32 - row));
    memset(row, 0, 32);
    memcpy(row, &key, 8);
    return row;
}

void remove_row(uint8_t *b, uint8_t *row) {
    memmove(row, row + 32, (size_t)(b + FREE - 32 - row));
    memset(b + FREE - 32, 0, 32);
}
