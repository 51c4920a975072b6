#include "valid.h"

static int ports_fit(const uint8_t *b) {
    unsigned last = 0;
    for (int i = 0; i < 8; i++) {
        const uint8_t *row = b + PORTS + 16 * i;
        uint64_t head = get8(row), address = head & ADDRESS;
        unsigned kind = row[6], number = row[7];
        if (head == 0)
            return last != 0 && zero(row, 128 - 16 * (size_t)i);
        if (number <= last || number > 8 || kind < 1 || kind > 2)
            return 0;
        if (address == 0 || is_group(address) || get8(row + 8) != 0)
            return 0;
        for (int j = 0; j < i; j++)
            if ((get8(b + PORTS + 16 * j) & ADDRESS) == address)
                return 0;
        last = number;
    }
    return 1;
}

/* Does the frame set fit its port's kind, 0 if there is no such port? */
static int set_fits(unsigned port, unsigned kind, unsigned vid) {
    if (port == 0)
        return 0;
    if (kind == 1)
        return vid == 0;
    return kind == port + 1 && vid >= 1 && vid <= 4094;
}

static int flows_fit(const uint8_t *b) {
    uint8_t kinds[9] = {0};
    for (int i = 0; i < 8 && b[PORTS + 16 * i + 7]; i++)
        kinds[b[PORTS + 16 * i + 7]] = b[PORTS + 16 * i + 6];
    unsigned places = 0, mps = 0;
    for (int i = 1; i <= 32; i++)
        places += b[PLACES + i] != 0;
    uint32_t last = 0;
    for (unsigned i = 0; i < 32; i++) {
        const uint8_t *row = b + FLOWS + 32 * i;
        if (get8(row) == 0)
            return i == places && mps <= 32 && zero(row, 1024 - 32 * (size_t)i);
        uint32_t key = get4(row + 4);
        unsigned number = row[1], port = row[7];
        if (key <= last || row[0] != 0 || get2(row + 2) != 0 || port > 8 || !set_fits(kinds[port], row[6], key & 0xffff))
            return 0;
        if (number < 1 || number > 32 || b[PLACES + number] != i + 1)
            return 0;
        unsigned wrong = 0;
        for (int level = 0; level < 8; level++) {
            wrong |= row[8 + level] > 3;
            mps += row[8 + level] != 0;
        }
        if (wrong || (get8(row + 16) | get8(row + 24)) != 0)
            return 0;
        last = key;
    }
    return places == 32 && mps <= 32;
}

static int allowed_fits(const uint8_t *b) {
    uint8_t wrong = 0;
    for (int i = 1; i <= 32; i++)
        wrong |= b[ALLOWED + i] > (b[PLACES + i] != 0);
    return wrong == 0;
}

int faces(unsigned mp, unsigned side) {
    return mp == 3 ? side <= 1 : mp == 1 ? side == 1 : mp == 2 && side == 0;
}

static int session_fits(const uint8_t *b, const uint8_t *row, uint64_t key) {
    uint64_t flow = key >> 48, tag = get8(row + 16);
    if (flow < 1 || flow > 32 || b[PLACES + flow] == 0 || is_group(key) || get8(row + 24) != 0)
        return 0;
    const uint8_t *own = b + FLOWS - 32 + 32 * b[PLACES + flow];
    unsigned notice = row[12], level = row[13], side = row[14], count = row[15];
    if (own[6] == 1) {
        if (count != 0 || tag != 0)
            return 0;
    } else if (count != 4 || tag >> 16 != (own[6] == 2 ? 0x8100 : 0x88a8) || (tag & 4095) != get2(own + 4)) {
        return 0;
    }
    if (level > 7 || !faces(own[8 + level], side))
        return 0;
    uint32_t left = get4(row + 8);
    unsigned allowed = b[ALLOWED + flow];
    if (notice == 0)
        return allowed && left >= 1 && left <= 86400000;
    return left == 0 && notice == (allowed ? 8 : 9);
}

static int sessions_fit(const uint8_t *b) {
    uint64_t last = 0;
    for (size_t i = 0; i < 16; i++) {
        const uint8_t *row = b + SESSIONS + 32 * i;
        uint64_t key = get8(row);
        if (key == 0)
            return zero(row, IMAGE - SESSIONS - 32 * i);
        if (key <= last || !session_fits(b, row, key))
            return 0;
        last = key;
    }
    return zero(b + FREE, IMAGE - FREE);
}

int is_image(const uint8_t *b, size_t n) {
    return n == IMAGE && zero(b + 4, 28) && zero(b + 96, 32) && zero(b + 1280, 256) && ports_fit(b) && flows_fit(b)
        && allowed_fits(b) && sessions_fit(b);
}
