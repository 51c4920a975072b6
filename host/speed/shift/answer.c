/* The lines that are printed. */
#include "answer.h"

#include <string.h>

static uint8_t *put_text(uint8_t *at, const char *text) {
    size_t length = strlen(text);
    memcpy(at, text, length);
    return at + length;
}

static uint8_t *put_number(uint8_t *at, uint64_t number) {
    uint8_t digits[20];
    size_t i = sizeof digits;
    do {
        digits[--i] = (uint8_t)('0' + number % 10);
        number /= 10;
    } while (number != 0);
    memcpy(at, digits + i, sizeof digits - i);
    return at + (sizeof digits - i);
}

static uint8_t *put_octets(uint8_t *at, const uint8_t *octets, size_t length) {
    static const char digits[] = "0123456789abcdef";
    if (length == 0)
        *at++ = '-';
    for (size_t i = 0; i < length; i++) {
        *at++ = (uint8_t)digits[octets[i] >> 4];
        *at++ = (uint8_t)digits[octets[i] & 15];
    }
    *at++ = '\n';
    return at;
}

uint8_t *put_answer(uint8_t *at, uint64_t number, enum word word, uint64_t answer, const uint8_t *sent) {
    static const char *const words[] = {"\tbad\t", "\tframe\t", "\ttick\t", "\tallow\t", "\tprohibit\t", "\tnotice\t", "\trestart\t"};
    static const char *const outcomes[] = {"refused\t", "forward\t", "drop\t", "loop\t", "reply\t", "replyforward\t", "done\t"};
    unsigned outcome = answer & 255;
    size_t length = (size_t)(answer >> 32);
    at = put_text(put_number(at, number), words[word]);
    at = put_number(put_text(at, outcomes[outcome]), outcome == 0 ? answer >> 8 & 255 : length);
    *at++ = '\t';
    return put_octets(at, sent, length);
}

uint8_t *put_fault(uint8_t *at, uint64_t line, unsigned reason) {
    at = put_number(put_text(at, "plan\t"), line);
    *at++ = '\t';
    at = put_number(at, reason);
    *at++ = '\n';
    return at;
}
