#include "words.h"
#include <stdio.h>
#include <stdlib.h>
#include <string.h>

static const struct {
    const char *word;
    size_t length;
    uint8_t octets[6];
} known[] = {
    {"PORT", 6, {0x02, 0x00, 0x00, 0x00, 0x00, 0x01}}, {"TESTER", 6, {0x02, 0x00, 0x00, 0x00, 0x00, 0xAA}},
    {"C20", 4, {0x81, 0x00, 0x00, 0x14}},              {"C30", 4, {0x81, 0x00, 0x00, 0x1E}},
    {"OAM", 2, {0x89, 0x02}},                          {"IPV4", 2, {0x08, 0x00}},
};

static int is_known(size_t i, const char *word, size_t length) {
    return strlen(known[i].word) == length && memcmp(known[i].word, word, length) == 0;
}

/* The octets of one word, and how many. */
static size_t octets_of_word(const char *word, size_t length, uint8_t *octets) {
    size_t i;
    for (i = 0; i < sizeof known / sizeof *known; i++)
        if (is_known(i, word, length)) {
            memcpy(octets, known[i].octets, known[i].length);
            return known[i].length;
        }
    if (length != 2 || strspn(word, "0123456789ABCDEF") < 2) {
        fprintf(stderr, "no octets are called %.*s\n", (int)length, word);
        exit(1);
    }
    octets[0] = (uint8_t)strtoul(word, NULL, 16);
    return 1;
}

size_t octets_of(const char *words, uint8_t *octets, size_t room) {
    size_t count = 0, length;
    for (; *words != '\0'; words += length) {
        words += strspn(words, " ");
        length = strcspn(words, " ");
        if (room - count < 6) {
            fprintf(stderr, "no room for %s\n", words);
            exit(1);
        }
        count += octets_of_word(words, length, octets + count);
    }
    return count;
}
