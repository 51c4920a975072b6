#ifndef WORDS_H
#define WORDS_H
#include <stddef.h>
#include <stdint.h>

/* Octets written as words with a space between them: two hex digits are an octet, and PORT, TESTER (addresses), C20, C30 (tags),
 * OAM and IPV4 (types) stand for theirs. Returns how many there are; stops the program at a word that it does not know. */
size_t octets_of(const char *words, uint8_t *octets, size_t room);

#endif
