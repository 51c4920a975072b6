#ifndef FIELDS_H
#define FIELDS_H
#include <stddef.h>
#include <stdint.h>

/* Octets in hex, with a character between them. */
void show_octets(const uint8_t *octets, size_t length, char between);

/* Is this type, of two octets, OAM's? */
int is_oam(const uint8_t *type);

/* What a PDU is: an Activate request, a State reply and so on. */
const char *message_of(const uint8_t *pdu);

/* The fields of a PDU of 12 octets or more, then its TLVs, by name. */
void show_fields(const uint8_t *pdu, size_t length);

#endif
