/* Rows of a valid image: found, put in, taken out. */
#ifndef ROWS_H
#define ROWS_H
#include "octets.h"

WITHIN const uint8_t *port_row(const uint8_t *b, uint32_t number);
WITHIN const uint8_t *flow_row(const uint8_t *b, unsigned port, unsigned kind, unsigned vid);

WITHIN int notice_due(const uint8_t *b);

/* The open session with this key. */
WITHIN uint8_t *session_row(uint8_t *b, uint64_t key);

WITHIN int table_full(const uint8_t *b);
WITHIN uint8_t *insert_row(uint8_t *b, uint64_t key);
WITHIN void remove_row(uint8_t *b, uint8_t *row);

#endif
