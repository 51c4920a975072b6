#ifndef SHOW_H
#define SHOW_H
#include "unit.h"

/* The call, with its frame's octets and a word on what the frame is. */
void show_step(const struct step *s);

/* The answer, with the output's octets and its fields by name. */
void show_answer(uint64_t answer, const uint8_t *out);

#endif
