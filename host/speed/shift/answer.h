/* The lines that are printed. */
#ifndef ANSWER_H
#define ANSWER_H

#include "event.h"

/* The most octets of an answer's line. */
enum { STEP_ROOM = 4082 };

/* Each writes a line from `at` on, and answers the place behind it. */
uint8_t *put_answer(uint8_t *at, uint64_t number, enum word word, uint64_t answer, const uint8_t *sent);
uint8_t *put_fault(uint8_t *at, uint64_t line, unsigned reason);

#endif
