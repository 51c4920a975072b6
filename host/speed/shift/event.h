/* A line of a unit's log, read into an event. */
#ifndef EVENT_H
#define EVENT_H

#include <stddef.h>
#include <stdint.h>

enum word { BAD, FRAME, TICK, ALLOW, PROHIBIT, NOTICE, RESTART };

enum { LINE_ROOM = 4100, FRAME_ROOM = 2050 };

struct event {
    enum word word;
    uint32_t number; /* a reading, a flow, a frame's port */
    uint32_t side;
    size_t length; /* of a frame, whose octets stand in the reader's buffer */
};

struct event read_event(const uint8_t *line, size_t length, uint8_t *frame);

#endif
