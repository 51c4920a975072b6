#ifndef PORTS_H
#define PORTS_H
#include <stddef.h>
#include <stdint.h>

/* What stands for a device's ports: frames that arrive at set times, and a line of text for each that leaves. */

/* A frame from the CEN to port 1, and the second at which it arrives. */
struct arrival {
    uint32_t second;
    const char *what;
    const uint8_t *octets;
    size_t length;
};

enum { ARRIVALS = 7 };

extern const struct arrival arrivals[ARRIVALS];

/* Sends octets out of a port, towards one of its sides. */
void transmit(uint32_t port, uint32_t side, const uint8_t *octets, size_t length);

/* Lets a frame pass from its side to the other. */
void forward(uint32_t port, uint32_t side, const uint8_t *octets, size_t length);

#endif
