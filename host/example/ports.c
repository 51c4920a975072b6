#include "ports.h"
#include "tmavolice.h"
#include <stdio.h>

/* Frames of the tester 02-00-00-00-00-AA: destination, source, tag and type, then a PDU or data. */
static const uint8_t activate[] = {
    0x02, 0, 0, 0, 0, 0x01, 0x02, 0, 0, 0, 0, 0xaa, 0x81, 0, 0, 20, 0x89, 0x02,
    0x80, 57, 0, 8, 1, 0, 0x02, 0, 0, 0, 0, 0x01, 37, 0, 5, 1, 0, 0, 0, 5, 0};
static const uint8_t data_20[] = {0x02, 0, 0, 0, 0, 0x77, 0x02, 0, 0, 0, 0, 0xaa, 0x81, 0, 0, 20, 0x08, 0x00, 0x45, 0};
static const uint8_t data_30[] = {0x02, 0, 0, 0, 0, 0x77, 0x02, 0, 0, 0, 0, 0xaa, 0x81, 0, 0, 30, 0x08, 0x00, 0x45, 0};
static const uint8_t too_long[2001] = {0x02, 0, 0, 0, 0, 0x77, 0x02, 0, 0, 0, 0, 0xaa, 0x81, 0, 0, 20, 0x08, 0x00, 0x45, 0};

const struct arrival arrivals[ARRIVALS] = {
    {1, "an Activate of 5 seconds on VID 20", activate, sizeof activate},
    {2, "data on VID 20", data_20, sizeof data_20},
    {3, "data on VID 30", data_30, sizeof data_30},
    {4, "a frame of 2,001 octets", too_long, sizeof too_long},
    {7, "data on VID 20", data_20, sizeof data_20},
    {8, "an Activate of 5 seconds on VID 20", activate, sizeof activate},
    {10, "an Activate of 5 seconds on VID 20", activate, sizeof activate},
};

static const char *name_of(uint32_t side) { return side == TMAVOLICE_CEN ? "CEN" : "External Network"; }

void transmit(uint32_t port, uint32_t side, const uint8_t *octets, size_t length) {
    printf("  sent from port %u to the %s: %u octets for %02X-%02X-%02X-%02X-%02X-%02X\n", (unsigned)port, name_of(side),
           (unsigned)length, octets[0], octets[1], octets[2], octets[3], octets[4], octets[5]);
}

void forward(uint32_t port, uint32_t side, const uint8_t *octets, size_t length) {
    printf("  passed at port %u from the %s: %u octets for %02X-%02X-%02X-%02X-%02X-%02X\n", (unsigned)port, name_of(side),
           (unsigned)length, octets[0], octets[1], octets[2], octets[3], octets[4], octets[5]);
}
