/* Is this a valid state's image? The layout is docs/LAYOUT.md's. */
#ifndef VALID_H
#define VALID_H
#include "octets.h"

enum { PORTS = 128, FLOWS = 256, SESSIONS = 1536, FREE = 2048, IMAGE = 4096 };
enum { ALLOWED = 31, PLACES = 63 }; /* and the flow's number */

WITHIN int is_image(const uint8_t *b, size_t n);

/* Does an MP of this kind, 0 for none, face that side? */
WITHIN int faces(unsigned mp, unsigned side);

#endif
