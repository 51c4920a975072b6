/* The stack of making a unit: of the full plan, of a plan with each fault, and of a text at every length. */
#ifndef MAKINGS_H
#define MAKINGS_H

/* A line each by `tell`. Is every answer as it must be? Says on stderr where not. */
int tell_makings(void (*tell)(const char *name, int depth));

#endif
