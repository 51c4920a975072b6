/* How a function is linked that crosses the unit's files. The Makefile compiles them as one and makes it local: so a compiler sees the
 * unit whole, and the units of two compilers go into one program. */
#ifndef WITHIN
#define WITHIN
#endif
