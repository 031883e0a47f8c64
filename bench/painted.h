/* The stack that a call takes: it runs on a stack of its own that was filled with a pattern, and the bytes that lost it
   were used. */
#ifndef PAINTED_H
#define PAINTED_H
#include <stddef.h>

size_t used_by(void (*function)(void)); /* less what an empty function uses */

#endif
