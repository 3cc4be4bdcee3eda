/*
 * How much stack a call takes: it runs on a stack of our own that was filled with a pattern, and what is no longer the pattern
 * afterwards was used.
 */
#ifndef OWN_STACK_H
#define OWN_STACK_H

#include <stddef.h>

/*
 * The bytes of stack that a call takes, beside what it takes to call anything at all. Ends the program with status 1 where the first call takes
 * another number than the next: then the figure is not the call's own.
 */
size_t stack_of(void (*call)(void));

#endif
