/* The stack that a call takes: it runs on a stack of its own that was painted before, and the lowest byte that changed is looked
 * for. */
#ifndef STACK_H
#define STACK_H

#include <stddef.h>
#include <stdint.h>

/* Calls `f`, and gives the bytes from the place that `f` names by `stack_from` down to the lowest byte that was touched. */
size_t stack_of(void (*f)(void));
void stack_from(void *frame);

#endif
