#define _XOPEN_SOURCE 700
#include "own_stack.h"
#include <stdint.h>
#include <stdio.h>
#include <stdlib.h>
#include <string.h>
#include <ucontext.h>

#define SIZE (2048 * 1024)
#define PATTERN 0xa5

static uint8_t stack[SIZE];
static ucontext_t back, there;

/* A call that does nothing. */
static void nothing(void)
{
}

/* The bytes of stack that a call leaves marks in. */
static size_t used_by(void (*call)(void))
{
    size_t i = 0;
    memset(stack, PATTERN, SIZE);
    getcontext(&there);
    there.uc_stack.ss_sp = stack;
    there.uc_stack.ss_size = SIZE;
    there.uc_link = &back;
    makecontext(&there, call, 0);
    swapcontext(&back, &there);
    while (i < SIZE && stack[i] == PATTERN)
        i++;
    return SIZE - i;
}

size_t stack_of(void (*call)(void))
{
    size_t first = used_by(call), again = used_by(call);
    if (first != again) {
        printf("the first call takes %zu bytes of stack and the next one %zu: the loader's work counts where a function is bound at its first call\n",
               first, again);
        exit(1);
    }
    return again - used_by(nothing);
}
