/*
 * How much stack the door takes. Fails above 4 KiB.
 */
#include "../../include/procap.h"
#include "own_stack.h"
#include <stdio.h>
#include <string.h>

#define LIMIT (4 * 1024)

static char text[2048];
static size_t text_length;
static uint8_t state[4096];
static size_t state_length;
static volatile uint64_t answer;

static void ask(void)
{
    answer = procap_door((uint8_t *)text, text_length, 2, 7, 9, 1500, state, state_length);
}

/* Prints what one press takes; gives 1 where that is too much or the answer is another. */
static int measure(const char *name, uint64_t wanted)
{
    size_t used = stack_of(ask);
    ask();
    printf("stack of the door, %s: %zu bytes\n", name, used);
    return used > LIMIT || answer != wanted;
}

int main(void)
{
    int bad = 0, i, k;
    size_t n = (size_t)sprintf(text, "procap=1\nwho=2\nwhat=7\nright=9\nfrom=0\nto=1099511627775\nfacts=16\n");
    for (i = 0; i < 16; i++) {
        n += (size_t)sprintf(text + n, "fact=%d", 65520 + i);
        for (k = 0; k < 4; k++)
            n += (size_t)sprintf(text + n, " c");
        n += (size_t)sprintf(text + n, "\n");
        memcpy(state + state_length, (uint8_t[]){0xff, (uint8_t)(0xf0 + i), 4}, 3);
        state_length += 3;
        for (k = 0; k < 4; k++, state_length += 6)
            memcpy(state + state_length, "\x01\x00\x00\x00\x05\xdc", 6);
    }
    text_length = n;
    bad |= measure("16 facts of 4 terms, all there", 0);
    state_length -= 27;
    bad |= measure("the last one missing", 256 * 10 + 15);
    state_length = 4096;
    bad |= measure("a full state, malformed at its end", 256 * 7);
    text_length--;
    bad |= measure("a text without its last line feed", 256 * 12);
    text_length = (size_t)sprintf(text, "procap=1\nwho=2\nwhat=7\nright=9\nfrom=1000\nto=2000\nfacts=1\nfact=200 n7\n");
    memcpy(state, "\x00\xc8\x01\x00\x00\x07", 6);
    state_length = 6;
    bad |= measure("case P", 0);
    if (bad)
        printf("too much stack, or another answer than expected\n");
    return bad;
}
