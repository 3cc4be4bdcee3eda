/*
 * How much stack the office's calls take on the cases that are handed in, and the door on a value. Fails above a limit.
 * usage: office_stack CASE..
 */
#include "case_bytes.h"
#include "own_stack.h"
#include <stdio.h>
#include <string.h>

#define LIMIT (1024 * 1024)

static struct case_bytes given;
static uint8_t pairs[MOST_PAIRS * PAIR_BYTES];
static size_t pairs_length;
static char input[70000];
static size_t input_length;
static uint8_t text[MOST_TEXT];
static size_t text_length;
static uint8_t value[VALUE_BYTES];
static volatile uint64_t answer;

static void verify(void)
{
    answer = office_verify(given.who, given.what, given.right, given.records, given.records_length, given.buffer,
                           given.buffer_length, pairs, pairs_length, given.proof, given.proof_length, text, sizeof text);
}

/* The direct check, in an empty state: the walk is as deep as verify's up to the first fact. */
static void direct(void)
{
    answer = office_direct(given.who, given.what, given.right, given.records, given.records_length, given.buffer,
                           given.buffer_length, pairs, pairs_length, given.proof, given.proof_length, 1500, NULL, 0);
}

/* 128 pairs in a chain: each principal from 2 to 129 stands above the next. */
static void fill_pairs(void)
{
    for (int i = 0; i < MOST_PAIRS; i++) {
        pairs[i * PAIR_BYTES + 1] = (uint8_t)(i + 2);
        pairs[i * PAIR_BYTES + 3] = (uint8_t)(i + 3);
    }
}

static void answer_case(void)
{
    answer = office_answer_case((const uint8_t *)input, input_length, text, sizeof text);
}

static void rewrite(void)
{
    static uint8_t again[MOST_TEXT];
    answer = office_rewrite(text, text_length, again, sizeof again);
}

static void write_value(void)
{
    answer = office_write(value, sizeof value, text, sizeof text);
}

static void door_on_value(void)
{
    answer = desk_door_on_value(value, sizeof value, given.who, given.what, given.right, 0, NULL, 0);
}

/* Prints what a call takes; gives 1 where that is too much, or it is refused. */
static int measure(const char *call, void (*made)(void), unsigned refused)
{
    size_t used = stack_of(made);
    made();
    printf("stack of %s: %zu bytes\n", call, used);
    return used > LIMIT || (NUMBER_OF(answer) != 0 && NUMBER_OF(answer) != refused);
}

int main(int count, char **words)
{
    int bad = 0;
    fill_pairs();
    for (int i = 1; i < count; i++) {
        input_length = read_file(words[i], input, sizeof input);
        read_case(input, &given);
        printf("%s\n", words[i]);
        pairs_length = 0;
        bad |= measure("verify", verify, 0);
        text_length = LENGTH_OF(answer);
        bad |= measure("the direct check", direct, 10);
        pairs_length = sizeof pairs;
        bad |= measure("verify with 128 pairs", verify, 0);
        bad |= measure("the direct check with 128 pairs", direct, 10);
        bad |= measure("reading and writing the text", rewrite, 0);
        bad |= measure("answering the case", answer_case, 0);
    }
    value[0] = 1;
    bad |= measure("writing a value", write_value, 0);
    bad |= measure("the door on a value", door_on_value, 8);
    if (bad)
        printf("too much stack, or another answer than expected\n");
    return bad;
}
