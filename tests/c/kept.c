/*
 * Puts cases to demand 3 and texts to demand 2, as calls that are proved to answer yes: each case at moments at and around the numbers of the
 * examples and at the ends of the clock, in no state, in the one given, and in one that is none; with no pairs, and with a chain of two.
 * usage: kept STATE CASE_OR_PROCAP..
 */
#include "case_bytes.h"
#include <stdio.h>
#include <string.h>

#define LATEST 1099511627775u

static const uint64_t moments[] = {0, 1, 499, 500, 999, 1000, 1400, 1500, 2000, 2001, LATEST, LATEST + 1, UINT64_MAX};
static const uint8_t no_state[] = {0};
static const uint8_t chain[] = {0, 2, 0, 3, 0, 3, 0, 1}; /* 2 stands above 3, and 3 above 1 */
static struct case_bytes given;
static char file[70000], state[8192];
static size_t state_length, asked, denied;

/* Counts an answer. */
static void count(bool kept)
{
    asked++;
    denied += !kept;
}

/* Demand 3 of the case that was read, at a moment in a state, with no pairs and with some. */
static void press(uint64_t moment, const uint8_t *bytes, size_t length)
{
    count(kept_demand_3(given.who, given.what, given.right, given.records, given.records_length, given.buffer, given.buffer_length,
                        NULL, 0, given.proof, given.proof_length, moment, bytes, length));
    count(kept_demand_3(given.who, given.what, given.right, given.records, given.records_length, given.buffer, given.buffer_length,
                        chain, sizeof chain, given.proof, given.proof_length, moment, bytes, length));
}

/* Demand 3 of a case, at every moment in every state. */
static void put_case(void)
{
    read_case(file, &given);
    for (size_t i = 0; i < sizeof moments / sizeof *moments; i++) {
        press(moments[i], NULL, 0);
        press(moments[i], (const uint8_t *)state, state_length);
        press(moments[i], no_state, sizeof no_state);
    }
}

int main(int words, char **word)
{
    if (words < 3) {
        fprintf(stderr, "usage: kept STATE CASE_OR_PROCAP..\n");
        return 2;
    }
    state_length = read_file(word[1], state, sizeof state);
    for (int i = 2; i < words; i++) {
        size_t length = read_file(word[i], file, sizeof file);
        count(kept_demand_2_reading((const uint8_t *)file, length));
        if (strstr(word[i], ".case") != NULL)
            put_case();
    }
    printf("demands 2 and 3 were put to %d files in %zu calls: %zu denied\n", words - 2, asked, denied);
    return denied != 0;
}
