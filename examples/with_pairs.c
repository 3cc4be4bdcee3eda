/*
 * What verify answers to a case with pairs. The program `check` has no line for them and lends none; a program of the office that calls
 * verify itself lends the house's own list, as here, by the calls for C.
 *
 *     with_pairs CASE [STRONGER WEAKER]..
 *
 * It prints what `check` prints: the procap's text, or two lines with number and place.
 */
#include "../tests/c/case_bytes.h"
#include <stdio.h>
#include <stdlib.h>

#define MOST_GIVEN 1024

/* Puts a name of two bytes, the higher one first; what is no name ends the program. */
static void put_name(const char *word, uint8_t *at)
{
    char *end;
    unsigned long name = strtoul(word, &end, 10);
    if (*word < '0' || *word > '9' || *end != '\0' || name > 65535) {
        fprintf(stderr, "with_pairs: \"%s\" is no name\n", word);
        exit(2);
    }
    at[0] = (uint8_t)(name >> 8);
    at[1] = (uint8_t)name;
}

int main(int words, char **word)
{
    static char input[70000];
    static struct case_bytes given;
    static uint8_t pairs[MOST_GIVEN * PAIR_BYTES];
    static uint8_t text[MOST_TEXT];
    if (words < 2 || words % 2 != 0 || words - 2 > 2 * MOST_GIVEN) {
        fprintf(stderr, "usage: with_pairs CASE [STRONGER WEAKER]..\n");
        return 2;
    }
    read_file(word[1], input, sizeof input);
    read_case(input, &given);
    for (int i = 2; i < words; i++)
        put_name(word[i], pairs + (i - 2) * 2);
    uint64_t answer = office_verify(given.who, given.what, given.right, given.records, given.records_length, given.buffer,
                                    given.buffer_length, pairs, (size_t)(words - 2) * 2, given.proof, given.proof_length, text,
                                    sizeof text);
    if (NUMBER_OF(answer) != 0)
        printf("refused=%u\nplace=%u\n", NUMBER_OF(answer), PLACE_OF(answer));
    else
        fwrite(text, 1, LENGTH_OF(answer), stdout);
    return 0;
}
