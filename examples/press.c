/*
 * A press, as desk firmware makes it: the procap text and the state come as files, the request and the moment as numbers.
 *
 *     press PROCAP WHO WHAT RIGHT MOMENT STATE
 */
#include "../include/procap.h"
#include <errno.h>
#include <inttypes.h>
#include <stdio.h>
#include <stdlib.h>

#define MOST_BYTES 8192

/* Reads a file into the buffer; one that does not fit is cut, and the door then refuses it, as every longer text and state. */
static size_t bytes_of(const char *name, uint8_t *buffer)
{
    FILE *file = fopen(name, "rb");
    size_t length;
    if (!file) {
        perror(name);
        exit(2);
    }
    length = fread(buffer, 1, MOST_BYTES, file);
    fclose(file);
    return length;
}

/* A number in decimal digits. Anything else is no press: read as 0 it would be one, for somebody else. */
static uint64_t number_of(const char *word)
{
    char *end;
    unsigned long long number;
    errno = 0;
    number = strtoull(word, &end, 10);
    if (*word < '0' || *word > '9' || *end != '\0' || errno != 0) {
        fprintf(stderr, "press: \"%s\" is no number\n", word);
        exit(2);
    }
    return number;
}

int main(int count, char **words)
{
    static uint8_t text[MOST_BYTES], state[MOST_BYTES];
    size_t text_length, state_length;
    uint64_t answer;
    if (count != 7) {
        fprintf(stderr, "usage: press PROCAP WHO WHAT RIGHT MOMENT STATE\n");
        return 2;
    }
    text_length = bytes_of(words[1], text);
    state_length = bytes_of(words[6], state);
    answer = procap_door(text, text_length, number_of(words[2]), number_of(words[3]), number_of(words[4]), number_of(words[5]), state,
                         state_length);
    if (answer == PROCAP_OPEN) {
        printf("open\n");
        return 0;
    }
    printf("refused=%u\nplace=%u\n", PROCAP_NUMBER(answer), PROCAP_PLACE(answer));
    return 1;
}
