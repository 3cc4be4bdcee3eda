/*
 * Writes inputs for the fuzzer to start from: of NAME.case its question to verify and to the program, of NAME.procap its question
 * to the door.
 * usage: seeds FOLDER FILE..
 */
#include "../c/case_bytes.h"
#include <stdio.h>
#include <stdlib.h>
#include <string.h>

static uint8_t seed[200000];
static size_t length;

/* One byte more. */
static void byte(unsigned value)
{
    seed[length++] = (uint8_t)value;
}

/* A number, the highest byte first. */
static void number(uint64_t value, int bytes)
{
    while (bytes-- > 0)
        byte((unsigned)(value >> (8 * bytes)));
}

/* Bytes as they are. */
static void bytes(const void *from, size_t count)
{
    memcpy(seed + length, from, count);
    length += count;
}

/* Bytes after their length. */
static void part(const void *from, size_t count)
{
    number(count, 2);
    bytes(from, count);
}

/* A press: its request, its moment, and the state of case P. */
static void request(const char *text)
{
    number(number_after(text, "who="), 2);
    number(number_after(text, "what="), 2);
    number(number_after(text, "right="), 2);
}

static void state(void)
{
    part("\x00\xc8\x01\x00\x00\x07", 6);
}

/* Writes what was put together into the folder, under a name and a letter, and begins again. */
static void keep(const char *folder, const char *file, char letter)
{
    const char *name = strrchr(file, '/') ? strrchr(file, '/') + 1 : file;
    char path[4096];
    snprintf(path, sizeof path, "%s/%s.%c", folder, name, letter);
    FILE *out = fopen(path, "wb");
    if (out == NULL || fwrite(seed, 1, length, out) != length || fclose(out) != 0)
        exit(1);
    length = 0;
}

/* The question of a case to verify, with 2 above 3 and 3 above 1. */
static void verify_seed(const char *text)
{
    static struct case_bytes given;
    read_case(text, &given);
    byte('v');
    request(text);
    number(1500, 8);
    part(given.records, given.records_length);
    part(given.buffer, given.buffer_length);
    part("\x00\x02\x00\x03\x00\x03\x00\x01", 8);
    part(given.proof, given.proof_length);
    state();
}

/* The question of a case to the program. */
static void program_seed(const char *text, size_t text_length)
{
    byte('c');
    number(1300, 2);
    bytes(text, text_length);
}

/* The question of a procap to the door. */
static void door_seed(const char *text, size_t text_length)
{
    byte('t' | 1);
    part(text, text_length);
    request(text);
    number(number_after(text, "from="), 8);
    state();
}

int main(int count, char **words)
{
    static char text[100000];
    for (int i = 2; i < count; i++) {
        size_t text_length = read_file(words[i], text, sizeof text);
        if (strstr(words[i], ".procap")) {
            door_seed(text, text_length);
            keep(words[1], words[i], 't');
        } else {
            verify_seed(text);
            keep(words[1], words[i], 'v');
            program_seed(text, text_length);
            keep(words[1], words[i], 'c');
        }
    }
    return 0;
}
