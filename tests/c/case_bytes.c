#include "case_bytes.h"
#include <stdio.h>
#include <stdlib.h>
#include <string.h>

/* A number at a place, the highest byte first. */
static void put_number(uint8_t *at, uint64_t value, int bytes)
{
    while (bytes-- > 0) {
        at[bytes] = (uint8_t)value;
        value >>= 8;
    }
}

/* A record's time, from its spelling. */
static void put_time(uint8_t *at, const char *spelled)
{
    at[0] = spelled[0] == '-' ? 2 : spelled[0] == '+' ? 3 : 1;
    put_number(at + 1, strtoull(spelled, NULL, 10), 8);
}

/* The bytes that hex digits spell, up to the line's end. */
static size_t from_hex(const char *digits, uint8_t *bytes, size_t room)
{
    size_t count = 0;
    unsigned value;
    while (count < room && digits[2 * count] != '\n' && sscanf(digits + 2 * count, "%2x", &value) == 1)
        bytes[count++] = (uint8_t)value;
    return count;
}

/* Whether a line begins with a word. */
static int begins(const char *line, const char *word)
{
    return strncmp(line, word, strlen(word)) == 0;
}

/* One line of a group, or the proof's. */
static void read_line(const char *line, struct case_bytes *into)
{
    uint8_t *last = into->records + (into->records_length ? into->records_length - RECORD_BYTES : 0);
    if (begins(line, "by=") && into->records_length < sizeof into->records) {
        last = into->records + into->records_length;
        into->records_length += RECORD_BYTES;
        put_number(last, strtoull(line + 3, NULL, 10), 2);
    } else if (begins(line, "from=")) {
        put_time(last + 2, line + 5);
    } else if (begins(line, "to=")) {
        put_time(last + 11, line + 3);
    } else if (begins(line, "says=")) {
        size_t start = into->buffer_length;
        into->buffer_length += from_hex(line + 5, into->buffer + start, sizeof into->buffer - start);
        put_number(last + 20, start, 8);
        put_number(last + 28, into->buffer_length - start, 8);
    } else if (begins(line, "proof=")) {
        into->proof_length = from_hex(line + 6, into->proof, sizeof into->proof);
    }
}

uint64_t number_after(const char *text, const char *word)
{
    const char *found = strstr(text, word);
    return found ? strtoull(found + strlen(word), NULL, 10) : 0;
}

void read_case(const char *text, struct case_bytes *into)
{
    memset(into, 0, sizeof *into);
    into->who = (uint16_t)number_after(text, "who=");
    into->what = (uint16_t)number_after(text, "what=");
    into->right = (uint16_t)number_after(text, "right=");
    for (const char *line = text; line != NULL; line = strchr(line, '\n')) {
        if (*line == '\n')
            line++;
        read_line(line, into);
    }
}

size_t read_file(const char *path, char *into, size_t room)
{
    FILE *file = fopen(path, "rb");
    if (file == NULL) {
        perror(path);
        exit(2);
    }
    size_t length = fread(into, 1, room - 1, file);
    fclose(file);
    into[length] = 0;
    return length;
}
