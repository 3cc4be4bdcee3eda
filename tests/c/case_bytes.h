/*
 * A case of the program `check`, in the bytes that the calls of from_c take.
 */
#ifndef CASE_BYTES_H
#define CASE_BYTES_H

#include "calls.h"

struct case_bytes {
    uint16_t who, what, right;
    uint8_t records[40 * RECORD_BYTES];
    size_t records_length;
    uint8_t buffer[65536];
    size_t buffer_length;
    uint8_t proof[65536];
    size_t proof_length;
};

/* Reads the lines of a case, loosely: what is no case gives some bytes too. */
void read_case(const char *text, struct case_bytes *into);

/* The number after a word in a text, 0 where it is not there. */
uint64_t number_after(const char *text, const char *word);

/* Reads a file whole, and puts a zero byte after it; gives its length, or ends the program. */
size_t read_file(const char *path, char *into, size_t room);

#endif
