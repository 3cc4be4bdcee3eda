/*
 * The calls of the crate from_c, which has every call of the office and the desk on numbers and byte slices, for tests and measuring;
 * and those of the crate kept, which tell whether a demand holds of what these calls answer, and are proved to say yes.
 *
 * Records: 36 bytes each, all numbers highest byte first: principal (2), from and to (a kind, 1 byte, and a number, 8), start (8), length (8).
 * The kinds are 1 a moment, 2 minus infinity, 3 plus infinity; any other is ctime. An incomplete record at the end is one malformed record.
 * Pairs: 4 bytes each: the stronger principal (2), the weaker (2). An incomplete pair at the end is one too, with 0 for what is not all there.
 * A procap value: 648 bytes: version (1), who, what, right (2 each), from, to (8 each), count (1), and 16 facts of 39 bytes: predicate (2),
 * count (1), four terms (a kind, 1 byte, and a number, 8), of which the kind 0 is a name.
 *
 * who, what and right are names here, 16 bits wide: C cuts a larger number down, which the door of include/procap.h does not let happen.
 * What comes back is 2^48 times the answer's number, plus 2^32 times the length of what was written, plus the place.
 */
#ifndef CALLS_H
#define CALLS_H

#include <stdbool.h>
#include <stddef.h>
#include <stdint.h>

#define RECORD_BYTES 36
#define PAIR_BYTES 4
#define MOST_PAIRS 128
#define VALUE_BYTES 648
#define MOST_TEXT 1223
#define NUMBER_OF(answer) ((unsigned)((answer) >> 48))
#define LENGTH_OF(answer) ((size_t)((answer) >> 32 & 0xffff))
#define PLACE_OF(answer) ((unsigned)((answer) & 0xffffffff))

/* Verifies, and writes the procap's text. */
uint64_t office_verify(uint16_t who, uint16_t what, uint16_t right, const uint8_t *records, size_t records_length,
                       const uint8_t *buffer, size_t buffer_length, const uint8_t *pairs, size_t pairs_length, const uint8_t *proof,
                       size_t proof_length, uint8_t *out, size_t out_length);
/* Checks a proof directly, at a moment in a state. */
uint64_t office_direct(uint16_t who, uint16_t what, uint16_t right, const uint8_t *records, size_t records_length,
                       const uint8_t *buffer, size_t buffer_length, const uint8_t *pairs, size_t pairs_length, const uint8_t *proof,
                       size_t proof_length, uint64_t moment, const uint8_t *state, size_t state_length);
/* Writes what the program `check` prints for an input. */
uint64_t office_answer_case(const uint8_t *input, size_t input_length, uint8_t *out, size_t out_length);
/* Reads a text and writes the procap that it says again. */
uint64_t office_rewrite(const uint8_t *text, size_t text_length, uint8_t *out, size_t out_length);
/* Writes the text of a procap value. */
uint64_t office_write(const uint8_t *value, size_t value_length, uint8_t *out, size_t out_length);
/* The door on a procap value. */
uint64_t desk_door_on_value(const uint8_t *value, size_t value_length, uint16_t who, uint16_t what, uint16_t right, uint64_t moment,
                            const uint8_t *state, size_t state_length);
/* How many of so many equal presses go through; the text is read once. */
uint64_t desk_presses(const uint8_t *text, size_t text_length, uint16_t who, uint16_t what, uint16_t right, uint64_t moment,
                      const uint8_t *state, size_t state_length, uint64_t presses);

/* Demand 3 at this press: what verify issues opens the door exactly if the direct check accepts; where it refuses, the check does not accept. */
bool kept_demand_3(uint16_t who, uint16_t what, uint16_t right, const uint8_t *records, size_t records_length, const uint8_t *buffer,
                   size_t buffer_length, const uint8_t *pairs, size_t pairs_length, const uint8_t *proof, size_t proof_length,
                   uint64_t moment, const uint8_t *state, size_t state_length);
/* Demand 2: bytes that read as a procap are what is written of it. */
bool kept_demand_2_reading(const uint8_t *text, size_t text_length);
/* Demand 2: what is written of a procap value reads back, and is written again as it was. */
bool kept_demand_2_writing(const uint8_t *value, size_t value_length);

#endif
