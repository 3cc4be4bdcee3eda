/*
 * What a fuzzer is let loose on: the calls of the office and the desk as C makes them.
 *
 * An input is a letter that chooses the question, and parts, each after its length in two bytes. The lent bytes stand right before
 * a page that nobody may touch, so that a read past their end is a fault. Every answer is held to what it promises of the buffers,
 * and the answers to one another: what is written reads back the same, and a procap opens exactly when the direct check accepts.
 */
#define _GNU_SOURCE
#include "../c/calls.h"
#include "../../include/procap.h"
#include <stdio.h>
#include <stdlib.h>
#include <string.h>
#include <sys/mman.h>

#define ROOM 131072
#define LATEST 1099511627775u
enum { RECORDS, BUFFER, PAIRS, PROOF, STATE, TEXT, OUT, SLOTS };

/* What is left of the input. */
static const uint8_t *rest;
static size_t rest_length;

/* A part of the input, in lent bytes. */
struct part {
    uint8_t *bytes;
    size_t length;
};

/* Ends the run at a promise that is broken: the fuzzer keeps the input. */
static void hold(int promise, const char *words) {
    if (!promise) {
        fprintf(stderr, "broken: %s\n", words);
        abort();
    }
}

/* So many bytes of room that end where a page begins that nobody may touch. */
static uint8_t *room_for(int slot, size_t length) {
    static uint8_t *ends[SLOTS];
    if (ends[slot] == NULL) {
        uint8_t *pages = mmap(NULL, ROOM + 65536, PROT_READ | PROT_WRITE, MAP_PRIVATE | MAP_ANONYMOUS, -1, 0);
        hold(pages != MAP_FAILED && mprotect(pages + ROOM, 65536, PROT_NONE) == 0, "no memory");
        ends[slot] = pages + ROOM;
    }
    return ends[slot] - length;
}

/* The next bytes of the input as a number, zeros where it has ended. */
static uint64_t number(int bytes) {
    uint64_t value = 0;
    for (int i = 0; i < bytes; i++) {
        value = value * 256 + (rest_length > 0 ? *rest : 0);
        if (rest_length > 0) rest++, rest_length--;
    }
    return value;
}

/* The next part of the input: as long as its length says, if so much is left. */
static struct part part(int slot) {
    size_t length = number(2);
    if (length > rest_length) length = rest_length;
    struct part lent = {room_for(slot, length), length};
    memcpy(lent.bytes, rest, length);
    rest += length;
    rest_length -= length;
    return lent;
}

/* A lent buffer to write into, filled with a pattern. */
static struct part buffer_to_write(size_t length) {
    struct part lent = {room_for(OUT, length), length};
    memset(lent.bytes, 0xa5, length);
    return lent;
}

/* A call that writes gives a number that it may give, and leaves the buffer alone past what it wrote. */
static void hold_written(uint64_t answer, struct part out, unsigned most) {
    unsigned refused = NUMBER_OF(answer);
    hold(refused <= most || refused == 12 || refused == 13 || (most == 5 && refused == 21), "a number that this call does not give");
    hold(refused == 0 || LENGTH_OF(answer) == 0, "a refusal has length 0");
    hold(LENGTH_OF(answer) <= out.length, "no more is written than there is room for");
    for (size_t i = LENGTH_OF(answer); i < out.length; i++) hold(out.bytes[i] == 0xa5, "bytes past the text stay as they were");
}

/* A text that reads is the text that is written. */
static void rewrite(struct part text, size_t room) {
    hold(kept_demand_2_reading(text.bytes, text.length), "demand 2 says no of a text");
    struct part out = buffer_to_write(room);
    uint64_t answer = office_rewrite(text.bytes, text.length, out.bytes, out.length);
    hold_written(answer, out, 0);
    hold(PLACE_OF(answer) == 0, "12 and 13 have place 0");
    if (NUMBER_OF(answer) == 0)
        hold(LENGTH_OF(answer) == text.length && memcmp(out.bytes, text.bytes, text.length) == 0, "a text has one spelling");
}

/* The door gives one of its numbers, and presses in a row are all alike. */
static void press(struct part text) {
    uint64_t who = number(2), what = number(2), right = number(2), moment = number(8);
    struct part state = part(STATE);
    uint64_t answer = procap_door(text.bytes, text.length, who, what, right, moment, state.bytes, state.length);
    unsigned refused = PROCAP_NUMBER(answer);
    hold(refused == 0 || (refused >= 7 && refused <= 12), "a number that the door does not give");
    hold(refused == 10 ? PROCAP_PLACE(answer) < 16 : PROCAP_PLACE(answer) == 0, "only 10 has a place");
    uint64_t opened = desk_presses(text.bytes, text.length, who, what, right, moment, state.bytes, state.length, 3);
    hold(opened == (refused == 0 ? 3 : 0), "equal presses are answered alike");
}

/* Verify and the direct check: what is issued opens exactly when the direct check accepts. */
static void verify(void) {
    uint16_t who = number(2), what = number(2), right = number(2);
    uint64_t moment = number(8);
    struct part records = part(RECORDS), buffer = part(BUFFER), pairs = part(PAIRS), proof = part(PROOF), state = part(STATE);
    struct part out = buffer_to_write(MOST_TEXT);
    hold(kept_demand_3(who, what, right, records.bytes, records.length, buffer.bytes, buffer.length, pairs.bytes, pairs.length, proof.bytes,
                       proof.length, moment, state.bytes, state.length),
         "demand 3 says no");
    uint64_t answer = office_verify(who, what, right, records.bytes, records.length, buffer.bytes, buffer.length, pairs.bytes,
                                    pairs.length, proof.bytes, proof.length, out.bytes, out.length);
    hold_written(answer, out, 5);
    hold(PLACE_OF(answer) < 4096, "a place is an index or an offset in the proof");
    hold(NUMBER_OF(answer) != 21 || pairs.length > MOST_PAIRS * PAIR_BYTES, "21 is for over 128 pairs");
    uint64_t direct = office_direct(who, what, right, records.bytes, records.length, buffer.bytes, buffer.length, pairs.bytes,
                                    pairs.length, proof.bytes, proof.length, moment, state.bytes, state.length);
    if (NUMBER_OF(answer) != 0) {
        hold(NUMBER_OF(direct) != 0, "nothing is accepted for which no procap is issued");
        return;
    }
    struct part text = {room_for(TEXT, LENGTH_OF(answer)), LENGTH_OF(answer)};
    memcpy(text.bytes, out.bytes, text.length);
    uint64_t door = procap_door(text.bytes, text.length, who, what, right, moment, state.bytes, state.length);
    hold((door == PROCAP_OPEN) == (NUMBER_OF(direct) == 0), "the door opens exactly when the direct check accepts");
    hold((moment <= LATEST) == (PROCAP_NUMBER(door) != 11), "11 is for a moment above the latest");
    rewrite(text, MOST_TEXT);
}

/* A value is written exactly when the door takes it, and then its text is answered as it is. */
static void value(void) {
    uint16_t who = number(2), what = number(2), right = number(2);
    uint64_t moment = number(8);
    struct part given = part(BUFFER), state = part(STATE), out = buffer_to_write(MOST_TEXT);
    hold(kept_demand_2_writing(given.bytes, given.length), "demand 2 says no of a value");
    uint64_t answer = office_write(given.bytes, given.length, out.bytes, out.length);
    hold_written(answer, out, 0);
    uint64_t door = desk_door_on_value(given.bytes, given.length, who, what, right, moment, state.bytes, state.length);
    if (NUMBER_OF(answer) != 0) {
        hold(NUMBER_OF(door) == 12, "a value that cannot be written is 12 at the door");
        return;
    }
    struct part text = {room_for(TEXT, LENGTH_OF(answer)), LENGTH_OF(answer)};
    memcpy(text.bytes, out.bytes, text.length);
    uint64_t on_text = procap_door(text.bytes, text.length, who, what, right, moment, state.bytes, state.length);
    hold(PROCAP_NUMBER(on_text) == NUMBER_OF(door) && PROCAP_PLACE(on_text) == PLACE_OF(door), "a value and its text are answered alike");
    rewrite(text, MOST_TEXT);
}

/* The program's work: something is always printed. */
static void answer_case(void) {
    size_t room = number(2) % 2048;
    struct part input = {room_for(BUFFER, rest_length), rest_length};
    memcpy(input.bytes, rest, rest_length);
    struct part out = buffer_to_write(room);
    uint64_t answer = office_answer_case(input.bytes, input.length, out.bytes, out.length);
    hold_written(answer, out, 0);
    hold(NUMBER_OF(answer) != 12, "what is issued can be written");
    hold(NUMBER_OF(answer) == 0 || room < MOST_TEXT, "there is always something to print");
}

int LLVMFuzzerTestOneInput(const uint8_t *data, size_t size) {
    if (size == 0 || size > 100000) return 0;
    rest = data + 1;
    rest_length = size - 1;
    switch (data[0]) {
    case 'v': verify(); break;
    case 'w': value(); break;
    case 'c': answer_case(); break;
    default: {
        struct part text = part(TEXT);
        rewrite(text, data[0] % 2 ? MOST_TEXT : 100);
        press(text);
    }
    }
    return 0;
}
