/*
 * The door: may this press go through?
 *
 * One call, for the firmware of the desk. Link it from the archive that `make door` puts at
 * target/staticlib/libdoor.a (x86-64 Linux; of your C library it needs memcpy at the most, and nothing else:
 * where the compiler copies by itself, not even that).
 *
 *     uint64_t answer = procap_door(text, text_length, who, what, right, moment, state, state_length);
 *     if (answer == PROCAP_OPEN) { ... start ... }
 *
 * Test nothing before you call: whatever the bytes, the lengths and the numbers are, the call ends with one of the
 * answers below. It keeps nothing between two presses, so ask it again at each press.
 */
#ifndef PROCAP_H
#define PROCAP_H

#include <stddef.h>
#include <stdint.h>

#ifdef __cplusplus
extern "C" {
#endif

/*
 * text, text_length    The procap as its text, byte for byte as the office wrote it: no terminating zero, nothing
 *                      before it and nothing after its last line feed. Bytes that are not exactly a text are answered
 *                      with 12, whatever their length.
 * who, what, right     The request of this press. Names are 0 to 65,535. They are taken as 64 bits wide so that no larger
 *                      number is cut down to a name on the way: a number above 65,535 is in no procap's request (8).
 * moment               The clock, in seconds: 0 to 1,099,511,627,775. Above that the answer is 11.
 * state, state_length  The facts that hold at the machine now, one after another: predicate (2 bytes, highest first), the
 *                      number of terms (1 byte, 0 to 4), and each term: 00 and a name (2 bytes), 01 and a moment
 *                      (5 bytes), 02 minus infinity, 03 plus infinity. At most 4,096 bytes; a fact may stand there twice.
 *
 * Both buffers stay yours. They are only read, only up to their lengths, and only until the call returns; they may
 * overlap or be the same. Do not let another thread or a device write to them meanwhile. With length 0 a pointer may be
 * NULL; with any other length it must point at so many readable bytes. The call may run on several threads at once.
 *
 * It uses no heap and makes no system call. The stack that it needs stands in docs/TRUST.md; it is below 4 KiB. Where the
 * archive needs memcpy (`nm -u` lists it) and the program is linked dynamically in the usual, lazy way, the first press that
 * copies anything takes some 3 KiB more, depending on the loader and the processor: the loader looks memcpy up then, on the
 * stack of that press. Link with -Wl,-z,now, or statically, and the first press takes no more than any other.
 *
 * Returns 256 times the answer's number plus its place. PROCAP_OPEN, which is 0, is the only answer on which the press
 * may go through.
 */
uint64_t procap_door(const uint8_t *text, size_t text_length, uint64_t who, uint64_t what, uint64_t right, uint64_t moment,
                     const uint8_t *state, size_t state_length);

/* The two halves of what the call returns. */
#define PROCAP_NUMBER(answer) ((unsigned)((answer) / 256u))
#define PROCAP_PLACE(answer) ((unsigned)((answer) % 256u))

/*
 * The numbers that the door gives, in the order in which it looks. The first that applies is the answer. Only 10 has a
 * place other than 0. docs/ANSWERS.md says what the display should show for each, the likely cause and what to do;
 * docs/SCOPE.md, Numbers, when each is given.
 */
enum procap_answer {
    PROCAP_OPEN = 0,                 /* the press may go through */
    PROCAP_TEXT_MALFORMED = 12,      /* the text is not a procap text */
    PROCAP_MOMENT_ABOVE_LATEST = 11, /* the moment is above 1,099,511,627,775 */
    PROCAP_STATE_MALFORMED = 7,      /* the state is not a list of facts, or has more than 4,096 bytes */
    PROCAP_REQUEST_DIFFERS = 8,      /* the procap is for another request */
    PROCAP_MOMENT_OUTSIDE = 9,       /* the moment is before the procap's from or after its to */
    PROCAP_FACT_MISSING = 10         /* a fact of the procap is not in the state; the place is its index, from 0 to 15 */
};

#ifdef __cplusplus
}
#endif

#endif
