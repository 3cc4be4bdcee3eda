/* A second door, written from the words of the scope in plain C, and a source of repeatable random numbers. */
#ifndef MODEL_H
#define MODEL_H

#include <stddef.h>
#include <stdint.h>

/* What the door should answer, as procap_door does. */
uint64_t model_door(const uint8_t *text, size_t text_length, uint64_t who, uint64_t what, uint64_t right, uint64_t moment,
                    const uint8_t *state, size_t state_length);

/* The next of a fixed row of random numbers. */
uint64_t next_random(void);

#endif
