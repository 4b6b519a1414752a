/* Seeded random numbers: the same seed gives the same calls. */
#ifndef RANDOM_H
#define RANDOM_H

#include <stddef.h>
#include <stdint.h>

void random_begin(uint64_t seed);
uint64_t random_word(void);

/* A number below `bound`, which is above 0. */
uint64_t random_below(uint64_t bound);

void random_fill(void *memory, size_t bytes);

#endif
