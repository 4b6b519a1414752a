/* The generator splitmix64. */
#include "random.h"

#include <string.h>

static uint64_t state;

void random_begin(uint64_t seed)
{
    state = seed;
}

uint64_t random_word(void)
{
    uint64_t z = state += 0x9e3779b97f4a7c15u;
    z = (z ^ (z >> 30)) * 0xbf58476d1ce4e5b9u;
    z = (z ^ (z >> 27)) * 0x94d049bb133111ebu;
    return z ^ (z >> 31);
}

uint64_t random_below(uint64_t bound)
{
    return random_word() % bound;
}

void random_fill(void *memory, size_t bytes)
{
    unsigned char *at = memory;
    while (bytes > 0) {
        uint64_t word = random_word();
        size_t part = bytes < sizeof word ? bytes : sizeof word;
        memcpy(at, &word, part);
        at += part;
        bytes -= part;
    }
}
