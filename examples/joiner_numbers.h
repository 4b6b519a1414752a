/* The numbers of joiner.c: whole numbers of 576 bits, and upper bounds, which are rounded upwards only. No number is negative. */
#ifndef JOINER_NUMBERS_H
#define JOINER_NUMBERS_H

#include <stdint.h>
#include <stdlib.h>
#include <string.h>

#define WORDS 18                    /* the product of the sixteen primes takes 16: a bound near it keeps a fraction */
#define LINE_BYTES (10 * WORDS + 1) /* a number in decimal and a line end have no more bytes */
#define MOST_EXPONENT ((int64_t)1 << 40)
#define TOO_LARGE ((int64_t)1 << 60) /* stands for every larger exponent: a product with such a number is too large again, or 0 */

struct whole {
    uint32_t word[WORDS]; /* the least significant first */
};

/* The whole number times 2^(32 exponent). Its most significant word is not 0, except in 0. */
struct bound {
    struct whole whole;
    int64_t exponent;
};

/* a = a * factor + more; whether it fits. */
static int multiply_small(struct whole *a, uint32_t factor, uint32_t more)
{
    uint64_t carry = more;
    size_t i;
    for (i = 0; i < WORDS; i++) {
        carry += (uint64_t)a->word[i] * factor;
        a->word[i] = (uint32_t)carry;
        carry >>= 32;
    }
    return carry == 0;
}

/* Writes the number and a line end to `text`; how many bytes. */
static size_t write_line(struct whole a, char *text)
{
    char line[LINE_BYTES];
    size_t at = LINE_BYTES, i;
    int rest;
    line[--at] = '\n';
    do {
        uint64_t remainder = 0;
        rest = 0;
        for (i = WORDS; i-- > 0;) {
            remainder = remainder << 32 | a.word[i];
            a.word[i] = (uint32_t)(remainder / 10);
            remainder %= 10;
            rest = rest || a.word[i] != 0;
        }
        line[--at] = (char)('0' + remainder);
    } while (rest);
    memcpy(text, line + at, LINE_BYTES - at);
    return LINE_BYTES - at;
}

/* At least the number of `count` words times 2^(32 exponent): its leading words, with 1 added to the last if any later one is not 0. */
static struct bound leading(const uint32_t *word, size_t count, int64_t exponent)
{
    struct bound a = {{{0}}, -MOST_EXPONENT};
    uint32_t later = 0;
    size_t i;
    while (count > 0 && word[count - 1] == 0)
        count--;
    if (count == 0)
        return a;
    for (i = 0; i < count; i++)
        if (i + WORDS < count)
            later |= word[i];
        else
            a.whole.word[i + WORDS - count] = word[i];
    a.exponent = exponent + (int64_t)count - WORDS;
    if (later != 0 && !multiply_small(&a.whole, 1, 1)) {
        a.whole.word[WORDS - 1] = 1;
        a.exponent++;
    }
    if (a.exponent > MOST_EXPONENT)
        a.exponent = TOO_LARGE;
    if (a.exponent < -MOST_EXPONENT)
        a.exponent = -MOST_EXPONENT;
    return a;
}

static struct bound power_of_two(int64_t exponent)
{
    int64_t words = exponent / 32 - (exponent % 32 < 0);
    uint32_t word = (uint32_t)1 << (exponent - 32 * words);
    return leading(&word, 1, words);
}

/* At least a * b. */
static struct bound multiply(const struct bound *a, const struct bound *b)
{
    uint32_t wide[2 * WORDS] = {0};
    size_t i, j;
    for (i = 0; i < WORDS; i++) {
        uint64_t carry = 0;
        for (j = 0; j < WORDS; j++) {
            carry += wide[i + j] + (uint64_t)a->whole.word[i] * b->whole.word[j];
            wide[i + j] = (uint32_t)carry;
            carry >>= 32;
        }
        wide[i + WORDS] = (uint32_t)carry;
    }
    return leading(wide, 2 * WORDS, a->exponent + b->exponent);
}

/* At least a + b. A number that ends far below the last word of the other is raised to stand just below it: rounded, it is the same. */
static struct bound add(const struct bound *a, const struct bound *b)
{
    uint32_t wide[2 * WORDS + 1] = {0};
    uint64_t carry = 0;
    size_t i, shift;
    if (a->exponent < b->exponent)
        return add(b, a);
    shift = a->exponent - b->exponent < WORDS ? (size_t)(a->exponent - b->exponent) : WORDS;
    memcpy(wide, b->whole.word, sizeof b->whole.word);
    for (i = 0; i < WORDS; i++) {
        carry += (uint64_t)wide[shift + i] + a->whole.word[i];
        wide[shift + i] = (uint32_t)carry;
        carry >>= 32;
    }
    wide[shift + WORDS] = (uint32_t)carry;
    return leading(wide, 2 * WORDS + 1, a->exponent - (int64_t)shift);
}

static int below(const struct bound *a, const struct bound *b)
{
    size_t i;
    if (a->exponent != b->exponent)
        return a->exponent < b->exponent;
    for (i = WORDS; i-- > 0;)
        if (a->whole.word[i] != b->whole.word[i])
            return a->whole.word[i] < b->whole.word[i];
    return 0;
}

/* How many bits the whole part of a number has, if it is 1 or more. */
static int64_t bits(const struct bound *a)
{
    int64_t count = 32 * (a->exponent + WORDS - 1);
    uint32_t word = a->whole.word[WORDS - 1];
    for (; word > 0; word /= 2)
        count++;
    return count;
}

#endif
