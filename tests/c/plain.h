/* A plain second implementation of the calls, straight from their definitions. It shares nothing with the library. */
#ifndef PLAIN_H
#define PLAIN_H

#include <stddef.h>
#include <stdint.h>

/* Whether p is a prime, by trial division. */
int plain_is_prime(uint64_t p);

/* Entry `index`, below 16, of the sixteen largest primes below 2147483648, found by search at the first call. */
uint32_t plain_table(uint32_t index);

/* Every number that a call returns is below. */
#define NUMBERS 32u

/* The numbers that each call tests, in the order in which it tests them; 0 ends the list. */
extern const uint32_t plain_compose_tests[], plain_reverse_tests[], plain_open_tests[], plain_cycle_tests[], plain_prime_tests[],
    plain_render_tests[];

/* The number that each call returns; `block` is the block length. */
uint32_t plain_compose_number(uint32_t route, size_t block, uint32_t p, size_t n, const uint32_t *f, size_t f_count,
                              const uint32_t *g, size_t g_count, size_t out_count, size_t work_count);
uint32_t plain_reverse_number(uint32_t p, size_t n, const uint32_t *g, size_t g_count, size_t out_count, size_t work_count);
uint32_t plain_open_number(uint32_t p, size_t n, size_t running_count);
uint32_t plain_cycle_number(uint32_t route, size_t block, uint32_t p, size_t n, uint32_t done, const uint32_t *list,
                            size_t list_count, const uint32_t *running, size_t running_count, size_t work_count);
uint32_t plain_prime_number(uint32_t index);
uint32_t plain_render_number(uint32_t number, size_t n, size_t list_count, size_t bytes, size_t text_count);

/* The block length of the calls that have none. */
#define PLAIN_BLOCK 4u

/* The weight of an accepted composition of an outer list of m places. */
uint64_t plain_weight(uint32_t route, uint64_t block, uint64_t p, uint64_t n, uint64_t m);

/* out = f(g) modulo x^n, by the powers of g. */
void plain_compose(uint32_t p, size_t n, const uint32_t *f, size_t f_count, const uint32_t *g, size_t g_count, uint32_t *out);

/* out = the reverse series of g modulo x^n, coefficient by coefficient. */
void plain_reverse(uint32_t p, size_t n, const uint32_t *g, size_t g_count, uint32_t *out);

/* Writes the text and a zero byte, for at most 4096 coefficients, and returns the count of bytes before it. */
size_t plain_text(uint32_t number, size_t n, uint64_t weight, const uint32_t *list, size_t list_count, char *text, size_t room);

/* malloc, or the end of the program. */
void *plain_memory(size_t bytes);

#endif
