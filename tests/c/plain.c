/* Composition, reversion, primes and text, straight from their definitions. */
#include "plain.h"

#include <inttypes.h>
#include <stdio.h>
#include <stdlib.h>
#include <string.h>

void *plain_memory(size_t bytes)
{
    void *memory = malloc(bytes > 0 ? bytes : 1);
    if (memory == NULL) {
        fputs("out of memory\n", stderr);
        exit(2);
    }
    return memory;
}

int plain_is_prime(uint64_t p)
{
    uint64_t d;
    if (p < 2)
        return 0;
    for (d = 2; d * d <= p; d++)
        if (p % d == 0)
            return 0;
    return 1;
}

uint32_t plain_table(uint32_t index)
{
    static uint32_t table[16];
    static int known = 0;
    if (!known) {
        uint32_t candidate = 2147483647u, found = 0;
        for (; found < 16; candidate--)
            if (plain_is_prime(candidate))
                table[found++] = candidate;
        known = 1;
    }
    return table[index];
}

/* target = a times g modulo x^n; the target lies apart. */
static void product(uint32_t p, size_t n, const uint32_t *a, const uint32_t *g, size_t g_count, uint32_t *target)
{
    size_t i, j;
    memset(target, 0, n * sizeof *target);
    for (i = 0; i < g_count && i < n; i++)
        for (j = 0; g[i] != 0 && i + j < n; j++)
            target[i + j] = (uint32_t)((target[i + j] + (uint64_t)g[i] * a[j]) % p);
}

void plain_compose(uint32_t p, size_t n, const uint32_t *f, size_t f_count, const uint32_t *g, size_t g_count, uint32_t *out)
{
    uint32_t *power = plain_memory(n * sizeof *power), *next = plain_memory(n * sizeof *next), *spare;
    size_t i, k;
    memset(out, 0, n * sizeof *out);
    memset(power, 0, n * sizeof *power);
    power[0] = 1;
    for (i = 0; i < f_count; i++) {
        for (k = 0; k < n; k++)
            out[k] = (uint32_t)((out[k] + (uint64_t)f[i] * power[k]) % p);
        if (i + 1 == f_count)
            break;
        product(p, n, power, g, g_count, next);
        spare = power;
        power = next;
        next = spare;
    }
    free(power);
    free(next);
}

/* a to the power e modulo p */
static uint64_t power_of(uint64_t a, uint64_t e, uint64_t p)
{
    uint64_t value = 1 % p;
    for (; e > 0; e /= 2) {
        if (e % 2 == 1)
            value = value * a % p;
        a = a * a % p;
    }
    return value;
}

/*
 * Row i of `powers` holds h^(i + 1). Coefficient k of h^i, i from 2, reads h below k only, since h has no constant term. So the
 * coefficients of g(h) at k are known but for g_1 h_k, which makes the sum 1 at k = 1 and 0 above.
 */
static uint64_t next_coefficient(uint64_t p, size_t n, size_t k, const uint32_t *g, size_t rows, uint32_t *powers, uint64_t inverse)
{
    uint64_t sum = 0, term, missing;
    size_t i, j;
    for (i = 1; i < rows; i++) {
        for (term = 0, j = 1; j < k; j++)
            term = (term + (uint64_t)powers[j] * powers[(i - 1) * n + k - j]) % p;
        powers[i * n + k] = (uint32_t)term;
        sum = (sum + g[i + 1] * term) % p;
    }
    missing = ((k == 1 ? 1 : 0) + p - sum) % p;
    return missing * inverse % p;
}

void plain_reverse(uint32_t p, size_t n, const uint32_t *g, size_t g_count, uint32_t *out)
{
    size_t degree = g_count < n ? g_count : n, k, rows = degree > 1 ? degree - 1 : 1;
    uint32_t *powers;
    uint64_t inverse;
    memset(out, 0, n * sizeof *out);
    if (n == 1)
        return;
    powers = plain_memory(rows * n * sizeof *powers);
    memset(powers, 0, rows * n * sizeof *powers);
    inverse = power_of(g[1], (uint64_t)p - 2, p);
    for (k = 1; k < n; k++)
        out[k] = powers[k] = (uint32_t)next_coefficient(p, n, k, g, rows, powers, inverse);
    free(powers);
}

size_t plain_text(uint32_t number, size_t n, uint64_t weight, const uint32_t *list, size_t list_count, char *text, size_t room)
{
    size_t at, i;
    if (number != 0)
        return (size_t)snprintf(text, room, "no %" PRIu32 "\n", number);
    at = (size_t)snprintf(text, room, "ok %zu %" PRIu64 "\n", n, weight);
    for (i = 0; i < list_count; i++)
        at += (size_t)snprintf(text + at, room - at, i == 0 ? "%" PRIu32 : " %" PRIu32, list[i]);
    at += (size_t)snprintf(text + at, room - at, "\n");
    return at;
}
