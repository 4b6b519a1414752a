/* The tests of each call in their order, the number that it returns, and the weight of each route, by their rules. */
#include "plain.h"

const uint32_t plain_compose_tests[] = {1, 15, 2, 3, 4, 5, 6, 7, 8, 0};
const uint32_t plain_reverse_tests[] = {2, 3, 5, 6, 7, 8, 9, 0};
const uint32_t plain_open_tests[] = {2, 3, 6, 0};
const uint32_t plain_cycle_tests[] = {1, 15, 2, 3, 5, 6, 7, 8, 10, 11, 0};
const uint32_t plain_prime_tests[] = {14, 0};
const uint32_t plain_render_tests[] = {3, 6, 7, 0};

/* The first of these numbers whose test fires, or 0. */
static uint32_t first(const uint32_t *tests, const int *fires)
{
    while (*tests != 0 && !fires[*tests])
        tests++;
    return *tests;
}

static int bad_route(uint32_t route)
{
    return route < 1 || route > 4;
}

static int bad_block(uint32_t route, size_t block)
{
    return route == 2 && (block < 1 || block > 64);
}

/* No number of 32 bits is above the largest modulus. */
static int bad_modulus(uint32_t p)
{
    return !plain_is_prime(p);
}

static int bad_order(size_t n)
{
    return n == 0 || n > 4096;
}

static int exceeds(uint32_t p, const uint32_t *list, size_t count)
{
    size_t i;
    for (i = 0; i < count; i++)
        if (list[i] >= p)
            return 1;
    return 0;
}

uint32_t plain_compose_number(uint32_t route, size_t block, uint32_t p, size_t n, const uint32_t *f, size_t f_count,
                              const uint32_t *g, size_t g_count, size_t out_count, size_t work_count)
{
    const int fires[NUMBERS] = {
        [1] = bad_route(route),
        [15] = bad_block(route, block),
        [2] = bad_modulus(p),
        [3] = bad_order(n),
        [4] = f_count > 4096,
        [5] = g_count > 4096,
        [6] = out_count != n,
        [7] = work_count < 128 * n + 8 * f_count,
        [8] = exceeds(p, f, f_count) || exceeds(p, g, g_count),
    };
    return first(plain_compose_tests, fires);
}

static int irreversible(size_t n, const uint32_t *g, size_t g_count)
{
    if (g_count > 0 && g[0] != 0)
        return 1;
    return n > 1 && (g_count < 2 || g[1] == 0);
}

uint32_t plain_reverse_number(uint32_t p, size_t n, const uint32_t *g, size_t g_count, size_t out_count, size_t work_count)
{
    const int fires[NUMBERS] = {
        [2] = bad_modulus(p),
        [3] = bad_order(n),
        [5] = g_count > 4096,
        [6] = out_count != n,
        [7] = work_count < 128 * n + 8 * g_count,
        [8] = exceeds(p, g, g_count),
        [9] = irreversible(n, g, g_count),
    };
    return first(plain_reverse_tests, fires);
}

uint32_t plain_open_number(uint32_t p, size_t n, size_t running_count)
{
    const int fires[NUMBERS] = {
        [2] = bad_modulus(p),
        [3] = bad_order(n),
        [6] = running_count != n,
    };
    return first(plain_open_tests, fires);
}

uint32_t plain_cycle_number(uint32_t route, size_t block, uint32_t p, size_t n, uint32_t done, const uint32_t *list,
                            size_t list_count, const uint32_t *running, size_t running_count, size_t work_count)
{
    const int fires[NUMBERS] = {
        [1] = bad_route(route),
        [15] = bad_block(route, block),
        [2] = bad_modulus(p),
        [3] = bad_order(n),
        [5] = list_count > 4096,
        [6] = running_count != n,
        [7] = work_count < 144 * n + 8 * list_count,
        [8] = exceeds(p, list, list_count) || exceeds(p, running, running_count),
        [10] = (list_count > 0 && list[0] != 0) || (running_count > 0 && running[0] != 0),
        [11] = done >= 64,
    };
    return first(plain_cycle_tests, fires);
}

uint32_t plain_prime_number(uint32_t index)
{
    const int fires[NUMBERS] = {[14] = index >= 16};
    return first(plain_prime_tests, fires);
}

uint32_t plain_render_number(uint32_t number, size_t n, size_t list_count, size_t bytes, size_t text_count)
{
    const int fires[NUMBERS] = {
        [3] = number == 0 && bad_order(n),
        [6] = number == 0 && list_count != n,
        [7] = text_count < bytes,
    };
    return first(plain_render_tests, fires);
}

static uint64_t rounded_up(uint64_t a, uint64_t b)
{
    return a / b + (a % b != 0);
}

static uint64_t smaller(uint64_t a, uint64_t b)
{
    return a < b ? a : b;
}

/* The products that form g^b: a squaring for each binary digit of b after the first, and one by g where that digit is 1. */
static uint64_t power_products(uint64_t b)
{
    uint64_t products = 0;
    for (; b > 1; b /= 2)
        products += 1 + b % 2;
    return products;
}

static uint64_t ranged_weight(uint64_t block, uint64_t n, uint64_t m)
{
    uint64_t blocks = rounded_up(m, block), products = m - blocks;
    if (blocks > 1)
        products += power_products(block);
    while (blocks > 1) {
        products += blocks / 2;
        blocks = rounded_up(blocks, 2);
        if (blocks > 1)
            products++;
    }
    return products * n;
}

static uint64_t bernstein_weight(uint64_t p, uint64_t n, uint64_t m)
{
    uint64_t parts = smaller(p, m), weight, j;
    if (m <= 1)
        return 0;
    weight = (parts - 1) * n;
    for (j = 0; j < parts; j++)
        weight += bernstein_weight(p, rounded_up(n, p), rounded_up(m - j, p));
    return weight;
}

static uint64_t kinoshita_li_weight(uint64_t n, uint64_t m)
{
    uint64_t q = smaller(1, m - 1), d = m - 1, weight = 0, next;
    for (; n > 1; n = rounded_up(n, 2)) {
        next = smaller(2 * q, m - 1);
        weight += n * (next + 1 + (m - d));
        d -= smaller(d, q);
        q = next;
    }
    return weight;
}

uint64_t plain_weight(uint32_t route, uint64_t block, uint64_t p, uint64_t n, uint64_t m)
{
    if (m == 0)
        return 0;
    switch (route) {
    case 1:
        return (m - 1) * n;
    case 2:
        return ranged_weight(block, n, m);
    case 3:
        return bernstein_weight(p, n, m);
    default:
        return kinoshita_li_weight(n, m);
    }
}
