/*
 * The header: every constant and macro at its edge, where a call that is made with it is accepted and a call one beyond is refused; and the
 * functions that the header itself defines.
 */
#include "cases.h"

#include <stdio.h>

#define COUNT(array) (sizeof(array) / sizeof *(array))

/* Calls that return what a constant names, and calls at a limit and one beyond. */
#define RETURNS(constant, ...) {#constant, constant, {__VA_ARGS__, ANY}}
#define LIMIT(number, constant, ...) {#constant, number, {__VA_ARGS__, ANY}}

static const struct {
    const char *name;
    uint32_t number;
    struct edge edge;
} calls[] = {
    RETURNS(RUHITAPO_ACCEPTED, COMPOSE, 1, 7, 4, 3, 3, 0, 0),
    RETURNS(RUHITAPO_BAD_ROUTE, COMPOSE, 5, 7, 4, 3, 3, 0, 0),
    RETURNS(RUHITAPO_BAD_MODULUS, COMPOSE, 1, 4, 4, 3, 3, 0, 0),
    RETURNS(RUHITAPO_BAD_ORDER, COMPOSE, 1, 7, 0, 3, 3, 0, 0),
    RETURNS(RUHITAPO_OUTER_LIST_TOO_LONG, COMPOSE, 1, 7, 4, 4097, 3, 0, 0),
    RETURNS(RUHITAPO_INNER_LIST_TOO_LONG, COMPOSE, 1, 7, 4, 3, 4097, 0, 0),
    RETURNS(RUHITAPO_NOT_N_PLACES, COMPOSE, 1, 7, 4, 3, 3, 1, 0),
    RETURNS(RUHITAPO_BUFFER_TOO_SHORT, COMPOSE, 1, 7, 4, 3, 3, 0, -1),
    {"RUHITAPO_COEFFICIENT_TOO_LARGE", RUHITAPO_COEFFICIENT_TOO_LARGE, {COMPOSE, 1, 7, 4, 3, 3, 0, 0, EQUAL}},
    RETURNS(RUHITAPO_NO_REVERSE_SERIES, REVERSE, 0, 7, 2, 0, 1, 0, 0),
    {"RUHITAPO_CONSTANT_TERM", RUHITAPO_CONSTANT_TERM, {CYCLE, 1, 7, 4, 3, 0, 0, 0, CONSTANT}},
    RETURNS(RUHITAPO_CHAIN_FULL, CYCLE, 1, 7, 4, 3, 64, 0, 0),
    RETURNS(RUHITAPO_BAD_INDEX, PRIME, 16, 0, 0, 0, 0, 0, 0),
    LIMIT(0, RUHITAPO_LARGEST_ORDER, COMPOSE, 1, 7, RUHITAPO_LARGEST_ORDER, 2, 3, 0, 0),
    LIMIT(3, RUHITAPO_LARGEST_ORDER, COMPOSE, 1, 7, RUHITAPO_LARGEST_ORDER + 1, 2, 3, 0, 0),
    LIMIT(0, RUHITAPO_LARGEST_ORDER, RENDER, 0, 0, RUHITAPO_LARGEST_ORDER, 0, RUHITAPO_LARGEST_ORDER, 0, 0),
    LIMIT(3, RUHITAPO_LARGEST_ORDER, RENDER, 0, 0, RUHITAPO_LARGEST_ORDER + 1, 0, RUHITAPO_LARGEST_ORDER + 1, 0, 0),
    LIMIT(0, RUHITAPO_LARGEST_ORDER, OPEN, 0, 7, RUHITAPO_LARGEST_ORDER, 0, 0, 0, 0),
    LIMIT(3, RUHITAPO_LARGEST_ORDER, OPEN, 0, 7, RUHITAPO_LARGEST_ORDER + 1, 0, 0, 0, 0),
    LIMIT(0, RUHITAPO_LONGEST_LIST, COMPOSE, 1, 7, 2, RUHITAPO_LONGEST_LIST, RUHITAPO_LONGEST_LIST, 0, 0),
    LIMIT(4, RUHITAPO_LONGEST_LIST, COMPOSE, 1, 7, 2, RUHITAPO_LONGEST_LIST + 1, RUHITAPO_LONGEST_LIST, 0, 0),
    LIMIT(5, RUHITAPO_LONGEST_LIST, COMPOSE, 1, 7, 2, RUHITAPO_LONGEST_LIST, RUHITAPO_LONGEST_LIST + 1, 0, 0),
    LIMIT(0, RUHITAPO_LONGEST_LIST, REVERSE, 0, 7, 2, 0, RUHITAPO_LONGEST_LIST, 0, 0),
    LIMIT(5, RUHITAPO_LONGEST_LIST, REVERSE, 0, 7, 2, 0, RUHITAPO_LONGEST_LIST + 1, 0, 0),
    LIMIT(0, RUHITAPO_LONGEST_LIST, CYCLE, 1, 7, 2, RUHITAPO_LONGEST_LIST, 0, 0, 0),
    LIMIT(5, RUHITAPO_LONGEST_LIST, CYCLE, 1, 7, 2, RUHITAPO_LONGEST_LIST + 1, 0, 0, 0),
    LIMIT(0, RUHITAPO_MOST_CYCLES, CYCLE, 1, 7, 4, 3, RUHITAPO_MOST_CYCLES - 1, 0, 0),
    LIMIT(11, RUHITAPO_MOST_CYCLES, CYCLE, 1, 7, 4, 3, RUHITAPO_MOST_CYCLES, 0, 0),
    LIMIT(0, RUHITAPO_PRIMES, PRIME, RUHITAPO_PRIMES - 1, 0, 0, 0, 0, 0, 0),
    LIMIT(14, RUHITAPO_PRIMES, PRIME, RUHITAPO_PRIMES, 0, 0, 0, 0, 0, 0),
};

/* What the call of an edge returns. */
static struct returned at(const struct edge *edge)
{
    static struct call call;
    edge_call(&call, edge);
    return call_make(&call);
}

static void make_calls(void)
{
    size_t i;
    for (i = 0; i < COUNT(calls); i++)
        call_compare(calls[i].name, calls[i].number, at(&calls[i].edge).number);
}

/* Every call takes the last prime up to the largest modulus, and none takes a number after it. */
static void compare_largest_modulus(void)
{
    struct edge edges[] = {
        {COMPOSE, 1, 0, 4, 3, 3, 0, 0, ANY},
        {REVERSE, 0, 0, 4, 0, 3, 0, 0, ANY},
        {OPEN, 0, 0, 4, 0, 0, 0, 0, ANY},
        {CYCLE, 1, 0, 4, 3, 0, 0, 0, ANY},
    };
    uint64_t p = (uint64_t)RUHITAPO_LARGEST_MODULUS + 1;
    size_t i;
    do {
        p--;
        for (i = 0; i < COUNT(edges); i++) {
            edges[i].p = (uint32_t)p;
            call_compare("RUHITAPO_LARGEST_MODULUS", plain_is_prime(p) ? 0 : 2, at(edges + i).number);
        }
    } while (!plain_is_prime(p));
    call_compare("the last prime up to RUHITAPO_LARGEST_MODULUS", 4294967291u, p);
}

/* Each route weighs what its rule says, and no two weigh the same. */
static void compare_routes(void)
{
    static const uint32_t routes[] = {RUHITAPO_HORNER, RUHITAPO_RANGED, RUHITAPO_BERNSTEIN, RUHITAPO_KINOSHITA_LI};
    static const char *names[] = {"RUHITAPO_HORNER", "RUHITAPO_RANGED", "RUHITAPO_BERNSTEIN", "RUHITAPO_KINOSHITA_LI"};
    uint32_t i, j;
    for (i = 0; i < COUNT(routes); i++) {
        struct edge edge = {COMPOSE, routes[i], 7, 8, 12, 8, 0, 0, ANY};
        call_compare(names[i], plain_weight(i + 1, PLAIN_BLOCK, 7, 8, 12), at(&edge).beside);
        for (j = 0; j < i; j++)
            call_compare("weights that differ", 1,
                         plain_weight(i + 1, PLAIN_BLOCK, 7, 8, 12) != plain_weight(j + 1, PLAIN_BLOCK, 7, 8, 12));
    }
}

/* Route 2 takes the shortest block and the longest, and none beyond; a call that is given no length weighs as with the header's. Lengths
   one off weigh otherwise, 13 places being cut. */
static void compare_blocks(void)
{
    static const struct {
        const char *name;
        uint32_t number;
        size_t block;
    } lengths[] = {
        {"RUHITAPO_BAD_BLOCK_LENGTH", RUHITAPO_BAD_BLOCK_LENGTH, 0},
        {"RUHITAPO_SHORTEST_BLOCK", 15, RUHITAPO_SHORTEST_BLOCK - 1},
        {"RUHITAPO_SHORTEST_BLOCK", 0, RUHITAPO_SHORTEST_BLOCK},
        {"RUHITAPO_LONGEST_BLOCK", 0, RUHITAPO_LONGEST_BLOCK},
        {"RUHITAPO_LONGEST_BLOCK", 15, RUHITAPO_LONGEST_BLOCK + 1},
    };
    static const struct edge edges[] = {{COMPOSE, 2, 7, 8, 13, 8, 0, 0, ANY}, {CYCLE, 2, 7, 13, 8, 0, 0, 0, ANY}};
    size_t i, j;
    for (i = 0; i < COUNT(edges); i++) {
        uint64_t weight = at(edges + i).beside;
        for (j = 0; j < COUNT(lengths); j++)
            call_compare(lengths[j].name, lengths[j].number, blocks_at(edges + i, lengths[j].block, 0).number);
        call_compare("RUHITAPO_BLOCK_LENGTH", weight, blocks_at(edges + i, RUHITAPO_BLOCK_LENGTH, 0).beside);
        for (j = RUHITAPO_BLOCK_LENGTH - 1; j <= RUHITAPO_BLOCK_LENGTH + 1; j += 2)
            call_compare("weights that differ", 1, blocks_at(edges + i, j, 0).beside != weight);
    }
}

/* Work of just so many places is enough, and one less is not. */
static void compare_places(const char *name, const struct edge *edge, size_t places)
{
    static struct call call;
    size_t less;
    for (less = 0; less < 2; less++) {
        edge_call(&call, edge);
        call.work_count = places - less;
        call_compare(name, less == 0 ? 0 : 7, call_make(&call).number);
    }
}

static void compare_work_places(void)
{
    static const struct {
        size_t n, m;
    } sizes[] = {{1, 2}, {2, 2}, {2, 3}, {9, 17}, {500, 3}, {3, 4096}};
    size_t i;
    for (i = 0; i < COUNT(sizes); i++) {
        size_t n = sizes[i].n, m = sizes[i].m;
        const struct edge compose = {COMPOSE, 1, 7, n, m, 1, 0, 0, ANY}, reverse = {REVERSE, 0, 7, n, 0, m, 0, 0, ANY};
        const struct edge cycle = {CYCLE, 1, 7, n, m, 0, 0, 0, ANY};
        compare_places("RUHITAPO_WORK_PLACES", &compose, RUHITAPO_WORK_PLACES(n, m));
        compare_places("RUHITAPO_WORK_PLACES", &reverse, RUHITAPO_WORK_PLACES(n, m));
        compare_places("RUHITAPO_CYCLE_WORK_PLACES", &cycle, RUHITAPO_CYCLE_WORK_PLACES(n, m));
    }
}

/* The header's own functions pass every number and list on and hand back what comes: cycles by them, at both sides of every test, without
   a block length or with each of these. */
static void compare_cycles(const char *what, int block_given)
{
    static const size_t blocks[] = {0, 1, 2, 3, 4, 64, 65, (size_t)UINT32_MAX + 5, SIZE_MAX};
    static const struct edge edges[] = {
        {CYCLE, 0, 7, 4, 3, 0, 0, 0, ANY},   {CYCLE, 1, 7, 4, 3, 0, 0, 0, ANY},    {CYCLE, 2, 11, 9, 12, 5, 0, 0, ANY},
        {CYCLE, 3, 5, 9, 12, 63, 0, 0, ANY}, {CYCLE, 4, 13, 9, 12, 62, 0, 0, ANY}, {CYCLE, 1, 9, 4, 3, 7, 0, 0, ANY},
        {CYCLE, 1, 7, 0, 3, 0, 0, 0, ANY},   {CYCLE, 1, 7, 2, 4097, 0, 0, 0, ANY}, {CYCLE, 1, 7, 4, 3, 0, 1, 0, ANY},
        {CYCLE, 1, 7, 4, 3, 0, 0, -1, ANY},  {CYCLE, 1, 7, 4, 3, 0, 0, 0, EQUAL},  {CYCLE, 1, 7, 4, 3, 0, 0, 0, CONSTANT},
        {CYCLE, 1, 7, 4, 3, 64, 0, 0, ANY},  {CYCLE, 1, 7, 4, 3, 0, 0, 5, ANY},    {CYCLE, 4, 4294967291, 3, 2, 1, 0, 0, ANY},
    };
    static struct call call;
    uint64_t before = tally.differences;
    size_t i, lengths = block_given ? COUNT(blocks) : 1;
    for (i = 0; i < lengths * COUNT(edges) && tally.differences == before; i++) {
        edge_call(&call, edges + i / lengths);
        call.block_given = block_given;
        call.block = blocks[i % lengths];
        call.cycle = ruhitapo_cycle;
        call.cycle_blocks = ruhitapo_cycle_blocks;
        call_make(&call);
    }
    call_compare(what, 0, tally.differences - before);
}

/* What rendering returns for the longest text of order n, or for a refusal, into so many bytes. */
static struct returned rendered(uint32_t number, size_t n, size_t text_count)
{
    static struct call call;
    struct edge edge = {RENDER, number, 0, n, 0, n, 0, 0, BELOW};
    edge_call(&call, &edge);
    call.text_count = text_count;
    return call_make(&call);
}

/* The bytes hold the longest text, and the longest order is four digits long: a shorter one leaves as many bytes. They hold every refusal. */
static void compare_text_bytes(void)
{
    static const size_t orders[] = {1, 9, 10, 99, 100, 999, 1000, 4096};
    static const uint32_t numbers[] = {1, 9, 10, 20, 999999999, 1000000000, UINT32_MAX};
    size_t i;
    for (i = 0; i < COUNT(orders); i++) {
        size_t n = orders[i], digits = (size_t)snprintf(NULL, 0, "%zu", n);
        struct returned returned = rendered(0, n, RUHITAPO_TEXT_BYTES(n));
        call_compare("RUHITAPO_TEXT_BYTES", 0, returned.number);
        call_compare("RUHITAPO_TEXT_BYTES", RUHITAPO_TEXT_BYTES(n), returned.beside + 4 - digits);
    }
    for (i = 0; i < 2 * COUNT(numbers); i++)
        call_compare("RUHITAPO_TEXT_BYTES", 0, rendered(numbers[i / 2], i % 2, RUHITAPO_TEXT_BYTES(i % 2)).number);
    call_compare("RUHITAPO_MOST_TEXT_BYTES", 0, rendered(0, 4096, RUHITAPO_MOST_TEXT_BYTES).number);
    call_compare("RUHITAPO_MOST_TEXT_BYTES", 7, rendered(0, 4096, RUHITAPO_MOST_TEXT_BYTES - 1).number);
}

void header_make(void)
{
    declared_compare();
    /* a chain passes by value where both sides lay it out alike */
    if (tally.differences == 0) {
        compare_cycles("ruhitapo_cycle: differences of a call", 0);
        compare_cycles("ruhitapo_cycle_blocks: differences of a call", 1);
    }
    make_calls();
    compare_largest_modulus();
    compare_routes();
    compare_blocks();
    compare_work_places();
    compare_text_bytes();
}
