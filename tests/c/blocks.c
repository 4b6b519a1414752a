/* The block length: at both sides of its edges by every route, alone and beside every other reason to refuse, and every one that route 2
   takes, with lists of one block and of several. */
#include "cases.h"
#include "random.h"

#define COUNT(array) (sizeof(array) / sizeof *(array))

static const size_t taken[] = {1, 2, 3, 4, 5, 7, 63, 64};
/* 2^32 + 4 among them, which 32 bits would make a 4 */
static const size_t refused[] = {0, 65, UINT32_MAX, (size_t)UINT32_MAX + 5, SIZE_MAX};

size_t random_refused_block(void)
{
    return refused[random_below(COUNT(refused))];
}

size_t random_block(uint32_t route)
{
    if (route != 2 && random_below(2) == 0)
        return random_refused_block();
    return random_below(2) == 0 ? 1 + random_below(64) : taken[random_below(COUNT(taken))];
}

struct returned blocks_at(const struct edge *edge, size_t block, int by_the_header)
{
    static struct call call;
    edge_call(&call, edge);
    call.block_given = 1;
    call.block = block;
    call.cycle_blocks = by_the_header ? ruhitapo_cycle_blocks : NULL;
    call.sides = by_the_header ? 31 : 0;
    return call_make(&call);
}

/* Accepted with a route and a length that are taken; then each other reason by itself, and several at once. The route is put in. */
static const struct edge reasons[] = {
    {COMPOSE, 0, 7, 4, 9, 3, 0, 0, ANY},    {COMPOSE, 0, 9, 4, 9, 3, 0, 0, ANY},     {COMPOSE, 0, 7, 0, 9, 3, 0, 0, ANY},
    {COMPOSE, 0, 7, 4097, 9, 3, 0, 0, ANY}, {COMPOSE, 0, 7, 4, 4097, 3, 0, 0, ANY},  {COMPOSE, 0, 7, 4, 9, 4097, 0, 0, ANY},
    {COMPOSE, 0, 7, 4, 9, 3, 1, 0, ANY},    {COMPOSE, 0, 7, 4, 9, 3, 0, -1, ANY},    {COMPOSE, 0, 7, 4, 9, 3, 0, 0, EQUAL},
    {COMPOSE, 0, 7, 4, 0, 3, 0, 0, ANY},    {COMPOSE, 0, 9, 0, 4097, 4097, 1, -1, EQUAL},
    {CYCLE, 0, 7, 4, 9, 0, 0, 0, ANY},      {CYCLE, 0, 9, 4, 9, 0, 0, 0, ANY},       {CYCLE, 0, 7, 0, 9, 0, 0, 0, ANY},
    {CYCLE, 0, 7, 4097, 9, 0, 0, 0, ANY},   {CYCLE, 0, 7, 4, 4097, 0, 0, 0, ANY},    {CYCLE, 0, 7, 4, 9, 0, 1, 0, ANY},
    {CYCLE, 0, 7, 4, 9, 0, 0, -1, ANY},     {CYCLE, 0, 7, 4, 9, 0, 0, 0, EQUAL},     {CYCLE, 0, 7, 4, 9, 0, 0, 0, CONSTANT},
    {CYCLE, 0, 7, 4, 9, 64, 0, 0, ANY},     {CYCLE, 0, 7, 4, 0, 0, 0, 0, ANY},       {CYCLE, 0, 9, 0, 4097, 64, 1, -1, EQUAL},
    {CYCLE, 0, 7, 4, 9, 64, 0, 0, CONSTANT},
};

/* Each of these by every route, 0 and 5 too, with every length at an edge. */
static void make_reasons(void)
{
    struct edge edge;
    uint32_t route;
    size_t i, j;
    for (i = 0; i < COUNT(reasons); i++)
        for (route = 0; route <= 5; route++) {
            edge = reasons[i];
            edge.route = route;
            for (j = 0; j < COUNT(taken); j++)
                blocks_at(&edge, taken[j], (i + j) % 2 == 0);
            for (j = 0; j < COUNT(refused); j++)
                call_compare("15 is returned", route == 2, blocks_at(&edge, refused[j], (i + j) % 2 == 0).number == 15);
        }
}

/* Every length that route 2 takes, with outer lists that fill no block, blocks wholly, or blocks but for one place: that of a cycle, its running
   series, has as many places as the order. */
static void make_lengths(void)
{
    size_t block, i;
    for (block = 1; block <= 64; block++) {
        const size_t counts[] = {0, 1, block - 1, block, block + 1, 2 * block - 1, 2 * block, 2 * block + 1, 5 * block + 1, 200};
        for (i = 0; i < 2 * COUNT(counts); i++) {
            const struct edge compose = {COMPOSE, 2, 4294967291u, 5, counts[i / 2], 5, 0, 0, ANY};
            const struct edge cycle = {CYCLE, 2, 4294967291u, counts[i / 2], 5, 5, 0, 0, ANY};
            blocks_at(i % 2 == 0 ? &compose : &cycle, block, i % 4 == 1);
        }
    }
}

/* The products of nine outer places, at every length that route 2 takes: a settled case at order 4, not computed here. A cycle has them at
   order 9. */
static void compare_nine_places(void)
{
    static const struct edge edges[] = {{COMPOSE, 2, 7, 4, 9, 3, 0, 0, ANY}, {CYCLE, 2, 7, 9, 3, 0, 0, 0, ANY}};
    size_t block, i;
    for (block = 1; block <= 64; block++)
        for (i = 0; i < COUNT(edges); i++)
            call_compare("weight of nine places", edges[i].n * (block == 7 ? 12 : block <= 8 ? 11 : 8),
                         blocks_at(edges + i, block, 0).beside);
}

void blocks_make(void)
{
    make_reasons();
    make_lengths();
    compare_nine_places();
}
