/* Whole chains: opened, and cycled until they are full and a few times more; and a case that is settled. */
#include "cases.h"
#include "random.h"

#include <stdlib.h>
#include <string.h>

#define MOST_CYCLES 64

/* The lists of the cycles that a chain accepted, in their order. */
static struct {
    uint32_t list[MOST_PLACES];
    size_t count;
} accepted[MOST_CYCLES];

/* A cycle of this chain with a random list, up to a few places longer than the order and empty in the last cycle, and, in every second, a block
   length; in every fifth something is refused: the constant term, a coefficient, the work, the route, the block length of route 2. The list has
   a linear coefficient, so that the series does not vanish before. */
static void next_cycle(struct call *c, struct chain chain)
{
    uint64_t damage = random_below(25);
    c->kind = CYCLE;
    c->p = chain.modulus;
    c->n = c->out_count = c->g_count = chain.order;
    c->done = chain.done;
    c->route = damage == 0 ? 5 : damage == 4 ? 2 : 1 + (uint32_t)random_below(4);
    c->block_given = damage == 4 || random_below(2) == 0;
    c->block = damage == 4 ? random_refused_block() : random_block(c->route);
    c->f_count = chain.done == MOST_CYCLES - 1 ? 0 : 2 + random_below(chain.order + 2);
    random_list(c->p, c->f, c->f_count);
    c->f[0] = damage == 1;
    c->f[1] = 1 + (uint32_t)random_below(c->p - 1);
    if (damage == 2 && c->f_count > 0)
        c->f[c->f_count - 1] = c->p;
    c->work_count = call_work_places(CYCLE, c->n, c->f_count, c->g_count) + random_below(3) - (damage == 3);
    c->sides = (unsigned)random_below(32);
    c->cycle = random_below(4) == 0 ? NULL : ruhitapo_cycle;
    c->cycle_blocks = random_below(4) == 0 ? NULL : ruhitapo_cycle_blocks;
}

/* A chain that is opened: its running series, x, stands in g. */
static struct returned opened(struct call *call, uint32_t p, size_t n)
{
    const struct edge opening = {OPEN, 0, p, n, 0, 0, 0, 0, ANY};
    struct returned left;
    edge_call(call, &opening);
    left = call_make(call);
    memset(call->g, 0, sizeof call->g);
    if (n > 1)
        call->g[1] = 1;
    return left;
}

/* Makes the cycle; if it is accepted, the next running series stands in g, and its list is kept. */
static struct returned cycled(struct call *call)
{
    struct returned left = call_make(call);
    if (left.number == 0) {
        uint32_t *next = plain_memory(call->n * sizeof *next);
        plain_compose(call->p, call->n, call->g, call->n, call->f, call->f_count, next);
        memcpy(call->g, next, call->n * sizeof *next);
        memcpy(accepted[call->done].list, call->f, call->f_count * sizeof *call->f);
        accepted[call->done].count = call->f_count;
        free(next);
    }
    return left;
}

/* The running series is the composition of the cycles, the earliest outermost: here from the last one, innermost, outwards. */
static void compare_composition(const struct call *call, size_t cycles)
{
    size_t n = call->n, k, last = accepted[cycles - 1].count;
    uint32_t *inner = plain_memory(n * sizeof *inner), *value = plain_memory(n * sizeof *value);
    for (k = 0; k < n; k++)
        value[k] = k == 1;
    while (cycles-- > 0) {
        memcpy(inner, value, n * sizeof *value);
        plain_compose(call->p, n, accepted[cycles].list, accepted[cycles].count, inner, n, value);
    }
    for (k = 0; k < n; k++)
        call_compare("composition of all cycles", value[k], call->g[k]);
    call_compare("linear coefficient, but for the empty list and at order 1", 1, last == 0 || n == 1 || value[1] != 0);
    free(inner);
    free(value);
}

/* Opened after a refused opening, and cycled until 11 came back a few times; compared before the empty list of the last cycle, and after it. */
static void fill(uint32_t p, size_t n)
{
    static struct call call;
    const struct edge refused = {OPEN, 0, p, n, 0, 0, 1, 0, ANY};
    struct returned left;
    int full = 0;
    edge_call(&call, &refused);
    call_make(&call);
    left = opened(&call, p, n);
    while (left.number != 2 && full < 3) {
        next_cycle(&call, left.chain);
        left = cycled(&call);
        if (left.number == 0 && left.chain.done >= MOST_CYCLES - 1)
            compare_composition(&call, left.chain.done);
        full += left.number == 11;
    }
    call_compare("cycles of a full chain", MOST_CYCLES, left.chain.done);
}

/* The case of request N3: what two cycles leave, and what each weighs by each route; settled, not computed here. */
static void settled(void)
{
    static const uint32_t lists[2][3] = {{0, 1, 1}, {0, 1, 2}}, left_after[2][5] = {{0, 1, 1, 0, 0}, {0, 1, 3, 4, 4}};
    static const uint64_t weights[] = {20, 30, 20, 59};
    static struct call call;
    uint32_t route, i, k;
    for (route = 1; route <= 4; route++) {
        struct returned left = opened(&call, 7, 5);
        for (i = 0; i < 2; i++) {
            next_cycle(&call, left.chain);
            call.route = route;
            call.block_given = 0;
            call.f_count = 3;
            memcpy(call.f, lists[i], sizeof lists[i]);
            call.work_count = call_work_places(CYCLE, 5, 3, 5);
            left = cycled(&call);
            call_compare("weight of the settled case", weights[route - 1], left.beside);
            for (k = 0; k < 5; k++)
                call_compare("running series of the settled case", left_after[i][k], call.g[k]);
        }
    }
}

void chains_make(void)
{
    settled();
    fill(2, 1);
    fill(2, 9);
    fill(7, 1);
    fill(7, 12);
    fill(2147483647u, 33);
    fill(2147483659u, 33);
    fill(4294967279u, 20);
    fill(4294967291u, 33);
}
