/* The edges of every test: each row is a call at one side of an edge. */
#include "cases.h"
#include "random.h"

#include <string.h>

/* the largest prime that is a modulus */
#define LARGEST 4294967291u

static const struct edge edges[] = {
    {COMPOSE, 0, 7, 4, 3, 3, 0, 0, ANY}, {COMPOSE, 5, 7, 4, 3, 3, 0, 0, ANY},
    {COMPOSE, 1, 7, 0, 3, 3, 0, 0, ANY}, {COMPOSE, 1, 7, 1, 3, 3, 0, 0, ANY}, {COMPOSE, 4, 7, 1, 1, 0, 0, 0, ANY},
    {COMPOSE, 1, LARGEST, 4096, 2, 4096, 0, 0, ANY}, {COMPOSE, 2, LARGEST, 4096, 3, 3, 0, 0, ANY},
    {COMPOSE, 3, 2, 4096, 3, 4096, 0, 0, ANY}, {COMPOSE, 4, LARGEST, 4096, 2, 2, 0, 0, ANY},
    {COMPOSE, 3, LARGEST, 64, 64, 64, 0, 0, BELOW}, {COMPOSE, 4, 4294967279u, 64, 64, 64, 0, 0, BELOW},
    {COMPOSE, 1, 2147483647u, 4, 3, 3, 0, 0, ANY}, {COMPOSE, 1, 2147483648u, 4, 3, 3, 0, 0, ANY},
    {COMPOSE, 2, 2147483659u, 4, 3, 3, 0, 0, BELOW}, {COMPOSE, 2, 2147483659u, 4, 3, 3, 0, 0, EQUAL},
    {COMPOSE, 1, LARGEST - 2, 4, 3, 3, 0, 0, ANY}, {COMPOSE, 1, LARGEST - 1, 4, 3, 3, 0, 0, ANY},
    {COMPOSE, 1, LARGEST, 4, 3, 3, 0, 0, BELOW}, {COMPOSE, 1, LARGEST, 4, 3, 3, 0, 0, EQUAL},
    {COMPOSE, 1, LARGEST + 1, 4, 3, 3, 0, 0, ANY}, {COMPOSE, 1, LARGEST + 2, 4, 3, 3, 0, 0, ANY},
    {COMPOSE, 1, LARGEST + 3, 4, 3, 3, 0, 0, ANY}, {COMPOSE, 1, LARGEST + 4, 4, 3, 3, 0, 0, ANY},
    {COMPOSE, 1, 7, 4097, 1, 1, 0, 0, ANY}, {COMPOSE, 4, 7, 4097, 1, 1, 0, 0, ANY},
    {COMPOSE, 1, LARGEST, 3, 4096, 5, 0, 0, ANY}, {COMPOSE, 2, LARGEST, 3, 4096, 5, 0, 0, ANY},
    {COMPOSE, 3, 3, 3, 4096, 5, 0, 0, ANY}, {COMPOSE, 4, LARGEST, 3, 4096, 5, 0, 0, ANY},
    {COMPOSE, 1, 7, 3, 4097, 5, 0, 0, ANY}, {COMPOSE, 4, 7, 3, 4097, 4097, -1, -1, EQUAL},
    {COMPOSE, 1, 7, 3, 5, 4096, 0, 0, ANY}, {COMPOSE, 4, 7, 3, 5, 4096, 0, 0, ANY}, {COMPOSE, 1, 7, 3, 5, 4097, 0, 0, ANY},
    {COMPOSE, 1, 7, 4, 0, 3, 0, 0, ANY}, {COMPOSE, 2, 7, 4, 0, 0, 0, 0, ANY}, {COMPOSE, 3, 7, 4, 0, 3, 0, 0, ANY},
    {COMPOSE, 4, 7, 4, 0, 3, 0, 0, ANY}, {COMPOSE, 4, 7, 4, 0, 3, 0, -1, ANY},
    {COMPOSE, 1, 7, 4, 3, 3, 1, 0, ANY}, {COMPOSE, 1, 7, 4, 3, 3, -1, 0, ANY}, {COMPOSE, 1, 7, 1, 3, 3, -1, 0, ANY},
    {COMPOSE, 1, 7, 4, 3, 3, 0, -1, ANY}, {COMPOSE, 4, 7, 4, 3, 3, 0, -1, EQUAL}, {COMPOSE, 2, 7, 4096, 1, 3, 0, -1, ANY},
    {COMPOSE, 1, 7, 4, 3, 3, 0, 0, BELOW}, {COMPOSE, 1, 7, 4, 3, 3, 0, 0, EQUAL},
    {COMPOSE, 3, 7, 4, 0, 30, 0, 0, BELOW}, {COMPOSE, 3, 7, 4, 0, 30, 0, 0, EQUAL},
    {REVERSE, 0, 7, 0, 0, 3, 0, 0, ANY}, {REVERSE, 0, 7, 1, 0, 0, 0, 0, ANY}, {REVERSE, 0, 7, 1, 0, 1, 0, 0, ANY},
    {REVERSE, 0, 7, 2, 0, 0, 0, 0, ANY}, {REVERSE, 0, 7, 2, 0, 1, 0, 0, ANY}, {REVERSE, 0, 2, 2, 0, 2, 0, 0, ANY},
    {REVERSE, 0, LARGEST, 4096, 0, 2, 0, 0, ANY}, {REVERSE, 0, 7, 4097, 0, 2, 0, 0, ANY},
    {REVERSE, 0, LARGEST, 64, 0, 64, 0, 0, BELOW}, {REVERSE, 0, LARGEST + 2, 4, 0, 3, 0, 0, ANY}, {REVERSE, 0, LARGEST + 4, 4, 0, 3, 0, 0, ANY},
    {REVERSE, 0, 7, 5, 0, 4096, 0, 0, ANY}, {REVERSE, 0, 7, 5, 0, 4097, 0, 0, ANY},
    {REVERSE, 0, 7, 5, 0, 4, 1, 0, ANY}, {REVERSE, 0, 7, 5, 0, 4, -1, 0, ANY}, {REVERSE, 0, 7, 5, 0, 4, 0, -1, ANY},
    {REVERSE, 0, 7, 5, 0, 4, 0, 0, BELOW}, {REVERSE, 0, 7, 5, 0, 4, 0, 0, EQUAL}, {REVERSE, 0, 4, 5, 0, 4, 0, 0, ANY},
    {OPEN, 0, 7, 0, 0, 0, 0, 0, ANY}, {OPEN, 0, 7, 1, 0, 0, 0, 0, ANY}, {OPEN, 0, 7, 2, 0, 0, 0, 0, ANY},
    {OPEN, 0, LARGEST, 4096, 0, 0, 0, 0, ANY}, {OPEN, 0, 7, 4097, 0, 0, 0, 0, ANY}, {OPEN, 0, 7, 4, 0, 0, 1, 0, ANY},
    {OPEN, 0, 7, 4, 0, 0, -1, 0, ANY}, {OPEN, 0, 1, 4, 0, 0, 0, 0, ANY}, {OPEN, 0, 2, 4, 0, 0, 0, 0, ANY},
    {OPEN, 0, LARGEST + 1, 4, 0, 0, 0, 0, ANY}, {OPEN, 0, LARGEST + 4, 4, 0, 0, 0, 0, ANY}, {OPEN, 0, 4, 0, 0, 0, 1, 0, ANY}, {OPEN, 0, 7, 0, 0, 0, 1, 0, ANY},
    {CYCLE, 0, 7, 4, 3, 0, 0, 0, ANY}, {CYCLE, 1, 7, 4, 3, 0, 0, 0, ANY}, {CYCLE, 2, 7, 4, 3, 0, 0, 0, ANY},
    {CYCLE, 3, 7, 4, 3, 0, 0, 0, ANY}, {CYCLE, 4, 7, 4, 3, 0, 0, 0, ANY}, {CYCLE, 5, 7, 4, 3, 0, 0, 0, ANY},
    {CYCLE, 1, 0, 0, 3, 0, 0, 0, ANY}, {CYCLE, 1, 1, 4, 3, 0, 0, 0, ANY}, {CYCLE, 1, 2, 4, 3, 0, 0, 0, ANY}, {CYCLE, 1, LARGEST, 4, 3, 0, 0, 0, ANY},
    {CYCLE, 1, LARGEST + 1, 4, 3, 0, 0, 0, ANY}, {CYCLE, 1, LARGEST + 4, 4, 3, 0, 0, 0, ANY}, {CYCLE, 1, 7, 0, 3, 0, 0, 0, ANY}, {CYCLE, 1, 7, 1, 3, 0, 0, 0, ANY},
    {CYCLE, 4, LARGEST, 4096, 3, 0, 0, 0, ANY}, {CYCLE, 1, 7, 4097, 3, 0, 0, 0, ANY}, {CYCLE, 1, 7, 3, 0, 0, 0, 0, ANY},
    {CYCLE, 1, 7, 3, 4096, 0, 0, 0, ANY}, {CYCLE, 2, LARGEST, 3, 4096, 0, 0, 0, ANY}, {CYCLE, 1, 7, 3, 4097, 0, 0, 0, ANY},
    {CYCLE, 1, 7, 4, 3, 0, 1, 0, ANY}, {CYCLE, 1, 7, 4, 3, 0, -1, 0, ANY}, {CYCLE, 1, 7, 4, 3, 0, 0, 1, ANY},
    {CYCLE, 1, 7, 4, 3, 0, 0, -1, ANY}, {CYCLE, 4, 7, 4, 0, 0, 0, -1, ANY}, {CYCLE, 1, 7, 4, 3, 0, 0, 0, BELOW},
    {CYCLE, 1, 7, 4, 3, 0, 0, 0, EQUAL}, {CYCLE, 1, 7, 4, 0, 0, 0, 0, BELOW}, {CYCLE, 1, 7, 4, 0, 0, 0, 0, EQUAL},
    {CYCLE, 1, 7, 4, 3, 0, 0, 0, CONSTANT}, {CYCLE, 1, 7, 4, 0, 0, 0, 0, CONSTANT}, {CYCLE, 1, 7, 4, 3, 63, 0, 0, ANY},
    {CYCLE, 1, 7, 4, 3, 64, 0, 0, ANY}, {CYCLE, 1, 7, 4, 3, 65, 0, 0, ANY}, {CYCLE, 4, 7, 4, 3, UINT32_MAX, 0, 0, ANY},
    {CYCLE, 0, 4, 0, 4097, 64, 1, -1, EQUAL}, {CYCLE, 1, 7, 4, 3, 64, 0, 0, CONSTANT}, {CYCLE, 1, 7, 4, 3, 64, 0, -1, EQUAL},
    {PRIME, 0, 0, 0, 0, 0, 0, 0, ANY}, {PRIME, 15, 0, 0, 0, 0, 0, 0, ANY}, {PRIME, 16, 0, 0, 0, 0, 0, 0, ANY},
    {RENDER, 0, 0, 0, 0, 0, 0, 0, ANY}, {RENDER, 0, 0, 1, 0, 1, 0, 0, ANY}, {RENDER, 0, 0, 1, 0, 1, 0, -1, ANY},
    {RENDER, 0, 0, 4096, 0, 4096, 0, 0, ANY}, {RENDER, 0, 0, 4096, 0, 4096, 0, -1, ANY},
    {RENDER, 0, 0, 4096, 0, 4096, 0, 0, BELOW}, {RENDER, 0, 0, 4096, 0, 4096, 0, -1, BELOW},
    {RENDER, 0, 0, 4097, 0, 4097, 0, 0, ANY}, {RENDER, 0, 0, 4, 0, 3, 0, 0, ANY}, {RENDER, 0, 0, 4, 0, 5, 0, 0, ANY},
    {RENDER, 1, 0, 0, 0, 0, 0, 0, ANY}, {RENDER, 1, 0, 4097, 0, 3, 0, 0, ANY}, {RENDER, 4294967295u, 0, 4, 0, 3, 0, 0, ANY},
    {RENDER, 4294967295u, 0, 4, 0, 3, 0, -1, ANY}, {RENDER, 10, 0, 0, 0, 0, 0, 1, ANY},
};

/* The lists of a composition, a reversion or a cycle. */
static void fill_lists(struct call *c, enum last last)
{
    uint32_t *list = c->f_count > 0 ? c->f : c->g;
    size_t count = c->f_count > 0 ? c->f_count : c->g_count;
    random_list(c->p > 0 ? c->p : 1, c->f, MOST_PLACES);
    random_list(c->p > 0 ? c->p : 1, c->g, MOST_PLACES);
    if (c->kind == REVERSE) {
        c->g[0] = 0;
        c->g[1] = 1;
    }
    if (c->kind == CYCLE)
        c->f[0] = c->g[0] = 0;
    if (last == CONSTANT)
        list[0] = 1;
    else if (last != ANY)
        list[count > 0 ? count - 1 : 0] = last == EQUAL ? c->p : c->p - 1;
}

/* A row for rendering; BELOW asks for the longest text. */
static void fill_rendering(struct call *c, const struct edge *e)
{
    c->number = e->route;
    c->weight = e->last == BELOW ? UINT64_MAX : random_word();
    random_list(UINT32_MAX, c->g, MOST_PLACES);
    if (e->last == BELOW)
        memset(c->g, 255, sizeof c->g);
    c->text_count = call_text_bytes(c) + (size_t)e->work_more;
}

void edge_call(struct call *c, const struct edge *e)
{
    memset(c, 0, sizeof *c);
    c->kind = e->kind;
    c->route = c->index = e->route;
    c->p = e->p;
    c->n = e->n;
    c->f_count = e->f_count;
    c->g_count = e->g_count;
    c->out_count = (e->n <= 4096 ? e->n : 4097) + (size_t)e->out_more;
    if (e->kind == CYCLE) {
        c->done = (uint32_t)e->g_count;
        c->g_count = c->out_count;
    }
    c->work_count = call_work_places(c->kind, e->n <= 4096 ? e->n : 1, c->f_count, c->g_count) + (size_t)e->work_more;
    if (e->kind == RENDER)
        fill_rendering(c, e);
    else if (e->kind == COMPOSE || e->kind == REVERSE || e->kind == CYCLE)
        fill_lists(c, e->last);
}

void edges_make(void)
{
    static struct call call;
    size_t i;
    for (i = 0; i < 2 * sizeof edges / sizeof *edges; i++) {
        edge_call(&call, edges + i / 2);
        call.sides = i % 2 == 0 ? 31 : 0;
        call.cycle = i % 2 == 0 ? ruhitapo_cycle : NULL;
        call_make(&call);
    }
}
