/* Random calls. Each begins as a valid call; half of them are then damaged. */
#include "cases.h"
#include "plain.h"
#include "random.h"

static const uint32_t small_primes[] = {2, 2, 3, 3, 5, 7, 7, 11, 13, 31, 97, 65537};
/* the first above 2^31, and the last two below 2^32 */
static const uint32_t large_primes[] = {2147483659u, 4294967279u, 4294967291u};
/* 46337^2 and 65521^2 among them */
static const uint32_t bad_moduli[] = {0, 1, 4, 9, 6, 65536, 2147117569u, 2147483645u, 2147483646u, 2147483648u, 4293001441u,
                                      4294967289u, 4294967292u, 4294967293u, 4294967294u, 4294967295u};

#define COUNT(array) (sizeof(array) / sizeof *(array))

/* One of these, or the first prime from any number above 2^31 downwards. */
static uint32_t large_prime(void)
{
    uint32_t p;
    if (random_below(2) == 0)
        return large_primes[random_below(COUNT(large_primes))];
    p = large_primes[0] + (uint32_t)random_below(UINT32_MAX - large_primes[0]);
    while (!plain_is_prime(p))
        p--;
    return p;
}

static uint32_t random_modulus(void)
{
    switch (random_below(8)) {
    case 0: return plain_table((uint32_t)random_below(16));
    case 1: return large_prime();
    default: return small_primes[random_below(COUNT(small_primes))];
    }
}

void random_list(uint32_t p, uint32_t *list, size_t count)
{
    const uint32_t edges[] = {0, 1 % p, p - 1};
    size_t i;
    for (i = 0; i < count; i++)
        list[i] = random_below(4) == 0 ? edges[random_below(3)] : (uint32_t)random_below(p);
}

/* Mostly small orders, some of a few dozens, a few of hundreds. */
static size_t random_order(void)
{
    uint64_t which = random_below(400);
    return 1 + random_below(which == 0 ? 600 : which < 20 ? 70 : 12);
}

static size_t random_count(void)
{
    uint64_t which = random_below(400);
    return random_below(which == 0 ? 300 : which < 20 ? 50 : 12);
}

/* At a quarter of the calls there is room to spare. */
static size_t spare(void)
{
    return random_below(4) == 0 ? random_below(20) : 0;
}

/* One more, or one less. */
static size_t one_off(size_t count)
{
    return count > 0 && random_below(2) == 0 ? count - 1 : count + 1;
}

/* A composition, a reversion, or a cycle of a chain that was opened or forged. */
static void valid_composition(struct call *c)
{
    c->p = random_modulus();
    c->route = 1 + (uint32_t)random_below(4);
    c->n = c->out_count = random_order();
    c->f_count = random_count();
    c->g_count = random_count();
    random_list(c->p, c->f, MOST_PLACES);
    random_list(c->p, c->g, MOST_PLACES);
    c->block_given = c->kind != REVERSE && random_below(2) == 0;
    c->block = random_block(c->route);
    c->g_in_f = c->kind == COMPOSE && random_below(16) == 0;
    if (c->g_in_f && c->g_count > c->f_count)
        c->g_count = c->f_count;
    if (c->kind == REVERSE) {
        c->g[0] = 0;
        c->g[1] = 1 + (uint32_t)random_below(c->p - 1);
        c->g_count += 2;
        c->f_count = 0;
    }
    if (c->kind == CYCLE) {
        c->f[0] = c->g[0] = 0;
        c->g_count = c->out_count;
        c->done = (uint32_t)random_below(64);
    }
    c->work_count = call_work_places(c->kind, c->n, c->f_count, c->g_count) + spare();
}

static void damage_order(struct call *c)
{
    static const uint64_t orders[] = {0, 0, 4097, 4098, UINT64_C(1) << 32, UINT64_C(1) << 57, UINT64_C(1) << 61, UINT64_MAX};
    c->n = (size_t)orders[random_below(COUNT(orders))];
}

static void damage_coefficient(struct call *c)
{
    const uint32_t large[] = {c->p, c->p + 1, UINT32_MAX};
    uint32_t value = large[random_below(3)];
    if (c->f_count > 0 && random_below(2) == 0)
        c->f[random_below(4) == 0 ? c->f_count - 1 : random_below(c->f_count)] = value;
    else if (c->g_count > 0)
        c->g[random_below(4) == 0 ? c->g_count - 1 : random_below(c->g_count)] = value;
}

static void damage_reversion(struct call *c)
{
    if (random_below(2) == 0)
        c->g[0] = c->p - 1;
    else if (random_below(2) == 0)
        c->g[1] = 0;
    else
        c->g_count = random_below(2);
}

/* A constant term, or so many cycles done. */
static void damage_chain(struct call *c)
{
    static const uint32_t counts[] = {63, 64, 65, 128, UINT32_MAX};
    if (random_below(2) == 0)
        c->done = random_below(3) == 0 ? (uint32_t)random_word() : counts[random_below(COUNT(counts))];
    else if (random_below(2) == 0)
        c->f[0] = 1;
    else
        c->g[0] = 1;
}

static void damage_composition(struct call *c)
{
    switch (1 + random_below(10)) {
    case 1: c->route = (uint32_t)(random_below(3) == 0 ? random_word() : 5 * random_below(2)); break;
    case 2: c->p = bad_moduli[random_below(COUNT(bad_moduli))]; break;
    case 3: damage_order(c); break;
    case 4: c->f_count = c->kind == REVERSE ? 0 : 4097 + random_below(3); break;
    case 5: c->g_count = c->kind == CYCLE ? c->g_count : 4097 + random_below(3); break;
    case 6: c->out_count = random_below(3) == 0 ? 0 : one_off(c->out_count); break;
    case 7: c->work_count = random_below(3) == 0 ? 0 : random_below(c->work_count + 1); break;
    case 8: damage_coefficient(c); break;
    case 9: c->block = random_refused_block(); break;
    default: c->kind == CYCLE ? damage_chain(c) : damage_reversion(c); break;
    }
}

/* Work one place short of what is asked for, at the counts as they stand. */
static void shorten_work(struct call *c)
{
    if (c->n >= 1 && c->n <= 4096)
        c->work_count = call_work_places(c->kind, c->n, c->f_count, c->g_count) - 1;
}

static void share(struct call *c)
{
    size_t i;
    if (c->g_count > c->f_count)
        c->g_in_f = 0;
    for (i = 0; c->g_in_f && i < c->g_count; i++)
        c->g[i] = c->f[i];
}

static void random_composition(struct call *c)
{
    uint64_t damages = random_below(2) == 0 ? 0 : 1 + random_below(3);
    valid_composition(c);
    for (; damages > 0; damages--)
        damage_composition(c);
    if (random_below(16) == 0)
        shorten_work(c);
    share(c);
}

static void random_opening(struct call *c)
{
    uint64_t damages = random_below(2) == 0 ? 0 : 1 + random_below(2);
    c->p = random_modulus();
    c->n = c->out_count = random_order();
    for (; damages > 0; damages--)
        switch (random_below(3)) {
        case 0: c->p = bad_moduli[random_below(COUNT(bad_moduli))]; break;
        case 1: damage_order(c); break;
        default: c->out_count = random_below(3) == 0 ? 0 : one_off(c->out_count); break;
        }
}

/* A number of any length, in bits. */
static uint64_t random_length(unsigned bits)
{
    return random_word() >> (64 - bits) >> random_below(bits);
}

static void random_rendering(struct call *c)
{
    size_t i, bytes;
    c->number = random_below(3) > 0 ? 0 : (uint32_t)(random_below(2) == 0 ? 1 + random_below(15) : 1 + random_length(31));
    c->n = c->g_count = random_order();
    c->weight = random_below(16) == 0 ? UINT64_MAX : random_length(64);
    for (i = 0; i < c->g_count; i++)
        c->g[i] = random_below(8) == 0 ? UINT32_MAX * (uint32_t)random_below(2) : (uint32_t)random_length(32);
    if (random_below(6) == 0)
        damage_order(c);
    if (random_below(6) == 0)
        c->g_count = random_below(2) == 0 ? 0 : one_off(c->g_count);
    bytes = call_text_bytes(c);
    c->text_count = bytes + spare();
    if (random_below(4) == 0)
        c->text_count = random_below(2) == 0 ? bytes - 1 : random_below(bytes);
}

void random_call(struct call *c)
{
    uint64_t which = random_below(24);
    c->kind = which < 8 ? COMPOSE : which < 12 ? REVERSE : which < 17 ? CYCLE : which < 19 ? OPEN : which < 20 ? PRIME : RENDER;
    c->route = c->p = c->done = c->index = c->number = 0;
    c->weight = 0;
    c->n = c->f_count = c->g_count = c->out_count = c->work_count = c->text_count = 0;
    c->block_given = 0;
    c->block = 0;
    c->cycle = random_below(2) == 0 ? ruhitapo_cycle : NULL;
    c->cycle_blocks = random_below(2) == 0 ? ruhitapo_cycle_blocks : NULL;
    c->g_in_f = 0;
    c->sides = (unsigned)random_below(32);
    if (c->kind == PRIME)
        c->index = (uint32_t)(random_below(4) == 0 ? random_word() : random_below(18));
    else if (c->kind == RENDER)
        random_rendering(c);
    else if (c->kind == OPEN)
        random_opening(c);
    else
        random_composition(c);
}
