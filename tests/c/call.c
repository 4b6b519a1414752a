/* Each call, made on fenced lists and held against the second implementation. */
#include "call.h"
#include "fence.h"

#include <inttypes.h>
#include <stdio.h>
#include <string.h>

struct tally tally;
char call_words[512];

static const struct call *current;
static struct fence f_fence, g_fence, out_fence, work_fence, text_fence;
static char text[MOST_TEXT];
static const struct chain no_chain = {0, 0, 0};

void call_begin(void)
{
    fence_make(&f_fence, MOST_PLACES * sizeof(uint32_t));
    fence_make(&g_fence, MOST_PLACES * sizeof(uint32_t));
    fence_make(&out_fence, MOST_PLACES * sizeof(uint32_t));
    fence_make(&work_fence, MOST_WORK * sizeof(uint32_t));
    fence_make(&text_fence, MOST_TEXT);
}

static enum side side(const struct call *c, unsigned list)
{
    return (c->sides >> list) % 2 == 1 ? AT_THE_END : AT_THE_BEGINNING;
}

static void print_list(const char *name, const uint32_t *list, size_t count)
{
    size_t i;
    printf("  %s:", name);
    for (i = 0; i < count && i < 40; i++)
        printf(" %" PRIu32, list[i]);
    printf(count > 40 ? " and on\n" : "\n");
}

/* The first ten differences are printed, each with its call if one was made. */
static void different(const char *what)
{
    if (tally.differences++ >= 10)
        return;
    printf("DIFFERENCE in %s\n", what);
    if (current == NULL)
        return;
    printf("  %s\n", call_words);
    print_list("f", current->f, current->f_count);
    print_list("g", current->g, current->g_count);
}

void call_compare(const char *what, uint64_t expected, uint64_t found)
{
    char words[128];
    tally.comparisons++;
    if (expected == found)
        return;
    snprintf(words, sizeof words, "%s: expected %" PRIu64 ", returned %" PRIu64, what, expected, found);
    different(words);
}

static void compare_buffer(const char *what, const struct fence *fence, size_t place_bytes)
{
    char words[128];
    int same;
    ptrdiff_t at = fence_difference(fence, &same);
    tally.comparisons += fence->bytes / place_bytes;
    if (same)
        return;
    snprintf(words, sizeof words, "%s: byte %td, in places of %zu bytes, of %zu bytes", what, at, place_bytes, fence->bytes);
    different(words);
}

/* The number that came back is the one expected; it is counted. */
static void compare_number(const struct call *c, uint32_t expected, uint32_t found)
{
    call_compare("number", expected, found);
    tally.returned[c->kind][expected]++;
}

static const uint32_t *inner_list(const struct call *c, const uint32_t *f)
{
    return c->g_in_f ? f : fence_list(&g_fence, c->g, c->g_count * sizeof *c->g, side(c, 1));
}

size_t call_work_places(enum kind kind, size_t n, size_t f_count, size_t g_count)
{
    return (kind == CYCLE ? 144 : 128) * n + 8 * (kind == REVERSE ? g_count : f_count);
}

/* After an accepted call the places asked for are zero. */
static void compare_work(const struct call *c, uint32_t number)
{
    size_t places = call_work_places(c->kind, c->n, c->f_count, c->g_count);
    if (number == 0)
        memset(fence_expected(&work_fence), 0, places * sizeof(uint32_t));
    compare_buffer("work", &work_fence, sizeof(uint32_t));
}

/* The block length that the call has, or has without naming it. */
static size_t block_length(const struct call *c)
{
    return c->block_given ? c->block : PLAIN_BLOCK;
}

static uint64_t expected_weight(const struct call *c, uint32_t number)
{
    size_t outer_count = c->kind == CYCLE ? c->n : c->f_count;
    return number == 0 ? plain_weight(c->route, block_length(c), c->p, c->n, outer_count) : 0;
}

/* The library's answer to a composition. */
static ruhitapo_answer composed(const struct call *c, const uint32_t *f, const uint32_t *g, uint32_t *out, uint32_t *work)
{
    if (c->block_given)
        return ruhitapo_compose_blocks(c->route, c->block, c->p, c->n, f, c->f_count, g, c->g_count,
                                       out, c->out_count, work, c->work_count);
    return ruhitapo_compose(c->route, c->p, c->n, f, c->f_count, g, c->g_count, out, c->out_count, work, c->work_count);
}

static struct returned make_compose(const struct call *c)
{
    const uint32_t *f = fence_list(&f_fence, c->f, c->f_count * sizeof *f, side(c, 0));
    const uint32_t *g = inner_list(c, f);
    uint32_t *out = fence_lend(&out_fence, c->out_count * sizeof *out, side(c, 2));
    uint32_t *work = fence_lend(&work_fence, c->work_count * sizeof *work, side(c, 3));
    uint32_t number = plain_compose_number(c->route, block_length(c), c->p, c->n, f, c->f_count, g, c->g_count,
                                           c->out_count, c->work_count);
    ruhitapo_answer answer = composed(c, f, g, out, work);
    compare_number(c, number, answer.number);
    call_compare("weight", expected_weight(c, number), answer.weight);
    if (number == 0)
        plain_compose(c->p, c->n, f, c->f_count, g, c->g_count, fence_expected(&out_fence));
    compare_buffer("output", &out_fence, sizeof *out);
    compare_work(c, number);
    return (struct returned){answer.number, answer.weight, no_chain};
}

static struct returned make_reverse(const struct call *c)
{
    const uint32_t *g = inner_list(c, NULL);
    uint32_t *out = fence_lend(&out_fence, c->out_count * sizeof *out, side(c, 2));
    uint32_t *work = fence_lend(&work_fence, c->work_count * sizeof *work, side(c, 3));
    uint32_t number = plain_reverse_number(c->p, c->n, g, c->g_count, c->out_count, c->work_count);
    ruhitapo_answer answer = ruhitapo_reverse(c->p, c->n, g, c->g_count, out, c->out_count, work, c->work_count);
    compare_number(c, number, answer.number);
    call_compare("weight", 0, answer.weight);
    if (number == 0)
        plain_reverse(c->p, c->n, g, c->g_count, fence_expected(&out_fence));
    compare_buffer("output", &out_fence, sizeof *out);
    compare_work(c, number);
    return (struct returned){answer.number, answer.weight, no_chain};
}

/* The chain that came back, in plain numbers. */
static struct chain compare_chain(struct chain expected, ruhitapo_chain found)
{
    call_compare("modulus", expected.modulus, found.modulus);
    call_compare("order", expected.order, found.order);
    call_compare("cycles done", expected.done, found.done);
    return (struct chain){found.modulus, found.order, found.done};
}

static struct returned make_open(const struct call *c)
{
    uint32_t *running = fence_lend(&out_fence, c->out_count * sizeof *running, side(c, 2));
    uint32_t number = plain_open_number(c->p, c->n, c->out_count), *expected = fence_expected(&out_fence);
    ruhitapo_open_answer answer = ruhitapo_open(c->p, c->n, running, c->out_count);
    struct chain chain = compare_chain(number == 0 ? (struct chain){c->p, c->n, 0} : no_chain, answer.chain);
    size_t k;
    compare_number(c, number, answer.number);
    call_compare("weight", 0, answer.weight);
    for (k = 0; number == 0 && k < c->n; k++)
        expected[k] = k == 1;
    compare_buffer("running", &out_fence, sizeof *running);
    return (struct returned){answer.number, answer.weight, chain};
}

/* The library's answer to a cycle. */
static ruhitapo_cycle_answer cycled(const struct call *c, const uint32_t *list, uint32_t *running, uint32_t *work)
{
    ruhitapo_chain chain = {c->p, c->n, c->done};
    if (c->block_given && c->cycle_blocks != NULL)
        return c->cycle_blocks(chain, c->route, c->block, list, c->f_count, running, c->out_count, work, c->work_count);
    if (c->block_given)
        return ruhitapo_cycle_blocks_numbers(c->p, c->n, c->done, c->route, c->block, list, c->f_count, running, c->out_count,
                                             work, c->work_count);
    if (c->cycle != NULL)
        return c->cycle(chain, c->route, list, c->f_count, running, c->out_count, work, c->work_count);
    return ruhitapo_cycle_numbers(c->p, c->n, c->done, c->route, list, c->f_count, running, c->out_count, work, c->work_count);
}

static struct returned make_cycle(const struct call *c)
{
    const uint32_t *list = fence_list(&f_fence, c->f, c->f_count * sizeof *list, side(c, 0));
    uint32_t *running = fence_lend(&out_fence, c->out_count * sizeof *running, side(c, 2));
    uint32_t *work = fence_lend(&work_fence, c->work_count * sizeof *work, side(c, 3));
    uint32_t number = plain_cycle_number(c->route, block_length(c), c->p, c->n, c->done, list, c->f_count, c->g, c->out_count,
                                         c->work_count);
    ruhitapo_cycle_answer answer;
    struct chain chain;
    memcpy(running, c->g, c->out_count * sizeof *running);
    memcpy(fence_expected(&out_fence), c->g, c->out_count * sizeof *running);
    answer = cycled(c, list, running, work);
    compare_number(c, number, answer.number);
    call_compare("weight", expected_weight(c, number), answer.weight);
    chain = compare_chain((struct chain){c->p, c->n, c->done + (number == 0)}, answer.chain);
    if (number == 0)
        plain_compose(c->p, c->n, c->g, c->n, list, c->f_count, fence_expected(&out_fence));
    compare_buffer("running", &out_fence, sizeof *running);
    compare_work(c, number);
    return (struct returned){answer.number, answer.weight, chain};
}

static struct returned make_prime(const struct call *c)
{
    ruhitapo_prime_answer answer = ruhitapo_prime(c->index);
    uint32_t number = plain_prime_number(c->index);
    compare_number(c, number, answer.number);
    call_compare("prime", number == 0 ? plain_table(c->index) : 0, answer.prime);
    return (struct returned){answer.number, answer.prime, no_chain};
}

size_t call_text_bytes(const struct call *c)
{
    return plain_text(c->number, c->n, c->weight, c->g, c->g_count, text, sizeof text);
}

static struct returned make_render(const struct call *c)
{
    const uint32_t *list = inner_list(c, NULL);
    uint8_t *lent = fence_lend(&text_fence, c->text_count, side(c, 4));
    size_t bytes = call_text_bytes(c);
    uint32_t number = plain_render_number(c->number, c->n, c->g_count, bytes, c->text_count);
    ruhitapo_text_answer answer = ruhitapo_render(c->number, c->n, c->weight, list, c->g_count, lent, c->text_count);
    compare_number(c, number, answer.number);
    call_compare("count", number == 0 ? bytes : 0, answer.count);
    if (number == 0)
        memcpy(fence_expected(&text_fence), text, bytes);
    compare_buffer("text", &text_fence, 1);
    return (struct returned){answer.number, answer.count, no_chain};
}

static void describe(const struct call *c)
{
    static const char *names[] = {"compose", "reverse", "open", "cycle", "prime", "render"};
    int by_the_header = c->kind == CYCLE && (c->block_given ? c->cycle_blocks != NULL : c->cycle != NULL);
    snprintf(call_words, sizeof call_words,
             "call %" PRIu64 ": %s%s, route %" PRIu32 ", block length %zu%s, p %" PRIu32 ", n %zu, done %" PRIu32
             ", index %" PRIu32 ", number %" PRIu32 ", weight %" PRIu64 ", counts: f %zu, g %zu%s, out %zu, work %zu, text %zu, sides %u",
             tally.calls, names[c->kind], by_the_header ? " by the header" : "", c->route, block_length(c),
             c->block_given ? "" : " (not given)", c->p, c->n, c->done, c->index, c->number, c->weight, c->f_count, c->g_count,
             c->g_in_f ? " (a part of f)" : "", c->out_count, c->work_count, c->text_count, c->sides);
}

struct returned call_make(const struct call *call)
{
    static struct returned (*const makes[])(const struct call *) = {make_compose, make_reverse, make_open, make_cycle,
                                                                    make_prime, make_render};
    current = call;
    describe(call);
    tally.calls++;
    return makes[call->kind](call);
}
