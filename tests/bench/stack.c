/*
 * The stack that each call takes. A call is made in a thread of its own, on a stack whose every byte holds a pattern before; after it the
 * lowest byte that holds something else says how deep the call went below the frame of its caller. The row 'none' is that frame without a
 * call. The outer and the inner list have n coefficients, and blocks of route 2 have one, with which its joins go deepest. The argument is
 * the largest order.
 *
 * Link with -z now: otherwise the first call of memset looks it up, which takes stack too.
 */

#define _POSIX_C_SOURCE 200809L
#include "ruhitapo.h"

#include <pthread.h>
#include <stdio.h>
#include <stdlib.h>
#include <string.h>

enum { STACK_BYTES = 1 << 22, PAGE = 4096, PATTERN = 0xa5, MODULI = 3 };

enum call { NONE, COMPOSE, REVERSE, CYCLE };

struct job {
    enum call call;
    uint32_t route, p;
    size_t n, work_count;
    uint32_t *f, *g, *out, *work;
    unsigned char *stack;
    uint32_t number;
    size_t depth;
};

static const uint32_t moduli[MODULI] = {2, 2147483647, 4294967291u};

static void require(int holds, const char *what)
{
    if (!holds) {
        fprintf(stderr, "%s\n", what);
        exit(EXIT_FAILURE);
    }
}

static void *allocated(size_t bytes)
{
    void *place = calloc(bytes, 1);
    require(place != NULL, "no memory");
    return place;
}

/* Makes the call; gives back its number. */
static uint32_t made(const struct job *job)
{
    size_t n = job->n;
    ruhitapo_chain chain = {job->p, n, 0};
    switch (job->call) {
    case COMPOSE:
        return ruhitapo_compose_blocks(job->route, RUHITAPO_SHORTEST_BLOCK, job->p, n, job->f, n, job->g, n, job->out, n,
                                       job->work, job->work_count).number;
    case REVERSE:
        return ruhitapo_reverse(job->p, n, job->g, n, job->out, n, job->work, job->work_count).number;
    case CYCLE:
        return ruhitapo_cycle_blocks(chain, job->route, RUHITAPO_SHORTEST_BLOCK, job->g, n, job->out, n,
                                     job->work, job->work_count).number;
    default:
        return RUHITAPO_ACCEPTED;
    }
}

/* The thread: the call, then how far below this frame the pattern is overwritten. */
static void *thread(void *argument)
{
    struct job *job = argument;
    volatile unsigned char here = 0;
    const volatile unsigned char *lowest = job->stack;
    job->number = made(job);
    while ((uintptr_t)lowest < (uintptr_t)&here && *lowest == PATTERN)
        lowest++;
    job->depth = (uintptr_t)&here - (uintptr_t)lowest;
    return NULL;
}

/* A list of non-zero coefficients, or one that starts with 0 and 1. */
static void fill(uint32_t *list, size_t n, uint32_t p, int reversible)
{
    uint64_t state = 1;
    for (size_t i = 0; i < n; i++) {
        state = state * 6364136223846793005u + 1442695040888963407u;
        list[i] = 1 + (uint32_t)((state >> 32) % (p - 1));
    }
    if (reversible) {
        list[0] = 0;
        list[1] = 1;
    }
}

/* The bytes of stack that the call takes. */
static size_t depth(struct job *job)
{
    pthread_attr_t attributes;
    pthread_t started;
    int reversible = job->call != COMPOSE;
    fill(job->f, job->n, job->p, 0);
    fill(job->g, job->n, job->p, reversible);
    fill(job->out, job->n, job->p, reversible);
    memset(job->stack, PATTERN, STACK_BYTES);
    require(pthread_attr_init(&attributes) == 0, "no attributes");
    require(pthread_attr_setstack(&attributes, job->stack, STACK_BYTES) == 0, "no stack");
    require(pthread_create(&started, &attributes, thread, job) == 0, "no thread");
    require(pthread_join(started, NULL) == 0, "the thread was not joined");
    require(pthread_attr_destroy(&attributes) == 0, "attributes stay");
    require(job->number == RUHITAPO_ACCEPTED, "a call was refused");
    require(job->stack[0] == PATTERN, "the stack is too small to measure the call");
    return job->depth;
}

/* A call at an order, for each modulus, in KiB. */
static void row(struct job *job, const char *name)
{
    printf("%4zu  %-7s  ", job->n, name);
    if (job->route == 0)
        printf("    -");
    else
        printf("%5u", (unsigned)job->route);
    for (size_t i = 0; i < MODULI; i++) {
        job->p = moduli[i];
        printf("  %14.2f", (double)depth(job) / 1024);
        fflush(stdout);
    }
    printf("\n");
}

static void rows(size_t n, unsigned char *stack)
{
    size_t work_count = RUHITAPO_CYCLE_WORK_PLACES(n, n), bytes = n * sizeof(uint32_t);
    struct job job = {NONE, 0, 0, n, work_count, NULL, NULL, NULL, NULL, stack, 0, 0};
    job.f = allocated(bytes);
    job.g = allocated(bytes);
    job.out = allocated(bytes);
    job.work = allocated(work_count * sizeof(uint32_t));
    row(&job, "none");
    job.call = REVERSE;
    row(&job, "reverse");
    for (job.route = RUHITAPO_KINOSHITA_LI; job.route >= RUHITAPO_HORNER; job.route--) {
        job.call = COMPOSE;
        row(&job, "compose");
        job.call = CYCLE;
        row(&job, "cycle");
    }
    free(job.f);
    free(job.g);
    free(job.out);
    free(job.work);
}

int main(int count, char **arguments)
{
    static const size_t orders[] = {64, 256, 1024, 4096};
    unsigned long largest = count > 1 ? strtoul(arguments[1], NULL, 10) : RUHITAPO_LARGEST_ORDER;
    void *stack;
    require(posix_memalign(&stack, PAGE, STACK_BYTES) == 0, "no memory");
    printf("The stack of a call below the frame of its caller, in KiB; outer and inner lists of n coefficients.\n");
    printf("   n  call     route           p = 2  p = 2147483647  p = 4294967291\n");
    for (size_t i = 0; i < sizeof orders / sizeof *orders && orders[i] <= largest; i++)
        rows(orders[i], stack);
    free(stack);
    return 0;
}
