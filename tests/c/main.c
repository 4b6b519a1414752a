/*
 * The C interface, held against a plain second implementation in C: the header, every edge, every block length, whole chains, then seeded
 * random calls, on lists between pages that are shut. Arguments: the seed and the count of calls.
 */
#define _DEFAULT_SOURCE
#include "call.h"
#include "cases.h"
#include "random.h"

#include <errno.h>
#include <inttypes.h>
#include <signal.h>
#include <stdio.h>
#include <stdlib.h>
#include <string.h>
#include <unistd.h>

static void say(const char *words)
{
    if (write(STDERR_FILENO, words, strlen(words)) < 0)
        _exit(4);
}

/* A page that is shut was reached, or one that can only be read was written. */
static void fault(int signal)
{
    (void)signal;
    say("FAULT: a place outside the lists was touched, or a list that is only read was written\n  ");
    say(call_words);
    say("\n");
    _exit(3);
}

static void watch(void)
{
    struct sigaction action;
    memset(&action, 0, sizeof action);
    action.sa_handler = fault;
    sigaction(SIGSEGV, &action, NULL);
    sigaction(SIGBUS, &action, NULL);
}

static uint64_t number(const char *words)
{
    char *end;
    uint64_t value;
    errno = 0;
    value = strtoull(words, &end, 10);
    if (errno != 0 || end == words || *end != '\0') {
        fprintf(stderr, "not a number: %s\n", words);
        exit(2);
    }
    return value;
}

/* Every number that a call can return came back; returns how many did not. */
static int missing(void)
{
    static const struct {
        const char *name;
        const uint32_t *tests;
    } calls[KINDS] = {{"compose", plain_compose_tests}, {"reverse", plain_reverse_tests}, {"open", plain_open_tests},
                      {"cycle", plain_cycle_tests}, {"prime", plain_prime_tests}, {"render", plain_render_tests}};
    const uint32_t *test;
    int kind, count = 0;
    for (kind = 0; kind < KINDS; kind++) {
        printf("%s returned", calls[kind].name);
        for (test = calls[kind].tests; *test != 0; test++) {
            printf("  %" PRIu32 ": %" PRIu64, *test, tally.returned[kind][*test]);
            count += tally.returned[kind][*test] == 0;
        }
        printf("  0: %" PRIu64 "\n", tally.returned[kind][0]);
        count += tally.returned[kind][0] == 0;
    }
    return count;
}

int main(int count, char **arguments)
{
    static struct call call;
    uint64_t seed = count > 1 ? number(arguments[1]) : 1, calls = count > 2 ? number(arguments[2]) : 24000;
    int absent;
    watch();
    random_begin(seed);
    call_begin();
    header_make();
    edges_make();
    blocks_make();
    chains_make();
    while (tally.calls < calls) {
        random_call(&call);
        call_make(&call);
    }
    absent = missing();
    if (absent > 0)
        printf("%d numbers never came back\n", absent);
    printf("seed %" PRIu64 ": %" PRIu64 " calls, %" PRIu64 " comparisons, %" PRIu64 " differences\n", seed, tally.calls,
           tally.comparisons, tally.differences);
    return tally.differences > 0 || absent > 0;
}
