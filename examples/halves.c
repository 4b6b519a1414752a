/*
 * Joins the two halves of a protocol. Each half is a chain of its own, opened with the same modulus and order; the running series of the first
 * composed with that of the second is the running series of all cycles. So two jobs may carry out the halves, and a third one joins them.
 *
 *     halves MODULUS ORDER LIST... / LIST...
 *
 * A list is a cycle series, such as 0,1,1: the numbers below MODULUS that stand before 1, x, x^2. Those before the slash are the cycles of
 * the first half. Printed is the answer of the call that joins them or, with status 1, of the first call that was refused. With no arguments it
 * is halves 7 5 0,1,1 / 0,1,2.
 */
#include "ruhitapo.h"

#include <errno.h>
#include <stdio.h>
#include <stdlib.h>
#include <string.h>

enum { WORK = RUHITAPO_CYCLE_WORK_PLACES(RUHITAPO_LARGEST_ORDER, RUHITAPO_LONGEST_LIST) };

static uint32_t running[2][RUHITAPO_LARGEST_ORDER], whole[RUHITAPO_LARGEST_ORDER], list[RUHITAPO_LONGEST_LIST], work[WORK];

static void stop(const char *what, const char *words)
{
    fprintf(stderr, "halves: %s%s\nusage: halves MODULUS ORDER LIST... / LIST...\n", what, words);
    exit(1);
}

/* Prints an answer and ends the program. */
static void answer(uint32_t number, size_t n, uint64_t weight)
{
    static uint8_t text[RUHITAPO_TEXT_BYTES(RUHITAPO_LARGEST_ORDER)];
    size_t count = ruhitapo_render(number, n, weight, whole, n, text, sizeof text).count;
    if (fwrite(text, 1, count, stdout) != count || fclose(stdout) != 0)
        stop("the answer could not be written whole: ", strerror(errno));
    exit(number == RUHITAPO_ACCEPTED ? 0 : 1);
}

/* The number at the start of `words`; `end` is what follows it. */
static uint32_t number(const char *words, char **end)
{
    unsigned long long value;
    errno = 0;
    value = strtoull(words, end, 10);
    if (*words < '0' || *words > '9' || errno != 0 || value > UINT32_MAX)
        stop("not a whole number below 2^32: ", words);
    return (uint32_t)value;
}

/* Reads a list and gives back its count. */
static size_t read_list(const char *words)
{
    size_t count = 0;
    char *end;
    do {
        if (count == RUHITAPO_LONGEST_LIST)
            stop("a list has more than 4096 places", "");
        list[count++] = number(words, &end);
        words = end + 1;
    } while (*end == ',');
    if (*end != '\0')
        stop("a list is whole numbers with commas between them: ", words - 1);
    return count;
}

/* Carries out the cycles of one half in a chain of its own. Gives back the arguments that it did not read: the slash and what follows it, or none. */
static char **carry_out(uint32_t p, size_t n, char **arguments, uint32_t *series)
{
    ruhitapo_open_answer opened = ruhitapo_open(p, n, series, n);
    ruhitapo_chain chain = opened.chain;
    if (opened.number != RUHITAPO_ACCEPTED)
        answer(opened.number, n, 0);
    for (; *arguments != NULL && strcmp(*arguments, "/") != 0; arguments++) {
        size_t count = read_list(*arguments);
        ruhitapo_cycle_answer cycled = ruhitapo_cycle(chain, RUHITAPO_KINOSHITA_LI, list, count, series, n, work, WORK);
        if (cycled.number != RUHITAPO_ACCEPTED)
            answer(cycled.number, n, 0);
        chain = cycled.chain;
    }
    return arguments;
}

int main(int count, char **arguments)
{
    static char *usual[] = {"halves", "7", "5", "0,1,1", "/", "0,1,2", NULL};
    char **rest = count < 2 ? usual : arguments, *end;
    ruhitapo_answer joined;
    uint32_t p;
    size_t n;
    if (rest[1] == NULL || rest[2] == NULL)
        stop("a modulus and an order are wanted", "");
    p = number(rest[1], &end);
    if (*end != '\0')
        stop("not a modulus: ", rest[1]);
    n = number(rest[2], &end);
    if (*end != '\0' || n > RUHITAPO_LARGEST_ORDER)
        stop("not an order up to 4096: ", rest[2]);
    rest = carry_out(p, n, rest + 3, running[0]);
    if (*rest == NULL)
        stop("a slash is wanted between the halves", "");
    rest = carry_out(p, n, rest + 1, running[1]);
    if (*rest != NULL)
        stop("one slash is wanted, and there is a second", "");
    joined = ruhitapo_compose(RUHITAPO_KINOSHITA_LI, p, n, running[0], n, running[1], n, whole, n, work, WORK);
    answer(joined.number, n, joined.weight);
    return 1;
}
