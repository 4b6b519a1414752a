/*
 * Builds a copy table of whole numbers: the coefficients of C1(C2(...)), the cycle series composed over several cycles, the first one
 * outermost, cut below a given power. For each of the sixteen primes the cycles are those of a chain (ruhitapo_open, ruhitapo_cycle), which
 * takes no series with a constant term; where one has it, each cycle is a call of ruhitapo_compose. The residues are joined by Garner's method.
 *
 *     joiner ORDER CYCLES LIST...
 *
 * A list is a cycle series, such as 0,1,1: the whole numbers that stand before 1, x, x^2. With several lists the cycles take them in turn.
 * Printed is one coefficient a line, that of power 0 first. With no arguments it is joiner 300 9 0,1,1 0,1,2.
 *
 * Sixteen residues determine a number below the product of the primes, so each printed coefficient has to be below it. The composed series
 * F has no negative coefficient: that of x^k is at most F(r) / r^k for every r above 0, and if r is at most 1, those below x^ORDER are at
 * most F(r) / r^(ORDER - 1). The program works out this bound for powers of two, rounding upwards only, and refuses if none that it finds is
 * below the product.
 */
#include "joiner_numbers.h"
#include "ruhitapo.h"

#include <errno.h>
#include <inttypes.h>
#include <stdio.h>

#define MOST_LISTS 64
#define MOST_HALVINGS ((int64_t)1 << 24) /* the least r is 1 halved as often */

struct list {
    uint32_t coefficient[RUHITAPO_LONGEST_LIST];
    size_t count;
};

static struct list lists[MOST_LISTS];
static size_t list_count;
static int constant_terms; /* whether some list has one */
static uint32_t prime[RUHITAPO_PRIMES];

static const char use[] = "usage: joiner ORDER CYCLES LIST...\n"
                          "\n"
                          "Composes a series over CYCLES cycles and prints its coefficients below x^ORDER, one a line, that of power 0\n"
                          "first. ORDER is from 1 to 4096, CYCLES from 0 to 64. A LIST is a cycle series, such as 0,1,1: the whole\n"
                          "numbers that stand before 1, x, x^2. With several lists the cycles take them in turn; the first cycle is\n"
                          "outermost. A table is refused unless its numbers are sure to be below the product of the sixteen primes,\n"
                          "which has 496 bits.\n"
                          "\n"
                          "With no arguments it is joiner 300 9 0,1,1 0,1,2.\n";

static void stop(const char *what, const char *words)
{
    fprintf(stderr, "joiner: %s%s\n", what, words);
    exit(1);
}

/* Memory of zeros. */
static void *memory(size_t bytes)
{
    void *found = calloc(bytes, 1);
    if (found == NULL)
        stop("out of memory", "");
    return found;
}

/* Writes all that the program prints, once. The stream has no buffer, so that after a failure no later part of the text follows. */
static void write_out(const char *text, size_t bytes)
{
    errno = 0;
    if (setvbuf(stdout, NULL, _IONBF, 0) != 0 || fwrite(text, 1, bytes, stdout) != bytes || fclose(stdout) != 0)
        stop("the output could not be written whole: ", strerror(errno));
}

/* At least F(r) / r^power, where r is 1 halved so often: the value of the last series at r, that of the one before it there, and on. No number
   is negative, so what each step raises makes no later one smaller. */
static struct bound bound_at(int64_t halvings, size_t power, size_t cycles)
{
    struct bound value = power_of_two(-halvings), factor = power_of_two(halvings * (int64_t)power);
    size_t i, k;
    for (i = cycles; i-- > 0;) {
        const struct list *list = lists + i % list_count;
        struct bound next = leading(NULL, 0, 0);
        for (k = list->count; k-- > 0;) {
            struct bound term = multiply(&next, &value), coefficient = leading(&list->coefficient[k], 1, 0);
            next = add(&term, &coefficient);
        }
        value = next;
    }
    return multiply(&value, &factor);
}

/* The halvings with the least bound: its logarithm is convex in them, so it falls up to there and does not fall again. */
static int64_t best_halvings(size_t power, size_t cycles)
{
    int64_t least = 0, most = MOST_HALVINGS;
    while (least < most) {
        int64_t middle = (least + most) / 2;
        struct bound here = bound_at(middle, power, cycles), next = bound_at(middle + 1, power, cycles);
        if (here.exponent < TOO_LARGE && below(&here, &next))
            most = middle;
        else
            least = middle + 1;
    }
    return least;
}

/* If the bound at the least r is too large, F has more than 16 MOST_EXPONENT bits there, and no fewer at any other r. */
static void refuse(size_t power, int64_t halvings, const struct bound *bound, const struct bound *product)
{
    if (bound->exponent == TOO_LARGE)
        fprintf(stderr, "joiner: the table may not fit: every bound of the coefficient of x^%zu has more than %" PRId64 " bits", power,
                16 * MOST_EXPONENT);
    else
        fprintf(stderr, "joiner: the table may not fit: the least bound of the coefficient of x^%zu, the value at x = 2^-%" PRId64
                " times 2^%" PRId64 ", has %" PRId64 " bits", power, halvings, halvings * (int64_t)power, bits(bound));
    fprintf(stderr, " and is not below the product of the sixteen primes, which has %" PRId64 " bits: take fewer cycles or a lower order\n",
            bits(product));
    exit(1);
}

/* Refuses if no bound is below the product of the primes. With r = 1 a bound below it is exact, the sum of all coefficients. */
static void see_that_it_fits(size_t n, size_t cycles)
{
    struct bound product = power_of_two(0), bound = bound_at(0, n - 1, cycles);
    int64_t halvings;
    size_t i;
    for (i = 0; i < RUHITAPO_PRIMES; i++) {
        struct bound factor = leading(&prime[i], 1, 0);
        product = multiply(&product, &factor);
    }
    if (below(&bound, &product))
        return;
    halvings = best_halvings(n - 1, cycles);
    bound = bound_at(halvings, n - 1, cycles);
    if (!below(&bound, &product))
        refuse(n - 1, halvings, &bound, &product);
}

static void see_accepted(const char *call, uint32_t number)
{
    if (number == RUHITAPO_ACCEPTED)
        return;
    fprintf(stderr, "joiner: %s returned %" PRIu32 "\n", call, number);
    exit(1);
}

/* The list of a cycle modulo p, until the next one is asked for. */
static const struct list *reduced_list(size_t cycle, uint32_t p)
{
    static struct list reduced;
    const struct list *list = lists + cycle % list_count;
    size_t k;
    reduced.count = list->count;
    for (k = 0; k < list->count; k++)
        reduced.coefficient[k] = list->coefficient[k] % p;
    return &reduced;
}

/* The residues modulo p, in `running`: the cycles of a chain. */
static void cycle_chain(uint32_t p, size_t n, size_t cycles, uint32_t *running)
{
    size_t places = RUHITAPO_CYCLE_WORK_PLACES(n, RUHITAPO_LONGEST_LIST), i;
    uint32_t *work = memory(places * sizeof *work);
    ruhitapo_open_answer opened = ruhitapo_open(p, n, running, n);
    ruhitapo_chain chain = opened.chain;
    see_accepted("ruhitapo_open", opened.number);
    for (i = 0; i < cycles; i++) {
        const struct list *list = reduced_list(i, p);
        ruhitapo_cycle_answer answer = ruhitapo_cycle(chain, RUHITAPO_KINOSHITA_LI, list->coefficient, list->count,
                                                      running, n, work, places);
        see_accepted("ruhitapo_cycle", answer.number);
        chain = answer.chain;
    }
    free(work);
}

/* The same with constant terms, in `out`. A series that is cut is right as the inner one, whatever its constant term, and not as the outer one:
   so this begins with x and puts it into the last cycle, what that gives into the one before, and on. */
static void compose_cycles(uint32_t p, size_t n, size_t cycles, uint32_t *out)
{
    size_t places = RUHITAPO_WORK_PLACES(n, RUHITAPO_LONGEST_LIST), i, k;
    uint32_t *work = memory(places * sizeof *work), *inner = memory(n * sizeof *inner);
    for (k = 0; k < n; k++)
        out[k] = k == 1;
    for (i = cycles; i-- > 0;) {
        const struct list *list = reduced_list(i, p);
        memcpy(inner, out, n * sizeof *inner);
        see_accepted("ruhitapo_compose", ruhitapo_compose(RUHITAPO_KINOSHITA_LI, p, n, list->coefficient, list->count,
                                                          inner, n, out, n, work, places).number);
    }
    free(inner);
    free(work);
}

static uint64_t power(uint64_t a, uint64_t exponent, uint64_t p)
{
    uint64_t value = 1;
    for (; exponent > 0; exponent /= 2) {
        if (exponent % 2 == 1)
            value = value * a % p;
        a = a * a % p;
    }
    return value;
}

/* The number below the product of the primes with these residues. Its digits are those in the mixed radix 1, p0, p0 p1, and on. */
static struct whole join(const uint32_t residue[RUHITAPO_PRIMES])
{
    uint64_t digit[RUHITAPO_PRIMES];
    struct whole value = {{0}};
    size_t i, j;
    for (i = 0; i < RUHITAPO_PRIMES; i++) {
        uint64_t p = prime[i], known = 0, radix = 1;
        for (j = 0; j < i; j++) {
            known = (known + digit[j] % p * radix) % p;
            radix = radix * prime[j] % p;
        }
        digit[i] = (residue[i] + p - known) % p * power(radix, p - 2, p) % p;
    }
    for (i = RUHITAPO_PRIMES; i-- > 0;)
        multiply_small(&value, prime[i], (uint32_t)digit[i]);
    return value;
}

/* The residues of all primes, and then the coefficients, joined. */
static void print_table(size_t n, size_t cycles)
{
    uint32_t *residues = memory(RUHITAPO_PRIMES * n * sizeof *residues), residue[RUHITAPO_PRIMES];
    char *text = memory(n * LINE_BYTES);
    size_t bytes = 0, i, k;
    for (i = 0; i < RUHITAPO_PRIMES; i++)
        if (constant_terms)
            compose_cycles(prime[i], n, cycles, residues + i * n);
        else
            cycle_chain(prime[i], n, cycles, residues + i * n);
    for (k = 0; k < n; k++) {
        for (i = 0; i < RUHITAPO_PRIMES; i++)
            residue[i] = residues[i * n + k];
        bytes += write_line(join(residue), text + bytes);
    }
    write_out(text, bytes);
    free(text);
    free(residues);
}

/* The whole number at the start of `words`, at most `most`; `end` is what follows it. */
static uint64_t number(const char *words, uint64_t most, const char **end)
{
    char *after;
    uint64_t value;
    if (*words < '0' || *words > '9')
        stop("not a whole number: ", words);
    errno = 0;
    value = strtoull(words, &after, 10);
    if (errno != 0 || value > most)
        stop("the number is too large: ", words);
    *end = after;
    return value;
}

static size_t count_from(const char *words, uint64_t least, uint64_t most)
{
    const char *end;
    uint64_t value = number(words, most, &end);
    if (*end != '\0')
        stop("not a whole number: ", words);
    if (value < least)
        stop("the number is too small: ", words);
    return (size_t)value;
}

static void read_list(const char *words)
{
    struct list *list = lists + list_count;
    const char *at = words;
    if (list_count == MOST_LISTS)
        stop("more than 64 lists", "");
    if (*words == '\0')
        stop("a list is empty: the series zero is the list 0", "");
    if (strpbrk(words, " \t\n") != NULL)
        stop("a list has commas between its numbers and no spaces, as 0,1,1, and this has spaces: ", words);
    for (;;) {
        if (*at == '\0')
            stop("a list ends with a number, and this ends with a comma: ", words);
        if (*at == ',')
            stop("a list has a number before each comma, and this has not: ", words);
        if (list->count == RUHITAPO_LONGEST_LIST)
            stop("a list has more than 4096 places", "");
        list->coefficient[list->count++] = (uint32_t)number(at, UINT32_MAX, &at);
        if (*at == '\0')
            break;
        if (*at++ != ',')
            stop("a list is whole numbers with commas between them, and this is not: ", words);
    }
    constant_terms |= list->coefficient[0] != 0;
    list_count++;
}

int main(int count, char **arguments)
{
    static char *usual[] = {"joiner", "300", "9", "0,1,1", "0,1,2"};
    size_t n, cycles;
    int i;
    if (count < 2) {
        arguments = usual;
        count = sizeof usual / sizeof *usual;
    }
    if (count == 2 && strcmp(arguments[1], "--help") == 0) {
        write_out(use, sizeof use - 1);
        return 0;
    }
    if (count < 4)
        stop("usage: joiner ORDER CYCLES LIST..., and joiner --help says more", "");
    n = count_from(arguments[1], 1, RUHITAPO_LARGEST_ORDER);
    cycles = count_from(arguments[2], 0, RUHITAPO_MOST_CYCLES);
    for (i = 3; i < count; i++)
        read_list(arguments[i]);
    for (i = 0; i < (int)RUHITAPO_PRIMES; i++)
        prime[i] = ruhitapo_prime((uint32_t)i).prime;
    see_that_it_fits(n, cycles);
    print_table(n, cycles);
    return 0;
}
