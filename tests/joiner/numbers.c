/*
 * Carries out what each line of standard input asks of examples/joiner_numbers.h, and prints the result on a line.
 *
 * A bound is a whole number in hexadecimal, all its digits, and an exponent. A line is `multiply`, `add` or `below` and two bounds, `bits` and a
 * bound, `decimal` and a bound whose whole number is meant, or `power` and an exponent of two.
 */
#include "../../examples/joiner_numbers.h"

#include <inttypes.h>
#include <stdio.h>

static struct bound read_bound(void)
{
    uint32_t word[WORDS];
    int64_t exponent;
    size_t i;
    for (i = WORDS; i-- > 0;)
        if (scanf("%8" SCNx32, &word[i]) != 1)
            exit(1);
    if (scanf("%" SCNd64, &exponent) != 1)
        exit(1);
    return leading(word, WORDS, exponent);
}

static void print_bound(struct bound a)
{
    size_t i;
    for (i = WORDS; i-- > 0;)
        printf("%08" PRIx32, a.whole.word[i]);
    printf(" %" PRId64 "\n", a.exponent);
}

static void print_of_power(void)
{
    int64_t exponent;
    if (scanf("%" SCNd64, &exponent) != 1)
        exit(1);
    print_bound(power_of_two(exponent));
}

static void print_of_one(const char *what)
{
    struct bound a = read_bound();
    char line[LINE_BYTES];
    if (strcmp(what, "bits") == 0)
        printf("%" PRId64 "\n", bits(&a));
    else
        fwrite(line, 1, write_line(a.whole, line), stdout);
}

static void print_of_two(const char *what)
{
    struct bound a = read_bound(), b = read_bound();
    if (strcmp(what, "multiply") == 0)
        print_bound(multiply(&a, &b));
    else if (strcmp(what, "add") == 0)
        print_bound(add(&a, &b));
    else
        printf("%d\n", below(&a, &b));
}

int main(void)
{
    char what[9];
    while (scanf("%8s", what) == 1)
        if (strcmp(what, "power") == 0)
            print_of_power();
        else if (strcmp(what, "bits") == 0 || strcmp(what, "decimal") == 0)
            print_of_one(what);
        else
            print_of_two(what);
    return ferror(stdin) || fflush(stdout) != 0 || ferror(stdout);
}
