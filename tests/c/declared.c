/* What the header declares: every constant, macro, struct and function against plain numbers and types. */
#include "cases.h"

#include <string.h>

#define COUNT(array) (sizeof(array) / sizeof *(array))

/* What is written in the header, and the number that it stands for. */
#define IS(number, written) {#written, written, number}

static const struct {
    const char *name;
    uint64_t written, number;
} constants[] = {
    IS(0, RUHITAPO_ACCEPTED),
    IS(1, RUHITAPO_BAD_ROUTE),
    IS(2, RUHITAPO_BAD_MODULUS),
    IS(3, RUHITAPO_BAD_ORDER),
    IS(4, RUHITAPO_OUTER_LIST_TOO_LONG),
    IS(5, RUHITAPO_INNER_LIST_TOO_LONG),
    IS(6, RUHITAPO_NOT_N_PLACES),
    IS(7, RUHITAPO_BUFFER_TOO_SHORT),
    IS(8, RUHITAPO_COEFFICIENT_TOO_LARGE),
    IS(9, RUHITAPO_NO_REVERSE_SERIES),
    IS(10, RUHITAPO_CONSTANT_TERM),
    IS(11, RUHITAPO_CHAIN_FULL),
    IS(12, RUHITAPO_FILE_TOO_LARGE),
    IS(13, RUHITAPO_FILE_CUT_SHORT),
    IS(14, RUHITAPO_BAD_INDEX),
    IS(15, RUHITAPO_BAD_BLOCK_LENGTH),
    IS(1, RUHITAPO_HORNER),
    IS(2, RUHITAPO_RANGED),
    IS(3, RUHITAPO_BERNSTEIN),
    IS(4, RUHITAPO_KINOSHITA_LI),
    IS(4096, RUHITAPO_LARGEST_ORDER),
    IS(4096, RUHITAPO_LONGEST_LIST),
    IS(4294967295, RUHITAPO_LARGEST_MODULUS),
    IS(64, RUHITAPO_MOST_CYCLES),
    IS(16, RUHITAPO_PRIMES),
    IS(1, RUHITAPO_SHORTEST_BLOCK),
    IS(64, RUHITAPO_LONGEST_BLOCK),
    IS(4, RUHITAPO_BLOCK_LENGTH),
    IS(45085, RUHITAPO_MOST_TEXT_BYTES),
    /* in a product, with sums as arguments, and beyond 32 bits */
    IS(2 * (128 * 4 + 8 * 3), 2 * RUHITAPO_WORK_PLACES(1 + 3, 1 + 2)),
    IS(UINT64_C(136) * UINT32_MAX, RUHITAPO_WORK_PLACES(UINT32_MAX, UINT32_MAX)),
    IS(2 * (144 * 4 + 8 * 3), 2 * RUHITAPO_CYCLE_WORK_PLACES(1 + 3, 1 + 2)),
    IS(UINT64_C(152) * UINT32_MAX, RUHITAPO_CYCLE_WORK_PLACES(UINT32_MAX, UINT32_MAX)),
    IS(2 * (29 + 11 * 4), 2 * RUHITAPO_TEXT_BYTES(1 + 3)),
    IS(29 + UINT64_C(11) * UINT32_MAX, RUHITAPO_TEXT_BYTES(UINT32_MAX)),
    /* the structs as the library lays them out */
    IS(16, sizeof(ruhitapo_answer)),
    IS(0, offsetof(ruhitapo_answer, number)),
    IS(8, offsetof(ruhitapo_answer, weight)),
    IS(24, sizeof(ruhitapo_chain)),
    IS(0, offsetof(ruhitapo_chain, modulus)),
    IS(8, offsetof(ruhitapo_chain, order)),
    IS(16, offsetof(ruhitapo_chain, done)),
    IS(40, sizeof(ruhitapo_open_answer)),
    IS(0, offsetof(ruhitapo_open_answer, number)),
    IS(8, offsetof(ruhitapo_open_answer, weight)),
    IS(16, offsetof(ruhitapo_open_answer, chain)),
    IS(40, sizeof(ruhitapo_cycle_answer)),
    IS(0, offsetof(ruhitapo_cycle_answer, number)),
    IS(8, offsetof(ruhitapo_cycle_answer, weight)),
    IS(16, offsetof(ruhitapo_cycle_answer, chain)),
    IS(8, sizeof(ruhitapo_prime_answer)),
    IS(0, offsetof(ruhitapo_prime_answer, number)),
    IS(4, offsetof(ruhitapo_prime_answer, prime)),
    IS(16, sizeof(ruhitapo_text_answer)),
    IS(0, offsetof(ruhitapo_text_answer, number)),
    IS(8, offsetof(ruhitapo_text_answer, count)),
};

static void compare_constants(void)
{
    size_t i;
    for (i = 0; i < COUNT(constants); i++)
        call_compare(constants[i].name, constants[i].number, constants[i].written);
}

/* A field has so many bytes, and no sign. */
#define FIELD(bytes, type, field)                                            \
    do {                                                                     \
        type value;                                                          \
        memset(&value, 255, sizeof value);                                   \
        call_compare(#type ", bytes of " #field, bytes, sizeof value.field); \
        call_compare(#type ", no sign of " #field, 1, value.field > 0);      \
    } while (0)

static void compare_fields(void)
{
    FIELD(4, ruhitapo_answer, number);
    FIELD(8, ruhitapo_answer, weight);
    FIELD(4, ruhitapo_chain, modulus);
    FIELD(sizeof(size_t), ruhitapo_chain, order);
    FIELD(4, ruhitapo_chain, done);
    FIELD(4, ruhitapo_open_answer, number);
    FIELD(8, ruhitapo_open_answer, weight);
    FIELD(4, ruhitapo_cycle_answer, number);
    FIELD(8, ruhitapo_cycle_answer, weight);
    FIELD(4, ruhitapo_prime_answer, number);
    FIELD(4, ruhitapo_prime_answer, prime);
    FIELD(4, ruhitapo_text_answer, number);
    FIELD(sizeof(size_t), ruhitapo_text_answer, count);
}

/* A function is declared with just these types, that of its answer first; a list is a pointer and a count. */
#define DECLARED(name, answer, ...) \
    call_compare("declaration of " #name, 1, __builtin_types_compatible_p(__typeof__(name), answer(__VA_ARGS__)))
#define READ const uint32_t *, size_t
#define LENT uint32_t *, size_t

static void compare_functions(void)
{
    DECLARED(ruhitapo_compose, ruhitapo_answer, uint32_t, uint32_t, size_t, READ, READ, LENT, LENT);
    DECLARED(ruhitapo_compose_blocks, ruhitapo_answer, uint32_t, size_t, uint32_t, size_t, READ, READ, LENT, LENT);
    DECLARED(ruhitapo_reverse, ruhitapo_answer, uint32_t, size_t, READ, LENT, LENT);
    DECLARED(ruhitapo_open, ruhitapo_open_answer, uint32_t, size_t, LENT);
    DECLARED(ruhitapo_cycle_numbers, ruhitapo_cycle_answer, uint32_t, size_t, uint32_t, uint32_t, READ, LENT, LENT);
    DECLARED(ruhitapo_cycle_blocks_numbers, ruhitapo_cycle_answer, uint32_t, size_t, uint32_t, uint32_t, size_t, READ, LENT, LENT);
    DECLARED(ruhitapo_cycle, ruhitapo_cycle_answer, ruhitapo_chain, uint32_t, READ, LENT, LENT);
    DECLARED(ruhitapo_cycle_blocks, ruhitapo_cycle_answer, ruhitapo_chain, uint32_t, size_t, READ, LENT, LENT);
    DECLARED(ruhitapo_prime, ruhitapo_prime_answer, uint32_t);
    DECLARED(ruhitapo_render, ruhitapo_text_answer, uint32_t, size_t, uint64_t, READ, uint8_t *, size_t);
}

void declared_compare(void)
{
    compare_constants();
    compare_fields();
    compare_functions();
}
