/*
 * Ruhitapo: residue composition. The C interface of the proved library libruhitapo.a.
 *
 * A list is a pointer to its first place and a count of places; a series is a list of 32-bit numbers, the coefficient of power 0 first.
 * Missing coefficients are zero. p is the modulus, n the order: results are cut to powers below n.
 *
 * For every call, a refused one too:
 *   - a pointer is aligned for what it points to and is not null, where the count is 0 also. For an empty list pass the address of any
 *     object of the type; nothing is read or written there;
 *   - a list has as many places as its count says, readable, and writable too if it is lent to be written (out, running, work, text).
 *     Every place was written to before, by calloc for instance; what it holds does not matter in out, work and text, nor in running at an
 *     opening;
 *   - out, running, work and text overlap no other list of the call. Lists that are only read may overlap each other, or be the same;
 *   - nothing else changes a list of the call until it returns.
 *
 * A call answers with a number: 0 if it is accepted, else that of the first condition that holds, in the order of the call's tests, which
 * is given at the call. A refused call leaves every list as it was and returns 0 beside its number; a refused opening returns a chain of
 * zeros, a refused cycle the chain as it was. No call stops the program, keeps anything between calls or allocates memory, so several
 * threads may call at a time, each with its own out, running, work and text.
 */
#ifndef RUHITAPO_H
#define RUHITAPO_H

#include <stddef.h>
#include <stdint.h>

#ifdef __cplusplus
extern "C" {
#endif

/* What a call returns. 12 and 13 belong to the job program; a text that is rendered may name them. */
enum {
    RUHITAPO_ACCEPTED = 0,
    RUHITAPO_BAD_ROUTE = 1,             /* the route is not 1, 2, 3 or 4 */
    RUHITAPO_BAD_MODULUS = 2,           /* p is not prime or above 4294967295 */
    RUHITAPO_BAD_ORDER = 3,             /* n is 0 or above 4096 */
    RUHITAPO_OUTER_LIST_TOO_LONG = 4,   /* the outer list has more than 4096 places */
    RUHITAPO_INNER_LIST_TOO_LONG = 5,   /* the inner list, series or cycle list has more than 4096 places */
    RUHITAPO_NOT_N_PLACES = 6,          /* the output, running buffer or rendered list has not exactly n places */
    RUHITAPO_BUFFER_TOO_SHORT = 7,      /* the work buffer or the text buffer is too short */
    RUHITAPO_COEFFICIENT_TOO_LARGE = 8, /* a coefficient is p or more */
    RUHITAPO_NO_REVERSE_SERIES = 9,     /* no reverse series exists */
    RUHITAPO_CONSTANT_TERM = 10,        /* the cycle or the running series has a constant term */
    RUHITAPO_CHAIN_FULL = 11,           /* 64 or more cycles are done */
    RUHITAPO_FILE_TOO_LARGE = 12,       /* the job file, or an order or count in its header, is too large */
    RUHITAPO_FILE_CUT_SHORT = 13,       /* the job file lacks its header or a list */
    RUHITAPO_BAD_INDEX = 14,            /* the index is 16 or more */
    RUHITAPO_BAD_BLOCK_LENGTH = 15      /* the route is 2 and the block length is 0 or above 64 */
};

/* The routes of a composition and of a cycle. All give the same coefficients; the weights differ. */
enum {
    RUHITAPO_HORNER = 1,
    RUHITAPO_RANGED = 2,
    RUHITAPO_BERNSTEIN = 3,
    RUHITAPO_KINOSHITA_LI = 4
};

/* Limits. The largest modulus is no prime itself: the last prime up to it, which is the largest that is taken, is 4294967291. */
#define RUHITAPO_LARGEST_ORDER 4096u
#define RUHITAPO_LONGEST_LIST 4096u
#define RUHITAPO_LARGEST_MODULUS 4294967295u
#define RUHITAPO_MOST_CYCLES 64u
#define RUHITAPO_PRIMES 16u

/*
 * The block length: route 2 cuts the outer list into blocks of so many places, the last of which may be shorter. All lengths give the same
 * coefficients; the weights differ. The other routes do not read the length, and take any. It is 4 in the calls that have none.
 */
#define RUHITAPO_SHORTEST_BLOCK 1u
#define RUHITAPO_LONGEST_BLOCK 64u
#define RUHITAPO_BLOCK_LENGTH 4u

/* The places of work that compose (m the count of f) and reverse (m the count of g) ask for at order n. */
#define RUHITAPO_WORK_PLACES(n, m) (128 * (size_t)(n) + 8 * (size_t)(m))

/* The places of work that a cycle asks for at order n, m being the count of its list. */
#define RUHITAPO_CYCLE_WORK_PLACES(n, m) (144 * (size_t)(n) + 8 * (size_t)(m))

/* As many bytes hold every text for order n, and every refusal. At the largest order they are 45085, and no text has more. */
#define RUHITAPO_TEXT_BYTES(n) (29 + 11 * (size_t)(n))
#define RUHITAPO_MOST_TEXT_BYTES 45085u

/* What compose and reverse answer. */
typedef struct ruhitapo_answer {
    uint32_t number;
    uint64_t weight;
} ruhitapo_answer;

/*
 * A chain of cycles, as a call left it: its modulus, its order and the cycles done. ruhitapo_open gives the first, each cycle takes one and
 * gives the next: keep what a call returned and pass it on whole. A later version may add a field, and a program that does so stays as it is.
 */
typedef struct ruhitapo_chain {
    uint32_t modulus;
    size_t order;
    uint32_t done;
} ruhitapo_chain;

/* What opening a chain answers. */
typedef struct ruhitapo_open_answer {
    uint32_t number;
    uint64_t weight;
    ruhitapo_chain chain;
} ruhitapo_open_answer;

/* What a cycle answers. */
typedef struct ruhitapo_cycle_answer {
    uint32_t number;
    uint64_t weight;
    ruhitapo_chain chain;
} ruhitapo_cycle_answer;

/* What the table answers. */
typedef struct ruhitapo_prime_answer {
    uint32_t number;
    uint32_t prime;
} ruhitapo_prime_answer;

/* What rendering answers. */
typedef struct ruhitapo_text_answer {
    uint32_t number;
    size_t count;
} ruhitapo_text_answer;

/*
 * f(g) modulo x^n over the integers modulo p, by the route named.
 *
 * Refused if, tested in this order:
 *   1  route is not 1, 2, 3 or 4
 *   2  p is not prime or above 4294967295
 *   3  n is 0 or above 4096
 *   4  f_count is above 4096
 *   5  g_count is above 4096
 *   6  out_count is not n
 *   7  work_count is below 128 n + 8 f_count
 *   8  a coefficient of f or g is p or more, in places of g from n on too
 *
 * Accepted: out holds the n coefficients, each below p; the first 128 n + 8 f_count places of work are zero, later ones as before; the
 * weight is the sum over the products of the route, each counting the places that it is cut to. With an empty f the coefficients are
 * zeros and the weight is 0.
 */
ruhitapo_answer ruhitapo_compose(uint32_t route, uint32_t p, size_t n,
                                 const uint32_t *f, size_t f_count,
                                 const uint32_t *g, size_t g_count,
                                 uint32_t *out, size_t out_count,
                                 uint32_t *work, size_t work_count);

/*
 * ruhitapo_compose with the block length `block`; ruhitapo_compose is this with RUHITAPO_BLOCK_LENGTH.
 *
 * Refused if, tested in this order:
 *   1  route is not 1, 2, 3 or 4
 *  15  route is 2, and block is 0 or above 64
 *   2  p is not prime or above 4294967295
 *   3  n is 0 or above 4096
 *   4  f_count is above 4096
 *   5  g_count is above 4096
 *   6  out_count is not n
 *   7  work_count is below 128 n + 8 f_count
 *   8  a coefficient of f or g is p or more, in places of g from n on too
 *
 * Accepted: as ruhitapo_compose; the weight of route 2 is that of blocks of this length.
 */
ruhitapo_answer ruhitapo_compose_blocks(uint32_t route, size_t block, uint32_t p, size_t n,
                                        const uint32_t *f, size_t f_count,
                                        const uint32_t *g, size_t g_count,
                                        uint32_t *out, size_t out_count,
                                        uint32_t *work, size_t work_count);

/*
 * The reverse series of g: the one h with constant term 0 and g(h) = x modulo x^n.
 *
 * Refused if, tested in this order:
 *   2  p is not prime or above 4294967295
 *   3  n is 0 or above 4096
 *   5  g_count is above 4096
 *   6  out_count is not n
 *   7  work_count is below 128 n + 8 g_count
 *   8  a coefficient of g is p or more
 *   9  the constant term of g is not zero, or n is above 1 and its linear coefficient is zero: there is no such h
 *
 * Accepted: out holds the n coefficients of h, each below p; the first 128 n + 8 g_count places of work are zero, later ones as before;
 * the weight is 0. At n = 1 h is the list 0.
 */
ruhitapo_answer ruhitapo_reverse(uint32_t p, size_t n,
                                 const uint32_t *g, size_t g_count,
                                 uint32_t *out, size_t out_count,
                                 uint32_t *work, size_t work_count);

/*
 * Opens a chain of modulus p and order n: the running series, which stands in the buffer `running`, becomes x modulo x^n.
 *
 * Refused if, tested in this order:
 *   2  p is not prime or above 4294967295
 *   3  n is 0 or above 4096
 *   6  running_count is not n
 *
 * Accepted: running holds 0, then 1 (if n is above 1), then zeros; the chain has no cycle done; the weight is 0. Refused: the chain is
 * zeros, which every cycle refuses.
 */
ruhitapo_open_answer ruhitapo_open(uint32_t p, size_t n, uint32_t *running, size_t running_count);

/*
 * What ruhitapo_cycle and ruhitapo_cycle_blocks, below, call; see there. The first arguments are the fields of the chain, and a later version
 * may have more of them.
 */
ruhitapo_cycle_answer ruhitapo_cycle_numbers(uint32_t modulus, size_t order, uint32_t done, uint32_t route,
                                             const uint32_t *list, size_t list_count,
                                             uint32_t *running, size_t running_count,
                                             uint32_t *work, size_t work_count);
ruhitapo_cycle_answer ruhitapo_cycle_blocks_numbers(uint32_t modulus, size_t order, uint32_t done, uint32_t route, size_t block,
                                                    const uint32_t *list, size_t list_count,
                                                    uint32_t *running, size_t running_count,
                                                    uint32_t *work, size_t work_count);

/*
 * A cycle of the chain: the running series S becomes S(C) modulo x^n by the route named, C being the list, so that the earliest cycle is
 * outermost. p is the chain's modulus, n its order. The buffer `running` holds the running series as the call before left it.
 *
 * Refused if, tested in this order:
 *   1  route is not 1, 2, 3 or 4
 *   2  p is not prime or above 4294967295
 *   3  n is 0 or above 4096
 *   5  list_count is above 4096
 *   6  running_count is not n
 *   7  work_count is below 144 n + 8 list_count
 *   8  a coefficient of list or running is p or more
 *  10  the constant term of list or running is not zero
 *  11  64 or more cycles are done
 *
 * Accepted: running holds the n coefficients, each below p; the first 144 n + 8 list_count places of work are zero, later ones as before;
 * the chain has one more cycle done; the weight is that of ruhitapo_compose with an f of n places, as the running series is. Refused: the chain
 * is as it was.
 */
static inline ruhitapo_cycle_answer ruhitapo_cycle(ruhitapo_chain chain, uint32_t route,
                                                   const uint32_t *list, size_t list_count,
                                                   uint32_t *running, size_t running_count,
                                                   uint32_t *work, size_t work_count)
{
    return ruhitapo_cycle_numbers(chain.modulus, chain.order, chain.done, route, list, list_count, running, running_count,
                                  work, work_count);
}

/*
 * ruhitapo_cycle with the block length `block`; ruhitapo_cycle is this with RUHITAPO_BLOCK_LENGTH.
 *
 * Refused if, tested in this order:
 *   1  route is not 1, 2, 3 or 4
 *  15  route is 2, and block is 0 or above 64
 *   2  p is not prime or above 4294967295
 *   3  n is 0 or above 4096
 *   5  list_count is above 4096
 *   6  running_count is not n
 *   7  work_count is below 144 n + 8 list_count
 *   8  a coefficient of list or running is p or more
 *  10  the constant term of list or running is not zero
 *  11  64 or more cycles are done
 *
 * Accepted: as ruhitapo_cycle; the weight is that of ruhitapo_compose_blocks with an f of n places. Refused: the chain is as it was.
 */
static inline ruhitapo_cycle_answer ruhitapo_cycle_blocks(ruhitapo_chain chain, uint32_t route, size_t block,
                                                          const uint32_t *list, size_t list_count,
                                                          uint32_t *running, size_t running_count,
                                                          uint32_t *work, size_t work_count)
{
    return ruhitapo_cycle_blocks_numbers(chain.modulus, chain.order, chain.done, route, block, list, list_count,
                                         running, running_count, work, work_count);
}

/*
 * Entry `index` of the table: the sixteen largest primes below 2147483648, largest first.
 *
 * Refused if:
 *   14  index is 16 or more
 */
ruhitapo_prime_answer ruhitapo_prime(uint32_t index);

/*
 * The printed answer, as bytes with no zero byte at the end. With number 0 it is `ok `, the order n, a space, the weight, a line end, the
 * coefficients with single spaces, a line end. With any other number it is `no `, the number, a line end, and n, weight and list do not
 * matter; list is still a pointer and a count.
 *
 * Refused if, tested in this order, 3 and 6 with number 0 only:
 *   3  n is 0 or above 4096
 *   6  list_count is not n
 *   7  the text has more than text_count bytes
 *
 * Accepted: the text stands in the first `count` bytes of text; later bytes are as before. RUHITAPO_TEXT_BYTES(n) bytes always suffice.
 * The coefficients are any 32-bit numbers.
 */
ruhitapo_text_answer ruhitapo_render(uint32_t number, size_t n, uint64_t weight,
                                     const uint32_t *list, size_t list_count,
                                     uint8_t *text, size_t text_count);

#ifdef __cplusplus
}
#endif

#endif
