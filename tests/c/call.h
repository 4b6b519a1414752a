/* A call of the library: its arguments, and its comparison with the second implementation. */
#ifndef CALL_H
#define CALL_H

#include "plain.h"
#include "ruhitapo.h"

#include <stddef.h>
#include <stdint.h>

enum kind { COMPOSE, REVERSE, OPEN, CYCLE, PRIME, RENDER, KINDS };

/* The most places of a list, of work and of text that a call is made with. */
#define MOST_PLACES 4100u
#define MOST_WORK (152u * 4096u + 64u)
#define MOST_TEXT 46000u

/* A cycle by its chain, as the header has it, without a block length and with one. */
typedef ruhitapo_cycle_answer cycle_function(ruhitapo_chain chain, uint32_t route, const uint32_t *list, size_t list_count,
                                             uint32_t *running, size_t running_count, uint32_t *work, size_t work_count);
typedef ruhitapo_cycle_answer cycle_blocks_function(ruhitapo_chain chain, uint32_t route, size_t block,
                                                    const uint32_t *list, size_t list_count, uint32_t *running,
                                                    size_t running_count, uint32_t *work, size_t work_count);

/* Rendering has its list in g. A cycle has its list, which is the inner one, in f, and the running series, which is the outer one and as long
   as the output, in g; p and n are those of its chain. */
struct call {
    enum kind kind;
    uint32_t route, p, done, index, number;
    uint64_t weight;
    size_t n, f_count, g_count, out_count, work_count, text_count;
    int block_given;                     /* a composition or a cycle is made by the call that takes a block length */
    size_t block;                        /* that length */
    cycle_function *cycle;               /* makes a cycle that is given none; NULL: the exported function, with the numbers of the chain */
    cycle_blocks_function *cycle_blocks; /* the same for one that is given a length */
    int g_in_f;                          /* g is the first part of f, in the same memory */
    unsigned sides;                      /* a bit for each list: whether it ends at a page that is shut, or begins after one */
    uint32_t f[MOST_PLACES], g[MOST_PLACES];
};

/* What was compared so far. */
struct tally {
    uint64_t calls, comparisons, differences;
    uint64_t returned[KINDS][NUMBERS];
};

extern struct tally tally;

/* The call that is being made, in words. */
extern char call_words[512];

void call_begin(void);

/* A chain in plain numbers. */
struct chain {
    uint32_t modulus;
    size_t order;
    uint32_t done;
};

/* What the library returned: the number, and the weight, prime or count beside it; the chain of an opening or a cycle. */
struct returned {
    uint32_t number;
    uint64_t beside;
    struct chain chain;
};

/* Makes the call and compares number, weight or count, chain, and every place of every buffer. */
struct returned call_make(const struct call *call);

/* Compares two numbers. */
void call_compare(const char *what, uint64_t expected, uint64_t found);

/* The places of work that a call of this kind asks for. */
size_t call_work_places(enum kind kind, size_t n, size_t f_count, size_t g_count);

/* The bytes of the text of a rendering. */
size_t call_text_bytes(const struct call *call);

#endif
