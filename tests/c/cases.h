/* The calls that are made. */
#ifndef CASES_H
#define CASES_H

#include "call.h"

/* What stands at the last place of f, or of g where f is empty: p - 1 or p. CONSTANT puts 1 at the first place instead. */
enum last { ANY, BELOW, EQUAL, CONSTANT };

/* A call at one side of an edge. out_more and work_more are added to the counts asked for; work stands for the text in a rendering. The
   route is the index or the number where there is no route, g_count the cycles done in a cycle, whose running series is as long as the
   output. */
struct edge {
    enum kind kind;
    uint32_t route, p;
    size_t n, f_count, g_count;
    int out_more, work_more;
    enum last last;
};

/* The call of an edge, with random lists. */
void edge_call(struct call *call, const struct edge *edge);

/* Makes every call of the table of edges, its lists at both sides. */
void edges_make(void);

/* Makes calls with every block length that route 2 takes and with others, by every route, alone and beside every other reason to refuse. */
void blocks_make(void);

/* Makes the call of an edge with this block length, its lists at one side; a cycle by the header's function or by the exported one. */
struct returned blocks_at(const struct edge *edge, size_t block, int by_the_header);

/* A block length that the route takes: route 2 those from 1 to 64, the others any. */
size_t random_block(uint32_t route);

/* A block length that route 2 refuses. */
size_t random_refused_block(void);

/* Opens chains and cycles them until they are full, each call given the chain that the one before left, with refused calls among them. */
void chains_make(void);

/* Holds the constants, macros, structs and declarations of the header against plain numbers and types. */
void declared_compare(void);

/* The same, and then makes calls at the edge of each, and by the functions that the header defines. */
void header_make(void);

/* A random call: valid, or damaged in one to three places. */
void random_call(struct call *call);

/* A list of `count` coefficients below p, some of them 0, 1 or p - 1. */
void random_list(uint32_t p, uint32_t *list, size_t count);

#endif
