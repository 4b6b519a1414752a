/*
 * Lists between pages that can be neither read nor written. A list either begins just after such a page or ends just before one; only the
 * pages that it touches are open. What is left of them, on the other side, is filled with random bytes and compared after the call.
 */
#ifndef FENCE_H
#define FENCE_H

#include <stddef.h>

enum side { AT_THE_BEGINNING, AT_THE_END };

struct fence {
    unsigned char *first;    /* the first byte after the page in front */
    size_t room;             /* bytes up to the page behind */
    unsigned char *open;     /* the open pages */
    size_t open_bytes;
    unsigned char *place;    /* the list */
    size_t bytes;
    unsigned char *expected; /* what the open pages are to hold after the call */
};

/* A fence for lists of up to `most` bytes. */
void fence_make(struct fence *fence, size_t most);

/* A buffer of random bytes, to be written by the call. */
void *fence_lend(struct fence *fence, size_t bytes, enum side side);

/* A copy of `list`, on pages that can only be read. */
const void *fence_list(struct fence *fence, const void *list, size_t bytes, enum side side);

/* What the buffer is to hold after the call; at first what it held before. */
void *fence_expected(struct fence *fence);

/* The first byte, counted from the buffer's place 0, that is not as expected; `same` is set to 0 if there is one. */
ptrdiff_t fence_difference(const struct fence *fence, int *same);

#endif
