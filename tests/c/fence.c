/* Pages by mmap and mprotect. */
#define _DEFAULT_SOURCE
#include "fence.h"
#include "plain.h"
#include "random.h"

#include <stdio.h>
#include <stdlib.h>
#include <string.h>
#include <sys/mman.h>
#include <unistd.h>

static size_t page_bytes(void)
{
    return (size_t)sysconf(_SC_PAGESIZE);
}

static size_t whole_pages(size_t bytes)
{
    size_t page = page_bytes();
    return (bytes + page - 1) / page * page;
}

static void protect(void *memory, size_t bytes, int how)
{
    if (bytes > 0 && mprotect(memory, bytes, how) != 0) {
        perror("mprotect");
        exit(2);
    }
}

void fence_make(struct fence *fence, size_t most)
{
    size_t page = page_bytes(), room = whole_pages(most);
    unsigned char *memory = mmap(NULL, room + 2 * page, PROT_NONE, MAP_PRIVATE | MAP_ANONYMOUS, -1, 0);
    if (memory == MAP_FAILED) {
        perror("mmap");
        exit(2);
    }
    memset(fence, 0, sizeof *fence);
    fence->first = memory + page;
    fence->room = room;
    fence->open = fence->place = fence->first;
    fence->expected = plain_memory(room);
}

static void place(struct fence *fence, size_t bytes, enum side side)
{
    size_t open = whole_pages(bytes);
    if (open > fence->room) {
        fputs("a list is longer than its fence\n", stderr);
        exit(2);
    }
    protect(fence->open, fence->open_bytes, PROT_NONE);
    fence->open = side == AT_THE_END ? fence->first + fence->room - open : fence->first;
    fence->place = side == AT_THE_END ? fence->first + fence->room - bytes : fence->first;
    fence->open_bytes = open;
    fence->bytes = bytes;
    protect(fence->open, open, PROT_READ | PROT_WRITE);
    random_fill(fence->open, open);
}

void *fence_lend(struct fence *fence, size_t bytes, enum side side)
{
    place(fence, bytes, side);
    memcpy(fence->expected, fence->open, fence->open_bytes);
    return fence->place;
}

const void *fence_list(struct fence *fence, const void *list, size_t bytes, enum side side)
{
    place(fence, bytes, side);
    memcpy(fence->place, list, bytes);
    protect(fence->open, fence->open_bytes, PROT_READ);
    return fence->place;
}

void *fence_expected(struct fence *fence)
{
    return fence->expected + (fence->place - fence->open);
}

ptrdiff_t fence_difference(const struct fence *fence, int *same)
{
    size_t i = 0;
    *same = memcmp(fence->open, fence->expected, fence->open_bytes) == 0;
    while (!*same && fence->open[i] == fence->expected[i])
        i++;
    return (ptrdiff_t)i - (fence->place - fence->open);
}
