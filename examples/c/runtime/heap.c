/* malloc and free, over pages that the monitor makes. Such a page is cloaked and has zeros at first. It takes no
   frame before it is used: the kernel brings it when it is missed. */

#include <stdlib.h>
#include <string.h>
#include <threads.h>
#include "runtime.h"

/* A piece of the heap: its bytes come after it. Free ones are in a list, by rising address. */
struct piece {
    size_t size;
    struct piece *next;
};

/* A program has at most 16 resources, one of which is its image. So the heap grows by no less than this. */
#define LEAST_PAGES 32

static mtx_t mutex;
static struct piece *pieces;
static unsigned end = HEAP;

/* Puts a piece into the list, and makes one of it and its neighbours. */
static void give(struct piece *it)
{
    struct piece **at = &pieces;
    while (*at && *at < it && (char *)*at + (*at)->size != (char *)it)
        at = &(*at)->next;
    if (*at && *at < it) {
        (*at)->size += it->size;
        it = *at;
    } else {
        it->next = *at;
        *at = it;
    }
    if (it->next && (char *)it + it->size == (char *)it->next) {
        it->size += it->next->size;
        it->next = it->next->next;
    }
}

/* Makes pages, and returns whether there were any. */
static int grow(size_t size)
{
    unsigned pages = (size + PAGE - 1) / PAGE;
    if (pages < LEAST_PAGES)
        pages = LEAST_PAGES;
    if (pages > (AREAS - end) / PAGE)
        return 0;
    int resource = ask_monitor(MONITOR_NEW, pages, 0, 0, 0);
    if (resource < 0 || ask_monitor(MONITOR_MAP, resource, end, 0, pages) < 0)
        return 0;
    struct piece *it = (struct piece *)end;
    it->size = pages * PAGE;
    end += pages * PAGE;
    give(it);
    return 1;
}

/* Takes the first piece that is large enough. */
static void *take(size_t size)
{
    for (struct piece **at = &pieces; *at; at = &(*at)->next) {
        struct piece *it = *at;
        if (it->size < size)
            continue;
        if (it->size - size < 2 * sizeof *it) {
            *at = it->next;
        } else {
            struct piece *rest = (struct piece *)((char *)it + size);
            rest->size = it->size - size;
            rest->next = it->next;
            *at = rest;
            it->size = size;
        }
        return it + 1;
    }
    return 0;
}

void *malloc(size_t length)
{
    if (length > AREAS - HEAP)
        return 0;
    size_t size = (length + 2 * sizeof(struct piece) - 1) / sizeof(struct piece) * sizeof(struct piece);
    mtx_lock(&mutex);
    void *it = take(size);
    if (!it && grow(size))
        it = take(size);
    mtx_unlock(&mutex);
    return it;
}

void *calloc(size_t count, size_t length)
{
    if (length && count > (size_t)-1 / length)
        return 0;
    void *it = malloc(count * length);
    return it ? memset(it, 0, count * length) : 0;
}

void free(void *it)
{
    if (!it)
        return;
    mtx_lock(&mutex);
    give((struct piece *)it - 1);
    mtx_unlock(&mutex);
}
