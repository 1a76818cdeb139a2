/* qsort, as a heap sort: it takes no memory, and about the same time for any order. */

#include <stdlib.h>

static void exchange(char *left, char *right, size_t size)
{
    while (size--) {
        char byte = *left;
        *left++ = *right;
        *right++ = byte;
    }
}

/* Lets the element at a place sink, until none below it is greater. */
static void sink(char *all, size_t at, size_t count, size_t size, int (*compare)(const void *, const void *))
{
    for (size_t below; (below = 2 * at + 1) < count; at = below) {
        if (below + 1 < count && compare(all + below * size, all + (below + 1) * size) < 0)
            below++;
        if (compare(all + at * size, all + below * size) >= 0)
            return;
        exchange(all + at * size, all + below * size, size);
    }
}

void qsort(void *all, size_t count, size_t size, int (*compare)(const void *, const void *))
{
    for (size_t at = count / 2; at-- > 0;)
        sink(all, at, count, size, compare);
    while (count > 1) {
        count--;
        exchange(all, (char *)all + count * size, size);
        sink(all, 0, count, size, compare);
    }
}
