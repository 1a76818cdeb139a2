/* Sorts cards that need more pages than there are frames for them. What is sorted are their addresses, and each
   comparison looks at two cards, somewhere in 32 pages: so pages go out and come back all the time. */

#include <stdio.h>
#include <stdlib.h>

#define CARDS 256

struct card {
    unsigned key;
    unsigned rank;                  /* its place in the order, from 1 on */
    char rest[504];
};

static int by_key(const void *left, const void *right)
{
    unsigned l = (*(struct card *const *)left)->key, r = (*(struct card *const *)right)->key;
    return l < r ? -1 : l > r;
}

int main(void)
{
    struct card *cards = malloc(CARDS * sizeof *cards);
    struct card **order = malloc(CARDS * sizeof *order);
    if (!cards || !order)
        return 1;
    unsigned number = 1;
    for (int i = 0; i < CARDS; i++) {
        number = number * 1103515245 + 12345;
        cards[i].key = number >> 8;
        order[i] = &cards[i];
    }
    qsort(order, CARDS, sizeof *order, by_key);
    for (int i = 0; i < CARDS; i++)
        order[i]->rank = i + 1;

    /* Over all cards as they lie: is each rank there once, and in the right order? */
    unsigned sum = 0, wrong = 0;
    for (int i = 0; i < CARDS; i++)
        sum = sum * 31 + cards[i].rank;
    for (int i = 1; i < CARDS; i++)
        wrong += order[i - 1]->key > order[i]->key || order[i]->rank != order[i - 1]->rank + 1;
    unsigned least = order[0]->key, greatest = order[CARDS - 1]->key;
    printf("sort: %d cards, keys from %u to %u, %u wrong, sum %08x\n", CARDS, least, greatest, wrong, sum);
    return 0;
}
