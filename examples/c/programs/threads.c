/* Four threads look for prime numbers. They share a counter, from which each takes the next number to look at,
   and a list, to which each adds what it found, under a lock. */

#include <stdatomic.h>
#include <stdio.h>
#include <threads.h>

#define END 1000

static atomic_uint next = 2;
static mtx_t mutex;
static unsigned found[END], count;

static int is_prime(unsigned number)
{
    for (unsigned divisor = 2; divisor * divisor <= number; divisor++)
        if (number % divisor == 0)
            return 0;
    return 1;
}

static int look(void *unused)
{
    unsigned number;
    (void)unused;
    while ((number = atomic_fetch_add(&next, 1)) < END) {
        if (!is_prime(number))
            continue;
        mtx_lock(&mutex);
        found[count++] = number;
        mtx_unlock(&mutex);
    }
    return 0;
}

int main(void)
{
    thrd_t threads[3];
    for (int i = 0; i < 3; i++)
        if (thrd_create(&threads[i], look, 0) != thrd_success)
            return 1;
    look(0);
    for (int i = 0; i < 3; i++)
        thrd_join(threads[i], 0);
    unsigned sum = 0;
    for (unsigned i = 0; i < count; i++)
        sum += found[i];
    printf("threads: %u prime numbers below %u, their sum is %u\n", count, END, sum);
    return 0;
}
