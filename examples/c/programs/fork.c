/* Parent and child add one half each of the same numbers. Each has its own copy of them; the child hands over its
   sum in a page that both have. */

#include <cloak.h>
#include <stdio.h>
#include <stdlib.h>
#include <sys/wait.h>
#include <unistd.h>

#define NUMBERS 4096

static unsigned add(const unsigned *from, int count)
{
    unsigned sum = 0;
    while (count--)
        sum += *from++;
    return sum;
}

int main(void)
{
    unsigned *numbers = malloc(NUMBERS * sizeof *numbers);
    unsigned *shared = share(1, 1);
    if (!numbers || !shared)
        return 1;
    for (int i = 0; i < NUMBERS; i++)
        numbers[i] = i;
    pid_t child = fork();
    if (child < 0) {
        printf("fork: there is no child\n");
        return 1;
    }
    if (child == 0) {
        *shared = add(numbers + NUMBERS / 2, NUMBERS / 2);
        for (int i = 0; i < NUMBERS; i++)
            numbers[i] = 0;
        printf("fork: the child has %u\n", *shared);
        return 0;
    }
    waitpid(child, 0, 0);
    /* The child has cleared its own numbers alone. */
    unsigned sum = add(numbers, NUMBERS / 2);
    printf("fork: the parent has %u, both have %u\n", sum, sum + *shared);
    return 0;
}
