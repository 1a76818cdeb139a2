/* It uses the same pages whatever its secret is (docs/LESSON.md). */

#include <stdio.h>
#include <unistd.h>

int main(void)
{
    const char *secret = "3141";
    char *table = sbrk(10 * 4096);
    for (const char *digit = secret; *digit; digit++)
        for (int i = 0; i < 10; i++)
            table[i * 4096] += i == *digit - '0';
    puts("done");
    return 0;
}
