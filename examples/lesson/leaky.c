/* Which pages it uses depends on its secret, and a kernel that counts misses reads it (docs/LESSON.md). */

#include <stdio.h>
#include <unistd.h>

int main(void)
{
    const char *secret = "3141";
    char *table = sbrk(10 * 4096);
    for (const char *digit = secret; *digit; digit++)
        table[(*digit - '0') * 4096]++;
    puts("done");
    return 0;
}
