/* Says hello. */

#include <stdio.h>

int main(void)
{
    printf("hello: from a cloaked program in C\n");
    return 0;
}
