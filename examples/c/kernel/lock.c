/* The one lock of the kernel. A hart takes it as it comes, and gives it back as it resumes a context or has nothing
   to do. So all else in this kernel is written as if there were one hart. */

#include "kernel.h"

static unsigned held;

void lock(void)
{
    unsigned was;
    do
        __asm__ volatile("amoswap.w.aq %0, %1, (%2)" : "=&r"(was) : "r"(1), "r"(&held) : "memory");
    while (was);
}

void unlock(void)
{
    __asm__ volatile("amoswap.w.rl zero, zero, (%0)" : : "r"(&held) : "memory");
}
