/* What the runtime keeps, and how it calls. Programs include the headers of C instead, which are in `include`. */

#ifndef RUNTIME_H
#define RUNTIME_H

#include <stddef.h>
#include "../agreed.h"

/* start.S knows the places of the first five. */
struct thread {
    void *area;                     /* the page through which the bytes of its calls go. It is not cloaked */
    int (*function)(void *);
    void *argument;
    int result;
    volatile int is_done;
    int number;                     /* of its context */
    void *stack;
};

static inline struct thread *this_thread(void)
{
    struct thread *it;
    __asm__ volatile("mv %0, tp" : "=r"(it));
    return it;
}

/* A hypercall: the monitor answers it, and the kernel sees nothing of it. */
static inline int ask_monitor(unsigned number, unsigned first, unsigned second, unsigned third, unsigned fourth)
{
    register unsigned a0 __asm__("a0") = first;
    register unsigned a1 __asm__("a1") = second;
    register unsigned a2 __asm__("a2") = third;
    register unsigned a3 __asm__("a3") = fourth;
    register unsigned a7 __asm__("a7") = number;
    __asm__ volatile("ecall" : "+r"(a0) : "r"(a1), "r"(a2), "r"(a3), "r"(a7) : "memory");
    return (int)a0;
}

/* A call to the kernel. If it has a buffer, its bytes go through the area of this thread. */
static inline int ask_kernel(unsigned number, unsigned first, const void *buffer, unsigned length)
{
    register unsigned a0 __asm__("a0") = first;
    register unsigned a1 __asm__("a1") = (unsigned)buffer;
    register unsigned a2 __asm__("a2") = length;
    register unsigned a3 __asm__("a3") = (unsigned)this_thread()->area;
    register unsigned a6 __asm__("a6") = number;
    register unsigned a7 __asm__("a7") = MONITOR_CALL;
    __asm__ volatile("ecall" : "+r"(a0) : "r"(a1), "r"(a2), "r"(a3), "r"(a6), "r"(a7) : "memory");
    return (int)a0;
}

extern struct thread first_thread;

/* start.S */
_Noreturn void exit_context(void);
void begin_thread(void);

#endif
