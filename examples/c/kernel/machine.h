/* What the machine offers to a kernel: RAM, host calls, and control and status registers (docs/MACHINE.md). */

#ifndef MACHINE_H
#define MACHINE_H

#include <stdbool.h>

#define RAM 0x80000000u         /* where frame 0 begins */

/* Why a hart comes to the kernel: scause. */
#define CAUSE_CALL          8
#define CAUSE_FETCH_PAGE    12
#define CAUSE_LOAD_PAGE     13
#define CAUSE_STORE_PAGE    15
#define CAUSE_GONE          24
#define CAUSE_TIMER         0x80000005

#define STATUS_FROM_KERNEL  0x100   /* sstatus: the trap came from S mode */

/* A host call has its number in a7, arguments in a0 and a1, and its answer in a0. No other register changes. */
static inline unsigned host_call(unsigned number, unsigned first, unsigned second)
{
    register unsigned a0 __asm__("a0") = first;
    register unsigned a1 __asm__("a1") = second;
    register unsigned a7 __asm__("a7") = number;
    __asm__ volatile("ecall" : "+r"(a0) : "r"(a1), "r"(a7) : "memory");
    return a0;
}

static inline void put_byte(char byte)
{
    host_call(0, (unsigned char)byte, 0);
}

/* Sets the timer of this hart, and clears an interrupt of it that is due. */
static inline void set_timer(unsigned steps)
{
    host_call(1, steps, 0);
}

/* Both return whether there are such a block and such a frame. */
static inline bool read_block(unsigned block, void *frame)
{
    return host_call(2, block, (unsigned)frame) == 0;
}

static inline bool write_block(unsigned block, const void *frame)
{
    return host_call(3, block, (unsigned)frame) == 0;
}

static inline _Noreturn void halt(unsigned value)
{
    host_call(4, value, 0);
    for (;;)
        ;
}

#define read_register(name) ({ \
    unsigned value_; \
    __asm__ volatile("csrr %0, " #name : "=r"(value_)); \
    value_; \
})

#endif
