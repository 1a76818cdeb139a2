# Where a hart begins, where it comes back from a context, and how it goes into one
# =================================================================================
#
# A kernel under this monitor has nothing to save. As a context leaves, all registers are 0 but t0, its number, a0 to
# a5, the arguments of a call, and a7, the call's number. What the context had stays with the monitor. So a hart comes
# with an empty stack each time, serves what it came for, and resumes some context. It never returns.

    .section .text.start, "ax"
    .globl start, trap, resume

start:                              # a0: the number of the hart
    la    sp, stacks
    addi  t0, a0, 1
    slli  t0, t0, 10
    add   sp, sp, t0                # the end of the hart's stack of 1 KiB
    csrw  sscratch, sp              # found again at each trap
    la    t0, trap
    csrw  stvec, t0
    li    t0, 32
    csrw  sie, t0                   # the timer interrupts contexts. SIE stays 0, so nothing interrupts the kernel
    j     main

trap:
    csrw  satp, zero                # the kernel needs no paging: it has RAM at its own addresses either way
    csrr  sp, sscratch
    addi  sp, sp, -48               # a struct leave, and the stack stays a multiple of 16
    sw    a0, 0(sp)
    sw    a1, 4(sp)
    sw    a2, 8(sp)
    sw    a3, 12(sp)
    sw    a4, 16(sp)
    sw    a5, 20(sp)
    sw    a7, 24(sp)
    sw    t0, 28(sp)
    csrr  t1, scause
    sw    t1, 32(sp)
    csrr  t1, stval
    sw    t1, 36(sp)
    mv    a0, sp
    j     left

resume:                             # a0: the context; a1: its answer; a2: the satp of its space
    csrw  satp, a2
    mv    t0, a0
    mv    a0, a1
    lui   a7, 0x4F560
    ecall                           # does not come back: the hart enters the kernel again at trap

    .section .bss.stacks, "aw", @nobits
    .balign 16
stacks:
    .space 4 * 1024                 # one for each hart
