# Where a program begins, where its threads begin, and how it forks
# =================================================================
#
# tp has the address of what the runtime keeps of a thread (runtime.h, struct thread).

#include "../agreed.h"

    .section .text.start, "ax"
    .globl start, exit_context, begin_thread, fork

start:                              # the monitor has set sp
    la    tp, first_thread
    call  main
exit_context:
    li    a7, MONITOR_EXIT
    ecall

begin_thread:                       # a0: the thread
    mv    tp, a0
    lw    t0, 4(tp)
    lw    a0, 8(tp)
    jalr  t0                        # its function, with its argument
    sw    a0, 12(tp)                # its result
    li    t0, 1
    sw    t0, 16(tp)                # done: it uses no memory from here on, so another thread may free its stack
    j     exit_context

# Returns the number of the child, 0 in the child, and -1 if there is none. From FORK to the answer of the kernel
# nothing is stored in memory: the kernel copies the pages as they were at FORK, and after a store it could not find
# those bytes again.
fork:
    li    a7, MONITOR_FORK
    ecall
    blez  a0, forked                # the child, or a refusal
    mv    t0, a0
    li    a6, CALL_FORKED
    li    a7, MONITOR_CALL
    ecall                           # a0: the child
    bltz  a0, forked
    mv    a0, t0
    ret
forked:
    srai  a0, a0, 31                # 0 or -1
    ret
