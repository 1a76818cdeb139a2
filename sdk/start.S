# Where a program begins. The manifest has x2 at the end of the stack, which lies below the text.

    .section .text.start, "ax"
    .globl start, exit_context

start:
    la    tp, first_area                # what calls.c keeps of this context
    call  begin
exit_context:
    li    a7, 0x4F560007                # EXIT
    ecall
