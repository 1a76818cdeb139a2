# A cloaked program of two pages
# ==============================
#
# It counts its calls in its first page, and says a digit at each. The stack is the second page.

start:
    la    x18, count
again:
    lw    x5, 0(x18)
    addi  x5, x5, 1
    sw    x5, 0(x18)
    addi  x5, x5, 48                # its digit
    sb    x5, -4(x2)
    addi  x10, x0, 1
    addi  x11, x2, -4
    addi  x12, x0, 1
    li    x13, 0x00408000
    addi  x16, x0, 1
    li    x17, 0x4F560008
    ecall                           # WRITE by CALL
    lw    x5, 0(x18)
    addi  x6, x0, 9
    bltu  x5, x6, again
    li    x17, 0x4F560007
    ecall                           # EXIT

count:
    .word 0
