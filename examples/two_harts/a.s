# A cloaked program that says its letter three times
# ==================================================

start:
    addi  x8, x0, 3                 # how often it is still said
    addi  x5, x0, 97                # the letter a
    sb    x5, -4(x2)                # on the stack, which is cloaked
again:
    addi  x10, x0, 1
    addi  x11, x2, -4
    addi  x12, x0, 1
    li    x13, 0x00408000
    addi  x16, x0, 1
    li    x17, 0x4F560008
    ecall                           # WRITE by CALL
    addi  x8, x8, -1
    bne   x8, x0, again
    li    x17, 0x4F560007
    ecall                           # EXIT
