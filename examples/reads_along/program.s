# A cloaked program with a secret in its first word
# =================================================
#
# The manifest sets its entry behind the secret.

secret:
    .word 0x05EC4E70
start:
    addi  x8, x0, 3                 # how often it still calls
    la    x18, secret
again:
    addi  x5, x0, 46                # .
    sb    x5, -4(x2)
    addi  x5, x0, 32                # and a space
    sb    x5, -3(x2)
    addi  x10, x0, 1
    addi  x11, x2, -4
    addi  x12, x0, 2
    li    x13, 0x00408000
    addi  x16, x0, 1
    li    x17, 0x4F560008
    ecall                           # WRITE by CALL: meanwhile the kernel reads along
    addi  x8, x8, -1
    bne   x8, x0, again
    li    x17, 0x4F560007
    ecall                           # EXIT
