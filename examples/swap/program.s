# A cloaked program that is swapped out
# =====================================
#
# It stores a secret, calls the kernel, which moves the page meanwhile, and checks the secret. Three times.

start:
    addi  x8, x0, 3                 # calls left
    li    x9, 0x5EC4E700            # the secret
    la    x18, secret
again:
    add   x9, x9, x8
    sw    x9, 0(x18)
    la    x11, moved
    jal   x1, say
    lw    x5, 0(x18)                # the page has been on the disk: is the secret still there?
    bne   x5, x9, failed
    addi  x8, x8, -1
    bne   x8, x0, again
    la    x11, kept
    jal   x1, say
    j     end
failed:
    la    x11, lost
    jal   x1, say
end:
    li    x17, 0x4F560007
    ecall                           # EXIT

say:                                # four bytes at x11
    addi  x10, x0, 1
    addi  x12, x0, 4
    li    x13, 0x00408000
    addi  x16, x0, 1
    li    x17, 0x4F560008
    ecall
    jalr  x0, 0(x1)

secret:
    .word 0
moved:
    .word 0x2E2E2E2E                # ....
kept:
    .word 0x0A216B6F                # ok!, and a line feed
lost:
    .word 0x0A3F3F3F                # ???, and a line feed
