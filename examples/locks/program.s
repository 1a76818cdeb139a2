# A cloaked program whose four contexts add to words under locks
# ==============================================================
#
# What the harts of harts.s do outside, contexts of one program do here on four harts: the locks and the sums lie in a cloaked
# page. The first context makes the other three, tells the kernel so by call 10, and says the sums as the others are done.
#
#   x9  0 in the first context, 1 to 3 in the others

start:
    addi  x18, x0, 1
make:
    la    x10, work
    add   x11, x2, x0
    add   x12, x18, x0
    li    x17, 0x4F560005
    ecall                           # THREAD
    addi  x18, x18, 1
    addi  x5, x0, 4
    bne   x18, x5, make
    addi  x16, x0, 10
    li    x17, 0x4F560008
    ecall                           # call 10: there are contexts 1 to 3
    addi  x10, x0, 0

work:
    add   x9, x10, x0
    la    x20, spin
    la    x21, tickets
    la    x22, sums
    la    x23, done
    addi  x8, x0, 25                # how often it still adds
    addi  x6, x0, 1
again:
    lr.w  x5, (x20)                 # 1: the lock that spins
    bne   x5, x0, again             # it is held
    sc.w  x7, x6, (x20)
    bne   x7, x0, again             # another context was faster
    lw    x5, 0(x22)
    addi  x5, x5, 1
    sw    x5, 0(x22)
    sw    x0, 0(x20)                # free again
    amoadd.w x5, x6, (x21)          # 2: a ticket
serve:
    lw    x7, 4(x21)
    bne   x7, x5, serve             # it is the turn of another ticket
    lw    x5, 4(x22)
    addi  x5, x5, 1
    sw    x5, 4(x22)
    addi  x7, x7, 1
    sw    x7, 4(x21)                # the next one
    addi  x7, x22, 8
    amoadd.w x0, x6, (x7)           # 3: no lock
    addi  x8, x8, -1
    bne   x8, x0, again
    amoadd.w x0, x6, (x23)          # this context is done
    bne   x9, x0, end
    addi  x7, x0, 4
wait:
    lw    x5, 0(x23)
    bne   x5, x7, wait
    lw    x5, 0(x22)
    sb    x5, -4(x2)                # the sums, as letters, on the stack
    lw    x5, 4(x22)
    sb    x5, -3(x2)
    lw    x5, 8(x22)
    sb    x5, -2(x2)
    addi  x10, x0, 1
    addi  x11, x2, -4
    addi  x12, x0, 3
    li    x13, 0x00408000
    addi  x16, x0, 1
    li    x17, 0x4F560008
    ecall                           # WRITE by CALL
end:
    li    x17, 0x4F560007
    ecall                           # EXIT

spin:                               # 1 if it is held
    .word 0
tickets:                            # the next ticket, and the one whose turn it is
    .word 0
    .word 0
sums:
    .word 0
    .word 0
    .word 0
done:                               # how many contexts are done
    .word 0
