# Four harts that add to words under locks
# ========================================
#
# No program is cloaked here: the harts run this text alone, in S mode and without paging. Each of them adds 1 to three
# words, twenty-five times to each: to the first under a lock that spins, made with LR and SC; to the second under a lock
# with tickets; and to the third with AMOADD, which needs no lock. Hart 0 waits for all and puts each sum on the console: 100
# is the letter d.
#
#   x9  the number of the hart

start:
    add   x9, x10, x0               # the machine gives each hart its number
    la    x20, spin
    la    x21, tickets
    la    x22, sums
    la    x23, done
    addi  x8, x0, 25                # how often it still adds
    addi  x6, x0, 1
again:
    lr.w  x5, (x20)                 # 1: the lock that spins
    bne   x5, x0, again             # it is held
    sc.w  x7, x6, (x20)
    bne   x7, x0, again             # another hart was faster
    lw    x5, 0(x22)
    addi  x5, x5, 1
    sw    x5, 0(x22)
    sw    x0, 0(x20)                # free again
    amoadd.w x5, x6, (x21)          # 2: a ticket
serve:
    lw    x7, 4(x21)
    bne   x7, x5, serve             # it is the turn of another ticket
    lw    x5, 4(x22)
    addi  x5, x5, 1
    sw    x5, 4(x22)
    addi  x7, x7, 1
    sw    x7, 4(x21)                # the next one
    addi  x7, x22, 8
    amoadd.w x0, x6, (x7)           # 3: no lock
    addi  x8, x8, -1
    bne   x8, x0, again
    amoadd.w x0, x6, (x23)          # this hart is done
    bne   x9, x0, idle
    addi  x7, x0, 4
wait:
    lw    x5, 0(x23)
    bne   x5, x7, wait
    addi  x17, x0, 0
    lw    x10, 0(x22)
    ecall                           # PUT the first sum
    lw    x10, 4(x22)
    ecall
    lw    x10, 8(x22)
    ecall
    addi  x10, x0, 10
    ecall                           # PUT a line feed
    addi  x10, x0, 0
    addi  x17, x0, 4
    ecall                           # HALT
idle:
    wfi
    j     idle

spin:                               # 1 if it is held
    .word 0
tickets:                            # the next ticket, and the one whose turn it is
    .word 0
    .word 0
sums:
    .word 0
    .word 0
    .word 0
done:                               # how many harts are done
    .word 0
