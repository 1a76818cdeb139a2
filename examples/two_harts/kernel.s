# A kernel for two cloaked programs on two harts
# ==============================================
#
# Hart h runs program h, whose context is 8 * h, with tables and frames of its own. So no lock is needed: the harts share
# this text, and one word each that says that its program has ended.
#
#   80000000            frame 0            this text
#   80001000 + 1000 h   frames 1 and 2     the root tables
#   80003000 + 1000 h   frames 3 and 4     the page tables
#   80005000 + 4 h      frame 5            1 where program h has ended
#   80008000 + 1000 h   frames 8 and 9     the programs' pages
#   80010000 + 1000 h   frames 16 and 17   the areas
#
#   x8  the number of the hart, found again at each trap: its context is 8 times as much

boot:
    add   x8, x10, x0               # the machine gives each hart its number
    la    x5, trap
    csrrw x0, 0x105, x5             # stvec
    slli  x9, x8, 12
    li    x18, 0x80001000
    add   x18, x18, x9
    li    x19, 0x80003000
    add   x19, x19, x9
    srli  x5, x19, 2
    ori   x5, x5, 1
    sw    x5, 4(x18)                # root entry 1: the page table
    li    x5, 0x800
    add   x6, x18, x5
    li    x5, 0x200000CF
    sw    x5, 0(x6)                 # root entry 512: RAM at its own addresses
    li    x5, 0x80008000
    add   x5, x5, x9
    srli  x5, x5, 2
    ori   x5, x5, 0xDF
    sw    x5, 0(x19)                # page 00400000: the program's frame
    li    x5, 0x80010000
    add   x5, x5, x9
    srli  x5, x5, 2
    ori   x5, x5, 0xDF
    sw    x5, 32(x19)               # page 00408000: its area
    li    x5, 0x80080001
    add   x5, x5, x8
    csrrw x0, 0x180, x5             # satp
    addi  x10, x0, 0

resume:
    slli  x5, x8, 3
    lui   x17, 0x4F560
    ecall

trap:
    srli  x8, x5, 3                 # the context that left tells the program
    csrrs x6, 0x142, x0             # scause
    addi  x7, x0, 8
    bne   x6, x7, fault
    li    x7, 0x4F560007
    beq   x17, x7, done             # EXIT
    slli  x9, x8, 12
    add   x20, x12, x0              # WRITE
    li    x18, 0x80010000
    add   x18, x18, x9
    add   x19, x18, x12
put:
    beq   x18, x19, written
    lbu   x10, 0(x18)
    addi  x17, x0, 0
    ecall                           # PUT
    addi  x18, x18, 1
    j     put
written:
    add   x10, x20, x0
    j     resume

done:
    li    x18, 0x80005000
    slli  x9, x8, 2
    add   x9, x18, x9
    addi  x5, x0, 1
    sw    x5, 0(x9)                 # this program has ended
    bne   x8, x0, idle
wait:                               # hart 0 waits for the other program, and halts
    lw    x5, 4(x18)
    beq   x5, x0, wait
    addi  x10, x0, 10
    addi  x17, x0, 0
    ecall                           # PUT a line feed
    addi  x10, x0, 0
    j     halt
fault:
    addi  x10, x0, 1
halt:
    addi  x17, x0, 4
    ecall                           # HALT
idle:
    wfi
    j     idle
