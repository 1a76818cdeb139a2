# A kernel that runs the four contexts of one program on four harts
# =================================================================
#
# Hart h runs context h. All harts have one page table, since a space keeps to the first one that it was resumed with.
# Harts 1 to 3 wait until the program has told by call 10 that it has made their contexts.
#
#   80000000   frame 0    this text
#   80001000   frame 1    the root table
#   80003000   frame 3    the page table
#   80005004   frame 5    1 once there are four contexts
#   80008000   frame 8    the program's page
#   80010000   frame 16   the area
#
#   x8  the number of the hart, found again at each trap: it is the number of the context that left

boot:
    add   x8, x10, x0               # the machine gives each hart its number
    la    x5, trap
    csrrw x0, 0x105, x5             # stvec
    li    x21, 0x80005000
    bne   x8, x0, others
    li    x18, 0x80001000
    li    x5, 0x20000C01
    sw    x5, 4(x18)                # root entry 1: the page table
    li    x5, 0x800
    add   x6, x18, x5
    li    x5, 0x200000CF
    sw    x5, 0(x6)                 # root entry 512: RAM at its own addresses
    li    x19, 0x80003000
    li    x5, 0x200020DF
    sw    x5, 0(x19)                # page 00400000: the program's frame
    li    x5, 0x200040DF
    sw    x5, 32(x19)               # page 00408000: its area
    j     enter
others:
    lw    x5, 4(x21)                # until there are four contexts
    beq   x5, x0, others
enter:
    li    x5, 0x80080001
    csrrw x0, 0x180, x5             # satp
    addi  x10, x0, 0

resume:
    add   x5, x8, x0
    lui   x17, 0x4F560
    ecall

trap:
    add   x8, x5, x0                # the context that left tells the hart
    csrrs x6, 0x142, x0             # scause
    addi  x7, x0, 8
    bne   x6, x7, fault
    li    x7, 0x4F560007
    beq   x17, x7, ended            # EXIT
    addi  x7, x0, 10
    beq   x17, x7, made             # call 10
    add   x20, x12, x0              # WRITE
    li    x18, 0x80010000
    add   x19, x18, x12
put:
    beq   x18, x19, written
    lbu   x10, 0(x18)
    addi  x17, x0, 0
    ecall                           # PUT
    addi  x18, x18, 1
    j     put
written:
    add   x10, x20, x0
    j     resume

made:
    li    x21, 0x80005000
    addi  x5, x0, 1
    sw    x5, 4(x21)                # harts 1 to 3 may go on
    addi  x10, x0, 0
    j     resume

ended:
    bne   x8, x0, idle
    addi  x10, x0, 10
    addi  x17, x0, 0
    ecall                           # PUT a line feed
    addi  x10, x0, 0
    j     halt
fault:
    addi  x10, x0, 1
halt:
    addi  x17, x0, 4
    ecall                           # HALT
idle:
    wfi
    j     idle
