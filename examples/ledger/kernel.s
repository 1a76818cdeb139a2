# A kernel that keeps a file of its program on the disk
# =====================================================
#
# The program keeps its book in a cloaked file of one page. This kernel gives the page a frame, and as the program ends
# it writes the frame to block 0 of the disk. What it writes is ciphertext. In the next run it reads the block back
# before the program begins. Block 1 is its own: its first word tells whether block 0 has the page.
#
#   80000000  frame 0   this text
#   80001000  frame 1   the root table
#   80002000  frame 2   the page table of the addresses from 00400000 on
#   80008000  frame 8   the program's page: the manifest places it here
#   80009000  frame 9   the page of the file
#   80010000  frame 16  the area: a page that is not cloaked, through which the program hands bytes to this kernel
#   80011000  frame 17  block 1
#
# A program leaves by a trap with all registers 0 but x5, its context, and at a call x10 to x15 and x17. So nothing has
# to be saved: the monitor keeps the program's registers, and this kernel never sees them.

boot:
    la    x5, trap
    csrrw x0, 0x105, x5             # stvec: each trap goes to trap
    li    x18, 0x80001000
    li    x19, 0x80002000
    srli  x5, x19, 2
    ori   x5, x5, 1
    sw    x5, 4(x18)                # root entry 1: a pointer to the page table
    li    x5, 0x800
    add   x6, x18, x5
    li    x5, 0x200000CF
    sw    x5, 0(x6)                 # root entry 512: RAM at its own addresses, for this kernel
    li    x5, 0x200020DF
    sw    x5, 0(x19)                # page 00400000: frame 8, with all rights, for the program
    li    x5, 0x200040DF
    sw    x5, 32(x19)               # page 00408000: frame 16, the area
    li    x5, 0x200024DF
    sw    x5, 64(x19)               # page 00410000: frame 9, the file
    li    x5, 0x80080001
    csrrw x0, 0x180, x5             # satp: paging on, by the root table in frame 1
    addi  x10, x0, 1
    li    x11, 0x80011000
    addi  x17, x0, 2
    ecall                           # READ block 1 into frame 17
    li    x18, 0x80011000
    lw    x5, 0(x18)
    beq   x5, x0, begin             # there is no page yet
    addi  x10, x0, 0
    li    x11, 0x80009000
    addi  x17, x0, 2
    ecall                           # READ block 0 into frame 9: the ciphertext of the last run
begin:
    addi  x10, x0, 0

resume:                             # into context 0, with the answer x10
    addi  x5, x0, 0
    lui   x17, 0x4F560
    ecall                           # does not come back: the hart enters the kernel again at trap

trap:
    csrrs x6, 0x142, x0             # scause
    addi  x7, x0, 8
    bne   x6, x7, fault             # it is no call
    li    x7, 0x4F560007
    beq   x17, x7, done             # EXIT
    add   x20, x12, x0              # WRITE: x12 bytes, which the monitor has copied to the area
    li    x18, 0x80010000
    add   x19, x18, x12
put:
    beq   x18, x19, written
    lbu   x10, 0(x18)
    addi  x17, x0, 0
    ecall                           # PUT the byte x10 on the console
    addi  x18, x18, 1
    j     put
written:
    add   x10, x20, x0              # the answer: all bytes were written
    j     resume

done:
    addi  x10, x0, 0
    li    x11, 0x80009000
    addi  x17, x0, 3
    ecall                           # WRITE frame 9 to block 0
    li    x18, 0x80011000
    addi  x5, x0, 1
    sw    x5, 0(x18)
    addi  x10, x0, 1
    add   x11, x18, x0
    addi  x17, x0, 3
    ecall                           # WRITE frame 17 to block 1: there is a page now
    addi  x10, x0, 0
    j     halt
fault:
    addi  x10, x0, 1
halt:
    addi  x17, x0, 4
    ecall                           # HALT with x10
