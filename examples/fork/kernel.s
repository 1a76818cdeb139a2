# A kernel that runs both halves of a fork
# ========================================
#
# The program forks inside the monitor, of which the kernel sees nothing. By call 77 it then tells the kernel the number of
# the new context, in x10. The kernel gives the child a page table of its own, and a copy of the page that it begins with:
# the ciphertext that it sees in the parent's frame. The page of the shared file is mapped in both tables.
#
#   80000000  frame 0   this text
#   80001000  frame 1   the parent's root table         80003000  frame 3   the child's
#   80002000  frame 2   the parent's page table         80004000  frame 4   the child's
#   80008000  frame 8   the parent's page               8000A000  frame 10  the child's
#   80009000  frame 9   the page of the shared file
#   80010000  frame 16  the area
#
#   x8  the context that left

boot:
    la    x5, trap
    csrrw x0, 0x105, x5             # stvec
    li    x18, 0x80001000
    li    x20, 0x20002000           # entry of frame 8, without bits
    jal   x1, tables
    li    x18, 0x80003000
    li    x20, 0x20002800           # entry of frame 10
    jal   x1, tables
    addi  x8, x0, 0
    addi  x10, x0, 0

parent:                             # resume context 0 with x10
    li    x5, 0x80080001
    csrrw x0, 0x180, x5             # satp: the parent's tables
    addi  x8, x0, 0
    j     resume
child:                              # resume the other context
    li    x5, 0x80080003
    csrrw x0, 0x180, x5             # satp: the child's tables
resume:
    sfence.vma x0, x0
    add   x5, x8, x0
    lui   x17, 0x4F560
    ecall

trap:
    add   x8, x5, x0
    csrrs x6, 0x142, x0             # scause
    addi  x7, x0, 8
    bne   x6, x7, fault
    li    x7, 0x4F560007
    beq   x17, x7, ended            # EXIT
    addi  x7, x0, 77
    beq   x17, x7, forked
    add   x20, x12, x0              # WRITE
    li    x18, 0x80010000
    add   x19, x18, x12
put:
    beq   x18, x19, written
    lbu   x10, 0(x18)
    addi  x17, x0, 0
    ecall                           # PUT
    addi  x18, x18, 1
    j     put
written:
    add   x10, x20, x0
    beq   x8, x0, parent
    j     child

forked:                             # the context x10 is there now: it runs first, the parent waits for its answer
    add   x8, x10, x0
    addi  x10, x0, 0
    li    x11, 0x80008000
    addi  x17, x0, 3
    ecall                           # WRITE the parent's frame to block 0
    addi  x10, x0, 0
    li    x11, 0x8000A000
    addi  x17, x0, 2
    ecall                           # READ it into the child's frame
    addi  x10, x0, 0
    j     child

ended:
    addi  x10, x0, 0
    bne   x8, x0, parent            # the child has ended: the parent gets its answer
    addi  x10, x0, 0
    j     halt
fault:
    addi  x10, x0, 1
halt:
    addi  x17, x0, 4
    ecall                           # HALT

tables:                             # the root table x18 and the page table behind it, with the page of the entry x20
    li    x5, 0x1000
    add   x19, x18, x5
    srli  x5, x19, 2
    ori   x5, x5, 1
    sw    x5, 4(x18)                # root entry 1: the page table
    li    x5, 0x800
    add   x6, x18, x5
    li    x5, 0x200000CF
    sw    x5, 0(x6)                 # root entry 512: RAM at its own addresses
    ori   x5, x20, 0xDF
    sw    x5, 0(x19)                # page 00400000
    li    x5, 0x200024DF
    sw    x5, 4(x19)                # page 00401000: frame 9, the shared file
    li    x5, 0x200040DF
    sw    x5, 32(x19)               # page 00408000: frame 16, the area
    jalr  x0, 0(x1)
