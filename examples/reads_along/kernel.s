# A kernel that reads along
# =========================
#
# It does all that the kernel of the first example does, and at each call it also reads the program's page, and shows the
# first word of it, in hexadecimal digits. What it finds is ciphertext, and another one after each change of the page.
#
#   80000000  frame 0   this text
#   80001000  frame 1   the root table
#   80002000  frame 2   the page table
#   80008000  frame 8   the program's page
#   80010000  frame 16  the area

boot:
    la    x5, trap
    csrrw x0, 0x105, x5             # stvec
    li    x18, 0x80001000
    li    x19, 0x80002000
    srli  x5, x19, 2
    ori   x5, x5, 1
    sw    x5, 4(x18)                # root entry 1: the page table
    li    x5, 0x800
    add   x6, x18, x5
    li    x5, 0x200000CF
    sw    x5, 0(x6)                 # root entry 512: RAM at its own addresses
    li    x5, 0x200020DF
    sw    x5, 0(x19)                # page 00400000: frame 8
    li    x5, 0x200040DF
    sw    x5, 32(x19)               # page 00408000: frame 16, the area
    li    x5, 0x80080001
    csrrw x0, 0x180, x5             # satp
    addi  x10, x0, 0

resume:
    addi  x5, x0, 0
    lui   x17, 0x4F560
    ecall

trap:
    csrrs x6, 0x142, x0             # scause
    addi  x7, x0, 8
    bne   x6, x7, fault
    li    x7, 0x4F560007
    beq   x17, x7, done             # EXIT
    add   x20, x12, x0              # WRITE
    li    x18, 0x80010000
    add   x19, x18, x12
put:
    beq   x18, x19, read
    lbu   x10, 0(x18)
    addi  x17, x0, 0
    ecall                           # PUT what the program gives away
    addi  x18, x18, 1
    j     put

read:                               # and what it does not
    li    x18, 0x80008000
    lw    x21, 0(x18)               # the monitor seals the page before this kernel sees the frame
    addi  x22, x0, 28
digit:
    srl   x10, x21, x22
    andi  x10, x10, 15
    addi  x10, x10, 48              # 0 to 9
    addi  x7, x0, 58
    blt   x10, x7, show
    addi  x10, x10, 39              # a to f
show:
    addi  x17, x0, 0
    ecall                           # PUT
    addi  x22, x22, -4
    bge   x22, x0, digit
    addi  x10, x0, 10
    ecall                           # PUT a line feed
    add   x10, x20, x0
    j     resume

done:
    addi  x10, x0, 0
    j     halt
fault:
    addi  x10, x0, 1
halt:
    addi  x17, x0, 4
    ecall                           # HALT
