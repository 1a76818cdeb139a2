# A kernel that attacks
# =====================
#
# It does what the kernel of the first example does, until the program calls it. Then it attacks, by the word at 80003000,
# which a segment of each manifest sets:
#
#   1  it flips a bit of the program's first page
#   2  it keeps the page as it was at the first call, and puts it back at the second one, when the program has changed it
#   3  it maps each of the program's two pages where the other one is
#   4  its second hart resumes the context that runs on the first one
#
#   80000000  frame 0       this text
#   80001000  frame 1       the root table
#   80002000  frame 2       the page table
#   80003000  frame 3       which attack, and behind it how many calls there were
#   80008000  frames 8, 9   the program's two pages
#   80010000  frame 16      the area

boot:
    la    x5, trap
    csrrw x0, 0x105, x5             # stvec
    bne   x10, x0, second           # the hart with number 1
    li    x18, 0x80001000
    li    x19, 0x80002000
    srli  x5, x19, 2
    ori   x5, x5, 1
    sw    x5, 4(x18)                # root entry 1: the page table
    li    x5, 0x800
    add   x6, x18, x5
    li    x5, 0x200000CF
    sw    x5, 0(x6)                 # root entry 512: RAM at its own addresses
    li    x5, 0x200020DF
    sw    x5, 0(x19)                # page 00400000: frame 8
    li    x5, 0x200024DF
    sw    x5, 4(x19)                # page 00401000: frame 9
    li    x5, 0x200040DF
    sw    x5, 32(x19)               # page 00408000: frame 16, the area
    li    x5, 0x80080001
    csrrw x0, 0x180, x5             # satp
    addi  x10, x0, 0

resume:
    sfence.vma x0, x0
    addi  x5, x0, 0
    lui   x17, 0x4F560
    ecall

second:                             # waits a while, and then resumes context 0 too
    addi  x8, x0, 40
wait:
    addi  x8, x8, -1
    bne   x8, x0, wait
    li    x5, 0x80080001
    csrrw x0, 0x180, x5             # satp
    j     resume

trap:
    csrrs x6, 0x142, x0             # scause
    addi  x7, x0, 8
    bne   x6, x7, fault
    li    x7, 0x4F560007
    beq   x17, x7, done             # EXIT
    add   x20, x12, x0              # WRITE
    li    x18, 0x80010000
    add   x19, x18, x12
put:
    beq   x18, x19, attack
    lbu   x10, 0(x18)
    addi  x17, x0, 0
    ecall                           # PUT
    addi  x18, x18, 1
    j     put

attack:
    li    x18, 0x80003000
    lw    x21, 0(x18)               # which one
    lw    x22, 4(x18)               # calls so far
    addi  x5, x22, 1
    sw    x5, 4(x18)
    addi  x5, x0, 1
    beq   x21, x5, flip
    addi  x5, x0, 2
    beq   x21, x5, replay
    addi  x5, x0, 3
    beq   x21, x5, remap
answer:
    add   x10, x20, x0
    j     resume

flip:                               # one bit of the first page
    li    x18, 0x80008000
    lbu   x5, 16(x18)
    xori  x5, x5, 1
    sb    x5, 16(x18)
    j     answer

replay:                             # an old page
    addi  x10, x0, 0
    li    x11, 0x80008000
    bne   x22, x0, back
    addi  x17, x0, 3
    ecall                           # at the first call: WRITE frame 8 to block 0
    j     answer
back:
    addi  x17, x0, 2
    ecall                           # then: READ it into frame 8 again
    j     answer

remap:                              # each page where the other one is
    li    x19, 0x80002000
    li    x5, 0x200024DF
    sw    x5, 0(x19)
    li    x5, 0x200020DF
    sw    x5, 4(x19)
    j     answer

done:
    addi  x10, x0, 0
    j     halt
fault:
    addi  x10, x0, 1
halt:
    addi  x17, x0, 4
    ecall                           # HALT
