# A cloaked program that forks, and shares a file with its child
# ==============================================================
#
#   00400000  the image, private: parent and child have one each
#   00401000  a file of one page, which both have

start:
    addi  x10, x0, 7                # file number 7,
    addi  x11, x0, 1                # of one page
    li    x17, 0x4F560004
    ecall                           # FILE: its resource
    li    x11, 0x00401000
    addi  x12, x0, 0
    addi  x13, x0, 1
    li    x17, 0x4F560002
    ecall                           # MAP it at 00401000
    li    x18, 0x00401000
    li    x5, 0x2070                  # p, and a space
    sw    x5, 0(x18)                # the parent's word
    li    x17, 0x4F560006
    ecall                           # FORK: the child's context, and 0 in the child
    beq   x10, x0, child

    addi  x16, x0, 77               # call 77 of this kernel: run context x10 first
    li    x17, 0x4F560008
    ecall
    add   x11, x18, x0
    jal   x1, say                   # the file has what the child stored
    li    x17, 0x4F560007
    ecall                           # EXIT

child:
    add   x11, x18, x0
    jal   x1, say                   # the file has what the parent stored
    li    x5, 0x0A63                # c, and a line feed
    sw    x5, 0(x18)                # the child's word
    li    x17, 0x4F560007
    ecall                           # EXIT

say:                                # two bytes of the file
    addi  x10, x0, 1
    addi  x12, x0, 2
    li    x13, 0x00408000
    addi  x16, x0, 1
    li    x17, 0x4F560008
    ecall
    jalr  x0, 0(x1)
