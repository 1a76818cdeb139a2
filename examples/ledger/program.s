# A cloaked program that keeps a book
# ===================================
#
# Its book is file 1, of one page: word 0 is the number of entries, word 1 their sum, and then the entries follow. In each
# run it adds one entry, 10 more than the last one, and shows the number and the sum.

start:
    addi  x10, x0, 1                # file 1
    addi  x11, x0, 1                # of one page
    li    x17, 0x4F560004
    ecall                           # FILE: its resource in x10
    li    x11, 0x00410000
    addi  x12, x0, 0
    addi  x13, x0, 1
    li    x17, 0x4F560002
    ecall                           # MAP: its page at 00410000
    li    x18, 0x00410000
    lw    x9, 0(x18)                # how many entries there are
    addi  x9, x9, 1
    sw    x9, 0(x18)
    addi  x5, x0, 10
    mul   x6, x9, x5                # the new entry
    slli  x7, x9, 2
    add   x7, x7, x18
    sw    x6, 4(x7)
    lw    x8, 4(x18)                # the sum
    add   x8, x8, x6
    sw    x8, 4(x18)
    la    x11, line
    addi  x6, x9, 48
    sb    x6, 0(x11)                # the number, one digit
    divu  x6, x8, x5
    addi  x6, x6, 48
    sb    x6, 3(x11)                # the sum, two digits
    remu  x6, x8, x5
    addi  x6, x6, 48
    sb    x6, 4(x11)
    addi  x10, x0, 1
    addi  x12, x0, 6
    li    x13, 0x00408000
    addi  x16, x0, 1
    li    x17, 0x4F560008
    ecall                           # CALL: WRITE the line
    li    x17, 0x4F560007
    ecall                           # EXIT

line:
    .word 0x30203A30                # "0: 0"
    .word 0x00000A30                # "0", and a line feed
