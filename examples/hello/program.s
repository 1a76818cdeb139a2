# A cloaked program that says hello
# =================================
#
# Its one page, at 00400000, is cloaked: text, bytes and stack. The area at 00408000 is not.

start:
    addi  x10, x0, 1                # to descriptor 1, the console,
    la    x11, greeting             # from this buffer, which is cloaked,
    addi  x12, x0, 6                # six bytes,
    li    x13, 0x00408000           # through the area:
    addi  x16, x0, 1                # WRITE, which is call 1 of the kernel,
    li    x17, 0x4F560008           # by CALL of the monitor
    ecall
    li    x17, 0x4F560007
    ecall                           # EXIT

greeting:
    .word 0x6C6C6568                # hell, the lowest byte first
    .word 0x00000A6F                # o, and a line feed
