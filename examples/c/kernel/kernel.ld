/* Where the kernel lies: from frame 1 on. Frame 0 has the boot table. */
OUTPUT_ARCH(riscv)
ENTRY(start)
SECTIONS
{
    . = 0x80001000;
    .text : { *(.text.start) *(.text .text.*) }
    .rodata : { *(.rodata .rodata.* .srodata .srodata.*) }
    .data : { *(.data .data.* .sdata .sdata.*) }
    .bss (NOLOAD) : { *(.bss.block) *(.sbss .sbss.* .bss .bss.* COMMON) }
    kernel_end = .;
    /DISCARD/ : { *(.comment) *(.note*) *(.riscv.attributes) *(.eh_frame*) }
}
