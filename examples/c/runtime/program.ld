/* Where a program lies: from 00400000 on. The manifests give it four pages, and the last one is for its stack, which
   begins at the end and grows down. For a larger program write more here, in the manifest and in the boot text. */
OUTPUT_ARCH(riscv)
ENTRY(start)
SECTIONS
{
    . = 0x00400000;
    .text : { *(.text.start) *(.text .text.*) }
    .rodata : { *(.rodata .rodata.* .srodata .srodata.*) }
    .data : { *(.data .data.* .sdata .sdata.*) }
    .bss (NOLOAD) : { *(.sbss .sbss.* .bss .bss.* COMMON) }
    ASSERT(. <= 0x00400000 + 3 * 4096, "the program has more than three pages, without its stack")
    /DISCARD/ : { *(.comment) *(.note*) *(.riscv.attributes) *(.eh_frame*) }
}
