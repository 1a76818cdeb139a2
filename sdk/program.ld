/* Where a program lies. The stack comes first: whoever runs past its end reaches no page, and the kernel ends the program.
   `stack_pages` is given on the command line of the linker. */
OUTPUT_ARCH(riscv)
ENTRY(start)
SECTIONS
{
    . = 0x00400000;
    .stack (NOLOAD) : { . += stack_pages * 4096; stack_end = .; }
    .text : { *(.text.start) *(.text .text.*) }
    .rodata : { *(.rodata .rodata.* .srodata .srodata.*) }
    .init_array : { __init_array_start = .; KEEP(*(SORT_BY_INIT_PRIORITY(.init_array.*) .init_array)) __init_array_end = .; }
    .tdata : { __tdata_start = .; *(.tdata .tdata.*) }
    .data : { *(.data .data.* .sdata .sdata.*) }
    .tbss (NOLOAD) : { *(.tbss .tbss.*) }
    .bss (NOLOAD) : { *(.sbss .sbss.* .bss .bss.* COMMON) }
    . = ALIGN(4096);
    heap_begin = .;
    ASSERT(. <= 0x00700000, "the program has more than 768 pages")
    /DISCARD/ : { *(.comment) *(.note*) *(.riscv.attributes) *(.eh_frame*) }
}
