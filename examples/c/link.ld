/* Code and constants at 00010000, the simulator's first address by default; data on a page of its own behind them. */
ENTRY(_start)
SECTIONS
{
    . = 0x10000;
    .text : { *(.text .text.*) *(.rodata .rodata.* .srodata .srodata.*) }
    . = ALIGN(0x1000);
    .data : { __global_pointer$ = . + 0x800; *(.data .data.* .sdata .sdata.*) }
    __bss_start = .;
    .bss : { *(.bss .bss.* .sbss .sbss.* COMMON) }
    __bss_end = .;
    /DISCARD/ : { *(.comment) *(.riscv.attributes) *(.eh_frame*) *(.note*) }
}
