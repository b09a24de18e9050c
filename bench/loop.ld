/* Code at 00010000 and the table at 00020000. */
ENTRY(_start)
SECTIONS
{
    . = 0x10000;
    .text : { *(.text) }
    . = 0x20000;
    .bss : { . += 0x1000; }
    /DISCARD/ : { *(.riscv.attributes) *(.comment) }
}
