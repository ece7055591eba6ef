/* An image that the emulator loads: PT_LOAD headers alone, right behind the file header. */
ENTRY(_start)
PHDRS
{
    code PT_LOAD FLAGS(5);
    data PT_LOAD FLAGS(6);
}
SECTIONS
{
    . = 0x00010000;
    .text : { *(.start) *(.text*) *(.rodata*) *(.srodata*) } :code
    . = ALIGN(4096);
    .data : { *(.data*) *(.sdata*) } :data
    .bss : { *(.bss*) *(.sbss*) *(COMMON) } :data
    /DISCARD/ : { *(.riscv.attributes) *(.comment) *(.note*) *(.eh_frame*) }
}
