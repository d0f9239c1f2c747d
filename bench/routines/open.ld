/* Code from 0x10100 and data from 0x11000, the input byte first: all of it can be executed and written. Offsets in the
   file agree with addresses modulo 4096, so that a host's loader takes it too. */
ENTRY(_start)
PHDRS { code PT_LOAD FLAGS(7); data PT_LOAD FLAGS(7); }
SECTIONS {
    . = 0x10100;
    .text : { *(.text.start) *(.text*) *(.rodata* .srodata*) } :code
    . = 0x11000;
    .data : { *(.input) *(.data* .sdata*) *(.bss* .sbss* COMMON) BYTE(0) . = ALIGN(256); } :data
    /DISCARD/ : { *(.riscv.attributes) *(.comment) *(.note*) *(.eh_frame*) }
}
