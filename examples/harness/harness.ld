/* Where things stand in memory: code and constants from 0x10100, the input right before 0x30000, variables from 0x40000.
   No page follows the input, so a load or store behind its last byte is a trap. Offsets in the file agree with addresses
   modulo 4096, so that a host's loader takes it too; the one byte in .data keeps its segment from being empty. */
ENTRY(_start)
PHDRS {
    code PT_LOAD FLAGS(5);
    input PT_LOAD FLAGS(6);
    data PT_LOAD FLAGS(6);
}
SECTIONS {
    . = 0x10100;
    .text : { *(.text.start) *(.text*) } :code
    .rodata : { *(.rodata* .srodata*) } :code
    .input 0x30000 - SIZEOF(.input) : { *(.input) } :input
    . = 0x40000;
    .data : { *(.data* .sdata*) BYTE(0) } :data
    .bss : { *(.bss* .sbss* COMMON) } :data
    /DISCARD/ : { *(.riscv.attributes) *(.comment) *(.note*) *(.eh_frame*) }
}
