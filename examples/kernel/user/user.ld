/* Where the parts of the programs stand in each process's space. Code and data have pages of their own. */
ENTRY(start)
PHDRS { code PT_LOAD FLAGS(5); data PT_LOAD FLAGS(6); }
SECTIONS
{
  . = 0x400000;
  .header : { *(.header) } : code
  .text : { *(.text .text.*) *(.rodata .rodata.*) } : code
  .data ALIGN(4096) : { data_begin = .; *(.data .data.*) *(.got.plt) *(.got) . = ALIGN(4096); data_end = .; } : data
  .bss : { *(.bss .bss.*) *(COMMON) . = ALIGN(4); variables_end = .; } : data
  /DISCARD/ : { *(.comment) *(.note*) *(.eh_frame*) }
}
