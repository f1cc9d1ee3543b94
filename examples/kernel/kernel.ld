/* Where the parts of the kernel stand in the board's memory. What is above kernel_end is free. */
ENTRY(start)
PHDRS { code PT_LOAD FLAGS(5); data PT_LOAD FLAGS(6); }
SECTIONS
{
  .vectors 0 : { KEEP(*(.vectors)) } : code
  .text : { *(.text .text.*) *(.rodata .rodata.*) } : code
  .image ALIGN(4096) : { *(.image) } : code
  .data ALIGN(4096) : { kernel_data = .; *(.data .data.*) *(.got.plt) *(.got) } : data
  .bss : { . = ALIGN(4); bss_begin = .; *(.bss .bss.*) *(COMMON) . = ALIGN(4); bss_end = .; } : data
  kernel_end = bss_end;
  /DISCARD/ : { *(.comment) *(.note*) *(.eh_frame*) }
}
