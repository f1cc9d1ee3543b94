/* Where the parts of a program stand in the board's memory. The stack falls from the end of 64 KiB. libgcc finds its
   data by the addresses in .got. */
ENTRY(start)
MEMORY { ram : ORIGIN = 0, LENGTH = 64K }
PHDRS { code PT_LOAD FLAGS(5); data PT_LOAD FLAGS(6); }
SECTIONS
{
  .vectors : { KEEP(*(.vectors)) } > ram : code
  .text : { *(.text .text.*) *(.rodata .rodata.*) } > ram : code
  .data : { *(.data .data.*) } > ram : data
  .got : { *(.got.plt) *(.got) } > ram : data
  .bss : { . = ALIGN(4); bss_start = .; *(.bss .bss.*) *(COMMON) . = ALIGN(4); bss_end = .; } > ram : data
  stack = ORIGIN(ram) + LENGTH(ram);
  /DISCARD/ : { *(.comment) *(.note*) *(.eh_frame*) }
}
