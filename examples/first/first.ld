/* Where the parts stand in 64 KiB. Tables and program begin at pages of their own; what is not named is free. */
ENTRY(start)
PHDRS { code PT_LOAD FLAGS(5); data PT_LOAD FLAGS(6); }
SECTIONS
{
  .vectors 0 : { *(.vectors) } : code
  .text 0x400 : { *(.text) } : code
  .data 0x1000 : { *(.data) } : data
  .tables 0x2000 : { *(.tables) } : data
  .program 0x3000 : { *(.program) } : code
  user_stack = 0x5000; master_stack = 0xF000; interrupt_stack = 0x10000;
  /DISCARD/ : { *(.bss) *(.comment) *(.note*) }
}
