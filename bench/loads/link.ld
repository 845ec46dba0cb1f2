/* A program at virtual page 16: code and constants, then its data, a page boundary between them; the stack grows down from the end. */
ENTRY(_start)
SECTIONS
{
  . = 0x10000;
  .text : { KEEP(*(.text.start)) *(.text .text.*) *(.rodata .rodata.*) } :code
  . = ALIGN(4096);
  .data : { *(.data .data.*) *(.sdata .sdata.*) } :data
  .bss : { *(.bss .bss.*) *(.sbss .sbss.*) *(COMMON) . = ALIGN(16); . += 1024; _stack = .; } :data
  /DISCARD/ : { *(.comment) *(.riscv.attributes) *(.note*) *(.eh_frame*) }
}
PHDRS
{
  code PT_LOAD FLAGS(5);
  data PT_LOAD FLAGS(6);
}
