/* The text from 0x00400000 on, and data memory from 0 on: constants, variables, and what is 0 at the start. The heap, if
   a program has one, is behind them, and the stack comes down from 65520. */
OUTPUT_ARCH(mips)
ENTRY(_start)
PHDRS
{
  text PT_LOAD FLAGS(5);
  data PT_LOAD FLAGS(6);
}
SECTIONS
{
  .text 0x00400000 : { *start.o(.text) *(.text .text.*) } :text
  /* Nothing lies at address 0, so that a null pointer points to no variable. */
  . = 16;
  .data : { *(.rodata .rodata.*) *(.data .data.*) *(.sdata .sdata.*) } :data
  .bss : { *(.sbss .sbss.*) *(.bss .bss.*) *(COMMON) . = ALIGN(16); end = .; } :data
  /DISCARD/ : { *(.MIPS.abiflags) *(.reginfo) *(.pdr) *(.comment) *(.gnu.attributes) *(.mdebug*) *(.eh_frame) *(.note*) }
}
