/* A static program for the zkw machine: code from 0x10000, then data; the stack
   ends just below the input window at 0x40000000. Two loaded segments, nothing else. */
OUTPUT_ARCH(riscv)
ENTRY(_start)

PHDRS
{
  text PT_LOAD FLAGS(5);
  data PT_LOAD FLAGS(6);
}

SECTIONS
{
  . = 0x10000;
  .text : { *(.text.start) *(.text .text.*) } :text
  .rodata : { *(.rodata .rodata.* .srodata .srodata.*) } :text
  . = ALIGN(0x1000);
  .data : { *(.data .data.* .sdata .sdata.*) } :data
  .bss : { *(.sbss .sbss.* .bss .bss.* COMMON) } :data
  /* What nothing would set up or run. */
  .constructors : { *(.preinit_array .preinit_array.* .init_array .init_array.* .ctors .ctors.*) } :data
  .threads : { *(.tdata .tdata.* .tbss .tbss.*) } :data
  ASSERT(SIZEOF(.constructors) == 0, "the program has constructors, which nothing runs: call such functions from main")
  ASSERT(SIZEOF(.threads) == 0, "the program has variables of a thread (_Thread_local), for which nothing is set up: make them static")
  __stack_end = 0x40000000;
  ASSERT(. <= __stack_end - 0x100000, "the program's data leaves less than 1 MiB for the stack below the input window at 0x40000000")
  /DISCARD/ : { *(.comment) *(.note .note.*) *(.eh_frame .eh_frame.*) *(.riscv.attributes) }
}
