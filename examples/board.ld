/* For examples/board.c: the memory of qemu-system-arm's board mps2-an386, a Cortex-M4. */
MEMORY
{
  FLASH (rx) : ORIGIN = 0, LENGTH = 512K
  RAM (rwx) : ORIGIN = 0x20000000, LENGTH = 64K
}
SECTIONS
{
  .text : { KEEP(*(.vectors)) *(.text*) *(.rodata*) . = ALIGN(4); } > FLASH
  .ARM.exidx : { *(.ARM.exidx*) } > FLASH
  .data : { data_begin = .; *(.data*) . = ALIGN(4); data_end = .; } > RAM AT > FLASH
  data_from = LOADADDR(.data);
  .bss : { bss_begin = .; *(.bss*) *(COMMON) . = ALIGN(4); bss_end = .; } > RAM
  stack_end = ORIGIN(RAM) + LENGTH(RAM);
  stack_begin = stack_end - 16K;
  ASSERT(bss_end <= stack_begin, "there is no room for the stack")
}
