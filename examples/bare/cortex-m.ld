/* Flash and memory of a small Cortex-M4, at the addresses of qemu's mps2-an386. A board's are in its handbook: flash is at 0x08000000 on
 * many. */
MEMORY {
  FLASH (rx) : ORIGIN = 0x00000000, LENGTH = 256K
  RAM (rwx) : ORIGIN = 0x20000000, LENGTH = 64K
}
ENTRY(begin)
SECTIONS {
  .text : { KEEP(*(.vectors)) *(.text .text.*) *(.rodata .rodata.*) . = ALIGN(4); } > FLASH
  .ARM.exidx : { *(.ARM.exidx*) } > FLASH
  .data : ALIGN(8) { data_begin = .; *(.data .data.*) . = ALIGN(4); data_end = .; } > RAM AT > FLASH
  data_kept = LOADADDR(.data);
  .bss (NOLOAD) : ALIGN(8) { zeros_begin = .; *(.bss .bss.*) *(COMMON) . = ALIGN(4); zeros_end = .; } > RAM
  stack_end = ORIGIN(RAM) + LENGTH(RAM);
  ASSERT(stack_end - zeros_end >= 20K, "opening takes up to 17 kB of stack")
}
