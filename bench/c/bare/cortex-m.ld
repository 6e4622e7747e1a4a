/* An image for qemu's mps2-an386: code at 0, data at 0x20000000. */
MEMORY {
  CODE (rx) : ORIGIN = 0, LENGTH = 1M
  DATA (rwx) : ORIGIN = 0x20000000, LENGTH = 256K
}
ENTRY(begin)
SECTIONS {
  .text : { KEEP(*(.vectors)) *(.text .text.*) *(.rodata .rodata.*) *(.ARM.extab*) } > CODE
  .ARM.exidx : { *(.ARM.exidx*) } > CODE
  .data : { *(.data .data.*) } > DATA
  .bss (NOLOAD) : { *(.bss .bss.*) *(COMMON) . = ALIGN(8); end = .; } > DATA
  stack_end = ORIGIN(DATA) + LENGTH(DATA);
}
