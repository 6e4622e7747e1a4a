/* An image for qemu's virt. */
MEMORY { ALL (rwx) : ORIGIN = 0x80000000, LENGTH = 1M }
ENTRY(begin)
SECTIONS {
  .text : { KEEP(*(.vectors)) *(.text .text.*) *(.rodata .rodata.* .srodata .srodata.*) } > ALL
  .data : { . = ALIGN(8); *(.data .data.*) __global_pointer$ = . + 0x800; *(.sdata .sdata.*) } > ALL
  .bss (NOLOAD) : { *(.sbss .sbss.*) *(.bss .bss.*) *(COMMON) . = ALIGN(8); end = .; } > ALL
  stack_end = ORIGIN(ALL) + LENGTH(ALL);
  /DISCARD/ : { *(.eh_frame) *(.comment) }
}
