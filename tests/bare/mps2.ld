/* An image for qemu's mps2-an385 and mps2-an386: code at 0, and data where 16 MiB are. qemu loads each section to its place. */
MEMORY {
  CODE (rx) : ORIGIN = 0, LENGTH = 4M
  DATA (rwx) : ORIGIN = 0x21000000, LENGTH = 16M
}
ENTRY(_start)
SECTIONS {
  .text : { KEEP(*(.vectors)) *(.text .text.*) KEEP(*(.init)) KEEP(*(.fini)) *(.rodata .rodata.*) *(.ARM.extab*) } > CODE
  .ARM.exidx : { __exidx_start = .; *(.ARM.exidx*) __exidx_end = .; } > CODE
  .data : {
    *(.data .data.*)
    . = ALIGN(4);
    __preinit_array_start = .; KEEP(*(.preinit_array)) __preinit_array_end = .;
    __init_array_start = .; KEEP(*(SORT(.init_array.*))) KEEP(*(.init_array)) __init_array_end = .;
    __fini_array_start = .; KEEP(*(SORT(.fini_array.*))) KEEP(*(.fini_array)) __fini_array_end = .;
  } > DATA
  .bss (NOLOAD) : { . = ALIGN(8); __bss_start__ = .; *(.bss .bss.*) *(COMMON) . = ALIGN(8); __bss_end__ = .; } > DATA
  end = .; __end__ = .;
  __stack = ORIGIN(DATA) + LENGTH(DATA);
}
