/* Where a Cortex-M begins, in front of newlib's own start: an image that faults tells of it, and ends qemu with status 99. */
    .syntax unified
    .section .vectors, "a"
    .word __stack, _start, fault, fault, fault, fault, fault, 0, 0, 0, 0, fault, fault, 0, fault, on_tick

    .text
    .thumb_func
fault:
    movs r0, #4 /* SYS_WRITE0 */
    ldr r1, =said
    bkpt 0xab
    movs r0, #0x20 /* SYS_EXIT_EXTENDED */
    ldr r1, =ends
    bkpt 0xab
    b .
    .ltorg

    .section .rodata
    .weak on_tick
    .thumb_set on_tick, fault
said:
    .asciz "a fault of the processor's\n"
    .balign 4
ends:
    .word 0x20026, 99
