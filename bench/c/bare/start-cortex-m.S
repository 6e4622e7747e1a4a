/* Where a Cortex-M begins: main, and then the end of qemu with what it answered; a fault ends it with 99. qemu has put all of the image to its
 * place before, and zeros elsewhere. */
    .syntax unified
    .section .vectors, "a"
    .word stack_end, begin, fault, fault, fault, fault, fault, 0, 0, 0, 0, fault, fault, 0, fault, fault

    .text
    .globl begin, tell, mark_take, mark_give, mark_refused, mark_end
    .thumb_func
begin:
    bl main
    b end
    .thumb_func
fault:
    movs r0, #99
end:
    ldr r1, =ends
    str r0, [r1, #4]
    movs r0, #0x20 /* SYS_EXIT_EXTENDED */
    bkpt 0xab
    b .
    .ltorg
    .thumb_func
tell:
    mov r1, r0
    movs r0, #4 /* SYS_WRITE0 */
    bkpt 0xab
    bx lr
/* Between these bench/bare counts. */
    .thumb_func
mark_take:
    bx lr
    .thumb_func
mark_give:
    bx lr
    .thumb_func
mark_refused:
    bx lr
    .thumb_func
mark_end:
    bx lr

    .data
    .balign 4
ends:
    .word 0x20026, 0
