/* Where a Cortex-M begins: its vectors; what is kept in flash goes to its place, and zeros elsewhere; then main. Its answer ends qemu, by
 * semihosting. On a board without a debugger that is a fault, so have it wait or begin anew there. */
    .syntax unified
    .section .vectors, "a"
    .word stack_end, begin, fault, fault, fault, fault, fault, 0, 0, 0, 0, fault, fault, 0, fault, on_tick

    .text
    .globl begin
    .thumb_func
begin:
    ldr r0, =data_kept
    ldr r1, =data_begin
    ldr r2, =data_end
1:  cmp r1, r2
    bhs 2f
    ldr r3, [r0], #4
    str r3, [r1], #4
    b 1b
2:  ldr r1, =zeros_begin
    ldr r2, =zeros_end
    movs r3, #0
3:  cmp r1, r2
    bhs 4f
    str r3, [r1], #4
    b 3b
4:  bl main
    b ended
    .thumb_func
fault:
    movs r0, #99
ended:
    sub sp, #8
    ldr r1, =0x20026 /* the program's own status */
    str r1, [sp]
    str r0, [sp, #4]
    mov r1, sp
    movs r0, #0x20 /* SYS_EXIT_EXTENDED */
    bkpt 0xab
    b .
