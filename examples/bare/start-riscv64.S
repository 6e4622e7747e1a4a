/* Where qemu begins a program for its machine `virt` with no firmware, at the first byte of memory: linkers put this section there.
 * Nothing has to be switched on. Another processor waits. */
    .section .text.unlikely, "ax"
    .globl begin
begin:
    csrr t0, mhartid
    bnez t0, 1f
    la sp, stack_end
    call main
1:  wfi
    j 1b

    .bss
    .balign 16
    .skip 65536
stack_end:
