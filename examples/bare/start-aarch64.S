/* Where qemu begins a program for its machine `virt`: it maps addresses to themselves, the first GiB as devices and the second as
 * memory that is cached, and switches on the registers of vectors. */
    .text
    .globl begin
begin:
    adrp x0, stack_end
    mov sp, x0
    mov x0, #(3 << 20)
    msr cpacr_el1, x0
    adrp x0, pages
    msr ttbr0_el1, x0
    mov x0, #0xff00                 /* kinds of memory: 0 is devices, 1 is cached */
    msr mair_el1, x0
    ldr x0, =0x803519               /* addresses of 39 bits, walks that are cached */
    msr tcr_el1, x0
    isb
    mrs x0, sctlr_el1
    mov x1, #0x1005                 /* the map and both caches */
    orr x0, x0, x1
    msr sctlr_el1, x0
    isb
    bl main
1:  wfe
    b 1b

    .data
    .balign 4096
pages:
    .quad 0x0060000000000401, 0x0000000040000705
    .fill 510, 8, 0

    .bss
    .balign 4096
    .skip 65536
stack_end:
