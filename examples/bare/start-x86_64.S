/* Where qemu begins a program for its PC, by the note that PVH has for it: in 32 bits. It maps the first GiB of addresses to itself,
 * and switches on 64 bits and the registers of vectors. */
    .section .note.pvh, "a", @note
    .balign 4
    .long 4, 8, 18
    .asciz "Xen"
    .quad begin

    .text
    .code32
    .globl begin
begin:
    movl $pages2 + 3, pages3
    movl $pages3 + 3, pages4
    xorl %ecx, %ecx
1:  movl %ecx, %eax
    shll $21, %eax
    orl $0x83, %eax
    movl %eax, pages2(, %ecx, 8)
    incl %ecx
    cmpl $512, %ecx
    jne 1b
    movl $pages4, %eax
    movl %eax, %cr3
    movl $0x620, %eax               /* longer pages, and SSE */
    movl %eax, %cr4
    movl $0xc0000080, %ecx
    rdmsr
    orl $0x100, %eax
    wrmsr
    movl $0x80000003, %eax
    movl %eax, %cr0
    lgdt segments
    ljmp $8, $in_64

    .code64
in_64:
    xorl %eax, %eax
    movl %eax, %ss
    movl %eax, %ds
    movl %eax, %es
    movq $stack_end, %rsp
    call main
1:  hlt
    jmp 1b

    .data
    .balign 8
descriptors:
    .quad 0, 0x00209a0000000000
segments:
    .word 15
    .quad descriptors

    .bss
    .balign 4096
pages4:
    .skip 4096
pages3:
    .skip 4096
pages2:
    .skip 4096
    .skip 65536
stack_end:
