#ifndef TLSF_ONLY_MEMORY
/* The calls in Rattle. */
	.section	".text.unlikely.tlsf_c::call_fault::CallFault::refusal","ax",@progbits
	.p2align	4
	.type	"tlsf_c::call_fault::CallFault::refusal",@function
"tlsf_c::call_fault::CallFault::refusal":
	.cfi_startproc
	shlb	$2, %dil
	orb	$32, %dil
	movzbl	%dil, %eax
	retq
.Lfunc_end0:
	.size	"tlsf_c::call_fault::CallFault::refusal", .Lfunc_end0-"tlsf_c::call_fault::CallFault::refusal"
	.cfi_endproc
	.section	".text.tlsf_heap::heap::Heap::resize_live::<=4>","ax",@progbits
	.p2align	4
	.type	"tlsf_heap::heap::Heap::resize_live::<=4>",@function
"tlsf_heap::heap::Heap::resize_live::<=4>":
	.cfi_startproc
	pushq	%r15
	.cfi_def_cfa_offset 16
	pushq	%r14
	.cfi_def_cfa_offset 24
	pushq	%rbx
	.cfi_def_cfa_offset 32
	.cfi_offset %rbx, -32
	.cfi_offset %r14, -24
	.cfi_offset %r15, -16
	movl	4(%rsi), %ebx
	leaq	24(%rdi), %r10
	movq	24(%rdi), %rcx
	movq	(%rcx,%rbx,8), %rax
	movl	%eax, %r14d
	shrl	$2, %r14d
	cmpl	%r14d, %edx
	jbe	.LBB1_6
	testb	$2, %al
	jne	.LBB1_3
	leal	(%r14,%rbx), %r8d
	movq	(%rcx,%r8,8), %rcx
	testb	$1, %cl
	jne	.LBB1_4
.LBB1_3:
	xorl	%ecx, %ecx
.LBB1_4:
	movl	%ecx, %r8d
	shrl	$2, %r8d
	addl	%r14d, %r8d
	cmpl	%edx, %r8d
	jae	.LBB1_10
	movb	$1, %al
	movb	$5, %dl
	popq	%rbx
	.cfi_def_cfa_offset 24
	popq	%r14
	.cfi_def_cfa_offset 16
	popq	%r15
	.cfi_def_cfa_offset 8
	retq
.LBB1_6:
	.cfi_def_cfa_offset 32
	movq	8(%rdi), %r8
	cmpq	$-1, %r8
	je	.LBB1_15
	movq	$0, 16(%rcx,%rbx,8)
	leal	4(%rdx), %r9d
	movl	%r14d, %ecx
	cmpl	%r9d, %r14d
	jb	.LBB1_9
	movq	%rdi, %r15
	movq	%r10, %rdi
	movl	%ebx, %esi
	movq	%rdx, %rbx
	movq	%rax, %rdx
	movl	%ebx, %ecx
	callq	"tlsf_heap::refitting::split_off::<=4>"
	movq	%r15, %rdi
	movl	%ebx, %ecx
.LBB1_9:
	subl	%r14d, %ecx
	addl	%ecx, 16(%rdi)
	incq	8(%rdi)
	jmp	.LBB1_14
.LBB1_10:
	movq	8(%rdi), %r9
	cmpq	$-1, %r9
	je	.LBB1_15
	movq	%rdi, %r15
	movq	%r10, %rdi
	movl	%ebx, %esi
	movq	%rdx, %r8
	movq	%rax, %rdx
	callq	"tlsf_heap::refitting::recut::<=4>"
	movq	%r15, %rcx
	movq	24(%r15), %rdx
	movq	$0, 16(%rdx,%rbx,8)
	subl	%r14d, %eax
	addl	16(%r15), %eax
	movl	%eax, 16(%r15)
	cmpl	%eax, 20(%r15)
	jae	.LBB1_13
	movl	%eax, 20(%rcx)
.LBB1_13:
	incq	8(%rcx)
.LBB1_14:
	xorl	%edx, %edx
	xorl	%eax, %eax
	popq	%rbx
	.cfi_def_cfa_offset 24
	popq	%r14
	.cfi_def_cfa_offset 16
	popq	%r15
	.cfi_def_cfa_offset 8
	retq
.LBB1_15:
	.cfi_def_cfa_offset 32
	movb	$1, %dl
	movb	$1, %al
	popq	%rbx
	.cfi_def_cfa_offset 24
	popq	%r14
	.cfi_def_cfa_offset 16
	popq	%r15
	.cfi_def_cfa_offset 8
	retq
.Lfunc_end1:
	.size	"tlsf_heap::heap::Heap::resize_live::<=4>", .Lfunc_end1-"tlsf_heap::heap::Heap::resize_live::<=4>"
	.cfi_endproc
	.section	".text.tlsf_heap::refitting::split_off::<=4>","ax",@progbits
	.p2align	4
	.type	"tlsf_heap::refitting::split_off::<=4>",@function
"tlsf_heap::refitting::split_off::<=4>":
	.cfi_startproc
	movq	%r8, %r9
	movl	%ecx, %r8d
	movq	(%rdi), %r11
	testb	$2, %dl
	jne	.LBB2_2
	movl	%edx, %eax
	shrl	$2, %eax
	addl	%esi, %eax
	movq	(%r11,%rax,8), %rcx
	testb	$1, %cl
	jne	.LBB2_8
.LBB2_2:
	pushq	%rbx
	.cfi_def_cfa_offset 16
	.cfi_offset %rbx, -16
	orq	$1, %rdx
	movl	%edx, %r10d
	shrl	$2, %r10d
	leal	(%r8,%rsi), %eax
	leal	(,%r8,4), %ecx
	movl	%edx, %ebx
	subl	%ecx, %ebx
	movl	%esi, %ecx
	subq	%rbx, %rdx
	movq	%rdx, (%r11,%rcx,8)
	shlq	$32, %rcx
	orq	%rbx, %rcx
	movq	(%rdi), %rdx
	movq	%rcx, (%rdx,%rax,8)
	movq	%r9, 8(%rdx,%rax,8)
	movq	24(%rdi), %rdx
	movl	%eax, %r9d
	shrl	$6, %r9d
	movl	$1, %r11d
	movl	%eax, %ecx
	shlq	%cl, %r11
	orq	%r11, (%rdx,%r9,8)
	testb	$2, %bl
	jne	.LBB2_4
	addl	%r10d, %esi
	movq	(%rdi), %rcx
	movl	%eax, 4(%rcx,%rsi,8)
.LBB2_4:
	subl	%r8d, %r10d
	movl	%r10d, %ecx
	orl	$16, %ecx
	bsrl	%ecx, %ecx
	addl	$-4, %ecx
	shrl	%cl, %r10d
	shll	$4, %ecx
	addl	%r10d, %ecx
	movslq	144(%rdi,%rcx,4), %rdx
	movl	%eax, 144(%rdi,%rcx,4)
	movq	(%rdi), %rsi
	testq	%rdx, %rdx
	js	.LBB2_5
	movabsq	$-4294967296, %rcx
	orq	%rdx, %rcx
	movq	%rcx, 16(%rsi,%rax,8)
	movl	%eax, 20(%rsi,%rdx,8)
	popq	%rbx
	.cfi_def_cfa_offset 8
	retq
.LBB2_5:
	.cfi_def_cfa_offset 16
	movq	$-1, 16(%rsi,%rax,8)
	shrl	$4, %ecx
	movl	$1, %eax
	shll	%cl, %eax
	movl	60(%rdi,%rcx,4), %edx
	orl	%eax, 56(%rdi)
	andb	$15, %r10b
	btsl	%r10d, %edx
	movl	%edx, 60(%rdi,%rcx,4)
	popq	%rbx
	.cfi_def_cfa_offset 8
	retq
.LBB2_8:
	.cfi_restore %rbx
	jmp	"tlsf_heap::refitting::recut::<=4>"
.Lfunc_end2:
	.size	"tlsf_heap::refitting::split_off::<=4>", .Lfunc_end2-"tlsf_heap::refitting::split_off::<=4>"
	.cfi_endproc
	.section	".text.tlsf_heap::refitting::recut::<=4>","ax",@progbits
	.p2align	4
	.type	"tlsf_heap::refitting::recut::<=4>",@function
"tlsf_heap::refitting::recut::<=4>":
	.cfi_startproc
	pushq	%rbp
	.cfi_def_cfa_offset 16
	pushq	%r15
	.cfi_def_cfa_offset 24
	pushq	%r14
	.cfi_def_cfa_offset 32
	pushq	%rbx
	.cfi_def_cfa_offset 40
	.cfi_offset %rbx, -40
	.cfi_offset %r14, -32
	.cfi_offset %r15, -24
	.cfi_offset %rbp, -16
	movq	%rcx, %rax
	movl	%eax, %ebx
	shrl	$2, %ebx
	movl	%edx, %ecx
	shrl	$2, %ecx
	addl	%esi, %ecx
	movq	(%rdi), %r14
	movq	16(%r14,%rcx,8), %r15
	testq	%r15, %r15
	js	.LBB3_4
	movq	%r15, %r10
	shrq	$29, %r10
	movabsq	$17179869176, %rcx
	andq	%r10, %rcx
	movq	16(%r14,%rcx), %r10
	cmpl	$-1, %r15d
	je	.LBB3_2
	movabsq	$-4294967296, %r11
	andq	%r11, %r10
	movl	%r15d, %r11d
	orq	%r11, %r10
	movq	%r10, 16(%r14,%rcx)
	shrq	$32, %r15
	andl	$2147483647, %r15d
	movl	%r15d, 20(%r14,%r11,8)
	jmp	.LBB3_8
.LBB3_4:
	movl	%ebx, %ecx
	orl	$16, %ecx
	bsrl	%ecx, %r10d
	addl	$-4, %r10d
	movl	%ebx, %r11d
	movl	%r10d, %ecx
	shrl	%cl, %r11d
	shll	$4, %r10d
	addl	%r11d, %r10d
	cmpl	$-1, %r15d
	je	.LBB3_5
	movl	%r15d, %ecx
	movl	$-1, 20(%r14,%rcx,8)
	movl	%r15d, 144(%rdi,%r10,4)
	jmp	.LBB3_8
.LBB3_2:
	movl	$4294967295, %r11d
	orq	%r11, %r10
	movq	%r10, 16(%r14,%rcx)
	jmp	.LBB3_8
.LBB3_5:
	movl	$-1, 144(%rdi,%r10,4)
	shrl	$4, %r10d
	andb	$15, %r11b
	movl	$-2, %ebp
	movl	%r11d, %ecx
	roll	%cl, %ebp
	movl	$-2, %r11d
	andl	%ebp, 60(%rdi,%r10,4)
	jne	.LBB3_8
	movl	%r10d, %ecx
	roll	%cl, %r11d
	andl	%r11d, 56(%rdi)
.LBB3_8:
	movl	%eax, %r11d
	addq	%rdx, %r11
	movl	%r11d, %eax
	shrl	$2, %eax
	leal	4(%r8), %ecx
	leal	(%rax,%rsi), %r10d
	cmpl	%ecx, %eax
	jae	.LBB3_13
	movl	%r10d, %ecx
	subl	%ebx, %ecx
	movq	24(%rdi), %rdx
	movl	%ecx, %r8d
	shrl	$6, %r8d
	movq	$-2, %r9
	rolq	%cl, %r9
	andq	%r9, (%rdx,%r8,8)
	testb	$2, %r11b
	jne	.LBB3_10
	movq	(%rdi), %rdx
	movl	%r10d, %r8d
	movl	%esi, %ecx
	movl	%esi, 4(%rdx,%r8,8)
	jmp	.LBB3_12
.LBB3_13:
	leal	(%r8,%rsi), %edx
	leal	(,%r8,4), %ecx
	movl	%r11d, %r14d
	subl	%ecx, %r14d
	movl	%esi, %ecx
	subq	%r14, %r11
	movq	(%rdi), %rsi
	movq	%r11, (%rsi,%rcx,8)
	shlq	$32, %rcx
	orq	%r14, %rcx
	movq	(%rdi), %rsi
	movq	%rcx, (%rsi,%rdx,8)
	movq	%r9, 8(%rsi,%rdx,8)
	movl	%r10d, %ecx
	subl	%ebx, %ecx
	movq	24(%rdi), %rsi
	movl	%ecx, %r9d
	movq	$-2, %r11
	rolq	%cl, %r11
	shrl	$6, %r9d
	andq	%r11, (%rsi,%r9,8)
	movq	24(%rdi), %rsi
	movl	%edx, %r9d
	shrl	$6, %r9d
	movl	$1, %r11d
	movl	%edx, %ecx
	shlq	%cl, %r11
	orq	%r11, (%rsi,%r9,8)
	testb	$2, %r14b
	jne	.LBB3_15
	movq	(%rdi), %rcx
	movl	%r10d, %esi
	movl	%edx, 4(%rcx,%rsi,8)
.LBB3_15:
	subl	%r8d, %eax
	movl	%eax, %ecx
	orl	$16, %ecx
	bsrl	%ecx, %ecx
	addl	$-4, %ecx
	shrl	%cl, %eax
	shll	$4, %ecx
	addl	%eax, %ecx
	movslq	144(%rdi,%rcx,4), %rsi
	movl	%edx, 144(%rdi,%rcx,4)
	movq	(%rdi), %r9
	testq	%rsi, %rsi
	js	.LBB3_16
	movabsq	$-4294967296, %rax
	orq	%rsi, %rax
	movq	%rax, 16(%r9,%rdx,8)
	movl	%edx, 20(%r9,%rsi,8)
	jmp	.LBB3_17
.LBB3_10:
	movl	%esi, %ecx
.LBB3_12:
	decq	%r11
	movq	(%rdi), %rdx
	movq	%r11, (%rdx,%rcx,8)
	jmp	.LBB3_18
.LBB3_16:
	movq	$-1, 16(%r9,%rdx,8)
	shrl	$4, %ecx
	movl	$1, %edx
	shll	%cl, %edx
	movl	60(%rdi,%rcx,4), %esi
	orl	%edx, 56(%rdi)
	andb	$15, %al
	btsl	%eax, %esi
	movl	%esi, 60(%rdi,%rcx,4)
.LBB3_17:
	movl	%r8d, %eax
.LBB3_18:
	popq	%rbx
	.cfi_def_cfa_offset 32
	popq	%r14
	.cfi_def_cfa_offset 24
	popq	%r15
	.cfi_def_cfa_offset 16
	popq	%rbp
	.cfi_def_cfa_offset 8
	retq
.Lfunc_end3:
	.size	"tlsf_heap::refitting::recut::<=4>", .Lfunc_end3-"tlsf_heap::refitting::recut::<=4>"
	.cfi_endproc
	.section	".text.tlsf_heap::heap::Heap::release_live::<=4>","ax",@progbits
	.p2align	4
	.type	"tlsf_heap::heap::Heap::release_live::<=4>",@function
"tlsf_heap::heap::Heap::release_live::<=4>":
	.cfi_startproc
	movl	4(%rsi), %r8d
	movq	24(%rdi), %r11
	movq	(%r11,%r8,8), %r9
	movl	%r9d, %r10d
	shrl	$2, %r10d
	subl	%r10d, 16(%rdi)
	testb	$2, %r9b
	jne	.LBB4_1
	leal	(%r10,%r8), %eax
	movq	(%r11,%rax,8), %rsi
	leaq	24(%rdi), %rax
	testl	%r8d, %r8d
	jne	.LBB4_4
	jmp	.LBB4_5
.LBB4_1:
	xorl	%esi, %esi
	leaq	24(%rdi), %rax
	testl	%r8d, %r8d
	je	.LBB4_5
.LBB4_4:
	movq	%r9, %rcx
	shrq	$32, %rcx
	movq	(%r11,%rcx,8), %rdx
	testb	$1, %dl
	jne	.LBB4_10
.LBB4_5:
	movq	8(%rdi), %rcx
	testb	$1, %sil
	jne	.LBB4_11
	orq	$1, %r9
	movq	%r9, (%r11,%r8,8)
	movq	%rcx, 8(%r11,%r8,8)
	incq	8(%rdi)
	movl	%r10d, %eax
	orl	$16, %eax
	bsrl	%eax, %ecx
	addl	$-4, %ecx
	shrl	%cl, %r10d
	shll	$4, %ecx
	addl	%r10d, %ecx
	movslq	168(%rdi,%rcx,4), %rax
	movl	%r8d, 168(%rdi,%rcx,4)
	movq	24(%rdi), %rdx
	testq	%rax, %rax
	js	.LBB4_7
	movabsq	$-4294967296, %rcx
	orq	%rax, %rcx
	movq	%rcx, 16(%rdx,%r8,8)
	movl	%r8d, 20(%rdx,%rax,8)
	retq
.LBB4_11:
	leaq	1(%rcx), %rdx
	movq	%rdx, 8(%rdi)
	movq	%rax, %rdi
	movq	%r9, %rdx
	jmp	"tlsf_heap::fitting::merge_next::<=4>"
.LBB4_10:
	movq	8(%rdi), %rcx
	leaq	1(%rcx), %r10
	movq	%r10, 8(%rdi)
	movq	%rax, %rdi
	jmp	"tlsf_heap::fitting::merge_before::<=4>"
.LBB4_7:
	movq	$-1, 16(%rdx,%r8,8)
	shrl	$4, %ecx
	movl	$1, %eax
	shll	%cl, %eax
	movl	84(%rdi,%rcx,4), %edx
	orl	%eax, 80(%rdi)
	andb	$15, %r10b
	btsl	%r10d, %edx
	movl	%edx, 84(%rdi,%rcx,4)
	retq
.Lfunc_end4:
	.size	"tlsf_heap::heap::Heap::release_live::<=4>", .Lfunc_end4-"tlsf_heap::heap::Heap::release_live::<=4>"
	.cfi_endproc
	.section	".text.tlsf_heap::fitting::merge_before::<=4>","ax",@progbits
	.p2align	4
	.type	"tlsf_heap::fitting::merge_before::<=4>",@function
"tlsf_heap::fitting::merge_before::<=4>":
	.cfi_startproc
	testb	$1, %sil
	jne	"tlsf_heap::fitting::merge_both::<=4>"
	pushq	%rbp
	.cfi_def_cfa_offset 16
	pushq	%r14
	.cfi_def_cfa_offset 24
	pushq	%rbx
	.cfi_def_cfa_offset 32
	.cfi_offset %rbx, -32
	.cfi_offset %r14, -24
	.cfi_offset %rbp, -16
	movl	%edx, %eax
	shrl	$2, %eax
	orl	$1, %r9d
	addq	%rdx, %r9
	decq	%r9
	movl	%r8d, %esi
	subl	%eax, %esi
	movq	(%rdi), %r11
	movq	16(%r11,%rsi,8), %rbx
	movq	%rcx, %r10
	testq	%rbx, %rbx
	js	.LBB5_2
	movl	%ebx, %eax
	movq	%rbx, %rdx
	shrq	$29, %rdx
	movabsq	$17179869176, %rcx
	andq	%rdx, %rcx
	movl	$4294967295, %r14d
	movq	16(%r11,%rcx), %rdx
	cmpq	%r14, %rax
	jne	.LBB5_7
	orq	%r14, %rdx
	movq	%rdx, 16(%r11,%rcx)
	jmp	.LBB5_12
.LBB5_2:
	movl	%eax, %ecx
	orl	$16, %ecx
	bsrl	%ecx, %edx
	addl	$-4, %edx
	movl	%edx, %ecx
	shrl	%cl, %eax
	shll	$4, %edx
	movl	%r9d, %r14d
	shrl	$2, %r14d
	movl	%r14d, %ecx
	orl	$16, %ecx
	bsrl	%ecx, %ecx
	addl	$-4, %ecx
	movl	%r14d, %ebp
	shrl	%cl, %ebp
	addl	%eax, %edx
	shll	$4, %ecx
	addl	%ebp, %ecx
	cmpl	%ecx, %edx
	jne	.LBB5_8
	movq	24(%rdi), %rax
	movl	%r8d, %edx
	movq	$-2, %r11
	movl	%r8d, %ecx
	rolq	%cl, %r11
	shrl	$6, %edx
	andq	%r11, (%rax,%rdx,8)
	movq	(%rdi), %rax
	movq	%r9, (%rax,%rsi,8)
	movq	%r10, 8(%rax,%rsi,8)
	testb	$2, %r9b
	jne	.LBB5_16
	addl	%esi, %r14d
	movq	(%rdi), %rax
	movl	%esi, 4(%rax,%r14,8)
.LBB5_16:
	popq	%rbx
	.cfi_def_cfa_offset 24
	popq	%r14
	.cfi_def_cfa_offset 16
	popq	%rbp
	.cfi_def_cfa_offset 8
	retq
.LBB5_7:
	.cfi_def_cfa_offset 32
	movabsq	$-4294967296, %r14
	andq	%r14, %rdx
	orq	%rax, %rdx
	movq	%rdx, 16(%r11,%rcx)
	shrq	$32, %rbx
	andl	$2147483647, %ebx
	movl	%ebx, 20(%r11,%rax,8)
	jmp	.LBB5_12
.LBB5_8:
	movl	%edx, %edx
	cmpl	$-1, %ebx
	je	.LBB5_9
	movl	%ebx, %eax
	movl	$-1, 20(%r11,%rax,8)
	movl	%ebx, 144(%rdi,%rdx,4)
	jmp	.LBB5_12
.LBB5_9:
	movl	$-1, 144(%rdi,%rdx,4)
	shrl	$4, %edx
	andb	$15, %al
	movl	$-2, %r11d
	movl	%eax, %ecx
	roll	%cl, %r11d
	movl	$-2, %eax
	andl	%r11d, 60(%rdi,%rdx,4)
	jne	.LBB5_12
	movl	%edx, %ecx
	roll	%cl, %eax
	andl	%eax, 56(%rdi)
.LBB5_12:
	movl	%r9d, %eax
	shrl	$2, %eax
	movq	24(%rdi), %rdx
	movl	%r8d, %r11d
	movq	$-2, %rbx
	movl	%r8d, %ecx
	rolq	%cl, %rbx
	shrl	$6, %r11d
	andq	%rbx, (%rdx,%r11,8)
	movq	(%rdi), %rcx
	movq	%r9, (%rcx,%rsi,8)
	movq	%r10, 8(%rcx,%rsi,8)
	testb	$2, %r9b
	jne	.LBB5_14
	leal	(%rax,%rsi), %ecx
	movq	(%rdi), %rdx
	movl	%esi, 4(%rdx,%rcx,8)
.LBB5_14:
	movl	%eax, %ecx
	orl	$16, %ecx
	bsrl	%ecx, %ecx
	addl	$-4, %ecx
	shrl	%cl, %eax
	shll	$4, %ecx
	addl	%eax, %ecx
	movslq	144(%rdi,%rcx,4), %rdx
	movl	%esi, 144(%rdi,%rcx,4)
	movq	(%rdi), %r8
	testq	%rdx, %rdx
	js	.LBB5_15
	movabsq	$-4294967296, %rax
	orq	%rdx, %rax
	movq	%rax, 16(%r8,%rsi,8)
	movl	%esi, 20(%r8,%rdx,8)
	popq	%rbx
	.cfi_def_cfa_offset 24
	popq	%r14
	.cfi_def_cfa_offset 16
	popq	%rbp
	.cfi_def_cfa_offset 8
	retq
.LBB5_15:
	.cfi_def_cfa_offset 32
	movq	$-1, 16(%r8,%rsi,8)
	shrl	$4, %ecx
	movl	$1, %edx
	shll	%cl, %edx
	movl	60(%rdi,%rcx,4), %esi
	orl	%edx, 56(%rdi)
	andb	$15, %al
	btsl	%eax, %esi
	movl	%esi, 60(%rdi,%rcx,4)
	popq	%rbx
	.cfi_def_cfa_offset 24
	popq	%r14
	.cfi_def_cfa_offset 16
	popq	%rbp
	.cfi_def_cfa_offset 8
	retq
.Lfunc_end5:
	.size	"tlsf_heap::fitting::merge_before::<=4>", .Lfunc_end5-"tlsf_heap::fitting::merge_before::<=4>"
	.cfi_endproc
	.section	".text.tlsf_heap::fitting::merge_both::<=4>","ax",@progbits
	.p2align	4
	.type	"tlsf_heap::fitting::merge_both::<=4>",@function
"tlsf_heap::fitting::merge_both::<=4>":
	.cfi_startproc
	pushq	%rbp
	.cfi_def_cfa_offset 16
	pushq	%r15
	.cfi_def_cfa_offset 24
	pushq	%r14
	.cfi_def_cfa_offset 32
	pushq	%r13
	.cfi_def_cfa_offset 40
	pushq	%r12
	.cfi_def_cfa_offset 48
	pushq	%rbx
	.cfi_def_cfa_offset 56
	.cfi_offset %rbx, -56
	.cfi_offset %r12, -48
	.cfi_offset %r13, -40
	.cfi_offset %r14, -32
	.cfi_offset %r15, -24
	.cfi_offset %rbp, -16
	movq	%rcx, %rax
	movabsq	$-4294967296, %rbx
	movabsq	$17179869176, %r15
	movl	%esi, %ebp
	shrl	$2, %ebp
	movl	%r9d, %ecx
	shrl	$2, %ecx
	addl	%r8d, %ecx
	movq	(%rdi), %r14
	movq	16(%r14,%rcx,8), %r12
	testq	%r12, %r12
	js	.LBB6_4
	movq	%r12, %rcx
	shrq	$29, %rcx
	andq	%r15, %rcx
	movq	16(%r14,%rcx), %r10
	cmpl	$-1, %r12d
	je	.LBB6_2
	andq	%rbx, %r10
	movl	%r12d, %r11d
	orq	%r11, %r10
	movq	%r10, 16(%r14,%rcx)
	shrq	$32, %r12
	andl	$2147483647, %r12d
	movl	%r12d, 20(%r14,%r11,8)
	jmp	.LBB6_8
.LBB6_4:
	movl	%ebp, %ecx
	orl	$16, %ecx
	bsrl	%ecx, %r10d
	addl	$-4, %r10d
	movl	%ebp, %r11d
	movl	%r10d, %ecx
	shrl	%cl, %r11d
	shll	$4, %r10d
	addl	%r11d, %r10d
	cmpl	$-1, %r12d
	je	.LBB6_5
	movl	%r12d, %ecx
	orq	%rbx, 16(%r14,%rcx,8)
	movl	%r12d, 144(%rdi,%r10,4)
	jmp	.LBB6_8
.LBB6_2:
	movl	$4294967295, %r11d
	orq	%r11, %r10
	movq	%r10, 16(%r14,%rcx)
	jmp	.LBB6_8
.LBB6_5:
	movl	$-1, 144(%rdi,%r10,4)
	shrl	$4, %r10d
	andb	$15, %r11b
	movl	$-2, %r14d
	movl	%r11d, %ecx
	roll	%cl, %r14d
	movl	$-2, %r11d
	andl	%r14d, 60(%rdi,%r10,4)
	jne	.LBB6_8
	movl	%r10d, %ecx
	roll	%cl, %r11d
	andl	%r11d, 56(%rdi)
.LBB6_8:
	movl	%edx, %r10d
	shrl	$2, %r10d
	movl	%r8d, %r14d
	subl	%r10d, %r14d
	movq	(%rdi), %r12
	movq	16(%r12,%r14,8), %r13
	testq	%r13, %r13
	js	.LBB6_12
	movq	%r13, %rcx
	shrq	$29, %rcx
	andq	%r15, %rcx
	movq	16(%r12,%rcx), %r10
	cmpl	$-1, %r13d
	je	.LBB6_10
	andq	%rbx, %r10
	movl	%r13d, %r11d
	orq	%r11, %r10
	movq	%r10, 16(%r12,%rcx)
	shrq	$32, %r13
	andl	$2147483647, %r13d
	movl	%r13d, 20(%r12,%r11,8)
	jmp	.LBB6_16
.LBB6_12:
	movl	%r10d, %ecx
	orl	$16, %ecx
	bsrl	%ecx, %r11d
	addl	$-4, %r11d
	movl	%r11d, %ecx
	shrl	%cl, %r10d
	shll	$4, %r11d
	addl	%r10d, %r11d
	cmpl	$-1, %r13d
	je	.LBB6_13
	movl	%r13d, %ecx
	orq	%rbx, 16(%r12,%rcx,8)
	movl	%r13d, 144(%rdi,%r11,4)
	jmp	.LBB6_16
.LBB6_10:
	movl	$4294967295, %r11d
	orq	%r11, %r10
	movq	%r10, 16(%r12,%rcx)
	jmp	.LBB6_16
.LBB6_13:
	movl	$-1, 144(%rdi,%r11,4)
	shrl	$4, %r11d
	andb	$15, %r10b
	movl	$-2, %r15d
	movl	%r10d, %ecx
	roll	%cl, %r15d
	movl	$-2, %r10d
	andl	%r15d, 60(%rdi,%r11,4)
	jne	.LBB6_16
	movl	%r11d, %ecx
	roll	%cl, %r10d
	andl	%r10d, 56(%rdi)
.LBB6_16:
	addl	%esi, %r9d
	leaq	(%rdx,%r9), %rsi
	decq	%rsi
	movl	%esi, %edx
	shrl	$2, %edx
	leal	(%rdx,%r14), %r9d
	movq	24(%rdi), %r10
	movl	%r8d, %r11d
	shrl	$6, %r11d
	movq	$-2, %r15
	movl	%r8d, %ecx
	rolq	%cl, %r15
	movq	$-2, %r8
	andq	%r15, (%r10,%r11,8)
	movl	%r9d, %ecx
	subl	%ebp, %ecx
	movq	24(%rdi), %r10
	movl	%ecx, %r11d
	rolq	%cl, %r8
	shrl	$6, %r11d
	andq	%r8, (%r10,%r11,8)
	movq	(%rdi), %rcx
	movq	%rsi, (%rcx,%r14,8)
	movq	%rax, 8(%rcx,%r14,8)
	testb	$2, %sil
	jne	.LBB6_18
	movq	(%rdi), %rax
	movl	%r9d, %ecx
	movl	%r14d, 4(%rax,%rcx,8)
.LBB6_18:
	movl	%edx, %eax
	orl	$16, %eax
	bsrl	%eax, %ecx
	addl	$-4, %ecx
	shrl	%cl, %edx
	shll	$4, %ecx
	addl	%edx, %ecx
	movslq	144(%rdi,%rcx,4), %rax
	movl	%r14d, 144(%rdi,%rcx,4)
	movq	(%rdi), %rsi
	testq	%rax, %rax
	js	.LBB6_19
	orq	%rax, %rbx
	movq	%rbx, 16(%rsi,%r14,8)
	movl	%r14d, 20(%rsi,%rax,8)
	jmp	.LBB6_21
.LBB6_19:
	movq	$-1, 16(%rsi,%r14,8)
	shrl	$4, %ecx
	movl	$1, %eax
	shll	%cl, %eax
	movl	60(%rdi,%rcx,4), %esi
	orl	%eax, 56(%rdi)
	andb	$15, %dl
	btsl	%edx, %esi
	movl	%esi, 60(%rdi,%rcx,4)
.LBB6_21:
	popq	%rbx
	.cfi_def_cfa_offset 48
	popq	%r12
	.cfi_def_cfa_offset 40
	popq	%r13
	.cfi_def_cfa_offset 32
	popq	%r14
	.cfi_def_cfa_offset 24
	popq	%r15
	.cfi_def_cfa_offset 16
	popq	%rbp
	.cfi_def_cfa_offset 8
	retq
.Lfunc_end6:
	.size	"tlsf_heap::fitting::merge_both::<=4>", .Lfunc_end6-"tlsf_heap::fitting::merge_both::<=4>"
	.cfi_endproc
	.section	".text.tlsf_heap::fitting::merge_next::<=4>","ax",@progbits
	.p2align	4
	.type	"tlsf_heap::fitting::merge_next::<=4>",@function
"tlsf_heap::fitting::merge_next::<=4>":
	.cfi_startproc
	pushq	%rbp
	.cfi_def_cfa_offset 16
	pushq	%r15
	.cfi_def_cfa_offset 24
	pushq	%r14
	.cfi_def_cfa_offset 32
	pushq	%rbx
	.cfi_def_cfa_offset 40
	.cfi_offset %rbx, -40
	.cfi_offset %r14, -32
	.cfi_offset %r15, -24
	.cfi_offset %rbp, -16
	movq	%rcx, %rax
	movabsq	$-4294967296, %r11
	movl	%esi, %ebx
	shrl	$2, %ebx
	movl	%edx, %ecx
	shrl	$2, %ecx
	addl	%r8d, %ecx
	movq	(%rdi), %r14
	movq	16(%r14,%rcx,8), %r15
	testq	%r15, %r15
	js	.LBB7_4
	movq	%r15, %r9
	shrq	$29, %r9
	movabsq	$17179869176, %rcx
	andq	%r9, %rcx
	movq	16(%r14,%rcx), %r9
	cmpl	$-1, %r15d
	je	.LBB7_2
	andq	%r11, %r9
	movl	%r15d, %r10d
	orq	%r10, %r9
	movq	%r9, 16(%r14,%rcx)
	shrq	$32, %r15
	andl	$2147483647, %r15d
	movl	%r15d, 20(%r14,%r10,8)
	jmp	.LBB7_8
.LBB7_4:
	movl	%ebx, %ecx
	orl	$16, %ecx
	bsrl	%ecx, %r9d
	addl	$-4, %r9d
	movl	%ebx, %r10d
	movl	%r9d, %ecx
	shrl	%cl, %r10d
	shll	$4, %r9d
	addl	%r10d, %r9d
	cmpl	$-1, %r15d
	je	.LBB7_5
	movl	%r15d, %ecx
	orq	%r11, 16(%r14,%rcx,8)
	movl	%r15d, 144(%rdi,%r9,4)
	jmp	.LBB7_8
.LBB7_2:
	movl	$4294967295, %r10d
	orq	%r10, %r9
	movq	%r9, 16(%r14,%rcx)
	jmp	.LBB7_8
.LBB7_5:
	movl	$-1, 144(%rdi,%r9,4)
	shrl	$4, %r9d
	andb	$15, %r10b
	movl	$-2, %ebp
	movl	%r10d, %ecx
	roll	%cl, %ebp
	movl	$-2, %r10d
	andl	%ebp, 60(%rdi,%r9,4)
	jne	.LBB7_8
	movl	%r9d, %ecx
	roll	%cl, %r10d
	andl	%r10d, 56(%rdi)
.LBB7_8:
	movl	%esi, %r10d
	addq	%rdx, %r10
	movl	%r10d, %edx
	shrl	$2, %edx
	leal	(%rdx,%r8), %r9d
	movl	%r9d, %ecx
	subl	%ebx, %ecx
	movq	24(%rdi), %rsi
	movl	%ecx, %ebx
	shrl	$6, %ebx
	movq	$-2, %r14
	rolq	%cl, %r14
	andq	%r14, (%rsi,%rbx,8)
	movq	(%rdi), %rcx
	movl	%r8d, %esi
	movq	%r10, (%rcx,%rsi,8)
	movq	%rax, 8(%rcx,%rsi,8)
	testb	$2, %r10b
	jne	.LBB7_10
	movq	(%rdi), %rax
	movl	%r9d, %ecx
	movl	%esi, 4(%rax,%rcx,8)
.LBB7_10:
	movl	%edx, %eax
	orl	$16, %eax
	bsrl	%eax, %ecx
	addl	$-4, %ecx
	shrl	%cl, %edx
	shll	$4, %ecx
	addl	%edx, %ecx
	movslq	144(%rdi,%rcx,4), %rax
	movl	%r8d, 144(%rdi,%rcx,4)
	movq	(%rdi), %r8
	testq	%rax, %rax
	js	.LBB7_11
	orq	%rax, %r11
	movq	%r11, 16(%r8,%rsi,8)
	movl	%esi, 20(%r8,%rax,8)
	jmp	.LBB7_13
.LBB7_11:
	movq	$-1, 16(%r8,%rsi,8)
	shrl	$4, %ecx
	movl	$1, %eax
	shll	%cl, %eax
	movl	60(%rdi,%rcx,4), %esi
	orl	%eax, 56(%rdi)
	andb	$15, %dl
	btsl	%edx, %esi
	movl	%esi, 60(%rdi,%rcx,4)
.LBB7_13:
	popq	%rbx
	.cfi_def_cfa_offset 32
	popq	%r14
	.cfi_def_cfa_offset 24
	popq	%r15
	.cfi_def_cfa_offset 16
	popq	%rbp
	.cfi_def_cfa_offset 8
	retq
.Lfunc_end7:
	.size	"tlsf_heap::fitting::merge_next::<=4>", .Lfunc_end7-"tlsf_heap::fitting::merge_next::<=4>"
	.cfi_endproc
	.section	".text.tlsf_heap::heap::Heap::resize_live::<=5>","ax",@progbits
	.p2align	4
	.type	"tlsf_heap::heap::Heap::resize_live::<=5>",@function
"tlsf_heap::heap::Heap::resize_live::<=5>":
	.cfi_startproc
	pushq	%r15
	.cfi_def_cfa_offset 16
	pushq	%r14
	.cfi_def_cfa_offset 24
	pushq	%rbx
	.cfi_def_cfa_offset 32
	.cfi_offset %rbx, -32
	.cfi_offset %r14, -24
	.cfi_offset %r15, -16
	movl	4(%rsi), %ebx
	leaq	24(%rdi), %r10
	movq	24(%rdi), %rcx
	movq	(%rcx,%rbx,8), %rax
	movl	%eax, %r14d
	shrl	$2, %r14d
	cmpl	%r14d, %edx
	jbe	.LBB8_6
	testb	$2, %al
	jne	.LBB8_3
	leal	(%r14,%rbx), %r8d
	movq	(%rcx,%r8,8), %rcx
	testb	$1, %cl
	jne	.LBB8_4
.LBB8_3:
	xorl	%ecx, %ecx
.LBB8_4:
	movl	%ecx, %r8d
	shrl	$2, %r8d
	addl	%r14d, %r8d
	cmpl	%edx, %r8d
	jae	.LBB8_10
	movb	$1, %al
	movb	$5, %dl
	popq	%rbx
	.cfi_def_cfa_offset 24
	popq	%r14
	.cfi_def_cfa_offset 16
	popq	%r15
	.cfi_def_cfa_offset 8
	retq
.LBB8_6:
	.cfi_def_cfa_offset 32
	movq	8(%rdi), %r8
	cmpq	$-1, %r8
	je	.LBB8_15
	movq	$0, 16(%rcx,%rbx,8)
	leal	4(%rdx), %r9d
	movl	%r14d, %ecx
	cmpl	%r9d, %r14d
	jb	.LBB8_9
	movq	%rdi, %r15
	movq	%r10, %rdi
	movl	%ebx, %esi
	movq	%rdx, %rbx
	movq	%rax, %rdx
	movl	%ebx, %ecx
	callq	"tlsf_heap::refitting::split_off::<=5>"
	movq	%r15, %rdi
	movl	%ebx, %ecx
.LBB8_9:
	subl	%r14d, %ecx
	addl	%ecx, 16(%rdi)
	incq	8(%rdi)
	jmp	.LBB8_14
.LBB8_10:
	movq	8(%rdi), %r9
	cmpq	$-1, %r9
	je	.LBB8_15
	movq	%rdi, %r15
	movq	%r10, %rdi
	movl	%ebx, %esi
	movq	%rdx, %r8
	movq	%rax, %rdx
	callq	"tlsf_heap::refitting::recut::<=5>"
	movq	%r15, %rcx
	movq	24(%r15), %rdx
	movq	$0, 16(%rdx,%rbx,8)
	subl	%r14d, %eax
	addl	16(%r15), %eax
	movl	%eax, 16(%r15)
	cmpl	%eax, 20(%r15)
	jae	.LBB8_13
	movl	%eax, 20(%rcx)
.LBB8_13:
	incq	8(%rcx)
.LBB8_14:
	xorl	%edx, %edx
	xorl	%eax, %eax
	popq	%rbx
	.cfi_def_cfa_offset 24
	popq	%r14
	.cfi_def_cfa_offset 16
	popq	%r15
	.cfi_def_cfa_offset 8
	retq
.LBB8_15:
	.cfi_def_cfa_offset 32
	movb	$1, %dl
	movb	$1, %al
	popq	%rbx
	.cfi_def_cfa_offset 24
	popq	%r14
	.cfi_def_cfa_offset 16
	popq	%r15
	.cfi_def_cfa_offset 8
	retq
.Lfunc_end8:
	.size	"tlsf_heap::heap::Heap::resize_live::<=5>", .Lfunc_end8-"tlsf_heap::heap::Heap::resize_live::<=5>"
	.cfi_endproc
	.section	".text.tlsf_heap::refitting::split_off::<=5>","ax",@progbits
	.p2align	4
	.type	"tlsf_heap::refitting::split_off::<=5>",@function
"tlsf_heap::refitting::split_off::<=5>":
	.cfi_startproc
	movq	%r8, %r9
	movl	%ecx, %r8d
	movq	(%rdi), %r11
	testb	$2, %dl
	jne	.LBB9_2
	movl	%edx, %eax
	shrl	$2, %eax
	addl	%esi, %eax
	movq	(%r11,%rax,8), %rcx
	testb	$1, %cl
	jne	.LBB9_8
.LBB9_2:
	pushq	%rbx
	.cfi_def_cfa_offset 16
	.cfi_offset %rbx, -16
	orq	$1, %rdx
	movl	%edx, %r10d
	shrl	$2, %r10d
	leal	(%r8,%rsi), %eax
	leal	(,%r8,4), %ecx
	movl	%edx, %ebx
	subl	%ecx, %ebx
	movl	%esi, %ecx
	subq	%rbx, %rdx
	movq	%rdx, (%r11,%rcx,8)
	shlq	$32, %rcx
	orq	%rbx, %rcx
	movq	(%rdi), %rdx
	movq	%rcx, (%rdx,%rax,8)
	movq	%r9, 8(%rdx,%rax,8)
	movq	24(%rdi), %rdx
	movl	%eax, %r9d
	shrl	$6, %r9d
	movl	$1, %r11d
	movl	%eax, %ecx
	shlq	%cl, %r11
	orq	%r11, (%rdx,%r9,8)
	testb	$2, %bl
	jne	.LBB9_4
	addl	%r10d, %esi
	movq	(%rdi), %rcx
	movl	%eax, 4(%rcx,%rsi,8)
.LBB9_4:
	subl	%r8d, %r10d
	movl	%r10d, %ecx
	orl	$32, %ecx
	bsrl	%ecx, %ecx
	addl	$-5, %ecx
	shrl	%cl, %r10d
	shll	$5, %ecx
	addl	%r10d, %ecx
	movslq	144(%rdi,%rcx,4), %rdx
	movl	%eax, 144(%rdi,%rcx,4)
	movq	(%rdi), %rsi
	testq	%rdx, %rdx
	js	.LBB9_5
	movabsq	$-4294967296, %rcx
	orq	%rdx, %rcx
	movq	%rcx, 16(%rsi,%rax,8)
	movl	%eax, 20(%rsi,%rdx,8)
	popq	%rbx
	.cfi_def_cfa_offset 8
	retq
.LBB9_5:
	.cfi_def_cfa_offset 16
	movq	$-1, 16(%rsi,%rax,8)
	shrl	$5, %ecx
	movl	$1, %eax
	shll	%cl, %eax
	movl	60(%rdi,%rcx,4), %edx
	orl	%eax, 56(%rdi)
	btsl	%r10d, %edx
	movl	%edx, 60(%rdi,%rcx,4)
	popq	%rbx
	.cfi_def_cfa_offset 8
	retq
.LBB9_8:
	.cfi_restore %rbx
	jmp	"tlsf_heap::refitting::recut::<=5>"
.Lfunc_end9:
	.size	"tlsf_heap::refitting::split_off::<=5>", .Lfunc_end9-"tlsf_heap::refitting::split_off::<=5>"
	.cfi_endproc
	.section	".text.tlsf_heap::refitting::recut::<=5>","ax",@progbits
	.p2align	4
	.type	"tlsf_heap::refitting::recut::<=5>",@function
"tlsf_heap::refitting::recut::<=5>":
	.cfi_startproc
	pushq	%rbp
	.cfi_def_cfa_offset 16
	pushq	%r15
	.cfi_def_cfa_offset 24
	pushq	%r14
	.cfi_def_cfa_offset 32
	pushq	%rbx
	.cfi_def_cfa_offset 40
	.cfi_offset %rbx, -40
	.cfi_offset %r14, -32
	.cfi_offset %r15, -24
	.cfi_offset %rbp, -16
	movq	%rcx, %rax
	movl	%eax, %ebx
	shrl	$2, %ebx
	movl	%edx, %ecx
	shrl	$2, %ecx
	addl	%esi, %ecx
	movq	(%rdi), %r14
	movq	16(%r14,%rcx,8), %r15
	testq	%r15, %r15
	js	.LBB10_4
	movq	%r15, %r10
	shrq	$29, %r10
	movabsq	$17179869176, %rcx
	andq	%r10, %rcx
	movq	16(%r14,%rcx), %r10
	cmpl	$-1, %r15d
	je	.LBB10_2
	movabsq	$-4294967296, %r11
	andq	%r11, %r10
	movl	%r15d, %r11d
	orq	%r11, %r10
	movq	%r10, 16(%r14,%rcx)
	shrq	$32, %r15
	andl	$2147483647, %r15d
	movl	%r15d, 20(%r14,%r11,8)
	jmp	.LBB10_8
.LBB10_4:
	movl	%ebx, %ecx
	orl	$32, %ecx
	bsrl	%ecx, %r10d
	addl	$-5, %r10d
	movl	%ebx, %r11d
	movl	%r10d, %ecx
	shrl	%cl, %r11d
	shll	$5, %r10d
	addl	%r11d, %r10d
	cmpl	$-1, %r15d
	je	.LBB10_5
	movl	%r15d, %ecx
	movl	$-1, 20(%r14,%rcx,8)
	movl	%r15d, 144(%rdi,%r10,4)
	jmp	.LBB10_8
.LBB10_2:
	movl	$4294967295, %r11d
	orq	%r11, %r10
	movq	%r10, 16(%r14,%rcx)
	jmp	.LBB10_8
.LBB10_5:
	movl	$-1, 144(%rdi,%r10,4)
	shrl	$5, %r10d
	movl	$-2, %ebp
	movl	%r11d, %ecx
	roll	%cl, %ebp
	movl	$-2, %r11d
	andl	%ebp, 60(%rdi,%r10,4)
	jne	.LBB10_8
	movl	%r10d, %ecx
	roll	%cl, %r11d
	andl	%r11d, 56(%rdi)
.LBB10_8:
	movl	%eax, %r11d
	addq	%rdx, %r11
	movl	%r11d, %eax
	shrl	$2, %eax
	leal	4(%r8), %ecx
	leal	(%rax,%rsi), %r10d
	cmpl	%ecx, %eax
	jae	.LBB10_13
	movl	%r10d, %ecx
	subl	%ebx, %ecx
	movq	24(%rdi), %rdx
	movl	%ecx, %r8d
	shrl	$6, %r8d
	movq	$-2, %r9
	rolq	%cl, %r9
	andq	%r9, (%rdx,%r8,8)
	testb	$2, %r11b
	jne	.LBB10_10
	movq	(%rdi), %rdx
	movl	%r10d, %r8d
	movl	%esi, %ecx
	movl	%esi, 4(%rdx,%r8,8)
	jmp	.LBB10_12
.LBB10_13:
	leal	(%r8,%rsi), %edx
	leal	(,%r8,4), %ecx
	movl	%r11d, %r14d
	subl	%ecx, %r14d
	movl	%esi, %ecx
	subq	%r14, %r11
	movq	(%rdi), %rsi
	movq	%r11, (%rsi,%rcx,8)
	shlq	$32, %rcx
	orq	%r14, %rcx
	movq	(%rdi), %rsi
	movq	%rcx, (%rsi,%rdx,8)
	movq	%r9, 8(%rsi,%rdx,8)
	movl	%r10d, %ecx
	subl	%ebx, %ecx
	movq	24(%rdi), %rsi
	movl	%ecx, %r9d
	movq	$-2, %r11
	rolq	%cl, %r11
	shrl	$6, %r9d
	andq	%r11, (%rsi,%r9,8)
	movq	24(%rdi), %rsi
	movl	%edx, %r9d
	shrl	$6, %r9d
	movl	$1, %r11d
	movl	%edx, %ecx
	shlq	%cl, %r11
	orq	%r11, (%rsi,%r9,8)
	testb	$2, %r14b
	jne	.LBB10_15
	movq	(%rdi), %rcx
	movl	%r10d, %esi
	movl	%edx, 4(%rcx,%rsi,8)
.LBB10_15:
	subl	%r8d, %eax
	movl	%eax, %ecx
	orl	$32, %ecx
	bsrl	%ecx, %ecx
	addl	$-5, %ecx
	shrl	%cl, %eax
	shll	$5, %ecx
	addl	%eax, %ecx
	movslq	144(%rdi,%rcx,4), %rsi
	movl	%edx, 144(%rdi,%rcx,4)
	movq	(%rdi), %r9
	testq	%rsi, %rsi
	js	.LBB10_16
	movabsq	$-4294967296, %rax
	orq	%rsi, %rax
	movq	%rax, 16(%r9,%rdx,8)
	movl	%edx, 20(%r9,%rsi,8)
	jmp	.LBB10_17
.LBB10_10:
	movl	%esi, %ecx
.LBB10_12:
	decq	%r11
	movq	(%rdi), %rdx
	movq	%r11, (%rdx,%rcx,8)
	jmp	.LBB10_18
.LBB10_16:
	movq	$-1, 16(%r9,%rdx,8)
	shrl	$5, %ecx
	movl	$1, %edx
	shll	%cl, %edx
	movl	60(%rdi,%rcx,4), %esi
	orl	%edx, 56(%rdi)
	btsl	%eax, %esi
	movl	%esi, 60(%rdi,%rcx,4)
.LBB10_17:
	movl	%r8d, %eax
.LBB10_18:
	popq	%rbx
	.cfi_def_cfa_offset 32
	popq	%r14
	.cfi_def_cfa_offset 24
	popq	%r15
	.cfi_def_cfa_offset 16
	popq	%rbp
	.cfi_def_cfa_offset 8
	retq
.Lfunc_end10:
	.size	"tlsf_heap::refitting::recut::<=5>", .Lfunc_end10-"tlsf_heap::refitting::recut::<=5>"
	.cfi_endproc
	.section	".text.tlsf_heap::heap::Heap::release_live::<=5>","ax",@progbits
	.p2align	4
	.type	"tlsf_heap::heap::Heap::release_live::<=5>",@function
"tlsf_heap::heap::Heap::release_live::<=5>":
	.cfi_startproc
	movl	4(%rsi), %r8d
	movq	24(%rdi), %r11
	movq	(%r11,%r8,8), %r9
	movl	%r9d, %r10d
	shrl	$2, %r10d
	subl	%r10d, 16(%rdi)
	testb	$2, %r9b
	jne	.LBB11_1
	leal	(%r10,%r8), %eax
	movq	(%r11,%rax,8), %rsi
	leaq	24(%rdi), %rax
	testl	%r8d, %r8d
	jne	.LBB11_4
	jmp	.LBB11_5
.LBB11_1:
	xorl	%esi, %esi
	leaq	24(%rdi), %rax
	testl	%r8d, %r8d
	je	.LBB11_5
.LBB11_4:
	movq	%r9, %rcx
	shrq	$32, %rcx
	movq	(%r11,%rcx,8), %rdx
	testb	$1, %dl
	jne	.LBB11_10
.LBB11_5:
	movq	8(%rdi), %rcx
	testb	$1, %sil
	jne	.LBB11_11
	orq	$1, %r9
	movq	%r9, (%r11,%r8,8)
	movq	%rcx, 8(%r11,%r8,8)
	incq	8(%rdi)
	movl	%r10d, %eax
	orl	$32, %eax
	bsrl	%eax, %ecx
	addl	$-5, %ecx
	shrl	%cl, %r10d
	shll	$5, %ecx
	addl	%r10d, %ecx
	movslq	168(%rdi,%rcx,4), %rax
	movl	%r8d, 168(%rdi,%rcx,4)
	movq	24(%rdi), %rdx
	testq	%rax, %rax
	js	.LBB11_7
	movabsq	$-4294967296, %rcx
	orq	%rax, %rcx
	movq	%rcx, 16(%rdx,%r8,8)
	movl	%r8d, 20(%rdx,%rax,8)
	retq
.LBB11_11:
	leaq	1(%rcx), %rdx
	movq	%rdx, 8(%rdi)
	movq	%rax, %rdi
	movq	%r9, %rdx
	jmp	"tlsf_heap::fitting::merge_next::<=5>"
.LBB11_10:
	movq	8(%rdi), %rcx
	leaq	1(%rcx), %r10
	movq	%r10, 8(%rdi)
	movq	%rax, %rdi
	jmp	"tlsf_heap::fitting::merge_before::<=5>"
.LBB11_7:
	movq	$-1, 16(%rdx,%r8,8)
	shrl	$5, %ecx
	movl	$1, %eax
	shll	%cl, %eax
	movl	84(%rdi,%rcx,4), %edx
	orl	%eax, 80(%rdi)
	btsl	%r10d, %edx
	movl	%edx, 84(%rdi,%rcx,4)
	retq
.Lfunc_end11:
	.size	"tlsf_heap::heap::Heap::release_live::<=5>", .Lfunc_end11-"tlsf_heap::heap::Heap::release_live::<=5>"
	.cfi_endproc
	.section	".text.tlsf_heap::fitting::merge_before::<=5>","ax",@progbits
	.p2align	4
	.type	"tlsf_heap::fitting::merge_before::<=5>",@function
"tlsf_heap::fitting::merge_before::<=5>":
	.cfi_startproc
	testb	$1, %sil
	jne	"tlsf_heap::fitting::merge_both::<=5>"
	pushq	%rbp
	.cfi_def_cfa_offset 16
	pushq	%r14
	.cfi_def_cfa_offset 24
	pushq	%rbx
	.cfi_def_cfa_offset 32
	.cfi_offset %rbx, -32
	.cfi_offset %r14, -24
	.cfi_offset %rbp, -16
	movl	%edx, %eax
	shrl	$2, %eax
	orl	$1, %r9d
	addq	%rdx, %r9
	decq	%r9
	movl	%r8d, %esi
	subl	%eax, %esi
	movq	(%rdi), %r11
	movq	16(%r11,%rsi,8), %rbx
	movq	%rcx, %r10
	testq	%rbx, %rbx
	js	.LBB12_2
	movl	%ebx, %eax
	movq	%rbx, %rdx
	shrq	$29, %rdx
	movabsq	$17179869176, %rcx
	andq	%rdx, %rcx
	movl	$4294967295, %r14d
	movq	16(%r11,%rcx), %rdx
	cmpq	%r14, %rax
	jne	.LBB12_7
	orq	%r14, %rdx
	movq	%rdx, 16(%r11,%rcx)
	jmp	.LBB12_12
.LBB12_2:
	movl	%eax, %ecx
	orl	$32, %ecx
	bsrl	%ecx, %edx
	addl	$-5, %edx
	movl	%edx, %ecx
	shrl	%cl, %eax
	shll	$5, %edx
	movl	%r9d, %r14d
	shrl	$2, %r14d
	movl	%r14d, %ecx
	orl	$32, %ecx
	bsrl	%ecx, %ecx
	addl	$-5, %ecx
	movl	%r14d, %ebp
	shrl	%cl, %ebp
	addl	%eax, %edx
	shll	$5, %ecx
	addl	%ebp, %ecx
	cmpl	%ecx, %edx
	jne	.LBB12_8
	movq	24(%rdi), %rax
	movl	%r8d, %edx
	movq	$-2, %r11
	movl	%r8d, %ecx
	rolq	%cl, %r11
	shrl	$6, %edx
	andq	%r11, (%rax,%rdx,8)
	movq	(%rdi), %rax
	movq	%r9, (%rax,%rsi,8)
	movq	%r10, 8(%rax,%rsi,8)
	testb	$2, %r9b
	jne	.LBB12_16
	addl	%esi, %r14d
	movq	(%rdi), %rax
	movl	%esi, 4(%rax,%r14,8)
.LBB12_16:
	popq	%rbx
	.cfi_def_cfa_offset 24
	popq	%r14
	.cfi_def_cfa_offset 16
	popq	%rbp
	.cfi_def_cfa_offset 8
	retq
.LBB12_7:
	.cfi_def_cfa_offset 32
	movabsq	$-4294967296, %r14
	andq	%r14, %rdx
	orq	%rax, %rdx
	movq	%rdx, 16(%r11,%rcx)
	shrq	$32, %rbx
	andl	$2147483647, %ebx
	movl	%ebx, 20(%r11,%rax,8)
	jmp	.LBB12_12
.LBB12_8:
	movl	%edx, %edx
	cmpl	$-1, %ebx
	je	.LBB12_9
	movl	%ebx, %eax
	movl	$-1, 20(%r11,%rax,8)
	movl	%ebx, 144(%rdi,%rdx,4)
	jmp	.LBB12_12
.LBB12_9:
	movl	$-1, 144(%rdi,%rdx,4)
	shrl	$5, %edx
	movl	$-2, %r11d
	movl	%eax, %ecx
	roll	%cl, %r11d
	movl	$-2, %eax
	andl	%r11d, 60(%rdi,%rdx,4)
	jne	.LBB12_12
	movl	%edx, %ecx
	roll	%cl, %eax
	andl	%eax, 56(%rdi)
.LBB12_12:
	movl	%r9d, %eax
	shrl	$2, %eax
	movq	24(%rdi), %rdx
	movl	%r8d, %r11d
	movq	$-2, %rbx
	movl	%r8d, %ecx
	rolq	%cl, %rbx
	shrl	$6, %r11d
	andq	%rbx, (%rdx,%r11,8)
	movq	(%rdi), %rcx
	movq	%r9, (%rcx,%rsi,8)
	movq	%r10, 8(%rcx,%rsi,8)
	testb	$2, %r9b
	jne	.LBB12_14
	leal	(%rax,%rsi), %ecx
	movq	(%rdi), %rdx
	movl	%esi, 4(%rdx,%rcx,8)
.LBB12_14:
	movl	%eax, %ecx
	orl	$32, %ecx
	bsrl	%ecx, %ecx
	addl	$-5, %ecx
	shrl	%cl, %eax
	shll	$5, %ecx
	addl	%eax, %ecx
	movslq	144(%rdi,%rcx,4), %rdx
	movl	%esi, 144(%rdi,%rcx,4)
	movq	(%rdi), %r8
	testq	%rdx, %rdx
	js	.LBB12_15
	movabsq	$-4294967296, %rax
	orq	%rdx, %rax
	movq	%rax, 16(%r8,%rsi,8)
	movl	%esi, 20(%r8,%rdx,8)
	popq	%rbx
	.cfi_def_cfa_offset 24
	popq	%r14
	.cfi_def_cfa_offset 16
	popq	%rbp
	.cfi_def_cfa_offset 8
	retq
.LBB12_15:
	.cfi_def_cfa_offset 32
	movq	$-1, 16(%r8,%rsi,8)
	shrl	$5, %ecx
	movl	$1, %edx
	shll	%cl, %edx
	movl	60(%rdi,%rcx,4), %esi
	orl	%edx, 56(%rdi)
	btsl	%eax, %esi
	movl	%esi, 60(%rdi,%rcx,4)
	popq	%rbx
	.cfi_def_cfa_offset 24
	popq	%r14
	.cfi_def_cfa_offset 16
	popq	%rbp
	.cfi_def_cfa_offset 8
	retq
.Lfunc_end12:
	.size	"tlsf_heap::fitting::merge_before::<=5>", .Lfunc_end12-"tlsf_heap::fitting::merge_before::<=5>"
	.cfi_endproc
	.section	".text.tlsf_heap::fitting::merge_both::<=5>","ax",@progbits
	.p2align	4
	.type	"tlsf_heap::fitting::merge_both::<=5>",@function
"tlsf_heap::fitting::merge_both::<=5>":
	.cfi_startproc
	pushq	%rbp
	.cfi_def_cfa_offset 16
	pushq	%r15
	.cfi_def_cfa_offset 24
	pushq	%r14
	.cfi_def_cfa_offset 32
	pushq	%r13
	.cfi_def_cfa_offset 40
	pushq	%r12
	.cfi_def_cfa_offset 48
	pushq	%rbx
	.cfi_def_cfa_offset 56
	.cfi_offset %rbx, -56
	.cfi_offset %r12, -48
	.cfi_offset %r13, -40
	.cfi_offset %r14, -32
	.cfi_offset %r15, -24
	.cfi_offset %rbp, -16
	movq	%rcx, %rax
	movabsq	$-4294967296, %rbx
	movabsq	$17179869176, %r15
	movl	%esi, %ebp
	shrl	$2, %ebp
	movl	%r9d, %ecx
	shrl	$2, %ecx
	addl	%r8d, %ecx
	movq	(%rdi), %r14
	movq	16(%r14,%rcx,8), %r12
	testq	%r12, %r12
	js	.LBB13_4
	movq	%r12, %rcx
	shrq	$29, %rcx
	andq	%r15, %rcx
	movq	16(%r14,%rcx), %r10
	cmpl	$-1, %r12d
	je	.LBB13_2
	andq	%rbx, %r10
	movl	%r12d, %r11d
	orq	%r11, %r10
	movq	%r10, 16(%r14,%rcx)
	shrq	$32, %r12
	andl	$2147483647, %r12d
	movl	%r12d, 20(%r14,%r11,8)
	jmp	.LBB13_8
.LBB13_4:
	movl	%ebp, %ecx
	orl	$32, %ecx
	bsrl	%ecx, %r10d
	addl	$-5, %r10d
	movl	%ebp, %r11d
	movl	%r10d, %ecx
	shrl	%cl, %r11d
	shll	$5, %r10d
	addl	%r11d, %r10d
	cmpl	$-1, %r12d
	je	.LBB13_5
	movl	%r12d, %ecx
	orq	%rbx, 16(%r14,%rcx,8)
	movl	%r12d, 144(%rdi,%r10,4)
	jmp	.LBB13_8
.LBB13_2:
	movl	$4294967295, %r11d
	orq	%r11, %r10
	movq	%r10, 16(%r14,%rcx)
	jmp	.LBB13_8
.LBB13_5:
	movl	$-1, 144(%rdi,%r10,4)
	shrl	$5, %r10d
	movl	$-2, %r14d
	movl	%r11d, %ecx
	roll	%cl, %r14d
	movl	$-2, %r11d
	andl	%r14d, 60(%rdi,%r10,4)
	jne	.LBB13_8
	movl	%r10d, %ecx
	roll	%cl, %r11d
	andl	%r11d, 56(%rdi)
.LBB13_8:
	movl	%edx, %r10d
	shrl	$2, %r10d
	movl	%r8d, %r14d
	subl	%r10d, %r14d
	movq	(%rdi), %r12
	movq	16(%r12,%r14,8), %r13
	testq	%r13, %r13
	js	.LBB13_12
	movq	%r13, %rcx
	shrq	$29, %rcx
	andq	%r15, %rcx
	movq	16(%r12,%rcx), %r10
	cmpl	$-1, %r13d
	je	.LBB13_10
	andq	%rbx, %r10
	movl	%r13d, %r11d
	orq	%r11, %r10
	movq	%r10, 16(%r12,%rcx)
	shrq	$32, %r13
	andl	$2147483647, %r13d
	movl	%r13d, 20(%r12,%r11,8)
	jmp	.LBB13_16
.LBB13_12:
	movl	%r10d, %ecx
	orl	$32, %ecx
	bsrl	%ecx, %r11d
	addl	$-5, %r11d
	movl	%r11d, %ecx
	shrl	%cl, %r10d
	shll	$5, %r11d
	addl	%r10d, %r11d
	cmpl	$-1, %r13d
	je	.LBB13_13
	movl	%r13d, %ecx
	orq	%rbx, 16(%r12,%rcx,8)
	movl	%r13d, 144(%rdi,%r11,4)
	jmp	.LBB13_16
.LBB13_10:
	movl	$4294967295, %r11d
	orq	%r11, %r10
	movq	%r10, 16(%r12,%rcx)
	jmp	.LBB13_16
.LBB13_13:
	movl	$-1, 144(%rdi,%r11,4)
	shrl	$5, %r11d
	movl	$-2, %r15d
	movl	%r10d, %ecx
	roll	%cl, %r15d
	movl	$-2, %r10d
	andl	%r15d, 60(%rdi,%r11,4)
	jne	.LBB13_16
	movl	%r11d, %ecx
	roll	%cl, %r10d
	andl	%r10d, 56(%rdi)
.LBB13_16:
	addl	%esi, %r9d
	leaq	(%rdx,%r9), %rsi
	decq	%rsi
	movl	%esi, %edx
	shrl	$2, %edx
	leal	(%rdx,%r14), %r9d
	movq	24(%rdi), %r10
	movl	%r8d, %r11d
	shrl	$6, %r11d
	movq	$-2, %r15
	movl	%r8d, %ecx
	rolq	%cl, %r15
	movq	$-2, %r8
	andq	%r15, (%r10,%r11,8)
	movl	%r9d, %ecx
	subl	%ebp, %ecx
	movq	24(%rdi), %r10
	movl	%ecx, %r11d
	rolq	%cl, %r8
	shrl	$6, %r11d
	andq	%r8, (%r10,%r11,8)
	movq	(%rdi), %rcx
	movq	%rsi, (%rcx,%r14,8)
	movq	%rax, 8(%rcx,%r14,8)
	testb	$2, %sil
	jne	.LBB13_18
	movq	(%rdi), %rax
	movl	%r9d, %ecx
	movl	%r14d, 4(%rax,%rcx,8)
.LBB13_18:
	movl	%edx, %eax
	orl	$32, %eax
	bsrl	%eax, %ecx
	addl	$-5, %ecx
	shrl	%cl, %edx
	shll	$5, %ecx
	addl	%edx, %ecx
	movslq	144(%rdi,%rcx,4), %rax
	movl	%r14d, 144(%rdi,%rcx,4)
	movq	(%rdi), %rsi
	testq	%rax, %rax
	js	.LBB13_19
	orq	%rax, %rbx
	movq	%rbx, 16(%rsi,%r14,8)
	movl	%r14d, 20(%rsi,%rax,8)
	jmp	.LBB13_21
.LBB13_19:
	movq	$-1, 16(%rsi,%r14,8)
	shrl	$5, %ecx
	movl	$1, %eax
	shll	%cl, %eax
	movl	60(%rdi,%rcx,4), %esi
	orl	%eax, 56(%rdi)
	btsl	%edx, %esi
	movl	%esi, 60(%rdi,%rcx,4)
.LBB13_21:
	popq	%rbx
	.cfi_def_cfa_offset 48
	popq	%r12
	.cfi_def_cfa_offset 40
	popq	%r13
	.cfi_def_cfa_offset 32
	popq	%r14
	.cfi_def_cfa_offset 24
	popq	%r15
	.cfi_def_cfa_offset 16
	popq	%rbp
	.cfi_def_cfa_offset 8
	retq
.Lfunc_end13:
	.size	"tlsf_heap::fitting::merge_both::<=5>", .Lfunc_end13-"tlsf_heap::fitting::merge_both::<=5>"
	.cfi_endproc
	.section	".text.tlsf_heap::fitting::merge_next::<=5>","ax",@progbits
	.p2align	4
	.type	"tlsf_heap::fitting::merge_next::<=5>",@function
"tlsf_heap::fitting::merge_next::<=5>":
	.cfi_startproc
	pushq	%rbp
	.cfi_def_cfa_offset 16
	pushq	%r15
	.cfi_def_cfa_offset 24
	pushq	%r14
	.cfi_def_cfa_offset 32
	pushq	%rbx
	.cfi_def_cfa_offset 40
	.cfi_offset %rbx, -40
	.cfi_offset %r14, -32
	.cfi_offset %r15, -24
	.cfi_offset %rbp, -16
	movq	%rcx, %rax
	movabsq	$-4294967296, %r11
	movl	%esi, %ebx
	shrl	$2, %ebx
	movl	%edx, %ecx
	shrl	$2, %ecx
	addl	%r8d, %ecx
	movq	(%rdi), %r14
	movq	16(%r14,%rcx,8), %r15
	testq	%r15, %r15
	js	.LBB14_4
	movq	%r15, %r9
	shrq	$29, %r9
	movabsq	$17179869176, %rcx
	andq	%r9, %rcx
	movq	16(%r14,%rcx), %r9
	cmpl	$-1, %r15d
	je	.LBB14_2
	andq	%r11, %r9
	movl	%r15d, %r10d
	orq	%r10, %r9
	movq	%r9, 16(%r14,%rcx)
	shrq	$32, %r15
	andl	$2147483647, %r15d
	movl	%r15d, 20(%r14,%r10,8)
	jmp	.LBB14_8
.LBB14_4:
	movl	%ebx, %ecx
	orl	$32, %ecx
	bsrl	%ecx, %r9d
	addl	$-5, %r9d
	movl	%ebx, %r10d
	movl	%r9d, %ecx
	shrl	%cl, %r10d
	shll	$5, %r9d
	addl	%r10d, %r9d
	cmpl	$-1, %r15d
	je	.LBB14_5
	movl	%r15d, %ecx
	orq	%r11, 16(%r14,%rcx,8)
	movl	%r15d, 144(%rdi,%r9,4)
	jmp	.LBB14_8
.LBB14_2:
	movl	$4294967295, %r10d
	orq	%r10, %r9
	movq	%r9, 16(%r14,%rcx)
	jmp	.LBB14_8
.LBB14_5:
	movl	$-1, 144(%rdi,%r9,4)
	shrl	$5, %r9d
	movl	$-2, %ebp
	movl	%r10d, %ecx
	roll	%cl, %ebp
	movl	$-2, %r10d
	andl	%ebp, 60(%rdi,%r9,4)
	jne	.LBB14_8
	movl	%r9d, %ecx
	roll	%cl, %r10d
	andl	%r10d, 56(%rdi)
.LBB14_8:
	movl	%esi, %r10d
	addq	%rdx, %r10
	movl	%r10d, %edx
	shrl	$2, %edx
	leal	(%rdx,%r8), %r9d
	movl	%r9d, %ecx
	subl	%ebx, %ecx
	movq	24(%rdi), %rsi
	movl	%ecx, %ebx
	shrl	$6, %ebx
	movq	$-2, %r14
	rolq	%cl, %r14
	andq	%r14, (%rsi,%rbx,8)
	movq	(%rdi), %rcx
	movl	%r8d, %esi
	movq	%r10, (%rcx,%rsi,8)
	movq	%rax, 8(%rcx,%rsi,8)
	testb	$2, %r10b
	jne	.LBB14_10
	movq	(%rdi), %rax
	movl	%r9d, %ecx
	movl	%esi, 4(%rax,%rcx,8)
.LBB14_10:
	movl	%edx, %eax
	orl	$32, %eax
	bsrl	%eax, %ecx
	addl	$-5, %ecx
	shrl	%cl, %edx
	shll	$5, %ecx
	addl	%edx, %ecx
	movslq	144(%rdi,%rcx,4), %rax
	movl	%r8d, 144(%rdi,%rcx,4)
	movq	(%rdi), %r8
	testq	%rax, %rax
	js	.LBB14_11
	orq	%rax, %r11
	movq	%r11, 16(%r8,%rsi,8)
	movl	%esi, 20(%r8,%rax,8)
	jmp	.LBB14_13
.LBB14_11:
	movq	$-1, 16(%r8,%rsi,8)
	shrl	$5, %ecx
	movl	$1, %eax
	shll	%cl, %eax
	movl	60(%rdi,%rcx,4), %esi
	orl	%eax, 56(%rdi)
	btsl	%edx, %esi
	movl	%esi, 60(%rdi,%rcx,4)
.LBB14_13:
	popq	%rbx
	.cfi_def_cfa_offset 32
	popq	%r14
	.cfi_def_cfa_offset 24
	popq	%r15
	.cfi_def_cfa_offset 16
	popq	%rbp
	.cfi_def_cfa_offset 8
	retq
.Lfunc_end14:
	.size	"tlsf_heap::fitting::merge_next::<=5>", .Lfunc_end14-"tlsf_heap::fitting::merge_next::<=5>"
	.cfi_endproc
	.section	".text.tlsf_heap::check::examine","ax",@progbits
	.p2align	4
	.type	"tlsf_heap::check::examine",@function
"tlsf_heap::check::examine":
	.cfi_startproc
	pushq	%rbp
	.cfi_def_cfa_offset 16
	pushq	%r15
	.cfi_def_cfa_offset 24
	pushq	%r14
	.cfi_def_cfa_offset 32
	pushq	%rbx
	.cfi_def_cfa_offset 40
	.cfi_offset %rbx, -40
	.cfi_offset %r14, -32
	.cfi_offset %r15, -24
	.cfi_offset %rbp, -16
	movl	8(%rdi), %r14d
	leal	-4(%r14), %r8d
	xorl	%edx, %edx
	movl	$0, %eax
	cmpl	%r8d, %esi
	ja	.LBB15_29
	movq	24(%rdi), %r9
	movl	%esi, %eax
	shrl	$6, %eax
	movq	(%r9,%rax,8), %rax
	btq	%rsi, %rax
	jae	.LBB15_27
	movq	(%rdi), %rcx
	movl	%esi, %r10d
	movq	(%rcx,%r10,8), %rbx
	movl	%ebx, %r11d
	shrl	$2, %r11d
	leal	(%r11,%rsi), %edi
	cmpl	$16, %ebx
	setb	%al
	cmpl	%r14d, %edi
	seta	%bpl
	xorl	%edx, %edx
	orb	%al, %bpl
	movl	$0, %eax
	jne	.LBB15_29
	movl	%ebx, %eax
	andl	$2, %eax
	shrl	%eax
	cmpl	%r14d, %edi
	sete	%bpl
	xorl	%edx, %edx
	xorb	%al, %bpl
	movl	$0, %eax
	jne	.LBB15_29
	movq	%rbx, %r15
	shrq	$32, %r15
	xorl	%edx, %edx
	testl	%esi, %esi
	je	.LBB15_8
	cmpl	%r15d, %r8d
	jb	.LBB15_29
	movq	%rbx, %rax
	shrq	$38, %rax
	movq	(%r9,%rax,8), %rax
	btq	%r15, %rax
	jae	.LBB15_27
	movl	(%rcx,%r15,8), %ebp
	shrl	$2, %ebp
	addl	%r15d, %ebp
	xorl	%edx, %edx
	movl	$0, %eax
	cmpl	%esi, %ebp
	je	.LBB15_9
	jmp	.LBB15_29
.LBB15_8:
	cmpl	$-1, %r15d
	jne	.LBB15_29
.LBB15_9:
	andl	$1, %ebx
	cmpl	%r14d, %edi
	jae	.LBB15_14
	xorl	%edx, %edx
	cmpl	%r8d, %edi
	ja	.LBB15_29
	movl	%edi, %eax
	shrl	$6, %eax
	movq	(%r9,%rax,8), %rax
	btq	%rdi, %rax
	jae	.LBB15_27
	movl	%edi, %eax
	movq	(%rcx,%rax,8), %r14
	movq	%r14, %rax
	shrq	$32, %rax
	xorl	%edx, %edx
	cmpl	%eax, %esi
	jne	.LBB15_28
	movl	$0, %eax
	andl	%ebx, %r14d
	jne	.LBB15_29
.LBB15_14:
	testq	%rbx, %rbx
	jne	.LBB15_16
	addl	$2, %esi
	movl	%r11d, %eax
	leaq	-24(,%rax,8), %r8
	xorl	%edx, %edx
	movl	$0, %eax
	cmpq	%r8, (%rcx,%rsi,8)
	jbe	.LBB15_22
	jmp	.LBB15_29
.LBB15_16:
	movq	16(%rcx,%r10,8), %r10
	cmpl	$-1, %r10d
	je	.LBB15_21
	xorl	%edx, %edx
	cmpl	%r10d, %r8d
	jb	.LBB15_29
	movl	%r10d, %eax
	shrl	$6, %eax
	movq	(%r9,%rax,8), %rax
	btq	%r10, %rax
	jae	.LBB15_27
	movl	%r10d, %r11d
	shlq	$3, %r11
	xorl	%edx, %edx
	testb	$1, (%rcx,%r11)
	movl	$0, %eax
	je	.LBB15_29
	xorl	%edx, %edx
	cmpl	20(%rcx,%r11), %esi
	jne	.LBB15_29
.LBB15_21:
	movq	%r10, %r11
	shrq	$32, %r11
	cmpl	$-1, %r11d
	jne	.LBB15_23
.LBB15_22:
	movb	$1, %al
	movl	%edi, %edx
	jmp	.LBB15_29
.LBB15_23:
	xorl	%edx, %edx
	cmpl	%r11d, %r8d
	jb	.LBB15_29
	shrq	$38, %r10
	movq	(%r9,%r10,8), %rax
	btq	%r11, %rax
	jae	.LBB15_27
	xorl	%edx, %edx
	testb	$1, (%rcx,%r11,8)
	movl	$0, %eax
	je	.LBB15_29
	xorl	%edx, %edx
	cmpl	16(%rcx,%r11,8), %esi
	je	.LBB15_22
	jmp	.LBB15_29
.LBB15_27:
	xorl	%edx, %edx
.LBB15_28:
	xorl	%eax, %eax
.LBB15_29:
	popq	%rbx
	.cfi_def_cfa_offset 32
	popq	%r14
	.cfi_def_cfa_offset 24
	popq	%r15
	.cfi_def_cfa_offset 16
	popq	%rbp
	.cfi_def_cfa_offset 8
	retq
.Lfunc_end15:
	.size	"tlsf_heap::check::examine", .Lfunc_end15-"tlsf_heap::check::examine"
	.cfi_endproc
	.section	".text.tlsf_heap::around::check_taken","ax",@progbits
	.p2align	4
	.type	"tlsf_heap::around::check_taken",@function
"tlsf_heap::around::check_taken":
	.cfi_startproc
	pushq	%r15
	.cfi_def_cfa_offset 16
	pushq	%r14
	.cfi_def_cfa_offset 24
	pushq	%r13
	.cfi_def_cfa_offset 32
	pushq	%r12
	.cfi_def_cfa_offset 40
	pushq	%rbx
	.cfi_def_cfa_offset 48
	.cfi_offset %rbx, -48
	.cfi_offset %r12, -40
	.cfi_offset %r13, -32
	.cfi_offset %r14, -24
	.cfi_offset %r15, -16
	movl	%edx, %ecx
	movl	%esi, %edx
	movl	8(%rdi), %r12d
	leal	-4(%r12), %esi
	movb	$1, %al
	cmpl	%esi, %edx
	ja	.LBB16_9
	movq	24(%rdi), %rsi
	movl	%edx, %r8d
	shrl	$6, %r8d
	movq	(%rsi,%r8,8), %rsi
	btq	%rdx, %rsi
	jae	.LBB16_9
	movq	(%rdi), %rsi
	movl	%edx, %r8d
	movq	(%rsi,%r8,8), %r15
	testb	$1, %r15b
	sete	%sil
	movl	%r15d, %r8d
	shrl	$2, %r8d
	cmpl	%ecx, %r8d
	setb	%cl
	orb	%sil, %cl
	jne	.LBB16_9
	movq	%rdi, %r14
	movq	%rdx, %r13
	movq	%rdx, %rsi
	callq	"tlsf_heap::check::examine"
	cmpb	$1, %al
	jne	.LBB16_4
	movl	%edx, %ebx
	testl	%r13d, %r13d
	je	.LBB16_7
	shrq	$32, %r15
	movq	%r14, %rdi
	movl	%r15d, %esi
	callq	"tlsf_heap::check::examine"
	movl	%eax, %ecx
	movb	$1, %al
	movl	%r15d, %edx
	cmpb	$1, %cl
	jne	.LBB16_9
.LBB16_7:
	xorl	%edx, %edx
	movl	$0, %eax
	cmpl	%r12d, %ebx
	je	.LBB16_9
	movq	%r14, %rdi
	movl	%ebx, %esi
	callq	"tlsf_heap::check::examine"
	cmpb	$1, %al
	setne	%al
	movl	%ebx, %edx
	jmp	.LBB16_9
.LBB16_4:
	movb	$1, %al
	movq	%r13, %rdx
.LBB16_9:
	popq	%rbx
	.cfi_def_cfa_offset 40
	popq	%r12
	.cfi_def_cfa_offset 32
	popq	%r13
	.cfi_def_cfa_offset 24
	popq	%r14
	.cfi_def_cfa_offset 16
	popq	%r15
	.cfi_def_cfa_offset 8
	retq
.Lfunc_end16:
	.size	"tlsf_heap::around::check_taken", .Lfunc_end16-"tlsf_heap::around::check_taken"
	.cfi_endproc
	.section	".text.tlsf_post::take_end::TakeEnd::take_slice","ax",@progbits
	.p2align	4
	.type	"tlsf_post::take_end::TakeEnd::take_slice",@function
"tlsf_post::take_end::TakeEnd::take_slice":
	.cfi_startproc
	movq	%rdx, %rax
	movq	16(%rdi), %rdx
	movq	24(%rdi), %rcx
	movq	32(%rdi), %r8
	leaq	(%rdx,%rdx), %r9
	xorl	%r10d, %r10d
	subq	%rcx, %r8
	cmovbq	%r9, %r10
	addq	%r10, %r8
	cmpq	%rax, %r8
	jae	.LBB17_2
	movq	(%rdi), %rcx
	movq	128(%rcx), %r8
	movq	%r8, 32(%rdi)
	movq	16(%rdi), %rdx
	movq	24(%rdi), %rcx
	leaq	(%rdx,%rdx), %r9
	xorl	%r10d, %r10d
	subq	%rcx, %r8
	cmovbq	%r9, %r10
	addq	%r10, %r8
	cmpq	%rax, %r8
	cmovbq	%r8, %rax
.LBB17_2:
	testq	%rax, %rax
	je	.LBB17_20
	pushq	%r15
	.cfi_def_cfa_offset 16
	pushq	%r14
	.cfi_def_cfa_offset 24
	pushq	%r13
	.cfi_def_cfa_offset 32
	pushq	%r12
	.cfi_def_cfa_offset 40
	pushq	%rbx
	.cfi_def_cfa_offset 48
	.cfi_offset %rbx, -48
	.cfi_offset %r12, -40
	.cfi_offset %r13, -32
	.cfi_offset %r14, -24
	.cfi_offset %r15, -16
	xorl	%r10d, %r10d
	cmpq	%rdx, %rcx
	cmovaeq	%rdx, %r10
	movq	%rcx, %r11
	subq	%r10, %r11
	movq	%rdx, %r8
	subq	%r11, %r8
	cmpq	%rax, %r8
	cmovaeq	%rax, %r8
	movq	%rdx, %r9
	subq	%r11, %r9
	je	.LBB17_11
	movl	%r8d, %r11d
	andl	$3, %r11d
	cmpq	$4, %r8
	jae	.LBB17_6
	xorl	%ebx, %ebx
	jmp	.LBB17_9
.LBB17_6:
	movq	%r8, %r14
	andq	$-4, %r14
	leaq	(,%rcx,8), %rbx
	leaq	(%rbx,%rbx,2), %r15
	leaq	(,%r10,8), %rbx
	leaq	(%rbx,%rbx,2), %rbx
	subq	%rbx, %r15
	xorl	%ebx, %ebx
	xorl	%r12d, %r12d
	.p2align	4
.LBB17_7:
	movq	8(%rdi), %r13
	addq	%r15, %r13
	movups	(%r12,%r13), %xmm0
	movq	16(%r12,%r13), %r13
	movq	%r13, 16(%rsi,%r12)
	movups	%xmm0, (%rsi,%r12)
	movq	8(%rdi), %r13
	addq	%r15, %r13
	movups	24(%r12,%r13), %xmm0
	movq	40(%r12,%r13), %r13
	movq	%r13, 40(%rsi,%r12)
	movups	%xmm0, 24(%rsi,%r12)
	movq	8(%rdi), %r13
	addq	%r15, %r13
	movups	48(%r12,%r13), %xmm0
	movq	64(%r12,%r13), %r13
	movq	%r13, 64(%rsi,%r12)
	movups	%xmm0, 48(%rsi,%r12)
	movq	8(%rdi), %r13
	addq	%r15, %r13
	movups	72(%r12,%r13), %xmm0
	movq	88(%r12,%r13), %r13
	movq	%r13, 88(%rsi,%r12)
	movups	%xmm0, 72(%rsi,%r12)
	addq	$4, %rbx
	addq	$96, %r12
	cmpq	%rbx, %r14
	jne	.LBB17_7
	testq	%r11, %r11
	je	.LBB17_11
.LBB17_9:
	shlq	$3, %rbx
	leaq	(%rbx,%rbx,2), %r14
	leaq	(%rsi,%r14), %rbx
	leaq	(%rcx,%rcx,2), %r15
	leaq	(%r14,%r15,8), %r14
	shlq	$3, %r10
	leaq	(%r10,%r10,2), %r10
	subq	%r10, %r14
	shll	$3, %r11d
	leaq	(%r11,%r11,2), %r10
	xorl	%r11d, %r11d
	.p2align	4
.LBB17_10:
	movq	8(%rdi), %r15
	addq	%r14, %r15
	movups	(%r11,%r15), %xmm0
	movq	16(%r11,%r15), %r15
	movq	%r15, 16(%rbx,%r11)
	movups	%xmm0, (%rbx,%r11)
	addq	$24, %r11
	cmpq	%r11, %r10
	jne	.LBB17_10
.LBB17_11:
	cmpq	%r9, %rax
	jbe	.LBB17_19
	leaq	(%r8,%r8,2), %r9
	movq	%rax, %r10
	subq	%r8, %r10
	leaq	(%rsi,%r9,8), %rsi
	movl	%r10d, %r9d
	andl	$3, %r9d
	subq	%rax, %r8
	cmpq	$-4, %r8
	jbe	.LBB17_14
	xorl	%r8d, %r8d
	jmp	.LBB17_17
.LBB17_14:
	andq	$-4, %r10
	xorl	%r8d, %r8d
	xorl	%r11d, %r11d
	.p2align	4
.LBB17_15:
	movq	8(%rdi), %rbx
	movups	(%rbx,%r11), %xmm0
	movq	16(%rbx,%r11), %rbx
	movq	%rbx, 16(%rsi,%r11)
	movups	%xmm0, (%rsi,%r11)
	movq	8(%rdi), %rbx
	movups	24(%rbx,%r11), %xmm0
	movq	40(%rbx,%r11), %rbx
	movq	%rbx, 40(%rsi,%r11)
	movups	%xmm0, 24(%rsi,%r11)
	movq	8(%rdi), %rbx
	movups	48(%rbx,%r11), %xmm0
	movq	64(%rbx,%r11), %rbx
	movq	%rbx, 64(%rsi,%r11)
	movups	%xmm0, 48(%rsi,%r11)
	movq	8(%rdi), %rbx
	movups	72(%rbx,%r11), %xmm0
	movq	88(%rbx,%r11), %rbx
	movq	%rbx, 88(%rsi,%r11)
	movups	%xmm0, 72(%rsi,%r11)
	addq	$4, %r8
	addq	$96, %r11
	cmpq	%r8, %r10
	jne	.LBB17_15
	testq	%r9, %r9
	je	.LBB17_19
.LBB17_17:
	shlq	$3, %r8
	leaq	(%r8,%r8,2), %r8
	shll	$3, %r9d
	leaq	(%r9,%r9,2), %r9
	.p2align	4
.LBB17_18:
	movq	8(%rdi), %r10
	movups	(%r10,%r8), %xmm0
	movq	16(%r10,%r8), %r10
	movq	%r10, 16(%rsi,%r8)
	movups	%xmm0, (%rsi,%r8)
	addq	$24, %r8
	addq	$-24, %r9
	jne	.LBB17_18
.LBB17_19:
	addq	%rdx, %rdx
	subq	%rcx, %rdx
	movq	%rdx, %rsi
	negq	%rsi
	cmpq	%rdx, %rax
	cmovbq	%rcx, %rsi
	addq	%rax, %rsi
	movq	(%rdi), %rdx
	movq	%rsi, %rcx
	xchgq	%rsi, (%rdx)
	popq	%rbx
	.cfi_def_cfa_offset 40
	popq	%r12
	.cfi_def_cfa_offset 32
	popq	%r13
	.cfi_def_cfa_offset 24
	popq	%r14
	.cfi_def_cfa_offset 16
	popq	%r15
	.cfi_def_cfa_offset 8
	.cfi_restore %rbx
	.cfi_restore %r12
	.cfi_restore %r13
	.cfi_restore %r14
	.cfi_restore %r15
.LBB17_20:
	movq	%rcx, 24(%rdi)
	retq
.Lfunc_end17:
	.size	"tlsf_post::take_end::TakeEnd::take_slice", .Lfunc_end17-"tlsf_post::take_end::TakeEnd::take_slice"
	.cfi_endproc
	.section	".text.tlsf_c::heap_calls::release_named","ax",@progbits
	.p2align	4
	.type	"tlsf_c::heap_calls::release_named",@function
"tlsf_c::heap_calls::release_named":
	.cfi_startproc
	pushq	%rbx
	.cfi_def_cfa_offset 16
	.cfi_offset %rbx, -16
	cmpb	$0, 8(%rdi)
	je	.LBB18_26
	movq	(%rdi), %rbx
	cmpb	$0, (%rbx)
	je	.LBB18_26
	movl	%ecx, %r8d
	movb	$0, (%rbx)
	cmpb	$0, 16(%rbx)
	movl	24(%rbx), %eax
	je	.LBB18_11
	cmpl	%eax, %esi
	jne	.LBB18_36
	cmpl	56(%rbx), %r8d
	jae	.LBB18_19
	movq	72(%rbx), %rax
	movl	%r8d, %ecx
	shrl	$6, %ecx
	movq	(%rax,%rcx,8), %rax
	btq	%r8, %rax
	jae	.LBB18_19
	leaq	48(%rbx), %rdi
	movq	(%rdi), %r11
	movl	%r8d, %eax
	movq	(%r11,%rax,8), %r9
	testb	$1, %r9b
	jne	.LBB18_19
	cmpq	%rdx, 8(%r11,%rax,8)
	jne	.LBB18_19
	movq	32(%rbx), %rcx
	cmpq	$-1, %rcx
	je	.LBB18_27
	movl	%r9d, %r10d
	shrl	$2, %r10d
	subl	%r10d, 40(%rbx)
	testb	$2, %r9b
	jne	.LBB18_21
	leal	(%r10,%r8), %edx
	movq	(%r11,%rdx,8), %rsi
	testl	%r8d, %r8d
	jne	.LBB18_22
	jmp	.LBB18_23
.LBB18_11:
	cmpl	%eax, %esi
	jne	.LBB18_36
	cmpl	56(%rbx), %r8d
	jae	.LBB18_19
	movq	72(%rbx), %rax
	movl	%r8d, %ecx
	shrl	$6, %ecx
	movq	(%rax,%rcx,8), %rax
	btq	%r8, %rax
	jae	.LBB18_19
	leaq	48(%rbx), %rdi
	movq	(%rdi), %r11
	movl	%r8d, %eax
	movq	(%r11,%rax,8), %r9
	testb	$1, %r9b
	jne	.LBB18_19
	cmpq	%rdx, 8(%r11,%rax,8)
	jne	.LBB18_19
	movq	32(%rbx), %rcx
	cmpq	$-1, %rcx
	je	.LBB18_27
	movl	%r9d, %r10d
	shrl	$2, %r10d
	subl	%r10d, 40(%rbx)
	testb	$2, %r9b
	jne	.LBB18_30
	leal	(%r10,%r8), %edx
	movq	(%r11,%rdx,8), %rsi
	testl	%r8d, %r8d
	jne	.LBB18_31
	jmp	.LBB18_32
.LBB18_27:
	movl	$2, %eax
	movb	$1, (%rbx)
	popq	%rbx
	.cfi_def_cfa_offset 8
	retq
.LBB18_19:
	.cfi_def_cfa_offset 16
	movl	%esi, %edi
	jmp	.LBB18_37
.LBB18_21:
	xorl	%esi, %esi
	testl	%r8d, %r8d
	je	.LBB18_23
.LBB18_22:
	movq	%r9, %rdx
	shrq	$32, %rdx
	movq	(%r11,%rdx,8), %rdx
	testb	$1, %dl
	jne	.LBB18_29
.LBB18_23:
	testb	$1, %sil
	jne	.LBB18_28
	orq	$1, %r9
	movq	%r9, (%r11,%rax,8)
	movq	%rcx, 8(%r11,%rax,8)
	incq	32(%rbx)
	movl	%r10d, %ecx
	orl	$32, %ecx
	bsrl	%ecx, %ecx
	addl	$-5, %ecx
	shrl	%cl, %r10d
	shll	$5, %ecx
	addl	%r10d, %ecx
	movslq	192(%rbx,%rcx,4), %rdx
	movl	%r8d, 192(%rbx,%rcx,4)
	movq	48(%rbx), %rsi
	testq	%rdx, %rdx
	jns	.LBB18_34
	movq	$-1, 16(%rsi,%rax,8)
	shrl	$5, %ecx
	movl	$1, %eax
	shll	%cl, %eax
	movl	108(%rbx,%rcx,4), %edx
	orl	%eax, 104(%rbx)
	jmp	.LBB18_40
.LBB18_26:
	xorl	%edi, %edi
	popq	%rbx
	.cfi_def_cfa_offset 8
	jmp	"tlsf_c::call_fault::CallFault::refusal"
.LBB18_28:
	.cfi_def_cfa_offset 16
	leaq	1(%rcx), %rax
	movq	%rax, 32(%rbx)
	movq	%r9, %rdx
	callq	"tlsf_heap::fitting::merge_next::<=5>"
	xorl	%eax, %eax
	movb	$1, (%rbx)
	popq	%rbx
	.cfi_def_cfa_offset 8
	retq
.LBB18_29:
	.cfi_def_cfa_offset 16
	leaq	1(%rcx), %rax
	movq	%rax, 32(%rbx)
	callq	"tlsf_heap::fitting::merge_before::<=5>"
	xorl	%eax, %eax
	movb	$1, (%rbx)
	popq	%rbx
	.cfi_def_cfa_offset 8
	retq
.LBB18_30:
	.cfi_def_cfa_offset 16
	xorl	%esi, %esi
	testl	%r8d, %r8d
	je	.LBB18_32
.LBB18_31:
	movq	%r9, %rdx
	shrq	$32, %rdx
	movq	(%r11,%rdx,8), %rdx
	testb	$1, %dl
	jne	.LBB18_38
.LBB18_32:
	testb	$1, %sil
	jne	.LBB18_35
	orq	$1, %r9
	movq	%r9, (%r11,%rax,8)
	movq	%rcx, 8(%r11,%rax,8)
	incq	32(%rbx)
	movl	%r10d, %ecx
	orl	$16, %ecx
	bsrl	%ecx, %ecx
	addl	$-4, %ecx
	shrl	%cl, %r10d
	shll	$4, %ecx
	addl	%r10d, %ecx
	movslq	192(%rbx,%rcx,4), %rdx
	movl	%r8d, 192(%rbx,%rcx,4)
	movq	48(%rbx), %rsi
	testq	%rdx, %rdx
	js	.LBB18_39
.LBB18_34:
	movabsq	$-4294967296, %rcx
	orq	%rdx, %rcx
	movq	%rcx, 16(%rsi,%rax,8)
	movl	%eax, 20(%rsi,%rdx,8)
	xorl	%eax, %eax
	movb	$1, (%rbx)
	popq	%rbx
	.cfi_def_cfa_offset 8
	retq
.LBB18_35:
	.cfi_def_cfa_offset 16
	leaq	1(%rcx), %rax
	movq	%rax, 32(%rbx)
	movq	%r9, %rdx
	callq	"tlsf_heap::fitting::merge_next::<=4>"
	xorl	%eax, %eax
	movb	$1, (%rbx)
	popq	%rbx
	.cfi_def_cfa_offset 8
	retq
.LBB18_36:
	.cfi_def_cfa_offset 16
	movl	%esi, %edi
	movl	%eax, %esi
.LBB18_37:
	callq	"tlsf_heap::refusal::Refusal::of_name"
	movl	%eax, %ecx
	xorl	%eax, %eax
	cmpb	$3, %cl
	sete	%al
	addl	$3, %eax
	movb	$1, (%rbx)
	popq	%rbx
	.cfi_def_cfa_offset 8
	retq
.LBB18_38:
	.cfi_def_cfa_offset 16
	leaq	1(%rcx), %rax
	movq	%rax, 32(%rbx)
	callq	"tlsf_heap::fitting::merge_before::<=4>"
	xorl	%eax, %eax
	movb	$1, (%rbx)
	popq	%rbx
	.cfi_def_cfa_offset 8
	retq
.LBB18_39:
	.cfi_def_cfa_offset 16
	movq	$-1, 16(%rsi,%rax,8)
	shrl	$4, %ecx
	movl	$1, %eax
	shll	%cl, %eax
	movl	108(%rbx,%rcx,4), %edx
	orl	%eax, 104(%rbx)
	andb	$15, %r10b
.LBB18_40:
	btsl	%r10d, %edx
	movl	%edx, 108(%rbx,%rcx,4)
	xorl	%eax, %eax
	movb	$1, (%rbx)
	popq	%rbx
	.cfi_def_cfa_offset 8
	retq
.Lfunc_end18:
	.size	"tlsf_c::heap_calls::release_named", .Lfunc_end18-"tlsf_c::heap_calls::release_named"
	.cfi_endproc
	.section	".text.unlikely.tlsf_heap::refusal::Refusal::of_name","ax",@progbits
	.p2align	4
	.type	"tlsf_heap::refusal::Refusal::of_name",@function
"tlsf_heap::refusal::Refusal::of_name":
	.cfi_startproc
	cmpl	%esi, %edi
	sete	%al
	orb	$2, %al
	retq
.Lfunc_end19:
	.size	"tlsf_heap::refusal::Refusal::of_name", .Lfunc_end19-"tlsf_heap::refusal::Refusal::of_name"
	.cfi_endproc
	.section	".text.std_alloc::boxed::Box::new::<#91a8e04f462e8cea>","ax",@progbits
	.p2align	4
	.type	"std_alloc::boxed::Box::new::<#91a8e04f462e8cea>",@function
"std_alloc::boxed::Box::new::<#91a8e04f462e8cea>":
	.cfi_startproc
	pushq	%r14
	.cfi_def_cfa_offset 16
	pushq	%rbx
	.cfi_def_cfa_offset 24
	subq	$40, %rsp
	.cfi_def_cfa_offset 64
	.cfi_offset %rbx, -24
	.cfi_offset %r14, -16
	movq	%rdi, %rbx
	movzwl	(%rsi), %r14d
	movq	40(%rsi), %rax
	movq	%rax, 32(%rsp)
	movups	8(%rsi), %xmm0
	movups	24(%rsi), %xmm1
	movaps	%xmm1, 16(%rsp)
	movaps	%xmm0, (%rsp)
	movl	$48, %edi
	movl	$8, %esi
	callq	tlsf_memory_alloc@PLT
	testb	$1, %al
	je	.LBB20_2
	movw	%r14w, (%rdx)
	movaps	(%rsp), %xmm0
	movaps	16(%rsp), %xmm1
	movups	%xmm0, 8(%rdx)
	movups	%xmm1, 24(%rdx)
	movq	32(%rsp), %rax
	movq	%rax, 40(%rdx)
	xorps	%xmm0, %xmm0
	movups	%xmm0, 32(%rbx)
	movups	%xmm0, 16(%rbx)
	movq	$0, 48(%rbx)
	xorl	%eax, %eax
	jmp	.LBB20_3
.LBB20_2:
	movq	32(%rsp), %rax
	movq	%rax, 48(%rbx)
	movaps	(%rsp), %xmm0
	movaps	16(%rsp), %xmm1
	movups	%xmm1, 32(%rbx)
	movups	%xmm0, 16(%rbx)
	movl	$1, %eax
	movq	%r14, %rdx
.LBB20_3:
	movq	%rax, (%rbx)
	movq	%rdx, 8(%rbx)
	addq	$40, %rsp
	.cfi_def_cfa_offset 24
	popq	%rbx
	.cfi_def_cfa_offset 16
	popq	%r14
	.cfi_def_cfa_offset 8
	retq
.Lfunc_end20:
	.size	"std_alloc::boxed::Box::new::<#91a8e04f462e8cea>", .Lfunc_end20-"std_alloc::boxed::Box::new::<#91a8e04f462e8cea>"
	.cfi_endproc
	.section	".text.rtrb::release::drop_slow::<#23d795680250cb0d>","ax",@progbits
	.p2align	4
	.type	"rtrb::release::drop_slow::<#23d795680250cb0d>",@function
"rtrb::release::drop_slow::<#23d795680250cb0d>":
	.cfi_startproc
	pushq	%rbx
	.cfi_def_cfa_offset 16
	.cfi_offset %rbx, -16
	movq	%rdi, %rbx
	movq	(%rdi), %rdi
	movq	128(%rbx), %rax
	cmpq	%rax, %rdi
	je	.LBB21_3
	leaq	-1(,%rdx,2), %rcx
	.p2align	4
.LBB21_2:
	leaq	1(%rdi), %rdx
	xorl	%r8d, %r8d
	cmpq	%rcx, %rdi
	cmovbq	%rdx, %r8
	cmpq	%rax, %r8
	movq	%r8, %rdi
	xchgq	%r8, (%rbx)
	jne	.LBB21_2
.LBB21_3:
	movq	%rsi, %rdi
	callq	tlsf_memory_dealloc@PLT
	movq	%rbx, %rdi
	popq	%rbx
	.cfi_def_cfa_offset 8
	jmp	tlsf_memory_dealloc@PLT
.Lfunc_end21:
	.size	"rtrb::release::drop_slow::<#23d795680250cb0d>", .Lfunc_end21-"rtrb::release::drop_slow::<#23d795680250cb0d>"
	.cfi_endproc
	.section	".text.std_alloc::vec::Vec::drop::<#7ac45d8413b9ad54>","ax",@progbits
	.p2align	4
	.type	"std_alloc::vec::Vec::drop::<#7ac45d8413b9ad54>",@function
"std_alloc::vec::Vec::drop::<#7ac45d8413b9ad54>":
	.cfi_startproc
	pushq	%rbp
	.cfi_def_cfa_offset 16
	pushq	%r15
	.cfi_def_cfa_offset 24
	pushq	%r14
	.cfi_def_cfa_offset 32
	pushq	%r13
	.cfi_def_cfa_offset 40
	pushq	%r12
	.cfi_def_cfa_offset 48
	pushq	%rbx
	.cfi_def_cfa_offset 56
	subq	$104, %rsp
	.cfi_def_cfa_offset 160
	.cfi_offset %rbx, -56
	.cfi_offset %r12, -48
	.cfi_offset %r13, -40
	.cfi_offset %r14, -32
	.cfi_offset %r15, -24
	.cfi_offset %rbp, -16
	movq	(%rdi), %rbx
	movq	8(%rdi), %r15
	movq	16(%rdi), %rax
	movq	%rax, (%rsp)
	testq	%r15, %r15
	je	.LBB22_3
	leaq	64(%rsp), %r12
	leaq	16(%rsp), %r13
	xorl	%ebp, %ebp
	.p2align	4
.LBB22_2:
	movq	(%rbx,%rbp,8), %rdi
	movzwl	(%rdi), %r14d
	movups	8(%rdi), %xmm0
	movups	%xmm0, (%r12)
	movups	24(%rdi), %xmm0
	movups	%xmm0, 16(%r12)
	movq	40(%rdi), %rax
	movq	%rax, 32(%r12)
	callq	tlsf_memory_dealloc@PLT
	movq	$0, 8(%rsp)
	movw	%r14w, 8(%rsp)
	movq	32(%r12), %rax
	movq	%rax, 32(%r13)
	movups	(%r12), %xmm0
	movups	16(%r12), %xmm1
	movups	%xmm1, 16(%r13)
	movups	%xmm0, (%r13)
	leaq	8(%rsp), %rdi
	callq	"tlsf_c::tlsf_c++any_end++AnyEnd+Destruct::drop"
	incq	%rbp
	cmpq	%rbp, %r15
	jne	.LBB22_2
.LBB22_3:
	cmpq	$0, (%rsp)
	je	.LBB22_4
	movq	%rbx, %rdi
	addq	$104, %rsp
	.cfi_def_cfa_offset 56
	popq	%rbx
	.cfi_def_cfa_offset 48
	popq	%r12
	.cfi_def_cfa_offset 40
	popq	%r13
	.cfi_def_cfa_offset 32
	popq	%r14
	.cfi_def_cfa_offset 24
	popq	%r15
	.cfi_def_cfa_offset 16
	popq	%rbp
	.cfi_def_cfa_offset 8
	jmp	tlsf_memory_dealloc@PLT
.LBB22_4:
	.cfi_def_cfa_offset 160
	addq	$104, %rsp
	.cfi_def_cfa_offset 56
	popq	%rbx
	.cfi_def_cfa_offset 48
	popq	%r12
	.cfi_def_cfa_offset 40
	popq	%r13
	.cfi_def_cfa_offset 32
	popq	%r14
	.cfi_def_cfa_offset 24
	popq	%r15
	.cfi_def_cfa_offset 16
	popq	%rbp
	.cfi_def_cfa_offset 8
	retq
.Lfunc_end22:
	.size	"std_alloc::vec::Vec::drop::<#7ac45d8413b9ad54>", .Lfunc_end22-"std_alloc::vec::Vec::drop::<#7ac45d8413b9ad54>"
	.cfi_endproc
	.section	".text.std_alloc::arc::Arc::drop::<#c4a047e811255370>","ax",@progbits
	.p2align	4
	.type	"std_alloc::arc::Arc::drop::<#c4a047e811255370>",@function
"std_alloc::arc::Arc::drop::<#c4a047e811255370>":
	.cfi_startproc
	lock		decq	(%rdi)
	jne	.LBB23_1
	pushq	%r14
	.cfi_def_cfa_offset 16
	pushq	%rbx
	.cfi_def_cfa_offset 24
	pushq	%rax
	.cfi_def_cfa_offset 32
	.cfi_offset %rbx, -24
	.cfi_offset %r14, -16
	movq	40(%rdi), %rbx
	movq	56(%rdi), %r14
	callq	tlsf_memory_dealloc@PLT
	movq	%rbx, %rdi
	callq	tlsf_memory_dealloc@PLT
	movq	%r14, %rdi
	addq	$8, %rsp
	.cfi_def_cfa_offset 24
	popq	%rbx
	.cfi_def_cfa_offset 16
	popq	%r14
	.cfi_def_cfa_offset 8
	jmp	tlsf_memory_dealloc@PLT
.LBB23_1:
	.cfi_restore %rbx
	.cfi_restore %r14
	retq
.Lfunc_end23:
	.size	"std_alloc::arc::Arc::drop::<#c4a047e811255370>", .Lfunc_end23-"std_alloc::arc::Arc::drop::<#c4a047e811255370>"
	.cfi_endproc
	.section	".text.std_alloc::boxed::Box::drop::<#7d8ec8058c3633cd>","ax",@progbits
	.p2align	4
	.type	"std_alloc::boxed::Box::drop::<#7d8ec8058c3633cd>",@function
"std_alloc::boxed::Box::drop::<#7d8ec8058c3633cd>":
	.cfi_startproc
	pushq	%rbx
	.cfi_def_cfa_offset 16
	subq	$96, %rsp
	.cfi_def_cfa_offset 112
	.cfi_offset %rbx, -16
	movzwl	(%rdi), %ebx
	movups	8(%rdi), %xmm0
	movaps	%xmm0, (%rsp)
	movups	24(%rdi), %xmm0
	movaps	%xmm0, 16(%rsp)
	movq	40(%rdi), %rax
	movq	%rax, 32(%rsp)
	callq	tlsf_memory_dealloc@PLT
	movq	$0, 48(%rsp)
	movw	%bx, 48(%rsp)
	movaps	(%rsp), %xmm0
	movaps	16(%rsp), %xmm1
	movups	%xmm0, 56(%rsp)
	movups	%xmm1, 72(%rsp)
	movq	32(%rsp), %rax
	movq	%rax, 88(%rsp)
	leaq	48(%rsp), %rdi
	callq	"tlsf_c::tlsf_c++any_end++AnyEnd+Destruct::drop"
	addq	$96, %rsp
	.cfi_def_cfa_offset 16
	popq	%rbx
	.cfi_def_cfa_offset 8
	retq
.Lfunc_end24:
	.size	"std_alloc::boxed::Box::drop::<#7d8ec8058c3633cd>", .Lfunc_end24-"std_alloc::boxed::Box::drop::<#7d8ec8058c3633cd>"
	.cfi_endproc
	.section	".text.tlsf_c::tlsf_c++any_end++AnyEnd+Destruct::drop","ax",@progbits
	.p2align	4
	.type	"tlsf_c::tlsf_c++any_end++AnyEnd+Destruct::drop",@function
"tlsf_c::tlsf_c++any_end++AnyEnd+Destruct::drop":
	.cfi_startproc
	pushq	%rbp
	.cfi_def_cfa_offset 16
	pushq	%r15
	.cfi_def_cfa_offset 24
	pushq	%r14
	.cfi_def_cfa_offset 32
	pushq	%r13
	.cfi_def_cfa_offset 40
	pushq	%r12
	.cfi_def_cfa_offset 48
	pushq	%rbx
	.cfi_def_cfa_offset 56
	subq	$104, %rsp
	.cfi_def_cfa_offset 160
	.cfi_offset %rbx, -56
	.cfi_offset %r12, -48
	.cfi_offset %r13, -40
	.cfi_offset %r14, -32
	.cfi_offset %r15, -24
	.cfi_offset %rbp, -16
	movq	%rdi, %rax
	movzbl	(%rdi), %ecx
	movq	8(%rdi), %rdi
	movq	16(%rax), %rsi
	movq	24(%rax), %rbx
	leaq	.LJTI25_0(%rip), %rdx
	movslq	(%rdx,%rcx,4), %rcx
	addq	%rdx, %rcx
	jmpq	*%rcx
.LBB25_1:
	movl	$1, %eax
	xchgq	%rax, 256(%rdi)
	testq	%rax, %rax
	jne	.LBB25_3
	jmp	.LBB25_5
.LBB25_6:
	movq	32(%rax), %r13
	movq	40(%rax), %rax
	movq	%rax, (%rsp)
	lock		decq	(%rdi)
	jne	.LBB25_8
	movq	40(%rdi), %r14
	movq	56(%rdi), %r15
	callq	tlsf_memory_dealloc@PLT
	movq	%r14, %rdi
	callq	tlsf_memory_dealloc@PLT
	movq	%r15, %rdi
	callq	tlsf_memory_dealloc@PLT
.LBB25_8:
	testq	%r13, %r13
	je	.LBB25_11
	leaq	64(%rsp), %r14
	leaq	16(%rsp), %r15
	xorl	%ebp, %ebp
	.p2align	4
.LBB25_10:
	movq	(%rbx,%rbp,8), %rdi
	movzwl	(%rdi), %r12d
	movups	8(%rdi), %xmm0
	movups	%xmm0, (%r14)
	movups	24(%rdi), %xmm0
	movups	%xmm0, 16(%r14)
	movq	40(%rdi), %rax
	movq	%rax, 32(%r14)
	callq	tlsf_memory_dealloc@PLT
	movq	$0, 8(%rsp)
	movw	%r12w, 8(%rsp)
	movq	32(%r14), %rax
	movq	%rax, 32(%r15)
	movups	(%r14), %xmm0
	movups	16(%r14), %xmm1
	movups	%xmm1, 16(%r15)
	movups	%xmm0, (%r15)
	leaq	8(%rsp), %rdi
	callq	"tlsf_c::tlsf_c++any_end++AnyEnd+Destruct::drop"
	incq	%rbp
	cmpq	%rbp, %r13
	jne	.LBB25_10
.LBB25_11:
	cmpq	$0, (%rsp)
	je	.LBB25_5
	movq	%rbx, %rdi
	jmp	.LBB25_13
.LBB25_14:
	lock		decq	(%rdi)
	jne	.LBB25_5
	movq	40(%rdi), %rbx
	movq	56(%rdi), %r14
	callq	tlsf_memory_dealloc@PLT
	movq	%rbx, %rdi
	callq	tlsf_memory_dealloc@PLT
	movq	%r14, %rdi
.LBB25_13:
	addq	$104, %rsp
	.cfi_def_cfa_offset 56
	popq	%rbx
	.cfi_def_cfa_offset 48
	popq	%r12
	.cfi_def_cfa_offset 40
	popq	%r13
	.cfi_def_cfa_offset 32
	popq	%r14
	.cfi_def_cfa_offset 24
	popq	%r15
	.cfi_def_cfa_offset 16
	popq	%rbp
	.cfi_def_cfa_offset 8
	jmp	tlsf_memory_dealloc@PLT
.LBB25_4:
	.cfi_def_cfa_offset 160
	movl	$1, %eax
	xchgq	%rax, 256(%rdi)
	testq	%rax, %rax
	je	.LBB25_5
.LBB25_3:
	movq	%rbx, %rdx
	addq	$104, %rsp
	.cfi_def_cfa_offset 56
	popq	%rbx
	.cfi_def_cfa_offset 48
	popq	%r12
	.cfi_def_cfa_offset 40
	popq	%r13
	.cfi_def_cfa_offset 32
	popq	%r14
	.cfi_def_cfa_offset 24
	popq	%r15
	.cfi_def_cfa_offset 16
	popq	%rbp
	.cfi_def_cfa_offset 8
	jmp	"rtrb::release::drop_slow::<#23d795680250cb0d>"
.LBB25_5:
	.cfi_def_cfa_offset 160
	addq	$104, %rsp
	.cfi_def_cfa_offset 56
	popq	%rbx
	.cfi_def_cfa_offset 48
	popq	%r12
	.cfi_def_cfa_offset 40
	popq	%r13
	.cfi_def_cfa_offset 32
	popq	%r14
	.cfi_def_cfa_offset 24
	popq	%r15
	.cfi_def_cfa_offset 16
	popq	%rbp
	.cfi_def_cfa_offset 8
	retq
.Lfunc_end25:
	.size	"tlsf_c::tlsf_c++any_end++AnyEnd+Destruct::drop", .Lfunc_end25-"tlsf_c::tlsf_c++any_end++AnyEnd+Destruct::drop"
	.cfi_endproc
	.section	".rodata.tlsf_c::tlsf_c++any_end++AnyEnd+Destruct::drop","a",@progbits
	.p2align	2, 0x0
.LJTI25_0:
	.long	.LBB25_1-.LJTI25_0
	.long	.LBB25_4-.LJTI25_0
	.long	.LBB25_6-.LJTI25_0
	.long	.LBB25_14-.LJTI25_0
	.section	".text.tlsf_c::arena_slot::ArenaSlot::close","ax",@progbits
	.p2align	4
	.type	"tlsf_c::arena_slot::ArenaSlot::close",@function
"tlsf_c::arena_slot::ArenaSlot::close":
	.cfi_startproc
	cmpb	$0, 8(%rdi)
	je	.LBB26_11
	movq	(%rdi), %rax
	cmpb	$1, 1(%rax)
	jne	.LBB26_11
	pushq	%rbp
	.cfi_def_cfa_offset 16
	pushq	%r15
	.cfi_def_cfa_offset 24
	pushq	%r14
	.cfi_def_cfa_offset 32
	pushq	%r13
	.cfi_def_cfa_offset 40
	pushq	%r12
	.cfi_def_cfa_offset 48
	pushq	%rbx
	.cfi_def_cfa_offset 56
	subq	$56, %rsp
	.cfi_def_cfa_offset 112
	.cfi_offset %rbx, -56
	.cfi_offset %r12, -48
	.cfi_offset %r13, -40
	.cfi_offset %r14, -32
	.cfi_offset %r15, -24
	.cfi_offset %rbp, -16
	movb	$0, 1(%rax)
	movq	(%rdi), %rax
	xorps	%xmm0, %xmm0
	movups	%xmm0, (%rdi)
	movzbl	8(%rax), %ebp
	movq	32(%rax), %rcx
	movzbl	(%rax), %r13d
	movq	%rcx, 48(%rsp)
	movups	16(%rax), %xmm0
	movaps	%xmm0, 32(%rsp)
	movq	40(%rax), %r14
	movq	56(%rax), %r12
	movq	64(%rax), %rbx
	movq	80(%rax), %r15
	movq	%rax, %rdi
	callq	tlsf_memory_dealloc@PLT
	testb	%r13b, %r13b
	je	.LBB26_3
	leaq	40(%rsp), %rax
	testb	%bpl, %bpl
	je	.LBB26_8
	movups	(%rax), %xmm0
	movaps	%xmm0, (%rsp)
	movq	%r14, 16(%rsp)
	movq	%rsp, %rdi
	callq	"std_alloc::vec::Vec::drop::<#1d6c342d5cae5f6b>"
	jmp	.LBB26_10
.LBB26_3:
	testb	%bpl, %bpl
	testq	%r12, %r12
	je	.LBB26_5
	movq	%r14, %rdi
	callq	tlsf_memory_dealloc@PLT
.LBB26_5:
	testq	%r15, %r15
	je	.LBB26_10
	movq	%rbx, %rdi
	callq	tlsf_memory_dealloc@PLT
	jmp	.LBB26_10
.LBB26_8:
	movups	(%rax), %xmm0
	movaps	%xmm0, (%rsp)
	movq	%r14, 16(%rsp)
	movq	%rsp, %rdi
	callq	"std_alloc::vec::Vec::drop::<#01e19ae241269710>"
.LBB26_10:
	addq	$56, %rsp
	.cfi_def_cfa_offset 56
	popq	%rbx
	.cfi_def_cfa_offset 48
	popq	%r12
	.cfi_def_cfa_offset 40
	popq	%r13
	.cfi_def_cfa_offset 32
	popq	%r14
	.cfi_def_cfa_offset 24
	popq	%r15
	.cfi_def_cfa_offset 16
	popq	%rbp
	.cfi_def_cfa_offset 8
	.cfi_restore %rbx
	.cfi_restore %r12
	.cfi_restore %r13
	.cfi_restore %r14
	.cfi_restore %r15
	.cfi_restore %rbp
.LBB26_11:
	retq
.Lfunc_end26:
	.size	"tlsf_c::arena_slot::ArenaSlot::close", .Lfunc_end26-"tlsf_c::arena_slot::ArenaSlot::close"
	.cfi_endproc
	.section	".text.std_alloc::vec::Vec::drop::<#01e19ae241269710>","ax",@progbits
	.p2align	4
	.type	"std_alloc::vec::Vec::drop::<#01e19ae241269710>",@function
"std_alloc::vec::Vec::drop::<#01e19ae241269710>":
	.cfi_startproc
	pushq	%rbp
	.cfi_def_cfa_offset 16
	pushq	%r15
	.cfi_def_cfa_offset 24
	pushq	%r14
	.cfi_def_cfa_offset 32
	pushq	%r13
	.cfi_def_cfa_offset 40
	pushq	%r12
	.cfi_def_cfa_offset 48
	pushq	%rbx
	.cfi_def_cfa_offset 56
	subq	$40, %rsp
	.cfi_def_cfa_offset 96
	.cfi_offset %rbx, -56
	.cfi_offset %r12, -48
	.cfi_offset %r13, -40
	.cfi_offset %r14, -32
	.cfi_offset %r15, -24
	.cfi_offset %rbp, -16
	movq	(%rdi), %rax
	movq	%rax, 8(%rsp)
	movq	8(%rdi), %rbp
	movq	16(%rdi), %rax
	movq	%rax, 16(%rsp)
	testq	%rbp, %rbp
	je	.LBB27_11
	movq	8(%rsp), %rax
	leaq	2784(%rax), %r13
	jmp	.LBB27_2
	.p2align	4
.LBB27_10:
	addq	$2792, %r13
	decq	%rbp
	je	.LBB27_11
.LBB27_2:
	movq	-2736(%r13), %r12
	movq	-2720(%r13), %r15
	movq	-48(%r13), %rax
	movq	%rax, 24(%rsp)
	movq	-32(%r13), %r14
	movq	-16(%r13), %rax
	movq	%rax, 32(%rsp)
	movq	(%r13), %rbx
	cmpq	$0, -2744(%r13)
	je	.LBB27_4
	movq	-2760(%r13), %rdi
	callq	tlsf_memory_dealloc@PLT
.LBB27_4:
	testq	%r15, %r15
	je	.LBB27_6
	movq	%r12, %rdi
	callq	tlsf_memory_dealloc@PLT
.LBB27_6:
	testq	%r14, %r14
	je	.LBB27_8
	movq	24(%rsp), %rdi
	callq	tlsf_memory_dealloc@PLT
.LBB27_8:
	testq	%rbx, %rbx
	je	.LBB27_10
	movq	32(%rsp), %rdi
	callq	tlsf_memory_dealloc@PLT
	jmp	.LBB27_10
.LBB27_11:
	cmpq	$0, 16(%rsp)
	je	.LBB27_12
	movq	8(%rsp), %rdi
	addq	$40, %rsp
	.cfi_def_cfa_offset 56
	popq	%rbx
	.cfi_def_cfa_offset 48
	popq	%r12
	.cfi_def_cfa_offset 40
	popq	%r13
	.cfi_def_cfa_offset 32
	popq	%r14
	.cfi_def_cfa_offset 24
	popq	%r15
	.cfi_def_cfa_offset 16
	popq	%rbp
	.cfi_def_cfa_offset 8
	jmp	tlsf_memory_dealloc@PLT
.LBB27_12:
	.cfi_def_cfa_offset 96
	addq	$40, %rsp
	.cfi_def_cfa_offset 56
	popq	%rbx
	.cfi_def_cfa_offset 48
	popq	%r12
	.cfi_def_cfa_offset 40
	popq	%r13
	.cfi_def_cfa_offset 32
	popq	%r14
	.cfi_def_cfa_offset 24
	popq	%r15
	.cfi_def_cfa_offset 16
	popq	%rbp
	.cfi_def_cfa_offset 8
	retq
.Lfunc_end27:
	.size	"std_alloc::vec::Vec::drop::<#01e19ae241269710>", .Lfunc_end27-"std_alloc::vec::Vec::drop::<#01e19ae241269710>"
	.cfi_endproc
	.section	".text.std_alloc::vec::Vec::drop::<#1d6c342d5cae5f6b>","ax",@progbits
	.p2align	4
	.type	"std_alloc::vec::Vec::drop::<#1d6c342d5cae5f6b>",@function
"std_alloc::vec::Vec::drop::<#1d6c342d5cae5f6b>":
	.cfi_startproc
	pushq	%rbp
	.cfi_def_cfa_offset 16
	pushq	%r15
	.cfi_def_cfa_offset 24
	pushq	%r14
	.cfi_def_cfa_offset 32
	pushq	%r13
	.cfi_def_cfa_offset 40
	pushq	%r12
	.cfi_def_cfa_offset 48
	pushq	%rbx
	.cfi_def_cfa_offset 56
	subq	$40, %rsp
	.cfi_def_cfa_offset 96
	.cfi_offset %rbx, -56
	.cfi_offset %r12, -48
	.cfi_offset %r13, -40
	.cfi_offset %r14, -32
	.cfi_offset %r15, -24
	.cfi_offset %rbp, -16
	movq	(%rdi), %rax
	movq	%rax, 8(%rsp)
	movq	8(%rdi), %rbp
	movq	16(%rdi), %rax
	movq	%rax, 16(%rsp)
	testq	%rbp, %rbp
	je	.LBB28_11
	movq	8(%rsp), %rax
	leaq	2784(%rax), %r13
	jmp	.LBB28_2
	.p2align	4
.LBB28_10:
	addq	$2792, %r13
	decq	%rbp
	je	.LBB28_11
.LBB28_2:
	movq	-2736(%r13), %r12
	movq	-2720(%r13), %r15
	movq	-48(%r13), %rax
	movq	%rax, 24(%rsp)
	movq	-32(%r13), %r14
	movq	-16(%r13), %rax
	movq	%rax, 32(%rsp)
	movq	(%r13), %rbx
	cmpq	$0, -2744(%r13)
	je	.LBB28_4
	movq	-2760(%r13), %rdi
	callq	tlsf_memory_dealloc@PLT
.LBB28_4:
	testq	%r15, %r15
	je	.LBB28_6
	movq	%r12, %rdi
	callq	tlsf_memory_dealloc@PLT
.LBB28_6:
	testq	%r14, %r14
	je	.LBB28_8
	movq	24(%rsp), %rdi
	callq	tlsf_memory_dealloc@PLT
.LBB28_8:
	testq	%rbx, %rbx
	je	.LBB28_10
	movq	32(%rsp), %rdi
	callq	tlsf_memory_dealloc@PLT
	jmp	.LBB28_10
.LBB28_11:
	cmpq	$0, 16(%rsp)
	je	.LBB28_12
	movq	8(%rsp), %rdi
	addq	$40, %rsp
	.cfi_def_cfa_offset 56
	popq	%rbx
	.cfi_def_cfa_offset 48
	popq	%r12
	.cfi_def_cfa_offset 40
	popq	%r13
	.cfi_def_cfa_offset 32
	popq	%r14
	.cfi_def_cfa_offset 24
	popq	%r15
	.cfi_def_cfa_offset 16
	popq	%rbp
	.cfi_def_cfa_offset 8
	jmp	tlsf_memory_dealloc@PLT
.LBB28_12:
	.cfi_def_cfa_offset 96
	addq	$40, %rsp
	.cfi_def_cfa_offset 56
	popq	%rbx
	.cfi_def_cfa_offset 48
	popq	%r12
	.cfi_def_cfa_offset 40
	popq	%r13
	.cfi_def_cfa_offset 32
	popq	%r14
	.cfi_def_cfa_offset 24
	popq	%r15
	.cfi_def_cfa_offset 16
	popq	%rbp
	.cfi_def_cfa_offset 8
	retq
.Lfunc_end28:
	.size	"std_alloc::vec::Vec::drop::<#1d6c342d5cae5f6b>", .Lfunc_end28-"std_alloc::vec::Vec::drop::<#1d6c342d5cae5f6b>"
	.cfi_endproc
	.section	".text.unlikely.std_alloc::vec::Vec::grow_amortized::<#1345b5ed95b64201>","ax",@progbits
	.p2align	4
	.type	"std_alloc::vec::Vec::grow_amortized::<#1345b5ed95b64201>",@function
"std_alloc::vec::Vec::grow_amortized::<#1345b5ed95b64201>":
	.cfi_startproc
	movq	%rsi, %rax
	movq	8(%rdi), %rsi
	addq	%rsi, %rax
	jae	.LBB29_2
	xorl	%eax, %eax
	retq
.LBB29_2:
	pushq	%r14
	.cfi_def_cfa_offset 16
	pushq	%rbx
	.cfi_def_cfa_offset 24
	pushq	%rax
	.cfi_def_cfa_offset 32
	.cfi_offset %rbx, -24
	.cfi_offset %r14, -16
	movq	16(%rdi), %rcx
	cmpq	$5, %rax
	movl	$4, %ebx
	cmovaeq	%rax, %rbx
	movq	%rcx, %rdx
	shrq	$62, %rdx
	leaq	(%rcx,%rcx), %rax
	cmpq	%rax, %rbx
	cmovaq	%rbx, %rax
	testq	%rdx, %rdx
	cmoveq	%rax, %rbx
	movq	%rbx, %rdx
	shrq	$60, %rdx
	jne	.LBB29_6
	testq	%rcx, %rcx
	je	.LBB29_8
	movq	%rdi, %r14
	movq	(%rdi), %rdi
	shlq	$3, %rsi
	leaq	(,%rbx,8), %rdx
	movl	$8, %ecx
	callq	tlsf_memory_realloc@PLT
	testb	$1, %al
	je	.LBB29_6
.LBB29_9:
	movq	%rdx, (%r14)
	movq	%rbx, 16(%r14)
	movb	$1, %al
	addq	$8, %rsp
	.cfi_def_cfa_offset 24
	popq	%rbx
	.cfi_def_cfa_offset 16
	popq	%r14
	.cfi_def_cfa_offset 8
	.cfi_restore %rbx
	.cfi_restore %r14
	retq
.LBB29_8:
	.cfi_def_cfa_offset 32
	.cfi_offset %rbx, -24
	.cfi_offset %r14, -16
	movq	%rdi, %r14
	shlq	$3, %rax
	movl	$8, %esi
	movq	%rax, %rdi
	callq	tlsf_memory_alloc@PLT
	testb	$1, %al
	jne	.LBB29_9
.LBB29_6:
	xorl	%eax, %eax
	addq	$8, %rsp
	.cfi_def_cfa_offset 24
	popq	%rbx
	.cfi_def_cfa_offset 16
	popq	%r14
	.cfi_def_cfa_offset 8
	.cfi_restore %rbx
	.cfi_restore %r14
	retq
.Lfunc_end29:
	.size	"std_alloc::vec::Vec::grow_amortized::<#1345b5ed95b64201>", .Lfunc_end29-"std_alloc::vec::Vec::grow_amortized::<#1345b5ed95b64201>"
	.cfi_endproc
	.section	".text.tlsf_words::words::Words::lengthen","ax",@progbits
	.p2align	4
	.type	"tlsf_words::words::Words::lengthen",@function
"tlsf_words::words::Words::lengthen":
	.cfi_startproc
	pushq	%r15
	.cfi_def_cfa_offset 16
	pushq	%r14
	.cfi_def_cfa_offset 24
	pushq	%r13
	.cfi_def_cfa_offset 32
	pushq	%r12
	.cfi_def_cfa_offset 40
	pushq	%rbx
	.cfi_def_cfa_offset 48
	.cfi_offset %rbx, -48
	.cfi_offset %r12, -40
	.cfi_offset %r13, -32
	.cfi_offset %r14, -24
	.cfi_offset %r15, -16
	movl	%esi, %ebx
	movq	%rdi, %r14
	movl	%esi, %ecx
	movq	8(%rdi), %rax
	movq	%rcx, %rdx
	subq	%rax, %rdx
	jbe	.LBB30_1
	movq	16(%r14), %r15
	movq	%r15, %rcx
	subq	%rax, %rcx
	cmpq	%rcx, %rdx
	ja	.LBB30_4
	leaq	(%rax,%rdx), %r12
	movq	(%r14), %r13
	cmpq	%r12, %rax
	jae	.LBB30_8
.LBB30_7:
	leaq	(,%rax,8), %rdi
	addq	%r13, %rdi
	shlq	$3, %rdx
	xorl	%esi, %esi
	callq	tlsf_memory_set@PLT
.LBB30_8:
	movq	%r13, (%r14)
	movq	%r12, 8(%r14)
	movq	%r15, 16(%r14)
	jmp	.LBB30_9
.LBB30_1:
	jae	.LBB30_9
	movq	%rcx, 8(%r14)
.LBB30_9:
	cmpq	$0, 32(%r14)
	je	.LBB30_11
	movq	$0, 32(%r14)
.LBB30_11:
	movl	%ebx, %edx
	shrl	$6, %edx
	movl	%ebx, %eax
	andl	$63, %eax
	cmpl	$1, %eax
	sbbl	$-1, %edx
	testl	%ebx, %ebx
	je	.LBB30_19
	movq	40(%r14), %r15
	cmpq	%rdx, %r15
	jb	.LBB30_14
	xorl	%eax, %eax
	leaq	(%rax,%rdx), %r12
	movq	24(%r14), %r13
	cmpq	%r12, %rax
	jae	.LBB30_18
.LBB30_17:
	leaq	(,%rax,8), %rdi
	addq	%r13, %rdi
	shlq	$3, %rdx
	xorl	%esi, %esi
	callq	tlsf_memory_set@PLT
.LBB30_18:
	movq	%r13, 24(%r14)
	movq	%r12, 32(%r14)
	movq	%r15, 40(%r14)
.LBB30_19:
	movl	%ebx, 48(%r14)
	popq	%rbx
	.cfi_def_cfa_offset 40
	popq	%r12
	.cfi_def_cfa_offset 32
	popq	%r13
	.cfi_def_cfa_offset 24
	popq	%r14
	.cfi_def_cfa_offset 16
	popq	%r15
	.cfi_def_cfa_offset 8
	retq
.LBB30_14:
	.cfi_def_cfa_offset 48
	leaq	24(%r14), %rdi
	movq	%rdx, %r12
	movq	%rdx, %rsi
	callq	"std_alloc::vec::Vec::grow_amortized::<#1345b5ed95b64201>"
	testb	%al, %al
	je	.LBB30_20
	movq	32(%r14), %rax
	movq	40(%r14), %r15
	movq	%r12, %rdx
	leaq	(%rax,%rdx), %r12
	movq	24(%r14), %r13
	cmpq	%r12, %rax
	jb	.LBB30_17
	jmp	.LBB30_18
.LBB30_4:
	movq	%r14, %rdi
	movq	%rdx, %r12
	movq	%rdx, %rsi
	callq	"std_alloc::vec::Vec::grow_amortized::<#1345b5ed95b64201>"
	testb	%al, %al
	je	.LBB30_20
	movq	8(%r14), %rax
	movq	16(%r14), %r15
	movq	%r12, %rdx
	leaq	(%rax,%rdx), %r12
	movq	(%r14), %r13
	cmpq	%r12, %rax
	jb	.LBB30_7
	jmp	.LBB30_8
.LBB30_20:
	ud2
.Lfunc_end30:
	.size	"tlsf_words::words::Words::lengthen", .Lfunc_end30-"tlsf_words::words::Words::lengthen"
	.cfi_endproc
	.section	".text.tlsf_pool::sizes::split::rising_split::<=4>","ax",@progbits
	.p2align	4
	.type	"tlsf_pool::sizes::split::rising_split::<=4>",@function
"tlsf_pool::sizes::split::rising_split::<=4>":
	.cfi_startproc
	pushq	%rbp
	.cfi_def_cfa_offset 16
	pushq	%r15
	.cfi_def_cfa_offset 24
	pushq	%r14
	.cfi_def_cfa_offset 32
	pushq	%r13
	.cfi_def_cfa_offset 40
	pushq	%r12
	.cfi_def_cfa_offset 48
	pushq	%rbx
	.cfi_def_cfa_offset 56
	subq	$1496, %rsp
	.cfi_def_cfa_offset 1552
	.cfi_offset %rbx, -56
	.cfi_offset %r12, -48
	.cfi_offset %r13, -40
	.cfi_offset %r14, -32
	.cfi_offset %r15, -24
	.cfi_offset %rbp, -16
	movq	%rsi, 64(%rsp)
	movq	%rdi, %r14
	cmpq	$2, %rdx
	jb	.LBB31_15
	movl	$1, %eax
	.p2align	4
.LBB31_2:
	movq	64(%rsp), %rsi
	movl	4(%rsi,%rax,8), %ecx
	cmpl	-4(%rsi,%rax,8), %ecx
	jbe	.LBB31_13
	incq	%rax
	cmpq	%rax, %rdx
	jne	.LBB31_2
	leaq	196(%rsp), %rdi
	movq	%rdx, %r15
	movl	$1300, %edx
	xorl	%esi, %esi
	callq	tlsf_memory_set@PLT
	jmp	.LBB31_5
.LBB31_15:
	leaq	196(%rsp), %rdi
	movq	%rdx, %r15
	xorl	%ebx, %ebx
	movl	$1300, %edx
	xorl	%esi, %esi
	callq	tlsf_memory_set@PLT
	testq	%r15, %r15
	je	.LBB31_16
.LBB31_5:
	movq	%r14, 104(%rsp)
	leaq	(,%r15,4), %rax
	leaq	(%rax,%rax,4), %r12
	leaq	196(%rsp), %rdi
	xorl	%ebx, %ebx
	xorl	%esi, %esi
	movq	%r12, %rdx
	callq	tlsf_memory_set@PLT
	movl	$1, 196(%rsp,%r12)
	pxor	%xmm0, %xmm0
	movdqu	%xmm0, 200(%rsp,%r12)
	movq	64(%rsp), %rax
	leaq	4(%rax), %rcx
	movq	%rcx, 120(%rsp)
	addq	$24, %rax
	movq	%rax, 112(%rsp)
	movq	%r15, 136(%rsp)
	jmp	.LBB31_6
	.p2align	4
.LBB31_51:
	movq	128(%rsp), %rbx
	incq	%rbx
	cmpq	$8, %rbx
	je	.LBB31_52
.LBB31_6:
	movq	%rbx, 128(%rsp)
	xorl	%ecx, %ecx
	movq	64(%rsp), %rdi
	movq	112(%rsp), %r8
	movq	120(%rsp), %r9
	jmp	.LBB31_7
	.p2align	4
.LBB31_50:
	movzbl	%r15b, %eax
	movl	56(%rsp), %ecx
	movl	%ecx, 192(%rsp)
	movq	48(%rsp), %rdx
	movq	%rdx, 184(%rsp)
	movq	144(%rsp), %rsi
	leaq	(%rsi,%rsi,4), %rsi
	movl	%eax, 196(%rsp,%rsi,4)
	movl	12(%rsp), %eax
	movl	%eax, 200(%rsp,%rsi,4)
	movq	%rdx, 204(%rsp,%rsi,4)
	movl	%ecx, 212(%rsp,%rsi,4)
	addq	$8, %r9
	addq	$8, %r8
	addq	$8, %rdi
	movq	152(%rsp), %rax
	movq	%rax, %rcx
	movq	136(%rsp), %r15
	cmpq	%r15, %rax
	je	.LBB31_51
.LBB31_7:
	leaq	1(%rcx), %rax
	movq	%rax, 152(%rsp)
	leaq	(%rax,%rax,4), %rax
	leaq	(%rsp,%rax,4), %r12
	addq	$196, %r12
	movq	%r15, %rbp
	subq	%rcx, %rbp
	movq	64(%rsp), %rax
	movq	%rcx, 144(%rsp)
	leaq	(%rax,%rcx,8), %r13
	movq	$0, 48(%rsp)
	movl	$0, 56(%rsp)
	movl	$1, %ebx
	xorl	%r10d, %r10d
	movl	$0, 12(%rsp)
	xorl	%r15d, %r15d
	movq	%rbp, 176(%rsp)
	movq	%r13, 168(%rsp)
	movq	%r12, 160(%rsp)
	jmp	.LBB31_8
	.p2align	4
.LBB31_38:
	movl	$0, 40(%rsp)
	movq	$0, 32(%rsp)
	testb	%r15b, %r15b
	je	.LBB31_39
	movl	56(%rsp), %eax
	movl	%eax, 24(%rsp)
	movq	48(%rsp), %rax
	movq	%rax, 16(%rsp)
	movb	$1, %r15b
.LBB31_49:
	movl	24(%rsp), %eax
	movl	%eax, 56(%rsp)
	movq	16(%rsp), %rax
	movq	%rax, 48(%rsp)
	incq	%rbx
	cmpq	%rbp, %r10
	je	.LBB31_50
.LBB31_8:
	movq	%r10, %rsi
	movq	%rbx, %rcx
	andq	$-2, %rcx
	movl	%ebx, %edx
	andl	$3, %edx
	movq	%rbx, %r11
	andq	$-4, %r11
	incq	%r10
	leaq	(%rsi,%rsi,4), %rax
	leaq	(%r12,%rax,4), %r14
	movq	$-1, %rax
	.p2align	4
.LBB31_9:
	cmpl	$8388585, 8(%r9,%rax,8)
	jae	.LBB31_38
	incq	%rax
	cmpq	%rax, %rsi
	jne	.LBB31_9
	movq	%r15, 96(%rsp)
	cmpq	$3, %rsi
	movq	%r14, 88(%rsp)
	jae	.LBB31_18
	movq	%rbp, %r14
	movq	%r12, %rbp
	movq	%r13, %r12
	xorl	%eax, %eax
	xorl	%r13d, %r13d
	jmp	.LBB31_21
	.p2align	4
.LBB31_39:
	xorl	%ecx, %ecx
	xorl	%r15d, %r15d
.LBB31_42:
	movl	40(%rsp), %eax
	movl	%eax, 24(%rsp)
	movq	32(%rsp), %rax
	movq	%rax, 16(%rsp)
.LBB31_48:
	movl	%ecx, 12(%rsp)
	jmp	.LBB31_49
	.p2align	4
.LBB31_18:
	xorl	%eax, %eax
	xorl	%r13d, %r13d
	.p2align	4
.LBB31_19:
	movl	-24(%r8,%r13,8), %r12d
	movl	-16(%r8,%r13,8), %ebp
	addq	%rax, %r12
	movl	-8(%r8,%r13,8), %r15d
	addq	%rbp, %r15
	addq	%r12, %r15
	movl	(%r8,%r13,8), %eax
	addq	%r15, %rax
	addq	$4, %r13
	cmpq	%r13, %r11
	jne	.LBB31_19
	testb	$3, %r10b
	movq	160(%rsp), %rbp
	movq	176(%rsp), %r14
	movq	168(%rsp), %r12
	je	.LBB31_23
.LBB31_21:
	leaq	(%rdi,%r13,8), %r11
	xorl	%r13d, %r13d
	.p2align	4
.LBB31_22:
	movl	(%r11,%r13,8), %r15d
	addq	%r15, %rax
	incq	%r13
	cmpq	%r13, %rdx
	jne	.LBB31_22
.LBB31_23:
	xorl	%edx, %edx
	testq	%rsi, %rsi
	je	.LBB31_24
	xorl	%esi, %esi
	movq	96(%rsp), %r15
	movq	%r12, %r13
	movq	%rbp, %r12
	movq	%r14, %rbp
	movq	88(%rsp), %r14
	jmp	.LBB31_26
	.p2align	4
.LBB31_30:
	addq	$2, %rsi
	cmpq	%rsi, %rcx
	je	.LBB31_31
.LBB31_26:
	cmpl	$0, (%rdi,%rsi,8)
	je	.LBB31_28
	movl	4(%rdi,%rsi,8), %r11d
	cmpl	%edx, %r11d
	cmoval	%r11d, %edx
.LBB31_28:
	cmpl	$0, 8(%rdi,%rsi,8)
	je	.LBB31_30
	movl	12(%rdi,%rsi,8), %r11d
	cmpl	%edx, %r11d
	cmoval	%r11d, %edx
	jmp	.LBB31_30
	.p2align	4
.LBB31_31:
	testb	$1, %r10b
	je	.LBB31_34
	cmpl	$0, (%r13,%rsi,8)
	je	.LBB31_34
.LBB31_33:
	movl	4(%r13,%rsi,8), %ecx
	cmpl	%edx, %ecx
	cmoval	%ecx, %edx
.LBB31_34:
	movl	%edx, %esi
	cmpl	$1, %edx
	adcq	$31, %rsi
	shrq	$3, %rsi
	movl	%esi, %ecx
	orl	$16, %ecx
	bsrl	%ecx, %ecx
	addl	$-4, %ecx
	decl	%esi
	shrl	%cl, %esi
	shll	$4, %ecx
	leal	(%rsi,%rcx), %edx
	incl	%edx
	movl	%edx, %ecx
	shrl	$4, %ecx
	je	.LBB31_36
	movl	$8, %edx
	shll	%cl, %edx
	incl	%esi
	andl	$15, %esi
	decb	%cl
	shll	%cl, %esi
	addl	%edx, %esi
	movl	%esi, %edx
.LBB31_36:
	movl	%edx, %ecx
	imulq	%rcx, %rax
	cmpq	$5, %rax
	movl	$4, %ecx
	cmovaeq	%rax, %rcx
	cmpq	$1048576, %rax
	ja	.LBB31_38
	cmpb	$1, (%r14)
	jne	.LBB31_38
	addq	$4, %r14
	movdqu	(%r14), %xmm0
	movdqa	%xmm0, 16(%rsp)
	movzbl	20(%rsp), %eax
	movb	%r10b, 21(%rsp,%rax)
	incl	%eax
	movb	%al, 20(%rsp)
	addl	16(%rsp), %ecx
	leaq	20(%rsp), %rdx
	movq	(%rdx), %rax
	movq	%rax, 32(%rsp)
	movl	8(%rdx), %eax
	movl	%eax, 40(%rsp)
	testb	%r15b, %r15b
	je	.LBB31_41
	movl	12(%rsp), %eax
	cmpl	%eax, %ecx
	jae	.LBB31_46
	movl	40(%rsp), %eax
	movl	%eax, 80(%rsp)
	movq	32(%rsp), %rax
	movq	%rax, 72(%rsp)
	jmp	.LBB31_47
.LBB31_24:
	xorl	%esi, %esi
	movq	96(%rsp), %r15
	movq	%r12, %r13
	movq	%rbp, %r12
	movq	%r14, %rbp
	movq	88(%rsp), %r14
	cmpl	$0, (%r13,%rsi,8)
	jne	.LBB31_33
	jmp	.LBB31_34
.LBB31_41:
	movb	$1, %r15b
	jmp	.LBB31_42
.LBB31_46:
	movl	%eax, %ecx
	movl	56(%rsp), %eax
	movl	%eax, 80(%rsp)
	movq	48(%rsp), %rax
	movq	%rax, 72(%rsp)
.LBB31_47:
	movl	80(%rsp), %eax
	movl	%eax, 24(%rsp)
	movq	72(%rsp), %rax
	movq	%rax, 16(%rsp)
	movb	$1, %r15b
	jmp	.LBB31_48
.LBB31_52:
	movzbl	196(%rsp), %ecx
	cmpb	$1, %cl
	movq	104(%rsp), %r14
	jne	.LBB31_53
	movzbl	212(%rsp), %ebx
	movzwl	210(%rsp), %eax
	movd	%eax, %xmm2
	movd	208(%rsp), %xmm1
	movzwl	206(%rsp), %eax
	movd	%eax, %xmm3
	movd	204(%rsp), %xmm0
	movl	200(%rsp), %eax
	pxor	%xmm4, %xmm4
	punpcklbw	%xmm4, %xmm0
	punpcklwd	%xmm4, %xmm0
	punpckldq	%xmm4, %xmm0
	punpcklbw	%xmm4, %xmm3
	punpcklwd	%xmm4, %xmm3
	punpckldq	%xmm4, %xmm3
	punpcklbw	%xmm4, %xmm1
	punpcklwd	%xmm4, %xmm1
	punpckldq	%xmm4, %xmm1
	punpcklbw	%xmm4, %xmm2
	punpcklwd	%xmm4, %xmm2
	punpckldq	%xmm4, %xmm2
	movb	$1, %cl
	jmp	.LBB31_55
.LBB31_53:
	pxor	%xmm0, %xmm0
	xorl	%ebx, %ebx
	jmp	.LBB31_17
.LBB31_13:
	xorps	%xmm0, %xmm0
	movups	%xmm0, 64(%r14)
	movups	%xmm0, 48(%r14)
	movups	%xmm0, 32(%r14)
	movups	%xmm0, 16(%r14)
	movups	%xmm0, (%r14)
	movq	$0, 80(%r14)
	jmp	.LBB31_14
.LBB31_16:
	pxor	%xmm0, %xmm0
	movb	$1, %cl
.LBB31_17:
	xorl	%eax, %eax
	pxor	%xmm3, %xmm3
	pxor	%xmm1, %xmm1
	pxor	%xmm2, %xmm2
.LBB31_55:
	movzbl	%cl, %ecx
	movq	%rcx, (%r14)
	movdqu	%xmm0, 8(%r14)
	movdqu	%xmm3, 24(%r14)
	movdqu	%xmm1, 40(%r14)
	movdqu	%xmm2, 56(%r14)
	movq	%rbx, 72(%r14)
	movq	%rax, 80(%r14)
.LBB31_14:
	addq	$1496, %rsp
	.cfi_def_cfa_offset 56
	popq	%rbx
	.cfi_def_cfa_offset 48
	popq	%r12
	.cfi_def_cfa_offset 40
	popq	%r13
	.cfi_def_cfa_offset 32
	popq	%r14
	.cfi_def_cfa_offset 24
	popq	%r15
	.cfi_def_cfa_offset 16
	popq	%rbp
	.cfi_def_cfa_offset 8
	retq
.Lfunc_end31:
	.size	"tlsf_pool::sizes::split::rising_split::<=4>", .Lfunc_end31-"tlsf_pool::sizes::split::rising_split::<=4>"
	.cfi_endproc
	.section	".text.unlikely.std_alloc::vec::Vec::grow_amortized::<#8f83c87fc5454f35>","ax",@progbits
	.p2align	4
	.type	"std_alloc::vec::Vec::grow_amortized::<#8f83c87fc5454f35>",@function
"std_alloc::vec::Vec::grow_amortized::<#8f83c87fc5454f35>":
	.cfi_startproc
	movq	8(%rdi), %rax
	cmpq	$-1, %rax
	je	.LBB32_5
	pushq	%r14
	.cfi_def_cfa_offset 16
	pushq	%rbx
	.cfi_def_cfa_offset 24
	pushq	%rax
	.cfi_def_cfa_offset 32
	.cfi_offset %rbx, -24
	.cfi_offset %r14, -16
	movq	16(%rdi), %rcx
	leaq	1(%rax), %rbx
	movq	%rcx, %rsi
	shrq	$62, %rsi
	leaq	(%rcx,%rcx), %rdx
	cmpq	%rdx, %rbx
	cmovaq	%rbx, %rdx
	testq	%rsi, %rsi
	cmoveq	%rdx, %rbx
	movabsq	$3303500013200134, %rsi
	cmpq	%rsi, %rbx
	ja	.LBB32_6
	testq	%rcx, %rcx
	je	.LBB32_8
	movq	%rdi, %r14
	movq	(%rdi), %rdi
	imulq	$2792, %rax, %rsi
	imulq	$2792, %rbx, %rdx
	movl	$8, %ecx
	callq	tlsf_memory_realloc@PLT
	testb	$1, %al
	je	.LBB32_6
.LBB32_9:
	movq	%rdx, (%r14)
	movq	%rbx, 16(%r14)
	movb	$1, %al
	addq	$8, %rsp
	.cfi_def_cfa_offset 24
	popq	%rbx
	.cfi_def_cfa_offset 16
	popq	%r14
	.cfi_def_cfa_offset 8
	.cfi_restore %rbx
	.cfi_restore %r14
	retq
.LBB32_5:
	xorl	%eax, %eax
	retq
.LBB32_8:
	.cfi_def_cfa_offset 32
	.cfi_offset %rbx, -24
	.cfi_offset %r14, -16
	movq	%rdi, %r14
	imulq	$2792, %rdx, %rdi
	movl	$8, %esi
	callq	tlsf_memory_alloc@PLT
	testb	$1, %al
	jne	.LBB32_9
.LBB32_6:
	xorl	%eax, %eax
	addq	$8, %rsp
	.cfi_def_cfa_offset 24
	popq	%rbx
	.cfi_def_cfa_offset 16
	popq	%r14
	.cfi_def_cfa_offset 8
	.cfi_restore %rbx
	.cfi_restore %r14
	retq
.Lfunc_end32:
	.size	"std_alloc::vec::Vec::grow_amortized::<#8f83c87fc5454f35>", .Lfunc_end32-"std_alloc::vec::Vec::grow_amortized::<#8f83c87fc5454f35>"
	.cfi_endproc
	.section	".text.tlsf_pool::sizes::split::rising_split::<=5>","ax",@progbits
	.p2align	4
	.type	"tlsf_pool::sizes::split::rising_split::<=5>",@function
"tlsf_pool::sizes::split::rising_split::<=5>":
	.cfi_startproc
	pushq	%rbp
	.cfi_def_cfa_offset 16
	pushq	%r15
	.cfi_def_cfa_offset 24
	pushq	%r14
	.cfi_def_cfa_offset 32
	pushq	%r13
	.cfi_def_cfa_offset 40
	pushq	%r12
	.cfi_def_cfa_offset 48
	pushq	%rbx
	.cfi_def_cfa_offset 56
	subq	$1496, %rsp
	.cfi_def_cfa_offset 1552
	.cfi_offset %rbx, -56
	.cfi_offset %r12, -48
	.cfi_offset %r13, -40
	.cfi_offset %r14, -32
	.cfi_offset %r15, -24
	.cfi_offset %rbp, -16
	movq	%rsi, 64(%rsp)
	movq	%rdi, %r14
	cmpq	$2, %rdx
	jb	.LBB33_15
	movl	$1, %eax
	.p2align	4
.LBB33_2:
	movq	64(%rsp), %rsi
	movl	4(%rsi,%rax,8), %ecx
	cmpl	-4(%rsi,%rax,8), %ecx
	jbe	.LBB33_13
	incq	%rax
	cmpq	%rax, %rdx
	jne	.LBB33_2
	leaq	196(%rsp), %rdi
	movq	%rdx, %r15
	movl	$1300, %edx
	xorl	%esi, %esi
	callq	tlsf_memory_set@PLT
	jmp	.LBB33_5
.LBB33_15:
	leaq	196(%rsp), %rdi
	movq	%rdx, %r15
	xorl	%ebx, %ebx
	movl	$1300, %edx
	xorl	%esi, %esi
	callq	tlsf_memory_set@PLT
	testq	%r15, %r15
	je	.LBB33_16
.LBB33_5:
	movq	%r14, 104(%rsp)
	leaq	(,%r15,4), %rax
	leaq	(%rax,%rax,4), %r12
	leaq	196(%rsp), %rdi
	xorl	%ebx, %ebx
	xorl	%esi, %esi
	movq	%r12, %rdx
	callq	tlsf_memory_set@PLT
	movl	$1, 196(%rsp,%r12)
	pxor	%xmm0, %xmm0
	movdqu	%xmm0, 200(%rsp,%r12)
	movq	64(%rsp), %rax
	leaq	4(%rax), %rcx
	movq	%rcx, 120(%rsp)
	addq	$24, %rax
	movq	%rax, 112(%rsp)
	movq	%r15, 136(%rsp)
	jmp	.LBB33_6
	.p2align	4
.LBB33_51:
	movq	128(%rsp), %rbx
	incq	%rbx
	cmpq	$8, %rbx
	je	.LBB33_52
.LBB33_6:
	movq	%rbx, 128(%rsp)
	xorl	%ecx, %ecx
	movq	64(%rsp), %rdi
	movq	112(%rsp), %r8
	movq	120(%rsp), %r9
	jmp	.LBB33_7
	.p2align	4
.LBB33_50:
	movzbl	%r15b, %eax
	movl	56(%rsp), %ecx
	movl	%ecx, 192(%rsp)
	movq	48(%rsp), %rdx
	movq	%rdx, 184(%rsp)
	movq	144(%rsp), %rsi
	leaq	(%rsi,%rsi,4), %rsi
	movl	%eax, 196(%rsp,%rsi,4)
	movl	12(%rsp), %eax
	movl	%eax, 200(%rsp,%rsi,4)
	movq	%rdx, 204(%rsp,%rsi,4)
	movl	%ecx, 212(%rsp,%rsi,4)
	addq	$8, %r9
	addq	$8, %r8
	addq	$8, %rdi
	movq	152(%rsp), %rax
	movq	%rax, %rcx
	movq	136(%rsp), %r15
	cmpq	%r15, %rax
	je	.LBB33_51
.LBB33_7:
	leaq	1(%rcx), %rax
	movq	%rax, 152(%rsp)
	leaq	(%rax,%rax,4), %rax
	leaq	(%rsp,%rax,4), %r12
	addq	$196, %r12
	movq	%r15, %rbp
	subq	%rcx, %rbp
	movq	64(%rsp), %rax
	movq	%rcx, 144(%rsp)
	leaq	(%rax,%rcx,8), %r13
	movq	$0, 48(%rsp)
	movl	$0, 56(%rsp)
	movl	$1, %ebx
	xorl	%r10d, %r10d
	movl	$0, 12(%rsp)
	xorl	%r15d, %r15d
	movq	%rbp, 176(%rsp)
	movq	%r13, 168(%rsp)
	movq	%r12, 160(%rsp)
	jmp	.LBB33_8
	.p2align	4
.LBB33_38:
	movl	$0, 40(%rsp)
	movq	$0, 32(%rsp)
	testb	%r15b, %r15b
	je	.LBB33_39
	movl	56(%rsp), %eax
	movl	%eax, 24(%rsp)
	movq	48(%rsp), %rax
	movq	%rax, 16(%rsp)
	movb	$1, %r15b
.LBB33_49:
	movl	24(%rsp), %eax
	movl	%eax, 56(%rsp)
	movq	16(%rsp), %rax
	movq	%rax, 48(%rsp)
	incq	%rbx
	cmpq	%rbp, %r10
	je	.LBB33_50
.LBB33_8:
	movq	%r10, %rsi
	movq	%rbx, %rcx
	andq	$-2, %rcx
	movl	%ebx, %edx
	andl	$3, %edx
	movq	%rbx, %r11
	andq	$-4, %r11
	incq	%r10
	leaq	(%rsi,%rsi,4), %rax
	leaq	(%r12,%rax,4), %r14
	movq	$-1, %rax
	.p2align	4
.LBB33_9:
	cmpl	$134217705, 8(%r9,%rax,8)
	jae	.LBB33_38
	incq	%rax
	cmpq	%rax, %rsi
	jne	.LBB33_9
	movq	%r15, 96(%rsp)
	cmpq	$3, %rsi
	movq	%r14, 88(%rsp)
	jae	.LBB33_18
	movq	%rbp, %r14
	movq	%r12, %rbp
	movq	%r13, %r12
	xorl	%eax, %eax
	xorl	%r13d, %r13d
	jmp	.LBB33_21
	.p2align	4
.LBB33_39:
	xorl	%ecx, %ecx
	xorl	%r15d, %r15d
.LBB33_42:
	movl	40(%rsp), %eax
	movl	%eax, 24(%rsp)
	movq	32(%rsp), %rax
	movq	%rax, 16(%rsp)
.LBB33_48:
	movl	%ecx, 12(%rsp)
	jmp	.LBB33_49
	.p2align	4
.LBB33_18:
	xorl	%eax, %eax
	xorl	%r13d, %r13d
	.p2align	4
.LBB33_19:
	movl	-24(%r8,%r13,8), %r12d
	movl	-16(%r8,%r13,8), %ebp
	addq	%rax, %r12
	movl	-8(%r8,%r13,8), %r15d
	addq	%rbp, %r15
	addq	%r12, %r15
	movl	(%r8,%r13,8), %eax
	addq	%r15, %rax
	addq	$4, %r13
	cmpq	%r13, %r11
	jne	.LBB33_19
	testb	$3, %r10b
	movq	160(%rsp), %rbp
	movq	176(%rsp), %r14
	movq	168(%rsp), %r12
	je	.LBB33_23
.LBB33_21:
	leaq	(%rdi,%r13,8), %r11
	xorl	%r13d, %r13d
	.p2align	4
.LBB33_22:
	movl	(%r11,%r13,8), %r15d
	addq	%r15, %rax
	incq	%r13
	cmpq	%r13, %rdx
	jne	.LBB33_22
.LBB33_23:
	xorl	%edx, %edx
	testq	%rsi, %rsi
	je	.LBB33_24
	xorl	%esi, %esi
	movq	96(%rsp), %r15
	movq	%r12, %r13
	movq	%rbp, %r12
	movq	%r14, %rbp
	movq	88(%rsp), %r14
	jmp	.LBB33_26
	.p2align	4
.LBB33_30:
	addq	$2, %rsi
	cmpq	%rsi, %rcx
	je	.LBB33_31
.LBB33_26:
	cmpl	$0, (%rdi,%rsi,8)
	je	.LBB33_28
	movl	4(%rdi,%rsi,8), %r11d
	cmpl	%edx, %r11d
	cmoval	%r11d, %edx
.LBB33_28:
	cmpl	$0, 8(%rdi,%rsi,8)
	je	.LBB33_30
	movl	12(%rdi,%rsi,8), %r11d
	cmpl	%edx, %r11d
	cmoval	%r11d, %edx
	jmp	.LBB33_30
	.p2align	4
.LBB33_31:
	testb	$1, %r10b
	je	.LBB33_34
	cmpl	$0, (%r13,%rsi,8)
	je	.LBB33_34
.LBB33_33:
	movl	4(%r13,%rsi,8), %ecx
	cmpl	%edx, %ecx
	cmoval	%ecx, %edx
.LBB33_34:
	movl	%edx, %esi
	cmpl	$1, %edx
	adcq	$31, %rsi
	shrq	$3, %rsi
	movl	%esi, %ecx
	orl	$32, %ecx
	bsrl	%ecx, %ecx
	addl	$-5, %ecx
	decl	%esi
	shrl	%cl, %esi
	shll	$5, %ecx
	leal	(%rsi,%rcx), %edx
	incl	%edx
	movl	%edx, %ecx
	shrl	$5, %ecx
	je	.LBB33_36
	movl	$16, %edx
	shll	%cl, %edx
	incl	%esi
	andl	$31, %esi
	decb	%cl
	shll	%cl, %esi
	addl	%edx, %esi
	movl	%esi, %edx
.LBB33_36:
	movl	%edx, %ecx
	imulq	%rcx, %rax
	cmpq	$5, %rax
	movl	$4, %ecx
	cmovaeq	%rax, %rcx
	cmpq	$16777216, %rax
	ja	.LBB33_38
	cmpb	$1, (%r14)
	jne	.LBB33_38
	addq	$4, %r14
	movdqu	(%r14), %xmm0
	movdqa	%xmm0, 16(%rsp)
	movzbl	20(%rsp), %eax
	movb	%r10b, 21(%rsp,%rax)
	incl	%eax
	movb	%al, 20(%rsp)
	addl	16(%rsp), %ecx
	leaq	20(%rsp), %rdx
	movq	(%rdx), %rax
	movq	%rax, 32(%rsp)
	movl	8(%rdx), %eax
	movl	%eax, 40(%rsp)
	testb	%r15b, %r15b
	je	.LBB33_41
	movl	12(%rsp), %eax
	cmpl	%eax, %ecx
	jae	.LBB33_46
	movl	40(%rsp), %eax
	movl	%eax, 80(%rsp)
	movq	32(%rsp), %rax
	movq	%rax, 72(%rsp)
	jmp	.LBB33_47
.LBB33_24:
	xorl	%esi, %esi
	movq	96(%rsp), %r15
	movq	%r12, %r13
	movq	%rbp, %r12
	movq	%r14, %rbp
	movq	88(%rsp), %r14
	cmpl	$0, (%r13,%rsi,8)
	jne	.LBB33_33
	jmp	.LBB33_34
.LBB33_41:
	movb	$1, %r15b
	jmp	.LBB33_42
.LBB33_46:
	movl	%eax, %ecx
	movl	56(%rsp), %eax
	movl	%eax, 80(%rsp)
	movq	48(%rsp), %rax
	movq	%rax, 72(%rsp)
.LBB33_47:
	movl	80(%rsp), %eax
	movl	%eax, 24(%rsp)
	movq	72(%rsp), %rax
	movq	%rax, 16(%rsp)
	movb	$1, %r15b
	jmp	.LBB33_48
.LBB33_52:
	movzbl	196(%rsp), %ecx
	cmpb	$1, %cl
	movq	104(%rsp), %r14
	jne	.LBB33_53
	movzbl	212(%rsp), %ebx
	movzwl	210(%rsp), %eax
	movd	%eax, %xmm2
	movd	208(%rsp), %xmm1
	movzwl	206(%rsp), %eax
	movd	%eax, %xmm3
	movd	204(%rsp), %xmm0
	movl	200(%rsp), %eax
	pxor	%xmm4, %xmm4
	punpcklbw	%xmm4, %xmm0
	punpcklwd	%xmm4, %xmm0
	punpckldq	%xmm4, %xmm0
	punpcklbw	%xmm4, %xmm3
	punpcklwd	%xmm4, %xmm3
	punpckldq	%xmm4, %xmm3
	punpcklbw	%xmm4, %xmm1
	punpcklwd	%xmm4, %xmm1
	punpckldq	%xmm4, %xmm1
	punpcklbw	%xmm4, %xmm2
	punpcklwd	%xmm4, %xmm2
	punpckldq	%xmm4, %xmm2
	movb	$1, %cl
	jmp	.LBB33_55
.LBB33_53:
	pxor	%xmm0, %xmm0
	xorl	%ebx, %ebx
	jmp	.LBB33_17
.LBB33_13:
	xorps	%xmm0, %xmm0
	movups	%xmm0, 64(%r14)
	movups	%xmm0, 48(%r14)
	movups	%xmm0, 32(%r14)
	movups	%xmm0, 16(%r14)
	movups	%xmm0, (%r14)
	movq	$0, 80(%r14)
	jmp	.LBB33_14
.LBB33_16:
	pxor	%xmm0, %xmm0
	movb	$1, %cl
.LBB33_17:
	xorl	%eax, %eax
	pxor	%xmm3, %xmm3
	pxor	%xmm1, %xmm1
	pxor	%xmm2, %xmm2
.LBB33_55:
	movzbl	%cl, %ecx
	movq	%rcx, (%r14)
	movdqu	%xmm0, 8(%r14)
	movdqu	%xmm3, 24(%r14)
	movdqu	%xmm1, 40(%r14)
	movdqu	%xmm2, 56(%r14)
	movq	%rbx, 72(%r14)
	movq	%rax, 80(%r14)
.LBB33_14:
	addq	$1496, %rsp
	.cfi_def_cfa_offset 56
	popq	%rbx
	.cfi_def_cfa_offset 48
	popq	%r12
	.cfi_def_cfa_offset 40
	popq	%r13
	.cfi_def_cfa_offset 32
	popq	%r14
	.cfi_def_cfa_offset 24
	popq	%r15
	.cfi_def_cfa_offset 16
	popq	%rbp
	.cfi_def_cfa_offset 8
	retq
.Lfunc_end33:
	.size	"tlsf_pool::sizes::split::rising_split::<=5>", .Lfunc_end33-"tlsf_pool::sizes::split::rising_split::<=5>"
	.cfi_endproc
	.section	".text.unlikely.std_alloc::vec::Vec::grow_amortized::<#cb831ce0f1fbfa3d>","ax",@progbits
	.p2align	4
	.type	"std_alloc::vec::Vec::grow_amortized::<#cb831ce0f1fbfa3d>",@function
"std_alloc::vec::Vec::grow_amortized::<#cb831ce0f1fbfa3d>":
	.cfi_startproc
	movq	8(%rdi), %rax
	cmpq	$-1, %rax
	je	.LBB34_5
	pushq	%r14
	.cfi_def_cfa_offset 16
	pushq	%rbx
	.cfi_def_cfa_offset 24
	pushq	%rax
	.cfi_def_cfa_offset 32
	.cfi_offset %rbx, -24
	.cfi_offset %r14, -16
	movq	16(%rdi), %rcx
	leaq	1(%rax), %rbx
	movq	%rcx, %rsi
	shrq	$62, %rsi
	leaq	(%rcx,%rcx), %rdx
	cmpq	%rdx, %rbx
	cmovaq	%rbx, %rdx
	testq	%rsi, %rsi
	cmoveq	%rdx, %rbx
	movabsq	$3303500013200134, %rsi
	cmpq	%rsi, %rbx
	ja	.LBB34_6
	testq	%rcx, %rcx
	je	.LBB34_8
	movq	%rdi, %r14
	movq	(%rdi), %rdi
	imulq	$2792, %rax, %rsi
	imulq	$2792, %rbx, %rdx
	movl	$8, %ecx
	callq	tlsf_memory_realloc@PLT
	testb	$1, %al
	je	.LBB34_6
.LBB34_9:
	movq	%rdx, (%r14)
	movq	%rbx, 16(%r14)
	movb	$1, %al
	addq	$8, %rsp
	.cfi_def_cfa_offset 24
	popq	%rbx
	.cfi_def_cfa_offset 16
	popq	%r14
	.cfi_def_cfa_offset 8
	.cfi_restore %rbx
	.cfi_restore %r14
	retq
.LBB34_5:
	xorl	%eax, %eax
	retq
.LBB34_8:
	.cfi_def_cfa_offset 32
	.cfi_offset %rbx, -24
	.cfi_offset %r14, -16
	movq	%rdi, %r14
	imulq	$2792, %rdx, %rdi
	movl	$8, %esi
	callq	tlsf_memory_alloc@PLT
	testb	$1, %al
	jne	.LBB34_9
.LBB34_6:
	xorl	%eax, %eax
	addq	$8, %rsp
	.cfi_def_cfa_offset 24
	popq	%rbx
	.cfi_def_cfa_offset 16
	popq	%r14
	.cfi_def_cfa_offset 8
	.cfi_restore %rbx
	.cfi_restore %r14
	retq
.Lfunc_end34:
	.size	"std_alloc::vec::Vec::grow_amortized::<#cb831ce0f1fbfa3d>", .Lfunc_end34-"std_alloc::vec::Vec::grow_amortized::<#cb831ce0f1fbfa3d>"
	.cfi_endproc
	.section	".text.tlsf_heap::region::Region::read::<=4>","ax",@progbits
	.p2align	4
	.type	"tlsf_heap::region::Region::read::<=4>",@function
"tlsf_heap::region::Region::read::<=4>":
	.cfi_startproc
	movl	%esi, %eax
	movl	%edx, %esi
	leaq	(%rsi,%rax,8), %rsi
	addq	$24, %rsi
	orl	%r8d, %edx
	testb	$7, %dl
	je	.LBB35_1
	movq	%rcx, %rdx
	movq	%r8, %rcx
	cmpq	$7, %r8
	jbe	"tlsf_words::words::Words::read_few"
	jmp	"tlsf_words::words::Words::read_run"
.LBB35_1:
	addq	(%rdi), %rsi
	cmpq	$63, %r8
	ja	.LBB35_9
	testb	$8, %r8b
	jne	.LBB35_3
	testb	$16, %r8b
	jne	.LBB35_5
.LBB35_6:
	cmpq	$25, %r8
	jae	.LBB35_7
.LBB35_8:
	retq
.LBB35_9:
	shrq	$3, %r8
	movq	%rsi, %rdi
	movq	%r8, %rsi
	movq	%rcx, %rdx
	jmp	"tlsf_words::cells::unpack_many"
.LBB35_3:
	movq	-8(%rsi,%r8), %rax
	movq	%rax, -8(%rcx,%r8)
	testb	$16, %r8b
	je	.LBB35_6
.LBB35_5:
	movl	%r8d, %eax
	andl	$32, %eax
	movq	(%rsi,%rax), %rdx
	movq	%rdx, (%rcx,%rax)
	movq	8(%rsi,%rax), %rdx
	movq	%rdx, 8(%rcx,%rax)
	cmpq	$25, %r8
	jb	.LBB35_8
.LBB35_7:
	movq	(%rsi), %rax
	movq	%rax, (%rcx)
	movq	8(%rsi), %rax
	movq	%rax, 8(%rcx)
	movq	16(%rsi), %rax
	movq	%rax, 16(%rcx)
	movq	24(%rsi), %rax
	movq	%rax, 24(%rcx)
	retq
.Lfunc_end35:
	.size	"tlsf_heap::region::Region::read::<=4>", .Lfunc_end35-"tlsf_heap::region::Region::read::<=4>"
	.cfi_endproc
	.section	".text.tlsf_words::cells::unpack_many","ax",@progbits
	.p2align	4
	.type	"tlsf_words::cells::unpack_many",@function
"tlsf_words::cells::unpack_many":
	.cfi_startproc
	movq	%rsi, %rax
	andq	$-4, %rax
	leaq	(%rdx,%rax,8), %rcx
	leaq	(%rdi,%rax,8), %r8
	testb	$1, %sil
	jne	.LBB36_1
	testb	$2, %sil
	jne	.LBB36_3
.LBB36_4:
	movq	%rdx, %rcx
	subq	%rdi, %rcx
	cmpq	$32, %rcx
	jae	.LBB36_5
.LBB36_7:
	xorl	%ecx, %ecx
	.p2align	4
.LBB36_8:
	movq	(%rdi,%rcx,8), %rsi
	movq	%rsi, (%rdx,%rcx,8)
	movq	8(%rdi,%rcx,8), %rsi
	movq	%rsi, 8(%rdx,%rcx,8)
	movq	16(%rdi,%rcx,8), %rsi
	movq	%rsi, 16(%rdx,%rcx,8)
	movq	24(%rdi,%rcx,8), %rsi
	movq	%rsi, 24(%rdx,%rcx,8)
	addq	$4, %rcx
	cmpq	%rcx, %rax
	jne	.LBB36_8
	jmp	.LBB36_9
.LBB36_1:
	movl	%esi, %r9d
	andl	$3, %r9d
	movq	-8(%r8,%r9,8), %r10
	movq	%r10, -8(%rcx,%r9,8)
	testb	$2, %sil
	je	.LBB36_4
.LBB36_3:
	movq	(%r8), %rsi
	movq	%rsi, (%rcx)
	movq	8(%r8), %rsi
	movq	%rsi, 8(%rcx)
	movq	%rdx, %rcx
	subq	%rdi, %rcx
	cmpq	$32, %rcx
	jb	.LBB36_7
.LBB36_5:
	xorl	%ecx, %ecx
	.p2align	4
.LBB36_6:
	movups	(%rdi,%rcx,8), %xmm0
	movups	16(%rdi,%rcx,8), %xmm1
	movups	%xmm0, (%rdx,%rcx,8)
	movups	%xmm1, 16(%rdx,%rcx,8)
	addq	$4, %rcx
	cmpq	%rcx, %rax
	jne	.LBB36_6
.LBB36_9:
	retq
.Lfunc_end36:
	.size	"tlsf_words::cells::unpack_many", .Lfunc_end36-"tlsf_words::cells::unpack_many"
	.cfi_endproc
	.section	".text.tlsf_words::words::Words::read_few","ax",@progbits
	.p2align	4
	.type	"tlsf_words::words::Words::read_few",@function
"tlsf_words::words::Words::read_few":
	.cfi_startproc
	pushq	%rbp
	.cfi_def_cfa_offset 16
	pushq	%r15
	.cfi_def_cfa_offset 24
	pushq	%r14
	.cfi_def_cfa_offset 32
	pushq	%r13
	.cfi_def_cfa_offset 40
	pushq	%r12
	.cfi_def_cfa_offset 48
	pushq	%rbx
	.cfi_def_cfa_offset 56
	pushq	%rax
	.cfi_def_cfa_offset 64
	.cfi_offset %rbx, -56
	.cfi_offset %r12, -48
	.cfi_offset %r13, -40
	.cfi_offset %r14, -32
	.cfi_offset %r15, -24
	.cfi_offset %rbp, -16
	movq	%rcx, %rbx
	movq	%rdx, %r14
	movl	%esi, %eax
	andl	$7, %eax
	movl	$8, %ebp
	subq	%rax, %rbp
	cmpq	%rcx, %rbp
	movq	%rcx, %r15
	cmovbq	%rbp, %r15
	movq	%rdi, %r12
	movabsq	$68719476728, %r13
	andq	%rsi, %r13
	testq	%rcx, %rcx
	je	.LBB37_2
	movq	(%r12), %rcx
	movq	(%rcx,%r13), %rcx
	movq	%rcx, (%rsp)
	leaq	(%rsp,%rax), %rsi
	movq	%r14, %rdi
	movq	%r15, %rdx
	callq	tlsf_memory_cpy@PLT
.LBB37_2:
	cmpq	%rbp, %rbx
	jbe	.LBB37_4
	subq	%r15, %rbx
	addq	%r15, %r14
	movq	(%r12), %rax
	movq	8(%rax,%r13), %rax
	movq	%rax, (%rsp)
	movq	%rsp, %rsi
	movq	%r14, %rdi
	movq	%rbx, %rdx
	callq	tlsf_memory_cpy@PLT
.LBB37_4:
	addq	$8, %rsp
	.cfi_def_cfa_offset 56
	popq	%rbx
	.cfi_def_cfa_offset 48
	popq	%r12
	.cfi_def_cfa_offset 40
	popq	%r13
	.cfi_def_cfa_offset 32
	popq	%r14
	.cfi_def_cfa_offset 24
	popq	%r15
	.cfi_def_cfa_offset 16
	popq	%rbp
	.cfi_def_cfa_offset 8
	retq
.Lfunc_end37:
	.size	"tlsf_words::words::Words::read_few", .Lfunc_end37-"tlsf_words::words::Words::read_few"
	.cfi_endproc
	.section	".text.tlsf_words::words::Words::read_run","ax",@progbits
	.p2align	4
	.type	"tlsf_words::words::Words::read_run",@function
"tlsf_words::words::Words::read_run":
	.cfi_startproc
	pushq	%r14
	.cfi_def_cfa_offset 16
	pushq	%rbx
	.cfi_def_cfa_offset 24
	.cfi_offset %rbx, -24
	.cfi_offset %r14, -16
	movq	%rcx, %r8
	movl	%esi, %r10d
	negl	%r10d
	andl	$7, %r10d
	movq	%rcx, %rax
	subq	%r10, %rax
	movq	%rax, %r11
	andq	$-8, %r11
	leaq	(%r11,%r10), %r9
	movq	%rsi, %rcx
	andq	$7, %rcx
	je	.LBB38_2
	movabsq	$68719476728, %rbx
	andq	%rsi, %rbx
	movq	(%rdi), %r14
	movq	(%r14,%rbx), %rbx
	shll	$3, %ecx
	shrq	%cl, %rbx
	movq	%rbx, (%rdx)
.LBB38_2:
	addq	$7, %rsi
	cmpq	%r8, %r9
	je	.LBB38_4
	subl	%r8d, %r9d
	movq	(%rdi), %rcx
	addq	%rsi, %r11
	andq	$-8, %r11
	movq	(%rcx,%r11), %r11
	shll	$3, %r9d
	movq	$-1, %rbx
	movl	%r9d, %ecx
	shlq	%cl, %rbx
	notq	%rbx
	shlq	%cl, %r11
	andq	-8(%rdx,%r8), %rbx
	addq	%rbx, %r11
	movq	%r11, -8(%rdx,%r8)
.LBB38_4:
	addq	%r10, %rdx
	movabsq	$137438953464, %rcx
	andq	%rcx, %rsi
	addq	(%rdi), %rsi
	cmpq	$63, %rax
	ja	.LBB38_12
	testb	$8, %al
	jne	.LBB38_6
	testb	$16, %al
	jne	.LBB38_8
.LBB38_9:
	cmpq	$32, %rax
	jae	.LBB38_10
.LBB38_11:
	popq	%rbx
	.cfi_def_cfa_offset 16
	popq	%r14
	.cfi_def_cfa_offset 8
	retq
.LBB38_12:
	.cfi_def_cfa_offset 24
	shrq	$3, %rax
	movq	%rsi, %rdi
	movq	%rax, %rsi
	popq	%rbx
	.cfi_def_cfa_offset 16
	popq	%r14
	.cfi_def_cfa_offset 8
	jmp	"tlsf_words::cells::unpack_many"
.LBB38_6:
	.cfi_def_cfa_offset 24
	movl	%eax, %ecx
	andl	$56, %ecx
	movq	-8(%rsi,%rcx), %rdi
	movq	%rdi, -8(%rdx,%rcx)
	testb	$16, %al
	je	.LBB38_9
.LBB38_8:
	movl	%eax, %ecx
	andl	$32, %ecx
	movq	(%rsi,%rcx), %rdi
	movq	%rdi, (%rdx,%rcx)
	movq	8(%rsi,%rcx), %rdi
	movq	%rdi, 8(%rdx,%rcx)
	cmpq	$32, %rax
	jb	.LBB38_11
.LBB38_10:
	movq	(%rsi), %rax
	movq	%rax, (%rdx)
	movq	8(%rsi), %rax
	movq	%rax, 8(%rdx)
	movq	16(%rsi), %rax
	movq	%rax, 16(%rdx)
	movq	24(%rsi), %rax
	movq	%rax, 24(%rdx)
	popq	%rbx
	.cfi_def_cfa_offset 16
	popq	%r14
	.cfi_def_cfa_offset 8
	retq
.Lfunc_end38:
	.size	"tlsf_words::words::Words::read_run", .Lfunc_end38-"tlsf_words::words::Words::read_run"
	.cfi_endproc
	.section	".text.tlsf_heap::region::Region::read::<=5>","ax",@progbits
	.p2align	4
	.type	"tlsf_heap::region::Region::read::<=5>",@function
"tlsf_heap::region::Region::read::<=5>":
	.cfi_startproc
	movl	%esi, %eax
	movl	%edx, %esi
	leaq	(%rsi,%rax,8), %rsi
	addq	$24, %rsi
	orl	%r8d, %edx
	testb	$7, %dl
	je	.LBB39_1
	movq	%rcx, %rdx
	movq	%r8, %rcx
	cmpq	$7, %r8
	jbe	"tlsf_words::words::Words::read_few"
	jmp	"tlsf_words::words::Words::read_run"
.LBB39_1:
	addq	(%rdi), %rsi
	cmpq	$63, %r8
	ja	.LBB39_9
	testb	$8, %r8b
	jne	.LBB39_3
	testb	$16, %r8b
	jne	.LBB39_5
.LBB39_6:
	cmpq	$25, %r8
	jae	.LBB39_7
.LBB39_8:
	retq
.LBB39_9:
	shrq	$3, %r8
	movq	%rsi, %rdi
	movq	%r8, %rsi
	movq	%rcx, %rdx
	jmp	"tlsf_words::cells::unpack_many"
.LBB39_3:
	movq	-8(%rsi,%r8), %rax
	movq	%rax, -8(%rcx,%r8)
	testb	$16, %r8b
	je	.LBB39_6
.LBB39_5:
	movl	%r8d, %eax
	andl	$32, %eax
	movq	(%rsi,%rax), %rdx
	movq	%rdx, (%rcx,%rax)
	movq	8(%rsi,%rax), %rdx
	movq	%rdx, 8(%rcx,%rax)
	cmpq	$25, %r8
	jb	.LBB39_8
.LBB39_7:
	movq	(%rsi), %rax
	movq	%rax, (%rcx)
	movq	8(%rsi), %rax
	movq	%rax, 8(%rcx)
	movq	16(%rsi), %rax
	movq	%rax, 16(%rcx)
	movq	24(%rsi), %rax
	movq	%rax, 24(%rcx)
	retq
.Lfunc_end39:
	.size	"tlsf_heap::region::Region::read::<=5>", .Lfunc_end39-"tlsf_heap::region::Region::read::<=5>"
	.cfi_endproc
	.section	".text.tlsf_c::queue_end::take_once","ax",@progbits
	.p2align	4
	.type	"tlsf_c::queue_end::take_once",@function
"tlsf_c::queue_end::take_once":
	.cfi_startproc
	pushq	%rax
	.cfi_def_cfa_offset 16
	xorps	%xmm0, %xmm0
	movaps	%xmm0, -128(%rsp)
	movaps	%xmm0, -64(%rsp)
	movq	(%rsi), %rdx
	movaps	%xmm0, -32(%rsp)
	movaps	%xmm0, -48(%rsp)
	movaps	%xmm0, -16(%rsp)
	movq	8(%rdx), %rax
	movq	256(%rax), %rcx
	movq	8(%rdx), %rax
	movq	80(%rdx), %r8
	decq	%r8
	andq	%rcx, %r8
	movq	384(%rax,%r8,8), %r9
	movq	%rcx, %rax
	shrq	$62, %rax
	cmpl	$2, %eax
	ja	.LBB40_2
	leaq	1(%rcx), %rax
	cmpq	%rax, %r9
	jne	.LBB40_2
	movaps	%xmm0, -96(%rsp)
	movq	$0, -80(%rsp)
	movaps	%xmm0, -112(%rsp)
	leaq	1(%r8), %rax
	cmpq	72(%rdx), %rax
	jb	.LBB40_6
	movq	%rcx, %r9
	subq	%r8, %r9
	addq	80(%rdx), %r9
.LBB40_6:
	movq	8(%rdx), %r10
	movq	%rcx, %rax
	lock		cmpxchgq	%r9, 256(%r10)
	jne	.LBB40_3
	movq	16(%rdx), %rsi
	movq	%r8, %r9
	shlq	$5, %r9
	movzbl	(%rsi,%r9), %r10d
	movq	8(%rsi,%r9), %rax
	movups	16(%rsi,%r9), %xmm0
	movaps	%xmm0, -112(%rsp)
	movq	$0, (%rsi,%r9)
	movaps	-96(%rsp), %xmm0
	movups	%xmm0, 8(%rsi,%r9)
	movq	-80(%rsp), %r11
	movq	%r11, 24(%rsi,%r9)
	addq	80(%rdx), %rcx
	movq	8(%rdx), %rdx
	xchgq	%rcx, 384(%rdx,%r8,8)
	cmpb	$1, %r10b
	jne	.LBB40_10
	movaps	-112(%rsp), %xmm0
	movaps	%xmm0, -128(%rsp)
	movw	$0, (%rdi)
	movq	%rax, 8(%rdi)
	movaps	-128(%rsp), %xmm0
	movups	%xmm0, 16(%rdi)
	popq	%rax
	.cfi_def_cfa_offset 8
	retq
.LBB40_2:
	.cfi_def_cfa_offset 16
	movaps	-48(%rsp), %xmm0
.LBB40_3:
	movaps	%xmm0, -128(%rsp)
	movq	(%rsi), %rax
	movq	8(%rax), %rcx
	movq	256(%rcx), %rcx
	movq	8(%rax), %rax
	movq	128(%rax), %rax
	cmpq	%rcx, %rax
	sete	%al
	xorb	$9, %al
	movb	$1, (%rdi)
	movb	%al, 1(%rdi)
	movq	$0, 8(%rdi)
	movaps	-64(%rsp), %xmm0
	movups	%xmm0, 16(%rdi)
	popq	%rax
	.cfi_def_cfa_offset 8
	retq
.LBB40_10:
	.cfi_def_cfa_offset 16
	ud2
.Lfunc_end40:
	.size	"tlsf_c::queue_end::take_once", .Lfunc_end40-"tlsf_c::queue_end::take_once"
	.cfi_endproc
	.section	".text.unlikely.std_alloc::vec::Vec::grow_amortized::<#94730218a1e37034>","ax",@progbits
	.p2align	4
	.type	"std_alloc::vec::Vec::grow_amortized::<#94730218a1e37034>",@function
"std_alloc::vec::Vec::grow_amortized::<#94730218a1e37034>":
	.cfi_startproc
	movq	8(%rdi), %rsi
	cmpq	$-1, %rsi
	je	.LBB41_5
	pushq	%r14
	.cfi_def_cfa_offset 16
	pushq	%rbx
	.cfi_def_cfa_offset 24
	pushq	%rax
	.cfi_def_cfa_offset 32
	.cfi_offset %rbx, -24
	.cfi_offset %r14, -16
	movq	16(%rdi), %rcx
	cmpq	$4, %rsi
	movl	$3, %ebx
	cmovaeq	%rsi, %rbx
	incq	%rbx
	movq	%rcx, %rdx
	shrq	$62, %rdx
	leaq	(%rcx,%rcx), %rax
	cmpq	%rax, %rbx
	cmovaq	%rbx, %rax
	testq	%rdx, %rdx
	cmoveq	%rax, %rbx
	movq	%rbx, %rdx
	shrq	$58, %rdx
	jne	.LBB41_6
	testq	%rcx, %rcx
	je	.LBB41_8
	movq	%rdi, %r14
	movq	(%rdi), %rdi
	shlq	$5, %rsi
	movq	%rbx, %rdx
	shlq	$5, %rdx
	movl	$8, %ecx
	callq	tlsf_memory_realloc@PLT
	testb	$1, %al
	je	.LBB41_6
.LBB41_9:
	movq	%rdx, (%r14)
	movq	%rbx, 16(%r14)
	movb	$1, %al
	addq	$8, %rsp
	.cfi_def_cfa_offset 24
	popq	%rbx
	.cfi_def_cfa_offset 16
	popq	%r14
	.cfi_def_cfa_offset 8
	.cfi_restore %rbx
	.cfi_restore %r14
	retq
.LBB41_5:
	xorl	%eax, %eax
	retq
.LBB41_8:
	.cfi_def_cfa_offset 32
	.cfi_offset %rbx, -24
	.cfi_offset %r14, -16
	movq	%rdi, %r14
	shlq	$5, %rax
	movl	$8, %esi
	movq	%rax, %rdi
	callq	tlsf_memory_alloc@PLT
	testb	$1, %al
	jne	.LBB41_9
.LBB41_6:
	xorl	%eax, %eax
	addq	$8, %rsp
	.cfi_def_cfa_offset 24
	popq	%rbx
	.cfi_def_cfa_offset 16
	popq	%r14
	.cfi_def_cfa_offset 8
	.cfi_restore %rbx
	.cfi_restore %r14
	retq
.Lfunc_end41:
	.size	"std_alloc::vec::Vec::grow_amortized::<#94730218a1e37034>", .Lfunc_end41-"std_alloc::vec::Vec::grow_amortized::<#94730218a1e37034>"
	.cfi_endproc
	.section	".text.tlsf_post::mailboxes::send_out","ax",@progbits
	.p2align	4
	.type	"tlsf_post::mailboxes::send_out",@function
"tlsf_post::mailboxes::send_out":
	.cfi_startproc
	cmpl	%edx, %esi
	jae	.LBB42_1
	.p2align	4
.LBB42_3:
	movq	(%rdi), %rax
	movabsq	$9223372036854775806, %r8
	cmpq	%r8, %rax
	ja	.LBB42_4
	leaq	1(%rax), %r8
	lock		cmpxchgq	%r8, (%rdi)
	jne	.LBB42_3
	movq	8(%rdi), %rax
	movq	(%rax), %rax
	movq	(%rcx), %rax
	movq	8(%rcx), %r8
	movq	%r8, %r9
	shlq	$4, %r9
	movq	%rdi, (%rax,%r9)
	movl	%esi, 8(%rax,%r9)
	movl	$0, 12(%rax,%r9)
	incq	%r8
	movq	%r8, 8(%rcx)
	incl	%esi
	xorl	%eax, %eax
	cmpl	%edx, %esi
	jne	.LBB42_3
	jmp	.LBB42_2
.LBB42_1:
	xorl	%eax, %eax
.LBB42_2:
	retq
.LBB42_4:
	movb	$1, %al
	retq
.Lfunc_end42:
	.size	"tlsf_post::mailboxes::send_out", .Lfunc_end42-"tlsf_post::mailboxes::send_out"
	.cfi_endproc
	.section	".text.std_alloc::arc::Arc::drop::<#f29941b0e8355977>","ax",@progbits
	.p2align	4
	.type	"std_alloc::arc::Arc::drop::<#f29941b0e8355977>",@function
"std_alloc::arc::Arc::drop::<#f29941b0e8355977>":
	.cfi_startproc
	lock		decq	(%rdi)
	jne	.LBB43_1
	pushq	%r14
	.cfi_def_cfa_offset 16
	pushq	%rbx
	.cfi_def_cfa_offset 24
	pushq	%rax
	.cfi_def_cfa_offset 32
	.cfi_offset %rbx, -24
	.cfi_offset %r14, -16
	movq	40(%rdi), %rbx
	movq	56(%rdi), %r14
	callq	tlsf_memory_dealloc@PLT
	movq	%rbx, %rdi
	callq	tlsf_memory_dealloc@PLT
	movq	%r14, %rdi
	addq	$8, %rsp
	.cfi_def_cfa_offset 24
	popq	%rbx
	.cfi_def_cfa_offset 16
	popq	%r14
	.cfi_def_cfa_offset 8
	jmp	tlsf_memory_dealloc@PLT
.LBB43_1:
	.cfi_restore %rbx
	.cfi_restore %r14
	retq
.Lfunc_end43:
	.size	"std_alloc::arc::Arc::drop::<#f29941b0e8355977>", .Lfunc_end43-"std_alloc::arc::Arc::drop::<#f29941b0e8355977>"
	.cfi_endproc
	.section	".text.std_alloc::vec::Vec::drop::<#05316b64237a7125>","ax",@progbits
	.p2align	4
	.type	"std_alloc::vec::Vec::drop::<#05316b64237a7125>",@function
"std_alloc::vec::Vec::drop::<#05316b64237a7125>":
	.cfi_startproc
	pushq	%rbp
	.cfi_def_cfa_offset 16
	pushq	%r15
	.cfi_def_cfa_offset 24
	pushq	%r14
	.cfi_def_cfa_offset 32
	pushq	%r13
	.cfi_def_cfa_offset 40
	pushq	%r12
	.cfi_def_cfa_offset 48
	pushq	%rbx
	.cfi_def_cfa_offset 56
	pushq	%rax
	.cfi_def_cfa_offset 64
	.cfi_offset %rbx, -56
	.cfi_offset %r12, -48
	.cfi_offset %r13, -40
	.cfi_offset %r14, -32
	.cfi_offset %r15, -24
	.cfi_offset %rbp, -16
	movq	(%rdi), %rbx
	movq	8(%rdi), %r13
	movq	16(%rdi), %r12
	testq	%r13, %r13
	je	.LBB44_5
	movq	%rbx, %rbp
	jmp	.LBB44_2
	.p2align	4
.LBB44_4:
	addq	$16, %rbp
	decq	%r13
	je	.LBB44_5
.LBB44_2:
	movq	(%rbp), %rdi
	lock		decq	(%rdi)
	jne	.LBB44_4
	movq	40(%rdi), %r14
	movq	56(%rdi), %r15
	callq	tlsf_memory_dealloc@PLT
	movq	%r14, %rdi
	callq	tlsf_memory_dealloc@PLT
	movq	%r15, %rdi
	callq	tlsf_memory_dealloc@PLT
	jmp	.LBB44_4
.LBB44_5:
	testq	%r12, %r12
	je	.LBB44_6
	movq	%rbx, %rdi
	addq	$8, %rsp
	.cfi_def_cfa_offset 56
	popq	%rbx
	.cfi_def_cfa_offset 48
	popq	%r12
	.cfi_def_cfa_offset 40
	popq	%r13
	.cfi_def_cfa_offset 32
	popq	%r14
	.cfi_def_cfa_offset 24
	popq	%r15
	.cfi_def_cfa_offset 16
	popq	%rbp
	.cfi_def_cfa_offset 8
	jmp	tlsf_memory_dealloc@PLT
.LBB44_6:
	.cfi_def_cfa_offset 64
	addq	$8, %rsp
	.cfi_def_cfa_offset 56
	popq	%rbx
	.cfi_def_cfa_offset 48
	popq	%r12
	.cfi_def_cfa_offset 40
	popq	%r13
	.cfi_def_cfa_offset 32
	popq	%r14
	.cfi_def_cfa_offset 24
	popq	%r15
	.cfi_def_cfa_offset 16
	popq	%rbp
	.cfi_def_cfa_offset 8
	retq
.Lfunc_end44:
	.size	"std_alloc::vec::Vec::drop::<#05316b64237a7125>", .Lfunc_end44-"std_alloc::vec::Vec::drop::<#05316b64237a7125>"
	.cfi_endproc
	.section	".text.std_alloc::vec::deque::VecDeque::drop::<#ca3d8856d46a41b8>","ax",@progbits
	.p2align	4
	.type	"std_alloc::vec::deque::VecDeque::drop::<#ca3d8856d46a41b8>",@function
"std_alloc::vec::deque::VecDeque::drop::<#ca3d8856d46a41b8>":
	.cfi_startproc
	pushq	%rbp
	.cfi_def_cfa_offset 16
	pushq	%r15
	.cfi_def_cfa_offset 24
	pushq	%r14
	.cfi_def_cfa_offset 32
	pushq	%r13
	.cfi_def_cfa_offset 40
	pushq	%r12
	.cfi_def_cfa_offset 48
	pushq	%rbx
	.cfi_def_cfa_offset 56
	pushq	%rax
	.cfi_def_cfa_offset 64
	.cfi_offset %rbx, -56
	.cfi_offset %r12, -48
	.cfi_offset %r13, -40
	.cfi_offset %r14, -32
	.cfi_offset %r15, -24
	.cfi_offset %rbp, -16
	movq	(%rdi), %rbx
	movq	8(%rdi), %rbp
	movq	16(%rdi), %rax
	movq	%rax, (%rsp)
	testq	%rbp, %rbp
	je	.LBB45_11
	movq	32(%rdi), %r13
	movq	24(%rdi), %r12
	subq	%r13, %rbp
	leaq	(%r12,%rbp), %rax
	cmpq	%rax, %r12
	jae	.LBB45_6
	shlq	$4, %r12
	addq	%rbx, %r12
	jmp	.LBB45_3
	.p2align	4
.LBB45_5:
	addq	$16, %r12
	decq	%rbp
	je	.LBB45_6
.LBB45_3:
	movq	(%r12), %rdi
	lock		decq	(%rdi)
	jne	.LBB45_5
	movq	40(%rdi), %r14
	movq	56(%rdi), %r15
	callq	tlsf_memory_dealloc@PLT
	movq	%r14, %rdi
	callq	tlsf_memory_dealloc@PLT
	movq	%r15, %rdi
	callq	tlsf_memory_dealloc@PLT
	jmp	.LBB45_5
.LBB45_6:
	testq	%r13, %r13
	je	.LBB45_11
	movq	%rbx, %r12
	jmp	.LBB45_8
	.p2align	4
.LBB45_10:
	addq	$16, %r12
	decq	%r13
	je	.LBB45_11
.LBB45_8:
	movq	(%r12), %rdi
	lock		decq	(%rdi)
	jne	.LBB45_10
	movq	40(%rdi), %r14
	movq	56(%rdi), %r15
	callq	tlsf_memory_dealloc@PLT
	movq	%r14, %rdi
	callq	tlsf_memory_dealloc@PLT
	movq	%r15, %rdi
	callq	tlsf_memory_dealloc@PLT
	jmp	.LBB45_10
.LBB45_11:
	cmpq	$0, (%rsp)
	je	.LBB45_12
	movq	%rbx, %rdi
	addq	$8, %rsp
	.cfi_def_cfa_offset 56
	popq	%rbx
	.cfi_def_cfa_offset 48
	popq	%r12
	.cfi_def_cfa_offset 40
	popq	%r13
	.cfi_def_cfa_offset 32
	popq	%r14
	.cfi_def_cfa_offset 24
	popq	%r15
	.cfi_def_cfa_offset 16
	popq	%rbp
	.cfi_def_cfa_offset 8
	jmp	tlsf_memory_dealloc@PLT
.LBB45_12:
	.cfi_def_cfa_offset 64
	addq	$8, %rsp
	.cfi_def_cfa_offset 56
	popq	%rbx
	.cfi_def_cfa_offset 48
	popq	%r12
	.cfi_def_cfa_offset 40
	popq	%r13
	.cfi_def_cfa_offset 32
	popq	%r14
	.cfi_def_cfa_offset 24
	popq	%r15
	.cfi_def_cfa_offset 16
	popq	%rbp
	.cfi_def_cfa_offset 8
	retq
.Lfunc_end45:
	.size	"std_alloc::vec::deque::VecDeque::drop::<#ca3d8856d46a41b8>", .Lfunc_end45-"std_alloc::vec::deque::VecDeque::drop::<#ca3d8856d46a41b8>"
	.cfi_endproc
	.section	".text.tlsf_words::cells::copy_run","ax",@progbits
	.p2align	4
	.type	"tlsf_words::cells::copy_run",@function
"tlsf_words::cells::copy_run":
	.cfi_startproc
	movq	%rdx, %r9
	movq	%rsi, %r8
	movq	%rdi, %rax
	leaq	(,%rdx,8), %rdi
	leaq	(,%rsi,8), %rsi
	movq	%rdi, %r10
	subq	%rsi, %r10
	leaq	(,%rcx,8), %rdx
	cmpq	%r10, %rdx
	jbe	.LBB46_1
.LBB46_3:
	retq
.LBB46_1:
	leaq	(%rcx,%r8), %r10
	cmpq	%r9, %r10
	jbe	.LBB46_4
	addq	%r9, %rcx
	cmpq	%r8, %rcx
	ja	.LBB46_3
	addq	%rax, %rdi
	addq	%rax, %rsi
	jmp	tlsf_memory_move@PLT
.LBB46_4:
	addq	%rax, %rsi
	addq	%rax, %rdi
	jmp	tlsf_memory_move@PLT
.Lfunc_end46:
	.size	"tlsf_words::cells::copy_run", .Lfunc_end46-"tlsf_words::cells::copy_run"
	.cfi_endproc
	.section	".text.tlsf_heap::region::Region::write::<=4>","ax",@progbits
	.p2align	4
	.type	"tlsf_heap::region::Region::write::<=4>",@function
"tlsf_heap::region::Region::write::<=4>":
	.cfi_startproc
	movl	%esi, %eax
	movl	%edx, %esi
	leaq	(%rsi,%rax,8), %rsi
	addq	$24, %rsi
	orl	%r8d, %edx
	testb	$7, %dl
	je	.LBB47_1
	movq	%rcx, %rdx
	movq	%r8, %rcx
	cmpq	$7, %r8
	jbe	"tlsf_words::words::Words::write_few"
	jmp	"tlsf_words::words::Words::write_run"
.LBB47_1:
	addq	(%rdi), %rsi
	cmpq	$63, %r8
	ja	.LBB47_9
	testb	$8, %r8b
	jne	.LBB47_3
	testb	$16, %r8b
	jne	.LBB47_5
.LBB47_6:
	cmpq	$25, %r8
	jae	.LBB47_7
.LBB47_8:
	retq
.LBB47_9:
	shrq	$3, %r8
	movq	%rsi, %rdi
	movq	%r8, %rsi
	movq	%rcx, %rdx
	jmp	"tlsf_words::cells::pack_many"
.LBB47_3:
	movq	-8(%rcx,%r8), %rax
	movq	%rax, -8(%rsi,%r8)
	testb	$16, %r8b
	je	.LBB47_6
.LBB47_5:
	movl	%r8d, %eax
	andl	$32, %eax
	movq	(%rcx,%rax), %rdx
	movq	%rdx, (%rsi,%rax)
	movq	8(%rcx,%rax), %rdx
	movq	%rdx, 8(%rsi,%rax)
	cmpq	$25, %r8
	jb	.LBB47_8
.LBB47_7:
	movq	(%rcx), %rax
	movq	%rax, (%rsi)
	movq	8(%rcx), %rax
	movq	%rax, 8(%rsi)
	movq	16(%rcx), %rax
	movq	%rax, 16(%rsi)
	movq	24(%rcx), %rax
	movq	%rax, 24(%rsi)
	retq
.Lfunc_end47:
	.size	"tlsf_heap::region::Region::write::<=4>", .Lfunc_end47-"tlsf_heap::region::Region::write::<=4>"
	.cfi_endproc
	.section	".text.tlsf_words::cells::pack_many","ax",@progbits
	.p2align	4
	.type	"tlsf_words::cells::pack_many",@function
"tlsf_words::cells::pack_many":
	.cfi_startproc
	movq	%rsi, %rax
	andq	$-4, %rax
	leaq	(%rdi,%rax,8), %rcx
	leaq	(%rdx,%rax,8), %r8
	testb	$1, %sil
	jne	.LBB48_1
	testb	$2, %sil
	jne	.LBB48_3
.LBB48_4:
	movq	%rdi, %rcx
	subq	%rdx, %rcx
	cmpq	$32, %rcx
	jae	.LBB48_5
.LBB48_7:
	xorl	%ecx, %ecx
	.p2align	4
.LBB48_8:
	movq	(%rdx,%rcx,8), %rsi
	movq	%rsi, (%rdi,%rcx,8)
	movq	8(%rdx,%rcx,8), %rsi
	movq	%rsi, 8(%rdi,%rcx,8)
	movq	16(%rdx,%rcx,8), %rsi
	movq	%rsi, 16(%rdi,%rcx,8)
	movq	24(%rdx,%rcx,8), %rsi
	movq	%rsi, 24(%rdi,%rcx,8)
	addq	$4, %rcx
	cmpq	%rcx, %rax
	jne	.LBB48_8
	jmp	.LBB48_9
.LBB48_1:
	movl	%esi, %r9d
	andl	$3, %r9d
	movq	-8(%r8,%r9,8), %r10
	movq	%r10, -8(%rcx,%r9,8)
	testb	$2, %sil
	je	.LBB48_4
.LBB48_3:
	movq	(%r8), %rsi
	movq	%rsi, (%rcx)
	movq	8(%r8), %rsi
	movq	%rsi, 8(%rcx)
	movq	%rdi, %rcx
	subq	%rdx, %rcx
	cmpq	$32, %rcx
	jb	.LBB48_7
.LBB48_5:
	xorl	%ecx, %ecx
	.p2align	4
.LBB48_6:
	movups	(%rdx,%rcx,8), %xmm0
	movups	16(%rdx,%rcx,8), %xmm1
	movups	%xmm0, (%rdi,%rcx,8)
	movups	%xmm1, 16(%rdi,%rcx,8)
	addq	$4, %rcx
	cmpq	%rcx, %rax
	jne	.LBB48_6
.LBB48_9:
	retq
.Lfunc_end48:
	.size	"tlsf_words::cells::pack_many", .Lfunc_end48-"tlsf_words::cells::pack_many"
	.cfi_endproc
	.section	".text.tlsf_words::words::Words::write_few","ax",@progbits
	.p2align	4
	.type	"tlsf_words::words::Words::write_few",@function
"tlsf_words::words::Words::write_few":
	.cfi_startproc
	pushq	%rbp
	.cfi_def_cfa_offset 16
	pushq	%r15
	.cfi_def_cfa_offset 24
	pushq	%r14
	.cfi_def_cfa_offset 32
	pushq	%r13
	.cfi_def_cfa_offset 40
	pushq	%r12
	.cfi_def_cfa_offset 48
	pushq	%rbx
	.cfi_def_cfa_offset 56
	subq	$24, %rsp
	.cfi_def_cfa_offset 80
	.cfi_offset %rbx, -56
	.cfi_offset %r12, -48
	.cfi_offset %r13, -40
	.cfi_offset %r14, -32
	.cfi_offset %r15, -24
	.cfi_offset %rbp, -16
	movq	%rcx, %rbx
	movq	%rdx, %r14
	movl	%esi, %eax
	andl	$7, %eax
	movl	$8, %ebp
	subq	%rax, %rbp
	cmpq	%rcx, %rbp
	movq	%rcx, %r15
	cmovbq	%rbp, %r15
	movabsq	$68719476728, %r13
	andq	%rsi, %r13
	testq	%rcx, %rcx
	je	.LBB49_2
	movq	(%rdi), %r12
	movq	(%r12,%r13), %rcx
	movq	%rcx, 8(%rsp)
	movq	%rdi, 16(%rsp)
	leaq	(%rsp,%rax), %rdi
	addq	$8, %rdi
	movq	%r14, %rsi
	movq	%r15, %rdx
	callq	tlsf_memory_cpy@PLT
	movq	16(%rsp), %rdi
	movq	8(%rsp), %rax
	movq	%rax, (%r12,%r13)
.LBB49_2:
	cmpq	%rbp, %rbx
	jbe	.LBB49_4
	subq	%r15, %rbx
	addq	%r15, %r14
	movq	(%rdi), %r15
	movq	8(%r15,%r13), %rax
	movq	%rax, 8(%rsp)
	leaq	8(%rsp), %rdi
	movq	%r14, %rsi
	movq	%rbx, %rdx
	callq	tlsf_memory_cpy@PLT
	movq	8(%rsp), %rax
	movq	%rax, 8(%r15,%r13)
.LBB49_4:
	addq	$24, %rsp
	.cfi_def_cfa_offset 56
	popq	%rbx
	.cfi_def_cfa_offset 48
	popq	%r12
	.cfi_def_cfa_offset 40
	popq	%r13
	.cfi_def_cfa_offset 32
	popq	%r14
	.cfi_def_cfa_offset 24
	popq	%r15
	.cfi_def_cfa_offset 16
	popq	%rbp
	.cfi_def_cfa_offset 8
	retq
.Lfunc_end49:
	.size	"tlsf_words::words::Words::write_few", .Lfunc_end49-"tlsf_words::words::Words::write_few"
	.cfi_endproc
	.section	".text.tlsf_words::words::Words::write_run","ax",@progbits
	.p2align	4
	.type	"tlsf_words::words::Words::write_run",@function
"tlsf_words::words::Words::write_run":
	.cfi_startproc
	pushq	%r15
	.cfi_def_cfa_offset 16
	pushq	%r14
	.cfi_def_cfa_offset 24
	pushq	%r12
	.cfi_def_cfa_offset 32
	pushq	%rbx
	.cfi_def_cfa_offset 40
	.cfi_offset %rbx, -40
	.cfi_offset %r12, -32
	.cfi_offset %r14, -24
	.cfi_offset %r15, -16
	movq	%rcx, %r8
	movl	%esi, %r10d
	negl	%r10d
	andl	$7, %r10d
	movq	%rcx, %rax
	subq	%r10, %rax
	movq	%rax, %r11
	andq	$-8, %r11
	leaq	(%r11,%r10), %rbx
	movq	%rsi, %rcx
	andq	$7, %rcx
	je	.LBB50_2
	movabsq	$68719476728, %r9
	andq	%rsi, %r9
	movq	(%rdi), %r14
	movq	(%rdx), %r15
	shll	$3, %ecx
	movq	$-1, %r12
	shlq	%cl, %r12
	notq	%r12
	shlq	%cl, %r15
	andq	(%r14,%r9), %r12
	addq	%r12, %r15
	movq	%r15, (%r14,%r9)
.LBB50_2:
	addq	$7, %rsi
	cmpq	%rbx, %r8
	je	.LBB50_4
	movl	%r8d, %r9d
	subl	%ebx, %r9d
	movq	-8(%rdx,%r8), %r8
	shll	$3, %r9d
	movl	%r9d, %ecx
	negb	%cl
	shrq	%cl, %r8
	movq	(%rdi), %rbx
	addq	%rsi, %r11
	andq	$-8, %r11
	movq	(%rbx,%r11), %r14
	xorq	%r8, %r14
	movl	%r9d, %ecx
	shrq	%cl, %r14
	shlq	%cl, %r14
	xorq	%r8, %r14
	movq	%r14, (%rbx,%r11)
.LBB50_4:
	addq	%r10, %rdx
	movabsq	$137438953464, %rcx
	andq	%rcx, %rsi
	addq	(%rdi), %rsi
	cmpq	$63, %rax
	ja	.LBB50_12
	testb	$8, %al
	jne	.LBB50_6
	testb	$16, %al
	jne	.LBB50_8
.LBB50_9:
	cmpq	$32, %rax
	jb	.LBB50_11
.LBB50_10:
	movq	(%rdx), %rax
	movq	%rax, (%rsi)
	movq	8(%rdx), %rax
	movq	%rax, 8(%rsi)
	movq	16(%rdx), %rax
	movq	%rax, 16(%rsi)
	movq	24(%rdx), %rax
	movq	%rax, 24(%rsi)
.LBB50_11:
	popq	%rbx
	.cfi_def_cfa_offset 32
	popq	%r12
	.cfi_def_cfa_offset 24
	popq	%r14
	.cfi_def_cfa_offset 16
	popq	%r15
	.cfi_def_cfa_offset 8
	retq
.LBB50_12:
	.cfi_def_cfa_offset 40
	shrq	$3, %rax
	movq	%rsi, %rdi
	movq	%rax, %rsi
	popq	%rbx
	.cfi_def_cfa_offset 32
	popq	%r12
	.cfi_def_cfa_offset 24
	popq	%r14
	.cfi_def_cfa_offset 16
	popq	%r15
	.cfi_def_cfa_offset 8
	jmp	"tlsf_words::cells::pack_many"
.LBB50_6:
	.cfi_def_cfa_offset 40
	movl	%eax, %ecx
	andl	$56, %ecx
	movq	-8(%rdx,%rcx), %rdi
	movq	%rdi, -8(%rsi,%rcx)
	testb	$16, %al
	je	.LBB50_9
.LBB50_8:
	movl	%eax, %ecx
	andl	$32, %ecx
	movq	(%rdx,%rcx), %rdi
	movq	%rdi, (%rsi,%rcx)
	movq	8(%rdx,%rcx), %rdi
	movq	%rdi, 8(%rsi,%rcx)
	cmpq	$32, %rax
	jae	.LBB50_10
	jmp	.LBB50_11
.Lfunc_end50:
	.size	"tlsf_words::words::Words::write_run", .Lfunc_end50-"tlsf_words::words::Words::write_run"
	.cfi_endproc
	.section	".text.tlsf_heap::region::Region::write::<=5>","ax",@progbits
	.p2align	4
	.type	"tlsf_heap::region::Region::write::<=5>",@function
"tlsf_heap::region::Region::write::<=5>":
	.cfi_startproc
	movl	%esi, %eax
	movl	%edx, %esi
	leaq	(%rsi,%rax,8), %rsi
	addq	$24, %rsi
	orl	%r8d, %edx
	testb	$7, %dl
	je	.LBB51_1
	movq	%rcx, %rdx
	movq	%r8, %rcx
	cmpq	$7, %r8
	jbe	"tlsf_words::words::Words::write_few"
	jmp	"tlsf_words::words::Words::write_run"
.LBB51_1:
	addq	(%rdi), %rsi
	cmpq	$63, %r8
	ja	.LBB51_9
	testb	$8, %r8b
	jne	.LBB51_3
	testb	$16, %r8b
	jne	.LBB51_5
.LBB51_6:
	cmpq	$25, %r8
	jae	.LBB51_7
.LBB51_8:
	retq
.LBB51_9:
	shrq	$3, %r8
	movq	%rsi, %rdi
	movq	%r8, %rsi
	movq	%rcx, %rdx
	jmp	"tlsf_words::cells::pack_many"
.LBB51_3:
	movq	-8(%rcx,%r8), %rax
	movq	%rax, -8(%rsi,%r8)
	testb	$16, %r8b
	je	.LBB51_6
.LBB51_5:
	movl	%r8d, %eax
	andl	$32, %eax
	movq	(%rcx,%rax), %rdx
	movq	%rdx, (%rsi,%rax)
	movq	8(%rcx,%rax), %rdx
	movq	%rdx, 8(%rsi,%rax)
	cmpq	$25, %r8
	jb	.LBB51_8
.LBB51_7:
	movq	(%rcx), %rax
	movq	%rax, (%rsi)
	movq	8(%rcx), %rax
	movq	%rax, 8(%rsi)
	movq	16(%rcx), %rax
	movq	%rax, 16(%rsi)
	movq	24(%rcx), %rax
	movq	%rax, 24(%rsi)
	retq
.Lfunc_end51:
	.size	"tlsf_heap::region::Region::write::<=5>", .Lfunc_end51-"tlsf_heap::region::Region::write::<=5>"
	.cfi_endproc
	.section	.text.tlsf_allocate,"ax",@progbits
	.globl	tlsf_allocate
	.p2align	4
	.type	tlsf_allocate,@function
tlsf_allocate:
	.cfi_startproc
	pushq	%r15
	.cfi_def_cfa_offset 16
	pushq	%r14
	.cfi_def_cfa_offset 24
	pushq	%r12
	.cfi_def_cfa_offset 32
	pushq	%rbx
	.cfi_def_cfa_offset 40
	pushq	%rax
	.cfi_def_cfa_offset 48
	.cfi_offset %rbx, -40
	.cfi_offset %r12, -32
	.cfi_offset %r14, -24
	.cfi_offset %r15, -16
	cmpb	$0, 8(%rdi)
	je	.LBB52_15
	movq	(%rdi), %rbx
	cmpb	$0, (%rbx)
	je	.LBB52_15
	movl	$4294967295, %r10d
	cmpq	%r10, %rsi
	cmovbq	%rsi, %r10
	movb	$0, (%rbx)
	cmpq	$1, %rsi
	movq	%r10, %rax
	adcq	$31, %rax
	movq	%rax, %r9
	shrq	$3, %r9
	cmpb	$0, 16(%rbx)
	je	.LBB52_8
	cmpq	$134217735, %rax
	ja	.LBB52_9
	movl	%r9d, %eax
	orl	$32, %eax
	bsrl	%eax, %eax
	addl	$-5, %eax
	leal	-1(%r9), %r8d
	movl	%eax, %ecx
	shrl	%cl, %r8d
	shll	$5, %eax
	addl	%r8d, %eax
	movl	%eax, %esi
	shrl	$5, %esi
	movl	108(%rbx,%rsi,4), %r11d
	movl	%r8d, %ecx
	shrl	%cl, %r11d
	andl	$-2, %r11d
	je	.LBB52_16
	rep		bsfl	%r11d, %ecx
	addq	%rax, %rcx
	movq	32(%rbx), %r8
	cmpq	$-1, %r8
	jne	.LBB52_6
	jmp	.LBB52_21
.LBB52_8:
	cmpq	$8388615, %rax
	jbe	.LBB52_11
.LBB52_9:
	movl	8(%rbx), %eax
	movl	12(%rbx), %ecx
	incl	%eax
	movl	$-1, %edx
	cmovnel	%eax, %edx
	cmpl	%ecx, %r10d
	cmoval	%r10d, %ecx
	movl	%edx, 8(%rbx)
	movl	%ecx, 12(%rbx)
	movl	$1, %eax
	jmp	.LBB52_10
.LBB52_11:
	movl	%r9d, %eax
	orl	$16, %eax
	bsrl	%eax, %eax
	addl	$-4, %eax
	leal	-1(%r9), %r8d
	movl	%eax, %ecx
	shrl	%cl, %r8d
	shll	$4, %eax
	addl	%r8d, %eax
	movl	%eax, %esi
	shrl	$4, %esi
	movl	108(%rbx,%rsi,4), %r11d
	andb	$15, %r8b
	movl	%r8d, %ecx
	shrl	%cl, %r11d
	andl	$-2, %r11d
	je	.LBB52_19
	rep		bsfl	%r11d, %ecx
	addq	%rax, %rcx
	movq	32(%rbx), %r8
	cmpq	$-1, %r8
	jne	.LBB52_13
	jmp	.LBB52_21
.LBB52_15:
	xorl	%edi, %edi
	addq	$8, %rsp
	.cfi_def_cfa_offset 40
	popq	%rbx
	.cfi_def_cfa_offset 32
	popq	%r12
	.cfi_def_cfa_offset 24
	popq	%r14
	.cfi_def_cfa_offset 16
	popq	%r15
	.cfi_def_cfa_offset 8
	jmp	"tlsf_c::call_fault::CallFault::refusal"
.LBB52_16:
	.cfi_def_cfa_offset 48
	movl	$-2, %eax
	movl	%esi, %ecx
	shll	%cl, %eax
	andl	104(%rbx), %eax
	je	.LBB52_9
	rep		bsfl	%eax, %ecx
	movl	$32, %eax
	rep		bsfl	108(%rbx,%rcx,4), %eax
	shll	$5, %ecx
	addl	%eax, %ecx
	movq	32(%rbx), %r8
	cmpq	$-1, %r8
	je	.LBB52_21
.LBB52_6:
	movq	48(%rbx), %r14
	movl	192(%rbx,%rcx,4), %eax
	movq	16(%r14,%rax,8), %rsi
	cmpl	$-1, %esi
	je	.LBB52_22
	movl	%esi, %r11d
	movl	$-1, 20(%r14,%r11,8)
	movl	%esi, 192(%rbx,%rcx,4)
	movq	48(%rbx), %r14
	jmp	.LBB52_24
.LBB52_19:
	movl	$-2, %eax
	movl	%esi, %ecx
	shll	%cl, %eax
	andl	104(%rbx), %eax
	je	.LBB52_9
	rep		bsfl	%eax, %ecx
	movl	$32, %eax
	rep		bsfl	108(%rbx,%rcx,4), %eax
	shll	$4, %ecx
	addl	%eax, %ecx
	movq	32(%rbx), %r8
	cmpq	$-1, %r8
	je	.LBB52_21
.LBB52_13:
	movq	48(%rbx), %r14
	movl	192(%rbx,%rcx,4), %eax
	movq	16(%r14,%rax,8), %rsi
	cmpl	$-1, %esi
	je	.LBB52_29
	movl	%esi, %r11d
	movl	$-1, 20(%r14,%r11,8)
	movl	%esi, 192(%rbx,%rcx,4)
	movq	48(%rbx), %r14
	jmp	.LBB52_31
.LBB52_21:
	movl	$2, %eax
.LBB52_10:
	movb	$1, (%rbx)
	jmp	.LBB52_47
.LBB52_22:
	movl	$-1, 192(%rbx,%rcx,4)
	movq	%rcx, %rsi
	shrq	$5, %rsi
	movl	$-2, %r11d
	roll	%cl, %r11d
	movq	%rsi, %rcx
	movl	$-2, %esi
	andl	%r11d, 108(%rbx,%rcx,4)
	jne	.LBB52_24
	roll	%cl, %esi
	andl	%esi, 104(%rbx)
.LBB52_24:
	movq	(%r14,%rax,8), %rcx
	leal	(,%r9,4), %esi
	movl	%ecx, %r11d
	subl	%esi, %r11d
	cmpl	$15, %r11d
	jbe	.LBB52_32
	movl	%r11d, %r15d
	shrl	$2, %r11d
	movq	%rax, %r12
	shlq	$32, %r12
	orq	%r15, %r12
	leal	(%rax,%r9), %esi
	subq	%r15, %rcx
	movq	%rcx, (%r14,%rax,8)
	movq	%r8, 8(%r14,%rax,8)
	movq	%r10, 16(%r14,%rax,8)
	movq	%r12, (%r14,%rsi,8)
	movq	%r8, 8(%r14,%rsi,8)
	movq	72(%rbx), %r10
	movl	%esi, %r14d
	shrl	$6, %r14d
	movl	$1, %r12d
	movl	%esi, %ecx
	shlq	%cl, %r12
	orq	%r12, (%r10,%r14,8)
	testb	$2, %r15b
	jne	.LBB52_27
	leal	(%r11,%rsi), %ecx
	movq	48(%rbx), %r10
	movl	%esi, 4(%r10,%rcx,8)
.LBB52_27:
	movl	%r11d, %ecx
	orl	$32, %ecx
	bsrl	%ecx, %ecx
	addl	$-5, %ecx
	shrl	%cl, %r11d
	shll	$5, %ecx
	addl	%r11d, %ecx
	movslq	192(%rbx,%rcx,4), %r10
	movl	%esi, 192(%rbx,%rcx,4)
	movq	48(%rbx), %r14
	testq	%r10, %r10
	jns	.LBB52_36
	movq	$-1, 16(%r14,%rsi,8)
	shrl	$5, %ecx
	movl	$1, %esi
	shll	%cl, %esi
	movl	108(%rbx,%rcx,4), %r10d
	orl	%esi, 104(%rbx)
	jmp	.LBB52_38
.LBB52_29:
	movl	$-1, 192(%rbx,%rcx,4)
	movq	%rcx, %rsi
	shrq	$4, %rsi
	andb	$15, %cl
	movl	$-2, %r11d
	roll	%cl, %r11d
	movq	%rsi, %rcx
	movl	$-2, %esi
	andl	%r11d, 108(%rbx,%rcx,4)
	jne	.LBB52_31
	roll	%cl, %esi
	andl	%esi, 104(%rbx)
.LBB52_31:
	movq	(%r14,%rax,8), %rcx
	leal	(,%r9,4), %esi
	movl	%ecx, %r11d
	subl	%esi, %r11d
	cmpl	$15, %r11d
	ja	.LBB52_33
.LBB52_32:
	decq	%rcx
	movq	%rcx, (%r14,%rax,8)
	movq	%r8, 8(%r14,%rax,8)
	movq	%r10, 16(%r14,%rax,8)
	shrl	$2, %ecx
	addl	40(%rbx), %ecx
	movl	%ecx, 40(%rbx)
	cmpl	%ecx, 44(%rbx)
	jb	.LBB52_40
	jmp	.LBB52_41
.LBB52_33:
	movl	%r11d, %r15d
	shrl	$2, %r11d
	movq	%rax, %r12
	shlq	$32, %r12
	orq	%r15, %r12
	leal	(%rax,%r9), %esi
	subq	%r15, %rcx
	movq	%rcx, (%r14,%rax,8)
	movq	%r8, 8(%r14,%rax,8)
	movq	%r10, 16(%r14,%rax,8)
	movq	%r12, (%r14,%rsi,8)
	movq	%r8, 8(%r14,%rsi,8)
	movq	72(%rbx), %r10
	movl	%esi, %r14d
	shrl	$6, %r14d
	movl	$1, %r12d
	movl	%esi, %ecx
	shlq	%cl, %r12
	orq	%r12, (%r10,%r14,8)
	testb	$2, %r15b
	jne	.LBB52_35
	leal	(%r11,%rsi), %ecx
	movq	48(%rbx), %r10
	movl	%esi, 4(%r10,%rcx,8)
.LBB52_35:
	movl	%r11d, %ecx
	orl	$16, %ecx
	bsrl	%ecx, %ecx
	addl	$-4, %ecx
	shrl	%cl, %r11d
	shll	$4, %ecx
	addl	%r11d, %ecx
	movslq	192(%rbx,%rcx,4), %r10
	movl	%esi, 192(%rbx,%rcx,4)
	movq	48(%rbx), %r14
	testq	%r10, %r10
	js	.LBB52_37
.LBB52_36:
	movabsq	$-4294967296, %rcx
	orq	%r10, %rcx
	movq	%rcx, 16(%r14,%rsi,8)
	movl	%esi, 20(%r14,%r10,8)
	jmp	.LBB52_39
.LBB52_37:
	movq	$-1, 16(%r14,%rsi,8)
	shrl	$4, %ecx
	movl	$1, %esi
	shll	%cl, %esi
	movl	108(%rbx,%rcx,4), %r10d
	orl	%esi, 104(%rbx)
	andb	$15, %r11b
.LBB52_38:
	btsl	%r11d, %r10d
	movl	%r10d, 108(%rbx,%rcx,4)
.LBB52_39:
	movl	%r9d, %ecx
	addl	40(%rbx), %ecx
	movl	%ecx, 40(%rbx)
	cmpl	%ecx, 44(%rbx)
	jae	.LBB52_41
.LBB52_40:
	movl	%ecx, 44(%rbx)
.LBB52_41:
	incq	32(%rbx)
	movl	24(%rbx), %ecx
	testb	$1, %r9b
	je	.LBB52_44
	cmpb	$0, 28(%rdi)
	jne	.LBB52_44
	movb	$1, 28(%rdi)
.LBB52_44:
	movl	%ecx, (%rdx)
	movl	%eax, 4(%rdx)
	movq	%r8, 8(%rdx)
	addl	$-3, %r9d
	je	.LBB52_46
	addl	$3, %eax
	movl	%r9d, %edx
	shlq	$3, %rax
	addq	48(%rbx), %rax
	shlq	$3, %rdx
	movq	%rax, %rdi
	xorl	%esi, %esi
	callq	tlsf_memory_set@PLT
.LBB52_46:
	movb	$1, (%rbx)
	xorl	%eax, %eax
.LBB52_47:
	addq	$8, %rsp
	.cfi_def_cfa_offset 40
	popq	%rbx
	.cfi_def_cfa_offset 32
	popq	%r12
	.cfi_def_cfa_offset 24
	popq	%r14
	.cfi_def_cfa_offset 16
	popq	%r15
	.cfi_def_cfa_offset 8
	retq
.Lfunc_end52:
	.size	tlsf_allocate, .Lfunc_end52-tlsf_allocate
	.cfi_endproc
	.section	.text.tlsf_allocate_aligned,"ax",@progbits
	.globl	tlsf_allocate_aligned
	.p2align	4
	.type	tlsf_allocate_aligned,@function
tlsf_allocate_aligned:
	.cfi_startproc
	pushq	%rbp
	.cfi_def_cfa_offset 16
	pushq	%r15
	.cfi_def_cfa_offset 24
	pushq	%r14
	.cfi_def_cfa_offset 32
	pushq	%r13
	.cfi_def_cfa_offset 40
	pushq	%r12
	.cfi_def_cfa_offset 48
	pushq	%rbx
	.cfi_def_cfa_offset 56
	subq	$40, %rsp
	.cfi_def_cfa_offset 96
	.cfi_offset %rbx, -56
	.cfi_offset %r12, -48
	.cfi_offset %r13, -40
	.cfi_offset %r14, -32
	.cfi_offset %r15, -24
	.cfi_offset %rbp, -16
	cmpb	$0, 8(%rdi)
	je	.LBB53_2
	movq	(%rdi), %r15
	cmpb	$0, (%r15)
	je	.LBB53_2
	movl	%ecx, %eax
	movl	$4294967295, %r12d
	cmpq	%r12, %rsi
	cmovbq	%rsi, %r12
	movb	$0, (%r15)
	leaq	24(%r15), %rbp
	cmpb	$0, 16(%r15)
	movq	32(%r15), %r8
	je	.LBB53_4
	cmpq	$-5, %r8
	ja	.LBB53_105
	cmpl	$1, %edx
	movl	%edx, %r9d
	adcl	$0, %r9d
	cmpl	$16777216, %edx
	ja	.LBB53_27
	cmpq	$1, %rsi
	movq	%r12, %r14
	adcq	$31, %r14
	shrq	$3, %r14
	leal	(%r9,%r14), %r10d
	addl	$4, %r10d
	cmpl	$16777216, %r10d
	ja	.LBB53_27
	movl	%r10d, %ecx
	orl	$32, %ecx
	bsrl	%ecx, %edx
	addl	$-5, %edx
	leal	-1(%r10), %edi
	movl	%edx, %ecx
	shrl	%cl, %edi
	movl	44(%r15), %ebx
	shll	$5, %edx
	addl	%edi, %edx
	movl	%edx, %esi
	shrl	$5, %esi
	movl	108(%r15,%rsi,4), %r11d
	movl	%edi, %ecx
	shrl	%cl, %r11d
	andl	$-2, %r11d
	je	.LBB53_60
	rep		bsfl	%r11d, %ecx
	addq	%rdx, %rcx
	jmp	.LBB53_62
.LBB53_4:
	cmpq	$-5, %r8
	jbe	.LBB53_5
.LBB53_105:
	movb	$1, (%r15)
	movabsq	$8589934592, %rax
	jmp	.LBB53_106
.LBB53_5:
	cmpl	$1, %edx
	movl	%edx, %r9d
	adcl	$0, %r9d
	cmpl	$1048576, %edx
	ja	.LBB53_27
	cmpq	$1, %rsi
	movq	%r12, %r14
	adcq	$31, %r14
	shrq	$3, %r14
	leal	(%r9,%r14), %r10d
	addl	$4, %r10d
	cmpl	$1048576, %r10d
	ja	.LBB53_27
	movl	%r10d, %ecx
	orl	$16, %ecx
	bsrl	%ecx, %edx
	addl	$-4, %edx
	leal	-1(%r10), %edi
	movl	%edx, %ecx
	shrl	%cl, %edi
	movl	44(%r15), %ebx
	shll	$4, %edx
	addl	%edi, %edx
	movl	%edx, %esi
	shrl	$4, %esi
	movl	108(%r15,%rsi,4), %r11d
	andb	$15, %dil
	movl	%edi, %ecx
	shrl	%cl, %r11d
	andl	$-2, %r11d
	je	.LBB53_9
	movl	%ebx, 24(%rsp)
	rep		bsfl	%r11d, %ecx
	addq	%rdx, %rcx
	jmp	.LBB53_11
.LBB53_2:
	xorl	%edi, %edi
	callq	"tlsf_c::call_fault::CallFault::refusal"
	xorl	%edx, %edx
	shlq	$32, %rax
	jmp	.LBB53_107
.LBB53_60:
	movl	$-2, %edx
	movl	%esi, %ecx
	shll	%cl, %edx
	andl	104(%r15), %edx
	je	.LBB53_27
	rep		bsfl	%edx, %ecx
	movl	$32, %edx
	rep		bsfl	108(%r15,%rcx,4), %edx
	shll	$5, %ecx
	addl	%edx, %ecx
.LBB53_62:
	movq	48(%r15), %rdi
	movl	192(%r15,%rcx,4), %r13d
	leaq	(,%r13,8), %r11
	movq	16(%rdi,%r13,8), %rdx
	cmpl	$-1, %edx
	je	.LBB53_63
	movl	%edx, %esi
	movl	$-1, 20(%rdi,%rsi,8)
	movl	%edx, 192(%r15,%rcx,4)
	movq	48(%r15), %rdi
	jmp	.LBB53_66
.LBB53_63:
	movl	$-1, 192(%r15,%rcx,4)
	movq	%rcx, %rdx
	shrq	$5, %rdx
	movl	$-2, %esi
	roll	%cl, %esi
	movq	%rdx, %rcx
	movl	$-2, %edx
	andl	%esi, 108(%r15,%rcx,4)
	jne	.LBB53_66
	roll	%cl, %edx
	andl	%edx, 104(%r15)
.LBB53_66:
	movq	(%rdi,%r11), %rcx
	leal	(,%r10,4), %edx
	movl	%ecx, %esi
	subl	%edx, %esi
	cmpl	$15, %esi
	movl	%ebx, 32(%rsp)
	ja	.LBB53_68
	decq	%rcx
	movq	%rcx, (%rdi,%r11)
	movq	%r8, 8(%rdi,%r11)
	movq	$0, 16(%rdi,%r11)
	shrl	$2, %ecx
	movl	%ecx, %r10d
	jmp	.LBB53_74
.LBB53_68:
	movl	%esi, %r11d
	shrl	$2, %esi
	movq	%r13, %rbx
	shlq	$32, %rbx
	orq	%r11, %rbx
	leal	(%r10,%r13), %edx
	subq	%r11, %rcx
	movq	%rcx, (%rdi,%r13,8)
	movq	%r8, 8(%rdi,%r13,8)
	movq	$0, 16(%rdi,%r13,8)
	movq	%rbx, (%rdi,%rdx,8)
	movq	%r8, 8(%rdi,%rdx,8)
	movq	72(%r15), %rdi
	movl	%edx, %ebx
	shrl	$6, %ebx
	movl	$1, %ebp
	movl	%edx, %ecx
	shlq	%cl, %rbp
	orq	%rbp, (%rdi,%rbx,8)
	testb	$2, %r11b
	jne	.LBB53_70
	leal	(%rsi,%rdx), %ecx
	movq	48(%r15), %rdi
	movl	%edx, 4(%rdi,%rcx,8)
.LBB53_70:
	movl	%esi, %ecx
	orl	$32, %ecx
	bsrl	%ecx, %ecx
	addl	$-5, %ecx
	shrl	%cl, %esi
	shll	$5, %ecx
	addl	%esi, %ecx
	movslq	192(%r15,%rcx,4), %rdi
	movl	%edx, 192(%r15,%rcx,4)
	movq	48(%r15), %r11
	testq	%rdi, %rdi
	leaq	24(%r15), %rbp
	js	.LBB53_71
	movabsq	$-4294967296, %rcx
	orq	%rdi, %rcx
	movq	%rcx, 16(%r11,%rdx,8)
	movl	%edx, 20(%r11,%rdi,8)
	jmp	.LBB53_73
.LBB53_9:
	movl	$-2, %edx
	movl	%esi, %ecx
	shll	%cl, %edx
	andl	104(%r15), %edx
	je	.LBB53_27
	movl	%ebx, 24(%rsp)
	rep		bsfl	%edx, %ecx
	movl	$32, %edx
	rep		bsfl	108(%r15,%rcx,4), %edx
	shll	$4, %ecx
	addl	%edx, %ecx
.LBB53_11:
	movq	48(%r15), %rdi
	movl	192(%r15,%rcx,4), %r13d
	leaq	(,%r13,8), %r11
	movq	16(%rdi,%r13,8), %rdx
	cmpl	$-1, %edx
	je	.LBB53_12
	movl	%edx, %esi
	movl	$-1, 20(%rdi,%rsi,8)
	movl	%edx, 192(%r15,%rcx,4)
	movq	48(%r15), %rdi
	jmp	.LBB53_15
.LBB53_12:
	movl	$-1, 192(%r15,%rcx,4)
	movq	%rcx, %rdx
	shrq	$4, %rdx
	andb	$15, %cl
	movl	$-2, %esi
	roll	%cl, %esi
	movq	%rdx, %rcx
	movl	$-2, %edx
	andl	%esi, 108(%r15,%rcx,4)
	jne	.LBB53_15
	roll	%cl, %edx
	andl	%edx, 104(%r15)
.LBB53_15:
	movq	(%rdi,%r11), %rcx
	leal	(,%r10,4), %edx
	movl	%ecx, %esi
	subl	%edx, %esi
	cmpl	$15, %esi
	movq	%r11, 32(%rsp)
	ja	.LBB53_17
	decq	%rcx
	movq	%rcx, (%rdi,%r11)
	movq	%r8, 8(%rdi,%r11)
	movq	$0, 16(%rdi,%r11)
	shrl	$2, %ecx
	movl	%ecx, %r10d
	jmp	.LBB53_22
.LBB53_17:
	movl	%esi, %r11d
	shrl	$2, %esi
	movq	%r13, %rbx
	shlq	$32, %rbx
	orq	%r11, %rbx
	leal	(%r10,%r13), %edx
	subq	%r11, %rcx
	movq	%rcx, (%rdi,%r13,8)
	movq	%r8, 8(%rdi,%r13,8)
	movq	$0, 16(%rdi,%r13,8)
	movq	%rbx, (%rdi,%rdx,8)
	movq	%r8, 8(%rdi,%rdx,8)
	movq	72(%r15), %rdi
	movl	%edx, %ebx
	shrl	$6, %ebx
	movl	$1, %ebp
	movl	%edx, %ecx
	shlq	%cl, %rbp
	orq	%rbp, (%rdi,%rbx,8)
	testb	$2, %r11b
	jne	.LBB53_19
	leal	(%rsi,%rdx), %ecx
	movq	48(%r15), %rdi
	movl	%edx, 4(%rdi,%rcx,8)
.LBB53_19:
	movl	%esi, %ecx
	orl	$16, %ecx
	bsrl	%ecx, %ecx
	addl	$-4, %ecx
	shrl	%cl, %esi
	shll	$4, %ecx
	addl	%esi, %ecx
	movslq	192(%r15,%rcx,4), %rdi
	movl	%edx, 192(%r15,%rcx,4)
	movq	48(%r15), %r11
	testq	%rdi, %rdi
	leaq	24(%r15), %rbp
	js	.LBB53_20
	movabsq	$-4294967296, %rcx
	orq	%rdi, %rcx
	movq	%rcx, 16(%r11,%rdx,8)
	movl	%edx, 20(%r11,%rdi,8)
	jmp	.LBB53_22
.LBB53_71:
	movq	$-1, 16(%r11,%rdx,8)
	shrl	$5, %ecx
	movl	$1, %edx
	shll	%cl, %edx
	movl	108(%r15,%rcx,4), %edi
	orl	%edx, 104(%r15)
	btsl	%esi, %edi
	movl	%edi, 108(%r15,%rcx,4)
.LBB53_73:
	leaq	(,%r13,8), %r11
.LBB53_74:
	movq	%r8, %rbx
	addl	40(%r15), %r10d
	movl	%r10d, 40(%r15)
	cmpl	%r10d, 44(%r15)
	jae	.LBB53_76
	movl	%r10d, 44(%r15)
.LBB53_76:
	incq	32(%r15)
	movl	24(%r15), %ecx
	xorl	%edx, %edx
	divl	%r9d
	leal	(%rdx,%r13), %eax
	addl	$3, %eax
	xorl	%edx, %edx
	divl	%r9d
	testl	%edx, %edx
	je	.LBB53_77
	leal	(%r9,%r9,4), %eax
	subl	%edx, %eax
	addl	$-4, %eax
	xorl	%edx, %edx
	divl	%r9d
	addl	$4, %edx
	movl	%ecx, 8(%rsp)
	movl	%r13d, 12(%rsp)
	movq	%rbx, 16(%rsp)
	leaq	8(%rsp), %rsi
	movq	%rbp, %rdi
	movq	%rdx, %rbx
	callq	"tlsf_heap::heap::Heap::resize_live::<=5>"
	testb	%al, %al
	jne	.LBB53_26
	movq	%rbx, %rsi
	addl	%r13d, %esi
	movb	$3, %dl
	cmpl	56(%r15), %esi
	jae	.LBB53_35
	movq	72(%r15), %rax
	movl	%esi, %ecx
	shrl	$6, %ecx
	movq	(%rax,%rcx,8), %rax
	btq	%rsi, %rax
	jae	.LBB53_35
	movq	48(%r15), %r10
	movl	%esi, %r9d
	movq	(%r10,%r9,8), %r8
	testb	$1, %r8b
	je	.LBB53_35
	movl	%r8d, %eax
	shrl	$2, %eax
	movb	$5, %dl
	cmpl	%r14d, %eax
	jb	.LBB53_35
	cmpq	$-1, 32(%r15)
	je	.LBB53_34
	movl	%r8d, %edi
	leaq	(,%r9,8), %rcx
	movq	%rcx, 24(%rsp)
	movq	16(%r10,%rcx), %r11
	testq	%r11, %r11
	js	.LBB53_88
	movq	%r11, %rcx
	shrq	$29, %rcx
	movabsq	$17179869176, %rax
	andq	%rcx, %rax
	movq	16(%r10,%rax), %rcx
	cmpl	$-1, %r11d
	je	.LBB53_86
	movabsq	$-4294967296, %rdx
	andq	%rdx, %rcx
	movl	%r11d, %edx
	orq	%rdx, %rcx
	movq	%rcx, 16(%r10,%rax)
	shrq	$32, %r11
	andl	$2147483647, %r11d
	movl	%r11d, 20(%r10,%rdx,8)
	jmp	.LBB53_92
.LBB53_77:
	movq	%r11, 24(%rsp)
	movl	%ecx, 8(%rsp)
	movl	%r13d, 12(%rsp)
	movq	%rbx, 16(%rsp)
	leaq	8(%rsp), %rsi
	movq	%rbp, %rdi
	movl	%r14d, %edx
	callq	"tlsf_heap::heap::Heap::resize_live::<=5>"
	testb	%al, %al
	jne	.LBB53_26
.LBB53_103:
	movl	40(%r15), %eax
	movl	32(%rsp), %ecx
	cmpl	%ecx, %eax
	cmoval	%eax, %ecx
	movl	%ecx, 44(%r15)
	movq	48(%r15), %rax
	movq	24(%rsp), %rcx
	jmp	.LBB53_104
.LBB53_20:
	movq	$-1, 16(%r11,%rdx,8)
	shrl	$4, %ecx
	movl	$1, %edx
	shll	%cl, %edx
	movl	108(%r15,%rcx,4), %edi
	orl	%edx, 104(%r15)
	andb	$15, %sil
	btsl	%esi, %edi
	movl	%edi, 108(%r15,%rcx,4)
.LBB53_22:
	movq	%r8, %rbx
	addl	40(%r15), %r10d
	movl	%r10d, 40(%r15)
	cmpl	%r10d, 44(%r15)
	jae	.LBB53_24
	movl	%r10d, 44(%r15)
.LBB53_24:
	incq	32(%r15)
	movl	24(%r15), %ecx
	xorl	%edx, %edx
	divl	%r9d
	leal	(%rdx,%r13), %eax
	addl	$3, %eax
	xorl	%edx, %edx
	divl	%r9d
	testl	%edx, %edx
	je	.LBB53_25
	leal	(%r9,%r9,4), %eax
	subl	%edx, %eax
	addl	$-4, %eax
	xorl	%edx, %edx
	divl	%r9d
	addl	$4, %edx
	movl	%ecx, 8(%rsp)
	movl	%r13d, 12(%rsp)
	movq	%rbx, 16(%rsp)
	leaq	8(%rsp), %rsi
	movq	%rbp, %rdi
	movq	%rdx, %rbx
	callq	"tlsf_heap::heap::Heap::resize_live::<=4>"
	testb	%al, %al
	jne	.LBB53_26
	movq	%rbx, %rsi
	addl	%r13d, %esi
	movb	$3, %dl
	cmpl	56(%r15), %esi
	jae	.LBB53_35
	movq	72(%r15), %rax
	movl	%esi, %ecx
	shrl	$6, %ecx
	movq	(%rax,%rcx,8), %rax
	btq	%rsi, %rax
	jae	.LBB53_35
	movq	48(%r15), %r10
	movl	%esi, %r9d
	movq	(%r10,%r9,8), %r8
	testb	$1, %r8b
	je	.LBB53_35
	movl	%r8d, %eax
	shrl	$2, %eax
	movb	$5, %dl
	cmpl	%r14d, %eax
	jb	.LBB53_35
	cmpq	$-1, 32(%r15)
	je	.LBB53_34
	movl	%r8d, %edi
	leaq	(,%r9,8), %rbx
	movq	16(%r10,%rbx), %r11
	testq	%r11, %r11
	js	.LBB53_40
	movq	%r11, %rcx
	shrq	$29, %rcx
	movabsq	$17179869176, %rax
	andq	%rcx, %rax
	movq	16(%r10,%rax), %rcx
	cmpl	$-1, %r11d
	je	.LBB53_38
	movabsq	$-4294967296, %rdx
	andq	%rdx, %rcx
	movl	%r11d, %edx
	orq	%rdx, %rcx
	movq	%rcx, 16(%r10,%rax)
	shrq	$32, %r11
	andl	$2147483647, %r11d
	movl	%r11d, 20(%r10,%rdx,8)
	jmp	.LBB53_44
.LBB53_25:
	movl	%ecx, 8(%rsp)
	movl	%r13d, 12(%rsp)
	movq	%rbx, 16(%rsp)
	leaq	8(%rsp), %rsi
	movq	%rbp, %rdi
	movl	%r14d, %edx
	callq	"tlsf_heap::heap::Heap::resize_live::<=4>"
	testb	%al, %al
	je	.LBB53_54
.LBB53_26:
	testb	%dl, %dl
	je	.LBB53_27
.LBB53_35:
	movb	$1, (%r15)
	movsbq	%dl, %rax
	leaq	.Lswitch.table.tlsf_allocate_aligned(%rip), %rcx
	movq	-8(%rcx,%rax,8), %rax
	jmp	.LBB53_106
.LBB53_27:
	movl	8(%r15), %eax
	movl	12(%r15), %ecx
	incl	%eax
	movl	$-1, %edx
	cmovnel	%eax, %edx
	movl	%edx, 8(%r15)
	cmpl	%ecx, %r12d
	cmoval	%r12d, %ecx
	movl	%ecx, 12(%r15)
	movb	$1, (%r15)
	movl	$4294967295, %eax
	incq	%rax
.LBB53_106:
	xorl	%edx, %edx
.LBB53_107:
	addq	$40, %rsp
	.cfi_def_cfa_offset 56
	popq	%rbx
	.cfi_def_cfa_offset 48
	popq	%r12
	.cfi_def_cfa_offset 40
	popq	%r13
	.cfi_def_cfa_offset 32
	popq	%r14
	.cfi_def_cfa_offset 24
	popq	%r15
	.cfi_def_cfa_offset 16
	popq	%rbp
	.cfi_def_cfa_offset 8
	retq
.LBB53_34:
	.cfi_def_cfa_offset 96
	movb	$1, %dl
	jmp	.LBB53_35
.LBB53_88:
	movl	%eax, %ecx
	orl	$32, %ecx
	bsrl	%ecx, %edx
	addl	$-5, %edx
	movl	%edx, %ecx
	shrl	%cl, %eax
	shll	$5, %edx
	addl	%eax, %edx
	cmpl	$-1, %r11d
	je	.LBB53_89
	movl	%r11d, %eax
	movl	$-1, 20(%r10,%rax,8)
	movl	%r11d, 192(%r15,%rdx,4)
	jmp	.LBB53_92
.LBB53_86:
	movl	$4294967295, %edx
	orq	%rdx, %rcx
	movq	%rcx, 16(%r10,%rax)
.LBB53_92:
	leaq	(,%r9,8), %r10
.LBB53_93:
	movq	32(%r15), %rdx
	leal	(,%r14,4), %eax
	subl	%eax, %edi
	cmpl	$15, %edi
	ja	.LBB53_95
	movq	48(%r15), %rax
	decq	%r8
	movq	%r8, (%rax,%r10)
	movq	%rdx, 8(%rax,%r10)
	movq	$0, 16(%rax,%r10)
	shrl	$2, %r8d
	movl	%r8d, %r14d
	jmp	.LBB53_100
.LBB53_95:
	movl	%edi, %r10d
	shrl	$2, %edi
	movq	%r9, %rcx
	shlq	$32, %rcx
	orq	%r10, %rcx
	leal	(%rsi,%r14), %eax
	subq	%r10, %r8
	movq	48(%r15), %r11
	movq	%r8, (%r11,%r9,8)
	movq	%rdx, 8(%r11,%r9,8)
	movq	$0, 16(%r11,%r9,8)
	movq	%rcx, (%r11,%rax,8)
	movq	%rdx, 8(%r11,%rax,8)
	movq	72(%r15), %r8
	movl	%eax, %r9d
	shrl	$6, %r9d
	movl	$1, %r11d
	movl	%eax, %ecx
	shlq	%cl, %r11
	orq	%r11, (%r8,%r9,8)
	testb	$2, %r10b
	jne	.LBB53_97
	leal	(%rdi,%rax), %ecx
	movq	48(%r15), %r8
	movl	%eax, 4(%r8,%rcx,8)
.LBB53_97:
	movl	%edi, %ecx
	orl	$32, %ecx
	bsrl	%ecx, %ecx
	addl	$-5, %ecx
	shrl	%cl, %edi
	shll	$5, %ecx
	addl	%edi, %ecx
	movslq	192(%r15,%rcx,4), %r8
	movl	%eax, 192(%r15,%rcx,4)
	movq	48(%r15), %r9
	testq	%r8, %r8
	js	.LBB53_98
	movabsq	$-4294967296, %rcx
	orq	%r8, %rcx
	movq	%rcx, 16(%r9,%rax,8)
	movl	%eax, 20(%r9,%r8,8)
	jmp	.LBB53_100
.LBB53_40:
	movl	%eax, %ecx
	orl	$16, %ecx
	bsrl	%ecx, %edx
	addl	$-4, %edx
	movl	%edx, %ecx
	shrl	%cl, %eax
	shll	$4, %edx
	addl	%eax, %edx
	cmpl	$-1, %r11d
	je	.LBB53_41
	movl	%r11d, %eax
	movl	$-1, 20(%r10,%rax,8)
	movl	%r11d, 192(%r15,%rdx,4)
	jmp	.LBB53_44
.LBB53_98:
	movq	$-1, 16(%r9,%rax,8)
	shrl	$5, %ecx
	movl	$1, %eax
	shll	%cl, %eax
	movl	108(%r15,%rcx,4), %r8d
	orl	%eax, 104(%r15)
	btsl	%edi, %r8d
	movl	%r8d, 108(%r15,%rcx,4)
.LBB53_100:
	movq	%rsi, %r13
	addl	40(%r15), %r14d
	movl	%r14d, 40(%r15)
	cmpl	%r14d, 44(%r15)
	jae	.LBB53_102
	movl	%r14d, 44(%r15)
.LBB53_102:
	movq	%rdx, %rbx
	leaq	1(%rdx), %rax
	movq	%rax, 32(%r15)
	leaq	8(%rsp), %rsi
	movq	%rbp, %rdi
	callq	"tlsf_heap::heap::Heap::release_live::<=5>"
	jmp	.LBB53_103
.LBB53_38:
	movl	$4294967295, %edx
	orq	%rdx, %rcx
	movq	%rcx, 16(%r10,%rax)
	jmp	.LBB53_44
.LBB53_89:
	movl	$-1, 192(%r15,%rdx,4)
	shrl	$5, %edx
	movl	$-2, %r10d
	movl	%eax, %ecx
	roll	%cl, %r10d
	movl	$-2, %eax
	andl	%r10d, 108(%r15,%rdx,4)
	leaq	(,%r9,8), %r10
	jne	.LBB53_93
	movl	%edx, %ecx
	roll	%cl, %eax
	andl	%eax, 104(%r15)
	jmp	.LBB53_93
.LBB53_41:
	movl	$-1, 192(%r15,%rdx,4)
	shrl	$4, %edx
	andb	$15, %al
	movl	$-2, %r10d
	movl	%eax, %ecx
	roll	%cl, %r10d
	movl	$-2, %eax
	andl	%r10d, 108(%r15,%rdx,4)
	jne	.LBB53_44
	movl	%edx, %ecx
	roll	%cl, %eax
	andl	%eax, 104(%r15)
.LBB53_44:
	movq	32(%r15), %rdx
	leal	(,%r14,4), %eax
	subl	%eax, %edi
	cmpl	$15, %edi
	ja	.LBB53_46
	movq	48(%r15), %rax
	decq	%r8
	movq	%r8, (%rax,%rbx)
	movq	%rdx, 8(%rax,%rbx)
	movq	$0, 16(%rax,%rbx)
	shrl	$2, %r8d
	movl	%r8d, %r14d
	jmp	.LBB53_51
.LBB53_46:
	movl	%edi, %r10d
	shrl	$2, %edi
	movq	%r9, %rcx
	shlq	$32, %rcx
	orq	%r10, %rcx
	leal	(%rsi,%r14), %eax
	subq	%r10, %r8
	movq	48(%r15), %r11
	movq	%r8, (%r11,%r9,8)
	movq	%rdx, 8(%r11,%r9,8)
	movq	$0, 16(%r11,%r9,8)
	movq	%rcx, (%r11,%rax,8)
	movq	%rdx, 8(%r11,%rax,8)
	movq	72(%r15), %r8
	movl	%eax, %r9d
	shrl	$6, %r9d
	movl	$1, %r11d
	movl	%eax, %ecx
	shlq	%cl, %r11
	orq	%r11, (%r8,%r9,8)
	testb	$2, %r10b
	jne	.LBB53_48
	leal	(%rdi,%rax), %ecx
	movq	48(%r15), %r8
	movl	%eax, 4(%r8,%rcx,8)
.LBB53_48:
	movl	%edi, %ecx
	orl	$16, %ecx
	bsrl	%ecx, %ecx
	addl	$-4, %ecx
	shrl	%cl, %edi
	shll	$4, %ecx
	addl	%edi, %ecx
	movslq	192(%r15,%rcx,4), %r8
	movl	%eax, 192(%r15,%rcx,4)
	movq	48(%r15), %r9
	testq	%r8, %r8
	js	.LBB53_49
	movabsq	$-4294967296, %rcx
	orq	%r8, %rcx
	movq	%rcx, 16(%r9,%rax,8)
	movl	%eax, 20(%r9,%r8,8)
	jmp	.LBB53_51
.LBB53_49:
	movq	$-1, 16(%r9,%rax,8)
	shrl	$4, %ecx
	movl	$1, %eax
	shll	%cl, %eax
	movl	108(%r15,%rcx,4), %r8d
	orl	%eax, 104(%r15)
	andb	$15, %dil
	btsl	%edi, %r8d
	movl	%r8d, 108(%r15,%rcx,4)
.LBB53_51:
	movq	%rbx, 32(%rsp)
	movq	%rsi, %r13
	addl	40(%r15), %r14d
	movl	%r14d, 40(%r15)
	cmpl	%r14d, 44(%r15)
	jae	.LBB53_53
	movl	%r14d, 44(%r15)
.LBB53_53:
	movq	%rdx, %rbx
	leaq	1(%rdx), %rax
	movq	%rax, 32(%r15)
	leaq	8(%rsp), %rsi
	movq	%rbp, %rdi
	callq	"tlsf_heap::heap::Heap::release_live::<=4>"
.LBB53_54:
	movl	40(%r15), %eax
	movl	24(%rsp), %ecx
	cmpl	%ecx, %eax
	cmoval	%eax, %ecx
	movl	%ecx, 44(%r15)
	movq	48(%r15), %rax
	movq	32(%rsp), %rcx
.LBB53_104:
	movq	%r12, 16(%rax,%rcx)
	movb	$1, (%r15)
	movl	%r13d, %eax
	movq	%rbx, %rdx
	jmp	.LBB53_107
.Lfunc_end53:
	.size	tlsf_allocate_aligned, .Lfunc_end53-tlsf_allocate_aligned
	.cfi_endproc
	.section	.text.tlsf_allocate_payload,"ax",@progbits
	.globl	tlsf_allocate_payload
	.p2align	4
	.type	tlsf_allocate_payload,@function
tlsf_allocate_payload:
	.cfi_startproc
	cmpb	$0, 8(%rdi)
	je	.LBB54_1
	xorl	%eax, %eax
	cmpq	$134217728, %rsi
	ja	.LBB54_2
	pushq	%r15
	.cfi_def_cfa_offset 16
	pushq	%r14
	.cfi_def_cfa_offset 24
	pushq	%rbx
	.cfi_def_cfa_offset 32
	.cfi_offset %rbx, -32
	.cfi_offset %r14, -24
	.cfi_offset %r15, -16
	movq	(%rdi), %rdi
	cmpb	$0, (%rdi)
	je	.LBB54_44
	addl	$7, %esi
	andl	$536870896, %esi
	leal	8(%rsi), %r9d
	movb	$0, (%rdi)
	leal	39(%rsi), %r8d
	shrl	$3, %r8d
	cmpb	$0, 16(%rdi)
	je	.LBB54_6
	cmpl	$134217696, %esi
	ja	.LBB54_42
	movl	%r8d, %eax
	orl	$32, %eax
	bsrl	%eax, %eax
	addl	$-5, %eax
	leal	-1(%r8), %esi
	movl	%eax, %ecx
	shrl	%cl, %esi
	shll	$5, %eax
	addl	%esi, %eax
	movl	%eax, %edx
	shrl	$5, %edx
	movl	108(%rdi,%rdx,4), %r10d
	movl	%esi, %ecx
	shrl	%cl, %r10d
	andl	$-2, %r10d
	je	.LBB54_25
	rep		bsfl	%r10d, %ecx
	addq	%rax, %rcx
	movq	32(%rdi), %r10
	cmpq	$-1, %r10
	jne	.LBB54_28
	jmp	.LBB54_43
.LBB54_1:
	.cfi_def_cfa_offset 8
	.cfi_restore %rbx
	.cfi_restore %r14
	.cfi_restore %r15
	xorl	%eax, %eax
.LBB54_2:
	retq
.LBB54_6:
	.cfi_def_cfa_offset 32
	.cfi_offset %rbx, -32
	.cfi_offset %r14, -24
	.cfi_offset %r15, -16
	cmpl	$8388576, %esi
	jbe	.LBB54_7
.LBB54_42:
	movl	8(%rdi), %eax
	movl	12(%rdi), %ecx
	incl	%eax
	movl	$-1, %edx
	cmovnel	%eax, %edx
	movl	%edx, 8(%rdi)
	cmpl	%ecx, %r9d
	cmoval	%r9d, %ecx
	movl	%ecx, 12(%rdi)
.LBB54_43:
	movb	$1, (%rdi)
	xorl	%eax, %eax
.LBB54_44:
	popq	%rbx
	.cfi_def_cfa_offset 24
	popq	%r14
	.cfi_def_cfa_offset 16
	popq	%r15
	.cfi_def_cfa_offset 8
	.cfi_restore %rbx
	.cfi_restore %r14
	.cfi_restore %r15
	retq
.LBB54_7:
	.cfi_def_cfa_offset 32
	.cfi_offset %rbx, -32
	.cfi_offset %r14, -24
	.cfi_offset %r15, -16
	movl	%r8d, %eax
	orl	$16, %eax
	bsrl	%eax, %eax
	addl	$-4, %eax
	leal	-1(%r8), %esi
	movl	%eax, %ecx
	shrl	%cl, %esi
	shll	$4, %eax
	addl	%esi, %eax
	movl	%eax, %edx
	shrl	$4, %edx
	movl	108(%rdi,%rdx,4), %r10d
	andb	$15, %sil
	movl	%esi, %ecx
	shrl	%cl, %r10d
	andl	$-2, %r10d
	je	.LBB54_9
	rep		bsfl	%r10d, %ecx
	addq	%rax, %rcx
	movq	32(%rdi), %r10
	cmpq	$-1, %r10
	jne	.LBB54_12
	jmp	.LBB54_43
.LBB54_25:
	movl	$-2, %eax
	movl	%edx, %ecx
	shll	%cl, %eax
	andl	104(%rdi), %eax
	je	.LBB54_42
	rep		bsfl	%eax, %ecx
	movl	$32, %eax
	rep		bsfl	108(%rdi,%rcx,4), %eax
	shll	$5, %ecx
	addl	%eax, %ecx
	movq	32(%rdi), %r10
	cmpq	$-1, %r10
	je	.LBB54_43
.LBB54_28:
	movq	48(%rdi), %r11
	movl	192(%rdi,%rcx,4), %ebx
	leaq	(,%rbx,8), %rax
	movq	16(%r11,%rbx,8), %rdx
	cmpl	$-1, %edx
	je	.LBB54_29
	movl	%edx, %esi
	movl	$-1, 20(%r11,%rsi,8)
	movl	%edx, 192(%rdi,%rcx,4)
	movq	48(%rdi), %r11
	jmp	.LBB54_32
.LBB54_9:
	movl	$-2, %eax
	movl	%edx, %ecx
	shll	%cl, %eax
	andl	104(%rdi), %eax
	je	.LBB54_42
	rep		bsfl	%eax, %ecx
	movl	$32, %eax
	rep		bsfl	108(%rdi,%rcx,4), %eax
	shll	$4, %ecx
	addl	%eax, %ecx
	movq	32(%rdi), %r10
	cmpq	$-1, %r10
	je	.LBB54_43
.LBB54_12:
	movq	48(%rdi), %r11
	movl	192(%rdi,%rcx,4), %ebx
	leaq	(,%rbx,8), %rax
	movq	16(%r11,%rbx,8), %rdx
	cmpl	$-1, %edx
	je	.LBB54_13
	movl	%edx, %esi
	movl	$-1, 20(%r11,%rsi,8)
	movl	%edx, 192(%rdi,%rcx,4)
	movq	48(%rdi), %r11
	jmp	.LBB54_16
.LBB54_29:
	movl	$-1, 192(%rdi,%rcx,4)
	movq	%rcx, %rdx
	shrq	$5, %rdx
	movl	$-2, %esi
	roll	%cl, %esi
	movq	%rdx, %rcx
	movl	$-2, %edx
	andl	%esi, 108(%rdi,%rcx,4)
	jne	.LBB54_32
	roll	%cl, %edx
	andl	%edx, 104(%rdi)
.LBB54_32:
	movq	(%r11,%rax), %rcx
	leal	(,%r8,4), %edx
	movl	%ecx, %esi
	subl	%edx, %esi
	cmpl	$15, %esi
	jbe	.LBB54_17
	movl	%esi, %r14d
	shrl	$2, %esi
	movq	%rbx, %r15
	shlq	$32, %r15
	orq	%r14, %r15
	leal	(%rbx,%r8), %edx
	subq	%r14, %rcx
	movq	%rcx, (%r11,%rbx,8)
	movq	%r10, 8(%r11,%rbx,8)
	movq	%r9, 16(%r11,%rbx,8)
	movq	%r15, (%r11,%rdx,8)
	movq	%r10, 8(%r11,%rdx,8)
	movq	72(%rdi), %r9
	movl	%edx, %r10d
	shrl	$6, %r10d
	movl	$1, %r11d
	movl	%edx, %ecx
	shlq	%cl, %r11
	orq	%r11, (%r9,%r10,8)
	testb	$2, %r14b
	jne	.LBB54_35
	leal	(%rsi,%rdx), %ecx
	movq	48(%rdi), %r9
	movl	%edx, 4(%r9,%rcx,8)
.LBB54_35:
	movl	%esi, %ecx
	orl	$32, %ecx
	bsrl	%ecx, %ecx
	addl	$-5, %ecx
	shrl	%cl, %esi
	shll	$5, %ecx
	addl	%esi, %ecx
	movslq	192(%rdi,%rcx,4), %r9
	movl	%edx, 192(%rdi,%rcx,4)
	movq	48(%rdi), %r10
	testq	%r9, %r9
	jns	.LBB54_38
	movq	$-1, 16(%r10,%rdx,8)
	shrl	$5, %ecx
	movl	$1, %edx
	shll	%cl, %edx
	movl	108(%rdi,%rcx,4), %r9d
	orl	%edx, 104(%rdi)
	jmp	.LBB54_37
.LBB54_13:
	movl	$-1, 192(%rdi,%rcx,4)
	movq	%rcx, %rdx
	shrq	$4, %rdx
	andb	$15, %cl
	movl	$-2, %esi
	roll	%cl, %esi
	movq	%rdx, %rcx
	movl	$-2, %edx
	andl	%esi, 108(%rdi,%rcx,4)
	jne	.LBB54_16
	roll	%cl, %edx
	andl	%edx, 104(%rdi)
.LBB54_16:
	movq	(%r11,%rax), %rcx
	leal	(,%r8,4), %edx
	movl	%ecx, %esi
	subl	%edx, %esi
	cmpl	$15, %esi
	ja	.LBB54_18
.LBB54_17:
	decq	%rcx
	movq	%rcx, (%r11,%rax)
	movq	%r10, 8(%r11,%rax)
	movq	%r9, 16(%r11,%rax)
	shrl	$2, %ecx
	movl	%ecx, %r8d
	jmp	.LBB54_39
.LBB54_18:
	movl	%esi, %r14d
	shrl	$2, %esi
	movq	%rbx, %r15
	shlq	$32, %r15
	orq	%r14, %r15
	leal	(%rbx,%r8), %edx
	subq	%r14, %rcx
	movq	%rcx, (%r11,%rbx,8)
	movq	%r10, 8(%r11,%rbx,8)
	movq	%r9, 16(%r11,%rbx,8)
	movq	%r15, (%r11,%rdx,8)
	movq	%r10, 8(%r11,%rdx,8)
	movq	72(%rdi), %r9
	movl	%edx, %r10d
	shrl	$6, %r10d
	movl	$1, %r11d
	movl	%edx, %ecx
	shlq	%cl, %r11
	orq	%r11, (%r9,%r10,8)
	testb	$2, %r14b
	jne	.LBB54_20
	leal	(%rsi,%rdx), %ecx
	movq	48(%rdi), %r9
	movl	%edx, 4(%r9,%rcx,8)
.LBB54_20:
	movl	%esi, %ecx
	orl	$16, %ecx
	bsrl	%ecx, %ecx
	addl	$-4, %ecx
	shrl	%cl, %esi
	shll	$4, %ecx
	addl	%esi, %ecx
	movslq	192(%rdi,%rcx,4), %r9
	movl	%edx, 192(%rdi,%rcx,4)
	movq	48(%rdi), %r10
	testq	%r9, %r9
	js	.LBB54_21
.LBB54_38:
	movabsq	$-4294967296, %rcx
	orq	%r9, %rcx
	movq	%rcx, 16(%r10,%rdx,8)
	movl	%edx, 20(%r10,%r9,8)
	jmp	.LBB54_39
.LBB54_21:
	movq	$-1, 16(%r10,%rdx,8)
	shrl	$4, %ecx
	movl	$1, %edx
	shll	%cl, %edx
	movl	108(%rdi,%rcx,4), %r9d
	orl	%edx, 104(%rdi)
	andb	$15, %sil
.LBB54_37:
	btsl	%esi, %r9d
	movl	%r9d, 108(%rdi,%rcx,4)
.LBB54_39:
	addl	40(%rdi), %r8d
	movl	%r8d, 40(%rdi)
	cmpl	%r8d, 44(%rdi)
	jae	.LBB54_41
	movl	%r8d, 44(%rdi)
.LBB54_41:
	incq	32(%rdi)
	movb	$1, (%rdi)
	addq	$24, %rax
	popq	%rbx
	.cfi_def_cfa_offset 24
	popq	%r14
	.cfi_def_cfa_offset 16
	popq	%r15
	.cfi_def_cfa_offset 8
	.cfi_restore %rbx
	.cfi_restore %r14
	.cfi_restore %r15
	retq
.Lfunc_end54:
	.size	tlsf_allocate_payload, .Lfunc_end54-tlsf_allocate_payload
	.cfi_endproc
	.section	.text.tlsf_allocate_place,"ax",@progbits
	.globl	tlsf_allocate_place
	.p2align	4
	.type	tlsf_allocate_place,@function
tlsf_allocate_place:
	.cfi_startproc
	movabsq	$137438953472, %rax
	cmpb	$0, 8(%rdi)
	je	.LBB55_7
	movq	(%rdi), %rdi
	cmpb	$1, (%rdi)
	jne	.LBB55_7
	pushq	%r14
	.cfi_def_cfa_offset 16
	pushq	%rbx
	.cfi_def_cfa_offset 24
	.cfi_offset %rbx, -24
	.cfi_offset %r14, -16
	movl	$4294967295, %r9d
	cmpq	%r9, %rsi
	cmovbq	%rsi, %r9
	movb	$0, (%rdi)
	cmpq	$1, %rsi
	movq	%r9, %rax
	adcq	$31, %rax
	movq	%rax, %r8
	shrq	$3, %r8
	cmpb	$0, 16(%rdi)
	je	.LBB55_8
	cmpq	$134217735, %rax
	ja	.LBB55_9
	movl	%r8d, %eax
	orl	$32, %eax
	bsrl	%eax, %eax
	addl	$-5, %eax
	leal	-1(%r8), %esi
	movl	%eax, %ecx
	shrl	%cl, %esi
	shll	$5, %eax
	addl	%esi, %eax
	movl	%eax, %edx
	shrl	$5, %edx
	movl	108(%rdi,%rdx,4), %r10d
	movl	%esi, %ecx
	shrl	%cl, %r10d
	andl	$-2, %r10d
	je	.LBB55_12
	rep		bsfl	%r10d, %ecx
	addq	%rax, %rcx
	movq	32(%rdi), %rdx
	cmpq	$-1, %rdx
	jne	.LBB55_14
	jmp	.LBB55_20
.LBB55_7:
	.cfi_def_cfa_offset 8
	.cfi_restore %rbx
	.cfi_restore %r14
	xorl	%edx, %edx
	retq
.LBB55_8:
	.cfi_def_cfa_offset 24
	.cfi_offset %rbx, -24
	.cfi_offset %r14, -16
	cmpq	$8388615, %rax
	jbe	.LBB55_10
.LBB55_9:
	movabsq	$4294967296, %rcx
	movl	8(%rdi), %eax
	movl	12(%rdi), %edx
	incl	%eax
	movl	$-1, %esi
	cmovnel	%eax, %esi
	cmpl	%edx, %r9d
	cmoval	%r9d, %edx
	movl	%esi, 8(%rdi)
	movl	%edx, 12(%rdi)
	jmp	.LBB55_21
.LBB55_10:
	movl	%r8d, %eax
	orl	$16, %eax
	bsrl	%eax, %eax
	addl	$-4, %eax
	leal	-1(%r8), %esi
	movl	%eax, %ecx
	shrl	%cl, %esi
	shll	$4, %eax
	addl	%esi, %eax
	movl	%eax, %edx
	shrl	$4, %edx
	movl	108(%rdi,%rdx,4), %r10d
	andb	$15, %sil
	movl	%esi, %ecx
	shrl	%cl, %r10d
	andl	$-2, %r10d
	je	.LBB55_16
	rep		bsfl	%r10d, %ecx
	addq	%rax, %rcx
	movq	32(%rdi), %rdx
	cmpq	$-1, %rdx
	jne	.LBB55_18
	jmp	.LBB55_20
.LBB55_12:
	movl	$-2, %eax
	movl	%edx, %ecx
	shll	%cl, %eax
	andl	104(%rdi), %eax
	je	.LBB55_9
	rep		bsfl	%eax, %ecx
	movl	$32, %eax
	rep		bsfl	108(%rdi,%rcx,4), %eax
	shll	$5, %ecx
	addl	%eax, %ecx
	movq	32(%rdi), %rdx
	cmpq	$-1, %rdx
	je	.LBB55_20
.LBB55_14:
	movq	48(%rdi), %r11
	movl	192(%rdi,%rcx,4), %esi
	movq	16(%r11,%rsi,8), %rax
	cmpl	$-1, %eax
	je	.LBB55_22
	movl	%eax, %r10d
	movl	$-1, 20(%r11,%r10,8)
	movl	%eax, 192(%rdi,%rcx,4)
	movq	48(%rdi), %r11
	jmp	.LBB55_24
.LBB55_16:
	movl	$-2, %eax
	movl	%edx, %ecx
	shll	%cl, %eax
	andl	104(%rdi), %eax
	je	.LBB55_9
	rep		bsfl	%eax, %ecx
	movl	$32, %eax
	rep		bsfl	108(%rdi,%rcx,4), %eax
	shll	$4, %ecx
	addl	%eax, %ecx
	movq	32(%rdi), %rdx
	cmpq	$-1, %rdx
	je	.LBB55_20
.LBB55_18:
	movq	48(%rdi), %r11
	movl	192(%rdi,%rcx,4), %esi
	movq	16(%r11,%rsi,8), %rax
	cmpl	$-1, %eax
	je	.LBB55_29
	movl	%eax, %r10d
	movl	$-1, 20(%r11,%r10,8)
	movl	%eax, 192(%rdi,%rcx,4)
	movq	48(%rdi), %r11
	jmp	.LBB55_31
.LBB55_20:
	movabsq	$8589934592, %rcx
.LBB55_21:
	xorl	%esi, %esi
	xorl	%edx, %edx
	jmp	.LBB55_42
.LBB55_22:
	movl	$-1, 192(%rdi,%rcx,4)
	movq	%rcx, %rax
	shrq	$5, %rax
	movl	$-2, %r10d
	roll	%cl, %r10d
	movq	%rax, %rcx
	movl	$-2, %eax
	andl	%r10d, 108(%rdi,%rcx,4)
	jne	.LBB55_24
	roll	%cl, %eax
	andl	%eax, 104(%rdi)
.LBB55_24:
	movq	(%r11,%rsi,8), %rcx
	leal	(,%r8,4), %eax
	movl	%ecx, %r10d
	subl	%eax, %r10d
	cmpl	$15, %r10d
	jbe	.LBB55_32
	movl	%r10d, %ebx
	shrl	$2, %r10d
	movq	%rsi, %r14
	shlq	$32, %r14
	orq	%rbx, %r14
	leal	(%rsi,%r8), %eax
	subq	%rbx, %rcx
	movq	%rcx, (%r11,%rsi,8)
	movq	%rdx, 8(%r11,%rsi,8)
	movq	%r9, 16(%r11,%rsi,8)
	movq	%r14, (%r11,%rax,8)
	movq	%rdx, 8(%r11,%rax,8)
	movq	72(%rdi), %r9
	movl	%eax, %r11d
	shrl	$6, %r11d
	movl	$1, %r14d
	movl	%eax, %ecx
	shlq	%cl, %r14
	orq	%r14, (%r9,%r11,8)
	testb	$2, %bl
	jne	.LBB55_27
	leal	(%r10,%rax), %ecx
	movq	48(%rdi), %r9
	movl	%eax, 4(%r9,%rcx,8)
.LBB55_27:
	movl	%r10d, %ecx
	orl	$32, %ecx
	bsrl	%ecx, %ecx
	addl	$-5, %ecx
	shrl	%cl, %r10d
	shll	$5, %ecx
	addl	%r10d, %ecx
	movslq	192(%rdi,%rcx,4), %r9
	movl	%eax, 192(%rdi,%rcx,4)
	movq	48(%rdi), %r11
	testq	%r9, %r9
	jns	.LBB55_36
	movq	$-1, 16(%r11,%rax,8)
	shrl	$5, %ecx
	movl	$1, %eax
	shll	%cl, %eax
	movl	108(%rdi,%rcx,4), %r9d
	orl	%eax, 104(%rdi)
	jmp	.LBB55_38
.LBB55_29:
	movl	$-1, 192(%rdi,%rcx,4)
	movq	%rcx, %rax
	shrq	$4, %rax
	andb	$15, %cl
	movl	$-2, %r10d
	roll	%cl, %r10d
	movq	%rax, %rcx
	movl	$-2, %eax
	andl	%r10d, 108(%rdi,%rcx,4)
	jne	.LBB55_31
	roll	%cl, %eax
	andl	%eax, 104(%rdi)
.LBB55_31:
	movq	(%r11,%rsi,8), %rcx
	leal	(,%r8,4), %eax
	movl	%ecx, %r10d
	subl	%eax, %r10d
	cmpl	$15, %r10d
	ja	.LBB55_33
.LBB55_32:
	decq	%rcx
	movq	%rcx, (%r11,%rsi,8)
	movq	%rdx, 8(%r11,%rsi,8)
	movq	%r9, 16(%r11,%rsi,8)
	shrl	$2, %ecx
	movl	%ecx, %r8d
	jmp	.LBB55_39
.LBB55_33:
	movl	%r10d, %ebx
	shrl	$2, %r10d
	movq	%rsi, %r14
	shlq	$32, %r14
	orq	%rbx, %r14
	leal	(%rsi,%r8), %eax
	subq	%rbx, %rcx
	movq	%rcx, (%r11,%rsi,8)
	movq	%rdx, 8(%r11,%rsi,8)
	movq	%r9, 16(%r11,%rsi,8)
	movq	%r14, (%r11,%rax,8)
	movq	%rdx, 8(%r11,%rax,8)
	movq	72(%rdi), %r9
	movl	%eax, %r11d
	shrl	$6, %r11d
	movl	$1, %r14d
	movl	%eax, %ecx
	shlq	%cl, %r14
	orq	%r14, (%r9,%r11,8)
	testb	$2, %bl
	jne	.LBB55_35
	leal	(%r10,%rax), %ecx
	movq	48(%rdi), %r9
	movl	%eax, 4(%r9,%rcx,8)
.LBB55_35:
	movl	%r10d, %ecx
	orl	$16, %ecx
	bsrl	%ecx, %ecx
	addl	$-4, %ecx
	shrl	%cl, %r10d
	shll	$4, %ecx
	addl	%r10d, %ecx
	movslq	192(%rdi,%rcx,4), %r9
	movl	%eax, 192(%rdi,%rcx,4)
	movq	48(%rdi), %r11
	testq	%r9, %r9
	js	.LBB55_37
.LBB55_36:
	movabsq	$-4294967296, %rcx
	orq	%r9, %rcx
	movq	%rcx, 16(%r11,%rax,8)
	movl	%eax, 20(%r11,%r9,8)
	jmp	.LBB55_39
.LBB55_37:
	movq	$-1, 16(%r11,%rax,8)
	shrl	$4, %ecx
	movl	$1, %eax
	shll	%cl, %eax
	movl	108(%rdi,%rcx,4), %r9d
	orl	%eax, 104(%rdi)
	andb	$15, %r10b
.LBB55_38:
	btsl	%r10d, %r9d
	movl	%r9d, 108(%rdi,%rcx,4)
.LBB55_39:
	addl	40(%rdi), %r8d
	movl	%r8d, 40(%rdi)
	cmpl	%r8d, 44(%rdi)
	jae	.LBB55_41
	movl	%r8d, 44(%rdi)
.LBB55_41:
	incq	32(%rdi)
	xorl	%ecx, %ecx
.LBB55_42:
	movb	$1, (%rdi)
	movl	%esi, %eax
	orq	%rcx, %rax
	popq	%rbx
	.cfi_def_cfa_offset 16
	popq	%r14
	.cfi_def_cfa_offset 8
	.cfi_restore %rbx
	.cfi_restore %r14
	retq
.Lfunc_end55:
	.size	tlsf_allocate_place, .Lfunc_end55-tlsf_allocate_place
	.cfi_endproc
	.section	.text.tlsf_block_at,"ax",@progbits
	.globl	tlsf_block_at
	.p2align	4
	.type	tlsf_block_at,@function
tlsf_block_at:
	.cfi_startproc
	cmpb	$0, 8(%rdi)
	je	.LBB56_10
	movq	(%rdi), %rax
	cmpb	$0, (%rax)
	je	.LBB56_10
	movb	$0, (%rax)
	cmpb	$0, 16(%rax)
	movl	56(%rax), %ecx
	cmpl	%ecx, %esi
	jae	.LBB56_6
	movq	72(%rax), %rcx
	movl	%esi, %edi
	shrl	$6, %edi
	movq	(%rcx,%rdi,8), %rcx
	btq	%rsi, %rcx
	jae	.LBB56_6
	movq	48(%rax), %r8
	movl	%esi, %r9d
	movq	(%r8,%r9,8), %r10
	movq	8(%r8,%r9,8), %rcx
	movl	%r10d, %edi
	shrl	$2, %edi
	testb	$1, %r10b
	jne	.LBB56_5
	leaq	(%r8,%r9,8), %r8
	movl	16(%r8), %r9d
	movl	$1, %r8d
	jmp	.LBB56_8
.LBB56_6:
	movb	$1, (%rax)
	movl	$4, %eax
	retq
.LBB56_5:
	xorl	%r8d, %r8d
	xorl	%r9d, %r9d
.LBB56_8:
	movb	$1, (%rax)
	movl	%esi, (%rdx)
	movl	%edi, 4(%rdx)
	movl	%r8d, 8(%rdx)
	movl	%r9d, 12(%rdx)
	movq	%rcx, 16(%rdx)
	xorl	%eax, %eax
	retq
.LBB56_10:
	xorl	%edi, %edi
	jmp	"tlsf_c::call_fault::CallFault::refusal"
.Lfunc_end56:
	.size	tlsf_block_at, .Lfunc_end56-tlsf_block_at
	.cfi_endproc
	.section	.text.tlsf_check,"ax",@progbits
	.globl	tlsf_check
	.p2align	4
	.type	tlsf_check,@function
tlsf_check:
	.cfi_startproc
	movl	$32, %eax
	cmpb	$0, 8(%rdi)
	je	.LBB57_20
	pushq	%rbp
	.cfi_def_cfa_offset 16
	pushq	%r15
	.cfi_def_cfa_offset 24
	pushq	%r14
	.cfi_def_cfa_offset 32
	pushq	%r13
	.cfi_def_cfa_offset 40
	pushq	%r12
	.cfi_def_cfa_offset 48
	pushq	%rbx
	.cfi_def_cfa_offset 56
	pushq	%rax
	.cfi_def_cfa_offset 64
	.cfi_offset %rbx, -56
	.cfi_offset %r12, -48
	.cfi_offset %r13, -40
	.cfi_offset %r14, -32
	.cfi_offset %r15, -24
	.cfi_offset %rbp, -16
	movq	(%rdi), %r15
	cmpb	$1, (%r15)
	jne	.LBB57_19
	movl	%edx, %ebx
	movb	$0, (%r15)
	leaq	48(%r15), %r14
	movl	56(%r15), %r12d
	leal	-4(%r12), %eax
	cmpb	$0, 16(%r15)
	je	.LBB57_3
	cmpl	%eax, %esi
	ja	.LBB57_18
	movq	72(%r15), %rax
	movl	%esi, %edx
	shrl	$6, %edx
	movq	(%rax,%rdx,8), %rax
	btq	%rsi, %rax
	jae	.LBB57_18
	movq	%r8, (%rsp)
	movq	%rcx, %r13
	movl	%esi, %edx
	testl	%ebx, %ebx
	je	.LBB57_16
	.p2align	4
.LBB57_13:
	movq	%r14, %rdi
	movq	%rsi, %rbp
	callq	"tlsf_heap::check::examine"
	cmpb	$1, %al
	jne	.LBB57_17
	cmpl	%r12d, %edx
	je	.LBB57_15
	movl	%edx, %esi
	decl	%ebx
	jne	.LBB57_13
	jmp	.LBB57_16
.LBB57_3:
	cmpl	%eax, %esi
	ja	.LBB57_18
	movq	72(%r15), %rax
	movl	%esi, %edx
	shrl	$6, %edx
	movq	(%rax,%rdx,8), %rax
	btq	%rsi, %rax
	jae	.LBB57_18
	movq	%r8, (%rsp)
	movq	%rcx, %r13
	movl	%esi, %edx
	testl	%ebx, %ebx
	je	.LBB57_16
	.p2align	4
.LBB57_7:
	movq	%r14, %rdi
	movq	%rsi, %rbp
	callq	"tlsf_heap::check::examine"
	cmpb	$1, %al
	jne	.LBB57_17
	cmpl	%r12d, %edx
	je	.LBB57_15
	movl	%edx, %esi
	decl	%ebx
	jne	.LBB57_7
	jmp	.LBB57_16
.LBB57_18:
	movb	$1, (%r15)
	movl	$4, %eax
	jmp	.LBB57_19
.LBB57_17:
	movb	$1, (%r15)
	movq	(%rsp), %rax
	movl	%ebp, (%rax)
	movl	$36, %eax
	jmp	.LBB57_19
.LBB57_15:
	xorl	%edx, %edx
.LBB57_16:
	movb	$1, (%r15)
	movl	%edx, (%r13)
	xorl	%eax, %eax
.LBB57_19:
	addq	$8, %rsp
	.cfi_def_cfa_offset 56
	popq	%rbx
	.cfi_def_cfa_offset 48
	popq	%r12
	.cfi_def_cfa_offset 40
	popq	%r13
	.cfi_def_cfa_offset 32
	popq	%r14
	.cfi_def_cfa_offset 24
	popq	%r15
	.cfi_def_cfa_offset 16
	popq	%rbp
	.cfi_def_cfa_offset 8
	.cfi_restore %rbx
	.cfi_restore %r12
	.cfi_restore %r13
	.cfi_restore %r14
	.cfi_restore %r15
	.cfi_restore %rbp
.LBB57_20:
	retq
.Lfunc_end57:
	.size	tlsf_check, .Lfunc_end57-tlsf_check
	.cfi_endproc
	.section	.text.tlsf_check_around,"ax",@progbits
	.globl	tlsf_check_around
	.p2align	4
	.type	tlsf_check_around,@function
tlsf_check_around:
	.cfi_startproc
	movl	$32, %eax
	cmpb	$0, 8(%rdi)
	je	.LBB58_15
	pushq	%rbp
	.cfi_def_cfa_offset 16
	pushq	%r15
	.cfi_def_cfa_offset 24
	pushq	%r14
	.cfi_def_cfa_offset 32
	pushq	%r13
	.cfi_def_cfa_offset 40
	pushq	%r12
	.cfi_def_cfa_offset 48
	pushq	%rbx
	.cfi_def_cfa_offset 56
	pushq	%rax
	.cfi_def_cfa_offset 64
	.cfi_offset %rbx, -56
	.cfi_offset %r12, -48
	.cfi_offset %r13, -40
	.cfi_offset %r14, -32
	.cfi_offset %r15, -24
	.cfi_offset %rbp, -16
	movq	(%rdi), %r15
	cmpb	$1, (%r15)
	jne	.LBB58_14
	movb	$0, (%r15)
	leaq	48(%r15), %rbx
	movl	56(%r15), %r13d
	leal	-4(%r13), %eax
	cmpb	$0, 16(%r15)
	cmpl	%eax, %esi
	ja	.LBB58_9
	movq	72(%r15), %rax
	movl	%esi, %ecx
	shrl	$6, %ecx
	movq	(%rax,%rcx,8), %rax
	btq	%rsi, %rax
	jae	.LBB58_9
	movq	%rdx, %r12
	movq	%rbx, %rdi
	movq	%rsi, %r14
	callq	"tlsf_heap::check::examine"
	cmpb	$1, %al
	jne	.LBB58_10
	movl	%edx, %ebp
	testl	%r14d, %r14d
	je	.LBB58_7
	movq	(%rbx), %rax
	movl	%r14d, %ecx
	movl	4(%rax,%rcx,8), %r14d
	movq	%rbx, %rdi
	movl	%r14d, %esi
	callq	"tlsf_heap::check::examine"
	movq	%r12, %rcx
	cmpb	$1, %al
	jne	.LBB58_11
.LBB58_7:
	cmpl	%r13d, %ebp
	jne	.LBB58_8
	movb	$1, (%r15)
	xorl	%eax, %eax
	jmp	.LBB58_14
.LBB58_9:
	movb	$1, (%r15)
	movl	$4, %eax
	jmp	.LBB58_14
.LBB58_10:
	movq	%r12, %rcx
.LBB58_11:
	movb	$1, (%r15)
.LBB58_12:
	movl	%r14d, (%rcx)
	movl	$36, %eax
.LBB58_14:
	addq	$8, %rsp
	.cfi_def_cfa_offset 56
	popq	%rbx
	.cfi_def_cfa_offset 48
	popq	%r12
	.cfi_def_cfa_offset 40
	popq	%r13
	.cfi_def_cfa_offset 32
	popq	%r14
	.cfi_def_cfa_offset 24
	popq	%r15
	.cfi_def_cfa_offset 16
	popq	%rbp
	.cfi_def_cfa_offset 8
	.cfi_restore %rbx
	.cfi_restore %r12
	.cfi_restore %r13
	.cfi_restore %r14
	.cfi_restore %r15
	.cfi_restore %rbp
.LBB58_15:
	retq
.LBB58_8:
	.cfi_def_cfa_offset 64
	.cfi_offset %rbx, -56
	.cfi_offset %rbp, -16
	.cfi_offset %r12, -48
	.cfi_offset %r13, -40
	.cfi_offset %r14, -32
	.cfi_offset %r15, -24
	movq	%rbx, %rdi
	movl	%ebp, %esi
	callq	"tlsf_heap::check::examine"
	movl	%eax, %ecx
	movl	%ebp, %r14d
	xorl	%eax, %eax
	movb	$1, (%r15)
	cmpb	$1, %cl
	movq	%r12, %rcx
	jne	.LBB58_12
	jmp	.LBB58_14
.Lfunc_end58:
	.size	tlsf_check_around, .Lfunc_end58-tlsf_check_around
	.cfi_endproc
	.section	.text.tlsf_check_request,"ax",@progbits
	.globl	tlsf_check_request
	.p2align	4
	.type	tlsf_check_request,@function
tlsf_check_request:
	.cfi_startproc
	movl	$32, %eax
	cmpb	$0, 8(%rdi)
	je	.LBB59_19
	pushq	%r14
	.cfi_def_cfa_offset 16
	pushq	%rbx
	.cfi_def_cfa_offset 24
	pushq	%rax
	.cfi_def_cfa_offset 32
	.cfi_offset %rbx, -24
	.cfi_offset %r14, -16
	movq	(%rdi), %rbx
	cmpb	$1, (%rbx)
	jne	.LBB59_18
	movl	$4294967295, %ecx
	cmpq	%rcx, %rsi
	cmovbq	%rsi, %rcx
	movb	$0, (%rbx)
	cmpq	$1, %rsi
	adcq	$31, %rcx
	movq	%rcx, %rax
	shrq	$3, %rax
	leaq	48(%rbx), %rdi
	cmpb	$0, 16(%rbx)
	je	.LBB59_3
	cmpq	$134217735, %rcx
	ja	.LBB59_16
	movl	%eax, %ecx
	orl	$32, %ecx
	bsrl	%ecx, %esi
	addl	$-5, %esi
	leal	-1(%rax), %r9d
	movl	%esi, %ecx
	shrl	%cl, %r9d
	shll	$5, %esi
	addl	%r9d, %esi
	movl	%esi, %r8d
	shrl	$5, %r8d
	movl	108(%rbx,%r8,4), %r10d
	movl	%r9d, %ecx
	shrl	%cl, %r10d
	andl	$-2, %r10d
	jne	.LBB59_5
	movl	$-2, %esi
	movl	%r8d, %ecx
	shll	%cl, %esi
	andl	104(%rbx), %esi
	je	.LBB59_16
	rep		bsfl	%esi, %ecx
	movl	$32, %esi
	rep		bsfl	108(%rbx,%rcx,4), %esi
	shll	$5, %ecx
	jmp	.LBB59_8
.LBB59_3:
	cmpq	$8388615, %rcx
	ja	.LBB59_16
	movl	%eax, %ecx
	orl	$16, %ecx
	bsrl	%ecx, %esi
	addl	$-4, %esi
	leal	-1(%rax), %r9d
	movl	%esi, %ecx
	shrl	%cl, %r9d
	shll	$4, %esi
	addl	%r9d, %esi
	movl	%esi, %r8d
	shrl	$4, %r8d
	movl	108(%rbx,%r8,4), %r10d
	andb	$15, %r9b
	movl	%r9d, %ecx
	shrl	%cl, %r10d
	andl	$-2, %r10d
	je	.LBB59_6
.LBB59_5:
	rep		bsfl	%r10d, %ecx
	addq	%rsi, %rcx
	movl	192(%rbx,%rcx,4), %esi
	cmpl	$-1, %esi
	jne	.LBB59_10
	jmp	.LBB59_16
.LBB59_6:
	movl	$-2, %esi
	movl	%r8d, %ecx
	shll	%cl, %esi
	andl	104(%rbx), %esi
	je	.LBB59_16
	rep		bsfl	%esi, %ecx
	movl	$32, %esi
	rep		bsfl	108(%rbx,%rcx,4), %esi
	shll	$4, %ecx
.LBB59_8:
	addl	%esi, %ecx
	movl	192(%rbx,%rcx,4), %esi
	cmpl	$-1, %esi
	je	.LBB59_16
.LBB59_10:
	movq	%rdx, %r14
	movl	%eax, %edx
	callq	"tlsf_heap::around::check_taken"
	movb	$1, (%rbx)
	testb	%al, %al
	je	.LBB59_11
	movl	%edx, (%r14)
	movl	$36, %eax
	jmp	.LBB59_18
.LBB59_16:
	movb	$1, (%rbx)
	movl	$1, %eax
.LBB59_18:
	addq	$8, %rsp
	.cfi_def_cfa_offset 24
	popq	%rbx
	.cfi_def_cfa_offset 16
	popq	%r14
	.cfi_def_cfa_offset 8
	.cfi_restore %rbx
	.cfi_restore %r14
.LBB59_19:
	retq
.LBB59_11:
	.cfi_def_cfa_offset 32
	.cfi_offset %rbx, -24
	.cfi_offset %r14, -16
	xorl	%eax, %eax
	jmp	.LBB59_18
.Lfunc_end59:
	.size	tlsf_check_request, .Lfunc_end59-tlsf_check_request
	.cfi_endproc
	.section	.text.tlsf_close,"ax",@progbits
	.globl	tlsf_close
	.p2align	4
	.type	tlsf_close,@function
tlsf_close:
	.cfi_startproc
	movl	$32, %eax
	cmpb	$0, 8(%rdi)
	je	.LBB60_7
	pushq	%rbp
	.cfi_def_cfa_offset 16
	pushq	%r15
	.cfi_def_cfa_offset 24
	pushq	%r14
	.cfi_def_cfa_offset 32
	pushq	%r12
	.cfi_def_cfa_offset 40
	pushq	%rbx
	.cfi_def_cfa_offset 48
	.cfi_offset %rbx, -48
	.cfi_offset %r12, -40
	.cfi_offset %r14, -32
	.cfi_offset %r15, -24
	.cfi_offset %rbp, -16
	movq	(%rdi), %rcx
	cmpb	$1, (%rcx)
	jne	.LBB60_6
	movb	$0, 8(%rdi)
	movb	$0, (%rcx)
	movq	(%rdi), %rax
	movq	$0, (%rdi)
	movq	48(%rax), %r14
	movq	64(%rax), %r12
	movq	72(%rax), %rbx
	movq	88(%rax), %r15
	movzbl	16(%rax), %ebp
	movq	%rax, %rdi
	callq	tlsf_memory_dealloc@PLT
	testb	%bpl, %bpl
	testq	%r12, %r12
	je	.LBB60_4
	movq	%r14, %rdi
	callq	tlsf_memory_dealloc@PLT
.LBB60_4:
	xorl	%eax, %eax
	testq	%r15, %r15
	je	.LBB60_6
	movq	%rbx, %rdi
	callq	tlsf_memory_dealloc@PLT
	xorl	%eax, %eax
.LBB60_6:
	popq	%rbx
	.cfi_def_cfa_offset 40
	popq	%r12
	.cfi_def_cfa_offset 32
	popq	%r14
	.cfi_def_cfa_offset 24
	popq	%r15
	.cfi_def_cfa_offset 16
	popq	%rbp
	.cfi_def_cfa_offset 8
	.cfi_restore %rbx
	.cfi_restore %r12
	.cfi_restore %r14
	.cfi_restore %r15
	.cfi_restore %rbp
.LBB60_7:
	retq
.Lfunc_end60:
	.size	tlsf_close, .Lfunc_end60-tlsf_close
	.cfi_endproc
	.section	.text.tlsf_counts,"ax",@progbits
	.globl	tlsf_counts
	.p2align	4
	.type	tlsf_counts,@function
tlsf_counts:
	.cfi_startproc
	cmpb	$0, 8(%rdi)
	je	.LBB61_3
	movq	(%rdi), %rax
	cmpb	$0, (%rax)
	je	.LBB61_3
	movsd	8(%rax), %xmm0
	movsd	40(%rax), %xmm1
	movlhps	%xmm0, %xmm1
	movups	%xmm1, (%rsi)
	xorl	%eax, %eax
	retq
.LBB61_3:
	xorl	%edi, %edi
	jmp	"tlsf_c::call_fault::CallFault::refusal"
.Lfunc_end61:
	.size	tlsf_counts, .Lfunc_end61-tlsf_counts
	.cfi_endproc
	.section	.text.tlsf_drain,"ax",@progbits
	.globl	tlsf_drain
	.p2align	4
	.type	tlsf_drain,@function
tlsf_drain:
	.cfi_startproc
	pushq	%rbp
	.cfi_def_cfa_offset 16
	pushq	%r15
	.cfi_def_cfa_offset 24
	pushq	%r14
	.cfi_def_cfa_offset 32
	pushq	%r13
	.cfi_def_cfa_offset 40
	pushq	%r12
	.cfi_def_cfa_offset 48
	pushq	%rbx
	.cfi_def_cfa_offset 56
	subq	$808, %rsp
	.cfi_def_cfa_offset 864
	.cfi_offset %rbx, -56
	.cfi_offset %r12, -48
	.cfi_offset %r13, -40
	.cfi_offset %r14, -32
	.cfi_offset %r15, -24
	.cfi_offset %rbp, -16
	cmpb	$0, 8(%rdi)
	je	.LBB62_4
	movq	%rdi, %r14
	movq	(%rdi), %rax
	cmpb	$1, (%rax)
	jne	.LBB62_4
	cmpb	$0, 8(%rsi)
	je	.LBB62_4
	movq	(%rsi), %rax
	cmpb	$0, 1(%rax)
	je	.LBB62_4
	cmpb	$1, (%rax)
	jne	.LBB62_15
	movl	%edx, %ebp
	movq	%rcx, 24(%rsp)
	movq	%rax, 16(%rsp)
	movb	$0, 1(%rax)
	leaq	40(%rsp), %rdi
	xorl	%r15d, %r15d
	movl	$768, %edx
	xorl	%esi, %esi
	callq	tlsf_memory_set@PLT
	testl	%ebp, %ebp
	je	.LBB62_14
	movq	16(%rsp), %rax
	addq	$8, %rax
	movq	%rax, 32(%rsp)
	xorl	%r15d, %r15d
	.p2align	4
.LBB62_9:
	movl	%r15d, 12(%rsp)
	cmpl	$32, %ebp
	movl	$32, %r12d
	cmovbl	%ebp, %r12d
	leaq	40(%rsp), %rsi
	movq	32(%rsp), %rdi
	movq	%r12, %rdx
	callq	"tlsf_post::take_end::TakeEnd::take_slice"
	movq	%rax, %rbx
	testq	%rax, %rax
	je	.LBB62_12
	leaq	56(%rsp), %r15
	movq	%rbx, %r13
	.p2align	4
.LBB62_11:
	movl	-8(%r15), %esi
	movl	-4(%r15), %ecx
	movq	(%r15), %rdx
	movq	%r14, %rdi
	callq	"tlsf_c::heap_calls::release_named"
	addq	$24, %r15
	decq	%r13
	jne	.LBB62_11
.LBB62_12:
	movl	12(%rsp), %r15d
	addl	%ebx, %r15d
	cmpq	%r12, %rbx
	jb	.LBB62_14
	subl	%ebx, %ebp
	jne	.LBB62_9
.LBB62_14:
	movq	24(%rsp), %rax
	movl	%r15d, (%rax)
	movq	16(%rsp), %rax
	movb	$1, 1(%rax)
	xorl	%eax, %eax
	addq	$808, %rsp
	.cfi_def_cfa_offset 56
	popq	%rbx
	.cfi_def_cfa_offset 48
	popq	%r12
	.cfi_def_cfa_offset 40
	popq	%r13
	.cfi_def_cfa_offset 32
	popq	%r14
	.cfi_def_cfa_offset 24
	popq	%r15
	.cfi_def_cfa_offset 16
	popq	%rbp
	.cfi_def_cfa_offset 8
	retq
.LBB62_4:
	.cfi_def_cfa_offset 864
	xorl	%edi, %edi
.LBB62_5:
	addq	$808, %rsp
	.cfi_def_cfa_offset 56
	popq	%rbx
	.cfi_def_cfa_offset 48
	popq	%r12
	.cfi_def_cfa_offset 40
	popq	%r13
	.cfi_def_cfa_offset 32
	popq	%r14
	.cfi_def_cfa_offset 24
	popq	%r15
	.cfi_def_cfa_offset 16
	popq	%rbp
	.cfi_def_cfa_offset 8
	jmp	"tlsf_c::call_fault::CallFault::refusal"
.LBB62_15:
	.cfi_def_cfa_offset 864
	movl	$2, %edi
	jmp	.LBB62_5
.Lfunc_end62:
	.size	tlsf_drain, .Lfunc_end62-tlsf_drain
	.cfi_endproc
	.section	.text.tlsf_lane_open,"ax",@progbits
	.globl	tlsf_lane_open
	.p2align	4
	.type	tlsf_lane_open,@function
tlsf_lane_open:
	.cfi_startproc
	pushq	%rbp
	.cfi_def_cfa_offset 16
	pushq	%r15
	.cfi_def_cfa_offset 24
	pushq	%r14
	.cfi_def_cfa_offset 32
	pushq	%r13
	.cfi_def_cfa_offset 40
	pushq	%r12
	.cfi_def_cfa_offset 48
	pushq	%rbx
	.cfi_def_cfa_offset 56
	subq	$152, %rsp
	.cfi_def_cfa_offset 208
	.cfi_offset %rbx, -56
	.cfi_offset %r12, -48
	.cfi_offset %r13, -40
	.cfi_offset %r14, -32
	.cfi_offset %r15, -24
	.cfi_offset %rbp, -16
	xorps	%xmm0, %xmm0
	movaps	%xmm0, (%rsp)
	movaps	%xmm0, 16(%rsp)
	movaps	%xmm0, 32(%rsp)
	movq	$0, 48(%rsp)
	movaps	%xmm0, 96(%rsp)
	movaps	%xmm0, 112(%rsp)
	movaps	%xmm0, 128(%rsp)
	movaps	%xmm0, 64(%rsp)
	movq	$0, 80(%rsp)
	movl	$33, %eax
	cmpb	$0, 8(%rdi)
	jne	.LBB63_22
	cmpb	$0, 8(%rsi)
	jne	.LBB63_22
	leal	-1025(%rdx), %ecx
	movl	$5, %eax
	cmpl	$-1024, %ecx
	jb	.LBB63_22
	movq	%rdx, %rbx
	movq	%rdi, %rbp
	movq	%rsi, %r13
	movl	$384, %edi
	movl	$8, %esi
	callq	tlsf_memory_alloc@PLT
	movq	%rax, %rcx
	movl	$6, %eax
	testb	$1, %cl
	je	.LBB63_22
	movq	%rdx, %r14
	movl	%ebx, %r15d
	leaq	(,%r15,8), %rax
	leaq	(%rax,%rax,2), %rdi
	movl	$8, %esi
	callq	tlsf_memory_alloc@PLT
	testb	$1, %al
	je	.LBB63_5
	movq	%rdx, %r12
	movq	$0, (%r14)
	movq	$0, 128(%r14)
	movq	$0, 256(%r14)
	movl	$48, %edi
	movl	$8, %esi
	callq	tlsf_memory_alloc@PLT
	testb	$1, %al
	je	.LBB63_9
	movq	%rdx, %rbx
	movw	$256, (%rdx)
	movq	%r14, 8(%rdx)
	movq	%r12, 16(%rdx)
	movq	%r15, 24(%rdx)
	xorps	%xmm0, %xmm0
	movups	%xmm0, 32(%rdx)
	movw	$257, 96(%rsp)
	movq	%r14, 104(%rsp)
	movq	%r12, 112(%rsp)
	movq	%r15, 120(%rsp)
	movaps	%xmm0, 128(%rsp)
	movq	%rsp, %rdi
	leaq	96(%rsp), %rsi
	callq	"std_alloc::boxed::Box::new::<#91a8e04f462e8cea>"
	cmpb	$0, (%rsp)
	je	.LBB63_8
	movzbl	8(%rsp), %eax
	movq	16(%rsp), %rdi
	movq	24(%rsp), %rsi
	movq	32(%rsp), %r14
	leaq	.LJTI63_0(%rip), %rcx
	movslq	(%rcx,%rax,4), %rax
	addq	%rcx, %rax
	jmpq	*%rax
.LBB63_14:
	movl	$1, %eax
	xchgq	%rax, 256(%rdi)
	jmp	.LBB63_15
.LBB63_5:
	movq	%r14, %rdi
	callq	tlsf_memory_dealloc@PLT
	jmp	.LBB63_21
.LBB63_9:
	movl	$1, %eax
	xchgq	%rax, 256(%r14)
	movl	$1, %ebx
	testq	%rax, %rax
	je	.LBB63_11
	movq	%r14, %rdi
	movq	%r12, %rsi
	movq	%r15, %rdx
	callq	"rtrb::release::drop_slow::<#23d795680250cb0d>"
.LBB63_11:
	xchgq	%rbx, 256(%r14)
	testq	%rbx, %rbx
	je	.LBB63_21
	movq	%r14, %rdi
	movq	%r12, %rsi
	movq	%r15, %rdx
	callq	"rtrb::release::drop_slow::<#23d795680250cb0d>"
	jmp	.LBB63_21
.LBB63_8:
	movq	8(%rsp), %rax
	movq	%rbx, (%rbp)
	movb	$1, 8(%rbp)
	movl	$0, 9(%rbp)
	movl	$0, 12(%rbp)
	movq	%rax, (%r13)
	movb	$1, 8(%r13)
	movl	$0, 9(%r13)
	movl	$0, 12(%r13)
	xorl	%eax, %eax
	jmp	.LBB63_22
.LBB63_18:
	callq	"std_alloc::arc::Arc::drop::<#c4a047e811255370>"
	movq	%r14, 64(%rsp)
	movups	40(%rsp), %xmm0
	movups	%xmm0, 72(%rsp)
	leaq	64(%rsp), %rdi
	callq	"std_alloc::vec::Vec::drop::<#7ac45d8413b9ad54>"
	jmp	.LBB63_20
.LBB63_19:
	callq	"std_alloc::arc::Arc::drop::<#c4a047e811255370>"
	jmp	.LBB63_20
.LBB63_17:
	movl	$1, %eax
	xchgq	%rax, 256(%rdi)
.LBB63_15:
	testq	%rax, %rax
	je	.LBB63_20
	movq	%r14, %rdx
	callq	"rtrb::release::drop_slow::<#23d795680250cb0d>"
.LBB63_20:
	movq	%rbx, %rdi
	callq	"std_alloc::boxed::Box::drop::<#7d8ec8058c3633cd>"
.LBB63_21:
	movl	$6, %eax
.LBB63_22:
	addq	$152, %rsp
	.cfi_def_cfa_offset 56
	popq	%rbx
	.cfi_def_cfa_offset 48
	popq	%r12
	.cfi_def_cfa_offset 40
	popq	%r13
	.cfi_def_cfa_offset 32
	popq	%r14
	.cfi_def_cfa_offset 24
	popq	%r15
	.cfi_def_cfa_offset 16
	popq	%rbp
	.cfi_def_cfa_offset 8
	retq
.Lfunc_end63:
	.size	tlsf_lane_open, .Lfunc_end63-tlsf_lane_open
	.cfi_endproc
	.section	.rodata.tlsf_lane_open,"a",@progbits
	.p2align	2, 0x0
.LJTI63_0:
	.long	.LBB63_14-.LJTI63_0
	.long	.LBB63_17-.LJTI63_0
	.long	.LBB63_18-.LJTI63_0
	.long	.LBB63_19-.LJTI63_0
	.section	.text.tlsf_locate,"ax",@progbits
	.globl	tlsf_locate
	.p2align	4
	.type	tlsf_locate,@function
tlsf_locate:
	.cfi_startproc
	pushq	%rbx
	.cfi_def_cfa_offset 16
	.cfi_offset %rbx, -16
	cmpb	$0, 8(%rdi)
	je	.LBB64_12
	movq	(%rdi), %rbx
	cmpb	$0, (%rbx)
	je	.LBB64_12
	movq	%rsi, %rdi
	shrq	$32, %rdi
	movb	$0, (%rbx)
	cmpb	$0, 16(%rbx)
	movl	24(%rbx), %eax
	cmpl	%esi, %eax
	jne	.LBB64_3
	cmpl	56(%rbx), %edi
	jae	.LBB64_9
	movq	72(%rbx), %rax
	movq	%rsi, %r9
	shrq	$38, %r9
	movq	(%rax,%r9,8), %rax
	btq	%rdi, %rax
	jae	.LBB64_9
	movq	48(%rbx), %rax
	testb	$1, (%rax,%rdi,8)
	jne	.LBB64_9
	leaq	(%rax,%rdi,8), %rdi
	cmpq	%rdx, 8(%rdi)
	jne	.LBB64_9
	movl	16(%rdi), %edx
	movb	$1, (%rbx)
	movq	%rax, (%rcx)
	movl	%edx, (%r8)
	xorl	%eax, %eax
	popq	%rbx
	.cfi_def_cfa_offset 8
	retq
.LBB64_9:
	.cfi_def_cfa_offset 16
	movl	%esi, %edi
	jmp	.LBB64_4
.LBB64_12:
	xorl	%edi, %edi
	popq	%rbx
	.cfi_def_cfa_offset 8
	jmp	"tlsf_c::call_fault::CallFault::refusal"
.LBB64_3:
	.cfi_def_cfa_offset 16
	movl	%esi, %edi
	movl	%eax, %esi
.LBB64_4:
	callq	"tlsf_heap::refusal::Refusal::of_name"
	movb	$1, (%rbx)
	cmpb	$3, %al
	movl	$0, %eax
	sete	%al
	addl	$3, %eax
	popq	%rbx
	.cfi_def_cfa_offset 8
	retq
.Lfunc_end64:
	.size	tlsf_locate, .Lfunc_end64-tlsf_locate
	.cfi_endproc
	.section	.text.tlsf_offsets_allocate,"ax",@progbits
	.globl	tlsf_offsets_allocate
	.p2align	4
	.type	tlsf_offsets_allocate,@function
tlsf_offsets_allocate:
	.cfi_startproc
	pushq	%r15
	.cfi_def_cfa_offset 16
	pushq	%r14
	.cfi_def_cfa_offset 24
	pushq	%rbx
	.cfi_def_cfa_offset 32
	.cfi_offset %rbx, -32
	.cfi_offset %r14, -24
	.cfi_offset %r15, -16
	cmpb	$0, 8(%rdi)
	je	.LBB65_2
	movq	(%rdi), %rdi
	cmpb	$0, 1(%rdi)
	je	.LBB65_2
	cmpb	$0, (%rdi)
	jne	.LBB65_50
	movq	%rdx, %r8
	movb	$0, 1(%rdi)
	cmpb	$0, 8(%rdi)
	movl	2752(%rdi), %ecx
	je	.LBB65_6
	testq	%rcx, %rcx
	je	.LBB65_54
	movq	%rsi, %rax
	shrq	$32, %rax
	je	.LBB65_32
	movq	%rsi, %rax
	xorl	%edx, %edx
	divq	%rcx
	jmp	.LBB65_34
.LBB65_6:
	testq	%rcx, %rcx
	je	.LBB65_54
	movq	%rsi, %rax
	shrq	$32, %rax
	je	.LBB65_8
	movq	%rsi, %rax
	xorl	%edx, %edx
	divq	%rcx
	jmp	.LBB65_10
.LBB65_32:
	movl	%esi, %eax
	xorl	%edx, %edx
	divl	%ecx
.LBB65_34:
	cmpq	$1, %rdx
	sbbq	$-1, %rax
	cmpq	$5, %rax
	movl	$4, %r9d
	cmovaeq	%rax, %r9
	movl	$4294967295, %ecx
	cmpq	%rcx, %r9
	cmovaeq	%rcx, %r9
	cmpq	$16777216, %rax
	ja	.LBB65_51
	movl	%r9d, %eax
	orl	$32, %eax
	bsrl	%eax, %eax
	addl	$-5, %eax
	leal	-1(%r9), %esi
	movl	%eax, %ecx
	shrl	%cl, %esi
	shll	$5, %eax
	addl	%esi, %eax
	movl	%eax, %edx
	shrl	$5, %edx
	movl	100(%rdi,%rdx,4), %r10d
	movl	%esi, %ecx
	shrl	%cl, %r10d
	andl	$-2, %r10d
	je	.LBB65_37
	rep		bsfl	%r10d, %ecx
	addq	%rax, %rcx
	movq	24(%rdi), %rdx
	cmpq	$-1, %rdx
	jne	.LBB65_40
	jmp	.LBB65_52
.LBB65_8:
	movl	%esi, %eax
	xorl	%edx, %edx
	divl	%ecx
.LBB65_10:
	cmpq	$1, %rdx
	sbbq	$-1, %rax
	cmpq	$5, %rax
	movl	$4, %r9d
	cmovaeq	%rax, %r9
	movl	$4294967295, %ecx
	cmpq	%rcx, %r9
	cmovaeq	%rcx, %r9
	cmpq	$1048576, %rax
	jbe	.LBB65_11
.LBB65_51:
	movb	$1, 1(%rdi)
	movl	$1, %eax
	popq	%rbx
	.cfi_def_cfa_offset 24
	popq	%r14
	.cfi_def_cfa_offset 16
	popq	%r15
	.cfi_def_cfa_offset 8
	retq
.LBB65_11:
	.cfi_def_cfa_offset 32
	movl	%r9d, %eax
	orl	$16, %eax
	bsrl	%eax, %eax
	addl	$-4, %eax
	leal	-1(%r9), %esi
	movl	%eax, %ecx
	shrl	%cl, %esi
	shll	$4, %eax
	addl	%esi, %eax
	movl	%eax, %edx
	shrl	$4, %edx
	movl	100(%rdi,%rdx,4), %r10d
	andb	$15, %sil
	movl	%esi, %ecx
	shrl	%cl, %r10d
	andl	$-2, %r10d
	je	.LBB65_13
	rep		bsfl	%r10d, %ecx
	addq	%rax, %rcx
	movq	24(%rdi), %rdx
	cmpq	$-1, %rdx
	jne	.LBB65_16
	jmp	.LBB65_52
.LBB65_2:
	xorl	%edi, %edi
	popq	%rbx
	.cfi_def_cfa_offset 24
	popq	%r14
	.cfi_def_cfa_offset 16
	popq	%r15
	.cfi_def_cfa_offset 8
	jmp	"tlsf_c::call_fault::CallFault::refusal"
.LBB65_37:
	.cfi_def_cfa_offset 32
	movl	$-2, %eax
	movl	%edx, %ecx
	shll	%cl, %eax
	andl	96(%rdi), %eax
	je	.LBB65_51
	rep		bsfl	%eax, %ecx
	movl	$32, %eax
	rep		bsfl	100(%rdi,%rcx,4), %eax
	shll	$5, %ecx
	addl	%eax, %ecx
	movq	24(%rdi), %rdx
	cmpq	$-1, %rdx
	je	.LBB65_52
.LBB65_40:
	movq	40(%rdi), %r11
	movl	184(%rdi,%rcx,4), %esi
	movq	16(%r11,%rsi,8), %rax
	cmpl	$-1, %eax
	je	.LBB65_41
	movl	%eax, %r10d
	movl	$-1, 20(%r11,%r10,8)
	movl	%eax, 184(%rdi,%rcx,4)
	movq	40(%rdi), %r11
	jmp	.LBB65_44
.LBB65_13:
	movl	$-2, %eax
	movl	%edx, %ecx
	shll	%cl, %eax
	andl	96(%rdi), %eax
	je	.LBB65_51
	rep		bsfl	%eax, %ecx
	movl	$32, %eax
	rep		bsfl	100(%rdi,%rcx,4), %eax
	shll	$4, %ecx
	addl	%eax, %ecx
	movq	24(%rdi), %rdx
	cmpq	$-1, %rdx
	je	.LBB65_52
.LBB65_16:
	movq	40(%rdi), %r11
	movl	184(%rdi,%rcx,4), %esi
	movq	16(%r11,%rsi,8), %rax
	cmpl	$-1, %eax
	je	.LBB65_17
	movl	%eax, %r10d
	movl	$-1, 20(%r11,%r10,8)
	movl	%eax, 184(%rdi,%rcx,4)
	movq	40(%rdi), %r11
	jmp	.LBB65_20
.LBB65_52:
	movb	$1, 1(%rdi)
	movl	$2, %eax
	popq	%rbx
	.cfi_def_cfa_offset 24
	popq	%r14
	.cfi_def_cfa_offset 16
	popq	%r15
	.cfi_def_cfa_offset 8
	retq
.LBB65_41:
	.cfi_def_cfa_offset 32
	movl	$-1, 184(%rdi,%rcx,4)
	movq	%rcx, %rax
	shrq	$5, %rax
	movl	$-2, %r10d
	roll	%cl, %r10d
	movq	%rax, %rcx
	movl	$-2, %eax
	andl	%r10d, 100(%rdi,%rcx,4)
	jne	.LBB65_44
	roll	%cl, %eax
	andl	%eax, 96(%rdi)
.LBB65_44:
	movq	(%r11,%rsi,8), %rcx
	leal	(,%r9,4), %eax
	movl	%ecx, %r10d
	subl	%eax, %r10d
	cmpl	$15, %r10d
	jbe	.LBB65_21
	movl	%r10d, %ebx
	shrl	$2, %r10d
	movq	%rsi, %r14
	shlq	$32, %r14
	orq	%rbx, %r14
	leal	(%rsi,%r9), %eax
	subq	%rbx, %rcx
	movq	%rcx, (%r11,%rsi,8)
	movq	%rdx, 8(%r11,%rsi,8)
	movq	$0, 16(%r11,%rsi,8)
	movq	%r14, (%r11,%rax,8)
	movq	%rdx, 8(%r11,%rax,8)
	movq	64(%rdi), %r11
	movl	%eax, %r14d
	shrl	$6, %r14d
	movl	$1, %r15d
	movl	%eax, %ecx
	shlq	%cl, %r15
	orq	%r15, (%r11,%r14,8)
	testb	$2, %bl
	jne	.LBB65_47
	leal	(%r10,%rax), %ecx
	movq	40(%rdi), %r11
	movl	%eax, 4(%r11,%rcx,8)
.LBB65_47:
	movl	%r10d, %ecx
	orl	$32, %ecx
	bsrl	%ecx, %ecx
	addl	$-5, %ecx
	shrl	%cl, %r10d
	shll	$5, %ecx
	addl	%r10d, %ecx
	movslq	184(%rdi,%rcx,4), %r11
	movl	%eax, 184(%rdi,%rcx,4)
	movq	40(%rdi), %rbx
	testq	%r11, %r11
	jns	.LBB65_26
	movq	$-1, 16(%rbx,%rax,8)
	shrl	$5, %ecx
	movl	$1, %eax
	shll	%cl, %eax
	movl	100(%rdi,%rcx,4), %r11d
	orl	%eax, 96(%rdi)
	jmp	.LBB65_49
.LBB65_50:
	movl	$2, %edi
	popq	%rbx
	.cfi_def_cfa_offset 24
	popq	%r14
	.cfi_def_cfa_offset 16
	popq	%r15
	.cfi_def_cfa_offset 8
	jmp	"tlsf_c::call_fault::CallFault::refusal"
.LBB65_17:
	.cfi_def_cfa_offset 32
	movl	$-1, 184(%rdi,%rcx,4)
	movq	%rcx, %rax
	shrq	$4, %rax
	andb	$15, %cl
	movl	$-2, %r10d
	roll	%cl, %r10d
	movq	%rax, %rcx
	movl	$-2, %eax
	andl	%r10d, 100(%rdi,%rcx,4)
	jne	.LBB65_20
	roll	%cl, %eax
	andl	%eax, 96(%rdi)
.LBB65_20:
	movq	(%r11,%rsi,8), %rcx
	leal	(,%r9,4), %eax
	movl	%ecx, %r10d
	subl	%eax, %r10d
	cmpl	$15, %r10d
	ja	.LBB65_22
.LBB65_21:
	decq	%rcx
	movq	%rcx, (%r11,%rsi,8)
	movq	%rdx, 8(%r11,%rsi,8)
	movq	$0, 16(%r11,%rsi,8)
	shrl	$2, %ecx
	movl	%ecx, %r9d
	addl	32(%rdi), %r9d
	movl	%r9d, 32(%rdi)
	cmpl	%r9d, 36(%rdi)
	jb	.LBB65_28
	jmp	.LBB65_29
.LBB65_22:
	movl	%r10d, %ebx
	shrl	$2, %r10d
	movq	%rsi, %r14
	shlq	$32, %r14
	orq	%rbx, %r14
	leal	(%rsi,%r9), %eax
	subq	%rbx, %rcx
	movq	%rcx, (%r11,%rsi,8)
	movq	%rdx, 8(%r11,%rsi,8)
	movq	$0, 16(%r11,%rsi,8)
	movq	%r14, (%r11,%rax,8)
	movq	%rdx, 8(%r11,%rax,8)
	movq	64(%rdi), %r11
	movl	%eax, %r14d
	shrl	$6, %r14d
	movl	$1, %r15d
	movl	%eax, %ecx
	shlq	%cl, %r15
	orq	%r15, (%r11,%r14,8)
	testb	$2, %bl
	jne	.LBB65_24
	leal	(%r10,%rax), %ecx
	movq	40(%rdi), %r11
	movl	%eax, 4(%r11,%rcx,8)
.LBB65_24:
	movl	%r10d, %ecx
	orl	$16, %ecx
	bsrl	%ecx, %ecx
	addl	$-4, %ecx
	shrl	%cl, %r10d
	shll	$4, %ecx
	addl	%r10d, %ecx
	movslq	184(%rdi,%rcx,4), %r11
	movl	%eax, 184(%rdi,%rcx,4)
	movq	40(%rdi), %rbx
	testq	%r11, %r11
	js	.LBB65_25
.LBB65_26:
	movabsq	$-4294967296, %rcx
	orq	%r11, %rcx
	movq	%rcx, 16(%rbx,%rax,8)
	movl	%eax, 20(%rbx,%r11,8)
	addl	32(%rdi), %r9d
	movl	%r9d, 32(%rdi)
	cmpl	%r9d, 36(%rdi)
	jae	.LBB65_29
.LBB65_28:
	movl	%r9d, 36(%rdi)
.LBB65_29:
	incq	24(%rdi)
	movl	16(%rdi), %eax
	movq	40(%rdi), %rcx
	leal	3(%rsi), %r9d
	movq	$0, (%rcx,%r9,8)
	movq	40(%rdi), %rcx
	movl	(%rcx,%rsi,8), %ecx
	shrl	$2, %ecx
	movl	2752(%rdi), %r9d
	imulq	%r9, %rcx
	imulq	%rsi, %r9
	movb	$1, 1(%rdi)
	movl	%eax, (%r8)
	movl	%esi, 4(%r8)
	movq	%rdx, 8(%r8)
	movq	%r9, 16(%r8)
	movq	%rcx, 24(%r8)
	xorl	%eax, %eax
	popq	%rbx
	.cfi_def_cfa_offset 24
	popq	%r14
	.cfi_def_cfa_offset 16
	popq	%r15
	.cfi_def_cfa_offset 8
	retq
.LBB65_25:
	.cfi_def_cfa_offset 32
	movq	$-1, 16(%rbx,%rax,8)
	shrl	$4, %ecx
	movl	$1, %eax
	shll	%cl, %eax
	movl	100(%rdi,%rcx,4), %r11d
	orl	%eax, 96(%rdi)
	andb	$15, %r10b
.LBB65_49:
	btsl	%r10d, %r11d
	movl	%r11d, 100(%rdi,%rcx,4)
	addl	32(%rdi), %r9d
	movl	%r9d, 32(%rdi)
	cmpl	%r9d, 36(%rdi)
	jb	.LBB65_28
	jmp	.LBB65_29
.LBB65_54:
	ud2
.Lfunc_end65:
	.size	tlsf_offsets_allocate, .Lfunc_end65-tlsf_offsets_allocate
	.cfi_endproc
	.section	.text.tlsf_offsets_close,"ax",@progbits
	.globl	tlsf_offsets_close
	.p2align	4
	.type	tlsf_offsets_close,@function
tlsf_offsets_close:
	.cfi_startproc
	movl	$32, %eax
	cmpb	$0, 8(%rdi)
	je	.LBB66_4
	movq	(%rdi), %rcx
	cmpb	$1, 1(%rcx)
	jne	.LBB66_4
	movl	$40, %eax
	cmpb	$0, (%rcx)
	je	.LBB66_3
.LBB66_4:
	retq
.LBB66_3:
	pushq	%rax
	.cfi_def_cfa_offset 16
	callq	"tlsf_c::arena_slot::ArenaSlot::close"
	xorl	%eax, %eax
	addq	$8, %rsp
	.cfi_def_cfa_offset 8
	retq
.Lfunc_end66:
	.size	tlsf_offsets_close, .Lfunc_end66-tlsf_offsets_close
	.cfi_endproc
	.section	.text.tlsf_offsets_open,"ax",@progbits
	.globl	tlsf_offsets_open
	.p2align	4
	.type	tlsf_offsets_open,@function
tlsf_offsets_open:
	.cfi_startproc
	pushq	%rbp
	.cfi_def_cfa_offset 16
	pushq	%r15
	.cfi_def_cfa_offset 24
	pushq	%r14
	.cfi_def_cfa_offset 32
	pushq	%r13
	.cfi_def_cfa_offset 40
	pushq	%r12
	.cfi_def_cfa_offset 48
	pushq	%rbx
	.cfi_def_cfa_offset 56
	subq	$40, %rsp
	.cfi_def_cfa_offset 96
	.cfi_offset %rbx, -56
	.cfi_offset %r12, -48
	.cfi_offset %r13, -40
	.cfi_offset %r14, -32
	.cfi_offset %r15, -24
	.cfi_offset %rbp, -16
	movl	$33, %eax
	cmpb	$0, 8(%rdi)
	jne	.LBB67_24
	leal	-6(%rsi), %r9d
	movl	$34, %eax
	cmpl	$-2, %r9d
	jae	.LBB67_2
.LBB67_24:
	addq	$40, %rsp
	.cfi_def_cfa_offset 56
	popq	%rbx
	.cfi_def_cfa_offset 48
	popq	%r12
	.cfi_def_cfa_offset 40
	popq	%r13
	.cfi_def_cfa_offset 32
	popq	%r14
	.cfi_def_cfa_offset 24
	popq	%r15
	.cfi_def_cfa_offset 16
	popq	%rbp
	.cfi_def_cfa_offset 8
	retq
.LBB67_2:
	.cfi_def_cfa_offset 96
	cmpl	$4, %esi
	jne	.LBB67_13
	testl	%ecx, %ecx
	sete	%al
	leal	-1048577(%r8), %r9d
	cmpl	$-1048573, %r9d
	setb	%r9b
	orb	%al, %r9b
	movl	$5, %eax
	jne	.LBB67_24
	movl	%ecx, 8(%rsp)
	movl	%edx, 20(%rsp)
	movq	%rsi, 32(%rsp)
	movq	%rdi, 24(%rsp)
	movq	%r8, %r14
	movl	%r8d, %r13d
	leaq	(,%r13,8), %rdi
	movl	$8, %esi
	callq	tlsf_memory_alloc@PLT
	movq	%rax, %rcx
	movl	$6, %eax
	testb	$1, %cl
	je	.LBB67_24
	movq	%rdx, %r15
	pxor	%xmm0, %xmm0
	movdqu	%xmm0, 16(%rdx)
	movdqu	%xmm0, (%rdx)
	leal	63(%r14), %ebp
	shrl	$6, %ebp
	leal	(,%rbp,8), %edi
	movl	$8, %esi
	callq	tlsf_memory_alloc@PLT
	testb	$1, %al
	je	.LBB67_6
	movq	%rdx, %r12
	movq	$0, (%rdx)
	movabsq	$-4294967296, %rax
	orq	$19, %rax
	movq	%rax, (%r15)
	movq	$0, 8(%r15)
	orb	$1, (%rdx)
	movq	$-1, 16(%r15)
	movl	$2760, %edi
	movl	$8, %esi
	callq	tlsf_memory_alloc@PLT
	testb	$1, %al
	je	.LBB67_18
	movq	%rdx, %rbx
	movl	8(%rsp), %eax
	movq	%rax, 8(%rsp)
	movw	$256, (%rdx)
	movq	$0, 8(%rdx)
	jmp	.LBB67_10
.LBB67_13:
	testl	%ecx, %ecx
	sete	%al
	leal	-16777217(%r8), %r9d
	cmpl	$-16777213, %r9d
	setb	%r9b
	orb	%al, %r9b
	movl	$5, %eax
	jne	.LBB67_24
	movl	%ecx, 8(%rsp)
	movl	%edx, 20(%rsp)
	movq	%rsi, 32(%rsp)
	movq	%rdi, 24(%rsp)
	movq	%r8, %r14
	movl	%r8d, %r13d
	leaq	(,%r13,8), %rdi
	movl	$8, %esi
	callq	tlsf_memory_alloc@PLT
	movq	%rax, %rcx
	movl	$6, %eax
	testb	$1, %cl
	je	.LBB67_24
	movq	%rdx, %r15
	pxor	%xmm0, %xmm0
	movdqu	%xmm0, 16(%rdx)
	movdqu	%xmm0, (%rdx)
	leal	63(%r14), %ebp
	shrl	$6, %ebp
	leal	(,%rbp,8), %edi
	movl	$8, %esi
	callq	tlsf_memory_alloc@PLT
	testb	$1, %al
	je	.LBB67_6
	movq	%rdx, %r12
	movq	$0, (%rdx)
	movabsq	$-4294967296, %rax
	orq	$19, %rax
	movq	%rax, (%r15)
	movq	$0, 8(%r15)
	orb	$1, (%rdx)
	movq	$-1, 16(%r15)
	movl	$2760, %edi
	movl	$8, %esi
	callq	tlsf_memory_alloc@PLT
	testb	$1, %al
	je	.LBB67_18
	movq	%rdx, %rbx
	movl	8(%rsp), %eax
	movq	%rax, 8(%rsp)
	movw	$256, (%rdx)
	movq	$1, 8(%rdx)
.LBB67_10:
	movl	20(%rsp), %eax
	movl	%eax, 16(%rbx)
	movl	$0, 20(%rbx)
	movq	$1, 24(%rbx)
	movq	$0, 32(%rbx)
	movq	%r15, 40(%rbx)
	movq	$4, 48(%rbx)
	movq	%r13, 56(%rbx)
	movq	%r12, 64(%rbx)
	movq	$1, 72(%rbx)
	movq	%rbp, 80(%rbx)
	movq	$4, 88(%rbx)
	movabsq	$68719476737, %rax
	movq	%rax, 96(%rbx)
	pxor	%xmm0, %xmm0
	movdqu	%xmm0, 104(%rbx)
	movdqu	%xmm0, 120(%rbx)
	movdqu	%xmm0, 136(%rbx)
	movdqu	%xmm0, 152(%rbx)
	movdqu	%xmm0, 168(%rbx)
	pcmpeqd	%xmm0, %xmm0
	movdqu	%xmm0, 184(%rbx)
	movl	$0, 200(%rbx)
	movq	%rbx, %rdi
	addq	$204, %rdi
	movl	$2544, %edx
	movl	$255, %esi
	callq	tlsf_memory_set@PLT
	movl	$0, 2748(%rbx)
	movq	8(%rsp), %rax
	movq	%rax, 2752(%rbx)
	leaq	40(%rbx), %rdi
	movl	%r14d, %esi
	callq	"tlsf_words::words::Words::lengthen"
	movl	$-1, 200(%rbx)
	pxor	%xmm0, %xmm0
	movdqu	%xmm0, 96(%rbx)
	movdqu	%xmm0, 112(%rbx)
	movdqu	%xmm0, 128(%rbx)
	movdqu	%xmm0, 144(%rbx)
	movdqu	%xmm0, 160(%rbx)
	movq	$0, 176(%rbx)
	movl	48(%rbx), %eax
	leal	(,%rax,4), %ecx
	movabsq	$-4294967296, %rdx
	orq	%rdx, %rcx
	orq	$3, %rcx
	movq	40(%rbx), %rsi
	movq	%rcx, (%rsi)
	movq	$0, 8(%rsi)
	movq	64(%rbx), %rcx
	orq	$1, (%rcx)
	cmpl	$4, 32(%rsp)
	jne	.LBB67_19
	movl	%eax, %ecx
	orl	$16, %ecx
	bsrl	%ecx, %ecx
	addl	$-4, %ecx
	shrl	%cl, %eax
	shll	$4, %ecx
	addl	%eax, %ecx
	movslq	184(%rbx,%rcx,4), %rdi
	movl	$0, 184(%rbx,%rcx,4)
	movq	40(%rbx), %r8
	testq	%rdi, %rdi
	movq	24(%rsp), %rsi
	jns	.LBB67_22
	movq	$-1, 16(%r8)
	shrl	$4, %ecx
	movl	$1, %edx
	shll	%cl, %edx
	movl	100(%rbx,%rcx,4), %edi
	orl	%edx, 96(%rbx)
	andb	$15, %al
	jmp	.LBB67_21
.LBB67_6:
	movq	%r15, %rdi
	jmp	.LBB67_7
.LBB67_18:
	movq	%r15, %rdi
	callq	tlsf_memory_dealloc@PLT
	movq	%r12, %rdi
.LBB67_7:
	callq	tlsf_memory_dealloc@PLT
	movl	$6, %eax
	jmp	.LBB67_24
.LBB67_19:
	movl	%eax, %ecx
	orl	$32, %ecx
	bsrl	%ecx, %ecx
	addl	$-5, %ecx
	shrl	%cl, %eax
	shll	$5, %ecx
	addl	%eax, %ecx
	movslq	184(%rbx,%rcx,4), %rdi
	movl	$0, 184(%rbx,%rcx,4)
	movq	40(%rbx), %r8
	testq	%rdi, %rdi
	movq	24(%rsp), %rsi
	js	.LBB67_20
.LBB67_22:
	orq	%rdi, %rdx
	movq	%rdx, 16(%r8)
	movl	$0, 20(%r8,%rdi,8)
	jmp	.LBB67_23
.LBB67_20:
	movq	$-1, 16(%r8)
	shrl	$5, %ecx
	movl	$1, %edx
	shll	%cl, %edx
	movl	100(%rbx,%rcx,4), %edi
	orl	%edx, 96(%rbx)
.LBB67_21:
	btsl	%eax, %edi
	movl	%edi, 100(%rbx,%rcx,4)
.LBB67_23:
	movq	%rbx, (%rsi)
	movb	$1, 8(%rsi)
	movl	$0, 9(%rsi)
	movl	$0, 12(%rsi)
	xorl	%eax, %eax
	jmp	.LBB67_24
.Lfunc_end67:
	.size	tlsf_offsets_open, .Lfunc_end67-tlsf_offsets_open
	.cfi_endproc
	.section	.text.tlsf_offsets_release,"ax",@progbits
	.globl	tlsf_offsets_release
	.p2align	4
	.type	tlsf_offsets_release,@function
tlsf_offsets_release:
	.cfi_startproc
	pushq	%rbx
	.cfi_def_cfa_offset 16
	.cfi_offset %rbx, -16
	cmpb	$0, 8(%rdi)
	je	.LBB68_45
	movq	(%rdi), %rbx
	cmpb	$0, 1(%rbx)
	je	.LBB68_45
	cmpb	$0, (%rbx)
	jne	.LBB68_42
	movq	%rsi, %r8
	shrq	$32, %r8
	movb	$0, 1(%rbx)
	cmpb	$0, 8(%rbx)
	movl	16(%rbx), %eax
	je	.LBB68_4
	cmpl	%esi, %eax
	jne	.LBB68_5
	cmpl	48(%rbx), %r8d
	jae	.LBB68_11
	movq	64(%rbx), %rax
	movq	%rsi, %rcx
	shrq	$38, %rcx
	movq	(%rax,%rcx,8), %rax
	btq	%r8, %rax
	jae	.LBB68_11
	leaq	40(%rbx), %rdi
	movq	(%rdi), %r10
	movq	(%r10,%r8,8), %r9
	testb	$1, %r9b
	jne	.LBB68_11
	cmpq	%rdx, 8(%r10,%r8,8)
	jne	.LBB68_11
	movq	24(%rbx), %rcx
	cmpq	$-1, %rcx
	je	.LBB68_43
	movl	%r9d, %eax
	shrl	$2, %eax
	subl	%eax, 32(%rbx)
	testb	$2, %r9b
	jne	.LBB68_30
	leal	(%rax,%r8), %edx
	movq	(%r10,%rdx,8), %rsi
	testq	%r8, %r8
	jne	.LBB68_33
	jmp	.LBB68_35
.LBB68_4:
	cmpl	%esi, %eax
	jne	.LBB68_5
	cmpl	48(%rbx), %r8d
	jae	.LBB68_11
	movq	64(%rbx), %rax
	movq	%rsi, %rcx
	shrq	$38, %rcx
	movq	(%rax,%rcx,8), %rax
	btq	%r8, %rax
	jae	.LBB68_11
	leaq	40(%rbx), %rdi
	movq	(%rdi), %r10
	movq	(%r10,%r8,8), %r9
	testb	$1, %r9b
	jne	.LBB68_11
	cmpq	%rdx, 8(%r10,%r8,8)
	jne	.LBB68_11
	movq	24(%rbx), %rcx
	cmpq	$-1, %rcx
	je	.LBB68_43
	movl	%r9d, %eax
	shrl	$2, %eax
	subl	%eax, 32(%rbx)
	testb	$2, %r9b
	jne	.LBB68_14
	leal	(%rax,%r8), %edx
	movq	(%r10,%rdx,8), %rsi
	testq	%r8, %r8
	jne	.LBB68_17
	jmp	.LBB68_19
.LBB68_43:
	movb	$1, 1(%rbx)
	movl	$2, %eax
	popq	%rbx
	.cfi_def_cfa_offset 8
	retq
.LBB68_11:
	.cfi_def_cfa_offset 16
	movl	%esi, %edi
	jmp	.LBB68_6
.LBB68_30:
	xorl	%esi, %esi
	testq	%r8, %r8
	je	.LBB68_35
.LBB68_33:
	movq	%r9, %rdx
	shrq	$32, %rdx
	movq	(%r10,%rdx,8), %rdx
	testb	$1, %dl
	jne	.LBB68_34
.LBB68_35:
	testb	$1, %sil
	jne	.LBB68_36
	orq	$1, %r9
	movq	%r9, (%r10,%r8,8)
	movq	%rcx, 8(%r10,%r8,8)
	incq	24(%rbx)
	movl	%eax, %ecx
	orl	$32, %ecx
	bsrl	%ecx, %ecx
	addl	$-5, %ecx
	shrl	%cl, %eax
	shll	$5, %ecx
	addl	%eax, %ecx
	movslq	184(%rbx,%rcx,4), %rdx
	movl	%r8d, 184(%rbx,%rcx,4)
	movq	40(%rbx), %rsi
	testq	%rdx, %rdx
	jns	.LBB68_40
	movq	$-1, 16(%rsi,%r8,8)
	shrl	$5, %ecx
	movl	$1, %edx
	shll	%cl, %edx
	movl	100(%rbx,%rcx,4), %esi
	orl	%edx, 96(%rbx)
	jmp	.LBB68_39
.LBB68_45:
	xorl	%edi, %edi
	popq	%rbx
	.cfi_def_cfa_offset 8
	jmp	"tlsf_c::call_fault::CallFault::refusal"
.LBB68_36:
	.cfi_def_cfa_offset 16
	leaq	1(%rcx), %rax
	movq	%rax, 24(%rbx)
	movq	%r9, %rdx
	callq	"tlsf_heap::fitting::merge_next::<=5>"
	movb	$1, 1(%rbx)
	xorl	%eax, %eax
	popq	%rbx
	.cfi_def_cfa_offset 8
	retq
.LBB68_34:
	.cfi_def_cfa_offset 16
	leaq	1(%rcx), %rax
	movq	%rax, 24(%rbx)
	callq	"tlsf_heap::fitting::merge_before::<=5>"
	movb	$1, 1(%rbx)
	xorl	%eax, %eax
	popq	%rbx
	.cfi_def_cfa_offset 8
	retq
.LBB68_14:
	.cfi_def_cfa_offset 16
	xorl	%esi, %esi
	testq	%r8, %r8
	je	.LBB68_19
.LBB68_17:
	movq	%r9, %rdx
	shrq	$32, %rdx
	movq	(%r10,%rdx,8), %rdx
	testb	$1, %dl
	jne	.LBB68_18
.LBB68_19:
	testb	$1, %sil
	jne	.LBB68_20
	orq	$1, %r9
	movq	%r9, (%r10,%r8,8)
	movq	%rcx, 8(%r10,%r8,8)
	incq	24(%rbx)
	movl	%eax, %ecx
	orl	$16, %ecx
	bsrl	%ecx, %ecx
	addl	$-4, %ecx
	shrl	%cl, %eax
	shll	$4, %ecx
	addl	%eax, %ecx
	movslq	184(%rbx,%rcx,4), %rdx
	movl	%r8d, 184(%rbx,%rcx,4)
	movq	40(%rbx), %rsi
	testq	%rdx, %rdx
	js	.LBB68_22
.LBB68_40:
	movabsq	$-4294967296, %rax
	orq	%rdx, %rax
	movq	%rax, 16(%rsi,%r8,8)
	movl	%r8d, 20(%rsi,%rdx,8)
	movb	$1, 1(%rbx)
	xorl	%eax, %eax
	popq	%rbx
	.cfi_def_cfa_offset 8
	retq
.LBB68_42:
	.cfi_def_cfa_offset 16
	movl	$2, %edi
	popq	%rbx
	.cfi_def_cfa_offset 8
	jmp	"tlsf_c::call_fault::CallFault::refusal"
.LBB68_20:
	.cfi_def_cfa_offset 16
	leaq	1(%rcx), %rax
	movq	%rax, 24(%rbx)
	movq	%r9, %rdx
	callq	"tlsf_heap::fitting::merge_next::<=4>"
	movb	$1, 1(%rbx)
	xorl	%eax, %eax
	popq	%rbx
	.cfi_def_cfa_offset 8
	retq
.LBB68_5:
	.cfi_def_cfa_offset 16
	movl	%esi, %edi
	movl	%eax, %esi
.LBB68_6:
	callq	"tlsf_heap::refusal::Refusal::of_name"
	movb	$1, 1(%rbx)
	cmpb	$3, %al
	movl	$0, %eax
	sete	%al
	addl	$3, %eax
	popq	%rbx
	.cfi_def_cfa_offset 8
	retq
.LBB68_18:
	.cfi_def_cfa_offset 16
	leaq	1(%rcx), %rax
	movq	%rax, 24(%rbx)
	callq	"tlsf_heap::fitting::merge_before::<=4>"
	movb	$1, 1(%rbx)
	xorl	%eax, %eax
	popq	%rbx
	.cfi_def_cfa_offset 8
	retq
.LBB68_22:
	.cfi_def_cfa_offset 16
	movq	$-1, 16(%rsi,%r8,8)
	shrl	$4, %ecx
	movl	$1, %edx
	shll	%cl, %edx
	movl	100(%rbx,%rcx,4), %esi
	orl	%edx, 96(%rbx)
	andb	$15, %al
.LBB68_39:
	btsl	%eax, %esi
	movl	%esi, 100(%rbx,%rcx,4)
	movb	$1, 1(%rbx)
	xorl	%eax, %eax
	popq	%rbx
	.cfi_def_cfa_offset 8
	retq
.Lfunc_end68:
	.size	tlsf_offsets_release, .Lfunc_end68-tlsf_offsets_release
	.cfi_endproc
	.section	.text.tlsf_offsets_resize,"ax",@progbits
	.globl	tlsf_offsets_resize
	.p2align	4
	.type	tlsf_offsets_resize,@function
tlsf_offsets_resize:
	.cfi_startproc
	pushq	%rbp
	.cfi_def_cfa_offset 16
	pushq	%r15
	.cfi_def_cfa_offset 24
	pushq	%r14
	.cfi_def_cfa_offset 32
	pushq	%r13
	.cfi_def_cfa_offset 40
	pushq	%r12
	.cfi_def_cfa_offset 48
	pushq	%rbx
	.cfi_def_cfa_offset 56
	pushq	%rax
	.cfi_def_cfa_offset 64
	.cfi_offset %rbx, -56
	.cfi_offset %r12, -48
	.cfi_offset %r13, -40
	.cfi_offset %r14, -32
	.cfi_offset %r15, -24
	.cfi_offset %rbp, -16
	cmpb	$0, 8(%rdi)
	je	.LBB69_2
	movq	(%rdi), %r12
	cmpb	$0, 1(%r12)
	je	.LBB69_2
	cmpb	$0, (%r12)
	jne	.LBB69_53
	movb	$0, 1(%r12)
	movl	(%rsi), %ebx
	movl	4(%rsi), %r14d
	movq	8(%rsi), %r13
	cmpb	$0, 8(%r12)
	movl	2752(%r12), %ecx
	je	.LBB69_6
	testq	%rcx, %rcx
	je	.LBB69_57
	movq	%rdx, %rax
	shrq	$32, %rax
	je	.LBB69_36
	movq	%rdx, %rax
	xorl	%edx, %edx
	divq	%rcx
	jmp	.LBB69_38
.LBB69_6:
	testq	%rcx, %rcx
	je	.LBB69_57
	movq	%rdx, %rax
	shrq	$32, %rax
	je	.LBB69_8
	movq	%rdx, %rax
	xorl	%edx, %edx
	divq	%rcx
	jmp	.LBB69_10
.LBB69_36:
	movl	%edx, %eax
	xorl	%edx, %edx
	divl	%ecx
.LBB69_38:
	cmpq	$1, %rdx
	sbbq	$-1, %rax
	cmpq	$5, %rax
	movl	$4, %r15d
	cmovaeq	%rax, %r15
	movl	$4294967295, %eax
	cmpq	%rax, %r15
	cmovaeq	%rax, %r15
	movl	16(%r12), %eax
	cmpl	%eax, %ebx
	jne	.LBB69_11
	cmpl	48(%r12), %r14d
	jae	.LBB69_17
	movq	64(%r12), %rax
	movl	%r14d, %ecx
	shrl	$6, %ecx
	movq	(%rax,%rcx,8), %rax
	btq	%r14, %rax
	jae	.LBB69_17
	leaq	40(%r12), %rdi
	movq	(%rdi), %rax
	movq	(%rax,%r14,8), %rdx
	testb	$1, %dl
	jne	.LBB69_17
	cmpq	%r13, 8(%rax,%r14,8)
	jne	.LBB69_17
	movl	%edx, %ebp
	shrl	$2, %ebp
	cmpl	%r15d, %ebp
	jae	.LBB69_44
	testb	$2, %dl
	jne	.LBB69_49
	leal	(%r14,%rbp), %ecx
	movq	(%rax,%rcx,8), %rcx
	testb	$1, %cl
	jne	.LBB69_50
.LBB69_49:
	xorl	%ecx, %ecx
.LBB69_50:
	movl	%ecx, %eax
	shrl	$2, %eax
	addl	%ebp, %eax
	cmpl	%r15d, %eax
	jb	.LBB69_55
	movq	24(%r12), %r9
	cmpq	$-1, %r9
	je	.LBB69_54
	movq	%rsi, (%rsp)
	movl	%r14d, %esi
	movl	%r15d, %r8d
	callq	"tlsf_heap::refitting::recut::<=5>"
	jmp	.LBB69_30
.LBB69_44:
	movq	24(%r12), %r8
	cmpq	$-1, %r8
	je	.LBB69_54
	movq	$0, 16(%rax,%r14,8)
	leal	4(%r15), %ecx
	movl	%ebp, %eax
	cmpl	%ecx, %ebp
	jb	.LBB69_23
	movq	%rsi, (%rsp)
	movl	%r14d, %esi
	movl	%r15d, %ecx
	callq	"tlsf_heap::refitting::split_off::<=5>"
	jmp	.LBB69_22
.LBB69_8:
	movl	%edx, %eax
	xorl	%edx, %edx
	divl	%ecx
.LBB69_10:
	cmpq	$1, %rdx
	sbbq	$-1, %rax
	cmpq	$5, %rax
	movl	$4, %r15d
	cmovaeq	%rax, %r15
	movl	$4294967295, %eax
	cmpq	%rax, %r15
	cmovaeq	%rax, %r15
	movl	16(%r12), %eax
	cmpl	%eax, %ebx
	jne	.LBB69_11
	cmpl	48(%r12), %r14d
	jae	.LBB69_17
	movq	64(%r12), %rax
	movl	%r14d, %ecx
	shrl	$6, %ecx
	movq	(%rax,%rcx,8), %rax
	btq	%r14, %rax
	jae	.LBB69_17
	leaq	40(%r12), %rdi
	movq	(%rdi), %rax
	movq	(%rax,%r14,8), %rdx
	testb	$1, %dl
	jne	.LBB69_17
	cmpq	%r13, 8(%rax,%r14,8)
	jne	.LBB69_17
	movl	%edx, %ebp
	shrl	$2, %ebp
	cmpl	%r15d, %ebp
	jae	.LBB69_19
	testb	$2, %dl
	jne	.LBB69_26
	leal	(%r14,%rbp), %ecx
	movq	(%rax,%rcx,8), %rcx
	testb	$1, %cl
	jne	.LBB69_27
.LBB69_26:
	xorl	%ecx, %ecx
.LBB69_27:
	movl	%ecx, %eax
	shrl	$2, %eax
	addl	%ebp, %eax
	cmpl	%r15d, %eax
	jae	.LBB69_28
.LBB69_55:
	movb	$1, 1(%r12)
	movl	$10, %eax
	jmp	.LBB69_56
.LBB69_17:
	movl	%ebx, %edi
	movl	%ebx, %esi
	jmp	.LBB69_12
.LBB69_19:
	movq	24(%r12), %r8
	cmpq	$-1, %r8
	je	.LBB69_54
	movq	$0, 16(%rax,%r14,8)
	leal	4(%r15), %ecx
	movl	%ebp, %eax
	cmpl	%ecx, %ebp
	jb	.LBB69_23
	movq	%rsi, (%rsp)
	movl	%r14d, %esi
	movl	%r15d, %ecx
	callq	"tlsf_heap::refitting::split_off::<=4>"
.LBB69_22:
	movq	(%rsp), %rsi
	movl	%r15d, %eax
.LBB69_23:
	subl	%ebp, %eax
	addl	%eax, 32(%r12)
	incq	24(%r12)
	jmp	.LBB69_33
.LBB69_2:
	xorl	%edi, %edi
	jmp	.LBB69_3
.LBB69_28:
	movq	24(%r12), %r9
	cmpq	$-1, %r9
	je	.LBB69_54
	movq	%rsi, (%rsp)
	movl	%r14d, %esi
	movl	%r15d, %r8d
	callq	"tlsf_heap::refitting::recut::<=4>"
.LBB69_30:
	movq	40(%r12), %rcx
	movq	$0, 16(%rcx,%r14,8)
	subl	%ebp, %eax
	addl	32(%r12), %eax
	movl	%eax, 32(%r12)
	cmpl	%eax, 36(%r12)
	jae	.LBB69_32
	movl	%eax, 36(%r12)
.LBB69_32:
	incq	24(%r12)
	movq	(%rsp), %rsi
.LBB69_33:
	movq	40(%r12), %rax
	movl	(%rax,%r14,8), %eax
	shrl	$2, %eax
	movl	2752(%r12), %edx
	imulq	%rdx, %rax
	movq	%r14, %rcx
	imulq	%rdx, %rcx
	movb	$1, 1(%r12)
	movl	%ebx, (%rsi)
	movl	%r14d, 4(%rsi)
	movq	%r13, 8(%rsi)
	movq	%rcx, 16(%rsi)
	movq	%rax, 24(%rsi)
	xorl	%eax, %eax
	jmp	.LBB69_56
.LBB69_54:
	movb	$1, 1(%r12)
	movl	$2, %eax
	jmp	.LBB69_56
.LBB69_53:
	movl	$2, %edi
.LBB69_3:
	addq	$8, %rsp
	.cfi_def_cfa_offset 56
	popq	%rbx
	.cfi_def_cfa_offset 48
	popq	%r12
	.cfi_def_cfa_offset 40
	popq	%r13
	.cfi_def_cfa_offset 32
	popq	%r14
	.cfi_def_cfa_offset 24
	popq	%r15
	.cfi_def_cfa_offset 16
	popq	%rbp
	.cfi_def_cfa_offset 8
	jmp	"tlsf_c::call_fault::CallFault::refusal"
.LBB69_11:
	.cfi_def_cfa_offset 64
	movl	%ebx, %edi
	movl	%eax, %esi
.LBB69_12:
	callq	"tlsf_heap::refusal::Refusal::of_name"
	movb	$1, 1(%r12)
	cmpb	$3, %al
	movl	$0, %eax
	sete	%al
	addl	$3, %eax
.LBB69_56:
	addq	$8, %rsp
	.cfi_def_cfa_offset 56
	popq	%rbx
	.cfi_def_cfa_offset 48
	popq	%r12
	.cfi_def_cfa_offset 40
	popq	%r13
	.cfi_def_cfa_offset 32
	popq	%r14
	.cfi_def_cfa_offset 24
	popq	%r15
	.cfi_def_cfa_offset 16
	popq	%rbp
	.cfi_def_cfa_offset 8
	retq
.LBB69_57:
	.cfi_def_cfa_offset 64
	ud2
.Lfunc_end69:
	.size	tlsf_offsets_resize, .Lfunc_end69-tlsf_offsets_resize
	.cfi_endproc
	.section	.text.tlsf_open,"ax",@progbits
	.globl	tlsf_open
	.p2align	4
	.type	tlsf_open,@function
tlsf_open:
	.cfi_startproc
	pushq	%rbp
	.cfi_def_cfa_offset 16
	pushq	%r15
	.cfi_def_cfa_offset 24
	pushq	%r14
	.cfi_def_cfa_offset 32
	pushq	%r13
	.cfi_def_cfa_offset 40
	pushq	%r12
	.cfi_def_cfa_offset 48
	pushq	%rbx
	.cfi_def_cfa_offset 56
	subq	$24, %rsp
	.cfi_def_cfa_offset 80
	.cfi_offset %rbx, -56
	.cfi_offset %r12, -48
	.cfi_offset %r13, -40
	.cfi_offset %r14, -32
	.cfi_offset %r15, -24
	.cfi_offset %rbp, -16
	movl	$33, %eax
	cmpb	$0, 8(%rdi)
	jne	.LBB70_24
	leal	-6(%rsi), %r8d
	movl	$34, %eax
	cmpl	$-2, %r8d
	jae	.LBB70_2
.LBB70_24:
	addq	$24, %rsp
	.cfi_def_cfa_offset 56
	popq	%rbx
	.cfi_def_cfa_offset 48
	popq	%r12
	.cfi_def_cfa_offset 40
	popq	%r13
	.cfi_def_cfa_offset 32
	popq	%r14
	.cfi_def_cfa_offset 24
	popq	%r15
	.cfi_def_cfa_offset 16
	popq	%rbp
	.cfi_def_cfa_offset 8
	retq
.LBB70_2:
	.cfi_def_cfa_offset 80
	cmpl	$4, %esi
	jne	.LBB70_13
	leal	-1048577(%rcx), %r8d
	movl	$5, %eax
	cmpl	$-1048573, %r8d
	jb	.LBB70_24
	movq	%rsi, 16(%rsp)
	movl	%edx, 4(%rsp)
	movq	%rdi, 8(%rsp)
	movq	%rcx, %r14
	movl	%ecx, %ebp
	leaq	(,%rbp,8), %rdi
	movl	$8, %esi
	callq	tlsf_memory_alloc@PLT
	movq	%rax, %rcx
	movl	$6, %eax
	testb	$1, %cl
	je	.LBB70_24
	movq	%rdx, %r15
	pxor	%xmm0, %xmm0
	movdqu	%xmm0, 16(%rdx)
	movdqu	%xmm0, (%rdx)
	leal	63(%r14), %r13d
	shrl	$6, %r13d
	leal	(,%r13,8), %edi
	movl	$8, %esi
	callq	tlsf_memory_alloc@PLT
	testb	$1, %al
	je	.LBB70_6
	movq	%rdx, %r12
	movq	$0, (%rdx)
	movabsq	$-4294967296, %rax
	orq	$19, %rax
	movq	%rax, (%r15)
	movq	$0, 8(%r15)
	orb	$1, (%rdx)
	movq	$-1, 16(%r15)
	movl	$2760, %edi
	movl	$8, %esi
	callq	tlsf_memory_alloc@PLT
	testb	$1, %al
	je	.LBB70_18
	movq	%rdx, %rbx
	movb	$1, (%rdx)
	pxor	%xmm0, %xmm0
	movdqu	%xmm0, 8(%rdx)
	movl	4(%rsp), %eax
	movl	%eax, 24(%rdx)
	movl	$0, 28(%rdx)
	movq	$1, 32(%rdx)
	movq	$0, 40(%rdx)
	movq	%r15, 48(%rdx)
	movq	$4, 56(%rdx)
	movq	%rbp, 64(%rdx)
	movq	%r12, 72(%rdx)
	movq	$1, 80(%rdx)
	movq	%r13, 88(%rdx)
	movq	$4, 96(%rdx)
	movabsq	$68719476737, %rax
	movq	%rax, 104(%rdx)
	jmp	.LBB70_10
.LBB70_13:
	leal	-16777217(%rcx), %r8d
	movl	$5, %eax
	cmpl	$-16777213, %r8d
	jb	.LBB70_24
	movq	%rsi, 16(%rsp)
	movl	%edx, 4(%rsp)
	movq	%rdi, 8(%rsp)
	movq	%rcx, %r14
	movl	%ecx, %ebp
	leaq	(,%rbp,8), %rdi
	movl	$8, %esi
	callq	tlsf_memory_alloc@PLT
	movq	%rax, %rcx
	movl	$6, %eax
	testb	$1, %cl
	je	.LBB70_24
	movq	%rdx, %r15
	pxor	%xmm0, %xmm0
	movdqu	%xmm0, 16(%rdx)
	movdqu	%xmm0, (%rdx)
	leal	63(%r14), %r13d
	shrl	$6, %r13d
	leal	(,%r13,8), %edi
	movl	$8, %esi
	callq	tlsf_memory_alloc@PLT
	testb	$1, %al
	je	.LBB70_6
	movq	%rdx, %r12
	movq	$0, (%rdx)
	movabsq	$-4294967296, %rax
	orq	$19, %rax
	movq	%rax, (%r15)
	movq	$0, 8(%r15)
	orb	$1, (%rdx)
	movq	$-1, 16(%r15)
	movl	$2760, %edi
	movl	$8, %esi
	callq	tlsf_memory_alloc@PLT
	testb	$1, %al
	je	.LBB70_18
	movq	%rdx, %rbx
	movb	$1, (%rdx)
	movq	$0, 8(%rdx)
	movq	$1, 16(%rdx)
	movl	4(%rsp), %eax
	movl	%eax, 24(%rdx)
	movl	$0, 28(%rdx)
	movq	$1, 32(%rdx)
	movq	$0, 40(%rdx)
	movq	%r15, 48(%rdx)
	movq	$4, 56(%rdx)
	movq	%rbp, 64(%rdx)
	movq	%r12, 72(%rdx)
	movq	$1, 80(%rdx)
	movq	%r13, 88(%rdx)
	movq	$4, 96(%rdx)
	movabsq	$68719476737, %rax
	movq	%rax, 104(%rdx)
	pxor	%xmm0, %xmm0
.LBB70_10:
	movdqu	%xmm0, 112(%rbx)
	movdqu	%xmm0, 128(%rbx)
	movdqu	%xmm0, 144(%rbx)
	movdqu	%xmm0, 160(%rbx)
	movdqu	%xmm0, 176(%rbx)
	pcmpeqd	%xmm0, %xmm0
	movdqu	%xmm0, 192(%rbx)
	movl	$0, 208(%rbx)
	movq	%rbx, %rdi
	addq	$212, %rdi
	movl	$2544, %edx
	movl	$255, %esi
	callq	tlsf_memory_set@PLT
	movl	$0, 2756(%rbx)
	leaq	48(%rbx), %rdi
	movl	%r14d, %esi
	callq	"tlsf_words::words::Words::lengthen"
	movl	$-1, 208(%rbx)
	pxor	%xmm0, %xmm0
	movdqu	%xmm0, 104(%rbx)
	movdqu	%xmm0, 120(%rbx)
	movdqu	%xmm0, 136(%rbx)
	movdqu	%xmm0, 152(%rbx)
	movdqu	%xmm0, 168(%rbx)
	movq	$0, 184(%rbx)
	movl	56(%rbx), %eax
	leal	(,%rax,4), %ecx
	movabsq	$-4294967296, %rdx
	orq	%rdx, %rcx
	orq	$3, %rcx
	movq	48(%rbx), %rsi
	movq	%rcx, (%rsi)
	movq	$0, 8(%rsi)
	movq	72(%rbx), %rcx
	orq	$1, (%rcx)
	cmpl	$4, 16(%rsp)
	jne	.LBB70_19
	movl	%eax, %ecx
	orl	$16, %ecx
	bsrl	%ecx, %ecx
	addl	$-4, %ecx
	shrl	%cl, %eax
	shll	$4, %ecx
	addl	%eax, %ecx
	movslq	192(%rbx,%rcx,4), %r8
	movl	$0, 192(%rbx,%rcx,4)
	movq	48(%rbx), %r9
	testq	%r8, %r8
	movq	8(%rsp), %rsi
	movl	4(%rsp), %edi
	jns	.LBB70_22
	movq	$-1, 16(%r9)
	shrl	$4, %ecx
	movl	$1, %edx
	shll	%cl, %edx
	movl	108(%rbx,%rcx,4), %r8d
	orl	%edx, 104(%rbx)
	andb	$15, %al
	jmp	.LBB70_21
.LBB70_6:
	movq	%r15, %rdi
	jmp	.LBB70_7
.LBB70_18:
	movq	%r15, %rdi
	callq	tlsf_memory_dealloc@PLT
	movq	%r12, %rdi
.LBB70_7:
	callq	tlsf_memory_dealloc@PLT
	movl	$6, %eax
	jmp	.LBB70_24
.LBB70_19:
	movl	%eax, %ecx
	orl	$32, %ecx
	bsrl	%ecx, %ecx
	addl	$-5, %ecx
	shrl	%cl, %eax
	shll	$5, %ecx
	addl	%eax, %ecx
	movslq	192(%rbx,%rcx,4), %r8
	movl	$0, 192(%rbx,%rcx,4)
	movq	48(%rbx), %r9
	testq	%r8, %r8
	movq	8(%rsp), %rsi
	movl	4(%rsp), %edi
	js	.LBB70_20
.LBB70_22:
	orq	%r8, %rdx
	movq	%rdx, 16(%r9)
	movl	$0, 20(%r9,%r8,8)
	jmp	.LBB70_23
.LBB70_20:
	movq	$-1, 16(%r9)
	shrl	$5, %ecx
	movl	$1, %edx
	shll	%cl, %edx
	movl	108(%rbx,%rcx,4), %r8d
	orl	%edx, 104(%rbx)
.LBB70_21:
	btsl	%eax, %r8d
	movl	%r8d, 108(%rbx,%rcx,4)
.LBB70_23:
	movq	48(%rbx), %rax
	movq	%rax, 16(%rsi)
	movl	%edi, 24(%rsi)
	movb	$0, 28(%rsi)
	movq	%rbx, (%rsi)
	movb	$1, 8(%rsi)
	xorl	%eax, %eax
	jmp	.LBB70_24
.Lfunc_end70:
	.size	tlsf_open, .Lfunc_end70-tlsf_open
	.cfi_endproc
	.section	.text.tlsf_place,"ax",@progbits
	.globl	tlsf_place
	.p2align	4
	.type	tlsf_place,@function
tlsf_place:
	.cfi_startproc
	cmpb	$0, 8(%rdi)
	je	.LBB71_8
	movq	(%rdi), %rax
	cmpb	$0, (%rax)
	je	.LBB71_8
	movb	$0, (%rax)
	movl	24(%rax), %edi
	movl	56(%rax), %r8d
	cmpb	$0, 16(%rax)
	cmpl	%r8d, %esi
	jae	.LBB71_5
	movq	72(%rax), %r8
	movl	%esi, %r9d
	shrl	$6, %r9d
	movq	(%r8,%r9,8), %r8
	btq	%rsi, %r8
	jae	.LBB71_5
	movq	48(%rax), %r8
	movl	%esi, %r9d
	testb	$1, (%r8,%r9,8)
	jne	.LBB71_5
	leaq	(%r8,%r9,8), %r8
	movl	16(%r8), %r9d
	movq	8(%r8), %r8
	movb	$1, (%rax)
	movl	%edi, (%rdx)
	movl	%esi, 4(%rdx)
	movq	%r8, 8(%rdx)
	movl	%r9d, (%rcx)
	xorl	%eax, %eax
	retq
.LBB71_5:
	movb	$1, (%rax)
	movl	$4, %eax
	retq
.LBB71_8:
	xorl	%edi, %edi
	jmp	"tlsf_c::call_fault::CallFault::refusal"
.Lfunc_end71:
	.size	tlsf_place, .Lfunc_end71-tlsf_place
	.cfi_endproc
	.section	.text.tlsf_pools_allocate,"ax",@progbits
	.globl	tlsf_pools_allocate
	.p2align	4
	.type	tlsf_pools_allocate,@function
tlsf_pools_allocate:
	.cfi_startproc
	pushq	%rbp
	.cfi_def_cfa_offset 16
	pushq	%r15
	.cfi_def_cfa_offset 24
	pushq	%r14
	.cfi_def_cfa_offset 32
	pushq	%r13
	.cfi_def_cfa_offset 40
	pushq	%r12
	.cfi_def_cfa_offset 48
	pushq	%rbx
	.cfi_def_cfa_offset 56
	pushq	%rax
	.cfi_def_cfa_offset 64
	.cfi_offset %rbx, -56
	.cfi_offset %r12, -48
	.cfi_offset %r13, -40
	.cfi_offset %r14, -32
	.cfi_offset %r15, -24
	.cfi_offset %rbp, -16
	cmpb	$0, 8(%rdi)
	je	.LBB72_2
	movq	(%rdi), %rbx
	cmpb	$0, 1(%rbx)
	je	.LBB72_2
	cmpb	$1, (%rbx)
	jne	.LBB72_74
	movb	$0, 1(%rbx)
	movl	$4294967295, %r9d
	cmpq	%r9, %rsi
	cmovbq	%rsi, %r9
	cmpb	$0, 8(%rbx)
	movq	24(%rbx), %rax
	movq	32(%rbx), %rcx
	je	.LBB72_6
	testq	%rcx, %rcx
	je	.LBB72_48
	xorl	%r10d, %r10d
	jmp	.LBB72_42
	.p2align	4
.LBB72_50:
	incq	%r10
	cmpq	%rcx, %r10
	je	.LBB72_48
.LBB72_42:
	imulq	$2792, %r10, %r12
	movq	2744(%rax,%r12), %rdi
	testq	%rdi, %rdi
	je	.LBB72_50
	addq	%rax, %r12
	movq	2736(%r12), %r8
	xorl	%r11d, %r11d
	.p2align	4
.LBB72_44:
	cmpl	%r9d, 4(%r8,%r11,8)
	jae	.LBB72_45
	incq	%r11
	cmpq	%r11, %rdi
	jne	.LBB72_44
	jmp	.LBB72_50
.LBB72_6:
	testq	%rcx, %rcx
	je	.LBB72_48
	xorl	%r10d, %r10d
	jmp	.LBB72_8
	.p2align	4
.LBB72_15:
	incq	%r10
	cmpq	%rcx, %r10
	je	.LBB72_48
.LBB72_8:
	imulq	$2792, %r10, %r12
	movq	2744(%rax,%r12), %rdi
	testq	%rdi, %rdi
	je	.LBB72_15
	addq	%rax, %r12
	movq	2736(%r12), %r8
	xorl	%r11d, %r11d
	.p2align	4
.LBB72_10:
	cmpl	%r9d, 4(%r8,%r11,8)
	jae	.LBB72_11
	incq	%r11
	cmpq	%r11, %rdi
	jne	.LBB72_10
	jmp	.LBB72_15
.LBB72_45:
	xorl	%r13d, %r13d
	.p2align	4
.LBB72_46:
	cmpl	%r9d, 4(%r8,%r13,8)
	jae	.LBB72_51
	incq	%r13
	cmpq	%r13, %rdi
	jne	.LBB72_46
	jmp	.LBB72_48
.LBB72_11:
	xorl	%r13d, %r13d
	.p2align	4
.LBB72_12:
	cmpl	%r9d, 4(%r8,%r13,8)
	jae	.LBB72_16
	incq	%r13
	cmpq	%r13, %rdi
	jne	.LBB72_12
.LBB72_48:
	movb	$1, 1(%rbx)
	movl	$5, %eax
.LBB72_77:
	addq	$8, %rsp
	.cfi_def_cfa_offset 56
	popq	%rbx
	.cfi_def_cfa_offset 48
	popq	%r12
	.cfi_def_cfa_offset 40
	popq	%r13
	.cfi_def_cfa_offset 32
	popq	%r14
	.cfi_def_cfa_offset 24
	popq	%r15
	.cfi_def_cfa_offset 16
	popq	%rbp
	.cfi_def_cfa_offset 8
	retq
.LBB72_51:
	.cfi_def_cfa_offset 64
	movq	2768(%r12), %rax
	movl	(%rax,%r13,4), %eax
	cmpl	(%r8,%r13,8), %eax
	jae	.LBB72_75
	movl	2760(%r12), %r10d
	cmpl	$16777216, %r10d
	ja	.LBB72_76
	movl	%r10d, %eax
	orl	$32, %eax
	bsrl	%eax, %ecx
	addl	$-5, %ecx
	leal	-1(%r10), %r8d
	shrl	%cl, %r8d
	shll	$5, %ecx
	leal	(%r8,%rcx), %eax
	incl	%eax
	decq	%rax
	movq	%rax, %rdi
	shrq	$5, %rdi
	leaq	84(%r12), %r11
	movl	84(%r12,%rdi,4), %ebp
	movl	%r8d, %ecx
	shrl	%cl, %ebp
	andl	$-2, %ebp
	je	.LBB72_55
	rep		bsfl	%ebp, %ecx
	addq	%rcx, %rax
	movq	8(%r12), %r14
	cmpq	$-1, %r14
	jne	.LBB72_58
	jmp	.LBB72_76
.LBB72_2:
	xorl	%edi, %edi
	jmp	.LBB72_3
.LBB72_16:
	movq	2768(%r12), %rax
	movl	(%rax,%r13,4), %eax
	cmpl	(%r8,%r13,8), %eax
	jae	.LBB72_75
	movl	2760(%r12), %r10d
	cmpl	$1048576, %r10d
	ja	.LBB72_76
	movl	%r10d, %eax
	orl	$16, %eax
	bsrl	%eax, %ecx
	addl	$-4, %ecx
	leal	-1(%r10), %r8d
	shrl	%cl, %r8d
	shll	$4, %ecx
	leal	(%r8,%rcx), %eax
	incl	%eax
	decq	%rax
	movq	%rax, %rdi
	shrq	$4, %rdi
	leaq	84(%r12), %r11
	movl	84(%r12,%rdi,4), %ebp
	andb	$15, %r8b
	movl	%r8d, %ecx
	shrl	%cl, %ebp
	andl	$-2, %ebp
	je	.LBB72_20
	rep		bsfl	%ebp, %ecx
	addq	%rcx, %rax
	jmp	.LBB72_22
.LBB72_75:
	movb	$1, 1(%rbx)
	movl	$38, %eax
	jmp	.LBB72_77
.LBB72_74:
	movl	$2, %edi
.LBB72_3:
	addq	$8, %rsp
	.cfi_def_cfa_offset 56
	popq	%rbx
	.cfi_def_cfa_offset 48
	popq	%r12
	.cfi_def_cfa_offset 40
	popq	%r13
	.cfi_def_cfa_offset 32
	popq	%r14
	.cfi_def_cfa_offset 24
	popq	%r15
	.cfi_def_cfa_offset 16
	popq	%rbp
	.cfi_def_cfa_offset 8
	jmp	"tlsf_c::call_fault::CallFault::refusal"
.LBB72_55:
	.cfi_def_cfa_offset 64
	movl	80(%r12), %eax
	incb	%dil
	movl	%edi, %ecx
	shrl	%cl, %eax
	shll	%cl, %eax
	testl	%eax, %eax
	je	.LBB72_76
	rep		bsfl	%eax, %eax
	movl	$32, %ecx
	rep		bsfl	(%r11,%rax,4), %ecx
	shll	$5, %eax
	addl	%ecx, %eax
	movq	8(%r12), %r14
	cmpq	$-1, %r14
	je	.LBB72_76
.LBB72_58:
	movq	24(%r12), %r8
	movl	168(%r12,%rax,4), %r15d
	movq	16(%r8,%r15,8), %rcx
	cmpl	$-1, %ecx
	je	.LBB72_59
	movl	%ecx, %edi
	movl	$-1, 20(%r8,%rdi,8)
	movl	%ecx, 168(%r12,%rax,4)
	movq	24(%r12), %r8
	jmp	.LBB72_62
.LBB72_20:
	movl	80(%r12), %eax
	incb	%dil
	movl	%edi, %ecx
	shrl	%cl, %eax
	shll	%cl, %eax
	testl	%eax, %eax
	je	.LBB72_76
	rep		bsfl	%eax, %eax
	movl	$32, %ecx
	rep		bsfl	(%r11,%rax,4), %ecx
	shll	$4, %eax
	addl	%ecx, %eax
.LBB72_22:
	movq	8(%r12), %r14
	cmpq	$-1, %r14
	je	.LBB72_76
	movq	24(%r12), %r8
	movl	168(%r12,%rax,4), %r15d
	movq	16(%r8,%r15,8), %rcx
	cmpl	$-1, %ecx
	je	.LBB72_24
	movl	%ecx, %edi
	movl	$-1, 20(%r8,%rdi,8)
	movl	%ecx, 168(%r12,%rax,4)
	movq	24(%r12), %r8
	jmp	.LBB72_27
.LBB72_76:
	movb	$1, 1(%rbx)
	movl	$2, %eax
	jmp	.LBB72_77
.LBB72_59:
	leaq	168(%r12), %rcx
	movl	$-1, (%rcx,%rax,4)
	movq	%rax, %rdi
	shrq	$5, %rdi
	movl	$-2, %ebp
	movl	%eax, %ecx
	roll	%cl, %ebp
	movl	$-2, %eax
	andl	%ebp, (%r11,%rdi,4)
	jne	.LBB72_62
	movl	%edi, %ecx
	roll	%cl, %eax
	andl	%eax, 80(%r12)
.LBB72_62:
	movq	(%r8,%r15,8), %rcx
	leal	(,%r10,4), %eax
	movl	%ecx, %edi
	subl	%eax, %edi
	cmpl	$15, %edi
	ja	.LBB72_64
	decq	%rcx
	movq	%rcx, (%r8,%r15,8)
	movq	%r14, 8(%r8,%r15,8)
	movq	%r9, 16(%r8,%r15,8)
	shrl	$2, %ecx
	movl	%ecx, %r10d
	jmp	.LBB72_70
.LBB72_64:
	movl	%edi, %r11d
	shrl	$2, %edi
	movq	%r14, %rbp
	movq	%r15, %r14
	shlq	$32, %r14
	orq	%r11, %r14
	leal	(%r15,%r10), %eax
	subq	%r11, %rcx
	movq	%rcx, (%r8,%r15,8)
	movq	%rbp, 8(%r8,%r15,8)
	movq	%r9, 16(%r8,%r15,8)
	movq	%r14, (%r8,%rax,8)
	movq	%rbp, (%rsp)
	movq	%rbp, 8(%r8,%rax,8)
	movq	48(%r12), %r8
	movl	%eax, %r14d
	shrl	$6, %r14d
	movl	$1, %ebp
	movl	%eax, %ecx
	shlq	%cl, %rbp
	orq	%rbp, (%r8,%r14,8)
	testb	$2, %r11b
	jne	.LBB72_66
	leal	(%rdi,%rax), %ecx
	movq	24(%r12), %r8
	movl	%eax, 4(%r8,%rcx,8)
.LBB72_66:
	movl	%edi, %ecx
	orl	$32, %ecx
	bsrl	%ecx, %ecx
	addl	$-5, %ecx
	shrl	%cl, %edi
	shll	$5, %ecx
	addl	%edi, %ecx
	movslq	168(%r12,%rcx,4), %r8
	movl	%eax, 168(%r12,%rcx,4)
	movq	24(%r12), %r11
	testq	%r8, %r8
	js	.LBB72_67
	movabsq	$-4294967296, %rcx
	orq	%r8, %rcx
	movq	%rcx, 16(%r11,%rax,8)
	movl	%eax, 20(%r11,%r8,8)
	jmp	.LBB72_69
.LBB72_24:
	leaq	168(%r12), %rcx
	movl	$-1, (%rcx,%rax,4)
	movq	%rax, %rdi
	shrq	$4, %rdi
	andb	$15, %al
	movl	$-2, %ebp
	movl	%eax, %ecx
	roll	%cl, %ebp
	movl	$-2, %eax
	andl	%ebp, (%r11,%rdi,4)
	jne	.LBB72_27
	movl	%edi, %ecx
	roll	%cl, %eax
	andl	%eax, 80(%r12)
.LBB72_27:
	movq	(%r8,%r15,8), %rcx
	leal	(,%r10,4), %eax
	movl	%ecx, %edi
	subl	%eax, %edi
	cmpl	$15, %edi
	movq	%r14, (%rsp)
	ja	.LBB72_29
	decq	%rcx
	movq	%rcx, (%r8,%r15,8)
	movq	%r14, 8(%r8,%r15,8)
	movq	%r9, 16(%r8,%r15,8)
	shrl	$2, %ecx
	movl	%ecx, %r10d
	jmp	.LBB72_35
.LBB72_29:
	movl	%edi, %r11d
	shrl	$2, %edi
	movq	%r14, %rbp
	movq	%r15, %r14
	shlq	$32, %r14
	orq	%r11, %r14
	leal	(%r15,%r10), %eax
	subq	%r11, %rcx
	movq	%rcx, (%r8,%r15,8)
	movq	%rbp, 8(%r8,%r15,8)
	movq	%r9, 16(%r8,%r15,8)
	movq	%r14, (%r8,%rax,8)
	movq	%rbp, 8(%r8,%rax,8)
	movq	48(%r12), %r8
	movl	%eax, %r14d
	shrl	$6, %r14d
	movl	$1, %ebp
	movl	%eax, %ecx
	shlq	%cl, %rbp
	orq	%rbp, (%r8,%r14,8)
	testb	$2, %r11b
	jne	.LBB72_31
	leal	(%rdi,%rax), %ecx
	movq	24(%r12), %r8
	movl	%eax, 4(%r8,%rcx,8)
.LBB72_31:
	movl	%edi, %ecx
	orl	$16, %ecx
	bsrl	%ecx, %ecx
	addl	$-4, %ecx
	shrl	%cl, %edi
	shll	$4, %ecx
	addl	%edi, %ecx
	movslq	168(%r12,%rcx,4), %r8
	movl	%eax, 168(%r12,%rcx,4)
	movq	24(%r12), %r11
	testq	%r8, %r8
	js	.LBB72_32
	movabsq	$-4294967296, %rcx
	orq	%r8, %rcx
	movq	%rcx, 16(%r11,%rax,8)
	movl	%eax, 20(%r11,%r8,8)
	jmp	.LBB72_34
.LBB72_67:
	movq	$-1, 16(%r11,%rax,8)
	shrl	$5, %ecx
	movl	$1, %eax
	shll	%cl, %eax
	movl	84(%r12,%rcx,4), %r8d
	orl	%eax, 80(%r12)
	btsl	%edi, %r8d
	movl	%r8d, 84(%r12,%rcx,4)
.LBB72_69:
	movq	(%rsp), %r14
.LBB72_70:
	addl	16(%r12), %r10d
	movl	%r10d, 16(%r12)
	cmpl	%r10d, 20(%r12)
	jae	.LBB72_72
	movl	%r10d, 20(%r12)
.LBB72_72:
	incq	8(%r12)
	movl	(%r12), %ebp
	cmpq	$1, %rsi
	adcq	$31, %r9
	shrq	$3, %r9
	addl	$-3, %r9d
	je	.LBB72_39
	leal	3(%r15), %edi
	movl	%r9d, %eax
	shlq	$3, %rdi
	addq	24(%r12), %rdi
	shlq	$3, %rax
	xorl	%esi, %esi
	movq	%r15, (%rsp)
	movl	%ebp, %r15d
	movq	%r14, %rbp
	movq	%rdx, %r14
	movq	%rax, %rdx
	callq	tlsf_memory_set@PLT
	movq	%r14, %rdx
	movq	%rbp, %r14
	movl	%r15d, %ebp
	movq	(%rsp), %r15
	jmp	.LBB72_39
.LBB72_32:
	movq	$-1, 16(%r11,%rax,8)
	shrl	$4, %ecx
	movl	$1, %eax
	shll	%cl, %eax
	movl	84(%r12,%rcx,4), %r8d
	orl	%eax, 80(%r12)
	andb	$15, %dil
	btsl	%edi, %r8d
	movl	%r8d, 84(%r12,%rcx,4)
.LBB72_34:
	movq	(%rsp), %r14
.LBB72_35:
	addl	16(%r12), %r10d
	movl	%r10d, 16(%r12)
	cmpl	%r10d, 20(%r12)
	jae	.LBB72_37
	movl	%r10d, 20(%r12)
.LBB72_37:
	incq	8(%r12)
	movl	(%r12), %ebp
	cmpq	$1, %rsi
	adcq	$31, %r9
	shrq	$3, %r9
	addl	$-3, %r9d
	je	.LBB72_39
	leal	3(%r15), %edi
	movl	%r9d, %eax
	shlq	$3, %rdi
	addq	24(%r12), %rdi
	shlq	$3, %rax
	xorl	%esi, %esi
	movq	%rdx, %r14
	movq	%rax, %rdx
	callq	tlsf_memory_set@PLT
	movq	%r14, %rdx
	movq	(%rsp), %r14
.LBB72_39:
	movq	2768(%r12), %rax
	incl	(%rax,%r13,4)
	movb	$1, 1(%rbx)
	movl	%ebp, (%rdx)
	movl	%r15d, 4(%rdx)
	movq	%r14, 8(%rdx)
	xorl	%eax, %eax
	jmp	.LBB72_77
.Lfunc_end72:
	.size	tlsf_pools_allocate, .Lfunc_end72-tlsf_pools_allocate
	.cfi_endproc
	.section	.text.tlsf_pools_check,"ax",@progbits
	.globl	tlsf_pools_check
	.p2align	4
	.type	tlsf_pools_check,@function
tlsf_pools_check:
	.cfi_startproc
	pushq	%rbp
	.cfi_def_cfa_offset 16
	pushq	%r15
	.cfi_def_cfa_offset 24
	pushq	%r14
	.cfi_def_cfa_offset 32
	pushq	%r13
	.cfi_def_cfa_offset 40
	pushq	%r12
	.cfi_def_cfa_offset 48
	pushq	%rbx
	.cfi_def_cfa_offset 56
	pushq	%rax
	.cfi_def_cfa_offset 64
	.cfi_offset %rbx, -56
	.cfi_offset %r12, -48
	.cfi_offset %r13, -40
	.cfi_offset %r14, -32
	.cfi_offset %r15, -24
	.cfi_offset %rbp, -16
	cmpb	$0, 8(%rdi)
	je	.LBB73_22
	movq	(%rdi), %r12
	cmpb	$0, 1(%r12)
	je	.LBB73_22
	cmpb	$1, (%r12)
	jne	.LBB73_23
	movl	%ecx, %ebx
	movl	%edx, %r14d
	movb	$0, 1(%r12)
	movl	%esi, %ecx
	cmpb	$0, 8(%r12)
	movq	32(%r12), %rax
	je	.LBB73_12
	cmpq	%rcx, %rax
	jbe	.LBB73_20
	movq	24(%r12), %rax
	imulq	$2792, %rcx, %rcx
	movl	32(%rax,%rcx), %ebp
	leal	-4(%rbp), %edx
	cmpl	%edx, %r14d
	ja	.LBB73_20
	leaq	(%rax,%rcx), %rdx
	movq	48(%rdx), %rdx
	movl	%r14d, %esi
	shrl	$6, %esi
	movq	(%rdx,%rsi,8), %rdx
	btq	%r14, %rdx
	jae	.LBB73_20
	movq	%r8, %r13
	testl	%ebx, %ebx
	je	.LBB73_28
	movq	%r9, (%rsp)
	leaq	(%rax,%rcx), %r15
	addq	$24, %r15
	.p2align	4
.LBB73_9:
	movq	%r15, %rdi
	movl	%r14d, %esi
	callq	"tlsf_heap::check::examine"
	cmpb	$1, %al
	jne	.LBB73_26
	cmpl	%ebp, %edx
	je	.LBB73_27
	movl	%edx, %r14d
	decl	%ebx
	jne	.LBB73_9
	jmp	.LBB73_29
.LBB73_12:
	cmpq	%rcx, %rax
	jbe	.LBB73_20
	movq	24(%r12), %rax
	imulq	$2792, %rcx, %rcx
	movl	32(%rax,%rcx), %ebp
	leal	-4(%rbp), %edx
	cmpl	%edx, %r14d
	ja	.LBB73_20
	leaq	(%rax,%rcx), %rdx
	movq	48(%rdx), %rdx
	movl	%r14d, %esi
	shrl	$6, %esi
	movq	(%rdx,%rsi,8), %rdx
	btq	%r14, %rdx
	jae	.LBB73_20
	movq	%r8, %r13
	testl	%ebx, %ebx
	je	.LBB73_28
	movq	%r9, (%rsp)
	leaq	(%rax,%rcx), %r15
	addq	$24, %r15
	.p2align	4
.LBB73_17:
	movq	%r15, %rdi
	movl	%r14d, %esi
	callq	"tlsf_heap::check::examine"
	cmpb	$1, %al
	jne	.LBB73_26
	cmpl	%ebp, %edx
	je	.LBB73_27
	movl	%edx, %r14d
	decl	%ebx
	jne	.LBB73_17
	jmp	.LBB73_29
.LBB73_20:
	movb	$1, 1(%r12)
	movl	$4, %eax
.LBB73_21:
	addq	$8, %rsp
	.cfi_def_cfa_offset 56
	popq	%rbx
	.cfi_def_cfa_offset 48
	popq	%r12
	.cfi_def_cfa_offset 40
	popq	%r13
	.cfi_def_cfa_offset 32
	popq	%r14
	.cfi_def_cfa_offset 24
	popq	%r15
	.cfi_def_cfa_offset 16
	popq	%rbp
	.cfi_def_cfa_offset 8
	retq
.LBB73_22:
	.cfi_def_cfa_offset 64
	xorl	%edi, %edi
	jmp	.LBB73_24
.LBB73_23:
	movl	$2, %edi
.LBB73_24:
	addq	$8, %rsp
	.cfi_def_cfa_offset 56
	popq	%rbx
	.cfi_def_cfa_offset 48
	popq	%r12
	.cfi_def_cfa_offset 40
	popq	%r13
	.cfi_def_cfa_offset 32
	popq	%r14
	.cfi_def_cfa_offset 24
	popq	%r15
	.cfi_def_cfa_offset 16
	popq	%rbp
	.cfi_def_cfa_offset 8
	jmp	"tlsf_c::call_fault::CallFault::refusal"
.LBB73_28:
	.cfi_def_cfa_offset 64
	movl	%r14d, %edx
	jmp	.LBB73_29
.LBB73_26:
	movb	$1, 1(%r12)
	movq	(%rsp), %rax
	movl	%r14d, (%rax)
	movl	$36, %eax
	jmp	.LBB73_21
.LBB73_27:
	xorl	%edx, %edx
.LBB73_29:
	movb	$1, 1(%r12)
	movl	%edx, (%r13)
	xorl	%eax, %eax
	jmp	.LBB73_21
.Lfunc_end73:
	.size	tlsf_pools_check, .Lfunc_end73-tlsf_pools_check
	.cfi_endproc
	.section	.text.tlsf_pools_close,"ax",@progbits
	.globl	tlsf_pools_close
	.p2align	4
	.type	tlsf_pools_close,@function
tlsf_pools_close:
	.cfi_startproc
	movl	$32, %eax
	cmpb	$0, 8(%rdi)
	je	.LBB74_4
	movq	(%rdi), %rcx
	cmpb	$1, 1(%rcx)
	jne	.LBB74_4
	movl	$40, %eax
	cmpb	$1, (%rcx)
	jne	.LBB74_4
	pushq	%rax
	.cfi_def_cfa_offset 16
	callq	"tlsf_c::arena_slot::ArenaSlot::close"
	xorl	%eax, %eax
	addq	$8, %rsp
	.cfi_def_cfa_offset 8
.LBB74_4:
	retq
.Lfunc_end74:
	.size	tlsf_pools_close, .Lfunc_end74-tlsf_pools_close
	.cfi_endproc
	.section	.text.tlsf_pools_counts,"ax",@progbits
	.globl	tlsf_pools_counts
	.p2align	4
	.type	tlsf_pools_counts,@function
tlsf_pools_counts:
	.cfi_startproc
	cmpb	$0, 8(%rdi)
	je	.LBB75_15
	movq	(%rdi), %rax
	cmpb	$0, 1(%rax)
	je	.LBB75_15
	cmpb	$1, (%rax)
	jne	.LBB75_19
	movb	$0, 1(%rax)
	movl	%esi, %edi
	cmpb	$0, 8(%rax)
	movq	24(%rax), %rsi
	movq	32(%rax), %r8
	je	.LBB75_8
	testq	%r8, %r8
	je	.LBB75_12
	addq	$2776, %rsi
	movq	%rdi, %r9
	.p2align	4
.LBB75_6:
	subq	-32(%rsi), %r9
	jb	.LBB75_13
	addq	$2792, %rsi
	movq	%r9, %rdi
	decq	%r8
	jne	.LBB75_6
	jmp	.LBB75_12
.LBB75_8:
	testq	%r8, %r8
	je	.LBB75_12
	addq	$2776, %rsi
	movq	%rdi, %r9
	.p2align	4
.LBB75_10:
	subq	-32(%rsi), %r9
	jb	.LBB75_13
	addq	$2792, %rsi
	movq	%r9, %rdi
	decq	%r8
	jne	.LBB75_10
.LBB75_12:
	movb	$1, 1(%rax)
	movl	$4, %eax
	retq
.LBB75_13:
	cmpq	(%rsi), %rdi
	jae	.LBB75_14
	movq	-8(%rsi), %r8
	movl	(%r8,%rdi,4), %r8d
	jmp	.LBB75_18
.LBB75_14:
	xorl	%r8d, %r8d
.LBB75_18:
	movq	-40(%rsi), %rsi
	movl	(%rsi,%rdi,8), %esi
	shlq	$32, %rsi
	orq	%r8, %rsi
	movb	$1, 1(%rax)
	movl	%esi, %eax
	shrq	$32, %rsi
	movl	%eax, (%rdx)
	movl	%esi, (%rcx)
	xorl	%eax, %eax
	retq
.LBB75_15:
	xorl	%edi, %edi
	jmp	"tlsf_c::call_fault::CallFault::refusal"
.LBB75_19:
	movl	$2, %edi
	jmp	"tlsf_c::call_fault::CallFault::refusal"
.Lfunc_end75:
	.size	tlsf_pools_counts, .Lfunc_end75-tlsf_pools_counts
	.cfi_endproc
	.section	.text.tlsf_pools_open,"ax",@progbits
	.globl	tlsf_pools_open
	.p2align	4
	.type	tlsf_pools_open,@function
tlsf_pools_open:
	.cfi_startproc
	pushq	%rbp
	.cfi_def_cfa_offset 16
	pushq	%r15
	.cfi_def_cfa_offset 24
	pushq	%r14
	.cfi_def_cfa_offset 32
	pushq	%r13
	.cfi_def_cfa_offset 40
	pushq	%r12
	.cfi_def_cfa_offset 48
	pushq	%rbx
	.cfi_def_cfa_offset 56
	subq	$1064, %rsp
	.cfi_def_cfa_offset 1120
	.cfi_offset %rbx, -56
	.cfi_offset %r12, -48
	.cfi_offset %r13, -40
	.cfi_offset %r14, -32
	.cfi_offset %r15, -24
	.cfi_offset %rbp, -16
	xorl	%ebx, %ebx
	testq	%rcx, %rcx
	sete	%bpl
	pxor	%xmm0, %xmm0
	movdqa	%xmm0, 208(%rsp)
	movl	$0, 224(%rsp)
	movl	$33, %eax
	cmpb	$0, 8(%rdi)
	jne	.LBB76_192
	leal	-6(%rsi), %r9d
	movl	$34, %eax
	cmpl	$-2, %r9d
	jb	.LBB76_192
	cmpq	$65, %r8
	setae	%al
	cmpl	$-7, %edx
	setae	%r9b
	orb	%al, %r9b
	movl	$5, %eax
	jne	.LBB76_192
	movq	%rdx, 96(%rsp)
	movq	%rdi, 88(%rsp)
	movdqa	%xmm0, 512(%rsp)
	movl	$0, 528(%rsp)
	leaq	544(%rsp), %rdi
	movl	$512, %edx
	movq	%rsi, 112(%rsp)
	xorl	%esi, %esi
	movq	%r8, %r15
	movq	%rcx, %r14
	callq	tlsf_memory_set@PLT
	movq	%r15, %rdx
	movq	112(%rsp), %rax
	testq	%r15, %r15
	je	.LBB76_10
	movq	%r14, %rcx
	movb	%bpl, %bl
	shll	$12, %ebx
	cmpq	$1, %rdx
	jne	.LBB76_6
	xorl	%esi, %esi
	jmp	.LBB76_9
.LBB76_6:
	movl	%edx, %edi
	andl	$126, %edi
	leaq	(%rbx,%rcx), %r8
	addq	$24, %r8
	xorl	%esi, %esi
	.p2align	4
.LBB76_7:
	movl	-24(%r8), %r9d
	movq	-16(%r8), %r10
	movl	$4294967295, %r11d
	cmpq	%r11, %r10
	cmovaeq	%r11, %r10
	movl	%r9d, 544(%rsp,%rsi,8)
	movl	%r10d, 548(%rsp,%rsi,8)
	movl	-8(%r8), %r9d
	movq	(%r8), %r10
	cmpq	%r11, %r10
	cmovbq	%r10, %r11
	movl	%r9d, 552(%rsp,%rsi,8)
	movl	%r11d, 556(%rsp,%rsi,8)
	addq	$2, %rsi
	addq	$32, %r8
	cmpq	%rsi, %rdi
	jne	.LBB76_7
	testb	$1, %dl
	je	.LBB76_10
.LBB76_9:
	addq	%rbx, %rcx
	movq	%rsi, %rdi
	shlq	$4, %rdi
	movl	(%rcx,%rdi), %r8d
	movq	8(%rcx,%rdi), %rcx
	movl	$4294967295, %edi
	cmpq	%rdi, %rcx
	cmovbq	%rcx, %rdi
	movl	%r8d, 544(%rsp,%rsi,8)
	movl	%edi, 548(%rsp,%rsi,8)
.LBB76_10:
	pxor	%xmm0, %xmm0
	movdqa	%xmm0, 176(%rsp)
	movl	$0, 192(%rsp)
	movdqa	%xmm0, 368(%rsp)
	movl	$0, 384(%rsp)
	movdqa	%xmm0, 336(%rsp)
	movl	$0, 352(%rsp)
	cmpl	$4, %eax
	jne	.LBB76_16
	movdqa	%xmm0, 240(%rsp)
	movdqa	%xmm0, 256(%rsp)
	movdqa	%xmm0, 272(%rsp)
	movdqa	%xmm0, 288(%rsp)
	movdqa	%xmm0, 304(%rsp)
	movq	$0, 320(%rsp)
	movdqa	%xmm0, 480(%rsp)
	movq	$0, 494(%rsp)
	movdqa	%xmm0, 144(%rsp)
	movl	$0, 160(%rsp)
	leaq	240(%rsp), %rdi
	leaq	544(%rsp), %rbx
	movq	%rbx, %rsi
	callq	"tlsf_pool::sizes::split::rising_split::<=4>"
	cmpb	$1, 240(%rsp)
	jne	.LBB76_22
	movups	312(%rsp), %xmm0
	movaps	%xmm0, 464(%rsp)
	movdqu	248(%rsp), %xmm0
	movups	264(%rsp), %xmm1
	movups	280(%rsp), %xmm2
	movups	296(%rsp), %xmm3
	movaps	%xmm3, 448(%rsp)
	movaps	%xmm2, 432(%rsp)
	movaps	%xmm1, 416(%rsp)
	movdqa	%xmm0, 400(%rsp)
	pxor	%xmm0, %xmm0
	movdqa	%xmm0, 16(%rsp)
	movq	$0, 32(%rsp)
	movq	400(%rsp), %r14
	testq	%r14, %r14
	je	.LBB76_145
	movabsq	$3303500013200135, %rax
	cmpq	%rax, %r14
	jae	.LBB76_190
	imulq	$2792, %r14, %rdi
	movl	$8, %esi
	callq	tlsf_memory_alloc@PLT
	testb	$1, %al
	je	.LBB76_190
	movq	%rdx, 72(%rsp)
	movq	%rdx, 16(%rsp)
	movq	$0, 24(%rsp)
	movq	%r14, 32(%rsp)
	xorl	%r12d, %r12d
	xorl	%ebp, %ebp
	movq	%r15, %rax
	movq	%r14, 168(%rsp)
	jmp	.LBB76_24
.LBB76_16:
	movdqa	%xmm0, 240(%rsp)
	movdqa	%xmm0, 256(%rsp)
	movdqa	%xmm0, 272(%rsp)
	movdqa	%xmm0, 288(%rsp)
	movdqa	%xmm0, 304(%rsp)
	movq	$0, 320(%rsp)
	movdqa	%xmm0, 480(%rsp)
	movq	$0, 494(%rsp)
	movdqa	%xmm0, 144(%rsp)
	movl	$0, 160(%rsp)
	leaq	240(%rsp), %rdi
	leaq	544(%rsp), %rbx
	movq	%rbx, %rsi
	callq	"tlsf_pool::sizes::split::rising_split::<=5>"
	cmpb	$1, 240(%rsp)
	jne	.LBB76_22
	movups	312(%rsp), %xmm0
	movaps	%xmm0, 464(%rsp)
	movdqu	248(%rsp), %xmm0
	movups	264(%rsp), %xmm1
	movups	280(%rsp), %xmm2
	movups	296(%rsp), %xmm3
	movaps	%xmm3, 448(%rsp)
	movaps	%xmm2, 432(%rsp)
	movaps	%xmm1, 416(%rsp)
	movdqa	%xmm0, 400(%rsp)
	pxor	%xmm0, %xmm0
	movdqa	%xmm0, 16(%rsp)
	movq	$0, 32(%rsp)
	movq	400(%rsp), %r14
	testq	%r14, %r14
	je	.LBB76_147
	movabsq	$3303500013200135, %rax
	cmpq	%rax, %r14
	jae	.LBB76_190
	imulq	$2792, %r14, %rdi
	movl	$8, %esi
	callq	tlsf_memory_alloc@PLT
	testb	$1, %al
	je	.LBB76_190
	movq	%rdx, 72(%rsp)
	movq	%rdx, 16(%rsp)
	movq	$0, 24(%rsp)
	movq	%r14, 32(%rsp)
	xorl	%ecx, %ecx
	xorl	%ebp, %ebp
	movq	%r15, %rax
	movq	%r14, 168(%rsp)
	jmp	.LBB76_85
.LBB76_22:
	xorl	%eax, %eax
	jmp	.LBB76_191
.LBB76_23:
	leaq	(%rbx,%r15,8), %rbx
	movq	80(%rsp), %rax
	subq	%r15, %rax
	incq	%rbp
	movq	104(%rsp), %r12
	movq	168(%rsp), %r14
	cmpq	%r14, %rbp
	je	.LBB76_158
.LBB76_24:
	movq	%rbp, %rcx
	notq	%rcx
	addq	400(%rsp), %rcx
	movq	408(%rsp,%rcx,8), %r11
	cmpq	%r11, %rax
	cmovbq	%rax, %r11
	testq	%r11, %r11
	je	.LBB76_30
	xorl	%ecx, %ecx
	.p2align	4
.LBB76_26:
	cmpl	$8388585, 4(%rbx,%rcx,8)
	jae	.LBB76_195
	incq	%rcx
	cmpq	%rcx, %r11
	jne	.LBB76_26
	movl	%r11d, %ecx
	andl	$3, %ecx
	cmpq	$4, %r11
	jae	.LBB76_31
	xorl	%edx, %edx
	xorl	%esi, %esi
	jmp	.LBB76_34
.LBB76_30:
	xorl	%edx, %edx
	xorl	%ecx, %ecx
	jmp	.LBB76_47
.LBB76_31:
	movq	%r11, %rdi
	andq	$-4, %rdi
	xorl	%edx, %edx
	xorl	%esi, %esi
	.p2align	4
.LBB76_32:
	movl	(%rbx,%rsi,8), %r8d
	movl	8(%rbx,%rsi,8), %r9d
	addq	%rdx, %r8
	movl	16(%rbx,%rsi,8), %r10d
	addq	%r9, %r10
	addq	%r8, %r10
	movl	24(%rbx,%rsi,8), %edx
	addq	%r10, %rdx
	addq	$4, %rsi
	cmpq	%rsi, %rdi
	jne	.LBB76_32
	testq	%rcx, %rcx
	je	.LBB76_36
.LBB76_34:
	leaq	(%rbx,%rsi,8), %rsi
	xorl	%edi, %edi
	.p2align	4
.LBB76_35:
	movl	(%rsi,%rdi,8), %r8d
	addq	%r8, %rdx
	incq	%rdi
	cmpq	%rdi, %rcx
	jne	.LBB76_35
.LBB76_36:
	cmpq	$1, %r11
	jne	.LBB76_38
	xorl	%ecx, %ecx
	xorl	%esi, %esi
	jmp	.LBB76_45
.LBB76_38:
	movq	%r11, %rdi
	andq	$-2, %rdi
	xorl	%ecx, %ecx
	xorl	%esi, %esi
	jmp	.LBB76_40
	.p2align	4
.LBB76_39:
	addq	$2, %rsi
	cmpq	%rsi, %rdi
	je	.LBB76_44
.LBB76_40:
	cmpl	$0, (%rbx,%rsi,8)
	je	.LBB76_42
	movl	4(%rbx,%rsi,8), %r8d
	cmpl	%ecx, %r8d
	cmoval	%r8d, %ecx
.LBB76_42:
	cmpl	$0, 8(%rbx,%rsi,8)
	je	.LBB76_39
	movl	12(%rbx,%rsi,8), %r8d
	cmpl	%ecx, %r8d
	cmoval	%r8d, %ecx
	jmp	.LBB76_39
.LBB76_44:
	testb	$1, %r11b
	je	.LBB76_47
.LBB76_45:
	cmpl	$0, (%rbx,%rsi,8)
	je	.LBB76_47
	movl	4(%rbx,%rsi,8), %esi
	cmpl	%ecx, %esi
	cmoval	%esi, %ecx
.LBB76_47:
	movl	%ecx, %esi
	cmpl	$1, %ecx
	adcq	$31, %rsi
	shrq	$3, %rsi
	movl	%esi, %ecx
	orl	$16, %ecx
	bsrl	%ecx, %ecx
	addl	$-4, %ecx
	decl	%esi
	shrl	%cl, %esi
	shll	$4, %ecx
	leal	(%rsi,%rcx), %edi
	incl	%edi
	movl	%edi, %ecx
	shrl	$4, %ecx
	je	.LBB76_49
	movl	$8, %edi
	shll	%cl, %edi
	incl	%esi
	andl	$15, %esi
	decb	%cl
	shll	%cl, %esi
	addl	%edi, %esi
	movl	%esi, %edi
.LBB76_49:
	movl	%edi, %ecx
	imulq	%rcx, %rdx
	cmpq	$5, %rdx
	movl	$4, %r13d
	cmovaeq	%rdx, %r13
	xorl	%ecx, %ecx
	cmpq	$1048577, %rdx
	movl	%r13d, %edx
	cmovael	%ecx, %edx
	movl	%edx, 12(%rsp)
	jae	.LBB76_195
	movq	%r11, 128(%rsp)
	movq	%rax, 80(%rsp)
	leaq	(,%r13,8), %rdi
	movl	$8, %esi
	callq	tlsf_memory_alloc@PLT
	testb	$1, %al
	je	.LBB76_177
	movq	%rdx, %r15
	movq	%r12, 48(%rsp)
	pxor	%xmm0, %xmm0
	movdqu	%xmm0, 16(%rdx)
	movdqu	%xmm0, (%rdx)
	leaq	63(%r13), %r12
	shrq	$6, %r12
	leaq	(,%r12,8), %rdi
	movl	$8, %esi
	callq	tlsf_memory_alloc@PLT
	testb	$1, %al
	je	.LBB76_156
	movq	$0, (%rdx)
	movabsq	$-4294967296, %rax
	addq	$19, %rax
	movq	%rax, (%r15)
	movq	$0, 8(%r15)
	orb	$1, (%rdx)
	movq	$-1, 16(%r15)
	movq	48(%rsp), %rax
	movq	%rax, %rcx
	cmpq	%rax, 32(%rsp)
	je	.LBB76_82
.LBB76_53:
	movq	96(%rsp), %rax
	movq	%rbp, 56(%rsp)
	addl	%ebp, %eax
	imulq	$2792, %rcx, %r14
	movq	72(%rsp), %rbp
	movl	%eax, (%rbp,%r14)
	movl	$0, 4(%rbp,%r14)
	movq	$1, 8(%rbp,%r14)
	movq	$0, 16(%rbp,%r14)
	movq	%r15, 24(%rbp,%r14)
	movq	$4, 32(%rbp,%r14)
	movq	%r13, 40(%rbp,%r14)
	movq	%rdx, 48(%rbp,%r14)
	movq	$1, 56(%rbp,%r14)
	movq	%r12, 64(%rbp,%r14)
	movq	$4, 72(%rbp,%r14)
	movabsq	$68719476737, %rax
	movq	%rax, 80(%rbp,%r14)
	pxor	%xmm0, %xmm0
	movdqu	%xmm0, 88(%rbp,%r14)
	movdqu	%xmm0, 104(%rbp,%r14)
	movdqu	%xmm0, 120(%rbp,%r14)
	movdqu	%xmm0, 136(%rbp,%r14)
	movdqu	%xmm0, 152(%rbp,%r14)
	pcmpeqd	%xmm0, %xmm0
	movdqu	%xmm0, 168(%rbp,%r14)
	movl	$0, 184(%rbp,%r14)
	leaq	188(%rbp,%r14), %rdi
	movl	$2544, %edx
	movl	$255, %esi
	movq	%rcx, %r12
	callq	tlsf_memory_set@PLT
	incq	%r12
	movl	$0, 2732(%rbp,%r14)
	leaq	8(%rsp), %rax
	movq	%rax, 2736(%rbp,%r14)
	pxor	%xmm0, %xmm0
	movdqu	%xmm0, 2744(%rbp,%r14)
	movq	$4, 2760(%rbp,%r14)
	movq	%rax, 2768(%rbp,%r14)
	movdqu	%xmm0, 2776(%rbp,%r14)
	movq	%r12, 24(%rsp)
	movq	128(%rsp), %r15
	testq	%r15, %r15
	movq	%r12, 104(%rsp)
	je	.LBB76_59
	movq	%r12, %rbp
	movabsq	$1152921504606846974, %rax
	addq	$2, %rax
	cmpq	%rax, %r15
	jae	.LBB76_176
	leaq	(,%r15,8), %r12
	movl	$4, %esi
	movq	%r12, %rdi
	callq	tlsf_memory_alloc@PLT
	testb	$1, %al
	je	.LBB76_176
	movq	%rdx, 64(%rsp)
	movq	%rdx, %rdi
	movq	%rbx, %rsi
	movq	%r12, %rdx
	callq	tlsf_memory_cpy@PLT
	leaq	(,%r15,4), %r13
	movl	$4, %esi
	movq	%r13, %rdi
	callq	tlsf_memory_alloc@PLT
	testb	$1, %al
	je	.LBB76_175
	movq	%rdx, %rdi
	xorl	%r12d, %r12d
	cmpq	$1, %r15
	jne	.LBB76_60
	xorl	%r8d, %r8d
	jmp	.LBB76_61
.LBB76_59:
	xorl	%r8d, %r8d
	movq	%rax, 64(%rsp)
	movq	%rax, %rdi
	xorl	%r12d, %r12d
	movl	12(%rsp), %esi
	jmp	.LBB76_73
.LBB76_60:
	addq	$-4, %r13
	xorl	%esi, %esi
	movq	%r13, %rdx
	movq	%rdi, %r14
	callq	tlsf_memory_set@PLT
	movq	%r14, %rdi
	leaq	-1(%r15), %r8
.LBB76_61:
	movl	12(%rsp), %esi
	movl	$0, (%rdi,%r8,4)
	cmpq	$1, %r15
	jne	.LBB76_63
	xorl	%eax, %eax
	jmp	.LBB76_70
.LBB76_63:
	movq	%r15, %rcx
	movabsq	$1152921504606846974, %rax
	andq	%rax, %rcx
	xorl	%r12d, %r12d
	xorl	%eax, %eax
	jmp	.LBB76_65
	.p2align	4
.LBB76_64:
	addq	$2, %rax
	cmpq	%rax, %rcx
	je	.LBB76_69
.LBB76_65:
	cmpl	$0, (%rbx,%rax,8)
	je	.LBB76_67
	movl	4(%rbx,%rax,8), %edx
	cmpl	%r12d, %edx
	cmoval	%edx, %r12d
.LBB76_67:
	cmpl	$0, 8(%rbx,%rax,8)
	je	.LBB76_64
	movl	12(%rbx,%rax,8), %edx
	cmpl	%r12d, %edx
	cmoval	%edx, %r12d
	jmp	.LBB76_64
.LBB76_69:
	testb	$1, %r15b
	je	.LBB76_72
.LBB76_70:
	cmpl	$0, (%rbx,%rax,8)
	je	.LBB76_72
	movl	4(%rbx,%rax,8), %eax
	cmpl	%r12d, %eax
	cmoval	%eax, %r12d
.LBB76_72:
	incq	%r8
.LBB76_73:
	movq	%r8, 120(%rsp)
	movq	%rdi, 136(%rsp)
	movl	%r12d, %eax
	cmpl	$1, %r12d
	adcq	$31, %rax
	shrq	$3, %rax
	movl	%eax, %ecx
	orl	$16, %ecx
	bsrl	%ecx, %ecx
	addl	$-4, %ecx
	decl	%eax
	shrl	%cl, %eax
	shll	$4, %ecx
	leal	(%rax,%rcx), %ebp
	incl	%ebp
	movl	%ebp, %ecx
	shrl	$4, %ecx
	je	.LBB76_75
	movl	$8, %edx
	shll	%cl, %edx
	incl	%eax
	andl	$15, %eax
	decb	%cl
	shll	%cl, %eax
	addl	%edx, %eax
	movl	%eax, %ebp
.LBB76_75:
	imulq	$2792, 48(%rsp), %r13
	movq	72(%rsp), %r14
	leaq	(%r14,%r13), %r15
	movq	8(%r14,%r13), %r12
	decq	%r12
	leaq	(%r14,%r13), %rdi
	addq	$24, %rdi
	callq	"tlsf_words::words::Words::lengthen"
	movl	$-1, 184(%r14,%r13)
	pxor	%xmm0, %xmm0
	movdqu	%xmm0, 80(%r14,%r13)
	movdqu	%xmm0, 96(%r14,%r13)
	movdqu	%xmm0, 112(%r14,%r13)
	movdqu	%xmm0, 128(%r14,%r13)
	movdqu	%xmm0, 144(%r14,%r13)
	movq	$0, 160(%r14,%r13)
	movq	32(%r14,%r13), %rdx
	movl	%edx, %eax
	orl	$16, %eax
	bsrl	%eax, %ecx
	addl	$-4, %ecx
	movl	%edx, %eax
	shrl	%cl, %eax
	movq	24(%r14,%r13), %rsi
	shll	$4, %ecx
	addl	%eax, %ecx
	shlq	$2, %rdx
	movabsq	$-4294967296, %r8
	leaq	3(%r8), %rdi
	orq	%rdx, %rdi
	movq	%rdi, (%rsi)
	movq	%r12, 8(%rsi)
	movq	48(%r14,%r13), %rdx
	orq	$1, (%rdx)
	movslq	168(%r15,%rcx,4), %rdx
	movl	$0, 168(%r15,%rcx,4)
	movq	24(%r14,%r13), %rsi
	testq	%rdx, %rdx
	js	.LBB76_77
	movq	%rdx, %rax
	orq	%r8, %rax
	movq	%rax, 16(%rsi)
	movl	$0, 20(%rsi,%rdx,8)
	jmp	.LBB76_78
.LBB76_77:
	movq	$-1, 16(%rsi)
	shrl	$4, %ecx
	movl	$1, %edx
	shll	%cl, %edx
	movl	84(%r15,%rcx,4), %esi
	orl	%edx, 80(%r15)
	andb	$15, %al
	btsl	%eax, %esi
	movl	%esi, 84(%r15,%rcx,4)
.LBB76_78:
	movq	136(%rsp), %rcx
	movq	120(%rsp), %rdx
	movq	2736(%r15), %rdi
	movq	2768(%r15), %r13
	movq	2784(%r15), %r14
	movq	64(%rsp), %rax
	movq	%rax, 2736(%r15)
	movq	128(%rsp), %rax
	movq	%rax, 2744(%r15)
	cmpq	$0, 2752(%r15)
	movq	%rax, 2752(%r15)
	movl	%ebp, 2760(%r15)
	movl	$0, 2764(%r15)
	movq	%rcx, 2768(%r15)
	movq	%rdx, 2776(%r15)
	movq	%rax, 2784(%r15)
	movq	%rax, %r15
	je	.LBB76_80
	callq	tlsf_memory_dealloc@PLT
.LBB76_80:
	testq	%r14, %r14
	movq	56(%rsp), %rbp
	je	.LBB76_23
	movq	%r13, %rdi
	callq	tlsf_memory_dealloc@PLT
	jmp	.LBB76_23
.LBB76_82:
	movq	%rdx, 104(%rsp)
	leaq	16(%rsp), %rdi
	callq	"std_alloc::vec::Vec::grow_amortized::<#8f83c87fc5454f35>"
	testb	%al, %al
	je	.LBB76_193
	movq	16(%rsp), %rax
	movq	%rax, 72(%rsp)
	movq	24(%rsp), %rcx
	movq	104(%rsp), %rdx
	jmp	.LBB76_53
.LBB76_84:
	leaq	(%rbx,%r15,8), %rbx
	movq	80(%rsp), %rax
	subq	%r15, %rax
	incq	%rbp
	movq	56(%rsp), %rcx
	movq	168(%rsp), %r14
	cmpq	%r14, %rbp
	je	.LBB76_157
.LBB76_85:
	movq	%rcx, 48(%rsp)
	movq	%rbp, %rcx
	notq	%rcx
	addq	400(%rsp), %rcx
	movq	408(%rsp,%rcx,8), %r12
	cmpq	%r12, %rax
	cmovbq	%rax, %r12
	testq	%r12, %r12
	je	.LBB76_91
	xorl	%ecx, %ecx
	.p2align	4
.LBB76_87:
	cmpl	$134217705, 4(%rbx,%rcx,8)
	jae	.LBB76_195
	incq	%rcx
	cmpq	%rcx, %r12
	jne	.LBB76_87
	movl	%r12d, %ecx
	andl	$3, %ecx
	cmpq	$4, %r12
	jae	.LBB76_92
	xorl	%edx, %edx
	xorl	%esi, %esi
	jmp	.LBB76_95
.LBB76_91:
	xorl	%edx, %edx
	xorl	%ecx, %ecx
	jmp	.LBB76_108
.LBB76_92:
	movq	%r12, %rdi
	andq	$-4, %rdi
	xorl	%edx, %edx
	xorl	%esi, %esi
	.p2align	4
.LBB76_93:
	movl	(%rbx,%rsi,8), %r8d
	movl	8(%rbx,%rsi,8), %r9d
	addq	%rdx, %r8
	movl	16(%rbx,%rsi,8), %r10d
	addq	%r9, %r10
	addq	%r8, %r10
	movl	24(%rbx,%rsi,8), %edx
	addq	%r10, %rdx
	addq	$4, %rsi
	cmpq	%rsi, %rdi
	jne	.LBB76_93
	testq	%rcx, %rcx
	je	.LBB76_97
.LBB76_95:
	leaq	(%rbx,%rsi,8), %rsi
	xorl	%edi, %edi
	.p2align	4
.LBB76_96:
	movl	(%rsi,%rdi,8), %r8d
	addq	%r8, %rdx
	incq	%rdi
	cmpq	%rdi, %rcx
	jne	.LBB76_96
.LBB76_97:
	cmpq	$1, %r12
	jne	.LBB76_99
	xorl	%ecx, %ecx
	xorl	%esi, %esi
	jmp	.LBB76_106
.LBB76_99:
	movq	%r12, %rdi
	andq	$-2, %rdi
	xorl	%ecx, %ecx
	xorl	%esi, %esi
	jmp	.LBB76_101
	.p2align	4
.LBB76_100:
	addq	$2, %rsi
	cmpq	%rsi, %rdi
	je	.LBB76_105
.LBB76_101:
	cmpl	$0, (%rbx,%rsi,8)
	je	.LBB76_103
	movl	4(%rbx,%rsi,8), %r8d
	cmpl	%ecx, %r8d
	cmoval	%r8d, %ecx
.LBB76_103:
	cmpl	$0, 8(%rbx,%rsi,8)
	je	.LBB76_100
	movl	12(%rbx,%rsi,8), %r8d
	cmpl	%ecx, %r8d
	cmoval	%r8d, %ecx
	jmp	.LBB76_100
.LBB76_105:
	testb	$1, %r12b
	je	.LBB76_108
.LBB76_106:
	cmpl	$0, (%rbx,%rsi,8)
	je	.LBB76_108
	movl	4(%rbx,%rsi,8), %esi
	cmpl	%ecx, %esi
	cmoval	%esi, %ecx
.LBB76_108:
	movl	%ecx, %esi
	cmpl	$1, %ecx
	adcq	$31, %rsi
	shrq	$3, %rsi
	movl	%esi, %ecx
	orl	$32, %ecx
	bsrl	%ecx, %ecx
	addl	$-5, %ecx
	decl	%esi
	shrl	%cl, %esi
	shll	$5, %ecx
	leal	(%rsi,%rcx), %edi
	incl	%edi
	movl	%edi, %ecx
	shrl	$5, %ecx
	je	.LBB76_110
	movl	$16, %edi
	shll	%cl, %edi
	incl	%esi
	andl	$31, %esi
	decb	%cl
	shll	%cl, %esi
	addl	%edi, %esi
	movl	%esi, %edi
.LBB76_110:
	movl	%edi, %ecx
	imulq	%rcx, %rdx
	cmpq	$5, %rdx
	movl	$4, %r13d
	cmovaeq	%rdx, %r13
	xorl	%ecx, %ecx
	cmpq	$16777217, %rdx
	movl	%r13d, %edx
	cmovael	%ecx, %edx
	movl	%edx, 12(%rsp)
	jae	.LBB76_195
	movq	%rax, 80(%rsp)
	leaq	(,%r13,8), %rdi
	movl	$8, %esi
	callq	tlsf_memory_alloc@PLT
	testb	$1, %al
	je	.LBB76_154
	movq	%rdx, %r15
	movq	%r12, 128(%rsp)
	pxor	%xmm0, %xmm0
	movdqu	%xmm0, 16(%rdx)
	movdqu	%xmm0, (%rdx)
	leaq	63(%r13), %r12
	shrq	$6, %r12
	leaq	(,%r12,8), %rdi
	movl	$8, %esi
	callq	tlsf_memory_alloc@PLT
	testb	$1, %al
	je	.LBB76_155
	movq	$0, (%rdx)
	movabsq	$-4294967296, %rax
	addq	$19, %rax
	movq	%rax, (%r15)
	movq	$0, 8(%r15)
	orb	$1, (%rdx)
	movq	$-1, 16(%r15)
	movq	48(%rsp), %rax
	movq	%rax, %rcx
	cmpq	%rax, 32(%rsp)
	je	.LBB76_143
.LBB76_114:
	movq	96(%rsp), %rax
	movq	%rbp, 104(%rsp)
	addl	%ebp, %eax
	imulq	$2792, %rcx, %r14
	movq	72(%rsp), %rbp
	movl	%eax, (%rbp,%r14)
	movl	$0, 4(%rbp,%r14)
	movq	$1, 8(%rbp,%r14)
	movq	$0, 16(%rbp,%r14)
	movq	%r15, 24(%rbp,%r14)
	movq	$4, 32(%rbp,%r14)
	movq	%r13, 40(%rbp,%r14)
	movq	%rdx, 48(%rbp,%r14)
	movq	$1, 56(%rbp,%r14)
	movq	%r12, 64(%rbp,%r14)
	movq	$4, 72(%rbp,%r14)
	movabsq	$68719476737, %rax
	movq	%rax, 80(%rbp,%r14)
	pxor	%xmm0, %xmm0
	movdqu	%xmm0, 88(%rbp,%r14)
	movdqu	%xmm0, 104(%rbp,%r14)
	movdqu	%xmm0, 120(%rbp,%r14)
	movdqu	%xmm0, 136(%rbp,%r14)
	movdqu	%xmm0, 152(%rbp,%r14)
	pcmpeqd	%xmm0, %xmm0
	movdqu	%xmm0, 168(%rbp,%r14)
	movl	$0, 184(%rbp,%r14)
	leaq	188(%rbp,%r14), %rdi
	movl	$2544, %edx
	movq	%rcx, %r15
	movl	$255, %esi
	callq	tlsf_memory_set@PLT
	incq	%r15
	movl	$0, 2732(%rbp,%r14)
	leaq	8(%rsp), %rax
	movq	%rax, 2736(%rbp,%r14)
	pxor	%xmm0, %xmm0
	movdqu	%xmm0, 2744(%rbp,%r14)
	movq	$4, 2760(%rbp,%r14)
	movq	%rax, 2768(%rbp,%r14)
	movdqu	%xmm0, 2776(%rbp,%r14)
	movq	%r15, 24(%rsp)
	movq	128(%rsp), %rcx
	testq	%rcx, %rcx
	movq	%r15, 56(%rsp)
	je	.LBB76_120
	movabsq	$1152921504606846974, %rax
	addq	$2, %rax
	cmpq	%rax, %rcx
	jae	.LBB76_164
	movq	%rcx, %r14
	leaq	(,%rcx,8), %r12
	movl	$4, %esi
	movq	%r12, %rdi
	callq	tlsf_memory_alloc@PLT
	testb	$1, %al
	je	.LBB76_163
	movq	%rdx, %r15
	movq	%rdx, %rdi
	movq	%rbx, %rsi
	movq	%r12, %rdx
	callq	tlsf_memory_cpy@PLT
	leaq	(,%r14,4), %r13
	movl	$4, %esi
	movq	%r13, %rdi
	callq	tlsf_memory_alloc@PLT
	testb	$1, %al
	je	.LBB76_162
	movq	%rdx, %r12
	movq	%r15, 64(%rsp)
	xorl	%r15d, %r15d
	cmpq	$1, %r14
	jne	.LBB76_121
	xorl	%r8d, %r8d
	jmp	.LBB76_122
.LBB76_120:
	xorl	%r8d, %r8d
	movq	%rax, %r12
	movq	%rax, 64(%rsp)
	xorl	%r15d, %r15d
	movq	48(%rsp), %rdi
	movl	12(%rsp), %esi
	jmp	.LBB76_134
.LBB76_121:
	addq	$-4, %r13
	movq	%r12, %rdi
	xorl	%esi, %esi
	movq	%r13, %rdx
	callq	tlsf_memory_set@PLT
	leaq	-1(%r14), %r8
.LBB76_122:
	movq	48(%rsp), %rdi
	movl	12(%rsp), %esi
	movl	$0, (%r12,%r8,4)
	cmpq	$1, %r14
	jne	.LBB76_124
	xorl	%eax, %eax
	jmp	.LBB76_131
.LBB76_124:
	movq	%r14, %rcx
	movabsq	$1152921504606846974, %rax
	andq	%rax, %rcx
	xorl	%r15d, %r15d
	xorl	%eax, %eax
	jmp	.LBB76_126
	.p2align	4
.LBB76_125:
	addq	$2, %rax
	cmpq	%rax, %rcx
	je	.LBB76_130
.LBB76_126:
	cmpl	$0, (%rbx,%rax,8)
	je	.LBB76_128
	movl	4(%rbx,%rax,8), %edx
	cmpl	%r15d, %edx
	cmoval	%edx, %r15d
.LBB76_128:
	cmpl	$0, 8(%rbx,%rax,8)
	je	.LBB76_125
	movl	12(%rbx,%rax,8), %edx
	cmpl	%r15d, %edx
	cmoval	%edx, %r15d
	jmp	.LBB76_125
.LBB76_130:
	testb	$1, %r14b
	je	.LBB76_133
.LBB76_131:
	cmpl	$0, (%rbx,%rax,8)
	je	.LBB76_133
	movl	4(%rbx,%rax,8), %eax
	cmpl	%r15d, %eax
	cmoval	%eax, %r15d
.LBB76_133:
	incq	%r8
.LBB76_134:
	movq	%r8, 120(%rsp)
	movq	%r12, 136(%rsp)
	movl	%r15d, %eax
	cmpl	$1, %r15d
	adcq	$31, %rax
	shrq	$3, %rax
	movl	%eax, %ecx
	orl	$32, %ecx
	bsrl	%ecx, %ecx
	addl	$-5, %ecx
	decl	%eax
	shrl	%cl, %eax
	shll	$5, %ecx
	leal	(%rax,%rcx), %ebp
	incl	%ebp
	movl	%ebp, %ecx
	shrl	$5, %ecx
	je	.LBB76_136
	movl	$16, %edx
	shll	%cl, %edx
	incl	%eax
	andl	$31, %eax
	decb	%cl
	shll	%cl, %eax
	addl	%edx, %eax
	movl	%eax, %ebp
.LBB76_136:
	imulq	$2792, %rdi, %r13
	movq	72(%rsp), %r14
	leaq	(%r14,%r13), %r12
	movq	8(%r14,%r13), %r15
	decq	%r15
	leaq	(%r14,%r13), %rdi
	addq	$24, %rdi
	callq	"tlsf_words::words::Words::lengthen"
	movl	$-1, 184(%r14,%r13)
	pxor	%xmm0, %xmm0
	movdqu	%xmm0, 80(%r14,%r13)
	movdqu	%xmm0, 96(%r14,%r13)
	movdqu	%xmm0, 112(%r14,%r13)
	movdqu	%xmm0, 128(%r14,%r13)
	movdqu	%xmm0, 144(%r14,%r13)
	movq	$0, 160(%r14,%r13)
	movq	32(%r14,%r13), %rdx
	movl	%edx, %eax
	orl	$32, %eax
	bsrl	%eax, %ecx
	addl	$-5, %ecx
	movl	%edx, %eax
	shrl	%cl, %eax
	movq	24(%r14,%r13), %rsi
	shll	$5, %ecx
	addl	%eax, %ecx
	shlq	$2, %rdx
	movabsq	$-4294967296, %r8
	leaq	3(%r8), %rdi
	orq	%rdx, %rdi
	movq	%rdi, (%rsi)
	movq	%r15, 8(%rsi)
	movq	48(%r14,%r13), %rdx
	orq	$1, (%rdx)
	movslq	168(%r12,%rcx,4), %rdx
	movl	$0, 168(%r12,%rcx,4)
	movq	24(%r14,%r13), %rsi
	testq	%rdx, %rdx
	js	.LBB76_138
	movq	%rdx, %rax
	orq	%r8, %rax
	movq	%rax, 16(%rsi)
	movl	$0, 20(%rsi,%rdx,8)
	jmp	.LBB76_139
.LBB76_138:
	movq	$-1, 16(%rsi)
	shrl	$5, %ecx
	movl	$1, %edx
	shll	%cl, %edx
	movl	84(%r12,%rcx,4), %esi
	orl	%edx, 80(%r12)
	btsl	%eax, %esi
	movl	%esi, 84(%r12,%rcx,4)
.LBB76_139:
	movq	64(%rsp), %rax
	movq	120(%rsp), %rcx
	movq	2736(%r12), %rdi
	movq	2768(%r12), %r13
	movq	2784(%r12), %r14
	movq	%rax, 2736(%r12)
	movq	128(%rsp), %r15
	movq	%r15, 2744(%r12)
	cmpq	$0, 2752(%r12)
	movq	%r15, 2752(%r12)
	movl	%ebp, 2760(%r12)
	movl	$0, 2764(%r12)
	movq	136(%rsp), %rax
	movq	%rax, 2768(%r12)
	movq	%rcx, 2776(%r12)
	movq	%r15, 2784(%r12)
	je	.LBB76_141
	callq	tlsf_memory_dealloc@PLT
.LBB76_141:
	testq	%r14, %r14
	movq	104(%rsp), %rbp
	je	.LBB76_84
	movq	%r13, %rdi
	callq	tlsf_memory_dealloc@PLT
	jmp	.LBB76_84
.LBB76_143:
	movq	%rdx, 56(%rsp)
	leaq	16(%rsp), %rdi
	callq	"std_alloc::vec::Vec::grow_amortized::<#cb831ce0f1fbfa3d>"
	testb	%al, %al
	je	.LBB76_194
	movq	16(%rsp), %rax
	movq	%rax, 72(%rsp)
	movq	24(%rsp), %rcx
	movq	56(%rsp), %rdx
	jmp	.LBB76_114
.LBB76_145:
	leaq	8(%rsp), %rax
	movq	%rax, 16(%rsp)
	xorl	%ebx, %ebx
.LBB76_146:
	movq	16(%rsp), %rax
	movq	%rax, 148(%rsp)
	movq	24(%rsp), %rax
	movq	%rax, 156(%rsp)
	movaps	144(%rsp), %xmm0
	movaps	%xmm0, 368(%rsp)
	movl	160(%rsp), %eax
	movl	%eax, 384(%rsp)
	movaps	%xmm0, 176(%rsp)
	movl	%eax, 192(%rsp)
	xorl	%r14d, %r14d
	jmp	.LBB76_149
.LBB76_147:
	leaq	8(%rsp), %rax
	movq	%rax, 16(%rsp)
	xorl	%ebx, %ebx
.LBB76_148:
	movq	16(%rsp), %rax
	movq	%rax, 148(%rsp)
	movq	24(%rsp), %rax
	movq	%rax, 156(%rsp)
	movaps	144(%rsp), %xmm0
	movaps	%xmm0, 336(%rsp)
	movl	160(%rsp), %eax
	movl	%eax, 352(%rsp)
	movaps	%xmm0, 176(%rsp)
	movl	%eax, 192(%rsp)
	movl	$1, %r14d
.LBB76_149:
	movl	192(%rsp), %eax
	movaps	176(%rsp), %xmm0
	movaps	%xmm0, 208(%rsp)
	movl	%eax, 224(%rsp)
	movl	$2760, %edi
	movl	$8, %esi
	callq	tlsf_memory_alloc@PLT
	testb	$1, %al
	je	.LBB76_151
	movq	%rdx, %rdi
	movq	%rdx, %r15
	movw	$257, (%rdi)
	movq	%r14, 8(%rdi)
	movq	96(%rsp), %rax
	movl	%eax, 16(%rdi)
	movdqa	208(%rsp), %xmm0
	movdqu	%xmm0, 20(%rdi)
	movl	224(%rsp), %eax
	movl	%eax, 36(%rdi)
	movq	%rbx, 40(%rdi)
	addq	$48, %rdi
	movl	$2712, %edx
	xorl	%esi, %esi
	callq	tlsf_memory_set@PLT
	xorl	%eax, %eax
	movq	88(%rsp), %rcx
	movq	%r15, (%rcx)
	movb	$1, 8(%rcx)
	movl	$0, 9(%rcx)
	movl	$0, 12(%rcx)
	jmp	.LBB76_192
.LBB76_151:
	leaq	212(%rsp), %rax
	cmpl	$4, 112(%rsp)
	jne	.LBB76_153
	movdqu	(%rax), %xmm0
	movdqa	%xmm0, 544(%rsp)
	movq	%rbx, 560(%rsp)
	leaq	544(%rsp), %rdi
	callq	"std_alloc::vec::Vec::drop::<#01e19ae241269710>"
	movl	$6, %eax
	jmp	.LBB76_192
.LBB76_153:
	movdqu	(%rax), %xmm0
	movdqa	%xmm0, 240(%rsp)
	movq	%rbx, 256(%rsp)
	leaq	240(%rsp), %rdi
	callq	"std_alloc::vec::Vec::drop::<#1d6c342d5cae5f6b>"
	movl	$6, %eax
	jmp	.LBB76_192
.LBB76_154:
	movq	48(%rsp), %r15
	jmp	.LBB76_164
.LBB76_155:
	movq	%r15, %rdi
	callq	tlsf_memory_dealloc@PLT
	movq	48(%rsp), %r15
	jmp	.LBB76_164
.LBB76_156:
	movq	%r15, %rdi
	callq	tlsf_memory_dealloc@PLT
	movq	48(%rsp), %r12
	jmp	.LBB76_177
.LBB76_157:
	movq	32(%rsp), %rbx
	jmp	.LBB76_148
.LBB76_158:
	movq	32(%rsp), %rbx
	jmp	.LBB76_146
.LBB76_162:
	movq	%r15, %rdi
	callq	tlsf_memory_dealloc@PLT
.LBB76_163:
	movq	56(%rsp), %r15
.LBB76_164:
	movq	16(%rsp), %rax
	movq	%rax, 88(%rsp)
	movq	32(%rsp), %rax
	movq	%rax, 80(%rsp)
	testq	%r15, %r15
	je	.LBB76_188
	movq	88(%rsp), %rax
	leaq	2784(%rax), %rbp
	jmp	.LBB76_167
.LBB76_166:
	addq	$2792, %rbp
	decq	%r15
	je	.LBB76_188
.LBB76_167:
	movq	-2736(%rbp), %r12
	movq	-2720(%rbp), %r14
	movq	-48(%rbp), %rax
	movq	%rax, 96(%rsp)
	movq	-32(%rbp), %rbx
	movq	-16(%rbp), %rax
	movq	%rax, 112(%rsp)
	movq	(%rbp), %r13
	cmpq	$0, -2744(%rbp)
	je	.LBB76_169
	movq	-2760(%rbp), %rdi
	callq	tlsf_memory_dealloc@PLT
.LBB76_169:
	testq	%r14, %r14
	je	.LBB76_171
	movq	%r12, %rdi
	callq	tlsf_memory_dealloc@PLT
.LBB76_171:
	testq	%rbx, %rbx
	je	.LBB76_173
	movq	96(%rsp), %rdi
	callq	tlsf_memory_dealloc@PLT
.LBB76_173:
	testq	%r13, %r13
	je	.LBB76_166
	movq	112(%rsp), %rdi
	callq	tlsf_memory_dealloc@PLT
	jmp	.LBB76_166
.LBB76_175:
	movq	64(%rsp), %rdi
	callq	tlsf_memory_dealloc@PLT
.LBB76_176:
	movq	%rbp, %r12
.LBB76_177:
	movq	16(%rsp), %rax
	movq	%rax, 88(%rsp)
	movq	32(%rsp), %rax
	movq	%rax, 80(%rsp)
	testq	%r12, %r12
	je	.LBB76_188
	movq	88(%rsp), %rax
	leaq	2784(%rax), %rbp
	jmp	.LBB76_180
.LBB76_179:
	addq	$2792, %rbp
	decq	%r12
	je	.LBB76_188
.LBB76_180:
	movq	%r12, %r15
	movq	-2736(%rbp), %r12
	movq	-2720(%rbp), %r14
	movq	-48(%rbp), %rax
	movq	%rax, 96(%rsp)
	movq	-32(%rbp), %rbx
	movq	-16(%rbp), %rax
	movq	%rax, 112(%rsp)
	movq	(%rbp), %r13
	cmpq	$0, -2744(%rbp)
	je	.LBB76_182
	movq	-2760(%rbp), %rdi
	callq	tlsf_memory_dealloc@PLT
.LBB76_182:
	testq	%r14, %r14
	je	.LBB76_184
	movq	%r12, %rdi
	callq	tlsf_memory_dealloc@PLT
.LBB76_184:
	testq	%rbx, %rbx
	je	.LBB76_186
	movq	96(%rsp), %rdi
	callq	tlsf_memory_dealloc@PLT
.LBB76_186:
	testq	%r13, %r13
	movq	%r15, %r12
	je	.LBB76_179
	movq	112(%rsp), %rdi
	callq	tlsf_memory_dealloc@PLT
	jmp	.LBB76_179
.LBB76_188:
	cmpq	$0, 80(%rsp)
	je	.LBB76_190
	movq	88(%rsp), %rdi
	callq	tlsf_memory_dealloc@PLT
.LBB76_190:
	movb	$2, %al
.LBB76_191:
	cmpb	$1, %al
	movl	$6, %eax
	sbbl	$0, %eax
.LBB76_192:
	addq	$1064, %rsp
	.cfi_def_cfa_offset 56
	popq	%rbx
	.cfi_def_cfa_offset 48
	popq	%r12
	.cfi_def_cfa_offset 40
	popq	%r13
	.cfi_def_cfa_offset 32
	popq	%r14
	.cfi_def_cfa_offset 24
	popq	%r15
	.cfi_def_cfa_offset 16
	popq	%rbp
	.cfi_def_cfa_offset 8
	retq
.LBB76_193:
	.cfi_def_cfa_offset 1120
	movq	%r15, %rdi
	callq	tlsf_memory_dealloc@PLT
	movq	104(%rsp), %rdi
	callq	tlsf_memory_dealloc@PLT
	movq	24(%rsp), %r12
	jmp	.LBB76_177
.LBB76_194:
	movq	%r15, %rdi
	callq	tlsf_memory_dealloc@PLT
	movq	56(%rsp), %rdi
	callq	tlsf_memory_dealloc@PLT
	movq	24(%rsp), %r15
	jmp	.LBB76_164
.LBB76_195:
	ud2
.Lfunc_end76:
	.size	tlsf_pools_open, .Lfunc_end76-tlsf_pools_open
	.cfi_endproc
	.section	.text.tlsf_pools_part,"ax",@progbits
	.globl	tlsf_pools_part
	.p2align	4
	.type	tlsf_pools_part,@function
tlsf_pools_part:
	.cfi_startproc
	cmpb	$0, 8(%rdi)
	je	.LBB77_7
	movq	(%rdi), %rax
	cmpb	$0, 1(%rax)
	je	.LBB77_7
	cmpb	$1, (%rax)
	jne	.LBB77_8
	movb	$0, 1(%rax)
	movl	%esi, %edi
	cmpb	$0, 8(%rax)
	movq	32(%rax), %rsi
	cmpq	%rdi, %rsi
	jbe	.LBB77_5
	movq	24(%rax), %rsi
	imulq	$2792, %rdi, %rdi
	leaq	(%rsi,%rdi), %r8
	movl	(%r8), %r8d
	movq	24(%rsi,%rdi), %rsi
	movb	$1, 1(%rax)
	movq	%rsi, (%rdx)
	movl	%r8d, (%rcx)
	xorl	%eax, %eax
	retq
.LBB77_5:
	movb	$1, 1(%rax)
	movl	$4, %eax
	retq
.LBB77_7:
	xorl	%edi, %edi
	jmp	"tlsf_c::call_fault::CallFault::refusal"
.LBB77_8:
	movl	$2, %edi
	jmp	"tlsf_c::call_fault::CallFault::refusal"
.Lfunc_end77:
	.size	tlsf_pools_part, .Lfunc_end77-tlsf_pools_part
	.cfi_endproc
	.section	.text.tlsf_pools_place,"ax",@progbits
	.globl	tlsf_pools_place
	.p2align	4
	.type	tlsf_pools_place,@function
tlsf_pools_place:
	.cfi_startproc
	cmpb	$0, 8(%rdi)
	je	.LBB78_10
	movq	(%rdi), %rax
	cmpb	$0, 1(%rax)
	je	.LBB78_10
	cmpb	$1, (%rax)
	jne	.LBB78_11
	movb	$0, 1(%rax)
	movl	%esi, %edi
	cmpb	$0, 8(%rax)
	movq	32(%rax), %rsi
	cmpq	%rdi, %rsi
	jbe	.LBB78_8
	movq	24(%rax), %rsi
	imulq	$2792, %rdi, %rdi
	cmpl	32(%rsi,%rdi), %edx
	jae	.LBB78_8
	movq	48(%rsi,%rdi), %r9
	movl	%edx, %r10d
	shrl	$6, %r10d
	movq	(%r9,%r10,8), %r9
	btq	%rdx, %r9
	jae	.LBB78_8
	movq	24(%rsi,%rdi), %r9
	movl	%edx, %r10d
	testb	$1, (%r9,%r10,8)
	jne	.LBB78_8
	movl	(%rsi,%rdi), %esi
	leaq	(%r9,%r10,8), %rdi
	movl	16(%rdi), %r9d
	movq	8(%rdi), %rdi
	movb	$1, 1(%rax)
	movl	%esi, (%rcx)
	movl	%edx, 4(%rcx)
	movq	%rdi, 8(%rcx)
	movl	%r9d, (%r8)
	xorl	%eax, %eax
	retq
.LBB78_8:
	movb	$1, 1(%rax)
	movl	$4, %eax
	retq
.LBB78_10:
	xorl	%edi, %edi
	jmp	"tlsf_c::call_fault::CallFault::refusal"
.LBB78_11:
	movl	$2, %edi
	jmp	"tlsf_c::call_fault::CallFault::refusal"
.Lfunc_end78:
	.size	tlsf_pools_place, .Lfunc_end78-tlsf_pools_place
	.cfi_endproc
	.section	.text.tlsf_pools_read,"ax",@progbits
	.globl	tlsf_pools_read
	.p2align	4
	.type	tlsf_pools_read,@function
tlsf_pools_read:
	.cfi_startproc
	pushq	%rbp
	.cfi_def_cfa_offset 16
	pushq	%rbx
	.cfi_def_cfa_offset 24
	pushq	%rax
	.cfi_def_cfa_offset 32
	.cfi_offset %rbx, -24
	.cfi_offset %rbp, -16
	xorl	%r10d, %r10d
	testq	%r8, %r8
	sete	%r11b
	cmpb	$0, 8(%rdi)
	je	.LBB79_2
	movq	(%rdi), %rbx
	cmpb	$0, 1(%rbx)
	je	.LBB79_2
	cmpb	$1, (%rbx)
	jne	.LBB79_27
	movq	%rsi, %rax
	shrq	$32, %rax
	movb	%r11b, %r10b
	shll	$12, %r10d
	addq	%r10, %r8
	movb	$0, 1(%rbx)
	movl	16(%rbx), %edi
	xorl	%r11d, %r11d
	movl	%esi, %r10d
	subl	%edi, %r10d
	cmovbl	%r11d, %r10d
	setae	%bpl
	cmovbl	%r11d, %r10d
	cmpq	%r10, 32(%rbx)
	seta	%dil
	andb	%bpl, %dil
	cmpb	$0, 8(%rbx)
	je	.LBB79_6
	testb	%dil, %dil
	je	.LBB79_28
	movq	24(%rbx), %rdi
	imulq	$2792, %r10, %r11
	movl	(%rdi,%r11), %r10d
	cmpl	%esi, %r10d
	jne	.LBB79_8
	addq	%r11, %rdi
	cmpl	32(%rdi), %eax
	jae	.LBB79_14
	movq	48(%rdi), %r10
	movq	%rsi, %r11
	shrq	$38, %r11
	movq	(%r10,%r11,8), %r10
	btq	%rax, %r10
	jae	.LBB79_14
	addq	$24, %rdi
	movq	(%rdi), %r10
	testb	$1, (%r10,%rax,8)
	jne	.LBB79_14
	cmpq	%rdx, 8(%r10,%rax,8)
	jne	.LBB79_14
	movl	16(%r10,%rax,8), %edx
	movl	%ecx, %esi
	addq	%r9, %rsi
	cmpq	%rdx, %rsi
	ja	.LBB79_26
	movl	%eax, %esi
	movl	%ecx, %edx
	movq	%r8, %rcx
	movq	%r9, %r8
	callq	"tlsf_heap::region::Region::read::<=5>"
	jmp	.LBB79_25
.LBB79_6:
	testb	%dil, %dil
	je	.LBB79_28
	movq	24(%rbx), %rdi
	imulq	$2792, %r10, %r11
	movl	(%rdi,%r11), %r10d
	cmpl	%esi, %r10d
	jne	.LBB79_8
	addq	%r11, %rdi
	cmpl	32(%rdi), %eax
	jae	.LBB79_14
	movq	48(%rdi), %r10
	movq	%rsi, %r11
	shrq	$38, %r11
	movq	(%r10,%r11,8), %r10
	btq	%rax, %r10
	jae	.LBB79_14
	addq	$24, %rdi
	movq	(%rdi), %r10
	testb	$1, (%r10,%rax,8)
	jne	.LBB79_14
	cmpq	%rdx, 8(%r10,%rax,8)
	jne	.LBB79_14
	movl	16(%r10,%rax,8), %edx
	movl	%ecx, %esi
	addq	%r9, %rsi
	cmpq	%rdx, %rsi
	jbe	.LBB79_16
.LBB79_26:
	movb	$1, 1(%rbx)
	movl	$7, %eax
	addq	$8, %rsp
	.cfi_def_cfa_offset 24
	popq	%rbx
	.cfi_def_cfa_offset 16
	popq	%rbp
	.cfi_def_cfa_offset 8
	retq
.LBB79_28:
	.cfi_def_cfa_offset 32
	movb	$1, 1(%rbx)
	movl	$3, %eax
	addq	$8, %rsp
	.cfi_def_cfa_offset 24
	popq	%rbx
	.cfi_def_cfa_offset 16
	popq	%rbp
	.cfi_def_cfa_offset 8
	retq
.LBB79_2:
	.cfi_def_cfa_offset 32
	xorl	%edi, %edi
	addq	$8, %rsp
	.cfi_def_cfa_offset 24
	popq	%rbx
	.cfi_def_cfa_offset 16
	popq	%rbp
	.cfi_def_cfa_offset 8
	jmp	"tlsf_c::call_fault::CallFault::refusal"
.LBB79_14:
	.cfi_def_cfa_offset 32
	movl	%esi, %edi
	jmp	.LBB79_9
.LBB79_16:
	movl	%eax, %esi
	movl	%ecx, %edx
	movq	%r8, %rcx
	movq	%r9, %r8
	callq	"tlsf_heap::region::Region::read::<=4>"
.LBB79_25:
	movb	$1, 1(%rbx)
	xorl	%eax, %eax
	addq	$8, %rsp
	.cfi_def_cfa_offset 24
	popq	%rbx
	.cfi_def_cfa_offset 16
	popq	%rbp
	.cfi_def_cfa_offset 8
	retq
.LBB79_27:
	.cfi_def_cfa_offset 32
	movl	$2, %edi
	addq	$8, %rsp
	.cfi_def_cfa_offset 24
	popq	%rbx
	.cfi_def_cfa_offset 16
	popq	%rbp
	.cfi_def_cfa_offset 8
	jmp	"tlsf_c::call_fault::CallFault::refusal"
.LBB79_8:
	.cfi_def_cfa_offset 32
	movl	%esi, %edi
	movl	%r10d, %esi
.LBB79_9:
	callq	"tlsf_heap::refusal::Refusal::of_name"
	movb	$1, 1(%rbx)
	cmpb	$3, %al
	movl	$0, %eax
	sete	%al
	addl	$3, %eax
	addq	$8, %rsp
	.cfi_def_cfa_offset 24
	popq	%rbx
	.cfi_def_cfa_offset 16
	popq	%rbp
	.cfi_def_cfa_offset 8
	retq
.Lfunc_end79:
	.size	tlsf_pools_read, .Lfunc_end79-tlsf_pools_read
	.cfi_endproc
	.section	.text.tlsf_pools_release,"ax",@progbits
	.globl	tlsf_pools_release
	.p2align	4
	.type	tlsf_pools_release,@function
tlsf_pools_release:
	.cfi_startproc
	pushq	%rbp
	.cfi_def_cfa_offset 16
	pushq	%r14
	.cfi_def_cfa_offset 24
	pushq	%rbx
	.cfi_def_cfa_offset 32
	.cfi_offset %rbx, -32
	.cfi_offset %r14, -24
	.cfi_offset %rbp, -16
	cmpb	$0, 8(%rdi)
	je	.LBB80_2
	movq	(%rdi), %rbx
	cmpb	$0, 1(%rbx)
	je	.LBB80_2
	cmpb	$1, (%rbx)
	jne	.LBB80_56
	movq	%rsi, %r8
	shrq	$32, %r8
	movb	$0, 1(%rbx)
	movl	16(%rbx), %ecx
	xorl	%edi, %edi
	movl	%esi, %eax
	subl	%ecx, %eax
	cmovbl	%edi, %eax
	setae	%r9b
	cmovbl	%edi, %eax
	cmpq	%rax, 32(%rbx)
	seta	%cl
	andb	%r9b, %cl
	cmpb	$0, 8(%rbx)
	je	.LBB80_6
	testb	%cl, %cl
	je	.LBB80_55
	movq	24(%rbx), %r14
	imulq	$2792, %rax, %rcx
	movl	(%r14,%rcx), %eax
	cmpl	%esi, %eax
	jne	.LBB80_8
	addq	%rcx, %r14
	cmpl	32(%r14), %r8d
	jae	.LBB80_14
	movq	48(%r14), %rax
	movq	%rsi, %rcx
	shrq	$38, %rcx
	movq	(%rax,%rcx,8), %rax
	btq	%r8, %rax
	jae	.LBB80_14
	leaq	24(%r14), %rdi
	movq	(%rdi), %r10
	movq	(%r10,%r8,8), %r9
	testb	$1, %r9b
	jne	.LBB80_14
	cmpq	%rdx, 8(%r10,%r8,8)
	jne	.LBB80_14
	movq	8(%r14), %rcx
	cmpq	$-1, %rcx
	je	.LBB80_57
	movl	16(%r10,%r8,8), %ebp
	movl	%r9d, %eax
	shrl	$2, %eax
	subl	%eax, 16(%r14)
	testb	$2, %r9b
	jne	.LBB80_39
	leal	(%rax,%r8), %edx
	movq	(%r10,%rdx,8), %rsi
	testq	%r8, %r8
	jne	.LBB80_42
	jmp	.LBB80_44
.LBB80_6:
	testb	%cl, %cl
	je	.LBB80_55
	movq	24(%rbx), %r14
	imulq	$2792, %rax, %rcx
	movl	(%r14,%rcx), %eax
	cmpl	%esi, %eax
	jne	.LBB80_8
	addq	%rcx, %r14
	cmpl	32(%r14), %r8d
	jae	.LBB80_14
	movq	48(%r14), %rax
	movq	%rsi, %rcx
	shrq	$38, %rcx
	movq	(%rax,%rcx,8), %rax
	btq	%r8, %rax
	jae	.LBB80_14
	leaq	24(%r14), %rdi
	movq	(%rdi), %r10
	movq	(%r10,%r8,8), %r9
	testb	$1, %r9b
	jne	.LBB80_14
	cmpq	%rdx, 8(%r10,%r8,8)
	jne	.LBB80_14
	movq	8(%r14), %rcx
	cmpq	$-1, %rcx
	je	.LBB80_57
	movl	16(%r10,%r8,8), %ebp
	movl	%r9d, %eax
	shrl	$2, %eax
	subl	%eax, 16(%r14)
	testb	$2, %r9b
	jne	.LBB80_17
	leal	(%rax,%r8), %edx
	movq	(%r10,%rdx,8), %rsi
	testq	%r8, %r8
	jne	.LBB80_20
	jmp	.LBB80_22
.LBB80_55:
	movb	$1, 1(%rbx)
	movl	$3, %eax
	popq	%rbx
	.cfi_def_cfa_offset 24
	popq	%r14
	.cfi_def_cfa_offset 16
	popq	%rbp
	.cfi_def_cfa_offset 8
	retq
.LBB80_57:
	.cfi_def_cfa_offset 32
	movb	$1, 1(%rbx)
	movl	$2, %eax
	popq	%rbx
	.cfi_def_cfa_offset 24
	popq	%r14
	.cfi_def_cfa_offset 16
	popq	%rbp
	.cfi_def_cfa_offset 8
	retq
.LBB80_2:
	.cfi_def_cfa_offset 32
	xorl	%edi, %edi
	popq	%rbx
	.cfi_def_cfa_offset 24
	popq	%r14
	.cfi_def_cfa_offset 16
	popq	%rbp
	.cfi_def_cfa_offset 8
	jmp	"tlsf_c::call_fault::CallFault::refusal"
.LBB80_14:
	.cfi_def_cfa_offset 32
	movl	%esi, %edi
	jmp	.LBB80_9
.LBB80_39:
	xorl	%esi, %esi
	testq	%r8, %r8
	je	.LBB80_44
.LBB80_42:
	movq	%r9, %rdx
	shrq	$32, %rdx
	movq	(%r10,%rdx,8), %rdx
	testb	$1, %dl
	jne	.LBB80_43
.LBB80_44:
	testb	$1, %sil
	jne	.LBB80_45
	orq	$1, %r9
	movq	%r9, (%r10,%r8,8)
	movq	%rcx, 8(%r10,%r8,8)
	incq	8(%r14)
	movl	%eax, %ecx
	orl	$32, %ecx
	bsrl	%ecx, %ecx
	addl	$-5, %ecx
	shrl	%cl, %eax
	shll	$5, %ecx
	addl	%eax, %ecx
	movslq	168(%r14,%rcx,4), %rdx
	movl	%r8d, 168(%r14,%rcx,4)
	movq	24(%r14), %rsi
	testq	%rdx, %rdx
	js	.LBB80_47
	movabsq	$-4294967296, %rax
	orq	%rdx, %rax
	movq	%rax, 16(%rsi,%r8,8)
	movl	%r8d, 20(%rsi,%rdx,8)
	movq	2744(%r14), %rax
	testq	%rax, %rax
	jne	.LBB80_50
	jmp	.LBB80_54
.LBB80_56:
	movl	$2, %edi
	popq	%rbx
	.cfi_def_cfa_offset 24
	popq	%r14
	.cfi_def_cfa_offset 16
	popq	%rbp
	.cfi_def_cfa_offset 8
	jmp	"tlsf_c::call_fault::CallFault::refusal"
.LBB80_45:
	.cfi_def_cfa_offset 32
	leaq	1(%rcx), %rax
	movq	%rax, 8(%r14)
	movq	%r9, %rdx
	callq	"tlsf_heap::fitting::merge_next::<=5>"
	movq	2744(%r14), %rax
	testq	%rax, %rax
	jne	.LBB80_50
	jmp	.LBB80_54
.LBB80_43:
	leaq	1(%rcx), %rax
	movq	%rax, 8(%r14)
	callq	"tlsf_heap::fitting::merge_before::<=5>"
	movq	2744(%r14), %rax
	testq	%rax, %rax
	jne	.LBB80_50
	jmp	.LBB80_54
.LBB80_17:
	xorl	%esi, %esi
	testq	%r8, %r8
	je	.LBB80_22
.LBB80_20:
	movq	%r9, %rdx
	shrq	$32, %rdx
	movq	(%r10,%rdx,8), %rdx
	testb	$1, %dl
	jne	.LBB80_21
.LBB80_22:
	testb	$1, %sil
	jne	.LBB80_23
	orq	$1, %r9
	movq	%r9, (%r10,%r8,8)
	movq	%rcx, 8(%r10,%r8,8)
	incq	8(%r14)
	movl	%eax, %ecx
	orl	$16, %ecx
	bsrl	%ecx, %ecx
	addl	$-4, %ecx
	shrl	%cl, %eax
	shll	$4, %ecx
	addl	%eax, %ecx
	movslq	168(%r14,%rcx,4), %rdx
	movl	%r8d, 168(%r14,%rcx,4)
	movq	24(%r14), %rsi
	testq	%rdx, %rdx
	js	.LBB80_25
	movabsq	$-4294967296, %rax
	orq	%rdx, %rax
	movq	%rax, 16(%rsi,%r8,8)
	movl	%r8d, 20(%rsi,%rdx,8)
	jmp	.LBB80_27
.LBB80_23:
	leaq	1(%rcx), %rax
	movq	%rax, 8(%r14)
	movq	%r9, %rdx
	callq	"tlsf_heap::fitting::merge_next::<=4>"
	jmp	.LBB80_27
.LBB80_8:
	movl	%esi, %edi
	movl	%eax, %esi
.LBB80_9:
	callq	"tlsf_heap::refusal::Refusal::of_name"
	movb	$1, 1(%rbx)
	cmpb	$3, %al
	movl	$0, %eax
	sete	%al
	addl	$3, %eax
	popq	%rbx
	.cfi_def_cfa_offset 24
	popq	%r14
	.cfi_def_cfa_offset 16
	popq	%rbp
	.cfi_def_cfa_offset 8
	retq
.LBB80_21:
	.cfi_def_cfa_offset 32
	leaq	1(%rcx), %rax
	movq	%rax, 8(%r14)
	callq	"tlsf_heap::fitting::merge_before::<=4>"
	jmp	.LBB80_27
.LBB80_47:
	movq	$-1, 16(%rsi,%r8,8)
	shrl	$5, %ecx
	movl	$1, %edx
	shll	%cl, %edx
	movl	84(%r14,%rcx,4), %esi
	orl	%edx, 80(%r14)
	btsl	%eax, %esi
	movl	%esi, 84(%r14,%rcx,4)
	movq	2744(%r14), %rax
	testq	%rax, %rax
	je	.LBB80_54
.LBB80_50:
	movq	2768(%r14), %rcx
	movq	2736(%r14), %rsi
	xorl	%edx, %edx
	.p2align	4
.LBB80_51:
	cmpl	%ebp, 4(%rsi,%rdx,8)
	jae	.LBB80_53
	incq	%rdx
	cmpq	%rdx, %rax
	jne	.LBB80_51
	jmp	.LBB80_54
.LBB80_25:
	movq	$-1, 16(%rsi,%r8,8)
	shrl	$4, %ecx
	movl	$1, %edx
	shll	%cl, %edx
	movl	84(%r14,%rcx,4), %esi
	orl	%edx, 80(%r14)
	andb	$15, %al
	btsl	%eax, %esi
	movl	%esi, 84(%r14,%rcx,4)
.LBB80_27:
	movq	2744(%r14), %rax
	testq	%rax, %rax
	je	.LBB80_54
	movq	2768(%r14), %rcx
	movq	2736(%r14), %rsi
	xorl	%edx, %edx
	.p2align	4
.LBB80_29:
	cmpl	%ebp, 4(%rsi,%rdx,8)
	jae	.LBB80_53
	incq	%rdx
	cmpq	%rdx, %rax
	jne	.LBB80_29
	jmp	.LBB80_54
.LBB80_53:
	decl	(%rcx,%rdx,4)
.LBB80_54:
	movb	$1, 1(%rbx)
	xorl	%eax, %eax
	popq	%rbx
	.cfi_def_cfa_offset 24
	popq	%r14
	.cfi_def_cfa_offset 16
	popq	%rbp
	.cfi_def_cfa_offset 8
	retq
.Lfunc_end80:
	.size	tlsf_pools_release, .Lfunc_end80-tlsf_pools_release
	.cfi_endproc
	.section	.text.tlsf_pools_report,"ax",@progbits
	.globl	tlsf_pools_report
	.p2align	4
	.type	tlsf_pools_report,@function
tlsf_pools_report:
	.cfi_startproc
	cmpb	$0, 8(%rdi)
	je	.LBB81_31
	movq	(%rdi), %rdi
	cmpb	$0, 1(%rdi)
	je	.LBB81_31
	cmpb	$1, (%rdi)
	jne	.LBB81_36
	pushq	%rbp
	.cfi_def_cfa_offset 16
	pushq	%r15
	.cfi_def_cfa_offset 24
	pushq	%r14
	.cfi_def_cfa_offset 32
	pushq	%r13
	.cfi_def_cfa_offset 40
	pushq	%r12
	.cfi_def_cfa_offset 48
	pushq	%rbx
	.cfi_def_cfa_offset 56
	.cfi_offset %rbx, -56
	.cfi_offset %r12, -48
	.cfi_offset %r13, -40
	.cfi_offset %r14, -32
	.cfi_offset %r15, -24
	.cfi_offset %rbp, -16
	movb	$0, 1(%rdi)
	movl	%esi, %eax
	cmpb	$0, 8(%rdi)
	movq	32(%rdi), %rcx
	je	.LBB81_16
	cmpq	%rax, %rcx
	jbe	.LBB81_29
	movq	24(%rdi), %rcx
	imulq	$2792, %rax, %r8
	movq	8(%rcx,%r8), %rsi
	movl	32(%rcx,%r8), %eax
	testl	%eax, %eax
	je	.LBB81_30
	movq	24(%rcx,%r8), %rcx
	xorl	%r14d, %r14d
	movq	%rsi, %r15
	xorl	%r8d, %r8d
	xorl	%ebp, %ebp
	xorl	%r9d, %r9d
	xorl	%r10d, %r10d
	xorl	%r11d, %r11d
	xorl	%ebx, %ebx
	jmp	.LBB81_8
	.p2align	4
.LBB81_7:
	incl	%ebx
	addl	%r14d, %r11d
	addl	16(%rcx,%r12,8), %r10d
	addl	%r12d, %r14d
	cmpl	%eax, %r14d
	jae	.LBB81_10
.LBB81_8:
	movl	%r14d, %r12d
	movq	(%rcx,%r12,8), %r13
	movl	%r13d, %r14d
	shrl	$2, %r14d
	testb	$1, %r13b
	je	.LBB81_7
	incl	%r9d
	addl	%r14d, %ebp
	cmpl	%r8d, %r14d
	cmoval	%r14d, %r8d
	movq	8(%rcx,%r12,8), %r13
	cmpq	%r15, %r13
	cmovbq	%r13, %r15
	addl	%r12d, %r14d
	cmpl	%eax, %r14d
	jb	.LBB81_8
.LBB81_10:
	xorl	%r14d, %r14d
	movl	$0, %ecx
	testl	%r8d, %r8d
	je	.LBB81_14
	movl	%r8d, %eax
	orl	$32, %eax
	bsrl	%eax, %ecx
	addl	$-5, %ecx
	movl	%r8d, %r12d
	shrl	%cl, %r12d
	shll	$5, %ecx
	addl	%r12d, %ecx
	movl	%ecx, %eax
	shrl	$5, %eax
	je	.LBB81_13
	movl	$16, %r13d
	movl	%eax, %ecx
	shll	%cl, %r13d
	andl	$31, %r12d
	decb	%al
	movl	%eax, %ecx
	shll	%cl, %r12d
	addl	%r13d, %r12d
	movl	%r12d, %ecx
.LBB81_13:
	leal	-24(,%rcx,8), %ecx
.LBB81_14:
	testl	%ebp, %ebp
	je	.LBB81_37
.LBB81_27:
	movq	%rdx, %r12
	movl	%r8d, %eax
	movl	%ebp, %r14d
	imulq	$1000, %rax, %rax
	movabsq	$4393751543808, %rdx
	testq	%rdx, %rax
	je	.LBB81_32
	xorl	%edx, %edx
	divq	%r14
	jmp	.LBB81_33
.LBB81_16:
	cmpq	%rax, %rcx
	jbe	.LBB81_29
	movq	24(%rdi), %rcx
	imulq	$2792, %rax, %r8
	movq	8(%rcx,%r8), %rsi
	movl	32(%rcx,%r8), %eax
	testl	%eax, %eax
	je	.LBB81_30
	movq	24(%rcx,%r8), %rcx
	xorl	%r14d, %r14d
	movq	%rsi, %r15
	xorl	%r8d, %r8d
	xorl	%ebp, %ebp
	xorl	%r9d, %r9d
	xorl	%r10d, %r10d
	xorl	%r11d, %r11d
	xorl	%ebx, %ebx
	jmp	.LBB81_20
	.p2align	4
.LBB81_19:
	incl	%ebx
	addl	%r14d, %r11d
	addl	16(%rcx,%r12,8), %r10d
	addl	%r12d, %r14d
	cmpl	%eax, %r14d
	jae	.LBB81_22
.LBB81_20:
	movl	%r14d, %r12d
	movq	(%rcx,%r12,8), %r13
	movl	%r13d, %r14d
	shrl	$2, %r14d
	testb	$1, %r13b
	je	.LBB81_19
	incl	%r9d
	addl	%r14d, %ebp
	cmpl	%r8d, %r14d
	cmoval	%r14d, %r8d
	movq	8(%rcx,%r12,8), %r13
	cmpq	%r15, %r13
	cmovbq	%r13, %r15
	addl	%r12d, %r14d
	cmpl	%eax, %r14d
	jb	.LBB81_20
.LBB81_22:
	xorl	%r14d, %r14d
	movl	$0, %ecx
	testl	%r8d, %r8d
	je	.LBB81_26
	movl	%r8d, %eax
	orl	$16, %eax
	bsrl	%eax, %ecx
	addl	$-4, %ecx
	movl	%r8d, %r12d
	shrl	%cl, %r12d
	shll	$4, %ecx
	addl	%r12d, %ecx
	movl	%ecx, %eax
	shrl	$4, %eax
	je	.LBB81_25
	movl	$8, %r13d
	movl	%eax, %ecx
	shll	%cl, %r13d
	andl	$15, %r12d
	decb	%al
	movl	%eax, %ecx
	shll	%cl, %r12d
	addl	%r13d, %r12d
	movl	%r12d, %ecx
.LBB81_25:
	leal	-24(,%rcx,8), %ecx
.LBB81_26:
	testl	%ebp, %ebp
	jne	.LBB81_27
.LBB81_37:
	xorl	%ebp, %ebp
	jmp	.LBB81_34
.LBB81_29:
	movb	$1, 1(%rdi)
	movl	$4, %eax
	jmp	.LBB81_35
.LBB81_30:
	xorl	%ecx, %ecx
	xorl	%ebx, %ebx
	xorl	%r11d, %r11d
	xorl	%r10d, %r10d
	xorl	%r9d, %r9d
	xorl	%ebp, %ebp
	xorl	%r8d, %r8d
	movq	%rsi, %r15
	xorl	%r14d, %r14d
	jmp	.LBB81_34
.LBB81_31:
	.cfi_def_cfa_offset 8
	.cfi_restore %rbx
	.cfi_restore %rbp
	.cfi_restore %r12
	.cfi_restore %r13
	.cfi_restore %r14
	.cfi_restore %r15
	xorl	%edi, %edi
	jmp	"tlsf_c::call_fault::CallFault::refusal"
.LBB81_32:
	.cfi_def_cfa_offset 56
	.cfi_offset %rbx, -56
	.cfi_offset %rbp, -16
	.cfi_offset %r12, -48
	.cfi_offset %r13, -40
	.cfi_offset %r14, -32
	.cfi_offset %r15, -24
	xorl	%edx, %edx
	divl	%r14d
.LBB81_33:
	movl	$1000, %r14d
	subl	%eax, %r14d
	movq	%r12, %rdx
.LBB81_34:
	leal	(,%r11,8), %eax
	subl	%r10d, %eax
	subq	%r15, %rsi
	movb	$1, 1(%rdi)
	movl	%ebx, (%rdx)
	movl	%r11d, 4(%rdx)
	movl	%r10d, 8(%rdx)
	movl	%r9d, 12(%rdx)
	movl	%ebp, 16(%rdx)
	movl	%r8d, 20(%rdx)
	movl	%ecx, 24(%rdx)
	movl	%r14d, 28(%rdx)
	movl	%eax, 32(%rdx)
	movl	$0, 36(%rdx)
	movq	%rsi, 40(%rdx)
	xorl	%eax, %eax
.LBB81_35:
	popq	%rbx
	.cfi_def_cfa_offset 48
	popq	%r12
	.cfi_def_cfa_offset 40
	popq	%r13
	.cfi_def_cfa_offset 32
	popq	%r14
	.cfi_def_cfa_offset 24
	popq	%r15
	.cfi_def_cfa_offset 16
	popq	%rbp
	.cfi_def_cfa_offset 8
	retq
.LBB81_36:
	.cfi_restore %rbx
	.cfi_restore %rbp
	.cfi_restore %r12
	.cfi_restore %r13
	.cfi_restore %r14
	.cfi_restore %r15
	movl	$2, %edi
	jmp	"tlsf_c::call_fault::CallFault::refusal"
.Lfunc_end81:
	.size	tlsf_pools_report, .Lfunc_end81-tlsf_pools_report
	.cfi_endproc
	.section	.text.tlsf_pools_row,"ax",@progbits
	.globl	tlsf_pools_row
	.p2align	4
	.type	tlsf_pools_row,@function
tlsf_pools_row:
	.cfi_startproc
	cmpb	$0, 8(%rdi)
	je	.LBB82_26
	movq	(%rdi), %rax
	cmpb	$0, 1(%rax)
	je	.LBB82_26
	cmpb	$1, (%rax)
	jne	.LBB82_23
	movb	$0, 1(%rax)
	movl	$4294967295, %ecx
	cmpq	%rcx, %rsi
	cmovbq	%rsi, %rcx
	cmpb	$0, 8(%rax)
	movq	24(%rax), %rsi
	movq	32(%rax), %rdi
	je	.LBB82_4
	testq	%rdi, %rdi
	je	.LBB82_22
	xorl	%r10d, %r10d
	jmp	.LBB82_15
	.p2align	4
.LBB82_19:
	incq	%r10
	cmpq	%rdi, %r10
	je	.LBB82_22
.LBB82_15:
	imulq	$2792, %r10, %r8
	movq	2744(%rsi,%r8), %r9
	testq	%r9, %r9
	je	.LBB82_19
	movq	2736(%rsi,%r8), %r8
	xorl	%r11d, %r11d
	.p2align	4
.LBB82_17:
	cmpl	%ecx, 4(%r8,%r11,8)
	jae	.LBB82_20
	incq	%r11
	cmpq	%r11, %r9
	jne	.LBB82_17
	jmp	.LBB82_19
	.p2align	4
.LBB82_21:
	addq	$8, %r8
	decq	%r9
	je	.LBB82_22
.LBB82_20:
	cmpl	%ecx, 4(%r8)
	jb	.LBB82_21
	jmp	.LBB82_24
.LBB82_4:
	testq	%rdi, %rdi
	je	.LBB82_22
	xorl	%r10d, %r10d
	jmp	.LBB82_6
	.p2align	4
.LBB82_10:
	incq	%r10
	cmpq	%rdi, %r10
	je	.LBB82_22
.LBB82_6:
	imulq	$2792, %r10, %r8
	movq	2744(%rsi,%r8), %r9
	testq	%r9, %r9
	je	.LBB82_10
	movq	2736(%rsi,%r8), %r8
	xorl	%r11d, %r11d
	.p2align	4
.LBB82_8:
	cmpl	%ecx, 4(%r8,%r11,8)
	jae	.LBB82_11
	incq	%r11
	cmpq	%r11, %r9
	jne	.LBB82_8
	jmp	.LBB82_10
	.p2align	4
.LBB82_12:
	addq	$8, %r8
	decq	%r9
	je	.LBB82_22
.LBB82_11:
	cmpl	%ecx, 4(%r8)
	jb	.LBB82_12
.LBB82_24:
	movl	4(%r8), %ecx
	movb	$1, 1(%rax)
	movl	%ecx, (%rdx)
	xorl	%eax, %eax
	retq
.LBB82_22:
	movb	$1, 1(%rax)
	movl	$5, %eax
	retq
.LBB82_26:
	xorl	%edi, %edi
	jmp	"tlsf_c::call_fault::CallFault::refusal"
.LBB82_23:
	movl	$2, %edi
	jmp	"tlsf_c::call_fault::CallFault::refusal"
.Lfunc_end82:
	.size	tlsf_pools_row, .Lfunc_end82-tlsf_pools_row
	.cfi_endproc
	.section	.text.tlsf_pools_words,"ax",@progbits
	.globl	tlsf_pools_words
	.p2align	4
	.type	tlsf_pools_words,@function
tlsf_pools_words:
	.cfi_startproc
	pushq	%rbp
	.cfi_def_cfa_offset 16
	pushq	%r15
	.cfi_def_cfa_offset 24
	pushq	%r14
	.cfi_def_cfa_offset 32
	pushq	%r13
	.cfi_def_cfa_offset 40
	pushq	%r12
	.cfi_def_cfa_offset 48
	pushq	%rbx
	.cfi_def_cfa_offset 56
	subq	$616, %rsp
	.cfi_def_cfa_offset 672
	.cfi_offset %rbx, -56
	.cfi_offset %r12, -48
	.cfi_offset %r13, -40
	.cfi_offset %r14, -32
	.cfi_offset %r15, -24
	.cfi_offset %rbp, -16
	xorl	%r15d, %r15d
	testq	%rsi, %rsi
	sete	%bpl
	leal	-6(%rdi), %r9d
	movl	$34, %eax
	cmpl	$-2, %r9d
	jb	.LBB83_14
	movl	$5, %eax
	cmpq	$64, %rdx
	ja	.LBB83_14
	movq	%rcx, 8(%rsp)
	movq	%r8, %r14
	xorps	%xmm0, %xmm0
	movaps	%xmm0, 80(%rsp)
	movaps	%xmm0, 64(%rsp)
	movaps	%xmm0, 48(%rsp)
	movaps	%xmm0, 32(%rsp)
	movaps	%xmm0, 16(%rsp)
	movq	$0, 96(%rsp)
	leaq	104(%rsp), %rax
	movq	%rdx, %r12
	movl	$512, %edx
	movq	%rdi, %r13
	movq	%rax, %rdi
	movq	%rsi, %rbx
	xorl	%esi, %esi
	callq	tlsf_memory_set@PLT
	movq	%r13, %rax
	movq	%r12, %rdx
	testq	%r12, %r12
	je	.LBB83_9
	movb	%bpl, %r15b
	shll	$12, %r15d
	cmpq	$1, %rdx
	jne	.LBB83_5
	xorl	%esi, %esi
	jmp	.LBB83_8
.LBB83_5:
	movl	%edx, %edi
	andl	$126, %edi
	leaq	(%r15,%rbx), %r8
	addq	$24, %r8
	xorl	%esi, %esi
	.p2align	4
.LBB83_6:
	movl	-24(%r8), %r9d
	movq	-16(%r8), %r10
	movl	$4294967295, %r11d
	cmpq	%r11, %r10
	cmovaeq	%r11, %r10
	movl	%r9d, 104(%rsp,%rsi,8)
	movl	%r10d, 108(%rsp,%rsi,8)
	movl	-8(%r8), %r9d
	movq	(%r8), %r10
	cmpq	%r11, %r10
	cmovbq	%r10, %r11
	movl	%r9d, 112(%rsp,%rsi,8)
	movl	%r11d, 116(%rsp,%rsi,8)
	addq	$2, %rsi
	addq	$32, %r8
	cmpq	%rsi, %rdi
	jne	.LBB83_6
	testb	$1, %dl
	je	.LBB83_9
.LBB83_8:
	addq	%r15, %rbx
	movq	%rsi, %rdi
	shlq	$4, %rdi
	movl	(%rbx,%rdi), %r8d
	movq	8(%rbx,%rdi), %rcx
	movl	$4294967295, %edi
	cmpq	%rdi, %rcx
	cmovbq	%rcx, %rdi
	movl	%r8d, 104(%rsp,%rsi,8)
	movl	%edi, 108(%rsp,%rsi,8)
.LBB83_9:
	leaq	16(%rsp), %rdi
	leaq	104(%rsp), %rsi
	cmpl	$4, %eax
	jne	.LBB83_11
	callq	"tlsf_pool::sizes::split::rising_split::<=4>"
	cmpb	$0, 16(%rsp)
	movq	8(%rsp), %rbx
	movl	$5, %eax
	jne	.LBB83_13
	jmp	.LBB83_14
.LBB83_11:
	callq	"tlsf_pool::sizes::split::rising_split::<=5>"
	cmpb	$0, 16(%rsp)
	movq	8(%rsp), %rbx
	movl	$5, %eax
	je	.LBB83_14
.LBB83_13:
	movq	24(%rsp), %rax
	movq	96(%rsp), %rcx
	movq	%rcx, (%rbx)
	movl	%eax, (%r14)
	xorl	%eax, %eax
.LBB83_14:
	addq	$616, %rsp
	.cfi_def_cfa_offset 56
	popq	%rbx
	.cfi_def_cfa_offset 48
	popq	%r12
	.cfi_def_cfa_offset 40
	popq	%r13
	.cfi_def_cfa_offset 32
	popq	%r14
	.cfi_def_cfa_offset 24
	popq	%r15
	.cfi_def_cfa_offset 16
	popq	%rbp
	.cfi_def_cfa_offset 8
	retq
.Lfunc_end83:
	.size	tlsf_pools_words, .Lfunc_end83-tlsf_pools_words
	.cfi_endproc
	.section	.text.tlsf_post_close,"ax",@progbits
	.globl	tlsf_post_close
	.p2align	4
	.type	tlsf_post_close,@function
tlsf_post_close:
	.cfi_startproc
	movl	$32, %eax
	cmpb	$0, 8(%rdi)
	je	.LBB84_4
	movq	(%rdi), %rcx
	cmpb	$1, 1(%rcx)
	jne	.LBB84_4
	movl	$40, %eax
	cmpb	$0, (%rcx)
	je	.LBB84_3
.LBB84_4:
	retq
.LBB84_3:
	pushq	%rbx
	.cfi_def_cfa_offset 16
	subq	$96, %rsp
	.cfi_def_cfa_offset 112
	.cfi_offset %rbx, -16
	movb	$0, 1(%rcx)
	movq	(%rdi), %rax
	xorps	%xmm0, %xmm0
	movups	%xmm0, (%rdi)
	movzwl	(%rax), %ebx
	movups	8(%rax), %xmm0
	movups	%xmm0, 8(%rsp)
	movups	24(%rax), %xmm0
	movups	%xmm0, 24(%rsp)
	movq	40(%rax), %rcx
	movq	%rcx, 40(%rsp)
	movq	%rax, %rdi
	callq	tlsf_memory_dealloc@PLT
	movq	$0, 48(%rsp)
	movw	%bx, 48(%rsp)
	movups	8(%rsp), %xmm0
	movups	24(%rsp), %xmm1
	movups	%xmm0, 56(%rsp)
	movups	%xmm1, 72(%rsp)
	movq	40(%rsp), %rax
	movq	%rax, 88(%rsp)
	leaq	48(%rsp), %rdi
	callq	"tlsf_c::tlsf_c++any_end++AnyEnd+Destruct::drop"
	xorl	%eax, %eax
	addq	$96, %rsp
	.cfi_def_cfa_offset 16
	popq	%rbx
	.cfi_def_cfa_offset 8
	.cfi_restore %rbx
	retq
.Lfunc_end84:
	.size	tlsf_post_close, .Lfunc_end84-tlsf_post_close
	.cfi_endproc
	.section	.text.tlsf_poster_close,"ax",@progbits
	.globl	tlsf_poster_close
	.p2align	4
	.type	tlsf_poster_close,@function
tlsf_poster_close:
	.cfi_startproc
	movl	$32, %eax
	cmpb	$0, 8(%rdi)
	je	.LBB85_4
	movq	(%rdi), %rcx
	cmpb	$1, 1(%rcx)
	jne	.LBB85_4
	movl	$40, %eax
	cmpb	$3, (%rcx)
	jne	.LBB85_4
	pushq	%rbx
	.cfi_def_cfa_offset 16
	subq	$96, %rsp
	.cfi_def_cfa_offset 112
	.cfi_offset %rbx, -16
	movb	$0, 1(%rcx)
	movq	(%rdi), %rax
	xorps	%xmm0, %xmm0
	movups	%xmm0, (%rdi)
	movzwl	(%rax), %ebx
	movups	8(%rax), %xmm0
	movups	%xmm0, 8(%rsp)
	movups	24(%rax), %xmm0
	movups	%xmm0, 24(%rsp)
	movq	40(%rax), %rcx
	movq	%rcx, 40(%rsp)
	movq	%rax, %rdi
	callq	tlsf_memory_dealloc@PLT
	movq	$0, 48(%rsp)
	movw	%bx, 48(%rsp)
	movups	8(%rsp), %xmm0
	movups	24(%rsp), %xmm1
	movups	%xmm0, 56(%rsp)
	movups	%xmm1, 72(%rsp)
	movq	40(%rsp), %rax
	movq	%rax, 88(%rsp)
	leaq	48(%rsp), %rdi
	callq	"tlsf_c::tlsf_c++any_end++AnyEnd+Destruct::drop"
	xorl	%eax, %eax
	addq	$96, %rsp
	.cfi_def_cfa_offset 16
	popq	%rbx
	.cfi_def_cfa_offset 8
	.cfi_restore %rbx
.LBB85_4:
	retq
.Lfunc_end85:
	.size	tlsf_poster_close, .Lfunc_end85-tlsf_poster_close
	.cfi_endproc
	.section	.text.tlsf_poster_open,"ax",@progbits
	.globl	tlsf_poster_open
	.p2align	4
	.type	tlsf_poster_open,@function
tlsf_poster_open:
	.cfi_startproc
	cmpb	$0, 8(%rdi)
	je	.LBB86_9
	movq	(%rdi), %rax
	cmpb	$0, 1(%rax)
	je	.LBB86_9
	movzbl	(%rax), %ecx
	cmpb	$1, 8(%rsi)
	jne	.LBB86_4
	cmpb	$2, %cl
	movl	$33, %ecx
	movl	$40, %eax
	cmovel	%ecx, %eax
	retq
.LBB86_4:
	cmpb	$2, %cl
	jne	.LBB86_10
	movb	$0, 1(%rax)
	movq	32(%rax), %rcx
	testq	%rcx, %rcx
	je	.LBB86_7
	leaq	-1(%rcx), %rdx
	movq	%rdx, 32(%rax)
	movq	24(%rax), %rdx
	movq	-8(%rdx,%rcx,8), %rcx
	movb	$1, 1(%rax)
	movq	%rcx, (%rsi)
	movb	$1, 8(%rsi)
	movl	$0, 9(%rsi)
	movl	$0, 12(%rsi)
	xorl	%eax, %eax
	retq
.LBB86_7:
	movb	$1, 1(%rax)
	movl	$35, %eax
	retq
.LBB86_9:
	xorl	%edi, %edi
	jmp	"tlsf_c::call_fault::CallFault::refusal"
.LBB86_10:
	movl	$2, %edi
	jmp	"tlsf_c::call_fault::CallFault::refusal"
.Lfunc_end86:
	.size	tlsf_poster_open, .Lfunc_end86-tlsf_poster_open
	.cfi_endproc
	.section	.text.tlsf_put,"ax",@progbits
	.globl	tlsf_put
	.p2align	4
	.type	tlsf_put,@function
tlsf_put:
	.cfi_startproc
	cmpb	$0, 8(%rdi)
	je	.LBB87_9
	movq	(%rdi), %rcx
	cmpb	$0, 1(%rcx)
	je	.LBB87_9
	cmpb	$0, (%rcx)
	jne	.LBB87_6
	movb	$0, 1(%rcx)
	movq	24(%rcx), %rdi
	movq	32(%rcx), %r10
	movq	40(%rcx), %r8
	leaq	(%rdi,%rdi), %r9
	xorl	%eax, %eax
	cmpq	%r8, %r10
	movl	$0, %r11d
	cmovaq	%r9, %r11
	addq	%rdi, %r10
	subq	%r8, %r10
	cmpq	%r11, %r10
	jne	.LBB87_5
	movq	8(%rcx), %rdi
	movq	(%rdi), %r10
	movq	%r10, 32(%rcx)
	movq	24(%rcx), %rdi
	movq	40(%rcx), %r8
	leaq	(%rdi,%rdi), %r9
	xorl	%r11d, %r11d
	cmpq	%r8, %r10
	cmovaq	%r9, %r11
	addq	%rdi, %r10
	subq	%r8, %r10
	cmpq	%r11, %r10
	jne	.LBB87_5
	movb	$1, 1(%rcx)
	movl	$8, %eax
	retq
.LBB87_5:
	decq	%r9
	leaq	1(%r8), %r10
	cmpq	%r9, %r8
	cmovaeq	%rax, %r10
	cmpq	%rdi, %r8
	cmovbq	%rax, %rdi
	subq	%rdi, %r8
	movq	16(%rcx), %rdi
	leaq	(%r8,%r8,2), %r8
	movq	$0, (%rdi,%r8,8)
	movq	%rsi, 8(%rdi,%r8,8)
	movq	%rdx, 16(%rdi,%r8,8)
	movq	8(%rcx), %rdx
	movq	%r10, %rsi
	xchgq	%rsi, 128(%rdx)
	movq	%r10, 40(%rcx)
	movb	$1, 1(%rcx)
	retq
.LBB87_9:
	xorl	%edi, %edi
	jmp	"tlsf_c::call_fault::CallFault::refusal"
.LBB87_6:
	movl	$2, %edi
	jmp	"tlsf_c::call_fault::CallFault::refusal"
.Lfunc_end87:
	.size	tlsf_put, .Lfunc_end87-tlsf_put
	.cfi_endproc
	.section	.text.tlsf_put_all,"ax",@progbits
	.globl	tlsf_put_all
	.p2align	4
	.type	tlsf_put_all,@function
tlsf_put_all:
	.cfi_startproc
	pushq	%rbp
	.cfi_def_cfa_offset 16
	pushq	%r15
	.cfi_def_cfa_offset 24
	pushq	%r14
	.cfi_def_cfa_offset 32
	pushq	%r13
	.cfi_def_cfa_offset 40
	pushq	%r12
	.cfi_def_cfa_offset 48
	pushq	%rbx
	.cfi_def_cfa_offset 56
	subq	$840, %rsp
	.cfi_def_cfa_offset 896
	.cfi_offset %rbx, -56
	.cfi_offset %r12, -48
	.cfi_offset %r13, -40
	.cfi_offset %r14, -32
	.cfi_offset %r15, -24
	.cfi_offset %rbp, -16
	movq	%rdx, %rbp
	xorl	%eax, %eax
	testq	%rsi, %rsi
	sete	%dl
	cmpb	$0, 8(%rdi)
	je	.LBB88_2
	movq	(%rdi), %r12
	cmpb	$0, 1(%r12)
	je	.LBB88_2
	cmpb	$0, (%r12)
	jne	.LBB88_24
	movq	%rcx, (%rsp)
	movb	$0, 1(%r12)
	testq	%rbp, %rbp
	je	.LBB88_6
	movb	%dl, %al
	shll	$12, %eax
	leaq	(%rsi,%rax), %rcx
	movq	%rcx, 16(%rsp)
	addq	%rsi, %rax
	addq	$24, %rax
	movq	%rax, 8(%rsp)
	xorl	%ecx, %ecx
	movq	%r12, 48(%rsp)
	movq	%rbp, 40(%rsp)
	.p2align	4
.LBB88_8:
	movq	%rcx, %rbx
	shlq	$4, %rbx
	movq	%rbp, %r15
	movq	%rcx, 64(%rsp)
	subq	%rcx, %r15
	cmpq	$32, %r15
	movl	$32, %r13d
	cmovbq	%r15, %r13
	leaq	72(%rsp), %rdi
	xorl	%r14d, %r14d
	movl	$768, %edx
	xorl	%esi, %esi
	callq	tlsf_memory_set@PLT
	cmpq	$1, %r15
	jne	.LBB88_10
	movq	%r13, %r8
	jmp	.LBB88_13
	.p2align	4
.LBB88_10:
	movl	%r13d, %eax
	andl	$62, %eax
	movq	8(%rsp), %rcx
	addq	%rbx, %rcx
	xorl	%r14d, %r14d
	leaq	112(%rsp), %rdx
	movq	%r13, %r8
	.p2align	4
.LBB88_11:
	movq	-16(%rcx), %rsi
	movq	$0, -40(%rdx)
	movq	-24(%rcx), %rdi
	movq	%rdi, -32(%rdx)
	movq	%rsi, -24(%rdx)
	movq	(%rcx), %rsi
	movq	$0, -16(%rdx)
	movq	-8(%rcx), %rdi
	movq	%rdi, -8(%rdx)
	movq	%rsi, (%rdx)
	addq	$2, %r14
	addq	$32, %rcx
	addq	$48, %rdx
	cmpq	%r14, %rax
	jne	.LBB88_11
	testb	$1, %r8b
	je	.LBB88_14
.LBB88_13:
	addq	16(%rsp), %rbx
	leaq	(%r14,%r14,2), %rax
	shlq	$4, %r14
	movq	8(%rbx,%r14), %rcx
	movq	$0, 72(%rsp,%rax,8)
	movq	(%rbx,%r14), %rdx
	movq	%rdx, 80(%rsp,%rax,8)
	movq	%rcx, 88(%rsp,%rax,8)
.LBB88_14:
	movq	24(%r12), %r13
	movq	32(%r12), %rax
	movq	40(%r12), %r14
	leaq	(,%r13,2), %rcx
	negq	%rcx
	xorl	%edx, %edx
	cmpq	%r14, %rax
	cmovaq	%rcx, %rdx
	addq	%r13, %rax
	subq	%r14, %rax
	addq	%rdx, %rax
	movq	%r8, %rbx
	cmpq	%r8, %rax
	jae	.LBB88_16
	movq	8(%r12), %rax
	movq	(%rax), %rcx
	movq	%rcx, 32(%r12)
	movq	24(%r12), %r13
	movq	40(%r12), %r14
	leaq	(,%r13,2), %rdx
	negq	%rdx
	xorl	%eax, %eax
	cmpq	%r14, %rcx
	cmovbeq	%rax, %rdx
	addq	%r13, %rcx
	subq	%r14, %rcx
	addq	%rdx, %rcx
	cmpq	%r8, %rcx
	movq	%r8, %rbx
	cmovbq	%rcx, %rbx
	testq	%rcx, %rcx
	je	.LBB88_21
.LBB88_16:
	xorl	%eax, %eax
	cmpq	%r13, %r14
	cmovaeq	%r13, %rax
	movq	%r14, %rcx
	subq	%rax, %rcx
	movq	%r12, %rsi
	movq	%r13, %r12
	subq	%rcx, %r12
	cmpq	%rbx, %r12
	cmovaeq	%rbx, %r12
	leaq	(,%r12,8), %rdx
	movq	%r13, %rbp
	leaq	(%rdx,%rdx,2), %r9
	movq	8(%rsi), %rdx
	movq	%rdx, 56(%rsp)
	movq	16(%rsi), %r15
	subq	%rcx, %rbp
	je	.LBB88_18
	leaq	(%r14,%r14,2), %rcx
	shlq	$3, %rax
	leaq	(%rax,%rax,2), %rax
	movq	%r15, %rdx
	subq	%rax, %rdx
	leaq	(%rdx,%rcx,8), %rdi
	leaq	72(%rsp), %rsi
	movq	%r9, %rdx
	movq	%r8, 32(%rsp)
	movq	%r9, 24(%rsp)
	callq	tlsf_memory_cpy@PLT
	movq	24(%rsp), %r9
	movq	32(%rsp), %r8
.LBB88_18:
	cmpq	%rbp, %rbx
	jbe	.LBB88_20
	leaq	(%rsp,%r9), %rsi
	addq	$72, %rsi
	movq	%rbx, %rax
	subq	%r12, %rax
	shlq	$3, %rax
	leaq	(%rax,%rax,2), %rdx
	movq	%r15, %rdi
	movq	%r8, %r12
	callq	tlsf_memory_cpy@PLT
	movq	%r12, %r8
.LBB88_20:
	movq	48(%rsp), %r12
	movq	56(%rsp), %rdx
	movq	%rdx, 8(%r12)
	movq	%r15, 16(%r12)
	addq	%r13, %r13
	subq	%r14, %r13
	movq	%r13, %rax
	negq	%rax
	cmpq	%r13, %rbx
	cmovbq	%r14, %rax
	addq	%rbx, %rax
	movq	%rax, %rcx
	xchgq	%rcx, 128(%rdx)
	movq	%rax, %r14
	movq	%rbx, %rax
	movq	40(%rsp), %rbp
.LBB88_21:
	movq	%r14, 40(%r12)
	movq	64(%rsp), %rcx
	addq	%rax, %rcx
	cmpq	%r8, %rax
	jb	.LBB88_23
	cmpq	%rbp, %rcx
	jb	.LBB88_8
	jmp	.LBB88_23
.LBB88_6:
	xorl	%ecx, %ecx
.LBB88_23:
	movq	(%rsp), %rax
	movq	%rcx, (%rax)
	movb	$1, 1(%r12)
	xorl	%eax, %eax
	addq	$840, %rsp
	.cfi_def_cfa_offset 56
	popq	%rbx
	.cfi_def_cfa_offset 48
	popq	%r12
	.cfi_def_cfa_offset 40
	popq	%r13
	.cfi_def_cfa_offset 32
	popq	%r14
	.cfi_def_cfa_offset 24
	popq	%r15
	.cfi_def_cfa_offset 16
	popq	%rbp
	.cfi_def_cfa_offset 8
	retq
.LBB88_2:
	.cfi_def_cfa_offset 896
	xorl	%edi, %edi
	jmp	.LBB88_3
.LBB88_24:
	movl	$2, %edi
.LBB88_3:
	addq	$840, %rsp
	.cfi_def_cfa_offset 56
	popq	%rbx
	.cfi_def_cfa_offset 48
	popq	%r12
	.cfi_def_cfa_offset 40
	popq	%r13
	.cfi_def_cfa_offset 32
	popq	%r14
	.cfi_def_cfa_offset 24
	popq	%r15
	.cfi_def_cfa_offset 16
	popq	%rbp
	.cfi_def_cfa_offset 8
	jmp	"tlsf_c::call_fault::CallFault::refusal"
.Lfunc_end88:
	.size	tlsf_put_all, .Lfunc_end88-tlsf_put_all
	.cfi_endproc
	.section	.text.tlsf_queue_close,"ax",@progbits
	.globl	tlsf_queue_close
	.p2align	4
	.type	tlsf_queue_close,@function
tlsf_queue_close:
	.cfi_startproc
	movl	$32, %eax
	cmpb	$0, 8(%rdi)
	je	.LBB89_4
	movq	(%rdi), %rcx
	cmpb	$1, 1(%rcx)
	jne	.LBB89_4
	movl	$40, %eax
	cmpb	$2, (%rcx)
	jne	.LBB89_4
	pushq	%rbx
	.cfi_def_cfa_offset 16
	subq	$96, %rsp
	.cfi_def_cfa_offset 112
	.cfi_offset %rbx, -16
	movb	$0, 1(%rcx)
	movq	(%rdi), %rax
	xorps	%xmm0, %xmm0
	movups	%xmm0, (%rdi)
	movzwl	(%rax), %ebx
	movups	8(%rax), %xmm0
	movups	%xmm0, 8(%rsp)
	movups	24(%rax), %xmm0
	movups	%xmm0, 24(%rsp)
	movq	40(%rax), %rcx
	movq	%rcx, 40(%rsp)
	movq	%rax, %rdi
	callq	tlsf_memory_dealloc@PLT
	movq	$0, 48(%rsp)
	movw	%bx, 48(%rsp)
	movups	8(%rsp), %xmm0
	movups	24(%rsp), %xmm1
	movups	%xmm0, 56(%rsp)
	movups	%xmm1, 72(%rsp)
	movq	40(%rsp), %rax
	movq	%rax, 88(%rsp)
	leaq	48(%rsp), %rdi
	callq	"tlsf_c::tlsf_c++any_end++AnyEnd+Destruct::drop"
	xorl	%eax, %eax
	addq	$96, %rsp
	.cfi_def_cfa_offset 16
	popq	%rbx
	.cfi_def_cfa_offset 8
	.cfi_restore %rbx
.LBB89_4:
	retq
.Lfunc_end89:
	.size	tlsf_queue_close, .Lfunc_end89-tlsf_queue_close
	.cfi_endproc
	.section	.text.tlsf_queue_drain,"ax",@progbits
	.globl	tlsf_queue_drain
	.p2align	4
	.type	tlsf_queue_drain,@function
tlsf_queue_drain:
	.cfi_startproc
	pushq	%rbp
	.cfi_def_cfa_offset 16
	pushq	%r15
	.cfi_def_cfa_offset 24
	pushq	%r14
	.cfi_def_cfa_offset 32
	pushq	%r13
	.cfi_def_cfa_offset 40
	pushq	%r12
	.cfi_def_cfa_offset 48
	pushq	%rbx
	.cfi_def_cfa_offset 56
	subq	$40, %rsp
	.cfi_def_cfa_offset 96
	.cfi_offset %rbx, -56
	.cfi_offset %r12, -48
	.cfi_offset %r13, -40
	.cfi_offset %r14, -32
	.cfi_offset %r15, -24
	.cfi_offset %rbp, -16
	cmpb	$0, 8(%rdi)
	je	.LBB90_4
	movq	%rdi, %r14
	movq	(%rdi), %rax
	cmpb	$1, (%rax)
	jne	.LBB90_4
	cmpb	$0, 8(%rsi)
	je	.LBB90_4
	movq	(%rsi), %r12
	cmpb	$0, 1(%r12)
	je	.LBB90_4
	cmpb	$2, (%r12)
	jne	.LBB90_14
	movq	%rcx, %rbx
	movl	%edx, %ebp
	movb	$0, 1(%r12)
	testl	%edx, %edx
	je	.LBB90_8
	leaq	8(%r12), %r15
	xorl	%r13d, %r13d
	.p2align	4
.LBB90_10:
	xorps	%xmm0, %xmm0
	movaps	%xmm0, 16(%rsp)
	movaps	%xmm0, (%rsp)
	movq	%rsp, %rdi
	movq	%r15, %rsi
	callq	"tlsf_c::queue_end::take_once"
	cmpb	$0, (%rsp)
	jne	.LBB90_13
	movl	16(%rsp), %esi
	movl	20(%rsp), %ecx
	movq	24(%rsp), %rdx
	movq	%r14, %rdi
	callq	"tlsf_c::heap_calls::release_named"
	incl	%r13d
	cmpl	%r13d, %ebp
	jne	.LBB90_10
	movl	%ebp, %r13d
	jmp	.LBB90_13
.LBB90_8:
	xorl	%r13d, %r13d
.LBB90_13:
	movl	%r13d, (%rbx)
	movb	$1, 1(%r12)
	xorl	%eax, %eax
	addq	$40, %rsp
	.cfi_def_cfa_offset 56
	popq	%rbx
	.cfi_def_cfa_offset 48
	popq	%r12
	.cfi_def_cfa_offset 40
	popq	%r13
	.cfi_def_cfa_offset 32
	popq	%r14
	.cfi_def_cfa_offset 24
	popq	%r15
	.cfi_def_cfa_offset 16
	popq	%rbp
	.cfi_def_cfa_offset 8
	retq
.LBB90_4:
	.cfi_def_cfa_offset 96
	xorl	%edi, %edi
.LBB90_5:
	addq	$40, %rsp
	.cfi_def_cfa_offset 56
	popq	%rbx
	.cfi_def_cfa_offset 48
	popq	%r12
	.cfi_def_cfa_offset 40
	popq	%r13
	.cfi_def_cfa_offset 32
	popq	%r14
	.cfi_def_cfa_offset 24
	popq	%r15
	.cfi_def_cfa_offset 16
	popq	%rbp
	.cfi_def_cfa_offset 8
	jmp	"tlsf_c::call_fault::CallFault::refusal"
.LBB90_14:
	.cfi_def_cfa_offset 96
	movl	$2, %edi
	jmp	.LBB90_5
.Lfunc_end90:
	.size	tlsf_queue_drain, .Lfunc_end90-tlsf_queue_drain
	.cfi_endproc
	.section	.rodata.cst16,"aM",@progbits,16
	.p2align	4, 0x0
.LCPI91_0:
	.byte	0
	.byte	0
	.byte	0
	.byte	0
	.byte	0
	.byte	0
	.byte	0
	.byte	0
	.byte	1
	.byte	0
	.byte	0
	.byte	0
	.byte	0
	.byte	0
	.byte	0
	.byte	0
.LCPI91_1:
	.quad	2
	.quad	2
.LCPI91_2:
	.quad	4
	.quad	4
	.section	.text.tlsf_queue_open,"ax",@progbits
	.globl	tlsf_queue_open
	.p2align	4
	.type	tlsf_queue_open,@function
tlsf_queue_open:
	.cfi_startproc
	pushq	%rbp
	.cfi_def_cfa_offset 16
	pushq	%r15
	.cfi_def_cfa_offset 24
	pushq	%r14
	.cfi_def_cfa_offset 32
	pushq	%r13
	.cfi_def_cfa_offset 40
	pushq	%r12
	.cfi_def_cfa_offset 48
	pushq	%rbx
	.cfi_def_cfa_offset 56
	subq	$296, %rsp
	.cfi_def_cfa_offset 352
	.cfi_offset %rbx, -56
	.cfi_offset %r12, -48
	.cfi_offset %r13, -40
	.cfi_offset %r14, -32
	.cfi_offset %r15, -24
	.cfi_offset %rbp, -16
	pxor	%xmm0, %xmm0
	movdqa	%xmm0, 208(%rsp)
	movq	$0, 224(%rsp)
	movl	$33, %eax
	cmpb	$0, 8(%rdi)
	jne	.LBB91_66
	movl	$1024, %ecx
	movl	$1024, %eax
	subl	%esi, %eax
	subl	%edx, %ecx
	orl	%eax, %ecx
	movl	$5, %eax
	cmpl	$1023, %ecx
	ja	.LBB91_66
	movl	%edx, 8(%rsp)
	movq	%rdi, 152(%rsp)
	movl	%esi, %r12d
	movl	%esi, %r14d
	movq	%r14, %rdi
	shlq	$4, %rdi
	movl	$8, %esi
	callq	tlsf_memory_alloc@PLT
	testb	$1, %al
	je	.LBB91_65
	movq	%rdx, %rbx
	movq	%rdx, 96(%rsp)
	movq	$0, 104(%rsp)
	movq	%r14, 112(%rsp)
	movl	8(%rsp), %r15d
	bsrq	%r15, %rcx
	xorl	$63, %ecx
	negb	%cl
	movl	$1, %r13d
	shlq	%cl, %r13
	leaq	384(,%r15,8), %rbp
	movl	$8, %esi
	movq	%rbp, %rdi
	callq	tlsf_memory_alloc@PLT
	testb	$1, %al
	je	.LBB91_63
	movq	%rdx, %r14
	leaq	-8(%rbp), %rdx
	xorl	%ebx, %ebx
	movq	%r14, %rdi
	xorl	%esi, %esi
	callq	tlsf_memory_set@PLT
	movq	$0, -8(%r14,%rbp)
	cmpl	$4, 8(%rsp)
	jb	.LBB91_8
	movl	%r15d, %ebx
	andl	$2147483644, %ebx
	movdqa	.LCPI91_0(%rip), %xmm0
	xorl	%eax, %eax
	.p2align	4
.LBB91_6:
	movdqa	.LCPI91_1(%rip), %xmm1
	paddq	%xmm0, %xmm1
	movdqu	%xmm0, 384(%r14,%rax,8)
	movdqu	%xmm1, 400(%r14,%rax,8)
	addq	$4, %rax
	paddq	.LCPI91_2(%rip), %xmm0
	cmpq	%rax, %rbx
	jne	.LBB91_6
	cmpl	%r15d, %ebx
	je	.LBB91_9
	.p2align	4
.LBB91_8:
	movq	%rbx, 384(%r14,%rbx,8)
	incq	%rbx
	cmpq	%rbx, %r15
	jne	.LBB91_8
.LBB91_9:
	pxor	%xmm0, %xmm0
	movdqa	%xmm0, 160(%rsp)
	movq	$0, 176(%rsp)
	movq	%r15, %rdi
	shlq	$5, %rdi
	movl	$8, %esi
	callq	tlsf_memory_alloc@PLT
	testb	$1, %al
	je	.LBB91_30
	movq	%r13, 232(%rsp)
	incl	%r12d
	movl	%r12d, 44(%rsp)
	movq	%rdx, 48(%rsp)
	movq	$0, 56(%rsp)
	movq	%r15, 64(%rsp)
	leaq	16(%rsp), %rax
	movq	%rax, 24(%rsp)
	movq	%rax, 72(%rsp)
	xorl	%r12d, %r12d
	movq	%r15, %rbp
	jmp	.LBB91_13
.LBB91_11:
	movq	48(%rsp), %rdx
	movq	56(%rsp), %r13
	.p2align	4
.LBB91_12:
	movq	%r13, %rbx
	shlq	$5, %rbx
	movq	$0, (%rdx,%rbx)
	movdqa	240(%rsp), %xmm0
	movdqu	%xmm0, 8(%rdx,%rbx)
	movq	256(%rsp), %rax
	movq	%rax, 24(%rdx,%rbx)
	leaq	1(%r13), %r12
	movq	%r12, 56(%rsp)
	decq	%rbp
	je	.LBB91_18
.LBB91_13:
	movq	176(%rsp), %rax
	movq	%rax, 256(%rsp)
	movdqa	160(%rsp), %xmm0
	movdqa	%xmm0, 240(%rsp)
	movq	%r12, %r13
	cmpq	%r12, 64(%rsp)
	jne	.LBB91_12
	leaq	48(%rsp), %rdi
	callq	"std_alloc::vec::Vec::grow_amortized::<#94730218a1e37034>"
	testb	%al, %al
	jne	.LBB91_11
	movq	48(%rsp), %rdi
	movq	56(%rsp), %rcx
	movq	64(%rsp), %rax
	movq	%rcx, %rdx
	shlq	$5, %rdx
	addq	%rdi, %rdx
	addq	$-32, %rdx
	incq	%rcx
.LBB91_16:
	decq	%rcx
	je	.LBB91_67
	cmpb	$0, (%rdx)
	leaq	-32(%rdx), %rdx
	je	.LBB91_16
	jmp	.LBB91_27
.LBB91_18:
	movq	48(%rsp), %rbp
	movq	64(%rsp), %rax
	movq	%rax, 32(%rsp)
	movl	$8, %esi
	leaq	384(,%r15,8), %rdi
	callq	tlsf_memory_alloc@PLT
	movq	%rbp, %rdi
	testb	$1, %al
	je	.LBB91_24
	movq	%rdx, %rbp
	movq	%rdi, 144(%rsp)
	movq	%r12, %rdi
	shlq	$5, %rdi
	js	.LBB91_23
	movl	$8, %esi
	callq	tlsf_memory_alloc@PLT
	testb	$1, %al
	je	.LBB91_23
	movq	%rdx, %r8
	movq	%rbp, %rax
	subq	%r14, %rax
	cmpq	$32, %rax
	jae	.LBB91_35
	xorl	%eax, %eax
	movq	144(%rsp), %rdi
	jmp	.LBB91_38
.LBB91_23:
	movq	%rbp, %rdi
	callq	tlsf_memory_dealloc@PLT
	movq	144(%rsp), %rdi
.LBB91_24:
	addq	%rdi, %rbx
	addq	$2, %r13
	.p2align	4
.LBB91_25:
	decq	%r13
	je	.LBB91_28
	cmpb	$0, (%rbx)
	leaq	-32(%rbx), %rbx
	je	.LBB91_25
.LBB91_27:
	ud2
.LBB91_28:
	cmpq	$0, 32(%rsp)
	je	.LBB91_30
.LBB91_29:
	callq	tlsf_memory_dealloc@PLT
.LBB91_30:
	movq	%r14, %rdi
	callq	tlsf_memory_dealloc@PLT
	movq	96(%rsp), %rbx
	movq	104(%rsp), %r13
	movq	112(%rsp), %r12
	testq	%r13, %r13
	je	.LBB91_62
	movq	%rbx, %rbp
	jmp	.LBB91_33
	.p2align	4
.LBB91_32:
	addq	$16, %rbp
	decq	%r13
	je	.LBB91_62
.LBB91_33:
	movq	(%rbp), %rdi
	lock		decq	(%rdi)
	jne	.LBB91_32
	movq	40(%rdi), %r14
	movq	56(%rdi), %r15
	callq	tlsf_memory_dealloc@PLT
	movq	%r14, %rdi
	callq	tlsf_memory_dealloc@PLT
	movq	%r15, %rdi
	callq	tlsf_memory_dealloc@PLT
	jmp	.LBB91_32
.LBB91_35:
	leaq	48(%r15), %rdx
	movl	%edx, %eax
	andl	$-4, %eax
	xorl	%ecx, %ecx
	movq	144(%rsp), %rdi
.LBB91_36:
	movdqu	(%r14,%rcx,8), %xmm0
	movdqu	16(%r14,%rcx,8), %xmm1
	movdqu	%xmm0, (%rbp,%rcx,8)
	movdqu	%xmm1, 16(%rbp,%rcx,8)
	addq	$4, %rcx
	cmpq	%rcx, %rax
	jne	.LBB91_36
	cmpq	%rax, %rdx
	je	.LBB91_42
.LBB91_38:
	movq	%rax, %rcx
	negq	%rcx
	addq	%r15, %rcx
	addq	$47, %rcx
	movq	%r15, %rdx
	andq	$3, %rdx
	je	.LBB91_40
.LBB91_39:
	movq	(%r14,%rax,8), %rsi
	movq	%rsi, (%rbp,%rax,8)
	incq	%rax
	decq	%rdx
	jne	.LBB91_39
.LBB91_40:
	cmpq	$3, %rcx
	leaq	48(%r15), %rdx
	jb	.LBB91_42
.LBB91_41:
	movq	(%r14,%rax,8), %rcx
	movq	%rcx, (%rbp,%rax,8)
	movq	8(%r14,%rax,8), %rcx
	movq	%rcx, 8(%rbp,%rax,8)
	movq	16(%r14,%rax,8), %rcx
	movq	%rcx, 16(%rbp,%rax,8)
	movq	24(%r14,%rax,8), %rcx
	movq	%rcx, 24(%rbp,%rax,8)
	addq	$4, %rax
	cmpq	%rax, %rdx
	jne	.LBB91_41
.LBB91_42:
	testq	%r12, %r12
	je	.LBB91_48
	movq	%r12, %rax
	testb	$1, %r13b
	jne	.LBB91_45
	movzbl	(%rdi,%rbx), %eax
	movq	24(%rdi,%rbx), %rcx
	movq	%rcx, 64(%rsp)
	movups	8(%rdi,%rbx), %xmm0
	movaps	%xmm0, 48(%rsp)
	movq	%rax, (%r8,%rbx)
	movdqa	48(%rsp), %xmm0
	movdqu	%xmm0, 8(%r8,%rbx)
	movq	64(%rsp), %rax
	movq	%rax, 24(%r8,%rbx)
	movq	%r13, %rax
.LBB91_45:
	testq	%r13, %r13
	je	.LBB91_48
	movq	%rax, %rcx
	shlq	$5, %rcx
	addq	$-24, %rcx
.LBB91_47:
	movzbl	-8(%rdi,%rcx), %edx
	movq	16(%rdi,%rcx), %rsi
	movq	%rsi, 64(%rsp)
	movups	(%rdi,%rcx), %xmm0
	movaps	%xmm0, 48(%rsp)
	movq	%rdx, -8(%r8,%rcx)
	movaps	48(%rsp), %xmm0
	movups	%xmm0, (%r8,%rcx)
	movq	64(%rsp), %rdx
	movq	%rdx, 16(%r8,%rcx)
	movzbl	-40(%rdi,%rcx), %edx
	movq	-16(%rdi,%rcx), %rsi
	movq	%rsi, 64(%rsp)
	movups	-32(%rdi,%rcx), %xmm0
	movaps	%xmm0, 48(%rsp)
	movq	%rdx, -40(%r8,%rcx)
	movdqa	48(%rsp), %xmm0
	movdqu	%xmm0, -32(%r8,%rcx)
	movq	64(%rsp), %rdx
	movq	%rdx, -16(%r8,%rcx)
	addq	$-64, %rcx
	addq	$-2, %rax
	jne	.LBB91_47
.LBB91_48:
	movq	%r8, %rbx
	cmpq	$0, 32(%rsp)
	je	.LBB91_50
	callq	tlsf_memory_dealloc@PLT
.LBB91_50:
	movq	%r14, %rdi
	callq	tlsf_memory_dealloc@PLT
	movl	44(%rsp), %eax
.LBB91_51:
	movq	(%rbp), %rcx
	decl	%eax
	jne	.LBB91_51
	movl	8(%rsp), %eax
.LBB91_53:
	movq	(%rbp), %rcx
	decl	%eax
	jne	.LBB91_53
	movl	$88, %edi
	movl	$8, %esi
	callq	tlsf_memory_alloc@PLT
	testb	$1, %al
	je	.LBB91_57
	movq	%rdx, %r14
	movq	$1, (%rdx)
	movq	%rbp, 8(%rdx)
	movq	%rbx, 16(%rdx)
	leaq	48(%r15), %rax
	movq	%rax, 24(%rdx)
	movq	%r12, 32(%rdx)
	movq	%rbp, 40(%rdx)
	movq	%rax, 48(%rdx)
	movq	%rbx, 56(%rdx)
	movq	%r12, 64(%rdx)
	movq	%r15, 72(%rdx)
	movq	232(%rsp), %rax
	movq	%rax, 80(%rdx)
	movq	(%rbp), %rax
	leaq	96(%rsp), %rcx
	movq	%rdx, %rdi
	movl	$1, %esi
	movl	44(%rsp), %edx
	callq	"tlsf_post::mailboxes::send_out"
	testb	%al, %al
	je	.LBB91_68
	movq	%r14, %rdi
	callq	"std_alloc::arc::Arc::drop::<#f29941b0e8355977>"
	leaq	96(%rsp), %rdi
	callq	"std_alloc::vec::Vec::drop::<#05316b64237a7125>"
	jmp	.LBB91_65
.LBB91_57:
	movq	%rbp, %rdi
	callq	tlsf_memory_dealloc@PLT
	movq	%rbx, %rdi
	callq	tlsf_memory_dealloc@PLT
	movq	96(%rsp), %rbx
	movq	104(%rsp), %r13
	movq	112(%rsp), %r12
	testq	%r13, %r13
	je	.LBB91_62
	movq	%rbx, %rbp
	jmp	.LBB91_60
.LBB91_59:
	addq	$16, %rbp
	decq	%r13
	je	.LBB91_62
.LBB91_60:
	movq	(%rbp), %rdi
	lock		decq	(%rdi)
	jne	.LBB91_59
	movq	40(%rdi), %r14
	movq	56(%rdi), %r15
	callq	tlsf_memory_dealloc@PLT
	movq	%r14, %rdi
	callq	tlsf_memory_dealloc@PLT
	movq	%r15, %rdi
	callq	tlsf_memory_dealloc@PLT
	jmp	.LBB91_59
.LBB91_62:
	testq	%r12, %r12
	je	.LBB91_65
.LBB91_63:
	movq	%rbx, %rdi
.LBB91_64:
	callq	tlsf_memory_dealloc@PLT
.LBB91_65:
	movl	$6, %eax
.LBB91_66:
	addq	$296, %rsp
	.cfi_def_cfa_offset 56
	popq	%rbx
	.cfi_def_cfa_offset 48
	popq	%r12
	.cfi_def_cfa_offset 40
	popq	%r13
	.cfi_def_cfa_offset 32
	popq	%r14
	.cfi_def_cfa_offset 24
	popq	%r15
	.cfi_def_cfa_offset 16
	popq	%rbp
	.cfi_def_cfa_offset 8
	retq
.LBB91_67:
	.cfi_def_cfa_offset 352
	testq	%rax, %rax
	jne	.LBB91_29
	jmp	.LBB91_30
.LBB91_68:
	movq	96(%rsp), %r15
	movq	104(%rsp), %r13
	movq	112(%rsp), %rcx
	pxor	%xmm0, %xmm0
	movdqa	%xmm0, 160(%rsp)
	movdqa	%xmm0, 176(%rsp)
	movq	$0, 192(%rsp)
	movdqa	%xmm0, 96(%rsp)
	movdqa	%xmm0, 112(%rsp)
	movq	$0, 128(%rsp)
	testq	%r13, %r13
	je	.LBB91_75
	movq	%r13, %rax
	shrq	$60, %rax
	movq	%rcx, 8(%rsp)
	jne	.LBB91_77
	leaq	(,%r13,8), %rdi
	movl	$8, %esi
	callq	tlsf_memory_alloc@PLT
	testb	$1, %al
	je	.LBB91_77
	movq	%rdx, 24(%rsp)
	movq	%r15, 32(%rsp)
	leaq	8(%r15), %rbp
	xorl	%ebx, %ebx
.LBB91_72:
	movq	-8(%rbp), %r12
	movl	(%rbp), %r15d
	movl	$48, %edi
	movl	$8, %esi
	callq	tlsf_memory_alloc@PLT
	testb	$1, %al
	je	.LBB91_84
	movw	$259, (%rdx)
	movq	%r12, 8(%rdx)
	movq	%r15, 16(%rdx)
	pxor	%xmm0, %xmm0
	movdqu	%xmm0, 24(%rdx)
	movq	$0, 40(%rdx)
	movq	24(%rsp), %rax
	movq	%rdx, (%rax,%rbx,8)
	incq	%rbx
	addq	$16, %rbp
	cmpq	%rbx, %r13
	jne	.LBB91_72
	movq	32(%rsp), %r15
	movq	8(%rsp), %rcx
.LBB91_75:
	movq	%r15, 96(%rsp)
	movq	$0, 104(%rsp)
	movq	%rcx, 112(%rsp)
	movq	%r13, 120(%rsp)
	movq	$0, 128(%rsp)
	leaq	96(%rsp), %rdi
	callq	"std_alloc::vec::deque::VecDeque::drop::<#ca3d8856d46a41b8>"
	movl	$48, %edi
	movl	$8, %esi
	callq	tlsf_memory_alloc@PLT
	testb	$1, %al
	je	.LBB91_83
	movw	$258, (%rdx)
	movq	%r14, 8(%rdx)
	movq	$0, 16(%rdx)
	movq	24(%rsp), %rax
	movq	%rax, 24(%rdx)
	movq	%r13, 32(%rdx)
	movq	%r13, 40(%rdx)
	movq	152(%rsp), %rax
	movq	%rdx, (%rax)
	movb	$1, 8(%rax)
	movl	$0, 9(%rax)
	movl	$0, 12(%rax)
	xorl	%eax, %eax
	jmp	.LBB91_66
.LBB91_77:
	movq	%r15, %rbp
	jmp	.LBB91_79
.LBB91_78:
	addq	$16, %rbp
	decq	%r13
	je	.LBB91_81
.LBB91_79:
	movq	(%rbp), %rdi
	lock		decq	(%rdi)
	jne	.LBB91_78
	movq	40(%rdi), %rbx
	movq	56(%rdi), %r12
	callq	tlsf_memory_dealloc@PLT
	movq	%rbx, %rdi
	callq	tlsf_memory_dealloc@PLT
	movq	%r12, %rdi
	callq	tlsf_memory_dealloc@PLT
	jmp	.LBB91_78
.LBB91_81:
	cmpq	$0, 8(%rsp)
	je	.LBB91_91
	movq	%r15, %rdi
	jmp	.LBB91_90
.LBB91_83:
	movq	%r14, %rdi
	callq	"std_alloc::arc::Arc::drop::<#c4a047e811255370>"
	movq	24(%rsp), %rax
	movq	%rax, 208(%rsp)
	movq	%r13, 216(%rsp)
	movq	%r13, 224(%rsp)
	leaq	208(%rsp), %rdi
	callq	"std_alloc::vec::Vec::drop::<#7ac45d8413b9ad54>"
	jmp	.LBB91_65
.LBB91_84:
	leaq	1(%rbx), %r15
	movq	%rbx, %rbp
	notq	%rbp
	addq	%r13, %rbp
	lock		decq	(%r12)
	jne	.LBB91_86
	movq	40(%r12), %r13
	movq	56(%r12), %rax
	movq	%rax, 152(%rsp)
	movq	%r12, %rdi
	callq	tlsf_memory_dealloc@PLT
	movq	%r13, %rdi
	callq	tlsf_memory_dealloc@PLT
	movq	152(%rsp), %rdi
	callq	tlsf_memory_dealloc@PLT
.LBB91_86:
	movq	32(%rsp), %rax
	movq	%rax, 160(%rsp)
	movq	%rbp, 168(%rsp)
	movq	8(%rsp), %rax
	movq	%rax, 176(%rsp)
	movq	%r15, 184(%rsp)
	movq	$0, 192(%rsp)
	leaq	160(%rsp), %rdi
	callq	"std_alloc::vec::deque::VecDeque::drop::<#ca3d8856d46a41b8>"
	testq	%rbx, %rbx
	movq	24(%rsp), %r12
	je	.LBB91_89
	leaq	246(%rsp), %r15
	xorl	%r13d, %r13d
.LBB91_88:
	movq	(%r12,%r13,8), %rdi
	movzwl	(%rdi), %ebp
	movups	8(%rdi), %xmm0
	movups	%xmm0, (%r15)
	movups	24(%rdi), %xmm0
	movups	%xmm0, 16(%r15)
	movq	40(%rdi), %rax
	movq	%rax, 32(%r15)
	callq	tlsf_memory_dealloc@PLT
	movq	$0, 48(%rsp)
	movw	%bp, 48(%rsp)
	movq	32(%r15), %rax
	leaq	56(%rsp), %rcx
	movq	%rax, 32(%rcx)
	movdqu	(%r15), %xmm0
	movdqu	16(%r15), %xmm1
	movdqu	%xmm1, 16(%rcx)
	movdqu	%xmm0, (%rcx)
	leaq	48(%rsp), %rdi
	callq	"tlsf_c::tlsf_c++any_end++AnyEnd+Destruct::drop"
	incq	%r13
	cmpq	%r13, %rbx
	jne	.LBB91_88
.LBB91_89:
	movq	%r12, %rdi
.LBB91_90:
	callq	tlsf_memory_dealloc@PLT
.LBB91_91:
	lock		decq	(%r14)
	movl	$6, %eax
	jne	.LBB91_66
	movq	40(%r14), %rbx
	movq	56(%r14), %r15
	movq	%r14, %rdi
	callq	tlsf_memory_dealloc@PLT
	movq	%rbx, %rdi
	callq	tlsf_memory_dealloc@PLT
	movq	%r15, %rdi
	jmp	.LBB91_64
.Lfunc_end91:
	.size	tlsf_queue_open, .Lfunc_end91-tlsf_queue_open
	.cfi_endproc
	.section	.text.tlsf_queue_post,"ax",@progbits
	.globl	tlsf_queue_post
	.p2align	4
	.type	tlsf_queue_post,@function
tlsf_queue_post:
	.cfi_startproc
	pushq	%rbx
	.cfi_def_cfa_offset 16
	.cfi_offset %rbx, -16
	cmpb	$0, 8(%rdi)
	je	.LBB92_14
	movq	(%rdi), %rdi
	cmpb	$0, 1(%rdi)
	je	.LBB92_14
	cmpb	$3, (%rdi)
	jne	.LBB92_11
	movb	$0, 1(%rdi)
	movq	8(%rdi), %r8
	movl	16(%rdi), %r10d
	movq	8(%r8), %rax
	movq	128(%rax), %rcx
	movq	8(%r8), %rax
	movq	80(%r8), %r9
	decq	%r9
	andq	%rcx, %r9
	movq	384(%rax,%r9,8), %rax
	movq	%rcx, %r11
	shrq	$62, %r11
	cmpl	$2, %r11d
	ja	.LBB92_12
	cmpq	%rcx, %rax
	jne	.LBB92_12
	leaq	1(%r9), %rax
	cmpq	72(%r8), %rax
	jae	.LBB92_7
	leaq	1(%rcx), %r11
	jmp	.LBB92_8
.LBB92_7:
	movq	%rcx, %r11
	subq	%r9, %r11
	addq	80(%r8), %r11
.LBB92_8:
	movq	8(%r8), %rbx
	movq	%rcx, %rax
	lock		cmpxchgq	%r11, 128(%rbx)
	jne	.LBB92_12
	movq	16(%r8), %rax
	movq	%r9, %r11
	shlq	$5, %r11
	cmpb	$0, (%rax,%r11)
	movq	$1, (%rax,%r11)
	movl	%r10d, 8(%rax,%r11)
	movl	$0, 12(%rax,%r11)
	movq	%rsi, 16(%rax,%r11)
	movq	%rdx, 24(%rax,%r11)
	jne	.LBB92_15
	incq	%rcx
	movq	8(%r8), %rax
	xchgq	%rcx, 384(%rax,%r9,8)
	movb	$1, 1(%rdi)
	xorl	%eax, %eax
	popq	%rbx
	.cfi_def_cfa_offset 8
	retq
.LBB92_12:
	.cfi_def_cfa_offset 16
	movq	8(%rdi), %rax
	movq	8(%rax), %rcx
	movq	128(%rcx), %rcx
	movq	8(%rax), %rdx
	movq	256(%rdx), %rdx
	movq	80(%rax), %rsi
	movq	%rcx, %rax
	subq	%rsi, %rax
	cmpq	%rax, %rdx
	movl	$8, %eax
	movl	$37, %edx
	cmovnel	%edx, %eax
	cmpq	%rsi, %rcx
	movb	$1, 1(%rdi)
	cmovbl	%edx, %eax
	popq	%rbx
	.cfi_def_cfa_offset 8
	retq
.LBB92_14:
	.cfi_def_cfa_offset 16
	xorl	%edi, %edi
	popq	%rbx
	.cfi_def_cfa_offset 8
	jmp	"tlsf_c::call_fault::CallFault::refusal"
.LBB92_11:
	.cfi_def_cfa_offset 16
	movl	$2, %edi
	popq	%rbx
	.cfi_def_cfa_offset 8
	jmp	"tlsf_c::call_fault::CallFault::refusal"
.LBB92_15:
	.cfi_def_cfa_offset 16
	ud2
.Lfunc_end92:
	.size	tlsf_queue_post, .Lfunc_end92-tlsf_queue_post
	.cfi_endproc
	.section	.text.tlsf_queue_take,"ax",@progbits
	.globl	tlsf_queue_take
	.p2align	4
	.type	tlsf_queue_take,@function
tlsf_queue_take:
	.cfi_startproc
	pushq	%r14
	.cfi_def_cfa_offset 16
	pushq	%rbx
	.cfi_def_cfa_offset 24
	subq	$40, %rsp
	.cfi_def_cfa_offset 64
	.cfi_offset %rbx, -24
	.cfi_offset %r14, -16
	cmpb	$0, 8(%rdi)
	je	.LBB93_2
	movq	(%rdi), %r14
	cmpb	$0, 1(%r14)
	je	.LBB93_2
	cmpb	$2, (%r14)
	jne	.LBB93_9
	movq	%rsi, %rbx
	leaq	8(%r14), %rsi
	movb	$0, 1(%r14)
	xorps	%xmm0, %xmm0
	movaps	%xmm0, 16(%rsp)
	movaps	%xmm0, (%rsp)
	movq	%rsp, %rdi
	callq	"tlsf_c::queue_end::take_once"
	cmpb	$0, (%rsp)
	je	.LBB93_6
	movzbl	1(%rsp), %eax
	leaq	.Lswitch.table.tlsf_queue_take(%rip), %rcx
	movl	(%rcx,%rax,4), %eax
	jmp	.LBB93_8
.LBB93_6:
	movaps	16(%rsp), %xmm0
	movups	%xmm0, (%rbx)
	xorl	%eax, %eax
.LBB93_8:
	movb	$1, 1(%r14)
	addq	$40, %rsp
	.cfi_def_cfa_offset 24
	popq	%rbx
	.cfi_def_cfa_offset 16
	popq	%r14
	.cfi_def_cfa_offset 8
	retq
.LBB93_2:
	.cfi_def_cfa_offset 64
	xorl	%edi, %edi
	addq	$40, %rsp
	.cfi_def_cfa_offset 24
	popq	%rbx
	.cfi_def_cfa_offset 16
	popq	%r14
	.cfi_def_cfa_offset 8
	jmp	"tlsf_c::call_fault::CallFault::refusal"
.LBB93_9:
	.cfi_def_cfa_offset 64
	movl	$2, %edi
	addq	$40, %rsp
	.cfi_def_cfa_offset 24
	popq	%rbx
	.cfi_def_cfa_offset 16
	popq	%r14
	.cfi_def_cfa_offset 8
	jmp	"tlsf_c::call_fault::CallFault::refusal"
.Lfunc_end93:
	.size	tlsf_queue_take, .Lfunc_end93-tlsf_queue_take
	.cfi_endproc
	.section	.text.tlsf_read,"ax",@progbits
	.globl	tlsf_read
	.p2align	4
	.type	tlsf_read,@function
tlsf_read:
	.cfi_startproc
	xorl	%r10d, %r10d
	testq	%r8, %r8
	sete	%r11b
	movl	$32, %eax
	cmpb	$0, 8(%rdi)
	je	.LBB94_27
	pushq	%rbx
	.cfi_def_cfa_offset 16
	.cfi_offset %rbx, -16
	movq	(%rdi), %rbx
	cmpb	$1, (%rbx)
	jne	.LBB94_26
	movb	%r11b, %r10b
	shll	$12, %r10d
	addq	%r10, %r8
	movq	%rsi, %r10
	shrq	$32, %r10
	movb	$0, (%rbx)
	cmpb	$0, 16(%rbx)
	movl	24(%rbx), %eax
	je	.LBB94_3
	cmpl	%esi, %eax
	jne	.LBB94_13
	cmpl	56(%rbx), %r10d
	jae	.LBB94_8
	movq	72(%rbx), %rax
	movq	%rsi, %rdi
	shrq	$38, %rdi
	movq	(%rax,%rdi,8), %rax
	btq	%r10, %rax
	jae	.LBB94_8
	leaq	48(%rbx), %rdi
	movq	(%rdi), %rax
	testb	$1, (%rax,%r10,8)
	jne	.LBB94_8
	cmpq	%rdx, 8(%rax,%r10,8)
	jne	.LBB94_8
	movl	16(%rax,%r10,8), %edx
	movl	%ecx, %esi
	addq	%r9, %rsi
	movb	$4, %al
	cmpq	%rdx, %rsi
	ja	.LBB94_15
	movl	%r10d, %esi
	movl	%ecx, %edx
	movq	%r8, %rcx
	movq	%r9, %r8
	callq	"tlsf_heap::region::Region::read::<=5>"
	jmp	.LBB94_11
.LBB94_3:
	cmpl	%esi, %eax
	jne	.LBB94_13
	cmpl	56(%rbx), %r10d
	jae	.LBB94_8
	movq	72(%rbx), %rax
	movq	%rsi, %rdi
	shrq	$38, %rdi
	movq	(%rax,%rdi,8), %rax
	btq	%r10, %rax
	jae	.LBB94_8
	leaq	48(%rbx), %rdi
	movq	(%rdi), %rax
	testb	$1, (%rax,%r10,8)
	jne	.LBB94_8
	cmpq	%rdx, 8(%rax,%r10,8)
	jne	.LBB94_8
	movl	16(%rax,%r10,8), %edx
	movl	%ecx, %esi
	addq	%r9, %rsi
	movb	$4, %al
	cmpq	%rdx, %rsi
	ja	.LBB94_15
	movl	%r10d, %esi
	movl	%ecx, %edx
	movq	%r8, %rcx
	movq	%r9, %r8
	callq	"tlsf_heap::region::Region::read::<=4>"
.LBB94_11:
	xorl	%ecx, %ecx
	xorl	%eax, %eax
	testb	%cl, %cl
	jne	.LBB94_24
.LBB94_17:
	xorl	%eax, %eax
	jmp	.LBB94_25
.LBB94_8:
	movl	%esi, %edi
	jmp	.LBB94_14
.LBB94_13:
	movl	%esi, %edi
	movl	%eax, %esi
.LBB94_14:
	callq	"tlsf_heap::refusal::Refusal::of_name"
.LBB94_15:
	movb	$1, %cl
	testb	%cl, %cl
	je	.LBB94_17
.LBB94_24:
	movzbl	%al, %eax
	leaq	.Lswitch.table.tlsf_write(%rip), %rcx
	movl	(%rcx,%rax,4), %eax
.LBB94_25:
	movb	$1, (%rbx)
.LBB94_26:
	popq	%rbx
	.cfi_def_cfa_offset 8
	.cfi_restore %rbx
.LBB94_27:
	retq
.Lfunc_end94:
	.size	tlsf_read, .Lfunc_end94-tlsf_read
	.cfi_endproc
	.section	.text.tlsf_reallocate,"ax",@progbits
	.globl	tlsf_reallocate
	.p2align	4
	.type	tlsf_reallocate,@function
tlsf_reallocate:
	.cfi_startproc
	movl	$32, %eax
	cmpb	$0, 8(%rdi)
	je	.LBB95_121
	pushq	%rbp
	.cfi_def_cfa_offset 16
	pushq	%r15
	.cfi_def_cfa_offset 24
	pushq	%r14
	.cfi_def_cfa_offset 32
	pushq	%r13
	.cfi_def_cfa_offset 40
	pushq	%r12
	.cfi_def_cfa_offset 48
	pushq	%rbx
	.cfi_def_cfa_offset 56
	subq	$104, %rsp
	.cfi_def_cfa_offset 160
	.cfi_offset %rbx, -56
	.cfi_offset %r12, -48
	.cfi_offset %r13, -40
	.cfi_offset %r14, -32
	.cfi_offset %r15, -24
	.cfi_offset %rbp, -16
	movq	(%rdi), %r15
	cmpb	$1, (%r15)
	jne	.LBB95_120
	movl	$4294967295, %r11d
	cmpq	%r11, %rdx
	cmovbq	%rdx, %r11
	movb	$0, (%r15)
	movl	(%rsi), %r10d
	movl	4(%rsi), %ebx
	movq	8(%rsi), %r8
	cmpb	$0, 16(%r15)
	movl	24(%r15), %eax
	je	.LBB95_3
	cmpl	%eax, %r10d
	jne	.LBB95_4
	cmpl	56(%r15), %ebx
	jae	.LBB95_10
	movq	72(%r15), %rax
	movl	%ebx, %ecx
	shrl	$6, %ecx
	movq	(%rax,%rcx,8), %rax
	btq	%rbx, %rax
	jae	.LBB95_10
	leaq	48(%r15), %rax
	movq	(%rax), %r9
	movq	(%r9,%rbx,8), %r14
	testb	$1, %r14b
	jne	.LBB95_10
	leaq	(,%rbx,8), %rbp
	cmpq	%r8, 8(%r9,%rbp)
	jne	.LBB95_10
	movl	%r10d, 4(%rsp)
	xorl	%r10d, %r10d
	testq	%rdx, %rdx
	sete	%r10b
	leaq	(%r11,%r10), %rax
	addq	$31, %rax
	movq	%rax, %r12
	shrq	$3, %r12
	movl	%r14d, %r13d
	shrl	$2, %r13d
	cmpl	%r12d, %r13d
	jae	.LBB95_74
	testb	$2, %r14b
	jne	.LBB95_84
	leal	(%rbx,%r13), %ecx
	movq	(%r9,%rcx,8), %rcx
	testb	$1, %cl
	jne	.LBB95_85
.LBB95_84:
	xorl	%ecx, %ecx
.LBB95_85:
	movl	%ecx, %edx
	shrl	$2, %edx
	addl	%r13d, %edx
	cmpl	%r12d, %edx
	jae	.LBB95_86
	movq	%r10, 48(%rsp)
	movl	4(%rsp), %ecx
	movl	%ecx, 56(%rsp)
	movq	%rbx, %r13
	movl	%ebx, 60(%rsp)
	movq	%r8, 64(%rsp)
	movq	32(%r15), %rbx
	cmpq	$-3, %rbx
	ja	.LBB95_119
	cmpq	$134217735, %rax
	ja	.LBB95_118
	movl	%r12d, %eax
	orl	$32, %eax
	bsrl	%eax, %eax
	addl	$-5, %eax
	leal	-1(%r12), %r8d
	movl	%eax, %ecx
	shrl	%cl, %r8d
	shll	$5, %eax
	addl	%r8d, %eax
	movl	%eax, %edx
	shrl	$5, %edx
	movl	108(%r15,%rdx,4), %r10d
	movl	%r8d, %ecx
	shrl	%cl, %r10d
	andl	$-2, %r10d
	je	.LBB95_96
	rep		bsfl	%r10d, %ecx
	addq	%rax, %rcx
	jmp	.LBB95_98
.LBB95_3:
	cmpl	%eax, %r10d
	jne	.LBB95_4
	cmpl	56(%r15), %ebx
	jae	.LBB95_10
	movq	72(%r15), %rax
	movl	%ebx, %ecx
	shrl	$6, %ecx
	movq	(%rax,%rcx,8), %rax
	btq	%rbx, %rax
	jae	.LBB95_10
	leaq	48(%r15), %rax
	movq	(%rax), %r9
	movq	(%r9,%rbx,8), %r14
	testb	$1, %r14b
	jne	.LBB95_10
	leaq	(,%rbx,8), %rax
	cmpq	%r8, 8(%r9,%rax)
	jne	.LBB95_10
	movq	%rax, %rbp
	movl	%r10d, 4(%rsp)
	xorl	%r10d, %r10d
	testq	%rdx, %rdx
	sete	%r10b
	leaq	(%r11,%r10), %rax
	addq	$31, %rax
	movq	%rax, %r12
	shrq	$3, %r12
	movl	%r14d, %r13d
	shrl	$2, %r13d
	cmpl	%r12d, %r13d
	jae	.LBB95_12
	testb	$2, %r14b
	jne	.LBB95_24
	leal	(%rbx,%r13), %ecx
	movq	(%r9,%rcx,8), %rcx
	testb	$1, %cl
	jne	.LBB95_25
.LBB95_24:
	xorl	%ecx, %ecx
.LBB95_25:
	movl	%ecx, %edx
	shrl	$2, %edx
	addl	%r13d, %edx
	cmpl	%r12d, %edx
	jae	.LBB95_26
	movq	%r10, 48(%rsp)
	movl	4(%rsp), %ecx
	movl	%ecx, 56(%rsp)
	movq	%rbx, %r14
	movl	%ebx, 60(%rsp)
	movq	%r8, 64(%rsp)
	movq	32(%r15), %rbx
	cmpq	$-3, %rbx
	ja	.LBB95_119
	cmpq	$8388615, %rax
	jbe	.LBB95_39
.LBB95_118:
	movl	8(%r15), %eax
	movl	12(%r15), %ecx
	incl	%eax
	movl	$-1, %edx
	cmovnel	%eax, %edx
	movl	%edx, 8(%r15)
	cmpl	%ecx, %r11d
	cmoval	%r11d, %ecx
	movl	%ecx, 12(%r15)
	movb	$1, (%r15)
	movl	$1, %eax
	jmp	.LBB95_120
.LBB95_74:
	movq	32(%r15), %rax
	cmpq	$-1, %rax
	je	.LBB95_119
	movq	%rax, 72(%rsp)
	movq	%rbx, 24(%rsp)
	movq	%r10, 48(%rsp)
	movq	%r8, 40(%rsp)
	movq	16(%r9,%rbp), %rbx
	movq	%r11, 16(%r9,%rbp)
	cmpl	%ebx, %r11d
	jbe	.LBB95_80
	testb	$7, %bl
	movq	%rdi, 8(%rsp)
	je	.LBB95_78
	movl	%ebx, %ecx
	leaq	48(%r15), %rax
	movq	(%rax), %r8
	movq	%r8, 88(%rsp)
	addq	%rcx, %rbp
	addq	$24, %rbp
	andl	$7, %ecx
	andq	$-8, %rbp
	leaq	.Lstatic.0(%rip), %rax
	addq	%rcx, %rax
	movl	$8, %edx
	subq	%rcx, %rdx
	movq	(%r8,%rbp), %r8
	movq	%r8, 56(%rsp)
	leaq	(%rsp,%rcx), %rdi
	addq	$56, %rdi
	movq	%rsi, 16(%rsp)
	movq	%rax, %rsi
	movq	%r11, 32(%rsp)
	callq	tlsf_memory_cpy@PLT
	movq	32(%rsp), %r11
	movq	8(%rsp), %rdi
	movq	16(%rsp), %rsi
	movq	56(%rsp), %rax
	movq	88(%rsp), %rcx
	movq	%rax, (%rcx,%rbp)
.LBB95_78:
	movl	%ebx, %eax
	shrl	$3, %eax
	andl	$7, %ebx
	cmpl	$1, %ebx
	sbbl	$-1, %eax
	movl	%r11d, %edx
	shrl	$3, %edx
	movl	%r11d, %ecx
	andl	$7, %ecx
	cmpl	$1, %ecx
	sbbl	$-1, %edx
	subl	%eax, %edx
	je	.LBB95_80
	movq	24(%rsp), %rcx
	addl	%ecx, %eax
	addl	$3, %eax
	shlq	$3, %rax
	leaq	48(%r15), %rcx
	addq	(%rcx), %rax
	shlq	$3, %rdx
	movq	%rax, %rdi
	movq	%rsi, %rbp
	xorl	%esi, %esi
	movq	%r11, %rbx
	callq	tlsf_memory_set@PLT
	movq	%rbx, %r11
	movq	8(%rsp), %rdi
	movq	%rbp, %rsi
.LBB95_80:
	leal	4(%r12), %ecx
	movl	%r13d, %eax
	cmpl	%ecx, %r13d
	jb	.LBB95_21
	movq	%rdi, %rbx
	leaq	48(%r15), %rdi
	movq	%rsi, %rbp
	movq	24(%rsp), %rsi
	movq	%r14, %rdx
	movl	%r12d, %ecx
	movq	72(%rsp), %r8
	movq	%r11, %r14
	callq	"tlsf_heap::refitting::split_off::<=5>"
	jmp	.LBB95_20
.LBB95_10:
	movl	%r10d, %edi
	movl	%r10d, %esi
	jmp	.LBB95_5
.LBB95_12:
	movq	32(%r15), %rax
	cmpq	$-1, %rax
	je	.LBB95_119
	movq	%rax, 72(%rsp)
	movq	%rbx, 24(%rsp)
	movq	%r10, 48(%rsp)
	movq	%r8, 40(%rsp)
	movq	16(%r9,%rbp), %rbx
	movq	%r11, 16(%r9,%rbp)
	cmpl	%ebx, %r11d
	leaq	48(%r15), %r8
	jbe	.LBB95_18
	testb	$7, %bl
	movq	%rdi, 8(%rsp)
	je	.LBB95_16
	movl	%ebx, %ecx
	movq	(%r8), %r8
	movq	%r8, 88(%rsp)
	addq	%rcx, %rbp
	addq	$24, %rbp
	andl	$7, %ecx
	andq	$-8, %rbp
	leaq	.Lstatic.0(%rip), %rax
	addq	%rcx, %rax
	movl	$8, %edx
	subq	%rcx, %rdx
	movq	(%r8,%rbp), %r8
	movq	%r8, 56(%rsp)
	leaq	(%rsp,%rcx), %rdi
	addq	$56, %rdi
	movq	%rsi, 16(%rsp)
	movq	%rax, %rsi
	movq	%r11, 32(%rsp)
	callq	tlsf_memory_cpy@PLT
	movq	32(%rsp), %r11
	movq	8(%rsp), %rdi
	movq	16(%rsp), %rsi
	movq	56(%rsp), %rax
	movq	88(%rsp), %rcx
	movq	%rax, (%rcx,%rbp)
	leaq	48(%r15), %r8
.LBB95_16:
	movl	%ebx, %eax
	shrl	$3, %eax
	andl	$7, %ebx
	cmpl	$1, %ebx
	sbbl	$-1, %eax
	movl	%r11d, %edx
	shrl	$3, %edx
	movl	%r11d, %ecx
	andl	$7, %ecx
	cmpl	$1, %ecx
	sbbl	$-1, %edx
	subl	%eax, %edx
	je	.LBB95_18
	movq	24(%rsp), %rcx
	addl	%ecx, %eax
	addl	$3, %eax
	shlq	$3, %rax
	addq	(%r8), %rax
	shlq	$3, %rdx
	movq	%rax, %rdi
	movq	%rsi, %rbp
	xorl	%esi, %esi
	movq	%r11, %rbx
	callq	tlsf_memory_set@PLT
	movq	%rbx, %r11
	movq	8(%rsp), %rdi
	movq	%rbp, %rsi
	leaq	48(%r15), %r8
.LBB95_18:
	leal	4(%r12), %ecx
	movl	%r13d, %eax
	cmpl	%ecx, %r13d
	jb	.LBB95_21
	movq	%rdi, %rbx
	movq	%r8, %rdi
	movq	%rsi, %rbp
	movq	24(%rsp), %rsi
	movq	%r14, %rdx
	movl	%r12d, %ecx
	movq	72(%rsp), %r8
	movq	%r11, %r14
	callq	"tlsf_heap::refitting::split_off::<=4>"
.LBB95_20:
	movq	%r14, %r11
	movq	%rbx, %rdi
	movq	%rbp, %rsi
	movl	%r12d, %eax
.LBB95_21:
	subl	%r13d, %eax
	addl	%eax, 40(%r15)
	incq	32(%r15)
	movq	40(%rsp), %rcx
	movq	48(%rsp), %rax
	movq	24(%rsp), %r14
	jmp	.LBB95_64
.LBB95_86:
	movq	32(%r15), %r9
	cmpq	$-1, %r9
	je	.LBB95_119
	movq	%r10, 48(%rsp)
	movq	%r8, 40(%rsp)
	movq	%rdi, 8(%rsp)
	leaq	48(%r15), %rdi
	movq	%rsi, 16(%rsp)
	movq	%rbx, 24(%rsp)
	movl	%ebx, %esi
	movq	%r14, %rdx
	movl	%r12d, %r8d
	movq	%r11, %r12
	callq	"tlsf_heap::refitting::recut::<=5>"
	movq	%r12, %r11
	movq	8(%rsp), %rdi
	movq	16(%rsp), %rsi
	movl	%eax, %r14d
	leaq	48(%r15), %rax
	movq	(%rax), %rax
	movq	16(%rax,%rbp), %rbx
	movq	%r12, 16(%rax,%rbp)
	cmpl	%ebx, %r11d
	jbe	.LBB95_33
	testb	$7, %bl
	je	.LBB95_90
	movl	%ebx, %eax
	leaq	48(%r15), %rcx
	movq	(%rcx), %rcx
	movq	%rcx, 72(%rsp)
	addq	%rax, %rbp
	addq	$24, %rbp
	andl	$7, %eax
	andq	$-8, %rbp
	leaq	.Lstatic.0(%rip), %rsi
	addq	%rax, %rsi
	movl	$8, %edx
	subq	%rax, %rdx
	movq	(%rcx,%rbp), %rcx
	movq	%rcx, 56(%rsp)
	leaq	(%rsp,%rax), %rdi
	addq	$56, %rdi
	callq	tlsf_memory_cpy@PLT
	movq	%r12, %r11
	movq	8(%rsp), %rdi
	movq	16(%rsp), %rsi
	movq	56(%rsp), %rax
	movq	72(%rsp), %rcx
	movq	%rax, (%rcx,%rbp)
.LBB95_90:
	movl	%ebx, %eax
	shrl	$3, %eax
	andl	$7, %ebx
	cmpl	$1, %ebx
	sbbl	$-1, %eax
	movl	%r11d, %edx
	shrl	$3, %edx
	movl	%r11d, %ecx
	andl	$7, %ecx
	cmpl	$1, %ecx
	sbbl	$-1, %edx
	subl	%eax, %edx
	je	.LBB95_33
	movq	24(%rsp), %rcx
	leal	(%rcx,%rax), %edi
	addl	$3, %edi
	shlq	$3, %rdi
	leaq	48(%r15), %rax
	addq	(%rax), %rdi
	shlq	$3, %rdx
	xorl	%esi, %esi
	callq	tlsf_memory_set@PLT
	movq	%r12, %r11
	jmp	.LBB95_32
.LBB95_26:
	movq	32(%r15), %r9
	cmpq	$-1, %r9
	je	.LBB95_119
	movq	%r10, 48(%rsp)
	movq	%r8, 40(%rsp)
	movq	%rdi, 8(%rsp)
	leaq	48(%r15), %rdi
	movq	%rsi, 16(%rsp)
	movq	%rbx, 24(%rsp)
	movl	%ebx, %esi
	movq	%r14, %rdx
	movl	%r12d, %r8d
	movq	%rdi, %rbx
	movq	%r11, 32(%rsp)
	callq	"tlsf_heap::refitting::recut::<=4>"
	movq	32(%rsp), %r11
	movq	8(%rsp), %rdi
	movq	16(%rsp), %rsi
	movl	%eax, %r14d
	movq	(%rbx), %rax
	movq	16(%rax,%rbp), %rbx
	movq	%r11, 16(%rax,%rbp)
	cmpl	%ebx, %r11d
	jbe	.LBB95_33
	testb	$7, %bl
	je	.LBB95_30
	movl	%ebx, %eax
	leaq	48(%r15), %rcx
	movq	(%rcx), %rcx
	leaq	(%rax,%rbp), %r12
	addq	$24, %r12
	andl	$7, %eax
	andq	$-8, %r12
	leaq	.Lstatic.0(%rip), %rsi
	addq	%rax, %rsi
	movl	$8, %edx
	subq	%rax, %rdx
	movq	%rcx, %rbp
	movq	(%rcx,%r12), %rcx
	movq	%rcx, 56(%rsp)
	leaq	(%rsp,%rax), %rdi
	addq	$56, %rdi
	callq	tlsf_memory_cpy@PLT
	movq	32(%rsp), %r11
	movq	8(%rsp), %rdi
	movq	16(%rsp), %rsi
	movq	56(%rsp), %rax
	movq	%rax, (%rbp,%r12)
.LBB95_30:
	movl	%ebx, %eax
	shrl	$3, %eax
	andl	$7, %ebx
	cmpl	$1, %ebx
	sbbl	$-1, %eax
	movl	%r11d, %edx
	shrl	$3, %edx
	movl	%r11d, %ecx
	andl	$7, %ecx
	cmpl	$1, %ecx
	sbbl	$-1, %edx
	subl	%eax, %edx
	je	.LBB95_33
	movq	24(%rsp), %rcx
	leal	(%rcx,%rax), %edi
	addl	$3, %edi
	shlq	$3, %rdi
	leaq	48(%r15), %rax
	addq	(%rax), %rdi
	shlq	$3, %rdx
	xorl	%esi, %esi
	callq	tlsf_memory_set@PLT
	movq	32(%rsp), %r11
.LBB95_32:
	movq	8(%rsp), %rdi
	movq	16(%rsp), %rsi
.LBB95_33:
	subl	%r13d, %r14d
	addl	40(%r15), %r14d
	movl	%r14d, 40(%r15)
	cmpl	%r14d, 44(%r15)
	movq	48(%rsp), %rax
	jae	.LBB95_35
	movl	%r14d, 44(%r15)
.LBB95_35:
	incq	32(%r15)
	movq	40(%rsp), %rcx
	movq	24(%rsp), %r14
	jmp	.LBB95_64
.LBB95_119:
	movb	$1, (%r15)
	movl	$2, %eax
	jmp	.LBB95_120
.LBB95_4:
	movl	%r10d, %edi
	movl	%eax, %esi
.LBB95_5:
	callq	"tlsf_heap::refusal::Refusal::of_name"
	movl	%eax, %ecx
	movb	$1, (%r15)
	xorl	%eax, %eax
	cmpb	$3, %cl
	sete	%al
	addl	$3, %eax
	jmp	.LBB95_120
.LBB95_39:
	movl	%r12d, %eax
	orl	$16, %eax
	bsrl	%eax, %eax
	addl	$-4, %eax
	leal	-1(%r12), %r8d
	movl	%eax, %ecx
	shrl	%cl, %r8d
	shll	$4, %eax
	addl	%r8d, %eax
	movl	%eax, %edx
	shrl	$4, %edx
	movl	108(%r15,%rdx,4), %r10d
	andb	$15, %r8b
	movl	%r8d, %ecx
	shrl	%cl, %r10d
	andl	$-2, %r10d
	je	.LBB95_41
	rep		bsfl	%r10d, %ecx
	addq	%rax, %rcx
	jmp	.LBB95_43
.LBB95_96:
	movl	$-2, %eax
	movl	%edx, %ecx
	shll	%cl, %eax
	andl	104(%r15), %eax
	je	.LBB95_118
	rep		bsfl	%eax, %ecx
	movl	$32, %eax
	rep		bsfl	108(%r15,%rcx,4), %eax
	shll	$5, %ecx
	addl	%eax, %ecx
.LBB95_98:
	movl	192(%r15,%rcx,4), %r14d
	movq	16(%r9,%r14,8), %rax
	cmpl	$-1, %eax
	je	.LBB95_99
	movl	%eax, %edx
	movl	$-1, 20(%r9,%rdx,8)
	movl	%eax, 192(%r15,%rcx,4)
	movq	48(%r15), %r9
	jmp	.LBB95_102
.LBB95_99:
	movl	$-1, 192(%r15,%rcx,4)
	movq	%rcx, %rax
	shrq	$5, %rax
	movl	$-2, %edx
	roll	%cl, %edx
	movq	%rax, %rcx
	movl	$-2, %eax
	andl	%edx, 108(%r15,%rcx,4)
	jne	.LBB95_102
	roll	%cl, %eax
	andl	%eax, 104(%r15)
.LBB95_102:
	movq	(%r9,%r14,8), %rcx
	leal	(,%r12,4), %eax
	movl	%ecx, %edx
	subl	%eax, %edx
	cmpl	$15, %edx
	movq	%rbx, 40(%rsp)
	ja	.LBB95_104
	decq	%rcx
	movq	%rcx, (%r9,%r14,8)
	movq	%rbx, 8(%r9,%r14,8)
	movq	%r11, 16(%r9,%r14,8)
	shrl	$2, %ecx
	jmp	.LBB95_110
.LBB95_104:
	movl	%edx, %r8d
	shrl	$2, %edx
	movq	%r14, %r10
	shlq	$32, %r10
	orq	%r8, %r10
	leal	(%r14,%r12), %eax
	subq	%r8, %rcx
	movq	%rcx, (%r9,%r14,8)
	movq	%rbx, 8(%r9,%r14,8)
	movq	%rbx, %rcx
	movq	%r11, %rbx
	movq	%r11, 16(%r9,%r14,8)
	movq	%r10, (%r9,%rax,8)
	movq	%rcx, 8(%r9,%rax,8)
	movq	72(%r15), %r9
	movl	%eax, %r10d
	shrl	$6, %r10d
	movl	$1, %r11d
	movl	%eax, %ecx
	shlq	%cl, %r11
	orq	%r11, (%r9,%r10,8)
	testb	$2, %r8b
	jne	.LBB95_106
	leal	(%rdx,%rax), %ecx
	leaq	48(%r15), %r8
	movq	(%r8), %r8
	movl	%eax, 4(%r8,%rcx,8)
.LBB95_106:
	movl	%edx, %ecx
	orl	$32, %ecx
	bsrl	%ecx, %ecx
	addl	$-5, %ecx
	shrl	%cl, %edx
	shll	$5, %ecx
	addl	%edx, %ecx
	movslq	192(%r15,%rcx,4), %r8
	movl	%eax, 192(%r15,%rcx,4)
	movq	48(%r15), %r9
	testq	%r8, %r8
	js	.LBB95_107
	movabsq	$-4294967296, %rcx
	orq	%r8, %rcx
	movq	%rcx, 16(%r9,%rax,8)
	movl	%eax, 20(%r9,%r8,8)
	jmp	.LBB95_109
.LBB95_41:
	movl	$-2, %eax
	movl	%edx, %ecx
	shll	%cl, %eax
	andl	104(%r15), %eax
	je	.LBB95_118
	rep		bsfl	%eax, %ecx
	movl	$32, %eax
	rep		bsfl	108(%r15,%rcx,4), %eax
	shll	$4, %ecx
	addl	%eax, %ecx
.LBB95_43:
	movl	192(%r15,%rcx,4), %r13d
	movq	16(%r9,%r13,8), %rax
	cmpl	$-1, %eax
	je	.LBB95_44
	movl	%eax, %edx
	movl	$-1, 20(%r9,%rdx,8)
	movl	%eax, 192(%r15,%rcx,4)
	movq	48(%r15), %r9
	jmp	.LBB95_47
.LBB95_44:
	movl	$-1, 192(%r15,%rcx,4)
	movq	%rcx, %rax
	shrq	$4, %rax
	andb	$15, %cl
	movl	$-2, %edx
	roll	%cl, %edx
	movq	%rax, %rcx
	movl	$-2, %eax
	andl	%edx, 108(%r15,%rcx,4)
	jne	.LBB95_47
	roll	%cl, %eax
	andl	%eax, 104(%r15)
.LBB95_47:
	movq	(%r9,%r13,8), %rcx
	leal	(,%r12,4), %eax
	movl	%ecx, %edx
	subl	%eax, %edx
	cmpl	$15, %edx
	movq	%rbx, 40(%rsp)
	ja	.LBB95_49
	decq	%rcx
	movq	%rcx, (%r9,%r13,8)
	movq	%rbx, 8(%r9,%r13,8)
	movq	%r11, 16(%r9,%r13,8)
	shrl	$2, %ecx
	leaq	48(%r15), %rbp
	jmp	.LBB95_55
.LBB95_49:
	movl	%edx, %r8d
	shrl	$2, %edx
	movq	%r13, %r10
	shlq	$32, %r10
	orq	%r8, %r10
	leal	(%r12,%r13), %eax
	subq	%r8, %rcx
	movq	%rcx, (%r9,%r13,8)
	movq	%rbx, 8(%r9,%r13,8)
	movq	%rbx, %rcx
	movq	%r11, %rbx
	movq	%r11, 16(%r9,%r13,8)
	movq	%r10, (%r9,%rax,8)
	movq	%rcx, 8(%r9,%rax,8)
	movq	72(%r15), %r9
	movl	%eax, %r10d
	shrl	$6, %r10d
	movl	$1, %r11d
	movl	%eax, %ecx
	shlq	%cl, %r11
	orq	%r11, (%r9,%r10,8)
	testb	$2, %r8b
	leaq	48(%r15), %rbp
	jne	.LBB95_51
	leal	(%rdx,%rax), %ecx
	movq	(%rbp), %r8
	movl	%eax, 4(%r8,%rcx,8)
.LBB95_51:
	movl	%edx, %ecx
	orl	$16, %ecx
	bsrl	%ecx, %ecx
	addl	$-4, %ecx
	shrl	%cl, %edx
	shll	$4, %ecx
	addl	%edx, %ecx
	movslq	192(%r15,%rcx,4), %r8
	movl	%eax, 192(%r15,%rcx,4)
	movq	48(%r15), %r9
	testq	%r8, %r8
	js	.LBB95_52
	movabsq	$-4294967296, %rcx
	orq	%r8, %rcx
	movq	%rcx, 16(%r9,%rax,8)
	movl	%eax, 20(%r9,%r8,8)
	jmp	.LBB95_54
.LBB95_107:
	movq	$-1, 16(%r9,%rax,8)
	shrl	$5, %ecx
	movl	$1, %eax
	shll	%cl, %eax
	movl	108(%r15,%rcx,4), %r8d
	orl	%eax, 104(%r15)
	btsl	%edx, %r8d
	movl	%r8d, 108(%r15,%rcx,4)
.LBB95_109:
	movl	%r12d, %ecx
	movq	%rbx, %r11
.LBB95_110:
	movq	%r11, 32(%rsp)
	movq	%rdi, 8(%rsp)
	movq	%rsi, 16(%rsp)
	addl	40(%r15), %ecx
	movl	%ecx, 40(%r15)
	cmpl	%ecx, 44(%r15)
	jae	.LBB95_112
	movl	%ecx, 44(%r15)
.LBB95_112:
	incq	32(%r15)
	movl	24(%r15), %eax
	movl	%eax, 4(%rsp)
	addl	$-3, %r12d
	leaq	48(%r15), %rbp
	je	.LBB95_114
	leal	3(%r14), %edi
	movl	%r12d, %edx
	shlq	$3, %rdi
	addq	(%rbp), %rdi
	shlq	$3, %rdx
	xorl	%esi, %esi
	callq	tlsf_memory_set@PLT
.LBB95_114:
	movq	(%rbp), %rdi
	movl	16(%rdi,%r13,8), %r12d
	movl	16(%rdi,%r14,8), %eax
	cmpl	%r12d, %eax
	cmovbl	%eax, %r12d
	leaq	3(%r13), %rsi
	leaq	3(%r14), %r13
	movl	%r12d, %ebx
	shrl	$3, %ebx
	andl	$7, %r12d
	je	.LBB95_115
	leaq	(%rbx,%rsi), %rax
	movq	(%rdi,%rax,8), %rax
	movq	%rax, 96(%rsp)
	movq	%r13, %rdx
	movq	%rbx, %rcx
	callq	"tlsf_words::cells::copy_run"
	addq	%r13, %rbx
	movq	(%rbp), %r13
	movq	(%r13,%rbx,8), %rax
	movq	%rax, 80(%rsp)
	leaq	80(%rsp), %rdi
	leaq	96(%rsp), %rsi
	movq	%r12, %rdx
	callq	tlsf_memory_cpy@PLT
	movq	80(%rsp), %rax
	movq	%rax, (%r13,%rbx,8)
	jmp	.LBB95_117
.LBB95_115:
	movq	%r13, %rdx
	movq	%rbx, %rcx
	callq	"tlsf_words::cells::copy_run"
.LBB95_117:
	leaq	56(%rsp), %rsi
	leaq	24(%r15), %rdi
	callq	"tlsf_heap::heap::Heap::release_live::<=5>"
	jmp	.LBB95_63
.LBB95_52:
	movq	$-1, 16(%r9,%rax,8)
	shrl	$4, %ecx
	movl	$1, %eax
	shll	%cl, %eax
	movl	108(%r15,%rcx,4), %r8d
	orl	%eax, 104(%r15)
	andb	$15, %dl
	btsl	%edx, %r8d
	movl	%r8d, 108(%r15,%rcx,4)
.LBB95_54:
	movl	%r12d, %ecx
	movq	%rbx, %r11
.LBB95_55:
	movq	%r11, 32(%rsp)
	movq	%rdi, 8(%rsp)
	movq	%rsi, 16(%rsp)
	addl	40(%r15), %ecx
	movl	%ecx, 40(%r15)
	cmpl	%ecx, 44(%r15)
	jae	.LBB95_57
	movl	%ecx, 44(%r15)
.LBB95_57:
	incq	32(%r15)
	movl	24(%r15), %eax
	movl	%eax, 4(%rsp)
	addl	$-3, %r12d
	je	.LBB95_59
	leal	3(%r13), %edi
	movl	%r12d, %edx
	shlq	$3, %rdi
	addq	(%rbp), %rdi
	shlq	$3, %rdx
	xorl	%esi, %esi
	callq	tlsf_memory_set@PLT
.LBB95_59:
	movq	(%rbp), %rdi
	movl	16(%rdi,%r14,8), %r12d
	movl	16(%rdi,%r13,8), %eax
	cmpl	%r12d, %eax
	cmovbl	%eax, %r12d
	leaq	3(%r14), %rsi
	leaq	3(%r13), %r14
	movl	%r12d, %ebx
	shrl	$3, %ebx
	andl	$7, %r12d
	je	.LBB95_60
	leaq	(%rbx,%rsi), %rax
	movq	(%rdi,%rax,8), %rax
	movq	%rax, 96(%rsp)
	movq	%r14, %rdx
	movq	%rbx, %rcx
	callq	"tlsf_words::cells::copy_run"
	addq	%r14, %rbx
	movq	(%rbp), %r14
	movq	(%r14,%rbx,8), %rax
	movq	%rax, 80(%rsp)
	leaq	80(%rsp), %rdi
	leaq	96(%rsp), %rsi
	movq	%r12, %rdx
	callq	tlsf_memory_cpy@PLT
	movq	80(%rsp), %rax
	movq	%rax, (%r14,%rbx,8)
	jmp	.LBB95_62
.LBB95_60:
	movq	%r14, %rdx
	movq	%rbx, %rcx
	callq	"tlsf_words::cells::copy_run"
.LBB95_62:
	leaq	56(%rsp), %rsi
	leaq	24(%r15), %rdi
	callq	"tlsf_heap::heap::Heap::release_live::<=4>"
	movl	%r13d, %r14d
.LBB95_63:
	movq	16(%rsp), %rsi
	movq	8(%rsp), %rdi
	movq	32(%rsp), %r11
	movq	40(%rsp), %rcx
	movq	48(%rsp), %rax
.LBB95_64:
	movl	4(%rsp), %ebp
	movb	$1, (%r15)
	addl	%r11d, %eax
	decl	%eax
	testb	$8, %al
	je	.LBB95_67
	cmpb	$0, 28(%rdi)
	jne	.LBB95_67
	movb	$1, 28(%rdi)
.LBB95_67:
	movl	%ebp, (%rsi)
	movl	%r14d, 4(%rsi)
	movq	%rcx, 8(%rsi)
	xorl	%eax, %eax
.LBB95_120:
	addq	$104, %rsp
	.cfi_def_cfa_offset 56
	popq	%rbx
	.cfi_def_cfa_offset 48
	popq	%r12
	.cfi_def_cfa_offset 40
	popq	%r13
	.cfi_def_cfa_offset 32
	popq	%r14
	.cfi_def_cfa_offset 24
	popq	%r15
	.cfi_def_cfa_offset 16
	popq	%rbp
	.cfi_def_cfa_offset 8
	.cfi_restore %rbx
	.cfi_restore %r12
	.cfi_restore %r13
	.cfi_restore %r14
	.cfi_restore %r15
	.cfi_restore %rbp
.LBB95_121:
	retq
.Lfunc_end95:
	.size	tlsf_reallocate, .Lfunc_end95-tlsf_reallocate
	.cfi_endproc
	.section	.text.tlsf_release,"ax",@progbits
	.globl	tlsf_release
	.p2align	4
	.type	tlsf_release,@function
tlsf_release:
	.cfi_startproc
	movq	%rsi, %rcx
	shrq	$32, %rcx
	jmp	"tlsf_c::heap_calls::release_named"
.Lfunc_end96:
	.size	tlsf_release, .Lfunc_end96-tlsf_release
	.cfi_endproc
	.section	.text.tlsf_release_all,"ax",@progbits
	.globl	tlsf_release_all
	.p2align	4
	.type	tlsf_release_all,@function
tlsf_release_all:
	.cfi_startproc
	pushq	%r15
	.cfi_def_cfa_offset 16
	pushq	%r14
	.cfi_def_cfa_offset 24
	pushq	%r12
	.cfi_def_cfa_offset 32
	pushq	%rbx
	.cfi_def_cfa_offset 40
	pushq	%rax
	.cfi_def_cfa_offset 48
	.cfi_offset %rbx, -40
	.cfi_offset %r12, -32
	.cfi_offset %r14, -24
	.cfi_offset %r15, -16
	xorl	%eax, %eax
	testq	%rsi, %rsi
	sete	%cl
	cmpb	$0, 8(%rdi)
	je	.LBB97_7
	movq	(%rdi), %r14
	cmpb	$0, (%r14)
	je	.LBB97_7
	movb	%cl, %al
	shll	$12, %eax
	movb	$0, (%r14)
	cmpb	$0, 16(%r14)
	je	.LBB97_5
	testq	%rdx, %rdx
	je	.LBB97_44
	leaq	48(%r14), %rbx
	leaq	(%rax,%rsi), %r15
	addq	$8, %r15
	jmp	.LBB97_11
.LBB97_5:
	testq	%rdx, %rdx
	je	.LBB97_44
	leaq	48(%r14), %rbx
	leaq	(%rax,%rsi), %r15
	addq	$8, %r15
	jmp	.LBB97_29
.LBB97_7:
	xorl	%edi, %edi
	addq	$8, %rsp
	.cfi_def_cfa_offset 40
	popq	%rbx
	.cfi_def_cfa_offset 32
	popq	%r12
	.cfi_def_cfa_offset 24
	popq	%r14
	.cfi_def_cfa_offset 16
	popq	%r15
	.cfi_def_cfa_offset 8
	jmp	"tlsf_c::call_fault::CallFault::refusal"
.LBB97_8:
	.cfi_def_cfa_offset 48
	leaq	1(%rcx), %rax
	movq	%rax, 32(%r14)
	movq	%rbx, %rdi
	movq	%rdx, %r12
	movq	%r9, %rdx
	callq	"tlsf_heap::fitting::merge_next::<=5>"
.LBB97_9:
	movq	%r12, %rdx
	.p2align	4
.LBB97_10:
	addq	$16, %r15
	decq	%rdx
	je	.LBB97_44
.LBB97_11:
	movl	-8(%r15), %eax
	cmpl	24(%r14), %eax
	jne	.LBB97_10
	movl	-4(%r15), %r8d
	cmpl	56(%r14), %r8d
	jae	.LBB97_10
	movq	72(%r14), %rax
	movl	%r8d, %ecx
	shrl	$6, %ecx
	movq	(%rax,%rcx,8), %rax
	btq	%r8, %rax
	jae	.LBB97_10
	movq	(%rbx), %r10
	movq	(%r10,%r8,8), %r9
	testb	$1, %r9b
	jne	.LBB97_10
	movq	(%r15), %rax
	cmpq	%rax, 8(%r10,%r8,8)
	jne	.LBB97_10
	movq	32(%r14), %rcx
	cmpq	$-1, %rcx
	je	.LBB97_10
	movl	%r9d, %edi
	shrl	$2, %edi
	subl	%edi, 40(%r14)
	testb	$2, %r9b
	jne	.LBB97_19
	leal	(%rdi,%r8), %eax
	movq	(%r10,%rax,8), %rsi
	testl	%r8d, %r8d
	jne	.LBB97_20
	jmp	.LBB97_21
.LBB97_19:
	xorl	%esi, %esi
	testl	%r8d, %r8d
	je	.LBB97_21
.LBB97_20:
	movq	%r9, %rax
	shrq	$32, %rax
	movq	(%r10,%rax,8), %rax
	testb	$1, %al
	jne	.LBB97_24
.LBB97_21:
	testb	$1, %sil
	jne	.LBB97_8
	orq	$1, %r9
	movq	%r9, (%r10,%r8,8)
	movq	%rcx, 8(%r10,%r8,8)
	incq	32(%r14)
	movl	%edi, %eax
	orl	$32, %eax
	bsrl	%eax, %ecx
	addl	$-5, %ecx
	shrl	%cl, %edi
	shll	$5, %ecx
	addl	%edi, %ecx
	movslq	192(%r14,%rcx,4), %rax
	movl	%r8d, 192(%r14,%rcx,4)
	movq	48(%r14), %rsi
	testq	%rax, %rax
	js	.LBB97_25
	movabsq	$-4294967296, %rcx
	orq	%rax, %rcx
	movq	%rcx, 16(%rsi,%r8,8)
	movl	%r8d, 20(%rsi,%rax,8)
	jmp	.LBB97_10
.LBB97_24:
	leaq	1(%rcx), %rdi
	movq	%rdi, 32(%r14)
	movq	%rbx, %rdi
	movq	%rdx, %r12
	movq	%rax, %rdx
	callq	"tlsf_heap::fitting::merge_before::<=5>"
	jmp	.LBB97_9
.LBB97_25:
	movq	$-1, 16(%rsi,%r8,8)
	shrl	$5, %ecx
	movl	$1, %eax
	shll	%cl, %eax
	movl	108(%r14,%rcx,4), %esi
	orl	%eax, 104(%r14)
	btsl	%edi, %esi
	movl	%esi, 108(%r14,%rcx,4)
	jmp	.LBB97_10
.LBB97_26:
	leaq	1(%rcx), %rax
	movq	%rax, 32(%r14)
	movq	%rbx, %rdi
	movq	%rdx, %r12
	movq	%r9, %rdx
	callq	"tlsf_heap::fitting::merge_next::<=4>"
.LBB97_27:
	movq	%r12, %rdx
	.p2align	4
.LBB97_28:
	addq	$16, %r15
	decq	%rdx
	je	.LBB97_44
.LBB97_29:
	movl	-8(%r15), %eax
	cmpl	24(%r14), %eax
	jne	.LBB97_28
	movl	-4(%r15), %r8d
	cmpl	56(%r14), %r8d
	jae	.LBB97_28
	movq	72(%r14), %rax
	movl	%r8d, %ecx
	shrl	$6, %ecx
	movq	(%rax,%rcx,8), %rax
	btq	%r8, %rax
	jae	.LBB97_28
	movq	(%rbx), %r10
	movq	(%r10,%r8,8), %r9
	testb	$1, %r9b
	jne	.LBB97_28
	movq	(%r15), %rax
	cmpq	%rax, 8(%r10,%r8,8)
	jne	.LBB97_28
	movq	32(%r14), %rcx
	cmpq	$-1, %rcx
	je	.LBB97_28
	movl	%r9d, %edi
	shrl	$2, %edi
	subl	%edi, 40(%r14)
	testb	$2, %r9b
	jne	.LBB97_37
	leal	(%rdi,%r8), %eax
	movq	(%r10,%rax,8), %rsi
	testl	%r8d, %r8d
	jne	.LBB97_38
	jmp	.LBB97_39
.LBB97_37:
	xorl	%esi, %esi
	testl	%r8d, %r8d
	je	.LBB97_39
.LBB97_38:
	movq	%r9, %rax
	shrq	$32, %rax
	movq	(%r10,%rax,8), %rax
	testb	$1, %al
	jne	.LBB97_42
.LBB97_39:
	testb	$1, %sil
	jne	.LBB97_26
	orq	$1, %r9
	movq	%r9, (%r10,%r8,8)
	movq	%rcx, 8(%r10,%r8,8)
	incq	32(%r14)
	movl	%edi, %eax
	orl	$16, %eax
	bsrl	%eax, %ecx
	addl	$-4, %ecx
	shrl	%cl, %edi
	shll	$4, %ecx
	addl	%edi, %ecx
	movslq	192(%r14,%rcx,4), %rax
	movl	%r8d, 192(%r14,%rcx,4)
	movq	48(%r14), %rsi
	testq	%rax, %rax
	js	.LBB97_43
	movabsq	$-4294967296, %rcx
	orq	%rax, %rcx
	movq	%rcx, 16(%rsi,%r8,8)
	movl	%r8d, 20(%rsi,%rax,8)
	jmp	.LBB97_28
.LBB97_42:
	leaq	1(%rcx), %rdi
	movq	%rdi, 32(%r14)
	movq	%rbx, %rdi
	movq	%rdx, %r12
	movq	%rax, %rdx
	callq	"tlsf_heap::fitting::merge_before::<=4>"
	jmp	.LBB97_27
.LBB97_43:
	movq	$-1, 16(%rsi,%r8,8)
	shrl	$4, %ecx
	movl	$1, %eax
	shll	%cl, %eax
	movl	108(%r14,%rcx,4), %esi
	orl	%eax, 104(%r14)
	andb	$15, %dil
	btsl	%edi, %esi
	movl	%esi, 108(%r14,%rcx,4)
	jmp	.LBB97_28
.LBB97_44:
	movb	$1, (%r14)
	xorl	%eax, %eax
	addq	$8, %rsp
	.cfi_def_cfa_offset 40
	popq	%rbx
	.cfi_def_cfa_offset 32
	popq	%r12
	.cfi_def_cfa_offset 24
	popq	%r14
	.cfi_def_cfa_offset 16
	popq	%r15
	.cfi_def_cfa_offset 8
	retq
.Lfunc_end97:
	.size	tlsf_release_all, .Lfunc_end97-tlsf_release_all
	.cfi_endproc
	.section	.text.tlsf_release_place,"ax",@progbits
	.globl	tlsf_release_place
	.p2align	4
	.type	tlsf_release_place,@function
tlsf_release_place:
	.cfi_startproc
	pushq	%rbx
	.cfi_def_cfa_offset 16
	.cfi_offset %rbx, -16
	cmpb	$0, 8(%rdi)
	je	.LBB98_22
	movq	(%rdi), %rbx
	cmpb	$0, (%rbx)
	je	.LBB98_22
	movl	%esi, %r8d
	movb	$0, (%rbx)
	leaq	48(%rbx), %rdi
	cmpb	$0, 16(%rbx)
	movl	56(%rbx), %eax
	je	.LBB98_9
	cmpl	%eax, %r8d
	jae	.LBB98_16
	movq	72(%rbx), %rax
	movl	%r8d, %ecx
	shrl	$6, %ecx
	movq	(%rax,%rcx,8), %rax
	btq	%r8, %rax
	jae	.LBB98_16
	movq	(%rdi), %r11
	movl	%r8d, %eax
	movq	(%r11,%rax,8), %r9
	testb	$1, %r9b
	jne	.LBB98_16
	movq	32(%rbx), %rcx
	cmpq	$-1, %rcx
	je	.LBB98_23
	movl	%r9d, %r10d
	shrl	$2, %r10d
	subl	%r10d, 40(%rbx)
	testb	$2, %r9b
	jne	.LBB98_17
	leal	(%r10,%r8), %edx
	movq	(%r11,%rdx,8), %rsi
	testl	%r8d, %r8d
	jne	.LBB98_18
	jmp	.LBB98_19
.LBB98_9:
	cmpl	%eax, %r8d
	jae	.LBB98_16
	movq	72(%rbx), %rax
	movl	%r8d, %ecx
	shrl	$6, %ecx
	movq	(%rax,%rcx,8), %rax
	btq	%r8, %rax
	jae	.LBB98_16
	movq	(%rdi), %r11
	movl	%r8d, %eax
	movq	(%r11,%rax,8), %r9
	testb	$1, %r9b
	jne	.LBB98_16
	movq	32(%rbx), %rcx
	cmpq	$-1, %rcx
	je	.LBB98_23
	movl	%r9d, %r10d
	shrl	$2, %r10d
	subl	%r10d, 40(%rbx)
	testb	$2, %r9b
	jne	.LBB98_26
	leal	(%r10,%r8), %edx
	movq	(%r11,%rdx,8), %rsi
	testl	%r8d, %r8d
	jne	.LBB98_27
	jmp	.LBB98_28
.LBB98_23:
	movl	$2, %eax
	movb	$1, (%rbx)
	popq	%rbx
	.cfi_def_cfa_offset 8
	retq
.LBB98_16:
	.cfi_def_cfa_offset 16
	movl	24(%rbx), %edi
	movl	%edi, %esi
	callq	"tlsf_heap::refusal::Refusal::of_name"
	movl	%eax, %ecx
	xorl	%eax, %eax
	cmpb	$3, %cl
	sete	%al
	addl	$3, %eax
	movb	$1, (%rbx)
	popq	%rbx
	.cfi_def_cfa_offset 8
	retq
.LBB98_17:
	.cfi_def_cfa_offset 16
	xorl	%esi, %esi
	testl	%r8d, %r8d
	je	.LBB98_19
.LBB98_18:
	movq	%r9, %rdx
	shrq	$32, %rdx
	movq	(%r11,%rdx,8), %rdx
	testb	$1, %dl
	jne	.LBB98_25
.LBB98_19:
	testb	$1, %sil
	jne	.LBB98_24
	orq	$1, %r9
	movq	%r9, (%r11,%rax,8)
	movq	%rcx, 8(%r11,%rax,8)
	incq	32(%rbx)
	movl	%r10d, %ecx
	orl	$32, %ecx
	bsrl	%ecx, %ecx
	addl	$-5, %ecx
	shrl	%cl, %r10d
	shll	$5, %ecx
	addl	%r10d, %ecx
	movslq	192(%rbx,%rcx,4), %rdx
	movl	%r8d, 192(%rbx,%rcx,4)
	movq	48(%rbx), %rsi
	testq	%rdx, %rdx
	jns	.LBB98_30
	movq	$-1, 16(%rsi,%rax,8)
	shrl	$5, %ecx
	movl	$1, %eax
	shll	%cl, %eax
	movl	108(%rbx,%rcx,4), %edx
	orl	%eax, 104(%rbx)
	jmp	.LBB98_34
.LBB98_22:
	xorl	%edi, %edi
	popq	%rbx
	.cfi_def_cfa_offset 8
	jmp	"tlsf_c::call_fault::CallFault::refusal"
.LBB98_24:
	.cfi_def_cfa_offset 16
	leaq	1(%rcx), %rax
	movq	%rax, 32(%rbx)
	movq	%r9, %rdx
	callq	"tlsf_heap::fitting::merge_next::<=5>"
	xorl	%eax, %eax
	movb	$1, (%rbx)
	popq	%rbx
	.cfi_def_cfa_offset 8
	retq
.LBB98_25:
	.cfi_def_cfa_offset 16
	leaq	1(%rcx), %rax
	movq	%rax, 32(%rbx)
	callq	"tlsf_heap::fitting::merge_before::<=5>"
	xorl	%eax, %eax
	movb	$1, (%rbx)
	popq	%rbx
	.cfi_def_cfa_offset 8
	retq
.LBB98_26:
	.cfi_def_cfa_offset 16
	xorl	%esi, %esi
	testl	%r8d, %r8d
	je	.LBB98_28
.LBB98_27:
	movq	%r9, %rdx
	shrq	$32, %rdx
	movq	(%r11,%rdx,8), %rdx
	testb	$1, %dl
	jne	.LBB98_32
.LBB98_28:
	testb	$1, %sil
	jne	.LBB98_31
	orq	$1, %r9
	movq	%r9, (%r11,%rax,8)
	movq	%rcx, 8(%r11,%rax,8)
	incq	32(%rbx)
	movl	%r10d, %ecx
	orl	$16, %ecx
	bsrl	%ecx, %ecx
	addl	$-4, %ecx
	shrl	%cl, %r10d
	shll	$4, %ecx
	addl	%r10d, %ecx
	movslq	192(%rbx,%rcx,4), %rdx
	movl	%r8d, 192(%rbx,%rcx,4)
	movq	48(%rbx), %rsi
	testq	%rdx, %rdx
	js	.LBB98_33
.LBB98_30:
	movabsq	$-4294967296, %rcx
	orq	%rdx, %rcx
	movq	%rcx, 16(%rsi,%rax,8)
	movl	%eax, 20(%rsi,%rdx,8)
	xorl	%eax, %eax
	movb	$1, (%rbx)
	popq	%rbx
	.cfi_def_cfa_offset 8
	retq
.LBB98_31:
	.cfi_def_cfa_offset 16
	leaq	1(%rcx), %rax
	movq	%rax, 32(%rbx)
	movq	%r9, %rdx
	callq	"tlsf_heap::fitting::merge_next::<=4>"
	xorl	%eax, %eax
	movb	$1, (%rbx)
	popq	%rbx
	.cfi_def_cfa_offset 8
	retq
.LBB98_32:
	.cfi_def_cfa_offset 16
	leaq	1(%rcx), %rax
	movq	%rax, 32(%rbx)
	callq	"tlsf_heap::fitting::merge_before::<=4>"
	xorl	%eax, %eax
	movb	$1, (%rbx)
	popq	%rbx
	.cfi_def_cfa_offset 8
	retq
.LBB98_33:
	.cfi_def_cfa_offset 16
	movq	$-1, 16(%rsi,%rax,8)
	shrl	$4, %ecx
	movl	$1, %eax
	shll	%cl, %eax
	movl	108(%rbx,%rcx,4), %edx
	orl	%eax, 104(%rbx)
	andb	$15, %r10b
.LBB98_34:
	btsl	%r10d, %edx
	movl	%edx, 108(%rbx,%rcx,4)
	xorl	%eax, %eax
	movb	$1, (%rbx)
	popq	%rbx
	.cfi_def_cfa_offset 8
	retq
.Lfunc_end98:
	.size	tlsf_release_place, .Lfunc_end98-tlsf_release_place
	.cfi_endproc
	.section	.text.tlsf_report,"ax",@progbits
	.globl	tlsf_report
	.p2align	4
	.type	tlsf_report,@function
tlsf_report:
	.cfi_startproc
	movl	$32, %eax
	cmpb	$0, 8(%rdi)
	je	.LBB99_30
	movq	(%rdi), %rdi
	cmpb	$1, (%rdi)
	jne	.LBB99_30
	pushq	%rbp
	.cfi_def_cfa_offset 16
	pushq	%r15
	.cfi_def_cfa_offset 24
	pushq	%r14
	.cfi_def_cfa_offset 32
	pushq	%r13
	.cfi_def_cfa_offset 40
	pushq	%r12
	.cfi_def_cfa_offset 48
	pushq	%rbx
	.cfi_def_cfa_offset 56
	.cfi_offset %rbx, -56
	.cfi_offset %r12, -48
	.cfi_offset %r13, -40
	.cfi_offset %r14, -32
	.cfi_offset %r15, -24
	.cfi_offset %rbp, -16
	movb	$0, (%rdi)
	cmpb	$0, 16(%rdi)
	movq	32(%rdi), %r8
	movl	56(%rdi), %eax
	je	.LBB99_14
	testl	%eax, %eax
	je	.LBB99_26
	movq	48(%rdi), %rcx
	xorl	%edx, %edx
	movq	%r8, %r14
	xorl	%r9d, %r9d
	xorl	%r15d, %r15d
	xorl	%r10d, %r10d
	xorl	%r11d, %r11d
	xorl	%ebx, %ebx
	xorl	%ebp, %ebp
	jmp	.LBB99_6
	.p2align	4
.LBB99_5:
	incl	%ebp
	addl	%edx, %ebx
	addl	16(%rcx,%r12,8), %r11d
	addl	%r12d, %edx
	cmpl	%eax, %edx
	jae	.LBB99_8
.LBB99_6:
	movl	%edx, %r12d
	movq	(%rcx,%r12,8), %r13
	movl	%r13d, %edx
	shrl	$2, %edx
	testb	$1, %r13b
	je	.LBB99_5
	incl	%r10d
	addl	%edx, %r15d
	cmpl	%r9d, %edx
	cmoval	%edx, %r9d
	movq	8(%rcx,%r12,8), %r13
	cmpq	%r14, %r13
	cmovbq	%r13, %r14
	addl	%r12d, %edx
	cmpl	%eax, %edx
	jb	.LBB99_6
.LBB99_8:
	xorl	%edx, %edx
	movl	$0, %ecx
	testl	%r9d, %r9d
	je	.LBB99_12
	movl	%r9d, %eax
	orl	$32, %eax
	bsrl	%eax, %ecx
	addl	$-5, %ecx
	movl	%r9d, %r12d
	shrl	%cl, %r12d
	shll	$5, %ecx
	addl	%r12d, %ecx
	movl	%ecx, %eax
	shrl	$5, %eax
	je	.LBB99_11
	movl	$16, %r13d
	movl	%eax, %ecx
	shll	%cl, %r13d
	andl	$31, %r12d
	decb	%al
	movl	%eax, %ecx
	shll	%cl, %r12d
	addl	%r13d, %r12d
	movl	%r12d, %ecx
.LBB99_11:
	leal	-24(,%rcx,8), %ecx
.LBB99_12:
	testl	%r15d, %r15d
	je	.LBB99_31
.LBB99_24:
	movl	%r9d, %eax
	movl	%r15d, %r12d
	imulq	$1000, %rax, %rax
	movabsq	$4393751543808, %rdx
	testq	%rdx, %rax
	je	.LBB99_27
	xorl	%edx, %edx
	divq	%r12
	jmp	.LBB99_28
.LBB99_14:
	testl	%eax, %eax
	je	.LBB99_26
	movq	48(%rdi), %rcx
	xorl	%edx, %edx
	movq	%r8, %r14
	xorl	%r9d, %r9d
	xorl	%r15d, %r15d
	xorl	%r10d, %r10d
	xorl	%r11d, %r11d
	xorl	%ebx, %ebx
	xorl	%ebp, %ebp
	jmp	.LBB99_17
	.p2align	4
.LBB99_16:
	incl	%ebp
	addl	%edx, %ebx
	addl	16(%rcx,%r12,8), %r11d
	addl	%r12d, %edx
	cmpl	%eax, %edx
	jae	.LBB99_19
.LBB99_17:
	movl	%edx, %r12d
	movq	(%rcx,%r12,8), %r13
	movl	%r13d, %edx
	shrl	$2, %edx
	testb	$1, %r13b
	je	.LBB99_16
	incl	%r10d
	addl	%edx, %r15d
	cmpl	%r9d, %edx
	cmoval	%edx, %r9d
	movq	8(%rcx,%r12,8), %r13
	cmpq	%r14, %r13
	cmovbq	%r13, %r14
	addl	%r12d, %edx
	cmpl	%eax, %edx
	jb	.LBB99_17
.LBB99_19:
	xorl	%edx, %edx
	movl	$0, %ecx
	testl	%r9d, %r9d
	je	.LBB99_23
	movl	%r9d, %eax
	orl	$16, %eax
	bsrl	%eax, %ecx
	addl	$-4, %ecx
	movl	%r9d, %r12d
	shrl	%cl, %r12d
	shll	$4, %ecx
	addl	%r12d, %ecx
	movl	%ecx, %eax
	shrl	$4, %eax
	je	.LBB99_22
	movl	$8, %r13d
	movl	%eax, %ecx
	shll	%cl, %r13d
	andl	$15, %r12d
	decb	%al
	movl	%eax, %ecx
	shll	%cl, %r12d
	addl	%r13d, %r12d
	movl	%r12d, %ecx
.LBB99_22:
	leal	-24(,%rcx,8), %ecx
.LBB99_23:
	testl	%r15d, %r15d
	jne	.LBB99_24
.LBB99_31:
	xorl	%r15d, %r15d
	jmp	.LBB99_29
.LBB99_26:
	xorl	%ecx, %ecx
	xorl	%ebp, %ebp
	xorl	%ebx, %ebx
	xorl	%r11d, %r11d
	xorl	%r10d, %r10d
	xorl	%r15d, %r15d
	xorl	%r9d, %r9d
	movq	%r8, %r14
	xorl	%edx, %edx
	jmp	.LBB99_29
.LBB99_27:
	xorl	%edx, %edx
	divl	%r12d
.LBB99_28:
	movl	$1000, %edx
	subl	%eax, %edx
.LBB99_29:
	leal	(,%rbx,8), %eax
	subl	%r11d, %eax
	subq	%r14, %r8
	movl	%ebp, (%rsi)
	movl	%ebx, 4(%rsi)
	movl	%r11d, 8(%rsi)
	movl	%r10d, 12(%rsi)
	movl	%r15d, 16(%rsi)
	movl	%r9d, 20(%rsi)
	movl	%ecx, 24(%rsi)
	movl	%edx, 28(%rsi)
	movl	%eax, 32(%rsi)
	movl	$0, 36(%rsi)
	movq	%r8, 40(%rsi)
	movb	$1, (%rdi)
	xorl	%eax, %eax
	popq	%rbx
	.cfi_def_cfa_offset 48
	popq	%r12
	.cfi_def_cfa_offset 40
	popq	%r13
	.cfi_def_cfa_offset 32
	popq	%r14
	.cfi_def_cfa_offset 24
	popq	%r15
	.cfi_def_cfa_offset 16
	popq	%rbp
	.cfi_def_cfa_offset 8
	.cfi_restore %rbx
	.cfi_restore %r12
	.cfi_restore %r13
	.cfi_restore %r14
	.cfi_restore %r15
	.cfi_restore %rbp
.LBB99_30:
	retq
.Lfunc_end99:
	.size	tlsf_report, .Lfunc_end99-tlsf_report
	.cfi_endproc
	.section	.text.tlsf_reset,"ax",@progbits
	.globl	tlsf_reset
	.p2align	4
	.type	tlsf_reset,@function
tlsf_reset:
	.cfi_startproc
	movl	$32, %eax
	cmpb	$0, 8(%rdi)
	je	.LBB100_20
	pushq	%r15
	.cfi_def_cfa_offset 16
	pushq	%r14
	.cfi_def_cfa_offset 24
	pushq	%rbx
	.cfi_def_cfa_offset 32
	.cfi_offset %rbx, -32
	.cfi_offset %r14, -24
	.cfi_offset %r15, -16
	movq	(%rdi), %rbx
	cmpb	$1, (%rbx)
	jne	.LBB100_19
	movb	$0, (%rbx)
	cmpb	$0, 16(%rbx)
	movq	32(%rbx), %r14
	je	.LBB100_8
	cmpq	$-1, %r14
	je	.LBB100_14
	movq	80(%rbx), %rdx
	testq	%rdx, %rdx
	je	.LBB100_6
	movq	72(%rbx), %rdi
	shlq	$3, %rdx
	xorl	%esi, %esi
	callq	tlsf_memory_set@PLT
.LBB100_6:
	movabsq	$-4294967296, %r15
	leaq	192(%rbx), %rdi
	movl	$2564, %edx
	movl	$255, %esi
	callq	tlsf_memory_set@PLT
	xorps	%xmm0, %xmm0
	movups	%xmm0, 104(%rbx)
	movups	%xmm0, 120(%rbx)
	movups	%xmm0, 136(%rbx)
	movups	%xmm0, 152(%rbx)
	movups	%xmm0, 168(%rbx)
	movq	$0, 184(%rbx)
	movl	56(%rbx), %edx
	movl	%edx, %eax
	orl	$32, %eax
	bsrl	%eax, %ecx
	addl	$-5, %ecx
	movl	%edx, %eax
	shrl	%cl, %eax
	shll	$5, %ecx
	addl	%eax, %ecx
	shll	$2, %edx
	orq	%r15, %rdx
	orq	$3, %rdx
	movq	48(%rbx), %rsi
	movq	%rdx, (%rsi)
	movq	%r14, 8(%rsi)
	movq	72(%rbx), %rdx
	orq	$1, (%rdx)
	movslq	192(%rbx,%rcx,4), %rdx
	movl	$0, 192(%rbx,%rcx,4)
	movq	48(%rbx), %rsi
	testq	%rdx, %rdx
	jns	.LBB100_12
	movq	$-1, 16(%rsi)
	shrl	$5, %ecx
	movl	$1, %edx
	shll	%cl, %edx
	movl	108(%rbx,%rcx,4), %esi
	orl	%edx, 104(%rbx)
	jmp	.LBB100_16
.LBB100_8:
	cmpq	$-1, %r14
	je	.LBB100_14
	movq	80(%rbx), %rdx
	testq	%rdx, %rdx
	je	.LBB100_11
	movq	72(%rbx), %rdi
	shlq	$3, %rdx
	xorl	%esi, %esi
	callq	tlsf_memory_set@PLT
.LBB100_11:
	movabsq	$-4294967296, %r15
	leaq	192(%rbx), %rdi
	movl	$2564, %edx
	movl	$255, %esi
	callq	tlsf_memory_set@PLT
	xorps	%xmm0, %xmm0
	movups	%xmm0, 104(%rbx)
	movups	%xmm0, 120(%rbx)
	movups	%xmm0, 136(%rbx)
	movups	%xmm0, 152(%rbx)
	movups	%xmm0, 168(%rbx)
	movq	$0, 184(%rbx)
	movl	56(%rbx), %edx
	movl	%edx, %eax
	orl	$16, %eax
	bsrl	%eax, %ecx
	addl	$-4, %ecx
	movl	%edx, %eax
	shrl	%cl, %eax
	shll	$4, %ecx
	addl	%eax, %ecx
	shll	$2, %edx
	orq	%r15, %rdx
	orq	$3, %rdx
	movq	48(%rbx), %rsi
	movq	%rdx, (%rsi)
	movq	%r14, 8(%rsi)
	movq	72(%rbx), %rdx
	orq	$1, (%rdx)
	movslq	192(%rbx,%rcx,4), %rdx
	movl	$0, 192(%rbx,%rcx,4)
	movq	48(%rbx), %rsi
	testq	%rdx, %rdx
	js	.LBB100_15
.LBB100_12:
	orq	%rdx, %r15
	movq	%r15, 16(%rsi)
	movl	$0, 20(%rsi,%rdx,8)
	jmp	.LBB100_17
.LBB100_14:
	movl	$2, %eax
	jmp	.LBB100_18
.LBB100_15:
	movq	$-1, 16(%rsi)
	shrl	$4, %ecx
	movl	$1, %edx
	shll	%cl, %edx
	movl	108(%rbx,%rcx,4), %esi
	orl	%edx, 104(%rbx)
	andb	$15, %al
.LBB100_16:
	btsl	%eax, %esi
	movl	%esi, 108(%rbx,%rcx,4)
.LBB100_17:
	movl	$0, 40(%rbx)
	incq	32(%rbx)
	xorl	%eax, %eax
.LBB100_18:
	movb	$1, (%rbx)
.LBB100_19:
	popq	%rbx
	.cfi_def_cfa_offset 24
	popq	%r14
	.cfi_def_cfa_offset 16
	popq	%r15
	.cfi_def_cfa_offset 8
	.cfi_restore %rbx
	.cfi_restore %r14
	.cfi_restore %r15
.LBB100_20:
	retq
.Lfunc_end100:
	.size	tlsf_reset, .Lfunc_end100-tlsf_reset
	.cfi_endproc
	.section	.text.tlsf_resize,"ax",@progbits
	.globl	tlsf_resize
	.p2align	4
	.type	tlsf_resize,@function
tlsf_resize:
	.cfi_startproc
	pushq	%rbp
	.cfi_def_cfa_offset 16
	pushq	%r15
	.cfi_def_cfa_offset 24
	pushq	%r14
	.cfi_def_cfa_offset 32
	pushq	%r13
	.cfi_def_cfa_offset 40
	pushq	%r12
	.cfi_def_cfa_offset 48
	pushq	%rbx
	.cfi_def_cfa_offset 56
	subq	$56, %rsp
	.cfi_def_cfa_offset 112
	.cfi_offset %rbx, -56
	.cfi_offset %r12, -48
	.cfi_offset %r13, -40
	.cfi_offset %r14, -32
	.cfi_offset %r15, -24
	.cfi_offset %rbp, -16
	cmpb	$0, 8(%rdi)
	je	.LBB101_61
	movq	(%rdi), %r12
	cmpb	$0, (%r12)
	je	.LBB101_61
	movq	%rsi, %r15
	shrq	$32, %r15
	movl	$4294967295, %r14d
	cmpq	%r14, %rcx
	cmovbq	%rcx, %r14
	movb	$0, (%r12)
	cmpq	$1, %rcx
	movq	%r14, %rbp
	adcq	$31, %rbp
	shrq	$3, %rbp
	cmpb	$0, 16(%r12)
	movl	24(%r12), %eax
	je	.LBB101_3
	cmpl	%esi, %eax
	jne	.LBB101_4
	cmpl	56(%r12), %r15d
	jae	.LBB101_10
	movq	72(%r12), %rax
	movq	%rsi, %rcx
	shrq	$38, %rcx
	movq	(%rax,%rcx,8), %rax
	btq	%r15, %rax
	jae	.LBB101_10
	leaq	48(%r12), %r8
	movq	(%r8), %rax
	movq	(%rax,%r15,8), %r13
	testb	$1, %r13b
	jne	.LBB101_10
	leaq	(,%r15,8), %r10
	cmpq	%rdx, 8(%rax,%r10)
	jne	.LBB101_10
	movl	%r13d, %ebx
	shrl	$2, %ebx
	cmpl	%ebp, %ebx
	jae	.LBB101_34
	testb	$2, %r13b
	jne	.LBB101_44
	leal	(%rbx,%r15), %ecx
	movq	(%rax,%rcx,8), %rcx
	testb	$1, %cl
	jne	.LBB101_45
.LBB101_44:
	xorl	%ecx, %ecx
.LBB101_45:
	movl	%ecx, %eax
	shrl	$2, %eax
	addl	%ebx, %eax
	cmpl	%ebp, %eax
	jb	.LBB101_59
	movq	32(%r12), %r9
	cmpq	$-1, %r9
	je	.LBB101_58
	movq	%rdi, 8(%rsp)
	movq	%r8, %rdi
	movl	%r15d, %esi
	movq	%r13, %rdx
	movl	%ebp, %r8d
	movq	%r10, %r13
	callq	"tlsf_heap::refitting::recut::<=5>"
	jmp	.LBB101_48
.LBB101_3:
	cmpl	%esi, %eax
	jne	.LBB101_4
	cmpl	56(%r12), %r15d
	jae	.LBB101_10
	movq	72(%r12), %rax
	movq	%rsi, %rcx
	shrq	$38, %rcx
	movq	(%rax,%rcx,8), %rax
	btq	%r15, %rax
	jae	.LBB101_10
	leaq	48(%r12), %r8
	movq	(%r8), %rax
	movq	(%rax,%r15,8), %r13
	testb	$1, %r13b
	jne	.LBB101_10
	leaq	(,%r15,8), %r10
	cmpq	%rdx, 8(%rax,%r10)
	jne	.LBB101_10
	movl	%r13d, %ebx
	shrl	$2, %ebx
	cmpl	%ebp, %ebx
	jae	.LBB101_12
	testb	$2, %r13b
	jne	.LBB101_24
	leal	(%rbx,%r15), %ecx
	movq	(%rax,%rcx,8), %rcx
	testb	$1, %cl
	jne	.LBB101_25
.LBB101_24:
	xorl	%ecx, %ecx
.LBB101_25:
	movl	%ecx, %eax
	shrl	$2, %eax
	addl	%ebx, %eax
	cmpl	%ebp, %eax
	jae	.LBB101_26
.LBB101_59:
	movb	$1, (%r12)
	movl	$10, %eax
	jmp	.LBB101_60
.LBB101_34:
	movq	32(%r12), %r9
	cmpq	$-1, %r9
	je	.LBB101_58
	movq	16(%rax,%r10), %rcx
	movq	%r14, 16(%rax,%r10)
	cmpl	%ecx, %r14d
	jbe	.LBB101_40
	testb	$7, %cl
	movq	%rdi, 8(%rsp)
	movq	%r9, 24(%rsp)
	je	.LBB101_38
	movl	%ecx, %eax
	movq	(%r8), %r8
	movq	%r8, 48(%rsp)
	addq	%rax, %r10
	addq	$24, %r10
	andl	$7, %eax
	andq	$-8, %r10
	movq	%r10, 32(%rsp)
	leaq	.Lstatic.0(%rip), %rsi
	addq	%rax, %rsi
	movl	$8, %edx
	subq	%rax, %rdx
	movq	%rcx, 40(%rsp)
	movq	(%r8,%r10), %rcx
	movq	%rcx, 16(%rsp)
	leaq	(%rsp,%rax), %rdi
	addq	$16, %rdi
	callq	tlsf_memory_cpy@PLT
	movq	40(%rsp), %rcx
	movq	24(%rsp), %r9
	leaq	48(%r12), %r8
	movq	8(%rsp), %rdi
	movq	16(%rsp), %rax
	movq	32(%rsp), %rdx
	movq	48(%rsp), %rsi
	movq	%rax, (%rsi,%rdx)
.LBB101_38:
	movl	%ecx, %eax
	shrl	$3, %eax
	andl	$7, %ecx
	cmpl	$1, %ecx
	sbbl	$-1, %eax
	movl	%r14d, %edx
	shrl	$3, %edx
	andl	$7, %r14d
	cmpl	$1, %r14d
	sbbl	$-1, %edx
	subl	%eax, %edx
	je	.LBB101_40
	leal	(%r15,%rax), %edi
	addl	$3, %edi
	shlq	$3, %rdi
	addq	(%r8), %rdi
	shlq	$3, %rdx
	xorl	%esi, %esi
	movq	%r8, %r14
	callq	tlsf_memory_set@PLT
	movq	24(%rsp), %r9
	movq	%r14, %r8
	movq	8(%rsp), %rdi
.LBB101_40:
	leal	4(%rbp), %ecx
	movl	%ebx, %eax
	cmpl	%ecx, %ebx
	jb	.LBB101_21
	movq	%rdi, %r14
	movq	%r8, %rdi
	movl	%r15d, %esi
	movq	%r13, %rdx
	movl	%ebp, %ecx
	movq	%r9, %r8
	callq	"tlsf_heap::refitting::split_off::<=5>"
	jmp	.LBB101_20
.LBB101_10:
	movl	%esi, %edi
	jmp	.LBB101_5
.LBB101_12:
	movq	32(%r12), %r9
	cmpq	$-1, %r9
	je	.LBB101_58
	movq	16(%rax,%r10), %rcx
	movq	%r14, 16(%rax,%r10)
	cmpl	%ecx, %r14d
	jbe	.LBB101_18
	testb	$7, %cl
	movq	%rdi, 8(%rsp)
	movq	%r9, 24(%rsp)
	je	.LBB101_16
	movl	%ecx, %eax
	movq	(%r8), %r8
	movq	%r8, 48(%rsp)
	addq	%rax, %r10
	addq	$24, %r10
	andl	$7, %eax
	andq	$-8, %r10
	movq	%r10, 32(%rsp)
	leaq	.Lstatic.0(%rip), %rsi
	addq	%rax, %rsi
	movl	$8, %edx
	subq	%rax, %rdx
	movq	%rcx, 40(%rsp)
	movq	(%r8,%r10), %rcx
	movq	%rcx, 16(%rsp)
	leaq	(%rsp,%rax), %rdi
	addq	$16, %rdi
	callq	tlsf_memory_cpy@PLT
	movq	40(%rsp), %rcx
	movq	24(%rsp), %r9
	leaq	48(%r12), %r8
	movq	8(%rsp), %rdi
	movq	16(%rsp), %rax
	movq	32(%rsp), %rdx
	movq	48(%rsp), %rsi
	movq	%rax, (%rsi,%rdx)
.LBB101_16:
	movl	%ecx, %eax
	shrl	$3, %eax
	andl	$7, %ecx
	cmpl	$1, %ecx
	sbbl	$-1, %eax
	movl	%r14d, %edx
	shrl	$3, %edx
	andl	$7, %r14d
	cmpl	$1, %r14d
	sbbl	$-1, %edx
	subl	%eax, %edx
	je	.LBB101_18
	leal	(%r15,%rax), %edi
	addl	$3, %edi
	shlq	$3, %rdi
	addq	(%r8), %rdi
	shlq	$3, %rdx
	xorl	%esi, %esi
	movq	%r8, %r14
	callq	tlsf_memory_set@PLT
	movq	24(%rsp), %r9
	movq	%r14, %r8
	movq	8(%rsp), %rdi
.LBB101_18:
	leal	4(%rbp), %ecx
	movl	%ebx, %eax
	cmpl	%ecx, %ebx
	jb	.LBB101_21
	movq	%rdi, %r14
	movq	%r8, %rdi
	movl	%r15d, %esi
	movq	%r13, %rdx
	movl	%ebp, %ecx
	movq	%r9, %r8
	callq	"tlsf_heap::refitting::split_off::<=4>"
.LBB101_20:
	movq	%r14, %rdi
	movl	%ebp, %eax
.LBB101_21:
	subl	%ebx, %eax
	addl	%eax, 40(%r12)
.LBB101_55:
	incq	32(%r12)
	movb	$1, (%r12)
	xorl	%eax, %eax
	testb	$1, %bpl
	je	.LBB101_60
	cmpb	$0, 28(%rdi)
	jne	.LBB101_60
	movb	$1, 28(%rdi)
	jmp	.LBB101_60
.LBB101_61:
	xorl	%edi, %edi
	addq	$56, %rsp
	.cfi_def_cfa_offset 56
	popq	%rbx
	.cfi_def_cfa_offset 48
	popq	%r12
	.cfi_def_cfa_offset 40
	popq	%r13
	.cfi_def_cfa_offset 32
	popq	%r14
	.cfi_def_cfa_offset 24
	popq	%r15
	.cfi_def_cfa_offset 16
	popq	%rbp
	.cfi_def_cfa_offset 8
	jmp	"tlsf_c::call_fault::CallFault::refusal"
.LBB101_26:
	.cfi_def_cfa_offset 112
	movq	32(%r12), %r9
	cmpq	$-1, %r9
	je	.LBB101_58
	movq	%rdi, 8(%rsp)
	movq	%r8, %rdi
	movl	%r15d, %esi
	movq	%r13, %rdx
	movl	%ebp, %r8d
	movq	%r10, %r13
	callq	"tlsf_heap::refitting::recut::<=4>"
.LBB101_48:
	movq	%r13, %rdx
	leaq	48(%r12), %rcx
	movq	8(%rsp), %rdi
	movq	(%rcx), %rsi
	movq	16(%rsi,%r13), %r13
	movq	%r14, 16(%rsi,%rdx)
	cmpl	%r13d, %r14d
	jbe	.LBB101_53
	testb	$7, %r13b
	je	.LBB101_51
	movl	%r13d, %edi
	movq	(%rcx), %r8
	movq	%r8, 32(%rsp)
	leaq	(%rdx,%rdi), %rcx
	addq	$24, %rcx
	andl	$7, %edi
	andq	$-8, %rcx
	movq	%rcx, 40(%rsp)
	movl	%eax, 24(%rsp)
	leaq	.Lstatic.0(%rip), %rsi
	addq	%rdi, %rsi
	movl	$8, %edx
	subq	%rdi, %rdx
	movq	(%r8,%rcx), %rcx
	movq	%rcx, 16(%rsp)
	addq	%rsp, %rdi
	addq	$16, %rdi
	callq	tlsf_memory_cpy@PLT
	movl	24(%rsp), %eax
	leaq	48(%r12), %rcx
	movq	8(%rsp), %rdi
	movq	16(%rsp), %rdx
	movq	40(%rsp), %rsi
	movq	32(%rsp), %r8
	movq	%rdx, (%r8,%rsi)
.LBB101_51:
	movl	%r13d, %esi
	shrl	$3, %esi
	andl	$7, %r13d
	cmpl	$1, %r13d
	sbbl	$-1, %esi
	movl	%r14d, %edx
	shrl	$3, %edx
	andl	$7, %r14d
	cmpl	$1, %r14d
	sbbl	$-1, %edx
	subl	%esi, %edx
	je	.LBB101_53
	leal	(%r15,%rsi), %edi
	addl	$3, %edi
	shlq	$3, %rdi
	addq	(%rcx), %rdi
	shlq	$3, %rdx
	movl	%eax, %r14d
	xorl	%esi, %esi
	callq	tlsf_memory_set@PLT
	movl	%r14d, %eax
	movq	8(%rsp), %rdi
.LBB101_53:
	subl	%ebx, %eax
	addl	40(%r12), %eax
	movl	%eax, 40(%r12)
	cmpl	%eax, 44(%r12)
	jae	.LBB101_55
	movl	%eax, 44(%r12)
	jmp	.LBB101_55
.LBB101_58:
	movb	$1, (%r12)
	movl	$2, %eax
	jmp	.LBB101_60
.LBB101_4:
	movl	%esi, %edi
	movl	%eax, %esi
.LBB101_5:
	callq	"tlsf_heap::refusal::Refusal::of_name"
	movl	%eax, %ecx
	movb	$1, (%r12)
	xorl	%eax, %eax
	cmpb	$3, %cl
	sete	%al
	addl	$3, %eax
.LBB101_60:
	addq	$56, %rsp
	.cfi_def_cfa_offset 56
	popq	%rbx
	.cfi_def_cfa_offset 48
	popq	%r12
	.cfi_def_cfa_offset 40
	popq	%r13
	.cfi_def_cfa_offset 32
	popq	%r14
	.cfi_def_cfa_offset 24
	popq	%r15
	.cfi_def_cfa_offset 16
	popq	%rbp
	.cfi_def_cfa_offset 8
	retq
.Lfunc_end101:
	.size	tlsf_resize, .Lfunc_end101-tlsf_resize
	.cfi_endproc
	.section	.text.tlsf_resize_place,"ax",@progbits
	.globl	tlsf_resize_place
	.p2align	4
	.type	tlsf_resize_place,@function
tlsf_resize_place:
	.cfi_startproc
	pushq	%rbp
	.cfi_def_cfa_offset 16
	pushq	%r15
	.cfi_def_cfa_offset 24
	pushq	%r14
	.cfi_def_cfa_offset 32
	pushq	%r13
	.cfi_def_cfa_offset 40
	pushq	%r12
	.cfi_def_cfa_offset 48
	pushq	%rbx
	.cfi_def_cfa_offset 56
	subq	$56, %rsp
	.cfi_def_cfa_offset 112
	.cfi_offset %rbx, -56
	.cfi_offset %r12, -48
	.cfi_offset %r13, -40
	.cfi_offset %r14, -32
	.cfi_offset %r15, -24
	.cfi_offset %rbp, -16
	cmpb	$0, 8(%rdi)
	je	.LBB102_87
	movq	(%rdi), %rbp
	cmpb	$0, (%rbp)
	je	.LBB102_87
	movq	%rdx, %rax
	movl	$4294967295, %r13d
	cmpq	%r13, %rdx
	cmovbq	%rdx, %r13
	movb	$0, (%rbp)
	leaq	24(%rbp), %r10
	leaq	48(%rbp), %r11
	cmpb	$0, 16(%rbp)
	movl	56(%rbp), %edx
	je	.LBB102_3
	cmpl	%edx, %esi
	jae	.LBB102_85
	movq	72(%rbp), %rdx
	movl	%esi, %edi
	shrl	$6, %edi
	movq	(%rdx,%rdi,8), %rdx
	btq	%rsi, %rdx
	jae	.LBB102_85
	movq	(%r11), %rdi
	movl	%esi, %r15d
	movq	(%rdi,%r15,8), %rdx
	testb	$1, %dl
	jne	.LBB102_85
	movl	16(%rdi,%r15,8), %r14d
	cmpl	%r14d, %r13d
	cmovbl	%r13d, %r14d
	cmpq	$1, %rax
	movq	%r13, %r9
	adcq	$31, %r9
	movq	%r9, %r12
	shrq	$3, %r12
	movl	%edx, %ebx
	shrl	$2, %ebx
	cmpl	%r12d, %ebx
	jae	.LBB102_51
	testb	$2, %dl
	jne	.LBB102_56
	leal	(%rbx,%rsi), %eax
	movq	(%rdi,%rax,8), %rax
	testb	$1, %al
	jne	.LBB102_57
.LBB102_56:
	xorl	%eax, %eax
.LBB102_57:
	movl	%eax, %r8d
	shrl	$2, %r8d
	addl	%ebx, %r8d
	cmpl	%r12d, %r8d
	jae	.LBB102_58
	movq	8(%rdi,%r15,8), %rax
	movl	(%r10), %edx
	movl	%edx, 32(%rsp)
	movl	%esi, 36(%rsp)
	movq	%rax, 40(%rsp)
	movq	32(%rbp), %r8
	cmpq	$-3, %r8
	ja	.LBB102_84
	cmpq	$134217735, %r9
	ja	.LBB102_83
	movq	%rcx, 8(%rsp)
	movl	%r12d, %eax
	orl	$32, %eax
	bsrl	%eax, %eax
	addl	$-5, %eax
	leal	-1(%r12), %esi
	movl	%eax, %ecx
	shrl	%cl, %esi
	shll	$5, %eax
	addl	%esi, %eax
	movl	%eax, %edx
	shrl	$5, %edx
	movl	108(%rbp,%rdx,4), %r9d
	movl	%esi, %ecx
	shrl	%cl, %r9d
	andl	$-2, %r9d
	je	.LBB102_64
	rep		bsfl	%r9d, %ecx
	addq	%rax, %rcx
	jmp	.LBB102_66
.LBB102_3:
	cmpl	%edx, %esi
	jae	.LBB102_85
	movq	72(%rbp), %rdx
	movl	%esi, %edi
	shrl	$6, %edi
	movq	(%rdx,%rdi,8), %rdx
	btq	%rsi, %rdx
	jae	.LBB102_85
	movq	(%r11), %rdi
	movl	%esi, %r15d
	movq	(%rdi,%r15,8), %rdx
	testb	$1, %dl
	jne	.LBB102_85
	movl	16(%rdi,%r15,8), %r14d
	cmpl	%r14d, %r13d
	cmovbl	%r13d, %r14d
	cmpq	$1, %rax
	movq	%r13, %r9
	adcq	$31, %r9
	movq	%r9, %r12
	shrq	$3, %r12
	movl	%edx, %ebx
	shrl	$2, %ebx
	cmpl	%r12d, %ebx
	jae	.LBB102_7
	testb	$2, %dl
	jne	.LBB102_14
	leal	(%rbx,%rsi), %eax
	movq	(%rdi,%rax,8), %rax
	testb	$1, %al
	jne	.LBB102_15
.LBB102_14:
	xorl	%eax, %eax
.LBB102_15:
	movl	%eax, %r8d
	shrl	$2, %r8d
	addl	%ebx, %r8d
	cmpl	%r12d, %r8d
	jae	.LBB102_16
	movq	8(%rdi,%r15,8), %rax
	movl	(%r10), %edx
	movl	%edx, 32(%rsp)
	movl	%esi, 36(%rsp)
	movq	%rax, 40(%rsp)
	movq	32(%rbp), %r8
	cmpq	$-3, %r8
	ja	.LBB102_84
	cmpq	$8388615, %r9
	jbe	.LBB102_25
.LBB102_83:
	movl	8(%rbp), %eax
	movl	12(%rbp), %ecx
	incl	%eax
	movl	$-1, %edx
	cmovnel	%eax, %edx
	movl	%edx, 8(%rbp)
	cmpl	%ecx, %r13d
	cmoval	%r13d, %ecx
	movl	%ecx, 12(%rbp)
	movb	$1, (%rbp)
	movl	$1, %eax
	jmp	.LBB102_86
.LBB102_85:
	movb	$1, (%rbp)
	movl	$4, %eax
.LBB102_86:
	addq	$56, %rsp
	.cfi_def_cfa_offset 56
	popq	%rbx
	.cfi_def_cfa_offset 48
	popq	%r12
	.cfi_def_cfa_offset 40
	popq	%r13
	.cfi_def_cfa_offset 32
	popq	%r14
	.cfi_def_cfa_offset 24
	popq	%r15
	.cfi_def_cfa_offset 16
	popq	%rbp
	.cfi_def_cfa_offset 8
	retq
.LBB102_87:
	.cfi_def_cfa_offset 112
	xorl	%edi, %edi
	addq	$56, %rsp
	.cfi_def_cfa_offset 56
	popq	%rbx
	.cfi_def_cfa_offset 48
	popq	%r12
	.cfi_def_cfa_offset 40
	popq	%r13
	.cfi_def_cfa_offset 32
	popq	%r14
	.cfi_def_cfa_offset 24
	popq	%r15
	.cfi_def_cfa_offset 16
	popq	%rbp
	.cfi_def_cfa_offset 8
	jmp	"tlsf_c::call_fault::CallFault::refusal"
.LBB102_51:
	.cfi_def_cfa_offset 112
	movq	32(%rbp), %r8
	cmpq	$-1, %r8
	je	.LBB102_84
	movl	%r14d, %eax
	movq	%rax, 16(%rdi,%r15,8)
	leal	4(%r12), %edi
	movl	%ebx, %eax
	cmpl	%edi, %ebx
	jb	.LBB102_11
	movq	%r11, %rdi
	movq	%rsi, %r14
	movq	%rcx, 8(%rsp)
	movl	%r12d, %ecx
	callq	"tlsf_heap::refitting::split_off::<=5>"
	jmp	.LBB102_10
.LBB102_7:
	movq	32(%rbp), %r8
	cmpq	$-1, %r8
	je	.LBB102_84
	movl	%r14d, %eax
	movq	%rax, 16(%rdi,%r15,8)
	leal	4(%r12), %edi
	movl	%ebx, %eax
	cmpl	%edi, %ebx
	jb	.LBB102_11
	movq	%r11, %rdi
	movq	%rsi, %r14
	movq	%rcx, 8(%rsp)
	movl	%r12d, %ecx
	callq	"tlsf_heap::refitting::split_off::<=4>"
.LBB102_10:
	leaq	48(%rbp), %r11
	movq	%r14, %rsi
	movq	8(%rsp), %rcx
	movl	%r12d, %eax
.LBB102_11:
	subl	%ebx, %eax
	addl	%eax, 40(%rbp)
	incq	32(%rbp)
	jmp	.LBB102_21
.LBB102_58:
	movq	32(%rbp), %r9
	cmpq	$-1, %r9
	je	.LBB102_84
	movq	%rcx, 8(%rsp)
	movq	%r11, %rdi
	movq	%rsi, 24(%rsp)
	movq	%rax, %rcx
	movl	%r12d, %r8d
	callq	"tlsf_heap::refitting::recut::<=5>"
	jmp	.LBB102_18
.LBB102_16:
	movq	32(%rbp), %r9
	cmpq	$-1, %r9
	je	.LBB102_84
	movq	%rcx, 8(%rsp)
	movq	%r11, %rdi
	movq	%rsi, 24(%rsp)
	movq	%rax, %rcx
	movl	%r12d, %r8d
	callq	"tlsf_heap::refitting::recut::<=4>"
.LBB102_18:
	movq	48(%rbp), %rcx
	movl	%r14d, %edx
	movq	%rdx, 16(%rcx,%r15,8)
	subl	%ebx, %eax
	addl	40(%rbp), %eax
	movl	%eax, 40(%rbp)
	cmpl	%eax, 44(%rbp)
	jae	.LBB102_20
	movl	%eax, 44(%rbp)
.LBB102_20:
	incq	32(%rbp)
	movq	8(%rsp), %rcx
	movq	24(%rsp), %rsi
	leaq	48(%rbp), %r11
.LBB102_21:
	movq	(%r11), %rax
	movq	%r13, 16(%rax,%r15,8)
.LBB102_22:
	movb	$1, (%rbp)
	movl	%esi, (%rcx)
	xorl	%eax, %eax
	jmp	.LBB102_86
.LBB102_84:
	movb	$1, (%rbp)
	movl	$2, %eax
	jmp	.LBB102_86
.LBB102_25:
	movq	%rcx, 8(%rsp)
	movl	%r12d, %eax
	orl	$16, %eax
	bsrl	%eax, %eax
	addl	$-4, %eax
	leal	-1(%r12), %esi
	movl	%eax, %ecx
	shrl	%cl, %esi
	shll	$4, %eax
	addl	%esi, %eax
	movl	%eax, %edx
	shrl	$4, %edx
	movl	108(%rbp,%rdx,4), %r9d
	andb	$15, %sil
	movl	%esi, %ecx
	shrl	%cl, %r9d
	andl	$-2, %r9d
	je	.LBB102_27
	rep		bsfl	%r9d, %ecx
	addq	%rax, %rcx
	jmp	.LBB102_29
.LBB102_64:
	movl	$-2, %eax
	movl	%edx, %ecx
	shll	%cl, %eax
	andl	104(%rbp), %eax
	je	.LBB102_83
	rep		bsfl	%eax, %ecx
	movl	$32, %eax
	rep		bsfl	108(%rbp,%rcx,4), %eax
	shll	$5, %ecx
	addl	%eax, %ecx
.LBB102_66:
	movl	192(%rbp,%rcx,4), %edx
	movq	16(%rdi,%rdx,8), %rax
	cmpl	$-1, %eax
	je	.LBB102_67
	movl	%eax, %esi
	movl	$-1, 20(%rdi,%rsi,8)
	movl	%eax, 192(%rbp,%rcx,4)
	movq	48(%rbp), %rdi
	jmp	.LBB102_70
.LBB102_67:
	movl	$-1, 192(%rbp,%rcx,4)
	movq	%rcx, %rax
	shrq	$5, %rax
	movl	$-2, %esi
	roll	%cl, %esi
	movq	%rax, %rcx
	movl	$-2, %eax
	andl	%esi, 108(%rbp,%rcx,4)
	jne	.LBB102_70
	roll	%cl, %eax
	andl	%eax, 104(%rbp)
.LBB102_70:
	movq	(%rdi,%rdx,8), %rcx
	leal	(,%r12,4), %eax
	movl	%ecx, %esi
	subl	%eax, %esi
	cmpl	$15, %esi
	ja	.LBB102_72
	decq	%rcx
	movq	%rcx, (%rdi,%rdx,8)
	movq	%r8, 8(%rdi,%rdx,8)
	movq	%r13, 16(%rdi,%rdx,8)
	shrl	$2, %ecx
	movl	%ecx, %r12d
	jmp	.LBB102_77
.LBB102_72:
	movl	%esi, %r9d
	shrl	$2, %esi
	movq	%rdx, %r10
	shlq	$32, %r10
	orq	%r9, %r10
	leal	(%rdx,%r12), %eax
	subq	%r9, %rcx
	movq	%rcx, (%rdi,%rdx,8)
	movq	%r8, 8(%rdi,%rdx,8)
	movq	%r13, 16(%rdi,%rdx,8)
	movq	%r10, (%rdi,%rax,8)
	movq	%r8, 8(%rdi,%rax,8)
	movq	72(%rbp), %rdi
	movl	%eax, %r8d
	shrl	$6, %r8d
	movl	$1, %r10d
	movl	%eax, %ecx
	shlq	%cl, %r10
	orq	%r10, (%rdi,%r8,8)
	testb	$2, %r9b
	jne	.LBB102_74
	leal	(%rsi,%rax), %ecx
	movq	(%r11), %rdi
	movl	%eax, 4(%rdi,%rcx,8)
.LBB102_74:
	movl	%esi, %ecx
	orl	$32, %ecx
	bsrl	%ecx, %ecx
	addl	$-5, %ecx
	shrl	%cl, %esi
	shll	$5, %ecx
	addl	%esi, %ecx
	movslq	192(%rbp,%rcx,4), %rdi
	movl	%eax, 192(%rbp,%rcx,4)
	movq	48(%rbp), %r8
	testq	%rdi, %rdi
	js	.LBB102_75
	movabsq	$-4294967296, %rcx
	orq	%rdi, %rcx
	movq	%rcx, 16(%r8,%rax,8)
	movl	%eax, 20(%r8,%rdi,8)
	jmp	.LBB102_77
.LBB102_27:
	movl	$-2, %eax
	movl	%edx, %ecx
	shll	%cl, %eax
	andl	104(%rbp), %eax
	je	.LBB102_83
	rep		bsfl	%eax, %ecx
	movl	$32, %eax
	rep		bsfl	108(%rbp,%rcx,4), %eax
	shll	$4, %ecx
	addl	%eax, %ecx
.LBB102_29:
	movl	192(%rbp,%rcx,4), %edx
	movq	16(%rdi,%rdx,8), %rax
	cmpl	$-1, %eax
	je	.LBB102_30
	movl	%eax, %esi
	movl	$-1, 20(%rdi,%rsi,8)
	movl	%eax, 192(%rbp,%rcx,4)
	movq	48(%rbp), %rdi
	jmp	.LBB102_33
.LBB102_30:
	movl	$-1, 192(%rbp,%rcx,4)
	movq	%rcx, %rax
	shrq	$4, %rax
	andb	$15, %cl
	movl	$-2, %esi
	roll	%cl, %esi
	movq	%rax, %rcx
	movl	$-2, %eax
	andl	%esi, 108(%rbp,%rcx,4)
	jne	.LBB102_33
	roll	%cl, %eax
	andl	%eax, 104(%rbp)
.LBB102_33:
	movq	(%rdi,%rdx,8), %rcx
	leal	(,%r12,4), %eax
	movl	%ecx, %esi
	subl	%eax, %esi
	cmpl	$15, %esi
	ja	.LBB102_35
	decq	%rcx
	movq	%rcx, (%rdi,%rdx,8)
	movq	%r8, 8(%rdi,%rdx,8)
	movq	%r13, 16(%rdi,%rdx,8)
	shrl	$2, %ecx
	movl	%ecx, %r12d
	jmp	.LBB102_40
.LBB102_35:
	movl	%esi, %r9d
	shrl	$2, %esi
	movq	%rdx, %r10
	shlq	$32, %r10
	orq	%r9, %r10
	leal	(%rdx,%r12), %eax
	subq	%r9, %rcx
	movq	%rcx, (%rdi,%rdx,8)
	movq	%r8, 8(%rdi,%rdx,8)
	movq	%r13, 16(%rdi,%rdx,8)
	movq	%r10, (%rdi,%rax,8)
	movq	%r8, 8(%rdi,%rax,8)
	movq	72(%rbp), %rdi
	movl	%eax, %r8d
	shrl	$6, %r8d
	movl	$1, %r10d
	movl	%eax, %ecx
	shlq	%cl, %r10
	orq	%r10, (%rdi,%r8,8)
	testb	$2, %r9b
	jne	.LBB102_37
	leal	(%rsi,%rax), %ecx
	movq	(%r11), %rdi
	movl	%eax, 4(%rdi,%rcx,8)
.LBB102_37:
	movl	%esi, %ecx
	orl	$16, %ecx
	bsrl	%ecx, %ecx
	addl	$-4, %ecx
	shrl	%cl, %esi
	shll	$4, %ecx
	addl	%esi, %ecx
	movslq	192(%rbp,%rcx,4), %rdi
	movl	%eax, 192(%rbp,%rcx,4)
	movq	48(%rbp), %r8
	testq	%rdi, %rdi
	js	.LBB102_38
	movabsq	$-4294967296, %rcx
	orq	%rdi, %rcx
	movq	%rcx, 16(%r8,%rax,8)
	movl	%eax, 20(%r8,%rdi,8)
	jmp	.LBB102_40
.LBB102_75:
	movq	$-1, 16(%r8,%rax,8)
	shrl	$5, %ecx
	movl	$1, %eax
	shll	%cl, %eax
	movl	108(%rbp,%rcx,4), %edi
	orl	%eax, 104(%rbp)
	btsl	%esi, %edi
	movl	%edi, 108(%rbp,%rcx,4)
.LBB102_77:
	addl	40(%rbp), %r12d
	movl	%r12d, 40(%rbp)
	cmpl	%r12d, 44(%rbp)
	jae	.LBB102_79
	movl	%r12d, 44(%rbp)
.LBB102_79:
	incq	32(%rbp)
	movq	48(%rbp), %rdi
	movl	16(%rdi,%r15,8), %r13d
	movl	16(%rdi,%rdx,8), %eax
	cmpl	%r13d, %eax
	cmovbl	%eax, %r13d
	addq	$3, %r15
	movq	%rdx, %rbx
	addq	$3, %rdx
	movl	%r13d, %r12d
	shrl	$3, %r12d
	andl	$7, %r13d
	je	.LBB102_80
	leaq	(%r12,%r15), %rax
	movq	(%rdi,%rax,8), %rax
	movq	%rax, 48(%rsp)
	movq	%r15, %rsi
	movq	%rdx, %r15
	movq	%r12, %rcx
	movq	%r11, %r14
	callq	"tlsf_words::cells::copy_run"
	addq	%r15, %r12
	movq	(%r14), %r14
	movq	(%r14,%r12,8), %rax
	movq	%rax, 16(%rsp)
	leaq	16(%rsp), %rdi
	leaq	48(%rsp), %rsi
	movq	%r13, %rdx
	callq	tlsf_memory_cpy@PLT
	movq	16(%rsp), %rax
	movq	%rax, (%r14,%r12,8)
	jmp	.LBB102_82
.LBB102_80:
	movq	%r15, %rsi
	movq	%r12, %rcx
	callq	"tlsf_words::cells::copy_run"
.LBB102_82:
	leaq	32(%rsp), %rsi
	leaq	24(%rbp), %rdi
	callq	"tlsf_heap::heap::Heap::release_live::<=5>"
	jmp	.LBB102_46
.LBB102_38:
	movq	$-1, 16(%r8,%rax,8)
	shrl	$4, %ecx
	movl	$1, %eax
	shll	%cl, %eax
	movl	108(%rbp,%rcx,4), %edi
	orl	%eax, 104(%rbp)
	andb	$15, %sil
	btsl	%esi, %edi
	movl	%edi, 108(%rbp,%rcx,4)
.LBB102_40:
	addl	40(%rbp), %r12d
	movl	%r12d, 40(%rbp)
	cmpl	%r12d, 44(%rbp)
	jae	.LBB102_42
	movl	%r12d, 44(%rbp)
.LBB102_42:
	incq	32(%rbp)
	movq	48(%rbp), %rdi
	movl	16(%rdi,%r15,8), %r13d
	movl	16(%rdi,%rdx,8), %eax
	cmpl	%r13d, %eax
	cmovbl	%eax, %r13d
	addq	$3, %r15
	movq	%rdx, %rbx
	addq	$3, %rdx
	movl	%r13d, %r12d
	shrl	$3, %r12d
	andl	$7, %r13d
	je	.LBB102_43
	leaq	(%r12,%r15), %rax
	movq	(%rdi,%rax,8), %rax
	movq	%rax, 48(%rsp)
	movq	%r15, %rsi
	movq	%rdx, %r15
	movq	%r12, %rcx
	movq	%r11, %r14
	callq	"tlsf_words::cells::copy_run"
	addq	%r15, %r12
	movq	(%r14), %r14
	movq	(%r14,%r12,8), %rax
	movq	%rax, 16(%rsp)
	leaq	16(%rsp), %rdi
	leaq	48(%rsp), %rsi
	movq	%r13, %rdx
	callq	tlsf_memory_cpy@PLT
	movq	16(%rsp), %rax
	movq	%rax, (%r14,%r12,8)
	jmp	.LBB102_45
.LBB102_43:
	movq	%r15, %rsi
	movq	%r12, %rcx
	callq	"tlsf_words::cells::copy_run"
.LBB102_45:
	leaq	32(%rsp), %rsi
	leaq	24(%rbp), %rdi
	callq	"tlsf_heap::heap::Heap::release_live::<=4>"
.LBB102_46:
	movq	8(%rsp), %rcx
	movq	%rbx, %rsi
	jmp	.LBB102_22
.Lfunc_end102:
	.size	tlsf_resize_place, .Lfunc_end102-tlsf_resize_place
	.cfi_endproc
	.section	.text.tlsf_take,"ax",@progbits
	.globl	tlsf_take
	.p2align	4
	.type	tlsf_take,@function
tlsf_take:
	.cfi_startproc
	cmpb	$0, 8(%rdi)
	je	.LBB103_8
	movq	(%rdi), %rcx
	cmpb	$0, 1(%rcx)
	je	.LBB103_8
	cmpb	$1, (%rcx)
	jne	.LBB103_7
	movb	$0, 1(%rcx)
	movq	24(%rcx), %rdi
	movq	32(%rcx), %rdx
	movq	40(%rcx), %rax
	leaq	(%rdi,%rdi), %r9
	negq	%r9
	xorl	%r8d, %r8d
	subq	%rdx, %rax
	cmovaeq	%r8, %r9
	cmpq	%r9, %rax
	jne	.LBB103_5
	movq	8(%rcx), %rax
	movq	128(%rax), %r9
	movq	%r9, 40(%rcx)
	movq	24(%rcx), %rdi
	movq	32(%rcx), %rdx
	leaq	(%rdi,%rdi), %rax
	negq	%rax
	xorl	%r10d, %r10d
	subq	%rdx, %r9
	cmovbq	%rax, %r10
	movl	$35, %eax
	cmpq	%r10, %r9
	je	.LBB103_6
.LBB103_5:
	leaq	-1(,%rdi,2), %rax
	leaq	1(%rdx), %r9
	cmpq	%rax, %rdx
	cmovaeq	%r8, %r9
	cmpq	%rdi, %rdx
	cmovbq	%r8, %rdi
	subq	%rdi, %rdx
	movq	8(%rcx), %rax
	movq	16(%rcx), %rdi
	leaq	(%rdx,%rdx,2), %rdx
	movups	8(%rdi,%rdx,8), %xmm0
	movq	%r9, %rdx
	xchgq	%rdx, (%rax)
	movq	%r9, 32(%rcx)
	movups	%xmm0, (%rsi)
	xorl	%eax, %eax
.LBB103_6:
	movb	$1, 1(%rcx)
	retq
.LBB103_8:
	xorl	%edi, %edi
	jmp	"tlsf_c::call_fault::CallFault::refusal"
.LBB103_7:
	movl	$2, %edi
	jmp	"tlsf_c::call_fault::CallFault::refusal"
.Lfunc_end103:
	.size	tlsf_take, .Lfunc_end103-tlsf_take
	.cfi_endproc
	.section	.text.tlsf_take_all,"ax",@progbits
	.globl	tlsf_take_all
	.p2align	4
	.type	tlsf_take_all,@function
tlsf_take_all:
	.cfi_startproc
	pushq	%rbp
	.cfi_def_cfa_offset 16
	pushq	%r15
	.cfi_def_cfa_offset 24
	pushq	%r14
	.cfi_def_cfa_offset 32
	pushq	%r13
	.cfi_def_cfa_offset 40
	pushq	%r12
	.cfi_def_cfa_offset 48
	pushq	%rbx
	.cfi_def_cfa_offset 56
	subq	$776, %rsp
	.cfi_def_cfa_offset 832
	.cfi_offset %rbx, -56
	.cfi_offset %r12, -48
	.cfi_offset %r13, -40
	.cfi_offset %r14, -32
	.cfi_offset %r15, -24
	.cfi_offset %rbp, -16
	movq	%rsi, %r14
	xorl	%esi, %esi
	testq	%r14, %r14
	sete	%al
	cmpb	$0, 8(%rdi)
	je	.LBB104_21
	movq	(%rdi), %rbp
	cmpb	$0, 1(%rbp)
	je	.LBB104_21
	cmpb	$1, (%rbp)
	jne	.LBB104_23
	movb	%al, %sil
	shll	$12, %esi
	cmpq	$32, %rdx
	movl	$32, %r15d
	cmovbq	%rdx, %r15
	movb	$0, 1(%rbp)
	movq	24(%rbp), %r11
	movq	32(%rbp), %rax
	movq	40(%rbp), %rdi
	leaq	(%r11,%r11), %r8
	xorl	%r9d, %r9d
	movq	%rdi, %r10
	subq	%rax, %r10
	cmovbq	%r8, %r9
	leaq	(%r10,%r9), %r8
	cmpq	%r15, %r8
	jae	.LBB104_5
	movq	8(%rbp), %rax
	movq	128(%rax), %rdi
	movq	%rdi, 40(%rbp)
	movq	24(%rbp), %r11
	movq	32(%rbp), %rax
	leaq	(%r11,%r11), %r8
	xorl	%r9d, %r9d
	movq	%rdi, %r10
	subq	%rax, %r10
	cmovbq	%r8, %r9
	leaq	(%r10,%r9), %r8
	cmpq	%r15, %r8
	cmovbq	%r8, %r15
.LBB104_5:
	addq	%rsi, %r14
	leaq	8(%rbp), %r12
	cmpq	$21, %r15
	jb	.LBB104_8
	movq	%rcx, (%rsp)
	leaq	8(%rsp), %r13
	xorl	%ebx, %ebx
	movl	$768, %edx
	movq	%r13, %rdi
	xorl	%esi, %esi
	callq	tlsf_memory_set@PLT
	movq	%r12, %rdi
	movq	%r13, %rsi
	movq	%r15, %rdx
	callq	"tlsf_post::take_end::TakeEnd::take_slice"
	leaq	16(%rsp), %rax
	movq	%r15, %rcx
	shlq	$4, %rcx
	andq	$-32, %rcx
	.p2align	4
.LBB104_7:
	movups	(%rax), %xmm0
	movups	%xmm0, (%r14,%rbx)
	movups	24(%rax), %xmm0
	movups	%xmm0, 16(%r14,%rbx)
	addq	$48, %rax
	addq	$32, %rbx
	cmpq	%rbx, %rcx
	jne	.LBB104_7
	jmp	.LBB104_11
.LBB104_8:
	cmpq	$2, %r15
	jb	.LBB104_17
	movq	%rcx, (%rsp)
	leaq	8(%rsp), %r13
	xorl	%ebx, %ebx
	movl	$480, %edx
	movq	%r13, %rdi
	xorl	%esi, %esi
	callq	tlsf_memory_set@PLT
	movq	%r12, %rdi
	movq	%r13, %rsi
	movq	%r15, %rdx
	callq	"tlsf_post::take_end::TakeEnd::take_slice"
	leaq	16(%rsp), %rax
	movl	%r15d, %ecx
	andl	$30, %ecx
	shll	$4, %ecx
	.p2align	4
.LBB104_10:
	movups	(%rax), %xmm0
	movups	%xmm0, (%r14,%rbx)
	movups	24(%rax), %xmm0
	movups	%xmm0, 16(%r14,%rbx)
	addq	$48, %rax
	addq	$32, %rbx
	cmpq	%rbx, %rcx
	jne	.LBB104_10
.LBB104_11:
	testb	$1, %r15b
	movq	(%rsp), %rcx
	je	.LBB104_14
	movups	(%rax), %xmm0
	movups	%xmm0, (%r14,%rbx)
.LBB104_14:
	movb	$1, 1(%rbp)
.LBB104_15:
	movq	%r15, (%rcx)
	xorl	%eax, %eax
.LBB104_16:
	addq	$776, %rsp
	.cfi_def_cfa_offset 56
	popq	%rbx
	.cfi_def_cfa_offset 48
	popq	%r12
	.cfi_def_cfa_offset 40
	popq	%r13
	.cfi_def_cfa_offset 32
	popq	%r14
	.cfi_def_cfa_offset 24
	popq	%r15
	.cfi_def_cfa_offset 16
	popq	%rbp
	.cfi_def_cfa_offset 8
	retq
.LBB104_17:
	.cfi_def_cfa_offset 832
	cmpq	$1, %r15
	jne	.LBB104_22
	leaq	(%r11,%r11), %rdx
	negq	%rdx
	xorl	%esi, %esi
	subq	%rax, %rdi
	cmovbq	%rdx, %rsi
	cmpq	%rsi, %rdi
	jne	.LBB104_20
	movq	8(%rbp), %rax
	movq	128(%rax), %rdx
	movq	%rdx, 40(%rbp)
	movq	24(%rbp), %r11
	movq	32(%rbp), %rax
	leaq	(%r11,%r11), %rsi
	negq	%rsi
	xorl	%edi, %edi
	subq	%rax, %rdx
	cmovbq	%rsi, %rdi
	cmpq	%rdi, %rdx
	je	.LBB104_14
.LBB104_20:
	leaq	-1(,%r11,2), %rdx
	leaq	1(%rax), %rsi
	xorl	%edi, %edi
	cmpq	%rdx, %rax
	cmovaeq	%rdi, %rsi
	cmpq	%r11, %rax
	cmovbq	%rdi, %r11
	subq	%r11, %rax
	movq	8(%rbp), %rdi
	movq	16(%rbp), %rdx
	leaq	(%rax,%rax,2), %rax
	movups	8(%rdx,%rax,8), %xmm0
	movq	%rsi, %rax
	xchgq	%rax, (%rdi)
	movq	%rsi, 32(%rbp)
	movups	%xmm0, (%r14)
	jmp	.LBB104_14
.LBB104_21:
	xorl	%edi, %edi
	jmp	.LBB104_24
.LBB104_22:
	movb	$1, 1(%rbp)
	movl	$35, %eax
	testq	%rdx, %rdx
	jne	.LBB104_16
	jmp	.LBB104_15
.LBB104_23:
	movl	$2, %edi
.LBB104_24:
	addq	$776, %rsp
	.cfi_def_cfa_offset 56
	popq	%rbx
	.cfi_def_cfa_offset 48
	popq	%r12
	.cfi_def_cfa_offset 40
	popq	%r13
	.cfi_def_cfa_offset 32
	popq	%r14
	.cfi_def_cfa_offset 24
	popq	%r15
	.cfi_def_cfa_offset 16
	popq	%rbp
	.cfi_def_cfa_offset 8
	jmp	"tlsf_c::call_fault::CallFault::refusal"
.Lfunc_end104:
	.size	tlsf_take_all, .Lfunc_end104-tlsf_take_all
	.cfi_endproc
	.section	.text.tlsf_take_close,"ax",@progbits
	.globl	tlsf_take_close
	.p2align	4
	.type	tlsf_take_close,@function
tlsf_take_close:
	.cfi_startproc
	movl	$32, %eax
	cmpb	$0, 8(%rdi)
	je	.LBB105_4
	movq	(%rdi), %rcx
	cmpb	$1, 1(%rcx)
	jne	.LBB105_4
	movl	$40, %eax
	cmpb	$1, (%rcx)
	jne	.LBB105_4
	pushq	%rbx
	.cfi_def_cfa_offset 16
	subq	$96, %rsp
	.cfi_def_cfa_offset 112
	.cfi_offset %rbx, -16
	movb	$0, 1(%rcx)
	movq	(%rdi), %rax
	xorps	%xmm0, %xmm0
	movups	%xmm0, (%rdi)
	movzwl	(%rax), %ebx
	movups	8(%rax), %xmm0
	movups	%xmm0, 8(%rsp)
	movups	24(%rax), %xmm0
	movups	%xmm0, 24(%rsp)
	movq	40(%rax), %rcx
	movq	%rcx, 40(%rsp)
	movq	%rax, %rdi
	callq	tlsf_memory_dealloc@PLT
	movq	$0, 48(%rsp)
	movw	%bx, 48(%rsp)
	movups	8(%rsp), %xmm0
	movups	24(%rsp), %xmm1
	movups	%xmm0, 56(%rsp)
	movups	%xmm1, 72(%rsp)
	movq	40(%rsp), %rax
	movq	%rax, 88(%rsp)
	leaq	48(%rsp), %rdi
	callq	"tlsf_c::tlsf_c++any_end++AnyEnd+Destruct::drop"
	xorl	%eax, %eax
	addq	$96, %rsp
	.cfi_def_cfa_offset 16
	popq	%rbx
	.cfi_def_cfa_offset 8
	.cfi_restore %rbx
.LBB105_4:
	retq
.Lfunc_end105:
	.size	tlsf_take_close, .Lfunc_end105-tlsf_take_close
	.cfi_endproc
	.section	.text.tlsf_words,"ax",@progbits
	.globl	tlsf_words
	.p2align	4
	.type	tlsf_words,@function
tlsf_words:
	.cfi_startproc
	pushq	%rbx
	.cfi_def_cfa_offset 16
	.cfi_offset %rbx, -16
	movl	$4294967295, %r8d
	cmpq	%r8, %rdx
	cmovbq	%rdx, %r8
	movl	%edi, %r9d
	andl	$-2, %r9d
	movl	$34, %eax
	cmpl	$4, %r9d
	jne	.LBB106_20
	testl	%esi, %esi
	je	.LBB106_2
	movl	$5, %eax
	cmpl	$4, %edi
	jne	.LBB106_9
	cmpq	$8388584, %rdx
	ja	.LBB106_20
	movl	%esi, %esi
	cmpq	$9, %rdx
	jae	.LBB106_6
	shlq	$2, %rsi
	jmp	.LBB106_18
.LBB106_2:
	movl	$4, %esi
.LBB106_19:
	movl	%esi, (%rcx)
	xorl	%eax, %eax
	popq	%rbx
	.cfi_def_cfa_offset 8
	retq
.LBB106_9:
	.cfi_def_cfa_offset 16
	cmpq	$134217704, %rdx
	ja	.LBB106_20
	movl	%esi, %esi
	cmpq	$9, %rdx
	jae	.LBB106_11
	shlq	$2, %rsi
	cmpq	$16777217, %rsi
	jb	.LBB106_19
	jmp	.LBB106_20
.LBB106_6:
	movq	%rcx, %rdi
	addl	$31, %r8d
	shrl	$3, %r8d
	leal	3(%r8), %r11d
	movq	%r11, %rbx
	imulq	%rsi, %rbx
	movl	%r8d, %ecx
	orl	$16, %ecx
	bsrl	%ecx, %ecx
	addl	$-4, %ecx
	decl	%r8d
	shrl	%cl, %r8d
	leal	1(%r8), %r10d
	movl	%r10d, %edx
	shrl	$4, %edx
	xorl	%r9d, %r9d
	subq	%r11, %rbx
	cmovaeq	%rbx, %r9
	incq	%r9
	addl	%ecx, %edx
	je	.LBB106_7
	andl	$15, %r10d
	leal	-1(%rdx), %ecx
	shll	%cl, %r10d
	movl	$8, %r8d
	movl	%edx, %ecx
	shll	%cl, %r8d
	leal	(%r8,%r10), %ecx
	decl	%ecx
	imulq	%rsi, %rcx
	addq	%r9, %rcx
	cmpq	$5, %rcx
	movl	$4, %esi
	cmovaeq	%rcx, %rsi
	jmp	.LBB106_17
.LBB106_11:
	movq	%rcx, %rdi
	addl	$31, %r8d
	shrl	$3, %r8d
	leal	3(%r8), %r11d
	movq	%r11, %rbx
	imulq	%rsi, %rbx
	movl	%r8d, %ecx
	orl	$32, %ecx
	bsrl	%ecx, %ecx
	addl	$-5, %ecx
	decl	%r8d
	shrl	%cl, %r8d
	leal	1(%r8), %r10d
	movl	%r10d, %edx
	shrl	$5, %edx
	xorl	%r9d, %r9d
	subq	%r11, %rbx
	cmovaeq	%rbx, %r9
	incq	%r9
	addl	%ecx, %edx
	je	.LBB106_12
	andl	$31, %r10d
	leal	-1(%rdx), %ecx
	shll	%cl, %r10d
	movl	$16, %r8d
	movl	%edx, %ecx
	shll	%cl, %r8d
	leal	(%r8,%r10), %ecx
	decl	%ecx
	imulq	%rsi, %rcx
	addq	%r9, %rcx
	cmpq	$5, %rcx
	movl	$4, %esi
	cmovaeq	%rcx, %rsi
	movq	%rdi, %rcx
	cmpq	$16777217, %rsi
	jb	.LBB106_19
	jmp	.LBB106_20
.LBB106_7:
	shll	$4, %ecx
	addl	%ecx, %r8d
	imulq	%rsi, %r8
	addq	%r9, %r8
	cmpq	$5, %r8
	movl	$4, %esi
	cmovaeq	%r8, %rsi
.LBB106_17:
	movq	%rdi, %rcx
.LBB106_18:
	cmpq	$1048576, %rsi
	jbe	.LBB106_19
.LBB106_20:
	popq	%rbx
	.cfi_def_cfa_offset 8
	retq
.LBB106_12:
	.cfi_def_cfa_offset 16
	shll	$5, %ecx
	addl	%ecx, %r8d
	imulq	%rsi, %r8
	addq	%r9, %r8
	cmpq	$5, %r8
	movl	$4, %esi
	cmovaeq	%r8, %rsi
	movq	%rdi, %rcx
	cmpq	$16777217, %rsi
	jb	.LBB106_19
	jmp	.LBB106_20
.Lfunc_end106:
	.size	tlsf_words, .Lfunc_end106-tlsf_words
	.cfi_endproc
	.section	.text.tlsf_offsets_report,"ax",@progbits
	.globl	tlsf_offsets_report
	.p2align	4
	.type	tlsf_offsets_report,@function
tlsf_offsets_report:
	.cfi_startproc
	cmpb	$0, 8(%rdi)
	je	.LBB107_20
	movq	(%rdi), %rax
	cmpb	$0, 1(%rax)
	je	.LBB107_20
	cmpb	$0, (%rax)
	jne	.LBB107_19
	pushq	%r14
	.cfi_def_cfa_offset 16
	pushq	%rbx
	.cfi_def_cfa_offset 24
	.cfi_offset %rbx, -24
	.cfi_offset %r14, -16
	movb	$0, 1(%rax)
	cmpb	$0, 8(%rax)
	movl	48(%rax), %edx
	je	.LBB107_4
	testl	%edx, %edx
	je	.LBB107_5
	movq	40(%rax), %rdi
	xorl	%ecx, %ecx
	xorl	%r10d, %r10d
	xorl	%r8d, %r8d
	xorl	%r9d, %r9d
	xorl	%r11d, %r11d
	jmp	.LBB107_13
	.p2align	4
.LBB107_15:
	incl	%ecx
	addl	%ebx, %r11d
	addl	%ebx, %r10d
	cmpl	%edx, %r10d
	jae	.LBB107_17
.LBB107_13:
	movl	%r10d, %ebx
	movq	(%rdi,%rbx,8), %r14
	movl	%r14d, %ebx
	shrl	$2, %ebx
	testb	$1, %r14b
	je	.LBB107_15
	addl	%ebx, %r9d
	cmpl	%r8d, %ebx
	cmoval	%ebx, %r8d
	addl	%ebx, %r10d
	cmpl	%edx, %r10d
	jb	.LBB107_13
	jmp	.LBB107_17
.LBB107_4:
	testl	%edx, %edx
	je	.LBB107_5
	movq	40(%rax), %rdi
	xorl	%ecx, %ecx
	xorl	%r10d, %r10d
	xorl	%r8d, %r8d
	xorl	%r9d, %r9d
	xorl	%r11d, %r11d
	jmp	.LBB107_7
	.p2align	4
.LBB107_9:
	incl	%ecx
	addl	%ebx, %r11d
	addl	%ebx, %r10d
	cmpl	%edx, %r10d
	jae	.LBB107_17
.LBB107_7:
	movl	%r10d, %ebx
	movq	(%rdi,%rbx,8), %r14
	movl	%r14d, %ebx
	shrl	$2, %ebx
	testb	$1, %r14b
	je	.LBB107_9
	addl	%ebx, %r9d
	cmpl	%r8d, %ebx
	cmoval	%ebx, %r8d
	addl	%ebx, %r10d
	cmpl	%edx, %r10d
	jb	.LBB107_7
.LBB107_17:
	movl	%r11d, %edx
	movl	%r9d, %edi
	movl	%r8d, %r8d
	jmp	.LBB107_18
.LBB107_5:
	xorl	%ecx, %ecx
	xorl	%edx, %edx
	xorl	%edi, %edi
	xorl	%r8d, %r8d
.LBB107_18:
	movl	2752(%rax), %r9d
	imulq	%r9, %rdx
	imulq	%r9, %rdi
	imulq	%r9, %r8
	movb	$1, 1(%rax)
	movl	%ecx, (%rsi)
	movl	$0, 4(%rsi)
	movq	%rdx, 8(%rsi)
	movq	%rdi, 16(%rsi)
	movq	%r8, 24(%rsi)
	xorl	%eax, %eax
	popq	%rbx
	.cfi_def_cfa_offset 16
	popq	%r14
	.cfi_def_cfa_offset 8
	retq
.LBB107_20:
	.cfi_restore %rbx
	.cfi_restore %r14
	xorl	%edi, %edi
	jmp	"tlsf_c::call_fault::CallFault::refusal"
.LBB107_19:
	movl	$2, %edi
	jmp	"tlsf_c::call_fault::CallFault::refusal"
.Lfunc_end107:
	.size	tlsf_offsets_report, .Lfunc_end107-tlsf_offsets_report
	.cfi_endproc
	.section	.text.tlsf_write,"ax",@progbits
	.globl	tlsf_write
	.p2align	4
	.type	tlsf_write,@function
tlsf_write:
	.cfi_startproc
	xorl	%r10d, %r10d
	testq	%r8, %r8
	sete	%r11b
	movl	$32, %eax
	cmpb	$0, 8(%rdi)
	je	.LBB108_27
	pushq	%rbx
	.cfi_def_cfa_offset 16
	.cfi_offset %rbx, -16
	movq	(%rdi), %rbx
	cmpb	$1, (%rbx)
	jne	.LBB108_26
	movb	%r11b, %r10b
	shll	$12, %r10d
	addq	%r10, %r8
	movq	%rsi, %r10
	shrq	$32, %r10
	movb	$0, (%rbx)
	cmpb	$0, 16(%rbx)
	movl	24(%rbx), %eax
	je	.LBB108_3
	cmpl	%esi, %eax
	jne	.LBB108_13
	cmpl	56(%rbx), %r10d
	jae	.LBB108_8
	movq	72(%rbx), %rax
	movq	%rsi, %rdi
	shrq	$38, %rdi
	movq	(%rax,%rdi,8), %rax
	btq	%r10, %rax
	jae	.LBB108_8
	leaq	48(%rbx), %rdi
	movq	(%rdi), %rax
	testb	$1, (%rax,%r10,8)
	jne	.LBB108_8
	cmpq	%rdx, 8(%rax,%r10,8)
	jne	.LBB108_8
	movl	16(%rax,%r10,8), %edx
	movl	%ecx, %esi
	addq	%r9, %rsi
	movb	$4, %al
	cmpq	%rdx, %rsi
	ja	.LBB108_15
	movl	%r10d, %esi
	movl	%ecx, %edx
	movq	%r8, %rcx
	movq	%r9, %r8
	callq	"tlsf_heap::region::Region::write::<=5>"
	jmp	.LBB108_11
.LBB108_3:
	cmpl	%esi, %eax
	jne	.LBB108_13
	cmpl	56(%rbx), %r10d
	jae	.LBB108_8
	movq	72(%rbx), %rax
	movq	%rsi, %rdi
	shrq	$38, %rdi
	movq	(%rax,%rdi,8), %rax
	btq	%r10, %rax
	jae	.LBB108_8
	leaq	48(%rbx), %rdi
	movq	(%rdi), %rax
	testb	$1, (%rax,%r10,8)
	jne	.LBB108_8
	cmpq	%rdx, 8(%rax,%r10,8)
	jne	.LBB108_8
	movl	16(%rax,%r10,8), %edx
	movl	%ecx, %esi
	addq	%r9, %rsi
	movb	$4, %al
	cmpq	%rdx, %rsi
	ja	.LBB108_15
	movl	%r10d, %esi
	movl	%ecx, %edx
	movq	%r8, %rcx
	movq	%r9, %r8
	callq	"tlsf_heap::region::Region::write::<=4>"
.LBB108_11:
	xorl	%ecx, %ecx
	xorl	%eax, %eax
	testb	%cl, %cl
	jne	.LBB108_24
.LBB108_17:
	xorl	%eax, %eax
	jmp	.LBB108_25
.LBB108_8:
	movl	%esi, %edi
	jmp	.LBB108_14
.LBB108_13:
	movl	%esi, %edi
	movl	%eax, %esi
.LBB108_14:
	callq	"tlsf_heap::refusal::Refusal::of_name"
.LBB108_15:
	movb	$1, %cl
	testb	%cl, %cl
	je	.LBB108_17
.LBB108_24:
	movzbl	%al, %eax
	leaq	.Lswitch.table.tlsf_write(%rip), %rcx
	movl	(%rcx,%rax,4), %eax
.LBB108_25:
	movb	$1, (%rbx)
.LBB108_26:
	popq	%rbx
	.cfi_def_cfa_offset 8
	.cfi_restore %rbx
.LBB108_27:
	retq
.Lfunc_end108:
	.size	tlsf_write, .Lfunc_end108-tlsf_write
	.cfi_endproc
	.section	.text.tlsf_pools_write,"ax",@progbits
	.globl	tlsf_pools_write
	.p2align	4
	.type	tlsf_pools_write,@function
tlsf_pools_write:
	.cfi_startproc
	pushq	%rbp
	.cfi_def_cfa_offset 16
	pushq	%rbx
	.cfi_def_cfa_offset 24
	pushq	%rax
	.cfi_def_cfa_offset 32
	.cfi_offset %rbx, -24
	.cfi_offset %rbp, -16
	xorl	%r10d, %r10d
	testq	%r8, %r8
	sete	%r11b
	cmpb	$0, 8(%rdi)
	je	.LBB109_2
	movq	(%rdi), %rbx
	cmpb	$0, 1(%rbx)
	je	.LBB109_2
	cmpb	$1, (%rbx)
	jne	.LBB109_27
	movq	%rsi, %rax
	shrq	$32, %rax
	movb	%r11b, %r10b
	shll	$12, %r10d
	addq	%r10, %r8
	movb	$0, 1(%rbx)
	movl	16(%rbx), %edi
	xorl	%r11d, %r11d
	movl	%esi, %r10d
	subl	%edi, %r10d
	cmovbl	%r11d, %r10d
	setae	%bpl
	cmovbl	%r11d, %r10d
	cmpq	%r10, 32(%rbx)
	seta	%dil
	andb	%bpl, %dil
	cmpb	$0, 8(%rbx)
	je	.LBB109_6
	testb	%dil, %dil
	je	.LBB109_28
	movq	24(%rbx), %rdi
	imulq	$2792, %r10, %r11
	movl	(%rdi,%r11), %r10d
	cmpl	%esi, %r10d
	jne	.LBB109_8
	addq	%r11, %rdi
	cmpl	32(%rdi), %eax
	jae	.LBB109_14
	movq	48(%rdi), %r10
	movq	%rsi, %r11
	shrq	$38, %r11
	movq	(%r10,%r11,8), %r10
	btq	%rax, %r10
	jae	.LBB109_14
	addq	$24, %rdi
	movq	(%rdi), %r10
	testb	$1, (%r10,%rax,8)
	jne	.LBB109_14
	cmpq	%rdx, 8(%r10,%rax,8)
	jne	.LBB109_14
	movl	16(%r10,%rax,8), %edx
	movl	%ecx, %esi
	addq	%r9, %rsi
	cmpq	%rdx, %rsi
	ja	.LBB109_26
	movl	%eax, %esi
	movl	%ecx, %edx
	movq	%r8, %rcx
	movq	%r9, %r8
	callq	"tlsf_heap::region::Region::write::<=5>"
	jmp	.LBB109_25
.LBB109_6:
	testb	%dil, %dil
	je	.LBB109_28
	movq	24(%rbx), %rdi
	imulq	$2792, %r10, %r11
	movl	(%rdi,%r11), %r10d
	cmpl	%esi, %r10d
	jne	.LBB109_8
	addq	%r11, %rdi
	cmpl	32(%rdi), %eax
	jae	.LBB109_14
	movq	48(%rdi), %r10
	movq	%rsi, %r11
	shrq	$38, %r11
	movq	(%r10,%r11,8), %r10
	btq	%rax, %r10
	jae	.LBB109_14
	addq	$24, %rdi
	movq	(%rdi), %r10
	testb	$1, (%r10,%rax,8)
	jne	.LBB109_14
	cmpq	%rdx, 8(%r10,%rax,8)
	jne	.LBB109_14
	movl	16(%r10,%rax,8), %edx
	movl	%ecx, %esi
	addq	%r9, %rsi
	cmpq	%rdx, %rsi
	jbe	.LBB109_16
.LBB109_26:
	movb	$1, 1(%rbx)
	movl	$7, %eax
	addq	$8, %rsp
	.cfi_def_cfa_offset 24
	popq	%rbx
	.cfi_def_cfa_offset 16
	popq	%rbp
	.cfi_def_cfa_offset 8
	retq
.LBB109_28:
	.cfi_def_cfa_offset 32
	movb	$1, 1(%rbx)
	movl	$3, %eax
	addq	$8, %rsp
	.cfi_def_cfa_offset 24
	popq	%rbx
	.cfi_def_cfa_offset 16
	popq	%rbp
	.cfi_def_cfa_offset 8
	retq
.LBB109_2:
	.cfi_def_cfa_offset 32
	xorl	%edi, %edi
	addq	$8, %rsp
	.cfi_def_cfa_offset 24
	popq	%rbx
	.cfi_def_cfa_offset 16
	popq	%rbp
	.cfi_def_cfa_offset 8
	jmp	"tlsf_c::call_fault::CallFault::refusal"
.LBB109_14:
	.cfi_def_cfa_offset 32
	movl	%esi, %edi
	jmp	.LBB109_9
.LBB109_16:
	movl	%eax, %esi
	movl	%ecx, %edx
	movq	%r8, %rcx
	movq	%r9, %r8
	callq	"tlsf_heap::region::Region::write::<=4>"
.LBB109_25:
	movb	$1, 1(%rbx)
	xorl	%eax, %eax
	addq	$8, %rsp
	.cfi_def_cfa_offset 24
	popq	%rbx
	.cfi_def_cfa_offset 16
	popq	%rbp
	.cfi_def_cfa_offset 8
	retq
.LBB109_27:
	.cfi_def_cfa_offset 32
	movl	$2, %edi
	addq	$8, %rsp
	.cfi_def_cfa_offset 24
	popq	%rbx
	.cfi_def_cfa_offset 16
	popq	%rbp
	.cfi_def_cfa_offset 8
	jmp	"tlsf_c::call_fault::CallFault::refusal"
.LBB109_8:
	.cfi_def_cfa_offset 32
	movl	%esi, %edi
	movl	%r10d, %esi
.LBB109_9:
	callq	"tlsf_heap::refusal::Refusal::of_name"
	movb	$1, 1(%rbx)
	cmpb	$3, %al
	movl	$0, %eax
	sete	%al
	addl	$3, %eax
	addq	$8, %rsp
	.cfi_def_cfa_offset 24
	popq	%rbx
	.cfi_def_cfa_offset 16
	popq	%rbp
	.cfi_def_cfa_offset 8
	retq
.Lfunc_end109:
	.size	tlsf_pools_write, .Lfunc_end109-tlsf_pools_write
	.cfi_endproc
	.type	.Lstatic.0,@object
	.section	.rodata.cst8,"aM",@progbits,8
.Lstatic.0:
	.zero	8
	.size	.Lstatic.0, 8
	.type	.Lswitch.table.tlsf_allocate_aligned,@object
	.section	.rodata..Lswitch.table.tlsf_allocate_aligned,"a",@progbits
	.p2align	3, 0x0
.Lswitch.table.tlsf_allocate_aligned:
	.quad	8589934592
	.quad	12884901888
	.quad	17179869184
	.quad	30064771072
	.quad	42949672960
	.size	.Lswitch.table.tlsf_allocate_aligned, 40
	.type	.Lswitch.table.tlsf_queue_take,@object
	.section	.rodata..Lswitch.table.tlsf_queue_take,"a",@progbits
	.p2align	2, 0x0
.Lswitch.table.tlsf_queue_take:
	.long	32
	.long	36
	.long	40
	.long	5
	.long	6
	.long	33
	.long	34
	.long	8
	.long	35
	.long	37
	.long	38
	.size	.Lswitch.table.tlsf_queue_take, 44
	.type	.Lswitch.table.tlsf_write,@object
	.section	.rodata..Lswitch.table.tlsf_write,"a",@progbits
	.p2align	2, 0x0
.Lswitch.table.tlsf_write:
	.long	1
	.long	2
	.long	3
	.long	4
	.long	7
	.size	.Lswitch.table.tlsf_write, 20
	.ident	"rattle logic=dac8208d650f15bf3e2dc313a14fa4c783a3acf887bdfab66e1714b038d9e11b"
	.section	".note.GNU-stack","",@progbits
/* The calls in C: c/pointers.c. */
	.text
	.globl	tlsf_rounded
	.p2align	4
	.type	tlsf_rounded,@function
tlsf_rounded:
	.cfi_startproc
	leaq	7(%rdi), %rcx
	andq	$-16, %rcx
	orq	$8, %rcx
	cmpq	$-15, %rdi
	movq	$-1, %rax
	cmovbq	%rcx, %rax
	retq
.Lp_func_end0:
	.size	tlsf_rounded, .Lp_func_end0-tlsf_rounded
	.cfi_endproc
	.globl	tlsf_place_of
	.p2align	4
	.type	tlsf_place_of,@function
tlsf_place_of:
	.cfi_startproc
	subq	16(%rdi), %rsi
	leaq	-24(%rsi), %rax
	rolq	$61, %rax
	movl	$4294967295, %ecx
	cmpq	%rcx, %rax
	cmovaeq	%rcx, %rax
	retq
.Lp_func_end1:
	.size	tlsf_place_of, .Lp_func_end1-tlsf_place_of
	.cfi_endproc
	.globl	tlsf_near
	.p2align	4
	.type	tlsf_near,@function
tlsf_near:
	.cfi_startproc
	movl	%edi, %ecx
	negl	%ecx
	andl	$63, %ecx
	leaq	(%rdi,%rcx), %rax
	prefetcht0	64(%rdi,%rcx)
	prefetcht0	128(%rdi,%rcx)
	retq
.Lp_func_end2:
	.size	tlsf_near, .Lp_func_end2-tlsf_near
	.cfi_endproc
	.globl	tlsf_base
	.p2align	4
	.type	tlsf_base,@function
tlsf_base:
	.cfi_startproc
	cmpb	$1, 8(%rdi)
	jne	.Lp_BB3_1
	movq	16(%rdi), %rax
	retq
.Lp_BB3_1:
	xorl	%eax, %eax
	retq
.Lp_func_end3:
	.size	tlsf_base, .Lp_func_end3-tlsf_base
	.cfi_endproc
	.globl	tlsf_at
	.p2align	4
	.type	tlsf_at,@function
tlsf_at:
	.cfi_startproc
	shrq	$32, %rsi
	testq	%rdi, %rdi
	leaq	24(%rdi,%rsi,8), %rax
	cmoveq	%rdi, %rax
	retq
.Lp_func_end4:
	.size	tlsf_at, .Lp_func_end4-tlsf_at
	.cfi_endproc
	.globl	tlsf_block_size
	.p2align	4
	.type	tlsf_block_size,@function
tlsf_block_size:
	.cfi_startproc
	testq	%rdi, %rdi
	je	.Lp_BB5_1
	movq	-8(%rdi), %rax
	retq
.Lp_BB5_1:
	xorl	%eax, %eax
	retq
.Lp_func_end5:
	.size	tlsf_block_size, .Lp_func_end5-tlsf_block_size
	.cfi_endproc
	.globl	tlsf_aligned_alloc
	.p2align	4
	.type	tlsf_aligned_alloc,@function
tlsf_aligned_alloc:
	.cfi_startproc
	movq	%rsi, %rcx
	leaq	-1(%rsi), %rax
	xorq	%rax, %rsi
	cmpq	%rax, %rsi
	jbe	.Lp_BB6_6
	pushq	%rbx
	.cfi_def_cfa_offset 16
	.cfi_offset %rbx, -16
	cmpq	$134217728, %rcx
	ja	.Lp_BB6_11
	cmpq	$134217729, %rdx
	jae	.Lp_BB6_11
	cmpb	$0, 28(%rdi)
	jne	.Lp_BB6_12
	addl	$7, %edx
	andl	$536870896, %edx
	orq	$8, %rdx
	cmpq	$16, %rcx
	ja	.Lp_BB6_7
	movq	%rdi, %rbx
	movq	%rdx, %rsi
	callq	tlsf_allocate_place@PLT
	jmp	.Lp_BB6_8
.Lp_BB6_6:
	.cfi_def_cfa_offset 8
	.cfi_restore %rbx
	xorl	%eax, %eax
	retq
.Lp_BB6_7:
	.cfi_def_cfa_offset 16
	.cfi_offset %rbx, -16
	movq	%rcx, %rax
	shrq	$3, %rax
	decl	%ecx
	andl	16(%rdi), %ecx
	shrl	$3, %ecx
	movq	%rdi, %rbx
	movq	%rdx, %rsi
	movl	%eax, %edx
	callq	tlsf_allocate_aligned@PLT
.Lp_BB6_8:
	movq	%rax, %rcx
	shrq	$32, %rcx
	jne	.Lp_BB6_10
	movq	16(%rbx), %rcx
	leaq	(%rcx,%rax,8), %rax
	addq	$24, %rax
	popq	%rbx
	.cfi_def_cfa_offset 8
	.cfi_restore %rbx
	retq
.Lp_BB6_11:
	.cfi_def_cfa_offset 16
	.cfi_offset %rbx, -16
	callq	tlsf_too_long
.Lp_BB6_10:
	xorl	%eax, %eax
	popq	%rbx
	.cfi_def_cfa_offset 8
	.cfi_restore %rbx
	retq
.Lp_BB6_12:
	.cfi_def_cfa_offset 16
	.cfi_offset %rbx, -16
	movq	%rdi, %rbx
	movq	%rdx, %rsi
	movq	%rcx, %rdx
	callq	tlsf_mixed_place
	jmp	.Lp_BB6_8
.Lp_func_end6:
	.size	tlsf_aligned_alloc, .Lp_func_end6-tlsf_aligned_alloc
	.cfi_endproc
	.globl	tlsf_malloc
	.p2align	4
	.type	tlsf_malloc,@function
tlsf_malloc:
	.cfi_startproc
	cmpb	$0, 28(%rdi)
	jne	tlsf_malloc_mixed
	pushq	%rbx
	.cfi_def_cfa_offset 16
	.cfi_offset %rbx, -16
	movq	%rdi, %rbx
	callq	tlsf_allocate_payload@PLT
	testq	%rax, %rax
	je	.Lp_BB7_2
	addq	16(%rbx), %rax
	popq	%rbx
	.cfi_def_cfa_offset 8
	retq
.Lp_BB7_2:
	.cfi_def_cfa_offset 16
	xorl	%eax, %eax
	popq	%rbx
	.cfi_def_cfa_offset 8
	retq
.Lp_func_end7:
	.size	tlsf_malloc, .Lp_func_end7-tlsf_malloc
	.cfi_endproc
	.section	.text.unlikely.,"ax",@progbits
	.type	tlsf_malloc_mixed,@function
tlsf_malloc_mixed:
	.cfi_startproc
	pushq	%rbx
	.cfi_def_cfa_offset 16
	.cfi_offset %rbx, -16
	testb	$-17, 29(%rdi)
	jne	.Lp_BB8_5
	movq	%rdi, %rbx
	callq	tlsf_allocate_payload@PLT
	testq	%rax, %rax
	je	.Lp_BB8_2
	addq	16(%rbx), %rax
	testb	$15, %al
	je	.Lp_BB8_4
	movq	%rbx, %rdi
	movq	%rax, %rsi
	popq	%rbx
	.cfi_def_cfa_offset 8
	jmp	tlsf_malloc_again
.Lp_BB8_2:
	.cfi_def_cfa_offset 16
	xorl	%eax, %eax
.Lp_BB8_4:
	popq	%rbx
	.cfi_def_cfa_offset 8
	retq
.Lp_BB8_5:
	.cfi_def_cfa_offset 16
	popq	%rbx
	.cfi_def_cfa_offset 8
	jmp	tlsf_malloc_own
.Lp_func_end8:
	.size	tlsf_malloc_mixed, .Lp_func_end8-tlsf_malloc_mixed
	.cfi_endproc
	.text
	.globl	tlsf_words_for
	.p2align	4
	.type	tlsf_words_for,@function
tlsf_words_for:
	.cfi_startproc
	cmpq	$17, %rcx
	movl	$16, %eax
	cmovaeq	%rcx, %rax
	cmpq	$134217728, %rax
	movl	$134217728, %ecx
	cmovaeq	%rcx, %rax
	cmpq	$134217728, %rdx
	cmovbq	%rdx, %rcx
	addl	$7, %ecx
	andl	$536870896, %ecx
	leaq	(%rcx,%rax), %rdx
	addq	$40, %rdx
	movq	%r8, %rcx
	jmp	tlsf_words@PLT
.Lp_func_end9:
	.size	tlsf_words_for, .Lp_func_end9-tlsf_words_for
	.cfi_endproc
	.globl	tlsf_calloc
	.p2align	4
	.type	tlsf_calloc,@function
tlsf_calloc:
	.cfi_startproc
	pushq	%r14
	.cfi_def_cfa_offset 16
	pushq	%rbx
	.cfi_def_cfa_offset 24
	subq	$24, %rsp
	.cfi_def_cfa_offset 48
	.cfi_offset %rbx, -24
	.cfi_offset %r14, -16
	movq	%rdx, %r14
	movq	%rdi, %rbx
	xorps	%xmm0, %xmm0
	movaps	%xmm0, (%rsp)
	testq	%rdx, %rdx
	je	.Lp_BB10_3
	cmpq	$134217728, %r14
	ja	.Lp_BB10_6
	movl	$134217728, %eax
	xorl	%edx, %edx
	divl	%r14d
	cmpq	%rax, %rsi
	ja	.Lp_BB10_7
	jmp	.Lp_BB10_3
.Lp_BB10_6:
	xorl	%eax, %eax
	cmpq	%rax, %rsi
	ja	.Lp_BB10_7
.Lp_BB10_3:
	imulq	%rsi, %r14
	cmpb	$0, 28(%rbx)
	jne	.Lp_BB10_10
	leaq	7(%r14), %rax
	andq	$-16, %rax
	orq	$8, %rax
	cmpq	$-15, %r14
	movq	$-1, %rsi
	cmovbq	%rax, %rsi
	movq	%rsp, %rdx
	movq	%rbx, %rdi
	callq	tlsf_allocate@PLT
	testl	%eax, %eax
	je	.Lp_BB10_8
.Lp_BB10_7:
	xorl	%eax, %eax
	jmp	.Lp_BB10_9
.Lp_BB10_8:
	movl	4(%rsp), %eax
	movq	16(%rbx), %rcx
	leaq	(%rcx,%rax,8), %rax
	addq	$24, %rax
.Lp_BB10_9:
	addq	$24, %rsp
	.cfi_def_cfa_offset 24
	popq	%rbx
	.cfi_def_cfa_offset 16
	popq	%r14
	.cfi_def_cfa_offset 8
	retq
.Lp_BB10_10:
	.cfi_def_cfa_offset 48
	movq	%rbx, %rdi
	movq	%r14, %rsi
	callq	tlsf_malloc_mixed
	testq	%rax, %rax
	je	.Lp_BB10_7
	movq	%rax, %rdi
	xorl	%esi, %esi
	movq	%r14, %rdx
	addq	$24, %rsp
	.cfi_def_cfa_offset 24
	popq	%rbx
	.cfi_def_cfa_offset 16
	popq	%r14
	.cfi_def_cfa_offset 8
	jmp	memset@PLT
.Lp_func_end10:
	.size	tlsf_calloc, .Lp_func_end10-tlsf_calloc
	.cfi_endproc
	.globl	tlsf_free
	.p2align	4
	.type	tlsf_free,@function
tlsf_free:
	.cfi_startproc
	testq	%rsi, %rsi
	je	.Lp_BB11_1
	prefetcht0	-24(%rsi)
	subq	16(%rdi), %rsi
	addq	$-24, %rsi
	rolq	$61, %rsi
	movl	$4294967295, %eax
	cmpq	%rax, %rsi
	cmovaeq	%rax, %rsi
	jmp	tlsf_release_place@PLT
.Lp_BB11_1:
	xorl	%eax, %eax
	retq
.Lp_func_end11:
	.size	tlsf_free, .Lp_func_end11-tlsf_free
	.cfi_endproc
	.globl	tlsf_usable_size
	.p2align	4
	.type	tlsf_usable_size,@function
tlsf_usable_size:
	.cfi_startproc
	subq	$40, %rsp
	.cfi_def_cfa_offset 48
	xorps	%xmm0, %xmm0
	movaps	%xmm0, 16(%rsp)
	movl	$0, 12(%rsp)
	subq	16(%rdi), %rsi
	addq	$-24, %rsi
	rolq	$61, %rsi
	movl	$4294967295, %eax
	cmpq	%rax, %rsi
	cmovaeq	%rax, %rsi
	leaq	16(%rsp), %rdx
	leaq	12(%rsp), %rcx
	callq	tlsf_place@PLT
	xorl	%ecx, %ecx
	testl	%eax, %eax
	cmovel	12(%rsp), %ecx
	movq	%rcx, %rax
	addq	$40, %rsp
	.cfi_def_cfa_offset 8
	retq
.Lp_func_end12:
	.size	tlsf_usable_size, .Lp_func_end12-tlsf_usable_size
	.cfi_endproc
	.globl	tlsf_name_at
	.p2align	4
	.type	tlsf_name_at,@function
tlsf_name_at:
	.cfi_startproc
	pushq	%rbx
	.cfi_def_cfa_offset 16
	subq	$32, %rsp
	.cfi_def_cfa_offset 48
	.cfi_offset %rbx, -16
	xorps	%xmm0, %xmm0
	movaps	%xmm0, 16(%rsp)
	movl	$0, 12(%rsp)
	subq	16(%rdi), %rsi
	movq	%rdx, %rbx
	addq	$-24, %rsi
	rolq	$61, %rsi
	movl	$4294967295, %eax
	cmpq	%rax, %rsi
	cmovaeq	%rax, %rsi
	leaq	16(%rsp), %rdx
	leaq	12(%rsp), %rcx
	callq	tlsf_place@PLT
	testl	%eax, %eax
	jne	.Lp_BB13_2
	movaps	16(%rsp), %xmm0
	movups	%xmm0, (%rbx)
.Lp_BB13_2:
	addq	$32, %rsp
	.cfi_def_cfa_offset 16
	popq	%rbx
	.cfi_def_cfa_offset 8
	retq
.Lp_func_end13:
	.size	tlsf_name_at, .Lp_func_end13-tlsf_name_at
	.cfi_endproc
	.globl	tlsf_realloc
	.p2align	4
	.type	tlsf_realloc,@function
tlsf_realloc:
	.cfi_startproc
	pushq	%rbx
	.cfi_def_cfa_offset 16
	subq	$16, %rsp
	.cfi_def_cfa_offset 32
	.cfi_offset %rbx, -16
	testq	%rsi, %rsi
	je	.Lp_BB14_4
	testq	%rdx, %rdx
	je	.Lp_BB14_7
	cmpq	$134217728, %rdx
	ja	.Lp_BB14_11
	cmpb	$0, 28(%rdi)
	jne	.Lp_BB14_15
	subq	16(%rdi), %rsi
	addq	$-24, %rsi
	rolq	$61, %rsi
	movl	$4294967295, %eax
	cmpq	%rax, %rsi
	cmovaeq	%rax, %rsi
	addl	$7, %edx
	andl	$536870896, %edx
	orq	$8, %rdx
	movl	%esi, 12(%rsp)
	leaq	12(%rsp), %rcx
	movq	%rdi, %rbx
	callq	tlsf_resize_place@PLT
	testl	%eax, %eax
	jne	.Lp_BB14_11
	movq	16(%rbx), %rax
	movl	12(%rsp), %ecx
	leaq	(%rax,%rcx,8), %rax
	addq	$24, %rax
	jmp	.Lp_BB14_13
.Lp_BB14_4:
	cmpb	$0, 28(%rdi)
	jne	.Lp_BB14_14
	movq	%rdi, %rbx
	movq	%rdx, %rsi
	callq	tlsf_allocate_payload@PLT
	testq	%rax, %rax
	je	.Lp_BB14_11
	addq	16(%rbx), %rax
	jmp	.Lp_BB14_13
.Lp_BB14_11:
	xorl	%eax, %eax
	jmp	.Lp_BB14_13
.Lp_BB14_7:
	prefetcht0	-24(%rsi)
	subq	16(%rdi), %rsi
	addq	$-24, %rsi
	rolq	$61, %rsi
	movl	$4294967295, %eax
	cmpq	%rax, %rsi
	cmovaeq	%rax, %rsi
	callq	tlsf_release_place@PLT
	xorl	%eax, %eax
.Lp_BB14_13:
	addq	$16, %rsp
	.cfi_def_cfa_offset 16
	popq	%rbx
	.cfi_def_cfa_offset 8
	retq
.Lp_BB14_14:
	.cfi_def_cfa_offset 32
	movq	%rdx, %rsi
	addq	$16, %rsp
	.cfi_def_cfa_offset 16
	popq	%rbx
	.cfi_def_cfa_offset 8
	jmp	tlsf_malloc_mixed
.Lp_BB14_15:
	.cfi_def_cfa_offset 32
	addq	$16, %rsp
	.cfi_def_cfa_offset 16
	popq	%rbx
	.cfi_def_cfa_offset 8
	jmp	tlsf_realloc_mixed
.Lp_func_end14:
	.size	tlsf_realloc, .Lp_func_end14-tlsf_realloc
	.cfi_endproc
	.section	.text.unlikely.,"ax",@progbits
	.type	tlsf_realloc_mixed,@function
tlsf_realloc_mixed:
	.cfi_startproc
	pushq	%rbp
	.cfi_def_cfa_offset 16
	pushq	%r15
	.cfi_def_cfa_offset 24
	pushq	%r14
	.cfi_def_cfa_offset 32
	pushq	%r13
	.cfi_def_cfa_offset 40
	pushq	%r12
	.cfi_def_cfa_offset 48
	pushq	%rbx
	.cfi_def_cfa_offset 56
	subq	$72, %rsp
	.cfi_def_cfa_offset 128
	.cfi_offset %rbx, -56
	.cfi_offset %r12, -48
	.cfi_offset %r13, -40
	.cfi_offset %r14, -32
	.cfi_offset %r15, -24
	.cfi_offset %rbp, -16
	movq	%rdx, %r15
	movq	%rsi, %r14
	movq	%rdi, %rbx
	xorps	%xmm0, %xmm0
	movaps	%xmm0, 32(%rsp)
	movq	$0, 48(%rsp)
	movq	%rsi, %r12
	subq	16(%rdi), %r12
	addq	$-24, %r12
	rolq	$61, %r12
	movl	$4294967295, %eax
	cmpq	%rax, %r12
	cmovaeq	%rax, %r12
	movzbl	29(%rdi), %eax
	testb	$-17, %al
	je	.Lp_BB15_1
	leaq	(%r15,%rax), %rcx
	addq	$23, %rcx
	movq	%rax, %r13
	negq	%r13
	andq	%rcx, %r13
	addq	$-24, %r13
	jmp	.Lp_BB15_3
.Lp_BB15_1:
	leal	7(%r15), %r13d
	andl	$536870896, %r13d
	orq	$8, %r13
.Lp_BB15_3:
	cmpl	$8, %eax
	jne	.Lp_BB15_7
.Lp_BB15_4:
	movq	%rsp, %rcx
	movl	%r12d, (%rcx)
	movq	%rbx, %rdi
	movl	%r12d, %esi
	movq	%r13, %rdx
.Lp_BB15_5:
	callq	tlsf_resize_place@PLT
	testl	%eax, %eax
	je	.Lp_BB15_13
.Lp_BB15_6:
	xorl	%r12d, %r12d
	jmp	.Lp_BB15_16
.Lp_BB15_7:
	leaq	32(%rsp), %rdx
	movq	%rbx, %rdi
	movl	%r12d, %esi
	callq	tlsf_block_at@PLT
	testl	%eax, %eax
	jne	.Lp_BB15_4
	cmpl	$0, 40(%rsp)
	je	.Lp_BB15_4
	movq	%r14, 64(%rsp)
	movl	36(%rsp), %eax
	leal	-24(,%rax,8), %ecx
	cmpq	%rcx, %r13
	movq	%rcx, %r14
	cmovbq	%r13, %r14
	cmpq	%rcx, %r15
	cmovaq	%r13, %r14
	movq	%r14, %rbp
	shrq	$3, %rbp
	addq	$3, %rbp
	xorps	%xmm0, %xmm0
	movaps	%xmm0, (%rsp)
	movq	$0, 16(%rsp)
	cmpq	%rax, %rbp
	jbe	.Lp_BB15_12
	movl	32(%rsp), %esi
	addl	%eax, %esi
	movq	%rsp, %r13
	movq	%rbx, %rdi
	movq	%r13, %rdx
	callq	tlsf_block_at@PLT
	orl	8(%r13), %eax
	jne	.Lp_BB15_14
	movl	4(%rsp), %eax
	addl	36(%rsp), %eax
	cmpq	%rax, %rbp
	jbe	.Lp_BB15_12
.Lp_BB15_14:
	movq	%rbx, %rdi
	movq	%r15, %rsi
	callq	tlsf_malloc@PLT
	testq	%rax, %rax
	je	.Lp_BB15_6
	movq	%rax, %r12
	movl	44(%rsp), %edx
	cmpq	%rdx, %r15
	cmovbq	%r15, %rdx
	movq	%rax, %rdi
	movq	64(%rsp), %rsi
	callq	memcpy@PLT
	movl	32(%rsp), %esi
	movq	%rbx, %rdi
	callq	tlsf_release_place@PLT
	jmp	.Lp_BB15_16
.Lp_BB15_13:
	movq	16(%rbx), %rax
	movl	(%rsp), %ecx
	leaq	(%rax,%rcx,8), %r12
	addq	$24, %r12
.Lp_BB15_16:
	movq	%r12, %rax
	addq	$72, %rsp
	.cfi_def_cfa_offset 56
	popq	%rbx
	.cfi_def_cfa_offset 48
	popq	%r12
	.cfi_def_cfa_offset 40
	popq	%r13
	.cfi_def_cfa_offset 32
	popq	%r14
	.cfi_def_cfa_offset 24
	popq	%r15
	.cfi_def_cfa_offset 16
	popq	%rbp
	.cfi_def_cfa_offset 8
	retq
.Lp_BB15_12:
	.cfi_def_cfa_offset 128
	movq	%rsp, %rcx
	movl	%r12d, (%rcx)
	movq	%rbx, %rdi
	movl	%r12d, %esi
	movq	%r14, %rdx
	jmp	.Lp_BB15_5
.Lp_func_end15:
	.size	tlsf_realloc_mixed, .Lp_func_end15-tlsf_realloc_mixed
	.cfi_endproc
	.text
	.globl	tlsf_aligned_realloc
	.p2align	4
	.type	tlsf_aligned_realloc,@function
tlsf_aligned_realloc:
	.cfi_startproc
	pushq	%rbp
	.cfi_def_cfa_offset 16
	pushq	%r15
	.cfi_def_cfa_offset 24
	pushq	%r14
	.cfi_def_cfa_offset 32
	pushq	%r13
	.cfi_def_cfa_offset 40
	pushq	%r12
	.cfi_def_cfa_offset 48
	pushq	%rbx
	.cfi_def_cfa_offset 56
	subq	$88, %rsp
	.cfi_def_cfa_offset 144
	.cfi_offset %rbx, -56
	.cfi_offset %r12, -48
	.cfi_offset %r13, -40
	.cfi_offset %r14, -32
	.cfi_offset %r15, -24
	.cfi_offset %rbp, -16
	testq	%rsi, %rsi
	je	.Lp_BB16_25
	testq	%rdx, %rdx
	je	.Lp_BB16_3
	leaq	-1(%rdx), %r15
	testq	%r15, %rdx
	je	.Lp_BB16_5
.Lp_BB16_3:
	xorl	%eax, %eax
.Lp_BB16_4:
	addq	$88, %rsp
	.cfi_def_cfa_offset 56
	popq	%rbx
	.cfi_def_cfa_offset 48
	popq	%r12
	.cfi_def_cfa_offset 40
	popq	%r13
	.cfi_def_cfa_offset 32
	popq	%r14
	.cfi_def_cfa_offset 24
	popq	%r15
	.cfi_def_cfa_offset 16
	popq	%rbp
	.cfi_def_cfa_offset 8
	retq
.Lp_BB16_25:
	.cfi_def_cfa_offset 144
	movq	%rdx, %rsi
	movq	%rcx, %rdx
	addq	$88, %rsp
	.cfi_def_cfa_offset 56
	popq	%rbx
	.cfi_def_cfa_offset 48
	popq	%r12
	.cfi_def_cfa_offset 40
	popq	%r13
	.cfi_def_cfa_offset 32
	popq	%r14
	.cfi_def_cfa_offset 24
	popq	%r15
	.cfi_def_cfa_offset 16
	popq	%rbp
	.cfi_def_cfa_offset 8
	jmp	tlsf_aligned_alloc@PLT
.Lp_BB16_5:
	.cfi_def_cfa_offset 144
	testq	%rcx, %rcx
	je	.Lp_BB16_26
	cmpq	$134217728, %rcx
	ja	.Lp_BB16_3
	movzbl	29(%rdi), %r12d
	testq	%r12, %r12
	movl	$16, %eax
	cmovnel	%r12d, %eax
	andq	%rsi, %r15
	jne	.Lp_BB16_9
	cmpq	%rax, %rdx
	ja	.Lp_BB16_9
	movq	%rcx, %rdx
	addq	$88, %rsp
	.cfi_def_cfa_offset 56
	popq	%rbx
	.cfi_def_cfa_offset 48
	popq	%r12
	.cfi_def_cfa_offset 40
	popq	%r13
	.cfi_def_cfa_offset 32
	popq	%r14
	.cfi_def_cfa_offset 24
	popq	%r15
	.cfi_def_cfa_offset 16
	popq	%rbp
	.cfi_def_cfa_offset 8
	jmp	tlsf_realloc@PLT
.Lp_BB16_26:
	.cfi_def_cfa_offset 144
	prefetcht0	-24(%rsi)
	subq	16(%rdi), %rsi
	addq	$-24, %rsi
	rolq	$61, %rsi
	movl	$4294967295, %eax
	cmpq	%rax, %rsi
	cmovaeq	%rax, %rsi
	callq	tlsf_release_place@PLT
	jmp	.Lp_BB16_3
.Lp_BB16_9:
	xorps	%xmm0, %xmm0
	movaps	%xmm0, 48(%rsp)
	movq	$0, 64(%rsp)
	movq	%rsi, %r14
	subq	16(%rdi), %r14
	addq	$-24, %r14
	rolq	$61, %r14
	movl	$4294967295, %eax
	cmpq	%rax, %r14
	cmovaeq	%rax, %r14
	testb	$-17, %r12b
	movq	%rcx, %rbp
	movq	%rdx, 8(%rsp)
	movq	%rsi, 80(%rsp)
	je	.Lp_BB16_11
	leaq	(%rcx,%r12), %rax
	addq	$23, %rax
	negq	%r12
	andq	%rax, %r12
	addq	$-24, %r12
	jmp	.Lp_BB16_12
.Lp_BB16_11:
	leal	7(%rcx), %r12d
	andl	$536870896, %r12d
	orq	$8, %r12
.Lp_BB16_12:
	leaq	48(%rsp), %rdx
	movq	%rdi, %rbx
	movl	%r14d, %esi
	callq	tlsf_block_at@PLT
	testl	%eax, %eax
	jne	.Lp_BB16_17
	cmpl	$0, 56(%rsp)
	je	.Lp_BB16_17
	movl	52(%rsp), %esi
	leal	-24(,%rsi,8), %eax
	cmpq	%rax, %r12
	movq	%rax, %r13
	cmovbq	%r12, %r13
	movq	%rbp, %rdx
	cmpq	%rax, %rbp
	cmovaq	%r12, %r13
	testq	%r15, %r15
	movq	%rbx, %rdi
	movq	8(%rsp), %rax
	je	.Lp_BB16_18
.Lp_BB16_15:
	movq	%rax, %rsi
	callq	tlsf_aligned_alloc@PLT
	testq	%rax, %rax
	je	.Lp_BB16_3
	movl	60(%rsp), %edx
	cmpq	%rdx, %rbp
	cmovbq	%rbp, %rdx
	movq	%rax, %rdi
	movq	80(%rsp), %rsi
	movq	%rax, %r14
	callq	memcpy@PLT
	movl	48(%rsp), %esi
	movq	%rbx, %rdi
	callq	tlsf_release_place@PLT
	movq	%r14, %rax
	jmp	.Lp_BB16_4
.Lp_BB16_17:
	movl	%r14d, 16(%rsp)
	leaq	16(%rsp), %rcx
	movq	%rbx, %rdi
	movl	%r14d, %esi
	movq	%r12, %rdx
.Lp_BB16_22:
	callq	tlsf_resize_place@PLT
	testl	%eax, %eax
	jne	.Lp_BB16_3
	movq	16(%rbx), %rax
	movl	16(%rsp), %ecx
	leaq	(%rax,%rcx,8), %rax
	addq	$24, %rax
	jmp	.Lp_BB16_4
.Lp_BB16_18:
	movq	%r13, %r15
	shrq	$3, %r15
	addq	$3, %r15
	xorps	%xmm0, %xmm0
	movaps	%xmm0, 16(%rsp)
	movq	$0, 32(%rsp)
	cmpq	%rsi, %r15
	jbe	.Lp_BB16_21
	addl	48(%rsp), %esi
	leaq	16(%rsp), %rdx
	callq	tlsf_block_at@PLT
	orl	24(%rsp), %eax
	jne	.Lp_BB16_24
	movl	20(%rsp), %eax
	addl	52(%rsp), %eax
	cmpq	%rax, %r15
	movq	%rbx, %rdi
	movq	%rbp, %rdx
	movq	8(%rsp), %rax
	ja	.Lp_BB16_15
.Lp_BB16_21:
	movl	%r14d, 16(%rsp)
	leaq	16(%rsp), %rcx
	movl	%r14d, %esi
	movq	%r13, %rdx
	jmp	.Lp_BB16_22
.Lp_BB16_24:
	movq	%rbx, %rdi
	movq	%rbp, %rdx
	movq	8(%rsp), %rax
	jmp	.Lp_BB16_15
.Lp_func_end16:
	.size	tlsf_aligned_realloc, .Lp_func_end16-tlsf_aligned_realloc
	.cfi_endproc
	.globl	tlsf_allocate_at
	.p2align	4
	.type	tlsf_allocate_at,@function
tlsf_allocate_at:
	.cfi_startproc
	pushq	%rbp
	.cfi_def_cfa_offset 16
	pushq	%r15
	.cfi_def_cfa_offset 24
	pushq	%r14
	.cfi_def_cfa_offset 32
	pushq	%r13
	.cfi_def_cfa_offset 40
	pushq	%r12
	.cfi_def_cfa_offset 48
	pushq	%rbx
	.cfi_def_cfa_offset 56
	pushq	%rax
	.cfi_def_cfa_offset 64
	.cfi_offset %rbx, -56
	.cfi_offset %r12, -48
	.cfi_offset %r13, -40
	.cfi_offset %r14, -32
	.cfi_offset %r15, -24
	.cfi_offset %rbp, -16
	movl	%ecx, %ebp
	movq	%rdx, %rcx
	movq	%rsi, %r12
	leaq	-1(%rdx), %rax
	xorq	%rax, %rdx
	movl	$5, %esi
	cmpq	%rax, %rdx
	jbe	.Lp_BB17_15
	movq	%rdi, %r15
	cmpq	$134217728, %r12
	ja	.Lp_BB17_16
	cmpq	$134217729, %rcx
	jae	.Lp_BB17_16
	movq	%r9, %rbx
	movq	%r8, %r14
	cmpb	$0, 28(%r15)
	jne	.Lp_BB17_4
	leal	7(%r12), %esi
	andl	$536870896, %esi
	orq	$8, %rsi
	cmpq	$16, %rcx
	ja	.Lp_BB17_7
	movq	%r15, %rdi
	callq	tlsf_allocate_place@PLT
	jmp	.Lp_BB17_8
.Lp_BB17_7:
	movq	%rcx, %rdx
	shrq	$3, %rdx
	decl	%ecx
	andl	16(%r15), %ecx
	shrl	$3, %ecx
	movq	%r15, %rdi
	callq	tlsf_allocate_aligned@PLT
.Lp_BB17_8:
	movq	%rax, %rsi
	shrq	$32, %rsi
	jne	.Lp_BB17_15
	movl	24(%r15), %r13d
	testb	$1, %bpl
	jne	.Lp_BB17_14
	movq	16(%r15), %rcx
	leaq	(%rcx,%rax,8), %rdi
	addq	$24, %rdi
	movzbl	29(%r15), %ecx
	testb	$-17, %cl
	movq	%rdx, (%rsp)
	movq	%rax, %rbp
	je	.Lp_BB17_11
	cmpq	$1, %r12
	adcq	%rcx, %r12
	addq	$23, %r12
	negq	%rcx
	andq	%r12, %rcx
	addq	$-24, %rcx
	movq	%rcx, %r12
	jmp	.Lp_BB17_13
.Lp_BB17_11:
	addl	$7, %r12d
	andl	$536870896, %r12d
	orq	$8, %r12
.Lp_BB17_13:
	xorl	%esi, %esi
	movq	%r12, %rdx
	callq	memset@PLT
	movq	%rbp, %rax
	movq	(%rsp), %rdx
.Lp_BB17_14:
	movl	%r13d, (%r14)
	movl	%eax, 4(%r14)
	movq	%rdx, 8(%r14)
	movq	16(%r15), %rcx
	leaq	(%rcx,%rax,8), %rax
	addq	$24, %rax
	movq	%rax, (%rbx)
	xorl	%esi, %esi
.Lp_BB17_15:
	movl	%esi, %eax
	addq	$8, %rsp
	.cfi_def_cfa_offset 56
	popq	%rbx
	.cfi_def_cfa_offset 48
	popq	%r12
	.cfi_def_cfa_offset 40
	popq	%r13
	.cfi_def_cfa_offset 32
	popq	%r14
	.cfi_def_cfa_offset 24
	popq	%r15
	.cfi_def_cfa_offset 16
	popq	%rbp
	.cfi_def_cfa_offset 8
	retq
.Lp_BB17_16:
	.cfi_def_cfa_offset 64
	movq	%r15, %rdi
	addq	$8, %rsp
	.cfi_def_cfa_offset 56
	popq	%rbx
	.cfi_def_cfa_offset 48
	popq	%r12
	.cfi_def_cfa_offset 40
	popq	%r13
	.cfi_def_cfa_offset 32
	popq	%r14
	.cfi_def_cfa_offset 24
	popq	%r15
	.cfi_def_cfa_offset 16
	popq	%rbp
	.cfi_def_cfa_offset 8
	jmp	tlsf_too_long
.Lp_BB17_4:
	.cfi_def_cfa_offset 64
	movq	%r15, %rdi
	movq	%r12, %rsi
	movq	%rcx, %rdx
	callq	tlsf_mixed_place
	jmp	.Lp_BB17_8
.Lp_func_end17:
	.size	tlsf_allocate_at, .Lp_func_end17-tlsf_allocate_at
	.cfi_endproc
	.globl	tlsf_payload
	.p2align	4
	.type	tlsf_payload,@function
tlsf_payload:
	.cfi_startproc
	pushq	%r14
	.cfi_def_cfa_offset 16
	pushq	%rbx
	.cfi_def_cfa_offset 24
	subq	$24, %rsp
	.cfi_def_cfa_offset 48
	.cfi_offset %rbx, -24
	.cfi_offset %r14, -16
	movq	%rcx, %r14
	movq	%rsi, %rbx
	movq	$0, 16(%rsp)
	movl	$0, 12(%rsp)
	leaq	16(%rsp), %rcx
	leaq	12(%rsp), %r8
	callq	tlsf_locate@PLT
	testl	%eax, %eax
	je	.Lp_BB18_2
	xorl	%eax, %eax
	jmp	.Lp_BB18_5
.Lp_BB18_2:
	shrq	$32, %rbx
	testq	%r14, %r14
	je	.Lp_BB18_4
	movl	12(%rsp), %eax
	movl	%eax, (%r14)
.Lp_BB18_4:
	movq	16(%rsp), %rax
	leaq	(%rax,%rbx,8), %rax
	addq	$24, %rax
.Lp_BB18_5:
	addq	$24, %rsp
	.cfi_def_cfa_offset 24
	popq	%rbx
	.cfi_def_cfa_offset 16
	popq	%r14
	.cfi_def_cfa_offset 8
	retq
.Lp_func_end18:
	.size	tlsf_payload, .Lp_func_end18-tlsf_payload
	.cfi_endproc
	.globl	tlsf_pools_name_at
	.p2align	4
	.type	tlsf_pools_name_at,@function
tlsf_pools_name_at:
	.cfi_startproc
	pushq	%rbp
	.cfi_def_cfa_offset 16
	pushq	%r15
	.cfi_def_cfa_offset 24
	pushq	%r14
	.cfi_def_cfa_offset 32
	pushq	%r13
	.cfi_def_cfa_offset 40
	pushq	%r12
	.cfi_def_cfa_offset 48
	pushq	%rbx
	.cfi_def_cfa_offset 56
	subq	$40, %rsp
	.cfi_def_cfa_offset 96
	.cfi_offset %rbx, -56
	.cfi_offset %r12, -48
	.cfi_offset %r13, -40
	.cfi_offset %r14, -32
	.cfi_offset %r15, -24
	.cfi_offset %rbp, -16
	movq	%rdx, %rbx
	movq	%rsi, %r14
	movq	%rdi, %r15
	movl	$0, 28(%rsp)
	movl	$0, 12(%rsp)
	movq	$0, 16(%rsp)
	xorl	%r12d, %r12d
	leaq	16(%rsp), %rdx
	leaq	12(%rsp), %rcx
	xorl	%esi, %esi
	callq	tlsf_pools_part@PLT
	testl	%eax, %eax
	je	.Lp_BB19_2
	xorl	%r13d, %r13d
	jmp	.Lp_BB19_8
.Lp_BB19_2:
	movq	%rbx, 32(%rsp)
	xorl	%r13d, %r13d
	leaq	12(%rsp), %rbp
	xorl	%r12d, %r12d
	xorl	%ebx, %ebx
	jmp	.Lp_BB19_3
	.p2align	4
.Lp_BB19_5:
	movq	%rax, %r13
	movl	%ebx, %r12d
.Lp_BB19_6:
	incl	%ebx
	movq	%r15, %rdi
	movl	%ebx, %esi
	leaq	16(%rsp), %rdx
	movq	%rbp, %rcx
	callq	tlsf_pools_part@PLT
	testl	%eax, %eax
	jne	.Lp_BB19_7
.Lp_BB19_3:
	movq	16(%rsp), %rax
	testl	%ebx, %ebx
	je	.Lp_BB19_5
	movq	%r14, %rcx
	subq	%rax, %rcx
	movq	%r14, %rdx
	subq	%r13, %rdx
	cmpq	%rdx, %rcx
	jbe	.Lp_BB19_5
	jmp	.Lp_BB19_6
.Lp_BB19_7:
	movq	32(%rsp), %rbx
.Lp_BB19_8:
	subq	%r13, %r14
	addq	$-24, %r14
	rolq	$61, %r14
	movl	$4294967295, %eax
	cmpq	%rax, %r14
	cmovaeq	%rax, %r14
	leaq	28(%rsp), %r8
	movq	%r15, %rdi
	movl	%r12d, %esi
	movl	%r14d, %edx
	movq	%rbx, %rcx
	callq	tlsf_pools_place@PLT
	addq	$40, %rsp
	.cfi_def_cfa_offset 56
	popq	%rbx
	.cfi_def_cfa_offset 48
	popq	%r12
	.cfi_def_cfa_offset 40
	popq	%r13
	.cfi_def_cfa_offset 32
	popq	%r14
	.cfi_def_cfa_offset 24
	popq	%r15
	.cfi_def_cfa_offset 16
	popq	%rbp
	.cfi_def_cfa_offset 8
	retq
.Lp_func_end19:
	.size	tlsf_pools_name_at, .Lp_func_end19-tlsf_pools_name_at
	.cfi_endproc
	.globl	tlsf_pools_usable_size
	.p2align	4
	.type	tlsf_pools_usable_size,@function
tlsf_pools_usable_size:
	.cfi_startproc
	pushq	%rbp
	.cfi_def_cfa_offset 16
	pushq	%r15
	.cfi_def_cfa_offset 24
	pushq	%r14
	.cfi_def_cfa_offset 32
	pushq	%r13
	.cfi_def_cfa_offset 40
	pushq	%r12
	.cfi_def_cfa_offset 48
	pushq	%rbx
	.cfi_def_cfa_offset 56
	subq	$40, %rsp
	.cfi_def_cfa_offset 96
	.cfi_offset %rbx, -56
	.cfi_offset %r12, -48
	.cfi_offset %r13, -40
	.cfi_offset %r14, -32
	.cfi_offset %r15, -24
	.cfi_offset %rbp, -16
	movq	%rsi, %r14
	movq	%rdi, %r15
	xorps	%xmm0, %xmm0
	movaps	%xmm0, 16(%rsp)
	movl	$0, (%rsp)
	movl	$0, 4(%rsp)
	movq	$0, 8(%rsp)
	xorl	%r13d, %r13d
	leaq	8(%rsp), %rdx
	leaq	4(%rsp), %rcx
	xorl	%esi, %esi
	callq	tlsf_pools_part@PLT
	xorl	%r12d, %r12d
	testl	%eax, %eax
	je	.Lp_BB20_2
	xorl	%ebx, %ebx
	jmp	.Lp_BB20_8
.Lp_BB20_2:
	leaq	4(%rsp), %r13
	xorl	%ebx, %ebx
	xorl	%ebp, %ebp
	jmp	.Lp_BB20_3
	.p2align	4
.Lp_BB20_5:
	movq	%rax, %r12
	movl	%ebp, %ebx
.Lp_BB20_6:
	incl	%ebp
	movq	%r15, %rdi
	movl	%ebp, %esi
	leaq	8(%rsp), %rdx
	movq	%r13, %rcx
	callq	tlsf_pools_part@PLT
	testl	%eax, %eax
	jne	.Lp_BB20_7
.Lp_BB20_3:
	movq	8(%rsp), %rax
	testl	%ebp, %ebp
	je	.Lp_BB20_5
	movq	%r14, %rcx
	subq	%rax, %rcx
	movq	%r14, %rdx
	subq	%r12, %rdx
	cmpq	%rdx, %rcx
	jbe	.Lp_BB20_5
	jmp	.Lp_BB20_6
.Lp_BB20_7:
	xorl	%r13d, %r13d
.Lp_BB20_8:
	subq	%r12, %r14
	addq	$-24, %r14
	rolq	$61, %r14
	movl	$4294967295, %eax
	cmpq	%rax, %r14
	cmovaeq	%rax, %r14
	leaq	16(%rsp), %rcx
	movq	%rsp, %r8
	movq	%r15, %rdi
	movl	%ebx, %esi
	movl	%r14d, %edx
	callq	tlsf_pools_place@PLT
	testl	%eax, %eax
	cmovel	(%rsp), %r13d
	movq	%r13, %rax
	addq	$40, %rsp
	.cfi_def_cfa_offset 56
	popq	%rbx
	.cfi_def_cfa_offset 48
	popq	%r12
	.cfi_def_cfa_offset 40
	popq	%r13
	.cfi_def_cfa_offset 32
	popq	%r14
	.cfi_def_cfa_offset 24
	popq	%r15
	.cfi_def_cfa_offset 16
	popq	%rbp
	.cfi_def_cfa_offset 8
	retq
.Lp_func_end20:
	.size	tlsf_pools_usable_size, .Lp_func_end20-tlsf_pools_usable_size
	.cfi_endproc
	.globl	tlsf_pools_free
	.p2align	4
	.type	tlsf_pools_free,@function
tlsf_pools_free:
	.cfi_startproc
	pushq	%rbp
	.cfi_def_cfa_offset 16
	pushq	%r15
	.cfi_def_cfa_offset 24
	pushq	%r14
	.cfi_def_cfa_offset 32
	pushq	%r13
	.cfi_def_cfa_offset 40
	pushq	%r12
	.cfi_def_cfa_offset 48
	pushq	%rbx
	.cfi_def_cfa_offset 56
	subq	$56, %rsp
	.cfi_def_cfa_offset 112
	.cfi_offset %rbx, -56
	.cfi_offset %r12, -48
	.cfi_offset %r13, -40
	.cfi_offset %r14, -32
	.cfi_offset %r15, -24
	.cfi_offset %rbp, -16
	xorps	%xmm0, %xmm0
	movaps	%xmm0, 32(%rsp)
	testq	%rsi, %rsi
	je	.Lp_BB21_1
	movq	%rsi, %r14
	movq	%rdi, %rbx
	movl	$0, 28(%rsp)
	movl	$0, 12(%rsp)
	movq	$0, 16(%rsp)
	xorl	%r15d, %r15d
	leaq	16(%rsp), %rdx
	leaq	12(%rsp), %rcx
	xorl	%esi, %esi
	callq	tlsf_pools_part@PLT
	xorl	%r12d, %r12d
	testl	%eax, %eax
	je	.Lp_BB21_3
.Lp_BB21_8:
	subq	%r12, %r14
	addq	$-24, %r14
	rolq	$61, %r14
	movl	$4294967295, %eax
	cmpq	%rax, %r14
	cmovaeq	%rax, %r14
	leaq	32(%rsp), %rcx
	leaq	28(%rsp), %r8
	movq	%rbx, %rdi
	movl	%r15d, %esi
	movl	%r14d, %edx
	callq	tlsf_pools_place@PLT
	testl	%eax, %eax
	jne	.Lp_BB21_10
	movq	32(%rsp), %rsi
	movq	40(%rsp), %rdx
	movq	%rbx, %rdi
	callq	tlsf_pools_release@PLT
	jmp	.Lp_BB21_10
.Lp_BB21_1:
	xorl	%eax, %eax
.Lp_BB21_10:
	addq	$56, %rsp
	.cfi_def_cfa_offset 56
	popq	%rbx
	.cfi_def_cfa_offset 48
	popq	%r12
	.cfi_def_cfa_offset 40
	popq	%r13
	.cfi_def_cfa_offset 32
	popq	%r14
	.cfi_def_cfa_offset 24
	popq	%r15
	.cfi_def_cfa_offset 16
	popq	%rbp
	.cfi_def_cfa_offset 8
	retq
.Lp_BB21_3:
	.cfi_def_cfa_offset 112
	leaq	12(%rsp), %r13
	xorl	%r15d, %r15d
	xorl	%ebp, %ebp
	jmp	.Lp_BB21_4
	.p2align	4
.Lp_BB21_6:
	movq	%rax, %r12
	movl	%ebp, %r15d
.Lp_BB21_7:
	incl	%ebp
	movq	%rbx, %rdi
	movl	%ebp, %esi
	leaq	16(%rsp), %rdx
	movq	%r13, %rcx
	callq	tlsf_pools_part@PLT
	testl	%eax, %eax
	jne	.Lp_BB21_8
.Lp_BB21_4:
	movq	16(%rsp), %rax
	testl	%ebp, %ebp
	je	.Lp_BB21_6
	movq	%r14, %rcx
	subq	%rax, %rcx
	movq	%r14, %rdx
	subq	%r12, %rdx
	cmpq	%rdx, %rcx
	jbe	.Lp_BB21_6
	jmp	.Lp_BB21_7
.Lp_func_end21:
	.size	tlsf_pools_free, .Lp_func_end21-tlsf_pools_free
	.cfi_endproc
	.globl	tlsf_pools_malloc
	.p2align	4
	.type	tlsf_pools_malloc,@function
tlsf_pools_malloc:
	.cfi_startproc
	pushq	%rbx
	.cfi_def_cfa_offset 16
	subq	$32, %rsp
	.cfi_def_cfa_offset 48
	.cfi_offset %rbx, -16
	movq	%rdi, %rbx
	movl	$0, 4(%rsp)
	leaq	4(%rsp), %rdx
	callq	tlsf_pools_row@PLT
	testl	%eax, %eax
	jne	.Lp_BB22_1
	movl	4(%rsp), %esi
	xorps	%xmm0, %xmm0
	movaps	%xmm0, 16(%rsp)
	movl	$0, (%rsp)
	movq	$0, 8(%rsp)
	leaq	16(%rsp), %rdx
	movq	%rbx, %rdi
	callq	tlsf_pools_allocate@PLT
	testl	%eax, %eax
	jne	.Lp_BB22_1
	leaq	8(%rsp), %rdx
	movq	%rsp, %rcx
	movq	%rbx, %rdi
	xorl	%esi, %esi
	callq	tlsf_pools_part@PLT
	testl	%eax, %eax
	je	.Lp_BB22_6
.Lp_BB22_1:
	xorl	%eax, %eax
.Lp_BB22_10:
	addq	$32, %rsp
	.cfi_def_cfa_offset 16
	popq	%rbx
	.cfi_def_cfa_offset 8
	retq
.Lp_BB22_6:
	.cfi_def_cfa_offset 48
	movl	16(%rsp), %esi
	subl	(%rsp), %esi
	je	.Lp_BB22_9
	leaq	8(%rsp), %rdx
	movq	%rsp, %rcx
	movq	%rbx, %rdi
	callq	tlsf_pools_part@PLT
	testl	%eax, %eax
	jne	.Lp_BB22_1
.Lp_BB22_9:
	movq	8(%rsp), %rax
	movl	20(%rsp), %ecx
	leaq	(%rax,%rcx,8), %rax
	addq	$24, %rax
	jmp	.Lp_BB22_10
.Lp_func_end22:
	.size	tlsf_pools_malloc, .Lp_func_end22-tlsf_pools_malloc
	.cfi_endproc
	.globl	tlsf_pools_realloc
	.p2align	4
	.type	tlsf_pools_realloc,@function
tlsf_pools_realloc:
	.cfi_startproc
	pushq	%rbp
	.cfi_def_cfa_offset 16
	pushq	%r15
	.cfi_def_cfa_offset 24
	pushq	%r14
	.cfi_def_cfa_offset 32
	pushq	%r13
	.cfi_def_cfa_offset 40
	pushq	%r12
	.cfi_def_cfa_offset 48
	pushq	%rbx
	.cfi_def_cfa_offset 56
	subq	$72, %rsp
	.cfi_def_cfa_offset 128
	.cfi_offset %rbx, -56
	.cfi_offset %r12, -48
	.cfi_offset %r13, -40
	.cfi_offset %r14, -32
	.cfi_offset %r15, -24
	.cfi_offset %rbp, -16
	movq	%rdx, %rbp
	movq	%rdi, %r13
	xorps	%xmm0, %xmm0
	movaps	%xmm0, 48(%rsp)
	movl	$0, 8(%rsp)
	movl	$0, 28(%rsp)
	testq	%rsi, %rsi
	je	.Lp_BB23_4
	movq	%rsi, %rbx
	testq	%rbp, %rbp
	je	.Lp_BB23_5
	movl	$0, 16(%rsp)
	movq	$0, 32(%rsp)
	xorl	%r12d, %r12d
	leaq	32(%rsp), %rdx
	leaq	16(%rsp), %rcx
	movq	%r13, %rdi
	xorl	%esi, %esi
	callq	tlsf_pools_part@PLT
	testl	%eax, %eax
	je	.Lp_BB23_6
	xorl	%r14d, %r14d
	jmp	.Lp_BB23_12
.Lp_BB23_4:
	movq	%r13, %rdi
	movq	%rbp, %rsi
	addq	$72, %rsp
	.cfi_def_cfa_offset 56
	popq	%rbx
	.cfi_def_cfa_offset 48
	popq	%r12
	.cfi_def_cfa_offset 40
	popq	%r13
	.cfi_def_cfa_offset 32
	popq	%r14
	.cfi_def_cfa_offset 24
	popq	%r15
	.cfi_def_cfa_offset 16
	popq	%rbp
	.cfi_def_cfa_offset 8
	jmp	tlsf_pools_malloc@PLT
.Lp_BB23_5:
	.cfi_def_cfa_offset 128
	movq	%r13, %rdi
	movq	%rbx, %rsi
	callq	tlsf_pools_free@PLT
	jmp	.Lp_BB23_19
.Lp_BB23_6:
	movq	%rbp, 64(%rsp)
	xorl	%r14d, %r14d
	leaq	16(%rsp), %rbp
	xorl	%r12d, %r12d
	xorl	%r15d, %r15d
	jmp	.Lp_BB23_9
	.p2align	4
.Lp_BB23_7:
	movq	%rax, %r14
	movl	%r15d, %r12d
.Lp_BB23_8:
	incl	%r15d
	movq	%r13, %rdi
	movl	%r15d, %esi
	leaq	32(%rsp), %rdx
	movq	%rbp, %rcx
	callq	tlsf_pools_part@PLT
	testl	%eax, %eax
	jne	.Lp_BB23_11
.Lp_BB23_9:
	movq	32(%rsp), %rax
	testl	%r15d, %r15d
	je	.Lp_BB23_7
	movq	%rbx, %rcx
	subq	%rax, %rcx
	movq	%rbx, %rdx
	subq	%r14, %rdx
	cmpq	%rdx, %rcx
	jbe	.Lp_BB23_7
	jmp	.Lp_BB23_8
.Lp_BB23_11:
	movq	64(%rsp), %rbp
.Lp_BB23_12:
	movq	%rbx, %rdx
	subq	%r14, %rdx
	addq	$-24, %rdx
	rolq	$61, %rdx
	movl	$4294967295, %eax
	cmpq	%rax, %rdx
	cmovaeq	%rax, %rdx
	leaq	48(%rsp), %rcx
	leaq	8(%rsp), %r8
	movq	%r13, %rdi
	movl	%r12d, %esi
	callq	tlsf_pools_place@PLT
	testl	%eax, %eax
	jne	.Lp_BB23_19
	leaq	28(%rsp), %rdx
	movq	%r13, %rdi
	movq	%rbp, %rsi
	callq	tlsf_pools_row@PLT
	testl	%eax, %eax
	je	.Lp_BB23_16
.Lp_BB23_19:
	xorl	%ebx, %ebx
.Lp_BB23_20:
	movq	%rbx, %rax
	addq	$72, %rsp
	.cfi_def_cfa_offset 56
	popq	%rbx
	.cfi_def_cfa_offset 48
	popq	%r12
	.cfi_def_cfa_offset 40
	popq	%r13
	.cfi_def_cfa_offset 32
	popq	%r14
	.cfi_def_cfa_offset 24
	popq	%r15
	.cfi_def_cfa_offset 16
	popq	%rbp
	.cfi_def_cfa_offset 8
	retq
.Lp_BB23_16:
	.cfi_def_cfa_offset 128
	movl	8(%rsp), %ecx
	movl	%ecx, %eax
	cmpq	%rax, %rbp
	seta	%dl
	movl	28(%rsp), %eax
	cmpl	%eax, %ecx
	seta	%cl
	orb	%dl, %cl
	cmpb	$1, %cl
	jne	.Lp_BB23_20
	movl	%eax, %esi
	xorps	%xmm0, %xmm0
	movaps	%xmm0, 32(%rsp)
	movl	$0, 12(%rsp)
	movq	$0, 16(%rsp)
	leaq	32(%rsp), %rdx
	movq	%r13, %rdi
	callq	tlsf_pools_allocate@PLT
	testl	%eax, %eax
	jne	.Lp_BB23_19
	leaq	16(%rsp), %rdx
	leaq	12(%rsp), %rcx
	movq	%r13, %rdi
	xorl	%esi, %esi
	callq	tlsf_pools_part@PLT
	testl	%eax, %eax
	jne	.Lp_BB23_19
	movl	32(%rsp), %esi
	subl	12(%rsp), %esi
	je	.Lp_BB23_23
	leaq	16(%rsp), %rdx
	leaq	12(%rsp), %rcx
	movq	%r13, %rdi
	callq	tlsf_pools_part@PLT
	testl	%eax, %eax
	jne	.Lp_BB23_19
.Lp_BB23_23:
	movq	16(%rsp), %rax
	movl	36(%rsp), %ecx
	leaq	(%rax,%rcx,8), %r15
	addq	$24, %r15
	movl	8(%rsp), %edx
	cmpq	%rdx, %rbp
	cmovbq	%rbp, %rdx
	movq	%r15, %rdi
	movq	%rbx, %rsi
	callq	memcpy@PLT
	movq	48(%rsp), %rsi
	movq	56(%rsp), %rdx
	movq	%r13, %rdi
	callq	tlsf_pools_release@PLT
	movq	%r15, %rbx
	jmp	.Lp_BB23_20
.Lp_func_end23:
	.size	tlsf_pools_realloc, .Lp_func_end23-tlsf_pools_realloc
	.cfi_endproc
	.globl	tlsf_text_of
	.p2align	4
	.type	tlsf_text_of,@function
tlsf_text_of:
	.cfi_startproc
	cmpl	$40, %edi
	ja	.Lp_BB24_1
	movl	%edi, %eax
	leaq	.Lp_switch.table.tlsf_text_of.rel(%rip), %rcx
	movslq	(%rcx,%rax,4), %rax
	addq	%rcx, %rax
	retq
.Lp_BB24_1:
	leaq	.L.str.20(%rip), %rax
	retq
.Lp_func_end24:
	.size	tlsf_text_of, .Lp_func_end24-tlsf_text_of
	.cfi_endproc
	.section	.text.unlikely.,"ax",@progbits
	.type	tlsf_too_long,@function
tlsf_too_long:
	.cfi_startproc
	subq	$24, %rsp
	.cfi_def_cfa_offset 32
	xorps	%xmm0, %xmm0
	movq	%rsp, %rdx
	movaps	%xmm0, (%rdx)
	movq	$0, 16(%rdx)
	movl	$-1, %esi
	callq	tlsf_block_at@PLT
	cmpl	$32, %eax
	movl	$1, %ecx
	cmovnel	%ecx, %eax
	addq	$24, %rsp
	.cfi_def_cfa_offset 8
	retq
.Lp_func_end25:
	.size	tlsf_too_long, .Lp_func_end25-tlsf_too_long
	.cfi_endproc
	.type	tlsf_mixed_place,@function
tlsf_mixed_place:
	.cfi_startproc
	pushq	%r15
	.cfi_def_cfa_offset 16
	pushq	%r14
	.cfi_def_cfa_offset 24
	pushq	%rbx
	.cfi_def_cfa_offset 32
	.cfi_offset %rbx, -32
	.cfi_offset %r14, -24
	.cfi_offset %r15, -16
	movq	%rdx, %rcx
	movq	%rsi, %r14
	movq	%rdi, %rbx
	movzbl	29(%rdi), %eax
	testq	%rax, %rax
	movl	$16, %r15d
	cmovnel	%eax, %r15d
	testb	$-17, %al
	je	.Lp_BB26_1
	cmpq	$1, %r14
	adcq	%rax, %r14
	addq	$23, %r14
	negq	%rax
	andq	%r14, %rax
	addq	$-24, %rax
	movq	%rax, %r14
	jmp	.Lp_BB26_3
.Lp_BB26_1:
	addl	$7, %r14d
	andl	$536870896, %r14d
	orq	$8, %r14
.Lp_BB26_3:
	cmpq	%r15, %rcx
	ja	.Lp_BB26_7
	movq	%rbx, %rdi
	movq	%r14, %rsi
	callq	tlsf_allocate_place@PLT
	movq	%rax, %rcx
	shrq	$32, %rcx
	jne	.Lp_BB26_8
	movq	16(%rbx), %rcx
	leaq	(%rcx,%rax,8), %rcx
	addq	$24, %rcx
	leaq	-1(%r15), %rsi
	testq	%rcx, %rsi
	je	.Lp_BB26_8
	movq	%rbx, %rdi
	movl	%eax, %esi
	callq	tlsf_release_place@PLT
	movq	%r15, %rcx
.Lp_BB26_7:
	movq	%rcx, %rdx
	shrq	$3, %rdx
	decl	%ecx
	andl	16(%rbx), %ecx
	shrl	$3, %ecx
	movq	%rbx, %rdi
	movq	%r14, %rsi
	callq	tlsf_allocate_aligned@PLT
.Lp_BB26_8:
	popq	%rbx
	.cfi_def_cfa_offset 24
	popq	%r14
	.cfi_def_cfa_offset 16
	popq	%r15
	.cfi_def_cfa_offset 8
	retq
.Lp_func_end26:
	.size	tlsf_mixed_place, .Lp_func_end26-tlsf_mixed_place
	.cfi_endproc
	.type	tlsf_malloc_own,@function
tlsf_malloc_own:
	.cfi_startproc
	cmpq	$134217728, %rsi
	jbe	.Lp_BB27_3
	xorl	%eax, %eax
	retq
.Lp_BB27_3:
	pushq	%rbx
	.cfi_def_cfa_offset 16
	.cfi_offset %rbx, -16
	movq	%rdi, %rbx
	movl	$1, %edx
	callq	tlsf_mixed_place
	movq	%rax, %rcx
	shrq	$32, %rcx
	jne	.Lp_BB27_4
	movq	16(%rbx), %rcx
	leaq	(%rcx,%rax,8), %rax
	addq	$24, %rax
	jmp	.Lp_BB27_6
.Lp_BB27_4:
	xorl	%eax, %eax
.Lp_BB27_6:
	popq	%rbx
	.cfi_def_cfa_offset 8
	.cfi_restore %rbx
	retq
.Lp_func_end27:
	.size	tlsf_malloc_own, .Lp_func_end27-tlsf_malloc_own
	.cfi_endproc
	.type	tlsf_malloc_again,@function
tlsf_malloc_again:
	.cfi_startproc
	pushq	%rbx
	.cfi_def_cfa_offset 16
	subq	$32, %rsp
	.cfi_def_cfa_offset 48
	.cfi_offset %rbx, -16
	movq	%rdi, %rbx
	xorps	%xmm0, %xmm0
	movq	%rsp, %rdx
	movaps	%xmm0, (%rdx)
	movq	$0, 16(%rdx)
	subq	16(%rdi), %rsi
	addq	$-24, %rsi
	rolq	$61, %rsi
	movl	$4294967295, %eax
	cmpq	%rax, %rsi
	cmovaeq	%rax, %rsi
	callq	tlsf_block_at@PLT
	testl	%eax, %eax
	jne	.Lp_BB28_1
	movl	(%rsp), %esi
	movq	%rbx, %rdi
	callq	tlsf_release_place@PLT
	movl	12(%rsp), %esi
	movl	16(%rbx), %ecx
	shrl	$3, %ecx
	andl	$1, %ecx
	movq	%rbx, %rdi
	movl	$2, %edx
	callq	tlsf_allocate_aligned@PLT
	movq	%rax, %rcx
	shrq	$32, %rcx
	jne	.Lp_BB28_1
	movq	16(%rbx), %rcx
	leaq	(%rcx,%rax,8), %rax
	addq	$24, %rax
	jmp	.Lp_BB28_4
.Lp_BB28_1:
	xorl	%eax, %eax
.Lp_BB28_4:
	addq	$32, %rsp
	.cfi_def_cfa_offset 16
	popq	%rbx
	.cfi_def_cfa_offset 8
	retq
.Lp_func_end28:
	.size	tlsf_malloc_again, .Lp_func_end28-tlsf_malloc_again
	.cfi_endproc
	.type	.L.str,@object
	.section	.rodata.str1.1,"aMS",@progbits,1
.L.str:
	.asciz	"done"
	.size	.L.str, 5
	.type	.L.str.1,@object
.L.str.1:
	.asciz	"no free block fits"
	.size	.L.str.1, 19
	.type	.L.str.2,@object
.L.str.2:
	.asciz	"the ticks or the numbers are used up"
	.size	.L.str.2, 37
	.type	.L.str.3,@object
.L.str.3:
	.asciz	"a name of another heap"
	.size	.L.str.3, 23
	.type	.L.str.4,@object
.L.str.4:
	.asciz	"no live block has that name or address"
	.size	.L.str.4, 39
	.type	.L.str.5,@object
.L.str.5:
	.asciz	"a size out of range"
	.size	.L.str.5, 20
	.type	.L.str.6,@object
.L.str.6:
	.asciz	"no memory"
	.size	.L.str.6, 10
	.type	.L.str.7,@object
.L.str.7:
	.asciz	"bytes past the end of the payload"
	.size	.L.str.7, 34
	.type	.L.str.8,@object
.L.str.8:
	.asciz	"the lane or queue is full"
	.size	.L.str.8, 26
	.type	.L.str.9,@object
.L.str.9:
	.asciz	"no room where the block stands"
	.size	.L.str.9, 31
	.type	.L.str.10,@object
.L.str.10:
	.asciz	"a line was not written"
	.size	.L.str.10, 23
	.type	.L.str.11,@object
.L.str.11:
	.asciz	"the handle is closed"
	.size	.L.str.11, 21
	.type	.L.str.12,@object
.L.str.12:
	.asciz	"the handle is open already"
	.size	.L.str.12, 27
	.type	.L.str.13,@object
.L.str.13:
	.asciz	"a level is 4 or 5"
	.size	.L.str.13, 18
	.type	.L.str.14,@object
.L.str.14:
	.asciz	"the lane or queue is empty"
	.size	.L.str.14, 27
	.type	.L.str.15,@object
.L.str.15:
	.asciz	"a header is damaged"
	.size	.L.str.15, 20
	.type	.L.str.16,@object
.L.str.16:
	.asciz	"another thread is in the way: try again"
	.size	.L.str.16, 40
	.type	.L.str.17,@object
.L.str.17:
	.asciz	"all blocks of that row are held"
	.size	.L.str.17, 32
	.type	.L.str.18,@object
.L.str.18:
	.asciz	"memory that is null, or past the end of the address space"
	.size	.L.str.18, 58
	.type	.L.str.19,@object
.L.str.19:
	.asciz	"the handle holds something of another kind"
	.size	.L.str.19, 43
	.type	.L.str.20,@object
.L.str.20:
	.asciz	"no answer of this library"
	.size	.L.str.20, 26
	.type	.Lp_switch.table.tlsf_text_of.rel,@object
	.section	.rodata,"a",@progbits
	.p2align	2, 0x0
.Lp_switch.table.tlsf_text_of.rel:
	.long	.L.str-.Lp_switch.table.tlsf_text_of.rel
	.long	.L.str.1-.Lp_switch.table.tlsf_text_of.rel
	.long	.L.str.2-.Lp_switch.table.tlsf_text_of.rel
	.long	.L.str.3-.Lp_switch.table.tlsf_text_of.rel
	.long	.L.str.4-.Lp_switch.table.tlsf_text_of.rel
	.long	.L.str.5-.Lp_switch.table.tlsf_text_of.rel
	.long	.L.str.6-.Lp_switch.table.tlsf_text_of.rel
	.long	.L.str.7-.Lp_switch.table.tlsf_text_of.rel
	.long	.L.str.8-.Lp_switch.table.tlsf_text_of.rel
	.long	.L.str.20-.Lp_switch.table.tlsf_text_of.rel
	.long	.L.str.9-.Lp_switch.table.tlsf_text_of.rel
	.long	.L.str.20-.Lp_switch.table.tlsf_text_of.rel
	.long	.L.str.20-.Lp_switch.table.tlsf_text_of.rel
	.long	.L.str.20-.Lp_switch.table.tlsf_text_of.rel
	.long	.L.str.20-.Lp_switch.table.tlsf_text_of.rel
	.long	.L.str.20-.Lp_switch.table.tlsf_text_of.rel
	.long	.L.str.20-.Lp_switch.table.tlsf_text_of.rel
	.long	.L.str.10-.Lp_switch.table.tlsf_text_of.rel
	.long	.L.str.20-.Lp_switch.table.tlsf_text_of.rel
	.long	.L.str.20-.Lp_switch.table.tlsf_text_of.rel
	.long	.L.str.20-.Lp_switch.table.tlsf_text_of.rel
	.long	.L.str.20-.Lp_switch.table.tlsf_text_of.rel
	.long	.L.str.20-.Lp_switch.table.tlsf_text_of.rel
	.long	.L.str.20-.Lp_switch.table.tlsf_text_of.rel
	.long	.L.str.20-.Lp_switch.table.tlsf_text_of.rel
	.long	.L.str.20-.Lp_switch.table.tlsf_text_of.rel
	.long	.L.str.20-.Lp_switch.table.tlsf_text_of.rel
	.long	.L.str.20-.Lp_switch.table.tlsf_text_of.rel
	.long	.L.str.20-.Lp_switch.table.tlsf_text_of.rel
	.long	.L.str.20-.Lp_switch.table.tlsf_text_of.rel
	.long	.L.str.20-.Lp_switch.table.tlsf_text_of.rel
	.long	.L.str.20-.Lp_switch.table.tlsf_text_of.rel
	.long	.L.str.11-.Lp_switch.table.tlsf_text_of.rel
	.long	.L.str.12-.Lp_switch.table.tlsf_text_of.rel
	.long	.L.str.13-.Lp_switch.table.tlsf_text_of.rel
	.long	.L.str.14-.Lp_switch.table.tlsf_text_of.rel
	.long	.L.str.15-.Lp_switch.table.tlsf_text_of.rel
	.long	.L.str.16-.Lp_switch.table.tlsf_text_of.rel
	.long	.L.str.17-.Lp_switch.table.tlsf_text_of.rel
	.long	.L.str.18-.Lp_switch.table.tlsf_text_of.rel
	.long	.L.str.19-.Lp_switch.table.tlsf_text_of.rel
	.size	.Lp_switch.table.tlsf_text_of.rel, 164
	.ident	"clang version 22.1.8"
	.section	".note.GNU-stack","",@progbits
#endif
/* c/memory.c */
#ifdef TLSF_ONLY_CALLS
#elif defined(TLSF_NO_TLS)
	.text
	.hidden	tlsf_memory_alloc
	.globl	tlsf_memory_alloc
	.p2align	4
	.type	tlsf_memory_alloc,@function
tlsf_memory_alloc:
	.cfi_startproc
	cmpq	$8, %rsi
	ja	.Lm_BB0_1
	movq	near_room(%rip), %rsi
	testq	%rsi, %rsi
	je	.Lm_BB0_6
	subl	$1, pieces_first(%rip)
	jae	.Lm_BB0_6
	cmpq	$2776, %rdi
	ja	.Lm_BB0_1
	movq	$0, (%rsi)
	addq	$8, %rsi
	jmp	.Lm_BB0_16
.Lm_BB0_6:
	movq	lent(%rip), %r8
	testq	%r8, %r8
	je	.Lm_BB0_1
	movq	lent_step(%rip), %rsi
	leaq	(%rdi,%rsi), %rcx
	addq	$7, %rcx
	movq	%rcx, %rax
	orq	%rsi, %rax
	shrq	$32, %rax
	je	.Lm_BB0_11
	movq	%rcx, %rax
	xorl	%edx, %edx
	divq	%rsi
	cmpq	$268435456, %rdi
	ja	.Lm_BB0_1
	jmp	.Lm_BB0_12
.Lm_BB0_11:
	movl	%ecx, %eax
	xorl	%edx, %edx
	divl	%esi
	cmpq	$268435456, %rdi
	ja	.Lm_BB0_1
.Lm_BB0_12:
	addq	$8, %rdi
	movq	lent_end(%rip), %rax
	movq	%rax, %r9
	subq	%r8, %r9
	cmpq	%r9, %rdi
	jbe	.Lm_BB0_15
.Lm_BB0_1:
	xorl	%esi, %esi
.Lm_BB0_16:
	xorl	%eax, %eax
	testq	%rsi, %rsi
	setne	%al
	leaq	tlsf_memory_alloc.nothing(%rip), %rdx
	cmovneq	%rsi, %rdx
	retq
.Lm_BB0_15:
	leaq	8(%r8), %rsi
	subq	%rdx, %rcx
	leaq	(%r8,%rcx), %rdx
	cmpq	%r9, %rcx
	cmovbq	%rdx, %rax
	movq	%rax, lent(%rip)
	movq	$0, (%r8)
	jmp	.Lm_BB0_16
.Lm_func_end0:
	.size	tlsf_memory_alloc, .Lm_func_end0-tlsf_memory_alloc
	.cfi_endproc
	.hidden	tlsf_memory_dealloc
	.globl	tlsf_memory_dealloc
	.p2align	4
	.type	tlsf_memory_dealloc,@function
tlsf_memory_dealloc:
	.cfi_startproc
	retq
.Lm_func_end1:
	.size	tlsf_memory_dealloc, .Lm_func_end1-tlsf_memory_dealloc
	.cfi_endproc
	.hidden	tlsf_memory_realloc
	.globl	tlsf_memory_realloc
	.p2align	4
	.type	tlsf_memory_realloc,@function
tlsf_memory_realloc:
	.cfi_startproc
	movq	%rdx, %r9
	leaq	tlsf_memory_alloc.nothing(%rip), %rdx
	cmpq	$8, %rcx
	jbe	.Lm_BB2_2
	xorl	%eax, %eax
	retq
.Lm_BB2_2:
	pushq	%rbx
	.cfi_def_cfa_offset 16
	.cfi_offset %rbx, -16
	movq	near_room(%rip), %rbx
	testq	%rbx, %rbx
	je	.Lm_BB2_6
	subl	$1, pieces_first(%rip)
	jae	.Lm_BB2_6
	cmpq	$2776, %r9
	jbe	.Lm_BB2_16
	jmp	.Lm_BB2_5
.Lm_BB2_6:
	movq	lent(%rip), %rbx
	testq	%rbx, %rbx
	je	.Lm_BB2_5
	movq	%rdx, %rcx
	movq	lent_step(%rip), %r10
	leaq	(%r9,%r10), %r8
	addq	$7, %r8
	movq	%r8, %rax
	orq	%r10, %rax
	shrq	$32, %rax
	je	.Lm_BB2_10
	movq	%r8, %rax
	xorl	%edx, %edx
	divq	%r10
	movq	%rdx, %rax
	jmp	.Lm_BB2_11
.Lm_BB2_10:
	movl	%r8d, %eax
	xorl	%edx, %edx
	divl	%r10d
	movl	%edx, %eax
.Lm_BB2_11:
	cmpq	$268435456, %r9
	movq	%rcx, %rdx
	ja	.Lm_BB2_5
	addq	$8, %r9
	movq	lent_end(%rip), %rcx
	movq	%rcx, %r10
	subq	%rbx, %r10
	cmpq	%r10, %r9
	jbe	.Lm_BB2_15
.Lm_BB2_5:
	xorl	%eax, %eax
	popq	%rbx
	.cfi_def_cfa_offset 8
	.cfi_restore %rbx
	retq
.Lm_BB2_15:
	.cfi_def_cfa_offset 16
	.cfi_offset %rbx, -16
	subq	%rax, %r8
	leaq	(%rbx,%r8), %rax
	cmpq	%r10, %r8
	cmovbq	%rax, %rcx
	movq	%rcx, lent(%rip)
.Lm_BB2_16:
	movq	$0, (%rbx)
	addq	$8, %rbx
	movq	%rdi, %rax
	movq	%rbx, %rdi
	movq	%rsi, %rdx
	movq	%rax, %rsi
	callq	memcpy@PLT
	movl	$1, %eax
	movq	%rbx, %rdx
	popq	%rbx
	.cfi_def_cfa_offset 8
	.cfi_restore %rbx
	retq
.Lm_func_end2:
	.size	tlsf_memory_realloc, .Lm_func_end2-tlsf_memory_realloc
	.cfi_endproc
	.hidden	tlsf_memory_set
	.weak	tlsf_memory_set
	.p2align	4
	.type	tlsf_memory_set,@function
tlsf_memory_set:
	.cfi_startproc
	testl	%esi, %esi
	jne	memset@PLT
	cmpq	$513, %rdx
	jae	memset@PLT
	cmpq	$257, %rdx
	jb	.Lm_BB3_4
	xorps	%xmm0, %xmm0
	movups	%xmm0, (%rdi)
	movups	%xmm0, -16(%rdi,%rdx)
	movups	%xmm0, 16(%rdi)
	movups	%xmm0, -32(%rdi,%rdx)
	movups	%xmm0, 32(%rdi)
	movups	%xmm0, -48(%rdi,%rdx)
	movups	%xmm0, 48(%rdi)
	movups	%xmm0, -64(%rdi,%rdx)
	movups	%xmm0, 64(%rdi)
	movups	%xmm0, -80(%rdi,%rdx)
	movups	%xmm0, 80(%rdi)
	movups	%xmm0, -96(%rdi,%rdx)
	movups	%xmm0, 96(%rdi)
	movups	%xmm0, -112(%rdi,%rdx)
	movups	%xmm0, 112(%rdi)
	movups	%xmm0, -128(%rdi,%rdx)
	movups	%xmm0, 128(%rdi)
	movups	%xmm0, -144(%rdi,%rdx)
	movups	%xmm0, 144(%rdi)
	movups	%xmm0, -160(%rdi,%rdx)
	movups	%xmm0, 160(%rdi)
	movups	%xmm0, -176(%rdi,%rdx)
	movups	%xmm0, 176(%rdi)
	movups	%xmm0, -192(%rdi,%rdx)
	movups	%xmm0, 192(%rdi)
	movups	%xmm0, -208(%rdi,%rdx)
	movups	%xmm0, 208(%rdi)
	movups	%xmm0, -224(%rdi,%rdx)
	movups	%xmm0, 224(%rdi)
	movups	%xmm0, -240(%rdi,%rdx)
	movups	%xmm0, 240(%rdi)
	movups	%xmm0, -256(%rdi,%rdx)
	movq	%rdi, %rax
	retq
.Lm_BB3_4:
	cmpq	$129, %rdx
	jb	.Lm_BB3_6
	xorps	%xmm0, %xmm0
	movups	%xmm0, (%rdi)
	movups	%xmm0, -16(%rdi,%rdx)
	movups	%xmm0, 16(%rdi)
	movups	%xmm0, -32(%rdi,%rdx)
	movups	%xmm0, 32(%rdi)
	movups	%xmm0, -48(%rdi,%rdx)
	movups	%xmm0, 48(%rdi)
	movups	%xmm0, -64(%rdi,%rdx)
	movups	%xmm0, 64(%rdi)
	movups	%xmm0, -80(%rdi,%rdx)
	movups	%xmm0, 80(%rdi)
	movups	%xmm0, -96(%rdi,%rdx)
	movups	%xmm0, 96(%rdi)
	movups	%xmm0, -112(%rdi,%rdx)
	movups	%xmm0, 112(%rdi)
	movups	%xmm0, -128(%rdi,%rdx)
	movq	%rdi, %rax
	retq
.Lm_BB3_6:
	cmpq	$65, %rdx
	jb	.Lm_BB3_8
	xorps	%xmm0, %xmm0
	movups	%xmm0, (%rdi)
	movups	%xmm0, -16(%rdi,%rdx)
	movups	%xmm0, 16(%rdi)
	movups	%xmm0, -32(%rdi,%rdx)
	movups	%xmm0, 32(%rdi)
	movups	%xmm0, -48(%rdi,%rdx)
	movups	%xmm0, 48(%rdi)
	movups	%xmm0, -64(%rdi,%rdx)
	movq	%rdi, %rax
	retq
.Lm_BB3_8:
	cmpq	$33, %rdx
	jb	.Lm_BB3_10
	xorps	%xmm0, %xmm0
	movups	%xmm0, (%rdi)
	movups	%xmm0, -16(%rdi,%rdx)
	movups	%xmm0, 16(%rdi)
	movups	%xmm0, -32(%rdi,%rdx)
	movq	%rdi, %rax
	retq
.Lm_BB3_10:
	cmpq	$17, %rdx
	jb	.Lm_BB3_12
	xorps	%xmm0, %xmm0
	movups	%xmm0, (%rdi)
	movups	%xmm0, -16(%rdi,%rdx)
	movq	%rdi, %rax
	retq
.Lm_BB3_12:
	cmpq	$7, %rdx
	ja	.Lm_BB3_13
	xorl	%esi, %esi
	jmp	memset@PLT
.Lm_BB3_13:
	movq	$0, (%rdi)
	movq	$0, -8(%rdi,%rdx)
	movq	%rdi, %rax
	retq
.Lm_func_end3:
	.size	tlsf_memory_set, .Lm_func_end3-tlsf_memory_set
	.cfi_endproc
	.hidden	tlsf_memory_cpy
	.weak	tlsf_memory_cpy
	.p2align	4
	.type	tlsf_memory_cpy,@function
tlsf_memory_cpy:
	.cfi_startproc
	jmp	memcpy@PLT
.Lm_func_end4:
	.size	tlsf_memory_cpy, .Lm_func_end4-tlsf_memory_cpy
	.cfi_endproc
	.hidden	tlsf_memory_move
	.weak	tlsf_memory_move
	.p2align	4
	.type	tlsf_memory_move,@function
tlsf_memory_move:
	.cfi_startproc
	jmp	memmove@PLT
.Lm_func_end5:
	.size	tlsf_memory_move, .Lm_func_end5-tlsf_memory_move
	.cfi_endproc
	.globl	tlsf_bytes
	.p2align	4
	.type	tlsf_bytes,@function
tlsf_bytes:
	.cfi_startproc
	xorl	%eax, %eax
	cmpl	$4, %esi
	jb	.Lm_BB6_4
	cmpl	$5, %edi
	sete	%al
	shll	$24, %eax
	cmpl	$4, %edi
	movl	$1048576, %ecx
	cmovneq	%rax, %rcx
	cmpl	%esi, %ecx
	jae	.Lm_BB6_3
	xorl	%eax, %eax
	retq
.Lm_BB6_3:
	movl	%esi, %eax
	leaq	23(,%rax,8), %rcx
	andq	$-16, %rcx
	addq	$63, %rax
	shrq	$3, %rax
	addl	$16, %eax
	andl	$-16, %eax
	addq	%rcx, %rax
	addq	$2783, %rax
.Lm_BB6_4:
	retq
.Lm_func_end6:
	.size	tlsf_bytes, .Lm_func_end6-tlsf_bytes
	.cfi_endproc
	.globl	tlsf_near_bytes
	.p2align	4
	.type	tlsf_near_bytes,@function
tlsf_near_bytes:
	.cfi_startproc
	xorl	%eax, %eax
	cmpl	$4, %esi
	jb	.Lm_BB7_4
	cmpl	$5, %edi
	sete	%al
	shll	$24, %eax
	cmpl	$4, %edi
	movl	$1048576, %ecx
	cmovneq	%rax, %rcx
	cmpl	%esi, %ecx
	jae	.Lm_BB7_3
	xorl	%eax, %eax
	retq
.Lm_BB7_3:
	movl	%esi, %eax
	leaq	23(,%rax,8), %rcx
	andq	$-16, %rcx
	addq	$63, %rax
	shrq	$6, %rax
	leaq	(%rcx,%rax,8), %rax
	addq	$23, %rax
.Lm_BB7_4:
	retq
.Lm_func_end7:
	.size	tlsf_near_bytes, .Lm_func_end7-tlsf_near_bytes
	.cfi_endproc
	.globl	tlsf_open_in
	.p2align	4
	.type	tlsf_open_in,@function
tlsf_open_in:
	.cfi_startproc
	pushq	%rbp
	.cfi_def_cfa_offset 16
	pushq	%r15
	.cfi_def_cfa_offset 24
	pushq	%r14
	.cfi_def_cfa_offset 32
	pushq	%r13
	.cfi_def_cfa_offset 40
	pushq	%r12
	.cfi_def_cfa_offset 48
	pushq	%rbx
	.cfi_def_cfa_offset 56
	pushq	%rax
	.cfi_def_cfa_offset 64
	.cfi_offset %rbx, -56
	.cfi_offset %r12, -48
	.cfi_offset %r13, -40
	.cfi_offset %r14, -32
	.cfi_offset %r15, -24
	.cfi_offset %rbp, -16
	movq	%rdi, %rbx
	movzbl	29(%rdi), %edi
	testq	%rdi, %rdi
	je	.Lm_BB8_3
	leal	-65(%rdi), %eax
	cmpb	$-57, %al
	jb	.Lm_BB8_2
	leal	127(%rdi), %eax
	testl	%edi, %eax
	je	.Lm_BB8_6
.Lm_BB8_2:
	xorl	%eax, %eax
	jmp	.Lm_BB8_11
.Lm_BB8_3:
	movl	$16, %r10d
	jmp	.Lm_BB8_7
.Lm_BB8_6:
	cmpq	$17, %rdi
	movl	$16, %r10d
	cmovaeq	%rdi, %r10
.Lm_BB8_7:
	movl	%edx, %r9d
	movq	$-32, %rax
	subq	%rcx, %rax
	movq	%rax, %rdx
	shrq	$32, %rdx
	je	.Lm_BB8_9
	xorl	%edx, %edx
	divq	%r10
	movq	%rdx, %rax
	jmp	.Lm_BB8_10
.Lm_BB8_9:
	xorl	%edx, %edx
	divl	%r10d
	movl	%edx, %eax
.Lm_BB8_10:
	movl	%r9d, %edx
.Lm_BB8_11:
	xorl	%r9d, %r9d
	movq	%rcx, %r10
	notq	%r10
	testq	%rcx, %rcx
	je	.Lm_BB8_18
	cmpq	%r10, %r8
	ja	.Lm_BB8_18
	movq	%r8, %r15
	subq	%rax, %r15
	jb	.Lm_BB8_18
	xorl	%r14d, %r14d
	cmpl	$5, %esi
	sete	%r14b
	shll	$24, %r14d
	cmpl	$4, %esi
	movl	$1048576, %r11d
	cmovneq	%r14, %r11
	cmpq	$2832, %r15
	jb	.Lm_BB8_18
	cmpq	$268435456, %r15
	movl	$268435456, %r14d
	cmovbq	%r15, %r14
	leal	-22400(,%r14,8), %r15d
	movl	$4228890877, %r9d
	imulq	%r15, %r9
	shrq	$38, %r9
	leaq	87(,%r9,8), %r15
	addq	$71, %r9
	.p2align	4
.Lm_BB8_16:
	movq	%r15, %r12
	andq	$-16, %r12
	movq	%r9, %r13
	shrq	$3, %r13
	addq	$16, %r13
	andq	$-16, %r13
	addq	%r13, %r12
	addq	$2768, %r12
	decq	%r9
	addq	$-8, %r15
	cmpq	%r14, %r12
	ja	.Lm_BB8_16
	addq	$-62, %r9
	cmpq	%r11, %r9
	cmovaeq	%r11, %r9
.Lm_BB8_18:
	testq	%rcx, %rcx
	setne	%r11b
	cmpq	%r10, %r8
	setbe	%bpl
	andb	%r11b, %bpl
	cmpq	%r8, %rax
	cmovaeq	%r8, %rax
	addq	%rcx, %rax
	leaq	begin_behind.nothing(%rip), %r10
	addq	%r8, %rcx
	testb	%bpl, %bpl
	cmoveq	%r10, %rax
	cmoveq	%r10, %rcx
	movq	%rax, lent(%rip)
	movq	%rcx, lent_end(%rip)
	movq	$16, lent_step(%rip)
	testq	%rdi, %rdi
	je	.Lm_BB8_21
	leal	-65(%rdi), %eax
	xorl	%ecx, %ecx
	cmpb	$-57, %al
	jb	.Lm_BB8_22
	leal	127(%rdi), %eax
	testb	%dil, %al
	jne	.Lm_BB8_22
.Lm_BB8_21:
	movl	%r9d, %ecx
.Lm_BB8_22:
	movq	%rbx, %rdi
	callq	tlsf_open@PLT
	testl	%eax, %eax
	je	.Lm_BB8_24
	movq	$0, lent(%rip)
	cmpl	$5, %eax
	sete	%dl
	notb	%bpl
	movl	$39, %ecx
	testb	%dl, %bpl
	je	.Lm_BB8_27
	jmp	.Lm_BB8_28
.Lm_BB8_24:
	movzbl	29(%rbx), %ecx
	testb	$-17, %cl
	je	.Lm_BB8_26
	movb	$1, 28(%rbx)
.Lm_BB8_26:
	movq	$0, lent(%rip)
.Lm_BB8_27:
	movl	%eax, %ecx
.Lm_BB8_28:
	movl	%ecx, %eax
	addq	$8, %rsp
	.cfi_def_cfa_offset 56
	popq	%rbx
	.cfi_def_cfa_offset 48
	popq	%r12
	.cfi_def_cfa_offset 40
	popq	%r13
	.cfi_def_cfa_offset 32
	popq	%r14
	.cfi_def_cfa_offset 24
	popq	%r15
	.cfi_def_cfa_offset 16
	popq	%rbp
	.cfi_def_cfa_offset 8
	retq
.Lm_func_end8:
	.size	tlsf_open_in, .Lm_func_end8-tlsf_open_in
	.cfi_endproc
	.globl	tlsf_open_near
	.p2align	4
	.type	tlsf_open_near,@function
tlsf_open_near:
	.cfi_startproc
	pushq	%rbx
	.cfi_def_cfa_offset 16
	.cfi_offset %rbx, -16
	movl	%edi, %eax
	negl	%eax
	andl	$63, %eax
	leaq	(%rdi,%rax), %rbx
	leaq	(%rdi,%rax), %r8
	addq	$32, %r8
	movq	%r8, near_room(%rip)
	movl	$2, pieces_first(%rip)
	movzbl	29(%rdi,%rax), %edi
	testb	%dil, %dil
	je	.Lm_BB9_3
	leal	-65(%rdi), %r8d
	xorl	%eax, %eax
	cmpb	$-57, %r8b
	jb	.Lm_BB9_4
	leal	127(%rdi), %r8d
	testb	%dil, %r8b
	jne	.Lm_BB9_4
.Lm_BB9_3:
	movl	%ecx, %eax
.Lm_BB9_4:
	movq	%rbx, %rdi
	movl	%eax, %ecx
	callq	tlsf_open@PLT
	testl	%eax, %eax
	jne	.Lm_BB9_7
	movzbl	29(%rbx), %ecx
	testb	$-17, %cl
	je	.Lm_BB9_7
	movb	$1, 28(%rbx)
.Lm_BB9_7:
	movq	$0, near_room(%rip)
	popq	%rbx
	.cfi_def_cfa_offset 8
	retq
.Lm_func_end9:
	.size	tlsf_open_near, .Lm_func_end9-tlsf_open_near
	.cfi_endproc
	.globl	tlsf_open_near_in
	.p2align	4
	.type	tlsf_open_near_in,@function
tlsf_open_near_in:
	.cfi_startproc
	pushq	%rbp
	.cfi_def_cfa_offset 16
	pushq	%r15
	.cfi_def_cfa_offset 24
	pushq	%r14
	.cfi_def_cfa_offset 32
	pushq	%r13
	.cfi_def_cfa_offset 40
	pushq	%r12
	.cfi_def_cfa_offset 48
	pushq	%rbx
	.cfi_def_cfa_offset 56
	pushq	%rax
	.cfi_def_cfa_offset 64
	.cfi_offset %rbx, -56
	.cfi_offset %r12, -48
	.cfi_offset %r13, -40
	.cfi_offset %r14, -32
	.cfi_offset %r15, -24
	.cfi_offset %rbp, -16
	movq	%rdi, %rbx
	movl	%ebx, %r9d
	negl	%r9d
	andl	$63, %r9d
	leaq	(%rdi,%r9), %rax
	addq	$32, %rax
	movq	%rax, near_room(%rip)
	movl	$2, pieces_first(%rip)
	movzbl	29(%rdi,%r9), %edi
	testq	%rdi, %rdi
	je	.Lm_BB10_3
	leal	-65(%rdi), %eax
	cmpb	$-57, %al
	jb	.Lm_BB10_2
	leal	127(%rdi), %eax
	testl	%edi, %eax
	je	.Lm_BB10_6
.Lm_BB10_2:
	xorl	%eax, %eax
	jmp	.Lm_BB10_11
.Lm_BB10_3:
	movl	$16, %r11d
	jmp	.Lm_BB10_7
.Lm_BB10_6:
	cmpq	$17, %rdi
	movl	$16, %r11d
	cmovaeq	%rdi, %r11
.Lm_BB10_7:
	movl	%edx, %r10d
	movq	$-32, %rax
	subq	%rcx, %rax
	movq	%rax, %rdx
	shrq	$32, %rdx
	je	.Lm_BB10_9
	xorl	%edx, %edx
	divq	%r11
	movq	%rdx, %rax
	jmp	.Lm_BB10_10
.Lm_BB10_9:
	xorl	%edx, %edx
	divl	%r11d
	movl	%edx, %eax
.Lm_BB10_10:
	movl	%r10d, %edx
.Lm_BB10_11:
	xorl	%r10d, %r10d
	movq	%rcx, %r11
	notq	%r11
	testq	%rcx, %rcx
	je	.Lm_BB10_18
	cmpq	%r11, %r8
	ja	.Lm_BB10_18
	movq	%r8, %r12
	subq	%rax, %r12
	jb	.Lm_BB10_18
	xorl	%r15d, %r15d
	cmpl	$5, %esi
	sete	%r15b
	shll	$24, %r15d
	cmpl	$4, %esi
	movl	$1048576, %r14d
	cmovneq	%r15, %r14
	cmpq	$64, %r12
	jb	.Lm_BB10_18
	cmpq	$268435456, %r12
	movl	$268435456, %r15d
	cmovbq	%r12, %r15
	leal	-192(,%r15,8), %r12d
	movl	$4228890877, %r10d
	imulq	%r12, %r10
	shrq	$38, %r10
	leaq	87(,%r10,8), %r12
	addq	$71, %r10
	.p2align	4
.Lm_BB10_16:
	movq	%r12, %r13
	andq	$-16, %r13
	movq	%r10, %rbp
	shrq	$6, %rbp
	leaq	8(%r13,%rbp,8), %r13
	decq	%r10
	addq	$-8, %r12
	cmpq	%r15, %r13
	ja	.Lm_BB10_16
	addq	$-62, %r10
	cmpq	%r14, %r10
	cmovaeq	%r14, %r10
.Lm_BB10_18:
	addq	%r9, %rbx
	testq	%rcx, %rcx
	setne	%r9b
	cmpq	%r11, %r8
	setbe	%bpl
	andb	%r9b, %bpl
	cmpq	%r8, %rax
	cmovaeq	%r8, %rax
	addq	%rcx, %rax
	leaq	begin_behind.nothing(%rip), %r9
	addq	%r8, %rcx
	testb	%bpl, %bpl
	cmoveq	%r9, %rax
	cmoveq	%r9, %rcx
	movq	%rax, lent(%rip)
	movq	%rcx, lent_end(%rip)
	movq	$16, lent_step(%rip)
	testq	%rdi, %rdi
	je	.Lm_BB10_21
	leal	-65(%rdi), %eax
	xorl	%ecx, %ecx
	cmpb	$-57, %al
	jb	.Lm_BB10_22
	leal	127(%rdi), %eax
	testb	%dil, %al
	jne	.Lm_BB10_22
.Lm_BB10_21:
	movl	%r10d, %ecx
.Lm_BB10_22:
	movq	%rbx, %rdi
	callq	tlsf_open@PLT
	testl	%eax, %eax
	je	.Lm_BB10_24
	movq	$0, lent(%rip)
	cmpl	$5, %eax
	sete	%dl
	notb	%bpl
	movl	$39, %ecx
	testb	%dl, %bpl
	je	.Lm_BB10_27
	jmp	.Lm_BB10_28
.Lm_BB10_24:
	movzbl	29(%rbx), %ecx
	testb	$-17, %cl
	je	.Lm_BB10_26
	movb	$1, 28(%rbx)
.Lm_BB10_26:
	movq	$0, lent(%rip)
.Lm_BB10_27:
	movl	%eax, %ecx
.Lm_BB10_28:
	movq	$0, near_room(%rip)
	movl	%ecx, %eax
	addq	$8, %rsp
	.cfi_def_cfa_offset 56
	popq	%rbx
	.cfi_def_cfa_offset 48
	popq	%r12
	.cfi_def_cfa_offset 40
	popq	%r13
	.cfi_def_cfa_offset 32
	popq	%r14
	.cfi_def_cfa_offset 24
	popq	%r15
	.cfi_def_cfa_offset 16
	popq	%rbp
	.cfi_def_cfa_offset 8
	retq
.Lm_func_end10:
	.size	tlsf_open_near_in, .Lm_func_end10-tlsf_open_near_in
	.cfi_endproc
	.globl	tlsf_open_32
	.p2align	4
	.type	tlsf_open_32,@function
tlsf_open_32:
	.cfi_startproc
	pushq	%rbx
	.cfi_def_cfa_offset 16
	.cfi_offset %rbx, -16
	movq	%rdi, %rbx
	movzbl	29(%rdi), %edi
	testb	%dil, %dil
	je	.Lm_BB11_3
	leal	-65(%rdi), %r8d
	xorl	%eax, %eax
	cmpb	$-57, %r8b
	jb	.Lm_BB11_4
	leal	127(%rdi), %r8d
	testb	%dil, %r8b
	jne	.Lm_BB11_4
.Lm_BB11_3:
	movl	%ecx, %eax
.Lm_BB11_4:
	movq	%rbx, %rdi
	movl	%eax, %ecx
	callq	tlsf_open@PLT
	testl	%eax, %eax
	je	.Lm_BB11_5
.Lm_BB11_7:
	popq	%rbx
	.cfi_def_cfa_offset 8
	retq
.Lm_BB11_5:
	.cfi_def_cfa_offset 16
	movzbl	29(%rbx), %ecx
	testb	$-17, %cl
	je	.Lm_BB11_7
	movb	$1, 28(%rbx)
	popq	%rbx
	.cfi_def_cfa_offset 8
	retq
.Lm_func_end11:
	.size	tlsf_open_32, .Lm_func_end11-tlsf_open_32
	.cfi_endproc
	.globl	tlsf_open_in_32
	.p2align	4
	.type	tlsf_open_in_32,@function
tlsf_open_in_32:
	.cfi_startproc
	jmp	tlsf_open_in@PLT
.Lm_func_end12:
	.size	tlsf_open_in_32, .Lm_func_end12-tlsf_open_in_32
	.cfi_endproc
	.globl	tlsf_open_near_2880
	.p2align	4
	.type	tlsf_open_near_2880,@function
tlsf_open_near_2880:
	.cfi_startproc
	pushq	%rbx
	.cfi_def_cfa_offset 16
	.cfi_offset %rbx, -16
	movl	%edi, %eax
	negl	%eax
	andl	$63, %eax
	leaq	(%rdi,%rax), %rbx
	leaq	(%rdi,%rax), %r8
	addq	$32, %r8
	movq	%r8, near_room(%rip)
	movl	$2, pieces_first(%rip)
	movzbl	29(%rdi,%rax), %edi
	testb	%dil, %dil
	je	.Lm_BB13_3
	leal	-65(%rdi), %r8d
	xorl	%eax, %eax
	cmpb	$-57, %r8b
	jb	.Lm_BB13_4
	leal	127(%rdi), %r8d
	testb	%dil, %r8b
	jne	.Lm_BB13_4
.Lm_BB13_3:
	movl	%ecx, %eax
.Lm_BB13_4:
	movq	%rbx, %rdi
	movl	%eax, %ecx
	callq	tlsf_open@PLT
	testl	%eax, %eax
	jne	.Lm_BB13_7
	movzbl	29(%rbx), %ecx
	testb	$-17, %cl
	je	.Lm_BB13_7
	movb	$1, 28(%rbx)
.Lm_BB13_7:
	movq	$0, near_room(%rip)
	popq	%rbx
	.cfi_def_cfa_offset 8
	retq
.Lm_func_end13:
	.size	tlsf_open_near_2880, .Lm_func_end13-tlsf_open_near_2880
	.cfi_endproc
	.globl	tlsf_open_near_in_2880
	.p2align	4
	.type	tlsf_open_near_in_2880,@function
tlsf_open_near_in_2880:
	.cfi_startproc
	jmp	tlsf_open_near_in@PLT
.Lm_func_end14:
	.size	tlsf_open_near_in_2880, .Lm_func_end14-tlsf_open_near_in_2880
	.cfi_endproc
	.globl	tlsf_lane_bytes
	.p2align	4
	.type	tlsf_lane_bytes,@function
tlsf_lane_bytes:
	.cfi_startproc
	leal	(%rdi,%rdi,2), %eax
	movl	%edi, %ecx
	addl	$-1025, %ecx
	leal	135(,%rax,8), %edx
	andl	$130944, %edx
	addl	$895, %edx
	xorl	%eax, %eax
	cmpl	$-1024, %ecx
	cmovael	%edx, %eax
	retq
.Lm_func_end15:
	.size	tlsf_lane_bytes, .Lm_func_end15-tlsf_lane_bytes
	.cfi_endproc
	.globl	tlsf_lane_open_in
	.p2align	4
	.type	tlsf_lane_open_in,@function
tlsf_lane_open_in:
	.cfi_startproc
	cmpl	$1025, %edx
	jae	.Lm_BB16_1
	leal	(%rdx,%rdx,2), %eax
	leal	135(,%rax,8), %r9d
	andl	$130944, %r9d
	addl	$768, %r9d
	movl	%ecx, %eax
	negl	%eax
	andl	$127, %eax
	movq	%r8, %r10
	subq	%rax, %r10
	xorl	%r11d, %r11d
	cmpq	%r9, %r10
	cmovbl	%r11d, %edx
	cmpq	%rax, %r8
	movq	%rcx, %r9
	notq	%r9
	cmovbl	%r11d, %edx
	cmpq	%r9, %r8
	cmoval	%r11d, %edx
	testq	%rcx, %rcx
	cmovel	%r11d, %edx
	jmp	.Lm_BB16_3
.Lm_BB16_1:
	movl	%ecx, %eax
	negl	%eax
	andl	$127, %eax
	movq	%rcx, %r9
	notq	%r9
.Lm_BB16_3:
	pushq	%rbp
	.cfi_def_cfa_offset 16
	pushq	%rbx
	.cfi_def_cfa_offset 24
	pushq	%rax
	.cfi_def_cfa_offset 32
	.cfi_offset %rbx, -24
	.cfi_offset %rbp, -16
	testq	%rcx, %rcx
	setne	%bl
	cmpq	%r9, %r8
	setbe	%bpl
	cmpq	%r8, %rax
	cmovaeq	%r8, %rax
	addq	%rcx, %rax
	leaq	begin_behind.nothing(%rip), %r9
	addq	%r8, %rcx
	testb	%bpl, %bl
	cmoveq	%r9, %rax
	movq	%rax, lent(%rip)
	cmoveq	%r9, %rcx
	movq	%rcx, lent_end(%rip)
	movq	$128, lent_step(%rip)
	callq	tlsf_lane_open@PLT
	cmpl	$5, %eax
	movl	$39, %ecx
	cmovnel	%eax, %ecx
	testb	%bpl, %bl
	movq	$0, lent(%rip)
	cmovel	%ecx, %eax
	addq	$8, %rsp
	.cfi_def_cfa_offset 24
	popq	%rbx
	.cfi_def_cfa_offset 16
	popq	%rbp
	.cfi_def_cfa_offset 8
	retq
.Lm_func_end16:
	.size	tlsf_lane_open_in, .Lm_func_end16-tlsf_lane_open_in
	.cfi_endproc
	.globl	tlsf_queue_bytes
	.p2align	4
	.type	tlsf_queue_bytes,@function
tlsf_queue_bytes:
	.cfi_startproc
	movl	$1024, %eax
	movl	$1024, %ecx
	subl	%edi, %ecx
	subl	%esi, %eax
	orl	%ecx, %eax
	cmpl	$1023, %eax
	ja	.Lm_BB17_1
	movl	%edi, %eax
	movl	%esi, %ecx
	movq	%rax, %rdx
	shlq	$4, %rdx
	addq	$135, %rdx
	movabsq	$68719476608, %rsi
	andq	%rdx, %rsi
	leaq	519(,%rcx,8), %rdx
	movabsq	$34359738240, %rdi
	andq	%rdi, %rdx
	shlq	$5, %rcx
	addq	$135, %rcx
	movabsq	$137438953344, %r8
	andq	%rcx, %r8
	addq	%rdx, %r8
	leaq	135(,%rax,8), %rcx
	andq	%rdi, %rcx
	shlq	$7, %rax
	addq	%rcx, %rax
	addq	%rsi, %rax
	leaq	(%rax,%r8,2), %rax
	addq	$383, %rax
	retq
.Lm_BB17_1:
	xorl	%eax, %eax
	retq
.Lm_func_end17:
	.size	tlsf_queue_bytes, .Lm_func_end17-tlsf_queue_bytes
	.cfi_endproc
	.globl	tlsf_queue_open_in
	.p2align	4
	.type	tlsf_queue_open_in,@function
tlsf_queue_open_in:
	.cfi_startproc
	cmpl	$1025, %edx
	setb	%al
	cmpl	$1025, %esi
	setb	%r9b
	testb	%al, %r9b
	je	.Lm_BB18_1
	movl	%esi, %eax
	movl	%esi, %r9d
	shll	$4, %r9d
	addl	$135, %r9d
	andl	$65408, %r9d
	leal	519(,%rdx,8), %r10d
	andl	$32640, %r10d
	movl	%edx, %r11d
	shll	$5, %r11d
	addl	$135, %r11d
	andl	$130944, %r11d
	addl	%r10d, %r11d
	leal	135(,%rsi,8), %r10d
	andl	$32640, %r10d
	shlq	$7, %rax
	addq	%r10, %rax
	addq	%r9, %rax
	leaq	(%rax,%r11,2), %r9
	addq	$256, %r9
	movl	%ecx, %eax
	negl	%eax
	andl	$127, %eax
	movq	%r8, %r10
	subq	%rax, %r10
	xorl	%r11d, %r11d
	cmpq	%r9, %r10
	cmovbl	%r11d, %edx
	cmpq	%rax, %r8
	movq	%rcx, %r9
	notq	%r9
	cmovbl	%r11d, %edx
	cmpq	%r9, %r8
	cmoval	%r11d, %edx
	testq	%rcx, %rcx
	cmovel	%r11d, %edx
	jmp	.Lm_BB18_3
.Lm_BB18_1:
	movl	%ecx, %eax
	negl	%eax
	andl	$127, %eax
	movq	%rcx, %r9
	notq	%r9
.Lm_BB18_3:
	pushq	%rbp
	.cfi_def_cfa_offset 16
	pushq	%rbx
	.cfi_def_cfa_offset 24
	pushq	%rax
	.cfi_def_cfa_offset 32
	.cfi_offset %rbx, -24
	.cfi_offset %rbp, -16
	testq	%rcx, %rcx
	setne	%bl
	cmpq	%r9, %r8
	setbe	%bpl
	cmpq	%r8, %rax
	cmovaeq	%r8, %rax
	addq	%rcx, %rax
	leaq	begin_behind.nothing(%rip), %r9
	addq	%r8, %rcx
	testb	%bpl, %bl
	cmoveq	%r9, %rax
	movq	%rax, lent(%rip)
	cmoveq	%r9, %rcx
	movq	%rcx, lent_end(%rip)
	movq	$128, lent_step(%rip)
	callq	tlsf_queue_open@PLT
	cmpl	$5, %eax
	movl	$39, %ecx
	cmovnel	%eax, %ecx
	testb	%bpl, %bl
	movq	$0, lent(%rip)
	cmovel	%ecx, %eax
	addq	$8, %rsp
	.cfi_def_cfa_offset 24
	popq	%rbx
	.cfi_def_cfa_offset 16
	popq	%rbp
	.cfi_def_cfa_offset 8
	retq
.Lm_func_end18:
	.size	tlsf_queue_open_in, .Lm_func_end18-tlsf_queue_open_in
	.cfi_endproc
	.globl	tlsf_offsets_bytes
	.p2align	4
	.type	tlsf_offsets_bytes,@function
tlsf_offsets_bytes:
	.cfi_startproc
	xorl	%eax, %eax
	cmpl	$4, %esi
	jb	.Lm_BB19_4
	cmpl	$5, %edi
	sete	%al
	shll	$24, %eax
	cmpl	$4, %edi
	movl	$1048576, %ecx
	cmovneq	%rax, %rcx
	cmpl	%esi, %ecx
	jae	.Lm_BB19_3
	xorl	%eax, %eax
	retq
.Lm_BB19_3:
	movl	%esi, %eax
	leal	23(,%rax,8), %ecx
	andl	$536870896, %ecx
	addl	$63, %eax
	shrl	$3, %eax
	addl	$16, %eax
	andl	$16777200, %eax
	addq	%rcx, %rax
	addq	$2783, %rax
.Lm_BB19_4:
	retq
.Lm_func_end19:
	.size	tlsf_offsets_bytes, .Lm_func_end19-tlsf_offsets_bytes
	.cfi_endproc
	.globl	tlsf_offsets_open_in
	.p2align	4
	.type	tlsf_offsets_open_in,@function
tlsf_offsets_open_in:
	.cfi_startproc
	pushq	%rbp
	.cfi_def_cfa_offset 16
	pushq	%rbx
	.cfi_def_cfa_offset 24
	pushq	%rax
	.cfi_def_cfa_offset 32
	.cfi_offset %rbx, -24
	.cfi_offset %rbp, -16
	movq	32(%rsp), %rax
	xorl	%r10d, %r10d
	cmpl	$5, %esi
	sete	%r10b
	shll	$24, %r10d
	cmpl	$4, %esi
	movl	$1048576, %r11d
	cmovneq	%r10, %r11
	cmpl	%r8d, %r11d
	jae	.Lm_BB20_2
	movl	%r9d, %r10d
	negl	%r10d
	andl	$15, %r10d
	movq	%r9, %r11
	notq	%r11
	jmp	.Lm_BB20_3
.Lm_BB20_2:
	movl	%r8d, %r10d
	leal	23(,%r10,8), %r11d
	andl	$536870896, %r11d
	leal	63(%r10), %ebx
	shrl	$3, %ebx
	addl	$16, %ebx
	andl	$16777200, %ebx
	addq	%r11, %rbx
	addq	$2768, %rbx
	movl	%r9d, %r10d
	negl	%r10d
	andl	$15, %r10d
	movq	%rax, %r11
	subq	%r10, %r11
	xorl	%ebp, %ebp
	cmpq	%rbx, %r11
	cmovbl	%ebp, %r8d
	cmpq	%r10, %rax
	movq	%r9, %r11
	notq	%r11
	cmovbl	%ebp, %r8d
	cmpq	%r11, %rax
	cmoval	%ebp, %r8d
	testq	%r9, %r9
	cmovel	%ebp, %r8d
.Lm_BB20_3:
	testq	%r9, %r9
	setne	%bl
	cmpq	%r11, %rax
	setbe	%bpl
	cmpq	%rax, %r10
	cmovaeq	%rax, %r10
	addq	%r9, %r10
	leaq	begin_behind.nothing(%rip), %r11
	addq	%rax, %r9
	testb	%bpl, %bl
	cmoveq	%r11, %r10
	movq	%r10, lent(%rip)
	cmoveq	%r11, %r9
	movq	%r9, lent_end(%rip)
	movq	$16, lent_step(%rip)
	callq	tlsf_offsets_open@PLT
	cmpl	$5, %eax
	movl	$39, %ecx
	cmovnel	%eax, %ecx
	testb	%bpl, %bl
	movq	$0, lent(%rip)
	cmovel	%ecx, %eax
	addq	$8, %rsp
	.cfi_def_cfa_offset 24
	popq	%rbx
	.cfi_def_cfa_offset 16
	popq	%rbp
	.cfi_def_cfa_offset 8
	retq
.Lm_func_end20:
	.size	tlsf_offsets_open_in, .Lm_func_end20-tlsf_offsets_open_in
	.cfi_endproc
	.globl	tlsf_pools_bytes
	.p2align	4
	.type	tlsf_pools_bytes,@function
tlsf_pools_bytes:
	.cfi_startproc
	pushq	%rbx
	.cfi_def_cfa_offset 16
	subq	$16, %rsp
	.cfi_def_cfa_offset 32
	.cfi_offset %rbx, -16
	movq	%rdx, %rbx
	movq	$0, 8(%rsp)
	movl	$0, 4(%rsp)
	leaq	8(%rsp), %rcx
	leaq	4(%rsp), %r8
	callq	tlsf_pools_words@PLT
	testl	%eax, %eax
	je	.Lm_BB21_2
	xorl	%eax, %eax
	jmp	.Lm_BB21_3
.Lm_BB21_2:
	movq	8(%rsp), %rax
	movl	4(%rsp), %ecx
	imulq	$2792, %rcx, %rdx
	addq	$23, %rdx
	andq	$-16, %rdx
	leaq	(,%rax,8), %rsi
	shrq	$6, %rax
	leaq	(%rcx,%rcx,4), %rcx
	shlq	$4, %rcx
	leaq	(%rbx,%rbx,2), %rdi
	leaq	(%rsi,%rdi,4), %rsi
	leaq	(%rsi,%rax,8), %rax
	addq	%rcx, %rax
	addq	%rdx, %rax
	addq	$2783, %rax
.Lm_BB21_3:
	addq	$16, %rsp
	.cfi_def_cfa_offset 16
	popq	%rbx
	.cfi_def_cfa_offset 8
	retq
.Lm_func_end21:
	.size	tlsf_pools_bytes, .Lm_func_end21-tlsf_pools_bytes
	.cfi_endproc
	.globl	tlsf_pools_open_in
	.p2align	4
	.type	tlsf_pools_open_in,@function
tlsf_pools_open_in:
	.cfi_startproc
	pushq	%rbp
	.cfi_def_cfa_offset 16
	pushq	%rbx
	.cfi_def_cfa_offset 24
	pushq	%rax
	.cfi_def_cfa_offset 32
	.cfi_offset %rbx, -24
	.cfi_offset %rbp, -16
	movq	32(%rsp), %rax
	movl	%r9d, %r10d
	negl	%r10d
	andl	$15, %r10d
	testq	%r9, %r9
	setne	%bl
	movq	%r9, %r11
	notq	%r11
	cmpq	%r11, %rax
	setbe	%bpl
	cmpq	%rax, %r10
	cmovaeq	%rax, %r10
	addq	%r9, %r10
	leaq	begin_behind.nothing(%rip), %r11
	addq	%rax, %r9
	testb	%bpl, %bl
	cmoveq	%r11, %r10
	movq	%r10, lent(%rip)
	cmoveq	%r11, %r9
	movq	%r9, lent_end(%rip)
	movq	$16, lent_step(%rip)
	callq	tlsf_pools_open@PLT
	cmpl	$6, %eax
	movl	$5, %ecx
	cmovel	%ecx, %eax
	cmpl	$5, %eax
	movl	$39, %ecx
	cmovnel	%eax, %ecx
	testb	%bpl, %bl
	movq	$0, lent(%rip)
	cmovel	%ecx, %eax
	addq	$8, %rsp
	.cfi_def_cfa_offset 24
	popq	%rbx
	.cfi_def_cfa_offset 16
	popq	%rbp
	.cfi_def_cfa_offset 8
	retq
.Lm_func_end22:
	.size	tlsf_pools_open_in, .Lm_func_end22-tlsf_pools_open_in
	.cfi_endproc
	.globl	tlsf_next_number
	.p2align	4
	.type	tlsf_next_number,@function
tlsf_next_number:
	.cfi_startproc
	movl	$1, %ecx
	lock		xaddq	%rcx, tlsf_next_number.calls(%rip)
	leaq	(,%rcx,8), %rdx
	movslq	%edx, %rsi
	movl	$2, %eax
	cmpq	%rdx, %rsi
	jne	.Lm_BB23_2
	movl	$2147483648, %eax
	leaq	(%rax,%rcx,8), %rax
	movl	%eax, (%rdi)
	xorl	%eax, %eax
.Lm_BB23_2:
	retq
.Lm_func_end23:
	.size	tlsf_next_number, .Lm_func_end23-tlsf_next_number
	.cfi_endproc
	.type	tlsf_memory_alloc.nothing,@object
	.local	tlsf_memory_alloc.nothing
	.comm	tlsf_memory_alloc.nothing,8,8
	.type	near_room,@object
	.local	near_room
	.comm	near_room,8,8
	.type	pieces_first,@object
	.local	pieces_first
	.comm	pieces_first,4,4
	.type	lent,@object
	.local	lent
	.comm	lent,8,8
	.type	tlsf_next_number.calls,@object
	.local	tlsf_next_number.calls
	.comm	tlsf_next_number.calls,8,8
	.type	lent_step,@object
	.local	lent_step
	.comm	lent_step,8,8
	.type	lent_end,@object
	.local	lent_end
	.comm	lent_end,8,8
	.type	begin_behind.nothing,@object
	.local	begin_behind.nothing
	.comm	begin_behind.nothing,1,1
	.ident	"clang version 22.1.8"
	.section	".note.GNU-stack","",@progbits
#elif defined(TLSF_NO_MALLOC)
	.text
	.hidden	tlsf_memory_alloc
	.globl	tlsf_memory_alloc
	.p2align	4
	.type	tlsf_memory_alloc,@function
tlsf_memory_alloc:
	.cfi_startproc
	cmpq	$8, %rsi
	jbe	.Lm_BB0_2
	xorl	%esi, %esi
	jmp	.Lm_BB0_17
.Lm_BB0_2:
	pushq	%rbx
	.cfi_def_cfa_offset 16
	.cfi_offset %rbx, -16
	movq	%rdi, %rbx
	leaq	near_room@TLSLD(%rip), %rdi
	callq	__tls_get_addr@PLT
	movq	%rax, %rcx
	movq	near_room@DTPOFF(%rax), %rsi
	testq	%rsi, %rsi
	je	.Lm_BB0_6
	subl	$1, pieces_first@DTPOFF(%rcx)
	jae	.Lm_BB0_6
	cmpq	$2776, %rbx
	ja	.Lm_BB0_5
	movq	$0, (%rsi)
	addq	$8, %rsi
	jmp	.Lm_BB0_16
.Lm_BB0_6:
	movq	%rcx, %rax
	movq	lent@DTPOFF(%rax), %r8
	testq	%r8, %r8
	je	.Lm_BB0_5
	movq	%rax, %rsi
	movq	lent_step@DTPOFF(%rcx), %r9
	leaq	(%rbx,%r9), %rdi
	addq	$7, %rdi
	movq	%rdi, %rax
	orq	%r9, %rax
	shrq	$32, %rax
	je	.Lm_BB0_11
	movq	%rdi, %rax
	xorl	%edx, %edx
	divq	%r9
	cmpq	$268435456, %rbx
	ja	.Lm_BB0_5
	jmp	.Lm_BB0_12
.Lm_BB0_11:
	movl	%edi, %eax
	xorl	%edx, %edx
	divl	%r9d
	cmpq	$268435456, %rbx
	ja	.Lm_BB0_5
.Lm_BB0_12:
	addq	$8, %rbx
	movq	lent_end@DTPOFF(%rcx), %rax
	movq	%rax, %rcx
	subq	%r8, %rcx
	cmpq	%rcx, %rbx
	jbe	.Lm_BB0_15
.Lm_BB0_5:
	xorl	%esi, %esi
.Lm_BB0_16:
	popq	%rbx
	.cfi_def_cfa_offset 8
	.cfi_restore %rbx
.Lm_BB0_17:
	xorl	%eax, %eax
	testq	%rsi, %rsi
	setne	%al
	leaq	tlsf_memory_alloc.nothing(%rip), %rdx
	cmovneq	%rsi, %rdx
	retq
.Lm_BB0_15:
	.cfi_def_cfa_offset 16
	.cfi_offset %rbx, -16
	leaq	lent@DTPOFF(%rsi), %r9
	leaq	8(%r8), %rsi
	subq	%rdx, %rdi
	leaq	(%r8,%rdi), %rdx
	cmpq	%rcx, %rdi
	cmovbq	%rdx, %rax
	movq	%rax, (%r9)
	movq	$0, (%r8)
	jmp	.Lm_BB0_16
.Lm_func_end0:
	.size	tlsf_memory_alloc, .Lm_func_end0-tlsf_memory_alloc
	.cfi_endproc
	.hidden	tlsf_memory_dealloc
	.globl	tlsf_memory_dealloc
	.p2align	4
	.type	tlsf_memory_dealloc,@function
tlsf_memory_dealloc:
	.cfi_startproc
	retq
.Lm_func_end1:
	.size	tlsf_memory_dealloc, .Lm_func_end1-tlsf_memory_dealloc
	.cfi_endproc
	.hidden	tlsf_memory_realloc
	.globl	tlsf_memory_realloc
	.p2align	4
	.type	tlsf_memory_realloc,@function
tlsf_memory_realloc:
	.cfi_startproc
	pushq	%r15
	.cfi_def_cfa_offset 16
	pushq	%r14
	.cfi_def_cfa_offset 24
	pushq	%r13
	.cfi_def_cfa_offset 32
	pushq	%r12
	.cfi_def_cfa_offset 40
	pushq	%rbx
	.cfi_def_cfa_offset 48
	.cfi_offset %rbx, -48
	.cfi_offset %r12, -40
	.cfi_offset %r13, -32
	.cfi_offset %r14, -24
	.cfi_offset %r15, -16
	leaq	tlsf_memory_alloc.nothing(%rip), %rbx
	cmpq	$8, %rcx
	ja	.Lm_BB2_1
	movq	%rdx, %r13
	movq	%rdi, %r15
	movq	%rsi, %r14
	leaq	near_room@TLSLD(%rip), %rdi
	callq	__tls_get_addr@PLT
	movq	%rax, %rcx
	movq	near_room@DTPOFF(%rax), %r12
	testq	%r12, %r12
	je	.Lm_BB2_6
	subl	$1, pieces_first@DTPOFF(%rcx)
	jae	.Lm_BB2_6
	cmpq	$2776, %r13
	ja	.Lm_BB2_1
	jmp	.Lm_BB2_15
.Lm_BB2_6:
	movq	%rcx, %rax
	movq	lent@DTPOFF(%rax), %r12
	testq	%r12, %r12
	je	.Lm_BB2_1
	movq	%rax, %rsi
	movq	lent_step@DTPOFF(%rcx), %r8
	leaq	(%r8,%r13), %rdi
	addq	$7, %rdi
	movq	%rdi, %rax
	orq	%r8, %rax
	shrq	$32, %rax
	je	.Lm_BB2_11
	movq	%rdi, %rax
	xorl	%edx, %edx
	divq	%r8
	cmpq	$268435456, %r13
	ja	.Lm_BB2_1
	jmp	.Lm_BB2_12
.Lm_BB2_11:
	movl	%edi, %eax
	xorl	%edx, %edx
	divl	%r8d
	cmpq	$268435456, %r13
	ja	.Lm_BB2_1
.Lm_BB2_12:
	addq	$8, %r13
	movq	lent_end@DTPOFF(%rcx), %rax
	movq	%rax, %rcx
	subq	%r12, %rcx
	cmpq	%rcx, %r13
	jbe	.Lm_BB2_14
.Lm_BB2_1:
	xorl	%eax, %eax
.Lm_BB2_16:
	movq	%rbx, %rdx
	popq	%rbx
	.cfi_def_cfa_offset 40
	popq	%r12
	.cfi_def_cfa_offset 32
	popq	%r13
	.cfi_def_cfa_offset 24
	popq	%r14
	.cfi_def_cfa_offset 16
	popq	%r15
	.cfi_def_cfa_offset 8
	retq
.Lm_BB2_14:
	.cfi_def_cfa_offset 48
	leaq	lent@DTPOFF(%rsi), %rsi
	subq	%rdx, %rdi
	leaq	(%r12,%rdi), %rdx
	cmpq	%rcx, %rdi
	cmovbq	%rdx, %rax
	movq	%rax, (%rsi)
.Lm_BB2_15:
	movq	$0, (%r12)
	addq	$8, %r12
	movq	%r12, %rdi
	movq	%r15, %rsi
	movq	%r14, %rdx
	callq	memcpy@PLT
	movl	$1, %eax
	movq	%r12, %rbx
	jmp	.Lm_BB2_16
.Lm_func_end2:
	.size	tlsf_memory_realloc, .Lm_func_end2-tlsf_memory_realloc
	.cfi_endproc
	.hidden	tlsf_memory_set
	.weak	tlsf_memory_set
	.p2align	4
	.type	tlsf_memory_set,@function
tlsf_memory_set:
	.cfi_startproc
	testl	%esi, %esi
	jne	memset@PLT
	cmpq	$513, %rdx
	jae	memset@PLT
	cmpq	$257, %rdx
	jb	.Lm_BB3_4
	xorps	%xmm0, %xmm0
	movups	%xmm0, (%rdi)
	movups	%xmm0, -16(%rdi,%rdx)
	movups	%xmm0, 16(%rdi)
	movups	%xmm0, -32(%rdi,%rdx)
	movups	%xmm0, 32(%rdi)
	movups	%xmm0, -48(%rdi,%rdx)
	movups	%xmm0, 48(%rdi)
	movups	%xmm0, -64(%rdi,%rdx)
	movups	%xmm0, 64(%rdi)
	movups	%xmm0, -80(%rdi,%rdx)
	movups	%xmm0, 80(%rdi)
	movups	%xmm0, -96(%rdi,%rdx)
	movups	%xmm0, 96(%rdi)
	movups	%xmm0, -112(%rdi,%rdx)
	movups	%xmm0, 112(%rdi)
	movups	%xmm0, -128(%rdi,%rdx)
	movups	%xmm0, 128(%rdi)
	movups	%xmm0, -144(%rdi,%rdx)
	movups	%xmm0, 144(%rdi)
	movups	%xmm0, -160(%rdi,%rdx)
	movups	%xmm0, 160(%rdi)
	movups	%xmm0, -176(%rdi,%rdx)
	movups	%xmm0, 176(%rdi)
	movups	%xmm0, -192(%rdi,%rdx)
	movups	%xmm0, 192(%rdi)
	movups	%xmm0, -208(%rdi,%rdx)
	movups	%xmm0, 208(%rdi)
	movups	%xmm0, -224(%rdi,%rdx)
	movups	%xmm0, 224(%rdi)
	movups	%xmm0, -240(%rdi,%rdx)
	movups	%xmm0, 240(%rdi)
	movups	%xmm0, -256(%rdi,%rdx)
	movq	%rdi, %rax
	retq
.Lm_BB3_4:
	cmpq	$129, %rdx
	jb	.Lm_BB3_6
	xorps	%xmm0, %xmm0
	movups	%xmm0, (%rdi)
	movups	%xmm0, -16(%rdi,%rdx)
	movups	%xmm0, 16(%rdi)
	movups	%xmm0, -32(%rdi,%rdx)
	movups	%xmm0, 32(%rdi)
	movups	%xmm0, -48(%rdi,%rdx)
	movups	%xmm0, 48(%rdi)
	movups	%xmm0, -64(%rdi,%rdx)
	movups	%xmm0, 64(%rdi)
	movups	%xmm0, -80(%rdi,%rdx)
	movups	%xmm0, 80(%rdi)
	movups	%xmm0, -96(%rdi,%rdx)
	movups	%xmm0, 96(%rdi)
	movups	%xmm0, -112(%rdi,%rdx)
	movups	%xmm0, 112(%rdi)
	movups	%xmm0, -128(%rdi,%rdx)
	movq	%rdi, %rax
	retq
.Lm_BB3_6:
	cmpq	$65, %rdx
	jb	.Lm_BB3_8
	xorps	%xmm0, %xmm0
	movups	%xmm0, (%rdi)
	movups	%xmm0, -16(%rdi,%rdx)
	movups	%xmm0, 16(%rdi)
	movups	%xmm0, -32(%rdi,%rdx)
	movups	%xmm0, 32(%rdi)
	movups	%xmm0, -48(%rdi,%rdx)
	movups	%xmm0, 48(%rdi)
	movups	%xmm0, -64(%rdi,%rdx)
	movq	%rdi, %rax
	retq
.Lm_BB3_8:
	cmpq	$33, %rdx
	jb	.Lm_BB3_10
	xorps	%xmm0, %xmm0
	movups	%xmm0, (%rdi)
	movups	%xmm0, -16(%rdi,%rdx)
	movups	%xmm0, 16(%rdi)
	movups	%xmm0, -32(%rdi,%rdx)
	movq	%rdi, %rax
	retq
.Lm_BB3_10:
	cmpq	$17, %rdx
	jb	.Lm_BB3_12
	xorps	%xmm0, %xmm0
	movups	%xmm0, (%rdi)
	movups	%xmm0, -16(%rdi,%rdx)
	movq	%rdi, %rax
	retq
.Lm_BB3_12:
	cmpq	$7, %rdx
	ja	.Lm_BB3_13
	xorl	%esi, %esi
	jmp	memset@PLT
.Lm_BB3_13:
	movq	$0, (%rdi)
	movq	$0, -8(%rdi,%rdx)
	movq	%rdi, %rax
	retq
.Lm_func_end3:
	.size	tlsf_memory_set, .Lm_func_end3-tlsf_memory_set
	.cfi_endproc
	.hidden	tlsf_memory_cpy
	.weak	tlsf_memory_cpy
	.p2align	4
	.type	tlsf_memory_cpy,@function
tlsf_memory_cpy:
	.cfi_startproc
	jmp	memcpy@PLT
.Lm_func_end4:
	.size	tlsf_memory_cpy, .Lm_func_end4-tlsf_memory_cpy
	.cfi_endproc
	.hidden	tlsf_memory_move
	.weak	tlsf_memory_move
	.p2align	4
	.type	tlsf_memory_move,@function
tlsf_memory_move:
	.cfi_startproc
	jmp	memmove@PLT
.Lm_func_end5:
	.size	tlsf_memory_move, .Lm_func_end5-tlsf_memory_move
	.cfi_endproc
	.globl	tlsf_bytes
	.p2align	4
	.type	tlsf_bytes,@function
tlsf_bytes:
	.cfi_startproc
	xorl	%eax, %eax
	cmpl	$4, %esi
	jb	.Lm_BB6_4
	cmpl	$5, %edi
	sete	%al
	shll	$24, %eax
	cmpl	$4, %edi
	movl	$1048576, %ecx
	cmovneq	%rax, %rcx
	cmpl	%esi, %ecx
	jae	.Lm_BB6_3
	xorl	%eax, %eax
	retq
.Lm_BB6_3:
	movl	%esi, %eax
	leaq	23(,%rax,8), %rcx
	andq	$-16, %rcx
	addq	$63, %rax
	shrq	$3, %rax
	addl	$16, %eax
	andl	$-16, %eax
	addq	%rcx, %rax
	addq	$2783, %rax
.Lm_BB6_4:
	retq
.Lm_func_end6:
	.size	tlsf_bytes, .Lm_func_end6-tlsf_bytes
	.cfi_endproc
	.globl	tlsf_near_bytes
	.p2align	4
	.type	tlsf_near_bytes,@function
tlsf_near_bytes:
	.cfi_startproc
	xorl	%eax, %eax
	cmpl	$4, %esi
	jb	.Lm_BB7_4
	cmpl	$5, %edi
	sete	%al
	shll	$24, %eax
	cmpl	$4, %edi
	movl	$1048576, %ecx
	cmovneq	%rax, %rcx
	cmpl	%esi, %ecx
	jae	.Lm_BB7_3
	xorl	%eax, %eax
	retq
.Lm_BB7_3:
	movl	%esi, %eax
	leaq	23(,%rax,8), %rcx
	andq	$-16, %rcx
	addq	$63, %rax
	shrq	$6, %rax
	leaq	(%rcx,%rax,8), %rax
	addq	$23, %rax
.Lm_BB7_4:
	retq
.Lm_func_end7:
	.size	tlsf_near_bytes, .Lm_func_end7-tlsf_near_bytes
	.cfi_endproc
	.globl	tlsf_open_in
	.p2align	4
	.type	tlsf_open_in,@function
tlsf_open_in:
	.cfi_startproc
	pushq	%rbp
	.cfi_def_cfa_offset 16
	pushq	%r15
	.cfi_def_cfa_offset 24
	pushq	%r14
	.cfi_def_cfa_offset 32
	pushq	%r13
	.cfi_def_cfa_offset 40
	pushq	%r12
	.cfi_def_cfa_offset 48
	pushq	%rbx
	.cfi_def_cfa_offset 56
	subq	$24, %rsp
	.cfi_def_cfa_offset 80
	.cfi_offset %rbx, -56
	.cfi_offset %r12, -48
	.cfi_offset %r13, -40
	.cfi_offset %r14, -32
	.cfi_offset %r15, -24
	.cfi_offset %rbp, -16
	movq	%r8, %r12
	movq	%rcx, %r15
	movl	%edx, 4(%rsp)
	movq	%rdi, 16(%rsp)
	movzbl	29(%rdi), %edi
	testq	%rdi, %rdi
	je	.Lm_BB8_3
	leal	-65(%rdi), %eax
	cmpb	$-57, %al
	jb	.Lm_BB8_2
	leal	127(%rdi), %eax
	testl	%edi, %eax
	je	.Lm_BB8_6
.Lm_BB8_2:
	xorl	%r13d, %r13d
	jmp	.Lm_BB8_10
.Lm_BB8_3:
	movl	$16, %ecx
	jmp	.Lm_BB8_7
.Lm_BB8_6:
	cmpq	$17, %rdi
	movl	$16, %ecx
	cmovaeq	%rdi, %rcx
.Lm_BB8_7:
	movq	$-32, %rax
	subq	%r15, %rax
	movq	%rax, %rdx
	shrq	$32, %rdx
	je	.Lm_BB8_9
	xorl	%edx, %edx
	divq	%rcx
	movq	%rdx, %r13
	jmp	.Lm_BB8_10
.Lm_BB8_9:
	xorl	%edx, %edx
	divl	%ecx
	movl	%edx, %r13d
.Lm_BB8_10:
	xorl	%r14d, %r14d
	movq	%r15, %rax
	notq	%rax
	testq	%r15, %r15
	movl	%esi, (%rsp)
	movq	%rdi, 8(%rsp)
	je	.Lm_BB8_17
	cmpq	%rax, %r12
	ja	.Lm_BB8_17
	movq	%r12, %rdi
	subq	%r13, %rdi
	jb	.Lm_BB8_17
	xorl	%edx, %edx
	cmpl	$5, %esi
	sete	%dl
	shll	$24, %edx
	cmpl	$4, %esi
	movl	$1048576, %ecx
	cmovneq	%rdx, %rcx
	cmpq	$2832, %rdi
	jb	.Lm_BB8_17
	cmpq	$268435456, %rdi
	movl	$268435456, %edx
	cmovbq	%rdi, %rdx
	leal	-22400(,%rdx,8), %esi
	movl	$4228890877, %r14d
	imulq	%rsi, %r14
	shrq	$38, %r14
	leaq	87(,%r14,8), %rsi
	addq	$71, %r14
	.p2align	4
.Lm_BB8_15:
	movq	%rsi, %rdi
	andq	$-16, %rdi
	movq	%r14, %r8
	shrq	$3, %r8
	addq	$16, %r8
	andq	$-16, %r8
	addq	%r8, %rdi
	addq	$2768, %rdi
	decq	%r14
	addq	$-8, %rsi
	cmpq	%rdx, %rdi
	ja	.Lm_BB8_15
	addq	$-62, %r14
	cmpq	%rcx, %r14
	cmovaeq	%rcx, %r14
.Lm_BB8_17:
	testq	%r15, %r15
	setne	%cl
	cmpq	%rax, %r12
	setbe	%bl
	andb	%cl, %bl
	cmpq	%r12, %r13
	cmovaeq	%r12, %r13
	addq	%r15, %r13
	leaq	begin_behind.nothing(%rip), %rbp
	leaq	lent@TLSLD(%rip), %rdi
	callq	__tls_get_addr@PLT
	movq	%rax, %rdx
	addq	%r12, %r15
	testb	%bl, %bl
	cmoveq	%rbp, %r13
	cmoveq	%rbp, %r15
	movq	%r13, lent@DTPOFF(%rax)
	movq	%r15, lent_end@DTPOFF(%rax)
	movq	$16, lent_step@DTPOFF(%rax)
	movq	8(%rsp), %rdi
	testq	%rdi, %rdi
	movq	16(%rsp), %r15
	movl	(%rsp), %esi
	je	.Lm_BB8_20
	leal	-65(%rdi), %eax
	xorl	%ecx, %ecx
	cmpb	$-57, %al
	jb	.Lm_BB8_21
	leal	127(%rdi), %eax
	testb	%dil, %al
	jne	.Lm_BB8_21
.Lm_BB8_20:
	movl	%r14d, %ecx
.Lm_BB8_21:
	leaq	lent@DTPOFF(%rdx), %r14
	movq	%r15, %rdi
	movl	4(%rsp), %edx
	callq	tlsf_open@PLT
	testl	%eax, %eax
	je	.Lm_BB8_23
	movq	$0, (%r14)
	cmpl	$5, %eax
	sete	%dl
	notb	%bl
	movl	$39, %ecx
	testb	%dl, %bl
	je	.Lm_BB8_26
	jmp	.Lm_BB8_27
.Lm_BB8_23:
	movzbl	29(%r15), %ecx
	testb	$-17, %cl
	je	.Lm_BB8_25
	movb	$1, 28(%r15)
.Lm_BB8_25:
	movq	$0, (%r14)
.Lm_BB8_26:
	movl	%eax, %ecx
.Lm_BB8_27:
	movl	%ecx, %eax
	addq	$24, %rsp
	.cfi_def_cfa_offset 56
	popq	%rbx
	.cfi_def_cfa_offset 48
	popq	%r12
	.cfi_def_cfa_offset 40
	popq	%r13
	.cfi_def_cfa_offset 32
	popq	%r14
	.cfi_def_cfa_offset 24
	popq	%r15
	.cfi_def_cfa_offset 16
	popq	%rbp
	.cfi_def_cfa_offset 8
	retq
.Lm_func_end8:
	.size	tlsf_open_in, .Lm_func_end8-tlsf_open_in
	.cfi_endproc
	.globl	tlsf_open_near
	.p2align	4
	.type	tlsf_open_near,@function
tlsf_open_near:
	.cfi_startproc
	pushq	%rbp
	.cfi_def_cfa_offset 16
	pushq	%r15
	.cfi_def_cfa_offset 24
	pushq	%r14
	.cfi_def_cfa_offset 32
	pushq	%r13
	.cfi_def_cfa_offset 40
	pushq	%r12
	.cfi_def_cfa_offset 48
	pushq	%rbx
	.cfi_def_cfa_offset 56
	pushq	%rax
	.cfi_def_cfa_offset 64
	.cfi_offset %rbx, -56
	.cfi_offset %r12, -48
	.cfi_offset %r13, -40
	.cfi_offset %r14, -32
	.cfi_offset %r15, -24
	.cfi_offset %rbp, -16
	movl	%ecx, 4(%rsp)
	movl	%edx, %ebp
	movl	%esi, %r14d
	movq	%rdi, %r12
	movl	%r12d, %r13d
	negl	%r13d
	andl	$63, %r13d
	leaq	(%rdi,%r13), %rbx
	leaq	(%rdi,%r13), %r15
	addq	$32, %r15
	leaq	near_room@TLSLD(%rip), %rdi
	callq	__tls_get_addr@PLT
	movq	%rax, %rdx
	movq	%r15, near_room@DTPOFF(%rax)
	movl	$2, pieces_first@DTPOFF(%rax)
	movzbl	29(%r12,%r13), %eax
	testb	%al, %al
	je	.Lm_BB9_3
	leal	-65(%rax), %esi
	xorl	%ecx, %ecx
	cmpb	$-57, %sil
	jb	.Lm_BB9_4
	leal	127(%rax), %esi
	testb	%al, %sil
	jne	.Lm_BB9_4
.Lm_BB9_3:
	movl	4(%rsp), %ecx
.Lm_BB9_4:
	leaq	near_room@DTPOFF(%rdx), %r15
	movq	%rbx, %rdi
	movl	%r14d, %esi
	movl	%ebp, %edx
	callq	tlsf_open@PLT
	testl	%eax, %eax
	jne	.Lm_BB9_7
	movzbl	29(%rbx), %ecx
	testb	$-17, %cl
	je	.Lm_BB9_7
	movb	$1, 28(%rbx)
.Lm_BB9_7:
	movq	$0, (%r15)
	addq	$8, %rsp
	.cfi_def_cfa_offset 56
	popq	%rbx
	.cfi_def_cfa_offset 48
	popq	%r12
	.cfi_def_cfa_offset 40
	popq	%r13
	.cfi_def_cfa_offset 32
	popq	%r14
	.cfi_def_cfa_offset 24
	popq	%r15
	.cfi_def_cfa_offset 16
	popq	%rbp
	.cfi_def_cfa_offset 8
	retq
.Lm_func_end9:
	.size	tlsf_open_near, .Lm_func_end9-tlsf_open_near
	.cfi_endproc
	.globl	tlsf_open_near_in
	.p2align	4
	.type	tlsf_open_near_in,@function
tlsf_open_near_in:
	.cfi_startproc
	pushq	%rbp
	.cfi_def_cfa_offset 16
	pushq	%r15
	.cfi_def_cfa_offset 24
	pushq	%r14
	.cfi_def_cfa_offset 32
	pushq	%r13
	.cfi_def_cfa_offset 40
	pushq	%r12
	.cfi_def_cfa_offset 48
	pushq	%rbx
	.cfi_def_cfa_offset 56
	pushq	%rax
	.cfi_def_cfa_offset 64
	.cfi_offset %rbx, -56
	.cfi_offset %r12, -48
	.cfi_offset %r13, -40
	.cfi_offset %r14, -32
	.cfi_offset %r15, -24
	.cfi_offset %rbp, -16
	movq	%r8, %r12
	movq	%rcx, %r15
	movl	%edx, 4(%rsp)
	movl	%esi, (%rsp)
	movq	%rdi, %rbx
	movl	%ebx, %r13d
	negl	%r13d
	andl	$63, %r13d
	leaq	(%rdi,%r13), %rbp
	addq	$32, %rbp
	leaq	near_room@TLSLD(%rip), %rdi
	callq	__tls_get_addr@PLT
	movq	%rax, %rsi
	movq	%rax, %r8
	movq	%rbp, near_room@DTPOFF(%rax)
	movl	$2, pieces_first@DTPOFF(%rax)
	movzbl	29(%rbx,%r13), %r9d
	testq	%r9, %r9
	je	.Lm_BB10_3
	leal	-65(%r9), %eax
	cmpb	$-57, %al
	jb	.Lm_BB10_2
	leal	127(%r9), %eax
	testl	%r9d, %eax
	je	.Lm_BB10_6
.Lm_BB10_2:
	xorl	%edx, %edx
	jmp	.Lm_BB10_10
.Lm_BB10_3:
	movl	$16, %ecx
	jmp	.Lm_BB10_7
.Lm_BB10_6:
	cmpq	$17, %r9
	movl	$16, %ecx
	cmovaeq	%r9, %rcx
.Lm_BB10_7:
	movq	$-32, %rax
	subq	%r15, %rax
	movq	%rax, %rdx
	shrq	$32, %rdx
	je	.Lm_BB10_9
	xorl	%edx, %edx
	divq	%rcx
	jmp	.Lm_BB10_10
.Lm_BB10_9:
	xorl	%edx, %edx
	divl	%ecx
.Lm_BB10_10:
	xorl	%r14d, %r14d
	movq	%r15, %rax
	notq	%rax
	testq	%r15, %r15
	je	.Lm_BB10_17
	cmpq	%rax, %r12
	ja	.Lm_BB10_17
	movq	%r12, %r11
	subq	%rdx, %r11
	jb	.Lm_BB10_17
	xorl	%edi, %edi
	movl	(%rsp), %ecx
	cmpl	$5, %ecx
	sete	%dil
	shll	$24, %edi
	cmpl	$4, %ecx
	movl	$1048576, %ecx
	cmovneq	%rdi, %rcx
	cmpq	$64, %r11
	jb	.Lm_BB10_17
	cmpq	$268435456, %r11
	movl	$268435456, %edi
	cmovbq	%r11, %rdi
	leal	-192(,%rdi,8), %r11d
	movl	$4228890877, %r14d
	imulq	%r11, %r14
	shrq	$38, %r14
	leaq	87(,%r14,8), %r11
	addq	$71, %r14
	.p2align	4
.Lm_BB10_15:
	movq	%r11, %rbp
	andq	$-16, %rbp
	movq	%r14, %r10
	shrq	$6, %r10
	leaq	8(,%r10,8), %r10
	addq	%rbp, %r10
	decq	%r14
	addq	$-8, %r11
	cmpq	%rdi, %r10
	ja	.Lm_BB10_15
	addq	$-62, %r14
	cmpq	%rcx, %r14
	cmovaeq	%rcx, %r14
.Lm_BB10_17:
	addq	%r13, %rbx
	testq	%r15, %r15
	setne	%cl
	cmpq	%rax, %r12
	setbe	%r13b
	andb	%cl, %r13b
	cmpq	%r12, %rdx
	cmovaeq	%r12, %rdx
	addq	%r15, %rdx
	leaq	begin_behind.nothing(%rip), %rcx
	movq	%rsi, %rax
	movq	%rax, %rdi
	addq	%r12, %r15
	testb	%r13b, %r13b
	cmoveq	%rcx, %rdx
	cmoveq	%rcx, %r15
	movq	%rdx, lent@DTPOFF(%rax)
	movq	%r15, lent_end@DTPOFF(%rax)
	movq	$16, lent_step@DTPOFF(%rsi)
	testq	%r9, %r9
	je	.Lm_BB10_20
	leal	-65(%r9), %eax
	xorl	%ecx, %ecx
	cmpb	$-57, %al
	jb	.Lm_BB10_21
	leal	127(%r9), %eax
	testb	%r9b, %al
	jne	.Lm_BB10_21
.Lm_BB10_20:
	movl	%r14d, %ecx
.Lm_BB10_21:
	leaq	near_room@DTPOFF(%r8), %r15
	leaq	lent@DTPOFF(%rdi), %r12
	movq	%rbx, %rdi
	movl	(%rsp), %esi
	movl	4(%rsp), %edx
	callq	tlsf_open@PLT
	testl	%eax, %eax
	je	.Lm_BB10_23
	movq	$0, (%r12)
	cmpl	$5, %eax
	sete	%dl
	notb	%r13b
	movl	$39, %ecx
	testb	%dl, %r13b
	je	.Lm_BB10_26
	jmp	.Lm_BB10_27
.Lm_BB10_23:
	movzbl	29(%rbx), %ecx
	testb	$-17, %cl
	je	.Lm_BB10_25
	movb	$1, 28(%rbx)
.Lm_BB10_25:
	movq	$0, (%r12)
.Lm_BB10_26:
	movl	%eax, %ecx
.Lm_BB10_27:
	movq	$0, (%r15)
	movl	%ecx, %eax
	addq	$8, %rsp
	.cfi_def_cfa_offset 56
	popq	%rbx
	.cfi_def_cfa_offset 48
	popq	%r12
	.cfi_def_cfa_offset 40
	popq	%r13
	.cfi_def_cfa_offset 32
	popq	%r14
	.cfi_def_cfa_offset 24
	popq	%r15
	.cfi_def_cfa_offset 16
	popq	%rbp
	.cfi_def_cfa_offset 8
	retq
.Lm_func_end10:
	.size	tlsf_open_near_in, .Lm_func_end10-tlsf_open_near_in
	.cfi_endproc
	.globl	tlsf_open_32
	.p2align	4
	.type	tlsf_open_32,@function
tlsf_open_32:
	.cfi_startproc
	pushq	%rbx
	.cfi_def_cfa_offset 16
	.cfi_offset %rbx, -16
	movq	%rdi, %rbx
	movzbl	29(%rdi), %edi
	testb	%dil, %dil
	je	.Lm_BB11_3
	leal	-65(%rdi), %r8d
	xorl	%eax, %eax
	cmpb	$-57, %r8b
	jb	.Lm_BB11_4
	leal	127(%rdi), %r8d
	testb	%dil, %r8b
	jne	.Lm_BB11_4
.Lm_BB11_3:
	movl	%ecx, %eax
.Lm_BB11_4:
	movq	%rbx, %rdi
	movl	%eax, %ecx
	callq	tlsf_open@PLT
	testl	%eax, %eax
	je	.Lm_BB11_5
.Lm_BB11_7:
	popq	%rbx
	.cfi_def_cfa_offset 8
	retq
.Lm_BB11_5:
	.cfi_def_cfa_offset 16
	movzbl	29(%rbx), %ecx
	testb	$-17, %cl
	je	.Lm_BB11_7
	movb	$1, 28(%rbx)
	popq	%rbx
	.cfi_def_cfa_offset 8
	retq
.Lm_func_end11:
	.size	tlsf_open_32, .Lm_func_end11-tlsf_open_32
	.cfi_endproc
	.globl	tlsf_open_in_32
	.p2align	4
	.type	tlsf_open_in_32,@function
tlsf_open_in_32:
	.cfi_startproc
	jmp	tlsf_open_in@PLT
.Lm_func_end12:
	.size	tlsf_open_in_32, .Lm_func_end12-tlsf_open_in_32
	.cfi_endproc
	.globl	tlsf_open_near_2880
	.p2align	4
	.type	tlsf_open_near_2880,@function
tlsf_open_near_2880:
	.cfi_startproc
	pushq	%rbp
	.cfi_def_cfa_offset 16
	pushq	%r15
	.cfi_def_cfa_offset 24
	pushq	%r14
	.cfi_def_cfa_offset 32
	pushq	%r13
	.cfi_def_cfa_offset 40
	pushq	%r12
	.cfi_def_cfa_offset 48
	pushq	%rbx
	.cfi_def_cfa_offset 56
	pushq	%rax
	.cfi_def_cfa_offset 64
	.cfi_offset %rbx, -56
	.cfi_offset %r12, -48
	.cfi_offset %r13, -40
	.cfi_offset %r14, -32
	.cfi_offset %r15, -24
	.cfi_offset %rbp, -16
	movl	%ecx, 4(%rsp)
	movl	%edx, %ebp
	movl	%esi, %r14d
	movq	%rdi, %r12
	movl	%r12d, %r13d
	negl	%r13d
	andl	$63, %r13d
	leaq	(%rdi,%r13), %rbx
	leaq	(%rdi,%r13), %r15
	addq	$32, %r15
	leaq	near_room@TLSLD(%rip), %rdi
	callq	__tls_get_addr@PLT
	movq	%rax, %rdx
	movq	%r15, near_room@DTPOFF(%rax)
	movl	$2, pieces_first@DTPOFF(%rax)
	movzbl	29(%r12,%r13), %eax
	testb	%al, %al
	je	.Lm_BB13_3
	leal	-65(%rax), %esi
	xorl	%ecx, %ecx
	cmpb	$-57, %sil
	jb	.Lm_BB13_4
	leal	127(%rax), %esi
	testb	%al, %sil
	jne	.Lm_BB13_4
.Lm_BB13_3:
	movl	4(%rsp), %ecx
.Lm_BB13_4:
	leaq	near_room@DTPOFF(%rdx), %r15
	movq	%rbx, %rdi
	movl	%r14d, %esi
	movl	%ebp, %edx
	callq	tlsf_open@PLT
	testl	%eax, %eax
	jne	.Lm_BB13_7
	movzbl	29(%rbx), %ecx
	testb	$-17, %cl
	je	.Lm_BB13_7
	movb	$1, 28(%rbx)
.Lm_BB13_7:
	movq	$0, (%r15)
	addq	$8, %rsp
	.cfi_def_cfa_offset 56
	popq	%rbx
	.cfi_def_cfa_offset 48
	popq	%r12
	.cfi_def_cfa_offset 40
	popq	%r13
	.cfi_def_cfa_offset 32
	popq	%r14
	.cfi_def_cfa_offset 24
	popq	%r15
	.cfi_def_cfa_offset 16
	popq	%rbp
	.cfi_def_cfa_offset 8
	retq
.Lm_func_end13:
	.size	tlsf_open_near_2880, .Lm_func_end13-tlsf_open_near_2880
	.cfi_endproc
	.globl	tlsf_open_near_in_2880
	.p2align	4
	.type	tlsf_open_near_in_2880,@function
tlsf_open_near_in_2880:
	.cfi_startproc
	jmp	tlsf_open_near_in@PLT
.Lm_func_end14:
	.size	tlsf_open_near_in_2880, .Lm_func_end14-tlsf_open_near_in_2880
	.cfi_endproc
	.globl	tlsf_lane_bytes
	.p2align	4
	.type	tlsf_lane_bytes,@function
tlsf_lane_bytes:
	.cfi_startproc
	leal	(%rdi,%rdi,2), %eax
	movl	%edi, %ecx
	addl	$-1025, %ecx
	leal	135(,%rax,8), %edx
	andl	$130944, %edx
	addl	$895, %edx
	xorl	%eax, %eax
	cmpl	$-1024, %ecx
	cmovael	%edx, %eax
	retq
.Lm_func_end15:
	.size	tlsf_lane_bytes, .Lm_func_end15-tlsf_lane_bytes
	.cfi_endproc
	.globl	tlsf_lane_open_in
	.p2align	4
	.type	tlsf_lane_open_in,@function
tlsf_lane_open_in:
	.cfi_startproc
	pushq	%rbp
	.cfi_def_cfa_offset 16
	pushq	%r15
	.cfi_def_cfa_offset 24
	pushq	%r14
	.cfi_def_cfa_offset 32
	pushq	%r13
	.cfi_def_cfa_offset 40
	pushq	%r12
	.cfi_def_cfa_offset 48
	pushq	%rbx
	.cfi_def_cfa_offset 56
	subq	$24, %rsp
	.cfi_def_cfa_offset 80
	.cfi_offset %rbx, -56
	.cfi_offset %r12, -48
	.cfi_offset %r13, -40
	.cfi_offset %r14, -32
	.cfi_offset %r15, -24
	.cfi_offset %rbp, -16
	movq	%r8, %r13
	movq	%rcx, %r12
	movl	%edx, %ebx
	movq	%rsi, 16(%rsp)
	movq	%rdi, 8(%rsp)
	cmpl	$1025, %edx
	jae	.Lm_BB16_1
	leal	(%rbx,%rbx,2), %eax
	leal	135(,%rax,8), %eax
	andl	$130944, %eax
	addl	$768, %eax
	movl	%r12d, %ebp
	negl	%ebp
	andl	$127, %ebp
	movq	%r13, %rcx
	subq	%rbp, %rcx
	xorl	%edx, %edx
	cmpq	%rax, %rcx
	cmovbl	%edx, %ebx
	cmpq	%rbp, %r13
	movq	%r12, %rax
	notq	%rax
	cmovbl	%edx, %ebx
	cmpq	%rax, %r13
	cmoval	%edx, %ebx
	testq	%r12, %r12
	cmovel	%edx, %ebx
	jmp	.Lm_BB16_3
.Lm_BB16_1:
	movl	%r12d, %ebp
	negl	%ebp
	andl	$127, %ebp
	movq	%r12, %rax
	notq	%rax
.Lm_BB16_3:
	testq	%r12, %r12
	setne	%r14b
	cmpq	%rax, %r13
	setbe	%r15b
	cmpq	%r13, %rbp
	cmovaeq	%r13, %rbp
	addq	%r12, %rbp
	leaq	lent@TLSLD(%rip), %rdi
	callq	__tls_get_addr@PLT
	addq	%r13, %r12
	testb	%r15b, %r14b
	leaq	begin_behind.nothing(%rip), %rcx
	cmoveq	%rcx, %rbp
	movq	%rax, %r13
	movq	%rbp, lent@DTPOFF(%rax)
	cmoveq	%rcx, %r12
	movq	%r12, lent_end@DTPOFF(%rax)
	movq	$128, lent_step@DTPOFF(%rax)
	movq	8(%rsp), %rdi
	movq	16(%rsp), %rsi
	movl	%ebx, %edx
	callq	tlsf_lane_open@PLT
	cmpl	$5, %eax
	movl	$39, %ecx
	cmovnel	%eax, %ecx
	testb	%r15b, %r14b
	movq	$0, lent@DTPOFF(%r13)
	cmovel	%ecx, %eax
	addq	$24, %rsp
	.cfi_def_cfa_offset 56
	popq	%rbx
	.cfi_def_cfa_offset 48
	popq	%r12
	.cfi_def_cfa_offset 40
	popq	%r13
	.cfi_def_cfa_offset 32
	popq	%r14
	.cfi_def_cfa_offset 24
	popq	%r15
	.cfi_def_cfa_offset 16
	popq	%rbp
	.cfi_def_cfa_offset 8
	retq
.Lm_func_end16:
	.size	tlsf_lane_open_in, .Lm_func_end16-tlsf_lane_open_in
	.cfi_endproc
	.globl	tlsf_queue_bytes
	.p2align	4
	.type	tlsf_queue_bytes,@function
tlsf_queue_bytes:
	.cfi_startproc
	movl	$1024, %eax
	movl	$1024, %ecx
	subl	%edi, %ecx
	subl	%esi, %eax
	orl	%ecx, %eax
	cmpl	$1023, %eax
	ja	.Lm_BB17_1
	movl	%edi, %eax
	movl	%esi, %ecx
	movq	%rax, %rdx
	shlq	$4, %rdx
	addq	$135, %rdx
	movabsq	$68719476608, %rsi
	andq	%rdx, %rsi
	leaq	519(,%rcx,8), %rdx
	movabsq	$34359738240, %rdi
	andq	%rdi, %rdx
	shlq	$5, %rcx
	addq	$135, %rcx
	movabsq	$137438953344, %r8
	andq	%rcx, %r8
	addq	%rdx, %r8
	leaq	135(,%rax,8), %rcx
	andq	%rdi, %rcx
	shlq	$7, %rax
	addq	%rcx, %rax
	addq	%rsi, %rax
	leaq	(%rax,%r8,2), %rax
	addq	$383, %rax
	retq
.Lm_BB17_1:
	xorl	%eax, %eax
	retq
.Lm_func_end17:
	.size	tlsf_queue_bytes, .Lm_func_end17-tlsf_queue_bytes
	.cfi_endproc
	.globl	tlsf_queue_open_in
	.p2align	4
	.type	tlsf_queue_open_in,@function
tlsf_queue_open_in:
	.cfi_startproc
	pushq	%rbp
	.cfi_def_cfa_offset 16
	pushq	%r15
	.cfi_def_cfa_offset 24
	pushq	%r14
	.cfi_def_cfa_offset 32
	pushq	%r13
	.cfi_def_cfa_offset 40
	pushq	%r12
	.cfi_def_cfa_offset 48
	pushq	%rbx
	.cfi_def_cfa_offset 56
	subq	$24, %rsp
	.cfi_def_cfa_offset 80
	.cfi_offset %rbx, -56
	.cfi_offset %r12, -48
	.cfi_offset %r13, -40
	.cfi_offset %r14, -32
	.cfi_offset %r15, -24
	.cfi_offset %rbp, -16
	movq	%r8, %r13
	movq	%rcx, %r12
	movl	%edx, %ebx
	movq	%rdi, 16(%rsp)
	cmpl	$1025, %edx
	setb	%al
	cmpl	$1025, %esi
	setb	%cl
	testb	%al, %cl
	movq	%rsi, 8(%rsp)
	je	.Lm_BB18_1
	movl	%esi, %eax
	movl	%esi, %ecx
	shll	$4, %ecx
	addl	$135, %ecx
	andl	$65408, %ecx
	leal	519(,%rbx,8), %edx
	andl	$32640, %edx
	movl	%ebx, %edi
	shll	$5, %edi
	addl	$135, %edi
	andl	$130944, %edi
	addl	%edx, %edi
	leal	135(,%rsi,8), %edx
	andl	$32640, %edx
	shlq	$7, %rax
	addq	%rdx, %rax
	addq	%rcx, %rax
	leaq	(%rax,%rdi,2), %rax
	addq	$256, %rax
	movl	%r12d, %ebp
	negl	%ebp
	andl	$127, %ebp
	movq	%r13, %rcx
	subq	%rbp, %rcx
	xorl	%edx, %edx
	cmpq	%rax, %rcx
	cmovbl	%edx, %ebx
	cmpq	%rbp, %r13
	movq	%r12, %rax
	notq	%rax
	cmovbl	%edx, %ebx
	cmpq	%rax, %r13
	cmoval	%edx, %ebx
	testq	%r12, %r12
	cmovel	%edx, %ebx
	jmp	.Lm_BB18_3
.Lm_BB18_1:
	movl	%r12d, %ebp
	negl	%ebp
	andl	$127, %ebp
	movq	%r12, %rax
	notq	%rax
.Lm_BB18_3:
	testq	%r12, %r12
	setne	%r15b
	cmpq	%rax, %r13
	setbe	%r14b
	cmpq	%r13, %rbp
	cmovaeq	%r13, %rbp
	addq	%r12, %rbp
	leaq	lent@TLSLD(%rip), %rdi
	callq	__tls_get_addr@PLT
	addq	%r13, %r12
	testb	%r14b, %r15b
	leaq	begin_behind.nothing(%rip), %rcx
	cmoveq	%rcx, %rbp
	movq	%rax, %r13
	movq	%rbp, lent@DTPOFF(%rax)
	cmoveq	%rcx, %r12
	movq	%r12, lent_end@DTPOFF(%rax)
	movq	$128, lent_step@DTPOFF(%rax)
	movq	16(%rsp), %rdi
	movq	8(%rsp), %rsi
	movl	%ebx, %edx
	callq	tlsf_queue_open@PLT
	cmpl	$5, %eax
	movl	$39, %ecx
	cmovnel	%eax, %ecx
	testb	%r14b, %r15b
	movq	$0, lent@DTPOFF(%r13)
	cmovel	%ecx, %eax
	addq	$24, %rsp
	.cfi_def_cfa_offset 56
	popq	%rbx
	.cfi_def_cfa_offset 48
	popq	%r12
	.cfi_def_cfa_offset 40
	popq	%r13
	.cfi_def_cfa_offset 32
	popq	%r14
	.cfi_def_cfa_offset 24
	popq	%r15
	.cfi_def_cfa_offset 16
	popq	%rbp
	.cfi_def_cfa_offset 8
	retq
.Lm_func_end18:
	.size	tlsf_queue_open_in, .Lm_func_end18-tlsf_queue_open_in
	.cfi_endproc
	.globl	tlsf_offsets_bytes
	.p2align	4
	.type	tlsf_offsets_bytes,@function
tlsf_offsets_bytes:
	.cfi_startproc
	xorl	%eax, %eax
	cmpl	$4, %esi
	jb	.Lm_BB19_4
	cmpl	$5, %edi
	sete	%al
	shll	$24, %eax
	cmpl	$4, %edi
	movl	$1048576, %ecx
	cmovneq	%rax, %rcx
	cmpl	%esi, %ecx
	jae	.Lm_BB19_3
	xorl	%eax, %eax
	retq
.Lm_BB19_3:
	movl	%esi, %eax
	leal	23(,%rax,8), %ecx
	andl	$536870896, %ecx
	addl	$63, %eax
	shrl	$3, %eax
	addl	$16, %eax
	andl	$16777200, %eax
	addq	%rcx, %rax
	addq	$2783, %rax
.Lm_BB19_4:
	retq
.Lm_func_end19:
	.size	tlsf_offsets_bytes, .Lm_func_end19-tlsf_offsets_bytes
	.cfi_endproc
	.globl	tlsf_offsets_open_in
	.p2align	4
	.type	tlsf_offsets_open_in,@function
tlsf_offsets_open_in:
	.cfi_startproc
	pushq	%rbp
	.cfi_def_cfa_offset 16
	pushq	%r15
	.cfi_def_cfa_offset 24
	pushq	%r14
	.cfi_def_cfa_offset 32
	pushq	%r13
	.cfi_def_cfa_offset 40
	pushq	%r12
	.cfi_def_cfa_offset 48
	pushq	%rbx
	.cfi_def_cfa_offset 56
	subq	$24, %rsp
	.cfi_def_cfa_offset 80
	.cfi_offset %rbx, -56
	.cfi_offset %r12, -48
	.cfi_offset %r13, -40
	.cfi_offset %r14, -32
	.cfi_offset %r15, -24
	.cfi_offset %rbp, -16
	movq	%r9, %r14
	movl	%r8d, %ebx
	movl	%ecx, 12(%rsp)
	movl	%edx, 8(%rsp)
	movq	%rdi, 16(%rsp)
	movq	80(%rsp), %rbp
	xorl	%eax, %eax
	cmpl	$5, %esi
	sete	%al
	shll	$24, %eax
	movl	%esi, 4(%rsp)
	cmpl	$4, %esi
	movl	$1048576, %ecx
	cmovneq	%rax, %rcx
	cmpl	%r8d, %ecx
	jae	.Lm_BB20_2
	movl	%r14d, %r13d
	negl	%r13d
	andl	$15, %r13d
	movq	%r14, %rax
	notq	%rax
	jmp	.Lm_BB20_3
.Lm_BB20_2:
	movl	%ebx, %eax
	leal	23(,%rax,8), %ecx
	andl	$536870896, %ecx
	addl	$63, %eax
	shrl	$3, %eax
	addl	$16, %eax
	andl	$16777200, %eax
	addq	%rcx, %rax
	addq	$2768, %rax
	movl	%r14d, %r13d
	negl	%r13d
	andl	$15, %r13d
	movq	%rbp, %rcx
	subq	%r13, %rcx
	xorl	%edx, %edx
	cmpq	%rax, %rcx
	cmovbl	%edx, %ebx
	cmpq	%r13, %rbp
	movq	%r14, %rax
	notq	%rax
	cmovbl	%edx, %ebx
	cmpq	%rax, %rbp
	cmoval	%edx, %ebx
	testq	%r14, %r14
	cmovel	%edx, %ebx
.Lm_BB20_3:
	testq	%r14, %r14
	setne	%r12b
	cmpq	%rax, %rbp
	setbe	%r15b
	cmpq	%rbp, %r13
	cmovaeq	%rbp, %r13
	addq	%r14, %r13
	leaq	lent@TLSLD(%rip), %rdi
	callq	__tls_get_addr@PLT
	addq	%rbp, %r14
	testb	%r15b, %r12b
	leaq	begin_behind.nothing(%rip), %rcx
	cmoveq	%rcx, %r13
	movq	%rax, %rbp
	movq	%r13, lent@DTPOFF(%rax)
	cmoveq	%rcx, %r14
	movq	%r14, lent_end@DTPOFF(%rax)
	movq	$16, lent_step@DTPOFF(%rax)
	movq	16(%rsp), %rdi
	movl	4(%rsp), %esi
	movl	8(%rsp), %edx
	movl	12(%rsp), %ecx
	movl	%ebx, %r8d
	callq	tlsf_offsets_open@PLT
	cmpl	$5, %eax
	movl	$39, %ecx
	cmovnel	%eax, %ecx
	testb	%r15b, %r12b
	movq	$0, lent@DTPOFF(%rbp)
	cmovel	%ecx, %eax
	addq	$24, %rsp
	.cfi_def_cfa_offset 56
	popq	%rbx
	.cfi_def_cfa_offset 48
	popq	%r12
	.cfi_def_cfa_offset 40
	popq	%r13
	.cfi_def_cfa_offset 32
	popq	%r14
	.cfi_def_cfa_offset 24
	popq	%r15
	.cfi_def_cfa_offset 16
	popq	%rbp
	.cfi_def_cfa_offset 8
	retq
.Lm_func_end20:
	.size	tlsf_offsets_open_in, .Lm_func_end20-tlsf_offsets_open_in
	.cfi_endproc
	.globl	tlsf_pools_bytes
	.p2align	4
	.type	tlsf_pools_bytes,@function
tlsf_pools_bytes:
	.cfi_startproc
	pushq	%rbx
	.cfi_def_cfa_offset 16
	subq	$16, %rsp
	.cfi_def_cfa_offset 32
	.cfi_offset %rbx, -16
	movq	%rdx, %rbx
	movq	$0, 8(%rsp)
	movl	$0, 4(%rsp)
	leaq	8(%rsp), %rcx
	leaq	4(%rsp), %r8
	callq	tlsf_pools_words@PLT
	testl	%eax, %eax
	je	.Lm_BB21_2
	xorl	%eax, %eax
	jmp	.Lm_BB21_3
.Lm_BB21_2:
	movq	8(%rsp), %rax
	movl	4(%rsp), %ecx
	imulq	$2792, %rcx, %rdx
	addq	$23, %rdx
	andq	$-16, %rdx
	leaq	(,%rax,8), %rsi
	shrq	$6, %rax
	leaq	(%rcx,%rcx,4), %rcx
	shlq	$4, %rcx
	leaq	(%rbx,%rbx,2), %rdi
	leaq	(%rsi,%rdi,4), %rsi
	leaq	(%rsi,%rax,8), %rax
	addq	%rcx, %rax
	addq	%rdx, %rax
	addq	$2783, %rax
.Lm_BB21_3:
	addq	$16, %rsp
	.cfi_def_cfa_offset 16
	popq	%rbx
	.cfi_def_cfa_offset 8
	retq
.Lm_func_end21:
	.size	tlsf_pools_bytes, .Lm_func_end21-tlsf_pools_bytes
	.cfi_endproc
	.globl	tlsf_pools_open_in
	.p2align	4
	.type	tlsf_pools_open_in,@function
tlsf_pools_open_in:
	.cfi_startproc
	pushq	%rbp
	.cfi_def_cfa_offset 16
	pushq	%r15
	.cfi_def_cfa_offset 24
	pushq	%r14
	.cfi_def_cfa_offset 32
	pushq	%r13
	.cfi_def_cfa_offset 40
	pushq	%r12
	.cfi_def_cfa_offset 48
	pushq	%rbx
	.cfi_def_cfa_offset 56
	subq	$40, %rsp
	.cfi_def_cfa_offset 96
	.cfi_offset %rbx, -56
	.cfi_offset %r12, -48
	.cfi_offset %r13, -40
	.cfi_offset %r14, -32
	.cfi_offset %r15, -24
	.cfi_offset %rbp, -16
	movq	%r9, %r15
	movq	%r8, 32(%rsp)
	movq	%rcx, 24(%rsp)
	movl	%edx, 12(%rsp)
	movl	%esi, 8(%rsp)
	movq	%rdi, 16(%rsp)
	movq	96(%rsp), %rbx
	movl	%r15d, %r13d
	negl	%r13d
	andl	$15, %r13d
	testq	%r9, %r9
	setne	%r14b
	movq	%r9, %rax
	notq	%rax
	cmpq	%rax, %rbx
	setbe	%bpl
	cmpq	%rbx, %r13
	cmovaeq	%rbx, %r13
	addq	%r9, %r13
	leaq	begin_behind.nothing(%rip), %r12
	leaq	lent@TLSLD(%rip), %rdi
	callq	__tls_get_addr@PLT
	addq	%rbx, %r15
	testb	%bpl, %r14b
	cmoveq	%r12, %r13
	movq	%rax, %rbx
	movq	%r13, lent@DTPOFF(%rax)
	cmoveq	%r12, %r15
	movq	%r15, lent_end@DTPOFF(%rax)
	movq	$16, lent_step@DTPOFF(%rax)
	movq	16(%rsp), %rdi
	movl	8(%rsp), %esi
	movl	12(%rsp), %edx
	movq	24(%rsp), %rcx
	movq	32(%rsp), %r8
	callq	tlsf_pools_open@PLT
	cmpl	$6, %eax
	movl	$5, %ecx
	cmovel	%ecx, %eax
	cmpl	$5, %eax
	movl	$39, %ecx
	cmovnel	%eax, %ecx
	testb	%bpl, %r14b
	movq	$0, lent@DTPOFF(%rbx)
	cmovel	%ecx, %eax
	addq	$40, %rsp
	.cfi_def_cfa_offset 56
	popq	%rbx
	.cfi_def_cfa_offset 48
	popq	%r12
	.cfi_def_cfa_offset 40
	popq	%r13
	.cfi_def_cfa_offset 32
	popq	%r14
	.cfi_def_cfa_offset 24
	popq	%r15
	.cfi_def_cfa_offset 16
	popq	%rbp
	.cfi_def_cfa_offset 8
	retq
.Lm_func_end22:
	.size	tlsf_pools_open_in, .Lm_func_end22-tlsf_pools_open_in
	.cfi_endproc
	.globl	tlsf_next_number
	.p2align	4
	.type	tlsf_next_number,@function
tlsf_next_number:
	.cfi_startproc
	movl	$1, %ecx
	lock		xaddq	%rcx, tlsf_next_number.calls(%rip)
	leaq	(,%rcx,8), %rdx
	movslq	%edx, %rsi
	movl	$2, %eax
	cmpq	%rdx, %rsi
	jne	.Lm_BB23_2
	movl	$2147483648, %eax
	leaq	(%rax,%rcx,8), %rax
	movl	%eax, (%rdi)
	xorl	%eax, %eax
.Lm_BB23_2:
	retq
.Lm_func_end23:
	.size	tlsf_next_number, .Lm_func_end23-tlsf_next_number
	.cfi_endproc
	.type	tlsf_memory_alloc.nothing,@object
	.local	tlsf_memory_alloc.nothing
	.comm	tlsf_memory_alloc.nothing,8,8
	.type	near_room,@object
	.section	.tbss,"awT",@nobits
	.p2align	3, 0x0
near_room:
	.quad	0
	.size	near_room, 8
	.type	pieces_first,@object
	.p2align	2, 0x0
pieces_first:
	.long	0
	.size	pieces_first, 4
	.type	lent,@object
	.p2align	3, 0x0
lent:
	.quad	0
	.size	lent, 8
	.type	tlsf_next_number.calls,@object
	.local	tlsf_next_number.calls
	.comm	tlsf_next_number.calls,8,8
	.type	lent_step,@object
	.p2align	3, 0x0
lent_step:
	.quad	0
	.size	lent_step, 8
	.type	lent_end,@object
	.p2align	3, 0x0
lent_end:
	.quad	0
	.size	lent_end, 8
	.type	begin_behind.nothing,@object
	.local	begin_behind.nothing
	.comm	begin_behind.nothing,1,1
	.ident	"clang version 22.1.8"
	.section	".note.GNU-stack","",@progbits
#else
	.text
	.hidden	tlsf_memory_alloc
	.globl	tlsf_memory_alloc
	.p2align	4
	.type	tlsf_memory_alloc,@function
tlsf_memory_alloc:
	.cfi_startproc
	cmpq	$8, %rsi
	jbe	.Lm_BB0_2
	xorl	%esi, %esi
	jmp	.Lm_BB0_21
.Lm_BB0_2:
	pushq	%r14
	.cfi_def_cfa_offset 16
	pushq	%rbx
	.cfi_def_cfa_offset 24
	pushq	%rax
	.cfi_def_cfa_offset 32
	.cfi_offset %rbx, -24
	.cfi_offset %r14, -16
	movq	%rdi, %rbx
	leaq	near_room@TLSLD(%rip), %rdi
	callq	__tls_get_addr@PLT
	movq	%rax, %rcx
	movq	near_room@DTPOFF(%rax), %rsi
	testq	%rsi, %rsi
	je	.Lm_BB0_6
	subl	$1, pieces_first@DTPOFF(%rcx)
	jae	.Lm_BB0_6
	cmpq	$2776, %rbx
	ja	.Lm_BB0_19
	movq	$0, (%rsi)
	addq	$8, %rsi
	jmp	.Lm_BB0_20
.Lm_BB0_6:
	movq	%rcx, %rax
	movq	lent@DTPOFF(%rax), %r8
	testq	%r8, %r8
	je	.Lm_BB0_10
	movq	%rax, %rsi
	movq	lent_step@DTPOFF(%rcx), %r9
	leaq	(%rbx,%r9), %rdi
	addq	$7, %rdi
	movq	%rdi, %rax
	orq	%r9, %rax
	shrq	$32, %rax
	je	.Lm_BB0_12
	movq	%rdi, %rax
	xorl	%edx, %edx
	divq	%r9
	cmpq	$268435456, %rbx
	jbe	.Lm_BB0_13
	jmp	.Lm_BB0_19
.Lm_BB0_10:
	cmpq	$268435456, %rbx
	ja	.Lm_BB0_19
	movq	%rcx, %rax
	movq	%rax, %r14
	movq	front@DTPOFF(%rax), %rax
	leaq	(%rbx,%rax), %rdi
	addq	$135, %rdi
	orq	$127, %rdi
	callq	malloc@PLT
	testq	%rax, %rax
	je	.Lm_BB0_19
	leaq	front@DTPOFF(%r14), %rcx
	movl	%eax, %edx
	negl	%edx
	andl	$127, %edx
	addq	%rax, %rdx
	movq	(%rcx), %rdi
	leaq	(%rdi,%rdx), %rsi
	addq	$8, %rsi
	movq	$0, (%rcx)
	movq	%rax, (%rdi,%rdx)
	jmp	.Lm_BB0_20
.Lm_BB0_12:
	movl	%edi, %eax
	xorl	%edx, %edx
	divl	%r9d
	cmpq	$268435456, %rbx
	ja	.Lm_BB0_19
.Lm_BB0_13:
	addq	$8, %rbx
	movq	lent_end@DTPOFF(%rcx), %rax
	movq	%rax, %rcx
	subq	%r8, %rcx
	cmpq	%rcx, %rbx
	jbe	.Lm_BB0_18
.Lm_BB0_19:
	xorl	%esi, %esi
.Lm_BB0_20:
	addq	$8, %rsp
	.cfi_def_cfa_offset 24
	popq	%rbx
	.cfi_def_cfa_offset 16
	popq	%r14
	.cfi_def_cfa_offset 8
	.cfi_restore %rbx
	.cfi_restore %r14
.Lm_BB0_21:
	xorl	%eax, %eax
	testq	%rsi, %rsi
	setne	%al
	leaq	tlsf_memory_alloc.nothing(%rip), %rdx
	cmovneq	%rsi, %rdx
	retq
.Lm_BB0_18:
	.cfi_def_cfa_offset 32
	.cfi_offset %rbx, -24
	.cfi_offset %r14, -16
	leaq	lent@DTPOFF(%rsi), %r9
	leaq	8(%r8), %rsi
	subq	%rdx, %rdi
	leaq	(%r8,%rdi), %rdx
	cmpq	%rcx, %rdi
	cmovbq	%rdx, %rax
	movq	%rax, (%r9)
	movq	$0, (%r8)
	jmp	.Lm_BB0_20
.Lm_func_end0:
	.size	tlsf_memory_alloc, .Lm_func_end0-tlsf_memory_alloc
	.cfi_endproc
	.hidden	tlsf_memory_dealloc
	.globl	tlsf_memory_dealloc
	.p2align	4
	.type	tlsf_memory_dealloc,@function
tlsf_memory_dealloc:
	.cfi_startproc
	movq	-8(%rdi), %rdi
	testq	%rdi, %rdi
	jne	free@PLT
	retq
.Lm_func_end1:
	.size	tlsf_memory_dealloc, .Lm_func_end1-tlsf_memory_dealloc
	.cfi_endproc
	.hidden	tlsf_memory_realloc
	.globl	tlsf_memory_realloc
	.p2align	4
	.type	tlsf_memory_realloc,@function
tlsf_memory_realloc:
	.cfi_startproc
	pushq	%r15
	.cfi_def_cfa_offset 16
	pushq	%r14
	.cfi_def_cfa_offset 24
	pushq	%r12
	.cfi_def_cfa_offset 32
	pushq	%rbx
	.cfi_def_cfa_offset 40
	pushq	%rax
	.cfi_def_cfa_offset 48
	.cfi_offset %rbx, -40
	.cfi_offset %r12, -32
	.cfi_offset %r14, -24
	.cfi_offset %r15, -16
	movq	%rsi, %r12
	movq	%rdi, %r15
	movq	%rdx, %rdi
	movq	%rcx, %rsi
	callq	tlsf_memory_alloc
	movq	%rax, %rbx
	movq	%rdx, %r14
	testq	%rax, %rax
	je	.Lm_BB2_3
	movq	%r14, %rdi
	movq	%r15, %rsi
	movq	%r12, %rdx
	callq	memcpy@PLT
	movq	-8(%r15), %rdi
	testq	%rdi, %rdi
	je	.Lm_BB2_3
	callq	free@PLT
.Lm_BB2_3:
	movq	%rbx, %rax
	movq	%r14, %rdx
	addq	$8, %rsp
	.cfi_def_cfa_offset 40
	popq	%rbx
	.cfi_def_cfa_offset 32
	popq	%r12
	.cfi_def_cfa_offset 24
	popq	%r14
	.cfi_def_cfa_offset 16
	popq	%r15
	.cfi_def_cfa_offset 8
	retq
.Lm_func_end2:
	.size	tlsf_memory_realloc, .Lm_func_end2-tlsf_memory_realloc
	.cfi_endproc
	.hidden	tlsf_memory_set
	.weak	tlsf_memory_set
	.p2align	4
	.type	tlsf_memory_set,@function
tlsf_memory_set:
	.cfi_startproc
	testl	%esi, %esi
	jne	memset@PLT
	cmpq	$513, %rdx
	jae	memset@PLT
	cmpq	$257, %rdx
	jb	.Lm_BB3_4
	xorps	%xmm0, %xmm0
	movups	%xmm0, (%rdi)
	movups	%xmm0, -16(%rdi,%rdx)
	movups	%xmm0, 16(%rdi)
	movups	%xmm0, -32(%rdi,%rdx)
	movups	%xmm0, 32(%rdi)
	movups	%xmm0, -48(%rdi,%rdx)
	movups	%xmm0, 48(%rdi)
	movups	%xmm0, -64(%rdi,%rdx)
	movups	%xmm0, 64(%rdi)
	movups	%xmm0, -80(%rdi,%rdx)
	movups	%xmm0, 80(%rdi)
	movups	%xmm0, -96(%rdi,%rdx)
	movups	%xmm0, 96(%rdi)
	movups	%xmm0, -112(%rdi,%rdx)
	movups	%xmm0, 112(%rdi)
	movups	%xmm0, -128(%rdi,%rdx)
	movups	%xmm0, 128(%rdi)
	movups	%xmm0, -144(%rdi,%rdx)
	movups	%xmm0, 144(%rdi)
	movups	%xmm0, -160(%rdi,%rdx)
	movups	%xmm0, 160(%rdi)
	movups	%xmm0, -176(%rdi,%rdx)
	movups	%xmm0, 176(%rdi)
	movups	%xmm0, -192(%rdi,%rdx)
	movups	%xmm0, 192(%rdi)
	movups	%xmm0, -208(%rdi,%rdx)
	movups	%xmm0, 208(%rdi)
	movups	%xmm0, -224(%rdi,%rdx)
	movups	%xmm0, 224(%rdi)
	movups	%xmm0, -240(%rdi,%rdx)
	movups	%xmm0, 240(%rdi)
	movups	%xmm0, -256(%rdi,%rdx)
	movq	%rdi, %rax
	retq
.Lm_BB3_4:
	cmpq	$129, %rdx
	jb	.Lm_BB3_6
	xorps	%xmm0, %xmm0
	movups	%xmm0, (%rdi)
	movups	%xmm0, -16(%rdi,%rdx)
	movups	%xmm0, 16(%rdi)
	movups	%xmm0, -32(%rdi,%rdx)
	movups	%xmm0, 32(%rdi)
	movups	%xmm0, -48(%rdi,%rdx)
	movups	%xmm0, 48(%rdi)
	movups	%xmm0, -64(%rdi,%rdx)
	movups	%xmm0, 64(%rdi)
	movups	%xmm0, -80(%rdi,%rdx)
	movups	%xmm0, 80(%rdi)
	movups	%xmm0, -96(%rdi,%rdx)
	movups	%xmm0, 96(%rdi)
	movups	%xmm0, -112(%rdi,%rdx)
	movups	%xmm0, 112(%rdi)
	movups	%xmm0, -128(%rdi,%rdx)
	movq	%rdi, %rax
	retq
.Lm_BB3_6:
	cmpq	$65, %rdx
	jb	.Lm_BB3_8
	xorps	%xmm0, %xmm0
	movups	%xmm0, (%rdi)
	movups	%xmm0, -16(%rdi,%rdx)
	movups	%xmm0, 16(%rdi)
	movups	%xmm0, -32(%rdi,%rdx)
	movups	%xmm0, 32(%rdi)
	movups	%xmm0, -48(%rdi,%rdx)
	movups	%xmm0, 48(%rdi)
	movups	%xmm0, -64(%rdi,%rdx)
	movq	%rdi, %rax
	retq
.Lm_BB3_8:
	cmpq	$33, %rdx
	jb	.Lm_BB3_10
	xorps	%xmm0, %xmm0
	movups	%xmm0, (%rdi)
	movups	%xmm0, -16(%rdi,%rdx)
	movups	%xmm0, 16(%rdi)
	movups	%xmm0, -32(%rdi,%rdx)
	movq	%rdi, %rax
	retq
.Lm_BB3_10:
	cmpq	$17, %rdx
	jb	.Lm_BB3_12
	xorps	%xmm0, %xmm0
	movups	%xmm0, (%rdi)
	movups	%xmm0, -16(%rdi,%rdx)
	movq	%rdi, %rax
	retq
.Lm_BB3_12:
	cmpq	$7, %rdx
	ja	.Lm_BB3_13
	xorl	%esi, %esi
	jmp	memset@PLT
.Lm_BB3_13:
	movq	$0, (%rdi)
	movq	$0, -8(%rdi,%rdx)
	movq	%rdi, %rax
	retq
.Lm_func_end3:
	.size	tlsf_memory_set, .Lm_func_end3-tlsf_memory_set
	.cfi_endproc
	.hidden	tlsf_memory_cpy
	.weak	tlsf_memory_cpy
	.p2align	4
	.type	tlsf_memory_cpy,@function
tlsf_memory_cpy:
	.cfi_startproc
	jmp	memcpy@PLT
.Lm_func_end4:
	.size	tlsf_memory_cpy, .Lm_func_end4-tlsf_memory_cpy
	.cfi_endproc
	.hidden	tlsf_memory_move
	.weak	tlsf_memory_move
	.p2align	4
	.type	tlsf_memory_move,@function
tlsf_memory_move:
	.cfi_startproc
	jmp	memmove@PLT
.Lm_func_end5:
	.size	tlsf_memory_move, .Lm_func_end5-tlsf_memory_move
	.cfi_endproc
	.globl	tlsf_bytes
	.p2align	4
	.type	tlsf_bytes,@function
tlsf_bytes:
	.cfi_startproc
	xorl	%eax, %eax
	cmpl	$4, %esi
	jb	.Lm_BB6_4
	cmpl	$5, %edi
	sete	%al
	shll	$24, %eax
	cmpl	$4, %edi
	movl	$1048576, %ecx
	cmovneq	%rax, %rcx
	cmpl	%esi, %ecx
	jae	.Lm_BB6_3
	xorl	%eax, %eax
	retq
.Lm_BB6_3:
	movl	%esi, %eax
	leaq	23(,%rax,8), %rcx
	andq	$-16, %rcx
	addq	$63, %rax
	shrq	$3, %rax
	addl	$16, %eax
	andl	$-16, %eax
	addq	%rcx, %rax
	addq	$2783, %rax
.Lm_BB6_4:
	retq
.Lm_func_end6:
	.size	tlsf_bytes, .Lm_func_end6-tlsf_bytes
	.cfi_endproc
	.globl	tlsf_near_bytes
	.p2align	4
	.type	tlsf_near_bytes,@function
tlsf_near_bytes:
	.cfi_startproc
	xorl	%eax, %eax
	cmpl	$4, %esi
	jb	.Lm_BB7_4
	cmpl	$5, %edi
	sete	%al
	shll	$24, %eax
	cmpl	$4, %edi
	movl	$1048576, %ecx
	cmovneq	%rax, %rcx
	cmpl	%esi, %ecx
	jae	.Lm_BB7_3
	xorl	%eax, %eax
	retq
.Lm_BB7_3:
	movl	%esi, %eax
	leaq	23(,%rax,8), %rcx
	andq	$-16, %rcx
	addq	$63, %rax
	shrq	$6, %rax
	leaq	(%rcx,%rax,8), %rax
	addq	$23, %rax
.Lm_BB7_4:
	retq
.Lm_func_end7:
	.size	tlsf_near_bytes, .Lm_func_end7-tlsf_near_bytes
	.cfi_endproc
	.globl	tlsf_open_in
	.p2align	4
	.type	tlsf_open_in,@function
tlsf_open_in:
	.cfi_startproc
	pushq	%rbp
	.cfi_def_cfa_offset 16
	pushq	%r15
	.cfi_def_cfa_offset 24
	pushq	%r14
	.cfi_def_cfa_offset 32
	pushq	%r13
	.cfi_def_cfa_offset 40
	pushq	%r12
	.cfi_def_cfa_offset 48
	pushq	%rbx
	.cfi_def_cfa_offset 56
	subq	$24, %rsp
	.cfi_def_cfa_offset 80
	.cfi_offset %rbx, -56
	.cfi_offset %r12, -48
	.cfi_offset %r13, -40
	.cfi_offset %r14, -32
	.cfi_offset %r15, -24
	.cfi_offset %rbp, -16
	movq	%r8, %r12
	movq	%rcx, %r15
	movl	%edx, 4(%rsp)
	movq	%rdi, 16(%rsp)
	movzbl	29(%rdi), %edi
	testq	%rdi, %rdi
	je	.Lm_BB8_3
	leal	-65(%rdi), %eax
	cmpb	$-57, %al
	jb	.Lm_BB8_2
	leal	127(%rdi), %eax
	testl	%edi, %eax
	je	.Lm_BB8_6
.Lm_BB8_2:
	xorl	%r13d, %r13d
	jmp	.Lm_BB8_10
.Lm_BB8_3:
	movl	$16, %ecx
	jmp	.Lm_BB8_7
.Lm_BB8_6:
	cmpq	$17, %rdi
	movl	$16, %ecx
	cmovaeq	%rdi, %rcx
.Lm_BB8_7:
	movq	$-32, %rax
	subq	%r15, %rax
	movq	%rax, %rdx
	shrq	$32, %rdx
	je	.Lm_BB8_9
	xorl	%edx, %edx
	divq	%rcx
	movq	%rdx, %r13
	jmp	.Lm_BB8_10
.Lm_BB8_9:
	xorl	%edx, %edx
	divl	%ecx
	movl	%edx, %r13d
.Lm_BB8_10:
	xorl	%r14d, %r14d
	movq	%r15, %rax
	notq	%rax
	testq	%r15, %r15
	movl	%esi, (%rsp)
	movq	%rdi, 8(%rsp)
	je	.Lm_BB8_17
	cmpq	%rax, %r12
	ja	.Lm_BB8_17
	movq	%r12, %rdi
	subq	%r13, %rdi
	jb	.Lm_BB8_17
	xorl	%edx, %edx
	cmpl	$5, %esi
	sete	%dl
	shll	$24, %edx
	cmpl	$4, %esi
	movl	$1048576, %ecx
	cmovneq	%rdx, %rcx
	cmpq	$2832, %rdi
	jb	.Lm_BB8_17
	cmpq	$268435456, %rdi
	movl	$268435456, %edx
	cmovbq	%rdi, %rdx
	leal	-22400(,%rdx,8), %esi
	movl	$4228890877, %r14d
	imulq	%rsi, %r14
	shrq	$38, %r14
	leaq	87(,%r14,8), %rsi
	addq	$71, %r14
	.p2align	4
.Lm_BB8_15:
	movq	%rsi, %rdi
	andq	$-16, %rdi
	movq	%r14, %r8
	shrq	$3, %r8
	addq	$16, %r8
	andq	$-16, %r8
	addq	%r8, %rdi
	addq	$2768, %rdi
	decq	%r14
	addq	$-8, %rsi
	cmpq	%rdx, %rdi
	ja	.Lm_BB8_15
	addq	$-62, %r14
	cmpq	%rcx, %r14
	cmovaeq	%rcx, %r14
.Lm_BB8_17:
	testq	%r15, %r15
	setne	%cl
	cmpq	%rax, %r12
	setbe	%bl
	andb	%cl, %bl
	cmpq	%r12, %r13
	cmovaeq	%r12, %r13
	addq	%r15, %r13
	leaq	begin_behind.nothing(%rip), %rbp
	leaq	lent@TLSLD(%rip), %rdi
	callq	__tls_get_addr@PLT
	movq	%rax, %rdx
	addq	%r12, %r15
	testb	%bl, %bl
	cmoveq	%rbp, %r13
	cmoveq	%rbp, %r15
	movq	%r13, lent@DTPOFF(%rax)
	movq	%r15, lent_end@DTPOFF(%rax)
	movq	$16, lent_step@DTPOFF(%rax)
	movq	8(%rsp), %rdi
	testq	%rdi, %rdi
	movq	16(%rsp), %r15
	movl	(%rsp), %esi
	je	.Lm_BB8_20
	leal	-65(%rdi), %eax
	xorl	%ecx, %ecx
	cmpb	$-57, %al
	jb	.Lm_BB8_21
	leal	127(%rdi), %eax
	testb	%dil, %al
	jne	.Lm_BB8_21
.Lm_BB8_20:
	movl	%r14d, %ecx
.Lm_BB8_21:
	leaq	lent@DTPOFF(%rdx), %r14
	movq	%r15, %rdi
	movl	4(%rsp), %edx
	callq	tlsf_open@PLT
	testl	%eax, %eax
	je	.Lm_BB8_23
	movq	$0, (%r14)
	cmpl	$5, %eax
	sete	%dl
	notb	%bl
	movl	$39, %ecx
	testb	%dl, %bl
	je	.Lm_BB8_26
	jmp	.Lm_BB8_27
.Lm_BB8_23:
	movzbl	29(%r15), %ecx
	testb	$-17, %cl
	je	.Lm_BB8_25
	movb	$1, 28(%r15)
.Lm_BB8_25:
	movq	$0, (%r14)
.Lm_BB8_26:
	movl	%eax, %ecx
.Lm_BB8_27:
	movl	%ecx, %eax
	addq	$24, %rsp
	.cfi_def_cfa_offset 56
	popq	%rbx
	.cfi_def_cfa_offset 48
	popq	%r12
	.cfi_def_cfa_offset 40
	popq	%r13
	.cfi_def_cfa_offset 32
	popq	%r14
	.cfi_def_cfa_offset 24
	popq	%r15
	.cfi_def_cfa_offset 16
	popq	%rbp
	.cfi_def_cfa_offset 8
	retq
.Lm_func_end8:
	.size	tlsf_open_in, .Lm_func_end8-tlsf_open_in
	.cfi_endproc
	.globl	tlsf_open_near
	.p2align	4
	.type	tlsf_open_near,@function
tlsf_open_near:
	.cfi_startproc
	pushq	%rbp
	.cfi_def_cfa_offset 16
	pushq	%r15
	.cfi_def_cfa_offset 24
	pushq	%r14
	.cfi_def_cfa_offset 32
	pushq	%r13
	.cfi_def_cfa_offset 40
	pushq	%r12
	.cfi_def_cfa_offset 48
	pushq	%rbx
	.cfi_def_cfa_offset 56
	pushq	%rax
	.cfi_def_cfa_offset 64
	.cfi_offset %rbx, -56
	.cfi_offset %r12, -48
	.cfi_offset %r13, -40
	.cfi_offset %r14, -32
	.cfi_offset %r15, -24
	.cfi_offset %rbp, -16
	movl	%ecx, 4(%rsp)
	movl	%edx, %ebp
	movl	%esi, %r14d
	movq	%rdi, %r12
	movl	%r12d, %r13d
	negl	%r13d
	andl	$63, %r13d
	leaq	(%rdi,%r13), %rbx
	leaq	(%rdi,%r13), %r15
	addq	$32, %r15
	leaq	near_room@TLSLD(%rip), %rdi
	callq	__tls_get_addr@PLT
	movq	%rax, %rcx
	movq	%r15, near_room@DTPOFF(%rax)
	movl	$2, pieces_first@DTPOFF(%rax)
	movzbl	29(%r12,%r13), %esi
	xorl	%edx, %edx
	testb	%sil, %sil
	je	.Lm_BB9_6
	leal	-65(%rsi), %edi
	cmpb	$-57, %dil
	jae	.Lm_BB9_3
	xorl	%r15d, %r15d
	jmp	.Lm_BB9_7
.Lm_BB9_3:
	leal	127(%rsi), %edx
	testb	%sil, %dl
	je	.Lm_BB9_5
	xorl	%edx, %edx
	xorl	%r15d, %r15d
	jmp	.Lm_BB9_7
.Lm_BB9_5:
	xorl	%edx, %edx
	cmpb	$64, %sil
	sete	%dl
	shll	$5, %edx
.Lm_BB9_6:
	movl	4(%rsp), %r15d
.Lm_BB9_7:
	leaq	near_room@DTPOFF(%rcx), %r12
	leaq	front@DTPOFF(%rax), %r13
	movq	%rdx, front@DTPOFF(%rax)
	movq	%rbx, %rdi
	movl	%r14d, %esi
	movl	%ebp, %edx
	movl	%r15d, %ecx
	callq	tlsf_open@PLT
	testl	%eax, %eax
	jne	.Lm_BB9_10
	movzbl	29(%rbx), %ecx
	testb	$-17, %cl
	je	.Lm_BB9_10
	movb	$1, 28(%rbx)
.Lm_BB9_10:
	movq	$0, (%r13)
	movq	$0, (%r12)
	addq	$8, %rsp
	.cfi_def_cfa_offset 56
	popq	%rbx
	.cfi_def_cfa_offset 48
	popq	%r12
	.cfi_def_cfa_offset 40
	popq	%r13
	.cfi_def_cfa_offset 32
	popq	%r14
	.cfi_def_cfa_offset 24
	popq	%r15
	.cfi_def_cfa_offset 16
	popq	%rbp
	.cfi_def_cfa_offset 8
	retq
.Lm_func_end9:
	.size	tlsf_open_near, .Lm_func_end9-tlsf_open_near
	.cfi_endproc
	.globl	tlsf_open_near_in
	.p2align	4
	.type	tlsf_open_near_in,@function
tlsf_open_near_in:
	.cfi_startproc
	pushq	%rbp
	.cfi_def_cfa_offset 16
	pushq	%r15
	.cfi_def_cfa_offset 24
	pushq	%r14
	.cfi_def_cfa_offset 32
	pushq	%r13
	.cfi_def_cfa_offset 40
	pushq	%r12
	.cfi_def_cfa_offset 48
	pushq	%rbx
	.cfi_def_cfa_offset 56
	pushq	%rax
	.cfi_def_cfa_offset 64
	.cfi_offset %rbx, -56
	.cfi_offset %r12, -48
	.cfi_offset %r13, -40
	.cfi_offset %r14, -32
	.cfi_offset %r15, -24
	.cfi_offset %rbp, -16
	movq	%r8, %r12
	movq	%rcx, %r15
	movl	%edx, 4(%rsp)
	movl	%esi, (%rsp)
	movq	%rdi, %rbx
	movl	%ebx, %r13d
	negl	%r13d
	andl	$63, %r13d
	leaq	(%rdi,%r13), %rbp
	addq	$32, %rbp
	leaq	near_room@TLSLD(%rip), %rdi
	callq	__tls_get_addr@PLT
	movq	%rax, %rsi
	movq	%rax, %r8
	movq	%rbp, near_room@DTPOFF(%rax)
	movl	$2, pieces_first@DTPOFF(%rax)
	movzbl	29(%rbx,%r13), %r9d
	testq	%r9, %r9
	je	.Lm_BB10_3
	leal	-65(%r9), %eax
	cmpb	$-57, %al
	jb	.Lm_BB10_2
	leal	127(%r9), %eax
	testl	%r9d, %eax
	je	.Lm_BB10_6
.Lm_BB10_2:
	xorl	%edx, %edx
	jmp	.Lm_BB10_10
.Lm_BB10_3:
	movl	$16, %ecx
	jmp	.Lm_BB10_7
.Lm_BB10_6:
	cmpq	$17, %r9
	movl	$16, %ecx
	cmovaeq	%r9, %rcx
.Lm_BB10_7:
	movq	$-32, %rax
	subq	%r15, %rax
	movq	%rax, %rdx
	shrq	$32, %rdx
	je	.Lm_BB10_9
	xorl	%edx, %edx
	divq	%rcx
	jmp	.Lm_BB10_10
.Lm_BB10_9:
	xorl	%edx, %edx
	divl	%ecx
.Lm_BB10_10:
	xorl	%r14d, %r14d
	movq	%r15, %rax
	notq	%rax
	testq	%r15, %r15
	je	.Lm_BB10_17
	cmpq	%rax, %r12
	ja	.Lm_BB10_17
	movq	%r12, %r11
	subq	%rdx, %r11
	jb	.Lm_BB10_17
	xorl	%edi, %edi
	movl	(%rsp), %ecx
	cmpl	$5, %ecx
	sete	%dil
	shll	$24, %edi
	cmpl	$4, %ecx
	movl	$1048576, %ecx
	cmovneq	%rdi, %rcx
	cmpq	$64, %r11
	jb	.Lm_BB10_17
	cmpq	$268435456, %r11
	movl	$268435456, %edi
	cmovbq	%r11, %rdi
	leal	-192(,%rdi,8), %r11d
	movl	$4228890877, %r14d
	imulq	%r11, %r14
	shrq	$38, %r14
	leaq	87(,%r14,8), %r11
	addq	$71, %r14
	.p2align	4
.Lm_BB10_15:
	movq	%r11, %rbp
	andq	$-16, %rbp
	movq	%r14, %r10
	shrq	$6, %r10
	leaq	8(,%r10,8), %r10
	addq	%rbp, %r10
	decq	%r14
	addq	$-8, %r11
	cmpq	%rdi, %r10
	ja	.Lm_BB10_15
	addq	$-62, %r14
	cmpq	%rcx, %r14
	cmovaeq	%rcx, %r14
.Lm_BB10_17:
	addq	%r13, %rbx
	testq	%r15, %r15
	setne	%cl
	cmpq	%rax, %r12
	setbe	%r13b
	andb	%cl, %r13b
	cmpq	%r12, %rdx
	cmovaeq	%r12, %rdx
	addq	%r15, %rdx
	leaq	begin_behind.nothing(%rip), %rcx
	movq	%rsi, %rax
	movq	%rax, %rdi
	addq	%r12, %r15
	testb	%r13b, %r13b
	cmoveq	%rcx, %rdx
	cmoveq	%rcx, %r15
	movq	%rdx, lent@DTPOFF(%rax)
	movq	%r15, lent_end@DTPOFF(%rax)
	movq	$16, lent_step@DTPOFF(%rsi)
	testq	%r9, %r9
	je	.Lm_BB10_20
	leal	-65(%r9), %eax
	xorl	%ecx, %ecx
	cmpb	$-57, %al
	jb	.Lm_BB10_21
	leal	127(%r9), %eax
	testb	%r9b, %al
	jne	.Lm_BB10_21
.Lm_BB10_20:
	movl	%r14d, %ecx
.Lm_BB10_21:
	leaq	near_room@DTPOFF(%r8), %r15
	leaq	lent@DTPOFF(%rdi), %r12
	movq	%rbx, %rdi
	movl	(%rsp), %esi
	movl	4(%rsp), %edx
	callq	tlsf_open@PLT
	testl	%eax, %eax
	je	.Lm_BB10_23
	movq	$0, (%r12)
	cmpl	$5, %eax
	sete	%dl
	notb	%r13b
	movl	$39, %ecx
	testb	%dl, %r13b
	je	.Lm_BB10_26
	jmp	.Lm_BB10_27
.Lm_BB10_23:
	movzbl	29(%rbx), %ecx
	testb	$-17, %cl
	je	.Lm_BB10_25
	movb	$1, 28(%rbx)
.Lm_BB10_25:
	movq	$0, (%r12)
.Lm_BB10_26:
	movl	%eax, %ecx
.Lm_BB10_27:
	movq	$0, (%r15)
	movl	%ecx, %eax
	addq	$8, %rsp
	.cfi_def_cfa_offset 56
	popq	%rbx
	.cfi_def_cfa_offset 48
	popq	%r12
	.cfi_def_cfa_offset 40
	popq	%r13
	.cfi_def_cfa_offset 32
	popq	%r14
	.cfi_def_cfa_offset 24
	popq	%r15
	.cfi_def_cfa_offset 16
	popq	%rbp
	.cfi_def_cfa_offset 8
	retq
.Lm_func_end10:
	.size	tlsf_open_near_in, .Lm_func_end10-tlsf_open_near_in
	.cfi_endproc
	.globl	tlsf_open_32
	.p2align	4
	.type	tlsf_open_32,@function
tlsf_open_32:
	.cfi_startproc
	pushq	%rbp
	.cfi_def_cfa_offset 16
	pushq	%r15
	.cfi_def_cfa_offset 24
	pushq	%r14
	.cfi_def_cfa_offset 32
	pushq	%r13
	.cfi_def_cfa_offset 40
	pushq	%r12
	.cfi_def_cfa_offset 48
	pushq	%rbx
	.cfi_def_cfa_offset 56
	pushq	%rax
	.cfi_def_cfa_offset 64
	.cfi_offset %rbx, -56
	.cfi_offset %r12, -48
	.cfi_offset %r13, -40
	.cfi_offset %r14, -32
	.cfi_offset %r15, -24
	.cfi_offset %rbp, -16
	movl	%ecx, %r15d
	movl	%edx, %ebp
	movl	%esi, %r14d
	movq	%rdi, %rbx
	movzbl	29(%rdi), %eax
	xorl	%r12d, %r12d
	testb	%al, %al
	je	.Lm_BB11_6
	leal	-65(%rax), %ecx
	cmpb	$-57, %cl
	jb	.Lm_BB11_2
	leal	127(%rax), %ecx
	xorl	%r12d, %r12d
	testb	%al, %cl
	je	.Lm_BB11_5
.Lm_BB11_2:
	xorl	%r15d, %r15d
.Lm_BB11_6:
	leaq	front@TLSLD(%rip), %rdi
	callq	__tls_get_addr@PLT
	leaq	front@DTPOFF(%rax), %r13
	movq	%r12, front@DTPOFF(%rax)
	movq	%rbx, %rdi
	movl	%r14d, %esi
	movl	%ebp, %edx
	movl	%r15d, %ecx
	callq	tlsf_open@PLT
	testl	%eax, %eax
	jne	.Lm_BB11_9
	movzbl	29(%rbx), %ecx
	testb	$-17, %cl
	je	.Lm_BB11_9
	movb	$1, 28(%rbx)
.Lm_BB11_9:
	movq	$0, (%r13)
	addq	$8, %rsp
	.cfi_def_cfa_offset 56
	popq	%rbx
	.cfi_def_cfa_offset 48
	popq	%r12
	.cfi_def_cfa_offset 40
	popq	%r13
	.cfi_def_cfa_offset 32
	popq	%r14
	.cfi_def_cfa_offset 24
	popq	%r15
	.cfi_def_cfa_offset 16
	popq	%rbp
	.cfi_def_cfa_offset 8
	retq
.Lm_BB11_5:
	.cfi_def_cfa_offset 64
	cmpb	$64, %al
	sete	%r12b
	shll	$5, %r12d
	jmp	.Lm_BB11_6
.Lm_func_end11:
	.size	tlsf_open_32, .Lm_func_end11-tlsf_open_32
	.cfi_endproc
	.globl	tlsf_open_in_32
	.p2align	4
	.type	tlsf_open_in_32,@function
tlsf_open_in_32:
	.cfi_startproc
	jmp	tlsf_open_in@PLT
.Lm_func_end12:
	.size	tlsf_open_in_32, .Lm_func_end12-tlsf_open_in_32
	.cfi_endproc
	.globl	tlsf_open_near_2880
	.p2align	4
	.type	tlsf_open_near_2880,@function
tlsf_open_near_2880:
	.cfi_startproc
	pushq	%rbp
	.cfi_def_cfa_offset 16
	pushq	%r15
	.cfi_def_cfa_offset 24
	pushq	%r14
	.cfi_def_cfa_offset 32
	pushq	%r13
	.cfi_def_cfa_offset 40
	pushq	%r12
	.cfi_def_cfa_offset 48
	pushq	%rbx
	.cfi_def_cfa_offset 56
	pushq	%rax
	.cfi_def_cfa_offset 64
	.cfi_offset %rbx, -56
	.cfi_offset %r12, -48
	.cfi_offset %r13, -40
	.cfi_offset %r14, -32
	.cfi_offset %r15, -24
	.cfi_offset %rbp, -16
	movl	%ecx, 4(%rsp)
	movl	%edx, %ebp
	movl	%esi, %r14d
	movq	%rdi, %r12
	movl	%r12d, %r13d
	negl	%r13d
	andl	$63, %r13d
	leaq	(%rdi,%r13), %rbx
	leaq	(%rdi,%r13), %r15
	addq	$32, %r15
	leaq	near_room@TLSLD(%rip), %rdi
	callq	__tls_get_addr@PLT
	movq	%rax, %rcx
	movq	%r15, near_room@DTPOFF(%rax)
	movl	$2, pieces_first@DTPOFF(%rax)
	movzbl	29(%r12,%r13), %esi
	xorl	%edx, %edx
	testb	%sil, %sil
	je	.Lm_BB13_6
	leal	-65(%rsi), %edi
	cmpb	$-57, %dil
	jae	.Lm_BB13_3
	xorl	%r15d, %r15d
	jmp	.Lm_BB13_7
.Lm_BB13_3:
	leal	127(%rsi), %edx
	testb	%sil, %dl
	je	.Lm_BB13_5
	xorl	%edx, %edx
	xorl	%r15d, %r15d
	jmp	.Lm_BB13_7
.Lm_BB13_5:
	xorl	%edx, %edx
	cmpb	$64, %sil
	sete	%dl
	shll	$5, %edx
.Lm_BB13_6:
	movl	4(%rsp), %r15d
.Lm_BB13_7:
	leaq	near_room@DTPOFF(%rcx), %r12
	leaq	front@DTPOFF(%rax), %r13
	movq	%rdx, front@DTPOFF(%rax)
	movq	%rbx, %rdi
	movl	%r14d, %esi
	movl	%ebp, %edx
	movl	%r15d, %ecx
	callq	tlsf_open@PLT
	testl	%eax, %eax
	jne	.Lm_BB13_10
	movzbl	29(%rbx), %ecx
	testb	$-17, %cl
	je	.Lm_BB13_10
	movb	$1, 28(%rbx)
.Lm_BB13_10:
	movq	$0, (%r13)
	movq	$0, (%r12)
	addq	$8, %rsp
	.cfi_def_cfa_offset 56
	popq	%rbx
	.cfi_def_cfa_offset 48
	popq	%r12
	.cfi_def_cfa_offset 40
	popq	%r13
	.cfi_def_cfa_offset 32
	popq	%r14
	.cfi_def_cfa_offset 24
	popq	%r15
	.cfi_def_cfa_offset 16
	popq	%rbp
	.cfi_def_cfa_offset 8
	retq
.Lm_func_end13:
	.size	tlsf_open_near_2880, .Lm_func_end13-tlsf_open_near_2880
	.cfi_endproc
	.globl	tlsf_open_near_in_2880
	.p2align	4
	.type	tlsf_open_near_in_2880,@function
tlsf_open_near_in_2880:
	.cfi_startproc
	jmp	tlsf_open_near_in@PLT
.Lm_func_end14:
	.size	tlsf_open_near_in_2880, .Lm_func_end14-tlsf_open_near_in_2880
	.cfi_endproc
	.globl	tlsf_lane_bytes
	.p2align	4
	.type	tlsf_lane_bytes,@function
tlsf_lane_bytes:
	.cfi_startproc
	leal	(%rdi,%rdi,2), %eax
	movl	%edi, %ecx
	addl	$-1025, %ecx
	leal	135(,%rax,8), %edx
	andl	$130944, %edx
	addl	$895, %edx
	xorl	%eax, %eax
	cmpl	$-1024, %ecx
	cmovael	%edx, %eax
	retq
.Lm_func_end15:
	.size	tlsf_lane_bytes, .Lm_func_end15-tlsf_lane_bytes
	.cfi_endproc
	.globl	tlsf_lane_open_in
	.p2align	4
	.type	tlsf_lane_open_in,@function
tlsf_lane_open_in:
	.cfi_startproc
	pushq	%rbp
	.cfi_def_cfa_offset 16
	pushq	%r15
	.cfi_def_cfa_offset 24
	pushq	%r14
	.cfi_def_cfa_offset 32
	pushq	%r13
	.cfi_def_cfa_offset 40
	pushq	%r12
	.cfi_def_cfa_offset 48
	pushq	%rbx
	.cfi_def_cfa_offset 56
	subq	$24, %rsp
	.cfi_def_cfa_offset 80
	.cfi_offset %rbx, -56
	.cfi_offset %r12, -48
	.cfi_offset %r13, -40
	.cfi_offset %r14, -32
	.cfi_offset %r15, -24
	.cfi_offset %rbp, -16
	movq	%r8, %r13
	movq	%rcx, %r12
	movl	%edx, %ebx
	movq	%rsi, 16(%rsp)
	movq	%rdi, 8(%rsp)
	cmpl	$1025, %edx
	jae	.Lm_BB16_1
	leal	(%rbx,%rbx,2), %eax
	leal	135(,%rax,8), %eax
	andl	$130944, %eax
	addl	$768, %eax
	movl	%r12d, %ebp
	negl	%ebp
	andl	$127, %ebp
	movq	%r13, %rcx
	subq	%rbp, %rcx
	xorl	%edx, %edx
	cmpq	%rax, %rcx
	cmovbl	%edx, %ebx
	cmpq	%rbp, %r13
	movq	%r12, %rax
	notq	%rax
	cmovbl	%edx, %ebx
	cmpq	%rax, %r13
	cmoval	%edx, %ebx
	testq	%r12, %r12
	cmovel	%edx, %ebx
	jmp	.Lm_BB16_3
.Lm_BB16_1:
	movl	%r12d, %ebp
	negl	%ebp
	andl	$127, %ebp
	movq	%r12, %rax
	notq	%rax
.Lm_BB16_3:
	testq	%r12, %r12
	setne	%r14b
	cmpq	%rax, %r13
	setbe	%r15b
	cmpq	%r13, %rbp
	cmovaeq	%r13, %rbp
	addq	%r12, %rbp
	leaq	lent@TLSLD(%rip), %rdi
	callq	__tls_get_addr@PLT
	addq	%r13, %r12
	testb	%r15b, %r14b
	leaq	begin_behind.nothing(%rip), %rcx
	cmoveq	%rcx, %rbp
	movq	%rax, %r13
	movq	%rbp, lent@DTPOFF(%rax)
	cmoveq	%rcx, %r12
	movq	%r12, lent_end@DTPOFF(%rax)
	movq	$128, lent_step@DTPOFF(%rax)
	movq	8(%rsp), %rdi
	movq	16(%rsp), %rsi
	movl	%ebx, %edx
	callq	tlsf_lane_open@PLT
	cmpl	$5, %eax
	movl	$39, %ecx
	cmovnel	%eax, %ecx
	testb	%r15b, %r14b
	movq	$0, lent@DTPOFF(%r13)
	cmovel	%ecx, %eax
	addq	$24, %rsp
	.cfi_def_cfa_offset 56
	popq	%rbx
	.cfi_def_cfa_offset 48
	popq	%r12
	.cfi_def_cfa_offset 40
	popq	%r13
	.cfi_def_cfa_offset 32
	popq	%r14
	.cfi_def_cfa_offset 24
	popq	%r15
	.cfi_def_cfa_offset 16
	popq	%rbp
	.cfi_def_cfa_offset 8
	retq
.Lm_func_end16:
	.size	tlsf_lane_open_in, .Lm_func_end16-tlsf_lane_open_in
	.cfi_endproc
	.globl	tlsf_queue_bytes
	.p2align	4
	.type	tlsf_queue_bytes,@function
tlsf_queue_bytes:
	.cfi_startproc
	movl	$1024, %eax
	movl	$1024, %ecx
	subl	%edi, %ecx
	subl	%esi, %eax
	orl	%ecx, %eax
	cmpl	$1023, %eax
	ja	.Lm_BB17_1
	movl	%edi, %eax
	movl	%esi, %ecx
	movq	%rax, %rdx
	shlq	$4, %rdx
	addq	$135, %rdx
	movabsq	$68719476608, %rsi
	andq	%rdx, %rsi
	leaq	519(,%rcx,8), %rdx
	movabsq	$34359738240, %rdi
	andq	%rdi, %rdx
	shlq	$5, %rcx
	addq	$135, %rcx
	movabsq	$137438953344, %r8
	andq	%rcx, %r8
	addq	%rdx, %r8
	leaq	135(,%rax,8), %rcx
	andq	%rdi, %rcx
	shlq	$7, %rax
	addq	%rcx, %rax
	addq	%rsi, %rax
	leaq	(%rax,%r8,2), %rax
	addq	$383, %rax
	retq
.Lm_BB17_1:
	xorl	%eax, %eax
	retq
.Lm_func_end17:
	.size	tlsf_queue_bytes, .Lm_func_end17-tlsf_queue_bytes
	.cfi_endproc
	.globl	tlsf_queue_open_in
	.p2align	4
	.type	tlsf_queue_open_in,@function
tlsf_queue_open_in:
	.cfi_startproc
	pushq	%rbp
	.cfi_def_cfa_offset 16
	pushq	%r15
	.cfi_def_cfa_offset 24
	pushq	%r14
	.cfi_def_cfa_offset 32
	pushq	%r13
	.cfi_def_cfa_offset 40
	pushq	%r12
	.cfi_def_cfa_offset 48
	pushq	%rbx
	.cfi_def_cfa_offset 56
	subq	$24, %rsp
	.cfi_def_cfa_offset 80
	.cfi_offset %rbx, -56
	.cfi_offset %r12, -48
	.cfi_offset %r13, -40
	.cfi_offset %r14, -32
	.cfi_offset %r15, -24
	.cfi_offset %rbp, -16
	movq	%r8, %r13
	movq	%rcx, %r12
	movl	%edx, %ebx
	movq	%rdi, 16(%rsp)
	cmpl	$1025, %edx
	setb	%al
	cmpl	$1025, %esi
	setb	%cl
	testb	%al, %cl
	movq	%rsi, 8(%rsp)
	je	.Lm_BB18_1
	movl	%esi, %eax
	movl	%esi, %ecx
	shll	$4, %ecx
	addl	$135, %ecx
	andl	$65408, %ecx
	leal	519(,%rbx,8), %edx
	andl	$32640, %edx
	movl	%ebx, %edi
	shll	$5, %edi
	addl	$135, %edi
	andl	$130944, %edi
	addl	%edx, %edi
	leal	135(,%rsi,8), %edx
	andl	$32640, %edx
	shlq	$7, %rax
	addq	%rdx, %rax
	addq	%rcx, %rax
	leaq	(%rax,%rdi,2), %rax
	addq	$256, %rax
	movl	%r12d, %ebp
	negl	%ebp
	andl	$127, %ebp
	movq	%r13, %rcx
	subq	%rbp, %rcx
	xorl	%edx, %edx
	cmpq	%rax, %rcx
	cmovbl	%edx, %ebx
	cmpq	%rbp, %r13
	movq	%r12, %rax
	notq	%rax
	cmovbl	%edx, %ebx
	cmpq	%rax, %r13
	cmoval	%edx, %ebx
	testq	%r12, %r12
	cmovel	%edx, %ebx
	jmp	.Lm_BB18_3
.Lm_BB18_1:
	movl	%r12d, %ebp
	negl	%ebp
	andl	$127, %ebp
	movq	%r12, %rax
	notq	%rax
.Lm_BB18_3:
	testq	%r12, %r12
	setne	%r15b
	cmpq	%rax, %r13
	setbe	%r14b
	cmpq	%r13, %rbp
	cmovaeq	%r13, %rbp
	addq	%r12, %rbp
	leaq	lent@TLSLD(%rip), %rdi
	callq	__tls_get_addr@PLT
	addq	%r13, %r12
	testb	%r14b, %r15b
	leaq	begin_behind.nothing(%rip), %rcx
	cmoveq	%rcx, %rbp
	movq	%rax, %r13
	movq	%rbp, lent@DTPOFF(%rax)
	cmoveq	%rcx, %r12
	movq	%r12, lent_end@DTPOFF(%rax)
	movq	$128, lent_step@DTPOFF(%rax)
	movq	16(%rsp), %rdi
	movq	8(%rsp), %rsi
	movl	%ebx, %edx
	callq	tlsf_queue_open@PLT
	cmpl	$5, %eax
	movl	$39, %ecx
	cmovnel	%eax, %ecx
	testb	%r14b, %r15b
	movq	$0, lent@DTPOFF(%r13)
	cmovel	%ecx, %eax
	addq	$24, %rsp
	.cfi_def_cfa_offset 56
	popq	%rbx
	.cfi_def_cfa_offset 48
	popq	%r12
	.cfi_def_cfa_offset 40
	popq	%r13
	.cfi_def_cfa_offset 32
	popq	%r14
	.cfi_def_cfa_offset 24
	popq	%r15
	.cfi_def_cfa_offset 16
	popq	%rbp
	.cfi_def_cfa_offset 8
	retq
.Lm_func_end18:
	.size	tlsf_queue_open_in, .Lm_func_end18-tlsf_queue_open_in
	.cfi_endproc
	.globl	tlsf_offsets_bytes
	.p2align	4
	.type	tlsf_offsets_bytes,@function
tlsf_offsets_bytes:
	.cfi_startproc
	xorl	%eax, %eax
	cmpl	$4, %esi
	jb	.Lm_BB19_4
	cmpl	$5, %edi
	sete	%al
	shll	$24, %eax
	cmpl	$4, %edi
	movl	$1048576, %ecx
	cmovneq	%rax, %rcx
	cmpl	%esi, %ecx
	jae	.Lm_BB19_3
	xorl	%eax, %eax
	retq
.Lm_BB19_3:
	movl	%esi, %eax
	leal	23(,%rax,8), %ecx
	andl	$536870896, %ecx
	addl	$63, %eax
	shrl	$3, %eax
	addl	$16, %eax
	andl	$16777200, %eax
	addq	%rcx, %rax
	addq	$2783, %rax
.Lm_BB19_4:
	retq
.Lm_func_end19:
	.size	tlsf_offsets_bytes, .Lm_func_end19-tlsf_offsets_bytes
	.cfi_endproc
	.globl	tlsf_offsets_open_in
	.p2align	4
	.type	tlsf_offsets_open_in,@function
tlsf_offsets_open_in:
	.cfi_startproc
	pushq	%rbp
	.cfi_def_cfa_offset 16
	pushq	%r15
	.cfi_def_cfa_offset 24
	pushq	%r14
	.cfi_def_cfa_offset 32
	pushq	%r13
	.cfi_def_cfa_offset 40
	pushq	%r12
	.cfi_def_cfa_offset 48
	pushq	%rbx
	.cfi_def_cfa_offset 56
	subq	$24, %rsp
	.cfi_def_cfa_offset 80
	.cfi_offset %rbx, -56
	.cfi_offset %r12, -48
	.cfi_offset %r13, -40
	.cfi_offset %r14, -32
	.cfi_offset %r15, -24
	.cfi_offset %rbp, -16
	movq	%r9, %r14
	movl	%r8d, %ebx
	movl	%ecx, 12(%rsp)
	movl	%edx, 8(%rsp)
	movq	%rdi, 16(%rsp)
	movq	80(%rsp), %rbp
	xorl	%eax, %eax
	cmpl	$5, %esi
	sete	%al
	shll	$24, %eax
	movl	%esi, 4(%rsp)
	cmpl	$4, %esi
	movl	$1048576, %ecx
	cmovneq	%rax, %rcx
	cmpl	%r8d, %ecx
	jae	.Lm_BB20_2
	movl	%r14d, %r13d
	negl	%r13d
	andl	$15, %r13d
	movq	%r14, %rax
	notq	%rax
	jmp	.Lm_BB20_3
.Lm_BB20_2:
	movl	%ebx, %eax
	leal	23(,%rax,8), %ecx
	andl	$536870896, %ecx
	addl	$63, %eax
	shrl	$3, %eax
	addl	$16, %eax
	andl	$16777200, %eax
	addq	%rcx, %rax
	addq	$2768, %rax
	movl	%r14d, %r13d
	negl	%r13d
	andl	$15, %r13d
	movq	%rbp, %rcx
	subq	%r13, %rcx
	xorl	%edx, %edx
	cmpq	%rax, %rcx
	cmovbl	%edx, %ebx
	cmpq	%r13, %rbp
	movq	%r14, %rax
	notq	%rax
	cmovbl	%edx, %ebx
	cmpq	%rax, %rbp
	cmoval	%edx, %ebx
	testq	%r14, %r14
	cmovel	%edx, %ebx
.Lm_BB20_3:
	testq	%r14, %r14
	setne	%r12b
	cmpq	%rax, %rbp
	setbe	%r15b
	cmpq	%rbp, %r13
	cmovaeq	%rbp, %r13
	addq	%r14, %r13
	leaq	lent@TLSLD(%rip), %rdi
	callq	__tls_get_addr@PLT
	addq	%rbp, %r14
	testb	%r15b, %r12b
	leaq	begin_behind.nothing(%rip), %rcx
	cmoveq	%rcx, %r13
	movq	%rax, %rbp
	movq	%r13, lent@DTPOFF(%rax)
	cmoveq	%rcx, %r14
	movq	%r14, lent_end@DTPOFF(%rax)
	movq	$16, lent_step@DTPOFF(%rax)
	movq	16(%rsp), %rdi
	movl	4(%rsp), %esi
	movl	8(%rsp), %edx
	movl	12(%rsp), %ecx
	movl	%ebx, %r8d
	callq	tlsf_offsets_open@PLT
	cmpl	$5, %eax
	movl	$39, %ecx
	cmovnel	%eax, %ecx
	testb	%r15b, %r12b
	movq	$0, lent@DTPOFF(%rbp)
	cmovel	%ecx, %eax
	addq	$24, %rsp
	.cfi_def_cfa_offset 56
	popq	%rbx
	.cfi_def_cfa_offset 48
	popq	%r12
	.cfi_def_cfa_offset 40
	popq	%r13
	.cfi_def_cfa_offset 32
	popq	%r14
	.cfi_def_cfa_offset 24
	popq	%r15
	.cfi_def_cfa_offset 16
	popq	%rbp
	.cfi_def_cfa_offset 8
	retq
.Lm_func_end20:
	.size	tlsf_offsets_open_in, .Lm_func_end20-tlsf_offsets_open_in
	.cfi_endproc
	.globl	tlsf_pools_bytes
	.p2align	4
	.type	tlsf_pools_bytes,@function
tlsf_pools_bytes:
	.cfi_startproc
	pushq	%rbx
	.cfi_def_cfa_offset 16
	subq	$16, %rsp
	.cfi_def_cfa_offset 32
	.cfi_offset %rbx, -16
	movq	%rdx, %rbx
	movq	$0, 8(%rsp)
	movl	$0, 4(%rsp)
	leaq	8(%rsp), %rcx
	leaq	4(%rsp), %r8
	callq	tlsf_pools_words@PLT
	testl	%eax, %eax
	je	.Lm_BB21_2
	xorl	%eax, %eax
	jmp	.Lm_BB21_3
.Lm_BB21_2:
	movq	8(%rsp), %rax
	movl	4(%rsp), %ecx
	imulq	$2792, %rcx, %rdx
	addq	$23, %rdx
	andq	$-16, %rdx
	leaq	(,%rax,8), %rsi
	shrq	$6, %rax
	leaq	(%rcx,%rcx,4), %rcx
	shlq	$4, %rcx
	leaq	(%rbx,%rbx,2), %rdi
	leaq	(%rsi,%rdi,4), %rsi
	leaq	(%rsi,%rax,8), %rax
	addq	%rcx, %rax
	addq	%rdx, %rax
	addq	$2783, %rax
.Lm_BB21_3:
	addq	$16, %rsp
	.cfi_def_cfa_offset 16
	popq	%rbx
	.cfi_def_cfa_offset 8
	retq
.Lm_func_end21:
	.size	tlsf_pools_bytes, .Lm_func_end21-tlsf_pools_bytes
	.cfi_endproc
	.globl	tlsf_pools_open_in
	.p2align	4
	.type	tlsf_pools_open_in,@function
tlsf_pools_open_in:
	.cfi_startproc
	pushq	%rbp
	.cfi_def_cfa_offset 16
	pushq	%r15
	.cfi_def_cfa_offset 24
	pushq	%r14
	.cfi_def_cfa_offset 32
	pushq	%r13
	.cfi_def_cfa_offset 40
	pushq	%r12
	.cfi_def_cfa_offset 48
	pushq	%rbx
	.cfi_def_cfa_offset 56
	subq	$40, %rsp
	.cfi_def_cfa_offset 96
	.cfi_offset %rbx, -56
	.cfi_offset %r12, -48
	.cfi_offset %r13, -40
	.cfi_offset %r14, -32
	.cfi_offset %r15, -24
	.cfi_offset %rbp, -16
	movq	%r9, %r15
	movq	%r8, 32(%rsp)
	movq	%rcx, 24(%rsp)
	movl	%edx, 12(%rsp)
	movl	%esi, 8(%rsp)
	movq	%rdi, 16(%rsp)
	movq	96(%rsp), %rbx
	movl	%r15d, %r13d
	negl	%r13d
	andl	$15, %r13d
	testq	%r9, %r9
	setne	%r14b
	movq	%r9, %rax
	notq	%rax
	cmpq	%rax, %rbx
	setbe	%bpl
	cmpq	%rbx, %r13
	cmovaeq	%rbx, %r13
	addq	%r9, %r13
	leaq	begin_behind.nothing(%rip), %r12
	leaq	lent@TLSLD(%rip), %rdi
	callq	__tls_get_addr@PLT
	addq	%rbx, %r15
	testb	%bpl, %r14b
	cmoveq	%r12, %r13
	movq	%rax, %rbx
	movq	%r13, lent@DTPOFF(%rax)
	cmoveq	%r12, %r15
	movq	%r15, lent_end@DTPOFF(%rax)
	movq	$16, lent_step@DTPOFF(%rax)
	movq	16(%rsp), %rdi
	movl	8(%rsp), %esi
	movl	12(%rsp), %edx
	movq	24(%rsp), %rcx
	movq	32(%rsp), %r8
	callq	tlsf_pools_open@PLT
	cmpl	$6, %eax
	movl	$5, %ecx
	cmovel	%ecx, %eax
	cmpl	$5, %eax
	movl	$39, %ecx
	cmovnel	%eax, %ecx
	testb	%bpl, %r14b
	movq	$0, lent@DTPOFF(%rbx)
	cmovel	%ecx, %eax
	addq	$40, %rsp
	.cfi_def_cfa_offset 56
	popq	%rbx
	.cfi_def_cfa_offset 48
	popq	%r12
	.cfi_def_cfa_offset 40
	popq	%r13
	.cfi_def_cfa_offset 32
	popq	%r14
	.cfi_def_cfa_offset 24
	popq	%r15
	.cfi_def_cfa_offset 16
	popq	%rbp
	.cfi_def_cfa_offset 8
	retq
.Lm_func_end22:
	.size	tlsf_pools_open_in, .Lm_func_end22-tlsf_pools_open_in
	.cfi_endproc
	.globl	tlsf_next_number
	.p2align	4
	.type	tlsf_next_number,@function
tlsf_next_number:
	.cfi_startproc
	movl	$1, %ecx
	lock		xaddq	%rcx, tlsf_next_number.calls(%rip)
	leaq	(,%rcx,8), %rdx
	movslq	%edx, %rsi
	movl	$2, %eax
	cmpq	%rdx, %rsi
	jne	.Lm_BB23_2
	movl	$2147483648, %eax
	leaq	(%rax,%rcx,8), %rax
	movl	%eax, (%rdi)
	xorl	%eax, %eax
.Lm_BB23_2:
	retq
.Lm_func_end23:
	.size	tlsf_next_number, .Lm_func_end23-tlsf_next_number
	.cfi_endproc
	.type	tlsf_memory_alloc.nothing,@object
	.local	tlsf_memory_alloc.nothing
	.comm	tlsf_memory_alloc.nothing,8,8
	.type	near_room,@object
	.section	.tbss,"awT",@nobits
	.p2align	3, 0x0
near_room:
	.quad	0
	.size	near_room, 8
	.type	pieces_first,@object
	.p2align	2, 0x0
pieces_first:
	.long	0
	.size	pieces_first, 4
	.type	lent,@object
	.p2align	3, 0x0
lent:
	.quad	0
	.size	lent, 8
	.type	tlsf_next_number.calls,@object
	.local	tlsf_next_number.calls
	.comm	tlsf_next_number.calls,8,8
	.type	lent_step,@object
	.p2align	3, 0x0
lent_step:
	.quad	0
	.size	lent_step, 8
	.type	lent_end,@object
	.p2align	3, 0x0
lent_end:
	.quad	0
	.size	lent_end, 8
	.type	front,@object
	.p2align	3, 0x0
front:
	.quad	0
	.size	front, 8
	.type	begin_behind.nothing,@object
	.local	begin_behind.nothing
	.comm	begin_behind.nothing,1,1
	.ident	"clang version 22.1.8"
	.section	".note.GNU-stack","",@progbits
#endif
