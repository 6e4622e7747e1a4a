#ifndef TLSF_ONLY_MEMORY
/* The calls in Rattle. */
	.def	tlsf_c.call_fault.CallFault.refusal;
	.scl	3;
	.type	32;
	.endef
	.text
	.p2align	4
tlsf_c.call_fault.CallFault.refusal:
	shlb	$2, %cl
	orb	$32, %cl
	movzbl	%cl, %eax
	retq
	.def	tlsf_heap.heap.Heap.resize_live.4;
	.scl	3;
	.type	32;
	.endef
	.p2align	4
tlsf_heap.heap.Heap.resize_live.4:
.seh_proc tlsf_heap.heap.Heap.resize_live.4
	pushq	%rsi
	.seh_pushreg %rsi
	pushq	%rdi
	.seh_pushreg %rdi
	pushq	%rbx
	.seh_pushreg %rbx
	subq	$48, %rsp
	.seh_stackalloc 48
	.seh_endprologue
	movl	4(%rdx), %edx
	leaq	24(%rcx), %r10
	movq	24(%rcx), %r9
	movq	(%r9,%rdx,8), %rax
	movl	%eax, %edi
	shrl	$2, %edi
	cmpl	%edi, %r8d
	jbe	.LBB1_1
	testb	$2, %al
	jne	.LBB1_8
	leal	(%rdi,%rdx), %r11d
	movq	(%r9,%r11,8), %r9
	testb	$1, %r9b
	jne	.LBB1_9
.LBB1_8:
	xorl	%r9d, %r9d
.LBB1_9:
	movl	%r9d, %r11d
	shrl	$2, %r11d
	addl	%edi, %r11d
	cmpl	%r8d, %r11d
	jae	.LBB1_11
	movb	$1, %al
	movb	$5, %dl
	jmp	.LBB1_15
.LBB1_1:
	movq	8(%rcx), %r11
	cmpq	$-1, %r11
	je	.LBB1_2
	movq	$0, 16(%r9,%rdx,8)
	leal	4(%r8), %esi
	movl	%edi, %r9d
	cmpl	%esi, %edi
	jb	.LBB1_5
	movq	%r11, 32(%rsp)
	movq	%rcx, %rbx
	movq	%r10, %rcx
	movq	%r8, %rsi
	movq	%rax, %r8
	movl	%esi, %r9d
	callq	tlsf_heap.refitting.split_off.4
	movq	%rbx, %rcx
	movl	%esi, %r9d
.LBB1_5:
	subl	%edi, %r9d
	addl	%r9d, 16(%rcx)
.LBB1_14:
	incq	8(%rcx)
	xorl	%edx, %edx
	xorl	%eax, %eax
	jmp	.LBB1_15
.LBB1_11:
	movq	8(%rcx), %r11
	cmpq	$-1, %r11
	je	.LBB1_2
	movq	%r11, 40(%rsp)
	movl	%r8d, 32(%rsp)
	movq	%rcx, %rbx
	movq	%r10, %rcx
	movq	%rdx, %rsi
	movq	%rax, %r8
	callq	tlsf_heap.refitting.recut.4
	movq	%rbx, %rcx
	movq	24(%rbx), %rdx
	movq	$0, 16(%rdx,%rsi,8)
	subl	%edi, %eax
	addl	16(%rbx), %eax
	movl	%eax, 16(%rbx)
	cmpl	%eax, 20(%rbx)
	jae	.LBB1_14
	movl	%eax, 20(%rcx)
	jmp	.LBB1_14
.LBB1_2:
	movb	$1, %dl
	movb	$1, %al
.LBB1_15:
	addq	$48, %rsp
	popq	%rbx
	popq	%rdi
	popq	%rsi
	retq
	.seh_endproc
	.def	tlsf_heap.refitting.split_off.4;
	.scl	3;
	.type	32;
	.endef
	.p2align	4
tlsf_heap.refitting.split_off.4:
.seh_proc tlsf_heap.refitting.split_off.4
	pushq	%rsi
	.seh_pushreg %rsi
	pushq	%rdi
	.seh_pushreg %rdi
	pushq	%rbx
	.seh_pushreg %rbx
	subq	$48, %rsp
	.seh_stackalloc 48
	.seh_endprologue
	movq	%rcx, %rax
	movq	112(%rsp), %rcx
	movq	(%rax), %rsi
	testb	$2, %r8b
	jne	.LBB2_3
	movl	%r8d, %r10d
	shrl	$2, %r10d
	addl	%edx, %r10d
	movq	(%rsi,%r10,8), %r10
	testb	$1, %r10b
	jne	.LBB2_2
.LBB2_3:
	orq	$1, %r8
	movl	%r8d, %r11d
	shrl	$2, %r11d
	leal	(%r9,%rdx), %r10d
	leal	(,%r9,4), %edi
	movl	%r8d, %ebx
	subl	%edi, %ebx
	movl	%edx, %edi
	subq	%rbx, %r8
	movq	%r8, (%rsi,%rdi,8)
	shlq	$32, %rdi
	orq	%rbx, %rdi
	movq	(%rax), %r8
	movq	%rdi, (%r8,%r10,8)
	movq	%rcx, 8(%r8,%r10,8)
	movq	24(%rax), %r8
	movl	%r10d, %esi
	shrl	$6, %esi
	movl	$1, %edi
	movl	%r10d, %ecx
	shlq	%cl, %rdi
	orq	%rdi, (%r8,%rsi,8)
	testb	$2, %bl
	jne	.LBB2_5
	addl	%r11d, %edx
	movq	(%rax), %rcx
	movl	%r10d, 4(%rcx,%rdx,8)
.LBB2_5:
	subl	%r9d, %r11d
	movl	%r11d, %ecx
	orl	$16, %ecx
	bsrl	%ecx, %ecx
	addl	$-4, %ecx
	shrl	%cl, %r11d
	shll	$4, %ecx
	addl	%r11d, %ecx
	movslq	144(%rax,%rcx,4), %rdx
	movl	%r10d, 144(%rax,%rcx,4)
	movq	(%rax), %r8
	testq	%rdx, %rdx
	js	.LBB2_6
	movabsq	$-4294967296, %rax
	orq	%rdx, %rax
	movq	%rax, 16(%r8,%r10,8)
	movl	%r10d, 20(%r8,%rdx,8)
	jmp	.LBB2_7
.LBB2_6:
	movq	$-1, 16(%r8,%r10,8)
	shrl	$4, %ecx
	movl	$1, %edx
	shll	%cl, %edx
	movl	60(%rax,%rcx,4), %r8d
	orl	%edx, 56(%rax)
	andb	$15, %r11b
	btsl	%r11d, %r8d
	movl	%r8d, 60(%rax,%rcx,4)
	jmp	.LBB2_7
.LBB2_2:
	movq	%rcx, 40(%rsp)
	movl	%r9d, 32(%rsp)
	movq	%rax, %rcx
	movq	%r10, %r9
	callq	tlsf_heap.refitting.recut.4
	nop
.LBB2_7:
	addq	$48, %rsp
	popq	%rbx
	popq	%rdi
	popq	%rsi
	retq
	.seh_endproc
	.def	tlsf_heap.refitting.recut.4;
	.scl	3;
	.type	32;
	.endef
	.p2align	4
tlsf_heap.refitting.recut.4:
.seh_proc tlsf_heap.refitting.recut.4
	pushq	%r14
	.seh_pushreg %r14
	pushq	%rsi
	.seh_pushreg %rsi
	pushq	%rdi
	.seh_pushreg %rdi
	pushq	%rbp
	.seh_pushreg %rbp
	pushq	%rbx
	.seh_pushreg %rbx
	.seh_endprologue
	movq	%rcx, %r10
	movl	80(%rsp), %esi
	movl	%r9d, %edi
	shrl	$2, %edi
	movl	%r8d, %eax
	shrl	$2, %eax
	addl	%edx, %eax
	movq	(%rcx), %rbx
	movq	16(%rbx,%rax,8), %r14
	testq	%r14, %r14
	js	.LBB3_4
	movq	%r14, %rcx
	shrq	$29, %rcx
	movabsq	$17179869176, %rax
	andq	%rcx, %rax
	movq	16(%rbx,%rax), %rcx
	cmpl	$-1, %r14d
	je	.LBB3_2
	movabsq	$-4294967296, %r11
	andq	%r11, %rcx
	movl	%r14d, %r11d
	orq	%r11, %rcx
	movq	%rcx, 16(%rbx,%rax)
	shrq	$32, %r14
	andl	$2147483647, %r14d
	movl	%r14d, 20(%rbx,%r11,8)
	jmp	.LBB3_8
.LBB3_4:
	movl	%edi, %eax
	orl	$16, %eax
	bsrl	%eax, %eax
	addl	$-4, %eax
	movl	%edi, %r11d
	movl	%eax, %ecx
	shrl	%cl, %r11d
	shll	$4, %eax
	addl	%r11d, %eax
	cmpl	$-1, %r14d
	je	.LBB3_5
	movl	%r14d, %ecx
	movl	$-1, 20(%rbx,%rcx,8)
	movl	%r14d, 144(%r10,%rax,4)
	jmp	.LBB3_8
.LBB3_2:
	movl	$4294967295, %r11d
	orq	%r11, %rcx
	movq	%rcx, 16(%rbx,%rax)
	jmp	.LBB3_8
.LBB3_5:
	movl	$-1, 144(%r10,%rax,4)
	shrl	$4, %eax
	andb	$15, %r11b
	movl	$-2, %ebx
	movl	%r11d, %ecx
	roll	%cl, %ebx
	movl	$-2, %r11d
	andl	%ebx, 60(%r10,%rax,4)
	jne	.LBB3_8
	movl	%eax, %ecx
	roll	%cl, %r11d
	andl	%r11d, 56(%r10)
.LBB3_8:
	movl	%r9d, %r11d
	addq	%r8, %r11
	movl	%r11d, %eax
	shrl	$2, %eax
	leal	4(%rsi), %ecx
	leal	(%rax,%rdx), %r9d
	cmpl	%ecx, %eax
	jae	.LBB3_13
	movl	%r9d, %ecx
	subl	%edi, %ecx
	movq	24(%r10), %r8
	movl	%ecx, %esi
	shrl	$6, %esi
	movq	$-2, %rdi
	rolq	%cl, %rdi
	andq	%rdi, (%r8,%rsi,8)
	testb	$2, %r11b
	jne	.LBB3_10
	movq	(%r10), %r8
	movl	%r9d, %r9d
	movl	%edx, %ecx
	movl	%edx, 4(%r8,%r9,8)
	jmp	.LBB3_12
.LBB3_13:
	movq	88(%rsp), %rcx
	leal	(%rsi,%rdx), %r8d
	leal	(,%rsi,4), %ebp
	movl	%r11d, %ebx
	subl	%ebp, %ebx
	movl	%edx, %edx
	subq	%rbx, %r11
	movq	(%r10), %r14
	movq	%r11, (%r14,%rdx,8)
	shlq	$32, %rdx
	orq	%rbx, %rdx
	movq	(%r10), %r11
	movq	%rdx, (%r11,%r8,8)
	movq	%rcx, 8(%r11,%r8,8)
	movl	%r9d, %ecx
	subl	%edi, %ecx
	movq	24(%r10), %rdx
	movl	%ecx, %r11d
	movq	$-2, %rdi
	rolq	%cl, %rdi
	shrl	$6, %r11d
	andq	%rdi, (%rdx,%r11,8)
	movq	24(%r10), %rdx
	movl	%r8d, %r11d
	shrl	$6, %r11d
	movl	$1, %edi
	movl	%r8d, %ecx
	shlq	%cl, %rdi
	orq	%rdi, (%rdx,%r11,8)
	testb	$2, %bl
	jne	.LBB3_15
	movq	(%r10), %rcx
	movl	%r9d, %edx
	movl	%r8d, 4(%rcx,%rdx,8)
.LBB3_15:
	subl	%esi, %eax
	movl	%eax, %ecx
	orl	$16, %ecx
	bsrl	%ecx, %ecx
	addl	$-4, %ecx
	shrl	%cl, %eax
	shll	$4, %ecx
	addl	%eax, %ecx
	movslq	144(%r10,%rcx,4), %rdx
	movl	%r8d, 144(%r10,%rcx,4)
	movq	(%r10), %r9
	testq	%rdx, %rdx
	js	.LBB3_16
	movabsq	$-4294967296, %rax
	orq	%rdx, %rax
	movq	%rax, 16(%r9,%r8,8)
	movl	%r8d, 20(%r9,%rdx,8)
	jmp	.LBB3_17
.LBB3_10:
	movl	%edx, %ecx
.LBB3_12:
	decq	%r11
	movq	(%r10), %rdx
	movq	%r11, (%rdx,%rcx,8)
	jmp	.LBB3_18
.LBB3_16:
	movq	$-1, 16(%r9,%r8,8)
	shrl	$4, %ecx
	movl	$1, %edx
	shll	%cl, %edx
	movl	60(%r10,%rcx,4), %r8d
	orl	%edx, 56(%r10)
	andb	$15, %al
	btsl	%eax, %r8d
	movl	%r8d, 60(%r10,%rcx,4)
.LBB3_17:
	movl	%esi, %eax
.LBB3_18:
	popq	%rbx
	popq	%rbp
	popq	%rdi
	popq	%rsi
	popq	%r14
	retq
	.seh_endproc
	.def	tlsf_heap.heap.Heap.release_live.4;
	.scl	3;
	.type	32;
	.endef
	.p2align	4
tlsf_heap.heap.Heap.release_live.4:
.seh_proc tlsf_heap.heap.Heap.release_live.4
	pushq	%rsi
	.seh_pushreg %rsi
	pushq	%rdi
	.seh_pushreg %rdi
	subq	$56, %rsp
	.seh_stackalloc 56
	.seh_endprologue
	movq	%rcx, %rax
	movl	4(%rdx), %r11d
	movq	24(%rcx), %rdi
	movq	(%rdi,%r11,8), %r8
	movl	%r8d, %esi
	shrl	$2, %esi
	subl	%esi, 16(%rcx)
	testb	$2, %r8b
	jne	.LBB4_2
	leal	(%rsi,%r11), %ecx
	movq	(%rdi,%rcx,8), %rdx
	leaq	24(%rax), %rcx
	testl	%r11d, %r11d
	jne	.LBB4_3
	jmp	.LBB4_4
.LBB4_2:
	xorl	%edx, %edx
	leaq	24(%rax), %rcx
	testl	%r11d, %r11d
	je	.LBB4_4
.LBB4_3:
	movq	%r8, %r9
	shrq	$32, %r9
	movq	(%rdi,%r9,8), %r10
	testb	$1, %r10b
	jne	.LBB4_9
.LBB4_4:
	movq	8(%rax), %r9
	testb	$1, %dl
	jne	.LBB4_8
	orq	$1, %r8
	movq	%r8, (%rdi,%r11,8)
	movq	%r9, 8(%rdi,%r11,8)
	incq	8(%rax)
	movl	%esi, %ecx
	orl	$16, %ecx
	bsrl	%ecx, %ecx
	addl	$-4, %ecx
	shrl	%cl, %esi
	shll	$4, %ecx
	addl	%esi, %ecx
	movslq	168(%rax,%rcx,4), %rdx
	movl	%r11d, 168(%rax,%rcx,4)
	movq	24(%rax), %r8
	testq	%rdx, %rdx
	js	.LBB4_10
	movabsq	$-4294967296, %rax
	orq	%rdx, %rax
	movq	%rax, 16(%r8,%r11,8)
	movl	%r11d, 20(%r8,%rdx,8)
	addq	$56, %rsp
	popq	%rdi
	popq	%rsi
	retq
.LBB4_8:
	leaq	1(%r9), %r10
	movq	%r10, 8(%rax)
	movl	%r11d, 32(%rsp)
	callq	tlsf_heap.fitting.merge_next.4
	nop
	addq	$56, %rsp
	popq	%rdi
	popq	%rsi
	retq
.LBB4_9:
	movq	8(%rax), %r9
	leaq	1(%r9), %rsi
	movq	%rsi, 8(%rax)
	movq	%r8, 40(%rsp)
	movl	%r11d, 32(%rsp)
	movq	%r10, %r8
	callq	tlsf_heap.fitting.merge_before.4
	nop
	addq	$56, %rsp
	popq	%rdi
	popq	%rsi
	retq
.LBB4_10:
	movq	$-1, 16(%r8,%r11,8)
	shrl	$4, %ecx
	movl	$1, %edx
	shll	%cl, %edx
	movl	84(%rax,%rcx,4), %r8d
	orl	%edx, 80(%rax)
	andb	$15, %sil
	btsl	%esi, %r8d
	movl	%r8d, 84(%rax,%rcx,4)
	addq	$56, %rsp
	popq	%rdi
	popq	%rsi
	retq
	.seh_endproc
	.def	tlsf_heap.fitting.merge_before.4;
	.scl	3;
	.type	32;
	.endef
	.p2align	4
tlsf_heap.fitting.merge_before.4:
.seh_proc tlsf_heap.fitting.merge_before.4
	pushq	%r14
	.seh_pushreg %r14
	pushq	%rsi
	.seh_pushreg %rsi
	pushq	%rdi
	.seh_pushreg %rdi
	pushq	%rbp
	.seh_pushreg %rbp
	pushq	%rbx
	.seh_pushreg %rbx
	.seh_endprologue
	movq	%rcx, %rax
	testb	$1, %dl
	jne	.LBB5_18
	movq	88(%rsp), %rcx
	movl	80(%rsp), %edx
	movl	%r8d, %r11d
	shrl	$2, %r11d
	orl	$1, %ecx
	leaq	(%r8,%rcx), %rsi
	decq	%rsi
	movl	%edx, %r8d
	subl	%r11d, %r8d
	movq	(%rax), %rdi
	movq	16(%rdi,%r8,8), %rbx
	testq	%rbx, %rbx
	js	.LBB5_2
	movl	%ebx, %ecx
	movq	%rbx, %r11
	shrq	$29, %r11
	movabsq	$17179869176, %r10
	andq	%r11, %r10
	movl	$4294967295, %r14d
	movq	16(%rdi,%r10), %r11
	cmpq	%r14, %rcx
	jne	.LBB5_7
	orq	%r14, %r11
	movq	%r11, 16(%rdi,%r10)
	jmp	.LBB5_12
.LBB5_18:
	movq	%rax, %rcx
	popq	%rbx
	popq	%rbp
	popq	%rdi
	popq	%rsi
	popq	%r14
	jmp	tlsf_heap.fitting.merge_both.4
.LBB5_2:
	movl	%r11d, %ecx
	orl	$16, %ecx
	bsrl	%ecx, %r10d
	addl	$-4, %r10d
	movl	%r10d, %ecx
	shrl	%cl, %r11d
	shll	$4, %r10d
	movl	%esi, %r14d
	shrl	$2, %r14d
	movl	%r14d, %ecx
	orl	$16, %ecx
	bsrl	%ecx, %ecx
	addl	$-4, %ecx
	movl	%r14d, %ebp
	shrl	%cl, %ebp
	addl	%r11d, %r10d
	shll	$4, %ecx
	addl	%ebp, %ecx
	cmpl	%ecx, %r10d
	jne	.LBB5_8
	movq	24(%rax), %r10
	movl	%edx, %r11d
	movq	$-2, %rdi
	movl	%edx, %ecx
	rolq	%cl, %rdi
	shrl	$6, %r11d
	andq	%rdi, (%r10,%r11,8)
	movq	(%rax), %rcx
	movq	%rsi, (%rcx,%r8,8)
	movq	%r9, 8(%rcx,%r8,8)
	testb	$2, %sil
	jne	.LBB5_16
	addl	%r8d, %r14d
	movq	(%rax), %rax
	movl	%r8d, 4(%rax,%r14,8)
	jmp	.LBB5_16
.LBB5_7:
	movabsq	$-4294967296, %r14
	andq	%r14, %r11
	orq	%rcx, %r11
	movq	%r11, 16(%rdi,%r10)
	shrq	$32, %rbx
	andl	$2147483647, %ebx
	movl	%ebx, 20(%rdi,%rcx,8)
	jmp	.LBB5_12
.LBB5_8:
	movl	%r10d, %r10d
	cmpl	$-1, %ebx
	je	.LBB5_9
	movl	%ebx, %ecx
	movl	$-1, 20(%rdi,%rcx,8)
	movl	%ebx, 144(%rax,%r10,4)
	jmp	.LBB5_12
.LBB5_9:
	movl	$-1, 144(%rax,%r10,4)
	shrl	$4, %r10d
	andb	$15, %r11b
	movl	$-2, %edi
	movl	%r11d, %ecx
	roll	%cl, %edi
	movl	$-2, %r11d
	andl	%edi, 60(%rax,%r10,4)
	jne	.LBB5_12
	movl	%r10d, %ecx
	roll	%cl, %r11d
	andl	%r11d, 56(%rax)
.LBB5_12:
	movl	%esi, %r10d
	shrl	$2, %r10d
	movq	24(%rax), %r11
	movl	%edx, %edi
	movq	$-2, %rbx
	movl	%edx, %ecx
	rolq	%cl, %rbx
	shrl	$6, %edi
	andq	%rbx, (%r11,%rdi,8)
	movq	(%rax), %rcx
	movq	%rsi, (%rcx,%r8,8)
	movq	%r9, 8(%rcx,%r8,8)
	testb	$2, %sil
	jne	.LBB5_14
	leal	(%r10,%r8), %ecx
	movq	(%rax), %rdx
	movl	%r8d, 4(%rdx,%rcx,8)
.LBB5_14:
	movl	%r10d, %ecx
	orl	$16, %ecx
	bsrl	%ecx, %ecx
	addl	$-4, %ecx
	shrl	%cl, %r10d
	shll	$4, %ecx
	addl	%r10d, %ecx
	movslq	144(%rax,%rcx,4), %rdx
	movl	%r8d, 144(%rax,%rcx,4)
	movq	(%rax), %r9
	testq	%rdx, %rdx
	js	.LBB5_15
	movabsq	$-4294967296, %rax
	orq	%rdx, %rax
	movq	%rax, 16(%r9,%r8,8)
	movl	%r8d, 20(%r9,%rdx,8)
	jmp	.LBB5_16
.LBB5_15:
	movq	$-1, 16(%r9,%r8,8)
	shrl	$4, %ecx
	movl	$1, %edx
	shll	%cl, %edx
	movl	60(%rax,%rcx,4), %r8d
	orl	%edx, 56(%rax)
	andb	$15, %r10b
	btsl	%r10d, %r8d
	movl	%r8d, 60(%rax,%rcx,4)
.LBB5_16:
	popq	%rbx
	popq	%rbp
	popq	%rdi
	popq	%rsi
	popq	%r14
	retq
	.seh_endproc
	.def	tlsf_heap.fitting.merge_both.4;
	.scl	3;
	.type	32;
	.endef
	.p2align	4
tlsf_heap.fitting.merge_both.4:
.seh_proc tlsf_heap.fitting.merge_both.4
	pushq	%r15
	.seh_pushreg %r15
	pushq	%r14
	.seh_pushreg %r14
	pushq	%r13
	.seh_pushreg %r13
	pushq	%r12
	.seh_pushreg %r12
	pushq	%rsi
	.seh_pushreg %rsi
	pushq	%rdi
	.seh_pushreg %rdi
	pushq	%rbp
	.seh_pushreg %rbp
	pushq	%rbx
	.seh_pushreg %rbx
	.seh_endprologue
	movq	%rcx, %rax
	movq	112(%rsp), %r14
	movl	104(%rsp), %r10d
	movabsq	$-4294967296, %rdi
	movabsq	$17179869176, %r12
	movl	%edx, %ebx
	shrl	$2, %ebx
	movl	%r14d, %ecx
	shrl	$2, %ecx
	addl	%r10d, %ecx
	movq	(%rax), %r15
	movq	16(%r15,%rcx,8), %r13
	testq	%r13, %r13
	js	.LBB6_4
	movq	%r13, %rcx
	shrq	$29, %rcx
	andq	%r12, %rcx
	movq	16(%r15,%rcx), %r11
	cmpl	$-1, %r13d
	je	.LBB6_2
	andq	%rdi, %r11
	movl	%r13d, %esi
	orq	%rsi, %r11
	movq	%r11, 16(%r15,%rcx)
	shrq	$32, %r13
	andl	$2147483647, %r13d
	movl	%r13d, 20(%r15,%rsi,8)
	jmp	.LBB6_8
.LBB6_4:
	movl	%ebx, %ecx
	orl	$16, %ecx
	bsrl	%ecx, %r11d
	addl	$-4, %r11d
	movl	%ebx, %esi
	movl	%r11d, %ecx
	shrl	%cl, %esi
	shll	$4, %r11d
	addl	%esi, %r11d
	cmpl	$-1, %r13d
	je	.LBB6_5
	movl	%r13d, %ecx
	orq	%rdi, 16(%r15,%rcx,8)
	movl	%r13d, 144(%rax,%r11,4)
	jmp	.LBB6_8
.LBB6_2:
	movl	$4294967295, %esi
	orq	%rsi, %r11
	movq	%r11, 16(%r15,%rcx)
	jmp	.LBB6_8
.LBB6_5:
	movl	$-1, 144(%rax,%r11,4)
	shrl	$4, %r11d
	andb	$15, %sil
	movl	$-2, %ebp
	movl	%esi, %ecx
	roll	%cl, %ebp
	movl	$-2, %esi
	andl	%ebp, 60(%rax,%r11,4)
	jne	.LBB6_8
	movl	%r11d, %ecx
	roll	%cl, %esi
	andl	%esi, 56(%rax)
.LBB6_8:
	movl	%r8d, %r11d
	shrl	$2, %r11d
	movl	%r10d, %r15d
	subl	%r11d, %r15d
	movq	(%rax), %r13
	movq	16(%r13,%r15,8), %rbp
	testq	%rbp, %rbp
	js	.LBB6_12
	movq	%rbp, %rcx
	shrq	$29, %rcx
	andq	%r12, %rcx
	movq	16(%r13,%rcx), %r11
	cmpl	$-1, %ebp
	je	.LBB6_10
	andq	%rdi, %r11
	movl	%ebp, %esi
	orq	%rsi, %r11
	movq	%r11, 16(%r13,%rcx)
	shrq	$32, %rbp
	andl	$2147483647, %ebp
	movl	%ebp, 20(%r13,%rsi,8)
	jmp	.LBB6_16
.LBB6_12:
	movl	%r11d, %ecx
	orl	$16, %ecx
	bsrl	%ecx, %esi
	addl	$-4, %esi
	movl	%esi, %ecx
	shrl	%cl, %r11d
	shll	$4, %esi
	addl	%r11d, %esi
	cmpl	$-1, %ebp
	je	.LBB6_13
	movl	%ebp, %ecx
	orq	%rdi, 16(%r13,%rcx,8)
	movl	%ebp, 144(%rax,%rsi,4)
	jmp	.LBB6_16
.LBB6_10:
	movl	$4294967295, %esi
	orq	%rsi, %r11
	movq	%r11, 16(%r13,%rcx)
	jmp	.LBB6_16
.LBB6_13:
	movl	$-1, 144(%rax,%rsi,4)
	shrl	$4, %esi
	andb	$15, %r11b
	movl	$-2, %ebp
	movl	%r11d, %ecx
	roll	%cl, %ebp
	movl	$-2, %r11d
	andl	%ebp, 60(%rax,%rsi,4)
	jne	.LBB6_16
	movl	%esi, %ecx
	roll	%cl, %r11d
	andl	%r11d, 56(%rax)
.LBB6_16:
	addl	%edx, %r14d
	addq	%r14, %r8
	decq	%r8
	movl	%r8d, %edx
	shrl	$2, %edx
	leal	(%rdx,%r15), %r11d
	movq	24(%rax), %rsi
	movl	%r10d, %r14d
	shrl	$6, %r14d
	movq	$-2, %r12
	movl	%r10d, %ecx
	rolq	%cl, %r12
	movq	$-2, %r10
	andq	%r12, (%rsi,%r14,8)
	movl	%r11d, %ecx
	subl	%ebx, %ecx
	movq	24(%rax), %rsi
	movl	%ecx, %ebx
	rolq	%cl, %r10
	shrl	$6, %ebx
	andq	%r10, (%rsi,%rbx,8)
	movq	(%rax), %rcx
	movq	%r8, (%rcx,%r15,8)
	movq	%r9, 8(%rcx,%r15,8)
	testb	$2, %r8b
	jne	.LBB6_18
	movq	(%rax), %rcx
	movl	%r11d, %r8d
	movl	%r15d, 4(%rcx,%r8,8)
.LBB6_18:
	movl	%edx, %ecx
	orl	$16, %ecx
	bsrl	%ecx, %ecx
	addl	$-4, %ecx
	shrl	%cl, %edx
	shll	$4, %ecx
	addl	%edx, %ecx
	movslq	144(%rax,%rcx,4), %r8
	movl	%r15d, 144(%rax,%rcx,4)
	movq	(%rax), %r9
	testq	%r8, %r8
	js	.LBB6_19
	orq	%r8, %rdi
	movq	%rdi, 16(%r9,%r15,8)
	movl	%r15d, 20(%r9,%r8,8)
	jmp	.LBB6_21
.LBB6_19:
	movq	$-1, 16(%r9,%r15,8)
	shrl	$4, %ecx
	movl	$1, %r8d
	shll	%cl, %r8d
	movl	60(%rax,%rcx,4), %r9d
	orl	%r8d, 56(%rax)
	andb	$15, %dl
	btsl	%edx, %r9d
	movl	%r9d, 60(%rax,%rcx,4)
.LBB6_21:
	popq	%rbx
	popq	%rbp
	popq	%rdi
	popq	%rsi
	popq	%r12
	popq	%r13
	popq	%r14
	popq	%r15
	retq
	.seh_endproc
	.def	tlsf_heap.fitting.merge_next.4;
	.scl	3;
	.type	32;
	.endef
	.p2align	4
tlsf_heap.fitting.merge_next.4:
.seh_proc tlsf_heap.fitting.merge_next.4
	pushq	%r15
	.seh_pushreg %r15
	pushq	%r14
	.seh_pushreg %r14
	pushq	%rsi
	.seh_pushreg %rsi
	pushq	%rdi
	.seh_pushreg %rdi
	pushq	%rbp
	.seh_pushreg %rbp
	pushq	%rbx
	.seh_pushreg %rbx
	.seh_endprologue
	movq	%rcx, %rax
	movl	88(%rsp), %edi
	movabsq	$-4294967296, %rsi
	movl	%edx, %ebx
	shrl	$2, %ebx
	movl	%r8d, %ecx
	shrl	$2, %ecx
	addl	%edi, %ecx
	movq	(%rax), %r14
	movq	16(%r14,%rcx,8), %r15
	testq	%r15, %r15
	js	.LBB7_4
	movq	%r15, %r10
	shrq	$29, %r10
	movabsq	$17179869176, %rcx
	andq	%r10, %rcx
	movq	16(%r14,%rcx), %r10
	cmpl	$-1, %r15d
	je	.LBB7_2
	andq	%rsi, %r10
	movl	%r15d, %r11d
	orq	%r11, %r10
	movq	%r10, 16(%r14,%rcx)
	shrq	$32, %r15
	andl	$2147483647, %r15d
	movl	%r15d, 20(%r14,%r11,8)
	jmp	.LBB7_8
.LBB7_4:
	movl	%ebx, %ecx
	orl	$16, %ecx
	bsrl	%ecx, %r10d
	addl	$-4, %r10d
	movl	%ebx, %r11d
	movl	%r10d, %ecx
	shrl	%cl, %r11d
	shll	$4, %r10d
	addl	%r11d, %r10d
	cmpl	$-1, %r15d
	je	.LBB7_5
	movl	%r15d, %ecx
	orq	%rsi, 16(%r14,%rcx,8)
	movl	%r15d, 144(%rax,%r10,4)
	jmp	.LBB7_8
.LBB7_2:
	movl	$4294967295, %r11d
	orq	%r11, %r10
	movq	%r10, 16(%r14,%rcx)
	jmp	.LBB7_8
.LBB7_5:
	movl	$-1, 144(%rax,%r10,4)
	shrl	$4, %r10d
	andb	$15, %r11b
	movl	$-2, %ebp
	movl	%r11d, %ecx
	roll	%cl, %ebp
	movl	$-2, %r11d
	andl	%ebp, 60(%rax,%r10,4)
	jne	.LBB7_8
	movl	%r10d, %ecx
	roll	%cl, %r11d
	andl	%r11d, 56(%rax)
.LBB7_8:
	movl	%edx, %r11d
	addq	%r8, %r11
	movl	%r11d, %edx
	shrl	$2, %edx
	leal	(%rdx,%rdi), %r10d
	movl	%r10d, %ecx
	subl	%ebx, %ecx
	movq	24(%rax), %r8
	movl	%ecx, %ebx
	shrl	$6, %ebx
	movq	$-2, %r14
	rolq	%cl, %r14
	andq	%r14, (%r8,%rbx,8)
	movq	(%rax), %rcx
	movl	%edi, %r8d
	movq	%r11, (%rcx,%r8,8)
	movq	%r9, 8(%rcx,%r8,8)
	testb	$2, %r11b
	jne	.LBB7_10
	movq	(%rax), %rcx
	movl	%r10d, %r9d
	movl	%r8d, 4(%rcx,%r9,8)
.LBB7_10:
	movl	%edx, %ecx
	orl	$16, %ecx
	bsrl	%ecx, %ecx
	addl	$-4, %ecx
	shrl	%cl, %edx
	shll	$4, %ecx
	addl	%edx, %ecx
	movslq	144(%rax,%rcx,4), %r9
	movl	%edi, 144(%rax,%rcx,4)
	movq	(%rax), %r10
	testq	%r9, %r9
	js	.LBB7_11
	orq	%r9, %rsi
	movq	%rsi, 16(%r10,%r8,8)
	movl	%r8d, 20(%r10,%r9,8)
	jmp	.LBB7_13
.LBB7_11:
	movq	$-1, 16(%r10,%r8,8)
	shrl	$4, %ecx
	movl	$1, %r8d
	shll	%cl, %r8d
	movl	60(%rax,%rcx,4), %r9d
	orl	%r8d, 56(%rax)
	andb	$15, %dl
	btsl	%edx, %r9d
	movl	%r9d, 60(%rax,%rcx,4)
.LBB7_13:
	popq	%rbx
	popq	%rbp
	popq	%rdi
	popq	%rsi
	popq	%r14
	popq	%r15
	retq
	.seh_endproc
	.def	tlsf_heap.heap.Heap.resize_live.5;
	.scl	3;
	.type	32;
	.endef
	.p2align	4
tlsf_heap.heap.Heap.resize_live.5:
.seh_proc tlsf_heap.heap.Heap.resize_live.5
	pushq	%rsi
	.seh_pushreg %rsi
	pushq	%rdi
	.seh_pushreg %rdi
	pushq	%rbx
	.seh_pushreg %rbx
	subq	$48, %rsp
	.seh_stackalloc 48
	.seh_endprologue
	movl	4(%rdx), %edx
	leaq	24(%rcx), %r10
	movq	24(%rcx), %r9
	movq	(%r9,%rdx,8), %rax
	movl	%eax, %edi
	shrl	$2, %edi
	cmpl	%edi, %r8d
	jbe	.LBB8_1
	testb	$2, %al
	jne	.LBB8_8
	leal	(%rdi,%rdx), %r11d
	movq	(%r9,%r11,8), %r9
	testb	$1, %r9b
	jne	.LBB8_9
.LBB8_8:
	xorl	%r9d, %r9d
.LBB8_9:
	movl	%r9d, %r11d
	shrl	$2, %r11d
	addl	%edi, %r11d
	cmpl	%r8d, %r11d
	jae	.LBB8_11
	movb	$1, %al
	movb	$5, %dl
	jmp	.LBB8_15
.LBB8_1:
	movq	8(%rcx), %r11
	cmpq	$-1, %r11
	je	.LBB8_2
	movq	$0, 16(%r9,%rdx,8)
	leal	4(%r8), %esi
	movl	%edi, %r9d
	cmpl	%esi, %edi
	jb	.LBB8_5
	movq	%r11, 32(%rsp)
	movq	%rcx, %rbx
	movq	%r10, %rcx
	movq	%r8, %rsi
	movq	%rax, %r8
	movl	%esi, %r9d
	callq	tlsf_heap.refitting.split_off.5
	movq	%rbx, %rcx
	movl	%esi, %r9d
.LBB8_5:
	subl	%edi, %r9d
	addl	%r9d, 16(%rcx)
.LBB8_14:
	incq	8(%rcx)
	xorl	%edx, %edx
	xorl	%eax, %eax
	jmp	.LBB8_15
.LBB8_11:
	movq	8(%rcx), %r11
	cmpq	$-1, %r11
	je	.LBB8_2
	movq	%r11, 40(%rsp)
	movl	%r8d, 32(%rsp)
	movq	%rcx, %rbx
	movq	%r10, %rcx
	movq	%rdx, %rsi
	movq	%rax, %r8
	callq	tlsf_heap.refitting.recut.5
	movq	%rbx, %rcx
	movq	24(%rbx), %rdx
	movq	$0, 16(%rdx,%rsi,8)
	subl	%edi, %eax
	addl	16(%rbx), %eax
	movl	%eax, 16(%rbx)
	cmpl	%eax, 20(%rbx)
	jae	.LBB8_14
	movl	%eax, 20(%rcx)
	jmp	.LBB8_14
.LBB8_2:
	movb	$1, %dl
	movb	$1, %al
.LBB8_15:
	addq	$48, %rsp
	popq	%rbx
	popq	%rdi
	popq	%rsi
	retq
	.seh_endproc
	.def	tlsf_heap.refitting.split_off.5;
	.scl	3;
	.type	32;
	.endef
	.p2align	4
tlsf_heap.refitting.split_off.5:
.seh_proc tlsf_heap.refitting.split_off.5
	pushq	%rsi
	.seh_pushreg %rsi
	pushq	%rdi
	.seh_pushreg %rdi
	pushq	%rbx
	.seh_pushreg %rbx
	subq	$48, %rsp
	.seh_stackalloc 48
	.seh_endprologue
	movq	%rcx, %rax
	movq	112(%rsp), %rcx
	movq	(%rax), %rsi
	testb	$2, %r8b
	jne	.LBB9_3
	movl	%r8d, %r10d
	shrl	$2, %r10d
	addl	%edx, %r10d
	movq	(%rsi,%r10,8), %r10
	testb	$1, %r10b
	jne	.LBB9_2
.LBB9_3:
	orq	$1, %r8
	movl	%r8d, %r11d
	shrl	$2, %r11d
	leal	(%r9,%rdx), %r10d
	leal	(,%r9,4), %edi
	movl	%r8d, %ebx
	subl	%edi, %ebx
	movl	%edx, %edi
	subq	%rbx, %r8
	movq	%r8, (%rsi,%rdi,8)
	shlq	$32, %rdi
	orq	%rbx, %rdi
	movq	(%rax), %r8
	movq	%rdi, (%r8,%r10,8)
	movq	%rcx, 8(%r8,%r10,8)
	movq	24(%rax), %r8
	movl	%r10d, %esi
	shrl	$6, %esi
	movl	$1, %edi
	movl	%r10d, %ecx
	shlq	%cl, %rdi
	orq	%rdi, (%r8,%rsi,8)
	testb	$2, %bl
	jne	.LBB9_5
	addl	%r11d, %edx
	movq	(%rax), %rcx
	movl	%r10d, 4(%rcx,%rdx,8)
.LBB9_5:
	subl	%r9d, %r11d
	movl	%r11d, %ecx
	orl	$32, %ecx
	bsrl	%ecx, %ecx
	addl	$-5, %ecx
	shrl	%cl, %r11d
	shll	$5, %ecx
	addl	%r11d, %ecx
	movslq	144(%rax,%rcx,4), %rdx
	movl	%r10d, 144(%rax,%rcx,4)
	movq	(%rax), %r8
	testq	%rdx, %rdx
	js	.LBB9_6
	movabsq	$-4294967296, %rax
	orq	%rdx, %rax
	movq	%rax, 16(%r8,%r10,8)
	movl	%r10d, 20(%r8,%rdx,8)
	jmp	.LBB9_7
.LBB9_6:
	movq	$-1, 16(%r8,%r10,8)
	shrl	$5, %ecx
	movl	$1, %edx
	shll	%cl, %edx
	movl	60(%rax,%rcx,4), %r8d
	orl	%edx, 56(%rax)
	btsl	%r11d, %r8d
	movl	%r8d, 60(%rax,%rcx,4)
	jmp	.LBB9_7
.LBB9_2:
	movq	%rcx, 40(%rsp)
	movl	%r9d, 32(%rsp)
	movq	%rax, %rcx
	movq	%r10, %r9
	callq	tlsf_heap.refitting.recut.5
	nop
.LBB9_7:
	addq	$48, %rsp
	popq	%rbx
	popq	%rdi
	popq	%rsi
	retq
	.seh_endproc
	.def	tlsf_heap.refitting.recut.5;
	.scl	3;
	.type	32;
	.endef
	.p2align	4
tlsf_heap.refitting.recut.5:
.seh_proc tlsf_heap.refitting.recut.5
	pushq	%r14
	.seh_pushreg %r14
	pushq	%rsi
	.seh_pushreg %rsi
	pushq	%rdi
	.seh_pushreg %rdi
	pushq	%rbp
	.seh_pushreg %rbp
	pushq	%rbx
	.seh_pushreg %rbx
	.seh_endprologue
	movq	%rcx, %r10
	movl	80(%rsp), %esi
	movl	%r9d, %edi
	shrl	$2, %edi
	movl	%r8d, %eax
	shrl	$2, %eax
	addl	%edx, %eax
	movq	(%rcx), %rbx
	movq	16(%rbx,%rax,8), %r14
	testq	%r14, %r14
	js	.LBB10_4
	movq	%r14, %rcx
	shrq	$29, %rcx
	movabsq	$17179869176, %rax
	andq	%rcx, %rax
	movq	16(%rbx,%rax), %rcx
	cmpl	$-1, %r14d
	je	.LBB10_2
	movabsq	$-4294967296, %r11
	andq	%r11, %rcx
	movl	%r14d, %r11d
	orq	%r11, %rcx
	movq	%rcx, 16(%rbx,%rax)
	shrq	$32, %r14
	andl	$2147483647, %r14d
	movl	%r14d, 20(%rbx,%r11,8)
	jmp	.LBB10_8
.LBB10_4:
	movl	%edi, %eax
	orl	$32, %eax
	bsrl	%eax, %eax
	addl	$-5, %eax
	movl	%edi, %r11d
	movl	%eax, %ecx
	shrl	%cl, %r11d
	shll	$5, %eax
	addl	%r11d, %eax
	cmpl	$-1, %r14d
	je	.LBB10_5
	movl	%r14d, %ecx
	movl	$-1, 20(%rbx,%rcx,8)
	movl	%r14d, 144(%r10,%rax,4)
	jmp	.LBB10_8
.LBB10_2:
	movl	$4294967295, %r11d
	orq	%r11, %rcx
	movq	%rcx, 16(%rbx,%rax)
	jmp	.LBB10_8
.LBB10_5:
	movl	$-1, 144(%r10,%rax,4)
	shrl	$5, %eax
	movl	$-2, %ebx
	movl	%r11d, %ecx
	roll	%cl, %ebx
	movl	$-2, %r11d
	andl	%ebx, 60(%r10,%rax,4)
	jne	.LBB10_8
	movl	%eax, %ecx
	roll	%cl, %r11d
	andl	%r11d, 56(%r10)
.LBB10_8:
	movl	%r9d, %r11d
	addq	%r8, %r11
	movl	%r11d, %eax
	shrl	$2, %eax
	leal	4(%rsi), %ecx
	leal	(%rax,%rdx), %r9d
	cmpl	%ecx, %eax
	jae	.LBB10_13
	movl	%r9d, %ecx
	subl	%edi, %ecx
	movq	24(%r10), %r8
	movl	%ecx, %esi
	shrl	$6, %esi
	movq	$-2, %rdi
	rolq	%cl, %rdi
	andq	%rdi, (%r8,%rsi,8)
	testb	$2, %r11b
	jne	.LBB10_10
	movq	(%r10), %r8
	movl	%r9d, %r9d
	movl	%edx, %ecx
	movl	%edx, 4(%r8,%r9,8)
	jmp	.LBB10_12
.LBB10_13:
	movq	88(%rsp), %rcx
	leal	(%rsi,%rdx), %r8d
	leal	(,%rsi,4), %ebp
	movl	%r11d, %ebx
	subl	%ebp, %ebx
	movl	%edx, %edx
	subq	%rbx, %r11
	movq	(%r10), %r14
	movq	%r11, (%r14,%rdx,8)
	shlq	$32, %rdx
	orq	%rbx, %rdx
	movq	(%r10), %r11
	movq	%rdx, (%r11,%r8,8)
	movq	%rcx, 8(%r11,%r8,8)
	movl	%r9d, %ecx
	subl	%edi, %ecx
	movq	24(%r10), %rdx
	movl	%ecx, %r11d
	movq	$-2, %rdi
	rolq	%cl, %rdi
	shrl	$6, %r11d
	andq	%rdi, (%rdx,%r11,8)
	movq	24(%r10), %rdx
	movl	%r8d, %r11d
	shrl	$6, %r11d
	movl	$1, %edi
	movl	%r8d, %ecx
	shlq	%cl, %rdi
	orq	%rdi, (%rdx,%r11,8)
	testb	$2, %bl
	jne	.LBB10_15
	movq	(%r10), %rcx
	movl	%r9d, %edx
	movl	%r8d, 4(%rcx,%rdx,8)
.LBB10_15:
	subl	%esi, %eax
	movl	%eax, %ecx
	orl	$32, %ecx
	bsrl	%ecx, %ecx
	addl	$-5, %ecx
	shrl	%cl, %eax
	shll	$5, %ecx
	addl	%eax, %ecx
	movslq	144(%r10,%rcx,4), %rdx
	movl	%r8d, 144(%r10,%rcx,4)
	movq	(%r10), %r9
	testq	%rdx, %rdx
	js	.LBB10_16
	movabsq	$-4294967296, %rax
	orq	%rdx, %rax
	movq	%rax, 16(%r9,%r8,8)
	movl	%r8d, 20(%r9,%rdx,8)
	jmp	.LBB10_17
.LBB10_10:
	movl	%edx, %ecx
.LBB10_12:
	decq	%r11
	movq	(%r10), %rdx
	movq	%r11, (%rdx,%rcx,8)
	jmp	.LBB10_18
.LBB10_16:
	movq	$-1, 16(%r9,%r8,8)
	shrl	$5, %ecx
	movl	$1, %edx
	shll	%cl, %edx
	movl	60(%r10,%rcx,4), %r8d
	orl	%edx, 56(%r10)
	btsl	%eax, %r8d
	movl	%r8d, 60(%r10,%rcx,4)
.LBB10_17:
	movl	%esi, %eax
.LBB10_18:
	popq	%rbx
	popq	%rbp
	popq	%rdi
	popq	%rsi
	popq	%r14
	retq
	.seh_endproc
	.def	tlsf_heap.heap.Heap.release_live.5;
	.scl	3;
	.type	32;
	.endef
	.p2align	4
tlsf_heap.heap.Heap.release_live.5:
.seh_proc tlsf_heap.heap.Heap.release_live.5
	pushq	%rsi
	.seh_pushreg %rsi
	pushq	%rdi
	.seh_pushreg %rdi
	subq	$56, %rsp
	.seh_stackalloc 56
	.seh_endprologue
	movq	%rcx, %rax
	movl	4(%rdx), %r11d
	movq	24(%rcx), %rdi
	movq	(%rdi,%r11,8), %r8
	movl	%r8d, %esi
	shrl	$2, %esi
	subl	%esi, 16(%rcx)
	testb	$2, %r8b
	jne	.LBB11_2
	leal	(%rsi,%r11), %ecx
	movq	(%rdi,%rcx,8), %rdx
	leaq	24(%rax), %rcx
	testl	%r11d, %r11d
	jne	.LBB11_3
	jmp	.LBB11_4
.LBB11_2:
	xorl	%edx, %edx
	leaq	24(%rax), %rcx
	testl	%r11d, %r11d
	je	.LBB11_4
.LBB11_3:
	movq	%r8, %r9
	shrq	$32, %r9
	movq	(%rdi,%r9,8), %r10
	testb	$1, %r10b
	jne	.LBB11_9
.LBB11_4:
	movq	8(%rax), %r9
	testb	$1, %dl
	jne	.LBB11_8
	orq	$1, %r8
	movq	%r8, (%rdi,%r11,8)
	movq	%r9, 8(%rdi,%r11,8)
	incq	8(%rax)
	movl	%esi, %ecx
	orl	$32, %ecx
	bsrl	%ecx, %ecx
	addl	$-5, %ecx
	shrl	%cl, %esi
	shll	$5, %ecx
	addl	%esi, %ecx
	movslq	168(%rax,%rcx,4), %rdx
	movl	%r11d, 168(%rax,%rcx,4)
	movq	24(%rax), %r8
	testq	%rdx, %rdx
	js	.LBB11_10
	movabsq	$-4294967296, %rax
	orq	%rdx, %rax
	movq	%rax, 16(%r8,%r11,8)
	movl	%r11d, 20(%r8,%rdx,8)
	addq	$56, %rsp
	popq	%rdi
	popq	%rsi
	retq
.LBB11_8:
	leaq	1(%r9), %r10
	movq	%r10, 8(%rax)
	movl	%r11d, 32(%rsp)
	callq	tlsf_heap.fitting.merge_next.5
	nop
	addq	$56, %rsp
	popq	%rdi
	popq	%rsi
	retq
.LBB11_9:
	movq	8(%rax), %r9
	leaq	1(%r9), %rsi
	movq	%rsi, 8(%rax)
	movq	%r8, 40(%rsp)
	movl	%r11d, 32(%rsp)
	movq	%r10, %r8
	callq	tlsf_heap.fitting.merge_before.5
	nop
	addq	$56, %rsp
	popq	%rdi
	popq	%rsi
	retq
.LBB11_10:
	movq	$-1, 16(%r8,%r11,8)
	shrl	$5, %ecx
	movl	$1, %edx
	shll	%cl, %edx
	movl	84(%rax,%rcx,4), %r8d
	orl	%edx, 80(%rax)
	btsl	%esi, %r8d
	movl	%r8d, 84(%rax,%rcx,4)
	addq	$56, %rsp
	popq	%rdi
	popq	%rsi
	retq
	.seh_endproc
	.def	tlsf_heap.fitting.merge_before.5;
	.scl	3;
	.type	32;
	.endef
	.p2align	4
tlsf_heap.fitting.merge_before.5:
.seh_proc tlsf_heap.fitting.merge_before.5
	pushq	%r14
	.seh_pushreg %r14
	pushq	%rsi
	.seh_pushreg %rsi
	pushq	%rdi
	.seh_pushreg %rdi
	pushq	%rbp
	.seh_pushreg %rbp
	pushq	%rbx
	.seh_pushreg %rbx
	.seh_endprologue
	movq	%rcx, %rax
	testb	$1, %dl
	jne	.LBB12_18
	movq	88(%rsp), %rcx
	movl	80(%rsp), %edx
	movl	%r8d, %r11d
	shrl	$2, %r11d
	orl	$1, %ecx
	leaq	(%r8,%rcx), %rsi
	decq	%rsi
	movl	%edx, %r8d
	subl	%r11d, %r8d
	movq	(%rax), %rdi
	movq	16(%rdi,%r8,8), %rbx
	testq	%rbx, %rbx
	js	.LBB12_2
	movl	%ebx, %ecx
	movq	%rbx, %r11
	shrq	$29, %r11
	movabsq	$17179869176, %r10
	andq	%r11, %r10
	movl	$4294967295, %r14d
	movq	16(%rdi,%r10), %r11
	cmpq	%r14, %rcx
	jne	.LBB12_7
	orq	%r14, %r11
	movq	%r11, 16(%rdi,%r10)
	jmp	.LBB12_12
.LBB12_18:
	movq	%rax, %rcx
	popq	%rbx
	popq	%rbp
	popq	%rdi
	popq	%rsi
	popq	%r14
	jmp	tlsf_heap.fitting.merge_both.5
.LBB12_2:
	movl	%r11d, %ecx
	orl	$32, %ecx
	bsrl	%ecx, %r10d
	addl	$-5, %r10d
	movl	%r10d, %ecx
	shrl	%cl, %r11d
	shll	$5, %r10d
	movl	%esi, %r14d
	shrl	$2, %r14d
	movl	%r14d, %ecx
	orl	$32, %ecx
	bsrl	%ecx, %ecx
	addl	$-5, %ecx
	movl	%r14d, %ebp
	shrl	%cl, %ebp
	addl	%r11d, %r10d
	shll	$5, %ecx
	addl	%ebp, %ecx
	cmpl	%ecx, %r10d
	jne	.LBB12_8
	movq	24(%rax), %r10
	movl	%edx, %r11d
	movq	$-2, %rdi
	movl	%edx, %ecx
	rolq	%cl, %rdi
	shrl	$6, %r11d
	andq	%rdi, (%r10,%r11,8)
	movq	(%rax), %rcx
	movq	%rsi, (%rcx,%r8,8)
	movq	%r9, 8(%rcx,%r8,8)
	testb	$2, %sil
	jne	.LBB12_16
	addl	%r8d, %r14d
	movq	(%rax), %rax
	movl	%r8d, 4(%rax,%r14,8)
	jmp	.LBB12_16
.LBB12_7:
	movabsq	$-4294967296, %r14
	andq	%r14, %r11
	orq	%rcx, %r11
	movq	%r11, 16(%rdi,%r10)
	shrq	$32, %rbx
	andl	$2147483647, %ebx
	movl	%ebx, 20(%rdi,%rcx,8)
	jmp	.LBB12_12
.LBB12_8:
	movl	%r10d, %r10d
	cmpl	$-1, %ebx
	je	.LBB12_9
	movl	%ebx, %ecx
	movl	$-1, 20(%rdi,%rcx,8)
	movl	%ebx, 144(%rax,%r10,4)
	jmp	.LBB12_12
.LBB12_9:
	movl	$-1, 144(%rax,%r10,4)
	shrl	$5, %r10d
	movl	$-2, %edi
	movl	%r11d, %ecx
	roll	%cl, %edi
	movl	$-2, %r11d
	andl	%edi, 60(%rax,%r10,4)
	jne	.LBB12_12
	movl	%r10d, %ecx
	roll	%cl, %r11d
	andl	%r11d, 56(%rax)
.LBB12_12:
	movl	%esi, %r10d
	shrl	$2, %r10d
	movq	24(%rax), %r11
	movl	%edx, %edi
	movq	$-2, %rbx
	movl	%edx, %ecx
	rolq	%cl, %rbx
	shrl	$6, %edi
	andq	%rbx, (%r11,%rdi,8)
	movq	(%rax), %rcx
	movq	%rsi, (%rcx,%r8,8)
	movq	%r9, 8(%rcx,%r8,8)
	testb	$2, %sil
	jne	.LBB12_14
	leal	(%r10,%r8), %ecx
	movq	(%rax), %rdx
	movl	%r8d, 4(%rdx,%rcx,8)
.LBB12_14:
	movl	%r10d, %ecx
	orl	$32, %ecx
	bsrl	%ecx, %ecx
	addl	$-5, %ecx
	shrl	%cl, %r10d
	shll	$5, %ecx
	addl	%r10d, %ecx
	movslq	144(%rax,%rcx,4), %rdx
	movl	%r8d, 144(%rax,%rcx,4)
	movq	(%rax), %r9
	testq	%rdx, %rdx
	js	.LBB12_15
	movabsq	$-4294967296, %rax
	orq	%rdx, %rax
	movq	%rax, 16(%r9,%r8,8)
	movl	%r8d, 20(%r9,%rdx,8)
	jmp	.LBB12_16
.LBB12_15:
	movq	$-1, 16(%r9,%r8,8)
	shrl	$5, %ecx
	movl	$1, %edx
	shll	%cl, %edx
	movl	60(%rax,%rcx,4), %r8d
	orl	%edx, 56(%rax)
	btsl	%r10d, %r8d
	movl	%r8d, 60(%rax,%rcx,4)
.LBB12_16:
	popq	%rbx
	popq	%rbp
	popq	%rdi
	popq	%rsi
	popq	%r14
	retq
	.seh_endproc
	.def	tlsf_heap.fitting.merge_both.5;
	.scl	3;
	.type	32;
	.endef
	.p2align	4
tlsf_heap.fitting.merge_both.5:
.seh_proc tlsf_heap.fitting.merge_both.5
	pushq	%r15
	.seh_pushreg %r15
	pushq	%r14
	.seh_pushreg %r14
	pushq	%r13
	.seh_pushreg %r13
	pushq	%r12
	.seh_pushreg %r12
	pushq	%rsi
	.seh_pushreg %rsi
	pushq	%rdi
	.seh_pushreg %rdi
	pushq	%rbp
	.seh_pushreg %rbp
	pushq	%rbx
	.seh_pushreg %rbx
	.seh_endprologue
	movq	%rcx, %rax
	movq	112(%rsp), %r14
	movl	104(%rsp), %r10d
	movabsq	$-4294967296, %rdi
	movabsq	$17179869176, %r12
	movl	%edx, %ebx
	shrl	$2, %ebx
	movl	%r14d, %ecx
	shrl	$2, %ecx
	addl	%r10d, %ecx
	movq	(%rax), %r15
	movq	16(%r15,%rcx,8), %r13
	testq	%r13, %r13
	js	.LBB13_4
	movq	%r13, %rcx
	shrq	$29, %rcx
	andq	%r12, %rcx
	movq	16(%r15,%rcx), %r11
	cmpl	$-1, %r13d
	je	.LBB13_2
	andq	%rdi, %r11
	movl	%r13d, %esi
	orq	%rsi, %r11
	movq	%r11, 16(%r15,%rcx)
	shrq	$32, %r13
	andl	$2147483647, %r13d
	movl	%r13d, 20(%r15,%rsi,8)
	jmp	.LBB13_8
.LBB13_4:
	movl	%ebx, %ecx
	orl	$32, %ecx
	bsrl	%ecx, %r11d
	addl	$-5, %r11d
	movl	%ebx, %esi
	movl	%r11d, %ecx
	shrl	%cl, %esi
	shll	$5, %r11d
	addl	%esi, %r11d
	cmpl	$-1, %r13d
	je	.LBB13_5
	movl	%r13d, %ecx
	orq	%rdi, 16(%r15,%rcx,8)
	movl	%r13d, 144(%rax,%r11,4)
	jmp	.LBB13_8
.LBB13_2:
	movl	$4294967295, %esi
	orq	%rsi, %r11
	movq	%r11, 16(%r15,%rcx)
	jmp	.LBB13_8
.LBB13_5:
	movl	$-1, 144(%rax,%r11,4)
	shrl	$5, %r11d
	movl	$-2, %ebp
	movl	%esi, %ecx
	roll	%cl, %ebp
	movl	$-2, %esi
	andl	%ebp, 60(%rax,%r11,4)
	jne	.LBB13_8
	movl	%r11d, %ecx
	roll	%cl, %esi
	andl	%esi, 56(%rax)
.LBB13_8:
	movl	%r8d, %r11d
	shrl	$2, %r11d
	movl	%r10d, %r15d
	subl	%r11d, %r15d
	movq	(%rax), %r13
	movq	16(%r13,%r15,8), %rbp
	testq	%rbp, %rbp
	js	.LBB13_12
	movq	%rbp, %rcx
	shrq	$29, %rcx
	andq	%r12, %rcx
	movq	16(%r13,%rcx), %r11
	cmpl	$-1, %ebp
	je	.LBB13_10
	andq	%rdi, %r11
	movl	%ebp, %esi
	orq	%rsi, %r11
	movq	%r11, 16(%r13,%rcx)
	shrq	$32, %rbp
	andl	$2147483647, %ebp
	movl	%ebp, 20(%r13,%rsi,8)
	jmp	.LBB13_16
.LBB13_12:
	movl	%r11d, %ecx
	orl	$32, %ecx
	bsrl	%ecx, %esi
	addl	$-5, %esi
	movl	%esi, %ecx
	shrl	%cl, %r11d
	shll	$5, %esi
	addl	%r11d, %esi
	cmpl	$-1, %ebp
	je	.LBB13_13
	movl	%ebp, %ecx
	orq	%rdi, 16(%r13,%rcx,8)
	movl	%ebp, 144(%rax,%rsi,4)
	jmp	.LBB13_16
.LBB13_10:
	movl	$4294967295, %esi
	orq	%rsi, %r11
	movq	%r11, 16(%r13,%rcx)
	jmp	.LBB13_16
.LBB13_13:
	movl	$-1, 144(%rax,%rsi,4)
	shrl	$5, %esi
	movl	$-2, %ebp
	movl	%r11d, %ecx
	roll	%cl, %ebp
	movl	$-2, %r11d
	andl	%ebp, 60(%rax,%rsi,4)
	jne	.LBB13_16
	movl	%esi, %ecx
	roll	%cl, %r11d
	andl	%r11d, 56(%rax)
.LBB13_16:
	addl	%edx, %r14d
	addq	%r14, %r8
	decq	%r8
	movl	%r8d, %edx
	shrl	$2, %edx
	leal	(%rdx,%r15), %r11d
	movq	24(%rax), %rsi
	movl	%r10d, %r14d
	shrl	$6, %r14d
	movq	$-2, %r12
	movl	%r10d, %ecx
	rolq	%cl, %r12
	movq	$-2, %r10
	andq	%r12, (%rsi,%r14,8)
	movl	%r11d, %ecx
	subl	%ebx, %ecx
	movq	24(%rax), %rsi
	movl	%ecx, %ebx
	rolq	%cl, %r10
	shrl	$6, %ebx
	andq	%r10, (%rsi,%rbx,8)
	movq	(%rax), %rcx
	movq	%r8, (%rcx,%r15,8)
	movq	%r9, 8(%rcx,%r15,8)
	testb	$2, %r8b
	jne	.LBB13_18
	movq	(%rax), %rcx
	movl	%r11d, %r8d
	movl	%r15d, 4(%rcx,%r8,8)
.LBB13_18:
	movl	%edx, %ecx
	orl	$32, %ecx
	bsrl	%ecx, %ecx
	addl	$-5, %ecx
	shrl	%cl, %edx
	shll	$5, %ecx
	addl	%edx, %ecx
	movslq	144(%rax,%rcx,4), %r8
	movl	%r15d, 144(%rax,%rcx,4)
	movq	(%rax), %r9
	testq	%r8, %r8
	js	.LBB13_19
	orq	%r8, %rdi
	movq	%rdi, 16(%r9,%r15,8)
	movl	%r15d, 20(%r9,%r8,8)
	jmp	.LBB13_21
.LBB13_19:
	movq	$-1, 16(%r9,%r15,8)
	shrl	$5, %ecx
	movl	$1, %r8d
	shll	%cl, %r8d
	movl	60(%rax,%rcx,4), %r9d
	orl	%r8d, 56(%rax)
	btsl	%edx, %r9d
	movl	%r9d, 60(%rax,%rcx,4)
.LBB13_21:
	popq	%rbx
	popq	%rbp
	popq	%rdi
	popq	%rsi
	popq	%r12
	popq	%r13
	popq	%r14
	popq	%r15
	retq
	.seh_endproc
	.def	tlsf_heap.fitting.merge_next.5;
	.scl	3;
	.type	32;
	.endef
	.p2align	4
tlsf_heap.fitting.merge_next.5:
.seh_proc tlsf_heap.fitting.merge_next.5
	pushq	%r15
	.seh_pushreg %r15
	pushq	%r14
	.seh_pushreg %r14
	pushq	%rsi
	.seh_pushreg %rsi
	pushq	%rdi
	.seh_pushreg %rdi
	pushq	%rbp
	.seh_pushreg %rbp
	pushq	%rbx
	.seh_pushreg %rbx
	.seh_endprologue
	movq	%rcx, %rax
	movl	88(%rsp), %edi
	movabsq	$-4294967296, %rsi
	movl	%edx, %ebx
	shrl	$2, %ebx
	movl	%r8d, %ecx
	shrl	$2, %ecx
	addl	%edi, %ecx
	movq	(%rax), %r14
	movq	16(%r14,%rcx,8), %r15
	testq	%r15, %r15
	js	.LBB14_4
	movq	%r15, %r10
	shrq	$29, %r10
	movabsq	$17179869176, %rcx
	andq	%r10, %rcx
	movq	16(%r14,%rcx), %r10
	cmpl	$-1, %r15d
	je	.LBB14_2
	andq	%rsi, %r10
	movl	%r15d, %r11d
	orq	%r11, %r10
	movq	%r10, 16(%r14,%rcx)
	shrq	$32, %r15
	andl	$2147483647, %r15d
	movl	%r15d, 20(%r14,%r11,8)
	jmp	.LBB14_8
.LBB14_4:
	movl	%ebx, %ecx
	orl	$32, %ecx
	bsrl	%ecx, %r10d
	addl	$-5, %r10d
	movl	%ebx, %r11d
	movl	%r10d, %ecx
	shrl	%cl, %r11d
	shll	$5, %r10d
	addl	%r11d, %r10d
	cmpl	$-1, %r15d
	je	.LBB14_5
	movl	%r15d, %ecx
	orq	%rsi, 16(%r14,%rcx,8)
	movl	%r15d, 144(%rax,%r10,4)
	jmp	.LBB14_8
.LBB14_2:
	movl	$4294967295, %r11d
	orq	%r11, %r10
	movq	%r10, 16(%r14,%rcx)
	jmp	.LBB14_8
.LBB14_5:
	movl	$-1, 144(%rax,%r10,4)
	shrl	$5, %r10d
	movl	$-2, %ebp
	movl	%r11d, %ecx
	roll	%cl, %ebp
	movl	$-2, %r11d
	andl	%ebp, 60(%rax,%r10,4)
	jne	.LBB14_8
	movl	%r10d, %ecx
	roll	%cl, %r11d
	andl	%r11d, 56(%rax)
.LBB14_8:
	movl	%edx, %r11d
	addq	%r8, %r11
	movl	%r11d, %edx
	shrl	$2, %edx
	leal	(%rdx,%rdi), %r10d
	movl	%r10d, %ecx
	subl	%ebx, %ecx
	movq	24(%rax), %r8
	movl	%ecx, %ebx
	shrl	$6, %ebx
	movq	$-2, %r14
	rolq	%cl, %r14
	andq	%r14, (%r8,%rbx,8)
	movq	(%rax), %rcx
	movl	%edi, %r8d
	movq	%r11, (%rcx,%r8,8)
	movq	%r9, 8(%rcx,%r8,8)
	testb	$2, %r11b
	jne	.LBB14_10
	movq	(%rax), %rcx
	movl	%r10d, %r9d
	movl	%r8d, 4(%rcx,%r9,8)
.LBB14_10:
	movl	%edx, %ecx
	orl	$32, %ecx
	bsrl	%ecx, %ecx
	addl	$-5, %ecx
	shrl	%cl, %edx
	shll	$5, %ecx
	addl	%edx, %ecx
	movslq	144(%rax,%rcx,4), %r9
	movl	%edi, 144(%rax,%rcx,4)
	movq	(%rax), %r10
	testq	%r9, %r9
	js	.LBB14_11
	orq	%r9, %rsi
	movq	%rsi, 16(%r10,%r8,8)
	movl	%r8d, 20(%r10,%r9,8)
	jmp	.LBB14_13
.LBB14_11:
	movq	$-1, 16(%r10,%r8,8)
	shrl	$5, %ecx
	movl	$1, %r8d
	shll	%cl, %r8d
	movl	60(%rax,%rcx,4), %r9d
	orl	%r8d, 56(%rax)
	btsl	%edx, %r9d
	movl	%r9d, 60(%rax,%rcx,4)
.LBB14_13:
	popq	%rbx
	popq	%rbp
	popq	%rdi
	popq	%rsi
	popq	%r14
	popq	%r15
	retq
	.seh_endproc
	.def	tlsf_heap.check.examine;
	.scl	3;
	.type	32;
	.endef
	.p2align	4
tlsf_heap.check.examine:
.seh_proc tlsf_heap.check.examine
	pushq	%r15
	.seh_pushreg %r15
	pushq	%r14
	.seh_pushreg %r14
	pushq	%rsi
	.seh_pushreg %rsi
	pushq	%rdi
	.seh_pushreg %rdi
	pushq	%rbp
	.seh_pushreg %rbp
	pushq	%rbx
	.seh_pushreg %rbx
	.seh_endprologue
	movl	8(%rcx), %r14d
	leal	-4(%r14), %r10d
	xorl	%r8d, %r8d
	movl	$0, %eax
	cmpl	%r10d, %edx
	ja	.LBB15_29
	movq	24(%rcx), %r11
	movl	%edx, %eax
	shrl	$6, %eax
	movq	(%r11,%rax,8), %rax
	btq	%rdx, %rax
	jae	.LBB15_27
	movq	(%rcx), %rcx
	movl	%edx, %esi
	movq	(%rcx,%rsi,8), %rbx
	movl	%ebx, %edi
	shrl	$2, %edi
	leal	(%rdi,%rdx), %r9d
	cmpl	$16, %ebx
	setb	%al
	cmpl	%r14d, %r9d
	seta	%bpl
	xorl	%r8d, %r8d
	orb	%al, %bpl
	movl	$0, %eax
	jne	.LBB15_29
	movl	%ebx, %eax
	andl	$2, %eax
	shrl	%eax
	cmpl	%r14d, %r9d
	sete	%bpl
	xorl	%r8d, %r8d
	xorb	%al, %bpl
	movl	$0, %eax
	jne	.LBB15_29
	movq	%rbx, %r15
	shrq	$32, %r15
	xorl	%r8d, %r8d
	testl	%edx, %edx
	je	.LBB15_8
	cmpl	%r15d, %r10d
	jb	.LBB15_29
	movq	%rbx, %rax
	shrq	$38, %rax
	movq	(%r11,%rax,8), %rax
	btq	%r15, %rax
	jae	.LBB15_27
	movl	(%rcx,%r15,8), %ebp
	shrl	$2, %ebp
	addl	%r15d, %ebp
	xorl	%r8d, %r8d
	movl	$0, %eax
	cmpl	%edx, %ebp
	je	.LBB15_9
	jmp	.LBB15_29
.LBB15_8:
	cmpl	$-1, %r15d
	jne	.LBB15_29
.LBB15_9:
	andl	$1, %ebx
	cmpl	%r14d, %r9d
	jae	.LBB15_14
	xorl	%r8d, %r8d
	cmpl	%r10d, %r9d
	ja	.LBB15_29
	movl	%r9d, %eax
	shrl	$6, %eax
	movq	(%r11,%rax,8), %rax
	btq	%r9, %rax
	jae	.LBB15_27
	movl	%r9d, %eax
	movq	(%rcx,%rax,8), %r14
	movq	%r14, %rax
	shrq	$32, %rax
	xorl	%r8d, %r8d
	cmpl	%eax, %edx
	jne	.LBB15_28
	movl	$0, %eax
	andl	%ebx, %r14d
	jne	.LBB15_29
.LBB15_14:
	testq	%rbx, %rbx
	jne	.LBB15_16
	addl	$2, %edx
	movl	%edi, %eax
	leaq	-24(,%rax,8), %r10
	xorl	%r8d, %r8d
	movl	$0, %eax
	cmpq	%r10, (%rcx,%rdx,8)
	jbe	.LBB15_22
	jmp	.LBB15_29
.LBB15_16:
	movq	16(%rcx,%rsi,8), %rsi
	cmpl	$-1, %esi
	je	.LBB15_21
	xorl	%r8d, %r8d
	cmpl	%esi, %r10d
	jb	.LBB15_29
	movl	%esi, %eax
	shrl	$6, %eax
	movq	(%r11,%rax,8), %rax
	btq	%rsi, %rax
	jae	.LBB15_27
	movl	%esi, %edi
	shlq	$3, %rdi
	xorl	%r8d, %r8d
	testb	$1, (%rcx,%rdi)
	movl	$0, %eax
	je	.LBB15_29
	xorl	%r8d, %r8d
	cmpl	20(%rcx,%rdi), %edx
	jne	.LBB15_29
.LBB15_21:
	movq	%rsi, %rdi
	shrq	$32, %rdi
	cmpl	$-1, %edi
	jne	.LBB15_23
.LBB15_22:
	movb	$1, %al
	movl	%r9d, %r8d
	jmp	.LBB15_29
.LBB15_23:
	xorl	%r8d, %r8d
	cmpl	%edi, %r10d
	jb	.LBB15_29
	shrq	$38, %rsi
	movq	(%r11,%rsi,8), %rax
	btq	%rdi, %rax
	jae	.LBB15_27
	xorl	%r8d, %r8d
	testb	$1, (%rcx,%rdi,8)
	movl	$0, %eax
	je	.LBB15_29
	xorl	%r8d, %r8d
	cmpl	16(%rcx,%rdi,8), %edx
	je	.LBB15_22
	jmp	.LBB15_29
.LBB15_27:
	xorl	%r8d, %r8d
.LBB15_28:
	xorl	%eax, %eax
.LBB15_29:
	movl	%r8d, %edx
	popq	%rbx
	popq	%rbp
	popq	%rdi
	popq	%rsi
	popq	%r14
	popq	%r15
	retq
	.seh_endproc
	.def	tlsf_post.take_end.TakeEnd.take_slice;
	.scl	3;
	.type	32;
	.endef
	.p2align	4
tlsf_post.take_end.TakeEnd.take_slice:
.seh_proc tlsf_post.take_end.TakeEnd.take_slice
	pushq	%r15
	.seh_pushreg %r15
	pushq	%r14
	.seh_pushreg %r14
	pushq	%r13
	.seh_pushreg %r13
	pushq	%r12
	.seh_pushreg %r12
	pushq	%rsi
	.seh_pushreg %rsi
	pushq	%rdi
	.seh_pushreg %rdi
	pushq	%rbx
	.seh_pushreg %rbx
	.seh_endprologue
	movq	%r8, %rax
	movq	16(%rcx), %r9
	movq	24(%rcx), %r8
	movq	32(%rcx), %r10
	leaq	(%r9,%r9), %r11
	xorl	%esi, %esi
	subq	%r8, %r10
	cmovbq	%r11, %rsi
	addq	%rsi, %r10
	cmpq	%rax, %r10
	jae	.LBB16_2
	movq	(%rcx), %r8
	movq	128(%r8), %r10
	movq	%r10, 32(%rcx)
	movq	16(%rcx), %r9
	movq	24(%rcx), %r8
	leaq	(%r9,%r9), %r11
	xorl	%esi, %esi
	subq	%r8, %r10
	cmovbq	%r11, %rsi
	addq	%rsi, %r10
	cmpq	%rax, %r10
	cmovbq	%r10, %rax
.LBB16_2:
	testq	%rax, %rax
	je	.LBB16_20
	xorl	%esi, %esi
	cmpq	%r9, %r8
	cmovaeq	%r9, %rsi
	movq	%r8, %rdi
	subq	%rsi, %rdi
	movq	%r9, %r10
	subq	%rdi, %r10
	cmpq	%rax, %r10
	cmovaeq	%rax, %r10
	movq	%r9, %r11
	subq	%rdi, %r11
	je	.LBB16_11
	movl	%r10d, %edi
	andl	$3, %edi
	cmpq	$4, %r10
	jae	.LBB16_6
	xorl	%ebx, %ebx
	jmp	.LBB16_9
.LBB16_6:
	movq	%r10, %r14
	andq	$-4, %r14
	leaq	(,%r8,8), %rbx
	leaq	(%rbx,%rbx,2), %r15
	leaq	(,%rsi,8), %rbx
	leaq	(%rbx,%rbx,2), %rbx
	subq	%rbx, %r15
	xorl	%ebx, %ebx
	xorl	%r12d, %r12d
	.p2align	4
.LBB16_7:
	movq	8(%rcx), %r13
	addq	%r15, %r13
	movups	(%r12,%r13), %xmm0
	movq	16(%r12,%r13), %r13
	movq	%r13, 16(%rdx,%r12)
	movups	%xmm0, (%rdx,%r12)
	movq	8(%rcx), %r13
	addq	%r15, %r13
	movups	24(%r12,%r13), %xmm0
	movq	40(%r12,%r13), %r13
	movq	%r13, 40(%rdx,%r12)
	movups	%xmm0, 24(%rdx,%r12)
	movq	8(%rcx), %r13
	addq	%r15, %r13
	movups	48(%r12,%r13), %xmm0
	movq	64(%r12,%r13), %r13
	movq	%r13, 64(%rdx,%r12)
	movups	%xmm0, 48(%rdx,%r12)
	movq	8(%rcx), %r13
	addq	%r15, %r13
	movups	72(%r12,%r13), %xmm0
	movq	88(%r12,%r13), %r13
	movq	%r13, 88(%rdx,%r12)
	movups	%xmm0, 72(%rdx,%r12)
	addq	$4, %rbx
	addq	$96, %r12
	cmpq	%rbx, %r14
	jne	.LBB16_7
	testq	%rdi, %rdi
	je	.LBB16_11
.LBB16_9:
	shlq	$3, %rbx
	leaq	(%rbx,%rbx,2), %r14
	leaq	(%rdx,%r14), %rbx
	leaq	(%r8,%r8,2), %r15
	leaq	(%r14,%r15,8), %r14
	shlq	$3, %rsi
	leaq	(%rsi,%rsi,2), %rsi
	subq	%rsi, %r14
	shll	$3, %edi
	leaq	(%rdi,%rdi,2), %rsi
	xorl	%edi, %edi
	.p2align	4
.LBB16_10:
	movq	8(%rcx), %r15
	addq	%r14, %r15
	movups	(%rdi,%r15), %xmm0
	movq	16(%rdi,%r15), %r15
	movq	%r15, 16(%rbx,%rdi)
	movups	%xmm0, (%rbx,%rdi)
	addq	$24, %rdi
	cmpq	%rdi, %rsi
	jne	.LBB16_10
.LBB16_11:
	cmpq	%r11, %rax
	jbe	.LBB16_19
	leaq	(%r10,%r10,2), %r11
	movq	%rax, %rsi
	subq	%r10, %rsi
	leaq	(%rdx,%r11,8), %rdx
	movl	%esi, %r11d
	andl	$3, %r11d
	subq	%rax, %r10
	cmpq	$-4, %r10
	jbe	.LBB16_14
	xorl	%r10d, %r10d
	jmp	.LBB16_17
.LBB16_14:
	andq	$-4, %rsi
	xorl	%r10d, %r10d
	xorl	%edi, %edi
	.p2align	4
.LBB16_15:
	movq	8(%rcx), %rbx
	movups	(%rbx,%rdi), %xmm0
	movq	16(%rbx,%rdi), %rbx
	movq	%rbx, 16(%rdx,%rdi)
	movups	%xmm0, (%rdx,%rdi)
	movq	8(%rcx), %rbx
	movups	24(%rbx,%rdi), %xmm0
	movq	40(%rbx,%rdi), %rbx
	movq	%rbx, 40(%rdx,%rdi)
	movups	%xmm0, 24(%rdx,%rdi)
	movq	8(%rcx), %rbx
	movups	48(%rbx,%rdi), %xmm0
	movq	64(%rbx,%rdi), %rbx
	movq	%rbx, 64(%rdx,%rdi)
	movups	%xmm0, 48(%rdx,%rdi)
	movq	8(%rcx), %rbx
	movups	72(%rbx,%rdi), %xmm0
	movq	88(%rbx,%rdi), %rbx
	movq	%rbx, 88(%rdx,%rdi)
	movups	%xmm0, 72(%rdx,%rdi)
	addq	$4, %r10
	addq	$96, %rdi
	cmpq	%r10, %rsi
	jne	.LBB16_15
	testq	%r11, %r11
	je	.LBB16_19
.LBB16_17:
	shlq	$3, %r10
	leaq	(%r10,%r10,2), %r10
	shll	$3, %r11d
	leaq	(%r11,%r11,2), %r11
	.p2align	4
.LBB16_18:
	movq	8(%rcx), %rsi
	movups	(%rsi,%r10), %xmm0
	movq	16(%rsi,%r10), %rsi
	movq	%rsi, 16(%rdx,%r10)
	movups	%xmm0, (%rdx,%r10)
	addq	$24, %r10
	addq	$-24, %r11
	jne	.LBB16_18
.LBB16_19:
	addq	%r9, %r9
	subq	%r8, %r9
	movq	%r9, %rdx
	negq	%rdx
	cmpq	%r9, %rax
	cmovbq	%r8, %rdx
	addq	%rax, %rdx
	movq	(%rcx), %r9
	movq	%rdx, %r8
	xchgq	%rdx, (%r9)
.LBB16_20:
	movq	%r8, 24(%rcx)
	popq	%rbx
	popq	%rdi
	popq	%rsi
	popq	%r12
	popq	%r13
	popq	%r14
	popq	%r15
	retq
	.seh_endproc
	.def	tlsf_c.heap_calls.release_named;
	.scl	3;
	.type	32;
	.endef
	.p2align	4
tlsf_c.heap_calls.release_named:
.seh_proc tlsf_c.heap_calls.release_named
	pushq	%rsi
	.seh_pushreg %rsi
	pushq	%rdi
	.seh_pushreg %rdi
	pushq	%rbx
	.seh_pushreg %rbx
	subq	$48, %rsp
	.seh_stackalloc 48
	.seh_endprologue
	cmpb	$0, 8(%rcx)
	je	.LBB17_26
	movq	(%rcx), %rsi
	cmpb	$0, (%rsi)
	je	.LBB17_26
	movb	$0, (%rsi)
	cmpb	$0, 16(%rsi)
	movl	24(%rsi), %r10d
	je	.LBB17_11
	cmpl	%r10d, %edx
	jne	.LBB17_19
	movl	%edx, %r10d
	cmpl	56(%rsi), %r9d
	jae	.LBB17_19
	movq	72(%rsi), %rax
	movl	%r9d, %ecx
	shrl	$6, %ecx
	movq	(%rax,%rcx,8), %rax
	btq	%r9, %rax
	movl	%edx, %r10d
	jae	.LBB17_19
	leaq	48(%rsi), %rcx
	movq	(%rcx), %rbx
	movl	%r9d, %r11d
	movq	(%rbx,%r11,8), %rax
	movl	%edx, %r10d
	testb	$1, %al
	jne	.LBB17_19
	movl	%edx, %r10d
	cmpq	%r8, 8(%rbx,%r11,8)
	jne	.LBB17_19
	movq	32(%rsi), %r10
	cmpq	$-1, %r10
	je	.LBB17_27
	movl	%eax, %edi
	shrl	$2, %edi
	subl	%edi, 40(%rsi)
	testb	$2, %al
	jne	.LBB17_21
	leal	(%rdi,%r9), %edx
	movq	(%rbx,%rdx,8), %rdx
	testl	%r9d, %r9d
	jne	.LBB17_22
	jmp	.LBB17_23
.LBB17_11:
	cmpl	%r10d, %edx
	jne	.LBB17_19
	movl	%edx, %r10d
	cmpl	56(%rsi), %r9d
	jae	.LBB17_19
	movq	72(%rsi), %rax
	movl	%r9d, %ecx
	shrl	$6, %ecx
	movq	(%rax,%rcx,8), %rax
	btq	%r9, %rax
	movl	%edx, %r10d
	jae	.LBB17_19
	leaq	48(%rsi), %rcx
	movq	(%rcx), %rbx
	movl	%r9d, %r11d
	movq	(%rbx,%r11,8), %rax
	movl	%edx, %r10d
	testb	$1, %al
	jne	.LBB17_19
	movl	%edx, %r10d
	cmpq	%r8, 8(%rbx,%r11,8)
	jne	.LBB17_19
	movq	32(%rsi), %r10
	cmpq	$-1, %r10
	je	.LBB17_27
	movl	%eax, %edi
	shrl	$2, %edi
	subl	%edi, 40(%rsi)
	testb	$2, %al
	jne	.LBB17_30
	leal	(%rdi,%r9), %edx
	movq	(%rbx,%rdx,8), %rdx
	testl	%r9d, %r9d
	jne	.LBB17_31
	jmp	.LBB17_32
.LBB17_27:
	movl	$2, %eax
	jmp	.LBB17_40
.LBB17_19:
	movl	%edx, %ecx
	movl	%r10d, %edx
	callq	tlsf_heap.refusal.Refusal.of_name
	movl	%eax, %ecx
	xorl	%eax, %eax
	cmpb	$3, %cl
	sete	%al
	addl	$3, %eax
	jmp	.LBB17_40
.LBB17_21:
	xorl	%edx, %edx
	testl	%r9d, %r9d
	je	.LBB17_23
.LBB17_22:
	movq	%rax, %r8
	shrq	$32, %r8
	movq	(%rbx,%r8,8), %r8
	testb	$1, %r8b
	jne	.LBB17_29
.LBB17_23:
	testb	$1, %dl
	jne	.LBB17_28
	orq	$1, %rax
	movq	%rax, (%rbx,%r11,8)
	movq	%r10, 8(%rbx,%r11,8)
	incq	32(%rsi)
	movl	%edi, %eax
	orl	$32, %eax
	bsrl	%eax, %ecx
	addl	$-5, %ecx
	shrl	%cl, %edi
	shll	$5, %ecx
	addl	%edi, %ecx
	movslq	192(%rsi,%rcx,4), %rax
	movl	%r9d, 192(%rsi,%rcx,4)
	movq	48(%rsi), %rdx
	testq	%rax, %rax
	jns	.LBB17_34
	movq	$-1, 16(%rdx,%r11,8)
	shrl	$5, %ecx
	movl	$1, %eax
	shll	%cl, %eax
	movl	108(%rsi,%rcx,4), %edx
	orl	%eax, 104(%rsi)
	jmp	.LBB17_38
.LBB17_26:
	xorl	%ecx, %ecx
	addq	$48, %rsp
	popq	%rbx
	popq	%rdi
	popq	%rsi
	jmp	tlsf_c.call_fault.CallFault.refusal
.LBB17_28:
	leaq	1(%r10), %r8
	movq	%r8, 32(%rsi)
	movl	%r9d, 32(%rsp)
	movq	%rax, %r8
	movq	%r10, %r9
	callq	tlsf_heap.fitting.merge_next.5
	jmp	.LBB17_39
.LBB17_29:
	leaq	1(%r10), %r11
	movq	%r11, 32(%rsi)
	movq	%rax, 40(%rsp)
	movl	%r9d, 32(%rsp)
	movq	%r10, %r9
	callq	tlsf_heap.fitting.merge_before.5
	jmp	.LBB17_39
.LBB17_30:
	xorl	%edx, %edx
	testl	%r9d, %r9d
	je	.LBB17_32
.LBB17_31:
	movq	%rax, %r8
	shrq	$32, %r8
	movq	(%rbx,%r8,8), %r8
	testb	$1, %r8b
	jne	.LBB17_36
.LBB17_32:
	testb	$1, %dl
	jne	.LBB17_35
	orq	$1, %rax
	movq	%rax, (%rbx,%r11,8)
	movq	%r10, 8(%rbx,%r11,8)
	incq	32(%rsi)
	movl	%edi, %eax
	orl	$16, %eax
	bsrl	%eax, %ecx
	addl	$-4, %ecx
	shrl	%cl, %edi
	shll	$4, %ecx
	addl	%edi, %ecx
	movslq	192(%rsi,%rcx,4), %rax
	movl	%r9d, 192(%rsi,%rcx,4)
	movq	48(%rsi), %rdx
	testq	%rax, %rax
	js	.LBB17_37
.LBB17_34:
	movabsq	$-4294967296, %rcx
	orq	%rax, %rcx
	movq	%rcx, 16(%rdx,%r11,8)
	movl	%r11d, 20(%rdx,%rax,8)
	jmp	.LBB17_39
.LBB17_35:
	leaq	1(%r10), %r8
	movq	%r8, 32(%rsi)
	movl	%r9d, 32(%rsp)
	movq	%rax, %r8
	movq	%r10, %r9
	callq	tlsf_heap.fitting.merge_next.4
	jmp	.LBB17_39
.LBB17_36:
	leaq	1(%r10), %r11
	movq	%r11, 32(%rsi)
	movq	%rax, 40(%rsp)
	movl	%r9d, 32(%rsp)
	movq	%r10, %r9
	callq	tlsf_heap.fitting.merge_before.4
	jmp	.LBB17_39
.LBB17_37:
	movq	$-1, 16(%rdx,%r11,8)
	shrl	$4, %ecx
	movl	$1, %eax
	shll	%cl, %eax
	movl	108(%rsi,%rcx,4), %edx
	orl	%eax, 104(%rsi)
	andb	$15, %dil
.LBB17_38:
	btsl	%edi, %edx
	movl	%edx, 108(%rsi,%rcx,4)
.LBB17_39:
	xorl	%eax, %eax
.LBB17_40:
	movb	$1, (%rsi)
	addq	$48, %rsp
	popq	%rbx
	popq	%rdi
	popq	%rsi
	retq
	.seh_endproc
	.def	tlsf_heap.refusal.Refusal.of_name;
	.scl	3;
	.type	32;
	.endef
	.p2align	4
tlsf_heap.refusal.Refusal.of_name:
	cmpl	%edx, %ecx
	sete	%al
	orb	$2, %al
	retq
	.def	std_alloc.boxed.Box.new.91a8e04f462e8cea;
	.scl	3;
	.type	32;
	.endef
	.p2align	4
std_alloc.boxed.Box.new.91a8e04f462e8cea:
.seh_proc std_alloc.boxed.Box.new.91a8e04f462e8cea
	pushq	%r14
	.seh_pushreg %r14
	pushq	%rsi
	.seh_pushreg %rsi
	pushq	%rdi
	.seh_pushreg %rdi
	pushq	%rbx
	.seh_pushreg %rbx
	subq	$216, %rsp
	.seh_stackalloc 216
	movaps	%xmm15, 192(%rsp)
	.seh_savexmm %xmm15, 192
	movaps	%xmm14, 176(%rsp)
	.seh_savexmm %xmm14, 176
	movaps	%xmm13, 160(%rsp)
	.seh_savexmm %xmm13, 160
	movaps	%xmm12, 144(%rsp)
	.seh_savexmm %xmm12, 144
	movaps	%xmm11, 128(%rsp)
	.seh_savexmm %xmm11, 128
	movaps	%xmm10, 112(%rsp)
	.seh_savexmm %xmm10, 112
	movaps	%xmm9, 96(%rsp)
	.seh_savexmm %xmm9, 96
	movaps	%xmm8, 80(%rsp)
	.seh_savexmm %xmm8, 80
	movaps	%xmm7, 64(%rsp)
	.seh_savexmm %xmm7, 64
	movaps	%xmm6, 48(%rsp)
	.seh_savexmm %xmm6, 48
	.seh_endprologue
	movq	%rcx, %rbx
	movzwl	(%rdx), %r14d
	movq	40(%rdx), %rax
	movq	%rax, 32(%rsp)
	movups	8(%rdx), %xmm0
	movups	24(%rdx), %xmm1
	movaps	%xmm1, 16(%rsp)
	movaps	%xmm0, (%rsp)
	movl	$48, %edi
	movl	$8, %esi
	callq	tlsf_memory_alloc
	testb	$1, %al
	je	.LBB19_2
	movw	%r14w, (%rdx)
	movaps	(%rsp), %xmm0
	movaps	16(%rsp), %xmm1
	movups	%xmm0, 8(%rdx)
	movups	%xmm1, 24(%rdx)
	movq	32(%rsp), %rax
	movq	%rax, 40(%rdx)
	xorps	%xmm0, %xmm0
	movups	%xmm0, 32(%rbx)
	movups	%xmm0, 16(%rbx)
	movq	$0, 48(%rbx)
	xorl	%eax, %eax
	jmp	.LBB19_3
.LBB19_2:
	movq	32(%rsp), %rax
	movq	%rax, 48(%rbx)
	movaps	(%rsp), %xmm0
	movaps	16(%rsp), %xmm1
	movups	%xmm1, 32(%rbx)
	movups	%xmm0, 16(%rbx)
	movl	$1, %eax
	movq	%r14, %rdx
.LBB19_3:
	movq	%rax, (%rbx)
	movq	%rdx, 8(%rbx)
	movaps	48(%rsp), %xmm6
	movaps	64(%rsp), %xmm7
	movaps	80(%rsp), %xmm8
	movaps	96(%rsp), %xmm9
	movaps	112(%rsp), %xmm10
	movaps	128(%rsp), %xmm11
	movaps	144(%rsp), %xmm12
	movaps	160(%rsp), %xmm13
	movaps	176(%rsp), %xmm14
	movaps	192(%rsp), %xmm15
	addq	$216, %rsp
	popq	%rbx
	popq	%rdi
	popq	%rsi
	popq	%r14
	retq
	.seh_endproc
	.def	rtrb.release.drop_slow.23d795680250cb0d;
	.scl	3;
	.type	32;
	.endef
	.p2align	4
rtrb.release.drop_slow.23d795680250cb0d:
.seh_proc rtrb.release.drop_slow.23d795680250cb0d
	pushq	%rsi
	.seh_pushreg %rsi
	subq	$32, %rsp
	.seh_stackalloc 32
	.seh_endprologue
	movq	%rcx, %rsi
	movq	(%rcx), %rcx
	movq	128(%rsi), %rax
	cmpq	%rax, %rcx
	je	.LBB20_3
	leaq	-1(,%r8,2), %r8
	xorl	%r9d, %r9d
	.p2align	4
.LBB20_2:
	leaq	1(%rcx), %r10
	cmpq	%r8, %rcx
	cmovaeq	%r9, %r10
	cmpq	%rax, %r10
	movq	%r10, %rcx
	xchgq	%r10, (%rsi)
	jne	.LBB20_2
.LBB20_3:
	movq	%rdx, %rcx
	callq	tlsf_memory_dealloc
	movq	%rsi, %rcx
	addq	$32, %rsp
	popq	%rsi
	jmp	tlsf_memory_dealloc
	.seh_endproc
	.def	std_alloc.vec.Vec.drop.7ac45d8413b9ad54;
	.scl	3;
	.type	32;
	.endef
	.p2align	4
std_alloc.vec.Vec.drop.7ac45d8413b9ad54:
.seh_proc std_alloc.vec.Vec.drop.7ac45d8413b9ad54
	pushq	%r15
	.seh_pushreg %r15
	pushq	%r14
	.seh_pushreg %r14
	pushq	%r13
	.seh_pushreg %r13
	pushq	%r12
	.seh_pushreg %r12
	pushq	%rsi
	.seh_pushreg %rsi
	pushq	%rdi
	.seh_pushreg %rdi
	pushq	%rbp
	.seh_pushreg %rbp
	pushq	%rbx
	.seh_pushreg %rbx
	subq	$136, %rsp
	.seh_stackalloc 136
	.seh_endprologue
	movq	(%rcx), %rsi
	movq	8(%rcx), %r14
	movq	16(%rcx), %rbx
	testq	%r14, %r14
	je	.LBB21_3
	leaq	96(%rsp), %r15
	leaq	48(%rsp), %r12
	xorl	%r13d, %r13d
	leaq	40(%rsp), %rdi
	.p2align	4
.LBB21_2:
	movq	(%rsi,%r13,8), %rcx
	movzwl	(%rcx), %ebp
	movups	8(%rcx), %xmm0
	movups	%xmm0, (%r15)
	movups	24(%rcx), %xmm0
	movups	%xmm0, 16(%r15)
	movq	40(%rcx), %rax
	movq	%rax, 32(%r15)
	callq	tlsf_memory_dealloc
	movq	$0, 40(%rsp)
	movw	%bp, 40(%rsp)
	movq	32(%r15), %rax
	movq	%rax, 32(%r12)
	movups	(%r15), %xmm0
	movups	16(%r15), %xmm1
	movups	%xmm1, 16(%r12)
	movups	%xmm0, (%r12)
	movq	%rdi, %rcx
	callq	tlsf_c.tlsf_c.any_end.AnyEnd.Destruct.drop
	incq	%r13
	cmpq	%r13, %r14
	jne	.LBB21_2
.LBB21_3:
	testq	%rbx, %rbx
	je	.LBB21_4
	movq	%rsi, %rcx
	addq	$136, %rsp
	popq	%rbx
	popq	%rbp
	popq	%rdi
	popq	%rsi
	popq	%r12
	popq	%r13
	popq	%r14
	popq	%r15
	jmp	tlsf_memory_dealloc
.LBB21_4:
	addq	$136, %rsp
	popq	%rbx
	popq	%rbp
	popq	%rdi
	popq	%rsi
	popq	%r12
	popq	%r13
	popq	%r14
	popq	%r15
	retq
	.seh_endproc
	.def	std_alloc.arc.Arc.drop.c4a047e811255370;
	.scl	3;
	.type	32;
	.endef
	.p2align	4
std_alloc.arc.Arc.drop.c4a047e811255370:
.seh_proc std_alloc.arc.Arc.drop.c4a047e811255370
	pushq	%rsi
	.seh_pushreg %rsi
	pushq	%rdi
	.seh_pushreg %rdi
	subq	$40, %rsp
	.seh_stackalloc 40
	.seh_endprologue
	lock		decq	(%rcx)
	jne	.LBB22_1
	movq	40(%rcx), %rsi
	movq	56(%rcx), %rdi
	callq	tlsf_memory_dealloc
	movq	%rsi, %rcx
	callq	tlsf_memory_dealloc
	movq	%rdi, %rcx
	addq	$40, %rsp
	popq	%rdi
	popq	%rsi
	jmp	tlsf_memory_dealloc
.LBB22_1:
	addq	$40, %rsp
	popq	%rdi
	popq	%rsi
	retq
	.seh_endproc
	.def	std_alloc.boxed.Box.drop.7d8ec8058c3633cd;
	.scl	3;
	.type	32;
	.endef
	.p2align	4
std_alloc.boxed.Box.drop.7d8ec8058c3633cd:
.seh_proc std_alloc.boxed.Box.drop.7d8ec8058c3633cd
	pushq	%rsi
	.seh_pushreg %rsi
	subq	$128, %rsp
	.seh_stackalloc 128
	.seh_endprologue
	movzwl	(%rcx), %esi
	movups	8(%rcx), %xmm0
	movaps	%xmm0, 32(%rsp)
	movups	24(%rcx), %xmm0
	movaps	%xmm0, 48(%rsp)
	movq	40(%rcx), %rax
	movq	%rax, 64(%rsp)
	callq	tlsf_memory_dealloc
	movq	$0, 80(%rsp)
	movw	%si, 80(%rsp)
	movaps	32(%rsp), %xmm0
	movaps	48(%rsp), %xmm1
	movups	%xmm0, 88(%rsp)
	movups	%xmm1, 104(%rsp)
	movq	64(%rsp), %rax
	movq	%rax, 120(%rsp)
	leaq	80(%rsp), %rcx
	callq	tlsf_c.tlsf_c.any_end.AnyEnd.Destruct.drop
	nop
	addq	$128, %rsp
	popq	%rsi
	retq
	.seh_endproc
	.def	tlsf_c.tlsf_c.any_end.AnyEnd.Destruct.drop;
	.scl	3;
	.type	32;
	.endef
	.p2align	4
tlsf_c.tlsf_c.any_end.AnyEnd.Destruct.drop:
.seh_proc tlsf_c.tlsf_c.any_end.AnyEnd.Destruct.drop
	pushq	%r15
	.seh_pushreg %r15
	pushq	%r14
	.seh_pushreg %r14
	pushq	%r13
	.seh_pushreg %r13
	pushq	%r12
	.seh_pushreg %r12
	pushq	%rsi
	.seh_pushreg %rsi
	pushq	%rdi
	.seh_pushreg %rdi
	pushq	%rbp
	.seh_pushreg %rbp
	pushq	%rbx
	.seh_pushreg %rbx
	subq	$136, %rsp
	.seh_stackalloc 136
	.seh_endprologue
	movq	%rcx, %rax
	movzbl	(%rcx), %r8d
	movq	8(%rcx), %rcx
	movq	16(%rax), %rdx
	movq	24(%rax), %rsi
	leaq	.LJTI24_0(%rip), %r9
	movslq	(%r9,%r8,4), %r8
	addq	%r9, %r8
	jmpq	*%r8
.LBB24_1:
	movl	$1, %eax
	xchgq	%rax, 256(%rcx)
	testq	%rax, %rax
	jne	.LBB24_3
	jmp	.LBB24_5
.LBB24_6:
	movq	32(%rax), %r15
	movq	40(%rax), %r14
	lock		decq	(%rcx)
	jne	.LBB24_8
	movq	40(%rcx), %rdi
	movq	56(%rcx), %rbx
	callq	tlsf_memory_dealloc
	movq	%rdi, %rcx
	callq	tlsf_memory_dealloc
	movq	%rbx, %rcx
	callq	tlsf_memory_dealloc
.LBB24_8:
	testq	%r15, %r15
	je	.LBB24_11
	leaq	96(%rsp), %rbx
	leaq	48(%rsp), %r12
	xorl	%r13d, %r13d
	leaq	40(%rsp), %rdi
	.p2align	4
.LBB24_10:
	movq	(%rsi,%r13,8), %rcx
	movzwl	(%rcx), %ebp
	movups	8(%rcx), %xmm0
	movups	%xmm0, (%rbx)
	movups	24(%rcx), %xmm0
	movups	%xmm0, 16(%rbx)
	movq	40(%rcx), %rax
	movq	%rax, 32(%rbx)
	callq	tlsf_memory_dealloc
	movq	$0, 40(%rsp)
	movw	%bp, 40(%rsp)
	movq	32(%rbx), %rax
	movq	%rax, 32(%r12)
	movups	(%rbx), %xmm0
	movups	16(%rbx), %xmm1
	movups	%xmm1, 16(%r12)
	movups	%xmm0, (%r12)
	movq	%rdi, %rcx
	callq	tlsf_c.tlsf_c.any_end.AnyEnd.Destruct.drop
	incq	%r13
	cmpq	%r13, %r15
	jne	.LBB24_10
.LBB24_11:
	testq	%r14, %r14
	je	.LBB24_5
	movq	%rsi, %rcx
	jmp	.LBB24_13
.LBB24_14:
	lock		decq	(%rcx)
	jne	.LBB24_5
	movq	40(%rcx), %rsi
	movq	56(%rcx), %rdi
	callq	tlsf_memory_dealloc
	movq	%rsi, %rcx
	callq	tlsf_memory_dealloc
	movq	%rdi, %rcx
.LBB24_13:
	addq	$136, %rsp
	popq	%rbx
	popq	%rbp
	popq	%rdi
	popq	%rsi
	popq	%r12
	popq	%r13
	popq	%r14
	popq	%r15
	jmp	tlsf_memory_dealloc
.LBB24_4:
	movl	$1, %eax
	xchgq	%rax, 256(%rcx)
	testq	%rax, %rax
	je	.LBB24_5
.LBB24_3:
	movq	%rsi, %r8
	addq	$136, %rsp
	popq	%rbx
	popq	%rbp
	popq	%rdi
	popq	%rsi
	popq	%r12
	popq	%r13
	popq	%r14
	popq	%r15
	jmp	rtrb.release.drop_slow.23d795680250cb0d
.LBB24_5:
	addq	$136, %rsp
	popq	%rbx
	popq	%rbp
	popq	%rdi
	popq	%rsi
	popq	%r12
	popq	%r13
	popq	%r14
	popq	%r15
	retq
	.section	.rdata,"dr"
	.p2align	2, 0x0
.LJTI24_0:
	.long	.LBB24_1-.LJTI24_0
	.long	.LBB24_4-.LJTI24_0
	.long	.LBB24_6-.LJTI24_0
	.long	.LBB24_14-.LJTI24_0
	.text
	.seh_endproc
	.def	tlsf_c.arena_slot.ArenaSlot.close;
	.scl	3;
	.type	32;
	.endef
	.p2align	4
tlsf_c.arena_slot.ArenaSlot.close:
.seh_proc tlsf_c.arena_slot.ArenaSlot.close
	pushq	%r15
	.seh_pushreg %r15
	pushq	%r14
	.seh_pushreg %r14
	pushq	%rsi
	.seh_pushreg %rsi
	pushq	%rdi
	.seh_pushreg %rdi
	pushq	%rbp
	.seh_pushreg %rbp
	pushq	%rbx
	.seh_pushreg %rbx
	subq	$88, %rsp
	.seh_stackalloc 88
	.seh_endprologue
	cmpb	$0, 8(%rcx)
	je	.LBB25_10
	movq	(%rcx), %rax
	cmpb	$1, 1(%rax)
	jne	.LBB25_10
	movb	$0, 1(%rax)
	movq	(%rcx), %rax
	xorps	%xmm0, %xmm0
	movups	%xmm0, (%rcx)
	movzbl	8(%rax), %ebp
	movq	32(%rax), %rcx
	movzbl	(%rax), %r15d
	movq	%rcx, 80(%rsp)
	movups	16(%rax), %xmm0
	movaps	%xmm0, 64(%rsp)
	movq	40(%rax), %rdi
	movq	56(%rax), %r14
	movq	64(%rax), %rsi
	movq	80(%rax), %rbx
	movq	%rax, %rcx
	callq	tlsf_memory_dealloc
	testb	%r15b, %r15b
	je	.LBB25_3
	leaq	72(%rsp), %rax
	testb	%bpl, %bpl
	je	.LBB25_8
	movups	(%rax), %xmm0
	movaps	%xmm0, 32(%rsp)
	movq	%rdi, 48(%rsp)
	leaq	32(%rsp), %rcx
	callq	std_alloc.vec.Vec.drop.1d6c342d5cae5f6b
	jmp	.LBB25_10
.LBB25_3:
	testb	%bpl, %bpl
	testq	%r14, %r14
	je	.LBB25_5
	movq	%rdi, %rcx
	callq	tlsf_memory_dealloc
.LBB25_5:
	testq	%rbx, %rbx
	je	.LBB25_10
	movq	%rsi, %rcx
	callq	tlsf_memory_dealloc
	jmp	.LBB25_10
.LBB25_8:
	movups	(%rax), %xmm0
	movaps	%xmm0, 32(%rsp)
	movq	%rdi, 48(%rsp)
	leaq	32(%rsp), %rcx
	callq	std_alloc.vec.Vec.drop.01e19ae241269710
	nop
.LBB25_10:
	addq	$88, %rsp
	popq	%rbx
	popq	%rbp
	popq	%rdi
	popq	%rsi
	popq	%r14
	popq	%r15
	retq
	.seh_endproc
	.def	std_alloc.vec.Vec.drop.01e19ae241269710;
	.scl	3;
	.type	32;
	.endef
	.p2align	4
std_alloc.vec.Vec.drop.01e19ae241269710:
.seh_proc std_alloc.vec.Vec.drop.01e19ae241269710
	pushq	%r15
	.seh_pushreg %r15
	pushq	%r14
	.seh_pushreg %r14
	pushq	%r13
	.seh_pushreg %r13
	pushq	%r12
	.seh_pushreg %r12
	pushq	%rsi
	.seh_pushreg %rsi
	pushq	%rdi
	.seh_pushreg %rdi
	pushq	%rbp
	.seh_pushreg %rbp
	pushq	%rbx
	.seh_pushreg %rbx
	subq	$56, %rsp
	.seh_stackalloc 56
	.seh_endprologue
	movq	(%rcx), %rax
	movq	%rax, 40(%rsp)
	movq	8(%rcx), %r12
	movq	16(%rcx), %rax
	movq	%rax, 48(%rsp)
	testq	%r12, %r12
	je	.LBB26_11
	movq	40(%rsp), %rax
	leaq	2784(%rax), %r13
	jmp	.LBB26_2
	.p2align	4
.LBB26_10:
	addq	$2792, %r13
	decq	%r12
	je	.LBB26_11
.LBB26_2:
	movq	-2736(%r13), %r14
	movq	-2720(%r13), %rsi
	movq	-48(%r13), %rbx
	movq	-32(%r13), %r15
	movq	-16(%r13), %rdi
	movq	(%r13), %rbp
	cmpq	$0, -2744(%r13)
	je	.LBB26_4
	movq	-2760(%r13), %rcx
	callq	tlsf_memory_dealloc
.LBB26_4:
	testq	%rsi, %rsi
	je	.LBB26_6
	movq	%r14, %rcx
	callq	tlsf_memory_dealloc
.LBB26_6:
	testq	%r15, %r15
	je	.LBB26_8
	movq	%rbx, %rcx
	callq	tlsf_memory_dealloc
.LBB26_8:
	testq	%rbp, %rbp
	je	.LBB26_10
	movq	%rdi, %rcx
	callq	tlsf_memory_dealloc
	jmp	.LBB26_10
.LBB26_11:
	cmpq	$0, 48(%rsp)
	je	.LBB26_12
	movq	40(%rsp), %rcx
	addq	$56, %rsp
	popq	%rbx
	popq	%rbp
	popq	%rdi
	popq	%rsi
	popq	%r12
	popq	%r13
	popq	%r14
	popq	%r15
	jmp	tlsf_memory_dealloc
.LBB26_12:
	addq	$56, %rsp
	popq	%rbx
	popq	%rbp
	popq	%rdi
	popq	%rsi
	popq	%r12
	popq	%r13
	popq	%r14
	popq	%r15
	retq
	.seh_endproc
	.def	std_alloc.vec.Vec.drop.1d6c342d5cae5f6b;
	.scl	3;
	.type	32;
	.endef
	.p2align	4
std_alloc.vec.Vec.drop.1d6c342d5cae5f6b:
.seh_proc std_alloc.vec.Vec.drop.1d6c342d5cae5f6b
	pushq	%r15
	.seh_pushreg %r15
	pushq	%r14
	.seh_pushreg %r14
	pushq	%r13
	.seh_pushreg %r13
	pushq	%r12
	.seh_pushreg %r12
	pushq	%rsi
	.seh_pushreg %rsi
	pushq	%rdi
	.seh_pushreg %rdi
	pushq	%rbp
	.seh_pushreg %rbp
	pushq	%rbx
	.seh_pushreg %rbx
	subq	$56, %rsp
	.seh_stackalloc 56
	.seh_endprologue
	movq	(%rcx), %rax
	movq	%rax, 40(%rsp)
	movq	8(%rcx), %r12
	movq	16(%rcx), %rax
	movq	%rax, 48(%rsp)
	testq	%r12, %r12
	je	.LBB27_11
	movq	40(%rsp), %rax
	leaq	2784(%rax), %r13
	jmp	.LBB27_2
	.p2align	4
.LBB27_10:
	addq	$2792, %r13
	decq	%r12
	je	.LBB27_11
.LBB27_2:
	movq	-2736(%r13), %r14
	movq	-2720(%r13), %rsi
	movq	-48(%r13), %rbx
	movq	-32(%r13), %r15
	movq	-16(%r13), %rdi
	movq	(%r13), %rbp
	cmpq	$0, -2744(%r13)
	je	.LBB27_4
	movq	-2760(%r13), %rcx
	callq	tlsf_memory_dealloc
.LBB27_4:
	testq	%rsi, %rsi
	je	.LBB27_6
	movq	%r14, %rcx
	callq	tlsf_memory_dealloc
.LBB27_6:
	testq	%r15, %r15
	je	.LBB27_8
	movq	%rbx, %rcx
	callq	tlsf_memory_dealloc
.LBB27_8:
	testq	%rbp, %rbp
	je	.LBB27_10
	movq	%rdi, %rcx
	callq	tlsf_memory_dealloc
	jmp	.LBB27_10
.LBB27_11:
	cmpq	$0, 48(%rsp)
	je	.LBB27_12
	movq	40(%rsp), %rcx
	addq	$56, %rsp
	popq	%rbx
	popq	%rbp
	popq	%rdi
	popq	%rsi
	popq	%r12
	popq	%r13
	popq	%r14
	popq	%r15
	jmp	tlsf_memory_dealloc
.LBB27_12:
	addq	$56, %rsp
	popq	%rbx
	popq	%rbp
	popq	%rdi
	popq	%rsi
	popq	%r12
	popq	%r13
	popq	%r14
	popq	%r15
	retq
	.seh_endproc
	.def	std_alloc.vec.Vec.grow_amortized.1345b5ed95b64201;
	.scl	3;
	.type	32;
	.endef
	.p2align	4
std_alloc.vec.Vec.grow_amortized.1345b5ed95b64201:
.seh_proc std_alloc.vec.Vec.grow_amortized.1345b5ed95b64201
	pushq	%r14
	.seh_pushreg %r14
	pushq	%rsi
	.seh_pushreg %rsi
	pushq	%rdi
	.seh_pushreg %rdi
	pushq	%rbx
	.seh_pushreg %rbx
	subq	$168, %rsp
	.seh_stackalloc 168
	movaps	%xmm15, 144(%rsp)
	.seh_savexmm %xmm15, 144
	movaps	%xmm14, 128(%rsp)
	.seh_savexmm %xmm14, 128
	movaps	%xmm13, 112(%rsp)
	.seh_savexmm %xmm13, 112
	movaps	%xmm12, 96(%rsp)
	.seh_savexmm %xmm12, 96
	movaps	%xmm11, 80(%rsp)
	.seh_savexmm %xmm11, 80
	movaps	%xmm10, 64(%rsp)
	.seh_savexmm %xmm10, 64
	movaps	%xmm9, 48(%rsp)
	.seh_savexmm %xmm9, 48
	movaps	%xmm8, 32(%rsp)
	.seh_savexmm %xmm8, 32
	movaps	%xmm7, 16(%rsp)
	.seh_savexmm %xmm7, 16
	movaps	%xmm6, (%rsp)
	.seh_savexmm %xmm6, 0
	.seh_endprologue
	movq	8(%rcx), %rsi
	addq	%rsi, %rdx
	jb	.LBB28_1
	movq	16(%rcx), %rax
	cmpq	$5, %rdx
	movl	$4, %ebx
	cmovaeq	%rdx, %rbx
	movq	%rax, %rdx
	shrq	$62, %rdx
	leaq	(%rax,%rax), %rdi
	cmpq	%rdi, %rbx
	cmovaq	%rbx, %rdi
	testq	%rdx, %rdx
	cmoveq	%rdi, %rbx
	movq	%rbx, %rdx
	shrq	$60, %rdx
	jne	.LBB28_1
	testq	%rax, %rax
	je	.LBB28_6
	movq	%rcx, %r14
	movq	(%rcx), %rdi
	shlq	$3, %rsi
	leaq	(,%rbx,8), %rdx
	movl	$8, %ecx
	callq	tlsf_memory_realloc
	testb	$1, %al
	je	.LBB28_1
.LBB28_8:
	movq	%rdx, (%r14)
	movq	%rbx, 16(%r14)
	movb	$1, %al
	jmp	.LBB28_2
.LBB28_6:
	movq	%rcx, %r14
	shlq	$3, %rdi
	movl	$8, %esi
	callq	tlsf_memory_alloc
	testb	$1, %al
	jne	.LBB28_8
.LBB28_1:
	xorl	%eax, %eax
.LBB28_2:
	movaps	(%rsp), %xmm6
	movaps	16(%rsp), %xmm7
	movaps	32(%rsp), %xmm8
	movaps	48(%rsp), %xmm9
	movaps	64(%rsp), %xmm10
	movaps	80(%rsp), %xmm11
	movaps	96(%rsp), %xmm12
	movaps	112(%rsp), %xmm13
	movaps	128(%rsp), %xmm14
	movaps	144(%rsp), %xmm15
	addq	$168, %rsp
	popq	%rbx
	popq	%rdi
	popq	%rsi
	popq	%r14
	retq
	.seh_endproc
	.def	tlsf_words.words.Words.lengthen;
	.scl	3;
	.type	32;
	.endef
	.p2align	4
tlsf_words.words.Words.lengthen:
.seh_proc tlsf_words.words.Words.lengthen
	pushq	%r15
	.seh_pushreg %r15
	pushq	%r14
	.seh_pushreg %r14
	pushq	%rsi
	.seh_pushreg %rsi
	pushq	%rdi
	.seh_pushreg %rdi
	pushq	%rbx
	.seh_pushreg %rbx
	subq	$32, %rsp
	.seh_stackalloc 32
	.seh_endprologue
	movl	%edx, %esi
	movq	%rcx, %rdi
	movl	%edx, %ecx
	movq	8(%rdi), %rax
	movq	%rcx, %r8
	subq	%rax, %r8
	jbe	.LBB29_1
	movq	16(%rdi), %rbx
	movq	%rbx, %rcx
	subq	%rax, %rcx
	cmpq	%rcx, %r8
	ja	.LBB29_4
	leaq	(%rax,%r8), %r14
	movq	(%rdi), %r15
	cmpq	%r14, %rax
	jae	.LBB29_8
.LBB29_7:
	leaq	(%r15,%rax,8), %rcx
	shlq	$3, %r8
	xorl	%edx, %edx
	callq	tlsf_memory_set
.LBB29_8:
	movq	%r15, (%rdi)
	movq	%r14, 8(%rdi)
	movq	%rbx, 16(%rdi)
	jmp	.LBB29_9
.LBB29_1:
	jae	.LBB29_9
	movq	%rcx, 8(%rdi)
.LBB29_9:
	cmpq	$0, 32(%rdi)
	je	.LBB29_11
	movq	$0, 32(%rdi)
.LBB29_11:
	movl	%esi, %r8d
	shrl	$6, %r8d
	movl	%esi, %eax
	andl	$63, %eax
	cmpl	$1, %eax
	sbbl	$-1, %r8d
	testl	%esi, %esi
	je	.LBB29_19
	movq	40(%rdi), %rbx
	cmpq	%r8, %rbx
	jb	.LBB29_14
	xorl	%eax, %eax
	leaq	(%rax,%r8), %r14
	movq	24(%rdi), %r15
	cmpq	%r14, %rax
	jae	.LBB29_18
.LBB29_17:
	leaq	(%r15,%rax,8), %rcx
	shlq	$3, %r8
	xorl	%edx, %edx
	callq	tlsf_memory_set
.LBB29_18:
	movq	%r15, 24(%rdi)
	movq	%r14, 32(%rdi)
	movq	%rbx, 40(%rdi)
.LBB29_19:
	movl	%esi, 48(%rdi)
	addq	$32, %rsp
	popq	%rbx
	popq	%rdi
	popq	%rsi
	popq	%r14
	popq	%r15
	retq
.LBB29_14:
	leaq	24(%rdi), %rcx
	movq	%r8, %r14
	movq	%r8, %rdx
	callq	std_alloc.vec.Vec.grow_amortized.1345b5ed95b64201
	testb	%al, %al
	je	.LBB29_20
	movq	32(%rdi), %rax
	movq	40(%rdi), %rbx
	movq	%r14, %r8
	leaq	(%rax,%r8), %r14
	movq	24(%rdi), %r15
	cmpq	%r14, %rax
	jb	.LBB29_17
	jmp	.LBB29_18
.LBB29_4:
	movq	%rdi, %rcx
	movq	%r8, %r14
	movq	%r8, %rdx
	callq	std_alloc.vec.Vec.grow_amortized.1345b5ed95b64201
	testb	%al, %al
	je	.LBB29_20
	movq	8(%rdi), %rax
	movq	16(%rdi), %rbx
	movq	%r14, %r8
	leaq	(%rax,%r8), %r14
	movq	(%rdi), %r15
	cmpq	%r14, %rax
	jb	.LBB29_7
	jmp	.LBB29_8
.LBB29_20:
	ud2
	.seh_endproc
	.def	tlsf_pool.sizes.split.rising_split.4;
	.scl	3;
	.type	32;
	.endef
	.p2align	4
tlsf_pool.sizes.split.rising_split.4:
.seh_proc tlsf_pool.sizes.split.rising_split.4
	pushq	%r15
	.seh_pushreg %r15
	pushq	%r14
	.seh_pushreg %r14
	pushq	%r13
	.seh_pushreg %r13
	pushq	%r12
	.seh_pushreg %r12
	pushq	%rsi
	.seh_pushreg %rsi
	pushq	%rdi
	.seh_pushreg %rdi
	pushq	%rbp
	.seh_pushreg %rbp
	pushq	%rbx
	.seh_pushreg %rbx
	subq	$1528, %rsp
	.seh_stackalloc 1528
	.seh_endprologue
	movq	%r8, %rbx
	movq	%rdx, 64(%rsp)
	movq	%rcx, %rdi
	cmpq	$2, %r8
	jb	.LBB30_20
	movl	$1, %eax
	movq	64(%rsp), %rdx
	.p2align	4
.LBB30_2:
	movl	4(%rdx,%rax,8), %ecx
	cmpl	-4(%rdx,%rax,8), %ecx
	jbe	.LBB30_18
	incq	%rax
	cmpq	%rax, %rbx
	jne	.LBB30_2
	leaq	228(%rsp), %rcx
	movl	$1300, %r8d
	xorl	%edx, %edx
	callq	tlsf_memory_set
	jmp	.LBB30_5
.LBB30_20:
	xorl	%esi, %esi
	leaq	228(%rsp), %rcx
	movl	$1300, %r8d
	xorl	%edx, %edx
	callq	tlsf_memory_set
	testq	%rbx, %rbx
	je	.LBB30_21
.LBB30_5:
	movq	%rdi, 72(%rsp)
	leaq	(,%rbx,4), %rax
	leaq	(%rax,%rax,4), %r14
	xorl	%esi, %esi
	leaq	228(%rsp), %rcx
	xorl	%edx, %edx
	movq	%r14, %r8
	callq	tlsf_memory_set
	movl	$1, 228(%rsp,%r14)
	pxor	%xmm0, %xmm0
	movdqu	%xmm0, 232(%rsp,%r14)
	leaq	192(%rsp), %rdx
	leaq	196(%rsp), %r10
	movq	64(%rsp), %rax
	leaq	4(%rax), %rcx
	movq	%rcx, 128(%rsp)
	addq	$24, %rax
	movq	%rax, 120(%rsp)
	movq	%rbx, 144(%rsp)
	jmp	.LBB30_6
	.p2align	4
.LBB30_44:
	movq	136(%rsp), %rsi
	incq	%rsi
	cmpq	$8, %rsi
	je	.LBB30_45
.LBB30_6:
	movq	%rsi, 136(%rsp)
	movq	64(%rsp), %r12
	movq	120(%rsp), %r13
	movq	128(%rsp), %rbp
	xorl	%ecx, %ecx
	jmp	.LBB30_7
	.p2align	4
.LBB30_43:
	movq	40(%rsp), %rax
	movl	%eax, 192(%rsp)
	movzbl	%r11b, %eax
	leaq	192(%rsp), %rdx
	movdqu	(%rdx), %xmm1
	movdqa	%xmm1, 208(%rsp)
	movq	152(%rsp), %rcx
	leaq	(%rcx,%rcx,4), %rcx
	movl	%eax, 228(%rsp,%rcx,4)
	movdqu	%xmm1, 232(%rsp,%rcx,4)
	addq	$8, %rbp
	addq	$8, %r13
	addq	$8, %r12
	movq	160(%rsp), %rax
	movq	%rax, %rcx
	movq	144(%rsp), %rbx
	cmpq	%rbx, %rax
	je	.LBB30_44
.LBB30_7:
	leaq	1(%rcx), %rax
	movq	%rax, 160(%rsp)
	leaq	(%rax,%rax,4), %rax
	leaq	(%rsp,%rax,4), %rdi
	addq	$228, %rdi
	movq	%rbx, %r8
	subq	%rcx, %r8
	movq	64(%rsp), %rax
	movq	%rcx, 152(%rsp)
	leaq	(%rax,%rcx,8), %rax
	movq	%rax, 176(%rsp)
	movdqu	%xmm0, (%rdx)
	movq	$0, 40(%rsp)
	movl	$1, %r15d
	xorl	%r11d, %r11d
	xorl	%ebx, %ebx
	movq	%rdi, 168(%rsp)
	movq	%r8, 80(%rsp)
	jmp	.LBB30_8
	.p2align	4
.LBB30_35:
	movdqa	%xmm0, 96(%rsp)
	movl	$0, 112(%rsp)
	testb	%r11b, %r11b
	je	.LBB30_36
	movb	$1, %r11b
	movq	%r10, %rax
.LBB30_42:
	movq	(%rax), %rcx
	movl	8(%rax), %eax
	movl	%eax, 8(%r10)
	movq	%rcx, (%r10)
	incq	%r15
	cmpq	%r8, %rbx
	je	.LBB30_43
.LBB30_8:
	movq	%rbx, %r14
	movq	%r15, %rcx
	andq	$-2, %rcx
	movl	%r15d, %eax
	andl	$3, %eax
	movq	%r15, %rdx
	andq	$-4, %rdx
	incq	%rbx
	leaq	(%r14,%r14,4), %r9
	leaq	(%rdi,%r9,4), %rsi
	movq	$-1, %r9
	.p2align	4
.LBB30_9:
	cmpl	$8388585, 8(%rbp,%r9,8)
	jae	.LBB30_35
	incq	%r9
	cmpq	%r9, %r14
	jne	.LBB30_9
	movq	%rsi, 88(%rsp)
	movl	%r11d, %esi
	xorl	%r9d, %r9d
	xorl	%r11d, %r11d
	cmpq	$3, %r14
	jb	.LBB30_14
	.p2align	4
.LBB30_12:
	movl	-24(%r13,%r11,8), %edi
	movl	-16(%r13,%r11,8), %r8d
	addq	%r9, %rdi
	movl	-8(%r13,%r11,8), %r10d
	addq	%r8, %r10
	addq	%rdi, %r10
	movl	(%r13,%r11,8), %r9d
	addq	%r10, %r9
	addq	$4, %r11
	cmpq	%r11, %rdx
	jne	.LBB30_12
	testb	$3, %bl
	leaq	196(%rsp), %r10
	movq	168(%rsp), %rdi
	je	.LBB30_16
.LBB30_14:
	leaq	(%r12,%r11,8), %rdx
	xorl	%r11d, %r11d
	.p2align	4
.LBB30_15:
	movl	(%rdx,%r11,8), %r8d
	addq	%r8, %r9
	incq	%r11
	cmpq	%r11, %rax
	jne	.LBB30_15
.LBB30_16:
	xorl	%eax, %eax
	xorl	%edx, %edx
	testq	%r14, %r14
	je	.LBB30_17
	movl	%esi, %r11d
	movq	88(%rsp), %rsi
	jmp	.LBB30_23
	.p2align	4
.LBB30_27:
	addq	$2, %rdx
	cmpq	%rdx, %rcx
	je	.LBB30_28
.LBB30_23:
	cmpl	$0, (%r12,%rdx,8)
	je	.LBB30_25
	movl	4(%r12,%rdx,8), %r8d
	cmpl	%eax, %r8d
	cmoval	%r8d, %eax
.LBB30_25:
	cmpl	$0, 8(%r12,%rdx,8)
	je	.LBB30_27
	movl	12(%r12,%rdx,8), %r8d
	cmpl	%eax, %r8d
	cmoval	%r8d, %eax
	jmp	.LBB30_27
	.p2align	4
.LBB30_28:
	testb	$1, %bl
	movq	80(%rsp), %r8
	je	.LBB30_31
	movq	176(%rsp), %rcx
	cmpl	$0, (%rcx,%rdx,8)
	je	.LBB30_31
.LBB30_30:
	movl	4(%rcx,%rdx,8), %ecx
	cmpl	%eax, %ecx
	cmoval	%ecx, %eax
.LBB30_31:
	movl	%eax, %edx
	cmpl	$1, %eax
	adcq	$31, %rdx
	shrq	$3, %rdx
	movl	%edx, %eax
	orl	$16, %eax
	bsrl	%eax, %ecx
	addl	$-4, %ecx
	decl	%edx
	shrl	%cl, %edx
	shll	$4, %ecx
	leal	(%rdx,%rcx), %eax
	incl	%eax
	movl	%eax, %ecx
	shrl	$4, %ecx
	je	.LBB30_33
	movl	$8, %eax
	shll	%cl, %eax
	incl	%edx
	andl	$15, %edx
	decb	%cl
	shll	%cl, %edx
	addl	%eax, %edx
	movl	%edx, %eax
.LBB30_33:
	movl	%eax, %eax
	imulq	%rax, %r9
	cmpq	$1048576, %r9
	ja	.LBB30_35
	cmpb	$1, (%rsi)
	jne	.LBB30_35
	cmpq	$5, %r9
	movl	$4, %eax
	cmovbq	%rax, %r9
	movdqu	4(%rsi), %xmm1
	movdqa	%xmm1, 48(%rsp)
	movzbl	52(%rsp), %eax
	movb	%bl, 53(%rsp,%rax)
	incl	%eax
	movb	%al, 52(%rsp)
	addl	%r9d, 48(%rsp)
	movl	48(%rsp), %eax
	leaq	100(%rsp), %rcx
	movl	%eax, (%rcx)
	movzbl	52(%rsp), %eax
	movb	%al, 4(%rcx)
	movq	53(%rsp), %rax
	movq	%rax, 5(%rcx)
	movzwl	61(%rsp), %eax
	movw	%ax, 13(%rcx)
	movzbl	63(%rsp), %eax
	movb	%al, 15(%rcx)
	movl	100(%rsp), %ecx
	testb	%r11b, %r11b
	je	.LBB30_38
	movq	40(%rsp), %rdx
	cmpl	%edx, %ecx
	movq	%r10, %rax
	leaq	104(%rsp), %r9
	cmovbq	%r9, %rax
	cmovbl	%ecx, %edx
	movq	%rdx, 40(%rsp)
	jmp	.LBB30_41
	.p2align	4
.LBB30_36:
	movq	$0, 40(%rsp)
	leaq	104(%rsp), %rax
	xorl	%r11d, %r11d
	jmp	.LBB30_42
.LBB30_17:
	movq	80(%rsp), %r8
	movl	%esi, %r11d
	movq	88(%rsp), %rsi
	movq	176(%rsp), %rcx
	cmpl	$0, (%rcx,%rdx,8)
	jne	.LBB30_30
	jmp	.LBB30_31
.LBB30_38:
	leaq	104(%rsp), %rax
	movq	%rcx, 40(%rsp)
.LBB30_41:
	movb	$1, %r11b
	jmp	.LBB30_42
.LBB30_45:
	movzbl	228(%rsp), %ecx
	cmpb	$1, %cl
	jne	.LBB30_46
	movzbl	244(%rsp), %esi
	movzwl	242(%rsp), %eax
	movd	%eax, %xmm2
	movd	240(%rsp), %xmm1
	movzwl	238(%rsp), %eax
	movd	%eax, %xmm3
	movd	236(%rsp), %xmm0
	movl	232(%rsp), %eax
	pxor	%xmm4, %xmm4
	punpcklbw	%xmm4, %xmm0
	punpcklwd	%xmm4, %xmm0
	punpckldq	%xmm4, %xmm0
	punpcklbw	%xmm4, %xmm3
	punpcklwd	%xmm4, %xmm3
	punpckldq	%xmm4, %xmm3
	punpcklbw	%xmm4, %xmm1
	punpcklwd	%xmm4, %xmm1
	punpckldq	%xmm4, %xmm1
	punpcklbw	%xmm4, %xmm2
	punpcklwd	%xmm4, %xmm2
	punpckldq	%xmm4, %xmm2
	movb	$1, %cl
	jmp	.LBB30_48
.LBB30_46:
	pxor	%xmm0, %xmm0
	xorl	%esi, %esi
	xorl	%eax, %eax
	pxor	%xmm3, %xmm3
	pxor	%xmm1, %xmm1
	pxor	%xmm2, %xmm2
.LBB30_48:
	movq	72(%rsp), %rdi
	jmp	.LBB30_49
.LBB30_18:
	xorps	%xmm0, %xmm0
	movups	%xmm0, 64(%rdi)
	movups	%xmm0, 48(%rdi)
	movups	%xmm0, 32(%rdi)
	movups	%xmm0, 16(%rdi)
	movups	%xmm0, (%rdi)
	movq	$0, 80(%rdi)
	jmp	.LBB30_19
.LBB30_21:
	pxor	%xmm0, %xmm0
	movb	$1, %cl
	xorl	%eax, %eax
	pxor	%xmm3, %xmm3
	pxor	%xmm1, %xmm1
	pxor	%xmm2, %xmm2
.LBB30_49:
	movzbl	%cl, %ecx
	movq	%rcx, (%rdi)
	movdqu	%xmm0, 8(%rdi)
	movdqu	%xmm3, 24(%rdi)
	movdqu	%xmm1, 40(%rdi)
	movdqu	%xmm2, 56(%rdi)
	movq	%rsi, 72(%rdi)
	movq	%rax, 80(%rdi)
.LBB30_19:
	addq	$1528, %rsp
	popq	%rbx
	popq	%rbp
	popq	%rdi
	popq	%rsi
	popq	%r12
	popq	%r13
	popq	%r14
	popq	%r15
	retq
	.seh_endproc
	.def	std_alloc.vec.Vec.grow_amortized.8f83c87fc5454f35;
	.scl	3;
	.type	32;
	.endef
	.p2align	4
std_alloc.vec.Vec.grow_amortized.8f83c87fc5454f35:
.seh_proc std_alloc.vec.Vec.grow_amortized.8f83c87fc5454f35
	pushq	%r14
	.seh_pushreg %r14
	pushq	%rsi
	.seh_pushreg %rsi
	pushq	%rdi
	.seh_pushreg %rdi
	pushq	%rbx
	.seh_pushreg %rbx
	subq	$168, %rsp
	.seh_stackalloc 168
	movaps	%xmm15, 144(%rsp)
	.seh_savexmm %xmm15, 144
	movaps	%xmm14, 128(%rsp)
	.seh_savexmm %xmm14, 128
	movaps	%xmm13, 112(%rsp)
	.seh_savexmm %xmm13, 112
	movaps	%xmm12, 96(%rsp)
	.seh_savexmm %xmm12, 96
	movaps	%xmm11, 80(%rsp)
	.seh_savexmm %xmm11, 80
	movaps	%xmm10, 64(%rsp)
	.seh_savexmm %xmm10, 64
	movaps	%xmm9, 48(%rsp)
	.seh_savexmm %xmm9, 48
	movaps	%xmm8, 32(%rsp)
	.seh_savexmm %xmm8, 32
	movaps	%xmm7, 16(%rsp)
	.seh_savexmm %xmm7, 16
	movaps	%xmm6, (%rsp)
	.seh_savexmm %xmm6, 0
	.seh_endprologue
	movq	8(%rcx), %rax
	cmpq	$-1, %rax
	je	.LBB31_1
	movq	16(%rcx), %rdx
	leaq	1(%rax), %rbx
	movq	%rdx, %r9
	shrq	$62, %r9
	leaq	(%rdx,%rdx), %r8
	cmpq	%r8, %rbx
	cmovaq	%rbx, %r8
	testq	%r9, %r9
	cmoveq	%r8, %rbx
	movabsq	$3303500013200134, %r9
	cmpq	%r9, %rbx
	ja	.LBB31_1
	testq	%rdx, %rdx
	je	.LBB31_6
	movq	%rcx, %r14
	movq	(%rcx), %rdi
	imulq	$2792, %rax, %rsi
	imulq	$2792, %rbx, %rdx
	movl	$8, %ecx
	callq	tlsf_memory_realloc
	testb	$1, %al
	je	.LBB31_1
.LBB31_8:
	movq	%rdx, (%r14)
	movq	%rbx, 16(%r14)
	movb	$1, %al
	jmp	.LBB31_2
.LBB31_6:
	movq	%rcx, %r14
	imulq	$2792, %r8, %rdi
	movl	$8, %esi
	callq	tlsf_memory_alloc
	testb	$1, %al
	jne	.LBB31_8
.LBB31_1:
	xorl	%eax, %eax
.LBB31_2:
	movaps	(%rsp), %xmm6
	movaps	16(%rsp), %xmm7
	movaps	32(%rsp), %xmm8
	movaps	48(%rsp), %xmm9
	movaps	64(%rsp), %xmm10
	movaps	80(%rsp), %xmm11
	movaps	96(%rsp), %xmm12
	movaps	112(%rsp), %xmm13
	movaps	128(%rsp), %xmm14
	movaps	144(%rsp), %xmm15
	addq	$168, %rsp
	popq	%rbx
	popq	%rdi
	popq	%rsi
	popq	%r14
	retq
	.seh_endproc
	.def	tlsf_pool.sizes.split.rising_split.5;
	.scl	3;
	.type	32;
	.endef
	.p2align	4
tlsf_pool.sizes.split.rising_split.5:
.seh_proc tlsf_pool.sizes.split.rising_split.5
	pushq	%r15
	.seh_pushreg %r15
	pushq	%r14
	.seh_pushreg %r14
	pushq	%r13
	.seh_pushreg %r13
	pushq	%r12
	.seh_pushreg %r12
	pushq	%rsi
	.seh_pushreg %rsi
	pushq	%rdi
	.seh_pushreg %rdi
	pushq	%rbp
	.seh_pushreg %rbp
	pushq	%rbx
	.seh_pushreg %rbx
	subq	$1528, %rsp
	.seh_stackalloc 1528
	.seh_endprologue
	movq	%r8, %rbx
	movq	%rdx, 64(%rsp)
	movq	%rcx, %rdi
	cmpq	$2, %r8
	jb	.LBB32_20
	movl	$1, %eax
	movq	64(%rsp), %rdx
	.p2align	4
.LBB32_2:
	movl	4(%rdx,%rax,8), %ecx
	cmpl	-4(%rdx,%rax,8), %ecx
	jbe	.LBB32_18
	incq	%rax
	cmpq	%rax, %rbx
	jne	.LBB32_2
	leaq	228(%rsp), %rcx
	movl	$1300, %r8d
	xorl	%edx, %edx
	callq	tlsf_memory_set
	jmp	.LBB32_5
.LBB32_20:
	xorl	%esi, %esi
	leaq	228(%rsp), %rcx
	movl	$1300, %r8d
	xorl	%edx, %edx
	callq	tlsf_memory_set
	testq	%rbx, %rbx
	je	.LBB32_21
.LBB32_5:
	movq	%rdi, 72(%rsp)
	leaq	(,%rbx,4), %rax
	leaq	(%rax,%rax,4), %r14
	xorl	%esi, %esi
	leaq	228(%rsp), %rcx
	xorl	%edx, %edx
	movq	%r14, %r8
	callq	tlsf_memory_set
	movl	$1, 228(%rsp,%r14)
	pxor	%xmm0, %xmm0
	movdqu	%xmm0, 232(%rsp,%r14)
	leaq	192(%rsp), %rdx
	leaq	196(%rsp), %r10
	movq	64(%rsp), %rax
	leaq	4(%rax), %rcx
	movq	%rcx, 128(%rsp)
	addq	$24, %rax
	movq	%rax, 120(%rsp)
	movq	%rbx, 144(%rsp)
	jmp	.LBB32_6
	.p2align	4
.LBB32_44:
	movq	136(%rsp), %rsi
	incq	%rsi
	cmpq	$8, %rsi
	je	.LBB32_45
.LBB32_6:
	movq	%rsi, 136(%rsp)
	movq	64(%rsp), %r12
	movq	120(%rsp), %r13
	movq	128(%rsp), %rbp
	xorl	%ecx, %ecx
	jmp	.LBB32_7
	.p2align	4
.LBB32_43:
	movq	40(%rsp), %rax
	movl	%eax, 192(%rsp)
	movzbl	%r11b, %eax
	leaq	192(%rsp), %rdx
	movdqu	(%rdx), %xmm1
	movdqa	%xmm1, 208(%rsp)
	movq	152(%rsp), %rcx
	leaq	(%rcx,%rcx,4), %rcx
	movl	%eax, 228(%rsp,%rcx,4)
	movdqu	%xmm1, 232(%rsp,%rcx,4)
	addq	$8, %rbp
	addq	$8, %r13
	addq	$8, %r12
	movq	160(%rsp), %rax
	movq	%rax, %rcx
	movq	144(%rsp), %rbx
	cmpq	%rbx, %rax
	je	.LBB32_44
.LBB32_7:
	leaq	1(%rcx), %rax
	movq	%rax, 160(%rsp)
	leaq	(%rax,%rax,4), %rax
	leaq	(%rsp,%rax,4), %rdi
	addq	$228, %rdi
	movq	%rbx, %r8
	subq	%rcx, %r8
	movq	64(%rsp), %rax
	movq	%rcx, 152(%rsp)
	leaq	(%rax,%rcx,8), %rax
	movq	%rax, 176(%rsp)
	movdqu	%xmm0, (%rdx)
	movq	$0, 40(%rsp)
	movl	$1, %r15d
	xorl	%r11d, %r11d
	xorl	%ebx, %ebx
	movq	%rdi, 168(%rsp)
	movq	%r8, 80(%rsp)
	jmp	.LBB32_8
	.p2align	4
.LBB32_35:
	movdqa	%xmm0, 96(%rsp)
	movl	$0, 112(%rsp)
	testb	%r11b, %r11b
	je	.LBB32_36
	movb	$1, %r11b
	movq	%r10, %rax
.LBB32_42:
	movq	(%rax), %rcx
	movl	8(%rax), %eax
	movl	%eax, 8(%r10)
	movq	%rcx, (%r10)
	incq	%r15
	cmpq	%r8, %rbx
	je	.LBB32_43
.LBB32_8:
	movq	%rbx, %r14
	movq	%r15, %rcx
	andq	$-2, %rcx
	movl	%r15d, %eax
	andl	$3, %eax
	movq	%r15, %rdx
	andq	$-4, %rdx
	incq	%rbx
	leaq	(%r14,%r14,4), %r9
	leaq	(%rdi,%r9,4), %rsi
	movq	$-1, %r9
	.p2align	4
.LBB32_9:
	cmpl	$134217705, 8(%rbp,%r9,8)
	jae	.LBB32_35
	incq	%r9
	cmpq	%r9, %r14
	jne	.LBB32_9
	movq	%rsi, 88(%rsp)
	movl	%r11d, %esi
	xorl	%r9d, %r9d
	xorl	%r11d, %r11d
	cmpq	$3, %r14
	jb	.LBB32_14
	.p2align	4
.LBB32_12:
	movl	-24(%r13,%r11,8), %edi
	movl	-16(%r13,%r11,8), %r8d
	addq	%r9, %rdi
	movl	-8(%r13,%r11,8), %r10d
	addq	%r8, %r10
	addq	%rdi, %r10
	movl	(%r13,%r11,8), %r9d
	addq	%r10, %r9
	addq	$4, %r11
	cmpq	%r11, %rdx
	jne	.LBB32_12
	testb	$3, %bl
	leaq	196(%rsp), %r10
	movq	168(%rsp), %rdi
	je	.LBB32_16
.LBB32_14:
	leaq	(%r12,%r11,8), %rdx
	xorl	%r11d, %r11d
	.p2align	4
.LBB32_15:
	movl	(%rdx,%r11,8), %r8d
	addq	%r8, %r9
	incq	%r11
	cmpq	%r11, %rax
	jne	.LBB32_15
.LBB32_16:
	xorl	%eax, %eax
	xorl	%edx, %edx
	testq	%r14, %r14
	je	.LBB32_17
	movl	%esi, %r11d
	movq	88(%rsp), %rsi
	jmp	.LBB32_23
	.p2align	4
.LBB32_27:
	addq	$2, %rdx
	cmpq	%rdx, %rcx
	je	.LBB32_28
.LBB32_23:
	cmpl	$0, (%r12,%rdx,8)
	je	.LBB32_25
	movl	4(%r12,%rdx,8), %r8d
	cmpl	%eax, %r8d
	cmoval	%r8d, %eax
.LBB32_25:
	cmpl	$0, 8(%r12,%rdx,8)
	je	.LBB32_27
	movl	12(%r12,%rdx,8), %r8d
	cmpl	%eax, %r8d
	cmoval	%r8d, %eax
	jmp	.LBB32_27
	.p2align	4
.LBB32_28:
	testb	$1, %bl
	movq	80(%rsp), %r8
	je	.LBB32_31
	movq	176(%rsp), %rcx
	cmpl	$0, (%rcx,%rdx,8)
	je	.LBB32_31
.LBB32_30:
	movl	4(%rcx,%rdx,8), %ecx
	cmpl	%eax, %ecx
	cmoval	%ecx, %eax
.LBB32_31:
	movl	%eax, %edx
	cmpl	$1, %eax
	adcq	$31, %rdx
	shrq	$3, %rdx
	movl	%edx, %eax
	orl	$32, %eax
	bsrl	%eax, %ecx
	addl	$-5, %ecx
	decl	%edx
	shrl	%cl, %edx
	shll	$5, %ecx
	leal	(%rdx,%rcx), %eax
	incl	%eax
	movl	%eax, %ecx
	shrl	$5, %ecx
	je	.LBB32_33
	movl	$16, %eax
	shll	%cl, %eax
	incl	%edx
	andl	$31, %edx
	decb	%cl
	shll	%cl, %edx
	addl	%eax, %edx
	movl	%edx, %eax
.LBB32_33:
	movl	%eax, %eax
	imulq	%rax, %r9
	cmpq	$16777216, %r9
	ja	.LBB32_35
	cmpb	$1, (%rsi)
	jne	.LBB32_35
	cmpq	$5, %r9
	movl	$4, %eax
	cmovbq	%rax, %r9
	movdqu	4(%rsi), %xmm1
	movdqa	%xmm1, 48(%rsp)
	movzbl	52(%rsp), %eax
	movb	%bl, 53(%rsp,%rax)
	incl	%eax
	movb	%al, 52(%rsp)
	addl	%r9d, 48(%rsp)
	movl	48(%rsp), %eax
	leaq	100(%rsp), %rcx
	movl	%eax, (%rcx)
	movzbl	52(%rsp), %eax
	movb	%al, 4(%rcx)
	movq	53(%rsp), %rax
	movq	%rax, 5(%rcx)
	movzwl	61(%rsp), %eax
	movw	%ax, 13(%rcx)
	movzbl	63(%rsp), %eax
	movb	%al, 15(%rcx)
	movl	100(%rsp), %ecx
	testb	%r11b, %r11b
	je	.LBB32_38
	movq	40(%rsp), %rdx
	cmpl	%edx, %ecx
	movq	%r10, %rax
	leaq	104(%rsp), %r9
	cmovbq	%r9, %rax
	cmovbl	%ecx, %edx
	movq	%rdx, 40(%rsp)
	jmp	.LBB32_41
	.p2align	4
.LBB32_36:
	movq	$0, 40(%rsp)
	leaq	104(%rsp), %rax
	xorl	%r11d, %r11d
	jmp	.LBB32_42
.LBB32_17:
	movq	80(%rsp), %r8
	movl	%esi, %r11d
	movq	88(%rsp), %rsi
	movq	176(%rsp), %rcx
	cmpl	$0, (%rcx,%rdx,8)
	jne	.LBB32_30
	jmp	.LBB32_31
.LBB32_38:
	leaq	104(%rsp), %rax
	movq	%rcx, 40(%rsp)
.LBB32_41:
	movb	$1, %r11b
	jmp	.LBB32_42
.LBB32_45:
	movzbl	228(%rsp), %ecx
	cmpb	$1, %cl
	jne	.LBB32_46
	movzbl	244(%rsp), %esi
	movzwl	242(%rsp), %eax
	movd	%eax, %xmm2
	movd	240(%rsp), %xmm1
	movzwl	238(%rsp), %eax
	movd	%eax, %xmm3
	movd	236(%rsp), %xmm0
	movl	232(%rsp), %eax
	pxor	%xmm4, %xmm4
	punpcklbw	%xmm4, %xmm0
	punpcklwd	%xmm4, %xmm0
	punpckldq	%xmm4, %xmm0
	punpcklbw	%xmm4, %xmm3
	punpcklwd	%xmm4, %xmm3
	punpckldq	%xmm4, %xmm3
	punpcklbw	%xmm4, %xmm1
	punpcklwd	%xmm4, %xmm1
	punpckldq	%xmm4, %xmm1
	punpcklbw	%xmm4, %xmm2
	punpcklwd	%xmm4, %xmm2
	punpckldq	%xmm4, %xmm2
	movb	$1, %cl
	jmp	.LBB32_48
.LBB32_46:
	pxor	%xmm0, %xmm0
	xorl	%esi, %esi
	xorl	%eax, %eax
	pxor	%xmm3, %xmm3
	pxor	%xmm1, %xmm1
	pxor	%xmm2, %xmm2
.LBB32_48:
	movq	72(%rsp), %rdi
	jmp	.LBB32_49
.LBB32_18:
	xorps	%xmm0, %xmm0
	movups	%xmm0, 64(%rdi)
	movups	%xmm0, 48(%rdi)
	movups	%xmm0, 32(%rdi)
	movups	%xmm0, 16(%rdi)
	movups	%xmm0, (%rdi)
	movq	$0, 80(%rdi)
	jmp	.LBB32_19
.LBB32_21:
	pxor	%xmm0, %xmm0
	movb	$1, %cl
	xorl	%eax, %eax
	pxor	%xmm3, %xmm3
	pxor	%xmm1, %xmm1
	pxor	%xmm2, %xmm2
.LBB32_49:
	movzbl	%cl, %ecx
	movq	%rcx, (%rdi)
	movdqu	%xmm0, 8(%rdi)
	movdqu	%xmm3, 24(%rdi)
	movdqu	%xmm1, 40(%rdi)
	movdqu	%xmm2, 56(%rdi)
	movq	%rsi, 72(%rdi)
	movq	%rax, 80(%rdi)
.LBB32_19:
	addq	$1528, %rsp
	popq	%rbx
	popq	%rbp
	popq	%rdi
	popq	%rsi
	popq	%r12
	popq	%r13
	popq	%r14
	popq	%r15
	retq
	.seh_endproc
	.def	std_alloc.vec.Vec.grow_amortized.cb831ce0f1fbfa3d;
	.scl	3;
	.type	32;
	.endef
	.p2align	4
std_alloc.vec.Vec.grow_amortized.cb831ce0f1fbfa3d:
.seh_proc std_alloc.vec.Vec.grow_amortized.cb831ce0f1fbfa3d
	pushq	%r14
	.seh_pushreg %r14
	pushq	%rsi
	.seh_pushreg %rsi
	pushq	%rdi
	.seh_pushreg %rdi
	pushq	%rbx
	.seh_pushreg %rbx
	subq	$168, %rsp
	.seh_stackalloc 168
	movaps	%xmm15, 144(%rsp)
	.seh_savexmm %xmm15, 144
	movaps	%xmm14, 128(%rsp)
	.seh_savexmm %xmm14, 128
	movaps	%xmm13, 112(%rsp)
	.seh_savexmm %xmm13, 112
	movaps	%xmm12, 96(%rsp)
	.seh_savexmm %xmm12, 96
	movaps	%xmm11, 80(%rsp)
	.seh_savexmm %xmm11, 80
	movaps	%xmm10, 64(%rsp)
	.seh_savexmm %xmm10, 64
	movaps	%xmm9, 48(%rsp)
	.seh_savexmm %xmm9, 48
	movaps	%xmm8, 32(%rsp)
	.seh_savexmm %xmm8, 32
	movaps	%xmm7, 16(%rsp)
	.seh_savexmm %xmm7, 16
	movaps	%xmm6, (%rsp)
	.seh_savexmm %xmm6, 0
	.seh_endprologue
	movq	8(%rcx), %rax
	cmpq	$-1, %rax
	je	.LBB33_1
	movq	16(%rcx), %rdx
	leaq	1(%rax), %rbx
	movq	%rdx, %r9
	shrq	$62, %r9
	leaq	(%rdx,%rdx), %r8
	cmpq	%r8, %rbx
	cmovaq	%rbx, %r8
	testq	%r9, %r9
	cmoveq	%r8, %rbx
	movabsq	$3303500013200134, %r9
	cmpq	%r9, %rbx
	ja	.LBB33_1
	testq	%rdx, %rdx
	je	.LBB33_6
	movq	%rcx, %r14
	movq	(%rcx), %rdi
	imulq	$2792, %rax, %rsi
	imulq	$2792, %rbx, %rdx
	movl	$8, %ecx
	callq	tlsf_memory_realloc
	testb	$1, %al
	je	.LBB33_1
.LBB33_8:
	movq	%rdx, (%r14)
	movq	%rbx, 16(%r14)
	movb	$1, %al
	jmp	.LBB33_2
.LBB33_6:
	movq	%rcx, %r14
	imulq	$2792, %r8, %rdi
	movl	$8, %esi
	callq	tlsf_memory_alloc
	testb	$1, %al
	jne	.LBB33_8
.LBB33_1:
	xorl	%eax, %eax
.LBB33_2:
	movaps	(%rsp), %xmm6
	movaps	16(%rsp), %xmm7
	movaps	32(%rsp), %xmm8
	movaps	48(%rsp), %xmm9
	movaps	64(%rsp), %xmm10
	movaps	80(%rsp), %xmm11
	movaps	96(%rsp), %xmm12
	movaps	112(%rsp), %xmm13
	movaps	128(%rsp), %xmm14
	movaps	144(%rsp), %xmm15
	addq	$168, %rsp
	popq	%rbx
	popq	%rdi
	popq	%rsi
	popq	%r14
	retq
	.seh_endproc
	.def	tlsf_heap.region.Region.read.4;
	.scl	3;
	.type	32;
	.endef
	.p2align	4
tlsf_heap.region.Region.read.4:
	movq	40(%rsp), %rax
	movl	%edx, %edx
	movl	%r8d, %r10d
	leaq	(%r10,%rdx,8), %rdx
	addq	$24, %rdx
	orl	%eax, %r8d
	testb	$7, %r8b
	je	.LBB34_1
	movq	%r9, %r8
	movq	%rax, %r9
	cmpq	$7, %rax
	jbe	tlsf_words.words.Words.read_few
	jmp	tlsf_words.words.Words.read_run
.LBB34_1:
	addq	(%rcx), %rdx
	cmpq	$63, %rax
	ja	.LBB34_9
	testb	$8, %al
	jne	.LBB34_3
	testb	$16, %al
	jne	.LBB34_5
.LBB34_6:
	cmpq	$25, %rax
	jae	.LBB34_7
.LBB34_8:
	retq
.LBB34_9:
	shrq	$3, %rax
	movq	%rdx, %rcx
	movq	%rax, %rdx
	movq	%r9, %r8
	jmp	tlsf_words.cells.unpack_many
.LBB34_3:
	movq	-8(%rdx,%rax), %rcx
	movq	%rcx, -8(%r9,%rax)
	testb	$16, %al
	je	.LBB34_6
.LBB34_5:
	movl	%eax, %ecx
	andl	$32, %ecx
	movq	(%rdx,%rcx), %r8
	movq	%r8, (%r9,%rcx)
	movq	8(%rdx,%rcx), %r8
	movq	%r8, 8(%r9,%rcx)
	cmpq	$25, %rax
	jb	.LBB34_8
.LBB34_7:
	movq	(%rdx), %rax
	movq	%rax, (%r9)
	movq	8(%rdx), %rax
	movq	%rax, 8(%r9)
	movq	16(%rdx), %rax
	movq	%rax, 16(%r9)
	movq	24(%rdx), %rax
	movq	%rax, 24(%r9)
	retq
	.def	tlsf_words.cells.unpack_many;
	.scl	3;
	.type	32;
	.endef
	.p2align	4
tlsf_words.cells.unpack_many:
.seh_proc tlsf_words.cells.unpack_many
	pushq	%rsi
	.seh_pushreg %rsi
	.seh_endprologue
	movq	%rdx, %rax
	andq	$-4, %rax
	leaq	(%r8,%rax,8), %r9
	leaq	(%rcx,%rax,8), %r10
	testb	$1, %dl
	jne	.LBB35_1
	testb	$2, %dl
	jne	.LBB35_3
.LBB35_4:
	movq	%r8, %rdx
	subq	%rcx, %rdx
	cmpq	$32, %rdx
	jae	.LBB35_5
.LBB35_7:
	xorl	%edx, %edx
	.p2align	4
.LBB35_8:
	movq	(%rcx,%rdx,8), %r9
	movq	%r9, (%r8,%rdx,8)
	movq	8(%rcx,%rdx,8), %r9
	movq	%r9, 8(%r8,%rdx,8)
	movq	16(%rcx,%rdx,8), %r9
	movq	%r9, 16(%r8,%rdx,8)
	movq	24(%rcx,%rdx,8), %r9
	movq	%r9, 24(%r8,%rdx,8)
	addq	$4, %rdx
	cmpq	%rdx, %rax
	jne	.LBB35_8
	jmp	.LBB35_9
.LBB35_1:
	movl	%edx, %r11d
	andl	$3, %r11d
	movq	-8(%r10,%r11,8), %rsi
	movq	%rsi, -8(%r9,%r11,8)
	testb	$2, %dl
	je	.LBB35_4
.LBB35_3:
	movq	(%r10), %rdx
	movq	%rdx, (%r9)
	movq	8(%r10), %rdx
	movq	%rdx, 8(%r9)
	movq	%r8, %rdx
	subq	%rcx, %rdx
	cmpq	$32, %rdx
	jb	.LBB35_7
.LBB35_5:
	xorl	%edx, %edx
	.p2align	4
.LBB35_6:
	movups	(%rcx,%rdx,8), %xmm0
	movups	16(%rcx,%rdx,8), %xmm1
	movups	%xmm0, (%r8,%rdx,8)
	movups	%xmm1, 16(%r8,%rdx,8)
	addq	$4, %rdx
	cmpq	%rdx, %rax
	jne	.LBB35_6
.LBB35_9:
	popq	%rsi
	retq
	.seh_endproc
	.def	tlsf_words.words.Words.read_few;
	.scl	3;
	.type	32;
	.endef
	.p2align	4
tlsf_words.words.Words.read_few:
.seh_proc tlsf_words.words.Words.read_few
	pushq	%r15
	.seh_pushreg %r15
	pushq	%r14
	.seh_pushreg %r14
	pushq	%r12
	.seh_pushreg %r12
	pushq	%rsi
	.seh_pushreg %rsi
	pushq	%rdi
	.seh_pushreg %rdi
	pushq	%rbx
	.seh_pushreg %rbx
	subq	$40, %rsp
	.seh_stackalloc 40
	.seh_endprologue
	movq	%r9, %rsi
	movq	%r8, %rdi
	movl	%edx, %eax
	andl	$7, %eax
	movl	$8, %r12d
	subq	%rax, %r12
	cmpq	%r9, %r12
	movq	%r9, %rbx
	cmovbq	%r12, %rbx
	movq	%rcx, %r14
	movabsq	$68719476728, %r15
	andq	%rdx, %r15
	testq	%r9, %r9
	je	.LBB36_2
	movq	(%r14), %rcx
	movq	(%rcx,%r15), %rcx
	movq	%rcx, 32(%rsp)
	leaq	(%rsp,%rax), %rdx
	addq	$32, %rdx
	movq	%rdi, %rcx
	movq	%rbx, %r8
	callq	tlsf_memory_cpy
.LBB36_2:
	cmpq	%r12, %rsi
	jbe	.LBB36_4
	subq	%rbx, %rsi
	addq	%rbx, %rdi
	movq	(%r14), %rax
	movq	8(%rax,%r15), %rax
	movq	%rax, 32(%rsp)
	leaq	32(%rsp), %rdx
	movq	%rdi, %rcx
	movq	%rsi, %r8
	callq	tlsf_memory_cpy
	nop
.LBB36_4:
	addq	$40, %rsp
	popq	%rbx
	popq	%rdi
	popq	%rsi
	popq	%r12
	popq	%r14
	popq	%r15
	retq
	.seh_endproc
	.def	tlsf_words.words.Words.read_run;
	.scl	3;
	.type	32;
	.endef
	.p2align	4
tlsf_words.words.Words.read_run:
.seh_proc tlsf_words.words.Words.read_run
	pushq	%r14
	.seh_pushreg %r14
	pushq	%rsi
	.seh_pushreg %rsi
	pushq	%rdi
	.seh_pushreg %rdi
	pushq	%rbx
	.seh_pushreg %rbx
	.seh_endprologue
	movq	%rcx, %r10
	movl	%edx, %esi
	negl	%esi
	andl	$7, %esi
	movq	%r9, %rax
	subq	%rsi, %rax
	movq	%rax, %rdi
	andq	$-8, %rdi
	leaq	(%rdi,%rsi), %r11
	movq	%rdx, %rcx
	andq	$7, %rcx
	je	.LBB37_2
	movabsq	$68719476728, %rbx
	andq	%rdx, %rbx
	movq	(%r10), %r14
	movq	(%r14,%rbx), %rbx
	shll	$3, %ecx
	shrq	%cl, %rbx
	movq	%rbx, (%r8)
.LBB37_2:
	addq	$7, %rdx
	cmpq	%r9, %r11
	je	.LBB37_4
	subl	%r9d, %r11d
	movq	(%r10), %rcx
	addq	%rdx, %rdi
	andq	$-8, %rdi
	movq	(%rcx,%rdi), %rdi
	shll	$3, %r11d
	movq	$-1, %rbx
	movl	%r11d, %ecx
	shlq	%cl, %rbx
	notq	%rbx
	shlq	%cl, %rdi
	andq	-8(%r8,%r9), %rbx
	addq	%rbx, %rdi
	movq	%rdi, -8(%r8,%r9)
.LBB37_4:
	addq	%rsi, %r8
	movabsq	$137438953464, %rcx
	andq	%rcx, %rdx
	addq	(%r10), %rdx
	cmpq	$63, %rax
	ja	.LBB37_12
	testb	$8, %al
	jne	.LBB37_6
	testb	$16, %al
	jne	.LBB37_8
.LBB37_9:
	cmpq	$32, %rax
	jb	.LBB37_11
.LBB37_10:
	movq	(%rdx), %rax
	movq	%rax, (%r8)
	movq	8(%rdx), %rax
	movq	%rax, 8(%r8)
	movq	16(%rdx), %rax
	movq	%rax, 16(%r8)
	movq	24(%rdx), %rax
	movq	%rax, 24(%r8)
.LBB37_11:
	popq	%rbx
	popq	%rdi
	popq	%rsi
	popq	%r14
	retq
.LBB37_12:
	shrq	$3, %rax
	movq	%rdx, %rcx
	movq	%rax, %rdx
	popq	%rbx
	popq	%rdi
	popq	%rsi
	popq	%r14
	jmp	tlsf_words.cells.unpack_many
.LBB37_6:
	movl	%eax, %ecx
	andl	$56, %ecx
	movq	-8(%rdx,%rcx), %r9
	movq	%r9, -8(%r8,%rcx)
	testb	$16, %al
	je	.LBB37_9
.LBB37_8:
	movl	%eax, %ecx
	andl	$32, %ecx
	movq	(%rdx,%rcx), %r9
	movq	%r9, (%r8,%rcx)
	movq	8(%rdx,%rcx), %r9
	movq	%r9, 8(%r8,%rcx)
	cmpq	$32, %rax
	jae	.LBB37_10
	jmp	.LBB37_11
	.seh_endproc
	.def	tlsf_heap.region.Region.read.5;
	.scl	3;
	.type	32;
	.endef
	.p2align	4
tlsf_heap.region.Region.read.5:
	movq	40(%rsp), %rax
	movl	%edx, %edx
	movl	%r8d, %r10d
	leaq	(%r10,%rdx,8), %rdx
	addq	$24, %rdx
	orl	%eax, %r8d
	testb	$7, %r8b
	je	.LBB38_1
	movq	%r9, %r8
	movq	%rax, %r9
	cmpq	$7, %rax
	jbe	tlsf_words.words.Words.read_few
	jmp	tlsf_words.words.Words.read_run
.LBB38_1:
	addq	(%rcx), %rdx
	cmpq	$63, %rax
	ja	.LBB38_9
	testb	$8, %al
	jne	.LBB38_3
	testb	$16, %al
	jne	.LBB38_5
.LBB38_6:
	cmpq	$25, %rax
	jae	.LBB38_7
.LBB38_8:
	retq
.LBB38_9:
	shrq	$3, %rax
	movq	%rdx, %rcx
	movq	%rax, %rdx
	movq	%r9, %r8
	jmp	tlsf_words.cells.unpack_many
.LBB38_3:
	movq	-8(%rdx,%rax), %rcx
	movq	%rcx, -8(%r9,%rax)
	testb	$16, %al
	je	.LBB38_6
.LBB38_5:
	movl	%eax, %ecx
	andl	$32, %ecx
	movq	(%rdx,%rcx), %r8
	movq	%r8, (%r9,%rcx)
	movq	8(%rdx,%rcx), %r8
	movq	%r8, 8(%r9,%rcx)
	cmpq	$25, %rax
	jb	.LBB38_8
.LBB38_7:
	movq	(%rdx), %rax
	movq	%rax, (%r9)
	movq	8(%rdx), %rax
	movq	%rax, 8(%r9)
	movq	16(%rdx), %rax
	movq	%rax, 16(%r9)
	movq	24(%rdx), %rax
	movq	%rax, 24(%r9)
	retq
	.def	tlsf_c.queue_end.take_once;
	.scl	3;
	.type	32;
	.endef
	.p2align	4
tlsf_c.queue_end.take_once:
.seh_proc tlsf_c.queue_end.take_once
	pushq	%rsi
	.seh_pushreg %rsi
	pushq	%rbx
	.seh_pushreg %rbx
	subq	$136, %rsp
	.seh_stackalloc 136
	.seh_endprologue
	xorps	%xmm0, %xmm0
	movaps	%xmm0, (%rsp)
	movaps	%xmm0, 80(%rsp)
	movq	(%rdx), %r9
	movaps	%xmm0, 96(%rsp)
	movaps	%xmm0, 16(%rsp)
	movaps	%xmm0, 112(%rsp)
	movq	8(%r9), %rax
	movq	256(%rax), %r8
	movq	8(%r9), %rax
	movq	80(%r9), %r10
	decq	%r10
	andq	%r8, %r10
	movq	384(%rax,%r10,8), %r11
	movq	%r8, %rax
	shrq	$62, %rax
	cmpl	$2, %eax
	ja	.LBB39_8
	leaq	1(%r8), %rax
	cmpq	%rax, %r11
	jne	.LBB39_8
	movaps	%xmm0, 48(%rsp)
	movq	$0, 64(%rsp)
	movaps	%xmm0, 32(%rsp)
	leaq	1(%r10), %rax
	cmpq	72(%r9), %rax
	jb	.LBB39_4
	movq	%r8, %r11
	subq	%r10, %r11
	addq	80(%r9), %r11
.LBB39_4:
	movq	8(%r9), %rsi
	movq	%r8, %rax
	lock		cmpxchgq	%r11, 256(%rsi)
	jne	.LBB39_7
	movq	16(%r9), %rdx
	movq	%r10, %r11
	shlq	$5, %r11
	movzbl	(%rdx,%r11), %ebx
	movq	8(%rdx,%r11), %rax
	movups	16(%rdx,%r11), %xmm0
	movaps	%xmm0, 32(%rsp)
	movq	$0, (%rdx,%r11)
	movaps	48(%rsp), %xmm0
	movups	%xmm0, 8(%rdx,%r11)
	movq	64(%rsp), %rsi
	movq	%rsi, 24(%rdx,%r11)
	addq	80(%r9), %r8
	movq	8(%r9), %rdx
	xchgq	%r8, 384(%rdx,%r10,8)
	cmpb	$1, %bl
	jne	.LBB39_10
	movaps	32(%rsp), %xmm0
	movaps	%xmm0, (%rsp)
	movq	%rsp, %rdx
	xorl	%r9d, %r9d
	xorl	%r8d, %r8d
	jmp	.LBB39_9
.LBB39_7:
	movaps	%xmm0, 16(%rsp)
.LBB39_8:
	movaps	16(%rsp), %xmm0
	movaps	%xmm0, (%rsp)
	movq	(%rdx), %rax
	movq	8(%rax), %rdx
	movq	256(%rdx), %rdx
	movq	8(%rax), %rax
	movq	128(%rax), %rax
	cmpq	%rdx, %rax
	sete	%r8b
	xorb	$9, %r8b
	leaq	80(%rsp), %rdx
	movb	$1, %r9b
	xorl	%eax, %eax
.LBB39_9:
	movb	%r9b, (%rcx)
	movb	%r8b, 1(%rcx)
	movq	%rax, 8(%rcx)
	movups	(%rdx), %xmm0
	movups	%xmm0, 16(%rcx)
	addq	$136, %rsp
	popq	%rbx
	popq	%rsi
	retq
.LBB39_10:
	ud2
	.seh_endproc
	.def	std_alloc.vec.Vec.grow_amortized.94730218a1e37034;
	.scl	3;
	.type	32;
	.endef
	.p2align	4
std_alloc.vec.Vec.grow_amortized.94730218a1e37034:
.seh_proc std_alloc.vec.Vec.grow_amortized.94730218a1e37034
	pushq	%r14
	.seh_pushreg %r14
	pushq	%rsi
	.seh_pushreg %rsi
	pushq	%rdi
	.seh_pushreg %rdi
	pushq	%rbx
	.seh_pushreg %rbx
	subq	$168, %rsp
	.seh_stackalloc 168
	movaps	%xmm15, 144(%rsp)
	.seh_savexmm %xmm15, 144
	movaps	%xmm14, 128(%rsp)
	.seh_savexmm %xmm14, 128
	movaps	%xmm13, 112(%rsp)
	.seh_savexmm %xmm13, 112
	movaps	%xmm12, 96(%rsp)
	.seh_savexmm %xmm12, 96
	movaps	%xmm11, 80(%rsp)
	.seh_savexmm %xmm11, 80
	movaps	%xmm10, 64(%rsp)
	.seh_savexmm %xmm10, 64
	movaps	%xmm9, 48(%rsp)
	.seh_savexmm %xmm9, 48
	movaps	%xmm8, 32(%rsp)
	.seh_savexmm %xmm8, 32
	movaps	%xmm7, 16(%rsp)
	.seh_savexmm %xmm7, 16
	movaps	%xmm6, (%rsp)
	.seh_savexmm %xmm6, 0
	.seh_endprologue
	movq	8(%rcx), %rsi
	cmpq	$-1, %rsi
	je	.LBB40_1
	movq	16(%rcx), %rax
	cmpq	$4, %rsi
	movl	$3, %ebx
	cmovaeq	%rsi, %rbx
	incq	%rbx
	movq	%rax, %rdx
	shrq	$62, %rdx
	leaq	(%rax,%rax), %rdi
	cmpq	%rdi, %rbx
	cmovaq	%rbx, %rdi
	testq	%rdx, %rdx
	cmoveq	%rdi, %rbx
	movq	%rbx, %rdx
	shrq	$58, %rdx
	jne	.LBB40_1
	testq	%rax, %rax
	je	.LBB40_6
	movq	%rcx, %r14
	movq	(%rcx), %rdi
	shlq	$5, %rsi
	movq	%rbx, %rdx
	shlq	$5, %rdx
	movl	$8, %ecx
	callq	tlsf_memory_realloc
	testb	$1, %al
	je	.LBB40_1
.LBB40_8:
	movq	%rdx, (%r14)
	movq	%rbx, 16(%r14)
	movb	$1, %al
	jmp	.LBB40_2
.LBB40_6:
	movq	%rcx, %r14
	shlq	$5, %rdi
	movl	$8, %esi
	callq	tlsf_memory_alloc
	testb	$1, %al
	jne	.LBB40_8
.LBB40_1:
	xorl	%eax, %eax
.LBB40_2:
	movaps	(%rsp), %xmm6
	movaps	16(%rsp), %xmm7
	movaps	32(%rsp), %xmm8
	movaps	48(%rsp), %xmm9
	movaps	64(%rsp), %xmm10
	movaps	80(%rsp), %xmm11
	movaps	96(%rsp), %xmm12
	movaps	112(%rsp), %xmm13
	movaps	128(%rsp), %xmm14
	movaps	144(%rsp), %xmm15
	addq	$168, %rsp
	popq	%rbx
	popq	%rdi
	popq	%rsi
	popq	%r14
	retq
	.seh_endproc
	.def	tlsf_post.mailboxes.send_out;
	.scl	3;
	.type	32;
	.endef
	.p2align	4
tlsf_post.mailboxes.send_out:
.seh_proc tlsf_post.mailboxes.send_out
	pushq	%rsi
	.seh_pushreg %rsi
	.seh_endprologue
	cmpl	%r8d, %edx
	jae	.LBB41_6
	movabsq	$9223372036854775806, %r10
	.p2align	4
.LBB41_2:
	movq	(%rcx), %rax
	cmpq	%r10, %rax
	ja	.LBB41_7
	leaq	1(%rax), %r11
	lock		cmpxchgq	%r11, (%rcx)
	jne	.LBB41_2
	movq	8(%rcx), %rax
	movq	(%rax), %rax
	movq	(%r9), %rax
	movq	8(%r9), %r11
	movq	%r11, %rsi
	shlq	$4, %rsi
	movq	%rcx, (%rax,%rsi)
	movl	%edx, 8(%rax,%rsi)
	movl	$0, 12(%rax,%rsi)
	incq	%r11
	movq	%r11, 8(%r9)
	incl	%edx
	xorl	%eax, %eax
	cmpl	%r8d, %edx
	jne	.LBB41_2
	jmp	.LBB41_5
.LBB41_6:
	xorl	%eax, %eax
.LBB41_5:
	popq	%rsi
	retq
.LBB41_7:
	movb	$1, %al
	popq	%rsi
	retq
	.seh_endproc
	.def	std_alloc.arc.Arc.drop.f29941b0e8355977;
	.scl	3;
	.type	32;
	.endef
	.p2align	4
std_alloc.arc.Arc.drop.f29941b0e8355977:
.seh_proc std_alloc.arc.Arc.drop.f29941b0e8355977
	pushq	%rsi
	.seh_pushreg %rsi
	pushq	%rdi
	.seh_pushreg %rdi
	subq	$40, %rsp
	.seh_stackalloc 40
	.seh_endprologue
	lock		decq	(%rcx)
	jne	.LBB42_1
	movq	40(%rcx), %rsi
	movq	56(%rcx), %rdi
	callq	tlsf_memory_dealloc
	movq	%rsi, %rcx
	callq	tlsf_memory_dealloc
	movq	%rdi, %rcx
	addq	$40, %rsp
	popq	%rdi
	popq	%rsi
	jmp	tlsf_memory_dealloc
.LBB42_1:
	addq	$40, %rsp
	popq	%rdi
	popq	%rsi
	retq
	.seh_endproc
	.def	std_alloc.vec.Vec.drop.05316b64237a7125;
	.scl	3;
	.type	32;
	.endef
	.p2align	4
std_alloc.vec.Vec.drop.05316b64237a7125:
.seh_proc std_alloc.vec.Vec.drop.05316b64237a7125
	pushq	%r15
	.seh_pushreg %r15
	pushq	%r14
	.seh_pushreg %r14
	pushq	%r12
	.seh_pushreg %r12
	pushq	%rsi
	.seh_pushreg %rsi
	pushq	%rdi
	.seh_pushreg %rdi
	pushq	%rbx
	.seh_pushreg %rbx
	subq	$40, %rsp
	.seh_stackalloc 40
	.seh_endprologue
	movq	(%rcx), %rsi
	movq	8(%rcx), %r15
	movq	16(%rcx), %r14
	testq	%r15, %r15
	je	.LBB43_5
	movq	%rsi, %r12
	jmp	.LBB43_2
	.p2align	4
.LBB43_4:
	addq	$16, %r12
	decq	%r15
	je	.LBB43_5
.LBB43_2:
	movq	(%r12), %rcx
	lock		decq	(%rcx)
	jne	.LBB43_4
	movq	40(%rcx), %rdi
	movq	56(%rcx), %rbx
	callq	tlsf_memory_dealloc
	movq	%rdi, %rcx
	callq	tlsf_memory_dealloc
	movq	%rbx, %rcx
	callq	tlsf_memory_dealloc
	jmp	.LBB43_4
.LBB43_5:
	testq	%r14, %r14
	je	.LBB43_6
	movq	%rsi, %rcx
	addq	$40, %rsp
	popq	%rbx
	popq	%rdi
	popq	%rsi
	popq	%r12
	popq	%r14
	popq	%r15
	jmp	tlsf_memory_dealloc
.LBB43_6:
	addq	$40, %rsp
	popq	%rbx
	popq	%rdi
	popq	%rsi
	popq	%r12
	popq	%r14
	popq	%r15
	retq
	.seh_endproc
	.def	std_alloc.vec.deque.VecDeque.drop.ca3d8856d46a41b8;
	.scl	3;
	.type	32;
	.endef
	.p2align	4
std_alloc.vec.deque.VecDeque.drop.ca3d8856d46a41b8:
.seh_proc std_alloc.vec.deque.VecDeque.drop.ca3d8856d46a41b8
	pushq	%r15
	.seh_pushreg %r15
	pushq	%r14
	.seh_pushreg %r14
	pushq	%r13
	.seh_pushreg %r13
	pushq	%r12
	.seh_pushreg %r12
	pushq	%rsi
	.seh_pushreg %rsi
	pushq	%rdi
	.seh_pushreg %rdi
	pushq	%rbx
	.seh_pushreg %rbx
	subq	$32, %rsp
	.seh_stackalloc 32
	.seh_endprologue
	movq	(%rcx), %rsi
	movq	8(%rcx), %r12
	movq	16(%rcx), %r14
	testq	%r12, %r12
	je	.LBB44_11
	movq	32(%rcx), %r15
	movq	24(%rcx), %r13
	subq	%r15, %r12
	leaq	(%r12,%r13), %rax
	cmpq	%rax, %r13
	jae	.LBB44_6
	shlq	$4, %r13
	addq	%rsi, %r13
	jmp	.LBB44_3
	.p2align	4
.LBB44_5:
	addq	$16, %r13
	decq	%r12
	je	.LBB44_6
.LBB44_3:
	movq	(%r13), %rcx
	lock		decq	(%rcx)
	jne	.LBB44_5
	movq	40(%rcx), %rdi
	movq	56(%rcx), %rbx
	callq	tlsf_memory_dealloc
	movq	%rdi, %rcx
	callq	tlsf_memory_dealloc
	movq	%rbx, %rcx
	callq	tlsf_memory_dealloc
	jmp	.LBB44_5
.LBB44_6:
	testq	%r15, %r15
	je	.LBB44_11
	movq	%rsi, %r12
	jmp	.LBB44_8
	.p2align	4
.LBB44_10:
	addq	$16, %r12
	decq	%r15
	je	.LBB44_11
.LBB44_8:
	movq	(%r12), %rcx
	lock		decq	(%rcx)
	jne	.LBB44_10
	movq	40(%rcx), %rdi
	movq	56(%rcx), %rbx
	callq	tlsf_memory_dealloc
	movq	%rdi, %rcx
	callq	tlsf_memory_dealloc
	movq	%rbx, %rcx
	callq	tlsf_memory_dealloc
	jmp	.LBB44_10
.LBB44_11:
	testq	%r14, %r14
	je	.LBB44_12
	movq	%rsi, %rcx
	addq	$32, %rsp
	popq	%rbx
	popq	%rdi
	popq	%rsi
	popq	%r12
	popq	%r13
	popq	%r14
	popq	%r15
	jmp	tlsf_memory_dealloc
.LBB44_12:
	addq	$32, %rsp
	popq	%rbx
	popq	%rdi
	popq	%rsi
	popq	%r12
	popq	%r13
	popq	%r14
	popq	%r15
	retq
	.seh_endproc
	.def	tlsf_words.cells.copy_run;
	.scl	3;
	.type	32;
	.endef
	.p2align	4
tlsf_words.cells.copy_run:
.seh_proc tlsf_words.cells.copy_run
	pushq	%rsi
	.seh_pushreg %rsi
	.seh_endprologue
	movq	%r8, %r11
	movq	%rdx, %r10
	movq	%rcx, %rax
	leaq	(,%r8,8), %rcx
	leaq	(,%rdx,8), %rdx
	movq	%rcx, %rsi
	subq	%rdx, %rsi
	leaq	(,%r9,8), %r8
	cmpq	%rsi, %r8
	jbe	.LBB45_1
.LBB45_6:
	popq	%rsi
	retq
.LBB45_1:
	leaq	(%r9,%r10), %rsi
	cmpq	%r11, %rsi
	jbe	.LBB45_2
	addq	%r11, %r9
	cmpq	%r10, %r9
	ja	.LBB45_6
	addq	%rax, %rcx
	addq	%rax, %rdx
	popq	%rsi
	jmp	tlsf_memory_move
.LBB45_2:
	addq	%rax, %rdx
	addq	%rax, %rcx
	popq	%rsi
	jmp	tlsf_memory_move
	.seh_endproc
	.def	tlsf_heap.region.Region.write.4;
	.scl	3;
	.type	32;
	.endef
	.p2align	4
tlsf_heap.region.Region.write.4:
	movq	40(%rsp), %rax
	movl	%edx, %edx
	movl	%r8d, %r10d
	leaq	(%r10,%rdx,8), %rdx
	addq	$24, %rdx
	orl	%eax, %r8d
	testb	$7, %r8b
	je	.LBB46_1
	movq	%r9, %r8
	movq	%rax, %r9
	cmpq	$7, %rax
	jbe	tlsf_words.words.Words.write_few
	jmp	tlsf_words.words.Words.write_run
.LBB46_1:
	addq	(%rcx), %rdx
	cmpq	$63, %rax
	ja	.LBB46_9
	testb	$8, %al
	jne	.LBB46_3
	testb	$16, %al
	jne	.LBB46_5
.LBB46_6:
	cmpq	$25, %rax
	jae	.LBB46_7
.LBB46_8:
	retq
.LBB46_9:
	shrq	$3, %rax
	movq	%rdx, %rcx
	movq	%rax, %rdx
	movq	%r9, %r8
	jmp	tlsf_words.cells.pack_many
.LBB46_3:
	movq	-8(%r9,%rax), %rcx
	movq	%rcx, -8(%rdx,%rax)
	testb	$16, %al
	je	.LBB46_6
.LBB46_5:
	movl	%eax, %ecx
	andl	$32, %ecx
	movq	(%r9,%rcx), %r8
	movq	%r8, (%rdx,%rcx)
	movq	8(%r9,%rcx), %r8
	movq	%r8, 8(%rdx,%rcx)
	cmpq	$25, %rax
	jb	.LBB46_8
.LBB46_7:
	movq	(%r9), %rax
	movq	%rax, (%rdx)
	movq	8(%r9), %rax
	movq	%rax, 8(%rdx)
	movq	16(%r9), %rax
	movq	%rax, 16(%rdx)
	movq	24(%r9), %rax
	movq	%rax, 24(%rdx)
	retq
	.def	tlsf_words.cells.pack_many;
	.scl	3;
	.type	32;
	.endef
	.p2align	4
tlsf_words.cells.pack_many:
.seh_proc tlsf_words.cells.pack_many
	pushq	%rsi
	.seh_pushreg %rsi
	.seh_endprologue
	movq	%rdx, %rax
	andq	$-4, %rax
	leaq	(%rcx,%rax,8), %r9
	leaq	(%r8,%rax,8), %r10
	testb	$1, %dl
	jne	.LBB47_1
	testb	$2, %dl
	jne	.LBB47_3
.LBB47_4:
	movq	%rcx, %rdx
	subq	%r8, %rdx
	cmpq	$32, %rdx
	jae	.LBB47_5
.LBB47_7:
	xorl	%edx, %edx
	.p2align	4
.LBB47_8:
	movq	(%r8,%rdx,8), %r9
	movq	%r9, (%rcx,%rdx,8)
	movq	8(%r8,%rdx,8), %r9
	movq	%r9, 8(%rcx,%rdx,8)
	movq	16(%r8,%rdx,8), %r9
	movq	%r9, 16(%rcx,%rdx,8)
	movq	24(%r8,%rdx,8), %r9
	movq	%r9, 24(%rcx,%rdx,8)
	addq	$4, %rdx
	cmpq	%rdx, %rax
	jne	.LBB47_8
	jmp	.LBB47_9
.LBB47_1:
	movl	%edx, %r11d
	andl	$3, %r11d
	movq	-8(%r10,%r11,8), %rsi
	movq	%rsi, -8(%r9,%r11,8)
	testb	$2, %dl
	je	.LBB47_4
.LBB47_3:
	movq	(%r10), %rdx
	movq	%rdx, (%r9)
	movq	8(%r10), %rdx
	movq	%rdx, 8(%r9)
	movq	%rcx, %rdx
	subq	%r8, %rdx
	cmpq	$32, %rdx
	jb	.LBB47_7
.LBB47_5:
	xorl	%edx, %edx
	.p2align	4
.LBB47_6:
	movups	(%r8,%rdx,8), %xmm0
	movups	16(%r8,%rdx,8), %xmm1
	movups	%xmm0, (%rcx,%rdx,8)
	movups	%xmm1, 16(%rcx,%rdx,8)
	addq	$4, %rdx
	cmpq	%rdx, %rax
	jne	.LBB47_6
.LBB47_9:
	popq	%rsi
	retq
	.seh_endproc
	.def	tlsf_words.words.Words.write_few;
	.scl	3;
	.type	32;
	.endef
	.p2align	4
tlsf_words.words.Words.write_few:
.seh_proc tlsf_words.words.Words.write_few
	pushq	%r15
	.seh_pushreg %r15
	pushq	%r14
	.seh_pushreg %r14
	pushq	%r13
	.seh_pushreg %r13
	pushq	%r12
	.seh_pushreg %r12
	pushq	%rsi
	.seh_pushreg %rsi
	pushq	%rdi
	.seh_pushreg %rdi
	pushq	%rbx
	.seh_pushreg %rbx
	subq	$48, %rsp
	.seh_stackalloc 48
	.seh_endprologue
	movq	%r9, %rsi
	movq	%r8, %rdi
	movl	%edx, %eax
	andl	$7, %eax
	movl	$8, %r12d
	subq	%rax, %r12
	cmpq	%r9, %r12
	movq	%r9, %rbx
	cmovbq	%r12, %rbx
	movq	%rcx, %r14
	movabsq	$68719476728, %r15
	andq	%rdx, %r15
	testq	%r9, %r9
	je	.LBB48_2
	movq	(%r14), %r13
	movq	(%r13,%r15), %rcx
	movq	%rcx, 40(%rsp)
	leaq	(%rsp,%rax), %rcx
	addq	$40, %rcx
	movq	%rdi, %rdx
	movq	%rbx, %r8
	callq	tlsf_memory_cpy
	movq	40(%rsp), %rax
	movq	%rax, (%r13,%r15)
.LBB48_2:
	cmpq	%r12, %rsi
	jbe	.LBB48_4
	subq	%rbx, %rsi
	addq	%rbx, %rdi
	movq	(%r14), %rbx
	movq	8(%rbx,%r15), %rax
	movq	%rax, 40(%rsp)
	leaq	40(%rsp), %rcx
	movq	%rdi, %rdx
	movq	%rsi, %r8
	callq	tlsf_memory_cpy
	movq	40(%rsp), %rax
	movq	%rax, 8(%rbx,%r15)
.LBB48_4:
	addq	$48, %rsp
	popq	%rbx
	popq	%rdi
	popq	%rsi
	popq	%r12
	popq	%r13
	popq	%r14
	popq	%r15
	retq
	.seh_endproc
	.def	tlsf_words.words.Words.write_run;
	.scl	3;
	.type	32;
	.endef
	.p2align	4
tlsf_words.words.Words.write_run:
.seh_proc tlsf_words.words.Words.write_run
	pushq	%r15
	.seh_pushreg %r15
	pushq	%r14
	.seh_pushreg %r14
	pushq	%r12
	.seh_pushreg %r12
	pushq	%rsi
	.seh_pushreg %rsi
	pushq	%rdi
	.seh_pushreg %rdi
	pushq	%rbx
	.seh_pushreg %rbx
	.seh_endprologue
	movq	%rcx, %r10
	movl	%edx, %esi
	negl	%esi
	andl	$7, %esi
	movq	%r9, %rax
	subq	%rsi, %rax
	movq	%rax, %rdi
	andq	$-8, %rdi
	leaq	(%rdi,%rsi), %rbx
	movq	%rdx, %rcx
	andq	$7, %rcx
	je	.LBB49_2
	movabsq	$68719476728, %r11
	andq	%rdx, %r11
	movq	(%r10), %r14
	movq	(%r8), %r15
	shll	$3, %ecx
	movq	$-1, %r12
	shlq	%cl, %r12
	notq	%r12
	shlq	%cl, %r15
	andq	(%r14,%r11), %r12
	addq	%r12, %r15
	movq	%r15, (%r14,%r11)
.LBB49_2:
	addq	$7, %rdx
	cmpq	%rbx, %r9
	je	.LBB49_4
	movl	%r9d, %r11d
	subl	%ebx, %r11d
	movq	-8(%r8,%r9), %r9
	shll	$3, %r11d
	movl	%r11d, %ecx
	negb	%cl
	shrq	%cl, %r9
	movq	(%r10), %rbx
	addq	%rdx, %rdi
	andq	$-8, %rdi
	movq	(%rbx,%rdi), %r14
	xorq	%r9, %r14
	movl	%r11d, %ecx
	shrq	%cl, %r14
	shlq	%cl, %r14
	xorq	%r9, %r14
	movq	%r14, (%rbx,%rdi)
.LBB49_4:
	addq	%rsi, %r8
	movabsq	$137438953464, %rcx
	andq	%rcx, %rdx
	addq	(%r10), %rdx
	cmpq	$63, %rax
	ja	.LBB49_12
	testb	$8, %al
	jne	.LBB49_6
	testb	$16, %al
	jne	.LBB49_8
.LBB49_9:
	cmpq	$32, %rax
	jb	.LBB49_11
.LBB49_10:
	movq	(%r8), %rax
	movq	%rax, (%rdx)
	movq	8(%r8), %rax
	movq	%rax, 8(%rdx)
	movq	16(%r8), %rax
	movq	%rax, 16(%rdx)
	movq	24(%r8), %rax
	movq	%rax, 24(%rdx)
.LBB49_11:
	popq	%rbx
	popq	%rdi
	popq	%rsi
	popq	%r12
	popq	%r14
	popq	%r15
	retq
.LBB49_12:
	shrq	$3, %rax
	movq	%rdx, %rcx
	movq	%rax, %rdx
	popq	%rbx
	popq	%rdi
	popq	%rsi
	popq	%r12
	popq	%r14
	popq	%r15
	jmp	tlsf_words.cells.pack_many
.LBB49_6:
	movl	%eax, %ecx
	andl	$56, %ecx
	movq	-8(%r8,%rcx), %r9
	movq	%r9, -8(%rdx,%rcx)
	testb	$16, %al
	je	.LBB49_9
.LBB49_8:
	movl	%eax, %ecx
	andl	$32, %ecx
	movq	(%r8,%rcx), %r9
	movq	%r9, (%rdx,%rcx)
	movq	8(%r8,%rcx), %r9
	movq	%r9, 8(%rdx,%rcx)
	cmpq	$32, %rax
	jae	.LBB49_10
	jmp	.LBB49_11
	.seh_endproc
	.def	tlsf_heap.region.Region.write.5;
	.scl	3;
	.type	32;
	.endef
	.p2align	4
tlsf_heap.region.Region.write.5:
	movq	40(%rsp), %rax
	movl	%edx, %edx
	movl	%r8d, %r10d
	leaq	(%r10,%rdx,8), %rdx
	addq	$24, %rdx
	orl	%eax, %r8d
	testb	$7, %r8b
	je	.LBB50_1
	movq	%r9, %r8
	movq	%rax, %r9
	cmpq	$7, %rax
	jbe	tlsf_words.words.Words.write_few
	jmp	tlsf_words.words.Words.write_run
.LBB50_1:
	addq	(%rcx), %rdx
	cmpq	$63, %rax
	ja	.LBB50_9
	testb	$8, %al
	jne	.LBB50_3
	testb	$16, %al
	jne	.LBB50_5
.LBB50_6:
	cmpq	$25, %rax
	jae	.LBB50_7
.LBB50_8:
	retq
.LBB50_9:
	shrq	$3, %rax
	movq	%rdx, %rcx
	movq	%rax, %rdx
	movq	%r9, %r8
	jmp	tlsf_words.cells.pack_many
.LBB50_3:
	movq	-8(%r9,%rax), %rcx
	movq	%rcx, -8(%rdx,%rax)
	testb	$16, %al
	je	.LBB50_6
.LBB50_5:
	movl	%eax, %ecx
	andl	$32, %ecx
	movq	(%r9,%rcx), %r8
	movq	%r8, (%rdx,%rcx)
	movq	8(%r9,%rcx), %r8
	movq	%r8, 8(%rdx,%rcx)
	cmpq	$25, %rax
	jb	.LBB50_8
.LBB50_7:
	movq	(%r9), %rax
	movq	%rax, (%rdx)
	movq	8(%r9), %rax
	movq	%rax, 8(%rdx)
	movq	16(%r9), %rax
	movq	%rax, 16(%rdx)
	movq	24(%r9), %rax
	movq	%rax, 24(%rdx)
	retq
	.def	tlsf_allocate;
	.scl	2;
	.type	32;
	.endef
	.globl	tlsf_allocate
	.p2align	4
tlsf_allocate:
.seh_proc tlsf_allocate
	pushq	%r15
	.seh_pushreg %r15
	pushq	%r14
	.seh_pushreg %r14
	pushq	%r12
	.seh_pushreg %r12
	pushq	%rsi
	.seh_pushreg %rsi
	pushq	%rdi
	.seh_pushreg %rdi
	pushq	%rbx
	.seh_pushreg %rbx
	subq	$40, %rsp
	.seh_stackalloc 40
	.seh_endprologue
	cmpb	$0, 8(%rcx)
	je	.LBB51_15
	movq	%rcx, %rax
	movq	(%rcx), %rsi
	cmpb	$0, (%rsi)
	je	.LBB51_15
	movl	$4294967295, %edi
	cmpq	%rdi, %rdx
	cmovbq	%rdx, %rdi
	movb	$0, (%rsi)
	cmpq	$1, %rdx
	movq	%rdi, %rcx
	adcq	$31, %rcx
	movq	%rcx, %r11
	shrq	$3, %r11
	cmpb	$0, 16(%rsi)
	je	.LBB51_8
	cmpq	$134217735, %rcx
	ja	.LBB51_9
	movl	%r11d, %ecx
	orl	$32, %ecx
	bsrl	%ecx, %edx
	addl	$-5, %edx
	leal	-1(%r11), %r10d
	movl	%edx, %ecx
	shrl	%cl, %r10d
	shll	$5, %edx
	addl	%r10d, %edx
	movl	%edx, %r9d
	shrl	$5, %r9d
	movl	108(%rsi,%r9,4), %ebx
	movl	%r10d, %ecx
	shrl	%cl, %ebx
	andl	$-2, %ebx
	je	.LBB51_16
	rep		bsfl	%ebx, %ecx
	addq	%rdx, %rcx
	movq	32(%rsi), %r10
	cmpq	$-1, %r10
	jne	.LBB51_6
	jmp	.LBB51_21
.LBB51_8:
	cmpq	$8388615, %rcx
	jbe	.LBB51_11
.LBB51_9:
	movl	8(%rsi), %eax
	movl	12(%rsi), %ecx
	incl	%eax
	movl	$-1, %edx
	cmovnel	%eax, %edx
	cmpl	%ecx, %edi
	cmoval	%edi, %ecx
	movl	%edx, 8(%rsi)
	movl	%ecx, 12(%rsi)
	movl	$1, %eax
	jmp	.LBB51_10
.LBB51_11:
	movl	%r11d, %ecx
	orl	$16, %ecx
	bsrl	%ecx, %edx
	addl	$-4, %edx
	leal	-1(%r11), %r10d
	movl	%edx, %ecx
	shrl	%cl, %r10d
	shll	$4, %edx
	addl	%r10d, %edx
	movl	%edx, %r9d
	shrl	$4, %r9d
	movl	108(%rsi,%r9,4), %ebx
	andb	$15, %r10b
	movl	%r10d, %ecx
	shrl	%cl, %ebx
	andl	$-2, %ebx
	je	.LBB51_19
	rep		bsfl	%ebx, %ecx
	addq	%rdx, %rcx
	movq	32(%rsi), %r10
	cmpq	$-1, %r10
	jne	.LBB51_13
	jmp	.LBB51_21
.LBB51_15:
	xorl	%ecx, %ecx
	addq	$40, %rsp
	popq	%rbx
	popq	%rdi
	popq	%rsi
	popq	%r12
	popq	%r14
	popq	%r15
	jmp	tlsf_c.call_fault.CallFault.refusal
.LBB51_16:
	movl	$-2, %edx
	movl	%r9d, %ecx
	shll	%cl, %edx
	andl	104(%rsi), %edx
	je	.LBB51_9
	rep		bsfl	%edx, %ecx
	movl	$32, %edx
	rep		bsfl	108(%rsi,%rcx,4), %edx
	shll	$5, %ecx
	addl	%edx, %ecx
	movq	32(%rsi), %r10
	cmpq	$-1, %r10
	je	.LBB51_21
.LBB51_6:
	movq	48(%rsi), %r14
	movl	192(%rsi,%rcx,4), %edx
	movq	16(%r14,%rdx,8), %r9
	cmpl	$-1, %r9d
	je	.LBB51_22
	movl	%r9d, %ebx
	movl	$-1, 20(%r14,%rbx,8)
	movl	%r9d, 192(%rsi,%rcx,4)
	movq	48(%rsi), %r14
	jmp	.LBB51_24
.LBB51_19:
	movl	$-2, %edx
	movl	%r9d, %ecx
	shll	%cl, %edx
	andl	104(%rsi), %edx
	je	.LBB51_9
	rep		bsfl	%edx, %ecx
	movl	$32, %edx
	rep		bsfl	108(%rsi,%rcx,4), %edx
	shll	$4, %ecx
	addl	%edx, %ecx
	movq	32(%rsi), %r10
	cmpq	$-1, %r10
	je	.LBB51_21
.LBB51_13:
	movq	48(%rsi), %r14
	movl	192(%rsi,%rcx,4), %edx
	movq	16(%r14,%rdx,8), %r9
	cmpl	$-1, %r9d
	je	.LBB51_29
	movl	%r9d, %ebx
	movl	$-1, 20(%r14,%rbx,8)
	movl	%r9d, 192(%rsi,%rcx,4)
	movq	48(%rsi), %r14
	jmp	.LBB51_31
.LBB51_21:
	movl	$2, %eax
.LBB51_10:
	movb	$1, (%rsi)
	jmp	.LBB51_47
.LBB51_22:
	movl	$-1, 192(%rsi,%rcx,4)
	movq	%rcx, %r9
	shrq	$5, %r9
	movl	$-2, %ebx
	roll	%cl, %ebx
	movq	%r9, %rcx
	movl	$-2, %r9d
	andl	%ebx, 108(%rsi,%rcx,4)
	jne	.LBB51_24
	roll	%cl, %r9d
	andl	%r9d, 104(%rsi)
.LBB51_24:
	movq	(%r14,%rdx,8), %rcx
	leal	(,%r11,4), %r9d
	movl	%ecx, %ebx
	subl	%r9d, %ebx
	cmpl	$15, %ebx
	jbe	.LBB51_32
	movl	%ebx, %r15d
	shrl	$2, %ebx
	movq	%rdx, %r12
	shlq	$32, %r12
	orq	%r15, %r12
	leal	(%rdx,%r11), %r9d
	subq	%r15, %rcx
	movq	%rcx, (%r14,%rdx,8)
	movq	%r10, 8(%r14,%rdx,8)
	movq	%rdi, 16(%r14,%rdx,8)
	movq	%r12, (%r14,%r9,8)
	movq	%r10, 8(%r14,%r9,8)
	movq	72(%rsi), %rdi
	movl	%r9d, %r14d
	shrl	$6, %r14d
	movl	$1, %r12d
	movl	%r9d, %ecx
	shlq	%cl, %r12
	orq	%r12, (%rdi,%r14,8)
	testb	$2, %r15b
	jne	.LBB51_27
	leal	(%rbx,%r9), %ecx
	movq	48(%rsi), %rdi
	movl	%r9d, 4(%rdi,%rcx,8)
.LBB51_27:
	movl	%ebx, %ecx
	orl	$32, %ecx
	bsrl	%ecx, %ecx
	addl	$-5, %ecx
	shrl	%cl, %ebx
	shll	$5, %ecx
	addl	%ebx, %ecx
	movslq	192(%rsi,%rcx,4), %rdi
	movl	%r9d, 192(%rsi,%rcx,4)
	movq	48(%rsi), %r14
	testq	%rdi, %rdi
	jns	.LBB51_36
	movq	$-1, 16(%r14,%r9,8)
	shrl	$5, %ecx
	movl	$1, %r9d
	shll	%cl, %r9d
	movl	108(%rsi,%rcx,4), %edi
	orl	%r9d, 104(%rsi)
	jmp	.LBB51_38
.LBB51_29:
	movl	$-1, 192(%rsi,%rcx,4)
	movq	%rcx, %r9
	shrq	$4, %r9
	andb	$15, %cl
	movl	$-2, %ebx
	roll	%cl, %ebx
	movq	%r9, %rcx
	movl	$-2, %r9d
	andl	%ebx, 108(%rsi,%rcx,4)
	jne	.LBB51_31
	roll	%cl, %r9d
	andl	%r9d, 104(%rsi)
.LBB51_31:
	movq	(%r14,%rdx,8), %rcx
	leal	(,%r11,4), %r9d
	movl	%ecx, %ebx
	subl	%r9d, %ebx
	cmpl	$15, %ebx
	ja	.LBB51_33
.LBB51_32:
	decq	%rcx
	movq	%rcx, (%r14,%rdx,8)
	movq	%r10, 8(%r14,%rdx,8)
	movq	%rdi, 16(%r14,%rdx,8)
	shrl	$2, %ecx
	addl	40(%rsi), %ecx
	movl	%ecx, 40(%rsi)
	cmpl	%ecx, 44(%rsi)
	jb	.LBB51_40
	jmp	.LBB51_41
.LBB51_33:
	movl	%ebx, %r15d
	shrl	$2, %ebx
	movq	%rdx, %r12
	shlq	$32, %r12
	orq	%r15, %r12
	leal	(%rdx,%r11), %r9d
	subq	%r15, %rcx
	movq	%rcx, (%r14,%rdx,8)
	movq	%r10, 8(%r14,%rdx,8)
	movq	%rdi, 16(%r14,%rdx,8)
	movq	%r12, (%r14,%r9,8)
	movq	%r10, 8(%r14,%r9,8)
	movq	72(%rsi), %rdi
	movl	%r9d, %r14d
	shrl	$6, %r14d
	movl	$1, %r12d
	movl	%r9d, %ecx
	shlq	%cl, %r12
	orq	%r12, (%rdi,%r14,8)
	testb	$2, %r15b
	jne	.LBB51_35
	leal	(%rbx,%r9), %ecx
	movq	48(%rsi), %rdi
	movl	%r9d, 4(%rdi,%rcx,8)
.LBB51_35:
	movl	%ebx, %ecx
	orl	$16, %ecx
	bsrl	%ecx, %ecx
	addl	$-4, %ecx
	shrl	%cl, %ebx
	shll	$4, %ecx
	addl	%ebx, %ecx
	movslq	192(%rsi,%rcx,4), %rdi
	movl	%r9d, 192(%rsi,%rcx,4)
	movq	48(%rsi), %r14
	testq	%rdi, %rdi
	js	.LBB51_37
.LBB51_36:
	movabsq	$-4294967296, %rcx
	orq	%rdi, %rcx
	movq	%rcx, 16(%r14,%r9,8)
	movl	%r9d, 20(%r14,%rdi,8)
	jmp	.LBB51_39
.LBB51_37:
	movq	$-1, 16(%r14,%r9,8)
	shrl	$4, %ecx
	movl	$1, %r9d
	shll	%cl, %r9d
	movl	108(%rsi,%rcx,4), %edi
	orl	%r9d, 104(%rsi)
	andb	$15, %bl
.LBB51_38:
	btsl	%ebx, %edi
	movl	%edi, 108(%rsi,%rcx,4)
.LBB51_39:
	movl	%r11d, %ecx
	addl	40(%rsi), %ecx
	movl	%ecx, 40(%rsi)
	cmpl	%ecx, 44(%rsi)
	jae	.LBB51_41
.LBB51_40:
	movl	%ecx, 44(%rsi)
.LBB51_41:
	incq	32(%rsi)
	movl	24(%rsi), %ecx
	testb	$1, %r11b
	je	.LBB51_44
	cmpb	$0, 28(%rax)
	jne	.LBB51_44
	movb	$1, 28(%rax)
.LBB51_44:
	movl	%ecx, (%r8)
	movl	%edx, 4(%r8)
	movq	%r10, 8(%r8)
	addl	$-3, %r11d
	je	.LBB51_46
	addl	$3, %edx
	movl	%r11d, %r8d
	shlq	$3, %rdx
	addq	48(%rsi), %rdx
	shlq	$3, %r8
	movq	%rdx, %rcx
	xorl	%edx, %edx
	callq	tlsf_memory_set
.LBB51_46:
	movb	$1, (%rsi)
	xorl	%eax, %eax
.LBB51_47:
	addq	$40, %rsp
	popq	%rbx
	popq	%rdi
	popq	%rsi
	popq	%r12
	popq	%r14
	popq	%r15
	retq
	.seh_endproc
	.def	tlsf_allocate_aligned;
	.scl	2;
	.type	32;
	.endef
	.globl	tlsf_allocate_aligned
	.p2align	4
tlsf_allocate_aligned:
.seh_proc tlsf_allocate_aligned
	pushq	%rbp
	.seh_pushreg %rbp
	pushq	%r15
	.seh_pushreg %r15
	pushq	%r14
	.seh_pushreg %r14
	pushq	%r13
	.seh_pushreg %r13
	pushq	%r12
	.seh_pushreg %r12
	pushq	%rbx
	.seh_pushreg %rbx
	subq	$56, %rsp
	.seh_stackalloc 56
	.seh_endprologue
	cmpb	$0, 8(%rdi)
	je	.LBB52_2
	movq	(%rdi), %r15
	cmpb	$0, (%r15)
	je	.LBB52_2
	movl	%ecx, %eax
	movl	$4294967295, %r12d
	cmpq	%r12, %rsi
	cmovbq	%rsi, %r12
	movb	$0, (%r15)
	leaq	24(%r15), %r14
	cmpb	$0, 16(%r15)
	movq	32(%r15), %r9
	je	.LBB52_4
	cmpq	$-5, %r9
	ja	.LBB52_106
	cmpl	$1, %edx
	movl	%edx, %r10d
	adcl	$0, %r10d
	cmpl	$16777216, %edx
	ja	.LBB52_29
	cmpq	$1, %rsi
	movq	%r12, %rdi
	adcq	$31, %rdi
	shrq	$3, %rdi
	leal	(%r10,%rdi), %r11d
	addl	$4, %r11d
	cmpl	$16777216, %r11d
	ja	.LBB52_29
	movl	%r11d, %ecx
	orl	$32, %ecx
	bsrl	%ecx, %edx
	addl	$-5, %edx
	leal	-1(%r11), %r8d
	movl	%edx, %ecx
	shrl	%cl, %r8d
	movl	44(%r15), %ebp
	shll	$5, %edx
	addl	%r8d, %edx
	movl	%edx, %esi
	shrl	$5, %esi
	movl	108(%r15,%rsi,4), %ebx
	movl	%r8d, %ecx
	shrl	%cl, %ebx
	andl	$-2, %ebx
	je	.LBB52_63
	rep		bsfl	%ebx, %ecx
	addq	%rdx, %rcx
	jmp	.LBB52_65
.LBB52_4:
	cmpq	$-5, %r9
	jbe	.LBB52_5
.LBB52_106:
	movb	$1, (%r15)
	movabsq	$8589934592, %rax
	jmp	.LBB52_107
.LBB52_5:
	cmpl	$1, %edx
	movl	%edx, %r10d
	adcl	$0, %r10d
	cmpl	$1048576, %edx
	ja	.LBB52_29
	cmpq	$1, %rsi
	movq	%r12, %rdi
	adcq	$31, %rdi
	shrq	$3, %rdi
	leal	(%r10,%rdi), %r11d
	addl	$4, %r11d
	cmpl	$1048576, %r11d
	ja	.LBB52_29
	movl	%r11d, %ecx
	orl	$16, %ecx
	bsrl	%ecx, %edx
	addl	$-4, %edx
	leal	-1(%r11), %r8d
	movl	%edx, %ecx
	shrl	%cl, %r8d
	movl	44(%r15), %ebp
	shll	$4, %edx
	addl	%r8d, %edx
	movl	%edx, %esi
	shrl	$4, %esi
	movl	108(%r15,%rsi,4), %ebx
	andb	$15, %r8b
	movl	%r8d, %ecx
	shrl	%cl, %ebx
	andl	$-2, %ebx
	je	.LBB52_9
	movl	%ebp, 36(%rsp)
	rep		bsfl	%ebx, %ecx
	addq	%rdx, %rcx
	jmp	.LBB52_11
.LBB52_2:
	xorl	%ecx, %ecx
	callq	tlsf_c.call_fault.CallFault.refusal
	xorl	%edx, %edx
	shlq	$32, %rax
	jmp	.LBB52_108
.LBB52_63:
	movl	$-2, %edx
	movl	%esi, %ecx
	shll	%cl, %edx
	andl	104(%r15), %edx
	je	.LBB52_29
	rep		bsfl	%edx, %ecx
	movl	$32, %edx
	rep		bsfl	108(%r15,%rcx,4), %edx
	shll	$5, %ecx
	addl	%edx, %ecx
.LBB52_65:
	movq	48(%r15), %rbx
	movl	192(%r15,%rcx,4), %esi
	leaq	(,%rsi,8), %r13
	movq	16(%rbx,%rsi,8), %rdx
	cmpl	$-1, %edx
	je	.LBB52_66
	movl	%edx, %r8d
	movl	$-1, 20(%rbx,%r8,8)
	movl	%edx, 192(%r15,%rcx,4)
	movq	48(%r15), %rbx
	jmp	.LBB52_69
.LBB52_66:
	movl	$-1, 192(%r15,%rcx,4)
	movq	%rcx, %rdx
	shrq	$5, %rdx
	movl	$-2, %r8d
	roll	%cl, %r8d
	movq	%rdx, %rcx
	movl	$-2, %edx
	andl	%r8d, 108(%r15,%rcx,4)
	jne	.LBB52_69
	roll	%cl, %edx
	andl	%edx, 104(%r15)
.LBB52_69:
	movl	%ebp, 36(%rsp)
	movq	(%rbx,%r13), %rcx
	leal	(,%r11,4), %edx
	movl	%ecx, %r8d
	subl	%edx, %r8d
	cmpl	$15, %r8d
	ja	.LBB52_71
	decq	%rcx
	movq	%rcx, (%rbx,%r13)
	movq	%r9, 8(%rbx,%r13)
	movq	$0, 16(%rbx,%r13)
	shrl	$2, %ecx
	movl	%ecx, %r11d
	jmp	.LBB52_77
.LBB52_71:
	movl	%r8d, %r14d
	shrl	$2, %r8d
	movq	%rsi, %r13
	shlq	$32, %r13
	orq	%r14, %r13
	leal	(%rsi,%r11), %edx
	subq	%r14, %rcx
	movq	%rcx, (%rbx,%rsi,8)
	movq	%r9, 8(%rbx,%rsi,8)
	movq	$0, 16(%rbx,%rsi,8)
	movq	%r13, (%rbx,%rdx,8)
	movq	%r9, 8(%rbx,%rdx,8)
	movq	72(%r15), %rbx
	movl	%edx, %r13d
	shrl	$6, %r13d
	movl	$1, %ebp
	movl	%edx, %ecx
	shlq	%cl, %rbp
	orq	%rbp, (%rbx,%r13,8)
	testb	$2, %r14b
	jne	.LBB52_73
	leal	(%r8,%rdx), %ecx
	movq	48(%r15), %rbx
	movl	%edx, 4(%rbx,%rcx,8)
.LBB52_73:
	movl	%r8d, %ecx
	orl	$32, %ecx
	bsrl	%ecx, %ecx
	addl	$-5, %ecx
	shrl	%cl, %r8d
	shll	$5, %ecx
	addl	%r8d, %ecx
	movslq	192(%r15,%rcx,4), %rbx
	movl	%edx, 192(%r15,%rcx,4)
	movq	48(%r15), %rbp
	testq	%rbx, %rbx
	leaq	24(%r15), %r14
	js	.LBB52_74
	movabsq	$-4294967296, %rcx
	orq	%rbx, %rcx
	movq	%rcx, 16(%rbp,%rdx,8)
	movl	%edx, 20(%rbp,%rbx,8)
	jmp	.LBB52_76
.LBB52_9:
	movl	$-2, %edx
	movl	%esi, %ecx
	shll	%cl, %edx
	andl	104(%r15), %edx
	je	.LBB52_29
	movl	%ebp, 36(%rsp)
	rep		bsfl	%edx, %ecx
	movl	$32, %edx
	rep		bsfl	108(%r15,%rcx,4), %edx
	shll	$4, %ecx
	addl	%edx, %ecx
.LBB52_11:
	movq	48(%r15), %rbx
	movl	192(%r15,%rcx,4), %esi
	leaq	(,%rsi,8), %r13
	movq	16(%rbx,%rsi,8), %rdx
	cmpl	$-1, %edx
	je	.LBB52_12
	movl	%edx, %r8d
	movl	$-1, 20(%rbx,%r8,8)
	movl	%edx, 192(%r15,%rcx,4)
	movq	48(%r15), %rbx
	jmp	.LBB52_15
.LBB52_12:
	movl	$-1, 192(%r15,%rcx,4)
	movq	%rcx, %rdx
	shrq	$4, %rdx
	andb	$15, %cl
	movl	$-2, %r8d
	roll	%cl, %r8d
	movq	%rdx, %rcx
	movl	$-2, %edx
	andl	%r8d, 108(%r15,%rcx,4)
	jne	.LBB52_15
	roll	%cl, %edx
	andl	%edx, 104(%r15)
.LBB52_15:
	movq	(%rbx,%r13), %rcx
	leal	(,%r11,4), %edx
	movl	%ecx, %r8d
	subl	%edx, %r8d
	cmpl	$15, %r8d
	ja	.LBB52_17
	decq	%rcx
	movq	%rcx, (%rbx,%r13)
	movq	%r9, 8(%rbx,%r13)
	movq	$0, 16(%rbx,%r13)
	shrl	$2, %ecx
	movl	%ecx, %r11d
	jmp	.LBB52_23
.LBB52_17:
	movl	%r8d, %ebp
	shrl	$2, %r8d
	movq	%rsi, %r13
	shlq	$32, %r13
	orq	%rbp, %r13
	leal	(%rsi,%r11), %edx
	subq	%rbp, %rcx
	movq	%rcx, (%rbx,%rsi,8)
	movq	%r9, 8(%rbx,%rsi,8)
	movq	$0, 16(%rbx,%rsi,8)
	movq	%r13, (%rbx,%rdx,8)
	movq	%r9, 8(%rbx,%rdx,8)
	movq	72(%r15), %rbx
	movl	%edx, %r13d
	shrl	$6, %r13d
	movl	$1, %r14d
	movl	%edx, %ecx
	shlq	%cl, %r14
	orq	%r14, (%rbx,%r13,8)
	testb	$2, %bpl
	jne	.LBB52_19
	leal	(%r8,%rdx), %ecx
	movq	48(%r15), %rbx
	movl	%edx, 4(%rbx,%rcx,8)
.LBB52_19:
	movl	%r8d, %ecx
	orl	$16, %ecx
	bsrl	%ecx, %ecx
	addl	$-4, %ecx
	shrl	%cl, %r8d
	shll	$4, %ecx
	addl	%r8d, %ecx
	movslq	192(%r15,%rcx,4), %rbx
	movl	%edx, 192(%r15,%rcx,4)
	movq	48(%r15), %rbp
	testq	%rbx, %rbx
	leaq	24(%r15), %r14
	js	.LBB52_20
	movabsq	$-4294967296, %rcx
	orq	%rbx, %rcx
	movq	%rcx, 16(%rbp,%rdx,8)
	movl	%edx, 20(%rbp,%rbx,8)
	jmp	.LBB52_22
.LBB52_74:
	movq	$-1, 16(%rbp,%rdx,8)
	shrl	$5, %ecx
	movl	$1, %edx
	shll	%cl, %edx
	movl	108(%r15,%rcx,4), %ebx
	orl	%edx, 104(%r15)
	btsl	%r8d, %ebx
	movl	%ebx, 108(%r15,%rcx,4)
.LBB52_76:
	leaq	(,%rsi,8), %r13
.LBB52_77:
	movq	%r9, %rbp
	addl	40(%r15), %r11d
	movl	%r11d, 40(%r15)
	cmpl	%r11d, 44(%r15)
	jae	.LBB52_79
	movl	%r11d, 44(%r15)
.LBB52_79:
	incq	32(%r15)
	movl	24(%r15), %ecx
	xorl	%edx, %edx
	divl	%r10d
	leal	(%rsi,%rdx), %eax
	addl	$3, %eax
	xorl	%edx, %edx
	divl	%r10d
	testl	%edx, %edx
	je	.LBB52_80
	leal	(%r10,%r10,4), %eax
	subl	%edx, %eax
	addl	$-4, %eax
	xorl	%edx, %edx
	divl	%r10d
	movl	%edx, %ebx
	addl	$4, %ebx
	movl	%ecx, 40(%rsp)
	movl	%esi, 44(%rsp)
	movq	%rbp, 48(%rsp)
	leaq	40(%rsp), %rdx
	movq	%r14, %rcx
	movl	%ebx, %r8d
	callq	tlsf_heap.heap.Heap.resize_live.5
	testb	%al, %al
	jne	.LBB52_28
	addl	%esi, %ebx
	movb	$3, %dl
	cmpl	56(%r15), %ebx
	jae	.LBB52_37
	movq	72(%r15), %rax
	movl	%ebx, %ecx
	shrl	$6, %ecx
	movq	(%rax,%rcx,8), %rax
	btq	%rbx, %rax
	jae	.LBB52_37
	movq	48(%r15), %r11
	movl	%ebx, %r10d
	movq	(%r11,%r10,8), %r9
	testb	$1, %r9b
	je	.LBB52_37
	movl	%r9d, %eax
	shrl	$2, %eax
	movb	$5, %dl
	cmpl	%edi, %eax
	jb	.LBB52_37
	cmpq	$-1, 32(%r15)
	je	.LBB52_36
	movl	%r9d, %r8d
	leaq	(,%r10,8), %rcx
	movq	%rcx, %rbp
	movq	16(%r11,%rcx), %r13
	testq	%r13, %r13
	js	.LBB52_91
	movq	%r13, %rcx
	shrq	$29, %rcx
	movabsq	$17179869176, %rax
	andq	%rcx, %rax
	movq	16(%r11,%rax), %rcx
	cmpl	$-1, %r13d
	je	.LBB52_89
	movabsq	$-4294967296, %rdx
	andq	%rdx, %rcx
	movl	%r13d, %edx
	orq	%rdx, %rcx
	movq	%rcx, 16(%r11,%rax)
	shrq	$32, %r13
	andl	$2147483647, %r13d
	movl	%r13d, 20(%r11,%rdx,8)
	jmp	.LBB52_95
.LBB52_80:
	movl	%ecx, 40(%rsp)
	movl	%esi, 44(%rsp)
	movq	%rbp, 48(%rsp)
	leaq	40(%rsp), %rdx
	movq	%r14, %rcx
	movl	%edi, %r8d
	callq	tlsf_heap.heap.Heap.resize_live.5
	jmp	.LBB52_27
.LBB52_20:
	movq	$-1, 16(%rbp,%rdx,8)
	shrl	$4, %ecx
	movl	$1, %edx
	shll	%cl, %edx
	movl	108(%r15,%rcx,4), %ebx
	orl	%edx, 104(%r15)
	andb	$15, %r8b
	btsl	%r8d, %ebx
	movl	%ebx, 108(%r15,%rcx,4)
.LBB52_22:
	leaq	(,%rsi,8), %r13
.LBB52_23:
	movq	%r9, %rbp
	addl	40(%r15), %r11d
	movl	%r11d, 40(%r15)
	cmpl	%r11d, 44(%r15)
	jae	.LBB52_25
	movl	%r11d, 44(%r15)
.LBB52_25:
	incq	32(%r15)
	movl	24(%r15), %ecx
	xorl	%edx, %edx
	divl	%r10d
	leal	(%rsi,%rdx), %eax
	addl	$3, %eax
	xorl	%edx, %edx
	divl	%r10d
	testl	%edx, %edx
	je	.LBB52_26
	leal	(%r10,%r10,4), %eax
	subl	%edx, %eax
	addl	$-4, %eax
	xorl	%edx, %edx
	divl	%r10d
	movl	%edx, %ebx
	addl	$4, %ebx
	movl	%ecx, 40(%rsp)
	movl	%esi, 44(%rsp)
	movq	%rbp, 48(%rsp)
	leaq	40(%rsp), %rdx
	movq	%r14, %rcx
	movl	%ebx, %r8d
	callq	tlsf_heap.heap.Heap.resize_live.4
	testb	%al, %al
	jne	.LBB52_28
	addl	%esi, %ebx
	movb	$3, %dl
	cmpl	56(%r15), %ebx
	jae	.LBB52_37
	movq	72(%r15), %rax
	movl	%ebx, %ecx
	shrl	$6, %ecx
	movq	(%rax,%rcx,8), %rax
	btq	%rbx, %rax
	jae	.LBB52_37
	movq	48(%r15), %r11
	movl	%ebx, %r10d
	movq	(%r11,%r10,8), %r9
	testb	$1, %r9b
	je	.LBB52_37
	movl	%r9d, %eax
	shrl	$2, %eax
	movb	$5, %dl
	cmpl	%edi, %eax
	jb	.LBB52_37
	cmpq	$-1, 32(%r15)
	je	.LBB52_36
	movl	%r9d, %r8d
	leaq	(,%r10,8), %rcx
	movq	%rcx, %rbp
	movq	16(%r11,%rcx), %r13
	testq	%r13, %r13
	js	.LBB52_42
	movq	%r13, %rcx
	shrq	$29, %rcx
	movabsq	$17179869176, %rax
	andq	%rcx, %rax
	movq	16(%r11,%rax), %rcx
	cmpl	$-1, %r13d
	je	.LBB52_40
	movabsq	$-4294967296, %rdx
	andq	%rdx, %rcx
	movl	%r13d, %edx
	orq	%rdx, %rcx
	movq	%rcx, 16(%r11,%rax)
	shrq	$32, %r13
	andl	$2147483647, %r13d
	movl	%r13d, 20(%r11,%rdx,8)
	jmp	.LBB52_46
.LBB52_26:
	movl	%ecx, 40(%rsp)
	movl	%esi, 44(%rsp)
	movq	%rbp, 48(%rsp)
	leaq	40(%rsp), %rdx
	movq	%r14, %rcx
	movl	%edi, %r8d
	callq	tlsf_heap.heap.Heap.resize_live.4
.LBB52_27:
	testb	%al, %al
	je	.LBB52_57
.LBB52_28:
	testb	%dl, %dl
	je	.LBB52_29
.LBB52_37:
	movb	$1, (%r15)
	movsbq	%dl, %rax
	leaq	.Lswitch.table.tlsf_allocate_aligned(%rip), %rcx
	movq	-8(%rcx,%rax,8), %rax
	jmp	.LBB52_107
.LBB52_29:
	movl	8(%r15), %eax
	movl	12(%r15), %ecx
	incl	%eax
	movl	$-1, %edx
	cmovnel	%eax, %edx
	movl	%edx, 8(%r15)
	cmpl	%ecx, %r12d
	cmoval	%r12d, %ecx
	movl	%ecx, 12(%r15)
	movb	$1, (%r15)
	movl	$4294967295, %eax
	incq	%rax
.LBB52_107:
	xorl	%edx, %edx
.LBB52_108:
	addq	$56, %rsp
	popq	%rbx
	popq	%r12
	popq	%r13
	popq	%r14
	popq	%r15
	popq	%rbp
	retq
.LBB52_36:
	movb	$1, %dl
	jmp	.LBB52_37
.LBB52_91:
	movl	%eax, %ecx
	orl	$32, %ecx
	bsrl	%ecx, %edx
	addl	$-5, %edx
	movl	%edx, %ecx
	shrl	%cl, %eax
	shll	$5, %edx
	addl	%eax, %edx
	cmpl	$-1, %r13d
	je	.LBB52_92
	movl	%r13d, %eax
	movl	$-1, 20(%r11,%rax,8)
	movl	%r13d, 192(%r15,%rdx,4)
	jmp	.LBB52_95
.LBB52_89:
	movl	$4294967295, %edx
	orq	%rdx, %rcx
	movq	%rcx, 16(%r11,%rax)
.LBB52_95:
	movq	%rbp, %r13
.LBB52_96:
	movq	32(%r15), %rdx
	leal	(,%rdi,4), %eax
	subl	%eax, %r8d
	cmpl	$15, %r8d
	ja	.LBB52_98
	movq	48(%r15), %rax
	decq	%r9
	movq	%r9, (%rax,%r13)
	movq	%rdx, 8(%rax,%r13)
	movq	$0, 16(%rax,%r13)
	shrl	$2, %r9d
	movl	%r9d, %edi
	jmp	.LBB52_103
.LBB52_98:
	movl	%r8d, %r11d
	shrl	$2, %r8d
	movq	%r10, %rcx
	shlq	$32, %rcx
	orq	%r11, %rcx
	leal	(%rbx,%rdi), %eax
	subq	%r11, %r9
	movq	48(%r15), %rsi
	movq	%r9, (%rsi,%r10,8)
	movq	%rdx, 8(%rsi,%r10,8)
	movq	$0, 16(%rsi,%r10,8)
	movq	%rcx, (%rsi,%rax,8)
	movq	%rdx, 8(%rsi,%rax,8)
	movq	72(%r15), %rsi
	movl	%eax, %r9d
	shrl	$6, %r9d
	movl	$1, %r10d
	movl	%eax, %ecx
	shlq	%cl, %r10
	orq	%r10, (%rsi,%r9,8)
	testb	$2, %r11b
	jne	.LBB52_100
	leal	(%r8,%rax), %ecx
	movq	48(%r15), %rsi
	movl	%eax, 4(%rsi,%rcx,8)
.LBB52_100:
	movl	%r8d, %ecx
	orl	$32, %ecx
	bsrl	%ecx, %ecx
	addl	$-5, %ecx
	shrl	%cl, %r8d
	shll	$5, %ecx
	addl	%r8d, %ecx
	movslq	192(%r15,%rcx,4), %r9
	movl	%eax, 192(%r15,%rcx,4)
	movq	48(%r15), %r10
	testq	%r9, %r9
	js	.LBB52_101
	movabsq	$-4294967296, %rcx
	orq	%r9, %rcx
	movq	%rcx, 16(%r10,%rax,8)
	movl	%eax, 20(%r10,%r9,8)
	jmp	.LBB52_103
.LBB52_42:
	movl	%eax, %ecx
	orl	$16, %ecx
	bsrl	%ecx, %edx
	addl	$-4, %edx
	movl	%edx, %ecx
	shrl	%cl, %eax
	shll	$4, %edx
	addl	%eax, %edx
	cmpl	$-1, %r13d
	je	.LBB52_43
	movl	%r13d, %eax
	movl	$-1, 20(%r11,%rax,8)
	movl	%r13d, 192(%r15,%rdx,4)
	jmp	.LBB52_46
.LBB52_101:
	movq	$-1, 16(%r10,%rax,8)
	shrl	$5, %ecx
	movl	$1, %eax
	shll	%cl, %eax
	movl	108(%r15,%rcx,4), %esi
	orl	%eax, 104(%r15)
	btsl	%r8d, %esi
	movl	%esi, 108(%r15,%rcx,4)
.LBB52_103:
	addl	40(%r15), %edi
	movl	%edi, 40(%r15)
	cmpl	%edi, 44(%r15)
	jae	.LBB52_105
	movl	%edi, 44(%r15)
.LBB52_105:
	movq	%rdx, %rbp
	leaq	1(%rdx), %rax
	movq	%rax, 32(%r15)
	leaq	40(%rsp), %rdx
	movq	%r14, %rcx
	callq	tlsf_heap.heap.Heap.release_live.5
	jmp	.LBB52_56
.LBB52_40:
	movl	$4294967295, %edx
	orq	%rdx, %rcx
	movq	%rcx, 16(%r11,%rax)
	jmp	.LBB52_46
.LBB52_92:
	movl	$-1, 192(%r15,%rdx,4)
	shrl	$5, %edx
	movl	$-2, %esi
	movl	%eax, %ecx
	roll	%cl, %esi
	movl	$-2, %eax
	andl	%esi, 108(%r15,%rdx,4)
	movq	%rbp, %r13
	jne	.LBB52_96
	movl	%edx, %ecx
	roll	%cl, %eax
	andl	%eax, 104(%r15)
	jmp	.LBB52_96
.LBB52_43:
	movl	$-1, 192(%r15,%rdx,4)
	shrl	$4, %edx
	andb	$15, %al
	movl	$-2, %esi
	movl	%eax, %ecx
	roll	%cl, %esi
	movl	$-2, %eax
	andl	%esi, 108(%r15,%rdx,4)
	jne	.LBB52_46
	movl	%edx, %ecx
	roll	%cl, %eax
	andl	%eax, 104(%r15)
.LBB52_46:
	movq	32(%r15), %rdx
	leal	(,%rdi,4), %eax
	subl	%eax, %r8d
	cmpl	$15, %r8d
	movq	%rbp, %r13
	ja	.LBB52_48
	movq	48(%r15), %rax
	decq	%r9
	movq	%r9, (%rax,%r13)
	movq	%rdx, 8(%rax,%r13)
	movq	$0, 16(%rax,%r13)
	shrl	$2, %r9d
	movl	%r9d, %edi
	jmp	.LBB52_53
.LBB52_48:
	movl	%r8d, %r11d
	shrl	$2, %r8d
	movq	%r10, %rcx
	shlq	$32, %rcx
	orq	%r11, %rcx
	leal	(%rbx,%rdi), %eax
	subq	%r11, %r9
	movq	48(%r15), %rsi
	movq	%r9, (%rsi,%r10,8)
	movq	%rdx, 8(%rsi,%r10,8)
	movq	$0, 16(%rsi,%r10,8)
	movq	%rcx, (%rsi,%rax,8)
	movq	%rdx, 8(%rsi,%rax,8)
	movq	72(%r15), %rsi
	movl	%eax, %r9d
	shrl	$6, %r9d
	movl	$1, %r10d
	movl	%eax, %ecx
	shlq	%cl, %r10
	orq	%r10, (%rsi,%r9,8)
	testb	$2, %r11b
	jne	.LBB52_50
	leal	(%r8,%rax), %ecx
	movq	48(%r15), %rsi
	movl	%eax, 4(%rsi,%rcx,8)
.LBB52_50:
	movl	%r8d, %ecx
	orl	$16, %ecx
	bsrl	%ecx, %ecx
	addl	$-4, %ecx
	shrl	%cl, %r8d
	shll	$4, %ecx
	addl	%r8d, %ecx
	movslq	192(%r15,%rcx,4), %r9
	movl	%eax, 192(%r15,%rcx,4)
	movq	48(%r15), %r10
	testq	%r9, %r9
	js	.LBB52_51
	movabsq	$-4294967296, %rcx
	orq	%r9, %rcx
	movq	%rcx, 16(%r10,%rax,8)
	movl	%eax, 20(%r10,%r9,8)
	jmp	.LBB52_53
.LBB52_51:
	movq	$-1, 16(%r10,%rax,8)
	shrl	$4, %ecx
	movl	$1, %eax
	shll	%cl, %eax
	movl	108(%r15,%rcx,4), %esi
	orl	%eax, 104(%r15)
	andb	$15, %r8b
	btsl	%r8d, %esi
	movl	%esi, 108(%r15,%rcx,4)
.LBB52_53:
	addl	40(%r15), %edi
	movl	%edi, 40(%r15)
	cmpl	%edi, 44(%r15)
	jae	.LBB52_55
	movl	%edi, 44(%r15)
.LBB52_55:
	movq	%rdx, %rbp
	leaq	1(%rdx), %rax
	movq	%rax, 32(%r15)
	leaq	40(%rsp), %rdx
	movq	%r14, %rcx
	callq	tlsf_heap.heap.Heap.release_live.4
.LBB52_56:
	movl	%ebx, %esi
.LBB52_57:
	movl	40(%r15), %eax
	movl	36(%rsp), %ecx
	cmpl	%ecx, %eax
	cmoval	%eax, %ecx
	movl	%ecx, 44(%r15)
	addq	48(%r15), %r13
	movq	%r12, 16(%r13)
	movb	$1, (%r15)
	movl	%esi, %eax
	movq	%rbp, %rdx
	jmp	.LBB52_108
	.seh_endproc
	.def	tlsf_allocate_payload;
	.scl	2;
	.type	32;
	.endef
	.globl	tlsf_allocate_payload
	.p2align	4
tlsf_allocate_payload:
.seh_proc tlsf_allocate_payload
	pushq	%r15
	.seh_pushreg %r15
	pushq	%r14
	.seh_pushreg %r14
	pushq	%rsi
	.seh_pushreg %rsi
	pushq	%rdi
	.seh_pushreg %rdi
	pushq	%rbx
	.seh_pushreg %rbx
	.seh_endprologue
	cmpb	$0, 8(%rcx)
	je	.LBB53_42
	xorl	%eax, %eax
	cmpq	$134217728, %rdx
	ja	.LBB53_43
	movq	(%rcx), %r9
	cmpb	$0, (%r9)
	je	.LBB53_43
	addl	$7, %edx
	andl	$536870896, %edx
	leal	8(%rdx), %r11d
	movb	$0, (%r9)
	leal	39(%rdx), %r10d
	shrl	$3, %r10d
	cmpb	$0, 16(%r9)
	je	.LBB53_4
	cmpl	$134217696, %edx
	ja	.LBB53_40
	movl	%r10d, %eax
	orl	$32, %eax
	bsrl	%eax, %eax
	addl	$-5, %eax
	leal	-1(%r10), %r8d
	movl	%eax, %ecx
	shrl	%cl, %r8d
	shll	$5, %eax
	addl	%r8d, %eax
	movl	%eax, %edx
	shrl	$5, %edx
	movl	108(%r9,%rdx,4), %esi
	movl	%r8d, %ecx
	shrl	%cl, %esi
	andl	$-2, %esi
	je	.LBB53_23
	rep		bsfl	%esi, %ecx
	addq	%rax, %rcx
	movq	32(%r9), %rsi
	cmpq	$-1, %rsi
	jne	.LBB53_26
	jmp	.LBB53_41
.LBB53_4:
	cmpl	$8388576, %edx
	jbe	.LBB53_5
.LBB53_40:
	movl	8(%r9), %eax
	movl	12(%r9), %ecx
	incl	%eax
	movl	$-1, %edx
	cmovnel	%eax, %edx
	movl	%edx, 8(%r9)
	cmpl	%ecx, %r11d
	cmoval	%r11d, %ecx
	movl	%ecx, 12(%r9)
.LBB53_41:
	movb	$1, (%r9)
.LBB53_42:
	xorl	%eax, %eax
.LBB53_43:
	popq	%rbx
	popq	%rdi
	popq	%rsi
	popq	%r14
	popq	%r15
	retq
.LBB53_5:
	movl	%r10d, %eax
	orl	$16, %eax
	bsrl	%eax, %eax
	addl	$-4, %eax
	leal	-1(%r10), %r8d
	movl	%eax, %ecx
	shrl	%cl, %r8d
	shll	$4, %eax
	addl	%r8d, %eax
	movl	%eax, %edx
	shrl	$4, %edx
	movl	108(%r9,%rdx,4), %esi
	andb	$15, %r8b
	movl	%r8d, %ecx
	shrl	%cl, %esi
	andl	$-2, %esi
	je	.LBB53_7
	rep		bsfl	%esi, %ecx
	addq	%rax, %rcx
	movq	32(%r9), %rsi
	cmpq	$-1, %rsi
	jne	.LBB53_10
	jmp	.LBB53_41
.LBB53_23:
	movl	$-2, %eax
	movl	%edx, %ecx
	shll	%cl, %eax
	andl	104(%r9), %eax
	je	.LBB53_40
	rep		bsfl	%eax, %ecx
	movl	$32, %eax
	rep		bsfl	108(%r9,%rcx,4), %eax
	shll	$5, %ecx
	addl	%eax, %ecx
	movq	32(%r9), %rsi
	cmpq	$-1, %rsi
	je	.LBB53_41
.LBB53_26:
	movq	48(%r9), %rdi
	movl	192(%r9,%rcx,4), %ebx
	leaq	(,%rbx,8), %rax
	movq	16(%rdi,%rbx,8), %rdx
	cmpl	$-1, %edx
	je	.LBB53_27
	movl	%edx, %r8d
	movl	$-1, 20(%rdi,%r8,8)
	movl	%edx, 192(%r9,%rcx,4)
	movq	48(%r9), %rdi
	jmp	.LBB53_30
.LBB53_7:
	movl	$-2, %eax
	movl	%edx, %ecx
	shll	%cl, %eax
	andl	104(%r9), %eax
	je	.LBB53_40
	rep		bsfl	%eax, %ecx
	movl	$32, %eax
	rep		bsfl	108(%r9,%rcx,4), %eax
	shll	$4, %ecx
	addl	%eax, %ecx
	movq	32(%r9), %rsi
	cmpq	$-1, %rsi
	je	.LBB53_41
.LBB53_10:
	movq	48(%r9), %rdi
	movl	192(%r9,%rcx,4), %ebx
	leaq	(,%rbx,8), %rax
	movq	16(%rdi,%rbx,8), %rdx
	cmpl	$-1, %edx
	je	.LBB53_11
	movl	%edx, %r8d
	movl	$-1, 20(%rdi,%r8,8)
	movl	%edx, 192(%r9,%rcx,4)
	movq	48(%r9), %rdi
	jmp	.LBB53_14
.LBB53_27:
	movl	$-1, 192(%r9,%rcx,4)
	movq	%rcx, %rdx
	shrq	$5, %rdx
	movl	$-2, %r8d
	roll	%cl, %r8d
	movq	%rdx, %rcx
	movl	$-2, %edx
	andl	%r8d, 108(%r9,%rcx,4)
	jne	.LBB53_30
	roll	%cl, %edx
	andl	%edx, 104(%r9)
.LBB53_30:
	movq	(%rdi,%rax), %rcx
	leal	(,%r10,4), %edx
	movl	%ecx, %r8d
	subl	%edx, %r8d
	cmpl	$15, %r8d
	jbe	.LBB53_15
	movl	%r8d, %r14d
	shrl	$2, %r8d
	movq	%rbx, %r15
	shlq	$32, %r15
	orq	%r14, %r15
	leal	(%rbx,%r10), %edx
	subq	%r14, %rcx
	movq	%rcx, (%rdi,%rbx,8)
	movq	%rsi, 8(%rdi,%rbx,8)
	movq	%r11, 16(%rdi,%rbx,8)
	movq	%r15, (%rdi,%rdx,8)
	movq	%rsi, 8(%rdi,%rdx,8)
	movq	72(%r9), %r11
	movl	%edx, %esi
	shrl	$6, %esi
	movl	$1, %edi
	movl	%edx, %ecx
	shlq	%cl, %rdi
	orq	%rdi, (%r11,%rsi,8)
	testb	$2, %r14b
	jne	.LBB53_33
	leal	(%r8,%rdx), %ecx
	movq	48(%r9), %r11
	movl	%edx, 4(%r11,%rcx,8)
.LBB53_33:
	movl	%r8d, %ecx
	orl	$32, %ecx
	bsrl	%ecx, %ecx
	addl	$-5, %ecx
	shrl	%cl, %r8d
	shll	$5, %ecx
	addl	%r8d, %ecx
	movslq	192(%r9,%rcx,4), %r11
	movl	%edx, 192(%r9,%rcx,4)
	movq	48(%r9), %rsi
	testq	%r11, %r11
	jns	.LBB53_36
	movq	$-1, 16(%rsi,%rdx,8)
	shrl	$5, %ecx
	movl	$1, %edx
	shll	%cl, %edx
	movl	108(%r9,%rcx,4), %r11d
	orl	%edx, 104(%r9)
	jmp	.LBB53_35
.LBB53_11:
	movl	$-1, 192(%r9,%rcx,4)
	movq	%rcx, %rdx
	shrq	$4, %rdx
	andb	$15, %cl
	movl	$-2, %r8d
	roll	%cl, %r8d
	movq	%rdx, %rcx
	movl	$-2, %edx
	andl	%r8d, 108(%r9,%rcx,4)
	jne	.LBB53_14
	roll	%cl, %edx
	andl	%edx, 104(%r9)
.LBB53_14:
	movq	(%rdi,%rax), %rcx
	leal	(,%r10,4), %edx
	movl	%ecx, %r8d
	subl	%edx, %r8d
	cmpl	$15, %r8d
	ja	.LBB53_16
.LBB53_15:
	decq	%rcx
	movq	%rcx, (%rdi,%rax)
	movq	%rsi, 8(%rdi,%rax)
	movq	%r11, 16(%rdi,%rax)
	shrl	$2, %ecx
	movl	%ecx, %r10d
	jmp	.LBB53_37
.LBB53_16:
	movl	%r8d, %r14d
	shrl	$2, %r8d
	movq	%rbx, %r15
	shlq	$32, %r15
	orq	%r14, %r15
	leal	(%rbx,%r10), %edx
	subq	%r14, %rcx
	movq	%rcx, (%rdi,%rbx,8)
	movq	%rsi, 8(%rdi,%rbx,8)
	movq	%r11, 16(%rdi,%rbx,8)
	movq	%r15, (%rdi,%rdx,8)
	movq	%rsi, 8(%rdi,%rdx,8)
	movq	72(%r9), %r11
	movl	%edx, %esi
	shrl	$6, %esi
	movl	$1, %edi
	movl	%edx, %ecx
	shlq	%cl, %rdi
	orq	%rdi, (%r11,%rsi,8)
	testb	$2, %r14b
	jne	.LBB53_18
	leal	(%r8,%rdx), %ecx
	movq	48(%r9), %r11
	movl	%edx, 4(%r11,%rcx,8)
.LBB53_18:
	movl	%r8d, %ecx
	orl	$16, %ecx
	bsrl	%ecx, %ecx
	addl	$-4, %ecx
	shrl	%cl, %r8d
	shll	$4, %ecx
	addl	%r8d, %ecx
	movslq	192(%r9,%rcx,4), %r11
	movl	%edx, 192(%r9,%rcx,4)
	movq	48(%r9), %rsi
	testq	%r11, %r11
	js	.LBB53_19
.LBB53_36:
	movabsq	$-4294967296, %rcx
	orq	%r11, %rcx
	movq	%rcx, 16(%rsi,%rdx,8)
	movl	%edx, 20(%rsi,%r11,8)
	jmp	.LBB53_37
.LBB53_19:
	movq	$-1, 16(%rsi,%rdx,8)
	shrl	$4, %ecx
	movl	$1, %edx
	shll	%cl, %edx
	movl	108(%r9,%rcx,4), %r11d
	orl	%edx, 104(%r9)
	andb	$15, %r8b
.LBB53_35:
	btsl	%r8d, %r11d
	movl	%r11d, 108(%r9,%rcx,4)
.LBB53_37:
	addl	40(%r9), %r10d
	movl	%r10d, 40(%r9)
	cmpl	%r10d, 44(%r9)
	jae	.LBB53_39
	movl	%r10d, 44(%r9)
.LBB53_39:
	incq	32(%r9)
	movb	$1, (%r9)
	addq	$24, %rax
	jmp	.LBB53_43
	.seh_endproc
	.def	tlsf_allocate_place;
	.scl	2;
	.type	32;
	.endef
	.globl	tlsf_allocate_place
	.p2align	4
tlsf_allocate_place:
.seh_proc tlsf_allocate_place
	pushq	%r14
	.seh_pushreg %r14
	pushq	%rbx
	.seh_pushreg %rbx
	.seh_endprologue
	movabsq	$137438953472, %rax
	cmpb	$0, 8(%rdi)
	je	.LBB54_7
	movq	(%rdi), %rdi
	cmpb	$1, (%rdi)
	jne	.LBB54_7
	movl	$4294967295, %r9d
	cmpq	%r9, %rsi
	cmovbq	%rsi, %r9
	movb	$0, (%rdi)
	cmpq	$1, %rsi
	movq	%r9, %rax
	adcq	$31, %rax
	movq	%rax, %r8
	shrq	$3, %r8
	cmpb	$0, 16(%rdi)
	je	.LBB54_9
	cmpq	$134217735, %rax
	ja	.LBB54_10
	movl	%r8d, %eax
	orl	$32, %eax
	bsrl	%eax, %eax
	addl	$-5, %eax
	leal	-1(%r8), %esi
	movl	%eax, %ecx
	shrl	%cl, %esi
	shll	$5, %eax
	addl	%esi, %eax
	movl	%eax, %edx
	shrl	$5, %edx
	movl	108(%rdi,%rdx,4), %r10d
	movl	%esi, %ecx
	shrl	%cl, %r10d
	andl	$-2, %r10d
	je	.LBB54_13
	rep		bsfl	%r10d, %ecx
	addq	%rax, %rcx
	movq	32(%rdi), %rdx
	cmpq	$-1, %rdx
	jne	.LBB54_15
	jmp	.LBB54_21
.LBB54_7:
	xorl	%edx, %edx
	popq	%rbx
	popq	%r14
	retq
.LBB54_9:
	cmpq	$8388615, %rax
	jbe	.LBB54_11
.LBB54_10:
	movl	8(%rdi), %eax
	movl	12(%rdi), %ecx
	incl	%eax
	movl	$-1, %edx
	cmovnel	%eax, %edx
	movl	%edx, 8(%rdi)
	cmpl	%ecx, %r9d
	cmoval	%r9d, %ecx
	movl	%ecx, 12(%rdi)
	xorl	%esi, %esi
	movabsq	$4294967296, %rcx
	jmp	.LBB54_22
.LBB54_11:
	movl	%r8d, %eax
	orl	$16, %eax
	bsrl	%eax, %eax
	addl	$-4, %eax
	leal	-1(%r8), %esi
	movl	%eax, %ecx
	shrl	%cl, %esi
	shll	$4, %eax
	addl	%esi, %eax
	movl	%eax, %edx
	shrl	$4, %edx
	movl	108(%rdi,%rdx,4), %r10d
	andb	$15, %sil
	movl	%esi, %ecx
	shrl	%cl, %r10d
	andl	$-2, %r10d
	je	.LBB54_17
	rep		bsfl	%r10d, %ecx
	addq	%rax, %rcx
	movq	32(%rdi), %rdx
	cmpq	$-1, %rdx
	jne	.LBB54_19
	jmp	.LBB54_21
.LBB54_13:
	movl	$-2, %eax
	movl	%edx, %ecx
	shll	%cl, %eax
	andl	104(%rdi), %eax
	je	.LBB54_10
	rep		bsfl	%eax, %ecx
	movl	$32, %eax
	rep		bsfl	108(%rdi,%rcx,4), %eax
	shll	$5, %ecx
	addl	%eax, %ecx
	movq	32(%rdi), %rdx
	cmpq	$-1, %rdx
	je	.LBB54_21
.LBB54_15:
	movq	48(%rdi), %r11
	movl	192(%rdi,%rcx,4), %esi
	movq	16(%r11,%rsi,8), %rax
	cmpl	$-1, %eax
	je	.LBB54_23
	movl	%eax, %r10d
	movl	$-1, 20(%r11,%r10,8)
	movl	%eax, 192(%rdi,%rcx,4)
	movq	48(%rdi), %r11
	jmp	.LBB54_25
.LBB54_17:
	movl	$-2, %eax
	movl	%edx, %ecx
	shll	%cl, %eax
	andl	104(%rdi), %eax
	je	.LBB54_10
	rep		bsfl	%eax, %ecx
	movl	$32, %eax
	rep		bsfl	108(%rdi,%rcx,4), %eax
	shll	$4, %ecx
	addl	%eax, %ecx
	movq	32(%rdi), %rdx
	cmpq	$-1, %rdx
	je	.LBB54_21
.LBB54_19:
	movq	48(%rdi), %r11
	movl	192(%rdi,%rcx,4), %esi
	movq	16(%r11,%rsi,8), %rax
	cmpl	$-1, %eax
	je	.LBB54_30
	movl	%eax, %r10d
	movl	$-1, 20(%r11,%r10,8)
	movl	%eax, 192(%rdi,%rcx,4)
	movq	48(%rdi), %r11
	jmp	.LBB54_32
.LBB54_21:
	movabsq	$8589934592, %rcx
	xorl	%esi, %esi
.LBB54_22:
	xorl	%edx, %edx
	jmp	.LBB54_43
.LBB54_23:
	movl	$-1, 192(%rdi,%rcx,4)
	movq	%rcx, %rax
	shrq	$5, %rax
	movl	$-2, %r10d
	roll	%cl, %r10d
	movq	%rax, %rcx
	movl	$-2, %eax
	andl	%r10d, 108(%rdi,%rcx,4)
	jne	.LBB54_25
	roll	%cl, %eax
	andl	%eax, 104(%rdi)
.LBB54_25:
	movq	(%r11,%rsi,8), %rcx
	leal	(,%r8,4), %eax
	movl	%ecx, %r10d
	subl	%eax, %r10d
	cmpl	$15, %r10d
	jbe	.LBB54_33
	movl	%r10d, %ebx
	shrl	$2, %r10d
	movq	%rsi, %r14
	shlq	$32, %r14
	orq	%rbx, %r14
	leal	(%rsi,%r8), %eax
	subq	%rbx, %rcx
	movq	%rcx, (%r11,%rsi,8)
	movq	%rdx, 8(%r11,%rsi,8)
	movq	%r9, 16(%r11,%rsi,8)
	movq	%r14, (%r11,%rax,8)
	movq	%rdx, 8(%r11,%rax,8)
	movq	72(%rdi), %r9
	movl	%eax, %r11d
	shrl	$6, %r11d
	movl	$1, %r14d
	movl	%eax, %ecx
	shlq	%cl, %r14
	orq	%r14, (%r9,%r11,8)
	testb	$2, %bl
	jne	.LBB54_28
	leal	(%r10,%rax), %ecx
	movq	48(%rdi), %r9
	movl	%eax, 4(%r9,%rcx,8)
.LBB54_28:
	movl	%r10d, %ecx
	orl	$32, %ecx
	bsrl	%ecx, %ecx
	addl	$-5, %ecx
	shrl	%cl, %r10d
	shll	$5, %ecx
	addl	%r10d, %ecx
	movslq	192(%rdi,%rcx,4), %r9
	movl	%eax, 192(%rdi,%rcx,4)
	movq	48(%rdi), %r11
	testq	%r9, %r9
	jns	.LBB54_37
	movq	$-1, 16(%r11,%rax,8)
	shrl	$5, %ecx
	movl	$1, %eax
	shll	%cl, %eax
	movl	108(%rdi,%rcx,4), %r9d
	orl	%eax, 104(%rdi)
	jmp	.LBB54_39
.LBB54_30:
	movl	$-1, 192(%rdi,%rcx,4)
	movq	%rcx, %rax
	shrq	$4, %rax
	andb	$15, %cl
	movl	$-2, %r10d
	roll	%cl, %r10d
	movq	%rax, %rcx
	movl	$-2, %eax
	andl	%r10d, 108(%rdi,%rcx,4)
	jne	.LBB54_32
	roll	%cl, %eax
	andl	%eax, 104(%rdi)
.LBB54_32:
	movq	(%r11,%rsi,8), %rcx
	leal	(,%r8,4), %eax
	movl	%ecx, %r10d
	subl	%eax, %r10d
	cmpl	$15, %r10d
	ja	.LBB54_34
.LBB54_33:
	decq	%rcx
	movq	%rcx, (%r11,%rsi,8)
	movq	%rdx, 8(%r11,%rsi,8)
	movq	%r9, 16(%r11,%rsi,8)
	shrl	$2, %ecx
	movl	%ecx, %r8d
	jmp	.LBB54_40
.LBB54_34:
	movl	%r10d, %ebx
	shrl	$2, %r10d
	movq	%rsi, %r14
	shlq	$32, %r14
	orq	%rbx, %r14
	leal	(%rsi,%r8), %eax
	subq	%rbx, %rcx
	movq	%rcx, (%r11,%rsi,8)
	movq	%rdx, 8(%r11,%rsi,8)
	movq	%r9, 16(%r11,%rsi,8)
	movq	%r14, (%r11,%rax,8)
	movq	%rdx, 8(%r11,%rax,8)
	movq	72(%rdi), %r9
	movl	%eax, %r11d
	shrl	$6, %r11d
	movl	$1, %r14d
	movl	%eax, %ecx
	shlq	%cl, %r14
	orq	%r14, (%r9,%r11,8)
	testb	$2, %bl
	jne	.LBB54_36
	leal	(%r10,%rax), %ecx
	movq	48(%rdi), %r9
	movl	%eax, 4(%r9,%rcx,8)
.LBB54_36:
	movl	%r10d, %ecx
	orl	$16, %ecx
	bsrl	%ecx, %ecx
	addl	$-4, %ecx
	shrl	%cl, %r10d
	shll	$4, %ecx
	addl	%r10d, %ecx
	movslq	192(%rdi,%rcx,4), %r9
	movl	%eax, 192(%rdi,%rcx,4)
	movq	48(%rdi), %r11
	testq	%r9, %r9
	js	.LBB54_38
.LBB54_37:
	movabsq	$-4294967296, %rcx
	orq	%r9, %rcx
	movq	%rcx, 16(%r11,%rax,8)
	movl	%eax, 20(%r11,%r9,8)
	jmp	.LBB54_40
.LBB54_38:
	movq	$-1, 16(%r11,%rax,8)
	shrl	$4, %ecx
	movl	$1, %eax
	shll	%cl, %eax
	movl	108(%rdi,%rcx,4), %r9d
	orl	%eax, 104(%rdi)
	andb	$15, %r10b
.LBB54_39:
	btsl	%r10d, %r9d
	movl	%r9d, 108(%rdi,%rcx,4)
.LBB54_40:
	addl	40(%rdi), %r8d
	movl	%r8d, 40(%rdi)
	cmpl	%r8d, 44(%rdi)
	jae	.LBB54_42
	movl	%r8d, 44(%rdi)
.LBB54_42:
	incq	32(%rdi)
	xorl	%ecx, %ecx
.LBB54_43:
	movb	$1, (%rdi)
	movl	%esi, %eax
	orq	%rcx, %rax
	popq	%rbx
	popq	%r14
	retq
	.seh_endproc
	.def	tlsf_block_at;
	.scl	2;
	.type	32;
	.endef
	.globl	tlsf_block_at
	.p2align	4
tlsf_block_at:
.seh_proc tlsf_block_at
	pushq	%rsi
	.seh_pushreg %rsi
	.seh_endprologue
	cmpb	$0, 8(%rcx)
	je	.LBB55_10
	movq	(%rcx), %rax
	cmpb	$0, (%rax)
	je	.LBB55_10
	movb	$0, (%rax)
	cmpb	$0, 16(%rax)
	movl	56(%rax), %ecx
	cmpl	%ecx, %edx
	jae	.LBB55_6
	movq	72(%rax), %rcx
	movl	%edx, %r9d
	shrl	$6, %r9d
	movq	(%rcx,%r9,8), %rcx
	btq	%rdx, %rcx
	jae	.LBB55_6
	movq	48(%rax), %r10
	movl	%edx, %r11d
	movq	(%r10,%r11,8), %rsi
	movq	8(%r10,%r11,8), %rcx
	movl	%esi, %r9d
	shrl	$2, %r9d
	testb	$1, %sil
	jne	.LBB55_5
	leaq	(%r10,%r11,8), %r10
	movl	16(%r10), %r11d
	movl	$1, %r10d
	jmp	.LBB55_8
.LBB55_6:
	movb	$1, (%rax)
	movl	$4, %eax
	popq	%rsi
	retq
.LBB55_5:
	xorl	%r10d, %r10d
	xorl	%r11d, %r11d
.LBB55_8:
	movb	$1, (%rax)
	movl	%edx, (%r8)
	movl	%r9d, 4(%r8)
	movl	%r10d, 8(%r8)
	movl	%r11d, 12(%r8)
	movq	%rcx, 16(%r8)
	xorl	%eax, %eax
	popq	%rsi
	retq
.LBB55_10:
	xorl	%ecx, %ecx
	popq	%rsi
	jmp	tlsf_c.call_fault.CallFault.refusal
	.seh_endproc
	.def	tlsf_check;
	.scl	2;
	.type	32;
	.endef
	.globl	tlsf_check
	.p2align	4
tlsf_check:
.seh_proc tlsf_check
	pushq	%r15
	.seh_pushreg %r15
	pushq	%r14
	.seh_pushreg %r14
	pushq	%r13
	.seh_pushreg %r13
	pushq	%r12
	.seh_pushreg %r12
	pushq	%rsi
	.seh_pushreg %rsi
	pushq	%rdi
	.seh_pushreg %rdi
	pushq	%rbx
	.seh_pushreg %rbx
	subq	$32, %rsp
	.seh_stackalloc 32
	.seh_endprologue
	movl	$32, %eax
	cmpb	$0, 8(%rcx)
	je	.LBB56_25
	movq	(%rcx), %rbx
	cmpb	$1, (%rbx)
	jne	.LBB56_25
	movl	%r8d, %esi
	movq	128(%rsp), %r14
	movb	$0, (%rbx)
	leaq	48(%rbx), %rdi
	movl	56(%rbx), %r15d
	leal	-4(%r15), %eax
	cmpb	$0, 16(%rbx)
	je	.LBB56_10
	cmpl	%eax, %edx
	ja	.LBB56_18
	movq	72(%rbx), %rax
	movl	%edx, %ecx
	shrl	$6, %ecx
	movq	(%rax,%rcx,8), %rax
	btq	%rdx, %rax
	jae	.LBB56_18
	testl	%esi, %esi
	je	.LBB56_23
	movq	%r9, %r12
	.p2align	4
.LBB56_7:
	movq	%rdi, %rcx
	movq	%rdx, %r13
	callq	tlsf_heap.check.examine
	cmpb	$1, %al
	jne	.LBB56_20
	movl	%edx, %ecx
	xorl	%eax, %eax
	cmpl	%r15d, %edx
	je	.LBB56_21
	movl	%ecx, %edx
	decl	%esi
	jne	.LBB56_7
	jmp	.LBB56_17
.LBB56_10:
	cmpl	%eax, %edx
	ja	.LBB56_18
	movq	72(%rbx), %rax
	movl	%edx, %ecx
	shrl	$6, %ecx
	movq	(%rax,%rcx,8), %rax
	btq	%rdx, %rax
	jae	.LBB56_18
	testl	%esi, %esi
	je	.LBB56_23
	movq	%r9, %r12
	.p2align	4
.LBB56_14:
	movq	%rdi, %rcx
	movq	%rdx, %r13
	callq	tlsf_heap.check.examine
	cmpb	$1, %al
	jne	.LBB56_20
	movl	%edx, %ecx
	xorl	%eax, %eax
	cmpl	%r15d, %edx
	je	.LBB56_21
	movl	%ecx, %edx
	decl	%esi
	jne	.LBB56_14
.LBB56_17:
	movl	%ecx, %edx
	jmp	.LBB56_22
.LBB56_18:
	movb	$1, (%rbx)
	movl	$4, %eax
	jmp	.LBB56_25
.LBB56_23:
	xorl	%eax, %eax
	jmp	.LBB56_24
.LBB56_20:
	movl	$36, %eax
	movq	%r14, %r9
	movq	%r13, %rdx
	jmp	.LBB56_24
.LBB56_21:
	xorl	%edx, %edx
.LBB56_22:
	movq	%r12, %r9
.LBB56_24:
	movb	$1, (%rbx)
	movl	%edx, (%r9)
.LBB56_25:
	addq	$32, %rsp
	popq	%rbx
	popq	%rdi
	popq	%rsi
	popq	%r12
	popq	%r13
	popq	%r14
	popq	%r15
	retq
	.seh_endproc
	.def	tlsf_check_around;
	.scl	2;
	.type	32;
	.endef
	.globl	tlsf_check_around
	.p2align	4
tlsf_check_around:
.seh_proc tlsf_check_around
	pushq	%r15
	.seh_pushreg %r15
	pushq	%r14
	.seh_pushreg %r14
	pushq	%rsi
	.seh_pushreg %rsi
	pushq	%rdi
	.seh_pushreg %rdi
	pushq	%rbp
	.seh_pushreg %rbp
	pushq	%rbx
	.seh_pushreg %rbx
	subq	$40, %rsp
	.seh_stackalloc 40
	.seh_endprologue
	movl	$32, %eax
	cmpb	$0, 8(%rcx)
	je	.LBB57_14
	movq	(%rcx), %rbx
	cmpb	$1, (%rbx)
	jne	.LBB57_14
	movb	$0, (%rbx)
	leaq	48(%rbx), %rsi
	movl	56(%rbx), %r14d
	leal	-4(%r14), %eax
	cmpb	$0, 16(%rbx)
	cmpl	%eax, %edx
	ja	.LBB57_9
	movq	72(%rbx), %rax
	movl	%edx, %ecx
	shrl	$6, %ecx
	movq	(%rax,%rcx,8), %rax
	btq	%rdx, %rax
	jae	.LBB57_9
	movq	%r8, %r15
	movq	%rsi, %rcx
	movq	%rdx, %rdi
	callq	tlsf_heap.check.examine
	cmpb	$1, %al
	jne	.LBB57_10
	testl	%edi, %edi
	je	.LBB57_7
	movq	(%rsi), %rax
	movl	%edi, %ecx
	movl	4(%rax,%rcx,8), %edi
	movq	%rsi, %rcx
	movl	%edx, %ebp
	movl	%edi, %edx
	callq	tlsf_heap.check.examine
	movl	%ebp, %edx
	movq	%r15, %rcx
	cmpb	$1, %al
	jne	.LBB57_11
.LBB57_7:
	cmpl	%r14d, %edx
	jne	.LBB57_13
	movb	$1, (%rbx)
	xorl	%eax, %eax
	jmp	.LBB57_14
.LBB57_9:
	movb	$1, (%rbx)
	movl	$4, %eax
	jmp	.LBB57_14
.LBB57_10:
	movq	%r15, %rcx
.LBB57_11:
	movb	$1, (%rbx)
.LBB57_12:
	movl	%edi, (%rcx)
	movl	$36, %eax
.LBB57_14:
	addq	$40, %rsp
	popq	%rbx
	popq	%rbp
	popq	%rdi
	popq	%rsi
	popq	%r14
	popq	%r15
	retq
.LBB57_13:
	movl	%edx, %edi
	movq	%rsi, %rcx
	callq	tlsf_heap.check.examine
	movl	%eax, %ecx
	xorl	%eax, %eax
	movb	$1, (%rbx)
	cmpb	$1, %cl
	movq	%r15, %rcx
	jne	.LBB57_12
	jmp	.LBB57_14
	.seh_endproc
	.def	tlsf_check_request;
	.scl	2;
	.type	32;
	.endef
	.globl	tlsf_check_request
	.p2align	4
tlsf_check_request:
.seh_proc tlsf_check_request
	pushq	%r15
	.seh_pushreg %r15
	pushq	%r14
	.seh_pushreg %r14
	pushq	%r13
	.seh_pushreg %r13
	pushq	%r12
	.seh_pushreg %r12
	pushq	%rsi
	.seh_pushreg %rsi
	pushq	%rdi
	.seh_pushreg %rdi
	pushq	%rbx
	.seh_pushreg %rbx
	subq	$32, %rsp
	.seh_stackalloc 32
	.seh_endprologue
	movl	$32, %eax
	cmpb	$0, 8(%rcx)
	je	.LBB58_28
	movq	(%rcx), %r15
	cmpb	$0, (%r15)
	je	.LBB58_28
	movl	$4294967295, %eax
	cmpq	%rax, %rdx
	cmovbq	%rdx, %rax
	movb	$0, (%r15)
	cmpq	$1, %rdx
	adcq	$31, %rax
	movq	%rax, %r10
	shrq	$3, %r10
	cmpb	$0, 16(%r15)
	je	.LBB58_3
	cmpq	$134217735, %rax
	ja	.LBB58_10
	movl	%r10d, %eax
	orl	$32, %eax
	bsrl	%eax, %eax
	addl	$-5, %eax
	leal	-1(%r10), %r9d
	movl	%eax, %ecx
	shrl	%cl, %r9d
	shll	$5, %eax
	addl	%r9d, %eax
	movl	%eax, %edx
	shrl	$5, %edx
	movl	108(%r15,%rdx,4), %r11d
	movl	%r9d, %ecx
	shrl	%cl, %r11d
	andl	$-2, %r11d
	jne	.LBB58_5
	movl	$-2, %eax
	movl	%edx, %ecx
	shll	%cl, %eax
	andl	104(%r15), %eax
	je	.LBB58_10
	rep		bsfl	%eax, %ecx
	movl	$32, %eax
	rep		bsfl	108(%r15,%rcx,4), %eax
	shll	$5, %ecx
	jmp	.LBB58_8
.LBB58_3:
	cmpq	$8388615, %rax
	ja	.LBB58_10
	movl	%r10d, %eax
	orl	$16, %eax
	bsrl	%eax, %eax
	addl	$-4, %eax
	leal	-1(%r10), %r9d
	movl	%eax, %ecx
	shrl	%cl, %r9d
	shll	$4, %eax
	addl	%r9d, %eax
	movl	%eax, %edx
	shrl	$4, %edx
	movl	108(%r15,%rdx,4), %r11d
	andb	$15, %r9b
	movl	%r9d, %ecx
	shrl	%cl, %r11d
	andl	$-2, %r11d
	je	.LBB58_6
.LBB58_5:
	rep		bsfl	%r11d, %ecx
	addq	%rax, %rcx
	movl	192(%r15,%rcx,4), %esi
	cmpl	$-1, %esi
	jne	.LBB58_15
	jmp	.LBB58_10
.LBB58_6:
	movl	$-2, %eax
	movl	%edx, %ecx
	shll	%cl, %eax
	andl	104(%r15), %eax
	je	.LBB58_10
	rep		bsfl	%eax, %ecx
	movl	$32, %eax
	rep		bsfl	108(%r15,%rcx,4), %eax
	shll	$4, %ecx
.LBB58_8:
	addl	%eax, %ecx
	movl	192(%r15,%rcx,4), %esi
	cmpl	$-1, %esi
	je	.LBB58_10
.LBB58_15:
	movl	56(%r15), %r12d
	leal	-4(%r12), %eax
	cmpl	%eax, %esi
	ja	.LBB58_21
	movq	72(%r15), %rax
	movl	%esi, %ecx
	shrl	$6, %ecx
	movq	(%rax,%rcx,8), %rax
	btq	%rsi, %rax
	jae	.LBB58_21
	leaq	48(%r15), %rdi
	movq	(%rdi), %rax
	movl	%esi, %ecx
	movq	(%rax,%rcx,8), %r14
	testb	$1, %r14b
	je	.LBB58_21
	movl	%r14d, %eax
	shrl	$2, %eax
	cmpl	%r10d, %eax
	jb	.LBB58_21
	movq	%r8, %r13
	movq	%rdi, %rcx
	movl	%esi, %edx
	callq	tlsf_heap.check.examine
	cmpb	$1, %al
	jne	.LBB58_20
	movl	%edx, %ebx
	testl	%esi, %esi
	je	.LBB58_24
	shrq	$32, %r14
	movq	%rdi, %rcx
	movl	%r14d, %edx
	callq	tlsf_heap.check.examine
	movq	%r13, %r8
	movl	%r14d, %esi
	cmpb	$1, %al
	jne	.LBB58_21
.LBB58_24:
	cmpl	%r12d, %ebx
	jne	.LBB58_26
	movb	$1, (%r15)
	xorl	%eax, %eax
	jmp	.LBB58_28
.LBB58_10:
	movb	$1, (%r15)
	movl	$1, %eax
	jmp	.LBB58_28
.LBB58_20:
	movq	%r13, %r8
.LBB58_21:
	movb	$1, (%r15)
.LBB58_27:
	movl	%esi, (%r8)
	movl	$36, %eax
.LBB58_28:
	addq	$32, %rsp
	popq	%rbx
	popq	%rdi
	popq	%rsi
	popq	%r12
	popq	%r13
	popq	%r14
	popq	%r15
	retq
.LBB58_26:
	movq	%rdi, %rcx
	movl	%ebx, %edx
	callq	tlsf_heap.check.examine
	movq	%r13, %r8
	movl	%eax, %ecx
	xorl	%eax, %eax
	movb	$1, (%r15)
	movl	%ebx, %esi
	cmpb	$1, %cl
	jne	.LBB58_27
	jmp	.LBB58_28
	.seh_endproc
	.def	tlsf_close;
	.scl	2;
	.type	32;
	.endef
	.globl	tlsf_close
	.p2align	4
tlsf_close:
.seh_proc tlsf_close
	pushq	%r14
	.seh_pushreg %r14
	pushq	%rsi
	.seh_pushreg %rsi
	pushq	%rdi
	.seh_pushreg %rdi
	pushq	%rbp
	.seh_pushreg %rbp
	pushq	%rbx
	.seh_pushreg %rbx
	subq	$32, %rsp
	.seh_stackalloc 32
	.seh_endprologue
	movl	$32, %eax
	cmpb	$0, 8(%rcx)
	je	.LBB59_7
	movq	(%rcx), %rdx
	cmpb	$1, (%rdx)
	jne	.LBB59_7
	movb	$0, 8(%rcx)
	movb	$0, (%rdx)
	movq	(%rcx), %rax
	movq	$0, (%rcx)
	movq	48(%rax), %rdi
	movq	64(%rax), %r14
	movq	72(%rax), %rsi
	movq	88(%rax), %rbx
	movzbl	16(%rax), %ebp
	movq	%rax, %rcx
	callq	tlsf_memory_dealloc
	testb	%bpl, %bpl
	testq	%r14, %r14
	je	.LBB59_4
	movq	%rdi, %rcx
	callq	tlsf_memory_dealloc
.LBB59_4:
	testq	%rbx, %rbx
	je	.LBB59_6
	movq	%rsi, %rcx
	callq	tlsf_memory_dealloc
.LBB59_6:
	xorl	%eax, %eax
.LBB59_7:
	addq	$32, %rsp
	popq	%rbx
	popq	%rbp
	popq	%rdi
	popq	%rsi
	popq	%r14
	retq
	.seh_endproc
	.def	tlsf_counts;
	.scl	2;
	.type	32;
	.endef
	.globl	tlsf_counts
	.p2align	4
tlsf_counts:
	cmpb	$0, 8(%rcx)
	je	.LBB60_3
	movq	(%rcx), %rax
	cmpb	$0, (%rax)
	je	.LBB60_3
	movsd	8(%rax), %xmm0
	movsd	40(%rax), %xmm1
	movlhps	%xmm0, %xmm1
	movups	%xmm1, (%rdx)
	xorl	%eax, %eax
	retq
.LBB60_3:
	xorl	%ecx, %ecx
	jmp	tlsf_c.call_fault.CallFault.refusal
	.def	tlsf_drain;
	.scl	2;
	.type	32;
	.endef
	.globl	tlsf_drain
	.p2align	4
tlsf_drain:
.seh_proc tlsf_drain
	pushq	%r15
	.seh_pushreg %r15
	pushq	%r14
	.seh_pushreg %r14
	pushq	%r13
	.seh_pushreg %r13
	pushq	%r12
	.seh_pushreg %r12
	pushq	%rsi
	.seh_pushreg %rsi
	pushq	%rdi
	.seh_pushreg %rdi
	pushq	%rbp
	.seh_pushreg %rbp
	pushq	%rbx
	.seh_pushreg %rbx
	subq	$824, %rsp
	.seh_stackalloc 824
	.seh_endprologue
	cmpb	$0, 8(%rcx)
	je	.LBB61_4
	movq	%rcx, %rbx
	movq	(%rcx), %rax
	cmpb	$1, (%rax)
	jne	.LBB61_4
	cmpb	$0, 8(%rdx)
	je	.LBB61_4
	movq	(%rdx), %rax
	cmpb	$0, 1(%rax)
	je	.LBB61_4
	cmpb	$1, (%rax)
	jne	.LBB61_15
	movl	%r8d, %edi
	movq	%r9, 40(%rsp)
	movq	%rax, 32(%rsp)
	movb	$0, 1(%rax)
	xorl	%esi, %esi
	leaq	56(%rsp), %rcx
	movl	$768, %r8d
	xorl	%edx, %edx
	callq	tlsf_memory_set
	testl	%edi, %edi
	je	.LBB61_14
	movq	32(%rsp), %rax
	addq	$8, %rax
	movq	%rax, 48(%rsp)
	xorl	%esi, %esi
	leaq	56(%rsp), %r15
	.p2align	4
.LBB61_9:
	cmpl	$32, %edi
	movl	$32, %r12d
	cmovbl	%edi, %r12d
	movq	48(%rsp), %rcx
	movq	%r15, %rdx
	movq	%r12, %r8
	callq	tlsf_post.take_end.TakeEnd.take_slice
	movq	%rax, %r14
	testq	%rax, %rax
	je	.LBB61_12
	leaq	72(%rsp), %rbp
	movq	%r14, %r13
	.p2align	4
.LBB61_11:
	movl	-8(%rbp), %edx
	movl	-4(%rbp), %r9d
	movq	(%rbp), %r8
	movq	%rbx, %rcx
	callq	tlsf_c.heap_calls.release_named
	addq	$24, %rbp
	decq	%r13
	jne	.LBB61_11
.LBB61_12:
	addl	%r14d, %esi
	cmpq	%r12, %r14
	jb	.LBB61_14
	subl	%r14d, %edi
	jne	.LBB61_9
.LBB61_14:
	movq	40(%rsp), %rax
	movl	%esi, (%rax)
	movq	32(%rsp), %rax
	movb	$1, 1(%rax)
	xorl	%eax, %eax
	addq	$824, %rsp
	popq	%rbx
	popq	%rbp
	popq	%rdi
	popq	%rsi
	popq	%r12
	popq	%r13
	popq	%r14
	popq	%r15
	retq
.LBB61_4:
	xorl	%ecx, %ecx
.LBB61_5:
	addq	$824, %rsp
	popq	%rbx
	popq	%rbp
	popq	%rdi
	popq	%rsi
	popq	%r12
	popq	%r13
	popq	%r14
	popq	%r15
	jmp	tlsf_c.call_fault.CallFault.refusal
.LBB61_15:
	movb	$2, %cl
	jmp	.LBB61_5
	.seh_endproc
	.def	tlsf_lane_open;
	.scl	2;
	.type	32;
	.endef
	.globl	tlsf_lane_open
	.p2align	4
tlsf_lane_open:
.seh_proc tlsf_lane_open
	pushq	%r15
	.seh_pushreg %r15
	pushq	%r14
	.seh_pushreg %r14
	pushq	%r13
	.seh_pushreg %r13
	pushq	%r12
	.seh_pushreg %r12
	pushq	%rsi
	.seh_pushreg %rsi
	pushq	%rdi
	.seh_pushreg %rdi
	pushq	%rbx
	.seh_pushreg %rbx
	subq	$336, %rsp
	.seh_stackalloc 336
	movaps	%xmm15, 320(%rsp)
	.seh_savexmm %xmm15, 320
	movaps	%xmm14, 304(%rsp)
	.seh_savexmm %xmm14, 304
	movaps	%xmm13, 288(%rsp)
	.seh_savexmm %xmm13, 288
	movaps	%xmm12, 272(%rsp)
	.seh_savexmm %xmm12, 272
	movaps	%xmm11, 256(%rsp)
	.seh_savexmm %xmm11, 256
	movaps	%xmm10, 240(%rsp)
	.seh_savexmm %xmm10, 240
	movaps	%xmm9, 224(%rsp)
	.seh_savexmm %xmm9, 224
	movaps	%xmm8, 208(%rsp)
	.seh_savexmm %xmm8, 208
	movaps	%xmm7, 192(%rsp)
	.seh_savexmm %xmm7, 192
	movaps	%xmm6, 176(%rsp)
	.seh_savexmm %xmm6, 176
	.seh_endprologue
	xorps	%xmm0, %xmm0
	movaps	%xmm0, 32(%rsp)
	movaps	%xmm0, 48(%rsp)
	movaps	%xmm0, 64(%rsp)
	movq	$0, 80(%rsp)
	movaps	%xmm0, 128(%rsp)
	movaps	%xmm0, 144(%rsp)
	movaps	%xmm0, 160(%rsp)
	movaps	%xmm0, 96(%rsp)
	movq	$0, 112(%rsp)
	movl	$33, %eax
	cmpb	$0, 8(%rcx)
	jne	.LBB62_22
	cmpb	$0, 8(%rdx)
	jne	.LBB62_22
	leal	-1025(%r8), %r9d
	movl	$5, %eax
	cmpl	$-1024, %r9d
	jb	.LBB62_22
	movq	%r8, %r14
	movq	%rcx, %r13
	movq	%rdx, %r12
	movl	$384, %edi
	movl	$8, %esi
	callq	tlsf_memory_alloc
	movq	%rax, %rcx
	movl	$6, %eax
	testb	$1, %cl
	je	.LBB62_22
	movq	%rdx, %rbx
	movl	%r14d, %r14d
	leaq	(,%r14,8), %rax
	leaq	(%rax,%rax,2), %rdi
	movl	$8, %esi
	callq	tlsf_memory_alloc
	testb	$1, %al
	je	.LBB62_5
	movq	%rdx, %r15
	movq	$0, (%rbx)
	movq	$0, 128(%rbx)
	movq	$0, 256(%rbx)
	movl	$48, %edi
	movl	$8, %esi
	callq	tlsf_memory_alloc
	testb	$1, %al
	je	.LBB62_9
	movq	%rdx, %rsi
	movw	$256, (%rdx)
	movq	%rbx, 8(%rdx)
	movq	%r15, 16(%rdx)
	movq	%r14, 24(%rdx)
	xorps	%xmm0, %xmm0
	movups	%xmm0, 32(%rdx)
	movw	$257, 128(%rsp)
	movq	%rbx, 136(%rsp)
	movq	%r15, 144(%rsp)
	movq	%r14, 152(%rsp)
	movaps	%xmm0, 160(%rsp)
	leaq	32(%rsp), %rcx
	leaq	128(%rsp), %rdx
	callq	std_alloc.boxed.Box.new.91a8e04f462e8cea
	cmpb	$0, 32(%rsp)
	je	.LBB62_8
	movzbl	40(%rsp), %eax
	movq	48(%rsp), %rcx
	movq	56(%rsp), %rdx
	movq	64(%rsp), %rdi
	leaq	.LJTI62_0(%rip), %r8
	movslq	(%r8,%rax,4), %rax
	addq	%r8, %rax
	jmpq	*%rax
.LBB62_14:
	movl	$1, %eax
	xchgq	%rax, 256(%rcx)
	jmp	.LBB62_15
.LBB62_5:
	movq	%rbx, %rcx
	callq	tlsf_memory_dealloc
	jmp	.LBB62_21
.LBB62_9:
	movl	$1, %eax
	xchgq	%rax, 256(%rbx)
	movl	$1, %esi
	testq	%rax, %rax
	je	.LBB62_11
	movq	%rbx, %rcx
	movq	%r15, %rdx
	movq	%r14, %r8
	callq	rtrb.release.drop_slow.23d795680250cb0d
.LBB62_11:
	xchgq	%rsi, 256(%rbx)
	testq	%rsi, %rsi
	je	.LBB62_21
	movq	%rbx, %rcx
	movq	%r15, %rdx
	movq	%r14, %r8
	callq	rtrb.release.drop_slow.23d795680250cb0d
	jmp	.LBB62_21
.LBB62_8:
	movq	40(%rsp), %rax
	movq	%rsi, (%r13)
	movb	$1, 8(%r13)
	movl	$0, 9(%r13)
	movl	$0, 12(%r13)
	movq	%rax, (%r12)
	movb	$1, 8(%r12)
	movl	$0, 9(%r12)
	movl	$0, 12(%r12)
	xorl	%eax, %eax
	jmp	.LBB62_22
.LBB62_18:
	callq	std_alloc.arc.Arc.drop.c4a047e811255370
	movq	%rdi, 96(%rsp)
	movups	72(%rsp), %xmm0
	movups	%xmm0, 104(%rsp)
	leaq	96(%rsp), %rcx
	callq	std_alloc.vec.Vec.drop.7ac45d8413b9ad54
	jmp	.LBB62_20
.LBB62_19:
	callq	std_alloc.arc.Arc.drop.c4a047e811255370
	jmp	.LBB62_20
.LBB62_17:
	movl	$1, %eax
	xchgq	%rax, 256(%rcx)
.LBB62_15:
	testq	%rax, %rax
	je	.LBB62_20
	movq	%rdi, %r8
	callq	rtrb.release.drop_slow.23d795680250cb0d
.LBB62_20:
	movq	%rsi, %rcx
	callq	std_alloc.boxed.Box.drop.7d8ec8058c3633cd
.LBB62_21:
	movl	$6, %eax
.LBB62_22:
	movaps	176(%rsp), %xmm6
	movaps	192(%rsp), %xmm7
	movaps	208(%rsp), %xmm8
	movaps	224(%rsp), %xmm9
	movaps	240(%rsp), %xmm10
	movaps	256(%rsp), %xmm11
	movaps	272(%rsp), %xmm12
	movaps	288(%rsp), %xmm13
	movaps	304(%rsp), %xmm14
	movaps	320(%rsp), %xmm15
	addq	$336, %rsp
	popq	%rbx
	popq	%rdi
	popq	%rsi
	popq	%r12
	popq	%r13
	popq	%r14
	popq	%r15
	retq
	.section	.rdata,"dr"
	.p2align	2, 0x0
.LJTI62_0:
	.long	.LBB62_14-.LJTI62_0
	.long	.LBB62_17-.LJTI62_0
	.long	.LBB62_18-.LJTI62_0
	.long	.LBB62_19-.LJTI62_0
	.text
	.seh_endproc
	.def	tlsf_locate;
	.scl	2;
	.type	32;
	.endef
	.globl	tlsf_locate
	.p2align	4
tlsf_locate:
.seh_proc tlsf_locate
	subq	$40, %rsp
	.seh_stackalloc 40
	.seh_endprologue
	cmpb	$0, 8(%rdi)
	je	.LBB63_2
	movq	(%rdi), %rdi
	cmpb	$0, (%rdi)
	je	.LBB63_2
	movq	%rsi, %r9
	shrq	$32, %r9
	movb	$0, (%rdi)
	cmpb	$0, 16(%rdi)
	movl	24(%rdi), %eax
	cmpl	%esi, %eax
	jne	.LBB63_7
	movl	%esi, %eax
	cmpl	56(%rdi), %r9d
	jae	.LBB63_7
	movq	72(%rdi), %rax
	movq	%rsi, %r10
	shrq	$38, %r10
	movq	(%rax,%r10,8), %rax
	btq	%r9, %rax
	movl	%esi, %eax
	jae	.LBB63_7
	movq	48(%rdi), %r10
	testb	$1, (%r10,%r9,8)
	movl	%esi, %eax
	jne	.LBB63_7
	leaq	(%r10,%r9,8), %r9
	movl	%esi, %eax
	cmpq	%rdx, 8(%r9)
	jne	.LBB63_7
	movl	16(%r9), %eax
	movb	$1, (%rdi)
	movq	%r10, (%rcx)
	movl	%eax, (%r8)
	xorl	%eax, %eax
	addq	$40, %rsp
	retq
.LBB63_7:
	movl	%esi, %ecx
	movl	%eax, %edx
	callq	tlsf_heap.refusal.Refusal.of_name
	movl	%eax, %ecx
	movb	$1, (%rdi)
	xorl	%eax, %eax
	cmpb	$3, %cl
	sete	%al
	addl	$3, %eax
	addq	$40, %rsp
	retq
.LBB63_2:
	xorl	%ecx, %ecx
	callq	tlsf_c.call_fault.CallFault.refusal
	nop
	addq	$40, %rsp
	retq
	.seh_endproc
	.def	tlsf_offsets_allocate;
	.scl	2;
	.type	32;
	.endef
	.globl	tlsf_offsets_allocate
	.p2align	4
tlsf_offsets_allocate:
.seh_proc tlsf_offsets_allocate
	pushq	%r15
	.seh_pushreg %r15
	pushq	%r14
	.seh_pushreg %r14
	pushq	%r12
	.seh_pushreg %r12
	pushq	%rsi
	.seh_pushreg %rsi
	pushq	%rdi
	.seh_pushreg %rdi
	pushq	%rbx
	.seh_pushreg %rbx
	.seh_endprologue
	cmpb	$0, 8(%rcx)
	je	.LBB64_2
	movq	(%rcx), %r10
	cmpb	$0, 1(%r10)
	je	.LBB64_2
	cmpb	$0, (%r10)
	jne	.LBB64_50
	movb	$0, 1(%r10)
	cmpb	$0, 8(%r10)
	movl	2752(%r10), %ecx
	je	.LBB64_6
	testq	%rcx, %rcx
	je	.LBB64_54
	movq	%rdx, %rax
	shrq	$32, %rax
	je	.LBB64_32
	movq	%rdx, %rax
	xorl	%edx, %edx
	divq	%rcx
	jmp	.LBB64_34
.LBB64_6:
	testq	%rcx, %rcx
	je	.LBB64_54
	movq	%rdx, %rax
	shrq	$32, %rax
	je	.LBB64_8
	movq	%rdx, %rax
	xorl	%edx, %edx
	divq	%rcx
	jmp	.LBB64_10
.LBB64_32:
	movl	%edx, %eax
	xorl	%edx, %edx
	divl	%ecx
.LBB64_34:
	cmpq	$1, %rdx
	sbbq	$-1, %rax
	cmpq	$5, %rax
	movl	$4, %esi
	cmovaeq	%rax, %rsi
	movl	$4294967295, %ecx
	cmpq	%rcx, %rsi
	cmovaeq	%rcx, %rsi
	cmpq	$16777216, %rax
	ja	.LBB64_51
	movl	%esi, %eax
	orl	$32, %eax
	bsrl	%eax, %eax
	addl	$-5, %eax
	leal	-1(%rsi), %r9d
	movl	%eax, %ecx
	shrl	%cl, %r9d
	shll	$5, %eax
	addl	%r9d, %eax
	movl	%eax, %edx
	shrl	$5, %edx
	movl	100(%r10,%rdx,4), %r11d
	movl	%r9d, %ecx
	shrl	%cl, %r11d
	andl	$-2, %r11d
	je	.LBB64_37
	rep		bsfl	%r11d, %ecx
	addq	%rax, %rcx
	movq	24(%r10), %rdx
	cmpq	$-1, %rdx
	jne	.LBB64_40
	jmp	.LBB64_52
.LBB64_8:
	movl	%edx, %eax
	xorl	%edx, %edx
	divl	%ecx
.LBB64_10:
	cmpq	$1, %rdx
	sbbq	$-1, %rax
	cmpq	$5, %rax
	movl	$4, %esi
	cmovaeq	%rax, %rsi
	movl	$4294967295, %ecx
	cmpq	%rcx, %rsi
	cmovaeq	%rcx, %rsi
	cmpq	$1048576, %rax
	jbe	.LBB64_11
.LBB64_51:
	movb	$1, 1(%r10)
	movl	$1, %eax
	jmp	.LBB64_53
.LBB64_11:
	movl	%esi, %eax
	orl	$16, %eax
	bsrl	%eax, %eax
	addl	$-4, %eax
	leal	-1(%rsi), %r9d
	movl	%eax, %ecx
	shrl	%cl, %r9d
	shll	$4, %eax
	addl	%r9d, %eax
	movl	%eax, %edx
	shrl	$4, %edx
	movl	100(%r10,%rdx,4), %r11d
	andb	$15, %r9b
	movl	%r9d, %ecx
	shrl	%cl, %r11d
	andl	$-2, %r11d
	je	.LBB64_13
	rep		bsfl	%r11d, %ecx
	addq	%rax, %rcx
	movq	24(%r10), %rdx
	cmpq	$-1, %rdx
	jne	.LBB64_16
	jmp	.LBB64_52
.LBB64_2:
	xorl	%ecx, %ecx
	jmp	.LBB64_3
.LBB64_37:
	movl	$-2, %eax
	movl	%edx, %ecx
	shll	%cl, %eax
	andl	96(%r10), %eax
	je	.LBB64_51
	rep		bsfl	%eax, %ecx
	movl	$32, %eax
	rep		bsfl	100(%r10,%rcx,4), %eax
	shll	$5, %ecx
	addl	%eax, %ecx
	movq	24(%r10), %rdx
	cmpq	$-1, %rdx
	je	.LBB64_52
.LBB64_40:
	movq	40(%r10), %rbx
	movl	184(%r10,%rcx,4), %r9d
	leaq	(,%r9,8), %r11
	movq	16(%rbx,%r9,8), %rax
	cmpl	$-1, %eax
	je	.LBB64_41
	movl	%eax, %edi
	movl	$-1, 20(%rbx,%rdi,8)
	movl	%eax, 184(%r10,%rcx,4)
	movq	40(%r10), %rbx
	jmp	.LBB64_44
.LBB64_13:
	movl	$-2, %eax
	movl	%edx, %ecx
	shll	%cl, %eax
	andl	96(%r10), %eax
	je	.LBB64_51
	rep		bsfl	%eax, %ecx
	movl	$32, %eax
	rep		bsfl	100(%r10,%rcx,4), %eax
	shll	$4, %ecx
	addl	%eax, %ecx
	movq	24(%r10), %rdx
	cmpq	$-1, %rdx
	je	.LBB64_52
.LBB64_16:
	movq	40(%r10), %rbx
	movl	184(%r10,%rcx,4), %r9d
	leaq	(,%r9,8), %r11
	movq	16(%rbx,%r9,8), %rax
	cmpl	$-1, %eax
	je	.LBB64_17
	movl	%eax, %edi
	movl	$-1, 20(%rbx,%rdi,8)
	movl	%eax, 184(%r10,%rcx,4)
	movq	40(%r10), %rbx
	jmp	.LBB64_20
.LBB64_52:
	movb	$1, 1(%r10)
	movl	$2, %eax
	jmp	.LBB64_53
.LBB64_41:
	movl	$-1, 184(%r10,%rcx,4)
	movq	%rcx, %rax
	shrq	$5, %rax
	movl	$-2, %edi
	roll	%cl, %edi
	movq	%rax, %rcx
	movl	$-2, %eax
	andl	%edi, 100(%r10,%rcx,4)
	jne	.LBB64_44
	roll	%cl, %eax
	andl	%eax, 96(%r10)
.LBB64_44:
	movq	(%rbx,%r11), %rcx
	leal	(,%rsi,4), %eax
	movl	%ecx, %edi
	subl	%eax, %edi
	cmpl	$15, %edi
	jbe	.LBB64_21
	movl	%edi, %r14d
	shrl	$2, %edi
	movq	%r9, %r15
	shlq	$32, %r15
	orq	%r14, %r15
	leal	(%r9,%rsi), %eax
	subq	%r14, %rcx
	movq	%rcx, (%rbx,%r9,8)
	movq	%rdx, 8(%rbx,%r9,8)
	movq	$0, 16(%rbx,%r9,8)
	movq	%r15, (%rbx,%rax,8)
	movq	%rdx, 8(%rbx,%rax,8)
	movq	64(%r10), %rbx
	movl	%eax, %r15d
	shrl	$6, %r15d
	movl	$1, %r12d
	movl	%eax, %ecx
	shlq	%cl, %r12
	orq	%r12, (%rbx,%r15,8)
	testb	$2, %r14b
	jne	.LBB64_47
	leal	(%rdi,%rax), %ecx
	movq	40(%r10), %rbx
	movl	%eax, 4(%rbx,%rcx,8)
.LBB64_47:
	movl	%edi, %ecx
	orl	$32, %ecx
	bsrl	%ecx, %ecx
	addl	$-5, %ecx
	shrl	%cl, %edi
	shll	$5, %ecx
	addl	%edi, %ecx
	movslq	184(%r10,%rcx,4), %rbx
	movl	%eax, 184(%r10,%rcx,4)
	movq	40(%r10), %r14
	testq	%rbx, %rbx
	jns	.LBB64_26
	movq	$-1, 16(%r14,%rax,8)
	shrl	$5, %ecx
	movl	$1, %eax
	shll	%cl, %eax
	movl	100(%r10,%rcx,4), %ebx
	orl	%eax, 96(%r10)
	jmp	.LBB64_49
.LBB64_50:
	movb	$2, %cl
.LBB64_3:
	popq	%rbx
	popq	%rdi
	popq	%rsi
	popq	%r12
	popq	%r14
	popq	%r15
	jmp	tlsf_c.call_fault.CallFault.refusal
.LBB64_17:
	movl	$-1, 184(%r10,%rcx,4)
	movq	%rcx, %rax
	shrq	$4, %rax
	andb	$15, %cl
	movl	$-2, %edi
	roll	%cl, %edi
	movq	%rax, %rcx
	movl	$-2, %eax
	andl	%edi, 100(%r10,%rcx,4)
	jne	.LBB64_20
	roll	%cl, %eax
	andl	%eax, 96(%r10)
.LBB64_20:
	movq	(%rbx,%r11), %rcx
	leal	(,%rsi,4), %eax
	movl	%ecx, %edi
	subl	%eax, %edi
	cmpl	$15, %edi
	ja	.LBB64_22
.LBB64_21:
	decq	%rcx
	movq	%rcx, (%rbx,%r11)
	movq	%rdx, 8(%rbx,%r11)
	movq	$0, 16(%rbx,%r11)
	shrl	$2, %ecx
	movl	%ecx, %esi
	addl	32(%r10), %esi
	movl	%esi, 32(%r10)
	cmpl	%esi, 36(%r10)
	jb	.LBB64_28
	jmp	.LBB64_29
.LBB64_22:
	movl	%edi, %r14d
	shrl	$2, %edi
	movq	%r9, %r15
	shlq	$32, %r15
	orq	%r14, %r15
	leal	(%r9,%rsi), %eax
	subq	%r14, %rcx
	movq	%rcx, (%rbx,%r9,8)
	movq	%rdx, 8(%rbx,%r9,8)
	movq	$0, 16(%rbx,%r9,8)
	movq	%r15, (%rbx,%rax,8)
	movq	%rdx, 8(%rbx,%rax,8)
	movq	64(%r10), %rbx
	movl	%eax, %r15d
	shrl	$6, %r15d
	movl	$1, %r12d
	movl	%eax, %ecx
	shlq	%cl, %r12
	orq	%r12, (%rbx,%r15,8)
	testb	$2, %r14b
	jne	.LBB64_24
	leal	(%rdi,%rax), %ecx
	movq	40(%r10), %rbx
	movl	%eax, 4(%rbx,%rcx,8)
.LBB64_24:
	movl	%edi, %ecx
	orl	$16, %ecx
	bsrl	%ecx, %ecx
	addl	$-4, %ecx
	shrl	%cl, %edi
	shll	$4, %ecx
	addl	%edi, %ecx
	movslq	184(%r10,%rcx,4), %rbx
	movl	%eax, 184(%r10,%rcx,4)
	movq	40(%r10), %r14
	testq	%rbx, %rbx
	js	.LBB64_25
.LBB64_26:
	movabsq	$-4294967296, %rcx
	orq	%rbx, %rcx
	movq	%rcx, 16(%r14,%rax,8)
	movl	%eax, 20(%r14,%rbx,8)
	addl	32(%r10), %esi
	movl	%esi, 32(%r10)
	cmpl	%esi, 36(%r10)
	jae	.LBB64_29
.LBB64_28:
	movl	%esi, 36(%r10)
.LBB64_29:
	incq	24(%r10)
	movl	16(%r10), %eax
	movq	40(%r10), %rcx
	leal	3(%r9), %esi
	movq	$0, (%rcx,%rsi,8)
	addq	40(%r10), %r11
	movl	%r9d, %ecx
	movl	(%r11), %r11d
	shrl	$2, %r11d
	movl	2752(%r10), %esi
	imulq	%rsi, %r9
	imulq	%rsi, %r11
	movb	$1, 1(%r10)
	movl	%eax, (%r8)
	movl	%ecx, 4(%r8)
	movq	%rdx, 8(%r8)
	movq	%r9, 16(%r8)
	movq	%r11, 24(%r8)
	xorl	%eax, %eax
.LBB64_53:
	popq	%rbx
	popq	%rdi
	popq	%rsi
	popq	%r12
	popq	%r14
	popq	%r15
	retq
.LBB64_25:
	movq	$-1, 16(%r14,%rax,8)
	shrl	$4, %ecx
	movl	$1, %eax
	shll	%cl, %eax
	movl	100(%r10,%rcx,4), %ebx
	orl	%eax, 96(%r10)
	andb	$15, %dil
.LBB64_49:
	btsl	%edi, %ebx
	movl	%ebx, 100(%r10,%rcx,4)
	addl	32(%r10), %esi
	movl	%esi, 32(%r10)
	cmpl	%esi, 36(%r10)
	jb	.LBB64_28
	jmp	.LBB64_29
.LBB64_54:
	ud2
	.seh_endproc
	.def	tlsf_offsets_close;
	.scl	2;
	.type	32;
	.endef
	.globl	tlsf_offsets_close
	.p2align	4
tlsf_offsets_close:
.seh_proc tlsf_offsets_close
	subq	$40, %rsp
	.seh_stackalloc 40
	.seh_endprologue
	movl	$32, %eax
	cmpb	$0, 8(%rcx)
	je	.LBB65_4
	movq	(%rcx), %rdx
	cmpb	$1, 1(%rdx)
	jne	.LBB65_4
	movl	$40, %eax
	cmpb	$0, (%rdx)
	je	.LBB65_3
.LBB65_4:
	addq	$40, %rsp
	retq
.LBB65_3:
	callq	tlsf_c.arena_slot.ArenaSlot.close
	xorl	%eax, %eax
	addq	$40, %rsp
	retq
	.seh_endproc
	.def	tlsf_offsets_open;
	.scl	2;
	.type	32;
	.endef
	.globl	tlsf_offsets_open
	.p2align	4
tlsf_offsets_open:
.seh_proc tlsf_offsets_open
	pushq	%r15
	.seh_pushreg %r15
	pushq	%r14
	.seh_pushreg %r14
	pushq	%r13
	.seh_pushreg %r13
	pushq	%r12
	.seh_pushreg %r12
	pushq	%rsi
	.seh_pushreg %rsi
	pushq	%rdi
	.seh_pushreg %rdi
	pushq	%rbp
	.seh_pushreg %rbp
	pushq	%rbx
	.seh_pushreg %rbx
	subq	$232, %rsp
	.seh_stackalloc 232
	movaps	%xmm15, 208(%rsp)
	.seh_savexmm %xmm15, 208
	movaps	%xmm14, 192(%rsp)
	.seh_savexmm %xmm14, 192
	movaps	%xmm13, 176(%rsp)
	.seh_savexmm %xmm13, 176
	movaps	%xmm12, 160(%rsp)
	.seh_savexmm %xmm12, 160
	movaps	%xmm11, 144(%rsp)
	.seh_savexmm %xmm11, 144
	movaps	%xmm10, 128(%rsp)
	.seh_savexmm %xmm10, 128
	movaps	%xmm9, 112(%rsp)
	.seh_savexmm %xmm9, 112
	movaps	%xmm8, 96(%rsp)
	.seh_savexmm %xmm8, 96
	movaps	%xmm7, 80(%rsp)
	.seh_savexmm %xmm7, 80
	movaps	%xmm6, 64(%rsp)
	.seh_savexmm %xmm6, 64
	.seh_endprologue
	movl	$33, %eax
	cmpb	$0, 8(%rcx)
	jne	.LBB66_23
	leal	-6(%rdx), %r10d
	movl	$34, %eax
	cmpl	$-2, %r10d
	jae	.LBB66_2
.LBB66_23:
	movaps	64(%rsp), %xmm6
	movaps	80(%rsp), %xmm7
	movaps	96(%rsp), %xmm8
	movaps	112(%rsp), %xmm9
	movaps	128(%rsp), %xmm10
	movaps	144(%rsp), %xmm11
	movaps	160(%rsp), %xmm12
	movaps	176(%rsp), %xmm13
	movaps	192(%rsp), %xmm14
	movaps	208(%rsp), %xmm15
	addq	$232, %rsp
	popq	%rbx
	popq	%rbp
	popq	%rdi
	popq	%rsi
	popq	%r12
	popq	%r13
	popq	%r14
	popq	%r15
	retq
.LBB66_2:
	movl	336(%rsp), %ebx
	cmpl	$4, %edx
	jne	.LBB66_10
	testl	%r9d, %r9d
	sete	%al
	leal	-1048577(%rbx), %r10d
	cmpl	$-1048573, %r10d
	setb	%r10b
	orb	%al, %r10b
	movl	$5, %eax
	jne	.LBB66_23
	movl	%r9d, %r13d
	movl	%r8d, 44(%rsp)
	movq	%rdx, 48(%rsp)
	movq	%rcx, 56(%rsp)
	movl	%ebx, %ebp
	leaq	(,%rbp,8), %rdi
	movl	$8, %esi
	callq	tlsf_memory_alloc
	movq	%rax, %rcx
	movl	$6, %eax
	testb	$1, %cl
	je	.LBB66_23
	movq	%rdx, %r14
	pxor	%xmm0, %xmm0
	movdqu	%xmm0, 16(%rdx)
	movdqu	%xmm0, (%rdx)
	leal	63(%rbx), %r12d
	shrl	$6, %r12d
	leal	(,%r12,8), %edi
	movl	$8, %esi
	callq	tlsf_memory_alloc
	testb	$1, %al
	je	.LBB66_6
	movq	%rdx, %r15
	movq	$0, (%rdx)
	movabsq	$-4294967296, %rax
	orq	$19, %rax
	movq	%rax, (%r14)
	movq	$0, 8(%r14)
	orb	$1, (%rdx)
	movq	$-1, 16(%r14)
	movl	$2760, %edi
	movl	$8, %esi
	callq	tlsf_memory_alloc
	testb	$1, %al
	je	.LBB66_24
	movq	%rdx, %rsi
	xorl	%eax, %eax
	jmp	.LBB66_15
.LBB66_10:
	testl	%r9d, %r9d
	sete	%al
	leal	-16777217(%rbx), %r10d
	cmpl	$-16777213, %r10d
	setb	%r10b
	orb	%al, %r10b
	movl	$5, %eax
	jne	.LBB66_23
	movl	%r9d, %r13d
	movl	%r8d, 44(%rsp)
	movq	%rdx, 48(%rsp)
	movq	%rcx, 56(%rsp)
	movl	%ebx, %ebp
	leaq	(,%rbp,8), %rdi
	movl	$8, %esi
	callq	tlsf_memory_alloc
	movq	%rax, %rcx
	movl	$6, %eax
	testb	$1, %cl
	je	.LBB66_23
	movq	%rdx, %r14
	pxor	%xmm0, %xmm0
	movdqu	%xmm0, 16(%rdx)
	movdqu	%xmm0, (%rdx)
	leal	63(%rbx), %r12d
	shrl	$6, %r12d
	leal	(,%r12,8), %edi
	movl	$8, %esi
	callq	tlsf_memory_alloc
	testb	$1, %al
	je	.LBB66_6
	movq	%rdx, %r15
	movq	$0, (%rdx)
	movabsq	$-4294967296, %rax
	orq	$19, %rax
	movq	%rax, (%r14)
	movq	$0, 8(%r14)
	orb	$1, (%rdx)
	movq	$-1, 16(%r14)
	movl	$2760, %edi
	movl	$8, %esi
	callq	tlsf_memory_alloc
	testb	$1, %al
	je	.LBB66_24
	movq	%rdx, %rsi
	movl	$1, %eax
.LBB66_15:
	movl	%r13d, %r13d
	movw	$256, (%rsi)
	movq	%rax, 8(%rsi)
	movl	44(%rsp), %eax
	movl	%eax, 16(%rsi)
	movl	$0, 20(%rsi)
	movq	$1, 24(%rsi)
	movq	$0, 32(%rsi)
	leaq	40(%rsi), %rdi
	movq	%r14, 40(%rsi)
	movq	$4, 48(%rsi)
	movq	%rbp, 56(%rsi)
	movq	%r15, 64(%rsi)
	movq	$1, 72(%rsi)
	movq	%r12, 80(%rsi)
	movq	$4, 88(%rsi)
	movabsq	$68719476737, %rax
	movq	%rax, 96(%rsi)
	xorps	%xmm6, %xmm6
	movups	%xmm6, 104(%rsi)
	movups	%xmm6, 120(%rsi)
	movups	%xmm6, 136(%rsi)
	movups	%xmm6, 152(%rsi)
	movups	%xmm6, 168(%rsi)
	leaq	184(%rsi), %r14
	pcmpeqd	%xmm0, %xmm0
	movdqu	%xmm0, 184(%rsi)
	movl	$0, 200(%rsi)
	leaq	204(%rsi), %rcx
	movl	$2544, %r8d
	movb	$-1, %dl
	callq	tlsf_memory_set
	movl	$0, 2748(%rsi)
	movq	%r13, 2752(%rsi)
	movq	%rdi, %rcx
	movl	%ebx, %edx
	callq	tlsf_words.words.Words.lengthen
	movl	$-1, 200(%rsi)
	movups	%xmm6, 96(%rsi)
	movups	%xmm6, 112(%rsi)
	movups	%xmm6, 128(%rsi)
	movups	%xmm6, 144(%rsi)
	movups	%xmm6, 160(%rsi)
	movq	$0, 176(%rsi)
	movl	48(%rsi), %eax
	leal	(,%rax,4), %ecx
	movabsq	$-4294967296, %rdx
	orq	%rdx, %rcx
	orq	$3, %rcx
	movq	40(%rsi), %r8
	movq	%rcx, (%r8)
	movq	$0, 8(%r8)
	movq	64(%rsi), %rcx
	orq	$1, (%rcx)
	cmpl	$4, 48(%rsp)
	jne	.LBB66_18
	movl	%eax, %ecx
	orl	$16, %ecx
	bsrl	%ecx, %ecx
	addl	$-4, %ecx
	shrl	%cl, %eax
	shll	$4, %ecx
	addl	%eax, %ecx
	movslq	(%r14,%rcx,4), %r8
	movl	$0, (%r14,%rcx,4)
	movq	(%rdi), %r9
	testq	%r8, %r8
	jns	.LBB66_21
	movq	$-1, 16(%r9)
	shrl	$4, %ecx
	movl	$1, %edx
	shll	%cl, %edx
	movl	100(%rsi,%rcx,4), %r8d
	orl	%edx, 96(%rsi)
	andb	$15, %al
	jmp	.LBB66_20
.LBB66_6:
	movq	%r14, %rcx
	jmp	.LBB66_7
.LBB66_24:
	movq	%r14, %rcx
	callq	tlsf_memory_dealloc
	movq	%r15, %rcx
.LBB66_7:
	callq	tlsf_memory_dealloc
	movl	$6, %eax
	jmp	.LBB66_23
.LBB66_18:
	movl	%eax, %ecx
	orl	$32, %ecx
	bsrl	%ecx, %ecx
	addl	$-5, %ecx
	shrl	%cl, %eax
	shll	$5, %ecx
	addl	%eax, %ecx
	movslq	(%r14,%rcx,4), %r8
	movl	$0, (%r14,%rcx,4)
	movq	(%rdi), %r9
	testq	%r8, %r8
	js	.LBB66_19
.LBB66_21:
	orq	%r8, %rdx
	movq	%rdx, 16(%r9)
	movl	$0, 20(%r9,%r8,8)
	jmp	.LBB66_22
.LBB66_19:
	movq	$-1, 16(%r9)
	shrl	$5, %ecx
	movl	$1, %edx
	shll	%cl, %edx
	movl	100(%rsi,%rcx,4), %r8d
	orl	%edx, 96(%rsi)
.LBB66_20:
	btsl	%eax, %r8d
	movl	%r8d, 100(%rsi,%rcx,4)
.LBB66_22:
	movq	56(%rsp), %rax
	movq	%rsi, (%rax)
	movb	$1, 8(%rax)
	movl	$0, 9(%rax)
	movl	$0, 12(%rax)
	xorl	%eax, %eax
	jmp	.LBB66_23
	.seh_endproc
	.def	tlsf_offsets_release;
	.scl	2;
	.type	32;
	.endef
	.globl	tlsf_offsets_release
	.p2align	4
tlsf_offsets_release:
.seh_proc tlsf_offsets_release
	subq	$56, %rsp
	.seh_stackalloc 56
	.seh_endprologue
	cmpb	$0, 8(%rdi)
	je	.LBB67_27
	movq	(%rdi), %rdi
	cmpb	$0, 1(%rdi)
	je	.LBB67_27
	cmpb	$0, (%rdi)
	jne	.LBB67_36
	movq	%rsi, %r10
	shrq	$32, %r10
	movb	$0, 1(%rdi)
	cmpb	$0, 8(%rdi)
	movl	16(%rdi), %eax
	je	.LBB67_12
	cmpl	%esi, %eax
	jne	.LBB67_21
	movl	%esi, %eax
	cmpl	48(%rdi), %r10d
	jae	.LBB67_21
	movq	64(%rdi), %rax
	movq	%rsi, %rcx
	shrq	$38, %rcx
	movq	(%rax,%rcx,8), %rax
	btq	%r10, %rax
	movl	%esi, %eax
	jae	.LBB67_21
	leaq	40(%rdi), %rcx
	movq	(%rcx), %r11
	movq	(%r11,%r10,8), %r8
	movl	%esi, %eax
	testb	$1, %r8b
	jne	.LBB67_21
	movl	%esi, %eax
	cmpq	%rdx, 8(%r11,%r10,8)
	jne	.LBB67_21
	movq	24(%rdi), %r9
	cmpq	$-1, %r9
	je	.LBB67_20
	movl	%r8d, %esi
	shrl	$2, %esi
	subl	%esi, 32(%rdi)
	testb	$2, %r8b
	jne	.LBB67_22
	leal	(%rsi,%r10), %eax
	movq	(%r11,%rax,8), %rdx
	testq	%r10, %r10
	jne	.LBB67_23
	jmp	.LBB67_24
.LBB67_12:
	cmpl	%esi, %eax
	jne	.LBB67_21
	movl	%esi, %eax
	cmpl	48(%rdi), %r10d
	jae	.LBB67_21
	movq	64(%rdi), %rax
	movq	%rsi, %rcx
	shrq	$38, %rcx
	movq	(%rax,%rcx,8), %rax
	btq	%r10, %rax
	movl	%esi, %eax
	jae	.LBB67_21
	leaq	40(%rdi), %rcx
	movq	(%rcx), %r11
	movq	(%r11,%r10,8), %r8
	movl	%esi, %eax
	testb	$1, %r8b
	jne	.LBB67_21
	movl	%esi, %eax
	cmpq	%rdx, 8(%r11,%r10,8)
	jne	.LBB67_21
	movq	24(%rdi), %r9
	cmpq	$-1, %r9
	je	.LBB67_20
	movl	%r8d, %esi
	shrl	$2, %esi
	subl	%esi, 32(%rdi)
	testb	$2, %r8b
	jne	.LBB67_31
	leal	(%rsi,%r10), %eax
	movq	(%r11,%rax,8), %rdx
	testq	%r10, %r10
	jne	.LBB67_32
	jmp	.LBB67_33
.LBB67_20:
	movb	$1, 1(%rdi)
	movl	$2, %eax
	addq	$56, %rsp
	retq
.LBB67_21:
	movl	%esi, %ecx
	movl	%eax, %edx
	callq	tlsf_heap.refusal.Refusal.of_name
	movl	%eax, %ecx
	movb	$1, 1(%rdi)
	xorl	%eax, %eax
	cmpb	$3, %cl
	sete	%al
	addl	$3, %eax
	addq	$56, %rsp
	retq
.LBB67_22:
	xorl	%edx, %edx
	testq	%r10, %r10
	je	.LBB67_24
.LBB67_23:
	movq	%r8, %rax
	shrq	$32, %rax
	movq	(%r11,%rax,8), %rax
	testb	$1, %al
	jne	.LBB67_30
.LBB67_24:
	testb	$1, %dl
	jne	.LBB67_29
	orq	$1, %r8
	movq	%r8, (%r11,%r10,8)
	movq	%r9, 8(%r11,%r10,8)
	incq	24(%rdi)
	movl	%esi, %eax
	orl	$32, %eax
	bsrl	%eax, %ecx
	addl	$-5, %ecx
	shrl	%cl, %esi
	shll	$5, %ecx
	addl	%esi, %ecx
	movslq	184(%rdi,%rcx,4), %rax
	movl	%r10d, 184(%rdi,%rcx,4)
	movq	40(%rdi), %rdx
	testq	%rax, %rax
	jns	.LBB67_35
	movq	$-1, 16(%rdx,%r10,8)
	shrl	$5, %ecx
	movl	$1, %eax
	shll	%cl, %eax
	movl	100(%rdi,%rcx,4), %edx
	orl	%eax, 96(%rdi)
	jmp	.LBB67_40
.LBB67_27:
	xorl	%ecx, %ecx
	callq	tlsf_c.call_fault.CallFault.refusal
	nop
	addq	$56, %rsp
	retq
.LBB67_29:
	leaq	1(%r9), %rax
	movq	%rax, 24(%rdi)
	movl	%r10d, 32(%rsp)
	callq	tlsf_heap.fitting.merge_next.5
	movb	$1, 1(%rdi)
	xorl	%eax, %eax
	addq	$56, %rsp
	retq
.LBB67_30:
	leaq	1(%r9), %rsi
	movq	%rsi, 24(%rdi)
	movq	%r8, 40(%rsp)
	movl	%r10d, 32(%rsp)
	movq	%rax, %r8
	callq	tlsf_heap.fitting.merge_before.5
	movb	$1, 1(%rdi)
	xorl	%eax, %eax
	addq	$56, %rsp
	retq
.LBB67_31:
	xorl	%edx, %edx
	testq	%r10, %r10
	je	.LBB67_33
.LBB67_32:
	movq	%r8, %rax
	shrq	$32, %rax
	movq	(%r11,%rax,8), %rax
	testb	$1, %al
	jne	.LBB67_38
.LBB67_33:
	testb	$1, %dl
	jne	.LBB67_37
	orq	$1, %r8
	movq	%r8, (%r11,%r10,8)
	movq	%r9, 8(%r11,%r10,8)
	incq	24(%rdi)
	movl	%esi, %eax
	orl	$16, %eax
	bsrl	%eax, %ecx
	addl	$-4, %ecx
	shrl	%cl, %esi
	shll	$4, %ecx
	addl	%esi, %ecx
	movslq	184(%rdi,%rcx,4), %rax
	movl	%r10d, 184(%rdi,%rcx,4)
	movq	40(%rdi), %rdx
	testq	%rax, %rax
	js	.LBB67_39
.LBB67_35:
	movabsq	$-4294967296, %rcx
	orq	%rax, %rcx
	movq	%rcx, 16(%rdx,%r10,8)
	movl	%r10d, 20(%rdx,%rax,8)
	movb	$1, 1(%rdi)
	xorl	%eax, %eax
	addq	$56, %rsp
	retq
.LBB67_36:
	movb	$2, %cl
	callq	tlsf_c.call_fault.CallFault.refusal
	nop
	addq	$56, %rsp
	retq
.LBB67_37:
	leaq	1(%r9), %rax
	movq	%rax, 24(%rdi)
	movl	%r10d, 32(%rsp)
	callq	tlsf_heap.fitting.merge_next.4
	movb	$1, 1(%rdi)
	xorl	%eax, %eax
	addq	$56, %rsp
	retq
.LBB67_38:
	leaq	1(%r9), %rsi
	movq	%rsi, 24(%rdi)
	movq	%r8, 40(%rsp)
	movl	%r10d, 32(%rsp)
	movq	%rax, %r8
	callq	tlsf_heap.fitting.merge_before.4
	movb	$1, 1(%rdi)
	xorl	%eax, %eax
	addq	$56, %rsp
	retq
.LBB67_39:
	movq	$-1, 16(%rdx,%r10,8)
	shrl	$4, %ecx
	movl	$1, %eax
	shll	%cl, %eax
	movl	100(%rdi,%rcx,4), %edx
	orl	%eax, 96(%rdi)
	andb	$15, %sil
.LBB67_40:
	btsl	%esi, %edx
	movl	%edx, 100(%rdi,%rcx,4)
	movb	$1, 1(%rdi)
	xorl	%eax, %eax
	addq	$56, %rsp
	retq
	.seh_endproc
	.def	tlsf_offsets_resize;
	.scl	2;
	.type	32;
	.endef
	.globl	tlsf_offsets_resize
	.p2align	4
tlsf_offsets_resize:
.seh_proc tlsf_offsets_resize
	pushq	%r15
	.seh_pushreg %r15
	pushq	%r14
	.seh_pushreg %r14
	pushq	%r13
	.seh_pushreg %r13
	pushq	%r12
	.seh_pushreg %r12
	pushq	%rsi
	.seh_pushreg %rsi
	pushq	%rdi
	.seh_pushreg %rdi
	pushq	%rbp
	.seh_pushreg %rbp
	pushq	%rbx
	.seh_pushreg %rbx
	subq	$56, %rsp
	.seh_stackalloc 56
	.seh_endprologue
	cmpb	$0, 8(%rcx)
	je	.LBB68_2
	movq	(%rcx), %r12
	cmpb	$0, 1(%r12)
	je	.LBB68_2
	cmpb	$0, (%r12)
	jne	.LBB68_56
	movq	%rdx, %rsi
	movb	$0, 1(%r12)
	movl	(%rdx), %edi
	movl	4(%rdx), %ebx
	movq	8(%rdx), %r10
	cmpb	$0, 8(%r12)
	movl	2752(%r12), %ecx
	je	.LBB68_6
	testq	%rcx, %rcx
	je	.LBB68_55
	movq	%r8, %rax
	shrq	$32, %rax
	je	.LBB68_30
	movq	%r8, %rax
	xorl	%edx, %edx
	divq	%rcx
	jmp	.LBB68_32
.LBB68_6:
	testq	%rcx, %rcx
	je	.LBB68_55
	movq	%r8, %rax
	shrq	$32, %rax
	je	.LBB68_8
	movq	%r8, %rax
	xorl	%edx, %edx
	divq	%rcx
	jmp	.LBB68_10
.LBB68_30:
	movl	%r8d, %eax
	xorl	%edx, %edx
	divl	%ecx
.LBB68_32:
	cmpq	$1, %rdx
	sbbq	$-1, %rax
	cmpq	$5, %rax
	movl	$4, %r15d
	cmovaeq	%rax, %r15
	movl	$4294967295, %eax
	cmpq	%rax, %r15
	cmovaeq	%rax, %r15
	movl	16(%r12), %edx
	cmpl	%edx, %edi
	jne	.LBB68_53
	movl	%edi, %edx
	cmpl	48(%r12), %ebx
	jae	.LBB68_53
	movq	64(%r12), %rax
	movl	%ebx, %ecx
	shrl	$6, %ecx
	movq	(%rax,%rcx,8), %rax
	btq	%rbx, %rax
	movl	%edi, %edx
	jae	.LBB68_53
	leaq	40(%r12), %r14
	movq	(%r14), %rax
	movq	(%rax,%rbx,8), %r8
	movl	%edi, %edx
	testb	$1, %r8b
	jne	.LBB68_53
	leaq	(,%rbx,8), %rbp
	movl	%edi, %edx
	cmpq	%r10, 8(%rax,%rbp)
	jne	.LBB68_53
	movl	%r8d, %r13d
	shrl	$2, %r13d
	cmpl	%r15d, %r13d
	jae	.LBB68_38
	testb	$2, %r8b
	jne	.LBB68_44
	leal	(%rbx,%r13), %ecx
	movq	(%rax,%rcx,8), %r9
	testb	$1, %r9b
	jne	.LBB68_45
.LBB68_44:
	xorl	%r9d, %r9d
.LBB68_45:
	movl	%r9d, %eax
	shrl	$2, %eax
	addl	%r13d, %eax
	cmpl	%r15d, %eax
	jb	.LBB68_52
	movq	24(%r12), %rax
	cmpq	$-1, %rax
	je	.LBB68_51
	movq	%r10, 48(%rsp)
	movq	%rax, 40(%rsp)
	movl	%r15d, 32(%rsp)
	movq	%r14, %rcx
	movl	%ebx, %edx
	callq	tlsf_heap.refitting.recut.5
	movq	40(%r12), %rcx
	movq	$0, 16(%rcx,%rbp)
	subl	%r13d, %eax
	addl	32(%r12), %eax
	movl	%eax, 32(%r12)
	cmpl	%eax, 36(%r12)
	jae	.LBB68_49
	movl	%eax, 36(%r12)
.LBB68_49:
	incq	24(%r12)
	addq	(%r14), %rbp
	movq	48(%rsp), %r10
	jmp	.LBB68_50
.LBB68_38:
	movq	24(%r12), %rcx
	cmpq	$-1, %rcx
	je	.LBB68_51
	movq	$0, 16(%rax,%rbp)
	leal	4(%r15), %edx
	movl	%r13d, %eax
	cmpl	%edx, %r13d
	jb	.LBB68_41
	movq	%rcx, 32(%rsp)
	movq	%r14, %rcx
	movl	%ebx, %edx
	movl	%r15d, %r9d
	movq	%r10, %r14
	callq	tlsf_heap.refitting.split_off.5
	movq	%r14, %r10
	leaq	40(%r12), %r14
	movl	%r15d, %eax
.LBB68_41:
	subl	%r13d, %eax
	addl	%eax, 32(%r12)
	incq	24(%r12)
	addq	(%r14), %rbp
	jmp	.LBB68_50
.LBB68_8:
	movl	%r8d, %eax
	xorl	%edx, %edx
	divl	%ecx
.LBB68_10:
	cmpq	$1, %rdx
	sbbq	$-1, %rax
	cmpq	$5, %rax
	movl	$4, %r15d
	cmovaeq	%rax, %r15
	movl	$4294967295, %eax
	cmpq	%rax, %r15
	cmovaeq	%rax, %r15
	movl	16(%r12), %edx
	cmpl	%edx, %edi
	jne	.LBB68_53
	movl	%edi, %edx
	cmpl	48(%r12), %ebx
	jae	.LBB68_53
	movq	64(%r12), %rax
	movl	%ebx, %ecx
	shrl	$6, %ecx
	movq	(%rax,%rcx,8), %rax
	btq	%rbx, %rax
	movl	%edi, %edx
	jae	.LBB68_53
	leaq	40(%r12), %rcx
	movq	(%rcx), %rax
	movq	(%rax,%rbx,8), %r8
	movl	%edi, %edx
	testb	$1, %r8b
	jne	.LBB68_53
	leaq	(,%rbx,8), %rbp
	movl	%edi, %edx
	cmpq	%r10, 8(%rax,%rbp)
	jne	.LBB68_53
	movl	%r8d, %r14d
	shrl	$2, %r14d
	cmpl	%r15d, %r14d
	jae	.LBB68_16
	testb	$2, %r8b
	jne	.LBB68_22
	leal	(%r14,%rbx), %edx
	movq	(%rax,%rdx,8), %r9
	testb	$1, %r9b
	jne	.LBB68_23
.LBB68_22:
	xorl	%r9d, %r9d
.LBB68_23:
	movl	%r9d, %eax
	shrl	$2, %eax
	addl	%r14d, %eax
	cmpl	%r15d, %eax
	jae	.LBB68_24
.LBB68_52:
	movb	$1, 1(%r12)
	movl	$10, %eax
	jmp	.LBB68_54
.LBB68_53:
	movl	%edi, %ecx
	callq	tlsf_heap.refusal.Refusal.of_name
	movl	%eax, %ecx
	movb	$1, 1(%r12)
	xorl	%eax, %eax
	cmpb	$3, %cl
	sete	%al
	addl	$3, %eax
	jmp	.LBB68_54
.LBB68_16:
	movq	24(%r12), %r9
	cmpq	$-1, %r9
	je	.LBB68_51
	movq	$0, 16(%rax,%rbp)
	leal	4(%r15), %edx
	movl	%r14d, %eax
	cmpl	%edx, %r14d
	jb	.LBB68_19
	movq	%r9, 32(%rsp)
	movl	%ebx, %edx
	movl	%r15d, %r9d
	movq	%r10, %r13
	callq	tlsf_heap.refitting.split_off.4
	leaq	40(%r12), %rcx
	movq	%r13, %r10
	movl	%r15d, %eax
.LBB68_19:
	subl	%r14d, %eax
	addl	%eax, 32(%r12)
	incq	24(%r12)
	addq	(%rcx), %rbp
	jmp	.LBB68_50
.LBB68_2:
	xorl	%ecx, %ecx
	jmp	.LBB68_3
.LBB68_24:
	movq	24(%r12), %rax
	cmpq	$-1, %rax
	je	.LBB68_51
	movq	%r10, %r13
	movq	%rax, 40(%rsp)
	movl	%r15d, 32(%rsp)
	movq	%rcx, %r15
	movl	%ebx, %edx
	callq	tlsf_heap.refitting.recut.4
	movq	40(%r12), %rcx
	movq	$0, 16(%rcx,%rbp)
	subl	%r14d, %eax
	addl	32(%r12), %eax
	movl	%eax, 32(%r12)
	cmpl	%eax, 36(%r12)
	jae	.LBB68_27
	movl	%eax, 36(%r12)
.LBB68_27:
	incq	24(%r12)
	addq	(%r15), %rbp
	movq	%r13, %r10
.LBB68_50:
	movl	(%rbp), %eax
	shrl	$2, %eax
	movl	2752(%r12), %ecx
	movq	%rbx, %rdx
	imulq	%rcx, %rdx
	imulq	%rcx, %rax
	movb	$1, 1(%r12)
	movl	%edi, (%rsi)
	movl	%ebx, 4(%rsi)
	movq	%r10, 8(%rsi)
	movq	%rdx, 16(%rsi)
	movq	%rax, 24(%rsi)
	xorl	%eax, %eax
	jmp	.LBB68_54
.LBB68_51:
	movb	$1, 1(%r12)
	movl	$2, %eax
.LBB68_54:
	addq	$56, %rsp
	popq	%rbx
	popq	%rbp
	popq	%rdi
	popq	%rsi
	popq	%r12
	popq	%r13
	popq	%r14
	popq	%r15
	retq
.LBB68_56:
	movb	$2, %cl
.LBB68_3:
	addq	$56, %rsp
	popq	%rbx
	popq	%rbp
	popq	%rdi
	popq	%rsi
	popq	%r12
	popq	%r13
	popq	%r14
	popq	%r15
	jmp	tlsf_c.call_fault.CallFault.refusal
.LBB68_55:
	ud2
	.seh_endproc
	.def	tlsf_open;
	.scl	2;
	.type	32;
	.endef
	.globl	tlsf_open
	.p2align	4
tlsf_open:
.seh_proc tlsf_open
	pushq	%r15
	.seh_pushreg %r15
	pushq	%r14
	.seh_pushreg %r14
	pushq	%r13
	.seh_pushreg %r13
	pushq	%r12
	.seh_pushreg %r12
	pushq	%rsi
	.seh_pushreg %rsi
	pushq	%rdi
	.seh_pushreg %rdi
	pushq	%rbp
	.seh_pushreg %rbp
	pushq	%rbx
	.seh_pushreg %rbx
	subq	$216, %rsp
	.seh_stackalloc 216
	movaps	%xmm15, 192(%rsp)
	.seh_savexmm %xmm15, 192
	movaps	%xmm14, 176(%rsp)
	.seh_savexmm %xmm14, 176
	movaps	%xmm13, 160(%rsp)
	.seh_savexmm %xmm13, 160
	movaps	%xmm12, 144(%rsp)
	.seh_savexmm %xmm12, 144
	movaps	%xmm11, 128(%rsp)
	.seh_savexmm %xmm11, 128
	movaps	%xmm10, 112(%rsp)
	.seh_savexmm %xmm10, 112
	movaps	%xmm9, 96(%rsp)
	.seh_savexmm %xmm9, 96
	movaps	%xmm8, 80(%rsp)
	.seh_savexmm %xmm8, 80
	movaps	%xmm7, 64(%rsp)
	.seh_savexmm %xmm7, 64
	movaps	%xmm6, 48(%rsp)
	.seh_savexmm %xmm6, 48
	.seh_endprologue
	movl	$33, %eax
	cmpb	$0, 8(%rcx)
	jne	.LBB69_24
	leal	-6(%rdx), %r10d
	movl	$34, %eax
	cmpl	$-2, %r10d
	jae	.LBB69_2
.LBB69_24:
	movaps	48(%rsp), %xmm6
	movaps	64(%rsp), %xmm7
	movaps	80(%rsp), %xmm8
	movaps	96(%rsp), %xmm9
	movaps	112(%rsp), %xmm10
	movaps	128(%rsp), %xmm11
	movaps	144(%rsp), %xmm12
	movaps	160(%rsp), %xmm13
	movaps	176(%rsp), %xmm14
	movaps	192(%rsp), %xmm15
	addq	$216, %rsp
	popq	%rbx
	popq	%rbp
	popq	%rdi
	popq	%rsi
	popq	%r12
	popq	%r13
	popq	%r14
	popq	%r15
	retq
.LBB69_2:
	cmpl	$4, %edx
	jne	.LBB69_13
	leal	-1048577(%r9), %r10d
	movl	$5, %eax
	cmpl	$-1048573, %r10d
	jb	.LBB69_24
	movq	%rdx, %r13
	movl	%r8d, 36(%rsp)
	movq	%rcx, 40(%rsp)
	movq	%r9, %rbx
	movl	%r9d, %r12d
	leaq	(,%r12,8), %rdi
	movl	$8, %esi
	callq	tlsf_memory_alloc
	movq	%rax, %rcx
	movl	$6, %eax
	testb	$1, %cl
	je	.LBB69_24
	movq	%rdx, %r14
	pxor	%xmm0, %xmm0
	movdqu	%xmm0, 16(%rdx)
	movdqu	%xmm0, (%rdx)
	leal	63(%rbx), %ebp
	shrl	$6, %ebp
	leal	(,%rbp,8), %edi
	movl	$8, %esi
	callq	tlsf_memory_alloc
	testb	$1, %al
	je	.LBB69_6
	movq	%rdx, %r15
	movq	$0, (%rdx)
	movabsq	$-4294967296, %rax
	orq	$19, %rax
	movq	%rax, (%r14)
	movq	$0, 8(%r14)
	orb	$1, (%rdx)
	movq	$-1, 16(%r14)
	movl	$2760, %edi
	movl	$8, %esi
	callq	tlsf_memory_alloc
	testb	$1, %al
	je	.LBB69_18
	movq	%rdx, %rsi
	movb	$1, (%rdx)
	pxor	%xmm0, %xmm0
	movdqu	%xmm0, 8(%rdx)
	jmp	.LBB69_10
.LBB69_13:
	leal	-16777217(%r9), %r10d
	movl	$5, %eax
	cmpl	$-16777213, %r10d
	jb	.LBB69_24
	movq	%rdx, %r13
	movl	%r8d, 36(%rsp)
	movq	%rcx, 40(%rsp)
	movq	%r9, %rbx
	movl	%r9d, %r12d
	leaq	(,%r12,8), %rdi
	movl	$8, %esi
	callq	tlsf_memory_alloc
	movq	%rax, %rcx
	movl	$6, %eax
	testb	$1, %cl
	je	.LBB69_24
	movq	%rdx, %r14
	pxor	%xmm0, %xmm0
	movdqu	%xmm0, 16(%rdx)
	movdqu	%xmm0, (%rdx)
	leal	63(%rbx), %ebp
	shrl	$6, %ebp
	leal	(,%rbp,8), %edi
	movl	$8, %esi
	callq	tlsf_memory_alloc
	testb	$1, %al
	je	.LBB69_6
	movq	%rdx, %r15
	movq	$0, (%rdx)
	movabsq	$-4294967296, %rax
	orq	$19, %rax
	movq	%rax, (%r14)
	movq	$0, 8(%r14)
	orb	$1, (%rdx)
	movq	$-1, 16(%r14)
	movl	$2760, %edi
	movl	$8, %esi
	callq	tlsf_memory_alloc
	testb	$1, %al
	je	.LBB69_18
	movq	%rdx, %rsi
	movb	$1, (%rdx)
	movq	$0, 8(%rdx)
	movq	$1, 16(%rdx)
.LBB69_10:
	movl	36(%rsp), %eax
	movl	%eax, 24(%rsi)
	movl	$0, 28(%rsi)
	movq	$1, 32(%rsi)
	movq	$0, 40(%rsi)
	leaq	48(%rsi), %rdi
	movq	%r14, 48(%rsi)
	movq	$4, 56(%rsi)
	movq	%r12, 64(%rsi)
	movq	%r15, 72(%rsi)
	movq	$1, 80(%rsi)
	movq	%rbp, 88(%rsi)
	movq	$4, 96(%rsi)
	movabsq	$68719476737, %rax
	movq	%rax, 104(%rsi)
	xorps	%xmm6, %xmm6
	movups	%xmm6, 112(%rsi)
	movups	%xmm6, 128(%rsi)
	movups	%xmm6, 144(%rsi)
	movups	%xmm6, 160(%rsi)
	movups	%xmm6, 176(%rsi)
	leaq	192(%rsi), %r14
	pcmpeqd	%xmm0, %xmm0
	movdqu	%xmm0, 192(%rsi)
	movl	$0, 208(%rsi)
	leaq	212(%rsi), %rcx
	movl	$2544, %r8d
	movb	$-1, %dl
	callq	tlsf_memory_set
	movl	$0, 2756(%rsi)
	movq	%rdi, %rcx
	movl	%ebx, %edx
	callq	tlsf_words.words.Words.lengthen
	movl	$-1, 208(%rsi)
	movups	%xmm6, 104(%rsi)
	movups	%xmm6, 120(%rsi)
	movups	%xmm6, 136(%rsi)
	movups	%xmm6, 152(%rsi)
	movups	%xmm6, 168(%rsi)
	movq	$0, 184(%rsi)
	movl	56(%rsi), %eax
	leal	(,%rax,4), %ecx
	movabsq	$-4294967296, %rdx
	orq	%rdx, %rcx
	orq	$3, %rcx
	movq	48(%rsi), %r8
	movq	%rcx, (%r8)
	movq	$0, 8(%r8)
	movq	72(%rsi), %rcx
	orq	$1, (%rcx)
	movl	%eax, %ecx
	cmpl	$4, %r13d
	jne	.LBB69_19
	orl	$16, %ecx
	bsrl	%ecx, %ecx
	addl	$-4, %ecx
	shrl	%cl, %eax
	shll	$4, %ecx
	addl	%eax, %ecx
	movslq	(%r14,%rcx,4), %r8
	movl	$0, (%r14,%rcx,4)
	movq	(%rdi), %r9
	testq	%r8, %r8
	jns	.LBB69_22
	movq	$-1, 16(%r9)
	shrl	$4, %ecx
	movl	$1, %edx
	shll	%cl, %edx
	movl	108(%rsi,%rcx,4), %r8d
	orl	%edx, 104(%rsi)
	andb	$15, %al
	jmp	.LBB69_21
.LBB69_6:
	movq	%r14, %rcx
	jmp	.LBB69_7
.LBB69_18:
	movq	%r14, %rcx
	callq	tlsf_memory_dealloc
	movq	%r15, %rcx
.LBB69_7:
	callq	tlsf_memory_dealloc
	movl	$6, %eax
	jmp	.LBB69_24
.LBB69_19:
	orl	$32, %ecx
	bsrl	%ecx, %ecx
	addl	$-5, %ecx
	shrl	%cl, %eax
	shll	$5, %ecx
	addl	%eax, %ecx
	movslq	(%r14,%rcx,4), %r8
	movl	$0, (%r14,%rcx,4)
	movq	(%rdi), %r9
	testq	%r8, %r8
	js	.LBB69_20
.LBB69_22:
	orq	%r8, %rdx
	movq	%rdx, 16(%r9)
	movl	$0, 20(%r9,%r8,8)
	jmp	.LBB69_23
.LBB69_20:
	movq	$-1, 16(%r9)
	shrl	$5, %ecx
	movl	$1, %edx
	shll	%cl, %edx
	movl	108(%rsi,%rcx,4), %r8d
	orl	%edx, 104(%rsi)
.LBB69_21:
	btsl	%eax, %r8d
	movl	%r8d, 108(%rsi,%rcx,4)
.LBB69_23:
	movl	36(%rsp), %eax
	movq	48(%rsi), %rcx
	movq	40(%rsp), %rdx
	movq	%rcx, 16(%rdx)
	movl	%eax, 24(%rdx)
	movb	$0, 28(%rdx)
	movq	%rsi, (%rdx)
	movb	$1, 8(%rdx)
	xorl	%eax, %eax
	jmp	.LBB69_24
	.seh_endproc
	.def	tlsf_place;
	.scl	2;
	.type	32;
	.endef
	.globl	tlsf_place
	.p2align	4
tlsf_place:
	cmpb	$0, 8(%rcx)
	je	.LBB70_8
	movq	(%rcx), %rax
	cmpb	$0, (%rax)
	je	.LBB70_8
	movb	$0, (%rax)
	movl	24(%rax), %ecx
	movl	56(%rax), %r10d
	cmpb	$0, 16(%rax)
	cmpl	%r10d, %edx
	jae	.LBB70_5
	movq	72(%rax), %r10
	movl	%edx, %r11d
	shrl	$6, %r11d
	movq	(%r10,%r11,8), %r10
	btq	%rdx, %r10
	jae	.LBB70_5
	movq	48(%rax), %r10
	movl	%edx, %r11d
	testb	$1, (%r10,%r11,8)
	jne	.LBB70_5
	leaq	(%r10,%r11,8), %r10
	movq	8(%r10), %r11
	movl	16(%r10), %r10d
	movb	$1, (%rax)
	movl	%ecx, (%r8)
	movl	%edx, 4(%r8)
	movq	%r11, 8(%r8)
	movl	%r10d, (%r9)
	xorl	%eax, %eax
	retq
.LBB70_5:
	movb	$1, (%rax)
	movl	$4, %eax
	retq
.LBB70_8:
	xorl	%ecx, %ecx
	jmp	tlsf_c.call_fault.CallFault.refusal
	.def	tlsf_pools_allocate;
	.scl	2;
	.type	32;
	.endef
	.globl	tlsf_pools_allocate
	.p2align	4
tlsf_pools_allocate:
.seh_proc tlsf_pools_allocate
	pushq	%r15
	.seh_pushreg %r15
	pushq	%r14
	.seh_pushreg %r14
	pushq	%r13
	.seh_pushreg %r13
	pushq	%r12
	.seh_pushreg %r12
	pushq	%rsi
	.seh_pushreg %rsi
	pushq	%rdi
	.seh_pushreg %rdi
	pushq	%rbp
	.seh_pushreg %rbp
	pushq	%rbx
	.seh_pushreg %rbx
	subq	$40, %rsp
	.seh_stackalloc 40
	.seh_endprologue
	cmpb	$0, 8(%rcx)
	je	.LBB71_2
	movq	(%rcx), %rsi
	cmpb	$0, 1(%rsi)
	je	.LBB71_2
	cmpb	$1, (%rsi)
	jne	.LBB71_68
	movb	$0, 1(%rsi)
	movl	$4294967295, %r11d
	cmpq	%r11, %rdx
	cmovbq	%rdx, %r11
	cmpb	$0, 8(%rsi)
	movq	24(%rsi), %rax
	movq	32(%rsi), %rcx
	je	.LBB71_6
	testq	%rcx, %rcx
	je	.LBB71_47
	xorl	%edi, %edi
	jmp	.LBB71_41
	.p2align	4
.LBB71_49:
	incq	%rdi
	cmpq	%rcx, %rdi
	je	.LBB71_47
.LBB71_41:
	imulq	$2792, %rdi, %r14
	movq	2744(%rax,%r14), %r9
	testq	%r9, %r9
	je	.LBB71_49
	addq	%rax, %r14
	movq	2736(%r14), %r10
	xorl	%ebx, %ebx
	.p2align	4
.LBB71_43:
	cmpl	%r11d, 4(%r10,%rbx,8)
	jae	.LBB71_44
	incq	%rbx
	cmpq	%rbx, %r9
	jne	.LBB71_43
	jmp	.LBB71_49
.LBB71_6:
	testq	%rcx, %rcx
	je	.LBB71_47
	xorl	%edi, %edi
	jmp	.LBB71_8
	.p2align	4
.LBB71_15:
	incq	%rdi
	cmpq	%rcx, %rdi
	je	.LBB71_47
.LBB71_8:
	imulq	$2792, %rdi, %r14
	movq	2744(%rax,%r14), %r9
	testq	%r9, %r9
	je	.LBB71_15
	addq	%rax, %r14
	movq	2736(%r14), %r10
	xorl	%ebx, %ebx
	.p2align	4
.LBB71_10:
	cmpl	%r11d, 4(%r10,%rbx,8)
	jae	.LBB71_11
	incq	%rbx
	cmpq	%rbx, %r9
	jne	.LBB71_10
	jmp	.LBB71_15
.LBB71_44:
	xorl	%r15d, %r15d
	.p2align	4
.LBB71_45:
	cmpl	%r11d, 4(%r10,%r15,8)
	jae	.LBB71_50
	incq	%r15
	cmpq	%r15, %r9
	jne	.LBB71_45
	jmp	.LBB71_47
.LBB71_11:
	xorl	%r15d, %r15d
	.p2align	4
.LBB71_12:
	cmpl	%r11d, 4(%r10,%r15,8)
	jae	.LBB71_16
	incq	%r15
	cmpq	%r15, %r9
	jne	.LBB71_12
.LBB71_47:
	movb	$1, 1(%rsi)
	movl	$5, %eax
.LBB71_71:
	addq	$40, %rsp
	popq	%rbx
	popq	%rbp
	popq	%rdi
	popq	%rsi
	popq	%r12
	popq	%r13
	popq	%r14
	popq	%r15
	retq
.LBB71_50:
	movq	2768(%r14), %rax
	movl	(%rax,%r15,4), %eax
	cmpl	(%r10,%r15,8), %eax
	jae	.LBB71_69
	movl	2760(%r14), %r12d
	cmpl	$16777216, %r12d
	ja	.LBB71_70
	movl	%r12d, %eax
	orl	$32, %eax
	bsrl	%eax, %ecx
	addl	$-5, %ecx
	leal	-1(%r12), %r10d
	shrl	%cl, %r10d
	shll	$5, %ecx
	leal	(%r10,%rcx), %eax
	incl	%eax
	decq	%rax
	movq	%rax, %r9
	shrq	$5, %r9
	leaq	84(%r14), %r13
	movl	84(%r14,%r9,4), %edi
	movl	%r10d, %ecx
	shrl	%cl, %edi
	andl	$-2, %edi
	je	.LBB71_54
	rep		bsfl	%edi, %ecx
	addq	%rcx, %rax
	movq	8(%r14), %rdi
	cmpq	$-1, %rdi
	jne	.LBB71_57
	jmp	.LBB71_70
.LBB71_2:
	xorl	%ecx, %ecx
	jmp	.LBB71_3
.LBB71_16:
	movq	2768(%r14), %rax
	movl	(%rax,%r15,4), %eax
	cmpl	(%r10,%r15,8), %eax
	jae	.LBB71_69
	movl	2760(%r14), %r12d
	cmpl	$1048576, %r12d
	ja	.LBB71_70
	movl	%r12d, %eax
	orl	$16, %eax
	bsrl	%eax, %ecx
	addl	$-4, %ecx
	leal	-1(%r12), %r10d
	shrl	%cl, %r10d
	shll	$4, %ecx
	leal	(%r10,%rcx), %eax
	incl	%eax
	decq	%rax
	movq	%rax, %r9
	shrq	$4, %r9
	leaq	84(%r14), %r13
	movl	84(%r14,%r9,4), %edi
	andb	$15, %r10b
	movl	%r10d, %ecx
	shrl	%cl, %edi
	andl	$-2, %edi
	je	.LBB71_20
	rep		bsfl	%edi, %ecx
	addq	%rcx, %rax
	jmp	.LBB71_22
.LBB71_69:
	movb	$1, 1(%rsi)
	movl	$38, %eax
	jmp	.LBB71_71
.LBB71_68:
	movb	$2, %cl
.LBB71_3:
	addq	$40, %rsp
	popq	%rbx
	popq	%rbp
	popq	%rdi
	popq	%rsi
	popq	%r12
	popq	%r13
	popq	%r14
	popq	%r15
	jmp	tlsf_c.call_fault.CallFault.refusal
.LBB71_54:
	movl	80(%r14), %eax
	incb	%r9b
	movl	%r9d, %ecx
	shrl	%cl, %eax
	shll	%cl, %eax
	testl	%eax, %eax
	je	.LBB71_70
	rep		bsfl	%eax, %eax
	movl	$32, %ecx
	rep		bsfl	(%r13,%rax,4), %ecx
	shll	$5, %eax
	addl	%ecx, %eax
	movq	8(%r14), %rdi
	cmpq	$-1, %rdi
	je	.LBB71_70
.LBB71_57:
	movq	24(%r14), %r10
	movl	168(%r14,%rax,4), %ebx
	movq	16(%r10,%rbx,8), %rcx
	cmpl	$-1, %ecx
	je	.LBB71_58
	movl	%ecx, %r9d
	movl	$-1, 20(%r10,%r9,8)
	movl	%ecx, 168(%r14,%rax,4)
	movq	24(%r14), %r10
	jmp	.LBB71_61
.LBB71_20:
	movl	80(%r14), %eax
	incb	%r9b
	movl	%r9d, %ecx
	shrl	%cl, %eax
	shll	%cl, %eax
	testl	%eax, %eax
	je	.LBB71_70
	rep		bsfl	%eax, %eax
	movl	$32, %ecx
	rep		bsfl	(%r13,%rax,4), %ecx
	shll	$4, %eax
	addl	%ecx, %eax
.LBB71_22:
	movq	8(%r14), %rdi
	cmpq	$-1, %rdi
	je	.LBB71_70
	movq	24(%r14), %r10
	movl	168(%r14,%rax,4), %ebx
	movq	16(%r10,%rbx,8), %rcx
	cmpl	$-1, %ecx
	je	.LBB71_24
	movl	%ecx, %r9d
	movl	$-1, 20(%r10,%r9,8)
	movl	%ecx, 168(%r14,%rax,4)
	movq	24(%r14), %r10
	jmp	.LBB71_27
.LBB71_70:
	movb	$1, 1(%rsi)
	movl	$2, %eax
	jmp	.LBB71_71
.LBB71_58:
	leaq	168(%r14), %rcx
	movl	$-1, (%rcx,%rax,4)
	movq	%rax, %r9
	shrq	$5, %r9
	movl	$-2, %ebp
	movl	%eax, %ecx
	roll	%cl, %ebp
	movl	$-2, %eax
	andl	%ebp, (%r13,%r9,4)
	jne	.LBB71_61
	movl	%r9d, %ecx
	roll	%cl, %eax
	andl	%eax, 80(%r14)
.LBB71_61:
	movq	(%r10,%rbx,8), %rcx
	leal	(,%r12,4), %eax
	movl	%ecx, %r9d
	subl	%eax, %r9d
	cmpl	$15, %r9d
	jbe	.LBB71_28
	movl	%r9d, %r13d
	shrl	$2, %r9d
	movq	%rbx, %rbp
	shlq	$32, %rbp
	orq	%r13, %rbp
	leal	(%rbx,%r12), %eax
	subq	%r13, %rcx
	movq	%rcx, (%r10,%rbx,8)
	movq	%rdi, 8(%r10,%rbx,8)
	movq	%r11, 16(%r10,%rbx,8)
	movq	%rbp, (%r10,%rax,8)
	movq	%rdi, 32(%rsp)
	movq	%rdi, 8(%r10,%rax,8)
	movq	48(%r14), %r10
	movl	%eax, %ebp
	shrl	$6, %ebp
	movl	$1, %edi
	movl	%eax, %ecx
	shlq	%cl, %rdi
	orq	%rdi, (%r10,%rbp,8)
	testb	$2, %r13b
	jne	.LBB71_64
	leal	(%r9,%rax), %ecx
	movq	24(%r14), %r10
	movl	%eax, 4(%r10,%rcx,8)
.LBB71_64:
	movl	%r9d, %ecx
	orl	$32, %ecx
	bsrl	%ecx, %ecx
	addl	$-5, %ecx
	shrl	%cl, %r9d
	shll	$5, %ecx
	addl	%r9d, %ecx
	movslq	168(%r14,%rcx,4), %r10
	movl	%eax, 168(%r14,%rcx,4)
	movq	24(%r14), %r13
	testq	%r10, %r10
	js	.LBB71_65
	movabsq	$-4294967296, %rcx
	orq	%r10, %rcx
	movq	%rcx, 16(%r13,%rax,8)
	movl	%eax, 20(%r13,%r10,8)
	movq	32(%rsp), %rdi
	jmp	.LBB71_34
.LBB71_24:
	leaq	168(%r14), %rcx
	movl	$-1, (%rcx,%rax,4)
	movq	%rax, %r9
	shrq	$4, %r9
	andb	$15, %al
	movl	$-2, %ebp
	movl	%eax, %ecx
	roll	%cl, %ebp
	movl	$-2, %eax
	andl	%ebp, (%r13,%r9,4)
	jne	.LBB71_27
	movl	%r9d, %ecx
	roll	%cl, %eax
	andl	%eax, 80(%r14)
.LBB71_27:
	movq	(%r10,%rbx,8), %rcx
	leal	(,%r12,4), %eax
	movl	%ecx, %r9d
	subl	%eax, %r9d
	cmpl	$15, %r9d
	ja	.LBB71_29
.LBB71_28:
	decq	%rcx
	movq	%rcx, (%r10,%rbx,8)
	movq	%rdi, 8(%r10,%rbx,8)
	movq	%r11, 16(%r10,%rbx,8)
	shrl	$2, %ecx
	movl	%ecx, %r12d
.LBB71_34:
	addl	16(%r14), %r12d
	movl	%r12d, 16(%r14)
	cmpl	%r12d, 20(%r14)
	jae	.LBB71_36
	movl	%r12d, 20(%r14)
.LBB71_36:
	incq	8(%r14)
	movl	(%r14), %ebp
	cmpq	$1, %rdx
	adcq	$31, %r11
	shrq	$3, %r11
	addl	$-3, %r11d
	je	.LBB71_38
	leal	3(%rbx), %ecx
	movl	%r11d, %eax
	shlq	$3, %rcx
	addq	24(%r14), %rcx
	shlq	$3, %rax
	xorl	%edx, %edx
	movq	%r8, %r12
	movq	%rax, %r8
	callq	tlsf_memory_set
	movq	%r12, %r8
.LBB71_38:
	movq	2768(%r14), %rax
	incl	(%rax,%r15,4)
	movb	$1, 1(%rsi)
	movl	%ebp, (%r8)
	movl	%ebx, 4(%r8)
	movq	%rdi, 8(%r8)
	xorl	%eax, %eax
	jmp	.LBB71_71
.LBB71_29:
	movl	%r9d, %r13d
	shrl	$2, %r9d
	movq	%rbx, %rbp
	shlq	$32, %rbp
	orq	%r13, %rbp
	leal	(%rbx,%r12), %eax
	subq	%r13, %rcx
	movq	%rcx, (%r10,%rbx,8)
	movq	%rdi, 8(%r10,%rbx,8)
	movq	%r11, 16(%r10,%rbx,8)
	movq	%rbp, (%r10,%rax,8)
	movq	%rdi, 8(%r10,%rax,8)
	movq	48(%r14), %rcx
	movq	%rcx, 32(%rsp)
	movl	%eax, %ebp
	shrl	$6, %ebp
	movl	$1, %r10d
	movl	%eax, %ecx
	shlq	%cl, %r10
	movq	32(%rsp), %rcx
	orq	%r10, (%rcx,%rbp,8)
	testb	$2, %r13b
	jne	.LBB71_31
	leal	(%r9,%rax), %ecx
	movq	24(%r14), %r10
	movl	%eax, 4(%r10,%rcx,8)
.LBB71_31:
	movl	%r9d, %ecx
	orl	$16, %ecx
	bsrl	%ecx, %ecx
	addl	$-4, %ecx
	shrl	%cl, %r9d
	shll	$4, %ecx
	addl	%r9d, %ecx
	movslq	168(%r14,%rcx,4), %r10
	movl	%eax, 168(%r14,%rcx,4)
	movq	24(%r14), %r13
	testq	%r10, %r10
	js	.LBB71_32
	movabsq	$-4294967296, %rcx
	orq	%r10, %rcx
	movq	%rcx, 16(%r13,%rax,8)
	movl	%eax, 20(%r13,%r10,8)
	jmp	.LBB71_34
.LBB71_65:
	movq	$-1, 16(%r13,%rax,8)
	shrl	$5, %ecx
	movl	$1, %eax
	shll	%cl, %eax
	movl	84(%r14,%rcx,4), %r10d
	orl	%eax, 80(%r14)
	btsl	%r9d, %r10d
	movl	%r10d, 84(%r14,%rcx,4)
	movq	32(%rsp), %rdi
	jmp	.LBB71_34
.LBB71_32:
	movq	$-1, 16(%r13,%rax,8)
	shrl	$4, %ecx
	movl	$1, %eax
	shll	%cl, %eax
	movl	84(%r14,%rcx,4), %r10d
	orl	%eax, 80(%r14)
	andb	$15, %r9b
	btsl	%r9d, %r10d
	movl	%r10d, 84(%r14,%rcx,4)
	jmp	.LBB71_34
	.seh_endproc
	.def	tlsf_pools_check;
	.scl	2;
	.type	32;
	.endef
	.globl	tlsf_pools_check
	.p2align	4
tlsf_pools_check:
.seh_proc tlsf_pools_check
	pushq	%r15
	.seh_pushreg %r15
	pushq	%r14
	.seh_pushreg %r14
	pushq	%r13
	.seh_pushreg %r13
	pushq	%r12
	.seh_pushreg %r12
	pushq	%rsi
	.seh_pushreg %rsi
	pushq	%rdi
	.seh_pushreg %rdi
	pushq	%rbx
	.seh_pushreg %rbx
	subq	$32, %rsp
	.seh_stackalloc 32
	.seh_endprologue
	cmpb	$0, 8(%rcx)
	je	.LBB72_24
	movq	(%rcx), %r14
	cmpb	$0, 1(%r14)
	je	.LBB72_24
	cmpb	$1, (%r14)
	jne	.LBB72_25
	movl	%r9d, %edi
	movl	%r8d, %esi
	movq	136(%rsp), %r12
	movq	128(%rsp), %r15
	movb	$0, 1(%r14)
	movl	%edx, %ecx
	cmpb	$0, 8(%r14)
	movq	32(%r14), %rax
	je	.LBB72_13
	cmpq	%rcx, %rax
	jbe	.LBB72_22
	movq	24(%r14), %rax
	imulq	$2792, %rcx, %rcx
	movl	32(%rax,%rcx), %r13d
	leal	-4(%r13), %edx
	cmpl	%edx, %esi
	ja	.LBB72_22
	leaq	(%rax,%rcx), %rdx
	movq	48(%rdx), %rdx
	movl	%esi, %r8d
	shrl	$6, %r8d
	movq	(%rdx,%r8,8), %rdx
	btq	%rsi, %rdx
	jae	.LBB72_22
	testl	%edi, %edi
	je	.LBB72_30
	leaq	(%rax,%rcx), %rbx
	addq	$24, %rbx
	.p2align	4
.LBB72_9:
	movq	%rbx, %rcx
	movl	%esi, %edx
	callq	tlsf_heap.check.examine
	cmpb	$1, %al
	jne	.LBB72_28
	xorl	%eax, %eax
	cmpl	%r13d, %edx
	je	.LBB72_29
	movl	%edx, %esi
	decl	%edi
	jne	.LBB72_9
	jmp	.LBB72_21
.LBB72_13:
	cmpq	%rcx, %rax
	jbe	.LBB72_22
	movq	24(%r14), %rax
	imulq	$2792, %rcx, %rcx
	movl	32(%rax,%rcx), %r13d
	leal	-4(%r13), %edx
	cmpl	%edx, %esi
	ja	.LBB72_22
	leaq	(%rax,%rcx), %rdx
	movq	48(%rdx), %rdx
	movl	%esi, %r8d
	shrl	$6, %r8d
	movq	(%rdx,%r8,8), %rdx
	btq	%rsi, %rdx
	jae	.LBB72_22
	testl	%edi, %edi
	je	.LBB72_30
	leaq	(%rax,%rcx), %rbx
	addq	$24, %rbx
	.p2align	4
.LBB72_18:
	movq	%rbx, %rcx
	movl	%esi, %edx
	callq	tlsf_heap.check.examine
	cmpb	$1, %al
	jne	.LBB72_28
	xorl	%eax, %eax
	cmpl	%r13d, %edx
	je	.LBB72_29
	movl	%edx, %esi
	decl	%edi
	jne	.LBB72_18
.LBB72_21:
	movl	%edx, %esi
	jmp	.LBB72_31
.LBB72_22:
	movb	$1, 1(%r14)
	movl	$4, %eax
.LBB72_23:
	addq	$32, %rsp
	popq	%rbx
	popq	%rdi
	popq	%rsi
	popq	%r12
	popq	%r13
	popq	%r14
	popq	%r15
	retq
.LBB72_24:
	xorl	%ecx, %ecx
	jmp	.LBB72_26
.LBB72_25:
	movb	$2, %cl
.LBB72_26:
	addq	$32, %rsp
	popq	%rbx
	popq	%rdi
	popq	%rsi
	popq	%r12
	popq	%r13
	popq	%r14
	popq	%r15
	jmp	tlsf_c.call_fault.CallFault.refusal
.LBB72_30:
	xorl	%eax, %eax
	jmp	.LBB72_31
.LBB72_28:
	movl	$36, %eax
	movq	%r12, %r15
	jmp	.LBB72_31
.LBB72_29:
	xorl	%esi, %esi
.LBB72_31:
	movb	$1, 1(%r14)
	movl	%esi, (%r15)
	jmp	.LBB72_23
	.seh_endproc
	.def	tlsf_pools_close;
	.scl	2;
	.type	32;
	.endef
	.globl	tlsf_pools_close
	.p2align	4
tlsf_pools_close:
.seh_proc tlsf_pools_close
	subq	$40, %rsp
	.seh_stackalloc 40
	.seh_endprologue
	movl	$32, %eax
	cmpb	$0, 8(%rcx)
	je	.LBB73_4
	movq	(%rcx), %rdx
	cmpb	$1, 1(%rdx)
	jne	.LBB73_4
	movl	$40, %eax
	cmpb	$1, (%rdx)
	jne	.LBB73_4
	callq	tlsf_c.arena_slot.ArenaSlot.close
	xorl	%eax, %eax
.LBB73_4:
	addq	$40, %rsp
	retq
	.seh_endproc
	.def	tlsf_pools_counts;
	.scl	2;
	.type	32;
	.endef
	.globl	tlsf_pools_counts
	.p2align	4
tlsf_pools_counts:
	cmpb	$0, 8(%rcx)
	je	.LBB74_15
	movq	(%rcx), %rax
	cmpb	$0, 1(%rax)
	je	.LBB74_15
	cmpb	$1, (%rax)
	jne	.LBB74_19
	movb	$0, 1(%rax)
	movl	%edx, %edx
	cmpb	$0, 8(%rax)
	movq	24(%rax), %rcx
	movq	32(%rax), %r10
	je	.LBB74_8
	testq	%r10, %r10
	je	.LBB74_12
	movq	%rdx, %r11
	.p2align	4
.LBB74_6:
	subq	2744(%rcx), %r11
	jb	.LBB74_13
	addq	$2792, %rcx
	movq	%r11, %rdx
	decq	%r10
	jne	.LBB74_6
	jmp	.LBB74_12
.LBB74_8:
	testq	%r10, %r10
	je	.LBB74_12
	movq	%rdx, %r11
	.p2align	4
.LBB74_10:
	subq	2744(%rcx), %r11
	jb	.LBB74_13
	addq	$2792, %rcx
	movq	%r11, %rdx
	decq	%r10
	jne	.LBB74_10
.LBB74_12:
	movb	$1, 1(%rax)
	movl	$4, %eax
	retq
.LBB74_13:
	cmpq	2776(%rcx), %rdx
	jae	.LBB74_14
	movq	2768(%rcx), %r10
	movl	(%r10,%rdx,4), %r10d
	jmp	.LBB74_18
.LBB74_14:
	xorl	%r10d, %r10d
.LBB74_18:
	movq	2736(%rcx), %rcx
	movl	(%rcx,%rdx,8), %ecx
	movb	$1, 1(%rax)
	movl	%r10d, (%r8)
	movl	%ecx, (%r9)
	xorl	%eax, %eax
	retq
.LBB74_15:
	xorl	%ecx, %ecx
	jmp	tlsf_c.call_fault.CallFault.refusal
.LBB74_19:
	movb	$2, %cl
	jmp	tlsf_c.call_fault.CallFault.refusal
	.def	tlsf_pools_open;
	.scl	2;
	.type	32;
	.endef
	.globl	tlsf_pools_open
	.p2align	4
tlsf_pools_open:
.seh_proc tlsf_pools_open
	pushq	%r15
	.seh_pushreg %r15
	pushq	%r14
	.seh_pushreg %r14
	pushq	%r13
	.seh_pushreg %r13
	pushq	%r12
	.seh_pushreg %r12
	pushq	%rsi
	.seh_pushreg %rsi
	pushq	%rdi
	.seh_pushreg %rdi
	pushq	%rbp
	.seh_pushreg %rbp
	pushq	%rbx
	.seh_pushreg %rbx
	subq	$1208, %rsp
	.seh_stackalloc 1208
	movaps	%xmm15, 1184(%rsp)
	.seh_savexmm %xmm15, 1184
	movaps	%xmm14, 1168(%rsp)
	.seh_savexmm %xmm14, 1168
	movaps	%xmm13, 1152(%rsp)
	.seh_savexmm %xmm13, 1152
	movaps	%xmm12, 1136(%rsp)
	.seh_savexmm %xmm12, 1136
	movaps	%xmm11, 1120(%rsp)
	.seh_savexmm %xmm11, 1120
	movaps	%xmm10, 1104(%rsp)
	.seh_savexmm %xmm10, 1104
	movaps	%xmm9, 1088(%rsp)
	.seh_savexmm %xmm9, 1088
	movaps	%xmm8, 1072(%rsp)
	.seh_savexmm %xmm8, 1072
	movaps	%xmm7, 1056(%rsp)
	.seh_savexmm %xmm7, 1056
	movaps	%xmm6, 1040(%rsp)
	.seh_savexmm %xmm6, 1040
	.seh_endprologue
	xorl	%esi, %esi
	testq	%r9, %r9
	sete	%bl
	pxor	%xmm0, %xmm0
	movdqa	%xmm0, 176(%rsp)
	movl	$0, 192(%rsp)
	movl	$33, %eax
	cmpb	$0, 8(%rcx)
	jne	.LBB75_190
	leal	-6(%rdx), %r10d
	movl	$34, %eax
	cmpl	$-2, %r10d
	jb	.LBB75_190
	movq	1312(%rsp), %rbp
	cmpq	$65, %rbp
	setae	%al
	cmpl	$-7, %r8d
	setae	%r10b
	orb	%al, %r10b
	movl	$5, %eax
	jne	.LBB75_190
	movq	%r8, 96(%rsp)
	movq	%rcx, 376(%rsp)
	xorps	%xmm6, %xmm6
	movaps	%xmm6, 384(%rsp)
	movl	$0, 400(%rsp)
	leaq	528(%rsp), %rcx
	movl	$512, %r8d
	movq	%rdx, 88(%rsp)
	xorl	%edx, %edx
	movq	%r9, %rdi
	callq	tlsf_memory_set
	movq	88(%rsp), %rax
	testq	%rbp, %rbp
	je	.LBB75_10
	movq	%rdi, %rcx
	movb	%bl, %sil
	shll	$12, %esi
	cmpq	$1, %rbp
	jne	.LBB75_6
	xorl	%edx, %edx
	jmp	.LBB75_9
.LBB75_6:
	movl	%ebp, %r8d
	andl	$126, %r8d
	leaq	(%rsi,%rcx), %r9
	addq	$24, %r9
	xorl	%edx, %edx
	movl	$4294967295, %r10d
	.p2align	4
.LBB75_7:
	movl	-24(%r9), %r11d
	movq	-16(%r9), %rdi
	cmpq	%r10, %rdi
	cmovaeq	%r10, %rdi
	movl	%r11d, 528(%rsp,%rdx,8)
	movl	%edi, 532(%rsp,%rdx,8)
	movl	-8(%r9), %r11d
	movq	(%r9), %rdi
	cmpq	%r10, %rdi
	cmovaeq	%r10, %rdi
	movl	%r11d, 536(%rsp,%rdx,8)
	movl	%edi, 540(%rsp,%rdx,8)
	addq	$2, %rdx
	addq	$32, %r9
	cmpq	%rdx, %r8
	jne	.LBB75_7
	testb	$1, %bpl
	je	.LBB75_10
.LBB75_9:
	addq	%rsi, %rcx
	movq	%rdx, %r8
	shlq	$4, %r8
	movl	(%rcx,%r8), %r9d
	movq	8(%rcx,%r8), %rcx
	movl	$4294967295, %r8d
	cmpq	%r8, %rcx
	cmovbq	%rcx, %r8
	movl	%r9d, 528(%rsp,%rdx,8)
	movl	%r8d, 532(%rsp,%rdx,8)
.LBB75_10:
	movaps	%xmm6, 336(%rsp)
	movups	%xmm6, 348(%rsp)
	movaps	%xmm6, 304(%rsp)
	movups	%xmm6, 316(%rsp)
	xorps	%xmm6, %xmm6
	cmpl	$4, %eax
	jne	.LBB75_16
	movaps	%xmm6, 208(%rsp)
	movaps	%xmm6, 224(%rsp)
	movaps	%xmm6, 240(%rsp)
	movaps	%xmm6, 256(%rsp)
	movaps	%xmm6, 272(%rsp)
	movq	$0, 288(%rsp)
	movaps	%xmm6, 416(%rsp)
	movups	%xmm6, 430(%rsp)
	movaps	%xmm6, 128(%rsp)
	movups	%xmm6, 140(%rsp)
	leaq	208(%rsp), %rcx
	leaq	528(%rsp), %r14
	movq	%r14, %rdx
	movq	%rbp, %r8
	callq	tlsf_pool.sizes.split.rising_split.4
	cmpb	$1, 208(%rsp)
	jne	.LBB75_22
	movups	280(%rsp), %xmm0
	movaps	%xmm0, 512(%rsp)
	movdqu	216(%rsp), %xmm0
	movups	232(%rsp), %xmm1
	movups	248(%rsp), %xmm2
	movups	264(%rsp), %xmm3
	movaps	%xmm3, 496(%rsp)
	movaps	%xmm2, 480(%rsp)
	movaps	%xmm1, 464(%rsp)
	movdqa	%xmm0, 448(%rsp)
	movaps	%xmm6, 48(%rsp)
	movq	$0, 64(%rsp)
	movq	448(%rsp), %r13
	testq	%r13, %r13
	je	.LBB75_143
	movabsq	$3303500013200135, %rax
	cmpq	%rax, %r13
	jae	.LBB75_188
	imulq	$2792, %r13, %rdi
	movl	$8, %esi
	callq	tlsf_memory_alloc
	testb	$1, %al
	je	.LBB75_188
	movq	%rdx, %r15
	movq	%rdx, 48(%rsp)
	movq	$0, 56(%rsp)
	movq	%r13, 64(%rsp)
	xorl	%edi, %edi
	xorl	%esi, %esi
	movq	%r13, 160(%rsp)
	jmp	.LBB75_24
.LBB75_16:
	movaps	%xmm6, 208(%rsp)
	movaps	%xmm6, 224(%rsp)
	movaps	%xmm6, 240(%rsp)
	movaps	%xmm6, 256(%rsp)
	movaps	%xmm6, 272(%rsp)
	movq	$0, 288(%rsp)
	movaps	%xmm6, 416(%rsp)
	movups	%xmm6, 430(%rsp)
	movaps	%xmm6, 128(%rsp)
	movups	%xmm6, 140(%rsp)
	leaq	208(%rsp), %rcx
	leaq	528(%rsp), %r14
	movq	%r14, %rdx
	movq	%rbp, %r8
	callq	tlsf_pool.sizes.split.rising_split.5
	cmpb	$1, 208(%rsp)
	jne	.LBB75_22
	movups	280(%rsp), %xmm0
	movaps	%xmm0, 512(%rsp)
	movdqu	216(%rsp), %xmm0
	movups	232(%rsp), %xmm1
	movups	248(%rsp), %xmm2
	movups	264(%rsp), %xmm3
	movaps	%xmm3, 496(%rsp)
	movaps	%xmm2, 480(%rsp)
	movaps	%xmm1, 464(%rsp)
	movdqa	%xmm0, 448(%rsp)
	movaps	%xmm6, 48(%rsp)
	movq	$0, 64(%rsp)
	movq	448(%rsp), %r13
	testq	%r13, %r13
	je	.LBB75_145
	movabsq	$3303500013200135, %rax
	cmpq	%rax, %r13
	jae	.LBB75_188
	imulq	$2792, %r13, %rdi
	movl	$8, %esi
	callq	tlsf_memory_alloc
	testb	$1, %al
	je	.LBB75_188
	movq	%rdx, %r15
	movq	%rdx, 48(%rsp)
	movq	$0, 56(%rsp)
	movq	%r13, 64(%rsp)
	xorl	%edi, %edi
	xorl	%esi, %esi
	movq	%r13, 160(%rsp)
	jmp	.LBB75_84
.LBB75_22:
	xorl	%eax, %eax
	jmp	.LBB75_189
.LBB75_23:
	leaq	(%r14,%rbx,8), %r14
	subq	%rbx, %rbp
	incq	%rsi
	movq	80(%rsp), %rdi
	cmpq	%r13, %rsi
	je	.LBB75_144
.LBB75_24:
	movq	%rsi, %rax
	notq	%rax
	addq	448(%rsp), %rax
	movq	456(%rsp,%rax,8), %rbx
	cmpq	%rbx, %rbp
	cmovbq	%rbp, %rbx
	xorl	%eax, %eax
	testq	%rbx, %rbx
	je	.LBB75_29
	.p2align	4
.LBB75_25:
	cmpl	$8388585, 4(%r14,%rax,8)
	jae	.LBB75_193
	incq	%rax
	cmpq	%rax, %rbx
	jne	.LBB75_25
	movl	%ebx, %ecx
	andl	$3, %ecx
	cmpq	$4, %rbx
	jae	.LBB75_30
	xorl	%eax, %eax
	xorl	%edx, %edx
	jmp	.LBB75_33
.LBB75_29:
	xorl	%ecx, %ecx
	jmp	.LBB75_46
.LBB75_30:
	movq	%rbx, %r8
	andq	$-4, %r8
	xorl	%eax, %eax
	xorl	%edx, %edx
	.p2align	4
.LBB75_31:
	movl	(%r14,%rdx,8), %r9d
	movl	8(%r14,%rdx,8), %r10d
	addq	%rax, %r9
	movl	16(%r14,%rdx,8), %r11d
	addq	%r10, %r11
	addq	%r9, %r11
	movl	24(%r14,%rdx,8), %eax
	addq	%r11, %rax
	addq	$4, %rdx
	cmpq	%rdx, %r8
	jne	.LBB75_31
	testq	%rcx, %rcx
	je	.LBB75_35
.LBB75_33:
	leaq	(%r14,%rdx,8), %rdx
	xorl	%r8d, %r8d
	.p2align	4
.LBB75_34:
	movl	(%rdx,%r8,8), %r9d
	addq	%r9, %rax
	incq	%r8
	cmpq	%r8, %rcx
	jne	.LBB75_34
.LBB75_35:
	cmpq	$1, %rbx
	jne	.LBB75_37
	xorl	%ecx, %ecx
	xorl	%edx, %edx
	jmp	.LBB75_44
.LBB75_37:
	movq	%rbx, %r8
	andq	$-2, %r8
	xorl	%ecx, %ecx
	xorl	%edx, %edx
	jmp	.LBB75_39
	.p2align	4
.LBB75_38:
	addq	$2, %rdx
	cmpq	%rdx, %r8
	je	.LBB75_43
.LBB75_39:
	cmpl	$0, (%r14,%rdx,8)
	je	.LBB75_41
	movl	4(%r14,%rdx,8), %r9d
	cmpl	%ecx, %r9d
	cmoval	%r9d, %ecx
.LBB75_41:
	cmpl	$0, 8(%r14,%rdx,8)
	je	.LBB75_38
	movl	12(%r14,%rdx,8), %r9d
	cmpl	%ecx, %r9d
	cmoval	%r9d, %ecx
	jmp	.LBB75_38
.LBB75_43:
	testb	$1, %bl
	je	.LBB75_46
.LBB75_44:
	cmpl	$0, (%r14,%rdx,8)
	je	.LBB75_46
	movl	4(%r14,%rdx,8), %edx
	cmpl	%ecx, %edx
	cmoval	%edx, %ecx
.LBB75_46:
	movl	%ecx, %edx
	cmpl	$1, %ecx
	adcq	$31, %rdx
	shrq	$3, %rdx
	movl	%edx, %ecx
	orl	$16, %ecx
	bsrl	%ecx, %ecx
	addl	$-4, %ecx
	decl	%edx
	shrl	%cl, %edx
	shll	$4, %ecx
	leal	(%rdx,%rcx), %r8d
	incl	%r8d
	movl	%r8d, %ecx
	shrl	$4, %ecx
	je	.LBB75_48
	movl	$8, %r8d
	shll	%cl, %r8d
	incl	%edx
	andl	$15, %edx
	decb	%cl
	shll	%cl, %edx
	addl	%r8d, %edx
	movl	%edx, %r8d
.LBB75_48:
	movl	%r8d, %ecx
	imulq	%rcx, %rax
	cmpq	$5, %rax
	movl	$4, %r12d
	cmovaeq	%rax, %r12
	cmpq	$1048577, %rax
	movl	$0, %eax
	cmovbl	%r12d, %eax
	movl	%eax, 36(%rsp)
	jae	.LBB75_193
	movq	%rdi, 40(%rsp)
	movq	%rsi, 120(%rsp)
	leaq	(,%r12,8), %rdi
	movl	$8, %esi
	callq	tlsf_memory_alloc
	testb	$1, %al
	je	.LBB75_152
	movq	%rdx, %r13
	movq	%rbp, 168(%rsp)
	pxor	%xmm0, %xmm0
	movdqu	%xmm0, 16(%rdx)
	movdqu	%xmm0, (%rdx)
	leaq	63(%r12), %rbp
	shrq	$6, %rbp
	leaq	(,%rbp,8), %rdi
	movl	$8, %esi
	callq	tlsf_memory_alloc
	testb	$1, %al
	je	.LBB75_154
	movq	$0, (%rdx)
	movabsq	$-4294967296, %rax
	addq	$19, %rax
	movq	%rax, (%r13)
	movq	$0, 8(%r13)
	orb	$1, (%rdx)
	movq	$-1, 16(%r13)
	movq	40(%rsp), %rdi
	movq	%rdi, %rax
	cmpq	%rdi, 64(%rsp)
	je	.LBB75_81
.LBB75_52:
	movq	%rax, %rdi
	movq	96(%rsp), %rax
	movq	120(%rsp), %rcx
	addl	%ecx, %eax
	imulq	$2792, %rdi, %rsi
	movl	%eax, (%r15,%rsi)
	movl	$0, 4(%r15,%rsi)
	movq	$1, 8(%r15,%rsi)
	movq	$0, 16(%r15,%rsi)
	movq	%r13, 24(%r15,%rsi)
	movq	$4, 32(%r15,%rsi)
	movq	%r12, 40(%r15,%rsi)
	movq	%rdx, 48(%r15,%rsi)
	movq	$1, 56(%r15,%rsi)
	movq	%rbp, 64(%r15,%rsi)
	movq	$4, 72(%r15,%rsi)
	movabsq	$68719476737, %rax
	movq	%rax, 80(%r15,%rsi)
	xorps	%xmm6, %xmm6
	movups	%xmm6, 88(%r15,%rsi)
	movups	%xmm6, 104(%r15,%rsi)
	movups	%xmm6, 120(%r15,%rsi)
	movups	%xmm6, 136(%r15,%rsi)
	movups	%xmm6, 152(%r15,%rsi)
	pcmpeqd	%xmm0, %xmm0
	movdqu	%xmm0, 168(%r15,%rsi)
	movl	$0, 184(%r15,%rsi)
	leaq	(%r15,%rsi), %rcx
	addq	$188, %rcx
	movl	$2544, %r8d
	movb	$-1, %dl
	callq	tlsf_memory_set
	incq	%rdi
	movl	$0, 2732(%r15,%rsi)
	leaq	32(%rsp), %rax
	movq	%rax, 2736(%r15,%rsi)
	movups	%xmm6, 2744(%r15,%rsi)
	movq	$4, 2760(%r15,%rsi)
	movq	%rax, 2768(%r15,%rsi)
	movups	%xmm6, 2776(%r15,%rsi)
	movq	%rdi, 80(%rsp)
	movq	%rdi, 56(%rsp)
	testq	%rbx, %rbx
	je	.LBB75_58
	movabsq	$1152921504606846974, %rax
	addq	$2, %rax
	cmpq	%rax, %rbx
	jae	.LBB75_161
	leaq	(,%rbx,8), %r12
	movl	$4, %esi
	movq	%r12, %rdi
	callq	tlsf_memory_alloc
	testb	$1, %al
	je	.LBB75_161
	movq	%rdx, %r13
	movq	%rdx, %rcx
	movq	%r14, %rdx
	movq	%r12, %r8
	callq	tlsf_memory_cpy
	leaq	(,%rbx,4), %r12
	movl	$4, %esi
	movq	%r12, %rdi
	callq	tlsf_memory_alloc
	testb	$1, %al
	je	.LBB75_160
	movq	%rdx, %rsi
	cmpq	$1, %rbx
	jne	.LBB75_59
	xorl	%r10d, %r10d
	jmp	.LBB75_60
.LBB75_58:
	xorl	%r10d, %r10d
	movq	%rax, %rsi
	movq	%rax, 112(%rsp)
	xorl	%eax, %eax
	movl	36(%rsp), %edx
	movq	40(%rsp), %r11
	jmp	.LBB75_72
.LBB75_59:
	addq	$-4, %r12
	movq	%rsi, %rcx
	xorl	%edx, %edx
	movq	%r12, %r8
	callq	tlsf_memory_set
	leaq	-1(%rbx), %r10
.LBB75_60:
	movq	40(%rsp), %r11
	movl	36(%rsp), %edx
	movl	$0, (%rsi,%r10,4)
	cmpq	$1, %rbx
	jne	.LBB75_62
	xorl	%eax, %eax
	xorl	%ecx, %ecx
	jmp	.LBB75_69
.LBB75_62:
	movq	%rbx, %r9
	movabsq	$1152921504606846974, %rax
	andq	%rax, %r9
	xorl	%eax, %eax
	xorl	%ecx, %ecx
	jmp	.LBB75_64
	.p2align	4
.LBB75_63:
	addq	$2, %rcx
	cmpq	%rcx, %r9
	je	.LBB75_68
.LBB75_64:
	cmpl	$0, (%r14,%rcx,8)
	je	.LBB75_66
	movl	4(%r14,%rcx,8), %r8d
	cmpl	%eax, %r8d
	cmoval	%r8d, %eax
.LBB75_66:
	cmpl	$0, 8(%r14,%rcx,8)
	je	.LBB75_63
	movl	12(%r14,%rcx,8), %r8d
	cmpl	%eax, %r8d
	cmoval	%r8d, %eax
	jmp	.LBB75_63
.LBB75_68:
	testb	$1, %bl
	je	.LBB75_71
.LBB75_69:
	cmpl	$0, (%r14,%rcx,8)
	je	.LBB75_71
	movl	4(%r14,%rcx,8), %ecx
	cmpl	%eax, %ecx
	cmoval	%ecx, %eax
.LBB75_71:
	movq	%r13, 112(%rsp)
	incq	%r10
.LBB75_72:
	movq	%r10, 104(%rsp)
	movl	%eax, %r8d
	cmpl	$1, %eax
	adcq	$31, %r8
	shrq	$3, %r8
	movl	%r8d, %eax
	orl	$16, %eax
	bsrl	%eax, %ecx
	addl	$-4, %ecx
	decl	%r8d
	shrl	%cl, %r8d
	shll	$4, %ecx
	leal	(%r8,%rcx), %r13d
	incl	%r13d
	movl	%r13d, %ecx
	shrl	$4, %ecx
	je	.LBB75_74
	movl	$8, %eax
	shll	%cl, %eax
	incl	%r8d
	andl	$15, %r8d
	decb	%cl
	shll	%cl, %r8d
	addl	%eax, %r8d
	movl	%r8d, %r13d
.LBB75_74:
	imulq	$2792, %r11, %rdi
	leaq	(%r15,%rdi), %rbp
	movq	8(%r15,%rdi), %r12
	decq	%r12
	leaq	(%r15,%rdi), %rcx
	addq	$24, %rcx
	callq	tlsf_words.words.Words.lengthen
	movl	$-1, 184(%r15,%rdi)
	pxor	%xmm0, %xmm0
	movdqu	%xmm0, 80(%r15,%rdi)
	movdqu	%xmm0, 96(%r15,%rdi)
	movdqu	%xmm0, 112(%r15,%rdi)
	movdqu	%xmm0, 128(%r15,%rdi)
	movdqu	%xmm0, 144(%r15,%rdi)
	movq	$0, 160(%r15,%rdi)
	movq	32(%r15,%rdi), %rdx
	movl	%edx, %eax
	orl	$16, %eax
	bsrl	%eax, %ecx
	addl	$-4, %ecx
	movl	%edx, %eax
	shrl	%cl, %eax
	movq	24(%r15,%rdi), %r8
	shll	$4, %ecx
	addl	%eax, %ecx
	shlq	$2, %rdx
	movabsq	$-4294967296, %r10
	leaq	3(%r10), %r9
	orq	%rdx, %r9
	movq	%r9, (%r8)
	movq	%r12, 8(%r8)
	movq	48(%r15,%rdi), %rdx
	orq	$1, (%rdx)
	movslq	168(%rbp,%rcx,4), %rdx
	movl	$0, 168(%rbp,%rcx,4)
	movq	24(%r15,%rdi), %r8
	testq	%rdx, %rdx
	js	.LBB75_76
	movq	%rdx, %rax
	orq	%r10, %rax
	movq	%rax, 16(%r8)
	movl	$0, 20(%r8,%rdx,8)
	jmp	.LBB75_77
.LBB75_76:
	movq	$-1, 16(%r8)
	shrl	$4, %ecx
	movl	$1, %edx
	shll	%cl, %edx
	movl	84(%rbp,%rcx,4), %r8d
	orl	%edx, 80(%rbp)
	andb	$15, %al
	btsl	%eax, %r8d
	movl	%r8d, 84(%rbp,%rcx,4)
.LBB75_77:
	movq	104(%rsp), %rdx
	movq	2736(%rbp), %rcx
	movq	2768(%rbp), %rdi
	movq	2784(%rbp), %r12
	movq	112(%rsp), %rax
	movq	%rax, 2736(%rbp)
	movq	%rbx, 2744(%rbp)
	cmpq	$0, 2752(%rbp)
	movq	%rbx, 2752(%rbp)
	movl	%r13d, 2760(%rbp)
	movl	$0, 2764(%rbp)
	movq	%rsi, 2768(%rbp)
	movq	%rdx, 2776(%rbp)
	movq	%rbx, 2784(%rbp)
	je	.LBB75_79
	callq	tlsf_memory_dealloc
.LBB75_79:
	testq	%r12, %r12
	movq	168(%rsp), %rbp
	movq	160(%rsp), %r13
	movq	120(%rsp), %rsi
	je	.LBB75_23
	movq	%rdi, %rcx
	callq	tlsf_memory_dealloc
	jmp	.LBB75_23
.LBB75_81:
	movq	%rdx, %rsi
	leaq	48(%rsp), %rcx
	callq	std_alloc.vec.Vec.grow_amortized.8f83c87fc5454f35
	testb	%al, %al
	je	.LBB75_192
	movq	48(%rsp), %r15
	movq	56(%rsp), %rax
	movq	%rsi, %rdx
	jmp	.LBB75_52
.LBB75_83:
	leaq	(%r14,%rbx,8), %r14
	subq	%rbx, %rbp
	incq	%rsi
	movq	80(%rsp), %rdi
	cmpq	%r13, %rsi
	je	.LBB75_146
.LBB75_84:
	movq	%rsi, %rax
	notq	%rax
	addq	448(%rsp), %rax
	movq	456(%rsp,%rax,8), %rbx
	cmpq	%rbx, %rbp
	cmovbq	%rbp, %rbx
	xorl	%eax, %eax
	testq	%rbx, %rbx
	je	.LBB75_89
	.p2align	4
.LBB75_85:
	cmpl	$134217705, 4(%r14,%rax,8)
	jae	.LBB75_193
	incq	%rax
	cmpq	%rax, %rbx
	jne	.LBB75_85
	movl	%ebx, %ecx
	andl	$3, %ecx
	cmpq	$4, %rbx
	jae	.LBB75_90
	xorl	%eax, %eax
	xorl	%edx, %edx
	jmp	.LBB75_93
.LBB75_89:
	xorl	%ecx, %ecx
	jmp	.LBB75_106
.LBB75_90:
	movq	%rbx, %r8
	andq	$-4, %r8
	xorl	%eax, %eax
	xorl	%edx, %edx
	.p2align	4
.LBB75_91:
	movl	(%r14,%rdx,8), %r9d
	movl	8(%r14,%rdx,8), %r10d
	addq	%rax, %r9
	movl	16(%r14,%rdx,8), %r11d
	addq	%r10, %r11
	addq	%r9, %r11
	movl	24(%r14,%rdx,8), %eax
	addq	%r11, %rax
	addq	$4, %rdx
	cmpq	%rdx, %r8
	jne	.LBB75_91
	testq	%rcx, %rcx
	je	.LBB75_95
.LBB75_93:
	leaq	(%r14,%rdx,8), %rdx
	xorl	%r8d, %r8d
	.p2align	4
.LBB75_94:
	movl	(%rdx,%r8,8), %r9d
	addq	%r9, %rax
	incq	%r8
	cmpq	%r8, %rcx
	jne	.LBB75_94
.LBB75_95:
	cmpq	$1, %rbx
	jne	.LBB75_97
	xorl	%ecx, %ecx
	xorl	%edx, %edx
	jmp	.LBB75_104
.LBB75_97:
	movq	%rbx, %r8
	andq	$-2, %r8
	xorl	%ecx, %ecx
	xorl	%edx, %edx
	jmp	.LBB75_99
	.p2align	4
.LBB75_98:
	addq	$2, %rdx
	cmpq	%rdx, %r8
	je	.LBB75_103
.LBB75_99:
	cmpl	$0, (%r14,%rdx,8)
	je	.LBB75_101
	movl	4(%r14,%rdx,8), %r9d
	cmpl	%ecx, %r9d
	cmoval	%r9d, %ecx
.LBB75_101:
	cmpl	$0, 8(%r14,%rdx,8)
	je	.LBB75_98
	movl	12(%r14,%rdx,8), %r9d
	cmpl	%ecx, %r9d
	cmoval	%r9d, %ecx
	jmp	.LBB75_98
.LBB75_103:
	testb	$1, %bl
	je	.LBB75_106
.LBB75_104:
	cmpl	$0, (%r14,%rdx,8)
	je	.LBB75_106
	movl	4(%r14,%rdx,8), %edx
	cmpl	%ecx, %edx
	cmoval	%edx, %ecx
.LBB75_106:
	movl	%ecx, %edx
	cmpl	$1, %ecx
	adcq	$31, %rdx
	shrq	$3, %rdx
	movl	%edx, %ecx
	orl	$32, %ecx
	bsrl	%ecx, %ecx
	addl	$-5, %ecx
	decl	%edx
	shrl	%cl, %edx
	shll	$5, %ecx
	leal	(%rdx,%rcx), %r8d
	incl	%r8d
	movl	%r8d, %ecx
	shrl	$5, %ecx
	je	.LBB75_108
	movl	$16, %r8d
	shll	%cl, %r8d
	incl	%edx
	andl	$31, %edx
	decb	%cl
	shll	%cl, %edx
	addl	%r8d, %edx
	movl	%edx, %r8d
.LBB75_108:
	movl	%r8d, %ecx
	imulq	%rcx, %rax
	cmpq	$5, %rax
	movl	$4, %r12d
	cmovaeq	%rax, %r12
	cmpq	$16777217, %rax
	movl	$0, %eax
	cmovbl	%r12d, %eax
	movl	%eax, 36(%rsp)
	jae	.LBB75_193
	movq	%rdi, 40(%rsp)
	movq	%rsi, 120(%rsp)
	leaq	(,%r12,8), %rdi
	movl	$8, %esi
	callq	tlsf_memory_alloc
	testb	$1, %al
	je	.LBB75_153
	movq	%rdx, %r13
	movq	%rbp, 168(%rsp)
	pxor	%xmm0, %xmm0
	movdqu	%xmm0, 16(%rdx)
	movdqu	%xmm0, (%rdx)
	leaq	63(%r12), %rbp
	shrq	$6, %rbp
	leaq	(,%rbp,8), %rdi
	movl	$8, %esi
	callq	tlsf_memory_alloc
	testb	$1, %al
	je	.LBB75_155
	movq	$0, (%rdx)
	movabsq	$-4294967296, %rax
	addq	$19, %rax
	movq	%rax, (%r13)
	movq	$0, 8(%r13)
	orb	$1, (%rdx)
	movq	$-1, 16(%r13)
	movq	40(%rsp), %rdi
	movq	%rdi, %rax
	cmpq	%rdi, 64(%rsp)
	je	.LBB75_141
.LBB75_112:
	movq	%rax, %rdi
	movq	96(%rsp), %rax
	movq	120(%rsp), %rcx
	addl	%ecx, %eax
	imulq	$2792, %rdi, %rsi
	movl	%eax, (%r15,%rsi)
	movl	$0, 4(%r15,%rsi)
	movq	$1, 8(%r15,%rsi)
	movq	$0, 16(%r15,%rsi)
	movq	%r13, 24(%r15,%rsi)
	movq	$4, 32(%r15,%rsi)
	movq	%r12, 40(%r15,%rsi)
	movq	%rdx, 48(%r15,%rsi)
	movq	$1, 56(%r15,%rsi)
	movq	%rbp, 64(%r15,%rsi)
	movq	$4, 72(%r15,%rsi)
	movabsq	$68719476737, %rax
	movq	%rax, 80(%r15,%rsi)
	xorps	%xmm6, %xmm6
	movups	%xmm6, 88(%r15,%rsi)
	movups	%xmm6, 104(%r15,%rsi)
	movups	%xmm6, 120(%r15,%rsi)
	movups	%xmm6, 136(%r15,%rsi)
	movups	%xmm6, 152(%r15,%rsi)
	pcmpeqd	%xmm0, %xmm0
	movdqu	%xmm0, 168(%r15,%rsi)
	movl	$0, 184(%r15,%rsi)
	leaq	(%r15,%rsi), %rcx
	addq	$188, %rcx
	movl	$2544, %r8d
	movb	$-1, %dl
	callq	tlsf_memory_set
	incq	%rdi
	movl	$0, 2732(%r15,%rsi)
	leaq	32(%rsp), %rax
	movq	%rax, 2736(%r15,%rsi)
	movups	%xmm6, 2744(%r15,%rsi)
	movq	$4, 2760(%r15,%rsi)
	movq	%rax, 2768(%r15,%rsi)
	movups	%xmm6, 2776(%r15,%rsi)
	movq	%rdi, 80(%rsp)
	movq	%rdi, 56(%rsp)
	testq	%rbx, %rbx
	je	.LBB75_118
	movabsq	$1152921504606846974, %rax
	addq	$2, %rax
	cmpq	%rax, %rbx
	jae	.LBB75_174
	leaq	(,%rbx,8), %r12
	movl	$4, %esi
	movq	%r12, %rdi
	callq	tlsf_memory_alloc
	testb	$1, %al
	je	.LBB75_174
	movq	%rdx, %r13
	movq	%rdx, %rcx
	movq	%r14, %rdx
	movq	%r12, %r8
	callq	tlsf_memory_cpy
	leaq	(,%rbx,4), %r12
	movl	$4, %esi
	movq	%r12, %rdi
	callq	tlsf_memory_alloc
	testb	$1, %al
	je	.LBB75_173
	movq	%rdx, %rsi
	cmpq	$1, %rbx
	jne	.LBB75_119
	xorl	%r10d, %r10d
	jmp	.LBB75_120
.LBB75_118:
	xorl	%r10d, %r10d
	movq	%rax, %rsi
	movq	%rax, 112(%rsp)
	xorl	%eax, %eax
	movl	36(%rsp), %edx
	movq	40(%rsp), %r11
	jmp	.LBB75_132
.LBB75_119:
	addq	$-4, %r12
	movq	%rsi, %rcx
	xorl	%edx, %edx
	movq	%r12, %r8
	callq	tlsf_memory_set
	leaq	-1(%rbx), %r10
.LBB75_120:
	movq	40(%rsp), %r11
	movl	36(%rsp), %edx
	movl	$0, (%rsi,%r10,4)
	cmpq	$1, %rbx
	jne	.LBB75_122
	xorl	%eax, %eax
	xorl	%ecx, %ecx
	jmp	.LBB75_129
.LBB75_122:
	movq	%rbx, %r9
	movabsq	$1152921504606846974, %rax
	andq	%rax, %r9
	xorl	%eax, %eax
	xorl	%ecx, %ecx
	jmp	.LBB75_124
	.p2align	4
.LBB75_123:
	addq	$2, %rcx
	cmpq	%rcx, %r9
	je	.LBB75_128
.LBB75_124:
	cmpl	$0, (%r14,%rcx,8)
	je	.LBB75_126
	movl	4(%r14,%rcx,8), %r8d
	cmpl	%eax, %r8d
	cmoval	%r8d, %eax
.LBB75_126:
	cmpl	$0, 8(%r14,%rcx,8)
	je	.LBB75_123
	movl	12(%r14,%rcx,8), %r8d
	cmpl	%eax, %r8d
	cmoval	%r8d, %eax
	jmp	.LBB75_123
.LBB75_128:
	testb	$1, %bl
	je	.LBB75_131
.LBB75_129:
	cmpl	$0, (%r14,%rcx,8)
	je	.LBB75_131
	movl	4(%r14,%rcx,8), %ecx
	cmpl	%eax, %ecx
	cmoval	%ecx, %eax
.LBB75_131:
	movq	%r13, 112(%rsp)
	incq	%r10
.LBB75_132:
	movq	%r10, 104(%rsp)
	movl	%eax, %r8d
	cmpl	$1, %eax
	adcq	$31, %r8
	shrq	$3, %r8
	movl	%r8d, %eax
	orl	$32, %eax
	bsrl	%eax, %ecx
	addl	$-5, %ecx
	decl	%r8d
	shrl	%cl, %r8d
	shll	$5, %ecx
	leal	(%r8,%rcx), %r13d
	incl	%r13d
	movl	%r13d, %ecx
	shrl	$5, %ecx
	je	.LBB75_134
	movl	$16, %eax
	shll	%cl, %eax
	incl	%r8d
	andl	$31, %r8d
	decb	%cl
	shll	%cl, %r8d
	addl	%eax, %r8d
	movl	%r8d, %r13d
.LBB75_134:
	imulq	$2792, %r11, %rdi
	leaq	(%r15,%rdi), %rbp
	movq	8(%r15,%rdi), %r12
	decq	%r12
	leaq	(%r15,%rdi), %rcx
	addq	$24, %rcx
	callq	tlsf_words.words.Words.lengthen
	movl	$-1, 184(%r15,%rdi)
	pxor	%xmm0, %xmm0
	movdqu	%xmm0, 80(%r15,%rdi)
	movdqu	%xmm0, 96(%r15,%rdi)
	movdqu	%xmm0, 112(%r15,%rdi)
	movdqu	%xmm0, 128(%r15,%rdi)
	movdqu	%xmm0, 144(%r15,%rdi)
	movq	$0, 160(%r15,%rdi)
	movq	32(%r15,%rdi), %rdx
	movl	%edx, %eax
	orl	$32, %eax
	bsrl	%eax, %ecx
	addl	$-5, %ecx
	movl	%edx, %eax
	shrl	%cl, %eax
	movq	24(%r15,%rdi), %r8
	shll	$5, %ecx
	addl	%eax, %ecx
	shlq	$2, %rdx
	movabsq	$-4294967296, %r10
	leaq	3(%r10), %r9
	orq	%rdx, %r9
	movq	%r9, (%r8)
	movq	%r12, 8(%r8)
	movq	48(%r15,%rdi), %rdx
	orq	$1, (%rdx)
	movslq	168(%rbp,%rcx,4), %rdx
	movl	$0, 168(%rbp,%rcx,4)
	movq	24(%r15,%rdi), %r8
	testq	%rdx, %rdx
	js	.LBB75_136
	movq	%rdx, %rax
	orq	%r10, %rax
	movq	%rax, 16(%r8)
	movl	$0, 20(%r8,%rdx,8)
	jmp	.LBB75_137
.LBB75_136:
	movq	$-1, 16(%r8)
	shrl	$5, %ecx
	movl	$1, %edx
	shll	%cl, %edx
	movl	84(%rbp,%rcx,4), %r8d
	orl	%edx, 80(%rbp)
	btsl	%eax, %r8d
	movl	%r8d, 84(%rbp,%rcx,4)
.LBB75_137:
	movq	104(%rsp), %rdx
	movq	2736(%rbp), %rcx
	movq	2768(%rbp), %rdi
	movq	2784(%rbp), %r12
	movq	112(%rsp), %rax
	movq	%rax, 2736(%rbp)
	movq	%rbx, 2744(%rbp)
	cmpq	$0, 2752(%rbp)
	movq	%rbx, 2752(%rbp)
	movl	%r13d, 2760(%rbp)
	movl	$0, 2764(%rbp)
	movq	%rsi, 2768(%rbp)
	movq	%rdx, 2776(%rbp)
	movq	%rbx, 2784(%rbp)
	je	.LBB75_139
	callq	tlsf_memory_dealloc
.LBB75_139:
	testq	%r12, %r12
	movq	168(%rsp), %rbp
	movq	160(%rsp), %r13
	movq	120(%rsp), %rsi
	je	.LBB75_83
	movq	%rdi, %rcx
	callq	tlsf_memory_dealloc
	jmp	.LBB75_83
.LBB75_141:
	movq	%rdx, %rsi
	leaq	48(%rsp), %rcx
	callq	std_alloc.vec.Vec.grow_amortized.cb831ce0f1fbfa3d
	testb	%al, %al
	je	.LBB75_191
	movq	48(%rsp), %r15
	movq	56(%rsp), %rax
	movq	%rsi, %rdx
	jmp	.LBB75_112
.LBB75_143:
	leaq	32(%rsp), %rax
	movq	%rax, 48(%rsp)
.LBB75_144:
	movq	64(%rsp), %rax
	movq	%rax, 438(%rsp)
	movq	48(%rsp), %rcx
	movq	%rcx, 132(%rsp)
	movq	56(%rsp), %rcx
	movq	%rcx, 140(%rsp)
	movq	%rax, 148(%rsp)
	movl	128(%rsp), %eax
	movl	%eax, 336(%rsp)
	movq	132(%rsp), %rax
	movq	%rax, 340(%rsp)
	movl	140(%rsp), %eax
	movl	%eax, 348(%rsp)
	movq	140(%rsp), %rax
	movq	%rax, 348(%rsp)
	movq	148(%rsp), %rax
	movq	%rax, 356(%rsp)
	leaq	336(%rsp), %rax
	xorl	%r14d, %r14d
	jmp	.LBB75_147
.LBB75_145:
	leaq	32(%rsp), %rax
	movq	%rax, 48(%rsp)
.LBB75_146:
	movq	64(%rsp), %rax
	movq	%rax, 438(%rsp)
	movq	48(%rsp), %rcx
	movq	%rcx, 132(%rsp)
	movq	56(%rsp), %rcx
	movq	%rcx, 140(%rsp)
	movq	%rax, 148(%rsp)
	movl	128(%rsp), %eax
	movl	%eax, 304(%rsp)
	movq	132(%rsp), %rax
	movq	%rax, 308(%rsp)
	movl	140(%rsp), %eax
	movl	%eax, 316(%rsp)
	movq	140(%rsp), %rax
	movq	%rax, 316(%rsp)
	movq	148(%rsp), %rax
	movq	%rax, 324(%rsp)
	movl	$1, %r14d
	leaq	304(%rsp), %rax
.LBB75_147:
	movl	16(%rax), %ecx
	movl	%ecx, 400(%rsp)
	movups	(%rax), %xmm0
	movaps	%xmm0, 384(%rsp)
	movq	20(%rax), %rbx
	movl	%ecx, 192(%rsp)
	movaps	%xmm0, 176(%rsp)
	movl	$2760, %edi
	movl	$8, %esi
	callq	tlsf_memory_alloc
	testb	$1, %al
	je	.LBB75_149
	movq	%rdx, %rsi
	movw	$257, (%rdx)
	movq	%r14, 8(%rdx)
	movq	96(%rsp), %rax
	movl	%eax, 16(%rdx)
	movdqa	176(%rsp), %xmm0
	movdqu	%xmm0, 20(%rdx)
	movl	192(%rsp), %eax
	movl	%eax, 36(%rdx)
	movq	%rbx, 40(%rdx)
	addq	$48, %rdx
	movl	$2712, %r8d
	movq	%rdx, %rcx
	xorl	%edx, %edx
	callq	tlsf_memory_set
	xorl	%eax, %eax
	movq	376(%rsp), %rcx
	movq	%rsi, (%rcx)
	movb	$1, 8(%rcx)
	movl	$0, 9(%rcx)
	movl	$0, 12(%rcx)
	jmp	.LBB75_190
.LBB75_149:
	leaq	180(%rsp), %rax
	cmpl	$4, 88(%rsp)
	jne	.LBB75_151
	movdqu	(%rax), %xmm0
	movdqa	%xmm0, 528(%rsp)
	movq	%rbx, 544(%rsp)
	leaq	528(%rsp), %rcx
	callq	std_alloc.vec.Vec.drop.01e19ae241269710
	movl	$6, %eax
	jmp	.LBB75_190
.LBB75_151:
	movdqu	(%rax), %xmm0
	movdqa	%xmm0, 208(%rsp)
	movq	%rbx, 224(%rsp)
	leaq	208(%rsp), %rcx
	callq	std_alloc.vec.Vec.drop.1d6c342d5cae5f6b
	movl	$6, %eax
	jmp	.LBB75_190
.LBB75_152:
	movq	40(%rsp), %rsi
	jmp	.LBB75_162
.LBB75_153:
	movq	40(%rsp), %rsi
	jmp	.LBB75_175
.LBB75_154:
	movq	%r13, %rcx
	callq	tlsf_memory_dealloc
	movq	40(%rsp), %rsi
	jmp	.LBB75_162
.LBB75_155:
	movq	%r13, %rcx
	callq	tlsf_memory_dealloc
	movq	40(%rsp), %rsi
	jmp	.LBB75_175
.LBB75_160:
	movq	%r13, %rcx
	callq	tlsf_memory_dealloc
.LBB75_161:
	movq	80(%rsp), %rsi
.LBB75_162:
	movq	48(%rsp), %rax
	movq	%rax, 88(%rsp)
	movq	64(%rsp), %rax
	movq	%rax, 96(%rsp)
	testq	%rsi, %rsi
	je	.LBB75_186
	movq	88(%rsp), %rax
	leaq	2784(%rax), %r12
	jmp	.LBB75_165
.LBB75_164:
	addq	$2792, %r12
	decq	%rsi
	je	.LBB75_186
.LBB75_165:
	movq	-2736(%r12), %r14
	movq	-2720(%r12), %r15
	movq	-48(%r12), %rbx
	movq	-32(%r12), %rbp
	movq	-16(%r12), %rdi
	movq	(%r12), %r13
	cmpq	$0, -2744(%r12)
	je	.LBB75_167
	movq	-2760(%r12), %rcx
	callq	tlsf_memory_dealloc
.LBB75_167:
	testq	%r15, %r15
	je	.LBB75_169
	movq	%r14, %rcx
	callq	tlsf_memory_dealloc
.LBB75_169:
	testq	%rbp, %rbp
	je	.LBB75_171
	movq	%rbx, %rcx
	callq	tlsf_memory_dealloc
.LBB75_171:
	testq	%r13, %r13
	je	.LBB75_164
	movq	%rdi, %rcx
	callq	tlsf_memory_dealloc
	jmp	.LBB75_164
.LBB75_173:
	movq	%r13, %rcx
	callq	tlsf_memory_dealloc
.LBB75_174:
	movq	80(%rsp), %rsi
.LBB75_175:
	movq	48(%rsp), %rax
	movq	%rax, 88(%rsp)
	movq	64(%rsp), %rax
	movq	%rax, 96(%rsp)
	testq	%rsi, %rsi
	je	.LBB75_186
	movq	88(%rsp), %rax
	leaq	2784(%rax), %r12
	jmp	.LBB75_178
.LBB75_177:
	addq	$2792, %r12
	decq	%rsi
	je	.LBB75_186
.LBB75_178:
	movq	-2736(%r12), %r14
	movq	-2720(%r12), %r15
	movq	-48(%r12), %rbx
	movq	-32(%r12), %rbp
	movq	-16(%r12), %rdi
	movq	(%r12), %r13
	cmpq	$0, -2744(%r12)
	je	.LBB75_180
	movq	-2760(%r12), %rcx
	callq	tlsf_memory_dealloc
.LBB75_180:
	testq	%r15, %r15
	je	.LBB75_182
	movq	%r14, %rcx
	callq	tlsf_memory_dealloc
.LBB75_182:
	testq	%rbp, %rbp
	je	.LBB75_184
	movq	%rbx, %rcx
	callq	tlsf_memory_dealloc
.LBB75_184:
	testq	%r13, %r13
	je	.LBB75_177
	movq	%rdi, %rcx
	callq	tlsf_memory_dealloc
	jmp	.LBB75_177
.LBB75_186:
	cmpq	$0, 96(%rsp)
	je	.LBB75_188
	movq	88(%rsp), %rcx
	callq	tlsf_memory_dealloc
.LBB75_188:
	movb	$2, %al
.LBB75_189:
	cmpb	$1, %al
	movl	$6, %eax
	sbbl	$0, %eax
.LBB75_190:
	movaps	1040(%rsp), %xmm6
	movaps	1056(%rsp), %xmm7
	movaps	1072(%rsp), %xmm8
	movaps	1088(%rsp), %xmm9
	movaps	1104(%rsp), %xmm10
	movaps	1120(%rsp), %xmm11
	movaps	1136(%rsp), %xmm12
	movaps	1152(%rsp), %xmm13
	movaps	1168(%rsp), %xmm14
	movaps	1184(%rsp), %xmm15
	addq	$1208, %rsp
	popq	%rbx
	popq	%rbp
	popq	%rdi
	popq	%rsi
	popq	%r12
	popq	%r13
	popq	%r14
	popq	%r15
	retq
.LBB75_191:
	movq	%r13, %rcx
	callq	tlsf_memory_dealloc
	movq	%rsi, %rcx
	callq	tlsf_memory_dealloc
	movq	56(%rsp), %rsi
	jmp	.LBB75_175
.LBB75_192:
	movq	%r13, %rcx
	callq	tlsf_memory_dealloc
	movq	%rsi, %rcx
	callq	tlsf_memory_dealloc
	movq	56(%rsp), %rsi
	jmp	.LBB75_162
.LBB75_193:
	ud2
	.seh_endproc
	.def	tlsf_pools_part;
	.scl	2;
	.type	32;
	.endef
	.globl	tlsf_pools_part
	.p2align	4
tlsf_pools_part:
	cmpb	$0, 8(%rcx)
	je	.LBB76_7
	movq	(%rcx), %rax
	cmpb	$0, 1(%rax)
	je	.LBB76_7
	cmpb	$1, (%rax)
	jne	.LBB76_8
	movb	$0, 1(%rax)
	movl	%edx, %ecx
	cmpq	%rcx, 32(%rax)
	jbe	.LBB76_5
	movq	24(%rax), %rdx
	imulq	$2792, %rcx, %rcx
	movl	(%rdx,%rcx), %r10d
	movq	24(%rdx,%rcx), %rcx
	movb	$1, 1(%rax)
	movq	%rcx, (%r8)
	movl	%r10d, (%r9)
	xorl	%eax, %eax
	retq
.LBB76_5:
	movb	$1, 1(%rax)
	movl	$4, %eax
	retq
.LBB76_7:
	xorl	%ecx, %ecx
	jmp	tlsf_c.call_fault.CallFault.refusal
.LBB76_8:
	movb	$2, %cl
	jmp	tlsf_c.call_fault.CallFault.refusal
	.def	tlsf_pools_place;
	.scl	2;
	.type	32;
	.endef
	.globl	tlsf_pools_place
	.p2align	4
tlsf_pools_place:
.seh_proc tlsf_pools_place
	pushq	%rsi
	.seh_pushreg %rsi
	pushq	%rdi
	.seh_pushreg %rdi
	.seh_endprologue
	cmpb	$0, 8(%rcx)
	je	.LBB77_10
	movq	(%rcx), %rax
	cmpb	$0, 1(%rax)
	je	.LBB77_10
	cmpb	$1, (%rax)
	jne	.LBB77_12
	movq	56(%rsp), %rcx
	movb	$0, 1(%rax)
	movl	%edx, %edx
	cmpq	%rdx, 32(%rax)
	jbe	.LBB77_8
	movq	24(%rax), %r10
	imulq	$2792, %rdx, %r11
	movl	(%r10,%r11), %edx
	movl	32(%r10,%r11), %esi
	cmpb	$0, 8(%rax)
	cmpl	%esi, %r8d
	jae	.LBB77_8
	movq	48(%r10,%r11), %rsi
	movl	%r8d, %edi
	shrl	$6, %edi
	movq	(%rsi,%rdi,8), %rsi
	btq	%r8, %rsi
	jae	.LBB77_8
	movq	24(%r10,%r11), %r10
	movl	%r8d, %r11d
	testb	$1, (%r10,%r11,8)
	jne	.LBB77_8
	leaq	(%r10,%r11,8), %r10
	movq	8(%r10), %r11
	movl	16(%r10), %r10d
	movb	$1, 1(%rax)
	movl	%edx, (%r9)
	movl	%r8d, 4(%r9)
	movq	%r11, 8(%r9)
	movl	%r10d, (%rcx)
	xorl	%eax, %eax
	popq	%rdi
	popq	%rsi
	retq
.LBB77_8:
	movb	$1, 1(%rax)
	movl	$4, %eax
	popq	%rdi
	popq	%rsi
	retq
.LBB77_10:
	xorl	%ecx, %ecx
	popq	%rdi
	popq	%rsi
	jmp	tlsf_c.call_fault.CallFault.refusal
.LBB77_12:
	movb	$2, %cl
	popq	%rdi
	popq	%rsi
	jmp	tlsf_c.call_fault.CallFault.refusal
	.seh_endproc
	.def	tlsf_pools_read;
	.scl	2;
	.type	32;
	.endef
	.globl	tlsf_pools_read
	.p2align	4
tlsf_pools_read:
.seh_proc tlsf_pools_read
	pushq	%rbp
	.seh_pushreg %rbp
	pushq	%rbx
	.seh_pushreg %rbx
	subq	$40, %rsp
	.seh_stackalloc 40
	.seh_endprologue
	movq	%r8, %rax
	movl	%ecx, %r8d
	xorl	%ecx, %ecx
	testq	%rax, %rax
	sete	%r11b
	cmpb	$0, 8(%rdi)
	je	.LBB78_21
	movq	(%rdi), %rbx
	cmpb	$0, 1(%rbx)
	je	.LBB78_21
	cmpb	$1, (%rbx)
	jne	.LBB78_27
	movq	%rdx, %r10
	movq	%rsi, %rdx
	shrq	$32, %rdx
	movb	%r11b, %cl
	shll	$12, %ecx
	addq	%rcx, %rax
	movb	$0, 1(%rbx)
	movl	16(%rbx), %ecx
	xorl	%r11d, %r11d
	movl	%esi, %edi
	subl	%ecx, %edi
	cmovbl	%r11d, %edi
	setae	%bpl
	cmovbl	%r11d, %edi
	cmpq	%rdi, 32(%rbx)
	seta	%cl
	andb	%bpl, %cl
	cmpb	$0, 8(%rbx)
	je	.LBB78_12
	testb	%cl, %cl
	je	.LBB78_20
	movq	24(%rbx), %rcx
	imulq	$2792, %rdi, %r11
	movl	(%rcx,%r11), %edi
	cmpl	%esi, %edi
	jne	.LBB78_23
	addq	%r11, %rcx
	movl	%esi, %edi
	cmpl	32(%rcx), %edx
	jae	.LBB78_23
	movq	48(%rcx), %rdi
	movq	%rsi, %r11
	shrq	$38, %r11
	movq	(%rdi,%r11,8), %rdi
	btq	%rdx, %rdi
	movl	%esi, %edi
	jae	.LBB78_23
	addq	$24, %rcx
	movq	(%rcx), %r11
	testb	$1, (%r11,%rdx,8)
	movl	%esi, %edi
	jne	.LBB78_23
	movl	%esi, %edi
	cmpq	%r10, 8(%r11,%rdx,8)
	jne	.LBB78_23
	movl	16(%r11,%rdx,8), %esi
	movl	%r8d, %edi
	addq	%r9, %rdi
	cmpq	%rsi, %rdi
	ja	.LBB78_19
	movq	%r9, 32(%rsp)
	movq	%rax, %r9
	callq	tlsf_heap.region.Region.read.5
	jmp	.LBB78_25
.LBB78_12:
	testb	%cl, %cl
	je	.LBB78_20
	movq	24(%rbx), %rcx
	imulq	$2792, %rdi, %r11
	movl	(%rcx,%r11), %edi
	cmpl	%esi, %edi
	jne	.LBB78_23
	addq	%r11, %rcx
	movl	%esi, %edi
	cmpl	32(%rcx), %edx
	jae	.LBB78_23
	movq	48(%rcx), %rdi
	movq	%rsi, %r11
	shrq	$38, %r11
	movq	(%rdi,%r11,8), %rdi
	btq	%rdx, %rdi
	movl	%esi, %edi
	jae	.LBB78_23
	addq	$24, %rcx
	movq	(%rcx), %r11
	testb	$1, (%r11,%rdx,8)
	movl	%esi, %edi
	jne	.LBB78_23
	movl	%esi, %edi
	cmpq	%r10, 8(%r11,%rdx,8)
	jne	.LBB78_23
	movl	16(%r11,%rdx,8), %esi
	movl	%r8d, %edi
	addq	%r9, %rdi
	cmpq	%rsi, %rdi
	jbe	.LBB78_24
.LBB78_19:
	movb	$1, 1(%rbx)
	movl	$7, %eax
	addq	$40, %rsp
	popq	%rbx
	popq	%rbp
	retq
.LBB78_20:
	movb	$1, 1(%rbx)
	movl	$3, %eax
	addq	$40, %rsp
	popq	%rbx
	popq	%rbp
	retq
.LBB78_21:
	xorl	%ecx, %ecx
	jmp	.LBB78_22
.LBB78_23:
	movl	%esi, %ecx
	movl	%edi, %edx
	callq	tlsf_heap.refusal.Refusal.of_name
	movl	%eax, %ecx
	movb	$1, 1(%rbx)
	xorl	%eax, %eax
	cmpb	$3, %cl
	sete	%al
	addl	$3, %eax
	addq	$40, %rsp
	popq	%rbx
	popq	%rbp
	retq
.LBB78_24:
	movq	%r9, 32(%rsp)
	movq	%rax, %r9
	callq	tlsf_heap.region.Region.read.4
.LBB78_25:
	movb	$1, 1(%rbx)
	xorl	%eax, %eax
	addq	$40, %rsp
	popq	%rbx
	popq	%rbp
	retq
.LBB78_27:
	movb	$2, %cl
.LBB78_22:
	callq	tlsf_c.call_fault.CallFault.refusal
	nop
	addq	$40, %rsp
	popq	%rbx
	popq	%rbp
	retq
	.seh_endproc
	.def	tlsf_pools_release;
	.scl	2;
	.type	32;
	.endef
	.globl	tlsf_pools_release
	.p2align	4
tlsf_pools_release:
.seh_proc tlsf_pools_release
	pushq	%r14
	.seh_pushreg %r14
	pushq	%rbx
	.seh_pushreg %rbx
	subq	$56, %rsp
	.seh_stackalloc 56
	.seh_endprologue
	cmpb	$0, 8(%rdi)
	je	.LBB79_24
	movq	(%rdi), %rdi
	cmpb	$0, 1(%rdi)
	je	.LBB79_24
	cmpb	$1, (%rdi)
	jne	.LBB79_32
	movq	%rsi, %r10
	shrq	$32, %r10
	movb	$0, 1(%rdi)
	movl	16(%rdi), %ecx
	xorl	%r8d, %r8d
	movl	%esi, %eax
	subl	%ecx, %eax
	cmovbl	%r8d, %eax
	setae	%r9b
	cmovbl	%r8d, %eax
	cmpq	%rax, 32(%rdi)
	seta	%cl
	andb	%r9b, %cl
	cmpb	$0, 8(%rdi)
	je	.LBB79_13
	testb	%cl, %cl
	je	.LBB79_22
	movq	24(%rdi), %rbx
	imulq	$2792, %rax, %rcx
	movl	(%rbx,%rcx), %eax
	cmpl	%esi, %eax
	jne	.LBB79_26
	addq	%rcx, %rbx
	movl	%esi, %eax
	cmpl	32(%rbx), %r10d
	jae	.LBB79_26
	movq	48(%rbx), %rax
	movq	%rsi, %rcx
	shrq	$38, %rcx
	movq	(%rax,%rcx,8), %rax
	btq	%r10, %rax
	movl	%esi, %eax
	jae	.LBB79_26
	leaq	24(%rbx), %rcx
	movq	(%rcx), %r14
	movq	(%r14,%r10,8), %r8
	movl	%esi, %eax
	testb	$1, %r8b
	jne	.LBB79_26
	movl	%esi, %eax
	cmpq	%rdx, 8(%r14,%r10,8)
	jne	.LBB79_26
	movq	8(%rbx), %r9
	cmpq	$-1, %r9
	je	.LBB79_23
	movl	16(%r14,%r10,8), %esi
	movl	%r8d, %r11d
	shrl	$2, %r11d
	subl	%r11d, 16(%rbx)
	testb	$2, %r8b
	jne	.LBB79_27
	leal	(%r11,%r10), %eax
	movq	(%r14,%rax,8), %rdx
	testq	%r10, %r10
	jne	.LBB79_28
	jmp	.LBB79_29
.LBB79_13:
	testb	%cl, %cl
	je	.LBB79_22
	movq	24(%rdi), %rbx
	imulq	$2792, %rax, %rcx
	movl	(%rbx,%rcx), %eax
	cmpl	%esi, %eax
	jne	.LBB79_26
	addq	%rcx, %rbx
	movl	%esi, %eax
	cmpl	32(%rbx), %r10d
	jae	.LBB79_26
	movq	48(%rbx), %rax
	movq	%rsi, %rcx
	shrq	$38, %rcx
	movq	(%rax,%rcx,8), %rax
	btq	%r10, %rax
	movl	%esi, %eax
	jae	.LBB79_26
	leaq	24(%rbx), %rcx
	movq	(%rcx), %r14
	movq	(%r14,%r10,8), %r8
	movl	%esi, %eax
	testb	$1, %r8b
	jne	.LBB79_26
	movl	%esi, %eax
	cmpq	%rdx, 8(%r14,%r10,8)
	jne	.LBB79_26
	movq	8(%rbx), %r9
	cmpq	$-1, %r9
	je	.LBB79_23
	movl	16(%r14,%r10,8), %esi
	movl	%r8d, %r11d
	shrl	$2, %r11d
	subl	%r11d, 16(%rbx)
	testb	$2, %r8b
	jne	.LBB79_35
	leal	(%r11,%r10), %eax
	movq	(%r14,%rax,8), %rdx
	testq	%r10, %r10
	jne	.LBB79_36
	jmp	.LBB79_37
.LBB79_22:
	movb	$1, 1(%rdi)
	movl	$3, %eax
	addq	$56, %rsp
	popq	%rbx
	popq	%r14
	retq
.LBB79_23:
	movb	$1, 1(%rdi)
	movl	$2, %eax
	addq	$56, %rsp
	popq	%rbx
	popq	%r14
	retq
.LBB79_24:
	xorl	%ecx, %ecx
	jmp	.LBB79_25
.LBB79_26:
	movl	%esi, %ecx
	movl	%eax, %edx
	callq	tlsf_heap.refusal.Refusal.of_name
	movl	%eax, %ecx
	movb	$1, 1(%rdi)
	xorl	%eax, %eax
	cmpb	$3, %cl
	sete	%al
	addl	$3, %eax
	addq	$56, %rsp
	popq	%rbx
	popq	%r14
	retq
.LBB79_27:
	xorl	%edx, %edx
	testq	%r10, %r10
	je	.LBB79_29
.LBB79_28:
	movq	%r8, %rax
	shrq	$32, %rax
	movq	(%r14,%rax,8), %rax
	testb	$1, %al
	jne	.LBB79_34
.LBB79_29:
	testb	$1, %dl
	jne	.LBB79_33
	orq	$1, %r8
	movq	%r8, (%r14,%r10,8)
	movq	%r9, 8(%r14,%r10,8)
	incq	8(%rbx)
	movl	%r11d, %eax
	orl	$32, %eax
	bsrl	%eax, %ecx
	addl	$-5, %ecx
	shrl	%cl, %r11d
	shll	$5, %ecx
	addl	%r11d, %ecx
	movslq	168(%rbx,%rcx,4), %rax
	movl	%r10d, 168(%rbx,%rcx,4)
	movq	24(%rbx), %rdx
	testq	%rax, %rax
	js	.LBB79_42
	movabsq	$-4294967296, %rcx
	orq	%rax, %rcx
	movq	%rcx, 16(%rdx,%r10,8)
	movl	%r10d, 20(%rdx,%rax,8)
	movq	2744(%rbx), %rdx
	testq	%rdx, %rdx
	jne	.LBB79_43
	jmp	.LBB79_52
.LBB79_32:
	movb	$2, %cl
.LBB79_25:
	callq	tlsf_c.call_fault.CallFault.refusal
	nop
	addq	$56, %rsp
	popq	%rbx
	popq	%r14
	retq
.LBB79_33:
	leaq	1(%r9), %rax
	movq	%rax, 8(%rbx)
	movl	%r10d, 32(%rsp)
	callq	tlsf_heap.fitting.merge_next.5
	movq	2744(%rbx), %rdx
	testq	%rdx, %rdx
	jne	.LBB79_43
	jmp	.LBB79_52
.LBB79_34:
	leaq	1(%r9), %r11
	movq	%r11, 8(%rbx)
	movq	%r8, 40(%rsp)
	movl	%r10d, 32(%rsp)
	movq	%rax, %r8
	callq	tlsf_heap.fitting.merge_before.5
	movq	2744(%rbx), %rdx
	testq	%rdx, %rdx
	jne	.LBB79_43
	jmp	.LBB79_52
.LBB79_35:
	xorl	%edx, %edx
	testq	%r10, %r10
	je	.LBB79_37
.LBB79_36:
	movq	%r8, %rax
	shrq	$32, %rax
	movq	(%r14,%rax,8), %rax
	testb	$1, %al
	jne	.LBB79_41
.LBB79_37:
	testb	$1, %dl
	jne	.LBB79_40
	orq	$1, %r8
	movq	%r8, (%r14,%r10,8)
	movq	%r9, 8(%r14,%r10,8)
	incq	8(%rbx)
	movl	%r11d, %eax
	orl	$16, %eax
	bsrl	%eax, %ecx
	addl	$-4, %ecx
	shrl	%cl, %r11d
	shll	$4, %ecx
	addl	%r11d, %ecx
	movslq	168(%rbx,%rcx,4), %rax
	movl	%r10d, 168(%rbx,%rcx,4)
	movq	24(%rbx), %rdx
	testq	%rax, %rax
	js	.LBB79_46
	movabsq	$-4294967296, %rcx
	orq	%rax, %rcx
	movq	%rcx, 16(%rdx,%r10,8)
	movl	%r10d, 20(%rdx,%rax,8)
	jmp	.LBB79_47
.LBB79_40:
	leaq	1(%r9), %rax
	movq	%rax, 8(%rbx)
	movl	%r10d, 32(%rsp)
	callq	tlsf_heap.fitting.merge_next.4
	jmp	.LBB79_47
.LBB79_41:
	leaq	1(%r9), %r11
	movq	%r11, 8(%rbx)
	movq	%r8, 40(%rsp)
	movl	%r10d, 32(%rsp)
	movq	%rax, %r8
	callq	tlsf_heap.fitting.merge_before.4
	jmp	.LBB79_47
.LBB79_42:
	movq	$-1, 16(%rdx,%r10,8)
	shrl	$5, %ecx
	movl	$1, %eax
	shll	%cl, %eax
	movl	84(%rbx,%rcx,4), %edx
	orl	%eax, 80(%rbx)
	btsl	%r11d, %edx
	movl	%edx, 84(%rbx,%rcx,4)
	movq	2744(%rbx), %rdx
	testq	%rdx, %rdx
	je	.LBB79_52
.LBB79_43:
	movq	2768(%rbx), %rax
	movq	2736(%rbx), %r8
	xorl	%ecx, %ecx
	.p2align	4
.LBB79_44:
	cmpl	%esi, 4(%r8,%rcx,8)
	jae	.LBB79_51
	incq	%rcx
	cmpq	%rcx, %rdx
	jne	.LBB79_44
	jmp	.LBB79_52
.LBB79_46:
	movq	$-1, 16(%rdx,%r10,8)
	shrl	$4, %ecx
	movl	$1, %eax
	shll	%cl, %eax
	movl	84(%rbx,%rcx,4), %edx
	orl	%eax, 80(%rbx)
	andb	$15, %r11b
	btsl	%r11d, %edx
	movl	%edx, 84(%rbx,%rcx,4)
.LBB79_47:
	movq	2744(%rbx), %rdx
	testq	%rdx, %rdx
	je	.LBB79_52
	movq	2768(%rbx), %rax
	movq	2736(%rbx), %r8
	xorl	%ecx, %ecx
	.p2align	4
.LBB79_49:
	cmpl	%esi, 4(%r8,%rcx,8)
	jae	.LBB79_51
	incq	%rcx
	cmpq	%rcx, %rdx
	jne	.LBB79_49
	jmp	.LBB79_52
.LBB79_51:
	decl	(%rax,%rcx,4)
.LBB79_52:
	movb	$1, 1(%rdi)
	xorl	%eax, %eax
	addq	$56, %rsp
	popq	%rbx
	popq	%r14
	retq
	.seh_endproc
	.def	tlsf_pools_report;
	.scl	2;
	.type	32;
	.endef
	.globl	tlsf_pools_report
	.p2align	4
tlsf_pools_report:
.seh_proc tlsf_pools_report
	pushq	%r15
	.seh_pushreg %r15
	pushq	%r14
	.seh_pushreg %r14
	pushq	%r13
	.seh_pushreg %r13
	pushq	%r12
	.seh_pushreg %r12
	pushq	%rsi
	.seh_pushreg %rsi
	pushq	%rdi
	.seh_pushreg %rdi
	pushq	%rbp
	.seh_pushreg %rbp
	pushq	%rbx
	.seh_pushreg %rbx
	.seh_endprologue
	cmpb	$0, 8(%rcx)
	je	.LBB80_31
	movq	(%rcx), %r9
	cmpb	$0, 1(%r9)
	je	.LBB80_31
	cmpb	$1, (%r9)
	jne	.LBB80_36
	movb	$0, 1(%r9)
	movl	%edx, %eax
	cmpb	$0, 8(%r9)
	movq	32(%r9), %rcx
	je	.LBB80_16
	cmpq	%rax, %rcx
	jbe	.LBB80_29
	movq	24(%r9), %rcx
	imulq	$2792, %rax, %rdx
	movq	8(%rcx,%rdx), %r10
	movl	32(%rcx,%rdx), %eax
	testl	%eax, %eax
	je	.LBB80_30
	movq	24(%rcx,%rdx), %rcx
	xorl	%edx, %edx
	movq	%r10, %r15
	xorl	%r11d, %r11d
	xorl	%r14d, %r14d
	xorl	%esi, %esi
	xorl	%edi, %edi
	xorl	%ebx, %ebx
	xorl	%ebp, %ebp
	jmp	.LBB80_8
	.p2align	4
.LBB80_7:
	incl	%ebp
	addl	%edx, %ebx
	addl	16(%rcx,%r12,8), %edi
	addl	%r12d, %edx
	cmpl	%eax, %edx
	jae	.LBB80_10
.LBB80_8:
	movl	%edx, %r12d
	movq	(%rcx,%r12,8), %r13
	movl	%r13d, %edx
	shrl	$2, %edx
	testb	$1, %r13b
	je	.LBB80_7
	incl	%esi
	addl	%edx, %r14d
	cmpl	%r11d, %edx
	cmoval	%edx, %r11d
	movq	8(%rcx,%r12,8), %r13
	cmpq	%r15, %r13
	cmovbq	%r13, %r15
	addl	%r12d, %edx
	cmpl	%eax, %edx
	jb	.LBB80_8
.LBB80_10:
	xorl	%edx, %edx
	movl	$0, %ecx
	testl	%r11d, %r11d
	je	.LBB80_14
	movl	%r11d, %eax
	orl	$32, %eax
	bsrl	%eax, %ecx
	addl	$-5, %ecx
	movl	%r11d, %r12d
	shrl	%cl, %r12d
	shll	$5, %ecx
	addl	%r12d, %ecx
	movl	%ecx, %eax
	shrl	$5, %eax
	je	.LBB80_13
	movl	$16, %r13d
	movl	%eax, %ecx
	shll	%cl, %r13d
	andl	$31, %r12d
	decb	%al
	movl	%eax, %ecx
	shll	%cl, %r12d
	addl	%r13d, %r12d
	movl	%r12d, %ecx
.LBB80_13:
	leal	-24(,%rcx,8), %ecx
.LBB80_14:
	testl	%r14d, %r14d
	je	.LBB80_38
.LBB80_27:
	movl	%r11d, %eax
	movl	%r14d, %r12d
	imulq	$1000, %rax, %rax
	movabsq	$4393751543808, %rdx
	testq	%rdx, %rax
	je	.LBB80_32
	xorl	%edx, %edx
	divq	%r12
	jmp	.LBB80_33
.LBB80_16:
	cmpq	%rax, %rcx
	jbe	.LBB80_29
	movq	24(%r9), %rcx
	imulq	$2792, %rax, %rdx
	movq	8(%rcx,%rdx), %r10
	movl	32(%rcx,%rdx), %eax
	testl	%eax, %eax
	je	.LBB80_30
	movq	24(%rcx,%rdx), %rcx
	xorl	%edx, %edx
	movq	%r10, %r15
	xorl	%r11d, %r11d
	xorl	%r14d, %r14d
	xorl	%esi, %esi
	xorl	%edi, %edi
	xorl	%ebx, %ebx
	xorl	%ebp, %ebp
	jmp	.LBB80_20
	.p2align	4
.LBB80_19:
	incl	%ebp
	addl	%edx, %ebx
	addl	16(%rcx,%r12,8), %edi
	addl	%r12d, %edx
	cmpl	%eax, %edx
	jae	.LBB80_22
.LBB80_20:
	movl	%edx, %r12d
	movq	(%rcx,%r12,8), %r13
	movl	%r13d, %edx
	shrl	$2, %edx
	testb	$1, %r13b
	je	.LBB80_19
	incl	%esi
	addl	%edx, %r14d
	cmpl	%r11d, %edx
	cmoval	%edx, %r11d
	movq	8(%rcx,%r12,8), %r13
	cmpq	%r15, %r13
	cmovbq	%r13, %r15
	addl	%r12d, %edx
	cmpl	%eax, %edx
	jb	.LBB80_20
.LBB80_22:
	xorl	%edx, %edx
	movl	$0, %ecx
	testl	%r11d, %r11d
	je	.LBB80_26
	movl	%r11d, %eax
	orl	$16, %eax
	bsrl	%eax, %ecx
	addl	$-4, %ecx
	movl	%r11d, %r12d
	shrl	%cl, %r12d
	shll	$4, %ecx
	addl	%r12d, %ecx
	movl	%ecx, %eax
	shrl	$4, %eax
	je	.LBB80_25
	movl	$8, %r13d
	movl	%eax, %ecx
	shll	%cl, %r13d
	andl	$15, %r12d
	decb	%al
	movl	%eax, %ecx
	shll	%cl, %r12d
	addl	%r13d, %r12d
	movl	%r12d, %ecx
.LBB80_25:
	leal	-24(,%rcx,8), %ecx
.LBB80_26:
	testl	%r14d, %r14d
	jne	.LBB80_27
.LBB80_38:
	xorl	%r14d, %r14d
	jmp	.LBB80_34
.LBB80_29:
	movb	$1, 1(%r9)
	movl	$4, %eax
	jmp	.LBB80_35
.LBB80_30:
	xorl	%ecx, %ecx
	xorl	%ebp, %ebp
	xorl	%ebx, %ebx
	xorl	%edi, %edi
	xorl	%esi, %esi
	xorl	%r14d, %r14d
	xorl	%r11d, %r11d
	movq	%r10, %r15
	xorl	%edx, %edx
	jmp	.LBB80_34
.LBB80_31:
	xorl	%ecx, %ecx
	jmp	.LBB80_37
.LBB80_32:
	xorl	%edx, %edx
	divl	%r12d
.LBB80_33:
	movl	$1000, %edx
	subl	%eax, %edx
.LBB80_34:
	leal	(,%rbx,8), %eax
	subl	%edi, %eax
	subq	%r15, %r10
	movb	$1, 1(%r9)
	movl	%ebp, (%r8)
	movl	%ebx, 4(%r8)
	movl	%edi, 8(%r8)
	movl	%esi, 12(%r8)
	movl	%r14d, 16(%r8)
	movl	%r11d, 20(%r8)
	movl	%ecx, 24(%r8)
	movl	%edx, 28(%r8)
	movl	%eax, 32(%r8)
	movl	$0, 36(%r8)
	movq	%r10, 40(%r8)
	xorl	%eax, %eax
.LBB80_35:
	popq	%rbx
	popq	%rbp
	popq	%rdi
	popq	%rsi
	popq	%r12
	popq	%r13
	popq	%r14
	popq	%r15
	retq
.LBB80_36:
	movb	$2, %cl
.LBB80_37:
	popq	%rbx
	popq	%rbp
	popq	%rdi
	popq	%rsi
	popq	%r12
	popq	%r13
	popq	%r14
	popq	%r15
	jmp	tlsf_c.call_fault.CallFault.refusal
	.seh_endproc
	.def	tlsf_pools_row;
	.scl	2;
	.type	32;
	.endef
	.globl	tlsf_pools_row
	.p2align	4
tlsf_pools_row:
.seh_proc tlsf_pools_row
	pushq	%rsi
	.seh_pushreg %rsi
	pushq	%rdi
	.seh_pushreg %rdi
	.seh_endprologue
	cmpb	$0, 8(%rcx)
	je	.LBB81_27
	movq	(%rcx), %rax
	cmpb	$0, 1(%rax)
	je	.LBB81_27
	cmpb	$1, (%rax)
	jne	.LBB81_29
	movb	$0, 1(%rax)
	movl	$4294967295, %ecx
	cmpq	%rcx, %rdx
	cmovbq	%rdx, %rcx
	cmpb	$0, 8(%rax)
	movq	24(%rax), %rdx
	movq	32(%rax), %r9
	je	.LBB81_11
	testq	%r9, %r9
	je	.LBB81_24
	xorl	%esi, %esi
	jmp	.LBB81_7
	.p2align	4
.LBB81_6:
	incq	%rsi
	cmpq	%r9, %rsi
	je	.LBB81_24
.LBB81_7:
	imulq	$2792, %rsi, %r10
	movq	2744(%rdx,%r10), %r11
	testq	%r11, %r11
	je	.LBB81_6
	movq	2736(%rdx,%r10), %r10
	xorl	%edi, %edi
	.p2align	4
.LBB81_9:
	cmpl	%ecx, 4(%r10,%rdi,8)
	jae	.LBB81_18
	incq	%rdi
	cmpq	%rdi, %r11
	jne	.LBB81_9
	jmp	.LBB81_6
.LBB81_11:
	testq	%r9, %r9
	je	.LBB81_24
	xorl	%esi, %esi
	jmp	.LBB81_14
	.p2align	4
.LBB81_13:
	incq	%rsi
	cmpq	%r9, %rsi
	je	.LBB81_24
.LBB81_14:
	imulq	$2792, %rsi, %r10
	movq	2744(%rdx,%r10), %r11
	testq	%r11, %r11
	je	.LBB81_13
	movq	2736(%rdx,%r10), %r10
	xorl	%edi, %edi
	.p2align	4
.LBB81_16:
	cmpl	%ecx, 4(%r10,%rdi,8)
	jae	.LBB81_21
	incq	%rdi
	cmpq	%rdi, %r11
	jne	.LBB81_16
	jmp	.LBB81_13
.LBB81_18:
	xorl	%edx, %edx
	.p2align	4
.LBB81_19:
	cmpl	%ecx, 4(%r10,%rdx,8)
	jae	.LBB81_26
	incq	%rdx
	cmpq	%rdx, %r11
	jne	.LBB81_19
	jmp	.LBB81_24
.LBB81_21:
	xorl	%edx, %edx
	.p2align	4
.LBB81_22:
	cmpl	%ecx, 4(%r10,%rdx,8)
	jae	.LBB81_26
	incq	%rdx
	cmpq	%rdx, %r11
	jne	.LBB81_22
.LBB81_24:
	movb	$1, 1(%rax)
	movl	$5, %eax
	popq	%rdi
	popq	%rsi
	retq
.LBB81_26:
	movl	4(%r10,%rdx,8), %ecx
	movb	$1, 1(%rax)
	movl	%ecx, (%r8)
	xorl	%eax, %eax
	popq	%rdi
	popq	%rsi
	retq
.LBB81_27:
	xorl	%ecx, %ecx
	popq	%rdi
	popq	%rsi
	jmp	tlsf_c.call_fault.CallFault.refusal
.LBB81_29:
	movb	$2, %cl
	popq	%rdi
	popq	%rsi
	jmp	tlsf_c.call_fault.CallFault.refusal
	.seh_endproc
	.def	tlsf_pools_words;
	.scl	2;
	.type	32;
	.endef
	.globl	tlsf_pools_words
	.p2align	4
tlsf_pools_words:
.seh_proc tlsf_pools_words
	pushq	%r15
	.seh_pushreg %r15
	pushq	%r14
	.seh_pushreg %r14
	pushq	%r12
	.seh_pushreg %r12
	pushq	%rsi
	.seh_pushreg %rsi
	pushq	%rdi
	.seh_pushreg %rdi
	pushq	%rbx
	.seh_pushreg %rbx
	subq	$632, %rsp
	.seh_stackalloc 632
	.seh_endprologue
	xorl	%edi, %edi
	testq	%rdx, %rdx
	sete	%bl
	leal	-6(%rcx), %r10d
	movl	$34, %eax
	cmpl	$-2, %r10d
	jb	.LBB82_14
	movl	$5, %eax
	cmpq	$64, %r8
	ja	.LBB82_14
	movq	%r9, %rsi
	xorps	%xmm0, %xmm0
	movaps	%xmm0, 96(%rsp)
	movaps	%xmm0, 80(%rsp)
	movaps	%xmm0, 64(%rsp)
	movaps	%xmm0, 48(%rsp)
	movaps	%xmm0, 32(%rsp)
	movq	$0, 112(%rsp)
	leaq	120(%rsp), %rax
	movq	%r8, %r14
	movl	$512, %r8d
	movq	%rcx, %r15
	movq	%rax, %rcx
	movq	%rdx, %r12
	xorl	%edx, %edx
	callq	tlsf_memory_set
	movq	%r15, %rax
	movq	%r14, %r8
	testq	%r14, %r14
	je	.LBB82_9
	movq	%r12, %rcx
	movb	%bl, %dil
	shll	$12, %edi
	cmpq	$1, %r8
	jne	.LBB82_5
	xorl	%edx, %edx
	jmp	.LBB82_8
.LBB82_5:
	movl	%r8d, %r9d
	andl	$126, %r9d
	leaq	(%rdi,%rcx), %r10
	addq	$24, %r10
	xorl	%edx, %edx
	movl	$4294967295, %r11d
	.p2align	4
.LBB82_6:
	movl	-24(%r10), %ebx
	movq	-16(%r10), %r14
	cmpq	%r11, %r14
	cmovaeq	%r11, %r14
	movl	%ebx, 120(%rsp,%rdx,8)
	movl	%r14d, 124(%rsp,%rdx,8)
	movl	-8(%r10), %ebx
	movq	(%r10), %r14
	cmpq	%r11, %r14
	cmovaeq	%r11, %r14
	movl	%ebx, 128(%rsp,%rdx,8)
	movl	%r14d, 132(%rsp,%rdx,8)
	addq	$2, %rdx
	addq	$32, %r10
	cmpq	%rdx, %r9
	jne	.LBB82_6
	testb	$1, %r8b
	je	.LBB82_9
.LBB82_8:
	addq	%rdi, %rcx
	movq	%rdx, %r9
	shlq	$4, %r9
	movl	(%rcx,%r9), %r10d
	movq	8(%rcx,%r9), %rcx
	movl	$4294967295, %r9d
	cmpq	%r9, %rcx
	cmovbq	%rcx, %r9
	movl	%r10d, 120(%rsp,%rdx,8)
	movl	%r9d, 124(%rsp,%rdx,8)
.LBB82_9:
	leaq	32(%rsp), %rcx
	leaq	120(%rsp), %rdx
	cmpl	$4, %eax
	jne	.LBB82_11
	callq	tlsf_pool.sizes.split.rising_split.4
	cmpb	$0, 32(%rsp)
	movl	$5, %eax
	jne	.LBB82_13
	jmp	.LBB82_14
.LBB82_11:
	callq	tlsf_pool.sizes.split.rising_split.5
	cmpb	$0, 32(%rsp)
	movl	$5, %eax
	je	.LBB82_14
.LBB82_13:
	movq	720(%rsp), %rax
	movq	40(%rsp), %rcx
	movq	112(%rsp), %rdx
	movq	%rdx, (%rsi)
	movl	%ecx, (%rax)
	xorl	%eax, %eax
.LBB82_14:
	addq	$632, %rsp
	popq	%rbx
	popq	%rdi
	popq	%rsi
	popq	%r12
	popq	%r14
	popq	%r15
	retq
	.seh_endproc
	.def	tlsf_post_close;
	.scl	2;
	.type	32;
	.endef
	.globl	tlsf_post_close
	.p2align	4
tlsf_post_close:
.seh_proc tlsf_post_close
	pushq	%rsi
	.seh_pushreg %rsi
	subq	$128, %rsp
	.seh_stackalloc 128
	.seh_endprologue
	movl	$32, %eax
	cmpb	$0, 8(%rcx)
	je	.LBB83_3
	movq	(%rcx), %rdx
	cmpb	$1, 1(%rdx)
	jne	.LBB83_3
	movl	$40, %eax
	cmpb	$0, (%rdx)
	je	.LBB83_4
.LBB83_3:
	addq	$128, %rsp
	popq	%rsi
	retq
.LBB83_4:
	movb	$0, 1(%rdx)
	movq	(%rcx), %rax
	xorps	%xmm0, %xmm0
	movups	%xmm0, (%rcx)
	movzwl	(%rax), %esi
	movups	8(%rax), %xmm0
	movups	%xmm0, 40(%rsp)
	movups	24(%rax), %xmm0
	movups	%xmm0, 56(%rsp)
	movq	40(%rax), %rcx
	movq	%rcx, 72(%rsp)
	movq	%rax, %rcx
	callq	tlsf_memory_dealloc
	movq	$0, 80(%rsp)
	movw	%si, 80(%rsp)
	movups	40(%rsp), %xmm0
	movups	56(%rsp), %xmm1
	movups	%xmm0, 88(%rsp)
	movups	%xmm1, 104(%rsp)
	movq	72(%rsp), %rax
	movq	%rax, 120(%rsp)
	leaq	80(%rsp), %rcx
	callq	tlsf_c.tlsf_c.any_end.AnyEnd.Destruct.drop
	xorl	%eax, %eax
	addq	$128, %rsp
	popq	%rsi
	retq
	.seh_endproc
	.def	tlsf_poster_close;
	.scl	2;
	.type	32;
	.endef
	.globl	tlsf_poster_close
	.p2align	4
tlsf_poster_close:
.seh_proc tlsf_poster_close
	pushq	%rsi
	.seh_pushreg %rsi
	subq	$128, %rsp
	.seh_stackalloc 128
	.seh_endprologue
	movl	$32, %eax
	cmpb	$0, 8(%rcx)
	je	.LBB84_4
	movq	(%rcx), %rdx
	cmpb	$1, 1(%rdx)
	jne	.LBB84_4
	movl	$40, %eax
	cmpb	$3, (%rdx)
	jne	.LBB84_4
	movb	$0, 1(%rdx)
	movq	(%rcx), %rax
	xorps	%xmm0, %xmm0
	movups	%xmm0, (%rcx)
	movzwl	(%rax), %esi
	movups	8(%rax), %xmm0
	movups	%xmm0, 40(%rsp)
	movups	24(%rax), %xmm0
	movups	%xmm0, 56(%rsp)
	movq	40(%rax), %rcx
	movq	%rcx, 72(%rsp)
	movq	%rax, %rcx
	callq	tlsf_memory_dealloc
	movq	$0, 80(%rsp)
	movw	%si, 80(%rsp)
	movups	40(%rsp), %xmm0
	movups	56(%rsp), %xmm1
	movups	%xmm0, 88(%rsp)
	movups	%xmm1, 104(%rsp)
	movq	72(%rsp), %rax
	movq	%rax, 120(%rsp)
	leaq	80(%rsp), %rcx
	callq	tlsf_c.tlsf_c.any_end.AnyEnd.Destruct.drop
	xorl	%eax, %eax
.LBB84_4:
	addq	$128, %rsp
	popq	%rsi
	retq
	.seh_endproc
	.def	tlsf_poster_open;
	.scl	2;
	.type	32;
	.endef
	.globl	tlsf_poster_open
	.p2align	4
tlsf_poster_open:
	cmpb	$0, 8(%rcx)
	je	.LBB85_9
	movq	(%rcx), %rax
	cmpb	$0, 1(%rax)
	je	.LBB85_9
	movzbl	(%rax), %ecx
	cmpb	$1, 8(%rdx)
	jne	.LBB85_4
	cmpb	$2, %cl
	movl	$33, %ecx
	movl	$40, %eax
	cmovel	%ecx, %eax
	retq
.LBB85_4:
	cmpb	$2, %cl
	jne	.LBB85_10
	movb	$0, 1(%rax)
	movq	32(%rax), %rcx
	testq	%rcx, %rcx
	je	.LBB85_7
	leaq	-1(%rcx), %r8
	movq	%r8, 32(%rax)
	movq	24(%rax), %r8
	movq	-8(%r8,%rcx,8), %rcx
	movb	$1, 1(%rax)
	movq	%rcx, (%rdx)
	movb	$1, 8(%rdx)
	movl	$0, 9(%rdx)
	movl	$0, 12(%rdx)
	xorl	%eax, %eax
	retq
.LBB85_7:
	movb	$1, 1(%rax)
	movl	$35, %eax
	retq
.LBB85_9:
	xorl	%ecx, %ecx
	jmp	tlsf_c.call_fault.CallFault.refusal
.LBB85_10:
	movb	$2, %cl
	jmp	tlsf_c.call_fault.CallFault.refusal
	.def	tlsf_put;
	.scl	2;
	.type	32;
	.endef
	.globl	tlsf_put
	.p2align	4
tlsf_put:
.seh_proc tlsf_put
	subq	$40, %rsp
	.seh_stackalloc 40
	.seh_endprologue
	cmpb	$0, 8(%rdi)
	je	.LBB86_8
	movq	(%rdi), %rcx
	cmpb	$0, 1(%rcx)
	je	.LBB86_8
	cmpb	$0, (%rcx)
	jne	.LBB86_10
	movb	$0, 1(%rcx)
	movq	24(%rcx), %rdi
	movq	32(%rcx), %r10
	movq	40(%rcx), %r8
	leaq	(%rdi,%rdi), %r9
	xorl	%eax, %eax
	cmpq	%r8, %r10
	movl	$0, %r11d
	cmovaq	%r9, %r11
	addq	%rdi, %r10
	subq	%r8, %r10
	cmpq	%r11, %r10
	jne	.LBB86_7
	movq	8(%rcx), %rdi
	movq	(%rdi), %r10
	movq	%r10, 32(%rcx)
	movq	24(%rcx), %rdi
	movq	40(%rcx), %r8
	leaq	(%rdi,%rdi), %r9
	xorl	%r11d, %r11d
	cmpq	%r8, %r10
	cmovaq	%r9, %r11
	addq	%rdi, %r10
	subq	%r8, %r10
	cmpq	%r11, %r10
	jne	.LBB86_7
	movb	$1, 1(%rcx)
	movl	$8, %eax
	addq	$40, %rsp
	retq
.LBB86_7:
	decq	%r9
	leaq	1(%r8), %r10
	cmpq	%r9, %r8
	cmovaeq	%rax, %r10
	cmpq	%rdi, %r8
	cmovbq	%rax, %rdi
	subq	%rdi, %r8
	movq	16(%rcx), %rdi
	leaq	(%r8,%r8,2), %r8
	movq	$0, (%rdi,%r8,8)
	movq	%rsi, 8(%rdi,%r8,8)
	movq	%rdx, 16(%rdi,%r8,8)
	movq	8(%rcx), %rdx
	movq	%r10, %rsi
	xchgq	%rsi, 128(%rdx)
	movq	%r10, 40(%rcx)
	movb	$1, 1(%rcx)
	addq	$40, %rsp
	retq
.LBB86_8:
	xorl	%ecx, %ecx
	callq	tlsf_c.call_fault.CallFault.refusal
	nop
	addq	$40, %rsp
	retq
.LBB86_10:
	movb	$2, %cl
	callq	tlsf_c.call_fault.CallFault.refusal
	nop
	addq	$40, %rsp
	retq
	.seh_endproc
	.def	tlsf_put_all;
	.scl	2;
	.type	32;
	.endef
	.globl	tlsf_put_all
	.p2align	4
tlsf_put_all:
.seh_proc tlsf_put_all
	pushq	%r15
	.seh_pushreg %r15
	pushq	%r14
	.seh_pushreg %r14
	pushq	%r13
	.seh_pushreg %r13
	pushq	%r12
	.seh_pushreg %r12
	pushq	%rsi
	.seh_pushreg %rsi
	pushq	%rdi
	.seh_pushreg %rdi
	pushq	%rbp
	.seh_pushreg %rbp
	pushq	%rbx
	.seh_pushreg %rbx
	subq	$856, %rsp
	.seh_stackalloc 856
	.seh_endprologue
	movq	%r8, %r12
	xorl	%eax, %eax
	testq	%rdx, %rdx
	sete	%r8b
	cmpb	$0, 8(%rcx)
	je	.LBB87_2
	movq	(%rcx), %r14
	cmpb	$0, 1(%r14)
	je	.LBB87_2
	cmpb	$0, (%r14)
	jne	.LBB87_24
	movq	%r9, 32(%rsp)
	movb	$0, 1(%r14)
	testq	%r12, %r12
	je	.LBB87_6
	movb	%r8b, %al
	shll	$12, %eax
	leaq	(%rdx,%rax), %rcx
	movq	%rcx, 48(%rsp)
	addq	%rdx, %rax
	addq	$24, %rax
	movq	%rax, 40(%rsp)
	xorl	%ebp, %ebp
	movq	%r14, 64(%rsp)
	movq	%r12, 56(%rsp)
	.p2align	4
.LBB87_8:
	movq	%rbp, %rsi
	shlq	$4, %rsi
	movq	%r12, %rbx
	subq	%rbp, %rbx
	cmpq	$32, %rbx
	movl	$32, %edi
	cmovbq	%rbx, %rdi
	movl	$768, %r8d
	leaq	88(%rsp), %rcx
	xorl	%edx, %edx
	callq	tlsf_memory_set
	cmpq	$1, %rbx
	jne	.LBB87_10
	xorl	%eax, %eax
	jmp	.LBB87_13
	.p2align	4
.LBB87_10:
	movl	%edi, %ecx
	andl	$62, %ecx
	movq	40(%rsp), %rax
	leaq	(%rax,%rsi), %rdx
	leaq	128(%rsp), %r8
	xorl	%eax, %eax
	.p2align	4
.LBB87_11:
	movq	-16(%rdx), %r9
	movq	$0, -40(%r8)
	movq	-24(%rdx), %r10
	movq	%r10, -32(%r8)
	movq	%r9, -24(%r8)
	movq	(%rdx), %r9
	movq	$0, -16(%r8)
	movq	-8(%rdx), %r10
	movq	%r10, -8(%r8)
	movq	%r9, (%r8)
	addq	$2, %rax
	addq	$32, %rdx
	addq	$48, %r8
	cmpq	%rax, %rcx
	jne	.LBB87_11
	testb	$1, %dil
	je	.LBB87_14
.LBB87_13:
	addq	48(%rsp), %rsi
	leaq	(%rax,%rax,2), %rcx
	shlq	$4, %rax
	movq	8(%rsi,%rax), %rdx
	movq	$0, 88(%rsp,%rcx,8)
	movq	(%rsi,%rax), %rax
	movq	%rax, 96(%rsp,%rcx,8)
	movq	%rdx, 104(%rsp,%rcx,8)
.LBB87_14:
	movq	24(%r14), %r15
	movq	32(%r14), %rax
	movq	40(%r14), %rsi
	leaq	(%r15,%r15), %rcx
	negq	%rcx
	cmpq	%rsi, %rax
	movl	$0, %edx
	cmovbeq	%rdx, %rcx
	addq	%r15, %rax
	subq	%rsi, %rax
	addq	%rcx, %rax
	movq	%rdi, %rbx
	cmpq	%rdi, %rax
	jae	.LBB87_16
	movq	8(%r14), %rax
	movq	(%rax), %rcx
	movq	%rcx, 32(%r14)
	movq	24(%r14), %r15
	movq	40(%r14), %rsi
	leaq	(%r15,%r15), %rax
	negq	%rax
	cmpq	%rsi, %rcx
	movl	$0, %edx
	cmovbeq	%rdx, %rax
	addq	%r15, %rcx
	subq	%rsi, %rcx
	addq	%rax, %rcx
	cmpq	%rdi, %rcx
	movq	%rdi, %rbx
	cmovbq	%rcx, %rbx
	movl	$0, %eax
	testq	%rcx, %rcx
	je	.LBB87_21
.LBB87_16:
	movq	%rdi, 72(%rsp)
	cmpq	%r15, %rsi
	movl	$0, %eax
	cmovaeq	%r15, %rax
	movq	%rsi, %rcx
	subq	%rax, %rcx
	movq	%r15, %r13
	subq	%rcx, %r13
	cmpq	%rbx, %r13
	cmovaeq	%rbx, %r13
	leaq	(,%r13,8), %rdx
	movq	%r15, %r12
	leaq	(%rdx,%rdx,2), %rdi
	movq	8(%r14), %rdx
	movq	%rdx, 80(%rsp)
	movq	16(%r14), %r14
	subq	%rcx, %r12
	je	.LBB87_18
	leaq	(%rsi,%rsi,2), %rcx
	shlq	$3, %rax
	leaq	(%rax,%rax,2), %rax
	movq	%r14, %rdx
	subq	%rax, %rdx
	leaq	(%rdx,%rcx,8), %rcx
	leaq	88(%rsp), %rdx
	movq	%rdi, %r8
	callq	tlsf_memory_cpy
.LBB87_18:
	cmpq	%r12, %rbx
	jbe	.LBB87_20
	leaq	(%rsp,%rdi), %rdx
	addq	$88, %rdx
	movq	%rbx, %rax
	subq	%r13, %rax
	shlq	$3, %rax
	leaq	(%rax,%rax,2), %r8
	movq	%r14, %rcx
	callq	tlsf_memory_cpy
.LBB87_20:
	movq	64(%rsp), %rax
	movq	80(%rsp), %rdx
	movq	%rdx, 8(%rax)
	movq	%r14, 16(%rax)
	movq	%rax, %r14
	addq	%r15, %r15
	subq	%rsi, %r15
	movq	%r15, %rax
	negq	%rax
	cmpq	%r15, %rbx
	cmovbq	%rsi, %rax
	addq	%rbx, %rax
	movq	%rax, %rcx
	xchgq	%rcx, 128(%rdx)
	movq	%rax, %rsi
	movq	%rbx, %rax
	movq	56(%rsp), %r12
	movq	72(%rsp), %rdi
.LBB87_21:
	movq	%rsi, 40(%r14)
	addq	%rax, %rbp
	cmpq	%rdi, %rax
	jb	.LBB87_23
	cmpq	%r12, %rbp
	jb	.LBB87_8
	jmp	.LBB87_23
.LBB87_6:
	xorl	%ebp, %ebp
.LBB87_23:
	movq	32(%rsp), %rax
	movq	%rbp, (%rax)
	movb	$1, 1(%r14)
	xorl	%eax, %eax
	addq	$856, %rsp
	popq	%rbx
	popq	%rbp
	popq	%rdi
	popq	%rsi
	popq	%r12
	popq	%r13
	popq	%r14
	popq	%r15
	retq
.LBB87_2:
	xorl	%ecx, %ecx
	jmp	.LBB87_3
.LBB87_24:
	movb	$2, %cl
.LBB87_3:
	addq	$856, %rsp
	popq	%rbx
	popq	%rbp
	popq	%rdi
	popq	%rsi
	popq	%r12
	popq	%r13
	popq	%r14
	popq	%r15
	jmp	tlsf_c.call_fault.CallFault.refusal
	.seh_endproc
	.def	tlsf_queue_close;
	.scl	2;
	.type	32;
	.endef
	.globl	tlsf_queue_close
	.p2align	4
tlsf_queue_close:
.seh_proc tlsf_queue_close
	pushq	%rsi
	.seh_pushreg %rsi
	subq	$128, %rsp
	.seh_stackalloc 128
	.seh_endprologue
	movl	$32, %eax
	cmpb	$0, 8(%rcx)
	je	.LBB88_4
	movq	(%rcx), %rdx
	cmpb	$1, 1(%rdx)
	jne	.LBB88_4
	movl	$40, %eax
	cmpb	$2, (%rdx)
	jne	.LBB88_4
	movb	$0, 1(%rdx)
	movq	(%rcx), %rax
	xorps	%xmm0, %xmm0
	movups	%xmm0, (%rcx)
	movzwl	(%rax), %esi
	movups	8(%rax), %xmm0
	movups	%xmm0, 40(%rsp)
	movups	24(%rax), %xmm0
	movups	%xmm0, 56(%rsp)
	movq	40(%rax), %rcx
	movq	%rcx, 72(%rsp)
	movq	%rax, %rcx
	callq	tlsf_memory_dealloc
	movq	$0, 80(%rsp)
	movw	%si, 80(%rsp)
	movups	40(%rsp), %xmm0
	movups	56(%rsp), %xmm1
	movups	%xmm0, 88(%rsp)
	movups	%xmm1, 104(%rsp)
	movq	72(%rsp), %rax
	movq	%rax, 120(%rsp)
	leaq	80(%rsp), %rcx
	callq	tlsf_c.tlsf_c.any_end.AnyEnd.Destruct.drop
	xorl	%eax, %eax
.LBB88_4:
	addq	$128, %rsp
	popq	%rsi
	retq
	.seh_endproc
	.def	tlsf_queue_drain;
	.scl	2;
	.type	32;
	.endef
	.globl	tlsf_queue_drain
	.p2align	4
tlsf_queue_drain:
.seh_proc tlsf_queue_drain
	pushq	%r15
	.seh_pushreg %r15
	pushq	%r14
	.seh_pushreg %r14
	pushq	%r12
	.seh_pushreg %r12
	pushq	%rsi
	.seh_pushreg %rsi
	pushq	%rdi
	.seh_pushreg %rdi
	pushq	%rbp
	.seh_pushreg %rbp
	pushq	%rbx
	.seh_pushreg %rbx
	subq	$80, %rsp
	.seh_stackalloc 80
	movaps	%xmm6, 64(%rsp)
	.seh_savexmm %xmm6, 64
	.seh_endprologue
	cmpb	$0, 8(%rcx)
	je	.LBB89_4
	movq	%rcx, %rbx
	movq	(%rcx), %rax
	cmpb	$1, (%rax)
	jne	.LBB89_4
	cmpb	$0, 8(%rdx)
	je	.LBB89_4
	movq	(%rdx), %r12
	cmpb	$0, 1(%r12)
	je	.LBB89_4
	cmpb	$2, (%r12)
	jne	.LBB89_14
	movq	%r9, %rsi
	movl	%r8d, %edi
	movb	$0, 1(%r12)
	testl	%r8d, %r8d
	je	.LBB89_8
	leaq	8(%r12), %r14
	xorl	%ebp, %ebp
	xorps	%xmm6, %xmm6
	leaq	32(%rsp), %r15
	.p2align	4
.LBB89_10:
	movaps	%xmm6, 48(%rsp)
	movaps	%xmm6, 32(%rsp)
	movq	%r15, %rcx
	movq	%r14, %rdx
	callq	tlsf_c.queue_end.take_once
	cmpb	$0, 32(%rsp)
	jne	.LBB89_13
	movl	48(%rsp), %edx
	movl	52(%rsp), %r9d
	movq	56(%rsp), %r8
	movq	%rbx, %rcx
	callq	tlsf_c.heap_calls.release_named
	incl	%ebp
	cmpl	%ebp, %edi
	jne	.LBB89_10
	movl	%edi, %ebp
	jmp	.LBB89_13
.LBB89_8:
	xorl	%ebp, %ebp
.LBB89_13:
	movl	%ebp, (%rsi)
	movb	$1, 1(%r12)
	xorl	%eax, %eax
	movaps	64(%rsp), %xmm6
	addq	$80, %rsp
	popq	%rbx
	popq	%rbp
	popq	%rdi
	popq	%rsi
	popq	%r12
	popq	%r14
	popq	%r15
	retq
.LBB89_4:
	xorl	%ecx, %ecx
.LBB89_5:
	movaps	64(%rsp), %xmm6
	addq	$80, %rsp
	popq	%rbx
	popq	%rbp
	popq	%rdi
	popq	%rsi
	popq	%r12
	popq	%r14
	popq	%r15
	jmp	tlsf_c.call_fault.CallFault.refusal
.LBB89_14:
	movb	$2, %cl
	jmp	.LBB89_5
	.seh_endproc
	.def	tlsf_queue_open;
	.scl	2;
	.type	32;
	.endef
	.section	.rdata,"dr"
	.p2align	4, 0x0
.LCPI90_0:
	.byte	0
	.byte	0
	.byte	0
	.byte	0
	.byte	0
	.byte	0
	.byte	0
	.byte	0
	.byte	1
	.byte	0
	.byte	0
	.byte	0
	.byte	0
	.byte	0
	.byte	0
	.byte	0
.LCPI90_1:
	.quad	2
	.quad	2
.LCPI90_2:
	.quad	4
	.quad	4
	.text
	.globl	tlsf_queue_open
	.p2align	4
tlsf_queue_open:
.seh_proc tlsf_queue_open
	pushq	%r15
	.seh_pushreg %r15
	pushq	%r14
	.seh_pushreg %r14
	pushq	%r13
	.seh_pushreg %r13
	pushq	%r12
	.seh_pushreg %r12
	pushq	%rsi
	.seh_pushreg %rsi
	pushq	%rdi
	.seh_pushreg %rdi
	pushq	%rbp
	.seh_pushreg %rbp
	pushq	%rbx
	.seh_pushreg %rbx
	subq	$488, %rsp
	.seh_stackalloc 488
	movaps	%xmm15, 464(%rsp)
	.seh_savexmm %xmm15, 464
	movaps	%xmm14, 448(%rsp)
	.seh_savexmm %xmm14, 448
	movaps	%xmm13, 432(%rsp)
	.seh_savexmm %xmm13, 432
	movaps	%xmm12, 416(%rsp)
	.seh_savexmm %xmm12, 416
	movaps	%xmm11, 400(%rsp)
	.seh_savexmm %xmm11, 400
	movaps	%xmm10, 384(%rsp)
	.seh_savexmm %xmm10, 384
	movaps	%xmm9, 368(%rsp)
	.seh_savexmm %xmm9, 368
	movaps	%xmm8, 352(%rsp)
	.seh_savexmm %xmm8, 352
	movaps	%xmm7, 336(%rsp)
	.seh_savexmm %xmm7, 336
	movaps	%xmm6, 320(%rsp)
	.seh_savexmm %xmm6, 320
	.seh_endprologue
	pxor	%xmm0, %xmm0
	movdqa	%xmm0, 224(%rsp)
	movq	$0, 240(%rsp)
	movl	$33, %eax
	cmpb	$0, 8(%rcx)
	jne	.LBB90_39
	movl	$1024, %r9d
	movl	$1024, %eax
	subl	%edx, %eax
	subl	%r8d, %r9d
	orl	%eax, %r9d
	movl	$5, %eax
	cmpl	$1023, %r9d
	ja	.LBB90_39
	movl	%r8d, 56(%rsp)
	movq	%rcx, 264(%rsp)
	movl	%edx, %r12d
	movl	%edx, %r14d
	movq	%r14, %rdi
	shlq	$4, %rdi
	movl	$8, %esi
	callq	tlsf_memory_alloc
	testb	$1, %al
	je	.LBB90_38
	movq	%rdx, %rbx
	movq	%rdx, 128(%rsp)
	movq	$0, 136(%rsp)
	movq	%r14, 144(%rsp)
	movl	56(%rsp), %ebp
	bsrq	%rbp, %rcx
	xorl	$63, %ecx
	negb	%cl
	movl	$1, %r13d
	shlq	%cl, %r13
	leaq	384(,%rbp,8), %r15
	movl	$8, %esi
	movq	%r15, %rdi
	callq	tlsf_memory_alloc
	testb	$1, %al
	je	.LBB90_36
	movq	%rdx, %r14
	leaq	-8(%r15), %r8
	xorl	%esi, %esi
	movq	%rdx, %rcx
	xorl	%edx, %edx
	callq	tlsf_memory_set
	movq	$0, -8(%r14,%r15)
	cmpl	$4, 56(%rsp)
	jb	.LBB90_8
	movl	%ebp, %esi
	andl	$2147483644, %esi
	movdqa	.LCPI90_0(%rip), %xmm0
	xorl	%eax, %eax
	movdqa	.LCPI90_1(%rip), %xmm1
	movdqa	.LCPI90_2(%rip), %xmm2
	.p2align	4
.LBB90_6:
	movdqa	%xmm0, %xmm3
	paddq	%xmm1, %xmm3
	movdqu	%xmm0, 384(%r14,%rax,8)
	movdqu	%xmm3, 400(%r14,%rax,8)
	addq	$4, %rax
	paddq	%xmm2, %xmm0
	cmpq	%rax, %rsi
	jne	.LBB90_6
	cmpl	%ebp, %esi
	je	.LBB90_9
	.p2align	4
.LBB90_8:
	movq	%rsi, 384(%r14,%rsi,8)
	incq	%rsi
	cmpq	%rsi, %rbp
	jne	.LBB90_8
.LBB90_9:
	pxor	%xmm0, %xmm0
	movdqa	%xmm0, 176(%rsp)
	movq	$0, 192(%rsp)
	movq	%rbp, %rdi
	shlq	$5, %rdi
	movl	$8, %esi
	callq	tlsf_memory_alloc
	testb	$1, %al
	je	.LBB90_30
	movq	%r13, 256(%rsp)
	incl	%r12d
	movl	%r12d, 76(%rsp)
	movq	%rdx, 80(%rsp)
	movq	$0, 88(%rsp)
	movq	%rbp, 96(%rsp)
	leaq	40(%rsp), %rax
	movq	%rax, 48(%rsp)
	movq	%rax, 104(%rsp)
	xorl	%r12d, %r12d
	leaq	80(%rsp), %rsi
	movq	%rbp, %rdi
	jmp	.LBB90_13
.LBB90_11:
	movq	80(%rsp), %rdx
	movq	88(%rsp), %r13
	.p2align	4
.LBB90_12:
	movq	%r13, %rbx
	shlq	$5, %rbx
	movq	$0, (%rdx,%rbx)
	movdqa	272(%rsp), %xmm0
	movdqu	%xmm0, 8(%rdx,%rbx)
	movq	288(%rsp), %rax
	movq	%rax, 24(%rdx,%rbx)
	leaq	1(%r13), %r12
	movq	%r12, 88(%rsp)
	decq	%rdi
	je	.LBB90_18
.LBB90_13:
	movq	192(%rsp), %rax
	movq	%rax, 288(%rsp)
	movdqa	176(%rsp), %xmm0
	movdqa	%xmm0, 272(%rsp)
	movq	%r12, %r13
	cmpq	%r12, 96(%rsp)
	jne	.LBB90_12
	movq	%rsi, %rcx
	callq	std_alloc.vec.Vec.grow_amortized.94730218a1e37034
	testb	%al, %al
	jne	.LBB90_11
	movq	80(%rsp), %rcx
	movq	88(%rsp), %rdx
	movq	96(%rsp), %rax
	movq	%rdx, %r8
	shlq	$5, %r8
	addq	%rcx, %r8
	addq	$-32, %r8
	incq	%rdx
.LBB90_16:
	decq	%rdx
	je	.LBB90_69
	cmpb	$0, (%r8)
	leaq	-32(%r8), %r8
	je	.LBB90_16
	jmp	.LBB90_27
.LBB90_18:
	movq	%r15, %rdi
	movq	80(%rsp), %r15
	movq	96(%rsp), %rax
	movq	%rax, 64(%rsp)
	movl	$8, %esi
	callq	tlsf_memory_alloc
	movq	%r15, %rcx
	testb	$1, %al
	je	.LBB90_24
	movq	%rdx, %r15
	movq	%rcx, 168(%rsp)
	movq	%r12, %rdi
	shlq	$5, %rdi
	js	.LBB90_23
	movl	$8, %esi
	callq	tlsf_memory_alloc
	testb	$1, %al
	je	.LBB90_23
	movq	%r15, %rax
	subq	%r14, %rax
	cmpq	$32, %rax
	jae	.LBB90_40
	xorl	%eax, %eax
	leaq	48(%rbp), %r9
	movq	168(%rsp), %r10
	jmp	.LBB90_43
.LBB90_23:
	movq	%r15, %rcx
	callq	tlsf_memory_dealloc
	movq	168(%rsp), %rcx
.LBB90_24:
	addq	%rcx, %rbx
	addq	$2, %r13
	.p2align	4
.LBB90_25:
	decq	%r13
	je	.LBB90_28
	cmpb	$0, (%rbx)
	leaq	-32(%rbx), %rbx
	je	.LBB90_25
.LBB90_27:
	ud2
.LBB90_28:
	cmpq	$0, 64(%rsp)
	je	.LBB90_30
.LBB90_29:
	callq	tlsf_memory_dealloc
.LBB90_30:
	movq	%r14, %rcx
	callq	tlsf_memory_dealloc
	movq	128(%rsp), %rbx
	movq	136(%rsp), %r15
	movq	144(%rsp), %r14
	testq	%r15, %r15
	je	.LBB90_35
	movq	%rbx, %r12
	jmp	.LBB90_33
	.p2align	4
.LBB90_32:
	addq	$16, %r12
	decq	%r15
	je	.LBB90_35
.LBB90_33:
	movq	(%r12), %rcx
	lock		decq	(%rcx)
	jne	.LBB90_32
	movq	40(%rcx), %rsi
	movq	56(%rcx), %rdi
	callq	tlsf_memory_dealloc
	movq	%rsi, %rcx
	callq	tlsf_memory_dealloc
	movq	%rdi, %rcx
	callq	tlsf_memory_dealloc
	jmp	.LBB90_32
.LBB90_35:
	testq	%r14, %r14
	je	.LBB90_38
.LBB90_36:
	movq	%rbx, %rcx
.LBB90_37:
	callq	tlsf_memory_dealloc
.LBB90_38:
	movl	$6, %eax
.LBB90_39:
	movaps	320(%rsp), %xmm6
	movaps	336(%rsp), %xmm7
	movaps	352(%rsp), %xmm8
	movaps	368(%rsp), %xmm9
	movaps	384(%rsp), %xmm10
	movaps	400(%rsp), %xmm11
	movaps	416(%rsp), %xmm12
	movaps	432(%rsp), %xmm13
	movaps	448(%rsp), %xmm14
	movaps	464(%rsp), %xmm15
	addq	$488, %rsp
	popq	%rbx
	popq	%rbp
	popq	%rdi
	popq	%rsi
	popq	%r12
	popq	%r13
	popq	%r14
	popq	%r15
	retq
.LBB90_40:
	leaq	48(%rbp), %r9
	movl	%r9d, %eax
	andl	$-4, %eax
	xorl	%ecx, %ecx
	movq	168(%rsp), %r10
.LBB90_41:
	movdqu	(%r14,%rcx,8), %xmm0
	movdqu	16(%r14,%rcx,8), %xmm1
	movdqu	%xmm0, (%r15,%rcx,8)
	movdqu	%xmm1, 16(%r15,%rcx,8)
	addq	$4, %rcx
	cmpq	%rcx, %rax
	jne	.LBB90_41
	cmpq	%rax, %r9
	je	.LBB90_47
.LBB90_43:
	movq	%rax, %rcx
	negq	%rcx
	addq	%rbp, %rcx
	addq	$47, %rcx
	movq	%rbp, %r11
	andq	$3, %r11
	je	.LBB90_45
.LBB90_44:
	movq	(%r14,%rax,8), %r8
	movq	%r8, (%r15,%rax,8)
	incq	%rax
	decq	%r11
	jne	.LBB90_44
.LBB90_45:
	cmpq	$3, %rcx
	jb	.LBB90_47
.LBB90_46:
	movq	(%r14,%rax,8), %rcx
	movq	%rcx, (%r15,%rax,8)
	movq	8(%r14,%rax,8), %rcx
	movq	%rcx, 8(%r15,%rax,8)
	movq	16(%r14,%rax,8), %rcx
	movq	%rcx, 16(%r15,%rax,8)
	movq	24(%r14,%rax,8), %rcx
	movq	%rcx, 24(%r15,%rax,8)
	addq	$4, %rax
	cmpq	%rax, %r9
	jne	.LBB90_46
.LBB90_47:
	testq	%r12, %r12
	je	.LBB90_53
	movq	%r12, %rax
	testb	$1, %r13b
	jne	.LBB90_50
	movzbl	(%r10,%rbx), %eax
	movq	24(%r10,%rbx), %rcx
	movq	%rcx, 96(%rsp)
	movups	8(%r10,%rbx), %xmm0
	movaps	%xmm0, 80(%rsp)
	movq	%rax, (%rdx,%rbx)
	movdqa	80(%rsp), %xmm0
	movdqu	%xmm0, 8(%rdx,%rbx)
	movq	96(%rsp), %rax
	movq	%rax, 24(%rdx,%rbx)
	movq	%r13, %rax
.LBB90_50:
	testq	%r13, %r13
	je	.LBB90_53
	movq	%rax, %rcx
	shlq	$5, %rcx
	addq	$-24, %rcx
.LBB90_52:
	movzbl	-8(%r10,%rcx), %r9d
	movq	16(%r10,%rcx), %r8
	movq	%r8, 96(%rsp)
	movups	(%r10,%rcx), %xmm0
	movaps	%xmm0, 80(%rsp)
	movq	%r9, -8(%rdx,%rcx)
	movaps	80(%rsp), %xmm0
	movups	%xmm0, (%rdx,%rcx)
	movq	96(%rsp), %r8
	movq	%r8, 16(%rdx,%rcx)
	movzbl	-40(%r10,%rcx), %r9d
	movq	-16(%r10,%rcx), %r8
	movq	%r8, 96(%rsp)
	movups	-32(%r10,%rcx), %xmm0
	movaps	%xmm0, 80(%rsp)
	movq	%r9, -40(%rdx,%rcx)
	movdqa	80(%rsp), %xmm0
	movdqu	%xmm0, -32(%rdx,%rcx)
	movq	96(%rsp), %r8
	movq	%r8, -16(%rdx,%rcx)
	addq	$-64, %rcx
	addq	$-2, %rax
	jne	.LBB90_52
.LBB90_53:
	movq	%rdx, %r13
	cmpq	$0, 64(%rsp)
	je	.LBB90_55
	movq	%r10, %rcx
	callq	tlsf_memory_dealloc
.LBB90_55:
	movq	%r14, %rcx
	callq	tlsf_memory_dealloc
	movl	76(%rsp), %eax
	movq	256(%rsp), %rbx
.LBB90_56:
	movq	(%r15), %rcx
	decl	%eax
	jne	.LBB90_56
	movl	56(%rsp), %eax
.LBB90_58:
	movq	(%r15), %rcx
	decl	%eax
	jne	.LBB90_58
	movl	$88, %edi
	movl	$8, %esi
	callq	tlsf_memory_alloc
	testb	$1, %al
	je	.LBB90_62
	movq	%rdx, %r14
	movq	$1, (%rdx)
	movq	%r15, 8(%rdx)
	movq	%r13, 16(%rdx)
	leaq	48(%rbp), %rax
	movq	%rax, 24(%rdx)
	movq	%r12, 32(%rdx)
	movq	%r15, 40(%rdx)
	movq	%rax, 48(%rdx)
	movq	%r13, 56(%rdx)
	movq	%r12, 64(%rdx)
	movq	%rbp, 72(%rdx)
	movq	%rbx, 80(%rdx)
	movq	(%r15), %rax
	leaq	128(%rsp), %r9
	movq	%rdx, %rcx
	movl	$1, %edx
	movl	76(%rsp), %r8d
	callq	tlsf_post.mailboxes.send_out
	testb	%al, %al
	je	.LBB90_71
	movq	%r14, %rcx
	callq	std_alloc.arc.Arc.drop.f29941b0e8355977
	leaq	128(%rsp), %rcx
	callq	std_alloc.vec.Vec.drop.05316b64237a7125
	jmp	.LBB90_38
.LBB90_62:
	movq	%r15, %rcx
	callq	tlsf_memory_dealloc
	movq	%r13, %rcx
	callq	tlsf_memory_dealloc
	movq	128(%rsp), %rsi
	movq	136(%rsp), %r15
	movq	144(%rsp), %r14
	testq	%r15, %r15
	je	.LBB90_67
	movq	%rsi, %r12
	jmp	.LBB90_65
.LBB90_64:
	addq	$16, %r12
	decq	%r15
	je	.LBB90_67
.LBB90_65:
	movq	(%r12), %rcx
	lock		decq	(%rcx)
	jne	.LBB90_64
	movq	40(%rcx), %rdi
	movq	56(%rcx), %rbx
	callq	tlsf_memory_dealloc
	movq	%rdi, %rcx
	callq	tlsf_memory_dealloc
	movq	%rbx, %rcx
	callq	tlsf_memory_dealloc
	jmp	.LBB90_64
.LBB90_67:
	testq	%r14, %r14
	je	.LBB90_38
	movq	%rsi, %rcx
	jmp	.LBB90_37
.LBB90_69:
	testq	%rax, %rax
	jne	.LBB90_29
	jmp	.LBB90_30
.LBB90_71:
	movq	128(%rsp), %r13
	movq	136(%rsp), %rbx
	movq	144(%rsp), %r15
	pxor	%xmm0, %xmm0
	movdqa	%xmm0, 176(%rsp)
	movdqa	%xmm0, 192(%rsp)
	movq	$0, 208(%rsp)
	movdqa	%xmm0, 128(%rsp)
	movdqa	%xmm0, 144(%rsp)
	movq	$0, 160(%rsp)
	testq	%rbx, %rbx
	je	.LBB90_78
	movq	%rbx, %rax
	shrq	$60, %rax
	jne	.LBB90_80
	leaq	(,%rbx,8), %rdi
	movl	$8, %esi
	callq	tlsf_memory_alloc
	testb	$1, %al
	je	.LBB90_80
	movq	%r15, 64(%rsp)
	movq	%rdx, 48(%rsp)
	movq	%r13, 56(%rsp)
	addq	$8, %r13
	xorl	%ebp, %ebp
.LBB90_75:
	movq	-8(%r13), %r12
	movl	(%r13), %r15d
	movl	$48, %edi
	movl	$8, %esi
	callq	tlsf_memory_alloc
	testb	$1, %al
	je	.LBB90_89
	movw	$259, (%rdx)
	movq	%r12, 8(%rdx)
	movq	%r15, 16(%rdx)
	pxor	%xmm0, %xmm0
	movdqu	%xmm0, 24(%rdx)
	movq	$0, 40(%rdx)
	movq	48(%rsp), %rax
	movq	%rdx, (%rax,%rbp,8)
	incq	%rbp
	addq	$16, %r13
	cmpq	%rbp, %rbx
	jne	.LBB90_75
	movq	56(%rsp), %r13
	movq	64(%rsp), %r15
.LBB90_78:
	movq	%r13, 128(%rsp)
	movq	$0, 136(%rsp)
	movq	%r15, 144(%rsp)
	movq	%rbx, 152(%rsp)
	movq	$0, 160(%rsp)
	leaq	128(%rsp), %rcx
	callq	std_alloc.vec.deque.VecDeque.drop.ca3d8856d46a41b8
	movl	$48, %edi
	movl	$8, %esi
	callq	tlsf_memory_alloc
	testb	$1, %al
	je	.LBB90_88
	movw	$258, (%rdx)
	movq	%r14, 8(%rdx)
	movq	$0, 16(%rdx)
	movq	48(%rsp), %rax
	movq	%rax, 24(%rdx)
	movq	%rbx, 32(%rdx)
	movq	%rbx, 40(%rdx)
	movq	264(%rsp), %rax
	movq	%rdx, (%rax)
	movb	$1, 8(%rax)
	movl	$0, 9(%rax)
	movl	$0, 12(%rax)
	xorl	%eax, %eax
	jmp	.LBB90_39
.LBB90_80:
	movq	%r13, %r12
	jmp	.LBB90_82
.LBB90_81:
	addq	$16, %r12
	decq	%rbx
	je	.LBB90_84
.LBB90_82:
	movq	(%r12), %rcx
	lock		decq	(%rcx)
	jne	.LBB90_81
	movq	40(%rcx), %rsi
	movq	56(%rcx), %rdi
	callq	tlsf_memory_dealloc
	movq	%rsi, %rcx
	callq	tlsf_memory_dealloc
	movq	%rdi, %rcx
	callq	tlsf_memory_dealloc
	jmp	.LBB90_81
.LBB90_84:
	testq	%r15, %r15
	je	.LBB90_86
.LBB90_85:
	movq	%r13, %rcx
	callq	tlsf_memory_dealloc
.LBB90_86:
	lock		decq	(%r14)
	movl	$6, %eax
	jne	.LBB90_39
	movq	40(%r14), %rsi
	movq	56(%r14), %rdi
	movq	%r14, %rcx
	callq	tlsf_memory_dealloc
	movq	%rsi, %rcx
	callq	tlsf_memory_dealloc
	movq	%rdi, %rcx
	jmp	.LBB90_37
.LBB90_88:
	movq	%r14, %rcx
	callq	std_alloc.arc.Arc.drop.c4a047e811255370
	movq	48(%rsp), %rax
	movq	%rax, 224(%rsp)
	movq	%rbx, 232(%rsp)
	movq	%rbx, 240(%rsp)
	leaq	224(%rsp), %rcx
	callq	std_alloc.vec.Vec.drop.7ac45d8413b9ad54
	jmp	.LBB90_38
.LBB90_89:
	leaq	1(%rbp), %r15
	movq	%rbp, %r13
	notq	%r13
	addq	%rbx, %r13
	lock		decq	(%r12)
	jne	.LBB90_91
	movq	40(%r12), %rsi
	movq	56(%r12), %rdi
	movq	%r12, %rcx
	callq	tlsf_memory_dealloc
	movq	%rsi, %rcx
	callq	tlsf_memory_dealloc
	movq	%rdi, %rcx
	callq	tlsf_memory_dealloc
.LBB90_91:
	movq	56(%rsp), %rax
	movq	%rax, 176(%rsp)
	movq	%r13, 184(%rsp)
	movq	64(%rsp), %rax
	movq	%rax, 192(%rsp)
	movq	%r15, 200(%rsp)
	movq	$0, 208(%rsp)
	leaq	176(%rsp), %rcx
	callq	std_alloc.vec.deque.VecDeque.drop.ca3d8856d46a41b8
	testq	%rbp, %rbp
	je	.LBB90_94
	leaq	278(%rsp), %rdi
	leaq	88(%rsp), %rbx
	xorl	%r15d, %r15d
	leaq	80(%rsp), %rsi
	movq	48(%rsp), %r13
.LBB90_93:
	movq	(%r13,%r15,8), %rcx
	movzwl	(%rcx), %r12d
	movups	8(%rcx), %xmm0
	movups	%xmm0, (%rdi)
	movups	24(%rcx), %xmm0
	movups	%xmm0, 16(%rdi)
	movq	40(%rcx), %rax
	movq	%rax, 32(%rdi)
	callq	tlsf_memory_dealloc
	movq	$0, 80(%rsp)
	movw	%r12w, 80(%rsp)
	movq	32(%rdi), %rax
	movq	%rax, 32(%rbx)
	movdqu	(%rdi), %xmm0
	movdqu	16(%rdi), %xmm1
	movdqu	%xmm1, 16(%rbx)
	movdqu	%xmm0, (%rbx)
	movq	%rsi, %rcx
	callq	tlsf_c.tlsf_c.any_end.AnyEnd.Destruct.drop
	incq	%r15
	cmpq	%r15, %rbp
	jne	.LBB90_93
	jmp	.LBB90_85
.LBB90_94:
	movq	48(%rsp), %r13
	jmp	.LBB90_85
	.seh_endproc
	.def	tlsf_queue_post;
	.scl	2;
	.type	32;
	.endef
	.globl	tlsf_queue_post
	.p2align	4
tlsf_queue_post:
.seh_proc tlsf_queue_post
	pushq	%rbx
	.seh_pushreg %rbx
	subq	$32, %rsp
	.seh_stackalloc 32
	.seh_endprologue
	cmpb	$0, 8(%rdi)
	je	.LBB91_12
	movq	(%rdi), %rdi
	cmpb	$0, 1(%rdi)
	je	.LBB91_12
	cmpb	$3, (%rdi)
	jne	.LBB91_15
	movb	$0, 1(%rdi)
	movq	8(%rdi), %r8
	movl	16(%rdi), %r10d
	movq	8(%r8), %rax
	movq	128(%rax), %rcx
	movq	8(%r8), %rax
	movq	80(%r8), %r9
	decq	%r9
	andq	%rcx, %r9
	movq	384(%rax,%r9,8), %rax
	movq	%rcx, %r11
	shrq	$62, %r11
	cmpl	$2, %r11d
	ja	.LBB91_11
	cmpq	%rcx, %rax
	jne	.LBB91_11
	leaq	1(%r9), %rax
	cmpq	72(%r8), %rax
	jae	.LBB91_7
	leaq	1(%rcx), %r11
	jmp	.LBB91_8
.LBB91_7:
	movq	%rcx, %r11
	subq	%r9, %r11
	addq	80(%r8), %r11
.LBB91_8:
	movq	8(%r8), %rbx
	movq	%rcx, %rax
	lock		cmpxchgq	%r11, 128(%rbx)
	jne	.LBB91_11
	movq	16(%r8), %rax
	movq	%r9, %r11
	shlq	$5, %r11
	cmpb	$0, (%rax,%r11)
	movq	$1, (%rax,%r11)
	movl	%r10d, 8(%rax,%r11)
	movl	$0, 12(%rax,%r11)
	movq	%rsi, 16(%rax,%r11)
	movq	%rdx, 24(%rax,%r11)
	jne	.LBB91_16
	incq	%rcx
	movq	8(%r8), %rax
	xchgq	%rcx, 384(%rax,%r9,8)
	movb	$1, 1(%rdi)
	xorl	%eax, %eax
	addq	$32, %rsp
	popq	%rbx
	retq
.LBB91_11:
	movq	8(%rdi), %rax
	movq	8(%rax), %rcx
	movq	128(%rcx), %rcx
	movq	8(%rax), %rdx
	movq	256(%rdx), %rdx
	movq	80(%rax), %rsi
	movq	%rcx, %rax
	subq	%rsi, %rax
	cmpq	%rax, %rdx
	movl	$8, %eax
	movl	$37, %edx
	cmovnel	%edx, %eax
	cmpq	%rsi, %rcx
	movb	$1, 1(%rdi)
	cmovbl	%edx, %eax
	addq	$32, %rsp
	popq	%rbx
	retq
.LBB91_12:
	xorl	%ecx, %ecx
	callq	tlsf_c.call_fault.CallFault.refusal
	nop
	addq	$32, %rsp
	popq	%rbx
	retq
.LBB91_15:
	movb	$2, %cl
	callq	tlsf_c.call_fault.CallFault.refusal
	nop
	addq	$32, %rsp
	popq	%rbx
	retq
.LBB91_16:
	ud2
	.seh_endproc
	.def	tlsf_queue_take;
	.scl	2;
	.type	32;
	.endef
	.globl	tlsf_queue_take
	.p2align	4
tlsf_queue_take:
.seh_proc tlsf_queue_take
	pushq	%rsi
	.seh_pushreg %rsi
	pushq	%rdi
	.seh_pushreg %rdi
	subq	$72, %rsp
	.seh_stackalloc 72
	.seh_endprologue
	cmpb	$0, 8(%rcx)
	je	.LBB92_7
	movq	(%rcx), %rdi
	cmpb	$0, 1(%rdi)
	je	.LBB92_7
	cmpb	$2, (%rdi)
	jne	.LBB92_9
	movq	%rdx, %rsi
	leaq	8(%rdi), %rdx
	movb	$0, 1(%rdi)
	xorps	%xmm0, %xmm0
	movaps	%xmm0, 48(%rsp)
	movaps	%xmm0, 32(%rsp)
	leaq	32(%rsp), %rcx
	callq	tlsf_c.queue_end.take_once
	cmpb	$0, 32(%rsp)
	je	.LBB92_5
	movzbl	33(%rsp), %eax
	leaq	.Lswitch.table.tlsf_queue_take(%rip), %rcx
	movl	(%rcx,%rax,4), %eax
	jmp	.LBB92_6
.LBB92_5:
	movaps	48(%rsp), %xmm0
	movups	%xmm0, (%rsi)
	xorl	%eax, %eax
.LBB92_6:
	movb	$1, 1(%rdi)
	addq	$72, %rsp
	popq	%rdi
	popq	%rsi
	retq
.LBB92_7:
	xorl	%ecx, %ecx
	addq	$72, %rsp
	popq	%rdi
	popq	%rsi
	jmp	tlsf_c.call_fault.CallFault.refusal
.LBB92_9:
	movb	$2, %cl
	addq	$72, %rsp
	popq	%rdi
	popq	%rsi
	jmp	tlsf_c.call_fault.CallFault.refusal
	.seh_endproc
	.def	tlsf_read;
	.scl	2;
	.type	32;
	.endef
	.globl	tlsf_read
	.p2align	4
tlsf_read:
.seh_proc tlsf_read
	pushq	%rbx
	.seh_pushreg %rbx
	subq	$48, %rsp
	.seh_stackalloc 48
	.seh_endprologue
	movq	%r8, %r10
	movl	%ecx, %r8d
	xorl	%ecx, %ecx
	testq	%r10, %r10
	sete	%r11b
	movl	$32, %eax
	cmpb	$0, 8(%rdi)
	je	.LBB93_24
	movq	(%rdi), %rbx
	cmpb	$1, (%rbx)
	jne	.LBB93_24
	movq	%rdx, %rax
	movb	%r11b, %cl
	shll	$12, %ecx
	addq	%rcx, %r10
	movq	%rsi, %rdx
	shrq	$32, %rdx
	movb	$0, (%rbx)
	cmpb	$0, 16(%rbx)
	movl	24(%rbx), %edi
	je	.LBB93_3
	cmpl	%esi, %edi
	jne	.LBB93_18
	movl	%esi, %edi
	cmpl	56(%rbx), %edx
	jae	.LBB93_18
	movq	72(%rbx), %rcx
	movq	%rsi, %rdi
	shrq	$38, %rdi
	movq	(%rcx,%rdi,8), %rcx
	btq	%rdx, %rcx
	movl	%esi, %edi
	jae	.LBB93_18
	leaq	48(%rbx), %rcx
	movq	(%rcx), %r11
	testb	$1, (%r11,%rdx,8)
	movl	%esi, %edi
	jne	.LBB93_18
	movl	%esi, %edi
	cmpq	%rax, 8(%r11,%rdx,8)
	jne	.LBB93_18
	movl	16(%r11,%rdx,8), %esi
	movl	%r8d, %edi
	addq	%r9, %rdi
	movb	$4, %al
	cmpq	%rsi, %rdi
	ja	.LBB93_19
	movq	%r9, 32(%rsp)
	movq	%r10, %r9
	callq	tlsf_heap.region.Region.read.5
	jmp	.LBB93_10
.LBB93_3:
	cmpl	%esi, %edi
	jne	.LBB93_18
	movl	%esi, %edi
	cmpl	56(%rbx), %edx
	jae	.LBB93_18
	movq	72(%rbx), %rcx
	movq	%rsi, %rdi
	shrq	$38, %rdi
	movq	(%rcx,%rdi,8), %rcx
	btq	%rdx, %rcx
	movl	%esi, %edi
	jae	.LBB93_18
	leaq	48(%rbx), %rcx
	movq	(%rcx), %r11
	testb	$1, (%r11,%rdx,8)
	movl	%esi, %edi
	jne	.LBB93_18
	movl	%esi, %edi
	cmpq	%rax, 8(%r11,%rdx,8)
	jne	.LBB93_18
	movl	16(%r11,%rdx,8), %esi
	movl	%r8d, %edi
	addq	%r9, %rdi
	movb	$4, %al
	cmpq	%rsi, %rdi
	ja	.LBB93_19
	movq	%r9, 32(%rsp)
	movq	%r10, %r9
	callq	tlsf_heap.region.Region.read.4
.LBB93_10:
	xorl	%ecx, %ecx
	xorl	%eax, %eax
	testb	%cl, %cl
	jne	.LBB93_22
.LBB93_21:
	xorl	%eax, %eax
	jmp	.LBB93_23
.LBB93_18:
	movl	%esi, %ecx
	movl	%edi, %edx
	callq	tlsf_heap.refusal.Refusal.of_name
.LBB93_19:
	movb	$1, %cl
	testb	%cl, %cl
	je	.LBB93_21
.LBB93_22:
	movzbl	%al, %eax
	leaq	.Lswitch.table.tlsf_write(%rip), %rcx
	movl	(%rcx,%rax,4), %eax
.LBB93_23:
	movb	$1, (%rbx)
.LBB93_24:
	addq	$48, %rsp
	popq	%rbx
	retq
	.seh_endproc
	.def	tlsf_reallocate;
	.scl	2;
	.type	32;
	.endef
	.globl	tlsf_reallocate
	.p2align	4
tlsf_reallocate:
.seh_proc tlsf_reallocate
	pushq	%r15
	.seh_pushreg %r15
	pushq	%r14
	.seh_pushreg %r14
	pushq	%r13
	.seh_pushreg %r13
	pushq	%r12
	.seh_pushreg %r12
	pushq	%rsi
	.seh_pushreg %rsi
	pushq	%rdi
	.seh_pushreg %rdi
	pushq	%rbp
	.seh_pushreg %rbp
	pushq	%rbx
	.seh_pushreg %rbx
	subq	$136, %rsp
	.seh_stackalloc 136
	.seh_endprologue
	movl	$32, %eax
	cmpb	$0, 8(%rcx)
	je	.LBB94_113
	movq	(%rcx), %r13
	cmpb	$1, (%r13)
	jne	.LBB94_113
	movl	$4294967295, %r11d
	cmpq	%r11, %r8
	cmovbq	%r8, %r11
	movb	$0, (%r13)
	movl	(%rdx), %edi
	movl	4(%rdx), %esi
	movq	8(%rdx), %rbp
	cmpb	$0, 16(%r13)
	movl	24(%r13), %eax
	je	.LBB94_3
	cmpl	%eax, %edi
	jne	.LBB94_112
	movl	%edi, %eax
	cmpl	56(%r13), %esi
	jae	.LBB94_112
	movq	72(%r13), %rax
	movl	%esi, %r9d
	shrl	$6, %r9d
	movq	(%rax,%r9,8), %rax
	btq	%rsi, %rax
	movl	%edi, %eax
	jae	.LBB94_112
	leaq	48(%r13), %rax
	movq	(%rax), %r10
	movq	(%r10,%rsi,8), %rbx
	movl	%edi, %eax
	testb	$1, %bl
	jne	.LBB94_112
	leaq	(,%rsi,8), %r14
	movl	%edi, %eax
	cmpq	%rbp, 8(%r10,%r14)
	jne	.LBB94_112
	xorl	%eax, %eax
	testq	%r8, %r8
	sete	%al
	movq	%rax, 80(%rsp)
	addq	%r11, %rax
	addq	$31, %rax
	movq	%rax, %r15
	shrq	$3, %r15
	movl	%ebx, %r12d
	shrl	$2, %r12d
	cmpl	%r15d, %r12d
	jae	.LBB94_70
	testb	$2, %bl
	jne	.LBB94_80
	leal	(%r12,%rsi), %r8d
	movq	(%r10,%r8,8), %r9
	testb	$1, %r9b
	jne	.LBB94_81
.LBB94_80:
	xorl	%r9d, %r9d
.LBB94_81:
	movl	%r9d, %r8d
	shrl	$2, %r8d
	addl	%r12d, %r8d
	cmpl	%r15d, %r8d
	jae	.LBB94_82
	movl	%edi, 88(%rsp)
	movl	%esi, 92(%rsp)
	movq	%rbp, 96(%rsp)
	movq	32(%r13), %rbp
	cmpq	$-3, %rbp
	ja	.LBB94_110
	movq	%rbp, 64(%rsp)
	cmpq	$134217735, %rax
	ja	.LBB94_111
	movq	%r11, 56(%rsp)
	movq	%rcx, 48(%rsp)
	movl	%r15d, %eax
	orl	$32, %eax
	bsrl	%eax, %eax
	addl	$-5, %eax
	leal	-1(%r15), %r9d
	movl	%eax, %ecx
	shrl	%cl, %r9d
	shll	$5, %eax
	addl	%r9d, %eax
	movl	%eax, %r8d
	shrl	$5, %r8d
	movl	108(%r13,%r8,4), %r11d
	movl	%r9d, %ecx
	shrl	%cl, %r11d
	andl	$-2, %r11d
	je	.LBB94_88
	rep		bsfl	%r11d, %ecx
	addq	%rax, %rcx
	movq	56(%rsp), %r11
	jmp	.LBB94_90
.LBB94_3:
	cmpl	%eax, %edi
	jne	.LBB94_112
	movl	%edi, %eax
	cmpl	56(%r13), %esi
	jae	.LBB94_112
	movq	72(%r13), %rax
	movl	%esi, %r9d
	shrl	$6, %r9d
	movq	(%rax,%r9,8), %rax
	btq	%rsi, %rax
	movl	%edi, %eax
	jae	.LBB94_112
	leaq	48(%r13), %rax
	movq	(%rax), %r10
	movq	(%r10,%rsi,8), %rbx
	movl	%edi, %eax
	testb	$1, %bl
	jne	.LBB94_112
	leaq	(,%rsi,8), %r14
	movl	%edi, %eax
	cmpq	%rbp, 8(%r10,%r14)
	jne	.LBB94_112
	xorl	%eax, %eax
	testq	%r8, %r8
	sete	%al
	movq	%rax, 80(%rsp)
	addq	%r11, %rax
	addq	$31, %rax
	movq	%rax, %r15
	shrq	$3, %r15
	movl	%ebx, %r12d
	shrl	$2, %r12d
	cmpl	%r15d, %r12d
	jae	.LBB94_9
	testb	$2, %bl
	jne	.LBB94_21
	leal	(%r12,%rsi), %r8d
	movq	(%r10,%r8,8), %r9
	testb	$1, %r9b
	jne	.LBB94_22
.LBB94_21:
	xorl	%r9d, %r9d
.LBB94_22:
	movl	%r9d, %r8d
	shrl	$2, %r8d
	addl	%r12d, %r8d
	cmpl	%r15d, %r8d
	jae	.LBB94_23
	movl	%edi, 88(%rsp)
	movl	%esi, 92(%rsp)
	movq	%rbp, 96(%rsp)
	movq	32(%r13), %rbp
	cmpq	$-3, %rbp
	ja	.LBB94_110
	movq	%rbp, 64(%rsp)
	cmpq	$8388615, %rax
	jbe	.LBB94_39
.LBB94_111:
	movl	8(%r13), %eax
	movl	12(%r13), %ecx
	incl	%eax
	movl	$-1, %edx
	cmovnel	%eax, %edx
	cmpl	%ecx, %r11d
	cmoval	%r11d, %ecx
	movl	%edx, 8(%r13)
	movl	%ecx, 12(%r13)
	movb	$1, (%r13)
	movl	$1, %eax
	jmp	.LBB94_113
.LBB94_112:
	movl	%edi, %ecx
	movl	%eax, %edx
	callq	tlsf_heap.refusal.Refusal.of_name
	movl	%eax, %ecx
	movb	$1, (%r13)
	xorl	%eax, %eax
	cmpb	$3, %cl
	sete	%al
	addl	$3, %eax
	jmp	.LBB94_113
.LBB94_70:
	movq	32(%r13), %r9
	cmpq	$-1, %r9
	je	.LBB94_110
	movq	%rbp, 64(%rsp)
	movq	16(%r10,%r14), %rbp
	movq	%r11, 16(%r10,%r14)
	cmpl	%ebp, %r11d
	jbe	.LBB94_76
	movq	%r9, 120(%rsp)
	testb	$7, %bpl
	movq	%rcx, 48(%rsp)
	je	.LBB94_74
	movl	%ebp, %r9d
	leaq	48(%r13), %rax
	movq	(%rax), %rax
	movq	%rax, 104(%rsp)
	addq	%r9, %r14
	addq	$24, %r14
	andl	$7, %r9d
	andq	$-8, %r14
	leaq	.Lstatic.0(%rip), %rax
	addq	%r9, %rax
	movl	$8, %r8d
	subq	%r9, %r8
	movq	104(%rsp), %r10
	movq	(%r10,%r14), %r10
	movq	%r10, 88(%rsp)
	leaq	(%rsp,%r9), %rcx
	addq	$88, %rcx
	movq	%rdx, 72(%rsp)
	movq	%rax, %rdx
	movq	%r11, 56(%rsp)
	callq	tlsf_memory_cpy
	movq	56(%rsp), %r11
	movq	48(%rsp), %rcx
	movq	72(%rsp), %rdx
	movq	88(%rsp), %rax
	movq	104(%rsp), %r8
	movq	%rax, (%r8,%r14)
.LBB94_74:
	movl	%ebp, %eax
	shrl	$3, %eax
	andl	$7, %ebp
	cmpl	$1, %ebp
	sbbl	$-1, %eax
	movl	%r11d, %r8d
	shrl	$3, %r8d
	movl	%r11d, %r9d
	andl	$7, %r9d
	cmpl	$1, %r9d
	sbbl	$-1, %r8d
	subl	%eax, %r8d
	movq	120(%rsp), %r9
	je	.LBB94_76
	addl	%esi, %eax
	addl	$3, %eax
	shlq	$3, %rax
	leaq	48(%r13), %r9
	addq	(%r9), %rax
	shlq	$3, %r8
	movq	%rax, %rcx
	movq	%rdx, %rbp
	xorl	%edx, %edx
	movq	%r11, %r14
	callq	tlsf_memory_set
	movq	120(%rsp), %r9
	movq	%r14, %r11
	movq	48(%rsp), %rcx
	movq	%rbp, %rdx
.LBB94_76:
	leal	4(%r15), %r8d
	movl	%r12d, %eax
	cmpl	%r8d, %r12d
	jb	.LBB94_18
	movq	%r9, 32(%rsp)
	movq	%rcx, %r14
	leaq	48(%r13), %rcx
	movq	%rdx, %rbp
	movl	%esi, %edx
	movq	%rbx, %r8
	movl	%r15d, %r9d
	movq	%r11, %rbx
	callq	tlsf_heap.refitting.split_off.5
	jmp	.LBB94_17
.LBB94_9:
	movq	32(%r13), %rax
	cmpq	$-1, %rax
	je	.LBB94_110
	movq	%rax, 120(%rsp)
	movq	%rbp, 64(%rsp)
	movq	16(%r10,%r14), %rbp
	movq	%r11, 16(%r10,%r14)
	cmpl	%ebp, %r11d
	jbe	.LBB94_15
	testb	$7, %bpl
	movq	%rcx, 48(%rsp)
	je	.LBB94_13
	movl	%ebp, %r9d
	leaq	48(%r13), %rax
	movq	(%rax), %rax
	movq	%rax, 104(%rsp)
	addq	%r9, %r14
	addq	$24, %r14
	andl	$7, %r9d
	andq	$-8, %r14
	leaq	.Lstatic.0(%rip), %rax
	addq	%r9, %rax
	movl	$8, %r8d
	subq	%r9, %r8
	movq	104(%rsp), %r10
	movq	(%r10,%r14), %r10
	movq	%r10, 88(%rsp)
	leaq	(%rsp,%r9), %rcx
	addq	$88, %rcx
	movq	%rdx, 72(%rsp)
	movq	%rax, %rdx
	movq	%r11, 56(%rsp)
	callq	tlsf_memory_cpy
	movq	56(%rsp), %r11
	movq	48(%rsp), %rcx
	movq	72(%rsp), %rdx
	movq	88(%rsp), %rax
	movq	104(%rsp), %r8
	movq	%rax, (%r8,%r14)
.LBB94_13:
	movl	%ebp, %eax
	shrl	$3, %eax
	andl	$7, %ebp
	cmpl	$1, %ebp
	sbbl	$-1, %eax
	movl	%r11d, %r8d
	shrl	$3, %r8d
	movl	%r11d, %r9d
	andl	$7, %r9d
	cmpl	$1, %r9d
	sbbl	$-1, %r8d
	subl	%eax, %r8d
	je	.LBB94_15
	addl	%esi, %eax
	addl	$3, %eax
	shlq	$3, %rax
	leaq	48(%r13), %r9
	addq	(%r9), %rax
	shlq	$3, %r8
	movq	%rax, %rcx
	movq	%rdx, %rbp
	xorl	%edx, %edx
	movq	%r11, %r14
	callq	tlsf_memory_set
	movq	%r14, %r11
	movq	48(%rsp), %rcx
	movq	%rbp, %rdx
.LBB94_15:
	leal	4(%r15), %r8d
	movl	%r12d, %eax
	cmpl	%r8d, %r12d
	jb	.LBB94_18
	movq	120(%rsp), %rax
	movq	%rax, 32(%rsp)
	movq	%rcx, %r14
	leaq	48(%r13), %rcx
	movq	%rdx, %rbp
	movl	%esi, %edx
	movq	%rbx, %r8
	movl	%r15d, %r9d
	movq	%r11, %rbx
	callq	tlsf_heap.refitting.split_off.4
.LBB94_17:
	movq	%rbx, %r11
	movq	%r14, %rcx
	movq	%rbp, %rdx
	movl	%r15d, %eax
.LBB94_18:
	subl	%r12d, %eax
	addl	%eax, 40(%r13)
.LBB94_32:
	incq	32(%r13)
	movq	64(%rsp), %rbp
	movq	80(%rsp), %r15
	movb	$1, (%r13)
	leal	(%r11,%r15), %eax
	decl	%eax
	testb	$8, %al
	je	.LBB94_36
.LBB94_34:
	cmpb	$0, 28(%rcx)
	jne	.LBB94_36
	movb	$1, 28(%rcx)
.LBB94_36:
	movl	%edi, (%rdx)
	movl	%esi, 4(%rdx)
	movq	%rbp, 8(%rdx)
	xorl	%eax, %eax
	jmp	.LBB94_113
.LBB94_82:
	movq	32(%r13), %rax
	cmpq	$-1, %rax
	je	.LBB94_110
	movq	%rbp, 64(%rsp)
	movq	%rax, 40(%rsp)
	movl	%r15d, 32(%rsp)
	movq	%rcx, 48(%rsp)
	leaq	48(%r13), %rbp
	movq	%rbp, %rcx
	movq	%rdx, 72(%rsp)
	movl	%esi, %edx
	movq	%rbx, %r8
	movq	%r11, %r15
	callq	tlsf_heap.refitting.recut.5
	jmp	.LBB94_25
.LBB94_23:
	movq	32(%r13), %rax
	cmpq	$-1, %rax
	je	.LBB94_110
	movq	%rbp, 64(%rsp)
	movq	%rax, 40(%rsp)
	movl	%r15d, 32(%rsp)
	movq	%rcx, 48(%rsp)
	leaq	48(%r13), %rbp
	movq	%rbp, %rcx
	movq	%rdx, 72(%rsp)
	movl	%esi, %edx
	movq	%rbx, %r8
	movq	%r11, %r15
	callq	tlsf_heap.refitting.recut.4
.LBB94_25:
	movq	%r15, %r11
	movq	48(%rsp), %rcx
	movq	72(%rsp), %rdx
	movl	%eax, %ebx
	movq	(%rbp), %rax
	movq	16(%rax,%r14), %rbp
	movq	%r15, 16(%rax,%r14)
	cmpl	%ebp, %r11d
	jbe	.LBB94_30
	testb	$7, %bpl
	je	.LBB94_28
	movl	%ebp, %eax
	leaq	48(%r13), %rcx
	movq	(%rcx), %rcx
	movq	%rcx, 56(%rsp)
	addq	%rax, %r14
	addq	$24, %r14
	andl	$7, %eax
	andq	$-8, %r14
	leaq	.Lstatic.0(%rip), %rdx
	addq	%rax, %rdx
	movl	$8, %r8d
	subq	%rax, %r8
	movq	(%rcx,%r14), %rcx
	movq	%rcx, 88(%rsp)
	leaq	(%rsp,%rax), %rcx
	addq	$88, %rcx
	callq	tlsf_memory_cpy
	movq	%r15, %r11
	movq	48(%rsp), %rcx
	movq	72(%rsp), %rdx
	movq	88(%rsp), %rax
	movq	56(%rsp), %r8
	movq	%rax, (%r8,%r14)
.LBB94_28:
	movl	%ebp, %eax
	shrl	$3, %eax
	andl	$7, %ebp
	cmpl	$1, %ebp
	sbbl	$-1, %eax
	movl	%r11d, %r8d
	shrl	$3, %r8d
	movl	%r11d, %r9d
	andl	$7, %r9d
	cmpl	$1, %r9d
	sbbl	$-1, %r8d
	subl	%eax, %r8d
	je	.LBB94_30
	leal	(%rsi,%rax), %ecx
	addl	$3, %ecx
	shlq	$3, %rcx
	leaq	48(%r13), %rax
	addq	(%rax), %rcx
	shlq	$3, %r8
	xorl	%edx, %edx
	callq	tlsf_memory_set
	movq	%r15, %r11
	movq	48(%rsp), %rcx
	movq	72(%rsp), %rdx
.LBB94_30:
	subl	%r12d, %ebx
	addl	40(%r13), %ebx
	movl	%ebx, 40(%r13)
	cmpl	%ebx, 44(%r13)
	jae	.LBB94_32
	movl	%ebx, 44(%r13)
	jmp	.LBB94_32
.LBB94_110:
	movb	$1, (%r13)
	movl	$2, %eax
.LBB94_113:
	addq	$136, %rsp
	popq	%rbx
	popq	%rbp
	popq	%rdi
	popq	%rsi
	popq	%r12
	popq	%r13
	popq	%r14
	popq	%r15
	retq
.LBB94_39:
	movq	%r11, 56(%rsp)
	movq	%rcx, 48(%rsp)
	movl	%r15d, %eax
	orl	$16, %eax
	bsrl	%eax, %eax
	addl	$-4, %eax
	leal	-1(%r15), %r9d
	movl	%eax, %ecx
	shrl	%cl, %r9d
	shll	$4, %eax
	addl	%r9d, %eax
	movl	%eax, %r8d
	shrl	$4, %r8d
	movl	108(%r13,%r8,4), %r11d
	andb	$15, %r9b
	movl	%r9d, %ecx
	shrl	%cl, %r11d
	andl	$-2, %r11d
	je	.LBB94_41
	rep		bsfl	%r11d, %ecx
	addq	%rax, %rcx
	movq	56(%rsp), %r11
	jmp	.LBB94_43
.LBB94_88:
	movl	$-2, %eax
	movl	%r8d, %ecx
	shll	%cl, %eax
	andl	104(%r13), %eax
	movq	56(%rsp), %r11
	je	.LBB94_111
	rep		bsfl	%eax, %ecx
	movl	$32, %eax
	rep		bsfl	108(%r13,%rcx,4), %eax
	shll	$5, %ecx
	addl	%eax, %ecx
.LBB94_90:
	movl	192(%r13,%rcx,4), %ebx
	movq	16(%r10,%rbx,8), %rax
	cmpl	$-1, %eax
	leaq	48(%r13), %r14
	je	.LBB94_91
	movl	%eax, %r8d
	movl	$-1, 20(%r10,%r8,8)
	movl	%eax, 192(%r13,%rcx,4)
	movq	48(%r13), %r10
	jmp	.LBB94_94
.LBB94_91:
	movl	$-1, 192(%r13,%rcx,4)
	movq	%rcx, %rax
	shrq	$5, %rax
	movl	$-2, %r8d
	roll	%cl, %r8d
	movq	%rax, %rcx
	movl	$-2, %eax
	andl	%r8d, 108(%r13,%rcx,4)
	jne	.LBB94_94
	roll	%cl, %eax
	andl	%eax, 104(%r13)
.LBB94_94:
	movq	(%r10,%rbx,8), %rcx
	leal	(,%r15,4), %eax
	movl	%ecx, %r8d
	subl	%eax, %r8d
	cmpl	$15, %r8d
	ja	.LBB94_96
	decq	%rcx
	movq	%rcx, (%r10,%rbx,8)
	movq	64(%rsp), %rax
	movq	%rax, 8(%r10,%rbx,8)
	movq	%r11, 16(%r10,%rbx,8)
	shrl	$2, %ecx
	jmp	.LBB94_102
.LBB94_96:
	movl	%r8d, %r9d
	shrl	$2, %r8d
	movq	%r11, %rdi
	movq	%rbx, %r11
	shlq	$32, %r11
	orq	%r9, %r11
	leal	(%rbx,%r15), %eax
	subq	%r9, %rcx
	movq	%rcx, (%r10,%rbx,8)
	movq	64(%rsp), %rcx
	movq	%rcx, 8(%r10,%rbx,8)
	movq	%rdi, 16(%r10,%rbx,8)
	movq	%r11, (%r10,%rax,8)
	movq	%rcx, 8(%r10,%rax,8)
	movq	72(%r13), %r10
	movl	%eax, %r11d
	shrl	$6, %r11d
	movl	$1, %edi
	movl	%eax, %ecx
	shlq	%cl, %rdi
	orq	%rdi, (%r10,%r11,8)
	testb	$2, %r9b
	jne	.LBB94_98
	leal	(%r8,%rax), %ecx
	movq	(%r14), %r9
	movl	%eax, 4(%r9,%rcx,8)
.LBB94_98:
	movl	%r8d, %ecx
	orl	$32, %ecx
	bsrl	%ecx, %ecx
	addl	$-5, %ecx
	shrl	%cl, %r8d
	shll	$5, %ecx
	addl	%r8d, %ecx
	movslq	192(%r13,%rcx,4), %r9
	movl	%eax, 192(%r13,%rcx,4)
	movq	48(%r13), %r10
	testq	%r9, %r9
	js	.LBB94_99
	movabsq	$-4294967296, %rcx
	orq	%r9, %rcx
	movq	%rcx, 16(%r10,%rax,8)
	movl	%eax, 20(%r10,%r9,8)
	jmp	.LBB94_101
.LBB94_41:
	movl	$-2, %eax
	movl	%r8d, %ecx
	shll	%cl, %eax
	andl	104(%r13), %eax
	movq	56(%rsp), %r11
	je	.LBB94_111
	rep		bsfl	%eax, %ecx
	movl	$32, %eax
	rep		bsfl	108(%r13,%rcx,4), %eax
	shll	$4, %ecx
	addl	%eax, %ecx
.LBB94_43:
	movl	192(%r13,%rcx,4), %r12d
	movq	16(%r10,%r12,8), %rax
	cmpl	$-1, %eax
	leaq	48(%r13), %r14
	je	.LBB94_44
	movl	%eax, %r8d
	movl	$-1, 20(%r10,%r8,8)
	movl	%eax, 192(%r13,%rcx,4)
	movq	48(%r13), %r10
	jmp	.LBB94_47
.LBB94_44:
	movl	$-1, 192(%r13,%rcx,4)
	movq	%rcx, %rax
	shrq	$4, %rax
	andb	$15, %cl
	movl	$-2, %r8d
	roll	%cl, %r8d
	movq	%rax, %rcx
	movl	$-2, %eax
	andl	%r8d, 108(%r13,%rcx,4)
	jne	.LBB94_47
	roll	%cl, %eax
	andl	%eax, 104(%r13)
.LBB94_47:
	movq	(%r10,%r12,8), %rcx
	leal	(,%r15,4), %eax
	movl	%ecx, %r8d
	subl	%eax, %r8d
	cmpl	$15, %r8d
	ja	.LBB94_49
	decq	%rcx
	movq	%rcx, (%r10,%r12,8)
	movq	64(%rsp), %rax
	movq	%rax, 8(%r10,%r12,8)
	movq	%r11, 16(%r10,%r12,8)
	shrl	$2, %ecx
	jmp	.LBB94_55
.LBB94_49:
	movl	%r8d, %r9d
	shrl	$2, %r8d
	movq	%r11, %rdi
	movq	%r12, %r11
	shlq	$32, %r11
	orq	%r9, %r11
	leal	(%r12,%r15), %eax
	subq	%r9, %rcx
	movq	%rcx, (%r10,%r12,8)
	movq	64(%rsp), %rcx
	movq	%rcx, 8(%r10,%r12,8)
	movq	%rdi, 16(%r10,%r12,8)
	movq	%r11, (%r10,%rax,8)
	movq	%rcx, 8(%r10,%rax,8)
	movq	72(%r13), %r10
	movl	%eax, %r11d
	shrl	$6, %r11d
	movl	$1, %edi
	movl	%eax, %ecx
	shlq	%cl, %rdi
	orq	%rdi, (%r10,%r11,8)
	testb	$2, %r9b
	jne	.LBB94_51
	leal	(%r8,%rax), %ecx
	movq	(%r14), %r9
	movl	%eax, 4(%r9,%rcx,8)
.LBB94_51:
	movl	%r8d, %ecx
	orl	$16, %ecx
	bsrl	%ecx, %ecx
	addl	$-4, %ecx
	shrl	%cl, %r8d
	shll	$4, %ecx
	addl	%r8d, %ecx
	movslq	192(%r13,%rcx,4), %r9
	movl	%eax, 192(%r13,%rcx,4)
	movq	48(%r13), %r10
	testq	%r9, %r9
	js	.LBB94_52
	movabsq	$-4294967296, %rcx
	orq	%r9, %rcx
	movq	%rcx, 16(%r10,%rax,8)
	movl	%eax, 20(%r10,%r9,8)
	jmp	.LBB94_54
.LBB94_99:
	movq	$-1, 16(%r10,%rax,8)
	shrl	$5, %ecx
	movl	$1, %eax
	shll	%cl, %eax
	movl	108(%r13,%rcx,4), %r9d
	orl	%eax, 104(%r13)
	btsl	%r8d, %r9d
	movl	%r9d, 108(%r13,%rcx,4)
.LBB94_101:
	movl	%r15d, %ecx
.LBB94_102:
	movq	%rdx, %rbp
	addl	40(%r13), %ecx
	movl	%ecx, 40(%r13)
	cmpl	%ecx, 44(%r13)
	jae	.LBB94_104
	movl	%ecx, 44(%r13)
.LBB94_104:
	incq	32(%r13)
	movl	24(%r13), %edi
	addl	$-3, %r15d
	je	.LBB94_106
	leal	3(%rbx), %ecx
	movl	%r15d, %r8d
	shlq	$3, %rcx
	addq	(%r14), %rcx
	shlq	$3, %r8
	xorl	%edx, %edx
	callq	tlsf_memory_set
.LBB94_106:
	movq	(%r14), %rcx
	movl	16(%rcx,%rsi,8), %r15d
	movl	16(%rcx,%rbx,8), %eax
	cmpl	%r15d, %eax
	cmovbl	%eax, %r15d
	leaq	3(%rsi), %rdx
	leaq	3(%rbx), %r12
	movl	%r15d, %esi
	shrl	$3, %esi
	andl	$7, %r15d
	je	.LBB94_107
	leaq	(%rsi,%rdx), %rax
	movq	(%rcx,%rax,8), %rax
	movq	%rax, 128(%rsp)
	movq	%r12, %r8
	movq	%rsi, %r9
	callq	tlsf_words.cells.copy_run
	addq	%r12, %rsi
	movq	(%r14), %r12
	movq	(%r12,%rsi,8), %rax
	movq	%rax, 112(%rsp)
	leaq	112(%rsp), %rcx
	leaq	128(%rsp), %rdx
	movq	%r15, %r8
	callq	tlsf_memory_cpy
	movq	112(%rsp), %rax
	movq	%rax, (%r12,%rsi,8)
	jmp	.LBB94_109
.LBB94_107:
	movq	%r12, %r8
	movq	%rsi, %r9
	callq	tlsf_words.cells.copy_run
.LBB94_109:
	movq	80(%rsp), %r15
	leaq	88(%rsp), %rdx
	leaq	24(%r13), %rcx
	callq	tlsf_heap.heap.Heap.release_live.5
	movl	%ebx, %esi
	jmp	.LBB94_63
.LBB94_52:
	movq	$-1, 16(%r10,%rax,8)
	shrl	$4, %ecx
	movl	$1, %eax
	shll	%cl, %eax
	movl	108(%r13,%rcx,4), %r9d
	orl	%eax, 104(%r13)
	andb	$15, %r8b
	btsl	%r8d, %r9d
	movl	%r9d, 108(%r13,%rcx,4)
.LBB94_54:
	movl	%r15d, %ecx
.LBB94_55:
	movq	%rdx, %rbp
	addl	40(%r13), %ecx
	movl	%ecx, 40(%r13)
	cmpl	%ecx, 44(%r13)
	jae	.LBB94_57
	movl	%ecx, 44(%r13)
.LBB94_57:
	incq	32(%r13)
	movl	24(%r13), %edi
	addl	$-3, %r15d
	je	.LBB94_59
	leal	3(%r12), %ecx
	movl	%r15d, %r8d
	shlq	$3, %rcx
	addq	(%r14), %rcx
	shlq	$3, %r8
	xorl	%edx, %edx
	callq	tlsf_memory_set
.LBB94_59:
	movq	(%r14), %rcx
	movl	16(%rcx,%rsi,8), %r15d
	movl	16(%rcx,%r12,8), %eax
	cmpl	%r15d, %eax
	cmovbl	%eax, %r15d
	leaq	3(%rsi), %rdx
	leaq	3(%r12), %r8
	movl	%r15d, %esi
	shrl	$3, %esi
	andl	$7, %r15d
	je	.LBB94_60
	leaq	(%rsi,%rdx), %rax
	movq	(%rcx,%rax,8), %rax
	movq	%rax, 128(%rsp)
	movq	%r14, %rbx
	movq	%r8, %r14
	movq	%rsi, %r9
	callq	tlsf_words.cells.copy_run
	addq	%r14, %rsi
	movq	(%rbx), %r14
	movq	(%r14,%rsi,8), %rax
	movq	%rax, 112(%rsp)
	leaq	112(%rsp), %rcx
	leaq	128(%rsp), %rdx
	movq	%r15, %r8
	callq	tlsf_memory_cpy
	movq	112(%rsp), %rax
	movq	%rax, (%r14,%rsi,8)
	jmp	.LBB94_62
.LBB94_60:
	movq	%rsi, %r9
	callq	tlsf_words.cells.copy_run
.LBB94_62:
	movq	80(%rsp), %r15
	leaq	88(%rsp), %rdx
	leaq	24(%r13), %rcx
	callq	tlsf_heap.heap.Heap.release_live.4
	movl	%r12d, %esi
.LBB94_63:
	movq	%rbp, %rdx
	movq	48(%rsp), %rcx
	movq	56(%rsp), %r11
	movq	64(%rsp), %rbp
	movb	$1, (%r13)
	leal	(%r11,%r15), %eax
	decl	%eax
	testb	$8, %al
	jne	.LBB94_34
	jmp	.LBB94_36
	.seh_endproc
	.def	tlsf_release;
	.scl	2;
	.type	32;
	.endef
	.globl	tlsf_release
	.p2align	4
tlsf_release:
.seh_proc tlsf_release
	subq	$40, %rsp
	.seh_stackalloc 40
	.seh_endprologue
	movq	%rdx, %r8
	movq	%rsi, %rdx
	movq	%rdi, %rcx
	movq	%rsi, %r9
	shrq	$32, %r9
	callq	tlsf_c.heap_calls.release_named
	nop
	addq	$40, %rsp
	retq
	.seh_endproc
	.def	tlsf_release_all;
	.scl	2;
	.type	32;
	.endef
	.globl	tlsf_release_all
	.p2align	4
tlsf_release_all:
.seh_proc tlsf_release_all
	pushq	%r15
	.seh_pushreg %r15
	pushq	%r14
	.seh_pushreg %r14
	pushq	%rsi
	.seh_pushreg %rsi
	pushq	%rdi
	.seh_pushreg %rdi
	pushq	%rbx
	.seh_pushreg %rbx
	subq	$48, %rsp
	.seh_stackalloc 48
	.seh_endprologue
	xorl	%eax, %eax
	testq	%rdx, %rdx
	sete	%r9b
	cmpb	$0, 8(%rcx)
	je	.LBB96_7
	movq	(%rcx), %rdi
	cmpb	$0, (%rdi)
	je	.LBB96_7
	movb	%r9b, %al
	shll	$12, %eax
	movb	$0, (%rdi)
	cmpb	$0, 16(%rdi)
	je	.LBB96_5
	testq	%r8, %r8
	je	.LBB96_44
	leaq	48(%rdi), %rsi
	leaq	(%rax,%rdx), %rbx
	addq	$8, %rbx
	movabsq	$-4294967296, %r14
	jmp	.LBB96_11
.LBB96_5:
	testq	%r8, %r8
	je	.LBB96_44
	leaq	48(%rdi), %rsi
	leaq	(%rax,%rdx), %rbx
	addq	$8, %rbx
	movabsq	$-4294967296, %r14
	jmp	.LBB96_29
.LBB96_7:
	xorl	%ecx, %ecx
	addq	$48, %rsp
	popq	%rbx
	popq	%rdi
	popq	%rsi
	popq	%r14
	popq	%r15
	jmp	tlsf_c.call_fault.CallFault.refusal
.LBB96_8:
	leaq	1(%r9), %rcx
	movq	%rcx, 32(%rdi)
	movl	%r11d, 32(%rsp)
	movq	%rsi, %rcx
	movq	%r8, %r15
	movq	%rax, %r8
	callq	tlsf_heap.fitting.merge_next.5
.LBB96_9:
	movq	%r15, %r8
	.p2align	4
.LBB96_10:
	addq	$16, %rbx
	decq	%r8
	je	.LBB96_44
.LBB96_11:
	movl	-8(%rbx), %eax
	cmpl	24(%rdi), %eax
	jne	.LBB96_10
	movl	-4(%rbx), %r11d
	cmpl	56(%rdi), %r11d
	jae	.LBB96_10
	movq	72(%rdi), %rax
	movl	%r11d, %ecx
	shrl	$6, %ecx
	movq	(%rax,%rcx,8), %rax
	btq	%r11, %rax
	jae	.LBB96_10
	movq	(%rsi), %rcx
	movq	(%rcx,%r11,8), %rax
	testb	$1, %al
	jne	.LBB96_10
	movq	(%rbx), %rdx
	cmpq	%rdx, 8(%rcx,%r11,8)
	jne	.LBB96_10
	movq	32(%rdi), %r9
	cmpq	$-1, %r9
	je	.LBB96_10
	movl	%eax, %r15d
	shrl	$2, %r15d
	subl	%r15d, 40(%rdi)
	testb	$2, %al
	jne	.LBB96_19
	leal	(%r15,%r11), %edx
	movq	(%rcx,%rdx,8), %rdx
	testl	%r11d, %r11d
	jne	.LBB96_20
	jmp	.LBB96_21
.LBB96_19:
	xorl	%edx, %edx
	testl	%r11d, %r11d
	je	.LBB96_21
.LBB96_20:
	movq	%rax, %r10
	shrq	$32, %r10
	movq	(%rcx,%r10,8), %r10
	testb	$1, %r10b
	jne	.LBB96_24
.LBB96_21:
	testb	$1, %dl
	jne	.LBB96_8
	orq	$1, %rax
	movq	%rax, (%rcx,%r11,8)
	movq	%r9, 8(%rcx,%r11,8)
	incq	32(%rdi)
	movl	%r15d, %eax
	orl	$32, %eax
	bsrl	%eax, %ecx
	addl	$-5, %ecx
	shrl	%cl, %r15d
	shll	$5, %ecx
	addl	%r15d, %ecx
	movslq	192(%rdi,%rcx,4), %rax
	movl	%r11d, 192(%rdi,%rcx,4)
	movq	48(%rdi), %rdx
	testq	%rax, %rax
	js	.LBB96_25
	movq	%rax, %rcx
	orq	%r14, %rcx
	movq	%rcx, 16(%rdx,%r11,8)
	movl	%r11d, 20(%rdx,%rax,8)
	jmp	.LBB96_10
.LBB96_24:
	leaq	1(%r9), %rcx
	movq	%rcx, 32(%rdi)
	movq	%rax, 40(%rsp)
	movl	%r11d, 32(%rsp)
	movq	%rsi, %rcx
	movq	%r8, %r15
	movq	%r10, %r8
	callq	tlsf_heap.fitting.merge_before.5
	jmp	.LBB96_9
.LBB96_25:
	movq	$-1, 16(%rdx,%r11,8)
	shrl	$5, %ecx
	movl	$1, %eax
	shll	%cl, %eax
	movl	108(%rdi,%rcx,4), %edx
	orl	%eax, 104(%rdi)
	btsl	%r15d, %edx
	movl	%edx, 108(%rdi,%rcx,4)
	jmp	.LBB96_10
.LBB96_26:
	leaq	1(%r9), %rcx
	movq	%rcx, 32(%rdi)
	movl	%r11d, 32(%rsp)
	movq	%rsi, %rcx
	movq	%r8, %r15
	movq	%rax, %r8
	callq	tlsf_heap.fitting.merge_next.4
.LBB96_27:
	movq	%r15, %r8
	.p2align	4
.LBB96_28:
	addq	$16, %rbx
	decq	%r8
	je	.LBB96_44
.LBB96_29:
	movl	-8(%rbx), %eax
	cmpl	24(%rdi), %eax
	jne	.LBB96_28
	movl	-4(%rbx), %r11d
	cmpl	56(%rdi), %r11d
	jae	.LBB96_28
	movq	72(%rdi), %rax
	movl	%r11d, %ecx
	shrl	$6, %ecx
	movq	(%rax,%rcx,8), %rax
	btq	%r11, %rax
	jae	.LBB96_28
	movq	(%rsi), %rcx
	movq	(%rcx,%r11,8), %rax
	testb	$1, %al
	jne	.LBB96_28
	movq	(%rbx), %rdx
	cmpq	%rdx, 8(%rcx,%r11,8)
	jne	.LBB96_28
	movq	32(%rdi), %r9
	cmpq	$-1, %r9
	je	.LBB96_28
	movl	%eax, %r15d
	shrl	$2, %r15d
	subl	%r15d, 40(%rdi)
	testb	$2, %al
	jne	.LBB96_37
	leal	(%r15,%r11), %edx
	movq	(%rcx,%rdx,8), %rdx
	testl	%r11d, %r11d
	jne	.LBB96_38
	jmp	.LBB96_39
.LBB96_37:
	xorl	%edx, %edx
	testl	%r11d, %r11d
	je	.LBB96_39
.LBB96_38:
	movq	%rax, %r10
	shrq	$32, %r10
	movq	(%rcx,%r10,8), %r10
	testb	$1, %r10b
	jne	.LBB96_42
.LBB96_39:
	testb	$1, %dl
	jne	.LBB96_26
	orq	$1, %rax
	movq	%rax, (%rcx,%r11,8)
	movq	%r9, 8(%rcx,%r11,8)
	incq	32(%rdi)
	movl	%r15d, %eax
	orl	$16, %eax
	bsrl	%eax, %ecx
	addl	$-4, %ecx
	shrl	%cl, %r15d
	shll	$4, %ecx
	addl	%r15d, %ecx
	movslq	192(%rdi,%rcx,4), %rax
	movl	%r11d, 192(%rdi,%rcx,4)
	movq	48(%rdi), %rdx
	testq	%rax, %rax
	js	.LBB96_43
	movq	%rax, %rcx
	orq	%r14, %rcx
	movq	%rcx, 16(%rdx,%r11,8)
	movl	%r11d, 20(%rdx,%rax,8)
	jmp	.LBB96_28
.LBB96_42:
	leaq	1(%r9), %rcx
	movq	%rcx, 32(%rdi)
	movq	%rax, 40(%rsp)
	movl	%r11d, 32(%rsp)
	movq	%rsi, %rcx
	movq	%r8, %r15
	movq	%r10, %r8
	callq	tlsf_heap.fitting.merge_before.4
	jmp	.LBB96_27
.LBB96_43:
	movq	$-1, 16(%rdx,%r11,8)
	shrl	$4, %ecx
	movl	$1, %eax
	shll	%cl, %eax
	movl	108(%rdi,%rcx,4), %edx
	orl	%eax, 104(%rdi)
	andb	$15, %r15b
	btsl	%r15d, %edx
	movl	%edx, 108(%rdi,%rcx,4)
	jmp	.LBB96_28
.LBB96_44:
	movb	$1, (%rdi)
	xorl	%eax, %eax
	addq	$48, %rsp
	popq	%rbx
	popq	%rdi
	popq	%rsi
	popq	%r14
	popq	%r15
	retq
	.seh_endproc
	.def	tlsf_release_place;
	.scl	2;
	.type	32;
	.endef
	.globl	tlsf_release_place
	.p2align	4
tlsf_release_place:
.seh_proc tlsf_release_place
	pushq	%rsi
	.seh_pushreg %rsi
	pushq	%rdi
	.seh_pushreg %rdi
	pushq	%rbx
	.seh_pushreg %rbx
	subq	$48, %rsp
	.seh_stackalloc 48
	.seh_endprologue
	cmpb	$0, 8(%rcx)
	je	.LBB97_22
	movq	(%rcx), %rsi
	cmpb	$0, (%rsi)
	je	.LBB97_22
	movb	$0, (%rsi)
	leaq	48(%rsi), %rcx
	cmpb	$0, 16(%rsi)
	movl	56(%rsi), %eax
	je	.LBB97_9
	cmpl	%eax, %edx
	jae	.LBB97_16
	movq	72(%rsi), %rax
	movl	%edx, %r8d
	shrl	$6, %r8d
	movq	(%rax,%r8,8), %rax
	btq	%rdx, %rax
	jae	.LBB97_16
	movq	(%rcx), %rbx
	movl	%edx, %r11d
	movq	(%rbx,%r11,8), %r8
	testb	$1, %r8b
	jne	.LBB97_16
	movq	32(%rsi), %r9
	cmpq	$-1, %r9
	je	.LBB97_23
	movl	%r8d, %edi
	shrl	$2, %edi
	subl	%edi, 40(%rsi)
	testb	$2, %r8b
	jne	.LBB97_17
	leal	(%rdi,%rdx), %eax
	movq	(%rbx,%rax,8), %rax
	testl	%edx, %edx
	jne	.LBB97_18
	jmp	.LBB97_19
.LBB97_9:
	cmpl	%eax, %edx
	jae	.LBB97_16
	movq	72(%rsi), %rax
	movl	%edx, %r8d
	shrl	$6, %r8d
	movq	(%rax,%r8,8), %rax
	btq	%rdx, %rax
	jae	.LBB97_16
	movq	(%rcx), %rbx
	movl	%edx, %r11d
	movq	(%rbx,%r11,8), %r8
	testb	$1, %r8b
	jne	.LBB97_16
	movq	32(%rsi), %r9
	cmpq	$-1, %r9
	je	.LBB97_23
	movl	%r8d, %edi
	shrl	$2, %edi
	subl	%edi, 40(%rsi)
	testb	$2, %r8b
	jne	.LBB97_26
	leal	(%rdi,%rdx), %eax
	movq	(%rbx,%rax,8), %rax
	testl	%edx, %edx
	jne	.LBB97_27
	jmp	.LBB97_28
.LBB97_23:
	movl	$2, %eax
	jmp	.LBB97_36
.LBB97_16:
	movl	24(%rsi), %ecx
	movl	%ecx, %edx
	callq	tlsf_heap.refusal.Refusal.of_name
	movl	%eax, %ecx
	xorl	%eax, %eax
	cmpb	$3, %cl
	sete	%al
	addl	$3, %eax
	jmp	.LBB97_36
.LBB97_17:
	xorl	%eax, %eax
	testl	%edx, %edx
	je	.LBB97_19
.LBB97_18:
	movq	%r8, %r10
	shrq	$32, %r10
	movq	(%rbx,%r10,8), %r10
	testb	$1, %r10b
	jne	.LBB97_25
.LBB97_19:
	testb	$1, %al
	jne	.LBB97_24
	orq	$1, %r8
	movq	%r8, (%rbx,%r11,8)
	movq	%r9, 8(%rbx,%r11,8)
	incq	32(%rsi)
	movl	%edi, %eax
	orl	$32, %eax
	bsrl	%eax, %ecx
	addl	$-5, %ecx
	shrl	%cl, %edi
	shll	$5, %ecx
	addl	%edi, %ecx
	movslq	192(%rsi,%rcx,4), %rax
	movl	%edx, 192(%rsi,%rcx,4)
	movq	48(%rsi), %rdx
	testq	%rax, %rax
	jns	.LBB97_30
	movq	$-1, 16(%rdx,%r11,8)
	shrl	$5, %ecx
	movl	$1, %eax
	shll	%cl, %eax
	movl	108(%rsi,%rcx,4), %edx
	orl	%eax, 104(%rsi)
	jmp	.LBB97_34
.LBB97_22:
	xorl	%ecx, %ecx
	addq	$48, %rsp
	popq	%rbx
	popq	%rdi
	popq	%rsi
	jmp	tlsf_c.call_fault.CallFault.refusal
.LBB97_24:
	leaq	1(%r9), %r10
	movq	%r10, 32(%rsi)
	movl	%edx, 32(%rsp)
	movq	%rax, %rdx
	callq	tlsf_heap.fitting.merge_next.5
	jmp	.LBB97_35
.LBB97_25:
	leaq	1(%r9), %r11
	movq	%r11, 32(%rsi)
	movq	%r8, 40(%rsp)
	movl	%edx, 32(%rsp)
	movq	%rax, %rdx
	movq	%r10, %r8
	callq	tlsf_heap.fitting.merge_before.5
	jmp	.LBB97_35
.LBB97_26:
	xorl	%eax, %eax
	testl	%edx, %edx
	je	.LBB97_28
.LBB97_27:
	movq	%r8, %r10
	shrq	$32, %r10
	movq	(%rbx,%r10,8), %r10
	testb	$1, %r10b
	jne	.LBB97_32
.LBB97_28:
	testb	$1, %al
	jne	.LBB97_31
	orq	$1, %r8
	movq	%r8, (%rbx,%r11,8)
	movq	%r9, 8(%rbx,%r11,8)
	incq	32(%rsi)
	movl	%edi, %eax
	orl	$16, %eax
	bsrl	%eax, %ecx
	addl	$-4, %ecx
	shrl	%cl, %edi
	shll	$4, %ecx
	addl	%edi, %ecx
	movslq	192(%rsi,%rcx,4), %rax
	movl	%edx, 192(%rsi,%rcx,4)
	movq	48(%rsi), %rdx
	testq	%rax, %rax
	js	.LBB97_33
.LBB97_30:
	movabsq	$-4294967296, %rcx
	orq	%rax, %rcx
	movq	%rcx, 16(%rdx,%r11,8)
	movl	%r11d, 20(%rdx,%rax,8)
	jmp	.LBB97_35
.LBB97_31:
	leaq	1(%r9), %r10
	movq	%r10, 32(%rsi)
	movl	%edx, 32(%rsp)
	movq	%rax, %rdx
	callq	tlsf_heap.fitting.merge_next.4
	jmp	.LBB97_35
.LBB97_32:
	leaq	1(%r9), %r11
	movq	%r11, 32(%rsi)
	movq	%r8, 40(%rsp)
	movl	%edx, 32(%rsp)
	movq	%rax, %rdx
	movq	%r10, %r8
	callq	tlsf_heap.fitting.merge_before.4
	jmp	.LBB97_35
.LBB97_33:
	movq	$-1, 16(%rdx,%r11,8)
	shrl	$4, %ecx
	movl	$1, %eax
	shll	%cl, %eax
	movl	108(%rsi,%rcx,4), %edx
	orl	%eax, 104(%rsi)
	andb	$15, %dil
.LBB97_34:
	btsl	%edi, %edx
	movl	%edx, 108(%rsi,%rcx,4)
.LBB97_35:
	xorl	%eax, %eax
.LBB97_36:
	movb	$1, (%rsi)
	addq	$48, %rsp
	popq	%rbx
	popq	%rdi
	popq	%rsi
	retq
	.seh_endproc
	.def	tlsf_report;
	.scl	2;
	.type	32;
	.endef
	.globl	tlsf_report
	.p2align	4
tlsf_report:
.seh_proc tlsf_report
	pushq	%r15
	.seh_pushreg %r15
	pushq	%r14
	.seh_pushreg %r14
	pushq	%r13
	.seh_pushreg %r13
	pushq	%r12
	.seh_pushreg %r12
	pushq	%rsi
	.seh_pushreg %rsi
	pushq	%rdi
	.seh_pushreg %rdi
	pushq	%rbp
	.seh_pushreg %rbp
	pushq	%rbx
	.seh_pushreg %rbx
	.seh_endprologue
	movl	$32, %eax
	cmpb	$0, 8(%rcx)
	je	.LBB98_30
	movq	(%rcx), %r8
	cmpb	$1, (%r8)
	jne	.LBB98_30
	movb	$0, (%r8)
	cmpb	$0, 16(%r8)
	movq	32(%r8), %r9
	movl	56(%r8), %eax
	je	.LBB98_3
	testl	%eax, %eax
	je	.LBB98_4
	movq	48(%r8), %rcx
	xorl	%r15d, %r15d
	movq	%r9, %r10
	xorl	%edi, %edi
	xorl	%r14d, %r14d
	xorl	%ebx, %ebx
	xorl	%esi, %esi
	xorl	%r11d, %r11d
	xorl	%ebp, %ebp
	jmp	.LBB98_15
	.p2align	4
.LBB98_17:
	incl	%ebp
	addl	%r15d, %r11d
	addl	16(%rcx,%r12,8), %esi
	addl	%r12d, %r15d
	cmpl	%eax, %r15d
	jae	.LBB98_19
.LBB98_15:
	movl	%r15d, %r12d
	movq	(%rcx,%r12,8), %r13
	movl	%r13d, %r15d
	shrl	$2, %r15d
	testb	$1, %r13b
	je	.LBB98_17
	incl	%ebx
	addl	%r15d, %r14d
	cmpl	%edi, %r15d
	cmoval	%r15d, %edi
	movq	8(%rcx,%r12,8), %r13
	cmpq	%r10, %r13
	cmovbq	%r13, %r10
	addl	%r12d, %r15d
	cmpl	%eax, %r15d
	jb	.LBB98_15
.LBB98_19:
	xorl	%r15d, %r15d
	movl	$0, %ecx
	testl	%edi, %edi
	je	.LBB98_24
	movl	%edi, %eax
	orl	$32, %eax
	bsrl	%eax, %ecx
	addl	$-5, %ecx
	movl	%edi, %r12d
	shrl	%cl, %r12d
	shll	$5, %ecx
	addl	%r12d, %ecx
	movl	%ecx, %eax
	shrl	$5, %eax
	je	.LBB98_23
	movl	$16, %r13d
	movl	%eax, %ecx
	shll	%cl, %r13d
	andl	$31, %r12d
	jmp	.LBB98_22
.LBB98_3:
	testl	%eax, %eax
	je	.LBB98_4
	movq	48(%r8), %rcx
	xorl	%r15d, %r15d
	movq	%r9, %r10
	xorl	%edi, %edi
	xorl	%r14d, %r14d
	xorl	%ebx, %ebx
	xorl	%esi, %esi
	xorl	%r11d, %r11d
	xorl	%ebp, %ebp
	jmp	.LBB98_6
	.p2align	4
.LBB98_8:
	incl	%ebp
	addl	%r15d, %r11d
	addl	16(%rcx,%r12,8), %esi
	addl	%r12d, %r15d
	cmpl	%eax, %r15d
	jae	.LBB98_10
.LBB98_6:
	movl	%r15d, %r12d
	movq	(%rcx,%r12,8), %r13
	movl	%r13d, %r15d
	shrl	$2, %r15d
	testb	$1, %r13b
	je	.LBB98_8
	incl	%ebx
	addl	%r15d, %r14d
	cmpl	%edi, %r15d
	cmoval	%r15d, %edi
	movq	8(%rcx,%r12,8), %r13
	cmpq	%r10, %r13
	cmovbq	%r13, %r10
	addl	%r12d, %r15d
	cmpl	%eax, %r15d
	jb	.LBB98_6
.LBB98_10:
	xorl	%r15d, %r15d
	movl	$0, %ecx
	testl	%edi, %edi
	je	.LBB98_24
	movl	%edi, %eax
	orl	$16, %eax
	bsrl	%eax, %ecx
	addl	$-4, %ecx
	movl	%edi, %r12d
	shrl	%cl, %r12d
	shll	$4, %ecx
	addl	%r12d, %ecx
	movl	%ecx, %eax
	shrl	$4, %eax
	je	.LBB98_23
	movl	$8, %r13d
	movl	%eax, %ecx
	shll	%cl, %r13d
	andl	$15, %r12d
.LBB98_22:
	decb	%al
	movl	%eax, %ecx
	shll	%cl, %r12d
	addl	%r13d, %r12d
	movl	%r12d, %ecx
.LBB98_23:
	leal	-24(,%rcx,8), %ecx
.LBB98_24:
	movl	$0, %r13d
	testl	%r14d, %r14d
	je	.LBB98_29
	movq	%rdx, %r12
	movl	%edi, %eax
	movl	%r14d, %r15d
	imulq	$1000, %rax, %rax
	movabsq	$4393751543808, %rdx
	testq	%rdx, %rax
	je	.LBB98_26
	xorl	%edx, %edx
	divq	%r15
	jmp	.LBB98_28
.LBB98_4:
	xorl	%r11d, %r11d
	xorl	%esi, %esi
	movq	%r9, %r10
	xorl	%ebp, %ebp
	xorl	%ebx, %ebx
	xorl	%r15d, %r15d
	xorl	%edi, %edi
	xorl	%ecx, %ecx
	xorl	%r13d, %r13d
	jmp	.LBB98_29
.LBB98_26:
	xorl	%edx, %edx
	divl	%r15d
.LBB98_28:
	movl	$1000, %r13d
	subl	%eax, %r13d
	movl	%r14d, %r15d
	movq	%r12, %rdx
.LBB98_29:
	leal	(,%r11,8), %eax
	subl	%esi, %eax
	subq	%r10, %r9
	movl	%ebp, (%rdx)
	movl	%r11d, 4(%rdx)
	movl	%esi, 8(%rdx)
	movl	%ebx, 12(%rdx)
	movl	%r15d, 16(%rdx)
	movl	%edi, 20(%rdx)
	movl	%ecx, 24(%rdx)
	movl	%r13d, 28(%rdx)
	movl	%eax, 32(%rdx)
	movl	$0, 36(%rdx)
	movq	%r9, 40(%rdx)
	movb	$1, (%r8)
	xorl	%eax, %eax
.LBB98_30:
	popq	%rbx
	popq	%rbp
	popq	%rdi
	popq	%rsi
	popq	%r12
	popq	%r13
	popq	%r14
	popq	%r15
	retq
	.seh_endproc
	.def	tlsf_reset;
	.scl	2;
	.type	32;
	.endef
	.globl	tlsf_reset
	.p2align	4
tlsf_reset:
.seh_proc tlsf_reset
	pushq	%rsi
	.seh_pushreg %rsi
	pushq	%rdi
	.seh_pushreg %rdi
	pushq	%rbx
	.seh_pushreg %rbx
	subq	$32, %rsp
	.seh_stackalloc 32
	.seh_endprologue
	movl	$32, %eax
	cmpb	$0, 8(%rcx)
	je	.LBB99_19
	movq	(%rcx), %rsi
	cmpb	$1, (%rsi)
	jne	.LBB99_19
	movb	$0, (%rsi)
	cmpb	$0, 16(%rsi)
	movq	32(%rsi), %rdi
	je	.LBB99_8
	cmpq	$-1, %rdi
	je	.LBB99_14
	movq	80(%rsi), %r8
	testq	%r8, %r8
	je	.LBB99_6
	movq	72(%rsi), %rcx
	shlq	$3, %r8
	xorl	%edx, %edx
	callq	tlsf_memory_set
.LBB99_6:
	movabsq	$-4294967296, %rbx
	leaq	192(%rsi), %rcx
	movl	$2564, %r8d
	movb	$-1, %dl
	callq	tlsf_memory_set
	xorps	%xmm0, %xmm0
	movups	%xmm0, 104(%rsi)
	movups	%xmm0, 120(%rsi)
	movups	%xmm0, 136(%rsi)
	movups	%xmm0, 152(%rsi)
	movups	%xmm0, 168(%rsi)
	movq	$0, 184(%rsi)
	movl	56(%rsi), %edx
	movl	%edx, %eax
	orl	$32, %eax
	bsrl	%eax, %ecx
	addl	$-5, %ecx
	movl	%edx, %eax
	shrl	%cl, %eax
	shll	$5, %ecx
	addl	%eax, %ecx
	shll	$2, %edx
	orq	%rbx, %rdx
	orq	$3, %rdx
	movq	48(%rsi), %r8
	movq	%rdx, (%r8)
	movq	%rdi, 8(%r8)
	movq	72(%rsi), %rdx
	orq	$1, (%rdx)
	movslq	192(%rsi,%rcx,4), %rdx
	movl	$0, 192(%rsi,%rcx,4)
	movq	48(%rsi), %r8
	testq	%rdx, %rdx
	jns	.LBB99_12
	movq	$-1, 16(%r8)
	shrl	$5, %ecx
	movl	$1, %edx
	shll	%cl, %edx
	movl	108(%rsi,%rcx,4), %r8d
	orl	%edx, 104(%rsi)
	jmp	.LBB99_16
.LBB99_8:
	cmpq	$-1, %rdi
	je	.LBB99_14
	movq	80(%rsi), %r8
	testq	%r8, %r8
	je	.LBB99_11
	movq	72(%rsi), %rcx
	shlq	$3, %r8
	xorl	%edx, %edx
	callq	tlsf_memory_set
.LBB99_11:
	movabsq	$-4294967296, %rbx
	leaq	192(%rsi), %rcx
	movl	$2564, %r8d
	movb	$-1, %dl
	callq	tlsf_memory_set
	xorps	%xmm0, %xmm0
	movups	%xmm0, 104(%rsi)
	movups	%xmm0, 120(%rsi)
	movups	%xmm0, 136(%rsi)
	movups	%xmm0, 152(%rsi)
	movups	%xmm0, 168(%rsi)
	movq	$0, 184(%rsi)
	movl	56(%rsi), %edx
	movl	%edx, %eax
	orl	$16, %eax
	bsrl	%eax, %ecx
	addl	$-4, %ecx
	movl	%edx, %eax
	shrl	%cl, %eax
	shll	$4, %ecx
	addl	%eax, %ecx
	shll	$2, %edx
	orq	%rbx, %rdx
	orq	$3, %rdx
	movq	48(%rsi), %r8
	movq	%rdx, (%r8)
	movq	%rdi, 8(%r8)
	movq	72(%rsi), %rdx
	orq	$1, (%rdx)
	movslq	192(%rsi,%rcx,4), %rdx
	movl	$0, 192(%rsi,%rcx,4)
	movq	48(%rsi), %r8
	testq	%rdx, %rdx
	js	.LBB99_15
.LBB99_12:
	orq	%rdx, %rbx
	movq	%rbx, 16(%r8)
	movl	$0, 20(%r8,%rdx,8)
	jmp	.LBB99_17
.LBB99_14:
	movl	$2, %eax
	jmp	.LBB99_18
.LBB99_15:
	movq	$-1, 16(%r8)
	shrl	$4, %ecx
	movl	$1, %edx
	shll	%cl, %edx
	movl	108(%rsi,%rcx,4), %r8d
	orl	%edx, 104(%rsi)
	andb	$15, %al
.LBB99_16:
	btsl	%eax, %r8d
	movl	%r8d, 108(%rsi,%rcx,4)
.LBB99_17:
	movl	$0, 40(%rsi)
	incq	32(%rsi)
	xorl	%eax, %eax
.LBB99_18:
	movb	$1, (%rsi)
.LBB99_19:
	addq	$32, %rsp
	popq	%rbx
	popq	%rdi
	popq	%rsi
	retq
	.seh_endproc
	.def	tlsf_resize;
	.scl	2;
	.type	32;
	.endef
	.globl	tlsf_resize
	.p2align	4
tlsf_resize:
.seh_proc tlsf_resize
	pushq	%rbp
	.seh_pushreg %rbp
	pushq	%r15
	.seh_pushreg %r15
	pushq	%r14
	.seh_pushreg %r14
	pushq	%r13
	.seh_pushreg %r13
	pushq	%r12
	.seh_pushreg %r12
	pushq	%rbx
	.seh_pushreg %rbx
	subq	$88, %rsp
	.seh_stackalloc 88
	.seh_endprologue
	cmpb	$0, 8(%rdi)
	je	.LBB100_2
	movq	(%rdi), %r13
	cmpb	$0, (%r13)
	je	.LBB100_2
	movq	%rsi, %rbx
	shrq	$32, %rbx
	movl	$4294967295, %r12d
	cmpq	%r12, %rcx
	cmovbq	%rcx, %r12
	movb	$0, (%r13)
	cmpq	$1, %rcx
	movq	%r12, %r14
	adcq	$31, %r14
	shrq	$3, %r14
	cmpb	$0, 16(%r13)
	movl	24(%r13), %eax
	je	.LBB100_4
	cmpl	%esi, %eax
	jne	.LBB100_61
	movl	%esi, %eax
	cmpl	56(%r13), %ebx
	jae	.LBB100_61
	movq	72(%r13), %rax
	movq	%rsi, %rcx
	shrq	$38, %rcx
	movq	(%rax,%rcx,8), %rax
	btq	%rbx, %rax
	movl	%esi, %eax
	jae	.LBB100_61
	leaq	48(%r13), %r10
	movq	(%r10), %rcx
	movq	(%rcx,%rbx,8), %r15
	movl	%esi, %eax
	testb	$1, %r15b
	jne	.LBB100_61
	leaq	(,%rbx,8), %r8
	movl	%esi, %eax
	cmpq	%rdx, 8(%rcx,%r8)
	jne	.LBB100_61
	movl	%r15d, %esi
	shrl	$2, %esi
	cmpl	%r14d, %esi
	jae	.LBB100_35
	testb	$2, %r15b
	jne	.LBB100_45
	leal	(%rsi,%rbx), %eax
	movq	(%rcx,%rax,8), %r9
	testb	$1, %r9b
	jne	.LBB100_46
.LBB100_45:
	xorl	%r9d, %r9d
.LBB100_46:
	movl	%r9d, %eax
	shrl	$2, %eax
	addl	%esi, %eax
	cmpl	%r14d, %eax
	jb	.LBB100_60
	movq	32(%r13), %rax
	cmpq	$-1, %rax
	je	.LBB100_59
	movq	%rdi, 72(%rsp)
	movq	%rax, 40(%rsp)
	movl	%r14d, 32(%rsp)
	movq	%r10, %rcx
	movl	%ebx, %edx
	movq	%r8, %rdi
	movq	%r15, %r8
	callq	tlsf_heap.refitting.recut.5
	leaq	48(%r13), %rdx
	movl	%eax, %r15d
	movq	(%rdx), %rax
	movq	16(%rax,%rdi), %rbp
	movq	%r12, 16(%rax,%rdi)
	cmpl	%ebp, %r12d
	jbe	.LBB100_54
	testb	$7, %bpl
	je	.LBB100_51
	movl	%ebp, %eax
	movq	(%rdx), %r9
	movq	%r9, 64(%rsp)
	addq	%rax, %rdi
	addq	$24, %rdi
	andl	$7, %eax
	andq	$-8, %rdi
	leaq	.Lstatic.0(%rip), %rdx
	addq	%rax, %rdx
	movl	$8, %r8d
	subq	%rax, %r8
	movq	(%r9,%rdi), %rcx
	movq	%rcx, 56(%rsp)
	leaq	(%rsp,%rax), %rcx
	addq	$56, %rcx
	callq	tlsf_memory_cpy
	leaq	48(%r13), %rdx
	movq	56(%rsp), %rax
	movq	64(%rsp), %rcx
	movq	%rax, (%rcx,%rdi)
.LBB100_51:
	movl	%ebp, %eax
	shrl	$3, %eax
	andl	$7, %ebp
	cmpl	$1, %ebp
	jmp	.LBB100_52
.LBB100_4:
	cmpl	%esi, %eax
	jne	.LBB100_61
	movl	%esi, %eax
	cmpl	56(%r13), %ebx
	jae	.LBB100_61
	movq	72(%r13), %rax
	movq	%rsi, %rcx
	shrq	$38, %rcx
	movq	(%rax,%rcx,8), %rax
	btq	%rbx, %rax
	movl	%esi, %eax
	jae	.LBB100_61
	leaq	48(%r13), %r10
	movq	(%r10), %rcx
	movq	(%rcx,%rbx,8), %r15
	movl	%esi, %eax
	testb	$1, %r15b
	jne	.LBB100_61
	leaq	(,%rbx,8), %rbp
	movl	%esi, %eax
	cmpq	%rdx, 8(%rcx,%rbp)
	jne	.LBB100_61
	movl	%r15d, %esi
	shrl	$2, %esi
	cmpl	%r14d, %esi
	jae	.LBB100_10
	testb	$2, %r15b
	jne	.LBB100_22
	leal	(%rsi,%rbx), %eax
	movq	(%rcx,%rax,8), %r9
	testb	$1, %r9b
	jne	.LBB100_23
.LBB100_22:
	xorl	%r9d, %r9d
.LBB100_23:
	movl	%r9d, %eax
	shrl	$2, %eax
	addl	%esi, %eax
	cmpl	%r14d, %eax
	jae	.LBB100_24
.LBB100_60:
	movb	$1, (%r13)
	movl	$10, %eax
	jmp	.LBB100_62
.LBB100_61:
	movl	%esi, %ecx
	movl	%eax, %edx
	callq	tlsf_heap.refusal.Refusal.of_name
	movl	%eax, %ecx
	movb	$1, (%r13)
	xorl	%eax, %eax
	cmpb	$3, %cl
	sete	%al
	addl	$3, %eax
	jmp	.LBB100_62
.LBB100_35:
	movq	32(%r13), %rdx
	cmpq	$-1, %rdx
	je	.LBB100_59
	movq	%rdi, 72(%rsp)
	movq	16(%rcx,%r8), %rbp
	movq	%r12, 16(%rcx,%r8)
	cmpl	%ebp, %r12d
	jbe	.LBB100_41
	testb	$7, %bpl
	je	.LBB100_39
	movl	%ebp, %eax
	movq	(%r10), %rcx
	movq	%rcx, 80(%rsp)
	leaq	(%r8,%rax), %rdi
	addq	$24, %rdi
	andl	$7, %eax
	andq	$-8, %rdi
	movq	%rdx, 64(%rsp)
	leaq	.Lstatic.0(%rip), %rdx
	addq	%rax, %rdx
	movl	$8, %r8d
	subq	%rax, %r8
	movq	(%rcx,%rdi), %rcx
	movq	%rcx, 56(%rsp)
	leaq	(%rsp,%rax), %rcx
	addq	$56, %rcx
	callq	tlsf_memory_cpy
	movq	64(%rsp), %rdx
	leaq	48(%r13), %r10
	movq	56(%rsp), %rax
	movq	80(%rsp), %rcx
	movq	%rax, (%rcx,%rdi)
.LBB100_39:
	movl	%ebp, %eax
	shrl	$3, %eax
	andl	$7, %ebp
	cmpl	$1, %ebp
	sbbl	$-1, %eax
	movl	%r12d, %r8d
	shrl	$3, %r8d
	andl	$7, %r12d
	cmpl	$1, %r12d
	sbbl	$-1, %r8d
	subl	%eax, %r8d
	je	.LBB100_41
	leal	(%rbx,%rax), %ecx
	addl	$3, %ecx
	shlq	$3, %rcx
	addq	(%r10), %rcx
	shlq	$3, %r8
	movq	%rdx, %r12
	xorl	%edx, %edx
	movq	%r10, %rdi
	callq	tlsf_memory_set
	movq	%r12, %rdx
	movq	%rdi, %r10
.LBB100_41:
	leal	4(%r14), %ecx
	movl	%esi, %eax
	cmpl	%ecx, %esi
	jb	.LBB100_19
	movq	%rdx, 32(%rsp)
	movq	%r10, %rcx
	movl	%ebx, %edx
	movq	%r15, %r8
	movl	%r14d, %r9d
	callq	tlsf_heap.refitting.split_off.5
	jmp	.LBB100_18
.LBB100_10:
	movq	32(%r13), %rdx
	cmpq	$-1, %rdx
	je	.LBB100_59
	movq	%rdi, 72(%rsp)
	movq	16(%rcx,%rbp), %rdi
	movq	%r12, 16(%rcx,%rbp)
	cmpl	%edi, %r12d
	jbe	.LBB100_16
	testb	$7, %dil
	je	.LBB100_14
	movl	%edi, %eax
	movq	(%r10), %rcx
	movq	%rcx, 80(%rsp)
	addq	%rax, %rbp
	addq	$24, %rbp
	andl	$7, %eax
	andq	$-8, %rbp
	movq	%rdx, 64(%rsp)
	leaq	.Lstatic.0(%rip), %rdx
	addq	%rax, %rdx
	movl	$8, %r8d
	subq	%rax, %r8
	movq	(%rcx,%rbp), %rcx
	movq	%rcx, 56(%rsp)
	leaq	(%rsp,%rax), %rcx
	addq	$56, %rcx
	callq	tlsf_memory_cpy
	movq	64(%rsp), %rdx
	leaq	48(%r13), %r10
	movq	56(%rsp), %rax
	movq	80(%rsp), %rcx
	movq	%rax, (%rcx,%rbp)
.LBB100_14:
	movl	%edi, %eax
	shrl	$3, %eax
	andl	$7, %edi
	cmpl	$1, %edi
	sbbl	$-1, %eax
	movl	%r12d, %r8d
	shrl	$3, %r8d
	andl	$7, %r12d
	cmpl	$1, %r12d
	sbbl	$-1, %r8d
	subl	%eax, %r8d
	je	.LBB100_16
	leal	(%rbx,%rax), %ecx
	addl	$3, %ecx
	shlq	$3, %rcx
	addq	(%r10), %rcx
	shlq	$3, %r8
	movq	%rdx, %r12
	xorl	%edx, %edx
	movq	%r10, %rdi
	callq	tlsf_memory_set
	movq	%r12, %rdx
	movq	%rdi, %r10
.LBB100_16:
	leal	4(%r14), %ecx
	movl	%esi, %eax
	cmpl	%ecx, %esi
	jb	.LBB100_19
	movq	%rdx, 32(%rsp)
	movq	%r10, %rcx
	movl	%ebx, %edx
	movq	%r15, %r8
	movl	%r14d, %r9d
	callq	tlsf_heap.refitting.split_off.4
.LBB100_18:
	movl	%r14d, %eax
.LBB100_19:
	subl	%esi, %eax
	addl	%eax, 40(%r13)
.LBB100_56:
	incq	32(%r13)
	movq	72(%rsp), %rcx
	movb	$1, (%r13)
	xorl	%eax, %eax
	testb	$1, %r14b
	je	.LBB100_62
	cmpb	$0, 28(%rcx)
	jne	.LBB100_62
	movb	$1, 28(%rcx)
	jmp	.LBB100_62
.LBB100_2:
	xorl	%ecx, %ecx
	callq	tlsf_c.call_fault.CallFault.refusal
	jmp	.LBB100_62
.LBB100_24:
	movq	32(%r13), %rax
	cmpq	$-1, %rax
	je	.LBB100_59
	movq	%rdi, 72(%rsp)
	movq	%rax, 40(%rsp)
	movl	%r14d, 32(%rsp)
	movq	%r10, %rcx
	movl	%ebx, %edx
	movq	%r15, %r8
	callq	tlsf_heap.refitting.recut.4
	leaq	48(%r13), %rdx
	movl	%eax, %r15d
	movq	(%rdx), %rax
	movq	16(%rax,%rbp), %rdi
	movq	%r12, 16(%rax,%rbp)
	cmpl	%edi, %r12d
	jbe	.LBB100_54
	testb	$7, %dil
	je	.LBB100_28
	movl	%edi, %eax
	movq	(%rdx), %rcx
	movq	%rcx, 64(%rsp)
	addq	%rax, %rbp
	addq	$24, %rbp
	andl	$7, %eax
	andq	$-8, %rbp
	leaq	.Lstatic.0(%rip), %rdx
	addq	%rax, %rdx
	movl	$8, %r8d
	subq	%rax, %r8
	movq	(%rcx,%rbp), %rcx
	movq	%rcx, 56(%rsp)
	leaq	(%rsp,%rax), %rcx
	addq	$56, %rcx
	callq	tlsf_memory_cpy
	leaq	48(%r13), %rdx
	movq	56(%rsp), %rax
	movq	64(%rsp), %rcx
	movq	%rax, (%rcx,%rbp)
.LBB100_28:
	movl	%edi, %eax
	shrl	$3, %eax
	andl	$7, %edi
	cmpl	$1, %edi
.LBB100_52:
	sbbl	$-1, %eax
	movl	%r12d, %r8d
	shrl	$3, %r8d
	andl	$7, %r12d
	cmpl	$1, %r12d
	sbbl	$-1, %r8d
	subl	%eax, %r8d
	je	.LBB100_54
	leal	(%rbx,%rax), %ecx
	addl	$3, %ecx
	shlq	$3, %rcx
	addq	(%rdx), %rcx
	shlq	$3, %r8
	xorl	%edx, %edx
	callq	tlsf_memory_set
.LBB100_54:
	subl	%esi, %r15d
	addl	40(%r13), %r15d
	movl	%r15d, 40(%r13)
	cmpl	%r15d, 44(%r13)
	jae	.LBB100_56
	movl	%r15d, 44(%r13)
	jmp	.LBB100_56
.LBB100_59:
	movb	$1, (%r13)
	movl	$2, %eax
.LBB100_62:
	addq	$88, %rsp
	popq	%rbx
	popq	%r12
	popq	%r13
	popq	%r14
	popq	%r15
	popq	%rbp
	retq
	.seh_endproc
	.def	tlsf_resize_place;
	.scl	2;
	.type	32;
	.endef
	.globl	tlsf_resize_place
	.p2align	4
tlsf_resize_place:
.seh_proc tlsf_resize_place
	pushq	%r15
	.seh_pushreg %r15
	pushq	%r14
	.seh_pushreg %r14
	pushq	%r13
	.seh_pushreg %r13
	pushq	%r12
	.seh_pushreg %r12
	pushq	%rsi
	.seh_pushreg %rsi
	pushq	%rdi
	.seh_pushreg %rdi
	pushq	%rbp
	.seh_pushreg %rbp
	pushq	%rbx
	.seh_pushreg %rbx
	subq	$88, %rsp
	.seh_stackalloc 88
	.seh_endprologue
	cmpb	$0, 8(%rcx)
	je	.LBB101_87
	movq	(%rcx), %r13
	cmpb	$0, (%r13)
	je	.LBB101_87
	movq	%r8, %rax
	movl	$4294967295, %r15d
	cmpq	%r15, %r8
	cmovbq	%r8, %r15
	movb	$0, (%r13)
	leaq	24(%r13), %rdi
	leaq	48(%r13), %rsi
	cmpb	$0, 16(%r13)
	movl	56(%r13), %ecx
	je	.LBB101_3
	cmpl	%ecx, %edx
	jae	.LBB101_85
	movq	72(%r13), %rcx
	movl	%edx, %r8d
	shrl	$6, %r8d
	movq	(%rcx,%r8,8), %rcx
	btq	%rdx, %rcx
	jae	.LBB101_85
	movq	(%rsi), %r10
	movl	%edx, %ebx
	movq	(%r10,%rbx,8), %r8
	testb	$1, %r8b
	jne	.LBB101_85
	movl	16(%r10,%rbx,8), %ebp
	cmpl	%ebp, %r15d
	cmovbl	%r15d, %ebp
	cmpq	$1, %rax
	movq	%r15, %rcx
	adcq	$31, %rcx
	movq	%rcx, %r14
	shrq	$3, %r14
	movl	%r8d, %r12d
	shrl	$2, %r12d
	cmpl	%r14d, %r12d
	jae	.LBB101_51
	testb	$2, %r8b
	jne	.LBB101_56
	leal	(%r12,%rdx), %eax
	movq	(%r10,%rax,8), %rax
	testb	$1, %al
	jne	.LBB101_57
.LBB101_56:
	xorl	%eax, %eax
.LBB101_57:
	movl	%eax, %r11d
	shrl	$2, %r11d
	addl	%r12d, %r11d
	cmpl	%r14d, %r11d
	jae	.LBB101_58
	movq	8(%r10,%rbx,8), %rax
	movl	(%rdi), %r8d
	movl	%r8d, 64(%rsp)
	movl	%edx, 68(%rsp)
	movq	%rax, 72(%rsp)
	movq	32(%r13), %r11
	cmpq	$-3, %r11
	ja	.LBB101_84
	cmpq	$134217735, %rcx
	ja	.LBB101_83
	movl	%r14d, %eax
	orl	$32, %eax
	bsrl	%eax, %eax
	addl	$-5, %eax
	leal	-1(%r14), %r8d
	movl	%eax, %ecx
	shrl	%cl, %r8d
	shll	$5, %eax
	addl	%r8d, %eax
	movl	%eax, %edx
	shrl	$5, %edx
	movl	108(%r13,%rdx,4), %ebp
	movl	%r8d, %ecx
	shrl	%cl, %ebp
	andl	$-2, %ebp
	je	.LBB101_64
	rep		bsfl	%ebp, %ecx
	addq	%rax, %rcx
	jmp	.LBB101_66
.LBB101_3:
	cmpl	%ecx, %edx
	jae	.LBB101_85
	movq	72(%r13), %rcx
	movl	%edx, %r8d
	shrl	$6, %r8d
	movq	(%rcx,%r8,8), %rcx
	btq	%rdx, %rcx
	jae	.LBB101_85
	movq	(%rsi), %r10
	movl	%edx, %ebx
	movq	(%r10,%rbx,8), %r8
	testb	$1, %r8b
	jne	.LBB101_85
	movl	16(%r10,%rbx,8), %ebp
	cmpl	%ebp, %r15d
	cmovbl	%r15d, %ebp
	cmpq	$1, %rax
	movq	%r15, %rcx
	adcq	$31, %rcx
	movq	%rcx, %r14
	shrq	$3, %r14
	movl	%r8d, %r12d
	shrl	$2, %r12d
	cmpl	%r14d, %r12d
	jae	.LBB101_7
	testb	$2, %r8b
	jne	.LBB101_14
	leal	(%r12,%rdx), %eax
	movq	(%r10,%rax,8), %rax
	testb	$1, %al
	jne	.LBB101_15
.LBB101_14:
	xorl	%eax, %eax
.LBB101_15:
	movl	%eax, %r11d
	shrl	$2, %r11d
	addl	%r12d, %r11d
	cmpl	%r14d, %r11d
	jae	.LBB101_16
	movq	8(%r10,%rbx,8), %rax
	movl	(%rdi), %r8d
	movl	%r8d, 64(%rsp)
	movl	%edx, 68(%rsp)
	movq	%rax, 72(%rsp)
	movq	32(%r13), %r11
	cmpq	$-3, %r11
	ja	.LBB101_84
	cmpq	$8388615, %rcx
	jbe	.LBB101_25
.LBB101_83:
	movl	8(%r13), %eax
	movl	12(%r13), %ecx
	incl	%eax
	movl	$-1, %edx
	cmovnel	%eax, %edx
	cmpl	%ecx, %r15d
	cmoval	%r15d, %ecx
	movl	%edx, 8(%r13)
	movl	%ecx, 12(%r13)
	movb	$1, (%r13)
	movl	$1, %eax
	jmp	.LBB101_86
.LBB101_85:
	movb	$1, (%r13)
	movl	$4, %eax
.LBB101_86:
	addq	$88, %rsp
	popq	%rbx
	popq	%rbp
	popq	%rdi
	popq	%rsi
	popq	%r12
	popq	%r13
	popq	%r14
	popq	%r15
	retq
.LBB101_87:
	xorl	%ecx, %ecx
	addq	$88, %rsp
	popq	%rbx
	popq	%rbp
	popq	%rdi
	popq	%rsi
	popq	%r12
	popq	%r13
	popq	%r14
	popq	%r15
	jmp	tlsf_c.call_fault.CallFault.refusal
.LBB101_51:
	movq	32(%r13), %rax
	cmpq	$-1, %rax
	je	.LBB101_84
	movl	%ebp, %ecx
	movq	%rcx, 16(%r10,%rbx,8)
	leal	4(%r14), %r10d
	movl	%r12d, %ecx
	cmpl	%r10d, %r12d
	jb	.LBB101_11
	movq	%rax, 32(%rsp)
	movq	%rsi, %rcx
	movq	%rdx, %rdi
	movq	%r9, %rbp
	movl	%r14d, %r9d
	callq	tlsf_heap.refitting.split_off.5
	jmp	.LBB101_10
.LBB101_7:
	movq	32(%r13), %rax
	cmpq	$-1, %rax
	je	.LBB101_84
	movl	%ebp, %ecx
	movq	%rcx, 16(%r10,%rbx,8)
	leal	4(%r14), %r10d
	movl	%r12d, %ecx
	cmpl	%r10d, %r12d
	jb	.LBB101_11
	movq	%rax, 32(%rsp)
	movq	%rsi, %rcx
	movq	%rdx, %rdi
	movq	%r9, %rbp
	movl	%r14d, %r9d
	callq	tlsf_heap.refitting.split_off.4
.LBB101_10:
	movq	%rdi, %rdx
	movq	%rbp, %r9
	movl	%r14d, %ecx
.LBB101_11:
	subl	%r12d, %ecx
	addl	%ecx, 40(%r13)
	incq	32(%r13)
	jmp	.LBB101_21
.LBB101_58:
	movq	32(%r13), %rcx
	cmpq	$-1, %rcx
	je	.LBB101_84
	movq	%r9, %rdi
	movq	%rcx, 40(%rsp)
	movl	%r14d, 32(%rsp)
	movq	%rsi, %rcx
	movq	%rdx, %r14
	movq	%rax, %r9
	callq	tlsf_heap.refitting.recut.5
	jmp	.LBB101_18
.LBB101_16:
	movq	32(%r13), %rcx
	cmpq	$-1, %rcx
	je	.LBB101_84
	movq	%r9, %rdi
	movq	%rcx, 40(%rsp)
	movl	%r14d, 32(%rsp)
	movq	%rsi, %rcx
	movq	%rdx, %r14
	movq	%rax, %r9
	callq	tlsf_heap.refitting.recut.4
.LBB101_18:
	movq	48(%r13), %rcx
	movl	%ebp, %edx
	movq	%rdx, 16(%rcx,%rbx,8)
	subl	%r12d, %eax
	addl	40(%r13), %eax
	movl	%eax, 40(%r13)
	cmpl	%eax, 44(%r13)
	jae	.LBB101_20
	movl	%eax, 44(%r13)
.LBB101_20:
	incq	32(%r13)
	movq	%rdi, %r9
	movq	%r14, %rdx
.LBB101_21:
	movq	(%rsi), %rax
	movq	%r15, 16(%rax,%rbx,8)
.LBB101_22:
	movb	$1, (%r13)
	movl	%edx, (%r9)
	xorl	%eax, %eax
	jmp	.LBB101_86
.LBB101_84:
	movb	$1, (%r13)
	movl	$2, %eax
	jmp	.LBB101_86
.LBB101_25:
	movl	%r14d, %eax
	orl	$16, %eax
	bsrl	%eax, %eax
	addl	$-4, %eax
	leal	-1(%r14), %r8d
	movl	%eax, %ecx
	shrl	%cl, %r8d
	shll	$4, %eax
	addl	%r8d, %eax
	movl	%eax, %edx
	shrl	$4, %edx
	movl	108(%r13,%rdx,4), %ebp
	andb	$15, %r8b
	movl	%r8d, %ecx
	shrl	%cl, %ebp
	andl	$-2, %ebp
	je	.LBB101_27
	rep		bsfl	%ebp, %ecx
	addq	%rax, %rcx
	jmp	.LBB101_29
.LBB101_64:
	movl	$-2, %eax
	movl	%edx, %ecx
	shll	%cl, %eax
	andl	104(%r13), %eax
	je	.LBB101_83
	rep		bsfl	%eax, %ecx
	movl	$32, %eax
	rep		bsfl	108(%r13,%rcx,4), %eax
	shll	$5, %ecx
	addl	%eax, %ecx
.LBB101_66:
	movl	192(%r13,%rcx,4), %edx
	movq	16(%r10,%rdx,8), %rax
	cmpl	$-1, %eax
	je	.LBB101_67
	movl	%eax, %r8d
	movl	$-1, 20(%r10,%r8,8)
	movl	%eax, 192(%r13,%rcx,4)
	movq	48(%r13), %r10
	jmp	.LBB101_70
.LBB101_67:
	movl	$-1, 192(%r13,%rcx,4)
	movq	%rcx, %rax
	shrq	$5, %rax
	movl	$-2, %r8d
	roll	%cl, %r8d
	movq	%rax, %rcx
	movl	$-2, %eax
	andl	%r8d, 108(%r13,%rcx,4)
	jne	.LBB101_70
	roll	%cl, %eax
	andl	%eax, 104(%r13)
.LBB101_70:
	movq	(%r10,%rdx,8), %rcx
	leal	(,%r14,4), %eax
	movl	%ecx, %r8d
	subl	%eax, %r8d
	cmpl	$15, %r8d
	ja	.LBB101_72
	decq	%rcx
	movq	%rcx, (%r10,%rdx,8)
	movq	%r11, 8(%r10,%rdx,8)
	movq	%r15, 16(%r10,%rdx,8)
	shrl	$2, %ecx
	movl	%ecx, %r14d
	jmp	.LBB101_77
.LBB101_72:
	movl	%r8d, %r12d
	shrl	$2, %r8d
	movq	%rdx, %rbp
	shlq	$32, %rbp
	orq	%r12, %rbp
	leal	(%rdx,%r14), %eax
	subq	%r12, %rcx
	movq	%rcx, (%r10,%rdx,8)
	movq	%r11, 8(%r10,%rdx,8)
	movq	%r15, 16(%r10,%rdx,8)
	movq	%rbp, (%r10,%rax,8)
	movq	%r11, 8(%r10,%rax,8)
	movq	72(%r13), %r10
	movl	%eax, %r11d
	shrl	$6, %r11d
	movl	$1, %r15d
	movl	%eax, %ecx
	shlq	%cl, %r15
	orq	%r15, (%r10,%r11,8)
	testb	$2, %r12b
	jne	.LBB101_74
	leal	(%r8,%rax), %ecx
	movq	(%rsi), %r10
	movl	%eax, 4(%r10,%rcx,8)
.LBB101_74:
	movl	%r8d, %ecx
	orl	$32, %ecx
	bsrl	%ecx, %ecx
	addl	$-5, %ecx
	shrl	%cl, %r8d
	shll	$5, %ecx
	addl	%r8d, %ecx
	movslq	192(%r13,%rcx,4), %r10
	movl	%eax, 192(%r13,%rcx,4)
	movq	48(%r13), %r11
	testq	%r10, %r10
	js	.LBB101_75
	movabsq	$-4294967296, %rcx
	orq	%r10, %rcx
	movq	%rcx, 16(%r11,%rax,8)
	movl	%eax, 20(%r11,%r10,8)
	jmp	.LBB101_77
.LBB101_27:
	movl	$-2, %eax
	movl	%edx, %ecx
	shll	%cl, %eax
	andl	104(%r13), %eax
	je	.LBB101_83
	rep		bsfl	%eax, %ecx
	movl	$32, %eax
	rep		bsfl	108(%r13,%rcx,4), %eax
	shll	$4, %ecx
	addl	%eax, %ecx
.LBB101_29:
	movl	192(%r13,%rcx,4), %edx
	movq	16(%r10,%rdx,8), %rax
	cmpl	$-1, %eax
	je	.LBB101_30
	movl	%eax, %r8d
	movl	$-1, 20(%r10,%r8,8)
	movl	%eax, 192(%r13,%rcx,4)
	movq	48(%r13), %r10
	jmp	.LBB101_33
.LBB101_30:
	movl	$-1, 192(%r13,%rcx,4)
	movq	%rcx, %rax
	shrq	$4, %rax
	andb	$15, %cl
	movl	$-2, %r8d
	roll	%cl, %r8d
	movq	%rax, %rcx
	movl	$-2, %eax
	andl	%r8d, 108(%r13,%rcx,4)
	jne	.LBB101_33
	roll	%cl, %eax
	andl	%eax, 104(%r13)
.LBB101_33:
	movq	(%r10,%rdx,8), %rcx
	leal	(,%r14,4), %eax
	movl	%ecx, %r8d
	subl	%eax, %r8d
	cmpl	$15, %r8d
	ja	.LBB101_35
	decq	%rcx
	movq	%rcx, (%r10,%rdx,8)
	movq	%r11, 8(%r10,%rdx,8)
	movq	%r15, 16(%r10,%rdx,8)
	shrl	$2, %ecx
	movl	%ecx, %r14d
	jmp	.LBB101_40
.LBB101_35:
	movl	%r8d, %r12d
	shrl	$2, %r8d
	movq	%rdx, %rbp
	shlq	$32, %rbp
	orq	%r12, %rbp
	leal	(%rdx,%r14), %eax
	subq	%r12, %rcx
	movq	%rcx, (%r10,%rdx,8)
	movq	%r11, 8(%r10,%rdx,8)
	movq	%r15, 16(%r10,%rdx,8)
	movq	%rbp, (%r10,%rax,8)
	movq	%r11, 8(%r10,%rax,8)
	movq	72(%r13), %r10
	movl	%eax, %r11d
	shrl	$6, %r11d
	movl	$1, %r15d
	movl	%eax, %ecx
	shlq	%cl, %r15
	orq	%r15, (%r10,%r11,8)
	testb	$2, %r12b
	jne	.LBB101_37
	leal	(%r8,%rax), %ecx
	movq	(%rsi), %r10
	movl	%eax, 4(%r10,%rcx,8)
.LBB101_37:
	movl	%r8d, %ecx
	orl	$16, %ecx
	bsrl	%ecx, %ecx
	addl	$-4, %ecx
	shrl	%cl, %r8d
	shll	$4, %ecx
	addl	%r8d, %ecx
	movslq	192(%r13,%rcx,4), %r10
	movl	%eax, 192(%r13,%rcx,4)
	movq	48(%r13), %r11
	testq	%r10, %r10
	js	.LBB101_38
	movabsq	$-4294967296, %rcx
	orq	%r10, %rcx
	movq	%rcx, 16(%r11,%rax,8)
	movl	%eax, 20(%r11,%r10,8)
	jmp	.LBB101_40
.LBB101_75:
	movq	$-1, 16(%r11,%rax,8)
	shrl	$5, %ecx
	movl	$1, %eax
	shll	%cl, %eax
	movl	108(%r13,%rcx,4), %r10d
	orl	%eax, 104(%r13)
	btsl	%r8d, %r10d
	movl	%r10d, 108(%r13,%rcx,4)
.LBB101_77:
	addl	40(%r13), %r14d
	movl	%r14d, 40(%r13)
	cmpl	%r14d, 44(%r13)
	jae	.LBB101_79
	movl	%r14d, 44(%r13)
.LBB101_79:
	movq	%r9, 56(%rsp)
	incq	32(%r13)
	movq	48(%r13), %rcx
	movl	16(%rcx,%rbx,8), %r15d
	movl	16(%rcx,%rdx,8), %eax
	cmpl	%r15d, %eax
	cmovbl	%eax, %r15d
	addq	$3, %rbx
	movq	%rdx, %rbp
	leaq	3(%rdx), %r12
	movl	%r15d, %r14d
	shrl	$3, %r14d
	andl	$7, %r15d
	je	.LBB101_80
	leaq	(%r14,%rbx), %rax
	movq	(%rcx,%rax,8), %rax
	movq	%rax, 80(%rsp)
	movq	%rbx, %rdx
	movq	%r12, %r8
	movq	%r14, %r9
	callq	tlsf_words.cells.copy_run
	addq	%r12, %r14
	movq	(%rsi), %rsi
	movq	(%rsi,%r14,8), %rax
	movq	%rax, 48(%rsp)
	leaq	48(%rsp), %rcx
	leaq	80(%rsp), %rdx
	movq	%r15, %r8
	callq	tlsf_memory_cpy
	movq	48(%rsp), %rax
	movq	%rax, (%rsi,%r14,8)
	jmp	.LBB101_82
.LBB101_80:
	movq	%rbx, %rdx
	movq	%r12, %r8
	movq	%r14, %r9
	callq	tlsf_words.cells.copy_run
.LBB101_82:
	leaq	64(%rsp), %rdx
	movq	%rdi, %rcx
	callq	tlsf_heap.heap.Heap.release_live.5
	jmp	.LBB101_46
.LBB101_38:
	movq	$-1, 16(%r11,%rax,8)
	shrl	$4, %ecx
	movl	$1, %eax
	shll	%cl, %eax
	movl	108(%r13,%rcx,4), %r10d
	orl	%eax, 104(%r13)
	andb	$15, %r8b
	btsl	%r8d, %r10d
	movl	%r10d, 108(%r13,%rcx,4)
.LBB101_40:
	addl	40(%r13), %r14d
	movl	%r14d, 40(%r13)
	cmpl	%r14d, 44(%r13)
	jae	.LBB101_42
	movl	%r14d, 44(%r13)
.LBB101_42:
	movq	%r9, 56(%rsp)
	incq	32(%r13)
	movq	48(%r13), %rcx
	movl	16(%rcx,%rbx,8), %r15d
	movl	16(%rcx,%rdx,8), %eax
	cmpl	%r15d, %eax
	cmovbl	%eax, %r15d
	addq	$3, %rbx
	movq	%rdx, %rbp
	leaq	3(%rdx), %r12
	movl	%r15d, %r14d
	shrl	$3, %r14d
	andl	$7, %r15d
	je	.LBB101_43
	leaq	(%r14,%rbx), %rax
	movq	(%rcx,%rax,8), %rax
	movq	%rax, 80(%rsp)
	movq	%rbx, %rdx
	movq	%r12, %r8
	movq	%r14, %r9
	callq	tlsf_words.cells.copy_run
	addq	%r12, %r14
	movq	(%rsi), %rsi
	movq	(%rsi,%r14,8), %rax
	movq	%rax, 48(%rsp)
	leaq	48(%rsp), %rcx
	leaq	80(%rsp), %rdx
	movq	%r15, %r8
	callq	tlsf_memory_cpy
	movq	48(%rsp), %rax
	movq	%rax, (%rsi,%r14,8)
	jmp	.LBB101_45
.LBB101_43:
	movq	%rbx, %rdx
	movq	%r12, %r8
	movq	%r14, %r9
	callq	tlsf_words.cells.copy_run
.LBB101_45:
	leaq	64(%rsp), %rdx
	movq	%rdi, %rcx
	callq	tlsf_heap.heap.Heap.release_live.4
.LBB101_46:
	movq	56(%rsp), %r9
	movq	%rbp, %rdx
	jmp	.LBB101_22
	.seh_endproc
	.def	tlsf_take;
	.scl	2;
	.type	32;
	.endef
	.globl	tlsf_take
	.p2align	4
tlsf_take:
.seh_proc tlsf_take
	pushq	%rsi
	.seh_pushreg %rsi
	.seh_endprologue
	cmpb	$0, 8(%rcx)
	je	.LBB102_2
	movq	(%rcx), %rcx
	cmpb	$0, 1(%rcx)
	je	.LBB102_2
	cmpb	$1, (%rcx)
	jne	.LBB102_9
	movb	$0, 1(%rcx)
	movq	24(%rcx), %r9
	movq	32(%rcx), %r8
	movq	40(%rcx), %rax
	leaq	(%r9,%r9), %r11
	negq	%r11
	xorl	%r10d, %r10d
	subq	%r8, %rax
	cmovaeq	%r10, %r11
	cmpq	%r11, %rax
	jne	.LBB102_7
	movq	8(%rcx), %rax
	movq	128(%rax), %r11
	movq	%r11, 40(%rcx)
	movq	24(%rcx), %r9
	movq	32(%rcx), %r8
	leaq	(%r9,%r9), %rax
	negq	%rax
	xorl	%esi, %esi
	subq	%r8, %r11
	cmovbq	%rax, %rsi
	movl	$35, %eax
	cmpq	%rsi, %r11
	je	.LBB102_8
.LBB102_7:
	leaq	-1(,%r9,2), %rax
	leaq	1(%r8), %r11
	cmpq	%rax, %r8
	cmovaeq	%r10, %r11
	cmpq	%r9, %r8
	cmovbq	%r10, %r9
	subq	%r9, %r8
	movq	8(%rcx), %rax
	movq	16(%rcx), %r9
	leaq	(%r8,%r8,2), %r8
	movups	8(%r9,%r8,8), %xmm0
	movq	%r11, %r8
	xchgq	%r8, (%rax)
	movq	%r11, 32(%rcx)
	movups	%xmm0, (%rdx)
	xorl	%eax, %eax
.LBB102_8:
	movb	$1, 1(%rcx)
	popq	%rsi
	retq
.LBB102_2:
	xorl	%ecx, %ecx
	popq	%rsi
	jmp	tlsf_c.call_fault.CallFault.refusal
.LBB102_9:
	movb	$2, %cl
	popq	%rsi
	jmp	tlsf_c.call_fault.CallFault.refusal
	.seh_endproc
	.def	tlsf_take_all;
	.scl	2;
	.type	32;
	.endef
	.globl	tlsf_take_all
	.p2align	4
tlsf_take_all:
.seh_proc tlsf_take_all
	pushq	%r15
	.seh_pushreg %r15
	pushq	%r14
	.seh_pushreg %r14
	pushq	%r13
	.seh_pushreg %r13
	pushq	%r12
	.seh_pushreg %r12
	pushq	%rsi
	.seh_pushreg %rsi
	pushq	%rdi
	.seh_pushreg %rdi
	pushq	%rbx
	.seh_pushreg %rbx
	subq	$800, %rsp
	.seh_stackalloc 800
	.seh_endprologue
	movq	%rdx, %rdi
	xorl	%edx, %edx
	testq	%rdi, %rdi
	sete	%al
	cmpb	$0, 8(%rcx)
	je	.LBB103_21
	movq	(%rcx), %r12
	cmpb	$0, 1(%r12)
	je	.LBB103_21
	cmpb	$1, (%r12)
	jne	.LBB103_23
	movq	%r9, %rsi
	movb	%al, %dl
	shll	$12, %edx
	cmpq	$32, %r8
	movl	$32, %ebx
	cmovbq	%r8, %rbx
	movb	$0, 1(%r12)
	movq	24(%r12), %rcx
	movq	32(%r12), %rax
	movq	40(%r12), %r9
	leaq	(%rcx,%rcx), %r10
	xorl	%r11d, %r11d
	movq	%r9, %r14
	subq	%rax, %r14
	cmovbq	%r10, %r11
	leaq	(%r14,%r11), %r10
	cmpq	%rbx, %r10
	jae	.LBB103_5
	movq	8(%r12), %rax
	movq	128(%rax), %r9
	movq	%r9, 40(%r12)
	movq	24(%r12), %rcx
	movq	32(%r12), %rax
	leaq	(%rcx,%rcx), %r10
	xorl	%r11d, %r11d
	movq	%r9, %r14
	subq	%rax, %r14
	cmovbq	%r10, %r11
	leaq	(%r14,%r11), %r10
	cmpq	%rbx, %r10
	cmovbq	%r10, %rbx
.LBB103_5:
	addq	%rdx, %rdi
	leaq	8(%r12), %r14
	cmpq	$21, %rbx
	jb	.LBB103_8
	xorl	%r13d, %r13d
	leaq	32(%rsp), %r15
	movl	$768, %r8d
	movq	%r15, %rcx
	xorl	%edx, %edx
	callq	tlsf_memory_set
	movq	%r14, %rcx
	movq	%r15, %rdx
	movq	%rbx, %r8
	callq	tlsf_post.take_end.TakeEnd.take_slice
	leaq	40(%rsp), %rax
	movq	%rbx, %rcx
	shlq	$4, %rcx
	andq	$-32, %rcx
	.p2align	4
.LBB103_7:
	movups	(%rax), %xmm0
	movups	%xmm0, (%rdi,%r13)
	movups	24(%rax), %xmm0
	movups	%xmm0, 16(%rdi,%r13)
	addq	$48, %rax
	addq	$32, %r13
	cmpq	%r13, %rcx
	jne	.LBB103_7
	jmp	.LBB103_11
.LBB103_8:
	cmpq	$2, %rbx
	jb	.LBB103_17
	xorl	%r13d, %r13d
	leaq	32(%rsp), %r15
	movl	$480, %r8d
	movq	%r15, %rcx
	xorl	%edx, %edx
	callq	tlsf_memory_set
	movq	%r14, %rcx
	movq	%r15, %rdx
	movq	%rbx, %r8
	callq	tlsf_post.take_end.TakeEnd.take_slice
	leaq	40(%rsp), %rax
	movl	%ebx, %ecx
	andl	$30, %ecx
	shll	$4, %ecx
	.p2align	4
.LBB103_10:
	movups	(%rax), %xmm0
	movups	%xmm0, (%rdi,%r13)
	movups	24(%rax), %xmm0
	movups	%xmm0, 16(%rdi,%r13)
	addq	$48, %rax
	addq	$32, %r13
	cmpq	%r13, %rcx
	jne	.LBB103_10
.LBB103_11:
	testb	$1, %bl
	je	.LBB103_14
	movups	(%rax), %xmm0
	movups	%xmm0, (%rdi,%r13)
.LBB103_14:
	movb	$1, 1(%r12)
.LBB103_15:
	movq	%rbx, (%rsi)
	xorl	%eax, %eax
.LBB103_16:
	addq	$800, %rsp
	popq	%rbx
	popq	%rdi
	popq	%rsi
	popq	%r12
	popq	%r13
	popq	%r14
	popq	%r15
	retq
.LBB103_17:
	cmpq	$1, %rbx
	jne	.LBB103_22
	leaq	(%rcx,%rcx), %rdx
	negq	%rdx
	xorl	%r8d, %r8d
	subq	%rax, %r9
	cmovbq	%rdx, %r8
	cmpq	%r8, %r9
	jne	.LBB103_20
	movq	8(%r12), %rax
	movq	128(%rax), %rdx
	movq	%rdx, 40(%r12)
	movq	24(%r12), %rcx
	movq	32(%r12), %rax
	leaq	(%rcx,%rcx), %r8
	negq	%r8
	xorl	%r9d, %r9d
	subq	%rax, %rdx
	cmovbq	%r8, %r9
	cmpq	%r9, %rdx
	je	.LBB103_14
.LBB103_20:
	leaq	-1(,%rcx,2), %rdx
	leaq	1(%rax), %r8
	xorl	%r9d, %r9d
	cmpq	%rdx, %rax
	cmovaeq	%r9, %r8
	cmpq	%rcx, %rax
	cmovbq	%r9, %rcx
	subq	%rcx, %rax
	movq	8(%r12), %rcx
	movq	16(%r12), %rdx
	leaq	(%rax,%rax,2), %rax
	movups	8(%rdx,%rax,8), %xmm0
	movq	%r8, %rax
	xchgq	%rax, (%rcx)
	movq	%r8, 32(%r12)
	movups	%xmm0, (%rdi)
	jmp	.LBB103_14
.LBB103_21:
	xorl	%ecx, %ecx
	jmp	.LBB103_24
.LBB103_22:
	movb	$1, 1(%r12)
	movl	$35, %eax
	testq	%r8, %r8
	jne	.LBB103_16
	jmp	.LBB103_15
.LBB103_23:
	movb	$2, %cl
.LBB103_24:
	addq	$800, %rsp
	popq	%rbx
	popq	%rdi
	popq	%rsi
	popq	%r12
	popq	%r13
	popq	%r14
	popq	%r15
	jmp	tlsf_c.call_fault.CallFault.refusal
	.seh_endproc
	.def	tlsf_take_close;
	.scl	2;
	.type	32;
	.endef
	.globl	tlsf_take_close
	.p2align	4
tlsf_take_close:
.seh_proc tlsf_take_close
	pushq	%rsi
	.seh_pushreg %rsi
	subq	$128, %rsp
	.seh_stackalloc 128
	.seh_endprologue
	movl	$32, %eax
	cmpb	$0, 8(%rcx)
	je	.LBB104_4
	movq	(%rcx), %rdx
	cmpb	$1, 1(%rdx)
	jne	.LBB104_4
	movl	$40, %eax
	cmpb	$1, (%rdx)
	jne	.LBB104_4
	movb	$0, 1(%rdx)
	movq	(%rcx), %rax
	xorps	%xmm0, %xmm0
	movups	%xmm0, (%rcx)
	movzwl	(%rax), %esi
	movups	8(%rax), %xmm0
	movups	%xmm0, 40(%rsp)
	movups	24(%rax), %xmm0
	movups	%xmm0, 56(%rsp)
	movq	40(%rax), %rcx
	movq	%rcx, 72(%rsp)
	movq	%rax, %rcx
	callq	tlsf_memory_dealloc
	movq	$0, 80(%rsp)
	movw	%si, 80(%rsp)
	movups	40(%rsp), %xmm0
	movups	56(%rsp), %xmm1
	movups	%xmm0, 88(%rsp)
	movups	%xmm1, 104(%rsp)
	movq	72(%rsp), %rax
	movq	%rax, 120(%rsp)
	leaq	80(%rsp), %rcx
	callq	tlsf_c.tlsf_c.any_end.AnyEnd.Destruct.drop
	xorl	%eax, %eax
.LBB104_4:
	addq	$128, %rsp
	popq	%rsi
	retq
	.seh_endproc
	.def	tlsf_words;
	.scl	2;
	.type	32;
	.endef
	.globl	tlsf_words
	.p2align	4
tlsf_words:
.seh_proc tlsf_words
	pushq	%rsi
	.seh_pushreg %rsi
	pushq	%rdi
	.seh_pushreg %rdi
	pushq	%rbx
	.seh_pushreg %rbx
	.seh_endprologue
	movl	$4294967295, %r10d
	cmpq	%r10, %r8
	cmovbq	%r8, %r10
	movl	%ecx, %r11d
	andl	$-2, %r11d
	movl	$34, %eax
	cmpl	$4, %r11d
	jne	.LBB105_18
	testl	%edx, %edx
	je	.LBB105_6
	movl	$5, %eax
	cmpl	$4, %ecx
	jne	.LBB105_8
	cmpq	$8388584, %r8
	ja	.LBB105_18
	movl	%edx, %r11d
	cmpq	$9, %r8
	jae	.LBB105_11
	shlq	$2, %r11
	movq	%r11, %r10
	jmp	.LBB105_17
.LBB105_6:
	movl	$4, %ecx
.LBB105_7:
	movl	%ecx, (%r9)
	xorl	%eax, %eax
	popq	%rbx
	popq	%rdi
	popq	%rsi
	retq
.LBB105_8:
	cmpq	$134217704, %r8
	ja	.LBB105_18
	movl	%edx, %r11d
	cmpq	$9, %r8
	jae	.LBB105_13
	shlq	$2, %r11
	movq	%r11, %r10
	jmp	.LBB105_21
.LBB105_11:
	addl	$31, %r10d
	shrl	$3, %r10d
	leal	3(%r10), %edi
	movq	%rdi, %rbx
	imulq	%r11, %rbx
	movl	%r10d, %ecx
	orl	$16, %ecx
	bsrl	%ecx, %ecx
	addl	$-4, %ecx
	decl	%r10d
	shrl	%cl, %r10d
	leal	1(%r10), %esi
	movl	%esi, %edx
	shrl	$4, %edx
	xorl	%r8d, %r8d
	subq	%rdi, %rbx
	cmovaeq	%rbx, %r8
	incq	%r8
	addl	%ecx, %edx
	je	.LBB105_15
	andl	$15, %esi
	leal	-1(%rdx), %ecx
	shll	%cl, %esi
	movl	$8, %r10d
	movl	%edx, %ecx
	shll	%cl, %r10d
	addl	%esi, %r10d
	decl	%r10d
	jmp	.LBB105_16
.LBB105_13:
	addl	$31, %r10d
	shrl	$3, %r10d
	leal	3(%r10), %edi
	movq	%rdi, %rbx
	imulq	%r11, %rbx
	movl	%r10d, %ecx
	orl	$32, %ecx
	bsrl	%ecx, %ecx
	addl	$-5, %ecx
	decl	%r10d
	shrl	%cl, %r10d
	leal	1(%r10), %esi
	movl	%esi, %edx
	shrl	$5, %edx
	xorl	%r8d, %r8d
	subq	%rdi, %rbx
	cmovaeq	%rbx, %r8
	incq	%r8
	addl	%ecx, %edx
	je	.LBB105_19
	andl	$31, %esi
	leal	-1(%rdx), %ecx
	shll	%cl, %esi
	movl	$16, %r10d
	movl	%edx, %ecx
	shll	%cl, %r10d
	addl	%esi, %r10d
	decl	%r10d
	jmp	.LBB105_20
.LBB105_15:
	shll	$4, %ecx
	addl	%ecx, %r10d
.LBB105_16:
	imulq	%r11, %r10
	addq	%r8, %r10
.LBB105_17:
	cmpq	$5, %r10
	movl	$4, %ecx
	cmovaeq	%r10, %rcx
	cmpq	$1048576, %r10
	jbe	.LBB105_7
.LBB105_18:
	popq	%rbx
	popq	%rdi
	popq	%rsi
	retq
.LBB105_19:
	shll	$5, %ecx
	addl	%ecx, %r10d
.LBB105_20:
	imulq	%r11, %r10
	addq	%r8, %r10
.LBB105_21:
	cmpq	$5, %r10
	movl	$4, %ecx
	cmovaeq	%r10, %rcx
	cmpq	$16777217, %r10
	jb	.LBB105_7
	jmp	.LBB105_18
	.seh_endproc
	.def	tlsf_offsets_report;
	.scl	2;
	.type	32;
	.endef
	.globl	tlsf_offsets_report
	.p2align	4
tlsf_offsets_report:
.seh_proc tlsf_offsets_report
	pushq	%r14
	.seh_pushreg %r14
	pushq	%rsi
	.seh_pushreg %rsi
	pushq	%rdi
	.seh_pushreg %rdi
	pushq	%rbx
	.seh_pushreg %rbx
	.seh_endprologue
	cmpb	$0, 8(%rcx)
	je	.LBB106_2
	movq	(%rcx), %rax
	cmpb	$0, 1(%rax)
	je	.LBB106_2
	cmpb	$0, (%rax)
	jne	.LBB106_20
	movb	$0, 1(%rax)
	cmpb	$0, 8(%rax)
	movl	48(%rax), %r8d
	je	.LBB106_6
	testl	%r8d, %r8d
	je	.LBB106_7
	movq	40(%rax), %rsi
	xorl	%r10d, %r10d
	xorl	%edi, %edi
	xorl	%r11d, %r11d
	xorl	%r9d, %r9d
	xorl	%ecx, %ecx
	jmp	.LBB106_15
	.p2align	4
.LBB106_17:
	incl	%ecx
	addl	%ebx, %r9d
	addl	%ebx, %edi
	cmpl	%r8d, %edi
	jae	.LBB106_19
.LBB106_15:
	movl	%edi, %ebx
	movq	(%rsi,%rbx,8), %r14
	movl	%r14d, %ebx
	shrl	$2, %ebx
	testb	$1, %r14b
	je	.LBB106_17
	addl	%ebx, %r11d
	cmpl	%r10d, %ebx
	cmoval	%ebx, %r10d
	addl	%ebx, %edi
	cmpl	%r8d, %edi
	jb	.LBB106_15
	jmp	.LBB106_19
.LBB106_6:
	testl	%r8d, %r8d
	je	.LBB106_7
	movq	40(%rax), %rsi
	xorl	%r10d, %r10d
	xorl	%edi, %edi
	xorl	%r11d, %r11d
	xorl	%r9d, %r9d
	xorl	%ecx, %ecx
	jmp	.LBB106_9
	.p2align	4
.LBB106_11:
	incl	%ecx
	addl	%ebx, %r9d
	addl	%ebx, %edi
	cmpl	%r8d, %edi
	jae	.LBB106_19
.LBB106_9:
	movl	%edi, %ebx
	movq	(%rsi,%rbx,8), %r14
	movl	%r14d, %ebx
	shrl	$2, %ebx
	testb	$1, %r14b
	je	.LBB106_11
	addl	%ebx, %r11d
	cmpl	%r10d, %ebx
	cmoval	%ebx, %r10d
	addl	%ebx, %edi
	cmpl	%r8d, %edi
	jb	.LBB106_9
	jmp	.LBB106_19
.LBB106_7:
	xorl	%r9d, %r9d
	xorl	%r11d, %r11d
	xorl	%r10d, %r10d
	xorl	%ecx, %ecx
.LBB106_19:
	movl	%r10d, %r8d
	movl	%r11d, %r10d
	movl	%r9d, %r9d
	movl	2752(%rax), %r11d
	imulq	%r11, %r9
	imulq	%r11, %r10
	imulq	%r11, %r8
	movb	$1, 1(%rax)
	movl	%ecx, (%rdx)
	movl	$0, 4(%rdx)
	movq	%r9, 8(%rdx)
	movq	%r10, 16(%rdx)
	movq	%r8, 24(%rdx)
	xorl	%eax, %eax
	popq	%rbx
	popq	%rdi
	popq	%rsi
	popq	%r14
	retq
.LBB106_2:
	xorl	%ecx, %ecx
	jmp	.LBB106_3
.LBB106_20:
	movb	$2, %cl
.LBB106_3:
	popq	%rbx
	popq	%rdi
	popq	%rsi
	popq	%r14
	jmp	tlsf_c.call_fault.CallFault.refusal
	.seh_endproc
	.def	tlsf_write;
	.scl	2;
	.type	32;
	.endef
	.globl	tlsf_write
	.p2align	4
tlsf_write:
.seh_proc tlsf_write
	pushq	%rbx
	.seh_pushreg %rbx
	subq	$48, %rsp
	.seh_stackalloc 48
	.seh_endprologue
	movq	%r8, %r10
	movl	%ecx, %r8d
	xorl	%ecx, %ecx
	testq	%r10, %r10
	sete	%r11b
	movl	$32, %eax
	cmpb	$0, 8(%rdi)
	je	.LBB107_24
	movq	(%rdi), %rbx
	cmpb	$1, (%rbx)
	jne	.LBB107_24
	movq	%rdx, %rax
	movb	%r11b, %cl
	shll	$12, %ecx
	addq	%rcx, %r10
	movq	%rsi, %rdx
	shrq	$32, %rdx
	movb	$0, (%rbx)
	cmpb	$0, 16(%rbx)
	movl	24(%rbx), %edi
	je	.LBB107_3
	cmpl	%esi, %edi
	jne	.LBB107_18
	movl	%esi, %edi
	cmpl	56(%rbx), %edx
	jae	.LBB107_18
	movq	72(%rbx), %rcx
	movq	%rsi, %rdi
	shrq	$38, %rdi
	movq	(%rcx,%rdi,8), %rcx
	btq	%rdx, %rcx
	movl	%esi, %edi
	jae	.LBB107_18
	leaq	48(%rbx), %rcx
	movq	(%rcx), %r11
	testb	$1, (%r11,%rdx,8)
	movl	%esi, %edi
	jne	.LBB107_18
	movl	%esi, %edi
	cmpq	%rax, 8(%r11,%rdx,8)
	jne	.LBB107_18
	movl	16(%r11,%rdx,8), %esi
	movl	%r8d, %edi
	addq	%r9, %rdi
	movb	$4, %al
	cmpq	%rsi, %rdi
	ja	.LBB107_19
	movq	%r9, 32(%rsp)
	movq	%r10, %r9
	callq	tlsf_heap.region.Region.write.5
	jmp	.LBB107_10
.LBB107_3:
	cmpl	%esi, %edi
	jne	.LBB107_18
	movl	%esi, %edi
	cmpl	56(%rbx), %edx
	jae	.LBB107_18
	movq	72(%rbx), %rcx
	movq	%rsi, %rdi
	shrq	$38, %rdi
	movq	(%rcx,%rdi,8), %rcx
	btq	%rdx, %rcx
	movl	%esi, %edi
	jae	.LBB107_18
	leaq	48(%rbx), %rcx
	movq	(%rcx), %r11
	testb	$1, (%r11,%rdx,8)
	movl	%esi, %edi
	jne	.LBB107_18
	movl	%esi, %edi
	cmpq	%rax, 8(%r11,%rdx,8)
	jne	.LBB107_18
	movl	16(%r11,%rdx,8), %esi
	movl	%r8d, %edi
	addq	%r9, %rdi
	movb	$4, %al
	cmpq	%rsi, %rdi
	ja	.LBB107_19
	movq	%r9, 32(%rsp)
	movq	%r10, %r9
	callq	tlsf_heap.region.Region.write.4
.LBB107_10:
	xorl	%ecx, %ecx
	xorl	%eax, %eax
	testb	%cl, %cl
	jne	.LBB107_22
.LBB107_21:
	xorl	%eax, %eax
	jmp	.LBB107_23
.LBB107_18:
	movl	%esi, %ecx
	movl	%edi, %edx
	callq	tlsf_heap.refusal.Refusal.of_name
.LBB107_19:
	movb	$1, %cl
	testb	%cl, %cl
	je	.LBB107_21
.LBB107_22:
	movzbl	%al, %eax
	leaq	.Lswitch.table.tlsf_write(%rip), %rcx
	movl	(%rcx,%rax,4), %eax
.LBB107_23:
	movb	$1, (%rbx)
.LBB107_24:
	addq	$48, %rsp
	popq	%rbx
	retq
	.seh_endproc
	.def	tlsf_pools_write;
	.scl	2;
	.type	32;
	.endef
	.globl	tlsf_pools_write
	.p2align	4
tlsf_pools_write:
.seh_proc tlsf_pools_write
	pushq	%rbp
	.seh_pushreg %rbp
	pushq	%rbx
	.seh_pushreg %rbx
	subq	$40, %rsp
	.seh_stackalloc 40
	.seh_endprologue
	movq	%r8, %rax
	movl	%ecx, %r8d
	xorl	%ecx, %ecx
	testq	%rax, %rax
	sete	%r11b
	cmpb	$0, 8(%rdi)
	je	.LBB108_21
	movq	(%rdi), %rbx
	cmpb	$0, 1(%rbx)
	je	.LBB108_21
	cmpb	$1, (%rbx)
	jne	.LBB108_27
	movq	%rdx, %r10
	movq	%rsi, %rdx
	shrq	$32, %rdx
	movb	%r11b, %cl
	shll	$12, %ecx
	addq	%rcx, %rax
	movb	$0, 1(%rbx)
	movl	16(%rbx), %ecx
	xorl	%r11d, %r11d
	movl	%esi, %edi
	subl	%ecx, %edi
	cmovbl	%r11d, %edi
	setae	%bpl
	cmovbl	%r11d, %edi
	cmpq	%rdi, 32(%rbx)
	seta	%cl
	andb	%bpl, %cl
	cmpb	$0, 8(%rbx)
	je	.LBB108_12
	testb	%cl, %cl
	je	.LBB108_20
	movq	24(%rbx), %rcx
	imulq	$2792, %rdi, %r11
	movl	(%rcx,%r11), %edi
	cmpl	%esi, %edi
	jne	.LBB108_23
	addq	%r11, %rcx
	movl	%esi, %edi
	cmpl	32(%rcx), %edx
	jae	.LBB108_23
	movq	48(%rcx), %rdi
	movq	%rsi, %r11
	shrq	$38, %r11
	movq	(%rdi,%r11,8), %rdi
	btq	%rdx, %rdi
	movl	%esi, %edi
	jae	.LBB108_23
	addq	$24, %rcx
	movq	(%rcx), %r11
	testb	$1, (%r11,%rdx,8)
	movl	%esi, %edi
	jne	.LBB108_23
	movl	%esi, %edi
	cmpq	%r10, 8(%r11,%rdx,8)
	jne	.LBB108_23
	movl	16(%r11,%rdx,8), %esi
	movl	%r8d, %edi
	addq	%r9, %rdi
	cmpq	%rsi, %rdi
	ja	.LBB108_19
	movq	%r9, 32(%rsp)
	movq	%rax, %r9
	callq	tlsf_heap.region.Region.write.5
	jmp	.LBB108_25
.LBB108_12:
	testb	%cl, %cl
	je	.LBB108_20
	movq	24(%rbx), %rcx
	imulq	$2792, %rdi, %r11
	movl	(%rcx,%r11), %edi
	cmpl	%esi, %edi
	jne	.LBB108_23
	addq	%r11, %rcx
	movl	%esi, %edi
	cmpl	32(%rcx), %edx
	jae	.LBB108_23
	movq	48(%rcx), %rdi
	movq	%rsi, %r11
	shrq	$38, %r11
	movq	(%rdi,%r11,8), %rdi
	btq	%rdx, %rdi
	movl	%esi, %edi
	jae	.LBB108_23
	addq	$24, %rcx
	movq	(%rcx), %r11
	testb	$1, (%r11,%rdx,8)
	movl	%esi, %edi
	jne	.LBB108_23
	movl	%esi, %edi
	cmpq	%r10, 8(%r11,%rdx,8)
	jne	.LBB108_23
	movl	16(%r11,%rdx,8), %esi
	movl	%r8d, %edi
	addq	%r9, %rdi
	cmpq	%rsi, %rdi
	jbe	.LBB108_24
.LBB108_19:
	movb	$1, 1(%rbx)
	movl	$7, %eax
	addq	$40, %rsp
	popq	%rbx
	popq	%rbp
	retq
.LBB108_20:
	movb	$1, 1(%rbx)
	movl	$3, %eax
	addq	$40, %rsp
	popq	%rbx
	popq	%rbp
	retq
.LBB108_21:
	xorl	%ecx, %ecx
	jmp	.LBB108_22
.LBB108_23:
	movl	%esi, %ecx
	movl	%edi, %edx
	callq	tlsf_heap.refusal.Refusal.of_name
	movl	%eax, %ecx
	movb	$1, 1(%rbx)
	xorl	%eax, %eax
	cmpb	$3, %cl
	sete	%al
	addl	$3, %eax
	addq	$40, %rsp
	popq	%rbx
	popq	%rbp
	retq
.LBB108_24:
	movq	%r9, 32(%rsp)
	movq	%rax, %r9
	callq	tlsf_heap.region.Region.write.4
.LBB108_25:
	movb	$1, 1(%rbx)
	xorl	%eax, %eax
	addq	$40, %rsp
	popq	%rbx
	popq	%rbp
	retq
.LBB108_27:
	movb	$2, %cl
.LBB108_22:
	callq	tlsf_c.call_fault.CallFault.refusal
	nop
	addq	$40, %rsp
	popq	%rbx
	popq	%rbp
	retq
	.seh_endproc
	.section	.rdata,"dr"
.Lstatic.0:
	.zero	8
	.p2align	3, 0x0
.Lswitch.table.tlsf_allocate_aligned:
	.quad	8589934592
	.quad	12884901888
	.quad	17179869184
	.quad	30064771072
	.quad	42949672960
	.p2align	2, 0x0
.Lswitch.table.tlsf_queue_take:
	.long	32
	.long	36
	.long	40
	.long	5
	.long	6
	.long	33
	.long	34
	.long	8
	.long	35
	.long	37
	.long	38
	.p2align	2, 0x0
.Lswitch.table.tlsf_write:
	.long	1
	.long	2
	.long	3
	.long	4
	.long	7
/* The calls in C: c/pointers.c. */
	.def	tlsf_rounded;
	.scl	2;
	.type	32;
	.endef
	.text
	.globl	tlsf_rounded
	.p2align	4
tlsf_rounded:
	leaq	7(%rcx), %rdx
	andq	$-16, %rdx
	orq	$8, %rdx
	cmpq	$-15, %rcx
	movq	$-1, %rax
	cmovbq	%rdx, %rax
	retq
	.def	tlsf_place_of;
	.scl	2;
	.type	32;
	.endef
	.globl	tlsf_place_of
	.p2align	4
tlsf_place_of:
	subq	16(%rcx), %rdx
	leaq	-24(%rdx), %rax
	rolq	$61, %rax
	movl	$4294967295, %ecx
	cmpq	%rcx, %rax
	cmovaeq	%rcx, %rax
	retq
	.def	tlsf_near;
	.scl	2;
	.type	32;
	.endef
	.globl	tlsf_near
	.p2align	4
tlsf_near:
	movl	%ecx, %edx
	negl	%edx
	andl	$63, %edx
	leaq	(%rcx,%rdx), %rax
	prefetcht0	64(%rcx,%rdx)
	prefetcht0	128(%rcx,%rdx)
	retq
	.def	tlsf_base;
	.scl	2;
	.type	32;
	.endef
	.globl	tlsf_base
	.p2align	4
tlsf_base:
	cmpb	$1, 8(%rcx)
	jne	.Lp_BB3_1
	movq	16(%rcx), %rax
	retq
.Lp_BB3_1:
	xorl	%eax, %eax
	retq
	.def	tlsf_at;
	.scl	2;
	.type	32;
	.endef
	.globl	tlsf_at
	.p2align	4
tlsf_at:
	shrq	$32, %rsi
	testq	%rdi, %rdi
	leaq	24(%rdi,%rsi,8), %rax
	cmoveq	%rdi, %rax
	retq
	.def	tlsf_block_size;
	.scl	2;
	.type	32;
	.endef
	.globl	tlsf_block_size
	.p2align	4
tlsf_block_size:
	testq	%rcx, %rcx
	je	.Lp_BB5_1
	movq	-8(%rcx), %rax
	retq
.Lp_BB5_1:
	xorl	%eax, %eax
	retq
	.def	tlsf_aligned_alloc;
	.scl	2;
	.type	32;
	.endef
	.globl	tlsf_aligned_alloc
	.p2align	4
tlsf_aligned_alloc:
.seh_proc tlsf_aligned_alloc
	pushq	%rsi
	.seh_pushreg %rsi
	pushq	%rdi
	.seh_pushreg %rdi
	pushq	%rbx
	.seh_pushreg %rbx
	subq	$208, %rsp
	.seh_stackalloc 208
	movaps	%xmm15, 192(%rsp)
	.seh_savexmm %xmm15, 192
	movaps	%xmm14, 176(%rsp)
	.seh_savexmm %xmm14, 176
	movaps	%xmm13, 160(%rsp)
	.seh_savexmm %xmm13, 160
	movaps	%xmm12, 144(%rsp)
	.seh_savexmm %xmm12, 144
	movaps	%xmm11, 128(%rsp)
	.seh_savexmm %xmm11, 128
	movaps	%xmm10, 112(%rsp)
	.seh_savexmm %xmm10, 112
	movaps	%xmm9, 96(%rsp)
	.seh_savexmm %xmm9, 96
	movaps	%xmm8, 80(%rsp)
	.seh_savexmm %xmm8, 80
	movaps	%xmm7, 64(%rsp)
	.seh_savexmm %xmm7, 64
	movaps	%xmm6, 48(%rsp)
	.seh_savexmm %xmm6, 48
	.seh_endprologue
	movq	%rdx, %r9
	leaq	-1(%rdx), %rax
	xorq	%rax, %rdx
	cmpq	%rax, %rdx
	jbe	.Lp_BB6_6
	cmpq	$134217728, %r9
	ja	.Lp_BB6_10
	cmpq	$134217729, %r8
	jae	.Lp_BB6_10
	cmpb	$0, 28(%rcx)
	jne	.Lp_BB6_11
	addl	$7, %r8d
	andl	$536870896, %r8d
	orq	$8, %r8
	cmpq	$16, %r9
	ja	.Lp_BB6_7
	movq	%rcx, %rbx
	movq	%rcx, %rdi
	movq	%r8, %rsi
	callq	tlsf_allocate_place
	jmp	.Lp_BB6_8
.Lp_BB6_7:
	movq	%r9, %rdx
	shrq	$3, %rdx
	decl	%r9d
	andl	16(%rcx), %r9d
	shrl	$3, %r9d
	movq	%rcx, %rbx
	movq	%rcx, %rdi
	movq	%r8, %rsi
	movl	%r9d, %ecx
	callq	tlsf_allocate_aligned
.Lp_BB6_8:
	movq	%rax, 32(%rsp)
	shrq	$32, %rax
	testl	%eax, %eax
	je	.Lp_BB6_12
.Lp_BB6_6:
	xorl	%eax, %eax
.Lp_BB6_13:
	movaps	48(%rsp), %xmm6
	movaps	64(%rsp), %xmm7
	movaps	80(%rsp), %xmm8
	movaps	96(%rsp), %xmm9
	movaps	112(%rsp), %xmm10
	movaps	128(%rsp), %xmm11
	movaps	144(%rsp), %xmm12
	movaps	160(%rsp), %xmm13
	movaps	176(%rsp), %xmm14
	movaps	192(%rsp), %xmm15
	addq	$208, %rsp
	popq	%rbx
	popq	%rdi
	popq	%rsi
	retq
.Lp_BB6_10:
	callq	tlsf_too_long
	xorl	%eax, %eax
	jmp	.Lp_BB6_13
.Lp_BB6_11:
	leaq	32(%rsp), %rax
	movq	%rcx, %rdx
	movq	%rax, %rcx
	movq	%rdx, %rbx
	callq	tlsf_mixed_place
	movl	36(%rsp), %eax
	testl	%eax, %eax
	jne	.Lp_BB6_6
.Lp_BB6_12:
	movl	32(%rsp), %eax
	movq	16(%rbx), %rcx
	leaq	(%rcx,%rax,8), %rax
	addq	$24, %rax
	jmp	.Lp_BB6_13
	.seh_endproc
	.def	tlsf_malloc;
	.scl	2;
	.type	32;
	.endef
	.globl	tlsf_malloc
	.p2align	4
tlsf_malloc:
.seh_proc tlsf_malloc
	pushq	%rsi
	.seh_pushreg %rsi
	subq	$32, %rsp
	.seh_stackalloc 32
	.seh_endprologue
	cmpb	$0, 28(%rcx)
	jne	.Lp_BB7_5
	movq	%rcx, %rsi
	callq	tlsf_allocate_payload
	testq	%rax, %rax
	je	.Lp_BB7_2
	addq	16(%rsi), %rax
	jmp	.Lp_BB7_4
.Lp_BB7_2:
	xorl	%eax, %eax
.Lp_BB7_4:
	addq	$32, %rsp
	popq	%rsi
	retq
.Lp_BB7_5:
	addq	$32, %rsp
	popq	%rsi
	jmp	tlsf_malloc_mixed
	.seh_endproc
	.def	tlsf_malloc_mixed;
	.scl	3;
	.type	32;
	.endef
tlsf_malloc_mixed:
.seh_proc tlsf_malloc_mixed
	pushq	%rsi
	.seh_pushreg %rsi
	subq	$32, %rsp
	.seh_stackalloc 32
	.seh_endprologue
	testb	$-17, 29(%rcx)
	jne	.Lp_BB8_5
	movq	%rcx, %rsi
	callq	tlsf_allocate_payload
	testq	%rax, %rax
	je	.Lp_BB8_2
	addq	16(%rsi), %rax
	testb	$15, %al
	je	.Lp_BB8_4
	movq	%rsi, %rcx
	movq	%rax, %rdx
	addq	$32, %rsp
	popq	%rsi
	jmp	tlsf_malloc_again
.Lp_BB8_2:
	xorl	%eax, %eax
.Lp_BB8_4:
	addq	$32, %rsp
	popq	%rsi
	retq
.Lp_BB8_5:
	addq	$32, %rsp
	popq	%rsi
	jmp	tlsf_malloc_own
	.seh_endproc
	.def	tlsf_words_for;
	.scl	2;
	.type	32;
	.endef
	.globl	tlsf_words_for
	.p2align	4
tlsf_words_for:
	cmpq	$17, %r9
	movl	$16, %eax
	cmovaeq	%r9, %rax
	cmpq	$134217728, %rax
	movl	$134217728, %r10d
	cmovaeq	%r10, %rax
	cmpq	$134217728, %r8
	cmovbq	%r8, %r10
	movq	40(%rsp), %r9
	addl	$7, %r10d
	andl	$536870896, %r10d
	leaq	(%r10,%rax), %r8
	addq	$40, %r8
	jmp	tlsf_words
	.def	tlsf_calloc;
	.scl	2;
	.type	32;
	.endef
	.globl	tlsf_calloc
	.p2align	4
tlsf_calloc:
.seh_proc tlsf_calloc
	pushq	%rsi
	.seh_pushreg %rsi
	subq	$48, %rsp
	.seh_stackalloc 48
	.seh_endprologue
	movq	%rcx, %rsi
	xorps	%xmm0, %xmm0
	movaps	%xmm0, 32(%rsp)
	testq	%r8, %r8
	je	.Lp_BB10_3
	cmpq	$134217728, %r8
	ja	.Lp_BB10_6
	movl	$134217728, %eax
	movq	%rdx, %rcx
	xorl	%edx, %edx
	divl	%r8d
	movq	%rcx, %rdx
	cmpq	%rax, %rdx
	ja	.Lp_BB10_7
	jmp	.Lp_BB10_3
.Lp_BB10_6:
	xorl	%eax, %eax
	cmpq	%rax, %rdx
	ja	.Lp_BB10_7
.Lp_BB10_3:
	imulq	%rdx, %r8
	cmpb	$0, 28(%rsi)
	jne	.Lp_BB10_10
	leaq	7(%r8), %rax
	andq	$-16, %rax
	orq	$8, %rax
	cmpq	$-15, %r8
	movq	$-1, %rdx
	cmovbq	%rax, %rdx
	leaq	32(%rsp), %r8
	movq	%rsi, %rcx
	callq	tlsf_allocate
	testl	%eax, %eax
	je	.Lp_BB10_8
.Lp_BB10_7:
	xorl	%eax, %eax
	jmp	.Lp_BB10_9
.Lp_BB10_8:
	movl	36(%rsp), %eax
	movq	16(%rsi), %rcx
	leaq	(%rcx,%rax,8), %rax
	addq	$24, %rax
.Lp_BB10_9:
	addq	$48, %rsp
	popq	%rsi
	retq
.Lp_BB10_10:
	movq	%rsi, %rcx
	movq	%r8, %rsi
	movq	%r8, %rdx
	callq	tlsf_malloc_mixed
	testq	%rax, %rax
	je	.Lp_BB10_7
	movq	%rax, %rcx
	xorl	%edx, %edx
	movq	%rsi, %r8
	addq	$48, %rsp
	popq	%rsi
	jmp	memset
	.seh_endproc
	.def	tlsf_free;
	.scl	2;
	.type	32;
	.endef
	.globl	tlsf_free
	.p2align	4
tlsf_free:
	testq	%rdx, %rdx
	je	.Lp_BB11_1
	prefetcht0	-24(%rdx)
	subq	16(%rcx), %rdx
	addq	$-24, %rdx
	rolq	$61, %rdx
	movl	$4294967295, %eax
	cmpq	%rax, %rdx
	cmovaeq	%rax, %rdx
	jmp	tlsf_release_place
.Lp_BB11_1:
	xorl	%eax, %eax
	retq
	.def	tlsf_usable_size;
	.scl	2;
	.type	32;
	.endef
	.globl	tlsf_usable_size
	.p2align	4
tlsf_usable_size:
.seh_proc tlsf_usable_size
	subq	$72, %rsp
	.seh_stackalloc 72
	.seh_endprologue
	xorps	%xmm0, %xmm0
	movaps	%xmm0, 48(%rsp)
	movl	$0, 44(%rsp)
	subq	16(%rcx), %rdx
	addq	$-24, %rdx
	rolq	$61, %rdx
	movl	$4294967295, %eax
	cmpq	%rax, %rdx
	cmovaeq	%rax, %rdx
	leaq	48(%rsp), %r8
	leaq	44(%rsp), %r9
	callq	tlsf_place
	xorl	%ecx, %ecx
	testl	%eax, %eax
	cmovel	44(%rsp), %ecx
	movq	%rcx, %rax
	addq	$72, %rsp
	retq
	.seh_endproc
	.def	tlsf_name_at;
	.scl	2;
	.type	32;
	.endef
	.globl	tlsf_name_at
	.p2align	4
tlsf_name_at:
.seh_proc tlsf_name_at
	pushq	%rsi
	.seh_pushreg %rsi
	subq	$64, %rsp
	.seh_stackalloc 64
	.seh_endprologue
	xorps	%xmm0, %xmm0
	movaps	%xmm0, 48(%rsp)
	movl	$0, 44(%rsp)
	subq	16(%rcx), %rdx
	movq	%r8, %rsi
	addq	$-24, %rdx
	rolq	$61, %rdx
	movl	$4294967295, %eax
	cmpq	%rax, %rdx
	cmovaeq	%rax, %rdx
	leaq	48(%rsp), %r8
	leaq	44(%rsp), %r9
	callq	tlsf_place
	testl	%eax, %eax
	jne	.Lp_BB13_2
	movaps	48(%rsp), %xmm0
	movups	%xmm0, (%rsi)
.Lp_BB13_2:
	addq	$64, %rsp
	popq	%rsi
	retq
	.seh_endproc
	.def	tlsf_realloc;
	.scl	2;
	.type	32;
	.endef
	.globl	tlsf_realloc
	.p2align	4
tlsf_realloc:
.seh_proc tlsf_realloc
	pushq	%rsi
	.seh_pushreg %rsi
	subq	$48, %rsp
	.seh_stackalloc 48
	.seh_endprologue
	testq	%rdx, %rdx
	je	.Lp_BB14_4
	testq	%r8, %r8
	je	.Lp_BB14_7
	cmpq	$134217728, %r8
	ja	.Lp_BB14_11
	cmpb	$0, 28(%rcx)
	jne	.Lp_BB14_15
	subq	16(%rcx), %rdx
	addq	$-24, %rdx
	rolq	$61, %rdx
	movl	$4294967295, %eax
	cmpq	%rax, %rdx
	cmovaeq	%rax, %rdx
	addl	$7, %r8d
	andl	$536870896, %r8d
	orq	$8, %r8
	movl	%edx, 44(%rsp)
	leaq	44(%rsp), %r9
	movq	%rcx, %rsi
	callq	tlsf_resize_place
	testl	%eax, %eax
	jne	.Lp_BB14_11
	movq	16(%rsi), %rax
	movl	44(%rsp), %ecx
	leaq	(%rax,%rcx,8), %rax
	addq	$24, %rax
	jmp	.Lp_BB14_13
.Lp_BB14_4:
	cmpb	$0, 28(%rcx)
	jne	.Lp_BB14_14
	movq	%rcx, %rsi
	movq	%r8, %rdx
	callq	tlsf_allocate_payload
	testq	%rax, %rax
	je	.Lp_BB14_11
	addq	16(%rsi), %rax
	jmp	.Lp_BB14_13
.Lp_BB14_11:
	xorl	%eax, %eax
	jmp	.Lp_BB14_13
.Lp_BB14_7:
	prefetcht0	-24(%rdx)
	subq	16(%rcx), %rdx
	addq	$-24, %rdx
	rolq	$61, %rdx
	movl	$4294967295, %eax
	cmpq	%rax, %rdx
	cmovaeq	%rax, %rdx
	callq	tlsf_release_place
	xorl	%eax, %eax
.Lp_BB14_13:
	addq	$48, %rsp
	popq	%rsi
	retq
.Lp_BB14_14:
	movq	%r8, %rdx
	addq	$48, %rsp
	popq	%rsi
	jmp	tlsf_malloc_mixed
.Lp_BB14_15:
	addq	$48, %rsp
	popq	%rsi
	jmp	tlsf_realloc_mixed
	.seh_endproc
	.def	tlsf_realloc_mixed;
	.scl	3;
	.type	32;
	.endef
tlsf_realloc_mixed:
.seh_proc tlsf_realloc_mixed
	pushq	%r15
	.seh_pushreg %r15
	pushq	%r14
	.seh_pushreg %r14
	pushq	%r13
	.seh_pushreg %r13
	pushq	%r12
	.seh_pushreg %r12
	pushq	%rsi
	.seh_pushreg %rsi
	pushq	%rdi
	.seh_pushreg %rdi
	pushq	%rbx
	.seh_pushreg %rbx
	subq	$96, %rsp
	.seh_stackalloc 96
	.seh_endprologue
	movq	%r8, %rbx
	movq	%rdx, %rdi
	movq	%rcx, %rsi
	xorps	%xmm0, %xmm0
	movaps	%xmm0, 64(%rsp)
	movq	$0, 80(%rsp)
	movq	%rdx, %r14
	subq	16(%rcx), %r14
	addq	$-24, %r14
	rolq	$61, %r14
	movl	$4294967295, %eax
	cmpq	%rax, %r14
	cmovaeq	%rax, %r14
	movzbl	29(%rcx), %eax
	testb	$-17, %al
	je	.Lp_BB15_1
	leaq	(%rbx,%rax), %rcx
	addq	$23, %rcx
	movq	%rax, %r15
	negq	%r15
	andq	%rcx, %r15
	addq	$-24, %r15
	jmp	.Lp_BB15_3
.Lp_BB15_1:
	leal	7(%rbx), %r15d
	andl	$536870896, %r15d
	orq	$8, %r15
.Lp_BB15_3:
	cmpl	$8, %eax
	jne	.Lp_BB15_7
.Lp_BB15_4:
	leaq	32(%rsp), %r9
	movl	%r14d, (%r9)
	movq	%rsi, %rcx
	movl	%r14d, %edx
	movq	%r15, %r8
.Lp_BB15_5:
	callq	tlsf_resize_place
	testl	%eax, %eax
	je	.Lp_BB15_13
.Lp_BB15_6:
	xorl	%r14d, %r14d
	jmp	.Lp_BB15_16
.Lp_BB15_7:
	leaq	64(%rsp), %r8
	movq	%rsi, %rcx
	movl	%r14d, %edx
	callq	tlsf_block_at
	testl	%eax, %eax
	jne	.Lp_BB15_4
	cmpl	$0, 72(%rsp)
	je	.Lp_BB15_4
	movl	68(%rsp), %eax
	leal	-24(,%rax,8), %ecx
	cmpq	%rcx, %r15
	movq	%rcx, %r12
	cmovbq	%r15, %r12
	cmpq	%rcx, %rbx
	cmovaq	%r15, %r12
	movq	%r12, %r13
	shrq	$3, %r13
	addq	$3, %r13
	xorps	%xmm0, %xmm0
	movaps	%xmm0, 32(%rsp)
	movq	$0, 48(%rsp)
	cmpq	%rax, %r13
	jbe	.Lp_BB15_12
	movl	64(%rsp), %edx
	addl	%eax, %edx
	leaq	32(%rsp), %r15
	movq	%rsi, %rcx
	movq	%r15, %r8
	callq	tlsf_block_at
	orl	8(%r15), %eax
	jne	.Lp_BB15_14
	movl	36(%rsp), %eax
	addl	68(%rsp), %eax
	cmpq	%rax, %r13
	jbe	.Lp_BB15_12
.Lp_BB15_14:
	movq	%rsi, %rcx
	movq	%rbx, %rdx
	callq	tlsf_malloc
	testq	%rax, %rax
	je	.Lp_BB15_6
	movq	%rax, %r14
	movl	76(%rsp), %r8d
	cmpq	%r8, %rbx
	cmovbq	%rbx, %r8
	movq	%rax, %rcx
	movq	%rdi, %rdx
	callq	memcpy
	movl	64(%rsp), %edx
	movq	%rsi, %rcx
	callq	tlsf_release_place
	jmp	.Lp_BB15_16
.Lp_BB15_13:
	movq	16(%rsi), %rax
	movl	32(%rsp), %ecx
	leaq	(%rax,%rcx,8), %r14
	addq	$24, %r14
.Lp_BB15_16:
	movq	%r14, %rax
	addq	$96, %rsp
	popq	%rbx
	popq	%rdi
	popq	%rsi
	popq	%r12
	popq	%r13
	popq	%r14
	popq	%r15
	retq
.Lp_BB15_12:
	leaq	32(%rsp), %r9
	movl	%r14d, (%r9)
	movq	%rsi, %rcx
	movl	%r14d, %edx
	movq	%r12, %r8
	jmp	.Lp_BB15_5
	.seh_endproc
	.def	tlsf_aligned_realloc;
	.scl	2;
	.type	32;
	.endef
	.globl	tlsf_aligned_realloc
	.p2align	4
tlsf_aligned_realloc:
.seh_proc tlsf_aligned_realloc
	pushq	%r15
	.seh_pushreg %r15
	pushq	%r14
	.seh_pushreg %r14
	pushq	%r13
	.seh_pushreg %r13
	pushq	%r12
	.seh_pushreg %r12
	pushq	%rsi
	.seh_pushreg %rsi
	pushq	%rdi
	.seh_pushreg %rdi
	pushq	%rbp
	.seh_pushreg %rbp
	pushq	%rbx
	.seh_pushreg %rbx
	subq	$88, %rsp
	.seh_stackalloc 88
	.seh_endprologue
	testq	%rdx, %rdx
	je	.Lp_BB16_25
	testq	%r8, %r8
	je	.Lp_BB16_3
	leaq	-1(%r8), %r13
	testq	%r13, %r8
	je	.Lp_BB16_5
.Lp_BB16_3:
	xorl	%eax, %eax
.Lp_BB16_4:
	addq	$88, %rsp
	popq	%rbx
	popq	%rbp
	popq	%rdi
	popq	%rsi
	popq	%r12
	popq	%r13
	popq	%r14
	popq	%r15
	retq
.Lp_BB16_25:
	movq	%r8, %rdx
	movq	%r9, %r8
	addq	$88, %rsp
	popq	%rbx
	popq	%rbp
	popq	%rdi
	popq	%rsi
	popq	%r12
	popq	%r13
	popq	%r14
	popq	%r15
	jmp	tlsf_aligned_alloc
.Lp_BB16_5:
	testq	%r9, %r9
	je	.Lp_BB16_26
	cmpq	$134217728, %r9
	ja	.Lp_BB16_3
	movzbl	29(%rcx), %r14d
	testq	%r14, %r14
	movl	$16, %eax
	cmovnel	%r14d, %eax
	andq	%rdx, %r13
	jne	.Lp_BB16_9
	cmpq	%rax, %r8
	ja	.Lp_BB16_9
	movq	%r9, %r8
	addq	$88, %rsp
	popq	%rbx
	popq	%rbp
	popq	%rdi
	popq	%rsi
	popq	%r12
	popq	%r13
	popq	%r14
	popq	%r15
	jmp	tlsf_realloc
.Lp_BB16_26:
	prefetcht0	-24(%rdx)
	subq	16(%rcx), %rdx
	addq	$-24, %rdx
	rolq	$61, %rdx
	movl	$4294967295, %eax
	cmpq	%rax, %rdx
	cmovaeq	%rax, %rdx
	callq	tlsf_release_place
	jmp	.Lp_BB16_3
.Lp_BB16_9:
	xorps	%xmm0, %xmm0
	movaps	%xmm0, 64(%rsp)
	movq	$0, 80(%rsp)
	movq	%rdx, %rdi
	subq	16(%rcx), %rdi
	addq	$-24, %rdi
	rolq	$61, %rdi
	movl	$4294967295, %eax
	cmpq	%rax, %rdi
	cmovaeq	%rax, %rdi
	testb	$-17, %r14b
	movq	%r9, %r12
	movq	%r8, %rbp
	movq	%rdx, %rbx
	je	.Lp_BB16_11
	leaq	(%r9,%r14), %rax
	addq	$23, %rax
	negq	%r14
	andq	%rax, %r14
	addq	$-24, %r14
	jmp	.Lp_BB16_12
.Lp_BB16_11:
	leal	7(%r9), %r14d
	andl	$536870896, %r14d
	orq	$8, %r14
.Lp_BB16_12:
	leaq	64(%rsp), %r8
	movq	%rcx, %rsi
	movl	%edi, %edx
	callq	tlsf_block_at
	testl	%eax, %eax
	jne	.Lp_BB16_17
	cmpl	$0, 72(%rsp)
	je	.Lp_BB16_17
	movl	68(%rsp), %edx
	leal	-24(,%rdx,8), %eax
	cmpq	%rax, %r14
	movq	%rax, %r15
	cmovbq	%r14, %r15
	movq	%r12, %r8
	cmpq	%rax, %r12
	cmovaq	%r14, %r15
	testq	%r13, %r13
	movq	%rsi, %rcx
	movq	%rbp, %rax
	je	.Lp_BB16_18
.Lp_BB16_15:
	movq	%rax, %rdx
	callq	tlsf_aligned_alloc
	testq	%rax, %rax
	je	.Lp_BB16_3
	movl	76(%rsp), %r8d
	cmpq	%r8, %r12
	cmovbq	%r12, %r8
	movq	%rax, %rcx
	movq	%rbx, %rdx
	movq	%rax, %rdi
	callq	memcpy
	movl	64(%rsp), %edx
	movq	%rsi, %rcx
	callq	tlsf_release_place
	movq	%rdi, %rax
	jmp	.Lp_BB16_4
.Lp_BB16_17:
	movl	%edi, 32(%rsp)
	leaq	32(%rsp), %r9
	movq	%rsi, %rcx
	movl	%edi, %edx
	movq	%r14, %r8
.Lp_BB16_22:
	callq	tlsf_resize_place
	testl	%eax, %eax
	jne	.Lp_BB16_3
	movq	16(%rsi), %rax
	movl	32(%rsp), %ecx
	leaq	(%rax,%rcx,8), %rax
	addq	$24, %rax
	jmp	.Lp_BB16_4
.Lp_BB16_18:
	movq	%r15, %r14
	shrq	$3, %r14
	addq	$3, %r14
	xorps	%xmm0, %xmm0
	movaps	%xmm0, 32(%rsp)
	movq	$0, 48(%rsp)
	cmpq	%rdx, %r14
	jbe	.Lp_BB16_21
	addl	64(%rsp), %edx
	leaq	32(%rsp), %r8
	callq	tlsf_block_at
	orl	40(%rsp), %eax
	jne	.Lp_BB16_24
	movl	36(%rsp), %eax
	addl	68(%rsp), %eax
	cmpq	%rax, %r14
	movq	%rsi, %rcx
	movq	%r12, %r8
	movq	%rbp, %rax
	ja	.Lp_BB16_15
.Lp_BB16_21:
	movl	%edi, 32(%rsp)
	leaq	32(%rsp), %r9
	movl	%edi, %edx
	movq	%r15, %r8
	jmp	.Lp_BB16_22
.Lp_BB16_24:
	movq	%rsi, %rcx
	movq	%r12, %r8
	movq	%rbp, %rax
	jmp	.Lp_BB16_15
	.seh_endproc
	.def	tlsf_allocate_at;
	.scl	2;
	.type	32;
	.endef
	.globl	tlsf_allocate_at
	.p2align	4
tlsf_allocate_at:
.seh_proc tlsf_allocate_at
	pushq	%r15
	.seh_pushreg %r15
	pushq	%r14
	.seh_pushreg %r14
	pushq	%r13
	.seh_pushreg %r13
	pushq	%r12
	.seh_pushreg %r12
	pushq	%rsi
	.seh_pushreg %rsi
	pushq	%rdi
	.seh_pushreg %rdi
	pushq	%rbp
	.seh_pushreg %rbp
	pushq	%rbx
	.seh_pushreg %rbx
	subq	$216, %rsp
	.seh_stackalloc 216
	movaps	%xmm15, 192(%rsp)
	.seh_savexmm %xmm15, 192
	movaps	%xmm14, 176(%rsp)
	.seh_savexmm %xmm14, 176
	movaps	%xmm13, 160(%rsp)
	.seh_savexmm %xmm13, 160
	movaps	%xmm12, 144(%rsp)
	.seh_savexmm %xmm12, 144
	movaps	%xmm11, 128(%rsp)
	.seh_savexmm %xmm11, 128
	movaps	%xmm10, 112(%rsp)
	.seh_savexmm %xmm10, 112
	movaps	%xmm9, 96(%rsp)
	.seh_savexmm %xmm9, 96
	movaps	%xmm8, 80(%rsp)
	.seh_savexmm %xmm8, 80
	movaps	%xmm7, 64(%rsp)
	.seh_savexmm %xmm7, 64
	movaps	%xmm6, 48(%rsp)
	.seh_savexmm %xmm6, 48
	.seh_endprologue
	movq	%rdx, %r14
	movq	%rcx, %rbx
	leaq	-1(%r8), %rax
	movq	%r8, %rdx
	xorq	%rax, %rdx
	movl	$5, %ecx
	cmpq	%rax, %rdx
	jbe	.Lp_BB17_17
	cmpq	$134217728, %r14
	ja	.Lp_BB17_18
	movl	%r9d, %ebp
	movq	%r8, %r9
	cmpq	$134217729, %r8
	jae	.Lp_BB17_18
	movq	328(%rsp), %r15
	movq	320(%rsp), %r12
	cmpb	$0, 28(%rbx)
	jne	.Lp_BB17_4
	leal	7(%r14), %esi
	andl	$536870896, %esi
	orq	$8, %rsi
	cmpq	$16, %r9
	ja	.Lp_BB17_7
	movq	%rbx, %rdi
	callq	tlsf_allocate_place
	jmp	.Lp_BB17_8
.Lp_BB17_7:
	movq	%r9, %rdx
	shrq	$3, %rdx
	decl	%r9d
	andl	16(%rbx), %r9d
	shrl	$3, %r9d
	movq	%rbx, %rdi
	movl	%r9d, %ecx
	callq	tlsf_allocate_aligned
.Lp_BB17_8:
	movq	%rax, %rcx
	shrq	$32, %rcx
	testl	%ecx, %ecx
	jne	.Lp_BB17_17
.Lp_BB17_10:
	movl	24(%rbx), %esi
	testb	$1, %bpl
	jne	.Lp_BB17_11
	movq	16(%rbx), %rcx
	movl	%eax, %edi
	leaq	(%rcx,%rdi,8), %rcx
	addq	$24, %rcx
	movzbl	29(%rbx), %r8d
	movq	%rdx, %r13
	movq	%rax, %rbp
	testb	$-17, %r8b
	je	.Lp_BB17_13
	cmpq	$1, %r14
	adcq	%r8, %r14
	addq	$23, %r14
	negq	%r8
	andq	%r14, %r8
	addq	$-24, %r8
	movq	%r8, %r14
	jmp	.Lp_BB17_15
.Lp_BB17_11:
	movl	%eax, %edi
	jmp	.Lp_BB17_16
.Lp_BB17_13:
	addl	$7, %r14d
	andl	$536870896, %r14d
	orq	$8, %r14
.Lp_BB17_15:
	xorl	%edx, %edx
	movq	%r14, %r8
	callq	memset
	movq	%rbp, %rax
	movq	%r13, %rdx
.Lp_BB17_16:
	movl	%esi, (%r12)
	movl	%eax, 4(%r12)
	movq	%rdx, 8(%r12)
	movq	16(%rbx), %rax
	leaq	(%rax,%rdi,8), %rax
	addq	$24, %rax
	movq	%rax, (%r15)
	xorl	%ecx, %ecx
.Lp_BB17_17:
	movl	%ecx, %eax
	movaps	48(%rsp), %xmm6
	movaps	64(%rsp), %xmm7
	movaps	80(%rsp), %xmm8
	movaps	96(%rsp), %xmm9
	movaps	112(%rsp), %xmm10
	movaps	128(%rsp), %xmm11
	movaps	144(%rsp), %xmm12
	movaps	160(%rsp), %xmm13
	movaps	176(%rsp), %xmm14
	movaps	192(%rsp), %xmm15
	addq	$216, %rsp
	popq	%rbx
	popq	%rbp
	popq	%rdi
	popq	%rsi
	popq	%r12
	popq	%r13
	popq	%r14
	popq	%r15
	retq
.Lp_BB17_18:
	movq	%rbx, %rcx
	movaps	48(%rsp), %xmm6
	movaps	64(%rsp), %xmm7
	movaps	80(%rsp), %xmm8
	movaps	96(%rsp), %xmm9
	movaps	112(%rsp), %xmm10
	movaps	128(%rsp), %xmm11
	movaps	144(%rsp), %xmm12
	movaps	160(%rsp), %xmm13
	movaps	176(%rsp), %xmm14
	movaps	192(%rsp), %xmm15
	addq	$216, %rsp
	popq	%rbx
	popq	%rbp
	popq	%rdi
	popq	%rsi
	popq	%r12
	popq	%r13
	popq	%r14
	popq	%r15
	jmp	tlsf_too_long
.Lp_BB17_4:
	leaq	32(%rsp), %rcx
	movq	%rbx, %rdx
	movq	%r14, %r8
	callq	tlsf_mixed_place
	movl	32(%rsp), %eax
	movl	36(%rsp), %ecx
	movq	40(%rsp), %rdx
	testl	%ecx, %ecx
	jne	.Lp_BB17_17
	jmp	.Lp_BB17_10
	.seh_endproc
	.def	tlsf_payload;
	.scl	2;
	.type	32;
	.endef
	.globl	tlsf_payload
	.p2align	4
tlsf_payload:
.seh_proc tlsf_payload
	pushq	%r14
	.seh_pushreg %r14
	pushq	%rbx
	.seh_pushreg %rbx
	subq	$24, %rsp
	.seh_stackalloc 24
	.seh_endprologue
	movq	%rcx, %r14
	movq	%rsi, %rbx
	movq	$0, 16(%rsp)
	movl	$0, 12(%rsp)
	leaq	16(%rsp), %rcx
	leaq	12(%rsp), %r8
	callq	tlsf_locate
	testl	%eax, %eax
	je	.Lp_BB18_2
	xorl	%eax, %eax
	jmp	.Lp_BB18_5
.Lp_BB18_2:
	shrq	$32, %rbx
	testq	%r14, %r14
	je	.Lp_BB18_4
	movl	12(%rsp), %eax
	movl	%eax, (%r14)
.Lp_BB18_4:
	movq	16(%rsp), %rax
	leaq	(%rax,%rbx,8), %rax
	addq	$24, %rax
.Lp_BB18_5:
	addq	$24, %rsp
	popq	%rbx
	popq	%r14
	retq
	.seh_endproc
	.def	tlsf_pools_name_at;
	.scl	2;
	.type	32;
	.endef
	.globl	tlsf_pools_name_at
	.p2align	4
tlsf_pools_name_at:
.seh_proc tlsf_pools_name_at
	pushq	%r15
	.seh_pushreg %r15
	pushq	%r14
	.seh_pushreg %r14
	pushq	%r13
	.seh_pushreg %r13
	pushq	%r12
	.seh_pushreg %r12
	pushq	%rsi
	.seh_pushreg %rsi
	pushq	%rdi
	.seh_pushreg %rdi
	pushq	%rbp
	.seh_pushreg %rbp
	pushq	%rbx
	.seh_pushreg %rbx
	subq	$72, %rsp
	.seh_stackalloc 72
	.seh_endprologue
	movq	%r8, %rsi
	movq	%rdx, %rdi
	movq	%rcx, %rbx
	movl	$0, 68(%rsp)
	movl	$0, 52(%rsp)
	movq	$0, 56(%rsp)
	xorl	%r14d, %r14d
	leaq	56(%rsp), %r8
	leaq	52(%rsp), %r9
	xorl	%edx, %edx
	callq	tlsf_pools_part
	xorl	%r13d, %r13d
	testl	%eax, %eax
	je	.Lp_BB19_1
.Lp_BB19_6:
	subq	%r13, %rdi
	addq	$-24, %rdi
	rolq	$61, %rdi
	movl	$4294967295, %eax
	cmpq	%rax, %rdi
	cmovaeq	%rax, %rdi
	leaq	68(%rsp), %rax
	movq	%rax, 32(%rsp)
	movq	%rbx, %rcx
	movl	%r14d, %edx
	movl	%edi, %r8d
	movq	%rsi, %r9
	callq	tlsf_pools_place
	nop
	addq	$72, %rsp
	popq	%rbx
	popq	%rbp
	popq	%rdi
	popq	%rsi
	popq	%r12
	popq	%r13
	popq	%r14
	popq	%r15
	retq
.Lp_BB19_1:
	leaq	56(%rsp), %r15
	leaq	52(%rsp), %r12
	xorl	%r14d, %r14d
	xorl	%ebp, %ebp
	jmp	.Lp_BB19_2
	.p2align	4
.Lp_BB19_4:
	movq	%rax, %r13
	movl	%ebp, %r14d
.Lp_BB19_5:
	incl	%ebp
	movq	%rbx, %rcx
	movl	%ebp, %edx
	movq	%r15, %r8
	movq	%r12, %r9
	callq	tlsf_pools_part
	testl	%eax, %eax
	jne	.Lp_BB19_6
.Lp_BB19_2:
	movq	56(%rsp), %rax
	testl	%ebp, %ebp
	je	.Lp_BB19_4
	movq	%rdi, %rcx
	subq	%rax, %rcx
	movq	%rdi, %rdx
	subq	%r13, %rdx
	cmpq	%rdx, %rcx
	jbe	.Lp_BB19_4
	jmp	.Lp_BB19_5
	.seh_endproc
	.def	tlsf_pools_usable_size;
	.scl	2;
	.type	32;
	.endef
	.globl	tlsf_pools_usable_size
	.p2align	4
tlsf_pools_usable_size:
.seh_proc tlsf_pools_usable_size
	pushq	%r15
	.seh_pushreg %r15
	pushq	%r14
	.seh_pushreg %r14
	pushq	%r13
	.seh_pushreg %r13
	pushq	%r12
	.seh_pushreg %r12
	pushq	%rsi
	.seh_pushreg %rsi
	pushq	%rdi
	.seh_pushreg %rdi
	pushq	%rbp
	.seh_pushreg %rbp
	pushq	%rbx
	.seh_pushreg %rbx
	subq	$88, %rsp
	.seh_stackalloc 88
	.seh_endprologue
	movq	%rdx, %rdi
	movq	%rcx, %rbx
	xorps	%xmm0, %xmm0
	movaps	%xmm0, 64(%rsp)
	movl	$0, 48(%rsp)
	movl	$0, 52(%rsp)
	movq	$0, 56(%rsp)
	xorl	%esi, %esi
	leaq	56(%rsp), %r8
	leaq	52(%rsp), %r9
	xorl	%edx, %edx
	callq	tlsf_pools_part
	xorl	%r13d, %r13d
	testl	%eax, %eax
	je	.Lp_BB20_2
	xorl	%ebp, %ebp
.Lp_BB20_7:
	subq	%r13, %rdi
	addq	$-24, %rdi
	rolq	$61, %rdi
	movl	$4294967295, %eax
	cmpq	%rax, %rdi
	cmovaeq	%rax, %rdi
	leaq	48(%rsp), %rax
	movq	%rax, 32(%rsp)
	leaq	64(%rsp), %r9
	movq	%rbx, %rcx
	movl	%ebp, %edx
	movl	%edi, %r8d
	callq	tlsf_pools_place
	testl	%eax, %eax
	cmovel	48(%rsp), %esi
	movq	%rsi, %rax
	addq	$88, %rsp
	popq	%rbx
	popq	%rbp
	popq	%rdi
	popq	%rsi
	popq	%r12
	popq	%r13
	popq	%r14
	popq	%r15
	retq
.Lp_BB20_2:
	leaq	56(%rsp), %r14
	leaq	52(%rsp), %r15
	xorl	%ebp, %ebp
	xorl	%r12d, %r12d
	jmp	.Lp_BB20_3
	.p2align	4
.Lp_BB20_5:
	movq	%rax, %r13
	movl	%r12d, %ebp
.Lp_BB20_6:
	incl	%r12d
	movq	%rbx, %rcx
	movl	%r12d, %edx
	movq	%r14, %r8
	movq	%r15, %r9
	callq	tlsf_pools_part
	testl	%eax, %eax
	jne	.Lp_BB20_7
.Lp_BB20_3:
	movq	56(%rsp), %rax
	testl	%r12d, %r12d
	je	.Lp_BB20_5
	movq	%rdi, %rcx
	subq	%rax, %rcx
	movq	%rdi, %rdx
	subq	%r13, %rdx
	cmpq	%rdx, %rcx
	jbe	.Lp_BB20_5
	jmp	.Lp_BB20_6
	.seh_endproc
	.def	tlsf_pools_free;
	.scl	2;
	.type	32;
	.endef
	.globl	tlsf_pools_free
	.p2align	4
tlsf_pools_free:
.seh_proc tlsf_pools_free
	pushq	%r15
	.seh_pushreg %r15
	pushq	%r14
	.seh_pushreg %r14
	pushq	%r12
	.seh_pushreg %r12
	pushq	%rsi
	.seh_pushreg %rsi
	pushq	%rdi
	.seh_pushreg %rdi
	pushq	%rbp
	.seh_pushreg %rbp
	pushq	%rbx
	.seh_pushreg %rbx
	subq	$240, %rsp
	.seh_stackalloc 240
	movaps	%xmm15, 224(%rsp)
	.seh_savexmm %xmm15, 224
	movaps	%xmm14, 208(%rsp)
	.seh_savexmm %xmm14, 208
	movaps	%xmm13, 192(%rsp)
	.seh_savexmm %xmm13, 192
	movaps	%xmm12, 176(%rsp)
	.seh_savexmm %xmm12, 176
	movaps	%xmm11, 160(%rsp)
	.seh_savexmm %xmm11, 160
	movaps	%xmm10, 144(%rsp)
	.seh_savexmm %xmm10, 144
	movaps	%xmm9, 128(%rsp)
	.seh_savexmm %xmm9, 128
	movaps	%xmm8, 112(%rsp)
	.seh_savexmm %xmm8, 112
	movaps	%xmm7, 96(%rsp)
	.seh_savexmm %xmm7, 96
	movaps	%xmm6, 80(%rsp)
	.seh_savexmm %xmm6, 80
	.seh_endprologue
	xorps	%xmm0, %xmm0
	movaps	%xmm0, 64(%rsp)
	testq	%rdx, %rdx
	je	.Lp_BB21_1
	movq	%rdx, %rsi
	movq	%rcx, %rdi
	movl	$0, 60(%rsp)
	movl	$0, 44(%rsp)
	movq	$0, 48(%rsp)
	xorl	%ebx, %ebx
	leaq	48(%rsp), %r8
	leaq	44(%rsp), %r9
	xorl	%edx, %edx
	callq	tlsf_pools_part
	xorl	%r12d, %r12d
	testl	%eax, %eax
	je	.Lp_BB21_3
.Lp_BB21_8:
	subq	%r12, %rsi
	addq	$-24, %rsi
	rolq	$61, %rsi
	movl	$4294967295, %eax
	cmpq	%rax, %rsi
	cmovaeq	%rax, %rsi
	leaq	60(%rsp), %rax
	movq	%rax, 32(%rsp)
	leaq	64(%rsp), %r9
	movq	%rdi, %rcx
	movl	%ebx, %edx
	movl	%esi, %r8d
	callq	tlsf_pools_place
	testl	%eax, %eax
	jne	.Lp_BB21_10
	movq	64(%rsp), %rsi
	movq	72(%rsp), %rdx
	callq	tlsf_pools_release
	jmp	.Lp_BB21_10
.Lp_BB21_1:
	xorl	%eax, %eax
.Lp_BB21_10:
	movaps	80(%rsp), %xmm6
	movaps	96(%rsp), %xmm7
	movaps	112(%rsp), %xmm8
	movaps	128(%rsp), %xmm9
	movaps	144(%rsp), %xmm10
	movaps	160(%rsp), %xmm11
	movaps	176(%rsp), %xmm12
	movaps	192(%rsp), %xmm13
	movaps	208(%rsp), %xmm14
	movaps	224(%rsp), %xmm15
	addq	$240, %rsp
	popq	%rbx
	popq	%rbp
	popq	%rdi
	popq	%rsi
	popq	%r12
	popq	%r14
	popq	%r15
	retq
.Lp_BB21_3:
	leaq	48(%rsp), %r14
	leaq	44(%rsp), %r15
	xorl	%ebx, %ebx
	xorl	%ebp, %ebp
	jmp	.Lp_BB21_4
	.p2align	4
.Lp_BB21_6:
	movq	%rax, %r12
	movl	%ebp, %ebx
.Lp_BB21_7:
	incl	%ebp
	movq	%rdi, %rcx
	movl	%ebp, %edx
	movq	%r14, %r8
	movq	%r15, %r9
	callq	tlsf_pools_part
	testl	%eax, %eax
	jne	.Lp_BB21_8
.Lp_BB21_4:
	movq	48(%rsp), %rax
	testl	%ebp, %ebp
	je	.Lp_BB21_6
	movq	%rsi, %rcx
	subq	%rax, %rcx
	movq	%rsi, %rdx
	subq	%r12, %rdx
	cmpq	%rdx, %rcx
	jbe	.Lp_BB21_6
	jmp	.Lp_BB21_7
	.seh_endproc
	.def	tlsf_pools_malloc;
	.scl	2;
	.type	32;
	.endef
	.globl	tlsf_pools_malloc
	.p2align	4
tlsf_pools_malloc:
.seh_proc tlsf_pools_malloc
	pushq	%rsi
	.seh_pushreg %rsi
	subq	$64, %rsp
	.seh_stackalloc 64
	.seh_endprologue
	movq	%rcx, %rsi
	movl	$0, 36(%rsp)
	leaq	36(%rsp), %r8
	callq	tlsf_pools_row
	testl	%eax, %eax
	jne	.Lp_BB22_1
	movl	36(%rsp), %edx
	xorps	%xmm0, %xmm0
	movaps	%xmm0, 48(%rsp)
	movl	$0, 32(%rsp)
	movq	$0, 40(%rsp)
	leaq	48(%rsp), %r8
	movq	%rsi, %rcx
	callq	tlsf_pools_allocate
	testl	%eax, %eax
	jne	.Lp_BB22_1
	leaq	40(%rsp), %r8
	leaq	32(%rsp), %r9
	movq	%rsi, %rcx
	xorl	%edx, %edx
	callq	tlsf_pools_part
	testl	%eax, %eax
	je	.Lp_BB22_6
.Lp_BB22_1:
	xorl	%eax, %eax
.Lp_BB22_10:
	addq	$64, %rsp
	popq	%rsi
	retq
.Lp_BB22_6:
	movl	48(%rsp), %edx
	subl	32(%rsp), %edx
	je	.Lp_BB22_9
	leaq	40(%rsp), %r8
	leaq	32(%rsp), %r9
	movq	%rsi, %rcx
	callq	tlsf_pools_part
	testl	%eax, %eax
	jne	.Lp_BB22_1
.Lp_BB22_9:
	movq	40(%rsp), %rax
	movl	52(%rsp), %ecx
	leaq	(%rax,%rcx,8), %rax
	addq	$24, %rax
	jmp	.Lp_BB22_10
	.seh_endproc
	.def	tlsf_pools_realloc;
	.scl	2;
	.type	32;
	.endef
	.globl	tlsf_pools_realloc
	.p2align	4
tlsf_pools_realloc:
.seh_proc tlsf_pools_realloc
	pushq	%r15
	.seh_pushreg %r15
	pushq	%r14
	.seh_pushreg %r14
	pushq	%r13
	.seh_pushreg %r13
	pushq	%r12
	.seh_pushreg %r12
	pushq	%rsi
	.seh_pushreg %rsi
	pushq	%rdi
	.seh_pushreg %rdi
	pushq	%rbp
	.seh_pushreg %rbp
	pushq	%rbx
	.seh_pushreg %rbx
	subq	$264, %rsp
	.seh_stackalloc 264
	movaps	%xmm15, 240(%rsp)
	.seh_savexmm %xmm15, 240
	movaps	%xmm14, 224(%rsp)
	.seh_savexmm %xmm14, 224
	movaps	%xmm13, 208(%rsp)
	.seh_savexmm %xmm13, 208
	movaps	%xmm12, 192(%rsp)
	.seh_savexmm %xmm12, 192
	movaps	%xmm11, 176(%rsp)
	.seh_savexmm %xmm11, 176
	movaps	%xmm10, 160(%rsp)
	.seh_savexmm %xmm10, 160
	movaps	%xmm9, 144(%rsp)
	.seh_savexmm %xmm9, 144
	movaps	%xmm8, 128(%rsp)
	.seh_savexmm %xmm8, 128
	movaps	%xmm7, 112(%rsp)
	.seh_savexmm %xmm7, 112
	movaps	%xmm6, 96(%rsp)
	.seh_savexmm %xmm6, 96
	.seh_endprologue
	movq	%r8, %rbx
	movq	%rcx, %rdi
	xorps	%xmm0, %xmm0
	movaps	%xmm0, 80(%rsp)
	movl	$0, 40(%rsp)
	movl	$0, 60(%rsp)
	testq	%rdx, %rdx
	je	.Lp_BB23_5
	movq	%rdx, %rsi
	testq	%rbx, %rbx
	je	.Lp_BB23_6
	movl	$0, 48(%rsp)
	movq	$0, 64(%rsp)
	xorl	%r14d, %r14d
	leaq	64(%rsp), %r8
	leaq	48(%rsp), %r9
	movq	%rdi, %rcx
	xorl	%edx, %edx
	callq	tlsf_pools_part
	xorl	%r13d, %r13d
	testl	%eax, %eax
	je	.Lp_BB23_7
.Lp_BB23_3:
	movq	%rsi, %r8
	subq	%r13, %r8
	addq	$-24, %r8
	rolq	$61, %r8
	movl	$4294967295, %eax
	cmpq	%rax, %r8
	cmovaeq	%rax, %r8
	leaq	40(%rsp), %rax
	movq	%rax, 32(%rsp)
	leaq	80(%rsp), %r9
	movq	%rdi, %rcx
	movl	%r14d, %edx
	callq	tlsf_pools_place
	testl	%eax, %eax
	jne	.Lp_BB23_17
	leaq	60(%rsp), %r8
	movq	%rdi, %rcx
	movq	%rbx, %rdx
	callq	tlsf_pools_row
	testl	%eax, %eax
	jne	.Lp_BB23_17
	movl	40(%rsp), %ecx
	movl	%ecx, %eax
	cmpq	%rax, %rbx
	seta	%dl
	movl	60(%rsp), %eax
	cmpl	%eax, %ecx
	seta	%cl
	orb	%dl, %cl
	cmpb	$1, %cl
	jne	.Lp_BB23_18
	movl	%eax, %edx
	xorps	%xmm0, %xmm0
	movaps	%xmm0, 64(%rsp)
	movl	$0, 44(%rsp)
	movq	$0, 48(%rsp)
	leaq	64(%rsp), %r8
	movq	%rdi, %rcx
	callq	tlsf_pools_allocate
	testl	%eax, %eax
	jne	.Lp_BB23_17
	leaq	48(%rsp), %r8
	leaq	44(%rsp), %r9
	movq	%rdi, %rcx
	xorl	%edx, %edx
	callq	tlsf_pools_part
	testl	%eax, %eax
	jne	.Lp_BB23_17
	movl	64(%rsp), %edx
	subl	44(%rsp), %edx
	je	.Lp_BB23_21
	leaq	48(%rsp), %r8
	leaq	44(%rsp), %r9
	movq	%rdi, %rcx
	callq	tlsf_pools_part
	testl	%eax, %eax
	jne	.Lp_BB23_17
.Lp_BB23_21:
	movq	48(%rsp), %rax
	movl	68(%rsp), %ecx
	leaq	(%rax,%rcx,8), %r14
	addq	$24, %r14
	movl	40(%rsp), %r8d
	cmpq	%r8, %rbx
	cmovbq	%rbx, %r8
	movq	%r14, %rcx
	movq	%rsi, %rdx
	callq	memcpy
	movq	80(%rsp), %rsi
	movq	88(%rsp), %rdx
	callq	tlsf_pools_release
	movq	%r14, %rsi
	jmp	.Lp_BB23_18
.Lp_BB23_5:
	movq	%rdi, %rcx
	movq	%rbx, %rdx
	movaps	96(%rsp), %xmm6
	movaps	112(%rsp), %xmm7
	movaps	128(%rsp), %xmm8
	movaps	144(%rsp), %xmm9
	movaps	160(%rsp), %xmm10
	movaps	176(%rsp), %xmm11
	movaps	192(%rsp), %xmm12
	movaps	208(%rsp), %xmm13
	movaps	224(%rsp), %xmm14
	movaps	240(%rsp), %xmm15
	addq	$264, %rsp
	popq	%rbx
	popq	%rbp
	popq	%rdi
	popq	%rsi
	popq	%r12
	popq	%r13
	popq	%r14
	popq	%r15
	jmp	tlsf_pools_malloc
.Lp_BB23_6:
	movq	%rdi, %rcx
	movq	%rsi, %rdx
	callq	tlsf_pools_free
.Lp_BB23_17:
	xorl	%esi, %esi
.Lp_BB23_18:
	movq	%rsi, %rax
	movaps	96(%rsp), %xmm6
	movaps	112(%rsp), %xmm7
	movaps	128(%rsp), %xmm8
	movaps	144(%rsp), %xmm9
	movaps	160(%rsp), %xmm10
	movaps	176(%rsp), %xmm11
	movaps	192(%rsp), %xmm12
	movaps	208(%rsp), %xmm13
	movaps	224(%rsp), %xmm14
	movaps	240(%rsp), %xmm15
	addq	$264, %rsp
	popq	%rbx
	popq	%rbp
	popq	%rdi
	popq	%rsi
	popq	%r12
	popq	%r13
	popq	%r14
	popq	%r15
	retq
.Lp_BB23_7:
	leaq	64(%rsp), %r15
	leaq	48(%rsp), %r12
	xorl	%r14d, %r14d
	xorl	%ebp, %ebp
	jmp	.Lp_BB23_10
	.p2align	4
.Lp_BB23_8:
	movq	%rax, %r13
	movl	%ebp, %r14d
.Lp_BB23_9:
	incl	%ebp
	movq	%rdi, %rcx
	movl	%ebp, %edx
	movq	%r15, %r8
	movq	%r12, %r9
	callq	tlsf_pools_part
	testl	%eax, %eax
	jne	.Lp_BB23_3
.Lp_BB23_10:
	movq	64(%rsp), %rax
	testl	%ebp, %ebp
	je	.Lp_BB23_8
	movq	%rsi, %rcx
	subq	%rax, %rcx
	movq	%rsi, %rdx
	subq	%r13, %rdx
	cmpq	%rdx, %rcx
	jbe	.Lp_BB23_8
	jmp	.Lp_BB23_9
	.seh_endproc
	.def	tlsf_text_of;
	.scl	2;
	.type	32;
	.endef
	.globl	tlsf_text_of
	.p2align	4
tlsf_text_of:
	cmpl	$40, %ecx
	ja	.Lp_BB24_1
	movl	%ecx, %eax
	leaq	.Lp_switch.table.tlsf_text_of.rel(%rip), %rcx
	movslq	(%rcx,%rax,4), %rax
	addq	%rcx, %rax
	retq
.Lp_BB24_1:
	leaq	.L.str.20(%rip), %rax
	retq
	.def	tlsf_too_long;
	.scl	3;
	.type	32;
	.endef
tlsf_too_long:
.seh_proc tlsf_too_long
	subq	$56, %rsp
	.seh_stackalloc 56
	.seh_endprologue
	xorps	%xmm0, %xmm0
	leaq	32(%rsp), %r8
	movaps	%xmm0, (%r8)
	movq	$0, 16(%r8)
	movl	$-1, %edx
	callq	tlsf_block_at
	cmpl	$32, %eax
	movl	$1, %ecx
	cmovnel	%ecx, %eax
	addq	$56, %rsp
	retq
	.seh_endproc
	.def	tlsf_mixed_place;
	.scl	3;
	.type	32;
	.endef
tlsf_mixed_place:
.seh_proc tlsf_mixed_place
	pushq	%r15
	.seh_pushreg %r15
	pushq	%r14
	.seh_pushreg %r14
	pushq	%r12
	.seh_pushreg %r12
	pushq	%rsi
	.seh_pushreg %rsi
	pushq	%rdi
	.seh_pushreg %rdi
	pushq	%rbx
	.seh_pushreg %rbx
	subq	$200, %rsp
	.seh_stackalloc 200
	movaps	%xmm15, 176(%rsp)
	.seh_savexmm %xmm15, 176
	movaps	%xmm14, 160(%rsp)
	.seh_savexmm %xmm14, 160
	movaps	%xmm13, 144(%rsp)
	.seh_savexmm %xmm13, 144
	movaps	%xmm12, 128(%rsp)
	.seh_savexmm %xmm12, 128
	movaps	%xmm11, 112(%rsp)
	.seh_savexmm %xmm11, 112
	movaps	%xmm10, 96(%rsp)
	.seh_savexmm %xmm10, 96
	movaps	%xmm9, 80(%rsp)
	.seh_savexmm %xmm9, 80
	movaps	%xmm8, 64(%rsp)
	.seh_savexmm %xmm8, 64
	movaps	%xmm7, 48(%rsp)
	.seh_savexmm %xmm7, 48
	movaps	%xmm6, 32(%rsp)
	.seh_savexmm %xmm6, 32
	.seh_endprologue
	movq	%r8, %r14
	movq	%rdx, %r15
	movq	%rcx, %rbx
	movzbl	29(%rdx), %eax
	testq	%rax, %rax
	movl	$16, %r12d
	cmovnel	%eax, %r12d
	testb	$-17, %al
	je	.Lp_BB26_1
	cmpq	$1, %r14
	adcq	%rax, %r14
	addq	$23, %r14
	negq	%rax
	andq	%r14, %rax
	addq	$-24, %rax
	movq	%rax, %r14
	jmp	.Lp_BB26_3
.Lp_BB26_1:
	addl	$7, %r14d
	andl	$536870896, %r14d
	orq	$8, %r14
.Lp_BB26_3:
	cmpq	%r12, %r9
	jbe	.Lp_BB26_5
	movq	%r9, %rdx
	shrq	$3, %rdx
	movl	$4294967295, %eax
	addl	%eax, %r9d
	andl	16(%r15), %r9d
	shrl	$3, %r9d
	movq	%r15, %rdi
	movq	%r14, %rsi
	movl	%r9d, %ecx
	jmp	.Lp_BB26_8
.Lp_BB26_5:
	movq	%r15, %rdi
	movq	%r14, %rsi
	callq	tlsf_allocate_place
	movq	%rax, %rcx
	shrq	$32, %rcx
	jne	.Lp_BB26_9
	movq	16(%r15), %rcx
	leaq	(%rcx,%rax,8), %rcx
	addq	$24, %rcx
	leaq	-1(%r12), %r8
	testq	%rcx, %r8
	je	.Lp_BB26_9
	movq	%r15, %rcx
	movl	%eax, %edx
	callq	tlsf_release_place
	movl	%r12d, %edx
	shrl	$3, %edx
	movl	$4294967295, %ecx
	addl	%r12d, %ecx
	andl	16(%r15), %ecx
	shrl	$3, %ecx
	movq	%r15, %rdi
	movq	%r14, %rsi
.Lp_BB26_8:
	callq	tlsf_allocate_aligned
.Lp_BB26_9:
	movq	%rax, (%rbx)
	movq	%rdx, 8(%rbx)
	movq	%rbx, %rax
	movaps	32(%rsp), %xmm6
	movaps	48(%rsp), %xmm7
	movaps	64(%rsp), %xmm8
	movaps	80(%rsp), %xmm9
	movaps	96(%rsp), %xmm10
	movaps	112(%rsp), %xmm11
	movaps	128(%rsp), %xmm12
	movaps	144(%rsp), %xmm13
	movaps	160(%rsp), %xmm14
	movaps	176(%rsp), %xmm15
	addq	$200, %rsp
	popq	%rbx
	popq	%rdi
	popq	%rsi
	popq	%r12
	popq	%r14
	popq	%r15
	retq
	.seh_endproc
	.def	tlsf_malloc_own;
	.scl	3;
	.type	32;
	.endef
tlsf_malloc_own:
.seh_proc tlsf_malloc_own
	pushq	%rsi
	.seh_pushreg %rsi
	pushq	%rdi
	.seh_pushreg %rdi
	subq	$56, %rsp
	.seh_stackalloc 56
	.seh_endprologue
	cmpq	$134217728, %rdx
	jbe	.Lp_BB27_2
.Lp_BB27_1:
	xorl	%eax, %eax
.Lp_BB27_4:
	addq	$56, %rsp
	popq	%rdi
	popq	%rsi
	retq
.Lp_BB27_2:
	movq	%rdx, %r8
	movq	%rcx, %rsi
	leaq	40(%rsp), %rdi
	movl	$1, %r9d
	movq	%rdi, %rcx
	movq	%rsi, %rdx
	callq	tlsf_mixed_place
	cmpl	$0, 4(%rdi)
	jne	.Lp_BB27_1
	movl	40(%rsp), %eax
	movq	16(%rsi), %rcx
	leaq	(%rcx,%rax,8), %rax
	addq	$24, %rax
	jmp	.Lp_BB27_4
	.seh_endproc
	.def	tlsf_malloc_again;
	.scl	3;
	.type	32;
	.endef
tlsf_malloc_again:
.seh_proc tlsf_malloc_again
	pushq	%rsi
	.seh_pushreg %rsi
	pushq	%rdi
	.seh_pushreg %rdi
	pushq	%rbx
	.seh_pushreg %rbx
	subq	$224, %rsp
	.seh_stackalloc 224
	movaps	%xmm15, 208(%rsp)
	.seh_savexmm %xmm15, 208
	movaps	%xmm14, 192(%rsp)
	.seh_savexmm %xmm14, 192
	movaps	%xmm13, 176(%rsp)
	.seh_savexmm %xmm13, 176
	movaps	%xmm12, 160(%rsp)
	.seh_savexmm %xmm12, 160
	movaps	%xmm11, 144(%rsp)
	.seh_savexmm %xmm11, 144
	movaps	%xmm10, 128(%rsp)
	.seh_savexmm %xmm10, 128
	movaps	%xmm9, 112(%rsp)
	.seh_savexmm %xmm9, 112
	movaps	%xmm8, 96(%rsp)
	.seh_savexmm %xmm8, 96
	movaps	%xmm7, 80(%rsp)
	.seh_savexmm %xmm7, 80
	movaps	%xmm6, 64(%rsp)
	.seh_savexmm %xmm6, 64
	.seh_endprologue
	movq	%rcx, %rbx
	xorps	%xmm0, %xmm0
	leaq	32(%rsp), %r8
	movaps	%xmm0, (%r8)
	movq	$0, 16(%r8)
	subq	16(%rcx), %rdx
	addq	$-24, %rdx
	rolq	$61, %rdx
	movl	$4294967295, %eax
	cmpq	%rax, %rdx
	cmovaeq	%rax, %rdx
	callq	tlsf_block_at
	testl	%eax, %eax
	jne	.Lp_BB28_1
	movl	32(%rsp), %edx
	movq	%rbx, %rcx
	callq	tlsf_release_place
	movl	44(%rsp), %esi
	movl	16(%rbx), %ecx
	shrl	$3, %ecx
	andl	$1, %ecx
	movq	%rbx, %rdi
	movl	$2, %edx
	callq	tlsf_allocate_aligned
	movq	%rax, %rcx
	shrq	$32, %rcx
	jne	.Lp_BB28_1
	movq	16(%rbx), %rcx
	leaq	(%rcx,%rax,8), %rax
	addq	$24, %rax
	jmp	.Lp_BB28_4
.Lp_BB28_1:
	xorl	%eax, %eax
.Lp_BB28_4:
	movaps	64(%rsp), %xmm6
	movaps	80(%rsp), %xmm7
	movaps	96(%rsp), %xmm8
	movaps	112(%rsp), %xmm9
	movaps	128(%rsp), %xmm10
	movaps	144(%rsp), %xmm11
	movaps	160(%rsp), %xmm12
	movaps	176(%rsp), %xmm13
	movaps	192(%rsp), %xmm14
	movaps	208(%rsp), %xmm15
	addq	$224, %rsp
	popq	%rbx
	popq	%rdi
	popq	%rsi
	retq
	.seh_endproc
	.section	.rdata,"dr"
.L.str:
	.asciz	"done"
.L.str.1:
	.asciz	"no free block fits"
.L.str.2:
	.asciz	"the ticks or the numbers are used up"
.L.str.3:
	.asciz	"a name of another heap"
.L.str.4:
	.asciz	"no live block has that name or address"
.L.str.5:
	.asciz	"a size out of range"
.L.str.6:
	.asciz	"no memory"
.L.str.7:
	.asciz	"bytes past the end of the payload"
.L.str.8:
	.asciz	"the lane or queue is full"
.L.str.9:
	.asciz	"no room where the block stands"
.L.str.10:
	.asciz	"a line was not written"
.L.str.11:
	.asciz	"the handle is closed"
.L.str.12:
	.asciz	"the handle is open already"
.L.str.13:
	.asciz	"a level is 4 or 5"
.L.str.14:
	.asciz	"the lane or queue is empty"
.L.str.15:
	.asciz	"a header is damaged"
.L.str.16:
	.asciz	"another thread is in the way: try again"
.L.str.17:
	.asciz	"all blocks of that row are held"
.L.str.18:
	.asciz	"memory that is null, or past the end of the address space"
.L.str.19:
	.asciz	"the handle holds something of another kind"
.L.str.20:
	.asciz	"no answer of this library"
	.p2align	2, 0x0
.Lp_switch.table.tlsf_text_of.rel:
	.long	.L.str-.Lp_switch.table.tlsf_text_of.rel
	.long	.L.str.1-.Lp_switch.table.tlsf_text_of.rel
	.long	.L.str.2-.Lp_switch.table.tlsf_text_of.rel
	.long	.L.str.3-.Lp_switch.table.tlsf_text_of.rel
	.long	.L.str.4-.Lp_switch.table.tlsf_text_of.rel
	.long	.L.str.5-.Lp_switch.table.tlsf_text_of.rel
	.long	.L.str.6-.Lp_switch.table.tlsf_text_of.rel
	.long	.L.str.7-.Lp_switch.table.tlsf_text_of.rel
	.long	.L.str.8-.Lp_switch.table.tlsf_text_of.rel
	.long	.L.str.20-.Lp_switch.table.tlsf_text_of.rel
	.long	.L.str.9-.Lp_switch.table.tlsf_text_of.rel
	.long	.L.str.20-.Lp_switch.table.tlsf_text_of.rel
	.long	.L.str.20-.Lp_switch.table.tlsf_text_of.rel
	.long	.L.str.20-.Lp_switch.table.tlsf_text_of.rel
	.long	.L.str.20-.Lp_switch.table.tlsf_text_of.rel
	.long	.L.str.20-.Lp_switch.table.tlsf_text_of.rel
	.long	.L.str.20-.Lp_switch.table.tlsf_text_of.rel
	.long	.L.str.10-.Lp_switch.table.tlsf_text_of.rel
	.long	.L.str.20-.Lp_switch.table.tlsf_text_of.rel
	.long	.L.str.20-.Lp_switch.table.tlsf_text_of.rel
	.long	.L.str.20-.Lp_switch.table.tlsf_text_of.rel
	.long	.L.str.20-.Lp_switch.table.tlsf_text_of.rel
	.long	.L.str.20-.Lp_switch.table.tlsf_text_of.rel
	.long	.L.str.20-.Lp_switch.table.tlsf_text_of.rel
	.long	.L.str.20-.Lp_switch.table.tlsf_text_of.rel
	.long	.L.str.20-.Lp_switch.table.tlsf_text_of.rel
	.long	.L.str.20-.Lp_switch.table.tlsf_text_of.rel
	.long	.L.str.20-.Lp_switch.table.tlsf_text_of.rel
	.long	.L.str.20-.Lp_switch.table.tlsf_text_of.rel
	.long	.L.str.20-.Lp_switch.table.tlsf_text_of.rel
	.long	.L.str.20-.Lp_switch.table.tlsf_text_of.rel
	.long	.L.str.20-.Lp_switch.table.tlsf_text_of.rel
	.long	.L.str.11-.Lp_switch.table.tlsf_text_of.rel
	.long	.L.str.12-.Lp_switch.table.tlsf_text_of.rel
	.long	.L.str.13-.Lp_switch.table.tlsf_text_of.rel
	.long	.L.str.14-.Lp_switch.table.tlsf_text_of.rel
	.long	.L.str.15-.Lp_switch.table.tlsf_text_of.rel
	.long	.L.str.16-.Lp_switch.table.tlsf_text_of.rel
	.long	.L.str.17-.Lp_switch.table.tlsf_text_of.rel
	.long	.L.str.18-.Lp_switch.table.tlsf_text_of.rel
	.long	.L.str.19-.Lp_switch.table.tlsf_text_of.rel
#endif
/* c/memory.c */
#ifdef TLSF_ONLY_CALLS
#elif defined(TLSF_NO_TLS)
	.def	tlsf_memory_alloc;
	.scl	2;
	.type	32;
	.endef
	.text
	.globl	tlsf_memory_alloc
	.p2align	4
tlsf_memory_alloc:
	cmpq	$8, %rsi
	ja	.Lm_BB0_1
	movq	near_room(%rip), %rsi
	testq	%rsi, %rsi
	je	.Lm_BB0_6
	subl	$1, pieces_first(%rip)
	jae	.Lm_BB0_6
	cmpq	$2776, %rdi
	ja	.Lm_BB0_1
	movq	$0, (%rsi)
	addq	$8, %rsi
	jmp	.Lm_BB0_16
.Lm_BB0_6:
	movq	lent(%rip), %r8
	testq	%r8, %r8
	je	.Lm_BB0_1
	movq	lent_step(%rip), %rsi
	leaq	(%rdi,%rsi), %rcx
	addq	$7, %rcx
	movq	%rcx, %rax
	orq	%rsi, %rax
	shrq	$32, %rax
	je	.Lm_BB0_11
	movq	%rcx, %rax
	xorl	%edx, %edx
	divq	%rsi
	cmpq	$268435456, %rdi
	ja	.Lm_BB0_1
	jmp	.Lm_BB0_12
.Lm_BB0_11:
	movl	%ecx, %eax
	xorl	%edx, %edx
	divl	%esi
	cmpq	$268435456, %rdi
	ja	.Lm_BB0_1
.Lm_BB0_12:
	addq	$8, %rdi
	movq	lent_end(%rip), %rax
	movq	%rax, %r9
	subq	%r8, %r9
	cmpq	%r9, %rdi
	jbe	.Lm_BB0_15
.Lm_BB0_1:
	xorl	%esi, %esi
.Lm_BB0_16:
	xorl	%eax, %eax
	testq	%rsi, %rsi
	setne	%al
	leaq	tlsf_memory_alloc.nothing(%rip), %rdx
	cmovneq	%rsi, %rdx
	retq
.Lm_BB0_15:
	leaq	8(%r8), %rsi
	subq	%rdx, %rcx
	leaq	(%r8,%rcx), %rdx
	cmpq	%r9, %rcx
	cmovbq	%rdx, %rax
	movq	%rax, lent(%rip)
	movq	$0, (%r8)
	jmp	.Lm_BB0_16
	.def	tlsf_memory_dealloc;
	.scl	2;
	.type	32;
	.endef
	.globl	tlsf_memory_dealloc
	.p2align	4
tlsf_memory_dealloc:
	retq
	.def	tlsf_memory_realloc;
	.scl	2;
	.type	32;
	.endef
	.globl	tlsf_memory_realloc
	.p2align	4
tlsf_memory_realloc:
.seh_proc tlsf_memory_realloc
	pushq	%rbx
	.seh_pushreg %rbx
	subq	$32, %rsp
	.seh_stackalloc 32
	.seh_endprologue
	movq	%rdx, %r9
	leaq	tlsf_memory_alloc.nothing(%rip), %rdx
	cmpq	$8, %rcx
	ja	.Lm_BB2_1
	movq	near_room(%rip), %rbx
	testq	%rbx, %rbx
	je	.Lm_BB2_6
	subl	$1, pieces_first(%rip)
	jae	.Lm_BB2_6
	cmpq	$2776, %r9
	ja	.Lm_BB2_1
	jmp	.Lm_BB2_16
.Lm_BB2_6:
	movq	lent(%rip), %rbx
	testq	%rbx, %rbx
	je	.Lm_BB2_1
	movq	%rdx, %rcx
	movq	lent_step(%rip), %r10
	leaq	(%r9,%r10), %r8
	addq	$7, %r8
	movq	%r8, %rax
	orq	%r10, %rax
	shrq	$32, %rax
	je	.Lm_BB2_10
	movq	%r8, %rax
	xorl	%edx, %edx
	divq	%r10
	movq	%rdx, %rax
	jmp	.Lm_BB2_11
.Lm_BB2_10:
	movl	%r8d, %eax
	xorl	%edx, %edx
	divl	%r10d
	movl	%edx, %eax
.Lm_BB2_11:
	cmpq	$268435456, %r9
	movq	%rcx, %rdx
	ja	.Lm_BB2_1
	addq	$8, %r9
	movq	lent_end(%rip), %rcx
	movq	%rcx, %r10
	subq	%rbx, %r10
	cmpq	%r10, %r9
	jbe	.Lm_BB2_15
.Lm_BB2_1:
	xorl	%eax, %eax
.Lm_BB2_17:
	addq	$32, %rsp
	popq	%rbx
	retq
.Lm_BB2_15:
	subq	%rax, %r8
	leaq	(%rbx,%r8), %rax
	cmpq	%r10, %r8
	cmovbq	%rax, %rcx
	movq	%rcx, lent(%rip)
.Lm_BB2_16:
	movq	$0, (%rbx)
	addq	$8, %rbx
	movq	%rbx, %rcx
	movq	%rdi, %rdx
	movq	%rsi, %r8
	callq	memcpy
	movl	$1, %eax
	movq	%rbx, %rdx
	jmp	.Lm_BB2_17
	.seh_endproc
	.def	tlsf_memory_set;
	.scl	2;
	.type	32;
	.endef
	.globl	tlsf_memory_set
	.p2align	4
tlsf_memory_set:
	testl	%edx, %edx
	jne	memset
	cmpq	$513, %r8
	jae	memset
	cmpq	$257, %r8
	jb	.Lm_BB3_4
	xorps	%xmm0, %xmm0
	movups	%xmm0, (%rcx)
	movups	%xmm0, -16(%rcx,%r8)
	movups	%xmm0, 16(%rcx)
	movups	%xmm0, -32(%rcx,%r8)
	movups	%xmm0, 32(%rcx)
	movups	%xmm0, -48(%rcx,%r8)
	movups	%xmm0, 48(%rcx)
	movups	%xmm0, -64(%rcx,%r8)
	movups	%xmm0, 64(%rcx)
	movups	%xmm0, -80(%rcx,%r8)
	movups	%xmm0, 80(%rcx)
	movups	%xmm0, -96(%rcx,%r8)
	movups	%xmm0, 96(%rcx)
	movups	%xmm0, -112(%rcx,%r8)
	movups	%xmm0, 112(%rcx)
	movups	%xmm0, -128(%rcx,%r8)
	movups	%xmm0, 128(%rcx)
	movups	%xmm0, -144(%rcx,%r8)
	movups	%xmm0, 144(%rcx)
	movups	%xmm0, -160(%rcx,%r8)
	movups	%xmm0, 160(%rcx)
	movups	%xmm0, -176(%rcx,%r8)
	movups	%xmm0, 176(%rcx)
	movups	%xmm0, -192(%rcx,%r8)
	movups	%xmm0, 192(%rcx)
	movups	%xmm0, -208(%rcx,%r8)
	movups	%xmm0, 208(%rcx)
	movups	%xmm0, -224(%rcx,%r8)
	movups	%xmm0, 224(%rcx)
	movups	%xmm0, -240(%rcx,%r8)
	movups	%xmm0, 240(%rcx)
	movups	%xmm0, -256(%rcx,%r8)
	movq	%rcx, %rax
	retq
.Lm_BB3_4:
	cmpq	$129, %r8
	jb	.Lm_BB3_6
	xorps	%xmm0, %xmm0
	movups	%xmm0, (%rcx)
	movups	%xmm0, -16(%rcx,%r8)
	movups	%xmm0, 16(%rcx)
	movups	%xmm0, -32(%rcx,%r8)
	movups	%xmm0, 32(%rcx)
	movups	%xmm0, -48(%rcx,%r8)
	movups	%xmm0, 48(%rcx)
	movups	%xmm0, -64(%rcx,%r8)
	movups	%xmm0, 64(%rcx)
	movups	%xmm0, -80(%rcx,%r8)
	movups	%xmm0, 80(%rcx)
	movups	%xmm0, -96(%rcx,%r8)
	movups	%xmm0, 96(%rcx)
	movups	%xmm0, -112(%rcx,%r8)
	movups	%xmm0, 112(%rcx)
	movups	%xmm0, -128(%rcx,%r8)
	movq	%rcx, %rax
	retq
.Lm_BB3_6:
	cmpq	$65, %r8
	jb	.Lm_BB3_8
	xorps	%xmm0, %xmm0
	movups	%xmm0, (%rcx)
	movups	%xmm0, -16(%rcx,%r8)
	movups	%xmm0, 16(%rcx)
	movups	%xmm0, -32(%rcx,%r8)
	movups	%xmm0, 32(%rcx)
	movups	%xmm0, -48(%rcx,%r8)
	movups	%xmm0, 48(%rcx)
	movups	%xmm0, -64(%rcx,%r8)
	movq	%rcx, %rax
	retq
.Lm_BB3_8:
	cmpq	$33, %r8
	jb	.Lm_BB3_10
	xorps	%xmm0, %xmm0
	movups	%xmm0, (%rcx)
	movups	%xmm0, -16(%rcx,%r8)
	movups	%xmm0, 16(%rcx)
	movups	%xmm0, -32(%rcx,%r8)
	movq	%rcx, %rax
	retq
.Lm_BB3_10:
	cmpq	$17, %r8
	jb	.Lm_BB3_12
	xorps	%xmm0, %xmm0
	movups	%xmm0, (%rcx)
	movups	%xmm0, -16(%rcx,%r8)
	movq	%rcx, %rax
	retq
.Lm_BB3_12:
	cmpq	$7, %r8
	ja	.Lm_BB3_13
	xorl	%edx, %edx
	jmp	memset
.Lm_BB3_13:
	movq	$0, (%rcx)
	movq	$0, -8(%rcx,%r8)
	movq	%rcx, %rax
	retq
	.def	tlsf_memory_cpy;
	.scl	2;
	.type	32;
	.endef
	.globl	tlsf_memory_cpy
	.p2align	4
tlsf_memory_cpy:
	jmp	memcpy
	.def	tlsf_memory_move;
	.scl	2;
	.type	32;
	.endef
	.globl	tlsf_memory_move
	.p2align	4
tlsf_memory_move:
	jmp	memmove
	.def	tlsf_bytes;
	.scl	2;
	.type	32;
	.endef
	.globl	tlsf_bytes
	.p2align	4
tlsf_bytes:
	xorl	%eax, %eax
	cmpl	$4, %edx
	jb	.Lm_BB6_4
	cmpl	$5, %ecx
	sete	%al
	shll	$24, %eax
	cmpl	$4, %ecx
	movl	$1048576, %ecx
	cmovneq	%rax, %rcx
	cmpl	%edx, %ecx
	jae	.Lm_BB6_3
	xorl	%eax, %eax
	retq
.Lm_BB6_3:
	movl	%edx, %eax
	leaq	23(,%rax,8), %rcx
	andq	$-16, %rcx
	addq	$63, %rax
	shrq	$3, %rax
	addl	$16, %eax
	andl	$-16, %eax
	addq	%rcx, %rax
	addq	$2783, %rax
.Lm_BB6_4:
	retq
	.def	tlsf_near_bytes;
	.scl	2;
	.type	32;
	.endef
	.globl	tlsf_near_bytes
	.p2align	4
tlsf_near_bytes:
	xorl	%eax, %eax
	cmpl	$4, %edx
	jb	.Lm_BB7_4
	cmpl	$5, %ecx
	sete	%al
	shll	$24, %eax
	cmpl	$4, %ecx
	movl	$1048576, %ecx
	cmovneq	%rax, %rcx
	cmpl	%edx, %ecx
	jae	.Lm_BB7_3
	xorl	%eax, %eax
	retq
.Lm_BB7_3:
	movl	%edx, %eax
	leaq	23(,%rax,8), %rcx
	andq	$-16, %rcx
	addq	$63, %rax
	shrq	$6, %rax
	leaq	(%rcx,%rax,8), %rax
	addq	$23, %rax
.Lm_BB7_4:
	retq
	.def	tlsf_open_in;
	.scl	2;
	.type	32;
	.endef
	.globl	tlsf_open_in
	.p2align	4
tlsf_open_in:
.seh_proc tlsf_open_in
	pushq	%r15
	.seh_pushreg %r15
	pushq	%r14
	.seh_pushreg %r14
	pushq	%r13
	.seh_pushreg %r13
	pushq	%r12
	.seh_pushreg %r12
	pushq	%rsi
	.seh_pushreg %rsi
	pushq	%rdi
	.seh_pushreg %rdi
	pushq	%rbp
	.seh_pushreg %rbp
	pushq	%rbx
	.seh_pushreg %rbx
	subq	$40, %rsp
	.seh_stackalloc 40
	.seh_endprologue
	movq	%rcx, %rsi
	movzbl	29(%rcx), %ecx
	testq	%rcx, %rcx
	je	.Lm_BB8_3
	leal	-65(%rcx), %eax
	cmpb	$-57, %al
	jb	.Lm_BB8_2
	leal	127(%rcx), %eax
	testl	%ecx, %eax
	je	.Lm_BB8_6
.Lm_BB8_2:
	xorl	%eax, %eax
	jmp	.Lm_BB8_11
.Lm_BB8_3:
	movl	$16, %r11d
	jmp	.Lm_BB8_7
.Lm_BB8_6:
	cmpq	$17, %rcx
	movl	$16, %r11d
	cmovaeq	%rcx, %r11
.Lm_BB8_7:
	movl	%edx, %r10d
	movq	$-32, %rax
	subq	%r9, %rax
	movq	%rax, %rdx
	shrq	$32, %rdx
	je	.Lm_BB8_9
	xorl	%edx, %edx
	divq	%r11
	movq	%rdx, %rax
	jmp	.Lm_BB8_10
.Lm_BB8_9:
	xorl	%edx, %edx
	divl	%r11d
	movl	%edx, %eax
.Lm_BB8_10:
	movl	%r10d, %edx
.Lm_BB8_11:
	movq	144(%rsp), %r11
	xorl	%r10d, %r10d
	movq	%r9, %rdi
	notq	%rdi
	testq	%r9, %r9
	je	.Lm_BB8_18
	cmpq	%rdi, %r11
	ja	.Lm_BB8_18
	movq	%r11, %r15
	subq	%rax, %r15
	jb	.Lm_BB8_18
	xorl	%r14d, %r14d
	cmpl	$5, %edx
	sete	%r14b
	shll	$24, %r14d
	cmpl	$4, %edx
	movl	$1048576, %ebx
	cmovneq	%r14, %rbx
	cmpq	$2832, %r15
	jb	.Lm_BB8_18
	cmpq	$268435456, %r15
	movl	$268435456, %r14d
	cmovbq	%r15, %r14
	leal	-22400(,%r14,8), %r15d
	movl	$4228890877, %r10d
	imulq	%r15, %r10
	shrq	$38, %r10
	leaq	87(,%r10,8), %r15
	addq	$71, %r10
	.p2align	4
.Lm_BB8_16:
	movq	%r15, %r12
	andq	$-16, %r12
	movq	%r10, %r13
	shrq	$3, %r13
	addq	$16, %r13
	andq	$-16, %r13
	addq	%r13, %r12
	addq	$2768, %r12
	decq	%r10
	addq	$-8, %r15
	cmpq	%r14, %r12
	ja	.Lm_BB8_16
	addq	$-62, %r10
	cmpq	%rbx, %r10
	cmovaeq	%rbx, %r10
.Lm_BB8_18:
	testq	%r9, %r9
	setne	%bpl
	cmpq	%rdi, %r11
	setbe	%bl
	andb	%bpl, %bl
	cmpq	%r11, %rax
	cmovaeq	%r11, %rax
	addq	%r9, %rax
	leaq	begin_behind.nothing(%rip), %rdi
	addq	%r11, %r9
	testb	%bl, %bl
	cmoveq	%rdi, %rax
	cmoveq	%rdi, %r9
	movq	%rax, lent(%rip)
	movq	%r9, lent_end(%rip)
	movq	$16, lent_step(%rip)
	testq	%rcx, %rcx
	je	.Lm_BB8_21
	leal	-65(%rcx), %eax
	xorl	%r9d, %r9d
	cmpb	$-57, %al
	jb	.Lm_BB8_22
	leal	127(%rcx), %eax
	testb	%cl, %al
	jne	.Lm_BB8_22
.Lm_BB8_21:
	movl	%r10d, %r9d
.Lm_BB8_22:
	movq	%rsi, %rcx
	callq	tlsf_open
	testl	%eax, %eax
	je	.Lm_BB8_24
	movq	$0, lent(%rip)
	cmpl	$5, %eax
	sete	%dl
	notb	%bl
	movl	$39, %ecx
	testb	%dl, %bl
	je	.Lm_BB8_27
	jmp	.Lm_BB8_28
.Lm_BB8_24:
	movzbl	29(%rsi), %ecx
	testb	$-17, %cl
	je	.Lm_BB8_26
	movb	$1, 28(%rsi)
.Lm_BB8_26:
	movq	$0, lent(%rip)
.Lm_BB8_27:
	movl	%eax, %ecx
.Lm_BB8_28:
	movl	%ecx, %eax
	addq	$40, %rsp
	popq	%rbx
	popq	%rbp
	popq	%rdi
	popq	%rsi
	popq	%r12
	popq	%r13
	popq	%r14
	popq	%r15
	retq
	.seh_endproc
	.def	tlsf_open_near;
	.scl	2;
	.type	32;
	.endef
	.globl	tlsf_open_near
	.p2align	4
tlsf_open_near:
.seh_proc tlsf_open_near
	pushq	%rsi
	.seh_pushreg %rsi
	subq	$32, %rsp
	.seh_stackalloc 32
	.seh_endprologue
	movl	%ecx, %eax
	negl	%eax
	andl	$63, %eax
	leaq	(%rcx,%rax), %rsi
	leaq	(%rcx,%rax), %r10
	addq	$32, %r10
	movq	%r10, near_room(%rip)
	movl	$2, pieces_first(%rip)
	movzbl	29(%rcx,%rax), %ecx
	testb	%cl, %cl
	je	.Lm_BB9_3
	leal	-65(%rcx), %r10d
	xorl	%eax, %eax
	cmpb	$-57, %r10b
	jb	.Lm_BB9_4
	leal	127(%rcx), %r10d
	testb	%cl, %r10b
	jne	.Lm_BB9_4
.Lm_BB9_3:
	movl	%r9d, %eax
.Lm_BB9_4:
	movq	%rsi, %rcx
	movl	%eax, %r9d
	callq	tlsf_open
	testl	%eax, %eax
	jne	.Lm_BB9_7
	movzbl	29(%rsi), %ecx
	testb	$-17, %cl
	je	.Lm_BB9_7
	movb	$1, 28(%rsi)
.Lm_BB9_7:
	movq	$0, near_room(%rip)
	addq	$32, %rsp
	popq	%rsi
	retq
	.seh_endproc
	.def	tlsf_open_near_in;
	.scl	2;
	.type	32;
	.endef
	.globl	tlsf_open_near_in
	.p2align	4
tlsf_open_near_in:
.seh_proc tlsf_open_near_in
	pushq	%r15
	.seh_pushreg %r15
	pushq	%r14
	.seh_pushreg %r14
	pushq	%r13
	.seh_pushreg %r13
	pushq	%r12
	.seh_pushreg %r12
	pushq	%rsi
	.seh_pushreg %rsi
	pushq	%rdi
	.seh_pushreg %rdi
	pushq	%rbp
	.seh_pushreg %rbp
	pushq	%rbx
	.seh_pushreg %rbx
	subq	$40, %rsp
	.seh_stackalloc 40
	.seh_endprologue
	movq	%rcx, %rsi
	movl	%esi, %r10d
	negl	%r10d
	andl	$63, %r10d
	leaq	(%rcx,%r10), %rax
	addq	$32, %rax
	movq	%rax, near_room(%rip)
	movl	$2, pieces_first(%rip)
	movzbl	29(%rcx,%r10), %ecx
	testq	%rcx, %rcx
	je	.Lm_BB10_3
	leal	-65(%rcx), %eax
	cmpb	$-57, %al
	jb	.Lm_BB10_2
	leal	127(%rcx), %eax
	testl	%ecx, %eax
	je	.Lm_BB10_6
.Lm_BB10_2:
	xorl	%eax, %eax
	jmp	.Lm_BB10_11
.Lm_BB10_3:
	movl	$16, %edi
	jmp	.Lm_BB10_7
.Lm_BB10_6:
	cmpq	$17, %rcx
	movl	$16, %edi
	cmovaeq	%rcx, %rdi
.Lm_BB10_7:
	movl	%edx, %r11d
	movq	$-32, %rax
	subq	%r9, %rax
	movq	%rax, %rdx
	shrq	$32, %rdx
	je	.Lm_BB10_9
	xorl	%edx, %edx
	divq	%rdi
	movq	%rdx, %rax
	jmp	.Lm_BB10_10
.Lm_BB10_9:
	xorl	%edx, %edx
	divl	%edi
	movl	%edx, %eax
.Lm_BB10_10:
	movl	%r11d, %edx
.Lm_BB10_11:
	movq	144(%rsp), %rdi
	xorl	%r11d, %r11d
	movq	%r9, %rbx
	notq	%rbx
	testq	%r9, %r9
	je	.Lm_BB10_18
	cmpq	%rbx, %rdi
	ja	.Lm_BB10_18
	movq	%rdi, %r12
	subq	%rax, %r12
	jb	.Lm_BB10_18
	xorl	%r15d, %r15d
	cmpl	$5, %edx
	sete	%r15b
	shll	$24, %r15d
	cmpl	$4, %edx
	movl	$1048576, %r14d
	cmovneq	%r15, %r14
	cmpq	$64, %r12
	jb	.Lm_BB10_18
	cmpq	$268435456, %r12
	movl	$268435456, %r15d
	cmovbq	%r12, %r15
	leal	-192(,%r15,8), %r12d
	movl	$4228890877, %r11d
	imulq	%r12, %r11
	shrq	$38, %r11
	leaq	87(,%r11,8), %r12
	addq	$71, %r11
	.p2align	4
.Lm_BB10_16:
	movq	%r12, %r13
	andq	$-16, %r13
	movq	%r11, %rbp
	shrq	$6, %rbp
	leaq	8(%r13,%rbp,8), %r13
	decq	%r11
	addq	$-8, %r12
	cmpq	%r15, %r13
	ja	.Lm_BB10_16
	addq	$-62, %r11
	cmpq	%r14, %r11
	cmovaeq	%r14, %r11
.Lm_BB10_18:
	addq	%r10, %rsi
	testq	%r9, %r9
	setne	%r10b
	cmpq	%rbx, %rdi
	setbe	%bl
	andb	%r10b, %bl
	cmpq	%rdi, %rax
	cmovaeq	%rdi, %rax
	addq	%r9, %rax
	leaq	begin_behind.nothing(%rip), %r10
	addq	%rdi, %r9
	testb	%bl, %bl
	cmoveq	%r10, %rax
	cmoveq	%r10, %r9
	movq	%rax, lent(%rip)
	movq	%r9, lent_end(%rip)
	movq	$16, lent_step(%rip)
	testq	%rcx, %rcx
	je	.Lm_BB10_21
	leal	-65(%rcx), %eax
	xorl	%r9d, %r9d
	cmpb	$-57, %al
	jb	.Lm_BB10_22
	leal	127(%rcx), %eax
	testb	%cl, %al
	jne	.Lm_BB10_22
.Lm_BB10_21:
	movl	%r11d, %r9d
.Lm_BB10_22:
	movq	%rsi, %rcx
	callq	tlsf_open
	testl	%eax, %eax
	je	.Lm_BB10_24
	movq	$0, lent(%rip)
	cmpl	$5, %eax
	sete	%dl
	notb	%bl
	movl	$39, %ecx
	testb	%dl, %bl
	je	.Lm_BB10_27
	jmp	.Lm_BB10_28
.Lm_BB10_24:
	movzbl	29(%rsi), %ecx
	testb	$-17, %cl
	je	.Lm_BB10_26
	movb	$1, 28(%rsi)
.Lm_BB10_26:
	movq	$0, lent(%rip)
.Lm_BB10_27:
	movl	%eax, %ecx
.Lm_BB10_28:
	movq	$0, near_room(%rip)
	movl	%ecx, %eax
	addq	$40, %rsp
	popq	%rbx
	popq	%rbp
	popq	%rdi
	popq	%rsi
	popq	%r12
	popq	%r13
	popq	%r14
	popq	%r15
	retq
	.seh_endproc
	.def	tlsf_open_32;
	.scl	2;
	.type	32;
	.endef
	.globl	tlsf_open_32
	.p2align	4
tlsf_open_32:
.seh_proc tlsf_open_32
	pushq	%rsi
	.seh_pushreg %rsi
	subq	$32, %rsp
	.seh_stackalloc 32
	.seh_endprologue
	movq	%rcx, %rsi
	movzbl	29(%rcx), %ecx
	testb	%cl, %cl
	je	.Lm_BB11_3
	leal	-65(%rcx), %r10d
	xorl	%eax, %eax
	cmpb	$-57, %r10b
	jb	.Lm_BB11_4
	leal	127(%rcx), %r10d
	testb	%cl, %r10b
	jne	.Lm_BB11_4
.Lm_BB11_3:
	movl	%r9d, %eax
.Lm_BB11_4:
	movq	%rsi, %rcx
	movl	%eax, %r9d
	callq	tlsf_open
	testl	%eax, %eax
	jne	.Lm_BB11_7
	movzbl	29(%rsi), %ecx
	testb	$-17, %cl
	je	.Lm_BB11_7
	movb	$1, 28(%rsi)
.Lm_BB11_7:
	addq	$32, %rsp
	popq	%rsi
	retq
	.seh_endproc
	.def	tlsf_open_in_32;
	.scl	2;
	.type	32;
	.endef
	.globl	tlsf_open_in_32
	.p2align	4
tlsf_open_in_32:
	jmp	tlsf_open_in
	.def	tlsf_open_near_2880;
	.scl	2;
	.type	32;
	.endef
	.globl	tlsf_open_near_2880
	.p2align	4
tlsf_open_near_2880:
.seh_proc tlsf_open_near_2880
	pushq	%rsi
	.seh_pushreg %rsi
	subq	$32, %rsp
	.seh_stackalloc 32
	.seh_endprologue
	movl	%ecx, %eax
	negl	%eax
	andl	$63, %eax
	leaq	(%rcx,%rax), %rsi
	leaq	(%rcx,%rax), %r10
	addq	$32, %r10
	movq	%r10, near_room(%rip)
	movl	$2, pieces_first(%rip)
	movzbl	29(%rcx,%rax), %ecx
	testb	%cl, %cl
	je	.Lm_BB13_3
	leal	-65(%rcx), %r10d
	xorl	%eax, %eax
	cmpb	$-57, %r10b
	jb	.Lm_BB13_4
	leal	127(%rcx), %r10d
	testb	%cl, %r10b
	jne	.Lm_BB13_4
.Lm_BB13_3:
	movl	%r9d, %eax
.Lm_BB13_4:
	movq	%rsi, %rcx
	movl	%eax, %r9d
	callq	tlsf_open
	testl	%eax, %eax
	jne	.Lm_BB13_7
	movzbl	29(%rsi), %ecx
	testb	$-17, %cl
	je	.Lm_BB13_7
	movb	$1, 28(%rsi)
.Lm_BB13_7:
	movq	$0, near_room(%rip)
	addq	$32, %rsp
	popq	%rsi
	retq
	.seh_endproc
	.def	tlsf_open_near_in_2880;
	.scl	2;
	.type	32;
	.endef
	.globl	tlsf_open_near_in_2880
	.p2align	4
tlsf_open_near_in_2880:
	jmp	tlsf_open_near_in
	.def	tlsf_lane_bytes;
	.scl	2;
	.type	32;
	.endef
	.globl	tlsf_lane_bytes
	.p2align	4
tlsf_lane_bytes:
	leal	(%rcx,%rcx,2), %eax
	addl	$-1025, %ecx
	leal	135(,%rax,8), %edx
	andl	$130944, %edx
	addl	$895, %edx
	xorl	%eax, %eax
	cmpl	$-1024, %ecx
	cmovael	%edx, %eax
	retq
	.def	tlsf_lane_open_in;
	.scl	2;
	.type	32;
	.endef
	.globl	tlsf_lane_open_in
	.p2align	4
tlsf_lane_open_in:
.seh_proc tlsf_lane_open_in
	pushq	%rsi
	.seh_pushreg %rsi
	pushq	%rdi
	.seh_pushreg %rdi
	pushq	%rbx
	.seh_pushreg %rbx
	subq	$32, %rsp
	.seh_stackalloc 32
	.seh_endprologue
	movq	96(%rsp), %rax
	cmpl	$1025, %r8d
	jae	.Lm_BB16_1
	leal	(%r8,%r8,2), %r10d
	leal	135(,%r10,8), %r11d
	andl	$130944, %r11d
	addl	$768, %r11d
	movl	%r9d, %r10d
	negl	%r10d
	andl	$127, %r10d
	movq	%rax, %rsi
	subq	%r10, %rsi
	xorl	%edi, %edi
	cmpq	%r11, %rsi
	cmovbl	%edi, %r8d
	cmpq	%r10, %rax
	movq	%r9, %r11
	notq	%r11
	cmovbl	%edi, %r8d
	cmpq	%r11, %rax
	cmoval	%edi, %r8d
	testq	%r9, %r9
	cmovel	%edi, %r8d
	jmp	.Lm_BB16_3
.Lm_BB16_1:
	movl	%r9d, %r10d
	negl	%r10d
	andl	$127, %r10d
	movq	%r9, %r11
	notq	%r11
.Lm_BB16_3:
	testq	%r9, %r9
	setne	%bl
	cmpq	%r11, %rax
	setbe	%sil
	cmpq	%rax, %r10
	cmovaeq	%rax, %r10
	addq	%r9, %r10
	leaq	begin_behind.nothing(%rip), %r11
	addq	%rax, %r9
	testb	%sil, %bl
	cmoveq	%r11, %r10
	movq	%r10, lent(%rip)
	cmoveq	%r11, %r9
	movq	%r9, lent_end(%rip)
	movq	$128, lent_step(%rip)
	callq	tlsf_lane_open
	cmpl	$5, %eax
	movl	$39, %ecx
	cmovnel	%eax, %ecx
	testb	%sil, %bl
	movq	$0, lent(%rip)
	cmovel	%ecx, %eax
	addq	$32, %rsp
	popq	%rbx
	popq	%rdi
	popq	%rsi
	retq
	.seh_endproc
	.def	tlsf_queue_bytes;
	.scl	2;
	.type	32;
	.endef
	.globl	tlsf_queue_bytes
	.p2align	4
tlsf_queue_bytes:
	movl	$1024, %eax
	movl	$1024, %r8d
	subl	%ecx, %r8d
	subl	%edx, %eax
	orl	%r8d, %eax
	cmpl	$1023, %eax
	ja	.Lm_BB17_1
	movl	%ecx, %eax
	movl	%edx, %ecx
	movq	%rax, %rdx
	shlq	$4, %rdx
	addq	$135, %rdx
	movabsq	$68719476608, %r8
	andq	%rdx, %r8
	leaq	519(,%rcx,8), %rdx
	movabsq	$34359738240, %r9
	andq	%r9, %rdx
	shlq	$5, %rcx
	addq	$135, %rcx
	movabsq	$137438953344, %r10
	andq	%rcx, %r10
	addq	%rdx, %r10
	leaq	135(,%rax,8), %rcx
	andq	%r9, %rcx
	shlq	$7, %rax
	addq	%rcx, %rax
	addq	%r8, %rax
	leaq	(%rax,%r10,2), %rax
	addq	$383, %rax
	retq
.Lm_BB17_1:
	xorl	%eax, %eax
	retq
	.def	tlsf_queue_open_in;
	.scl	2;
	.type	32;
	.endef
	.globl	tlsf_queue_open_in
	.p2align	4
tlsf_queue_open_in:
.seh_proc tlsf_queue_open_in
	pushq	%rsi
	.seh_pushreg %rsi
	pushq	%rdi
	.seh_pushreg %rdi
	pushq	%rbx
	.seh_pushreg %rbx
	subq	$32, %rsp
	.seh_stackalloc 32
	.seh_endprologue
	movq	96(%rsp), %rax
	cmpl	$1025, %r8d
	setb	%r10b
	cmpl	$1025, %edx
	setb	%r11b
	testb	%r10b, %r11b
	je	.Lm_BB18_1
	movl	%edx, %r10d
	movl	%edx, %r11d
	shll	$4, %r11d
	addl	$135, %r11d
	andl	$65408, %r11d
	leal	519(,%r8,8), %esi
	andl	$32640, %esi
	movl	%r8d, %edi
	shll	$5, %edi
	addl	$135, %edi
	andl	$130944, %edi
	addl	%esi, %edi
	leal	135(,%rdx,8), %esi
	andl	$32640, %esi
	shlq	$7, %r10
	addq	%rsi, %r10
	addq	%r11, %r10
	leaq	(%r10,%rdi,2), %r11
	addq	$256, %r11
	movl	%r9d, %r10d
	negl	%r10d
	andl	$127, %r10d
	movq	%rax, %rsi
	subq	%r10, %rsi
	xorl	%edi, %edi
	cmpq	%r11, %rsi
	cmovbl	%edi, %r8d
	cmpq	%r10, %rax
	movq	%r9, %r11
	notq	%r11
	cmovbl	%edi, %r8d
	cmpq	%r11, %rax
	cmoval	%edi, %r8d
	testq	%r9, %r9
	cmovel	%edi, %r8d
	jmp	.Lm_BB18_3
.Lm_BB18_1:
	movl	%r9d, %r10d
	negl	%r10d
	andl	$127, %r10d
	movq	%r9, %r11
	notq	%r11
.Lm_BB18_3:
	testq	%r9, %r9
	setne	%bl
	cmpq	%r11, %rax
	setbe	%sil
	cmpq	%rax, %r10
	cmovaeq	%rax, %r10
	addq	%r9, %r10
	leaq	begin_behind.nothing(%rip), %r11
	addq	%rax, %r9
	testb	%sil, %bl
	cmoveq	%r11, %r10
	movq	%r10, lent(%rip)
	cmoveq	%r11, %r9
	movq	%r9, lent_end(%rip)
	movq	$128, lent_step(%rip)
	callq	tlsf_queue_open
	cmpl	$5, %eax
	movl	$39, %ecx
	cmovnel	%eax, %ecx
	testb	%sil, %bl
	movq	$0, lent(%rip)
	cmovel	%ecx, %eax
	addq	$32, %rsp
	popq	%rbx
	popq	%rdi
	popq	%rsi
	retq
	.seh_endproc
	.def	tlsf_offsets_bytes;
	.scl	2;
	.type	32;
	.endef
	.globl	tlsf_offsets_bytes
	.p2align	4
tlsf_offsets_bytes:
	xorl	%eax, %eax
	cmpl	$4, %edx
	jb	.Lm_BB19_4
	cmpl	$5, %ecx
	sete	%al
	shll	$24, %eax
	cmpl	$4, %ecx
	movl	$1048576, %ecx
	cmovneq	%rax, %rcx
	cmpl	%edx, %ecx
	jae	.Lm_BB19_3
	xorl	%eax, %eax
	retq
.Lm_BB19_3:
	movl	%edx, %eax
	leal	23(,%rax,8), %ecx
	andl	$536870896, %ecx
	addl	$63, %eax
	shrl	$3, %eax
	addl	$16, %eax
	andl	$16777200, %eax
	addq	%rcx, %rax
	addq	$2783, %rax
.Lm_BB19_4:
	retq
	.def	tlsf_offsets_open_in;
	.scl	2;
	.type	32;
	.endef
	.globl	tlsf_offsets_open_in
	.p2align	4
tlsf_offsets_open_in:
.seh_proc tlsf_offsets_open_in
	pushq	%r14
	.seh_pushreg %r14
	pushq	%rsi
	.seh_pushreg %rsi
	pushq	%rdi
	.seh_pushreg %rdi
	pushq	%rbp
	.seh_pushreg %rbp
	pushq	%rbx
	.seh_pushreg %rbx
	subq	$48, %rsp
	.seh_stackalloc 48
	.seh_endprologue
	movq	144(%rsp), %r11
	movq	136(%rsp), %r10
	movl	128(%rsp), %eax
	xorl	%esi, %esi
	cmpl	$5, %edx
	sete	%sil
	shll	$24, %esi
	cmpl	$4, %edx
	movl	$1048576, %edi
	cmovneq	%rsi, %rdi
	cmpl	%eax, %edi
	jae	.Lm_BB20_2
	movl	%r10d, %esi
	negl	%esi
	andl	$15, %esi
	movq	%r10, %rdi
	notq	%rdi
	jmp	.Lm_BB20_3
.Lm_BB20_2:
	leal	23(,%rax,8), %esi
	andl	$536870896, %esi
	leal	63(%rax), %edi
	shrl	$3, %edi
	addl	$16, %edi
	andl	$16777200, %edi
	addq	%rsi, %rdi
	addq	$2768, %rdi
	movl	%r10d, %esi
	negl	%esi
	andl	$15, %esi
	movq	%r11, %rbx
	subq	%rsi, %rbx
	xorl	%ebp, %ebp
	cmpq	%rdi, %rbx
	cmovbl	%ebp, %eax
	cmpq	%rsi, %r11
	movq	%r10, %rdi
	notq	%rdi
	cmovbl	%ebp, %eax
	cmpq	%rdi, %r11
	cmoval	%ebp, %eax
	testq	%r10, %r10
	cmovel	%ebp, %eax
.Lm_BB20_3:
	testq	%r10, %r10
	setne	%bl
	cmpq	%rdi, %r11
	setbe	%dil
	cmpq	%r11, %rsi
	cmovaeq	%r11, %rsi
	addq	%r10, %rsi
	leaq	begin_behind.nothing(%rip), %r14
	addq	%r11, %r10
	testb	%dil, %bl
	cmoveq	%r14, %rsi
	movq	%rsi, lent(%rip)
	cmoveq	%r14, %r10
	movq	%r10, lent_end(%rip)
	movq	$16, lent_step(%rip)
	movl	%eax, 32(%rsp)
	callq	tlsf_offsets_open
	cmpl	$5, %eax
	movl	$39, %ecx
	cmovnel	%eax, %ecx
	testb	%dil, %bl
	movq	$0, lent(%rip)
	cmovel	%ecx, %eax
	addq	$48, %rsp
	popq	%rbx
	popq	%rbp
	popq	%rdi
	popq	%rsi
	popq	%r14
	retq
	.seh_endproc
	.def	tlsf_pools_bytes;
	.scl	2;
	.type	32;
	.endef
	.globl	tlsf_pools_bytes
	.p2align	4
tlsf_pools_bytes:
.seh_proc tlsf_pools_bytes
	pushq	%rsi
	.seh_pushreg %rsi
	subq	$64, %rsp
	.seh_stackalloc 64
	.seh_endprologue
	movq	%r8, %rsi
	movq	$0, 56(%rsp)
	movl	$0, 52(%rsp)
	leaq	52(%rsp), %rax
	movq	%rax, 32(%rsp)
	leaq	56(%rsp), %r9
	callq	tlsf_pools_words
	testl	%eax, %eax
	je	.Lm_BB21_2
	xorl	%eax, %eax
	jmp	.Lm_BB21_3
.Lm_BB21_2:
	movq	56(%rsp), %rax
	movl	52(%rsp), %ecx
	imulq	$2792, %rcx, %rdx
	addq	$23, %rdx
	andq	$-16, %rdx
	leaq	(,%rax,8), %r8
	shrq	$6, %rax
	leaq	(%rcx,%rcx,4), %rcx
	shlq	$4, %rcx
	leaq	(%rsi,%rsi,2), %r9
	leaq	(%r8,%r9,4), %r8
	leaq	(%r8,%rax,8), %rax
	addq	%rcx, %rax
	addq	%rdx, %rax
	addq	$2783, %rax
.Lm_BB21_3:
	addq	$64, %rsp
	popq	%rsi
	retq
	.seh_endproc
	.def	tlsf_pools_open_in;
	.scl	2;
	.type	32;
	.endef
	.globl	tlsf_pools_open_in
	.p2align	4
tlsf_pools_open_in:
.seh_proc tlsf_pools_open_in
	pushq	%r14
	.seh_pushreg %r14
	pushq	%rsi
	.seh_pushreg %rsi
	pushq	%rdi
	.seh_pushreg %rdi
	pushq	%rbx
	.seh_pushreg %rbx
	subq	$40, %rsp
	.seh_stackalloc 40
	.seh_endprologue
	movq	128(%rsp), %rax
	movq	120(%rsp), %r10
	movl	%r10d, %r11d
	negl	%r11d
	andl	$15, %r11d
	testq	%r10, %r10
	setne	%bl
	movq	%r10, %rsi
	notq	%rsi
	cmpq	%rsi, %rax
	setbe	%sil
	cmpq	%rax, %r11
	cmovaeq	%rax, %r11
	movq	112(%rsp), %rdi
	addq	%r10, %r11
	leaq	begin_behind.nothing(%rip), %r14
	addq	%rax, %r10
	testb	%sil, %bl
	cmoveq	%r14, %r11
	movq	%r11, lent(%rip)
	cmoveq	%r14, %r10
	movq	%r10, lent_end(%rip)
	movq	$16, lent_step(%rip)
	movq	%rdi, 32(%rsp)
	callq	tlsf_pools_open
	cmpl	$6, %eax
	movl	$5, %ecx
	cmovel	%ecx, %eax
	cmpl	$5, %eax
	movl	$39, %ecx
	cmovnel	%eax, %ecx
	testb	%sil, %bl
	movq	$0, lent(%rip)
	cmovel	%ecx, %eax
	addq	$40, %rsp
	popq	%rbx
	popq	%rdi
	popq	%rsi
	popq	%r14
	retq
	.seh_endproc
	.def	tlsf_next_number;
	.scl	2;
	.type	32;
	.endef
	.globl	tlsf_next_number
	.p2align	4
tlsf_next_number:
	movl	$1, %edx
	lock		xaddq	%rdx, tlsf_next_number.calls(%rip)
	leaq	(,%rdx,8), %r8
	movslq	%r8d, %r9
	movl	$2, %eax
	cmpq	%r8, %r9
	jne	.Lm_BB23_2
	movl	$2147483648, %eax
	leaq	(%rax,%rdx,8), %rax
	movl	%eax, (%rcx)
	xorl	%eax, %eax
.Lm_BB23_2:
	retq
	.lcomm	tlsf_memory_alloc.nothing,8,8
	.lcomm	near_room,8,8
	.lcomm	pieces_first,4,4
	.lcomm	lent,8,8
	.lcomm	tlsf_next_number.calls,8,8
	.lcomm	lent_step,8,8
	.lcomm	lent_end,8,8
	.lcomm	begin_behind.nothing,1
#elif defined(TLSF_NO_MALLOC)
	.def	tlsf_memory_alloc;
	.scl	2;
	.type	32;
	.endef
	.text
	.globl	tlsf_memory_alloc
	.p2align	4
tlsf_memory_alloc:
	cmpq	$8, %rsi
	ja	.Lm_BB0_1
	movl	_tls_index(%rip), %eax
	movq	%gs:88, %rcx
	movq	(%rcx,%rax,8), %rax
	movq	near_room@SECREL32(%rax), %r8
	testq	%r8, %r8
	je	.Lm_BB0_6
	movl	_tls_index(%rip), %eax
	movq	%gs:88, %rcx
	movq	(%rcx,%rax,8), %rax
	subl	$1, pieces_first@SECREL32(%rax)
	jae	.Lm_BB0_6
	cmpq	$2776, %rdi
	ja	.Lm_BB0_1
	movq	$0, (%r8)
	addq	$8, %r8
	jmp	.Lm_BB0_16
.Lm_BB0_6:
	movl	_tls_index(%rip), %eax
	movq	%gs:88, %rcx
	movq	(%rcx,%rax,8), %r8
	movq	lent@SECREL32(%r8), %rsi
	testq	%rsi, %rsi
	je	.Lm_BB0_1
	movl	_tls_index(%rip), %eax
	movq	%gs:88, %rcx
	movq	(%rcx,%rax,8), %rax
	movq	lent_step@SECREL32(%rax), %r9
	leaq	(%rdi,%r9), %rcx
	addq	$7, %rcx
	movq	%rcx, %rax
	orq	%r9, %rax
	shrq	$32, %rax
	je	.Lm_BB0_11
	movq	%rcx, %rax
	xorl	%edx, %edx
	divq	%r9
	cmpq	$268435456, %rdi
	ja	.Lm_BB0_1
	jmp	.Lm_BB0_12
.Lm_BB0_11:
	movl	%ecx, %eax
	xorl	%edx, %edx
	divl	%r9d
	cmpq	$268435456, %rdi
	ja	.Lm_BB0_1
.Lm_BB0_12:
	addq	$8, %rdi
	movl	_tls_index(%rip), %eax
	movq	%gs:88, %r9
	movq	(%r9,%rax,8), %rax
	movq	lent_end@SECREL32(%rax), %rax
	movq	%rax, %r9
	subq	%rsi, %r9
	cmpq	%r9, %rdi
	jbe	.Lm_BB0_15
.Lm_BB0_1:
	xorl	%r8d, %r8d
.Lm_BB0_16:
	xorl	%eax, %eax
	testq	%r8, %r8
	setne	%al
	leaq	tlsf_memory_alloc.nothing(%rip), %rdx
	cmovneq	%r8, %rdx
	retq
.Lm_BB0_15:
	leaq	lent@SECREL32(%r8), %rdi
	leaq	8(%rsi), %r8
	subq	%rdx, %rcx
	leaq	(%rsi,%rcx), %rdx
	cmpq	%r9, %rcx
	cmovbq	%rdx, %rax
	movq	%rax, (%rdi)
	movq	$0, (%rsi)
	jmp	.Lm_BB0_16
	.def	tlsf_memory_dealloc;
	.scl	2;
	.type	32;
	.endef
	.globl	tlsf_memory_dealloc
	.p2align	4
tlsf_memory_dealloc:
	retq
	.def	tlsf_memory_realloc;
	.scl	2;
	.type	32;
	.endef
	.globl	tlsf_memory_realloc
	.p2align	4
tlsf_memory_realloc:
.seh_proc tlsf_memory_realloc
	pushq	%rbx
	.seh_pushreg %rbx
	subq	$32, %rsp
	.seh_stackalloc 32
	.seh_endprologue
	movq	%rdx, %r9
	leaq	tlsf_memory_alloc.nothing(%rip), %rdx
	cmpq	$8, %rcx
	ja	.Lm_BB2_1
	movl	_tls_index(%rip), %eax
	movq	%gs:88, %rcx
	movq	(%rcx,%rax,8), %rax
	movq	near_room@SECREL32(%rax), %rbx
	testq	%rbx, %rbx
	je	.Lm_BB2_6
	movl	_tls_index(%rip), %eax
	movq	%gs:88, %rcx
	movq	(%rcx,%rax,8), %rax
	subl	$1, pieces_first@SECREL32(%rax)
	jae	.Lm_BB2_6
	cmpq	$2776, %r9
	ja	.Lm_BB2_1
	jmp	.Lm_BB2_16
.Lm_BB2_6:
	movl	_tls_index(%rip), %eax
	movq	%gs:88, %rcx
	movq	(%rcx,%rax,8), %rcx
	movq	lent@SECREL32(%rcx), %rbx
	testq	%rbx, %rbx
	je	.Lm_BB2_1
	movq	%rdx, %r10
	movl	_tls_index(%rip), %eax
	movq	%gs:88, %rdx
	movq	(%rdx,%rax,8), %rax
	movq	lent_step@SECREL32(%rax), %r11
	leaq	(%r9,%r11), %r8
	addq	$7, %r8
	movq	%r8, %rax
	orq	%r11, %rax
	shrq	$32, %rax
	je	.Lm_BB2_10
	movq	%r8, %rax
	xorl	%edx, %edx
	divq	%r11
	movq	%rdx, %rax
	jmp	.Lm_BB2_11
.Lm_BB2_10:
	movl	%r8d, %eax
	xorl	%edx, %edx
	divl	%r11d
	movl	%edx, %eax
.Lm_BB2_11:
	cmpq	$268435456, %r9
	movq	%r10, %rdx
	ja	.Lm_BB2_1
	addq	$8, %r9
	movl	_tls_index(%rip), %r10d
	movq	%gs:88, %r11
	movq	(%r11,%r10,8), %r10
	movq	lent_end@SECREL32(%r10), %r10
	movq	%r10, %r11
	subq	%rbx, %r11
	cmpq	%r11, %r9
	jbe	.Lm_BB2_15
.Lm_BB2_1:
	xorl	%eax, %eax
.Lm_BB2_17:
	addq	$32, %rsp
	popq	%rbx
	retq
.Lm_BB2_15:
	leaq	lent@SECREL32(%rcx), %rcx
	subq	%rax, %r8
	leaq	(%rbx,%r8), %rax
	cmpq	%r11, %r8
	cmovbq	%rax, %r10
	movq	%r10, (%rcx)
.Lm_BB2_16:
	movq	$0, (%rbx)
	addq	$8, %rbx
	movq	%rbx, %rcx
	movq	%rdi, %rdx
	movq	%rsi, %r8
	callq	memcpy
	movl	$1, %eax
	movq	%rbx, %rdx
	jmp	.Lm_BB2_17
	.seh_endproc
	.def	tlsf_memory_set;
	.scl	2;
	.type	32;
	.endef
	.globl	tlsf_memory_set
	.p2align	4
tlsf_memory_set:
	testl	%edx, %edx
	jne	memset
	cmpq	$513, %r8
	jae	memset
	cmpq	$257, %r8
	jb	.Lm_BB3_4
	xorps	%xmm0, %xmm0
	movups	%xmm0, (%rcx)
	movups	%xmm0, -16(%rcx,%r8)
	movups	%xmm0, 16(%rcx)
	movups	%xmm0, -32(%rcx,%r8)
	movups	%xmm0, 32(%rcx)
	movups	%xmm0, -48(%rcx,%r8)
	movups	%xmm0, 48(%rcx)
	movups	%xmm0, -64(%rcx,%r8)
	movups	%xmm0, 64(%rcx)
	movups	%xmm0, -80(%rcx,%r8)
	movups	%xmm0, 80(%rcx)
	movups	%xmm0, -96(%rcx,%r8)
	movups	%xmm0, 96(%rcx)
	movups	%xmm0, -112(%rcx,%r8)
	movups	%xmm0, 112(%rcx)
	movups	%xmm0, -128(%rcx,%r8)
	movups	%xmm0, 128(%rcx)
	movups	%xmm0, -144(%rcx,%r8)
	movups	%xmm0, 144(%rcx)
	movups	%xmm0, -160(%rcx,%r8)
	movups	%xmm0, 160(%rcx)
	movups	%xmm0, -176(%rcx,%r8)
	movups	%xmm0, 176(%rcx)
	movups	%xmm0, -192(%rcx,%r8)
	movups	%xmm0, 192(%rcx)
	movups	%xmm0, -208(%rcx,%r8)
	movups	%xmm0, 208(%rcx)
	movups	%xmm0, -224(%rcx,%r8)
	movups	%xmm0, 224(%rcx)
	movups	%xmm0, -240(%rcx,%r8)
	movups	%xmm0, 240(%rcx)
	movups	%xmm0, -256(%rcx,%r8)
	movq	%rcx, %rax
	retq
.Lm_BB3_4:
	cmpq	$129, %r8
	jb	.Lm_BB3_6
	xorps	%xmm0, %xmm0
	movups	%xmm0, (%rcx)
	movups	%xmm0, -16(%rcx,%r8)
	movups	%xmm0, 16(%rcx)
	movups	%xmm0, -32(%rcx,%r8)
	movups	%xmm0, 32(%rcx)
	movups	%xmm0, -48(%rcx,%r8)
	movups	%xmm0, 48(%rcx)
	movups	%xmm0, -64(%rcx,%r8)
	movups	%xmm0, 64(%rcx)
	movups	%xmm0, -80(%rcx,%r8)
	movups	%xmm0, 80(%rcx)
	movups	%xmm0, -96(%rcx,%r8)
	movups	%xmm0, 96(%rcx)
	movups	%xmm0, -112(%rcx,%r8)
	movups	%xmm0, 112(%rcx)
	movups	%xmm0, -128(%rcx,%r8)
	movq	%rcx, %rax
	retq
.Lm_BB3_6:
	cmpq	$65, %r8
	jb	.Lm_BB3_8
	xorps	%xmm0, %xmm0
	movups	%xmm0, (%rcx)
	movups	%xmm0, -16(%rcx,%r8)
	movups	%xmm0, 16(%rcx)
	movups	%xmm0, -32(%rcx,%r8)
	movups	%xmm0, 32(%rcx)
	movups	%xmm0, -48(%rcx,%r8)
	movups	%xmm0, 48(%rcx)
	movups	%xmm0, -64(%rcx,%r8)
	movq	%rcx, %rax
	retq
.Lm_BB3_8:
	cmpq	$33, %r8
	jb	.Lm_BB3_10
	xorps	%xmm0, %xmm0
	movups	%xmm0, (%rcx)
	movups	%xmm0, -16(%rcx,%r8)
	movups	%xmm0, 16(%rcx)
	movups	%xmm0, -32(%rcx,%r8)
	movq	%rcx, %rax
	retq
.Lm_BB3_10:
	cmpq	$17, %r8
	jb	.Lm_BB3_12
	xorps	%xmm0, %xmm0
	movups	%xmm0, (%rcx)
	movups	%xmm0, -16(%rcx,%r8)
	movq	%rcx, %rax
	retq
.Lm_BB3_12:
	cmpq	$7, %r8
	ja	.Lm_BB3_13
	xorl	%edx, %edx
	jmp	memset
.Lm_BB3_13:
	movq	$0, (%rcx)
	movq	$0, -8(%rcx,%r8)
	movq	%rcx, %rax
	retq
	.def	tlsf_memory_cpy;
	.scl	2;
	.type	32;
	.endef
	.globl	tlsf_memory_cpy
	.p2align	4
tlsf_memory_cpy:
	jmp	memcpy
	.def	tlsf_memory_move;
	.scl	2;
	.type	32;
	.endef
	.globl	tlsf_memory_move
	.p2align	4
tlsf_memory_move:
	jmp	memmove
	.def	tlsf_bytes;
	.scl	2;
	.type	32;
	.endef
	.globl	tlsf_bytes
	.p2align	4
tlsf_bytes:
	xorl	%eax, %eax
	cmpl	$4, %edx
	jb	.Lm_BB6_4
	cmpl	$5, %ecx
	sete	%al
	shll	$24, %eax
	cmpl	$4, %ecx
	movl	$1048576, %ecx
	cmovneq	%rax, %rcx
	cmpl	%edx, %ecx
	jae	.Lm_BB6_3
	xorl	%eax, %eax
	retq
.Lm_BB6_3:
	movl	%edx, %eax
	leaq	23(,%rax,8), %rcx
	andq	$-16, %rcx
	addq	$63, %rax
	shrq	$3, %rax
	addl	$16, %eax
	andl	$-16, %eax
	addq	%rcx, %rax
	addq	$2783, %rax
.Lm_BB6_4:
	retq
	.def	tlsf_near_bytes;
	.scl	2;
	.type	32;
	.endef
	.globl	tlsf_near_bytes
	.p2align	4
tlsf_near_bytes:
	xorl	%eax, %eax
	cmpl	$4, %edx
	jb	.Lm_BB7_4
	cmpl	$5, %ecx
	sete	%al
	shll	$24, %eax
	cmpl	$4, %ecx
	movl	$1048576, %ecx
	cmovneq	%rax, %rcx
	cmpl	%edx, %ecx
	jae	.Lm_BB7_3
	xorl	%eax, %eax
	retq
.Lm_BB7_3:
	movl	%edx, %eax
	leaq	23(,%rax,8), %rcx
	andq	$-16, %rcx
	addq	$63, %rax
	shrq	$6, %rax
	leaq	(%rcx,%rax,8), %rax
	addq	$23, %rax
.Lm_BB7_4:
	retq
	.def	tlsf_open_in;
	.scl	2;
	.type	32;
	.endef
	.globl	tlsf_open_in
	.p2align	4
tlsf_open_in:
.seh_proc tlsf_open_in
	pushq	%r15
	.seh_pushreg %r15
	pushq	%r14
	.seh_pushreg %r14
	pushq	%r13
	.seh_pushreg %r13
	pushq	%r12
	.seh_pushreg %r12
	pushq	%rsi
	.seh_pushreg %rsi
	pushq	%rdi
	.seh_pushreg %rdi
	pushq	%rbp
	.seh_pushreg %rbp
	pushq	%rbx
	.seh_pushreg %rbx
	subq	$40, %rsp
	.seh_stackalloc 40
	.seh_endprologue
	movq	%rcx, %rsi
	movzbl	29(%rcx), %ecx
	testq	%rcx, %rcx
	je	.Lm_BB8_3
	leal	-65(%rcx), %eax
	cmpb	$-57, %al
	jb	.Lm_BB8_2
	leal	127(%rcx), %eax
	testl	%ecx, %eax
	je	.Lm_BB8_6
.Lm_BB8_2:
	xorl	%eax, %eax
	jmp	.Lm_BB8_11
.Lm_BB8_3:
	movl	$16, %r11d
	jmp	.Lm_BB8_7
.Lm_BB8_6:
	cmpq	$17, %rcx
	movl	$16, %r11d
	cmovaeq	%rcx, %r11
.Lm_BB8_7:
	movl	%edx, %r10d
	movq	$-32, %rax
	subq	%r9, %rax
	movq	%rax, %rdx
	shrq	$32, %rdx
	je	.Lm_BB8_9
	xorl	%edx, %edx
	divq	%r11
	movq	%rdx, %rax
	jmp	.Lm_BB8_10
.Lm_BB8_9:
	xorl	%edx, %edx
	divl	%r11d
	movl	%edx, %eax
.Lm_BB8_10:
	movl	%r10d, %edx
.Lm_BB8_11:
	movq	144(%rsp), %r11
	xorl	%r10d, %r10d
	movq	%r9, %rdi
	notq	%rdi
	testq	%r9, %r9
	je	.Lm_BB8_18
	cmpq	%rdi, %r11
	ja	.Lm_BB8_18
	movq	%r11, %r15
	subq	%rax, %r15
	jb	.Lm_BB8_18
	xorl	%r14d, %r14d
	cmpl	$5, %edx
	sete	%r14b
	shll	$24, %r14d
	cmpl	$4, %edx
	movl	$1048576, %ebx
	cmovneq	%r14, %rbx
	cmpq	$2832, %r15
	jb	.Lm_BB8_18
	cmpq	$268435456, %r15
	movl	$268435456, %r14d
	cmovbq	%r15, %r14
	leal	-22400(,%r14,8), %r15d
	movl	$4228890877, %r10d
	imulq	%r15, %r10
	shrq	$38, %r10
	leaq	87(,%r10,8), %r15
	addq	$71, %r10
	.p2align	4
.Lm_BB8_16:
	movq	%r15, %r12
	andq	$-16, %r12
	movq	%r10, %r13
	shrq	$3, %r13
	addq	$16, %r13
	andq	$-16, %r13
	addq	%r13, %r12
	addq	$2768, %r12
	decq	%r10
	addq	$-8, %r15
	cmpq	%r14, %r12
	ja	.Lm_BB8_16
	addq	$-62, %r10
	cmpq	%rbx, %r10
	cmovaeq	%rbx, %r10
.Lm_BB8_18:
	testq	%r9, %r9
	setne	%bpl
	cmpq	%rdi, %r11
	setbe	%bl
	andb	%bpl, %bl
	cmpq	%r11, %rax
	cmovaeq	%r11, %rax
	addq	%r9, %rax
	leaq	begin_behind.nothing(%rip), %rdi
	addq	%r11, %r9
	testb	%bl, %bl
	cmoveq	%rdi, %rax
	cmoveq	%rdi, %r9
	movl	_tls_index(%rip), %r11d
	movq	%gs:88, %rdi
	movq	(%rdi,%r11,8), %r11
	movq	%rax, lent@SECREL32(%r11)
	movq	%r9, lent_end@SECREL32(%r11)
	movq	$16, lent_step@SECREL32(%r11)
	testq	%rcx, %rcx
	je	.Lm_BB8_21
	leal	-65(%rcx), %eax
	xorl	%r9d, %r9d
	cmpb	$-57, %al
	jb	.Lm_BB8_22
	leal	127(%rcx), %eax
	testb	%cl, %al
	jne	.Lm_BB8_22
.Lm_BB8_21:
	movl	%r10d, %r9d
.Lm_BB8_22:
	leaq	lent@SECREL32(%r11), %rdi
	movq	%rsi, %rcx
	callq	tlsf_open
	testl	%eax, %eax
	je	.Lm_BB8_24
	movq	$0, (%rdi)
	cmpl	$5, %eax
	sete	%dl
	notb	%bl
	movl	$39, %ecx
	testb	%dl, %bl
	je	.Lm_BB8_27
	jmp	.Lm_BB8_28
.Lm_BB8_24:
	movzbl	29(%rsi), %ecx
	testb	$-17, %cl
	je	.Lm_BB8_26
	movb	$1, 28(%rsi)
.Lm_BB8_26:
	movq	$0, (%rdi)
.Lm_BB8_27:
	movl	%eax, %ecx
.Lm_BB8_28:
	movl	%ecx, %eax
	addq	$40, %rsp
	popq	%rbx
	popq	%rbp
	popq	%rdi
	popq	%rsi
	popq	%r12
	popq	%r13
	popq	%r14
	popq	%r15
	retq
	.seh_endproc
	.def	tlsf_open_near;
	.scl	2;
	.type	32;
	.endef
	.globl	tlsf_open_near
	.p2align	4
tlsf_open_near:
.seh_proc tlsf_open_near
	pushq	%rsi
	.seh_pushreg %rsi
	pushq	%rdi
	.seh_pushreg %rdi
	subq	$40, %rsp
	.seh_stackalloc 40
	.seh_endprologue
	movl	%ecx, %eax
	negl	%eax
	andl	$63, %eax
	leaq	(%rcx,%rax), %rsi
	leaq	(%rcx,%rax), %r11
	addq	$32, %r11
	movl	_tls_index(%rip), %r10d
	movq	%gs:88, %rdi
	movq	(%rdi,%r10,8), %r10
	movq	%r11, near_room@SECREL32(%r10)
	movl	$2, pieces_first@SECREL32(%r10)
	movzbl	29(%rcx,%rax), %ecx
	testb	%cl, %cl
	je	.Lm_BB9_3
	leal	-65(%rcx), %r11d
	xorl	%eax, %eax
	cmpb	$-57, %r11b
	jb	.Lm_BB9_4
	leal	127(%rcx), %r11d
	testb	%cl, %r11b
	jne	.Lm_BB9_4
.Lm_BB9_3:
	movl	%r9d, %eax
.Lm_BB9_4:
	leaq	near_room@SECREL32(%r10), %rdi
	movq	%rsi, %rcx
	movl	%eax, %r9d
	callq	tlsf_open
	testl	%eax, %eax
	jne	.Lm_BB9_7
	movzbl	29(%rsi), %ecx
	testb	$-17, %cl
	je	.Lm_BB9_7
	movb	$1, 28(%rsi)
.Lm_BB9_7:
	movq	$0, (%rdi)
	addq	$40, %rsp
	popq	%rdi
	popq	%rsi
	retq
	.seh_endproc
	.def	tlsf_open_near_in;
	.scl	2;
	.type	32;
	.endef
	.globl	tlsf_open_near_in
	.p2align	4
tlsf_open_near_in:
.seh_proc tlsf_open_near_in
	pushq	%r15
	.seh_pushreg %r15
	pushq	%r14
	.seh_pushreg %r14
	pushq	%r13
	.seh_pushreg %r13
	pushq	%r12
	.seh_pushreg %r12
	pushq	%rsi
	.seh_pushreg %rsi
	pushq	%rdi
	.seh_pushreg %rdi
	pushq	%rbp
	.seh_pushreg %rbp
	pushq	%rbx
	.seh_pushreg %rbx
	subq	$56, %rsp
	.seh_stackalloc 56
	.seh_endprologue
	movq	%rcx, %rsi
	movl	%esi, %r11d
	negl	%r11d
	andl	$63, %r11d
	leaq	(%rcx,%r11), %rax
	addq	$32, %rax
	movl	_tls_index(%rip), %ecx
	movq	%gs:88, %r10
	movq	(%r10,%rcx,8), %r12
	movq	%rax, near_room@SECREL32(%r12)
	movl	$2, pieces_first@SECREL32(%r12)
	movzbl	29(%rsi,%r11), %r10d
	testq	%r10, %r10
	je	.Lm_BB10_3
	leal	-65(%r10), %eax
	cmpb	$-57, %al
	jb	.Lm_BB10_2
	leal	127(%r10), %eax
	testl	%r10d, %eax
	je	.Lm_BB10_6
.Lm_BB10_2:
	xorl	%eax, %eax
	jmp	.Lm_BB10_11
.Lm_BB10_3:
	movl	$16, %ebx
	jmp	.Lm_BB10_7
.Lm_BB10_6:
	cmpq	$17, %r10
	movl	$16, %ebx
	cmovaeq	%r10, %rbx
.Lm_BB10_7:
	movl	%edx, %edi
	movq	$-32, %rax
	subq	%r9, %rax
	movq	%rax, %rdx
	shrq	$32, %rdx
	je	.Lm_BB10_9
	xorl	%edx, %edx
	divq	%rbx
	movq	%rdx, %rax
	jmp	.Lm_BB10_10
.Lm_BB10_9:
	xorl	%edx, %edx
	divl	%ebx
	movl	%edx, %eax
.Lm_BB10_10:
	movl	%edi, %edx
.Lm_BB10_11:
	movq	160(%rsp), %rbx
	xorl	%ecx, %ecx
	movq	%r9, %r14
	notq	%r14
	testq	%r9, %r9
	je	.Lm_BB10_18
	cmpq	%r14, %rbx
	ja	.Lm_BB10_18
	movq	%rbx, %r13
	subq	%rax, %r13
	jb	.Lm_BB10_18
	movl	%r8d, 44(%rsp)
	movq	%r12, 48(%rsp)
	xorl	%r12d, %r12d
	cmpl	$5, %edx
	sete	%r12b
	shll	$24, %r12d
	cmpl	$4, %edx
	movl	$1048576, %r15d
	cmovneq	%r12, %r15
	movq	48(%rsp), %r12
	movl	44(%rsp), %r8d
	cmpq	$64, %r13
	jb	.Lm_BB10_18
	cmpq	$268435456, %r13
	movl	$268435456, %r12d
	cmovbq	%r13, %r12
	leal	-192(,%r12,8), %r13d
	movl	$4228890877, %ecx
	imulq	%r13, %rcx
	shrq	$38, %rcx
	leaq	87(,%rcx,8), %r13
	addq	$71, %rcx
	.p2align	4
.Lm_BB10_16:
	movq	%r13, %rbp
	andq	$-16, %rbp
	movq	%rcx, %rdi
	shrq	$6, %rdi
	leaq	8(,%rdi,8), %rdi
	addq	%rbp, %rdi
	decq	%rcx
	addq	$-8, %r13
	cmpq	%r12, %rdi
	ja	.Lm_BB10_16
	addq	$-62, %rcx
	cmpq	%r15, %rcx
	cmovaeq	%r15, %rcx
	movl	44(%rsp), %r8d
	movq	48(%rsp), %r12
.Lm_BB10_18:
	addq	%r11, %rsi
	testq	%r9, %r9
	setne	%r11b
	cmpq	%r14, %rbx
	setbe	%bpl
	andb	%r11b, %bpl
	cmpq	%rbx, %rax
	cmovaeq	%rbx, %rax
	addq	%r9, %rax
	leaq	begin_behind.nothing(%rip), %r11
	addq	%rbx, %r9
	testb	%bpl, %bpl
	cmoveq	%r11, %rax
	cmoveq	%r11, %r9
	movl	_tls_index(%rip), %r11d
	movq	%gs:88, %rdi
	movq	(%rdi,%r11,8), %r11
	movq	%rax, lent@SECREL32(%r11)
	movq	%r9, lent_end@SECREL32(%r11)
	movq	$16, lent_step@SECREL32(%r11)
	testq	%r10, %r10
	je	.Lm_BB10_21
	leal	-65(%r10), %eax
	xorl	%r9d, %r9d
	cmpb	$-57, %al
	jb	.Lm_BB10_22
	leal	127(%r10), %eax
	testb	%r10b, %al
	jne	.Lm_BB10_22
.Lm_BB10_21:
	movl	%ecx, %r9d
.Lm_BB10_22:
	leaq	near_room@SECREL32(%r12), %rdi
	leaq	lent@SECREL32(%r11), %rbx
	movq	%rsi, %rcx
	callq	tlsf_open
	testl	%eax, %eax
	je	.Lm_BB10_24
	movq	$0, (%rbx)
	cmpl	$5, %eax
	sete	%dl
	notb	%bpl
	movl	$39, %ecx
	testb	%dl, %bpl
	je	.Lm_BB10_27
	jmp	.Lm_BB10_28
.Lm_BB10_24:
	movzbl	29(%rsi), %ecx
	testb	$-17, %cl
	je	.Lm_BB10_26
	movb	$1, 28(%rsi)
.Lm_BB10_26:
	movq	$0, (%rbx)
.Lm_BB10_27:
	movl	%eax, %ecx
.Lm_BB10_28:
	movq	$0, (%rdi)
	movl	%ecx, %eax
	addq	$56, %rsp
	popq	%rbx
	popq	%rbp
	popq	%rdi
	popq	%rsi
	popq	%r12
	popq	%r13
	popq	%r14
	popq	%r15
	retq
	.seh_endproc
	.def	tlsf_open_32;
	.scl	2;
	.type	32;
	.endef
	.globl	tlsf_open_32
	.p2align	4
tlsf_open_32:
.seh_proc tlsf_open_32
	pushq	%rsi
	.seh_pushreg %rsi
	subq	$32, %rsp
	.seh_stackalloc 32
	.seh_endprologue
	movq	%rcx, %rsi
	movzbl	29(%rcx), %ecx
	testb	%cl, %cl
	je	.Lm_BB11_3
	leal	-65(%rcx), %r10d
	xorl	%eax, %eax
	cmpb	$-57, %r10b
	jb	.Lm_BB11_4
	leal	127(%rcx), %r10d
	testb	%cl, %r10b
	jne	.Lm_BB11_4
.Lm_BB11_3:
	movl	%r9d, %eax
.Lm_BB11_4:
	movq	%rsi, %rcx
	movl	%eax, %r9d
	callq	tlsf_open
	testl	%eax, %eax
	jne	.Lm_BB11_7
	movzbl	29(%rsi), %ecx
	testb	$-17, %cl
	je	.Lm_BB11_7
	movb	$1, 28(%rsi)
.Lm_BB11_7:
	addq	$32, %rsp
	popq	%rsi
	retq
	.seh_endproc
	.def	tlsf_open_in_32;
	.scl	2;
	.type	32;
	.endef
	.globl	tlsf_open_in_32
	.p2align	4
tlsf_open_in_32:
	jmp	tlsf_open_in
	.def	tlsf_open_near_2880;
	.scl	2;
	.type	32;
	.endef
	.globl	tlsf_open_near_2880
	.p2align	4
tlsf_open_near_2880:
.seh_proc tlsf_open_near_2880
	pushq	%rsi
	.seh_pushreg %rsi
	pushq	%rdi
	.seh_pushreg %rdi
	subq	$40, %rsp
	.seh_stackalloc 40
	.seh_endprologue
	movl	%ecx, %eax
	negl	%eax
	andl	$63, %eax
	leaq	(%rcx,%rax), %rsi
	leaq	(%rcx,%rax), %r11
	addq	$32, %r11
	movl	_tls_index(%rip), %r10d
	movq	%gs:88, %rdi
	movq	(%rdi,%r10,8), %r10
	movq	%r11, near_room@SECREL32(%r10)
	movl	$2, pieces_first@SECREL32(%r10)
	movzbl	29(%rcx,%rax), %ecx
	testb	%cl, %cl
	je	.Lm_BB13_3
	leal	-65(%rcx), %r11d
	xorl	%eax, %eax
	cmpb	$-57, %r11b
	jb	.Lm_BB13_4
	leal	127(%rcx), %r11d
	testb	%cl, %r11b
	jne	.Lm_BB13_4
.Lm_BB13_3:
	movl	%r9d, %eax
.Lm_BB13_4:
	leaq	near_room@SECREL32(%r10), %rdi
	movq	%rsi, %rcx
	movl	%eax, %r9d
	callq	tlsf_open
	testl	%eax, %eax
	jne	.Lm_BB13_7
	movzbl	29(%rsi), %ecx
	testb	$-17, %cl
	je	.Lm_BB13_7
	movb	$1, 28(%rsi)
.Lm_BB13_7:
	movq	$0, (%rdi)
	addq	$40, %rsp
	popq	%rdi
	popq	%rsi
	retq
	.seh_endproc
	.def	tlsf_open_near_in_2880;
	.scl	2;
	.type	32;
	.endef
	.globl	tlsf_open_near_in_2880
	.p2align	4
tlsf_open_near_in_2880:
	jmp	tlsf_open_near_in
	.def	tlsf_lane_bytes;
	.scl	2;
	.type	32;
	.endef
	.globl	tlsf_lane_bytes
	.p2align	4
tlsf_lane_bytes:
	leal	(%rcx,%rcx,2), %eax
	addl	$-1025, %ecx
	leal	135(,%rax,8), %edx
	andl	$130944, %edx
	addl	$895, %edx
	xorl	%eax, %eax
	cmpl	$-1024, %ecx
	cmovael	%edx, %eax
	retq
	.def	tlsf_lane_open_in;
	.scl	2;
	.type	32;
	.endef
	.globl	tlsf_lane_open_in
	.p2align	4
tlsf_lane_open_in:
.seh_proc tlsf_lane_open_in
	pushq	%rsi
	.seh_pushreg %rsi
	pushq	%rdi
	.seh_pushreg %rdi
	pushq	%rbx
	.seh_pushreg %rbx
	subq	$32, %rsp
	.seh_stackalloc 32
	.seh_endprologue
	movq	96(%rsp), %rax
	cmpl	$1025, %r8d
	jae	.Lm_BB16_1
	leal	(%r8,%r8,2), %r10d
	leal	135(,%r10,8), %r11d
	andl	$130944, %r11d
	addl	$768, %r11d
	movl	%r9d, %r10d
	negl	%r10d
	andl	$127, %r10d
	movq	%rax, %rsi
	subq	%r10, %rsi
	xorl	%edi, %edi
	cmpq	%r11, %rsi
	cmovbl	%edi, %r8d
	cmpq	%r10, %rax
	movq	%r9, %r11
	notq	%r11
	cmovbl	%edi, %r8d
	cmpq	%r11, %rax
	cmoval	%edi, %r8d
	testq	%r9, %r9
	cmovel	%edi, %r8d
	jmp	.Lm_BB16_3
.Lm_BB16_1:
	movl	%r9d, %r10d
	negl	%r10d
	andl	$127, %r10d
	movq	%r9, %r11
	notq	%r11
.Lm_BB16_3:
	testq	%r9, %r9
	setne	%bl
	cmpq	%r11, %rax
	setbe	%sil
	cmpq	%rax, %r10
	cmovaeq	%rax, %r10
	addq	%r9, %r10
	leaq	begin_behind.nothing(%rip), %r11
	addq	%rax, %r9
	testb	%sil, %bl
	cmoveq	%r11, %r10
	movl	_tls_index(%rip), %eax
	movq	%gs:88, %rdi
	movq	(%rdi,%rax,8), %rdi
	movq	%r10, lent@SECREL32(%rdi)
	cmoveq	%r11, %r9
	movq	%r9, lent_end@SECREL32(%rdi)
	movq	$128, lent_step@SECREL32(%rdi)
	callq	tlsf_lane_open
	cmpl	$5, %eax
	movl	$39, %ecx
	cmovnel	%eax, %ecx
	testb	%sil, %bl
	movq	$0, lent@SECREL32(%rdi)
	cmovel	%ecx, %eax
	addq	$32, %rsp
	popq	%rbx
	popq	%rdi
	popq	%rsi
	retq
	.seh_endproc
	.def	tlsf_queue_bytes;
	.scl	2;
	.type	32;
	.endef
	.globl	tlsf_queue_bytes
	.p2align	4
tlsf_queue_bytes:
	movl	$1024, %eax
	movl	$1024, %r8d
	subl	%ecx, %r8d
	subl	%edx, %eax
	orl	%r8d, %eax
	cmpl	$1023, %eax
	ja	.Lm_BB17_1
	movl	%ecx, %eax
	movl	%edx, %ecx
	movq	%rax, %rdx
	shlq	$4, %rdx
	addq	$135, %rdx
	movabsq	$68719476608, %r8
	andq	%rdx, %r8
	leaq	519(,%rcx,8), %rdx
	movabsq	$34359738240, %r9
	andq	%r9, %rdx
	shlq	$5, %rcx
	addq	$135, %rcx
	movabsq	$137438953344, %r10
	andq	%rcx, %r10
	addq	%rdx, %r10
	leaq	135(,%rax,8), %rcx
	andq	%r9, %rcx
	shlq	$7, %rax
	addq	%rcx, %rax
	addq	%r8, %rax
	leaq	(%rax,%r10,2), %rax
	addq	$383, %rax
	retq
.Lm_BB17_1:
	xorl	%eax, %eax
	retq
	.def	tlsf_queue_open_in;
	.scl	2;
	.type	32;
	.endef
	.globl	tlsf_queue_open_in
	.p2align	4
tlsf_queue_open_in:
.seh_proc tlsf_queue_open_in
	pushq	%rsi
	.seh_pushreg %rsi
	pushq	%rdi
	.seh_pushreg %rdi
	pushq	%rbx
	.seh_pushreg %rbx
	subq	$32, %rsp
	.seh_stackalloc 32
	.seh_endprologue
	movq	96(%rsp), %rax
	cmpl	$1025, %r8d
	setb	%r10b
	cmpl	$1025, %edx
	setb	%r11b
	testb	%r10b, %r11b
	je	.Lm_BB18_1
	movl	%edx, %r10d
	movl	%edx, %r11d
	shll	$4, %r11d
	addl	$135, %r11d
	andl	$65408, %r11d
	leal	519(,%r8,8), %esi
	andl	$32640, %esi
	movl	%r8d, %edi
	shll	$5, %edi
	addl	$135, %edi
	andl	$130944, %edi
	addl	%esi, %edi
	leal	135(,%rdx,8), %esi
	andl	$32640, %esi
	shlq	$7, %r10
	addq	%rsi, %r10
	addq	%r11, %r10
	leaq	(%r10,%rdi,2), %r11
	addq	$256, %r11
	movl	%r9d, %r10d
	negl	%r10d
	andl	$127, %r10d
	movq	%rax, %rsi
	subq	%r10, %rsi
	xorl	%edi, %edi
	cmpq	%r11, %rsi
	cmovbl	%edi, %r8d
	cmpq	%r10, %rax
	movq	%r9, %r11
	notq	%r11
	cmovbl	%edi, %r8d
	cmpq	%r11, %rax
	cmoval	%edi, %r8d
	testq	%r9, %r9
	cmovel	%edi, %r8d
	jmp	.Lm_BB18_3
.Lm_BB18_1:
	movl	%r9d, %r10d
	negl	%r10d
	andl	$127, %r10d
	movq	%r9, %r11
	notq	%r11
.Lm_BB18_3:
	testq	%r9, %r9
	setne	%bl
	cmpq	%r11, %rax
	setbe	%sil
	cmpq	%rax, %r10
	cmovaeq	%rax, %r10
	addq	%r9, %r10
	leaq	begin_behind.nothing(%rip), %r11
	addq	%rax, %r9
	testb	%sil, %bl
	cmoveq	%r11, %r10
	movl	_tls_index(%rip), %eax
	movq	%gs:88, %rdi
	movq	(%rdi,%rax,8), %rdi
	movq	%r10, lent@SECREL32(%rdi)
	cmoveq	%r11, %r9
	movq	%r9, lent_end@SECREL32(%rdi)
	movq	$128, lent_step@SECREL32(%rdi)
	callq	tlsf_queue_open
	cmpl	$5, %eax
	movl	$39, %ecx
	cmovnel	%eax, %ecx
	testb	%sil, %bl
	movq	$0, lent@SECREL32(%rdi)
	cmovel	%ecx, %eax
	addq	$32, %rsp
	popq	%rbx
	popq	%rdi
	popq	%rsi
	retq
	.seh_endproc
	.def	tlsf_offsets_bytes;
	.scl	2;
	.type	32;
	.endef
	.globl	tlsf_offsets_bytes
	.p2align	4
tlsf_offsets_bytes:
	xorl	%eax, %eax
	cmpl	$4, %edx
	jb	.Lm_BB19_4
	cmpl	$5, %ecx
	sete	%al
	shll	$24, %eax
	cmpl	$4, %ecx
	movl	$1048576, %ecx
	cmovneq	%rax, %rcx
	cmpl	%edx, %ecx
	jae	.Lm_BB19_3
	xorl	%eax, %eax
	retq
.Lm_BB19_3:
	movl	%edx, %eax
	leal	23(,%rax,8), %ecx
	andl	$536870896, %ecx
	addl	$63, %eax
	shrl	$3, %eax
	addl	$16, %eax
	andl	$16777200, %eax
	addq	%rcx, %rax
	addq	$2783, %rax
.Lm_BB19_4:
	retq
	.def	tlsf_offsets_open_in;
	.scl	2;
	.type	32;
	.endef
	.globl	tlsf_offsets_open_in
	.p2align	4
tlsf_offsets_open_in:
.seh_proc tlsf_offsets_open_in
	pushq	%r15
	.seh_pushreg %r15
	pushq	%r14
	.seh_pushreg %r14
	pushq	%rsi
	.seh_pushreg %rsi
	pushq	%rdi
	.seh_pushreg %rdi
	pushq	%rbp
	.seh_pushreg %rbp
	pushq	%rbx
	.seh_pushreg %rbx
	subq	$40, %rsp
	.seh_stackalloc 40
	.seh_endprologue
	movq	144(%rsp), %r11
	movq	136(%rsp), %r10
	movl	128(%rsp), %eax
	xorl	%esi, %esi
	cmpl	$5, %edx
	sete	%sil
	shll	$24, %esi
	cmpl	$4, %edx
	movl	$1048576, %edi
	cmovneq	%rsi, %rdi
	cmpl	%eax, %edi
	jae	.Lm_BB20_2
	movl	%r10d, %esi
	negl	%esi
	andl	$15, %esi
	movq	%r10, %rdi
	notq	%rdi
	jmp	.Lm_BB20_3
.Lm_BB20_2:
	leal	23(,%rax,8), %esi
	andl	$536870896, %esi
	leal	63(%rax), %edi
	shrl	$3, %edi
	addl	$16, %edi
	andl	$16777200, %edi
	addq	%rsi, %rdi
	addq	$2768, %rdi
	movl	%r10d, %esi
	negl	%esi
	andl	$15, %esi
	movq	%r11, %rbx
	subq	%rsi, %rbx
	xorl	%ebp, %ebp
	cmpq	%rdi, %rbx
	cmovbl	%ebp, %eax
	cmpq	%rsi, %r11
	movq	%r10, %rdi
	notq	%rdi
	cmovbl	%ebp, %eax
	cmpq	%rdi, %r11
	cmoval	%ebp, %eax
	testq	%r10, %r10
	cmovel	%ebp, %eax
.Lm_BB20_3:
	testq	%r10, %r10
	setne	%bl
	cmpq	%rdi, %r11
	setbe	%dil
	cmpq	%r11, %rsi
	cmovaeq	%r11, %rsi
	addq	%r10, %rsi
	leaq	begin_behind.nothing(%rip), %r14
	addq	%r11, %r10
	testb	%dil, %bl
	cmoveq	%r14, %rsi
	movl	_tls_index(%rip), %r11d
	movq	%gs:88, %r15
	movq	(%r15,%r11,8), %r15
	movq	%rsi, lent@SECREL32(%r15)
	cmoveq	%r14, %r10
	movq	%r10, lent_end@SECREL32(%r15)
	movq	$16, lent_step@SECREL32(%r15)
	movl	%eax, 32(%rsp)
	callq	tlsf_offsets_open
	cmpl	$5, %eax
	movl	$39, %ecx
	cmovnel	%eax, %ecx
	testb	%dil, %bl
	movq	$0, lent@SECREL32(%r15)
	cmovel	%ecx, %eax
	addq	$40, %rsp
	popq	%rbx
	popq	%rbp
	popq	%rdi
	popq	%rsi
	popq	%r14
	popq	%r15
	retq
	.seh_endproc
	.def	tlsf_pools_bytes;
	.scl	2;
	.type	32;
	.endef
	.globl	tlsf_pools_bytes
	.p2align	4
tlsf_pools_bytes:
.seh_proc tlsf_pools_bytes
	pushq	%rsi
	.seh_pushreg %rsi
	subq	$64, %rsp
	.seh_stackalloc 64
	.seh_endprologue
	movq	%r8, %rsi
	movq	$0, 56(%rsp)
	movl	$0, 52(%rsp)
	leaq	52(%rsp), %rax
	movq	%rax, 32(%rsp)
	leaq	56(%rsp), %r9
	callq	tlsf_pools_words
	testl	%eax, %eax
	je	.Lm_BB21_2
	xorl	%eax, %eax
	jmp	.Lm_BB21_3
.Lm_BB21_2:
	movq	56(%rsp), %rax
	movl	52(%rsp), %ecx
	imulq	$2792, %rcx, %rdx
	addq	$23, %rdx
	andq	$-16, %rdx
	leaq	(,%rax,8), %r8
	shrq	$6, %rax
	leaq	(%rcx,%rcx,4), %rcx
	shlq	$4, %rcx
	leaq	(%rsi,%rsi,2), %r9
	leaq	(%r8,%r9,4), %r8
	leaq	(%r8,%rax,8), %rax
	addq	%rcx, %rax
	addq	%rdx, %rax
	addq	$2783, %rax
.Lm_BB21_3:
	addq	$64, %rsp
	popq	%rsi
	retq
	.seh_endproc
	.def	tlsf_pools_open_in;
	.scl	2;
	.type	32;
	.endef
	.globl	tlsf_pools_open_in
	.p2align	4
tlsf_pools_open_in:
.seh_proc tlsf_pools_open_in
	pushq	%r15
	.seh_pushreg %r15
	pushq	%r14
	.seh_pushreg %r14
	pushq	%rsi
	.seh_pushreg %rsi
	pushq	%rdi
	.seh_pushreg %rdi
	pushq	%rbx
	.seh_pushreg %rbx
	subq	$48, %rsp
	.seh_stackalloc 48
	.seh_endprologue
	movq	128(%rsp), %rax
	movq	144(%rsp), %r11
	movq	136(%rsp), %r10
	movl	%r10d, %edi
	negl	%edi
	andl	$15, %edi
	testq	%r10, %r10
	setne	%bl
	movq	%r10, %rsi
	notq	%rsi
	cmpq	%rsi, %r11
	setbe	%sil
	cmpq	%r11, %rdi
	cmovaeq	%r11, %rdi
	addq	%r10, %rdi
	leaq	begin_behind.nothing(%rip), %r14
	addq	%r11, %r10
	testb	%sil, %bl
	cmoveq	%r14, %rdi
	movl	_tls_index(%rip), %r11d
	movq	%gs:88, %r15
	movq	(%r15,%r11,8), %r15
	movq	%rdi, lent@SECREL32(%r15)
	cmoveq	%r14, %r10
	movq	%r10, lent_end@SECREL32(%r15)
	movq	$16, lent_step@SECREL32(%r15)
	movq	%rax, 32(%rsp)
	callq	tlsf_pools_open
	cmpl	$6, %eax
	movl	$5, %ecx
	cmovel	%ecx, %eax
	cmpl	$5, %eax
	movl	$39, %ecx
	cmovnel	%eax, %ecx
	testb	%sil, %bl
	movq	$0, lent@SECREL32(%r15)
	cmovel	%ecx, %eax
	addq	$48, %rsp
	popq	%rbx
	popq	%rdi
	popq	%rsi
	popq	%r14
	popq	%r15
	retq
	.seh_endproc
	.def	tlsf_next_number;
	.scl	2;
	.type	32;
	.endef
	.globl	tlsf_next_number
	.p2align	4
tlsf_next_number:
	movl	$1, %edx
	lock		xaddq	%rdx, tlsf_next_number.calls(%rip)
	leaq	(,%rdx,8), %r8
	movslq	%r8d, %r9
	movl	$2, %eax
	cmpq	%r8, %r9
	jne	.Lm_BB23_2
	movl	$2147483648, %eax
	leaq	(%rax,%rdx,8), %rax
	movl	%eax, (%rcx)
	xorl	%eax, %eax
.Lm_BB23_2:
	retq
	.lcomm	tlsf_memory_alloc.nothing,8,8
	.section	.tls$,"dw"
	.p2align	3, 0x0
near_room:
	.quad	0
	.p2align	2, 0x0
pieces_first:
	.long	0
	.p2align	3, 0x0
lent:
	.quad	0
	.lcomm	tlsf_next_number.calls,8,8
	.p2align	3, 0x0
lent_step:
	.quad	0
	.p2align	3, 0x0
lent_end:
	.quad	0
	.lcomm	begin_behind.nothing,1
#else
	.def	tlsf_memory_alloc;
	.scl	2;
	.type	32;
	.endef
	.text
	.globl	tlsf_memory_alloc
	.p2align	4
tlsf_memory_alloc:
.seh_proc tlsf_memory_alloc
	subq	$40, %rsp
	.seh_stackalloc 40
	.seh_endprologue
	cmpq	$8, %rsi
	jbe	.Lm_BB0_3
.Lm_BB0_1:
	xorl	%esi, %esi
.Lm_BB0_2:
	xorl	%eax, %eax
	testq	%rsi, %rsi
	setne	%al
	leaq	tlsf_memory_alloc.nothing(%rip), %rdx
	cmovneq	%rsi, %rdx
	addq	$40, %rsp
	retq
.Lm_BB0_3:
	movl	_tls_index(%rip), %eax
	movq	%gs:88, %rcx
	movq	(%rcx,%rax,8), %rax
	movq	near_room@SECREL32(%rax), %rsi
	testq	%rsi, %rsi
	je	.Lm_BB0_7
	movl	_tls_index(%rip), %eax
	movq	%gs:88, %rcx
	movq	(%rcx,%rax,8), %rax
	subl	$1, pieces_first@SECREL32(%rax)
	jae	.Lm_BB0_7
	cmpq	$2776, %rdi
	ja	.Lm_BB0_1
	movq	$0, (%rsi)
	addq	$8, %rsi
	jmp	.Lm_BB0_2
.Lm_BB0_7:
	movl	_tls_index(%rip), %eax
	movq	%gs:88, %rcx
	movq	(%rcx,%rax,8), %rsi
	movq	lent@SECREL32(%rsi), %r8
	testq	%r8, %r8
	je	.Lm_BB0_11
	movl	_tls_index(%rip), %eax
	movq	%gs:88, %rcx
	movq	(%rcx,%rax,8), %rax
	movq	lent_step@SECREL32(%rax), %r9
	leaq	(%rdi,%r9), %rcx
	addq	$7, %rcx
	movq	%rcx, %rax
	orq	%r9, %rax
	shrq	$32, %rax
	je	.Lm_BB0_13
	movq	%rcx, %rax
	xorl	%edx, %edx
	divq	%r9
	cmpq	$268435456, %rdi
	ja	.Lm_BB0_1
	jmp	.Lm_BB0_14
.Lm_BB0_11:
	cmpq	$268435456, %rdi
	ja	.Lm_BB0_1
	movl	_tls_index(%rip), %eax
	movq	%gs:88, %rcx
	movq	(%rcx,%rax,8), %rsi
	movq	front@SECREL32(%rsi), %rax
	leaq	(%rdi,%rax), %rcx
	addq	$135, %rcx
	orq	$127, %rcx
	callq	malloc
	testq	%rax, %rax
	je	.Lm_BB0_1
	leaq	front@SECREL32(%rsi), %rcx
	movl	%eax, %edx
	negl	%edx
	andl	$127, %edx
	addq	%rax, %rdx
	movq	(%rcx), %rdi
	leaq	(%rdi,%rdx), %rsi
	addq	$8, %rsi
	movq	$0, (%rcx)
	movq	%rax, (%rdi,%rdx)
	jmp	.Lm_BB0_2
.Lm_BB0_13:
	movl	%ecx, %eax
	xorl	%edx, %edx
	divl	%r9d
	cmpq	$268435456, %rdi
	ja	.Lm_BB0_1
.Lm_BB0_14:
	addq	$8, %rdi
	movl	_tls_index(%rip), %eax
	movq	%gs:88, %r9
	movq	(%r9,%rax,8), %rax
	movq	lent_end@SECREL32(%rax), %rax
	movq	%rax, %r9
	subq	%r8, %r9
	cmpq	%r9, %rdi
	ja	.Lm_BB0_1
	leaq	lent@SECREL32(%rsi), %rdi
	leaq	8(%r8), %rsi
	subq	%rdx, %rcx
	leaq	(%r8,%rcx), %rdx
	cmpq	%r9, %rcx
	cmovbq	%rdx, %rax
	movq	%rax, (%rdi)
	movq	$0, (%r8)
	jmp	.Lm_BB0_2
	.seh_endproc
	.def	tlsf_memory_dealloc;
	.scl	2;
	.type	32;
	.endef
	.globl	tlsf_memory_dealloc
	.p2align	4
tlsf_memory_dealloc:
	movq	-8(%rcx), %rcx
	testq	%rcx, %rcx
	jne	free
	retq
	.def	tlsf_memory_realloc;
	.scl	2;
	.type	32;
	.endef
	.globl	tlsf_memory_realloc
	.p2align	4
tlsf_memory_realloc:
.seh_proc tlsf_memory_realloc
	pushq	%r14
	.seh_pushreg %r14
	pushq	%rbx
	.seh_pushreg %rbx
	subq	$40, %rsp
	.seh_stackalloc 40
	.seh_endprologue
	movq	%rsi, %r14
	movq	%rdi, %rbx
	movq	%rdx, %rdi
	movq	%rcx, %rsi
	callq	tlsf_memory_alloc
	movq	%rax, %rsi
	movq	%rdx, %rdi
	testq	%rax, %rax
	je	.Lm_BB2_3
	movq	%rdi, %rcx
	movq	%rbx, %rdx
	movq	%r14, %r8
	callq	memcpy
	movq	-8(%rbx), %rcx
	testq	%rcx, %rcx
	je	.Lm_BB2_3
	callq	free
.Lm_BB2_3:
	movq	%rsi, %rax
	movq	%rdi, %rdx
	addq	$40, %rsp
	popq	%rbx
	popq	%r14
	retq
	.seh_endproc
	.def	tlsf_memory_set;
	.scl	2;
	.type	32;
	.endef
	.globl	tlsf_memory_set
	.p2align	4
tlsf_memory_set:
	testl	%edx, %edx
	jne	memset
	cmpq	$513, %r8
	jae	memset
	cmpq	$257, %r8
	jb	.Lm_BB3_4
	xorps	%xmm0, %xmm0
	movups	%xmm0, (%rcx)
	movups	%xmm0, -16(%rcx,%r8)
	movups	%xmm0, 16(%rcx)
	movups	%xmm0, -32(%rcx,%r8)
	movups	%xmm0, 32(%rcx)
	movups	%xmm0, -48(%rcx,%r8)
	movups	%xmm0, 48(%rcx)
	movups	%xmm0, -64(%rcx,%r8)
	movups	%xmm0, 64(%rcx)
	movups	%xmm0, -80(%rcx,%r8)
	movups	%xmm0, 80(%rcx)
	movups	%xmm0, -96(%rcx,%r8)
	movups	%xmm0, 96(%rcx)
	movups	%xmm0, -112(%rcx,%r8)
	movups	%xmm0, 112(%rcx)
	movups	%xmm0, -128(%rcx,%r8)
	movups	%xmm0, 128(%rcx)
	movups	%xmm0, -144(%rcx,%r8)
	movups	%xmm0, 144(%rcx)
	movups	%xmm0, -160(%rcx,%r8)
	movups	%xmm0, 160(%rcx)
	movups	%xmm0, -176(%rcx,%r8)
	movups	%xmm0, 176(%rcx)
	movups	%xmm0, -192(%rcx,%r8)
	movups	%xmm0, 192(%rcx)
	movups	%xmm0, -208(%rcx,%r8)
	movups	%xmm0, 208(%rcx)
	movups	%xmm0, -224(%rcx,%r8)
	movups	%xmm0, 224(%rcx)
	movups	%xmm0, -240(%rcx,%r8)
	movups	%xmm0, 240(%rcx)
	movups	%xmm0, -256(%rcx,%r8)
	movq	%rcx, %rax
	retq
.Lm_BB3_4:
	cmpq	$129, %r8
	jb	.Lm_BB3_6
	xorps	%xmm0, %xmm0
	movups	%xmm0, (%rcx)
	movups	%xmm0, -16(%rcx,%r8)
	movups	%xmm0, 16(%rcx)
	movups	%xmm0, -32(%rcx,%r8)
	movups	%xmm0, 32(%rcx)
	movups	%xmm0, -48(%rcx,%r8)
	movups	%xmm0, 48(%rcx)
	movups	%xmm0, -64(%rcx,%r8)
	movups	%xmm0, 64(%rcx)
	movups	%xmm0, -80(%rcx,%r8)
	movups	%xmm0, 80(%rcx)
	movups	%xmm0, -96(%rcx,%r8)
	movups	%xmm0, 96(%rcx)
	movups	%xmm0, -112(%rcx,%r8)
	movups	%xmm0, 112(%rcx)
	movups	%xmm0, -128(%rcx,%r8)
	movq	%rcx, %rax
	retq
.Lm_BB3_6:
	cmpq	$65, %r8
	jb	.Lm_BB3_8
	xorps	%xmm0, %xmm0
	movups	%xmm0, (%rcx)
	movups	%xmm0, -16(%rcx,%r8)
	movups	%xmm0, 16(%rcx)
	movups	%xmm0, -32(%rcx,%r8)
	movups	%xmm0, 32(%rcx)
	movups	%xmm0, -48(%rcx,%r8)
	movups	%xmm0, 48(%rcx)
	movups	%xmm0, -64(%rcx,%r8)
	movq	%rcx, %rax
	retq
.Lm_BB3_8:
	cmpq	$33, %r8
	jb	.Lm_BB3_10
	xorps	%xmm0, %xmm0
	movups	%xmm0, (%rcx)
	movups	%xmm0, -16(%rcx,%r8)
	movups	%xmm0, 16(%rcx)
	movups	%xmm0, -32(%rcx,%r8)
	movq	%rcx, %rax
	retq
.Lm_BB3_10:
	cmpq	$17, %r8
	jb	.Lm_BB3_12
	xorps	%xmm0, %xmm0
	movups	%xmm0, (%rcx)
	movups	%xmm0, -16(%rcx,%r8)
	movq	%rcx, %rax
	retq
.Lm_BB3_12:
	cmpq	$7, %r8
	ja	.Lm_BB3_13
	xorl	%edx, %edx
	jmp	memset
.Lm_BB3_13:
	movq	$0, (%rcx)
	movq	$0, -8(%rcx,%r8)
	movq	%rcx, %rax
	retq
	.def	tlsf_memory_cpy;
	.scl	2;
	.type	32;
	.endef
	.globl	tlsf_memory_cpy
	.p2align	4
tlsf_memory_cpy:
	jmp	memcpy
	.def	tlsf_memory_move;
	.scl	2;
	.type	32;
	.endef
	.globl	tlsf_memory_move
	.p2align	4
tlsf_memory_move:
	jmp	memmove
	.def	tlsf_bytes;
	.scl	2;
	.type	32;
	.endef
	.globl	tlsf_bytes
	.p2align	4
tlsf_bytes:
	xorl	%eax, %eax
	cmpl	$4, %edx
	jb	.Lm_BB6_4
	cmpl	$5, %ecx
	sete	%al
	shll	$24, %eax
	cmpl	$4, %ecx
	movl	$1048576, %ecx
	cmovneq	%rax, %rcx
	cmpl	%edx, %ecx
	jae	.Lm_BB6_3
	xorl	%eax, %eax
	retq
.Lm_BB6_3:
	movl	%edx, %eax
	leaq	23(,%rax,8), %rcx
	andq	$-16, %rcx
	addq	$63, %rax
	shrq	$3, %rax
	addl	$16, %eax
	andl	$-16, %eax
	addq	%rcx, %rax
	addq	$2783, %rax
.Lm_BB6_4:
	retq
	.def	tlsf_near_bytes;
	.scl	2;
	.type	32;
	.endef
	.globl	tlsf_near_bytes
	.p2align	4
tlsf_near_bytes:
	xorl	%eax, %eax
	cmpl	$4, %edx
	jb	.Lm_BB7_4
	cmpl	$5, %ecx
	sete	%al
	shll	$24, %eax
	cmpl	$4, %ecx
	movl	$1048576, %ecx
	cmovneq	%rax, %rcx
	cmpl	%edx, %ecx
	jae	.Lm_BB7_3
	xorl	%eax, %eax
	retq
.Lm_BB7_3:
	movl	%edx, %eax
	leaq	23(,%rax,8), %rcx
	andq	$-16, %rcx
	addq	$63, %rax
	shrq	$6, %rax
	leaq	(%rcx,%rax,8), %rax
	addq	$23, %rax
.Lm_BB7_4:
	retq
	.def	tlsf_open_in;
	.scl	2;
	.type	32;
	.endef
	.globl	tlsf_open_in
	.p2align	4
tlsf_open_in:
.seh_proc tlsf_open_in
	pushq	%r15
	.seh_pushreg %r15
	pushq	%r14
	.seh_pushreg %r14
	pushq	%r13
	.seh_pushreg %r13
	pushq	%r12
	.seh_pushreg %r12
	pushq	%rsi
	.seh_pushreg %rsi
	pushq	%rdi
	.seh_pushreg %rdi
	pushq	%rbp
	.seh_pushreg %rbp
	pushq	%rbx
	.seh_pushreg %rbx
	subq	$40, %rsp
	.seh_stackalloc 40
	.seh_endprologue
	movq	%rcx, %rsi
	movzbl	29(%rcx), %ecx
	testq	%rcx, %rcx
	je	.Lm_BB8_3
	leal	-65(%rcx), %eax
	cmpb	$-57, %al
	jb	.Lm_BB8_2
	leal	127(%rcx), %eax
	testl	%ecx, %eax
	je	.Lm_BB8_6
.Lm_BB8_2:
	xorl	%eax, %eax
	jmp	.Lm_BB8_11
.Lm_BB8_3:
	movl	$16, %r11d
	jmp	.Lm_BB8_7
.Lm_BB8_6:
	cmpq	$17, %rcx
	movl	$16, %r11d
	cmovaeq	%rcx, %r11
.Lm_BB8_7:
	movl	%edx, %r10d
	movq	$-32, %rax
	subq	%r9, %rax
	movq	%rax, %rdx
	shrq	$32, %rdx
	je	.Lm_BB8_9
	xorl	%edx, %edx
	divq	%r11
	movq	%rdx, %rax
	jmp	.Lm_BB8_10
.Lm_BB8_9:
	xorl	%edx, %edx
	divl	%r11d
	movl	%edx, %eax
.Lm_BB8_10:
	movl	%r10d, %edx
.Lm_BB8_11:
	movq	144(%rsp), %r11
	xorl	%r10d, %r10d
	movq	%r9, %rdi
	notq	%rdi
	testq	%r9, %r9
	je	.Lm_BB8_18
	cmpq	%rdi, %r11
	ja	.Lm_BB8_18
	movq	%r11, %r15
	subq	%rax, %r15
	jb	.Lm_BB8_18
	xorl	%r14d, %r14d
	cmpl	$5, %edx
	sete	%r14b
	shll	$24, %r14d
	cmpl	$4, %edx
	movl	$1048576, %ebx
	cmovneq	%r14, %rbx
	cmpq	$2832, %r15
	jb	.Lm_BB8_18
	cmpq	$268435456, %r15
	movl	$268435456, %r14d
	cmovbq	%r15, %r14
	leal	-22400(,%r14,8), %r15d
	movl	$4228890877, %r10d
	imulq	%r15, %r10
	shrq	$38, %r10
	leaq	87(,%r10,8), %r15
	addq	$71, %r10
	.p2align	4
.Lm_BB8_16:
	movq	%r15, %r12
	andq	$-16, %r12
	movq	%r10, %r13
	shrq	$3, %r13
	addq	$16, %r13
	andq	$-16, %r13
	addq	%r13, %r12
	addq	$2768, %r12
	decq	%r10
	addq	$-8, %r15
	cmpq	%r14, %r12
	ja	.Lm_BB8_16
	addq	$-62, %r10
	cmpq	%rbx, %r10
	cmovaeq	%rbx, %r10
.Lm_BB8_18:
	testq	%r9, %r9
	setne	%bpl
	cmpq	%rdi, %r11
	setbe	%bl
	andb	%bpl, %bl
	cmpq	%r11, %rax
	cmovaeq	%r11, %rax
	addq	%r9, %rax
	leaq	begin_behind.nothing(%rip), %rdi
	addq	%r11, %r9
	testb	%bl, %bl
	cmoveq	%rdi, %rax
	cmoveq	%rdi, %r9
	movl	_tls_index(%rip), %r11d
	movq	%gs:88, %rdi
	movq	(%rdi,%r11,8), %r11
	movq	%rax, lent@SECREL32(%r11)
	movq	%r9, lent_end@SECREL32(%r11)
	movq	$16, lent_step@SECREL32(%r11)
	testq	%rcx, %rcx
	je	.Lm_BB8_21
	leal	-65(%rcx), %eax
	xorl	%r9d, %r9d
	cmpb	$-57, %al
	jb	.Lm_BB8_22
	leal	127(%rcx), %eax
	testb	%cl, %al
	jne	.Lm_BB8_22
.Lm_BB8_21:
	movl	%r10d, %r9d
.Lm_BB8_22:
	leaq	lent@SECREL32(%r11), %rdi
	movq	%rsi, %rcx
	callq	tlsf_open
	testl	%eax, %eax
	je	.Lm_BB8_24
	movq	$0, (%rdi)
	cmpl	$5, %eax
	sete	%dl
	notb	%bl
	movl	$39, %ecx
	testb	%dl, %bl
	je	.Lm_BB8_27
	jmp	.Lm_BB8_28
.Lm_BB8_24:
	movzbl	29(%rsi), %ecx
	testb	$-17, %cl
	je	.Lm_BB8_26
	movb	$1, 28(%rsi)
.Lm_BB8_26:
	movq	$0, (%rdi)
.Lm_BB8_27:
	movl	%eax, %ecx
.Lm_BB8_28:
	movl	%ecx, %eax
	addq	$40, %rsp
	popq	%rbx
	popq	%rbp
	popq	%rdi
	popq	%rsi
	popq	%r12
	popq	%r13
	popq	%r14
	popq	%r15
	retq
	.seh_endproc
	.def	tlsf_open_near;
	.scl	2;
	.type	32;
	.endef
	.globl	tlsf_open_near
	.p2align	4
tlsf_open_near:
.seh_proc tlsf_open_near
	pushq	%rsi
	.seh_pushreg %rsi
	pushq	%rdi
	.seh_pushreg %rdi
	pushq	%rbx
	.seh_pushreg %rbx
	subq	$32, %rsp
	.seh_stackalloc 32
	.seh_endprologue
	movl	%ecx, %r10d
	negl	%r10d
	andl	$63, %r10d
	leaq	(%rcx,%r10), %rsi
	leaq	(%rcx,%r10), %r11
	addq	$32, %r11
	movl	_tls_index(%rip), %eax
	movq	%gs:88, %rdi
	movq	(%rdi,%rax,8), %rax
	movq	%r11, near_room@SECREL32(%rax)
	movl	$2, pieces_first@SECREL32(%rax)
	movzbl	29(%rcx,%r10), %r10d
	xorl	%ecx, %ecx
	testb	%r10b, %r10b
	je	.Lm_BB9_6
	leal	-65(%r10), %r11d
	cmpb	$-57, %r11b
	jae	.Lm_BB9_3
	xorl	%r9d, %r9d
	jmp	.Lm_BB9_6
.Lm_BB9_3:
	leal	127(%r10), %ecx
	testb	%r10b, %cl
	je	.Lm_BB9_5
	xorl	%ecx, %ecx
	xorl	%r9d, %r9d
	jmp	.Lm_BB9_6
.Lm_BB9_5:
	xorl	%ecx, %ecx
	cmpb	$64, %r10b
	sete	%cl
	shll	$5, %ecx
.Lm_BB9_6:
	leaq	near_room@SECREL32(%rax), %rdi
	movl	_tls_index(%rip), %eax
	movq	%gs:88, %r10
	movq	(%r10,%rax,8), %rax
	leaq	front@SECREL32(%rax), %rbx
	movq	%rcx, front@SECREL32(%rax)
	movq	%rsi, %rcx
	callq	tlsf_open
	testl	%eax, %eax
	jne	.Lm_BB9_9
	movzbl	29(%rsi), %ecx
	testb	$-17, %cl
	je	.Lm_BB9_9
	movb	$1, 28(%rsi)
.Lm_BB9_9:
	movq	$0, (%rbx)
	movq	$0, (%rdi)
	addq	$32, %rsp
	popq	%rbx
	popq	%rdi
	popq	%rsi
	retq
	.seh_endproc
	.def	tlsf_open_near_in;
	.scl	2;
	.type	32;
	.endef
	.globl	tlsf_open_near_in
	.p2align	4
tlsf_open_near_in:
.seh_proc tlsf_open_near_in
	pushq	%r15
	.seh_pushreg %r15
	pushq	%r14
	.seh_pushreg %r14
	pushq	%r13
	.seh_pushreg %r13
	pushq	%r12
	.seh_pushreg %r12
	pushq	%rsi
	.seh_pushreg %rsi
	pushq	%rdi
	.seh_pushreg %rdi
	pushq	%rbp
	.seh_pushreg %rbp
	pushq	%rbx
	.seh_pushreg %rbx
	subq	$56, %rsp
	.seh_stackalloc 56
	.seh_endprologue
	movq	%rcx, %rsi
	movl	%esi, %r11d
	negl	%r11d
	andl	$63, %r11d
	leaq	(%rcx,%r11), %rax
	addq	$32, %rax
	movl	_tls_index(%rip), %ecx
	movq	%gs:88, %r10
	movq	(%r10,%rcx,8), %r12
	movq	%rax, near_room@SECREL32(%r12)
	movl	$2, pieces_first@SECREL32(%r12)
	movzbl	29(%rsi,%r11), %r10d
	testq	%r10, %r10
	je	.Lm_BB10_3
	leal	-65(%r10), %eax
	cmpb	$-57, %al
	jb	.Lm_BB10_2
	leal	127(%r10), %eax
	testl	%r10d, %eax
	je	.Lm_BB10_6
.Lm_BB10_2:
	xorl	%eax, %eax
	jmp	.Lm_BB10_11
.Lm_BB10_3:
	movl	$16, %ebx
	jmp	.Lm_BB10_7
.Lm_BB10_6:
	cmpq	$17, %r10
	movl	$16, %ebx
	cmovaeq	%r10, %rbx
.Lm_BB10_7:
	movl	%edx, %edi
	movq	$-32, %rax
	subq	%r9, %rax
	movq	%rax, %rdx
	shrq	$32, %rdx
	je	.Lm_BB10_9
	xorl	%edx, %edx
	divq	%rbx
	movq	%rdx, %rax
	jmp	.Lm_BB10_10
.Lm_BB10_9:
	xorl	%edx, %edx
	divl	%ebx
	movl	%edx, %eax
.Lm_BB10_10:
	movl	%edi, %edx
.Lm_BB10_11:
	movq	160(%rsp), %rbx
	xorl	%ecx, %ecx
	movq	%r9, %r14
	notq	%r14
	testq	%r9, %r9
	je	.Lm_BB10_18
	cmpq	%r14, %rbx
	ja	.Lm_BB10_18
	movq	%rbx, %r13
	subq	%rax, %r13
	jb	.Lm_BB10_18
	movl	%r8d, 44(%rsp)
	movq	%r12, 48(%rsp)
	xorl	%r12d, %r12d
	cmpl	$5, %edx
	sete	%r12b
	shll	$24, %r12d
	cmpl	$4, %edx
	movl	$1048576, %r15d
	cmovneq	%r12, %r15
	movq	48(%rsp), %r12
	movl	44(%rsp), %r8d
	cmpq	$64, %r13
	jb	.Lm_BB10_18
	cmpq	$268435456, %r13
	movl	$268435456, %r12d
	cmovbq	%r13, %r12
	leal	-192(,%r12,8), %r13d
	movl	$4228890877, %ecx
	imulq	%r13, %rcx
	shrq	$38, %rcx
	leaq	87(,%rcx,8), %r13
	addq	$71, %rcx
	.p2align	4
.Lm_BB10_16:
	movq	%r13, %rbp
	andq	$-16, %rbp
	movq	%rcx, %rdi
	shrq	$6, %rdi
	leaq	8(,%rdi,8), %rdi
	addq	%rbp, %rdi
	decq	%rcx
	addq	$-8, %r13
	cmpq	%r12, %rdi
	ja	.Lm_BB10_16
	addq	$-62, %rcx
	cmpq	%r15, %rcx
	cmovaeq	%r15, %rcx
	movl	44(%rsp), %r8d
	movq	48(%rsp), %r12
.Lm_BB10_18:
	addq	%r11, %rsi
	testq	%r9, %r9
	setne	%r11b
	cmpq	%r14, %rbx
	setbe	%bpl
	andb	%r11b, %bpl
	cmpq	%rbx, %rax
	cmovaeq	%rbx, %rax
	addq	%r9, %rax
	leaq	begin_behind.nothing(%rip), %r11
	addq	%rbx, %r9
	testb	%bpl, %bpl
	cmoveq	%r11, %rax
	cmoveq	%r11, %r9
	movl	_tls_index(%rip), %r11d
	movq	%gs:88, %rdi
	movq	(%rdi,%r11,8), %r11
	movq	%rax, lent@SECREL32(%r11)
	movq	%r9, lent_end@SECREL32(%r11)
	movq	$16, lent_step@SECREL32(%r11)
	testq	%r10, %r10
	je	.Lm_BB10_21
	leal	-65(%r10), %eax
	xorl	%r9d, %r9d
	cmpb	$-57, %al
	jb	.Lm_BB10_22
	leal	127(%r10), %eax
	testb	%r10b, %al
	jne	.Lm_BB10_22
.Lm_BB10_21:
	movl	%ecx, %r9d
.Lm_BB10_22:
	leaq	near_room@SECREL32(%r12), %rdi
	leaq	lent@SECREL32(%r11), %rbx
	movq	%rsi, %rcx
	callq	tlsf_open
	testl	%eax, %eax
	je	.Lm_BB10_24
	movq	$0, (%rbx)
	cmpl	$5, %eax
	sete	%dl
	notb	%bpl
	movl	$39, %ecx
	testb	%dl, %bpl
	je	.Lm_BB10_27
	jmp	.Lm_BB10_28
.Lm_BB10_24:
	movzbl	29(%rsi), %ecx
	testb	$-17, %cl
	je	.Lm_BB10_26
	movb	$1, 28(%rsi)
.Lm_BB10_26:
	movq	$0, (%rbx)
.Lm_BB10_27:
	movl	%eax, %ecx
.Lm_BB10_28:
	movq	$0, (%rdi)
	movl	%ecx, %eax
	addq	$56, %rsp
	popq	%rbx
	popq	%rbp
	popq	%rdi
	popq	%rsi
	popq	%r12
	popq	%r13
	popq	%r14
	popq	%r15
	retq
	.seh_endproc
	.def	tlsf_open_32;
	.scl	2;
	.type	32;
	.endef
	.globl	tlsf_open_32
	.p2align	4
tlsf_open_32:
.seh_proc tlsf_open_32
	pushq	%rsi
	.seh_pushreg %rsi
	pushq	%rdi
	.seh_pushreg %rdi
	subq	$40, %rsp
	.seh_stackalloc 40
	.seh_endprologue
	movq	%rcx, %rsi
	movzbl	29(%rcx), %ecx
	xorl	%eax, %eax
	testb	%cl, %cl
	je	.Lm_BB11_6
	leal	-65(%rcx), %r10d
	cmpb	$-57, %r10b
	jae	.Lm_BB11_3
	xorl	%r9d, %r9d
	jmp	.Lm_BB11_6
.Lm_BB11_3:
	leal	127(%rcx), %eax
	testb	%cl, %al
	je	.Lm_BB11_5
	xorl	%eax, %eax
	xorl	%r9d, %r9d
	jmp	.Lm_BB11_6
.Lm_BB11_5:
	xorl	%eax, %eax
	cmpb	$64, %cl
	sete	%al
	shll	$5, %eax
.Lm_BB11_6:
	movl	_tls_index(%rip), %ecx
	movq	%gs:88, %r10
	movq	(%r10,%rcx,8), %rcx
	leaq	front@SECREL32(%rcx), %rdi
	movq	%rax, front@SECREL32(%rcx)
	movq	%rsi, %rcx
	callq	tlsf_open
	testl	%eax, %eax
	jne	.Lm_BB11_9
	movzbl	29(%rsi), %ecx
	testb	$-17, %cl
	je	.Lm_BB11_9
	movb	$1, 28(%rsi)
.Lm_BB11_9:
	movq	$0, (%rdi)
	addq	$40, %rsp
	popq	%rdi
	popq	%rsi
	retq
	.seh_endproc
	.def	tlsf_open_in_32;
	.scl	2;
	.type	32;
	.endef
	.globl	tlsf_open_in_32
	.p2align	4
tlsf_open_in_32:
	jmp	tlsf_open_in
	.def	tlsf_open_near_2880;
	.scl	2;
	.type	32;
	.endef
	.globl	tlsf_open_near_2880
	.p2align	4
tlsf_open_near_2880:
.seh_proc tlsf_open_near_2880
	pushq	%rsi
	.seh_pushreg %rsi
	pushq	%rdi
	.seh_pushreg %rdi
	pushq	%rbx
	.seh_pushreg %rbx
	subq	$32, %rsp
	.seh_stackalloc 32
	.seh_endprologue
	movl	%ecx, %r10d
	negl	%r10d
	andl	$63, %r10d
	leaq	(%rcx,%r10), %rsi
	leaq	(%rcx,%r10), %r11
	addq	$32, %r11
	movl	_tls_index(%rip), %eax
	movq	%gs:88, %rdi
	movq	(%rdi,%rax,8), %rax
	movq	%r11, near_room@SECREL32(%rax)
	movl	$2, pieces_first@SECREL32(%rax)
	movzbl	29(%rcx,%r10), %r10d
	xorl	%ecx, %ecx
	testb	%r10b, %r10b
	je	.Lm_BB13_6
	leal	-65(%r10), %r11d
	cmpb	$-57, %r11b
	jae	.Lm_BB13_3
	xorl	%r9d, %r9d
	jmp	.Lm_BB13_6
.Lm_BB13_3:
	leal	127(%r10), %ecx
	testb	%r10b, %cl
	je	.Lm_BB13_5
	xorl	%ecx, %ecx
	xorl	%r9d, %r9d
	jmp	.Lm_BB13_6
.Lm_BB13_5:
	xorl	%ecx, %ecx
	cmpb	$64, %r10b
	sete	%cl
	shll	$5, %ecx
.Lm_BB13_6:
	leaq	near_room@SECREL32(%rax), %rdi
	movl	_tls_index(%rip), %eax
	movq	%gs:88, %r10
	movq	(%r10,%rax,8), %rax
	leaq	front@SECREL32(%rax), %rbx
	movq	%rcx, front@SECREL32(%rax)
	movq	%rsi, %rcx
	callq	tlsf_open
	testl	%eax, %eax
	jne	.Lm_BB13_9
	movzbl	29(%rsi), %ecx
	testb	$-17, %cl
	je	.Lm_BB13_9
	movb	$1, 28(%rsi)
.Lm_BB13_9:
	movq	$0, (%rbx)
	movq	$0, (%rdi)
	addq	$32, %rsp
	popq	%rbx
	popq	%rdi
	popq	%rsi
	retq
	.seh_endproc
	.def	tlsf_open_near_in_2880;
	.scl	2;
	.type	32;
	.endef
	.globl	tlsf_open_near_in_2880
	.p2align	4
tlsf_open_near_in_2880:
	jmp	tlsf_open_near_in
	.def	tlsf_lane_bytes;
	.scl	2;
	.type	32;
	.endef
	.globl	tlsf_lane_bytes
	.p2align	4
tlsf_lane_bytes:
	leal	(%rcx,%rcx,2), %eax
	addl	$-1025, %ecx
	leal	135(,%rax,8), %edx
	andl	$130944, %edx
	addl	$895, %edx
	xorl	%eax, %eax
	cmpl	$-1024, %ecx
	cmovael	%edx, %eax
	retq
	.def	tlsf_lane_open_in;
	.scl	2;
	.type	32;
	.endef
	.globl	tlsf_lane_open_in
	.p2align	4
tlsf_lane_open_in:
.seh_proc tlsf_lane_open_in
	pushq	%rsi
	.seh_pushreg %rsi
	pushq	%rdi
	.seh_pushreg %rdi
	pushq	%rbx
	.seh_pushreg %rbx
	subq	$32, %rsp
	.seh_stackalloc 32
	.seh_endprologue
	movq	96(%rsp), %rax
	cmpl	$1025, %r8d
	jae	.Lm_BB16_1
	leal	(%r8,%r8,2), %r10d
	leal	135(,%r10,8), %r11d
	andl	$130944, %r11d
	addl	$768, %r11d
	movl	%r9d, %r10d
	negl	%r10d
	andl	$127, %r10d
	movq	%rax, %rsi
	subq	%r10, %rsi
	xorl	%edi, %edi
	cmpq	%r11, %rsi
	cmovbl	%edi, %r8d
	cmpq	%r10, %rax
	movq	%r9, %r11
	notq	%r11
	cmovbl	%edi, %r8d
	cmpq	%r11, %rax
	cmoval	%edi, %r8d
	testq	%r9, %r9
	cmovel	%edi, %r8d
	jmp	.Lm_BB16_3
.Lm_BB16_1:
	movl	%r9d, %r10d
	negl	%r10d
	andl	$127, %r10d
	movq	%r9, %r11
	notq	%r11
.Lm_BB16_3:
	testq	%r9, %r9
	setne	%bl
	cmpq	%r11, %rax
	setbe	%sil
	cmpq	%rax, %r10
	cmovaeq	%rax, %r10
	addq	%r9, %r10
	leaq	begin_behind.nothing(%rip), %r11
	addq	%rax, %r9
	testb	%sil, %bl
	cmoveq	%r11, %r10
	movl	_tls_index(%rip), %eax
	movq	%gs:88, %rdi
	movq	(%rdi,%rax,8), %rdi
	movq	%r10, lent@SECREL32(%rdi)
	cmoveq	%r11, %r9
	movq	%r9, lent_end@SECREL32(%rdi)
	movq	$128, lent_step@SECREL32(%rdi)
	callq	tlsf_lane_open
	cmpl	$5, %eax
	movl	$39, %ecx
	cmovnel	%eax, %ecx
	testb	%sil, %bl
	movq	$0, lent@SECREL32(%rdi)
	cmovel	%ecx, %eax
	addq	$32, %rsp
	popq	%rbx
	popq	%rdi
	popq	%rsi
	retq
	.seh_endproc
	.def	tlsf_queue_bytes;
	.scl	2;
	.type	32;
	.endef
	.globl	tlsf_queue_bytes
	.p2align	4
tlsf_queue_bytes:
	movl	$1024, %eax
	movl	$1024, %r8d
	subl	%ecx, %r8d
	subl	%edx, %eax
	orl	%r8d, %eax
	cmpl	$1023, %eax
	ja	.Lm_BB17_1
	movl	%ecx, %eax
	movl	%edx, %ecx
	movq	%rax, %rdx
	shlq	$4, %rdx
	addq	$135, %rdx
	movabsq	$68719476608, %r8
	andq	%rdx, %r8
	leaq	519(,%rcx,8), %rdx
	movabsq	$34359738240, %r9
	andq	%r9, %rdx
	shlq	$5, %rcx
	addq	$135, %rcx
	movabsq	$137438953344, %r10
	andq	%rcx, %r10
	addq	%rdx, %r10
	leaq	135(,%rax,8), %rcx
	andq	%r9, %rcx
	shlq	$7, %rax
	addq	%rcx, %rax
	addq	%r8, %rax
	leaq	(%rax,%r10,2), %rax
	addq	$383, %rax
	retq
.Lm_BB17_1:
	xorl	%eax, %eax
	retq
	.def	tlsf_queue_open_in;
	.scl	2;
	.type	32;
	.endef
	.globl	tlsf_queue_open_in
	.p2align	4
tlsf_queue_open_in:
.seh_proc tlsf_queue_open_in
	pushq	%rsi
	.seh_pushreg %rsi
	pushq	%rdi
	.seh_pushreg %rdi
	pushq	%rbx
	.seh_pushreg %rbx
	subq	$32, %rsp
	.seh_stackalloc 32
	.seh_endprologue
	movq	96(%rsp), %rax
	cmpl	$1025, %r8d
	setb	%r10b
	cmpl	$1025, %edx
	setb	%r11b
	testb	%r10b, %r11b
	je	.Lm_BB18_1
	movl	%edx, %r10d
	movl	%edx, %r11d
	shll	$4, %r11d
	addl	$135, %r11d
	andl	$65408, %r11d
	leal	519(,%r8,8), %esi
	andl	$32640, %esi
	movl	%r8d, %edi
	shll	$5, %edi
	addl	$135, %edi
	andl	$130944, %edi
	addl	%esi, %edi
	leal	135(,%rdx,8), %esi
	andl	$32640, %esi
	shlq	$7, %r10
	addq	%rsi, %r10
	addq	%r11, %r10
	leaq	(%r10,%rdi,2), %r11
	addq	$256, %r11
	movl	%r9d, %r10d
	negl	%r10d
	andl	$127, %r10d
	movq	%rax, %rsi
	subq	%r10, %rsi
	xorl	%edi, %edi
	cmpq	%r11, %rsi
	cmovbl	%edi, %r8d
	cmpq	%r10, %rax
	movq	%r9, %r11
	notq	%r11
	cmovbl	%edi, %r8d
	cmpq	%r11, %rax
	cmoval	%edi, %r8d
	testq	%r9, %r9
	cmovel	%edi, %r8d
	jmp	.Lm_BB18_3
.Lm_BB18_1:
	movl	%r9d, %r10d
	negl	%r10d
	andl	$127, %r10d
	movq	%r9, %r11
	notq	%r11
.Lm_BB18_3:
	testq	%r9, %r9
	setne	%bl
	cmpq	%r11, %rax
	setbe	%sil
	cmpq	%rax, %r10
	cmovaeq	%rax, %r10
	addq	%r9, %r10
	leaq	begin_behind.nothing(%rip), %r11
	addq	%rax, %r9
	testb	%sil, %bl
	cmoveq	%r11, %r10
	movl	_tls_index(%rip), %eax
	movq	%gs:88, %rdi
	movq	(%rdi,%rax,8), %rdi
	movq	%r10, lent@SECREL32(%rdi)
	cmoveq	%r11, %r9
	movq	%r9, lent_end@SECREL32(%rdi)
	movq	$128, lent_step@SECREL32(%rdi)
	callq	tlsf_queue_open
	cmpl	$5, %eax
	movl	$39, %ecx
	cmovnel	%eax, %ecx
	testb	%sil, %bl
	movq	$0, lent@SECREL32(%rdi)
	cmovel	%ecx, %eax
	addq	$32, %rsp
	popq	%rbx
	popq	%rdi
	popq	%rsi
	retq
	.seh_endproc
	.def	tlsf_offsets_bytes;
	.scl	2;
	.type	32;
	.endef
	.globl	tlsf_offsets_bytes
	.p2align	4
tlsf_offsets_bytes:
	xorl	%eax, %eax
	cmpl	$4, %edx
	jb	.Lm_BB19_4
	cmpl	$5, %ecx
	sete	%al
	shll	$24, %eax
	cmpl	$4, %ecx
	movl	$1048576, %ecx
	cmovneq	%rax, %rcx
	cmpl	%edx, %ecx
	jae	.Lm_BB19_3
	xorl	%eax, %eax
	retq
.Lm_BB19_3:
	movl	%edx, %eax
	leal	23(,%rax,8), %ecx
	andl	$536870896, %ecx
	addl	$63, %eax
	shrl	$3, %eax
	addl	$16, %eax
	andl	$16777200, %eax
	addq	%rcx, %rax
	addq	$2783, %rax
.Lm_BB19_4:
	retq
	.def	tlsf_offsets_open_in;
	.scl	2;
	.type	32;
	.endef
	.globl	tlsf_offsets_open_in
	.p2align	4
tlsf_offsets_open_in:
.seh_proc tlsf_offsets_open_in
	pushq	%r15
	.seh_pushreg %r15
	pushq	%r14
	.seh_pushreg %r14
	pushq	%rsi
	.seh_pushreg %rsi
	pushq	%rdi
	.seh_pushreg %rdi
	pushq	%rbp
	.seh_pushreg %rbp
	pushq	%rbx
	.seh_pushreg %rbx
	subq	$40, %rsp
	.seh_stackalloc 40
	.seh_endprologue
	movq	144(%rsp), %r11
	movq	136(%rsp), %r10
	movl	128(%rsp), %eax
	xorl	%esi, %esi
	cmpl	$5, %edx
	sete	%sil
	shll	$24, %esi
	cmpl	$4, %edx
	movl	$1048576, %edi
	cmovneq	%rsi, %rdi
	cmpl	%eax, %edi
	jae	.Lm_BB20_2
	movl	%r10d, %esi
	negl	%esi
	andl	$15, %esi
	movq	%r10, %rdi
	notq	%rdi
	jmp	.Lm_BB20_3
.Lm_BB20_2:
	leal	23(,%rax,8), %esi
	andl	$536870896, %esi
	leal	63(%rax), %edi
	shrl	$3, %edi
	addl	$16, %edi
	andl	$16777200, %edi
	addq	%rsi, %rdi
	addq	$2768, %rdi
	movl	%r10d, %esi
	negl	%esi
	andl	$15, %esi
	movq	%r11, %rbx
	subq	%rsi, %rbx
	xorl	%ebp, %ebp
	cmpq	%rdi, %rbx
	cmovbl	%ebp, %eax
	cmpq	%rsi, %r11
	movq	%r10, %rdi
	notq	%rdi
	cmovbl	%ebp, %eax
	cmpq	%rdi, %r11
	cmoval	%ebp, %eax
	testq	%r10, %r10
	cmovel	%ebp, %eax
.Lm_BB20_3:
	testq	%r10, %r10
	setne	%bl
	cmpq	%rdi, %r11
	setbe	%dil
	cmpq	%r11, %rsi
	cmovaeq	%r11, %rsi
	addq	%r10, %rsi
	leaq	begin_behind.nothing(%rip), %r14
	addq	%r11, %r10
	testb	%dil, %bl
	cmoveq	%r14, %rsi
	movl	_tls_index(%rip), %r11d
	movq	%gs:88, %r15
	movq	(%r15,%r11,8), %r15
	movq	%rsi, lent@SECREL32(%r15)
	cmoveq	%r14, %r10
	movq	%r10, lent_end@SECREL32(%r15)
	movq	$16, lent_step@SECREL32(%r15)
	movl	%eax, 32(%rsp)
	callq	tlsf_offsets_open
	cmpl	$5, %eax
	movl	$39, %ecx
	cmovnel	%eax, %ecx
	testb	%dil, %bl
	movq	$0, lent@SECREL32(%r15)
	cmovel	%ecx, %eax
	addq	$40, %rsp
	popq	%rbx
	popq	%rbp
	popq	%rdi
	popq	%rsi
	popq	%r14
	popq	%r15
	retq
	.seh_endproc
	.def	tlsf_pools_bytes;
	.scl	2;
	.type	32;
	.endef
	.globl	tlsf_pools_bytes
	.p2align	4
tlsf_pools_bytes:
.seh_proc tlsf_pools_bytes
	pushq	%rsi
	.seh_pushreg %rsi
	subq	$64, %rsp
	.seh_stackalloc 64
	.seh_endprologue
	movq	%r8, %rsi
	movq	$0, 56(%rsp)
	movl	$0, 52(%rsp)
	leaq	52(%rsp), %rax
	movq	%rax, 32(%rsp)
	leaq	56(%rsp), %r9
	callq	tlsf_pools_words
	testl	%eax, %eax
	je	.Lm_BB21_2
	xorl	%eax, %eax
	jmp	.Lm_BB21_3
.Lm_BB21_2:
	movq	56(%rsp), %rax
	movl	52(%rsp), %ecx
	imulq	$2792, %rcx, %rdx
	addq	$23, %rdx
	andq	$-16, %rdx
	leaq	(,%rax,8), %r8
	shrq	$6, %rax
	leaq	(%rcx,%rcx,4), %rcx
	shlq	$4, %rcx
	leaq	(%rsi,%rsi,2), %r9
	leaq	(%r8,%r9,4), %r8
	leaq	(%r8,%rax,8), %rax
	addq	%rcx, %rax
	addq	%rdx, %rax
	addq	$2783, %rax
.Lm_BB21_3:
	addq	$64, %rsp
	popq	%rsi
	retq
	.seh_endproc
	.def	tlsf_pools_open_in;
	.scl	2;
	.type	32;
	.endef
	.globl	tlsf_pools_open_in
	.p2align	4
tlsf_pools_open_in:
.seh_proc tlsf_pools_open_in
	pushq	%r15
	.seh_pushreg %r15
	pushq	%r14
	.seh_pushreg %r14
	pushq	%rsi
	.seh_pushreg %rsi
	pushq	%rdi
	.seh_pushreg %rdi
	pushq	%rbx
	.seh_pushreg %rbx
	subq	$48, %rsp
	.seh_stackalloc 48
	.seh_endprologue
	movq	128(%rsp), %rax
	movq	144(%rsp), %r11
	movq	136(%rsp), %r10
	movl	%r10d, %edi
	negl	%edi
	andl	$15, %edi
	testq	%r10, %r10
	setne	%bl
	movq	%r10, %rsi
	notq	%rsi
	cmpq	%rsi, %r11
	setbe	%sil
	cmpq	%r11, %rdi
	cmovaeq	%r11, %rdi
	addq	%r10, %rdi
	leaq	begin_behind.nothing(%rip), %r14
	addq	%r11, %r10
	testb	%sil, %bl
	cmoveq	%r14, %rdi
	movl	_tls_index(%rip), %r11d
	movq	%gs:88, %r15
	movq	(%r15,%r11,8), %r15
	movq	%rdi, lent@SECREL32(%r15)
	cmoveq	%r14, %r10
	movq	%r10, lent_end@SECREL32(%r15)
	movq	$16, lent_step@SECREL32(%r15)
	movq	%rax, 32(%rsp)
	callq	tlsf_pools_open
	cmpl	$6, %eax
	movl	$5, %ecx
	cmovel	%ecx, %eax
	cmpl	$5, %eax
	movl	$39, %ecx
	cmovnel	%eax, %ecx
	testb	%sil, %bl
	movq	$0, lent@SECREL32(%r15)
	cmovel	%ecx, %eax
	addq	$48, %rsp
	popq	%rbx
	popq	%rdi
	popq	%rsi
	popq	%r14
	popq	%r15
	retq
	.seh_endproc
	.def	tlsf_next_number;
	.scl	2;
	.type	32;
	.endef
	.globl	tlsf_next_number
	.p2align	4
tlsf_next_number:
	movl	$1, %edx
	lock		xaddq	%rdx, tlsf_next_number.calls(%rip)
	leaq	(,%rdx,8), %r8
	movslq	%r8d, %r9
	movl	$2, %eax
	cmpq	%r8, %r9
	jne	.Lm_BB23_2
	movl	$2147483648, %eax
	leaq	(%rax,%rdx,8), %rax
	movl	%eax, (%rcx)
	xorl	%eax, %eax
.Lm_BB23_2:
	retq
	.lcomm	tlsf_memory_alloc.nothing,8,8
	.section	.tls$,"dw"
	.p2align	3, 0x0
near_room:
	.quad	0
	.p2align	2, 0x0
pieces_first:
	.long	0
	.p2align	3, 0x0
lent:
	.quad	0
	.lcomm	tlsf_next_number.calls,8,8
	.p2align	3, 0x0
lent_step:
	.quad	0
	.p2align	3, 0x0
lent_end:
	.quad	0
	.p2align	3, 0x0
front:
	.quad	0
	.lcomm	begin_behind.nothing,1
#endif
