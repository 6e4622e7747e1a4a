#ifndef TLSF_ONLY_MEMORY
/* The calls in Rattle. */
	.syntax	unified
	.eabi_attribute	24, 1
	.eabi_attribute	25, 1
	.section	.text.unlikely.tlsf_c.call_fault.CallFault.refusal,"ax",%progbits
	.p2align	1
	.type	tlsf_c.call_fault.CallFault.refusal,%function
	.code	16
	.thumb_func
tlsf_c.call_fault.CallFault.refusal:
	.cfi_sections .debug_frame
	.cfi_startproc
	lsls	r0, r0, #2
	movs	r1, #32
	orrs	r1, r0
	uxtb	r0, r1
	bx	lr
.Lfunc_end0:
	.size	tlsf_c.call_fault.CallFault.refusal, .Lfunc_end0-tlsf_c.call_fault.CallFault.refusal
	.cfi_endproc
	.section	.text.tlsf_heap.heap.Heap.resize_live.4,"ax",%progbits
	.p2align	1
	.type	tlsf_heap.heap.Heap.resize_live.4,%function
	.code	16
	.thumb_func
tlsf_heap.heap.Heap.resize_live.4:
	.cfi_startproc
	push	{r4, r5, r6, r7, lr}
	.cfi_def_cfa_offset 20
	.cfi_offset lr, -4
	.cfi_offset r7, -8
	.cfi_offset r6, -12
	.cfi_offset r5, -16
	.cfi_offset r4, -20
	sub	sp, #52
	.cfi_def_cfa_offset 72
	ldrb	r3, [r1, #4]
	ldrb	r4, [r1, #5]
	lsls	r4, r4, #8
	adds	r3, r4, r3
	ldrb	r4, [r1, #6]
	lsls	r4, r4, #16
	ldrb	r1, [r1, #7]
	lsls	r1, r1, #24
	adds	r1, r1, r4
	adds	r1, r1, r3
	str	r1, [sp, #48]
	lsls	r7, r1, #3
	ldr	r3, [r0, #24]
	adds	r4, r3, r7
	ldr	r1, [r4, #4]
	str	r1, [sp, #44]
	ldr	r1, [r3, r7]
	lsrs	r6, r1, #2
	mov	r5, r0
	adds	r5, #24
	cmp	r2, r6
	str	r1, [sp, #40]
	bls	.LBB1_4
	lsls	r1, r1, #30
	bmi	.LBB1_3
	ldr	r1, [sp, #48]
	adds	r1, r6, r1
	lsls	r1, r1, #3
	str	r1, [sp, #36]
	ldr	r4, [r3, r1]
	lsls	r1, r4, #31
	bne	.LBB1_8
.LBB1_3:
	movs	r4, #0
	mov	r3, r4
	b	.LBB1_9
.LBB1_4:
	ldr	r7, [r0, #8]
	ldr	r1, [r0, #12]
	mov	r3, r7
	ands	r3, r1
	adds	r3, r3, #1
	beq	.LBB1_15
	movs	r3, #0
	str	r3, [r4, #16]
	str	r3, [sp, #36]
	str	r3, [r4, #20]
	adds	r3, r2, #4
	cmp	r6, r3
	mov	r4, r6
	blo	.LBB1_7
	str	r2, [sp]
	str	r7, [sp, #8]
	str	r1, [sp, #12]
	mov	r4, r0
	mov	r0, r5
	ldr	r1, [sp, #48]
	mov	r5, r2
	ldr	r2, [sp, #40]
	ldr	r3, [sp, #44]
	bl	tlsf_heap.refitting.split_off.4
	mov	r0, r4
	mov	r4, r5
.LBB1_7:
	subs	r1, r4, r6
	ldr	r2, [r0, #16]
	adds	r1, r1, r2
	ldr	r2, [r0, #8]
	adds	r2, r2, #1
	str	r2, [r0, #8]
	str	r1, [r0, #16]
	ldr	r2, [r0, #12]
	ldr	r1, [sp, #36]
	adcs	r2, r1
	str	r2, [r0, #12]
	b	.LBB1_16
.LBB1_8:
	ldr	r1, [sp, #36]
	adds	r1, r3, r1
	ldr	r3, [r1, #4]
.LBB1_9:
	lsrs	r1, r4, #2
	adds	r1, r1, r6
	cmp	r1, r2
	bhs	.LBB1_11
	movs	r0, #1
	movs	r1, #5
	add	sp, #52
	pop	{r4, r5, r6, r7, pc}
.LBB1_11:
	str	r3, [sp, #36]
	ldr	r1, [r0, #8]
	ldr	r3, [r0, #12]
	str	r1, [sp, #28]
	str	r3, [sp, #32]
	ands	r1, r3
	adds	r1, r1, #1
	beq	.LBB1_15
	ldr	r1, [sp, #28]
	str	r1, [sp, #16]
	ldr	r1, [sp, #32]
	str	r1, [sp, #20]
	str	r4, [sp]
	ldr	r1, [sp, #36]
	str	r1, [sp, #4]
	str	r2, [sp, #8]
	mov	r4, r0
	mov	r0, r5
	ldr	r1, [sp, #48]
	ldr	r2, [sp, #40]
	ldr	r3, [sp, #44]
	bl	tlsf_heap.refitting.recut.4
	mov	r2, r4
	ldr	r1, [r4, #24]
	adds	r3, r1, r7
	movs	r1, #0
	str	r1, [r3, #16]
	str	r1, [r3, #20]
	subs	r0, r0, r6
	ldr	r3, [r4, #16]
	adds	r0, r3, r0
	str	r0, [r4, #16]
	ldr	r3, [r4, #20]
	cmp	r3, r0
	bhs	.LBB1_14
	str	r0, [r2, #20]
.LBB1_14:
	ldr	r0, [r2, #8]
	adds	r0, r0, #1
	str	r0, [r2, #8]
	ldr	r0, [r2, #12]
	adcs	r0, r1
	str	r0, [r2, #12]
	b	.LBB1_16
.LBB1_15:
	movs	r1, #1
.LBB1_16:
	mov	r0, r1
	add	sp, #52
	pop	{r4, r5, r6, r7, pc}
.Lfunc_end1:
	.size	tlsf_heap.heap.Heap.resize_live.4, .Lfunc_end1-tlsf_heap.heap.Heap.resize_live.4
	.cfi_endproc
	.section	.text.tlsf_heap.refitting.split_off.4,"ax",%progbits
	.p2align	1
	.type	tlsf_heap.refitting.split_off.4,%function
	.code	16
	.thumb_func
tlsf_heap.refitting.split_off.4:
	.cfi_startproc
	push	{r4, r5, r6, r7, lr}
	.cfi_def_cfa_offset 20
	.cfi_offset lr, -4
	.cfi_offset r7, -8
	.cfi_offset r6, -12
	.cfi_offset r5, -16
	.cfi_offset r4, -20
	sub	sp, #76
	.cfi_def_cfa_offset 96
	str	r3, [sp, #48]
	str	r1, [sp, #72]
	mov	r6, r0
	ldr	r1, [r0]
	str	r1, [sp, #68]
	lsls	r1, r2, #30
	ldr	r1, [sp, #108]
	str	r1, [sp, #52]
	ldr	r5, [sp, #104]
	ldr	r7, [sp, #96]
	bmi	.LBB2_2
	lsrs	r1, r2, #2
	ldr	r3, [sp, #72]
	adds	r1, r1, r3
	lsls	r3, r1, #3
	ldr	r1, [sp, #68]
	ldr	r1, [r1, r3]
	lsls	r4, r1, #31
	beq	.LBB2_2
	b	.LBB2_7
.LBB2_2:
	str	r6, [sp, #64]
	ldr	r1, [sp, #72]
	adds	r0, r7, r1
	str	r0, [sp, #56]
	str	r5, [sp, #28]
	mov	r5, r1
	lsls	r4, r0, #3
	movs	r3, #1
	mov	r1, r2
	str	r2, [sp, #32]
	orrs	r1, r3
	str	r7, [sp, #44]
	lsls	r2, r7, #2
	subs	r2, r1, r2
	str	r2, [sp, #40]
	lsls	r7, r5, #3
	str	r7, [sp, #36]
	movs	r5, #0
	str	r5, [sp, #60]
	subs	r1, r1, r2
	ldr	r0, [sp, #68]
	str	r1, [r0, r7]
	ldr	r1, [r6]
	str	r2, [r1, r4]
	ldr	r7, [sp, #48]
	sbcs	r7, r5
	str	r4, [sp, #48]
	adds	r4, r1, r4
	ldr	r0, [sp, #28]
	str	r0, [r4, #8]
	ldr	r1, [sp, #56]
	lsrs	r0, r1, #6
	lsls	r5, r0, #3
	ldr	r0, [sp, #64]
	ldr	r6, [r0, #24]
	ldr	r0, [r6, r5]
	str	r0, [sp, #28]
	movs	r2, #63
	ands	r2, r1
	str	r3, [sp, #24]
	mov	r0, r3
	ldr	r1, [sp, #60]
	bl	__aeabi_llsl
	ldr	r2, [sp, #28]
	orrs	r0, r2
	str	r0, [r6, r5]
	ldr	r0, [sp, #68]
	ldr	r2, [sp, #36]
	adds	r0, r0, r2
	str	r7, [r0, #4]
	ldr	r7, [sp, #56]
	ldr	r0, [sp, #52]
	str	r0, [r4, #12]
	ldr	r0, [sp, #72]
	str	r0, [r4, #4]
	ldr	r4, [sp, #64]
	adds	r0, r6, r5
	ldr	r2, [r0, #4]
	orrs	r2, r1
	str	r2, [r0, #4]
	ldr	r0, [sp, #40]
	lsls	r1, r0, #30
	ldr	r0, [sp, #60]
	mvns	r5, r0
	ldr	r0, [sp, #32]
	lsrs	r0, r0, #2
	cmp	r1, #0
	bmi	.LBB2_4
	ldr	r1, [sp, #72]
	adds	r1, r0, r1
	lsls	r1, r1, #3
	ldr	r2, [r4]
	ldr	r3, [r2, r1]
	ands	r3, r5
	str	r3, [r2, r1]
	adds	r1, r2, r1
	str	r7, [r1, #4]
.LBB2_4:
	ldr	r1, [sp, #44]
	subs	r6, r0, r1
	movs	r0, #16
	orrs	r0, r6
	bl	__clzsi2
	movs	r1, #27
	subs	r0, r1, r0
	lsrs	r6, r0
	lsls	r0, r0, #4
	adds	r0, r6, r0
	lsls	r1, r0, #2
	adds	r2, r4, r1
	movs	r3, #144
	ldr	r1, [r2, r3]
	str	r7, [r2, r3]
	cmp	r1, #0
	bmi	.LBB2_6
	ldr	r0, [r4]
	ldr	r2, [sp, #48]
	adds	r2, r0, r2
	str	r1, [r2, #16]
	str	r5, [r2, #20]
	lsls	r1, r1, #3
	adds	r0, r0, r1
	str	r7, [r0, #20]
	ldr	r1, [r0, #16]
	ands	r1, r5
	str	r1, [r0, #16]
	add	sp, #76
	pop	{r4, r5, r6, r7, pc}
.LBB2_6:
	ldr	r1, [r4]
	ldr	r2, [sp, #48]
	adds	r1, r1, r2
	str	r5, [r1, #16]
	str	r5, [r1, #20]
	lsrs	r0, r0, #4
	ldr	r3, [sp, #24]
	mov	r1, r3
	lsls	r1, r0
	ldr	r2, [r4, #56]
	orrs	r2, r1
	str	r2, [r4, #56]
	movs	r1, #15
	ands	r6, r1
	lsls	r3, r6
	lsls	r0, r0, #2
	adds	r0, r4, r0
	ldr	r1, [r0, #60]
	orrs	r1, r3
	str	r1, [r0, #60]
	add	sp, #76
	pop	{r4, r5, r6, r7, pc}
.LBB2_7:
	ldr	r4, [sp, #68]
	adds	r3, r4, r3
	ldr	r3, [r3, #4]
	str	r5, [sp, #16]
	ldr	r4, [sp, #52]
	str	r4, [sp, #20]
	add	r0, sp, #0
	stm	r0!, {r1, r3, r7}
	mov	r0, r6
	ldr	r1, [sp, #72]
	ldr	r3, [sp, #48]
	bl	tlsf_heap.refitting.recut.4
	add	sp, #76
	pop	{r4, r5, r6, r7, pc}
.Lfunc_end2:
	.size	tlsf_heap.refitting.split_off.4, .Lfunc_end2-tlsf_heap.refitting.split_off.4
	.cfi_endproc
	.section	.text.tlsf_heap.refitting.recut.4,"ax",%progbits
	.p2align	2
	.type	tlsf_heap.refitting.recut.4,%function
	.code	16
	.thumb_func
tlsf_heap.refitting.recut.4:
	.cfi_startproc
	push	{r4, r5, r6, r7, lr}
	.cfi_def_cfa_offset 20
	.cfi_offset lr, -4
	.cfi_offset r7, -8
	.cfi_offset r6, -12
	.cfi_offset r5, -16
	.cfi_offset r4, -20
	sub	sp, #92
	.cfi_def_cfa_offset 112
	str	r3, [sp, #88]
	mov	r4, r2
	mov	r7, r1
	lsrs	r1, r2, #2
	adds	r2, r1, r7
	ldr	r5, [sp, #112]
	lsrs	r1, r5, #2
	str	r0, [sp, #84]
	str	r1, [sp, #60]
	bl	tlsf_heap.region.Region.remove.4
	movs	r0, #0
	adds	r6, r5, r4
	mov	r4, r7
	ldr	r7, [sp, #88]
	adcs	r7, r0
	lsrs	r1, r6, #2
	adds	r2, r1, r4
	str	r2, [sp, #80]
	mvns	r5, r0
	ldr	r3, [sp, #120]
	adds	r2, r3, #4
	str	r1, [sp, #68]
	cmp	r2, r1
	str	r0, [sp, #72]
	str	r5, [sp, #76]
	str	r4, [sp, #64]
	bls	.LBB3_8
	str	r6, [sp, #56]
	str	r7, [sp, #88]
	ldr	r1, [sp, #60]
	ldr	r2, [sp, #80]
	subs	r4, r2, r1
	movs	r2, #1
	mvns	r1, r2
	mvns	r3, r0
	movs	r2, #32
	tst	r4, r2
	mov	r2, r1
	bne	.LBB3_3
	mov	r2, r3
.LBB3_3:
	ldr	r0, [sp, #84]
	bne	.LBB3_5
	mov	r3, r1
.LBB3_5:
	movs	r6, #31
	mov	r5, r4
	ands	r5, r6
	lsls	r3, r5
	bics	r6, r4
	ldr	r7, .LCPI3_1
	lsrs	r7, r6
	orrs	r3, r7
	lsrs	r4, r4, #3
	ldr	r1, .LCPI3_0
	ands	r4, r1
	mov	r1, r0
	ldr	r0, [r0, #24]
	ldr	r6, [r0, r4]
	ands	r6, r3
	str	r6, [r0, r4]
	lsls	r2, r5
	orrs	r2, r7
	mov	r5, r1
	adds	r0, r0, r4
	ldr	r3, [r0, #4]
	ands	r3, r2
	str	r3, [r0, #4]
	ldr	r6, [sp, #56]
	lsls	r0, r6, #30
	ldr	r4, [sp, #64]
	bmi	.LBB3_7
	ldr	r0, [sp, #80]
	lsls	r0, r0, #3
	ldr	r2, [r5]
	ldr	r3, [r2, r0]
	ldr	r1, [sp, #76]
	ands	r3, r1
	str	r3, [r2, r0]
	adds	r0, r2, r0
	str	r4, [r0, #4]
.LBB3_7:
	ldr	r0, [r5]
	lsls	r2, r4, #3
	subs	r1, r6, #1
	str	r1, [r0, r2]
	ldr	r1, [sp, #72]
	ldr	r3, [sp, #88]
	sbcs	r3, r1
	adds	r0, r0, r2
	str	r3, [r0, #4]
	ldr	r0, [sp, #68]
	add	sp, #92
	pop	{r4, r5, r6, r7, pc}
.LBB3_8:
	ldr	r1, [sp, #128]
	str	r1, [sp, #28]
	adds	r1, r3, r4
	str	r1, [sp, #52]
	lsls	r2, r1, #3
	str	r3, [sp, #56]
	lsls	r3, r3, #2
	subs	r3, r6, r3
	ldr	r1, [sp, #84]
	ldr	r5, [r1]
	lsls	r4, r4, #3
	subs	r1, r6, r3
	str	r5, [sp, #40]
	str	r4, [sp, #36]
	str	r1, [r5, r4]
	ldr	r5, [sp, #76]
	ldr	r4, [sp, #84]
	ldr	r1, [r4]
	str	r3, [sp, #44]
	str	r3, [r1, r2]
	sbcs	r7, r0
	str	r7, [sp, #88]
	str	r2, [sp, #48]
	adds	r1, r1, r2
	str	r1, [sp, #32]
	ldr	r2, [sp, #28]
	str	r2, [r1, #8]
	ldr	r1, [sp, #60]
	ldr	r2, [sp, #80]
	subs	r1, r2, r1
	movs	r2, #1
	str	r2, [sp, #60]
	mvns	r3, r2
	movs	r2, #32
	tst	r1, r2
	mov	r2, r3
	bne	.LBB3_10
	mov	r2, r5
.LBB3_10:
	str	r2, [sp, #28]
	ldr	r0, [sp, #132]
	str	r0, [sp, #24]
	mov	r2, r5
	bne	.LBB3_12
	mov	r2, r3
.LBB3_12:
	movs	r3, #31
	mov	r0, r1
	ands	r0, r3
	str	r0, [sp, #20]
	lsls	r2, r0
	bics	r3, r1
	ldr	r5, .LCPI3_1
	lsrs	r5, r3
	orrs	r2, r5
	lsrs	r7, r1, #3
	ldr	r0, .LCPI3_0
	ands	r7, r0
	mov	r3, r4
	ldr	r4, [r4, #24]
	str	r4, [sp, #16]
	ldr	r1, [r4, r7]
	ands	r1, r2
	str	r1, [r4, r7]
	ldr	r6, [sp, #52]
	lsrs	r4, r6, #3
	ands	r4, r0
	ldr	r0, [r3, #24]
	str	r0, [sp, #4]
	ldr	r1, [r0, r4]
	str	r1, [sp, #8]
	movs	r2, #63
	ands	r2, r6
	ldr	r0, [sp, #60]
	ldr	r1, [sp, #72]
	bl	__aeabi_llsl
	str	r1, [sp, #12]
	ldr	r1, [sp, #8]
	orrs	r0, r1
	ldr	r1, [sp, #4]
	str	r0, [r1, r4]
	ldr	r0, [sp, #40]
	ldr	r2, [sp, #36]
	adds	r0, r0, r2
	ldr	r2, [sp, #88]
	str	r2, [r0, #4]
	ldr	r0, [sp, #64]
	ldr	r2, [sp, #32]
	str	r0, [r2, #4]
	ldr	r0, [sp, #24]
	str	r0, [r2, #12]
	ldr	r3, [sp, #28]
	ldr	r0, [sp, #20]
	lsls	r3, r0
	orrs	r3, r5
	ldr	r0, [sp, #16]
	adds	r0, r0, r7
	mov	r7, r6
	ldr	r5, [sp, #84]
	ldr	r2, [r0, #4]
	ands	r2, r3
	str	r2, [r0, #4]
	adds	r0, r1, r4
	ldr	r2, [r0, #4]
	ldr	r1, [sp, #12]
	orrs	r2, r1
	str	r2, [r0, #4]
	ldr	r0, [sp, #44]
	lsls	r0, r0, #30
	bmi	.LBB3_14
	ldr	r0, [sp, #80]
	lsls	r0, r0, #3
	ldr	r1, [r5]
	ldr	r2, [r1, r0]
	ldr	r3, [sp, #76]
	ands	r2, r3
	str	r2, [r1, r0]
	adds	r0, r1, r0
	str	r7, [r0, #4]
.LBB3_14:
	ldr	r0, [sp, #68]
	ldr	r6, [sp, #56]
	subs	r4, r0, r6
	movs	r0, #16
	orrs	r0, r4
	bl	__clzsi2
	movs	r1, #27
	subs	r0, r1, r0
	lsrs	r4, r0
	lsls	r0, r0, #4
	adds	r0, r4, r0
	lsls	r1, r0, #2
	adds	r2, r5, r1
	movs	r3, #144
	ldr	r1, [r2, r3]
	str	r7, [r2, r3]
	cmp	r1, #0
	bmi	.LBB3_16
	ldr	r0, [r5]
	ldr	r2, [sp, #48]
	adds	r2, r0, r2
	str	r1, [r2, #16]
	ldr	r3, [sp, #76]
	str	r3, [r2, #20]
	lsls	r1, r1, #3
	adds	r0, r0, r1
	str	r7, [r0, #20]
	ldr	r1, [r0, #16]
	ands	r1, r3
	str	r1, [r0, #16]
	b	.LBB3_17
.LBB3_16:
	ldr	r1, [r5]
	ldr	r2, [sp, #48]
	adds	r1, r1, r2
	ldr	r2, [sp, #72]
	mvns	r2, r2
	str	r2, [r1, #16]
	str	r2, [r1, #20]
	lsrs	r0, r0, #4
	ldr	r3, [sp, #60]
	mov	r1, r3
	lsls	r1, r0
	ldr	r2, [r5, #56]
	orrs	r2, r1
	str	r2, [r5, #56]
	movs	r1, #15
	ands	r4, r1
	lsls	r3, r4
	lsls	r0, r0, #2
	adds	r0, r5, r0
	ldr	r1, [r0, #60]
	orrs	r1, r3
	str	r1, [r0, #60]
.LBB3_17:
	mov	r0, r6
	add	sp, #92
	pop	{r4, r5, r6, r7, pc}
	.p2align	2
.LCPI3_0:
	.long	536870904
.LCPI3_1:
	.long	2147483647
.Lfunc_end3:
	.size	tlsf_heap.refitting.recut.4, .Lfunc_end3-tlsf_heap.refitting.recut.4
	.cfi_endproc
	.section	.text.tlsf_heap.region.Region.remove.4,"ax",%progbits
	.p2align	1
	.type	tlsf_heap.region.Region.remove.4,%function
	.code	16
	.thumb_func
tlsf_heap.region.Region.remove.4:
	.cfi_startproc
	push	{r4, r5, r6, r7, lr}
	.cfi_def_cfa_offset 20
	.cfi_offset lr, -4
	.cfi_offset r7, -8
	.cfi_offset r6, -12
	.cfi_offset r5, -16
	.cfi_offset r4, -20
	sub	sp, #4
	.cfi_def_cfa_offset 24
	mov	r4, r0
	lsls	r0, r2, #3
	ldr	r7, [r4]
	adds	r0, r7, r0
	ldr	r6, [r0, #16]
	ldr	r0, [r0, #20]
	cmp	r0, #0
	bmi	.LBB4_3
	lsls	r1, r0, #3
	adds	r2, r7, r1
	ldr	r3, [r2, #20]
	movs	r1, #0
	mvns	r1, r1
	adds	r4, r6, #1
	beq	.LBB4_5
	lsls	r4, r6, #3
	ands	r6, r1
	str	r6, [r2, #16]
	str	r3, [r2, #20]
	adds	r2, r7, r4
	movs	r3, #1
	lsls	r3, r3, #31
	bics	r0, r3
	str	r0, [r2, #20]
	ldr	r0, [r2, #16]
	ands	r0, r1
	str	r0, [r2, #16]
	add	sp, #4
	pop	{r4, r5, r6, r7, pc}
.LBB4_3:
	mov	r5, r1
	movs	r0, #16
	orrs	r0, r1
	bl	__clzsi2
	movs	r1, #27
	subs	r0, r1, r0
	lsrs	r5, r0
	lsls	r0, r0, #4
	adds	r0, r5, r0
	adds	r1, r6, #1
	beq	.LBB4_6
	lsls	r1, r6, #3
	adds	r1, r7, r1
	movs	r2, #0
	mvns	r2, r2
	str	r2, [r1, #20]
	lsls	r0, r0, #2
	adds	r0, r4, r0
	movs	r1, #144
	str	r6, [r0, r1]
	add	sp, #4
	pop	{r4, r5, r6, r7, pc}
.LBB4_5:
	ldr	r0, [r2, #16]
	orrs	r0, r1
	str	r0, [r2, #16]
	str	r3, [r2, #20]
	add	sp, #4
	pop	{r4, r5, r6, r7, pc}
.LBB4_6:
	lsls	r1, r0, #2
	adds	r1, r4, r1
	movs	r2, #0
	mvns	r2, r2
	movs	r3, #144
	str	r2, [r1, r3]
	movs	r1, #15
	ands	r5, r1
	movs	r1, #1
	mov	r2, r1
	lsls	r2, r5
	lsrs	r0, r0, #4
	lsls	r3, r0, #2
	adds	r3, r4, r3
	ldr	r5, [r3, #60]
	bics	r5, r2
	str	r5, [r3, #60]
	beq	.LBB4_8
	add	sp, #4
	pop	{r4, r5, r6, r7, pc}
.LBB4_8:
	lsls	r1, r0
	ldr	r0, [r4, #56]
	bics	r0, r1
	str	r0, [r4, #56]
	add	sp, #4
	pop	{r4, r5, r6, r7, pc}
.Lfunc_end4:
	.size	tlsf_heap.region.Region.remove.4, .Lfunc_end4-tlsf_heap.region.Region.remove.4
	.cfi_endproc
	.section	.text.tlsf_heap.heap.Heap.release_live.4,"ax",%progbits
	.p2align	1
	.type	tlsf_heap.heap.Heap.release_live.4,%function
	.code	16
	.thumb_func
tlsf_heap.heap.Heap.release_live.4:
	.cfi_startproc
	push	{r4, r5, r6, r7, lr}
	.cfi_def_cfa_offset 20
	.cfi_offset lr, -4
	.cfi_offset r7, -8
	.cfi_offset r6, -12
	.cfi_offset r5, -16
	.cfi_offset r4, -20
	sub	sp, #60
	.cfi_def_cfa_offset 80
	ldrb	r2, [r1, #4]
	ldrb	r3, [r1, #5]
	lsls	r3, r3, #8
	adds	r2, r3, r2
	ldrb	r3, [r1, #6]
	lsls	r3, r3, #16
	ldrb	r1, [r1, #7]
	lsls	r1, r1, #24
	adds	r1, r1, r3
	adds	r6, r1, r2
	lsls	r3, r6, #3
	ldr	r4, [r0, #24]
	ldr	r1, [r4, r3]
	lsrs	r7, r1, #2
	ldr	r2, [r0, #16]
	subs	r2, r2, r7
	str	r2, [r0, #16]
	str	r3, [sp, #40]
	adds	r5, r4, r3
	lsls	r3, r1, #30
	movs	r2, #0
	cmp	r3, #0
	mov	r3, r2
	bmi	.LBB5_2
	adds	r2, r7, r6
	lsls	r3, r2, #3
	ldr	r2, [r4, r3]
	adds	r3, r4, r3
	ldr	r3, [r3, #4]
.LBB5_2:
	str	r3, [sp, #48]
	str	r7, [sp, #44]
	ldr	r7, [r5, #4]
	mov	r3, r0
	adds	r3, #24
	str	r3, [sp, #52]
	str	r6, [sp, #56]
	cmp	r6, #0
	beq	.LBB5_4
	lsls	r6, r7, #3
	ldr	r3, [r4, r6]
	str	r3, [sp, #36]
	lsls	r3, r3, #31
	bne	.LBB5_8
.LBB5_4:
	ldr	r6, [r0, #8]
	ldr	r4, [r0, #12]
	lsls	r3, r2, #31
	bne	.LBB5_7
	movs	r2, #1
	str	r2, [sp, #48]
	orrs	r1, r2
	stm	r5!, {r1, r7}
	str	r6, [r5]
	str	r4, [r5, #4]
	ldr	r1, [r0, #8]
	movs	r4, #0
	adds	r1, r1, #1
	str	r1, [r0, #8]
	ldr	r1, [r0, #12]
	adcs	r1, r4
	str	r1, [r0, #12]
	movs	r1, #16
	ldr	r7, [sp, #44]
	orrs	r1, r7
	mov	r5, r0
	mov	r0, r1
	bl	__clzsi2
	mov	r1, r5
	movs	r2, #27
	subs	r0, r2, r0
	lsrs	r7, r0
	lsls	r0, r0, #4
	adds	r0, r7, r0
	lsls	r2, r0, #2
	adds	r3, r5, r2
	movs	r5, #168
	ldr	r2, [r3, r5]
	ldr	r6, [sp, #56]
	str	r6, [r3, r5]
	cmp	r2, #0
	bmi	.LBB5_9
	ldr	r0, [sp, #52]
	ldr	r0, [r0]
	ldr	r1, [sp, #40]
	adds	r1, r0, r1
	mvns	r3, r4
	str	r2, [r1, #16]
	str	r3, [r1, #20]
	lsls	r1, r2, #3
	adds	r0, r0, r1
	str	r6, [r0, #20]
	add	sp, #60
	pop	{r4, r5, r6, r7, pc}
.LBB5_7:
	movs	r3, #0
	adds	r5, r6, #1
	str	r5, [r0, #8]
	adcs	r3, r4
	str	r3, [r0, #12]
	str	r1, [sp]
	str	r7, [sp, #4]
	str	r6, [sp, #8]
	str	r4, [sp, #12]
	ldr	r0, [sp, #56]
	str	r0, [sp, #16]
	ldr	r0, [sp, #52]
	ldr	r3, [sp, #48]
	bl	tlsf_heap.fitting.merge_next.4
	add	sp, #60
	pop	{r4, r5, r6, r7, pc}
.LBB5_8:
	adds	r3, r4, r6
	ldr	r3, [r3, #4]
	ldr	r4, [r0, #8]
	movs	r5, #0
	adds	r6, r4, #1
	str	r6, [r0, #8]
	ldr	r6, [r0, #12]
	adcs	r5, r6
	str	r5, [r0, #12]
	str	r1, [sp, #24]
	str	r7, [sp, #28]
	ldr	r0, [sp, #36]
	add	r1, sp, #0
	stm	r1!, {r0, r3, r4, r6}
	ldr	r0, [sp, #56]
	str	r0, [sp, #16]
	ldr	r0, [sp, #52]
	ldr	r3, [sp, #48]
	bl	tlsf_heap.fitting.merge_before.4
	add	sp, #60
	pop	{r4, r5, r6, r7, pc}
.LBB5_9:
	ldr	r2, [r1, #24]
	ldr	r3, [sp, #40]
	adds	r2, r2, r3
	mvns	r3, r4
	str	r3, [r2, #16]
	str	r3, [r2, #20]
	lsrs	r0, r0, #4
	ldr	r4, [sp, #48]
	mov	r2, r4
	lsls	r2, r0
	ldr	r3, [r1, #80]
	orrs	r3, r2
	str	r3, [r1, #80]
	movs	r2, #15
	ands	r7, r2
	lsls	r4, r7
	lsls	r0, r0, #2
	adds	r0, r1, r0
	ldr	r1, [r0, #84]
	orrs	r1, r4
	str	r1, [r0, #84]
	add	sp, #60
	pop	{r4, r5, r6, r7, pc}
.Lfunc_end5:
	.size	tlsf_heap.heap.Heap.release_live.4, .Lfunc_end5-tlsf_heap.heap.Heap.release_live.4
	.cfi_endproc
	.section	.text.tlsf_heap.fitting.merge_before.4,"ax",%progbits
	.p2align	2
	.type	tlsf_heap.fitting.merge_before.4,%function
	.code	16
	.thumb_func
tlsf_heap.fitting.merge_before.4:
	.cfi_startproc
	push	{r4, r5, r6, r7, lr}
	.cfi_def_cfa_offset 20
	.cfi_offset lr, -4
	.cfi_offset r7, -8
	.cfi_offset r6, -12
	.cfi_offset r5, -16
	.cfi_offset r4, -20
	sub	sp, #84
	.cfi_def_cfa_offset 104
	str	r3, [sp, #80]
	mov	r7, r0
	lsls	r0, r2, #31
	ldr	r1, [sp, #128]
	ldr	r5, [sp, #116]
	ldr	r4, [sp, #112]
	ldr	r6, [sp, #108]
	ldr	r0, [sp, #104]
	ldr	r3, [sp, #120]
	bne	.LBB6_3
	str	r4, [sp, #48]
	str	r5, [sp, #52]
	movs	r2, #1
	str	r2, [sp, #56]
	orrs	r1, r2
	mov	r4, r3
	movs	r3, #0
	adds	r1, r0, r1
	adcs	r6, r3
	subs	r5, r1, #1
	sbcs	r6, r3
	str	r6, [sp, #44]
	lsrs	r6, r0, #2
	subs	r2, r4, r6
	lsls	r1, r2, #3
	ldr	r0, [r7]
	str	r1, [sp, #68]
	adds	r0, r0, r1
	ldr	r0, [r0, #20]
	str	r3, [sp, #36]
	mvns	r1, r3
	str	r1, [sp, #80]
	cmp	r0, #0
	str	r7, [sp, #60]
	str	r2, [sp, #64]
	str	r5, [sp, #76]
	bmi	.LBB6_5
	mov	r0, r7
	lsrs	r5, r5, #2
	b	.LBB6_13
.LBB6_3:
	str	r3, [sp, #72]
	mov	r3, r6
	ldr	r6, [sp, #132]
	str	r1, [sp, #24]
	str	r6, [sp, #28]
	add	r1, sp, #0
	stm	r1!, {r0, r3, r4, r5}
	ldr	r0, [sp, #72]
	str	r0, [sp, #16]
	mov	r0, r7
	ldr	r3, [sp, #80]
	bl	tlsf_heap.fitting.merge_both.4
.LBB6_4:
	add	sp, #84
	pop	{r4, r5, r6, r7, pc}
.LBB6_5:
	str	r4, [sp, #72]
	movs	r7, #16
	mov	r0, r6
	orrs	r0, r7
	bl	__clzsi2
	movs	r4, #27
	subs	r0, r4, r0
	mov	r1, r6
	lsrs	r1, r0
	lsls	r0, r0, #4
	adds	r0, r1, r0
	str	r0, [sp, #40]
	lsrs	r5, r5, #2
	orrs	r7, r5
	mov	r0, r7
	bl	__clzsi2
	subs	r0, r4, r0
	mov	r1, r5
	lsrs	r1, r0
	lsls	r0, r0, #4
	adds	r0, r1, r0
	ldr	r1, [sp, #40]
	cmp	r1, r0
	bne	.LBB6_12
	ldr	r0, [sp, #56]
	mvns	r2, r0
	ldr	r0, [sp, #36]
	mvns	r1, r0
	movs	r0, #32
	ldr	r3, [sp, #72]
	tst	r3, r0
	mov	r0, r2
	bne	.LBB6_8
	mov	r0, r1
.LBB6_8:
	str	r0, [sp, #56]
	ldr	r7, [sp, #60]
	bne	.LBB6_10
	mov	r1, r2
.LBB6_10:
	movs	r6, #31
	ldr	r4, [sp, #72]
	mov	r2, r4
	ands	r2, r6
	lsls	r1, r2
	bics	r6, r4
	ldr	r3, .LCPI6_1
	lsrs	r3, r6
	orrs	r1, r3
	lsrs	r4, r4, #3
	ldr	r6, .LCPI6_0
	ands	r4, r6
	ldr	r6, [r7, #24]
	ldr	r7, [r6, r4]
	ands	r7, r1
	str	r7, [r6, r4]
	ldr	r1, [sp, #60]
	ldr	r1, [r1]
	ldr	r7, [sp, #68]
	ldr	r0, [sp, #76]
	str	r0, [r1, r7]
	ldr	r0, [sp, #56]
	lsls	r0, r2
	orrs	r0, r3
	adds	r2, r6, r4
	ldr	r3, [r2, #4]
	ands	r3, r0
	str	r3, [r2, #4]
	adds	r0, r1, r7
	ldr	r1, [sp, #44]
	str	r1, [r0, #4]
	ldr	r1, [sp, #48]
	str	r1, [r0, #8]
	ldr	r1, [sp, #52]
	str	r1, [r0, #12]
	ldr	r0, [sp, #76]
	lsls	r0, r0, #30
	bmi	.LBB6_4
	ldr	r3, [sp, #64]
	adds	r0, r5, r3
	lsls	r0, r0, #3
	ldr	r1, [sp, #60]
	ldr	r1, [r1]
	ldr	r2, [r1, r0]
	ldr	r4, [sp, #80]
	ands	r2, r4
	str	r2, [r1, r0]
	adds	r0, r1, r0
	str	r3, [r0, #4]
	add	sp, #84
	pop	{r4, r5, r6, r7, pc}
.LBB6_12:
	ldr	r0, [sp, #60]
	ldr	r2, [sp, #64]
	ldr	r4, [sp, #72]
.LBB6_13:
	mov	r7, r0
	mov	r1, r6
	bl	tlsf_heap.region.Region.remove.4
	ldr	r0, [sp, #56]
	mvns	r2, r0
	movs	r0, #32
	tst	r4, r0
	mov	r0, r2
	bne	.LBB6_15
	ldr	r0, [sp, #80]
.LBB6_15:
	str	r0, [sp, #40]
	str	r5, [sp, #72]
	ldr	r1, [sp, #80]
	bne	.LBB6_17
	mov	r1, r2
.LBB6_17:
	movs	r6, #31
	mov	r2, r4
	ands	r2, r6
	lsls	r1, r2
	bics	r6, r4
	ldr	r3, .LCPI6_1
	lsrs	r3, r6
	orrs	r1, r3
	lsrs	r4, r4, #3
	ldr	r5, .LCPI6_0
	ands	r4, r5
	ldr	r6, [r7, #24]
	ldr	r7, [r6, r4]
	ands	r7, r1
	str	r7, [r6, r4]
	ldr	r1, [sp, #60]
	ldr	r7, [r1]
	ldr	r5, [sp, #68]
	ldr	r0, [sp, #76]
	str	r0, [r7, r5]
	ldr	r0, [sp, #40]
	lsls	r0, r2
	orrs	r0, r3
	adds	r2, r6, r4
	mov	r6, r1
	ldr	r3, [r2, #4]
	ands	r3, r0
	str	r3, [r2, #4]
	adds	r0, r7, r5
	ldr	r1, [sp, #44]
	str	r1, [r0, #4]
	ldr	r1, [sp, #48]
	str	r1, [r0, #8]
	ldr	r1, [sp, #52]
	str	r1, [r0, #12]
	ldr	r0, [sp, #76]
	lsls	r0, r0, #30
	ldr	r5, [sp, #72]
	bmi	.LBB6_19
	ldr	r3, [sp, #64]
	adds	r0, r5, r3
	lsls	r0, r0, #3
	ldr	r1, [r6]
	ldr	r2, [r1, r0]
	ldr	r4, [sp, #80]
	ands	r2, r4
	str	r2, [r1, r0]
	adds	r0, r1, r0
	str	r3, [r0, #4]
.LBB6_19:
	movs	r0, #16
	orrs	r0, r5
	bl	__clzsi2
	movs	r1, #27
	subs	r0, r1, r0
	lsrs	r5, r0
	lsls	r0, r0, #4
	adds	r0, r5, r0
	lsls	r1, r0, #2
	adds	r2, r6, r1
	movs	r3, #144
	ldr	r1, [r2, r3]
	ldr	r4, [sp, #64]
	str	r4, [r2, r3]
	cmp	r1, #0
	bmi	.LBB6_21
	mov	r3, r4
	ldr	r0, [r6]
	ldr	r2, [sp, #68]
	adds	r2, r0, r2
	str	r1, [r2, #16]
	ldr	r4, [sp, #80]
	str	r4, [r2, #20]
	lsls	r1, r1, #3
	adds	r0, r0, r1
	str	r3, [r0, #20]
	ldr	r1, [r0, #16]
	ands	r1, r4
	str	r1, [r0, #16]
	add	sp, #84
	pop	{r4, r5, r6, r7, pc}
.LBB6_21:
	ldr	r1, [r6]
	ldr	r2, [sp, #68]
	adds	r1, r1, r2
	ldr	r2, [sp, #36]
	mvns	r2, r2
	str	r2, [r1, #16]
	str	r2, [r1, #20]
	lsrs	r0, r0, #4
	ldr	r3, [sp, #56]
	mov	r1, r3
	lsls	r1, r0
	ldr	r2, [r6, #56]
	orrs	r2, r1
	str	r2, [r6, #56]
	movs	r1, #15
	ands	r5, r1
	lsls	r3, r5
	lsls	r0, r0, #2
	adds	r0, r6, r0
	ldr	r1, [r0, #60]
	orrs	r1, r3
	str	r1, [r0, #60]
	add	sp, #84
	pop	{r4, r5, r6, r7, pc}
	.p2align	2
.LCPI6_0:
	.long	536870904
.LCPI6_1:
	.long	2147483647
.Lfunc_end6:
	.size	tlsf_heap.fitting.merge_before.4, .Lfunc_end6-tlsf_heap.fitting.merge_before.4
	.cfi_endproc
	.section	.text.tlsf_heap.fitting.merge_both.4,"ax",%progbits
	.p2align	2
	.type	tlsf_heap.fitting.merge_both.4,%function
	.code	16
	.thumb_func
tlsf_heap.fitting.merge_both.4:
	.cfi_startproc
	push	{r4, r5, r6, r7, lr}
	.cfi_def_cfa_offset 20
	.cfi_offset lr, -4
	.cfi_offset r7, -8
	.cfi_offset r6, -12
	.cfi_offset r5, -16
	.cfi_offset r4, -20
	sub	sp, #68
	.cfi_def_cfa_offset 88
	mov	r1, r2
	mov	r6, r0
	ldr	r0, [sp, #112]
	str	r0, [sp, #48]
	lsrs	r0, r0, #2
	ldr	r5, [sp, #104]
	adds	r2, r0, r5
	str	r1, [sp, #56]
	lsrs	r1, r1, #2
	mov	r0, r6
	str	r1, [sp, #40]
	bl	tlsf_heap.region.Region.remove.4
	ldr	r0, [sp, #88]
	str	r0, [sp, #24]
	lsrs	r1, r0, #2
	subs	r2, r5, r1
	mov	r0, r6
	str	r2, [sp, #64]
	bl	tlsf_heap.region.Region.remove.4
	movs	r0, #1
	str	r0, [sp, #8]
	mvns	r7, r0
	movs	r1, #0
	mvns	r2, r1
	movs	r0, #32
	str	r0, [sp, #20]
	tst	r5, r0
	mov	r0, r7
	bne	.LBB7_2
	mov	r0, r2
.LBB7_2:
	str	r0, [sp, #52]
	str	r2, [sp, #60]
	bne	.LBB7_4
	mov	r2, r7
.LBB7_4:
	movs	r4, #31
	mov	r0, r5
	ands	r0, r4
	str	r0, [sp, #44]
	lsls	r2, r0
	mov	r3, r4
	bics	r3, r5
	ldr	r0, .LCPI7_0
	lsrs	r0, r3
	str	r0, [sp, #36]
	orrs	r2, r0
	lsrs	r3, r5, #6
	lsls	r5, r3, #3
	mov	r0, r6
	ldr	r6, [r6, #24]
	ldr	r3, [r6, r5]
	ands	r3, r2
	str	r5, [sp, #32]
	str	r6, [sp, #28]
	str	r3, [r6, r5]
	ldr	r2, [sp, #56]
	ldr	r3, [sp, #48]
	adds	r3, r3, r2
	ldr	r2, [sp, #92]
	ldr	r5, [sp, #24]
	adds	r3, r5, r3
	adcs	r2, r1
	subs	r5, r3, #1
	mov	r3, r7
	str	r1, [sp, #4]
	sbcs	r2, r1
	str	r2, [sp, #48]
	lsrs	r2, r5, #2
	ldr	r1, [sp, #64]
	str	r2, [sp, #56]
	adds	r1, r2, r1
	str	r1, [sp, #12]
	ldr	r2, [sp, #40]
	subs	r7, r1, r2
	ldr	r1, [sp, #20]
	tst	r7, r1
	mov	r1, r3
	ldr	r6, [sp, #60]
	bne	.LBB7_6
	mov	r1, r6
.LBB7_6:
	str	r1, [sp, #40]
	bne	.LBB7_8
	mov	r6, r3
.LBB7_8:
	mov	r3, r7
	ands	r3, r4
	lsls	r6, r3
	bics	r4, r7
	ldr	r2, .LCPI7_0
	lsrs	r2, r4
	orrs	r6, r2
	lsrs	r4, r7, #6
	lsls	r4, r4, #3
	mov	r1, r0
	str	r0, [sp, #16]
	ldr	r7, [r0, #24]
	ldr	r0, [r7, r4]
	ands	r0, r6
	str	r0, [r7, r4]
	ldr	r0, [sp, #64]
	lsls	r6, r0, #3
	ldr	r0, [r1]
	str	r0, [sp, #20]
	str	r5, [r0, r6]
	str	r5, [sp, #24]
	ldr	r5, [sp, #52]
	ldr	r0, [sp, #44]
	lsls	r5, r0
	ldr	r0, [sp, #36]
	orrs	r5, r0
	ldr	r0, [sp, #32]
	ldr	r1, [sp, #28]
	adds	r0, r1, r0
	ldr	r1, [r0, #4]
	ands	r1, r5
	str	r1, [r0, #4]
	ldr	r5, [sp, #40]
	lsls	r5, r3
	orrs	r5, r2
	adds	r0, r7, r4
	mov	r7, r6
	ldr	r1, [r0, #4]
	ands	r1, r5
	ldr	r5, [sp, #64]
	str	r1, [r0, #4]
	ldr	r0, [sp, #20]
	adds	r0, r0, r6
	ldr	r4, [sp, #16]
	ldr	r1, [sp, #100]
	str	r1, [r0, #12]
	ldr	r1, [sp, #96]
	str	r1, [r0, #8]
	ldr	r1, [sp, #48]
	str	r1, [r0, #4]
	ldr	r0, [sp, #24]
	lsls	r0, r0, #30
	bmi	.LBB7_10
	ldr	r0, [sp, #12]
	lsls	r0, r0, #3
	ldr	r1, [r4]
	ldr	r2, [r1, r0]
	ldr	r3, [sp, #60]
	ands	r2, r3
	str	r2, [r1, r0]
	adds	r0, r1, r0
	str	r5, [r0, #4]
.LBB7_10:
	movs	r0, #16
	ldr	r6, [sp, #56]
	orrs	r0, r6
	bl	__clzsi2
	movs	r1, #27
	subs	r0, r1, r0
	lsrs	r6, r0
	lsls	r0, r0, #4
	adds	r0, r6, r0
	lsls	r1, r0, #2
	adds	r2, r4, r1
	movs	r3, #144
	ldr	r1, [r2, r3]
	str	r5, [r2, r3]
	cmp	r1, #0
	bmi	.LBB7_12
	ldr	r0, [r4]
	adds	r2, r0, r7
	str	r1, [r2, #16]
	ldr	r3, [sp, #60]
	str	r3, [r2, #20]
	lsls	r1, r1, #3
	adds	r0, r0, r1
	str	r5, [r0, #20]
	ldr	r1, [r0, #16]
	ands	r1, r3
	str	r1, [r0, #16]
	add	sp, #68
	pop	{r4, r5, r6, r7, pc}
.LBB7_12:
	ldr	r1, [r4]
	adds	r1, r1, r7
	ldr	r2, [sp, #4]
	mvns	r2, r2
	str	r2, [r1, #16]
	str	r2, [r1, #20]
	lsrs	r0, r0, #4
	ldr	r3, [sp, #8]
	mov	r1, r3
	lsls	r1, r0
	ldr	r2, [r4, #56]
	orrs	r2, r1
	str	r2, [r4, #56]
	movs	r1, #15
	ands	r6, r1
	lsls	r3, r6
	lsls	r0, r0, #2
	adds	r0, r4, r0
	ldr	r1, [r0, #60]
	orrs	r1, r3
	str	r1, [r0, #60]
	add	sp, #68
	pop	{r4, r5, r6, r7, pc}
	.p2align	2
.LCPI7_0:
	.long	2147483647
.Lfunc_end7:
	.size	tlsf_heap.fitting.merge_both.4, .Lfunc_end7-tlsf_heap.fitting.merge_both.4
	.cfi_endproc
	.section	.text.tlsf_heap.fitting.merge_next.4,"ax",%progbits
	.p2align	2
	.type	tlsf_heap.fitting.merge_next.4,%function
	.code	16
	.thumb_func
tlsf_heap.fitting.merge_next.4:
	.cfi_startproc
	push	{r4, r5, r6, r7, lr}
	.cfi_def_cfa_offset 20
	.cfi_offset lr, -4
	.cfi_offset r7, -8
	.cfi_offset r6, -12
	.cfi_offset r5, -16
	.cfi_offset r4, -20
	sub	sp, #44
	.cfi_def_cfa_offset 64
	mov	r5, r2
	ldr	r7, [sp, #64]
	lsrs	r1, r7, #2
	ldr	r4, [sp, #80]
	adds	r2, r4, r1
	lsrs	r6, r5, #2
	str	r0, [sp, #40]
	mov	r1, r6
	bl	tlsf_heap.region.Region.remove.4
	movs	r3, #0
	ldr	r1, [sp, #68]
	adds	r0, r5, r7
	adcs	r1, r3
	str	r1, [sp, #20]
	str	r0, [sp, #24]
	lsrs	r2, r0, #2
	str	r4, [sp, #36]
	adds	r0, r2, r4
	str	r0, [sp, #8]
	subs	r0, r0, r6
	movs	r1, #1
	str	r1, [sp, #4]
	mvns	r1, r1
	str	r3, [sp]
	mvns	r7, r3
	movs	r3, #32
	tst	r0, r3
	mov	r3, r1
	bne	.LBB8_2
	mov	r3, r7
.LBB8_2:
	str	r3, [sp, #16]
	str	r2, [sp, #32]
	str	r7, [sp, #28]
	bne	.LBB8_4
	mov	r7, r1
.LBB8_4:
	movs	r2, #31
	mov	r6, r0
	ands	r6, r2
	lsls	r7, r6
	bics	r2, r0
	ldr	r1, .LCPI8_0
	lsrs	r1, r2
	orrs	r7, r1
	lsrs	r0, r0, #6
	lsls	r0, r0, #3
	str	r0, [sp, #12]
	ldr	r2, [sp, #40]
	ldr	r2, [r2, #24]
	ldr	r4, [r2, r0]
	ands	r4, r7
	str	r4, [r2, r0]
	ldr	r7, [sp, #36]
	lsls	r3, r7, #3
	ldr	r4, [sp, #40]
	ldr	r4, [r4]
	ldr	r5, [sp, #24]
	str	r5, [r4, r3]
	ldr	r0, [sp, #16]
	lsls	r0, r6
	mov	r6, r7
	orrs	r0, r1
	ldr	r1, [sp, #12]
	adds	r2, r2, r1
	ldr	r1, [r2, #4]
	ands	r1, r0
	str	r1, [r2, #4]
	str	r3, [sp, #16]
	adds	r0, r4, r3
	ldr	r4, [sp, #40]
	ldr	r1, [sp, #76]
	str	r1, [r0, #12]
	ldr	r1, [sp, #72]
	str	r1, [r0, #8]
	ldr	r1, [sp, #20]
	str	r1, [r0, #4]
	lsls	r0, r5, #30
	ldr	r7, [sp, #28]
	bmi	.LBB8_6
	ldr	r0, [sp, #8]
	lsls	r0, r0, #3
	ldr	r1, [r4]
	ldr	r2, [r1, r0]
	ands	r2, r7
	str	r2, [r1, r0]
	adds	r0, r1, r0
	str	r6, [r0, #4]
.LBB8_6:
	movs	r0, #16
	ldr	r5, [sp, #32]
	orrs	r0, r5
	bl	__clzsi2
	movs	r1, #27
	subs	r0, r1, r0
	lsrs	r5, r0
	lsls	r0, r0, #4
	adds	r0, r5, r0
	lsls	r1, r0, #2
	adds	r2, r4, r1
	movs	r3, #144
	ldr	r1, [r2, r3]
	str	r6, [r2, r3]
	cmp	r1, #0
	bmi	.LBB8_8
	ldr	r0, [r4]
	ldr	r2, [sp, #16]
	adds	r2, r0, r2
	str	r1, [r2, #16]
	str	r7, [r2, #20]
	lsls	r1, r1, #3
	adds	r0, r0, r1
	str	r6, [r0, #20]
	ldr	r1, [r0, #16]
	ands	r1, r7
	str	r1, [r0, #16]
	add	sp, #44
	pop	{r4, r5, r6, r7, pc}
.LBB8_8:
	ldr	r1, [r4]
	ldr	r2, [sp, #16]
	adds	r1, r1, r2
	ldr	r2, [sp]
	mvns	r2, r2
	str	r2, [r1, #16]
	str	r2, [r1, #20]
	lsrs	r0, r0, #4
	ldr	r3, [sp, #4]
	mov	r1, r3
	lsls	r1, r0
	ldr	r2, [r4, #56]
	orrs	r2, r1
	str	r2, [r4, #56]
	movs	r1, #15
	ands	r5, r1
	lsls	r3, r5
	lsls	r0, r0, #2
	adds	r0, r4, r0
	ldr	r1, [r0, #60]
	orrs	r1, r3
	str	r1, [r0, #60]
	add	sp, #44
	pop	{r4, r5, r6, r7, pc}
	.p2align	2
.LCPI8_0:
	.long	2147483647
.Lfunc_end8:
	.size	tlsf_heap.fitting.merge_next.4, .Lfunc_end8-tlsf_heap.fitting.merge_next.4
	.cfi_endproc
	.section	.text.tlsf_heap.check.examine,"ax",%progbits
	.p2align	2
	.type	tlsf_heap.check.examine,%function
	.code	16
	.thumb_func
tlsf_heap.check.examine:
	.cfi_startproc
	push	{r4, r5, r6, r7, lr}
	.cfi_def_cfa_offset 20
	.cfi_offset lr, -4
	.cfi_offset r7, -8
	.cfi_offset r6, -12
	.cfi_offset r5, -16
	.cfi_offset r4, -20
	sub	sp, #28
	.cfi_def_cfa_offset 48
	mov	r4, r1
	mov	r6, r0
	ldr	r5, [r0, #8]
	subs	r7, r5, #4
	movs	r1, #0
	cmp	r4, r7
	mov	r0, r1
	bls	.LBB9_2
.LBB9_1:
	add	sp, #28
	pop	{r4, r5, r6, r7, pc}
.LBB9_2:
	movs	r0, #63
	mov	r2, r4
	str	r0, [sp, #24]
	ands	r2, r0
	ldr	r3, [r6, #24]
	lsrs	r0, r4, #6
	lsls	r1, r0, #3
	ldr	r0, [r3, r1]
	str	r3, [sp, #20]
	adds	r1, r3, r1
	ldr	r1, [r1, #4]
	bl	__aeabi_llsr
	lsls	r0, r0, #31
	bne	.LBB9_3
	b	.LBB9_29
.LBB9_3:
	lsls	r2, r4, #3
	ldr	r0, [r6]
	ldr	r6, [r0, r2]
	movs	r1, #0
	cmp	r6, #16
	bhs	.LBB9_4
	b	.LBB9_30
.LBB9_4:
	str	r0, [sp, #16]
	lsrs	r0, r6, #2
	str	r0, [sp, #12]
	adds	r3, r0, r4
	cmp	r3, r5
	mov	r0, r1
	bhi	.LBB9_1
	subs	r0, r3, r5
	rsbs	r1, r0, #0
	adcs	r1, r0
	movs	r0, #2
	ands	r0, r6
	lsrs	r0, r0, #1
	eors	r0, r1
	movs	r1, #0
	cmp	r0, #0
	mov	r0, r1
	bne	.LBB9_1
	ldr	r0, [sp, #16]
	adds	r2, r0, r2
	ldr	r0, [r2, #4]
	cmp	r4, #0
	beq	.LBB9_10
	movs	r1, #0
	str	r0, [sp, #8]
	cmp	r7, r0
	mov	r0, r1
	blo	.LBB9_1
	str	r2, [sp, #4]
	str	r3, [sp]
	ldr	r1, [sp, #8]
	mov	r2, r1
	ldr	r0, [sp, #24]
	ands	r2, r0
	lsrs	r1, r1, #3
	ldr	r0, .LCPI9_0
	ands	r1, r0
	ldr	r3, [sp, #20]
	ldr	r0, [r3, r1]
	adds	r1, r3, r1
	ldr	r1, [r1, #4]
	bl	__aeabi_llsr
	lsls	r0, r0, #31
	bne	.LBB9_9
	b	.LBB9_29
.LBB9_9:
	ldr	r2, [sp, #8]
	lsls	r0, r2, #3
	ldr	r1, [sp, #16]
	ldr	r0, [r1, r0]
	lsrs	r0, r0, #2
	adds	r0, r0, r2
	movs	r1, #0
	cmp	r0, r4
	mov	r0, r1
	ldr	r3, [sp]
	ldr	r2, [sp, #4]
	beq	.LBB9_11
	b	.LBB9_1
.LBB9_10:
	adds	r0, r0, #1
	movs	r1, #0
	cmp	r0, #0
	mov	r0, r1
	bne	.LBB9_1
.LBB9_11:
	movs	r0, #1
	str	r0, [sp, #8]
	ands	r6, r0
	cmp	r3, r5
	bhs	.LBB9_16
	movs	r1, #0
	cmp	r3, r7
	mov	r0, r1
	bhi	.LBB9_1
	str	r2, [sp, #4]
	mov	r2, r3
	ldr	r0, [sp, #24]
	ands	r2, r0
	lsrs	r1, r3, #3
	ldr	r0, .LCPI9_0
	ands	r1, r0
	ldr	r5, [sp, #20]
	ldr	r0, [r5, r1]
	adds	r1, r5, r1
	ldr	r1, [r1, #4]
	mov	r5, r3
	bl	__aeabi_llsr
	lsls	r0, r0, #31
	beq	.LBB9_29
	lsls	r0, r5, #3
	ldr	r2, [sp, #16]
	adds	r1, r2, r0
	ldr	r3, [r1, #4]
	movs	r1, #0
	cmp	r4, r3
	bne	.LBB9_30
	mov	r3, r5
	ldr	r0, [r2, r0]
	ands	r0, r6
	mov	r0, r1
	ldr	r2, [sp, #4]
	beq	.LBB9_16
	b	.LBB9_1
.LBB9_16:
	ldr	r5, [r2, #16]
	ldr	r0, [r2, #20]
	cmp	r6, #0
	bne	.LBB9_18
	ldr	r1, [sp, #12]
	mov	r4, r0
	lsrs	r0, r1, #29
	lsls	r2, r1, #3
	movs	r1, #0
	subs	r2, #24
	sbcs	r0, r1
	subs	r2, r2, r5
	sbcs	r0, r4
	mov	r0, r1
	bhs	.LBB9_24
	b	.LBB9_1
.LBB9_18:
	mov	r6, r0
	adds	r0, r5, #1
	beq	.LBB9_23
	movs	r1, #0
	cmp	r7, r5
	mov	r0, r1
	bhs	.LBB9_20
	b	.LBB9_1
.LBB9_20:
	str	r3, [sp]
	mov	r2, r5
	ldr	r0, [sp, #24]
	ands	r2, r0
	lsrs	r1, r5, #3
	ldr	r0, .LCPI9_0
	ands	r1, r0
	ldr	r3, [sp, #20]
	ldr	r0, [r3, r1]
	adds	r1, r3, r1
	ldr	r1, [r1, #4]
	bl	__aeabi_llsr
	lsls	r0, r0, #31
	beq	.LBB9_29
	lsls	r2, r5, #3
	ldr	r0, [sp, #16]
	ldrb	r0, [r0, r2]
	lsls	r0, r0, #31
	movs	r1, #0
	cmp	r0, #0
	mov	r0, r1
	ldr	r3, [sp]
	bne	.LBB9_22
	b	.LBB9_1
.LBB9_22:
	ldr	r0, [sp, #16]
	adds	r0, r0, r2
	ldr	r0, [r0, #20]
	movs	r1, #0
	cmp	r4, r0
	mov	r0, r1
	beq	.LBB9_23
	b	.LBB9_1
.LBB9_23:
	adds	r0, r6, #1
	bne	.LBB9_25
.LBB9_24:
	mov	r1, r3
	ldr	r0, [sp, #8]
	add	sp, #28
	pop	{r4, r5, r6, r7, pc}
.LBB9_25:
	movs	r1, #0
	cmp	r7, r6
	mov	r0, r1
	bhs	.LBB9_26
	b	.LBB9_1
.LBB9_26:
	mov	r5, r3
	ldr	r2, [sp, #24]
	ands	r2, r6
	lsrs	r1, r6, #3
	ldr	r0, .LCPI9_0
	ands	r1, r0
	ldr	r3, [sp, #20]
	ldr	r0, [r3, r1]
	adds	r1, r3, r1
	ldr	r1, [r1, #4]
	bl	__aeabi_llsr
	lsls	r0, r0, #31
	beq	.LBB9_29
	lsls	r2, r6, #3
	ldr	r0, [sp, #16]
	ldrb	r0, [r0, r2]
	lsls	r0, r0, #31
	movs	r1, #0
	cmp	r0, #0
	mov	r0, r1
	bne	.LBB9_28
	b	.LBB9_1
.LBB9_28:
	mov	r3, r5
	ldr	r0, [sp, #16]
	adds	r0, r0, r2
	ldr	r0, [r0, #16]
	movs	r1, #0
	cmp	r4, r0
	mov	r0, r1
	beq	.LBB9_24
	b	.LBB9_1
.LBB9_29:
	movs	r1, #0
.LBB9_30:
	mov	r0, r1
	add	sp, #28
	pop	{r4, r5, r6, r7, pc}
	.p2align	2
.LCPI9_0:
	.long	536870904
.Lfunc_end9:
	.size	tlsf_heap.check.examine, .Lfunc_end9-tlsf_heap.check.examine
	.cfi_endproc
	.section	.text.tlsf_heap.around.check_around,"ax",%progbits
	.p2align	1
	.type	tlsf_heap.around.check_around,%function
	.code	16
	.thumb_func
tlsf_heap.around.check_around:
	.cfi_startproc
	push	{r4, r5, r6, r7, lr}
	.cfi_def_cfa_offset 20
	.cfi_offset lr, -4
	.cfi_offset r7, -8
	.cfi_offset r6, -12
	.cfi_offset r5, -16
	.cfi_offset r4, -20
	sub	sp, #12
	.cfi_def_cfa_offset 32
	mov	r6, r2
	mov	r4, r0
	ldr	r0, [r1, #8]
	str	r0, [sp, #4]
	subs	r0, r0, #4
	movs	r5, #0
	cmp	r2, r0
	mov	r2, r5
	mov	r0, r5
	mov	r7, r5
	bhi	.LBB10_9
	movs	r2, #63
	ands	r2, r6
	ldr	r7, [r1, #24]
	lsrs	r0, r6, #6
	str	r1, [sp, #8]
	lsls	r3, r0, #3
	ldr	r0, [r7, r3]
	adds	r1, r7, r3
	ldr	r1, [r1, #4]
	bl	__aeabi_llsr
	ldr	r1, [sp, #8]
	lsls	r0, r0, #31
	mov	r2, r5
	mov	r0, r5
	mov	r7, r5
	beq	.LBB10_9
	mov	r0, r1
	mov	r1, r6
	bl	tlsf_heap.check.examine
	uxtb	r0, r0
	movs	r2, #1
	cmp	r0, #1
	bne	.LBB10_7
	mov	r7, r1
	cmp	r6, #0
	beq	.LBB10_5
	lsls	r3, r6, #3
	str	r2, [sp]
	ldr	r0, [sp, #8]
	ldr	r1, [r0]
	adds	r1, r1, r3
	ldr	r6, [r1, #4]
	mov	r1, r6
	bl	tlsf_heap.check.examine
	ldr	r2, [sp]
	uxtb	r0, r0
	cmp	r0, #1
	bne	.LBB10_7
.LBB10_5:
	ldr	r0, [sp, #4]
	cmp	r7, r0
	bne	.LBB10_8
	mov	r0, r5
	mov	r7, r5
	b	.LBB10_9
.LBB10_7:
	mov	r0, r2
	mov	r7, r6
	b	.LBB10_9
.LBB10_8:
	ldr	r0, [sp, #8]
	mov	r6, r2
	mov	r1, r7
	bl	tlsf_heap.check.examine
	uxtb	r0, r0
	subs	r0, r0, #1
	subs	r1, r0, #1
	sbcs	r0, r1
	mov	r2, r6
.LBB10_9:
	strb	r7, [r4, #8]
	strb	r5, [r4, #7]
	strb	r5, [r4, #6]
	strb	r5, [r4, #5]
	strb	r0, [r4, #4]
	strb	r5, [r4, #3]
	strb	r5, [r4, #2]
	strb	r5, [r4, #1]
	strb	r2, [r4]
	lsrs	r0, r7, #24
	strb	r0, [r4, #11]
	lsrs	r0, r7, #16
	strb	r0, [r4, #10]
	lsrs	r0, r7, #8
	strb	r0, [r4, #9]
	add	sp, #12
	pop	{r4, r5, r6, r7, pc}
.Lfunc_end10:
	.size	tlsf_heap.around.check_around, .Lfunc_end10-tlsf_heap.around.check_around
	.cfi_endproc
	.section	.text.tlsf_post.take_end.TakeEnd.take_slice,"ax",%progbits
	.p2align	1
	.type	tlsf_post.take_end.TakeEnd.take_slice,%function
	.code	16
	.thumb_func
tlsf_post.take_end.TakeEnd.take_slice:
	.cfi_startproc
	push	{r4, r5, r6, r7, lr}
	.cfi_def_cfa_offset 20
	.cfi_offset lr, -4
	.cfi_offset r7, -8
	.cfi_offset r6, -12
	.cfi_offset r5, -16
	.cfi_offset r4, -20
	sub	sp, #84
	.cfi_def_cfa_offset 104
	mov	r7, r3
	str	r2, [sp, #72]
	ldr	r3, [r0, #24]
	ldr	r6, [r0, #28]
	ldr	r5, [r0, #32]
	ldr	r4, [r0, #36]
	subs	r2, r5, r3
	mov	r2, r4
	sbcs	r2, r6
	str	r0, [sp, #80]
	str	r1, [sp, #76]
	bhs	.LBB11_2
	subs	r1, r5, r3
	mov	r2, r4
	sbcs	r2, r6
	mov	r5, r3
	ldr	r3, [r0, #16]
	ldr	r0, [r0, #20]
	lsrs	r4, r3, #31
	lsls	r0, r0, #1
	adds	r4, r0, r4
	lsls	r3, r3, #1
	adds	r1, r1, r3
	mov	r3, r5
	adcs	r4, r2
	b	.LBB11_3
.LBB11_2:
	subs	r1, r5, r3
	sbcs	r4, r6
.LBB11_3:
	ldr	r5, [sp, #72]
	subs	r1, r1, r5
	sbcs	r4, r7
	bhs	.LBB11_6
	ldr	r4, [sp, #80]
	ldr	r0, [r4]
	adds	r0, #128
	movs	r1, #5
	bl	__atomic_load_8
	str	r0, [r4, #32]
	str	r1, [r4, #36]
	ldr	r3, [r4, #24]
	ldr	r6, [r4, #28]
	subs	r2, r0, r3
	mov	r2, r1
	sbcs	r2, r6
	bhs	.LBB11_7
	subs	r0, r0, r3
	sbcs	r1, r6
	ldr	r2, [r4, #16]
	mov	r5, r3
	ldr	r3, [r4, #20]
	lsrs	r4, r2, #31
	lsls	r3, r3, #1
	adds	r4, r3, r4
	mov	r3, r5
	ldr	r5, [sp, #72]
	lsls	r2, r2, #1
	adds	r0, r0, r2
	adcs	r4, r1
	b	.LBB11_8
.LBB11_6:
	str	r6, [sp, #40]
	mov	r0, r5
	mov	r4, r7
	b	.LBB11_13
.LBB11_7:
	subs	r0, r0, r3
	sbcs	r1, r6
	mov	r4, r1
.LBB11_8:
	subs	r1, r0, r5
	mov	r1, r4
	sbcs	r1, r7
	blo	.LBB11_10
	mov	r4, r7
.LBB11_10:
	blo	.LBB11_12
	mov	r0, r5
.LBB11_12:
	str	r6, [sp, #40]
.LBB11_13:
	mov	r1, r0
	orrs	r1, r4
	ldr	r7, [sp, #80]
	bne	.LBB11_14
	b	.LBB11_43
.LBB11_14:
	str	r0, [sp, #36]
	ldr	r1, [r7, #16]
	ldr	r0, [r7, #20]
	str	r1, [sp, #32]
	subs	r1, r3, r1
	ldr	r6, [sp, #40]
	mov	r2, r6
	str	r0, [sp, #28]
	sbcs	r2, r0
	mov	r0, r6
	blo	.LBB11_16
	mov	r0, r2
.LBB11_16:
	mov	r2, r3
	blo	.LBB11_18
	mov	r2, r1
.LBB11_18:
	str	r2, [sp, #68]
	ldr	r1, [sp, #32]
	subs	r1, r1, r2
	ldr	r6, [sp, #28]
	sbcs	r6, r0
	ldr	r2, [sp, #36]
	str	r1, [sp, #20]
	subs	r1, r1, r2
	mov	r1, r6
	sbcs	r1, r4
	str	r6, [sp, #16]
	blo	.LBB11_20
	mov	r6, r4
.LBB11_20:
	str	r3, [sp, #24]
	ldr	r3, [sp, #20]
	blo	.LBB11_22
	mov	r3, r2
.LBB11_22:
	subs	r1, r2, r3
	str	r1, [sp, #64]
	mov	r1, r4
	str	r6, [sp, #60]
	sbcs	r1, r6
	str	r1, [sp, #52]
	movs	r6, #24
	ldr	r1, [sp, #28]
	eors	r0, r1
	ldr	r1, [sp, #32]
	ldr	r5, [sp, #68]
	eors	r1, r5
	orrs	r1, r0
	bne	.LBB11_23
	b	.LBB11_30
.LBB11_23:
	movs	r0, #3
	mov	r5, r3
	str	r0, [sp, #48]
	ands	r5, r0
	movs	r1, #0
	subs	r0, r3, #4
	ldr	r0, [sp, #60]
	str	r1, [sp, #56]
	sbcs	r0, r1
	str	r3, [sp, #12]
	blo	.LBB11_27
	str	r5, [sp, #4]
	str	r4, [sp, #8]
	ldr	r0, [sp, #48]
	bics	r3, r0
	str	r3, [sp, #44]
	ldr	r4, [sp, #56]
	mov	r5, r4
.LBB11_25:
	str	r4, [sp, #72]
	mov	r0, r6
	muls	r0, r5, r0
	ldr	r7, [sp, #76]
	adds	r0, r7, r0
	ldr	r4, [sp, #68]
	adds	r1, r5, r4
	muls	r1, r6, r1
	ldr	r2, [sp, #80]
	ldr	r2, [r2, #8]
	adds	r1, r2, r1
	mov	r2, r6
	bl	tlsf_memory_move
	movs	r1, #1
	orrs	r1, r5
	mov	r0, r6
	muls	r0, r1, r0
	adds	r0, r7, r0
	adds	r1, r1, r4
	mov	r7, r4
	muls	r1, r6, r1
	ldr	r4, [sp, #80]
	ldr	r2, [r4, #8]
	adds	r1, r2, r1
	mov	r2, r6
	bl	tlsf_memory_move
	movs	r1, #2
	orrs	r1, r5
	mov	r0, r6
	muls	r0, r1, r0
	ldr	r2, [sp, #76]
	adds	r0, r2, r0
	adds	r1, r1, r7
	muls	r1, r6, r1
	ldr	r2, [r4, #8]
	adds	r1, r2, r1
	mov	r2, r6
	bl	tlsf_memory_move
	mov	r1, r5
	ldr	r0, [sp, #48]
	orrs	r1, r0
	mov	r0, r6
	muls	r0, r1, r0
	ldr	r2, [sp, #76]
	adds	r0, r2, r0
	adds	r1, r1, r7
	muls	r1, r6, r1
	ldr	r2, [r4, #8]
	adds	r1, r2, r1
	mov	r2, r6
	bl	tlsf_memory_move
	ldr	r4, [sp, #72]
	adds	r5, r5, #4
	ldr	r0, [sp, #56]
	adcs	r4, r0
	mov	r0, r4
	ldr	r1, [sp, #60]
	eors	r0, r1
	mov	r1, r5
	ldr	r2, [sp, #44]
	eors	r1, r2
	orrs	r1, r0
	bne	.LBB11_25
	ldr	r0, [sp, #4]
	cmp	r0, #0
	str	r5, [sp, #56]
	mov	r5, r0
	ldr	r4, [sp, #8]
	ldr	r2, [sp, #36]
	ldr	r7, [sp, #80]
	ldr	r3, [sp, #12]
	beq	.LBB11_30
.LBB11_27:
	mov	r0, r6
	ldr	r2, [sp, #56]
	muls	r0, r2, r0
	ldr	r1, [sp, #76]
	adds	r0, r1, r0
	ldr	r1, [sp, #68]
	adds	r1, r2, r1
	muls	r1, r6, r1
	ldr	r2, [r7, #8]
	adds	r1, r2, r1
	mov	r2, r6
	bl	tlsf_memory_move
	ldr	r3, [sp, #12]
	ldr	r2, [sp, #36]
	cmp	r5, #1
	beq	.LBB11_30
	ldr	r0, [sp, #56]
	adds	r1, r0, #1
	mov	r0, r6
	muls	r0, r1, r0
	ldr	r2, [sp, #76]
	adds	r0, r2, r0
	ldr	r2, [sp, #68]
	adds	r1, r1, r2
	muls	r1, r6, r1
	ldr	r2, [r7, #8]
	adds	r1, r2, r1
	mov	r2, r6
	bl	tlsf_memory_move
	ldr	r3, [sp, #12]
	ldr	r2, [sp, #36]
	cmp	r5, #2
	beq	.LBB11_30
	ldr	r0, [sp, #56]
	adds	r1, r0, #2
	mov	r0, r6
	muls	r0, r1, r0
	ldr	r2, [sp, #76]
	adds	r0, r2, r0
	ldr	r2, [sp, #68]
	adds	r1, r1, r2
	muls	r1, r6, r1
	ldr	r2, [r7, #8]
	adds	r1, r2, r1
	mov	r2, r6
	bl	tlsf_memory_move
	ldr	r3, [sp, #12]
	ldr	r2, [sp, #36]
.LBB11_30:
	ldr	r0, [sp, #20]
	subs	r0, r0, r2
	ldr	r0, [sp, #16]
	sbcs	r0, r4
	bhs	.LBB11_38
	mov	r0, r6
	muls	r0, r3, r0
	ldr	r1, [sp, #76]
	adds	r0, r1, r0
	str	r0, [sp, #68]
	movs	r0, #3
	ldr	r1, [sp, #64]
	ands	r1, r0
	str	r1, [sp, #56]
	ldr	r1, [sp, #36]
	subs	r1, r3, r1
	ldr	r5, [sp, #60]
	sbcs	r5, r4
	movs	r7, #0
	mvns	r2, r7
	mvns	r3, r0
	subs	r1, r3, r1
	sbcs	r2, r5
	ldr	r5, [sp, #68]
	blo	.LBB11_35
	str	r4, [sp, #8]
	ldr	r2, [sp, #64]
	bics	r2, r0
	movs	r0, #0
	mov	r7, r0
	str	r0, [sp, #60]
	mov	r3, r0
	str	r2, [sp, #64]
	ldr	r4, [sp, #80]
.LBB11_33:
	str	r3, [sp, #72]
	str	r7, [sp, #76]
	mov	r5, r6
	muls	r6, r7, r6
	ldr	r7, [sp, #68]
	adds	r0, r7, r6
	ldr	r1, [r4, #8]
	adds	r1, r1, r6
	mov	r2, r5
	bl	tlsf_memory_move
	mov	r1, r6
	orrs	r1, r5
	adds	r0, r7, r1
	ldr	r2, [r4, #8]
	adds	r1, r2, r1
	mov	r2, r5
	bl	tlsf_memory_move
	mov	r1, r6
	adds	r1, #48
	adds	r0, r7, r1
	ldr	r2, [r4, #8]
	adds	r1, r2, r1
	mov	r2, r5
	bl	tlsf_memory_move
	adds	r6, #72
	adds	r0, r7, r6
	ldr	r7, [sp, #76]
	ldr	r1, [r4, #8]
	adds	r1, r1, r6
	mov	r6, r5
	mov	r2, r5
	bl	tlsf_memory_move
	ldr	r3, [sp, #72]
	ldr	r2, [sp, #64]
	adds	r7, r7, #4
	ldr	r0, [sp, #60]
	adcs	r3, r0
	mov	r0, r3
	ldr	r1, [sp, #52]
	eors	r0, r1
	mov	r1, r7
	eors	r1, r2
	orrs	r1, r0
	bne	.LBB11_33
	ldr	r0, [sp, #56]
	cmp	r0, #0
	ldr	r4, [sp, #8]
	ldr	r5, [sp, #68]
	beq	.LBB11_38
.LBB11_35:
	muls	r7, r6, r7
	adds	r0, r5, r7
	ldr	r1, [sp, #80]
	ldr	r1, [r1, #8]
	adds	r1, r1, r7
	mov	r2, r6
	bl	tlsf_memory_move
	ldr	r0, [sp, #56]
	cmp	r0, #1
	beq	.LBB11_38
	mov	r1, r7
	adds	r1, #24
	adds	r0, r5, r1
	ldr	r2, [sp, #80]
	ldr	r2, [r2, #8]
	adds	r1, r2, r1
	mov	r2, r6
	bl	tlsf_memory_move
	ldr	r0, [sp, #56]
	cmp	r0, #2
	beq	.LBB11_38
	adds	r7, #48
	adds	r0, r5, r7
	ldr	r1, [sp, #80]
	ldr	r1, [r1, #8]
	adds	r1, r1, r7
	mov	r2, r6
	bl	tlsf_memory_move
.LBB11_38:
	ldr	r0, [sp, #80]
	ldr	r0, [r0]
	str	r0, [sp, #76]
	movs	r1, #5
	str	r1, [sp]
	ldr	r5, [sp, #32]
	lsrs	r1, r5, #31
	ldr	r0, [sp, #28]
	lsls	r2, r0, #1
	adds	r3, r2, r1
	lsls	r1, r5, #1
	ldr	r2, [sp, #24]
	mov	r7, r4
	subs	r4, r1, r2
	ldr	r0, [sp, #40]
	sbcs	r3, r0
	movs	r2, #0
	rsbs	r0, r4, #0
	sbcs	r2, r3
	ldr	r1, [sp, #36]
	subs	r4, r1, r4
	mov	r1, r7
	mov	r4, r7
	sbcs	r4, r3
	blo	.LBB11_40
	str	r2, [sp, #40]
.LBB11_40:
	ldr	r2, [sp, #24]
	blo	.LBB11_42
	mov	r2, r0
.LBB11_42:
	ldr	r5, [sp, #36]
	adds	r2, r2, r5
	mov	r7, r1
	ldr	r6, [sp, #40]
	adcs	r6, r1
	ldr	r0, [sp, #76]
	mov	r4, r2
	mov	r3, r6
	bl	__atomic_store_8
	mov	r0, r5
	mov	r3, r4
	mov	r4, r7
	ldr	r7, [sp, #80]
	b	.LBB11_44
.LBB11_43:
	ldr	r6, [sp, #40]
.LBB11_44:
	str	r3, [r7, #24]
	str	r6, [r7, #28]
	mov	r1, r4
	add	sp, #84
	pop	{r4, r5, r6, r7, pc}
.Lfunc_end11:
	.size	tlsf_post.take_end.TakeEnd.take_slice, .Lfunc_end11-tlsf_post.take_end.TakeEnd.take_slice
	.cfi_endproc
	.section	.text.tlsf_c.heap_calls.release_named,"ax",%progbits
	.p2align	1
	.type	tlsf_c.heap_calls.release_named,%function
	.code	16
	.thumb_func
tlsf_c.heap_calls.release_named:
	.cfi_startproc
	push	{r4, r5, r6, r7, lr}
	.cfi_def_cfa_offset 20
	.cfi_offset lr, -4
	.cfi_offset r7, -8
	.cfi_offset r6, -12
	.cfi_offset r5, -16
	.cfi_offset r4, -20
	sub	sp, #76
	.cfi_def_cfa_offset 96
	mov	r5, r1
	ldrb	r1, [r0, #8]
	cmp	r1, #0
	bne	.LBB12_1
	b	.LBB12_21
.LBB12_1:
	ldr	r4, [r0]
	ldrb	r0, [r4]
	cmp	r0, #0
	bne	.LBB12_2
	b	.LBB12_21
.LBB12_2:
	movs	r0, #0
	str	r0, [sp, #64]
	strb	r0, [r4]
	ldr	r1, [r4, #24]
	cmp	r5, r1
	beq	.LBB12_3
	b	.LBB12_16
.LBB12_3:
	ldr	r1, [sp, #96]
	ldr	r0, [r4, #56]
	str	r1, [sp, #72]
	cmp	r1, r0
	mov	r1, r5
	blo	.LBB12_4
	b	.LBB12_16
.LBB12_4:
	mov	r7, r3
	mov	r6, r2
	movs	r2, #63
	ldr	r0, [sp, #72]
	ands	r2, r0
	ldr	r1, [r4, #72]
	lsrs	r0, r0, #6
	lsls	r3, r0, #3
	ldr	r0, [r1, r3]
	adds	r1, r1, r3
	ldr	r1, [r1, #4]
	bl	__aeabi_llsr
	lsls	r0, r0, #31
	mov	r1, r5
	beq	.LBB12_16
	mov	r0, r4
	adds	r0, #48
	ldr	r1, [sp, #72]
	lsls	r2, r1, #3
	str	r0, [sp, #56]
	ldr	r3, [r0]
	ldr	r0, [r3, r2]
	lsls	r1, r0, #31
	mov	r1, r5
	bne	.LBB12_16
	str	r6, [sp, #68]
	mov	r6, r4
	mov	r4, r0
	adds	r0, r3, r2
	ldr	r1, [r0, #8]
	str	r2, [sp, #48]
	str	r0, [sp, #60]
	ldr	r2, [r0, #12]
	mov	r0, r4
	mov	r4, r6
	eors	r2, r7
	ldr	r6, [sp, #68]
	eors	r1, r6
	orrs	r1, r2
	mov	r1, r5
	bne	.LBB12_16
	ldr	r5, [r4, #32]
	ldr	r1, [r4, #36]
	mov	r2, r5
	ands	r2, r1
	adds	r2, r2, #1
	beq	.LBB12_15
	str	r1, [sp, #44]
	ldr	r7, [sp, #60]
	ldr	r1, [r7, #4]
	str	r1, [sp, #68]
	lsrs	r1, r0, #2
	ldr	r2, [r4, #40]
	str	r1, [sp, #40]
	subs	r2, r2, r1
	str	r2, [r4, #40]
	lsls	r2, r0, #30
	ldr	r1, [sp, #64]
	str	r1, [sp, #52]
	ldr	r6, [sp, #72]
	bmi	.LBB12_10
	ldr	r1, [sp, #40]
	adds	r2, r1, r6
	lsls	r2, r2, #3
	str	r5, [sp, #36]
	ldr	r5, [r3, r2]
	str	r5, [sp, #52]
	ldr	r5, [sp, #36]
	adds	r2, r3, r2
	ldr	r1, [r2, #4]
.LBB12_10:
	str	r1, [sp, #36]
	cmp	r6, #0
	beq	.LBB12_12
	ldr	r2, [sp, #68]
	lsls	r2, r2, #3
	ldr	r1, [r3, r2]
	str	r1, [sp, #32]
	lsls	r1, r1, #31
	bne	.LBB12_19
.LBB12_12:
	ldr	r2, [sp, #52]
	lsls	r1, r2, #31
	bne	.LBB12_18
	movs	r1, #1
	str	r1, [sp, #52]
	orrs	r0, r1
	str	r0, [r7]
	ldr	r0, [sp, #68]
	str	r0, [r7, #4]
	str	r5, [r7, #8]
	ldr	r0, [sp, #44]
	str	r0, [r7, #12]
	ldr	r0, [r4, #32]
	movs	r1, #0
	adds	r0, r0, #1
	str	r0, [r4, #32]
	ldr	r0, [r4, #36]
	mov	r5, r1
	adcs	r0, r1
	str	r0, [r4, #36]
	movs	r0, #16
	ldr	r6, [sp, #40]
	orrs	r0, r6
	bl	__clzsi2
	movs	r1, #27
	subs	r0, r1, r0
	lsrs	r6, r0
	lsls	r0, r0, #4
	adds	r0, r6, r0
	lsls	r1, r0, #2
	adds	r2, r4, r1
	movs	r3, #192
	ldr	r1, [r2, r3]
	ldr	r7, [sp, #72]
	str	r7, [r2, r3]
	cmp	r1, #0
	bmi	.LBB12_22
	ldr	r0, [sp, #56]
	ldr	r2, [r0]
	ldr	r0, [sp, #48]
	adds	r3, r2, r0
	movs	r0, #0
	mvns	r5, r0
	str	r1, [r3, #16]
	str	r5, [r3, #20]
	lsls	r1, r1, #3
	adds	r1, r2, r1
	str	r7, [r1, #20]
	b	.LBB12_23
.LBB12_15:
	movs	r0, #2
	b	.LBB12_23
.LBB12_16:
	mov	r0, r5
	bl	tlsf_heap.refusal.Refusal.of_name
	uxtb	r0, r0
	cmp	r0, #3
	beq	.LBB12_20
	movs	r0, #3
	b	.LBB12_23
.LBB12_18:
	movs	r6, #0
	adds	r1, r5, #1
	str	r1, [r4, #32]
	ldr	r3, [sp, #44]
	mov	r1, r3
	adcs	r1, r6
	str	r1, [r4, #36]
	str	r0, [sp]
	ldr	r0, [sp, #68]
	str	r0, [sp, #4]
	str	r5, [sp, #8]
	str	r3, [sp, #12]
	ldr	r0, [sp, #72]
	str	r0, [sp, #16]
	ldr	r0, [sp, #56]
	ldr	r3, [sp, #36]
	bl	tlsf_heap.fitting.merge_next.4
	mov	r0, r6
	b	.LBB12_23
.LBB12_19:
	adds	r1, r3, r2
	ldr	r7, [r1, #4]
	mov	r1, r6
	movs	r6, #0
	adds	r2, r5, #1
	str	r2, [r4, #32]
	ldr	r3, [sp, #44]
	mov	r2, r3
	adcs	r2, r6
	str	r2, [r4, #36]
	str	r0, [sp, #24]
	ldr	r0, [sp, #68]
	str	r0, [sp, #28]
	ldr	r0, [sp, #32]
	str	r0, [sp]
	str	r7, [sp, #4]
	str	r5, [sp, #8]
	str	r3, [sp, #12]
	str	r1, [sp, #16]
	ldr	r0, [sp, #56]
	ldr	r2, [sp, #52]
	ldr	r3, [sp, #36]
	bl	tlsf_heap.fitting.merge_before.4
	mov	r0, r6
	b	.LBB12_23
.LBB12_20:
	movs	r0, #4
	b	.LBB12_23
.LBB12_21:
	movs	r0, #0
	bl	tlsf_c.call_fault.CallFault.refusal
	add	sp, #76
	pop	{r4, r5, r6, r7, pc}
.LBB12_22:
	ldr	r1, [sp, #64]
	mvns	r1, r1
	ldr	r2, [r4, #48]
	ldr	r3, [sp, #48]
	adds	r2, r2, r3
	str	r1, [r2, #16]
	str	r1, [r2, #20]
	lsrs	r0, r0, #4
	ldr	r3, [sp, #52]
	mov	r1, r3
	lsls	r1, r0
	ldr	r2, [r4, #104]
	orrs	r2, r1
	str	r2, [r4, #104]
	movs	r1, #15
	ands	r6, r1
	lsls	r3, r6
	lsls	r0, r0, #2
	adds	r0, r4, r0
	ldr	r1, [r0, #108]
	orrs	r1, r3
	str	r1, [r0, #108]
	mov	r0, r5
.LBB12_23:
	movs	r1, #1
	strb	r1, [r4]
	add	sp, #76
	pop	{r4, r5, r6, r7, pc}
.Lfunc_end12:
	.size	tlsf_c.heap_calls.release_named, .Lfunc_end12-tlsf_c.heap_calls.release_named
	.cfi_endproc
	.section	.text.unlikely.tlsf_heap.refusal.Refusal.of_name,"ax",%progbits
	.p2align	1
	.type	tlsf_heap.refusal.Refusal.of_name,%function
	.code	16
	.thumb_func
tlsf_heap.refusal.Refusal.of_name:
	.cfi_startproc
	cmp	r0, r1
	beq	.LBB13_2
	movs	r0, #2
	bx	lr
.LBB13_2:
	movs	r0, #3
	bx	lr
.Lfunc_end13:
	.size	tlsf_heap.refusal.Refusal.of_name, .Lfunc_end13-tlsf_heap.refusal.Refusal.of_name
	.cfi_endproc
	.section	.text.std_alloc.boxed.Box.new.91a8e04f462e8cea,"ax",%progbits
	.p2align	1
	.type	std_alloc.boxed.Box.new.91a8e04f462e8cea,%function
	.code	16
	.thumb_func
std_alloc.boxed.Box.new.91a8e04f462e8cea:
	.cfi_startproc
	push	{r4, r5, r6, r7, lr}
	.cfi_def_cfa_offset 20
	.cfi_offset lr, -4
	.cfi_offset r7, -8
	.cfi_offset r6, -12
	.cfi_offset r5, -16
	.cfi_offset r4, -20
	sub	sp, #60
	.cfi_def_cfa_offset 80
	mov	r4, r0
	ldrb	r6, [r1, #1]
	ldrb	r5, [r1]
	adds	r1, #8
	mov	r0, sp
	movs	r2, #40
	bl	tlsf_memory_cpy
	add	r0, sp, #40
	movs	r1, #48
	movs	r2, #8
	bl	tlsf_memory_alloc
	ldr	r0, [sp, #40]
	lsls	r0, r0, #31
	beq	.LBB14_2
	ldr	r7, [sp, #48]
	strb	r6, [r7, #1]
	strb	r5, [r7]
	mov	r0, r7
	adds	r0, #8
	mov	r1, sp
	movs	r6, #40
	mov	r2, r6
	bl	tlsf_memory_cpy
	mov	r0, r4
	adds	r0, #16
	movs	r5, #0
	mov	r1, r5
	mov	r2, r6
	bl	tlsf_memory_set
	b	.LBB14_3
.LBB14_2:
	mov	r0, r4
	adds	r0, #16
	mov	r1, sp
	movs	r2, #40
	bl	tlsf_memory_cpy
	lsls	r0, r6, #8
	adds	r7, r0, r5
	movs	r5, #1
.LBB14_3:
	movs	r0, #0
	strb	r0, [r4, #7]
	strb	r0, [r4, #6]
	strb	r0, [r4, #5]
	strb	r0, [r4, #4]
	strb	r0, [r4, #3]
	strb	r0, [r4, #2]
	strb	r0, [r4, #1]
	strb	r5, [r4]
	strb	r0, [r4, #15]
	strb	r0, [r4, #14]
	strb	r0, [r4, #13]
	strb	r0, [r4, #12]
	strb	r7, [r4, #8]
	lsrs	r0, r7, #24
	strb	r0, [r4, #11]
	lsrs	r0, r7, #16
	strb	r0, [r4, #10]
	lsrs	r0, r7, #8
	strb	r0, [r4, #9]
	add	sp, #60
	pop	{r4, r5, r6, r7, pc}
.Lfunc_end14:
	.size	std_alloc.boxed.Box.new.91a8e04f462e8cea, .Lfunc_end14-std_alloc.boxed.Box.new.91a8e04f462e8cea
	.cfi_endproc
	.section	.text.rtrb.producer.Producer.drop.9fca81e6602d26fc,"ax",%progbits
	.p2align	1
	.type	rtrb.producer.Producer.drop.9fca81e6602d26fc,%function
	.code	16
	.thumb_func
rtrb.producer.Producer.drop.9fca81e6602d26fc:
	.cfi_startproc
	push	{r4, r5, r6, r7, lr}
	.cfi_def_cfa_offset 20
	.cfi_offset lr, -4
	.cfi_offset r7, -8
	.cfi_offset r6, -12
	.cfi_offset r5, -16
	.cfi_offset r4, -20
	sub	sp, #44
	.cfi_def_cfa_offset 64
	ldrb	r1, [r0, #3]
	ldrb	r2, [r0, #2]
	ldrb	r3, [r0]
	ldrb	r4, [r0, #1]
	ldrb	r5, [r0, #11]
	str	r5, [sp, #40]
	ldrb	r5, [r0, #10]
	str	r5, [sp, #36]
	ldrb	r5, [r0, #8]
	str	r5, [sp, #32]
	ldrb	r5, [r0, #9]
	str	r5, [sp, #28]
	ldrb	r5, [r0, #19]
	str	r5, [sp, #24]
	ldrb	r5, [r0, #18]
	str	r5, [sp, #20]
	ldrb	r5, [r0, #16]
	str	r5, [sp, #16]
	ldrb	r5, [r0, #17]
	str	r5, [sp, #12]
	ldrb	r5, [r0, #23]
	str	r5, [sp, #8]
	ldrb	r5, [r0, #22]
	ldrb	r6, [r0, #20]
	ldrb	r7, [r0, #21]
	movs	r0, #5
	str	r0, [sp]
	lsls	r0, r4, #8
	adds	r0, r0, r3
	lsls	r2, r2, #16
	lsls	r1, r1, #24
	adds	r1, r1, r2
	adds	r4, r1, r0
	movs	r2, #1
	lsls	r0, r2, #8
	adds	r0, r4, r0
	movs	r3, #0
	bl	__atomic_exchange_8
	orrs	r1, r0
	beq	.LBB15_2
	lsls	r0, r7, #8
	adds	r0, r0, r6
	lsls	r1, r5, #16
	ldr	r2, [sp, #8]
	lsls	r2, r2, #24
	adds	r1, r2, r1
	adds	r3, r1, r0
	ldr	r0, [sp, #12]
	lsls	r0, r0, #8
	ldr	r1, [sp, #16]
	adds	r0, r0, r1
	ldr	r1, [sp, #20]
	lsls	r1, r1, #16
	ldr	r2, [sp, #24]
	lsls	r2, r2, #24
	adds	r1, r2, r1
	adds	r2, r1, r0
	ldr	r0, [sp, #28]
	lsls	r0, r0, #8
	ldr	r1, [sp, #32]
	adds	r0, r0, r1
	ldr	r1, [sp, #36]
	lsls	r1, r1, #16
	ldr	r5, [sp, #40]
	lsls	r5, r5, #24
	adds	r1, r5, r1
	adds	r1, r1, r0
	mov	r0, r4
	bl	rtrb.release.drop_slow.23d795680250cb0d
.LBB15_2:
	add	sp, #44
	pop	{r4, r5, r6, r7, pc}
.Lfunc_end15:
	.size	rtrb.producer.Producer.drop.9fca81e6602d26fc, .Lfunc_end15-rtrb.producer.Producer.drop.9fca81e6602d26fc
	.cfi_endproc
	.section	.text.rtrb.release.drop_slow.23d795680250cb0d,"ax",%progbits
	.p2align	1
	.type	rtrb.release.drop_slow.23d795680250cb0d,%function
	.code	16
	.thumb_func
rtrb.release.drop_slow.23d795680250cb0d:
	.cfi_startproc
	push	{r4, r5, r6, r7, lr}
	.cfi_def_cfa_offset 20
	.cfi_offset lr, -4
	.cfi_offset r7, -8
	.cfi_offset r6, -12
	.cfi_offset r5, -16
	.cfi_offset r4, -20
	sub	sp, #36
	.cfi_def_cfa_offset 56
	str	r3, [sp, #12]
	str	r2, [sp, #16]
	str	r1, [sp, #4]
	mov	r7, r0
	movs	r4, #5
	mov	r1, r4
	bl	__atomic_load_8
	mov	r5, r0
	mov	r6, r1
	str	r7, [sp, #32]
	adds	r7, #128
	mov	r0, r7
	str	r4, [sp, #28]
	mov	r1, r4
	bl	__atomic_load_8
	mov	r2, r6
	str	r1, [sp, #20]
	eors	r2, r1
	mov	r1, r5
	str	r0, [sp, #24]
	eors	r1, r0
	orrs	r1, r2
	bne	.LBB16_2
.LBB16_1:
	ldr	r0, [sp, #4]
	bl	tlsf_memory_dealloc
	ldr	r0, [sp, #32]
	bl	tlsf_memory_dealloc
	add	sp, #36
	pop	{r4, r5, r6, r7, pc}
.LBB16_2:
	ldr	r2, [sp, #16]
	lsrs	r0, r2, #31
	ldr	r1, [sp, #12]
	lsls	r1, r1, #1
	adds	r1, r1, r0
	lsls	r0, r2, #1
	movs	r2, #0
	subs	r0, r0, #1
	str	r0, [sp, #8]
	sbcs	r1, r2
	str	r1, [sp, #16]
	mov	r4, r6
	str	r2, [sp, #12]
	b	.LBB16_4
.LBB16_3:
	ldr	r0, [sp, #32]
	mov	r2, r7
	mov	r3, r4
	bl	__atomic_store_8
	mov	r0, r4
	ldr	r1, [sp, #20]
	eors	r0, r1
	mov	r1, r7
	ldr	r2, [sp, #24]
	eors	r1, r2
	orrs	r1, r0
	mov	r5, r7
	mov	r6, r4
	ldr	r2, [sp, #12]
	beq	.LBB16_1
.LBB16_4:
	ldr	r0, [sp, #28]
	str	r0, [sp]
	adds	r7, r5, #1
	adcs	r4, r2
	ldr	r0, [sp, #8]
	subs	r0, r5, r0
	ldr	r0, [sp, #16]
	sbcs	r6, r0
	blo	.LBB16_6
	mov	r0, r2
	cmp	r0, #0
	beq	.LBB16_7
	b	.LBB16_8
.LBB16_6:
	movs	r0, #1
	cmp	r0, #0
	bne	.LBB16_8
.LBB16_7:
	mov	r7, r0
.LBB16_8:
	bne	.LBB16_3
	mov	r4, r0
	b	.LBB16_3
.Lfunc_end16:
	.size	rtrb.release.drop_slow.23d795680250cb0d, .Lfunc_end16-rtrb.release.drop_slow.23d795680250cb0d
	.cfi_endproc
	.section	.text.rtrb.consumer.Consumer.drop.9fca81e6602d26fc,"ax",%progbits
	.p2align	1
	.type	rtrb.consumer.Consumer.drop.9fca81e6602d26fc,%function
	.code	16
	.thumb_func
rtrb.consumer.Consumer.drop.9fca81e6602d26fc:
	.cfi_startproc
	push	{r4, r5, r6, r7, lr}
	.cfi_def_cfa_offset 20
	.cfi_offset lr, -4
	.cfi_offset r7, -8
	.cfi_offset r6, -12
	.cfi_offset r5, -16
	.cfi_offset r4, -20
	sub	sp, #44
	.cfi_def_cfa_offset 64
	ldrb	r1, [r0, #3]
	ldrb	r2, [r0, #2]
	ldrb	r3, [r0]
	ldrb	r4, [r0, #1]
	ldrb	r5, [r0, #11]
	str	r5, [sp, #40]
	ldrb	r5, [r0, #10]
	str	r5, [sp, #36]
	ldrb	r5, [r0, #8]
	str	r5, [sp, #32]
	ldrb	r5, [r0, #9]
	str	r5, [sp, #28]
	ldrb	r5, [r0, #19]
	str	r5, [sp, #24]
	ldrb	r5, [r0, #18]
	str	r5, [sp, #20]
	ldrb	r5, [r0, #16]
	str	r5, [sp, #16]
	ldrb	r5, [r0, #17]
	str	r5, [sp, #12]
	ldrb	r5, [r0, #23]
	str	r5, [sp, #8]
	ldrb	r5, [r0, #22]
	ldrb	r6, [r0, #20]
	ldrb	r7, [r0, #21]
	movs	r0, #5
	str	r0, [sp]
	lsls	r0, r4, #8
	adds	r0, r0, r3
	lsls	r2, r2, #16
	lsls	r1, r1, #24
	adds	r1, r1, r2
	adds	r4, r1, r0
	movs	r2, #1
	lsls	r0, r2, #8
	adds	r0, r4, r0
	movs	r3, #0
	bl	__atomic_exchange_8
	orrs	r1, r0
	beq	.LBB17_2
	lsls	r0, r7, #8
	adds	r0, r0, r6
	lsls	r1, r5, #16
	ldr	r2, [sp, #8]
	lsls	r2, r2, #24
	adds	r1, r2, r1
	adds	r3, r1, r0
	ldr	r0, [sp, #12]
	lsls	r0, r0, #8
	ldr	r1, [sp, #16]
	adds	r0, r0, r1
	ldr	r1, [sp, #20]
	lsls	r1, r1, #16
	ldr	r2, [sp, #24]
	lsls	r2, r2, #24
	adds	r1, r2, r1
	adds	r2, r1, r0
	ldr	r0, [sp, #28]
	lsls	r0, r0, #8
	ldr	r1, [sp, #32]
	adds	r0, r0, r1
	ldr	r1, [sp, #36]
	lsls	r1, r1, #16
	ldr	r5, [sp, #40]
	lsls	r5, r5, #24
	adds	r1, r5, r1
	adds	r1, r1, r0
	mov	r0, r4
	bl	rtrb.release.drop_slow.23d795680250cb0d
.LBB17_2:
	add	sp, #44
	pop	{r4, r5, r6, r7, pc}
.Lfunc_end17:
	.size	rtrb.consumer.Consumer.drop.9fca81e6602d26fc, .Lfunc_end17-rtrb.consumer.Consumer.drop.9fca81e6602d26fc
	.cfi_endproc
	.section	.text.std_alloc.vec.Vec.drop.7ac45d8413b9ad54,"ax",%progbits
	.p2align	1
	.type	std_alloc.vec.Vec.drop.7ac45d8413b9ad54,%function
	.code	16
	.thumb_func
std_alloc.vec.Vec.drop.7ac45d8413b9ad54:
	.cfi_startproc
	push	{r4, r5, r6, r7, lr}
	.cfi_def_cfa_offset 20
	.cfi_offset lr, -4
	.cfi_offset r7, -8
	.cfi_offset r6, -12
	.cfi_offset r5, -16
	.cfi_offset r4, -20
	sub	sp, #148
	.cfi_def_cfa_offset 168
	ldrb	r1, [r0, #12]
	ldrb	r2, [r0, #13]
	lsls	r2, r2, #8
	adds	r1, r2, r1
	ldrb	r2, [r0, #14]
	lsls	r2, r2, #16
	ldrb	r3, [r0, #15]
	lsls	r3, r3, #24
	adds	r2, r3, r2
	adds	r5, r2, r1
	ldrb	r1, [r0, #8]
	ldrb	r2, [r0, #9]
	lsls	r2, r2, #8
	adds	r1, r2, r1
	ldrb	r2, [r0, #10]
	lsls	r2, r2, #16
	ldrb	r3, [r0, #11]
	lsls	r3, r3, #24
	adds	r2, r3, r2
	adds	r1, r2, r1
	mov	r7, r1
	orrs	r1, r5
	ldrb	r2, [r0, #20]
	ldrb	r3, [r0, #21]
	lsls	r3, r3, #8
	adds	r2, r3, r2
	ldrb	r3, [r0, #22]
	lsls	r3, r3, #16
	ldrb	r4, [r0, #23]
	lsls	r4, r4, #24
	adds	r3, r4, r3
	adds	r2, r3, r2
	str	r2, [sp, #8]
	ldrb	r2, [r0, #16]
	ldrb	r3, [r0, #17]
	lsls	r3, r3, #8
	adds	r2, r3, r2
	ldrb	r3, [r0, #18]
	lsls	r3, r3, #16
	ldrb	r4, [r0, #19]
	lsls	r4, r4, #24
	adds	r3, r4, r3
	adds	r2, r3, r2
	str	r2, [sp, #4]
	ldrb	r2, [r0]
	ldrb	r3, [r0, #1]
	lsls	r3, r3, #8
	adds	r2, r3, r2
	ldrb	r3, [r0, #2]
	lsls	r3, r3, #16
	ldrb	r0, [r0, #3]
	lsls	r0, r0, #24
	adds	r0, r0, r3
	adds	r2, r0, r2
	cmp	r1, #0
	beq	.LBB18_3
	add	r0, sp, #96
	adds	r0, #8
	str	r0, [sp, #16]
	add	r0, sp, #48
	adds	r0, r0, #6
	str	r0, [sp, #44]
	movs	r6, #0
	mov	r4, r6
	str	r6, [sp, #12]
	mov	r1, r6
	str	r5, [sp, #28]
	str	r7, [sp, #24]
	str	r2, [sp, #20]
	ldr	r7, [sp, #12]
.LBB18_2:
	str	r1, [sp, #40]
	lsls	r0, r4, #3
	ldrb	r1, [r2, r0]
	adds	r0, r2, r0
	ldrb	r2, [r0, #1]
	lsls	r2, r2, #8
	adds	r1, r2, r1
	ldrb	r2, [r0, #2]
	lsls	r2, r2, #16
	ldrb	r0, [r0, #3]
	lsls	r0, r0, #24
	adds	r0, r0, r2
	adds	r5, r0, r1
	ldrb	r0, [r5]
	str	r0, [sp, #36]
	ldrb	r0, [r5, #1]
	str	r0, [sp, #32]
	mov	r1, r5
	adds	r1, #8
	movs	r6, #40
	ldr	r0, [sp, #44]
	mov	r2, r6
	bl	tlsf_memory_cpy
	mov	r0, r5
	bl	tlsf_memory_dealloc
	str	r7, [sp, #96]
	add	r5, sp, #96
	ldr	r0, [sp, #32]
	strb	r0, [r5, #1]
	ldr	r0, [sp, #36]
	strb	r0, [r5]
	str	r7, [sp, #100]
	ldr	r0, [sp, #16]
	ldr	r1, [sp, #44]
	mov	r2, r6
	ldr	r6, [sp, #24]
	bl	tlsf_memory_cpy
	mov	r0, r5
	ldr	r5, [sp, #28]
	bl	tlsf_c.tlsf_c.any_end.AnyEnd.Destruct.drop
	ldr	r1, [sp, #40]
	ldr	r2, [sp, #20]
	adds	r4, r4, #1
	adcs	r1, r7
	subs	r0, r4, r6
	mov	r0, r1
	sbcs	r0, r5
	blo	.LBB18_2
.LBB18_3:
	ldr	r0, [sp, #8]
	ldr	r1, [sp, #4]
	orrs	r1, r0
	beq	.LBB18_5
	mov	r0, r2
	bl	tlsf_memory_dealloc
.LBB18_5:
	add	sp, #148
	pop	{r4, r5, r6, r7, pc}
.Lfunc_end18:
	.size	std_alloc.vec.Vec.drop.7ac45d8413b9ad54, .Lfunc_end18-std_alloc.vec.Vec.drop.7ac45d8413b9ad54
	.cfi_endproc
	.section	.text.std_alloc.arc.Arc.drop.c4a047e811255370,"ax",%progbits
	.p2align	1
	.type	std_alloc.arc.Arc.drop.c4a047e811255370,%function
	.code	16
	.thumb_func
std_alloc.arc.Arc.drop.c4a047e811255370:
	.cfi_startproc
	push	{r4, r5, r6, r7, lr}
	.cfi_def_cfa_offset 20
	.cfi_offset lr, -4
	.cfi_offset r7, -8
	.cfi_offset r6, -12
	.cfi_offset r5, -16
	.cfi_offset r4, -20
	sub	sp, #28
	.cfi_def_cfa_offset 48
	mov	r4, r0
	movs	r0, #5
	str	r0, [sp]
	movs	r5, #1
	movs	r3, #0
	mov	r0, r4
	mov	r2, r5
	bl	__atomic_fetch_sub_8
	eors	r0, r5
	orrs	r0, r1
	bne	.LBB19_2
	movs	r0, #56
	ldrb	r0, [r4, r0]
	str	r0, [sp, #24]
	movs	r0, #40
	ldrb	r0, [r4, r0]
	str	r0, [sp, #8]
	mov	r0, r4
	adds	r0, #56
	ldrb	r1, [r0, #3]
	str	r1, [sp, #20]
	ldrb	r1, [r0, #2]
	str	r1, [sp, #16]
	ldrb	r0, [r0, #1]
	str	r0, [sp, #12]
	mov	r0, r4
	adds	r0, #40
	ldrb	r7, [r0, #3]
	ldrb	r5, [r0, #2]
	ldrb	r6, [r0, #1]
	mov	r0, r4
	bl	tlsf_memory_dealloc
	lsls	r0, r6, #8
	ldr	r1, [sp, #8]
	adds	r0, r0, r1
	lsls	r1, r5, #16
	lsls	r2, r7, #24
	adds	r1, r2, r1
	adds	r0, r1, r0
	bl	tlsf_memory_dealloc
	ldr	r0, [sp, #12]
	lsls	r0, r0, #8
	ldr	r1, [sp, #24]
	adds	r0, r0, r1
	ldr	r1, [sp, #16]
	lsls	r1, r1, #16
	ldr	r2, [sp, #20]
	lsls	r2, r2, #24
	adds	r1, r2, r1
	adds	r0, r1, r0
	bl	tlsf_memory_dealloc
.LBB19_2:
	add	sp, #28
	pop	{r4, r5, r6, r7, pc}
.Lfunc_end19:
	.size	std_alloc.arc.Arc.drop.c4a047e811255370, .Lfunc_end19-std_alloc.arc.Arc.drop.c4a047e811255370
	.cfi_endproc
	.section	.text.std_alloc.boxed.Box.drop.7d8ec8058c3633cd,"ax",%progbits
	.p2align	1
	.type	std_alloc.boxed.Box.drop.7d8ec8058c3633cd,%function
	.code	16
	.thumb_func
std_alloc.boxed.Box.drop.7d8ec8058c3633cd:
	.cfi_startproc
	push	{r4, r5, r6, r7, lr}
	.cfi_def_cfa_offset 20
	.cfi_offset lr, -4
	.cfi_offset r7, -8
	.cfi_offset r6, -12
	.cfi_offset r5, -16
	.cfi_offset r4, -20
	sub	sp, #92
	.cfi_def_cfa_offset 112
	mov	r5, r0
	ldrb	r6, [r0]
	ldrb	r7, [r0, #1]
	mov	r1, r0
	adds	r1, #8
	mov	r4, sp
	movs	r2, #40
	mov	r0, r4
	bl	tlsf_memory_cpy
	mov	r0, r5
	bl	tlsf_memory_dealloc
	movs	r1, #0
	str	r1, [sp, #40]
	add	r0, sp, #40
	strb	r7, [r0, #1]
	strb	r6, [r0]
	str	r1, [sp, #44]
	mov	r1, r0
	adds	r1, #8
	ldm	r4!, {r2, r3, r5}
	stm	r1!, {r2, r3, r5}
	ldm	r4!, {r2, r3, r5}
	stm	r1!, {r2, r3, r5}
	ldm	r4!, {r2, r3, r5, r6}
	stm	r1!, {r2, r3, r5, r6}
	bl	tlsf_c.tlsf_c.any_end.AnyEnd.Destruct.drop
	add	sp, #92
	pop	{r4, r5, r6, r7, pc}
.Lfunc_end20:
	.size	std_alloc.boxed.Box.drop.7d8ec8058c3633cd, .Lfunc_end20-std_alloc.boxed.Box.drop.7d8ec8058c3633cd
	.cfi_endproc
	.section	.text.tlsf_c.tlsf_c.any_end.AnyEnd.Destruct.drop,"ax",%progbits
	.p2align	2
	.type	tlsf_c.tlsf_c.any_end.AnyEnd.Destruct.drop,%function
	.code	16
	.thumb_func
tlsf_c.tlsf_c.any_end.AnyEnd.Destruct.drop:
	.cfi_startproc
	push	{r4, r5, r6, r7, lr}
	.cfi_def_cfa_offset 20
	.cfi_offset lr, -4
	.cfi_offset r7, -8
	.cfi_offset r6, -12
	.cfi_offset r5, -16
	.cfi_offset r4, -20
	sub	sp, #172
	.cfi_def_cfa_offset 192
	ldrb	r1, [r0, #28]
	ldrb	r2, [r0, #29]
	lsls	r2, r2, #8
	adds	r1, r2, r1
	ldrb	r2, [r0, #30]
	lsls	r2, r2, #16
	ldrb	r3, [r0, #31]
	lsls	r3, r3, #24
	adds	r2, r3, r2
	adds	r6, r2, r1
	ldrb	r1, [r0, #24]
	ldrb	r2, [r0, #25]
	lsls	r2, r2, #8
	adds	r1, r2, r1
	ldrb	r2, [r0, #26]
	lsls	r2, r2, #16
	ldrb	r3, [r0, #27]
	lsls	r3, r3, #24
	adds	r2, r3, r2
	adds	r4, r2, r1
	ldrb	r1, [r0, #16]
	ldrb	r2, [r0, #17]
	lsls	r2, r2, #8
	adds	r1, r2, r1
	ldrb	r2, [r0, #18]
	lsls	r2, r2, #16
	ldrb	r3, [r0, #19]
	lsls	r3, r3, #24
	adds	r2, r3, r2
	adds	r7, r2, r1
	ldrb	r1, [r0, #8]
	ldrb	r2, [r0, #9]
	lsls	r2, r2, #8
	adds	r1, r2, r1
	ldrb	r2, [r0, #10]
	lsls	r2, r2, #16
	ldrb	r3, [r0, #11]
	lsls	r3, r3, #24
	adds	r2, r3, r2
	adds	r5, r2, r1
	ldrb	r1, [r0]
	lsls	r1, r1, #1
	.p2align	2
	add	r1, pc
	ldrh	r1, [r1, #4]
	lsls	r1, r1, #1
.LCPI21_0:
	add	pc, r1
	.p2align	2
.LJTI21_0:
	.short	(.LBB21_2-(.LCPI21_0+4))/2
	.short	(.LBB21_14-(.LCPI21_0+4))/2
	.short	(.LBB21_4-(.LCPI21_0+4))/2
	.short	(.LBB21_11-(.LCPI21_0+4))/2
	.p2align	1
.LBB21_2:
	movs	r0, #5
	str	r0, [sp]
	movs	r2, #1
	lsls	r0, r2, #8
	adds	r0, r5, r0
	movs	r3, #0
	bl	__atomic_exchange_8
	orrs	r1, r0
	beq	.LBB21_3
	b	.LBB21_15
.LBB21_3:
	add	sp, #172
	pop	{r4, r5, r6, r7, pc}
.LBB21_4:
	str	r4, [sp, #52]
	movs	r1, #32
	ldrb	r1, [r0, r1]
	str	r1, [sp, #64]
	movs	r1, #36
	ldrb	r1, [r0, r1]
	str	r1, [sp, #48]
	movs	r1, #40
	str	r1, [sp, #4]
	ldrb	r1, [r0, r1]
	str	r1, [sp, #60]
	movs	r1, #44
	ldrb	r1, [r0, r1]
	str	r1, [sp, #56]
	mov	r1, r0
	adds	r1, #32
	ldrb	r2, [r1, #3]
	str	r2, [sp, #44]
	ldrb	r2, [r1, #2]
	str	r2, [sp, #40]
	ldrb	r1, [r1, #1]
	str	r1, [sp, #36]
	mov	r1, r0
	adds	r1, #36
	ldrb	r2, [r1, #3]
	str	r2, [sp, #32]
	ldrb	r2, [r1, #2]
	str	r2, [sp, #28]
	ldrb	r1, [r1, #1]
	str	r1, [sp, #24]
	mov	r1, r0
	adds	r1, #40
	ldrb	r2, [r1, #3]
	str	r2, [sp, #20]
	ldrb	r2, [r1, #2]
	str	r2, [sp, #16]
	ldrb	r1, [r1, #1]
	str	r1, [sp, #12]
	adds	r0, #44
	ldrb	r1, [r0, #3]
	str	r1, [sp, #8]
	ldrb	r6, [r0, #2]
	ldrb	r7, [r0, #1]
	movs	r0, #5
	str	r0, [sp]
	movs	r4, #1
	movs	r3, #0
	mov	r0, r5
	mov	r2, r4
	str	r3, [sp, #68]
	bl	__atomic_fetch_sub_8
	eors	r0, r4
	orrs	r0, r1
	lsls	r1, r7, #8
	ldr	r2, [sp, #56]
	adds	r7, r1, r2
	lsls	r1, r6, #16
	ldr	r2, [sp, #8]
	lsls	r2, r2, #24
	adds	r6, r2, r1
	ldr	r1, [sp, #12]
	lsls	r1, r1, #8
	ldr	r2, [sp, #60]
	adds	r1, r1, r2
	str	r1, [sp, #60]
	ldr	r1, [sp, #16]
	lsls	r1, r1, #16
	ldr	r2, [sp, #20]
	lsls	r2, r2, #24
	adds	r1, r2, r1
	str	r1, [sp, #56]
	ldr	r1, [sp, #24]
	lsls	r1, r1, #8
	ldr	r2, [sp, #48]
	adds	r1, r1, r2
	ldr	r2, [sp, #28]
	lsls	r2, r2, #16
	ldr	r3, [sp, #32]
	lsls	r3, r3, #24
	adds	r2, r3, r2
	adds	r4, r2, r1
	ldr	r1, [sp, #36]
	lsls	r1, r1, #8
	ldr	r2, [sp, #64]
	adds	r1, r1, r2
	ldr	r2, [sp, #40]
	lsls	r2, r2, #16
	ldr	r3, [sp, #44]
	lsls	r3, r3, #24
	adds	r2, r3, r2
	adds	r1, r2, r1
	cmp	r0, #0
	str	r4, [sp, #48]
	bne	.LBB21_6
	movs	r0, #56
	ldrb	r0, [r5, r0]
	str	r0, [sp, #40]
	ldr	r0, [sp, #4]
	ldrb	r0, [r5, r0]
	str	r0, [sp, #24]
	mov	r0, r5
	adds	r0, #56
	ldrb	r2, [r0, #3]
	str	r2, [sp, #36]
	ldrb	r2, [r0, #2]
	str	r2, [sp, #32]
	ldrb	r0, [r0, #1]
	str	r0, [sp, #28]
	mov	r0, r5
	adds	r0, #40
	ldrb	r2, [r0, #3]
	str	r2, [sp, #20]
	str	r7, [sp, #64]
	ldrb	r4, [r0, #2]
	mov	r7, r6
	ldrb	r6, [r0, #1]
	mov	r0, r5
	mov	r5, r1
	bl	tlsf_memory_dealloc
	lsls	r0, r6, #8
	mov	r6, r7
	ldr	r1, [sp, #24]
	adds	r0, r0, r1
	lsls	r1, r4, #16
	ldr	r4, [sp, #48]
	ldr	r7, [sp, #64]
	ldr	r2, [sp, #20]
	lsls	r2, r2, #24
	adds	r1, r2, r1
	adds	r0, r1, r0
	bl	tlsf_memory_dealloc
	ldr	r0, [sp, #28]
	lsls	r0, r0, #8
	ldr	r1, [sp, #40]
	adds	r0, r0, r1
	ldr	r1, [sp, #32]
	lsls	r1, r1, #16
	ldr	r2, [sp, #36]
	lsls	r2, r2, #24
	adds	r1, r2, r1
	adds	r0, r1, r0
	bl	tlsf_memory_dealloc
	mov	r1, r5
.LBB21_6:
	adds	r0, r6, r7
	str	r0, [sp, #32]
	ldr	r0, [sp, #60]
	ldr	r2, [sp, #56]
	adds	r0, r2, r0
	str	r0, [sp, #28]
	mov	r0, r1
	orrs	r0, r4
	ldr	r4, [sp, #52]
	ldr	r7, [sp, #68]
	beq	.LBB21_9
	add	r0, sp, #120
	adds	r0, #8
	str	r0, [sp, #40]
	add	r0, sp, #72
	adds	r0, r0, #6
	str	r0, [sp, #36]
	mov	r6, r7
	str	r1, [sp, #44]
.LBB21_8:
	lsls	r0, r6, #3
	ldrb	r1, [r4, r0]
	adds	r0, r4, r0
	ldrb	r2, [r0, #1]
	lsls	r2, r2, #8
	adds	r1, r2, r1
	ldrb	r2, [r0, #2]
	lsls	r2, r2, #16
	ldrb	r0, [r0, #3]
	lsls	r0, r0, #24
	adds	r0, r0, r2
	adds	r5, r0, r1
	ldrb	r0, [r5]
	str	r0, [sp, #64]
	ldrb	r0, [r5, #1]
	str	r0, [sp, #60]
	mov	r1, r5
	adds	r1, #8
	movs	r2, #40
	str	r2, [sp, #56]
	ldr	r4, [sp, #36]
	mov	r0, r4
	bl	tlsf_memory_cpy
	mov	r0, r5
	bl	tlsf_memory_dealloc
	ldr	r0, [sp, #68]
	str	r0, [sp, #120]
	add	r5, sp, #120
	ldr	r0, [sp, #60]
	strb	r0, [r5, #1]
	ldr	r0, [sp, #64]
	strb	r0, [r5]
	ldr	r0, [sp, #68]
	str	r0, [sp, #124]
	ldr	r0, [sp, #40]
	mov	r1, r4
	ldr	r2, [sp, #56]
	ldr	r4, [sp, #52]
	bl	tlsf_memory_cpy
	mov	r0, r5
	bl	tlsf_c.tlsf_c.any_end.AnyEnd.Destruct.drop
	ldr	r2, [sp, #48]
	ldr	r1, [sp, #44]
	adds	r6, r6, #1
	ldr	r0, [sp, #68]
	adcs	r7, r0
	subs	r0, r6, r1
	mov	r0, r7
	sbcs	r0, r2
	blo	.LBB21_8
.LBB21_9:
	ldr	r0, [sp, #32]
	ldr	r1, [sp, #28]
	orrs	r1, r0
	bne	.LBB21_10
	b	.LBB21_3
.LBB21_10:
	mov	r0, r4
	b	.LBB21_13
.LBB21_11:
	movs	r0, #5
	str	r0, [sp]
	movs	r4, #1
	movs	r3, #0
	mov	r0, r5
	mov	r2, r4
	bl	__atomic_fetch_sub_8
	eors	r0, r4
	orrs	r0, r1
	beq	.LBB21_12
	b	.LBB21_3
.LBB21_12:
	movs	r0, #56
	ldrb	r0, [r5, r0]
	str	r0, [sp, #68]
	movs	r0, #40
	ldrb	r0, [r5, r0]
	str	r0, [sp, #52]
	mov	r0, r5
	adds	r0, #56
	ldrb	r1, [r0, #3]
	str	r1, [sp, #64]
	ldrb	r1, [r0, #2]
	str	r1, [sp, #60]
	ldrb	r0, [r0, #1]
	str	r0, [sp, #56]
	mov	r0, r5
	adds	r0, #40
	ldrb	r7, [r0, #3]
	ldrb	r4, [r0, #2]
	ldrb	r6, [r0, #1]
	mov	r0, r5
	bl	tlsf_memory_dealloc
	lsls	r0, r6, #8
	ldr	r1, [sp, #52]
	adds	r0, r0, r1
	lsls	r1, r4, #16
	lsls	r2, r7, #24
	adds	r1, r2, r1
	adds	r0, r1, r0
	bl	tlsf_memory_dealloc
	ldr	r0, [sp, #56]
	lsls	r0, r0, #8
	ldr	r1, [sp, #68]
	adds	r0, r0, r1
	ldr	r1, [sp, #60]
	lsls	r1, r1, #16
	ldr	r2, [sp, #64]
	lsls	r2, r2, #24
	adds	r1, r2, r1
	adds	r0, r1, r0
.LBB21_13:
	bl	tlsf_memory_dealloc
	add	sp, #172
	pop	{r4, r5, r6, r7, pc}
.LBB21_14:
	movs	r0, #5
	str	r0, [sp]
	movs	r2, #1
	lsls	r0, r2, #8
	adds	r0, r5, r0
	movs	r3, #0
	bl	__atomic_exchange_8
	orrs	r1, r0
	bne	.LBB21_15
	b	.LBB21_3
.LBB21_15:
	mov	r0, r5
	mov	r1, r7
	mov	r2, r4
	mov	r3, r6
	bl	rtrb.release.drop_slow.23d795680250cb0d
	add	sp, #172
	pop	{r4, r5, r6, r7, pc}
.Lfunc_end21:
	.size	tlsf_c.tlsf_c.any_end.AnyEnd.Destruct.drop, .Lfunc_end21-tlsf_c.tlsf_c.any_end.AnyEnd.Destruct.drop
	.cfi_endproc
	.section	.text.tlsf_c.arena_slot.ArenaSlot.close,"ax",%progbits
	.p2align	1
	.type	tlsf_c.arena_slot.ArenaSlot.close,%function
	.code	16
	.thumb_func
tlsf_c.arena_slot.ArenaSlot.close:
	.cfi_startproc
	push	{r4, r5, r6, r7, lr}
	.cfi_def_cfa_offset 20
	.cfi_offset lr, -4
	.cfi_offset r7, -8
	.cfi_offset r6, -12
	.cfi_offset r5, -16
	.cfi_offset r4, -20
	sub	sp, #156
	.cfi_def_cfa_offset 176
	ldrb	r1, [r0, #8]
	cmp	r1, #0
	bne	.LBB22_1
	b	.LBB22_4
.LBB22_1:
	ldr	r2, [r0]
	ldrb	r1, [r2, #1]
	cmp	r1, #1
	beq	.LBB22_2
	b	.LBB22_4
.LBB22_2:
	movs	r1, #0
	strb	r1, [r2, #1]
	ldrb	r4, [r0, #3]
	ldrb	r5, [r0, #2]
	ldrb	r6, [r0]
	ldrb	r7, [r0, #1]
	movs	r2, #16
	bl	tlsf_memory_set
	lsls	r0, r7, #8
	adds	r0, r0, r6
	lsls	r1, r5, #16
	lsls	r2, r4, #24
	adds	r1, r2, r1
	adds	r4, r1, r0
	ldrb	r0, [r4]
	str	r0, [sp, #100]
	mov	r1, r4
	adds	r1, #16
	add	r0, sp, #104
	movs	r2, #24
	bl	tlsf_memory_cpy
	mov	r0, r4
	adds	r0, #40
	ldrb	r1, [r0, #3]
	str	r1, [sp, #96]
	ldrb	r1, [r0, #2]
	str	r1, [sp, #92]
	movs	r1, #40
	ldrb	r1, [r4, r1]
	str	r1, [sp, #88]
	ldrb	r0, [r0, #1]
	str	r0, [sp, #84]
	mov	r0, r4
	adds	r0, #44
	ldrb	r1, [r0, #3]
	str	r1, [sp, #80]
	ldrb	r1, [r0, #2]
	str	r1, [sp, #76]
	movs	r1, #44
	ldrb	r1, [r4, r1]
	str	r1, [sp, #72]
	ldrb	r0, [r0, #1]
	str	r0, [sp, #68]
	mov	r0, r4
	adds	r0, #64
	ldrb	r1, [r0, #3]
	str	r1, [sp, #64]
	ldrb	r1, [r0, #2]
	str	r1, [sp, #60]
	movs	r1, #64
	ldrb	r1, [r4, r1]
	str	r1, [sp, #56]
	ldrb	r0, [r0, #1]
	str	r0, [sp, #52]
	mov	r0, r4
	adds	r0, #56
	ldrb	r1, [r0, #3]
	str	r1, [sp, #48]
	ldrb	r1, [r0, #2]
	str	r1, [sp, #44]
	movs	r1, #56
	ldrb	r1, [r4, r1]
	str	r1, [sp, #40]
	ldrb	r0, [r0, #1]
	str	r0, [sp, #36]
	mov	r0, r4
	adds	r0, #60
	ldrb	r1, [r0, #3]
	str	r1, [sp, #32]
	ldrb	r1, [r0, #2]
	str	r1, [sp, #28]
	movs	r1, #60
	ldrb	r1, [r4, r1]
	str	r1, [sp, #24]
	ldrb	r0, [r0, #1]
	str	r0, [sp, #20]
	mov	r0, r4
	adds	r0, #80
	ldrb	r1, [r0, #3]
	str	r1, [sp, #16]
	ldrb	r1, [r0, #2]
	str	r1, [sp, #12]
	movs	r1, #80
	ldrb	r1, [r4, r1]
	str	r1, [sp, #8]
	ldrb	r0, [r0, #1]
	str	r0, [sp, #4]
	mov	r0, r4
	adds	r0, #84
	ldrb	r1, [r0, #3]
	str	r1, [sp]
	ldrb	r6, [r0, #2]
	movs	r1, #84
	ldrb	r7, [r4, r1]
	ldrb	r5, [r0, #1]
	mov	r0, r4
	bl	tlsf_memory_dealloc
	ldr	r0, [sp, #84]
	lsls	r0, r0, #8
	ldr	r1, [sp, #88]
	adds	r0, r0, r1
	ldr	r1, [sp, #92]
	lsls	r1, r1, #16
	ldr	r2, [sp, #96]
	lsls	r2, r2, #24
	adds	r1, r2, r1
	adds	r0, r1, r0
	ldr	r1, [sp, #100]
	cmp	r1, #0
	beq	.LBB22_5
	ldr	r1, [sp, #68]
	lsls	r1, r1, #8
	ldr	r2, [sp, #72]
	adds	r1, r1, r2
	ldr	r2, [sp, #76]
	lsls	r2, r2, #16
	ldr	r3, [sp, #80]
	lsls	r3, r3, #24
	adds	r2, r3, r2
	adds	r1, r2, r1
	ldr	r2, [sp, #124]
	str	r2, [sp, #140]
	ldr	r2, [sp, #120]
	str	r2, [sp, #136]
	ldr	r2, [sp, #116]
	str	r2, [sp, #132]
	ldr	r2, [sp, #112]
	str	r2, [sp, #128]
	str	r1, [sp, #148]
	str	r0, [sp, #144]
	add	r0, sp, #128
	bl	std_alloc.vec.Vec.drop.01e19ae241269710
.LBB22_4:
	add	sp, #156
	pop	{r4, r5, r6, r7, pc}
.LBB22_5:
	lsls	r1, r5, #8
	adds	r1, r1, r7
	lsls	r2, r6, #16
	ldr	r3, [sp]
	lsls	r3, r3, #24
	adds	r2, r3, r2
	adds	r4, r2, r1
	ldr	r1, [sp, #4]
	lsls	r1, r1, #8
	ldr	r2, [sp, #8]
	adds	r1, r1, r2
	ldr	r2, [sp, #12]
	lsls	r2, r2, #16
	ldr	r3, [sp, #16]
	lsls	r3, r3, #24
	adds	r2, r3, r2
	adds	r5, r2, r1
	ldr	r1, [sp, #20]
	lsls	r1, r1, #8
	ldr	r2, [sp, #24]
	adds	r1, r1, r2
	ldr	r2, [sp, #28]
	lsls	r2, r2, #16
	ldr	r3, [sp, #32]
	lsls	r3, r3, #24
	adds	r2, r3, r2
	adds	r1, r2, r1
	ldr	r2, [sp, #36]
	lsls	r2, r2, #8
	ldr	r3, [sp, #40]
	adds	r2, r2, r3
	ldr	r3, [sp, #44]
	lsls	r3, r3, #16
	ldr	r6, [sp, #48]
	lsls	r6, r6, #24
	adds	r3, r6, r3
	adds	r2, r3, r2
	orrs	r2, r1
	beq	.LBB22_7
	bl	tlsf_memory_dealloc
.LBB22_7:
	orrs	r5, r4
	ldr	r2, [sp, #64]
	ldr	r1, [sp, #60]
	ldr	r3, [sp, #56]
	ldr	r0, [sp, #52]
	beq	.LBB22_4
	lsls	r0, r0, #8
	lsls	r1, r1, #16
	lsls	r2, r2, #24
	adds	r0, r0, r3
	adds	r1, r2, r1
	adds	r0, r1, r0
	bl	tlsf_memory_dealloc
	add	sp, #156
	pop	{r4, r5, r6, r7, pc}
.Lfunc_end22:
	.size	tlsf_c.arena_slot.ArenaSlot.close, .Lfunc_end22-tlsf_c.arena_slot.ArenaSlot.close
	.cfi_endproc
	.section	.text.std_alloc.vec.Vec.drop.01e19ae241269710,"ax",%progbits
	.p2align	1
	.type	std_alloc.vec.Vec.drop.01e19ae241269710,%function
	.code	16
	.thumb_func
std_alloc.vec.Vec.drop.01e19ae241269710:
	.cfi_startproc
	push	{r4, r5, r6, r7, lr}
	.cfi_def_cfa_offset 20
	.cfi_offset lr, -4
	.cfi_offset r7, -8
	.cfi_offset r6, -12
	.cfi_offset r5, -16
	.cfi_offset r4, -20
	sub	sp, #156
	.cfi_def_cfa_offset 176
	ldrb	r1, [r0, #12]
	ldrb	r2, [r0, #13]
	lsls	r2, r2, #8
	adds	r1, r2, r1
	ldrb	r2, [r0, #14]
	lsls	r2, r2, #16
	ldrb	r3, [r0, #15]
	lsls	r3, r3, #24
	adds	r2, r3, r2
	adds	r4, r2, r1
	ldrb	r1, [r0, #8]
	ldrb	r2, [r0, #9]
	lsls	r2, r2, #8
	adds	r1, r2, r1
	ldrb	r2, [r0, #10]
	lsls	r2, r2, #16
	ldrb	r3, [r0, #11]
	lsls	r3, r3, #24
	adds	r2, r3, r2
	adds	r1, r2, r1
	str	r1, [sp, #8]
	str	r4, [sp, #12]
	orrs	r1, r4
	ldrb	r2, [r0, #20]
	ldrb	r3, [r0, #21]
	lsls	r3, r3, #8
	adds	r2, r3, r2
	ldrb	r3, [r0, #22]
	lsls	r3, r3, #16
	ldrb	r4, [r0, #23]
	lsls	r4, r4, #24
	adds	r3, r4, r3
	adds	r2, r3, r2
	str	r2, [sp, #4]
	ldrb	r2, [r0, #16]
	ldrb	r3, [r0, #17]
	lsls	r3, r3, #8
	adds	r2, r3, r2
	ldrb	r3, [r0, #18]
	lsls	r3, r3, #16
	ldrb	r4, [r0, #19]
	lsls	r4, r4, #24
	adds	r3, r4, r3
	adds	r2, r3, r2
	str	r2, [sp]
	ldrb	r2, [r0]
	ldrb	r3, [r0, #1]
	lsls	r3, r3, #8
	adds	r2, r3, r2
	ldrb	r3, [r0, #2]
	lsls	r3, r3, #16
	ldrb	r0, [r0, #3]
	lsls	r0, r0, #24
	adds	r0, r0, r3
	adds	r0, r0, r2
	str	r0, [sp, #16]
	cmp	r1, #0
	bne	.LBB23_1
	b	.LBB23_11
.LBB23_1:
	movs	r5, #0
	mov	r7, r5
	b	.LBB23_3
.LBB23_2:
	movs	r0, #0
	adds	r7, r7, #1
	adcs	r5, r0
	ldr	r0, [sp, #8]
	subs	r0, r7, r0
	mov	r0, r5
	ldr	r1, [sp, #12]
	sbcs	r0, r1
	blo	.LBB23_3
	b	.LBB23_11
.LBB23_3:
	movs	r0, #165
	lsls	r0, r0, #3
	muls	r0, r7, r0
	ldr	r1, [sp, #16]
	adds	r0, r1, r0
	movs	r1, #44
	ldrb	r1, [r0, r1]
	mov	r2, r0
	adds	r2, #44
	ldrb	r3, [r2, #1]
	lsls	r3, r3, #8
	adds	r1, r3, r1
	ldrb	r3, [r2, #2]
	lsls	r3, r3, #16
	ldrb	r2, [r2, #3]
	lsls	r2, r2, #24
	adds	r2, r2, r3
	adds	r2, r2, r1
	movs	r1, #40
	ldrb	r1, [r0, r1]
	mov	r3, r0
	adds	r3, #40
	ldrb	r4, [r3, #1]
	lsls	r4, r4, #8
	adds	r1, r4, r1
	ldrb	r4, [r3, #2]
	lsls	r4, r4, #16
	ldrb	r3, [r3, #3]
	lsls	r3, r3, #24
	adds	r3, r3, r4
	adds	r1, r3, r1
	orrs	r1, r2
	movs	r2, #41
	lsls	r2, r2, #5
	adds	r3, r0, r2
	ldrb	r4, [r3, #4]
	str	r4, [sp, #140]
	ldrb	r4, [r3, #5]
	str	r4, [sp, #124]
	ldrb	r4, [r3, #6]
	str	r4, [sp, #132]
	ldrb	r4, [r3, #7]
	str	r4, [sp, #128]
	ldrb	r2, [r0, r2]
	str	r2, [sp, #152]
	ldrb	r2, [r3, #1]
	str	r2, [sp, #136]
	ldrb	r2, [r3, #2]
	str	r2, [sp, #148]
	ldrb	r2, [r3, #3]
	str	r2, [sp, #144]
	movs	r2, #5
	lsls	r2, r2, #8
	adds	r3, r0, r2
	ldrb	r4, [r3, #4]
	str	r4, [sp, #108]
	ldrb	r4, [r3, #5]
	str	r4, [sp, #92]
	ldrb	r4, [r3, #6]
	str	r4, [sp, #100]
	ldrb	r4, [r3, #7]
	str	r4, [sp, #96]
	ldrb	r2, [r0, r2]
	str	r2, [sp, #120]
	ldrb	r2, [r3, #1]
	str	r2, [sp, #104]
	ldrb	r2, [r3, #2]
	str	r2, [sp, #116]
	ldrb	r2, [r3, #3]
	str	r2, [sp, #112]
	movs	r2, #68
	ldrb	r2, [r0, r2]
	str	r2, [sp, #88]
	mov	r2, r0
	adds	r2, #68
	ldrb	r3, [r2, #1]
	str	r3, [sp, #72]
	ldrb	r3, [r2, #2]
	str	r3, [sp, #80]
	ldrb	r2, [r2, #3]
	str	r2, [sp, #76]
	movs	r2, #64
	ldrb	r2, [r0, r2]
	str	r2, [sp, #84]
	mov	r2, r0
	adds	r2, #64
	ldrb	r4, [r2, #1]
	ldrb	r6, [r2, #2]
	ldrb	r2, [r2, #3]
	str	r2, [sp, #68]
	movs	r2, #81
	lsls	r2, r2, #4
	ldrb	r3, [r0, r2]
	str	r3, [sp, #64]
	adds	r2, r0, r2
	ldrb	r3, [r2, #1]
	str	r3, [sp, #52]
	ldrb	r3, [r2, #2]
	str	r3, [sp, #60]
	ldrb	r2, [r2, #3]
	str	r2, [sp, #56]
	movs	r2, #79
	lsls	r2, r2, #4
	ldrb	r3, [r0, r2]
	str	r3, [sp, #48]
	adds	r2, r0, r2
	ldrb	r3, [r2, #1]
	str	r3, [sp, #36]
	ldrb	r3, [r2, #2]
	str	r3, [sp, #44]
	ldrb	r2, [r2, #3]
	str	r2, [sp, #40]
	movs	r2, #48
	ldrb	r2, [r0, r2]
	str	r2, [sp, #32]
	mov	r2, r0
	adds	r2, #48
	ldrb	r3, [r2, #1]
	str	r3, [sp, #20]
	ldrb	r3, [r2, #2]
	str	r3, [sp, #28]
	ldrb	r2, [r2, #3]
	str	r2, [sp, #24]
	cmp	r1, #0
	beq	.LBB23_5
	ldrb	r1, [r0, #24]
	ldrb	r2, [r0, #25]
	lsls	r2, r2, #8
	adds	r1, r2, r1
	ldrb	r2, [r0, #26]
	lsls	r2, r2, #16
	ldrb	r0, [r0, #27]
	lsls	r0, r0, #24
	adds	r0, r0, r2
	adds	r0, r0, r1
	bl	tlsf_memory_dealloc
.LBB23_5:
	ldr	r0, [sp, #72]
	lsls	r0, r0, #8
	ldr	r1, [sp, #88]
	adds	r0, r0, r1
	ldr	r1, [sp, #80]
	lsls	r1, r1, #16
	ldr	r2, [sp, #76]
	lsls	r2, r2, #24
	adds	r1, r2, r1
	adds	r0, r1, r0
	lsls	r1, r4, #8
	ldr	r2, [sp, #84]
	adds	r1, r1, r2
	lsls	r2, r6, #16
	ldr	r3, [sp, #68]
	lsls	r3, r3, #24
	adds	r2, r3, r2
	adds	r1, r2, r1
	orrs	r1, r0
	beq	.LBB23_7
	ldr	r0, [sp, #20]
	lsls	r0, r0, #8
	ldr	r1, [sp, #32]
	adds	r0, r0, r1
	ldr	r1, [sp, #28]
	lsls	r1, r1, #16
	ldr	r2, [sp, #24]
	lsls	r2, r2, #24
	adds	r1, r2, r1
	adds	r0, r1, r0
	bl	tlsf_memory_dealloc
.LBB23_7:
	ldr	r0, [sp, #92]
	lsls	r0, r0, #8
	ldr	r1, [sp, #108]
	adds	r0, r0, r1
	ldr	r1, [sp, #100]
	lsls	r1, r1, #16
	ldr	r2, [sp, #96]
	lsls	r2, r2, #24
	adds	r1, r2, r1
	adds	r0, r1, r0
	ldr	r1, [sp, #104]
	lsls	r1, r1, #8
	ldr	r2, [sp, #120]
	adds	r1, r1, r2
	ldr	r2, [sp, #116]
	lsls	r2, r2, #16
	ldr	r3, [sp, #112]
	lsls	r3, r3, #24
	adds	r2, r3, r2
	adds	r1, r2, r1
	orrs	r1, r0
	beq	.LBB23_9
	ldr	r0, [sp, #36]
	lsls	r0, r0, #8
	ldr	r1, [sp, #48]
	adds	r0, r0, r1
	ldr	r1, [sp, #44]
	lsls	r1, r1, #16
	ldr	r2, [sp, #40]
	lsls	r2, r2, #24
	adds	r1, r2, r1
	adds	r0, r1, r0
	bl	tlsf_memory_dealloc
.LBB23_9:
	ldr	r0, [sp, #124]
	lsls	r0, r0, #8
	ldr	r1, [sp, #140]
	adds	r0, r0, r1
	ldr	r1, [sp, #132]
	lsls	r1, r1, #16
	ldr	r2, [sp, #128]
	lsls	r2, r2, #24
	adds	r1, r2, r1
	adds	r0, r1, r0
	ldr	r1, [sp, #136]
	lsls	r1, r1, #8
	ldr	r2, [sp, #152]
	adds	r1, r1, r2
	ldr	r2, [sp, #148]
	lsls	r2, r2, #16
	ldr	r3, [sp, #144]
	lsls	r3, r3, #24
	adds	r2, r3, r2
	adds	r1, r2, r1
	orrs	r1, r0
	bne	.LBB23_10
	b	.LBB23_2
.LBB23_10:
	ldr	r0, [sp, #52]
	lsls	r0, r0, #8
	ldr	r1, [sp, #64]
	adds	r0, r0, r1
	ldr	r1, [sp, #60]
	lsls	r1, r1, #16
	ldr	r2, [sp, #56]
	lsls	r2, r2, #24
	adds	r1, r2, r1
	adds	r0, r1, r0
	bl	tlsf_memory_dealloc
	b	.LBB23_2
.LBB23_11:
	ldr	r0, [sp, #4]
	ldr	r1, [sp]
	orrs	r1, r0
	beq	.LBB23_13
	ldr	r0, [sp, #16]
	bl	tlsf_memory_dealloc
.LBB23_13:
	add	sp, #156
	pop	{r4, r5, r6, r7, pc}
.Lfunc_end23:
	.size	std_alloc.vec.Vec.drop.01e19ae241269710, .Lfunc_end23-std_alloc.vec.Vec.drop.01e19ae241269710
	.cfi_endproc
	.section	.text.unlikely.std_alloc.vec.Vec.grow_amortized.1345b5ed95b64201,"ax",%progbits
	.p2align	1
	.type	std_alloc.vec.Vec.grow_amortized.1345b5ed95b64201,%function
	.code	16
	.thumb_func
std_alloc.vec.Vec.grow_amortized.1345b5ed95b64201:
	.cfi_startproc
	push	{r4, r5, r6, r7, lr}
	.cfi_def_cfa_offset 20
	.cfi_offset lr, -4
	.cfi_offset r7, -8
	.cfi_offset r6, -12
	.cfi_offset r5, -16
	.cfi_offset r4, -20
	sub	sp, #44
	.cfi_def_cfa_offset 64
	ldr	r6, [r0, #8]
	ldr	r5, [r0, #12]
	movs	r1, #0
	adds	r4, r6, r2
	mov	r4, r5
	adcs	r4, r3
	mov	r4, r1
	adcs	r4, r1
	cmp	r4, #1
	beq	.LBB24_30
	adds	r4, r6, r2
	str	r5, [sp, #4]
	adcs	r3, r5
	movs	r5, #4
	cmp	r4, #4
	mov	r2, r4
	bls	.LBB24_17
	cmp	r3, #0
	beq	.LBB24_18
.LBB24_3:
	str	r6, [sp, #8]
	beq	.LBB24_5
.LBB24_4:
	mov	r2, r4
.LBB24_5:
	ldr	r4, [r0, #16]
	ldr	r5, [r0, #20]
	lsrs	r6, r4, #31
	str	r5, [sp, #20]
	lsls	r7, r5, #1
	adds	r6, r7, r6
	lsls	r7, r4, #1
	subs	r5, r7, r2
	mov	r5, r6
	sbcs	r5, r3
	mov	r5, r2
	blo	.LBB24_7
	mov	r5, r7
.LBB24_7:
	str	r5, [sp, #16]
	mov	r7, r3
	blo	.LBB24_9
	mov	r7, r6
.LBB24_9:
	ldr	r5, [sp, #20]
	lsrs	r5, r5, #30
	cmp	r5, #0
	ldr	r5, [sp, #16]
	mov	r6, r5
	beq	.LBB24_11
	mov	r6, r2
.LBB24_11:
	mov	r2, r7
	beq	.LBB24_13
	mov	r2, r3
.LBB24_13:
	str	r2, [sp, #12]
	lsrs	r2, r2, #28
	bne	.LBB24_30
	ldr	r1, [sp, #20]
	orrs	r4, r1
	beq	.LBB24_19
	ldr	r1, [r0]
	movs	r2, #8
	str	r2, [sp]
	ldr	r5, [sp, #8]
	lsrs	r2, r5, #29
	ldr	r3, [sp, #4]
	lsls	r3, r3, #3
	adds	r2, r3, r2
	movs	r4, #0
	mvns	r3, r4
	cmp	r2, #0
	beq	.LBB24_21
	mov	r2, r3
	b	.LBB24_22
.LBB24_17:
	mov	r2, r5
	cmp	r3, #0
	bne	.LBB24_3
.LBB24_18:
	mov	r4, r5
	str	r6, [sp, #8]
	bne	.LBB24_4
	b	.LBB24_5
.LBB24_19:
	lsrs	r2, r5, #29
	lsls	r3, r7, #3
	movs	r1, #0
	adds	r2, r3, r2
	beq	.LBB24_26
	mov	r5, r0
	mov	r4, r1
	mvns	r1, r1
	b	.LBB24_27
.LBB24_21:
	lsls	r2, r5, #3
.LBB24_22:
	lsrs	r5, r6, #29
	mov	r7, r6
	ldr	r6, [sp, #12]
	lsls	r6, r6, #3
	adds	r5, r6, r5
	beq	.LBB24_24
	mov	r5, r0
	b	.LBB24_25
.LBB24_24:
	mov	r5, r0
	lsls	r3, r7, #3
.LBB24_25:
	mov	r6, r7
	add	r0, sp, #24
	bl	tlsf_memory_realloc
	b	.LBB24_28
.LBB24_26:
	mov	r4, r1
	mov	r1, r5
	mov	r5, r0
	lsls	r1, r1, #3
.LBB24_27:
	add	r0, sp, #24
	movs	r2, #8
	bl	tlsf_memory_alloc
.LBB24_28:
	ldr	r0, [sp, #24]
	lsls	r0, r0, #31
	mov	r1, r4
	beq	.LBB24_30
	ldr	r0, [sp, #32]
	str	r0, [r5]
	str	r6, [r5, #16]
	ldr	r0, [sp, #12]
	str	r0, [r5, #20]
	movs	r1, #1
.LBB24_30:
	mov	r0, r1
	add	sp, #44
	pop	{r4, r5, r6, r7, pc}
.Lfunc_end24:
	.size	std_alloc.vec.Vec.grow_amortized.1345b5ed95b64201, .Lfunc_end24-std_alloc.vec.Vec.grow_amortized.1345b5ed95b64201
	.cfi_endproc
	.section	.text.tlsf_heap.heap.Heap.begin.4,"ax",%progbits
	.p2align	1
	.type	tlsf_heap.heap.Heap.begin.4,%function
	.code	16
	.thumb_func
tlsf_heap.heap.Heap.begin.4:
	.cfi_startproc
	push	{r4, r5, r6, r7, lr}
	.cfi_def_cfa_offset 20
	.cfi_offset lr, -4
	.cfi_offset r7, -8
	.cfi_offset r6, -12
	.cfi_offset r5, -16
	.cfi_offset r4, -20
	sub	sp, #36
	.cfi_def_cfa_offset 56
	mov	r3, r1
	mov	r4, r0
	ldr	r0, [r0, #8]
	ldr	r1, [r4, #12]
	movs	r7, #0
	subs	r0, r0, #1
	str	r0, [sp, #28]
	sbcs	r1, r7
	str	r1, [sp, #32]
	ldr	r5, [r4, #32]
	ldr	r0, [r4, #36]
	subs	r1, r5, r3
	mov	r1, r0
	sbcs	r1, r7
	bhs	.LBB25_5
	str	r7, [sp, #8]
	movs	r7, #0
	subs	r1, r3, r5
	str	r1, [sp, #24]
	sbcs	r7, r0
	ldr	r1, [r4, #40]
	ldr	r2, [r4, #44]
	str	r1, [sp, #16]
	subs	r1, r1, r5
	str	r1, [sp, #20]
	str	r2, [sp, #12]
	sbcs	r2, r0
	ldr	r1, [sp, #24]
	ldr	r6, [sp, #20]
	subs	r1, r6, r1
	sbcs	r2, r7
	bhs	.LBB25_2
	b	.LBB25_21
.LBB25_2:
	ldr	r1, [sp, #24]
	adds	r1, r5, r1
	adcs	r7, r0
	ldr	r2, [r4, #24]
	str	r2, [sp, #20]
	str	r1, [sp, #4]
	subs	r1, r5, r1
	sbcs	r0, r7
	bhs	.LBB25_4
	lsls	r0, r5, #3
	ldr	r1, [sp, #20]
	adds	r0, r1, r0
	ldr	r1, [sp, #24]
	lsls	r2, r1, #3
	movs	r1, #0
	mov	r5, r3
	bl	tlsf_memory_set
	mov	r3, r5
.LBB25_4:
	ldr	r0, [sp, #20]
	str	r0, [r4, #24]
	ldr	r5, [sp, #4]
	str	r5, [r4, #32]
	str	r7, [r4, #36]
	ldr	r0, [sp, #16]
	str	r0, [r4, #40]
	ldr	r0, [sp, #12]
	str	r0, [r4, #44]
	ldr	r7, [sp, #8]
	b	.LBB25_7
.LBB25_5:
	subs	r1, r3, r5
	mov	r1, r7
	sbcs	r1, r0
	bhs	.LBB25_7
	str	r3, [r4, #32]
	str	r7, [r4, #36]
	mov	r5, r3
.LBB25_7:
	ldr	r0, [r4, #56]
	ldr	r1, [r4, #60]
	orrs	r1, r0
	beq	.LBB25_9
	str	r7, [r4, #56]
	str	r7, [r4, #60]
.LBB25_9:
	lsrs	r6, r3, #6
	lsls	r0, r3, #26
	beq	.LBB25_11
	adds	r6, r6, #1
.LBB25_11:
	cmp	r3, #0
	beq	.LBB25_16
	ldr	r2, [r4, #64]
	ldr	r1, [r4, #68]
	subs	r0, r2, r6
	str	r1, [sp, #20]
	mov	r0, r1
	sbcs	r0, r7
	mov	r0, r7
	mov	r1, r7
	blo	.LBB25_19
.LBB25_13:
	str	r2, [sp, #16]
	adds	r5, r0, r6
	adcs	r7, r1
	ldr	r2, [r4, #48]
	str	r2, [sp, #24]
	subs	r2, r0, r5
	sbcs	r1, r7
	bhs	.LBB25_15
	lsls	r0, r0, #3
	ldr	r1, [sp, #24]
	adds	r0, r1, r0
	lsls	r2, r6, #3
	movs	r1, #0
	mov	r6, r3
	bl	tlsf_memory_set
	mov	r3, r6
.LBB25_15:
	ldr	r0, [sp, #24]
	str	r0, [r4, #48]
	str	r5, [r4, #56]
	str	r7, [r4, #60]
	ldr	r0, [sp, #16]
	str	r0, [r4, #64]
	ldr	r0, [sp, #20]
	str	r0, [r4, #68]
	ldr	r5, [r4, #32]
.LBB25_16:
	movs	r6, #0
	mvns	r7, r6
	movs	r0, #184
	str	r7, [r4, r0]
	str	r3, [r4, #72]
	mov	r0, r4
	adds	r0, #80
	movs	r2, #88
	mov	r1, r6
	bl	tlsf_memory_set
	lsls	r0, r5, #2
	adds	r0, r0, #3
	ldr	r1, [r4, #24]
	stm	r1!, {r0, r7}
	ldr	r0, [sp, #28]
	str	r0, [r1]
	ldr	r0, [sp, #32]
	str	r0, [r1, #4]
	ldr	r0, [r4, #48]
	ldr	r1, [r0]
	movs	r2, #1
	str	r2, [sp, #32]
	orrs	r1, r2
	str	r1, [r0]
	movs	r0, #16
	orrs	r0, r5
	bl	__clzsi2
	movs	r1, #27
	subs	r0, r1, r0
	lsrs	r5, r0
	lsls	r0, r0, #4
	adds	r0, r5, r0
	lsls	r1, r0, #2
	adds	r2, r4, r1
	movs	r3, #168
	ldr	r1, [r2, r3]
	str	r6, [r2, r3]
	cmp	r1, #0
	bmi	.LBB25_18
	ldr	r0, [r4, #24]
	str	r1, [r0, #16]
	str	r7, [r0, #20]
	lsls	r1, r1, #3
	adds	r0, r0, r1
	str	r6, [r0, #20]
	add	sp, #36
	pop	{r4, r5, r6, r7, pc}
.LBB25_18:
	ldr	r1, [r4, #24]
	str	r7, [r1, #16]
	str	r7, [r1, #20]
	lsrs	r0, r0, #4
	ldr	r3, [sp, #32]
	mov	r1, r3
	lsls	r1, r0
	ldr	r2, [r4, #80]
	orrs	r2, r1
	str	r2, [r4, #80]
	movs	r1, #15
	ands	r5, r1
	lsls	r3, r5
	lsls	r0, r0, #2
	adds	r0, r4, r0
	ldr	r1, [r0, #84]
	orrs	r1, r3
	str	r1, [r0, #84]
	add	sp, #36
	pop	{r4, r5, r6, r7, pc}
.LBB25_19:
	mov	r5, r3
	mov	r0, r4
	adds	r0, #48
	movs	r3, #0
	mov	r2, r6
	bl	std_alloc.vec.Vec.grow_amortized.1345b5ed95b64201
	cmp	r0, #0
	beq	.LBB25_23
	mov	r3, r4
	adds	r3, #56
	ldm	r3, {r0, r1, r2, r3}
	str	r3, [sp, #20]
	mov	r3, r5
	b	.LBB25_13
.LBB25_21:
	str	r3, [sp, #20]
	mov	r0, r4
	adds	r0, #24
	ldr	r2, [sp, #24]
	mov	r3, r7
	bl	std_alloc.vec.Vec.grow_amortized.1345b5ed95b64201
	cmp	r0, #0
	beq	.LBB25_23
	ldr	r5, [r4, #32]
	ldr	r0, [r4, #36]
	ldr	r1, [r4, #40]
	str	r1, [sp, #16]
	ldr	r1, [r4, #44]
	str	r1, [sp, #12]
	ldr	r3, [sp, #20]
	b	.LBB25_2
.LBB25_23:
	.inst.n	0xdefe
.Lfunc_end25:
	.size	tlsf_heap.heap.Heap.begin.4, .Lfunc_end25-tlsf_heap.heap.Heap.begin.4
	.cfi_endproc
	.section	.text.tlsf_pool.sizes.split.rising_split.4,"ax",%progbits
	.p2align	2
	.type	tlsf_pool.sizes.split.rising_split.4,%function
	.code	16
	.thumb_func
tlsf_pool.sizes.split.rising_split.4:
	.cfi_startproc
	push	{r4, r5, r6, r7, lr}
	.cfi_def_cfa_offset 20
	.cfi_offset lr, -4
	.cfi_offset r7, -8
	.cfi_offset r6, -12
	.cfi_offset r5, -16
	.cfi_offset r4, -20
	sub	sp, #508
	sub	sp, #508
	sub	sp, #460
	.cfi_def_cfa_offset 1496
	ldr	r4, .LCPI26_1
	add	r4, sp
	str	r4, [sp, #84]
	mov	r5, r2
	str	r1, [sp, #32]
	str	r0, [sp, #4]
	movs	r1, #0
	subs	r0, r2, #2
	mov	r0, r3
	sbcs	r0, r1
	str	r3, [sp, #28]
	blo	.LBB26_11
	str	r1, [sp, #16]
	mov	r7, r5
	movs	r0, #0
	movs	r1, #1
.LBB26_2:
	lsls	r2, r1, #3
	ldr	r3, [sp, #32]
	adds	r2, r3, r2
	ldr	r3, [r2, #4]
	subs	r2, r2, #4
	ldr	r2, [r2]
	cmp	r3, r2
	bls	.LBB26_13
	movs	r2, #0
	adds	r4, r1, #1
	mov	r5, r0
	adcs	r5, r2
	subs	r6, r4, r7
	ldr	r6, [sp, #28]
	sbcs	r5, r6
	bhs	.LBB26_10
	lsls	r4, r4, #3
	ldr	r5, [sp, #32]
	adds	r4, r5, r4
	ldr	r4, [r4, #4]
	cmp	r4, r3
	bls	.LBB26_13
	adds	r3, r1, #2
	mov	r5, r0
	adcs	r5, r2
	subs	r6, r3, r7
	ldr	r6, [sp, #28]
	sbcs	r5, r6
	bhs	.LBB26_10
	lsls	r3, r3, #3
	ldr	r5, [sp, #32]
	adds	r3, r5, r3
	ldr	r3, [r3, #4]
	cmp	r3, r4
	bls	.LBB26_13
	adds	r4, r1, #3
	mov	r5, r0
	adcs	r5, r2
	subs	r6, r4, r7
	ldr	r6, [sp, #28]
	sbcs	r5, r6
	bhs	.LBB26_10
	lsls	r4, r4, #3
	ldr	r5, [sp, #32]
	adds	r4, r5, r4
	ldr	r4, [r4, #4]
	cmp	r4, r3
	bls	.LBB26_13
	adds	r1, r1, #4
	adcs	r0, r2
	subs	r2, r1, r7
	mov	r2, r0
	ldr	r3, [sp, #28]
	sbcs	r2, r3
	blo	.LBB26_2
.LBB26_10:
	add	r0, sp, #104
	movs	r1, #0
	ldr	r2, .LCPI26_0
	bl	tlsf_memory_set
	mov	r5, r7
	ldr	r6, [sp, #28]
	ldr	r7, [sp, #16]
	b	.LBB26_12
.LBB26_11:
	mov	r4, r3
	mov	r6, r3
	add	r0, sp, #104
	ldr	r2, .LCPI26_0
	mov	r7, r1
	bl	tlsf_memory_set
	orrs	r4, r5
	beq	.LBB26_14
.LBB26_12:
	movs	r4, #20
	muls	r4, r5, r4
	add	r0, sp, #104
	movs	r1, #0
	str	r1, [sp, #8]
	mov	r2, r4
	bl	tlsf_memory_set
	b	.LBB26_15
.LBB26_13:
	movs	r1, #0
	movs	r2, #88
	ldr	r0, [sp, #4]
	bl	tlsf_memory_set
	b	.LBB26_36
.LBB26_14:
	movs	r0, #1
	str	r0, [sp, #8]
	mov	r4, r7
.LBB26_15:
	add	r0, sp, #104
	movs	r1, #1
	str	r1, [sp, #64]
	str	r1, [r0, r4]
	adds	r0, r0, r4
	str	r7, [r0, #4]
	str	r7, [r0, #8]
	str	r7, [r0, #12]
	str	r7, [r0, #16]
	ldr	r0, .LCPI26_4
	add	r0, sp
	mov	r1, r0
	adds	r1, #8
	str	r1, [sp, #68]
	ldr	r1, .LCPI26_3
	add	r1, sp
	mov	r2, r1
	adds	r2, #8
	str	r2, [sp, #56]
	adds	r0, r0, #4
	str	r0, [sp, #52]
	ldr	r0, .LCPI26_2
	add	r0, sp
	adds	r0, r0, #5
	str	r0, [sp, #48]
	adds	r0, r1, #4
	mov	r1, r7
	mov	r7, r0
	mov	r2, r1
	str	r5, [sp, #24]
	str	r0, [sp, #20]
	b	.LBB26_17
.LBB26_16:
	movs	r0, #0
	ldr	r3, [sp, #16]
	adds	r1, r3, #1
	ldr	r4, [sp, #12]
	mov	r2, r4
	adcs	r2, r0
	subs	r3, r3, #7
	sbcs	r4, r0
	blo	.LBB26_17
	b	.LBB26_33
.LBB26_17:
	str	r2, [sp, #12]
	str	r1, [sp, #16]
	ldr	r0, [sp, #8]
	cmp	r0, #0
	bne	.LBB26_16
	movs	r0, #0
	mov	r3, r0
	str	r0, [sp, #88]
	mov	r1, r0
	b	.LBB26_20
.LBB26_19:
	ldr	r4, [sp, #84]
	str	r0, [r4, #40]
	ldr	r7, [sp, #20]
	ldm	r7!, {r0, r1, r2, r3}
	stm	r4!, {r0, r1, r2, r3}
	ldr	r4, [sp, #40]
	ldr	r5, [sp, #60]
	muls	r5, r4, r5
	add	r4, sp, #104
	str	r6, [r4, r5]
	adds	r4, r4, r5
	adds	r4, r4, #4
	stm	r4!, {r0, r1, r2, r3}
	ldr	r5, [sp, #24]
	ldr	r3, [sp, #36]
	subs	r7, #16
	subs	r0, r3, r5
	ldr	r1, [sp, #44]
	mov	r0, r1
	ldr	r6, [sp, #28]
	sbcs	r0, r6
	mov	r0, r1
	bhs	.LBB26_16
.LBB26_20:
	ldr	r2, [sp, #88]
	str	r2, [r7]
	str	r2, [r7, #4]
	str	r2, [r7, #8]
	str	r2, [r7, #12]
	adds	r4, r3, #1
	adcs	r1, r2
	str	r1, [sp, #44]
	subs	r1, r5, r3
	str	r1, [sp, #80]
	sbcs	r6, r0
	str	r6, [sp, #76]
	str	r3, [sp, #40]
	lsls	r0, r3, #3
	ldr	r1, [sp, #32]
	adds	r0, r1, r0
	str	r0, [sp, #72]
	movs	r0, #20
	str	r0, [sp, #60]
	str	r4, [sp, #36]
	muls	r0, r4, r0
	add	r1, sp, #104
	adds	r0, r1, r0
	str	r0, [sp, #92]
	mov	r6, r2
	mov	r0, r2
	mov	r4, r2
	mov	r7, r2
	ldr	r5, [sp, #56]
	b	.LBB26_23
.LBB26_21:
	ldr	r6, [sp, #64]
.LBB26_22:
	ldm	r1!, {r2, r3}
	ldr	r1, [r1]
	stm	r5!, {r2, r3}
	str	r1, [r5]
	ldr	r1, [sp, #80]
	subs	r5, #8
	subs	r1, r4, r1
	mov	r1, r7
	ldr	r2, [sp, #76]
	sbcs	r1, r2
	bhs	.LBB26_19
.LBB26_23:
	str	r6, [sp, #100]
	mov	r6, r4
	str	r0, [sp, #96]
	adds	r4, r4, #1
	ldr	r0, [sp, #88]
	adcs	r7, r0
	ldr	r0, [sp, #72]
	mov	r2, r4
	mov	r3, r7
	bl	tlsf_pool.sizes.region.region_words.4
	lsls	r0, r0, #24
	beq	.LBB26_30
	ldr	r0, [sp, #60]
	muls	r6, r0, r6
	ldr	r0, [sp, #92]
	ldrb	r0, [r0, r6]
	cmp	r0, #1
	bne	.LBB26_30
	ldr	r0, [sp, #92]
	adds	r0, r0, r6
	ldr	r2, [r0, #16]
	ldr	r3, [r0, #12]
	ldr	r6, [r0, #8]
	ldr	r5, [sp, #84]
	str	r6, [r5, #60]
	str	r3, [r5, #64]
	str	r2, [r5, #68]
	uxtb	r2, r6
	ldr	r3, [sp, #48]
	strb	r4, [r3, r2]
	adds	r2, r6, #1
	ldr	r3, .LCPI26_2
	add	r3, sp
	strb	r2, [r3, #4]
	ldr	r0, [r0, #4]
	adds	r0, r0, r1
	mov	r3, r5
	adds	r3, #60
	ldm	r3, {r1, r2, r3}
	ldr	r6, [sp, #52]
	stm	r6!, {r0, r1, r2, r3}
	ldr	r0, [r5, #20]
	ldr	r1, [sp, #100]
	cmp	r1, #0
	beq	.LBB26_32
	ldr	r1, [sp, #96]
	cmp	r0, r1
	ldr	r5, [sp, #56]
	blo	.LBB26_28
	mov	r0, r1
.LBB26_28:
	ldr	r1, [sp, #68]
	blo	.LBB26_21
	mov	r1, r5
	b	.LBB26_21
.LBB26_30:
	movs	r0, #0
	ldr	r1, [sp, #84]
	str	r0, [r1, #16]
	str	r0, [r1, #20]
	str	r0, [r1, #24]
	str	r0, [r1, #28]
	str	r0, [r1, #32]
	ldr	r1, [sp, #100]
	cmp	r1, #0
	ldr	r1, [sp, #68]
	mov	r6, r0
	beq	.LBB26_22
	mov	r1, r5
	ldr	r0, [sp, #96]
	b	.LBB26_21
.LBB26_32:
	ldr	r1, [sp, #68]
	ldr	r6, [sp, #64]
	ldr	r5, [sp, #56]
	b	.LBB26_22
.LBB26_33:
	add	r0, sp, #104
	ldrb	r1, [r0]
	movs	r0, #0
	str	r1, [sp, #88]
	cmp	r1, #1
	mov	r6, r0
	mov	r7, r0
	str	r0, [sp, #100]
	str	r0, [sp, #96]
	str	r0, [sp, #92]
	mov	r3, r0
	mov	r1, r0
	mov	r4, r0
	mov	r5, r0
	mov	r2, r0
	bne	.LBB26_35
	add	r2, sp, #104
	ldrb	r6, [r2, #8]
	ldrb	r5, [r2, #16]
	ldrb	r4, [r2, #15]
	ldrb	r1, [r2, #14]
	ldrb	r3, [r2, #13]
	ldrb	r7, [r2, #12]
	str	r7, [sp, #92]
	ldrb	r7, [r2, #11]
	str	r7, [sp, #96]
	ldrb	r7, [r2, #10]
	str	r7, [sp, #100]
	ldrb	r7, [r2, #9]
	ldr	r2, [sp, #108]
.LBB26_35:
	str	r7, [sp, #80]
	str	r6, [sp, #84]
	movs	r6, #84
	ldr	r7, [sp, #4]
	strb	r0, [r7, r6]
	movs	r6, #80
	strb	r2, [r7, r6]
	movs	r6, #76
	strb	r0, [r7, r6]
	movs	r6, #72
	strb	r5, [r7, r6]
	movs	r5, #68
	strb	r0, [r7, r5]
	movs	r5, #64
	strb	r4, [r7, r5]
	movs	r4, #60
	strb	r0, [r7, r4]
	movs	r4, #56
	strb	r1, [r7, r4]
	movs	r1, #52
	strb	r0, [r7, r1]
	movs	r1, #48
	strb	r3, [r7, r1]
	movs	r1, #44
	strb	r0, [r7, r1]
	movs	r1, #40
	ldr	r3, [sp, #92]
	strb	r3, [r7, r1]
	movs	r1, #36
	strb	r0, [r7, r1]
	movs	r1, #32
	ldr	r3, [sp, #96]
	strb	r3, [r7, r1]
	strb	r0, [r7, #31]
	strb	r0, [r7, #30]
	strb	r0, [r7, #29]
	strb	r0, [r7, #28]
	strb	r0, [r7, #27]
	strb	r0, [r7, #26]
	strb	r0, [r7, #25]
	ldr	r1, [sp, #100]
	strb	r1, [r7, #24]
	strb	r0, [r7, #23]
	strb	r0, [r7, #22]
	strb	r0, [r7, #21]
	strb	r0, [r7, #20]
	strb	r0, [r7, #19]
	strb	r0, [r7, #18]
	strb	r0, [r7, #17]
	ldr	r1, [sp, #80]
	strb	r1, [r7, #16]
	strb	r0, [r7, #15]
	strb	r0, [r7, #14]
	strb	r0, [r7, #13]
	strb	r0, [r7, #12]
	strb	r0, [r7, #11]
	strb	r0, [r7, #10]
	strb	r0, [r7, #9]
	ldr	r1, [sp, #84]
	strb	r1, [r7, #8]
	strb	r0, [r7, #7]
	strb	r0, [r7, #6]
	strb	r0, [r7, #5]
	strb	r0, [r7, #4]
	strb	r0, [r7, #3]
	strb	r0, [r7, #2]
	strb	r0, [r7, #1]
	ldr	r1, [sp, #88]
	strb	r1, [r7]
	mov	r1, r7
	adds	r1, #84
	strb	r0, [r1, #3]
	strb	r0, [r1, #2]
	strb	r0, [r1, #1]
	mov	r1, r7
	adds	r1, #80
	lsrs	r3, r2, #24
	strb	r3, [r1, #3]
	lsrs	r3, r2, #16
	strb	r3, [r1, #2]
	lsrs	r2, r2, #8
	strb	r2, [r1, #1]
	mov	r1, r7
	adds	r1, #76
	strb	r0, [r1, #3]
	strb	r0, [r1, #2]
	strb	r0, [r1, #1]
	mov	r1, r7
	adds	r1, #72
	strb	r0, [r1, #3]
	strb	r0, [r1, #2]
	strb	r0, [r1, #1]
	mov	r1, r7
	adds	r1, #68
	strb	r0, [r1, #3]
	strb	r0, [r1, #2]
	strb	r0, [r1, #1]
	mov	r1, r7
	adds	r1, #64
	strb	r0, [r1, #3]
	strb	r0, [r1, #2]
	strb	r0, [r1, #1]
	mov	r1, r7
	adds	r1, #60
	strb	r0, [r1, #3]
	strb	r0, [r1, #2]
	strb	r0, [r1, #1]
	mov	r1, r7
	adds	r1, #56
	strb	r0, [r1, #3]
	strb	r0, [r1, #2]
	strb	r0, [r1, #1]
	mov	r1, r7
	adds	r1, #52
	strb	r0, [r1, #3]
	strb	r0, [r1, #2]
	strb	r0, [r1, #1]
	mov	r1, r7
	adds	r1, #48
	strb	r0, [r1, #3]
	strb	r0, [r1, #2]
	strb	r0, [r1, #1]
	mov	r1, r7
	adds	r1, #44
	strb	r0, [r1, #3]
	strb	r0, [r1, #2]
	strb	r0, [r1, #1]
	mov	r1, r7
	adds	r1, #40
	strb	r0, [r1, #3]
	strb	r0, [r1, #2]
	strb	r0, [r1, #1]
	mov	r1, r7
	adds	r1, #36
	strb	r0, [r1, #3]
	strb	r0, [r1, #2]
	strb	r0, [r1, #1]
	adds	r7, #32
	strb	r0, [r7, #3]
	strb	r0, [r7, #2]
	strb	r0, [r7, #1]
.LBB26_36:
	add	sp, #508
	add	sp, #508
	add	sp, #460
	pop	{r4, r5, r6, r7, pc}
	.p2align	2
.LCPI26_0:
	.long	1300
.LCPI26_1:
	.long	1404
.LCPI26_2:
	.long	1460
.LCPI26_3:
	.long	1440
.LCPI26_4:
	.long	1420
.Lfunc_end26:
	.size	tlsf_pool.sizes.split.rising_split.4, .Lfunc_end26-tlsf_pool.sizes.split.rising_split.4
	.cfi_endproc
	.section	.text.tlsf_pool.sizes.region.region_words.4,"ax",%progbits
	.p2align	2
	.type	tlsf_pool.sizes.region.region_words.4,%function
	.code	16
	.thumb_func
tlsf_pool.sizes.region.region_words.4:
	.cfi_startproc
	push	{r4, r5, r6, r7, lr}
	.cfi_def_cfa_offset 20
	.cfi_offset lr, -4
	.cfi_offset r7, -8
	.cfi_offset r6, -12
	.cfi_offset r5, -16
	.cfi_offset r4, -20
	sub	sp, #28
	.cfi_def_cfa_offset 48
	movs	r5, #0
	mov	r1, r2
	orrs	r1, r3
	beq	.LBB27_12
	str	r5, [sp, #8]
	str	r2, [sp, #20]
	str	r3, [sp, #24]
	movs	r1, #0
	ldr	r4, .LCPI27_0
	mov	r5, r1
	mov	r6, r1
.LBB27_2:
	lsls	r3, r5, #3
	adds	r3, r0, r3
	ldr	r3, [r3, #4]
	cmp	r3, r4
	blo	.LBB27_3
	b	.LBB27_48
.LBB27_3:
	movs	r3, #1
	orrs	r3, r5
	ldr	r2, [sp, #20]
	subs	r7, r3, r2
	mov	r7, r6
	ldr	r2, [sp, #24]
	sbcs	r7, r2
	bhs	.LBB27_10
	lsls	r3, r3, #3
	adds	r3, r0, r3
	ldr	r3, [r3, #4]
	cmp	r3, r4
	bhs	.LBB27_13
	movs	r3, #2
	orrs	r3, r5
	ldr	r2, [sp, #20]
	subs	r7, r3, r2
	mov	r7, r6
	ldr	r2, [sp, #24]
	sbcs	r7, r2
	bhs	.LBB27_10
	lsls	r3, r3, #3
	adds	r3, r0, r3
	ldr	r3, [r3, #4]
	cmp	r3, r4
	bhs	.LBB27_13
	movs	r3, #3
	orrs	r3, r5
	ldr	r2, [sp, #20]
	subs	r7, r3, r2
	mov	r7, r6
	ldr	r2, [sp, #24]
	sbcs	r7, r2
	bhs	.LBB27_10
	lsls	r3, r3, #3
	adds	r3, r0, r3
	ldr	r3, [r3, #4]
	cmp	r3, r4
	bhs	.LBB27_13
	movs	r3, #0
	adds	r5, r5, #4
	adcs	r6, r3
	ldr	r2, [sp, #20]
	subs	r3, r5, r2
	mov	r3, r6
	ldr	r2, [sp, #24]
	sbcs	r3, r2
	blo	.LBB27_2
.LBB27_10:
	movs	r3, #3
	ldr	r2, [sp, #20]
	mov	r6, r2
	ands	r6, r3
	movs	r4, #0
	subs	r1, r2, #4
	ldr	r5, [sp, #24]
	mov	r1, r5
	sbcs	r1, r4
	str	r6, [sp, #4]
	str	r3, [sp]
	bhs	.LBB27_14
	mov	r7, r4
	mov	r1, r4
	b	.LBB27_17
.LBB27_12:
	mov	r4, r5
	mov	r7, r5
	mov	r3, r5
	b	.LBB27_53
.LBB27_13:
	movs	r1, #0
	mov	r6, r1
	b	.LBB27_69
.LBB27_14:
	bics	r2, r3
	str	r2, [sp, #12]
	str	r0, [sp, #16]
	mov	r0, r4
	mov	r5, r4
	mov	r1, r4
	mov	r7, r4
.LBB27_15:
	lsls	r3, r1, #3
	ldr	r2, [sp, #16]
	ldr	r6, [r2, r3]
	adds	r6, r0, r6
	adcs	r5, r4
	adds	r3, r2, r3
	ldr	r2, [r3, #8]
	adds	r2, r6, r2
	adcs	r5, r4
	ldr	r6, [r3, #16]
	adds	r2, r2, r6
	adcs	r5, r4
	ldr	r3, [r3, #24]
	adds	r0, r2, r3
	adcs	r5, r4
	adds	r1, r1, #4
	adcs	r7, r4
	mov	r2, r7
	ldr	r3, [sp, #24]
	eors	r2, r3
	mov	r3, r1
	ldr	r6, [sp, #12]
	eors	r3, r6
	orrs	r3, r2
	bne	.LBB27_15
	ldr	r6, [sp, #4]
	cmp	r6, #0
	mov	r4, r0
	mov	r7, r5
	ldr	r0, [sp, #16]
	ldr	r5, [sp, #24]
	beq	.LBB27_20
.LBB27_17:
	lsls	r3, r1, #3
	ldr	r2, [r0, r3]
	movs	r1, #0
	adds	r4, r4, r2
	adcs	r7, r1
	cmp	r6, #1
	beq	.LBB27_20
	adds	r3, r0, r3
	ldr	r2, [r3, #8]
	adds	r4, r4, r2
	adcs	r7, r1
	cmp	r6, #2
	beq	.LBB27_20
	ldr	r2, [r3, #16]
	adds	r4, r4, r2
	adcs	r7, r1
.LBB27_20:
	str	r4, [sp, #16]
	movs	r3, #0
	ldr	r4, [sp, #20]
	subs	r1, r4, #4
	mov	r1, r5
	sbcs	r1, r3
	mov	r6, r3
	blo	.LBB27_36
	str	r7, [sp, #12]
	ldr	r1, [sp]
	bics	r4, r1
	mov	r6, r3
	mov	r7, r3
	b	.LBB27_24
.LBB27_22:
	mov	r3, r1
.LBB27_23:
	ldr	r2, [sp, #24]
	movs	r1, #0
	adds	r6, r6, #4
	adcs	r7, r1
	mov	r1, r7
	eors	r1, r2
	mov	r2, r6
	eors	r2, r4
	orrs	r2, r1
	beq	.LBB27_35
.LBB27_24:
	lsls	r1, r6, #3
	adds	r5, r0, r1
	ldr	r1, [r0, r1]
	cmp	r1, #0
	beq	.LBB27_26
	ldr	r1, [r5, #4]
	cmp	r1, r3
	bhi	.LBB27_27
.LBB27_26:
	mov	r1, r3
.LBB27_27:
	ldr	r2, [r5, #8]
	cmp	r2, #0
	beq	.LBB27_29
	ldr	r3, [r5, #12]
	cmp	r3, r1
	bhi	.LBB27_30
.LBB27_29:
	mov	r3, r1
.LBB27_30:
	ldr	r1, [r5, #16]
	cmp	r1, #0
	beq	.LBB27_32
	ldr	r1, [r5, #20]
	cmp	r1, r3
	bhi	.LBB27_33
.LBB27_32:
	mov	r1, r3
.LBB27_33:
	ldr	r2, [r5, #24]
	cmp	r2, #0
	beq	.LBB27_22
	ldr	r3, [r5, #28]
	cmp	r3, r1
	bls	.LBB27_22
	b	.LBB27_23
.LBB27_35:
	ldr	r1, [sp, #4]
	cmp	r1, #0
	ldr	r7, [sp, #12]
	beq	.LBB27_47
.LBB27_36:
	lsls	r1, r6, #3
	adds	r2, r0, r1
	ldr	r0, [r0, r1]
	cmp	r0, #0
	beq	.LBB27_41
	ldr	r1, [r2, #4]
	cmp	r1, r3
	ldr	r4, [sp, #4]
	bhi	.LBB27_39
	mov	r1, r3
.LBB27_39:
	cmp	r4, #1
	bne	.LBB27_42
.LBB27_40:
	mov	r3, r1
	b	.LBB27_47
.LBB27_41:
	mov	r1, r3
	ldr	r4, [sp, #4]
	cmp	r4, #1
	beq	.LBB27_40
.LBB27_42:
	ldr	r0, [r2, #8]
	cmp	r0, #0
	beq	.LBB27_44
	ldr	r0, [r2, #12]
	cmp	r0, r1
	bhi	.LBB27_45
.LBB27_44:
	mov	r0, r1
.LBB27_45:
	cmp	r4, #2
	bne	.LBB27_49
	mov	r3, r0
.LBB27_47:
	ldr	r5, [sp, #8]
	ldr	r4, [sp, #16]
	b	.LBB27_53
.LBB27_48:
	mov	r6, r1
	b	.LBB27_69
.LBB27_49:
	ldr	r1, [r2, #16]
	cmp	r1, #0
	ldr	r4, [sp, #16]
	beq	.LBB27_51
	ldr	r3, [r2, #20]
	cmp	r3, r0
	bhi	.LBB27_52
.LBB27_51:
	mov	r3, r0
.LBB27_52:
	ldr	r5, [sp, #8]
.LBB27_53:
	adds	r0, r3, #1
	mov	r1, r5
	adcs	r1, r5
	cmp	r3, #0
	beq	.LBB27_55
	mov	r0, r3
.LBB27_55:
	beq	.LBB27_57
	mov	r1, r5
.LBB27_57:
	adds	r0, #31
	adcs	r1, r5
	lsrs	r0, r0, #3
	lsls	r1, r1, #29
	adds	r5, r0, r1
	movs	r0, #16
	orrs	r0, r5
	bl	__clzsi2
	movs	r1, #27
	subs	r1, r1, r0
	subs	r0, r5, #1
	lsrs	r0, r1
	adds	r0, r0, #1
	lsls	r1, r1, #4
	adds	r2, r0, r1
	lsrs	r1, r2, #4
	beq	.LBB27_59
	movs	r2, #8
	lsls	r2, r1
	movs	r3, #15
	ands	r0, r3
	subs	r1, r1, #1
	lsls	r0, r1
	adds	r2, r0, r2
.LBB27_59:
	movs	r6, #0
	mov	r0, r4
	mov	r1, r7
	mov	r3, r6
	bl	__aeabi_lmul
	mov	r2, r1
	movs	r3, #4
	cmp	r0, #4
	mov	r1, r0
	bhi	.LBB27_61
	mov	r1, r3
.LBB27_61:
	cmp	r2, #0
	mov	r4, r0
	bne	.LBB27_63
	mov	r4, r3
.LBB27_63:
	beq	.LBB27_65
	mov	r1, r4
.LBB27_65:
	ldr	r3, .LCPI27_1
	subs	r0, r0, r3
	sbcs	r2, r6
	bhs	.LBB27_67
	movs	r6, #1
.LBB27_67:
	cmp	r6, #0
	bne	.LBB27_69
	mov	r1, r6
.LBB27_69:
	mov	r0, r6
	add	sp, #28
	pop	{r4, r5, r6, r7, pc}
	.p2align	2
.LCPI27_0:
	.long	8388585
.LCPI27_1:
	.long	1048577
.Lfunc_end27:
	.size	tlsf_pool.sizes.region.region_words.4, .Lfunc_end27-tlsf_pool.sizes.region.region_words.4
	.cfi_endproc
	.section	.text.unlikely.std_alloc.vec.Vec.grow_amortized.8f83c87fc5454f35,"ax",%progbits
	.p2align	2
	.type	std_alloc.vec.Vec.grow_amortized.8f83c87fc5454f35,%function
	.code	16
	.thumb_func
std_alloc.vec.Vec.grow_amortized.8f83c87fc5454f35:
	.cfi_startproc
	push	{r4, r5, r6, r7, lr}
	.cfi_def_cfa_offset 20
	.cfi_offset lr, -4
	.cfi_offset r7, -8
	.cfi_offset r6, -12
	.cfi_offset r5, -16
	.cfi_offset r4, -20
	sub	sp, #52
	.cfi_def_cfa_offset 72
	mov	r4, r0
	ldr	r3, [r0, #8]
	ldr	r6, [r0, #12]
	movs	r5, #0
	adds	r2, r3, #1
	mov	r1, r6
	adcs	r1, r5
	mov	r0, r5
	adcs	r0, r5
	cmp	r0, #1
	beq	.LBB28_21
	str	r6, [sp, #8]
	str	r3, [sp, #12]
	ldr	r7, [r4, #16]
	ldr	r0, [r4, #20]
	lsrs	r3, r7, #31
	str	r0, [sp, #24]
	lsls	r6, r0, #1
	adds	r3, r6, r3
	lsls	r6, r7, #1
	subs	r0, r6, r2
	mov	r0, r3
	sbcs	r0, r1
	str	r2, [sp, #28]
	blo	.LBB28_3
	str	r6, [sp, #28]
.LBB28_3:
	mov	r6, r1
	blo	.LBB28_5
	mov	r6, r3
.LBB28_5:
	ldr	r0, [sp, #24]
	lsrs	r0, r0, #30
	cmp	r0, #0
	str	r6, [sp, #4]
	mov	r3, r6
	beq	.LBB28_7
	mov	r3, r1
.LBB28_7:
	ldr	r6, [sp, #28]
	beq	.LBB28_9
	mov	r6, r2
.LBB28_9:
	ldr	r0, .LCPI28_0
	ldr	r1, .LCPI28_1
	subs	r1, r1, r6
	sbcs	r0, r3
	blo	.LBB28_21
	str	r6, [sp, #16]
	str	r3, [sp, #20]
	ldr	r0, [sp, #24]
	orrs	r7, r0
	movs	r0, #165
	lsls	r6, r0, #3
	movs	r5, #0
	cmp	r7, #0
	beq	.LBB28_16
	ldr	r0, [sp, #12]
	ldr	r1, [sp, #8]
	mov	r2, r6
	mov	r3, r5
	bl	__aeabi_lmul
	mov	r7, r0
	str	r1, [sp, #28]
	ldr	r0, [sp, #16]
	ldr	r1, [sp, #20]
	mov	r2, r6
	mov	r3, r5
	bl	__aeabi_lmul
	mov	r3, r0
	mov	r0, r1
	ldr	r1, [r4]
	movs	r2, #8
	str	r2, [sp]
	mvns	r2, r5
	ldr	r6, [sp, #28]
	cmp	r6, #0
	beq	.LBB28_13
	mov	r7, r2
.LBB28_13:
	cmp	r0, #0
	beq	.LBB28_15
	mov	r3, r2
.LBB28_15:
	add	r0, sp, #32
	mov	r2, r7
	bl	tlsf_memory_realloc
	b	.LBB28_19
.LBB28_16:
	ldr	r0, [sp, #28]
	ldr	r1, [sp, #4]
	mov	r2, r6
	mov	r3, r5
	bl	__aeabi_lmul
	mov	r3, r0
	cmp	r1, #0
	beq	.LBB28_18
	mvns	r3, r5
.LBB28_18:
	add	r0, sp, #32
	movs	r2, #8
	mov	r1, r3
	bl	tlsf_memory_alloc
.LBB28_19:
	ldr	r0, [sp, #32]
	lsls	r0, r0, #31
	ldr	r1, [sp, #20]
	ldr	r2, [sp, #16]
	beq	.LBB28_21
	ldr	r0, [sp, #40]
	str	r0, [r4]
	str	r2, [r4, #16]
	str	r1, [r4, #20]
	movs	r5, #1
.LBB28_21:
	mov	r0, r5
	add	sp, #52
	pop	{r4, r5, r6, r7, pc}
	.p2align	2
.LCPI28_0:
	.long	1626881
.LCPI28_1:
	.long	2368739539
.Lfunc_end28:
	.size	std_alloc.vec.Vec.grow_amortized.8f83c87fc5454f35, .Lfunc_end28-std_alloc.vec.Vec.grow_amortized.8f83c87fc5454f35
	.cfi_endproc
	.section	.text.tlsf_heap.region.Region.read.4,"ax",%progbits
	.p2align	1
	.type	tlsf_heap.region.Region.read.4,%function
	.code	16
	.thumb_func
tlsf_heap.region.Region.read.4:
	.cfi_startproc
	push	{r4, r5, r6, r7, lr}
	.cfi_def_cfa_offset 20
	.cfi_offset lr, -4
	.cfi_offset r7, -8
	.cfi_offset r6, -12
	.cfi_offset r5, -16
	.cfi_offset r4, -20
	sub	sp, #28
	.cfi_def_cfa_offset 48
	mov	r4, r2
	lsrs	r5, r1, #29
	lsls	r1, r1, #3
	movs	r6, #0
	adds	r2, r1, r2
	adcs	r5, r6
	adds	r2, #24
	adcs	r5, r6
	ldr	r7, [sp, #48]
	orrs	r4, r7
	lsls	r1, r4, #29
	ldr	r1, [sp, #52]
	beq	.LBB29_3
	movs	r4, #7
	subs	r4, r4, r7
	sbcs	r6, r1
	bhs	.LBB29_2
	b	.LBB29_10
.LBB29_2:
	str	r3, [sp]
	str	r7, [sp, #8]
	str	r1, [sp, #12]
	mov	r3, r5
	bl	tlsf_words.words.Words.read_few
	add	sp, #28
	pop	{r4, r5, r6, r7, pc}
.LBB29_3:
	movs	r4, #7
	bics	r2, r4
	ldr	r0, [r0]
	adds	r5, r0, r2
	lsrs	r2, r7, #3
	lsls	r4, r1, #29
	adds	r2, r2, r4
	movs	r4, #63
	subs	r4, r4, r7
	mov	r4, r6
	sbcs	r4, r1
	bhs	.LBB29_4
	b	.LBB29_12
.LBB29_4:
	lsls	r4, r7, #28
	str	r5, [sp, #24]
	bpl	.LBB29_6
	lsls	r4, r2, #3
	subs	r4, #8
	ldr	r0, [sp, #24]
	adds	r5, r0, r4
	ldr	r0, [r5, #4]
	str	r2, [sp, #20]
	ldr	r2, [sp, #24]
	ldr	r2, [r2, r4]
	strb	r2, [r3, r4]
	adds	r4, r3, r4
	strb	r0, [r4, #4]
	lsrs	r5, r2, #24
	strb	r5, [r4, #3]
	lsrs	r5, r2, #16
	strb	r5, [r4, #2]
	ldr	r5, [sp, #24]
	lsrs	r2, r2, #8
	strb	r2, [r4, #1]
	lsrs	r2, r0, #24
	strb	r2, [r4, #7]
	lsrs	r2, r0, #16
	strb	r2, [r4, #6]
	ldr	r2, [sp, #20]
	lsrs	r0, r0, #8
	strb	r0, [r4, #5]
.LBB29_6:
	lsls	r0, r7, #27
	bpl	.LBB29_8
	lsls	r0, r2, #3
	movs	r2, #32
	ands	r2, r0
	adds	r0, r5, r2
	ldr	r0, [r0, #4]
	str	r0, [sp, #20]
	ldr	r4, [r5, r2]
	strb	r4, [r3, r2]
	adds	r5, r3, r2
	strb	r0, [r5, #4]
	lsrs	r0, r4, #24
	strb	r0, [r5, #3]
	lsrs	r0, r4, #16
	strb	r0, [r5, #2]
	lsrs	r0, r4, #8
	strb	r0, [r5, #1]
	ldr	r4, [sp, #20]
	lsrs	r0, r4, #24
	strb	r0, [r5, #7]
	lsrs	r0, r4, #16
	strb	r0, [r5, #6]
	lsrs	r0, r4, #8
	strb	r0, [r5, #5]
	adds	r2, #8
	ldr	r0, [sp, #24]
	adds	r0, r0, r2
	ldr	r0, [r0, #4]
	ldr	r4, [sp, #24]
	ldr	r4, [r4, r2]
	strb	r4, [r3, r2]
	adds	r2, r3, r2
	strb	r0, [r2, #4]
	lsrs	r5, r0, #24
	strb	r5, [r2, #7]
	lsrs	r5, r0, #16
	strb	r5, [r2, #6]
	ldr	r5, [sp, #24]
	lsrs	r0, r0, #8
	strb	r0, [r2, #5]
	lsrs	r0, r4, #24
	strb	r0, [r2, #3]
	lsrs	r0, r4, #16
	strb	r0, [r2, #2]
	lsrs	r0, r4, #8
	strb	r0, [r2, #1]
.LBB29_8:
	subs	r7, #25
	sbcs	r1, r6
	blo	.LBB29_11
	ldm	r5!, {r0, r1}
	strb	r1, [r3, #4]
	strb	r0, [r3]
	lsrs	r2, r1, #24
	strb	r2, [r3, #7]
	lsrs	r2, r1, #16
	strb	r2, [r3, #6]
	lsrs	r1, r1, #8
	strb	r1, [r3, #5]
	lsrs	r1, r0, #24
	strb	r1, [r3, #3]
	lsrs	r1, r0, #16
	strb	r1, [r3, #2]
	lsrs	r0, r0, #8
	strb	r0, [r3, #1]
	ldr	r0, [r5]
	ldr	r1, [r5, #4]
	strb	r1, [r3, #12]
	strb	r0, [r3, #8]
	lsrs	r2, r1, #24
	strb	r2, [r3, #15]
	lsrs	r2, r1, #16
	strb	r2, [r3, #14]
	lsrs	r1, r1, #8
	strb	r1, [r3, #13]
	lsrs	r1, r0, #24
	strb	r1, [r3, #11]
	lsrs	r1, r0, #16
	strb	r1, [r3, #10]
	lsrs	r0, r0, #8
	strb	r0, [r3, #9]
	ldr	r0, [r5, #8]
	ldr	r1, [r5, #12]
	strb	r1, [r3, #20]
	strb	r0, [r3, #16]
	lsrs	r2, r1, #24
	strb	r2, [r3, #23]
	lsrs	r2, r1, #16
	strb	r2, [r3, #22]
	lsrs	r1, r1, #8
	strb	r1, [r3, #21]
	lsrs	r1, r0, #24
	strb	r1, [r3, #19]
	lsrs	r1, r0, #16
	strb	r1, [r3, #18]
	lsrs	r0, r0, #8
	strb	r0, [r3, #17]
	ldr	r0, [r5, #16]
	ldr	r1, [r5, #20]
	strb	r1, [r3, #28]
	strb	r0, [r3, #24]
	lsrs	r2, r1, #24
	strb	r2, [r3, #31]
	lsrs	r2, r1, #16
	strb	r2, [r3, #30]
	lsrs	r1, r1, #8
	strb	r1, [r3, #29]
	lsrs	r1, r0, #24
	strb	r1, [r3, #27]
	lsrs	r1, r0, #16
	strb	r1, [r3, #26]
	lsrs	r0, r0, #8
	strb	r0, [r3, #25]
	add	sp, #28
	pop	{r4, r5, r6, r7, pc}
.LBB29_10:
	str	r3, [sp]
	str	r7, [sp, #8]
	str	r1, [sp, #12]
	mov	r3, r5
	bl	tlsf_words.words.Words.read_run
.LBB29_11:
	add	sp, #28
	pop	{r4, r5, r6, r7, pc}
.LBB29_12:
	lsrs	r1, r1, #3
	str	r3, [sp]
	mov	r0, r5
	mov	r3, r1
	bl	tlsf_words.cells.unpack_many
	add	sp, #28
	pop	{r4, r5, r6, r7, pc}
.Lfunc_end29:
	.size	tlsf_heap.region.Region.read.4, .Lfunc_end29-tlsf_heap.region.Region.read.4
	.cfi_endproc
	.section	.text.tlsf_words.cells.unpack_many,"ax",%progbits
	.p2align	1
	.type	tlsf_words.cells.unpack_many,%function
	.code	16
	.thumb_func
tlsf_words.cells.unpack_many:
	.cfi_startproc
	push	{r4, r5, r6, r7, lr}
	.cfi_def_cfa_offset 20
	.cfi_offset lr, -4
	.cfi_offset r7, -8
	.cfi_offset r6, -12
	.cfi_offset r5, -16
	.cfi_offset r4, -20
	sub	sp, #44
	.cfi_def_cfa_offset 64
	mov	r6, r2
	movs	r4, #3
	mov	r1, r2
	bics	r1, r4
	lsls	r5, r1, #3
	adds	r2, r0, r5
	str	r2, [sp, #12]
	ldr	r4, [sp, #64]
	adds	r5, r4, r5
	lsls	r7, r6, #31
	beq	.LBB30_2
	lsls	r7, r6, #30
	lsrs	r7, r7, #27
	subs	r7, #8
	ldr	r2, [sp, #12]
	str	r6, [sp]
	adds	r6, r2, r7
	ldr	r6, [r6, #4]
	str	r6, [sp, #4]
	ldr	r2, [r2, r7]
	strb	r2, [r5, r7]
	adds	r7, r5, r7
	strb	r6, [r7, #4]
	lsrs	r6, r2, #24
	strb	r6, [r7, #3]
	lsrs	r6, r2, #16
	strb	r6, [r7, #2]
	ldr	r6, [sp]
	lsrs	r2, r2, #8
	strb	r2, [r7, #1]
	ldr	r2, [sp, #4]
	lsrs	r2, r2, #24
	strb	r2, [r7, #7]
	ldr	r2, [sp, #4]
	lsrs	r2, r2, #16
	strb	r2, [r7, #6]
	ldr	r2, [sp, #4]
	lsrs	r2, r2, #8
	strb	r2, [r7, #5]
.LBB30_2:
	str	r1, [sp]
	lsls	r2, r6, #30
	bpl	.LBB30_4
	ldr	r1, [sp, #12]
	ldm	r1!, {r2, r6}
	strb	r6, [r5, #4]
	strb	r2, [r5]
	lsrs	r7, r6, #24
	strb	r7, [r5, #7]
	lsrs	r7, r6, #16
	strb	r7, [r5, #6]
	lsrs	r6, r6, #8
	strb	r6, [r5, #5]
	lsrs	r6, r2, #24
	strb	r6, [r5, #3]
	lsrs	r6, r2, #16
	strb	r6, [r5, #2]
	lsrs	r2, r2, #8
	strb	r2, [r5, #1]
	ldr	r2, [r1]
	ldr	r6, [r1, #4]
	strb	r6, [r5, #12]
	strb	r2, [r5, #8]
	lsrs	r7, r6, #24
	strb	r7, [r5, #15]
	lsrs	r7, r6, #16
	strb	r7, [r5, #14]
	lsrs	r6, r6, #8
	strb	r6, [r5, #13]
	lsrs	r6, r2, #24
	strb	r6, [r5, #11]
	lsrs	r6, r2, #16
	strb	r6, [r5, #10]
	lsrs	r2, r2, #8
	strb	r2, [r5, #9]
.LBB30_4:
	movs	r2, #0
	mov	r5, r2
	str	r2, [sp, #4]
	str	r3, [sp, #8]
.LBB30_5:
	str	r2, [sp, #12]
	lsls	r7, r5, #3
	adds	r1, r0, r7
	ldr	r1, [r1, #4]
	ldr	r3, [r0, r7]
	strb	r3, [r4, r7]
	adds	r2, r4, r7
	strb	r1, [r2, #4]
	mov	r6, r4
	lsrs	r4, r3, #24
	strb	r4, [r2, #3]
	lsrs	r4, r3, #16
	strb	r4, [r2, #2]
	lsrs	r3, r3, #8
	strb	r3, [r2, #1]
	lsrs	r3, r1, #24
	strb	r3, [r2, #7]
	lsrs	r3, r1, #16
	strb	r3, [r2, #6]
	lsrs	r1, r1, #8
	strb	r1, [r2, #5]
	movs	r1, #8
	orrs	r1, r7
	adds	r2, r0, r1
	ldr	r2, [r2, #4]
	ldr	r3, [r0, r1]
	strb	r3, [r6, r1]
	adds	r1, r6, r1
	strb	r2, [r1, #4]
	lsrs	r4, r2, #24
	strb	r4, [r1, #7]
	lsrs	r4, r2, #16
	strb	r4, [r1, #6]
	lsrs	r2, r2, #8
	strb	r2, [r1, #5]
	lsrs	r2, r3, #24
	strb	r2, [r1, #3]
	lsrs	r2, r3, #16
	strb	r2, [r1, #2]
	lsrs	r2, r3, #8
	strb	r2, [r1, #1]
	movs	r1, #16
	orrs	r1, r7
	adds	r2, r0, r1
	ldr	r2, [r2, #4]
	ldr	r3, [r0, r1]
	strb	r3, [r6, r1]
	adds	r1, r6, r1
	strb	r2, [r1, #4]
	lsrs	r4, r2, #24
	strb	r4, [r1, #7]
	lsrs	r4, r2, #16
	strb	r4, [r1, #6]
	lsrs	r2, r2, #8
	strb	r2, [r1, #5]
	lsrs	r2, r3, #24
	strb	r2, [r1, #3]
	lsrs	r2, r3, #16
	strb	r2, [r1, #2]
	lsrs	r2, r3, #8
	strb	r2, [r1, #1]
	movs	r1, #24
	orrs	r1, r7
	adds	r2, r0, r1
	ldr	r2, [r2, #4]
	ldr	r3, [r0, r1]
	strb	r3, [r6, r1]
	adds	r1, r6, r1
	strb	r2, [r1, #4]
	lsrs	r4, r2, #24
	strb	r4, [r1, #7]
	lsrs	r4, r2, #16
	strb	r4, [r1, #6]
	mov	r4, r6
	lsrs	r2, r2, #8
	strb	r2, [r1, #5]
	lsrs	r2, r3, #24
	strb	r2, [r1, #3]
	lsrs	r2, r3, #16
	strb	r2, [r1, #2]
	lsrs	r2, r3, #8
	ldr	r3, [sp, #8]
	strb	r2, [r1, #1]
	ldr	r2, [sp, #12]
	adds	r5, r5, #4
	ldr	r1, [sp, #4]
	adcs	r2, r1
	ldr	r1, [sp]
	subs	r1, r5, r1
	mov	r1, r2
	sbcs	r1, r3
	blo	.LBB30_5
	add	sp, #44
	pop	{r4, r5, r6, r7, pc}
.Lfunc_end30:
	.size	tlsf_words.cells.unpack_many, .Lfunc_end30-tlsf_words.cells.unpack_many
	.cfi_endproc
	.section	.text.tlsf_words.words.Words.read_few,"ax",%progbits
	.p2align	1
	.type	tlsf_words.words.Words.read_few,%function
	.code	16
	.thumb_func
tlsf_words.words.Words.read_few:
	.cfi_startproc
	push	{r4, r5, r6, r7, lr}
	.cfi_def_cfa_offset 20
	.cfi_offset lr, -4
	.cfi_offset r7, -8
	.cfi_offset r6, -12
	.cfi_offset r5, -16
	.cfi_offset r4, -20
	sub	sp, #28
	.cfi_def_cfa_offset 48
	str	r0, [sp, #8]
	movs	r0, #7
	ands	r0, r2
	movs	r1, #8
	subs	r5, r1, r0
	ldr	r4, [sp, #60]
	movs	r6, #0
	ldr	r7, [sp, #56]
	subs	r1, r5, r7
	mov	r1, r6
	sbcs	r1, r4
	str	r5, [sp, #12]
	blo	.LBB31_2
	str	r7, [sp, #12]
.LBB31_2:
	lsls	r1, r3, #29
	lsrs	r2, r2, #3
	adds	r3, r2, r1
	mov	r1, r7
	orrs	r1, r4
	ldr	r2, [sp, #48]
	beq	.LBB31_4
	lsls	r1, r3, #3
	str	r2, [sp, #4]
	ldr	r2, [sp, #8]
	ldr	r2, [r2]
	str	r3, [sp]
	ldr	r3, [r2, r1]
	str	r3, [sp, #16]
	adds	r1, r2, r1
	ldr	r1, [r1, #4]
	str	r1, [sp, #20]
	add	r1, sp, #16
	adds	r1, r1, r0
	ldr	r0, [sp, #4]
	ldr	r2, [sp, #12]
	bl	tlsf_memory_cpy
	ldr	r2, [sp, #4]
	ldr	r3, [sp]
.LBB31_4:
	subs	r0, r5, r7
	sbcs	r6, r4
	bhs	.LBB31_6
	lsls	r0, r3, #3
	ldr	r1, [sp, #8]
	ldr	r1, [r1]
	adds	r0, r1, r0
	ldr	r1, [r0, #8]
	ldr	r0, [r0, #12]
	str	r0, [sp, #20]
	str	r1, [sp, #16]
	ldr	r1, [sp, #12]
	adds	r0, r2, r1
	subs	r2, r7, r1
	add	r1, sp, #16
	bl	tlsf_memory_cpy
.LBB31_6:
	add	sp, #28
	pop	{r4, r5, r6, r7, pc}
.Lfunc_end31:
	.size	tlsf_words.words.Words.read_few, .Lfunc_end31-tlsf_words.words.Words.read_few
	.cfi_endproc
	.section	.text.tlsf_words.words.Words.read_run,"ax",%progbits
	.p2align	1
	.type	tlsf_words.words.Words.read_run,%function
	.code	16
	.thumb_func
tlsf_words.words.Words.read_run:
	.cfi_startproc
	push	{r4, r5, r6, r7, lr}
	.cfi_def_cfa_offset 20
	.cfi_offset lr, -4
	.cfi_offset r7, -8
	.cfi_offset r6, -12
	.cfi_offset r5, -16
	.cfi_offset r4, -20
	sub	sp, #44
	.cfi_def_cfa_offset 64
	str	r0, [sp, #40]
	movs	r1, #0
	adds	r0, r2, #7
	adcs	r3, r1
	lsls	r3, r3, #29
	str	r3, [sp, #28]
	lsrs	r0, r0, #3
	str	r0, [sp, #16]
	rsbs	r7, r2, #0
	movs	r0, #7
	ands	r7, r0
	ldr	r5, [sp, #76]
	ldr	r6, [sp, #72]
	subs	r4, r6, r7
	mov	r3, r5
	str	r1, [sp, #36]
	sbcs	r3, r1
	mov	r1, r4
	bics	r1, r0
	str	r7, [sp, #20]
	adds	r7, r1, r7
	str	r4, [sp, #32]
	lsrs	r1, r4, #3
	str	r1, [sp, #12]
	str	r3, [sp, #24]
	lsls	r1, r3, #29
	str	r1, [sp, #8]
	mov	r3, r2
	ands	r3, r0
	ldr	r4, [sp, #64]
	beq	.LBB32_2
	bics	r2, r0
	ldr	r0, [sp, #40]
	ldr	r1, [r0]
	ldr	r0, [r1, r2]
	adds	r1, r1, r2
	ldr	r1, [r1, #4]
	lsls	r2, r3, #3
	bl	__aeabi_llsr
	strb	r1, [r4, #4]
	strb	r0, [r4]
	lsrs	r2, r1, #24
	strb	r2, [r4, #7]
	lsrs	r2, r1, #16
	strb	r2, [r4, #6]
	lsrs	r1, r1, #8
	strb	r1, [r4, #5]
	lsrs	r1, r0, #24
	strb	r1, [r4, #3]
	lsrs	r1, r0, #16
	strb	r1, [r4, #2]
	lsrs	r0, r0, #8
	strb	r0, [r4, #1]
.LBB32_2:
	ldr	r0, [sp, #28]
	ldr	r1, [sp, #16]
	adds	r2, r1, r0
	ldr	r0, [sp, #12]
	ldr	r1, [sp, #8]
	adds	r0, r0, r1
	str	r0, [sp, #28]
	mov	r0, r7
	eors	r0, r6
	orrs	r0, r5
	beq	.LBB32_4
	mov	r3, r7
	adds	r5, r4, r6
	subs	r5, #8
	ldrb	r0, [r5, #4]
	ldrb	r1, [r5, #5]
	lsls	r1, r1, #8
	adds	r0, r1, r0
	ldrb	r1, [r5, #6]
	lsls	r1, r1, #16
	str	r2, [sp, #16]
	ldrb	r2, [r5, #7]
	lsls	r2, r2, #24
	adds	r1, r2, r1
	adds	r7, r1, r0
	subs	r0, r3, r6
	lsls	r6, r0, #3
	adds	r6, #64
	ldr	r0, [sp, #36]
	mvns	r0, r0
	mov	r1, r0
	mov	r2, r6
	bl	__aeabi_llsl
	bics	r7, r1
	str	r7, [sp, #12]
	ldrb	r1, [r5]
	ldrb	r2, [r5, #1]
	lsls	r2, r2, #8
	adds	r1, r2, r1
	ldrb	r2, [r5, #2]
	lsls	r2, r2, #16
	ldrb	r3, [r5, #3]
	lsls	r3, r3, #24
	adds	r2, r3, r2
	adds	r7, r2, r1
	bics	r7, r0
	ldr	r0, [sp, #28]
	ldr	r1, [sp, #16]
	adds	r0, r0, r1
	lsls	r1, r0, #3
	ldr	r0, [sp, #40]
	ldr	r2, [r0]
	ldr	r0, [r2, r1]
	adds	r1, r2, r1
	ldr	r1, [r1, #4]
	mov	r2, r6
	bl	__aeabi_llsl
	adds	r0, r7, r0
	strb	r0, [r5]
	ldr	r2, [sp, #12]
	adcs	r1, r2
	lsrs	r2, r0, #8
	strb	r2, [r5, #1]
	lsrs	r2, r0, #24
	strb	r2, [r5, #3]
	ldr	r2, [sp, #16]
	lsrs	r0, r0, #16
	strb	r0, [r5, #2]
	strb	r1, [r5, #4]
	lsrs	r0, r1, #16
	strb	r0, [r5, #6]
	lsrs	r0, r1, #24
	strb	r0, [r5, #7]
	lsrs	r0, r1, #8
	strb	r0, [r5, #5]
.LBB32_4:
	ldr	r0, [sp, #20]
	adds	r1, r4, r0
	lsls	r0, r2, #3
	ldr	r2, [sp, #40]
	ldr	r2, [r2]
	adds	r0, r2, r0
	movs	r2, #63
	ldr	r3, [sp, #32]
	subs	r2, r2, r3
	ldr	r2, [sp, #36]
	ldr	r6, [sp, #24]
	sbcs	r2, r6
	bhs	.LBB32_5
	b	.LBB32_11
.LBB32_5:
	lsls	r2, r3, #28
	bpl	.LBB32_7
	ldr	r2, [sp, #28]
	lsls	r2, r2, #3
	subs	r2, #8
	adds	r3, r0, r2
	ldr	r3, [r3, #4]
	ldr	r4, [r0, r2]
	strb	r4, [r1, r2]
	adds	r2, r1, r2
	strb	r3, [r2, #4]
	lsrs	r5, r4, #24
	strb	r5, [r2, #3]
	lsrs	r5, r4, #16
	strb	r5, [r2, #2]
	lsrs	r4, r4, #8
	strb	r4, [r2, #1]
	lsrs	r4, r3, #24
	strb	r4, [r2, #7]
	lsrs	r4, r3, #16
	strb	r4, [r2, #6]
	lsrs	r3, r3, #8
	strb	r3, [r2, #5]
	ldr	r3, [sp, #32]
.LBB32_7:
	lsls	r2, r3, #27
	bpl	.LBB32_9
	ldr	r2, [sp, #28]
	lsls	r3, r2, #3
	movs	r2, #32
	ands	r2, r3
	adds	r3, r0, r2
	ldr	r3, [r3, #4]
	ldr	r4, [r0, r2]
	strb	r4, [r1, r2]
	adds	r5, r1, r2
	strb	r3, [r5, #4]
	lsrs	r6, r4, #24
	strb	r6, [r5, #3]
	lsrs	r6, r4, #16
	strb	r6, [r5, #2]
	ldr	r6, [sp, #24]
	lsrs	r4, r4, #8
	strb	r4, [r5, #1]
	lsrs	r4, r3, #24
	strb	r4, [r5, #7]
	lsrs	r4, r3, #16
	strb	r4, [r5, #6]
	lsrs	r3, r3, #8
	strb	r3, [r5, #5]
	adds	r2, #8
	adds	r3, r0, r2
	ldr	r3, [r3, #4]
	ldr	r4, [r0, r2]
	strb	r4, [r1, r2]
	adds	r2, r1, r2
	strb	r3, [r2, #4]
	lsrs	r5, r3, #24
	strb	r5, [r2, #7]
	lsrs	r5, r3, #16
	strb	r5, [r2, #6]
	lsrs	r3, r3, #8
	strb	r3, [r2, #5]
	lsrs	r3, r4, #24
	strb	r3, [r2, #3]
	lsrs	r3, r4, #16
	strb	r3, [r2, #2]
	lsrs	r3, r4, #8
	strb	r3, [r2, #1]
	ldr	r3, [sp, #32]
.LBB32_9:
	subs	r3, #32
	ldr	r2, [sp, #36]
	sbcs	r6, r2
	blo	.LBB32_12
	ldm	r0!, {r2, r3}
	strb	r3, [r1, #4]
	strb	r2, [r1]
	lsrs	r4, r3, #24
	strb	r4, [r1, #7]
	lsrs	r4, r3, #16
	strb	r4, [r1, #6]
	lsrs	r3, r3, #8
	strb	r3, [r1, #5]
	lsrs	r3, r2, #24
	strb	r3, [r1, #3]
	lsrs	r3, r2, #16
	strb	r3, [r1, #2]
	lsrs	r2, r2, #8
	strb	r2, [r1, #1]
	ldr	r2, [r0]
	ldr	r3, [r0, #4]
	strb	r3, [r1, #12]
	strb	r2, [r1, #8]
	lsrs	r4, r3, #24
	strb	r4, [r1, #15]
	lsrs	r4, r3, #16
	strb	r4, [r1, #14]
	lsrs	r3, r3, #8
	strb	r3, [r1, #13]
	lsrs	r3, r2, #24
	strb	r3, [r1, #11]
	lsrs	r3, r2, #16
	strb	r3, [r1, #10]
	lsrs	r2, r2, #8
	strb	r2, [r1, #9]
	ldr	r2, [r0, #8]
	ldr	r3, [r0, #12]
	strb	r3, [r1, #20]
	strb	r2, [r1, #16]
	lsrs	r4, r3, #24
	strb	r4, [r1, #23]
	lsrs	r4, r3, #16
	strb	r4, [r1, #22]
	lsrs	r3, r3, #8
	strb	r3, [r1, #21]
	lsrs	r3, r2, #24
	strb	r3, [r1, #19]
	lsrs	r3, r2, #16
	strb	r3, [r1, #18]
	lsrs	r2, r2, #8
	strb	r2, [r1, #17]
	ldr	r2, [r0, #16]
	ldr	r0, [r0, #20]
	strb	r0, [r1, #28]
	strb	r2, [r1, #24]
	lsrs	r3, r0, #24
	strb	r3, [r1, #31]
	lsrs	r3, r0, #16
	strb	r3, [r1, #30]
	lsrs	r0, r0, #8
	strb	r0, [r1, #29]
	lsrs	r0, r2, #24
	strb	r0, [r1, #27]
	lsrs	r0, r2, #16
	strb	r0, [r1, #26]
	lsrs	r0, r2, #8
	strb	r0, [r1, #25]
	add	sp, #44
	pop	{r4, r5, r6, r7, pc}
.LBB32_11:
	lsrs	r3, r6, #3
	str	r1, [sp]
	ldr	r2, [sp, #28]
	bl	tlsf_words.cells.unpack_many
.LBB32_12:
	add	sp, #44
	pop	{r4, r5, r6, r7, pc}
.Lfunc_end32:
	.size	tlsf_words.words.Words.read_run, .Lfunc_end32-tlsf_words.words.Words.read_run
	.cfi_endproc
	.section	.text.tlsf_heap.heap.Heap.report.4,"ax",%progbits
	.p2align	1
	.type	tlsf_heap.heap.Heap.report.4,%function
	.code	16
	.thumb_func
tlsf_heap.heap.Heap.report.4:
	.cfi_startproc
	push	{r4, r5, r6, r7, lr}
	.cfi_def_cfa_offset 20
	.cfi_offset lr, -4
	.cfi_offset r7, -8
	.cfi_offset r6, -12
	.cfi_offset r5, -16
	.cfi_offset r4, -20
	sub	sp, #52
	.cfi_def_cfa_offset 72
	mov	r4, r0
	ldr	r2, [r1, #8]
	ldr	r5, [r1, #12]
	ldr	r3, [r1, #32]
	movs	r0, #0
	str	r3, [sp, #28]
	cmp	r3, #0
	str	r0, [sp, #20]
	mov	r6, r0
	str	r0, [sp, #44]
	str	r0, [sp, #36]
	mov	r3, r0
	str	r0, [sp, #48]
	mov	r7, r0
	str	r2, [sp, #24]
	str	r5, [sp, #32]
	str	r0, [sp, #12]
	beq	.LBB33_20
	str	r4, [sp, #8]
	ldr	r0, [r1, #24]
	str	r0, [sp, #24]
	movs	r7, #0
	mov	r0, r2
	mov	r2, r7
	str	r0, [sp, #4]
	mov	r1, r0
	str	r5, [sp, #16]
	str	r5, [sp, #32]
	str	r7, [sp, #48]
	str	r7, [sp, #40]
	str	r7, [sp, #36]
	str	r7, [sp, #44]
	mov	r6, r7
	b	.LBB33_4
.LBB33_2:
	ldr	r0, [sp, #44]
	adds	r0, r3, r0
	str	r0, [sp, #44]
	ldr	r4, [r5, #16]
	ldr	r0, [sp, #36]
	adds	r0, r0, r4
	str	r0, [sp, #36]
	adds	r6, r6, #1
.LBB33_3:
	adds	r2, r3, r2
	ldr	r0, [sp, #28]
	cmp	r2, r0
	bhs	.LBB33_12
.LBB33_4:
	lsls	r3, r2, #3
	ldr	r0, [sp, #24]
	adds	r5, r0, r3
	ldr	r4, [r0, r3]
	lsrs	r3, r4, #2
	lsls	r4, r4, #31
	beq	.LBB33_2
	str	r6, [sp, #20]
	cmp	r3, r7
	mov	r6, r3
	bhi	.LBB33_7
	mov	r6, r7
.LBB33_7:
	ldr	r4, [r5, #8]
	ldr	r0, [r5, #12]
	subs	r7, r4, r1
	mov	r7, r0
	ldr	r5, [sp, #32]
	sbcs	r7, r5
	blo	.LBB33_9
	mov	r0, r5
.LBB33_9:
	ldr	r7, [sp, #40]
	blo	.LBB33_11
	mov	r4, r1
.LBB33_11:
	ldr	r1, [sp, #48]
	adds	r1, r3, r1
	str	r1, [sp, #48]
	adds	r7, r7, #1
	str	r7, [sp, #40]
	mov	r7, r6
	mov	r1, r4
	str	r0, [sp, #32]
	ldr	r6, [sp, #20]
	b	.LBB33_3
.LBB33_12:
	str	r1, [sp, #24]
	movs	r0, #0
	cmp	r7, #0
	str	r0, [sp, #28]
	ldr	r4, [sp, #8]
	ldr	r5, [sp, #48]
	beq	.LBB33_16
	movs	r0, #16
	orrs	r0, r7
	bl	__clzsi2
	movs	r1, #27
	subs	r1, r1, r0
	mov	r0, r7
	lsrs	r0, r1
	lsls	r1, r1, #4
	adds	r2, r0, r1
	lsrs	r1, r2, #4
	beq	.LBB33_15
	movs	r2, #8
	lsls	r2, r1
	movs	r3, #15
	ands	r0, r3
	subs	r1, r1, #1
	lsls	r0, r1
	adds	r2, r0, r2
.LBB33_15:
	lsls	r0, r2, #3
	subs	r0, #24
.LBB33_16:
	str	r0, [sp, #20]
	cmp	r5, #0
	beq	.LBB33_18
	movs	r0, #125
	lsls	r2, r0, #3
	str	r2, [sp, #28]
	movs	r1, #0
	mov	r0, r7
	str	r5, [sp, #48]
	mov	r5, r1
	mov	r3, r1
	bl	__aeabi_lmul
	ldr	r2, [sp, #48]
	mov	r3, r5
	bl	__aeabi_uldivmod
	ldr	r1, [sp, #28]
	subs	r0, r1, r0
	b	.LBB33_19
.LBB33_18:
	ldr	r0, [sp, #28]
	str	r0, [sp, #48]
.LBB33_19:
	ldr	r3, [sp, #40]
	ldr	r2, [sp, #4]
	ldr	r5, [sp, #16]
.LBB33_20:
	str	r3, [sp, #40]
	mov	r3, r5
	mov	r5, r0
	movs	r0, #36
	ldr	r1, [sp, #12]
	strb	r1, [r4, r0]
	movs	r0, #40
	str	r0, [sp, #16]
	ldr	r0, [sp, #24]
	subs	r2, r2, r0
	str	r2, [sp, #28]
	ldr	r0, [sp, #16]
	strb	r2, [r4, r0]
	ldr	r0, [sp, #32]
	sbcs	r3, r0
	str	r3, [sp, #16]
	movs	r0, #44
	strb	r3, [r4, r0]
	ldr	r0, [sp, #44]
	lsls	r0, r0, #3
	ldr	r3, [sp, #36]
	subs	r0, r0, r3
	str	r0, [sp, #32]
	movs	r2, #32
	strb	r0, [r4, r2]
	strb	r5, [r4, #28]
	ldr	r0, [sp, #20]
	strb	r0, [r4, #24]
	strb	r7, [r4, #20]
	ldr	r2, [sp, #48]
	strb	r2, [r4, #16]
	ldr	r2, [sp, #40]
	strb	r2, [r4, #12]
	strb	r3, [r4, #8]
	ldr	r2, [sp, #44]
	strb	r2, [r4, #4]
	strb	r6, [r4]
	mov	r2, r4
	adds	r2, #36
	strb	r1, [r2, #3]
	strb	r1, [r2, #2]
	strb	r1, [r2, #1]
	lsrs	r2, r5, #24
	strb	r2, [r4, #31]
	lsrs	r2, r5, #16
	strb	r2, [r4, #30]
	lsrs	r2, r5, #8
	strb	r2, [r4, #29]
	lsrs	r2, r0, #24
	strb	r2, [r4, #27]
	lsrs	r2, r0, #16
	strb	r2, [r4, #26]
	lsrs	r2, r0, #8
	strb	r2, [r4, #25]
	lsrs	r2, r7, #24
	strb	r2, [r4, #23]
	lsrs	r2, r7, #16
	strb	r2, [r4, #22]
	lsrs	r2, r7, #8
	strb	r2, [r4, #21]
	ldr	r0, [sp, #48]
	lsrs	r2, r0, #24
	strb	r2, [r4, #19]
	lsrs	r2, r0, #16
	strb	r2, [r4, #18]
	lsrs	r2, r0, #8
	strb	r2, [r4, #17]
	ldr	r0, [sp, #40]
	lsrs	r2, r0, #24
	strb	r2, [r4, #15]
	lsrs	r2, r0, #16
	strb	r2, [r4, #14]
	lsrs	r2, r0, #8
	strb	r2, [r4, #13]
	lsrs	r2, r3, #24
	strb	r2, [r4, #11]
	lsrs	r2, r3, #16
	strb	r2, [r4, #10]
	lsrs	r2, r3, #8
	strb	r2, [r4, #9]
	ldr	r0, [sp, #44]
	lsrs	r2, r0, #24
	strb	r2, [r4, #7]
	lsrs	r2, r0, #16
	strb	r2, [r4, #6]
	lsrs	r2, r0, #8
	strb	r2, [r4, #5]
	lsrs	r2, r6, #24
	strb	r2, [r4, #3]
	lsrs	r2, r6, #16
	strb	r2, [r4, #2]
	lsrs	r2, r6, #8
	strb	r2, [r4, #1]
	ldr	r0, [sp, #28]
	lsrs	r2, r0, #24
	mov	r3, r4
	adds	r3, #40
	strb	r2, [r3, #3]
	lsrs	r2, r0, #16
	strb	r2, [r3, #2]
	lsrs	r1, r0, #8
	strb	r1, [r3, #1]
	ldr	r0, [sp, #16]
	lsrs	r1, r0, #24
	mov	r2, r4
	adds	r2, #44
	strb	r1, [r2, #3]
	lsrs	r1, r0, #16
	strb	r1, [r2, #2]
	lsrs	r1, r0, #8
	strb	r1, [r2, #1]
	ldr	r0, [sp, #32]
	lsrs	r1, r0, #24
	adds	r4, #32
	strb	r1, [r4, #3]
	lsrs	r1, r0, #16
	strb	r1, [r4, #2]
	lsrs	r0, r0, #8
	strb	r0, [r4, #1]
	add	sp, #52
	pop	{r4, r5, r6, r7, pc}
.Lfunc_end33:
	.size	tlsf_heap.heap.Heap.report.4, .Lfunc_end33-tlsf_heap.heap.Heap.report.4
	.cfi_endproc
	.section	.text.tlsf_c.queue_end.take_once,"ax",%progbits
	.p2align	1
	.type	tlsf_c.queue_end.take_once,%function
	.code	16
	.thumb_func
tlsf_c.queue_end.take_once:
	.cfi_startproc
	push	{r4, r5, r6, r7, lr}
	.cfi_def_cfa_offset 20
	.cfi_offset lr, -4
	.cfi_offset r7, -8
	.cfi_offset r6, -12
	.cfi_offset r5, -16
	.cfi_offset r4, -20
	sub	sp, #196
	.cfi_def_cfa_offset 216
	str	r0, [sp, #52]
	movs	r5, #0
	str	r5, [sp, #92]
	str	r5, [sp, #88]
	str	r5, [sp, #84]
	str	r5, [sp, #80]
	str	r5, [sp, #64]
	str	r5, [sp, #68]
	str	r5, [sp, #72]
	str	r5, [sp, #76]
	str	r5, [sp, #108]
	str	r5, [sp, #104]
	str	r5, [sp, #100]
	str	r5, [sp, #96]
	str	r1, [sp, #40]
	ldr	r7, [r1]
	str	r5, [sp, #128]
	str	r5, [sp, #132]
	str	r5, [sp, #136]
	str	r5, [sp, #140]
	str	r5, [sp, #112]
	str	r5, [sp, #116]
	str	r5, [sp, #120]
	str	r5, [sp, #124]
	movs	r0, #1
	str	r0, [sp, #48]
	lsls	r1, r0, #8
	ldr	r0, [r7, #8]
	str	r1, [sp, #36]
	adds	r0, r0, r1
	movs	r4, #5
	mov	r1, r4
	bl	__atomic_load_8
	mov	r2, r1
	adds	r1, r0, #1
	str	r1, [sp, #32]
	mov	r6, r2
	adcs	r6, r5
	ldr	r1, [r7, #80]
	ldr	r3, [r7, #84]
	subs	r1, r1, #1
	sbcs	r3, r5
	str	r3, [sp, #24]
	str	r0, [sp, #60]
	ands	r1, r0
	str	r1, [sp, #56]
	lsls	r1, r1, #3
	str	r7, [sp, #28]
	ldr	r0, [r7, #8]
	str	r1, [sp, #20]
	adds	r0, r0, r1
	movs	r1, #3
	lsls	r7, r1, #7
	adds	r0, r0, r7
	str	r4, [sp, #44]
	mov	r1, r4
	mov	r4, r2
	bl	__atomic_load_8
	lsrs	r2, r4, #30
	cmp	r2, #2
	bls	.LBB34_1
	b	.LBB34_9
.LBB34_1:
	ldr	r2, [sp, #32]
	eors	r2, r0
	eors	r6, r1
	orrs	r6, r2
	beq	.LBB34_2
	b	.LBB34_9
.LBB34_2:
	str	r0, [sp, #32]
	str	r1, [sp, #8]
	str	r7, [sp, #12]
	ldr	r2, [sp, #24]
	ands	r2, r4
	movs	r7, #0
	str	r7, [sp, #160]
	str	r7, [sp, #164]
	str	r7, [sp, #168]
	str	r7, [sp, #172]
	str	r7, [sp, #176]
	str	r7, [sp, #180]
	str	r7, [sp, #144]
	str	r7, [sp, #148]
	str	r7, [sp, #152]
	str	r7, [sp, #156]
	ldr	r0, [sp, #56]
	adds	r0, r0, #1
	str	r0, [sp, #16]
	mov	r1, r2
	adcs	r1, r7
	ldr	r3, [sp, #28]
	ldr	r6, [r3, #72]
	ldr	r0, [r3, #76]
	str	r0, [sp, #24]
	ldr	r0, [sp, #16]
	subs	r0, r0, r6
	ldr	r0, [sp, #24]
	sbcs	r1, r0
	bhs	.LBB34_4
	mov	r2, r4
	mov	r4, r3
	ldr	r3, [sp, #44]
	ldr	r1, [sp, #60]
	ldr	r6, [sp, #8]
	b	.LBB34_5
.LBB34_4:
	ldr	r1, [sp, #56]
	ldr	r0, [sp, #60]
	subs	r1, r0, r1
	str	r1, [sp, #32]
	mov	r1, r4
	sbcs	r1, r2
	ldr	r2, [r3, #80]
	str	r2, [sp, #24]
	ldr	r6, [r3, #84]
	ldr	r2, [sp, #32]
	ldr	r0, [sp, #24]
	adds	r2, r2, r0
	str	r2, [sp, #32]
	adcs	r6, r1
	ldr	r1, [sp, #60]
	mov	r2, r4
	mov	r4, r3
	ldr	r3, [sp, #44]
.LBB34_5:
	ldr	r0, [r4, #8]
	str	r2, [sp, #28]
	str	r2, [sp, #188]
	str	r1, [sp, #184]
	str	r3, [sp]
	str	r3, [sp, #4]
	movs	r1, #1
	lsls	r1, r1, #8
	adds	r0, r0, r1
	add	r1, sp, #184
	ldr	r2, [sp, #32]
	mov	r3, r6
	bl	__atomic_compare_exchange_8
	cmp	r0, #0
	bne	.LBB34_6
	b	.LBB34_8
.LBB34_6:
	ldr	r0, [sp, #56]
	lsls	r0, r0, #5
	ldr	r1, [r4, #16]
	ldrb	r2, [r1, r0]
	str	r2, [sp, #56]
	strb	r7, [r1, r0]
	adds	r0, r1, r0
	strb	r7, [r0, #7]
	strb	r7, [r0, #6]
	strb	r7, [r0, #5]
	strb	r7, [r0, #4]
	strb	r7, [r0, #2]
	strb	r7, [r0, #3]
	strb	r7, [r0, #1]
	ldrb	r1, [r0, #16]
	ldrb	r2, [r0, #17]
	lsls	r2, r2, #8
	adds	r1, r2, r1
	ldrb	r2, [r0, #18]
	lsls	r2, r2, #16
	ldrb	r3, [r0, #19]
	lsls	r3, r3, #24
	adds	r2, r3, r2
	adds	r1, r2, r1
	str	r1, [sp, #144]
	ldrb	r1, [r0, #20]
	ldrb	r2, [r0, #21]
	lsls	r2, r2, #8
	adds	r1, r2, r1
	ldrb	r2, [r0, #22]
	lsls	r2, r2, #16
	ldrb	r3, [r0, #23]
	lsls	r3, r3, #24
	adds	r2, r3, r2
	adds	r1, r2, r1
	str	r1, [sp, #148]
	ldrb	r1, [r0, #24]
	ldrb	r2, [r0, #25]
	lsls	r2, r2, #8
	adds	r1, r2, r1
	ldrb	r2, [r0, #26]
	lsls	r2, r2, #16
	ldrb	r3, [r0, #27]
	lsls	r3, r3, #24
	adds	r2, r3, r2
	adds	r1, r2, r1
	str	r1, [sp, #152]
	ldrb	r1, [r0, #28]
	ldrb	r2, [r0, #29]
	lsls	r2, r2, #8
	adds	r1, r2, r1
	ldrb	r2, [r0, #30]
	lsls	r2, r2, #16
	ldrb	r3, [r0, #31]
	lsls	r3, r3, #24
	adds	r2, r3, r2
	adds	r1, r2, r1
	str	r1, [sp, #156]
	ldrb	r1, [r0, #11]
	str	r1, [sp, #48]
	ldrb	r1, [r0, #10]
	str	r1, [sp, #40]
	ldrb	r1, [r0, #8]
	str	r1, [sp, #36]
	ldrb	r1, [r0, #9]
	str	r1, [sp, #32]
	ldrb	r6, [r0, #15]
	ldrb	r1, [r0, #14]
	str	r1, [sp, #24]
	ldrb	r1, [r0, #12]
	str	r1, [sp, #16]
	ldrb	r5, [r0, #13]
	adds	r0, #8
	add	r1, sp, #160
	movs	r2, #24
	bl	tlsf_memory_cpy
	ldr	r0, [r4, #8]
	ldr	r1, [r4, #80]
	ldr	r3, [r4, #84]
	ldr	r2, [sp, #44]
	str	r2, [sp]
	ldr	r2, [sp, #60]
	adds	r2, r1, r2
	ldr	r1, [sp, #28]
	adcs	r3, r1
	ldr	r1, [sp, #20]
	adds	r0, r0, r1
	ldr	r1, [sp, #12]
	adds	r0, r0, r1
	bl	__atomic_store_8
	ldr	r0, [sp, #56]
	cmp	r0, #1
	bne	.LBB34_14
	lsls	r0, r5, #8
	ldr	r1, [sp, #16]
	adds	r0, r0, r1
	ldr	r1, [sp, #24]
	lsls	r1, r1, #16
	lsls	r2, r6, #24
	adds	r1, r2, r1
	adds	r6, r1, r0
	ldr	r0, [sp, #32]
	lsls	r1, r0, #8
	ldr	r0, [sp, #36]
	adds	r1, r1, r0
	ldr	r0, [sp, #40]
	lsls	r2, r0, #16
	ldr	r0, [sp, #48]
	lsls	r3, r0, #24
	adds	r2, r3, r2
	adds	r5, r2, r1
	ldr	r1, [sp, #156]
	str	r1, [sp, #124]
	ldr	r2, [sp, #152]
	str	r2, [sp, #120]
	ldr	r3, [sp, #148]
	str	r3, [sp, #116]
	ldr	r4, [sp, #144]
	str	r4, [sp, #96]
	str	r3, [sp, #100]
	str	r1, [sp, #92]
	str	r2, [sp, #88]
	str	r3, [sp, #84]
	str	r4, [sp, #80]
	add	r1, sp, #80
	mov	r2, r7
	b	.LBB34_13
.LBB34_8:
	str	r7, [sp, #128]
	str	r7, [sp, #132]
	str	r7, [sp, #136]
	str	r7, [sp, #140]
.LBB34_9:
	ldr	r0, [sp, #128]
	str	r0, [sp, #80]
	ldr	r0, [sp, #132]
	str	r0, [sp, #84]
	ldr	r0, [sp, #136]
	str	r0, [sp, #88]
	ldr	r0, [sp, #140]
	str	r0, [sp, #92]
	ldr	r0, [sp, #40]
	ldr	r4, [r0]
	ldr	r0, [r4, #8]
	ldr	r1, [sp, #36]
	adds	r0, r0, r1
	movs	r6, #5
	mov	r1, r6
	bl	__atomic_load_8
	str	r0, [sp, #60]
	mov	r7, r1
	ldr	r0, [r4, #8]
	adds	r0, #128
	mov	r1, r6
	bl	__atomic_load_8
	eors	r1, r7
	ldr	r2, [sp, #60]
	eors	r0, r2
	orrs	r0, r1
	beq	.LBB34_11
	movs	r7, #9
	b	.LBB34_12
.LBB34_11:
	movs	r7, #8
.LBB34_12:
	ldr	r2, [sp, #48]
	add	r1, sp, #64
	mov	r6, r5
.LBB34_13:
	ldr	r0, [sp, #52]
	strb	r5, [r0, #8]
	strb	r7, [r0, #1]
	strb	r2, [r0]
	strb	r6, [r0, #12]
	lsrs	r2, r5, #24
	strb	r2, [r0, #11]
	lsrs	r2, r5, #16
	strb	r2, [r0, #10]
	lsrs	r2, r5, #8
	strb	r2, [r0, #9]
	lsrs	r2, r6, #24
	strb	r2, [r0, #15]
	lsrs	r2, r6, #16
	strb	r2, [r0, #14]
	lsrs	r2, r6, #8
	strb	r2, [r0, #13]
	adds	r0, #16
	movs	r2, #16
	bl	tlsf_memory_cpy
	add	sp, #196
	pop	{r4, r5, r6, r7, pc}
.LBB34_14:
	.inst.n	0xdefe
.Lfunc_end34:
	.size	tlsf_c.queue_end.take_once, .Lfunc_end34-tlsf_c.queue_end.take_once
	.cfi_endproc
	.section	.text.unlikely.std_alloc.vec.Vec.grow_amortized.94730218a1e37034,"ax",%progbits
	.p2align	1
	.type	std_alloc.vec.Vec.grow_amortized.94730218a1e37034,%function
	.code	16
	.thumb_func
std_alloc.vec.Vec.grow_amortized.94730218a1e37034:
	.cfi_startproc
	push	{r4, r5, r6, r7, lr}
	.cfi_def_cfa_offset 20
	.cfi_offset lr, -4
	.cfi_offset r7, -8
	.cfi_offset r6, -12
	.cfi_offset r5, -16
	.cfi_offset r4, -20
	sub	sp, #52
	.cfi_def_cfa_offset 72
	ldr	r2, [r0, #8]
	ldr	r6, [r0, #12]
	mov	r1, r2
	ands	r1, r6
	adds	r1, r1, #1
	beq	.LBB35_19
	movs	r3, #3
	cmp	r2, #3
	mov	r1, r2
	bhi	.LBB35_3
	mov	r1, r3
.LBB35_3:
	cmp	r6, #0
	mov	r4, r2
	bne	.LBB35_5
	mov	r4, r3
.LBB35_5:
	str	r2, [sp, #8]
	beq	.LBB35_7
	mov	r1, r4
.LBB35_7:
	movs	r4, #0
	adds	r2, r1, #1
	str	r6, [sp, #12]
	mov	r3, r6
	str	r4, [sp, #24]
	adcs	r3, r4
	ldr	r1, [r0, #16]
	str	r0, [sp, #20]
	ldr	r6, [r0, #20]
	lsrs	r4, r1, #31
	str	r6, [sp, #28]
	lsls	r6, r6, #1
	adds	r4, r6, r4
	lsls	r6, r1, #1
	subs	r7, r6, r2
	mov	r7, r4
	sbcs	r7, r3
	mov	r7, r3
	blo	.LBB35_9
	mov	r7, r4
.LBB35_9:
	mov	r5, r2
	blo	.LBB35_11
	mov	r5, r6
.LBB35_11:
	ldr	r4, [sp, #28]
	lsrs	r4, r4, #30
	cmp	r4, #0
	str	r5, [sp, #4]
	beq	.LBB35_13
	mov	r5, r2
.LBB35_13:
	str	r5, [sp, #16]
	mov	r5, r7
	ldr	r6, [sp, #24]
	beq	.LBB35_15
	mov	r5, r3
.LBB35_15:
	lsrs	r3, r5, #26
	bne	.LBB35_28
	ldr	r3, [sp, #28]
	orrs	r1, r3
	beq	.LBB35_20
	ldr	r0, [sp, #20]
	ldr	r1, [r0]
	movs	r3, #8
	str	r3, [sp]
	ldr	r0, [sp, #8]
	lsrs	r3, r0, #27
	ldr	r4, [sp, #12]
	lsls	r4, r4, #5
	adds	r4, r4, r3
	movs	r6, #0
	mvns	r3, r6
	cmp	r4, #0
	beq	.LBB35_22
	mov	r2, r3
	b	.LBB35_23
.LBB35_19:
	movs	r6, #0
	b	.LBB35_28
.LBB35_20:
	ldr	r0, [sp, #4]
	lsrs	r1, r0, #27
	lsls	r2, r7, #5
	movs	r6, #0
	adds	r1, r2, r1
	beq	.LBB35_29
	ldr	r4, [sp, #20]
	mvns	r1, r6
	b	.LBB35_30
.LBB35_22:
	lsls	r2, r0, #5
.LBB35_23:
	ldr	r7, [sp, #16]
	lsrs	r4, r7, #27
	str	r5, [sp, #28]
	lsls	r5, r5, #5
	adds	r4, r5, r4
	beq	.LBB35_25
	ldr	r4, [sp, #20]
	b	.LBB35_26
.LBB35_25:
	ldr	r4, [sp, #20]
	lsls	r3, r7, #5
.LBB35_26:
	add	r0, sp, #32
	bl	tlsf_memory_realloc
	ldr	r0, [sp, #32]
	lsls	r0, r0, #31
	ldr	r5, [sp, #28]
	beq	.LBB35_28
.LBB35_27:
	ldr	r0, [sp, #40]
	str	r0, [r4]
	ldr	r0, [sp, #16]
	str	r0, [r4, #16]
	str	r5, [r4, #20]
	movs	r6, #1
.LBB35_28:
	mov	r0, r6
	add	sp, #52
	pop	{r4, r5, r6, r7, pc}
.LBB35_29:
	ldr	r4, [sp, #20]
	lsls	r1, r0, #5
.LBB35_30:
	add	r0, sp, #32
	movs	r2, #8
	bl	tlsf_memory_alloc
	ldr	r0, [sp, #32]
	lsls	r0, r0, #31
	bne	.LBB35_27
	b	.LBB35_28
.Lfunc_end35:
	.size	std_alloc.vec.Vec.grow_amortized.94730218a1e37034, .Lfunc_end35-std_alloc.vec.Vec.grow_amortized.94730218a1e37034
	.cfi_endproc
	.section	.text.tlsf_post.mailboxes.send_out,"ax",%progbits
	.p2align	2
	.type	tlsf_post.mailboxes.send_out,%function
	.code	16
	.thumb_func
tlsf_post.mailboxes.send_out:
	.cfi_startproc
	push	{r4, r5, r6, r7, lr}
	.cfi_def_cfa_offset 20
	.cfi_offset lr, -4
	.cfi_offset r7, -8
	.cfi_offset r6, -12
	.cfi_offset r5, -16
	.cfi_offset r4, -20
	sub	sp, #44
	.cfi_def_cfa_offset 64
	str	r0, [sp, #28]
	cmp	r1, r2
	bhs	.LBB36_6
	str	r1, [sp, #24]
	str	r2, [sp, #16]
	str	r3, [sp, #20]
	ldr	r6, .LCPI36_0
.LBB36_2:
	ldr	r0, [sp, #28]
	ldr	r7, [r0]
.LBB36_3:
	movs	r4, #5
	mov	r0, r7
	mov	r1, r4
	bl	__atomic_load_8
	mov	r3, r1
	movs	r5, #1
	mvns	r1, r5
	subs	r1, r1, r0
	mov	r1, r6
	sbcs	r1, r3
	blo	.LBB36_7
	str	r0, [sp, #32]
	str	r3, [sp, #36]
	str	r4, [sp]
	str	r4, [sp, #4]
	movs	r5, #0
	adds	r2, r0, #1
	adcs	r3, r5
	add	r1, sp, #32
	mov	r0, r7
	bl	__atomic_compare_exchange_8
	cmp	r0, #0
	beq	.LBB36_3
	ldr	r0, [r7, #8]
	movs	r1, #5
	bl	__atomic_load_8
	ldr	r4, [sp, #20]
	ldr	r1, [r4, #8]
	str	r1, [sp, #12]
	ldr	r0, [r4, #12]
	ldr	r2, [r4]
	lsls	r3, r1, #4
	strb	r7, [r2, r3]
	adds	r2, r2, r3
	strb	r5, [r2, #7]
	strb	r5, [r2, #6]
	strb	r5, [r2, #5]
	strb	r5, [r2, #4]
	ldr	r1, [sp, #24]
	lsrs	r3, r1, #24
	strb	r3, [r2, #11]
	lsrs	r3, r1, #16
	strb	r3, [r2, #10]
	lsrs	r3, r1, #8
	strb	r3, [r2, #9]
	strb	r1, [r2, #8]
	strb	r5, [r2, #15]
	strb	r5, [r2, #14]
	strb	r5, [r2, #13]
	strb	r5, [r2, #12]
	lsrs	r3, r7, #24
	strb	r3, [r2, #3]
	lsrs	r3, r7, #16
	strb	r3, [r2, #2]
	lsrs	r3, r7, #8
	strb	r3, [r2, #1]
	ldr	r2, [sp, #12]
	adds	r2, r2, #1
	adcs	r0, r5
	str	r2, [r4, #8]
	str	r0, [r4, #12]
	adds	r1, r1, #1
	ldr	r0, [sp, #16]
	str	r1, [sp, #24]
	cmp	r1, r0
	bne	.LBB36_2
	b	.LBB36_7
.LBB36_6:
	movs	r5, #0
.LBB36_7:
	mov	r0, r5
	add	sp, #44
	pop	{r4, r5, r6, r7, pc}
	.p2align	2
.LCPI36_0:
	.long	2147483647
.Lfunc_end36:
	.size	tlsf_post.mailboxes.send_out, .Lfunc_end36-tlsf_post.mailboxes.send_out
	.cfi_endproc
	.section	.text.std_alloc.arc.Arc.drop.f29941b0e8355977,"ax",%progbits
	.p2align	1
	.type	std_alloc.arc.Arc.drop.f29941b0e8355977,%function
	.code	16
	.thumb_func
std_alloc.arc.Arc.drop.f29941b0e8355977:
	.cfi_startproc
	push	{r4, r5, r6, r7, lr}
	.cfi_def_cfa_offset 20
	.cfi_offset lr, -4
	.cfi_offset r7, -8
	.cfi_offset r6, -12
	.cfi_offset r5, -16
	.cfi_offset r4, -20
	sub	sp, #28
	.cfi_def_cfa_offset 48
	mov	r4, r0
	movs	r0, #5
	str	r0, [sp]
	movs	r5, #1
	movs	r3, #0
	mov	r0, r4
	mov	r2, r5
	bl	__atomic_fetch_sub_8
	eors	r0, r5
	orrs	r0, r1
	bne	.LBB37_2
	movs	r0, #56
	ldrb	r0, [r4, r0]
	str	r0, [sp, #24]
	movs	r0, #40
	ldrb	r0, [r4, r0]
	str	r0, [sp, #8]
	mov	r0, r4
	adds	r0, #56
	ldrb	r1, [r0, #3]
	str	r1, [sp, #20]
	ldrb	r1, [r0, #2]
	str	r1, [sp, #16]
	ldrb	r0, [r0, #1]
	str	r0, [sp, #12]
	mov	r0, r4
	adds	r0, #40
	ldrb	r7, [r0, #3]
	ldrb	r5, [r0, #2]
	ldrb	r6, [r0, #1]
	mov	r0, r4
	bl	tlsf_memory_dealloc
	lsls	r0, r6, #8
	ldr	r1, [sp, #8]
	adds	r0, r0, r1
	lsls	r1, r5, #16
	lsls	r2, r7, #24
	adds	r1, r2, r1
	adds	r0, r1, r0
	bl	tlsf_memory_dealloc
	ldr	r0, [sp, #12]
	lsls	r0, r0, #8
	ldr	r1, [sp, #24]
	adds	r0, r0, r1
	ldr	r1, [sp, #16]
	lsls	r1, r1, #16
	ldr	r2, [sp, #20]
	lsls	r2, r2, #24
	adds	r1, r2, r1
	adds	r0, r1, r0
	bl	tlsf_memory_dealloc
.LBB37_2:
	add	sp, #28
	pop	{r4, r5, r6, r7, pc}
.Lfunc_end37:
	.size	std_alloc.arc.Arc.drop.f29941b0e8355977, .Lfunc_end37-std_alloc.arc.Arc.drop.f29941b0e8355977
	.cfi_endproc
	.section	.text.std_alloc.vec.deque.VecDeque.drop.ca3d8856d46a41b8,"ax",%progbits
	.p2align	1
	.type	std_alloc.vec.deque.VecDeque.drop.ca3d8856d46a41b8,%function
	.code	16
	.thumb_func
std_alloc.vec.deque.VecDeque.drop.ca3d8856d46a41b8:
	.cfi_startproc
	push	{r4, r5, r6, r7, lr}
	.cfi_def_cfa_offset 20
	.cfi_offset lr, -4
	.cfi_offset r7, -8
	.cfi_offset r6, -12
	.cfi_offset r5, -16
	.cfi_offset r4, -20
	sub	sp, #68
	.cfi_def_cfa_offset 88
	ldrb	r1, [r0, #12]
	ldrb	r2, [r0, #13]
	lsls	r2, r2, #8
	adds	r1, r2, r1
	ldrb	r2, [r0, #14]
	lsls	r2, r2, #16
	ldrb	r3, [r0, #15]
	lsls	r3, r3, #24
	adds	r2, r3, r2
	adds	r6, r2, r1
	ldrb	r1, [r0, #8]
	ldrb	r2, [r0, #9]
	lsls	r2, r2, #8
	adds	r1, r2, r1
	ldrb	r2, [r0, #10]
	lsls	r2, r2, #16
	ldrb	r3, [r0, #11]
	lsls	r3, r3, #24
	adds	r2, r3, r2
	adds	r1, r2, r1
	mov	r2, r1
	orrs	r2, r6
	ldrb	r3, [r0, #20]
	ldrb	r4, [r0, #21]
	lsls	r4, r4, #8
	adds	r3, r4, r3
	ldrb	r4, [r0, #22]
	lsls	r4, r4, #16
	ldrb	r5, [r0, #23]
	lsls	r5, r5, #24
	adds	r4, r5, r4
	adds	r3, r4, r3
	str	r3, [sp, #12]
	ldrb	r3, [r0, #16]
	ldrb	r4, [r0, #17]
	lsls	r4, r4, #8
	adds	r3, r4, r3
	ldrb	r4, [r0, #18]
	lsls	r4, r4, #16
	ldrb	r5, [r0, #19]
	lsls	r5, r5, #24
	adds	r4, r5, r4
	adds	r3, r4, r3
	str	r3, [sp, #8]
	ldrb	r3, [r0]
	ldrb	r4, [r0, #1]
	lsls	r4, r4, #8
	adds	r3, r4, r3
	ldrb	r4, [r0, #2]
	lsls	r4, r4, #16
	ldrb	r5, [r0, #3]
	lsls	r5, r5, #24
	adds	r4, r5, r4
	adds	r3, r4, r3
	str	r3, [sp, #60]
	cmp	r2, #0
	bne	.LBB38_1
	b	.LBB38_11
.LBB38_1:
	movs	r2, #36
	ldrb	r2, [r0, r2]
	mov	r3, r0
	adds	r3, #36
	ldrb	r4, [r3, #1]
	lsls	r4, r4, #8
	adds	r2, r4, r2
	ldrb	r4, [r3, #2]
	lsls	r4, r4, #16
	ldrb	r3, [r3, #3]
	lsls	r3, r3, #24
	adds	r3, r3, r4
	str	r1, [sp, #64]
	adds	r1, r3, r2
	movs	r2, #32
	ldrb	r2, [r0, r2]
	mov	r3, r0
	adds	r3, #32
	ldrb	r4, [r3, #1]
	lsls	r4, r4, #8
	adds	r2, r4, r2
	ldrb	r4, [r3, #2]
	lsls	r4, r4, #16
	ldrb	r3, [r3, #3]
	lsls	r3, r3, #24
	adds	r3, r3, r4
	adds	r7, r3, r2
	ldrb	r2, [r0, #28]
	ldrb	r3, [r0, #29]
	lsls	r3, r3, #8
	adds	r2, r3, r2
	ldrb	r3, [r0, #30]
	lsls	r3, r3, #16
	ldrb	r4, [r0, #31]
	lsls	r4, r4, #24
	adds	r3, r4, r3
	adds	r4, r3, r2
	ldrb	r2, [r0, #24]
	ldrb	r3, [r0, #25]
	lsls	r3, r3, #8
	adds	r2, r3, r2
	ldrb	r3, [r0, #26]
	lsls	r3, r3, #16
	ldrb	r0, [r0, #27]
	lsls	r0, r0, #24
	adds	r0, r0, r3
	adds	r5, r0, r2
	str	r7, [sp, #52]
	ldr	r0, [sp, #64]
	subs	r0, r0, r7
	str	r1, [sp, #56]
	sbcs	r6, r1
	adds	r0, r5, r0
	adcs	r6, r4
	str	r0, [sp, #48]
	subs	r0, r5, r0
	mov	r0, r4
	sbcs	r0, r6
	bhs	.LBB38_6
	str	r6, [sp, #44]
	b	.LBB38_4
.LBB38_3:
	adds	r5, r5, #1
	ldr	r0, [sp, #64]
	adcs	r4, r0
	ldr	r0, [sp, #48]
	subs	r0, r5, r0
	mov	r0, r4
	ldr	r6, [sp, #44]
	sbcs	r0, r6
	bhs	.LBB38_6
.LBB38_4:
	lsls	r0, r5, #4
	ldr	r6, [sp, #60]
	adds	r1, r6, r0
	ldrb	r2, [r1, #3]
	ldrb	r3, [r1, #2]
	ldrb	r0, [r6, r0]
	ldrb	r1, [r1, #1]
	movs	r6, #5
	str	r6, [sp]
	lsls	r1, r1, #8
	adds	r0, r1, r0
	lsls	r1, r3, #16
	lsls	r2, r2, #24
	adds	r1, r2, r1
	adds	r6, r1, r0
	movs	r7, #1
	movs	r3, #0
	mov	r0, r6
	mov	r2, r7
	str	r3, [sp, #64]
	bl	__atomic_fetch_sub_8
	eors	r0, r7
	orrs	r0, r1
	bne	.LBB38_3
	movs	r0, #56
	ldrb	r0, [r6, r0]
	str	r0, [sp, #40]
	movs	r0, #40
	ldrb	r0, [r6, r0]
	str	r0, [sp, #24]
	mov	r0, r6
	adds	r0, #56
	ldrb	r1, [r0, #3]
	str	r1, [sp, #36]
	ldrb	r1, [r0, #2]
	str	r1, [sp, #32]
	ldrb	r0, [r0, #1]
	str	r0, [sp, #28]
	mov	r0, r6
	adds	r0, #40
	ldrb	r1, [r0, #3]
	str	r1, [sp, #20]
	ldrb	r1, [r0, #2]
	str	r1, [sp, #16]
	ldrb	r7, [r0, #1]
	mov	r0, r6
	bl	tlsf_memory_dealloc
	lsls	r0, r7, #8
	ldr	r1, [sp, #24]
	adds	r0, r0, r1
	ldr	r1, [sp, #16]
	lsls	r1, r1, #16
	ldr	r2, [sp, #20]
	lsls	r2, r2, #24
	adds	r1, r2, r1
	adds	r0, r1, r0
	bl	tlsf_memory_dealloc
	ldr	r0, [sp, #28]
	lsls	r0, r0, #8
	ldr	r1, [sp, #40]
	adds	r0, r0, r1
	ldr	r1, [sp, #32]
	lsls	r1, r1, #16
	ldr	r2, [sp, #36]
	lsls	r2, r2, #24
	adds	r1, r2, r1
	adds	r0, r1, r0
	bl	tlsf_memory_dealloc
	b	.LBB38_3
.LBB38_6:
	ldr	r0, [sp, #52]
	ldr	r1, [sp, #56]
	orrs	r0, r1
	beq	.LBB38_11
	movs	r5, #0
	mov	r4, r5
	b	.LBB38_9
.LBB38_8:
	adds	r4, r4, #1
	ldr	r0, [sp, #64]
	adcs	r5, r0
	ldr	r0, [sp, #52]
	subs	r0, r4, r0
	mov	r0, r5
	ldr	r1, [sp, #56]
	sbcs	r0, r1
	bhs	.LBB38_11
.LBB38_9:
	lsls	r0, r4, #4
	ldr	r6, [sp, #60]
	adds	r1, r6, r0
	ldrb	r2, [r1, #3]
	ldrb	r3, [r1, #2]
	ldrb	r0, [r6, r0]
	ldrb	r1, [r1, #1]
	movs	r6, #5
	str	r6, [sp]
	lsls	r1, r1, #8
	adds	r0, r1, r0
	lsls	r1, r3, #16
	lsls	r2, r2, #24
	adds	r1, r2, r1
	adds	r6, r1, r0
	movs	r7, #1
	movs	r3, #0
	mov	r0, r6
	mov	r2, r7
	str	r3, [sp, #64]
	bl	__atomic_fetch_sub_8
	eors	r0, r7
	orrs	r0, r1
	bne	.LBB38_8
	movs	r0, #56
	ldrb	r0, [r6, r0]
	str	r0, [sp, #48]
	movs	r0, #40
	ldrb	r0, [r6, r0]
	str	r0, [sp, #32]
	mov	r0, r6
	adds	r0, #56
	ldrb	r1, [r0, #3]
	str	r1, [sp, #44]
	ldrb	r1, [r0, #2]
	str	r1, [sp, #40]
	ldrb	r0, [r0, #1]
	str	r0, [sp, #36]
	mov	r0, r6
	adds	r0, #40
	ldrb	r1, [r0, #3]
	str	r1, [sp, #28]
	ldrb	r1, [r0, #2]
	str	r1, [sp, #24]
	ldrb	r7, [r0, #1]
	mov	r0, r6
	bl	tlsf_memory_dealloc
	lsls	r0, r7, #8
	ldr	r1, [sp, #32]
	adds	r0, r0, r1
	ldr	r1, [sp, #24]
	lsls	r1, r1, #16
	ldr	r2, [sp, #28]
	lsls	r2, r2, #24
	adds	r1, r2, r1
	adds	r0, r1, r0
	bl	tlsf_memory_dealloc
	ldr	r0, [sp, #36]
	lsls	r0, r0, #8
	ldr	r1, [sp, #48]
	adds	r0, r0, r1
	ldr	r1, [sp, #40]
	lsls	r1, r1, #16
	ldr	r2, [sp, #44]
	lsls	r2, r2, #24
	adds	r1, r2, r1
	adds	r0, r1, r0
	bl	tlsf_memory_dealloc
	b	.LBB38_8
.LBB38_11:
	ldr	r0, [sp, #12]
	ldr	r1, [sp, #8]
	orrs	r1, r0
	beq	.LBB38_13
	ldr	r0, [sp, #60]
	bl	tlsf_memory_dealloc
.LBB38_13:
	add	sp, #68
	pop	{r4, r5, r6, r7, pc}
.Lfunc_end38:
	.size	std_alloc.vec.deque.VecDeque.drop.ca3d8856d46a41b8, .Lfunc_end38-std_alloc.vec.deque.VecDeque.drop.ca3d8856d46a41b8
	.cfi_endproc
	.section	.text.tlsf_heap.heap.Heap.copy.4,"ax",%progbits
	.p2align	1
	.type	tlsf_heap.heap.Heap.copy.4,%function
	.code	16
	.thumb_func
tlsf_heap.heap.Heap.copy.4:
	.cfi_startproc
	push	{r4, r5, r6, r7, lr}
	.cfi_def_cfa_offset 20
	.cfi_offset lr, -4
	.cfi_offset r7, -8
	.cfi_offset r6, -12
	.cfi_offset r5, -16
	.cfi_offset r4, -20
	sub	sp, #52
	.cfi_def_cfa_offset 72
	mov	r5, r3
	str	r0, [sp, #28]
	ldrb	r3, [r2, #4]
	ldrb	r4, [r2, #5]
	lsls	r4, r4, #8
	adds	r3, r4, r3
	ldrb	r4, [r2, #6]
	lsls	r4, r4, #16
	ldrb	r2, [r2, #7]
	lsls	r2, r2, #24
	adds	r2, r2, r4
	adds	r2, r2, r3
	movs	r0, #0
	adds	r6, r2, #3
	mov	r7, r0
	adcs	r7, r0
	ldrb	r2, [r1, #4]
	ldrb	r3, [r1, #5]
	lsls	r3, r3, #8
	adds	r2, r3, r2
	ldrb	r3, [r1, #6]
	lsls	r3, r3, #16
	ldrb	r1, [r1, #7]
	lsls	r1, r1, #24
	adds	r1, r1, r3
	adds	r1, r1, r2
	adds	r2, r1, #3
	mov	r3, r0
	adcs	r3, r0
	movs	r4, #7
	ands	r4, r5
	lsrs	r5, r5, #3
	cmp	r4, #0
	beq	.LBB39_2
	adds	r1, r2, r5
	str	r6, [sp, #16]
	lsls	r6, r1, #3
	str	r0, [sp, #20]
	ldr	r0, [sp, #28]
	ldr	r1, [r0, #24]
	str	r2, [sp, #24]
	ldr	r2, [r1, r6]
	str	r2, [sp, #32]
	adds	r2, r1, r6
	ldr	r2, [r2, #4]
	str	r2, [sp, #36]
	ldr	r6, [sp, #16]
	str	r6, [sp]
	str	r7, [sp, #4]
	str	r5, [sp, #8]
	ldr	r0, [sp, #20]
	str	r0, [sp, #12]
	mov	r0, r1
	ldr	r2, [sp, #24]
	bl	tlsf_words.cells.copy_run
	adds	r0, r6, r5
	lsls	r5, r0, #3
	ldr	r0, [sp, #28]
	ldr	r6, [r0, #24]
	ldr	r0, [r6, r5]
	str	r0, [sp, #40]
	adds	r7, r6, r5
	ldr	r0, [r7, #4]
	str	r0, [sp, #44]
	add	r0, sp, #40
	add	r1, sp, #32
	mov	r2, r4
	bl	tlsf_memory_cpy
	ldr	r0, [sp, #40]
	str	r0, [r6, r5]
	ldr	r0, [sp, #44]
	str	r0, [r7, #4]
	add	sp, #52
	pop	{r4, r5, r6, r7, pc}
.LBB39_2:
	ldr	r1, [sp, #28]
	ldr	r1, [r1, #24]
	str	r6, [sp]
	str	r7, [sp, #4]
	str	r5, [sp, #8]
	str	r0, [sp, #12]
	mov	r0, r1
	bl	tlsf_words.cells.copy_run
	add	sp, #52
	pop	{r4, r5, r6, r7, pc}
.Lfunc_end39:
	.size	tlsf_heap.heap.Heap.copy.4, .Lfunc_end39-tlsf_heap.heap.Heap.copy.4
	.cfi_endproc
	.section	.text.tlsf_words.cells.copy_run,"ax",%progbits
	.p2align	2
	.type	tlsf_words.cells.copy_run,%function
	.code	16
	.thumb_func
tlsf_words.cells.copy_run:
	.cfi_startproc
	push	{r4, r5, r6, r7, lr}
	.cfi_def_cfa_offset 20
	.cfi_offset lr, -4
	.cfi_offset r7, -8
	.cfi_offset r6, -12
	.cfi_offset r5, -16
	.cfi_offset r4, -20
	sub	sp, #28
	.cfi_def_cfa_offset 48
	mov	r1, r2
	str	r0, [sp, #16]
	lsrs	r2, r2, #29
	str	r3, [sp, #24]
	lsls	r4, r3, #3
	adds	r5, r4, r2
	ldr	r2, [sp, #48]
	lsrs	r4, r2, #29
	ldr	r0, [sp, #52]
	str	r0, [sp, #20]
	lsls	r7, r0, #3
	adds	r7, r7, r4
	lsls	r0, r1, #3
	lsls	r3, r2, #3
	str	r0, [sp, #8]
	str	r3, [sp, #4]
	subs	r6, r3, r0
	sbcs	r7, r5
	ldr	r5, [sp, #56]
	lsrs	r3, r5, #29
	ldr	r4, [sp, #60]
	lsls	r0, r4, #3
	adds	r3, r0, r3
	lsls	r0, r5, #3
	str	r0, [sp, #12]
	subs	r0, r6, r0
	sbcs	r7, r3
	bhs	.LBB40_2
.LBB40_1:
	add	sp, #28
	pop	{r4, r5, r6, r7, pc}
.LBB40_2:
	str	r3, [sp]
	adds	r0, r5, r1
	mov	r3, r4
	ldr	r6, [sp, #24]
	adcs	r3, r6
	subs	r0, r2, r0
	ldr	r7, [sp, #20]
	mov	r0, r7
	sbcs	r0, r3
	bhs	.LBB40_14
	adds	r0, r5, r2
	adcs	r7, r4
	subs	r0, r1, r0
	sbcs	r6, r7
	ldr	r2, [sp]
	blo	.LBB40_1
	str	r4, [sp, #24]
	ldr	r1, [sp, #16]
	ldr	r0, [sp, #4]
	adds	r0, r1, r0
	ldr	r3, [sp, #8]
	adds	r1, r1, r3
	movs	r6, #0
	subs	r7, r0, r1
	mov	r4, r2
	mov	r3, r6
	sbcs	r3, r6
	ldr	r2, [sp, #12]
	subs	r7, r7, r2
	sbcs	r3, r4
	blo	.LBB40_5
	b	.LBB40_28
.LBB40_5:
	movs	r2, #1
	cmp	r5, #1
	mov	r3, r5
	bhi	.LBB40_7
	mov	r3, r2
.LBB40_7:
	ldr	r4, [sp, #24]
	cmp	r4, #0
	mov	r7, r5
	bne	.LBB40_9
	mov	r7, r2
.LBB40_9:
	beq	.LBB40_11
	mov	r3, r7
.LBB40_11:
	movs	r7, #3
	ands	r7, r3
	subs	r2, r5, #4
	sbcs	r4, r6
	bhs	.LBB40_12
	b	.LBB40_25
.LBB40_12:
	str	r7, [sp, #12]
	ldr	r2, .LCPI40_0
	ands	r3, r2
	mov	r4, r6
	mov	r5, r6
	str	r6, [sp, #20]
	str	r3, [sp, #16]
.LBB40_13:
	str	r5, [sp, #24]
	lsls	r2, r4, #3
	ldr	r3, [r1, r2]
	str	r3, [r0, r2]
	movs	r7, #8
	orrs	r7, r2
	ldr	r3, [r1, r7]
	str	r3, [r0, r7]
	movs	r3, #16
	orrs	r3, r2
	ldr	r6, [r1, r3]
	str	r6, [r0, r3]
	movs	r6, #24
	orrs	r6, r2
	ldr	r5, [r1, r6]
	str	r5, [r0, r6]
	adds	r5, r0, r2
	adds	r2, r1, r2
	ldr	r2, [r2, #4]
	str	r2, [r5, #4]
	adds	r2, r0, r7
	adds	r5, r1, r7
	ldr	r5, [r5, #4]
	str	r5, [r2, #4]
	ldr	r5, [sp, #24]
	adds	r2, r0, r3
	adds	r3, r1, r3
	ldr	r3, [r3, #4]
	str	r3, [r2, #4]
	adds	r2, r0, r6
	adds	r3, r1, r6
	ldr	r6, [sp, #20]
	ldr	r3, [r3, #4]
	str	r3, [r2, #4]
	ldr	r3, [sp, #16]
	adds	r4, r4, #4
	adcs	r5, r6
	mov	r2, r4
	eors	r2, r3
	orrs	r2, r5
	bne	.LBB40_13
	b	.LBB40_24
.LBB40_14:
	ldr	r0, [sp, #16]
	ldr	r1, [sp, #8]
	adds	r1, r0, r1
	ldr	r2, [sp, #4]
	adds	r0, r0, r2
	movs	r6, #0
	subs	r7, r0, r1
	mov	r3, r6
	sbcs	r3, r6
	ldr	r2, [sp, #12]
	subs	r7, r7, r2
	ldr	r7, [sp]
	sbcs	r3, r7
	bhs	.LBB40_28
	movs	r2, #1
	cmp	r5, #1
	mov	r3, r5
	bhi	.LBB40_17
	mov	r3, r2
.LBB40_17:
	cmp	r4, #0
	mov	r7, r5
	bne	.LBB40_19
	mov	r7, r2
.LBB40_19:
	beq	.LBB40_21
	mov	r3, r7
.LBB40_21:
	movs	r7, #3
	ands	r7, r3
	subs	r2, r5, #4
	sbcs	r4, r6
	blo	.LBB40_25
	str	r7, [sp, #12]
	ldr	r2, .LCPI40_0
	ands	r3, r2
	mov	r4, r6
	mov	r5, r6
	str	r6, [sp, #20]
	str	r3, [sp, #16]
.LBB40_23:
	str	r5, [sp, #24]
	lsls	r2, r4, #3
	ldr	r3, [r1, r2]
	str	r3, [r0, r2]
	movs	r7, #8
	orrs	r7, r2
	ldr	r3, [r1, r7]
	str	r3, [r0, r7]
	movs	r3, #16
	orrs	r3, r2
	ldr	r6, [r1, r3]
	str	r6, [r0, r3]
	movs	r6, #24
	orrs	r6, r2
	ldr	r5, [r1, r6]
	str	r5, [r0, r6]
	adds	r5, r0, r2
	adds	r2, r1, r2
	ldr	r2, [r2, #4]
	str	r2, [r5, #4]
	adds	r2, r0, r7
	adds	r5, r1, r7
	ldr	r5, [r5, #4]
	str	r5, [r2, #4]
	ldr	r5, [sp, #24]
	adds	r2, r0, r3
	adds	r3, r1, r3
	ldr	r3, [r3, #4]
	str	r3, [r2, #4]
	adds	r2, r0, r6
	adds	r3, r1, r6
	ldr	r6, [sp, #20]
	ldr	r3, [r3, #4]
	str	r3, [r2, #4]
	ldr	r3, [sp, #16]
	adds	r4, r4, #4
	adcs	r5, r6
	mov	r2, r4
	eors	r2, r3
	orrs	r2, r5
	bne	.LBB40_23
.LBB40_24:
	ldr	r7, [sp, #12]
	cmp	r7, #0
	mov	r6, r4
	bne	.LBB40_25
	b	.LBB40_1
.LBB40_25:
	lsls	r3, r6, #3
	ldr	r2, [r1, r3]
	str	r2, [r0, r3]
	adds	r4, r0, r3
	adds	r2, r1, r3
	ldr	r2, [r2, #4]
	str	r2, [r4, #4]
	cmp	r7, #1
	bne	.LBB40_26
	b	.LBB40_1
.LBB40_26:
	mov	r4, r3
	adds	r4, #8
	ldr	r2, [r1, r4]
	str	r2, [r0, r4]
	adds	r2, r0, r4
	adds	r4, r1, r4
	ldr	r4, [r4, #4]
	str	r4, [r2, #4]
	cmp	r7, #2
	bne	.LBB40_27
	b	.LBB40_1
.LBB40_27:
	adds	r3, #16
	ldr	r2, [r1, r3]
	str	r2, [r0, r3]
	adds	r0, r0, r3
	adds	r1, r1, r3
	ldr	r1, [r1, #4]
	str	r1, [r0, #4]
	add	sp, #28
	pop	{r4, r5, r6, r7, pc}
.LBB40_28:
	bl	tlsf_memory_move
	add	sp, #28
	pop	{r4, r5, r6, r7, pc}
	.p2align	2
.LCPI40_0:
	.long	536870908
.Lfunc_end40:
	.size	tlsf_words.cells.copy_run, .Lfunc_end40-tlsf_words.cells.copy_run
	.cfi_endproc
	.section	.text.tlsf_c.lane_calls.take_name,"ax",%progbits
	.p2align	1
	.type	tlsf_c.lane_calls.take_name,%function
	.code	16
	.thumb_func
tlsf_c.lane_calls.take_name:
	.cfi_startproc
	push	{r4, r5, r6, r7, lr}
	.cfi_def_cfa_offset 20
	.cfi_offset lr, -4
	.cfi_offset r7, -8
	.cfi_offset r6, -12
	.cfi_offset r5, -16
	.cfi_offset r4, -20
	sub	sp, #84
	.cfi_def_cfa_offset 104
	mov	r4, r1
	mov	r5, r0
	ldr	r3, [r0, #24]
	ldr	r2, [r0, #28]
	ldr	r1, [r0, #32]
	ldr	r0, [r0, #36]
	subs	r6, r1, r3
	mov	r6, r0
	sbcs	r6, r2
	bhs	.LBB41_2
	subs	r1, r1, r3
	str	r1, [sp, #80]
	mov	r6, r0
	sbcs	r6, r2
	ldr	r7, [r5, #16]
	ldr	r0, [r5, #20]
	lsrs	r1, r7, #31
	lsls	r0, r0, #1
	adds	r0, r0, r1
	lsls	r1, r7, #1
	ldr	r7, [sp, #80]
	adds	r1, r7, r1
	adcs	r0, r6
	orrs	r1, r0
	bne	.LBB41_5
	b	.LBB41_3
.LBB41_2:
	subs	r1, r1, r3
	sbcs	r0, r2
	orrs	r1, r0
	bne	.LBB41_5
.LBB41_3:
	ldr	r0, [r5]
	adds	r0, #128
	movs	r1, #5
	bl	__atomic_load_8
	str	r0, [r5, #32]
	str	r1, [r5, #36]
	ldr	r3, [r5, #24]
	ldr	r2, [r5, #28]
	subs	r6, r0, r3
	mov	r6, r1
	sbcs	r6, r2
	blo	.LBB41_4
	b	.LBB41_16
.LBB41_4:
	subs	r0, r0, r3
	str	r0, [sp, #80]
	mov	r6, r1
	sbcs	r6, r2
	ldr	r7, [r5, #16]
	ldr	r1, [r5, #20]
	lsrs	r0, r7, #31
	lsls	r1, r1, #1
	adds	r1, r1, r0
	lsls	r0, r7, #1
	ldr	r7, [sp, #80]
	adds	r0, r7, r0
	adcs	r1, r6
	orrs	r0, r1
	beq	.LBB41_17
.LBB41_5:
	ldr	r1, [r5, #16]
	str	r5, [sp, #80]
	ldr	r0, [r5, #20]
	subs	r7, r3, r1
	mov	r5, r2
	mov	r6, r2
	str	r0, [sp, #12]
	sbcs	r6, r0
	mov	r6, r3
	blo	.LBB41_7
	mov	r6, r7
.LBB41_7:
	movs	r7, #24
	muls	r7, r6, r7
	ldr	r2, [sp, #80]
	ldr	r6, [r2, #8]
	adds	r6, r6, r7
	ldrb	r0, [r6, #8]
	str	r0, [sp, #76]
	ldrb	r0, [r6, #9]
	str	r0, [sp, #72]
	ldrb	r0, [r6, #10]
	str	r0, [sp, #68]
	ldrb	r0, [r6, #11]
	str	r0, [sp, #64]
	ldrb	r0, [r6, #12]
	str	r0, [sp, #60]
	ldrb	r0, [r6, #13]
	str	r0, [sp, #56]
	ldrb	r0, [r6, #14]
	str	r0, [sp, #52]
	ldrb	r0, [r6, #15]
	str	r0, [sp, #48]
	ldrb	r0, [r6, #16]
	str	r0, [sp, #44]
	ldrb	r0, [r6, #17]
	str	r0, [sp, #40]
	ldrb	r0, [r6, #18]
	str	r0, [sp, #36]
	ldrb	r0, [r6, #19]
	str	r0, [sp, #32]
	ldrb	r0, [r6, #20]
	str	r0, [sp, #28]
	ldrb	r0, [r6, #21]
	str	r0, [sp, #24]
	ldrb	r0, [r6, #22]
	str	r0, [sp, #20]
	ldrb	r0, [r6, #23]
	str	r0, [sp, #16]
	ldr	r0, [r2]
	str	r0, [sp, #8]
	movs	r6, #5
	str	r6, [sp]
	movs	r2, #0
	adds	r0, r3, #1
	str	r0, [sp, #4]
	mov	r7, r5
	adcs	r5, r2
	lsrs	r0, r1, #31
	ldr	r6, [sp, #12]
	lsls	r6, r6, #1
	adds	r0, r6, r0
	mov	r6, r2
	lsls	r1, r1, #1
	subs	r1, r1, #1
	sbcs	r0, r2
	subs	r1, r3, r1
	sbcs	r7, r0
	blo	.LBB41_9
	mov	r0, r6
	b	.LBB41_10
.LBB41_9:
	movs	r0, #1
.LBB41_10:
	cmp	r0, #0
	ldr	r7, [sp, #4]
	bne	.LBB41_12
	mov	r5, r0
.LBB41_12:
	bne	.LBB41_14
	mov	r7, r0
.LBB41_14:
	ldr	r0, [sp, #8]
	mov	r2, r7
	mov	r3, r5
	bl	__atomic_store_8
	ldr	r0, [sp, #80]
	str	r7, [r0, #24]
	str	r5, [r0, #28]
	ldr	r0, [sp, #16]
	strb	r0, [r4, #15]
	ldr	r0, [sp, #20]
	strb	r0, [r4, #14]
	ldr	r0, [sp, #24]
	strb	r0, [r4, #13]
	ldr	r0, [sp, #28]
	strb	r0, [r4, #12]
	ldr	r0, [sp, #32]
	strb	r0, [r4, #11]
	ldr	r0, [sp, #36]
	strb	r0, [r4, #10]
	ldr	r0, [sp, #40]
	strb	r0, [r4, #9]
	ldr	r0, [sp, #44]
	strb	r0, [r4, #8]
	ldr	r0, [sp, #48]
	strb	r0, [r4, #7]
	ldr	r0, [sp, #52]
	strb	r0, [r4, #6]
	ldr	r0, [sp, #56]
	strb	r0, [r4, #5]
	ldr	r0, [sp, #60]
	strb	r0, [r4, #4]
	ldr	r0, [sp, #64]
	strb	r0, [r4, #3]
	ldr	r0, [sp, #68]
	strb	r0, [r4, #2]
	ldr	r0, [sp, #72]
	strb	r0, [r4, #1]
	ldr	r0, [sp, #76]
	strb	r0, [r4]
.LBB41_15:
	mov	r0, r6
	add	sp, #84
	pop	{r4, r5, r6, r7, pc}
.LBB41_16:
	subs	r0, r0, r3
	sbcs	r1, r2
	orrs	r0, r1
	bne	.LBB41_5
.LBB41_17:
	movs	r6, #35
	b	.LBB41_15
.Lfunc_end41:
	.size	tlsf_c.lane_calls.take_name, .Lfunc_end41-tlsf_c.lane_calls.take_name
	.cfi_endproc
	.section	.text.tlsf_heap.region.Region.write.4,"ax",%progbits
	.p2align	1
	.type	tlsf_heap.region.Region.write.4,%function
	.code	16
	.thumb_func
tlsf_heap.region.Region.write.4:
	.cfi_startproc
	push	{r4, r5, r6, r7, lr}
	.cfi_def_cfa_offset 20
	.cfi_offset lr, -4
	.cfi_offset r7, -8
	.cfi_offset r6, -12
	.cfi_offset r5, -16
	.cfi_offset r4, -20
	sub	sp, #44
	.cfi_def_cfa_offset 64
	mov	r4, r2
	lsrs	r5, r1, #29
	lsls	r1, r1, #3
	movs	r6, #0
	adds	r2, r1, r2
	adcs	r5, r6
	adds	r2, #24
	adcs	r5, r6
	ldr	r7, [sp, #64]
	orrs	r4, r7
	lsls	r1, r4, #29
	ldr	r1, [sp, #68]
	beq	.LBB42_3
	movs	r4, #7
	subs	r4, r4, r7
	sbcs	r6, r1
	bhs	.LBB42_2
	b	.LBB42_10
.LBB42_2:
	str	r3, [sp]
	str	r7, [sp, #8]
	str	r1, [sp, #12]
	mov	r3, r5
	bl	tlsf_words.words.Words.write_few
	add	sp, #44
	pop	{r4, r5, r6, r7, pc}
.LBB42_3:
	movs	r4, #7
	bics	r2, r4
	ldr	r0, [r0]
	adds	r0, r0, r2
	lsrs	r2, r7, #3
	lsls	r4, r1, #29
	adds	r2, r2, r4
	movs	r4, #63
	subs	r4, r4, r7
	mov	r4, r6
	sbcs	r4, r1
	bhs	.LBB42_4
	b	.LBB42_12
.LBB42_4:
	str	r0, [sp, #40]
	lsls	r4, r7, #28
	bpl	.LBB42_6
	str	r2, [sp, #36]
	ldr	r0, [sp, #36]
	lsls	r2, r0, #3
	subs	r2, #8
	ldrb	r4, [r3, r2]
	adds	r0, r3, r2
	ldrb	r5, [r0, #1]
	lsls	r5, r5, #8
	adds	r5, r5, r4
	str	r5, [sp, #32]
	ldrb	r5, [r0, #2]
	lsls	r4, r5, #16
	ldrb	r5, [r0, #3]
	lsls	r5, r5, #24
	adds	r5, r5, r4
	ldr	r4, [sp, #32]
	adds	r4, r5, r4
	str	r4, [sp, #28]
	ldrb	r5, [r0, #7]
	str	r5, [sp, #32]
	ldrb	r4, [r0, #6]
	str	r4, [sp, #24]
	ldrb	r4, [r0, #4]
	str	r4, [sp, #20]
	ldrb	r0, [r0, #5]
	ldr	r5, [sp, #40]
	ldr	r4, [sp, #28]
	str	r4, [r5, r2]
	lsls	r0, r0, #8
	ldr	r4, [sp, #20]
	adds	r0, r0, r4
	str	r0, [sp, #20]
	ldr	r0, [sp, #24]
	lsls	r0, r0, #16
	str	r0, [sp, #28]
	ldr	r0, [sp, #32]
	lsls	r0, r0, #24
	ldr	r4, [sp, #28]
	adds	r0, r0, r4
	ldr	r4, [sp, #20]
	adds	r0, r0, r4
	adds	r4, r5, r2
	ldr	r2, [sp, #36]
	str	r0, [r4, #4]
.LBB42_6:
	lsls	r0, r7, #27
	bpl	.LBB42_8
	lsls	r0, r2, #3
	movs	r2, #32
	ands	r2, r0
	ldrb	r0, [r3, r2]
	adds	r4, r3, r2
	ldrb	r5, [r4, #1]
	lsls	r5, r5, #8
	adds	r0, r5, r0
	str	r0, [sp, #36]
	ldrb	r5, [r4, #2]
	lsls	r5, r5, #16
	ldrb	r0, [r4, #3]
	lsls	r0, r0, #24
	adds	r0, r0, r5
	ldr	r5, [sp, #36]
	adds	r0, r0, r5
	str	r0, [sp, #28]
	ldrb	r0, [r4, #7]
	str	r0, [sp, #36]
	ldrb	r0, [r4, #6]
	str	r0, [sp, #32]
	ldrb	r0, [r4, #4]
	str	r0, [sp, #24]
	ldrb	r4, [r4, #5]
	ldr	r0, [sp, #40]
	ldr	r5, [sp, #28]
	str	r5, [r0, r2]
	lsls	r4, r4, #8
	ldr	r5, [sp, #24]
	adds	r4, r4, r5
	str	r4, [sp, #28]
	ldr	r4, [sp, #32]
	lsls	r4, r4, #16
	ldr	r5, [sp, #36]
	lsls	r5, r5, #24
	adds	r4, r5, r4
	ldr	r5, [sp, #28]
	adds	r5, r4, r5
	adds	r4, r0, r2
	str	r5, [r4, #4]
	adds	r2, #8
	ldrb	r0, [r3, r2]
	adds	r4, r3, r2
	ldrb	r5, [r4, #1]
	lsls	r5, r5, #8
	adds	r0, r5, r0
	str	r0, [sp, #36]
	ldrb	r5, [r4, #2]
	lsls	r5, r5, #16
	ldrb	r0, [r4, #3]
	lsls	r0, r0, #24
	adds	r0, r0, r5
	ldr	r5, [sp, #36]
	adds	r0, r0, r5
	str	r0, [sp, #28]
	ldrb	r0, [r4, #7]
	str	r0, [sp, #36]
	ldrb	r0, [r4, #6]
	str	r0, [sp, #32]
	ldrb	r0, [r4, #4]
	str	r0, [sp, #24]
	ldrb	r4, [r4, #5]
	ldr	r0, [sp, #40]
	ldr	r5, [sp, #28]
	str	r5, [r0, r2]
	lsls	r4, r4, #8
	ldr	r5, [sp, #24]
	adds	r4, r4, r5
	str	r4, [sp, #28]
	ldr	r4, [sp, #32]
	lsls	r4, r4, #16
	ldr	r5, [sp, #36]
	lsls	r5, r5, #24
	adds	r4, r5, r4
	ldr	r5, [sp, #28]
	adds	r4, r4, r5
	adds	r2, r0, r2
	str	r4, [r2, #4]
.LBB42_8:
	subs	r7, #25
	sbcs	r1, r6
	blo	.LBB42_11
	ldrb	r0, [r3]
	ldrb	r1, [r3, #1]
	lsls	r1, r1, #8
	adds	r0, r1, r0
	ldrb	r1, [r3, #2]
	lsls	r1, r1, #16
	ldrb	r2, [r3, #3]
	lsls	r2, r2, #24
	adds	r1, r2, r1
	adds	r0, r1, r0
	ldrb	r1, [r3, #7]
	ldrb	r2, [r3, #6]
	ldrb	r4, [r3, #4]
	ldrb	r5, [r3, #5]
	ldr	r6, [sp, #40]
	str	r0, [r6]
	lsls	r0, r5, #8
	adds	r0, r0, r4
	lsls	r2, r2, #16
	lsls	r1, r1, #24
	adds	r1, r1, r2
	adds	r0, r1, r0
	str	r0, [r6, #4]
	ldrb	r0, [r3, #8]
	ldrb	r1, [r3, #9]
	lsls	r1, r1, #8
	adds	r0, r1, r0
	ldrb	r1, [r3, #10]
	lsls	r1, r1, #16
	ldrb	r2, [r3, #11]
	lsls	r2, r2, #24
	adds	r1, r2, r1
	adds	r0, r1, r0
	ldrb	r1, [r3, #15]
	ldrb	r2, [r3, #14]
	ldrb	r4, [r3, #12]
	ldrb	r5, [r3, #13]
	str	r0, [r6, #8]
	lsls	r0, r5, #8
	adds	r0, r0, r4
	lsls	r2, r2, #16
	lsls	r1, r1, #24
	adds	r1, r1, r2
	adds	r0, r1, r0
	str	r0, [r6, #12]
	ldrb	r0, [r3, #16]
	ldrb	r1, [r3, #17]
	lsls	r1, r1, #8
	adds	r0, r1, r0
	ldrb	r1, [r3, #18]
	lsls	r1, r1, #16
	ldrb	r2, [r3, #19]
	lsls	r2, r2, #24
	adds	r1, r2, r1
	adds	r0, r1, r0
	ldrb	r1, [r3, #23]
	ldrb	r2, [r3, #22]
	ldrb	r4, [r3, #20]
	ldrb	r5, [r3, #21]
	str	r0, [r6, #16]
	lsls	r0, r5, #8
	adds	r0, r0, r4
	lsls	r2, r2, #16
	lsls	r1, r1, #24
	adds	r1, r1, r2
	adds	r0, r1, r0
	str	r0, [r6, #20]
	ldrb	r0, [r3, #24]
	ldrb	r1, [r3, #25]
	lsls	r1, r1, #8
	adds	r0, r1, r0
	ldrb	r1, [r3, #26]
	lsls	r1, r1, #16
	ldrb	r2, [r3, #27]
	lsls	r2, r2, #24
	adds	r1, r2, r1
	adds	r0, r1, r0
	ldrb	r1, [r3, #31]
	ldrb	r2, [r3, #30]
	ldrb	r4, [r3, #28]
	ldrb	r3, [r3, #29]
	str	r0, [r6, #24]
	lsls	r0, r3, #8
	adds	r0, r0, r4
	lsls	r2, r2, #16
	lsls	r1, r1, #24
	adds	r1, r1, r2
	adds	r0, r1, r0
	str	r0, [r6, #28]
	add	sp, #44
	pop	{r4, r5, r6, r7, pc}
.LBB42_10:
	str	r3, [sp]
	str	r7, [sp, #8]
	str	r1, [sp, #12]
	mov	r3, r5
	bl	tlsf_words.words.Words.write_run
.LBB42_11:
	add	sp, #44
	pop	{r4, r5, r6, r7, pc}
.LBB42_12:
	lsrs	r1, r1, #3
	str	r3, [sp]
	mov	r3, r1
	bl	tlsf_words.cells.pack_many
	add	sp, #44
	pop	{r4, r5, r6, r7, pc}
.Lfunc_end42:
	.size	tlsf_heap.region.Region.write.4, .Lfunc_end42-tlsf_heap.region.Region.write.4
	.cfi_endproc
	.section	.text.tlsf_words.cells.pack_many,"ax",%progbits
	.p2align	1
	.type	tlsf_words.cells.pack_many,%function
	.code	16
	.thumb_func
tlsf_words.cells.pack_many:
	.cfi_startproc
	push	{r4, r5, r6, r7, lr}
	.cfi_def_cfa_offset 20
	.cfi_offset lr, -4
	.cfi_offset r7, -8
	.cfi_offset r6, -12
	.cfi_offset r5, -16
	.cfi_offset r4, -20
	sub	sp, #36
	.cfi_def_cfa_offset 56
	movs	r1, #3
	mov	r4, r2
	bics	r4, r1
	lsls	r1, r4, #3
	ldr	r5, [sp, #56]
	str	r5, [sp, #32]
	adds	r6, r5, r1
	adds	r1, r0, r1
	str	r1, [sp, #28]
	lsls	r1, r2, #31
	str	r0, [sp, #8]
	beq	.LBB43_2
	lsls	r1, r2, #30
	str	r2, [sp, #12]
	lsrs	r2, r1, #27
	subs	r2, #8
	ldrb	r7, [r6, r2]
	adds	r1, r6, r2
	ldrb	r5, [r1, #1]
	lsls	r5, r5, #8
	adds	r5, r5, r7
	str	r5, [sp, #24]
	ldrb	r5, [r1, #2]
	lsls	r7, r5, #16
	ldrb	r5, [r1, #3]
	lsls	r5, r5, #24
	adds	r5, r5, r7
	ldr	r7, [sp, #24]
	adds	r5, r5, r7
	str	r5, [sp, #4]
	ldrb	r5, [r1, #7]
	str	r5, [sp, #24]
	ldrb	r5, [r1, #6]
	str	r5, [sp]
	ldrb	r5, [r1, #4]
	ldrb	r1, [r1, #5]
	ldr	r0, [sp, #28]
	ldr	r7, [sp, #4]
	str	r7, [r0, r2]
	lsls	r1, r1, #8
	adds	r7, r1, r5
	ldr	r1, [sp]
	lsls	r5, r1, #16
	ldr	r1, [sp, #24]
	lsls	r1, r1, #24
	adds	r1, r1, r5
	adds	r1, r1, r7
	adds	r5, r0, r2
	ldr	r2, [sp, #12]
	str	r1, [r5, #4]
.LBB43_2:
	lsls	r1, r2, #30
	bpl	.LBB43_4
	ldrb	r1, [r6]
	ldrb	r2, [r6, #1]
	lsls	r2, r2, #8
	adds	r1, r2, r1
	ldrb	r2, [r6, #2]
	lsls	r2, r2, #16
	ldrb	r5, [r6, #3]
	lsls	r5, r5, #24
	adds	r2, r5, r2
	adds	r2, r2, r1
	ldrb	r0, [r6, #7]
	str	r0, [sp, #24]
	ldrb	r5, [r6, #6]
	ldrb	r7, [r6, #4]
	ldrb	r1, [r6, #5]
	ldr	r0, [sp, #28]
	str	r2, [r0]
	lsls	r1, r1, #8
	adds	r1, r1, r7
	lsls	r2, r5, #16
	ldr	r5, [sp, #24]
	lsls	r5, r5, #24
	adds	r2, r5, r2
	adds	r1, r2, r1
	str	r1, [r0, #4]
	ldrb	r1, [r6, #8]
	ldrb	r2, [r6, #9]
	lsls	r2, r2, #8
	adds	r1, r2, r1
	ldrb	r2, [r6, #10]
	lsls	r2, r2, #16
	ldrb	r5, [r6, #11]
	lsls	r5, r5, #24
	adds	r2, r5, r2
	adds	r1, r2, r1
	ldrb	r2, [r6, #15]
	ldrb	r5, [r6, #14]
	ldrb	r7, [r6, #12]
	ldrb	r6, [r6, #13]
	str	r1, [r0, #8]
	lsls	r1, r6, #8
	adds	r1, r1, r7
	lsls	r5, r5, #16
	lsls	r2, r2, #24
	adds	r2, r2, r5
	adds	r1, r2, r1
	str	r1, [r0, #12]
.LBB43_4:
	movs	r1, #0
	mov	r2, r1
	str	r1, [sp, #12]
	ldr	r5, [sp, #8]
	str	r3, [sp, #20]
	str	r4, [sp, #16]
.LBB43_5:
	str	r1, [sp, #24]
	str	r2, [sp, #28]
	lsls	r7, r2, #3
	ldr	r0, [sp, #32]
	ldrb	r1, [r0, r7]
	ldr	r0, [sp, #32]
	adds	r3, r0, r7
	ldrb	r2, [r3, #1]
	lsls	r2, r2, #8
	adds	r1, r2, r1
	ldrb	r2, [r3, #2]
	lsls	r2, r2, #16
	ldrb	r4, [r3, #3]
	lsls	r4, r4, #24
	adds	r2, r4, r2
	adds	r1, r2, r1
	ldrb	r2, [r3, #7]
	ldrb	r4, [r3, #6]
	ldrb	r0, [r3, #4]
	ldrb	r3, [r3, #5]
	str	r1, [r5, r7]
	lsls	r1, r3, #8
	adds	r0, r1, r0
	lsls	r1, r4, #16
	lsls	r2, r2, #24
	adds	r1, r2, r1
	adds	r0, r1, r0
	adds	r1, r5, r7
	str	r0, [r1, #4]
	movs	r1, #8
	orrs	r1, r7
	ldr	r0, [sp, #32]
	ldrb	r0, [r0, r1]
	ldr	r2, [sp, #32]
	adds	r2, r2, r1
	ldrb	r3, [r2, #1]
	lsls	r3, r3, #8
	adds	r0, r3, r0
	ldrb	r3, [r2, #2]
	lsls	r3, r3, #16
	ldrb	r4, [r2, #3]
	lsls	r4, r4, #24
	adds	r3, r4, r3
	adds	r0, r3, r0
	ldrb	r3, [r2, #7]
	ldrb	r4, [r2, #6]
	ldrb	r6, [r2, #4]
	ldrb	r2, [r2, #5]
	str	r0, [r5, r1]
	lsls	r0, r2, #8
	adds	r0, r0, r6
	lsls	r2, r4, #16
	lsls	r3, r3, #24
	adds	r2, r3, r2
	adds	r0, r2, r0
	adds	r1, r5, r1
	str	r0, [r1, #4]
	movs	r1, #16
	orrs	r1, r7
	ldr	r0, [sp, #32]
	ldrb	r0, [r0, r1]
	ldr	r2, [sp, #32]
	adds	r2, r2, r1
	ldrb	r3, [r2, #1]
	lsls	r3, r3, #8
	adds	r0, r3, r0
	ldrb	r3, [r2, #2]
	lsls	r3, r3, #16
	ldrb	r4, [r2, #3]
	lsls	r4, r4, #24
	adds	r3, r4, r3
	adds	r0, r3, r0
	ldrb	r3, [r2, #7]
	ldrb	r4, [r2, #6]
	ldrb	r6, [r2, #4]
	ldrb	r2, [r2, #5]
	str	r0, [r5, r1]
	lsls	r0, r2, #8
	adds	r0, r0, r6
	lsls	r2, r4, #16
	lsls	r3, r3, #24
	adds	r2, r3, r2
	adds	r0, r2, r0
	adds	r1, r5, r1
	str	r0, [r1, #4]
	movs	r1, #24
	orrs	r1, r7
	ldr	r2, [sp, #32]
	ldrb	r0, [r2, r1]
	adds	r2, r2, r1
	ldrb	r3, [r2, #1]
	lsls	r3, r3, #8
	adds	r0, r3, r0
	ldrb	r3, [r2, #2]
	lsls	r3, r3, #16
	ldrb	r4, [r2, #3]
	lsls	r4, r4, #24
	adds	r3, r4, r3
	adds	r0, r3, r0
	ldrb	r3, [r2, #7]
	ldrb	r4, [r2, #6]
	ldrb	r6, [r2, #4]
	ldrb	r2, [r2, #5]
	str	r0, [r5, r1]
	lsls	r0, r2, #8
	adds	r0, r0, r6
	lsls	r2, r4, #16
	ldr	r4, [sp, #16]
	lsls	r3, r3, #24
	adds	r2, r3, r2
	ldr	r3, [sp, #20]
	adds	r0, r2, r0
	ldr	r2, [sp, #28]
	adds	r1, r5, r1
	str	r0, [r1, #4]
	ldr	r1, [sp, #24]
	adds	r2, r2, #4
	ldr	r0, [sp, #12]
	adcs	r1, r0
	subs	r0, r2, r4
	mov	r0, r1
	sbcs	r0, r3
	blo	.LBB43_5
	add	sp, #36
	pop	{r4, r5, r6, r7, pc}
.Lfunc_end43:
	.size	tlsf_words.cells.pack_many, .Lfunc_end43-tlsf_words.cells.pack_many
	.cfi_endproc
	.section	.text.tlsf_words.words.Words.write_few,"ax",%progbits
	.p2align	1
	.type	tlsf_words.words.Words.write_few,%function
	.code	16
	.thumb_func
tlsf_words.words.Words.write_few:
	.cfi_startproc
	push	{r4, r5, r6, r7, lr}
	.cfi_def_cfa_offset 20
	.cfi_offset lr, -4
	.cfi_offset r7, -8
	.cfi_offset r6, -12
	.cfi_offset r5, -16
	.cfi_offset r4, -20
	sub	sp, #44
	.cfi_def_cfa_offset 64
	str	r3, [sp, #20]
	movs	r3, #7
	ands	r3, r2
	movs	r1, #8
	subs	r7, r1, r3
	ldr	r4, [sp, #76]
	movs	r6, #0
	ldr	r5, [sp, #72]
	subs	r1, r7, r5
	mov	r1, r6
	sbcs	r1, r4
	str	r7, [sp, #24]
	str	r7, [sp, #28]
	mov	r7, r5
	blo	.LBB44_2
	str	r7, [sp, #28]
.LBB44_2:
	ldr	r1, [sp, #20]
	lsls	r1, r1, #29
	lsrs	r2, r2, #3
	adds	r2, r2, r1
	mov	r1, r7
	orrs	r1, r4
	ldr	r5, [sp, #64]
	beq	.LBB44_4
	str	r4, [sp, #16]
	lsls	r4, r2, #3
	str	r0, [sp, #20]
	ldr	r0, [sp, #20]
	str	r6, [sp, #12]
	ldr	r6, [r0]
	ldr	r1, [r6, r4]
	str	r1, [sp, #32]
	adds	r0, r6, r4
	str	r0, [sp, #4]
	ldr	r1, [r0, #4]
	str	r1, [sp, #36]
	add	r1, sp, #32
	adds	r0, r1, r3
	mov	r1, r5
	str	r5, [sp, #8]
	mov	r5, r2
	ldr	r2, [sp, #28]
	bl	tlsf_memory_cpy
	mov	r2, r5
	ldr	r5, [sp, #8]
	ldr	r0, [sp, #32]
	str	r0, [r6, r4]
	ldr	r6, [sp, #12]
	ldr	r4, [sp, #16]
	ldr	r0, [sp, #20]
	ldr	r1, [sp, #36]
	ldr	r3, [sp, #4]
	str	r1, [r3, #4]
.LBB44_4:
	ldr	r1, [sp, #24]
	subs	r1, r1, r7
	sbcs	r6, r4
	bhs	.LBB44_6
	lsls	r2, r2, #3
	ldr	r1, [r0]
	adds	r4, r1, r2
	ldr	r0, [r4, #8]
	ldr	r1, [r4, #12]
	str	r1, [sp, #36]
	str	r0, [sp, #32]
	ldr	r0, [sp, #28]
	adds	r1, r5, r0
	subs	r2, r7, r0
	add	r0, sp, #32
	bl	tlsf_memory_cpy
	ldr	r0, [sp, #36]
	ldr	r1, [sp, #32]
	str	r1, [r4, #8]
	str	r0, [r4, #12]
.LBB44_6:
	add	sp, #44
	pop	{r4, r5, r6, r7, pc}
.Lfunc_end44:
	.size	tlsf_words.words.Words.write_few, .Lfunc_end44-tlsf_words.words.Words.write_few
	.cfi_endproc
	.section	.text.tlsf_words.words.Words.write_run,"ax",%progbits
	.p2align	1
	.type	tlsf_words.words.Words.write_run,%function
	.code	16
	.thumb_func
tlsf_words.words.Words.write_run:
	.cfi_startproc
	push	{r4, r5, r6, r7, lr}
	.cfi_def_cfa_offset 20
	.cfi_offset lr, -4
	.cfi_offset r7, -8
	.cfi_offset r6, -12
	.cfi_offset r5, -16
	.cfi_offset r4, -20
	sub	sp, #68
	.cfi_def_cfa_offset 88
	mov	r5, r2
	mov	r6, r0
	movs	r1, #0
	adds	r0, r2, #7
	adcs	r3, r1
	lsls	r2, r3, #29
	str	r2, [sp, #44]
	lsrs	r0, r0, #3
	str	r0, [sp, #24]
	rsbs	r7, r5, #0
	movs	r4, #7
	ands	r7, r4
	ldr	r2, [sp, #100]
	ldr	r0, [sp, #96]
	str	r0, [sp, #36]
	subs	r3, r0, r7
	str	r2, [sp, #28]
	sbcs	r2, r1
	mov	r0, r3
	bics	r0, r4
	str	r7, [sp, #40]
	adds	r0, r0, r7
	str	r0, [sp, #32]
	str	r3, [sp, #48]
	lsrs	r3, r3, #3
	str	r2, [sp, #52]
	lsls	r0, r2, #29
	str	r0, [sp, #20]
	mov	r2, r5
	ands	r2, r4
	str	r1, [sp, #56]
	mvns	r0, r1
	ldr	r7, [sp, #88]
	cmp	r2, #0
	str	r6, [sp, #60]
	str	r0, [sp, #64]
	beq	.LBB45_2
	ldrb	r0, [r7]
	ldrb	r1, [r7, #1]
	lsls	r1, r1, #8
	adds	r0, r1, r0
	ldrb	r1, [r7, #2]
	lsls	r1, r1, #16
	str	r3, [sp, #16]
	ldrb	r3, [r7, #3]
	lsls	r3, r3, #24
	adds	r1, r3, r1
	adds	r0, r1, r0
	ldrb	r1, [r7, #4]
	ldrb	r3, [r7, #5]
	lsls	r3, r3, #8
	adds	r1, r3, r1
	ldrb	r3, [r7, #6]
	lsls	r3, r3, #16
	ldrb	r6, [r7, #7]
	lsls	r6, r6, #24
	adds	r3, r6, r3
	adds	r1, r3, r1
	lsls	r6, r2, #3
	mov	r2, r6
	bl	__aeabi_llsl
	str	r0, [sp, #8]
	str	r1, [sp, #12]
	ldr	r0, [sp, #64]
	ldr	r1, [sp, #64]
	mov	r2, r6
	ldr	r6, [sp, #60]
	bl	__aeabi_llsl
	bics	r5, r4
	ldr	r2, [r6]
	adds	r3, r2, r5
	ldr	r4, [r3, #4]
	bics	r4, r1
	ldr	r1, [r2, r5]
	bics	r1, r0
	ldr	r0, [sp, #8]
	adds	r0, r0, r1
	str	r0, [r2, r5]
	ldr	r1, [sp, #12]
	adcs	r4, r1
	str	r4, [r3, #4]
	ldr	r3, [sp, #16]
.LBB45_2:
	ldr	r0, [sp, #44]
	ldr	r1, [sp, #24]
	adds	r2, r1, r0
	ldr	r0, [sp, #20]
	adds	r0, r3, r0
	str	r0, [sp, #44]
	ldr	r4, [sp, #36]
	mov	r0, r4
	ldr	r5, [sp, #32]
	eors	r0, r5
	ldr	r1, [sp, #28]
	orrs	r0, r1
	beq	.LBB45_4
	adds	r1, r7, r4
	subs	r1, #8
	ldrb	r0, [r1]
	str	r2, [sp, #28]
	ldrb	r2, [r1, #1]
	lsls	r2, r2, #8
	adds	r0, r2, r0
	ldrb	r2, [r1, #2]
	lsls	r2, r2, #16
	ldrb	r3, [r1, #3]
	lsls	r3, r3, #24
	adds	r2, r3, r2
	adds	r0, r2, r0
	ldrb	r2, [r1, #4]
	ldrb	r3, [r1, #5]
	lsls	r3, r3, #8
	adds	r2, r3, r2
	ldrb	r3, [r1, #6]
	lsls	r3, r3, #16
	ldrb	r1, [r1, #7]
	lsls	r1, r1, #24
	adds	r1, r1, r3
	adds	r1, r1, r2
	subs	r2, r4, r5
	lsls	r6, r2, #3
	movs	r2, #64
	subs	r2, r2, r6
	bl	__aeabi_llsr
	mov	r4, r0
	mov	r5, r1
	ldr	r0, [sp, #64]
	mov	r1, r0
	mov	r2, r6
	bl	__aeabi_llsl
	bics	r4, r0
	ldr	r2, [sp, #44]
	ldr	r3, [sp, #28]
	adds	r2, r2, r3
	lsls	r2, r2, #3
	ldr	r3, [sp, #60]
	ldr	r3, [r3]
	ldr	r6, [r3, r2]
	ands	r6, r0
	adds	r0, r6, r4
	ldr	r6, [sp, #60]
	str	r0, [r3, r2]
	bics	r5, r1
	adds	r0, r3, r2
	ldr	r2, [r0, #4]
	ands	r2, r1
	adds	r1, r2, r5
	ldr	r2, [sp, #28]
	str	r1, [r0, #4]
.LBB45_4:
	ldr	r0, [sp, #40]
	adds	r1, r7, r0
	lsls	r0, r2, #3
	ldr	r2, [r6]
	adds	r0, r2, r0
	movs	r2, #63
	ldr	r5, [sp, #48]
	subs	r2, r2, r5
	ldr	r2, [sp, #56]
	ldr	r4, [sp, #52]
	sbcs	r2, r4
	bhs	.LBB45_5
	b	.LBB45_11
.LBB45_5:
	lsls	r2, r5, #28
	bpl	.LBB45_7
	ldr	r2, [sp, #44]
	lsls	r2, r2, #3
	subs	r2, #8
	ldrb	r3, [r1, r2]
	adds	r4, r1, r2
	ldrb	r5, [r4, #1]
	lsls	r5, r5, #8
	adds	r3, r5, r3
	ldrb	r5, [r4, #2]
	lsls	r5, r5, #16
	ldrb	r6, [r4, #3]
	lsls	r6, r6, #24
	adds	r5, r6, r5
	adds	r3, r5, r3
	ldrb	r5, [r4, #7]
	ldrb	r6, [r4, #6]
	ldrb	r7, [r4, #4]
	ldrb	r4, [r4, #5]
	str	r3, [r0, r2]
	lsls	r3, r4, #8
	adds	r3, r3, r7
	lsls	r4, r6, #16
	lsls	r5, r5, #24
	adds	r4, r5, r4
	ldr	r5, [sp, #48]
	adds	r3, r4, r3
	ldr	r4, [sp, #52]
	adds	r2, r0, r2
	str	r3, [r2, #4]
.LBB45_7:
	lsls	r2, r5, #27
	bpl	.LBB45_9
	ldr	r2, [sp, #44]
	lsls	r3, r2, #3
	movs	r2, #32
	ands	r2, r3
	ldrb	r3, [r1, r2]
	adds	r4, r1, r2
	ldrb	r5, [r4, #1]
	lsls	r5, r5, #8
	adds	r3, r5, r3
	ldrb	r5, [r4, #2]
	lsls	r5, r5, #16
	ldrb	r6, [r4, #3]
	lsls	r6, r6, #24
	adds	r5, r6, r5
	adds	r3, r5, r3
	ldrb	r5, [r4, #7]
	ldrb	r6, [r4, #6]
	ldrb	r7, [r4, #4]
	ldrb	r4, [r4, #5]
	str	r3, [r0, r2]
	lsls	r3, r4, #8
	adds	r3, r3, r7
	lsls	r4, r6, #16
	lsls	r5, r5, #24
	adds	r4, r5, r4
	adds	r3, r4, r3
	adds	r4, r0, r2
	str	r3, [r4, #4]
	adds	r2, #8
	ldrb	r3, [r1, r2]
	adds	r4, r1, r2
	ldrb	r5, [r4, #1]
	lsls	r5, r5, #8
	adds	r3, r5, r3
	ldrb	r5, [r4, #2]
	lsls	r5, r5, #16
	ldrb	r6, [r4, #3]
	lsls	r6, r6, #24
	adds	r5, r6, r5
	adds	r3, r5, r3
	ldrb	r5, [r4, #7]
	ldrb	r6, [r4, #6]
	ldrb	r7, [r4, #4]
	ldrb	r4, [r4, #5]
	str	r3, [r0, r2]
	lsls	r3, r4, #8
	adds	r3, r3, r7
	lsls	r4, r6, #16
	lsls	r5, r5, #24
	adds	r4, r5, r4
	ldr	r5, [sp, #48]
	adds	r3, r4, r3
	ldr	r4, [sp, #52]
	adds	r2, r0, r2
	str	r3, [r2, #4]
.LBB45_9:
	subs	r5, #32
	ldr	r2, [sp, #56]
	sbcs	r4, r2
	blo	.LBB45_12
	ldrb	r2, [r1]
	ldrb	r3, [r1, #1]
	lsls	r3, r3, #8
	adds	r2, r3, r2
	ldrb	r3, [r1, #2]
	lsls	r3, r3, #16
	ldrb	r4, [r1, #3]
	lsls	r4, r4, #24
	adds	r3, r4, r3
	adds	r2, r3, r2
	ldrb	r3, [r1, #7]
	ldrb	r4, [r1, #6]
	ldrb	r5, [r1, #4]
	ldrb	r6, [r1, #5]
	str	r2, [r0]
	lsls	r2, r6, #8
	adds	r2, r2, r5
	lsls	r4, r4, #16
	lsls	r3, r3, #24
	adds	r3, r3, r4
	adds	r2, r3, r2
	str	r2, [r0, #4]
	ldrb	r2, [r1, #8]
	ldrb	r3, [r1, #9]
	lsls	r3, r3, #8
	adds	r2, r3, r2
	ldrb	r3, [r1, #10]
	lsls	r3, r3, #16
	ldrb	r4, [r1, #11]
	lsls	r4, r4, #24
	adds	r3, r4, r3
	adds	r2, r3, r2
	ldrb	r3, [r1, #15]
	ldrb	r4, [r1, #14]
	ldrb	r5, [r1, #12]
	ldrb	r6, [r1, #13]
	str	r2, [r0, #8]
	lsls	r2, r6, #8
	adds	r2, r2, r5
	lsls	r4, r4, #16
	lsls	r3, r3, #24
	adds	r3, r3, r4
	adds	r2, r3, r2
	str	r2, [r0, #12]
	ldrb	r2, [r1, #16]
	ldrb	r3, [r1, #17]
	lsls	r3, r3, #8
	adds	r2, r3, r2
	ldrb	r3, [r1, #18]
	lsls	r3, r3, #16
	ldrb	r4, [r1, #19]
	lsls	r4, r4, #24
	adds	r3, r4, r3
	adds	r2, r3, r2
	ldrb	r3, [r1, #23]
	ldrb	r4, [r1, #22]
	ldrb	r5, [r1, #20]
	ldrb	r6, [r1, #21]
	str	r2, [r0, #16]
	lsls	r2, r6, #8
	adds	r2, r2, r5
	lsls	r4, r4, #16
	lsls	r3, r3, #24
	adds	r3, r3, r4
	adds	r2, r3, r2
	str	r2, [r0, #20]
	ldrb	r2, [r1, #24]
	ldrb	r3, [r1, #25]
	lsls	r3, r3, #8
	adds	r2, r3, r2
	ldrb	r3, [r1, #26]
	lsls	r3, r3, #16
	ldrb	r4, [r1, #27]
	lsls	r4, r4, #24
	adds	r3, r4, r3
	adds	r2, r3, r2
	ldrb	r3, [r1, #31]
	ldrb	r4, [r1, #30]
	ldrb	r5, [r1, #28]
	ldrb	r1, [r1, #29]
	str	r2, [r0, #24]
	lsls	r1, r1, #8
	adds	r1, r1, r5
	lsls	r2, r4, #16
	lsls	r3, r3, #24
	adds	r2, r3, r2
	adds	r1, r2, r1
	str	r1, [r0, #28]
	add	sp, #68
	pop	{r4, r5, r6, r7, pc}
.LBB45_11:
	lsrs	r3, r4, #3
	str	r1, [sp]
	ldr	r2, [sp, #44]
	bl	tlsf_words.cells.pack_many
.LBB45_12:
	add	sp, #68
	pop	{r4, r5, r6, r7, pc}
.Lfunc_end45:
	.size	tlsf_words.words.Words.write_run, .Lfunc_end45-tlsf_words.words.Words.write_run
	.cfi_endproc
	.section	.text.tlsf_allocate,"ax",%progbits
	.globl	tlsf_allocate
	.p2align	2
	.type	tlsf_allocate,%function
	.code	16
	.thumb_func
tlsf_allocate:
	.cfi_startproc
	push	{r4, r5, r6, r7, lr}
	.cfi_def_cfa_offset 20
	.cfi_offset lr, -4
	.cfi_offset r7, -8
	.cfi_offset r6, -12
	.cfi_offset r5, -16
	.cfi_offset r4, -20
	sub	sp, #100
	.cfi_def_cfa_offset 120
	ldrb	r3, [r0, #8]
	cmp	r3, #0
	beq	.LBB46_23
	ldr	r7, [r0]
	ldrb	r3, [r7]
	cmp	r3, #0
	beq	.LBB46_23
	movs	r4, #0
	strb	r4, [r7]
	adds	r5, r1, #1
	mov	r3, r4
	adcs	r3, r4
	cmp	r1, #0
	beq	.LBB46_4
	mov	r5, r1
.LBB46_4:
	beq	.LBB46_6
	mov	r3, r4
.LBB46_6:
	adds	r5, #31
	adcs	r3, r4
	lsrs	r4, r5, #3
	lsls	r3, r3, #29
	adds	r4, r4, r3
	movs	r3, #1
	lsls	r5, r3, #20
	cmp	r4, r5
	bls	.LBB46_12
.LBB46_7:
	ldr	r0, [r7, #12]
	cmp	r1, r0
	bhi	.LBB46_9
	mov	r1, r0
.LBB46_9:
	str	r1, [r7, #12]
	ldr	r0, [r7, #8]
	adds	r0, r0, #1
	blo	.LBB46_11
	movs	r0, #0
	mvns	r0, r0
.LBB46_11:
	str	r0, [r7, #8]
	mov	r0, r3
	b	.LBB46_48
.LBB46_12:
	str	r1, [sp, #76]
	str	r0, [sp, #56]
	str	r2, [sp, #68]
	movs	r1, #16
	mov	r0, r4
	str	r1, [sp, #44]
	orrs	r0, r1
	str	r3, [sp, #96]
	bl	__clzsi2
	movs	r1, #27
	str	r1, [sp, #40]
	subs	r0, r1, r0
	str	r4, [sp, #92]
	subs	r3, r4, #1
	lsrs	r3, r0
	lsls	r0, r0, #4
	adds	r0, r3, r0
	adds	r1, r0, #1
	movs	r0, #0
	subs	r2, r1, #1
	mov	r1, r0
	sbcs	r1, r0
	lsrs	r4, r2, #4
	lsls	r5, r1, #28
	adds	r4, r4, r5
	lsls	r5, r4, #2
	mov	r6, r7
	adds	r6, #108
	str	r6, [sp, #64]
	ldr	r5, [r6, r5]
	movs	r6, #15
	str	r6, [sp, #48]
	ands	r3, r6
	lsrs	r5, r3
	ldr	r3, [sp, #96]
	bics	r5, r3
	beq	.LBB46_15
	cmp	r5, #0
	beq	.LBB46_21
	rsbs	r3, r5, #0
	ands	r3, r5
	ldr	r4, .LCPI46_0
	muls	r4, r3, r4
	lsrs	r3, r4, #27
	adr	r4, .LCPI46_1
	ldrb	r3, [r4, r3]
	b	.LBB46_22
.LBB46_15:
	mvns	r1, r3
	lsls	r1, r4
	ldr	r5, [r7, #104]
	ands	r5, r1
	ldr	r1, [sp, #76]
	beq	.LBB46_7
	ldr	r3, .LCPI46_0
	adr	r2, .LCPI46_1
	movs	r4, #32
	cmp	r5, #0
	mov	r1, r4
	beq	.LBB46_18
	rsbs	r1, r5, #0
	ands	r1, r5
	muls	r1, r3, r1
	lsrs	r1, r1, #27
	ldrb	r1, [r2, r1]
.LBB46_18:
	lsls	r5, r1, #2
	ldr	r6, [sp, #64]
	ldr	r5, [r6, r5]
	cmp	r5, #0
	beq	.LBB46_25
	cmp	r5, #0
	beq	.LBB46_24
	rsbs	r4, r5, #0
	ands	r4, r5
	muls	r3, r4, r3
	lsrs	r3, r3, #27
	ldrb	r4, [r2, r3]
	b	.LBB46_25
.LBB46_21:
	movs	r3, #32
.LBB46_22:
	adds	r3, r2, r3
	adcs	r1, r0
	lsrs	r2, r3, #4
	lsls	r1, r1, #28
	adds	r5, r2, r1
	b	.LBB46_26
.LBB46_23:
	movs	r0, #0
	bl	tlsf_c.call_fault.CallFault.refusal
	add	sp, #100
	pop	{r4, r5, r6, r7, pc}
.LBB46_24:
	movs	r4, #32
.LBB46_25:
	lsls	r1, r1, #4
	adds	r3, r4, r1
	lsrs	r5, r3, #4
.LBB46_26:
	ldr	r1, [r7, #32]
	ldr	r2, [r7, #36]
	str	r1, [sp, #88]
	str	r2, [sp, #80]
	ands	r1, r2
	adds	r1, r1, #1
	beq	.LBB46_29
	str	r5, [sp, #36]
	str	r0, [sp, #52]
	mvns	r0, r0
	lsls	r4, r3, #2
	mov	r6, r7
	adds	r7, #192
	ldr	r1, [r7, r4]
	str	r1, [sp, #72]
	lsls	r2, r1, #3
	ldr	r1, [r6, #48]
	str	r2, [sp, #60]
	adds	r5, r1, r2
	ldr	r5, [r5, #16]
	adds	r2, r5, #1
	str	r6, [sp, #84]
	str	r0, [sp, #28]
	beq	.LBB46_30
	lsls	r2, r5, #3
	adds	r1, r1, r2
	str	r0, [r1, #20]
	str	r5, [r7, r4]
	ldr	r1, [r6, #48]
	ldr	r4, [sp, #92]
	mov	r6, r7
	b	.LBB46_33
.LBB46_29:
	movs	r0, #2
	ldr	r3, [sp, #96]
	b	.LBB46_48
.LBB46_30:
	ldr	r5, [sp, #96]
	mvns	r2, r5
	adds	r2, r2, #1
	str	r7, [sp, #32]
	str	r2, [r7, r4]
	ldr	r2, [sp, #48]
	ands	r3, r2
	mov	r2, r5
	lsls	r2, r3
	ldr	r0, [sp, #36]
	lsls	r3, r0, #2
	ldr	r6, [sp, #64]
	ldr	r4, [r6, r3]
	bics	r4, r2
	str	r4, [r6, r3]
	bne	.LBB46_32
	mov	r2, r5
	lsls	r2, r0
	ldr	r0, [sp, #84]
	ldr	r3, [r0, #104]
	bics	r3, r2
	str	r3, [r0, #104]
.LBB46_32:
	ldr	r4, [sp, #92]
	ldr	r6, [sp, #32]
.LBB46_33:
	ldr	r2, [sp, #60]
	adds	r5, r1, r2
	ldr	r0, [r5, #4]
	str	r0, [sp, #36]
	ldr	r2, [r1, r2]
	lsls	r3, r4, #2
	subs	r7, r2, r3
	cmp	r7, #15
	ldr	r0, [sp, #52]
	bhi	.LBB46_35
	movs	r1, #0
	str	r1, [r5, #20]
	ldr	r3, [sp, #76]
	str	r3, [r5, #16]
	ldr	r3, [sp, #88]
	str	r3, [r5, #8]
	ldr	r3, [sp, #80]
	str	r3, [r5, #12]
	subs	r2, r2, #1
	str	r2, [r5]
	ldr	r3, [sp, #36]
	sbcs	r3, r1
	str	r3, [r5, #4]
	lsrs	r1, r2, #2
	ldr	r4, [sp, #68]
	ldr	r6, [sp, #84]
	b	.LBB46_41
.LBB46_35:
	str	r6, [sp, #32]
	lsrs	r3, r7, #2
	str	r3, [sp, #20]
	ldr	r3, [sp, #76]
	str	r3, [r5, #16]
	ldr	r3, [sp, #88]
	str	r3, [r5, #8]
	ldr	r3, [sp, #72]
	adds	r3, r3, r4
	lsls	r4, r3, #3
	adds	r6, r1, r4
	str	r6, [sp, #16]
	subs	r2, r2, r7
	str	r2, [r5]
	str	r4, [sp, #24]
	str	r7, [r1, r4]
	ldr	r1, [sp, #88]
	str	r1, [r6, #8]
	ldr	r4, [sp, #36]
	sbcs	r4, r0
	lsrs	r1, r3, #6
	lsls	r1, r1, #3
	str	r1, [sp, #12]
	mov	r6, r0
	ldr	r0, [sp, #84]
	ldr	r0, [r0, #72]
	str	r0, [sp, #36]
	ldr	r0, [r0, r1]
	str	r0, [sp, #8]
	movs	r2, #63
	str	r3, [sp, #76]
	ands	r2, r3
	movs	r0, #1
	str	r0, [sp]
	mov	r1, r6
	bl	__aeabi_llsl
	str	r1, [sp, #4]
	ldr	r1, [sp, #8]
	orrs	r0, r1
	ldr	r3, [sp, #36]
	ldr	r1, [sp, #12]
	str	r0, [r3, r1]
	str	r6, [r5, #20]
	ldr	r6, [sp, #20]
	ldr	r0, [sp, #80]
	str	r0, [r5, #12]
	str	r4, [r5, #4]
	ldr	r2, [sp, #16]
	str	r0, [r2, #12]
	ldr	r0, [sp, #72]
	str	r0, [r2, #4]
	adds	r0, r3, r1
	ldr	r2, [r0, #4]
	ldr	r1, [sp, #4]
	orrs	r2, r1
	str	r2, [r0, #4]
	lsls	r0, r7, #30
	ldr	r5, [sp, #28]
	bmi	.LBB46_37
	ldr	r3, [sp, #76]
	adds	r0, r6, r3
	lsls	r0, r0, #3
	ldr	r1, [sp, #84]
	ldr	r1, [r1, #48]
	ldr	r2, [r1, r0]
	ands	r2, r5
	str	r2, [r1, r0]
	adds	r0, r1, r0
	str	r3, [r0, #4]
.LBB46_37:
	ldr	r0, [sp, #44]
	orrs	r0, r6
	bl	__clzsi2
	ldr	r1, [sp, #40]
	subs	r0, r1, r0
	lsrs	r6, r0
	lsls	r0, r0, #4
	adds	r0, r6, r0
	lsls	r2, r0, #2
	ldr	r7, [sp, #32]
	ldr	r1, [r7, r2]
	ldr	r3, [sp, #76]
	str	r3, [r7, r2]
	cmp	r1, #0
	ldr	r4, [sp, #68]
	bmi	.LBB46_39
	ldr	r6, [sp, #84]
	ldr	r0, [r6, #48]
	ldr	r2, [sp, #24]
	adds	r2, r0, r2
	str	r1, [r2, #16]
	str	r5, [r2, #20]
	lsls	r1, r1, #3
	adds	r0, r0, r1
	str	r3, [r0, #20]
	ldr	r1, [r0, #16]
	ands	r1, r5
	str	r1, [r0, #16]
	b	.LBB46_40
.LBB46_39:
	mov	r2, r6
	ldr	r6, [sp, #84]
	ldr	r1, [r6, #48]
	ldr	r3, [sp, #24]
	adds	r1, r1, r3
	str	r5, [r1, #16]
	str	r5, [r1, #20]
	ldr	r1, [sp, #48]
	ands	r2, r1
	ldr	r7, [sp]
	mov	r1, r7
	lsls	r1, r2
	lsrs	r0, r0, #4
	lsls	r2, r0, #2
	ldr	r5, [sp, #64]
	ldr	r3, [r5, r2]
	orrs	r3, r1
	str	r3, [r5, r2]
	lsls	r7, r0
	ldr	r0, [r6, #104]
	orrs	r0, r7
	str	r0, [r6, #104]
.LBB46_40:
	ldr	r1, [sp, #92]
	ldr	r0, [sp, #52]
.LBB46_41:
	ldr	r2, [r6, #40]
	adds	r1, r2, r1
	str	r1, [r6, #40]
	ldr	r2, [r6, #44]
	cmp	r2, r1
	ldr	r3, [sp, #96]
	bhs	.LBB46_43
	str	r1, [r6, #44]
.LBB46_43:
	ldr	r1, [r6, #32]
	adds	r1, r1, #1
	str	r1, [r6, #32]
	ldr	r1, [r6, #36]
	adcs	r1, r0
	str	r1, [r6, #36]
	ldr	r1, [r6, #24]
	ldr	r2, [sp, #92]
	lsls	r2, r2, #31
	beq	.LBB46_46
	ldr	r2, [sp, #56]
	ldrb	r2, [r2, #28]
	cmp	r2, #0
	bne	.LBB46_46
	ldr	r2, [sp, #56]
	strb	r3, [r2, #28]
.LBB46_46:
	ldr	r5, [sp, #88]
	strb	r5, [r4, #8]
	ldr	r6, [sp, #72]
	strb	r6, [r4, #4]
	strb	r1, [r4]
	ldr	r7, [sp, #80]
	strb	r7, [r4, #12]
	lsrs	r2, r5, #24
	strb	r2, [r4, #11]
	lsrs	r2, r5, #16
	strb	r2, [r4, #10]
	lsrs	r2, r5, #8
	strb	r2, [r4, #9]
	lsrs	r2, r6, #24
	strb	r2, [r4, #7]
	lsrs	r2, r6, #16
	strb	r2, [r4, #6]
	lsrs	r2, r6, #8
	strb	r2, [r4, #5]
	lsrs	r2, r1, #24
	strb	r2, [r4, #3]
	lsrs	r2, r1, #16
	strb	r2, [r4, #2]
	lsrs	r1, r1, #8
	strb	r1, [r4, #1]
	lsrs	r1, r7, #24
	strb	r1, [r4, #15]
	lsrs	r1, r7, #16
	strb	r1, [r4, #14]
	lsrs	r1, r7, #8
	strb	r1, [r4, #13]
	ldr	r1, [sp, #92]
	subs	r1, r1, #3
	ldr	r7, [sp, #84]
	beq	.LBB46_48
	ldr	r0, [r7, #48]
	ldr	r2, [sp, #60]
	adds	r0, r0, r2
	adds	r0, #24
	lsls	r2, r1, #3
	movs	r4, #0
	mov	r1, r4
	bl	tlsf_memory_set
	ldr	r3, [sp, #96]
	mov	r0, r4
.LBB46_48:
	strb	r3, [r7]
	add	sp, #100
	pop	{r4, r5, r6, r7, pc}
	.p2align	2
.LCPI46_0:
	.long	125613361
.LCPI46_1:
	.ascii	"\000\001\034\002\035\016\030\003\036\026\024\017\031\021\004\b\037\033\r\027\025\023\020\007\032\f\022\006\013\005\n\t"
.Lfunc_end46:
	.size	tlsf_allocate, .Lfunc_end46-tlsf_allocate
	.cfi_endproc
	.section	.text.tlsf_allocate_aligned,"ax",%progbits
	.globl	tlsf_allocate_aligned
	.p2align	2
	.type	tlsf_allocate_aligned,%function
	.code	16
	.thumb_func
tlsf_allocate_aligned:
	.cfi_startproc
	push	{r4, r5, r6, r7, lr}
	.cfi_def_cfa_offset 20
	.cfi_offset lr, -4
	.cfi_offset r7, -8
	.cfi_offset r6, -12
	.cfi_offset r5, -16
	.cfi_offset r4, -20
	sub	sp, #148
	.cfi_def_cfa_offset 168
	ldrb	r4, [r1, #8]
	cmp	r4, #0
	beq	.LBB47_19
	ldr	r5, [r1]
	ldrb	r1, [r5]
	cmp	r1, #0
	beq	.LBB47_19
	str	r0, [sp, #124]
	movs	r0, #0
	strb	r0, [r5]
	mvns	r6, r0
	subs	r4, r6, #4
	str	r6, [sp, #112]
	sbcs	r6, r0
	ldr	r7, [r5, #32]
	ldr	r1, [r5, #36]
	str	r7, [sp, #120]
	subs	r4, r4, r7
	sbcs	r6, r1
	bhs	.LBB47_4
	movs	r1, #1
	strb	r1, [r5]
	movs	r6, #0
	movs	r1, #2
	b	.LBB47_17
.LBB47_4:
	str	r5, [sp, #116]
	str	r1, [sp, #108]
	movs	r4, #1
	cmp	r3, #1
	mov	r5, r3
	bhi	.LBB47_6
	mov	r5, r4
.LBB47_6:
	lsls	r4, r4, #20
	cmp	r3, r4
	ldr	r7, [sp, #116]
	bhi	.LBB47_12
	mov	r3, r7
	adds	r3, #24
	str	r3, [sp, #100]
	adds	r3, r2, #1
	mov	r6, r0
	adcs	r6, r0
	cmp	r2, #0
	beq	.LBB47_9
	mov	r3, r2
.LBB47_9:
	beq	.LBB47_11
	mov	r6, r0
.LBB47_11:
	adds	r3, #31
	adcs	r6, r0
	lsrs	r1, r3, #3
	lsls	r3, r6, #29
	adds	r6, r1, r3
	adds	r1, r5, r6
	adds	r3, r1, #4
	cmp	r3, r4
	bls	.LBB47_21
.LBB47_12:
	movs	r1, #1
	strb	r1, [r7]
	ldr	r3, [r7, #12]
	cmp	r2, r3
	bhi	.LBB47_14
	mov	r2, r3
.LBB47_14:
	str	r2, [r7, #12]
	movs	r6, #0
	ldr	r2, [r7, #8]
	adds	r2, r2, #1
	blo	.LBB47_16
	mvns	r2, r6
.LBB47_16:
	str	r2, [r7, #8]
.LBB47_17:
	mov	r3, r6
	mov	r4, r6
	ldr	r5, [sp, #124]
.LBB47_18:
	str	r6, [r5]
	adds	r0, r5, #4
	stm	r0!, {r1, r3, r4}
	add	sp, #148
	pop	{r4, r5, r6, r7, pc}
.LBB47_19:
	movs	r6, #0
	mov	r5, r0
	mov	r0, r6
	bl	tlsf_c.call_fault.CallFault.refusal
	mov	r1, r0
.LBB47_20:
	mov	r3, r6
	mov	r4, r6
	b	.LBB47_18
.LBB47_21:
	str	r5, [sp, #84]
	str	r2, [sp, #88]
	ldr	r0, [r7, #44]
	str	r0, [sp, #40]
	movs	r1, #16
	mov	r0, r3
	str	r1, [sp, #64]
	orrs	r0, r1
	mov	r4, r3
	bl	__clzsi2
	movs	r1, #27
	str	r1, [sp, #60]
	subs	r0, r1, r0
	str	r4, [sp, #92]
	subs	r2, r4, #1
	lsrs	r2, r0
	lsls	r0, r0, #4
	adds	r0, r2, r0
	adds	r0, r0, #1
	movs	r3, #0
	subs	r1, r0, #1
	str	r3, [sp, #104]
	mov	r0, r3
	sbcs	r0, r3
	lsrs	r3, r1, #4
	lsls	r4, r0, #28
	adds	r3, r3, r4
	lsls	r4, r3, #2
	mov	r5, r7
	adds	r5, #108
	str	r5, [sp, #80]
	ldr	r4, [r5, r4]
	movs	r5, #15
	str	r5, [sp, #68]
	ands	r2, r5
	lsrs	r4, r2
	movs	r5, #1
	bics	r4, r5
	beq	.LBB47_24
	cmp	r4, #0
	str	r5, [sp, #36]
	beq	.LBB47_30
	rsbs	r2, r4, #0
	ands	r2, r4
	ldr	r3, .LCPI47_4
	muls	r3, r2, r3
	lsrs	r2, r3, #27
	adr	r3, .LCPI47_5
	ldrb	r2, [r3, r2]
	b	.LBB47_31
.LBB47_24:
	movs	r0, #1
	mvns	r0, r0
	lsls	r0, r3
	ldr	r4, [r7, #104]
	ands	r4, r0
	ldr	r2, [sp, #88]
	beq	.LBB47_12
	str	r5, [sp, #36]
	ldr	r2, .LCPI47_4
	adr	r1, .LCPI47_5
	movs	r3, #32
	cmp	r4, #0
	mov	r0, r3
	beq	.LBB47_27
	rsbs	r0, r4, #0
	ands	r0, r4
	muls	r0, r2, r0
	lsrs	r0, r0, #27
	ldrb	r0, [r1, r0]
.LBB47_27:
	lsls	r4, r0, #2
	ldr	r5, [sp, #80]
	ldr	r4, [r5, r4]
	cmp	r4, #0
	beq	.LBB47_33
	cmp	r4, #0
	beq	.LBB47_32
	rsbs	r3, r4, #0
	ands	r3, r4
	muls	r2, r3, r2
	lsrs	r2, r2, #27
	ldrb	r3, [r1, r2]
	b	.LBB47_33
.LBB47_30:
	movs	r2, #32
.LBB47_31:
	str	r6, [sp, #44]
	adds	r2, r1, r2
	ldr	r1, [sp, #104]
	adcs	r0, r1
	lsrs	r1, r2, #4
	lsls	r0, r0, #28
	adds	r0, r1, r0
	b	.LBB47_34
.LBB47_32:
	movs	r3, #32
.LBB47_33:
	str	r6, [sp, #44]
	lsls	r0, r0, #4
	adds	r2, r3, r0
	lsrs	r0, r2, #4
.LBB47_34:
	str	r0, [sp, #76]
	mov	r3, r7
	adds	r3, #48
	lsls	r1, r2, #2
	mov	r0, r7
	adds	r7, #192
	str	r1, [sp, #96]
	ldr	r6, [r7, r1]
	lsls	r5, r6, #3
	ldr	r0, [r0, #48]
	adds	r4, r0, r5
	ldr	r4, [r4, #16]
	adds	r1, r4, #1
	str	r3, [sp, #72]
	str	r7, [sp, #52]
	str	r5, [sp, #56]
	beq	.LBB47_36
	lsls	r1, r4, #3
	adds	r0, r0, r1
	ldr	r1, [sp, #104]
	mvns	r1, r1
	str	r1, [r0, #20]
	ldr	r0, [sp, #96]
	str	r4, [r7, r0]
	ldr	r0, [r3]
	ldr	r3, [sp, #120]
	b	.LBB47_38
.LBB47_36:
	movs	r4, #1
	mvns	r1, r4
	adds	r1, r1, #1
	ldr	r3, [sp, #96]
	str	r1, [r7, r3]
	ldr	r1, [sp, #68]
	ands	r2, r1
	mov	r1, r4
	lsls	r1, r2
	ldr	r7, [sp, #76]
	lsls	r2, r7, #2
	ldr	r5, [sp, #80]
	ldr	r3, [r5, r2]
	bics	r3, r1
	str	r3, [r5, r2]
	bne	.LBB47_37
	b	.LBB47_66
.LBB47_37:
	ldr	r3, [sp, #120]
	ldr	r5, [sp, #56]
.LBB47_38:
	ldr	r7, [sp, #116]
.LBB47_39:
	adds	r4, r0, r5
	ldr	r1, [r4, #4]
	str	r1, [sp, #96]
	ldr	r1, [r0, r5]
	ldr	r5, [sp, #92]
	lsls	r2, r5, #2
	subs	r2, r1, r2
	cmp	r2, #15
	bhi	.LBB47_41
	movs	r0, #0
	str	r0, [r4, #20]
	str	r0, [r4, #16]
	str	r3, [r4, #8]
	ldr	r2, [sp, #108]
	str	r2, [r4, #12]
	subs	r1, r1, #1
	str	r1, [r4]
	ldr	r2, [sp, #96]
	sbcs	r2, r0
	str	r2, [r4, #4]
	lsrs	r2, r1, #2
	b	.LBB47_47
.LBB47_41:
	mov	r3, r2
	str	r2, [sp, #32]
	lsrs	r2, r2, #2
	str	r2, [sp, #76]
	ldr	r2, [sp, #104]
	str	r2, [r4, #16]
	ldr	r2, [sp, #120]
	str	r2, [r4, #8]
	adds	r2, r6, r5
	str	r2, [sp, #48]
	lsls	r2, r2, #3
	adds	r5, r0, r2
	str	r5, [sp, #28]
	subs	r1, r1, r3
	str	r1, [r4]
	str	r2, [sp, #8]
	str	r3, [r0, r2]
	ldr	r0, [sp, #120]
	str	r0, [r5, #8]
	ldr	r5, [sp, #104]
	ldr	r0, [sp, #96]
	sbcs	r0, r5
	str	r0, [sp, #96]
	ldr	r3, [sp, #48]
	lsrs	r0, r3, #6
	lsls	r0, r0, #3
	str	r0, [sp, #20]
	ldr	r2, [r7, #72]
	str	r2, [sp, #24]
	ldr	r0, [r2, r0]
	str	r0, [sp, #16]
	movs	r2, #63
	ands	r2, r3
	movs	r0, #1
	str	r0, [sp, #4]
	mov	r1, r5
	bl	__aeabi_llsl
	str	r1, [sp, #12]
	ldr	r1, [sp, #16]
	orrs	r0, r1
	ldr	r3, [sp, #24]
	ldr	r1, [sp, #20]
	str	r0, [r3, r1]
	str	r5, [r4, #20]
	ldr	r0, [sp, #108]
	str	r0, [r4, #12]
	ldr	r2, [sp, #96]
	str	r2, [r4, #4]
	ldr	r4, [sp, #48]
	ldr	r2, [sp, #28]
	str	r0, [r2, #12]
	str	r6, [r2, #4]
	adds	r0, r3, r1
	ldr	r2, [r0, #4]
	ldr	r1, [sp, #12]
	orrs	r2, r1
	str	r2, [r0, #4]
	mvns	r3, r5
	ldr	r0, [sp, #32]
	lsls	r0, r0, #30
	ldr	r5, [sp, #72]
	bmi	.LBB47_43
	ldr	r0, [sp, #76]
	adds	r0, r0, r4
	lsls	r0, r0, #3
	ldr	r1, [r5]
	ldr	r2, [r1, r0]
	ands	r2, r3
	str	r2, [r1, r0]
	adds	r0, r1, r0
	str	r4, [r0, #4]
.LBB47_43:
	str	r3, [sp, #96]
	ldr	r5, [sp, #76]
	mov	r0, r5
	ldr	r1, [sp, #64]
	orrs	r0, r1
	bl	__clzsi2
	ldr	r1, [sp, #60]
	subs	r0, r1, r0
	lsrs	r5, r0
	lsls	r0, r0, #4
	str	r5, [sp, #76]
	adds	r0, r5, r0
	lsls	r2, r0, #2
	ldr	r3, [sp, #52]
	ldr	r1, [r3, r2]
	str	r4, [r3, r2]
	cmp	r1, #0
	bmi	.LBB47_45
	ldr	r0, [sp, #72]
	ldr	r0, [r0]
	ldr	r2, [sp, #8]
	adds	r2, r0, r2
	str	r1, [r2, #16]
	ldr	r3, [sp, #96]
	str	r3, [r2, #20]
	lsls	r1, r1, #3
	adds	r0, r0, r1
	str	r4, [r0, #20]
	ldr	r1, [r0, #16]
	ands	r1, r3
	str	r1, [r0, #16]
	b	.LBB47_46
.LBB47_45:
	ldr	r1, [r7, #48]
	ldr	r2, [sp, #8]
	adds	r1, r1, r2
	ldr	r2, [sp, #112]
	str	r2, [r1, #16]
	str	r2, [r1, #20]
	ldr	r1, [sp, #68]
	ldr	r2, [sp, #76]
	ands	r2, r1
	ldr	r5, [sp, #4]
	mov	r1, r5
	lsls	r1, r2
	lsrs	r0, r0, #4
	lsls	r2, r0, #2
	ldr	r4, [sp, #80]
	ldr	r3, [r4, r2]
	orrs	r3, r1
	str	r3, [r4, r2]
	lsls	r5, r0
	ldr	r0, [r7, #104]
	orrs	r0, r5
	str	r0, [r7, #104]
.LBB47_46:
	ldr	r2, [sp, #92]
.LBB47_47:
	ldr	r0, [sp, #168]
	ldr	r1, [r7, #40]
	adds	r1, r1, r2
	str	r1, [r7, #40]
	ldr	r2, [r7, #44]
	cmp	r2, r1
	ldr	r2, [sp, #104]
	ldr	r4, [sp, #100]
	bhs	.LBB47_49
	str	r1, [r7, #44]
.LBB47_49:
	ldr	r1, [r7, #32]
	adds	r1, r1, #1
	str	r1, [r7, #32]
	ldr	r1, [r7, #36]
	adcs	r1, r2
	str	r1, [r7, #36]
	ldr	r5, [sp, #84]
	mov	r1, r5
	bl	__aeabi_uidivmod
	adds	r0, r6, r1
	adds	r0, r0, #3
	mov	r1, r5
	bl	__aeabi_uidivmod
	ldr	r0, [r7, #24]
	cmp	r1, #0
	beq	.LBB47_58
	ldr	r2, [sp, #120]
	str	r2, [sp, #136]
	str	r6, [sp, #132]
	str	r0, [sp, #128]
	ldr	r0, [sp, #108]
	str	r0, [sp, #140]
	movs	r7, #5
	mov	r0, r7
	muls	r0, r5, r0
	subs	r0, r0, r1
	subs	r0, r0, #4
	mov	r1, r5
	bl	__aeabi_uidivmod
	adds	r5, r1, #4
	add	r1, sp, #128
	mov	r0, r4
	mov	r2, r5
	bl	tlsf_heap.heap.Heap.resize_live.4
	lsls	r0, r0, #24
	bne	.LBB47_59
	str	r7, [sp, #120]
	adds	r6, r5, r6
	ldr	r7, [sp, #116]
	ldr	r0, [r7, #56]
	movs	r3, #3
	cmp	r6, r0
	bhs	.LBB47_60
	mov	r5, r3
	movs	r4, #63
	mov	r2, r6
	ands	r2, r4
	ldr	r1, [r7, #72]
	lsrs	r0, r6, #6
	lsls	r3, r0, #3
	ldr	r0, [r1, r3]
	adds	r1, r1, r3
	ldr	r1, [r1, #4]
	bl	__aeabi_llsr
	lsls	r0, r0, #31
	bne	.LBB47_53
	b	.LBB47_70
.LBB47_53:
	str	r4, [sp, #92]
	lsls	r4, r6, #3
	ldr	r0, [sp, #72]
	ldr	r2, [r0]
	ldr	r0, [r2, r4]
	str	r0, [sp, #96]
	lsls	r0, r0, #31
	mov	r3, r5
	beq	.LBB47_60
	ldr	r0, [sp, #96]
	lsrs	r1, r0, #2
	ldr	r0, [sp, #44]
	cmp	r0, r1
	ldr	r3, [sp, #120]
	bhi	.LBB47_60
	ldr	r3, [r7, #32]
	ldr	r0, [sp, #116]
	str	r4, [sp, #56]
	ldr	r5, [r0, #36]
	ldr	r0, [sp, #112]
	eors	r5, r0
	eors	r3, r0
	orrs	r3, r5
	ldr	r5, [sp, #56]
	ldr	r7, [sp, #116]
	ldr	r3, [sp, #36]
	beq	.LBB47_60
	adds	r0, r2, r5
	ldr	r4, [r0, #4]
	ldr	r0, [sp, #72]
	mov	r2, r6
	bl	tlsf_heap.region.Region.remove.4
	ldr	r1, [sp, #44]
	lsls	r0, r1, #2
	ldr	r2, [sp, #96]
	subs	r2, r2, r0
	ldr	r3, [r7, #32]
	ldr	r0, [r7, #36]
	str	r0, [sp, #108]
	cmp	r2, #15
	str	r3, [sp, #120]
	bhi	.LBB47_71
	ldr	r0, [sp, #72]
	ldr	r0, [r0]
	adds	r1, r0, r5
	ldr	r2, [sp, #96]
	subs	r2, r2, #1
	str	r2, [r0, r5]
	mov	r0, r3
	ldr	r3, [sp, #104]
	str	r3, [r1, #20]
	str	r3, [r1, #16]
	ldr	r7, [sp, #108]
	str	r7, [r1, #12]
	str	r0, [r1, #8]
	sbcs	r4, r3
	str	r4, [r1, #4]
	lsrs	r1, r2, #2
	b	.LBB47_77
.LBB47_58:
	ldr	r5, [sp, #120]
	str	r5, [sp, #136]
	str	r6, [sp, #132]
	str	r0, [sp, #128]
	ldr	r7, [sp, #108]
	str	r7, [sp, #140]
	add	r1, sp, #128
	mov	r0, r4
	ldr	r2, [sp, #44]
	bl	tlsf_heap.heap.Heap.resize_live.4
	lsls	r0, r0, #24
	bne	.LBB47_59
	b	.LBB47_80
.LBB47_59:
	mov	r3, r1
	ldr	r2, [sp, #88]
	lsls	r1, r1, #24
	ldr	r7, [sp, #116]
	bne	.LBB47_60
	b	.LBB47_12
.LBB47_60:
	movs	r1, #1
	strb	r1, [r7]
	uxtb	r1, r3
	subs	r2, r1, #1
	ldr	r4, [sp, #104]
	movs	r1, #2
	mov	r6, r4
	lsls	r2, r2, #2
	adr	r3, .LJTI47_0
	ldr	r2, [r3, r2]
	mov	r3, r4
	ldr	r5, [sp, #124]
	mov	pc, r2
	.p2align	2
.LJTI47_0:
	.long	.LBB47_64+1
	.long	.LBB47_65+1
	.long	.LBB47_68+1
	.long	.LBB47_69+1
	.long	.LBB47_67+1
	.p2align	2
.LCPI47_4:
	.long	125613361
	.p2align	2
.LCPI47_5:
	.ascii	"\000\001\034\002\035\016\030\003\036\026\024\017\031\021\004\b\037\033\r\027\025\023\020\007\032\f\022\006\013\005\n\t"
	.p2align	1
.LBB47_64:
	b	.LBB47_18
.LBB47_65:
	movs	r6, #0
	movs	r1, #3
	b	.LBB47_20
.LBB47_66:
	lsls	r4, r7
	ldr	r7, [sp, #116]
	ldr	r1, [r7, #104]
	bics	r1, r4
	str	r1, [r7, #104]
	ldr	r3, [sp, #120]
	ldr	r5, [sp, #56]
	b	.LBB47_39
.LBB47_67:
	movs	r6, #0
	movs	r1, #10
	b	.LBB47_20
.LBB47_68:
	movs	r6, #0
	movs	r1, #4
	b	.LBB47_20
.LBB47_69:
	movs	r6, #0
	movs	r1, #7
	b	.LBB47_20
.LBB47_70:
	mov	r3, r5
	b	.LBB47_60
.LBB47_71:
	lsrs	r0, r2, #2
	str	r0, [sp, #28]
	str	r1, [sp, #44]
	adds	r0, r6, r1
	str	r0, [sp, #76]
	lsls	r0, r0, #3
	str	r0, [sp, #84]
	ldr	r1, [r7, #48]
	ldr	r0, [sp, #84]
	adds	r0, r1, r0
	str	r0, [sp, #36]
	adds	r0, r1, r5
	str	r0, [sp, #32]
	mov	r0, r2
	str	r2, [sp, #48]
	ldr	r2, [sp, #96]
	subs	r2, r2, r0
	str	r2, [r1, r5]
	ldr	r5, [sp, #104]
	ldr	r0, [sp, #32]
	str	r5, [r0, #16]
	str	r3, [r0, #8]
	ldr	r0, [sp, #84]
	ldr	r2, [sp, #48]
	str	r2, [r1, r0]
	ldr	r0, [sp, #36]
	str	r3, [r0, #8]
	sbcs	r4, r5
	str	r4, [sp, #96]
	ldr	r3, [sp, #76]
	lsrs	r4, r3, #3
	ldr	r0, .LCPI47_2
	ands	r4, r0
	ldr	r0, [r7, #72]
	str	r0, [sp, #24]
	ldr	r7, [r0, r4]
	ldr	r2, [sp, #92]
	ands	r2, r3
	movs	r0, #1
	str	r0, [sp, #92]
	mov	r1, r5
	bl	__aeabi_llsl
	orrs	r0, r7
	ldr	r7, [sp, #24]
	str	r0, [r7, r4]
	ldr	r0, [sp, #108]
	ldr	r2, [sp, #32]
	str	r0, [r2, #12]
	str	r5, [r2, #20]
	ldr	r3, [sp, #96]
	str	r3, [r2, #4]
	ldr	r2, [sp, #36]
	str	r0, [r2, #12]
	str	r6, [r2, #4]
	adds	r0, r7, r4
	ldr	r2, [r0, #4]
	orrs	r2, r1
	str	r2, [r0, #4]
	mvns	r4, r5
	ldr	r0, [sp, #48]
	lsls	r0, r0, #30
	bmi	.LBB47_73
	ldr	r3, [sp, #76]
	ldr	r0, [sp, #28]
	adds	r0, r0, r3
	lsls	r0, r0, #3
	ldr	r1, [sp, #72]
	ldr	r1, [r1]
	ldr	r2, [r1, r0]
	ands	r2, r4
	str	r2, [r1, r0]
	adds	r0, r1, r0
	str	r3, [r0, #4]
.LBB47_73:
	ldr	r0, [sp, #64]
	ldr	r5, [sp, #28]
	orrs	r0, r5
	bl	__clzsi2
	ldr	r1, [sp, #60]
	subs	r0, r1, r0
	lsrs	r5, r0
	lsls	r0, r0, #4
	mov	r7, r5
	adds	r0, r5, r0
	lsls	r2, r0, #2
	ldr	r3, [sp, #52]
	ldr	r1, [r3, r2]
	ldr	r5, [sp, #76]
	str	r5, [r3, r2]
	cmp	r1, #0
	bmi	.LBB47_75
	ldr	r0, [sp, #72]
	ldr	r0, [r0]
	ldr	r2, [sp, #84]
	adds	r2, r0, r2
	str	r1, [r2, #16]
	str	r4, [r2, #20]
	lsls	r1, r1, #3
	adds	r0, r0, r1
	str	r5, [r0, #20]
	ldr	r1, [r0, #16]
	ands	r1, r4
	str	r1, [r0, #16]
	b	.LBB47_76
.LBB47_75:
	ldr	r4, [sp, #116]
	ldr	r1, [r4, #48]
	ldr	r2, [sp, #84]
	adds	r1, r1, r2
	ldr	r2, [sp, #112]
	str	r2, [r1, #16]
	str	r2, [r1, #20]
	ldr	r1, [sp, #68]
	ands	r7, r1
	ldr	r5, [sp, #92]
	mov	r1, r5
	lsls	r1, r7
	lsrs	r0, r0, #4
	lsls	r2, r0, #2
	ldr	r7, [sp, #80]
	ldr	r3, [r7, r2]
	orrs	r3, r1
	str	r3, [r7, r2]
	lsls	r5, r0
	ldr	r0, [r4, #104]
	orrs	r0, r5
	str	r0, [r4, #104]
.LBB47_76:
	ldr	r3, [sp, #104]
	ldr	r7, [sp, #108]
	ldr	r1, [sp, #44]
.LBB47_77:
	ldr	r4, [sp, #116]
	ldr	r0, [r4, #40]
	adds	r2, r0, r1
	str	r2, [r4, #40]
	ldr	r1, [r4, #44]
	cmp	r1, r2
	ldr	r0, [sp, #100]
	bhs	.LBB47_79
	str	r2, [r4, #44]
.LBB47_79:
	ldr	r5, [sp, #120]
	adds	r1, r5, #1
	str	r1, [r4, #32]
	adcs	r3, r7
	str	r3, [r4, #36]
	add	r1, sp, #128
	bl	tlsf_heap.heap.Heap.release_live.4
.LBB47_80:
	str	r5, [sp, #120]
	mov	r4, r7
	ldr	r0, [sp, #116]
	ldr	r1, [r0, #40]
	ldr	r3, [sp, #40]
	cmp	r1, r3
	ldr	r5, [sp, #124]
	ldr	r2, [sp, #88]
	bhi	.LBB47_82
	mov	r1, r3
.LBB47_82:
	ldr	r7, [sp, #116]
	str	r1, [r7, #44]
	ldr	r1, [r7, #48]
	ldr	r0, [sp, #56]
	adds	r3, r1, r0
	movs	r1, #0
	str	r2, [r3, #16]
	str	r1, [r3, #20]
	movs	r2, #1
	strb	r2, [r7]
	ldr	r3, [sp, #120]
	b	.LBB47_18
	.p2align	2
.LCPI47_2:
	.long	536870904
.Lfunc_end47:
	.size	tlsf_allocate_aligned, .Lfunc_end47-tlsf_allocate_aligned
	.cfi_endproc
	.section	.text.tlsf_allocate_payload,"ax",%progbits
	.globl	tlsf_allocate_payload
	.p2align	2
	.type	tlsf_allocate_payload,%function
	.code	16
	.thumb_func
tlsf_allocate_payload:
	.cfi_startproc
	push	{r4, r5, r6, r7, lr}
	.cfi_def_cfa_offset 20
	.cfi_offset lr, -4
	.cfi_offset r7, -8
	.cfi_offset r6, -12
	.cfi_offset r5, -16
	.cfi_offset r4, -20
	sub	sp, #92
	.cfi_def_cfa_offset 112
	mov	r2, r0
	ldrb	r3, [r0, #8]
	movs	r0, #0
	cmp	r3, #0
	bne	.LBB48_1
	b	.LBB48_26
.LBB48_1:
	ldr	r6, [r2]
	ldrb	r2, [r6]
	cmp	r2, #1
	beq	.LBB48_2
	b	.LBB48_26
.LBB48_2:
	movs	r3, #1
	lsls	r2, r3, #27
	cmp	r1, r2
	bls	.LBB48_3
	b	.LBB48_26
.LBB48_3:
	movs	r0, #0
	strb	r0, [r6]
	adds	r1, r1, #7
	ldr	r2, .LCPI48_0
	ands	r1, r2
	mov	r4, r1
	adds	r4, #8
	ldr	r2, .LCPI48_1
	cmp	r1, r2
	bls	.LBB48_9
.LBB48_4:
	ldr	r1, [r6, #12]
	cmp	r4, r1
	bhi	.LBB48_6
	mov	r4, r1
.LBB48_6:
	str	r4, [r6, #12]
	ldr	r1, [r6, #8]
	adds	r1, r1, #1
	blo	.LBB48_8
	movs	r1, #0
	mvns	r1, r1
.LBB48_8:
	str	r1, [r6, #8]
	b	.LBB48_25
.LBB48_9:
	str	r4, [sp, #80]
	adds	r1, #39
	lsrs	r4, r1, #3
	movs	r2, #16
	mov	r1, r4
	str	r2, [sp, #60]
	orrs	r1, r2
	str	r0, [sp, #84]
	mov	r0, r1
	str	r3, [sp, #88]
	bl	__clzsi2
	mov	r1, r0
	ldr	r0, [sp, #84]
	movs	r2, #27
	str	r2, [sp, #56]
	subs	r1, r2, r1
	str	r4, [sp, #76]
	subs	r3, r4, #1
	lsrs	r3, r1
	lsls	r1, r1, #4
	adds	r1, r3, r1
	adds	r1, r1, #1
	subs	r2, r1, #1
	mov	r1, r0
	sbcs	r1, r0
	lsrs	r4, r2, #4
	lsls	r5, r1, #28
	adds	r4, r4, r5
	lsls	r5, r4, #2
	mov	r7, r6
	adds	r7, #108
	str	r7, [sp, #68]
	ldr	r5, [r7, r5]
	movs	r7, #15
	ands	r3, r7
	lsrs	r5, r3
	ldr	r3, [sp, #88]
	bics	r5, r3
	beq	.LBB48_12
	cmp	r5, #0
	beq	.LBB48_18
	rsbs	r3, r5, #0
	ands	r3, r5
	ldr	r4, .LCPI48_2
	muls	r4, r3, r4
	lsrs	r3, r4, #27
	adr	r4, .LCPI48_3
	ldrb	r3, [r4, r3]
	b	.LBB48_19
.LBB48_12:
	mvns	r1, r3
	lsls	r1, r4
	ldr	r5, [r6, #104]
	ands	r5, r1
	ldr	r4, [sp, #80]
	beq	.LBB48_4
	mov	r2, r7
	ldr	r3, .LCPI48_2
	adr	r7, .LCPI48_3
	movs	r4, #32
	cmp	r5, #0
	mov	r1, r4
	beq	.LBB48_15
	rsbs	r1, r5, #0
	ands	r1, r5
	muls	r1, r3, r1
	lsrs	r1, r1, #27
	ldrb	r1, [r7, r1]
.LBB48_15:
	lsls	r5, r1, #2
	ldr	r7, [sp, #68]
	ldr	r5, [r7, r5]
	cmp	r5, #0
	beq	.LBB48_21
	cmp	r5, #0
	beq	.LBB48_20
	rsbs	r4, r5, #0
	ands	r4, r5
	muls	r3, r4, r3
	lsrs	r3, r3, #27
	adr	r4, .LCPI48_3
	ldrb	r4, [r4, r3]
	b	.LBB48_21
.LBB48_18:
	movs	r3, #32
.LBB48_19:
	adds	r4, r2, r3
	adcs	r1, r0
	lsrs	r2, r4, #4
	lsls	r1, r1, #28
	adds	r1, r2, r1
	str	r1, [sp, #40]
	b	.LBB48_22
.LBB48_20:
	movs	r4, #32
.LBB48_21:
	lsls	r1, r1, #4
	adds	r4, r4, r1
	lsrs	r1, r4, #4
	str	r1, [sp, #40]
	mov	r7, r2
.LBB48_22:
	ldr	r5, [r6, #32]
	ldr	r1, [r6, #36]
	mov	r2, r5
	ands	r2, r1
	adds	r2, r2, #1
	ldr	r3, [sp, #88]
	beq	.LBB48_25
	str	r5, [sp, #64]
	str	r1, [sp, #48]
	str	r7, [sp, #36]
	mvns	r1, r0
	str	r1, [sp, #52]
	lsls	r1, r4, #2
	mov	r5, r6
	adds	r6, #192
	str	r1, [sp, #72]
	ldr	r1, [r6, r1]
	str	r1, [sp, #44]
	lsls	r7, r1, #3
	ldr	r2, [r5, #48]
	adds	r3, r2, r7
	ldr	r3, [r3, #16]
	adds	r1, r3, #1
	str	r6, [sp, #28]
	beq	.LBB48_27
	lsls	r1, r3, #3
	adds	r1, r2, r1
	ldr	r2, [sp, #52]
	str	r2, [r1, #20]
	ldr	r1, [sp, #72]
	str	r3, [r6, r1]
	ldr	r2, [r5, #48]
	mov	r6, r5
	b	.LBB48_30
.LBB48_25:
	strb	r3, [r6]
.LBB48_26:
	add	sp, #92
	pop	{r4, r5, r6, r7, pc}
.LBB48_27:
	str	r5, [sp, #32]
	ldr	r5, [sp, #88]
	mvns	r1, r5
	adds	r1, r1, #1
	ldr	r3, [sp, #72]
	str	r1, [r6, r3]
	ldr	r1, [sp, #36]
	ands	r4, r1
	mov	r1, r5
	lsls	r1, r4
	ldr	r6, [sp, #40]
	lsls	r3, r6, #2
	ldr	r5, [sp, #68]
	ldr	r4, [r5, r3]
	bics	r4, r1
	str	r4, [r5, r3]
	beq	.LBB48_29
	ldr	r6, [sp, #32]
	b	.LBB48_30
.LBB48_29:
	ldr	r1, [sp, #88]
	lsls	r1, r6
	ldr	r6, [sp, #32]
	ldr	r3, [r6, #104]
	bics	r3, r1
	str	r3, [r6, #104]
.LBB48_30:
	adds	r4, r2, r7
	ldr	r1, [r4, #4]
	str	r1, [sp, #72]
	ldr	r3, [r2, r7]
	ldr	r5, [sp, #76]
	lsls	r1, r5, #2
	subs	r1, r3, r1
	cmp	r1, #15
	bhi	.LBB48_32
	str	r0, [r4, #20]
	ldr	r1, [sp, #80]
	str	r1, [r4, #16]
	ldr	r1, [sp, #64]
	str	r1, [r4, #8]
	ldr	r1, [sp, #48]
	str	r1, [r4, #12]
	subs	r1, r3, #1
	str	r1, [r4]
	ldr	r2, [sp, #72]
	sbcs	r2, r0
	str	r2, [r4, #4]
	lsrs	r2, r1, #2
	b	.LBB48_38
.LBB48_32:
	str	r7, [sp, #24]
	lsrs	r7, r1, #2
	str	r7, [sp, #16]
	str	r1, [sp, #40]
	ldr	r1, [sp, #80]
	str	r1, [r4, #16]
	ldr	r1, [sp, #64]
	str	r1, [r4, #8]
	ldr	r1, [sp, #44]
	adds	r1, r1, r5
	str	r1, [sp, #80]
	lsls	r5, r1, #3
	adds	r7, r2, r5
	str	r7, [sp, #12]
	str	r6, [sp, #32]
	ldr	r6, [sp, #40]
	subs	r1, r3, r6
	str	r1, [r4]
	str	r5, [sp, #20]
	str	r6, [r2, r5]
	ldr	r6, [sp, #32]
	ldr	r1, [sp, #64]
	str	r1, [r7, #8]
	ldr	r1, [sp, #72]
	sbcs	r1, r0
	str	r1, [sp, #72]
	ldr	r3, [sp, #80]
	lsrs	r1, r3, #3
	ldr	r7, .LCPI48_0
	adds	r7, #8
	ands	r7, r1
	ldr	r1, [r6, #72]
	str	r1, [sp, #8]
	ldr	r2, [r1, r7]
	str	r2, [sp, #64]
	movs	r2, #63
	ands	r2, r3
	movs	r1, #1
	mov	r5, r0
	str	r1, [sp, #4]
	mov	r0, r1
	mov	r1, r5
	bl	__aeabi_llsl
	ldr	r2, [sp, #64]
	orrs	r0, r2
	ldr	r3, [sp, #8]
	str	r0, [r3, r7]
	str	r5, [r4, #20]
	ldr	r5, [sp, #16]
	ldr	r0, [sp, #48]
	str	r0, [r4, #12]
	ldr	r2, [sp, #72]
	str	r2, [r4, #4]
	ldr	r2, [sp, #12]
	str	r0, [r2, #12]
	ldr	r0, [sp, #44]
	str	r0, [r2, #4]
	adds	r0, r3, r7
	ldr	r7, [sp, #80]
	ldr	r2, [r0, #4]
	orrs	r2, r1
	str	r2, [r0, #4]
	ldr	r0, [sp, #40]
	lsls	r0, r0, #30
	ldr	r4, [sp, #52]
	bmi	.LBB48_34
	adds	r0, r5, r7
	lsls	r0, r0, #3
	ldr	r1, [r6, #48]
	ldr	r2, [r1, r0]
	ands	r2, r4
	str	r2, [r1, r0]
	adds	r0, r1, r0
	str	r7, [r0, #4]
.LBB48_34:
	ldr	r0, [sp, #60]
	orrs	r0, r5
	bl	__clzsi2
	ldr	r1, [sp, #56]
	subs	r0, r1, r0
	lsrs	r5, r0
	lsls	r0, r0, #4
	adds	r0, r5, r0
	lsls	r2, r0, #2
	ldr	r3, [sp, #28]
	ldr	r1, [r3, r2]
	str	r7, [r3, r2]
	cmp	r1, #0
	ldr	r2, [sp, #36]
	bmi	.LBB48_36
	ldr	r0, [r6, #48]
	ldr	r2, [sp, #20]
	adds	r2, r0, r2
	str	r1, [r2, #16]
	str	r4, [r2, #20]
	lsls	r1, r1, #3
	adds	r0, r0, r1
	str	r7, [r0, #20]
	ldr	r1, [r0, #16]
	ands	r1, r4
	str	r1, [r0, #16]
	b	.LBB48_37
.LBB48_36:
	ldr	r1, [r6, #48]
	ldr	r3, [sp, #20]
	adds	r1, r1, r3
	str	r4, [r1, #16]
	str	r4, [r1, #20]
	ands	r5, r2
	ldr	r7, [sp, #4]
	mov	r1, r7
	lsls	r1, r5
	lsrs	r0, r0, #4
	lsls	r2, r0, #2
	ldr	r4, [sp, #68]
	ldr	r3, [r4, r2]
	orrs	r3, r1
	str	r3, [r4, r2]
	lsls	r7, r0
	ldr	r0, [r6, #104]
	orrs	r0, r7
	str	r0, [r6, #104]
.LBB48_37:
	ldr	r0, [sp, #84]
	ldr	r2, [sp, #76]
	ldr	r7, [sp, #24]
.LBB48_38:
	ldr	r1, [r6, #40]
	adds	r1, r1, r2
	str	r1, [r6, #40]
	ldr	r2, [r6, #44]
	cmp	r2, r1
	ldr	r2, [sp, #88]
	bhs	.LBB48_40
	str	r1, [r6, #44]
.LBB48_40:
	strb	r2, [r6]
	ldr	r1, [r6, #32]
	adds	r1, r1, #1
	str	r1, [r6, #32]
	ldr	r1, [r6, #36]
	adcs	r1, r0
	str	r1, [r6, #36]
	adds	r7, #24
	mov	r0, r7
	add	sp, #92
	pop	{r4, r5, r6, r7, pc}
	.p2align	2
.LCPI48_0:
	.long	536870896
.LCPI48_1:
	.long	8388576
.LCPI48_2:
	.long	125613361
.LCPI48_3:
	.ascii	"\000\001\034\002\035\016\030\003\036\026\024\017\031\021\004\b\037\033\r\027\025\023\020\007\032\f\022\006\013\005\n\t"
.Lfunc_end48:
	.size	tlsf_allocate_payload, .Lfunc_end48-tlsf_allocate_payload
	.cfi_endproc
	.section	.text.tlsf_allocate_place,"ax",%progbits
	.globl	tlsf_allocate_place
	.p2align	2
	.type	tlsf_allocate_place,%function
	.code	16
	.thumb_func
tlsf_allocate_place:
	.cfi_startproc
	push	{r4, r5, r6, r7, lr}
	.cfi_def_cfa_offset 20
	.cfi_offset lr, -4
	.cfi_offset r7, -8
	.cfi_offset r6, -12
	.cfi_offset r5, -16
	.cfi_offset r4, -20
	sub	sp, #92
	.cfi_def_cfa_offset 112
	ldrb	r4, [r1, #8]
	movs	r3, #32
	cmp	r4, #0
	beq	.LBB49_12
	ldr	r7, [r1]
	ldrb	r1, [r7]
	cmp	r1, #1
	bne	.LBB49_12
	movs	r1, #0
	strb	r1, [r7]
	adds	r3, r2, #1
	mov	r4, r1
	adcs	r4, r1
	cmp	r2, #0
	beq	.LBB49_4
	mov	r3, r2
.LBB49_4:
	beq	.LBB49_6
	mov	r4, r1
.LBB49_6:
	adds	r3, #31
	adcs	r4, r1
	lsrs	r1, r3, #3
	lsls	r3, r4, #29
	adds	r5, r1, r3
	movs	r4, #1
	lsls	r1, r4, #20
	cmp	r5, r1
	bls	.LBB49_13
.LBB49_7:
	ldr	r1, [r7, #12]
	cmp	r2, r1
	bhi	.LBB49_9
	mov	r2, r1
.LBB49_9:
	str	r2, [r7, #12]
	movs	r5, #0
	ldr	r1, [r7, #8]
	adds	r1, r1, #1
	blo	.LBB49_11
	mvns	r1, r5
.LBB49_11:
	str	r1, [r7, #8]
	mov	r1, r4
	mov	r3, r4
	mov	r6, r5
	mov	r4, r5
	b	.LBB49_46
.LBB49_12:
	movs	r5, #0
	mov	r6, r5
	mov	r4, r5
	b	.LBB49_47
.LBB49_13:
	str	r2, [sp, #84]
	str	r0, [sp, #88]
	movs	r1, #16
	mov	r0, r5
	str	r1, [sp, #48]
	orrs	r0, r1
	bl	__clzsi2
	movs	r1, #27
	str	r1, [sp, #44]
	subs	r1, r1, r0
	str	r5, [sp, #72]
	subs	r0, r5, #1
	lsrs	r0, r1
	lsls	r1, r1, #4
	adds	r1, r0, r1
	adds	r1, r1, #1
	movs	r2, #0
	subs	r3, r1, #1
	str	r2, [sp, #76]
	mov	r1, r2
	sbcs	r1, r2
	lsrs	r2, r3, #4
	lsls	r5, r1, #28
	adds	r2, r2, r5
	lsls	r5, r2, #2
	mov	r6, r7
	adds	r6, #108
	str	r6, [sp, #68]
	ldr	r5, [r6, r5]
	movs	r6, #15
	str	r6, [sp, #52]
	ands	r0, r6
	lsrs	r5, r0
	bics	r5, r4
	str	r4, [sp, #80]
	beq	.LBB49_16
	cmp	r5, #0
	beq	.LBB49_22
	rsbs	r0, r5, #0
	ands	r0, r5
	ldr	r2, .LCPI49_0
	muls	r2, r0, r2
	lsrs	r0, r2, #27
	adr	r2, .LCPI49_1
	ldrb	r5, [r2, r0]
	b	.LBB49_23
.LBB49_16:
	mvns	r0, r4
	lsls	r0, r2
	ldr	r6, [r7, #104]
	ands	r6, r0
	ldr	r0, [sp, #88]
	ldr	r2, [sp, #84]
	beq	.LBB49_7
	ldr	r4, .LCPI49_0
	adr	r3, .LCPI49_1
	movs	r5, #32
	cmp	r6, #0
	mov	r1, r5
	beq	.LBB49_19
	rsbs	r1, r6, #0
	ands	r1, r6
	muls	r1, r4, r1
	lsrs	r1, r1, #27
	ldrb	r1, [r3, r1]
.LBB49_19:
	lsls	r6, r1, #2
	ldr	r3, [sp, #68]
	ldr	r6, [r3, r6]
	cmp	r6, #0
	beq	.LBB49_25
	cmp	r6, #0
	beq	.LBB49_24
	rsbs	r5, r6, #0
	ands	r5, r6
	muls	r4, r5, r4
	lsrs	r4, r4, #27
	adr	r3, .LCPI49_1
	ldrb	r5, [r3, r4]
	b	.LBB49_25
.LBB49_22:
	movs	r5, #32
.LBB49_23:
	ldr	r0, [sp, #88]
	ldr	r2, [sp, #84]
	adds	r6, r3, r5
	ldr	r3, [sp, #76]
	adcs	r1, r3
	lsrs	r4, r6, #4
	lsls	r1, r1, #28
	adds	r5, r4, r1
	b	.LBB49_26
.LBB49_24:
	movs	r5, #32
.LBB49_25:
	lsls	r1, r1, #4
	adds	r6, r5, r1
	lsrs	r5, r6, #4
.LBB49_26:
	ldr	r3, [r7, #32]
	ldr	r4, [r7, #36]
	mov	r1, r3
	ands	r1, r4
	adds	r1, r1, #1
	beq	.LBB49_29
	str	r5, [sp, #60]
	str	r3, [sp, #36]
	lsls	r1, r6, #2
	str	r6, [sp, #40]
	mov	r6, r7
	adds	r7, #192
	str	r1, [sp, #64]
	ldr	r5, [r7, r1]
	lsls	r1, r5, #3
	ldr	r3, [r6, #48]
	str	r1, [sp, #56]
	str	r3, [sp, #84]
	adds	r1, r3, r1
	ldr	r1, [r1, #16]
	adds	r3, r1, #1
	str	r7, [sp, #24]
	beq	.LBB49_30
	lsls	r3, r1, #3
	str	r1, [sp, #60]
	ldr	r1, [sp, #84]
	adds	r1, r1, r3
	movs	r3, #0
	mvns	r3, r3
	str	r3, [r1, #20]
	ldr	r3, [sp, #64]
	ldr	r1, [sp, #60]
	str	r1, [r7, r3]
	ldr	r1, [r6, #48]
	mov	r7, r6
	b	.LBB49_34
.LBB49_29:
	movs	r3, #2
	ldr	r4, [sp, #76]
	mov	r5, r4
	mov	r6, r4
	b	.LBB49_45
.LBB49_30:
	str	r6, [sp, #32]
	ldr	r6, [sp, #80]
	mvns	r1, r6
	adds	r1, r1, #1
	ldr	r3, [sp, #64]
	str	r1, [r7, r3]
	ldr	r1, [sp, #52]
	ldr	r3, [sp, #40]
	ands	r3, r1
	mov	r1, r6
	lsls	r1, r3
	ldr	r3, [sp, #60]
	lsls	r6, r3, #2
	ldr	r7, [sp, #68]
	ldr	r3, [r7, r6]
	bics	r3, r1
	str	r3, [r7, r6]
	beq	.LBB49_32
	ldr	r7, [sp, #32]
	b	.LBB49_33
.LBB49_32:
	ldr	r1, [sp, #80]
	ldr	r3, [sp, #60]
	lsls	r1, r3
	ldr	r7, [sp, #32]
	ldr	r3, [r7, #104]
	bics	r3, r1
	str	r3, [r7, #104]
.LBB49_33:
	ldr	r1, [sp, #84]
.LBB49_34:
	str	r1, [sp, #84]
	ldr	r6, [sp, #56]
	adds	r3, r1, r6
	str	r3, [sp, #64]
	ldr	r3, [r3, #4]
	str	r3, [sp, #60]
	ldr	r6, [r1, r6]
	ldr	r3, [sp, #72]
	lsls	r1, r3, #2
	str	r6, [sp, #32]
	subs	r1, r6, r1
	cmp	r1, #15
	ldr	r6, [sp, #36]
	bhi	.LBB49_36
	movs	r1, #0
	str	r1, [sp, #88]
	ldr	r3, [sp, #64]
	str	r1, [r3, #20]
	str	r2, [r3, #16]
	str	r6, [r3, #8]
	str	r4, [r3, #12]
	ldr	r1, [sp, #32]
	subs	r1, r1, #1
	str	r1, [sp, #84]
	str	r1, [r3]
	ldr	r1, [sp, #60]
	ldr	r2, [sp, #88]
	sbcs	r1, r2
	str	r1, [r3, #4]
	ldr	r1, [sp, #84]
	lsrs	r2, r1, #2
	b	.LBB49_42
.LBB49_36:
	lsrs	r0, r1, #2
	str	r0, [sp, #56]
	ldr	r0, [sp, #64]
	str	r2, [r0, #16]
	str	r6, [r0, #8]
	mov	r0, r1
	adds	r1, r5, r3
	str	r1, [sp, #40]
	lsls	r2, r1, #3
	ldr	r1, [sp, #84]
	adds	r3, r1, r2
	str	r3, [sp, #20]
	movs	r1, #0
	str	r1, [sp, #28]
	mov	r3, r0
	str	r0, [sp, #16]
	ldr	r0, [sp, #32]
	subs	r0, r0, r3
	ldr	r1, [sp, #64]
	str	r0, [r1]
	str	r2, [sp, #32]
	ldr	r0, [sp, #84]
	str	r3, [r0, r2]
	ldr	r0, [sp, #20]
	str	r6, [r0, #8]
	ldr	r1, [sp, #28]
	ldr	r0, [sp, #60]
	sbcs	r0, r1
	str	r0, [sp, #60]
	ldr	r3, [sp, #40]
	lsrs	r0, r3, #6
	lsls	r0, r0, #3
	str	r0, [sp, #12]
	ldr	r2, [r7, #72]
	str	r2, [sp, #84]
	ldr	r0, [r2, r0]
	str	r0, [sp, #8]
	movs	r2, #63
	ands	r2, r3
	movs	r0, #1
	str	r0, [sp]
	bl	__aeabi_llsl
	str	r1, [sp, #4]
	ldr	r1, [sp, #8]
	orrs	r0, r1
	ldr	r3, [sp, #84]
	ldr	r1, [sp, #12]
	str	r0, [r3, r1]
	ldr	r0, [sp, #64]
	ldr	r2, [sp, #28]
	str	r2, [r0, #20]
	str	r4, [r0, #12]
	ldr	r2, [sp, #60]
	str	r2, [r0, #4]
	ldr	r0, [sp, #20]
	str	r4, [r0, #12]
	str	r5, [r0, #4]
	adds	r0, r3, r1
	ldr	r2, [r0, #4]
	ldr	r1, [sp, #4]
	orrs	r2, r1
	str	r2, [r0, #4]
	ldr	r0, [sp, #28]
	mvns	r0, r0
	str	r0, [sp, #84]
	ldr	r0, [sp, #16]
	lsls	r0, r0, #30
	bmi	.LBB49_38
	ldr	r0, [sp, #56]
	ldr	r1, [sp, #40]
	adds	r0, r0, r1
	lsls	r0, r0, #3
	ldr	r1, [r7, #48]
	ldr	r2, [r1, r0]
	ldr	r3, [sp, #84]
	ands	r2, r3
	str	r2, [r1, r0]
	adds	r0, r1, r0
	ldr	r1, [sp, #40]
	str	r1, [r0, #4]
.LBB49_38:
	ldr	r0, [sp, #48]
	ldr	r1, [sp, #56]
	orrs	r0, r1
	bl	__clzsi2
	ldr	r1, [sp, #44]
	subs	r0, r1, r0
	ldr	r1, [sp, #56]
	lsrs	r1, r0
	lsls	r0, r0, #4
	str	r1, [sp, #56]
	adds	r0, r1, r0
	str	r0, [sp, #64]
	lsls	r2, r0, #2
	ldr	r0, [sp, #24]
	ldr	r1, [r0, r2]
	ldr	r3, [sp, #40]
	str	r3, [r0, r2]
	cmp	r1, #0
	bmi	.LBB49_40
	ldr	r0, [r7, #48]
	ldr	r2, [sp, #32]
	adds	r2, r0, r2
	str	r1, [r2, #16]
	ldr	r3, [sp, #84]
	str	r3, [r2, #20]
	lsls	r1, r1, #3
	adds	r0, r0, r1
	ldr	r1, [sp, #40]
	str	r1, [r0, #20]
	ldr	r1, [r0, #16]
	ands	r1, r3
	str	r1, [r0, #16]
	b	.LBB49_41
.LBB49_40:
	ldr	r1, [sp, #76]
	mvns	r1, r1
	ldr	r2, [r7, #48]
	ldr	r0, [sp, #32]
	adds	r2, r2, r0
	str	r1, [r2, #16]
	str	r1, [r2, #20]
	ldr	r1, [sp, #52]
	ldr	r2, [sp, #56]
	ands	r2, r1
	ldr	r1, [sp]
	mov	r0, r1
	lsls	r0, r2
	ldr	r2, [sp, #64]
	lsrs	r2, r2, #4
	str	r2, [sp, #84]
	lsls	r2, r2, #2
	ldr	r3, [sp, #68]
	ldr	r3, [r3, r2]
	orrs	r3, r0
	ldr	r0, [sp, #68]
	str	r3, [r0, r2]
	ldr	r0, [sp, #84]
	lsls	r1, r0
	ldr	r0, [r7, #104]
	orrs	r0, r1
	str	r0, [r7, #104]
.LBB49_41:
	ldr	r0, [sp, #88]
	ldr	r2, [sp, #72]
.LBB49_42:
	ldr	r1, [r7, #40]
	adds	r1, r1, r2
	str	r1, [r7, #40]
	ldr	r2, [r7, #44]
	cmp	r2, r1
	bhs	.LBB49_44
	str	r1, [r7, #44]
.LBB49_44:
	ldr	r1, [r7, #32]
	movs	r3, #0
	adds	r1, r1, #1
	str	r1, [r7, #32]
	ldr	r1, [r7, #36]
	adcs	r1, r3
	str	r1, [r7, #36]
.LBB49_45:
	ldr	r1, [sp, #80]
.LBB49_46:
	strb	r1, [r7]
.LBB49_47:
	str	r5, [r0]
	str	r3, [r0, #4]
	str	r6, [r0, #8]
	str	r4, [r0, #12]
	add	sp, #92
	pop	{r4, r5, r6, r7, pc}
	.p2align	2
.LCPI49_0:
	.long	125613361
.LCPI49_1:
	.ascii	"\000\001\034\002\035\016\030\003\036\026\024\017\031\021\004\b\037\033\r\027\025\023\020\007\032\f\022\006\013\005\n\t"
.Lfunc_end49:
	.size	tlsf_allocate_place, .Lfunc_end49-tlsf_allocate_place
	.cfi_endproc
	.section	.text.tlsf_block_at,"ax",%progbits
	.globl	tlsf_block_at
	.p2align	1
	.type	tlsf_block_at,%function
	.code	16
	.thumb_func
tlsf_block_at:
	.cfi_startproc
	push	{r4, r5, r6, r7, lr}
	.cfi_def_cfa_offset 20
	.cfi_offset lr, -4
	.cfi_offset r7, -8
	.cfi_offset r6, -12
	.cfi_offset r5, -16
	.cfi_offset r4, -20
	sub	sp, #12
	.cfi_def_cfa_offset 32
	mov	r6, r1
	ldrb	r1, [r0, #8]
	cmp	r1, #0
	beq	.LBB50_9
	ldr	r7, [r0]
	ldrb	r0, [r7]
	cmp	r0, #0
	beq	.LBB50_9
	movs	r5, #0
	strb	r5, [r7]
	ldr	r0, [r7, #56]
	cmp	r6, r0
	bhs	.LBB50_7
	mov	r4, r2
	movs	r2, #63
	ands	r2, r6
	ldr	r1, [r7, #72]
	lsrs	r0, r6, #6
	lsls	r3, r0, #3
	ldr	r0, [r1, r3]
	adds	r1, r1, r3
	ldr	r1, [r1, #4]
	bl	__aeabi_llsr
	lsls	r0, r0, #31
	beq	.LBB50_7
	lsls	r1, r6, #3
	ldr	r2, [r7, #48]
	adds	r0, r2, r1
	ldr	r3, [r0, #8]
	str	r0, [sp, #4]
	ldr	r0, [r0, #12]
	str	r0, [sp, #8]
	ldr	r2, [r2, r1]
	lsrs	r1, r2, #2
	lsls	r2, r2, #31
	mov	r0, r5
	mov	r2, r5
	bne	.LBB50_6
	ldr	r0, [sp, #4]
	ldr	r2, [r0, #16]
	movs	r0, #1
.LBB50_6:
	str	r0, [sp, #4]
	movs	r0, #1
	strb	r0, [r7]
	ldr	r7, [sp, #8]
	strb	r7, [r4, #20]
	lsrs	r0, r3, #24
	strb	r0, [r4, #19]
	lsrs	r0, r3, #16
	strb	r0, [r4, #18]
	lsrs	r0, r3, #8
	strb	r0, [r4, #17]
	strb	r3, [r4, #16]
	lsrs	r0, r2, #24
	strb	r0, [r4, #15]
	lsrs	r0, r2, #16
	strb	r0, [r4, #14]
	lsrs	r0, r2, #8
	strb	r0, [r4, #13]
	strb	r2, [r4, #12]
	strb	r5, [r4, #11]
	strb	r5, [r4, #10]
	strb	r5, [r4, #9]
	ldr	r0, [sp, #4]
	strb	r0, [r4, #8]
	lsrs	r0, r1, #24
	strb	r0, [r4, #7]
	lsrs	r0, r1, #16
	strb	r0, [r4, #6]
	lsrs	r0, r1, #8
	strb	r0, [r4, #5]
	strb	r1, [r4, #4]
	lsrs	r0, r6, #24
	strb	r0, [r4, #3]
	lsrs	r0, r6, #16
	strb	r0, [r4, #2]
	lsrs	r0, r6, #8
	strb	r0, [r4, #1]
	strb	r6, [r4]
	lsrs	r0, r7, #24
	strb	r0, [r4, #23]
	lsrs	r0, r7, #16
	strb	r0, [r4, #22]
	lsrs	r0, r7, #8
	strb	r0, [r4, #21]
	b	.LBB50_8
.LBB50_7:
	movs	r0, #1
	strb	r0, [r7]
	movs	r5, #4
.LBB50_8:
	mov	r0, r5
	add	sp, #12
	pop	{r4, r5, r6, r7, pc}
.LBB50_9:
	movs	r0, #0
	bl	tlsf_c.call_fault.CallFault.refusal
	mov	r5, r0
	b	.LBB50_8
.Lfunc_end50:
	.size	tlsf_block_at, .Lfunc_end50-tlsf_block_at
	.cfi_endproc
	.section	.text.tlsf_check,"ax",%progbits
	.globl	tlsf_check
	.p2align	1
	.type	tlsf_check,%function
	.code	16
	.thumb_func
tlsf_check:
	.cfi_startproc
	push	{r4, r5, r6, r7, lr}
	.cfi_def_cfa_offset 20
	.cfi_offset lr, -4
	.cfi_offset r7, -8
	.cfi_offset r6, -12
	.cfi_offset r5, -16
	.cfi_offset r4, -20
	sub	sp, #12
	.cfi_def_cfa_offset 32
	mov	r5, r2
	mov	r4, r1
	mov	r1, r0
	ldrb	r2, [r0, #8]
	movs	r0, #32
	cmp	r2, #0
	beq	.LBB51_15
	ldr	r7, [r1]
	ldrb	r1, [r7]
	cmp	r1, #1
	bne	.LBB51_15
	movs	r6, #0
	strb	r6, [r7]
	ldr	r0, [r7, #56]
	str	r0, [sp, #8]
	subs	r0, r0, #4
	cmp	r4, r0
	bhi	.LBB51_10
	movs	r2, #63
	ands	r2, r4
	ldr	r0, [r7, #72]
	str	r0, [sp, #4]
	lsrs	r0, r4, #6
	lsls	r0, r0, #3
	ldr	r1, [sp, #4]
	ldr	r1, [r1, r0]
	str	r1, [sp]
	ldr	r1, [sp, #4]
	adds	r0, r1, r0
	ldr	r1, [r0, #4]
	ldr	r0, [sp]
	str	r3, [sp, #4]
	bl	__aeabi_llsr
	ldr	r2, [sp, #4]
	lsls	r1, r0, #31
	beq	.LBB51_10
	cmp	r5, #0
	beq	.LBB51_11
	ldr	r0, [sp, #32]
	str	r0, [sp]
	mov	r6, r7
	adds	r6, #48
.LBB51_6:
	mov	r0, r6
	mov	r1, r4
	bl	tlsf_heap.check.examine
	uxtb	r0, r0
	cmp	r0, #1
	bne	.LBB51_12
	movs	r0, #0
	ldr	r2, [sp, #8]
	cmp	r1, r2
	beq	.LBB51_13
	subs	r5, r5, #1
	mov	r4, r1
	bne	.LBB51_6
	ldr	r2, [sp, #4]
	mov	r4, r1
	b	.LBB51_14
.LBB51_10:
	movs	r0, #1
	strb	r0, [r7]
	movs	r0, #4
	add	sp, #12
	pop	{r4, r5, r6, r7, pc}
.LBB51_11:
	mov	r0, r6
	b	.LBB51_14
.LBB51_12:
	movs	r0, #36
	ldr	r2, [sp]
	b	.LBB51_14
.LBB51_13:
	ldr	r2, [sp, #4]
	mov	r4, r0
.LBB51_14:
	movs	r1, #1
	strb	r1, [r7]
	str	r4, [r2]
.LBB51_15:
	add	sp, #12
	pop	{r4, r5, r6, r7, pc}
.Lfunc_end51:
	.size	tlsf_check, .Lfunc_end51-tlsf_check
	.cfi_endproc
	.section	.text.tlsf_check_around,"ax",%progbits
	.globl	tlsf_check_around
	.p2align	1
	.type	tlsf_check_around,%function
	.code	16
	.thumb_func
tlsf_check_around:
	.cfi_startproc
	push	{r4, r5, r6, r7, lr}
	.cfi_def_cfa_offset 20
	.cfi_offset lr, -4
	.cfi_offset r7, -8
	.cfi_offset r6, -12
	.cfi_offset r5, -16
	.cfi_offset r4, -20
	sub	sp, #12
	.cfi_def_cfa_offset 32
	mov	r3, r0
	ldrb	r4, [r0, #8]
	movs	r0, #32
	cmp	r4, #0
	beq	.LBB52_5
	ldr	r5, [r3]
	ldrb	r3, [r5]
	cmp	r3, #1
	bne	.LBB52_5
	mov	r6, r2
	movs	r0, #0
	mov	r7, r0
	strb	r0, [r5]
	mov	r3, r5
	adds	r3, #48
	mov	r4, sp
	mov	r0, r4
	mov	r2, r1
	mov	r1, r3
	bl	tlsf_heap.around.check_around
	ldrb	r0, [r4, #4]
	ldrb	r2, [r4]
	ldr	r1, [sp, #8]
	movs	r3, #1
	strb	r3, [r5]
	cmp	r2, #0
	beq	.LBB52_6
	cmp	r0, #0
	mov	r0, r7
	beq	.LBB52_5
	str	r1, [r6]
	movs	r0, #36
.LBB52_5:
	add	sp, #12
	pop	{r4, r5, r6, r7, pc}
.LBB52_6:
	movs	r0, #4
	add	sp, #12
	pop	{r4, r5, r6, r7, pc}
.Lfunc_end52:
	.size	tlsf_check_around, .Lfunc_end52-tlsf_check_around
	.cfi_endproc
	.section	.text.tlsf_check_request,"ax",%progbits
	.globl	tlsf_check_request
	.p2align	2
	.type	tlsf_check_request,%function
	.code	16
	.thumb_func
tlsf_check_request:
	.cfi_startproc
	push	{r4, r5, r6, r7, lr}
	.cfi_def_cfa_offset 20
	.cfi_offset lr, -4
	.cfi_offset r7, -8
	.cfi_offset r6, -12
	.cfi_offset r5, -16
	.cfi_offset r4, -20
	sub	sp, #28
	.cfi_def_cfa_offset 48
	mov	r3, r0
	ldrb	r4, [r0, #8]
	movs	r0, #32
	cmp	r4, #0
	bne	.LBB53_1
	b	.LBB53_30
.LBB53_1:
	ldr	r6, [r3]
	ldrb	r3, [r6]
	cmp	r3, #0
	bne	.LBB53_2
	b	.LBB53_30
.LBB53_2:
	movs	r0, #0
	strb	r0, [r6]
	adds	r3, r1, #1
	mov	r4, r0
	adcs	r4, r0
	cmp	r1, #0
	beq	.LBB53_4
	mov	r3, r1
.LBB53_4:
	beq	.LBB53_6
	mov	r4, r0
.LBB53_6:
	adds	r3, #31
	adcs	r4, r0
	lsrs	r0, r3, #3
	lsls	r1, r4, #29
	adds	r4, r0, r1
	movs	r0, #1
	lsls	r1, r0, #20
	cmp	r4, r1
	bls	.LBB53_7
	b	.LBB53_27
.LBB53_7:
	str	r2, [sp, #12]
	movs	r1, #16
	orrs	r1, r4
	str	r0, [sp, #8]
	mov	r0, r1
	bl	__clzsi2
	mov	r1, r0
	ldr	r0, [sp, #8]
	movs	r2, #27
	subs	r1, r2, r1
	str	r4, [sp, #4]
	subs	r2, r4, #1
	lsrs	r2, r1
	lsls	r1, r1, #4
	adds	r1, r2, r1
	adds	r1, r1, #1
	movs	r4, #0
	subs	r3, r1, #1
	str	r4, [sp]
	mov	r1, r4
	sbcs	r1, r4
	lsrs	r4, r3, #4
	lsls	r1, r1, #28
	adds	r4, r4, r1
	lsls	r7, r4, #2
	mov	r1, r6
	adds	r1, #108
	ldr	r7, [r1, r7]
	movs	r5, #15
	ands	r5, r2
	lsrs	r7, r5
	bics	r7, r0
	beq	.LBB53_10
	cmp	r7, #0
	beq	.LBB53_16
	rsbs	r1, r7, #0
	ands	r1, r7
	ldr	r2, .LCPI53_0
	muls	r2, r1, r2
	lsrs	r1, r2, #27
	adr	r2, .LCPI53_1
	ldrb	r1, [r2, r1]
	b	.LBB53_17
.LBB53_10:
	mvns	r2, r0
	lsls	r2, r4
	ldr	r7, [r6, #104]
	ands	r7, r2
	ldr	r2, [sp, #12]
	beq	.LBB53_27
	adr	r5, .LCPI53_1
	movs	r3, #32
	cmp	r7, #0
	mov	r4, r3
	beq	.LBB53_13
	rsbs	r4, r7, #0
	ands	r4, r7
	ldr	r7, .LCPI53_0
	muls	r4, r7, r4
	lsrs	r4, r4, #27
	ldrb	r4, [r5, r4]
.LBB53_13:
	mov	r7, r5
	lsls	r5, r4, #2
	ldr	r1, [r1, r5]
	cmp	r1, #0
	beq	.LBB53_19
	cmp	r1, #0
	beq	.LBB53_18
	rsbs	r3, r1, #0
	ands	r3, r1
	ldr	r1, .LCPI53_0
	muls	r1, r3, r1
	lsrs	r1, r1, #27
	ldrb	r3, [r7, r1]
	b	.LBB53_19
.LBB53_16:
	movs	r1, #32
.LBB53_17:
	ldr	r2, [sp, #12]
	adds	r1, r1, r3
	b	.LBB53_20
.LBB53_18:
	movs	r3, #32
.LBB53_19:
	lsls	r1, r4, #4
	adds	r1, r3, r1
.LBB53_20:
	lsls	r1, r1, #2
	adds	r1, r6, r1
	movs	r3, #192
	ldr	r4, [r1, r3]
	adds	r1, r4, #1
	beq	.LBB53_27
	ldr	r1, [r6, #56]
	subs	r1, r1, #4
	cmp	r4, r1
	bhi	.LBB53_28
	movs	r2, #63
	ands	r2, r4
	ldr	r1, [r6, #72]
	lsrs	r0, r4, #6
	lsls	r3, r0, #3
	ldr	r0, [r1, r3]
	adds	r1, r1, r3
	ldr	r1, [r1, #4]
	bl	__aeabi_llsr
	ldr	r2, [sp, #12]
	mov	r1, r0
	ldr	r0, [sp, #8]
	lsls	r1, r1, #31
	beq	.LBB53_28
	mov	r1, r6
	adds	r1, #48
	lsls	r3, r4, #3
	ldr	r5, [r1]
	ldr	r3, [r5, r3]
	lsls	r5, r3, #31
	ldr	r5, [sp, #4]
	beq	.LBB53_28
	lsrs	r3, r3, #2
	cmp	r3, r5
	blo	.LBB53_28
	add	r5, sp, #16
	mov	r0, r5
	mov	r2, r4
	bl	tlsf_heap.around.check_around
	ldr	r0, [sp, #8]
	ldr	r2, [sp, #12]
	ldrb	r1, [r5]
	cmp	r1, #1
	bne	.LBB53_28
	add	r1, sp, #16
	ldrb	r1, [r1, #4]
	ldr	r4, [sp, #24]
	strb	r0, [r6]
	cmp	r1, #0
	ldr	r0, [sp]
	bne	.LBB53_29
	b	.LBB53_30
.LBB53_27:
	strb	r0, [r6]
	add	sp, #28
	pop	{r4, r5, r6, r7, pc}
.LBB53_28:
	strb	r0, [r6]
.LBB53_29:
	str	r4, [r2]
	movs	r0, #36
.LBB53_30:
	add	sp, #28
	pop	{r4, r5, r6, r7, pc}
	.p2align	2
.LCPI53_0:
	.long	125613361
.LCPI53_1:
	.ascii	"\000\001\034\002\035\016\030\003\036\026\024\017\031\021\004\b\037\033\r\027\025\023\020\007\032\f\022\006\013\005\n\t"
.Lfunc_end53:
	.size	tlsf_check_request, .Lfunc_end53-tlsf_check_request
	.cfi_endproc
	.section	.text.tlsf_close,"ax",%progbits
	.globl	tlsf_close
	.p2align	1
	.type	tlsf_close,%function
	.code	16
	.thumb_func
tlsf_close:
	.cfi_startproc
	push	{r4, r5, r6, r7, lr}
	.cfi_def_cfa_offset 20
	.cfi_offset lr, -4
	.cfi_offset r7, -8
	.cfi_offset r6, -12
	.cfi_offset r5, -16
	.cfi_offset r4, -20
	sub	sp, #84
	.cfi_def_cfa_offset 104
	ldrb	r2, [r0, #8]
	movs	r1, #32
	cmp	r2, #0
	bne	.LBB54_1
	b	.LBB54_7
.LBB54_1:
	ldr	r2, [r0]
	ldrb	r3, [r2]
	cmp	r3, #1
	beq	.LBB54_2
	b	.LBB54_7
.LBB54_2:
	movs	r1, #0
	strb	r1, [r0, #8]
	strb	r1, [r2]
	strb	r1, [r0, #7]
	strb	r1, [r0, #6]
	strb	r1, [r0, #5]
	strb	r1, [r0, #4]
	ldrb	r2, [r0, #3]
	strb	r1, [r0, #3]
	ldrb	r3, [r0, #2]
	strb	r1, [r0, #2]
	ldrb	r4, [r0, #1]
	strb	r1, [r0, #1]
	ldrb	r5, [r0]
	str	r1, [sp, #80]
	strb	r1, [r0]
	lsls	r0, r4, #8
	adds	r0, r0, r5
	lsls	r1, r3, #16
	lsls	r2, r2, #24
	adds	r1, r2, r1
	adds	r0, r1, r0
	mov	r1, r0
	adds	r1, #48
	ldrb	r2, [r1, #3]
	str	r2, [sp, #12]
	ldrb	r2, [r1, #2]
	str	r2, [sp, #8]
	movs	r2, #48
	ldrb	r2, [r0, r2]
	str	r2, [sp, #4]
	ldrb	r1, [r1, #1]
	str	r1, [sp]
	mov	r1, r0
	adds	r1, #72
	ldrb	r2, [r1, #3]
	str	r2, [sp, #28]
	ldrb	r2, [r1, #2]
	str	r2, [sp, #24]
	movs	r2, #72
	ldrb	r2, [r0, r2]
	str	r2, [sp, #20]
	ldrb	r1, [r1, #1]
	str	r1, [sp, #16]
	mov	r1, r0
	adds	r1, #88
	ldrb	r2, [r1, #3]
	str	r2, [sp, #76]
	ldrb	r2, [r1, #2]
	str	r2, [sp, #72]
	movs	r2, #88
	ldrb	r2, [r0, r2]
	str	r2, [sp, #68]
	ldrb	r1, [r1, #1]
	str	r1, [sp, #64]
	mov	r1, r0
	adds	r1, #92
	ldrb	r2, [r1, #3]
	str	r2, [sp, #60]
	ldrb	r2, [r1, #2]
	str	r2, [sp, #56]
	movs	r2, #92
	ldrb	r2, [r0, r2]
	str	r2, [sp, #52]
	ldrb	r1, [r1, #1]
	str	r1, [sp, #48]
	mov	r1, r0
	adds	r1, #64
	ldrb	r2, [r1, #3]
	str	r2, [sp, #44]
	ldrb	r2, [r1, #2]
	str	r2, [sp, #40]
	movs	r2, #64
	ldrb	r2, [r0, r2]
	str	r2, [sp, #36]
	ldrb	r1, [r1, #1]
	str	r1, [sp, #32]
	mov	r1, r0
	adds	r1, #68
	ldrb	r5, [r1, #3]
	ldrb	r6, [r1, #2]
	movs	r2, #68
	ldrb	r7, [r0, r2]
	ldrb	r4, [r1, #1]
	bl	tlsf_memory_dealloc
	lsls	r0, r4, #8
	adds	r0, r0, r7
	lsls	r1, r6, #16
	lsls	r2, r5, #24
	adds	r1, r2, r1
	adds	r0, r1, r0
	ldr	r1, [sp, #32]
	lsls	r1, r1, #8
	ldr	r2, [sp, #36]
	adds	r1, r1, r2
	ldr	r2, [sp, #40]
	lsls	r2, r2, #16
	ldr	r3, [sp, #44]
	lsls	r3, r3, #24
	adds	r2, r3, r2
	adds	r1, r2, r1
	orrs	r1, r0
	ldr	r0, [sp, #48]
	lsls	r0, r0, #8
	ldr	r2, [sp, #52]
	adds	r0, r0, r2
	ldr	r2, [sp, #56]
	lsls	r2, r2, #16
	ldr	r3, [sp, #60]
	lsls	r3, r3, #24
	adds	r2, r3, r2
	adds	r4, r2, r0
	ldr	r0, [sp, #64]
	lsls	r0, r0, #8
	ldr	r2, [sp, #68]
	adds	r0, r0, r2
	ldr	r2, [sp, #72]
	lsls	r2, r2, #16
	ldr	r3, [sp, #76]
	lsls	r3, r3, #24
	adds	r2, r3, r2
	adds	r5, r2, r0
	cmp	r1, #0
	beq	.LBB54_4
	ldr	r0, [sp]
	lsls	r0, r0, #8
	ldr	r1, [sp, #4]
	adds	r0, r0, r1
	ldr	r1, [sp, #8]
	lsls	r1, r1, #16
	ldr	r2, [sp, #12]
	lsls	r2, r2, #24
	adds	r1, r2, r1
	adds	r0, r1, r0
	bl	tlsf_memory_dealloc
.LBB54_4:
	orrs	r5, r4
	beq	.LBB54_6
	ldr	r0, [sp, #16]
	lsls	r0, r0, #8
	ldr	r1, [sp, #24]
	lsls	r1, r1, #16
	ldr	r2, [sp, #28]
	lsls	r2, r2, #24
	ldr	r3, [sp, #20]
	adds	r0, r0, r3
	adds	r1, r2, r1
	adds	r0, r1, r0
	bl	tlsf_memory_dealloc
.LBB54_6:
	ldr	r1, [sp, #80]
.LBB54_7:
	mov	r0, r1
	add	sp, #84
	pop	{r4, r5, r6, r7, pc}
.Lfunc_end54:
	.size	tlsf_close, .Lfunc_end54-tlsf_close
	.cfi_endproc
	.section	.text.tlsf_counts,"ax",%progbits
	.globl	tlsf_counts
	.p2align	1
	.type	tlsf_counts,%function
	.code	16
	.thumb_func
tlsf_counts:
	.cfi_startproc
	push	{r4, r5, r7, lr}
	.cfi_def_cfa_offset 16
	.cfi_offset lr, -4
	.cfi_offset r7, -8
	.cfi_offset r5, -12
	.cfi_offset r4, -16
	ldrb	r2, [r0, #8]
	cmp	r2, #0
	beq	.LBB55_3
	ldr	r3, [r0]
	ldrb	r0, [r3]
	cmp	r0, #0
	beq	.LBB55_3
	ldr	r0, [r3, #40]
	ldr	r2, [r3, #44]
	ldr	r4, [r3, #8]
	ldr	r3, [r3, #12]
	strb	r3, [r1, #12]
	strb	r4, [r1, #8]
	strb	r2, [r1, #4]
	strb	r0, [r1]
	lsrs	r5, r3, #24
	strb	r5, [r1, #15]
	lsrs	r5, r3, #16
	strb	r5, [r1, #14]
	lsrs	r3, r3, #8
	strb	r3, [r1, #13]
	lsrs	r3, r4, #24
	strb	r3, [r1, #11]
	lsrs	r3, r4, #16
	strb	r3, [r1, #10]
	lsrs	r3, r4, #8
	strb	r3, [r1, #9]
	lsrs	r3, r2, #24
	strb	r3, [r1, #7]
	lsrs	r3, r2, #16
	strb	r3, [r1, #6]
	lsrs	r2, r2, #8
	strb	r2, [r1, #5]
	lsrs	r2, r0, #24
	strb	r2, [r1, #3]
	lsrs	r2, r0, #16
	strb	r2, [r1, #2]
	lsrs	r0, r0, #8
	strb	r0, [r1, #1]
	movs	r0, #0
	pop	{r4, r5, r7, pc}
.LBB55_3:
	movs	r0, #0
	bl	tlsf_c.call_fault.CallFault.refusal
	pop	{r4, r5, r7, pc}
.Lfunc_end55:
	.size	tlsf_counts, .Lfunc_end55-tlsf_counts
	.cfi_endproc
	.section	.text.tlsf_drain,"ax",%progbits
	.globl	tlsf_drain
	.p2align	1
	.type	tlsf_drain,%function
	.code	16
	.thumb_func
tlsf_drain:
	.cfi_startproc
	push	{r4, r5, r6, r7, lr}
	.cfi_def_cfa_offset 20
	.cfi_offset lr, -4
	.cfi_offset r7, -8
	.cfi_offset r6, -12
	.cfi_offset r5, -16
	.cfi_offset r4, -20
	sub	sp, #508
	sub	sp, #312
	.cfi_def_cfa_offset 840
	str	r3, [sp, #12]
	mov	r4, r2
	ldrb	r2, [r0, #8]
	cmp	r2, #0
	beq	.LBB56_16
	ldr	r2, [r0]
	ldrb	r2, [r2]
	cmp	r2, #1
	bne	.LBB56_16
	ldrb	r2, [r1, #8]
	cmp	r2, #0
	beq	.LBB56_16
	ldr	r6, [r1]
	ldrb	r1, [r6, #1]
	cmp	r1, #0
	beq	.LBB56_16
	ldrb	r1, [r6]
	cmp	r1, #1
	bne	.LBB56_19
	str	r0, [sp, #24]
	movs	r5, #0
	strb	r5, [r6, #1]
	movs	r0, #3
	lsls	r2, r0, #8
	add	r0, sp, #48
	mov	r1, r5
	bl	tlsf_memory_set
	cmp	r4, #0
	str	r5, [sp, #8]
	beq	.LBB56_15
	mov	r0, r6
	adds	r0, #8
	str	r0, [sp, #16]
	movs	r5, #0
	str	r6, [sp, #20]
.LBB56_7:
	str	r5, [sp, #36]
	cmp	r4, #32
	str	r4, [sp, #28]
	blo	.LBB56_9
	movs	r4, #32
.LBB56_9:
	add	r1, sp, #48
	movs	r3, #0
	ldr	r0, [sp, #16]
	str	r4, [sp, #32]
	mov	r2, r4
	str	r3, [sp, #44]
	bl	tlsf_post.take_end.TakeEnd.take_slice
	mov	r4, r1
	mov	r1, r0
	orrs	r1, r4
	ldr	r5, [sp, #24]
	beq	.LBB56_12
	ldr	r6, [sp, #44]
	mov	r7, r6
	str	r0, [sp, #40]
.LBB56_11:
	movs	r2, #24
	muls	r2, r7, r2
	add	r1, sp, #48
	adds	r3, r1, r2
	ldr	r1, [r3, #8]
	mov	r0, r5
	mov	r5, r4
	ldr	r4, [r3, #12]
	ldr	r2, [r3, #16]
	ldr	r3, [r3, #20]
	str	r4, [sp]
	mov	r4, r5
	mov	r5, r0
	bl	tlsf_c.heap_calls.release_named
	ldr	r0, [sp, #40]
	adds	r7, r7, #1
	ldr	r1, [sp, #44]
	adcs	r6, r1
	subs	r1, r7, r0
	mov	r1, r6
	sbcs	r1, r4
	blo	.LBB56_11
.LBB56_12:
	ldr	r5, [sp, #36]
	adds	r5, r5, r0
	movs	r3, #0
	ldr	r1, [sp, #32]
	subs	r1, r0, r1
	sbcs	r4, r3
	blo	.LBB56_14
	ldr	r4, [sp, #28]
	subs	r4, r4, r0
	ldr	r6, [sp, #20]
	bne	.LBB56_7
	b	.LBB56_15
.LBB56_14:
	ldr	r6, [sp, #20]
.LBB56_15:
	ldr	r0, [sp, #12]
	str	r5, [r0]
	movs	r0, #1
	strb	r0, [r6, #1]
	ldr	r0, [sp, #8]
	b	.LBB56_18
.LBB56_16:
	movs	r0, #0
.LBB56_17:
	bl	tlsf_c.call_fault.CallFault.refusal
.LBB56_18:
	add	sp, #508
	add	sp, #312
	pop	{r4, r5, r6, r7, pc}
.LBB56_19:
	movs	r0, #2
	b	.LBB56_17
.Lfunc_end56:
	.size	tlsf_drain, .Lfunc_end56-tlsf_drain
	.cfi_endproc
	.section	.text.tlsf_lane_open,"ax",%progbits
	.globl	tlsf_lane_open
	.p2align	2
	.type	tlsf_lane_open,%function
	.code	16
	.thumb_func
tlsf_lane_open:
	.cfi_startproc
	push	{r4, r5, r6, r7, lr}
	.cfi_def_cfa_offset 20
	.cfi_offset lr, -4
	.cfi_offset r7, -8
	.cfi_offset r6, -12
	.cfi_offset r5, -16
	.cfi_offset r4, -20
	sub	sp, #260
	.cfi_def_cfa_offset 280
	str	r2, [sp, #28]
	mov	r7, r1
	mov	r5, r0
	add	r0, sp, #200
	movs	r4, #0
	movs	r2, #56
	mov	r1, r4
	bl	tlsf_memory_set
	add	r0, sp, #152
	movs	r2, #48
	mov	r1, r4
	bl	tlsf_memory_set
	add	r0, sp, #72
	movs	r6, #40
	mov	r1, r4
	mov	r2, r6
	bl	tlsf_memory_set
	add	r0, sp, #32
	mov	r1, r4
	mov	r2, r6
	bl	tlsf_memory_set
	ldrb	r1, [r5, #8]
	movs	r0, #33
	cmp	r1, #0
	bne	.LBB57_2
	ldrb	r1, [r7, #8]
	cmp	r1, #0
	beq	.LBB57_3
.LBB57_2:
	add	sp, #260
	pop	{r4, r5, r6, r7, pc}
.LBB57_3:
	mov	r6, r5
	ldr	r0, .LCPI57_0
	ldr	r5, [sp, #28]
	adds	r1, r5, r0
	subs	r1, r1, #1
	cmp	r1, r0
	bhs	.LBB57_5
	movs	r0, #5
	add	sp, #260
	pop	{r4, r5, r6, r7, pc}
.LBB57_5:
	str	r7, [sp, #24]
	movs	r0, #3
	lsls	r1, r0, #7
	add	r0, sp, #112
	movs	r2, #8
	bl	tlsf_memory_alloc
	ldr	r1, [sp, #112]
	movs	r0, #6
	lsls	r1, r1, #31
	beq	.LBB57_2
	str	r0, [sp, #20]
	ldr	r7, [sp, #120]
	movs	r1, #24
	muls	r1, r5, r1
	add	r0, sp, #112
	movs	r2, #8
	bl	tlsf_memory_alloc
	ldr	r0, [sp, #112]
	lsls	r0, r0, #31
	beq	.LBB57_12
	ldr	r0, [sp, #120]
	str	r0, [sp, #16]
	movs	r0, #128
	str	r4, [r7, r0]
	movs	r0, #1
	str	r0, [sp, #12]
	lsls	r0, r0, #8
	str	r4, [r7, r0]
	str	r4, [r7]
	str	r4, [r7, #4]
	mov	r1, r7
	adds	r1, #128
	str	r4, [r1, #4]
	adds	r0, r7, r0
	str	r0, [sp, #8]
	str	r4, [r0, #4]
	add	r0, sp, #112
	movs	r1, #48
	movs	r2, #8
	bl	tlsf_memory_alloc
	ldr	r0, [sp, #112]
	lsls	r0, r0, #31
	beq	.LBB57_13
	mov	r1, r7
	str	r7, [sp, #4]
	mov	r2, r5
	ldr	r5, [sp, #120]
	strb	r4, [r5, #31]
	strb	r4, [r5, #30]
	strb	r4, [r5, #29]
	strb	r4, [r5, #28]
	strb	r2, [r5, #24]
	strb	r4, [r5, #23]
	strb	r4, [r5, #22]
	strb	r4, [r5, #21]
	strb	r4, [r5, #20]
	ldr	r7, [sp, #16]
	strb	r7, [r5, #16]
	strb	r4, [r5, #15]
	strb	r4, [r5, #14]
	strb	r4, [r5, #13]
	strb	r4, [r5, #12]
	strb	r1, [r5, #8]
	ldr	r0, [sp, #12]
	strb	r0, [r5, #1]
	strb	r4, [r5]
	lsrs	r0, r2, #24
	strb	r0, [r5, #27]
	lsrs	r0, r2, #16
	strb	r0, [r5, #26]
	lsrs	r0, r2, #8
	strb	r0, [r5, #25]
	lsrs	r0, r7, #24
	strb	r0, [r5, #19]
	lsrs	r0, r7, #16
	strb	r0, [r5, #18]
	lsrs	r0, r7, #8
	strb	r0, [r5, #17]
	lsrs	r0, r1, #24
	strb	r0, [r5, #11]
	lsrs	r0, r1, #16
	strb	r0, [r5, #10]
	lsrs	r0, r1, #8
	strb	r0, [r5, #9]
	mov	r0, r5
	adds	r0, #32
	movs	r2, #16
	mov	r1, r4
	bl	tlsf_memory_set
	movs	r0, #255
	adds	r0, #2
	add	r1, sp, #152
	strh	r0, [r1]
	str	r4, [sp, #180]
	ldr	r0, [sp, #28]
	str	r0, [sp, #176]
	str	r4, [sp, #184]
	str	r4, [sp, #172]
	str	r7, [sp, #168]
	str	r4, [sp, #164]
	ldr	r0, [sp, #4]
	str	r0, [sp, #160]
	str	r4, [sp, #188]
	str	r4, [sp, #192]
	str	r4, [sp, #196]
	add	r7, sp, #200
	mov	r0, r7
	bl	std_alloc.boxed.Box.new.91a8e04f462e8cea
	ldrb	r0, [r7]
	cmp	r0, #0
	beq	.LBB57_15
	mov	r7, r5
	add	r4, sp, #200
	ldrb	r5, [r4, #8]
	adds	r4, #32
	ldr	r1, [sp, #228]
	add	r3, sp, #216
	ldm	r3, {r0, r2, r3}
	.p2align	2
	add	r5, pc
	ldrb	r5, [r5, #4]
	lsls	r5, r5, #1
.LCPI57_1:
	add	pc, r5
	.p2align	2
.LJTI57_0:
	.byte	(.LBB57_11-(.LCPI57_1+4))/2
	.byte	(.LBB57_18-(.LCPI57_1+4))/2
	.byte	(.LBB57_16-(.LCPI57_1+4))/2
	.byte	(.LBB57_17-(.LCPI57_1+4))/2
	.p2align	1
.LBB57_11:
	add	r5, sp, #72
	stm	r5!, {r0, r2, r3}
	str	r1, [sp, #84]
	add	r0, sp, #72
	mov	r1, r0
	adds	r1, #16
	ldm	r4!, {r2, r3, r5}
	stm	r1!, {r2, r3, r5}
	ldm	r4!, {r2, r3, r5}
	stm	r1!, {r2, r3, r5}
	bl	rtrb.producer.Producer.drop.9fca81e6602d26fc
	b	.LBB57_19
.LBB57_12:
	mov	r0, r7
	bl	tlsf_memory_dealloc
	b	.LBB57_20
.LBB57_13:
	str	r4, [sp, #132]
	str	r5, [sp, #128]
	str	r4, [sp, #124]
	ldr	r6, [sp, #16]
	str	r6, [sp, #120]
	str	r4, [sp, #136]
	str	r4, [sp, #116]
	str	r7, [sp, #112]
	str	r4, [sp, #140]
	str	r4, [sp, #144]
	str	r4, [sp, #148]
	add	r0, sp, #112
	bl	rtrb.producer.Producer.drop.9fca81e6602d26fc
	movs	r0, #5
	str	r0, [sp]
	movs	r2, #1
	ldr	r0, [sp, #8]
	mov	r3, r4
	bl	__atomic_exchange_8
	orrs	r1, r0
	beq	.LBB57_20
	movs	r3, #0
	mov	r0, r7
	mov	r1, r6
	mov	r2, r5
	bl	rtrb.release.drop_slow.23d795680250cb0d
	b	.LBB57_20
.LBB57_15:
	strb	r4, [r6, #9]
	ldr	r1, [sp, #12]
	strb	r1, [r6, #8]
	strb	r4, [r6, #7]
	strb	r4, [r6, #6]
	strb	r4, [r6, #5]
	strb	r4, [r6, #4]
	strb	r5, [r6]
	strb	r4, [r6, #10]
	strb	r4, [r6, #11]
	strb	r4, [r6, #12]
	strb	r4, [r6, #13]
	strb	r4, [r6, #14]
	strb	r4, [r6, #15]
	lsrs	r0, r5, #24
	strb	r0, [r6, #3]
	lsrs	r0, r5, #16
	strb	r0, [r6, #2]
	lsrs	r0, r5, #8
	strb	r0, [r6, #1]
	ldr	r5, [sp, #24]
	strb	r4, [r5, #11]
	strb	r4, [r5, #12]
	strb	r4, [r5, #13]
	strb	r4, [r5, #14]
	strb	r4, [r5, #15]
	strb	r4, [r5, #9]
	strb	r1, [r5, #8]
	ldr	r0, [sp, #208]
	lsrs	r1, r0, #16
	strb	r1, [r5, #2]
	lsrs	r1, r0, #24
	strb	r1, [r5, #3]
	strb	r0, [r5]
	lsrs	r0, r0, #8
	strb	r0, [r5, #1]
	strb	r4, [r5, #6]
	strb	r4, [r5, #7]
	strb	r4, [r5, #4]
	strb	r4, [r5, #5]
	strb	r4, [r5, #10]
	mov	r0, r4
	add	sp, #260
	pop	{r4, r5, r6, r7, pc}
.LBB57_16:
	bl	std_alloc.arc.Arc.drop.c4a047e811255370
	mov	r0, r4
	bl	std_alloc.vec.Vec.drop.7ac45d8413b9ad54
	b	.LBB57_19
.LBB57_17:
	bl	std_alloc.arc.Arc.drop.c4a047e811255370
	b	.LBB57_19
.LBB57_18:
	add	r5, sp, #32
	stm	r5!, {r0, r2, r3}
	str	r1, [sp, #44]
	add	r0, sp, #32
	mov	r1, r0
	adds	r1, #16
	ldm	r4!, {r2, r3, r5}
	stm	r1!, {r2, r3, r5}
	ldm	r4!, {r2, r3, r5}
	stm	r1!, {r2, r3, r5}
	bl	rtrb.consumer.Consumer.drop.9fca81e6602d26fc
.LBB57_19:
	mov	r0, r7
	bl	std_alloc.boxed.Box.drop.7d8ec8058c3633cd
.LBB57_20:
	ldr	r0, [sp, #20]
	add	sp, #260
	pop	{r4, r5, r6, r7, pc}
	.p2align	2
.LCPI57_0:
	.long	4294966272
.Lfunc_end57:
	.size	tlsf_lane_open, .Lfunc_end57-tlsf_lane_open
	.cfi_endproc
	.section	.text.tlsf_locate,"ax",%progbits
	.globl	tlsf_locate
	.p2align	1
	.type	tlsf_locate,%function
	.code	16
	.thumb_func
tlsf_locate:
	.cfi_startproc
	push	{r4, r5, r6, r7, lr}
	.cfi_def_cfa_offset 20
	.cfi_offset lr, -4
	.cfi_offset r7, -8
	.cfi_offset r6, -12
	.cfi_offset r5, -16
	.cfi_offset r4, -20
	sub	sp, #12
	.cfi_def_cfa_offset 32
	ldr	r4, [sp, #40]
	ldr	r1, [r4]
	str	r1, [sp]
	ldrb	r1, [r0, #8]
	cmp	r1, #0
	beq	.LBB58_11
	ldr	r7, [r0]
	ldrb	r0, [r7]
	cmp	r0, #0
	beq	.LBB58_11
	mov	r5, r2
	movs	r0, #0
	str	r0, [sp, #8]
	strb	r0, [r7]
	ldr	r1, [r7, #24]
	cmp	r1, r2
	bne	.LBB58_8
	mov	r6, r3
	ldr	r0, [r7, #56]
	cmp	r3, r0
	mov	r1, r5
	bhs	.LBB58_8
	movs	r2, #63
	ands	r2, r6
	ldr	r1, [r7, #72]
	lsrs	r0, r6, #6
	lsls	r3, r0, #3
	ldr	r0, [r1, r3]
	adds	r1, r1, r3
	ldr	r1, [r1, #4]
	bl	__aeabi_llsr
	lsls	r0, r0, #31
	mov	r1, r5
	beq	.LBB58_8
	lsls	r2, r6, #3
	ldr	r0, [r7, #48]
	ldrb	r1, [r0, r2]
	lsls	r1, r1, #31
	mov	r1, r5
	bne	.LBB58_8
	ldr	r1, [sp, #36]
	ldr	r3, [sp, #32]
	str	r3, [sp, #4]
	adds	r2, r0, r2
	ldr	r6, [r2, #8]
	mov	r3, r4
	ldr	r4, [r2, #12]
	eors	r4, r1
	ldr	r1, [sp, #4]
	eors	r6, r1
	orrs	r6, r4
	mov	r4, r3
	mov	r1, r5
	bne	.LBB58_8
	ldr	r1, [sp, #44]
	ldr	r2, [r2, #16]
	movs	r3, #1
	strb	r3, [r7]
	str	r2, [r1]
	ldr	r1, [sp, #8]
	b	.LBB58_13
.LBB58_8:
	mov	r0, r5
	bl	tlsf_heap.refusal.Refusal.of_name
	movs	r1, #1
	strb	r1, [r7]
	uxtb	r0, r0
	cmp	r0, #3
	beq	.LBB58_10
	movs	r1, #3
	b	.LBB58_12
.LBB58_10:
	movs	r1, #4
	b	.LBB58_12
.LBB58_11:
	movs	r0, #0
	bl	tlsf_c.call_fault.CallFault.refusal
	mov	r1, r0
.LBB58_12:
	ldr	r0, [sp]
.LBB58_13:
	str	r0, [r4]
	mov	r0, r1
	add	sp, #12
	pop	{r4, r5, r6, r7, pc}
.Lfunc_end58:
	.size	tlsf_locate, .Lfunc_end58-tlsf_locate
	.cfi_endproc
	.section	.text.tlsf_offsets_allocate,"ax",%progbits
	.globl	tlsf_offsets_allocate
	.p2align	2
	.type	tlsf_offsets_allocate,%function
	.code	16
	.thumb_func
tlsf_offsets_allocate:
	.cfi_startproc
	push	{r4, r5, r6, r7, lr}
	.cfi_def_cfa_offset 20
	.cfi_offset lr, -4
	.cfi_offset r7, -8
	.cfi_offset r6, -12
	.cfi_offset r5, -16
	.cfi_offset r4, -20
	sub	sp, #100
	.cfi_def_cfa_offset 120
	ldrb	r1, [r0, #8]
	cmp	r1, #0
	bne	.LBB59_1
	b	.LBB59_29
.LBB59_1:
	ldr	r1, [r0]
	ldrb	r0, [r1, #1]
	cmp	r0, #0
	bne	.LBB59_2
	b	.LBB59_29
.LBB59_2:
	ldrb	r0, [r1]
	cmp	r0, #0
	beq	.LBB59_3
	b	.LBB59_30
.LBB59_3:
	movs	r6, #0
	strb	r6, [r1, #1]
	movs	r0, #5
	lsls	r0, r0, #8
	ldr	r4, [r1, r0]
	cmp	r4, #0
	bne	.LBB59_4
	b	.LBB59_52
.LBB59_4:
	mov	r5, r3
	str	r1, [sp, #92]
	adds	r0, r1, r0
	str	r0, [sp, #76]
	mov	r0, r2
	mov	r1, r3
	str	r2, [sp, #84]
	mov	r2, r4
	mov	r3, r6
	bl	__aeabi_uldivmod
	mov	r2, r0
	mov	r3, r6
	mov	r6, r1
	adds	r0, r0, #1
	str	r0, [sp, #88]
	mov	r7, r1
	adcs	r7, r3
	str	r2, [sp, #80]
	mov	r0, r2
	mov	r2, r4
	str	r3, [sp, #96]
	bl	__aeabi_lmul
	ldr	r2, [sp, #84]
	subs	r0, r2, r0
	sbcs	r5, r1
	orrs	r5, r0
	cmp	r5, #0
	bne	.LBB59_6
	mov	r7, r6
.LBB59_6:
	ldr	r3, [sp, #88]
	bne	.LBB59_8
	ldr	r3, [sp, #80]
.LBB59_8:
	movs	r1, #4
	cmp	r3, #4
	mov	r2, r3
	ldr	r5, [sp, #96]
	bhi	.LBB59_10
	mov	r2, r1
.LBB59_10:
	mvns	r0, r5
	cmp	r7, #0
	bne	.LBB59_16
	mov	r3, r1
	ldr	r7, [sp, #92]
	bne	.LBB59_17
.LBB59_12:
	beq	.LBB59_14
.LBB59_13:
	mov	r2, r0
.LBB59_14:
	movs	r6, #1
	lsls	r0, r6, #20
	cmp	r2, r0
	bls	.LBB59_18
.LBB59_15:
	strb	r6, [r7, #1]
	mov	r0, r6
	add	sp, #100
	pop	{r4, r5, r6, r7, pc}
.LBB59_16:
	ldr	r7, [sp, #92]
	beq	.LBB59_12
.LBB59_17:
	mov	r2, r3
	bne	.LBB59_13
	b	.LBB59_14
.LBB59_18:
	movs	r1, #16
	mov	r0, r2
	str	r1, [sp, #56]
	orrs	r0, r1
	mov	r4, r2
	bl	__clzsi2
	movs	r1, #27
	str	r1, [sp, #52]
	subs	r0, r1, r0
	str	r4, [sp, #80]
	subs	r2, r4, #1
	lsrs	r2, r0
	lsls	r0, r0, #4
	adds	r0, r2, r0
	adds	r0, r0, #1
	subs	r1, r0, #1
	mov	r0, r5
	sbcs	r0, r5
	lsrs	r3, r1, #4
	lsls	r4, r0, #28
	adds	r3, r3, r4
	lsls	r4, r3, #2
	mov	r5, r7
	adds	r7, #100
	str	r7, [sp, #64]
	ldr	r4, [r7, r4]
	movs	r7, #15
	str	r7, [sp, #60]
	ands	r2, r7
	lsrs	r4, r2
	bics	r4, r6
	beq	.LBB59_21
	cmp	r4, #0
	beq	.LBB59_27
	rsbs	r2, r4, #0
	ands	r2, r4
	ldr	r3, .LCPI59_0
	muls	r3, r2, r3
	lsrs	r2, r3, #27
	adr	r3, .LCPI59_1
	ldrb	r2, [r3, r2]
	b	.LBB59_28
.LBB59_21:
	mvns	r0, r6
	lsls	r0, r3
	ldr	r4, [r5, #96]
	ands	r4, r0
	mov	r7, r5
	ldr	r5, [sp, #96]
	beq	.LBB59_15
	mov	r1, r7
	ldr	r2, .LCPI59_0
	adr	r7, .LCPI59_1
	movs	r3, #32
	cmp	r4, #0
	mov	r0, r3
	beq	.LBB59_24
	rsbs	r0, r4, #0
	ands	r0, r4
	muls	r0, r2, r0
	lsrs	r0, r0, #27
	ldrb	r0, [r7, r0]
.LBB59_24:
	lsls	r4, r0, #2
	ldr	r7, [sp, #64]
	ldr	r4, [r7, r4]
	cmp	r4, #0
	mov	r7, r1
	beq	.LBB59_33
	cmp	r4, #0
	beq	.LBB59_32
	rsbs	r3, r4, #0
	ands	r3, r4
	muls	r2, r3, r2
	lsrs	r2, r2, #27
	adr	r1, .LCPI59_1
	ldrb	r3, [r1, r2]
	b	.LBB59_33
.LBB59_27:
	movs	r2, #32
.LBB59_28:
	mov	r7, r5
	adds	r2, r1, r2
	ldr	r5, [sp, #96]
	adcs	r0, r5
	lsrs	r1, r2, #4
	lsls	r0, r0, #28
	adds	r1, r1, r0
	b	.LBB59_34
.LBB59_29:
	movs	r0, #0
	b	.LBB59_31
.LBB59_30:
	movs	r0, #2
.LBB59_31:
	bl	tlsf_c.call_fault.CallFault.refusal
	add	sp, #100
	pop	{r4, r5, r6, r7, pc}
.LBB59_32:
	movs	r3, #32
.LBB59_33:
	lsls	r0, r0, #4
	adds	r2, r3, r0
	lsrs	r1, r2, #4
.LBB59_34:
	ldr	r0, [r7, #24]
	ldr	r3, [r7, #28]
	str	r0, [sp, #88]
	str	r3, [sp, #84]
	ands	r0, r3
	adds	r0, r0, #1
	beq	.LBB59_37
	mvns	r0, r5
	str	r0, [sp, #48]
	lsls	r0, r2, #2
	mov	r3, r7
	adds	r7, #184
	str	r0, [sp, #44]
	ldr	r0, [r7, r0]
	str	r0, [sp, #72]
	lsls	r4, r0, #3
	ldr	r0, [r3, #40]
	str	r4, [sp, #68]
	adds	r4, r0, r4
	ldr	r4, [r4, #16]
	adds	r5, r4, #1
	str	r6, [sp, #40]
	str	r7, [sp, #36]
	beq	.LBB59_38
	lsls	r1, r4, #3
	adds	r0, r0, r1
	ldr	r1, [sp, #48]
	str	r1, [r0, #20]
	ldr	r0, [sp, #44]
	str	r4, [r7, r0]
	ldr	r0, [r3, #40]
	ldr	r5, [sp, #80]
	mov	r7, r3
	b	.LBB59_41
.LBB59_37:
	strb	r6, [r7, #1]
	movs	r0, #2
	add	sp, #100
	pop	{r4, r5, r6, r7, pc}
.LBB59_38:
	mvns	r4, r6
	adds	r4, r4, #1
	ldr	r3, [sp, #44]
	str	r4, [r7, r3]
	ldr	r3, [sp, #60]
	ands	r2, r3
	mov	r3, r6
	lsls	r3, r2
	lsls	r2, r1, #2
	ldr	r5, [sp, #64]
	ldr	r4, [r5, r2]
	bics	r4, r3
	str	r4, [r5, r2]
	beq	.LBB59_40
	ldr	r5, [sp, #80]
	ldr	r7, [sp, #92]
	b	.LBB59_41
.LBB59_40:
	mov	r2, r6
	lsls	r2, r1
	ldr	r7, [sp, #92]
	ldr	r1, [r7, #96]
	bics	r1, r2
	str	r1, [r7, #96]
	ldr	r5, [sp, #80]
.LBB59_41:
	ldr	r1, [sp, #68]
	adds	r6, r0, r1
	ldr	r3, [r6, #4]
	ldr	r1, [r0, r1]
	lsls	r2, r5, #2
	subs	r4, r1, r2
	cmp	r4, #15
	bhi	.LBB59_43
	movs	r0, #0
	str	r0, [r6, #20]
	str	r0, [r6, #16]
	ldr	r2, [sp, #88]
	str	r2, [r6, #8]
	ldr	r2, [sp, #84]
	str	r2, [r6, #12]
	subs	r1, r1, #1
	str	r1, [r6]
	sbcs	r3, r0
	str	r3, [r6, #4]
	lsrs	r1, r1, #2
	ldr	r2, [sp, #96]
	ldr	r4, [sp, #76]
	ldr	r6, [sp, #40]
	b	.LBB59_49
.LBB59_43:
	lsrs	r2, r4, #2
	str	r2, [sp, #44]
	ldr	r2, [sp, #96]
	str	r2, [r6, #16]
	ldr	r7, [sp, #88]
	str	r7, [r6, #8]
	str	r3, [sp, #32]
	ldr	r2, [sp, #72]
	adds	r3, r2, r5
	lsls	r5, r3, #3
	adds	r2, r0, r5
	str	r2, [sp, #24]
	subs	r1, r1, r4
	str	r1, [r6]
	str	r5, [sp, #28]
	str	r4, [r0, r5]
	str	r7, [r2, #8]
	ldr	r5, [sp, #32]
	ldr	r1, [sp, #96]
	sbcs	r5, r1
	lsrs	r0, r3, #6
	lsls	r2, r0, #3
	str	r2, [sp, #16]
	ldr	r0, [sp, #92]
	ldr	r0, [r0, #64]
	str	r0, [sp, #20]
	ldr	r0, [r0, r2]
	str	r0, [sp, #12]
	movs	r2, #63
	str	r3, [sp, #32]
	ands	r2, r3
	movs	r0, #1
	str	r0, [sp, #4]
	mov	r7, r1
	bl	__aeabi_llsl
	str	r1, [sp, #8]
	ldr	r1, [sp, #12]
	orrs	r0, r1
	ldr	r3, [sp, #20]
	ldr	r1, [sp, #16]
	str	r0, [r3, r1]
	str	r7, [r6, #20]
	ldr	r7, [sp, #92]
	ldr	r0, [sp, #84]
	str	r0, [r6, #12]
	str	r5, [r6, #4]
	ldr	r2, [sp, #24]
	str	r0, [r2, #12]
	ldr	r0, [sp, #72]
	str	r0, [r2, #4]
	adds	r0, r3, r1
	ldr	r2, [r0, #4]
	ldr	r1, [sp, #8]
	orrs	r2, r1
	str	r2, [r0, #4]
	lsls	r0, r4, #30
	ldr	r4, [sp, #44]
	ldr	r5, [sp, #48]
	bmi	.LBB59_45
	ldr	r3, [sp, #32]
	adds	r0, r4, r3
	lsls	r0, r0, #3
	ldr	r1, [r7, #40]
	ldr	r2, [r1, r0]
	ands	r2, r5
	str	r2, [r1, r0]
	adds	r0, r1, r0
	str	r3, [r0, #4]
.LBB59_45:
	ldr	r0, [sp, #56]
	orrs	r0, r4
	bl	__clzsi2
	ldr	r1, [sp, #52]
	subs	r0, r1, r0
	lsrs	r4, r0
	lsls	r0, r0, #4
	str	r4, [sp, #44]
	adds	r0, r4, r0
	lsls	r2, r0, #2
	ldr	r3, [sp, #36]
	ldr	r1, [r3, r2]
	ldr	r4, [sp, #32]
	str	r4, [r3, r2]
	mov	r3, r4
	cmp	r1, #0
	ldr	r4, [sp, #76]
	ldr	r6, [sp, #40]
	bmi	.LBB59_47
	ldr	r0, [r7, #40]
	ldr	r2, [sp, #28]
	adds	r2, r0, r2
	str	r1, [r2, #16]
	str	r5, [r2, #20]
	lsls	r1, r1, #3
	adds	r0, r0, r1
	str	r3, [r0, #20]
	ldr	r1, [r0, #16]
	ands	r1, r5
	str	r1, [r0, #16]
	b	.LBB59_48
.LBB59_47:
	ldr	r1, [r7, #40]
	ldr	r2, [sp, #28]
	adds	r1, r1, r2
	str	r5, [r1, #16]
	str	r5, [r1, #20]
	ldr	r1, [sp, #60]
	ldr	r2, [sp, #44]
	ands	r2, r1
	ldr	r1, [sp, #4]
	mov	r4, r1
	lsls	r4, r2
	lsrs	r0, r0, #4
	lsls	r2, r0, #2
	ldr	r5, [sp, #64]
	ldr	r3, [r5, r2]
	orrs	r3, r4
	ldr	r4, [sp, #76]
	str	r3, [r5, r2]
	lsls	r1, r0
	ldr	r0, [r7, #96]
	orrs	r0, r1
	str	r0, [r7, #96]
.LBB59_48:
	ldr	r2, [sp, #96]
	ldr	r1, [sp, #80]
.LBB59_49:
	ldr	r5, [sp, #120]
	ldr	r0, [r7, #32]
	adds	r0, r0, r1
	str	r0, [r7, #32]
	ldr	r1, [r7, #36]
	cmp	r1, r0
	bhs	.LBB59_51
	str	r0, [r7, #36]
.LBB59_51:
	ldr	r0, [r7, #24]
	adds	r0, r0, #1
	str	r0, [r7, #24]
	ldr	r0, [r7, #28]
	adcs	r0, r2
	str	r0, [r7, #28]
	ldr	r0, [r7, #40]
	ldr	r3, [sp, #68]
	adds	r0, r0, r3
	mov	r1, r7
	ldr	r7, [r7, #16]
	str	r2, [r0, #24]
	str	r2, [r0, #28]
	ldr	r0, [r1, #40]
	ldr	r0, [r0, r3]
	str	r0, [sp, #80]
	strb	r6, [r1, #1]
	ldr	r6, [r4]
	mov	r0, r6
	ldr	r1, [sp, #96]
	ldr	r4, [sp, #72]
	mov	r2, r4
	ldr	r3, [sp, #96]
	bl	__aeabi_lmul
	lsrs	r2, r1, #24
	strb	r2, [r5, #23]
	lsrs	r2, r1, #16
	strb	r2, [r5, #22]
	lsrs	r2, r1, #8
	strb	r2, [r5, #21]
	strb	r1, [r5, #20]
	lsrs	r1, r0, #24
	strb	r1, [r5, #19]
	lsrs	r1, r0, #16
	strb	r1, [r5, #18]
	lsrs	r1, r0, #8
	strb	r1, [r5, #17]
	strb	r0, [r5, #16]
	ldr	r1, [sp, #84]
	lsrs	r0, r1, #24
	strb	r0, [r5, #15]
	lsrs	r0, r1, #16
	strb	r0, [r5, #14]
	lsrs	r0, r1, #8
	strb	r0, [r5, #13]
	strb	r1, [r5, #12]
	ldr	r1, [sp, #88]
	lsrs	r0, r1, #24
	strb	r0, [r5, #11]
	lsrs	r0, r1, #16
	strb	r0, [r5, #10]
	lsrs	r0, r1, #8
	strb	r0, [r5, #9]
	strb	r1, [r5, #8]
	lsrs	r0, r4, #24
	strb	r0, [r5, #7]
	lsrs	r0, r4, #16
	strb	r0, [r5, #6]
	lsrs	r0, r4, #8
	strb	r0, [r5, #5]
	strb	r4, [r5, #4]
	lsrs	r0, r7, #24
	strb	r0, [r5, #3]
	lsrs	r0, r7, #16
	strb	r0, [r5, #2]
	lsrs	r0, r7, #8
	strb	r0, [r5, #1]
	strb	r7, [r5]
	ldr	r0, [sp, #80]
	lsrs	r0, r0, #2
	ldr	r1, [sp, #96]
	mov	r2, r6
	ldr	r4, [sp, #96]
	mov	r3, r4
	bl	__aeabi_lmul
	strb	r1, [r5, #28]
	strb	r0, [r5, #24]
	lsrs	r2, r1, #24
	strb	r2, [r5, #31]
	lsrs	r2, r1, #16
	strb	r2, [r5, #30]
	lsrs	r1, r1, #8
	strb	r1, [r5, #29]
	lsrs	r1, r0, #24
	strb	r1, [r5, #27]
	lsrs	r1, r0, #16
	strb	r1, [r5, #26]
	lsrs	r0, r0, #8
	strb	r0, [r5, #25]
	mov	r0, r4
	add	sp, #100
	pop	{r4, r5, r6, r7, pc}
.LBB59_52:
	.inst.n	0xdefe
	.p2align	2
.LCPI59_0:
	.long	125613361
.LCPI59_1:
	.ascii	"\000\001\034\002\035\016\030\003\036\026\024\017\031\021\004\b\037\033\r\027\025\023\020\007\032\f\022\006\013\005\n\t"
.Lfunc_end59:
	.size	tlsf_offsets_allocate, .Lfunc_end59-tlsf_offsets_allocate
	.cfi_endproc
	.section	.text.tlsf_offsets_close,"ax",%progbits
	.globl	tlsf_offsets_close
	.p2align	1
	.type	tlsf_offsets_close,%function
	.code	16
	.thumb_func
tlsf_offsets_close:
	.cfi_startproc
	push	{r7, lr}
	.cfi_def_cfa_offset 8
	.cfi_offset lr, -4
	.cfi_offset r7, -8
	mov	r1, r0
	ldrb	r2, [r0, #8]
	movs	r0, #32
	cmp	r2, #0
	beq	.LBB60_5
	ldr	r2, [r1]
	ldrb	r3, [r2, #1]
	cmp	r3, #1
	bne	.LBB60_5
	ldrb	r0, [r2]
	cmp	r0, #0
	beq	.LBB60_4
	movs	r0, #40
	pop	{r7, pc}
.LBB60_4:
	mov	r0, r1
	bl	tlsf_c.arena_slot.ArenaSlot.close
	movs	r0, #0
.LBB60_5:
	pop	{r7, pc}
.Lfunc_end60:
	.size	tlsf_offsets_close, .Lfunc_end60-tlsf_offsets_close
	.cfi_endproc
	.section	.text.tlsf_offsets_open,"ax",%progbits
	.globl	tlsf_offsets_open
	.p2align	2
	.type	tlsf_offsets_open,%function
	.code	16
	.thumb_func
tlsf_offsets_open:
	.cfi_startproc
	push	{r4, r5, r6, r7, lr}
	.cfi_def_cfa_offset 20
	.cfi_offset lr, -4
	.cfi_offset r7, -8
	.cfi_offset r6, -12
	.cfi_offset r5, -16
	.cfi_offset r4, -20
	sub	sp, #52
	.cfi_def_cfa_offset 72
	cmp	r1, #5
	bne	.LBB61_2
	movs	r1, #0
.LBB61_2:
	ldrb	r4, [r0, #8]
	cmp	r4, #0
	beq	.LBB61_4
	movs	r5, #33
	b	.LBB61_6
.LBB61_4:
	movs	r4, #1
	mvns	r5, r4
	subs	r1, r1, #6
	cmp	r1, r5
	bhs	.LBB61_7
	movs	r5, #34
.LBB61_6:
	mov	r0, r5
	add	sp, #52
	pop	{r4, r5, r6, r7, pc}
.LBB61_7:
	movs	r5, #5
	cmp	r3, #0
	beq	.LBB61_6
	ldr	r7, [sp, #72]
	ldr	r1, .LCPI61_0
	adds	r6, r7, r1
	subs	r6, r6, #4
	cmp	r6, r1
	blo	.LBB61_6
	str	r2, [sp, #20]
	str	r3, [sp, #24]
	str	r0, [sp, #28]
	lsls	r1, r7, #3
	add	r0, sp, #32
	movs	r2, #8
	bl	tlsf_memory_alloc
	ldr	r0, [sp, #32]
	movs	r5, #6
	lsls	r0, r0, #31
	beq	.LBB61_6
	ldr	r6, [sp, #40]
	mov	r0, r7
	movs	r7, #0
	str	r7, [r6]
	str	r7, [r6, #4]
	str	r7, [r6, #8]
	str	r7, [r6, #12]
	str	r7, [r6, #16]
	str	r7, [r6, #20]
	str	r7, [r6, #24]
	str	r7, [r6, #28]
	str	r0, [sp, #16]
	adds	r0, #63
	lsrs	r0, r0, #6
	str	r0, [sp, #8]
	lsls	r1, r0, #3
	add	r0, sp, #32
	movs	r2, #8
	bl	tlsf_memory_alloc
	ldr	r0, [sp, #32]
	lsls	r0, r0, #31
	bne	.LBB61_11
	b	.LBB61_13
.LBB61_11:
	ldr	r1, [sp, #40]
	str	r7, [r1]
	str	r7, [r6, #8]
	movs	r0, #19
	str	r0, [r6]
	str	r7, [r1, #4]
	ldr	r0, [r1]
	orrs	r0, r4
	str	r1, [sp, #12]
	str	r0, [r1]
	mvns	r0, r7
	str	r0, [r6, #4]
	str	r7, [r6, #12]
	str	r0, [r6, #16]
	str	r0, [r6, #20]
	movs	r0, #161
	lsls	r1, r0, #3
	add	r0, sp, #32
	movs	r2, #8
	bl	tlsf_memory_alloc
	ldr	r0, [sp, #32]
	lsls	r0, r0, #31
	bne	.LBB61_12
	b	.LBB61_14
.LBB61_12:
	ldr	r5, [sp, #40]
	movs	r0, #84
	strb	r7, [r5, r0]
	movs	r0, #80
	str	r0, [sp, #4]
	ldr	r2, [sp, #8]
	strb	r2, [r5, r0]
	movs	r0, #76
	strb	r7, [r5, r0]
	movs	r0, #72
	strb	r4, [r5, r0]
	movs	r0, #60
	strb	r7, [r5, r0]
	movs	r0, #56
	ldr	r1, [sp, #16]
	strb	r1, [r5, r0]
	movs	r0, #52
	strb	r7, [r5, r0]
	movs	r0, #48
	movs	r1, #4
	strb	r1, [r5, r0]
	movs	r0, #36
	strb	r7, [r5, r0]
	movs	r0, #32
	strb	r7, [r5, r0]
	movs	r0, #100
	movs	r3, #16
	str	r3, [sp]
	strb	r3, [r5, r0]
	movs	r0, #96
	strb	r4, [r5, r0]
	movs	r0, #92
	strb	r7, [r5, r0]
	movs	r0, #88
	strb	r1, [r5, r0]
	movs	r0, #68
	strb	r7, [r5, r0]
	movs	r0, #64
	ldr	r1, [sp, #12]
	strb	r1, [r5, r0]
	movs	r0, #44
	strb	r7, [r5, r0]
	movs	r0, #40
	strb	r6, [r5, r0]
	strb	r7, [r5, #15]
	strb	r7, [r5, #14]
	strb	r7, [r5, #13]
	strb	r7, [r5, #12]
	strb	r7, [r5, #11]
	strb	r7, [r5, #10]
	strb	r7, [r5, #9]
	strb	r7, [r5, #8]
	strb	r7, [r5, #31]
	strb	r7, [r5, #30]
	strb	r7, [r5, #29]
	strb	r7, [r5, #28]
	strb	r7, [r5, #27]
	strb	r7, [r5, #26]
	strb	r7, [r5, #25]
	strb	r4, [r5, #24]
	ldr	r0, [sp, #20]
	strb	r0, [r5, #16]
	strb	r4, [r5, #1]
	strb	r7, [r5]
	mov	r1, r5
	adds	r1, #84
	strb	r7, [r1, #3]
	strb	r7, [r1, #2]
	strb	r7, [r1, #1]
	mov	r1, r5
	adds	r1, #80
	lsrs	r3, r2, #24
	strb	r3, [r1, #3]
	lsrs	r3, r2, #16
	strb	r3, [r1, #2]
	lsrs	r3, r2, #8
	strb	r3, [r1, #1]
	mov	r1, r5
	adds	r1, #76
	strb	r7, [r1, #3]
	strb	r7, [r1, #2]
	strb	r7, [r1, #1]
	mov	r1, r5
	adds	r1, #72
	strb	r7, [r1, #3]
	strb	r7, [r1, #2]
	strb	r7, [r1, #1]
	mov	r1, r5
	adds	r1, #60
	strb	r7, [r1, #3]
	strb	r7, [r1, #2]
	strb	r7, [r1, #1]
	mov	r1, r5
	adds	r1, #56
	ldr	r2, [sp, #16]
	lsrs	r3, r2, #24
	strb	r3, [r1, #3]
	lsrs	r3, r2, #16
	strb	r3, [r1, #2]
	lsrs	r3, r2, #8
	strb	r3, [r1, #1]
	mov	r1, r5
	adds	r1, #52
	strb	r7, [r1, #3]
	strb	r7, [r1, #2]
	strb	r7, [r1, #1]
	mov	r1, r5
	adds	r1, #48
	strb	r7, [r1, #3]
	strb	r7, [r1, #2]
	strb	r7, [r1, #1]
	mov	r1, r5
	adds	r1, #36
	strb	r7, [r1, #3]
	strb	r7, [r1, #2]
	strb	r7, [r1, #1]
	mov	r1, r5
	adds	r1, #32
	strb	r7, [r1, #3]
	strb	r7, [r1, #2]
	strb	r7, [r1, #1]
	mov	r1, r5
	adds	r1, #100
	strb	r7, [r1, #3]
	strb	r7, [r1, #2]
	strb	r7, [r1, #1]
	mov	r1, r5
	adds	r1, #96
	strb	r7, [r1, #3]
	strb	r7, [r1, #2]
	strb	r7, [r1, #1]
	mov	r1, r5
	adds	r1, #92
	strb	r7, [r1, #3]
	strb	r7, [r1, #2]
	strb	r7, [r1, #1]
	mov	r1, r5
	adds	r1, #88
	strb	r7, [r1, #3]
	strb	r7, [r1, #2]
	strb	r7, [r1, #1]
	mov	r1, r5
	adds	r1, #68
	strb	r7, [r1, #3]
	strb	r7, [r1, #2]
	strb	r7, [r1, #1]
	mov	r1, r5
	adds	r1, #64
	ldr	r2, [sp, #12]
	lsrs	r3, r2, #24
	strb	r3, [r1, #3]
	lsrs	r3, r2, #16
	strb	r3, [r1, #2]
	lsrs	r3, r2, #8
	strb	r3, [r1, #1]
	mov	r1, r5
	adds	r1, #44
	strb	r7, [r1, #3]
	strb	r7, [r1, #2]
	strb	r7, [r1, #1]
	mov	r1, r5
	adds	r1, #40
	lsrs	r3, r6, #24
	strb	r3, [r1, #3]
	lsrs	r3, r6, #16
	strb	r3, [r1, #2]
	lsrs	r3, r6, #8
	strb	r3, [r1, #1]
	lsrs	r1, r0, #24
	strb	r1, [r5, #19]
	lsrs	r1, r0, #16
	strb	r1, [r5, #18]
	lsrs	r0, r0, #8
	strb	r0, [r5, #17]
	mov	r0, r5
	adds	r0, #104
	mov	r1, r7
	ldr	r2, [sp, #4]
	bl	tlsf_memory_set
	mov	r0, r5
	adds	r0, #184
	movs	r6, #255
	mov	r1, r6
	ldr	r2, [sp]
	bl	tlsf_memory_set
	movs	r0, #200
	strb	r7, [r5, r0]
	mov	r0, r5
	adds	r0, #200
	strb	r7, [r0, #3]
	strb	r7, [r0, #2]
	strb	r7, [r0, #1]
	mov	r0, r5
	adds	r0, #204
	movs	r1, #67
	lsls	r2, r1, #4
	mov	r1, r6
	bl	tlsf_memory_set
	movs	r0, #5
	lsls	r0, r0, #8
	ldr	r1, [sp, #24]
	strb	r1, [r5, r0]
	adds	r0, r5, r0
	lsrs	r2, r1, #24
	strb	r2, [r0, #3]
	lsrs	r2, r1, #16
	strb	r2, [r0, #2]
	lsrs	r1, r1, #8
	strb	r1, [r0, #1]
	mov	r0, r5
	adds	r0, #16
	ldr	r1, [sp, #16]
	bl	tlsf_heap.heap.Heap.begin.4
	ldr	r0, [sp, #28]
	strb	r7, [r0, #7]
	strb	r7, [r0, #6]
	strb	r7, [r0, #5]
	strb	r7, [r0, #4]
	lsrs	r1, r5, #24
	strb	r1, [r0, #3]
	lsrs	r1, r5, #16
	strb	r1, [r0, #2]
	lsrs	r1, r5, #8
	strb	r1, [r0, #1]
	strb	r5, [r0]
	strb	r7, [r0, #9]
	strb	r4, [r0, #8]
	strb	r7, [r0, #10]
	strb	r7, [r0, #11]
	strb	r7, [r0, #12]
	strb	r7, [r0, #13]
	strb	r7, [r0, #14]
	strb	r7, [r0, #15]
	mov	r5, r7
	b	.LBB61_6
.LBB61_13:
	mov	r0, r6
	bl	tlsf_memory_dealloc
	b	.LBB61_6
.LBB61_14:
	mov	r0, r6
	bl	tlsf_memory_dealloc
	ldr	r0, [sp, #12]
	bl	tlsf_memory_dealloc
	b	.LBB61_6
	.p2align	2
.LCPI61_0:
	.long	4293918723
.Lfunc_end61:
	.size	tlsf_offsets_open, .Lfunc_end61-tlsf_offsets_open
	.cfi_endproc
	.section	.text.tlsf_offsets_release,"ax",%progbits
	.globl	tlsf_offsets_release
	.p2align	1
	.type	tlsf_offsets_release,%function
	.code	16
	.thumb_func
tlsf_offsets_release:
	.cfi_startproc
	push	{r4, r5, r6, r7, lr}
	.cfi_def_cfa_offset 20
	.cfi_offset lr, -4
	.cfi_offset r7, -8
	.cfi_offset r6, -12
	.cfi_offset r5, -16
	.cfi_offset r4, -20
	sub	sp, #68
	.cfi_def_cfa_offset 88
	ldrb	r1, [r0, #8]
	cmp	r1, #0
	bne	.LBB62_1
	b	.LBB62_21
.LBB62_1:
	ldr	r7, [r0]
	ldrb	r0, [r7, #1]
	cmp	r0, #0
	bne	.LBB62_2
	b	.LBB62_21
.LBB62_2:
	ldrb	r0, [r7]
	cmp	r0, #0
	beq	.LBB62_3
	b	.LBB62_23
.LBB62_3:
	mov	r6, r2
	movs	r0, #0
	str	r0, [sp, #56]
	strb	r0, [r7, #1]
	ldr	r1, [r7, #16]
	cmp	r1, r2
	bne	.LBB62_17
	ldr	r0, [r7, #48]
	cmp	r3, r0
	mov	r1, r6
	bhs	.LBB62_17
	movs	r2, #63
	ands	r2, r3
	ldr	r1, [r7, #64]
	lsrs	r0, r3, #6
	str	r3, [sp, #64]
	lsls	r3, r0, #3
	ldr	r0, [r1, r3]
	adds	r1, r1, r3
	ldr	r1, [r1, #4]
	bl	__aeabi_llsr
	ldr	r2, [sp, #64]
	lsls	r0, r0, #31
	mov	r1, r6
	beq	.LBB62_17
	mov	r0, r7
	adds	r0, #40
	lsls	r3, r2, #3
	str	r0, [sp, #52]
	ldr	r4, [r0]
	ldr	r0, [r4, r3]
	str	r0, [sp, #60]
	lsls	r1, r0, #31
	mov	r1, r6
	bne	.LBB62_17
	ldr	r1, [sp, #92]
	ldr	r2, [sp, #88]
	adds	r5, r4, r3
	str	r3, [sp, #44]
	ldr	r3, [r5, #8]
	ldr	r0, [r5, #12]
	eors	r0, r1
	eors	r3, r2
	orrs	r3, r0
	ldr	r2, [sp, #64]
	mov	r1, r6
	bne	.LBB62_17
	ldr	r6, [r7, #24]
	ldr	r1, [r7, #28]
	mov	r0, r6
	ands	r0, r1
	adds	r0, r0, #1
	beq	.LBB62_16
	str	r1, [sp, #40]
	ldr	r0, [r5, #4]
	str	r0, [sp, #48]
	ldr	r1, [sp, #60]
	lsrs	r3, r1, #2
	ldr	r0, [r7, #32]
	subs	r0, r0, r3
	str	r0, [r7, #32]
	lsls	r0, r1, #30
	ldr	r0, [sp, #56]
	mov	r1, r0
	bmi	.LBB62_11
	adds	r0, r3, r2
	lsls	r0, r0, #3
	ldr	r1, [r4, r0]
	adds	r0, r4, r0
	ldr	r0, [r0, #4]
.LBB62_11:
	str	r0, [sp, #36]
	str	r3, [sp, #32]
	cmp	r2, #0
	beq	.LBB62_13
	ldr	r0, [sp, #48]
	lsls	r3, r0, #3
	ldr	r2, [r4, r3]
	lsls	r0, r2, #31
	bne	.LBB62_20
.LBB62_13:
	lsls	r0, r1, #31
	bne	.LBB62_19
	movs	r1, #1
	ldr	r0, [sp, #60]
	str	r1, [sp, #36]
	orrs	r0, r1
	str	r0, [r5]
	ldr	r0, [sp, #48]
	str	r0, [r5, #4]
	str	r6, [r5, #8]
	ldr	r0, [sp, #40]
	str	r0, [r5, #12]
	ldr	r0, [r7, #24]
	movs	r5, #0
	adds	r0, r0, #1
	str	r0, [r7, #24]
	ldr	r0, [r7, #28]
	adcs	r0, r5
	str	r0, [r7, #28]
	movs	r0, #16
	ldr	r4, [sp, #32]
	orrs	r0, r4
	bl	__clzsi2
	movs	r1, #27
	subs	r0, r1, r0
	lsrs	r4, r0
	lsls	r0, r0, #4
	adds	r0, r4, r0
	lsls	r1, r0, #2
	adds	r2, r7, r1
	movs	r3, #184
	ldr	r1, [r2, r3]
	ldr	r6, [sp, #64]
	str	r6, [r2, r3]
	cmp	r1, #0
	bmi	.LBB62_25
	ldr	r0, [sp, #52]
	ldr	r0, [r0]
	ldr	r2, [sp, #44]
	adds	r2, r0, r2
	mvns	r3, r5
	str	r1, [r2, #16]
	str	r3, [r2, #20]
	lsls	r1, r1, #3
	adds	r0, r0, r1
	str	r6, [r0, #20]
	b	.LBB62_26
.LBB62_16:
	movs	r0, #1
	strb	r0, [r7, #1]
	movs	r0, #2
	add	sp, #68
	pop	{r4, r5, r6, r7, pc}
.LBB62_17:
	mov	r0, r6
	bl	tlsf_heap.refusal.Refusal.of_name
	movs	r1, #1
	strb	r1, [r7, #1]
	uxtb	r0, r0
	cmp	r0, #3
	beq	.LBB62_22
	movs	r0, #3
	add	sp, #68
	pop	{r4, r5, r6, r7, pc}
.LBB62_19:
	movs	r0, #0
	adds	r2, r6, #1
	str	r2, [r7, #24]
	mov	r2, r1
	ldr	r1, [sp, #40]
	adcs	r0, r1
	str	r0, [r7, #28]
	ldr	r0, [sp, #60]
	str	r0, [sp]
	ldr	r0, [sp, #48]
	str	r0, [sp, #4]
	str	r6, [sp, #8]
	str	r1, [sp, #12]
	ldr	r0, [sp, #64]
	str	r0, [sp, #16]
	ldr	r0, [sp, #52]
	ldr	r3, [sp, #36]
	bl	tlsf_heap.fitting.merge_next.4
	b	.LBB62_26
.LBB62_20:
	adds	r0, r4, r3
	ldr	r0, [r0, #4]
	movs	r3, #0
	adds	r4, r6, #1
	str	r4, [r7, #24]
	mov	r4, r2
	mov	r2, r1
	ldr	r1, [sp, #40]
	adcs	r3, r1
	str	r3, [r7, #28]
	ldr	r3, [sp, #60]
	str	r3, [sp, #24]
	ldr	r3, [sp, #48]
	str	r3, [sp, #28]
	str	r4, [sp]
	str	r0, [sp, #4]
	str	r6, [sp, #8]
	str	r1, [sp, #12]
	ldr	r0, [sp, #64]
	str	r0, [sp, #16]
	ldr	r0, [sp, #52]
	ldr	r3, [sp, #36]
	bl	tlsf_heap.fitting.merge_before.4
	b	.LBB62_26
.LBB62_21:
	movs	r0, #0
	b	.LBB62_24
.LBB62_22:
	movs	r0, #4
	add	sp, #68
	pop	{r4, r5, r6, r7, pc}
.LBB62_23:
	movs	r0, #2
.LBB62_24:
	bl	tlsf_c.call_fault.CallFault.refusal
	add	sp, #68
	pop	{r4, r5, r6, r7, pc}
.LBB62_25:
	ldr	r1, [sp, #56]
	mvns	r1, r1
	ldr	r2, [r7, #40]
	ldr	r3, [sp, #44]
	adds	r2, r2, r3
	str	r1, [r2, #16]
	str	r1, [r2, #20]
	lsrs	r0, r0, #4
	ldr	r3, [sp, #36]
	mov	r1, r3
	lsls	r1, r0
	ldr	r2, [r7, #96]
	orrs	r2, r1
	str	r2, [r7, #96]
	movs	r1, #15
	ands	r4, r1
	lsls	r3, r4
	lsls	r0, r0, #2
	adds	r0, r7, r0
	ldr	r1, [r0, #100]
	orrs	r1, r3
	str	r1, [r0, #100]
.LBB62_26:
	movs	r0, #1
	strb	r0, [r7, #1]
	movs	r0, #0
	add	sp, #68
	pop	{r4, r5, r6, r7, pc}
.Lfunc_end62:
	.size	tlsf_offsets_release, .Lfunc_end62-tlsf_offsets_release
	.cfi_endproc
	.section	.text.tlsf_offsets_resize,"ax",%progbits
	.globl	tlsf_offsets_resize
	.p2align	1
	.type	tlsf_offsets_resize,%function
	.code	16
	.thumb_func
tlsf_offsets_resize:
	.cfi_startproc
	push	{r4, r5, r6, r7, lr}
	.cfi_def_cfa_offset 20
	.cfi_offset lr, -4
	.cfi_offset r7, -8
	.cfi_offset r6, -12
	.cfi_offset r5, -16
	.cfi_offset r4, -20
	sub	sp, #84
	.cfi_def_cfa_offset 104
	str	r3, [sp, #60]
	ldrb	r3, [r0, #8]
	cmp	r3, #0
	bne	.LBB63_1
	b	.LBB63_31
.LBB63_1:
	ldr	r4, [r0]
	ldrb	r0, [r4, #1]
	cmp	r0, #0
	bne	.LBB63_2
	b	.LBB63_31
.LBB63_2:
	ldrb	r0, [r4]
	cmp	r0, #0
	beq	.LBB63_3
	b	.LBB63_42
.LBB63_3:
	str	r2, [sp, #72]
	movs	r7, #0
	strb	r7, [r4, #1]
	movs	r0, #5
	lsls	r0, r0, #8
	ldr	r2, [r4, r0]
	str	r2, [sp, #64]
	cmp	r2, #0
	bne	.LBB63_4
	b	.LBB63_45
.LBB63_4:
	ldrb	r3, [r1, #12]
	ldrb	r2, [r1, #13]
	lsls	r2, r2, #8
	adds	r6, r2, r3
	ldrb	r2, [r1, #14]
	lsls	r2, r2, #16
	mov	r5, r1
	ldrb	r3, [r1, #15]
	lsls	r3, r3, #24
	adds	r2, r3, r2
	adds	r1, r2, r6
	str	r1, [sp, #56]
	ldrb	r1, [r5, #8]
	ldrb	r2, [r5, #9]
	lsls	r2, r2, #8
	adds	r1, r2, r1
	ldrb	r2, [r5, #10]
	lsls	r2, r2, #16
	ldrb	r3, [r5, #11]
	lsls	r3, r3, #24
	adds	r2, r3, r2
	adds	r1, r2, r1
	str	r1, [sp, #52]
	ldrb	r1, [r5, #4]
	ldrb	r2, [r5, #5]
	lsls	r2, r2, #8
	adds	r1, r2, r1
	ldrb	r2, [r5, #6]
	lsls	r2, r2, #16
	ldrb	r3, [r5, #7]
	lsls	r3, r3, #24
	adds	r2, r3, r2
	adds	r1, r2, r1
	str	r1, [sp, #80]
	ldrb	r1, [r5]
	ldrb	r2, [r5, #1]
	lsls	r2, r2, #8
	adds	r1, r2, r1
	ldrb	r2, [r5, #2]
	lsls	r2, r2, #16
	str	r5, [sp, #36]
	ldrb	r3, [r5, #3]
	lsls	r3, r3, #24
	adds	r2, r3, r2
	adds	r1, r2, r1
	str	r1, [sp, #76]
	str	r4, [sp, #68]
	adds	r0, r4, r0
	str	r0, [sp, #40]
	ldr	r0, [sp, #72]
	ldr	r6, [sp, #60]
	mov	r1, r6
	ldr	r5, [sp, #64]
	mov	r2, r5
	mov	r3, r7
	bl	__aeabi_uldivmod
	mov	r2, r0
	mov	r4, r1
	adds	r0, r0, #1
	str	r0, [sp, #48]
	mov	r3, r7
	mov	r7, r1
	adcs	r7, r3
	str	r2, [sp, #44]
	mov	r0, r2
	mov	r2, r5
	str	r3, [sp, #64]
	bl	__aeabi_lmul
	ldr	r2, [sp, #72]
	subs	r0, r2, r0
	sbcs	r6, r1
	orrs	r6, r0
	cmp	r6, #0
	bne	.LBB63_6
	mov	r7, r4
.LBB63_6:
	ldr	r3, [sp, #48]
	bne	.LBB63_8
	ldr	r3, [sp, #44]
.LBB63_8:
	movs	r1, #4
	cmp	r3, #4
	mov	r2, r3
	bhi	.LBB63_10
	mov	r2, r1
.LBB63_10:
	ldr	r0, [sp, #64]
	mvns	r0, r0
	cmp	r7, #0
	ldr	r6, [sp, #76]
	beq	.LBB63_23
	ldr	r7, [sp, #68]
	bne	.LBB63_24
.LBB63_12:
	beq	.LBB63_14
.LBB63_13:
	mov	r2, r0
.LBB63_14:
	str	r2, [sp, #72]
	ldr	r1, [r7, #16]
	cmp	r6, r1
	bne	.LBB63_29
	ldr	r0, [r7, #48]
	ldr	r1, [sp, #80]
	cmp	r1, r0
	mov	r1, r6
	bhs	.LBB63_29
	movs	r2, #63
	ldr	r0, [sp, #80]
	ands	r2, r0
	ldr	r1, [r7, #64]
	lsrs	r0, r0, #6
	lsls	r3, r0, #3
	ldr	r0, [r1, r3]
	adds	r1, r1, r3
	ldr	r1, [r1, #4]
	bl	__aeabi_llsr
	lsls	r0, r0, #31
	mov	r1, r6
	beq	.LBB63_29
	mov	r0, r7
	adds	r0, #40
	ldr	r1, [sp, #80]
	lsls	r3, r1, #3
	ldr	r2, [r0]
	ldr	r1, [r2, r3]
	str	r1, [sp, #60]
	lsls	r1, r1, #31
	mov	r1, r6
	bne	.LBB63_29
	adds	r4, r2, r3
	ldr	r1, [r4, #8]
	str	r3, [sp, #48]
	ldr	r3, [r4, #12]
	ldr	r6, [sp, #56]
	eors	r3, r6
	ldr	r6, [sp, #52]
	eors	r1, r6
	ldr	r6, [sp, #76]
	orrs	r1, r3
	mov	r1, r6
	bne	.LBB63_29
	ldr	r6, [r4, #4]
	ldr	r3, [sp, #60]
	lsrs	r7, r3, #2
	ldr	r1, [sp, #72]
	cmp	r1, r7
	bls	.LBB63_25
	lsls	r1, r3, #30
	bmi	.LBB63_22
	ldr	r1, [sp, #80]
	adds	r1, r7, r1
	lsls	r4, r1, #3
	ldr	r1, [r2, r4]
	lsls	r3, r1, #31
	bne	.LBB63_33
.LBB63_22:
	movs	r1, #0
	mov	r4, r1
	b	.LBB63_34
.LBB63_23:
	mov	r3, r1
	ldr	r7, [sp, #68]
	beq	.LBB63_12
.LBB63_24:
	mov	r2, r3
	bne	.LBB63_13
	b	.LBB63_14
.LBB63_25:
	str	r6, [sp, #44]
	ldr	r6, [sp, #68]
	ldr	r3, [r6, #24]
	ldr	r5, [r6, #28]
	mov	r1, r3
	ands	r1, r5
	adds	r1, r1, #1
	ldr	r2, [sp, #72]
	bne	.LBB63_26
	b	.LBB63_41
.LBB63_26:
	ldr	r1, [sp, #64]
	str	r1, [r4, #16]
	str	r1, [r4, #20]
	adds	r1, r2, #4
	cmp	r7, r1
	mov	r4, r7
	blo	.LBB63_28
	str	r2, [sp]
	str	r3, [sp, #8]
	str	r5, [sp, #12]
	ldr	r1, [sp, #80]
	mov	r4, r2
	ldr	r2, [sp, #60]
	ldr	r3, [sp, #44]
	bl	tlsf_heap.refitting.split_off.4
.LBB63_28:
	subs	r0, r4, r7
	ldr	r6, [sp, #68]
	ldr	r1, [r6, #32]
	adds	r0, r0, r1
	ldr	r1, [r6, #24]
	adds	r1, r1, #1
	str	r1, [r6, #24]
	str	r0, [r6, #32]
	ldr	r0, [r6, #28]
	ldr	r7, [sp, #64]
	adcs	r0, r7
	str	r0, [r6, #28]
	ldr	r1, [sp, #40]
	ldr	r3, [sp, #48]
	b	.LBB63_40
.LBB63_29:
	mov	r0, r6
	bl	tlsf_heap.refusal.Refusal.of_name
	movs	r1, #1
	strb	r1, [r7, #1]
	uxtb	r0, r0
	cmp	r0, #3
	beq	.LBB63_32
	movs	r7, #3
	b	.LBB63_44
.LBB63_31:
	movs	r0, #0
	b	.LBB63_43
.LBB63_32:
	movs	r7, #4
	b	.LBB63_44
.LBB63_33:
	adds	r3, r2, r4
	ldr	r4, [r3, #4]
.LBB63_34:
	lsrs	r3, r1, #2
	adds	r3, r3, r7
	ldr	r2, [sp, #72]
	cmp	r3, r2
	bhs	.LBB63_36
	movs	r0, #1
	ldr	r1, [sp, #68]
	strb	r0, [r1, #1]
	movs	r7, #10
	b	.LBB63_44
.LBB63_36:
	str	r4, [sp, #28]
	str	r6, [sp, #44]
	ldr	r6, [sp, #68]
	ldr	r4, [r6, #24]
	ldr	r5, [r6, #28]
	mov	r3, r4
	str	r5, [sp, #32]
	ands	r3, r5
	adds	r3, r3, #1
	beq	.LBB63_41
	str	r4, [sp, #16]
	ldr	r3, [sp, #32]
	str	r3, [sp, #20]
	str	r1, [sp]
	ldr	r1, [sp, #28]
	str	r1, [sp, #4]
	str	r2, [sp, #8]
	ldr	r1, [sp, #80]
	ldr	r2, [sp, #60]
	ldr	r3, [sp, #44]
	bl	tlsf_heap.refitting.recut.4
	ldr	r1, [r6, #40]
	ldr	r3, [sp, #48]
	adds	r2, r1, r3
	movs	r1, #0
	str	r1, [r2, #16]
	str	r1, [r2, #20]
	subs	r0, r0, r7
	ldr	r2, [r6, #32]
	adds	r0, r2, r0
	str	r0, [r6, #32]
	ldr	r2, [r6, #36]
	cmp	r2, r0
	bhs	.LBB63_39
	str	r0, [r6, #36]
.LBB63_39:
	ldr	r0, [r6, #24]
	adds	r0, r0, #1
	str	r0, [r6, #24]
	ldr	r0, [r6, #28]
	adcs	r0, r1
	str	r0, [r6, #28]
	ldr	r7, [sp, #64]
	ldr	r1, [sp, #40]
.LBB63_40:
	ldr	r0, [r6, #40]
	ldr	r0, [r0, r3]
	str	r0, [sp, #72]
	movs	r0, #1
	strb	r0, [r6, #1]
	ldr	r4, [r1]
	mov	r0, r4
	mov	r1, r7
	ldr	r6, [sp, #80]
	mov	r2, r6
	mov	r3, r7
	bl	__aeabi_lmul
	lsrs	r2, r1, #24
	ldr	r5, [sp, #36]
	strb	r2, [r5, #23]
	lsrs	r2, r1, #16
	strb	r2, [r5, #22]
	lsrs	r2, r1, #8
	strb	r2, [r5, #21]
	strb	r1, [r5, #20]
	lsrs	r1, r0, #24
	strb	r1, [r5, #19]
	lsrs	r1, r0, #16
	strb	r1, [r5, #18]
	lsrs	r1, r0, #8
	strb	r1, [r5, #17]
	strb	r0, [r5, #16]
	ldr	r1, [sp, #56]
	lsrs	r0, r1, #24
	strb	r0, [r5, #15]
	lsrs	r0, r1, #16
	strb	r0, [r5, #14]
	lsrs	r0, r1, #8
	strb	r0, [r5, #13]
	strb	r1, [r5, #12]
	ldr	r1, [sp, #52]
	lsrs	r0, r1, #24
	strb	r0, [r5, #11]
	lsrs	r0, r1, #16
	strb	r0, [r5, #10]
	lsrs	r0, r1, #8
	strb	r0, [r5, #9]
	strb	r1, [r5, #8]
	lsrs	r0, r6, #24
	strb	r0, [r5, #7]
	lsrs	r0, r6, #16
	strb	r0, [r5, #6]
	lsrs	r0, r6, #8
	strb	r0, [r5, #5]
	strb	r6, [r5, #4]
	ldr	r1, [sp, #76]
	lsrs	r0, r1, #24
	strb	r0, [r5, #3]
	lsrs	r0, r1, #16
	strb	r0, [r5, #2]
	lsrs	r0, r1, #8
	strb	r0, [r5, #1]
	strb	r1, [r5]
	ldr	r0, [sp, #72]
	lsrs	r0, r0, #2
	mov	r1, r7
	mov	r2, r4
	mov	r3, r7
	bl	__aeabi_lmul
	strb	r1, [r5, #28]
	strb	r0, [r5, #24]
	lsrs	r2, r1, #24
	strb	r2, [r5, #31]
	lsrs	r2, r1, #16
	strb	r2, [r5, #30]
	lsrs	r1, r1, #8
	strb	r1, [r5, #29]
	lsrs	r1, r0, #24
	strb	r1, [r5, #27]
	lsrs	r1, r0, #16
	strb	r1, [r5, #26]
	lsrs	r0, r0, #8
	strb	r0, [r5, #25]
	b	.LBB63_44
.LBB63_41:
	movs	r0, #1
	strb	r0, [r6, #1]
	movs	r7, #2
	b	.LBB63_44
.LBB63_42:
	movs	r0, #2
.LBB63_43:
	bl	tlsf_c.call_fault.CallFault.refusal
	mov	r7, r0
.LBB63_44:
	mov	r0, r7
	add	sp, #84
	pop	{r4, r5, r6, r7, pc}
.LBB63_45:
	.inst.n	0xdefe
.Lfunc_end63:
	.size	tlsf_offsets_resize, .Lfunc_end63-tlsf_offsets_resize
	.cfi_endproc
	.section	.text.tlsf_open,"ax",%progbits
	.globl	tlsf_open
	.p2align	2
	.type	tlsf_open,%function
	.code	16
	.thumb_func
tlsf_open:
	.cfi_startproc
	push	{r4, r5, r6, r7, lr}
	.cfi_def_cfa_offset 20
	.cfi_offset lr, -4
	.cfi_offset r7, -8
	.cfi_offset r6, -12
	.cfi_offset r5, -16
	.cfi_offset r4, -20
	sub	sp, #52
	.cfi_def_cfa_offset 72
	cmp	r1, #5
	bne	.LBB64_2
	movs	r1, #0
.LBB64_2:
	ldrb	r4, [r0, #8]
	cmp	r4, #0
	beq	.LBB64_4
	movs	r0, #33
	add	sp, #52
	pop	{r4, r5, r6, r7, pc}
.LBB64_4:
	movs	r6, #1
	mvns	r4, r6
	subs	r1, r1, #6
	cmp	r1, r4
	bhs	.LBB64_6
	movs	r0, #34
	add	sp, #52
	pop	{r4, r5, r6, r7, pc}
.LBB64_6:
	ldr	r1, .LCPI64_0
	adds	r4, r3, r1
	subs	r4, r4, #4
	cmp	r4, r1
	bhs	.LBB64_8
	movs	r0, #5
	add	sp, #52
	pop	{r4, r5, r6, r7, pc}
.LBB64_8:
	str	r2, [sp, #20]
	str	r0, [sp, #24]
	str	r3, [sp, #28]
	lsls	r1, r3, #3
	add	r0, sp, #32
	movs	r2, #8
	bl	tlsf_memory_alloc
	ldr	r1, [sp, #32]
	movs	r0, #6
	lsls	r1, r1, #31
	bne	.LBB64_9
	b	.LBB64_12
.LBB64_9:
	mov	r7, r0
	ldr	r5, [sp, #40]
	movs	r4, #0
	str	r4, [r5]
	str	r4, [r5, #4]
	str	r4, [r5, #8]
	str	r4, [r5, #12]
	str	r4, [r5, #16]
	str	r4, [r5, #20]
	str	r4, [r5, #24]
	str	r4, [r5, #28]
	ldr	r0, [sp, #28]
	adds	r0, #63
	lsrs	r0, r0, #6
	str	r0, [sp, #16]
	lsls	r1, r0, #3
	add	r0, sp, #32
	movs	r2, #8
	bl	tlsf_memory_alloc
	ldr	r0, [sp, #32]
	lsls	r0, r0, #31
	bne	.LBB64_10
	b	.LBB64_13
.LBB64_10:
	ldr	r1, [sp, #40]
	str	r4, [r1]
	str	r4, [r5, #8]
	movs	r0, #19
	str	r0, [r5]
	str	r4, [r1, #4]
	ldr	r0, [r1]
	orrs	r0, r6
	str	r1, [sp, #12]
	str	r0, [r1]
	mvns	r0, r4
	str	r0, [r5, #4]
	str	r4, [r5, #12]
	str	r0, [r5, #16]
	str	r0, [r5, #20]
	movs	r0, #161
	lsls	r1, r0, #3
	add	r0, sp, #32
	movs	r2, #8
	bl	tlsf_memory_alloc
	ldr	r0, [sp, #32]
	lsls	r0, r0, #31
	bne	.LBB64_11
	b	.LBB64_14
.LBB64_11:
	ldr	r7, [sp, #40]
	strb	r6, [r7]
	mov	r0, r7
	adds	r0, #8
	movs	r2, #16
	str	r2, [sp, #8]
	mov	r1, r4
	bl	tlsf_memory_set
	movs	r0, #92
	strb	r4, [r7, r0]
	movs	r0, #88
	ldr	r2, [sp, #16]
	strb	r2, [r7, r0]
	movs	r0, #84
	strb	r4, [r7, r0]
	movs	r0, #80
	str	r0, [sp, #4]
	strb	r6, [r7, r0]
	movs	r0, #68
	strb	r4, [r7, r0]
	movs	r0, #64
	ldr	r1, [sp, #28]
	strb	r1, [r7, r0]
	movs	r0, #60
	strb	r4, [r7, r0]
	movs	r0, #56
	movs	r1, #4
	strb	r1, [r7, r0]
	movs	r0, #36
	strb	r4, [r7, r0]
	movs	r0, #32
	strb	r6, [r7, r0]
	movs	r0, #108
	ldr	r3, [sp, #8]
	strb	r3, [r7, r0]
	movs	r0, #104
	strb	r6, [r7, r0]
	movs	r0, #100
	strb	r4, [r7, r0]
	movs	r0, #96
	strb	r1, [r7, r0]
	movs	r0, #76
	strb	r4, [r7, r0]
	movs	r0, #72
	ldr	r3, [sp, #12]
	strb	r3, [r7, r0]
	movs	r0, #52
	strb	r4, [r7, r0]
	movs	r0, #48
	strb	r5, [r7, r0]
	movs	r0, #44
	strb	r4, [r7, r0]
	movs	r0, #40
	strb	r4, [r7, r0]
	mov	r0, r7
	adds	r0, #92
	strb	r4, [r0, #3]
	strb	r4, [r0, #2]
	strb	r4, [r0, #1]
	mov	r0, r7
	adds	r0, #88
	lsrs	r1, r2, #24
	strb	r1, [r0, #3]
	lsrs	r1, r2, #16
	strb	r1, [r0, #2]
	lsrs	r1, r2, #8
	strb	r1, [r0, #1]
	mov	r0, r7
	adds	r0, #84
	strb	r4, [r0, #3]
	strb	r4, [r0, #2]
	strb	r4, [r0, #1]
	mov	r0, r7
	adds	r0, #80
	strb	r4, [r0, #3]
	strb	r4, [r0, #2]
	strb	r4, [r0, #1]
	mov	r0, r7
	adds	r0, #68
	strb	r4, [r0, #3]
	strb	r4, [r0, #2]
	strb	r4, [r0, #1]
	mov	r0, r7
	adds	r0, #64
	ldr	r2, [sp, #28]
	lsrs	r1, r2, #24
	strb	r1, [r0, #3]
	lsrs	r1, r2, #16
	strb	r1, [r0, #2]
	lsrs	r1, r2, #8
	strb	r1, [r0, #1]
	mov	r0, r7
	adds	r0, #60
	strb	r4, [r0, #3]
	strb	r4, [r0, #2]
	strb	r4, [r0, #1]
	mov	r0, r7
	adds	r0, #56
	strb	r4, [r0, #3]
	strb	r4, [r0, #2]
	strb	r4, [r0, #1]
	mov	r0, r7
	adds	r0, #36
	strb	r4, [r0, #3]
	strb	r4, [r0, #2]
	strb	r4, [r0, #1]
	mov	r0, r7
	adds	r0, #32
	strb	r4, [r0, #3]
	strb	r4, [r0, #2]
	strb	r4, [r0, #1]
	mov	r0, r7
	adds	r0, #108
	strb	r4, [r0, #3]
	strb	r4, [r0, #2]
	strb	r4, [r0, #1]
	mov	r0, r7
	adds	r0, #104
	strb	r4, [r0, #3]
	strb	r4, [r0, #2]
	strb	r4, [r0, #1]
	mov	r0, r7
	adds	r0, #100
	strb	r4, [r0, #3]
	strb	r4, [r0, #2]
	strb	r4, [r0, #1]
	mov	r0, r7
	adds	r0, #96
	strb	r4, [r0, #3]
	strb	r4, [r0, #2]
	strb	r4, [r0, #1]
	mov	r0, r7
	adds	r0, #76
	strb	r4, [r0, #3]
	strb	r4, [r0, #2]
	strb	r4, [r0, #1]
	mov	r0, r7
	adds	r0, #72
	lsrs	r1, r3, #24
	strb	r1, [r0, #3]
	lsrs	r1, r3, #16
	strb	r1, [r0, #2]
	lsrs	r1, r3, #8
	strb	r1, [r0, #1]
	mov	r0, r7
	adds	r0, #52
	strb	r4, [r0, #3]
	strb	r4, [r0, #2]
	strb	r4, [r0, #1]
	mov	r0, r7
	adds	r0, #48
	lsrs	r1, r5, #24
	strb	r1, [r0, #3]
	lsrs	r1, r5, #16
	strb	r1, [r0, #2]
	lsrs	r1, r5, #8
	strb	r1, [r0, #1]
	mov	r0, r7
	adds	r0, #44
	strb	r4, [r0, #3]
	strb	r4, [r0, #2]
	strb	r4, [r0, #1]
	mov	r0, r7
	adds	r0, #40
	strb	r4, [r0, #3]
	strb	r4, [r0, #2]
	strb	r4, [r0, #1]
	ldr	r5, [sp, #20]
	lsrs	r0, r5, #24
	strb	r0, [r7, #27]
	lsrs	r0, r5, #16
	strb	r0, [r7, #26]
	lsrs	r0, r5, #8
	strb	r0, [r7, #25]
	strb	r5, [r7, #24]
	mov	r0, r7
	adds	r0, #112
	mov	r1, r4
	ldr	r2, [sp, #4]
	bl	tlsf_memory_set
	mov	r0, r7
	adds	r0, #192
	movs	r1, #255
	str	r1, [sp, #16]
	ldr	r2, [sp, #8]
	bl	tlsf_memory_set
	movs	r0, #208
	strb	r4, [r7, r0]
	mov	r0, r7
	adds	r0, #208
	strb	r4, [r0, #3]
	strb	r4, [r0, #2]
	strb	r4, [r0, #1]
	mov	r0, r7
	adds	r0, #212
	movs	r1, #67
	lsls	r2, r1, #4
	ldr	r1, [sp, #16]
	bl	tlsf_memory_set
	mov	r0, r7
	adds	r0, #24
	ldr	r1, [sp, #28]
	bl	tlsf_heap.heap.Heap.begin.4
	ldr	r0, [r7, #48]
	ldr	r1, [sp, #24]
	strb	r4, [r1, #28]
	str	r5, [r1, #24]
	str	r0, [r1, #16]
	strb	r6, [r1, #8]
	str	r7, [r1]
	str	r4, [r1, #4]
	mov	r0, r4
.LBB64_12:
	add	sp, #52
	pop	{r4, r5, r6, r7, pc}
.LBB64_13:
	mov	r0, r5
	b	.LBB64_15
.LBB64_14:
	mov	r0, r5
	bl	tlsf_memory_dealloc
	ldr	r0, [sp, #12]
.LBB64_15:
	bl	tlsf_memory_dealloc
	mov	r0, r7
	add	sp, #52
	pop	{r4, r5, r6, r7, pc}
	.p2align	2
.LCPI64_0:
	.long	4293918723
.Lfunc_end64:
	.size	tlsf_open, .Lfunc_end64-tlsf_open
	.cfi_endproc
	.section	.text.tlsf_place,"ax",%progbits
	.globl	tlsf_place
	.p2align	1
	.type	tlsf_place,%function
	.code	16
	.thumb_func
tlsf_place:
	.cfi_startproc
	push	{r4, r5, r6, r7, lr}
	.cfi_def_cfa_offset 20
	.cfi_offset lr, -4
	.cfi_offset r7, -8
	.cfi_offset r6, -12
	.cfi_offset r5, -16
	.cfi_offset r4, -20
	sub	sp, #12
	.cfi_def_cfa_offset 32
	mov	r7, r1
	ldrb	r1, [r0, #8]
	cmp	r1, #0
	beq	.LBB65_8
	ldr	r4, [r0]
	ldrb	r0, [r4]
	cmp	r0, #0
	beq	.LBB65_8
	str	r3, [sp, #8]
	movs	r5, #0
	strb	r5, [r4]
	ldr	r0, [r4, #56]
	cmp	r7, r0
	bhs	.LBB65_6
	mov	r6, r2
	ldr	r0, [r4, #24]
	str	r0, [sp, #4]
	movs	r2, #63
	ands	r2, r7
	ldr	r1, [r4, #72]
	lsrs	r0, r7, #6
	lsls	r3, r0, #3
	ldr	r0, [r1, r3]
	adds	r1, r1, r3
	ldr	r1, [r1, #4]
	bl	__aeabi_llsr
	lsls	r0, r0, #31
	beq	.LBB65_6
	lsls	r0, r7, #3
	ldr	r1, [r4, #48]
	ldrb	r2, [r1, r0]
	lsls	r2, r2, #31
	bne	.LBB65_6
	adds	r0, r1, r0
	ldr	r1, [r0, #8]
	ldr	r2, [r0, #12]
	ldr	r0, [r0, #16]
	movs	r3, #1
	strb	r3, [r4]
	lsrs	r3, r2, #24
	strb	r3, [r6, #15]
	lsrs	r3, r2, #16
	strb	r3, [r6, #14]
	lsrs	r3, r2, #8
	strb	r3, [r6, #13]
	strb	r2, [r6, #12]
	lsrs	r2, r1, #24
	strb	r2, [r6, #11]
	lsrs	r2, r1, #16
	strb	r2, [r6, #10]
	lsrs	r2, r1, #8
	strb	r2, [r6, #9]
	strb	r1, [r6, #8]
	lsrs	r1, r7, #24
	strb	r1, [r6, #7]
	lsrs	r1, r7, #16
	strb	r1, [r6, #6]
	lsrs	r1, r7, #8
	strb	r1, [r6, #5]
	strb	r7, [r6, #4]
	ldr	r2, [sp, #4]
	lsrs	r1, r2, #24
	strb	r1, [r6, #3]
	lsrs	r1, r2, #16
	strb	r1, [r6, #2]
	lsrs	r1, r2, #8
	strb	r1, [r6, #1]
	strb	r2, [r6]
	ldr	r1, [sp, #8]
	str	r0, [r1]
	b	.LBB65_7
.LBB65_6:
	movs	r0, #1
	strb	r0, [r4]
	movs	r5, #4
.LBB65_7:
	mov	r0, r5
	add	sp, #12
	pop	{r4, r5, r6, r7, pc}
.LBB65_8:
	movs	r0, #0
	bl	tlsf_c.call_fault.CallFault.refusal
	mov	r5, r0
	b	.LBB65_7
.Lfunc_end65:
	.size	tlsf_place, .Lfunc_end65-tlsf_place
	.cfi_endproc
	.section	.text.tlsf_pools_allocate,"ax",%progbits
	.globl	tlsf_pools_allocate
	.p2align	2
	.type	tlsf_pools_allocate,%function
	.code	16
	.thumb_func
tlsf_pools_allocate:
	.cfi_startproc
	push	{r4, r5, r6, r7, lr}
	.cfi_def_cfa_offset 20
	.cfi_offset lr, -4
	.cfi_offset r7, -8
	.cfi_offset r6, -12
	.cfi_offset r5, -16
	.cfi_offset r4, -20
	sub	sp, #116
	.cfi_def_cfa_offset 136
	ldrb	r3, [r0, #8]
	cmp	r3, #0
	beq	.LBB66_22
	ldr	r3, [r0]
	ldrb	r0, [r3, #1]
	cmp	r0, #0
	beq	.LBB66_22
	ldrb	r0, [r3]
	cmp	r0, #1
	beq	.LBB66_3
	b	.LBB66_32
.LBB66_3:
	str	r2, [sp, #84]
	movs	r2, #0
	strb	r2, [r3, #1]
	ldr	r0, [r3, #32]
	str	r3, [sp, #104]
	ldr	r3, [r3, #36]
	str	r0, [sp, #96]
	str	r3, [sp, #92]
	orrs	r0, r3
	beq	.LBB66_21
	ldr	r0, [sp, #104]
	ldr	r0, [r0, #24]
	str	r0, [sp, #100]
	mov	r5, r2
	b	.LBB66_6
.LBB66_5:
	movs	r0, #0
	adds	r5, r5, #1
	ldr	r2, [sp, #108]
	adcs	r2, r0
	ldr	r0, [sp, #96]
	subs	r0, r5, r0
	mov	r0, r2
	ldr	r3, [sp, #92]
	sbcs	r0, r3
	bhs	.LBB66_21
.LBB66_6:
	str	r2, [sp, #108]
	movs	r0, #165
	lsls	r0, r0, #3
	muls	r0, r5, r0
	ldr	r2, [sp, #100]
	adds	r2, r2, r0
	movs	r0, #159
	lsls	r0, r0, #3
	ldr	r6, [r2, r0]
	str	r2, [sp, #112]
	adds	r0, r2, r0
	ldr	r7, [r0, #4]
	mov	r0, r6
	orrs	r0, r7
	beq	.LBB66_5
	movs	r0, #79
	lsls	r0, r0, #4
	ldr	r2, [sp, #112]
	ldr	r2, [r2, r0]
	str	r2, [sp, #88]
	adds	r2, #12
	mov	r3, r6
	mov	r4, r7
.LBB66_8:
	mov	r0, r2
	subs	r0, #8
	ldr	r0, [r0]
	cmp	r0, r1
	bhs	.LBB66_12
	movs	r0, #1
	eors	r0, r3
	orrs	r0, r4
	beq	.LBB66_5
	ldr	r0, [r2]
	cmp	r0, r1
	bhs	.LBB66_12
	adds	r2, #16
	movs	r0, #0
	subs	r3, r3, #2
	sbcs	r4, r0
	mov	r0, r3
	orrs	r0, r4
	bne	.LBB66_8
	b	.LBB66_5
.LBB66_12:
	movs	r5, #0
	ldr	r3, [sp, #88]
	mov	r0, r3
.LBB66_13:
	ldr	r2, [r0, #4]
	cmp	r2, r1
	bhs	.LBB66_26
	movs	r2, #1
	eors	r2, r6
	orrs	r2, r7
	beq	.LBB66_21
	ldr	r2, [r0, #12]
	cmp	r2, r1
	bhs	.LBB66_23
	movs	r2, #2
	eors	r2, r6
	orrs	r2, r7
	beq	.LBB66_21
	ldr	r2, [r0, #20]
	cmp	r2, r1
	bhs	.LBB66_24
	movs	r2, #3
	eors	r2, r6
	orrs	r2, r7
	beq	.LBB66_21
	ldr	r2, [r0, #28]
	cmp	r2, r1
	bhs	.LBB66_25
	movs	r2, #0
	subs	r6, r6, #4
	sbcs	r7, r2
	mov	r2, r6
	orrs	r2, r7
	adds	r5, r5, #4
	adds	r0, #32
	cmp	r2, #0
	bne	.LBB66_13
.LBB66_21:
	movs	r0, #1
	ldr	r1, [sp, #104]
	strb	r0, [r1, #1]
	movs	r0, #5
	add	sp, #116
	pop	{r4, r5, r6, r7, pc}
.LBB66_22:
	movs	r0, #0
	b	.LBB66_33
.LBB66_23:
	adds	r5, r5, #1
	b	.LBB66_26
.LBB66_24:
	adds	r5, r5, #2
	b	.LBB66_26
.LBB66_25:
	adds	r5, r5, #3
.LBB66_26:
	movs	r0, #81
	lsls	r4, r0, #4
	lsls	r0, r5, #3
	ldr	r0, [r3, r0]
	ldr	r7, [sp, #112]
	ldr	r2, [r7, r4]
	lsls	r3, r5, #2
	ldr	r2, [r2, r3]
	cmp	r2, r0
	bhs	.LBB66_31
	str	r3, [sp, #96]
	movs	r0, #161
	lsls	r0, r0, #3
	ldr	r5, [r7, r0]
	movs	r2, #1
	lsls	r0, r2, #20
	cmp	r5, r0
	bls	.LBB66_28
	b	.LBB66_47
.LBB66_28:
	str	r4, [sp, #80]
	str	r1, [sp, #88]
	movs	r1, #16
	mov	r0, r5
	str	r1, [sp, #60]
	orrs	r0, r1
	mov	r4, r2
	bl	__clzsi2
	movs	r1, #27
	str	r1, [sp, #56]
	subs	r1, r1, r0
	str	r5, [sp, #76]
	subs	r0, r5, #1
	lsrs	r0, r1
	lsls	r1, r1, #4
	adds	r1, r0, r1
	adds	r1, r1, #1
	movs	r2, #0
	subs	r3, r1, #1
	str	r2, [sp, #108]
	sbcs	r2, r2
	lsrs	r1, r3, #4
	lsls	r5, r2, #28
	adds	r5, r1, r5
	lsls	r1, r5, #2
	mov	r6, r7
	adds	r6, #84
	str	r6, [sp, #68]
	ldr	r1, [r6, r1]
	movs	r6, #15
	str	r6, [sp, #64]
	ands	r0, r6
	lsrs	r1, r0
	str	r4, [sp, #100]
	bics	r1, r4
	beq	.LBB66_34
	cmp	r1, #0
	beq	.LBB66_40
	rsbs	r0, r1, #0
	ands	r0, r1
	ldr	r1, .LCPI66_0
	muls	r1, r0, r1
	lsrs	r0, r1, #27
	adr	r1, .LCPI66_1
	ldrb	r5, [r1, r0]
	b	.LBB66_41
.LBB66_31:
	movs	r0, #1
	ldr	r1, [sp, #104]
	strb	r0, [r1, #1]
	movs	r0, #38
	add	sp, #116
	pop	{r4, r5, r6, r7, pc}
.LBB66_32:
	movs	r0, #2
.LBB66_33:
	bl	tlsf_c.call_fault.CallFault.refusal
	add	sp, #116
	pop	{r4, r5, r6, r7, pc}
.LBB66_34:
	adds	r0, r5, #1
	ldr	r7, [r7, #80]
	lsrs	r7, r0
	lsls	r7, r0
	ldr	r0, [sp, #84]
	ldr	r2, [sp, #100]
	beq	.LBB66_47
	ldr	r5, .LCPI66_0
	adr	r3, .LCPI66_1
	movs	r6, #32
	cmp	r7, #0
	mov	r2, r6
	beq	.LBB66_37
	rsbs	r2, r7, #0
	ands	r2, r7
	muls	r2, r5, r2
	lsrs	r2, r2, #27
	ldrb	r2, [r3, r2]
.LBB66_37:
	lsls	r7, r2, #2
	ldr	r1, [sp, #68]
	ldr	r7, [r1, r7]
	cmp	r7, #0
	beq	.LBB66_43
	cmp	r7, #0
	beq	.LBB66_42
	rsbs	r6, r7, #0
	ands	r6, r7
	muls	r5, r6, r5
	lsrs	r5, r5, #27
	ldrb	r6, [r3, r5]
	b	.LBB66_43
.LBB66_40:
	movs	r5, #32
.LBB66_41:
	ldr	r0, [sp, #84]
	adds	r3, r3, r5
	ldr	r4, [sp, #108]
	adcs	r2, r4
	lsrs	r5, r3, #4
	lsls	r2, r2, #28
	adds	r1, r5, r2
	str	r1, [sp, #44]
	b	.LBB66_44
.LBB66_42:
	movs	r6, #32
.LBB66_43:
	lsls	r2, r2, #4
	adds	r3, r6, r2
	lsrs	r1, r3, #4
	str	r1, [sp, #44]
	ldr	r7, [sp, #112]
.LBB66_44:
	ldr	r5, [r7, #8]
	ldr	r1, [r7, #12]
	str	r5, [sp, #92]
	ands	r5, r1
	adds	r5, r5, #1
	ldr	r2, [sp, #100]
	beq	.LBB66_47
	str	r1, [sp, #48]
	ldr	r2, [sp, #108]
	mvns	r1, r2
	str	r1, [sp, #52]
	lsls	r5, r3, #2
	mov	r4, r7
	adds	r4, #168
	ldr	r1, [r4, r5]
	str	r1, [sp, #72]
	lsls	r1, r1, #3
	ldr	r6, [r7, #24]
	adds	r7, r6, r1
	ldr	r7, [r7, #16]
	adds	r2, r7, #1
	str	r4, [sp, #36]
	beq	.LBB66_48
	lsls	r2, r7, #3
	adds	r2, r6, r2
	ldr	r3, [sp, #52]
	str	r3, [r2, #20]
	str	r7, [r4, r5]
	ldr	r4, [sp, #112]
	b	.LBB66_50
.LBB66_47:
	ldr	r0, [sp, #104]
	strb	r2, [r0, #1]
	movs	r0, #2
	add	sp, #116
	pop	{r4, r5, r6, r7, pc}
.LBB66_48:
	movs	r2, #0
	mvns	r2, r2
	str	r2, [r4, r5]
	mov	r6, r1
	ldr	r1, [sp, #64]
	ands	r3, r1
	ldr	r2, [sp, #100]
	lsls	r2, r3
	ldr	r7, [sp, #44]
	lsls	r3, r7, #2
	ldr	r1, [sp, #68]
	ldr	r5, [r1, r3]
	bics	r5, r2
	str	r5, [r1, r3]
	mov	r1, r6
	ldr	r4, [sp, #112]
	bne	.LBB66_50
	ldr	r2, [sp, #100]
	lsls	r2, r7
	ldr	r3, [r4, #80]
	bics	r3, r2
	str	r3, [r4, #80]
.LBB66_50:
	ldr	r3, [r4, #24]
	adds	r6, r3, r1
	ldr	r7, [r6, #4]
	str	r1, [sp, #40]
	ldr	r2, [r3, r1]
	ldr	r1, [sp, #76]
	lsls	r5, r1, #2
	subs	r5, r2, r5
	cmp	r5, #15
	ldr	r4, [sp, #80]
	bhi	.LBB66_52
	movs	r3, #0
	str	r3, [r6, #20]
	ldr	r5, [sp, #88]
	str	r5, [r6, #16]
	ldr	r1, [sp, #92]
	str	r1, [r6, #8]
	ldr	r1, [sp, #48]
	str	r1, [r6, #12]
	subs	r2, r2, #1
	str	r2, [r6]
	sbcs	r7, r3
	str	r7, [r6, #4]
	mov	r7, r1
	lsrs	r1, r2, #2
	ldr	r6, [sp, #112]
	b	.LBB66_58
.LBB66_52:
	lsrs	r0, r5, #2
	str	r0, [sp, #44]
	ldr	r0, [sp, #88]
	str	r0, [r6, #16]
	ldr	r0, [sp, #92]
	str	r0, [r6, #8]
	ldr	r0, [sp, #72]
	adds	r1, r0, r1
	str	r7, [sp, #32]
	lsls	r7, r1, #3
	adds	r4, r3, r7
	str	r4, [sp, #24]
	subs	r0, r2, r5
	str	r0, [r6]
	str	r7, [sp, #28]
	str	r5, [r3, r7]
	ldr	r0, [sp, #92]
	str	r0, [r4, #8]
	ldr	r4, [sp, #108]
	ldr	r7, [sp, #32]
	sbcs	r7, r4
	lsrs	r0, r1, #6
	lsls	r2, r0, #3
	str	r2, [sp, #16]
	ldr	r0, [sp, #112]
	ldr	r0, [r0, #48]
	str	r0, [sp, #20]
	ldr	r0, [r0, r2]
	str	r0, [sp, #12]
	movs	r2, #63
	str	r1, [sp, #32]
	ands	r2, r1
	movs	r0, #1
	str	r0, [sp, #4]
	mov	r1, r4
	bl	__aeabi_llsl
	str	r1, [sp, #8]
	ldr	r1, [sp, #12]
	orrs	r0, r1
	ldr	r3, [sp, #20]
	ldr	r1, [sp, #16]
	str	r0, [r3, r1]
	str	r4, [r6, #20]
	ldr	r4, [sp, #44]
	ldr	r0, [sp, #48]
	str	r0, [r6, #12]
	str	r7, [r6, #4]
	mov	r7, r0
	ldr	r2, [sp, #24]
	str	r0, [r2, #12]
	ldr	r0, [sp, #72]
	str	r0, [r2, #4]
	adds	r0, r3, r1
	ldr	r2, [r0, #4]
	ldr	r1, [sp, #8]
	orrs	r2, r1
	str	r2, [r0, #4]
	lsls	r0, r5, #30
	ldr	r6, [sp, #112]
	ldr	r5, [sp, #52]
	bmi	.LBB66_54
	ldr	r3, [sp, #32]
	adds	r0, r4, r3
	lsls	r0, r0, #3
	ldr	r1, [r6, #24]
	ldr	r2, [r1, r0]
	ands	r2, r5
	str	r2, [r1, r0]
	adds	r0, r1, r0
	str	r3, [r0, #4]
.LBB66_54:
	ldr	r0, [sp, #60]
	orrs	r0, r4
	bl	__clzsi2
	ldr	r1, [sp, #56]
	subs	r0, r1, r0
	lsrs	r4, r0
	lsls	r0, r0, #4
	str	r4, [sp, #44]
	adds	r0, r4, r0
	lsls	r2, r0, #2
	ldr	r3, [sp, #36]
	ldr	r1, [r3, r2]
	ldr	r4, [sp, #32]
	str	r4, [r3, r2]
	mov	r3, r4
	cmp	r1, #0
	ldr	r4, [sp, #80]
	bmi	.LBB66_56
	ldr	r0, [r6, #24]
	ldr	r2, [sp, #28]
	adds	r2, r0, r2
	str	r1, [r2, #16]
	str	r5, [r2, #20]
	lsls	r1, r1, #3
	adds	r0, r0, r1
	str	r3, [r0, #20]
	ldr	r1, [r0, #16]
	ands	r1, r5
	str	r1, [r0, #16]
	b	.LBB66_57
.LBB66_56:
	ldr	r1, [r6, #24]
	ldr	r2, [sp, #28]
	adds	r1, r1, r2
	str	r5, [r1, #16]
	str	r5, [r1, #20]
	ldr	r1, [sp, #64]
	ldr	r2, [sp, #44]
	ands	r2, r1
	ldr	r1, [sp, #4]
	mov	r5, r1
	lsls	r5, r2
	lsrs	r0, r0, #4
	lsls	r2, r0, #2
	ldr	r4, [sp, #68]
	ldr	r3, [r4, r2]
	orrs	r3, r5
	str	r3, [r4, r2]
	ldr	r4, [sp, #80]
	lsls	r1, r0
	ldr	r0, [r6, #80]
	orrs	r0, r1
	str	r0, [r6, #80]
.LBB66_57:
	ldr	r0, [sp, #84]
	ldr	r5, [sp, #88]
	ldr	r1, [sp, #76]
.LBB66_58:
	ldr	r2, [r6, #16]
	adds	r2, r2, r1
	str	r2, [r6, #16]
	ldr	r3, [r6, #20]
	cmp	r3, r2
	bhs	.LBB66_60
	str	r2, [r6, #20]
.LBB66_60:
	adds	r4, r6, r4
	ldr	r2, [r6, #8]
	adds	r2, r2, #1
	str	r2, [r6, #8]
	ldr	r2, [r6, #12]
	ldr	r3, [sp, #108]
	adcs	r2, r3
	str	r2, [r6, #12]
	adds	r2, r5, #1
	adcs	r3, r3
	cmp	r5, #0
	beq	.LBB66_62
	mov	r2, r5
.LBB66_62:
	beq	.LBB66_64
	ldr	r3, [sp, #108]
.LBB66_64:
	adds	r2, #31
	ldr	r1, [sp, #108]
	adcs	r3, r1
	lsrs	r1, r2, #3
	lsls	r2, r3, #29
	adds	r1, r1, r2
	subs	r1, r1, #3
	ldr	r5, [r6]
	beq	.LBB66_66
	ldr	r0, [r6, #24]
	ldr	r2, [sp, #40]
	adds	r0, r0, r2
	adds	r0, #24
	lsls	r2, r1, #3
	movs	r1, #0
	bl	tlsf_memory_set
	ldr	r0, [sp, #84]
.LBB66_66:
	ldr	r1, [r4]
	ldr	r3, [sp, #96]
	ldr	r2, [r1, r3]
	adds	r2, r2, #1
	str	r2, [r1, r3]
	ldr	r1, [sp, #104]
	ldr	r2, [sp, #100]
	strb	r2, [r1, #1]
	lsrs	r1, r7, #24
	strb	r1, [r0, #15]
	lsrs	r1, r7, #16
	strb	r1, [r0, #14]
	lsrs	r1, r7, #8
	strb	r1, [r0, #13]
	strb	r7, [r0, #12]
	ldr	r2, [sp, #92]
	lsrs	r1, r2, #24
	strb	r1, [r0, #11]
	lsrs	r1, r2, #16
	strb	r1, [r0, #10]
	lsrs	r1, r2, #8
	strb	r1, [r0, #9]
	strb	r2, [r0, #8]
	ldr	r2, [sp, #72]
	lsrs	r1, r2, #24
	strb	r1, [r0, #7]
	lsrs	r1, r2, #16
	strb	r1, [r0, #6]
	lsrs	r1, r2, #8
	strb	r1, [r0, #5]
	strb	r2, [r0, #4]
	lsrs	r1, r5, #24
	strb	r1, [r0, #3]
	lsrs	r1, r5, #16
	strb	r1, [r0, #2]
	lsrs	r1, r5, #8
	strb	r1, [r0, #1]
	strb	r5, [r0]
	movs	r0, #0
	add	sp, #116
	pop	{r4, r5, r6, r7, pc}
	.p2align	2
.LCPI66_0:
	.long	125613361
.LCPI66_1:
	.ascii	"\000\001\034\002\035\016\030\003\036\026\024\017\031\021\004\b\037\033\r\027\025\023\020\007\032\f\022\006\013\005\n\t"
.Lfunc_end66:
	.size	tlsf_pools_allocate, .Lfunc_end66-tlsf_pools_allocate
	.cfi_endproc
	.section	.text.tlsf_pools_check,"ax",%progbits
	.globl	tlsf_pools_check
	.p2align	1
	.type	tlsf_pools_check,%function
	.code	16
	.thumb_func
tlsf_pools_check:
	.cfi_startproc
	push	{r4, r5, r6, r7, lr}
	.cfi_def_cfa_offset 20
	.cfi_offset lr, -4
	.cfi_offset r7, -8
	.cfi_offset r6, -12
	.cfi_offset r5, -16
	.cfi_offset r4, -20
	sub	sp, #12
	.cfi_def_cfa_offset 32
	mov	r4, r2
	ldrb	r2, [r0, #8]
	cmp	r2, #0
	beq	.LBB67_13
	ldr	r7, [r0]
	ldrb	r0, [r7, #1]
	cmp	r0, #0
	beq	.LBB67_13
	ldrb	r0, [r7]
	cmp	r0, #1
	bne	.LBB67_14
	mov	r5, r3
	movs	r3, #0
	strb	r3, [r7, #1]
	ldr	r0, [r7, #32]
	ldr	r2, [r7, #36]
	subs	r0, r1, r0
	mov	r0, r3
	sbcs	r0, r2
	bhs	.LBB67_12
	movs	r0, #165
	lsls	r0, r0, #3
	muls	r0, r1, r0
	ldr	r1, [r7, #24]
	adds	r6, r1, r0
	ldr	r0, [r6, #32]
	str	r0, [sp, #8]
	subs	r0, r0, #4
	cmp	r4, r0
	bhi	.LBB67_12
	movs	r2, #63
	ands	r2, r4
	ldr	r0, [r6, #48]
	str	r0, [sp, #4]
	lsrs	r0, r4, #6
	lsls	r0, r0, #3
	ldr	r1, [sp, #4]
	ldr	r1, [r1, r0]
	str	r1, [sp]
	ldr	r1, [sp, #4]
	adds	r0, r1, r0
	ldr	r1, [r0, #4]
	str	r3, [sp, #4]
	ldr	r0, [sp]
	bl	__aeabi_llsr
	mov	r1, r0
	ldr	r0, [sp, #4]
	lsls	r1, r1, #31
	beq	.LBB67_12
	ldr	r2, [sp, #32]
	cmp	r5, #0
	beq	.LBB67_18
	str	r2, [sp, #4]
	ldr	r0, [sp, #36]
	str	r0, [sp]
	adds	r6, #24
.LBB67_8:
	mov	r0, r6
	mov	r1, r4
	bl	tlsf_heap.check.examine
	uxtb	r0, r0
	cmp	r0, #1
	bne	.LBB67_16
	movs	r0, #0
	ldr	r2, [sp, #8]
	cmp	r1, r2
	beq	.LBB67_17
	subs	r5, r5, #1
	mov	r4, r1
	bne	.LBB67_8
	ldr	r2, [sp, #4]
	mov	r4, r1
	b	.LBB67_18
.LBB67_12:
	movs	r0, #1
	strb	r0, [r7, #1]
	movs	r0, #4
	add	sp, #12
	pop	{r4, r5, r6, r7, pc}
.LBB67_13:
	movs	r0, #0
	b	.LBB67_15
.LBB67_14:
	movs	r0, #2
.LBB67_15:
	bl	tlsf_c.call_fault.CallFault.refusal
	add	sp, #12
	pop	{r4, r5, r6, r7, pc}
.LBB67_16:
	movs	r0, #36
	ldr	r2, [sp]
	b	.LBB67_18
.LBB67_17:
	ldr	r2, [sp, #4]
	mov	r4, r0
.LBB67_18:
	movs	r1, #1
	strb	r1, [r7, #1]
	str	r4, [r2]
	add	sp, #12
	pop	{r4, r5, r6, r7, pc}
.Lfunc_end67:
	.size	tlsf_pools_check, .Lfunc_end67-tlsf_pools_check
	.cfi_endproc
	.section	.text.tlsf_pools_close,"ax",%progbits
	.globl	tlsf_pools_close
	.p2align	1
	.type	tlsf_pools_close,%function
	.code	16
	.thumb_func
tlsf_pools_close:
	.cfi_startproc
	push	{r7, lr}
	.cfi_def_cfa_offset 8
	.cfi_offset lr, -4
	.cfi_offset r7, -8
	mov	r1, r0
	ldrb	r2, [r0, #8]
	movs	r0, #32
	cmp	r2, #0
	beq	.LBB68_4
	ldr	r2, [r1]
	ldrb	r3, [r2, #1]
	cmp	r3, #1
	bne	.LBB68_4
	ldrb	r0, [r2]
	cmp	r0, #1
	bne	.LBB68_5
	mov	r0, r1
	bl	tlsf_c.arena_slot.ArenaSlot.close
	movs	r0, #0
.LBB68_4:
	pop	{r7, pc}
.LBB68_5:
	movs	r0, #40
	pop	{r7, pc}
.Lfunc_end68:
	.size	tlsf_pools_close, .Lfunc_end68-tlsf_pools_close
	.cfi_endproc
	.section	.text.tlsf_pools_counts,"ax",%progbits
	.globl	tlsf_pools_counts
	.p2align	1
	.type	tlsf_pools_counts,%function
	.code	16
	.thumb_func
tlsf_pools_counts:
	.cfi_startproc
	push	{r4, r5, r6, r7, lr}
	.cfi_def_cfa_offset 20
	.cfi_offset lr, -4
	.cfi_offset r7, -8
	.cfi_offset r6, -12
	.cfi_offset r5, -16
	.cfi_offset r4, -20
	sub	sp, #36
	.cfi_def_cfa_offset 56
	ldrb	r4, [r0, #8]
	cmp	r4, #0
	bne	.LBB69_1
	b	.LBB69_18
.LBB69_1:
	ldr	r4, [r0]
	ldrb	r0, [r4, #1]
	cmp	r0, #0
	bne	.LBB69_2
	b	.LBB69_18
.LBB69_2:
	ldrb	r0, [r4]
	cmp	r0, #1
	beq	.LBB69_3
	b	.LBB69_19
.LBB69_3:
	str	r2, [sp, #4]
	str	r3, [sp, #8]
	movs	r0, #0
	str	r0, [sp, #32]
	strb	r0, [r4, #1]
	ldr	r0, [r4, #32]
	str	r4, [sp, #12]
	ldr	r2, [r4, #36]
	str	r0, [sp, #28]
	str	r2, [sp, #24]
	orrs	r0, r2
	beq	.LBB69_13
	ldr	r0, [sp, #12]
	ldr	r0, [r0, #24]
	str	r0, [sp, #20]
	movs	r0, #165
	lsls	r0, r0, #3
	str	r0, [sp, #16]
	ldr	r4, [sp, #32]
	mov	r5, r4
.LBB69_5:
	ldr	r0, [sp, #16]
	muls	r0, r5, r0
	ldr	r2, [sp, #20]
	adds	r3, r2, r0
	movs	r0, #159
	lsls	r0, r0, #3
	adds	r6, r3, r0
	ldr	r7, [r6, #4]
	ldr	r6, [r3, r0]
	subs	r2, r1, r6
	mov	r2, r4
	sbcs	r2, r7
	blo	.LBB69_14
	subs	r1, r1, r6
	sbcs	r4, r7
	movs	r3, #1
	orrs	r3, r5
	ldr	r2, [sp, #28]
	subs	r2, r3, r2
	ldr	r2, [sp, #32]
	ldr	r6, [sp, #24]
	sbcs	r2, r6
	bhs	.LBB69_13
	ldr	r2, [sp, #16]
	muls	r3, r2, r3
	ldr	r2, [sp, #20]
	adds	r3, r2, r3
	adds	r2, r3, r0
	ldr	r7, [r2, #4]
	ldr	r6, [r3, r0]
	subs	r2, r1, r6
	mov	r2, r4
	sbcs	r2, r7
	blo	.LBB69_14
	subs	r1, r1, r6
	sbcs	r4, r7
	movs	r3, #2
	orrs	r3, r5
	ldr	r2, [sp, #28]
	subs	r2, r3, r2
	ldr	r2, [sp, #32]
	ldr	r6, [sp, #24]
	sbcs	r2, r6
	bhs	.LBB69_13
	ldr	r2, [sp, #16]
	muls	r3, r2, r3
	ldr	r2, [sp, #20]
	adds	r3, r2, r3
	adds	r2, r3, r0
	ldr	r7, [r2, #4]
	ldr	r6, [r3, r0]
	subs	r2, r1, r6
	mov	r2, r4
	sbcs	r2, r7
	blo	.LBB69_14
	subs	r1, r1, r6
	sbcs	r4, r7
	movs	r3, #3
	orrs	r3, r5
	ldr	r2, [sp, #28]
	subs	r2, r3, r2
	ldr	r2, [sp, #32]
	ldr	r6, [sp, #24]
	sbcs	r2, r6
	bhs	.LBB69_13
	ldr	r2, [sp, #16]
	muls	r3, r2, r3
	ldr	r2, [sp, #20]
	adds	r3, r2, r3
	adds	r2, r3, r0
	ldr	r7, [r2, #4]
	ldr	r0, [r3, r0]
	subs	r2, r1, r0
	mov	r2, r4
	sbcs	r2, r7
	blo	.LBB69_14
	movs	r2, #0
	adds	r5, r5, #4
	ldr	r3, [sp, #32]
	adcs	r3, r2
	subs	r1, r1, r0
	sbcs	r4, r7
	ldr	r0, [sp, #28]
	subs	r0, r5, r0
	str	r3, [sp, #32]
	mov	r0, r3
	ldr	r2, [sp, #24]
	sbcs	r0, r2
	blo	.LBB69_5
.LBB69_13:
	movs	r0, #1
	ldr	r1, [sp, #12]
	strb	r0, [r1, #1]
	movs	r0, #4
	add	sp, #36
	pop	{r4, r5, r6, r7, pc}
.LBB69_14:
	movs	r0, #79
	lsls	r0, r0, #4
	adds	r0, r3, r0
	movs	r2, #81
	lsls	r2, r2, #4
	adds	r2, r3, r2
	ldr	r3, [r2, #8]
	ldr	r5, [r2, #12]
	subs	r3, r1, r3
	sbcs	r4, r5
	bhs	.LBB69_16
	lsls	r3, r1, #2
	ldr	r2, [r2]
	ldr	r2, [r2, r3]
	b	.LBB69_17
.LBB69_16:
	movs	r2, #0
.LBB69_17:
	ldr	r3, [sp, #8]
	ldr	r4, [sp, #4]
	ldr	r5, [sp, #12]
	lsls	r1, r1, #3
	ldr	r0, [r0]
	ldr	r0, [r0, r1]
	movs	r1, #1
	strb	r1, [r5, #1]
	str	r2, [r4]
	str	r0, [r3]
	movs	r0, #0
	add	sp, #36
	pop	{r4, r5, r6, r7, pc}
.LBB69_18:
	movs	r0, #0
	b	.LBB69_20
.LBB69_19:
	movs	r0, #2
.LBB69_20:
	bl	tlsf_c.call_fault.CallFault.refusal
	add	sp, #36
	pop	{r4, r5, r6, r7, pc}
.Lfunc_end69:
	.size	tlsf_pools_counts, .Lfunc_end69-tlsf_pools_counts
	.cfi_endproc
	.section	.text.tlsf_pools_open,"ax",%progbits
	.globl	tlsf_pools_open
	.p2align	2
	.type	tlsf_pools_open,%function
	.code	16
	.thumb_func
tlsf_pools_open:
	.cfi_startproc
	push	{r4, r5, r6, r7, lr}
	.cfi_def_cfa_offset 20
	.cfi_offset lr, -4
	.cfi_offset r7, -8
	.cfi_offset r6, -12
	.cfi_offset r5, -16
	.cfi_offset r4, -20
	sub	sp, #508
	sub	sp, #392
	.cfi_def_cfa_offset 920
	cmp	r1, #5
	bne	.LBB70_2
	movs	r1, #0
.LBB70_2:
	movs	r6, #1
	cmp	r3, #0
	bne	.LBB70_4
	lsls	r4, r6, #12
	adds	r3, r3, r4
.LBB70_4:
	ldrb	r4, [r0, #8]
	cmp	r4, #0
	beq	.LBB70_6
	movs	r0, #33
	b	.LBB70_46
.LBB70_6:
	mvns	r4, r6
	subs	r1, r1, #6
	cmp	r1, r4
	bhs	.LBB70_8
	movs	r0, #34
	b	.LBB70_46
.LBB70_8:
	movs	r1, #7
	mvns	r1, r1
	movs	r4, #5
	str	r4, [sp, #112]
	cmp	r2, r1
	bls	.LBB70_9
	b	.LBB70_45
.LBB70_9:
	ldr	r5, [sp, #920]
	cmp	r5, #64
	bls	.LBB70_10
	b	.LBB70_45
.LBB70_10:
	str	r2, [sp, #104]
	str	r0, [sp, #96]
	lsls	r2, r6, #9
	add	r0, sp, #176
	movs	r1, #0
	str	r3, [sp, #132]
	bl	tlsf_memory_set
	str	r5, [sp, #116]
	cmp	r5, #0
	bne	.LBB70_11
	b	.LBB70_38
.LBB70_11:
	movs	r2, #3
	ldr	r0, [sp, #116]
	mov	r1, r0
	str	r2, [sp, #124]
	ands	r1, r2
	str	r1, [sp, #108]
	movs	r7, #0
	cmp	r0, #4
	str	r7, [sp, #100]
	bhs	.LBB70_12
	b	.LBB70_26
.LBB70_12:
	movs	r1, #124
	ldr	r0, [sp, #116]
	ands	r1, r0
	str	r1, [sp, #120]
	movs	r2, #0
	mov	r7, r2
	mov	r3, r2
	str	r6, [sp, #128]
	str	r2, [sp, #168]
	b	.LBB70_14
.LBB70_13:
	ldr	r6, [sp, #128]
	ldr	r2, [sp, #168]
	ldr	r0, [sp, #172]
	ldr	r1, [sp, #156]
	adds	r0, r0, r1
	str	r4, [r0, #4]
	adds	r7, r7, #4
	adcs	r3, r2
	mov	r0, r7
	ldr	r1, [sp, #120]
	eors	r0, r1
	orrs	r0, r3
	bne	.LBB70_14
	b	.LBB70_25
.LBB70_14:
	str	r3, [sp, #160]
	lsls	r0, r7, #4
	ldr	r1, [sp, #132]
	ldrb	r2, [r1, r0]
	adds	r3, r1, r0
	str	r3, [sp, #140]
	ldrb	r0, [r3, #1]
	lsls	r0, r0, #8
	adds	r0, r0, r2
	ldrb	r2, [r3, #2]
	lsls	r2, r2, #16
	ldrb	r4, [r3, #3]
	lsls	r4, r4, #24
	adds	r2, r4, r2
	adds	r0, r2, r0
	lsls	r2, r7, #3
	add	r3, sp, #176
	str	r3, [sp, #172]
	str	r2, [sp, #144]
	str	r0, [r3, r2]
	mov	r4, r7
	orrs	r4, r6
	lsls	r0, r4, #4
	ldrb	r5, [r1, r0]
	adds	r0, r1, r0
	ldrb	r6, [r0, #1]
	lsls	r6, r6, #8
	adds	r5, r6, r5
	ldrb	r6, [r0, #2]
	lsls	r6, r6, #16
	mov	r2, r7
	str	r0, [sp, #136]
	ldrb	r7, [r0, #3]
	lsls	r7, r7, #24
	adds	r6, r7, r6
	adds	r5, r6, r5
	lsls	r3, r4, #3
	str	r3, [sp, #148]
	ldr	r0, [sp, #172]
	str	r5, [r0, r3]
	movs	r4, #2
	orrs	r4, r2
	lsls	r5, r4, #4
	ldrb	r6, [r1, r5]
	adds	r5, r1, r5
	ldrb	r7, [r5, #1]
	lsls	r7, r7, #8
	adds	r6, r7, r6
	ldrb	r7, [r5, #2]
	lsls	r7, r7, #16
	ldrb	r3, [r5, #3]
	lsls	r3, r3, #24
	adds	r3, r3, r7
	adds	r3, r3, r6
	lsls	r4, r4, #3
	str	r4, [sp, #152]
	str	r3, [r0, r4]
	str	r2, [sp, #164]
	mov	r3, r2
	ldr	r2, [sp, #124]
	orrs	r3, r2
	lsls	r4, r3, #4
	ldrb	r7, [r1, r4]
	adds	r6, r1, r4
	ldrb	r4, [r6, #1]
	lsls	r4, r4, #8
	adds	r4, r4, r7
	ldrb	r7, [r6, #2]
	lsls	r7, r7, #16
	ldrb	r2, [r6, #3]
	lsls	r2, r2, #24
	adds	r2, r2, r7
	adds	r2, r2, r4
	lsls	r1, r3, #3
	str	r1, [sp, #156]
	str	r2, [r0, r1]
	ldr	r1, [sp, #140]
	ldrb	r2, [r1, #12]
	ldrb	r3, [r1, #13]
	lsls	r3, r3, #8
	adds	r2, r3, r2
	ldrb	r3, [r1, #14]
	lsls	r3, r3, #16
	ldrb	r4, [r1, #15]
	lsls	r4, r4, #24
	adds	r3, r4, r3
	adds	r2, r3, r2
	ldr	r3, [sp, #168]
	mvns	r4, r3
	cmp	r2, #0
	beq	.LBB70_16
	mov	r1, r4
	b	.LBB70_17
.LBB70_16:
	ldrb	r2, [r1, #8]
	ldrb	r3, [r1, #9]
	lsls	r3, r3, #8
	adds	r2, r3, r2
	ldrb	r3, [r1, #10]
	lsls	r3, r3, #16
	ldrb	r1, [r1, #11]
	lsls	r1, r1, #24
	adds	r1, r1, r3
	adds	r1, r1, r2
.LBB70_17:
	ldr	r2, [sp, #172]
	ldr	r3, [sp, #144]
	adds	r2, r2, r3
	str	r1, [r2, #4]
	ldr	r0, [sp, #136]
	ldrb	r1, [r0, #12]
	ldrb	r2, [r0, #13]
	lsls	r2, r2, #8
	adds	r1, r2, r1
	ldrb	r2, [r0, #14]
	lsls	r2, r2, #16
	ldrb	r3, [r0, #15]
	lsls	r3, r3, #24
	adds	r2, r3, r2
	adds	r1, r2, r1
	ldr	r7, [sp, #164]
	beq	.LBB70_19
	mov	r0, r4
	b	.LBB70_20
.LBB70_19:
	ldrb	r1, [r0, #8]
	ldrb	r2, [r0, #9]
	lsls	r2, r2, #8
	adds	r1, r2, r1
	ldrb	r2, [r0, #10]
	lsls	r2, r2, #16
	ldrb	r0, [r0, #11]
	lsls	r0, r0, #24
	adds	r0, r0, r2
	adds	r0, r0, r1
.LBB70_20:
	ldr	r3, [sp, #160]
	ldr	r1, [sp, #172]
	ldr	r2, [sp, #148]
	adds	r1, r1, r2
	str	r0, [r1, #4]
	ldrb	r0, [r5, #12]
	ldrb	r1, [r5, #13]
	lsls	r1, r1, #8
	adds	r0, r1, r0
	ldrb	r1, [r5, #14]
	lsls	r1, r1, #16
	ldrb	r2, [r5, #15]
	lsls	r2, r2, #24
	adds	r1, r2, r1
	adds	r0, r1, r0
	beq	.LBB70_22
	mov	r0, r4
	b	.LBB70_23
.LBB70_22:
	ldrb	r0, [r5, #8]
	ldrb	r1, [r5, #9]
	lsls	r1, r1, #8
	adds	r0, r1, r0
	ldrb	r1, [r5, #10]
	lsls	r1, r1, #16
	ldrb	r2, [r5, #11]
	lsls	r2, r2, #24
	adds	r1, r2, r1
	adds	r0, r1, r0
.LBB70_23:
	ldr	r1, [sp, #172]
	ldr	r2, [sp, #152]
	adds	r1, r1, r2
	str	r0, [r1, #4]
	ldrb	r0, [r6, #12]
	ldrb	r1, [r6, #13]
	lsls	r1, r1, #8
	adds	r0, r1, r0
	ldrb	r1, [r6, #14]
	lsls	r1, r1, #16
	ldrb	r2, [r6, #15]
	lsls	r2, r2, #24
	adds	r1, r2, r1
	adds	r0, r1, r0
	beq	.LBB70_24
	b	.LBB70_13
.LBB70_24:
	ldrb	r0, [r6, #8]
	ldrb	r1, [r6, #9]
	lsls	r1, r1, #8
	adds	r0, r1, r0
	ldrb	r1, [r6, #10]
	lsls	r1, r1, #16
	ldrb	r2, [r6, #11]
	lsls	r2, r2, #24
	adds	r1, r2, r1
	adds	r4, r1, r0
	b	.LBB70_13
.LBB70_25:
	ldr	r0, [sp, #108]
	cmp	r0, #0
	bne	.LBB70_26
	b	.LBB70_38
.LBB70_26:
	lsls	r0, r7, #4
	ldr	r1, [sp, #132]
	ldrb	r2, [r1, r0]
	adds	r1, r1, r0
	ldrb	r0, [r1, #1]
	lsls	r0, r0, #8
	adds	r0, r0, r2
	ldrb	r2, [r1, #2]
	lsls	r2, r2, #16
	ldrb	r3, [r1, #3]
	lsls	r3, r3, #24
	adds	r2, r3, r2
	adds	r3, r2, r0
	lsls	r0, r7, #3
	add	r2, sp, #176
	str	r3, [r2, r0]
	ldrb	r3, [r1, #12]
	ldrb	r4, [r1, #13]
	lsls	r4, r4, #8
	adds	r3, r4, r3
	ldrb	r4, [r1, #14]
	lsls	r4, r4, #16
	ldrb	r5, [r1, #15]
	lsls	r5, r5, #24
	adds	r4, r5, r4
	adds	r3, r4, r3
	beq	.LBB70_28
	ldr	r1, [sp, #100]
	mvns	r1, r1
	b	.LBB70_29
.LBB70_28:
	ldrb	r3, [r1, #8]
	ldrb	r4, [r1, #9]
	lsls	r4, r4, #8
	adds	r3, r4, r3
	ldrb	r4, [r1, #10]
	lsls	r4, r4, #16
	ldrb	r1, [r1, #11]
	lsls	r1, r1, #24
	adds	r1, r1, r4
	adds	r1, r1, r3
.LBB70_29:
	adds	r0, r2, r0
	str	r1, [r0, #4]
	ldr	r0, [sp, #108]
	cmp	r0, #1
	beq	.LBB70_38
	adds	r0, r7, #1
	lsls	r1, r0, #4
	ldr	r3, [sp, #132]
	ldrb	r2, [r3, r1]
	adds	r1, r3, r1
	ldrb	r3, [r1, #1]
	lsls	r3, r3, #8
	adds	r2, r3, r2
	ldrb	r3, [r1, #2]
	lsls	r3, r3, #16
	ldrb	r4, [r1, #3]
	lsls	r4, r4, #24
	adds	r3, r4, r3
	adds	r3, r3, r2
	lsls	r0, r0, #3
	add	r2, sp, #176
	str	r3, [r2, r0]
	ldrb	r3, [r1, #12]
	ldrb	r4, [r1, #13]
	lsls	r4, r4, #8
	adds	r3, r4, r3
	ldrb	r4, [r1, #14]
	lsls	r4, r4, #16
	ldrb	r5, [r1, #15]
	lsls	r5, r5, #24
	adds	r4, r5, r4
	adds	r3, r4, r3
	beq	.LBB70_32
	ldr	r1, [sp, #100]
	mvns	r1, r1
	b	.LBB70_33
.LBB70_32:
	ldrb	r3, [r1, #8]
	ldrb	r4, [r1, #9]
	lsls	r4, r4, #8
	adds	r3, r4, r3
	ldrb	r4, [r1, #10]
	lsls	r4, r4, #16
	ldrb	r1, [r1, #11]
	lsls	r1, r1, #24
	adds	r1, r1, r4
	adds	r1, r1, r3
.LBB70_33:
	adds	r0, r2, r0
	str	r1, [r0, #4]
	ldr	r0, [sp, #108]
	cmp	r0, #2
	beq	.LBB70_38
	adds	r0, r7, #2
	lsls	r1, r0, #4
	ldr	r3, [sp, #132]
	ldrb	r2, [r3, r1]
	adds	r1, r3, r1
	ldrb	r3, [r1, #1]
	lsls	r3, r3, #8
	adds	r2, r3, r2
	ldrb	r3, [r1, #2]
	lsls	r3, r3, #16
	ldrb	r4, [r1, #3]
	lsls	r4, r4, #24
	adds	r3, r4, r3
	adds	r3, r3, r2
	lsls	r0, r0, #3
	add	r2, sp, #176
	str	r3, [r2, r0]
	ldrb	r3, [r1, #12]
	ldrb	r4, [r1, #13]
	lsls	r4, r4, #8
	adds	r3, r4, r3
	ldrb	r4, [r1, #14]
	lsls	r4, r4, #16
	ldrb	r5, [r1, #15]
	lsls	r5, r5, #24
	adds	r4, r5, r4
	adds	r3, r4, r3
	beq	.LBB70_36
	ldr	r1, [sp, #100]
	mvns	r1, r1
	b	.LBB70_37
.LBB70_36:
	ldrb	r3, [r1, #8]
	ldrb	r4, [r1, #9]
	lsls	r4, r4, #8
	adds	r3, r4, r3
	ldrb	r4, [r1, #10]
	lsls	r4, r4, #16
	ldrb	r1, [r1, #11]
	lsls	r1, r1, #24
	adds	r1, r1, r4
	adds	r1, r1, r3
.LBB70_37:
	adds	r0, r2, r0
	str	r1, [r0, #4]
.LBB70_38:
	add	r4, sp, #688
	movs	r5, #0
	movs	r2, #88
	mov	r0, r4
	mov	r1, r5
	bl	tlsf_memory_set
	add	r1, sp, #176
	mov	r0, r4
	ldr	r2, [sp, #116]
	mov	r3, r5
	bl	tlsf_pool.sizes.split.rising_split.4
	ldrb	r0, [r4]
	cmp	r0, #1
	bne	.LBB70_45
	str	r6, [sp, #128]
	add	r1, sp, #688
	adds	r1, #8
	add	r0, sp, #776
	movs	r4, #80
	mov	r2, r4
	bl	tlsf_memory_cpy
	ldr	r2, [sp, #780]
	ldr	r3, [sp, #776]
	mov	r0, r3
	orrs	r0, r2
	add	r6, sp, #896
	cmp	r0, #0
	bne	.LBB70_40
	b	.LBB70_124
.LBB70_40:
	ldr	r0, .LCPI70_7
	ldr	r1, .LCPI70_8
	subs	r1, r1, r3
	sbcs	r0, r2
	ldr	r6, [sp, #116]
	bhs	.LBB70_41
	bl	.LBB70_149
.LBB70_41:
	movs	r0, #165
	mov	r1, r2
	lsls	r2, r0, #3
	mov	r0, r3
	movs	r3, #0
	str	r0, [sp, #20]
	str	r1, [sp, #24]
	str	r2, [sp, #72]
	str	r3, [sp, #164]
	bl	__aeabi_lmul
	mov	r3, r0
	cmp	r1, #0
	beq	.LBB70_43
	ldr	r0, [sp, #164]
	mvns	r3, r0
.LBB70_43:
	add	r0, sp, #880
	movs	r2, #8
	mov	r1, r3
	bl	tlsf_memory_alloc
	ldr	r0, [sp, #880]
	lsls	r0, r0, #31
	ldr	r1, [sp, #24]
	ldr	r2, [sp, #20]
	bne	.LBB70_44
	bl	.LBB70_149
.LBB70_44:
	str	r4, [sp, #88]
	ldr	r3, [sp, #888]
	str	r2, [sp, #872]
	ldr	r7, [sp, #164]
	str	r7, [sp, #868]
	str	r7, [sp, #864]
	str	r7, [sp, #860]
	str	r3, [sp, #92]
	str	r3, [sp, #856]
	str	r1, [sp, #876]
	movs	r1, #3
	str	r1, [sp]
	mvns	r1, r1
	str	r1, [sp, #4]
	add	r1, sp, #776
	adds	r1, #8
	str	r1, [sp, #8]
	add	r1, sp, #176
	str	r1, [sp, #172]
	mov	r4, r7
	mov	r3, r7
	mov	r5, r7
	b	.LBB70_48
.LBB70_45:
	ldr	r0, [sp, #112]
.LBB70_46:
	add	sp, #508
	add	sp, #392
	pop	{r4, r5, r6, r7, pc}
.LBB70_47:
	ldr	r5, [sp, #132]
	adds	r5, r5, #1
	ldr	r0, [sp, #40]
	adcs	r7, r0
	ldr	r0, [sp, #148]
	subs	r6, r6, r0
	ldr	r3, [sp, #84]
	ldr	r1, [sp, #160]
	sbcs	r3, r1
	lsls	r0, r0, #3
	ldr	r1, [sp, #172]
	adds	r1, r1, r0
	str	r1, [sp, #172]
	ldr	r2, [sp, #20]
	subs	r0, r5, r2
	mov	r0, r7
	ldr	r1, [sp, #24]
	sbcs	r0, r1
	ldr	r0, [sp, #76]
	str	r0, [sp, #164]
	ldr	r4, [sp, #168]
	blo	.LBB70_48
	bl	.LBB70_132
.LBB70_48:
	str	r7, [sp, #80]
	str	r5, [sp, #132]
	mvns	r0, r5
	adds	r0, r2, r0
	lsls	r1, r0, #3
	ldr	r2, [sp, #8]
	adds	r0, r2, r1
	ldr	r0, [r0, #4]
	ldr	r1, [r2, r1]
	subs	r2, r6, r1
	mov	r2, r3
	sbcs	r2, r0
	mov	r7, r6
	blo	.LBB70_50
	mov	r7, r1
.LBB70_50:
	str	r3, [sp, #84]
	mov	r5, r3
	blo	.LBB70_52
	mov	r5, r0
.LBB70_52:
	ldr	r0, [sp, #172]
	mov	r2, r7
	mov	r3, r5
	bl	tlsf_pool.sizes.region.region_words.4
	uxtb	r0, r0
	cmp	r0, #1
	beq	.LBB70_53
	bl	.LBB70_151
.LBB70_53:
	mov	r3, r1
	ldr	r0, [sp, #104]
	ldr	r1, [sp, #132]
	adds	r0, r0, r1
	str	r0, [sp, #136]
	ldr	r2, .LCPI70_9
	adds	r0, r2, r3
	subs	r1, r0, #4
	movs	r0, #0
	cmp	r1, r2
	ldr	r1, [sp, #128]
	blo	.LBB70_55
	mov	r1, r0
.LBB70_55:
	bhs	.LBB70_56
	b	.LBB70_129
.LBB70_56:
	str	r1, [sp, #60]
	str	r4, [sp, #168]
	lsls	r1, r3, #3
	add	r0, sp, #880
	movs	r2, #8
	mov	r4, r3
	bl	tlsf_memory_alloc
	ldr	r0, [sp, #880]
	lsls	r0, r0, #31
	bne	.LBB70_57
	b	.LBB70_130
.LBB70_57:
	str	r5, [sp, #160]
	ldr	r5, [sp, #888]
	movs	r0, #0
	str	r0, [r5]
	str	r0, [r5, #4]
	str	r0, [r5, #8]
	str	r0, [r5, #12]
	str	r0, [r5, #16]
	str	r0, [r5, #20]
	str	r0, [r5, #24]
	str	r0, [sp, #16]
	str	r0, [r5, #28]
	str	r4, [sp, #152]
	adds	r4, #63
	lsrs	r0, r4, #6
	str	r0, [sp, #156]
	lsls	r1, r0, #3
	add	r0, sp, #880
	movs	r4, #8
	mov	r2, r4
	bl	tlsf_memory_alloc
	ldr	r0, [sp, #880]
	lsls	r0, r0, #31
	bne	.LBB70_58
	b	.LBB70_131
.LBB70_58:
	str	r7, [sp, #148]
	str	r6, [sp, #116]
	ldr	r1, [sp, #888]
	movs	r6, #0
	str	r6, [r1]
	str	r6, [r5, #8]
	movs	r0, #19
	str	r0, [r5]
	str	r6, [r1, #4]
	ldr	r0, [r1]
	movs	r2, #1
	str	r2, [sp, #120]
	orrs	r0, r2
	str	r1, [sp, #140]
	str	r0, [r1]
	mvns	r0, r6
	str	r0, [r5, #4]
	str	r6, [r5, #12]
	str	r0, [r5, #16]
	str	r0, [r5, #20]
	ldr	r0, [sp, #872]
	ldr	r2, [sp, #164]
	eors	r0, r2
	ldr	r1, [sp, #876]
	ldr	r3, [sp, #168]
	eors	r1, r3
	orrs	r1, r0
	bne	.LBB70_59
	b	.LBB70_118
.LBB70_59:
	str	r6, [sp, #144]
	str	r3, [sp, #168]
	str	r2, [sp, #76]
	str	r4, [sp, #64]
	ldr	r0, [sp, #72]
	muls	r0, r2, r0
	ldr	r1, [sp, #92]
	ldr	r4, [sp, #136]
	strb	r4, [r1, r0]
	adds	r7, r1, r0
	movs	r0, #68
	strb	r6, [r7, r0]
	movs	r0, #64
	ldr	r1, [sp, #156]
	strb	r1, [r7, r0]
	movs	r0, #60
	strb	r6, [r7, r0]
	movs	r0, #56
	ldr	r2, [sp, #120]
	strb	r2, [r7, r0]
	movs	r0, #44
	strb	r6, [r7, r0]
	movs	r0, #40
	ldr	r1, [sp, #152]
	strb	r1, [r7, r0]
	movs	r0, #36
	strb	r6, [r7, r0]
	movs	r0, #32
	movs	r1, #4
	str	r1, [sp, #100]
	strb	r1, [r7, r0]
	movs	r3, #84
	movs	r0, #16
	str	r0, [sp, #124]
	strb	r0, [r7, r3]
	ldr	r0, [sp, #88]
	strb	r2, [r7, r0]
	movs	r0, #76
	strb	r6, [r7, r0]
	movs	r0, #72
	strb	r1, [r7, r0]
	movs	r0, #52
	strb	r6, [r7, r0]
	movs	r0, #48
	ldr	r1, [sp, #140]
	strb	r1, [r7, r0]
	strb	r6, [r7, #15]
	strb	r6, [r7, #14]
	strb	r6, [r7, #13]
	strb	r6, [r7, #12]
	strb	r6, [r7, #11]
	strb	r6, [r7, #10]
	strb	r6, [r7, #9]
	strb	r2, [r7, #8]
	strb	r6, [r7, #31]
	strb	r6, [r7, #30]
	strb	r6, [r7, #29]
	strb	r6, [r7, #28]
	lsrs	r0, r5, #24
	strb	r0, [r7, #27]
	lsrs	r0, r5, #16
	strb	r0, [r7, #26]
	lsrs	r0, r5, #8
	strb	r0, [r7, #25]
	strb	r5, [r7, #24]
	strb	r6, [r7, #23]
	strb	r6, [r7, #22]
	strb	r6, [r7, #21]
	strb	r6, [r7, #20]
	strb	r6, [r7, #19]
	strb	r6, [r7, #18]
	strb	r6, [r7, #17]
	strb	r6, [r7, #16]
	lsrs	r0, r4, #24
	strb	r0, [r7, #3]
	lsrs	r0, r4, #16
	strb	r0, [r7, #2]
	lsrs	r0, r4, #8
	strb	r0, [r7, #1]
	mov	r0, r7
	adds	r0, #68
	strb	r6, [r0, #3]
	strb	r6, [r0, #2]
	strb	r6, [r0, #1]
	mov	r0, r7
	adds	r0, #64
	ldr	r2, [sp, #156]
	lsrs	r1, r2, #24
	strb	r1, [r0, #3]
	lsrs	r1, r2, #16
	strb	r1, [r0, #2]
	lsrs	r1, r2, #8
	strb	r1, [r0, #1]
	mov	r0, r7
	adds	r0, #60
	strb	r6, [r0, #3]
	strb	r6, [r0, #2]
	strb	r6, [r0, #1]
	mov	r0, r7
	adds	r0, #56
	strb	r6, [r0, #3]
	strb	r6, [r0, #2]
	strb	r6, [r0, #1]
	mov	r0, r7
	adds	r0, #44
	strb	r6, [r0, #3]
	strb	r6, [r0, #2]
	strb	r6, [r0, #1]
	mov	r0, r7
	adds	r0, #40
	ldr	r3, [sp, #152]
	lsrs	r1, r3, #24
	strb	r1, [r0, #3]
	lsrs	r1, r3, #16
	strb	r1, [r0, #2]
	lsrs	r1, r3, #8
	strb	r1, [r0, #1]
	mov	r0, r7
	adds	r0, #36
	strb	r6, [r0, #3]
	strb	r6, [r0, #2]
	strb	r6, [r0, #1]
	mov	r0, r7
	adds	r0, #32
	strb	r6, [r0, #3]
	strb	r6, [r0, #2]
	strb	r6, [r0, #1]
	mov	r0, r7
	adds	r0, #84
	strb	r6, [r0, #3]
	strb	r6, [r0, #2]
	strb	r6, [r0, #1]
	mov	r0, r7
	adds	r0, #80
	strb	r6, [r0, #3]
	strb	r6, [r0, #2]
	strb	r6, [r0, #1]
	mov	r0, r7
	adds	r0, #76
	strb	r6, [r0, #3]
	strb	r6, [r0, #2]
	strb	r6, [r0, #1]
	mov	r0, r7
	adds	r0, #72
	strb	r6, [r0, #3]
	strb	r6, [r0, #2]
	strb	r6, [r0, #1]
	mov	r0, r7
	adds	r0, #52
	strb	r6, [r0, #3]
	strb	r6, [r0, #2]
	strb	r6, [r0, #1]
	mov	r0, r7
	adds	r0, #48
	ldr	r2, [sp, #140]
	lsrs	r1, r2, #24
	strb	r1, [r0, #3]
	lsrs	r1, r2, #16
	strb	r1, [r0, #2]
	lsrs	r1, r2, #8
	strb	r1, [r0, #1]
	mov	r0, r7
	adds	r0, #88
	mov	r1, r6
	ldr	r2, [sp, #88]
	bl	tlsf_memory_set
	mov	r0, r7
	adds	r0, #168
	movs	r5, #255
	mov	r1, r5
	ldr	r2, [sp, #124]
	bl	tlsf_memory_set
	movs	r0, #184
	strb	r6, [r7, r0]
	mov	r0, r7
	adds	r0, #184
	strb	r6, [r0, #3]
	strb	r6, [r0, #2]
	strb	r6, [r0, #1]
	mov	r0, r7
	adds	r0, #188
	movs	r1, #67
	lsls	r2, r1, #4
	mov	r1, r5
	bl	tlsf_memory_set
	movs	r0, #79
	lsls	r0, r0, #4
	add	r5, sp, #896
	strb	r5, [r7, r0]
	str	r0, [sp, #120]
	adds	r0, r7, r0
	lsrs	r1, r5, #24
	str	r1, [sp, #140]
	strb	r1, [r0, #3]
	ldr	r4, [sp, #168]
	lsrs	r1, r5, #16
	str	r1, [sp, #136]
	strb	r1, [r0, #2]
	lsrs	r1, r5, #8
	str	r1, [sp, #68]
	strb	r1, [r0, #1]
	ldr	r0, .LCPI70_10
	adds	r0, r7, r0
	movs	r2, #20
	str	r2, [sp, #156]
	mov	r1, r6
	bl	tlsf_memory_set
	movs	r0, #81
	lsls	r2, r0, #4
	strb	r5, [r7, r2]
	ldr	r1, .LCPI70_11
	strb	r6, [r7, r1]
	movs	r0, #161
	lsls	r3, r0, #3
	ldr	r0, [sp, #100]
	strb	r0, [r7, r3]
	str	r2, [sp, #108]
	adds	r0, r7, r2
	ldr	r2, [sp, #140]
	strb	r2, [r0, #3]
	ldr	r2, [sp, #136]
	strb	r2, [r0, #2]
	ldr	r2, [sp, #68]
	strb	r2, [r0, #1]
	adds	r0, r7, r1
	strb	r6, [r0, #3]
	strb	r6, [r0, #2]
	strb	r6, [r0, #1]
	str	r3, [sp, #100]
	adds	r0, r7, r3
	strb	r6, [r0, #3]
	strb	r6, [r0, #2]
	strb	r6, [r0, #1]
	ldr	r0, .LCPI70_12
	adds	r0, r7, r0
	mov	r1, r6
	ldr	r2, [sp, #156]
	bl	tlsf_memory_set
	ldr	r0, [sp, #76]
	adds	r0, r0, #1
	adcs	r4, r6
	str	r4, [sp, #168]
	str	r4, [sp, #868]
	str	r0, [sp, #76]
	str	r0, [sp, #864]
	ldr	r7, [sp, #148]
	mov	r0, r7
	ldr	r2, [sp, #160]
	orrs	r0, r2
	beq	.LBB70_66
	movs	r4, #0
	ldr	r0, [sp, #4]
	adds	r0, r0, #4
	ldr	r1, .LCPI70_13
	adcs	r1, r4
	subs	r0, r7, r0
	mov	r0, r2
	sbcs	r0, r1
	blo	.LBB70_61
	b	.LBB70_128
.LBB70_61:
	lsrs	r0, r7, #29
	lsls	r1, r2, #3
	adds	r5, r1, r0
	lsls	r1, r7, #3
	cmp	r5, #0
	mov	r6, r1
	beq	.LBB70_63
	mvns	r1, r4
.LBB70_63:
	add	r0, sp, #880
	movs	r2, #4
	bl	tlsf_memory_alloc
	ldr	r0, [sp, #880]
	lsls	r0, r0, #31
	bne	.LBB70_64
	b	.LBB70_128
.LBB70_64:
	ldr	r3, [sp, #888]
	ldr	r0, [sp, #172]
	subs	r0, r3, r0
	mov	r1, r4
	sbcs	r1, r4
	subs	r0, r0, r6
	sbcs	r1, r5
	ldr	r5, [sp, #160]
	str	r3, [sp, #156]
	mov	r0, r3
	ldr	r1, [sp, #172]
	mov	r2, r6
	bl	tlsf_memory_cpy
	lsrs	r0, r7, #30
	lsls	r1, r5, #2
	adds	r0, r1, r0
	beq	.LBB70_74
	mvns	r1, r4
	b	.LBB70_75
.LBB70_66:
	ldr	r4, [sp, #144]
	str	r4, [sp, #68]
	str	r4, [sp, #136]
	str	r5, [sp, #140]
	b	.LBB70_108
	.p2align	2
.LCPI70_7:
	.long	1626881
	.p2align	2
.LCPI70_8:
	.long	2368739539
	.p2align	2
.LCPI70_9:
	.long	4293918723
	.p2align	2
.LCPI70_10:
	.long	1268
	.p2align	2
.LCPI70_11:
	.long	1292
	.p2align	2
.LCPI70_12:
	.long	1300
	.p2align	2
.LCPI70_13:
	.long	268435455
	.p2align	1
.LBB70_74:
	lsls	r1, r7, #2
.LBB70_75:
	add	r0, sp, #880
	movs	r2, #4
	bl	tlsf_memory_alloc
	ldr	r0, [sp, #880]
	lsls	r0, r0, #31
	bne	.LBB70_76
	b	.LBB70_133
.LBB70_76:
	ldr	r1, [sp, #888]
	subs	r6, r7, #1
	mov	r2, r5
	sbcs	r2, r4
	mov	r0, r6
	str	r2, [sp, #136]
	orrs	r0, r2
	str	r1, [sp, #140]
	beq	.LBB70_78
	lsls	r0, r7, #2
	subs	r2, r0, #4
	movs	r1, #0
	ldr	r0, [sp, #140]
	bl	tlsf_memory_set
	ldr	r1, [sp, #140]
	b	.LBB70_79
.LBB70_78:
	mov	r6, r4
	str	r4, [sp, #136]
.LBB70_79:
	lsls	r0, r6, #2
	str	r4, [r1, r0]
	mov	r5, r7
	ldr	r1, [sp]
	ands	r5, r1
	subs	r1, r7, #4
	ldr	r0, [sp, #160]
	mov	r1, r0
	sbcs	r1, r4
	mov	r1, r4
	blo	.LBB70_95
	str	r5, [sp, #60]
	str	r6, [sp, #68]
	mov	r2, r7
	ldr	r1, [sp, #4]
	ands	r2, r1
	mov	r3, r0
	ldr	r1, .LCPI70_14
	ands	r3, r1
	movs	r4, #0
	mov	r1, r4
	mov	r5, r4
	b	.LBB70_83
.LBB70_81:
	mov	r4, r7
.LBB70_82:
	movs	r6, #0
	adds	r1, r1, #4
	adcs	r5, r6
	mov	r6, r5
	eors	r6, r3
	mov	r7, r1
	eors	r7, r2
	orrs	r7, r6
	beq	.LBB70_94
.LBB70_83:
	lsls	r7, r1, #3
	ldr	r0, [sp, #172]
	adds	r6, r0, r7
	ldr	r7, [r0, r7]
	cmp	r7, #0
	beq	.LBB70_85
	ldr	r7, [r6, #4]
	cmp	r7, r4
	bhi	.LBB70_86
.LBB70_85:
	mov	r7, r4
.LBB70_86:
	ldr	r4, [r6, #8]
	cmp	r4, #0
	beq	.LBB70_88
	ldr	r4, [r6, #12]
	cmp	r4, r7
	bhi	.LBB70_89
.LBB70_88:
	mov	r4, r7
.LBB70_89:
	ldr	r7, [r6, #16]
	cmp	r7, #0
	beq	.LBB70_91
	ldr	r7, [r6, #20]
	cmp	r7, r4
	bhi	.LBB70_92
.LBB70_91:
	mov	r7, r4
.LBB70_92:
	ldr	r4, [r6, #24]
	cmp	r4, #0
	beq	.LBB70_81
	ldr	r4, [r6, #28]
	cmp	r4, r7
	bls	.LBB70_81
	b	.LBB70_82
.LBB70_94:
	ldr	r5, [sp, #60]
	cmp	r5, #0
	ldr	r6, [sp, #68]
	beq	.LBB70_107
.LBB70_95:
	lsls	r2, r1, #3
	ldr	r0, [sp, #172]
	adds	r1, r0, r2
	ldr	r2, [r0, r2]
	cmp	r2, #0
	beq	.LBB70_97
	ldr	r2, [r1, #4]
	cmp	r2, r4
	bhi	.LBB70_98
.LBB70_97:
	mov	r2, r4
.LBB70_98:
	cmp	r5, #1
	bne	.LBB70_100
	mov	r4, r2
	b	.LBB70_107
.LBB70_100:
	mov	r0, r5
	ldr	r3, [r1, #8]
	cmp	r3, #0
	beq	.LBB70_102
	ldr	r3, [r1, #12]
	cmp	r3, r2
	bhi	.LBB70_103
.LBB70_102:
	mov	r3, r2
.LBB70_103:
	cmp	r0, #2
	beq	.LBB70_106
	ldr	r0, [r1, #16]
	cmp	r0, #0
	beq	.LBB70_106
	ldr	r4, [r1, #20]
	cmp	r4, r3
	bhi	.LBB70_107
.LBB70_106:
	mov	r4, r3
.LBB70_107:
	movs	r0, #0
	adds	r1, r6, #1
	str	r1, [sp, #68]
	ldr	r1, [sp, #136]
	adcs	r1, r0
	str	r1, [sp, #136]
	ldr	r5, [sp, #156]
.LBB70_108:
	adds	r0, r4, #1
	ldr	r1, [sp, #144]
	adcs	r1, r1
	cmp	r4, #0
	beq	.LBB70_110
	mov	r0, r4
.LBB70_110:
	str	r5, [sp, #156]
	beq	.LBB70_112
	ldr	r1, [sp, #144]
.LBB70_112:
	adds	r0, #31
	ldr	r2, [sp, #144]
	adcs	r1, r2
	lsrs	r0, r0, #3
	lsls	r1, r1, #29
	adds	r4, r0, r1
	ldr	r0, [sp, #124]
	orrs	r0, r4
	bl	__clzsi2
	movs	r1, #27
	subs	r1, r1, r0
	subs	r0, r4, #1
	lsrs	r0, r1
	adds	r0, r0, #1
	lsls	r1, r1, #4
	adds	r4, r0, r1
	lsrs	r1, r4, #4
	beq	.LBB70_114
	ldr	r3, [sp, #64]
	lsls	r3, r1
	movs	r2, #15
	ands	r0, r2
	subs	r1, r1, #1
	lsls	r0, r1
	adds	r4, r0, r3
.LBB70_114:
	ldr	r0, [sp, #72]
	ldr	r1, [sp, #164]
	muls	r1, r0, r1
	ldr	r0, [sp, #92]
	adds	r7, r0, r1
	mov	r0, r7
	ldr	r1, [sp, #152]
	str	r4, [sp, #124]
	bl	tlsf_heap.heap.Heap.begin.4
	movs	r0, #163
	lsls	r1, r0, #3
	ldr	r5, [sp, #68]
	strb	r5, [r7, r1]
	movs	r0, #159
	lsls	r0, r0, #3
	ldr	r6, [sp, #148]
	strb	r6, [r7, r0]
	movs	r3, #0
	ldr	r2, .LCPI70_15
	strb	r3, [r7, r2]
	ldr	r2, .LCPI70_16
	strb	r3, [r7, r2]
	ldr	r2, [sp, #100]
	strb	r4, [r7, r2]
	mov	r4, r3
	ldr	r2, .LCPI70_17
	strb	r3, [r7, r2]
	movs	r2, #41
	lsls	r3, r2, #5
	str	r3, [sp, #144]
	ldrb	r2, [r7, r3]
	str	r2, [sp, #164]
	strb	r6, [r7, r3]
	movs	r2, #5
	lsls	r3, r2, #8
	str	r3, [sp, #60]
	ldrb	r2, [r7, r3]
	str	r2, [sp, #152]
	strb	r6, [r7, r3]
	ldr	r3, [sp, #108]
	ldrb	r2, [r7, r3]
	str	r2, [sp, #16]
	ldr	r2, [sp, #140]
	strb	r2, [r7, r3]
	ldr	r3, [sp, #120]
	ldrb	r2, [r7, r3]
	str	r2, [sp, #12]
	ldr	r2, [sp, #156]
	strb	r2, [r7, r3]
	adds	r1, r7, r1
	ldr	r3, [sp, #136]
	lsrs	r2, r3, #24
	strb	r2, [r1, #7]
	lsrs	r2, r3, #16
	strb	r2, [r1, #6]
	lsrs	r2, r3, #8
	strb	r2, [r1, #5]
	strb	r3, [r1, #4]
	lsrs	r2, r5, #24
	strb	r2, [r1, #3]
	lsrs	r2, r5, #16
	strb	r2, [r1, #2]
	lsrs	r2, r5, #8
	strb	r2, [r1, #1]
	adds	r0, r7, r0
	ldr	r1, [sp, #160]
	lsrs	r2, r1, #24
	str	r2, [sp, #48]
	strb	r2, [r0, #7]
	lsrs	r2, r1, #16
	str	r2, [sp, #36]
	strb	r2, [r0, #6]
	lsrs	r2, r1, #8
	str	r2, [sp, #44]
	strb	r2, [r0, #5]
	strb	r1, [r0, #4]
	lsrs	r2, r6, #24
	strb	r2, [r0, #3]
	str	r2, [sp, #32]
	lsrs	r3, r6, #16
	str	r3, [sp, #52]
	strb	r3, [r0, #2]
	lsrs	r3, r6, #8
	strb	r3, [r0, #1]
	str	r3, [sp, #28]
	ldr	r0, .LCPI70_15
	adds	r0, r7, r0
	strb	r4, [r0, #3]
	strb	r4, [r0, #2]
	strb	r4, [r0, #1]
	ldr	r0, .LCPI70_16
	adds	r0, r7, r0
	strb	r4, [r0, #3]
	strb	r4, [r0, #2]
	strb	r4, [r0, #1]
	ldr	r0, [sp, #100]
	adds	r0, r7, r0
	ldr	r5, [sp, #124]
	lsrs	r6, r5, #24
	strb	r6, [r0, #3]
	lsrs	r6, r5, #16
	strb	r6, [r0, #2]
	lsrs	r5, r5, #8
	strb	r5, [r0, #1]
	ldr	r0, .LCPI70_17
	adds	r0, r7, r0
	strb	r4, [r0, #3]
	strb	r4, [r0, #2]
	str	r4, [sp, #40]
	strb	r4, [r0, #1]
	ldr	r0, [sp, #144]
	adds	r0, r7, r0
	ldrb	r5, [r0, #2]
	str	r5, [sp, #144]
	ldr	r4, [sp, #52]
	strb	r4, [r0, #2]
	ldrb	r5, [r0, #3]
	str	r5, [sp, #136]
	strb	r2, [r0, #3]
	ldrb	r5, [r0, #1]
	str	r5, [sp, #124]
	strb	r3, [r0, #1]
	ldrb	r5, [r0, #6]
	str	r5, [sp, #100]
	ldr	r2, [sp, #36]
	strb	r2, [r0, #6]
	ldrb	r5, [r0, #7]
	str	r5, [sp, #68]
	ldr	r6, [sp, #48]
	strb	r6, [r0, #7]
	ldrb	r5, [r0, #4]
	str	r5, [sp, #64]
	strb	r1, [r0, #4]
	ldrb	r5, [r0, #5]
	str	r5, [sp, #56]
	ldr	r5, [sp, #44]
	strb	r5, [r0, #5]
	ldr	r0, [sp, #60]
	adds	r0, r7, r0
	ldrb	r3, [r0, #2]
	str	r3, [sp, #60]
	strb	r4, [r0, #2]
	ldrb	r3, [r0, #3]
	str	r3, [sp, #52]
	ldr	r3, [sp, #32]
	strb	r3, [r0, #3]
	ldrb	r4, [r0, #1]
	ldr	r3, [sp, #28]
	strb	r3, [r0, #1]
	ldrb	r3, [r0, #6]
	str	r3, [sp, #32]
	strb	r2, [r0, #6]
	ldrb	r2, [r0, #7]
	strb	r6, [r0, #7]
	ldrb	r6, [r0, #4]
	strb	r1, [r0, #4]
	ldrb	r3, [r0, #5]
	strb	r5, [r0, #5]
	ldr	r0, [sp, #108]
	adds	r0, r7, r0
	ldrb	r1, [r0, #2]
	str	r1, [sp, #108]
	ldr	r1, [sp, #140]
	lsrs	r5, r1, #16
	strb	r5, [r0, #2]
	ldrb	r5, [r0, #3]
	str	r5, [sp, #48]
	lsrs	r5, r1, #24
	strb	r5, [r0, #3]
	ldrb	r5, [r0, #1]
	str	r5, [sp, #44]
	lsrs	r5, r1, #8
	strb	r5, [r0, #1]
	ldr	r0, [sp, #120]
	adds	r5, r7, r0
	ldrb	r0, [r5, #2]
	str	r0, [sp, #140]
	ldr	r1, [sp, #156]
	lsrs	r0, r1, #16
	strb	r0, [r5, #2]
	ldrb	r0, [r5, #3]
	str	r0, [sp, #120]
	lsrs	r0, r1, #24
	strb	r0, [r5, #3]
	ldrb	r0, [r5, #1]
	lsrs	r7, r1, #8
	strb	r7, [r5, #1]
	lsls	r3, r3, #8
	adds	r3, r3, r6
	ldr	r1, [sp, #32]
	lsls	r1, r1, #16
	lsls	r2, r2, #24
	adds	r1, r2, r1
	adds	r1, r1, r3
	lsls	r2, r4, #8
	ldr	r3, [sp, #152]
	adds	r2, r2, r3
	ldr	r3, [sp, #60]
	lsls	r3, r3, #16
	ldr	r5, [sp, #52]
	lsls	r5, r5, #24
	adds	r3, r5, r3
	adds	r2, r3, r2
	orrs	r2, r1
	beq	.LBB70_116
	lsls	r0, r0, #8
	ldr	r1, [sp, #12]
	adds	r0, r0, r1
	ldr	r1, [sp, #140]
	lsls	r1, r1, #16
	ldr	r2, [sp, #120]
	lsls	r2, r2, #24
	adds	r1, r2, r1
	adds	r0, r1, r0
	bl	tlsf_memory_dealloc
.LBB70_116:
	ldr	r0, [sp, #56]
	lsls	r0, r0, #8
	ldr	r1, [sp, #64]
	adds	r0, r0, r1
	ldr	r1, [sp, #100]
	lsls	r1, r1, #16
	ldr	r2, [sp, #68]
	lsls	r2, r2, #24
	adds	r1, r2, r1
	adds	r0, r1, r0
	ldr	r1, [sp, #124]
	lsls	r1, r1, #8
	ldr	r2, [sp, #164]
	adds	r1, r1, r2
	ldr	r2, [sp, #144]
	lsls	r2, r2, #16
	ldr	r3, [sp, #136]
	lsls	r3, r3, #24
	adds	r2, r3, r2
	adds	r1, r2, r1
	orrs	r1, r0
	ldr	r6, [sp, #116]
	ldr	r7, [sp, #80]
	bne	.LBB70_117
	b	.LBB70_47
.LBB70_117:
	ldr	r0, [sp, #44]
	lsls	r0, r0, #8
	ldr	r1, [sp, #16]
	adds	r0, r0, r1
	ldr	r1, [sp, #108]
	lsls	r1, r1, #16
	ldr	r2, [sp, #48]
	lsls	r2, r2, #24
	adds	r1, r2, r1
	adds	r0, r1, r0
	bl	tlsf_memory_dealloc
	b	.LBB70_47
.LBB70_118:
	add	r0, sp, #856
	bl	std_alloc.vec.Vec.grow_amortized.8f83c87fc5454f35
	cmp	r0, #0
	bne	.LBB70_119
	b	.LBB70_150
.LBB70_119:
	ldr	r3, [sp, #868]
	ldr	r2, [sp, #864]
	ldr	r0, [sp, #856]
	str	r0, [sp, #92]
	b	.LBB70_59
	.p2align	2
.LCPI70_14:
	.long	268435455
	.p2align	2
.LCPI70_15:
	.long	1300
	.p2align	2
.LCPI70_16:
	.long	1292
	.p2align	2
.LCPI70_17:
	.long	1268
	.p2align	1
.LBB70_124:
	str	r5, [sp, #172]
	mov	r7, r5
	mov	r4, r5
	str	r5, [sp, #168]
.LBB70_125:
	movs	r0, #165
	lsls	r1, r0, #3
	subs	r1, #32
	add	r0, sp, #688
	movs	r2, #8
	bl	tlsf_memory_alloc
	ldr	r0, [sp, #688]
	lsls	r0, r0, #31
	beq	.LBB70_127
	ldr	r0, [sp, #696]
	movs	r1, #32
	strb	r7, [r0, r1]
	movs	r1, #44
	strb	r5, [r0, r1]
	movs	r1, #40
	ldr	r2, [sp, #172]
	strb	r2, [r0, r1]
	movs	r1, #36
	strb	r4, [r0, r1]
	str	r4, [sp, #164]
	movs	r4, #0
	strb	r4, [r0, #23]
	strb	r4, [r0, #22]
	strb	r4, [r0, #21]
	strb	r4, [r0, #20]
	ldr	r2, [sp, #104]
	strb	r2, [r0, #16]
	strb	r4, [r0, #15]
	strb	r4, [r0, #14]
	strb	r4, [r0, #13]
	strb	r4, [r0, #12]
	strb	r4, [r0, #11]
	strb	r4, [r0, #10]
	strb	r4, [r0, #9]
	strb	r4, [r0, #8]
	mov	r1, r6
	str	r6, [sp, #156]
	ldr	r6, [sp, #168]
	strb	r6, [r0, #28]
	strb	r1, [r0, #24]
	movs	r1, #1
	str	r1, [sp, #160]
	strb	r1, [r0, #1]
	strb	r1, [r0]
	mov	r3, r0
	adds	r3, #32
	lsrs	r1, r7, #24
	strb	r1, [r3, #3]
	lsrs	r1, r7, #16
	strb	r1, [r3, #2]
	lsrs	r1, r7, #8
	strb	r1, [r3, #1]
	lsrs	r1, r2, #24
	strb	r1, [r0, #19]
	lsrs	r1, r2, #16
	strb	r1, [r0, #18]
	lsrs	r1, r2, #8
	strb	r1, [r0, #17]
	mov	r1, r0
	adds	r1, #44
	lsrs	r2, r5, #24
	strb	r2, [r1, #3]
	lsrs	r2, r5, #16
	strb	r2, [r1, #2]
	lsrs	r2, r5, #8
	strb	r2, [r1, #1]
	mov	r1, r0
	adds	r1, #40
	ldr	r3, [sp, #172]
	lsrs	r2, r3, #24
	strb	r2, [r1, #3]
	lsrs	r2, r3, #16
	strb	r2, [r1, #2]
	lsrs	r2, r3, #8
	strb	r2, [r1, #1]
	lsrs	r1, r6, #24
	strb	r1, [r0, #31]
	lsrs	r1, r6, #16
	strb	r1, [r0, #30]
	lsrs	r1, r6, #8
	strb	r1, [r0, #29]
	ldr	r2, [sp, #156]
	lsrs	r1, r2, #24
	strb	r1, [r0, #27]
	lsrs	r1, r2, #16
	strb	r1, [r0, #26]
	lsrs	r1, r2, #8
	strb	r1, [r0, #25]
	mov	r1, r0
	adds	r1, #36
	ldr	r3, [sp, #164]
	lsrs	r2, r3, #24
	strb	r2, [r1, #3]
	lsrs	r2, r3, #16
	strb	r2, [r1, #2]
	lsrs	r2, r3, #8
	strb	r2, [r1, #1]
	ldr	r2, [sp, #96]
	strb	r4, [r2, #7]
	strb	r4, [r2, #6]
	strb	r4, [r2, #5]
	strb	r4, [r2, #4]
	lsrs	r1, r0, #24
	strb	r1, [r2, #3]
	lsrs	r1, r0, #16
	strb	r1, [r2, #2]
	lsrs	r1, r0, #8
	strb	r1, [r2, #1]
	strb	r0, [r2]
	mov	r0, r4
	strb	r4, [r2, #9]
	ldr	r1, [sp, #160]
	strb	r1, [r2, #8]
	strb	r4, [r2, #10]
	strb	r4, [r2, #11]
	strb	r4, [r2, #12]
	strb	r4, [r2, #13]
	strb	r4, [r2, #14]
	strb	r4, [r2, #15]
	bl	.LBB70_46
.LBB70_127:
	str	r5, [sp, #196]
	ldr	r0, [sp, #172]
	str	r0, [sp, #192]
	str	r7, [sp, #184]
	ldr	r0, [sp, #168]
	str	r0, [sp, #180]
	str	r6, [sp, #176]
	str	r4, [sp, #188]
	add	r0, sp, #176
	bl	std_alloc.vec.Vec.drop.01e19ae241269710
	movs	r0, #6
	bl	.LBB70_46
.LBB70_128:
	ldr	r0, [sp, #60]
	str	r0, [sp, #16]
	ldr	r0, [sp, #76]
	str	r0, [sp, #164]
	ldr	r4, [sp, #168]
	b	.LBB70_135
.LBB70_129:
	str	r1, [sp, #16]
	b	.LBB70_135
.LBB70_130:
	ldr	r0, [sp, #60]
	str	r0, [sp, #16]
	ldr	r4, [sp, #168]
	b	.LBB70_135
.LBB70_131:
	mov	r0, r5
	ldr	r4, [sp, #168]
	b	.LBB70_134
.LBB70_132:
	ldr	r4, [sp, #868]
	ldr	r7, [sp, #864]
	ldr	r5, [sp, #876]
	ldr	r0, [sp, #872]
	str	r0, [sp, #172]
	ldr	r0, [sp, #860]
	str	r0, [sp, #168]
	ldr	r6, [sp, #856]
	b	.LBB70_125
.LBB70_133:
	ldr	r0, [sp, #76]
	str	r0, [sp, #164]
	ldr	r4, [sp, #168]
	ldr	r0, [sp, #156]
.LBB70_134:
	bl	tlsf_memory_dealloc
.LBB70_135:
	ldr	r0, [sp, #164]
	str	r4, [sp, #168]
	orrs	r0, r4
	ldr	r0, [sp, #876]
	str	r0, [sp, #12]
	ldr	r0, [sp, #872]
	str	r0, [sp, #8]
	ldr	r0, [sp, #856]
	str	r0, [sp, #20]
	bne	.LBB70_136
	b	.LBB70_146
.LBB70_136:
	movs	r4, #0
	mov	r7, r4
	b	.LBB70_138
.LBB70_137:
	movs	r0, #0
	adds	r7, r7, #1
	adcs	r4, r0
	ldr	r0, [sp, #164]
	subs	r0, r7, r0
	mov	r0, r4
	ldr	r1, [sp, #168]
	sbcs	r0, r1
	blo	.LBB70_138
	b	.LBB70_146
.LBB70_138:
	ldr	r0, [sp, #72]
	muls	r0, r7, r0
	ldr	r1, [sp, #20]
	adds	r0, r1, r0
	movs	r1, #44
	ldrb	r1, [r0, r1]
	mov	r2, r0
	adds	r2, #44
	ldrb	r3, [r2, #1]
	lsls	r3, r3, #8
	adds	r1, r3, r1
	ldrb	r3, [r2, #2]
	lsls	r3, r3, #16
	ldrb	r2, [r2, #3]
	lsls	r2, r2, #24
	adds	r2, r2, r3
	adds	r2, r2, r1
	movs	r1, #40
	ldrb	r1, [r0, r1]
	mov	r3, r0
	adds	r3, #40
	ldrb	r5, [r3, #1]
	lsls	r5, r5, #8
	adds	r1, r5, r1
	ldrb	r5, [r3, #2]
	lsls	r5, r5, #16
	ldrb	r3, [r3, #3]
	lsls	r3, r3, #24
	adds	r3, r3, r5
	adds	r1, r3, r1
	orrs	r1, r2
	movs	r2, #41
	lsls	r2, r2, #5
	adds	r3, r0, r2
	ldrb	r5, [r3, #4]
	str	r5, [sp, #152]
	ldrb	r5, [r3, #5]
	str	r5, [sp, #136]
	ldrb	r5, [r3, #6]
	str	r5, [sp, #144]
	ldrb	r5, [r3, #7]
	str	r5, [sp, #140]
	ldrb	r2, [r0, r2]
	str	r2, [sp, #172]
	ldrb	r2, [r3, #1]
	str	r2, [sp, #148]
	ldrb	r2, [r3, #2]
	str	r2, [sp, #160]
	ldrb	r2, [r3, #3]
	str	r2, [sp, #156]
	movs	r2, #5
	lsls	r2, r2, #8
	adds	r3, r0, r2
	ldrb	r5, [r3, #4]
	str	r5, [sp, #120]
	ldrb	r5, [r3, #5]
	str	r5, [sp, #100]
	ldrb	r5, [r3, #6]
	str	r5, [sp, #108]
	ldrb	r5, [r3, #7]
	str	r5, [sp, #104]
	ldrb	r2, [r0, r2]
	str	r2, [sp, #132]
	ldrb	r2, [r3, #1]
	str	r2, [sp, #116]
	ldrb	r2, [r3, #2]
	str	r2, [sp, #128]
	ldrb	r2, [r3, #3]
	str	r2, [sp, #124]
	movs	r2, #68
	ldrb	r2, [r0, r2]
	str	r2, [sp, #96]
	mov	r2, r0
	adds	r2, #68
	ldrb	r3, [r2, #1]
	str	r3, [sp, #80]
	ldrb	r3, [r2, #2]
	str	r3, [sp, #88]
	ldrb	r2, [r2, #3]
	str	r2, [sp, #84]
	movs	r2, #64
	ldrb	r2, [r0, r2]
	str	r2, [sp, #92]
	mov	r2, r0
	adds	r2, #64
	ldrb	r5, [r2, #1]
	ldrb	r6, [r2, #2]
	ldrb	r2, [r2, #3]
	str	r2, [sp, #76]
	movs	r2, #81
	lsls	r2, r2, #4
	ldrb	r3, [r0, r2]
	str	r3, [sp, #68]
	adds	r2, r0, r2
	ldrb	r3, [r2, #1]
	str	r3, [sp, #56]
	ldrb	r3, [r2, #2]
	str	r3, [sp, #64]
	ldrb	r2, [r2, #3]
	str	r2, [sp, #60]
	movs	r2, #79
	lsls	r2, r2, #4
	ldrb	r3, [r0, r2]
	str	r3, [sp, #52]
	adds	r2, r0, r2
	ldrb	r3, [r2, #1]
	str	r3, [sp, #40]
	ldrb	r3, [r2, #2]
	str	r3, [sp, #48]
	ldrb	r2, [r2, #3]
	str	r2, [sp, #44]
	movs	r2, #48
	ldrb	r2, [r0, r2]
	str	r2, [sp, #36]
	mov	r2, r0
	adds	r2, #48
	ldrb	r3, [r2, #1]
	str	r3, [sp, #24]
	ldrb	r3, [r2, #2]
	str	r3, [sp, #32]
	ldrb	r2, [r2, #3]
	str	r2, [sp, #28]
	cmp	r1, #0
	beq	.LBB70_140
	ldrb	r1, [r0, #24]
	ldrb	r2, [r0, #25]
	lsls	r2, r2, #8
	adds	r1, r2, r1
	ldrb	r2, [r0, #26]
	lsls	r2, r2, #16
	ldrb	r0, [r0, #27]
	lsls	r0, r0, #24
	adds	r0, r0, r2
	adds	r0, r0, r1
	bl	tlsf_memory_dealloc
.LBB70_140:
	ldr	r0, [sp, #80]
	lsls	r0, r0, #8
	ldr	r1, [sp, #96]
	adds	r0, r0, r1
	ldr	r1, [sp, #88]
	lsls	r1, r1, #16
	ldr	r2, [sp, #84]
	lsls	r2, r2, #24
	adds	r1, r2, r1
	adds	r0, r1, r0
	lsls	r1, r5, #8
	ldr	r2, [sp, #92]
	adds	r1, r1, r2
	lsls	r2, r6, #16
	ldr	r3, [sp, #76]
	lsls	r3, r3, #24
	adds	r2, r3, r2
	adds	r1, r2, r1
	orrs	r1, r0
	beq	.LBB70_142
	ldr	r0, [sp, #24]
	lsls	r0, r0, #8
	ldr	r1, [sp, #36]
	adds	r0, r0, r1
	ldr	r1, [sp, #32]
	lsls	r1, r1, #16
	ldr	r2, [sp, #28]
	lsls	r2, r2, #24
	adds	r1, r2, r1
	adds	r0, r1, r0
	bl	tlsf_memory_dealloc
.LBB70_142:
	ldr	r0, [sp, #100]
	lsls	r0, r0, #8
	ldr	r1, [sp, #120]
	adds	r0, r0, r1
	ldr	r1, [sp, #108]
	lsls	r1, r1, #16
	ldr	r2, [sp, #104]
	lsls	r2, r2, #24
	adds	r1, r2, r1
	adds	r0, r1, r0
	ldr	r1, [sp, #116]
	lsls	r1, r1, #8
	ldr	r2, [sp, #132]
	adds	r1, r1, r2
	ldr	r2, [sp, #128]
	lsls	r2, r2, #16
	ldr	r3, [sp, #124]
	lsls	r3, r3, #24
	adds	r2, r3, r2
	adds	r1, r2, r1
	orrs	r1, r0
	beq	.LBB70_144
	ldr	r0, [sp, #40]
	lsls	r0, r0, #8
	ldr	r1, [sp, #52]
	adds	r0, r0, r1
	ldr	r1, [sp, #48]
	lsls	r1, r1, #16
	ldr	r2, [sp, #44]
	lsls	r2, r2, #24
	adds	r1, r2, r1
	adds	r0, r1, r0
	bl	tlsf_memory_dealloc
.LBB70_144:
	ldr	r0, [sp, #136]
	lsls	r0, r0, #8
	ldr	r1, [sp, #152]
	adds	r0, r0, r1
	ldr	r1, [sp, #144]
	lsls	r1, r1, #16
	ldr	r2, [sp, #140]
	lsls	r2, r2, #24
	adds	r1, r2, r1
	adds	r0, r1, r0
	ldr	r1, [sp, #148]
	lsls	r1, r1, #8
	ldr	r2, [sp, #172]
	adds	r1, r1, r2
	ldr	r2, [sp, #160]
	lsls	r2, r2, #16
	ldr	r3, [sp, #156]
	lsls	r3, r3, #24
	adds	r2, r3, r2
	adds	r1, r2, r1
	orrs	r1, r0
	bne	.LBB70_145
	b	.LBB70_137
.LBB70_145:
	ldr	r0, [sp, #56]
	lsls	r0, r0, #8
	ldr	r1, [sp, #68]
	adds	r0, r0, r1
	ldr	r1, [sp, #64]
	lsls	r1, r1, #16
	ldr	r2, [sp, #60]
	lsls	r2, r2, #24
	adds	r1, r2, r1
	adds	r0, r1, r0
	bl	tlsf_memory_dealloc
	b	.LBB70_137
.LBB70_146:
	ldr	r0, [sp, #12]
	ldr	r1, [sp, #8]
	orrs	r1, r0
	beq	.LBB70_148
	ldr	r0, [sp, #20]
	bl	tlsf_memory_dealloc
.LBB70_148:
	ldr	r0, [sp, #16]
	cmp	r0, #0
	ldr	r0, [sp, #112]
	beq	.LBB70_149
	bl	.LBB70_46
.LBB70_149:
	movs	r0, #6
	bl	.LBB70_46
.LBB70_150:
	mov	r0, r5
	bl	tlsf_memory_dealloc
	ldr	r4, [sp, #868]
	ldr	r0, [sp, #864]
	str	r0, [sp, #164]
	ldr	r0, [sp, #140]
	b	.LBB70_134
.LBB70_151:
	.inst.n	0xdefe
.Lfunc_end70:
	.size	tlsf_pools_open, .Lfunc_end70-tlsf_pools_open
	.cfi_endproc
	.section	.text.tlsf_pools_part,"ax",%progbits
	.globl	tlsf_pools_part
	.p2align	1
	.type	tlsf_pools_part,%function
	.code	16
	.thumb_func
tlsf_pools_part:
	.cfi_startproc
	push	{r4, r5, r6, r7, lr}
	.cfi_def_cfa_offset 20
	.cfi_offset lr, -4
	.cfi_offset r7, -8
	.cfi_offset r6, -12
	.cfi_offset r5, -16
	.cfi_offset r4, -20
	sub	sp, #4
	.cfi_def_cfa_offset 24
	ldr	r4, [r2]
	ldrb	r5, [r0, #8]
	cmp	r5, #0
	beq	.LBB71_6
	ldr	r5, [r0]
	ldrb	r0, [r5, #1]
	cmp	r0, #0
	beq	.LBB71_6
	ldrb	r0, [r5]
	cmp	r0, #1
	bne	.LBB71_7
	movs	r0, #0
	strb	r0, [r5, #1]
	ldr	r6, [r5, #32]
	ldr	r7, [r5, #36]
	subs	r6, r1, r6
	mov	r6, r0
	sbcs	r6, r7
	bhs	.LBB71_5
	movs	r4, #165
	lsls	r6, r4, #3
	muls	r6, r1, r6
	ldr	r1, [r5, #24]
	adds	r4, r1, r6
	ldr	r4, [r4, #24]
	ldr	r1, [r1, r6]
	movs	r6, #1
	strb	r6, [r5, #1]
	str	r1, [r3]
	b	.LBB71_9
.LBB71_5:
	movs	r0, #1
	strb	r0, [r5, #1]
	movs	r0, #4
	b	.LBB71_9
.LBB71_6:
	movs	r0, #0
	b	.LBB71_8
.LBB71_7:
	movs	r0, #2
.LBB71_8:
	mov	r5, r2
	bl	tlsf_c.call_fault.CallFault.refusal
	mov	r2, r5
.LBB71_9:
	str	r4, [r2]
	add	sp, #4
	pop	{r4, r5, r6, r7, pc}
.Lfunc_end71:
	.size	tlsf_pools_part, .Lfunc_end71-tlsf_pools_part
	.cfi_endproc
	.section	.text.tlsf_pools_place,"ax",%progbits
	.globl	tlsf_pools_place
	.p2align	1
	.type	tlsf_pools_place,%function
	.code	16
	.thumb_func
tlsf_pools_place:
	.cfi_startproc
	push	{r4, r5, r6, r7, lr}
	.cfi_def_cfa_offset 20
	.cfi_offset lr, -4
	.cfi_offset r7, -8
	.cfi_offset r6, -12
	.cfi_offset r5, -16
	.cfi_offset r4, -20
	sub	sp, #12
	.cfi_def_cfa_offset 32
	ldrb	r4, [r0, #8]
	cmp	r4, #0
	beq	.LBB72_9
	ldr	r5, [r0]
	ldrb	r0, [r5, #1]
	cmp	r0, #0
	beq	.LBB72_9
	ldrb	r0, [r5]
	cmp	r0, #1
	bne	.LBB72_10
	movs	r7, #0
	strb	r7, [r5, #1]
	ldr	r0, [r5, #32]
	ldr	r4, [r5, #36]
	subs	r0, r1, r0
	mov	r0, r7
	sbcs	r0, r4
	bhs	.LBB72_8
	movs	r0, #165
	lsls	r0, r0, #3
	muls	r0, r1, r0
	ldr	r1, [r5, #24]
	adds	r6, r1, r0
	ldr	r4, [r6, #32]
	cmp	r2, r4
	bhs	.LBB72_8
	ldr	r0, [r1, r0]
	str	r0, [sp]
	movs	r4, #63
	ands	r4, r2
	ldr	r1, [r6, #48]
	lsrs	r0, r2, #6
	str	r6, [sp, #4]
	lsls	r6, r0, #3
	ldr	r0, [r1, r6]
	adds	r1, r1, r6
	ldr	r6, [sp, #4]
	ldr	r1, [r1, #4]
	str	r7, [sp, #8]
	mov	r7, r2
	mov	r2, r4
	mov	r4, r3
	bl	__aeabi_llsr
	mov	r1, r0
	ldr	r0, [sp, #8]
	lsls	r1, r1, #31
	beq	.LBB72_8
	mov	r3, r7
	mov	r2, r4
	lsls	r4, r7, #3
	ldr	r6, [r6, #24]
	ldrb	r1, [r6, r4]
	lsls	r1, r1, #31
	bne	.LBB72_8
	ldr	r1, [sp, #32]
	str	r1, [sp, #4]
	adds	r4, r6, r4
	ldr	r6, [r4, #8]
	ldr	r7, [r4, #12]
	ldr	r4, [r4, #16]
	movs	r1, #1
	strb	r1, [r5, #1]
	lsrs	r1, r7, #24
	strb	r1, [r2, #15]
	lsrs	r1, r7, #16
	strb	r1, [r2, #14]
	lsrs	r1, r7, #8
	strb	r1, [r2, #13]
	strb	r7, [r2, #12]
	lsrs	r1, r6, #24
	strb	r1, [r2, #11]
	lsrs	r1, r6, #16
	strb	r1, [r2, #10]
	lsrs	r1, r6, #8
	strb	r1, [r2, #9]
	strb	r6, [r2, #8]
	lsrs	r1, r3, #24
	strb	r1, [r2, #7]
	lsrs	r1, r3, #16
	strb	r1, [r2, #6]
	lsrs	r1, r3, #8
	strb	r1, [r2, #5]
	strb	r3, [r2, #4]
	ldr	r3, [sp]
	lsrs	r1, r3, #24
	strb	r1, [r2, #3]
	lsrs	r1, r3, #16
	strb	r1, [r2, #2]
	lsrs	r1, r3, #8
	strb	r1, [r2, #1]
	strb	r3, [r2]
	ldr	r1, [sp, #4]
	str	r4, [r1]
	add	sp, #12
	pop	{r4, r5, r6, r7, pc}
.LBB72_8:
	movs	r0, #1
	strb	r0, [r5, #1]
	movs	r0, #4
	add	sp, #12
	pop	{r4, r5, r6, r7, pc}
.LBB72_9:
	movs	r0, #0
	b	.LBB72_11
.LBB72_10:
	movs	r0, #2
.LBB72_11:
	bl	tlsf_c.call_fault.CallFault.refusal
	add	sp, #12
	pop	{r4, r5, r6, r7, pc}
.Lfunc_end72:
	.size	tlsf_pools_place, .Lfunc_end72-tlsf_pools_place
	.cfi_endproc
	.section	.text.tlsf_pools_read,"ax",%progbits
	.globl	tlsf_pools_read
	.p2align	1
	.type	tlsf_pools_read,%function
	.code	16
	.thumb_func
tlsf_pools_read:
	.cfi_startproc
	push	{r4, r5, r6, r7, lr}
	.cfi_def_cfa_offset 20
	.cfi_offset lr, -4
	.cfi_offset r7, -8
	.cfi_offset r6, -12
	.cfi_offset r5, -16
	.cfi_offset r4, -20
	sub	sp, #28
	.cfi_def_cfa_offset 48
	movs	r6, #1
	ldr	r4, [sp, #60]
	cmp	r4, #0
	bne	.LBB73_2
	lsls	r1, r6, #12
	adds	r4, r4, r1
.LBB73_2:
	ldrb	r1, [r0, #8]
	cmp	r1, #0
	beq	.LBB73_16
	ldr	r5, [r0]
	ldrb	r0, [r5, #1]
	cmp	r0, #0
	beq	.LBB73_16
	ldrb	r0, [r5]
	cmp	r0, #1
	bne	.LBB73_20
	movs	r0, #0
	strb	r0, [r5, #1]
	ldr	r1, [r5, #16]
	cmp	r2, r1
	blo	.LBB73_14
	subs	r1, r2, r1
	str	r6, [sp, #24]
	ldr	r6, [r5, #32]
	ldr	r7, [r5, #36]
	subs	r6, r1, r6
	mov	r6, r0
	sbcs	r6, r7
	ldr	r6, [sp, #24]
	bhs	.LBB73_14
	str	r0, [sp, #16]
	ldr	r0, [r5, #24]
	movs	r6, #165
	lsls	r7, r6, #3
	muls	r7, r1, r7
	ldr	r6, [r0, r7]
	cmp	r6, r2
	bne	.LBB73_18
	adds	r0, r0, r7
	str	r0, [sp, #20]
	ldr	r0, [r0, #32]
	cmp	r3, r0
	mov	r6, r2
	bhs	.LBB73_18
	movs	r6, #63
	ands	r6, r3
	ldr	r0, [sp, #20]
	ldr	r1, [r0, #48]
	lsrs	r0, r3, #6
	lsls	r7, r0, #3
	ldr	r0, [r1, r7]
	adds	r1, r1, r7
	ldr	r1, [r1, #4]
	mov	r7, r2
	mov	r2, r6
	str	r3, [sp, #12]
	bl	__aeabi_llsr
	mov	r2, r7
	lsls	r0, r0, #31
	mov	r6, r7
	beq	.LBB73_18
	ldr	r1, [sp, #20]
	adds	r1, #24
	ldr	r0, [sp, #12]
	lsls	r0, r0, #3
	str	r1, [sp, #20]
	ldr	r3, [r1]
	ldrb	r6, [r3, r0]
	lsls	r6, r6, #31
	mov	r6, r2
	bne	.LBB73_18
	ldr	r6, [sp, #52]
	ldr	r1, [sp, #48]
	adds	r7, r3, r0
	ldr	r3, [r7, #8]
	ldr	r0, [r7, #12]
	eors	r0, r6
	eors	r3, r1
	orrs	r3, r0
	mov	r6, r2
	bne	.LBB73_18
	ldr	r3, [sp, #64]
	ldr	r2, [sp, #56]
	adds	r0, r3, r2
	ldr	r6, [sp, #16]
	mov	r1, r6
	adcs	r1, r6
	ldr	r7, [r7, #16]
	subs	r0, r7, r0
	mov	r0, r6
	sbcs	r0, r1
	bhs	.LBB73_17
	ldr	r0, [sp, #24]
	strb	r0, [r5, #1]
	movs	r0, #7
	add	sp, #28
	pop	{r4, r5, r6, r7, pc}
.LBB73_14:
	strb	r6, [r5, #1]
.LBB73_15:
	movs	r0, #3
	add	sp, #28
	pop	{r4, r5, r6, r7, pc}
.LBB73_16:
	movs	r0, #0
	b	.LBB73_21
.LBB73_17:
	str	r3, [sp]
	str	r6, [sp, #4]
	ldr	r0, [sp, #20]
	ldr	r1, [sp, #12]
	mov	r3, r4
	bl	tlsf_heap.region.Region.read.4
	ldr	r0, [sp, #16]
	ldr	r1, [sp, #24]
	strb	r1, [r5, #1]
	add	sp, #28
	pop	{r4, r5, r6, r7, pc}
.LBB73_18:
	mov	r0, r2
	mov	r1, r6
	bl	tlsf_heap.refusal.Refusal.of_name
	ldr	r1, [sp, #24]
	strb	r1, [r5, #1]
	uxtb	r0, r0
	cmp	r0, #3
	bne	.LBB73_15
	movs	r0, #4
	add	sp, #28
	pop	{r4, r5, r6, r7, pc}
.LBB73_20:
	movs	r0, #2
.LBB73_21:
	bl	tlsf_c.call_fault.CallFault.refusal
	add	sp, #28
	pop	{r4, r5, r6, r7, pc}
.Lfunc_end73:
	.size	tlsf_pools_read, .Lfunc_end73-tlsf_pools_read
	.cfi_endproc
	.section	.text.tlsf_pools_release,"ax",%progbits
	.globl	tlsf_pools_release
	.p2align	1
	.type	tlsf_pools_release,%function
	.code	16
	.thumb_func
tlsf_pools_release:
	.cfi_startproc
	push	{r4, r5, r6, r7, lr}
	.cfi_def_cfa_offset 20
	.cfi_offset lr, -4
	.cfi_offset r7, -8
	.cfi_offset r6, -12
	.cfi_offset r5, -16
	.cfi_offset r4, -20
	sub	sp, #84
	.cfi_def_cfa_offset 104
	ldrb	r1, [r0, #8]
	cmp	r1, #0
	bne	.LBB74_1
	b	.LBB74_20
.LBB74_1:
	ldr	r5, [r0]
	ldrb	r0, [r5, #1]
	cmp	r0, #0
	bne	.LBB74_2
	b	.LBB74_20
.LBB74_2:
	ldrb	r0, [r5]
	cmp	r0, #1
	beq	.LBB74_3
	b	.LBB74_24
.LBB74_3:
	movs	r6, #0
	strb	r6, [r5, #1]
	ldr	r0, [r5, #16]
	cmp	r2, r0
	bhs	.LBB74_4
	b	.LBB74_18
.LBB74_4:
	subs	r0, r2, r0
	ldr	r1, [r5, #32]
	ldr	r4, [r5, #36]
	subs	r1, r0, r1
	mov	r1, r6
	sbcs	r1, r4
	blo	.LBB74_5
	b	.LBB74_18
.LBB74_5:
	ldr	r4, [r5, #24]
	movs	r1, #165
	lsls	r7, r1, #3
	muls	r7, r0, r7
	ldr	r1, [r4, r7]
	cmp	r1, r2
	beq	.LBB74_6
	b	.LBB74_22
.LBB74_6:
	adds	r4, r4, r7
	ldr	r0, [r4, #32]
	cmp	r3, r0
	mov	r1, r2
	blo	.LBB74_7
	b	.LBB74_22
.LBB74_7:
	str	r4, [sp, #80]
	movs	r4, #63
	ands	r4, r3
	ldr	r0, [sp, #80]
	ldr	r1, [r0, #48]
	lsrs	r0, r3, #6
	lsls	r7, r0, #3
	ldr	r0, [r1, r7]
	adds	r1, r1, r7
	ldr	r1, [r1, #4]
	mov	r7, r2
	mov	r2, r4
	ldr	r4, [sp, #80]
	str	r3, [sp, #76]
	bl	__aeabi_llsr
	mov	r2, r7
	lsls	r0, r0, #31
	mov	r1, r7
	bne	.LBB74_8
	b	.LBB74_22
.LBB74_8:
	adds	r4, #24
	ldr	r0, [sp, #76]
	lsls	r0, r0, #3
	str	r4, [sp, #64]
	ldr	r3, [r4]
	ldr	r1, [r3, r0]
	str	r1, [sp, #72]
	lsls	r1, r1, #31
	mov	r1, r2
	bne	.LBB74_22
	ldr	r1, [sp, #108]
	ldr	r7, [sp, #104]
	adds	r4, r3, r0
	str	r0, [sp, #52]
	ldr	r0, [r4, #8]
	str	r4, [sp, #68]
	ldr	r4, [r4, #12]
	eors	r4, r1
	eors	r0, r7
	orrs	r0, r4
	ldr	r4, [sp, #80]
	mov	r1, r2
	bne	.LBB74_22
	ldr	r2, [r4, #8]
	ldr	r1, [r4, #12]
	mov	r0, r2
	ands	r0, r1
	adds	r0, r0, #1
	beq	.LBB74_21
	str	r2, [sp, #44]
	str	r1, [sp, #48]
	ldr	r0, [sp, #68]
	ldr	r1, [r0, #4]
	str	r1, [sp, #60]
	ldr	r7, [r0, #16]
	ldr	r1, [sp, #72]
	lsrs	r2, r1, #2
	ldr	r0, [r4, #16]
	subs	r0, r0, r2
	str	r0, [r4, #16]
	lsls	r0, r1, #30
	str	r6, [sp, #56]
	mov	r0, r6
	mov	r1, r3
	bmi	.LBB74_13
	ldr	r0, [sp, #76]
	adds	r0, r2, r0
	lsls	r0, r0, #3
	ldr	r3, [r1, r0]
	str	r3, [sp, #56]
	adds	r0, r1, r0
	ldr	r0, [r0, #4]
.LBB74_13:
	str	r0, [sp, #40]
	str	r2, [sp, #36]
	ldr	r0, [sp, #76]
	cmp	r0, #0
	beq	.LBB74_15
	ldr	r0, [sp, #60]
	lsls	r2, r0, #3
	ldr	r3, [r1, r2]
	lsls	r0, r3, #31
	bne	.LBB74_27
.LBB74_15:
	ldr	r2, [sp, #56]
	lsls	r0, r2, #31
	bne	.LBB74_26
	str	r7, [sp, #56]
	movs	r1, #1
	ldr	r0, [sp, #72]
	str	r1, [sp, #40]
	orrs	r0, r1
	ldr	r1, [sp, #68]
	str	r0, [r1]
	ldr	r0, [sp, #60]
	str	r0, [r1, #4]
	ldr	r0, [sp, #44]
	str	r0, [r1, #8]
	ldr	r0, [sp, #48]
	str	r0, [r1, #12]
	ldr	r0, [r4, #8]
	mov	r7, r4
	movs	r1, #0
	adds	r0, r0, #1
	str	r0, [r4, #8]
	ldr	r0, [r4, #12]
	str	r1, [sp, #72]
	adcs	r0, r1
	str	r0, [r4, #12]
	movs	r0, #16
	ldr	r4, [sp, #36]
	orrs	r0, r4
	bl	__clzsi2
	ldr	r1, [sp, #76]
	movs	r2, #27
	subs	r0, r2, r0
	lsrs	r4, r0
	lsls	r0, r0, #4
	adds	r0, r4, r0
	lsls	r2, r0, #2
	adds	r3, r7, r2
	movs	r7, #168
	ldr	r2, [r3, r7]
	str	r1, [r3, r7]
	cmp	r2, #0
	bmi	.LBB74_28
	ldr	r0, [sp, #64]
	ldr	r0, [r0]
	ldr	r3, [sp, #52]
	adds	r3, r0, r3
	ldr	r4, [sp, #72]
	mvns	r6, r4
	str	r2, [r3, #16]
	str	r6, [r3, #20]
	lsls	r2, r2, #3
	adds	r0, r0, r2
	str	r1, [r0, #20]
	ldr	r7, [sp, #56]
	ldr	r4, [sp, #80]
	b	.LBB74_29
.LBB74_18:
	movs	r0, #1
	strb	r0, [r5, #1]
.LBB74_19:
	movs	r0, #3
	add	sp, #84
	pop	{r4, r5, r6, r7, pc}
.LBB74_20:
	movs	r0, #0
	b	.LBB74_25
.LBB74_21:
	movs	r0, #1
	strb	r0, [r5, #1]
	movs	r0, #2
	add	sp, #84
	pop	{r4, r5, r6, r7, pc}
.LBB74_22:
	mov	r0, r2
	bl	tlsf_heap.refusal.Refusal.of_name
	movs	r1, #1
	strb	r1, [r5, #1]
	uxtb	r0, r0
	cmp	r0, #3
	bne	.LBB74_19
	movs	r0, #4
	add	sp, #84
	pop	{r4, r5, r6, r7, pc}
.LBB74_24:
	movs	r0, #2
.LBB74_25:
	bl	tlsf_c.call_fault.CallFault.refusal
	add	sp, #84
	pop	{r4, r5, r6, r7, pc}
.LBB74_26:
	movs	r0, #0
	ldr	r3, [sp, #44]
	adds	r1, r3, #1
	str	r1, [r4, #8]
	ldr	r1, [sp, #48]
	adcs	r0, r1
	str	r0, [r4, #12]
	ldr	r0, [sp, #72]
	str	r0, [sp]
	ldr	r0, [sp, #60]
	str	r0, [sp, #4]
	str	r3, [sp, #8]
	str	r1, [sp, #12]
	ldr	r0, [sp, #76]
	str	r0, [sp, #16]
	ldr	r0, [sp, #64]
	ldr	r3, [sp, #40]
	bl	tlsf_heap.fitting.merge_next.4
	b	.LBB74_29
.LBB74_27:
	adds	r0, r1, r2
	ldr	r0, [r0, #4]
	str	r0, [sp, #68]
	movs	r2, #0
	ldr	r6, [sp, #44]
	mov	r0, r3
	adds	r3, r6, #1
	str	r3, [r4, #8]
	ldr	r1, [sp, #48]
	adcs	r2, r1
	str	r2, [r4, #12]
	ldr	r2, [sp, #72]
	str	r2, [sp, #24]
	ldr	r2, [sp, #60]
	str	r2, [sp, #28]
	str	r0, [sp]
	ldr	r0, [sp, #68]
	str	r0, [sp, #4]
	str	r6, [sp, #8]
	str	r1, [sp, #12]
	ldr	r0, [sp, #76]
	str	r0, [sp, #16]
	ldr	r0, [sp, #64]
	ldr	r2, [sp, #56]
	ldr	r3, [sp, #40]
	bl	tlsf_heap.fitting.merge_before.4
	b	.LBB74_29
.LBB74_28:
	mvns	r1, r6
	ldr	r6, [sp, #80]
	ldr	r2, [r6, #24]
	ldr	r3, [sp, #52]
	adds	r2, r2, r3
	str	r1, [r2, #16]
	str	r1, [r2, #20]
	lsrs	r0, r0, #4
	ldr	r3, [sp, #40]
	mov	r1, r3
	lsls	r1, r0
	ldr	r2, [r6, #80]
	orrs	r2, r1
	str	r2, [r6, #80]
	movs	r1, #15
	ands	r4, r1
	lsls	r3, r4
	lsls	r0, r0, #2
	adds	r0, r6, r0
	ldr	r1, [r0, #84]
	orrs	r1, r3
	str	r1, [r0, #84]
	ldr	r7, [sp, #56]
	mov	r4, r6
.LBB74_29:
	movs	r0, #159
	lsls	r0, r0, #3
	ldr	r2, [r4, r0]
	adds	r0, r4, r0
	ldr	r3, [r0, #4]
	mov	r0, r2
	orrs	r0, r3
	beq	.LBB74_43
	movs	r0, #81
	lsls	r0, r0, #4
	ldr	r0, [r4, r0]
	movs	r1, #79
	lsls	r1, r1, #4
	ldr	r4, [r4, r1]
	movs	r1, #0
.LBB74_31:
	ldr	r6, [r4, #4]
	cmp	r6, r7
	bhs	.LBB74_42
	movs	r6, #1
	eors	r6, r2
	orrs	r6, r3
	beq	.LBB74_43
	ldr	r6, [r4, #12]
	cmp	r6, r7
	bhs	.LBB74_39
	movs	r6, #2
	eors	r6, r2
	orrs	r6, r3
	beq	.LBB74_43
	ldr	r6, [r4, #20]
	cmp	r6, r7
	bhs	.LBB74_40
	movs	r6, #3
	eors	r6, r2
	orrs	r6, r3
	beq	.LBB74_43
	ldr	r6, [r4, #28]
	cmp	r6, r7
	bhs	.LBB74_41
	movs	r6, #0
	subs	r2, r2, #4
	sbcs	r3, r6
	mov	r6, r2
	orrs	r6, r3
	adds	r1, r1, #4
	adds	r4, #32
	cmp	r6, #0
	bne	.LBB74_31
	b	.LBB74_43
.LBB74_39:
	adds	r1, r1, #1
	b	.LBB74_42
.LBB74_40:
	adds	r1, r1, #2
	b	.LBB74_42
.LBB74_41:
	adds	r1, r1, #3
.LBB74_42:
	lsls	r1, r1, #2
	ldr	r2, [r0, r1]
	subs	r2, r2, #1
	str	r2, [r0, r1]
.LBB74_43:
	movs	r0, #1
	strb	r0, [r5, #1]
	movs	r0, #0
	add	sp, #84
	pop	{r4, r5, r6, r7, pc}
.Lfunc_end74:
	.size	tlsf_pools_release, .Lfunc_end74-tlsf_pools_release
	.cfi_endproc
	.section	.text.tlsf_pools_report,"ax",%progbits
	.globl	tlsf_pools_report
	.p2align	1
	.type	tlsf_pools_report,%function
	.code	16
	.thumb_func
tlsf_pools_report:
	.cfi_startproc
	push	{r4, r5, r6, r7, lr}
	.cfi_def_cfa_offset 20
	.cfi_offset lr, -4
	.cfi_offset r7, -8
	.cfi_offset r6, -12
	.cfi_offset r5, -16
	.cfi_offset r4, -20
	sub	sp, #84
	.cfi_def_cfa_offset 104
	mov	r5, r1
	ldrb	r1, [r0, #8]
	cmp	r1, #0
	bne	.LBB75_1
	b	.LBB75_6
.LBB75_1:
	ldr	r7, [r0]
	ldrb	r0, [r7, #1]
	cmp	r0, #0
	bne	.LBB75_2
	b	.LBB75_6
.LBB75_2:
	ldrb	r0, [r7]
	cmp	r0, #1
	beq	.LBB75_3
	b	.LBB75_7
.LBB75_3:
	movs	r6, #0
	strb	r6, [r7, #1]
	ldr	r0, [r7, #32]
	ldr	r1, [r7, #36]
	subs	r0, r5, r0
	mov	r0, r6
	sbcs	r0, r1
	blo	.LBB75_4
	b	.LBB75_5
.LBB75_4:
	mov	r4, r2
	ldr	r0, [r7, #24]
	str	r0, [sp, #28]
	add	r0, sp, #32
	str	r0, [sp, #24]
	movs	r2, #48
	mov	r1, r6
	bl	tlsf_memory_set
	movs	r0, #165
	lsls	r0, r0, #3
	muls	r0, r5, r0
	ldr	r1, [sp, #28]
	adds	r1, r1, r0
	ldr	r0, [sp, #24]
	bl	tlsf_heap.heap.Heap.report.4
	ldr	r0, [sp, #32]
	str	r0, [sp, #28]
	ldr	r0, [sp, #36]
	str	r0, [sp, #24]
	ldr	r0, [sp, #40]
	str	r0, [sp, #20]
	ldr	r0, [sp, #44]
	str	r0, [sp, #16]
	ldr	r0, [sp, #48]
	str	r0, [sp, #12]
	ldr	r0, [sp, #52]
	str	r0, [sp, #8]
	ldr	r0, [sp, #56]
	str	r0, [sp, #4]
	ldr	r2, [sp, #60]
	ldr	r1, [sp, #64]
	ldr	r0, [sp, #72]
	ldr	r5, [sp, #76]
	movs	r3, #1
	strb	r3, [r7, #1]
	movs	r3, #44
	strb	r5, [r4, r3]
	movs	r3, #40
	strb	r0, [r4, r3]
	movs	r3, #36
	strb	r6, [r4, r3]
	movs	r3, #32
	strb	r1, [r4, r3]
	mov	r3, r4
	adds	r3, #44
	lsrs	r7, r5, #24
	strb	r7, [r3, #3]
	lsrs	r7, r5, #16
	strb	r7, [r3, #2]
	lsrs	r5, r5, #8
	strb	r5, [r3, #1]
	mov	r3, r4
	adds	r3, #40
	lsrs	r5, r0, #24
	strb	r5, [r3, #3]
	lsrs	r5, r0, #16
	strb	r5, [r3, #2]
	lsrs	r0, r0, #8
	strb	r0, [r3, #1]
	mov	r0, r4
	adds	r0, #36
	strb	r6, [r0, #3]
	strb	r6, [r0, #2]
	strb	r6, [r0, #1]
	mov	r0, r4
	adds	r0, #32
	lsrs	r3, r1, #24
	strb	r3, [r0, #3]
	lsrs	r3, r1, #16
	strb	r3, [r0, #2]
	lsrs	r1, r1, #8
	strb	r1, [r0, #1]
	lsrs	r0, r2, #24
	strb	r0, [r4, #31]
	lsrs	r0, r2, #16
	strb	r0, [r4, #30]
	lsrs	r0, r2, #8
	strb	r0, [r4, #29]
	strb	r2, [r4, #28]
	ldr	r1, [sp, #4]
	lsrs	r0, r1, #24
	strb	r0, [r4, #27]
	lsrs	r0, r1, #16
	strb	r0, [r4, #26]
	lsrs	r0, r1, #8
	strb	r0, [r4, #25]
	strb	r1, [r4, #24]
	ldr	r1, [sp, #8]
	lsrs	r0, r1, #24
	strb	r0, [r4, #23]
	lsrs	r0, r1, #16
	strb	r0, [r4, #22]
	lsrs	r0, r1, #8
	strb	r0, [r4, #21]
	strb	r1, [r4, #20]
	ldr	r1, [sp, #12]
	lsrs	r0, r1, #24
	strb	r0, [r4, #19]
	lsrs	r0, r1, #16
	strb	r0, [r4, #18]
	lsrs	r0, r1, #8
	strb	r0, [r4, #17]
	strb	r1, [r4, #16]
	ldr	r1, [sp, #16]
	lsrs	r0, r1, #24
	strb	r0, [r4, #15]
	lsrs	r0, r1, #16
	strb	r0, [r4, #14]
	lsrs	r0, r1, #8
	strb	r0, [r4, #13]
	strb	r1, [r4, #12]
	ldr	r1, [sp, #20]
	lsrs	r0, r1, #24
	strb	r0, [r4, #11]
	lsrs	r0, r1, #16
	strb	r0, [r4, #10]
	lsrs	r0, r1, #8
	strb	r0, [r4, #9]
	strb	r1, [r4, #8]
	ldr	r1, [sp, #24]
	lsrs	r0, r1, #24
	strb	r0, [r4, #7]
	lsrs	r0, r1, #16
	strb	r0, [r4, #6]
	lsrs	r0, r1, #8
	strb	r0, [r4, #5]
	strb	r1, [r4, #4]
	ldr	r1, [sp, #28]
	lsrs	r0, r1, #24
	strb	r0, [r4, #3]
	lsrs	r0, r1, #16
	strb	r0, [r4, #2]
	lsrs	r0, r1, #8
	strb	r0, [r4, #1]
	strb	r1, [r4]
	b	.LBB75_9
.LBB75_5:
	movs	r0, #1
	strb	r0, [r7, #1]
	movs	r6, #4
	b	.LBB75_9
.LBB75_6:
	movs	r0, #0
	b	.LBB75_8
.LBB75_7:
	movs	r0, #2
.LBB75_8:
	bl	tlsf_c.call_fault.CallFault.refusal
	mov	r6, r0
.LBB75_9:
	mov	r0, r6
	add	sp, #84
	pop	{r4, r5, r6, r7, pc}
.Lfunc_end75:
	.size	tlsf_pools_report, .Lfunc_end75-tlsf_pools_report
	.cfi_endproc
	.section	.text.tlsf_pools_row,"ax",%progbits
	.globl	tlsf_pools_row
	.p2align	1
	.type	tlsf_pools_row,%function
	.code	16
	.thumb_func
tlsf_pools_row:
	.cfi_startproc
	push	{r4, r5, r6, r7, lr}
	.cfi_def_cfa_offset 20
	.cfi_offset lr, -4
	.cfi_offset r7, -8
	.cfi_offset r6, -12
	.cfi_offset r5, -16
	.cfi_offset r4, -20
	sub	sp, #28
	.cfi_def_cfa_offset 48
	ldrb	r3, [r0, #8]
	cmp	r3, #0
	beq	.LBB76_22
	ldr	r3, [r0]
	ldrb	r0, [r3, #1]
	cmp	r0, #0
	beq	.LBB76_22
	ldrb	r0, [r3]
	cmp	r0, #1
	bne	.LBB76_27
	str	r2, [sp]
	movs	r2, #0
	strb	r2, [r3, #1]
	ldr	r0, [r3, #32]
	str	r3, [sp, #20]
	ldr	r3, [r3, #36]
	str	r0, [sp, #12]
	str	r3, [sp, #8]
	orrs	r0, r3
	beq	.LBB76_21
	ldr	r0, [sp, #20]
	ldr	r0, [r0, #24]
	str	r0, [sp, #16]
	mov	r6, r2
	b	.LBB76_6
.LBB76_5:
	movs	r0, #0
	adds	r6, r6, #1
	ldr	r2, [sp, #24]
	adcs	r2, r0
	ldr	r0, [sp, #12]
	subs	r0, r6, r0
	mov	r0, r2
	ldr	r3, [sp, #8]
	sbcs	r0, r3
	bhs	.LBB76_21
.LBB76_6:
	str	r2, [sp, #24]
	movs	r0, #165
	lsls	r0, r0, #3
	muls	r0, r6, r0
	ldr	r2, [sp, #16]
	adds	r3, r2, r0
	movs	r0, #159
	lsls	r0, r0, #3
	ldr	r7, [r3, r0]
	adds	r0, r3, r0
	ldr	r0, [r0, #4]
	mov	r4, r7
	orrs	r4, r0
	beq	.LBB76_5
	movs	r4, #79
	lsls	r4, r4, #4
	ldr	r2, [r3, r4]
	str	r2, [sp, #4]
	adds	r2, #12
	mov	r4, r7
	mov	r5, r0
.LBB76_8:
	mov	r3, r2
	subs	r3, #8
	ldr	r3, [r3]
	cmp	r3, r1
	bhs	.LBB76_12
	movs	r3, #1
	eors	r3, r4
	orrs	r3, r5
	beq	.LBB76_5
	ldr	r3, [r2]
	cmp	r3, r1
	bhs	.LBB76_12
	adds	r2, #16
	movs	r3, #0
	subs	r4, r4, #2
	sbcs	r5, r3
	mov	r3, r4
	orrs	r3, r5
	bne	.LBB76_8
	b	.LBB76_5
.LBB76_12:
	movs	r6, #0
	ldr	r4, [sp, #4]
	mov	r2, r4
.LBB76_13:
	ldr	r3, [r2, #4]
	cmp	r3, r1
	bhs	.LBB76_26
	movs	r3, #1
	eors	r3, r7
	orrs	r3, r0
	beq	.LBB76_21
	ldr	r3, [r2, #12]
	cmp	r3, r1
	bhs	.LBB76_23
	movs	r3, #2
	eors	r3, r7
	orrs	r3, r0
	beq	.LBB76_21
	ldr	r3, [r2, #20]
	cmp	r3, r1
	bhs	.LBB76_24
	movs	r3, #3
	eors	r3, r7
	orrs	r3, r0
	beq	.LBB76_21
	ldr	r3, [r2, #28]
	cmp	r3, r1
	bhs	.LBB76_25
	movs	r3, #0
	subs	r7, r7, #4
	sbcs	r0, r3
	mov	r3, r7
	orrs	r3, r0
	adds	r6, r6, #4
	adds	r2, #32
	cmp	r3, #0
	bne	.LBB76_13
.LBB76_21:
	movs	r0, #1
	ldr	r1, [sp, #20]
	strb	r0, [r1, #1]
	movs	r0, #5
	add	sp, #28
	pop	{r4, r5, r6, r7, pc}
.LBB76_22:
	movs	r0, #0
	b	.LBB76_28
.LBB76_23:
	adds	r6, r6, #1
	b	.LBB76_26
.LBB76_24:
	adds	r6, r6, #2
	b	.LBB76_26
.LBB76_25:
	adds	r6, r6, #3
.LBB76_26:
	lsls	r0, r6, #3
	adds	r0, r4, r0
	ldr	r0, [r0, #4]
	movs	r1, #1
	ldr	r2, [sp, #20]
	strb	r1, [r2, #1]
	ldr	r1, [sp]
	str	r0, [r1]
	movs	r0, #0
	add	sp, #28
	pop	{r4, r5, r6, r7, pc}
.LBB76_27:
	movs	r0, #2
.LBB76_28:
	bl	tlsf_c.call_fault.CallFault.refusal
	add	sp, #28
	pop	{r4, r5, r6, r7, pc}
.Lfunc_end76:
	.size	tlsf_pools_row, .Lfunc_end76-tlsf_pools_row
	.cfi_endproc
	.section	.text.tlsf_pools_words,"ax",%progbits
	.globl	tlsf_pools_words
	.p2align	1
	.type	tlsf_pools_words,%function
	.code	16
	.thumb_func
tlsf_pools_words:
	.cfi_startproc
	push	{r4, r5, r6, r7, lr}
	.cfi_def_cfa_offset 20
	.cfi_offset lr, -4
	.cfi_offset r7, -8
	.cfi_offset r6, -12
	.cfi_offset r5, -16
	.cfi_offset r4, -20
	sub	sp, #508
	sub	sp, #168
	.cfi_def_cfa_offset 696
	mov	r4, r0
	movs	r0, #5
	cmp	r4, #5
	beq	.LBB77_2
	subs	r4, r4, #6
	b	.LBB77_3
.LBB77_2:
	mvns	r4, r0
.LBB77_3:
	movs	r7, #1
	cmp	r1, #0
	bne	.LBB77_5
	lsls	r5, r7, #12
	adds	r1, r1, r5
.LBB77_5:
	mvns	r5, r7
	cmp	r4, r5
	bhs	.LBB77_7
	movs	r0, #34
	b	.LBB77_38
.LBB77_7:
	cmp	r2, #64
	bls	.LBB77_8
	b	.LBB77_38
.LBB77_8:
	str	r0, [sp, #16]
	str	r3, [sp, #8]
	add	r0, sp, #72
	movs	r4, #0
	movs	r3, #88
	str	r1, [sp, #36]
	mov	r1, r4
	mov	r6, r2
	mov	r2, r3
	bl	tlsf_memory_set
	lsls	r2, r7, #9
	add	r0, sp, #164
	mov	r1, r4
	bl	tlsf_memory_set
	str	r6, [sp, #20]
	cmp	r6, #0
	bne	.LBB77_9
	b	.LBB77_36
.LBB77_9:
	movs	r2, #3
	ldr	r0, [sp, #20]
	mov	r1, r0
	str	r2, [sp, #32]
	ands	r1, r2
	str	r1, [sp, #12]
	movs	r6, #0
	cmp	r0, #4
	str	r6, [sp, #4]
	bhs	.LBB77_10
	b	.LBB77_24
.LBB77_10:
	movs	r1, #124
	ldr	r0, [sp, #20]
	ands	r1, r0
	str	r1, [sp, #24]
	movs	r2, #0
	mov	r6, r2
	mov	r3, r2
	str	r7, [sp, #28]
	str	r2, [sp, #60]
	b	.LBB77_12
.LBB77_11:
	ldr	r3, [sp, #56]
	ldr	r1, [sp, #52]
	adds	r1, r7, r1
	str	r0, [r1, #4]
	adds	r6, r6, #4
	ldr	r2, [sp, #60]
	adcs	r3, r2
	mov	r0, r6
	ldr	r1, [sp, #24]
	eors	r0, r1
	orrs	r0, r3
	ldr	r7, [sp, #28]
	bne	.LBB77_12
	b	.LBB77_23
.LBB77_12:
	str	r3, [sp, #56]
	lsls	r0, r6, #4
	mov	r5, r6
	str	r6, [sp, #68]
	ldr	r6, [sp, #36]
	ldrb	r2, [r6, r0]
	adds	r1, r6, r0
	ldrb	r0, [r1, #1]
	lsls	r0, r0, #8
	adds	r0, r0, r2
	ldrb	r2, [r1, #2]
	lsls	r2, r2, #16
	ldrb	r3, [r1, #3]
	lsls	r3, r3, #24
	adds	r2, r3, r2
	adds	r0, r2, r0
	lsls	r2, r5, #3
	add	r4, sp, #164
	str	r2, [sp, #40]
	str	r0, [r4, r2]
	str	r4, [sp, #64]
	mov	r0, r5
	orrs	r0, r7
	lsls	r2, r0, #4
	ldrb	r5, [r6, r2]
	adds	r3, r6, r2
	ldrb	r2, [r3, #1]
	lsls	r2, r2, #8
	adds	r2, r2, r5
	ldrb	r5, [r3, #2]
	lsls	r5, r5, #16
	ldrb	r7, [r3, #3]
	lsls	r7, r7, #24
	adds	r5, r7, r5
	adds	r2, r5, r2
	lsls	r0, r0, #3
	str	r0, [sp, #44]
	str	r2, [r4, r0]
	movs	r0, #2
	ldr	r2, [sp, #68]
	orrs	r0, r2
	lsls	r2, r0, #4
	ldrb	r7, [r6, r2]
	adds	r5, r6, r2
	ldrb	r2, [r5, #1]
	lsls	r2, r2, #8
	adds	r2, r2, r7
	ldrb	r7, [r5, #2]
	lsls	r7, r7, #16
	ldrb	r4, [r5, #3]
	lsls	r4, r4, #24
	adds	r4, r4, r7
	adds	r2, r4, r2
	lsls	r0, r0, #3
	str	r0, [sp, #48]
	ldr	r4, [sp, #64]
	str	r2, [r4, r0]
	ldr	r0, [sp, #68]
	ldr	r2, [sp, #32]
	orrs	r0, r2
	lsls	r2, r0, #4
	ldrb	r4, [r6, r2]
	adds	r2, r6, r2
	ldrb	r7, [r2, #1]
	lsls	r7, r7, #8
	adds	r4, r7, r4
	ldrb	r7, [r2, #2]
	lsls	r7, r7, #16
	ldrb	r6, [r2, #3]
	lsls	r6, r6, #24
	adds	r6, r6, r7
	adds	r4, r6, r4
	lsls	r0, r0, #3
	ldr	r6, [sp, #64]
	mov	r7, r6
	str	r0, [sp, #52]
	str	r4, [r6, r0]
	ldrb	r0, [r1, #12]
	ldrb	r4, [r1, #13]
	lsls	r4, r4, #8
	adds	r0, r4, r0
	ldrb	r4, [r1, #14]
	lsls	r4, r4, #16
	ldrb	r6, [r1, #15]
	lsls	r6, r6, #24
	adds	r4, r6, r4
	adds	r4, r4, r0
	ldr	r0, [sp, #60]
	mvns	r0, r0
	cmp	r4, #0
	beq	.LBB77_14
	mov	r1, r0
	b	.LBB77_15
.LBB77_14:
	ldrb	r4, [r1, #8]
	ldrb	r6, [r1, #9]
	lsls	r6, r6, #8
	adds	r4, r6, r4
	ldrb	r6, [r1, #10]
	lsls	r6, r6, #16
	ldrb	r1, [r1, #11]
	lsls	r1, r1, #24
	adds	r1, r1, r6
	adds	r1, r1, r4
.LBB77_15:
	ldr	r4, [sp, #40]
	adds	r4, r7, r4
	str	r1, [r4, #4]
	ldrb	r1, [r3, #12]
	ldrb	r4, [r3, #13]
	lsls	r4, r4, #8
	adds	r1, r4, r1
	ldrb	r4, [r3, #14]
	lsls	r4, r4, #16
	ldrb	r6, [r3, #15]
	lsls	r6, r6, #24
	adds	r4, r6, r4
	adds	r1, r4, r1
	beq	.LBB77_17
	mov	r1, r0
	b	.LBB77_18
.LBB77_17:
	ldrb	r1, [r3, #8]
	ldrb	r4, [r3, #9]
	lsls	r4, r4, #8
	adds	r1, r4, r1
	ldrb	r4, [r3, #10]
	lsls	r4, r4, #16
	ldrb	r3, [r3, #11]
	lsls	r3, r3, #24
	adds	r3, r3, r4
	adds	r1, r3, r1
.LBB77_18:
	ldr	r6, [sp, #68]
	ldr	r3, [sp, #44]
	adds	r3, r7, r3
	str	r1, [r3, #4]
	ldrb	r1, [r5, #12]
	ldrb	r3, [r5, #13]
	lsls	r3, r3, #8
	adds	r1, r3, r1
	ldrb	r3, [r5, #14]
	lsls	r3, r3, #16
	ldrb	r4, [r5, #15]
	lsls	r4, r4, #24
	adds	r3, r4, r3
	adds	r1, r3, r1
	beq	.LBB77_20
	mov	r1, r0
	b	.LBB77_21
.LBB77_20:
	ldrb	r1, [r5, #8]
	ldrb	r3, [r5, #9]
	lsls	r3, r3, #8
	adds	r1, r3, r1
	ldrb	r3, [r5, #10]
	lsls	r3, r3, #16
	ldrb	r4, [r5, #11]
	lsls	r4, r4, #24
	adds	r3, r4, r3
	adds	r1, r3, r1
.LBB77_21:
	ldr	r3, [sp, #48]
	adds	r3, r7, r3
	str	r1, [r3, #4]
	ldrb	r1, [r2, #12]
	ldrb	r3, [r2, #13]
	lsls	r3, r3, #8
	adds	r1, r3, r1
	ldrb	r3, [r2, #14]
	lsls	r3, r3, #16
	ldrb	r4, [r2, #15]
	lsls	r4, r4, #24
	adds	r3, r4, r3
	adds	r1, r3, r1
	beq	.LBB77_22
	b	.LBB77_11
.LBB77_22:
	ldrb	r0, [r2, #8]
	ldrb	r1, [r2, #9]
	lsls	r1, r1, #8
	adds	r0, r1, r0
	ldrb	r1, [r2, #10]
	lsls	r1, r1, #16
	ldrb	r2, [r2, #11]
	lsls	r2, r2, #24
	adds	r1, r2, r1
	adds	r0, r1, r0
	b	.LBB77_11
.LBB77_23:
	ldr	r0, [sp, #12]
	cmp	r0, #0
	bne	.LBB77_24
	b	.LBB77_36
.LBB77_24:
	lsls	r0, r6, #4
	ldr	r1, [sp, #36]
	ldrb	r2, [r1, r0]
	adds	r1, r1, r0
	ldrb	r0, [r1, #1]
	lsls	r0, r0, #8
	adds	r0, r0, r2
	ldrb	r2, [r1, #2]
	lsls	r2, r2, #16
	ldrb	r3, [r1, #3]
	lsls	r3, r3, #24
	adds	r2, r3, r2
	adds	r3, r2, r0
	lsls	r0, r6, #3
	add	r2, sp, #164
	str	r3, [r2, r0]
	ldrb	r3, [r1, #12]
	ldrb	r4, [r1, #13]
	lsls	r4, r4, #8
	adds	r3, r4, r3
	ldrb	r4, [r1, #14]
	lsls	r4, r4, #16
	ldrb	r5, [r1, #15]
	lsls	r5, r5, #24
	adds	r4, r5, r4
	adds	r3, r4, r3
	beq	.LBB77_26
	ldr	r1, [sp, #4]
	mvns	r1, r1
	b	.LBB77_27
.LBB77_26:
	ldrb	r3, [r1, #8]
	ldrb	r4, [r1, #9]
	lsls	r4, r4, #8
	adds	r3, r4, r3
	ldrb	r4, [r1, #10]
	lsls	r4, r4, #16
	ldrb	r1, [r1, #11]
	lsls	r1, r1, #24
	adds	r1, r1, r4
	adds	r1, r1, r3
.LBB77_27:
	adds	r0, r2, r0
	str	r1, [r0, #4]
	ldr	r0, [sp, #12]
	cmp	r0, #1
	beq	.LBB77_36
	adds	r0, r6, #1
	lsls	r1, r0, #4
	ldr	r3, [sp, #36]
	ldrb	r2, [r3, r1]
	adds	r1, r3, r1
	ldrb	r3, [r1, #1]
	lsls	r3, r3, #8
	adds	r2, r3, r2
	ldrb	r3, [r1, #2]
	lsls	r3, r3, #16
	ldrb	r4, [r1, #3]
	lsls	r4, r4, #24
	adds	r3, r4, r3
	adds	r3, r3, r2
	lsls	r0, r0, #3
	add	r2, sp, #164
	str	r3, [r2, r0]
	ldrb	r3, [r1, #12]
	ldrb	r4, [r1, #13]
	lsls	r4, r4, #8
	adds	r3, r4, r3
	ldrb	r4, [r1, #14]
	lsls	r4, r4, #16
	ldrb	r5, [r1, #15]
	lsls	r5, r5, #24
	adds	r4, r5, r4
	adds	r3, r4, r3
	beq	.LBB77_30
	ldr	r1, [sp, #4]
	mvns	r1, r1
	b	.LBB77_31
.LBB77_30:
	ldrb	r3, [r1, #8]
	ldrb	r4, [r1, #9]
	lsls	r4, r4, #8
	adds	r3, r4, r3
	ldrb	r4, [r1, #10]
	lsls	r4, r4, #16
	ldrb	r1, [r1, #11]
	lsls	r1, r1, #24
	adds	r1, r1, r4
	adds	r1, r1, r3
.LBB77_31:
	adds	r0, r2, r0
	str	r1, [r0, #4]
	ldr	r0, [sp, #12]
	cmp	r0, #2
	beq	.LBB77_36
	adds	r0, r6, #2
	lsls	r1, r0, #4
	ldr	r3, [sp, #36]
	ldrb	r2, [r3, r1]
	adds	r1, r3, r1
	ldrb	r3, [r1, #1]
	lsls	r3, r3, #8
	adds	r2, r3, r2
	ldrb	r3, [r1, #2]
	lsls	r3, r3, #16
	ldrb	r4, [r1, #3]
	lsls	r4, r4, #24
	adds	r3, r4, r3
	adds	r3, r3, r2
	lsls	r0, r0, #3
	add	r2, sp, #164
	str	r3, [r2, r0]
	ldrb	r3, [r1, #12]
	ldrb	r4, [r1, #13]
	lsls	r4, r4, #8
	adds	r3, r4, r3
	ldrb	r4, [r1, #14]
	lsls	r4, r4, #16
	ldrb	r5, [r1, #15]
	lsls	r5, r5, #24
	adds	r4, r5, r4
	adds	r3, r4, r3
	beq	.LBB77_34
	ldr	r1, [sp, #4]
	mvns	r1, r1
	b	.LBB77_35
.LBB77_34:
	ldrb	r3, [r1, #8]
	ldrb	r4, [r1, #9]
	lsls	r4, r4, #8
	adds	r3, r4, r3
	ldrb	r4, [r1, #10]
	lsls	r4, r4, #16
	ldrb	r1, [r1, #11]
	lsls	r1, r1, #24
	adds	r1, r1, r4
	adds	r1, r1, r3
.LBB77_35:
	adds	r0, r2, r0
	str	r1, [r0, #4]
.LBB77_36:
	add	r5, sp, #72
	add	r1, sp, #164
	movs	r4, #0
	mov	r0, r5
	ldr	r2, [sp, #20]
	mov	r3, r4
	bl	tlsf_pool.sizes.split.rising_split.4
	ldrb	r0, [r5]
	cmp	r0, #0
	ldr	r0, [sp, #16]
	beq	.LBB77_38
	ldr	r0, [sp, #696]
	ldr	r1, [sp, #156]
	ldr	r2, [sp, #152]
	ldr	r3, [sp, #80]
	ldr	r5, [sp, #8]
	str	r2, [r5]
	str	r1, [r5, #4]
	str	r3, [r0]
	mov	r0, r4
.LBB77_38:
	add	sp, #508
	add	sp, #168
	pop	{r4, r5, r6, r7, pc}
.Lfunc_end77:
	.size	tlsf_pools_words, .Lfunc_end77-tlsf_pools_words
	.cfi_endproc
	.section	.text.tlsf_post_close,"ax",%progbits
	.globl	tlsf_post_close
	.p2align	1
	.type	tlsf_post_close,%function
	.code	16
	.thumb_func
tlsf_post_close:
	.cfi_startproc
	push	{r4, r5, r6, r7, lr}
	.cfi_def_cfa_offset 20
	.cfi_offset lr, -4
	.cfi_offset r7, -8
	.cfi_offset r6, -12
	.cfi_offset r5, -16
	.cfi_offset r4, -20
	sub	sp, #108
	.cfi_def_cfa_offset 128
	ldrb	r1, [r0, #8]
	movs	r4, #32
	cmp	r1, #0
	beq	.LBB78_5
	ldr	r1, [r0]
	ldrb	r2, [r1, #1]
	cmp	r2, #1
	bne	.LBB78_5
	ldrb	r2, [r1]
	cmp	r2, #0
	beq	.LBB78_4
	movs	r4, #40
	b	.LBB78_5
.LBB78_4:
	movs	r4, #0
	strb	r4, [r1, #1]
	ldrb	r1, [r0, #3]
	str	r1, [sp, #4]
	ldrb	r6, [r0, #2]
	ldrb	r7, [r0]
	ldrb	r5, [r0, #1]
	movs	r2, #16
	mov	r1, r4
	bl	tlsf_memory_set
	lsls	r0, r5, #8
	adds	r0, r0, r7
	lsls	r1, r6, #16
	ldr	r2, [sp, #4]
	lsls	r2, r2, #24
	adds	r1, r2, r1
	adds	r7, r1, r0
	ldrb	r0, [r7]
	str	r0, [sp, #4]
	ldrb	r0, [r7, #1]
	str	r0, [sp]
	mov	r1, r7
	adds	r1, #8
	add	r0, sp, #8
	adds	r5, r0, #6
	movs	r6, #40
	mov	r0, r5
	mov	r2, r6
	bl	tlsf_memory_cpy
	mov	r0, r7
	bl	tlsf_memory_dealloc
	str	r4, [sp, #56]
	add	r7, sp, #56
	ldr	r0, [sp]
	strb	r0, [r7, #1]
	ldr	r0, [sp, #4]
	strb	r0, [r7]
	str	r4, [sp, #60]
	mov	r0, r7
	adds	r0, #8
	mov	r1, r5
	mov	r2, r6
	bl	tlsf_memory_cpy
	mov	r0, r7
	bl	tlsf_c.tlsf_c.any_end.AnyEnd.Destruct.drop
.LBB78_5:
	mov	r0, r4
	add	sp, #108
	pop	{r4, r5, r6, r7, pc}
.Lfunc_end78:
	.size	tlsf_post_close, .Lfunc_end78-tlsf_post_close
	.cfi_endproc
	.section	.text.tlsf_poster_close,"ax",%progbits
	.globl	tlsf_poster_close
	.p2align	1
	.type	tlsf_poster_close,%function
	.code	16
	.thumb_func
tlsf_poster_close:
	.cfi_startproc
	push	{r4, r5, r6, r7, lr}
	.cfi_def_cfa_offset 20
	.cfi_offset lr, -4
	.cfi_offset r7, -8
	.cfi_offset r6, -12
	.cfi_offset r5, -16
	.cfi_offset r4, -20
	sub	sp, #108
	.cfi_def_cfa_offset 128
	ldrb	r1, [r0, #8]
	movs	r4, #32
	cmp	r1, #0
	beq	.LBB79_5
	ldr	r1, [r0]
	ldrb	r2, [r1, #1]
	cmp	r2, #1
	bne	.LBB79_5
	ldrb	r2, [r1]
	cmp	r2, #3
	bne	.LBB79_4
	movs	r4, #0
	strb	r4, [r1, #1]
	ldrb	r1, [r0, #3]
	str	r1, [sp, #4]
	ldrb	r6, [r0, #2]
	ldrb	r7, [r0]
	ldrb	r5, [r0, #1]
	movs	r2, #16
	mov	r1, r4
	bl	tlsf_memory_set
	lsls	r0, r5, #8
	adds	r0, r0, r7
	lsls	r1, r6, #16
	ldr	r2, [sp, #4]
	lsls	r2, r2, #24
	adds	r1, r2, r1
	adds	r7, r1, r0
	ldrb	r0, [r7]
	str	r0, [sp, #4]
	ldrb	r0, [r7, #1]
	str	r0, [sp]
	mov	r1, r7
	adds	r1, #8
	add	r0, sp, #8
	adds	r5, r0, #6
	movs	r6, #40
	mov	r0, r5
	mov	r2, r6
	bl	tlsf_memory_cpy
	mov	r0, r7
	bl	tlsf_memory_dealloc
	str	r4, [sp, #56]
	add	r7, sp, #56
	ldr	r0, [sp]
	strb	r0, [r7, #1]
	ldr	r0, [sp, #4]
	strb	r0, [r7]
	str	r4, [sp, #60]
	mov	r0, r7
	adds	r0, #8
	mov	r1, r5
	mov	r2, r6
	bl	tlsf_memory_cpy
	mov	r0, r7
	bl	tlsf_c.tlsf_c.any_end.AnyEnd.Destruct.drop
	b	.LBB79_5
.LBB79_4:
	movs	r4, #40
.LBB79_5:
	mov	r0, r4
	add	sp, #108
	pop	{r4, r5, r6, r7, pc}
.Lfunc_end79:
	.size	tlsf_poster_close, .Lfunc_end79-tlsf_poster_close
	.cfi_endproc
	.section	.text.tlsf_poster_open,"ax",%progbits
	.globl	tlsf_poster_open
	.p2align	1
	.type	tlsf_poster_open,%function
	.code	16
	.thumb_func
tlsf_poster_open:
	.cfi_startproc
	push	{r4, r5, r6, r7, lr}
	.cfi_def_cfa_offset 20
	.cfi_offset lr, -4
	.cfi_offset r7, -8
	.cfi_offset r6, -12
	.cfi_offset r5, -16
	.cfi_offset r4, -20
	sub	sp, #4
	.cfi_def_cfa_offset 24
	ldrb	r2, [r0, #8]
	cmp	r2, #0
	beq	.LBB80_10
	ldr	r2, [r0]
	ldrb	r0, [r2, #1]
	cmp	r0, #0
	beq	.LBB80_10
	ldrb	r0, [r2]
	ldrb	r3, [r1, #8]
	cmp	r3, #1
	bne	.LBB80_5
	cmp	r0, #2
	beq	.LBB80_8
	movs	r0, #40
	add	sp, #4
	pop	{r4, r5, r6, r7, pc}
.LBB80_5:
	cmp	r0, #2
	bne	.LBB80_12
	movs	r0, #0
	strb	r0, [r2, #1]
	ldr	r4, [r2, #32]
	ldr	r3, [r2, #36]
	mov	r5, r4
	orrs	r5, r3
	beq	.LBB80_9
	subs	r4, r4, #1
	str	r4, [r2, #32]
	sbcs	r3, r0
	str	r3, [r2, #36]
	ldr	r3, [r2, #24]
	lsls	r4, r4, #3
	ldrb	r5, [r3, r4]
	adds	r3, r3, r4
	ldrb	r4, [r3, #1]
	ldrb	r6, [r3, #2]
	ldrb	r3, [r3, #3]
	movs	r7, #1
	strb	r7, [r2, #1]
	strb	r0, [r1, #7]
	strb	r0, [r1, #6]
	strb	r0, [r1, #5]
	strb	r0, [r1, #4]
	strb	r3, [r1, #3]
	strb	r6, [r1, #2]
	strb	r4, [r1, #1]
	strb	r5, [r1]
	strb	r0, [r1, #9]
	strb	r7, [r1, #8]
	strb	r0, [r1, #10]
	strb	r0, [r1, #11]
	strb	r0, [r1, #12]
	strb	r0, [r1, #13]
	strb	r0, [r1, #14]
	strb	r0, [r1, #15]
	add	sp, #4
	pop	{r4, r5, r6, r7, pc}
.LBB80_8:
	movs	r0, #33
	add	sp, #4
	pop	{r4, r5, r6, r7, pc}
.LBB80_9:
	movs	r0, #1
	strb	r0, [r2, #1]
	movs	r0, #35
	add	sp, #4
	pop	{r4, r5, r6, r7, pc}
.LBB80_10:
	movs	r0, #0
.LBB80_11:
	bl	tlsf_c.call_fault.CallFault.refusal
	add	sp, #4
	pop	{r4, r5, r6, r7, pc}
.LBB80_12:
	movs	r0, #2
	b	.LBB80_11
.Lfunc_end80:
	.size	tlsf_poster_open, .Lfunc_end80-tlsf_poster_open
	.cfi_endproc
	.section	.text.tlsf_put,"ax",%progbits
	.globl	tlsf_put
	.p2align	1
	.type	tlsf_put,%function
	.code	16
	.thumb_func
tlsf_put:
	.cfi_startproc
	push	{r4, r5, r6, r7, lr}
	.cfi_def_cfa_offset 20
	.cfi_offset lr, -4
	.cfi_offset r7, -8
	.cfi_offset r6, -12
	.cfi_offset r5, -16
	.cfi_offset r4, -20
	sub	sp, #28
	.cfi_def_cfa_offset 48
	ldrb	r1, [r0, #8]
	cmp	r1, #0
	bne	.LBB81_1
	b	.LBB81_21
.LBB81_1:
	ldr	r7, [r0]
	ldrb	r0, [r7, #1]
	cmp	r0, #0
	bne	.LBB81_2
	b	.LBB81_21
.LBB81_2:
	ldrb	r0, [r7]
	cmp	r0, #0
	beq	.LBB81_3
	b	.LBB81_22
.LBB81_3:
	str	r3, [sp, #16]
	str	r2, [sp, #20]
	movs	r0, #0
	str	r0, [sp, #12]
	strb	r0, [r7, #1]
	ldr	r6, [r7, #24]
	ldr	r4, [r7, #28]
	ldr	r1, [r7, #32]
	ldr	r5, [r7, #36]
	ldr	r2, [r7, #40]
	ldr	r3, [r7, #44]
	subs	r0, r2, r1
	mov	r0, r3
	sbcs	r0, r5
	str	r2, [sp, #24]
	bhs	.LBB81_5
	lsrs	r0, r6, #31
	str	r3, [sp, #8]
	mov	r3, r6
	lsls	r6, r4, #1
	adds	r0, r6, r0
	lsls	r6, r3, #1
	subs	r1, r6, r1
	mov	r6, r3
	ldr	r3, [sp, #8]
	sbcs	r0, r5
	adds	r1, r1, r2
	adcs	r0, r3
	b	.LBB81_6
.LBB81_5:
	subs	r1, r2, r1
	mov	r0, r3
	sbcs	r0, r5
.LBB81_6:
	eors	r1, r6
	eors	r0, r4
	orrs	r0, r1
	bne	.LBB81_12
	ldr	r0, [r7, #8]
	movs	r1, #5
	bl	__atomic_load_8
	str	r0, [r7, #32]
	str	r1, [r7, #36]
	ldr	r6, [r7, #24]
	ldr	r4, [r7, #28]
	ldr	r2, [r7, #40]
	ldr	r3, [r7, #44]
	subs	r5, r2, r0
	mov	r5, r3
	sbcs	r5, r1
	str	r2, [sp, #24]
	bhs	.LBB81_9
	lsrs	r5, r6, #31
	str	r3, [sp, #8]
	mov	r3, r6
	lsls	r6, r4, #1
	adds	r5, r6, r5
	lsls	r6, r3, #1
	subs	r0, r6, r0
	mov	r6, r3
	ldr	r3, [sp, #8]
	sbcs	r5, r1
	adds	r0, r0, r2
	adcs	r5, r3
	b	.LBB81_10
.LBB81_9:
	subs	r0, r2, r0
	mov	r5, r3
	sbcs	r5, r1
.LBB81_10:
	eors	r0, r6
	eors	r5, r4
	orrs	r5, r0
	bne	.LBB81_12
	movs	r0, #1
	strb	r0, [r7, #1]
	movs	r4, #8
	b	.LBB81_24
.LBB81_12:
	ldr	r5, [sp, #52]
	ldr	r1, [sp, #48]
	str	r6, [sp, #8]
	ldr	r2, [sp, #24]
	subs	r6, r2, r6
	mov	r0, r3
	str	r4, [sp, #4]
	sbcs	r0, r4
	mov	r0, r2
	blo	.LBB81_14
	mov	r0, r6
.LBB81_14:
	movs	r6, #24
	muls	r6, r0, r6
	ldr	r0, [r7, #16]
	ldr	r4, [sp, #12]
	strb	r4, [r0, r6]
	adds	r0, r0, r6
	lsrs	r6, r5, #24
	strb	r6, [r0, #23]
	lsrs	r6, r5, #16
	strb	r6, [r0, #22]
	lsrs	r6, r5, #8
	strb	r6, [r0, #21]
	strb	r5, [r0, #20]
	lsrs	r5, r1, #24
	strb	r5, [r0, #19]
	lsrs	r5, r1, #16
	strb	r5, [r0, #18]
	lsrs	r5, r1, #8
	strb	r5, [r0, #17]
	strb	r1, [r0, #16]
	ldr	r5, [sp, #16]
	lsrs	r1, r5, #24
	strb	r1, [r0, #15]
	lsrs	r1, r5, #16
	strb	r1, [r0, #14]
	lsrs	r1, r5, #8
	strb	r1, [r0, #13]
	strb	r5, [r0, #12]
	ldr	r5, [sp, #20]
	lsrs	r1, r5, #24
	strb	r1, [r0, #11]
	lsrs	r1, r5, #16
	strb	r1, [r0, #10]
	lsrs	r1, r5, #8
	strb	r1, [r0, #9]
	strb	r5, [r0, #8]
	strb	r4, [r0, #7]
	strb	r4, [r0, #6]
	strb	r4, [r0, #5]
	strb	r4, [r0, #4]
	strb	r4, [r0, #3]
	strb	r4, [r0, #2]
	strb	r4, [r0, #1]
	ldr	r0, [r7, #8]
	str	r0, [sp, #20]
	movs	r1, #5
	str	r1, [sp]
	adds	r0, r2, #1
	str	r0, [sp, #16]
	mov	r5, r3
	adcs	r5, r4
	mov	r0, r4
	mov	r4, r3
	ldr	r3, [sp, #8]
	lsrs	r1, r3, #31
	str	r2, [sp, #24]
	ldr	r2, [sp, #4]
	lsls	r6, r2, #1
	adds	r1, r6, r1
	lsls	r6, r3, #1
	subs	r6, r6, #1
	sbcs	r1, r0
	movs	r3, #1
	ldr	r2, [sp, #24]
	subs	r2, r2, r6
	sbcs	r4, r1
	mov	r4, r0
	str	r3, [sp, #24]
	mov	r1, r3
	bhs	.LBB81_19
	cmp	r1, #0
	beq	.LBB81_20
.LBB81_16:
	ldr	r6, [sp, #16]
	bne	.LBB81_18
.LBB81_17:
	mov	r6, r1
.LBB81_18:
	ldr	r0, [sp, #20]
	adds	r0, #128
	mov	r2, r6
	mov	r3, r5
	bl	__atomic_store_8
	str	r6, [r7, #40]
	str	r5, [r7, #44]
	ldr	r0, [sp, #24]
	strb	r0, [r7, #1]
	b	.LBB81_24
.LBB81_19:
	mov	r1, r4
	cmp	r1, #0
	bne	.LBB81_16
.LBB81_20:
	mov	r5, r1
	ldr	r6, [sp, #16]
	beq	.LBB81_17
	b	.LBB81_18
.LBB81_21:
	movs	r0, #0
	b	.LBB81_23
.LBB81_22:
	movs	r0, #2
.LBB81_23:
	bl	tlsf_c.call_fault.CallFault.refusal
	mov	r4, r0
.LBB81_24:
	mov	r0, r4
	add	sp, #28
	pop	{r4, r5, r6, r7, pc}
.Lfunc_end81:
	.size	tlsf_put, .Lfunc_end81-tlsf_put
	.cfi_endproc
	.section	.text.tlsf_put_all,"ax",%progbits
	.globl	tlsf_put_all
	.p2align	1
	.type	tlsf_put_all,%function
	.code	16
	.thumb_func
tlsf_put_all:
	.cfi_startproc
	push	{r4, r5, r6, r7, lr}
	.cfi_def_cfa_offset 20
	.cfi_offset lr, -4
	.cfi_offset r7, -8
	.cfi_offset r6, -12
	.cfi_offset r5, -16
	.cfi_offset r4, -20
	sub	sp, #508
	sub	sp, #352
	.cfi_def_cfa_offset 880
	str	r3, [sp, #8]
	mov	r3, r2
	mov	r2, r1
	movs	r1, #1
	cmp	r2, #0
	str	r1, [sp, #12]
	bne	.LBB82_2
	lsls	r1, r1, #12
	adds	r2, r2, r1
.LBB82_2:
	ldr	r1, [sp, #8]
	ldr	r4, [r1]
	ldrb	r1, [r0, #8]
	cmp	r1, #0
	bne	.LBB82_3
	b	.LBB82_56
.LBB82_3:
	ldr	r6, [r0]
	ldrb	r0, [r6, #1]
	cmp	r0, #0
	bne	.LBB82_4
	b	.LBB82_56
.LBB82_4:
	ldrb	r0, [r6]
	cmp	r0, #0
	beq	.LBB82_5
	b	.LBB82_57
.LBB82_5:
	movs	r1, #0
	strb	r1, [r6, #1]
	cmp	r3, #0
	mov	r4, r1
	bne	.LBB82_6
	b	.LBB82_54
.LBB82_6:
	str	r1, [sp, #4]
	str	r2, [sp, #16]
	movs	r0, #0
	mov	r4, r0
	str	r0, [sp, #40]
	mov	r2, r0
	str	r3, [sp, #20]
	str	r6, [sp, #24]
.LBB82_7:
	movs	r0, #3
	mov	r5, r2
	str	r0, [sp, #48]
	lsls	r2, r0, #8
	add	r0, sp, #88
	ldr	r7, [sp, #40]
	mov	r1, r7
	mov	r6, r3
	bl	tlsf_memory_set
	str	r4, [sp, #36]
	subs	r1, r6, r4
	str	r5, [sp, #32]
	sbcs	r7, r5
	movs	r2, #32
	cmp	r1, #32
	mov	r3, r1
	blo	.LBB82_9
	mov	r3, r2
.LBB82_9:
	cmp	r7, #0
	beq	.LBB82_11
	mov	r3, r2
.LBB82_11:
	cmp	r3, #1
	str	r3, [sp, #44]
	str	r3, [sp, #52]
	ldr	r2, [sp, #48]
	bhi	.LBB82_13
	ldr	r3, [sp, #12]
	str	r3, [sp, #52]
.LBB82_13:
	ldr	r4, [sp, #52]
	ands	r4, r2
	ldr	r2, [sp, #36]
	lsls	r2, r2, #4
	ldr	r3, [sp, #16]
	adds	r6, r3, r2
	subs	r1, r1, #4
	ldr	r5, [sp, #40]
	sbcs	r7, r5
	str	r6, [sp, #80]
	str	r4, [sp, #28]
	bhs	.LBB82_14
	b	.LBB82_17
.LBB82_14:
	movs	r0, #60
	ldr	r1, [sp, #52]
	ands	r1, r0
	str	r1, [sp, #52]
	movs	r0, #0
	mov	r5, r0
	str	r0, [sp, #76]
	mov	r2, r0
.LBB82_15:
	str	r2, [sp, #68]
	str	r5, [sp, #84]
	movs	r0, #24
	str	r0, [sp, #72]
	muls	r0, r5, r0
	add	r1, sp, #88
	ldr	r2, [sp, #76]
	str	r2, [r1, r0]
	mov	r2, r1
	ldr	r1, [sp, #84]
	lsls	r5, r1, #4
	adds	r4, r6, r5
	ldrb	r3, [r4, #8]
	ldrb	r6, [r4, #9]
	lsls	r6, r6, #8
	adds	r3, r6, r3
	ldrb	r6, [r4, #10]
	lsls	r6, r6, #16
	ldrb	r7, [r4, #11]
	lsls	r7, r7, #24
	adds	r6, r7, r6
	adds	r6, r6, r3
	mov	r3, r2
	adds	r1, r2, r0
	str	r6, [r1, #16]
	str	r1, [sp, #56]
	ldr	r0, [sp, #80]
	ldrb	r0, [r0, r5]
	ldrb	r5, [r4, #1]
	lsls	r5, r5, #8
	adds	r0, r5, r0
	ldrb	r5, [r4, #2]
	lsls	r5, r5, #16
	ldrb	r6, [r4, #3]
	lsls	r6, r6, #24
	adds	r5, r6, r5
	adds	r0, r5, r0
	str	r0, [r1, #8]
	movs	r0, #1
	ldr	r1, [sp, #84]
	orrs	r0, r1
	ldr	r5, [sp, #72]
	muls	r5, r0, r5
	ldr	r1, [sp, #76]
	str	r1, [r2, r5]
	lsls	r6, r0, #4
	ldr	r0, [sp, #80]
	adds	r0, r0, r6
	ldrb	r7, [r0, #8]
	ldrb	r2, [r0, #9]
	lsls	r2, r2, #8
	adds	r2, r2, r7
	ldrb	r7, [r0, #10]
	lsls	r7, r7, #16
	ldrb	r1, [r0, #11]
	lsls	r1, r1, #24
	adds	r1, r1, r7
	adds	r1, r1, r2
	str	r3, [sp, #60]
	adds	r7, r3, r5
	str	r1, [r7, #16]
	ldr	r1, [sp, #80]
	ldrb	r1, [r1, r6]
	ldrb	r2, [r0, #1]
	lsls	r2, r2, #8
	adds	r1, r2, r1
	ldrb	r2, [r0, #2]
	lsls	r2, r2, #16
	ldrb	r5, [r0, #3]
	lsls	r5, r5, #24
	adds	r2, r5, r2
	adds	r1, r2, r1
	str	r1, [r7, #8]
	movs	r6, #2
	ldr	r1, [sp, #84]
	orrs	r6, r1
	ldr	r2, [sp, #72]
	muls	r2, r6, r2
	str	r2, [sp, #64]
	ldr	r1, [sp, #76]
	str	r1, [r3, r2]
	ldr	r3, [sp, #56]
	str	r1, [r3, #4]
	ldrb	r1, [r4, #12]
	ldrb	r2, [r4, #13]
	lsls	r2, r2, #8
	adds	r1, r2, r1
	ldrb	r2, [r4, #14]
	lsls	r2, r2, #16
	ldrb	r5, [r4, #15]
	lsls	r5, r5, #24
	adds	r2, r5, r2
	adds	r1, r2, r1
	str	r1, [r3, #20]
	ldrb	r1, [r4, #4]
	ldrb	r2, [r4, #5]
	lsls	r2, r2, #8
	adds	r1, r2, r1
	ldrb	r2, [r4, #6]
	lsls	r2, r2, #16
	ldrb	r4, [r4, #7]
	lsls	r4, r4, #24
	adds	r2, r4, r2
	adds	r1, r2, r1
	str	r1, [r3, #12]
	ldrb	r1, [r0, #12]
	ldrb	r2, [r0, #13]
	lsls	r2, r2, #8
	adds	r1, r2, r1
	ldrb	r2, [r0, #14]
	lsls	r2, r2, #16
	ldrb	r3, [r0, #15]
	lsls	r3, r3, #24
	adds	r2, r3, r2
	adds	r1, r2, r1
	str	r1, [r7, #20]
	ldrb	r1, [r0, #4]
	ldrb	r2, [r0, #5]
	lsls	r2, r2, #8
	adds	r1, r2, r1
	ldrb	r2, [r0, #6]
	lsls	r2, r2, #16
	ldrb	r0, [r0, #7]
	lsls	r0, r0, #24
	adds	r0, r0, r2
	adds	r0, r0, r1
	str	r0, [r7, #12]
	ldr	r0, [sp, #76]
	str	r0, [r7, #4]
	lsls	r4, r6, #4
	ldr	r7, [sp, #80]
	adds	r0, r7, r4
	ldrb	r1, [r0, #12]
	ldrb	r2, [r0, #13]
	lsls	r2, r2, #8
	adds	r1, r2, r1
	ldrb	r2, [r0, #14]
	lsls	r2, r2, #16
	ldrb	r3, [r0, #15]
	lsls	r3, r3, #24
	adds	r2, r3, r2
	adds	r1, r2, r1
	ldr	r6, [sp, #60]
	ldr	r2, [sp, #64]
	adds	r3, r6, r2
	str	r1, [r3, #20]
	ldrb	r1, [r0, #8]
	ldrb	r2, [r0, #9]
	lsls	r2, r2, #8
	adds	r1, r2, r1
	ldrb	r2, [r0, #10]
	lsls	r2, r2, #16
	ldrb	r5, [r0, #11]
	lsls	r5, r5, #24
	adds	r2, r5, r2
	adds	r1, r2, r1
	str	r1, [r3, #16]
	ldrb	r1, [r7, r4]
	ldrb	r2, [r0, #1]
	lsls	r2, r2, #8
	adds	r1, r2, r1
	ldrb	r2, [r0, #2]
	lsls	r2, r2, #16
	ldrb	r4, [r0, #3]
	lsls	r4, r4, #24
	adds	r2, r4, r2
	adds	r1, r2, r1
	str	r1, [r3, #8]
	ldr	r4, [sp, #84]
	ldr	r1, [sp, #48]
	orrs	r4, r1
	ldr	r1, [sp, #72]
	muls	r1, r4, r1
	ldr	r7, [sp, #76]
	str	r7, [r6, r1]
	mov	r5, r1
	ldrb	r1, [r0, #4]
	ldrb	r2, [r0, #5]
	lsls	r2, r2, #8
	adds	r1, r2, r1
	ldrb	r2, [r0, #6]
	lsls	r2, r2, #16
	ldrb	r0, [r0, #7]
	lsls	r0, r0, #24
	adds	r0, r0, r2
	adds	r0, r0, r1
	str	r0, [r3, #12]
	str	r7, [r3, #4]
	adds	r0, r6, r5
	ldr	r6, [sp, #80]
	str	r7, [r0, #4]
	lsls	r2, r4, #4
	adds	r1, r6, r2
	ldrb	r3, [r1, #12]
	ldrb	r4, [r1, #13]
	lsls	r4, r4, #8
	adds	r3, r4, r3
	ldrb	r4, [r1, #14]
	lsls	r4, r4, #16
	ldrb	r5, [r1, #15]
	lsls	r5, r5, #24
	adds	r4, r5, r4
	adds	r3, r4, r3
	str	r3, [r0, #20]
	ldrb	r3, [r1, #8]
	ldrb	r4, [r1, #9]
	lsls	r4, r4, #8
	adds	r3, r4, r3
	ldrb	r4, [r1, #10]
	lsls	r4, r4, #16
	ldrb	r5, [r1, #11]
	lsls	r5, r5, #24
	adds	r4, r5, r4
	ldr	r5, [sp, #84]
	adds	r3, r4, r3
	str	r3, [r0, #16]
	ldrb	r2, [r6, r2]
	ldrb	r3, [r1, #1]
	lsls	r3, r3, #8
	adds	r2, r3, r2
	ldrb	r3, [r1, #2]
	lsls	r3, r3, #16
	ldrb	r4, [r1, #3]
	lsls	r4, r4, #24
	adds	r3, r4, r3
	adds	r2, r3, r2
	str	r2, [r0, #8]
	ldrb	r2, [r1, #4]
	ldrb	r3, [r1, #5]
	lsls	r3, r3, #8
	adds	r2, r3, r2
	ldrb	r3, [r1, #6]
	lsls	r3, r3, #16
	ldrb	r1, [r1, #7]
	lsls	r1, r1, #24
	adds	r1, r1, r3
	adds	r1, r1, r2
	ldr	r2, [sp, #68]
	str	r1, [r0, #12]
	adds	r5, r5, #4
	adcs	r2, r7
	mov	r0, r5
	ldr	r1, [sp, #52]
	eors	r0, r1
	orrs	r0, r2
	beq	.LBB82_16
	b	.LBB82_15
.LBB82_16:
	ldr	r4, [sp, #28]
	cmp	r4, #0
	bne	.LBB82_17
	b	.LBB82_20
.LBB82_17:
	str	r5, [sp, #84]
	movs	r0, #24
	str	r0, [sp, #76]
	muls	r0, r5, r0
	add	r2, sp, #88
	movs	r3, #0
	str	r3, [r2, r0]
	adds	r0, r2, r0
	str	r3, [r0, #4]
	mov	r1, r4
	lsls	r4, r5, #4
	adds	r2, r6, r4
	ldrb	r5, [r2, #12]
	ldrb	r6, [r2, #13]
	lsls	r6, r6, #8
	adds	r5, r6, r5
	ldrb	r6, [r2, #14]
	lsls	r6, r6, #16
	ldrb	r7, [r2, #15]
	lsls	r7, r7, #24
	adds	r6, r7, r6
	adds	r5, r6, r5
	str	r5, [r0, #20]
	ldrb	r5, [r2, #8]
	ldrb	r6, [r2, #9]
	lsls	r6, r6, #8
	adds	r5, r6, r5
	ldrb	r6, [r2, #10]
	lsls	r6, r6, #16
	ldrb	r7, [r2, #11]
	lsls	r7, r7, #24
	adds	r6, r7, r6
	adds	r5, r6, r5
	str	r5, [r0, #16]
	ldrb	r5, [r2, #4]
	ldrb	r6, [r2, #5]
	lsls	r6, r6, #8
	adds	r5, r6, r5
	ldrb	r6, [r2, #6]
	lsls	r6, r6, #16
	ldrb	r7, [r2, #7]
	lsls	r7, r7, #24
	adds	r6, r7, r6
	adds	r5, r6, r5
	ldr	r6, [sp, #80]
	str	r5, [r0, #12]
	ldrb	r4, [r6, r4]
	ldrb	r5, [r2, #1]
	lsls	r5, r5, #8
	adds	r4, r5, r4
	ldrb	r5, [r2, #2]
	lsls	r5, r5, #16
	ldrb	r2, [r2, #3]
	lsls	r2, r2, #24
	adds	r2, r2, r5
	ldr	r5, [sp, #84]
	adds	r2, r2, r4
	str	r2, [r0, #8]
	cmp	r1, #1
	beq	.LBB82_20
	adds	r2, r5, #1
	ldr	r0, [sp, #76]
	muls	r0, r2, r0
	add	r4, sp, #88
	str	r3, [r4, r0]
	adds	r0, r4, r0
	str	r3, [r0, #4]
	lsls	r4, r2, #4
	adds	r2, r6, r4
	ldrb	r5, [r2, #12]
	ldrb	r6, [r2, #13]
	lsls	r6, r6, #8
	adds	r5, r6, r5
	ldrb	r6, [r2, #14]
	lsls	r6, r6, #16
	ldrb	r7, [r2, #15]
	lsls	r7, r7, #24
	adds	r6, r7, r6
	adds	r5, r6, r5
	str	r5, [r0, #20]
	ldrb	r5, [r2, #8]
	ldrb	r6, [r2, #9]
	lsls	r6, r6, #8
	adds	r5, r6, r5
	ldrb	r6, [r2, #10]
	lsls	r6, r6, #16
	ldrb	r7, [r2, #11]
	lsls	r7, r7, #24
	adds	r6, r7, r6
	adds	r5, r6, r5
	str	r5, [r0, #16]
	ldrb	r5, [r2, #4]
	ldrb	r6, [r2, #5]
	lsls	r6, r6, #8
	adds	r5, r6, r5
	ldrb	r6, [r2, #6]
	lsls	r6, r6, #16
	ldrb	r7, [r2, #7]
	lsls	r7, r7, #24
	adds	r6, r7, r6
	adds	r5, r6, r5
	ldr	r6, [sp, #80]
	str	r5, [r0, #12]
	ldrb	r4, [r6, r4]
	ldrb	r5, [r2, #1]
	lsls	r5, r5, #8
	adds	r4, r5, r4
	ldrb	r5, [r2, #2]
	lsls	r5, r5, #16
	ldrb	r2, [r2, #3]
	lsls	r2, r2, #24
	adds	r2, r2, r5
	ldr	r1, [sp, #84]
	adds	r2, r2, r4
	str	r2, [r0, #8]
	ldr	r0, [sp, #28]
	cmp	r0, #2
	beq	.LBB82_20
	adds	r2, r1, #2
	ldr	r1, [sp, #76]
	muls	r1, r2, r1
	add	r0, sp, #88
	str	r3, [r0, r1]
	adds	r0, r0, r1
	str	r3, [r0, #4]
	lsls	r2, r2, #4
	adds	r1, r6, r2
	ldrb	r3, [r1, #12]
	ldrb	r4, [r1, #13]
	lsls	r4, r4, #8
	adds	r3, r4, r3
	ldrb	r4, [r1, #14]
	lsls	r4, r4, #16
	ldrb	r5, [r1, #15]
	lsls	r5, r5, #24
	adds	r4, r5, r4
	adds	r3, r4, r3
	str	r3, [r0, #20]
	ldrb	r3, [r1, #8]
	ldrb	r4, [r1, #9]
	lsls	r4, r4, #8
	adds	r3, r4, r3
	ldrb	r4, [r1, #10]
	lsls	r4, r4, #16
	ldrb	r5, [r1, #11]
	lsls	r5, r5, #24
	adds	r4, r5, r4
	adds	r3, r4, r3
	str	r3, [r0, #16]
	ldrb	r3, [r1, #4]
	ldrb	r4, [r1, #5]
	lsls	r4, r4, #8
	adds	r3, r4, r3
	ldrb	r4, [r1, #6]
	lsls	r4, r4, #16
	ldrb	r5, [r1, #7]
	lsls	r5, r5, #24
	adds	r4, r5, r4
	adds	r3, r4, r3
	str	r3, [r0, #12]
	ldrb	r2, [r6, r2]
	ldrb	r3, [r1, #1]
	lsls	r3, r3, #8
	adds	r2, r3, r2
	ldrb	r3, [r1, #2]
	lsls	r3, r3, #16
	ldrb	r1, [r1, #3]
	lsls	r1, r1, #24
	adds	r1, r1, r3
	adds	r1, r1, r2
	str	r1, [r0, #8]
.LBB82_20:
	ldr	r6, [sp, #24]
	ldr	r7, [r6, #24]
	ldr	r5, [r6, #28]
	ldr	r2, [r6, #32]
	ldr	r1, [r6, #36]
	ldr	r4, [r6, #40]
	ldr	r3, [r6, #44]
	subs	r0, r4, r2
	mov	r0, r3
	sbcs	r0, r1
	str	r5, [sp, #84]
	str	r4, [sp, #76]
	bhs	.LBB82_22
	lsrs	r0, r7, #31
	mov	r5, r7
	mov	r7, r3
	ldr	r3, [sp, #84]
	lsls	r3, r3, #1
	adds	r0, r3, r0
	lsls	r3, r5, #1
	subs	r2, r3, r2
	mov	r3, r7
	mov	r7, r5
	ldr	r5, [sp, #84]
	sbcs	r0, r1
	adds	r2, r2, r4
	adcs	r0, r3
	b	.LBB82_23
.LBB82_22:
	subs	r2, r4, r2
	mov	r0, r3
	sbcs	r0, r1
.LBB82_23:
	ldr	r1, [sp, #44]
	subs	r4, r7, r2
	mov	r2, r5
	sbcs	r2, r0
	movs	r5, #0
	subs	r0, r4, r1
	str	r5, [sp, #72]
	sbcs	r2, r5
	ldr	r5, [sp, #40]
	bhs	.LBB82_32
	ldr	r0, [r6, #8]
	movs	r1, #5
	bl	__atomic_load_8
	str	r0, [r6, #32]
	str	r1, [r6, #36]
	ldr	r7, [r6, #24]
	ldr	r5, [r6, #28]
	ldr	r4, [r6, #40]
	ldr	r3, [r6, #44]
	subs	r2, r4, r0
	mov	r2, r3
	sbcs	r2, r1
	str	r5, [sp, #84]
	str	r4, [sp, #76]
	bhs	.LBB82_26
	lsrs	r2, r7, #31
	mov	r5, r7
	mov	r7, r3
	ldr	r3, [sp, #84]
	lsls	r3, r3, #1
	adds	r2, r3, r2
	lsls	r3, r5, #1
	subs	r0, r3, r0
	mov	r3, r7
	mov	r7, r5
	ldr	r5, [sp, #84]
	sbcs	r2, r1
	adds	r0, r0, r4
	adcs	r2, r3
	b	.LBB82_27
.LBB82_26:
	subs	r0, r4, r0
	mov	r2, r3
	sbcs	r2, r1
.LBB82_27:
	subs	r1, r7, r0
	sbcs	r5, r2
	movs	r0, #1
	str	r0, [sp, #68]
	movs	r0, #0
	str	r1, [sp, #80]
	ldr	r4, [sp, #44]
	subs	r2, r1, r4
	mov	r1, r4
	mov	r4, r0
	mov	r2, r5
	sbcs	r2, r0
	blo	.LBB82_28
	b	.LBB82_50
.LBB82_28:
	ldr	r0, [sp, #68]
	blo	.LBB82_29
	b	.LBB82_51
.LBB82_29:
	cmp	r0, #0
	bne	.LBB82_31
.LBB82_30:
	mov	r5, r0
.LBB82_31:
	ldr	r1, [sp, #80]
.LBB82_32:
	mov	r0, r1
	orrs	r0, r5
	ldr	r4, [sp, #76]
	bne	.LBB82_33
	b	.LBB82_48
.LBB82_33:
	str	r1, [sp, #80]
	ldrb	r0, [r6, #16]
	ldrb	r1, [r6, #17]
	lsls	r1, r1, #8
	adds	r0, r1, r0
	ldrb	r1, [r6, #18]
	lsls	r1, r1, #16
	ldrb	r2, [r6, #19]
	lsls	r2, r2, #24
	adds	r1, r2, r1
	adds	r0, r1, r0
	str	r0, [sp, #56]
	ldrb	r0, [r6, #8]
	ldrb	r1, [r6, #9]
	lsls	r1, r1, #8
	adds	r0, r1, r0
	ldrb	r1, [r6, #10]
	lsls	r1, r1, #16
	ldrb	r2, [r6, #11]
	lsls	r2, r2, #24
	adds	r1, r2, r1
	adds	r0, r1, r0
	str	r0, [sp, #60]
	subs	r0, r4, r7
	mov	r0, r3
	ldr	r1, [sp, #84]
	sbcs	r0, r1
	ldr	r0, [sp, #72]
	mov	r2, r0
	blo	.LBB82_35
	ldr	r2, [sp, #84]
.LBB82_35:
	blo	.LBB82_37
	mov	r0, r7
.LBB82_37:
	str	r0, [sp, #72]
	subs	r0, r4, r0
	mov	r1, r3
	sbcs	r1, r2
	str	r7, [sp, #64]
	subs	r6, r7, r0
	ldr	r7, [sp, #84]
	sbcs	r7, r1
	ldr	r2, [sp, #80]
	subs	r2, r6, r2
	mov	r2, r7
	sbcs	r2, r5
	mov	r2, r6
	blo	.LBB82_39
	ldr	r2, [sp, #80]
.LBB82_39:
	str	r3, [sp, #68]
	movs	r3, #24
	mov	r4, r3
	str	r2, [sp, #52]
	muls	r4, r2, r4
	add	r2, sp, #88
	str	r2, [sp, #48]
	ldr	r2, [sp, #84]
	eors	r1, r2
	ldr	r2, [sp, #64]
	eors	r0, r2
	orrs	r0, r1
	beq	.LBB82_41
	mov	r0, r3
	ldr	r1, [sp, #76]
	muls	r0, r1, r0
	movs	r1, #23
	mvns	r1, r1
	ldr	r2, [sp, #72]
	muls	r1, r2, r1
	ldr	r2, [sp, #56]
	adds	r1, r2, r1
	adds	r0, r1, r0
	add	r1, sp, #88
	mov	r2, r4
	str	r3, [sp, #72]
	bl	tlsf_memory_cpy
	ldr	r3, [sp, #72]
.LBB82_41:
	ldr	r0, [sp, #80]
	subs	r0, r6, r0
	sbcs	r7, r5
	bhs	.LBB82_43
	ldr	r0, [sp, #48]
	adds	r1, r0, r4
	ldr	r0, [sp, #80]
	ldr	r2, [sp, #52]
	subs	r0, r0, r2
	muls	r3, r0, r3
	ldr	r0, [sp, #56]
	mov	r2, r3
	bl	tlsf_memory_cpy
.LBB82_43:
	movs	r0, #0
	ldr	r6, [sp, #24]
	strb	r0, [r6, #23]
	strb	r0, [r6, #22]
	strb	r0, [r6, #21]
	strb	r0, [r6, #20]
	ldr	r3, [sp, #56]
	strb	r3, [r6, #16]
	strb	r0, [r6, #15]
	strb	r0, [r6, #14]
	strb	r0, [r6, #13]
	strb	r0, [r6, #12]
	ldr	r2, [sp, #60]
	strb	r2, [r6, #8]
	lsrs	r1, r3, #24
	strb	r1, [r6, #19]
	lsrs	r1, r3, #16
	strb	r1, [r6, #18]
	lsrs	r1, r3, #8
	strb	r1, [r6, #17]
	lsrs	r1, r2, #24
	strb	r1, [r6, #11]
	lsrs	r1, r2, #16
	strb	r1, [r6, #10]
	lsrs	r1, r2, #8
	strb	r1, [r6, #9]
	movs	r1, #5
	str	r1, [sp]
	ldr	r3, [sp, #64]
	lsrs	r1, r3, #31
	ldr	r2, [sp, #84]
	lsls	r2, r2, #1
	adds	r2, r2, r1
	lsls	r1, r3, #1
	ldr	r7, [sp, #76]
	subs	r3, r1, r7
	ldr	r1, [sp, #68]
	sbcs	r2, r1
	rsbs	r1, r3, #0
	sbcs	r0, r2
	ldr	r4, [sp, #80]
	subs	r3, r4, r3
	mov	r3, r5
	sbcs	r3, r2
	blo	.LBB82_45
	str	r0, [sp, #68]
.LBB82_45:
	blo	.LBB82_47
	mov	r7, r1
.LBB82_47:
	ldr	r1, [sp, #80]
	adds	r7, r7, r1
	ldr	r4, [sp, #68]
	adcs	r4, r5
	ldr	r0, [sp, #60]
	adds	r0, #128
	mov	r2, r7
	mov	r3, r4
	bl	__atomic_store_8
	ldr	r1, [sp, #80]
	mov	r3, r4
	mov	r4, r7
.LBB82_48:
	str	r4, [r6, #40]
	str	r3, [r6, #44]
	ldr	r4, [sp, #36]
	adds	r4, r1, r4
	ldr	r2, [sp, #32]
	adcs	r2, r5
	movs	r0, #0
	ldr	r3, [sp, #44]
	subs	r1, r1, r3
	sbcs	r5, r0
	ldr	r3, [sp, #20]
	blo	.LBB82_53
	subs	r1, r4, r3
	mov	r1, r2
	sbcs	r1, r0
	bhs	.LBB82_53
	b	.LBB82_7
.LBB82_50:
	str	r1, [sp, #80]
	ldr	r0, [sp, #68]
	bhs	.LBB82_51
	b	.LBB82_29
.LBB82_51:
	mov	r0, r4
	cmp	r0, #0
	bne	.LBB82_52
	b	.LBB82_30
.LBB82_52:
	b	.LBB82_31
.LBB82_53:
	ldr	r1, [sp, #4]
.LBB82_54:
	movs	r0, #1
	strb	r0, [r6, #1]
.LBB82_55:
	ldr	r0, [sp, #8]
	str	r4, [r0]
	mov	r0, r1
	add	sp, #508
	add	sp, #352
	pop	{r4, r5, r6, r7, pc}
.LBB82_56:
	movs	r0, #0
	b	.LBB82_58
.LBB82_57:
	movs	r0, #2
.LBB82_58:
	bl	tlsf_c.call_fault.CallFault.refusal
	mov	r1, r0
	b	.LBB82_55
.Lfunc_end82:
	.size	tlsf_put_all, .Lfunc_end82-tlsf_put_all
	.cfi_endproc
	.section	.text.tlsf_queue_close,"ax",%progbits
	.globl	tlsf_queue_close
	.p2align	1
	.type	tlsf_queue_close,%function
	.code	16
	.thumb_func
tlsf_queue_close:
	.cfi_startproc
	push	{r4, r5, r6, r7, lr}
	.cfi_def_cfa_offset 20
	.cfi_offset lr, -4
	.cfi_offset r7, -8
	.cfi_offset r6, -12
	.cfi_offset r5, -16
	.cfi_offset r4, -20
	sub	sp, #108
	.cfi_def_cfa_offset 128
	ldrb	r1, [r0, #8]
	movs	r4, #32
	cmp	r1, #0
	beq	.LBB83_5
	ldr	r1, [r0]
	ldrb	r2, [r1, #1]
	cmp	r2, #1
	bne	.LBB83_5
	ldrb	r2, [r1]
	cmp	r2, #2
	bne	.LBB83_4
	movs	r4, #0
	strb	r4, [r1, #1]
	ldrb	r1, [r0, #3]
	str	r1, [sp, #4]
	ldrb	r6, [r0, #2]
	ldrb	r7, [r0]
	ldrb	r5, [r0, #1]
	movs	r2, #16
	mov	r1, r4
	bl	tlsf_memory_set
	lsls	r0, r5, #8
	adds	r0, r0, r7
	lsls	r1, r6, #16
	ldr	r2, [sp, #4]
	lsls	r2, r2, #24
	adds	r1, r2, r1
	adds	r7, r1, r0
	ldrb	r0, [r7]
	str	r0, [sp, #4]
	ldrb	r0, [r7, #1]
	str	r0, [sp]
	mov	r1, r7
	adds	r1, #8
	add	r0, sp, #8
	adds	r5, r0, #6
	movs	r6, #40
	mov	r0, r5
	mov	r2, r6
	bl	tlsf_memory_cpy
	mov	r0, r7
	bl	tlsf_memory_dealloc
	str	r4, [sp, #56]
	add	r7, sp, #56
	ldr	r0, [sp]
	strb	r0, [r7, #1]
	ldr	r0, [sp, #4]
	strb	r0, [r7]
	str	r4, [sp, #60]
	mov	r0, r7
	adds	r0, #8
	mov	r1, r5
	mov	r2, r6
	bl	tlsf_memory_cpy
	mov	r0, r7
	bl	tlsf_c.tlsf_c.any_end.AnyEnd.Destruct.drop
	b	.LBB83_5
.LBB83_4:
	movs	r4, #40
.LBB83_5:
	mov	r0, r4
	add	sp, #108
	pop	{r4, r5, r6, r7, pc}
.Lfunc_end83:
	.size	tlsf_queue_close, .Lfunc_end83-tlsf_queue_close
	.cfi_endproc
	.section	.text.tlsf_queue_drain,"ax",%progbits
	.globl	tlsf_queue_drain
	.p2align	1
	.type	tlsf_queue_drain,%function
	.code	16
	.thumb_func
tlsf_queue_drain:
	.cfi_startproc
	push	{r4, r5, r6, r7, lr}
	.cfi_def_cfa_offset 20
	.cfi_offset lr, -4
	.cfi_offset r7, -8
	.cfi_offset r6, -12
	.cfi_offset r5, -16
	.cfi_offset r4, -20
	sub	sp, #60
	.cfi_def_cfa_offset 80
	str	r2, [sp, #20]
	str	r0, [sp, #16]
	ldrb	r0, [r0, #8]
	cmp	r0, #0
	beq	.LBB84_12
	ldr	r0, [sp, #16]
	ldr	r0, [r0]
	ldrb	r0, [r0]
	cmp	r0, #1
	bne	.LBB84_12
	ldrb	r0, [r1, #8]
	cmp	r0, #0
	beq	.LBB84_12
	ldr	r7, [r1]
	ldrb	r0, [r7, #1]
	cmp	r0, #0
	beq	.LBB84_12
	ldrb	r0, [r7]
	cmp	r0, #2
	bne	.LBB84_14
	movs	r0, #0
	strb	r0, [r7, #1]
	ldr	r1, [sp, #20]
	cmp	r1, #0
	mov	r6, r0
	beq	.LBB84_11
	str	r3, [sp, #8]
	str	r0, [sp, #12]
	str	r7, [sp, #4]
	adds	r7, #8
	movs	r5, #0
	mov	r6, r5
.LBB84_7:
	str	r5, [sp, #52]
	str	r5, [sp, #48]
	str	r5, [sp, #44]
	str	r5, [sp, #40]
	str	r5, [sp, #36]
	str	r5, [sp, #32]
	str	r5, [sp, #28]
	str	r5, [sp, #24]
	add	r4, sp, #24
	mov	r0, r4
	mov	r1, r7
	bl	tlsf_c.queue_end.take_once
	ldrb	r0, [r4]
	cmp	r0, #0
	bne	.LBB84_10
	ldr	r1, [sp, #40]
	add	r3, sp, #44
	ldm	r3, {r0, r2, r3}
	str	r0, [sp]
	ldr	r0, [sp, #16]
	bl	tlsf_c.heap_calls.release_named
	adds	r6, r6, #1
	ldr	r0, [sp, #20]
	cmp	r0, r6
	bne	.LBB84_7
	ldr	r6, [sp, #20]
.LBB84_10:
	ldr	r0, [sp, #12]
	ldr	r3, [sp, #8]
	ldr	r7, [sp, #4]
.LBB84_11:
	str	r6, [r3]
	movs	r1, #1
	strb	r1, [r7, #1]
	add	sp, #60
	pop	{r4, r5, r6, r7, pc}
.LBB84_12:
	movs	r0, #0
.LBB84_13:
	bl	tlsf_c.call_fault.CallFault.refusal
	add	sp, #60
	pop	{r4, r5, r6, r7, pc}
.LBB84_14:
	movs	r0, #2
	b	.LBB84_13
.Lfunc_end84:
	.size	tlsf_queue_drain, .Lfunc_end84-tlsf_queue_drain
	.cfi_endproc
	.section	.text.tlsf_queue_open,"ax",%progbits
	.globl	tlsf_queue_open
	.p2align	1
	.type	tlsf_queue_open,%function
	.code	16
	.thumb_func
tlsf_queue_open:
	.cfi_startproc
	push	{r4, r5, r6, r7, lr}
	.cfi_def_cfa_offset 20
	.cfi_offset lr, -4
	.cfi_offset r7, -8
	.cfi_offset r6, -12
	.cfi_offset r5, -16
	.cfi_offset r4, -20
	sub	sp, #332
	.cfi_def_cfa_offset 352
	mov	r4, r1
	movs	r5, #0
	str	r5, [sp, #140]
	str	r5, [sp, #136]
	str	r5, [sp, #132]
	str	r5, [sp, #128]
	str	r5, [sp, #124]
	str	r5, [sp, #120]
	ldrb	r1, [r0, #8]
	cmp	r1, #0
	beq	.LBB85_2
	movs	r0, #33
	add	sp, #332
	pop	{r4, r5, r6, r7, pc}
.LBB85_2:
	mov	r7, r2
	movs	r1, #1
	lsls	r1, r1, #10
	subs	r2, r1, r4
	subs	r1, r1, r7
	orrs	r1, r2
	lsrs	r1, r1, #10
	bne	.LBB85_9
	str	r0, [sp, #64]
	str	r5, [sp, #148]
	str	r5, [sp, #144]
	lsls	r1, r4, #4
	add	r0, sp, #280
	movs	r2, #8
	bl	tlsf_memory_alloc
	ldr	r0, [sp, #280]
	lsls	r0, r0, #31
	bne	.LBB85_4
	bl	.LBB85_84
.LBB85_4:
	ldr	r0, [sp, #288]
	str	r5, [sp, #172]
	str	r4, [sp, #80]
	str	r4, [sp, #168]
	str	r5, [sp, #164]
	str	r5, [sp, #160]
	str	r5, [sp, #156]
	str	r0, [sp, #152]
	mov	r0, r7
	adds	r0, #48
	mov	r4, r5
	adcs	r4, r5
	str	r0, [sp, #40]
	lsls	r6, r0, #3
	add	r0, sp, #280
	movs	r2, #8
	mov	r1, r6
	bl	tlsf_memory_alloc
	mov	r0, r7
	bl	__clzsi2
	movs	r1, #32
	str	r1, [sp, #36]
	subs	r2, r1, r0
	movs	r0, #1
	str	r0, [sp, #108]
	mov	r1, r5
	bl	__aeabi_llsl
	ldr	r2, [sp, #280]
	lsls	r2, r2, #31
	bne	.LBB85_5
	b	.LBB85_77
.LBB85_5:
	str	r0, [sp, #24]
	str	r4, [sp, #60]
	str	r1, [sp, #28]
	ldr	r4, [sp, #288]
	str	r6, [sp, #72]
	subs	r6, #8
	movs	r1, #0
	str	r1, [sp, #112]
	mov	r0, r4
	mov	r2, r6
	bl	tlsf_memory_set
	ldr	r1, [sp, #112]
	str	r1, [r6, r4]
	str	r4, [sp, #104]
	adds	r0, r6, r4
	str	r1, [r0, #4]
	cmp	r7, #1
	str	r7, [sp, #96]
	bhi	.LBB85_7
	ldr	r0, [sp, #108]
	str	r0, [sp, #96]
.LBB85_7:
	movs	r6, #3
	ldr	r4, [sp, #96]
	ands	r4, r6
	cmp	r7, #4
	str	r5, [sp, #116]
	str	r6, [sp, #92]
	str	r7, [sp, #88]
	str	r4, [sp, #76]
	bhs	.LBB85_10
	mov	r2, r1
	mov	r7, r1
	b	.LBB85_13
.LBB85_9:
	movs	r0, #5
	add	sp, #332
	pop	{r4, r5, r6, r7, pc}
.LBB85_10:
	ldr	r0, [sp, #96]
	bics	r0, r6
	str	r0, [sp, #96]
	movs	r7, #0
	mov	r2, r7
	str	r7, [sp, #84]
	ldr	r1, [sp, #104]
.LBB85_11:
	lsls	r6, r2, #3
	adds	r0, r1, r6
	str	r0, [sp, #100]
	ldr	r4, [sp, #92]
	lsls	r6, r4, #7
	str	r2, [r0, r6]
	movs	r0, #1
	orrs	r0, r2
	lsls	r5, r0, #3
	adds	r5, r1, r5
	str	r0, [r5, r6]
	movs	r0, #2
	orrs	r0, r2
	lsls	r3, r0, #3
	adds	r3, r1, r3
	str	r0, [r3, r6]
	mov	r0, r2
	orrs	r0, r4
	lsls	r4, r0, #3
	adds	r4, r1, r4
	str	r0, [r4, r6]
	ldr	r0, [sp, #100]
	adds	r0, r0, r6
	str	r7, [r0, #4]
	adds	r0, r5, r6
	str	r7, [r0, #4]
	adds	r0, r3, r6
	str	r7, [r0, #4]
	adds	r0, r4, r6
	str	r7, [r0, #4]
	adds	r2, r2, #4
	ldr	r0, [sp, #84]
	adcs	r7, r0
	mov	r0, r2
	ldr	r3, [sp, #96]
	eors	r0, r3
	orrs	r0, r7
	bne	.LBB85_11
	ldr	r4, [sp, #76]
	cmp	r4, #0
	ldr	r5, [sp, #116]
	ldr	r6, [sp, #92]
	beq	.LBB85_16
.LBB85_13:
	lsls	r0, r2, #3
	ldr	r3, [sp, #104]
	adds	r0, r3, r0
	lsls	r3, r6, #7
	str	r2, [r0, r3]
	adds	r0, r0, r3
	str	r7, [r0, #4]
	cmp	r4, #1
	beq	.LBB85_16
	movs	r1, #0
	adds	r0, r2, #1
	mov	r5, r7
	str	r1, [sp, #100]
	adcs	r5, r1
	lsls	r6, r0, #3
	ldr	r4, [sp, #104]
	adds	r6, r4, r6
	str	r0, [r6, r3]
	adds	r0, r6, r3
	str	r5, [r0, #4]
	ldr	r5, [sp, #116]
	ldr	r0, [sp, #76]
	cmp	r0, #2
	beq	.LBB85_16
	adds	r0, r2, #2
	ldr	r1, [sp, #100]
	adcs	r7, r1
	lsls	r2, r0, #3
	ldr	r4, [sp, #104]
	adds	r2, r4, r2
	str	r0, [r2, r3]
	adds	r0, r2, r3
	str	r7, [r0, #4]
.LBB85_16:
	ldr	r6, [sp, #112]
	str	r6, [sp, #212]
	str	r6, [sp, #208]
	str	r6, [sp, #204]
	str	r6, [sp, #200]
	str	r6, [sp, #196]
	str	r6, [sp, #192]
	ldr	r7, [sp, #88]
	lsls	r1, r7, #5
	add	r0, sp, #232
	movs	r2, #8
	bl	tlsf_memory_alloc
	ldr	r0, [sp, #232]
	lsls	r0, r0, #31
	bne	.LBB85_17
	b	.LBB85_75
.LBB85_17:
	ldr	r0, [sp, #80]
	adds	r0, r0, #1
	str	r0, [sp, #12]
	ldr	r1, [sp, #240]
	str	r6, [sp, #300]
	str	r7, [sp, #296]
	str	r6, [sp, #292]
	str	r6, [sp, #288]
	str	r6, [sp, #308]
	add	r0, sp, #328
	str	r0, [sp, #304]
	str	r6, [sp, #284]
	str	r1, [sp, #84]
	str	r1, [sp, #280]
	mov	r4, r6
	mov	r0, r6
	b	.LBB85_20
.LBB85_18:
	ldr	r4, [sp, #292]
	ldr	r6, [sp, #288]
	ldr	r0, [sp, #280]
	str	r0, [sp, #84]
.LBB85_19:
	str	r4, [sp, #80]
	str	r6, [sp, #100]
	lsls	r1, r6, #5
	mov	r6, r7
	movs	r7, #0
	ldr	r0, [sp, #84]
	strb	r7, [r0, r1]
	str	r1, [sp, #76]
	adds	r0, r0, r1
	strb	r7, [r0, #7]
	strb	r7, [r0, #6]
	strb	r7, [r0, #5]
	strb	r7, [r0, #4]
	strb	r7, [r0, #3]
	strb	r7, [r0, #2]
	strb	r7, [r0, #1]
	adds	r0, #8
	add	r1, sp, #232
	movs	r5, #24
	mov	r2, r5
	bl	tlsf_memory_cpy
	ldr	r0, [sp, #100]
	adds	r0, r0, #1
	adcs	r4, r7
	str	r4, [sp, #292]
	str	r0, [sp, #112]
	str	r0, [sp, #288]
	ldr	r1, [sp, #96]
	adds	r1, r1, #1
	adcs	r6, r7
	ldr	r0, [sp, #88]
	subs	r0, r1, r0
	mov	r0, r6
	sbcs	r0, r7
	mov	r0, r1
	bhs	.LBB85_31
.LBB85_20:
	str	r0, [sp, #96]
	add	r0, sp, #192
	add	r1, sp, #232
	mov	r7, r6
	ldm	r0!, {r2, r3, r5}
	stm	r1!, {r2, r3, r5}
	ldm	r0!, {r2, r3, r5}
	stm	r1!, {r2, r3, r5}
	ldr	r0, [sp, #300]
	eors	r0, r4
	ldr	r1, [sp, #296]
	ldr	r6, [sp, #112]
	eors	r1, r6
	orrs	r1, r0
	bne	.LBB85_19
	add	r0, sp, #280
	bl	std_alloc.vec.Vec.grow_amortized.94730218a1e37034
	cmp	r0, #0
	bne	.LBB85_18
	ldr	r0, [sp, #300]
	str	r0, [sp, #112]
	ldr	r2, [sp, #296]
	ldr	r3, [sp, #292]
	ldr	r4, [sp, #288]
	ldr	r0, [sp, #280]
.LBB85_23:
	mov	r5, r4
	orrs	r5, r3
	bne	.LBB85_24
	b	.LBB85_73
.LBB85_24:
	movs	r5, #0
	subs	r6, r4, #1
	mov	r7, r3
	sbcs	r7, r5
	lsls	r1, r6, #5
	ldrb	r1, [r0, r1]
	cmp	r1, #0
	beq	.LBB85_25
	b	.LBB85_69
.LBB85_25:
	orrs	r6, r7
	bne	.LBB85_26
	b	.LBB85_73
.LBB85_26:
	subs	r6, r4, #2
	mov	r7, r3
	sbcs	r7, r5
	lsls	r1, r6, #5
	ldrb	r1, [r0, r1]
	cmp	r1, #0
	beq	.LBB85_27
	b	.LBB85_69
.LBB85_27:
	orrs	r6, r7
	bne	.LBB85_28
	b	.LBB85_73
.LBB85_28:
	subs	r6, r4, #3
	mov	r7, r3
	sbcs	r7, r5
	lsls	r1, r6, #5
	ldrb	r1, [r0, r1]
	cmp	r1, #0
	beq	.LBB85_29
	b	.LBB85_69
.LBB85_29:
	orrs	r6, r7
	bne	.LBB85_30
	b	.LBB85_73
.LBB85_30:
	subs	r4, r4, #4
	sbcs	r3, r5
	lsls	r1, r4, #5
	ldrb	r1, [r0, r1]
	cmp	r1, #0
	beq	.LBB85_23
	b	.LBB85_69
.LBB85_31:
	str	r5, [sp, #56]
	str	r4, [sp, #32]
	ldr	r0, [sp, #300]
	str	r0, [sp, #20]
	ldr	r0, [sp, #296]
	str	r0, [sp, #16]
	ldr	r0, [sp, #280]
	str	r0, [sp, #96]
	add	r0, sp, #280
	movs	r2, #8
	ldr	r1, [sp, #72]
	bl	tlsf_memory_alloc
	ldr	r0, [sp, #280]
	lsls	r0, r0, #31
	bne	.LBB85_32
	b	.LBB85_60
.LBB85_32:
	ldr	r0, [sp, #288]
	str	r0, [sp, #84]
	ldr	r0, [sp, #112]
	lsrs	r0, r0, #27
	ldr	r1, [sp, #32]
	lsls	r1, r1, #5
	adds	r0, r1, r0
	ldr	r4, [sp, #88]
	bpl	.LBB85_33
	b	.LBB85_59
.LBB85_33:
	cmp	r0, #0
	ldr	r0, [sp, #112]
	beq	.LBB85_35
	mvns	r1, r7
	b	.LBB85_36
.LBB85_35:
	lsls	r1, r0, #5
.LBB85_36:
	add	r0, sp, #280
	movs	r6, #8
	mov	r2, r6
	bl	tlsf_memory_alloc
	ldr	r0, [sp, #280]
	lsls	r0, r0, #31
	bne	.LBB85_37
	b	.LBB85_59
.LBB85_37:
	ldr	r0, [sp, #288]
	str	r0, [sp, #72]
	ldr	r1, [sp, #40]
	ldr	r0, [sp, #92]
	bics	r1, r0
	str	r1, [sp, #48]
	ands	r4, r0
	str	r4, [sp, #8]
	movs	r3, #0
	mov	r2, r3
	mov	r5, r3
	ldr	r4, [sp, #84]
	str	r6, [sp, #44]
	ldr	r6, [sp, #104]
	str	r3, [sp, #52]
.LBB85_38:
	lsls	r7, r2, #3
	ldr	r0, [r6, r7]
	str	r0, [r4, r7]
	mov	r4, r7
	ldr	r0, [sp, #44]
	orrs	r4, r0
	ldr	r0, [r6, r4]
	ldr	r1, [sp, #84]
	str	r0, [r1, r4]
	movs	r6, #16
	orrs	r6, r7
	ldr	r0, [sp, #104]
	ldr	r0, [r0, r6]
	ldr	r1, [sp, #84]
	str	r0, [r1, r6]
	mov	r0, r7
	ldr	r1, [sp, #56]
	orrs	r0, r1
	ldr	r1, [sp, #104]
	ldr	r1, [r1, r0]
	ldr	r3, [sp, #84]
	str	r1, [r3, r0]
	ldr	r3, [sp, #52]
	ldr	r1, [sp, #84]
	adds	r1, r1, r7
	str	r1, [sp, #68]
	ldr	r1, [sp, #104]
	adds	r7, r1, r7
	ldr	r7, [r7, #4]
	ldr	r1, [sp, #68]
	str	r7, [r1, #4]
	ldr	r1, [sp, #84]
	adds	r1, r1, r4
	ldr	r7, [sp, #104]
	adds	r4, r7, r4
	ldr	r4, [r4, #4]
	str	r4, [r1, #4]
	ldr	r1, [sp, #84]
	adds	r1, r1, r6
	ldr	r4, [sp, #104]
	adds	r4, r4, r6
	ldr	r6, [sp, #104]
	ldr	r4, [r4, #4]
	str	r4, [r1, #4]
	ldr	r4, [sp, #84]
	adds	r1, r4, r0
	adds	r0, r6, r0
	ldr	r0, [r0, #4]
	str	r0, [r1, #4]
	adds	r2, r2, #4
	mov	r0, r5
	adcs	r0, r3
	mov	r5, r0
	ldr	r1, [sp, #60]
	eors	r0, r1
	mov	r1, r2
	ldr	r7, [sp, #48]
	eors	r1, r7
	orrs	r1, r0
	bne	.LBB85_38
	ldr	r5, [sp, #8]
	cmp	r5, #0
	beq	.LBB85_43
	mov	r3, r6
	lsls	r1, r2, #3
	ldr	r0, [r6, r1]
	str	r0, [r4, r1]
	adds	r0, r4, r1
	adds	r2, r6, r1
	ldr	r2, [r2, #4]
	str	r2, [r0, #4]
	cmp	r5, #1
	beq	.LBB85_43
	mov	r0, r1
	adds	r0, #8
	ldr	r2, [r3, r0]
	str	r2, [r4, r0]
	adds	r2, r4, r0
	adds	r0, r3, r0
	ldr	r0, [r0, #4]
	str	r0, [r2, #4]
	cmp	r5, #2
	beq	.LBB85_43
	adds	r1, #16
	ldr	r0, [r3, r1]
	str	r0, [r4, r1]
	adds	r0, r4, r1
	adds	r1, r3, r1
	ldr	r1, [r1, #4]
	str	r1, [r0, #4]
.LBB85_43:
	ldr	r0, [sp, #112]
	ldr	r1, [sp, #32]
	orrs	r0, r1
	ldr	r7, [sp, #52]
	ldr	r2, [sp, #96]
	ldr	r3, [sp, #80]
	ldr	r6, [sp, #100]
	bne	.LBB85_44
	b	.LBB85_50
.LBB85_44:
	ldr	r1, [sp, #112]
	mov	r5, r1
	ldr	r0, [sp, #92]
	ands	r5, r0
	ldr	r0, [sp, #32]
	beq	.LBB85_48
	ldr	r4, [sp, #76]
	ldrb	r0, [r2, r4]
	str	r0, [sp, #56]
	adds	r1, r2, r4
	adds	r1, #8
	add	r6, sp, #280
	movs	r2, #24
	str	r2, [sp, #68]
	mov	r0, r6
	bl	tlsf_memory_cpy
	ldr	r0, [sp, #72]
	ldr	r1, [sp, #56]
	strb	r1, [r0, r4]
	adds	r0, r0, r4
	strb	r7, [r0, #7]
	strb	r7, [r0, #6]
	strb	r7, [r0, #5]
	strb	r7, [r0, #4]
	strb	r7, [r0, #3]
	strb	r7, [r0, #2]
	strb	r7, [r0, #1]
	adds	r0, #8
	mov	r1, r6
	ldr	r6, [sp, #100]
	ldr	r2, [sp, #68]
	bl	tlsf_memory_cpy
	ldr	r3, [sp, #80]
	ldr	r2, [sp, #96]
	cmp	r5, #1
	mov	r1, r6
	mov	r0, r3
	beq	.LBB85_48
	subs	r4, r6, #1
	sbcs	r3, r7
	str	r3, [sp, #76]
	lsls	r6, r4, #5
	ldrb	r0, [r2, r6]
	str	r0, [sp, #48]
	adds	r1, r2, r6
	adds	r1, #8
	add	r0, sp, #280
	str	r0, [sp, #68]
	movs	r2, #24
	str	r2, [sp, #56]
	bl	tlsf_memory_cpy
	ldr	r0, [sp, #72]
	ldr	r1, [sp, #48]
	strb	r1, [r0, r6]
	adds	r0, r0, r6
	ldr	r6, [sp, #100]
	strb	r7, [r0, #1]
	strb	r7, [r0, #2]
	strb	r7, [r0, #3]
	strb	r7, [r0, #4]
	strb	r7, [r0, #5]
	strb	r7, [r0, #6]
	strb	r7, [r0, #7]
	adds	r0, #8
	ldr	r1, [sp, #68]
	ldr	r2, [sp, #56]
	bl	tlsf_memory_cpy
	ldr	r0, [sp, #76]
	mov	r1, r4
	ldr	r3, [sp, #80]
	ldr	r2, [sp, #96]
	cmp	r5, #2
	beq	.LBB85_48
	subs	r5, r6, #2
	sbcs	r3, r7
	str	r3, [sp, #76]
	lsls	r4, r5, #5
	ldrb	r0, [r2, r4]
	str	r0, [sp, #56]
	adds	r1, r2, r4
	adds	r1, #8
	add	r6, sp, #280
	movs	r2, #24
	str	r2, [sp, #68]
	mov	r0, r6
	bl	tlsf_memory_cpy
	ldr	r0, [sp, #72]
	ldr	r1, [sp, #56]
	strb	r1, [r0, r4]
	adds	r0, r0, r4
	strb	r7, [r0, #1]
	strb	r7, [r0, #2]
	strb	r7, [r0, #3]
	strb	r7, [r0, #4]
	strb	r7, [r0, #5]
	strb	r7, [r0, #6]
	strb	r7, [r0, #7]
	adds	r0, #8
	mov	r1, r6
	ldr	r6, [sp, #100]
	ldr	r2, [sp, #68]
	bl	tlsf_memory_cpy
	ldr	r0, [sp, #76]
	mov	r1, r5
	ldr	r3, [sp, #80]
	ldr	r2, [sp, #96]
.LBB85_48:
	mov	r4, r0
	subs	r0, r6, #3
	sbcs	r3, r7
	bhs	.LBB85_49
	b	.LBB85_50
.LBB85_49:
	str	r4, [sp, #76]
	str	r1, [sp, #100]
	lsls	r5, r1, #5
	mov	r6, r5
	subs	r6, #32
	ldrb	r0, [r2, r6]
	str	r0, [sp, #56]
	adds	r1, r2, r6
	adds	r1, #8
	add	r4, sp, #280
	movs	r2, #24
	str	r2, [sp, #68]
	mov	r0, r4
	str	r4, [sp, #80]
	bl	tlsf_memory_cpy
	ldr	r0, [sp, #72]
	ldr	r1, [sp, #56]
	strb	r1, [r0, r6]
	ldr	r0, [sp, #72]
	adds	r0, r0, r6
	strb	r7, [r0, #7]
	strb	r7, [r0, #6]
	strb	r7, [r0, #5]
	strb	r7, [r0, #4]
	strb	r7, [r0, #3]
	strb	r7, [r0, #2]
	strb	r7, [r0, #1]
	adds	r0, #8
	mov	r1, r4
	ldr	r4, [sp, #68]
	mov	r2, r4
	bl	tlsf_memory_cpy
	mov	r6, r5
	subs	r6, #64
	ldr	r0, [sp, #96]
	ldrb	r0, [r0, r6]
	str	r0, [sp, #56]
	ldr	r0, [sp, #96]
	adds	r1, r0, r6
	adds	r1, #8
	ldr	r0, [sp, #80]
	mov	r2, r4
	bl	tlsf_memory_cpy
	ldr	r0, [sp, #72]
	ldr	r1, [sp, #56]
	strb	r1, [r0, r6]
	ldr	r0, [sp, #72]
	adds	r0, r0, r6
	strb	r7, [r0, #7]
	strb	r7, [r0, #6]
	strb	r7, [r0, #5]
	strb	r7, [r0, #4]
	strb	r7, [r0, #3]
	strb	r7, [r0, #2]
	strb	r7, [r0, #1]
	adds	r0, #8
	ldr	r6, [sp, #80]
	mov	r1, r6
	mov	r2, r4
	bl	tlsf_memory_cpy
	subs	r5, #96
	ldr	r0, [sp, #96]
	ldrb	r0, [r0, r5]
	str	r0, [sp, #56]
	ldr	r0, [sp, #96]
	adds	r1, r0, r5
	adds	r1, #8
	mov	r0, r6
	mov	r2, r4
	bl	tlsf_memory_cpy
	ldr	r0, [sp, #72]
	ldr	r1, [sp, #56]
	strb	r1, [r0, r5]
	ldr	r0, [sp, #72]
	adds	r0, r0, r5
	strb	r7, [r0, #7]
	strb	r7, [r0, #6]
	strb	r7, [r0, #5]
	strb	r7, [r0, #4]
	strb	r7, [r0, #3]
	strb	r7, [r0, #2]
	strb	r7, [r0, #1]
	adds	r0, #8
	ldr	r5, [sp, #80]
	mov	r1, r5
	mov	r2, r4
	mov	r6, r4
	bl	tlsf_memory_cpy
	ldr	r0, [sp, #100]
	subs	r0, r0, #4
	str	r0, [sp, #100]
	ldr	r0, [sp, #76]
	sbcs	r0, r7
	str	r0, [sp, #76]
	ldr	r0, [sp, #100]
	lsls	r4, r0, #5
	ldr	r0, [sp, #96]
	ldrb	r0, [r0, r4]
	str	r0, [sp, #56]
	ldr	r0, [sp, #96]
	adds	r1, r0, r4
	adds	r1, #8
	mov	r0, r5
	mov	r2, r6
	bl	tlsf_memory_cpy
	ldr	r0, [sp, #72]
	ldr	r1, [sp, #56]
	strb	r1, [r0, r4]
	ldr	r5, [sp, #72]
	adds	r0, r5, r4
	ldr	r4, [sp, #76]
	strb	r7, [r0, #1]
	strb	r7, [r0, #2]
	strb	r7, [r0, #3]
	strb	r7, [r0, #4]
	strb	r7, [r0, #5]
	strb	r7, [r0, #6]
	strb	r7, [r0, #7]
	adds	r0, #8
	ldr	r1, [sp, #80]
	mov	r2, r6
	bl	tlsf_memory_cpy
	ldr	r1, [sp, #100]
	ldr	r2, [sp, #96]
	mov	r0, r1
	orrs	r0, r4
	beq	.LBB85_50
	b	.LBB85_49
.LBB85_50:
	ldr	r0, [sp, #20]
	ldr	r1, [sp, #16]
	orrs	r1, r0
	beq	.LBB85_52
	mov	r0, r2
	bl	tlsf_memory_dealloc
.LBB85_52:
	ldr	r0, [sp, #104]
	bl	tlsf_memory_dealloc
	ldr	r4, [sp, #12]
	ldr	r5, [sp, #116]
	ldr	r7, [sp, #84]
.LBB85_53:
	movs	r1, #5
	mov	r0, r7
	bl	__atomic_load_8
	subs	r4, r4, #1
	bne	.LBB85_53
	ldr	r4, [sp, #88]
.LBB85_55:
	movs	r1, #5
	mov	r0, r7
	bl	__atomic_load_8
	subs	r4, r4, #1
	bne	.LBB85_55
	add	r0, sp, #280
	movs	r1, #88
	movs	r2, #8
	bl	tlsf_memory_alloc
	ldr	r0, [sp, #280]
	lsls	r0, r0, #31
	bne	.LBB85_57
	b	.LBB85_72
.LBB85_57:
	ldr	r0, [sp, #288]
	movs	r1, #80
	ldr	r6, [sp, #24]
	strb	r6, [r0, r1]
	movs	r1, #76
	ldr	r4, [sp, #52]
	strb	r4, [r0, r1]
	movs	r1, #72
	ldr	r2, [sp, #88]
	strb	r2, [r0, r1]
	movs	r1, #64
	ldr	r7, [sp, #112]
	strb	r7, [r0, r1]
	movs	r1, #48
	ldr	r5, [sp, #40]
	strb	r5, [r0, r1]
	ldr	r1, [sp, #36]
	strb	r7, [r0, r1]
	movs	r1, #60
	strb	r4, [r0, r1]
	movs	r1, #56
	str	r1, [sp, #56]
	ldr	r2, [sp, #72]
	strb	r2, [r0, r1]
	movs	r1, #44
	str	r1, [sp, #20]
	strb	r4, [r0, r1]
	movs	r1, #40
	ldr	r2, [sp, #84]
	strb	r2, [r0, r1]
	movs	r2, #84
	ldr	r1, [sp, #28]
	strb	r1, [r0, r2]
	movs	r2, #68
	ldr	r3, [sp, #32]
	strb	r3, [r0, r2]
	movs	r2, #52
	ldr	r1, [sp, #60]
	strb	r1, [r0, r2]
	movs	r1, #36
	str	r1, [sp, #16]
	strb	r3, [r0, r1]
	strb	r4, [r0, #31]
	strb	r4, [r0, #30]
	strb	r4, [r0, #29]
	strb	r5, [r0, #24]
	strb	r4, [r0, #7]
	strb	r4, [r0, #6]
	strb	r4, [r0, #5]
	strb	r4, [r0, #4]
	strb	r4, [r0, #3]
	strb	r4, [r0, #2]
	strb	r4, [r0, #1]
	movs	r1, #1
	str	r1, [sp, #104]
	strb	r1, [r0]
	strb	r4, [r0, #23]
	strb	r4, [r0, #22]
	strb	r4, [r0, #21]
	strb	r4, [r0, #20]
	ldr	r1, [sp, #72]
	strb	r1, [r0, #16]
	strb	r4, [r0, #15]
	strb	r4, [r0, #14]
	strb	r4, [r0, #13]
	strb	r4, [r0, #12]
	ldr	r1, [sp, #84]
	strb	r1, [r0, #8]
	mov	r2, r0
	adds	r2, #80
	lsrs	r3, r6, #24
	strb	r3, [r2, #3]
	lsrs	r3, r6, #16
	strb	r3, [r2, #2]
	lsrs	r3, r6, #8
	strb	r3, [r2, #1]
	mov	r2, r0
	adds	r2, #76
	strb	r4, [r2, #3]
	strb	r4, [r2, #2]
	strb	r4, [r2, #1]
	mov	r2, r0
	adds	r2, #72
	ldr	r1, [sp, #88]
	lsrs	r3, r1, #24
	strb	r3, [r2, #3]
	lsrs	r3, r1, #16
	strb	r3, [r2, #2]
	lsrs	r3, r1, #8
	strb	r3, [r2, #1]
	mov	r5, r0
	adds	r5, #64
	lsrs	r1, r7, #24
	str	r1, [sp, #100]
	strb	r1, [r5, #3]
	lsrs	r1, r7, #16
	str	r1, [sp, #96]
	strb	r1, [r5, #2]
	lsrs	r2, r7, #8
	strb	r2, [r5, #1]
	mov	r5, r0
	adds	r5, #52
	strb	r4, [r5, #3]
	strb	r4, [r5, #2]
	strb	r4, [r5, #1]
	mov	r5, r0
	adds	r5, #48
	ldr	r1, [sp, #40]
	lsrs	r6, r1, #24
	strb	r6, [r5, #3]
	lsrs	r7, r1, #16
	strb	r7, [r5, #2]
	lsrs	r1, r1, #8
	strb	r1, [r5, #1]
	mov	r5, r0
	adds	r5, #32
	ldr	r3, [sp, #100]
	strb	r3, [r5, #3]
	ldr	r3, [sp, #96]
	strb	r3, [r5, #2]
	strb	r2, [r5, #1]
	ldr	r2, [sp, #60]
	strb	r2, [r0, #28]
	strb	r6, [r0, #27]
	strb	r7, [r0, #26]
	strb	r1, [r0, #25]
	mov	r1, r0
	adds	r1, #60
	strb	r4, [r1, #3]
	strb	r4, [r1, #2]
	strb	r4, [r1, #1]
	mov	r1, r0
	adds	r1, #56
	ldr	r2, [sp, #72]
	lsrs	r3, r2, #24
	str	r3, [sp, #112]
	strb	r3, [r1, #3]
	lsrs	r3, r2, #16
	str	r3, [sp, #100]
	strb	r3, [r1, #2]
	lsrs	r3, r2, #8
	strb	r3, [r1, #1]
	mov	r1, r0
	adds	r1, #44
	strb	r4, [r1, #3]
	strb	r4, [r1, #2]
	strb	r4, [r1, #1]
	mov	r1, r0
	adds	r1, #40
	ldr	r7, [sp, #84]
	lsrs	r5, r7, #24
	strb	r5, [r1, #3]
	lsrs	r6, r7, #16
	strb	r6, [r1, #2]
	lsrs	r2, r7, #8
	strb	r2, [r1, #1]
	ldr	r1, [sp, #112]
	strb	r1, [r0, #19]
	ldr	r1, [sp, #100]
	strb	r1, [r0, #18]
	strb	r3, [r0, #17]
	strb	r5, [r0, #11]
	strb	r6, [r0, #10]
	strb	r2, [r0, #9]
	mov	r1, r0
	adds	r1, #84
	ldr	r3, [sp, #28]
	lsrs	r2, r3, #24
	strb	r2, [r1, #3]
	lsrs	r2, r3, #16
	strb	r2, [r1, #2]
	lsrs	r2, r3, #8
	strb	r2, [r1, #1]
	mov	r1, r0
	adds	r1, #68
	ldr	r5, [sp, #32]
	lsrs	r2, r5, #24
	strb	r2, [r1, #3]
	lsrs	r3, r5, #16
	strb	r3, [r1, #2]
	lsrs	r5, r5, #8
	strb	r5, [r1, #1]
	mov	r1, r0
	adds	r1, #36
	strb	r2, [r1, #3]
	strb	r3, [r1, #2]
	strb	r5, [r1, #1]
	str	r4, [sp, #148]
	str	r0, [sp, #144]
	movs	r1, #5
	mov	r0, r7
	str	r1, [sp, #100]
	bl	__atomic_load_8
	add	r0, sp, #144
	add	r3, sp, #152
	ldr	r1, [sp, #104]
	ldr	r2, [sp, #12]
	bl	tlsf_post.mailboxes.send_out
	uxtb	r0, r0
	cmp	r0, #0
	bne	.LBB85_58
	b	.LBB85_86
.LBB85_58:
	ldr	r0, [sp, #144]
	bl	std_alloc.arc.Arc.drop.f29941b0e8355977
	ldr	r5, [sp, #116]
	b	.LBB85_77
.LBB85_59:
	ldr	r0, [sp, #84]
	bl	tlsf_memory_dealloc
.LBB85_60:
	ldr	r5, [sp, #116]
	ldr	r3, [sp, #112]
	ldr	r4, [sp, #32]
.LBB85_61:
	mov	r0, r3
	orrs	r0, r4
	beq	.LBB85_70
	subs	r0, r3, #1
	mov	r1, r4
	sbcs	r1, r7
	lsls	r2, r0, #5
	ldr	r6, [sp, #96]
	ldrb	r2, [r6, r2]
	cmp	r2, #0
	bne	.LBB85_69
	orrs	r0, r1
	beq	.LBB85_70
	subs	r0, r3, #2
	mov	r1, r4
	sbcs	r1, r7
	lsls	r2, r0, #5
	ldr	r6, [sp, #96]
	ldrb	r2, [r6, r2]
	cmp	r2, #0
	bne	.LBB85_69
	orrs	r0, r1
	beq	.LBB85_70
	subs	r0, r3, #3
	mov	r1, r4
	sbcs	r1, r7
	lsls	r2, r0, #5
	ldr	r6, [sp, #96]
	ldrb	r2, [r6, r2]
	cmp	r2, #0
	bne	.LBB85_69
	orrs	r0, r1
	beq	.LBB85_70
	subs	r3, r3, #4
	sbcs	r4, r7
	lsls	r0, r3, #5
	ldr	r1, [sp, #96]
	ldrb	r0, [r1, r0]
	cmp	r0, #0
	beq	.LBB85_61
.LBB85_69:
	.inst.n	0xdefe
.LBB85_70:
	ldr	r0, [sp, #20]
	ldr	r1, [sp, #16]
	orrs	r0, r1
	ldr	r0, [sp, #104]
	beq	.LBB85_76
	mov	r4, r0
	ldr	r0, [sp, #96]
	bl	tlsf_memory_dealloc
	mov	r0, r4
	b	.LBB85_76
.LBB85_72:
	ldr	r0, [sp, #84]
	bl	tlsf_memory_dealloc
	ldr	r0, [sp, #72]
	b	.LBB85_76
.LBB85_73:
	ldr	r1, [sp, #112]
	orrs	r2, r1
	ldr	r5, [sp, #116]
	beq	.LBB85_75
	bl	tlsf_memory_dealloc
.LBB85_75:
	ldr	r0, [sp, #104]
.LBB85_76:
	bl	tlsf_memory_dealloc
.LBB85_77:
	ldr	r1, [sp, #164]
	ldr	r0, [sp, #160]
	str	r0, [sp, #100]
	str	r1, [sp, #104]
	orrs	r0, r1
	ldr	r0, [sp, #172]
	str	r0, [sp, #68]
	ldr	r0, [sp, #168]
	str	r0, [sp, #64]
	ldr	r0, [sp, #152]
	str	r0, [sp, #112]
	beq	.LBB85_82
	mov	r4, r5
	b	.LBB85_80
.LBB85_79:
	adds	r4, r4, #1
	ldr	r5, [sp, #116]
	adcs	r5, r6
	ldr	r0, [sp, #100]
	subs	r0, r4, r0
	mov	r0, r5
	ldr	r1, [sp, #104]
	sbcs	r0, r1
	bhs	.LBB85_82
.LBB85_80:
	str	r5, [sp, #116]
	lsls	r0, r4, #4
	ldr	r5, [sp, #112]
	adds	r1, r5, r0
	ldrb	r2, [r1, #3]
	ldrb	r3, [r1, #2]
	ldrb	r0, [r5, r0]
	ldrb	r1, [r1, #1]
	movs	r5, #5
	str	r5, [sp]
	lsls	r1, r1, #8
	adds	r0, r1, r0
	lsls	r1, r3, #16
	lsls	r2, r2, #24
	adds	r1, r2, r1
	adds	r7, r1, r0
	movs	r6, #0
	mov	r0, r7
	ldr	r5, [sp, #108]
	mov	r2, r5
	mov	r3, r6
	bl	__atomic_fetch_sub_8
	eors	r0, r5
	orrs	r0, r1
	bne	.LBB85_79
	movs	r0, #56
	ldrb	r0, [r7, r0]
	str	r0, [sp, #96]
	movs	r0, #40
	ldrb	r0, [r7, r0]
	str	r0, [sp, #80]
	mov	r0, r7
	adds	r0, #56
	ldrb	r1, [r0, #3]
	str	r1, [sp, #92]
	ldrb	r1, [r0, #2]
	str	r1, [sp, #88]
	ldrb	r0, [r0, #1]
	str	r0, [sp, #84]
	mov	r0, r7
	adds	r0, #40
	ldrb	r1, [r0, #3]
	str	r1, [sp, #76]
	ldrb	r1, [r0, #2]
	str	r1, [sp, #72]
	ldrb	r5, [r0, #1]
	mov	r0, r7
	bl	tlsf_memory_dealloc
	lsls	r0, r5, #8
	ldr	r1, [sp, #80]
	adds	r0, r0, r1
	ldr	r1, [sp, #72]
	lsls	r1, r1, #16
	ldr	r2, [sp, #76]
	lsls	r2, r2, #24
	adds	r1, r2, r1
	adds	r0, r1, r0
	bl	tlsf_memory_dealloc
	ldr	r0, [sp, #84]
	lsls	r0, r0, #8
	ldr	r1, [sp, #96]
	adds	r0, r0, r1
	ldr	r1, [sp, #88]
	lsls	r1, r1, #16
	ldr	r2, [sp, #92]
	lsls	r2, r2, #24
	adds	r1, r2, r1
	adds	r0, r1, r0
	bl	tlsf_memory_dealloc
	b	.LBB85_79
.LBB85_82:
	ldr	r0, [sp, #68]
	ldr	r1, [sp, #64]
	orrs	r1, r0
	beq	.LBB85_84
	ldr	r0, [sp, #112]
	bl	tlsf_memory_dealloc
.LBB85_84:
	movs	r0, #6
.LBB85_85:
	add	sp, #332
	pop	{r4, r5, r6, r7, pc}
.LBB85_86:
	ldr	r0, [sp, #172]
	str	r0, [sp, #32]
	ldr	r0, [sp, #168]
	str	r0, [sp, #24]
	ldr	r0, [sp, #148]
	str	r0, [sp, #12]
	ldr	r0, [sp, #144]
	str	r0, [sp, #28]
	ldr	r0, [sp, #152]
	str	r0, [sp, #112]
	ldr	r6, [sp, #164]
	ldr	r7, [sp, #160]
	add	r0, sp, #192
	movs	r4, #0
	movs	r5, #40
	mov	r1, r4
	mov	r2, r5
	bl	tlsf_memory_set
	add	r0, sp, #152
	mov	r1, r4
	str	r5, [sp, #60]
	mov	r2, r5
	bl	tlsf_memory_set
	ldr	r3, [sp, #32]
	mov	r2, r7
	mov	r0, r7
	orrs	r0, r6
	add	r5, sp, #328
	cmp	r0, #0
	bne	.LBB85_87
	b	.LBB85_96
.LBB85_87:
	lsrs	r0, r6, #28
	str	r6, [sp, #108]
	str	r2, [sp, #96]
	beq	.LBB85_88
	b	.LBB85_98
.LBB85_88:
	lsrs	r0, r2, #29
	lsls	r1, r6, #3
	movs	r7, #0
	adds	r0, r1, r0
	beq	.LBB85_90
	mvns	r1, r7
	b	.LBB85_91
.LBB85_90:
	lsls	r1, r2, #3
.LBB85_91:
	add	r0, sp, #280
	movs	r2, #8
	bl	tlsf_memory_alloc
	ldr	r0, [sp, #280]
	lsls	r0, r0, #31
	ldr	r0, [sp, #96]
	bne	.LBB85_92
	b	.LBB85_98
.LBB85_92:
	ldr	r5, [sp, #288]
	mov	r2, r7
	str	r7, [sp, #40]
	str	r0, [sp, #80]
	str	r6, [sp, #88]
	str	r7, [sp, #44]
	str	r7, [sp, #84]
	str	r5, [sp, #48]
.LBB85_93:
	str	r2, [sp, #116]
	lsls	r0, r2, #4
	ldr	r2, [sp, #112]
	adds	r1, r2, r0
	ldrb	r4, [r1, #3]
	str	r4, [sp, #76]
	ldrb	r3, [r1, #2]
	str	r3, [sp, #72]
	ldrb	r0, [r2, r0]
	str	r0, [sp, #68]
	ldrb	r5, [r1, #1]
	ldrb	r0, [r1, #11]
	str	r0, [sp, #52]
	ldrb	r6, [r1, #10]
	ldrb	r7, [r1, #8]
	ldrb	r4, [r1, #9]
	add	r0, sp, #280
	movs	r1, #48
	movs	r2, #8
	bl	tlsf_memory_alloc
	lsls	r0, r5, #8
	ldr	r1, [sp, #68]
	adds	r0, r0, r1
	ldr	r1, [sp, #72]
	lsls	r1, r1, #16
	ldr	r2, [sp, #76]
	lsls	r2, r2, #24
	adds	r1, r2, r1
	adds	r5, r1, r0
	ldr	r0, [sp, #80]
	subs	r0, r0, #1
	str	r0, [sp, #80]
	ldr	r0, [sp, #40]
	ldr	r1, [sp, #88]
	sbcs	r1, r0
	str	r1, [sp, #88]
	ldr	r1, [sp, #116]
	adds	r3, r1, #1
	ldr	r1, [sp, #84]
	adcs	r1, r0
	str	r1, [sp, #84]
	ldr	r0, [sp, #280]
	lsls	r0, r0, #31
	bne	.LBB85_94
	b	.LBB85_105
.LBB85_94:
	lsls	r0, r4, #8
	adds	r0, r0, r7
	lsls	r1, r6, #16
	ldr	r2, [sp, #52]
	lsls	r2, r2, #24
	adds	r1, r2, r1
	adds	r0, r1, r0
	ldr	r4, [sp, #288]
	movs	r6, #0
	strb	r6, [r4, #23]
	strb	r6, [r4, #22]
	strb	r6, [r4, #21]
	strb	r6, [r4, #20]
	strb	r0, [r4, #16]
	strb	r6, [r4, #15]
	strb	r6, [r4, #14]
	strb	r6, [r4, #13]
	strb	r6, [r4, #12]
	strb	r5, [r4, #8]
	ldr	r1, [sp, #104]
	strb	r1, [r4, #1]
	ldr	r1, [sp, #92]
	strb	r1, [r4]
	lsrs	r1, r0, #24
	strb	r1, [r4, #19]
	lsrs	r1, r0, #16
	strb	r1, [r4, #18]
	lsrs	r0, r0, #8
	strb	r0, [r4, #17]
	lsrs	r0, r5, #24
	strb	r0, [r4, #11]
	lsrs	r0, r5, #16
	strb	r0, [r4, #10]
	lsrs	r0, r5, #8
	strb	r0, [r4, #9]
	mov	r0, r4
	adds	r0, #24
	movs	r2, #24
	mov	r1, r6
	mov	r7, r3
	bl	tlsf_memory_set
	ldr	r0, [sp, #116]
	lsls	r0, r0, #3
	ldr	r5, [sp, #48]
	strb	r4, [r5, r0]
	adds	r0, r5, r0
	strb	r6, [r0, #7]
	strb	r6, [r0, #6]
	strb	r6, [r0, #5]
	strb	r6, [r0, #4]
	lsrs	r1, r4, #24
	strb	r1, [r0, #3]
	lsrs	r1, r4, #16
	strb	r1, [r0, #2]
	lsrs	r1, r4, #8
	strb	r1, [r0, #1]
	ldr	r0, [sp, #80]
	ldr	r1, [sp, #88]
	orrs	r0, r1
	mov	r2, r7
	ldr	r0, [sp, #84]
	str	r0, [sp, #44]
	bne	.LBB85_93
	ldr	r6, [sp, #108]
	ldr	r3, [sp, #32]
	ldr	r2, [sp, #96]
.LBB85_96:
	movs	r0, #0
	str	r0, [sp, #188]
	str	r0, [sp, #184]
	str	r2, [sp, #176]
	ldr	r1, [sp, #24]
	str	r1, [sp, #168]
	str	r0, [sp, #164]
	str	r0, [sp, #160]
	mov	r4, r0
	str	r0, [sp, #156]
	ldr	r0, [sp, #112]
	str	r0, [sp, #152]
	str	r6, [sp, #180]
	str	r3, [sp, #172]
	add	r0, sp, #152
	mov	r7, r2
	bl	std_alloc.vec.deque.VecDeque.drop.ca3d8856d46a41b8
	add	r0, sp, #280
	movs	r1, #48
	movs	r2, #8
	bl	tlsf_memory_alloc
	ldr	r0, [sp, #280]
	lsls	r0, r0, #31
	bne	.LBB85_97
	b	.LBB85_104
.LBB85_97:
	ldr	r1, [sp, #288]
	ldr	r0, [sp, #60]
	strb	r7, [r1, r0]
	ldr	r0, [sp, #36]
	strb	r7, [r1, r0]
	ldr	r0, [sp, #20]
	strb	r6, [r1, r0]
	ldr	r0, [sp, #16]
	strb	r6, [r1, r0]
	mov	r0, r4
	strb	r4, [r1, #31]
	strb	r4, [r1, #30]
	strb	r4, [r1, #29]
	strb	r4, [r1, #28]
	strb	r5, [r1, #24]
	strb	r4, [r1, #23]
	strb	r4, [r1, #22]
	strb	r4, [r1, #21]
	strb	r4, [r1, #20]
	strb	r4, [r1, #19]
	strb	r4, [r1, #18]
	strb	r4, [r1, #17]
	strb	r4, [r1, #16]
	ldr	r3, [sp, #12]
	strb	r3, [r1, #12]
	ldr	r2, [sp, #28]
	strb	r2, [r1, #8]
	str	r6, [sp, #108]
	ldr	r2, [sp, #104]
	strb	r2, [r1, #1]
	movs	r2, #2
	strb	r2, [r1]
	mov	r2, r1
	adds	r2, #40
	lsrs	r6, r7, #24
	strb	r6, [r2, #3]
	lsrs	r4, r7, #16
	strb	r4, [r2, #2]
	lsrs	r7, r7, #8
	strb	r7, [r2, #1]
	mov	r2, r1
	adds	r2, #32
	strb	r6, [r2, #3]
	strb	r4, [r2, #2]
	strb	r7, [r2, #1]
	lsrs	r2, r5, #24
	strb	r2, [r1, #27]
	lsrs	r2, r5, #16
	strb	r2, [r1, #26]
	lsrs	r2, r5, #8
	strb	r2, [r1, #25]
	lsrs	r2, r3, #24
	strb	r2, [r1, #15]
	lsrs	r2, r3, #16
	strb	r2, [r1, #14]
	lsrs	r2, r3, #8
	strb	r2, [r1, #13]
	ldr	r3, [sp, #28]
	lsrs	r2, r3, #24
	strb	r2, [r1, #11]
	lsrs	r2, r3, #16
	strb	r2, [r1, #10]
	lsrs	r2, r3, #8
	strb	r2, [r1, #9]
	mov	r2, r1
	adds	r2, #44
	ldr	r5, [sp, #108]
	lsrs	r3, r5, #24
	strb	r3, [r2, #3]
	lsrs	r4, r5, #16
	strb	r4, [r2, #2]
	lsrs	r5, r5, #8
	strb	r5, [r2, #1]
	mov	r2, r1
	adds	r2, #36
	strb	r3, [r2, #3]
	strb	r4, [r2, #2]
	strb	r5, [r2, #1]
	ldr	r2, [sp, #64]
	strb	r0, [r2, #9]
	strb	r0, [r2, #15]
	strb	r0, [r2, #14]
	strb	r0, [r2, #13]
	strb	r0, [r2, #12]
	strb	r0, [r2, #11]
	strb	r0, [r2, #10]
	strb	r0, [r2, #7]
	strb	r0, [r2, #6]
	strb	r0, [r2, #5]
	strb	r0, [r2, #4]
	lsrs	r3, r1, #24
	strb	r3, [r2, #3]
	lsrs	r3, r1, #16
	strb	r3, [r2, #2]
	lsrs	r3, r1, #8
	strb	r3, [r2, #1]
	strb	r1, [r2]
	ldr	r1, [sp, #104]
	strb	r1, [r2, #8]
	add	sp, #332
	pop	{r4, r5, r6, r7, pc}
.LBB85_98:
	mov	r5, r4
	b	.LBB85_100
.LBB85_99:
	adds	r5, r5, #1
	ldr	r0, [sp, #116]
	adcs	r4, r0
	ldr	r0, [sp, #96]
	subs	r0, r5, r0
	mov	r0, r4
	ldr	r1, [sp, #108]
	sbcs	r0, r1
	bhs	.LBB85_102
.LBB85_100:
	lsls	r0, r5, #4
	ldr	r6, [sp, #112]
	adds	r1, r6, r0
	ldrb	r2, [r1, #3]
	ldrb	r3, [r1, #2]
	ldrb	r0, [r6, r0]
	ldrb	r1, [r1, #1]
	ldr	r6, [sp, #100]
	str	r6, [sp]
	lsls	r1, r1, #8
	adds	r0, r1, r0
	lsls	r1, r3, #16
	lsls	r2, r2, #24
	adds	r1, r2, r1
	adds	r7, r1, r0
	movs	r3, #0
	mov	r0, r7
	ldr	r6, [sp, #104]
	mov	r2, r6
	str	r3, [sp, #116]
	bl	__atomic_fetch_sub_8
	eors	r0, r6
	orrs	r0, r1
	bne	.LBB85_99
	ldr	r0, [sp, #56]
	ldrb	r6, [r7, r0]
	ldr	r0, [sp, #60]
	ldrb	r0, [r7, r0]
	str	r0, [sp, #80]
	mov	r0, r7
	adds	r0, #56
	ldrb	r1, [r0, #3]
	str	r1, [sp, #92]
	ldrb	r1, [r0, #2]
	str	r1, [sp, #88]
	ldrb	r0, [r0, #1]
	str	r0, [sp, #84]
	mov	r0, r7
	adds	r0, #40
	ldrb	r1, [r0, #3]
	str	r1, [sp, #76]
	ldrb	r1, [r0, #2]
	str	r1, [sp, #72]
	ldrb	r0, [r0, #1]
	str	r0, [sp, #68]
	mov	r0, r7
	bl	tlsf_memory_dealloc
	ldr	r0, [sp, #68]
	lsls	r0, r0, #8
	ldr	r1, [sp, #80]
	adds	r0, r0, r1
	ldr	r1, [sp, #72]
	lsls	r1, r1, #16
	ldr	r2, [sp, #76]
	lsls	r2, r2, #24
	adds	r1, r2, r1
	adds	r0, r1, r0
	bl	tlsf_memory_dealloc
	ldr	r0, [sp, #84]
	lsls	r0, r0, #8
	adds	r0, r0, r6
	ldr	r1, [sp, #88]
	lsls	r1, r1, #16
	ldr	r2, [sp, #92]
	lsls	r2, r2, #24
	adds	r1, r2, r1
	adds	r0, r1, r0
	bl	tlsf_memory_dealloc
	b	.LBB85_99
.LBB85_102:
	ldr	r0, [sp, #32]
	ldr	r1, [sp, #24]
	orrs	r1, r0
	beq	.LBB85_103
	b	.LBB85_111
.LBB85_103:
	b	.LBB85_112
.LBB85_104:
	ldr	r0, [sp, #28]
	bl	std_alloc.arc.Arc.drop.c4a047e811255370
	str	r6, [sp, #140]
	str	r7, [sp, #136]
	str	r6, [sp, #132]
	str	r7, [sp, #128]
	str	r4, [sp, #124]
	str	r5, [sp, #120]
	add	r0, sp, #120
	bl	std_alloc.vec.Vec.drop.7ac45d8413b9ad54
	b	.LBB85_84
.LBB85_105:
	str	r3, [sp, #108]
	ldr	r0, [sp, #100]
	str	r0, [sp]
	movs	r3, #0
	mov	r0, r5
	ldr	r4, [sp, #104]
	mov	r2, r4
	str	r3, [sp, #76]
	bl	__atomic_fetch_sub_8
	eors	r0, r4
	orrs	r0, r1
	bne	.LBB85_107
	ldr	r0, [sp, #56]
	ldrb	r0, [r5, r0]
	str	r0, [sp, #96]
	ldr	r0, [sp, #60]
	ldrb	r0, [r5, r0]
	str	r0, [sp, #64]
	mov	r0, r5
	adds	r0, #56
	ldrb	r1, [r0, #3]
	str	r1, [sp, #92]
	ldrb	r1, [r0, #2]
	str	r1, [sp, #72]
	ldrb	r0, [r0, #1]
	str	r0, [sp, #68]
	mov	r0, r5
	adds	r0, #40
	ldrb	r7, [r0, #3]
	ldrb	r4, [r0, #2]
	ldrb	r6, [r0, #1]
	mov	r0, r5
	bl	tlsf_memory_dealloc
	lsls	r0, r6, #8
	ldr	r1, [sp, #64]
	adds	r0, r0, r1
	lsls	r1, r4, #16
	lsls	r2, r7, #24
	adds	r1, r2, r1
	adds	r0, r1, r0
	bl	tlsf_memory_dealloc
	ldr	r0, [sp, #68]
	lsls	r0, r0, #8
	ldr	r1, [sp, #96]
	adds	r0, r0, r1
	ldr	r1, [sp, #72]
	lsls	r1, r1, #16
	ldr	r2, [sp, #92]
	lsls	r2, r2, #24
	adds	r1, r2, r1
	adds	r0, r1, r0
	bl	tlsf_memory_dealloc
.LBB85_107:
	ldr	r5, [sp, #76]
	str	r5, [sp, #228]
	str	r5, [sp, #224]
	ldr	r0, [sp, #108]
	str	r0, [sp, #216]
	ldr	r0, [sp, #24]
	str	r0, [sp, #208]
	ldr	r0, [sp, #80]
	str	r0, [sp, #200]
	str	r5, [sp, #196]
	ldr	r0, [sp, #112]
	str	r0, [sp, #192]
	ldr	r0, [sp, #84]
	str	r0, [sp, #220]
	ldr	r0, [sp, #32]
	str	r0, [sp, #212]
	ldr	r0, [sp, #88]
	str	r0, [sp, #204]
	add	r0, sp, #192
	bl	std_alloc.vec.deque.VecDeque.drop.ca3d8856d46a41b8
	ldr	r0, [sp, #116]
	ldr	r1, [sp, #44]
	orrs	r0, r1
	beq	.LBB85_110
	add	r0, sp, #280
	adds	r0, #8
	str	r0, [sp, #88]
	add	r0, sp, #232
	adds	r0, r0, #6
	str	r0, [sp, #112]
	mov	r4, r5
	ldr	r6, [sp, #76]
.LBB85_109:
	lsls	r0, r4, #3
	ldr	r2, [sp, #48]
	ldrb	r1, [r2, r0]
	adds	r0, r2, r0
	ldrb	r2, [r0, #1]
	lsls	r2, r2, #8
	adds	r1, r2, r1
	ldrb	r2, [r0, #2]
	lsls	r2, r2, #16
	ldrb	r0, [r0, #3]
	lsls	r0, r0, #24
	adds	r0, r0, r2
	adds	r7, r0, r1
	ldrb	r0, [r7]
	str	r0, [sp, #108]
	ldrb	r0, [r7, #1]
	str	r0, [sp, #96]
	mov	r1, r7
	adds	r1, #8
	movs	r2, #40
	str	r2, [sp, #92]
	ldr	r0, [sp, #112]
	bl	tlsf_memory_cpy
	mov	r0, r7
	bl	tlsf_memory_dealloc
	str	r6, [sp, #280]
	add	r7, sp, #280
	ldr	r0, [sp, #96]
	strb	r0, [r7, #1]
	ldr	r0, [sp, #108]
	strb	r0, [r7]
	str	r6, [sp, #284]
	ldr	r0, [sp, #88]
	ldr	r1, [sp, #112]
	ldr	r2, [sp, #92]
	bl	tlsf_memory_cpy
	mov	r0, r7
	bl	tlsf_c.tlsf_c.any_end.AnyEnd.Destruct.drop
	adds	r4, r4, #1
	adcs	r5, r6
	ldr	r0, [sp, #116]
	subs	r0, r4, r0
	mov	r0, r5
	ldr	r1, [sp, #44]
	sbcs	r0, r1
	blo	.LBB85_109
.LBB85_110:
	ldr	r0, [sp, #48]
	str	r0, [sp, #112]
.LBB85_111:
	ldr	r0, [sp, #112]
	bl	tlsf_memory_dealloc
.LBB85_112:
	ldr	r0, [sp, #100]
	str	r0, [sp]
	movs	r3, #0
	ldr	r7, [sp, #28]
	mov	r0, r7
	ldr	r4, [sp, #104]
	mov	r2, r4
	bl	__atomic_fetch_sub_8
	mov	r2, r0
	eors	r2, r4
	orrs	r2, r1
	movs	r0, #6
	cmp	r2, #0
	beq	.LBB85_113
	b	.LBB85_85
.LBB85_113:
	ldr	r1, [sp, #56]
	ldrb	r1, [r7, r1]
	str	r1, [sp, #112]
	ldr	r1, [sp, #60]
	ldrb	r5, [r7, r1]
	mov	r1, r7
	adds	r1, #56
	ldrb	r2, [r1, #3]
	str	r2, [sp, #108]
	ldrb	r2, [r1, #2]
	str	r2, [sp, #104]
	ldrb	r1, [r1, #1]
	str	r1, [sp, #100]
	mov	r1, r7
	adds	r1, #40
	ldrb	r6, [r1, #3]
	mov	r2, r7
	ldrb	r7, [r1, #2]
	ldrb	r4, [r1, #1]
	str	r0, [sp, #116]
	mov	r0, r2
	bl	tlsf_memory_dealloc
	lsls	r0, r4, #8
	adds	r0, r0, r5
	lsls	r1, r7, #16
	lsls	r2, r6, #24
	adds	r1, r2, r1
	adds	r0, r1, r0
	bl	tlsf_memory_dealloc
	ldr	r0, [sp, #100]
	lsls	r0, r0, #8
	ldr	r1, [sp, #112]
	adds	r0, r0, r1
	ldr	r1, [sp, #104]
	lsls	r1, r1, #16
	ldr	r2, [sp, #108]
	lsls	r2, r2, #24
	adds	r1, r2, r1
	adds	r0, r1, r0
	bl	tlsf_memory_dealloc
	ldr	r0, [sp, #116]
	add	sp, #332
	pop	{r4, r5, r6, r7, pc}
.Lfunc_end85:
	.size	tlsf_queue_open, .Lfunc_end85-tlsf_queue_open
	.cfi_endproc
	.section	.text.tlsf_queue_post,"ax",%progbits
	.globl	tlsf_queue_post
	.p2align	1
	.type	tlsf_queue_post,%function
	.code	16
	.thumb_func
tlsf_queue_post:
	.cfi_startproc
	push	{r4, r5, r6, r7, lr}
	.cfi_def_cfa_offset 20
	.cfi_offset lr, -4
	.cfi_offset r7, -8
	.cfi_offset r6, -12
	.cfi_offset r5, -16
	.cfi_offset r4, -20
	sub	sp, #68
	.cfi_def_cfa_offset 88
	ldrb	r1, [r0, #8]
	cmp	r1, #0
	bne	.LBB86_1
	b	.LBB86_15
.LBB86_1:
	ldr	r1, [r0]
	ldrb	r0, [r1, #1]
	cmp	r0, #0
	bne	.LBB86_2
	b	.LBB86_15
.LBB86_2:
	ldrb	r0, [r1]
	cmp	r0, #3
	beq	.LBB86_3
	b	.LBB86_16
.LBB86_3:
	str	r3, [sp, #28]
	str	r2, [sp, #32]
	movs	r6, #0
	strb	r6, [r1, #1]
	ldr	r0, [r1, #16]
	str	r0, [sp, #24]
	str	r1, [sp, #52]
	ldr	r5, [r1, #8]
	ldr	r0, [r5, #8]
	adds	r0, #128
	movs	r4, #5
	mov	r1, r4
	bl	__atomic_load_8
	str	r1, [sp, #44]
	ldr	r1, [r5, #80]
	ldr	r7, [r5, #84]
	subs	r1, r1, #1
	str	r6, [sp, #40]
	sbcs	r7, r6
	ands	r1, r0
	mov	r6, r0
	str	r1, [sp, #36]
	lsls	r1, r1, #3
	str	r5, [sp, #48]
	ldr	r0, [r5, #8]
	str	r1, [sp, #12]
	adds	r0, r0, r1
	movs	r1, #3
	lsls	r1, r1, #7
	str	r1, [sp, #8]
	adds	r0, r0, r1
	mov	r5, r4
	mov	r1, r4
	bl	__atomic_load_8
	ldr	r4, [sp, #44]
	lsrs	r2, r4, #30
	cmp	r2, #2
	bhi	.LBB86_11
	eors	r0, r6
	eors	r1, r4
	orrs	r1, r0
	bne	.LBB86_11
	str	r5, [sp, #20]
	str	r6, [sp, #16]
	ands	r7, r4
	ldr	r6, [sp, #36]
	adds	r0, r6, #1
	mov	r1, r7
	ldr	r2, [sp, #40]
	adcs	r1, r2
	ldr	r3, [sp, #48]
	ldr	r2, [r3, #72]
	ldr	r3, [r3, #76]
	subs	r0, r0, r2
	sbcs	r1, r3
	bhs	.LBB86_7
	movs	r3, #0
	ldr	r1, [sp, #16]
	adds	r2, r1, #1
	adcs	r3, r4
	b	.LBB86_8
.LBB86_7:
	ldr	r0, [sp, #16]
	subs	r5, r0, r6
	mov	r1, r4
	sbcs	r1, r7
	ldr	r3, [sp, #48]
	ldr	r2, [r3, #80]
	ldr	r3, [r3, #84]
	adds	r2, r5, r2
	adcs	r3, r1
	mov	r1, r0
.LBB86_8:
	ldr	r0, [sp, #48]
	ldr	r0, [r0, #8]
	str	r4, [sp, #60]
	str	r1, [sp, #56]
	ldr	r1, [sp, #20]
	str	r1, [sp]
	str	r1, [sp, #4]
	adds	r0, #128
	add	r1, sp, #56
	bl	__atomic_compare_exchange_8
	cmp	r0, #0
	beq	.LBB86_11
	ldr	r3, [sp, #92]
	ldr	r2, [sp, #88]
	ldr	r0, [sp, #36]
	lsls	r1, r0, #5
	ldr	r0, [sp, #48]
	ldr	r7, [r0, #16]
	ldrb	r0, [r7, r1]
	movs	r6, #1
	strb	r6, [r7, r1]
	adds	r1, r7, r1
	lsrs	r7, r3, #24
	strb	r7, [r1, #31]
	lsrs	r7, r3, #16
	strb	r7, [r1, #30]
	lsrs	r7, r3, #8
	strb	r7, [r1, #29]
	strb	r3, [r1, #28]
	lsrs	r3, r2, #24
	strb	r3, [r1, #27]
	lsrs	r3, r2, #16
	strb	r3, [r1, #26]
	lsrs	r3, r2, #8
	strb	r3, [r1, #25]
	strb	r2, [r1, #24]
	ldr	r7, [sp, #40]
	strb	r7, [r1, #7]
	strb	r7, [r1, #6]
	strb	r7, [r1, #5]
	strb	r7, [r1, #4]
	strb	r7, [r1, #2]
	strb	r7, [r1, #3]
	strb	r7, [r1, #1]
	ldr	r3, [sp, #28]
	lsrs	r2, r3, #24
	strb	r2, [r1, #23]
	lsrs	r2, r3, #16
	strb	r2, [r1, #22]
	lsrs	r2, r3, #8
	strb	r2, [r1, #21]
	strb	r3, [r1, #20]
	ldr	r3, [sp, #32]
	lsrs	r2, r3, #24
	strb	r2, [r1, #19]
	lsrs	r2, r3, #16
	strb	r2, [r1, #18]
	lsrs	r2, r3, #8
	strb	r2, [r1, #17]
	strb	r3, [r1, #16]
	strb	r7, [r1, #15]
	strb	r7, [r1, #14]
	strb	r7, [r1, #13]
	strb	r7, [r1, #12]
	ldr	r3, [sp, #24]
	lsrs	r2, r3, #24
	strb	r2, [r1, #11]
	lsrs	r2, r3, #16
	strb	r2, [r1, #10]
	lsrs	r2, r3, #8
	strb	r2, [r1, #9]
	strb	r3, [r1, #8]
	cmp	r0, #0
	bne	.LBB86_20
	ldr	r0, [sp, #48]
	ldr	r0, [r0, #8]
	ldr	r1, [sp, #20]
	str	r1, [sp]
	ldr	r1, [sp, #16]
	adds	r2, r1, #1
	mov	r3, r4
	adcs	r3, r7
	ldr	r1, [sp, #12]
	adds	r0, r0, r1
	ldr	r1, [sp, #8]
	adds	r0, r0, r1
	bl	__atomic_store_8
	ldr	r0, [sp, #52]
	strb	r6, [r0, #1]
	b	.LBB86_19
.LBB86_11:
	ldr	r0, [sp, #52]
	ldr	r7, [r0, #8]
	ldr	r0, [r7, #8]
	adds	r0, #128
	movs	r4, #5
	mov	r1, r4
	bl	__atomic_load_8
	mov	r6, r0
	mov	r5, r1
	movs	r0, #1
	str	r0, [sp, #48]
	lsls	r0, r0, #8
	ldr	r1, [r7, #8]
	adds	r0, r1, r0
	mov	r1, r4
	bl	__atomic_load_8
	ldr	r3, [r7, #80]
	ldr	r2, [r7, #84]
	subs	r4, r6, r3
	mov	r7, r5
	sbcs	r7, r2
	eors	r4, r0
	eors	r7, r1
	movs	r0, #37
	orrs	r7, r4
	beq	.LBB86_13
	mov	r7, r0
	b	.LBB86_14
.LBB86_13:
	movs	r7, #8
.LBB86_14:
	subs	r1, r6, r3
	sbcs	r5, r2
	ldr	r1, [sp, #52]
	ldr	r2, [sp, #48]
	strb	r2, [r1, #1]
	blo	.LBB86_18
	b	.LBB86_19
.LBB86_15:
	movs	r0, #0
	b	.LBB86_17
.LBB86_16:
	movs	r0, #2
.LBB86_17:
	bl	tlsf_c.call_fault.CallFault.refusal
.LBB86_18:
	mov	r7, r0
.LBB86_19:
	mov	r0, r7
	add	sp, #68
	pop	{r4, r5, r6, r7, pc}
.LBB86_20:
	.inst.n	0xdefe
.Lfunc_end86:
	.size	tlsf_queue_post, .Lfunc_end86-tlsf_queue_post
	.cfi_endproc
	.section	.text.tlsf_queue_take,"ax",%progbits
	.globl	tlsf_queue_take
	.p2align	2
	.type	tlsf_queue_take,%function
	.code	16
	.thumb_func
tlsf_queue_take:
	.cfi_startproc
	push	{r4, r5, r6, r7, lr}
	.cfi_def_cfa_offset 20
	.cfi_offset lr, -4
	.cfi_offset r7, -8
	.cfi_offset r6, -12
	.cfi_offset r5, -16
	.cfi_offset r4, -20
	sub	sp, #36
	.cfi_def_cfa_offset 56
	mov	r5, r1
	ldrb	r1, [r0, #8]
	cmp	r1, #0
	beq	.LBB87_8
	ldr	r7, [r0]
	ldrb	r0, [r7, #1]
	cmp	r0, #0
	beq	.LBB87_8
	ldrb	r0, [r7]
	cmp	r0, #2
	bne	.LBB87_9
	movs	r4, #0
	strb	r4, [r7, #1]
	str	r4, [sp, #28]
	str	r4, [sp, #24]
	str	r4, [sp, #20]
	str	r4, [sp, #16]
	str	r4, [sp, #12]
	str	r4, [sp, #8]
	str	r4, [sp, #4]
	str	r4, [sp]
	mov	r1, r7
	adds	r1, #8
	mov	r6, sp
	mov	r0, r6
	bl	tlsf_c.queue_end.take_once
	ldrb	r0, [r6]
	cmp	r0, #0
	beq	.LBB87_5
	mov	r0, sp
	ldrb	r0, [r0, #1]
	lsls	r0, r0, #2
	ldr	r1, .LCPI87_0
	ldr	r4, [r1, r0]
	b	.LBB87_6
.LBB87_5:
	ldr	r2, [sp, #28]
	strb	r2, [r5, #12]
	ldr	r3, [sp, #24]
	strb	r3, [r5, #8]
	ldr	r1, [sp, #20]
	strb	r1, [r5, #4]
	ldr	r0, [sp, #16]
	strb	r0, [r5]
	lsrs	r6, r2, #24
	strb	r6, [r5, #15]
	lsrs	r6, r2, #16
	strb	r6, [r5, #14]
	lsrs	r2, r2, #8
	strb	r2, [r5, #13]
	lsrs	r2, r3, #24
	strb	r2, [r5, #11]
	lsrs	r2, r3, #16
	strb	r2, [r5, #10]
	lsrs	r2, r3, #8
	strb	r2, [r5, #9]
	lsrs	r2, r1, #24
	strb	r2, [r5, #7]
	lsrs	r2, r1, #16
	strb	r2, [r5, #6]
	lsrs	r1, r1, #8
	strb	r1, [r5, #5]
	lsrs	r1, r0, #24
	strb	r1, [r5, #3]
	lsrs	r1, r0, #16
	strb	r1, [r5, #2]
	lsrs	r0, r0, #8
	strb	r0, [r5, #1]
.LBB87_6:
	movs	r0, #1
	strb	r0, [r7, #1]
.LBB87_7:
	mov	r0, r4
	add	sp, #36
	pop	{r4, r5, r6, r7, pc}
.LBB87_8:
	movs	r0, #0
	b	.LBB87_10
.LBB87_9:
	movs	r0, #2
.LBB87_10:
	bl	tlsf_c.call_fault.CallFault.refusal
	mov	r4, r0
	b	.LBB87_7
	.p2align	2
.LCPI87_0:
	.long	.Lswitch.table.tlsf_queue_take
.Lfunc_end87:
	.size	tlsf_queue_take, .Lfunc_end87-tlsf_queue_take
	.cfi_endproc
	.section	.text.tlsf_read,"ax",%progbits
	.globl	tlsf_read
	.p2align	1
	.type	tlsf_read,%function
	.code	16
	.thumb_func
tlsf_read:
	.cfi_startproc
	push	{r4, r5, r6, r7, lr}
	.cfi_def_cfa_offset 20
	.cfi_offset lr, -4
	.cfi_offset r7, -8
	.cfi_offset r6, -12
	.cfi_offset r5, -16
	.cfi_offset r4, -20
	sub	sp, #28
	.cfi_def_cfa_offset 48
	movs	r6, #1
	ldr	r5, [sp, #60]
	cmp	r5, #0
	bne	.LBB88_2
	lsls	r1, r6, #12
	adds	r5, r5, r1
.LBB88_2:
	ldrb	r1, [r0, #8]
	movs	r4, #32
	cmp	r1, #0
	beq	.LBB88_18
	ldr	r1, [r0]
	ldrb	r0, [r1]
	cmp	r0, #1
	bne	.LBB88_18
	str	r6, [sp, #16]
	movs	r4, #0
	strb	r4, [r1]
	ldr	r6, [r1, #24]
	cmp	r6, r2
	str	r1, [sp, #24]
	bne	.LBB88_13
	ldr	r0, [sp, #24]
	ldr	r0, [r0, #56]
	cmp	r3, r0
	mov	r6, r2
	bhs	.LBB88_13
	movs	r6, #63
	ands	r6, r3
	ldr	r0, [sp, #24]
	ldr	r1, [r0, #72]
	lsrs	r0, r3, #6
	lsls	r7, r0, #3
	ldr	r0, [r1, r7]
	adds	r1, r1, r7
	ldr	r1, [r1, #4]
	mov	r7, r2
	mov	r2, r6
	str	r3, [sp, #20]
	bl	__aeabi_llsr
	mov	r2, r7
	lsls	r0, r0, #31
	mov	r6, r7
	beq	.LBB88_13
	ldr	r0, [sp, #24]
	adds	r0, #48
	ldr	r1, [sp, #20]
	lsls	r3, r1, #3
	ldr	r7, [r0]
	ldrb	r6, [r7, r3]
	lsls	r6, r6, #31
	mov	r6, r2
	bne	.LBB88_13
	ldr	r6, [sp, #52]
	ldr	r1, [sp, #48]
	str	r1, [sp, #12]
	adds	r1, r7, r3
	ldr	r7, [r1, #8]
	ldr	r3, [r1, #12]
	eors	r3, r6
	ldr	r6, [sp, #12]
	eors	r7, r6
	orrs	r7, r3
	mov	r6, r2
	bne	.LBB88_13
	ldr	r6, [sp, #64]
	ldr	r2, [sp, #56]
	adds	r3, r6, r2
	mov	r7, r4
	adcs	r7, r4
	ldr	r1, [r1, #16]
	subs	r1, r1, r3
	mov	r1, r4
	sbcs	r1, r7
	bhs	.LBB88_11
	movs	r4, #7
	b	.LBB88_12
.LBB88_11:
	str	r6, [sp]
	str	r4, [sp, #4]
	ldr	r1, [sp, #20]
	mov	r3, r5
	bl	tlsf_heap.region.Region.read.4
.LBB88_12:
	ldr	r0, [sp, #16]
	ldr	r5, [sp, #24]
	b	.LBB88_17
.LBB88_13:
	ldr	r5, [sp, #24]
	mov	r0, r2
	mov	r1, r6
	bl	tlsf_heap.refusal.Refusal.of_name
	uxtb	r0, r0
	cmp	r0, #2
	beq	.LBB88_15
	movs	r4, #4
	b	.LBB88_16
.LBB88_15:
	movs	r4, #3
.LBB88_16:
	ldr	r0, [sp, #16]
.LBB88_17:
	strb	r0, [r5]
.LBB88_18:
	mov	r0, r4
	add	sp, #28
	pop	{r4, r5, r6, r7, pc}
.Lfunc_end88:
	.size	tlsf_read, .Lfunc_end88-tlsf_read
	.cfi_endproc
	.section	.text.tlsf_reallocate,"ax",%progbits
	.globl	tlsf_reallocate
	.p2align	2
	.type	tlsf_reallocate,%function
	.code	16
	.thumb_func
tlsf_reallocate:
	.cfi_startproc
	push	{r4, r5, r6, r7, lr}
	.cfi_def_cfa_offset 20
	.cfi_offset lr, -4
	.cfi_offset r7, -8
	.cfi_offset r6, -12
	.cfi_offset r5, -16
	.cfi_offset r4, -20
	sub	sp, #164
	.cfi_def_cfa_offset 184
	mov	r7, r1
	mov	r5, r0
	ldrb	r1, [r0, #8]
	movs	r0, #32
	cmp	r1, #0
	bne	.LBB89_1
	b	.LBB89_30
.LBB89_1:
	ldr	r3, [r5]
	ldrb	r1, [r3]
	cmp	r1, #1
	beq	.LBB89_2
	b	.LBB89_30
.LBB89_2:
	str	r5, [sp, #72]
	str	r2, [sp, #112]
	movs	r0, #0
	str	r0, [sp, #104]
	strb	r0, [r3]
	ldrb	r0, [r7]
	ldrb	r1, [r7, #1]
	lsls	r1, r1, #8
	adds	r0, r1, r0
	ldrb	r1, [r7, #2]
	lsls	r1, r1, #16
	ldrb	r2, [r7, #3]
	lsls	r2, r2, #24
	adds	r1, r2, r1
	adds	r2, r1, r0
	ldr	r1, [r3, #24]
	cmp	r2, r1
	beq	.LBB89_3
	b	.LBB89_28
.LBB89_3:
	ldrb	r0, [r7, #4]
	ldrb	r1, [r7, #5]
	lsls	r1, r1, #8
	adds	r0, r1, r0
	ldrb	r1, [r7, #6]
	lsls	r1, r1, #16
	str	r2, [sp, #124]
	ldrb	r2, [r7, #7]
	lsls	r2, r2, #24
	adds	r1, r2, r1
	ldr	r2, [sp, #124]
	adds	r1, r1, r0
	ldr	r0, [r3, #56]
	str	r1, [sp, #120]
	cmp	r1, r0
	mov	r1, r2
	blo	.LBB89_4
	b	.LBB89_28
.LBB89_4:
	ldrb	r0, [r7, #12]
	str	r0, [sp, #88]
	ldrb	r6, [r7, #13]
	ldrb	r0, [r7, #14]
	str	r0, [sp, #80]
	ldrb	r0, [r7, #15]
	str	r0, [sp, #76]
	ldrb	r0, [r7, #8]
	str	r0, [sp, #100]
	ldrb	r0, [r7, #9]
	str	r0, [sp, #84]
	ldrb	r0, [r7, #10]
	str	r0, [sp, #96]
	ldrb	r0, [r7, #11]
	str	r0, [sp, #92]
	movs	r1, #63
	ldr	r0, [sp, #120]
	mov	r2, r0
	str	r1, [sp, #60]
	ands	r2, r1
	ldr	r1, [r3, #72]
	lsrs	r0, r0, #6
	str	r3, [sp, #116]
	lsls	r3, r0, #3
	ldr	r0, [r1, r3]
	adds	r1, r1, r3
	ldr	r1, [r1, #4]
	bl	__aeabi_llsr
	ldr	r2, [sp, #124]
	ldr	r3, [sp, #116]
	lsls	r0, r0, #31
	mov	r1, r2
	bne	.LBB89_5
	b	.LBB89_28
.LBB89_5:
	mov	r1, r3
	adds	r1, #48
	ldr	r0, [sp, #120]
	lsls	r5, r0, #3
	str	r1, [sp, #68]
	ldr	r4, [r1]
	ldr	r0, [r4, r5]
	str	r0, [sp, #108]
	lsls	r0, r0, #31
	mov	r1, r2
	beq	.LBB89_6
	b	.LBB89_28
.LBB89_6:
	lsls	r0, r6, #8
	ldr	r1, [sp, #88]
	adds	r0, r0, r1
	ldr	r1, [sp, #80]
	lsls	r1, r1, #16
	ldr	r2, [sp, #76]
	lsls	r2, r2, #24
	adds	r1, r2, r1
	str	r7, [sp, #88]
	adds	r7, r1, r0
	ldr	r0, [sp, #84]
	lsls	r0, r0, #8
	ldr	r1, [sp, #100]
	adds	r0, r0, r1
	ldr	r1, [sp, #96]
	lsls	r1, r1, #16
	ldr	r2, [sp, #92]
	lsls	r2, r2, #24
	adds	r1, r2, r1
	adds	r6, r1, r0
	adds	r0, r4, r5
	ldr	r1, [r0, #8]
	ldr	r2, [r0, #12]
	str	r7, [sp, #96]
	eors	r2, r7
	eors	r1, r6
	orrs	r1, r2
	ldr	r2, [sp, #124]
	mov	r1, r2
	beq	.LBB89_7
	b	.LBB89_28
.LBB89_7:
	str	r4, [sp, #64]
	str	r5, [sp, #84]
	str	r6, [sp, #100]
	mov	r5, r3
	adds	r5, #24
	ldr	r6, [sp, #112]
	adds	r1, r6, #1
	ldr	r7, [sp, #104]
	mov	r2, r7
	adcs	r2, r7
	cmp	r6, #0
	beq	.LBB89_9
	mov	r1, r6
.LBB89_9:
	beq	.LBB89_11
	mov	r2, r7
.LBB89_11:
	ldr	r4, [r0, #4]
	str	r4, [sp, #92]
	adds	r1, #31
	adcs	r2, r7
	lsrs	r1, r1, #3
	lsls	r2, r2, #29
	adds	r7, r1, r2
	ldr	r1, [sp, #108]
	lsrs	r4, r1, #2
	cmp	r7, r4
	bls	.LBB89_15
	lsls	r0, r1, #30
	str	r5, [sp, #76]
	bmi	.LBB89_14
	ldr	r0, [sp, #120]
	adds	r0, r4, r0
	lsls	r1, r0, #3
	ldr	r0, [sp, #64]
	ldr	r0, [r0, r1]
	lsls	r2, r0, #31
	bne	.LBB89_32
.LBB89_14:
	movs	r0, #0
	str	r0, [sp, #80]
	b	.LBB89_33
.LBB89_15:
	ldr	r2, [r3, #32]
	ldr	r3, [r3, #36]
	mov	r1, r2
	ands	r1, r3
	adds	r1, r1, #1
	bne	.LBB89_16
	b	.LBB89_61
.LBB89_16:
	str	r2, [sp, #76]
	str	r7, [sp, #80]
	movs	r1, #0
	str	r1, [sp, #104]
	str	r1, [r0, #20]
	ldr	r5, [r0, #16]
	str	r6, [r0, #16]
	cmp	r6, r5
	ldr	r2, [sp, #116]
	bls	.LBB89_25
	movs	r0, #7
	mov	r7, r5
	ands	r7, r0
	beq	.LBB89_19
	ldr	r1, [sp, #84]
	str	r5, [sp, #64]
	ldr	r2, [sp, #64]
	adds	r5, r1, r2
	adds	r5, #24
	bics	r5, r0
	ldr	r0, [sp, #68]
	ldr	r6, [r0]
	ldr	r0, [r6, r5]
	str	r0, [sp, #144]
	adds	r0, r6, r5
	str	r0, [sp, #60]
	ldr	r0, [r0, #4]
	str	r0, [sp, #148]
	add	r0, sp, #144
	adds	r0, r0, r7
	ldr	r1, .LCPI89_4
	adds	r1, r1, r7
	movs	r2, #8
	subs	r2, r2, r7
	str	r3, [sp, #84]
	bl	tlsf_memory_cpy
	ldr	r3, [sp, #84]
	ldr	r2, [sp, #116]
	ldr	r0, [sp, #144]
	str	r0, [r6, r5]
	ldr	r5, [sp, #64]
	ldr	r6, [sp, #112]
	ldr	r0, [sp, #148]
	ldr	r1, [sp, #60]
	str	r0, [r1, #4]
.LBB89_19:
	lsrs	r0, r6, #3
	lsls	r1, r6, #29
	beq	.LBB89_21
	adds	r0, r0, #1
.LBB89_21:
	lsrs	r1, r5, #3
	cmp	r7, #0
	beq	.LBB89_23
	adds	r1, r1, #1
.LBB89_23:
	cmp	r0, r1
	beq	.LBB89_25
	subs	r0, r0, r1
	lsls	r2, r0, #3
	ldr	r0, [sp, #120]
	adds	r0, r0, r1
	lsls	r0, r0, #3
	ldr	r1, [sp, #68]
	ldr	r1, [r1]
	adds	r0, r0, r1
	adds	r0, #24
	movs	r1, #0
	mov	r5, r3
	bl	tlsf_memory_set
	mov	r3, r5
	ldr	r2, [sp, #116]
.LBB89_25:
	ldr	r5, [sp, #80]
	adds	r0, r5, #4
	cmp	r4, r0
	mov	r0, r4
	blo	.LBB89_27
	str	r5, [sp]
	ldr	r0, [sp, #76]
	str	r0, [sp, #8]
	str	r3, [sp, #12]
	ldr	r0, [sp, #68]
	ldr	r1, [sp, #120]
	ldr	r2, [sp, #108]
	ldr	r3, [sp, #92]
	bl	tlsf_heap.refitting.split_off.4
	ldr	r2, [sp, #116]
	mov	r0, r5
.LBB89_27:
	subs	r0, r0, r4
	ldr	r1, [r2, #40]
	adds	r0, r0, r1
	ldr	r1, [r2, #32]
	adds	r1, r1, #1
	str	r1, [r2, #32]
	str	r0, [r2, #40]
	ldr	r0, [r2, #36]
	ldr	r1, [sp, #104]
	adcs	r0, r1
	b	.LBB89_54
.LBB89_28:
	mov	r0, r2
	mov	r4, r3
	bl	tlsf_heap.refusal.Refusal.of_name
	movs	r1, #1
	strb	r1, [r4]
	uxtb	r0, r0
	cmp	r0, #3
	beq	.LBB89_31
	movs	r0, #3
.LBB89_30:
	add	sp, #164
	pop	{r4, r5, r6, r7, pc}
.LBB89_31:
	movs	r0, #4
	add	sp, #164
	pop	{r4, r5, r6, r7, pc}
.LBB89_32:
	ldr	r2, [sp, #64]
	adds	r1, r2, r1
	ldr	r1, [r1, #4]
	str	r1, [sp, #80]
.LBB89_33:
	lsrs	r2, r0, #2
	adds	r2, r2, r4
	movs	r5, #0
	mvns	r1, r5
	cmp	r2, r7
	str	r5, [sp, #104]
	bhs	.LBB89_41
	ldr	r0, [sp, #100]
	str	r0, [sp, #136]
	ldr	r0, [sp, #120]
	str	r0, [sp, #132]
	ldr	r0, [sp, #124]
	str	r0, [sp, #128]
	ldr	r0, [sp, #96]
	str	r0, [sp, #140]
	subs	r0, r1, #2
	mov	r6, r1
	sbcs	r6, r5
	ldr	r5, [r3, #32]
	ldr	r2, [r3, #36]
	subs	r0, r0, r5
	sbcs	r6, r2
	bhs	.LBB89_35
	b	.LBB89_61
.LBB89_35:
	str	r1, [sp, #124]
	str	r5, [sp, #100]
	movs	r0, #1
	lsls	r1, r0, #20
	cmp	r7, r1
	bhi	.LBB89_36
	b	.LBB89_62
.LBB89_36:
	strb	r0, [r3]
	ldr	r1, [r3, #12]
	ldr	r2, [sp, #112]
	cmp	r2, r1
	bhi	.LBB89_38
	mov	r2, r1
.LBB89_38:
	str	r2, [r3, #12]
	ldr	r1, [r3, #8]
	adds	r1, r1, #1
	ldr	r2, [sp, #124]
	blo	.LBB89_40
	mov	r1, r2
.LBB89_40:
	str	r1, [r3, #8]
	add	sp, #164
	pop	{r4, r5, r6, r7, pc}
.LBB89_41:
	ldr	r2, [r3, #32]
	ldr	r3, [r3, #36]
	mov	r5, r3
	eors	r5, r1
	eors	r1, r2
	orrs	r1, r5
	bne	.LBB89_42
	b	.LBB89_61
.LBB89_42:
	str	r2, [sp, #16]
	str	r3, [sp, #20]
	str	r0, [sp]
	ldr	r0, [sp, #80]
	str	r0, [sp, #4]
	str	r7, [sp, #8]
	ldr	r7, [sp, #68]
	mov	r0, r7
	ldr	r1, [sp, #120]
	ldr	r2, [sp, #108]
	ldr	r3, [sp, #92]
	bl	tlsf_heap.refitting.recut.4
	mov	r3, r0
	ldr	r0, [r7]
	ldr	r1, [sp, #84]
	adds	r0, r0, r1
	ldr	r5, [sp, #104]
	str	r5, [r0, #20]
	ldr	r7, [r0, #16]
	str	r6, [r0, #16]
	cmp	r6, r7
	ldr	r2, [sp, #116]
	bls	.LBB89_51
	movs	r0, #7
	str	r7, [sp, #108]
	ands	r7, r0
	beq	.LBB89_45
	ldr	r2, [sp, #108]
	adds	r5, r1, r2
	adds	r5, #24
	bics	r5, r0
	ldr	r0, [sp, #68]
	ldr	r6, [r0]
	ldr	r0, [r6, r5]
	str	r0, [sp, #144]
	adds	r0, r6, r5
	str	r0, [sp, #84]
	ldr	r0, [r0, #4]
	str	r0, [sp, #148]
	add	r0, sp, #144
	adds	r0, r0, r7
	ldr	r1, .LCPI89_1
	adds	r1, r1, r7
	movs	r2, #8
	subs	r2, r2, r7
	str	r3, [sp, #92]
	bl	tlsf_memory_cpy
	ldr	r3, [sp, #92]
	ldr	r2, [sp, #116]
	ldr	r0, [sp, #144]
	str	r0, [r6, r5]
	ldr	r5, [sp, #104]
	ldr	r6, [sp, #112]
	ldr	r0, [sp, #148]
	ldr	r1, [sp, #84]
	str	r0, [r1, #4]
.LBB89_45:
	lsrs	r0, r6, #3
	lsls	r1, r6, #29
	beq	.LBB89_47
	adds	r0, r0, #1
.LBB89_47:
	ldr	r1, [sp, #108]
	lsrs	r1, r1, #3
	cmp	r7, #0
	beq	.LBB89_49
	adds	r1, r1, #1
.LBB89_49:
	cmp	r0, r1
	beq	.LBB89_51
	subs	r0, r0, r1
	lsls	r2, r0, #3
	ldr	r0, [sp, #120]
	adds	r0, r0, r1
	lsls	r0, r0, #3
	ldr	r1, [sp, #68]
	ldr	r1, [r1]
	adds	r0, r0, r1
	adds	r0, #24
	movs	r1, #0
	mov	r7, r3
	bl	tlsf_memory_set
	mov	r3, r7
	ldr	r2, [sp, #116]
.LBB89_51:
	subs	r0, r3, r4
	ldr	r1, [r2, #40]
	adds	r0, r1, r0
	str	r0, [r2, #40]
	ldr	r1, [r2, #44]
	cmp	r1, r0
	bhs	.LBB89_53
	str	r0, [r2, #44]
.LBB89_53:
	ldr	r0, [r2, #32]
	adds	r0, r0, #1
	str	r0, [r2, #32]
	ldr	r0, [r2, #36]
	adcs	r0, r5
.LBB89_54:
	str	r0, [r2, #36]
.LBB89_55:
	ldr	r3, [sp, #72]
	ldr	r4, [sp, #88]
	movs	r0, #1
	strb	r0, [r2]
	cmp	r6, #0
	bne	.LBB89_57
	adds	r6, r6, #1
.LBB89_57:
	subs	r1, r6, #1
	lsls	r1, r1, #28
	bpl	.LBB89_60
	ldrb	r1, [r3, #28]
	cmp	r1, #0
	bne	.LBB89_60
	strb	r0, [r3, #28]
.LBB89_60:
	ldr	r1, [sp, #100]
	strb	r1, [r4, #8]
	ldr	r2, [sp, #120]
	strb	r2, [r4, #4]
	ldr	r3, [sp, #124]
	strb	r3, [r4]
	ldr	r5, [sp, #96]
	strb	r5, [r4, #12]
	lsrs	r0, r1, #24
	strb	r0, [r4, #11]
	lsrs	r0, r1, #16
	strb	r0, [r4, #10]
	lsrs	r0, r1, #8
	strb	r0, [r4, #9]
	lsrs	r0, r2, #24
	strb	r0, [r4, #7]
	lsrs	r0, r2, #16
	strb	r0, [r4, #6]
	lsrs	r0, r2, #8
	strb	r0, [r4, #5]
	lsrs	r0, r3, #24
	strb	r0, [r4, #3]
	lsrs	r0, r3, #16
	strb	r0, [r4, #2]
	lsrs	r0, r3, #8
	strb	r0, [r4, #1]
	lsrs	r0, r5, #24
	strb	r0, [r4, #15]
	lsrs	r0, r5, #16
	strb	r0, [r4, #14]
	lsrs	r0, r5, #8
	strb	r0, [r4, #13]
	movs	r0, #0
	add	sp, #164
	pop	{r4, r5, r6, r7, pc}
.LBB89_61:
	movs	r0, #1
	ldr	r1, [sp, #116]
	strb	r0, [r1]
	movs	r0, #2
	add	sp, #164
	pop	{r4, r5, r6, r7, pc}
.LBB89_62:
	str	r2, [sp, #96]
	movs	r2, #16
	mov	r1, r7
	str	r2, [sp, #52]
	orrs	r1, r2
	mov	r5, r0
	mov	r0, r1
	mov	r6, r7
	mov	r7, r3
	bl	__clzsi2
	mov	r1, r0
	mov	r0, r5
	movs	r2, #27
	str	r2, [sp, #48]
	subs	r1, r2, r1
	str	r6, [sp, #80]
	subs	r3, r6, #1
	lsrs	r3, r1
	lsls	r1, r1, #4
	adds	r1, r3, r1
	adds	r1, r1, #1
	subs	r2, r1, #1
	ldr	r1, [sp, #104]
	sbcs	r1, r1
	lsrs	r5, r2, #4
	lsls	r6, r1, #28
	adds	r5, r5, r6
	lsls	r6, r5, #2
	mov	r4, r7
	adds	r4, #108
	str	r4, [sp, #92]
	ldr	r6, [r4, r6]
	movs	r4, #15
	str	r4, [sp, #56]
	ands	r3, r4
	lsrs	r6, r3
	bics	r6, r0
	beq	.LBB89_65
	cmp	r6, #0
	beq	.LBB89_71
	rsbs	r3, r6, #0
	ands	r3, r6
	ldr	r5, .LCPI89_2
	muls	r5, r3, r5
	lsrs	r3, r5, #27
	adr	r5, .LCPI89_3
	ldrb	r3, [r5, r3]
	b	.LBB89_72
.LBB89_65:
	mvns	r1, r0
	lsls	r1, r5
	ldr	r6, [r7, #104]
	ands	r6, r1
	mov	r3, r7
	bne	.LBB89_66
	b	.LBB89_36
.LBB89_66:
	ldr	r3, .LCPI89_2
	adr	r2, .LCPI89_3
	movs	r5, #32
	cmp	r6, #0
	mov	r1, r5
	beq	.LBB89_68
	rsbs	r1, r6, #0
	ands	r1, r6
	muls	r1, r3, r1
	lsrs	r1, r1, #27
	ldrb	r1, [r2, r1]
.LBB89_68:
	lsls	r6, r1, #2
	ldr	r4, [sp, #92]
	ldr	r6, [r4, r6]
	cmp	r6, #0
	beq	.LBB89_74
	cmp	r6, #0
	beq	.LBB89_73
	rsbs	r5, r6, #0
	ands	r5, r6
	muls	r3, r5, r3
	lsrs	r3, r3, #27
	ldrb	r5, [r2, r3]
	b	.LBB89_74
.LBB89_71:
	movs	r3, #32
.LBB89_72:
	ldr	r5, [sp, #104]
	adds	r2, r2, r3
	adcs	r1, r5
	lsrs	r3, r2, #4
	lsls	r1, r1, #28
	adds	r1, r3, r1
	b	.LBB89_75
.LBB89_73:
	movs	r5, #32
.LBB89_74:
	lsls	r1, r1, #4
	adds	r2, r5, r1
	lsrs	r1, r2, #4
.LBB89_75:
	lsls	r3, r2, #2
	ldr	r7, [sp, #116]
	adds	r7, #192
	ldr	r5, [r7, r3]
	str	r5, [sp, #120]
	lsls	r4, r5, #3
	str	r4, [sp, #108]
	ldr	r6, [sp, #64]
	adds	r5, r6, r4
	mov	r4, r6
	ldr	r5, [r5, #16]
	adds	r6, r5, #1
	str	r7, [sp, #44]
	beq	.LBB89_77
	lsls	r0, r5, #3
	adds	r0, r4, r0
	ldr	r1, [sp, #124]
	str	r1, [r0, #20]
	str	r5, [r7, r3]
	ldr	r0, [sp, #68]
	ldr	r4, [r0]
	ldr	r2, [sp, #116]
	ldr	r6, [sp, #112]
	b	.LBB89_81
.LBB89_77:
	mvns	r5, r0
	adds	r5, r5, #1
	str	r5, [r7, r3]
	ldr	r3, [sp, #56]
	ands	r2, r3
	mov	r3, r0
	lsls	r3, r2
	lsls	r2, r1, #2
	ldr	r4, [sp, #92]
	ldr	r5, [r4, r2]
	bics	r5, r3
	str	r5, [r4, r2]
	ldr	r6, [sp, #112]
	beq	.LBB89_79
	ldr	r2, [sp, #116]
	b	.LBB89_80
.LBB89_79:
	lsls	r0, r1
	ldr	r2, [sp, #116]
	ldr	r1, [r2, #104]
	bics	r1, r0
	str	r1, [r2, #104]
.LBB89_80:
	ldr	r4, [sp, #64]
.LBB89_81:
	ldr	r0, [sp, #108]
	adds	r7, r4, r0
	ldr	r1, [r7, #4]
	str	r1, [sp, #64]
	ldr	r0, [r4, r0]
	ldr	r3, [sp, #80]
	lsls	r1, r3, #2
	subs	r5, r0, r1
	cmp	r5, #15
	bhi	.LBB89_84
	ldr	r5, [sp, #104]
	str	r5, [r7, #20]
	str	r6, [r7, #16]
	ldr	r1, [sp, #100]
	str	r1, [r7, #8]
	ldr	r1, [sp, #96]
	str	r1, [r7, #12]
	subs	r0, r0, #1
	str	r0, [r7]
	ldr	r1, [sp, #64]
	sbcs	r1, r5
	str	r1, [r7, #4]
	lsrs	r0, r0, #2
	b	.LBB89_90
	.p2align	2
.LCPI89_4:
	.long	.Lstatic.0
	.p2align	1
.LBB89_84:
	lsrs	r1, r5, #2
	str	r1, [sp, #36]
	str	r6, [r7, #16]
	ldr	r1, [sp, #100]
	str	r1, [r7, #8]
	ldr	r1, [sp, #120]
	adds	r6, r1, r3
	lsls	r1, r6, #3
	adds	r3, r4, r1
	str	r3, [sp, #32]
	subs	r0, r0, r5
	str	r0, [r7]
	str	r1, [sp, #40]
	str	r5, [r4, r1]
	ldr	r0, [sp, #100]
	str	r0, [r3, #8]
	ldr	r1, [sp, #104]
	ldr	r4, [sp, #64]
	sbcs	r4, r1
	mov	r0, r6
	str	r6, [sp, #28]
	lsrs	r6, r6, #3
	ldr	r3, .LCPI89_0
	ands	r6, r3
	ldr	r2, [r2, #72]
	str	r2, [sp, #24]
	ldr	r3, [r2, r6]
	str	r3, [sp, #64]
	ldr	r2, [sp, #60]
	ands	r2, r0
	movs	r0, #1
	str	r0, [sp, #60]
	bl	__aeabi_llsl
	ldr	r2, [sp, #64]
	orrs	r0, r2
	ldr	r3, [sp, #24]
	str	r0, [r3, r6]
	ldr	r0, [sp, #104]
	str	r0, [r7, #20]
	ldr	r0, [sp, #96]
	str	r0, [r7, #12]
	str	r4, [r7, #4]
	ldr	r4, [sp, #28]
	ldr	r7, [sp, #36]
	ldr	r2, [sp, #32]
	str	r0, [r2, #12]
	ldr	r0, [sp, #120]
	str	r0, [r2, #4]
	adds	r0, r3, r6
	ldr	r2, [r0, #4]
	orrs	r2, r1
	str	r2, [r0, #4]
	lsls	r0, r5, #30
	ldr	r3, [sp, #68]
	ldr	r6, [sp, #124]
	bmi	.LBB89_86
	adds	r0, r7, r4
	lsls	r0, r0, #3
	ldr	r1, [r3]
	ldr	r2, [r1, r0]
	ands	r2, r6
	str	r2, [r1, r0]
	adds	r0, r1, r0
	str	r4, [r0, #4]
.LBB89_86:
	ldr	r0, [sp, #52]
	orrs	r0, r7
	bl	__clzsi2
	ldr	r1, [sp, #48]
	subs	r0, r1, r0
	lsrs	r7, r0
	lsls	r0, r0, #4
	adds	r0, r7, r0
	lsls	r2, r0, #2
	ldr	r3, [sp, #44]
	ldr	r1, [r3, r2]
	mov	r5, r4
	str	r4, [r3, r2]
	cmp	r1, #0
	ldr	r4, [sp, #92]
	bmi	.LBB89_88
	ldr	r0, [sp, #68]
	ldr	r0, [r0]
	ldr	r2, [sp, #40]
	adds	r2, r0, r2
	str	r1, [r2, #16]
	str	r6, [r2, #20]
	lsls	r1, r1, #3
	adds	r0, r0, r1
	str	r5, [r0, #20]
	ldr	r1, [r0, #16]
	ands	r1, r6
	str	r1, [r0, #16]
	ldr	r3, [sp, #80]
	mov	r0, r3
	ldr	r2, [sp, #116]
	b	.LBB89_89
.LBB89_88:
	ldr	r5, [sp, #116]
	ldr	r1, [r5, #48]
	ldr	r2, [sp, #40]
	adds	r1, r1, r2
	str	r6, [r1, #16]
	str	r6, [r1, #20]
	ldr	r1, [sp, #56]
	ands	r7, r1
	ldr	r6, [sp, #60]
	mov	r1, r6
	lsls	r1, r7
	lsrs	r0, r0, #4
	lsls	r2, r0, #2
	ldr	r3, [r4, r2]
	orrs	r3, r1
	str	r3, [r4, r2]
	mov	r2, r5
	lsls	r6, r0
	ldr	r0, [r5, #104]
	orrs	r0, r6
	str	r0, [r5, #104]
	ldr	r3, [sp, #80]
	mov	r0, r3
.LBB89_89:
	ldr	r6, [sp, #112]
	ldr	r5, [sp, #104]
.LBB89_90:
	ldr	r4, [sp, #108]
	ldr	r1, [r2, #40]
	adds	r0, r1, r0
	str	r0, [r2, #40]
	ldr	r1, [r2, #44]
	cmp	r1, r0
	bhs	.LBB89_92
	str	r0, [r2, #44]
.LBB89_92:
	ldr	r0, [r2, #32]
	adds	r0, r0, #1
	str	r0, [r2, #32]
	ldr	r0, [r2, #36]
	adcs	r0, r5
	str	r0, [r2, #36]
	ldr	r2, [r2, #24]
	subs	r1, r3, #3
	ldr	r7, [sp, #68]
	beq	.LBB89_94
	ldr	r0, [r7]
	adds	r0, r0, r4
	adds	r0, #24
	mov	r5, r2
	lsls	r2, r1, #3
	movs	r1, #0
	bl	tlsf_memory_set
	mov	r2, r5
.LBB89_94:
	ldr	r0, [sp, #100]
	str	r0, [sp, #152]
	ldr	r0, [sp, #120]
	str	r0, [sp, #148]
	str	r2, [sp, #124]
	str	r2, [sp, #144]
	ldr	r0, [sp, #96]
	str	r0, [sp, #156]
	ldr	r1, [r7]
	ldr	r0, [sp, #84]
	adds	r0, r1, r0
	ldr	r0, [r0, #16]
	adds	r1, r1, r4
	ldr	r3, [r1, #16]
	cmp	r3, r0
	blo	.LBB89_96
	mov	r3, r0
.LBB89_96:
	add	r7, sp, #128
	add	r2, sp, #144
	ldr	r5, [sp, #76]
	mov	r0, r5
	mov	r1, r7
	bl	tlsf_heap.heap.Heap.copy.4
	mov	r0, r5
	mov	r1, r7
	bl	tlsf_heap.heap.Heap.release_live.4
	ldr	r2, [sp, #116]
	b	.LBB89_55
	.p2align	2
.LCPI89_0:
	.long	536870904
.LCPI89_1:
	.long	.Lstatic.0
.LCPI89_2:
	.long	125613361
.LCPI89_3:
	.ascii	"\000\001\034\002\035\016\030\003\036\026\024\017\031\021\004\b\037\033\r\027\025\023\020\007\032\f\022\006\013\005\n\t"
.Lfunc_end89:
	.size	tlsf_reallocate, .Lfunc_end89-tlsf_reallocate
	.cfi_endproc
	.section	.text.tlsf_release,"ax",%progbits
	.globl	tlsf_release
	.p2align	1
	.type	tlsf_release,%function
	.code	16
	.thumb_func
tlsf_release:
	.cfi_startproc
	push	{r7, lr}
	.cfi_def_cfa_offset 8
	.cfi_offset lr, -4
	.cfi_offset r7, -8
	sub	sp, #8
	.cfi_def_cfa_offset 16
	mov	r1, r2
	str	r3, [sp]
	ldr	r2, [sp, #16]
	ldr	r3, [sp, #20]
	bl	tlsf_c.heap_calls.release_named
	add	sp, #8
	pop	{r7, pc}
.Lfunc_end90:
	.size	tlsf_release, .Lfunc_end90-tlsf_release
	.cfi_endproc
	.section	.text.tlsf_release_all,"ax",%progbits
	.globl	tlsf_release_all
	.p2align	1
	.type	tlsf_release_all,%function
	.code	16
	.thumb_func
tlsf_release_all:
	.cfi_startproc
	push	{r4, r5, r6, r7, lr}
	.cfi_def_cfa_offset 20
	.cfi_offset lr, -4
	.cfi_offset r7, -8
	.cfi_offset r6, -12
	.cfi_offset r5, -16
	.cfi_offset r4, -20
	sub	sp, #100
	.cfi_def_cfa_offset 120
	str	r2, [sp, #96]
	movs	r3, #1
	cmp	r1, #0
	bne	.LBB91_2
	lsls	r2, r3, #12
	adds	r1, r1, r2
.LBB91_2:
	ldrb	r2, [r0, #8]
	cmp	r2, #0
	bne	.LBB91_3
	b	.LBB91_24
.LBB91_3:
	ldr	r6, [r0]
	ldrb	r0, [r6]
	cmp	r0, #0
	bne	.LBB91_4
	b	.LBB91_24
.LBB91_4:
	str	r3, [sp, #44]
	movs	r4, #0
	strb	r4, [r6]
	ldr	r0, [sp, #96]
	cmp	r0, #0
	bne	.LBB91_5
	b	.LBB91_23
.LBB91_5:
	mvns	r0, r4
	str	r0, [sp, #40]
	mov	r0, r6
	adds	r0, #108
	str	r0, [sp, #32]
	mov	r0, r6
	adds	r0, #192
	str	r0, [sp, #36]
	mov	r0, r6
	adds	r0, #48
	str	r0, [sp, #52]
	mov	r7, r4
	str	r1, [sp, #92]
	b	.LBB91_8
.LBB91_6:
	movs	r0, #0
	str	r1, [sp, #88]
	str	r2, [sp, #84]
	ldr	r2, [sp, #68]
	adds	r1, r2, #1
	str	r1, [r6, #32]
	ldr	r1, [sp, #72]
	adcs	r0, r1
	str	r0, [r6, #36]
	str	r3, [sp]
	ldr	r0, [sp, #76]
	str	r0, [sp, #4]
	str	r2, [sp, #8]
	str	r1, [sp, #12]
	str	r5, [sp, #16]
	ldr	r0, [sp, #52]
	ldr	r2, [sp, #88]
	ldr	r3, [sp, #84]
	bl	tlsf_heap.fitting.merge_next.4
.LBB91_7:
	movs	r0, #0
	adds	r7, r7, #1
	adcs	r4, r0
	ldr	r1, [sp, #96]
	subs	r1, r7, r1
	mov	r1, r4
	sbcs	r1, r0
	ldr	r1, [sp, #92]
	blo	.LBB91_8
	b	.LBB91_23
.LBB91_8:
	lsls	r2, r7, #4
	adds	r0, r1, r2
	ldrb	r1, [r1, r2]
	ldrb	r2, [r0, #1]
	lsls	r2, r2, #8
	adds	r1, r2, r1
	ldrb	r2, [r0, #2]
	lsls	r2, r2, #16
	ldrb	r3, [r0, #3]
	lsls	r3, r3, #24
	adds	r2, r3, r2
	adds	r1, r2, r1
	ldr	r2, [r6, #24]
	cmp	r1, r2
	bne	.LBB91_7
	ldrb	r1, [r0, #4]
	ldrb	r2, [r0, #5]
	lsls	r2, r2, #8
	adds	r1, r2, r1
	ldrb	r2, [r0, #6]
	lsls	r2, r2, #16
	ldrb	r3, [r0, #7]
	lsls	r3, r3, #24
	adds	r2, r3, r2
	adds	r5, r2, r1
	ldr	r1, [r6, #56]
	cmp	r5, r1
	bhs	.LBB91_7
	ldrb	r1, [r0, #12]
	str	r1, [sp, #76]
	ldrb	r1, [r0, #13]
	str	r1, [sp, #60]
	ldrb	r1, [r0, #14]
	str	r1, [sp, #68]
	ldrb	r1, [r0, #15]
	str	r1, [sp, #64]
	ldrb	r1, [r0, #8]
	str	r1, [sp, #88]
	ldrb	r1, [r0, #9]
	str	r1, [sp, #72]
	ldrb	r1, [r0, #10]
	str	r1, [sp, #84]
	ldrb	r0, [r0, #11]
	str	r0, [sp, #80]
	movs	r2, #63
	ands	r2, r5
	ldr	r1, [r6, #72]
	lsrs	r0, r5, #6
	lsls	r3, r0, #3
	ldr	r0, [r1, r3]
	adds	r1, r1, r3
	ldr	r1, [r1, #4]
	bl	__aeabi_llsr
	lsls	r0, r0, #31
	beq	.LBB91_7
	lsls	r1, r5, #3
	ldr	r0, [sp, #52]
	ldr	r3, [r0]
	str	r1, [sp, #56]
	ldr	r0, [r3, r1]
	str	r0, [sp, #48]
	lsls	r1, r0, #31
	bne	.LBB91_7
	ldr	r0, [sp, #60]
	lsls	r1, r0, #8
	ldr	r0, [sp, #76]
	adds	r1, r1, r0
	ldr	r0, [sp, #68]
	lsls	r2, r0, #16
	ldr	r0, [sp, #64]
	lsls	r0, r0, #24
	adds	r0, r0, r2
	adds	r0, r0, r1
	str	r0, [sp, #76]
	ldr	r0, [sp, #72]
	lsls	r1, r0, #8
	ldr	r0, [sp, #88]
	adds	r1, r1, r0
	ldr	r0, [sp, #84]
	lsls	r2, r0, #16
	ldr	r0, [sp, #80]
	lsls	r0, r0, #24
	adds	r0, r0, r2
	adds	r0, r0, r1
	str	r0, [sp, #88]
	ldr	r1, [sp, #56]
	adds	r2, r3, r1
	ldr	r1, [r2, #8]
	str	r2, [sp, #84]
	ldr	r2, [r2, #12]
	ldr	r0, [sp, #76]
	eors	r2, r0
	ldr	r0, [sp, #88]
	eors	r1, r0
	orrs	r1, r2
	bne	.LBB91_7
	ldr	r1, [r6, #32]
	ldr	r0, [r6, #36]
	str	r0, [sp, #72]
	ldr	r2, [sp, #40]
	eors	r0, r2
	str	r1, [sp, #68]
	eors	r1, r2
	orrs	r1, r0
	beq	.LBB91_7
	str	r3, [sp, #64]
	ldr	r0, [sp, #84]
	ldr	r0, [r0, #4]
	str	r0, [sp, #76]
	ldr	r3, [sp, #48]
	lsrs	r1, r3, #2
	ldr	r0, [r6, #40]
	str	r1, [sp, #80]
	subs	r0, r0, r1
	str	r0, [r6, #40]
	lsls	r0, r3, #30
	movs	r2, #0
	cmp	r0, #0
	str	r2, [sp, #88]
	bmi	.LBB91_16
	ldr	r0, [sp, #80]
	adds	r0, r0, r5
	lsls	r0, r0, #3
	ldr	r1, [sp, #64]
	ldr	r2, [r1, r0]
	str	r2, [sp, #88]
	adds	r0, r1, r0
	ldr	r2, [r0, #4]
.LBB91_16:
	cmp	r5, #0
	beq	.LBB91_18
	ldr	r0, [sp, #76]
	lsls	r1, r0, #3
	ldr	r0, [sp, #64]
	ldr	r0, [r0, r1]
	str	r0, [sp, #60]
	lsls	r0, r0, #31
	bne	.LBB91_21
.LBB91_18:
	ldr	r1, [sp, #88]
	lsls	r0, r1, #31
	beq	.LBB91_19
	b	.LBB91_6
.LBB91_19:
	ldr	r0, [sp, #44]
	orrs	r3, r0
	ldr	r1, [sp, #84]
	str	r3, [r1]
	ldr	r0, [sp, #76]
	str	r0, [r1, #4]
	ldr	r0, [sp, #68]
	str	r0, [r1, #8]
	ldr	r0, [sp, #72]
	str	r0, [r1, #12]
	ldr	r0, [r6, #32]
	movs	r1, #0
	adds	r0, r0, #1
	str	r0, [r6, #32]
	ldr	r0, [r6, #36]
	str	r1, [sp, #88]
	adcs	r0, r1
	str	r0, [r6, #36]
	movs	r0, #16
	ldr	r1, [sp, #80]
	orrs	r0, r1
	bl	__clzsi2
	movs	r1, #27
	subs	r0, r1, r0
	ldr	r1, [sp, #80]
	lsrs	r1, r0
	lsls	r0, r0, #4
	str	r1, [sp, #80]
	adds	r0, r1, r0
	lsls	r2, r0, #2
	ldr	r3, [sp, #36]
	ldr	r1, [r3, r2]
	str	r5, [r3, r2]
	cmp	r1, #0
	bmi	.LBB91_22
	ldr	r0, [sp, #52]
	ldr	r0, [r0]
	ldr	r2, [sp, #56]
	adds	r2, r0, r2
	ldr	r3, [sp, #88]
	mvns	r3, r3
	str	r1, [r2, #16]
	str	r3, [r2, #20]
	lsls	r1, r1, #3
	adds	r0, r0, r1
	str	r5, [r0, #20]
	b	.LBB91_7
.LBB91_21:
	ldr	r0, [sp, #64]
	adds	r0, r0, r1
	ldr	r0, [r0, #4]
	str	r0, [sp, #80]
	movs	r1, #0
	ldr	r0, [sp, #68]
	str	r2, [sp, #84]
	adds	r2, r0, #1
	str	r2, [r6, #32]
	ldr	r2, [sp, #72]
	adcs	r1, r2
	str	r1, [r6, #36]
	str	r3, [sp, #24]
	ldr	r1, [sp, #76]
	str	r1, [sp, #28]
	ldr	r1, [sp, #60]
	str	r1, [sp]
	ldr	r1, [sp, #80]
	str	r1, [sp, #4]
	add	r1, sp, #8
	stm	r1!, {r0, r2, r5}
	ldr	r0, [sp, #52]
	ldr	r2, [sp, #88]
	ldr	r3, [sp, #84]
	bl	tlsf_heap.fitting.merge_before.4
	b	.LBB91_7
.LBB91_22:
	ldr	r1, [r6, #48]
	ldr	r2, [sp, #56]
	adds	r1, r1, r2
	ldr	r2, [sp, #40]
	str	r2, [r1, #16]
	str	r2, [r1, #20]
	movs	r1, #15
	ldr	r2, [sp, #80]
	ands	r2, r1
	ldr	r1, [sp, #44]
	lsls	r1, r2
	lsrs	r0, r0, #4
	lsls	r2, r0, #2
	ldr	r5, [sp, #32]
	ldr	r3, [r5, r2]
	orrs	r3, r1
	str	r3, [r5, r2]
	ldr	r1, [sp, #44]
	lsls	r1, r0
	ldr	r0, [r6, #104]
	orrs	r0, r1
	str	r0, [r6, #104]
	b	.LBB91_7
.LBB91_23:
	ldr	r0, [sp, #44]
	strb	r0, [r6]
	movs	r0, #0
	add	sp, #100
	pop	{r4, r5, r6, r7, pc}
.LBB91_24:
	movs	r0, #0
	bl	tlsf_c.call_fault.CallFault.refusal
	add	sp, #100
	pop	{r4, r5, r6, r7, pc}
.Lfunc_end91:
	.size	tlsf_release_all, .Lfunc_end91-tlsf_release_all
	.cfi_endproc
	.section	.text.tlsf_release_place,"ax",%progbits
	.globl	tlsf_release_place
	.p2align	1
	.type	tlsf_release_place,%function
	.code	16
	.thumb_func
tlsf_release_place:
	.cfi_startproc
	push	{r4, r5, r6, r7, lr}
	.cfi_def_cfa_offset 20
	.cfi_offset lr, -4
	.cfi_offset r7, -8
	.cfi_offset r6, -12
	.cfi_offset r5, -16
	.cfi_offset r4, -20
	sub	sp, #68
	.cfi_def_cfa_offset 88
	mov	r4, r1
	ldrb	r1, [r0, #8]
	cmp	r1, #0
	bne	.LBB92_1
	b	.LBB92_18
.LBB92_1:
	ldr	r6, [r0]
	ldrb	r0, [r6]
	cmp	r0, #0
	bne	.LBB92_2
	b	.LBB92_18
.LBB92_2:
	movs	r0, #0
	str	r0, [sp, #60]
	strb	r0, [r6]
	ldr	r0, [r6, #56]
	cmp	r4, r0
	bhs	.LBB92_15
	movs	r2, #63
	ands	r2, r4
	ldr	r1, [r6, #72]
	lsrs	r0, r4, #6
	lsls	r3, r0, #3
	ldr	r0, [r1, r3]
	adds	r1, r1, r3
	ldr	r1, [r1, #4]
	bl	__aeabi_llsr
	lsls	r0, r0, #31
	beq	.LBB92_15
	mov	r5, r6
	adds	r5, #48
	lsls	r2, r4, #3
	ldr	r3, [r5]
	ldr	r7, [r3, r2]
	lsls	r0, r7, #31
	bne	.LBB92_15
	ldr	r0, [r6, #32]
	ldr	r1, [r6, #36]
	str	r0, [sp, #64]
	str	r1, [sp, #52]
	ands	r0, r1
	adds	r0, r0, #1
	beq	.LBB92_13
	str	r2, [sp, #36]
	adds	r0, r3, r2
	str	r0, [sp, #44]
	ldr	r0, [r0, #4]
	str	r0, [sp, #56]
	lsrs	r0, r7, #2
	ldr	r2, [r6, #40]
	str	r0, [sp, #48]
	subs	r2, r2, r0
	str	r2, [r6, #40]
	lsls	r2, r7, #30
	ldr	r0, [sp, #60]
	mov	r1, r0
	bmi	.LBB92_8
	ldr	r0, [sp, #48]
	adds	r2, r0, r4
	lsls	r2, r2, #3
	ldr	r1, [r3, r2]
	adds	r2, r3, r2
	ldr	r0, [r2, #4]
.LBB92_8:
	str	r0, [sp, #40]
	cmp	r4, #0
	beq	.LBB92_10
	ldr	r0, [sp, #56]
	lsls	r2, r0, #3
	ldr	r0, [r3, r2]
	str	r0, [sp, #32]
	lsls	r0, r0, #31
	bne	.LBB92_17
.LBB92_10:
	lsls	r0, r1, #31
	bne	.LBB92_14
	movs	r0, #1
	str	r0, [sp, #40]
	orrs	r7, r0
	ldr	r1, [sp, #44]
	str	r7, [r1]
	ldr	r0, [sp, #56]
	str	r0, [r1, #4]
	ldr	r0, [sp, #64]
	str	r0, [r1, #8]
	ldr	r0, [sp, #52]
	str	r0, [r1, #12]
	ldr	r0, [r6, #32]
	movs	r1, #0
	adds	r0, r0, #1
	str	r0, [r6, #32]
	ldr	r0, [r6, #36]
	str	r1, [sp, #44]
	adcs	r0, r1
	str	r0, [r6, #36]
	movs	r0, #16
	ldr	r7, [sp, #48]
	orrs	r0, r7
	bl	__clzsi2
	movs	r1, #27
	subs	r0, r1, r0
	lsrs	r7, r0
	lsls	r0, r0, #4
	adds	r0, r7, r0
	lsls	r1, r0, #2
	adds	r2, r6, r1
	movs	r3, #192
	ldr	r1, [r2, r3]
	str	r4, [r2, r3]
	cmp	r1, #0
	bmi	.LBB92_20
	ldr	r2, [r5]
	ldr	r0, [sp, #36]
	adds	r3, r2, r0
	movs	r0, #0
	mvns	r5, r0
	str	r1, [r3, #16]
	str	r5, [r3, #20]
	lsls	r1, r1, #3
	adds	r1, r2, r1
	str	r4, [r1, #20]
	b	.LBB92_22
.LBB92_13:
	movs	r0, #2
	b	.LBB92_22
.LBB92_14:
	mov	r2, r1
	movs	r1, #0
	str	r1, [sp, #44]
	ldr	r0, [sp, #64]
	adds	r0, r0, #1
	str	r0, [r6, #32]
	ldr	r3, [sp, #52]
	mov	r0, r3
	adcs	r0, r1
	str	r0, [r6, #36]
	str	r7, [sp]
	ldr	r0, [sp, #56]
	str	r0, [sp, #4]
	ldr	r0, [sp, #64]
	add	r1, sp, #8
	stm	r1!, {r0, r3, r4}
	mov	r0, r5
	ldr	r3, [sp, #40]
	bl	tlsf_heap.fitting.merge_next.4
	b	.LBB92_21
.LBB92_15:
	ldr	r0, [r6, #24]
	mov	r1, r0
	bl	tlsf_heap.refusal.Refusal.of_name
	uxtb	r0, r0
	cmp	r0, #3
	beq	.LBB92_19
	movs	r0, #3
	b	.LBB92_22
.LBB92_17:
	adds	r0, r3, r2
	ldr	r0, [r0, #4]
	str	r0, [sp, #60]
	movs	r0, #0
	str	r0, [sp, #44]
	ldr	r2, [sp, #64]
	adds	r2, r2, #1
	str	r2, [r6, #32]
	ldr	r3, [sp, #52]
	mov	r2, r3
	adcs	r2, r0
	str	r2, [r6, #36]
	str	r7, [sp, #24]
	ldr	r0, [sp, #56]
	str	r0, [sp, #28]
	ldr	r0, [sp, #32]
	str	r0, [sp]
	ldr	r0, [sp, #60]
	str	r0, [sp, #4]
	ldr	r0, [sp, #64]
	add	r2, sp, #8
	stm	r2!, {r0, r3, r4}
	mov	r0, r5
	mov	r2, r1
	ldr	r3, [sp, #40]
	bl	tlsf_heap.fitting.merge_before.4
	b	.LBB92_21
.LBB92_18:
	movs	r0, #0
	bl	tlsf_c.call_fault.CallFault.refusal
	add	sp, #68
	pop	{r4, r5, r6, r7, pc}
.LBB92_19:
	movs	r0, #4
	b	.LBB92_22
.LBB92_20:
	ldr	r1, [sp, #60]
	mvns	r1, r1
	ldr	r2, [r6, #48]
	ldr	r3, [sp, #36]
	adds	r2, r2, r3
	str	r1, [r2, #16]
	str	r1, [r2, #20]
	lsrs	r0, r0, #4
	ldr	r3, [sp, #40]
	mov	r1, r3
	lsls	r1, r0
	ldr	r2, [r6, #104]
	orrs	r2, r1
	str	r2, [r6, #104]
	movs	r1, #15
	ands	r7, r1
	lsls	r3, r7
	lsls	r0, r0, #2
	adds	r0, r6, r0
	ldr	r1, [r0, #108]
	orrs	r1, r3
	str	r1, [r0, #108]
.LBB92_21:
	ldr	r0, [sp, #44]
.LBB92_22:
	movs	r1, #1
	strb	r1, [r6]
	add	sp, #68
	pop	{r4, r5, r6, r7, pc}
.Lfunc_end92:
	.size	tlsf_release_place, .Lfunc_end92-tlsf_release_place
	.cfi_endproc
	.section	.text.tlsf_report,"ax",%progbits
	.globl	tlsf_report
	.p2align	1
	.type	tlsf_report,%function
	.code	16
	.thumb_func
tlsf_report:
	.cfi_startproc
	push	{r4, r5, r6, r7, lr}
	.cfi_def_cfa_offset 20
	.cfi_offset lr, -4
	.cfi_offset r7, -8
	.cfi_offset r6, -12
	.cfi_offset r5, -16
	.cfi_offset r4, -20
	sub	sp, #84
	.cfi_def_cfa_offset 104
	mov	r2, r0
	ldrb	r0, [r0, #8]
	movs	r5, #32
	cmp	r0, #0
	bne	.LBB93_1
	b	.LBB93_3
.LBB93_1:
	ldr	r2, [r2]
	ldrb	r0, [r2]
	cmp	r0, #1
	beq	.LBB93_2
	b	.LBB93_3
.LBB93_2:
	movs	r4, #0
	strb	r4, [r2]
	add	r5, sp, #32
	mov	r6, r2
	str	r2, [sp, #28]
	movs	r2, #48
	mov	r0, r5
	mov	r7, r1
	mov	r1, r4
	bl	tlsf_memory_set
	mov	r1, r6
	adds	r1, #24
	mov	r0, r5
	bl	tlsf_heap.heap.Heap.report.4
	mov	r5, r4
	ldr	r0, [sp, #32]
	str	r0, [sp, #24]
	ldr	r0, [sp, #36]
	str	r0, [sp, #20]
	ldr	r0, [sp, #40]
	str	r0, [sp, #16]
	ldr	r0, [sp, #44]
	str	r0, [sp, #12]
	ldr	r0, [sp, #48]
	str	r0, [sp, #8]
	ldr	r0, [sp, #52]
	str	r0, [sp, #4]
	ldr	r0, [sp, #56]
	str	r0, [sp]
	ldr	r1, [sp, #60]
	ldr	r0, [sp, #64]
	ldr	r4, [sp, #72]
	ldr	r3, [sp, #76]
	movs	r2, #44
	strb	r3, [r7, r2]
	movs	r2, #40
	strb	r4, [r7, r2]
	movs	r2, #36
	strb	r5, [r7, r2]
	movs	r2, #32
	strb	r0, [r7, r2]
	mov	r2, r7
	adds	r2, #44
	lsrs	r6, r3, #24
	strb	r6, [r2, #3]
	lsrs	r6, r3, #16
	strb	r6, [r2, #2]
	lsrs	r3, r3, #8
	strb	r3, [r2, #1]
	mov	r2, r7
	adds	r2, #40
	lsrs	r3, r4, #24
	strb	r3, [r2, #3]
	lsrs	r3, r4, #16
	strb	r3, [r2, #2]
	lsrs	r3, r4, #8
	strb	r3, [r2, #1]
	mov	r2, r7
	adds	r2, #36
	strb	r5, [r2, #3]
	strb	r5, [r2, #2]
	strb	r5, [r2, #1]
	mov	r2, r7
	adds	r2, #32
	lsrs	r3, r0, #24
	strb	r3, [r2, #3]
	lsrs	r3, r0, #16
	strb	r3, [r2, #2]
	lsrs	r0, r0, #8
	strb	r0, [r2, #1]
	lsrs	r0, r1, #24
	strb	r0, [r7, #31]
	lsrs	r0, r1, #16
	strb	r0, [r7, #30]
	lsrs	r0, r1, #8
	strb	r0, [r7, #29]
	strb	r1, [r7, #28]
	ldr	r1, [sp]
	lsrs	r0, r1, #24
	strb	r0, [r7, #27]
	lsrs	r0, r1, #16
	strb	r0, [r7, #26]
	lsrs	r0, r1, #8
	strb	r0, [r7, #25]
	strb	r1, [r7, #24]
	ldr	r1, [sp, #4]
	lsrs	r0, r1, #24
	strb	r0, [r7, #23]
	lsrs	r0, r1, #16
	strb	r0, [r7, #22]
	lsrs	r0, r1, #8
	strb	r0, [r7, #21]
	strb	r1, [r7, #20]
	ldr	r1, [sp, #8]
	lsrs	r0, r1, #24
	strb	r0, [r7, #19]
	lsrs	r0, r1, #16
	strb	r0, [r7, #18]
	lsrs	r0, r1, #8
	strb	r0, [r7, #17]
	strb	r1, [r7, #16]
	ldr	r1, [sp, #12]
	lsrs	r0, r1, #24
	strb	r0, [r7, #15]
	lsrs	r0, r1, #16
	strb	r0, [r7, #14]
	lsrs	r0, r1, #8
	strb	r0, [r7, #13]
	strb	r1, [r7, #12]
	ldr	r1, [sp, #16]
	lsrs	r0, r1, #24
	strb	r0, [r7, #11]
	lsrs	r0, r1, #16
	strb	r0, [r7, #10]
	lsrs	r0, r1, #8
	strb	r0, [r7, #9]
	strb	r1, [r7, #8]
	ldr	r1, [sp, #20]
	lsrs	r0, r1, #24
	strb	r0, [r7, #7]
	lsrs	r0, r1, #16
	strb	r0, [r7, #6]
	lsrs	r0, r1, #8
	strb	r0, [r7, #5]
	strb	r1, [r7, #4]
	ldr	r1, [sp, #24]
	lsrs	r0, r1, #24
	strb	r0, [r7, #3]
	lsrs	r0, r1, #16
	strb	r0, [r7, #2]
	lsrs	r0, r1, #8
	strb	r0, [r7, #1]
	strb	r1, [r7]
	movs	r0, #1
	ldr	r1, [sp, #28]
	strb	r0, [r1]
.LBB93_3:
	mov	r0, r5
	add	sp, #84
	pop	{r4, r5, r6, r7, pc}
.Lfunc_end93:
	.size	tlsf_report, .Lfunc_end93-tlsf_report
	.cfi_endproc
	.section	.text.tlsf_reset,"ax",%progbits
	.globl	tlsf_reset
	.p2align	2
	.type	tlsf_reset,%function
	.code	16
	.thumb_func
tlsf_reset:
	.cfi_startproc
	push	{r4, r5, r6, r7, lr}
	.cfi_def_cfa_offset 20
	.cfi_offset lr, -4
	.cfi_offset r7, -8
	.cfi_offset r6, -12
	.cfi_offset r5, -16
	.cfi_offset r4, -20
	sub	sp, #12
	.cfi_def_cfa_offset 32
	mov	r1, r0
	ldrb	r2, [r0, #8]
	movs	r0, #32
	cmp	r2, #0
	beq	.LBB94_11
	ldr	r6, [r1]
	ldrb	r1, [r6]
	cmp	r1, #1
	bne	.LBB94_11
	movs	r0, #0
	strb	r0, [r6]
	ldr	r2, [r6, #32]
	ldr	r3, [r6, #36]
	mov	r1, r2
	ands	r1, r3
	adds	r1, r1, #1
	beq	.LBB94_7
	str	r3, [sp]
	str	r2, [sp, #4]
	mov	r5, r0
	mvns	r0, r0
	str	r0, [sp, #8]
	ldr	r1, [r6, #80]
	ldr	r0, [r6, #84]
	orrs	r0, r1
	beq	.LBB94_5
	ldr	r0, [r6, #72]
	lsls	r2, r1, #3
	movs	r1, #0
	bl	tlsf_memory_set
.LBB94_5:
	mov	r4, r6
	adds	r4, #192
	movs	r1, #255
	ldr	r2, .LCPI94_0
	mov	r0, r4
	bl	tlsf_memory_set
	mov	r0, r6
	adds	r0, #104
	movs	r2, #88
	mov	r1, r5
	bl	tlsf_memory_set
	ldr	r7, [r6, #56]
	ldr	r0, [r6, #48]
	lsls	r1, r7, #2
	adds	r1, r1, #3
	str	r1, [r0]
	ldr	r1, [sp, #8]
	str	r1, [r0, #4]
	ldr	r1, [sp, #4]
	str	r1, [r0, #8]
	ldr	r1, [sp]
	str	r1, [r0, #12]
	ldr	r0, [r6, #72]
	ldr	r1, [r0]
	movs	r2, #1
	str	r2, [sp, #4]
	orrs	r1, r2
	str	r1, [r0]
	movs	r0, #16
	orrs	r0, r7
	bl	__clzsi2
	mov	r1, r0
	mov	r0, r5
	movs	r2, #27
	subs	r1, r2, r1
	lsrs	r7, r1
	lsls	r1, r1, #4
	adds	r1, r7, r1
	lsls	r3, r1, #2
	ldr	r2, [r4, r3]
	str	r5, [r4, r3]
	cmp	r2, #0
	bmi	.LBB94_8
	ldr	r1, [r6, #48]
	str	r2, [r1, #16]
	ldr	r3, [sp, #8]
	str	r3, [r1, #20]
	lsls	r2, r2, #3
	adds	r1, r1, r2
	movs	r2, #0
	str	r2, [r1, #20]
	b	.LBB94_9
.LBB94_7:
	movs	r0, #2
	b	.LBB94_10
.LBB94_8:
	ldr	r2, [r6, #48]
	ldr	r3, [sp, #8]
	str	r3, [r2, #16]
	str	r3, [r2, #20]
	lsrs	r1, r1, #4
	ldr	r4, [sp, #4]
	mov	r2, r4
	lsls	r2, r1
	ldr	r3, [r6, #104]
	orrs	r3, r2
	str	r3, [r6, #104]
	movs	r2, #15
	ands	r7, r2
	lsls	r4, r7
	lsls	r1, r1, #2
	adds	r1, r6, r1
	ldr	r2, [r1, #108]
	orrs	r2, r4
	str	r2, [r1, #108]
.LBB94_9:
	str	r0, [r6, #40]
	ldr	r1, [r6, #32]
	adds	r1, r1, #1
	str	r1, [r6, #32]
	ldr	r1, [r6, #36]
	adcs	r1, r0
	str	r1, [r6, #36]
.LBB94_10:
	movs	r1, #1
	strb	r1, [r6]
.LBB94_11:
	add	sp, #12
	pop	{r4, r5, r6, r7, pc}
	.p2align	2
.LCPI94_0:
	.long	1092
.Lfunc_end94:
	.size	tlsf_reset, .Lfunc_end94-tlsf_reset
	.cfi_endproc
	.section	.text.tlsf_resize,"ax",%progbits
	.globl	tlsf_resize
	.p2align	2
	.type	tlsf_resize,%function
	.code	16
	.thumb_func
tlsf_resize:
	.cfi_startproc
	push	{r4, r5, r6, r7, lr}
	.cfi_def_cfa_offset 20
	.cfi_offset lr, -4
	.cfi_offset r7, -8
	.cfi_offset r6, -12
	.cfi_offset r5, -16
	.cfi_offset r4, -20
	sub	sp, #92
	.cfi_def_cfa_offset 112
	ldrb	r1, [r0, #8]
	cmp	r1, #0
	bne	.LBB95_1
	b	.LBB95_31
.LBB95_1:
	ldr	r1, [r0]
	str	r1, [sp, #76]
	ldrb	r1, [r1]
	cmp	r1, #0
	bne	.LBB95_2
	b	.LBB95_31
.LBB95_2:
	mov	r6, r3
	str	r0, [sp, #52]
	ldr	r1, [sp, #120]
	movs	r0, #0
	ldr	r3, [sp, #76]
	strb	r0, [r3]
	adds	r3, r1, #1
	mov	r7, r0
	adcs	r7, r0
	cmp	r1, #0
	beq	.LBB95_4
	mov	r3, r1
.LBB95_4:
	str	r1, [sp, #56]
	beq	.LBB95_6
	mov	r7, r0
.LBB95_6:
	adds	r3, #31
	str	r3, [sp, #64]
	adcs	r7, r0
	ldr	r0, [sp, #76]
	ldr	r1, [r0, #24]
	cmp	r1, r2
	mov	r5, r2
	beq	.LBB95_7
	b	.LBB95_28
.LBB95_7:
	ldr	r0, [sp, #76]
	ldr	r0, [r0, #56]
	cmp	r6, r0
	mov	r1, r5
	blo	.LBB95_8
	b	.LBB95_28
.LBB95_8:
	movs	r2, #63
	ands	r2, r6
	ldr	r0, [sp, #76]
	ldr	r1, [r0, #72]
	lsrs	r0, r6, #6
	lsls	r3, r0, #3
	ldr	r0, [r1, r3]
	adds	r1, r1, r3
	ldr	r1, [r1, #4]
	bl	__aeabi_llsr
	lsls	r0, r0, #31
	mov	r1, r5
	bne	.LBB95_9
	b	.LBB95_28
.LBB95_9:
	ldr	r0, [sp, #76]
	adds	r0, #48
	lsls	r4, r6, #3
	str	r0, [sp, #48]
	ldr	r3, [r0]
	ldr	r0, [r3, r4]
	str	r0, [sp, #68]
	lsls	r1, r0, #31
	mov	r1, r5
	beq	.LBB95_10
	b	.LBB95_28
.LBB95_10:
	ldr	r1, [sp, #116]
	ldr	r0, [sp, #112]
	str	r0, [sp, #60]
	adds	r2, r3, r4
	str	r6, [sp, #72]
	ldr	r6, [r2, #8]
	ldr	r0, [r2, #12]
	eors	r0, r1
	ldr	r1, [sp, #60]
	eors	r6, r1
	orrs	r6, r0
	ldr	r6, [sp, #72]
	mov	r1, r5
	bne	.LBB95_28
	str	r4, [sp, #60]
	ldr	r0, [sp, #64]
	lsrs	r0, r0, #3
	lsls	r1, r7, #29
	adds	r1, r0, r1
	ldr	r5, [r2, #4]
	ldr	r0, [sp, #68]
	lsrs	r4, r0, #2
	cmp	r1, r4
	bls	.LBB95_15
	lsls	r0, r0, #30
	bmi	.LBB95_14
	adds	r0, r4, r6
	lsls	r2, r0, #3
	ldr	r7, [r3, r2]
	lsls	r0, r7, #31
	beq	.LBB95_14
	b	.LBB95_32
.LBB95_14:
	movs	r7, #0
	mov	r0, r7
	b	.LBB95_33
.LBB95_15:
	str	r5, [sp, #44]
	ldr	r0, [sp, #76]
	ldr	r3, [r0, #32]
	ldr	r5, [r0, #36]
	mov	r0, r3
	ands	r0, r5
	adds	r0, r0, #1
	bne	.LBB95_16
	b	.LBB95_51
.LBB95_16:
	str	r5, [sp, #40]
	str	r1, [sp, #64]
	movs	r7, #0
	str	r7, [r2, #20]
	ldr	r5, [r2, #16]
	ldr	r1, [sp, #56]
	str	r1, [r2, #16]
	cmp	r1, r5
	bls	.LBB95_25
	movs	r0, #7
	mov	r6, r5
	ands	r6, r0
	beq	.LBB95_19
	ldr	r1, [sp, #60]
	str	r7, [sp, #36]
	adds	r7, r1, r5
	adds	r7, #24
	bics	r7, r0
	ldr	r0, [sp, #48]
	ldr	r1, [r0]
	str	r1, [sp, #28]
	ldr	r0, [r1, r7]
	str	r0, [sp, #80]
	adds	r0, r1, r7
	str	r0, [sp, #32]
	ldr	r0, [r0, #4]
	str	r0, [sp, #84]
	add	r0, sp, #80
	adds	r0, r0, r6
	ldr	r1, .LCPI95_0
	adds	r1, r1, r6
	movs	r2, #8
	subs	r2, r2, r6
	str	r3, [sp, #60]
	bl	tlsf_memory_cpy
	ldr	r3, [sp, #60]
	ldr	r1, [sp, #56]
	ldr	r0, [sp, #80]
	ldr	r2, [sp, #28]
	str	r0, [r2, r7]
	ldr	r7, [sp, #36]
	ldr	r0, [sp, #84]
	ldr	r2, [sp, #32]
	str	r0, [r2, #4]
.LBB95_19:
	lsrs	r0, r1, #3
	lsls	r1, r1, #29
	beq	.LBB95_21
	adds	r0, r0, #1
.LBB95_21:
	lsrs	r1, r5, #3
	cmp	r6, #0
	beq	.LBB95_23
	adds	r1, r1, #1
.LBB95_23:
	cmp	r0, r1
	beq	.LBB95_25
	subs	r0, r0, r1
	lsls	r2, r0, #3
	ldr	r0, [sp, #72]
	adds	r0, r0, r1
	lsls	r0, r0, #3
	ldr	r1, [sp, #48]
	ldr	r1, [r1]
	adds	r0, r0, r1
	adds	r0, #24
	movs	r1, #0
	mov	r5, r3
	bl	tlsf_memory_set
	mov	r3, r5
.LBB95_25:
	ldr	r5, [sp, #64]
	adds	r0, r5, #4
	cmp	r4, r0
	mov	r0, r4
	blo	.LBB95_27
	str	r5, [sp]
	str	r3, [sp, #8]
	ldr	r0, [sp, #40]
	str	r0, [sp, #12]
	ldr	r0, [sp, #48]
	ldr	r1, [sp, #72]
	ldr	r2, [sp, #68]
	ldr	r3, [sp, #44]
	bl	tlsf_heap.refitting.split_off.4
	mov	r0, r5
.LBB95_27:
	subs	r0, r0, r4
	ldr	r2, [sp, #76]
	ldr	r1, [r2, #40]
	adds	r0, r0, r1
	ldr	r1, [r2, #32]
	adds	r1, r1, #1
	str	r1, [r2, #32]
	str	r0, [r2, #40]
	ldr	r0, [r2, #36]
	adcs	r0, r7
	str	r0, [r2, #36]
	ldr	r3, [sp, #52]
	b	.LBB95_48
.LBB95_28:
	mov	r0, r5
	bl	tlsf_heap.refusal.Refusal.of_name
	movs	r1, #1
	ldr	r2, [sp, #76]
	strb	r1, [r2]
	uxtb	r0, r0
	cmp	r0, #3
	beq	.LBB95_30
	movs	r0, #3
	add	sp, #92
	pop	{r4, r5, r6, r7, pc}
.LBB95_30:
	movs	r0, #4
	add	sp, #92
	pop	{r4, r5, r6, r7, pc}
.LBB95_31:
	movs	r0, #0
	bl	tlsf_c.call_fault.CallFault.refusal
	add	sp, #92
	pop	{r4, r5, r6, r7, pc}
.LBB95_32:
	adds	r0, r3, r2
	ldr	r0, [r0, #4]
.LBB95_33:
	lsrs	r2, r7, #2
	adds	r2, r2, r4
	cmp	r2, r1
	bhs	.LBB95_35
	movs	r0, #1
	ldr	r1, [sp, #76]
	strb	r0, [r1]
	movs	r0, #10
	add	sp, #92
	pop	{r4, r5, r6, r7, pc}
.LBB95_35:
	str	r5, [sp, #44]
	ldr	r3, [sp, #76]
	ldr	r2, [r3, #32]
	ldr	r3, [r3, #36]
	str	r1, [sp, #64]
	mov	r5, r2
	ands	r5, r3
	adds	r5, r5, #1
	ldr	r5, [sp, #64]
	ldr	r1, [sp, #72]
	beq	.LBB95_51
	str	r2, [sp, #16]
	str	r3, [sp, #20]
	str	r7, [sp]
	str	r0, [sp, #4]
	str	r5, [sp, #8]
	ldr	r5, [sp, #48]
	mov	r0, r5
	ldr	r2, [sp, #68]
	ldr	r3, [sp, #44]
	bl	tlsf_heap.refitting.recut.4
	mov	r6, r0
	ldr	r0, [r5]
	ldr	r2, [sp, #60]
	adds	r0, r0, r2
	movs	r7, #0
	str	r7, [r0, #20]
	ldr	r5, [r0, #16]
	ldr	r1, [sp, #56]
	str	r1, [r0, #16]
	cmp	r1, r5
	bls	.LBB95_45
	movs	r0, #7
	mov	r3, r5
	ands	r3, r0
	beq	.LBB95_39
	str	r7, [sp, #68]
	adds	r7, r2, r5
	adds	r7, #24
	bics	r7, r0
	ldr	r0, [sp, #48]
	ldr	r1, [r0]
	str	r1, [sp, #40]
	ldr	r0, [r1, r7]
	str	r0, [sp, #80]
	adds	r0, r1, r7
	str	r0, [sp, #44]
	ldr	r0, [r0, #4]
	str	r0, [sp, #84]
	add	r0, sp, #80
	adds	r0, r0, r3
	ldr	r1, .LCPI95_0
	adds	r1, r1, r3
	movs	r2, #8
	subs	r2, r2, r3
	str	r6, [sp, #60]
	mov	r6, r3
	bl	tlsf_memory_cpy
	mov	r3, r6
	ldr	r6, [sp, #60]
	ldr	r1, [sp, #56]
	ldr	r0, [sp, #80]
	ldr	r2, [sp, #40]
	str	r0, [r2, r7]
	ldr	r7, [sp, #68]
	ldr	r0, [sp, #84]
	ldr	r2, [sp, #44]
	str	r0, [r2, #4]
.LBB95_39:
	lsrs	r0, r1, #3
	lsls	r1, r1, #29
	beq	.LBB95_41
	adds	r0, r0, #1
.LBB95_41:
	lsrs	r1, r5, #3
	cmp	r3, #0
	beq	.LBB95_43
	adds	r1, r1, #1
.LBB95_43:
	cmp	r0, r1
	beq	.LBB95_45
	subs	r0, r0, r1
	lsls	r2, r0, #3
	ldr	r0, [sp, #72]
	adds	r0, r0, r1
	lsls	r0, r0, #3
	ldr	r1, [sp, #48]
	ldr	r1, [r1]
	adds	r0, r0, r1
	adds	r0, #24
	movs	r1, #0
	bl	tlsf_memory_set
.LBB95_45:
	subs	r0, r6, r4
	ldr	r2, [sp, #76]
	ldr	r1, [r2, #40]
	adds	r0, r1, r0
	str	r0, [r2, #40]
	ldr	r1, [r2, #44]
	cmp	r1, r0
	bhs	.LBB95_47
	ldr	r1, [sp, #76]
	str	r0, [r1, #44]
.LBB95_47:
	ldr	r1, [sp, #76]
	ldr	r0, [r1, #32]
	adds	r0, r0, #1
	str	r0, [r1, #32]
	ldr	r0, [r1, #36]
	adcs	r0, r7
	str	r0, [r1, #36]
	ldr	r3, [sp, #52]
	ldr	r5, [sp, #64]
.LBB95_48:
	movs	r1, #1
	ldr	r0, [sp, #76]
	strb	r1, [r0]
	movs	r0, #0
	lsls	r2, r5, #31
	beq	.LBB95_50
	ldrb	r2, [r3, #28]
	cmp	r2, #0
	beq	.LBB95_52
.LBB95_50:
	add	sp, #92
	pop	{r4, r5, r6, r7, pc}
.LBB95_51:
	movs	r0, #1
	ldr	r1, [sp, #76]
	strb	r0, [r1]
	movs	r0, #2
	add	sp, #92
	pop	{r4, r5, r6, r7, pc}
.LBB95_52:
	strb	r1, [r3, #28]
	add	sp, #92
	pop	{r4, r5, r6, r7, pc}
	.p2align	2
.LCPI95_0:
	.long	.Lstatic.0
.Lfunc_end95:
	.size	tlsf_resize, .Lfunc_end95-tlsf_resize
	.cfi_endproc
	.section	.text.tlsf_resize_place,"ax",%progbits
	.globl	tlsf_resize_place
	.p2align	2
	.type	tlsf_resize_place,%function
	.code	16
	.thumb_func
tlsf_resize_place:
	.cfi_startproc
	push	{r4, r5, r6, r7, lr}
	.cfi_def_cfa_offset 20
	.cfi_offset lr, -4
	.cfi_offset r7, -8
	.cfi_offset r6, -12
	.cfi_offset r5, -16
	.cfi_offset r4, -20
	sub	sp, #156
	.cfi_def_cfa_offset 176
	mov	r5, r1
	ldrb	r1, [r0, #8]
	cmp	r1, #0
	beq	.LBB96_17
	ldr	r6, [r0]
	ldrb	r0, [r6]
	cmp	r0, #0
	beq	.LBB96_17
	str	r2, [sp, #116]
	str	r3, [sp, #112]
	movs	r4, #0
	strb	r4, [r6]
	ldr	r0, [r6, #56]
	cmp	r5, r0
	bhs	.LBB96_15
	movs	r0, #63
	mov	r2, r5
	str	r0, [sp, #108]
	ands	r2, r0
	ldr	r1, [r6, #72]
	lsrs	r0, r5, #6
	lsls	r3, r0, #3
	ldr	r0, [r1, r3]
	adds	r1, r1, r3
	ldr	r1, [r1, #4]
	bl	__aeabi_llsr
	lsls	r0, r0, #31
	beq	.LBB96_15
	mov	r3, r6
	adds	r3, #48
	lsls	r1, r5, #3
	ldr	r7, [r3]
	ldr	r2, [r7, r1]
	lsls	r0, r2, #31
	bne	.LBB96_15
	str	r3, [sp, #104]
	mov	r0, r6
	adds	r0, #24
	str	r0, [sp, #96]
	str	r1, [sp, #92]
	str	r7, [sp, #84]
	adds	r0, r7, r1
	ldr	r7, [sp, #116]
	adds	r1, r7, #1
	mov	r3, r4
	adcs	r3, r4
	cmp	r7, #0
	beq	.LBB96_7
	mov	r1, r7
.LBB96_7:
	beq	.LBB96_9
	mov	r3, r4
.LBB96_9:
	adds	r1, #31
	adcs	r3, r4
	lsrs	r1, r1, #3
	lsls	r3, r3, #29
	adds	r3, r1, r3
	ldr	r1, [r0, #16]
	cmp	r7, r1
	mov	r4, r7
	blo	.LBB96_11
	mov	r4, r1
.LBB96_11:
	str	r4, [sp, #88]
	ldr	r1, [r0, #4]
	str	r1, [sp, #80]
	lsrs	r4, r2, #2
	cmp	r3, r4
	str	r3, [sp, #100]
	bls	.LBB96_18
	ldr	r1, [r0, #8]
	str	r1, [sp, #72]
	ldr	r0, [r0, #12]
	str	r0, [sp, #76]
	ldr	r0, [sp, #96]
	ldr	r0, [r0]
	str	r0, [sp, #68]
	lsls	r0, r2, #30
	bmi	.LBB96_14
	adds	r0, r4, r5
	lsls	r0, r0, #3
	ldr	r1, [sp, #84]
	ldr	r1, [r1, r0]
	lsls	r3, r1, #31
	ldr	r3, [sp, #100]
	bne	.LBB96_22
.LBB96_14:
	movs	r1, #0
	str	r1, [sp, #64]
	b	.LBB96_23
.LBB96_15:
	movs	r0, #1
	strb	r0, [r6]
	movs	r4, #4
.LBB96_16:
	mov	r0, r4
	add	sp, #156
	pop	{r4, r5, r6, r7, pc}
.LBB96_17:
	movs	r0, #0
	bl	tlsf_c.call_fault.CallFault.refusal
	mov	r4, r0
	b	.LBB96_16
.LBB96_18:
	ldr	r1, [r6, #32]
	ldr	r3, [r6, #36]
	str	r1, [sp, #96]
	str	r3, [sp, #108]
	ands	r1, r3
	adds	r1, r1, #1
	bne	.LBB96_19
	b	.LBB96_37
.LBB96_19:
	movs	r7, #0
	ldr	r1, [sp, #88]
	str	r1, [r0, #16]
	str	r7, [sp, #88]
	str	r7, [r0, #20]
	ldr	r7, [sp, #100]
	adds	r0, r7, #4
	cmp	r4, r0
	mov	r0, r4
	blo	.LBB96_21
	str	r7, [sp]
	ldr	r0, [sp, #96]
	str	r0, [sp, #8]
	ldr	r0, [sp, #108]
	str	r0, [sp, #12]
	ldr	r0, [sp, #104]
	mov	r1, r5
	ldr	r3, [sp, #80]
	bl	tlsf_heap.refitting.split_off.4
	mov	r0, r7
.LBB96_21:
	subs	r0, r0, r4
	ldr	r1, [r6, #40]
	adds	r0, r0, r1
	ldr	r1, [r6, #32]
	adds	r1, r1, #1
	str	r1, [r6, #32]
	str	r0, [r6, #40]
	ldr	r0, [r6, #36]
	ldr	r1, [sp, #88]
	adcs	r0, r1
	str	r0, [r6, #36]
	ldr	r2, [sp, #112]
	ldr	r3, [sp, #92]
	ldr	r7, [sp, #116]
	b	.LBB96_35
.LBB96_22:
	ldr	r7, [sp, #84]
	adds	r0, r7, r0
	ldr	r7, [sp, #116]
	ldr	r0, [r0, #4]
	str	r0, [sp, #64]
.LBB96_23:
	lsrs	r0, r1, #2
	adds	r0, r0, r4
	cmp	r0, r3
	bhs	.LBB96_31
	ldr	r0, [sp, #72]
	str	r0, [sp, #128]
	str	r5, [sp, #124]
	ldr	r0, [sp, #68]
	str	r0, [sp, #120]
	ldr	r0, [sp, #76]
	str	r0, [sp, #132]
	movs	r2, #0
	mvns	r5, r2
	subs	r0, r5, #2
	mov	r1, r5
	str	r2, [sp, #88]
	sbcs	r1, r2
	ldr	r2, [r6, #32]
	ldr	r4, [r6, #36]
	subs	r0, r0, r2
	sbcs	r1, r4
	blo	.LBB96_37
	str	r5, [sp, #80]
	str	r4, [sp, #76]
	movs	r4, #1
	lsls	r0, r4, #20
	cmp	r3, r0
	bls	.LBB96_38
.LBB96_26:
	strb	r4, [r6]
	ldr	r0, [r6, #12]
	cmp	r7, r0
	bhi	.LBB96_28
	mov	r7, r0
.LBB96_28:
	str	r7, [r6, #12]
	ldr	r0, [r6, #8]
	adds	r0, r0, #1
	ldr	r1, [sp, #80]
	blo	.LBB96_30
	mov	r0, r1
.LBB96_30:
	str	r0, [r6, #8]
	b	.LBB96_16
.LBB96_31:
	ldr	r0, [r6, #32]
	ldr	r3, [r6, #36]
	str	r0, [sp, #96]
	str	r3, [sp, #108]
	ands	r0, r3
	adds	r0, r0, #1
	beq	.LBB96_37
	ldr	r0, [sp, #96]
	str	r0, [sp, #16]
	ldr	r0, [sp, #108]
	str	r0, [sp, #20]
	str	r1, [sp]
	ldr	r0, [sp, #64]
	str	r0, [sp, #4]
	ldr	r0, [sp, #100]
	str	r0, [sp, #8]
	ldr	r0, [sp, #104]
	mov	r1, r5
	ldr	r3, [sp, #80]
	bl	tlsf_heap.refitting.recut.4
	str	r0, [sp, #108]
	ldr	r1, [r6, #48]
	ldr	r3, [sp, #92]
	adds	r2, r1, r3
	movs	r0, #0
	ldr	r1, [sp, #88]
	str	r1, [r2, #16]
	mov	r1, r0
	str	r0, [r2, #20]
	ldr	r0, [sp, #108]
	subs	r0, r0, r4
	ldr	r2, [r6, #40]
	adds	r0, r2, r0
	str	r0, [r6, #40]
	ldr	r2, [r6, #44]
	cmp	r2, r0
	bhs	.LBB96_34
	str	r0, [r6, #44]
.LBB96_34:
	ldr	r0, [r6, #32]
	adds	r0, r0, #1
	str	r0, [r6, #32]
	ldr	r0, [r6, #36]
	adcs	r0, r1
	str	r0, [r6, #36]
	ldr	r2, [sp, #112]
.LBB96_35:
	ldr	r0, [sp, #104]
	ldr	r0, [r0]
	adds	r0, r0, r3
	movs	r1, #0
	str	r7, [r0, #16]
	str	r1, [r0, #20]
.LBB96_36:
	movs	r0, #1
	strb	r0, [r6]
	str	r5, [r2]
	movs	r4, #0
	b	.LBB96_16
.LBB96_37:
	movs	r0, #1
	strb	r0, [r6]
	movs	r4, #2
	b	.LBB96_16
.LBB96_38:
	str	r2, [sp, #72]
	movs	r1, #16
	mov	r0, r3
	str	r1, [sp, #52]
	orrs	r0, r1
	mov	r5, r3
	bl	__clzsi2
	movs	r1, #27
	str	r1, [sp, #48]
	subs	r0, r1, r0
	subs	r2, r5, #1
	lsrs	r2, r0
	lsls	r0, r0, #4
	adds	r0, r2, r0
	adds	r0, r0, #1
	subs	r1, r0, #1
	ldr	r0, [sp, #88]
	sbcs	r0, r0
	str	r1, [sp, #68]
	lsrs	r3, r1, #4
	lsls	r5, r0, #28
	adds	r3, r3, r5
	lsls	r5, r3, #2
	mov	r1, r6
	adds	r1, #108
	str	r1, [sp, #60]
	ldr	r5, [r1, r5]
	movs	r1, #15
	str	r1, [sp, #56]
	ands	r2, r1
	lsrs	r5, r2
	bics	r5, r4
	beq	.LBB96_41
	cmp	r5, #0
	beq	.LBB96_47
	rsbs	r2, r5, #0
	ands	r2, r5
	ldr	r3, .LCPI96_1
	muls	r3, r2, r3
	lsrs	r2, r3, #27
	adr	r3, .LCPI96_2
	ldrb	r2, [r3, r2]
	b	.LBB96_48
.LBB96_41:
	mvns	r0, r4
	lsls	r0, r3
	ldr	r5, [r6, #104]
	ands	r5, r0
	beq	.LBB96_26
	ldr	r2, .LCPI96_1
	adr	r1, .LCPI96_2
	movs	r3, #32
	cmp	r5, #0
	mov	r0, r3
	beq	.LBB96_44
	rsbs	r0, r5, #0
	ands	r0, r5
	muls	r0, r2, r0
	lsrs	r0, r0, #27
	ldrb	r0, [r1, r0]
.LBB96_44:
	lsls	r5, r0, #2
	ldr	r7, [sp, #60]
	ldr	r5, [r7, r5]
	cmp	r5, #0
	beq	.LBB96_50
	cmp	r5, #0
	beq	.LBB96_49
	rsbs	r3, r5, #0
	ands	r3, r5
	muls	r2, r3, r2
	lsrs	r2, r2, #27
	ldrb	r3, [r1, r2]
	b	.LBB96_50
.LBB96_47:
	movs	r2, #32
.LBB96_48:
	ldr	r1, [sp, #68]
	adds	r1, r1, r2
	ldr	r2, [sp, #88]
	adcs	r0, r2
	lsrs	r2, r1, #4
	lsls	r0, r0, #28
	adds	r0, r2, r0
	b	.LBB96_51
.LBB96_49:
	movs	r3, #32
.LBB96_50:
	lsls	r0, r0, #4
	adds	r1, r3, r0
	lsrs	r0, r1, #4
.LBB96_51:
	str	r0, [sp, #40]
	lsls	r0, r1, #2
	mov	r2, r6
	adds	r2, #192
	str	r0, [sp, #64]
	ldr	r5, [r2, r0]
	lsls	r0, r5, #3
	ldr	r7, [sp, #84]
	str	r0, [sp, #68]
	adds	r3, r7, r0
	ldr	r3, [r3, #16]
	adds	r0, r3, #1
	str	r2, [sp, #44]
	beq	.LBB96_53
	lsls	r0, r3, #3
	adds	r0, r7, r0
	ldr	r1, [sp, #80]
	str	r1, [r0, #20]
	ldr	r0, [sp, #64]
	str	r3, [r2, r0]
	ldr	r0, [sp, #104]
	ldr	r2, [r0]
	ldr	r3, [sp, #100]
	b	.LBB96_56
.LBB96_53:
	mvns	r0, r4
	adds	r0, r0, #1
	ldr	r3, [sp, #64]
	str	r0, [r2, r3]
	ldr	r0, [sp, #56]
	ands	r1, r0
	mov	r0, r4
	lsls	r0, r1
	ldr	r7, [sp, #40]
	lsls	r1, r7, #2
	ldr	r3, [sp, #60]
	ldr	r2, [r3, r1]
	bics	r2, r0
	str	r2, [r3, r1]
	bne	.LBB96_55
	lsls	r4, r7
	ldr	r0, [r6, #104]
	bics	r0, r4
	str	r0, [r6, #104]
.LBB96_55:
	ldr	r3, [sp, #100]
	ldr	r2, [sp, #84]
.LBB96_56:
	ldr	r7, [sp, #116]
	ldr	r0, [sp, #68]
	adds	r4, r2, r0
	ldr	r1, [r4, #4]
	str	r1, [sp, #84]
	ldr	r0, [r2, r0]
	lsls	r1, r3, #2
	subs	r1, r0, r1
	cmp	r1, #15
	bhi	.LBB96_58
	ldr	r1, [sp, #88]
	str	r1, [r4, #20]
	str	r7, [r4, #16]
	ldr	r3, [sp, #72]
	str	r3, [r4, #8]
	ldr	r3, [sp, #76]
	str	r3, [r4, #12]
	subs	r0, r0, #1
	str	r0, [r4]
	ldr	r2, [sp, #84]
	sbcs	r2, r1
	str	r2, [r4, #4]
	lsrs	r1, r0, #2
	ldr	r2, [sp, #92]
	b	.LBB96_64
.LBB96_58:
	str	r1, [sp, #36]
	lsrs	r7, r1, #2
	str	r7, [sp, #40]
	ldr	r7, [sp, #116]
	str	r7, [r4, #16]
	ldr	r7, [sp, #72]
	str	r7, [r4, #8]
	adds	r3, r5, r3
	str	r3, [sp, #116]
	lsls	r3, r3, #3
	adds	r7, r2, r3
	str	r7, [sp, #32]
	subs	r0, r0, r1
	str	r0, [r4]
	str	r3, [sp, #64]
	str	r1, [r2, r3]
	ldr	r0, [sp, #72]
	str	r0, [r7, #8]
	ldr	r1, [sp, #88]
	ldr	r0, [sp, #84]
	sbcs	r0, r1
	str	r0, [sp, #84]
	ldr	r0, [sp, #116]
	lsrs	r7, r0, #3
	ldr	r2, .LCPI96_0
	ands	r7, r2
	ldr	r2, [r6, #72]
	str	r2, [sp, #24]
	ldr	r3, [r2, r7]
	str	r3, [sp, #28]
	ldr	r2, [sp, #108]
	ands	r2, r0
	movs	r0, #1
	str	r0, [sp, #108]
	bl	__aeabi_llsl
	ldr	r2, [sp, #28]
	orrs	r0, r2
	ldr	r3, [sp, #24]
	str	r0, [r3, r7]
	ldr	r0, [sp, #88]
	str	r0, [r4, #20]
	ldr	r0, [sp, #76]
	str	r0, [r4, #12]
	ldr	r2, [sp, #84]
	str	r2, [r4, #4]
	ldr	r4, [sp, #40]
	ldr	r2, [sp, #32]
	str	r0, [r2, #12]
	str	r5, [r2, #4]
	adds	r0, r3, r7
	ldr	r7, [sp, #116]
	ldr	r2, [r0, #4]
	orrs	r2, r1
	str	r2, [r0, #4]
	ldr	r0, [sp, #36]
	lsls	r0, r0, #30
	bmi	.LBB96_60
	adds	r0, r4, r7
	lsls	r0, r0, #3
	ldr	r1, [sp, #104]
	ldr	r1, [r1]
	ldr	r2, [r1, r0]
	ldr	r3, [sp, #80]
	ands	r2, r3
	str	r2, [r1, r0]
	adds	r0, r1, r0
	str	r7, [r0, #4]
.LBB96_60:
	ldr	r0, [sp, #52]
	orrs	r0, r4
	bl	__clzsi2
	ldr	r1, [sp, #48]
	subs	r0, r1, r0
	lsrs	r4, r0
	lsls	r0, r0, #4
	adds	r0, r4, r0
	lsls	r2, r0, #2
	ldr	r3, [sp, #44]
	ldr	r1, [r3, r2]
	str	r7, [r3, r2]
	cmp	r1, #0
	bmi	.LBB96_62
	ldr	r0, [sp, #104]
	ldr	r0, [r0]
	ldr	r2, [sp, #64]
	adds	r2, r0, r2
	str	r1, [r2, #16]
	ldr	r3, [sp, #80]
	str	r3, [r2, #20]
	lsls	r1, r1, #3
	adds	r0, r0, r1
	str	r7, [r0, #20]
	ldr	r1, [r0, #16]
	ands	r1, r3
	str	r1, [r0, #16]
	b	.LBB96_63
.LBB96_62:
	ldr	r1, [r6, #48]
	ldr	r2, [sp, #64]
	adds	r1, r1, r2
	ldr	r2, [sp, #80]
	str	r2, [r1, #16]
	str	r2, [r1, #20]
	ldr	r1, [sp, #56]
	ands	r4, r1
	ldr	r7, [sp, #108]
	mov	r1, r7
	lsls	r1, r4
	lsrs	r0, r0, #4
	lsls	r2, r0, #2
	ldr	r4, [sp, #60]
	ldr	r3, [r4, r2]
	orrs	r3, r1
	str	r3, [r4, r2]
	lsls	r7, r0
	ldr	r0, [r6, #104]
	orrs	r0, r7
	str	r0, [r6, #104]
.LBB96_63:
	ldr	r2, [sp, #92]
	ldr	r1, [sp, #100]
.LBB96_64:
	ldr	r0, [r6, #40]
	adds	r0, r0, r1
	str	r0, [r6, #40]
	ldr	r1, [r6, #44]
	cmp	r1, r0
	bhs	.LBB96_66
	str	r0, [r6, #44]
.LBB96_66:
	ldr	r0, [r6, #32]
	adds	r0, r0, #1
	str	r0, [r6, #32]
	ldr	r0, [r6, #36]
	ldr	r1, [sp, #88]
	adcs	r0, r1
	str	r0, [r6, #36]
	ldr	r0, [r6, #24]
	ldr	r1, [sp, #76]
	str	r1, [sp, #148]
	ldr	r1, [sp, #72]
	str	r1, [sp, #144]
	str	r5, [sp, #140]
	str	r0, [sp, #136]
	ldr	r1, [r6, #48]
	adds	r0, r1, r2
	ldr	r0, [r0, #16]
	ldr	r2, [sp, #68]
	adds	r1, r1, r2
	ldr	r3, [r1, #16]
	cmp	r3, r0
	blo	.LBB96_68
	mov	r3, r0
.LBB96_68:
	add	r4, sp, #120
	add	r2, sp, #136
	ldr	r7, [sp, #96]
	mov	r0, r7
	mov	r1, r4
	bl	tlsf_heap.heap.Heap.copy.4
	mov	r0, r7
	mov	r1, r4
	bl	tlsf_heap.heap.Heap.release_live.4
	ldr	r2, [sp, #112]
	b	.LBB96_36
	.p2align	2
.LCPI96_0:
	.long	536870904
.LCPI96_1:
	.long	125613361
.LCPI96_2:
	.ascii	"\000\001\034\002\035\016\030\003\036\026\024\017\031\021\004\b\037\033\r\027\025\023\020\007\032\f\022\006\013\005\n\t"
.Lfunc_end96:
	.size	tlsf_resize_place, .Lfunc_end96-tlsf_resize_place
	.cfi_endproc
	.section	.text.tlsf_take,"ax",%progbits
	.globl	tlsf_take
	.p2align	1
	.type	tlsf_take,%function
	.code	16
	.thumb_func
tlsf_take:
	.cfi_startproc
	push	{r4, lr}
	.cfi_def_cfa_offset 8
	.cfi_offset lr, -4
	.cfi_offset r4, -8
	ldrb	r2, [r0, #8]
	cmp	r2, #0
	beq	.LBB97_4
	ldr	r4, [r0]
	ldrb	r0, [r4, #1]
	cmp	r0, #0
	beq	.LBB97_4
	ldrb	r0, [r4]
	cmp	r0, #1
	bne	.LBB97_5
	movs	r0, #0
	strb	r0, [r4, #1]
	mov	r0, r4
	adds	r0, #8
	bl	tlsf_c.lane_calls.take_name
	movs	r1, #1
	strb	r1, [r4, #1]
	pop	{r4, pc}
.LBB97_4:
	movs	r0, #0
	bl	tlsf_c.call_fault.CallFault.refusal
	pop	{r4, pc}
.LBB97_5:
	movs	r0, #2
	bl	tlsf_c.call_fault.CallFault.refusal
	pop	{r4, pc}
.Lfunc_end97:
	.size	tlsf_take, .Lfunc_end97-tlsf_take
	.cfi_endproc
	.section	.text.tlsf_take_all,"ax",%progbits
	.globl	tlsf_take_all
	.p2align	1
	.type	tlsf_take_all,%function
	.code	16
	.thumb_func
tlsf_take_all:
	.cfi_startproc
	push	{r4, r5, r6, r7, lr}
	.cfi_def_cfa_offset 20
	.cfi_offset lr, -4
	.cfi_offset r7, -8
	.cfi_offset r6, -12
	.cfi_offset r5, -16
	.cfi_offset r4, -20
	sub	sp, #508
	sub	sp, #336
	.cfi_def_cfa_offset 864
	movs	r6, #1
	cmp	r1, #0
	beq	.LBB98_2
	str	r1, [sp, #64]
	b	.LBB98_3
.LBB98_2:
	mov	r4, r1
	lsls	r1, r6, #12
	adds	r4, r4, r1
	str	r4, [sp, #64]
.LBB98_3:
	ldr	r7, [r3]
	ldrb	r1, [r0, #8]
	cmp	r1, #0
	bne	.LBB98_4
	b	.LBB98_46
.LBB98_4:
	ldr	r5, [r0]
	ldrb	r0, [r5, #1]
	cmp	r0, #0
	bne	.LBB98_5
	b	.LBB98_46
.LBB98_5:
	ldrb	r0, [r5]
	cmp	r0, #1
	beq	.LBB98_6
	b	.LBB98_49
.LBB98_6:
	str	r7, [sp, #52]
	str	r3, [sp, #12]
	movs	r0, #0
	str	r0, [sp, #68]
	strb	r0, [r5, #1]
	cmp	r2, #32
	str	r2, [sp, #56]
	mov	r4, r2
	blo	.LBB98_8
	movs	r4, #32
.LBB98_8:
	mov	r3, r5
	adds	r3, #32
	ldm	r3, {r1, r2, r3}
	ldr	r0, [r5, #44]
	mov	r7, r5
	subs	r5, r3, r1
	mov	r5, r0
	sbcs	r5, r2
	str	r7, [sp, #16]
	bhs	.LBB98_10
	subs	r1, r3, r1
	mov	r3, r0
	sbcs	r3, r2
	ldr	r2, [r7, #24]
	ldr	r0, [r7, #28]
	lsrs	r5, r2, #31
	lsls	r0, r0, #1
	adds	r0, r0, r5
	lsls	r2, r2, #1
	adds	r1, r1, r2
	adcs	r0, r3
	b	.LBB98_11
.LBB98_10:
	subs	r1, r3, r1
	sbcs	r0, r2
.LBB98_11:
	mov	r7, r4
	subs	r1, r1, r4
	ldr	r3, [sp, #68]
	sbcs	r0, r3
	ldr	r5, [sp, #16]
	bhs	.LBB98_20
	ldr	r0, [r5, #8]
	adds	r0, #128
	movs	r1, #5
	bl	__atomic_load_8
	str	r0, [r5, #40]
	str	r1, [r5, #44]
	ldr	r2, [r5, #32]
	ldr	r4, [r5, #36]
	subs	r3, r0, r2
	mov	r3, r1
	sbcs	r3, r4
	bhs	.LBB98_14
	subs	r0, r0, r2
	mov	r2, r1
	sbcs	r2, r4
	ldr	r1, [r5, #24]
	ldr	r3, [r5, #28]
	lsrs	r5, r1, #31
	lsls	r3, r3, #1
	adds	r3, r3, r5
	ldr	r5, [sp, #16]
	lsls	r1, r1, #1
	adds	r0, r0, r1
	adcs	r3, r2
	b	.LBB98_15
.LBB98_14:
	subs	r0, r0, r2
	sbcs	r1, r4
	mov	r3, r1
.LBB98_15:
	movs	r1, #0
	subs	r2, r0, r7
	mov	r2, r3
	sbcs	r2, r1
	blo	.LBB98_16
	b	.LBB98_37
.LBB98_16:
	mov	r2, r6
	blo	.LBB98_17
	b	.LBB98_38
.LBB98_17:
	cmp	r2, #0
	bne	.LBB98_19
.LBB98_18:
	mov	r3, r2
.LBB98_19:
	mov	r7, r0
.LBB98_20:
	mov	r2, r5
	adds	r2, #8
	mov	r0, r7
	subs	r0, #21
	mov	r0, r3
	ldr	r1, [sp, #68]
	sbcs	r0, r1
	str	r2, [sp, #60]
	bhs	.LBB98_21
	b	.LBB98_28
.LBB98_21:
	movs	r4, #3
	lsls	r2, r4, #8
	add	r0, sp, #72
	str	r0, [sp, #68]
	movs	r5, #0
	mov	r1, r5
	str	r6, [sp, #36]
	mov	r6, r3
	bl	tlsf_memory_set
	ldr	r0, [sp, #60]
	ldr	r1, [sp, #68]
	mov	r2, r7
	str	r6, [sp, #24]
	mov	r3, r6
	bl	tlsf_post.take_end.TakeEnd.take_slice
	mov	r0, r7
	bics	r0, r4
	str	r0, [sp, #20]
	str	r7, [sp, #4]
	str	r4, [sp, #32]
	ands	r7, r4
	str	r7, [sp, #8]
	mov	r2, r5
	str	r5, [sp, #28]
	ldr	r6, [sp, #36]
.LBB98_22:
	str	r5, [sp, #56]
	str	r2, [sp, #68]
	ldr	r4, [sp, #64]
	movs	r0, #24
	mov	r1, r0
	mov	r7, r6
	mov	r6, r0
	muls	r1, r2, r1
	add	r5, sp, #72
	adds	r1, r5, r1
	str	r1, [sp, #40]
	ldr	r1, [r1, #8]
	ldr	r0, [sp, #68]
	lsls	r2, r0, #4
	strb	r1, [r4, r2]
	adds	r2, r4, r2
	lsrs	r3, r1, #24
	strb	r3, [r2, #3]
	lsrs	r3, r1, #16
	strb	r3, [r2, #2]
	lsrs	r1, r1, #8
	strb	r1, [r2, #1]
	ldr	r1, [sp, #68]
	orrs	r1, r7
	lsls	r3, r1, #4
	muls	r1, r6, r1
	str	r6, [sp, #60]
	adds	r0, r5, r1
	str	r0, [sp, #44]
	str	r5, [sp, #52]
	ldr	r1, [r0, #8]
	strb	r1, [r4, r3]
	ldr	r0, [sp, #64]
	adds	r7, r0, r3
	lsrs	r3, r1, #24
	strb	r3, [r7, #3]
	lsrs	r3, r1, #16
	strb	r3, [r7, #2]
	lsrs	r1, r1, #8
	strb	r1, [r7, #1]
	movs	r3, #2
	ldr	r0, [sp, #68]
	orrs	r3, r0
	lsls	r1, r3, #4
	str	r1, [sp, #48]
	muls	r3, r6, r3
	adds	r5, r5, r3
	ldr	r3, [r5, #8]
	ldr	r0, [sp, #64]
	strb	r3, [r0, r1]
	ldr	r4, [sp, #40]
	ldr	r0, [r4, #12]
	strb	r0, [r2, #4]
	lsrs	r1, r0, #24
	strb	r1, [r2, #7]
	lsrs	r1, r0, #16
	strb	r1, [r2, #6]
	lsrs	r0, r0, #8
	strb	r0, [r2, #5]
	ldr	r0, [r4, #20]
	strb	r0, [r2, #12]
	ldr	r1, [r4, #16]
	strb	r1, [r2, #8]
	lsrs	r4, r0, #24
	strb	r4, [r2, #15]
	lsrs	r4, r0, #16
	strb	r4, [r2, #14]
	lsrs	r0, r0, #8
	strb	r0, [r2, #13]
	lsrs	r0, r1, #24
	strb	r0, [r2, #11]
	lsrs	r0, r1, #16
	strb	r0, [r2, #10]
	lsrs	r0, r1, #8
	strb	r0, [r2, #9]
	ldr	r2, [sp, #44]
	ldr	r0, [r2, #12]
	lsrs	r1, r0, #24
	strb	r1, [r7, #7]
	lsrs	r1, r0, #16
	strb	r1, [r7, #6]
	lsrs	r1, r0, #8
	strb	r1, [r7, #5]
	strb	r0, [r7, #4]
	ldr	r0, [r2, #16]
	lsrs	r1, r0, #24
	strb	r1, [r7, #11]
	lsrs	r1, r0, #16
	strb	r1, [r7, #10]
	lsrs	r1, r0, #8
	strb	r1, [r7, #9]
	strb	r0, [r7, #8]
	ldr	r0, [r2, #20]
	ldr	r6, [sp, #36]
	lsrs	r1, r0, #24
	strb	r1, [r7, #15]
	lsrs	r1, r0, #16
	strb	r1, [r7, #14]
	lsrs	r1, r0, #8
	strb	r1, [r7, #13]
	strb	r0, [r7, #12]
	ldr	r7, [sp, #64]
	ldr	r0, [sp, #48]
	adds	r1, r7, r0
	ldr	r0, [r5, #12]
	lsrs	r2, r0, #24
	strb	r2, [r1, #7]
	lsrs	r2, r0, #16
	strb	r2, [r1, #6]
	lsrs	r2, r0, #8
	strb	r2, [r1, #5]
	strb	r0, [r1, #4]
	lsrs	r0, r3, #24
	strb	r0, [r1, #3]
	lsrs	r0, r3, #16
	strb	r0, [r1, #2]
	lsrs	r0, r3, #8
	strb	r0, [r1, #1]
	ldr	r0, [r5, #16]
	lsrs	r2, r0, #24
	strb	r2, [r1, #11]
	lsrs	r2, r0, #16
	strb	r2, [r1, #10]
	lsrs	r2, r0, #8
	strb	r2, [r1, #9]
	strb	r0, [r1, #8]
	ldr	r0, [r5, #20]
	lsrs	r2, r0, #24
	strb	r2, [r1, #15]
	lsrs	r2, r0, #16
	strb	r2, [r1, #14]
	lsrs	r2, r0, #8
	strb	r2, [r1, #13]
	strb	r0, [r1, #12]
	ldr	r0, [sp, #68]
	ldr	r1, [sp, #32]
	orrs	r0, r1
	lsls	r2, r0, #4
	ldr	r1, [sp, #60]
	muls	r0, r1, r0
	ldr	r1, [sp, #52]
	adds	r0, r1, r0
	ldr	r4, [r0, #8]
	ldr	r5, [r0, #12]
	ldr	r1, [r0, #16]
	ldr	r3, [r0, #20]
	strb	r4, [r7, r2]
	str	r7, [sp, #64]
	adds	r2, r7, r2
	strb	r5, [r2, #4]
	strb	r3, [r2, #12]
	strb	r1, [r2, #8]
	lsrs	r0, r5, #16
	strb	r0, [r2, #6]
	lsrs	r0, r5, #24
	strb	r0, [r2, #7]
	lsrs	r0, r5, #8
	strb	r0, [r2, #5]
	lsrs	r0, r4, #16
	strb	r0, [r2, #2]
	lsrs	r0, r4, #24
	strb	r0, [r2, #3]
	lsrs	r0, r4, #8
	ldr	r5, [sp, #56]
	strb	r0, [r2, #1]
	lsrs	r0, r3, #16
	strb	r0, [r2, #14]
	lsrs	r0, r3, #24
	strb	r0, [r2, #15]
	lsrs	r0, r3, #8
	strb	r0, [r2, #13]
	lsrs	r0, r1, #16
	strb	r0, [r2, #10]
	lsrs	r0, r1, #24
	strb	r0, [r2, #11]
	lsrs	r0, r1, #8
	strb	r0, [r2, #9]
	ldr	r2, [sp, #68]
	adds	r2, r2, #4
	ldr	r0, [sp, #28]
	adcs	r5, r0
	mov	r0, r5
	ldr	r1, [sp, #24]
	eors	r0, r1
	mov	r1, r2
	ldr	r3, [sp, #20]
	eors	r1, r3
	orrs	r1, r0
	beq	.LBB98_23
	b	.LBB98_22
.LBB98_23:
	ldr	r0, [sp, #8]
	cmp	r0, #0
	beq	.LBB98_27
	ldr	r0, [sp, #60]
	muls	r0, r2, r0
	add	r1, sp, #72
	adds	r0, r1, r0
	mov	r4, r0
	adds	r4, #8
	ldm	r4, {r1, r3, r4}
	ldr	r0, [r0, #20]
	str	r2, [sp, #68]
	ldr	r2, [sp, #68]
	lsls	r2, r2, #4
	ldr	r5, [sp, #64]
	strb	r1, [r5, r2]
	adds	r2, r5, r2
	strb	r0, [r2, #12]
	strb	r4, [r2, #8]
	strb	r3, [r2, #4]
	lsrs	r5, r0, #24
	strb	r5, [r2, #15]
	lsrs	r5, r0, #16
	strb	r5, [r2, #14]
	lsrs	r0, r0, #8
	strb	r0, [r2, #13]
	lsrs	r0, r4, #24
	strb	r0, [r2, #11]
	lsrs	r0, r4, #16
	strb	r0, [r2, #10]
	lsrs	r0, r4, #8
	strb	r0, [r2, #9]
	lsrs	r0, r3, #24
	strb	r0, [r2, #7]
	lsrs	r0, r3, #16
	strb	r0, [r2, #6]
	lsrs	r0, r3, #8
	strb	r0, [r2, #5]
	lsrs	r0, r1, #24
	strb	r0, [r2, #3]
	lsrs	r0, r1, #16
	strb	r0, [r2, #2]
	lsrs	r0, r1, #8
	ldr	r1, [sp, #8]
	strb	r0, [r2, #1]
	ldr	r0, [sp, #68]
	cmp	r1, #1
	beq	.LBB98_27
	adds	r0, r0, #1
	mov	r6, r1
	ldr	r1, [sp, #60]
	muls	r1, r0, r1
	add	r2, sp, #72
	adds	r2, r2, r1
	mov	r5, r2
	adds	r5, #8
	ldm	r5, {r1, r3, r4, r5}
	lsls	r0, r0, #4
	ldr	r2, [sp, #64]
	strb	r1, [r2, r0]
	adds	r2, r2, r0
	strb	r5, [r2, #12]
	strb	r4, [r2, #8]
	strb	r3, [r2, #4]
	lsrs	r0, r5, #24
	strb	r0, [r2, #15]
	lsrs	r0, r5, #16
	strb	r0, [r2, #14]
	lsrs	r0, r5, #8
	strb	r0, [r2, #13]
	lsrs	r0, r4, #24
	strb	r0, [r2, #11]
	lsrs	r0, r4, #16
	strb	r0, [r2, #10]
	lsrs	r0, r4, #8
	strb	r0, [r2, #9]
	lsrs	r0, r3, #24
	strb	r0, [r2, #7]
	lsrs	r0, r3, #16
	strb	r0, [r2, #6]
	lsrs	r0, r3, #8
	strb	r0, [r2, #5]
	lsrs	r0, r1, #24
	strb	r0, [r2, #3]
	lsrs	r0, r1, #16
	strb	r0, [r2, #2]
	lsrs	r0, r1, #8
	strb	r0, [r2, #1]
	ldr	r0, [sp, #68]
	cmp	r6, #2
	beq	.LBB98_27
	adds	r1, r0, #2
	ldr	r6, [sp, #60]
	muls	r6, r1, r6
	add	r0, sp, #72
	adds	r4, r0, r6
	adds	r4, #8
	ldm	r4, {r0, r2, r3, r4}
	lsls	r1, r1, #4
	ldr	r5, [sp, #64]
	strb	r0, [r5, r1]
	adds	r1, r5, r1
	strb	r4, [r1, #12]
	strb	r3, [r1, #8]
	strb	r2, [r1, #4]
	lsrs	r5, r4, #24
	strb	r5, [r1, #15]
	lsrs	r5, r4, #16
	strb	r5, [r1, #14]
	lsrs	r4, r4, #8
	strb	r4, [r1, #13]
	lsrs	r4, r3, #24
	strb	r4, [r1, #11]
	lsrs	r4, r3, #16
	strb	r4, [r1, #10]
	lsrs	r3, r3, #8
	strb	r3, [r1, #9]
	lsrs	r3, r2, #24
	strb	r3, [r1, #7]
	lsrs	r3, r2, #16
	strb	r3, [r1, #6]
	lsrs	r2, r2, #8
	strb	r2, [r1, #5]
	lsrs	r2, r0, #24
	strb	r2, [r1, #3]
	lsrs	r2, r0, #16
	strb	r2, [r1, #2]
	lsrs	r0, r0, #8
	strb	r0, [r1, #1]
.LBB98_27:
	ldr	r1, [sp, #12]
	ldr	r5, [sp, #16]
	ldr	r7, [sp, #4]
	ldr	r6, [sp, #36]
	b	.LBB98_43
.LBB98_28:
	movs	r4, #0
	subs	r0, r7, #2
	mov	r0, r3
	sbcs	r0, r4
	bhs	.LBB98_29
	b	.LBB98_40
.LBB98_29:
	str	r6, [sp, #36]
	movs	r0, #15
	lsls	r2, r0, #5
	add	r6, sp, #72
	mov	r0, r6
	mov	r1, r4
	mov	r5, r3
	bl	tlsf_memory_set
	ldr	r0, [sp, #60]
	mov	r1, r6
	mov	r2, r7
	mov	r3, r5
	bl	tlsf_post.take_end.TakeEnd.take_slice
	movs	r6, #3
	mov	r1, r7
	ands	r1, r6
	subs	r0, r7, #4
	sbcs	r5, r4
	str	r1, [sp, #24]
	bhs	.LBB98_30
	b	.LBB98_33
.LBB98_30:
	movs	r0, #28
	str	r7, [sp, #4]
	ands	r0, r7
	str	r0, [sp, #32]
	movs	r0, #0
	mov	r4, r0
	str	r0, [sp, #28]
	mov	r2, r0
	str	r6, [sp, #40]
.LBB98_31:
	str	r2, [sp, #56]
	str	r4, [sp, #68]
	movs	r1, #24
	mov	r0, r1
	mov	r3, r1
	str	r1, [sp, #60]
	muls	r0, r4, r0
	add	r7, sp, #72
	adds	r0, r7, r0
	str	r0, [sp, #44]
	ldr	r0, [r0, #8]
	lsls	r1, r4, #4
	ldr	r5, [sp, #64]
	strb	r0, [r5, r1]
	adds	r6, r5, r1
	lsrs	r1, r0, #24
	strb	r1, [r6, #3]
	lsrs	r1, r0, #16
	strb	r1, [r6, #2]
	lsrs	r0, r0, #8
	strb	r0, [r6, #1]
	mov	r0, r4
	ldr	r1, [sp, #36]
	orrs	r0, r1
	lsls	r1, r0, #4
	muls	r0, r3, r0
	str	r7, [sp, #52]
	adds	r0, r7, r0
	ldr	r3, [r0, #8]
	strb	r3, [r5, r1]
	adds	r2, r5, r1
	str	r5, [sp, #64]
	lsrs	r1, r3, #24
	strb	r1, [r2, #3]
	lsrs	r1, r3, #16
	strb	r1, [r2, #2]
	lsrs	r1, r3, #8
	strb	r1, [r2, #1]
	movs	r1, #2
	orrs	r1, r4
	lsls	r4, r1, #4
	str	r4, [sp, #48]
	ldr	r3, [sp, #60]
	muls	r1, r3, r1
	adds	r1, r7, r1
	ldr	r3, [r1, #8]
	strb	r3, [r5, r4]
	ldr	r7, [sp, #44]
	ldr	r4, [r7, #12]
	strb	r4, [r6, #4]
	lsrs	r5, r4, #24
	strb	r5, [r6, #7]
	lsrs	r5, r4, #16
	strb	r5, [r6, #6]
	lsrs	r4, r4, #8
	strb	r4, [r6, #5]
	ldr	r4, [r7, #20]
	strb	r4, [r6, #12]
	ldr	r5, [r7, #16]
	strb	r5, [r6, #8]
	lsrs	r7, r4, #24
	strb	r7, [r6, #15]
	lsrs	r7, r4, #16
	strb	r7, [r6, #14]
	lsrs	r4, r4, #8
	strb	r4, [r6, #13]
	lsrs	r4, r5, #24
	strb	r4, [r6, #11]
	lsrs	r4, r5, #16
	strb	r4, [r6, #10]
	lsrs	r4, r5, #8
	strb	r4, [r6, #9]
	ldr	r6, [sp, #40]
	ldr	r4, [r0, #12]
	lsrs	r5, r4, #24
	strb	r5, [r2, #7]
	lsrs	r5, r4, #16
	strb	r5, [r2, #6]
	lsrs	r5, r4, #8
	strb	r5, [r2, #5]
	strb	r4, [r2, #4]
	ldr	r4, [r0, #16]
	lsrs	r5, r4, #24
	strb	r5, [r2, #11]
	lsrs	r5, r4, #16
	strb	r5, [r2, #10]
	lsrs	r5, r4, #8
	strb	r5, [r2, #9]
	strb	r4, [r2, #8]
	ldr	r0, [r0, #20]
	lsrs	r4, r0, #24
	strb	r4, [r2, #15]
	lsrs	r4, r0, #16
	strb	r4, [r2, #14]
	lsrs	r4, r0, #8
	strb	r4, [r2, #13]
	strb	r0, [r2, #12]
	ldr	r5, [sp, #64]
	ldr	r0, [sp, #48]
	adds	r0, r5, r0
	ldr	r2, [r1, #12]
	lsrs	r4, r2, #24
	strb	r4, [r0, #7]
	lsrs	r4, r2, #16
	strb	r4, [r0, #6]
	lsrs	r4, r2, #8
	strb	r4, [r0, #5]
	strb	r2, [r0, #4]
	lsrs	r2, r3, #24
	strb	r2, [r0, #3]
	lsrs	r2, r3, #16
	strb	r2, [r0, #2]
	lsrs	r2, r3, #8
	strb	r2, [r0, #1]
	ldr	r2, [r1, #16]
	lsrs	r3, r2, #24
	strb	r3, [r0, #11]
	lsrs	r3, r2, #16
	strb	r3, [r0, #10]
	lsrs	r3, r2, #8
	strb	r3, [r0, #9]
	strb	r2, [r0, #8]
	ldr	r1, [r1, #20]
	lsrs	r2, r1, #24
	strb	r2, [r0, #15]
	lsrs	r2, r1, #16
	strb	r2, [r0, #14]
	lsrs	r2, r1, #8
	strb	r2, [r0, #13]
	strb	r1, [r0, #12]
	ldr	r0, [sp, #68]
	orrs	r0, r6
	lsls	r1, r0, #4
	ldr	r2, [sp, #60]
	muls	r0, r2, r0
	ldr	r2, [sp, #52]
	adds	r2, r2, r0
	ldr	r3, [r2, #8]
	ldr	r4, [r2, #12]
	ldr	r0, [r2, #16]
	ldr	r2, [r2, #20]
	strb	r3, [r5, r1]
	adds	r1, r5, r1
	strb	r4, [r1, #4]
	strb	r2, [r1, #12]
	strb	r0, [r1, #8]
	lsrs	r5, r4, #16
	strb	r5, [r1, #6]
	lsrs	r5, r4, #24
	strb	r5, [r1, #7]
	lsrs	r4, r4, #8
	strb	r4, [r1, #5]
	lsrs	r4, r3, #16
	strb	r4, [r1, #2]
	lsrs	r4, r3, #24
	strb	r4, [r1, #3]
	ldr	r4, [sp, #68]
	lsrs	r3, r3, #8
	strb	r3, [r1, #1]
	lsrs	r3, r2, #16
	strb	r3, [r1, #14]
	lsrs	r3, r2, #24
	strb	r3, [r1, #15]
	lsrs	r2, r2, #8
	strb	r2, [r1, #13]
	lsrs	r2, r0, #16
	strb	r2, [r1, #10]
	lsrs	r2, r0, #24
	strb	r2, [r1, #11]
	ldr	r2, [sp, #56]
	lsrs	r0, r0, #8
	strb	r0, [r1, #9]
	adds	r4, r4, #4
	ldr	r0, [sp, #28]
	adcs	r2, r0
	mov	r0, r4
	ldr	r1, [sp, #32]
	eors	r0, r1
	orrs	r0, r2
	beq	.LBB98_32
	b	.LBB98_31
.LBB98_32:
	ldr	r1, [sp, #24]
	cmp	r1, #0
	ldr	r7, [sp, #4]
	beq	.LBB98_36
.LBB98_33:
	movs	r1, #24
	str	r1, [sp, #68]
	muls	r1, r4, r1
	add	r2, sp, #72
	adds	r2, r2, r1
	ldr	r1, [r2, #8]
	ldr	r3, [r2, #12]
	mov	r0, r4
	ldr	r4, [r2, #16]
	ldr	r5, [r2, #20]
	lsls	r2, r0, #4
	ldr	r6, [sp, #64]
	strb	r1, [r6, r2]
	adds	r2, r6, r2
	strb	r5, [r2, #12]
	strb	r4, [r2, #8]
	strb	r3, [r2, #4]
	lsrs	r6, r5, #24
	strb	r6, [r2, #15]
	lsrs	r6, r5, #16
	strb	r6, [r2, #14]
	lsrs	r5, r5, #8
	strb	r5, [r2, #13]
	lsrs	r5, r4, #24
	strb	r5, [r2, #11]
	lsrs	r5, r4, #16
	strb	r5, [r2, #10]
	lsrs	r4, r4, #8
	strb	r4, [r2, #9]
	lsrs	r4, r3, #24
	strb	r4, [r2, #7]
	lsrs	r4, r3, #16
	strb	r4, [r2, #6]
	lsrs	r3, r3, #8
	strb	r3, [r2, #5]
	lsrs	r3, r1, #24
	strb	r3, [r2, #3]
	lsrs	r3, r1, #16
	strb	r3, [r2, #2]
	lsrs	r1, r1, #8
	strb	r1, [r2, #1]
	ldr	r1, [sp, #24]
	cmp	r1, #1
	beq	.LBB98_36
	adds	r2, r0, #1
	ldr	r1, [sp, #68]
	muls	r1, r2, r1
	add	r3, sp, #72
	adds	r5, r3, r1
	adds	r5, #8
	ldm	r5, {r1, r3, r4, r5}
	lsls	r2, r2, #4
	ldr	r6, [sp, #64]
	strb	r1, [r6, r2]
	adds	r2, r6, r2
	strb	r5, [r2, #12]
	strb	r4, [r2, #8]
	strb	r3, [r2, #4]
	lsrs	r6, r5, #24
	strb	r6, [r2, #15]
	lsrs	r6, r5, #16
	strb	r6, [r2, #14]
	lsrs	r5, r5, #8
	strb	r5, [r2, #13]
	lsrs	r5, r4, #24
	strb	r5, [r2, #11]
	lsrs	r5, r4, #16
	strb	r5, [r2, #10]
	lsrs	r4, r4, #8
	strb	r4, [r2, #9]
	lsrs	r4, r3, #24
	strb	r4, [r2, #7]
	lsrs	r4, r3, #16
	strb	r4, [r2, #6]
	lsrs	r3, r3, #8
	strb	r3, [r2, #5]
	lsrs	r3, r1, #24
	strb	r3, [r2, #3]
	lsrs	r3, r1, #16
	strb	r3, [r2, #2]
	lsrs	r1, r1, #8
	strb	r1, [r2, #1]
	ldr	r1, [sp, #24]
	cmp	r1, #2
	beq	.LBB98_36
	adds	r1, r0, #2
	ldr	r0, [sp, #68]
	muls	r0, r1, r0
	add	r2, sp, #72
	adds	r4, r2, r0
	adds	r4, #8
	ldm	r4, {r0, r2, r3, r4}
	lsls	r1, r1, #4
	ldr	r5, [sp, #64]
	strb	r0, [r5, r1]
	adds	r1, r5, r1
	strb	r4, [r1, #12]
	strb	r3, [r1, #8]
	strb	r2, [r1, #4]
	lsrs	r5, r4, #24
	strb	r5, [r1, #15]
	lsrs	r5, r4, #16
	strb	r5, [r1, #14]
	lsrs	r4, r4, #8
	strb	r4, [r1, #13]
	lsrs	r4, r3, #24
	strb	r4, [r1, #11]
	lsrs	r4, r3, #16
	strb	r4, [r1, #10]
	lsrs	r3, r3, #8
	strb	r3, [r1, #9]
	lsrs	r3, r2, #24
	strb	r3, [r1, #7]
	lsrs	r3, r2, #16
	strb	r3, [r1, #6]
	lsrs	r2, r2, #8
	strb	r2, [r1, #5]
	lsrs	r2, r0, #24
	strb	r2, [r1, #3]
	lsrs	r2, r0, #16
	strb	r2, [r1, #2]
	lsrs	r0, r0, #8
	strb	r0, [r1, #1]
.LBB98_36:
	ldr	r6, [sp, #36]
	ldr	r5, [sp, #16]
	b	.LBB98_42
.LBB98_37:
	mov	r0, r7
	mov	r2, r6
	bhs	.LBB98_38
	b	.LBB98_17
.LBB98_38:
	mov	r2, r1
	cmp	r2, #0
	bne	.LBB98_39
	b	.LBB98_18
.LBB98_39:
	b	.LBB98_19
.LBB98_40:
	mov	r0, r7
	eors	r0, r6
	orrs	r0, r3
	ldr	r1, [sp, #64]
	bne	.LBB98_47
	ldr	r0, [sp, #60]
	bl	tlsf_c.lane_calls.take_name
.LBB98_42:
	ldr	r1, [sp, #12]
.LBB98_43:
	strb	r6, [r5, #1]
.LBB98_44:
	movs	r0, #0
.LBB98_45:
	str	r7, [r1]
	add	sp, #508
	add	sp, #336
	pop	{r4, r5, r6, r7, pc}
.LBB98_46:
	movs	r0, #0
	b	.LBB98_50
.LBB98_47:
	strb	r6, [r5, #1]
	ldr	r0, [sp, #56]
	cmp	r0, #0
	ldr	r1, [sp, #12]
	beq	.LBB98_44
	movs	r0, #35
	ldr	r7, [sp, #52]
	b	.LBB98_45
.LBB98_49:
	movs	r0, #2
.LBB98_50:
	mov	r4, r3
	bl	tlsf_c.call_fault.CallFault.refusal
	mov	r1, r4
	b	.LBB98_45
.Lfunc_end98:
	.size	tlsf_take_all, .Lfunc_end98-tlsf_take_all
	.cfi_endproc
	.section	.text.tlsf_take_close,"ax",%progbits
	.globl	tlsf_take_close
	.p2align	1
	.type	tlsf_take_close,%function
	.code	16
	.thumb_func
tlsf_take_close:
	.cfi_startproc
	push	{r4, r5, r6, r7, lr}
	.cfi_def_cfa_offset 20
	.cfi_offset lr, -4
	.cfi_offset r7, -8
	.cfi_offset r6, -12
	.cfi_offset r5, -16
	.cfi_offset r4, -20
	sub	sp, #108
	.cfi_def_cfa_offset 128
	ldrb	r1, [r0, #8]
	movs	r4, #32
	cmp	r1, #0
	beq	.LBB99_5
	ldr	r1, [r0]
	ldrb	r2, [r1, #1]
	cmp	r2, #1
	bne	.LBB99_5
	ldrb	r2, [r1]
	cmp	r2, #1
	bne	.LBB99_4
	movs	r4, #0
	strb	r4, [r1, #1]
	ldrb	r1, [r0, #3]
	str	r1, [sp, #4]
	ldrb	r6, [r0, #2]
	ldrb	r7, [r0]
	ldrb	r5, [r0, #1]
	movs	r2, #16
	mov	r1, r4
	bl	tlsf_memory_set
	lsls	r0, r5, #8
	adds	r0, r0, r7
	lsls	r1, r6, #16
	ldr	r2, [sp, #4]
	lsls	r2, r2, #24
	adds	r1, r2, r1
	adds	r7, r1, r0
	ldrb	r0, [r7]
	str	r0, [sp, #4]
	ldrb	r0, [r7, #1]
	str	r0, [sp]
	mov	r1, r7
	adds	r1, #8
	add	r0, sp, #8
	adds	r5, r0, #6
	movs	r6, #40
	mov	r0, r5
	mov	r2, r6
	bl	tlsf_memory_cpy
	mov	r0, r7
	bl	tlsf_memory_dealloc
	str	r4, [sp, #56]
	add	r7, sp, #56
	ldr	r0, [sp]
	strb	r0, [r7, #1]
	ldr	r0, [sp, #4]
	strb	r0, [r7]
	str	r4, [sp, #60]
	mov	r0, r7
	adds	r0, #8
	mov	r1, r5
	mov	r2, r6
	bl	tlsf_memory_cpy
	mov	r0, r7
	bl	tlsf_c.tlsf_c.any_end.AnyEnd.Destruct.drop
	b	.LBB99_5
.LBB99_4:
	movs	r4, #40
.LBB99_5:
	mov	r0, r4
	add	sp, #108
	pop	{r4, r5, r6, r7, pc}
.Lfunc_end99:
	.size	tlsf_take_close, .Lfunc_end99-tlsf_take_close
	.cfi_endproc
	.section	.text.tlsf_words,"ax",%progbits
	.globl	tlsf_words
	.p2align	2
	.type	tlsf_words,%function
	.code	16
	.thumb_func
tlsf_words:
	.cfi_startproc
	push	{r4, r5, r6, r7, lr}
	.cfi_def_cfa_offset 20
	.cfi_offset lr, -4
	.cfi_offset r7, -8
	.cfi_offset r6, -12
	.cfi_offset r5, -16
	.cfi_offset r4, -20
	sub	sp, #20
	.cfi_def_cfa_offset 40
	cmp	r0, #5
	bne	.LBB100_2
	movs	r0, #0
.LBB100_2:
	movs	r7, #1
	bics	r0, r7
	cmp	r0, #4
	bne	.LBB100_13
	cmp	r1, #0
	beq	.LBB100_14
	movs	r0, #5
	ldr	r4, .LCPI100_0
	cmp	r2, r4
	bhi	.LBB100_24
	cmp	r2, #9
	blo	.LBB100_15
	str	r0, [sp, #16]
	str	r3, [sp, #12]
	adds	r2, #31
	lsrs	r5, r2, #3
	adds	r6, r5, #3
	movs	r4, #0
	mov	r0, r6
	mov	r2, r1
	mov	r1, r4
	str	r2, [sp, #8]
	mov	r3, r4
	bl	__aeabi_lmul
	subs	r0, r0, r6
	sbcs	r1, r4
	mov	r2, r4
	adcs	r2, r4
	eors	r2, r7
	cmp	r2, #0
	mov	r2, r4
	bne	.LBB100_8
	mov	r2, r1
.LBB100_8:
	mov	r6, r4
	bne	.LBB100_10
	mov	r6, r0
.LBB100_10:
	mvns	r0, r2
	str	r0, [sp, #4]
	movs	r0, #16
	orrs	r0, r5
	bl	__clzsi2
	movs	r1, #27
	subs	r0, r1, r0
	lsls	r1, r0, #4
	subs	r2, r5, #1
	lsrs	r2, r0
	adds	r0, r2, #1
	adds	r1, r0, r1
	lsrs	r2, r1, #4
	beq	.LBB100_12
	movs	r1, #8
	lsls	r1, r2
	subs	r2, r2, #1
	movs	r3, #15
	ands	r0, r3
	lsls	r0, r2
	adds	r1, r0, r1
.LBB100_12:
	subs	r0, r1, #1
	mov	r1, r4
	ldr	r2, [sp, #8]
	mov	r3, r4
	bl	__aeabi_lmul
	mvns	r2, r6
	subs	r2, r0, r2
	ldr	r0, [sp, #4]
	sbcs	r1, r0
	ldr	r3, [sp, #12]
	ldr	r0, [sp, #16]
	b	.LBB100_16
.LBB100_13:
	movs	r0, #34
	add	sp, #20
	pop	{r4, r5, r6, r7, pc}
.LBB100_14:
	movs	r4, #4
	b	.LBB100_23
.LBB100_15:
	mov	r2, r1
	lsrs	r1, r1, #30
	lsls	r2, r2, #2
.LBB100_16:
	movs	r5, #4
	cmp	r2, #4
	mov	r4, r2
	bhi	.LBB100_18
	mov	r4, r5
.LBB100_18:
	cmp	r1, #0
	mov	r6, r2
	bne	.LBB100_20
	mov	r6, r5
.LBB100_20:
	beq	.LBB100_22
	mov	r4, r6
.LBB100_22:
	lsls	r5, r7, #20
	movs	r6, #0
	subs	r2, r5, r2
	sbcs	r6, r1
	blo	.LBB100_24
.LBB100_23:
	str	r4, [r3]
	movs	r0, #0
.LBB100_24:
	add	sp, #20
	pop	{r4, r5, r6, r7, pc}
	.p2align	2
.LCPI100_0:
	.long	8388584
.Lfunc_end100:
	.size	tlsf_words, .Lfunc_end100-tlsf_words
	.cfi_endproc
	.section	.text.tlsf_offsets_report,"ax",%progbits
	.globl	tlsf_offsets_report
	.p2align	1
	.type	tlsf_offsets_report,%function
	.code	16
	.thumb_func
tlsf_offsets_report:
	.cfi_startproc
	push	{r4, r5, r6, r7, lr}
	.cfi_def_cfa_offset 20
	.cfi_offset lr, -4
	.cfi_offset r7, -8
	.cfi_offset r6, -12
	.cfi_offset r5, -16
	.cfi_offset r4, -20
	sub	sp, #68
	.cfi_def_cfa_offset 88
	mov	r4, r1
	ldrb	r1, [r0, #8]
	cmp	r1, #0
	beq	.LBB101_5
	ldr	r7, [r0]
	ldrb	r0, [r7, #1]
	cmp	r0, #0
	beq	.LBB101_5
	ldrb	r0, [r7]
	cmp	r0, #0
	bne	.LBB101_6
	movs	r5, #0
	strb	r5, [r7, #1]
	add	r6, sp, #16
	movs	r2, #48
	mov	r0, r6
	mov	r1, r5
	bl	tlsf_memory_set
	mov	r1, r7
	adds	r1, #16
	mov	r0, r6
	bl	tlsf_heap.heap.Heap.report.4
	movs	r0, #5
	lsls	r0, r0, #8
	ldr	r6, [r7, r0]
	ldr	r0, [sp, #16]
	str	r0, [sp, #12]
	ldr	r0, [sp, #20]
	str	r0, [sp, #8]
	ldr	r0, [sp, #32]
	str	r0, [sp, #4]
	ldr	r0, [sp, #36]
	movs	r1, #1
	strb	r1, [r7, #1]
	mov	r1, r5
	mov	r2, r6
	mov	r3, r5
	bl	__aeabi_lmul
	lsrs	r2, r1, #24
	strb	r2, [r4, #31]
	lsrs	r2, r1, #16
	strb	r2, [r4, #30]
	lsrs	r2, r1, #8
	strb	r2, [r4, #29]
	strb	r1, [r4, #28]
	lsrs	r1, r0, #24
	strb	r1, [r4, #27]
	lsrs	r1, r0, #16
	strb	r1, [r4, #26]
	lsrs	r1, r0, #8
	strb	r1, [r4, #25]
	strb	r0, [r4, #24]
	ldr	r0, [sp, #4]
	mov	r1, r5
	mov	r2, r6
	mov	r3, r5
	bl	__aeabi_lmul
	lsrs	r2, r1, #24
	strb	r2, [r4, #23]
	lsrs	r2, r1, #16
	strb	r2, [r4, #22]
	lsrs	r2, r1, #8
	strb	r2, [r4, #21]
	strb	r1, [r4, #20]
	lsrs	r1, r0, #24
	strb	r1, [r4, #19]
	lsrs	r1, r0, #16
	strb	r1, [r4, #18]
	lsrs	r1, r0, #8
	strb	r1, [r4, #17]
	strb	r0, [r4, #16]
	mov	r0, r6
	mov	r1, r5
	ldr	r2, [sp, #8]
	mov	r3, r5
	bl	__aeabi_lmul
	lsrs	r2, r1, #24
	strb	r2, [r4, #15]
	lsrs	r2, r1, #16
	strb	r2, [r4, #14]
	lsrs	r2, r1, #8
	strb	r2, [r4, #13]
	strb	r1, [r4, #12]
	lsrs	r1, r0, #24
	strb	r1, [r4, #11]
	lsrs	r1, r0, #16
	strb	r1, [r4, #10]
	lsrs	r1, r0, #8
	strb	r1, [r4, #9]
	strb	r0, [r4, #8]
	strb	r5, [r4, #7]
	strb	r5, [r4, #6]
	strb	r5, [r4, #5]
	strb	r5, [r4, #4]
	ldr	r1, [sp, #12]
	lsrs	r0, r1, #24
	strb	r0, [r4, #3]
	lsrs	r0, r1, #16
	strb	r0, [r4, #2]
	lsrs	r0, r1, #8
	strb	r0, [r4, #1]
	strb	r1, [r4]
.LBB101_4:
	mov	r0, r5
	add	sp, #68
	pop	{r4, r5, r6, r7, pc}
.LBB101_5:
	movs	r0, #0
	b	.LBB101_7
.LBB101_6:
	movs	r0, #2
.LBB101_7:
	bl	tlsf_c.call_fault.CallFault.refusal
	mov	r5, r0
	b	.LBB101_4
.Lfunc_end101:
	.size	tlsf_offsets_report, .Lfunc_end101-tlsf_offsets_report
	.cfi_endproc
	.section	.text.tlsf_write,"ax",%progbits
	.globl	tlsf_write
	.p2align	1
	.type	tlsf_write,%function
	.code	16
	.thumb_func
tlsf_write:
	.cfi_startproc
	push	{r4, r5, r6, r7, lr}
	.cfi_def_cfa_offset 20
	.cfi_offset lr, -4
	.cfi_offset r7, -8
	.cfi_offset r6, -12
	.cfi_offset r5, -16
	.cfi_offset r4, -20
	sub	sp, #28
	.cfi_def_cfa_offset 48
	movs	r6, #1
	ldr	r5, [sp, #60]
	cmp	r5, #0
	bne	.LBB102_2
	lsls	r1, r6, #12
	adds	r5, r5, r1
.LBB102_2:
	ldrb	r1, [r0, #8]
	movs	r4, #32
	cmp	r1, #0
	beq	.LBB102_18
	ldr	r1, [r0]
	ldrb	r0, [r1]
	cmp	r0, #1
	bne	.LBB102_18
	str	r6, [sp, #16]
	movs	r4, #0
	strb	r4, [r1]
	ldr	r6, [r1, #24]
	cmp	r6, r2
	str	r1, [sp, #24]
	bne	.LBB102_13
	ldr	r0, [sp, #24]
	ldr	r0, [r0, #56]
	cmp	r3, r0
	mov	r6, r2
	bhs	.LBB102_13
	movs	r6, #63
	ands	r6, r3
	ldr	r0, [sp, #24]
	ldr	r1, [r0, #72]
	lsrs	r0, r3, #6
	lsls	r7, r0, #3
	ldr	r0, [r1, r7]
	adds	r1, r1, r7
	ldr	r1, [r1, #4]
	mov	r7, r2
	mov	r2, r6
	str	r3, [sp, #20]
	bl	__aeabi_llsr
	mov	r2, r7
	lsls	r0, r0, #31
	mov	r6, r7
	beq	.LBB102_13
	ldr	r0, [sp, #24]
	adds	r0, #48
	ldr	r1, [sp, #20]
	lsls	r3, r1, #3
	ldr	r7, [r0]
	ldrb	r6, [r7, r3]
	lsls	r6, r6, #31
	mov	r6, r2
	bne	.LBB102_13
	ldr	r6, [sp, #52]
	ldr	r1, [sp, #48]
	str	r1, [sp, #12]
	adds	r1, r7, r3
	ldr	r7, [r1, #8]
	ldr	r3, [r1, #12]
	eors	r3, r6
	ldr	r6, [sp, #12]
	eors	r7, r6
	orrs	r7, r3
	mov	r6, r2
	bne	.LBB102_13
	ldr	r6, [sp, #64]
	ldr	r2, [sp, #56]
	adds	r3, r6, r2
	mov	r7, r4
	adcs	r7, r4
	ldr	r1, [r1, #16]
	subs	r1, r1, r3
	mov	r1, r4
	sbcs	r1, r7
	bhs	.LBB102_11
	movs	r4, #7
	b	.LBB102_12
.LBB102_11:
	str	r6, [sp]
	str	r4, [sp, #4]
	ldr	r1, [sp, #20]
	mov	r3, r5
	bl	tlsf_heap.region.Region.write.4
.LBB102_12:
	ldr	r0, [sp, #16]
	ldr	r5, [sp, #24]
	b	.LBB102_17
.LBB102_13:
	ldr	r5, [sp, #24]
	mov	r0, r2
	mov	r1, r6
	bl	tlsf_heap.refusal.Refusal.of_name
	uxtb	r0, r0
	cmp	r0, #2
	beq	.LBB102_15
	movs	r4, #4
	b	.LBB102_16
.LBB102_15:
	movs	r4, #3
.LBB102_16:
	ldr	r0, [sp, #16]
.LBB102_17:
	strb	r0, [r5]
.LBB102_18:
	mov	r0, r4
	add	sp, #28
	pop	{r4, r5, r6, r7, pc}
.Lfunc_end102:
	.size	tlsf_write, .Lfunc_end102-tlsf_write
	.cfi_endproc
	.section	.text.tlsf_pools_write,"ax",%progbits
	.globl	tlsf_pools_write
	.p2align	1
	.type	tlsf_pools_write,%function
	.code	16
	.thumb_func
tlsf_pools_write:
	.cfi_startproc
	push	{r4, r5, r6, r7, lr}
	.cfi_def_cfa_offset 20
	.cfi_offset lr, -4
	.cfi_offset r7, -8
	.cfi_offset r6, -12
	.cfi_offset r5, -16
	.cfi_offset r4, -20
	sub	sp, #28
	.cfi_def_cfa_offset 48
	movs	r6, #1
	ldr	r4, [sp, #60]
	cmp	r4, #0
	bne	.LBB103_2
	lsls	r1, r6, #12
	adds	r4, r4, r1
.LBB103_2:
	ldrb	r1, [r0, #8]
	cmp	r1, #0
	beq	.LBB103_16
	ldr	r5, [r0]
	ldrb	r0, [r5, #1]
	cmp	r0, #0
	beq	.LBB103_16
	ldrb	r0, [r5]
	cmp	r0, #1
	bne	.LBB103_20
	movs	r0, #0
	strb	r0, [r5, #1]
	ldr	r1, [r5, #16]
	cmp	r2, r1
	blo	.LBB103_14
	subs	r1, r2, r1
	str	r6, [sp, #24]
	ldr	r6, [r5, #32]
	ldr	r7, [r5, #36]
	subs	r6, r1, r6
	mov	r6, r0
	sbcs	r6, r7
	ldr	r6, [sp, #24]
	bhs	.LBB103_14
	str	r0, [sp, #16]
	ldr	r0, [r5, #24]
	movs	r6, #165
	lsls	r7, r6, #3
	muls	r7, r1, r7
	ldr	r6, [r0, r7]
	cmp	r6, r2
	bne	.LBB103_18
	adds	r0, r0, r7
	str	r0, [sp, #20]
	ldr	r0, [r0, #32]
	cmp	r3, r0
	mov	r6, r2
	bhs	.LBB103_18
	movs	r6, #63
	ands	r6, r3
	ldr	r0, [sp, #20]
	ldr	r1, [r0, #48]
	lsrs	r0, r3, #6
	lsls	r7, r0, #3
	ldr	r0, [r1, r7]
	adds	r1, r1, r7
	ldr	r1, [r1, #4]
	mov	r7, r2
	mov	r2, r6
	str	r3, [sp, #12]
	bl	__aeabi_llsr
	mov	r2, r7
	lsls	r0, r0, #31
	mov	r6, r7
	beq	.LBB103_18
	ldr	r1, [sp, #20]
	adds	r1, #24
	ldr	r0, [sp, #12]
	lsls	r0, r0, #3
	str	r1, [sp, #20]
	ldr	r3, [r1]
	ldrb	r6, [r3, r0]
	lsls	r6, r6, #31
	mov	r6, r2
	bne	.LBB103_18
	ldr	r6, [sp, #52]
	ldr	r1, [sp, #48]
	adds	r7, r3, r0
	ldr	r3, [r7, #8]
	ldr	r0, [r7, #12]
	eors	r0, r6
	eors	r3, r1
	orrs	r3, r0
	mov	r6, r2
	bne	.LBB103_18
	ldr	r3, [sp, #64]
	ldr	r2, [sp, #56]
	adds	r0, r3, r2
	ldr	r6, [sp, #16]
	mov	r1, r6
	adcs	r1, r6
	ldr	r7, [r7, #16]
	subs	r0, r7, r0
	mov	r0, r6
	sbcs	r0, r1
	bhs	.LBB103_17
	ldr	r0, [sp, #24]
	strb	r0, [r5, #1]
	movs	r0, #7
	add	sp, #28
	pop	{r4, r5, r6, r7, pc}
.LBB103_14:
	strb	r6, [r5, #1]
.LBB103_15:
	movs	r0, #3
	add	sp, #28
	pop	{r4, r5, r6, r7, pc}
.LBB103_16:
	movs	r0, #0
	b	.LBB103_21
.LBB103_17:
	str	r3, [sp]
	str	r6, [sp, #4]
	ldr	r0, [sp, #20]
	ldr	r1, [sp, #12]
	mov	r3, r4
	bl	tlsf_heap.region.Region.write.4
	ldr	r0, [sp, #16]
	ldr	r1, [sp, #24]
	strb	r1, [r5, #1]
	add	sp, #28
	pop	{r4, r5, r6, r7, pc}
.LBB103_18:
	mov	r0, r2
	mov	r1, r6
	bl	tlsf_heap.refusal.Refusal.of_name
	ldr	r1, [sp, #24]
	strb	r1, [r5, #1]
	uxtb	r0, r0
	cmp	r0, #3
	bne	.LBB103_15
	movs	r0, #4
	add	sp, #28
	pop	{r4, r5, r6, r7, pc}
.LBB103_20:
	movs	r0, #2
.LBB103_21:
	bl	tlsf_c.call_fault.CallFault.refusal
	add	sp, #28
	pop	{r4, r5, r6, r7, pc}
.Lfunc_end103:
	.size	tlsf_pools_write, .Lfunc_end103-tlsf_pools_write
	.cfi_endproc
	.type	.Lstatic.0,%object
	.section	.rodata.cst8,"aM",%progbits,8
.Lstatic.0:
	.zero	8
	.size	.Lstatic.0, 8
	.type	.Lswitch.table.tlsf_queue_take,%object
	.section	.rodata..Lswitch.table.tlsf_queue_take,"a",%progbits
	.p2align	2, 0x0
.Lswitch.table.tlsf_queue_take:
	.long	32
	.long	36
	.long	40
	.long	5
	.long	6
	.long	33
	.long	34
	.long	8
	.long	35
	.long	37
	.long	38
	.size	.Lswitch.table.tlsf_queue_take, 44
	.ident	"rattle logic=dac8208d650f15bf3e2dc313a14fa4c783a3acf887bdfab66e1714b038d9e11b"
	.section	".note.GNU-stack","",%progbits
/* The calls in C: c/pointers.c. */
	.syntax	unified
	.eabi_attribute	24, 1
	.eabi_attribute	25, 1
	.section	.text.tlsf_rounded,"ax",%progbits
	.globl	tlsf_rounded
	.p2align	1
	.type	tlsf_rounded,%function
	.code	16
	.thumb_func
tlsf_rounded:
	.cfi_sections .debug_frame
	.cfi_startproc
	movs	r1, #0
	movs	r2, #15
	mvns	r2, r2
	cmp	r0, r2
	bls	.Lp_BB0_2
	mvns	r0, r1
	bx	lr
.Lp_BB0_2:
	cmp	r0, #0
	bne	.Lp_BB0_4
	movs	r1, #8
.Lp_BB0_4:
	adds	r0, r0, #7
	movs	r2, #7
	bics	r0, r2
	orrs	r0, r1
	bx	lr
.Lp_func_end0:
	.size	tlsf_rounded, .Lp_func_end0-tlsf_rounded
	.cfi_endproc
	.section	.text.tlsf_place_of,"ax",%progbits
	.globl	tlsf_place_of
	.p2align	1
	.type	tlsf_place_of,%function
	.code	16
	.thumb_func
tlsf_place_of:
	.cfi_startproc
	ldr	r0, [r0, #16]
	subs	r0, r1, r0
	subs	r0, #24
	lsls	r1, r0, #29
	beq	.Lp_BB1_2
	movs	r0, #0
	mvns	r0, r0
	bx	lr
.Lp_BB1_2:
	lsrs	r0, r0, #3
	bx	lr
.Lp_func_end1:
	.size	tlsf_place_of, .Lp_func_end1-tlsf_place_of
	.cfi_endproc
	.section	.text.tlsf_near,"ax",%progbits
	.globl	tlsf_near
	.p2align	1
	.type	tlsf_near,%function
	.code	16
	.thumb_func
tlsf_near:
	.cfi_startproc
	rsbs	r1, r0, #0
	movs	r2, #63
	ands	r2, r1
	adds	r0, r0, r2
	bx	lr
.Lp_func_end2:
	.size	tlsf_near, .Lp_func_end2-tlsf_near
	.cfi_endproc
	.section	.text.tlsf_base,"ax",%progbits
	.globl	tlsf_base
	.p2align	1
	.type	tlsf_base,%function
	.code	16
	.thumb_func
tlsf_base:
	.cfi_startproc
	ldrb	r1, [r0, #8]
	cmp	r1, #1
	bne	.Lp_BB3_2
	ldr	r0, [r0, #16]
	bx	lr
.Lp_BB3_2:
	movs	r0, #0
	bx	lr
.Lp_func_end3:
	.size	tlsf_base, .Lp_func_end3-tlsf_base
	.cfi_endproc
	.section	.text.tlsf_at,"ax",%progbits
	.globl	tlsf_at
	.p2align	1
	.type	tlsf_at,%function
	.code	16
	.thumb_func
tlsf_at:
	.cfi_startproc
	cmp	r0, #0
	beq	.Lp_BB4_2
	lsls	r1, r3, #3
	adds	r0, r0, r1
	adds	r0, #24
.Lp_BB4_2:
	bx	lr
.Lp_func_end4:
	.size	tlsf_at, .Lp_func_end4-tlsf_at
	.cfi_endproc
	.section	.text.tlsf_block_size,"ax",%progbits
	.globl	tlsf_block_size
	.p2align	1
	.type	tlsf_block_size,%function
	.code	16
	.thumb_func
tlsf_block_size:
	.cfi_startproc
	cmp	r0, #0
	beq	.Lp_BB5_2
	subs	r0, #8
	ldrb	r1, [r0]
	ldrb	r2, [r0, #1]
	lsls	r2, r2, #8
	adds	r1, r2, r1
	ldrb	r2, [r0, #2]
	lsls	r2, r2, #16
	ldrb	r0, [r0, #3]
	lsls	r0, r0, #24
	adds	r0, r0, r2
	adds	r0, r0, r1
	bx	lr
.Lp_BB5_2:
	movs	r0, #0
	bx	lr
.Lp_func_end5:
	.size	tlsf_block_size, .Lp_func_end5-tlsf_block_size
	.cfi_endproc
	.section	.text.tlsf_aligned_alloc,"ax",%progbits
	.globl	tlsf_aligned_alloc
	.p2align	2
	.type	tlsf_aligned_alloc,%function
	.code	16
	.thumb_func
tlsf_aligned_alloc:
	.cfi_startproc
	push	{r4, r5, r7, lr}
	.cfi_def_cfa_offset 16
	.cfi_offset lr, -4
	.cfi_offset r7, -8
	.cfi_offset r5, -12
	.cfi_offset r4, -16
	sub	sp, #24
	.cfi_def_cfa_offset 40
	mov	r3, r1
	mov	r4, r0
	subs	r0, r1, #1
	eors	r1, r0
	cmp	r1, r0
	bls	.Lp_BB6_6
	movs	r1, #1
	lsls	r1, r1, #27
	cmp	r3, r1
	bhi	.Lp_BB6_16
	cmp	r2, r1
	bhi	.Lp_BB6_16
	ldrb	r1, [r4, #29]
	cmp	r1, #9
	bhs	.Lp_BB6_17
	cmp	r2, #0
	beq	.Lp_BB6_8
	movs	r1, #0
	b	.Lp_BB6_9
.Lp_BB6_6:
	movs	r0, #5
.Lp_BB6_7:
	str	r0, [sp, #12]
	movs	r0, #0
	str	r0, [sp, #8]
	b	.Lp_BB6_12
.Lp_BB6_8:
	movs	r1, #8
.Lp_BB6_9:
	adds	r5, r2, #7
	ldr	r2, .Lp_CPI6_0
	ands	r2, r5
	orrs	r2, r1
	cmp	r3, #8
	bhi	.Lp_BB6_11
	add	r0, sp, #8
	mov	r1, r4
	bl	tlsf_allocate_place
	b	.Lp_BB6_12
.Lp_BB6_11:
	ldr	r1, [r4, #16]
	ands	r0, r1
	lsrs	r0, r0, #3
	str	r0, [sp]
	lsrs	r3, r3, #3
	add	r0, sp, #8
	mov	r1, r4
	bl	tlsf_allocate_aligned
.Lp_BB6_12:
	ldr	r0, [sp, #12]
	cmp	r0, #0
	beq	.Lp_BB6_14
	movs	r0, #0
	b	.Lp_BB6_15
.Lp_BB6_14:
	ldr	r0, [sp, #8]
	lsls	r0, r0, #3
	ldr	r1, [r4, #16]
	adds	r0, r1, r0
	adds	r0, #24
.Lp_BB6_15:
	add	sp, #24
	pop	{r4, r5, r7, pc}
.Lp_BB6_16:
	mov	r0, r4
	bl	tlsf_too_long
	b	.Lp_BB6_7
.Lp_BB6_17:
	add	r0, sp, #8
	mov	r1, r4
	bl	tlsf_mixed_place
	b	.Lp_BB6_12
	.p2align	2
.Lp_CPI6_0:
	.long	536870904
.Lp_func_end6:
	.size	tlsf_aligned_alloc, .Lp_func_end6-tlsf_aligned_alloc
	.cfi_endproc
	.section	.text.tlsf_malloc,"ax",%progbits
	.globl	tlsf_malloc
	.p2align	2
	.type	tlsf_malloc,%function
	.code	16
	.thumb_func
tlsf_malloc:
	.cfi_startproc
	push	{r4, r5, r7, lr}
	.cfi_def_cfa_offset 16
	.cfi_offset lr, -4
	.cfi_offset r7, -8
	.cfi_offset r5, -12
	.cfi_offset r4, -16
	sub	sp, #16
	.cfi_def_cfa_offset 32
	mov	r4, r0
	ldrb	r0, [r0, #29]
	cmp	r0, #9
	bhs	.Lp_BB7_7
	movs	r0, #1
	lsls	r0, r0, #27
	movs	r5, #0
	cmp	r1, r0
	bhi	.Lp_BB7_8
	cmp	r1, #0
	beq	.Lp_BB7_4
	mov	r0, r5
	b	.Lp_BB7_5
.Lp_BB7_4:
	movs	r0, #8
.Lp_BB7_5:
	adds	r1, r1, #7
	ldr	r2, .Lp_CPI7_0
	ands	r2, r1
	orrs	r2, r0
	mov	r0, sp
	mov	r1, r4
	bl	tlsf_allocate_place
	ldr	r0, [sp, #4]
	cmp	r0, #0
	bne	.Lp_BB7_8
	ldr	r0, [sp]
	lsls	r0, r0, #3
	ldr	r1, [r4, #16]
	adds	r5, r1, r0
	adds	r5, #24
	b	.Lp_BB7_8
.Lp_BB7_7:
	mov	r0, r4
	bl	tlsf_malloc_mixed
	mov	r5, r0
.Lp_BB7_8:
	mov	r0, r5
	add	sp, #16
	pop	{r4, r5, r7, pc}
	.p2align	2
.Lp_CPI7_0:
	.long	536870904
.Lp_func_end7:
	.size	tlsf_malloc, .Lp_func_end7-tlsf_malloc
	.cfi_endproc
	.section	.text.unlikely.tlsf_malloc_mixed,"ax",%progbits
	.p2align	1
	.type	tlsf_malloc_mixed,%function
	.code	16
	.thumb_func
tlsf_malloc_mixed:
	.cfi_startproc
	push	{r7, lr}
	.cfi_def_cfa_offset 8
	.cfi_offset lr, -4
	.cfi_offset r7, -8
	bl	tlsf_malloc_own
	pop	{r7, pc}
.Lp_func_end8:
	.size	tlsf_malloc_mixed, .Lp_func_end8-tlsf_malloc_mixed
	.cfi_endproc
	.section	.text.tlsf_words_for,"ax",%progbits
	.globl	tlsf_words_for
	.p2align	2
	.type	tlsf_words_for,%function
	.code	16
	.thumb_func
tlsf_words_for:
	.cfi_startproc
	push	{r4, r5, r7, lr}
	.cfi_def_cfa_offset 16
	.cfi_offset lr, -4
	.cfi_offset r7, -8
	.cfi_offset r5, -12
	.cfi_offset r4, -16
	cmp	r3, #16
	bhi	.Lp_BB9_2
	movs	r3, #16
.Lp_BB9_2:
	movs	r4, #1
	lsls	r4, r4, #27
	cmp	r3, r4
	blo	.Lp_BB9_4
	mov	r3, r4
.Lp_BB9_4:
	cmp	r2, #0
	beq	.Lp_BB9_6
	movs	r5, #0
	b	.Lp_BB9_7
.Lp_BB9_6:
	movs	r5, #8
.Lp_BB9_7:
	cmp	r2, r4
	blo	.Lp_BB9_9
	mov	r2, r4
.Lp_BB9_9:
	adds	r2, r2, #7
	ldr	r4, .Lp_CPI9_0
	ands	r4, r2
	orrs	r4, r5
	adds	r2, r3, r4
	adds	r2, #32
	ldr	r3, [sp, #16]
	bl	tlsf_words
	pop	{r4, r5, r7, pc}
	.p2align	2
.Lp_CPI9_0:
	.long	536870904
.Lp_func_end9:
	.size	tlsf_words_for, .Lp_func_end9-tlsf_words_for
	.cfi_endproc
	.section	.text.tlsf_calloc,"ax",%progbits
	.globl	tlsf_calloc
	.p2align	1
	.type	tlsf_calloc,%function
	.code	16
	.thumb_func
tlsf_calloc:
	.cfi_startproc
	push	{r4, r5, r6, r7, lr}
	.cfi_def_cfa_offset 20
	.cfi_offset lr, -4
	.cfi_offset r7, -8
	.cfi_offset r6, -12
	.cfi_offset r5, -16
	.cfi_offset r4, -20
	sub	sp, #20
	.cfi_def_cfa_offset 40
	mov	r7, r2
	mov	r5, r1
	mov	r4, r0
	movs	r6, #0
	str	r6, [sp, #12]
	str	r6, [sp, #8]
	str	r6, [sp, #4]
	str	r6, [sp]
	cmp	r2, #0
	beq	.Lp_BB10_2
	movs	r0, #1
	lsls	r0, r0, #27
	mov	r1, r7
	bl	__aeabi_uidiv
	cmp	r5, r0
	bhi	.Lp_BB10_13
.Lp_BB10_2:
	muls	r5, r7, r5
	ldrb	r0, [r4, #29]
	cmp	r0, #9
	bhs	.Lp_BB10_5
	movs	r0, #0
	movs	r1, #15
	mvns	r1, r1
	cmp	r5, r1
	bls	.Lp_BB10_7
	mvns	r1, r0
	b	.Lp_BB10_10
.Lp_BB10_5:
	mov	r0, r4
	mov	r1, r5
	bl	tlsf_malloc
	cmp	r0, #0
	beq	.Lp_BB10_13
	mov	r4, r0
	movs	r1, #0
	mov	r2, r5
	bl	memset
	mov	r6, r4
	b	.Lp_BB10_13
.Lp_BB10_7:
	cmp	r5, #0
	bne	.Lp_BB10_9
	movs	r0, #8
.Lp_BB10_9:
	adds	r1, r5, #7
	movs	r2, #7
	bics	r1, r2
	orrs	r1, r0
.Lp_BB10_10:
	mov	r2, sp
	mov	r0, r4
	bl	tlsf_allocate
	cmp	r0, #0
	beq	.Lp_BB10_12
	movs	r6, #0
	b	.Lp_BB10_13
.Lp_BB10_12:
	ldr	r0, [sp, #4]
	lsls	r0, r0, #3
	ldr	r1, [r4, #16]
	adds	r6, r1, r0
	adds	r6, #24
.Lp_BB10_13:
	mov	r0, r6
	add	sp, #20
	pop	{r4, r5, r6, r7, pc}
.Lp_func_end10:
	.size	tlsf_calloc, .Lp_func_end10-tlsf_calloc
	.cfi_endproc
	.section	.text.tlsf_free,"ax",%progbits
	.globl	tlsf_free
	.p2align	1
	.type	tlsf_free,%function
	.code	16
	.thumb_func
tlsf_free:
	.cfi_startproc
	push	{r7, lr}
	.cfi_def_cfa_offset 8
	.cfi_offset lr, -4
	.cfi_offset r7, -8
	cmp	r1, #0
	beq	.Lp_BB11_3
	ldr	r2, [r0, #16]
	subs	r1, r1, r2
	subs	r1, #24
	lsls	r2, r1, #29
	beq	.Lp_BB11_4
	movs	r1, #0
	mvns	r1, r1
	b	.Lp_BB11_5
.Lp_BB11_3:
	movs	r0, #0
	pop	{r7, pc}
.Lp_BB11_4:
	lsrs	r1, r1, #3
.Lp_BB11_5:
	bl	tlsf_release_place
	pop	{r7, pc}
.Lp_func_end11:
	.size	tlsf_free, .Lp_func_end11-tlsf_free
	.cfi_endproc
	.section	.text.tlsf_usable_size,"ax",%progbits
	.globl	tlsf_usable_size
	.p2align	1
	.type	tlsf_usable_size,%function
	.code	16
	.thumb_func
tlsf_usable_size:
	.cfi_startproc
	push	{r4, lr}
	.cfi_def_cfa_offset 8
	.cfi_offset lr, -4
	.cfi_offset r4, -8
	sub	sp, #24
	.cfi_def_cfa_offset 32
	movs	r4, #0
	str	r4, [sp, #20]
	str	r4, [sp, #16]
	str	r4, [sp, #12]
	str	r4, [sp, #8]
	str	r4, [sp, #4]
	ldr	r2, [r0, #16]
	subs	r1, r1, r2
	subs	r1, #24
	lsls	r2, r1, #29
	beq	.Lp_BB12_2
	mvns	r1, r4
	b	.Lp_BB12_3
.Lp_BB12_2:
	lsrs	r1, r1, #3
.Lp_BB12_3:
	add	r2, sp, #8
	add	r3, sp, #4
	bl	tlsf_place
	cmp	r0, #0
	bne	.Lp_BB12_5
	ldr	r4, [sp, #4]
.Lp_BB12_5:
	mov	r0, r4
	add	sp, #24
	pop	{r4, pc}
.Lp_func_end12:
	.size	tlsf_usable_size, .Lp_func_end12-tlsf_usable_size
	.cfi_endproc
	.section	.text.tlsf_name_at,"ax",%progbits
	.globl	tlsf_name_at
	.p2align	1
	.type	tlsf_name_at,%function
	.code	16
	.thumb_func
tlsf_name_at:
	.cfi_startproc
	push	{r4, r5, r6, lr}
	.cfi_def_cfa_offset 16
	.cfi_offset lr, -4
	.cfi_offset r6, -8
	.cfi_offset r5, -12
	.cfi_offset r4, -16
	sub	sp, #24
	.cfi_def_cfa_offset 40
	mov	r4, r2
	movs	r2, #0
	str	r2, [sp, #20]
	str	r2, [sp, #16]
	str	r2, [sp, #12]
	str	r2, [sp, #8]
	str	r2, [sp, #4]
	ldr	r3, [r0, #16]
	subs	r1, r1, r3
	subs	r1, #24
	lsls	r3, r1, #29
	beq	.Lp_BB13_2
	mvns	r1, r2
	b	.Lp_BB13_3
.Lp_BB13_2:
	lsrs	r1, r1, #3
.Lp_BB13_3:
	add	r2, sp, #8
	add	r3, sp, #4
	bl	tlsf_place
	cmp	r0, #0
	bne	.Lp_BB13_5
	add	r1, sp, #8
	ldm	r1!, {r2, r3, r5, r6}
	stm	r4!, {r2, r3, r5, r6}
.Lp_BB13_5:
	add	sp, #24
	pop	{r4, r5, r6, pc}
.Lp_func_end13:
	.size	tlsf_name_at, .Lp_func_end13-tlsf_name_at
	.cfi_endproc
	.section	.text.tlsf_realloc,"ax",%progbits
	.globl	tlsf_realloc
	.p2align	2
	.type	tlsf_realloc,%function
	.code	16
	.thumb_func
tlsf_realloc:
	.cfi_startproc
	push	{r4, r5, r7, lr}
	.cfi_def_cfa_offset 16
	.cfi_offset lr, -4
	.cfi_offset r7, -8
	.cfi_offset r5, -12
	.cfi_offset r4, -16
	sub	sp, #8
	.cfi_def_cfa_offset 24
	mov	r4, r0
	cmp	r1, #0
	beq	.Lp_BB14_4
	cmp	r2, #0
	beq	.Lp_BB14_6
	movs	r0, #1
	lsls	r0, r0, #27
	cmp	r2, r0
	bls	.Lp_BB14_8
	movs	r5, #0
	b	.Lp_BB14_16
.Lp_BB14_4:
	mov	r0, r4
	mov	r1, r2
	bl	tlsf_malloc
.Lp_BB14_5:
	mov	r5, r0
	b	.Lp_BB14_16
.Lp_BB14_6:
	ldr	r0, [r4, #16]
	subs	r0, r1, r0
	subs	r0, #24
	movs	r5, #0
	lsls	r1, r0, #29
	beq	.Lp_BB14_11
	mvns	r1, r5
	b	.Lp_BB14_12
.Lp_BB14_8:
	ldrb	r0, [r4, #29]
	cmp	r0, #9
	bhs	.Lp_BB14_17
	ldr	r0, [r4, #16]
	subs	r0, r1, r0
	subs	r0, #24
	movs	r5, #0
	lsls	r1, r0, #29
	beq	.Lp_BB14_13
	mvns	r1, r5
	b	.Lp_BB14_14
.Lp_BB14_11:
	lsrs	r1, r0, #3
.Lp_BB14_12:
	mov	r0, r4
	bl	tlsf_release_place
	b	.Lp_BB14_16
.Lp_BB14_13:
	lsrs	r1, r0, #3
.Lp_BB14_14:
	str	r1, [sp, #4]
	adds	r0, r2, #7
	ldr	r2, .Lp_CPI14_0
	ands	r2, r0
	add	r3, sp, #4
	mov	r0, r4
	bl	tlsf_resize_place
	cmp	r0, #0
	bne	.Lp_BB14_16
	ldr	r0, [sp, #4]
	lsls	r0, r0, #3
	ldr	r1, [r4, #16]
	adds	r5, r1, r0
	adds	r5, #24
.Lp_BB14_16:
	mov	r0, r5
	add	sp, #8
	pop	{r4, r5, r7, pc}
.Lp_BB14_17:
	mov	r0, r4
	bl	tlsf_realloc_mixed
	b	.Lp_BB14_5
	.p2align	2
.Lp_CPI14_0:
	.long	536870904
.Lp_func_end14:
	.size	tlsf_realloc, .Lp_func_end14-tlsf_realloc
	.cfi_endproc
	.section	.text.unlikely.tlsf_realloc_mixed,"ax",%progbits
	.p2align	1
	.type	tlsf_realloc_mixed,%function
	.code	16
	.thumb_func
tlsf_realloc_mixed:
	.cfi_startproc
	push	{r4, r5, r6, r7, lr}
	.cfi_def_cfa_offset 20
	.cfi_offset lr, -4
	.cfi_offset r7, -8
	.cfi_offset r6, -12
	.cfi_offset r5, -16
	.cfi_offset r4, -20
	sub	sp, #68
	.cfi_def_cfa_offset 88
	mov	r6, r2
	mov	r7, r1
	mov	r4, r0
	add	r0, sp, #16
	movs	r5, #0
	movs	r2, #24
	mov	r1, r5
	bl	memset
	ldrb	r0, [r4, #29]
	cmp	r0, #0
	bne	.Lp_BB15_2
	movs	r0, #8
.Lp_BB15_2:
	rsbs	r1, r0, #0
	str	r6, [sp, #12]
	adds	r6, r6, r0
	adds	r6, #23
	ands	r6, r1
	ldr	r1, [r4, #16]
	str	r7, [sp, #8]
	subs	r1, r7, r1
	subs	r1, #24
	lsls	r2, r1, #29
	beq	.Lp_BB15_4
	mvns	r7, r5
	b	.Lp_BB15_5
.Lp_BB15_4:
	lsrs	r7, r1, #3
.Lp_BB15_5:
	subs	r6, #24
	cmp	r0, #8
	bne	.Lp_BB15_8
	str	r7, [sp, #40]
	add	r3, sp, #40
	mov	r0, r4
	mov	r1, r7
	mov	r2, r6
	bl	tlsf_resize_place
	cmp	r0, #0
	beq	.Lp_BB15_22
.Lp_BB15_7:
	movs	r5, #0
	b	.Lp_BB15_23
.Lp_BB15_8:
	add	r2, sp, #16
	mov	r0, r4
	mov	r1, r7
	bl	tlsf_block_at
	cmp	r0, #0
	bne	.Lp_BB15_21
	ldr	r0, [sp, #24]
	cmp	r0, #0
	beq	.Lp_BB15_21
	ldr	r0, [sp, #20]
	str	r0, [sp, #4]
	add	r0, sp, #40
	movs	r5, #0
	movs	r2, #24
	mov	r1, r5
	bl	memset
	ldr	r3, [sp, #4]
	lsls	r0, r3, #3
	subs	r0, #24
	cmp	r0, r6
	mov	r1, r0
	blo	.Lp_BB15_12
	mov	r1, r6
.Lp_BB15_12:
	ldr	r2, [sp, #12]
	cmp	r0, r2
	blo	.Lp_BB15_14
	mov	r6, r1
.Lp_BB15_14:
	lsrs	r0, r6, #3
	adds	r0, r0, #3
	cmp	r3, r0
	bhs	.Lp_BB15_21
	str	r0, [sp]
	ldr	r0, [sp, #16]
	adds	r1, r0, r3
	add	r2, sp, #40
	mov	r0, r4
	bl	tlsf_block_at
	ldr	r1, [sp, #48]
	orrs	r1, r0
	bne	.Lp_BB15_17
	ldr	r0, [sp, #20]
	ldr	r1, [sp, #44]
	adds	r0, r1, r0
	ldr	r1, [sp]
	cmp	r0, r1
	bhs	.Lp_BB15_21
.Lp_BB15_17:
	mov	r0, r4
	ldr	r6, [sp, #12]
	mov	r1, r6
	bl	tlsf_malloc
	cmp	r0, #0
	beq	.Lp_BB15_7
	mov	r5, r0
	ldr	r2, [sp, #28]
	cmp	r2, r6
	blo	.Lp_BB15_20
	mov	r2, r6
.Lp_BB15_20:
	mov	r0, r5
	ldr	r1, [sp, #8]
	bl	memcpy
	ldr	r1, [sp, #16]
	mov	r0, r4
	bl	tlsf_release_place
	b	.Lp_BB15_23
.Lp_BB15_21:
	str	r7, [sp, #40]
	add	r3, sp, #40
	mov	r0, r4
	mov	r1, r7
	mov	r2, r6
	bl	tlsf_resize_place
	cmp	r0, #0
	bne	.Lp_BB15_23
.Lp_BB15_22:
	ldr	r0, [sp, #40]
	lsls	r0, r0, #3
	ldr	r1, [r4, #16]
	adds	r5, r1, r0
	adds	r5, #24
.Lp_BB15_23:
	mov	r0, r5
	add	sp, #68
	pop	{r4, r5, r6, r7, pc}
.Lp_func_end15:
	.size	tlsf_realloc_mixed, .Lp_func_end15-tlsf_realloc_mixed
	.cfi_endproc
	.section	.text.tlsf_aligned_realloc,"ax",%progbits
	.globl	tlsf_aligned_realloc
	.p2align	1
	.type	tlsf_aligned_realloc,%function
	.code	16
	.thumb_func
tlsf_aligned_realloc:
	.cfi_startproc
	push	{r4, r5, r6, r7, lr}
	.cfi_def_cfa_offset 20
	.cfi_offset lr, -4
	.cfi_offset r7, -8
	.cfi_offset r6, -12
	.cfi_offset r5, -16
	.cfi_offset r4, -20
	sub	sp, #76
	.cfi_def_cfa_offset 96
	mov	r7, r3
	mov	r4, r2
	cmp	r1, #0
	beq	.Lp_BB16_10
	movs	r5, #0
	cmp	r4, #0
	beq	.Lp_BB16_12
	subs	r2, r4, #1
	tst	r4, r2
	bne	.Lp_BB16_12
	mov	r6, r1
	cmp	r7, #0
	beq	.Lp_BB16_13
	movs	r1, #1
	lsls	r1, r1, #27
	cmp	r7, r1
	bhi	.Lp_BB16_12
	ldrb	r1, [r0, #29]
	cmp	r1, #0
	bne	.Lp_BB16_7
	movs	r1, #8
.Lp_BB16_7:
	ands	r2, r6
	bne	.Lp_BB16_17
	cmp	r4, r1
	bhi	.Lp_BB16_17
	mov	r1, r6
	mov	r2, r7
	bl	tlsf_realloc
	b	.Lp_BB16_11
.Lp_BB16_10:
	mov	r1, r4
	mov	r2, r7
	bl	tlsf_aligned_alloc
.Lp_BB16_11:
	mov	r5, r0
.Lp_BB16_12:
	mov	r0, r5
	add	sp, #76
	pop	{r4, r5, r6, r7, pc}
.Lp_BB16_13:
	ldr	r1, [r0, #16]
	subs	r2, r6, r1
	subs	r2, #24
	movs	r5, #0
	lsls	r1, r2, #29
	beq	.Lp_BB16_15
	mvns	r1, r5
	b	.Lp_BB16_16
.Lp_BB16_15:
	lsrs	r1, r2, #3
.Lp_BB16_16:
	bl	tlsf_release_place
	b	.Lp_BB16_12
.Lp_BB16_17:
	str	r1, [sp, #16]
	str	r2, [sp, #4]
	add	r1, sp, #24
	movs	r5, #0
	str	r0, [sp, #20]
	movs	r2, #24
	str	r1, [sp, #12]
	mov	r0, r1
	mov	r1, r5
	bl	memset
	ldr	r0, [sp, #20]
	ldr	r1, [r0, #16]
	subs	r2, r6, r1
	subs	r2, #24
	lsls	r1, r2, #29
	beq	.Lp_BB16_19
	mvns	r1, r5
	b	.Lp_BB16_20
.Lp_BB16_19:
	lsrs	r1, r2, #3
.Lp_BB16_20:
	str	r1, [sp, #8]
	ldr	r2, [sp, #12]
	bl	tlsf_block_at
	ldr	r2, [sp, #16]
	adds	r1, r7, r2
	adds	r1, #23
	rsbs	r2, r2, #0
	ands	r2, r1
	subs	r2, #24
	cmp	r0, #0
	bne	.Lp_BB16_31
	ldr	r0, [sp, #32]
	cmp	r0, #0
	beq	.Lp_BB16_31
	ldr	r3, [sp, #28]
	lsls	r0, r3, #3
	subs	r0, #24
	cmp	r0, r2
	mov	r1, r0
	blo	.Lp_BB16_24
	mov	r1, r2
.Lp_BB16_24:
	str	r2, [sp, #16]
	cmp	r0, r7
	ldr	r0, [sp, #20]
	ldr	r2, [sp, #4]
	blo	.Lp_BB16_26
	str	r1, [sp, #16]
.Lp_BB16_26:
	cmp	r2, #0
	beq	.Lp_BB16_33
.Lp_BB16_27:
	mov	r1, r4
	mov	r2, r7
	bl	tlsf_aligned_alloc
	cmp	r0, #0
	beq	.Lp_BB16_12
	mov	r4, r0
	ldr	r2, [sp, #36]
	cmp	r2, r7
	blo	.Lp_BB16_30
	mov	r2, r7
.Lp_BB16_30:
	mov	r0, r4
	mov	r1, r6
	bl	memcpy
	ldr	r1, [sp, #24]
	ldr	r0, [sp, #20]
	bl	tlsf_release_place
	mov	r5, r4
	b	.Lp_BB16_12
.Lp_BB16_31:
	ldr	r1, [sp, #8]
	str	r1, [sp, #48]
	add	r3, sp, #48
	ldr	r4, [sp, #20]
	mov	r0, r4
	bl	tlsf_resize_place
	cmp	r0, #0
	beq	.Lp_BB16_38
	movs	r5, #0
	b	.Lp_BB16_12
.Lp_BB16_33:
	add	r0, sp, #48
	movs	r1, #0
	movs	r2, #24
	str	r1, [sp, #4]
	str	r3, [sp, #12]
	bl	memset
	ldr	r1, [sp, #12]
	ldr	r0, [sp, #16]
	lsrs	r0, r0, #3
	adds	r0, r0, #3
	cmp	r1, r0
	bhs	.Lp_BB16_36
	str	r0, [sp]
	ldr	r0, [sp, #24]
	adds	r1, r0, r1
	add	r2, sp, #48
	ldr	r0, [sp, #20]
	bl	tlsf_block_at
	ldr	r1, [sp, #56]
	orrs	r1, r0
	bne	.Lp_BB16_39
	ldr	r0, [sp, #28]
	ldr	r1, [sp, #52]
	adds	r0, r1, r0
	ldr	r1, [sp]
	cmp	r0, r1
	ldr	r0, [sp, #20]
	blo	.Lp_BB16_27
	b	.Lp_BB16_37
.Lp_BB16_36:
	ldr	r0, [sp, #20]
.Lp_BB16_37:
	ldr	r1, [sp, #8]
	str	r1, [sp, #48]
	add	r3, sp, #48
	mov	r4, r0
	ldr	r2, [sp, #16]
	bl	tlsf_resize_place
	cmp	r0, #0
	ldr	r5, [sp, #4]
	beq	.Lp_BB16_38
	b	.Lp_BB16_12
.Lp_BB16_38:
	ldr	r0, [sp, #48]
	lsls	r0, r0, #3
	ldr	r1, [r4, #16]
	adds	r5, r1, r0
	adds	r5, #24
	b	.Lp_BB16_12
.Lp_BB16_39:
	ldr	r0, [sp, #20]
	b	.Lp_BB16_27
.Lp_func_end16:
	.size	tlsf_aligned_realloc, .Lp_func_end16-tlsf_aligned_realloc
	.cfi_endproc
	.section	.text.tlsf_allocate_at,"ax",%progbits
	.globl	tlsf_allocate_at
	.p2align	2
	.type	tlsf_allocate_at,%function
	.code	16
	.thumb_func
tlsf_allocate_at:
	.cfi_startproc
	push	{r4, r5, r6, r7, lr}
	.cfi_def_cfa_offset 20
	.cfi_offset lr, -4
	.cfi_offset r7, -8
	.cfi_offset r6, -12
	.cfi_offset r5, -16
	.cfi_offset r4, -20
	sub	sp, #52
	.cfi_def_cfa_offset 72
	mov	r5, r1
	mov	r4, r0
	subs	r0, r2, #1
	mov	r1, r2
	eors	r1, r0
	cmp	r1, r0
	str	r3, [sp, #28]
	bls	.Lp_BB17_6
	movs	r1, #1
	lsls	r1, r1, #27
	cmp	r5, r1
	bhi	.Lp_BB17_20
	mov	r7, r2
	cmp	r2, r1
	bhi	.Lp_BB17_20
	ldrb	r1, [r4, #29]
	cmp	r1, #9
	bhs	.Lp_BB17_21
	cmp	r5, #0
	beq	.Lp_BB17_7
	movs	r1, #0
	b	.Lp_BB17_8
.Lp_BB17_6:
	movs	r0, #0
	str	r0, [sp, #44]
	str	r0, [sp, #40]
	movs	r1, #5
	str	r1, [sp, #36]
	str	r0, [sp, #32]
	b	.Lp_BB17_11
.Lp_BB17_7:
	movs	r1, #8
.Lp_BB17_8:
	adds	r6, r5, #7
	ldr	r2, .Lp_CPI17_0
	ands	r2, r6
	orrs	r2, r1
	cmp	r7, #8
	bhi	.Lp_BB17_10
	add	r0, sp, #32
	mov	r1, r4
	bl	tlsf_allocate_place
	b	.Lp_BB17_11
.Lp_BB17_10:
	ldr	r1, [r4, #16]
	ands	r0, r1
	lsrs	r0, r0, #3
	str	r0, [sp]
	lsrs	r3, r7, #3
	add	r0, sp, #32
	mov	r1, r4
	bl	tlsf_allocate_aligned
.Lp_BB17_11:
	ldr	r7, [sp, #36]
	cmp	r7, #0
	bne	.Lp_BB17_19
	str	r5, [sp, #20]
	ldr	r2, [sp, #76]
	ldr	r6, [sp, #72]
	ldr	r3, [r4, #24]
	ldr	r1, [sp, #44]
	ldr	r0, [sp, #40]
	str	r0, [sp, #24]
	mov	r5, r4
	ldr	r4, [sp, #32]
	ldr	r0, [sp, #28]
	lsls	r0, r0, #31
	mov	r0, r4
	bne	.Lp_BB17_18
	str	r5, [sp, #28]
	ldr	r5, [sp, #20]
	cmp	r5, #1
	bhi	.Lp_BB17_15
	movs	r5, #1
.Lp_BB17_15:
	ldr	r0, [sp, #28]
	ldrb	r0, [r0, #29]
	cmp	r0, #0
	str	r2, [sp, #16]
	str	r1, [sp, #12]
	str	r3, [sp, #8]
	bne	.Lp_BB17_17
	movs	r0, #8
.Lp_BB17_17:
	adds	r1, r5, r0
	adds	r1, #23
	rsbs	r2, r0, #0
	ands	r2, r1
	subs	r2, #24
	lsls	r0, r4, #3
	ldr	r5, [sp, #28]
	ldr	r1, [r5, #16]
	adds	r0, r1, r0
	adds	r0, #24
	movs	r1, #0
	bl	memset
	ldr	r0, [sp, #32]
	ldr	r2, [sp, #16]
	ldr	r1, [sp, #12]
	ldr	r3, [sp, #8]
.Lp_BB17_18:
	stm	r6!, {r3, r4}
	ldr	r3, [sp, #24]
	str	r3, [r6]
	str	r1, [r6, #4]
	lsls	r0, r0, #3
	ldr	r1, [r5, #16]
	adds	r0, r1, r0
	adds	r0, #24
	str	r0, [r2]
.Lp_BB17_19:
	mov	r0, r7
	add	sp, #52
	pop	{r4, r5, r6, r7, pc}
.Lp_BB17_20:
	mov	r0, r4
	bl	tlsf_too_long
	movs	r1, #0
	str	r1, [sp, #44]
	str	r1, [sp, #40]
	str	r0, [sp, #36]
	str	r1, [sp, #32]
	b	.Lp_BB17_11
.Lp_BB17_21:
	add	r0, sp, #32
	mov	r1, r4
	mov	r2, r5
	mov	r3, r7
	bl	tlsf_mixed_place
	b	.Lp_BB17_11
	.p2align	2
.Lp_CPI17_0:
	.long	536870904
.Lp_func_end17:
	.size	tlsf_allocate_at, .Lp_func_end17-tlsf_allocate_at
	.cfi_endproc
	.section	.text.tlsf_payload,"ax",%progbits
	.globl	tlsf_payload
	.p2align	1
	.type	tlsf_payload,%function
	.code	16
	.thumb_func
tlsf_payload:
	.cfi_startproc
	push	{r4, r5, r7, lr}
	.cfi_def_cfa_offset 16
	.cfi_offset lr, -4
	.cfi_offset r7, -8
	.cfi_offset r5, -12
	.cfi_offset r4, -16
	sub	sp, #24
	.cfi_def_cfa_offset 40
	mov	r4, r3
	movs	r5, #0
	str	r5, [sp, #20]
	str	r5, [sp, #16]
	add	r1, sp, #16
	str	r1, [sp, #12]
	add	r1, sp, #20
	str	r1, [sp, #8]
	ldr	r1, [sp, #44]
	str	r1, [sp, #4]
	ldr	r1, [sp, #40]
	str	r1, [sp]
	bl	tlsf_locate
	cmp	r0, #0
	bne	.Lp_BB18_4
	ldr	r0, [sp, #48]
	cmp	r0, #0
	beq	.Lp_BB18_3
	ldr	r1, [sp, #16]
	str	r1, [r0]
.Lp_BB18_3:
	lsls	r0, r4, #3
	ldr	r1, [sp, #20]
	adds	r5, r1, r0
	adds	r5, #24
.Lp_BB18_4:
	mov	r0, r5
	add	sp, #24
	pop	{r4, r5, r7, pc}
.Lp_func_end18:
	.size	tlsf_payload, .Lp_func_end18-tlsf_payload
	.cfi_endproc
	.section	.text.tlsf_pools_name_at,"ax",%progbits
	.globl	tlsf_pools_name_at
	.p2align	1
	.type	tlsf_pools_name_at,%function
	.code	16
	.thumb_func
tlsf_pools_name_at:
	.cfi_startproc
	push	{r4, r5, r6, r7, lr}
	.cfi_def_cfa_offset 20
	.cfi_offset lr, -4
	.cfi_offset r7, -8
	.cfi_offset r6, -12
	.cfi_offset r5, -16
	.cfi_offset r4, -20
	sub	sp, #28
	.cfi_def_cfa_offset 48
	mov	r5, r2
	mov	r7, r1
	movs	r6, #0
	str	r6, [sp, #16]
	str	r6, [sp, #24]
	str	r6, [sp, #20]
	add	r2, sp, #20
	add	r3, sp, #24
	str	r0, [sp, #12]
	mov	r1, r6
	bl	tlsf_pools_part
	cmp	r0, #0
	mov	r4, r6
	str	r6, [sp, #8]
	bne	.Lp_BB19_7
	str	r5, [sp, #4]
	movs	r4, #0
	mov	r5, r4
	mov	r6, r4
.Lp_BB19_2:
	ldr	r0, [sp, #20]
	cmp	r6, #0
	beq	.Lp_BB19_4
	subs	r1, r7, r4
	subs	r2, r7, r0
	cmp	r2, r1
	bhi	.Lp_BB19_5
.Lp_BB19_4:
	mov	r4, r0
	mov	r5, r6
.Lp_BB19_5:
	adds	r6, r6, #1
	add	r2, sp, #20
	add	r3, sp, #24
	ldr	r0, [sp, #12]
	mov	r1, r6
	bl	tlsf_pools_part
	cmp	r0, #0
	beq	.Lp_BB19_2
	ldr	r0, [sp, #4]
	mov	r6, r5
	mov	r5, r0
.Lp_BB19_7:
	add	r0, sp, #16
	str	r0, [sp]
	subs	r0, r7, r4
	subs	r0, #24
	lsls	r1, r0, #29
	beq	.Lp_BB19_9
	ldr	r0, [sp, #8]
	mvns	r2, r0
	b	.Lp_BB19_10
.Lp_BB19_9:
	lsrs	r2, r0, #3
.Lp_BB19_10:
	ldr	r0, [sp, #12]
	mov	r1, r6
	mov	r3, r5
	bl	tlsf_pools_place
	add	sp, #28
	pop	{r4, r5, r6, r7, pc}
.Lp_func_end19:
	.size	tlsf_pools_name_at, .Lp_func_end19-tlsf_pools_name_at
	.cfi_endproc
	.section	.text.tlsf_pools_usable_size,"ax",%progbits
	.globl	tlsf_pools_usable_size
	.p2align	1
	.type	tlsf_pools_usable_size,%function
	.code	16
	.thumb_func
tlsf_pools_usable_size:
	.cfi_startproc
	push	{r4, r5, r6, r7, lr}
	.cfi_def_cfa_offset 20
	.cfi_offset lr, -4
	.cfi_offset r7, -8
	.cfi_offset r6, -12
	.cfi_offset r5, -16
	.cfi_offset r4, -20
	sub	sp, #44
	.cfi_def_cfa_offset 64
	mov	r6, r1
	mov	r5, r0
	movs	r7, #0
	str	r7, [sp, #28]
	str	r7, [sp, #24]
	str	r7, [sp, #20]
	str	r7, [sp, #16]
	str	r7, [sp, #12]
	str	r7, [sp, #40]
	str	r7, [sp, #36]
	add	r2, sp, #36
	add	r3, sp, #40
	mov	r1, r7
	bl	tlsf_pools_part
	cmp	r0, #0
	mov	r4, r7
	str	r7, [sp, #8]
	bne	.Lp_BB20_7
	str	r7, [sp, #4]
	movs	r4, #0
	str	r4, [sp, #8]
	mov	r7, r4
.Lp_BB20_2:
	ldr	r0, [sp, #36]
	cmp	r7, #0
	beq	.Lp_BB20_4
	subs	r1, r6, r4
	subs	r2, r6, r0
	cmp	r2, r1
	bhi	.Lp_BB20_5
.Lp_BB20_4:
	mov	r4, r0
	str	r7, [sp, #8]
.Lp_BB20_5:
	adds	r7, r7, #1
	add	r2, sp, #36
	add	r3, sp, #40
	mov	r0, r5
	mov	r1, r7
	bl	tlsf_pools_part
	cmp	r0, #0
	beq	.Lp_BB20_2
	ldr	r7, [sp, #4]
.Lp_BB20_7:
	add	r0, sp, #12
	str	r0, [sp]
	subs	r0, r6, r4
	subs	r0, #24
	lsls	r1, r0, #29
	beq	.Lp_BB20_9
	mvns	r2, r7
	b	.Lp_BB20_10
.Lp_BB20_9:
	lsrs	r2, r0, #3
.Lp_BB20_10:
	ldr	r1, [sp, #8]
	add	r3, sp, #16
	mov	r0, r5
	bl	tlsf_pools_place
	cmp	r0, #0
	bne	.Lp_BB20_12
	ldr	r7, [sp, #12]
.Lp_BB20_12:
	mov	r0, r7
	add	sp, #44
	pop	{r4, r5, r6, r7, pc}
.Lp_func_end20:
	.size	tlsf_pools_usable_size, .Lp_func_end20-tlsf_pools_usable_size
	.cfi_endproc
	.section	.text.tlsf_pools_free,"ax",%progbits
	.globl	tlsf_pools_free
	.p2align	1
	.type	tlsf_pools_free,%function
	.code	16
	.thumb_func
tlsf_pools_free:
	.cfi_startproc
	push	{r4, lr}
	.cfi_def_cfa_offset 8
	.cfi_offset lr, -4
	.cfi_offset r4, -8
	sub	sp, #24
	.cfi_def_cfa_offset 32
	mov	r4, r0
	movs	r0, #0
	str	r0, [sp, #20]
	str	r0, [sp, #16]
	str	r0, [sp, #12]
	str	r0, [sp, #8]
	cmp	r1, #0
	beq	.Lp_BB21_3
	add	r2, sp, #8
	mov	r0, r4
	bl	tlsf_pools_name_at
	cmp	r0, #0
	bne	.Lp_BB21_3
	ldr	r3, [sp, #12]
	ldr	r2, [sp, #8]
	ldr	r0, [sp, #16]
	ldr	r1, [sp, #20]
	str	r0, [sp]
	str	r1, [sp, #4]
	mov	r0, r4
	bl	tlsf_pools_release
.Lp_BB21_3:
	add	sp, #24
	pop	{r4, pc}
.Lp_func_end21:
	.size	tlsf_pools_free, .Lp_func_end21-tlsf_pools_free
	.cfi_endproc
	.section	.text.tlsf_pools_malloc,"ax",%progbits
	.globl	tlsf_pools_malloc
	.p2align	1
	.type	tlsf_pools_malloc,%function
	.code	16
	.thumb_func
tlsf_pools_malloc:
	.cfi_startproc
	push	{r4, r5, r7, lr}
	.cfi_def_cfa_offset 16
	.cfi_offset lr, -4
	.cfi_offset r7, -8
	.cfi_offset r5, -12
	.cfi_offset r4, -16
	sub	sp, #32
	.cfi_def_cfa_offset 48
	mov	r5, r0
	movs	r4, #0
	str	r4, [sp, #4]
	add	r2, sp, #4
	bl	tlsf_pools_row
	cmp	r0, #0
	bne	.Lp_BB22_6
	ldr	r1, [sp, #4]
	movs	r4, #0
	str	r4, [sp, #28]
	str	r4, [sp, #24]
	str	r4, [sp, #20]
	str	r4, [sp, #16]
	str	r4, [sp, #12]
	str	r4, [sp, #8]
	add	r2, sp, #16
	mov	r0, r5
	bl	tlsf_pools_allocate
	cmp	r0, #0
	bne	.Lp_BB22_6
	movs	r4, #0
	add	r2, sp, #8
	add	r3, sp, #12
	mov	r0, r5
	mov	r1, r4
	bl	tlsf_pools_part
	cmp	r0, #0
	bne	.Lp_BB22_6
	ldr	r0, [sp, #12]
	ldr	r1, [sp, #16]
	cmp	r1, r0
	beq	.Lp_BB22_5
	subs	r1, r1, r0
	add	r2, sp, #8
	add	r3, sp, #12
	mov	r0, r5
	bl	tlsf_pools_part
	cmp	r0, #0
	bne	.Lp_BB22_6
.Lp_BB22_5:
	ldr	r0, [sp, #20]
	lsls	r0, r0, #3
	ldr	r1, [sp, #8]
	adds	r4, r1, r0
	adds	r4, #24
.Lp_BB22_6:
	mov	r0, r4
	add	sp, #32
	pop	{r4, r5, r7, pc}
.Lp_func_end22:
	.size	tlsf_pools_malloc, .Lp_func_end22-tlsf_pools_malloc
	.cfi_endproc
	.section	.text.tlsf_pools_realloc,"ax",%progbits
	.globl	tlsf_pools_realloc
	.p2align	1
	.type	tlsf_pools_realloc,%function
	.code	16
	.thumb_func
tlsf_pools_realloc:
	.cfi_startproc
	push	{r4, r5, r6, r7, lr}
	.cfi_def_cfa_offset 20
	.cfi_offset lr, -4
	.cfi_offset r7, -8
	.cfi_offset r6, -12
	.cfi_offset r5, -16
	.cfi_offset r4, -20
	sub	sp, #76
	.cfi_def_cfa_offset 96
	mov	r4, r0
	movs	r5, #0
	str	r5, [sp, #44]
	str	r5, [sp, #40]
	str	r5, [sp, #36]
	str	r5, [sp, #32]
	str	r5, [sp, #28]
	str	r5, [sp, #24]
	str	r1, [sp, #20]
	cmp	r1, #0
	beq	.Lp_BB23_11
	cmp	r2, #0
	beq	.Lp_BB23_12
	str	r2, [sp, #16]
	str	r5, [sp, #56]
	str	r5, [sp, #52]
	add	r2, sp, #52
	add	r3, sp, #56
	mov	r0, r4
	mov	r1, r5
	bl	tlsf_pools_part
	cmp	r0, #0
	mov	r7, r5
	mov	r6, r5
	bne	.Lp_BB23_9
	str	r5, [sp, #12]
	mov	r5, r4
	movs	r7, #0
	mov	r6, r7
	mov	r4, r7
.Lp_BB23_4:
	ldr	r0, [sp, #52]
	cmp	r4, #0
	beq	.Lp_BB23_6
	ldr	r2, [sp, #20]
	subs	r1, r2, r7
	subs	r2, r2, r0
	cmp	r2, r1
	bhi	.Lp_BB23_7
.Lp_BB23_6:
	mov	r7, r0
	mov	r6, r4
.Lp_BB23_7:
	adds	r4, r4, #1
	add	r2, sp, #52
	add	r3, sp, #56
	mov	r0, r5
	mov	r1, r4
	bl	tlsf_pools_part
	cmp	r0, #0
	beq	.Lp_BB23_4
	mov	r4, r5
	ldr	r5, [sp, #12]
.Lp_BB23_9:
	add	r0, sp, #28
	str	r0, [sp]
	ldr	r0, [sp, #20]
	subs	r0, r0, r7
	subs	r0, #24
	lsls	r1, r0, #29
	beq	.Lp_BB23_13
	mvns	r2, r5
	b	.Lp_BB23_14
.Lp_BB23_11:
	mov	r0, r4
	mov	r1, r2
	bl	tlsf_pools_malloc
	mov	r5, r0
	b	.Lp_BB23_26
.Lp_BB23_12:
	mov	r0, r4
	ldr	r1, [sp, #20]
	bl	tlsf_pools_free
	b	.Lp_BB23_26
.Lp_BB23_13:
	lsrs	r2, r0, #3
.Lp_BB23_14:
	add	r3, sp, #32
	mov	r0, r4
	mov	r1, r6
	bl	tlsf_pools_place
	cmp	r0, #0
	bne	.Lp_BB23_26
	add	r2, sp, #24
	mov	r0, r4
	ldr	r6, [sp, #16]
	mov	r1, r6
	bl	tlsf_pools_row
	cmp	r0, #0
	bne	.Lp_BB23_26
	ldr	r0, [sp, #28]
	ldr	r1, [sp, #24]
	cmp	r6, r0
	bhi	.Lp_BB23_19
	cmp	r0, r1
	bhi	.Lp_BB23_19
	ldr	r5, [sp, #20]
	b	.Lp_BB23_26
.Lp_BB23_19:
	movs	r5, #0
	str	r5, [sp, #68]
	str	r5, [sp, #64]
	str	r5, [sp, #60]
	str	r5, [sp, #56]
	str	r5, [sp, #52]
	str	r5, [sp, #48]
	add	r2, sp, #56
	mov	r0, r4
	bl	tlsf_pools_allocate
	cmp	r0, #0
	bne	.Lp_BB23_26
	movs	r1, #0
	add	r2, sp, #48
	add	r3, sp, #52
	mov	r0, r4
	bl	tlsf_pools_part
	cmp	r0, #0
	bne	.Lp_BB23_26
	ldr	r0, [sp, #52]
	ldr	r1, [sp, #56]
	cmp	r1, r0
	beq	.Lp_BB23_23
	subs	r1, r1, r0
	add	r2, sp, #48
	add	r3, sp, #52
	mov	r0, r4
	bl	tlsf_pools_part
	cmp	r0, #0
	bne	.Lp_BB23_26
.Lp_BB23_23:
	ldr	r2, [sp, #28]
	cmp	r2, r6
	blo	.Lp_BB23_25
	mov	r2, r6
.Lp_BB23_25:
	ldr	r0, [sp, #60]
	lsls	r0, r0, #3
	ldr	r1, [sp, #48]
	adds	r5, r1, r0
	adds	r5, #24
	mov	r0, r5
	ldr	r1, [sp, #20]
	bl	memcpy
	ldr	r3, [sp, #36]
	ldr	r2, [sp, #32]
	ldr	r0, [sp, #40]
	ldr	r1, [sp, #44]
	str	r0, [sp]
	str	r1, [sp, #4]
	mov	r0, r4
	bl	tlsf_pools_release
.Lp_BB23_26:
	mov	r0, r5
	add	sp, #76
	pop	{r4, r5, r6, r7, pc}
.Lp_func_end23:
	.size	tlsf_pools_realloc, .Lp_func_end23-tlsf_pools_realloc
	.cfi_endproc
	.section	.text.tlsf_text_of,"ax",%progbits
	.globl	tlsf_text_of
	.p2align	2
	.type	tlsf_text_of,%function
	.code	16
	.thumb_func
tlsf_text_of:
	.cfi_startproc
	cmp	r0, #40
	bhi	.Lp_BB24_2
	lsls	r0, r0, #2
	ldr	r1, .Lp_CPI24_1
	ldr	r0, [r1, r0]
	bx	lr
.Lp_BB24_2:
	ldr	r0, .Lp_CPI24_0
	bx	lr
	.p2align	2
.Lp_CPI24_0:
	.long	.L.str.20
.Lp_CPI24_1:
	.long	.Lp_switch.table.tlsf_text_of
.Lp_func_end24:
	.size	tlsf_text_of, .Lp_func_end24-tlsf_text_of
	.cfi_endproc
	.section	.text.unlikely.tlsf_too_long,"ax",%progbits
	.p2align	1
	.type	tlsf_too_long,%function
	.code	16
	.thumb_func
tlsf_too_long:
	.cfi_startproc
	push	{r4, r5, r6, lr}
	.cfi_def_cfa_offset 16
	.cfi_offset lr, -4
	.cfi_offset r6, -8
	.cfi_offset r5, -12
	.cfi_offset r4, -16
	sub	sp, #24
	.cfi_def_cfa_offset 40
	mov	r4, r0
	mov	r5, sp
	movs	r6, #0
	movs	r2, #24
	mov	r0, r5
	mov	r1, r6
	bl	memset
	mvns	r1, r6
	mov	r0, r4
	mov	r2, r5
	bl	tlsf_block_at
	cmp	r0, #32
	beq	.Lp_BB25_2
	movs	r0, #1
.Lp_BB25_2:
	add	sp, #24
	pop	{r4, r5, r6, pc}
.Lp_func_end25:
	.size	tlsf_too_long, .Lp_func_end25-tlsf_too_long
	.cfi_endproc
	.section	.text.unlikely.tlsf_mixed_place,"ax",%progbits
	.p2align	1
	.type	tlsf_mixed_place,%function
	.code	16
	.thumb_func
tlsf_mixed_place:
	.cfi_startproc
	push	{r4, r5, r6, r7, lr}
	.cfi_def_cfa_offset 20
	.cfi_offset lr, -4
	.cfi_offset r7, -8
	.cfi_offset r6, -12
	.cfi_offset r5, -16
	.cfi_offset r4, -20
	sub	sp, #28
	.cfi_def_cfa_offset 48
	mov	r5, r1
	mov	r4, r0
	cmp	r2, #1
	bhi	.Lp_BB26_2
	movs	r2, #1
.Lp_BB26_2:
	ldrb	r7, [r5, #29]
	cmp	r7, #0
	bne	.Lp_BB26_4
	movs	r7, #8
.Lp_BB26_4:
	adds	r0, r2, r7
	adds	r0, #23
	rsbs	r6, r7, #0
	ands	r6, r0
	subs	r6, #24
	cmp	r3, r7
	bls	.Lp_BB26_7
	ldr	r0, [r5, #16]
	subs	r1, r3, #1
	ands	r1, r0
	lsrs	r0, r1, #3
	str	r0, [sp]
	lsrs	r3, r3, #3
.Lp_BB26_6:
	mov	r0, r4
	mov	r1, r5
	mov	r2, r6
	bl	tlsf_allocate_aligned
	b	.Lp_BB26_9
.Lp_BB26_7:
	add	r0, sp, #8
	mov	r1, r5
	mov	r2, r6
	bl	tlsf_allocate_place
	ldr	r0, [sp, #12]
	cmp	r0, #0
	beq	.Lp_BB26_10
.Lp_BB26_8:
	add	r0, sp, #8
	ldm	r0!, {r1, r2, r3, r5}
	stm	r4!, {r1, r2, r3, r5}
.Lp_BB26_9:
	add	sp, #28
	pop	{r4, r5, r6, r7, pc}
.Lp_BB26_10:
	ldr	r1, [sp, #8]
	lsls	r0, r1, #3
	ldr	r2, [r5, #16]
	adds	r0, r2, r0
	adds	r0, #24
	subs	r2, r7, #1
	tst	r2, r0
	beq	.Lp_BB26_8
	mov	r0, r5
	str	r2, [sp, #4]
	bl	tlsf_release_place
	ldr	r0, [r5, #16]
	ldr	r1, [sp, #4]
	ands	r1, r0
	lsrs	r0, r1, #3
	str	r0, [sp]
	lsrs	r3, r7, #3
	b	.Lp_BB26_6
.Lp_func_end26:
	.size	tlsf_mixed_place, .Lp_func_end26-tlsf_mixed_place
	.cfi_endproc
	.section	.text.unlikely.tlsf_malloc_own,"ax",%progbits
	.p2align	1
	.type	tlsf_malloc_own,%function
	.code	16
	.thumb_func
tlsf_malloc_own:
	.cfi_startproc
	push	{r4, lr}
	.cfi_def_cfa_offset 8
	.cfi_offset lr, -4
	.cfi_offset r4, -8
	sub	sp, #16
	.cfi_def_cfa_offset 24
	mov	r4, r0
	movs	r0, #1
	lsls	r0, r0, #27
	cmp	r1, r0
	bls	.Lp_BB27_3
.Lp_BB27_1:
	movs	r0, #0
.Lp_BB27_2:
	add	sp, #16
	pop	{r4, pc}
.Lp_BB27_3:
	mov	r2, r1
	mov	r0, sp
	movs	r3, #1
	mov	r1, r4
	bl	tlsf_mixed_place
	ldr	r0, [sp, #4]
	cmp	r0, #0
	bne	.Lp_BB27_1
	ldr	r0, [sp]
	lsls	r0, r0, #3
	ldr	r1, [r4, #16]
	adds	r0, r1, r0
	adds	r0, #24
	b	.Lp_BB27_2
.Lp_func_end27:
	.size	tlsf_malloc_own, .Lp_func_end27-tlsf_malloc_own
	.cfi_endproc
	.type	.L.str,%object
	.section	.rodata.str1.1,"aMS",%progbits,1
.L.str:
	.asciz	"done"
	.size	.L.str, 5
	.type	.L.str.1,%object
.L.str.1:
	.asciz	"no free block fits"
	.size	.L.str.1, 19
	.type	.L.str.2,%object
.L.str.2:
	.asciz	"the ticks or the numbers are used up"
	.size	.L.str.2, 37
	.type	.L.str.3,%object
.L.str.3:
	.asciz	"a name of another heap"
	.size	.L.str.3, 23
	.type	.L.str.4,%object
.L.str.4:
	.asciz	"no live block has that name or address"
	.size	.L.str.4, 39
	.type	.L.str.5,%object
.L.str.5:
	.asciz	"a size out of range"
	.size	.L.str.5, 20
	.type	.L.str.6,%object
.L.str.6:
	.asciz	"no memory"
	.size	.L.str.6, 10
	.type	.L.str.7,%object
.L.str.7:
	.asciz	"bytes past the end of the payload"
	.size	.L.str.7, 34
	.type	.L.str.8,%object
.L.str.8:
	.asciz	"the lane or queue is full"
	.size	.L.str.8, 26
	.type	.L.str.9,%object
.L.str.9:
	.asciz	"no room where the block stands"
	.size	.L.str.9, 31
	.type	.L.str.10,%object
.L.str.10:
	.asciz	"a line was not written"
	.size	.L.str.10, 23
	.type	.L.str.11,%object
.L.str.11:
	.asciz	"the handle is closed"
	.size	.L.str.11, 21
	.type	.L.str.12,%object
.L.str.12:
	.asciz	"the handle is open already"
	.size	.L.str.12, 27
	.type	.L.str.13,%object
.L.str.13:
	.asciz	"a level is 4 or 5"
	.size	.L.str.13, 18
	.type	.L.str.14,%object
.L.str.14:
	.asciz	"the lane or queue is empty"
	.size	.L.str.14, 27
	.type	.L.str.15,%object
.L.str.15:
	.asciz	"a header is damaged"
	.size	.L.str.15, 20
	.type	.L.str.16,%object
.L.str.16:
	.asciz	"another thread is in the way: try again"
	.size	.L.str.16, 40
	.type	.L.str.17,%object
.L.str.17:
	.asciz	"all blocks of that row are held"
	.size	.L.str.17, 32
	.type	.L.str.18,%object
.L.str.18:
	.asciz	"memory that is null, or past the end of the address space"
	.size	.L.str.18, 58
	.type	.L.str.19,%object
.L.str.19:
	.asciz	"the handle holds something of another kind"
	.size	.L.str.19, 43
	.type	.L.str.20,%object
.L.str.20:
	.asciz	"no answer of this library"
	.size	.L.str.20, 26
	.type	.Lp_switch.table.tlsf_text_of,%object
	.section	.rodata..Lswitch.table.tlsf_text_of,"a",%progbits
	.p2align	2, 0x0
.Lp_switch.table.tlsf_text_of:
	.long	.L.str
	.long	.L.str.1
	.long	.L.str.2
	.long	.L.str.3
	.long	.L.str.4
	.long	.L.str.5
	.long	.L.str.6
	.long	.L.str.7
	.long	.L.str.8
	.long	.L.str.20
	.long	.L.str.9
	.long	.L.str.20
	.long	.L.str.20
	.long	.L.str.20
	.long	.L.str.20
	.long	.L.str.20
	.long	.L.str.20
	.long	.L.str.10
	.long	.L.str.20
	.long	.L.str.20
	.long	.L.str.20
	.long	.L.str.20
	.long	.L.str.20
	.long	.L.str.20
	.long	.L.str.20
	.long	.L.str.20
	.long	.L.str.20
	.long	.L.str.20
	.long	.L.str.20
	.long	.L.str.20
	.long	.L.str.20
	.long	.L.str.20
	.long	.L.str.11
	.long	.L.str.12
	.long	.L.str.13
	.long	.L.str.14
	.long	.L.str.15
	.long	.L.str.16
	.long	.L.str.17
	.long	.L.str.18
	.long	.L.str.19
	.size	.Lp_switch.table.tlsf_text_of, 164
	.ident	"clang version 22.1.8"
	.section	".note.GNU-stack","",%progbits
/* What lanes, queues and tlsf_next_number call: c/atomics64.c. */
	.syntax	unified
	.eabi_attribute	24, 1
	.eabi_attribute	25, 1
	.section	.text.__atomic_load_8,"ax",%progbits
	.weak	__atomic_load_8
	.p2align	1
	.type	__atomic_load_8,%function
	.code	16
	.thumb_func
__atomic_load_8:
	.cfi_sections .debug_frame
	.cfi_startproc
	mrs	r2, primask
	cpsid i
	ldr	r1, [r0, #4]
	ldr	r0, [r0]
	msr	primask, r2
	bx	lr
.La_func_end0:
	.size	__atomic_load_8, .La_func_end0-__atomic_load_8
	.cfi_endproc
	.section	.text.__atomic_store_8,"ax",%progbits
	.weak	__atomic_store_8
	.p2align	1
	.type	__atomic_store_8,%function
	.code	16
	.thumb_func
__atomic_store_8:
	.cfi_startproc
	mrs	r1, primask
	cpsid i
	str	r3, [r0, #4]
	str	r2, [r0]
	msr	primask, r1
	bx	lr
.La_func_end1:
	.size	__atomic_store_8, .La_func_end1-__atomic_store_8
	.cfi_endproc
	.section	.text.__atomic_exchange_8,"ax",%progbits
	.weak	__atomic_exchange_8
	.p2align	1
	.type	__atomic_exchange_8,%function
	.code	16
	.thumb_func
__atomic_exchange_8:
	.cfi_startproc
	push	{r4, r5, r7, lr}
	.cfi_def_cfa_offset 16
	.cfi_offset lr, -4
	.cfi_offset r7, -8
	.cfi_offset r5, -12
	.cfi_offset r4, -16
	mrs	r5, primask
	cpsid i
	ldr	r1, [r0, #4]
	ldr	r4, [r0]
	str	r3, [r0, #4]
	str	r2, [r0]
	msr	primask, r5
	mov	r0, r4
	pop	{r4, r5, r7, pc}
.La_func_end2:
	.size	__atomic_exchange_8, .La_func_end2-__atomic_exchange_8
	.cfi_endproc
	.section	.text.__atomic_fetch_add_8,"ax",%progbits
	.weak	__atomic_fetch_add_8
	.p2align	1
	.type	__atomic_fetch_add_8,%function
	.code	16
	.thumb_func
__atomic_fetch_add_8:
	.cfi_startproc
	push	{r4, r5, r7, lr}
	.cfi_def_cfa_offset 16
	.cfi_offset lr, -4
	.cfi_offset r7, -8
	.cfi_offset r5, -12
	.cfi_offset r4, -16
	mrs	r5, primask
	cpsid i
	ldr	r1, [r0, #4]
	ldr	r4, [r0]
	adds	r2, r4, r2
	str	r2, [r0]
	adcs	r3, r1
	str	r3, [r0, #4]
	msr	primask, r5
	mov	r0, r4
	pop	{r4, r5, r7, pc}
.La_func_end3:
	.size	__atomic_fetch_add_8, .La_func_end3-__atomic_fetch_add_8
	.cfi_endproc
	.section	.text.__atomic_fetch_sub_8,"ax",%progbits
	.weak	__atomic_fetch_sub_8
	.p2align	1
	.type	__atomic_fetch_sub_8,%function
	.code	16
	.thumb_func
__atomic_fetch_sub_8:
	.cfi_startproc
	push	{r7, lr}
	.cfi_def_cfa_offset 8
	.cfi_offset lr, -4
	.cfi_offset r7, -8
	sub	sp, #8
	.cfi_def_cfa_offset 16
	ldr	r1, [sp, #16]
	str	r1, [sp]
	movs	r1, #0
	rsbs	r2, r2, #0
	sbcs	r1, r3
	mov	r3, r1
	bl	__atomic_fetch_add_8
	add	sp, #8
	pop	{r7, pc}
.La_func_end4:
	.size	__atomic_fetch_sub_8, .La_func_end4-__atomic_fetch_sub_8
	.cfi_endproc
	.section	.text.__atomic_compare_exchange_8,"ax",%progbits
	.weak	__atomic_compare_exchange_8
	.p2align	1
	.type	__atomic_compare_exchange_8,%function
	.code	16
	.thumb_func
__atomic_compare_exchange_8:
	.cfi_startproc
	push	{r4, r5, r6, r7, lr}
	.cfi_def_cfa_offset 20
	.cfi_offset lr, -4
	.cfi_offset r7, -8
	.cfi_offset r6, -12
	.cfi_offset r5, -16
	.cfi_offset r4, -20
	sub	sp, #4
	.cfi_def_cfa_offset 24
	str	r3, [sp]
	ldr	r5, [r1]
	ldr	r4, [r1, #4]
	mrs	r3, primask
	cpsid i
	ldr	r6, [r0, #4]
	eors	r4, r6
	ldr	r7, [r0]
	eors	r5, r7
	orrs	r5, r4
	rsbs	r4, r5, #0
	adcs	r4, r5
	cmp	r5, #0
	bne	.La_BB5_2
	str	r2, [r0]
	ldr	r1, [sp]
	str	r1, [r0, #4]
	msr	primask, r3
	b	.La_BB5_3
.La_BB5_2:
	msr	primask, r3
	str	r7, [r1]
	str	r6, [r1, #4]
.La_BB5_3:
	mov	r0, r4
	add	sp, #4
	pop	{r4, r5, r6, r7, pc}
.La_func_end5:
	.size	__atomic_compare_exchange_8, .La_func_end5-__atomic_compare_exchange_8
	.cfi_endproc
	.ident	"clang version 22.1.8"
	.section	".note.GNU-stack","",%progbits
#endif
/* c/memory.c */
#ifndef TLSF_ONLY_CALLS
	.syntax	unified
	.eabi_attribute	24, 1
	.eabi_attribute	25, 1
	.section	.text.tlsf_memory_alloc,"ax",%progbits
	.hidden	tlsf_memory_alloc
	.globl	tlsf_memory_alloc
	.p2align	2
	.type	tlsf_memory_alloc,%function
	.code	16
	.thumb_func
tlsf_memory_alloc:
	.cfi_sections .debug_frame
	.cfi_startproc
	push	{r4, r5, r6, r7, lr}
	.cfi_def_cfa_offset 20
	.cfi_offset lr, -4
	.cfi_offset r7, -8
	.cfi_offset r6, -12
	.cfi_offset r5, -16
	.cfi_offset r4, -20
	sub	sp, #4
	.cfi_def_cfa_offset 24
	mov	r4, r0
	movs	r7, #0
	cmp	r2, #8
	mov	r0, r7
	bhi	.Lm_BB0_11
	mov	r5, r1
	ldr	r0, .Lm_CPI0_0
	ldr	r1, [r0]
	cmp	r1, #0
	beq	.Lm_BB0_3
	ldr	r0, .Lm_CPI0_1
	ldr	r2, [r0]
	subs	r3, r2, #1
	str	r3, [r0]
	cmp	r2, #0
	beq	.Lm_BB0_9
.Lm_BB0_3:
	ldr	r0, .Lm_CPI0_3
	ldr	r6, [r0]
	cmp	r6, #0
	mov	r0, r7
	beq	.Lm_BB0_11
	ldr	r0, .Lm_CPI0_4
	ldr	r1, [r0]
	adds	r0, r5, r1
	adds	r0, r0, #7
	str	r0, [sp]
	bl	__aeabi_uidivmod
	movs	r0, #1
	lsls	r0, r0, #28
	cmp	r5, r0
	mov	r0, r7
	bhi	.Lm_BB0_11
	ldr	r0, .Lm_CPI0_5
	ldr	r2, [r0]
	subs	r3, r2, r6
	adds	r5, #8
	cmp	r5, r3
	mov	r0, r7
	bhi	.Lm_BB0_11
	ldr	r0, [sp]
	subs	r0, r0, r1
	movs	r1, #0
	str	r1, [r6]
	str	r1, [r6, #4]
	cmp	r0, r3
	bhs	.Lm_BB0_8
	adds	r2, r6, r0
.Lm_BB0_8:
	adds	r6, #8
	ldr	r0, .Lm_CPI0_3
	str	r2, [r0]
	mov	r0, r6
	b	.Lm_BB0_11
.Lm_BB0_9:
	ldr	r0, .Lm_CPI0_2
	cmp	r5, r0
	mov	r0, r7
	bhi	.Lm_BB0_11
	movs	r0, #0
	str	r0, [r1]
	str	r0, [r1, #4]
	adds	r1, #8
	mov	r0, r1
.Lm_BB0_11:
	str	r7, [r4, #4]
	str	r7, [r4, #12]
	subs	r1, r0, #1
	mov	r2, r0
	sbcs	r2, r1
	str	r2, [r4]
	cmp	r0, #0
	bne	.Lm_BB0_13
	ldr	r0, .Lm_CPI0_6
.Lm_BB0_13:
	str	r0, [r4, #8]
	add	sp, #4
	pop	{r4, r5, r6, r7, pc}
	.p2align	2
.Lm_CPI0_0:
	.long	near_room
.Lm_CPI0_1:
	.long	pieces_first
.Lm_CPI0_2:
	.long	2776
.Lm_CPI0_3:
	.long	lent
.Lm_CPI0_4:
	.long	lent_step
.Lm_CPI0_5:
	.long	lent_end
.Lm_CPI0_6:
	.long	tlsf_memory_alloc.nothing
.Lm_func_end0:
	.size	tlsf_memory_alloc, .Lm_func_end0-tlsf_memory_alloc
	.cfi_endproc
	.section	.text.tlsf_memory_dealloc,"ax",%progbits
	.hidden	tlsf_memory_dealloc
	.globl	tlsf_memory_dealloc
	.p2align	1
	.type	tlsf_memory_dealloc,%function
	.code	16
	.thumb_func
tlsf_memory_dealloc:
	.cfi_startproc
	bx	lr
.Lm_func_end1:
	.size	tlsf_memory_dealloc, .Lm_func_end1-tlsf_memory_dealloc
	.cfi_endproc
	.section	.text.tlsf_memory_realloc,"ax",%progbits
	.hidden	tlsf_memory_realloc
	.globl	tlsf_memory_realloc
	.p2align	1
	.type	tlsf_memory_realloc,%function
	.code	16
	.thumb_func
tlsf_memory_realloc:
	.cfi_startproc
	push	{r4, r5, r6, lr}
	.cfi_def_cfa_offset 16
	.cfi_offset lr, -4
	.cfi_offset r6, -8
	.cfi_offset r5, -12
	.cfi_offset r4, -16
	mov	r4, r2
	mov	r5, r1
	mov	r6, r0
	ldr	r2, [sp, #16]
	mov	r1, r3
	bl	tlsf_memory_alloc
	ldm	r6!, {r0, r1}
	subs	r6, #8
	orrs	r1, r0
	beq	.Lm_BB2_2
	ldr	r0, [r6, #8]
	mov	r1, r5
	mov	r2, r4
	bl	memcpy
.Lm_BB2_2:
	pop	{r4, r5, r6, pc}
.Lm_func_end2:
	.size	tlsf_memory_realloc, .Lm_func_end2-tlsf_memory_realloc
	.cfi_endproc
	.section	.text.tlsf_memory_set,"ax",%progbits
	.hidden	tlsf_memory_set
	.weak	tlsf_memory_set
	.p2align	1
	.type	tlsf_memory_set,%function
	.code	16
	.thumb_func
tlsf_memory_set:
	.cfi_startproc
	push	{r7, lr}
	.cfi_def_cfa_offset 8
	.cfi_offset lr, -4
	.cfi_offset r7, -8
	bl	memset
	pop	{r7, pc}
.Lm_func_end3:
	.size	tlsf_memory_set, .Lm_func_end3-tlsf_memory_set
	.cfi_endproc
	.section	.text.tlsf_memory_cpy,"ax",%progbits
	.hidden	tlsf_memory_cpy
	.weak	tlsf_memory_cpy
	.p2align	1
	.type	tlsf_memory_cpy,%function
	.code	16
	.thumb_func
tlsf_memory_cpy:
	.cfi_startproc
	push	{r7, lr}
	.cfi_def_cfa_offset 8
	.cfi_offset lr, -4
	.cfi_offset r7, -8
	bl	memcpy
	pop	{r7, pc}
.Lm_func_end4:
	.size	tlsf_memory_cpy, .Lm_func_end4-tlsf_memory_cpy
	.cfi_endproc
	.section	.text.tlsf_memory_move,"ax",%progbits
	.hidden	tlsf_memory_move
	.weak	tlsf_memory_move
	.p2align	1
	.type	tlsf_memory_move,%function
	.code	16
	.thumb_func
tlsf_memory_move:
	.cfi_startproc
	push	{r7, lr}
	.cfi_def_cfa_offset 8
	.cfi_offset lr, -4
	.cfi_offset r7, -8
	bl	memmove
	pop	{r7, pc}
.Lm_func_end5:
	.size	tlsf_memory_move, .Lm_func_end5-tlsf_memory_move
	.cfi_endproc
	.section	.text.tlsf_bytes,"ax",%progbits
	.globl	tlsf_bytes
	.p2align	2
	.type	tlsf_bytes,%function
	.code	16
	.thumb_func
tlsf_bytes:
	.cfi_startproc
	cmp	r1, #4
	bhs	.Lm_BB6_2
	movs	r0, #0
	bx	lr
.Lm_BB6_2:
	mov	r2, r0
	movs	r0, #0
	cmp	r2, #4
	beq	.Lm_BB6_4
	mov	r2, r0
	b	.Lm_BB6_5
.Lm_BB6_4:
	movs	r2, #1
	lsls	r2, r2, #20
.Lm_BB6_5:
	cmp	r1, r2
	bhi	.Lm_BB6_7
	lsls	r0, r1, #3
	adds	r1, #63
	lsrs	r1, r1, #3
	adds	r1, #16
	movs	r2, #15
	bics	r1, r2
	adds	r0, r0, r1
	ldr	r1, .Lm_CPI6_0
	adds	r0, r0, r1
	orrs	r0, r2
.Lm_BB6_7:
	bx	lr
	.p2align	2
.Lm_CPI6_0:
	.long	1319
.Lm_func_end6:
	.size	tlsf_bytes, .Lm_func_end6-tlsf_bytes
	.cfi_endproc
	.section	.text.heap_bytes,"ax",%progbits
	.p2align	1
	.type	heap_bytes,%function
	.code	16
	.thumb_func
heap_bytes:
	.cfi_startproc
	movs	r1, #15
	mvns	r1, r1
	lsls	r2, r0, #3
	adds	r2, #23
	ands	r2, r1
	adds	r0, #63
	lsrs	r0, r0, #3
	adds	r0, #16
	ands	r0, r1
	adds	r0, r2, r0
	movs	r1, #81
	lsls	r1, r1, #4
	adds	r0, r0, r1
	bx	lr
.Lm_func_end7:
	.size	heap_bytes, .Lm_func_end7-heap_bytes
	.cfi_endproc
	.section	.text.tlsf_near_bytes,"ax",%progbits
	.globl	tlsf_near_bytes
	.p2align	1
	.type	tlsf_near_bytes,%function
	.code	16
	.thumb_func
tlsf_near_bytes:
	.cfi_startproc
	cmp	r1, #4
	bhs	.Lm_BB8_2
	movs	r0, #0
	bx	lr
.Lm_BB8_2:
	mov	r2, r0
	movs	r0, #0
	cmp	r2, #4
	beq	.Lm_BB8_4
	mov	r2, r0
	b	.Lm_BB8_5
.Lm_BB8_4:
	movs	r2, #1
	lsls	r2, r2, #20
.Lm_BB8_5:
	cmp	r1, r2
	bhi	.Lm_BB8_7
	lsls	r0, r1, #3
	adds	r0, #23
	movs	r2, #15
	bics	r0, r2
	adds	r1, #63
	lsrs	r1, r1, #6
	lsls	r1, r1, #3
	adds	r0, r0, r1
	adds	r0, #23
.Lm_BB8_7:
	bx	lr
.Lm_func_end8:
	.size	tlsf_near_bytes, .Lm_func_end8-tlsf_near_bytes
	.cfi_endproc
	.section	.text.near_bytes,"ax",%progbits
	.p2align	1
	.type	near_bytes,%function
	.code	16
	.thumb_func
near_bytes:
	.cfi_startproc
	lsls	r1, r0, #3
	adds	r1, #23
	movs	r2, #15
	bics	r1, r2
	adds	r0, #63
	lsrs	r0, r0, #6
	lsls	r0, r0, #3
	adds	r0, r0, r1
	adds	r0, #8
	bx	lr
.Lm_func_end9:
	.size	near_bytes, .Lm_func_end9-near_bytes
	.cfi_endproc
	.section	.text.tlsf_open_in,"ax",%progbits
	.globl	tlsf_open_in
	.p2align	2
	.type	tlsf_open_in,%function
	.code	16
	.thumb_func
tlsf_open_in:
	.cfi_startproc
	push	{r4, lr}
	.cfi_def_cfa_offset 8
	.cfi_offset lr, -4
	.cfi_offset r4, -8
	sub	sp, #8
	.cfi_def_cfa_offset 16
	ldr	r4, .Lm_CPI10_0
	str	r4, [sp, #4]
	ldr	r4, [sp, #16]
	str	r4, [sp]
	bl	open_in
	add	sp, #8
	pop	{r4, pc}
	.p2align	2
.Lm_CPI10_0:
	.long	heap_bytes
.Lm_func_end10:
	.size	tlsf_open_in, .Lm_func_end10-tlsf_open_in
	.cfi_endproc
	.section	.text.open_in,"ax",%progbits
	.p2align	2
	.type	open_in,%function
	.code	16
	.thumb_func
open_in:
	.cfi_startproc
	push	{r4, r5, r6, r7, lr}
	.cfi_def_cfa_offset 20
	.cfi_offset lr, -4
	.cfi_offset r7, -8
	.cfi_offset r6, -12
	.cfi_offset r5, -16
	.cfi_offset r4, -20
	sub	sp, #36
	.cfi_def_cfa_offset 56
	str	r2, [sp, #28]
	str	r1, [sp, #32]
	str	r0, [sp, #24]
	ldrb	r0, [r0, #29]
	cmp	r0, #0
	beq	.Lm_BB11_3
	movs	r1, #56
	mvns	r1, r1
	mov	r2, r0
	subs	r2, #65
	movs	r4, #0
	cmp	r2, r1
	bhs	.Lm_BB11_4
	mov	r2, r4
	b	.Lm_BB11_8
.Lm_BB11_3:
	movs	r1, #16
	b	.Lm_BB11_7
.Lm_BB11_4:
	cmp	r0, #16
	mov	r1, r0
	bhi	.Lm_BB11_6
	movs	r1, #16
.Lm_BB11_6:
	mov	r2, r0
	adds	r2, #127
	tst	r2, r0
	mov	r2, r4
	bne	.Lm_BB11_8
.Lm_BB11_7:
	movs	r0, #31
	mvns	r0, r0
	subs	r0, r0, r3
	mov	r4, r3
	bl	__aeabi_uidivmod
	mov	r3, r4
	mov	r2, r1
.Lm_BB11_8:
	ldr	r4, [sp, #56]
	mvns	r0, r3
	movs	r5, #0
	cmp	r3, #0
	str	r0, [sp, #20]
	beq	.Lm_BB11_20
	cmp	r4, r0
	bhi	.Lm_BB11_20
	cmp	r4, r2
	blo	.Lm_BB11_20
	ldr	r7, [sp, #60]
	subs	r6, r4, r2
	movs	r0, #4
	str	r3, [sp, #16]
	str	r2, [sp, #12]
	blx	r7
	ldr	r2, [sp, #12]
	ldr	r3, [sp, #16]
	cmp	r6, r0
	blo	.Lm_BB11_20
	movs	r0, #1
	str	r0, [sp, #8]
	lsls	r0, r0, #28
	cmp	r6, r0
	blo	.Lm_BB11_14
	mov	r6, r0
.Lm_BB11_14:
	movs	r0, #0
	str	r0, [sp, #4]
	blx	r7
	subs	r0, r6, r0
	lsls	r0, r0, #3
	movs	r1, #65
	bl	__aeabi_uidiv
	mov	r5, r0
	adds	r5, #9
.Lm_BB11_15:
	subs	r5, r5, #1
	mov	r0, r5
	blx	r7
	cmp	r0, r6
	bhi	.Lm_BB11_15
	ldr	r0, [sp, #8]
	lsls	r0, r0, #20
	cmp	r5, r0
	blo	.Lm_BB11_18
	mov	r5, r0
.Lm_BB11_18:
	ldr	r0, [sp, #32]
	cmp	r0, #4
	ldr	r3, [sp, #16]
	ldr	r2, [sp, #12]
	beq	.Lm_BB11_20
	ldr	r5, [sp, #4]
.Lm_BB11_20:
	ldr	r0, .Lm_CPI11_0
	movs	r1, #16
	str	r1, [r0]
	subs	r0, r3, #1
	mov	r7, r3
	sbcs	r7, r0
	cmp	r2, r4
	blo	.Lm_BB11_22
	mov	r2, r4
.Lm_BB11_22:
	movs	r6, #0
	ldr	r0, [sp, #20]
	cmp	r4, r0
	str	r6, [sp, #16]
	bhi	.Lm_BB11_24
	movs	r6, #1
.Lm_BB11_24:
	adds	r0, r3, r2
	adds	r2, r3, r4
	ldr	r1, .Lm_CPI11_1
	tst	r7, r6
	bne	.Lm_BB11_26
	mov	r2, r1
.Lm_BB11_26:
	ldr	r3, .Lm_CPI11_2
	str	r2, [r3]
	bne	.Lm_BB11_28
	mov	r0, r1
.Lm_BB11_28:
	ldr	r4, .Lm_CPI11_3
	str	r0, [r4]
	ldr	r0, [sp, #24]
	ldr	r1, [sp, #32]
	ldr	r2, [sp, #28]
	mov	r3, r5
	bl	open_noted
	cmp	r0, #5
	mov	r1, r0
	bne	.Lm_BB11_30
	movs	r1, #39
.Lm_BB11_30:
	tst	r7, r6
	ldr	r2, [sp, #16]
	str	r2, [r4]
	bne	.Lm_BB11_32
	mov	r0, r1
.Lm_BB11_32:
	add	sp, #36
	pop	{r4, r5, r6, r7, pc}
	.p2align	2
.Lm_CPI11_0:
	.long	lent_step
.Lm_CPI11_1:
	.long	begin_behind.nothing
.Lm_CPI11_2:
	.long	lent_end
.Lm_CPI11_3:
	.long	lent
.Lm_func_end11:
	.size	open_in, .Lm_func_end11-open_in
	.cfi_endproc
	.section	.text.tlsf_open_near,"ax",%progbits
	.globl	tlsf_open_near
	.p2align	2
	.type	tlsf_open_near,%function
	.code	16
	.thumb_func
tlsf_open_near:
	.cfi_startproc
	push	{r4, r5, r7, lr}
	.cfi_def_cfa_offset 16
	.cfi_offset lr, -4
	.cfi_offset r7, -8
	.cfi_offset r5, -12
	.cfi_offset r4, -16
	ldr	r4, .Lm_CPI12_0
	movs	r5, #2
	str	r5, [r4]
	rsbs	r4, r0, #0
	movs	r5, #63
	ands	r5, r4
	adds	r0, r0, r5
	mov	r4, r0
	adds	r4, #32
	ldr	r5, .Lm_CPI12_1
	str	r4, [r5]
	bl	open_noted
	movs	r1, #0
	str	r1, [r5]
	pop	{r4, r5, r7, pc}
	.p2align	2
.Lm_CPI12_0:
	.long	pieces_first
.Lm_CPI12_1:
	.long	near_room
.Lm_func_end12:
	.size	tlsf_open_near, .Lm_func_end12-tlsf_open_near
	.cfi_endproc
	.section	.text.tlsf_open_near_in,"ax",%progbits
	.globl	tlsf_open_near_in
	.p2align	2
	.type	tlsf_open_near_in,%function
	.code	16
	.thumb_func
tlsf_open_near_in:
	.cfi_startproc
	push	{r4, r5, r7, lr}
	.cfi_def_cfa_offset 16
	.cfi_offset lr, -4
	.cfi_offset r7, -8
	.cfi_offset r5, -12
	.cfi_offset r4, -16
	sub	sp, #8
	.cfi_def_cfa_offset 24
	ldr	r4, .Lm_CPI13_0
	movs	r5, #2
	str	r5, [r4]
	rsbs	r4, r0, #0
	movs	r5, #63
	ands	r5, r4
	adds	r0, r0, r5
	mov	r4, r0
	adds	r4, #32
	ldr	r5, .Lm_CPI13_1
	str	r4, [r5]
	ldr	r4, .Lm_CPI13_2
	str	r4, [sp, #4]
	ldr	r4, [sp, #24]
	str	r4, [sp]
	bl	open_in
	movs	r1, #0
	str	r1, [r5]
	add	sp, #8
	pop	{r4, r5, r7, pc}
	.p2align	2
.Lm_CPI13_0:
	.long	pieces_first
.Lm_CPI13_1:
	.long	near_room
.Lm_CPI13_2:
	.long	near_bytes
.Lm_func_end13:
	.size	tlsf_open_near_in, .Lm_func_end13-tlsf_open_near_in
	.cfi_endproc
	.section	.text.tlsf_open_32,"ax",%progbits
	.globl	tlsf_open_32
	.p2align	1
	.type	tlsf_open_32,%function
	.code	16
	.thumb_func
tlsf_open_32:
	.cfi_startproc
	push	{r7, lr}
	.cfi_def_cfa_offset 8
	.cfi_offset lr, -4
	.cfi_offset r7, -8
	bl	open_noted
	pop	{r7, pc}
.Lm_func_end14:
	.size	tlsf_open_32, .Lm_func_end14-tlsf_open_32
	.cfi_endproc
	.section	.text.tlsf_open_in_32,"ax",%progbits
	.globl	tlsf_open_in_32
	.p2align	2
	.type	tlsf_open_in_32,%function
	.code	16
	.thumb_func
tlsf_open_in_32:
	.cfi_startproc
	push	{r4, lr}
	.cfi_def_cfa_offset 8
	.cfi_offset lr, -4
	.cfi_offset r4, -8
	sub	sp, #8
	.cfi_def_cfa_offset 16
	ldr	r4, .Lm_CPI15_0
	str	r4, [sp, #4]
	ldr	r4, [sp, #16]
	str	r4, [sp]
	bl	open_in
	add	sp, #8
	pop	{r4, pc}
	.p2align	2
.Lm_CPI15_0:
	.long	heap_bytes
.Lm_func_end15:
	.size	tlsf_open_in_32, .Lm_func_end15-tlsf_open_in_32
	.cfi_endproc
	.section	.text.tlsf_open_near_2880,"ax",%progbits
	.globl	tlsf_open_near_2880
	.p2align	2
	.type	tlsf_open_near_2880,%function
	.code	16
	.thumb_func
tlsf_open_near_2880:
	.cfi_startproc
	push	{r4, r5, r7, lr}
	.cfi_def_cfa_offset 16
	.cfi_offset lr, -4
	.cfi_offset r7, -8
	.cfi_offset r5, -12
	.cfi_offset r4, -16
	ldr	r4, .Lm_CPI16_0
	movs	r5, #2
	str	r5, [r4]
	rsbs	r4, r0, #0
	movs	r5, #63
	ands	r5, r4
	adds	r0, r0, r5
	mov	r4, r0
	adds	r4, #32
	ldr	r5, .Lm_CPI16_1
	str	r4, [r5]
	bl	open_noted
	movs	r1, #0
	str	r1, [r5]
	pop	{r4, r5, r7, pc}
	.p2align	2
.Lm_CPI16_0:
	.long	pieces_first
.Lm_CPI16_1:
	.long	near_room
.Lm_func_end16:
	.size	tlsf_open_near_2880, .Lm_func_end16-tlsf_open_near_2880
	.cfi_endproc
	.section	.text.tlsf_open_near_in_2880,"ax",%progbits
	.globl	tlsf_open_near_in_2880
	.p2align	2
	.type	tlsf_open_near_in_2880,%function
	.code	16
	.thumb_func
tlsf_open_near_in_2880:
	.cfi_startproc
	push	{r4, r5, r7, lr}
	.cfi_def_cfa_offset 16
	.cfi_offset lr, -4
	.cfi_offset r7, -8
	.cfi_offset r5, -12
	.cfi_offset r4, -16
	sub	sp, #8
	.cfi_def_cfa_offset 24
	ldr	r4, .Lm_CPI17_0
	movs	r5, #2
	str	r5, [r4]
	rsbs	r4, r0, #0
	movs	r5, #63
	ands	r5, r4
	adds	r0, r0, r5
	mov	r4, r0
	adds	r4, #32
	ldr	r5, .Lm_CPI17_1
	str	r4, [r5]
	ldr	r4, .Lm_CPI17_2
	str	r4, [sp, #4]
	ldr	r4, [sp, #24]
	str	r4, [sp]
	bl	open_in
	movs	r1, #0
	str	r1, [r5]
	add	sp, #8
	pop	{r4, r5, r7, pc}
	.p2align	2
.Lm_CPI17_0:
	.long	pieces_first
.Lm_CPI17_1:
	.long	near_room
.Lm_CPI17_2:
	.long	near_bytes
.Lm_func_end17:
	.size	tlsf_open_near_in_2880, .Lm_func_end17-tlsf_open_near_in_2880
	.cfi_endproc
	.section	.text.tlsf_lane_bytes,"ax",%progbits
	.globl	tlsf_lane_bytes
	.p2align	2
	.type	tlsf_lane_bytes,%function
	.code	16
	.thumb_func
tlsf_lane_bytes:
	.cfi_startproc
	ldr	r1, .Lm_CPI18_2
	adds	r2, r0, r1
	adds	r1, r1, #1
	cmp	r2, r1
	blo	.Lm_BB18_2
	movs	r1, #24
	muls	r1, r0, r1
	adds	r1, #135
	ldr	r0, .Lm_CPI18_0
	ands	r0, r1
	ldr	r1, .Lm_CPI18_1
	adds	r0, r0, r1
	bx	lr
.Lm_BB18_2:
	movs	r0, #0
	bx	lr
	.p2align	2
.Lm_CPI18_0:
	.long	130944
.Lm_CPI18_1:
	.long	895
.Lm_CPI18_2:
	.long	4294966271
.Lm_func_end18:
	.size	tlsf_lane_bytes, .Lm_func_end18-tlsf_lane_bytes
	.cfi_endproc
	.section	.text.tlsf_lane_open_in,"ax",%progbits
	.globl	tlsf_lane_open_in
	.p2align	2
	.type	tlsf_lane_open_in,%function
	.code	16
	.thumb_func
tlsf_lane_open_in:
	.cfi_startproc
	push	{r4, r5, r6, r7, lr}
	.cfi_def_cfa_offset 20
	.cfi_offset lr, -4
	.cfi_offset r7, -8
	.cfi_offset r6, -12
	.cfi_offset r5, -16
	.cfi_offset r4, -20
	sub	sp, #12
	.cfi_def_cfa_offset 32
	mov	r4, r2
	str	r1, [sp, #8]
	str	r0, [sp]
	ldr	r0, [sp, #32]
	ldr	r2, .Lm_CPI19_0
	cmp	r4, r2
	bhs	.Lm_BB19_9
	rsbs	r2, r3, #0
	movs	r6, #127
	ands	r6, r2
	subs	r1, r0, r6
	movs	r2, #24
	muls	r2, r4, r2
	adds	r2, #135
	ldr	r5, .Lm_CPI19_1
	ands	r5, r2
	movs	r2, #3
	lsls	r2, r2, #8
	adds	r5, r5, r2
	movs	r2, #0
	cmp	r1, r5
	mov	r5, r2
	blo	.Lm_BB19_3
	mov	r5, r4
.Lm_BB19_3:
	cmp	r0, r6
	mov	r4, r2
	blo	.Lm_BB19_5
	mov	r4, r5
.Lm_BB19_5:
	mvns	r5, r3
	cmp	r0, r5
	bhi	.Lm_BB19_7
	mov	r2, r4
.Lm_BB19_7:
	cmp	r3, #0
	bne	.Lm_BB19_10
	mov	r2, r3
	b	.Lm_BB19_10
.Lm_BB19_9:
	rsbs	r2, r3, #0
	movs	r6, #127
	ands	r6, r2
	mvns	r5, r3
	mov	r2, r4
.Lm_BB19_10:
	ldr	r1, .Lm_CPI19_2
	movs	r4, #128
	str	r4, [r1]
	subs	r1, r3, #1
	mov	r4, r3
	sbcs	r4, r1
	cmp	r6, r0
	blo	.Lm_BB19_12
	mov	r6, r0
.Lm_BB19_12:
	movs	r1, #0
	cmp	r0, r5
	bls	.Lm_BB19_14
	mov	r7, r1
	b	.Lm_BB19_15
.Lm_BB19_14:
	movs	r7, #1
.Lm_BB19_15:
	str	r1, [sp, #4]
	adds	r6, r3, r6
	adds	r5, r3, r0
	ldr	r3, .Lm_CPI19_3
	tst	r4, r7
	bne	.Lm_BB19_17
	mov	r5, r3
.Lm_BB19_17:
	ldr	r1, .Lm_CPI19_4
	str	r5, [r1]
	bne	.Lm_BB19_19
	mov	r6, r3
.Lm_BB19_19:
	ldr	r5, .Lm_CPI19_5
	str	r6, [r5]
	ldr	r0, [sp]
	ldr	r1, [sp, #8]
	bl	tlsf_lane_open
	cmp	r0, #5
	mov	r1, r0
	bne	.Lm_BB19_21
	movs	r1, #39
.Lm_BB19_21:
	tst	r4, r7
	ldr	r2, [sp, #4]
	str	r2, [r5]
	bne	.Lm_BB19_23
	mov	r0, r1
.Lm_BB19_23:
	add	sp, #12
	pop	{r4, r5, r6, r7, pc}
	.p2align	2
.Lm_CPI19_0:
	.long	1025
.Lm_CPI19_1:
	.long	130944
.Lm_CPI19_2:
	.long	lent_step
.Lm_CPI19_3:
	.long	begin_behind.nothing
.Lm_CPI19_4:
	.long	lent_end
.Lm_CPI19_5:
	.long	lent
.Lm_func_end19:
	.size	tlsf_lane_open_in, .Lm_func_end19-tlsf_lane_open_in
	.cfi_endproc
	.section	.text.tlsf_queue_bytes,"ax",%progbits
	.globl	tlsf_queue_bytes
	.p2align	1
	.type	tlsf_queue_bytes,%function
	.code	16
	.thumb_func
tlsf_queue_bytes:
	.cfi_startproc
	push	{r4, r5, r7, lr}
	.cfi_def_cfa_offset 16
	.cfi_offset lr, -4
	.cfi_offset r7, -8
	.cfi_offset r5, -12
	.cfi_offset r4, -16
	movs	r2, #1
	lsls	r2, r2, #10
	subs	r3, r2, r0
	subs	r2, r2, r1
	orrs	r2, r3
	lsrs	r2, r2, #10
	bne	.Lm_BB20_2
	movs	r2, #127
	mvns	r2, r2
	lsls	r3, r0, #3
	adds	r3, #135
	ands	r3, r2
	lsls	r4, r0, #4
	adds	r4, #135
	movs	r5, #119
	bics	r4, r5
	lsls	r0, r0, #7
	adds	r0, r0, r4
	adds	r0, r0, r3
	lsls	r3, r1, #5
	adds	r3, #135
	movs	r4, #103
	bics	r3, r4
	movs	r4, #255
	adds	r4, #128
	lsls	r1, r1, #3
	adds	r1, r1, r4
	adds	r1, #136
	ands	r1, r2
	adds	r1, r1, r3
	lsls	r1, r1, #1
	adds	r0, r0, r1
	adds	r0, r0, r4
	pop	{r4, r5, r7, pc}
.Lm_BB20_2:
	movs	r0, #0
	pop	{r4, r5, r7, pc}
.Lm_func_end20:
	.size	tlsf_queue_bytes, .Lm_func_end20-tlsf_queue_bytes
	.cfi_endproc
	.section	.text.tlsf_queue_open_in,"ax",%progbits
	.globl	tlsf_queue_open_in
	.p2align	2
	.type	tlsf_queue_open_in,%function
	.code	16
	.thumb_func
tlsf_queue_open_in:
	.cfi_startproc
	push	{r4, r5, r6, r7, lr}
	.cfi_def_cfa_offset 20
	.cfi_offset lr, -4
	.cfi_offset r7, -8
	.cfi_offset r6, -12
	.cfi_offset r5, -16
	.cfi_offset r4, -20
	sub	sp, #12
	.cfi_def_cfa_offset 32
	str	r0, [sp, #8]
	ldr	r5, .Lm_CPI21_0
	ldr	r0, [sp, #32]
	cmp	r1, r5
	bhs	.Lm_BB21_11
	cmp	r2, r5
	bhs	.Lm_BB21_11
	movs	r5, #255
	lsls	r5, r5, #7
	lsls	r6, r1, #3
	adds	r6, #135
	ands	r6, r5
	lsls	r7, r1, #4
	adds	r7, #135
	ldr	r4, .Lm_CPI21_1
	ands	r4, r7
	lsls	r7, r1, #7
	adds	r4, r7, r4
	adds	r4, r4, r6
	str	r4, [sp, #4]
	lsls	r6, r2, #5
	adds	r6, #135
	ldr	r7, .Lm_CPI21_2
	ands	r7, r6
	lsls	r6, r2, #3
	ldr	r4, .Lm_CPI21_3
	adds	r4, r6, r4
	ands	r4, r5
	adds	r4, r4, r7
	lsls	r4, r4, #1
	ldr	r5, [sp, #4]
	adds	r4, r5, r4
	movs	r5, #1
	lsls	r5, r5, #8
	adds	r4, r4, r5
	rsbs	r6, r3, #0
	movs	r5, #127
	ands	r5, r6
	subs	r7, r0, r5
	movs	r6, #0
	cmp	r7, r4
	mov	r7, r6
	blo	.Lm_BB21_4
	mov	r7, r2
.Lm_BB21_4:
	cmp	r0, r5
	mov	r2, r6
	blo	.Lm_BB21_6
	mov	r2, r7
.Lm_BB21_6:
	mvns	r7, r3
	cmp	r0, r7
	bhi	.Lm_BB21_8
	mov	r6, r2
.Lm_BB21_8:
	cmp	r3, #0
	bne	.Lm_BB21_10
	mov	r6, r3
.Lm_BB21_10:
	mov	r2, r6
	b	.Lm_BB21_12
.Lm_BB21_11:
	rsbs	r6, r3, #0
	movs	r5, #127
	ands	r5, r6
	mvns	r7, r3
.Lm_BB21_12:
	ldr	r4, .Lm_CPI21_4
	movs	r6, #128
	str	r6, [r4]
	subs	r4, r3, #1
	mov	r6, r3
	sbcs	r6, r4
	cmp	r5, r0
	blo	.Lm_BB21_14
	mov	r5, r0
.Lm_BB21_14:
	movs	r4, #0
	cmp	r0, r7
	str	r4, [sp, #4]
	bls	.Lm_BB21_16
	mov	r7, r4
	b	.Lm_BB21_17
.Lm_BB21_16:
	movs	r7, #1
.Lm_BB21_17:
	adds	r5, r3, r5
	adds	r4, r3, r0
	ldr	r3, .Lm_CPI21_5
	tst	r6, r7
	bne	.Lm_BB21_19
	mov	r4, r3
.Lm_BB21_19:
	ldr	r0, .Lm_CPI21_6
	str	r4, [r0]
	bne	.Lm_BB21_21
	mov	r5, r3
.Lm_BB21_21:
	ldr	r4, .Lm_CPI21_7
	str	r5, [r4]
	ldr	r0, [sp, #8]
	bl	tlsf_queue_open
	cmp	r0, #5
	mov	r1, r0
	bne	.Lm_BB21_23
	movs	r1, #39
.Lm_BB21_23:
	tst	r6, r7
	ldr	r2, [sp, #4]
	str	r2, [r4]
	bne	.Lm_BB21_25
	mov	r0, r1
.Lm_BB21_25:
	add	sp, #12
	pop	{r4, r5, r6, r7, pc}
	.p2align	2
.Lm_CPI21_0:
	.long	1025
.Lm_CPI21_1:
	.long	65408
.Lm_CPI21_2:
	.long	130944
.Lm_CPI21_3:
	.long	519
.Lm_CPI21_4:
	.long	lent_step
.Lm_CPI21_5:
	.long	begin_behind.nothing
.Lm_CPI21_6:
	.long	lent_end
.Lm_CPI21_7:
	.long	lent
.Lm_func_end21:
	.size	tlsf_queue_open_in, .Lm_func_end21-tlsf_queue_open_in
	.cfi_endproc
	.section	.text.tlsf_offsets_bytes,"ax",%progbits
	.globl	tlsf_offsets_bytes
	.p2align	2
	.type	tlsf_offsets_bytes,%function
	.code	16
	.thumb_func
tlsf_offsets_bytes:
	.cfi_startproc
	cmp	r1, #4
	bhs	.Lm_BB22_2
	movs	r0, #0
	bx	lr
.Lm_BB22_2:
	mov	r2, r0
	ldr	r3, .Lm_CPI22_0
	movs	r0, #0
	cmp	r2, #4
	beq	.Lm_BB22_4
	mov	r2, r0
	b	.Lm_BB22_5
.Lm_BB22_4:
	mov	r2, r3
	adds	r2, #16
.Lm_BB22_5:
	cmp	r1, r2
	bhi	.Lm_BB22_7
	lsls	r0, r1, #3
	adds	r0, #23
	ldr	r2, .Lm_CPI22_1
	ands	r2, r0
	adds	r1, #63
	lsrs	r0, r1, #3
	adds	r0, #16
	ands	r0, r3
	adds	r0, r2, r0
	ldr	r1, .Lm_CPI22_2
	adds	r0, r0, r1
.Lm_BB22_7:
	bx	lr
	.p2align	2
.Lm_CPI22_0:
	.long	1048560
.Lm_CPI22_1:
	.long	33554416
.Lm_CPI22_2:
	.long	1311
.Lm_func_end22:
	.size	tlsf_offsets_bytes, .Lm_func_end22-tlsf_offsets_bytes
	.cfi_endproc
	.section	.text.tlsf_offsets_open_in,"ax",%progbits
	.globl	tlsf_offsets_open_in
	.p2align	2
	.type	tlsf_offsets_open_in,%function
	.code	16
	.thumb_func
tlsf_offsets_open_in:
	.cfi_startproc
	push	{r4, r5, r6, r7, lr}
	.cfi_def_cfa_offset 20
	.cfi_offset lr, -4
	.cfi_offset r7, -8
	.cfi_offset r6, -12
	.cfi_offset r5, -16
	.cfi_offset r4, -20
	sub	sp, #28
	.cfi_def_cfa_offset 48
	add	r4, sp, #16
	stm	r4!, {r0, r2, r3}
	ldr	r2, .Lm_CPI23_0
	str	r1, [sp, #8]
	cmp	r1, #4
	beq	.Lm_BB23_2
	movs	r3, #0
	b	.Lm_BB23_3
.Lm_BB23_2:
	mov	r3, r2
	adds	r3, #16
.Lm_BB23_3:
	ldr	r0, [sp, #56]
	ldr	r5, [sp, #52]
	ldr	r6, [sp, #48]
	cmp	r6, r3
	bls	.Lm_BB23_5
	rsbs	r2, r5, #0
	movs	r4, #15
	ands	r4, r2
	mvns	r3, r5
	mov	r1, r6
	b	.Lm_BB23_13
.Lm_BB23_5:
	lsls	r3, r6, #3
	adds	r3, #23
	ldr	r7, .Lm_CPI23_1
	ands	r7, r3
	mov	r3, r6
	adds	r3, #63
	lsrs	r3, r3, #3
	adds	r3, #16
	ands	r3, r2
	adds	r2, r7, r3
	movs	r3, #81
	lsls	r3, r3, #4
	adds	r3, r2, r3
	rsbs	r2, r5, #0
	movs	r4, #15
	ands	r4, r2
	subs	r2, r0, r4
	movs	r1, #0
	cmp	r2, r3
	mov	r3, r1
	blo	.Lm_BB23_7
	mov	r3, r6
.Lm_BB23_7:
	cmp	r0, r4
	mov	r6, r1
	blo	.Lm_BB23_9
	mov	r6, r3
.Lm_BB23_9:
	mvns	r3, r5
	cmp	r0, r3
	bhi	.Lm_BB23_11
	mov	r1, r6
.Lm_BB23_11:
	cmp	r5, #0
	bne	.Lm_BB23_13
	mov	r1, r5
.Lm_BB23_13:
	ldr	r2, .Lm_CPI23_2
	movs	r6, #16
	str	r6, [r2]
	subs	r2, r5, #1
	mov	r6, r5
	sbcs	r6, r2
	cmp	r4, r0
	blo	.Lm_BB23_15
	mov	r4, r0
.Lm_BB23_15:
	movs	r2, #0
	cmp	r0, r3
	bls	.Lm_BB23_17
	mov	r7, r2
	b	.Lm_BB23_18
.Lm_BB23_17:
	movs	r7, #1
.Lm_BB23_18:
	str	r2, [sp, #12]
	adds	r3, r5, r4
	adds	r5, r5, r0
	ldr	r4, .Lm_CPI23_3
	tst	r6, r7
	bne	.Lm_BB23_20
	mov	r5, r4
.Lm_BB23_20:
	ldr	r2, .Lm_CPI23_4
	str	r5, [r2]
	bne	.Lm_BB23_22
	mov	r3, r4
.Lm_BB23_22:
	ldr	r4, .Lm_CPI23_5
	str	r3, [r4]
	str	r1, [sp]
	ldr	r1, [sp, #8]
	add	r3, sp, #16
	ldm	r3, {r0, r2, r3}
	bl	tlsf_offsets_open
	cmp	r0, #5
	mov	r1, r0
	bne	.Lm_BB23_24
	movs	r1, #39
.Lm_BB23_24:
	tst	r6, r7
	ldr	r2, [sp, #12]
	str	r2, [r4]
	bne	.Lm_BB23_26
	mov	r0, r1
.Lm_BB23_26:
	add	sp, #28
	pop	{r4, r5, r6, r7, pc}
	.p2align	2
.Lm_CPI23_0:
	.long	1048560
.Lm_CPI23_1:
	.long	33554416
.Lm_CPI23_2:
	.long	lent_step
.Lm_CPI23_3:
	.long	begin_behind.nothing
.Lm_CPI23_4:
	.long	lent_end
.Lm_CPI23_5:
	.long	lent
.Lm_func_end23:
	.size	tlsf_offsets_open_in, .Lm_func_end23-tlsf_offsets_open_in
	.cfi_endproc
	.section	.text.tlsf_pools_bytes,"ax",%progbits
	.globl	tlsf_pools_bytes
	.p2align	2
	.type	tlsf_pools_bytes,%function
	.code	16
	.thumb_func
tlsf_pools_bytes:
	.cfi_startproc
	push	{r4, r5, r7, lr}
	.cfi_def_cfa_offset 16
	.cfi_offset lr, -4
	.cfi_offset r7, -8
	.cfi_offset r5, -12
	.cfi_offset r4, -16
	sub	sp, #16
	.cfi_def_cfa_offset 32
	mov	r4, r2
	movs	r5, #0
	str	r5, [sp, #12]
	str	r5, [sp, #8]
	str	r5, [sp, #4]
	add	r2, sp, #4
	str	r2, [sp]
	add	r3, sp, #8
	mov	r2, r4
	bl	tlsf_pools_words
	cmp	r0, #0
	bne	.Lm_BB24_2
	movs	r1, #80
	ldr	r0, [sp, #4]
	muls	r1, r0, r1
	movs	r2, #12
	muls	r2, r4, r2
	ldr	r3, [sp, #8]
	lsls	r4, r3, #3
	adds	r2, r2, r4
	adds	r1, r2, r1
	lsrs	r2, r3, #6
	lsls	r2, r2, #3
	adds	r1, r1, r2
	ldr	r2, .Lm_CPI24_0
	mov	r3, r2
	adds	r3, #9
	muls	r3, r0, r3
	adds	r3, #23
	movs	r0, #15
	bics	r3, r0
	adds	r0, r1, r3
	adds	r5, r0, r2
.Lm_BB24_2:
	mov	r0, r5
	add	sp, #16
	pop	{r4, r5, r7, pc}
	.p2align	2
.Lm_CPI24_0:
	.long	1311
.Lm_func_end24:
	.size	tlsf_pools_bytes, .Lm_func_end24-tlsf_pools_bytes
	.cfi_endproc
	.section	.text.tlsf_pools_open_in,"ax",%progbits
	.globl	tlsf_pools_open_in
	.p2align	2
	.type	tlsf_pools_open_in,%function
	.code	16
	.thumb_func
tlsf_pools_open_in:
	.cfi_startproc
	push	{r4, r5, r6, r7, lr}
	.cfi_def_cfa_offset 20
	.cfi_offset lr, -4
	.cfi_offset r7, -8
	.cfi_offset r6, -12
	.cfi_offset r5, -16
	.cfi_offset r4, -20
	sub	sp, #28
	.cfi_def_cfa_offset 48
	str	r3, [sp, #20]
	str	r2, [sp, #16]
	str	r1, [sp, #8]
	ldr	r4, .Lm_CPI25_0
	movs	r5, #16
	str	r5, [r4]
	ldr	r7, [sp, #52]
	rsbs	r4, r7, #0
	movs	r5, #15
	ands	r5, r4
	ldr	r6, [sp, #56]
	cmp	r5, r6
	blo	.Lm_BB25_2
	mov	r5, r6
.Lm_BB25_2:
	subs	r3, r7, #1
	mov	r4, r7
	sbcs	r4, r3
	str	r4, [sp, #24]
	mvns	r4, r7
	movs	r2, #0
	cmp	r6, r4
	bls	.Lm_BB25_4
	mov	r3, r2
	b	.Lm_BB25_5
.Lm_BB25_4:
	movs	r3, #1
.Lm_BB25_5:
	adds	r5, r7, r5
	adds	r7, r7, r6
	ldr	r1, .Lm_CPI25_1
	ldr	r4, [sp, #24]
	str	r3, [sp, #12]
	tst	r4, r3
	bne	.Lm_BB25_7
	mov	r7, r1
.Lm_BB25_7:
	mov	r6, r2
	ldr	r4, .Lm_CPI25_2
	str	r7, [r4]
	bne	.Lm_BB25_9
	mov	r5, r1
.Lm_BB25_9:
	ldr	r7, .Lm_CPI25_3
	str	r5, [r7]
	ldr	r4, [sp, #48]
	str	r4, [sp]
	ldr	r1, [sp, #8]
	ldr	r2, [sp, #16]
	ldr	r3, [sp, #20]
	bl	tlsf_pools_open
	cmp	r0, #6
	bne	.Lm_BB25_11
	movs	r0, #5
.Lm_BB25_11:
	ldr	r3, [sp, #12]
	cmp	r0, #5
	mov	r1, r0
	bne	.Lm_BB25_13
	movs	r1, #39
.Lm_BB25_13:
	ldr	r2, [sp, #24]
	tst	r2, r3
	str	r6, [r7]
	bne	.Lm_BB25_15
	mov	r0, r1
.Lm_BB25_15:
	add	sp, #28
	pop	{r4, r5, r6, r7, pc}
	.p2align	2
.Lm_CPI25_0:
	.long	lent_step
.Lm_CPI25_1:
	.long	begin_behind.nothing
.Lm_CPI25_2:
	.long	lent_end
.Lm_CPI25_3:
	.long	lent
.Lm_func_end25:
	.size	tlsf_pools_open_in, .Lm_func_end25-tlsf_pools_open_in
	.cfi_endproc
	.section	.text.tlsf_next_number,"ax",%progbits
	.globl	tlsf_next_number
	.p2align	2
	.type	tlsf_next_number,%function
	.code	16
	.thumb_func
tlsf_next_number:
	.cfi_startproc
	push	{r4, r5, r6, lr}
	.cfi_def_cfa_offset 16
	.cfi_offset lr, -4
	.cfi_offset r6, -8
	.cfi_offset r5, -12
	.cfi_offset r4, -16
	sub	sp, #8
	.cfi_def_cfa_offset 24
	mov	r5, r0
	movs	r4, #0
	str	r4, [sp]
	ldr	r0, .Lm_CPI26_0
	movs	r6, #1
	mov	r2, r6
	mov	r3, r4
	bl	__atomic_fetch_add_8
	lsrs	r2, r0, #29
	lsls	r1, r1, #3
	adds	r1, r1, r2
	lsls	r0, r0, #3
	lsls	r2, r6, #31
	adds	r0, r0, r2
	adcs	r1, r4
	bne	.Lm_BB26_2
	str	r0, [r5]
	b	.Lm_BB26_3
.Lm_BB26_2:
	movs	r4, #2
.Lm_BB26_3:
	mov	r0, r4
	add	sp, #8
	pop	{r4, r5, r6, pc}
	.p2align	2
.Lm_CPI26_0:
	.long	tlsf_next_number.calls
.Lm_func_end26:
	.size	tlsf_next_number, .Lm_func_end26-tlsf_next_number
	.cfi_endproc
	.section	.text.open_noted,"ax",%progbits
	.p2align	1
	.type	open_noted,%function
	.code	16
	.thumb_func
open_noted:
	.cfi_startproc
	push	{r4, r5, r6, lr}
	.cfi_def_cfa_offset 16
	.cfi_offset lr, -4
	.cfi_offset r6, -8
	.cfi_offset r5, -12
	.cfi_offset r4, -16
	mov	r4, r0
	ldrb	r0, [r0, #29]
	cmp	r0, #0
	beq	.Lm_BB27_4
	movs	r5, #56
	mvns	r5, r5
	mov	r6, r0
	subs	r6, #65
	cmp	r6, r5
	blo	.Lm_BB27_3
	mov	r5, r0
	adds	r5, #127
	tst	r5, r0
	beq	.Lm_BB27_4
.Lm_BB27_3:
	movs	r3, #0
.Lm_BB27_4:
	mov	r0, r4
	bl	tlsf_open
	cmp	r0, #0
	beq	.Lm_BB27_6
.Lm_BB27_5:
	pop	{r4, r5, r6, pc}
.Lm_BB27_6:
	ldrb	r1, [r4, #29]
	movs	r2, #247
	tst	r1, r2
	beq	.Lm_BB27_5
	movs	r1, #1
	strb	r1, [r4, #28]
	pop	{r4, r5, r6, pc}
.Lm_func_end27:
	.size	open_noted, .Lm_func_end27-open_noted
	.cfi_endproc
	.type	tlsf_memory_alloc.nothing,%object
	.section	.bss.tlsf_memory_alloc.nothing,"aw",%nobits
	.p2align	3, 0x0
tlsf_memory_alloc.nothing:
	.long	0
	.long	0
	.size	tlsf_memory_alloc.nothing, 8
	.type	near_room,%object
	.section	.bss.near_room,"aw",%nobits
	.p2align	2, 0x0
near_room:
	.long	0
	.size	near_room, 4
	.type	pieces_first,%object
	.section	.bss.pieces_first,"aw",%nobits
	.p2align	2, 0x0
pieces_first:
	.long	0
	.size	pieces_first, 4
	.type	lent,%object
	.section	.bss.lent,"aw",%nobits
	.p2align	2, 0x0
lent:
	.long	0
	.size	lent, 4
	.type	tlsf_next_number.calls,%object
	.section	.bss.tlsf_next_number.calls,"aw",%nobits
	.p2align	3, 0x0
tlsf_next_number.calls:
	.long	0
	.long	0
	.size	tlsf_next_number.calls, 8
	.type	lent_step,%object
	.section	.bss.lent_step,"aw",%nobits
	.p2align	2, 0x0
lent_step:
	.long	0
	.size	lent_step, 4
	.type	lent_end,%object
	.section	.bss.lent_end,"aw",%nobits
	.p2align	2, 0x0
lent_end:
	.long	0
	.size	lent_end, 4
	.type	begin_behind.nothing,%object
	.section	.bss.begin_behind.nothing,"aw",%nobits
begin_behind.nothing:
	.byte	0
	.size	begin_behind.nothing, 1
	.ident	"clang version 22.1.8"
	.section	".note.GNU-stack","",%progbits
#endif
