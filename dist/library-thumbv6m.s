#ifndef TLSF_ONLY_MEMORY
/* The calls in Rattle. */
	.syntax	unified
	.eabi_attribute	24, 1
	.eabi_attribute	25, 1
	.section	.text.unlikely.tlsf_c.call_fault.CallFault.refusal,"ax",%progbits
	.p2align	1
	.type	tlsf_c.call_fault.CallFault.refusal,%function
	.code	16
	.thumb_func
tlsf_c.call_fault.CallFault.refusal:
	.cfi_sections .debug_frame
	.cfi_startproc
	lsls	r0, r0, #2
	movs	r1, #32
	orrs	r1, r0
	uxtb	r0, r1
	bx	lr
.Lfunc_end0:
	.size	tlsf_c.call_fault.CallFault.refusal, .Lfunc_end0-tlsf_c.call_fault.CallFault.refusal
	.cfi_endproc
	.section	.text.tlsf_heap.heap.Heap.resize_live.4,"ax",%progbits
	.p2align	1
	.type	tlsf_heap.heap.Heap.resize_live.4,%function
	.code	16
	.thumb_func
tlsf_heap.heap.Heap.resize_live.4:
	.cfi_startproc
	push	{r4, r5, r6, r7, lr}
	.cfi_def_cfa_offset 20
	.cfi_offset lr, -4
	.cfi_offset r7, -8
	.cfi_offset r6, -12
	.cfi_offset r5, -16
	.cfi_offset r4, -20
	sub	sp, #52
	.cfi_def_cfa_offset 72
	ldrb	r3, [r1, #4]
	ldrb	r4, [r1, #5]
	lsls	r4, r4, #8
	adds	r3, r4, r3
	ldrb	r4, [r1, #6]
	lsls	r4, r4, #16
	ldrb	r1, [r1, #7]
	lsls	r1, r1, #24
	adds	r1, r1, r4
	adds	r1, r1, r3
	str	r1, [sp, #48]
	lsls	r7, r1, #3
	ldr	r3, [r0, #24]
	adds	r4, r3, r7
	ldr	r1, [r4, #4]
	str	r1, [sp, #44]
	ldr	r1, [r3, r7]
	lsrs	r6, r1, #2
	mov	r5, r0
	adds	r5, #24
	cmp	r2, r6
	str	r1, [sp, #40]
	bls	.LBB1_4
	lsls	r1, r1, #30
	bmi	.LBB1_3
	ldr	r1, [sp, #48]
	adds	r1, r6, r1
	lsls	r1, r1, #3
	str	r1, [sp, #36]
	ldr	r4, [r3, r1]
	lsls	r1, r4, #31
	bne	.LBB1_8
.LBB1_3:
	movs	r4, #0
	mov	r3, r4
	b	.LBB1_9
.LBB1_4:
	ldr	r7, [r0, #8]
	ldr	r1, [r0, #12]
	mov	r3, r7
	ands	r3, r1
	adds	r3, r3, #1
	beq	.LBB1_15
	movs	r3, #0
	str	r3, [r4, #16]
	str	r3, [sp, #36]
	str	r3, [r4, #20]
	adds	r3, r2, #4
	cmp	r6, r3
	mov	r4, r6
	blo	.LBB1_7
	str	r2, [sp]
	str	r7, [sp, #8]
	str	r1, [sp, #12]
	mov	r4, r0
	mov	r0, r5
	ldr	r1, [sp, #48]
	mov	r5, r2
	ldr	r2, [sp, #40]
	ldr	r3, [sp, #44]
	bl	tlsf_heap.refitting.split_off.4
	mov	r0, r4
	mov	r4, r5
.LBB1_7:
	subs	r1, r4, r6
	ldr	r2, [r0, #16]
	adds	r1, r1, r2
	ldr	r2, [r0, #8]
	adds	r2, r2, #1
	str	r2, [r0, #8]
	str	r1, [r0, #16]
	ldr	r2, [r0, #12]
	ldr	r1, [sp, #36]
	adcs	r2, r1
	str	r2, [r0, #12]
	b	.LBB1_16
.LBB1_8:
	ldr	r1, [sp, #36]
	adds	r1, r3, r1
	ldr	r3, [r1, #4]
.LBB1_9:
	lsrs	r1, r4, #2
	adds	r1, r1, r6
	cmp	r1, r2
	bhs	.LBB1_11
	movs	r0, #1
	movs	r1, #5
	add	sp, #52
	pop	{r4, r5, r6, r7, pc}
.LBB1_11:
	str	r3, [sp, #36]
	ldr	r1, [r0, #8]
	ldr	r3, [r0, #12]
	str	r1, [sp, #28]
	str	r3, [sp, #32]
	ands	r1, r3
	adds	r1, r1, #1
	beq	.LBB1_15
	ldr	r1, [sp, #28]
	str	r1, [sp, #16]
	ldr	r1, [sp, #32]
	str	r1, [sp, #20]
	str	r4, [sp]
	ldr	r1, [sp, #36]
	str	r1, [sp, #4]
	str	r2, [sp, #8]
	mov	r4, r0
	mov	r0, r5
	ldr	r1, [sp, #48]
	ldr	r2, [sp, #40]
	ldr	r3, [sp, #44]
	bl	tlsf_heap.refitting.recut.4
	mov	r2, r4
	ldr	r1, [r4, #24]
	adds	r3, r1, r7
	movs	r1, #0
	str	r1, [r3, #16]
	str	r1, [r3, #20]
	subs	r0, r0, r6
	ldr	r3, [r4, #16]
	adds	r0, r3, r0
	str	r0, [r4, #16]
	ldr	r3, [r4, #20]
	cmp	r3, r0
	bhs	.LBB1_14
	str	r0, [r2, #20]
.LBB1_14:
	ldr	r0, [r2, #8]
	adds	r0, r0, #1
	str	r0, [r2, #8]
	ldr	r0, [r2, #12]
	adcs	r0, r1
	str	r0, [r2, #12]
	b	.LBB1_16
.LBB1_15:
	movs	r1, #1
.LBB1_16:
	mov	r0, r1
	add	sp, #52
	pop	{r4, r5, r6, r7, pc}
.Lfunc_end1:
	.size	tlsf_heap.heap.Heap.resize_live.4, .Lfunc_end1-tlsf_heap.heap.Heap.resize_live.4
	.cfi_endproc
	.section	.text.tlsf_heap.refitting.split_off.4,"ax",%progbits
	.p2align	1
	.type	tlsf_heap.refitting.split_off.4,%function
	.code	16
	.thumb_func
tlsf_heap.refitting.split_off.4:
	.cfi_startproc
	push	{r4, r5, r6, r7, lr}
	.cfi_def_cfa_offset 20
	.cfi_offset lr, -4
	.cfi_offset r7, -8
	.cfi_offset r6, -12
	.cfi_offset r5, -16
	.cfi_offset r4, -20
	sub	sp, #76
	.cfi_def_cfa_offset 96
	str	r3, [sp, #48]
	str	r1, [sp, #72]
	mov	r6, r0
	ldr	r1, [r0]
	str	r1, [sp, #68]
	lsls	r1, r2, #30
	ldr	r1, [sp, #108]
	str	r1, [sp, #52]
	ldr	r5, [sp, #104]
	ldr	r7, [sp, #96]
	bmi	.LBB2_2
	lsrs	r1, r2, #2
	ldr	r3, [sp, #72]
	adds	r1, r1, r3
	lsls	r3, r1, #3
	ldr	r1, [sp, #68]
	ldr	r1, [r1, r3]
	lsls	r4, r1, #31
	beq	.LBB2_2
	b	.LBB2_7
.LBB2_2:
	str	r6, [sp, #64]
	ldr	r1, [sp, #72]
	adds	r0, r7, r1
	str	r0, [sp, #56]
	str	r5, [sp, #28]
	mov	r5, r1
	lsls	r4, r0, #3
	movs	r3, #1
	mov	r1, r2
	str	r2, [sp, #32]
	orrs	r1, r3
	str	r7, [sp, #44]
	lsls	r2, r7, #2
	subs	r2, r1, r2
	str	r2, [sp, #40]
	lsls	r7, r5, #3
	str	r7, [sp, #36]
	movs	r5, #0
	str	r5, [sp, #60]
	subs	r1, r1, r2
	ldr	r0, [sp, #68]
	str	r1, [r0, r7]
	ldr	r1, [r6]
	str	r2, [r1, r4]
	ldr	r7, [sp, #48]
	sbcs	r7, r5
	str	r4, [sp, #48]
	adds	r4, r1, r4
	ldr	r0, [sp, #28]
	str	r0, [r4, #8]
	ldr	r1, [sp, #56]
	lsrs	r0, r1, #6
	lsls	r5, r0, #3
	ldr	r0, [sp, #64]
	ldr	r6, [r0, #24]
	ldr	r0, [r6, r5]
	str	r0, [sp, #28]
	movs	r2, #63
	ands	r2, r1
	str	r3, [sp, #24]
	mov	r0, r3
	ldr	r1, [sp, #60]
	bl	__aeabi_llsl
	ldr	r2, [sp, #28]
	orrs	r0, r2
	str	r0, [r6, r5]
	ldr	r0, [sp, #68]
	ldr	r2, [sp, #36]
	adds	r0, r0, r2
	str	r7, [r0, #4]
	ldr	r7, [sp, #56]
	ldr	r0, [sp, #52]
	str	r0, [r4, #12]
	ldr	r0, [sp, #72]
	str	r0, [r4, #4]
	ldr	r4, [sp, #64]
	adds	r0, r6, r5
	ldr	r2, [r0, #4]
	orrs	r2, r1
	str	r2, [r0, #4]
	ldr	r0, [sp, #40]
	lsls	r1, r0, #30
	ldr	r0, [sp, #60]
	mvns	r5, r0
	ldr	r0, [sp, #32]
	lsrs	r0, r0, #2
	cmp	r1, #0
	bmi	.LBB2_4
	ldr	r1, [sp, #72]
	adds	r1, r0, r1
	lsls	r1, r1, #3
	ldr	r2, [r4]
	ldr	r3, [r2, r1]
	ands	r3, r5
	str	r3, [r2, r1]
	adds	r1, r2, r1
	str	r7, [r1, #4]
.LBB2_4:
	ldr	r1, [sp, #44]
	subs	r6, r0, r1
	movs	r0, #16
	orrs	r0, r6
	bl	__clzsi2
	movs	r1, #27
	subs	r0, r1, r0
	lsrs	r6, r0
	lsls	r0, r0, #4
	adds	r0, r6, r0
	lsls	r1, r0, #2
	adds	r2, r4, r1
	movs	r3, #144
	ldr	r1, [r2, r3]
	str	r7, [r2, r3]
	cmp	r1, #0
	bmi	.LBB2_6
	ldr	r0, [r4]
	ldr	r2, [sp, #48]
	adds	r2, r0, r2
	str	r1, [r2, #16]
	str	r5, [r2, #20]
	lsls	r1, r1, #3
	adds	r0, r0, r1
	str	r7, [r0, #20]
	ldr	r1, [r0, #16]
	ands	r1, r5
	str	r1, [r0, #16]
	add	sp, #76
	pop	{r4, r5, r6, r7, pc}
.LBB2_6:
	ldr	r1, [r4]
	ldr	r2, [sp, #48]
	adds	r1, r1, r2
	str	r5, [r1, #16]
	str	r5, [r1, #20]
	lsrs	r0, r0, #4
	ldr	r3, [sp, #24]
	mov	r1, r3
	lsls	r1, r0
	ldr	r2, [r4, #56]
	orrs	r2, r1
	str	r2, [r4, #56]
	movs	r1, #15
	ands	r6, r1
	lsls	r3, r6
	lsls	r0, r0, #2
	adds	r0, r4, r0
	ldr	r1, [r0, #60]
	orrs	r1, r3
	str	r1, [r0, #60]
	add	sp, #76
	pop	{r4, r5, r6, r7, pc}
.LBB2_7:
	ldr	r4, [sp, #68]
	adds	r3, r4, r3
	ldr	r3, [r3, #4]
	str	r5, [sp, #16]
	ldr	r4, [sp, #52]
	str	r4, [sp, #20]
	add	r0, sp, #0
	stm	r0!, {r1, r3, r7}
	mov	r0, r6
	ldr	r1, [sp, #72]
	ldr	r3, [sp, #48]
	bl	tlsf_heap.refitting.recut.4
	add	sp, #76
	pop	{r4, r5, r6, r7, pc}
.Lfunc_end2:
	.size	tlsf_heap.refitting.split_off.4, .Lfunc_end2-tlsf_heap.refitting.split_off.4
	.cfi_endproc
	.section	.text.tlsf_heap.refitting.recut.4,"ax",%progbits
	.p2align	2
	.type	tlsf_heap.refitting.recut.4,%function
	.code	16
	.thumb_func
tlsf_heap.refitting.recut.4:
	.cfi_startproc
	push	{r4, r5, r6, r7, lr}
	.cfi_def_cfa_offset 20
	.cfi_offset lr, -4
	.cfi_offset r7, -8
	.cfi_offset r6, -12
	.cfi_offset r5, -16
	.cfi_offset r4, -20
	sub	sp, #92
	.cfi_def_cfa_offset 112
	str	r3, [sp, #88]
	mov	r4, r2
	mov	r7, r1
	lsrs	r1, r2, #2
	adds	r2, r1, r7
	ldr	r5, [sp, #112]
	lsrs	r1, r5, #2
	str	r0, [sp, #84]
	str	r1, [sp, #60]
	bl	tlsf_heap.region.Region.remove.4
	movs	r0, #0
	adds	r6, r5, r4
	mov	r4, r7
	ldr	r7, [sp, #88]
	adcs	r7, r0
	lsrs	r1, r6, #2
	adds	r2, r1, r4
	str	r2, [sp, #80]
	mvns	r5, r0
	ldr	r3, [sp, #120]
	adds	r2, r3, #4
	str	r1, [sp, #68]
	cmp	r2, r1
	str	r0, [sp, #72]
	str	r5, [sp, #76]
	str	r4, [sp, #64]
	bls	.LBB3_8
	str	r6, [sp, #56]
	str	r7, [sp, #88]
	ldr	r1, [sp, #60]
	ldr	r2, [sp, #80]
	subs	r4, r2, r1
	movs	r2, #1
	mvns	r1, r2
	mvns	r3, r0
	movs	r2, #32
	tst	r4, r2
	mov	r2, r1
	bne	.LBB3_3
	mov	r2, r3
.LBB3_3:
	ldr	r0, [sp, #84]
	bne	.LBB3_5
	mov	r3, r1
.LBB3_5:
	movs	r6, #31
	mov	r5, r4
	ands	r5, r6
	lsls	r3, r5
	bics	r6, r4
	ldr	r7, .LCPI3_1
	lsrs	r7, r6
	orrs	r3, r7
	lsrs	r4, r4, #3
	ldr	r1, .LCPI3_0
	ands	r4, r1
	mov	r1, r0
	ldr	r0, [r0, #24]
	ldr	r6, [r0, r4]
	ands	r6, r3
	str	r6, [r0, r4]
	lsls	r2, r5
	orrs	r2, r7
	mov	r5, r1
	adds	r0, r0, r4
	ldr	r3, [r0, #4]
	ands	r3, r2
	str	r3, [r0, #4]
	ldr	r6, [sp, #56]
	lsls	r0, r6, #30
	ldr	r4, [sp, #64]
	bmi	.LBB3_7
	ldr	r0, [sp, #80]
	lsls	r0, r0, #3
	ldr	r2, [r5]
	ldr	r3, [r2, r0]
	ldr	r1, [sp, #76]
	ands	r3, r1
	str	r3, [r2, r0]
	adds	r0, r2, r0
	str	r4, [r0, #4]
.LBB3_7:
	ldr	r0, [r5]
	lsls	r2, r4, #3
	subs	r1, r6, #1
	str	r1, [r0, r2]
	ldr	r1, [sp, #72]
	ldr	r3, [sp, #88]
	sbcs	r3, r1
	adds	r0, r0, r2
	str	r3, [r0, #4]
	ldr	r0, [sp, #68]
	add	sp, #92
	pop	{r4, r5, r6, r7, pc}
.LBB3_8:
	ldr	r1, [sp, #128]
	str	r1, [sp, #28]
	adds	r1, r3, r4
	str	r1, [sp, #52]
	lsls	r2, r1, #3
	str	r3, [sp, #56]
	lsls	r3, r3, #2
	subs	r3, r6, r3
	ldr	r1, [sp, #84]
	ldr	r5, [r1]
	lsls	r4, r4, #3
	subs	r1, r6, r3
	str	r5, [sp, #40]
	str	r4, [sp, #36]
	str	r1, [r5, r4]
	ldr	r5, [sp, #76]
	ldr	r4, [sp, #84]
	ldr	r1, [r4]
	str	r3, [sp, #44]
	str	r3, [r1, r2]
	sbcs	r7, r0
	str	r7, [sp, #88]
	str	r2, [sp, #48]
	adds	r1, r1, r2
	str	r1, [sp, #32]
	ldr	r2, [sp, #28]
	str	r2, [r1, #8]
	ldr	r1, [sp, #60]
	ldr	r2, [sp, #80]
	subs	r1, r2, r1
	movs	r2, #1
	str	r2, [sp, #60]
	mvns	r3, r2
	movs	r2, #32
	tst	r1, r2
	mov	r2, r3
	bne	.LBB3_10
	mov	r2, r5
.LBB3_10:
	str	r2, [sp, #28]
	ldr	r0, [sp, #132]
	str	r0, [sp, #24]
	mov	r2, r5
	bne	.LBB3_12
	mov	r2, r3
.LBB3_12:
	movs	r3, #31
	mov	r0, r1
	ands	r0, r3
	str	r0, [sp, #20]
	lsls	r2, r0
	bics	r3, r1
	ldr	r5, .LCPI3_1
	lsrs	r5, r3
	orrs	r2, r5
	lsrs	r7, r1, #3
	ldr	r0, .LCPI3_0
	ands	r7, r0
	mov	r3, r4
	ldr	r4, [r4, #24]
	str	r4, [sp, #16]
	ldr	r1, [r4, r7]
	ands	r1, r2
	str	r1, [r4, r7]
	ldr	r6, [sp, #52]
	lsrs	r4, r6, #3
	ands	r4, r0
	ldr	r0, [r3, #24]
	str	r0, [sp, #4]
	ldr	r1, [r0, r4]
	str	r1, [sp, #8]
	movs	r2, #63
	ands	r2, r6
	ldr	r0, [sp, #60]
	ldr	r1, [sp, #72]
	bl	__aeabi_llsl
	str	r1, [sp, #12]
	ldr	r1, [sp, #8]
	orrs	r0, r1
	ldr	r1, [sp, #4]
	str	r0, [r1, r4]
	ldr	r0, [sp, #40]
	ldr	r2, [sp, #36]
	adds	r0, r0, r2
	ldr	r2, [sp, #88]
	str	r2, [r0, #4]
	ldr	r0, [sp, #64]
	ldr	r2, [sp, #32]
	str	r0, [r2, #4]
	ldr	r0, [sp, #24]
	str	r0, [r2, #12]
	ldr	r3, [sp, #28]
	ldr	r0, [sp, #20]
	lsls	r3, r0
	orrs	r3, r5
	ldr	r0, [sp, #16]
	adds	r0, r0, r7
	mov	r7, r6
	ldr	r5, [sp, #84]
	ldr	r2, [r0, #4]
	ands	r2, r3
	str	r2, [r0, #4]
	adds	r0, r1, r4
	ldr	r2, [r0, #4]
	ldr	r1, [sp, #12]
	orrs	r2, r1
	str	r2, [r0, #4]
	ldr	r0, [sp, #44]
	lsls	r0, r0, #30
	bmi	.LBB3_14
	ldr	r0, [sp, #80]
	lsls	r0, r0, #3
	ldr	r1, [r5]
	ldr	r2, [r1, r0]
	ldr	r3, [sp, #76]
	ands	r2, r3
	str	r2, [r1, r0]
	adds	r0, r1, r0
	str	r7, [r0, #4]
.LBB3_14:
	ldr	r0, [sp, #68]
	ldr	r6, [sp, #56]
	subs	r4, r0, r6
	movs	r0, #16
	orrs	r0, r4
	bl	__clzsi2
	movs	r1, #27
	subs	r0, r1, r0
	lsrs	r4, r0
	lsls	r0, r0, #4
	adds	r0, r4, r0
	lsls	r1, r0, #2
	adds	r2, r5, r1
	movs	r3, #144
	ldr	r1, [r2, r3]
	str	r7, [r2, r3]
	cmp	r1, #0
	bmi	.LBB3_16
	ldr	r0, [r5]
	ldr	r2, [sp, #48]
	adds	r2, r0, r2
	str	r1, [r2, #16]
	ldr	r3, [sp, #76]
	str	r3, [r2, #20]
	lsls	r1, r1, #3
	adds	r0, r0, r1
	str	r7, [r0, #20]
	ldr	r1, [r0, #16]
	ands	r1, r3
	str	r1, [r0, #16]
	b	.LBB3_17
.LBB3_16:
	ldr	r1, [r5]
	ldr	r2, [sp, #48]
	adds	r1, r1, r2
	ldr	r2, [sp, #72]
	mvns	r2, r2
	str	r2, [r1, #16]
	str	r2, [r1, #20]
	lsrs	r0, r0, #4
	ldr	r3, [sp, #60]
	mov	r1, r3
	lsls	r1, r0
	ldr	r2, [r5, #56]
	orrs	r2, r1
	str	r2, [r5, #56]
	movs	r1, #15
	ands	r4, r1
	lsls	r3, r4
	lsls	r0, r0, #2
	adds	r0, r5, r0
	ldr	r1, [r0, #60]
	orrs	r1, r3
	str	r1, [r0, #60]
.LBB3_17:
	mov	r0, r6
	add	sp, #92
	pop	{r4, r5, r6, r7, pc}
	.p2align	2
.LCPI3_0:
	.long	536870904
.LCPI3_1:
	.long	2147483647
.Lfunc_end3:
	.size	tlsf_heap.refitting.recut.4, .Lfunc_end3-tlsf_heap.refitting.recut.4
	.cfi_endproc
	.section	.text.tlsf_heap.region.Region.remove.4,"ax",%progbits
	.p2align	1
	.type	tlsf_heap.region.Region.remove.4,%function
	.code	16
	.thumb_func
tlsf_heap.region.Region.remove.4:
	.cfi_startproc
	push	{r4, r5, r6, r7, lr}
	.cfi_def_cfa_offset 20
	.cfi_offset lr, -4
	.cfi_offset r7, -8
	.cfi_offset r6, -12
	.cfi_offset r5, -16
	.cfi_offset r4, -20
	sub	sp, #4
	.cfi_def_cfa_offset 24
	mov	r4, r0
	lsls	r0, r2, #3
	ldr	r7, [r4]
	adds	r0, r7, r0
	ldr	r6, [r0, #16]
	ldr	r0, [r0, #20]
	cmp	r0, #0
	bmi	.LBB4_3
	lsls	r1, r0, #3
	adds	r2, r7, r1
	ldr	r3, [r2, #20]
	movs	r1, #0
	mvns	r1, r1
	adds	r4, r6, #1
	beq	.LBB4_5
	lsls	r4, r6, #3
	ands	r6, r1
	str	r6, [r2, #16]
	str	r3, [r2, #20]
	adds	r2, r7, r4
	movs	r3, #1
	lsls	r3, r3, #31
	bics	r0, r3
	str	r0, [r2, #20]
	ldr	r0, [r2, #16]
	ands	r0, r1
	str	r0, [r2, #16]
	add	sp, #4
	pop	{r4, r5, r6, r7, pc}
.LBB4_3:
	mov	r5, r1
	movs	r0, #16
	orrs	r0, r1
	bl	__clzsi2
	movs	r1, #27
	subs	r0, r1, r0
	lsrs	r5, r0
	lsls	r0, r0, #4
	adds	r0, r5, r0
	adds	r1, r6, #1
	beq	.LBB4_6
	lsls	r1, r6, #3
	adds	r1, r7, r1
	movs	r2, #0
	mvns	r2, r2
	str	r2, [r1, #20]
	lsls	r0, r0, #2
	adds	r0, r4, r0
	movs	r1, #144
	str	r6, [r0, r1]
	add	sp, #4
	pop	{r4, r5, r6, r7, pc}
.LBB4_5:
	ldr	r0, [r2, #16]
	orrs	r0, r1
	str	r0, [r2, #16]
	str	r3, [r2, #20]
	add	sp, #4
	pop	{r4, r5, r6, r7, pc}
.LBB4_6:
	lsls	r1, r0, #2
	adds	r1, r4, r1
	movs	r2, #0
	mvns	r2, r2
	movs	r3, #144
	str	r2, [r1, r3]
	movs	r1, #15
	ands	r5, r1
	movs	r1, #1
	mov	r2, r1
	lsls	r2, r5
	lsrs	r0, r0, #4
	lsls	r3, r0, #2
	adds	r3, r4, r3
	ldr	r5, [r3, #60]
	bics	r5, r2
	str	r5, [r3, #60]
	beq	.LBB4_8
	add	sp, #4
	pop	{r4, r5, r6, r7, pc}
.LBB4_8:
	lsls	r1, r0
	ldr	r0, [r4, #56]
	bics	r0, r1
	str	r0, [r4, #56]
	add	sp, #4
	pop	{r4, r5, r6, r7, pc}
.Lfunc_end4:
	.size	tlsf_heap.region.Region.remove.4, .Lfunc_end4-tlsf_heap.region.Region.remove.4
	.cfi_endproc
	.section	.text.tlsf_heap.heap.Heap.release_live.4,"ax",%progbits
	.p2align	1
	.type	tlsf_heap.heap.Heap.release_live.4,%function
	.code	16
	.thumb_func
tlsf_heap.heap.Heap.release_live.4:
	.cfi_startproc
	push	{r4, r5, r6, r7, lr}
	.cfi_def_cfa_offset 20
	.cfi_offset lr, -4
	.cfi_offset r7, -8
	.cfi_offset r6, -12
	.cfi_offset r5, -16
	.cfi_offset r4, -20
	sub	sp, #60
	.cfi_def_cfa_offset 80
	ldrb	r2, [r1, #4]
	ldrb	r3, [r1, #5]
	lsls	r3, r3, #8
	adds	r2, r3, r2
	ldrb	r3, [r1, #6]
	lsls	r3, r3, #16
	ldrb	r1, [r1, #7]
	lsls	r1, r1, #24
	adds	r1, r1, r3
	adds	r6, r1, r2
	lsls	r3, r6, #3
	ldr	r4, [r0, #24]
	ldr	r1, [r4, r3]
	lsrs	r7, r1, #2
	ldr	r2, [r0, #16]
	subs	r2, r2, r7
	str	r2, [r0, #16]
	str	r3, [sp, #40]
	adds	r5, r4, r3
	lsls	r3, r1, #30
	movs	r2, #0
	cmp	r3, #0
	mov	r3, r2
	bmi	.LBB5_2
	adds	r2, r7, r6
	lsls	r3, r2, #3
	ldr	r2, [r4, r3]
	adds	r3, r4, r3
	ldr	r3, [r3, #4]
.LBB5_2:
	str	r3, [sp, #48]
	str	r7, [sp, #44]
	ldr	r7, [r5, #4]
	mov	r3, r0
	adds	r3, #24
	str	r3, [sp, #52]
	str	r6, [sp, #56]
	cmp	r6, #0
	beq	.LBB5_4
	lsls	r6, r7, #3
	ldr	r3, [r4, r6]
	str	r3, [sp, #36]
	lsls	r3, r3, #31
	bne	.LBB5_8
.LBB5_4:
	ldr	r6, [r0, #8]
	ldr	r4, [r0, #12]
	lsls	r3, r2, #31
	bne	.LBB5_7
	movs	r2, #1
	str	r2, [sp, #48]
	orrs	r1, r2
	stm	r5!, {r1, r7}
	str	r6, [r5]
	str	r4, [r5, #4]
	ldr	r1, [r0, #8]
	movs	r4, #0
	adds	r1, r1, #1
	str	r1, [r0, #8]
	ldr	r1, [r0, #12]
	adcs	r1, r4
	str	r1, [r0, #12]
	movs	r1, #16
	ldr	r7, [sp, #44]
	orrs	r1, r7
	mov	r5, r0
	mov	r0, r1
	bl	__clzsi2
	mov	r1, r5
	movs	r2, #27
	subs	r0, r2, r0
	lsrs	r7, r0
	lsls	r0, r0, #4
	adds	r0, r7, r0
	lsls	r2, r0, #2
	adds	r3, r5, r2
	movs	r5, #168
	ldr	r2, [r3, r5]
	ldr	r6, [sp, #56]
	str	r6, [r3, r5]
	cmp	r2, #0
	bmi	.LBB5_9
	ldr	r0, [sp, #52]
	ldr	r0, [r0]
	ldr	r1, [sp, #40]
	adds	r1, r0, r1
	mvns	r3, r4
	str	r2, [r1, #16]
	str	r3, [r1, #20]
	lsls	r1, r2, #3
	adds	r0, r0, r1
	str	r6, [r0, #20]
	add	sp, #60
	pop	{r4, r5, r6, r7, pc}
.LBB5_7:
	movs	r3, #0
	adds	r5, r6, #1
	str	r5, [r0, #8]
	adcs	r3, r4
	str	r3, [r0, #12]
	str	r1, [sp]
	str	r7, [sp, #4]
	str	r6, [sp, #8]
	str	r4, [sp, #12]
	ldr	r0, [sp, #56]
	str	r0, [sp, #16]
	ldr	r0, [sp, #52]
	ldr	r3, [sp, #48]
	bl	tlsf_heap.fitting.merge_next.4
	add	sp, #60
	pop	{r4, r5, r6, r7, pc}
.LBB5_8:
	adds	r3, r4, r6
	ldr	r3, [r3, #4]
	ldr	r4, [r0, #8]
	movs	r5, #0
	adds	r6, r4, #1
	str	r6, [r0, #8]
	ldr	r6, [r0, #12]
	adcs	r5, r6
	str	r5, [r0, #12]
	str	r1, [sp, #24]
	str	r7, [sp, #28]
	ldr	r0, [sp, #36]
	add	r1, sp, #0
	stm	r1!, {r0, r3, r4, r6}
	ldr	r0, [sp, #56]
	str	r0, [sp, #16]
	ldr	r0, [sp, #52]
	ldr	r3, [sp, #48]
	bl	tlsf_heap.fitting.merge_before.4
	add	sp, #60
	pop	{r4, r5, r6, r7, pc}
.LBB5_9:
	ldr	r2, [r1, #24]
	ldr	r3, [sp, #40]
	adds	r2, r2, r3
	mvns	r3, r4
	str	r3, [r2, #16]
	str	r3, [r2, #20]
	lsrs	r0, r0, #4
	ldr	r4, [sp, #48]
	mov	r2, r4
	lsls	r2, r0
	ldr	r3, [r1, #80]
	orrs	r3, r2
	str	r3, [r1, #80]
	movs	r2, #15
	ands	r7, r2
	lsls	r4, r7
	lsls	r0, r0, #2
	adds	r0, r1, r0
	ldr	r1, [r0, #84]
	orrs	r1, r4
	str	r1, [r0, #84]
	add	sp, #60
	pop	{r4, r5, r6, r7, pc}
.Lfunc_end5:
	.size	tlsf_heap.heap.Heap.release_live.4, .Lfunc_end5-tlsf_heap.heap.Heap.release_live.4
	.cfi_endproc
	.section	.text.tlsf_heap.fitting.merge_before.4,"ax",%progbits
	.p2align	2
	.type	tlsf_heap.fitting.merge_before.4,%function
	.code	16
	.thumb_func
tlsf_heap.fitting.merge_before.4:
	.cfi_startproc
	push	{r4, r5, r6, r7, lr}
	.cfi_def_cfa_offset 20
	.cfi_offset lr, -4
	.cfi_offset r7, -8
	.cfi_offset r6, -12
	.cfi_offset r5, -16
	.cfi_offset r4, -20
	sub	sp, #84
	.cfi_def_cfa_offset 104
	str	r3, [sp, #80]
	mov	r7, r0
	lsls	r0, r2, #31
	ldr	r1, [sp, #128]
	ldr	r5, [sp, #116]
	ldr	r4, [sp, #112]
	ldr	r6, [sp, #108]
	ldr	r0, [sp, #104]
	ldr	r3, [sp, #120]
	bne	.LBB6_3
	str	r4, [sp, #48]
	str	r5, [sp, #52]
	movs	r2, #1
	str	r2, [sp, #56]
	orrs	r1, r2
	mov	r4, r3
	movs	r3, #0
	adds	r1, r0, r1
	adcs	r6, r3
	subs	r5, r1, #1
	sbcs	r6, r3
	str	r6, [sp, #44]
	lsrs	r6, r0, #2
	subs	r2, r4, r6
	lsls	r1, r2, #3
	ldr	r0, [r7]
	str	r1, [sp, #68]
	adds	r0, r0, r1
	ldr	r0, [r0, #20]
	str	r3, [sp, #36]
	mvns	r1, r3
	str	r1, [sp, #80]
	cmp	r0, #0
	str	r7, [sp, #60]
	str	r2, [sp, #64]
	str	r5, [sp, #76]
	bmi	.LBB6_5
	mov	r0, r7
	lsrs	r5, r5, #2
	b	.LBB6_13
.LBB6_3:
	str	r3, [sp, #72]
	mov	r3, r6
	ldr	r6, [sp, #132]
	str	r1, [sp, #24]
	str	r6, [sp, #28]
	add	r1, sp, #0
	stm	r1!, {r0, r3, r4, r5}
	ldr	r0, [sp, #72]
	str	r0, [sp, #16]
	mov	r0, r7
	ldr	r3, [sp, #80]
	bl	tlsf_heap.fitting.merge_both.4
.LBB6_4:
	add	sp, #84
	pop	{r4, r5, r6, r7, pc}
.LBB6_5:
	str	r4, [sp, #72]
	movs	r7, #16
	mov	r0, r6
	orrs	r0, r7
	bl	__clzsi2
	movs	r4, #27
	subs	r0, r4, r0
	mov	r1, r6
	lsrs	r1, r0
	lsls	r0, r0, #4
	adds	r0, r1, r0
	str	r0, [sp, #40]
	lsrs	r5, r5, #2
	orrs	r7, r5
	mov	r0, r7
	bl	__clzsi2
	subs	r0, r4, r0
	mov	r1, r5
	lsrs	r1, r0
	lsls	r0, r0, #4
	adds	r0, r1, r0
	ldr	r1, [sp, #40]
	cmp	r1, r0
	bne	.LBB6_12
	ldr	r0, [sp, #56]
	mvns	r2, r0
	ldr	r0, [sp, #36]
	mvns	r1, r0
	movs	r0, #32
	ldr	r3, [sp, #72]
	tst	r3, r0
	mov	r0, r2
	bne	.LBB6_8
	mov	r0, r1
.LBB6_8:
	str	r0, [sp, #56]
	ldr	r7, [sp, #60]
	bne	.LBB6_10
	mov	r1, r2
.LBB6_10:
	movs	r6, #31
	ldr	r4, [sp, #72]
	mov	r2, r4
	ands	r2, r6
	lsls	r1, r2
	bics	r6, r4
	ldr	r3, .LCPI6_1
	lsrs	r3, r6
	orrs	r1, r3
	lsrs	r4, r4, #3
	ldr	r6, .LCPI6_0
	ands	r4, r6
	ldr	r6, [r7, #24]
	ldr	r7, [r6, r4]
	ands	r7, r1
	str	r7, [r6, r4]
	ldr	r1, [sp, #60]
	ldr	r1, [r1]
	ldr	r7, [sp, #68]
	ldr	r0, [sp, #76]
	str	r0, [r1, r7]
	ldr	r0, [sp, #56]
	lsls	r0, r2
	orrs	r0, r3
	adds	r2, r6, r4
	ldr	r3, [r2, #4]
	ands	r3, r0
	str	r3, [r2, #4]
	adds	r0, r1, r7
	ldr	r1, [sp, #44]
	str	r1, [r0, #4]
	ldr	r1, [sp, #48]
	str	r1, [r0, #8]
	ldr	r1, [sp, #52]
	str	r1, [r0, #12]
	ldr	r0, [sp, #76]
	lsls	r0, r0, #30
	bmi	.LBB6_4
	ldr	r3, [sp, #64]
	adds	r0, r5, r3
	lsls	r0, r0, #3
	ldr	r1, [sp, #60]
	ldr	r1, [r1]
	ldr	r2, [r1, r0]
	ldr	r4, [sp, #80]
	ands	r2, r4
	str	r2, [r1, r0]
	adds	r0, r1, r0
	str	r3, [r0, #4]
	add	sp, #84
	pop	{r4, r5, r6, r7, pc}
.LBB6_12:
	ldr	r0, [sp, #60]
	ldr	r2, [sp, #64]
	ldr	r4, [sp, #72]
.LBB6_13:
	mov	r7, r0
	mov	r1, r6
	bl	tlsf_heap.region.Region.remove.4
	ldr	r0, [sp, #56]
	mvns	r2, r0
	movs	r0, #32
	tst	r4, r0
	mov	r0, r2
	bne	.LBB6_15
	ldr	r0, [sp, #80]
.LBB6_15:
	str	r0, [sp, #40]
	str	r5, [sp, #72]
	ldr	r1, [sp, #80]
	bne	.LBB6_17
	mov	r1, r2
.LBB6_17:
	movs	r6, #31
	mov	r2, r4
	ands	r2, r6
	lsls	r1, r2
	bics	r6, r4
	ldr	r3, .LCPI6_1
	lsrs	r3, r6
	orrs	r1, r3
	lsrs	r4, r4, #3
	ldr	r5, .LCPI6_0
	ands	r4, r5
	ldr	r6, [r7, #24]
	ldr	r7, [r6, r4]
	ands	r7, r1
	str	r7, [r6, r4]
	ldr	r1, [sp, #60]
	ldr	r7, [r1]
	ldr	r5, [sp, #68]
	ldr	r0, [sp, #76]
	str	r0, [r7, r5]
	ldr	r0, [sp, #40]
	lsls	r0, r2
	orrs	r0, r3
	adds	r2, r6, r4
	mov	r6, r1
	ldr	r3, [r2, #4]
	ands	r3, r0
	str	r3, [r2, #4]
	adds	r0, r7, r5
	ldr	r1, [sp, #44]
	str	r1, [r0, #4]
	ldr	r1, [sp, #48]
	str	r1, [r0, #8]
	ldr	r1, [sp, #52]
	str	r1, [r0, #12]
	ldr	r0, [sp, #76]
	lsls	r0, r0, #30
	ldr	r5, [sp, #72]
	bmi	.LBB6_19
	ldr	r3, [sp, #64]
	adds	r0, r5, r3
	lsls	r0, r0, #3
	ldr	r1, [r6]
	ldr	r2, [r1, r0]
	ldr	r4, [sp, #80]
	ands	r2, r4
	str	r2, [r1, r0]
	adds	r0, r1, r0
	str	r3, [r0, #4]
.LBB6_19:
	movs	r0, #16
	orrs	r0, r5
	bl	__clzsi2
	movs	r1, #27
	subs	r0, r1, r0
	lsrs	r5, r0
	lsls	r0, r0, #4
	adds	r0, r5, r0
	lsls	r1, r0, #2
	adds	r2, r6, r1
	movs	r3, #144
	ldr	r1, [r2, r3]
	ldr	r4, [sp, #64]
	str	r4, [r2, r3]
	cmp	r1, #0
	bmi	.LBB6_21
	mov	r3, r4
	ldr	r0, [r6]
	ldr	r2, [sp, #68]
	adds	r2, r0, r2
	str	r1, [r2, #16]
	ldr	r4, [sp, #80]
	str	r4, [r2, #20]
	lsls	r1, r1, #3
	adds	r0, r0, r1
	str	r3, [r0, #20]
	ldr	r1, [r0, #16]
	ands	r1, r4
	str	r1, [r0, #16]
	add	sp, #84
	pop	{r4, r5, r6, r7, pc}
.LBB6_21:
	ldr	r1, [r6]
	ldr	r2, [sp, #68]
	adds	r1, r1, r2
	ldr	r2, [sp, #36]
	mvns	r2, r2
	str	r2, [r1, #16]
	str	r2, [r1, #20]
	lsrs	r0, r0, #4
	ldr	r3, [sp, #56]
	mov	r1, r3
	lsls	r1, r0
	ldr	r2, [r6, #56]
	orrs	r2, r1
	str	r2, [r6, #56]
	movs	r1, #15
	ands	r5, r1
	lsls	r3, r5
	lsls	r0, r0, #2
	adds	r0, r6, r0
	ldr	r1, [r0, #60]
	orrs	r1, r3
	str	r1, [r0, #60]
	add	sp, #84
	pop	{r4, r5, r6, r7, pc}
	.p2align	2
.LCPI6_0:
	.long	536870904
.LCPI6_1:
	.long	2147483647
.Lfunc_end6:
	.size	tlsf_heap.fitting.merge_before.4, .Lfunc_end6-tlsf_heap.fitting.merge_before.4
	.cfi_endproc
	.section	.text.tlsf_heap.fitting.merge_both.4,"ax",%progbits
	.p2align	2
	.type	tlsf_heap.fitting.merge_both.4,%function
	.code	16
	.thumb_func
tlsf_heap.fitting.merge_both.4:
	.cfi_startproc
	push	{r4, r5, r6, r7, lr}
	.cfi_def_cfa_offset 20
	.cfi_offset lr, -4
	.cfi_offset r7, -8
	.cfi_offset r6, -12
	.cfi_offset r5, -16
	.cfi_offset r4, -20
	sub	sp, #68
	.cfi_def_cfa_offset 88
	mov	r1, r2
	mov	r6, r0
	ldr	r0, [sp, #112]
	str	r0, [sp, #48]
	lsrs	r0, r0, #2
	ldr	r5, [sp, #104]
	adds	r2, r0, r5
	str	r1, [sp, #56]
	lsrs	r1, r1, #2
	mov	r0, r6
	str	r1, [sp, #40]
	bl	tlsf_heap.region.Region.remove.4
	ldr	r0, [sp, #88]
	str	r0, [sp, #24]
	lsrs	r1, r0, #2
	subs	r2, r5, r1
	mov	r0, r6
	str	r2, [sp, #64]
	bl	tlsf_heap.region.Region.remove.4
	movs	r0, #1
	str	r0, [sp, #8]
	mvns	r7, r0
	movs	r1, #0
	mvns	r2, r1
	movs	r0, #32
	str	r0, [sp, #20]
	tst	r5, r0
	mov	r0, r7
	bne	.LBB7_2
	mov	r0, r2
.LBB7_2:
	str	r0, [sp, #52]
	str	r2, [sp, #60]
	bne	.LBB7_4
	mov	r2, r7
.LBB7_4:
	movs	r4, #31
	mov	r0, r5
	ands	r0, r4
	str	r0, [sp, #44]
	lsls	r2, r0
	mov	r3, r4
	bics	r3, r5
	ldr	r0, .LCPI7_0
	lsrs	r0, r3
	str	r0, [sp, #36]
	orrs	r2, r0
	lsrs	r3, r5, #6
	lsls	r5, r3, #3
	mov	r0, r6
	ldr	r6, [r6, #24]
	ldr	r3, [r6, r5]
	ands	r3, r2
	str	r5, [sp, #32]
	str	r6, [sp, #28]
	str	r3, [r6, r5]
	ldr	r2, [sp, #56]
	ldr	r3, [sp, #48]
	adds	r3, r3, r2
	ldr	r2, [sp, #92]
	ldr	r5, [sp, #24]
	adds	r3, r5, r3
	adcs	r2, r1
	subs	r5, r3, #1
	mov	r3, r7
	str	r1, [sp, #4]
	sbcs	r2, r1
	str	r2, [sp, #48]
	lsrs	r2, r5, #2
	ldr	r1, [sp, #64]
	str	r2, [sp, #56]
	adds	r1, r2, r1
	str	r1, [sp, #12]
	ldr	r2, [sp, #40]
	subs	r7, r1, r2
	ldr	r1, [sp, #20]
	tst	r7, r1
	mov	r1, r3
	ldr	r6, [sp, #60]
	bne	.LBB7_6
	mov	r1, r6
.LBB7_6:
	str	r1, [sp, #40]
	bne	.LBB7_8
	mov	r6, r3
.LBB7_8:
	mov	r3, r7
	ands	r3, r4
	lsls	r6, r3
	bics	r4, r7
	ldr	r2, .LCPI7_0
	lsrs	r2, r4
	orrs	r6, r2
	lsrs	r4, r7, #6
	lsls	r4, r4, #3
	mov	r1, r0
	str	r0, [sp, #16]
	ldr	r7, [r0, #24]
	ldr	r0, [r7, r4]
	ands	r0, r6
	str	r0, [r7, r4]
	ldr	r0, [sp, #64]
	lsls	r6, r0, #3
	ldr	r0, [r1]
	str	r0, [sp, #20]
	str	r5, [r0, r6]
	str	r5, [sp, #24]
	ldr	r5, [sp, #52]
	ldr	r0, [sp, #44]
	lsls	r5, r0
	ldr	r0, [sp, #36]
	orrs	r5, r0
	ldr	r0, [sp, #32]
	ldr	r1, [sp, #28]
	adds	r0, r1, r0
	ldr	r1, [r0, #4]
	ands	r1, r5
	str	r1, [r0, #4]
	ldr	r5, [sp, #40]
	lsls	r5, r3
	orrs	r5, r2
	adds	r0, r7, r4
	mov	r7, r6
	ldr	r1, [r0, #4]
	ands	r1, r5
	ldr	r5, [sp, #64]
	str	r1, [r0, #4]
	ldr	r0, [sp, #20]
	adds	r0, r0, r6
	ldr	r4, [sp, #16]
	ldr	r1, [sp, #100]
	str	r1, [r0, #12]
	ldr	r1, [sp, #96]
	str	r1, [r0, #8]
	ldr	r1, [sp, #48]
	str	r1, [r0, #4]
	ldr	r0, [sp, #24]
	lsls	r0, r0, #30
	bmi	.LBB7_10
	ldr	r0, [sp, #12]
	lsls	r0, r0, #3
	ldr	r1, [r4]
	ldr	r2, [r1, r0]
	ldr	r3, [sp, #60]
	ands	r2, r3
	str	r2, [r1, r0]
	adds	r0, r1, r0
	str	r5, [r0, #4]
.LBB7_10:
	movs	r0, #16
	ldr	r6, [sp, #56]
	orrs	r0, r6
	bl	__clzsi2
	movs	r1, #27
	subs	r0, r1, r0
	lsrs	r6, r0
	lsls	r0, r0, #4
	adds	r0, r6, r0
	lsls	r1, r0, #2
	adds	r2, r4, r1
	movs	r3, #144
	ldr	r1, [r2, r3]
	str	r5, [r2, r3]
	cmp	r1, #0
	bmi	.LBB7_12
	ldr	r0, [r4]
	adds	r2, r0, r7
	str	r1, [r2, #16]
	ldr	r3, [sp, #60]
	str	r3, [r2, #20]
	lsls	r1, r1, #3
	adds	r0, r0, r1
	str	r5, [r0, #20]
	ldr	r1, [r0, #16]
	ands	r1, r3
	str	r1, [r0, #16]
	add	sp, #68
	pop	{r4, r5, r6, r7, pc}
.LBB7_12:
	ldr	r1, [r4]
	adds	r1, r1, r7
	ldr	r2, [sp, #4]
	mvns	r2, r2
	str	r2, [r1, #16]
	str	r2, [r1, #20]
	lsrs	r0, r0, #4
	ldr	r3, [sp, #8]
	mov	r1, r3
	lsls	r1, r0
	ldr	r2, [r4, #56]
	orrs	r2, r1
	str	r2, [r4, #56]
	movs	r1, #15
	ands	r6, r1
	lsls	r3, r6
	lsls	r0, r0, #2
	adds	r0, r4, r0
	ldr	r1, [r0, #60]
	orrs	r1, r3
	str	r1, [r0, #60]
	add	sp, #68
	pop	{r4, r5, r6, r7, pc}
	.p2align	2
.LCPI7_0:
	.long	2147483647
.Lfunc_end7:
	.size	tlsf_heap.fitting.merge_both.4, .Lfunc_end7-tlsf_heap.fitting.merge_both.4
	.cfi_endproc
	.section	.text.tlsf_heap.fitting.merge_next.4,"ax",%progbits
	.p2align	2
	.type	tlsf_heap.fitting.merge_next.4,%function
	.code	16
	.thumb_func
tlsf_heap.fitting.merge_next.4:
	.cfi_startproc
	push	{r4, r5, r6, r7, lr}
	.cfi_def_cfa_offset 20
	.cfi_offset lr, -4
	.cfi_offset r7, -8
	.cfi_offset r6, -12
	.cfi_offset r5, -16
	.cfi_offset r4, -20
	sub	sp, #44
	.cfi_def_cfa_offset 64
	mov	r5, r2
	ldr	r7, [sp, #64]
	lsrs	r1, r7, #2
	ldr	r4, [sp, #80]
	adds	r2, r4, r1
	lsrs	r6, r5, #2
	str	r0, [sp, #40]
	mov	r1, r6
	bl	tlsf_heap.region.Region.remove.4
	movs	r3, #0
	ldr	r1, [sp, #68]
	adds	r0, r5, r7
	adcs	r1, r3
	str	r1, [sp, #20]
	str	r0, [sp, #24]
	lsrs	r2, r0, #2
	str	r4, [sp, #36]
	adds	r0, r2, r4
	str	r0, [sp, #8]
	subs	r0, r0, r6
	movs	r1, #1
	str	r1, [sp, #4]
	mvns	r1, r1
	str	r3, [sp]
	mvns	r7, r3
	movs	r3, #32
	tst	r0, r3
	mov	r3, r1
	bne	.LBB8_2
	mov	r3, r7
.LBB8_2:
	str	r3, [sp, #16]
	str	r2, [sp, #32]
	str	r7, [sp, #28]
	bne	.LBB8_4
	mov	r7, r1
.LBB8_4:
	movs	r2, #31
	mov	r6, r0
	ands	r6, r2
	lsls	r7, r6
	bics	r2, r0
	ldr	r1, .LCPI8_0
	lsrs	r1, r2
	orrs	r7, r1
	lsrs	r0, r0, #6
	lsls	r0, r0, #3
	str	r0, [sp, #12]
	ldr	r2, [sp, #40]
	ldr	r2, [r2, #24]
	ldr	r4, [r2, r0]
	ands	r4, r7
	str	r4, [r2, r0]
	ldr	r7, [sp, #36]
	lsls	r3, r7, #3
	ldr	r4, [sp, #40]
	ldr	r4, [r4]
	ldr	r5, [sp, #24]
	str	r5, [r4, r3]
	ldr	r0, [sp, #16]
	lsls	r0, r6
	mov	r6, r7
	orrs	r0, r1
	ldr	r1, [sp, #12]
	adds	r2, r2, r1
	ldr	r1, [r2, #4]
	ands	r1, r0
	str	r1, [r2, #4]
	str	r3, [sp, #16]
	adds	r0, r4, r3
	ldr	r4, [sp, #40]
	ldr	r1, [sp, #76]
	str	r1, [r0, #12]
	ldr	r1, [sp, #72]
	str	r1, [r0, #8]
	ldr	r1, [sp, #20]
	str	r1, [r0, #4]
	lsls	r0, r5, #30
	ldr	r7, [sp, #28]
	bmi	.LBB8_6
	ldr	r0, [sp, #8]
	lsls	r0, r0, #3
	ldr	r1, [r4]
	ldr	r2, [r1, r0]
	ands	r2, r7
	str	r2, [r1, r0]
	adds	r0, r1, r0
	str	r6, [r0, #4]
.LBB8_6:
	movs	r0, #16
	ldr	r5, [sp, #32]
	orrs	r0, r5
	bl	__clzsi2
	movs	r1, #27
	subs	r0, r1, r0
	lsrs	r5, r0
	lsls	r0, r0, #4
	adds	r0, r5, r0
	lsls	r1, r0, #2
	adds	r2, r4, r1
	movs	r3, #144
	ldr	r1, [r2, r3]
	str	r6, [r2, r3]
	cmp	r1, #0
	bmi	.LBB8_8
	ldr	r0, [r4]
	ldr	r2, [sp, #16]
	adds	r2, r0, r2
	str	r1, [r2, #16]
	str	r7, [r2, #20]
	lsls	r1, r1, #3
	adds	r0, r0, r1
	str	r6, [r0, #20]
	ldr	r1, [r0, #16]
	ands	r1, r7
	str	r1, [r0, #16]
	add	sp, #44
	pop	{r4, r5, r6, r7, pc}
.LBB8_8:
	ldr	r1, [r4]
	ldr	r2, [sp, #16]
	adds	r1, r1, r2
	ldr	r2, [sp]
	mvns	r2, r2
	str	r2, [r1, #16]
	str	r2, [r1, #20]
	lsrs	r0, r0, #4
	ldr	r3, [sp, #4]
	mov	r1, r3
	lsls	r1, r0
	ldr	r2, [r4, #56]
	orrs	r2, r1
	str	r2, [r4, #56]
	movs	r1, #15
	ands	r5, r1
	lsls	r3, r5
	lsls	r0, r0, #2
	adds	r0, r4, r0
	ldr	r1, [r0, #60]
	orrs	r1, r3
	str	r1, [r0, #60]
	add	sp, #44
	pop	{r4, r5, r6, r7, pc}
	.p2align	2
.LCPI8_0:
	.long	2147483647
.Lfunc_end8:
	.size	tlsf_heap.fitting.merge_next.4, .Lfunc_end8-tlsf_heap.fitting.merge_next.4
	.cfi_endproc
	.section	.text.tlsf_heap.heap.Heap.resize_live.5,"ax",%progbits
	.p2align	1
	.type	tlsf_heap.heap.Heap.resize_live.5,%function
	.code	16
	.thumb_func
tlsf_heap.heap.Heap.resize_live.5:
	.cfi_startproc
	push	{r4, r5, r6, r7, lr}
	.cfi_def_cfa_offset 20
	.cfi_offset lr, -4
	.cfi_offset r7, -8
	.cfi_offset r6, -12
	.cfi_offset r5, -16
	.cfi_offset r4, -20
	sub	sp, #52
	.cfi_def_cfa_offset 72
	ldrb	r3, [r1, #4]
	ldrb	r4, [r1, #5]
	lsls	r4, r4, #8
	adds	r3, r4, r3
	ldrb	r4, [r1, #6]
	lsls	r4, r4, #16
	ldrb	r1, [r1, #7]
	lsls	r1, r1, #24
	adds	r1, r1, r4
	adds	r1, r1, r3
	str	r1, [sp, #48]
	lsls	r7, r1, #3
	ldr	r3, [r0, #24]
	adds	r4, r3, r7
	ldr	r1, [r4, #4]
	str	r1, [sp, #44]
	ldr	r1, [r3, r7]
	lsrs	r6, r1, #2
	mov	r5, r0
	adds	r5, #24
	cmp	r2, r6
	str	r1, [sp, #40]
	bls	.LBB9_4
	lsls	r1, r1, #30
	bmi	.LBB9_3
	ldr	r1, [sp, #48]
	adds	r1, r6, r1
	lsls	r1, r1, #3
	str	r1, [sp, #36]
	ldr	r4, [r3, r1]
	lsls	r1, r4, #31
	bne	.LBB9_8
.LBB9_3:
	movs	r4, #0
	mov	r3, r4
	b	.LBB9_9
.LBB9_4:
	ldr	r7, [r0, #8]
	ldr	r1, [r0, #12]
	mov	r3, r7
	ands	r3, r1
	adds	r3, r3, #1
	beq	.LBB9_15
	movs	r3, #0
	str	r3, [r4, #16]
	str	r3, [sp, #36]
	str	r3, [r4, #20]
	adds	r3, r2, #4
	cmp	r6, r3
	mov	r4, r6
	blo	.LBB9_7
	str	r2, [sp]
	str	r7, [sp, #8]
	str	r1, [sp, #12]
	mov	r4, r0
	mov	r0, r5
	ldr	r1, [sp, #48]
	mov	r5, r2
	ldr	r2, [sp, #40]
	ldr	r3, [sp, #44]
	bl	tlsf_heap.refitting.split_off.5
	mov	r0, r4
	mov	r4, r5
.LBB9_7:
	subs	r1, r4, r6
	ldr	r2, [r0, #16]
	adds	r1, r1, r2
	ldr	r2, [r0, #8]
	adds	r2, r2, #1
	str	r2, [r0, #8]
	str	r1, [r0, #16]
	ldr	r2, [r0, #12]
	ldr	r1, [sp, #36]
	adcs	r2, r1
	str	r2, [r0, #12]
	b	.LBB9_16
.LBB9_8:
	ldr	r1, [sp, #36]
	adds	r1, r3, r1
	ldr	r3, [r1, #4]
.LBB9_9:
	lsrs	r1, r4, #2
	adds	r1, r1, r6
	cmp	r1, r2
	bhs	.LBB9_11
	movs	r0, #1
	movs	r1, #5
	add	sp, #52
	pop	{r4, r5, r6, r7, pc}
.LBB9_11:
	str	r3, [sp, #36]
	ldr	r1, [r0, #8]
	ldr	r3, [r0, #12]
	str	r1, [sp, #28]
	str	r3, [sp, #32]
	ands	r1, r3
	adds	r1, r1, #1
	beq	.LBB9_15
	ldr	r1, [sp, #28]
	str	r1, [sp, #16]
	ldr	r1, [sp, #32]
	str	r1, [sp, #20]
	str	r4, [sp]
	ldr	r1, [sp, #36]
	str	r1, [sp, #4]
	str	r2, [sp, #8]
	mov	r4, r0
	mov	r0, r5
	ldr	r1, [sp, #48]
	ldr	r2, [sp, #40]
	ldr	r3, [sp, #44]
	bl	tlsf_heap.refitting.recut.5
	mov	r2, r4
	ldr	r1, [r4, #24]
	adds	r3, r1, r7
	movs	r1, #0
	str	r1, [r3, #16]
	str	r1, [r3, #20]
	subs	r0, r0, r6
	ldr	r3, [r4, #16]
	adds	r0, r3, r0
	str	r0, [r4, #16]
	ldr	r3, [r4, #20]
	cmp	r3, r0
	bhs	.LBB9_14
	str	r0, [r2, #20]
.LBB9_14:
	ldr	r0, [r2, #8]
	adds	r0, r0, #1
	str	r0, [r2, #8]
	ldr	r0, [r2, #12]
	adcs	r0, r1
	str	r0, [r2, #12]
	b	.LBB9_16
.LBB9_15:
	movs	r1, #1
.LBB9_16:
	mov	r0, r1
	add	sp, #52
	pop	{r4, r5, r6, r7, pc}
.Lfunc_end9:
	.size	tlsf_heap.heap.Heap.resize_live.5, .Lfunc_end9-tlsf_heap.heap.Heap.resize_live.5
	.cfi_endproc
	.section	.text.tlsf_heap.refitting.split_off.5,"ax",%progbits
	.p2align	1
	.type	tlsf_heap.refitting.split_off.5,%function
	.code	16
	.thumb_func
tlsf_heap.refitting.split_off.5:
	.cfi_startproc
	push	{r4, r5, r6, r7, lr}
	.cfi_def_cfa_offset 20
	.cfi_offset lr, -4
	.cfi_offset r7, -8
	.cfi_offset r6, -12
	.cfi_offset r5, -16
	.cfi_offset r4, -20
	sub	sp, #76
	.cfi_def_cfa_offset 96
	str	r3, [sp, #48]
	str	r1, [sp, #72]
	mov	r6, r0
	ldr	r1, [r0]
	str	r1, [sp, #68]
	lsls	r1, r2, #30
	ldr	r1, [sp, #108]
	str	r1, [sp, #52]
	ldr	r5, [sp, #104]
	ldr	r7, [sp, #96]
	bmi	.LBB10_2
	lsrs	r1, r2, #2
	ldr	r3, [sp, #72]
	adds	r1, r1, r3
	lsls	r3, r1, #3
	ldr	r1, [sp, #68]
	ldr	r1, [r1, r3]
	lsls	r4, r1, #31
	beq	.LBB10_2
	b	.LBB10_7
.LBB10_2:
	str	r6, [sp, #64]
	ldr	r1, [sp, #72]
	adds	r0, r7, r1
	str	r0, [sp, #56]
	str	r5, [sp, #28]
	mov	r5, r1
	lsls	r4, r0, #3
	movs	r3, #1
	mov	r1, r2
	str	r2, [sp, #32]
	orrs	r1, r3
	str	r7, [sp, #44]
	lsls	r2, r7, #2
	subs	r2, r1, r2
	str	r2, [sp, #40]
	lsls	r7, r5, #3
	str	r7, [sp, #36]
	movs	r5, #0
	str	r5, [sp, #60]
	subs	r1, r1, r2
	ldr	r0, [sp, #68]
	str	r1, [r0, r7]
	ldr	r1, [r6]
	str	r2, [r1, r4]
	ldr	r7, [sp, #48]
	sbcs	r7, r5
	str	r4, [sp, #48]
	adds	r4, r1, r4
	ldr	r0, [sp, #28]
	str	r0, [r4, #8]
	ldr	r1, [sp, #56]
	lsrs	r0, r1, #6
	lsls	r5, r0, #3
	ldr	r0, [sp, #64]
	ldr	r6, [r0, #24]
	ldr	r0, [r6, r5]
	str	r0, [sp, #28]
	movs	r2, #63
	ands	r2, r1
	str	r3, [sp, #24]
	mov	r0, r3
	ldr	r1, [sp, #60]
	bl	__aeabi_llsl
	ldr	r2, [sp, #28]
	orrs	r0, r2
	str	r0, [r6, r5]
	ldr	r0, [sp, #68]
	ldr	r2, [sp, #36]
	adds	r0, r0, r2
	str	r7, [r0, #4]
	ldr	r7, [sp, #56]
	ldr	r0, [sp, #52]
	str	r0, [r4, #12]
	ldr	r0, [sp, #72]
	str	r0, [r4, #4]
	ldr	r4, [sp, #64]
	adds	r0, r6, r5
	ldr	r2, [r0, #4]
	orrs	r2, r1
	str	r2, [r0, #4]
	ldr	r0, [sp, #40]
	lsls	r1, r0, #30
	ldr	r0, [sp, #60]
	mvns	r5, r0
	ldr	r0, [sp, #32]
	lsrs	r0, r0, #2
	cmp	r1, #0
	bmi	.LBB10_4
	ldr	r1, [sp, #72]
	adds	r1, r0, r1
	lsls	r1, r1, #3
	ldr	r2, [r4]
	ldr	r3, [r2, r1]
	ands	r3, r5
	str	r3, [r2, r1]
	adds	r1, r2, r1
	str	r7, [r1, #4]
.LBB10_4:
	ldr	r1, [sp, #44]
	subs	r6, r0, r1
	movs	r0, #32
	orrs	r0, r6
	bl	__clzsi2
	movs	r1, #26
	subs	r0, r1, r0
	lsrs	r6, r0
	lsls	r0, r0, #5
	adds	r0, r6, r0
	lsls	r1, r0, #2
	adds	r2, r4, r1
	movs	r3, #144
	ldr	r1, [r2, r3]
	str	r7, [r2, r3]
	cmp	r1, #0
	bmi	.LBB10_6
	ldr	r0, [r4]
	ldr	r2, [sp, #48]
	adds	r2, r0, r2
	str	r1, [r2, #16]
	str	r5, [r2, #20]
	lsls	r1, r1, #3
	adds	r0, r0, r1
	str	r7, [r0, #20]
	ldr	r1, [r0, #16]
	ands	r1, r5
	str	r1, [r0, #16]
	add	sp, #76
	pop	{r4, r5, r6, r7, pc}
.LBB10_6:
	ldr	r1, [r4]
	ldr	r2, [sp, #48]
	adds	r1, r1, r2
	str	r5, [r1, #16]
	str	r5, [r1, #20]
	lsrs	r0, r0, #5
	ldr	r3, [sp, #24]
	mov	r1, r3
	lsls	r1, r0
	ldr	r2, [r4, #56]
	orrs	r2, r1
	str	r2, [r4, #56]
	movs	r1, #31
	ands	r6, r1
	lsls	r3, r6
	lsls	r0, r0, #2
	adds	r0, r4, r0
	ldr	r1, [r0, #60]
	orrs	r1, r3
	str	r1, [r0, #60]
	add	sp, #76
	pop	{r4, r5, r6, r7, pc}
.LBB10_7:
	ldr	r4, [sp, #68]
	adds	r3, r4, r3
	ldr	r3, [r3, #4]
	str	r5, [sp, #16]
	ldr	r4, [sp, #52]
	str	r4, [sp, #20]
	add	r0, sp, #0
	stm	r0!, {r1, r3, r7}
	mov	r0, r6
	ldr	r1, [sp, #72]
	ldr	r3, [sp, #48]
	bl	tlsf_heap.refitting.recut.5
	add	sp, #76
	pop	{r4, r5, r6, r7, pc}
.Lfunc_end10:
	.size	tlsf_heap.refitting.split_off.5, .Lfunc_end10-tlsf_heap.refitting.split_off.5
	.cfi_endproc
	.section	.text.tlsf_heap.refitting.recut.5,"ax",%progbits
	.p2align	2
	.type	tlsf_heap.refitting.recut.5,%function
	.code	16
	.thumb_func
tlsf_heap.refitting.recut.5:
	.cfi_startproc
	push	{r4, r5, r6, r7, lr}
	.cfi_def_cfa_offset 20
	.cfi_offset lr, -4
	.cfi_offset r7, -8
	.cfi_offset r6, -12
	.cfi_offset r5, -16
	.cfi_offset r4, -20
	sub	sp, #100
	.cfi_def_cfa_offset 120
	str	r3, [sp, #96]
	mov	r4, r2
	mov	r7, r1
	lsrs	r1, r2, #2
	adds	r2, r1, r7
	ldr	r5, [sp, #120]
	lsrs	r1, r5, #2
	str	r0, [sp, #92]
	str	r1, [sp, #68]
	bl	tlsf_heap.region.Region.remove.5
	movs	r0, #0
	adds	r6, r5, r4
	mov	r4, r7
	ldr	r7, [sp, #96]
	adcs	r7, r0
	lsrs	r1, r6, #2
	adds	r2, r1, r4
	str	r2, [sp, #88]
	mvns	r5, r0
	ldr	r3, [sp, #128]
	adds	r2, r3, #4
	str	r1, [sp, #76]
	cmp	r2, r1
	str	r0, [sp, #80]
	str	r5, [sp, #84]
	str	r4, [sp, #72]
	bls	.LBB11_8
	str	r6, [sp, #64]
	str	r7, [sp, #96]
	ldr	r1, [sp, #68]
	ldr	r2, [sp, #88]
	subs	r4, r2, r1
	movs	r2, #1
	mvns	r1, r2
	mvns	r3, r0
	movs	r2, #32
	tst	r4, r2
	mov	r2, r1
	bne	.LBB11_3
	mov	r2, r3
.LBB11_3:
	ldr	r0, [sp, #92]
	bne	.LBB11_5
	mov	r3, r1
.LBB11_5:
	movs	r6, #31
	mov	r5, r4
	ands	r5, r6
	lsls	r3, r5
	bics	r6, r4
	ldr	r7, .LCPI11_1
	lsrs	r7, r6
	orrs	r3, r7
	lsrs	r4, r4, #3
	ldr	r1, .LCPI11_0
	ands	r4, r1
	mov	r1, r0
	ldr	r0, [r0, #24]
	ldr	r6, [r0, r4]
	ands	r6, r3
	str	r6, [r0, r4]
	lsls	r2, r5
	orrs	r2, r7
	mov	r5, r1
	adds	r0, r0, r4
	ldr	r3, [r0, #4]
	ands	r3, r2
	str	r3, [r0, #4]
	ldr	r6, [sp, #64]
	lsls	r0, r6, #30
	ldr	r4, [sp, #72]
	bmi	.LBB11_7
	ldr	r0, [sp, #88]
	lsls	r0, r0, #3
	ldr	r2, [r5]
	ldr	r3, [r2, r0]
	ldr	r1, [sp, #84]
	ands	r3, r1
	str	r3, [r2, r0]
	adds	r0, r2, r0
	str	r4, [r0, #4]
.LBB11_7:
	ldr	r0, [r5]
	lsls	r2, r4, #3
	subs	r1, r6, #1
	str	r1, [r0, r2]
	ldr	r1, [sp, #80]
	ldr	r3, [sp, #96]
	sbcs	r3, r1
	adds	r0, r0, r2
	str	r3, [r0, #4]
	ldr	r0, [sp, #76]
	add	sp, #100
	pop	{r4, r5, r6, r7, pc}
.LBB11_8:
	ldr	r1, [sp, #136]
	str	r1, [sp, #52]
	adds	r1, r3, r4
	str	r1, [sp, #60]
	lsls	r2, r1, #3
	str	r3, [sp, #64]
	lsls	r3, r3, #2
	subs	r3, r6, r3
	ldr	r1, [sp, #92]
	ldr	r5, [r1]
	lsls	r4, r4, #3
	subs	r1, r6, r3
	str	r5, [sp, #44]
	str	r4, [sp, #40]
	str	r1, [r5, r4]
	ldr	r5, [sp, #84]
	ldr	r4, [sp, #92]
	ldr	r1, [r4]
	str	r3, [sp, #48]
	str	r3, [r1, r2]
	sbcs	r7, r0
	str	r7, [sp, #96]
	str	r2, [sp, #56]
	adds	r1, r1, r2
	str	r1, [sp, #36]
	ldr	r2, [sp, #52]
	str	r2, [r1, #8]
	ldr	r1, [sp, #68]
	ldr	r2, [sp, #88]
	subs	r1, r2, r1
	movs	r2, #1
	str	r2, [sp, #68]
	mvns	r3, r2
	movs	r2, #32
	str	r2, [sp, #52]
	tst	r1, r2
	mov	r2, r3
	bne	.LBB11_10
	mov	r2, r5
.LBB11_10:
	str	r2, [sp, #32]
	ldr	r0, [sp, #140]
	str	r0, [sp, #28]
	mov	r2, r5
	bne	.LBB11_12
	mov	r2, r3
.LBB11_12:
	movs	r3, #31
	mov	r0, r1
	ands	r0, r3
	str	r0, [sp, #24]
	lsls	r2, r0
	str	r3, [sp, #4]
	bics	r3, r1
	ldr	r5, .LCPI11_1
	lsrs	r5, r3
	orrs	r2, r5
	lsrs	r7, r1, #3
	ldr	r0, .LCPI11_0
	ands	r7, r0
	mov	r3, r4
	ldr	r4, [r4, #24]
	str	r4, [sp, #20]
	ldr	r1, [r4, r7]
	ands	r1, r2
	str	r1, [r4, r7]
	ldr	r6, [sp, #60]
	lsrs	r4, r6, #3
	ands	r4, r0
	ldr	r0, [r3, #24]
	str	r0, [sp, #8]
	ldr	r1, [r0, r4]
	str	r1, [sp, #12]
	movs	r2, #63
	ands	r2, r6
	ldr	r0, [sp, #68]
	ldr	r1, [sp, #80]
	bl	__aeabi_llsl
	str	r1, [sp, #16]
	ldr	r1, [sp, #12]
	orrs	r0, r1
	ldr	r1, [sp, #8]
	str	r0, [r1, r4]
	ldr	r0, [sp, #44]
	ldr	r2, [sp, #40]
	adds	r0, r0, r2
	ldr	r2, [sp, #96]
	str	r2, [r0, #4]
	ldr	r0, [sp, #72]
	ldr	r2, [sp, #36]
	str	r0, [r2, #4]
	ldr	r0, [sp, #28]
	str	r0, [r2, #12]
	ldr	r3, [sp, #32]
	ldr	r0, [sp, #24]
	lsls	r3, r0
	orrs	r3, r5
	ldr	r0, [sp, #20]
	adds	r0, r0, r7
	mov	r7, r6
	ldr	r5, [sp, #92]
	ldr	r2, [r0, #4]
	ands	r2, r3
	str	r2, [r0, #4]
	adds	r0, r1, r4
	ldr	r2, [r0, #4]
	ldr	r1, [sp, #16]
	orrs	r2, r1
	str	r2, [r0, #4]
	ldr	r0, [sp, #48]
	lsls	r0, r0, #30
	bmi	.LBB11_14
	ldr	r0, [sp, #88]
	lsls	r0, r0, #3
	ldr	r1, [r5]
	ldr	r2, [r1, r0]
	ldr	r3, [sp, #84]
	ands	r2, r3
	str	r2, [r1, r0]
	adds	r0, r1, r0
	str	r7, [r0, #4]
.LBB11_14:
	ldr	r0, [sp, #76]
	ldr	r6, [sp, #64]
	subs	r4, r0, r6
	ldr	r0, [sp, #52]
	orrs	r0, r4
	bl	__clzsi2
	movs	r1, #26
	subs	r0, r1, r0
	lsrs	r4, r0
	lsls	r0, r0, #5
	adds	r0, r4, r0
	lsls	r1, r0, #2
	adds	r2, r5, r1
	movs	r3, #144
	ldr	r1, [r2, r3]
	str	r7, [r2, r3]
	cmp	r1, #0
	bmi	.LBB11_16
	ldr	r0, [r5]
	ldr	r2, [sp, #56]
	adds	r2, r0, r2
	str	r1, [r2, #16]
	ldr	r3, [sp, #84]
	str	r3, [r2, #20]
	lsls	r1, r1, #3
	adds	r0, r0, r1
	str	r7, [r0, #20]
	ldr	r1, [r0, #16]
	ands	r1, r3
	str	r1, [r0, #16]
	b	.LBB11_17
.LBB11_16:
	ldr	r1, [r5]
	ldr	r2, [sp, #56]
	adds	r1, r1, r2
	ldr	r2, [sp, #80]
	mvns	r2, r2
	str	r2, [r1, #16]
	str	r2, [r1, #20]
	lsrs	r0, r0, #5
	ldr	r3, [sp, #68]
	mov	r1, r3
	lsls	r1, r0
	ldr	r2, [r5, #56]
	orrs	r2, r1
	str	r2, [r5, #56]
	ldr	r1, [sp, #4]
	ands	r4, r1
	lsls	r3, r4
	lsls	r0, r0, #2
	adds	r0, r5, r0
	ldr	r1, [r0, #60]
	orrs	r1, r3
	str	r1, [r0, #60]
.LBB11_17:
	mov	r0, r6
	add	sp, #100
	pop	{r4, r5, r6, r7, pc}
	.p2align	2
.LCPI11_0:
	.long	536870904
.LCPI11_1:
	.long	2147483647
.Lfunc_end11:
	.size	tlsf_heap.refitting.recut.5, .Lfunc_end11-tlsf_heap.refitting.recut.5
	.cfi_endproc
	.section	.text.tlsf_heap.region.Region.remove.5,"ax",%progbits
	.p2align	1
	.type	tlsf_heap.region.Region.remove.5,%function
	.code	16
	.thumb_func
tlsf_heap.region.Region.remove.5:
	.cfi_startproc
	push	{r4, r5, r6, r7, lr}
	.cfi_def_cfa_offset 20
	.cfi_offset lr, -4
	.cfi_offset r7, -8
	.cfi_offset r6, -12
	.cfi_offset r5, -16
	.cfi_offset r4, -20
	sub	sp, #4
	.cfi_def_cfa_offset 24
	mov	r4, r0
	lsls	r0, r2, #3
	ldr	r7, [r4]
	adds	r0, r7, r0
	ldr	r6, [r0, #16]
	ldr	r0, [r0, #20]
	cmp	r0, #0
	bmi	.LBB12_3
	lsls	r1, r0, #3
	adds	r2, r7, r1
	ldr	r3, [r2, #20]
	movs	r1, #0
	mvns	r1, r1
	adds	r4, r6, #1
	beq	.LBB12_5
	lsls	r4, r6, #3
	ands	r6, r1
	str	r6, [r2, #16]
	str	r3, [r2, #20]
	adds	r2, r7, r4
	movs	r3, #1
	lsls	r3, r3, #31
	bics	r0, r3
	str	r0, [r2, #20]
	ldr	r0, [r2, #16]
	ands	r0, r1
	str	r0, [r2, #16]
	add	sp, #4
	pop	{r4, r5, r6, r7, pc}
.LBB12_3:
	mov	r5, r1
	movs	r0, #32
	orrs	r0, r1
	bl	__clzsi2
	movs	r1, #26
	subs	r0, r1, r0
	lsrs	r5, r0
	lsls	r0, r0, #5
	adds	r0, r5, r0
	adds	r1, r6, #1
	beq	.LBB12_6
	lsls	r1, r6, #3
	adds	r1, r7, r1
	movs	r2, #0
	mvns	r2, r2
	str	r2, [r1, #20]
	lsls	r0, r0, #2
	adds	r0, r4, r0
	movs	r1, #144
	str	r6, [r0, r1]
	add	sp, #4
	pop	{r4, r5, r6, r7, pc}
.LBB12_5:
	ldr	r0, [r2, #16]
	orrs	r0, r1
	str	r0, [r2, #16]
	str	r3, [r2, #20]
	add	sp, #4
	pop	{r4, r5, r6, r7, pc}
.LBB12_6:
	lsls	r1, r0, #2
	adds	r1, r4, r1
	movs	r2, #0
	mvns	r2, r2
	movs	r3, #144
	str	r2, [r1, r3]
	movs	r1, #31
	ands	r5, r1
	movs	r1, #1
	mov	r2, r1
	lsls	r2, r5
	lsrs	r0, r0, #5
	lsls	r3, r0, #2
	adds	r3, r4, r3
	ldr	r5, [r3, #60]
	bics	r5, r2
	str	r5, [r3, #60]
	beq	.LBB12_8
	add	sp, #4
	pop	{r4, r5, r6, r7, pc}
.LBB12_8:
	lsls	r1, r0
	ldr	r0, [r4, #56]
	bics	r0, r1
	str	r0, [r4, #56]
	add	sp, #4
	pop	{r4, r5, r6, r7, pc}
.Lfunc_end12:
	.size	tlsf_heap.region.Region.remove.5, .Lfunc_end12-tlsf_heap.region.Region.remove.5
	.cfi_endproc
	.section	.text.tlsf_heap.heap.Heap.release_live.5,"ax",%progbits
	.p2align	1
	.type	tlsf_heap.heap.Heap.release_live.5,%function
	.code	16
	.thumb_func
tlsf_heap.heap.Heap.release_live.5:
	.cfi_startproc
	push	{r4, r5, r6, r7, lr}
	.cfi_def_cfa_offset 20
	.cfi_offset lr, -4
	.cfi_offset r7, -8
	.cfi_offset r6, -12
	.cfi_offset r5, -16
	.cfi_offset r4, -20
	sub	sp, #60
	.cfi_def_cfa_offset 80
	ldrb	r2, [r1, #4]
	ldrb	r3, [r1, #5]
	lsls	r3, r3, #8
	adds	r2, r3, r2
	ldrb	r3, [r1, #6]
	lsls	r3, r3, #16
	ldrb	r1, [r1, #7]
	lsls	r1, r1, #24
	adds	r1, r1, r3
	adds	r6, r1, r2
	lsls	r3, r6, #3
	ldr	r4, [r0, #24]
	ldr	r1, [r4, r3]
	lsrs	r7, r1, #2
	ldr	r2, [r0, #16]
	subs	r2, r2, r7
	str	r2, [r0, #16]
	str	r3, [sp, #40]
	adds	r5, r4, r3
	lsls	r3, r1, #30
	movs	r2, #0
	cmp	r3, #0
	mov	r3, r2
	bmi	.LBB13_2
	adds	r2, r7, r6
	lsls	r3, r2, #3
	ldr	r2, [r4, r3]
	adds	r3, r4, r3
	ldr	r3, [r3, #4]
.LBB13_2:
	str	r3, [sp, #48]
	str	r7, [sp, #44]
	ldr	r7, [r5, #4]
	mov	r3, r0
	adds	r3, #24
	str	r3, [sp, #52]
	str	r6, [sp, #56]
	cmp	r6, #0
	beq	.LBB13_4
	lsls	r6, r7, #3
	ldr	r3, [r4, r6]
	str	r3, [sp, #36]
	lsls	r3, r3, #31
	bne	.LBB13_8
.LBB13_4:
	ldr	r6, [r0, #8]
	ldr	r4, [r0, #12]
	lsls	r3, r2, #31
	bne	.LBB13_7
	movs	r2, #1
	str	r2, [sp, #48]
	orrs	r1, r2
	stm	r5!, {r1, r7}
	str	r6, [r5]
	str	r4, [r5, #4]
	ldr	r1, [r0, #8]
	movs	r4, #0
	adds	r1, r1, #1
	str	r1, [r0, #8]
	ldr	r1, [r0, #12]
	adcs	r1, r4
	str	r1, [r0, #12]
	movs	r1, #32
	ldr	r7, [sp, #44]
	orrs	r1, r7
	mov	r5, r0
	mov	r0, r1
	bl	__clzsi2
	mov	r1, r5
	movs	r2, #26
	subs	r0, r2, r0
	lsrs	r7, r0
	lsls	r0, r0, #5
	adds	r0, r7, r0
	lsls	r2, r0, #2
	adds	r3, r5, r2
	movs	r5, #168
	ldr	r2, [r3, r5]
	ldr	r6, [sp, #56]
	str	r6, [r3, r5]
	cmp	r2, #0
	bmi	.LBB13_9
	ldr	r0, [sp, #52]
	ldr	r0, [r0]
	ldr	r1, [sp, #40]
	adds	r1, r0, r1
	mvns	r3, r4
	str	r2, [r1, #16]
	str	r3, [r1, #20]
	lsls	r1, r2, #3
	adds	r0, r0, r1
	str	r6, [r0, #20]
	add	sp, #60
	pop	{r4, r5, r6, r7, pc}
.LBB13_7:
	movs	r3, #0
	adds	r5, r6, #1
	str	r5, [r0, #8]
	adcs	r3, r4
	str	r3, [r0, #12]
	str	r1, [sp]
	str	r7, [sp, #4]
	str	r6, [sp, #8]
	str	r4, [sp, #12]
	ldr	r0, [sp, #56]
	str	r0, [sp, #16]
	ldr	r0, [sp, #52]
	ldr	r3, [sp, #48]
	bl	tlsf_heap.fitting.merge_next.5
	add	sp, #60
	pop	{r4, r5, r6, r7, pc}
.LBB13_8:
	adds	r3, r4, r6
	ldr	r3, [r3, #4]
	ldr	r4, [r0, #8]
	movs	r5, #0
	adds	r6, r4, #1
	str	r6, [r0, #8]
	ldr	r6, [r0, #12]
	adcs	r5, r6
	str	r5, [r0, #12]
	str	r1, [sp, #24]
	str	r7, [sp, #28]
	ldr	r0, [sp, #36]
	add	r1, sp, #0
	stm	r1!, {r0, r3, r4, r6}
	ldr	r0, [sp, #56]
	str	r0, [sp, #16]
	ldr	r0, [sp, #52]
	ldr	r3, [sp, #48]
	bl	tlsf_heap.fitting.merge_before.5
	add	sp, #60
	pop	{r4, r5, r6, r7, pc}
.LBB13_9:
	ldr	r2, [r1, #24]
	ldr	r3, [sp, #40]
	adds	r2, r2, r3
	mvns	r3, r4
	str	r3, [r2, #16]
	str	r3, [r2, #20]
	lsrs	r0, r0, #5
	ldr	r4, [sp, #48]
	mov	r2, r4
	lsls	r2, r0
	ldr	r3, [r1, #80]
	orrs	r3, r2
	str	r3, [r1, #80]
	movs	r2, #31
	ands	r7, r2
	lsls	r4, r7
	lsls	r0, r0, #2
	adds	r0, r1, r0
	ldr	r1, [r0, #84]
	orrs	r1, r4
	str	r1, [r0, #84]
	add	sp, #60
	pop	{r4, r5, r6, r7, pc}
.Lfunc_end13:
	.size	tlsf_heap.heap.Heap.release_live.5, .Lfunc_end13-tlsf_heap.heap.Heap.release_live.5
	.cfi_endproc
	.section	.text.tlsf_heap.fitting.merge_before.5,"ax",%progbits
	.p2align	2
	.type	tlsf_heap.fitting.merge_before.5,%function
	.code	16
	.thumb_func
tlsf_heap.fitting.merge_before.5:
	.cfi_startproc
	push	{r4, r5, r6, r7, lr}
	.cfi_def_cfa_offset 20
	.cfi_offset lr, -4
	.cfi_offset r7, -8
	.cfi_offset r6, -12
	.cfi_offset r5, -16
	.cfi_offset r4, -20
	sub	sp, #92
	.cfi_def_cfa_offset 112
	str	r3, [sp, #84]
	mov	r5, r0
	lsls	r0, r2, #31
	ldr	r1, [sp, #136]
	ldr	r3, [sp, #124]
	ldr	r7, [sp, #120]
	ldr	r6, [sp, #116]
	ldr	r0, [sp, #112]
	ldr	r4, [sp, #128]
	bne	.LBB14_3
	str	r3, [sp, #68]
	str	r7, [sp, #64]
	movs	r7, #1
	orrs	r1, r7
	movs	r3, #0
	adds	r1, r0, r1
	adcs	r6, r3
	subs	r2, r1, #1
	sbcs	r6, r3
	str	r6, [sp, #88]
	lsrs	r6, r0, #2
	str	r4, [sp, #60]
	subs	r4, r4, r6
	lsls	r1, r4, #3
	ldr	r0, [r5]
	str	r1, [sp, #80]
	adds	r0, r0, r1
	ldr	r0, [r0, #20]
	str	r3, [sp, #40]
	mvns	r1, r3
	str	r1, [sp, #84]
	cmp	r0, #0
	str	r4, [sp, #72]
	str	r7, [sp, #52]
	str	r2, [sp, #76]
	bmi	.LBB14_5
	lsrs	r0, r2, #2
	str	r0, [sp, #56]
	b	.LBB14_13
.LBB14_3:
	str	r6, [sp, #88]
	ldr	r6, [sp, #140]
	str	r1, [sp, #24]
	str	r6, [sp, #28]
	str	r0, [sp]
	ldr	r0, [sp, #88]
	str	r0, [sp, #4]
	str	r7, [sp, #8]
	str	r3, [sp, #12]
	str	r4, [sp, #16]
	mov	r0, r5
	ldr	r3, [sp, #84]
	bl	tlsf_heap.fitting.merge_both.5
.LBB14_4:
	add	sp, #92
	pop	{r4, r5, r6, r7, pc}
.LBB14_5:
	str	r5, [sp, #32]
	movs	r7, #32
	mov	r0, r6
	orrs	r0, r7
	mov	r4, r2
	bl	__clzsi2
	movs	r5, #26
	subs	r0, r5, r0
	mov	r1, r6
	lsrs	r1, r0
	lsls	r0, r0, #5
	adds	r0, r1, r0
	str	r0, [sp, #48]
	lsrs	r4, r4, #2
	mov	r0, r4
	orrs	r0, r7
	bl	__clzsi2
	subs	r0, r5, r0
	str	r4, [sp, #56]
	lsrs	r4, r0
	lsls	r0, r0, #5
	adds	r0, r4, r0
	ldr	r1, [sp, #48]
	cmp	r1, r0
	bne	.LBB14_12
	ldr	r0, [sp, #52]
	mvns	r2, r0
	ldr	r0, [sp, #40]
	mvns	r1, r0
	ldr	r0, [sp, #60]
	tst	r0, r7
	mov	r3, r2
	bne	.LBB14_8
	mov	r3, r1
.LBB14_8:
	str	r3, [sp, #52]
	bne	.LBB14_10
	mov	r1, r2
.LBB14_10:
	movs	r6, #31
	mov	r2, r0
	ands	r2, r6
	lsls	r1, r2
	bics	r6, r0
	ldr	r3, .LCPI14_1
	lsrs	r3, r6
	orrs	r1, r3
	lsrs	r5, r0, #3
	ldr	r0, .LCPI14_0
	ands	r5, r0
	ldr	r4, [sp, #32]
	ldr	r6, [r4, #24]
	ldr	r0, [r6, r5]
	ands	r0, r1
	str	r0, [r6, r5]
	ldr	r1, [r4]
	str	r1, [sp, #60]
	ldr	r0, [sp, #80]
	ldr	r4, [sp, #76]
	str	r4, [r1, r0]
	ldr	r7, [sp, #52]
	lsls	r7, r2
	orrs	r7, r3
	adds	r1, r6, r5
	ldr	r2, [r1, #4]
	ands	r2, r7
	str	r2, [r1, #4]
	ldr	r1, [sp, #60]
	adds	r0, r1, r0
	ldr	r1, [sp, #88]
	str	r1, [r0, #4]
	ldr	r1, [sp, #64]
	str	r1, [r0, #8]
	ldr	r1, [sp, #68]
	str	r1, [r0, #12]
	lsls	r0, r4, #30
	bmi	.LBB14_4
	ldr	r0, [sp, #56]
	ldr	r4, [sp, #72]
	adds	r0, r0, r4
	lsls	r0, r0, #3
	ldr	r1, [sp, #32]
	ldr	r1, [r1]
	ldr	r2, [r1, r0]
	ldr	r3, [sp, #84]
	ands	r2, r3
	str	r2, [r1, r0]
	adds	r0, r1, r0
	str	r4, [r0, #4]
	add	sp, #92
	pop	{r4, r5, r6, r7, pc}
.LBB14_12:
	ldr	r7, [sp, #52]
	ldr	r5, [sp, #32]
	ldr	r4, [sp, #72]
.LBB14_13:
	mov	r0, r5
	mov	r1, r6
	mov	r2, r4
	bl	tlsf_heap.region.Region.remove.5
	mvns	r3, r7
	movs	r1, #32
	ldr	r0, [sp, #60]
	str	r1, [sp, #48]
	tst	r0, r1
	mov	r1, r3
	bne	.LBB14_15
	ldr	r1, [sp, #84]
.LBB14_15:
	str	r1, [sp, #44]
	ldr	r2, [sp, #84]
	bne	.LBB14_17
	mov	r2, r3
.LBB14_17:
	movs	r4, #31
	mov	r3, r0
	ands	r3, r4
	lsls	r2, r3
	str	r4, [sp, #36]
	bics	r4, r0
	ldr	r6, .LCPI14_1
	lsrs	r6, r4
	orrs	r2, r6
	lsrs	r4, r0, #3
	ldr	r0, .LCPI14_0
	ands	r4, r0
	mov	r0, r5
	ldr	r5, [r5, #24]
	ldr	r7, [r5, r4]
	ands	r7, r2
	str	r7, [r5, r4]
	ldr	r7, [r0]
	ldr	r2, [sp, #80]
	ldr	r1, [sp, #76]
	str	r1, [r7, r2]
	ldr	r1, [sp, #44]
	lsls	r1, r3
	orrs	r1, r6
	mov	r6, r0
	adds	r3, r5, r4
	ldr	r4, [r3, #4]
	ands	r4, r1
	str	r4, [r3, #4]
	adds	r1, r7, r2
	ldr	r0, [sp, #88]
	str	r0, [r1, #4]
	ldr	r0, [sp, #64]
	str	r0, [r1, #8]
	ldr	r0, [sp, #68]
	str	r0, [r1, #12]
	ldr	r0, [sp, #76]
	lsls	r1, r0, #30
	ldr	r4, [sp, #72]
	ldr	r5, [sp, #56]
	bmi	.LBB14_19
	adds	r1, r5, r4
	lsls	r1, r1, #3
	ldr	r2, [r6]
	ldr	r3, [r2, r1]
	ldr	r0, [sp, #84]
	ands	r3, r0
	str	r3, [r2, r1]
	adds	r1, r2, r1
	str	r4, [r1, #4]
.LBB14_19:
	ldr	r0, [sp, #48]
	orrs	r0, r5
	bl	__clzsi2
	movs	r1, #26
	subs	r0, r1, r0
	lsrs	r5, r0
	lsls	r0, r0, #5
	adds	r0, r5, r0
	lsls	r1, r0, #2
	adds	r2, r6, r1
	movs	r3, #144
	ldr	r1, [r2, r3]
	str	r4, [r2, r3]
	cmp	r1, #0
	bmi	.LBB14_21
	ldr	r0, [r6]
	ldr	r2, [sp, #80]
	adds	r2, r0, r2
	str	r1, [r2, #16]
	ldr	r3, [sp, #84]
	str	r3, [r2, #20]
	lsls	r1, r1, #3
	adds	r0, r0, r1
	str	r4, [r0, #20]
	ldr	r1, [r0, #16]
	ands	r1, r3
	str	r1, [r0, #16]
	add	sp, #92
	pop	{r4, r5, r6, r7, pc}
.LBB14_21:
	ldr	r1, [r6]
	ldr	r2, [sp, #80]
	adds	r1, r1, r2
	ldr	r2, [sp, #40]
	mvns	r2, r2
	str	r2, [r1, #16]
	str	r2, [r1, #20]
	lsrs	r0, r0, #5
	ldr	r3, [sp, #52]
	mov	r1, r3
	lsls	r1, r0
	ldr	r2, [r6, #56]
	orrs	r2, r1
	str	r2, [r6, #56]
	ldr	r1, [sp, #36]
	ands	r5, r1
	lsls	r3, r5
	lsls	r0, r0, #2
	adds	r0, r6, r0
	ldr	r1, [r0, #60]
	orrs	r1, r3
	str	r1, [r0, #60]
	add	sp, #92
	pop	{r4, r5, r6, r7, pc}
	.p2align	2
.LCPI14_0:
	.long	536870904
.LCPI14_1:
	.long	2147483647
.Lfunc_end14:
	.size	tlsf_heap.fitting.merge_before.5, .Lfunc_end14-tlsf_heap.fitting.merge_before.5
	.cfi_endproc
	.section	.text.tlsf_heap.fitting.merge_both.5,"ax",%progbits
	.p2align	2
	.type	tlsf_heap.fitting.merge_both.5,%function
	.code	16
	.thumb_func
tlsf_heap.fitting.merge_both.5:
	.cfi_startproc
	push	{r4, r5, r6, r7, lr}
	.cfi_def_cfa_offset 20
	.cfi_offset lr, -4
	.cfi_offset r7, -8
	.cfi_offset r6, -12
	.cfi_offset r5, -16
	.cfi_offset r4, -20
	sub	sp, #76
	.cfi_def_cfa_offset 96
	mov	r1, r2
	mov	r5, r0
	ldr	r0, [sp, #120]
	str	r0, [sp, #64]
	lsrs	r0, r0, #2
	ldr	r4, [sp, #112]
	adds	r2, r0, r4
	str	r1, [sp, #68]
	lsrs	r1, r1, #2
	mov	r0, r5
	str	r1, [sp, #52]
	bl	tlsf_heap.region.Region.remove.5
	ldr	r0, [sp, #96]
	str	r0, [sp, #48]
	lsrs	r1, r0, #2
	subs	r6, r4, r1
	mov	r0, r5
	mov	r2, r6
	bl	tlsf_heap.region.Region.remove.5
	movs	r0, #1
	str	r0, [sp, #8]
	mvns	r3, r0
	movs	r2, #0
	mvns	r1, r2
	movs	r0, #32
	str	r0, [sp, #72]
	tst	r4, r0
	str	r3, [sp, #60]
	mov	r0, r3
	bne	.LBB15_2
	mov	r0, r1
.LBB15_2:
	str	r0, [sp, #44]
	mov	r0, r1
	bne	.LBB15_4
	ldr	r0, [sp, #60]
.LBB15_4:
	movs	r3, #31
	mov	r7, r4
	ands	r7, r3
	str	r7, [sp, #36]
	lsls	r0, r7
	str	r3, [sp, #56]
	bics	r3, r4
	ldr	r7, .LCPI15_0
	lsrs	r7, r3
	str	r7, [sp, #32]
	orrs	r0, r7
	lsrs	r3, r4, #6
	lsls	r4, r3, #3
	ldr	r7, [r5, #24]
	ldr	r3, [r7, r4]
	ands	r3, r0
	str	r4, [sp, #28]
	str	r7, [sp, #24]
	str	r3, [r7, r4]
	ldr	r0, [sp, #68]
	ldr	r3, [sp, #64]
	adds	r0, r3, r0
	ldr	r3, [sp, #100]
	ldr	r4, [sp, #48]
	adds	r0, r4, r0
	adcs	r3, r2
	subs	r0, r0, #1
	str	r2, [sp, #4]
	sbcs	r3, r2
	str	r3, [sp, #40]
	str	r0, [sp, #64]
	lsrs	r7, r0, #2
	str	r6, [sp, #68]
	adds	r0, r7, r6
	str	r0, [sp, #12]
	ldr	r2, [sp, #52]
	subs	r0, r0, r2
	ldr	r3, [sp, #72]
	tst	r0, r3
	ldr	r3, [sp, #60]
	bne	.LBB15_6
	mov	r3, r1
.LBB15_6:
	str	r7, [sp, #48]
	mov	r2, r5
	str	r1, [sp, #52]
	mov	r6, r1
	bne	.LBB15_8
	ldr	r6, [sp, #60]
.LBB15_8:
	mov	r7, r0
	ldr	r5, [sp, #56]
	ands	r7, r5
	lsls	r6, r7
	bics	r5, r0
	ldr	r4, .LCPI15_0
	lsrs	r4, r5
	orrs	r6, r4
	lsrs	r0, r0, #6
	lsls	r0, r0, #3
	str	r0, [sp, #20]
	str	r2, [sp, #16]
	ldr	r5, [r2, #24]
	ldr	r1, [r5, r0]
	ands	r1, r6
	str	r1, [r5, r0]
	ldr	r0, [sp, #68]
	lsls	r6, r0, #3
	ldr	r1, [r2]
	str	r1, [sp, #60]
	ldr	r0, [sp, #64]
	str	r0, [r1, r6]
	ldr	r0, [sp, #44]
	ldr	r1, [sp, #36]
	lsls	r0, r1
	ldr	r1, [sp, #32]
	orrs	r0, r1
	ldr	r1, [sp, #28]
	ldr	r2, [sp, #24]
	adds	r1, r2, r1
	ldr	r2, [r1, #4]
	ands	r2, r0
	str	r2, [r1, #4]
	lsls	r3, r7
	mov	r7, r6
	orrs	r3, r4
	ldr	r0, [sp, #20]
	adds	r0, r5, r0
	ldr	r5, [sp, #16]
	ldr	r1, [r0, #4]
	ands	r1, r3
	str	r1, [r0, #4]
	ldr	r0, [sp, #60]
	adds	r0, r0, r6
	ldr	r4, [sp, #68]
	ldr	r1, [sp, #108]
	str	r1, [r0, #12]
	ldr	r1, [sp, #104]
	str	r1, [r0, #8]
	ldr	r1, [sp, #40]
	str	r1, [r0, #4]
	ldr	r0, [sp, #64]
	lsls	r0, r0, #30
	bmi	.LBB15_10
	ldr	r0, [sp, #12]
	lsls	r0, r0, #3
	ldr	r1, [r5]
	ldr	r2, [r1, r0]
	ldr	r3, [sp, #52]
	ands	r2, r3
	str	r2, [r1, r0]
	adds	r0, r1, r0
	str	r4, [r0, #4]
.LBB15_10:
	ldr	r0, [sp, #72]
	ldr	r6, [sp, #48]
	orrs	r0, r6
	bl	__clzsi2
	movs	r1, #26
	subs	r0, r1, r0
	lsrs	r6, r0
	lsls	r0, r0, #5
	adds	r0, r6, r0
	lsls	r1, r0, #2
	adds	r2, r5, r1
	movs	r3, #144
	ldr	r1, [r2, r3]
	str	r4, [r2, r3]
	cmp	r1, #0
	bmi	.LBB15_12
	ldr	r0, [r5]
	adds	r2, r0, r7
	str	r1, [r2, #16]
	ldr	r3, [sp, #52]
	str	r3, [r2, #20]
	lsls	r1, r1, #3
	adds	r0, r0, r1
	str	r4, [r0, #20]
	ldr	r1, [r0, #16]
	ands	r1, r3
	str	r1, [r0, #16]
	add	sp, #76
	pop	{r4, r5, r6, r7, pc}
.LBB15_12:
	ldr	r1, [r5]
	adds	r1, r1, r7
	ldr	r2, [sp, #4]
	mvns	r2, r2
	str	r2, [r1, #16]
	str	r2, [r1, #20]
	lsrs	r0, r0, #5
	ldr	r3, [sp, #8]
	mov	r1, r3
	lsls	r1, r0
	ldr	r2, [r5, #56]
	orrs	r2, r1
	str	r2, [r5, #56]
	ldr	r1, [sp, #56]
	ands	r6, r1
	lsls	r3, r6
	lsls	r0, r0, #2
	adds	r0, r5, r0
	ldr	r1, [r0, #60]
	orrs	r1, r3
	str	r1, [r0, #60]
	add	sp, #76
	pop	{r4, r5, r6, r7, pc}
	.p2align	2
.LCPI15_0:
	.long	2147483647
.Lfunc_end15:
	.size	tlsf_heap.fitting.merge_both.5, .Lfunc_end15-tlsf_heap.fitting.merge_both.5
	.cfi_endproc
	.section	.text.tlsf_heap.fitting.merge_next.5,"ax",%progbits
	.p2align	2
	.type	tlsf_heap.fitting.merge_next.5,%function
	.code	16
	.thumb_func
tlsf_heap.fitting.merge_next.5:
	.cfi_startproc
	push	{r4, r5, r6, r7, lr}
	.cfi_def_cfa_offset 20
	.cfi_offset lr, -4
	.cfi_offset r7, -8
	.cfi_offset r6, -12
	.cfi_offset r5, -16
	.cfi_offset r4, -20
	sub	sp, #44
	.cfi_def_cfa_offset 64
	mov	r5, r2
	ldr	r7, [sp, #64]
	lsrs	r1, r7, #2
	ldr	r4, [sp, #80]
	adds	r2, r4, r1
	lsrs	r6, r5, #2
	str	r0, [sp, #32]
	mov	r1, r6
	bl	tlsf_heap.region.Region.remove.5
	movs	r1, #0
	ldr	r2, [sp, #68]
	adds	r0, r5, r7
	adcs	r2, r1
	str	r2, [sp, #16]
	str	r0, [sp, #36]
	lsrs	r0, r0, #2
	str	r4, [sp, #40]
	str	r0, [sp, #24]
	adds	r0, r0, r4
	str	r0, [sp, #12]
	subs	r7, r0, r6
	movs	r0, #1
	str	r0, [sp, #8]
	mvns	r3, r0
	str	r1, [sp, #4]
	mvns	r2, r1
	movs	r0, #32
	str	r0, [sp, #20]
	tst	r7, r0
	mov	r1, r3
	bne	.LBB16_2
	mov	r1, r2
.LBB16_2:
	ldr	r5, [sp, #32]
	str	r2, [sp, #28]
	bne	.LBB16_4
	mov	r2, r3
.LBB16_4:
	movs	r4, #31
	mov	r6, r7
	ands	r6, r4
	lsls	r2, r6
	str	r4, [sp]
	bics	r4, r7
	ldr	r3, .LCPI16_0
	lsrs	r3, r4
	orrs	r2, r3
	lsrs	r4, r7, #6
	lsls	r4, r4, #3
	mov	r0, r5
	ldr	r7, [r5, #24]
	ldr	r5, [r7, r4]
	ands	r5, r2
	str	r5, [r7, r4]
	ldr	r2, [sp, #40]
	lsls	r2, r2, #3
	ldr	r5, [r0]
	ldr	r0, [sp, #36]
	str	r0, [r5, r2]
	lsls	r1, r6
	orrs	r1, r3
	adds	r3, r7, r4
	mov	r7, r2
	ldr	r4, [r3, #4]
	ands	r4, r1
	str	r4, [r3, #4]
	ldr	r4, [sp, #32]
	adds	r1, r5, r2
	ldr	r2, [sp, #76]
	str	r2, [r1, #12]
	ldr	r2, [sp, #72]
	str	r2, [r1, #8]
	ldr	r0, [sp, #16]
	str	r0, [r1, #4]
	ldr	r0, [sp, #36]
	lsls	r1, r0, #30
	ldr	r5, [sp, #40]
	bmi	.LBB16_6
	ldr	r0, [sp, #12]
	lsls	r1, r0, #3
	ldr	r2, [r4]
	ldr	r3, [r2, r1]
	ldr	r0, [sp, #28]
	ands	r3, r0
	str	r3, [r2, r1]
	adds	r1, r2, r1
	str	r5, [r1, #4]
.LBB16_6:
	ldr	r6, [sp, #24]
	ldr	r0, [sp, #20]
	orrs	r0, r6
	bl	__clzsi2
	movs	r1, #26
	subs	r0, r1, r0
	lsrs	r6, r0
	lsls	r0, r0, #5
	adds	r0, r6, r0
	lsls	r1, r0, #2
	adds	r2, r4, r1
	movs	r3, #144
	ldr	r1, [r2, r3]
	str	r5, [r2, r3]
	cmp	r1, #0
	bmi	.LBB16_8
	ldr	r0, [r4]
	adds	r2, r0, r7
	str	r1, [r2, #16]
	ldr	r3, [sp, #28]
	str	r3, [r2, #20]
	lsls	r1, r1, #3
	adds	r0, r0, r1
	str	r5, [r0, #20]
	ldr	r1, [r0, #16]
	ands	r1, r3
	str	r1, [r0, #16]
	add	sp, #44
	pop	{r4, r5, r6, r7, pc}
.LBB16_8:
	ldr	r1, [r4]
	adds	r1, r1, r7
	ldr	r2, [sp, #4]
	mvns	r2, r2
	str	r2, [r1, #16]
	str	r2, [r1, #20]
	lsrs	r0, r0, #5
	ldr	r3, [sp, #8]
	mov	r1, r3
	lsls	r1, r0
	ldr	r2, [r4, #56]
	orrs	r2, r1
	str	r2, [r4, #56]
	ldr	r1, [sp]
	ands	r6, r1
	lsls	r3, r6
	lsls	r0, r0, #2
	adds	r0, r4, r0
	ldr	r1, [r0, #60]
	orrs	r1, r3
	str	r1, [r0, #60]
	add	sp, #44
	pop	{r4, r5, r6, r7, pc}
	.p2align	2
.LCPI16_0:
	.long	2147483647
.Lfunc_end16:
	.size	tlsf_heap.fitting.merge_next.5, .Lfunc_end16-tlsf_heap.fitting.merge_next.5
	.cfi_endproc
	.section	.text.tlsf_c.any_heap.AnyHeap.block_at,"ax",%progbits
	.p2align	1
	.type	tlsf_c.any_heap.AnyHeap.block_at,%function
	.code	16
	.thumb_func
tlsf_c.any_heap.AnyHeap.block_at:
	.cfi_startproc
	push	{r4, r5, r6, r7, lr}
	.cfi_def_cfa_offset 20
	.cfi_offset lr, -4
	.cfi_offset r7, -8
	.cfi_offset r6, -12
	.cfi_offset r5, -16
	.cfi_offset r4, -20
	sub	sp, #12
	.cfi_def_cfa_offset 32
	mov	r5, r2
	mov	r6, r1
	mov	r4, r0
	ldr	r0, [r1, #48]
	ldrb	r1, [r1, #8]
	cmp	r1, #0
	cmp	r2, r0
	bhs	.LBB17_4
	movs	r2, #63
	ands	r2, r5
	ldr	r1, [r6, #64]
	lsrs	r0, r5, #6
	lsls	r3, r0, #3
	ldr	r0, [r1, r3]
	adds	r1, r1, r3
	ldr	r1, [r1, #4]
	bl	__aeabi_llsr
	lsls	r0, r0, #31
	beq	.LBB17_4
	mov	r7, r5
	lsls	r1, r5, #3
	ldr	r6, [r6, #40]
	adds	r3, r6, r1
	ldr	r2, [r3, #8]
	ldr	r0, [r3, #12]
	ldr	r6, [r6, r1]
	lsrs	r5, r6, #2
	lsls	r6, r6, #31
	bne	.LBB17_6
	str	r7, [sp, #8]
	ldr	r6, [r3, #16]
	movs	r3, #1
	str	r3, [sp, #4]
	mov	r1, r0
	b	.LBB17_5
.LBB17_4:
	movs	r3, #0
	str	r3, [sp, #8]
	mov	r5, r3
	str	r3, [sp, #4]
	mov	r2, r3
	mov	r1, r3
	mov	r6, r3
.LBB17_5:
	movs	r0, #36
	movs	r7, #0
	strb	r7, [r4, r0]
	movs	r0, #32
	strb	r6, [r4, r0]
	strb	r2, [r4, #24]
	strb	r7, [r4, #23]
	strb	r7, [r4, #22]
	strb	r7, [r4, #21]
	strb	r7, [r4, #20]
	strb	r7, [r4, #19]
	strb	r7, [r4, #18]
	strb	r7, [r4, #17]
	ldr	r0, [sp, #4]
	strb	r0, [r4, #16]
	strb	r7, [r4, #7]
	strb	r7, [r4, #6]
	strb	r7, [r4, #5]
	strb	r7, [r4, #4]
	strb	r7, [r4, #3]
	strb	r7, [r4, #2]
	strb	r7, [r4, #1]
	strb	r3, [r4]
	strb	r5, [r4, #12]
	ldr	r3, [sp, #8]
	strb	r3, [r4, #8]
	strb	r1, [r4, #28]
	lsrs	r0, r2, #24
	strb	r0, [r4, #27]
	lsrs	r0, r2, #16
	strb	r0, [r4, #26]
	lsrs	r0, r2, #8
	strb	r0, [r4, #25]
	mov	r0, r4
	adds	r0, #36
	strb	r7, [r0, #3]
	strb	r7, [r0, #2]
	strb	r7, [r0, #1]
	mov	r0, r4
	adds	r0, #32
	lsrs	r2, r6, #24
	strb	r2, [r0, #3]
	lsrs	r2, r6, #16
	strb	r2, [r0, #2]
	lsrs	r2, r6, #8
	strb	r2, [r0, #1]
	lsrs	r0, r5, #24
	strb	r0, [r4, #15]
	lsrs	r0, r5, #16
	strb	r0, [r4, #14]
	lsrs	r0, r5, #8
	strb	r0, [r4, #13]
	lsrs	r0, r3, #24
	strb	r0, [r4, #11]
	lsrs	r0, r3, #16
	strb	r0, [r4, #10]
	lsrs	r0, r3, #8
	strb	r0, [r4, #9]
	lsrs	r0, r1, #24
	strb	r0, [r4, #31]
	lsrs	r0, r1, #16
	strb	r0, [r4, #30]
	lsrs	r0, r1, #8
	strb	r0, [r4, #29]
	add	sp, #12
	pop	{r4, r5, r6, r7, pc}
.LBB17_6:
	movs	r6, #0
	movs	r3, #1
	str	r6, [sp, #4]
	mov	r1, r0
	str	r7, [sp, #8]
	b	.LBB17_5
.Lfunc_end17:
	.size	tlsf_c.any_heap.AnyHeap.block_at, .Lfunc_end17-tlsf_c.any_heap.AnyHeap.block_at
	.cfi_endproc
	.section	.text.tlsf_heap.check.examine,"ax",%progbits
	.p2align	2
	.type	tlsf_heap.check.examine,%function
	.code	16
	.thumb_func
tlsf_heap.check.examine:
	.cfi_startproc
	push	{r4, r5, r6, r7, lr}
	.cfi_def_cfa_offset 20
	.cfi_offset lr, -4
	.cfi_offset r7, -8
	.cfi_offset r6, -12
	.cfi_offset r5, -16
	.cfi_offset r4, -20
	sub	sp, #28
	.cfi_def_cfa_offset 48
	mov	r4, r1
	mov	r6, r0
	ldr	r5, [r0, #8]
	subs	r7, r5, #4
	movs	r1, #0
	cmp	r4, r7
	mov	r0, r1
	bls	.LBB18_2
.LBB18_1:
	add	sp, #28
	pop	{r4, r5, r6, r7, pc}
.LBB18_2:
	movs	r0, #63
	mov	r2, r4
	str	r0, [sp, #24]
	ands	r2, r0
	ldr	r3, [r6, #24]
	lsrs	r0, r4, #6
	lsls	r1, r0, #3
	ldr	r0, [r3, r1]
	str	r3, [sp, #20]
	adds	r1, r3, r1
	ldr	r1, [r1, #4]
	bl	__aeabi_llsr
	lsls	r0, r0, #31
	bne	.LBB18_3
	b	.LBB18_29
.LBB18_3:
	lsls	r2, r4, #3
	ldr	r0, [r6]
	ldr	r6, [r0, r2]
	movs	r1, #0
	cmp	r6, #16
	bhs	.LBB18_4
	b	.LBB18_30
.LBB18_4:
	str	r0, [sp, #16]
	lsrs	r0, r6, #2
	str	r0, [sp, #12]
	adds	r3, r0, r4
	cmp	r3, r5
	mov	r0, r1
	bhi	.LBB18_1
	subs	r0, r3, r5
	rsbs	r1, r0, #0
	adcs	r1, r0
	movs	r0, #2
	ands	r0, r6
	lsrs	r0, r0, #1
	eors	r0, r1
	movs	r1, #0
	cmp	r0, #0
	mov	r0, r1
	bne	.LBB18_1
	ldr	r0, [sp, #16]
	adds	r2, r0, r2
	ldr	r0, [r2, #4]
	cmp	r4, #0
	beq	.LBB18_10
	movs	r1, #0
	str	r0, [sp, #8]
	cmp	r7, r0
	mov	r0, r1
	blo	.LBB18_1
	str	r2, [sp, #4]
	str	r3, [sp]
	ldr	r1, [sp, #8]
	mov	r2, r1
	ldr	r0, [sp, #24]
	ands	r2, r0
	lsrs	r1, r1, #3
	ldr	r0, .LCPI18_0
	ands	r1, r0
	ldr	r3, [sp, #20]
	ldr	r0, [r3, r1]
	adds	r1, r3, r1
	ldr	r1, [r1, #4]
	bl	__aeabi_llsr
	lsls	r0, r0, #31
	bne	.LBB18_9
	b	.LBB18_29
.LBB18_9:
	ldr	r2, [sp, #8]
	lsls	r0, r2, #3
	ldr	r1, [sp, #16]
	ldr	r0, [r1, r0]
	lsrs	r0, r0, #2
	adds	r0, r0, r2
	movs	r1, #0
	cmp	r0, r4
	mov	r0, r1
	ldr	r3, [sp]
	ldr	r2, [sp, #4]
	beq	.LBB18_11
	b	.LBB18_1
.LBB18_10:
	adds	r0, r0, #1
	movs	r1, #0
	cmp	r0, #0
	mov	r0, r1
	bne	.LBB18_1
.LBB18_11:
	movs	r0, #1
	str	r0, [sp, #8]
	ands	r6, r0
	cmp	r3, r5
	bhs	.LBB18_16
	movs	r1, #0
	cmp	r3, r7
	mov	r0, r1
	bhi	.LBB18_1
	str	r2, [sp, #4]
	mov	r2, r3
	ldr	r0, [sp, #24]
	ands	r2, r0
	lsrs	r1, r3, #3
	ldr	r0, .LCPI18_0
	ands	r1, r0
	ldr	r5, [sp, #20]
	ldr	r0, [r5, r1]
	adds	r1, r5, r1
	ldr	r1, [r1, #4]
	mov	r5, r3
	bl	__aeabi_llsr
	lsls	r0, r0, #31
	beq	.LBB18_29
	lsls	r0, r5, #3
	ldr	r2, [sp, #16]
	adds	r1, r2, r0
	ldr	r3, [r1, #4]
	movs	r1, #0
	cmp	r4, r3
	bne	.LBB18_30
	mov	r3, r5
	ldr	r0, [r2, r0]
	ands	r0, r6
	mov	r0, r1
	ldr	r2, [sp, #4]
	beq	.LBB18_16
	b	.LBB18_1
.LBB18_16:
	ldr	r5, [r2, #16]
	ldr	r0, [r2, #20]
	cmp	r6, #0
	bne	.LBB18_18
	ldr	r1, [sp, #12]
	mov	r4, r0
	lsrs	r0, r1, #29
	lsls	r2, r1, #3
	movs	r1, #0
	subs	r2, #24
	sbcs	r0, r1
	subs	r2, r2, r5
	sbcs	r0, r4
	mov	r0, r1
	bhs	.LBB18_24
	b	.LBB18_1
.LBB18_18:
	mov	r6, r0
	adds	r0, r5, #1
	beq	.LBB18_23
	movs	r1, #0
	cmp	r7, r5
	mov	r0, r1
	bhs	.LBB18_20
	b	.LBB18_1
.LBB18_20:
	str	r3, [sp]
	mov	r2, r5
	ldr	r0, [sp, #24]
	ands	r2, r0
	lsrs	r1, r5, #3
	ldr	r0, .LCPI18_0
	ands	r1, r0
	ldr	r3, [sp, #20]
	ldr	r0, [r3, r1]
	adds	r1, r3, r1
	ldr	r1, [r1, #4]
	bl	__aeabi_llsr
	lsls	r0, r0, #31
	beq	.LBB18_29
	lsls	r2, r5, #3
	ldr	r0, [sp, #16]
	ldrb	r0, [r0, r2]
	lsls	r0, r0, #31
	movs	r1, #0
	cmp	r0, #0
	mov	r0, r1
	ldr	r3, [sp]
	bne	.LBB18_22
	b	.LBB18_1
.LBB18_22:
	ldr	r0, [sp, #16]
	adds	r0, r0, r2
	ldr	r0, [r0, #20]
	movs	r1, #0
	cmp	r4, r0
	mov	r0, r1
	beq	.LBB18_23
	b	.LBB18_1
.LBB18_23:
	adds	r0, r6, #1
	bne	.LBB18_25
.LBB18_24:
	mov	r1, r3
	ldr	r0, [sp, #8]
	add	sp, #28
	pop	{r4, r5, r6, r7, pc}
.LBB18_25:
	movs	r1, #0
	cmp	r7, r6
	mov	r0, r1
	bhs	.LBB18_26
	b	.LBB18_1
.LBB18_26:
	mov	r5, r3
	ldr	r2, [sp, #24]
	ands	r2, r6
	lsrs	r1, r6, #3
	ldr	r0, .LCPI18_0
	ands	r1, r0
	ldr	r3, [sp, #20]
	ldr	r0, [r3, r1]
	adds	r1, r3, r1
	ldr	r1, [r1, #4]
	bl	__aeabi_llsr
	lsls	r0, r0, #31
	beq	.LBB18_29
	lsls	r2, r6, #3
	ldr	r0, [sp, #16]
	ldrb	r0, [r0, r2]
	lsls	r0, r0, #31
	movs	r1, #0
	cmp	r0, #0
	mov	r0, r1
	bne	.LBB18_28
	b	.LBB18_1
.LBB18_28:
	mov	r3, r5
	ldr	r0, [sp, #16]
	adds	r0, r0, r2
	ldr	r0, [r0, #16]
	movs	r1, #0
	cmp	r4, r0
	mov	r0, r1
	beq	.LBB18_24
	b	.LBB18_1
.LBB18_29:
	movs	r1, #0
.LBB18_30:
	mov	r0, r1
	add	sp, #28
	pop	{r4, r5, r6, r7, pc}
	.p2align	2
.LCPI18_0:
	.long	536870904
.Lfunc_end18:
	.size	tlsf_heap.check.examine, .Lfunc_end18-tlsf_heap.check.examine
	.cfi_endproc
	.section	.text.tlsf_heap.around.check_around,"ax",%progbits
	.p2align	1
	.type	tlsf_heap.around.check_around,%function
	.code	16
	.thumb_func
tlsf_heap.around.check_around:
	.cfi_startproc
	push	{r4, r5, r6, r7, lr}
	.cfi_def_cfa_offset 20
	.cfi_offset lr, -4
	.cfi_offset r7, -8
	.cfi_offset r6, -12
	.cfi_offset r5, -16
	.cfi_offset r4, -20
	sub	sp, #12
	.cfi_def_cfa_offset 32
	mov	r6, r2
	mov	r4, r0
	ldr	r0, [r1, #8]
	str	r0, [sp, #4]
	subs	r0, r0, #4
	movs	r5, #0
	cmp	r2, r0
	mov	r2, r5
	mov	r0, r5
	mov	r7, r5
	bhi	.LBB19_9
	movs	r2, #63
	ands	r2, r6
	ldr	r7, [r1, #24]
	lsrs	r0, r6, #6
	str	r1, [sp, #8]
	lsls	r3, r0, #3
	ldr	r0, [r7, r3]
	adds	r1, r7, r3
	ldr	r1, [r1, #4]
	bl	__aeabi_llsr
	ldr	r1, [sp, #8]
	lsls	r0, r0, #31
	mov	r2, r5
	mov	r0, r5
	mov	r7, r5
	beq	.LBB19_9
	mov	r0, r1
	mov	r1, r6
	bl	tlsf_heap.check.examine
	uxtb	r0, r0
	movs	r2, #1
	cmp	r0, #1
	bne	.LBB19_7
	mov	r7, r1
	cmp	r6, #0
	beq	.LBB19_5
	lsls	r3, r6, #3
	str	r2, [sp]
	ldr	r0, [sp, #8]
	ldr	r1, [r0]
	adds	r1, r1, r3
	ldr	r6, [r1, #4]
	mov	r1, r6
	bl	tlsf_heap.check.examine
	ldr	r2, [sp]
	uxtb	r0, r0
	cmp	r0, #1
	bne	.LBB19_7
.LBB19_5:
	ldr	r0, [sp, #4]
	cmp	r7, r0
	bne	.LBB19_8
	mov	r0, r5
	mov	r7, r5
	b	.LBB19_9
.LBB19_7:
	mov	r0, r2
	mov	r7, r6
	b	.LBB19_9
.LBB19_8:
	ldr	r0, [sp, #8]
	mov	r6, r2
	mov	r1, r7
	bl	tlsf_heap.check.examine
	uxtb	r0, r0
	subs	r0, r0, #1
	subs	r1, r0, #1
	sbcs	r0, r1
	mov	r2, r6
.LBB19_9:
	strb	r7, [r4, #8]
	strb	r5, [r4, #7]
	strb	r5, [r4, #6]
	strb	r5, [r4, #5]
	strb	r0, [r4, #4]
	strb	r5, [r4, #3]
	strb	r5, [r4, #2]
	strb	r5, [r4, #1]
	strb	r2, [r4]
	lsrs	r0, r7, #24
	strb	r0, [r4, #11]
	lsrs	r0, r7, #16
	strb	r0, [r4, #10]
	lsrs	r0, r7, #8
	strb	r0, [r4, #9]
	add	sp, #12
	pop	{r4, r5, r6, r7, pc}
.Lfunc_end19:
	.size	tlsf_heap.around.check_around, .Lfunc_end19-tlsf_heap.around.check_around
	.cfi_endproc
	.section	.text.tlsf_post.take_end.TakeEnd.take_slice,"ax",%progbits
	.p2align	1
	.type	tlsf_post.take_end.TakeEnd.take_slice,%function
	.code	16
	.thumb_func
tlsf_post.take_end.TakeEnd.take_slice:
	.cfi_startproc
	push	{r4, r5, r6, r7, lr}
	.cfi_def_cfa_offset 20
	.cfi_offset lr, -4
	.cfi_offset r7, -8
	.cfi_offset r6, -12
	.cfi_offset r5, -16
	.cfi_offset r4, -20
	sub	sp, #84
	.cfi_def_cfa_offset 104
	mov	r7, r3
	str	r2, [sp, #72]
	ldr	r3, [r0, #24]
	ldr	r6, [r0, #28]
	ldr	r5, [r0, #32]
	ldr	r4, [r0, #36]
	subs	r2, r5, r3
	mov	r2, r4
	sbcs	r2, r6
	str	r0, [sp, #80]
	str	r1, [sp, #76]
	bhs	.LBB20_2
	subs	r1, r5, r3
	mov	r2, r4
	sbcs	r2, r6
	mov	r5, r3
	ldr	r3, [r0, #16]
	ldr	r0, [r0, #20]
	lsrs	r4, r3, #31
	lsls	r0, r0, #1
	adds	r4, r0, r4
	lsls	r3, r3, #1
	adds	r1, r1, r3
	mov	r3, r5
	adcs	r4, r2
	b	.LBB20_3
.LBB20_2:
	subs	r1, r5, r3
	sbcs	r4, r6
.LBB20_3:
	ldr	r5, [sp, #72]
	subs	r1, r1, r5
	sbcs	r4, r7
	bhs	.LBB20_6
	ldr	r4, [sp, #80]
	ldr	r0, [r4]
	adds	r0, #128
	movs	r1, #5
	bl	__atomic_load_8
	str	r0, [r4, #32]
	str	r1, [r4, #36]
	ldr	r3, [r4, #24]
	ldr	r6, [r4, #28]
	subs	r2, r0, r3
	mov	r2, r1
	sbcs	r2, r6
	bhs	.LBB20_7
	subs	r0, r0, r3
	sbcs	r1, r6
	ldr	r2, [r4, #16]
	mov	r5, r3
	ldr	r3, [r4, #20]
	lsrs	r4, r2, #31
	lsls	r3, r3, #1
	adds	r4, r3, r4
	mov	r3, r5
	ldr	r5, [sp, #72]
	lsls	r2, r2, #1
	adds	r0, r0, r2
	adcs	r4, r1
	b	.LBB20_8
.LBB20_6:
	str	r6, [sp, #40]
	mov	r0, r5
	mov	r4, r7
	b	.LBB20_13
.LBB20_7:
	subs	r0, r0, r3
	sbcs	r1, r6
	mov	r4, r1
.LBB20_8:
	subs	r1, r0, r5
	mov	r1, r4
	sbcs	r1, r7
	blo	.LBB20_10
	mov	r4, r7
.LBB20_10:
	blo	.LBB20_12
	mov	r0, r5
.LBB20_12:
	str	r6, [sp, #40]
.LBB20_13:
	mov	r1, r0
	orrs	r1, r4
	ldr	r7, [sp, #80]
	bne	.LBB20_14
	b	.LBB20_43
.LBB20_14:
	str	r0, [sp, #36]
	ldr	r1, [r7, #16]
	ldr	r0, [r7, #20]
	str	r1, [sp, #32]
	subs	r1, r3, r1
	ldr	r6, [sp, #40]
	mov	r2, r6
	str	r0, [sp, #28]
	sbcs	r2, r0
	mov	r0, r6
	blo	.LBB20_16
	mov	r0, r2
.LBB20_16:
	mov	r2, r3
	blo	.LBB20_18
	mov	r2, r1
.LBB20_18:
	str	r2, [sp, #68]
	ldr	r1, [sp, #32]
	subs	r1, r1, r2
	ldr	r6, [sp, #28]
	sbcs	r6, r0
	ldr	r2, [sp, #36]
	str	r1, [sp, #20]
	subs	r1, r1, r2
	mov	r1, r6
	sbcs	r1, r4
	str	r6, [sp, #16]
	blo	.LBB20_20
	mov	r6, r4
.LBB20_20:
	str	r3, [sp, #24]
	ldr	r3, [sp, #20]
	blo	.LBB20_22
	mov	r3, r2
.LBB20_22:
	subs	r1, r2, r3
	str	r1, [sp, #64]
	mov	r1, r4
	str	r6, [sp, #60]
	sbcs	r1, r6
	str	r1, [sp, #52]
	movs	r6, #24
	ldr	r1, [sp, #28]
	eors	r0, r1
	ldr	r1, [sp, #32]
	ldr	r5, [sp, #68]
	eors	r1, r5
	orrs	r1, r0
	bne	.LBB20_23
	b	.LBB20_30
.LBB20_23:
	movs	r0, #3
	mov	r5, r3
	str	r0, [sp, #48]
	ands	r5, r0
	movs	r1, #0
	subs	r0, r3, #4
	ldr	r0, [sp, #60]
	str	r1, [sp, #56]
	sbcs	r0, r1
	str	r3, [sp, #12]
	blo	.LBB20_27
	str	r5, [sp, #4]
	str	r4, [sp, #8]
	ldr	r0, [sp, #48]
	bics	r3, r0
	str	r3, [sp, #44]
	ldr	r4, [sp, #56]
	mov	r5, r4
.LBB20_25:
	str	r4, [sp, #72]
	mov	r0, r6
	muls	r0, r5, r0
	ldr	r7, [sp, #76]
	adds	r0, r7, r0
	ldr	r4, [sp, #68]
	adds	r1, r5, r4
	muls	r1, r6, r1
	ldr	r2, [sp, #80]
	ldr	r2, [r2, #8]
	adds	r1, r2, r1
	mov	r2, r6
	bl	tlsf_memory_move
	movs	r1, #1
	orrs	r1, r5
	mov	r0, r6
	muls	r0, r1, r0
	adds	r0, r7, r0
	adds	r1, r1, r4
	mov	r7, r4
	muls	r1, r6, r1
	ldr	r4, [sp, #80]
	ldr	r2, [r4, #8]
	adds	r1, r2, r1
	mov	r2, r6
	bl	tlsf_memory_move
	movs	r1, #2
	orrs	r1, r5
	mov	r0, r6
	muls	r0, r1, r0
	ldr	r2, [sp, #76]
	adds	r0, r2, r0
	adds	r1, r1, r7
	muls	r1, r6, r1
	ldr	r2, [r4, #8]
	adds	r1, r2, r1
	mov	r2, r6
	bl	tlsf_memory_move
	mov	r1, r5
	ldr	r0, [sp, #48]
	orrs	r1, r0
	mov	r0, r6
	muls	r0, r1, r0
	ldr	r2, [sp, #76]
	adds	r0, r2, r0
	adds	r1, r1, r7
	muls	r1, r6, r1
	ldr	r2, [r4, #8]
	adds	r1, r2, r1
	mov	r2, r6
	bl	tlsf_memory_move
	ldr	r4, [sp, #72]
	adds	r5, r5, #4
	ldr	r0, [sp, #56]
	adcs	r4, r0
	mov	r0, r4
	ldr	r1, [sp, #60]
	eors	r0, r1
	mov	r1, r5
	ldr	r2, [sp, #44]
	eors	r1, r2
	orrs	r1, r0
	bne	.LBB20_25
	ldr	r0, [sp, #4]
	cmp	r0, #0
	str	r5, [sp, #56]
	mov	r5, r0
	ldr	r4, [sp, #8]
	ldr	r2, [sp, #36]
	ldr	r7, [sp, #80]
	ldr	r3, [sp, #12]
	beq	.LBB20_30
.LBB20_27:
	mov	r0, r6
	ldr	r2, [sp, #56]
	muls	r0, r2, r0
	ldr	r1, [sp, #76]
	adds	r0, r1, r0
	ldr	r1, [sp, #68]
	adds	r1, r2, r1
	muls	r1, r6, r1
	ldr	r2, [r7, #8]
	adds	r1, r2, r1
	mov	r2, r6
	bl	tlsf_memory_move
	ldr	r3, [sp, #12]
	ldr	r2, [sp, #36]
	cmp	r5, #1
	beq	.LBB20_30
	ldr	r0, [sp, #56]
	adds	r1, r0, #1
	mov	r0, r6
	muls	r0, r1, r0
	ldr	r2, [sp, #76]
	adds	r0, r2, r0
	ldr	r2, [sp, #68]
	adds	r1, r1, r2
	muls	r1, r6, r1
	ldr	r2, [r7, #8]
	adds	r1, r2, r1
	mov	r2, r6
	bl	tlsf_memory_move
	ldr	r3, [sp, #12]
	ldr	r2, [sp, #36]
	cmp	r5, #2
	beq	.LBB20_30
	ldr	r0, [sp, #56]
	adds	r1, r0, #2
	mov	r0, r6
	muls	r0, r1, r0
	ldr	r2, [sp, #76]
	adds	r0, r2, r0
	ldr	r2, [sp, #68]
	adds	r1, r1, r2
	muls	r1, r6, r1
	ldr	r2, [r7, #8]
	adds	r1, r2, r1
	mov	r2, r6
	bl	tlsf_memory_move
	ldr	r3, [sp, #12]
	ldr	r2, [sp, #36]
.LBB20_30:
	ldr	r0, [sp, #20]
	subs	r0, r0, r2
	ldr	r0, [sp, #16]
	sbcs	r0, r4
	bhs	.LBB20_38
	mov	r0, r6
	muls	r0, r3, r0
	ldr	r1, [sp, #76]
	adds	r0, r1, r0
	str	r0, [sp, #68]
	movs	r0, #3
	ldr	r1, [sp, #64]
	ands	r1, r0
	str	r1, [sp, #56]
	ldr	r1, [sp, #36]
	subs	r1, r3, r1
	ldr	r5, [sp, #60]
	sbcs	r5, r4
	movs	r7, #0
	mvns	r2, r7
	mvns	r3, r0
	subs	r1, r3, r1
	sbcs	r2, r5
	ldr	r5, [sp, #68]
	blo	.LBB20_35
	str	r4, [sp, #8]
	ldr	r2, [sp, #64]
	bics	r2, r0
	movs	r0, #0
	mov	r7, r0
	str	r0, [sp, #60]
	mov	r3, r0
	str	r2, [sp, #64]
	ldr	r4, [sp, #80]
.LBB20_33:
	str	r3, [sp, #72]
	str	r7, [sp, #76]
	mov	r5, r6
	muls	r6, r7, r6
	ldr	r7, [sp, #68]
	adds	r0, r7, r6
	ldr	r1, [r4, #8]
	adds	r1, r1, r6
	mov	r2, r5
	bl	tlsf_memory_move
	mov	r1, r6
	orrs	r1, r5
	adds	r0, r7, r1
	ldr	r2, [r4, #8]
	adds	r1, r2, r1
	mov	r2, r5
	bl	tlsf_memory_move
	mov	r1, r6
	adds	r1, #48
	adds	r0, r7, r1
	ldr	r2, [r4, #8]
	adds	r1, r2, r1
	mov	r2, r5
	bl	tlsf_memory_move
	adds	r6, #72
	adds	r0, r7, r6
	ldr	r7, [sp, #76]
	ldr	r1, [r4, #8]
	adds	r1, r1, r6
	mov	r6, r5
	mov	r2, r5
	bl	tlsf_memory_move
	ldr	r3, [sp, #72]
	ldr	r2, [sp, #64]
	adds	r7, r7, #4
	ldr	r0, [sp, #60]
	adcs	r3, r0
	mov	r0, r3
	ldr	r1, [sp, #52]
	eors	r0, r1
	mov	r1, r7
	eors	r1, r2
	orrs	r1, r0
	bne	.LBB20_33
	ldr	r0, [sp, #56]
	cmp	r0, #0
	ldr	r4, [sp, #8]
	ldr	r5, [sp, #68]
	beq	.LBB20_38
.LBB20_35:
	muls	r7, r6, r7
	adds	r0, r5, r7
	ldr	r1, [sp, #80]
	ldr	r1, [r1, #8]
	adds	r1, r1, r7
	mov	r2, r6
	bl	tlsf_memory_move
	ldr	r0, [sp, #56]
	cmp	r0, #1
	beq	.LBB20_38
	mov	r1, r7
	adds	r1, #24
	adds	r0, r5, r1
	ldr	r2, [sp, #80]
	ldr	r2, [r2, #8]
	adds	r1, r2, r1
	mov	r2, r6
	bl	tlsf_memory_move
	ldr	r0, [sp, #56]
	cmp	r0, #2
	beq	.LBB20_38
	adds	r7, #48
	adds	r0, r5, r7
	ldr	r1, [sp, #80]
	ldr	r1, [r1, #8]
	adds	r1, r1, r7
	mov	r2, r6
	bl	tlsf_memory_move
.LBB20_38:
	ldr	r0, [sp, #80]
	ldr	r0, [r0]
	str	r0, [sp, #76]
	movs	r1, #5
	str	r1, [sp]
	ldr	r5, [sp, #32]
	lsrs	r1, r5, #31
	ldr	r0, [sp, #28]
	lsls	r2, r0, #1
	adds	r3, r2, r1
	lsls	r1, r5, #1
	ldr	r2, [sp, #24]
	mov	r7, r4
	subs	r4, r1, r2
	ldr	r0, [sp, #40]
	sbcs	r3, r0
	movs	r2, #0
	rsbs	r0, r4, #0
	sbcs	r2, r3
	ldr	r1, [sp, #36]
	subs	r4, r1, r4
	mov	r1, r7
	mov	r4, r7
	sbcs	r4, r3
	blo	.LBB20_40
	str	r2, [sp, #40]
.LBB20_40:
	ldr	r2, [sp, #24]
	blo	.LBB20_42
	mov	r2, r0
.LBB20_42:
	ldr	r5, [sp, #36]
	adds	r2, r2, r5
	mov	r7, r1
	ldr	r6, [sp, #40]
	adcs	r6, r1
	ldr	r0, [sp, #76]
	mov	r4, r2
	mov	r3, r6
	bl	__atomic_store_8
	mov	r0, r5
	mov	r3, r4
	mov	r4, r7
	ldr	r7, [sp, #80]
	b	.LBB20_44
.LBB20_43:
	ldr	r6, [sp, #40]
.LBB20_44:
	str	r3, [r7, #24]
	str	r6, [r7, #28]
	mov	r1, r4
	add	sp, #84
	pop	{r4, r5, r6, r7, pc}
.Lfunc_end20:
	.size	tlsf_post.take_end.TakeEnd.take_slice, .Lfunc_end20-tlsf_post.take_end.TakeEnd.take_slice
	.cfi_endproc
	.section	.text.tlsf_c.heap_calls.release_named,"ax",%progbits
	.p2align	1
	.type	tlsf_c.heap_calls.release_named,%function
	.code	16
	.thumb_func
tlsf_c.heap_calls.release_named:
	.cfi_startproc
	push	{r4, r5, r6, r7, lr}
	.cfi_def_cfa_offset 20
	.cfi_offset lr, -4
	.cfi_offset r7, -8
	.cfi_offset r6, -12
	.cfi_offset r5, -16
	.cfi_offset r4, -20
	sub	sp, #76
	.cfi_def_cfa_offset 96
	mov	r5, r1
	ldrb	r1, [r0, #8]
	cmp	r1, #0
	bne	.LBB21_1
	b	.LBB21_34
.LBB21_1:
	ldr	r4, [r0]
	ldrb	r0, [r4]
	cmp	r0, #0
	bne	.LBB21_2
	b	.LBB21_34
.LBB21_2:
	str	r3, [sp, #64]
	str	r2, [sp, #68]
	ldr	r2, [sp, #96]
	movs	r6, #0
	strb	r6, [r4]
	ldr	r1, [r4, #24]
	ldrb	r0, [r4, #16]
	cmp	r0, #0
	str	r2, [sp, #72]
	bne	.LBB21_3
	b	.LBB21_16
.LBB21_3:
	cmp	r5, r1
	beq	.LBB21_4
	b	.LBB21_31
.LBB21_4:
	ldr	r0, [r4, #56]
	cmp	r2, r0
	mov	r1, r5
	blo	.LBB21_5
	b	.LBB21_31
.LBB21_5:
	movs	r2, #63
	ldr	r0, [sp, #72]
	ands	r2, r0
	ldr	r1, [r4, #72]
	ldr	r0, [sp, #72]
	lsrs	r0, r0, #6
	lsls	r3, r0, #3
	ldr	r0, [r1, r3]
	adds	r1, r1, r3
	ldr	r1, [r1, #4]
	bl	__aeabi_llsr
	ldr	r2, [sp, #72]
	lsls	r0, r0, #31
	mov	r1, r5
	bne	.LBB21_6
	b	.LBB21_31
.LBB21_6:
	mov	r0, r4
	adds	r0, #48
	lsls	r2, r2, #3
	str	r0, [sp, #56]
	ldr	r3, [r0]
	ldr	r0, [r3, r2]
	str	r0, [sp, #60]
	lsls	r1, r0, #31
	mov	r1, r5
	beq	.LBB21_7
	b	.LBB21_31
.LBB21_7:
	adds	r7, r3, r2
	ldr	r1, [r7, #8]
	str	r2, [sp, #52]
	ldr	r2, [r7, #12]
	ldr	r0, [sp, #64]
	eors	r2, r0
	mov	r0, r6
	ldr	r6, [sp, #68]
	eors	r1, r6
	orrs	r1, r2
	mov	r1, r5
	beq	.LBB21_8
	b	.LBB21_31
.LBB21_8:
	mov	r6, r0
	ldr	r5, [r4, #32]
	ldr	r0, [r4, #36]
	mov	r2, r5
	ands	r2, r0
	adds	r2, r2, #1
	bne	.LBB21_9
	b	.LBB21_30
.LBB21_9:
	str	r0, [sp, #64]
	ldr	r0, [r7, #4]
	str	r0, [sp, #68]
	ldr	r1, [sp, #60]
	lsrs	r0, r1, #2
	ldr	r2, [r4, #40]
	subs	r2, r2, r0
	str	r2, [r4, #40]
	lsls	r2, r1, #30
	mov	r1, r6
	str	r6, [sp, #44]
	bmi	.LBB21_11
	ldr	r1, [sp, #72]
	adds	r2, r0, r1
	lsls	r2, r2, #3
	ldr	r6, [r3, r2]
	adds	r2, r3, r2
	ldr	r1, [r2, #4]
.LBB21_11:
	str	r1, [sp, #48]
	ldr	r1, [sp, #72]
	cmp	r1, #0
	beq	.LBB21_13
	ldr	r1, [sp, #68]
	lsls	r2, r1, #3
	ldr	r1, [r3, r2]
	str	r1, [sp, #40]
	lsls	r1, r1, #31
	beq	.LBB21_13
	b	.LBB21_36
.LBB21_13:
	lsls	r1, r6, #31
	beq	.LBB21_14
	b	.LBB21_35
.LBB21_14:
	movs	r2, #1
	ldr	r1, [sp, #60]
	str	r2, [sp, #48]
	orrs	r1, r2
	str	r1, [r7]
	ldr	r1, [sp, #68]
	str	r1, [r7, #4]
	str	r5, [r7, #8]
	ldr	r1, [sp, #64]
	str	r1, [r7, #12]
	mov	r5, r0
	ldr	r0, [r4, #32]
	movs	r1, #0
	adds	r0, r0, #1
	str	r0, [r4, #32]
	ldr	r0, [r4, #36]
	str	r1, [sp, #68]
	adcs	r0, r1
	str	r0, [r4, #36]
	movs	r0, #32
	orrs	r0, r5
	bl	__clzsi2
	movs	r1, #26
	subs	r0, r1, r0
	lsrs	r5, r0
	lsls	r0, r0, #5
	adds	r0, r5, r0
	lsls	r1, r0, #2
	adds	r2, r4, r1
	movs	r3, #192
	ldr	r1, [r2, r3]
	ldr	r7, [sp, #72]
	str	r7, [r2, r3]
	cmp	r1, #0
	bpl	.LBB21_15
	b	.LBB21_39
.LBB21_15:
	mov	r6, r7
	ldr	r0, [sp, #56]
	ldr	r2, [r0]
	ldr	r0, [sp, #52]
	b	.LBB21_29
.LBB21_16:
	cmp	r5, r1
	beq	.LBB21_17
	b	.LBB21_31
.LBB21_17:
	ldr	r0, [r4, #56]
	cmp	r2, r0
	mov	r1, r5
	bhs	.LBB21_31
	movs	r2, #63
	ldr	r0, [sp, #72]
	ands	r2, r0
	ldr	r1, [r4, #72]
	ldr	r0, [sp, #72]
	lsrs	r0, r0, #6
	lsls	r3, r0, #3
	ldr	r0, [r1, r3]
	adds	r1, r1, r3
	ldr	r1, [r1, #4]
	bl	__aeabi_llsr
	ldr	r2, [sp, #72]
	lsls	r0, r0, #31
	mov	r1, r5
	beq	.LBB21_31
	mov	r3, r4
	adds	r3, #48
	lsls	r0, r2, #3
	ldr	r7, [r3]
	ldr	r1, [r7, r0]
	str	r1, [sp, #60]
	lsls	r1, r1, #31
	mov	r1, r5
	bne	.LBB21_31
	adds	r6, r7, r0
	ldr	r1, [r6, #8]
	ldr	r2, [r6, #12]
	str	r0, [sp, #56]
	ldr	r0, [sp, #64]
	eors	r2, r0
	ldr	r0, [sp, #68]
	eors	r1, r0
	orrs	r1, r2
	mov	r1, r5
	bne	.LBB21_31
	ldr	r5, [r4, #32]
	ldr	r0, [r4, #36]
	mov	r2, r5
	ands	r2, r0
	adds	r2, r2, #1
	beq	.LBB21_30
	str	r0, [sp, #52]
	str	r3, [sp, #48]
	ldr	r0, [r6, #4]
	str	r0, [sp, #68]
	movs	r0, #0
	ldr	r3, [sp, #60]
	lsrs	r1, r3, #2
	ldr	r2, [r4, #40]
	str	r1, [sp, #44]
	subs	r2, r2, r1
	str	r2, [r4, #40]
	lsls	r2, r3, #30
	mov	r3, r0
	str	r0, [sp, #36]
	bmi	.LBB21_24
	ldr	r2, [sp, #72]
	ldr	r0, [sp, #44]
	adds	r2, r0, r2
	lsls	r2, r2, #3
	ldr	r3, [r7, r2]
	adds	r2, r7, r2
	ldr	r0, [r2, #4]
.LBB21_24:
	str	r0, [sp, #40]
	str	r3, [sp, #64]
	ldr	r2, [sp, #72]
	cmp	r2, #0
	ldr	r1, [sp, #52]
	beq	.LBB21_26
	ldr	r0, [sp, #68]
	lsls	r3, r0, #3
	ldr	r0, [r7, r3]
	lsls	r2, r0, #31
	beq	.LBB21_26
	b	.LBB21_38
.LBB21_26:
	ldr	r2, [sp, #64]
	lsls	r0, r2, #31
	bne	.LBB21_37
	movs	r7, #1
	ldr	r2, [sp, #60]
	orrs	r2, r7
	str	r2, [r6]
	ldr	r0, [sp, #68]
	str	r0, [r6, #4]
	str	r5, [r6, #8]
	str	r1, [r6, #12]
	ldr	r5, [sp, #44]
	ldr	r0, [r4, #32]
	movs	r1, #0
	adds	r0, r0, #1
	str	r0, [r4, #32]
	ldr	r0, [r4, #36]
	str	r1, [sp, #68]
	adcs	r0, r1
	str	r0, [r4, #36]
	movs	r0, #16
	orrs	r0, r5
	bl	__clzsi2
	movs	r1, #27
	subs	r0, r1, r0
	lsrs	r5, r0
	lsls	r0, r0, #4
	adds	r0, r5, r0
	lsls	r1, r0, #2
	adds	r2, r4, r1
	movs	r3, #192
	ldr	r1, [r2, r3]
	ldr	r6, [sp, #72]
	str	r6, [r2, r3]
	cmp	r1, #0
	bpl	.LBB21_28
	b	.LBB21_40
.LBB21_28:
	ldr	r0, [sp, #48]
	ldr	r2, [r0]
	ldr	r0, [sp, #56]
.LBB21_29:
	adds	r3, r2, r0
	movs	r0, #0
	mvns	r5, r0
	str	r1, [r3, #16]
	str	r5, [r3, #20]
	lsls	r1, r1, #3
	adds	r1, r2, r1
	str	r6, [r1, #20]
	b	.LBB21_42
.LBB21_30:
	movs	r0, #2
	b	.LBB21_42
.LBB21_31:
	mov	r0, r5
	bl	tlsf_heap.refusal.Refusal.of_name
	uxtb	r0, r0
	cmp	r0, #3
	beq	.LBB21_33
	movs	r0, #3
	b	.LBB21_42
.LBB21_33:
	movs	r0, #4
	b	.LBB21_42
.LBB21_34:
	movs	r0, #0
	bl	tlsf_c.call_fault.CallFault.refusal
	add	sp, #76
	pop	{r4, r5, r6, r7, pc}
.LBB21_35:
	mov	r2, r6
	movs	r6, #0
	adds	r1, r5, #1
	str	r1, [r4, #32]
	ldr	r3, [sp, #64]
	mov	r1, r3
	adcs	r1, r6
	str	r1, [r4, #36]
	ldr	r0, [sp, #60]
	str	r0, [sp]
	ldr	r0, [sp, #68]
	str	r0, [sp, #4]
	str	r5, [sp, #8]
	str	r3, [sp, #12]
	ldr	r0, [sp, #72]
	str	r0, [sp, #16]
	ldr	r0, [sp, #56]
	ldr	r3, [sp, #48]
	bl	tlsf_heap.fitting.merge_next.5
	mov	r0, r6
	b	.LBB21_42
.LBB21_36:
	adds	r1, r3, r2
	ldr	r1, [r1, #4]
	movs	r7, #0
	adds	r2, r5, #1
	str	r2, [r4, #32]
	ldr	r3, [sp, #64]
	mov	r2, r3
	adcs	r2, r7
	str	r2, [r4, #36]
	ldr	r0, [sp, #60]
	str	r0, [sp, #24]
	ldr	r0, [sp, #68]
	str	r0, [sp, #28]
	ldr	r0, [sp, #40]
	add	r2, sp, #0
	stm	r2!, {r0, r1, r5}
	str	r3, [sp, #12]
	ldr	r0, [sp, #72]
	str	r0, [sp, #16]
	ldr	r0, [sp, #56]
	mov	r2, r6
	ldr	r3, [sp, #48]
	bl	tlsf_heap.fitting.merge_before.5
	mov	r0, r7
	b	.LBB21_42
.LBB21_37:
	movs	r6, #0
	adds	r0, r5, #1
	str	r0, [r4, #32]
	mov	r0, r1
	adcs	r0, r6
	str	r0, [r4, #36]
	ldr	r0, [sp, #60]
	str	r0, [sp]
	ldr	r0, [sp, #68]
	str	r0, [sp, #4]
	str	r5, [sp, #8]
	str	r1, [sp, #12]
	ldr	r0, [sp, #72]
	str	r0, [sp, #16]
	ldr	r0, [sp, #48]
	ldr	r3, [sp, #40]
	bl	tlsf_heap.fitting.merge_next.4
	mov	r0, r6
	b	.LBB21_42
.LBB21_38:
	adds	r2, r7, r3
	ldr	r2, [r2, #4]
	movs	r6, #0
	adds	r3, r5, #1
	str	r3, [r4, #32]
	mov	r3, r1
	adcs	r3, r6
	str	r3, [r4, #36]
	mov	r3, r0
	ldr	r0, [sp, #60]
	str	r0, [sp, #24]
	ldr	r0, [sp, #68]
	str	r0, [sp, #28]
	str	r3, [sp]
	str	r2, [sp, #4]
	str	r5, [sp, #8]
	str	r1, [sp, #12]
	ldr	r0, [sp, #72]
	str	r0, [sp, #16]
	ldr	r0, [sp, #48]
	ldr	r2, [sp, #64]
	ldr	r3, [sp, #40]
	bl	tlsf_heap.fitting.merge_before.4
	mov	r0, r6
	b	.LBB21_42
.LBB21_39:
	ldr	r1, [sp, #44]
	mvns	r1, r1
	ldr	r2, [r4, #48]
	ldr	r3, [sp, #52]
	adds	r2, r2, r3
	str	r1, [r2, #16]
	str	r1, [r2, #20]
	lsrs	r0, r0, #5
	ldr	r3, [sp, #48]
	mov	r1, r3
	lsls	r1, r0
	ldr	r2, [r4, #104]
	orrs	r2, r1
	str	r2, [r4, #104]
	movs	r1, #31
	ands	r5, r1
	lsls	r3, r5
	lsls	r0, r0, #2
	adds	r0, r4, r0
	ldr	r1, [r0, #108]
	orrs	r1, r3
	b	.LBB21_41
.LBB21_40:
	ldr	r1, [sp, #36]
	mvns	r1, r1
	ldr	r2, [r4, #48]
	ldr	r3, [sp, #56]
	adds	r2, r2, r3
	str	r1, [r2, #16]
	str	r1, [r2, #20]
	lsrs	r0, r0, #4
	mov	r1, r7
	lsls	r1, r0
	ldr	r2, [r4, #104]
	orrs	r2, r1
	str	r2, [r4, #104]
	movs	r1, #15
	ands	r5, r1
	lsls	r7, r5
	lsls	r0, r0, #2
	adds	r0, r4, r0
	ldr	r1, [r0, #108]
	orrs	r1, r7
.LBB21_41:
	str	r1, [r0, #108]
	ldr	r0, [sp, #68]
.LBB21_42:
	movs	r1, #1
	strb	r1, [r4]
	add	sp, #76
	pop	{r4, r5, r6, r7, pc}
.Lfunc_end21:
	.size	tlsf_c.heap_calls.release_named, .Lfunc_end21-tlsf_c.heap_calls.release_named
	.cfi_endproc
	.section	.text.unlikely.tlsf_heap.refusal.Refusal.of_name,"ax",%progbits
	.p2align	1
	.type	tlsf_heap.refusal.Refusal.of_name,%function
	.code	16
	.thumb_func
tlsf_heap.refusal.Refusal.of_name:
	.cfi_startproc
	cmp	r0, r1
	beq	.LBB22_2
	movs	r0, #2
	bx	lr
.LBB22_2:
	movs	r0, #3
	bx	lr
.Lfunc_end22:
	.size	tlsf_heap.refusal.Refusal.of_name, .Lfunc_end22-tlsf_heap.refusal.Refusal.of_name
	.cfi_endproc
	.section	.text.std_alloc.boxed.Box.new.91a8e04f462e8cea,"ax",%progbits
	.p2align	1
	.type	std_alloc.boxed.Box.new.91a8e04f462e8cea,%function
	.code	16
	.thumb_func
std_alloc.boxed.Box.new.91a8e04f462e8cea:
	.cfi_startproc
	push	{r4, r5, r6, r7, lr}
	.cfi_def_cfa_offset 20
	.cfi_offset lr, -4
	.cfi_offset r7, -8
	.cfi_offset r6, -12
	.cfi_offset r5, -16
	.cfi_offset r4, -20
	sub	sp, #60
	.cfi_def_cfa_offset 80
	mov	r4, r0
	ldrb	r6, [r1, #1]
	ldrb	r5, [r1]
	adds	r1, #8
	mov	r0, sp
	movs	r2, #40
	bl	tlsf_memory_cpy
	add	r0, sp, #40
	movs	r1, #48
	movs	r2, #8
	bl	tlsf_memory_alloc
	ldr	r0, [sp, #40]
	lsls	r0, r0, #31
	beq	.LBB23_2
	ldr	r7, [sp, #48]
	strb	r6, [r7, #1]
	strb	r5, [r7]
	mov	r0, r7
	adds	r0, #8
	mov	r1, sp
	movs	r6, #40
	mov	r2, r6
	bl	tlsf_memory_cpy
	mov	r0, r4
	adds	r0, #16
	movs	r5, #0
	mov	r1, r5
	mov	r2, r6
	bl	tlsf_memory_set
	b	.LBB23_3
.LBB23_2:
	mov	r0, r4
	adds	r0, #16
	mov	r1, sp
	movs	r2, #40
	bl	tlsf_memory_cpy
	lsls	r0, r6, #8
	adds	r7, r0, r5
	movs	r5, #1
.LBB23_3:
	movs	r0, #0
	strb	r0, [r4, #7]
	strb	r0, [r4, #6]
	strb	r0, [r4, #5]
	strb	r0, [r4, #4]
	strb	r0, [r4, #3]
	strb	r0, [r4, #2]
	strb	r0, [r4, #1]
	strb	r5, [r4]
	strb	r0, [r4, #15]
	strb	r0, [r4, #14]
	strb	r0, [r4, #13]
	strb	r0, [r4, #12]
	strb	r7, [r4, #8]
	lsrs	r0, r7, #24
	strb	r0, [r4, #11]
	lsrs	r0, r7, #16
	strb	r0, [r4, #10]
	lsrs	r0, r7, #8
	strb	r0, [r4, #9]
	add	sp, #60
	pop	{r4, r5, r6, r7, pc}
.Lfunc_end23:
	.size	std_alloc.boxed.Box.new.91a8e04f462e8cea, .Lfunc_end23-std_alloc.boxed.Box.new.91a8e04f462e8cea
	.cfi_endproc
	.section	.text.rtrb.producer.Producer.drop.9fca81e6602d26fc,"ax",%progbits
	.p2align	1
	.type	rtrb.producer.Producer.drop.9fca81e6602d26fc,%function
	.code	16
	.thumb_func
rtrb.producer.Producer.drop.9fca81e6602d26fc:
	.cfi_startproc
	push	{r4, r5, r6, r7, lr}
	.cfi_def_cfa_offset 20
	.cfi_offset lr, -4
	.cfi_offset r7, -8
	.cfi_offset r6, -12
	.cfi_offset r5, -16
	.cfi_offset r4, -20
	sub	sp, #44
	.cfi_def_cfa_offset 64
	ldrb	r1, [r0, #3]
	ldrb	r2, [r0, #2]
	ldrb	r3, [r0]
	ldrb	r4, [r0, #1]
	ldrb	r5, [r0, #11]
	str	r5, [sp, #40]
	ldrb	r5, [r0, #10]
	str	r5, [sp, #36]
	ldrb	r5, [r0, #8]
	str	r5, [sp, #32]
	ldrb	r5, [r0, #9]
	str	r5, [sp, #28]
	ldrb	r5, [r0, #19]
	str	r5, [sp, #24]
	ldrb	r5, [r0, #18]
	str	r5, [sp, #20]
	ldrb	r5, [r0, #16]
	str	r5, [sp, #16]
	ldrb	r5, [r0, #17]
	str	r5, [sp, #12]
	ldrb	r5, [r0, #23]
	str	r5, [sp, #8]
	ldrb	r5, [r0, #22]
	ldrb	r6, [r0, #20]
	ldrb	r7, [r0, #21]
	movs	r0, #5
	str	r0, [sp]
	lsls	r0, r4, #8
	adds	r0, r0, r3
	lsls	r2, r2, #16
	lsls	r1, r1, #24
	adds	r1, r1, r2
	adds	r4, r1, r0
	movs	r2, #1
	lsls	r0, r2, #8
	adds	r0, r4, r0
	movs	r3, #0
	bl	__atomic_exchange_8
	orrs	r1, r0
	beq	.LBB24_2
	lsls	r0, r7, #8
	adds	r0, r0, r6
	lsls	r1, r5, #16
	ldr	r2, [sp, #8]
	lsls	r2, r2, #24
	adds	r1, r2, r1
	adds	r3, r1, r0
	ldr	r0, [sp, #12]
	lsls	r0, r0, #8
	ldr	r1, [sp, #16]
	adds	r0, r0, r1
	ldr	r1, [sp, #20]
	lsls	r1, r1, #16
	ldr	r2, [sp, #24]
	lsls	r2, r2, #24
	adds	r1, r2, r1
	adds	r2, r1, r0
	ldr	r0, [sp, #28]
	lsls	r0, r0, #8
	ldr	r1, [sp, #32]
	adds	r0, r0, r1
	ldr	r1, [sp, #36]
	lsls	r1, r1, #16
	ldr	r5, [sp, #40]
	lsls	r5, r5, #24
	adds	r1, r5, r1
	adds	r1, r1, r0
	mov	r0, r4
	bl	rtrb.release.drop_slow.23d795680250cb0d
.LBB24_2:
	add	sp, #44
	pop	{r4, r5, r6, r7, pc}
.Lfunc_end24:
	.size	rtrb.producer.Producer.drop.9fca81e6602d26fc, .Lfunc_end24-rtrb.producer.Producer.drop.9fca81e6602d26fc
	.cfi_endproc
	.section	.text.rtrb.release.drop_slow.23d795680250cb0d,"ax",%progbits
	.p2align	1
	.type	rtrb.release.drop_slow.23d795680250cb0d,%function
	.code	16
	.thumb_func
rtrb.release.drop_slow.23d795680250cb0d:
	.cfi_startproc
	push	{r4, r5, r6, r7, lr}
	.cfi_def_cfa_offset 20
	.cfi_offset lr, -4
	.cfi_offset r7, -8
	.cfi_offset r6, -12
	.cfi_offset r5, -16
	.cfi_offset r4, -20
	sub	sp, #36
	.cfi_def_cfa_offset 56
	str	r3, [sp, #12]
	str	r2, [sp, #16]
	str	r1, [sp, #4]
	mov	r7, r0
	movs	r4, #5
	mov	r1, r4
	bl	__atomic_load_8
	mov	r5, r0
	mov	r6, r1
	str	r7, [sp, #32]
	adds	r7, #128
	mov	r0, r7
	str	r4, [sp, #28]
	mov	r1, r4
	bl	__atomic_load_8
	mov	r2, r6
	str	r1, [sp, #20]
	eors	r2, r1
	mov	r1, r5
	str	r0, [sp, #24]
	eors	r1, r0
	orrs	r1, r2
	bne	.LBB25_2
.LBB25_1:
	ldr	r0, [sp, #4]
	bl	tlsf_memory_dealloc
	ldr	r0, [sp, #32]
	bl	tlsf_memory_dealloc
	add	sp, #36
	pop	{r4, r5, r6, r7, pc}
.LBB25_2:
	ldr	r2, [sp, #16]
	lsrs	r0, r2, #31
	ldr	r1, [sp, #12]
	lsls	r1, r1, #1
	adds	r1, r1, r0
	lsls	r0, r2, #1
	movs	r2, #0
	subs	r0, r0, #1
	str	r0, [sp, #8]
	sbcs	r1, r2
	str	r1, [sp, #16]
	mov	r4, r6
	str	r2, [sp, #12]
	b	.LBB25_4
.LBB25_3:
	ldr	r0, [sp, #32]
	mov	r2, r7
	mov	r3, r4
	bl	__atomic_store_8
	mov	r0, r4
	ldr	r1, [sp, #20]
	eors	r0, r1
	mov	r1, r7
	ldr	r2, [sp, #24]
	eors	r1, r2
	orrs	r1, r0
	mov	r5, r7
	mov	r6, r4
	ldr	r2, [sp, #12]
	beq	.LBB25_1
.LBB25_4:
	ldr	r0, [sp, #28]
	str	r0, [sp]
	adds	r7, r5, #1
	adcs	r4, r2
	ldr	r0, [sp, #8]
	subs	r0, r5, r0
	ldr	r0, [sp, #16]
	sbcs	r6, r0
	blo	.LBB25_6
	mov	r0, r2
	cmp	r0, #0
	beq	.LBB25_7
	b	.LBB25_8
.LBB25_6:
	movs	r0, #1
	cmp	r0, #0
	bne	.LBB25_8
.LBB25_7:
	mov	r7, r0
.LBB25_8:
	bne	.LBB25_3
	mov	r4, r0
	b	.LBB25_3
.Lfunc_end25:
	.size	rtrb.release.drop_slow.23d795680250cb0d, .Lfunc_end25-rtrb.release.drop_slow.23d795680250cb0d
	.cfi_endproc
	.section	.text.rtrb.consumer.Consumer.drop.9fca81e6602d26fc,"ax",%progbits
	.p2align	1
	.type	rtrb.consumer.Consumer.drop.9fca81e6602d26fc,%function
	.code	16
	.thumb_func
rtrb.consumer.Consumer.drop.9fca81e6602d26fc:
	.cfi_startproc
	push	{r4, r5, r6, r7, lr}
	.cfi_def_cfa_offset 20
	.cfi_offset lr, -4
	.cfi_offset r7, -8
	.cfi_offset r6, -12
	.cfi_offset r5, -16
	.cfi_offset r4, -20
	sub	sp, #44
	.cfi_def_cfa_offset 64
	ldrb	r1, [r0, #3]
	ldrb	r2, [r0, #2]
	ldrb	r3, [r0]
	ldrb	r4, [r0, #1]
	ldrb	r5, [r0, #11]
	str	r5, [sp, #40]
	ldrb	r5, [r0, #10]
	str	r5, [sp, #36]
	ldrb	r5, [r0, #8]
	str	r5, [sp, #32]
	ldrb	r5, [r0, #9]
	str	r5, [sp, #28]
	ldrb	r5, [r0, #19]
	str	r5, [sp, #24]
	ldrb	r5, [r0, #18]
	str	r5, [sp, #20]
	ldrb	r5, [r0, #16]
	str	r5, [sp, #16]
	ldrb	r5, [r0, #17]
	str	r5, [sp, #12]
	ldrb	r5, [r0, #23]
	str	r5, [sp, #8]
	ldrb	r5, [r0, #22]
	ldrb	r6, [r0, #20]
	ldrb	r7, [r0, #21]
	movs	r0, #5
	str	r0, [sp]
	lsls	r0, r4, #8
	adds	r0, r0, r3
	lsls	r2, r2, #16
	lsls	r1, r1, #24
	adds	r1, r1, r2
	adds	r4, r1, r0
	movs	r2, #1
	lsls	r0, r2, #8
	adds	r0, r4, r0
	movs	r3, #0
	bl	__atomic_exchange_8
	orrs	r1, r0
	beq	.LBB26_2
	lsls	r0, r7, #8
	adds	r0, r0, r6
	lsls	r1, r5, #16
	ldr	r2, [sp, #8]
	lsls	r2, r2, #24
	adds	r1, r2, r1
	adds	r3, r1, r0
	ldr	r0, [sp, #12]
	lsls	r0, r0, #8
	ldr	r1, [sp, #16]
	adds	r0, r0, r1
	ldr	r1, [sp, #20]
	lsls	r1, r1, #16
	ldr	r2, [sp, #24]
	lsls	r2, r2, #24
	adds	r1, r2, r1
	adds	r2, r1, r0
	ldr	r0, [sp, #28]
	lsls	r0, r0, #8
	ldr	r1, [sp, #32]
	adds	r0, r0, r1
	ldr	r1, [sp, #36]
	lsls	r1, r1, #16
	ldr	r5, [sp, #40]
	lsls	r5, r5, #24
	adds	r1, r5, r1
	adds	r1, r1, r0
	mov	r0, r4
	bl	rtrb.release.drop_slow.23d795680250cb0d
.LBB26_2:
	add	sp, #44
	pop	{r4, r5, r6, r7, pc}
.Lfunc_end26:
	.size	rtrb.consumer.Consumer.drop.9fca81e6602d26fc, .Lfunc_end26-rtrb.consumer.Consumer.drop.9fca81e6602d26fc
	.cfi_endproc
	.section	.text.std_alloc.vec.Vec.drop.7ac45d8413b9ad54,"ax",%progbits
	.p2align	1
	.type	std_alloc.vec.Vec.drop.7ac45d8413b9ad54,%function
	.code	16
	.thumb_func
std_alloc.vec.Vec.drop.7ac45d8413b9ad54:
	.cfi_startproc
	push	{r4, r5, r6, r7, lr}
	.cfi_def_cfa_offset 20
	.cfi_offset lr, -4
	.cfi_offset r7, -8
	.cfi_offset r6, -12
	.cfi_offset r5, -16
	.cfi_offset r4, -20
	sub	sp, #148
	.cfi_def_cfa_offset 168
	ldrb	r1, [r0, #12]
	ldrb	r2, [r0, #13]
	lsls	r2, r2, #8
	adds	r1, r2, r1
	ldrb	r2, [r0, #14]
	lsls	r2, r2, #16
	ldrb	r3, [r0, #15]
	lsls	r3, r3, #24
	adds	r2, r3, r2
	adds	r5, r2, r1
	ldrb	r1, [r0, #8]
	ldrb	r2, [r0, #9]
	lsls	r2, r2, #8
	adds	r1, r2, r1
	ldrb	r2, [r0, #10]
	lsls	r2, r2, #16
	ldrb	r3, [r0, #11]
	lsls	r3, r3, #24
	adds	r2, r3, r2
	adds	r1, r2, r1
	mov	r7, r1
	orrs	r1, r5
	ldrb	r2, [r0, #20]
	ldrb	r3, [r0, #21]
	lsls	r3, r3, #8
	adds	r2, r3, r2
	ldrb	r3, [r0, #22]
	lsls	r3, r3, #16
	ldrb	r4, [r0, #23]
	lsls	r4, r4, #24
	adds	r3, r4, r3
	adds	r2, r3, r2
	str	r2, [sp, #8]
	ldrb	r2, [r0, #16]
	ldrb	r3, [r0, #17]
	lsls	r3, r3, #8
	adds	r2, r3, r2
	ldrb	r3, [r0, #18]
	lsls	r3, r3, #16
	ldrb	r4, [r0, #19]
	lsls	r4, r4, #24
	adds	r3, r4, r3
	adds	r2, r3, r2
	str	r2, [sp, #4]
	ldrb	r2, [r0]
	ldrb	r3, [r0, #1]
	lsls	r3, r3, #8
	adds	r2, r3, r2
	ldrb	r3, [r0, #2]
	lsls	r3, r3, #16
	ldrb	r0, [r0, #3]
	lsls	r0, r0, #24
	adds	r0, r0, r3
	adds	r2, r0, r2
	cmp	r1, #0
	beq	.LBB27_3
	add	r0, sp, #96
	adds	r0, #8
	str	r0, [sp, #16]
	add	r0, sp, #48
	adds	r0, r0, #6
	str	r0, [sp, #44]
	movs	r6, #0
	mov	r4, r6
	str	r6, [sp, #12]
	mov	r1, r6
	str	r5, [sp, #28]
	str	r7, [sp, #24]
	str	r2, [sp, #20]
	ldr	r7, [sp, #12]
.LBB27_2:
	str	r1, [sp, #40]
	lsls	r0, r4, #3
	ldrb	r1, [r2, r0]
	adds	r0, r2, r0
	ldrb	r2, [r0, #1]
	lsls	r2, r2, #8
	adds	r1, r2, r1
	ldrb	r2, [r0, #2]
	lsls	r2, r2, #16
	ldrb	r0, [r0, #3]
	lsls	r0, r0, #24
	adds	r0, r0, r2
	adds	r5, r0, r1
	ldrb	r0, [r5]
	str	r0, [sp, #36]
	ldrb	r0, [r5, #1]
	str	r0, [sp, #32]
	mov	r1, r5
	adds	r1, #8
	movs	r6, #40
	ldr	r0, [sp, #44]
	mov	r2, r6
	bl	tlsf_memory_cpy
	mov	r0, r5
	bl	tlsf_memory_dealloc
	str	r7, [sp, #96]
	add	r5, sp, #96
	ldr	r0, [sp, #32]
	strb	r0, [r5, #1]
	ldr	r0, [sp, #36]
	strb	r0, [r5]
	str	r7, [sp, #100]
	ldr	r0, [sp, #16]
	ldr	r1, [sp, #44]
	mov	r2, r6
	ldr	r6, [sp, #24]
	bl	tlsf_memory_cpy
	mov	r0, r5
	ldr	r5, [sp, #28]
	bl	tlsf_c.tlsf_c.any_end.AnyEnd.Destruct.drop
	ldr	r1, [sp, #40]
	ldr	r2, [sp, #20]
	adds	r4, r4, #1
	adcs	r1, r7
	subs	r0, r4, r6
	mov	r0, r1
	sbcs	r0, r5
	blo	.LBB27_2
.LBB27_3:
	ldr	r0, [sp, #8]
	ldr	r1, [sp, #4]
	orrs	r1, r0
	beq	.LBB27_5
	mov	r0, r2
	bl	tlsf_memory_dealloc
.LBB27_5:
	add	sp, #148
	pop	{r4, r5, r6, r7, pc}
.Lfunc_end27:
	.size	std_alloc.vec.Vec.drop.7ac45d8413b9ad54, .Lfunc_end27-std_alloc.vec.Vec.drop.7ac45d8413b9ad54
	.cfi_endproc
	.section	.text.std_alloc.arc.Arc.drop.c4a047e811255370,"ax",%progbits
	.p2align	1
	.type	std_alloc.arc.Arc.drop.c4a047e811255370,%function
	.code	16
	.thumb_func
std_alloc.arc.Arc.drop.c4a047e811255370:
	.cfi_startproc
	push	{r4, r5, r6, r7, lr}
	.cfi_def_cfa_offset 20
	.cfi_offset lr, -4
	.cfi_offset r7, -8
	.cfi_offset r6, -12
	.cfi_offset r5, -16
	.cfi_offset r4, -20
	sub	sp, #28
	.cfi_def_cfa_offset 48
	mov	r4, r0
	movs	r0, #5
	str	r0, [sp]
	movs	r5, #1
	movs	r3, #0
	mov	r0, r4
	mov	r2, r5
	bl	__atomic_fetch_sub_8
	eors	r0, r5
	orrs	r0, r1
	bne	.LBB28_2
	movs	r0, #56
	ldrb	r0, [r4, r0]
	str	r0, [sp, #24]
	movs	r0, #40
	ldrb	r0, [r4, r0]
	str	r0, [sp, #8]
	mov	r0, r4
	adds	r0, #56
	ldrb	r1, [r0, #3]
	str	r1, [sp, #20]
	ldrb	r1, [r0, #2]
	str	r1, [sp, #16]
	ldrb	r0, [r0, #1]
	str	r0, [sp, #12]
	mov	r0, r4
	adds	r0, #40
	ldrb	r7, [r0, #3]
	ldrb	r5, [r0, #2]
	ldrb	r6, [r0, #1]
	mov	r0, r4
	bl	tlsf_memory_dealloc
	lsls	r0, r6, #8
	ldr	r1, [sp, #8]
	adds	r0, r0, r1
	lsls	r1, r5, #16
	lsls	r2, r7, #24
	adds	r1, r2, r1
	adds	r0, r1, r0
	bl	tlsf_memory_dealloc
	ldr	r0, [sp, #12]
	lsls	r0, r0, #8
	ldr	r1, [sp, #24]
	adds	r0, r0, r1
	ldr	r1, [sp, #16]
	lsls	r1, r1, #16
	ldr	r2, [sp, #20]
	lsls	r2, r2, #24
	adds	r1, r2, r1
	adds	r0, r1, r0
	bl	tlsf_memory_dealloc
.LBB28_2:
	add	sp, #28
	pop	{r4, r5, r6, r7, pc}
.Lfunc_end28:
	.size	std_alloc.arc.Arc.drop.c4a047e811255370, .Lfunc_end28-std_alloc.arc.Arc.drop.c4a047e811255370
	.cfi_endproc
	.section	.text.std_alloc.boxed.Box.drop.7d8ec8058c3633cd,"ax",%progbits
	.p2align	1
	.type	std_alloc.boxed.Box.drop.7d8ec8058c3633cd,%function
	.code	16
	.thumb_func
std_alloc.boxed.Box.drop.7d8ec8058c3633cd:
	.cfi_startproc
	push	{r4, r5, r6, r7, lr}
	.cfi_def_cfa_offset 20
	.cfi_offset lr, -4
	.cfi_offset r7, -8
	.cfi_offset r6, -12
	.cfi_offset r5, -16
	.cfi_offset r4, -20
	sub	sp, #92
	.cfi_def_cfa_offset 112
	mov	r5, r0
	ldrb	r6, [r0]
	ldrb	r7, [r0, #1]
	mov	r1, r0
	adds	r1, #8
	mov	r4, sp
	movs	r2, #40
	mov	r0, r4
	bl	tlsf_memory_cpy
	mov	r0, r5
	bl	tlsf_memory_dealloc
	movs	r1, #0
	str	r1, [sp, #40]
	add	r0, sp, #40
	strb	r7, [r0, #1]
	strb	r6, [r0]
	str	r1, [sp, #44]
	mov	r1, r0
	adds	r1, #8
	ldm	r4!, {r2, r3, r5}
	stm	r1!, {r2, r3, r5}
	ldm	r4!, {r2, r3, r5}
	stm	r1!, {r2, r3, r5}
	ldm	r4!, {r2, r3, r5, r6}
	stm	r1!, {r2, r3, r5, r6}
	bl	tlsf_c.tlsf_c.any_end.AnyEnd.Destruct.drop
	add	sp, #92
	pop	{r4, r5, r6, r7, pc}
.Lfunc_end29:
	.size	std_alloc.boxed.Box.drop.7d8ec8058c3633cd, .Lfunc_end29-std_alloc.boxed.Box.drop.7d8ec8058c3633cd
	.cfi_endproc
	.section	.text.tlsf_c.tlsf_c.any_end.AnyEnd.Destruct.drop,"ax",%progbits
	.p2align	2
	.type	tlsf_c.tlsf_c.any_end.AnyEnd.Destruct.drop,%function
	.code	16
	.thumb_func
tlsf_c.tlsf_c.any_end.AnyEnd.Destruct.drop:
	.cfi_startproc
	push	{r4, r5, r6, r7, lr}
	.cfi_def_cfa_offset 20
	.cfi_offset lr, -4
	.cfi_offset r7, -8
	.cfi_offset r6, -12
	.cfi_offset r5, -16
	.cfi_offset r4, -20
	sub	sp, #172
	.cfi_def_cfa_offset 192
	ldrb	r1, [r0, #28]
	ldrb	r2, [r0, #29]
	lsls	r2, r2, #8
	adds	r1, r2, r1
	ldrb	r2, [r0, #30]
	lsls	r2, r2, #16
	ldrb	r3, [r0, #31]
	lsls	r3, r3, #24
	adds	r2, r3, r2
	adds	r6, r2, r1
	ldrb	r1, [r0, #24]
	ldrb	r2, [r0, #25]
	lsls	r2, r2, #8
	adds	r1, r2, r1
	ldrb	r2, [r0, #26]
	lsls	r2, r2, #16
	ldrb	r3, [r0, #27]
	lsls	r3, r3, #24
	adds	r2, r3, r2
	adds	r4, r2, r1
	ldrb	r1, [r0, #16]
	ldrb	r2, [r0, #17]
	lsls	r2, r2, #8
	adds	r1, r2, r1
	ldrb	r2, [r0, #18]
	lsls	r2, r2, #16
	ldrb	r3, [r0, #19]
	lsls	r3, r3, #24
	adds	r2, r3, r2
	adds	r7, r2, r1
	ldrb	r1, [r0, #8]
	ldrb	r2, [r0, #9]
	lsls	r2, r2, #8
	adds	r1, r2, r1
	ldrb	r2, [r0, #10]
	lsls	r2, r2, #16
	ldrb	r3, [r0, #11]
	lsls	r3, r3, #24
	adds	r2, r3, r2
	adds	r5, r2, r1
	ldrb	r1, [r0]
	lsls	r1, r1, #1
	.p2align	2
	add	r1, pc
	ldrh	r1, [r1, #4]
	lsls	r1, r1, #1
.LCPI30_0:
	add	pc, r1
	.p2align	2
.LJTI30_0:
	.short	(.LBB30_2-(.LCPI30_0+4))/2
	.short	(.LBB30_14-(.LCPI30_0+4))/2
	.short	(.LBB30_4-(.LCPI30_0+4))/2
	.short	(.LBB30_11-(.LCPI30_0+4))/2
	.p2align	1
.LBB30_2:
	movs	r0, #5
	str	r0, [sp]
	movs	r2, #1
	lsls	r0, r2, #8
	adds	r0, r5, r0
	movs	r3, #0
	bl	__atomic_exchange_8
	orrs	r1, r0
	beq	.LBB30_3
	b	.LBB30_15
.LBB30_3:
	add	sp, #172
	pop	{r4, r5, r6, r7, pc}
.LBB30_4:
	str	r4, [sp, #52]
	movs	r1, #32
	ldrb	r1, [r0, r1]
	str	r1, [sp, #64]
	movs	r1, #36
	ldrb	r1, [r0, r1]
	str	r1, [sp, #48]
	movs	r1, #40
	str	r1, [sp, #4]
	ldrb	r1, [r0, r1]
	str	r1, [sp, #60]
	movs	r1, #44
	ldrb	r1, [r0, r1]
	str	r1, [sp, #56]
	mov	r1, r0
	adds	r1, #32
	ldrb	r2, [r1, #3]
	str	r2, [sp, #44]
	ldrb	r2, [r1, #2]
	str	r2, [sp, #40]
	ldrb	r1, [r1, #1]
	str	r1, [sp, #36]
	mov	r1, r0
	adds	r1, #36
	ldrb	r2, [r1, #3]
	str	r2, [sp, #32]
	ldrb	r2, [r1, #2]
	str	r2, [sp, #28]
	ldrb	r1, [r1, #1]
	str	r1, [sp, #24]
	mov	r1, r0
	adds	r1, #40
	ldrb	r2, [r1, #3]
	str	r2, [sp, #20]
	ldrb	r2, [r1, #2]
	str	r2, [sp, #16]
	ldrb	r1, [r1, #1]
	str	r1, [sp, #12]
	adds	r0, #44
	ldrb	r1, [r0, #3]
	str	r1, [sp, #8]
	ldrb	r6, [r0, #2]
	ldrb	r7, [r0, #1]
	movs	r0, #5
	str	r0, [sp]
	movs	r4, #1
	movs	r3, #0
	mov	r0, r5
	mov	r2, r4
	str	r3, [sp, #68]
	bl	__atomic_fetch_sub_8
	eors	r0, r4
	orrs	r0, r1
	lsls	r1, r7, #8
	ldr	r2, [sp, #56]
	adds	r7, r1, r2
	lsls	r1, r6, #16
	ldr	r2, [sp, #8]
	lsls	r2, r2, #24
	adds	r6, r2, r1
	ldr	r1, [sp, #12]
	lsls	r1, r1, #8
	ldr	r2, [sp, #60]
	adds	r1, r1, r2
	str	r1, [sp, #60]
	ldr	r1, [sp, #16]
	lsls	r1, r1, #16
	ldr	r2, [sp, #20]
	lsls	r2, r2, #24
	adds	r1, r2, r1
	str	r1, [sp, #56]
	ldr	r1, [sp, #24]
	lsls	r1, r1, #8
	ldr	r2, [sp, #48]
	adds	r1, r1, r2
	ldr	r2, [sp, #28]
	lsls	r2, r2, #16
	ldr	r3, [sp, #32]
	lsls	r3, r3, #24
	adds	r2, r3, r2
	adds	r4, r2, r1
	ldr	r1, [sp, #36]
	lsls	r1, r1, #8
	ldr	r2, [sp, #64]
	adds	r1, r1, r2
	ldr	r2, [sp, #40]
	lsls	r2, r2, #16
	ldr	r3, [sp, #44]
	lsls	r3, r3, #24
	adds	r2, r3, r2
	adds	r1, r2, r1
	cmp	r0, #0
	str	r4, [sp, #48]
	bne	.LBB30_6
	movs	r0, #56
	ldrb	r0, [r5, r0]
	str	r0, [sp, #40]
	ldr	r0, [sp, #4]
	ldrb	r0, [r5, r0]
	str	r0, [sp, #24]
	mov	r0, r5
	adds	r0, #56
	ldrb	r2, [r0, #3]
	str	r2, [sp, #36]
	ldrb	r2, [r0, #2]
	str	r2, [sp, #32]
	ldrb	r0, [r0, #1]
	str	r0, [sp, #28]
	mov	r0, r5
	adds	r0, #40
	ldrb	r2, [r0, #3]
	str	r2, [sp, #20]
	str	r7, [sp, #64]
	ldrb	r4, [r0, #2]
	mov	r7, r6
	ldrb	r6, [r0, #1]
	mov	r0, r5
	mov	r5, r1
	bl	tlsf_memory_dealloc
	lsls	r0, r6, #8
	mov	r6, r7
	ldr	r1, [sp, #24]
	adds	r0, r0, r1
	lsls	r1, r4, #16
	ldr	r4, [sp, #48]
	ldr	r7, [sp, #64]
	ldr	r2, [sp, #20]
	lsls	r2, r2, #24
	adds	r1, r2, r1
	adds	r0, r1, r0
	bl	tlsf_memory_dealloc
	ldr	r0, [sp, #28]
	lsls	r0, r0, #8
	ldr	r1, [sp, #40]
	adds	r0, r0, r1
	ldr	r1, [sp, #32]
	lsls	r1, r1, #16
	ldr	r2, [sp, #36]
	lsls	r2, r2, #24
	adds	r1, r2, r1
	adds	r0, r1, r0
	bl	tlsf_memory_dealloc
	mov	r1, r5
.LBB30_6:
	adds	r0, r6, r7
	str	r0, [sp, #32]
	ldr	r0, [sp, #60]
	ldr	r2, [sp, #56]
	adds	r0, r2, r0
	str	r0, [sp, #28]
	mov	r0, r1
	orrs	r0, r4
	ldr	r4, [sp, #52]
	ldr	r7, [sp, #68]
	beq	.LBB30_9
	add	r0, sp, #120
	adds	r0, #8
	str	r0, [sp, #40]
	add	r0, sp, #72
	adds	r0, r0, #6
	str	r0, [sp, #36]
	mov	r6, r7
	str	r1, [sp, #44]
.LBB30_8:
	lsls	r0, r6, #3
	ldrb	r1, [r4, r0]
	adds	r0, r4, r0
	ldrb	r2, [r0, #1]
	lsls	r2, r2, #8
	adds	r1, r2, r1
	ldrb	r2, [r0, #2]
	lsls	r2, r2, #16
	ldrb	r0, [r0, #3]
	lsls	r0, r0, #24
	adds	r0, r0, r2
	adds	r5, r0, r1
	ldrb	r0, [r5]
	str	r0, [sp, #64]
	ldrb	r0, [r5, #1]
	str	r0, [sp, #60]
	mov	r1, r5
	adds	r1, #8
	movs	r2, #40
	str	r2, [sp, #56]
	ldr	r4, [sp, #36]
	mov	r0, r4
	bl	tlsf_memory_cpy
	mov	r0, r5
	bl	tlsf_memory_dealloc
	ldr	r0, [sp, #68]
	str	r0, [sp, #120]
	add	r5, sp, #120
	ldr	r0, [sp, #60]
	strb	r0, [r5, #1]
	ldr	r0, [sp, #64]
	strb	r0, [r5]
	ldr	r0, [sp, #68]
	str	r0, [sp, #124]
	ldr	r0, [sp, #40]
	mov	r1, r4
	ldr	r2, [sp, #56]
	ldr	r4, [sp, #52]
	bl	tlsf_memory_cpy
	mov	r0, r5
	bl	tlsf_c.tlsf_c.any_end.AnyEnd.Destruct.drop
	ldr	r2, [sp, #48]
	ldr	r1, [sp, #44]
	adds	r6, r6, #1
	ldr	r0, [sp, #68]
	adcs	r7, r0
	subs	r0, r6, r1
	mov	r0, r7
	sbcs	r0, r2
	blo	.LBB30_8
.LBB30_9:
	ldr	r0, [sp, #32]
	ldr	r1, [sp, #28]
	orrs	r1, r0
	bne	.LBB30_10
	b	.LBB30_3
.LBB30_10:
	mov	r0, r4
	b	.LBB30_13
.LBB30_11:
	movs	r0, #5
	str	r0, [sp]
	movs	r4, #1
	movs	r3, #0
	mov	r0, r5
	mov	r2, r4
	bl	__atomic_fetch_sub_8
	eors	r0, r4
	orrs	r0, r1
	beq	.LBB30_12
	b	.LBB30_3
.LBB30_12:
	movs	r0, #56
	ldrb	r0, [r5, r0]
	str	r0, [sp, #68]
	movs	r0, #40
	ldrb	r0, [r5, r0]
	str	r0, [sp, #52]
	mov	r0, r5
	adds	r0, #56
	ldrb	r1, [r0, #3]
	str	r1, [sp, #64]
	ldrb	r1, [r0, #2]
	str	r1, [sp, #60]
	ldrb	r0, [r0, #1]
	str	r0, [sp, #56]
	mov	r0, r5
	adds	r0, #40
	ldrb	r7, [r0, #3]
	ldrb	r4, [r0, #2]
	ldrb	r6, [r0, #1]
	mov	r0, r5
	bl	tlsf_memory_dealloc
	lsls	r0, r6, #8
	ldr	r1, [sp, #52]
	adds	r0, r0, r1
	lsls	r1, r4, #16
	lsls	r2, r7, #24
	adds	r1, r2, r1
	adds	r0, r1, r0
	bl	tlsf_memory_dealloc
	ldr	r0, [sp, #56]
	lsls	r0, r0, #8
	ldr	r1, [sp, #68]
	adds	r0, r0, r1
	ldr	r1, [sp, #60]
	lsls	r1, r1, #16
	ldr	r2, [sp, #64]
	lsls	r2, r2, #24
	adds	r1, r2, r1
	adds	r0, r1, r0
.LBB30_13:
	bl	tlsf_memory_dealloc
	add	sp, #172
	pop	{r4, r5, r6, r7, pc}
.LBB30_14:
	movs	r0, #5
	str	r0, [sp]
	movs	r2, #1
	lsls	r0, r2, #8
	adds	r0, r5, r0
	movs	r3, #0
	bl	__atomic_exchange_8
	orrs	r1, r0
	bne	.LBB30_15
	b	.LBB30_3
.LBB30_15:
	mov	r0, r5
	mov	r1, r7
	mov	r2, r4
	mov	r3, r6
	bl	rtrb.release.drop_slow.23d795680250cb0d
	add	sp, #172
	pop	{r4, r5, r6, r7, pc}
.Lfunc_end30:
	.size	tlsf_c.tlsf_c.any_end.AnyEnd.Destruct.drop, .Lfunc_end30-tlsf_c.tlsf_c.any_end.AnyEnd.Destruct.drop
	.cfi_endproc
	.section	.text.tlsf_c.arena_slot.ArenaSlot.close,"ax",%progbits
	.p2align	1
	.type	tlsf_c.arena_slot.ArenaSlot.close,%function
	.code	16
	.thumb_func
tlsf_c.arena_slot.ArenaSlot.close:
	.cfi_startproc
	push	{r4, r5, r6, r7, lr}
	.cfi_def_cfa_offset 20
	.cfi_offset lr, -4
	.cfi_offset r7, -8
	.cfi_offset r6, -12
	.cfi_offset r5, -16
	.cfi_offset r4, -20
	sub	sp, #164
	.cfi_def_cfa_offset 184
	ldrb	r1, [r0, #8]
	cmp	r1, #0
	bne	.LBB31_1
	b	.LBB31_5
.LBB31_1:
	ldr	r2, [r0]
	ldrb	r1, [r2, #1]
	cmp	r1, #1
	beq	.LBB31_2
	b	.LBB31_5
.LBB31_2:
	movs	r1, #0
	strb	r1, [r2, #1]
	ldrb	r4, [r0, #3]
	ldrb	r5, [r0, #2]
	ldrb	r6, [r0]
	ldrb	r7, [r0, #1]
	movs	r2, #16
	bl	tlsf_memory_set
	lsls	r0, r7, #8
	adds	r0, r0, r6
	lsls	r1, r5, #16
	lsls	r2, r4, #24
	adds	r1, r2, r1
	adds	r4, r1, r0
	ldrb	r0, [r4, #8]
	str	r0, [sp, #108]
	ldrb	r0, [r4]
	str	r0, [sp, #104]
	mov	r1, r4
	adds	r1, #16
	add	r0, sp, #112
	movs	r2, #24
	bl	tlsf_memory_cpy
	mov	r0, r4
	adds	r0, #40
	ldrb	r1, [r0, #3]
	str	r1, [sp, #100]
	ldrb	r1, [r0, #2]
	str	r1, [sp, #96]
	movs	r1, #40
	ldrb	r1, [r4, r1]
	str	r1, [sp, #92]
	ldrb	r0, [r0, #1]
	str	r0, [sp, #88]
	mov	r0, r4
	adds	r0, #44
	ldrb	r1, [r0, #3]
	str	r1, [sp, #84]
	ldrb	r1, [r0, #2]
	str	r1, [sp, #80]
	movs	r1, #44
	ldrb	r1, [r4, r1]
	str	r1, [sp, #76]
	ldrb	r0, [r0, #1]
	str	r0, [sp, #72]
	mov	r0, r4
	adds	r0, #64
	ldrb	r1, [r0, #3]
	str	r1, [sp, #44]
	ldrb	r1, [r0, #2]
	str	r1, [sp, #68]
	movs	r1, #64
	ldrb	r1, [r4, r1]
	str	r1, [sp, #8]
	ldrb	r0, [r0, #1]
	str	r0, [sp, #4]
	mov	r0, r4
	adds	r0, #56
	ldrb	r1, [r0, #3]
	str	r1, [sp, #64]
	ldrb	r1, [r0, #2]
	str	r1, [sp, #60]
	movs	r1, #56
	ldrb	r1, [r4, r1]
	str	r1, [sp, #56]
	ldrb	r0, [r0, #1]
	str	r0, [sp, #52]
	mov	r0, r4
	adds	r0, #60
	ldrb	r1, [r0, #3]
	str	r1, [sp, #48]
	ldrb	r1, [r0, #2]
	str	r1, [sp, #40]
	movs	r1, #60
	ldrb	r1, [r4, r1]
	str	r1, [sp, #36]
	ldrb	r0, [r0, #1]
	str	r0, [sp, #32]
	mov	r0, r4
	adds	r0, #80
	ldrb	r1, [r0, #3]
	str	r1, [sp, #28]
	ldrb	r1, [r0, #2]
	str	r1, [sp, #24]
	movs	r1, #80
	ldrb	r1, [r4, r1]
	str	r1, [sp, #20]
	ldrb	r0, [r0, #1]
	str	r0, [sp, #16]
	mov	r0, r4
	adds	r0, #84
	ldrb	r1, [r0, #3]
	str	r1, [sp, #12]
	ldrb	r6, [r0, #2]
	movs	r1, #84
	ldrb	r7, [r4, r1]
	ldrb	r5, [r0, #1]
	mov	r0, r4
	bl	tlsf_memory_dealloc
	ldr	r0, [sp, #88]
	lsls	r0, r0, #8
	ldr	r1, [sp, #92]
	adds	r0, r0, r1
	ldr	r1, [sp, #96]
	lsls	r1, r1, #16
	ldr	r2, [sp, #100]
	lsls	r2, r2, #24
	adds	r1, r2, r1
	adds	r0, r1, r0
	ldr	r1, [sp, #104]
	cmp	r1, #0
	beq	.LBB31_6
	ldr	r1, [sp, #72]
	lsls	r1, r1, #8
	ldr	r2, [sp, #76]
	adds	r1, r1, r2
	ldr	r2, [sp, #80]
	lsls	r2, r2, #16
	ldr	r3, [sp, #84]
	lsls	r3, r3, #24
	adds	r2, r3, r2
	adds	r2, r2, r1
	add	r1, sp, #112
	adds	r1, #8
	ldr	r3, [sp, #108]
	cmp	r3, #0
	beq	.LBB31_10
	str	r2, [sp, #156]
	str	r0, [sp, #152]
	ldm	r1!, {r0, r2, r3}
	ldr	r1, [r1]
	str	r1, [sp, #148]
	add	r1, sp, #136
	stm	r1!, {r0, r2, r3}
	add	r0, sp, #136
	bl	std_alloc.vec.Vec.drop.1d6c342d5cae5f6b
.LBB31_5:
	add	sp, #164
	pop	{r4, r5, r6, r7, pc}
.LBB31_6:
	ldr	r4, [sp, #44]
	lsls	r1, r5, #8
	adds	r1, r1, r7
	lsls	r2, r6, #16
	ldr	r3, [sp, #12]
	lsls	r3, r3, #24
	adds	r2, r3, r2
	adds	r7, r2, r1
	ldr	r1, [sp, #16]
	lsls	r1, r1, #8
	ldr	r2, [sp, #20]
	adds	r1, r1, r2
	ldr	r2, [sp, #24]
	lsls	r2, r2, #16
	ldr	r3, [sp, #28]
	lsls	r3, r3, #24
	adds	r2, r3, r2
	adds	r5, r2, r1
	ldr	r1, [sp, #32]
	lsls	r1, r1, #8
	ldr	r2, [sp, #36]
	adds	r1, r1, r2
	ldr	r2, [sp, #40]
	lsls	r2, r2, #16
	ldr	r3, [sp, #48]
	lsls	r3, r3, #24
	adds	r2, r3, r2
	adds	r1, r2, r1
	ldr	r2, [sp, #52]
	lsls	r2, r2, #8
	ldr	r3, [sp, #56]
	adds	r2, r2, r3
	ldr	r3, [sp, #60]
	lsls	r3, r3, #16
	ldr	r6, [sp, #64]
	lsls	r6, r6, #24
	adds	r3, r6, r3
	adds	r2, r3, r2
	ldr	r3, [sp, #108]
	cmp	r3, #0
	orrs	r2, r1
	ldr	r6, [sp, #68]
	beq	.LBB31_8
	bl	tlsf_memory_dealloc
.LBB31_8:
	orrs	r5, r7
	beq	.LBB31_5
	ldr	r0, [sp, #4]
	lsls	r0, r0, #8
	ldr	r1, [sp, #8]
	adds	r0, r0, r1
	lsls	r1, r6, #16
	lsls	r2, r4, #24
	adds	r1, r2, r1
	adds	r0, r1, r0
	bl	tlsf_memory_dealloc
	add	sp, #164
	pop	{r4, r5, r6, r7, pc}
.LBB31_10:
	str	r2, [sp, #156]
	str	r0, [sp, #152]
	ldm	r1!, {r0, r2, r3}
	ldr	r1, [r1]
	str	r1, [sp, #148]
	add	r1, sp, #136
	stm	r1!, {r0, r2, r3}
	add	r0, sp, #136
	bl	std_alloc.vec.Vec.drop.01e19ae241269710
	add	sp, #164
	pop	{r4, r5, r6, r7, pc}
.Lfunc_end31:
	.size	tlsf_c.arena_slot.ArenaSlot.close, .Lfunc_end31-tlsf_c.arena_slot.ArenaSlot.close
	.cfi_endproc
	.section	.text.std_alloc.vec.Vec.drop.01e19ae241269710,"ax",%progbits
	.p2align	2
	.type	std_alloc.vec.Vec.drop.01e19ae241269710,%function
	.code	16
	.thumb_func
std_alloc.vec.Vec.drop.01e19ae241269710:
	.cfi_startproc
	push	{r4, r5, r6, r7, lr}
	.cfi_def_cfa_offset 20
	.cfi_offset lr, -4
	.cfi_offset r7, -8
	.cfi_offset r6, -12
	.cfi_offset r5, -16
	.cfi_offset r4, -20
	sub	sp, #156
	.cfi_def_cfa_offset 176
	ldrb	r1, [r0, #12]
	ldrb	r2, [r0, #13]
	lsls	r2, r2, #8
	adds	r1, r2, r1
	ldrb	r2, [r0, #14]
	lsls	r2, r2, #16
	ldrb	r3, [r0, #15]
	lsls	r3, r3, #24
	adds	r2, r3, r2
	adds	r4, r2, r1
	ldrb	r1, [r0, #8]
	ldrb	r2, [r0, #9]
	lsls	r2, r2, #8
	adds	r1, r2, r1
	ldrb	r2, [r0, #10]
	lsls	r2, r2, #16
	ldrb	r3, [r0, #11]
	lsls	r3, r3, #24
	adds	r2, r3, r2
	adds	r1, r2, r1
	str	r1, [sp, #8]
	str	r4, [sp, #12]
	orrs	r1, r4
	ldrb	r2, [r0, #20]
	ldrb	r3, [r0, #21]
	lsls	r3, r3, #8
	adds	r2, r3, r2
	ldrb	r3, [r0, #22]
	lsls	r3, r3, #16
	ldrb	r4, [r0, #23]
	lsls	r4, r4, #24
	adds	r3, r4, r3
	adds	r2, r3, r2
	str	r2, [sp, #4]
	ldrb	r2, [r0, #16]
	ldrb	r3, [r0, #17]
	lsls	r3, r3, #8
	adds	r2, r3, r2
	ldrb	r3, [r0, #18]
	lsls	r3, r3, #16
	ldrb	r4, [r0, #19]
	lsls	r4, r4, #24
	adds	r3, r4, r3
	adds	r2, r3, r2
	str	r2, [sp]
	ldrb	r2, [r0]
	ldrb	r3, [r0, #1]
	lsls	r3, r3, #8
	adds	r2, r3, r2
	ldrb	r3, [r0, #2]
	lsls	r3, r3, #16
	ldrb	r0, [r0, #3]
	lsls	r0, r0, #24
	adds	r0, r0, r3
	adds	r0, r0, r2
	str	r0, [sp, #16]
	cmp	r1, #0
	bne	.LBB32_1
	b	.LBB32_11
.LBB32_1:
	movs	r5, #0
	mov	r7, r5
	b	.LBB32_3
.LBB32_2:
	movs	r0, #0
	adds	r7, r7, #1
	adcs	r5, r0
	ldr	r0, [sp, #8]
	subs	r0, r7, r0
	mov	r0, r5
	ldr	r1, [sp, #12]
	sbcs	r0, r1
	blo	.LBB32_3
	b	.LBB32_11
.LBB32_3:
	ldr	r0, .LCPI32_0
	muls	r0, r7, r0
	ldr	r1, [sp, #16]
	adds	r0, r1, r0
	movs	r1, #44
	ldrb	r1, [r0, r1]
	mov	r2, r0
	adds	r2, #44
	ldrb	r3, [r2, #1]
	lsls	r3, r3, #8
	adds	r1, r3, r1
	ldrb	r3, [r2, #2]
	lsls	r3, r3, #16
	ldrb	r2, [r2, #3]
	lsls	r2, r2, #24
	adds	r2, r2, r3
	adds	r2, r2, r1
	movs	r1, #40
	ldrb	r1, [r0, r1]
	mov	r3, r0
	adds	r3, #40
	ldrb	r4, [r3, #1]
	lsls	r4, r4, #8
	adds	r1, r4, r1
	ldrb	r4, [r3, #2]
	lsls	r4, r4, #16
	ldrb	r3, [r3, #3]
	lsls	r3, r3, #24
	adds	r3, r3, r4
	adds	r1, r3, r1
	orrs	r1, r2
	movs	r2, #87
	lsls	r2, r2, #5
	adds	r3, r0, r2
	ldrb	r4, [r3, #4]
	str	r4, [sp, #140]
	ldrb	r4, [r3, #5]
	str	r4, [sp, #124]
	ldrb	r4, [r3, #6]
	str	r4, [sp, #132]
	ldrb	r4, [r3, #7]
	str	r4, [sp, #128]
	ldrb	r2, [r0, r2]
	str	r2, [sp, #152]
	ldrb	r2, [r3, #1]
	str	r2, [sp, #136]
	ldrb	r2, [r3, #2]
	str	r2, [sp, #148]
	ldrb	r2, [r3, #3]
	str	r2, [sp, #144]
	movs	r2, #43
	lsls	r2, r2, #6
	adds	r3, r0, r2
	ldrb	r4, [r3, #4]
	str	r4, [sp, #108]
	ldrb	r4, [r3, #5]
	str	r4, [sp, #92]
	ldrb	r4, [r3, #6]
	str	r4, [sp, #100]
	ldrb	r4, [r3, #7]
	str	r4, [sp, #96]
	ldrb	r2, [r0, r2]
	str	r2, [sp, #120]
	ldrb	r2, [r3, #1]
	str	r2, [sp, #104]
	ldrb	r2, [r3, #2]
	str	r2, [sp, #116]
	ldrb	r2, [r3, #3]
	str	r2, [sp, #112]
	movs	r2, #68
	ldrb	r2, [r0, r2]
	str	r2, [sp, #88]
	mov	r2, r0
	adds	r2, #68
	ldrb	r3, [r2, #1]
	str	r3, [sp, #72]
	ldrb	r3, [r2, #2]
	str	r3, [sp, #80]
	ldrb	r2, [r2, #3]
	str	r2, [sp, #76]
	movs	r2, #64
	ldrb	r2, [r0, r2]
	str	r2, [sp, #84]
	mov	r2, r0
	adds	r2, #64
	ldrb	r4, [r2, #1]
	ldrb	r6, [r2, #2]
	ldrb	r2, [r2, #3]
	str	r2, [sp, #68]
	movs	r2, #173
	lsls	r2, r2, #4
	ldrb	r3, [r0, r2]
	str	r3, [sp, #64]
	adds	r2, r0, r2
	ldrb	r3, [r2, #1]
	str	r3, [sp, #52]
	ldrb	r3, [r2, #2]
	str	r3, [sp, #60]
	ldrb	r2, [r2, #3]
	str	r2, [sp, #56]
	movs	r2, #171
	lsls	r2, r2, #4
	ldrb	r3, [r0, r2]
	str	r3, [sp, #48]
	adds	r2, r0, r2
	ldrb	r3, [r2, #1]
	str	r3, [sp, #36]
	ldrb	r3, [r2, #2]
	str	r3, [sp, #44]
	ldrb	r2, [r2, #3]
	str	r2, [sp, #40]
	movs	r2, #48
	ldrb	r2, [r0, r2]
	str	r2, [sp, #32]
	mov	r2, r0
	adds	r2, #48
	ldrb	r3, [r2, #1]
	str	r3, [sp, #20]
	ldrb	r3, [r2, #2]
	str	r3, [sp, #28]
	ldrb	r2, [r2, #3]
	str	r2, [sp, #24]
	cmp	r1, #0
	beq	.LBB32_5
	ldrb	r1, [r0, #24]
	ldrb	r2, [r0, #25]
	lsls	r2, r2, #8
	adds	r1, r2, r1
	ldrb	r2, [r0, #26]
	lsls	r2, r2, #16
	ldrb	r0, [r0, #27]
	lsls	r0, r0, #24
	adds	r0, r0, r2
	adds	r0, r0, r1
	bl	tlsf_memory_dealloc
.LBB32_5:
	ldr	r0, [sp, #72]
	lsls	r0, r0, #8
	ldr	r1, [sp, #88]
	adds	r0, r0, r1
	ldr	r1, [sp, #80]
	lsls	r1, r1, #16
	ldr	r2, [sp, #76]
	lsls	r2, r2, #24
	adds	r1, r2, r1
	adds	r0, r1, r0
	lsls	r1, r4, #8
	ldr	r2, [sp, #84]
	adds	r1, r1, r2
	lsls	r2, r6, #16
	ldr	r3, [sp, #68]
	lsls	r3, r3, #24
	adds	r2, r3, r2
	adds	r1, r2, r1
	orrs	r1, r0
	beq	.LBB32_7
	ldr	r0, [sp, #20]
	lsls	r0, r0, #8
	ldr	r1, [sp, #32]
	adds	r0, r0, r1
	ldr	r1, [sp, #28]
	lsls	r1, r1, #16
	ldr	r2, [sp, #24]
	lsls	r2, r2, #24
	adds	r1, r2, r1
	adds	r0, r1, r0
	bl	tlsf_memory_dealloc
.LBB32_7:
	ldr	r0, [sp, #92]
	lsls	r0, r0, #8
	ldr	r1, [sp, #108]
	adds	r0, r0, r1
	ldr	r1, [sp, #100]
	lsls	r1, r1, #16
	ldr	r2, [sp, #96]
	lsls	r2, r2, #24
	adds	r1, r2, r1
	adds	r0, r1, r0
	ldr	r1, [sp, #104]
	lsls	r1, r1, #8
	ldr	r2, [sp, #120]
	adds	r1, r1, r2
	ldr	r2, [sp, #116]
	lsls	r2, r2, #16
	ldr	r3, [sp, #112]
	lsls	r3, r3, #24
	adds	r2, r3, r2
	adds	r1, r2, r1
	orrs	r1, r0
	beq	.LBB32_9
	ldr	r0, [sp, #36]
	lsls	r0, r0, #8
	ldr	r1, [sp, #48]
	adds	r0, r0, r1
	ldr	r1, [sp, #44]
	lsls	r1, r1, #16
	ldr	r2, [sp, #40]
	lsls	r2, r2, #24
	adds	r1, r2, r1
	adds	r0, r1, r0
	bl	tlsf_memory_dealloc
.LBB32_9:
	ldr	r0, [sp, #124]
	lsls	r0, r0, #8
	ldr	r1, [sp, #140]
	adds	r0, r0, r1
	ldr	r1, [sp, #132]
	lsls	r1, r1, #16
	ldr	r2, [sp, #128]
	lsls	r2, r2, #24
	adds	r1, r2, r1
	adds	r0, r1, r0
	ldr	r1, [sp, #136]
	lsls	r1, r1, #8
	ldr	r2, [sp, #152]
	adds	r1, r1, r2
	ldr	r2, [sp, #148]
	lsls	r2, r2, #16
	ldr	r3, [sp, #144]
	lsls	r3, r3, #24
	adds	r2, r3, r2
	adds	r1, r2, r1
	orrs	r1, r0
	bne	.LBB32_10
	b	.LBB32_2
.LBB32_10:
	ldr	r0, [sp, #52]
	lsls	r0, r0, #8
	ldr	r1, [sp, #64]
	adds	r0, r0, r1
	ldr	r1, [sp, #60]
	lsls	r1, r1, #16
	ldr	r2, [sp, #56]
	lsls	r2, r2, #24
	adds	r1, r2, r1
	adds	r0, r1, r0
	bl	tlsf_memory_dealloc
	b	.LBB32_2
.LBB32_11:
	ldr	r0, [sp, #4]
	ldr	r1, [sp]
	orrs	r1, r0
	beq	.LBB32_13
	ldr	r0, [sp, #16]
	bl	tlsf_memory_dealloc
.LBB32_13:
	add	sp, #156
	pop	{r4, r5, r6, r7, pc}
	.p2align	2
.LCPI32_0:
	.long	2792
.Lfunc_end32:
	.size	std_alloc.vec.Vec.drop.01e19ae241269710, .Lfunc_end32-std_alloc.vec.Vec.drop.01e19ae241269710
	.cfi_endproc
	.section	.text.std_alloc.vec.Vec.drop.1d6c342d5cae5f6b,"ax",%progbits
	.p2align	2
	.type	std_alloc.vec.Vec.drop.1d6c342d5cae5f6b,%function
	.code	16
	.thumb_func
std_alloc.vec.Vec.drop.1d6c342d5cae5f6b:
	.cfi_startproc
	push	{r4, r5, r6, r7, lr}
	.cfi_def_cfa_offset 20
	.cfi_offset lr, -4
	.cfi_offset r7, -8
	.cfi_offset r6, -12
	.cfi_offset r5, -16
	.cfi_offset r4, -20
	sub	sp, #156
	.cfi_def_cfa_offset 176
	ldrb	r1, [r0, #12]
	ldrb	r2, [r0, #13]
	lsls	r2, r2, #8
	adds	r1, r2, r1
	ldrb	r2, [r0, #14]
	lsls	r2, r2, #16
	ldrb	r3, [r0, #15]
	lsls	r3, r3, #24
	adds	r2, r3, r2
	adds	r4, r2, r1
	ldrb	r1, [r0, #8]
	ldrb	r2, [r0, #9]
	lsls	r2, r2, #8
	adds	r1, r2, r1
	ldrb	r2, [r0, #10]
	lsls	r2, r2, #16
	ldrb	r3, [r0, #11]
	lsls	r3, r3, #24
	adds	r2, r3, r2
	adds	r1, r2, r1
	str	r1, [sp, #8]
	str	r4, [sp, #12]
	orrs	r1, r4
	ldrb	r2, [r0, #20]
	ldrb	r3, [r0, #21]
	lsls	r3, r3, #8
	adds	r2, r3, r2
	ldrb	r3, [r0, #22]
	lsls	r3, r3, #16
	ldrb	r4, [r0, #23]
	lsls	r4, r4, #24
	adds	r3, r4, r3
	adds	r2, r3, r2
	str	r2, [sp, #4]
	ldrb	r2, [r0, #16]
	ldrb	r3, [r0, #17]
	lsls	r3, r3, #8
	adds	r2, r3, r2
	ldrb	r3, [r0, #18]
	lsls	r3, r3, #16
	ldrb	r4, [r0, #19]
	lsls	r4, r4, #24
	adds	r3, r4, r3
	adds	r2, r3, r2
	str	r2, [sp]
	ldrb	r2, [r0]
	ldrb	r3, [r0, #1]
	lsls	r3, r3, #8
	adds	r2, r3, r2
	ldrb	r3, [r0, #2]
	lsls	r3, r3, #16
	ldrb	r0, [r0, #3]
	lsls	r0, r0, #24
	adds	r0, r0, r3
	adds	r0, r0, r2
	str	r0, [sp, #16]
	cmp	r1, #0
	bne	.LBB33_1
	b	.LBB33_11
.LBB33_1:
	movs	r5, #0
	mov	r7, r5
	b	.LBB33_3
.LBB33_2:
	movs	r0, #0
	adds	r7, r7, #1
	adcs	r5, r0
	ldr	r0, [sp, #8]
	subs	r0, r7, r0
	mov	r0, r5
	ldr	r1, [sp, #12]
	sbcs	r0, r1
	blo	.LBB33_3
	b	.LBB33_11
.LBB33_3:
	ldr	r0, .LCPI33_0
	muls	r0, r7, r0
	ldr	r1, [sp, #16]
	adds	r0, r1, r0
	movs	r1, #44
	ldrb	r1, [r0, r1]
	mov	r2, r0
	adds	r2, #44
	ldrb	r3, [r2, #1]
	lsls	r3, r3, #8
	adds	r1, r3, r1
	ldrb	r3, [r2, #2]
	lsls	r3, r3, #16
	ldrb	r2, [r2, #3]
	lsls	r2, r2, #24
	adds	r2, r2, r3
	adds	r2, r2, r1
	movs	r1, #40
	ldrb	r1, [r0, r1]
	mov	r3, r0
	adds	r3, #40
	ldrb	r4, [r3, #1]
	lsls	r4, r4, #8
	adds	r1, r4, r1
	ldrb	r4, [r3, #2]
	lsls	r4, r4, #16
	ldrb	r3, [r3, #3]
	lsls	r3, r3, #24
	adds	r3, r3, r4
	adds	r1, r3, r1
	orrs	r1, r2
	movs	r2, #87
	lsls	r2, r2, #5
	adds	r3, r0, r2
	ldrb	r4, [r3, #4]
	str	r4, [sp, #140]
	ldrb	r4, [r3, #5]
	str	r4, [sp, #124]
	ldrb	r4, [r3, #6]
	str	r4, [sp, #132]
	ldrb	r4, [r3, #7]
	str	r4, [sp, #128]
	ldrb	r2, [r0, r2]
	str	r2, [sp, #152]
	ldrb	r2, [r3, #1]
	str	r2, [sp, #136]
	ldrb	r2, [r3, #2]
	str	r2, [sp, #148]
	ldrb	r2, [r3, #3]
	str	r2, [sp, #144]
	movs	r2, #43
	lsls	r2, r2, #6
	adds	r3, r0, r2
	ldrb	r4, [r3, #4]
	str	r4, [sp, #108]
	ldrb	r4, [r3, #5]
	str	r4, [sp, #92]
	ldrb	r4, [r3, #6]
	str	r4, [sp, #100]
	ldrb	r4, [r3, #7]
	str	r4, [sp, #96]
	ldrb	r2, [r0, r2]
	str	r2, [sp, #120]
	ldrb	r2, [r3, #1]
	str	r2, [sp, #104]
	ldrb	r2, [r3, #2]
	str	r2, [sp, #116]
	ldrb	r2, [r3, #3]
	str	r2, [sp, #112]
	movs	r2, #68
	ldrb	r2, [r0, r2]
	str	r2, [sp, #88]
	mov	r2, r0
	adds	r2, #68
	ldrb	r3, [r2, #1]
	str	r3, [sp, #72]
	ldrb	r3, [r2, #2]
	str	r3, [sp, #80]
	ldrb	r2, [r2, #3]
	str	r2, [sp, #76]
	movs	r2, #64
	ldrb	r2, [r0, r2]
	str	r2, [sp, #84]
	mov	r2, r0
	adds	r2, #64
	ldrb	r4, [r2, #1]
	ldrb	r6, [r2, #2]
	ldrb	r2, [r2, #3]
	str	r2, [sp, #68]
	movs	r2, #173
	lsls	r2, r2, #4
	ldrb	r3, [r0, r2]
	str	r3, [sp, #64]
	adds	r2, r0, r2
	ldrb	r3, [r2, #1]
	str	r3, [sp, #52]
	ldrb	r3, [r2, #2]
	str	r3, [sp, #60]
	ldrb	r2, [r2, #3]
	str	r2, [sp, #56]
	movs	r2, #171
	lsls	r2, r2, #4
	ldrb	r3, [r0, r2]
	str	r3, [sp, #48]
	adds	r2, r0, r2
	ldrb	r3, [r2, #1]
	str	r3, [sp, #36]
	ldrb	r3, [r2, #2]
	str	r3, [sp, #44]
	ldrb	r2, [r2, #3]
	str	r2, [sp, #40]
	movs	r2, #48
	ldrb	r2, [r0, r2]
	str	r2, [sp, #32]
	mov	r2, r0
	adds	r2, #48
	ldrb	r3, [r2, #1]
	str	r3, [sp, #20]
	ldrb	r3, [r2, #2]
	str	r3, [sp, #28]
	ldrb	r2, [r2, #3]
	str	r2, [sp, #24]
	cmp	r1, #0
	beq	.LBB33_5
	ldrb	r1, [r0, #24]
	ldrb	r2, [r0, #25]
	lsls	r2, r2, #8
	adds	r1, r2, r1
	ldrb	r2, [r0, #26]
	lsls	r2, r2, #16
	ldrb	r0, [r0, #27]
	lsls	r0, r0, #24
	adds	r0, r0, r2
	adds	r0, r0, r1
	bl	tlsf_memory_dealloc
.LBB33_5:
	ldr	r0, [sp, #72]
	lsls	r0, r0, #8
	ldr	r1, [sp, #88]
	adds	r0, r0, r1
	ldr	r1, [sp, #80]
	lsls	r1, r1, #16
	ldr	r2, [sp, #76]
	lsls	r2, r2, #24
	adds	r1, r2, r1
	adds	r0, r1, r0
	lsls	r1, r4, #8
	ldr	r2, [sp, #84]
	adds	r1, r1, r2
	lsls	r2, r6, #16
	ldr	r3, [sp, #68]
	lsls	r3, r3, #24
	adds	r2, r3, r2
	adds	r1, r2, r1
	orrs	r1, r0
	beq	.LBB33_7
	ldr	r0, [sp, #20]
	lsls	r0, r0, #8
	ldr	r1, [sp, #32]
	adds	r0, r0, r1
	ldr	r1, [sp, #28]
	lsls	r1, r1, #16
	ldr	r2, [sp, #24]
	lsls	r2, r2, #24
	adds	r1, r2, r1
	adds	r0, r1, r0
	bl	tlsf_memory_dealloc
.LBB33_7:
	ldr	r0, [sp, #92]
	lsls	r0, r0, #8
	ldr	r1, [sp, #108]
	adds	r0, r0, r1
	ldr	r1, [sp, #100]
	lsls	r1, r1, #16
	ldr	r2, [sp, #96]
	lsls	r2, r2, #24
	adds	r1, r2, r1
	adds	r0, r1, r0
	ldr	r1, [sp, #104]
	lsls	r1, r1, #8
	ldr	r2, [sp, #120]
	adds	r1, r1, r2
	ldr	r2, [sp, #116]
	lsls	r2, r2, #16
	ldr	r3, [sp, #112]
	lsls	r3, r3, #24
	adds	r2, r3, r2
	adds	r1, r2, r1
	orrs	r1, r0
	beq	.LBB33_9
	ldr	r0, [sp, #36]
	lsls	r0, r0, #8
	ldr	r1, [sp, #48]
	adds	r0, r0, r1
	ldr	r1, [sp, #44]
	lsls	r1, r1, #16
	ldr	r2, [sp, #40]
	lsls	r2, r2, #24
	adds	r1, r2, r1
	adds	r0, r1, r0
	bl	tlsf_memory_dealloc
.LBB33_9:
	ldr	r0, [sp, #124]
	lsls	r0, r0, #8
	ldr	r1, [sp, #140]
	adds	r0, r0, r1
	ldr	r1, [sp, #132]
	lsls	r1, r1, #16
	ldr	r2, [sp, #128]
	lsls	r2, r2, #24
	adds	r1, r2, r1
	adds	r0, r1, r0
	ldr	r1, [sp, #136]
	lsls	r1, r1, #8
	ldr	r2, [sp, #152]
	adds	r1, r1, r2
	ldr	r2, [sp, #148]
	lsls	r2, r2, #16
	ldr	r3, [sp, #144]
	lsls	r3, r3, #24
	adds	r2, r3, r2
	adds	r1, r2, r1
	orrs	r1, r0
	bne	.LBB33_10
	b	.LBB33_2
.LBB33_10:
	ldr	r0, [sp, #52]
	lsls	r0, r0, #8
	ldr	r1, [sp, #64]
	adds	r0, r0, r1
	ldr	r1, [sp, #60]
	lsls	r1, r1, #16
	ldr	r2, [sp, #56]
	lsls	r2, r2, #24
	adds	r1, r2, r1
	adds	r0, r1, r0
	bl	tlsf_memory_dealloc
	b	.LBB33_2
.LBB33_11:
	ldr	r0, [sp, #4]
	ldr	r1, [sp]
	orrs	r1, r0
	beq	.LBB33_13
	ldr	r0, [sp, #16]
	bl	tlsf_memory_dealloc
.LBB33_13:
	add	sp, #156
	pop	{r4, r5, r6, r7, pc}
	.p2align	2
.LCPI33_0:
	.long	2792
.Lfunc_end33:
	.size	std_alloc.vec.Vec.drop.1d6c342d5cae5f6b, .Lfunc_end33-std_alloc.vec.Vec.drop.1d6c342d5cae5f6b
	.cfi_endproc
	.section	.text.unlikely.std_alloc.vec.Vec.grow_amortized.1345b5ed95b64201,"ax",%progbits
	.p2align	1
	.type	std_alloc.vec.Vec.grow_amortized.1345b5ed95b64201,%function
	.code	16
	.thumb_func
std_alloc.vec.Vec.grow_amortized.1345b5ed95b64201:
	.cfi_startproc
	push	{r4, r5, r6, r7, lr}
	.cfi_def_cfa_offset 20
	.cfi_offset lr, -4
	.cfi_offset r7, -8
	.cfi_offset r6, -12
	.cfi_offset r5, -16
	.cfi_offset r4, -20
	sub	sp, #44
	.cfi_def_cfa_offset 64
	ldr	r6, [r0, #8]
	ldr	r5, [r0, #12]
	movs	r1, #0
	adds	r4, r6, r2
	mov	r4, r5
	adcs	r4, r3
	mov	r4, r1
	adcs	r4, r1
	cmp	r4, #1
	beq	.LBB34_30
	adds	r4, r6, r2
	str	r5, [sp, #4]
	adcs	r3, r5
	movs	r5, #4
	cmp	r4, #4
	mov	r2, r4
	bls	.LBB34_17
	cmp	r3, #0
	beq	.LBB34_18
.LBB34_3:
	str	r6, [sp, #8]
	beq	.LBB34_5
.LBB34_4:
	mov	r2, r4
.LBB34_5:
	ldr	r4, [r0, #16]
	ldr	r5, [r0, #20]
	lsrs	r6, r4, #31
	str	r5, [sp, #20]
	lsls	r7, r5, #1
	adds	r6, r7, r6
	lsls	r7, r4, #1
	subs	r5, r7, r2
	mov	r5, r6
	sbcs	r5, r3
	mov	r5, r2
	blo	.LBB34_7
	mov	r5, r7
.LBB34_7:
	str	r5, [sp, #16]
	mov	r7, r3
	blo	.LBB34_9
	mov	r7, r6
.LBB34_9:
	ldr	r5, [sp, #20]
	lsrs	r5, r5, #30
	cmp	r5, #0
	ldr	r5, [sp, #16]
	mov	r6, r5
	beq	.LBB34_11
	mov	r6, r2
.LBB34_11:
	mov	r2, r7
	beq	.LBB34_13
	mov	r2, r3
.LBB34_13:
	str	r2, [sp, #12]
	lsrs	r2, r2, #28
	bne	.LBB34_30
	ldr	r1, [sp, #20]
	orrs	r4, r1
	beq	.LBB34_19
	ldr	r1, [r0]
	movs	r2, #8
	str	r2, [sp]
	ldr	r5, [sp, #8]
	lsrs	r2, r5, #29
	ldr	r3, [sp, #4]
	lsls	r3, r3, #3
	adds	r2, r3, r2
	movs	r4, #0
	mvns	r3, r4
	cmp	r2, #0
	beq	.LBB34_21
	mov	r2, r3
	b	.LBB34_22
.LBB34_17:
	mov	r2, r5
	cmp	r3, #0
	bne	.LBB34_3
.LBB34_18:
	mov	r4, r5
	str	r6, [sp, #8]
	bne	.LBB34_4
	b	.LBB34_5
.LBB34_19:
	lsrs	r2, r5, #29
	lsls	r3, r7, #3
	movs	r1, #0
	adds	r2, r3, r2
	beq	.LBB34_26
	mov	r5, r0
	mov	r4, r1
	mvns	r1, r1
	b	.LBB34_27
.LBB34_21:
	lsls	r2, r5, #3
.LBB34_22:
	lsrs	r5, r6, #29
	mov	r7, r6
	ldr	r6, [sp, #12]
	lsls	r6, r6, #3
	adds	r5, r6, r5
	beq	.LBB34_24
	mov	r5, r0
	b	.LBB34_25
.LBB34_24:
	mov	r5, r0
	lsls	r3, r7, #3
.LBB34_25:
	mov	r6, r7
	add	r0, sp, #24
	bl	tlsf_memory_realloc
	b	.LBB34_28
.LBB34_26:
	mov	r4, r1
	mov	r1, r5
	mov	r5, r0
	lsls	r1, r1, #3
.LBB34_27:
	add	r0, sp, #24
	movs	r2, #8
	bl	tlsf_memory_alloc
.LBB34_28:
	ldr	r0, [sp, #24]
	lsls	r0, r0, #31
	mov	r1, r4
	beq	.LBB34_30
	ldr	r0, [sp, #32]
	str	r0, [r5]
	str	r6, [r5, #16]
	ldr	r0, [sp, #12]
	str	r0, [r5, #20]
	movs	r1, #1
.LBB34_30:
	mov	r0, r1
	add	sp, #44
	pop	{r4, r5, r6, r7, pc}
.Lfunc_end34:
	.size	std_alloc.vec.Vec.grow_amortized.1345b5ed95b64201, .Lfunc_end34-std_alloc.vec.Vec.grow_amortized.1345b5ed95b64201
	.cfi_endproc
	.section	.text.tlsf_heap.heap.Heap.begin.4,"ax",%progbits
	.p2align	1
	.type	tlsf_heap.heap.Heap.begin.4,%function
	.code	16
	.thumb_func
tlsf_heap.heap.Heap.begin.4:
	.cfi_startproc
	push	{r4, r5, r6, r7, lr}
	.cfi_def_cfa_offset 20
	.cfi_offset lr, -4
	.cfi_offset r7, -8
	.cfi_offset r6, -12
	.cfi_offset r5, -16
	.cfi_offset r4, -20
	sub	sp, #12
	.cfi_def_cfa_offset 32
	mov	r4, r0
	ldr	r0, [r0, #8]
	str	r0, [sp, #8]
	ldr	r5, [r4, #12]
	mov	r0, r4
	adds	r0, #24
	str	r0, [sp]
	bl	tlsf_words.words.Words.lengthen
	movs	r6, #0
	mvns	r1, r6
	str	r1, [sp, #4]
	movs	r0, #184
	str	r1, [r4, r0]
	mov	r0, r4
	adds	r0, #80
	movs	r2, #88
	mov	r1, r6
	bl	tlsf_memory_set
	ldr	r7, [r4, #32]
	lsls	r0, r7, #2
	adds	r0, r0, #3
	ldr	r1, [r4, #24]
	ldr	r2, [sp, #8]
	subs	r2, r2, #1
	str	r2, [r1, #8]
	str	r0, [r1]
	sbcs	r5, r6
	str	r5, [r1, #12]
	ldr	r5, [sp, #4]
	str	r5, [r1, #4]
	ldr	r0, [r4, #48]
	ldr	r1, [r0]
	movs	r2, #1
	str	r2, [sp, #8]
	orrs	r1, r2
	str	r1, [r0]
	movs	r0, #16
	orrs	r0, r7
	bl	__clzsi2
	movs	r1, #27
	subs	r0, r1, r0
	lsrs	r7, r0
	lsls	r0, r0, #4
	adds	r0, r7, r0
	lsls	r1, r0, #2
	adds	r2, r4, r1
	movs	r3, #168
	ldr	r1, [r2, r3]
	str	r6, [r2, r3]
	cmp	r1, #0
	bmi	.LBB35_2
	ldr	r0, [sp]
	ldr	r0, [r0]
	str	r1, [r0, #16]
	str	r5, [r0, #20]
	lsls	r1, r1, #3
	adds	r0, r0, r1
	str	r6, [r0, #20]
	add	sp, #12
	pop	{r4, r5, r6, r7, pc}
.LBB35_2:
	ldr	r1, [r4, #24]
	str	r5, [r1, #16]
	str	r5, [r1, #20]
	lsrs	r0, r0, #4
	ldr	r3, [sp, #8]
	mov	r1, r3
	lsls	r1, r0
	ldr	r2, [r4, #80]
	orrs	r2, r1
	str	r2, [r4, #80]
	movs	r1, #15
	ands	r7, r1
	lsls	r3, r7
	lsls	r0, r0, #2
	adds	r0, r4, r0
	ldr	r1, [r0, #84]
	orrs	r1, r3
	str	r1, [r0, #84]
	add	sp, #12
	pop	{r4, r5, r6, r7, pc}
.Lfunc_end35:
	.size	tlsf_heap.heap.Heap.begin.4, .Lfunc_end35-tlsf_heap.heap.Heap.begin.4
	.cfi_endproc
	.section	.text.tlsf_words.words.Words.lengthen,"ax",%progbits
	.p2align	1
	.type	tlsf_words.words.Words.lengthen,%function
	.code	16
	.thumb_func
tlsf_words.words.Words.lengthen:
	.cfi_startproc
	push	{r4, r5, r6, r7, lr}
	.cfi_def_cfa_offset 20
	.cfi_offset lr, -4
	.cfi_offset r7, -8
	.cfi_offset r6, -12
	.cfi_offset r5, -16
	.cfi_offset r4, -20
	sub	sp, #20
	.cfi_def_cfa_offset 40
	mov	r3, r1
	mov	r5, r0
	ldr	r0, [r0, #8]
	ldr	r1, [r5, #12]
	movs	r7, #0
	subs	r2, r0, r3
	mov	r2, r1
	sbcs	r2, r7
	bhs	.LBB36_5
	movs	r6, #0
	str	r3, [sp, #8]
	subs	r4, r3, r0
	sbcs	r6, r1
	ldr	r2, [r5, #16]
	ldr	r3, [r5, #20]
	str	r2, [sp, #16]
	subs	r2, r2, r0
	str	r3, [sp, #12]
	sbcs	r3, r1
	subs	r2, r2, r4
	sbcs	r3, r6
	blo	.LBB36_19
.LBB36_2:
	adds	r2, r0, r4
	adcs	r6, r1
	mov	r3, r4
	ldr	r4, [r5]
	str	r2, [sp, #4]
	subs	r2, r0, r2
	sbcs	r1, r6
	bhs	.LBB36_4
	lsls	r0, r0, #3
	adds	r0, r4, r0
	lsls	r2, r3, #3
	movs	r1, #0
	bl	tlsf_memory_set
.LBB36_4:
	str	r4, [r5]
	ldr	r0, [sp, #4]
	str	r0, [r5, #8]
	str	r6, [r5, #12]
	ldr	r0, [sp, #16]
	str	r0, [r5, #16]
	ldr	r0, [sp, #12]
	str	r0, [r5, #20]
	ldr	r3, [sp, #8]
	b	.LBB36_7
.LBB36_5:
	subs	r0, r3, r0
	mov	r0, r7
	sbcs	r0, r1
	bhs	.LBB36_7
	str	r3, [r5, #8]
	str	r7, [r5, #12]
.LBB36_7:
	ldr	r0, [r5, #32]
	ldr	r1, [r5, #36]
	orrs	r1, r0
	beq	.LBB36_9
	str	r7, [r5, #32]
	str	r7, [r5, #36]
.LBB36_9:
	lsrs	r6, r3, #6
	lsls	r0, r3, #26
	beq	.LBB36_11
	adds	r6, r6, #1
.LBB36_11:
	cmp	r3, #0
	beq	.LBB36_16
	ldr	r2, [r5, #40]
	ldr	r1, [r5, #44]
	subs	r0, r2, r6
	str	r1, [sp, #12]
	mov	r0, r1
	sbcs	r0, r7
	mov	r0, r7
	mov	r1, r7
	blo	.LBB36_17
.LBB36_13:
	str	r2, [sp, #8]
	adds	r4, r0, r6
	adcs	r7, r1
	ldr	r2, [r5, #24]
	str	r2, [sp, #16]
	subs	r2, r0, r4
	sbcs	r1, r7
	bhs	.LBB36_15
	lsls	r0, r0, #3
	ldr	r1, [sp, #16]
	adds	r0, r1, r0
	lsls	r2, r6, #3
	movs	r1, #0
	mov	r6, r3
	bl	tlsf_memory_set
	mov	r3, r6
.LBB36_15:
	ldr	r0, [sp, #16]
	str	r0, [r5, #24]
	str	r4, [r5, #32]
	str	r7, [r5, #36]
	ldr	r0, [sp, #8]
	str	r0, [r5, #40]
	ldr	r0, [sp, #12]
	str	r0, [r5, #44]
.LBB36_16:
	str	r3, [r5, #48]
	add	sp, #20
	pop	{r4, r5, r6, r7, pc}
.LBB36_17:
	mov	r4, r3
	mov	r0, r5
	adds	r0, #24
	movs	r3, #0
	mov	r2, r6
	bl	std_alloc.vec.Vec.grow_amortized.1345b5ed95b64201
	cmp	r0, #0
	beq	.LBB36_21
	mov	r3, r5
	adds	r3, #32
	ldm	r3, {r0, r1, r2, r3}
	str	r3, [sp, #12]
	mov	r3, r4
	b	.LBB36_13
.LBB36_19:
	mov	r0, r5
	mov	r2, r4
	mov	r3, r6
	bl	std_alloc.vec.Vec.grow_amortized.1345b5ed95b64201
	cmp	r0, #0
	beq	.LBB36_21
	mov	r2, r5
	adds	r2, #8
	ldm	r2, {r0, r1, r2}
	str	r2, [sp, #16]
	ldr	r2, [r5, #20]
	str	r2, [sp, #12]
	b	.LBB36_2
.LBB36_21:
	.inst.n	0xdefe
.Lfunc_end36:
	.size	tlsf_words.words.Words.lengthen, .Lfunc_end36-tlsf_words.words.Words.lengthen
	.cfi_endproc
	.section	.text.tlsf_heap.heap.Heap.begin.5,"ax",%progbits
	.p2align	1
	.type	tlsf_heap.heap.Heap.begin.5,%function
	.code	16
	.thumb_func
tlsf_heap.heap.Heap.begin.5:
	.cfi_startproc
	push	{r4, r5, r6, r7, lr}
	.cfi_def_cfa_offset 20
	.cfi_offset lr, -4
	.cfi_offset r7, -8
	.cfi_offset r6, -12
	.cfi_offset r5, -16
	.cfi_offset r4, -20
	sub	sp, #12
	.cfi_def_cfa_offset 32
	mov	r4, r0
	ldr	r0, [r0, #8]
	str	r0, [sp, #8]
	ldr	r5, [r4, #12]
	mov	r0, r4
	adds	r0, #24
	str	r0, [sp]
	bl	tlsf_words.words.Words.lengthen
	movs	r6, #0
	mvns	r1, r6
	str	r1, [sp, #4]
	movs	r0, #184
	str	r1, [r4, r0]
	mov	r0, r4
	adds	r0, #80
	movs	r2, #88
	mov	r1, r6
	bl	tlsf_memory_set
	ldr	r7, [r4, #32]
	lsls	r0, r7, #2
	adds	r0, r0, #3
	ldr	r1, [r4, #24]
	ldr	r2, [sp, #8]
	subs	r2, r2, #1
	str	r2, [r1, #8]
	str	r0, [r1]
	sbcs	r5, r6
	str	r5, [r1, #12]
	ldr	r5, [sp, #4]
	str	r5, [r1, #4]
	ldr	r0, [r4, #48]
	ldr	r1, [r0]
	movs	r2, #1
	str	r2, [sp, #8]
	orrs	r1, r2
	str	r1, [r0]
	movs	r0, #32
	orrs	r0, r7
	bl	__clzsi2
	movs	r1, #26
	subs	r0, r1, r0
	lsrs	r7, r0
	lsls	r0, r0, #5
	adds	r0, r7, r0
	lsls	r1, r0, #2
	adds	r2, r4, r1
	movs	r3, #168
	ldr	r1, [r2, r3]
	str	r6, [r2, r3]
	cmp	r1, #0
	bmi	.LBB37_2
	ldr	r0, [sp]
	ldr	r0, [r0]
	str	r1, [r0, #16]
	str	r5, [r0, #20]
	lsls	r1, r1, #3
	adds	r0, r0, r1
	str	r6, [r0, #20]
	add	sp, #12
	pop	{r4, r5, r6, r7, pc}
.LBB37_2:
	ldr	r1, [r4, #24]
	str	r5, [r1, #16]
	str	r5, [r1, #20]
	lsrs	r0, r0, #5
	ldr	r3, [sp, #8]
	mov	r1, r3
	lsls	r1, r0
	ldr	r2, [r4, #80]
	orrs	r2, r1
	str	r2, [r4, #80]
	movs	r1, #31
	ands	r7, r1
	lsls	r3, r7
	lsls	r0, r0, #2
	adds	r0, r4, r0
	ldr	r1, [r0, #84]
	orrs	r1, r3
	str	r1, [r0, #84]
	add	sp, #12
	pop	{r4, r5, r6, r7, pc}
.Lfunc_end37:
	.size	tlsf_heap.heap.Heap.begin.5, .Lfunc_end37-tlsf_heap.heap.Heap.begin.5
	.cfi_endproc
	.section	.text.tlsf_pool.sizes.split.rising_split.4,"ax",%progbits
	.p2align	2
	.type	tlsf_pool.sizes.split.rising_split.4,%function
	.code	16
	.thumb_func
tlsf_pool.sizes.split.rising_split.4:
	.cfi_startproc
	push	{r4, r5, r6, r7, lr}
	.cfi_def_cfa_offset 20
	.cfi_offset lr, -4
	.cfi_offset r7, -8
	.cfi_offset r6, -12
	.cfi_offset r5, -16
	.cfi_offset r4, -20
	sub	sp, #508
	sub	sp, #508
	sub	sp, #460
	.cfi_def_cfa_offset 1496
	ldr	r4, .LCPI38_1
	add	r4, sp
	str	r4, [sp, #84]
	mov	r5, r2
	str	r1, [sp, #32]
	str	r0, [sp, #4]
	movs	r1, #0
	subs	r0, r2, #2
	mov	r0, r3
	sbcs	r0, r1
	str	r3, [sp, #28]
	blo	.LBB38_11
	str	r1, [sp, #16]
	mov	r7, r5
	movs	r0, #0
	movs	r1, #1
.LBB38_2:
	lsls	r2, r1, #3
	ldr	r3, [sp, #32]
	adds	r2, r3, r2
	ldr	r3, [r2, #4]
	subs	r2, r2, #4
	ldr	r2, [r2]
	cmp	r3, r2
	bls	.LBB38_13
	movs	r2, #0
	adds	r4, r1, #1
	mov	r5, r0
	adcs	r5, r2
	subs	r6, r4, r7
	ldr	r6, [sp, #28]
	sbcs	r5, r6
	bhs	.LBB38_10
	lsls	r4, r4, #3
	ldr	r5, [sp, #32]
	adds	r4, r5, r4
	ldr	r4, [r4, #4]
	cmp	r4, r3
	bls	.LBB38_13
	adds	r3, r1, #2
	mov	r5, r0
	adcs	r5, r2
	subs	r6, r3, r7
	ldr	r6, [sp, #28]
	sbcs	r5, r6
	bhs	.LBB38_10
	lsls	r3, r3, #3
	ldr	r5, [sp, #32]
	adds	r3, r5, r3
	ldr	r3, [r3, #4]
	cmp	r3, r4
	bls	.LBB38_13
	adds	r4, r1, #3
	mov	r5, r0
	adcs	r5, r2
	subs	r6, r4, r7
	ldr	r6, [sp, #28]
	sbcs	r5, r6
	bhs	.LBB38_10
	lsls	r4, r4, #3
	ldr	r5, [sp, #32]
	adds	r4, r5, r4
	ldr	r4, [r4, #4]
	cmp	r4, r3
	bls	.LBB38_13
	adds	r1, r1, #4
	adcs	r0, r2
	subs	r2, r1, r7
	mov	r2, r0
	ldr	r3, [sp, #28]
	sbcs	r2, r3
	blo	.LBB38_2
.LBB38_10:
	add	r0, sp, #104
	movs	r1, #0
	ldr	r2, .LCPI38_0
	bl	tlsf_memory_set
	mov	r5, r7
	ldr	r6, [sp, #28]
	ldr	r7, [sp, #16]
	b	.LBB38_12
.LBB38_11:
	mov	r4, r3
	mov	r6, r3
	add	r0, sp, #104
	ldr	r2, .LCPI38_0
	mov	r7, r1
	bl	tlsf_memory_set
	orrs	r4, r5
	beq	.LBB38_14
.LBB38_12:
	movs	r4, #20
	muls	r4, r5, r4
	add	r0, sp, #104
	movs	r1, #0
	str	r1, [sp, #8]
	mov	r2, r4
	bl	tlsf_memory_set
	b	.LBB38_15
.LBB38_13:
	movs	r1, #0
	movs	r2, #88
	ldr	r0, [sp, #4]
	bl	tlsf_memory_set
	b	.LBB38_36
.LBB38_14:
	movs	r0, #1
	str	r0, [sp, #8]
	mov	r4, r7
.LBB38_15:
	add	r0, sp, #104
	movs	r1, #1
	str	r1, [sp, #64]
	str	r1, [r0, r4]
	adds	r0, r0, r4
	str	r7, [r0, #4]
	str	r7, [r0, #8]
	str	r7, [r0, #12]
	str	r7, [r0, #16]
	ldr	r0, .LCPI38_4
	add	r0, sp
	mov	r1, r0
	adds	r1, #8
	str	r1, [sp, #68]
	ldr	r1, .LCPI38_3
	add	r1, sp
	mov	r2, r1
	adds	r2, #8
	str	r2, [sp, #56]
	adds	r0, r0, #4
	str	r0, [sp, #52]
	ldr	r0, .LCPI38_2
	add	r0, sp
	adds	r0, r0, #5
	str	r0, [sp, #48]
	adds	r0, r1, #4
	mov	r1, r7
	mov	r7, r0
	mov	r2, r1
	str	r5, [sp, #24]
	str	r0, [sp, #20]
	b	.LBB38_17
.LBB38_16:
	movs	r0, #0
	ldr	r3, [sp, #16]
	adds	r1, r3, #1
	ldr	r4, [sp, #12]
	mov	r2, r4
	adcs	r2, r0
	subs	r3, r3, #7
	sbcs	r4, r0
	blo	.LBB38_17
	b	.LBB38_33
.LBB38_17:
	str	r2, [sp, #12]
	str	r1, [sp, #16]
	ldr	r0, [sp, #8]
	cmp	r0, #0
	bne	.LBB38_16
	movs	r0, #0
	mov	r3, r0
	str	r0, [sp, #88]
	mov	r1, r0
	b	.LBB38_20
.LBB38_19:
	ldr	r4, [sp, #84]
	str	r0, [r4, #40]
	ldr	r7, [sp, #20]
	ldm	r7!, {r0, r1, r2, r3}
	stm	r4!, {r0, r1, r2, r3}
	ldr	r4, [sp, #40]
	ldr	r5, [sp, #60]
	muls	r5, r4, r5
	add	r4, sp, #104
	str	r6, [r4, r5]
	adds	r4, r4, r5
	adds	r4, r4, #4
	stm	r4!, {r0, r1, r2, r3}
	ldr	r5, [sp, #24]
	ldr	r3, [sp, #36]
	subs	r7, #16
	subs	r0, r3, r5
	ldr	r1, [sp, #44]
	mov	r0, r1
	ldr	r6, [sp, #28]
	sbcs	r0, r6
	mov	r0, r1
	bhs	.LBB38_16
.LBB38_20:
	ldr	r2, [sp, #88]
	str	r2, [r7]
	str	r2, [r7, #4]
	str	r2, [r7, #8]
	str	r2, [r7, #12]
	adds	r4, r3, #1
	adcs	r1, r2
	str	r1, [sp, #44]
	subs	r1, r5, r3
	str	r1, [sp, #80]
	sbcs	r6, r0
	str	r6, [sp, #76]
	str	r3, [sp, #40]
	lsls	r0, r3, #3
	ldr	r1, [sp, #32]
	adds	r0, r1, r0
	str	r0, [sp, #72]
	movs	r0, #20
	str	r0, [sp, #60]
	str	r4, [sp, #36]
	muls	r0, r4, r0
	add	r1, sp, #104
	adds	r0, r1, r0
	str	r0, [sp, #92]
	mov	r6, r2
	mov	r0, r2
	mov	r4, r2
	mov	r7, r2
	ldr	r5, [sp, #56]
	b	.LBB38_23
.LBB38_21:
	ldr	r6, [sp, #64]
.LBB38_22:
	ldm	r1!, {r2, r3}
	ldr	r1, [r1]
	stm	r5!, {r2, r3}
	str	r1, [r5]
	ldr	r1, [sp, #80]
	subs	r5, #8
	subs	r1, r4, r1
	mov	r1, r7
	ldr	r2, [sp, #76]
	sbcs	r1, r2
	bhs	.LBB38_19
.LBB38_23:
	str	r6, [sp, #100]
	mov	r6, r4
	str	r0, [sp, #96]
	adds	r4, r4, #1
	ldr	r0, [sp, #88]
	adcs	r7, r0
	ldr	r0, [sp, #72]
	mov	r2, r4
	mov	r3, r7
	bl	tlsf_pool.sizes.region.region_words.4
	lsls	r0, r0, #31
	beq	.LBB38_30
	ldr	r0, [sp, #60]
	muls	r6, r0, r6
	ldr	r0, [sp, #92]
	ldrb	r0, [r0, r6]
	cmp	r0, #1
	bne	.LBB38_30
	ldr	r0, [sp, #92]
	adds	r0, r0, r6
	ldr	r2, [r0, #16]
	ldr	r3, [r0, #12]
	ldr	r6, [r0, #8]
	ldr	r5, [sp, #84]
	str	r6, [r5, #60]
	str	r3, [r5, #64]
	str	r2, [r5, #68]
	uxtb	r2, r6
	ldr	r3, [sp, #48]
	strb	r4, [r3, r2]
	adds	r2, r6, #1
	ldr	r3, .LCPI38_2
	add	r3, sp
	strb	r2, [r3, #4]
	ldr	r0, [r0, #4]
	adds	r0, r0, r1
	mov	r3, r5
	adds	r3, #60
	ldm	r3, {r1, r2, r3}
	ldr	r6, [sp, #52]
	stm	r6!, {r0, r1, r2, r3}
	ldr	r0, [r5, #20]
	ldr	r1, [sp, #100]
	cmp	r1, #0
	beq	.LBB38_32
	ldr	r1, [sp, #96]
	cmp	r0, r1
	ldr	r5, [sp, #56]
	blo	.LBB38_28
	mov	r0, r1
.LBB38_28:
	ldr	r1, [sp, #68]
	blo	.LBB38_21
	mov	r1, r5
	b	.LBB38_21
.LBB38_30:
	movs	r0, #0
	ldr	r1, [sp, #84]
	str	r0, [r1, #16]
	str	r0, [r1, #20]
	str	r0, [r1, #24]
	str	r0, [r1, #28]
	str	r0, [r1, #32]
	ldr	r1, [sp, #100]
	cmp	r1, #0
	ldr	r1, [sp, #68]
	mov	r6, r0
	beq	.LBB38_22
	mov	r1, r5
	ldr	r0, [sp, #96]
	b	.LBB38_21
.LBB38_32:
	ldr	r1, [sp, #68]
	ldr	r6, [sp, #64]
	ldr	r5, [sp, #56]
	b	.LBB38_22
.LBB38_33:
	add	r0, sp, #104
	ldrb	r1, [r0]
	movs	r0, #0
	str	r1, [sp, #88]
	cmp	r1, #1
	mov	r6, r0
	mov	r7, r0
	str	r0, [sp, #100]
	str	r0, [sp, #96]
	str	r0, [sp, #92]
	mov	r3, r0
	mov	r1, r0
	mov	r4, r0
	mov	r5, r0
	mov	r2, r0
	bne	.LBB38_35
	add	r2, sp, #104
	ldrb	r6, [r2, #8]
	ldrb	r5, [r2, #16]
	ldrb	r4, [r2, #15]
	ldrb	r1, [r2, #14]
	ldrb	r3, [r2, #13]
	ldrb	r7, [r2, #12]
	str	r7, [sp, #92]
	ldrb	r7, [r2, #11]
	str	r7, [sp, #96]
	ldrb	r7, [r2, #10]
	str	r7, [sp, #100]
	ldrb	r7, [r2, #9]
	ldr	r2, [sp, #108]
.LBB38_35:
	str	r7, [sp, #80]
	str	r6, [sp, #84]
	movs	r6, #84
	ldr	r7, [sp, #4]
	strb	r0, [r7, r6]
	movs	r6, #80
	strb	r2, [r7, r6]
	movs	r6, #76
	strb	r0, [r7, r6]
	movs	r6, #72
	strb	r5, [r7, r6]
	movs	r5, #68
	strb	r0, [r7, r5]
	movs	r5, #64
	strb	r4, [r7, r5]
	movs	r4, #60
	strb	r0, [r7, r4]
	movs	r4, #56
	strb	r1, [r7, r4]
	movs	r1, #52
	strb	r0, [r7, r1]
	movs	r1, #48
	strb	r3, [r7, r1]
	movs	r1, #44
	strb	r0, [r7, r1]
	movs	r1, #40
	ldr	r3, [sp, #92]
	strb	r3, [r7, r1]
	movs	r1, #36
	strb	r0, [r7, r1]
	movs	r1, #32
	ldr	r3, [sp, #96]
	strb	r3, [r7, r1]
	strb	r0, [r7, #31]
	strb	r0, [r7, #30]
	strb	r0, [r7, #29]
	strb	r0, [r7, #28]
	strb	r0, [r7, #27]
	strb	r0, [r7, #26]
	strb	r0, [r7, #25]
	ldr	r1, [sp, #100]
	strb	r1, [r7, #24]
	strb	r0, [r7, #23]
	strb	r0, [r7, #22]
	strb	r0, [r7, #21]
	strb	r0, [r7, #20]
	strb	r0, [r7, #19]
	strb	r0, [r7, #18]
	strb	r0, [r7, #17]
	ldr	r1, [sp, #80]
	strb	r1, [r7, #16]
	strb	r0, [r7, #15]
	strb	r0, [r7, #14]
	strb	r0, [r7, #13]
	strb	r0, [r7, #12]
	strb	r0, [r7, #11]
	strb	r0, [r7, #10]
	strb	r0, [r7, #9]
	ldr	r1, [sp, #84]
	strb	r1, [r7, #8]
	strb	r0, [r7, #7]
	strb	r0, [r7, #6]
	strb	r0, [r7, #5]
	strb	r0, [r7, #4]
	strb	r0, [r7, #3]
	strb	r0, [r7, #2]
	strb	r0, [r7, #1]
	ldr	r1, [sp, #88]
	strb	r1, [r7]
	mov	r1, r7
	adds	r1, #84
	strb	r0, [r1, #3]
	strb	r0, [r1, #2]
	strb	r0, [r1, #1]
	mov	r1, r7
	adds	r1, #80
	lsrs	r3, r2, #24
	strb	r3, [r1, #3]
	lsrs	r3, r2, #16
	strb	r3, [r1, #2]
	lsrs	r2, r2, #8
	strb	r2, [r1, #1]
	mov	r1, r7
	adds	r1, #76
	strb	r0, [r1, #3]
	strb	r0, [r1, #2]
	strb	r0, [r1, #1]
	mov	r1, r7
	adds	r1, #72
	strb	r0, [r1, #3]
	strb	r0, [r1, #2]
	strb	r0, [r1, #1]
	mov	r1, r7
	adds	r1, #68
	strb	r0, [r1, #3]
	strb	r0, [r1, #2]
	strb	r0, [r1, #1]
	mov	r1, r7
	adds	r1, #64
	strb	r0, [r1, #3]
	strb	r0, [r1, #2]
	strb	r0, [r1, #1]
	mov	r1, r7
	adds	r1, #60
	strb	r0, [r1, #3]
	strb	r0, [r1, #2]
	strb	r0, [r1, #1]
	mov	r1, r7
	adds	r1, #56
	strb	r0, [r1, #3]
	strb	r0, [r1, #2]
	strb	r0, [r1, #1]
	mov	r1, r7
	adds	r1, #52
	strb	r0, [r1, #3]
	strb	r0, [r1, #2]
	strb	r0, [r1, #1]
	mov	r1, r7
	adds	r1, #48
	strb	r0, [r1, #3]
	strb	r0, [r1, #2]
	strb	r0, [r1, #1]
	mov	r1, r7
	adds	r1, #44
	strb	r0, [r1, #3]
	strb	r0, [r1, #2]
	strb	r0, [r1, #1]
	mov	r1, r7
	adds	r1, #40
	strb	r0, [r1, #3]
	strb	r0, [r1, #2]
	strb	r0, [r1, #1]
	mov	r1, r7
	adds	r1, #36
	strb	r0, [r1, #3]
	strb	r0, [r1, #2]
	strb	r0, [r1, #1]
	adds	r7, #32
	strb	r0, [r7, #3]
	strb	r0, [r7, #2]
	strb	r0, [r7, #1]
.LBB38_36:
	add	sp, #508
	add	sp, #508
	add	sp, #460
	pop	{r4, r5, r6, r7, pc}
	.p2align	2
.LCPI38_0:
	.long	1300
.LCPI38_1:
	.long	1404
.LCPI38_2:
	.long	1460
.LCPI38_3:
	.long	1440
.LCPI38_4:
	.long	1420
.Lfunc_end38:
	.size	tlsf_pool.sizes.split.rising_split.4, .Lfunc_end38-tlsf_pool.sizes.split.rising_split.4
	.cfi_endproc
	.section	.text.tlsf_pool.sizes.region.region_words.4,"ax",%progbits
	.p2align	2
	.type	tlsf_pool.sizes.region.region_words.4,%function
	.code	16
	.thumb_func
tlsf_pool.sizes.region.region_words.4:
	.cfi_startproc
	push	{r4, r5, r6, r7, lr}
	.cfi_def_cfa_offset 20
	.cfi_offset lr, -4
	.cfi_offset r7, -8
	.cfi_offset r6, -12
	.cfi_offset r5, -16
	.cfi_offset r4, -20
	sub	sp, #28
	.cfi_def_cfa_offset 48
	movs	r5, #0
	mov	r1, r2
	orrs	r1, r3
	beq	.LBB39_12
	str	r5, [sp, #8]
	str	r2, [sp, #20]
	str	r3, [sp, #24]
	movs	r1, #0
	ldr	r4, .LCPI39_0
	mov	r5, r1
	mov	r6, r1
.LBB39_2:
	lsls	r3, r5, #3
	adds	r3, r0, r3
	ldr	r3, [r3, #4]
	cmp	r3, r4
	blo	.LBB39_3
	b	.LBB39_48
.LBB39_3:
	movs	r3, #1
	orrs	r3, r5
	ldr	r2, [sp, #20]
	subs	r7, r3, r2
	mov	r7, r6
	ldr	r2, [sp, #24]
	sbcs	r7, r2
	bhs	.LBB39_10
	lsls	r3, r3, #3
	adds	r3, r0, r3
	ldr	r3, [r3, #4]
	cmp	r3, r4
	bhs	.LBB39_13
	movs	r3, #2
	orrs	r3, r5
	ldr	r2, [sp, #20]
	subs	r7, r3, r2
	mov	r7, r6
	ldr	r2, [sp, #24]
	sbcs	r7, r2
	bhs	.LBB39_10
	lsls	r3, r3, #3
	adds	r3, r0, r3
	ldr	r3, [r3, #4]
	cmp	r3, r4
	bhs	.LBB39_13
	movs	r3, #3
	orrs	r3, r5
	ldr	r2, [sp, #20]
	subs	r7, r3, r2
	mov	r7, r6
	ldr	r2, [sp, #24]
	sbcs	r7, r2
	bhs	.LBB39_10
	lsls	r3, r3, #3
	adds	r3, r0, r3
	ldr	r3, [r3, #4]
	cmp	r3, r4
	bhs	.LBB39_13
	movs	r3, #0
	adds	r5, r5, #4
	adcs	r6, r3
	ldr	r2, [sp, #20]
	subs	r3, r5, r2
	mov	r3, r6
	ldr	r2, [sp, #24]
	sbcs	r3, r2
	blo	.LBB39_2
.LBB39_10:
	movs	r3, #3
	ldr	r2, [sp, #20]
	mov	r6, r2
	ands	r6, r3
	movs	r4, #0
	subs	r1, r2, #4
	ldr	r5, [sp, #24]
	mov	r1, r5
	sbcs	r1, r4
	str	r6, [sp, #4]
	str	r3, [sp]
	bhs	.LBB39_14
	mov	r7, r4
	mov	r1, r4
	b	.LBB39_17
.LBB39_12:
	mov	r4, r5
	mov	r7, r5
	mov	r3, r5
	b	.LBB39_53
.LBB39_13:
	movs	r1, #0
	mov	r6, r1
	b	.LBB39_69
.LBB39_14:
	bics	r2, r3
	str	r2, [sp, #12]
	str	r0, [sp, #16]
	mov	r0, r4
	mov	r5, r4
	mov	r1, r4
	mov	r7, r4
.LBB39_15:
	lsls	r3, r1, #3
	ldr	r2, [sp, #16]
	ldr	r6, [r2, r3]
	adds	r6, r0, r6
	adcs	r5, r4
	adds	r3, r2, r3
	ldr	r2, [r3, #8]
	adds	r2, r6, r2
	adcs	r5, r4
	ldr	r6, [r3, #16]
	adds	r2, r2, r6
	adcs	r5, r4
	ldr	r3, [r3, #24]
	adds	r0, r2, r3
	adcs	r5, r4
	adds	r1, r1, #4
	adcs	r7, r4
	mov	r2, r7
	ldr	r3, [sp, #24]
	eors	r2, r3
	mov	r3, r1
	ldr	r6, [sp, #12]
	eors	r3, r6
	orrs	r3, r2
	bne	.LBB39_15
	ldr	r6, [sp, #4]
	cmp	r6, #0
	mov	r4, r0
	mov	r7, r5
	ldr	r0, [sp, #16]
	ldr	r5, [sp, #24]
	beq	.LBB39_20
.LBB39_17:
	lsls	r3, r1, #3
	ldr	r2, [r0, r3]
	movs	r1, #0
	adds	r4, r4, r2
	adcs	r7, r1
	cmp	r6, #1
	beq	.LBB39_20
	adds	r3, r0, r3
	ldr	r2, [r3, #8]
	adds	r4, r4, r2
	adcs	r7, r1
	cmp	r6, #2
	beq	.LBB39_20
	ldr	r2, [r3, #16]
	adds	r4, r4, r2
	adcs	r7, r1
.LBB39_20:
	str	r4, [sp, #16]
	movs	r3, #0
	ldr	r4, [sp, #20]
	subs	r1, r4, #4
	mov	r1, r5
	sbcs	r1, r3
	mov	r6, r3
	blo	.LBB39_36
	str	r7, [sp, #12]
	ldr	r1, [sp]
	bics	r4, r1
	mov	r6, r3
	mov	r7, r3
	b	.LBB39_24
.LBB39_22:
	mov	r3, r1
.LBB39_23:
	ldr	r2, [sp, #24]
	movs	r1, #0
	adds	r6, r6, #4
	adcs	r7, r1
	mov	r1, r7
	eors	r1, r2
	mov	r2, r6
	eors	r2, r4
	orrs	r2, r1
	beq	.LBB39_35
.LBB39_24:
	lsls	r1, r6, #3
	adds	r5, r0, r1
	ldr	r1, [r0, r1]
	cmp	r1, #0
	beq	.LBB39_26
	ldr	r1, [r5, #4]
	cmp	r1, r3
	bhi	.LBB39_27
.LBB39_26:
	mov	r1, r3
.LBB39_27:
	ldr	r2, [r5, #8]
	cmp	r2, #0
	beq	.LBB39_29
	ldr	r3, [r5, #12]
	cmp	r3, r1
	bhi	.LBB39_30
.LBB39_29:
	mov	r3, r1
.LBB39_30:
	ldr	r1, [r5, #16]
	cmp	r1, #0
	beq	.LBB39_32
	ldr	r1, [r5, #20]
	cmp	r1, r3
	bhi	.LBB39_33
.LBB39_32:
	mov	r1, r3
.LBB39_33:
	ldr	r2, [r5, #24]
	cmp	r2, #0
	beq	.LBB39_22
	ldr	r3, [r5, #28]
	cmp	r3, r1
	bls	.LBB39_22
	b	.LBB39_23
.LBB39_35:
	ldr	r1, [sp, #4]
	cmp	r1, #0
	ldr	r7, [sp, #12]
	beq	.LBB39_47
.LBB39_36:
	lsls	r1, r6, #3
	adds	r2, r0, r1
	ldr	r0, [r0, r1]
	cmp	r0, #0
	beq	.LBB39_41
	ldr	r1, [r2, #4]
	cmp	r1, r3
	ldr	r4, [sp, #4]
	bhi	.LBB39_39
	mov	r1, r3
.LBB39_39:
	cmp	r4, #1
	bne	.LBB39_42
.LBB39_40:
	mov	r3, r1
	b	.LBB39_47
.LBB39_41:
	mov	r1, r3
	ldr	r4, [sp, #4]
	cmp	r4, #1
	beq	.LBB39_40
.LBB39_42:
	ldr	r0, [r2, #8]
	cmp	r0, #0
	beq	.LBB39_44
	ldr	r0, [r2, #12]
	cmp	r0, r1
	bhi	.LBB39_45
.LBB39_44:
	mov	r0, r1
.LBB39_45:
	cmp	r4, #2
	bne	.LBB39_49
	mov	r3, r0
.LBB39_47:
	ldr	r5, [sp, #8]
	ldr	r4, [sp, #16]
	b	.LBB39_53
.LBB39_48:
	mov	r6, r1
	b	.LBB39_69
.LBB39_49:
	ldr	r1, [r2, #16]
	cmp	r1, #0
	ldr	r4, [sp, #16]
	beq	.LBB39_51
	ldr	r3, [r2, #20]
	cmp	r3, r0
	bhi	.LBB39_52
.LBB39_51:
	mov	r3, r0
.LBB39_52:
	ldr	r5, [sp, #8]
.LBB39_53:
	adds	r0, r3, #1
	mov	r1, r5
	adcs	r1, r5
	cmp	r3, #0
	beq	.LBB39_55
	mov	r0, r3
.LBB39_55:
	beq	.LBB39_57
	mov	r1, r5
.LBB39_57:
	adds	r0, #31
	adcs	r1, r5
	lsrs	r0, r0, #3
	lsls	r1, r1, #29
	adds	r5, r0, r1
	movs	r0, #16
	orrs	r0, r5
	bl	__clzsi2
	movs	r1, #27
	subs	r1, r1, r0
	subs	r0, r5, #1
	lsrs	r0, r1
	adds	r0, r0, #1
	lsls	r1, r1, #4
	adds	r2, r0, r1
	lsrs	r1, r2, #4
	beq	.LBB39_59
	movs	r2, #8
	lsls	r2, r1
	movs	r3, #15
	ands	r0, r3
	subs	r1, r1, #1
	lsls	r0, r1
	adds	r2, r0, r2
.LBB39_59:
	movs	r6, #0
	mov	r0, r4
	mov	r1, r7
	mov	r3, r6
	bl	__aeabi_lmul
	mov	r2, r1
	movs	r3, #4
	cmp	r0, #4
	mov	r1, r0
	bhi	.LBB39_61
	mov	r1, r3
.LBB39_61:
	cmp	r2, #0
	mov	r4, r0
	bne	.LBB39_63
	mov	r4, r3
.LBB39_63:
	beq	.LBB39_65
	mov	r1, r4
.LBB39_65:
	ldr	r3, .LCPI39_1
	subs	r0, r0, r3
	sbcs	r2, r6
	bhs	.LBB39_67
	movs	r6, #1
.LBB39_67:
	cmp	r6, #0
	bne	.LBB39_69
	mov	r1, r6
.LBB39_69:
	mov	r0, r6
	add	sp, #28
	pop	{r4, r5, r6, r7, pc}
	.p2align	2
.LCPI39_0:
	.long	8388585
.LCPI39_1:
	.long	1048577
.Lfunc_end39:
	.size	tlsf_pool.sizes.region.region_words.4, .Lfunc_end39-tlsf_pool.sizes.region.region_words.4
	.cfi_endproc
	.section	.text.unlikely.std_alloc.vec.Vec.grow_amortized.8f83c87fc5454f35,"ax",%progbits
	.p2align	2
	.type	std_alloc.vec.Vec.grow_amortized.8f83c87fc5454f35,%function
	.code	16
	.thumb_func
std_alloc.vec.Vec.grow_amortized.8f83c87fc5454f35:
	.cfi_startproc
	push	{r4, r5, r6, r7, lr}
	.cfi_def_cfa_offset 20
	.cfi_offset lr, -4
	.cfi_offset r7, -8
	.cfi_offset r6, -12
	.cfi_offset r5, -16
	.cfi_offset r4, -20
	sub	sp, #52
	.cfi_def_cfa_offset 72
	mov	r4, r0
	ldr	r3, [r0, #8]
	ldr	r6, [r0, #12]
	movs	r5, #0
	adds	r2, r3, #1
	mov	r1, r6
	adcs	r1, r5
	mov	r0, r5
	adcs	r0, r5
	cmp	r0, #1
	beq	.LBB40_21
	str	r6, [sp, #12]
	str	r3, [sp, #16]
	ldr	r6, [r4, #16]
	ldr	r0, [r4, #20]
	lsrs	r3, r6, #31
	str	r0, [sp, #24]
	lsls	r7, r0, #1
	adds	r3, r7, r3
	lsls	r7, r6, #1
	subs	r0, r7, r2
	mov	r0, r3
	sbcs	r0, r1
	str	r2, [sp, #28]
	blo	.LBB40_3
	str	r7, [sp, #28]
.LBB40_3:
	mov	r7, r1
	blo	.LBB40_5
	mov	r7, r3
.LBB40_5:
	ldr	r0, [sp, #24]
	lsrs	r0, r0, #30
	cmp	r0, #0
	str	r7, [sp, #8]
	beq	.LBB40_7
	mov	r7, r1
.LBB40_7:
	ldr	r3, [sp, #28]
	beq	.LBB40_9
	mov	r3, r2
.LBB40_9:
	ldr	r0, .LCPI40_0
	ldr	r1, .LCPI40_1
	subs	r1, r1, r3
	sbcs	r0, r7
	blo	.LBB40_21
	str	r3, [sp, #20]
	ldr	r0, [sp, #24]
	orrs	r6, r0
	ldr	r6, .LCPI40_2
	beq	.LBB40_16
	movs	r5, #0
	ldr	r0, [sp, #16]
	ldr	r1, [sp, #12]
	mov	r2, r6
	mov	r3, r5
	bl	__aeabi_lmul
	str	r0, [sp, #28]
	str	r1, [sp, #24]
	ldr	r0, [sp, #20]
	mov	r1, r7
	mov	r2, r6
	mov	r3, r5
	bl	__aeabi_lmul
	mov	r3, r0
	mov	r0, r1
	ldr	r1, [r4]
	movs	r2, #8
	str	r2, [sp]
	mvns	r2, r5
	ldr	r6, [sp, #24]
	cmp	r6, #0
	beq	.LBB40_13
	str	r2, [sp, #28]
.LBB40_13:
	cmp	r0, #0
	beq	.LBB40_15
	mov	r3, r2
.LBB40_15:
	add	r0, sp, #32
	ldr	r2, [sp, #28]
	bl	tlsf_memory_realloc
	b	.LBB40_19
.LBB40_16:
	movs	r5, #0
	ldr	r0, [sp, #28]
	ldr	r1, [sp, #8]
	mov	r2, r6
	mov	r3, r5
	bl	__aeabi_lmul
	mov	r3, r0
	cmp	r1, #0
	beq	.LBB40_18
	mvns	r3, r5
.LBB40_18:
	add	r0, sp, #32
	movs	r2, #8
	mov	r1, r3
	bl	tlsf_memory_alloc
.LBB40_19:
	ldr	r0, [sp, #32]
	lsls	r0, r0, #31
	ldr	r1, [sp, #20]
	beq	.LBB40_21
	ldr	r0, [sp, #40]
	str	r0, [r4]
	str	r1, [r4, #16]
	str	r7, [r4, #20]
	movs	r5, #1
.LBB40_21:
	mov	r0, r5
	add	sp, #52
	pop	{r4, r5, r6, r7, pc}
	.p2align	2
.LCPI40_0:
	.long	769156
.LCPI40_1:
	.long	147677958
.LCPI40_2:
	.long	2792
.Lfunc_end40:
	.size	std_alloc.vec.Vec.grow_amortized.8f83c87fc5454f35, .Lfunc_end40-std_alloc.vec.Vec.grow_amortized.8f83c87fc5454f35
	.cfi_endproc
	.section	.text.tlsf_pool.sizes.split.rising_split.5,"ax",%progbits
	.p2align	2
	.type	tlsf_pool.sizes.split.rising_split.5,%function
	.code	16
	.thumb_func
tlsf_pool.sizes.split.rising_split.5:
	.cfi_startproc
	push	{r4, r5, r6, r7, lr}
	.cfi_def_cfa_offset 20
	.cfi_offset lr, -4
	.cfi_offset r7, -8
	.cfi_offset r6, -12
	.cfi_offset r5, -16
	.cfi_offset r4, -20
	sub	sp, #508
	sub	sp, #508
	sub	sp, #460
	.cfi_def_cfa_offset 1496
	ldr	r4, .LCPI41_1
	add	r4, sp
	str	r4, [sp, #84]
	mov	r5, r2
	str	r1, [sp, #32]
	str	r0, [sp, #4]
	movs	r1, #0
	subs	r0, r2, #2
	mov	r0, r3
	sbcs	r0, r1
	str	r3, [sp, #28]
	blo	.LBB41_11
	str	r1, [sp, #16]
	mov	r7, r5
	movs	r0, #0
	movs	r1, #1
.LBB41_2:
	lsls	r2, r1, #3
	ldr	r3, [sp, #32]
	adds	r2, r3, r2
	ldr	r3, [r2, #4]
	subs	r2, r2, #4
	ldr	r2, [r2]
	cmp	r3, r2
	bls	.LBB41_13
	movs	r2, #0
	adds	r4, r1, #1
	mov	r5, r0
	adcs	r5, r2
	subs	r6, r4, r7
	ldr	r6, [sp, #28]
	sbcs	r5, r6
	bhs	.LBB41_10
	lsls	r4, r4, #3
	ldr	r5, [sp, #32]
	adds	r4, r5, r4
	ldr	r4, [r4, #4]
	cmp	r4, r3
	bls	.LBB41_13
	adds	r3, r1, #2
	mov	r5, r0
	adcs	r5, r2
	subs	r6, r3, r7
	ldr	r6, [sp, #28]
	sbcs	r5, r6
	bhs	.LBB41_10
	lsls	r3, r3, #3
	ldr	r5, [sp, #32]
	adds	r3, r5, r3
	ldr	r3, [r3, #4]
	cmp	r3, r4
	bls	.LBB41_13
	adds	r4, r1, #3
	mov	r5, r0
	adcs	r5, r2
	subs	r6, r4, r7
	ldr	r6, [sp, #28]
	sbcs	r5, r6
	bhs	.LBB41_10
	lsls	r4, r4, #3
	ldr	r5, [sp, #32]
	adds	r4, r5, r4
	ldr	r4, [r4, #4]
	cmp	r4, r3
	bls	.LBB41_13
	adds	r1, r1, #4
	adcs	r0, r2
	subs	r2, r1, r7
	mov	r2, r0
	ldr	r3, [sp, #28]
	sbcs	r2, r3
	blo	.LBB41_2
.LBB41_10:
	add	r0, sp, #104
	movs	r1, #0
	ldr	r2, .LCPI41_0
	bl	tlsf_memory_set
	mov	r5, r7
	ldr	r6, [sp, #28]
	ldr	r7, [sp, #16]
	b	.LBB41_12
.LBB41_11:
	mov	r4, r3
	mov	r6, r3
	add	r0, sp, #104
	ldr	r2, .LCPI41_0
	mov	r7, r1
	bl	tlsf_memory_set
	orrs	r4, r5
	beq	.LBB41_14
.LBB41_12:
	movs	r4, #20
	muls	r4, r5, r4
	add	r0, sp, #104
	movs	r1, #0
	str	r1, [sp, #8]
	mov	r2, r4
	bl	tlsf_memory_set
	b	.LBB41_15
.LBB41_13:
	movs	r1, #0
	movs	r2, #88
	ldr	r0, [sp, #4]
	bl	tlsf_memory_set
	b	.LBB41_36
.LBB41_14:
	movs	r0, #1
	str	r0, [sp, #8]
	mov	r4, r7
.LBB41_15:
	add	r0, sp, #104
	movs	r1, #1
	str	r1, [sp, #64]
	str	r1, [r0, r4]
	adds	r0, r0, r4
	str	r7, [r0, #4]
	str	r7, [r0, #8]
	str	r7, [r0, #12]
	str	r7, [r0, #16]
	ldr	r0, .LCPI41_4
	add	r0, sp
	mov	r1, r0
	adds	r1, #8
	str	r1, [sp, #68]
	ldr	r1, .LCPI41_3
	add	r1, sp
	mov	r2, r1
	adds	r2, #8
	str	r2, [sp, #56]
	adds	r0, r0, #4
	str	r0, [sp, #52]
	ldr	r0, .LCPI41_2
	add	r0, sp
	adds	r0, r0, #5
	str	r0, [sp, #48]
	adds	r0, r1, #4
	mov	r1, r7
	mov	r7, r0
	mov	r2, r1
	str	r5, [sp, #24]
	str	r0, [sp, #20]
	b	.LBB41_17
.LBB41_16:
	movs	r0, #0
	ldr	r3, [sp, #16]
	adds	r1, r3, #1
	ldr	r4, [sp, #12]
	mov	r2, r4
	adcs	r2, r0
	subs	r3, r3, #7
	sbcs	r4, r0
	blo	.LBB41_17
	b	.LBB41_33
.LBB41_17:
	str	r2, [sp, #12]
	str	r1, [sp, #16]
	ldr	r0, [sp, #8]
	cmp	r0, #0
	bne	.LBB41_16
	movs	r0, #0
	mov	r3, r0
	str	r0, [sp, #88]
	mov	r1, r0
	b	.LBB41_20
.LBB41_19:
	ldr	r4, [sp, #84]
	str	r0, [r4, #40]
	ldr	r7, [sp, #20]
	ldm	r7!, {r0, r1, r2, r3}
	stm	r4!, {r0, r1, r2, r3}
	ldr	r4, [sp, #40]
	ldr	r5, [sp, #60]
	muls	r5, r4, r5
	add	r4, sp, #104
	str	r6, [r4, r5]
	adds	r4, r4, r5
	adds	r4, r4, #4
	stm	r4!, {r0, r1, r2, r3}
	ldr	r5, [sp, #24]
	ldr	r3, [sp, #36]
	subs	r7, #16
	subs	r0, r3, r5
	ldr	r1, [sp, #44]
	mov	r0, r1
	ldr	r6, [sp, #28]
	sbcs	r0, r6
	mov	r0, r1
	bhs	.LBB41_16
.LBB41_20:
	ldr	r2, [sp, #88]
	str	r2, [r7]
	str	r2, [r7, #4]
	str	r2, [r7, #8]
	str	r2, [r7, #12]
	adds	r4, r3, #1
	adcs	r1, r2
	str	r1, [sp, #44]
	subs	r1, r5, r3
	str	r1, [sp, #80]
	sbcs	r6, r0
	str	r6, [sp, #76]
	str	r3, [sp, #40]
	lsls	r0, r3, #3
	ldr	r1, [sp, #32]
	adds	r0, r1, r0
	str	r0, [sp, #72]
	movs	r0, #20
	str	r0, [sp, #60]
	str	r4, [sp, #36]
	muls	r0, r4, r0
	add	r1, sp, #104
	adds	r0, r1, r0
	str	r0, [sp, #92]
	mov	r6, r2
	mov	r0, r2
	mov	r4, r2
	mov	r7, r2
	ldr	r5, [sp, #56]
	b	.LBB41_23
.LBB41_21:
	ldr	r6, [sp, #64]
.LBB41_22:
	ldm	r1!, {r2, r3}
	ldr	r1, [r1]
	stm	r5!, {r2, r3}
	str	r1, [r5]
	ldr	r1, [sp, #80]
	subs	r5, #8
	subs	r1, r4, r1
	mov	r1, r7
	ldr	r2, [sp, #76]
	sbcs	r1, r2
	bhs	.LBB41_19
.LBB41_23:
	str	r6, [sp, #100]
	mov	r6, r4
	str	r0, [sp, #96]
	adds	r4, r4, #1
	ldr	r0, [sp, #88]
	adcs	r7, r0
	ldr	r0, [sp, #72]
	mov	r2, r4
	mov	r3, r7
	bl	tlsf_pool.sizes.region.region_words.5
	lsls	r0, r0, #31
	beq	.LBB41_30
	ldr	r0, [sp, #60]
	muls	r6, r0, r6
	ldr	r0, [sp, #92]
	ldrb	r0, [r0, r6]
	cmp	r0, #1
	bne	.LBB41_30
	ldr	r0, [sp, #92]
	adds	r0, r0, r6
	ldr	r2, [r0, #16]
	ldr	r3, [r0, #12]
	ldr	r6, [r0, #8]
	ldr	r5, [sp, #84]
	str	r6, [r5, #60]
	str	r3, [r5, #64]
	str	r2, [r5, #68]
	uxtb	r2, r6
	ldr	r3, [sp, #48]
	strb	r4, [r3, r2]
	adds	r2, r6, #1
	ldr	r3, .LCPI41_2
	add	r3, sp
	strb	r2, [r3, #4]
	ldr	r0, [r0, #4]
	adds	r0, r0, r1
	mov	r3, r5
	adds	r3, #60
	ldm	r3, {r1, r2, r3}
	ldr	r6, [sp, #52]
	stm	r6!, {r0, r1, r2, r3}
	ldr	r0, [r5, #20]
	ldr	r1, [sp, #100]
	cmp	r1, #0
	beq	.LBB41_32
	ldr	r1, [sp, #96]
	cmp	r0, r1
	ldr	r5, [sp, #56]
	blo	.LBB41_28
	mov	r0, r1
.LBB41_28:
	ldr	r1, [sp, #68]
	blo	.LBB41_21
	mov	r1, r5
	b	.LBB41_21
.LBB41_30:
	movs	r0, #0
	ldr	r1, [sp, #84]
	str	r0, [r1, #16]
	str	r0, [r1, #20]
	str	r0, [r1, #24]
	str	r0, [r1, #28]
	str	r0, [r1, #32]
	ldr	r1, [sp, #100]
	cmp	r1, #0
	ldr	r1, [sp, #68]
	mov	r6, r0
	beq	.LBB41_22
	mov	r1, r5
	ldr	r0, [sp, #96]
	b	.LBB41_21
.LBB41_32:
	ldr	r1, [sp, #68]
	ldr	r6, [sp, #64]
	ldr	r5, [sp, #56]
	b	.LBB41_22
.LBB41_33:
	add	r0, sp, #104
	ldrb	r1, [r0]
	movs	r0, #0
	str	r1, [sp, #88]
	cmp	r1, #1
	mov	r6, r0
	mov	r7, r0
	str	r0, [sp, #100]
	str	r0, [sp, #96]
	str	r0, [sp, #92]
	mov	r3, r0
	mov	r1, r0
	mov	r4, r0
	mov	r5, r0
	mov	r2, r0
	bne	.LBB41_35
	add	r2, sp, #104
	ldrb	r6, [r2, #8]
	ldrb	r5, [r2, #16]
	ldrb	r4, [r2, #15]
	ldrb	r1, [r2, #14]
	ldrb	r3, [r2, #13]
	ldrb	r7, [r2, #12]
	str	r7, [sp, #92]
	ldrb	r7, [r2, #11]
	str	r7, [sp, #96]
	ldrb	r7, [r2, #10]
	str	r7, [sp, #100]
	ldrb	r7, [r2, #9]
	ldr	r2, [sp, #108]
.LBB41_35:
	str	r7, [sp, #80]
	str	r6, [sp, #84]
	movs	r6, #84
	ldr	r7, [sp, #4]
	strb	r0, [r7, r6]
	movs	r6, #80
	strb	r2, [r7, r6]
	movs	r6, #76
	strb	r0, [r7, r6]
	movs	r6, #72
	strb	r5, [r7, r6]
	movs	r5, #68
	strb	r0, [r7, r5]
	movs	r5, #64
	strb	r4, [r7, r5]
	movs	r4, #60
	strb	r0, [r7, r4]
	movs	r4, #56
	strb	r1, [r7, r4]
	movs	r1, #52
	strb	r0, [r7, r1]
	movs	r1, #48
	strb	r3, [r7, r1]
	movs	r1, #44
	strb	r0, [r7, r1]
	movs	r1, #40
	ldr	r3, [sp, #92]
	strb	r3, [r7, r1]
	movs	r1, #36
	strb	r0, [r7, r1]
	movs	r1, #32
	ldr	r3, [sp, #96]
	strb	r3, [r7, r1]
	strb	r0, [r7, #31]
	strb	r0, [r7, #30]
	strb	r0, [r7, #29]
	strb	r0, [r7, #28]
	strb	r0, [r7, #27]
	strb	r0, [r7, #26]
	strb	r0, [r7, #25]
	ldr	r1, [sp, #100]
	strb	r1, [r7, #24]
	strb	r0, [r7, #23]
	strb	r0, [r7, #22]
	strb	r0, [r7, #21]
	strb	r0, [r7, #20]
	strb	r0, [r7, #19]
	strb	r0, [r7, #18]
	strb	r0, [r7, #17]
	ldr	r1, [sp, #80]
	strb	r1, [r7, #16]
	strb	r0, [r7, #15]
	strb	r0, [r7, #14]
	strb	r0, [r7, #13]
	strb	r0, [r7, #12]
	strb	r0, [r7, #11]
	strb	r0, [r7, #10]
	strb	r0, [r7, #9]
	ldr	r1, [sp, #84]
	strb	r1, [r7, #8]
	strb	r0, [r7, #7]
	strb	r0, [r7, #6]
	strb	r0, [r7, #5]
	strb	r0, [r7, #4]
	strb	r0, [r7, #3]
	strb	r0, [r7, #2]
	strb	r0, [r7, #1]
	ldr	r1, [sp, #88]
	strb	r1, [r7]
	mov	r1, r7
	adds	r1, #84
	strb	r0, [r1, #3]
	strb	r0, [r1, #2]
	strb	r0, [r1, #1]
	mov	r1, r7
	adds	r1, #80
	lsrs	r3, r2, #24
	strb	r3, [r1, #3]
	lsrs	r3, r2, #16
	strb	r3, [r1, #2]
	lsrs	r2, r2, #8
	strb	r2, [r1, #1]
	mov	r1, r7
	adds	r1, #76
	strb	r0, [r1, #3]
	strb	r0, [r1, #2]
	strb	r0, [r1, #1]
	mov	r1, r7
	adds	r1, #72
	strb	r0, [r1, #3]
	strb	r0, [r1, #2]
	strb	r0, [r1, #1]
	mov	r1, r7
	adds	r1, #68
	strb	r0, [r1, #3]
	strb	r0, [r1, #2]
	strb	r0, [r1, #1]
	mov	r1, r7
	adds	r1, #64
	strb	r0, [r1, #3]
	strb	r0, [r1, #2]
	strb	r0, [r1, #1]
	mov	r1, r7
	adds	r1, #60
	strb	r0, [r1, #3]
	strb	r0, [r1, #2]
	strb	r0, [r1, #1]
	mov	r1, r7
	adds	r1, #56
	strb	r0, [r1, #3]
	strb	r0, [r1, #2]
	strb	r0, [r1, #1]
	mov	r1, r7
	adds	r1, #52
	strb	r0, [r1, #3]
	strb	r0, [r1, #2]
	strb	r0, [r1, #1]
	mov	r1, r7
	adds	r1, #48
	strb	r0, [r1, #3]
	strb	r0, [r1, #2]
	strb	r0, [r1, #1]
	mov	r1, r7
	adds	r1, #44
	strb	r0, [r1, #3]
	strb	r0, [r1, #2]
	strb	r0, [r1, #1]
	mov	r1, r7
	adds	r1, #40
	strb	r0, [r1, #3]
	strb	r0, [r1, #2]
	strb	r0, [r1, #1]
	mov	r1, r7
	adds	r1, #36
	strb	r0, [r1, #3]
	strb	r0, [r1, #2]
	strb	r0, [r1, #1]
	adds	r7, #32
	strb	r0, [r7, #3]
	strb	r0, [r7, #2]
	strb	r0, [r7, #1]
.LBB41_36:
	add	sp, #508
	add	sp, #508
	add	sp, #460
	pop	{r4, r5, r6, r7, pc}
	.p2align	2
.LCPI41_0:
	.long	1300
.LCPI41_1:
	.long	1404
.LCPI41_2:
	.long	1460
.LCPI41_3:
	.long	1440
.LCPI41_4:
	.long	1420
.Lfunc_end41:
	.size	tlsf_pool.sizes.split.rising_split.5, .Lfunc_end41-tlsf_pool.sizes.split.rising_split.5
	.cfi_endproc
	.section	.text.tlsf_pool.sizes.region.region_words.5,"ax",%progbits
	.p2align	2
	.type	tlsf_pool.sizes.region.region_words.5,%function
	.code	16
	.thumb_func
tlsf_pool.sizes.region.region_words.5:
	.cfi_startproc
	push	{r4, r5, r6, r7, lr}
	.cfi_def_cfa_offset 20
	.cfi_offset lr, -4
	.cfi_offset r7, -8
	.cfi_offset r6, -12
	.cfi_offset r5, -16
	.cfi_offset r4, -20
	sub	sp, #28
	.cfi_def_cfa_offset 48
	movs	r5, #0
	mov	r1, r2
	orrs	r1, r3
	beq	.LBB42_12
	str	r5, [sp, #8]
	str	r2, [sp, #20]
	str	r3, [sp, #24]
	movs	r1, #0
	ldr	r4, .LCPI42_0
	mov	r5, r1
	mov	r6, r1
.LBB42_2:
	lsls	r3, r5, #3
	adds	r3, r0, r3
	ldr	r3, [r3, #4]
	cmp	r3, r4
	blo	.LBB42_3
	b	.LBB42_48
.LBB42_3:
	movs	r3, #1
	orrs	r3, r5
	ldr	r2, [sp, #20]
	subs	r7, r3, r2
	mov	r7, r6
	ldr	r2, [sp, #24]
	sbcs	r7, r2
	bhs	.LBB42_10
	lsls	r3, r3, #3
	adds	r3, r0, r3
	ldr	r3, [r3, #4]
	cmp	r3, r4
	bhs	.LBB42_13
	movs	r3, #2
	orrs	r3, r5
	ldr	r2, [sp, #20]
	subs	r7, r3, r2
	mov	r7, r6
	ldr	r2, [sp, #24]
	sbcs	r7, r2
	bhs	.LBB42_10
	lsls	r3, r3, #3
	adds	r3, r0, r3
	ldr	r3, [r3, #4]
	cmp	r3, r4
	bhs	.LBB42_13
	movs	r3, #3
	orrs	r3, r5
	ldr	r2, [sp, #20]
	subs	r7, r3, r2
	mov	r7, r6
	ldr	r2, [sp, #24]
	sbcs	r7, r2
	bhs	.LBB42_10
	lsls	r3, r3, #3
	adds	r3, r0, r3
	ldr	r3, [r3, #4]
	cmp	r3, r4
	bhs	.LBB42_13
	movs	r3, #0
	adds	r5, r5, #4
	adcs	r6, r3
	ldr	r2, [sp, #20]
	subs	r3, r5, r2
	mov	r3, r6
	ldr	r2, [sp, #24]
	sbcs	r3, r2
	blo	.LBB42_2
.LBB42_10:
	movs	r3, #3
	ldr	r2, [sp, #20]
	mov	r6, r2
	ands	r6, r3
	movs	r4, #0
	subs	r1, r2, #4
	ldr	r5, [sp, #24]
	mov	r1, r5
	sbcs	r1, r4
	str	r6, [sp, #4]
	str	r3, [sp]
	bhs	.LBB42_14
	mov	r7, r4
	mov	r1, r4
	b	.LBB42_17
.LBB42_12:
	mov	r4, r5
	mov	r7, r5
	mov	r3, r5
	b	.LBB42_53
.LBB42_13:
	movs	r1, #0
	mov	r6, r1
	b	.LBB42_69
.LBB42_14:
	bics	r2, r3
	str	r2, [sp, #12]
	str	r0, [sp, #16]
	mov	r0, r4
	mov	r5, r4
	mov	r1, r4
	mov	r7, r4
.LBB42_15:
	lsls	r3, r1, #3
	ldr	r2, [sp, #16]
	ldr	r6, [r2, r3]
	adds	r6, r0, r6
	adcs	r5, r4
	adds	r3, r2, r3
	ldr	r2, [r3, #8]
	adds	r2, r6, r2
	adcs	r5, r4
	ldr	r6, [r3, #16]
	adds	r2, r2, r6
	adcs	r5, r4
	ldr	r3, [r3, #24]
	adds	r0, r2, r3
	adcs	r5, r4
	adds	r1, r1, #4
	adcs	r7, r4
	mov	r2, r7
	ldr	r3, [sp, #24]
	eors	r2, r3
	mov	r3, r1
	ldr	r6, [sp, #12]
	eors	r3, r6
	orrs	r3, r2
	bne	.LBB42_15
	ldr	r6, [sp, #4]
	cmp	r6, #0
	mov	r4, r0
	mov	r7, r5
	ldr	r0, [sp, #16]
	ldr	r5, [sp, #24]
	beq	.LBB42_20
.LBB42_17:
	lsls	r3, r1, #3
	ldr	r2, [r0, r3]
	movs	r1, #0
	adds	r4, r4, r2
	adcs	r7, r1
	cmp	r6, #1
	beq	.LBB42_20
	adds	r3, r0, r3
	ldr	r2, [r3, #8]
	adds	r4, r4, r2
	adcs	r7, r1
	cmp	r6, #2
	beq	.LBB42_20
	ldr	r2, [r3, #16]
	adds	r4, r4, r2
	adcs	r7, r1
.LBB42_20:
	str	r4, [sp, #16]
	movs	r3, #0
	ldr	r4, [sp, #20]
	subs	r1, r4, #4
	mov	r1, r5
	sbcs	r1, r3
	mov	r6, r3
	blo	.LBB42_36
	str	r7, [sp, #12]
	ldr	r1, [sp]
	bics	r4, r1
	mov	r6, r3
	mov	r7, r3
	b	.LBB42_24
.LBB42_22:
	mov	r3, r1
.LBB42_23:
	ldr	r2, [sp, #24]
	movs	r1, #0
	adds	r6, r6, #4
	adcs	r7, r1
	mov	r1, r7
	eors	r1, r2
	mov	r2, r6
	eors	r2, r4
	orrs	r2, r1
	beq	.LBB42_35
.LBB42_24:
	lsls	r1, r6, #3
	adds	r5, r0, r1
	ldr	r1, [r0, r1]
	cmp	r1, #0
	beq	.LBB42_26
	ldr	r1, [r5, #4]
	cmp	r1, r3
	bhi	.LBB42_27
.LBB42_26:
	mov	r1, r3
.LBB42_27:
	ldr	r2, [r5, #8]
	cmp	r2, #0
	beq	.LBB42_29
	ldr	r3, [r5, #12]
	cmp	r3, r1
	bhi	.LBB42_30
.LBB42_29:
	mov	r3, r1
.LBB42_30:
	ldr	r1, [r5, #16]
	cmp	r1, #0
	beq	.LBB42_32
	ldr	r1, [r5, #20]
	cmp	r1, r3
	bhi	.LBB42_33
.LBB42_32:
	mov	r1, r3
.LBB42_33:
	ldr	r2, [r5, #24]
	cmp	r2, #0
	beq	.LBB42_22
	ldr	r3, [r5, #28]
	cmp	r3, r1
	bls	.LBB42_22
	b	.LBB42_23
.LBB42_35:
	ldr	r1, [sp, #4]
	cmp	r1, #0
	ldr	r7, [sp, #12]
	beq	.LBB42_47
.LBB42_36:
	lsls	r1, r6, #3
	adds	r2, r0, r1
	ldr	r0, [r0, r1]
	cmp	r0, #0
	beq	.LBB42_41
	ldr	r1, [r2, #4]
	cmp	r1, r3
	ldr	r4, [sp, #4]
	bhi	.LBB42_39
	mov	r1, r3
.LBB42_39:
	cmp	r4, #1
	bne	.LBB42_42
.LBB42_40:
	mov	r3, r1
	b	.LBB42_47
.LBB42_41:
	mov	r1, r3
	ldr	r4, [sp, #4]
	cmp	r4, #1
	beq	.LBB42_40
.LBB42_42:
	ldr	r0, [r2, #8]
	cmp	r0, #0
	beq	.LBB42_44
	ldr	r0, [r2, #12]
	cmp	r0, r1
	bhi	.LBB42_45
.LBB42_44:
	mov	r0, r1
.LBB42_45:
	cmp	r4, #2
	bne	.LBB42_49
	mov	r3, r0
.LBB42_47:
	ldr	r5, [sp, #8]
	ldr	r4, [sp, #16]
	b	.LBB42_53
.LBB42_48:
	mov	r6, r1
	b	.LBB42_69
.LBB42_49:
	ldr	r1, [r2, #16]
	cmp	r1, #0
	ldr	r4, [sp, #16]
	beq	.LBB42_51
	ldr	r3, [r2, #20]
	cmp	r3, r0
	bhi	.LBB42_52
.LBB42_51:
	mov	r3, r0
.LBB42_52:
	ldr	r5, [sp, #8]
.LBB42_53:
	adds	r0, r3, #1
	mov	r1, r5
	adcs	r1, r5
	cmp	r3, #0
	beq	.LBB42_55
	mov	r0, r3
.LBB42_55:
	beq	.LBB42_57
	mov	r1, r5
.LBB42_57:
	adds	r0, #31
	adcs	r1, r5
	lsrs	r0, r0, #3
	lsls	r1, r1, #29
	adds	r5, r0, r1
	movs	r0, #32
	orrs	r0, r5
	bl	__clzsi2
	movs	r1, #26
	subs	r1, r1, r0
	subs	r0, r5, #1
	lsrs	r0, r1
	adds	r0, r0, #1
	lsls	r1, r1, #5
	adds	r2, r0, r1
	lsrs	r1, r2, #5
	beq	.LBB42_59
	movs	r2, #16
	lsls	r2, r1
	movs	r3, #31
	ands	r0, r3
	subs	r1, r1, #1
	lsls	r0, r1
	adds	r2, r0, r2
.LBB42_59:
	movs	r6, #0
	mov	r0, r4
	mov	r1, r7
	mov	r3, r6
	bl	__aeabi_lmul
	mov	r2, r1
	movs	r3, #4
	cmp	r0, #4
	mov	r1, r0
	bhi	.LBB42_61
	mov	r1, r3
.LBB42_61:
	cmp	r2, #0
	mov	r4, r0
	bne	.LBB42_63
	mov	r4, r3
.LBB42_63:
	beq	.LBB42_65
	mov	r1, r4
.LBB42_65:
	ldr	r3, .LCPI42_1
	subs	r0, r0, r3
	sbcs	r2, r6
	bhs	.LBB42_67
	movs	r6, #1
.LBB42_67:
	cmp	r6, #0
	bne	.LBB42_69
	mov	r1, r6
.LBB42_69:
	mov	r0, r6
	add	sp, #28
	pop	{r4, r5, r6, r7, pc}
	.p2align	2
.LCPI42_0:
	.long	134217705
.LCPI42_1:
	.long	16777217
.Lfunc_end42:
	.size	tlsf_pool.sizes.region.region_words.5, .Lfunc_end42-tlsf_pool.sizes.region.region_words.5
	.cfi_endproc
	.section	.text.unlikely.std_alloc.vec.Vec.grow_amortized.cb831ce0f1fbfa3d,"ax",%progbits
	.p2align	2
	.type	std_alloc.vec.Vec.grow_amortized.cb831ce0f1fbfa3d,%function
	.code	16
	.thumb_func
std_alloc.vec.Vec.grow_amortized.cb831ce0f1fbfa3d:
	.cfi_startproc
	push	{r4, r5, r6, r7, lr}
	.cfi_def_cfa_offset 20
	.cfi_offset lr, -4
	.cfi_offset r7, -8
	.cfi_offset r6, -12
	.cfi_offset r5, -16
	.cfi_offset r4, -20
	sub	sp, #52
	.cfi_def_cfa_offset 72
	mov	r4, r0
	ldr	r3, [r0, #8]
	ldr	r6, [r0, #12]
	movs	r5, #0
	adds	r2, r3, #1
	mov	r1, r6
	adcs	r1, r5
	mov	r0, r5
	adcs	r0, r5
	cmp	r0, #1
	beq	.LBB43_21
	str	r6, [sp, #12]
	str	r3, [sp, #16]
	ldr	r6, [r4, #16]
	ldr	r0, [r4, #20]
	lsrs	r3, r6, #31
	str	r0, [sp, #24]
	lsls	r7, r0, #1
	adds	r3, r7, r3
	lsls	r7, r6, #1
	subs	r0, r7, r2
	mov	r0, r3
	sbcs	r0, r1
	str	r2, [sp, #28]
	blo	.LBB43_3
	str	r7, [sp, #28]
.LBB43_3:
	mov	r7, r1
	blo	.LBB43_5
	mov	r7, r3
.LBB43_5:
	ldr	r0, [sp, #24]
	lsrs	r0, r0, #30
	cmp	r0, #0
	str	r7, [sp, #8]
	beq	.LBB43_7
	mov	r7, r1
.LBB43_7:
	ldr	r3, [sp, #28]
	beq	.LBB43_9
	mov	r3, r2
.LBB43_9:
	ldr	r0, .LCPI43_0
	ldr	r1, .LCPI43_1
	subs	r1, r1, r3
	sbcs	r0, r7
	blo	.LBB43_21
	str	r3, [sp, #20]
	ldr	r0, [sp, #24]
	orrs	r6, r0
	ldr	r6, .LCPI43_2
	beq	.LBB43_16
	movs	r5, #0
	ldr	r0, [sp, #16]
	ldr	r1, [sp, #12]
	mov	r2, r6
	mov	r3, r5
	bl	__aeabi_lmul
	str	r0, [sp, #28]
	str	r1, [sp, #24]
	ldr	r0, [sp, #20]
	mov	r1, r7
	mov	r2, r6
	mov	r3, r5
	bl	__aeabi_lmul
	mov	r3, r0
	mov	r0, r1
	ldr	r1, [r4]
	movs	r2, #8
	str	r2, [sp]
	mvns	r2, r5
	ldr	r6, [sp, #24]
	cmp	r6, #0
	beq	.LBB43_13
	str	r2, [sp, #28]
.LBB43_13:
	cmp	r0, #0
	beq	.LBB43_15
	mov	r3, r2
.LBB43_15:
	add	r0, sp, #32
	ldr	r2, [sp, #28]
	bl	tlsf_memory_realloc
	b	.LBB43_19
.LBB43_16:
	movs	r5, #0
	ldr	r0, [sp, #28]
	ldr	r1, [sp, #8]
	mov	r2, r6
	mov	r3, r5
	bl	__aeabi_lmul
	mov	r3, r0
	cmp	r1, #0
	beq	.LBB43_18
	mvns	r3, r5
.LBB43_18:
	add	r0, sp, #32
	movs	r2, #8
	mov	r1, r3
	bl	tlsf_memory_alloc
.LBB43_19:
	ldr	r0, [sp, #32]
	lsls	r0, r0, #31
	ldr	r1, [sp, #20]
	beq	.LBB43_21
	ldr	r0, [sp, #40]
	str	r0, [r4]
	str	r1, [r4, #16]
	str	r7, [r4, #20]
	movs	r5, #1
.LBB43_21:
	mov	r0, r5
	add	sp, #52
	pop	{r4, r5, r6, r7, pc}
	.p2align	2
.LCPI43_0:
	.long	769156
.LCPI43_1:
	.long	147677958
.LCPI43_2:
	.long	2792
.Lfunc_end43:
	.size	std_alloc.vec.Vec.grow_amortized.cb831ce0f1fbfa3d, .Lfunc_end43-std_alloc.vec.Vec.grow_amortized.cb831ce0f1fbfa3d
	.cfi_endproc
	.section	.text.tlsf_heap.region.Region.read.4,"ax",%progbits
	.p2align	1
	.type	tlsf_heap.region.Region.read.4,%function
	.code	16
	.thumb_func
tlsf_heap.region.Region.read.4:
	.cfi_startproc
	push	{r4, r5, r6, r7, lr}
	.cfi_def_cfa_offset 20
	.cfi_offset lr, -4
	.cfi_offset r7, -8
	.cfi_offset r6, -12
	.cfi_offset r5, -16
	.cfi_offset r4, -20
	sub	sp, #28
	.cfi_def_cfa_offset 48
	mov	r4, r2
	lsrs	r5, r1, #29
	lsls	r1, r1, #3
	movs	r6, #0
	adds	r2, r1, r2
	adcs	r5, r6
	adds	r2, #24
	adcs	r5, r6
	ldr	r7, [sp, #48]
	orrs	r4, r7
	lsls	r1, r4, #29
	ldr	r1, [sp, #52]
	beq	.LBB44_3
	movs	r4, #7
	subs	r4, r4, r7
	sbcs	r6, r1
	bhs	.LBB44_2
	b	.LBB44_10
.LBB44_2:
	str	r3, [sp]
	str	r7, [sp, #8]
	str	r1, [sp, #12]
	mov	r3, r5
	bl	tlsf_words.words.Words.read_few
	add	sp, #28
	pop	{r4, r5, r6, r7, pc}
.LBB44_3:
	movs	r4, #7
	bics	r2, r4
	ldr	r0, [r0]
	adds	r5, r0, r2
	lsrs	r2, r7, #3
	lsls	r4, r1, #29
	adds	r2, r2, r4
	movs	r4, #63
	subs	r4, r4, r7
	mov	r4, r6
	sbcs	r4, r1
	bhs	.LBB44_4
	b	.LBB44_12
.LBB44_4:
	lsls	r4, r7, #28
	str	r5, [sp, #24]
	bpl	.LBB44_6
	lsls	r4, r2, #3
	subs	r4, #8
	ldr	r0, [sp, #24]
	adds	r5, r0, r4
	ldr	r0, [r5, #4]
	str	r2, [sp, #20]
	ldr	r2, [sp, #24]
	ldr	r2, [r2, r4]
	strb	r2, [r3, r4]
	adds	r4, r3, r4
	strb	r0, [r4, #4]
	lsrs	r5, r2, #24
	strb	r5, [r4, #3]
	lsrs	r5, r2, #16
	strb	r5, [r4, #2]
	ldr	r5, [sp, #24]
	lsrs	r2, r2, #8
	strb	r2, [r4, #1]
	lsrs	r2, r0, #24
	strb	r2, [r4, #7]
	lsrs	r2, r0, #16
	strb	r2, [r4, #6]
	ldr	r2, [sp, #20]
	lsrs	r0, r0, #8
	strb	r0, [r4, #5]
.LBB44_6:
	lsls	r0, r7, #27
	bpl	.LBB44_8
	lsls	r0, r2, #3
	movs	r2, #32
	ands	r2, r0
	adds	r0, r5, r2
	ldr	r0, [r0, #4]
	str	r0, [sp, #20]
	ldr	r4, [r5, r2]
	strb	r4, [r3, r2]
	adds	r5, r3, r2
	strb	r0, [r5, #4]
	lsrs	r0, r4, #24
	strb	r0, [r5, #3]
	lsrs	r0, r4, #16
	strb	r0, [r5, #2]
	lsrs	r0, r4, #8
	strb	r0, [r5, #1]
	ldr	r4, [sp, #20]
	lsrs	r0, r4, #24
	strb	r0, [r5, #7]
	lsrs	r0, r4, #16
	strb	r0, [r5, #6]
	lsrs	r0, r4, #8
	strb	r0, [r5, #5]
	adds	r2, #8
	ldr	r0, [sp, #24]
	adds	r0, r0, r2
	ldr	r0, [r0, #4]
	ldr	r4, [sp, #24]
	ldr	r4, [r4, r2]
	strb	r4, [r3, r2]
	adds	r2, r3, r2
	strb	r0, [r2, #4]
	lsrs	r5, r0, #24
	strb	r5, [r2, #7]
	lsrs	r5, r0, #16
	strb	r5, [r2, #6]
	ldr	r5, [sp, #24]
	lsrs	r0, r0, #8
	strb	r0, [r2, #5]
	lsrs	r0, r4, #24
	strb	r0, [r2, #3]
	lsrs	r0, r4, #16
	strb	r0, [r2, #2]
	lsrs	r0, r4, #8
	strb	r0, [r2, #1]
.LBB44_8:
	subs	r7, #25
	sbcs	r1, r6
	blo	.LBB44_11
	ldm	r5!, {r0, r1}
	strb	r1, [r3, #4]
	strb	r0, [r3]
	lsrs	r2, r1, #24
	strb	r2, [r3, #7]
	lsrs	r2, r1, #16
	strb	r2, [r3, #6]
	lsrs	r1, r1, #8
	strb	r1, [r3, #5]
	lsrs	r1, r0, #24
	strb	r1, [r3, #3]
	lsrs	r1, r0, #16
	strb	r1, [r3, #2]
	lsrs	r0, r0, #8
	strb	r0, [r3, #1]
	ldr	r0, [r5]
	ldr	r1, [r5, #4]
	strb	r1, [r3, #12]
	strb	r0, [r3, #8]
	lsrs	r2, r1, #24
	strb	r2, [r3, #15]
	lsrs	r2, r1, #16
	strb	r2, [r3, #14]
	lsrs	r1, r1, #8
	strb	r1, [r3, #13]
	lsrs	r1, r0, #24
	strb	r1, [r3, #11]
	lsrs	r1, r0, #16
	strb	r1, [r3, #10]
	lsrs	r0, r0, #8
	strb	r0, [r3, #9]
	ldr	r0, [r5, #8]
	ldr	r1, [r5, #12]
	strb	r1, [r3, #20]
	strb	r0, [r3, #16]
	lsrs	r2, r1, #24
	strb	r2, [r3, #23]
	lsrs	r2, r1, #16
	strb	r2, [r3, #22]
	lsrs	r1, r1, #8
	strb	r1, [r3, #21]
	lsrs	r1, r0, #24
	strb	r1, [r3, #19]
	lsrs	r1, r0, #16
	strb	r1, [r3, #18]
	lsrs	r0, r0, #8
	strb	r0, [r3, #17]
	ldr	r0, [r5, #16]
	ldr	r1, [r5, #20]
	strb	r1, [r3, #28]
	strb	r0, [r3, #24]
	lsrs	r2, r1, #24
	strb	r2, [r3, #31]
	lsrs	r2, r1, #16
	strb	r2, [r3, #30]
	lsrs	r1, r1, #8
	strb	r1, [r3, #29]
	lsrs	r1, r0, #24
	strb	r1, [r3, #27]
	lsrs	r1, r0, #16
	strb	r1, [r3, #26]
	lsrs	r0, r0, #8
	strb	r0, [r3, #25]
	add	sp, #28
	pop	{r4, r5, r6, r7, pc}
.LBB44_10:
	str	r3, [sp]
	str	r7, [sp, #8]
	str	r1, [sp, #12]
	mov	r3, r5
	bl	tlsf_words.words.Words.read_run
.LBB44_11:
	add	sp, #28
	pop	{r4, r5, r6, r7, pc}
.LBB44_12:
	lsrs	r1, r1, #3
	str	r3, [sp]
	mov	r0, r5
	mov	r3, r1
	bl	tlsf_words.cells.unpack_many
	add	sp, #28
	pop	{r4, r5, r6, r7, pc}
.Lfunc_end44:
	.size	tlsf_heap.region.Region.read.4, .Lfunc_end44-tlsf_heap.region.Region.read.4
	.cfi_endproc
	.section	.text.tlsf_words.cells.unpack_many,"ax",%progbits
	.p2align	1
	.type	tlsf_words.cells.unpack_many,%function
	.code	16
	.thumb_func
tlsf_words.cells.unpack_many:
	.cfi_startproc
	push	{r4, r5, r6, r7, lr}
	.cfi_def_cfa_offset 20
	.cfi_offset lr, -4
	.cfi_offset r7, -8
	.cfi_offset r6, -12
	.cfi_offset r5, -16
	.cfi_offset r4, -20
	sub	sp, #44
	.cfi_def_cfa_offset 64
	mov	r6, r2
	movs	r4, #3
	mov	r1, r2
	bics	r1, r4
	lsls	r5, r1, #3
	adds	r2, r0, r5
	str	r2, [sp, #12]
	ldr	r4, [sp, #64]
	adds	r5, r4, r5
	lsls	r7, r6, #31
	beq	.LBB45_2
	lsls	r7, r6, #30
	lsrs	r7, r7, #27
	subs	r7, #8
	ldr	r2, [sp, #12]
	str	r6, [sp]
	adds	r6, r2, r7
	ldr	r6, [r6, #4]
	str	r6, [sp, #4]
	ldr	r2, [r2, r7]
	strb	r2, [r5, r7]
	adds	r7, r5, r7
	strb	r6, [r7, #4]
	lsrs	r6, r2, #24
	strb	r6, [r7, #3]
	lsrs	r6, r2, #16
	strb	r6, [r7, #2]
	ldr	r6, [sp]
	lsrs	r2, r2, #8
	strb	r2, [r7, #1]
	ldr	r2, [sp, #4]
	lsrs	r2, r2, #24
	strb	r2, [r7, #7]
	ldr	r2, [sp, #4]
	lsrs	r2, r2, #16
	strb	r2, [r7, #6]
	ldr	r2, [sp, #4]
	lsrs	r2, r2, #8
	strb	r2, [r7, #5]
.LBB45_2:
	str	r1, [sp]
	lsls	r2, r6, #30
	bpl	.LBB45_4
	ldr	r1, [sp, #12]
	ldm	r1!, {r2, r6}
	strb	r6, [r5, #4]
	strb	r2, [r5]
	lsrs	r7, r6, #24
	strb	r7, [r5, #7]
	lsrs	r7, r6, #16
	strb	r7, [r5, #6]
	lsrs	r6, r6, #8
	strb	r6, [r5, #5]
	lsrs	r6, r2, #24
	strb	r6, [r5, #3]
	lsrs	r6, r2, #16
	strb	r6, [r5, #2]
	lsrs	r2, r2, #8
	strb	r2, [r5, #1]
	ldr	r2, [r1]
	ldr	r6, [r1, #4]
	strb	r6, [r5, #12]
	strb	r2, [r5, #8]
	lsrs	r7, r6, #24
	strb	r7, [r5, #15]
	lsrs	r7, r6, #16
	strb	r7, [r5, #14]
	lsrs	r6, r6, #8
	strb	r6, [r5, #13]
	lsrs	r6, r2, #24
	strb	r6, [r5, #11]
	lsrs	r6, r2, #16
	strb	r6, [r5, #10]
	lsrs	r2, r2, #8
	strb	r2, [r5, #9]
.LBB45_4:
	movs	r2, #0
	mov	r5, r2
	str	r2, [sp, #4]
	str	r3, [sp, #8]
.LBB45_5:
	str	r2, [sp, #12]
	lsls	r7, r5, #3
	adds	r1, r0, r7
	ldr	r1, [r1, #4]
	ldr	r3, [r0, r7]
	strb	r3, [r4, r7]
	adds	r2, r4, r7
	strb	r1, [r2, #4]
	mov	r6, r4
	lsrs	r4, r3, #24
	strb	r4, [r2, #3]
	lsrs	r4, r3, #16
	strb	r4, [r2, #2]
	lsrs	r3, r3, #8
	strb	r3, [r2, #1]
	lsrs	r3, r1, #24
	strb	r3, [r2, #7]
	lsrs	r3, r1, #16
	strb	r3, [r2, #6]
	lsrs	r1, r1, #8
	strb	r1, [r2, #5]
	movs	r1, #8
	orrs	r1, r7
	adds	r2, r0, r1
	ldr	r2, [r2, #4]
	ldr	r3, [r0, r1]
	strb	r3, [r6, r1]
	adds	r1, r6, r1
	strb	r2, [r1, #4]
	lsrs	r4, r2, #24
	strb	r4, [r1, #7]
	lsrs	r4, r2, #16
	strb	r4, [r1, #6]
	lsrs	r2, r2, #8
	strb	r2, [r1, #5]
	lsrs	r2, r3, #24
	strb	r2, [r1, #3]
	lsrs	r2, r3, #16
	strb	r2, [r1, #2]
	lsrs	r2, r3, #8
	strb	r2, [r1, #1]
	movs	r1, #16
	orrs	r1, r7
	adds	r2, r0, r1
	ldr	r2, [r2, #4]
	ldr	r3, [r0, r1]
	strb	r3, [r6, r1]
	adds	r1, r6, r1
	strb	r2, [r1, #4]
	lsrs	r4, r2, #24
	strb	r4, [r1, #7]
	lsrs	r4, r2, #16
	strb	r4, [r1, #6]
	lsrs	r2, r2, #8
	strb	r2, [r1, #5]
	lsrs	r2, r3, #24
	strb	r2, [r1, #3]
	lsrs	r2, r3, #16
	strb	r2, [r1, #2]
	lsrs	r2, r3, #8
	strb	r2, [r1, #1]
	movs	r1, #24
	orrs	r1, r7
	adds	r2, r0, r1
	ldr	r2, [r2, #4]
	ldr	r3, [r0, r1]
	strb	r3, [r6, r1]
	adds	r1, r6, r1
	strb	r2, [r1, #4]
	lsrs	r4, r2, #24
	strb	r4, [r1, #7]
	lsrs	r4, r2, #16
	strb	r4, [r1, #6]
	mov	r4, r6
	lsrs	r2, r2, #8
	strb	r2, [r1, #5]
	lsrs	r2, r3, #24
	strb	r2, [r1, #3]
	lsrs	r2, r3, #16
	strb	r2, [r1, #2]
	lsrs	r2, r3, #8
	ldr	r3, [sp, #8]
	strb	r2, [r1, #1]
	ldr	r2, [sp, #12]
	adds	r5, r5, #4
	ldr	r1, [sp, #4]
	adcs	r2, r1
	ldr	r1, [sp]
	subs	r1, r5, r1
	mov	r1, r2
	sbcs	r1, r3
	blo	.LBB45_5
	add	sp, #44
	pop	{r4, r5, r6, r7, pc}
.Lfunc_end45:
	.size	tlsf_words.cells.unpack_many, .Lfunc_end45-tlsf_words.cells.unpack_many
	.cfi_endproc
	.section	.text.tlsf_words.words.Words.read_few,"ax",%progbits
	.p2align	1
	.type	tlsf_words.words.Words.read_few,%function
	.code	16
	.thumb_func
tlsf_words.words.Words.read_few:
	.cfi_startproc
	push	{r4, r5, r6, r7, lr}
	.cfi_def_cfa_offset 20
	.cfi_offset lr, -4
	.cfi_offset r7, -8
	.cfi_offset r6, -12
	.cfi_offset r5, -16
	.cfi_offset r4, -20
	sub	sp, #28
	.cfi_def_cfa_offset 48
	str	r0, [sp, #8]
	movs	r0, #7
	ands	r0, r2
	movs	r1, #8
	subs	r5, r1, r0
	ldr	r4, [sp, #60]
	movs	r6, #0
	ldr	r7, [sp, #56]
	subs	r1, r5, r7
	mov	r1, r6
	sbcs	r1, r4
	str	r5, [sp, #12]
	blo	.LBB46_2
	str	r7, [sp, #12]
.LBB46_2:
	lsls	r1, r3, #29
	lsrs	r2, r2, #3
	adds	r3, r2, r1
	mov	r1, r7
	orrs	r1, r4
	ldr	r2, [sp, #48]
	beq	.LBB46_4
	lsls	r1, r3, #3
	str	r2, [sp, #4]
	ldr	r2, [sp, #8]
	ldr	r2, [r2]
	str	r3, [sp]
	ldr	r3, [r2, r1]
	str	r3, [sp, #16]
	adds	r1, r2, r1
	ldr	r1, [r1, #4]
	str	r1, [sp, #20]
	add	r1, sp, #16
	adds	r1, r1, r0
	ldr	r0, [sp, #4]
	ldr	r2, [sp, #12]
	bl	tlsf_memory_cpy
	ldr	r2, [sp, #4]
	ldr	r3, [sp]
.LBB46_4:
	subs	r0, r5, r7
	sbcs	r6, r4
	bhs	.LBB46_6
	lsls	r0, r3, #3
	ldr	r1, [sp, #8]
	ldr	r1, [r1]
	adds	r0, r1, r0
	ldr	r1, [r0, #8]
	ldr	r0, [r0, #12]
	str	r0, [sp, #20]
	str	r1, [sp, #16]
	ldr	r1, [sp, #12]
	adds	r0, r2, r1
	subs	r2, r7, r1
	add	r1, sp, #16
	bl	tlsf_memory_cpy
.LBB46_6:
	add	sp, #28
	pop	{r4, r5, r6, r7, pc}
.Lfunc_end46:
	.size	tlsf_words.words.Words.read_few, .Lfunc_end46-tlsf_words.words.Words.read_few
	.cfi_endproc
	.section	.text.tlsf_words.words.Words.read_run,"ax",%progbits
	.p2align	1
	.type	tlsf_words.words.Words.read_run,%function
	.code	16
	.thumb_func
tlsf_words.words.Words.read_run:
	.cfi_startproc
	push	{r4, r5, r6, r7, lr}
	.cfi_def_cfa_offset 20
	.cfi_offset lr, -4
	.cfi_offset r7, -8
	.cfi_offset r6, -12
	.cfi_offset r5, -16
	.cfi_offset r4, -20
	sub	sp, #44
	.cfi_def_cfa_offset 64
	str	r0, [sp, #40]
	movs	r1, #0
	adds	r0, r2, #7
	adcs	r3, r1
	lsls	r3, r3, #29
	str	r3, [sp, #28]
	lsrs	r0, r0, #3
	str	r0, [sp, #16]
	rsbs	r7, r2, #0
	movs	r0, #7
	ands	r7, r0
	ldr	r5, [sp, #76]
	ldr	r6, [sp, #72]
	subs	r4, r6, r7
	mov	r3, r5
	str	r1, [sp, #36]
	sbcs	r3, r1
	mov	r1, r4
	bics	r1, r0
	str	r7, [sp, #20]
	adds	r7, r1, r7
	str	r4, [sp, #32]
	lsrs	r1, r4, #3
	str	r1, [sp, #12]
	str	r3, [sp, #24]
	lsls	r1, r3, #29
	str	r1, [sp, #8]
	mov	r3, r2
	ands	r3, r0
	ldr	r4, [sp, #64]
	beq	.LBB47_2
	bics	r2, r0
	ldr	r0, [sp, #40]
	ldr	r1, [r0]
	ldr	r0, [r1, r2]
	adds	r1, r1, r2
	ldr	r1, [r1, #4]
	lsls	r2, r3, #3
	bl	__aeabi_llsr
	strb	r1, [r4, #4]
	strb	r0, [r4]
	lsrs	r2, r1, #24
	strb	r2, [r4, #7]
	lsrs	r2, r1, #16
	strb	r2, [r4, #6]
	lsrs	r1, r1, #8
	strb	r1, [r4, #5]
	lsrs	r1, r0, #24
	strb	r1, [r4, #3]
	lsrs	r1, r0, #16
	strb	r1, [r4, #2]
	lsrs	r0, r0, #8
	strb	r0, [r4, #1]
.LBB47_2:
	ldr	r0, [sp, #28]
	ldr	r1, [sp, #16]
	adds	r2, r1, r0
	ldr	r0, [sp, #12]
	ldr	r1, [sp, #8]
	adds	r0, r0, r1
	str	r0, [sp, #28]
	mov	r0, r7
	eors	r0, r6
	orrs	r0, r5
	beq	.LBB47_4
	mov	r3, r7
	adds	r5, r4, r6
	subs	r5, #8
	ldrb	r0, [r5, #4]
	ldrb	r1, [r5, #5]
	lsls	r1, r1, #8
	adds	r0, r1, r0
	ldrb	r1, [r5, #6]
	lsls	r1, r1, #16
	str	r2, [sp, #16]
	ldrb	r2, [r5, #7]
	lsls	r2, r2, #24
	adds	r1, r2, r1
	adds	r7, r1, r0
	subs	r0, r3, r6
	lsls	r6, r0, #3
	adds	r6, #64
	ldr	r0, [sp, #36]
	mvns	r0, r0
	mov	r1, r0
	mov	r2, r6
	bl	__aeabi_llsl
	bics	r7, r1
	str	r7, [sp, #12]
	ldrb	r1, [r5]
	ldrb	r2, [r5, #1]
	lsls	r2, r2, #8
	adds	r1, r2, r1
	ldrb	r2, [r5, #2]
	lsls	r2, r2, #16
	ldrb	r3, [r5, #3]
	lsls	r3, r3, #24
	adds	r2, r3, r2
	adds	r7, r2, r1
	bics	r7, r0
	ldr	r0, [sp, #28]
	ldr	r1, [sp, #16]
	adds	r0, r0, r1
	lsls	r1, r0, #3
	ldr	r0, [sp, #40]
	ldr	r2, [r0]
	ldr	r0, [r2, r1]
	adds	r1, r2, r1
	ldr	r1, [r1, #4]
	mov	r2, r6
	bl	__aeabi_llsl
	adds	r0, r7, r0
	strb	r0, [r5]
	ldr	r2, [sp, #12]
	adcs	r1, r2
	lsrs	r2, r0, #8
	strb	r2, [r5, #1]
	lsrs	r2, r0, #24
	strb	r2, [r5, #3]
	ldr	r2, [sp, #16]
	lsrs	r0, r0, #16
	strb	r0, [r5, #2]
	strb	r1, [r5, #4]
	lsrs	r0, r1, #16
	strb	r0, [r5, #6]
	lsrs	r0, r1, #24
	strb	r0, [r5, #7]
	lsrs	r0, r1, #8
	strb	r0, [r5, #5]
.LBB47_4:
	ldr	r0, [sp, #20]
	adds	r1, r4, r0
	lsls	r0, r2, #3
	ldr	r2, [sp, #40]
	ldr	r2, [r2]
	adds	r0, r2, r0
	movs	r2, #63
	ldr	r3, [sp, #32]
	subs	r2, r2, r3
	ldr	r2, [sp, #36]
	ldr	r6, [sp, #24]
	sbcs	r2, r6
	bhs	.LBB47_5
	b	.LBB47_11
.LBB47_5:
	lsls	r2, r3, #28
	bpl	.LBB47_7
	ldr	r2, [sp, #28]
	lsls	r2, r2, #3
	subs	r2, #8
	adds	r3, r0, r2
	ldr	r3, [r3, #4]
	ldr	r4, [r0, r2]
	strb	r4, [r1, r2]
	adds	r2, r1, r2
	strb	r3, [r2, #4]
	lsrs	r5, r4, #24
	strb	r5, [r2, #3]
	lsrs	r5, r4, #16
	strb	r5, [r2, #2]
	lsrs	r4, r4, #8
	strb	r4, [r2, #1]
	lsrs	r4, r3, #24
	strb	r4, [r2, #7]
	lsrs	r4, r3, #16
	strb	r4, [r2, #6]
	lsrs	r3, r3, #8
	strb	r3, [r2, #5]
	ldr	r3, [sp, #32]
.LBB47_7:
	lsls	r2, r3, #27
	bpl	.LBB47_9
	ldr	r2, [sp, #28]
	lsls	r3, r2, #3
	movs	r2, #32
	ands	r2, r3
	adds	r3, r0, r2
	ldr	r3, [r3, #4]
	ldr	r4, [r0, r2]
	strb	r4, [r1, r2]
	adds	r5, r1, r2
	strb	r3, [r5, #4]
	lsrs	r6, r4, #24
	strb	r6, [r5, #3]
	lsrs	r6, r4, #16
	strb	r6, [r5, #2]
	ldr	r6, [sp, #24]
	lsrs	r4, r4, #8
	strb	r4, [r5, #1]
	lsrs	r4, r3, #24
	strb	r4, [r5, #7]
	lsrs	r4, r3, #16
	strb	r4, [r5, #6]
	lsrs	r3, r3, #8
	strb	r3, [r5, #5]
	adds	r2, #8
	adds	r3, r0, r2
	ldr	r3, [r3, #4]
	ldr	r4, [r0, r2]
	strb	r4, [r1, r2]
	adds	r2, r1, r2
	strb	r3, [r2, #4]
	lsrs	r5, r3, #24
	strb	r5, [r2, #7]
	lsrs	r5, r3, #16
	strb	r5, [r2, #6]
	lsrs	r3, r3, #8
	strb	r3, [r2, #5]
	lsrs	r3, r4, #24
	strb	r3, [r2, #3]
	lsrs	r3, r4, #16
	strb	r3, [r2, #2]
	lsrs	r3, r4, #8
	strb	r3, [r2, #1]
	ldr	r3, [sp, #32]
.LBB47_9:
	subs	r3, #32
	ldr	r2, [sp, #36]
	sbcs	r6, r2
	blo	.LBB47_12
	ldm	r0!, {r2, r3}
	strb	r3, [r1, #4]
	strb	r2, [r1]
	lsrs	r4, r3, #24
	strb	r4, [r1, #7]
	lsrs	r4, r3, #16
	strb	r4, [r1, #6]
	lsrs	r3, r3, #8
	strb	r3, [r1, #5]
	lsrs	r3, r2, #24
	strb	r3, [r1, #3]
	lsrs	r3, r2, #16
	strb	r3, [r1, #2]
	lsrs	r2, r2, #8
	strb	r2, [r1, #1]
	ldr	r2, [r0]
	ldr	r3, [r0, #4]
	strb	r3, [r1, #12]
	strb	r2, [r1, #8]
	lsrs	r4, r3, #24
	strb	r4, [r1, #15]
	lsrs	r4, r3, #16
	strb	r4, [r1, #14]
	lsrs	r3, r3, #8
	strb	r3, [r1, #13]
	lsrs	r3, r2, #24
	strb	r3, [r1, #11]
	lsrs	r3, r2, #16
	strb	r3, [r1, #10]
	lsrs	r2, r2, #8
	strb	r2, [r1, #9]
	ldr	r2, [r0, #8]
	ldr	r3, [r0, #12]
	strb	r3, [r1, #20]
	strb	r2, [r1, #16]
	lsrs	r4, r3, #24
	strb	r4, [r1, #23]
	lsrs	r4, r3, #16
	strb	r4, [r1, #22]
	lsrs	r3, r3, #8
	strb	r3, [r1, #21]
	lsrs	r3, r2, #24
	strb	r3, [r1, #19]
	lsrs	r3, r2, #16
	strb	r3, [r1, #18]
	lsrs	r2, r2, #8
	strb	r2, [r1, #17]
	ldr	r2, [r0, #16]
	ldr	r0, [r0, #20]
	strb	r0, [r1, #28]
	strb	r2, [r1, #24]
	lsrs	r3, r0, #24
	strb	r3, [r1, #31]
	lsrs	r3, r0, #16
	strb	r3, [r1, #30]
	lsrs	r0, r0, #8
	strb	r0, [r1, #29]
	lsrs	r0, r2, #24
	strb	r0, [r1, #27]
	lsrs	r0, r2, #16
	strb	r0, [r1, #26]
	lsrs	r0, r2, #8
	strb	r0, [r1, #25]
	add	sp, #44
	pop	{r4, r5, r6, r7, pc}
.LBB47_11:
	lsrs	r3, r6, #3
	str	r1, [sp]
	ldr	r2, [sp, #28]
	bl	tlsf_words.cells.unpack_many
.LBB47_12:
	add	sp, #44
	pop	{r4, r5, r6, r7, pc}
.Lfunc_end47:
	.size	tlsf_words.words.Words.read_run, .Lfunc_end47-tlsf_words.words.Words.read_run
	.cfi_endproc
	.section	.text.tlsf_heap.region.Region.read.5,"ax",%progbits
	.p2align	1
	.type	tlsf_heap.region.Region.read.5,%function
	.code	16
	.thumb_func
tlsf_heap.region.Region.read.5:
	.cfi_startproc
	push	{r4, r5, r6, r7, lr}
	.cfi_def_cfa_offset 20
	.cfi_offset lr, -4
	.cfi_offset r7, -8
	.cfi_offset r6, -12
	.cfi_offset r5, -16
	.cfi_offset r4, -20
	sub	sp, #28
	.cfi_def_cfa_offset 48
	mov	r4, r2
	lsrs	r5, r1, #29
	lsls	r1, r1, #3
	movs	r6, #0
	adds	r2, r1, r2
	adcs	r5, r6
	adds	r2, #24
	adcs	r5, r6
	ldr	r7, [sp, #48]
	orrs	r4, r7
	lsls	r1, r4, #29
	ldr	r1, [sp, #52]
	beq	.LBB48_3
	movs	r4, #7
	subs	r4, r4, r7
	sbcs	r6, r1
	bhs	.LBB48_2
	b	.LBB48_10
.LBB48_2:
	str	r3, [sp]
	str	r7, [sp, #8]
	str	r1, [sp, #12]
	mov	r3, r5
	bl	tlsf_words.words.Words.read_few
	add	sp, #28
	pop	{r4, r5, r6, r7, pc}
.LBB48_3:
	movs	r4, #7
	bics	r2, r4
	ldr	r0, [r0]
	adds	r5, r0, r2
	lsrs	r2, r7, #3
	lsls	r4, r1, #29
	adds	r2, r2, r4
	movs	r4, #63
	subs	r4, r4, r7
	mov	r4, r6
	sbcs	r4, r1
	bhs	.LBB48_4
	b	.LBB48_12
.LBB48_4:
	lsls	r4, r7, #28
	str	r5, [sp, #24]
	bpl	.LBB48_6
	lsls	r4, r2, #3
	subs	r4, #8
	ldr	r0, [sp, #24]
	adds	r5, r0, r4
	ldr	r0, [r5, #4]
	str	r2, [sp, #20]
	ldr	r2, [sp, #24]
	ldr	r2, [r2, r4]
	strb	r2, [r3, r4]
	adds	r4, r3, r4
	strb	r0, [r4, #4]
	lsrs	r5, r2, #24
	strb	r5, [r4, #3]
	lsrs	r5, r2, #16
	strb	r5, [r4, #2]
	ldr	r5, [sp, #24]
	lsrs	r2, r2, #8
	strb	r2, [r4, #1]
	lsrs	r2, r0, #24
	strb	r2, [r4, #7]
	lsrs	r2, r0, #16
	strb	r2, [r4, #6]
	ldr	r2, [sp, #20]
	lsrs	r0, r0, #8
	strb	r0, [r4, #5]
.LBB48_6:
	lsls	r0, r7, #27
	bpl	.LBB48_8
	lsls	r0, r2, #3
	movs	r2, #32
	ands	r2, r0
	adds	r0, r5, r2
	ldr	r0, [r0, #4]
	str	r0, [sp, #20]
	ldr	r4, [r5, r2]
	strb	r4, [r3, r2]
	adds	r5, r3, r2
	strb	r0, [r5, #4]
	lsrs	r0, r4, #24
	strb	r0, [r5, #3]
	lsrs	r0, r4, #16
	strb	r0, [r5, #2]
	lsrs	r0, r4, #8
	strb	r0, [r5, #1]
	ldr	r4, [sp, #20]
	lsrs	r0, r4, #24
	strb	r0, [r5, #7]
	lsrs	r0, r4, #16
	strb	r0, [r5, #6]
	lsrs	r0, r4, #8
	strb	r0, [r5, #5]
	adds	r2, #8
	ldr	r0, [sp, #24]
	adds	r0, r0, r2
	ldr	r0, [r0, #4]
	ldr	r4, [sp, #24]
	ldr	r4, [r4, r2]
	strb	r4, [r3, r2]
	adds	r2, r3, r2
	strb	r0, [r2, #4]
	lsrs	r5, r0, #24
	strb	r5, [r2, #7]
	lsrs	r5, r0, #16
	strb	r5, [r2, #6]
	ldr	r5, [sp, #24]
	lsrs	r0, r0, #8
	strb	r0, [r2, #5]
	lsrs	r0, r4, #24
	strb	r0, [r2, #3]
	lsrs	r0, r4, #16
	strb	r0, [r2, #2]
	lsrs	r0, r4, #8
	strb	r0, [r2, #1]
.LBB48_8:
	subs	r7, #25
	sbcs	r1, r6
	blo	.LBB48_11
	ldm	r5!, {r0, r1}
	strb	r1, [r3, #4]
	strb	r0, [r3]
	lsrs	r2, r1, #24
	strb	r2, [r3, #7]
	lsrs	r2, r1, #16
	strb	r2, [r3, #6]
	lsrs	r1, r1, #8
	strb	r1, [r3, #5]
	lsrs	r1, r0, #24
	strb	r1, [r3, #3]
	lsrs	r1, r0, #16
	strb	r1, [r3, #2]
	lsrs	r0, r0, #8
	strb	r0, [r3, #1]
	ldr	r0, [r5]
	ldr	r1, [r5, #4]
	strb	r1, [r3, #12]
	strb	r0, [r3, #8]
	lsrs	r2, r1, #24
	strb	r2, [r3, #15]
	lsrs	r2, r1, #16
	strb	r2, [r3, #14]
	lsrs	r1, r1, #8
	strb	r1, [r3, #13]
	lsrs	r1, r0, #24
	strb	r1, [r3, #11]
	lsrs	r1, r0, #16
	strb	r1, [r3, #10]
	lsrs	r0, r0, #8
	strb	r0, [r3, #9]
	ldr	r0, [r5, #8]
	ldr	r1, [r5, #12]
	strb	r1, [r3, #20]
	strb	r0, [r3, #16]
	lsrs	r2, r1, #24
	strb	r2, [r3, #23]
	lsrs	r2, r1, #16
	strb	r2, [r3, #22]
	lsrs	r1, r1, #8
	strb	r1, [r3, #21]
	lsrs	r1, r0, #24
	strb	r1, [r3, #19]
	lsrs	r1, r0, #16
	strb	r1, [r3, #18]
	lsrs	r0, r0, #8
	strb	r0, [r3, #17]
	ldr	r0, [r5, #16]
	ldr	r1, [r5, #20]
	strb	r1, [r3, #28]
	strb	r0, [r3, #24]
	lsrs	r2, r1, #24
	strb	r2, [r3, #31]
	lsrs	r2, r1, #16
	strb	r2, [r3, #30]
	lsrs	r1, r1, #8
	strb	r1, [r3, #29]
	lsrs	r1, r0, #24
	strb	r1, [r3, #27]
	lsrs	r1, r0, #16
	strb	r1, [r3, #26]
	lsrs	r0, r0, #8
	strb	r0, [r3, #25]
	add	sp, #28
	pop	{r4, r5, r6, r7, pc}
.LBB48_10:
	str	r3, [sp]
	str	r7, [sp, #8]
	str	r1, [sp, #12]
	mov	r3, r5
	bl	tlsf_words.words.Words.read_run
.LBB48_11:
	add	sp, #28
	pop	{r4, r5, r6, r7, pc}
.LBB48_12:
	lsrs	r1, r1, #3
	str	r3, [sp]
	mov	r0, r5
	mov	r3, r1
	bl	tlsf_words.cells.unpack_many
	add	sp, #28
	pop	{r4, r5, r6, r7, pc}
.Lfunc_end48:
	.size	tlsf_heap.region.Region.read.5, .Lfunc_end48-tlsf_heap.region.Region.read.5
	.cfi_endproc
	.section	.text.tlsf_heap.heap.Heap.report.4,"ax",%progbits
	.p2align	1
	.type	tlsf_heap.heap.Heap.report.4,%function
	.code	16
	.thumb_func
tlsf_heap.heap.Heap.report.4:
	.cfi_startproc
	push	{r4, r5, r6, r7, lr}
	.cfi_def_cfa_offset 20
	.cfi_offset lr, -4
	.cfi_offset r7, -8
	.cfi_offset r6, -12
	.cfi_offset r5, -16
	.cfi_offset r4, -20
	sub	sp, #52
	.cfi_def_cfa_offset 72
	mov	r4, r0
	ldr	r2, [r1, #8]
	ldr	r5, [r1, #12]
	ldr	r3, [r1, #32]
	movs	r0, #0
	str	r3, [sp, #28]
	cmp	r3, #0
	str	r0, [sp, #20]
	mov	r6, r0
	str	r0, [sp, #44]
	str	r0, [sp, #36]
	mov	r3, r0
	str	r0, [sp, #48]
	mov	r7, r0
	str	r2, [sp, #24]
	str	r5, [sp, #32]
	str	r0, [sp, #12]
	beq	.LBB49_20
	str	r4, [sp, #8]
	ldr	r0, [r1, #24]
	str	r0, [sp, #24]
	movs	r7, #0
	mov	r0, r2
	mov	r2, r7
	str	r0, [sp, #4]
	mov	r1, r0
	str	r5, [sp, #16]
	str	r5, [sp, #32]
	str	r7, [sp, #48]
	str	r7, [sp, #40]
	str	r7, [sp, #36]
	str	r7, [sp, #44]
	mov	r6, r7
	b	.LBB49_4
.LBB49_2:
	ldr	r0, [sp, #44]
	adds	r0, r3, r0
	str	r0, [sp, #44]
	ldr	r4, [r5, #16]
	ldr	r0, [sp, #36]
	adds	r0, r0, r4
	str	r0, [sp, #36]
	adds	r6, r6, #1
.LBB49_3:
	adds	r2, r3, r2
	ldr	r0, [sp, #28]
	cmp	r2, r0
	bhs	.LBB49_12
.LBB49_4:
	lsls	r3, r2, #3
	ldr	r0, [sp, #24]
	adds	r5, r0, r3
	ldr	r4, [r0, r3]
	lsrs	r3, r4, #2
	lsls	r4, r4, #31
	beq	.LBB49_2
	str	r6, [sp, #20]
	cmp	r3, r7
	mov	r6, r3
	bhi	.LBB49_7
	mov	r6, r7
.LBB49_7:
	ldr	r4, [r5, #8]
	ldr	r0, [r5, #12]
	subs	r7, r4, r1
	mov	r7, r0
	ldr	r5, [sp, #32]
	sbcs	r7, r5
	blo	.LBB49_9
	mov	r0, r5
.LBB49_9:
	ldr	r7, [sp, #40]
	blo	.LBB49_11
	mov	r4, r1
.LBB49_11:
	ldr	r1, [sp, #48]
	adds	r1, r3, r1
	str	r1, [sp, #48]
	adds	r7, r7, #1
	str	r7, [sp, #40]
	mov	r7, r6
	mov	r1, r4
	str	r0, [sp, #32]
	ldr	r6, [sp, #20]
	b	.LBB49_3
.LBB49_12:
	str	r1, [sp, #24]
	movs	r0, #0
	cmp	r7, #0
	str	r0, [sp, #28]
	ldr	r4, [sp, #8]
	ldr	r5, [sp, #48]
	beq	.LBB49_16
	movs	r0, #16
	orrs	r0, r7
	bl	__clzsi2
	movs	r1, #27
	subs	r1, r1, r0
	mov	r0, r7
	lsrs	r0, r1
	lsls	r1, r1, #4
	adds	r2, r0, r1
	lsrs	r1, r2, #4
	beq	.LBB49_15
	movs	r2, #8
	lsls	r2, r1
	movs	r3, #15
	ands	r0, r3
	subs	r1, r1, #1
	lsls	r0, r1
	adds	r2, r0, r2
.LBB49_15:
	lsls	r0, r2, #3
	subs	r0, #24
.LBB49_16:
	str	r0, [sp, #20]
	cmp	r5, #0
	beq	.LBB49_18
	movs	r0, #125
	lsls	r2, r0, #3
	str	r2, [sp, #28]
	movs	r1, #0
	mov	r0, r7
	str	r5, [sp, #48]
	mov	r5, r1
	mov	r3, r1
	bl	__aeabi_lmul
	ldr	r2, [sp, #48]
	mov	r3, r5
	bl	__aeabi_uldivmod
	ldr	r1, [sp, #28]
	subs	r0, r1, r0
	b	.LBB49_19
.LBB49_18:
	ldr	r0, [sp, #28]
	str	r0, [sp, #48]
.LBB49_19:
	ldr	r3, [sp, #40]
	ldr	r2, [sp, #4]
	ldr	r5, [sp, #16]
.LBB49_20:
	str	r3, [sp, #40]
	mov	r3, r5
	mov	r5, r0
	movs	r0, #36
	ldr	r1, [sp, #12]
	strb	r1, [r4, r0]
	movs	r0, #40
	str	r0, [sp, #16]
	ldr	r0, [sp, #24]
	subs	r2, r2, r0
	str	r2, [sp, #28]
	ldr	r0, [sp, #16]
	strb	r2, [r4, r0]
	ldr	r0, [sp, #32]
	sbcs	r3, r0
	str	r3, [sp, #16]
	movs	r0, #44
	strb	r3, [r4, r0]
	ldr	r0, [sp, #44]
	lsls	r0, r0, #3
	ldr	r3, [sp, #36]
	subs	r0, r0, r3
	str	r0, [sp, #32]
	movs	r2, #32
	strb	r0, [r4, r2]
	strb	r5, [r4, #28]
	ldr	r0, [sp, #20]
	strb	r0, [r4, #24]
	strb	r7, [r4, #20]
	ldr	r2, [sp, #48]
	strb	r2, [r4, #16]
	ldr	r2, [sp, #40]
	strb	r2, [r4, #12]
	strb	r3, [r4, #8]
	ldr	r2, [sp, #44]
	strb	r2, [r4, #4]
	strb	r6, [r4]
	mov	r2, r4
	adds	r2, #36
	strb	r1, [r2, #3]
	strb	r1, [r2, #2]
	strb	r1, [r2, #1]
	lsrs	r2, r5, #24
	strb	r2, [r4, #31]
	lsrs	r2, r5, #16
	strb	r2, [r4, #30]
	lsrs	r2, r5, #8
	strb	r2, [r4, #29]
	lsrs	r2, r0, #24
	strb	r2, [r4, #27]
	lsrs	r2, r0, #16
	strb	r2, [r4, #26]
	lsrs	r2, r0, #8
	strb	r2, [r4, #25]
	lsrs	r2, r7, #24
	strb	r2, [r4, #23]
	lsrs	r2, r7, #16
	strb	r2, [r4, #22]
	lsrs	r2, r7, #8
	strb	r2, [r4, #21]
	ldr	r0, [sp, #48]
	lsrs	r2, r0, #24
	strb	r2, [r4, #19]
	lsrs	r2, r0, #16
	strb	r2, [r4, #18]
	lsrs	r2, r0, #8
	strb	r2, [r4, #17]
	ldr	r0, [sp, #40]
	lsrs	r2, r0, #24
	strb	r2, [r4, #15]
	lsrs	r2, r0, #16
	strb	r2, [r4, #14]
	lsrs	r2, r0, #8
	strb	r2, [r4, #13]
	lsrs	r2, r3, #24
	strb	r2, [r4, #11]
	lsrs	r2, r3, #16
	strb	r2, [r4, #10]
	lsrs	r2, r3, #8
	strb	r2, [r4, #9]
	ldr	r0, [sp, #44]
	lsrs	r2, r0, #24
	strb	r2, [r4, #7]
	lsrs	r2, r0, #16
	strb	r2, [r4, #6]
	lsrs	r2, r0, #8
	strb	r2, [r4, #5]
	lsrs	r2, r6, #24
	strb	r2, [r4, #3]
	lsrs	r2, r6, #16
	strb	r2, [r4, #2]
	lsrs	r2, r6, #8
	strb	r2, [r4, #1]
	ldr	r0, [sp, #28]
	lsrs	r2, r0, #24
	mov	r3, r4
	adds	r3, #40
	strb	r2, [r3, #3]
	lsrs	r2, r0, #16
	strb	r2, [r3, #2]
	lsrs	r1, r0, #8
	strb	r1, [r3, #1]
	ldr	r0, [sp, #16]
	lsrs	r1, r0, #24
	mov	r2, r4
	adds	r2, #44
	strb	r1, [r2, #3]
	lsrs	r1, r0, #16
	strb	r1, [r2, #2]
	lsrs	r1, r0, #8
	strb	r1, [r2, #1]
	ldr	r0, [sp, #32]
	lsrs	r1, r0, #24
	adds	r4, #32
	strb	r1, [r4, #3]
	lsrs	r1, r0, #16
	strb	r1, [r4, #2]
	lsrs	r0, r0, #8
	strb	r0, [r4, #1]
	add	sp, #52
	pop	{r4, r5, r6, r7, pc}
.Lfunc_end49:
	.size	tlsf_heap.heap.Heap.report.4, .Lfunc_end49-tlsf_heap.heap.Heap.report.4
	.cfi_endproc
	.section	.text.tlsf_heap.heap.Heap.report.5,"ax",%progbits
	.p2align	1
	.type	tlsf_heap.heap.Heap.report.5,%function
	.code	16
	.thumb_func
tlsf_heap.heap.Heap.report.5:
	.cfi_startproc
	push	{r4, r5, r6, r7, lr}
	.cfi_def_cfa_offset 20
	.cfi_offset lr, -4
	.cfi_offset r7, -8
	.cfi_offset r6, -12
	.cfi_offset r5, -16
	.cfi_offset r4, -20
	sub	sp, #52
	.cfi_def_cfa_offset 72
	mov	r4, r0
	ldr	r2, [r1, #8]
	ldr	r5, [r1, #12]
	ldr	r3, [r1, #32]
	movs	r0, #0
	str	r3, [sp, #28]
	cmp	r3, #0
	str	r0, [sp, #20]
	mov	r6, r0
	str	r0, [sp, #44]
	str	r0, [sp, #36]
	mov	r3, r0
	str	r0, [sp, #48]
	mov	r7, r0
	str	r2, [sp, #24]
	str	r5, [sp, #32]
	str	r0, [sp, #12]
	beq	.LBB50_20
	str	r4, [sp, #8]
	ldr	r0, [r1, #24]
	str	r0, [sp, #24]
	movs	r7, #0
	mov	r0, r2
	mov	r2, r7
	str	r0, [sp, #4]
	mov	r1, r0
	str	r5, [sp, #16]
	str	r5, [sp, #32]
	str	r7, [sp, #48]
	str	r7, [sp, #40]
	str	r7, [sp, #36]
	str	r7, [sp, #44]
	mov	r6, r7
	b	.LBB50_4
.LBB50_2:
	ldr	r0, [sp, #44]
	adds	r0, r3, r0
	str	r0, [sp, #44]
	ldr	r4, [r5, #16]
	ldr	r0, [sp, #36]
	adds	r0, r0, r4
	str	r0, [sp, #36]
	adds	r6, r6, #1
.LBB50_3:
	adds	r2, r3, r2
	ldr	r0, [sp, #28]
	cmp	r2, r0
	bhs	.LBB50_12
.LBB50_4:
	lsls	r3, r2, #3
	ldr	r0, [sp, #24]
	adds	r5, r0, r3
	ldr	r4, [r0, r3]
	lsrs	r3, r4, #2
	lsls	r4, r4, #31
	beq	.LBB50_2
	str	r6, [sp, #20]
	cmp	r3, r7
	mov	r6, r3
	bhi	.LBB50_7
	mov	r6, r7
.LBB50_7:
	ldr	r4, [r5, #8]
	ldr	r0, [r5, #12]
	subs	r7, r4, r1
	mov	r7, r0
	ldr	r5, [sp, #32]
	sbcs	r7, r5
	blo	.LBB50_9
	mov	r0, r5
.LBB50_9:
	ldr	r7, [sp, #40]
	blo	.LBB50_11
	mov	r4, r1
.LBB50_11:
	ldr	r1, [sp, #48]
	adds	r1, r3, r1
	str	r1, [sp, #48]
	adds	r7, r7, #1
	str	r7, [sp, #40]
	mov	r7, r6
	mov	r1, r4
	str	r0, [sp, #32]
	ldr	r6, [sp, #20]
	b	.LBB50_3
.LBB50_12:
	str	r1, [sp, #24]
	movs	r0, #0
	cmp	r7, #0
	str	r0, [sp, #28]
	ldr	r4, [sp, #8]
	ldr	r5, [sp, #48]
	beq	.LBB50_16
	movs	r0, #32
	orrs	r0, r7
	bl	__clzsi2
	movs	r1, #26
	subs	r1, r1, r0
	mov	r0, r7
	lsrs	r0, r1
	lsls	r1, r1, #5
	adds	r2, r0, r1
	lsrs	r1, r2, #5
	beq	.LBB50_15
	movs	r2, #16
	lsls	r2, r1
	movs	r3, #31
	ands	r0, r3
	subs	r1, r1, #1
	lsls	r0, r1
	adds	r2, r0, r2
.LBB50_15:
	lsls	r0, r2, #3
	subs	r0, #24
.LBB50_16:
	str	r0, [sp, #20]
	cmp	r5, #0
	beq	.LBB50_18
	movs	r0, #125
	lsls	r2, r0, #3
	str	r2, [sp, #28]
	movs	r1, #0
	mov	r0, r7
	str	r5, [sp, #48]
	mov	r5, r1
	mov	r3, r1
	bl	__aeabi_lmul
	ldr	r2, [sp, #48]
	mov	r3, r5
	bl	__aeabi_uldivmod
	ldr	r1, [sp, #28]
	subs	r0, r1, r0
	b	.LBB50_19
.LBB50_18:
	ldr	r0, [sp, #28]
	str	r0, [sp, #48]
.LBB50_19:
	ldr	r3, [sp, #40]
	ldr	r2, [sp, #4]
	ldr	r5, [sp, #16]
.LBB50_20:
	str	r3, [sp, #40]
	mov	r3, r5
	mov	r5, r0
	movs	r0, #36
	ldr	r1, [sp, #12]
	strb	r1, [r4, r0]
	movs	r0, #40
	str	r0, [sp, #16]
	ldr	r0, [sp, #24]
	subs	r2, r2, r0
	str	r2, [sp, #28]
	ldr	r0, [sp, #16]
	strb	r2, [r4, r0]
	ldr	r0, [sp, #32]
	sbcs	r3, r0
	str	r3, [sp, #16]
	movs	r0, #44
	strb	r3, [r4, r0]
	ldr	r0, [sp, #44]
	lsls	r0, r0, #3
	ldr	r3, [sp, #36]
	subs	r0, r0, r3
	str	r0, [sp, #32]
	movs	r2, #32
	strb	r0, [r4, r2]
	strb	r5, [r4, #28]
	ldr	r0, [sp, #20]
	strb	r0, [r4, #24]
	strb	r7, [r4, #20]
	ldr	r2, [sp, #48]
	strb	r2, [r4, #16]
	ldr	r2, [sp, #40]
	strb	r2, [r4, #12]
	strb	r3, [r4, #8]
	ldr	r2, [sp, #44]
	strb	r2, [r4, #4]
	strb	r6, [r4]
	mov	r2, r4
	adds	r2, #36
	strb	r1, [r2, #3]
	strb	r1, [r2, #2]
	strb	r1, [r2, #1]
	lsrs	r2, r5, #24
	strb	r2, [r4, #31]
	lsrs	r2, r5, #16
	strb	r2, [r4, #30]
	lsrs	r2, r5, #8
	strb	r2, [r4, #29]
	lsrs	r2, r0, #24
	strb	r2, [r4, #27]
	lsrs	r2, r0, #16
	strb	r2, [r4, #26]
	lsrs	r2, r0, #8
	strb	r2, [r4, #25]
	lsrs	r2, r7, #24
	strb	r2, [r4, #23]
	lsrs	r2, r7, #16
	strb	r2, [r4, #22]
	lsrs	r2, r7, #8
	strb	r2, [r4, #21]
	ldr	r0, [sp, #48]
	lsrs	r2, r0, #24
	strb	r2, [r4, #19]
	lsrs	r2, r0, #16
	strb	r2, [r4, #18]
	lsrs	r2, r0, #8
	strb	r2, [r4, #17]
	ldr	r0, [sp, #40]
	lsrs	r2, r0, #24
	strb	r2, [r4, #15]
	lsrs	r2, r0, #16
	strb	r2, [r4, #14]
	lsrs	r2, r0, #8
	strb	r2, [r4, #13]
	lsrs	r2, r3, #24
	strb	r2, [r4, #11]
	lsrs	r2, r3, #16
	strb	r2, [r4, #10]
	lsrs	r2, r3, #8
	strb	r2, [r4, #9]
	ldr	r0, [sp, #44]
	lsrs	r2, r0, #24
	strb	r2, [r4, #7]
	lsrs	r2, r0, #16
	strb	r2, [r4, #6]
	lsrs	r2, r0, #8
	strb	r2, [r4, #5]
	lsrs	r2, r6, #24
	strb	r2, [r4, #3]
	lsrs	r2, r6, #16
	strb	r2, [r4, #2]
	lsrs	r2, r6, #8
	strb	r2, [r4, #1]
	ldr	r0, [sp, #28]
	lsrs	r2, r0, #24
	mov	r3, r4
	adds	r3, #40
	strb	r2, [r3, #3]
	lsrs	r2, r0, #16
	strb	r2, [r3, #2]
	lsrs	r1, r0, #8
	strb	r1, [r3, #1]
	ldr	r0, [sp, #16]
	lsrs	r1, r0, #24
	mov	r2, r4
	adds	r2, #44
	strb	r1, [r2, #3]
	lsrs	r1, r0, #16
	strb	r1, [r2, #2]
	lsrs	r1, r0, #8
	strb	r1, [r2, #1]
	ldr	r0, [sp, #32]
	lsrs	r1, r0, #24
	adds	r4, #32
	strb	r1, [r4, #3]
	lsrs	r1, r0, #16
	strb	r1, [r4, #2]
	lsrs	r0, r0, #8
	strb	r0, [r4, #1]
	add	sp, #52
	pop	{r4, r5, r6, r7, pc}
.Lfunc_end50:
	.size	tlsf_heap.heap.Heap.report.5, .Lfunc_end50-tlsf_heap.heap.Heap.report.5
	.cfi_endproc
	.section	.text.tlsf_c.queue_end.take_once,"ax",%progbits
	.p2align	1
	.type	tlsf_c.queue_end.take_once,%function
	.code	16
	.thumb_func
tlsf_c.queue_end.take_once:
	.cfi_startproc
	push	{r4, r5, r6, r7, lr}
	.cfi_def_cfa_offset 20
	.cfi_offset lr, -4
	.cfi_offset r7, -8
	.cfi_offset r6, -12
	.cfi_offset r5, -16
	.cfi_offset r4, -20
	sub	sp, #196
	.cfi_def_cfa_offset 216
	str	r0, [sp, #52]
	movs	r5, #0
	str	r5, [sp, #92]
	str	r5, [sp, #88]
	str	r5, [sp, #84]
	str	r5, [sp, #80]
	str	r5, [sp, #64]
	str	r5, [sp, #68]
	str	r5, [sp, #72]
	str	r5, [sp, #76]
	str	r5, [sp, #108]
	str	r5, [sp, #104]
	str	r5, [sp, #100]
	str	r5, [sp, #96]
	str	r1, [sp, #40]
	ldr	r7, [r1]
	str	r5, [sp, #128]
	str	r5, [sp, #132]
	str	r5, [sp, #136]
	str	r5, [sp, #140]
	str	r5, [sp, #112]
	str	r5, [sp, #116]
	str	r5, [sp, #120]
	str	r5, [sp, #124]
	movs	r0, #1
	str	r0, [sp, #48]
	lsls	r1, r0, #8
	ldr	r0, [r7, #8]
	str	r1, [sp, #36]
	adds	r0, r0, r1
	movs	r4, #5
	mov	r1, r4
	bl	__atomic_load_8
	mov	r2, r1
	adds	r1, r0, #1
	str	r1, [sp, #32]
	mov	r6, r2
	adcs	r6, r5
	ldr	r1, [r7, #80]
	ldr	r3, [r7, #84]
	subs	r1, r1, #1
	sbcs	r3, r5
	str	r3, [sp, #24]
	str	r0, [sp, #60]
	ands	r1, r0
	str	r1, [sp, #56]
	lsls	r1, r1, #3
	str	r7, [sp, #28]
	ldr	r0, [r7, #8]
	str	r1, [sp, #20]
	adds	r0, r0, r1
	movs	r1, #3
	lsls	r7, r1, #7
	adds	r0, r0, r7
	str	r4, [sp, #44]
	mov	r1, r4
	mov	r4, r2
	bl	__atomic_load_8
	lsrs	r2, r4, #30
	cmp	r2, #2
	bls	.LBB51_1
	b	.LBB51_9
.LBB51_1:
	ldr	r2, [sp, #32]
	eors	r2, r0
	eors	r6, r1
	orrs	r6, r2
	beq	.LBB51_2
	b	.LBB51_9
.LBB51_2:
	str	r0, [sp, #32]
	str	r1, [sp, #8]
	str	r7, [sp, #12]
	ldr	r2, [sp, #24]
	ands	r2, r4
	movs	r7, #0
	str	r7, [sp, #160]
	str	r7, [sp, #164]
	str	r7, [sp, #168]
	str	r7, [sp, #172]
	str	r7, [sp, #176]
	str	r7, [sp, #180]
	str	r7, [sp, #144]
	str	r7, [sp, #148]
	str	r7, [sp, #152]
	str	r7, [sp, #156]
	ldr	r0, [sp, #56]
	adds	r0, r0, #1
	str	r0, [sp, #16]
	mov	r1, r2
	adcs	r1, r7
	ldr	r3, [sp, #28]
	ldr	r6, [r3, #72]
	ldr	r0, [r3, #76]
	str	r0, [sp, #24]
	ldr	r0, [sp, #16]
	subs	r0, r0, r6
	ldr	r0, [sp, #24]
	sbcs	r1, r0
	bhs	.LBB51_4
	mov	r2, r4
	mov	r4, r3
	ldr	r3, [sp, #44]
	ldr	r1, [sp, #60]
	ldr	r6, [sp, #8]
	b	.LBB51_5
.LBB51_4:
	ldr	r1, [sp, #56]
	ldr	r0, [sp, #60]
	subs	r1, r0, r1
	str	r1, [sp, #32]
	mov	r1, r4
	sbcs	r1, r2
	ldr	r2, [r3, #80]
	str	r2, [sp, #24]
	ldr	r6, [r3, #84]
	ldr	r2, [sp, #32]
	ldr	r0, [sp, #24]
	adds	r2, r2, r0
	str	r2, [sp, #32]
	adcs	r6, r1
	ldr	r1, [sp, #60]
	mov	r2, r4
	mov	r4, r3
	ldr	r3, [sp, #44]
.LBB51_5:
	ldr	r0, [r4, #8]
	str	r2, [sp, #28]
	str	r2, [sp, #188]
	str	r1, [sp, #184]
	str	r3, [sp]
	str	r3, [sp, #4]
	movs	r1, #1
	lsls	r1, r1, #8
	adds	r0, r0, r1
	add	r1, sp, #184
	ldr	r2, [sp, #32]
	mov	r3, r6
	bl	__atomic_compare_exchange_8
	cmp	r0, #0
	bne	.LBB51_6
	b	.LBB51_8
.LBB51_6:
	ldr	r0, [sp, #56]
	lsls	r0, r0, #5
	ldr	r1, [r4, #16]
	ldrb	r2, [r1, r0]
	str	r2, [sp, #56]
	strb	r7, [r1, r0]
	adds	r0, r1, r0
	strb	r7, [r0, #7]
	strb	r7, [r0, #6]
	strb	r7, [r0, #5]
	strb	r7, [r0, #4]
	strb	r7, [r0, #2]
	strb	r7, [r0, #3]
	strb	r7, [r0, #1]
	ldrb	r1, [r0, #16]
	ldrb	r2, [r0, #17]
	lsls	r2, r2, #8
	adds	r1, r2, r1
	ldrb	r2, [r0, #18]
	lsls	r2, r2, #16
	ldrb	r3, [r0, #19]
	lsls	r3, r3, #24
	adds	r2, r3, r2
	adds	r1, r2, r1
	str	r1, [sp, #144]
	ldrb	r1, [r0, #20]
	ldrb	r2, [r0, #21]
	lsls	r2, r2, #8
	adds	r1, r2, r1
	ldrb	r2, [r0, #22]
	lsls	r2, r2, #16
	ldrb	r3, [r0, #23]
	lsls	r3, r3, #24
	adds	r2, r3, r2
	adds	r1, r2, r1
	str	r1, [sp, #148]
	ldrb	r1, [r0, #24]
	ldrb	r2, [r0, #25]
	lsls	r2, r2, #8
	adds	r1, r2, r1
	ldrb	r2, [r0, #26]
	lsls	r2, r2, #16
	ldrb	r3, [r0, #27]
	lsls	r3, r3, #24
	adds	r2, r3, r2
	adds	r1, r2, r1
	str	r1, [sp, #152]
	ldrb	r1, [r0, #28]
	ldrb	r2, [r0, #29]
	lsls	r2, r2, #8
	adds	r1, r2, r1
	ldrb	r2, [r0, #30]
	lsls	r2, r2, #16
	ldrb	r3, [r0, #31]
	lsls	r3, r3, #24
	adds	r2, r3, r2
	adds	r1, r2, r1
	str	r1, [sp, #156]
	ldrb	r1, [r0, #11]
	str	r1, [sp, #48]
	ldrb	r1, [r0, #10]
	str	r1, [sp, #40]
	ldrb	r1, [r0, #8]
	str	r1, [sp, #36]
	ldrb	r1, [r0, #9]
	str	r1, [sp, #32]
	ldrb	r6, [r0, #15]
	ldrb	r1, [r0, #14]
	str	r1, [sp, #24]
	ldrb	r1, [r0, #12]
	str	r1, [sp, #16]
	ldrb	r5, [r0, #13]
	adds	r0, #8
	add	r1, sp, #160
	movs	r2, #24
	bl	tlsf_memory_cpy
	ldr	r0, [r4, #8]
	ldr	r1, [r4, #80]
	ldr	r3, [r4, #84]
	ldr	r2, [sp, #44]
	str	r2, [sp]
	ldr	r2, [sp, #60]
	adds	r2, r1, r2
	ldr	r1, [sp, #28]
	adcs	r3, r1
	ldr	r1, [sp, #20]
	adds	r0, r0, r1
	ldr	r1, [sp, #12]
	adds	r0, r0, r1
	bl	__atomic_store_8
	ldr	r0, [sp, #56]
	cmp	r0, #1
	bne	.LBB51_14
	lsls	r0, r5, #8
	ldr	r1, [sp, #16]
	adds	r0, r0, r1
	ldr	r1, [sp, #24]
	lsls	r1, r1, #16
	lsls	r2, r6, #24
	adds	r1, r2, r1
	adds	r6, r1, r0
	ldr	r0, [sp, #32]
	lsls	r1, r0, #8
	ldr	r0, [sp, #36]
	adds	r1, r1, r0
	ldr	r0, [sp, #40]
	lsls	r2, r0, #16
	ldr	r0, [sp, #48]
	lsls	r3, r0, #24
	adds	r2, r3, r2
	adds	r5, r2, r1
	ldr	r1, [sp, #156]
	str	r1, [sp, #124]
	ldr	r2, [sp, #152]
	str	r2, [sp, #120]
	ldr	r3, [sp, #148]
	str	r3, [sp, #116]
	ldr	r4, [sp, #144]
	str	r4, [sp, #96]
	str	r3, [sp, #100]
	str	r1, [sp, #92]
	str	r2, [sp, #88]
	str	r3, [sp, #84]
	str	r4, [sp, #80]
	add	r1, sp, #80
	mov	r2, r7
	b	.LBB51_13
.LBB51_8:
	str	r7, [sp, #128]
	str	r7, [sp, #132]
	str	r7, [sp, #136]
	str	r7, [sp, #140]
.LBB51_9:
	ldr	r0, [sp, #128]
	str	r0, [sp, #80]
	ldr	r0, [sp, #132]
	str	r0, [sp, #84]
	ldr	r0, [sp, #136]
	str	r0, [sp, #88]
	ldr	r0, [sp, #140]
	str	r0, [sp, #92]
	ldr	r0, [sp, #40]
	ldr	r4, [r0]
	ldr	r0, [r4, #8]
	ldr	r1, [sp, #36]
	adds	r0, r0, r1
	movs	r6, #5
	mov	r1, r6
	bl	__atomic_load_8
	str	r0, [sp, #60]
	mov	r7, r1
	ldr	r0, [r4, #8]
	adds	r0, #128
	mov	r1, r6
	bl	__atomic_load_8
	eors	r1, r7
	ldr	r2, [sp, #60]
	eors	r0, r2
	orrs	r0, r1
	beq	.LBB51_11
	movs	r7, #9
	b	.LBB51_12
.LBB51_11:
	movs	r7, #8
.LBB51_12:
	ldr	r2, [sp, #48]
	add	r1, sp, #64
	mov	r6, r5
.LBB51_13:
	ldr	r0, [sp, #52]
	strb	r5, [r0, #8]
	strb	r7, [r0, #1]
	strb	r2, [r0]
	strb	r6, [r0, #12]
	lsrs	r2, r5, #24
	strb	r2, [r0, #11]
	lsrs	r2, r5, #16
	strb	r2, [r0, #10]
	lsrs	r2, r5, #8
	strb	r2, [r0, #9]
	lsrs	r2, r6, #24
	strb	r2, [r0, #15]
	lsrs	r2, r6, #16
	strb	r2, [r0, #14]
	lsrs	r2, r6, #8
	strb	r2, [r0, #13]
	adds	r0, #16
	movs	r2, #16
	bl	tlsf_memory_cpy
	add	sp, #196
	pop	{r4, r5, r6, r7, pc}
.LBB51_14:
	.inst.n	0xdefe
.Lfunc_end51:
	.size	tlsf_c.queue_end.take_once, .Lfunc_end51-tlsf_c.queue_end.take_once
	.cfi_endproc
	.section	.text.unlikely.std_alloc.vec.Vec.grow_amortized.94730218a1e37034,"ax",%progbits
	.p2align	1
	.type	std_alloc.vec.Vec.grow_amortized.94730218a1e37034,%function
	.code	16
	.thumb_func
std_alloc.vec.Vec.grow_amortized.94730218a1e37034:
	.cfi_startproc
	push	{r4, r5, r6, r7, lr}
	.cfi_def_cfa_offset 20
	.cfi_offset lr, -4
	.cfi_offset r7, -8
	.cfi_offset r6, -12
	.cfi_offset r5, -16
	.cfi_offset r4, -20
	sub	sp, #52
	.cfi_def_cfa_offset 72
	ldr	r2, [r0, #8]
	ldr	r6, [r0, #12]
	mov	r1, r2
	ands	r1, r6
	adds	r1, r1, #1
	beq	.LBB52_19
	movs	r3, #3
	cmp	r2, #3
	mov	r1, r2
	bhi	.LBB52_3
	mov	r1, r3
.LBB52_3:
	cmp	r6, #0
	mov	r4, r2
	bne	.LBB52_5
	mov	r4, r3
.LBB52_5:
	str	r2, [sp, #8]
	beq	.LBB52_7
	mov	r1, r4
.LBB52_7:
	movs	r4, #0
	adds	r2, r1, #1
	str	r6, [sp, #12]
	mov	r3, r6
	str	r4, [sp, #24]
	adcs	r3, r4
	ldr	r1, [r0, #16]
	str	r0, [sp, #20]
	ldr	r6, [r0, #20]
	lsrs	r4, r1, #31
	str	r6, [sp, #28]
	lsls	r6, r6, #1
	adds	r4, r6, r4
	lsls	r6, r1, #1
	subs	r7, r6, r2
	mov	r7, r4
	sbcs	r7, r3
	mov	r7, r3
	blo	.LBB52_9
	mov	r7, r4
.LBB52_9:
	mov	r5, r2
	blo	.LBB52_11
	mov	r5, r6
.LBB52_11:
	ldr	r4, [sp, #28]
	lsrs	r4, r4, #30
	cmp	r4, #0
	str	r5, [sp, #4]
	beq	.LBB52_13
	mov	r5, r2
.LBB52_13:
	str	r5, [sp, #16]
	mov	r5, r7
	ldr	r6, [sp, #24]
	beq	.LBB52_15
	mov	r5, r3
.LBB52_15:
	lsrs	r3, r5, #26
	bne	.LBB52_28
	ldr	r3, [sp, #28]
	orrs	r1, r3
	beq	.LBB52_20
	ldr	r0, [sp, #20]
	ldr	r1, [r0]
	movs	r3, #8
	str	r3, [sp]
	ldr	r0, [sp, #8]
	lsrs	r3, r0, #27
	ldr	r4, [sp, #12]
	lsls	r4, r4, #5
	adds	r4, r4, r3
	movs	r6, #0
	mvns	r3, r6
	cmp	r4, #0
	beq	.LBB52_22
	mov	r2, r3
	b	.LBB52_23
.LBB52_19:
	movs	r6, #0
	b	.LBB52_28
.LBB52_20:
	ldr	r0, [sp, #4]
	lsrs	r1, r0, #27
	lsls	r2, r7, #5
	movs	r6, #0
	adds	r1, r2, r1
	beq	.LBB52_29
	ldr	r4, [sp, #20]
	mvns	r1, r6
	b	.LBB52_30
.LBB52_22:
	lsls	r2, r0, #5
.LBB52_23:
	ldr	r7, [sp, #16]
	lsrs	r4, r7, #27
	str	r5, [sp, #28]
	lsls	r5, r5, #5
	adds	r4, r5, r4
	beq	.LBB52_25
	ldr	r4, [sp, #20]
	b	.LBB52_26
.LBB52_25:
	ldr	r4, [sp, #20]
	lsls	r3, r7, #5
.LBB52_26:
	add	r0, sp, #32
	bl	tlsf_memory_realloc
	ldr	r0, [sp, #32]
	lsls	r0, r0, #31
	ldr	r5, [sp, #28]
	beq	.LBB52_28
.LBB52_27:
	ldr	r0, [sp, #40]
	str	r0, [r4]
	ldr	r0, [sp, #16]
	str	r0, [r4, #16]
	str	r5, [r4, #20]
	movs	r6, #1
.LBB52_28:
	mov	r0, r6
	add	sp, #52
	pop	{r4, r5, r6, r7, pc}
.LBB52_29:
	ldr	r4, [sp, #20]
	lsls	r1, r0, #5
.LBB52_30:
	add	r0, sp, #32
	movs	r2, #8
	bl	tlsf_memory_alloc
	ldr	r0, [sp, #32]
	lsls	r0, r0, #31
	bne	.LBB52_27
	b	.LBB52_28
.Lfunc_end52:
	.size	std_alloc.vec.Vec.grow_amortized.94730218a1e37034, .Lfunc_end52-std_alloc.vec.Vec.grow_amortized.94730218a1e37034
	.cfi_endproc
	.section	.text.tlsf_post.mailboxes.send_out,"ax",%progbits
	.p2align	2
	.type	tlsf_post.mailboxes.send_out,%function
	.code	16
	.thumb_func
tlsf_post.mailboxes.send_out:
	.cfi_startproc
	push	{r4, r5, r6, r7, lr}
	.cfi_def_cfa_offset 20
	.cfi_offset lr, -4
	.cfi_offset r7, -8
	.cfi_offset r6, -12
	.cfi_offset r5, -16
	.cfi_offset r4, -20
	sub	sp, #44
	.cfi_def_cfa_offset 64
	str	r0, [sp, #28]
	cmp	r1, r2
	bhs	.LBB53_6
	str	r1, [sp, #24]
	str	r2, [sp, #16]
	str	r3, [sp, #20]
	ldr	r6, .LCPI53_0
.LBB53_2:
	ldr	r0, [sp, #28]
	ldr	r7, [r0]
.LBB53_3:
	movs	r4, #5
	mov	r0, r7
	mov	r1, r4
	bl	__atomic_load_8
	mov	r3, r1
	movs	r5, #1
	mvns	r1, r5
	subs	r1, r1, r0
	mov	r1, r6
	sbcs	r1, r3
	blo	.LBB53_7
	str	r0, [sp, #32]
	str	r3, [sp, #36]
	str	r4, [sp]
	str	r4, [sp, #4]
	movs	r5, #0
	adds	r2, r0, #1
	adcs	r3, r5
	add	r1, sp, #32
	mov	r0, r7
	bl	__atomic_compare_exchange_8
	cmp	r0, #0
	beq	.LBB53_3
	ldr	r0, [r7, #8]
	movs	r1, #5
	bl	__atomic_load_8
	ldr	r4, [sp, #20]
	ldr	r1, [r4, #8]
	str	r1, [sp, #12]
	ldr	r0, [r4, #12]
	ldr	r2, [r4]
	lsls	r3, r1, #4
	strb	r7, [r2, r3]
	adds	r2, r2, r3
	strb	r5, [r2, #7]
	strb	r5, [r2, #6]
	strb	r5, [r2, #5]
	strb	r5, [r2, #4]
	ldr	r1, [sp, #24]
	lsrs	r3, r1, #24
	strb	r3, [r2, #11]
	lsrs	r3, r1, #16
	strb	r3, [r2, #10]
	lsrs	r3, r1, #8
	strb	r3, [r2, #9]
	strb	r1, [r2, #8]
	strb	r5, [r2, #15]
	strb	r5, [r2, #14]
	strb	r5, [r2, #13]
	strb	r5, [r2, #12]
	lsrs	r3, r7, #24
	strb	r3, [r2, #3]
	lsrs	r3, r7, #16
	strb	r3, [r2, #2]
	lsrs	r3, r7, #8
	strb	r3, [r2, #1]
	ldr	r2, [sp, #12]
	adds	r2, r2, #1
	adcs	r0, r5
	str	r2, [r4, #8]
	str	r0, [r4, #12]
	adds	r1, r1, #1
	ldr	r0, [sp, #16]
	str	r1, [sp, #24]
	cmp	r1, r0
	bne	.LBB53_2
	b	.LBB53_7
.LBB53_6:
	movs	r5, #0
.LBB53_7:
	mov	r0, r5
	add	sp, #44
	pop	{r4, r5, r6, r7, pc}
	.p2align	2
.LCPI53_0:
	.long	2147483647
.Lfunc_end53:
	.size	tlsf_post.mailboxes.send_out, .Lfunc_end53-tlsf_post.mailboxes.send_out
	.cfi_endproc
	.section	.text.std_alloc.arc.Arc.drop.f29941b0e8355977,"ax",%progbits
	.p2align	1
	.type	std_alloc.arc.Arc.drop.f29941b0e8355977,%function
	.code	16
	.thumb_func
std_alloc.arc.Arc.drop.f29941b0e8355977:
	.cfi_startproc
	push	{r4, r5, r6, r7, lr}
	.cfi_def_cfa_offset 20
	.cfi_offset lr, -4
	.cfi_offset r7, -8
	.cfi_offset r6, -12
	.cfi_offset r5, -16
	.cfi_offset r4, -20
	sub	sp, #28
	.cfi_def_cfa_offset 48
	mov	r4, r0
	movs	r0, #5
	str	r0, [sp]
	movs	r5, #1
	movs	r3, #0
	mov	r0, r4
	mov	r2, r5
	bl	__atomic_fetch_sub_8
	eors	r0, r5
	orrs	r0, r1
	bne	.LBB54_2
	movs	r0, #56
	ldrb	r0, [r4, r0]
	str	r0, [sp, #24]
	movs	r0, #40
	ldrb	r0, [r4, r0]
	str	r0, [sp, #8]
	mov	r0, r4
	adds	r0, #56
	ldrb	r1, [r0, #3]
	str	r1, [sp, #20]
	ldrb	r1, [r0, #2]
	str	r1, [sp, #16]
	ldrb	r0, [r0, #1]
	str	r0, [sp, #12]
	mov	r0, r4
	adds	r0, #40
	ldrb	r7, [r0, #3]
	ldrb	r5, [r0, #2]
	ldrb	r6, [r0, #1]
	mov	r0, r4
	bl	tlsf_memory_dealloc
	lsls	r0, r6, #8
	ldr	r1, [sp, #8]
	adds	r0, r0, r1
	lsls	r1, r5, #16
	lsls	r2, r7, #24
	adds	r1, r2, r1
	adds	r0, r1, r0
	bl	tlsf_memory_dealloc
	ldr	r0, [sp, #12]
	lsls	r0, r0, #8
	ldr	r1, [sp, #24]
	adds	r0, r0, r1
	ldr	r1, [sp, #16]
	lsls	r1, r1, #16
	ldr	r2, [sp, #20]
	lsls	r2, r2, #24
	adds	r1, r2, r1
	adds	r0, r1, r0
	bl	tlsf_memory_dealloc
.LBB54_2:
	add	sp, #28
	pop	{r4, r5, r6, r7, pc}
.Lfunc_end54:
	.size	std_alloc.arc.Arc.drop.f29941b0e8355977, .Lfunc_end54-std_alloc.arc.Arc.drop.f29941b0e8355977
	.cfi_endproc
	.section	.text.std_alloc.vec.deque.VecDeque.drop.ca3d8856d46a41b8,"ax",%progbits
	.p2align	1
	.type	std_alloc.vec.deque.VecDeque.drop.ca3d8856d46a41b8,%function
	.code	16
	.thumb_func
std_alloc.vec.deque.VecDeque.drop.ca3d8856d46a41b8:
	.cfi_startproc
	push	{r4, r5, r6, r7, lr}
	.cfi_def_cfa_offset 20
	.cfi_offset lr, -4
	.cfi_offset r7, -8
	.cfi_offset r6, -12
	.cfi_offset r5, -16
	.cfi_offset r4, -20
	sub	sp, #68
	.cfi_def_cfa_offset 88
	ldrb	r1, [r0, #12]
	ldrb	r2, [r0, #13]
	lsls	r2, r2, #8
	adds	r1, r2, r1
	ldrb	r2, [r0, #14]
	lsls	r2, r2, #16
	ldrb	r3, [r0, #15]
	lsls	r3, r3, #24
	adds	r2, r3, r2
	adds	r6, r2, r1
	ldrb	r1, [r0, #8]
	ldrb	r2, [r0, #9]
	lsls	r2, r2, #8
	adds	r1, r2, r1
	ldrb	r2, [r0, #10]
	lsls	r2, r2, #16
	ldrb	r3, [r0, #11]
	lsls	r3, r3, #24
	adds	r2, r3, r2
	adds	r1, r2, r1
	mov	r2, r1
	orrs	r2, r6
	ldrb	r3, [r0, #20]
	ldrb	r4, [r0, #21]
	lsls	r4, r4, #8
	adds	r3, r4, r3
	ldrb	r4, [r0, #22]
	lsls	r4, r4, #16
	ldrb	r5, [r0, #23]
	lsls	r5, r5, #24
	adds	r4, r5, r4
	adds	r3, r4, r3
	str	r3, [sp, #12]
	ldrb	r3, [r0, #16]
	ldrb	r4, [r0, #17]
	lsls	r4, r4, #8
	adds	r3, r4, r3
	ldrb	r4, [r0, #18]
	lsls	r4, r4, #16
	ldrb	r5, [r0, #19]
	lsls	r5, r5, #24
	adds	r4, r5, r4
	adds	r3, r4, r3
	str	r3, [sp, #8]
	ldrb	r3, [r0]
	ldrb	r4, [r0, #1]
	lsls	r4, r4, #8
	adds	r3, r4, r3
	ldrb	r4, [r0, #2]
	lsls	r4, r4, #16
	ldrb	r5, [r0, #3]
	lsls	r5, r5, #24
	adds	r4, r5, r4
	adds	r3, r4, r3
	str	r3, [sp, #60]
	cmp	r2, #0
	bne	.LBB55_1
	b	.LBB55_11
.LBB55_1:
	movs	r2, #36
	ldrb	r2, [r0, r2]
	mov	r3, r0
	adds	r3, #36
	ldrb	r4, [r3, #1]
	lsls	r4, r4, #8
	adds	r2, r4, r2
	ldrb	r4, [r3, #2]
	lsls	r4, r4, #16
	ldrb	r3, [r3, #3]
	lsls	r3, r3, #24
	adds	r3, r3, r4
	str	r1, [sp, #64]
	adds	r1, r3, r2
	movs	r2, #32
	ldrb	r2, [r0, r2]
	mov	r3, r0
	adds	r3, #32
	ldrb	r4, [r3, #1]
	lsls	r4, r4, #8
	adds	r2, r4, r2
	ldrb	r4, [r3, #2]
	lsls	r4, r4, #16
	ldrb	r3, [r3, #3]
	lsls	r3, r3, #24
	adds	r3, r3, r4
	adds	r7, r3, r2
	ldrb	r2, [r0, #28]
	ldrb	r3, [r0, #29]
	lsls	r3, r3, #8
	adds	r2, r3, r2
	ldrb	r3, [r0, #30]
	lsls	r3, r3, #16
	ldrb	r4, [r0, #31]
	lsls	r4, r4, #24
	adds	r3, r4, r3
	adds	r4, r3, r2
	ldrb	r2, [r0, #24]
	ldrb	r3, [r0, #25]
	lsls	r3, r3, #8
	adds	r2, r3, r2
	ldrb	r3, [r0, #26]
	lsls	r3, r3, #16
	ldrb	r0, [r0, #27]
	lsls	r0, r0, #24
	adds	r0, r0, r3
	adds	r5, r0, r2
	str	r7, [sp, #52]
	ldr	r0, [sp, #64]
	subs	r0, r0, r7
	str	r1, [sp, #56]
	sbcs	r6, r1
	adds	r0, r5, r0
	adcs	r6, r4
	str	r0, [sp, #48]
	subs	r0, r5, r0
	mov	r0, r4
	sbcs	r0, r6
	bhs	.LBB55_6
	str	r6, [sp, #44]
	b	.LBB55_4
.LBB55_3:
	adds	r5, r5, #1
	ldr	r0, [sp, #64]
	adcs	r4, r0
	ldr	r0, [sp, #48]
	subs	r0, r5, r0
	mov	r0, r4
	ldr	r6, [sp, #44]
	sbcs	r0, r6
	bhs	.LBB55_6
.LBB55_4:
	lsls	r0, r5, #4
	ldr	r6, [sp, #60]
	adds	r1, r6, r0
	ldrb	r2, [r1, #3]
	ldrb	r3, [r1, #2]
	ldrb	r0, [r6, r0]
	ldrb	r1, [r1, #1]
	movs	r6, #5
	str	r6, [sp]
	lsls	r1, r1, #8
	adds	r0, r1, r0
	lsls	r1, r3, #16
	lsls	r2, r2, #24
	adds	r1, r2, r1
	adds	r6, r1, r0
	movs	r7, #1
	movs	r3, #0
	mov	r0, r6
	mov	r2, r7
	str	r3, [sp, #64]
	bl	__atomic_fetch_sub_8
	eors	r0, r7
	orrs	r0, r1
	bne	.LBB55_3
	movs	r0, #56
	ldrb	r0, [r6, r0]
	str	r0, [sp, #40]
	movs	r0, #40
	ldrb	r0, [r6, r0]
	str	r0, [sp, #24]
	mov	r0, r6
	adds	r0, #56
	ldrb	r1, [r0, #3]
	str	r1, [sp, #36]
	ldrb	r1, [r0, #2]
	str	r1, [sp, #32]
	ldrb	r0, [r0, #1]
	str	r0, [sp, #28]
	mov	r0, r6
	adds	r0, #40
	ldrb	r1, [r0, #3]
	str	r1, [sp, #20]
	ldrb	r1, [r0, #2]
	str	r1, [sp, #16]
	ldrb	r7, [r0, #1]
	mov	r0, r6
	bl	tlsf_memory_dealloc
	lsls	r0, r7, #8
	ldr	r1, [sp, #24]
	adds	r0, r0, r1
	ldr	r1, [sp, #16]
	lsls	r1, r1, #16
	ldr	r2, [sp, #20]
	lsls	r2, r2, #24
	adds	r1, r2, r1
	adds	r0, r1, r0
	bl	tlsf_memory_dealloc
	ldr	r0, [sp, #28]
	lsls	r0, r0, #8
	ldr	r1, [sp, #40]
	adds	r0, r0, r1
	ldr	r1, [sp, #32]
	lsls	r1, r1, #16
	ldr	r2, [sp, #36]
	lsls	r2, r2, #24
	adds	r1, r2, r1
	adds	r0, r1, r0
	bl	tlsf_memory_dealloc
	b	.LBB55_3
.LBB55_6:
	ldr	r0, [sp, #52]
	ldr	r1, [sp, #56]
	orrs	r0, r1
	beq	.LBB55_11
	movs	r5, #0
	mov	r4, r5
	b	.LBB55_9
.LBB55_8:
	adds	r4, r4, #1
	ldr	r0, [sp, #64]
	adcs	r5, r0
	ldr	r0, [sp, #52]
	subs	r0, r4, r0
	mov	r0, r5
	ldr	r1, [sp, #56]
	sbcs	r0, r1
	bhs	.LBB55_11
.LBB55_9:
	lsls	r0, r4, #4
	ldr	r6, [sp, #60]
	adds	r1, r6, r0
	ldrb	r2, [r1, #3]
	ldrb	r3, [r1, #2]
	ldrb	r0, [r6, r0]
	ldrb	r1, [r1, #1]
	movs	r6, #5
	str	r6, [sp]
	lsls	r1, r1, #8
	adds	r0, r1, r0
	lsls	r1, r3, #16
	lsls	r2, r2, #24
	adds	r1, r2, r1
	adds	r6, r1, r0
	movs	r7, #1
	movs	r3, #0
	mov	r0, r6
	mov	r2, r7
	str	r3, [sp, #64]
	bl	__atomic_fetch_sub_8
	eors	r0, r7
	orrs	r0, r1
	bne	.LBB55_8
	movs	r0, #56
	ldrb	r0, [r6, r0]
	str	r0, [sp, #48]
	movs	r0, #40
	ldrb	r0, [r6, r0]
	str	r0, [sp, #32]
	mov	r0, r6
	adds	r0, #56
	ldrb	r1, [r0, #3]
	str	r1, [sp, #44]
	ldrb	r1, [r0, #2]
	str	r1, [sp, #40]
	ldrb	r0, [r0, #1]
	str	r0, [sp, #36]
	mov	r0, r6
	adds	r0, #40
	ldrb	r1, [r0, #3]
	str	r1, [sp, #28]
	ldrb	r1, [r0, #2]
	str	r1, [sp, #24]
	ldrb	r7, [r0, #1]
	mov	r0, r6
	bl	tlsf_memory_dealloc
	lsls	r0, r7, #8
	ldr	r1, [sp, #32]
	adds	r0, r0, r1
	ldr	r1, [sp, #24]
	lsls	r1, r1, #16
	ldr	r2, [sp, #28]
	lsls	r2, r2, #24
	adds	r1, r2, r1
	adds	r0, r1, r0
	bl	tlsf_memory_dealloc
	ldr	r0, [sp, #36]
	lsls	r0, r0, #8
	ldr	r1, [sp, #48]
	adds	r0, r0, r1
	ldr	r1, [sp, #40]
	lsls	r1, r1, #16
	ldr	r2, [sp, #44]
	lsls	r2, r2, #24
	adds	r1, r2, r1
	adds	r0, r1, r0
	bl	tlsf_memory_dealloc
	b	.LBB55_8
.LBB55_11:
	ldr	r0, [sp, #12]
	ldr	r1, [sp, #8]
	orrs	r1, r0
	beq	.LBB55_13
	ldr	r0, [sp, #60]
	bl	tlsf_memory_dealloc
.LBB55_13:
	add	sp, #68
	pop	{r4, r5, r6, r7, pc}
.Lfunc_end55:
	.size	std_alloc.vec.deque.VecDeque.drop.ca3d8856d46a41b8, .Lfunc_end55-std_alloc.vec.deque.VecDeque.drop.ca3d8856d46a41b8
	.cfi_endproc
	.section	.text.tlsf_words.words.Words.copy_payload,"ax",%progbits
	.p2align	1
	.type	tlsf_words.words.Words.copy_payload,%function
	.code	16
	.thumb_func
tlsf_words.words.Words.copy_payload:
	.cfi_startproc
	push	{r4, r5, r6, r7, lr}
	.cfi_def_cfa_offset 20
	.cfi_offset lr, -4
	.cfi_offset r7, -8
	.cfi_offset r6, -12
	.cfi_offset r5, -16
	.cfi_offset r4, -20
	sub	sp, #52
	.cfi_def_cfa_offset 72
	mov	r5, r3
	movs	r3, #0
	adds	r2, r2, #3
	str	r2, [sp, #28]
	mov	r7, r3
	adcs	r7, r3
	adds	r2, r1, #3
	mov	r6, r3
	adcs	r6, r3
	movs	r4, #7
	ands	r4, r5
	lsrs	r5, r5, #3
	cmp	r4, #0
	beq	.LBB56_2
	str	r2, [sp, #24]
	adds	r1, r5, r2
	lsls	r2, r1, #3
	ldr	r1, [r0]
	str	r5, [sp, #20]
	ldr	r5, [r1, r2]
	str	r5, [sp, #32]
	adds	r2, r1, r2
	ldr	r2, [r2, #4]
	str	r2, [sp, #36]
	ldr	r5, [sp, #28]
	str	r5, [sp]
	str	r7, [sp, #4]
	ldr	r7, [sp, #20]
	str	r7, [sp, #8]
	str	r3, [sp, #12]
	str	r0, [sp, #16]
	mov	r0, r1
	ldr	r2, [sp, #24]
	mov	r3, r6
	bl	tlsf_words.cells.copy_run
	adds	r0, r7, r5
	lsls	r6, r0, #3
	ldr	r0, [sp, #16]
	ldr	r5, [r0]
	ldr	r0, [r5, r6]
	str	r0, [sp, #40]
	adds	r7, r5, r6
	ldr	r0, [r7, #4]
	str	r0, [sp, #44]
	add	r0, sp, #40
	add	r1, sp, #32
	mov	r2, r4
	bl	tlsf_memory_cpy
	ldr	r0, [sp, #40]
	str	r0, [r5, r6]
	ldr	r0, [sp, #44]
	str	r0, [r7, #4]
	add	sp, #52
	pop	{r4, r5, r6, r7, pc}
.LBB56_2:
	ldr	r0, [r0]
	ldr	r1, [sp, #28]
	str	r1, [sp]
	str	r7, [sp, #4]
	str	r5, [sp, #8]
	str	r3, [sp, #12]
	mov	r3, r6
	bl	tlsf_words.cells.copy_run
	add	sp, #52
	pop	{r4, r5, r6, r7, pc}
.Lfunc_end56:
	.size	tlsf_words.words.Words.copy_payload, .Lfunc_end56-tlsf_words.words.Words.copy_payload
	.cfi_endproc
	.section	.text.tlsf_words.cells.copy_run,"ax",%progbits
	.p2align	2
	.type	tlsf_words.cells.copy_run,%function
	.code	16
	.thumb_func
tlsf_words.cells.copy_run:
	.cfi_startproc
	push	{r4, r5, r6, r7, lr}
	.cfi_def_cfa_offset 20
	.cfi_offset lr, -4
	.cfi_offset r7, -8
	.cfi_offset r6, -12
	.cfi_offset r5, -16
	.cfi_offset r4, -20
	sub	sp, #28
	.cfi_def_cfa_offset 48
	mov	r1, r2
	str	r0, [sp, #16]
	lsrs	r2, r2, #29
	str	r3, [sp, #24]
	lsls	r4, r3, #3
	adds	r5, r4, r2
	ldr	r2, [sp, #48]
	lsrs	r4, r2, #29
	ldr	r0, [sp, #52]
	str	r0, [sp, #20]
	lsls	r7, r0, #3
	adds	r7, r7, r4
	lsls	r0, r1, #3
	lsls	r3, r2, #3
	str	r0, [sp, #8]
	str	r3, [sp, #4]
	subs	r6, r3, r0
	sbcs	r7, r5
	ldr	r5, [sp, #56]
	lsrs	r3, r5, #29
	ldr	r4, [sp, #60]
	lsls	r0, r4, #3
	adds	r3, r0, r3
	lsls	r0, r5, #3
	str	r0, [sp, #12]
	subs	r0, r6, r0
	sbcs	r7, r3
	bhs	.LBB57_2
.LBB57_1:
	add	sp, #28
	pop	{r4, r5, r6, r7, pc}
.LBB57_2:
	str	r3, [sp]
	adds	r0, r5, r1
	mov	r3, r4
	ldr	r6, [sp, #24]
	adcs	r3, r6
	subs	r0, r2, r0
	ldr	r7, [sp, #20]
	mov	r0, r7
	sbcs	r0, r3
	bhs	.LBB57_14
	adds	r0, r5, r2
	adcs	r7, r4
	subs	r0, r1, r0
	sbcs	r6, r7
	ldr	r2, [sp]
	blo	.LBB57_1
	str	r4, [sp, #24]
	ldr	r1, [sp, #16]
	ldr	r0, [sp, #4]
	adds	r0, r1, r0
	ldr	r3, [sp, #8]
	adds	r1, r1, r3
	movs	r6, #0
	subs	r7, r0, r1
	mov	r4, r2
	mov	r3, r6
	sbcs	r3, r6
	ldr	r2, [sp, #12]
	subs	r7, r7, r2
	sbcs	r3, r4
	blo	.LBB57_5
	b	.LBB57_28
.LBB57_5:
	movs	r2, #1
	cmp	r5, #1
	mov	r3, r5
	bhi	.LBB57_7
	mov	r3, r2
.LBB57_7:
	ldr	r4, [sp, #24]
	cmp	r4, #0
	mov	r7, r5
	bne	.LBB57_9
	mov	r7, r2
.LBB57_9:
	beq	.LBB57_11
	mov	r3, r7
.LBB57_11:
	movs	r7, #3
	ands	r7, r3
	subs	r2, r5, #4
	sbcs	r4, r6
	bhs	.LBB57_12
	b	.LBB57_25
.LBB57_12:
	str	r7, [sp, #12]
	ldr	r2, .LCPI57_0
	ands	r3, r2
	mov	r4, r6
	mov	r5, r6
	str	r6, [sp, #20]
	str	r3, [sp, #16]
.LBB57_13:
	str	r5, [sp, #24]
	lsls	r2, r4, #3
	ldr	r3, [r1, r2]
	str	r3, [r0, r2]
	movs	r7, #8
	orrs	r7, r2
	ldr	r3, [r1, r7]
	str	r3, [r0, r7]
	movs	r3, #16
	orrs	r3, r2
	ldr	r6, [r1, r3]
	str	r6, [r0, r3]
	movs	r6, #24
	orrs	r6, r2
	ldr	r5, [r1, r6]
	str	r5, [r0, r6]
	adds	r5, r0, r2
	adds	r2, r1, r2
	ldr	r2, [r2, #4]
	str	r2, [r5, #4]
	adds	r2, r0, r7
	adds	r5, r1, r7
	ldr	r5, [r5, #4]
	str	r5, [r2, #4]
	ldr	r5, [sp, #24]
	adds	r2, r0, r3
	adds	r3, r1, r3
	ldr	r3, [r3, #4]
	str	r3, [r2, #4]
	adds	r2, r0, r6
	adds	r3, r1, r6
	ldr	r6, [sp, #20]
	ldr	r3, [r3, #4]
	str	r3, [r2, #4]
	ldr	r3, [sp, #16]
	adds	r4, r4, #4
	adcs	r5, r6
	mov	r2, r4
	eors	r2, r3
	orrs	r2, r5
	bne	.LBB57_13
	b	.LBB57_24
.LBB57_14:
	ldr	r0, [sp, #16]
	ldr	r1, [sp, #8]
	adds	r1, r0, r1
	ldr	r2, [sp, #4]
	adds	r0, r0, r2
	movs	r6, #0
	subs	r7, r0, r1
	mov	r3, r6
	sbcs	r3, r6
	ldr	r2, [sp, #12]
	subs	r7, r7, r2
	ldr	r7, [sp]
	sbcs	r3, r7
	bhs	.LBB57_28
	movs	r2, #1
	cmp	r5, #1
	mov	r3, r5
	bhi	.LBB57_17
	mov	r3, r2
.LBB57_17:
	cmp	r4, #0
	mov	r7, r5
	bne	.LBB57_19
	mov	r7, r2
.LBB57_19:
	beq	.LBB57_21
	mov	r3, r7
.LBB57_21:
	movs	r7, #3
	ands	r7, r3
	subs	r2, r5, #4
	sbcs	r4, r6
	blo	.LBB57_25
	str	r7, [sp, #12]
	ldr	r2, .LCPI57_0
	ands	r3, r2
	mov	r4, r6
	mov	r5, r6
	str	r6, [sp, #20]
	str	r3, [sp, #16]
.LBB57_23:
	str	r5, [sp, #24]
	lsls	r2, r4, #3
	ldr	r3, [r1, r2]
	str	r3, [r0, r2]
	movs	r7, #8
	orrs	r7, r2
	ldr	r3, [r1, r7]
	str	r3, [r0, r7]
	movs	r3, #16
	orrs	r3, r2
	ldr	r6, [r1, r3]
	str	r6, [r0, r3]
	movs	r6, #24
	orrs	r6, r2
	ldr	r5, [r1, r6]
	str	r5, [r0, r6]
	adds	r5, r0, r2
	adds	r2, r1, r2
	ldr	r2, [r2, #4]
	str	r2, [r5, #4]
	adds	r2, r0, r7
	adds	r5, r1, r7
	ldr	r5, [r5, #4]
	str	r5, [r2, #4]
	ldr	r5, [sp, #24]
	adds	r2, r0, r3
	adds	r3, r1, r3
	ldr	r3, [r3, #4]
	str	r3, [r2, #4]
	adds	r2, r0, r6
	adds	r3, r1, r6
	ldr	r6, [sp, #20]
	ldr	r3, [r3, #4]
	str	r3, [r2, #4]
	ldr	r3, [sp, #16]
	adds	r4, r4, #4
	adcs	r5, r6
	mov	r2, r4
	eors	r2, r3
	orrs	r2, r5
	bne	.LBB57_23
.LBB57_24:
	ldr	r7, [sp, #12]
	cmp	r7, #0
	mov	r6, r4
	bne	.LBB57_25
	b	.LBB57_1
.LBB57_25:
	lsls	r3, r6, #3
	ldr	r2, [r1, r3]
	str	r2, [r0, r3]
	adds	r4, r0, r3
	adds	r2, r1, r3
	ldr	r2, [r2, #4]
	str	r2, [r4, #4]
	cmp	r7, #1
	bne	.LBB57_26
	b	.LBB57_1
.LBB57_26:
	mov	r4, r3
	adds	r4, #8
	ldr	r2, [r1, r4]
	str	r2, [r0, r4]
	adds	r2, r0, r4
	adds	r4, r1, r4
	ldr	r4, [r4, #4]
	str	r4, [r2, #4]
	cmp	r7, #2
	bne	.LBB57_27
	b	.LBB57_1
.LBB57_27:
	adds	r3, #16
	ldr	r2, [r1, r3]
	str	r2, [r0, r3]
	adds	r0, r0, r3
	adds	r1, r1, r3
	ldr	r1, [r1, #4]
	str	r1, [r0, #4]
	add	sp, #28
	pop	{r4, r5, r6, r7, pc}
.LBB57_28:
	bl	tlsf_memory_move
	add	sp, #28
	pop	{r4, r5, r6, r7, pc}
	.p2align	2
.LCPI57_0:
	.long	536870908
.Lfunc_end57:
	.size	tlsf_words.cells.copy_run, .Lfunc_end57-tlsf_words.cells.copy_run
	.cfi_endproc
	.section	.text.tlsf_c.lane_calls.take_name,"ax",%progbits
	.p2align	1
	.type	tlsf_c.lane_calls.take_name,%function
	.code	16
	.thumb_func
tlsf_c.lane_calls.take_name:
	.cfi_startproc
	push	{r4, r5, r6, r7, lr}
	.cfi_def_cfa_offset 20
	.cfi_offset lr, -4
	.cfi_offset r7, -8
	.cfi_offset r6, -12
	.cfi_offset r5, -16
	.cfi_offset r4, -20
	sub	sp, #84
	.cfi_def_cfa_offset 104
	mov	r4, r1
	mov	r5, r0
	ldr	r3, [r0, #24]
	ldr	r2, [r0, #28]
	ldr	r1, [r0, #32]
	ldr	r0, [r0, #36]
	subs	r6, r1, r3
	mov	r6, r0
	sbcs	r6, r2
	bhs	.LBB58_2
	subs	r1, r1, r3
	str	r1, [sp, #80]
	mov	r6, r0
	sbcs	r6, r2
	ldr	r7, [r5, #16]
	ldr	r0, [r5, #20]
	lsrs	r1, r7, #31
	lsls	r0, r0, #1
	adds	r0, r0, r1
	lsls	r1, r7, #1
	ldr	r7, [sp, #80]
	adds	r1, r7, r1
	adcs	r0, r6
	orrs	r1, r0
	bne	.LBB58_5
	b	.LBB58_3
.LBB58_2:
	subs	r1, r1, r3
	sbcs	r0, r2
	orrs	r1, r0
	bne	.LBB58_5
.LBB58_3:
	ldr	r0, [r5]
	adds	r0, #128
	movs	r1, #5
	bl	__atomic_load_8
	str	r0, [r5, #32]
	str	r1, [r5, #36]
	ldr	r3, [r5, #24]
	ldr	r2, [r5, #28]
	subs	r6, r0, r3
	mov	r6, r1
	sbcs	r6, r2
	blo	.LBB58_4
	b	.LBB58_16
.LBB58_4:
	subs	r0, r0, r3
	str	r0, [sp, #80]
	mov	r6, r1
	sbcs	r6, r2
	ldr	r7, [r5, #16]
	ldr	r1, [r5, #20]
	lsrs	r0, r7, #31
	lsls	r1, r1, #1
	adds	r1, r1, r0
	lsls	r0, r7, #1
	ldr	r7, [sp, #80]
	adds	r0, r7, r0
	adcs	r1, r6
	orrs	r0, r1
	beq	.LBB58_17
.LBB58_5:
	ldr	r1, [r5, #16]
	str	r5, [sp, #80]
	ldr	r0, [r5, #20]
	subs	r7, r3, r1
	mov	r5, r2
	mov	r6, r2
	str	r0, [sp, #12]
	sbcs	r6, r0
	mov	r6, r3
	blo	.LBB58_7
	mov	r6, r7
.LBB58_7:
	movs	r7, #24
	muls	r7, r6, r7
	ldr	r2, [sp, #80]
	ldr	r6, [r2, #8]
	adds	r6, r6, r7
	ldrb	r0, [r6, #8]
	str	r0, [sp, #76]
	ldrb	r0, [r6, #9]
	str	r0, [sp, #72]
	ldrb	r0, [r6, #10]
	str	r0, [sp, #68]
	ldrb	r0, [r6, #11]
	str	r0, [sp, #64]
	ldrb	r0, [r6, #12]
	str	r0, [sp, #60]
	ldrb	r0, [r6, #13]
	str	r0, [sp, #56]
	ldrb	r0, [r6, #14]
	str	r0, [sp, #52]
	ldrb	r0, [r6, #15]
	str	r0, [sp, #48]
	ldrb	r0, [r6, #16]
	str	r0, [sp, #44]
	ldrb	r0, [r6, #17]
	str	r0, [sp, #40]
	ldrb	r0, [r6, #18]
	str	r0, [sp, #36]
	ldrb	r0, [r6, #19]
	str	r0, [sp, #32]
	ldrb	r0, [r6, #20]
	str	r0, [sp, #28]
	ldrb	r0, [r6, #21]
	str	r0, [sp, #24]
	ldrb	r0, [r6, #22]
	str	r0, [sp, #20]
	ldrb	r0, [r6, #23]
	str	r0, [sp, #16]
	ldr	r0, [r2]
	str	r0, [sp, #8]
	movs	r6, #5
	str	r6, [sp]
	movs	r2, #0
	adds	r0, r3, #1
	str	r0, [sp, #4]
	mov	r7, r5
	adcs	r5, r2
	lsrs	r0, r1, #31
	ldr	r6, [sp, #12]
	lsls	r6, r6, #1
	adds	r0, r6, r0
	mov	r6, r2
	lsls	r1, r1, #1
	subs	r1, r1, #1
	sbcs	r0, r2
	subs	r1, r3, r1
	sbcs	r7, r0
	blo	.LBB58_9
	mov	r0, r6
	b	.LBB58_10
.LBB58_9:
	movs	r0, #1
.LBB58_10:
	cmp	r0, #0
	ldr	r7, [sp, #4]
	bne	.LBB58_12
	mov	r5, r0
.LBB58_12:
	bne	.LBB58_14
	mov	r7, r0
.LBB58_14:
	ldr	r0, [sp, #8]
	mov	r2, r7
	mov	r3, r5
	bl	__atomic_store_8
	ldr	r0, [sp, #80]
	str	r7, [r0, #24]
	str	r5, [r0, #28]
	ldr	r0, [sp, #16]
	strb	r0, [r4, #15]
	ldr	r0, [sp, #20]
	strb	r0, [r4, #14]
	ldr	r0, [sp, #24]
	strb	r0, [r4, #13]
	ldr	r0, [sp, #28]
	strb	r0, [r4, #12]
	ldr	r0, [sp, #32]
	strb	r0, [r4, #11]
	ldr	r0, [sp, #36]
	strb	r0, [r4, #10]
	ldr	r0, [sp, #40]
	strb	r0, [r4, #9]
	ldr	r0, [sp, #44]
	strb	r0, [r4, #8]
	ldr	r0, [sp, #48]
	strb	r0, [r4, #7]
	ldr	r0, [sp, #52]
	strb	r0, [r4, #6]
	ldr	r0, [sp, #56]
	strb	r0, [r4, #5]
	ldr	r0, [sp, #60]
	strb	r0, [r4, #4]
	ldr	r0, [sp, #64]
	strb	r0, [r4, #3]
	ldr	r0, [sp, #68]
	strb	r0, [r4, #2]
	ldr	r0, [sp, #72]
	strb	r0, [r4, #1]
	ldr	r0, [sp, #76]
	strb	r0, [r4]
.LBB58_15:
	mov	r0, r6
	add	sp, #84
	pop	{r4, r5, r6, r7, pc}
.LBB58_16:
	subs	r0, r0, r3
	sbcs	r1, r2
	orrs	r0, r1
	bne	.LBB58_5
.LBB58_17:
	movs	r6, #35
	b	.LBB58_15
.Lfunc_end58:
	.size	tlsf_c.lane_calls.take_name, .Lfunc_end58-tlsf_c.lane_calls.take_name
	.cfi_endproc
	.section	.text.tlsf_heap.region.Region.write.4,"ax",%progbits
	.p2align	1
	.type	tlsf_heap.region.Region.write.4,%function
	.code	16
	.thumb_func
tlsf_heap.region.Region.write.4:
	.cfi_startproc
	push	{r4, r5, r6, r7, lr}
	.cfi_def_cfa_offset 20
	.cfi_offset lr, -4
	.cfi_offset r7, -8
	.cfi_offset r6, -12
	.cfi_offset r5, -16
	.cfi_offset r4, -20
	sub	sp, #44
	.cfi_def_cfa_offset 64
	mov	r4, r2
	lsrs	r5, r1, #29
	lsls	r1, r1, #3
	movs	r6, #0
	adds	r2, r1, r2
	adcs	r5, r6
	adds	r2, #24
	adcs	r5, r6
	ldr	r7, [sp, #64]
	orrs	r4, r7
	lsls	r1, r4, #29
	ldr	r1, [sp, #68]
	beq	.LBB59_3
	movs	r4, #7
	subs	r4, r4, r7
	sbcs	r6, r1
	bhs	.LBB59_2
	b	.LBB59_10
.LBB59_2:
	str	r3, [sp]
	str	r7, [sp, #8]
	str	r1, [sp, #12]
	mov	r3, r5
	bl	tlsf_words.words.Words.write_few
	add	sp, #44
	pop	{r4, r5, r6, r7, pc}
.LBB59_3:
	movs	r4, #7
	bics	r2, r4
	ldr	r0, [r0]
	adds	r0, r0, r2
	lsrs	r2, r7, #3
	lsls	r4, r1, #29
	adds	r2, r2, r4
	movs	r4, #63
	subs	r4, r4, r7
	mov	r4, r6
	sbcs	r4, r1
	bhs	.LBB59_4
	b	.LBB59_12
.LBB59_4:
	str	r0, [sp, #40]
	lsls	r4, r7, #28
	bpl	.LBB59_6
	str	r2, [sp, #36]
	ldr	r0, [sp, #36]
	lsls	r2, r0, #3
	subs	r2, #8
	ldrb	r4, [r3, r2]
	adds	r0, r3, r2
	ldrb	r5, [r0, #1]
	lsls	r5, r5, #8
	adds	r5, r5, r4
	str	r5, [sp, #32]
	ldrb	r5, [r0, #2]
	lsls	r4, r5, #16
	ldrb	r5, [r0, #3]
	lsls	r5, r5, #24
	adds	r5, r5, r4
	ldr	r4, [sp, #32]
	adds	r4, r5, r4
	str	r4, [sp, #28]
	ldrb	r5, [r0, #7]
	str	r5, [sp, #32]
	ldrb	r4, [r0, #6]
	str	r4, [sp, #24]
	ldrb	r4, [r0, #4]
	str	r4, [sp, #20]
	ldrb	r0, [r0, #5]
	ldr	r5, [sp, #40]
	ldr	r4, [sp, #28]
	str	r4, [r5, r2]
	lsls	r0, r0, #8
	ldr	r4, [sp, #20]
	adds	r0, r0, r4
	str	r0, [sp, #20]
	ldr	r0, [sp, #24]
	lsls	r0, r0, #16
	str	r0, [sp, #28]
	ldr	r0, [sp, #32]
	lsls	r0, r0, #24
	ldr	r4, [sp, #28]
	adds	r0, r0, r4
	ldr	r4, [sp, #20]
	adds	r0, r0, r4
	adds	r4, r5, r2
	ldr	r2, [sp, #36]
	str	r0, [r4, #4]
.LBB59_6:
	lsls	r0, r7, #27
	bpl	.LBB59_8
	lsls	r0, r2, #3
	movs	r2, #32
	ands	r2, r0
	ldrb	r0, [r3, r2]
	adds	r4, r3, r2
	ldrb	r5, [r4, #1]
	lsls	r5, r5, #8
	adds	r0, r5, r0
	str	r0, [sp, #36]
	ldrb	r5, [r4, #2]
	lsls	r5, r5, #16
	ldrb	r0, [r4, #3]
	lsls	r0, r0, #24
	adds	r0, r0, r5
	ldr	r5, [sp, #36]
	adds	r0, r0, r5
	str	r0, [sp, #28]
	ldrb	r0, [r4, #7]
	str	r0, [sp, #36]
	ldrb	r0, [r4, #6]
	str	r0, [sp, #32]
	ldrb	r0, [r4, #4]
	str	r0, [sp, #24]
	ldrb	r4, [r4, #5]
	ldr	r0, [sp, #40]
	ldr	r5, [sp, #28]
	str	r5, [r0, r2]
	lsls	r4, r4, #8
	ldr	r5, [sp, #24]
	adds	r4, r4, r5
	str	r4, [sp, #28]
	ldr	r4, [sp, #32]
	lsls	r4, r4, #16
	ldr	r5, [sp, #36]
	lsls	r5, r5, #24
	adds	r4, r5, r4
	ldr	r5, [sp, #28]
	adds	r5, r4, r5
	adds	r4, r0, r2
	str	r5, [r4, #4]
	adds	r2, #8
	ldrb	r0, [r3, r2]
	adds	r4, r3, r2
	ldrb	r5, [r4, #1]
	lsls	r5, r5, #8
	adds	r0, r5, r0
	str	r0, [sp, #36]
	ldrb	r5, [r4, #2]
	lsls	r5, r5, #16
	ldrb	r0, [r4, #3]
	lsls	r0, r0, #24
	adds	r0, r0, r5
	ldr	r5, [sp, #36]
	adds	r0, r0, r5
	str	r0, [sp, #28]
	ldrb	r0, [r4, #7]
	str	r0, [sp, #36]
	ldrb	r0, [r4, #6]
	str	r0, [sp, #32]
	ldrb	r0, [r4, #4]
	str	r0, [sp, #24]
	ldrb	r4, [r4, #5]
	ldr	r0, [sp, #40]
	ldr	r5, [sp, #28]
	str	r5, [r0, r2]
	lsls	r4, r4, #8
	ldr	r5, [sp, #24]
	adds	r4, r4, r5
	str	r4, [sp, #28]
	ldr	r4, [sp, #32]
	lsls	r4, r4, #16
	ldr	r5, [sp, #36]
	lsls	r5, r5, #24
	adds	r4, r5, r4
	ldr	r5, [sp, #28]
	adds	r4, r4, r5
	adds	r2, r0, r2
	str	r4, [r2, #4]
.LBB59_8:
	subs	r7, #25
	sbcs	r1, r6
	blo	.LBB59_11
	ldrb	r0, [r3]
	ldrb	r1, [r3, #1]
	lsls	r1, r1, #8
	adds	r0, r1, r0
	ldrb	r1, [r3, #2]
	lsls	r1, r1, #16
	ldrb	r2, [r3, #3]
	lsls	r2, r2, #24
	adds	r1, r2, r1
	adds	r0, r1, r0
	ldrb	r1, [r3, #7]
	ldrb	r2, [r3, #6]
	ldrb	r4, [r3, #4]
	ldrb	r5, [r3, #5]
	ldr	r6, [sp, #40]
	str	r0, [r6]
	lsls	r0, r5, #8
	adds	r0, r0, r4
	lsls	r2, r2, #16
	lsls	r1, r1, #24
	adds	r1, r1, r2
	adds	r0, r1, r0
	str	r0, [r6, #4]
	ldrb	r0, [r3, #8]
	ldrb	r1, [r3, #9]
	lsls	r1, r1, #8
	adds	r0, r1, r0
	ldrb	r1, [r3, #10]
	lsls	r1, r1, #16
	ldrb	r2, [r3, #11]
	lsls	r2, r2, #24
	adds	r1, r2, r1
	adds	r0, r1, r0
	ldrb	r1, [r3, #15]
	ldrb	r2, [r3, #14]
	ldrb	r4, [r3, #12]
	ldrb	r5, [r3, #13]
	str	r0, [r6, #8]
	lsls	r0, r5, #8
	adds	r0, r0, r4
	lsls	r2, r2, #16
	lsls	r1, r1, #24
	adds	r1, r1, r2
	adds	r0, r1, r0
	str	r0, [r6, #12]
	ldrb	r0, [r3, #16]
	ldrb	r1, [r3, #17]
	lsls	r1, r1, #8
	adds	r0, r1, r0
	ldrb	r1, [r3, #18]
	lsls	r1, r1, #16
	ldrb	r2, [r3, #19]
	lsls	r2, r2, #24
	adds	r1, r2, r1
	adds	r0, r1, r0
	ldrb	r1, [r3, #23]
	ldrb	r2, [r3, #22]
	ldrb	r4, [r3, #20]
	ldrb	r5, [r3, #21]
	str	r0, [r6, #16]
	lsls	r0, r5, #8
	adds	r0, r0, r4
	lsls	r2, r2, #16
	lsls	r1, r1, #24
	adds	r1, r1, r2
	adds	r0, r1, r0
	str	r0, [r6, #20]
	ldrb	r0, [r3, #24]
	ldrb	r1, [r3, #25]
	lsls	r1, r1, #8
	adds	r0, r1, r0
	ldrb	r1, [r3, #26]
	lsls	r1, r1, #16
	ldrb	r2, [r3, #27]
	lsls	r2, r2, #24
	adds	r1, r2, r1
	adds	r0, r1, r0
	ldrb	r1, [r3, #31]
	ldrb	r2, [r3, #30]
	ldrb	r4, [r3, #28]
	ldrb	r3, [r3, #29]
	str	r0, [r6, #24]
	lsls	r0, r3, #8
	adds	r0, r0, r4
	lsls	r2, r2, #16
	lsls	r1, r1, #24
	adds	r1, r1, r2
	adds	r0, r1, r0
	str	r0, [r6, #28]
	add	sp, #44
	pop	{r4, r5, r6, r7, pc}
.LBB59_10:
	str	r3, [sp]
	str	r7, [sp, #8]
	str	r1, [sp, #12]
	mov	r3, r5
	bl	tlsf_words.words.Words.write_run
.LBB59_11:
	add	sp, #44
	pop	{r4, r5, r6, r7, pc}
.LBB59_12:
	lsrs	r1, r1, #3
	str	r3, [sp]
	mov	r3, r1
	bl	tlsf_words.cells.pack_many
	add	sp, #44
	pop	{r4, r5, r6, r7, pc}
.Lfunc_end59:
	.size	tlsf_heap.region.Region.write.4, .Lfunc_end59-tlsf_heap.region.Region.write.4
	.cfi_endproc
	.section	.text.tlsf_words.cells.pack_many,"ax",%progbits
	.p2align	1
	.type	tlsf_words.cells.pack_many,%function
	.code	16
	.thumb_func
tlsf_words.cells.pack_many:
	.cfi_startproc
	push	{r4, r5, r6, r7, lr}
	.cfi_def_cfa_offset 20
	.cfi_offset lr, -4
	.cfi_offset r7, -8
	.cfi_offset r6, -12
	.cfi_offset r5, -16
	.cfi_offset r4, -20
	sub	sp, #36
	.cfi_def_cfa_offset 56
	movs	r1, #3
	mov	r4, r2
	bics	r4, r1
	lsls	r1, r4, #3
	ldr	r5, [sp, #56]
	str	r5, [sp, #32]
	adds	r6, r5, r1
	adds	r1, r0, r1
	str	r1, [sp, #28]
	lsls	r1, r2, #31
	str	r0, [sp, #8]
	beq	.LBB60_2
	lsls	r1, r2, #30
	str	r2, [sp, #12]
	lsrs	r2, r1, #27
	subs	r2, #8
	ldrb	r7, [r6, r2]
	adds	r1, r6, r2
	ldrb	r5, [r1, #1]
	lsls	r5, r5, #8
	adds	r5, r5, r7
	str	r5, [sp, #24]
	ldrb	r5, [r1, #2]
	lsls	r7, r5, #16
	ldrb	r5, [r1, #3]
	lsls	r5, r5, #24
	adds	r5, r5, r7
	ldr	r7, [sp, #24]
	adds	r5, r5, r7
	str	r5, [sp, #4]
	ldrb	r5, [r1, #7]
	str	r5, [sp, #24]
	ldrb	r5, [r1, #6]
	str	r5, [sp]
	ldrb	r5, [r1, #4]
	ldrb	r1, [r1, #5]
	ldr	r0, [sp, #28]
	ldr	r7, [sp, #4]
	str	r7, [r0, r2]
	lsls	r1, r1, #8
	adds	r7, r1, r5
	ldr	r1, [sp]
	lsls	r5, r1, #16
	ldr	r1, [sp, #24]
	lsls	r1, r1, #24
	adds	r1, r1, r5
	adds	r1, r1, r7
	adds	r5, r0, r2
	ldr	r2, [sp, #12]
	str	r1, [r5, #4]
.LBB60_2:
	lsls	r1, r2, #30
	bpl	.LBB60_4
	ldrb	r1, [r6]
	ldrb	r2, [r6, #1]
	lsls	r2, r2, #8
	adds	r1, r2, r1
	ldrb	r2, [r6, #2]
	lsls	r2, r2, #16
	ldrb	r5, [r6, #3]
	lsls	r5, r5, #24
	adds	r2, r5, r2
	adds	r2, r2, r1
	ldrb	r0, [r6, #7]
	str	r0, [sp, #24]
	ldrb	r5, [r6, #6]
	ldrb	r7, [r6, #4]
	ldrb	r1, [r6, #5]
	ldr	r0, [sp, #28]
	str	r2, [r0]
	lsls	r1, r1, #8
	adds	r1, r1, r7
	lsls	r2, r5, #16
	ldr	r5, [sp, #24]
	lsls	r5, r5, #24
	adds	r2, r5, r2
	adds	r1, r2, r1
	str	r1, [r0, #4]
	ldrb	r1, [r6, #8]
	ldrb	r2, [r6, #9]
	lsls	r2, r2, #8
	adds	r1, r2, r1
	ldrb	r2, [r6, #10]
	lsls	r2, r2, #16
	ldrb	r5, [r6, #11]
	lsls	r5, r5, #24
	adds	r2, r5, r2
	adds	r1, r2, r1
	ldrb	r2, [r6, #15]
	ldrb	r5, [r6, #14]
	ldrb	r7, [r6, #12]
	ldrb	r6, [r6, #13]
	str	r1, [r0, #8]
	lsls	r1, r6, #8
	adds	r1, r1, r7
	lsls	r5, r5, #16
	lsls	r2, r2, #24
	adds	r2, r2, r5
	adds	r1, r2, r1
	str	r1, [r0, #12]
.LBB60_4:
	movs	r1, #0
	mov	r2, r1
	str	r1, [sp, #12]
	ldr	r5, [sp, #8]
	str	r3, [sp, #20]
	str	r4, [sp, #16]
.LBB60_5:
	str	r1, [sp, #24]
	str	r2, [sp, #28]
	lsls	r7, r2, #3
	ldr	r0, [sp, #32]
	ldrb	r1, [r0, r7]
	ldr	r0, [sp, #32]
	adds	r3, r0, r7
	ldrb	r2, [r3, #1]
	lsls	r2, r2, #8
	adds	r1, r2, r1
	ldrb	r2, [r3, #2]
	lsls	r2, r2, #16
	ldrb	r4, [r3, #3]
	lsls	r4, r4, #24
	adds	r2, r4, r2
	adds	r1, r2, r1
	ldrb	r2, [r3, #7]
	ldrb	r4, [r3, #6]
	ldrb	r0, [r3, #4]
	ldrb	r3, [r3, #5]
	str	r1, [r5, r7]
	lsls	r1, r3, #8
	adds	r0, r1, r0
	lsls	r1, r4, #16
	lsls	r2, r2, #24
	adds	r1, r2, r1
	adds	r0, r1, r0
	adds	r1, r5, r7
	str	r0, [r1, #4]
	movs	r1, #8
	orrs	r1, r7
	ldr	r0, [sp, #32]
	ldrb	r0, [r0, r1]
	ldr	r2, [sp, #32]
	adds	r2, r2, r1
	ldrb	r3, [r2, #1]
	lsls	r3, r3, #8
	adds	r0, r3, r0
	ldrb	r3, [r2, #2]
	lsls	r3, r3, #16
	ldrb	r4, [r2, #3]
	lsls	r4, r4, #24
	adds	r3, r4, r3
	adds	r0, r3, r0
	ldrb	r3, [r2, #7]
	ldrb	r4, [r2, #6]
	ldrb	r6, [r2, #4]
	ldrb	r2, [r2, #5]
	str	r0, [r5, r1]
	lsls	r0, r2, #8
	adds	r0, r0, r6
	lsls	r2, r4, #16
	lsls	r3, r3, #24
	adds	r2, r3, r2
	adds	r0, r2, r0
	adds	r1, r5, r1
	str	r0, [r1, #4]
	movs	r1, #16
	orrs	r1, r7
	ldr	r0, [sp, #32]
	ldrb	r0, [r0, r1]
	ldr	r2, [sp, #32]
	adds	r2, r2, r1
	ldrb	r3, [r2, #1]
	lsls	r3, r3, #8
	adds	r0, r3, r0
	ldrb	r3, [r2, #2]
	lsls	r3, r3, #16
	ldrb	r4, [r2, #3]
	lsls	r4, r4, #24
	adds	r3, r4, r3
	adds	r0, r3, r0
	ldrb	r3, [r2, #7]
	ldrb	r4, [r2, #6]
	ldrb	r6, [r2, #4]
	ldrb	r2, [r2, #5]
	str	r0, [r5, r1]
	lsls	r0, r2, #8
	adds	r0, r0, r6
	lsls	r2, r4, #16
	lsls	r3, r3, #24
	adds	r2, r3, r2
	adds	r0, r2, r0
	adds	r1, r5, r1
	str	r0, [r1, #4]
	movs	r1, #24
	orrs	r1, r7
	ldr	r2, [sp, #32]
	ldrb	r0, [r2, r1]
	adds	r2, r2, r1
	ldrb	r3, [r2, #1]
	lsls	r3, r3, #8
	adds	r0, r3, r0
	ldrb	r3, [r2, #2]
	lsls	r3, r3, #16
	ldrb	r4, [r2, #3]
	lsls	r4, r4, #24
	adds	r3, r4, r3
	adds	r0, r3, r0
	ldrb	r3, [r2, #7]
	ldrb	r4, [r2, #6]
	ldrb	r6, [r2, #4]
	ldrb	r2, [r2, #5]
	str	r0, [r5, r1]
	lsls	r0, r2, #8
	adds	r0, r0, r6
	lsls	r2, r4, #16
	ldr	r4, [sp, #16]
	lsls	r3, r3, #24
	adds	r2, r3, r2
	ldr	r3, [sp, #20]
	adds	r0, r2, r0
	ldr	r2, [sp, #28]
	adds	r1, r5, r1
	str	r0, [r1, #4]
	ldr	r1, [sp, #24]
	adds	r2, r2, #4
	ldr	r0, [sp, #12]
	adcs	r1, r0
	subs	r0, r2, r4
	mov	r0, r1
	sbcs	r0, r3
	blo	.LBB60_5
	add	sp, #36
	pop	{r4, r5, r6, r7, pc}
.Lfunc_end60:
	.size	tlsf_words.cells.pack_many, .Lfunc_end60-tlsf_words.cells.pack_many
	.cfi_endproc
	.section	.text.tlsf_words.words.Words.write_few,"ax",%progbits
	.p2align	1
	.type	tlsf_words.words.Words.write_few,%function
	.code	16
	.thumb_func
tlsf_words.words.Words.write_few:
	.cfi_startproc
	push	{r4, r5, r6, r7, lr}
	.cfi_def_cfa_offset 20
	.cfi_offset lr, -4
	.cfi_offset r7, -8
	.cfi_offset r6, -12
	.cfi_offset r5, -16
	.cfi_offset r4, -20
	sub	sp, #44
	.cfi_def_cfa_offset 64
	str	r3, [sp, #20]
	movs	r3, #7
	ands	r3, r2
	movs	r1, #8
	subs	r7, r1, r3
	ldr	r4, [sp, #76]
	movs	r6, #0
	ldr	r5, [sp, #72]
	subs	r1, r7, r5
	mov	r1, r6
	sbcs	r1, r4
	str	r7, [sp, #24]
	str	r7, [sp, #28]
	mov	r7, r5
	blo	.LBB61_2
	str	r7, [sp, #28]
.LBB61_2:
	ldr	r1, [sp, #20]
	lsls	r1, r1, #29
	lsrs	r2, r2, #3
	adds	r2, r2, r1
	mov	r1, r7
	orrs	r1, r4
	ldr	r5, [sp, #64]
	beq	.LBB61_4
	str	r4, [sp, #16]
	lsls	r4, r2, #3
	str	r0, [sp, #20]
	ldr	r0, [sp, #20]
	str	r6, [sp, #12]
	ldr	r6, [r0]
	ldr	r1, [r6, r4]
	str	r1, [sp, #32]
	adds	r0, r6, r4
	str	r0, [sp, #4]
	ldr	r1, [r0, #4]
	str	r1, [sp, #36]
	add	r1, sp, #32
	adds	r0, r1, r3
	mov	r1, r5
	str	r5, [sp, #8]
	mov	r5, r2
	ldr	r2, [sp, #28]
	bl	tlsf_memory_cpy
	mov	r2, r5
	ldr	r5, [sp, #8]
	ldr	r0, [sp, #32]
	str	r0, [r6, r4]
	ldr	r6, [sp, #12]
	ldr	r4, [sp, #16]
	ldr	r0, [sp, #20]
	ldr	r1, [sp, #36]
	ldr	r3, [sp, #4]
	str	r1, [r3, #4]
.LBB61_4:
	ldr	r1, [sp, #24]
	subs	r1, r1, r7
	sbcs	r6, r4
	bhs	.LBB61_6
	lsls	r2, r2, #3
	ldr	r1, [r0]
	adds	r4, r1, r2
	ldr	r0, [r4, #8]
	ldr	r1, [r4, #12]
	str	r1, [sp, #36]
	str	r0, [sp, #32]
	ldr	r0, [sp, #28]
	adds	r1, r5, r0
	subs	r2, r7, r0
	add	r0, sp, #32
	bl	tlsf_memory_cpy
	ldr	r0, [sp, #36]
	ldr	r1, [sp, #32]
	str	r1, [r4, #8]
	str	r0, [r4, #12]
.LBB61_6:
	add	sp, #44
	pop	{r4, r5, r6, r7, pc}
.Lfunc_end61:
	.size	tlsf_words.words.Words.write_few, .Lfunc_end61-tlsf_words.words.Words.write_few
	.cfi_endproc
	.section	.text.tlsf_words.words.Words.write_run,"ax",%progbits
	.p2align	1
	.type	tlsf_words.words.Words.write_run,%function
	.code	16
	.thumb_func
tlsf_words.words.Words.write_run:
	.cfi_startproc
	push	{r4, r5, r6, r7, lr}
	.cfi_def_cfa_offset 20
	.cfi_offset lr, -4
	.cfi_offset r7, -8
	.cfi_offset r6, -12
	.cfi_offset r5, -16
	.cfi_offset r4, -20
	sub	sp, #68
	.cfi_def_cfa_offset 88
	mov	r5, r2
	mov	r6, r0
	movs	r1, #0
	adds	r0, r2, #7
	adcs	r3, r1
	lsls	r2, r3, #29
	str	r2, [sp, #44]
	lsrs	r0, r0, #3
	str	r0, [sp, #24]
	rsbs	r7, r5, #0
	movs	r4, #7
	ands	r7, r4
	ldr	r2, [sp, #100]
	ldr	r0, [sp, #96]
	str	r0, [sp, #36]
	subs	r3, r0, r7
	str	r2, [sp, #28]
	sbcs	r2, r1
	mov	r0, r3
	bics	r0, r4
	str	r7, [sp, #40]
	adds	r0, r0, r7
	str	r0, [sp, #32]
	str	r3, [sp, #48]
	lsrs	r3, r3, #3
	str	r2, [sp, #52]
	lsls	r0, r2, #29
	str	r0, [sp, #20]
	mov	r2, r5
	ands	r2, r4
	str	r1, [sp, #56]
	mvns	r0, r1
	ldr	r7, [sp, #88]
	cmp	r2, #0
	str	r6, [sp, #60]
	str	r0, [sp, #64]
	beq	.LBB62_2
	ldrb	r0, [r7]
	ldrb	r1, [r7, #1]
	lsls	r1, r1, #8
	adds	r0, r1, r0
	ldrb	r1, [r7, #2]
	lsls	r1, r1, #16
	str	r3, [sp, #16]
	ldrb	r3, [r7, #3]
	lsls	r3, r3, #24
	adds	r1, r3, r1
	adds	r0, r1, r0
	ldrb	r1, [r7, #4]
	ldrb	r3, [r7, #5]
	lsls	r3, r3, #8
	adds	r1, r3, r1
	ldrb	r3, [r7, #6]
	lsls	r3, r3, #16
	ldrb	r6, [r7, #7]
	lsls	r6, r6, #24
	adds	r3, r6, r3
	adds	r1, r3, r1
	lsls	r6, r2, #3
	mov	r2, r6
	bl	__aeabi_llsl
	str	r0, [sp, #8]
	str	r1, [sp, #12]
	ldr	r0, [sp, #64]
	ldr	r1, [sp, #64]
	mov	r2, r6
	ldr	r6, [sp, #60]
	bl	__aeabi_llsl
	bics	r5, r4
	ldr	r2, [r6]
	adds	r3, r2, r5
	ldr	r4, [r3, #4]
	bics	r4, r1
	ldr	r1, [r2, r5]
	bics	r1, r0
	ldr	r0, [sp, #8]
	adds	r0, r0, r1
	str	r0, [r2, r5]
	ldr	r1, [sp, #12]
	adcs	r4, r1
	str	r4, [r3, #4]
	ldr	r3, [sp, #16]
.LBB62_2:
	ldr	r0, [sp, #44]
	ldr	r1, [sp, #24]
	adds	r2, r1, r0
	ldr	r0, [sp, #20]
	adds	r0, r3, r0
	str	r0, [sp, #44]
	ldr	r4, [sp, #36]
	mov	r0, r4
	ldr	r5, [sp, #32]
	eors	r0, r5
	ldr	r1, [sp, #28]
	orrs	r0, r1
	beq	.LBB62_4
	adds	r1, r7, r4
	subs	r1, #8
	ldrb	r0, [r1]
	str	r2, [sp, #28]
	ldrb	r2, [r1, #1]
	lsls	r2, r2, #8
	adds	r0, r2, r0
	ldrb	r2, [r1, #2]
	lsls	r2, r2, #16
	ldrb	r3, [r1, #3]
	lsls	r3, r3, #24
	adds	r2, r3, r2
	adds	r0, r2, r0
	ldrb	r2, [r1, #4]
	ldrb	r3, [r1, #5]
	lsls	r3, r3, #8
	adds	r2, r3, r2
	ldrb	r3, [r1, #6]
	lsls	r3, r3, #16
	ldrb	r1, [r1, #7]
	lsls	r1, r1, #24
	adds	r1, r1, r3
	adds	r1, r1, r2
	subs	r2, r4, r5
	lsls	r6, r2, #3
	movs	r2, #64
	subs	r2, r2, r6
	bl	__aeabi_llsr
	mov	r4, r0
	mov	r5, r1
	ldr	r0, [sp, #64]
	mov	r1, r0
	mov	r2, r6
	bl	__aeabi_llsl
	bics	r4, r0
	ldr	r2, [sp, #44]
	ldr	r3, [sp, #28]
	adds	r2, r2, r3
	lsls	r2, r2, #3
	ldr	r3, [sp, #60]
	ldr	r3, [r3]
	ldr	r6, [r3, r2]
	ands	r6, r0
	adds	r0, r6, r4
	ldr	r6, [sp, #60]
	str	r0, [r3, r2]
	bics	r5, r1
	adds	r0, r3, r2
	ldr	r2, [r0, #4]
	ands	r2, r1
	adds	r1, r2, r5
	ldr	r2, [sp, #28]
	str	r1, [r0, #4]
.LBB62_4:
	ldr	r0, [sp, #40]
	adds	r1, r7, r0
	lsls	r0, r2, #3
	ldr	r2, [r6]
	adds	r0, r2, r0
	movs	r2, #63
	ldr	r5, [sp, #48]
	subs	r2, r2, r5
	ldr	r2, [sp, #56]
	ldr	r4, [sp, #52]
	sbcs	r2, r4
	bhs	.LBB62_5
	b	.LBB62_11
.LBB62_5:
	lsls	r2, r5, #28
	bpl	.LBB62_7
	ldr	r2, [sp, #44]
	lsls	r2, r2, #3
	subs	r2, #8
	ldrb	r3, [r1, r2]
	adds	r4, r1, r2
	ldrb	r5, [r4, #1]
	lsls	r5, r5, #8
	adds	r3, r5, r3
	ldrb	r5, [r4, #2]
	lsls	r5, r5, #16
	ldrb	r6, [r4, #3]
	lsls	r6, r6, #24
	adds	r5, r6, r5
	adds	r3, r5, r3
	ldrb	r5, [r4, #7]
	ldrb	r6, [r4, #6]
	ldrb	r7, [r4, #4]
	ldrb	r4, [r4, #5]
	str	r3, [r0, r2]
	lsls	r3, r4, #8
	adds	r3, r3, r7
	lsls	r4, r6, #16
	lsls	r5, r5, #24
	adds	r4, r5, r4
	ldr	r5, [sp, #48]
	adds	r3, r4, r3
	ldr	r4, [sp, #52]
	adds	r2, r0, r2
	str	r3, [r2, #4]
.LBB62_7:
	lsls	r2, r5, #27
	bpl	.LBB62_9
	ldr	r2, [sp, #44]
	lsls	r3, r2, #3
	movs	r2, #32
	ands	r2, r3
	ldrb	r3, [r1, r2]
	adds	r4, r1, r2
	ldrb	r5, [r4, #1]
	lsls	r5, r5, #8
	adds	r3, r5, r3
	ldrb	r5, [r4, #2]
	lsls	r5, r5, #16
	ldrb	r6, [r4, #3]
	lsls	r6, r6, #24
	adds	r5, r6, r5
	adds	r3, r5, r3
	ldrb	r5, [r4, #7]
	ldrb	r6, [r4, #6]
	ldrb	r7, [r4, #4]
	ldrb	r4, [r4, #5]
	str	r3, [r0, r2]
	lsls	r3, r4, #8
	adds	r3, r3, r7
	lsls	r4, r6, #16
	lsls	r5, r5, #24
	adds	r4, r5, r4
	adds	r3, r4, r3
	adds	r4, r0, r2
	str	r3, [r4, #4]
	adds	r2, #8
	ldrb	r3, [r1, r2]
	adds	r4, r1, r2
	ldrb	r5, [r4, #1]
	lsls	r5, r5, #8
	adds	r3, r5, r3
	ldrb	r5, [r4, #2]
	lsls	r5, r5, #16
	ldrb	r6, [r4, #3]
	lsls	r6, r6, #24
	adds	r5, r6, r5
	adds	r3, r5, r3
	ldrb	r5, [r4, #7]
	ldrb	r6, [r4, #6]
	ldrb	r7, [r4, #4]
	ldrb	r4, [r4, #5]
	str	r3, [r0, r2]
	lsls	r3, r4, #8
	adds	r3, r3, r7
	lsls	r4, r6, #16
	lsls	r5, r5, #24
	adds	r4, r5, r4
	ldr	r5, [sp, #48]
	adds	r3, r4, r3
	ldr	r4, [sp, #52]
	adds	r2, r0, r2
	str	r3, [r2, #4]
.LBB62_9:
	subs	r5, #32
	ldr	r2, [sp, #56]
	sbcs	r4, r2
	blo	.LBB62_12
	ldrb	r2, [r1]
	ldrb	r3, [r1, #1]
	lsls	r3, r3, #8
	adds	r2, r3, r2
	ldrb	r3, [r1, #2]
	lsls	r3, r3, #16
	ldrb	r4, [r1, #3]
	lsls	r4, r4, #24
	adds	r3, r4, r3
	adds	r2, r3, r2
	ldrb	r3, [r1, #7]
	ldrb	r4, [r1, #6]
	ldrb	r5, [r1, #4]
	ldrb	r6, [r1, #5]
	str	r2, [r0]
	lsls	r2, r6, #8
	adds	r2, r2, r5
	lsls	r4, r4, #16
	lsls	r3, r3, #24
	adds	r3, r3, r4
	adds	r2, r3, r2
	str	r2, [r0, #4]
	ldrb	r2, [r1, #8]
	ldrb	r3, [r1, #9]
	lsls	r3, r3, #8
	adds	r2, r3, r2
	ldrb	r3, [r1, #10]
	lsls	r3, r3, #16
	ldrb	r4, [r1, #11]
	lsls	r4, r4, #24
	adds	r3, r4, r3
	adds	r2, r3, r2
	ldrb	r3, [r1, #15]
	ldrb	r4, [r1, #14]
	ldrb	r5, [r1, #12]
	ldrb	r6, [r1, #13]
	str	r2, [r0, #8]
	lsls	r2, r6, #8
	adds	r2, r2, r5
	lsls	r4, r4, #16
	lsls	r3, r3, #24
	adds	r3, r3, r4
	adds	r2, r3, r2
	str	r2, [r0, #12]
	ldrb	r2, [r1, #16]
	ldrb	r3, [r1, #17]
	lsls	r3, r3, #8
	adds	r2, r3, r2
	ldrb	r3, [r1, #18]
	lsls	r3, r3, #16
	ldrb	r4, [r1, #19]
	lsls	r4, r4, #24
	adds	r3, r4, r3
	adds	r2, r3, r2
	ldrb	r3, [r1, #23]
	ldrb	r4, [r1, #22]
	ldrb	r5, [r1, #20]
	ldrb	r6, [r1, #21]
	str	r2, [r0, #16]
	lsls	r2, r6, #8
	adds	r2, r2, r5
	lsls	r4, r4, #16
	lsls	r3, r3, #24
	adds	r3, r3, r4
	adds	r2, r3, r2
	str	r2, [r0, #20]
	ldrb	r2, [r1, #24]
	ldrb	r3, [r1, #25]
	lsls	r3, r3, #8
	adds	r2, r3, r2
	ldrb	r3, [r1, #26]
	lsls	r3, r3, #16
	ldrb	r4, [r1, #27]
	lsls	r4, r4, #24
	adds	r3, r4, r3
	adds	r2, r3, r2
	ldrb	r3, [r1, #31]
	ldrb	r4, [r1, #30]
	ldrb	r5, [r1, #28]
	ldrb	r1, [r1, #29]
	str	r2, [r0, #24]
	lsls	r1, r1, #8
	adds	r1, r1, r5
	lsls	r2, r4, #16
	lsls	r3, r3, #24
	adds	r2, r3, r2
	adds	r1, r2, r1
	str	r1, [r0, #28]
	add	sp, #68
	pop	{r4, r5, r6, r7, pc}
.LBB62_11:
	lsrs	r3, r4, #3
	str	r1, [sp]
	ldr	r2, [sp, #44]
	bl	tlsf_words.cells.pack_many
.LBB62_12:
	add	sp, #68
	pop	{r4, r5, r6, r7, pc}
.Lfunc_end62:
	.size	tlsf_words.words.Words.write_run, .Lfunc_end62-tlsf_words.words.Words.write_run
	.cfi_endproc
	.section	.text.tlsf_heap.region.Region.write.5,"ax",%progbits
	.p2align	1
	.type	tlsf_heap.region.Region.write.5,%function
	.code	16
	.thumb_func
tlsf_heap.region.Region.write.5:
	.cfi_startproc
	push	{r4, r5, r6, r7, lr}
	.cfi_def_cfa_offset 20
	.cfi_offset lr, -4
	.cfi_offset r7, -8
	.cfi_offset r6, -12
	.cfi_offset r5, -16
	.cfi_offset r4, -20
	sub	sp, #44
	.cfi_def_cfa_offset 64
	mov	r4, r2
	lsrs	r5, r1, #29
	lsls	r1, r1, #3
	movs	r6, #0
	adds	r2, r1, r2
	adcs	r5, r6
	adds	r2, #24
	adcs	r5, r6
	ldr	r7, [sp, #64]
	orrs	r4, r7
	lsls	r1, r4, #29
	ldr	r1, [sp, #68]
	beq	.LBB63_3
	movs	r4, #7
	subs	r4, r4, r7
	sbcs	r6, r1
	bhs	.LBB63_2
	b	.LBB63_10
.LBB63_2:
	str	r3, [sp]
	str	r7, [sp, #8]
	str	r1, [sp, #12]
	mov	r3, r5
	bl	tlsf_words.words.Words.write_few
	add	sp, #44
	pop	{r4, r5, r6, r7, pc}
.LBB63_3:
	movs	r4, #7
	bics	r2, r4
	ldr	r0, [r0]
	adds	r0, r0, r2
	lsrs	r2, r7, #3
	lsls	r4, r1, #29
	adds	r2, r2, r4
	movs	r4, #63
	subs	r4, r4, r7
	mov	r4, r6
	sbcs	r4, r1
	bhs	.LBB63_4
	b	.LBB63_12
.LBB63_4:
	str	r0, [sp, #40]
	lsls	r4, r7, #28
	bpl	.LBB63_6
	str	r2, [sp, #36]
	ldr	r0, [sp, #36]
	lsls	r2, r0, #3
	subs	r2, #8
	ldrb	r4, [r3, r2]
	adds	r0, r3, r2
	ldrb	r5, [r0, #1]
	lsls	r5, r5, #8
	adds	r5, r5, r4
	str	r5, [sp, #32]
	ldrb	r5, [r0, #2]
	lsls	r4, r5, #16
	ldrb	r5, [r0, #3]
	lsls	r5, r5, #24
	adds	r5, r5, r4
	ldr	r4, [sp, #32]
	adds	r4, r5, r4
	str	r4, [sp, #28]
	ldrb	r5, [r0, #7]
	str	r5, [sp, #32]
	ldrb	r4, [r0, #6]
	str	r4, [sp, #24]
	ldrb	r4, [r0, #4]
	str	r4, [sp, #20]
	ldrb	r0, [r0, #5]
	ldr	r5, [sp, #40]
	ldr	r4, [sp, #28]
	str	r4, [r5, r2]
	lsls	r0, r0, #8
	ldr	r4, [sp, #20]
	adds	r0, r0, r4
	str	r0, [sp, #20]
	ldr	r0, [sp, #24]
	lsls	r0, r0, #16
	str	r0, [sp, #28]
	ldr	r0, [sp, #32]
	lsls	r0, r0, #24
	ldr	r4, [sp, #28]
	adds	r0, r0, r4
	ldr	r4, [sp, #20]
	adds	r0, r0, r4
	adds	r4, r5, r2
	ldr	r2, [sp, #36]
	str	r0, [r4, #4]
.LBB63_6:
	lsls	r0, r7, #27
	bpl	.LBB63_8
	lsls	r0, r2, #3
	movs	r2, #32
	ands	r2, r0
	ldrb	r0, [r3, r2]
	adds	r4, r3, r2
	ldrb	r5, [r4, #1]
	lsls	r5, r5, #8
	adds	r0, r5, r0
	str	r0, [sp, #36]
	ldrb	r5, [r4, #2]
	lsls	r5, r5, #16
	ldrb	r0, [r4, #3]
	lsls	r0, r0, #24
	adds	r0, r0, r5
	ldr	r5, [sp, #36]
	adds	r0, r0, r5
	str	r0, [sp, #28]
	ldrb	r0, [r4, #7]
	str	r0, [sp, #36]
	ldrb	r0, [r4, #6]
	str	r0, [sp, #32]
	ldrb	r0, [r4, #4]
	str	r0, [sp, #24]
	ldrb	r4, [r4, #5]
	ldr	r0, [sp, #40]
	ldr	r5, [sp, #28]
	str	r5, [r0, r2]
	lsls	r4, r4, #8
	ldr	r5, [sp, #24]
	adds	r4, r4, r5
	str	r4, [sp, #28]
	ldr	r4, [sp, #32]
	lsls	r4, r4, #16
	ldr	r5, [sp, #36]
	lsls	r5, r5, #24
	adds	r4, r5, r4
	ldr	r5, [sp, #28]
	adds	r5, r4, r5
	adds	r4, r0, r2
	str	r5, [r4, #4]
	adds	r2, #8
	ldrb	r0, [r3, r2]
	adds	r4, r3, r2
	ldrb	r5, [r4, #1]
	lsls	r5, r5, #8
	adds	r0, r5, r0
	str	r0, [sp, #36]
	ldrb	r5, [r4, #2]
	lsls	r5, r5, #16
	ldrb	r0, [r4, #3]
	lsls	r0, r0, #24
	adds	r0, r0, r5
	ldr	r5, [sp, #36]
	adds	r0, r0, r5
	str	r0, [sp, #28]
	ldrb	r0, [r4, #7]
	str	r0, [sp, #36]
	ldrb	r0, [r4, #6]
	str	r0, [sp, #32]
	ldrb	r0, [r4, #4]
	str	r0, [sp, #24]
	ldrb	r4, [r4, #5]
	ldr	r0, [sp, #40]
	ldr	r5, [sp, #28]
	str	r5, [r0, r2]
	lsls	r4, r4, #8
	ldr	r5, [sp, #24]
	adds	r4, r4, r5
	str	r4, [sp, #28]
	ldr	r4, [sp, #32]
	lsls	r4, r4, #16
	ldr	r5, [sp, #36]
	lsls	r5, r5, #24
	adds	r4, r5, r4
	ldr	r5, [sp, #28]
	adds	r4, r4, r5
	adds	r2, r0, r2
	str	r4, [r2, #4]
.LBB63_8:
	subs	r7, #25
	sbcs	r1, r6
	blo	.LBB63_11
	ldrb	r0, [r3]
	ldrb	r1, [r3, #1]
	lsls	r1, r1, #8
	adds	r0, r1, r0
	ldrb	r1, [r3, #2]
	lsls	r1, r1, #16
	ldrb	r2, [r3, #3]
	lsls	r2, r2, #24
	adds	r1, r2, r1
	adds	r0, r1, r0
	ldrb	r1, [r3, #7]
	ldrb	r2, [r3, #6]
	ldrb	r4, [r3, #4]
	ldrb	r5, [r3, #5]
	ldr	r6, [sp, #40]
	str	r0, [r6]
	lsls	r0, r5, #8
	adds	r0, r0, r4
	lsls	r2, r2, #16
	lsls	r1, r1, #24
	adds	r1, r1, r2
	adds	r0, r1, r0
	str	r0, [r6, #4]
	ldrb	r0, [r3, #8]
	ldrb	r1, [r3, #9]
	lsls	r1, r1, #8
	adds	r0, r1, r0
	ldrb	r1, [r3, #10]
	lsls	r1, r1, #16
	ldrb	r2, [r3, #11]
	lsls	r2, r2, #24
	adds	r1, r2, r1
	adds	r0, r1, r0
	ldrb	r1, [r3, #15]
	ldrb	r2, [r3, #14]
	ldrb	r4, [r3, #12]
	ldrb	r5, [r3, #13]
	str	r0, [r6, #8]
	lsls	r0, r5, #8
	adds	r0, r0, r4
	lsls	r2, r2, #16
	lsls	r1, r1, #24
	adds	r1, r1, r2
	adds	r0, r1, r0
	str	r0, [r6, #12]
	ldrb	r0, [r3, #16]
	ldrb	r1, [r3, #17]
	lsls	r1, r1, #8
	adds	r0, r1, r0
	ldrb	r1, [r3, #18]
	lsls	r1, r1, #16
	ldrb	r2, [r3, #19]
	lsls	r2, r2, #24
	adds	r1, r2, r1
	adds	r0, r1, r0
	ldrb	r1, [r3, #23]
	ldrb	r2, [r3, #22]
	ldrb	r4, [r3, #20]
	ldrb	r5, [r3, #21]
	str	r0, [r6, #16]
	lsls	r0, r5, #8
	adds	r0, r0, r4
	lsls	r2, r2, #16
	lsls	r1, r1, #24
	adds	r1, r1, r2
	adds	r0, r1, r0
	str	r0, [r6, #20]
	ldrb	r0, [r3, #24]
	ldrb	r1, [r3, #25]
	lsls	r1, r1, #8
	adds	r0, r1, r0
	ldrb	r1, [r3, #26]
	lsls	r1, r1, #16
	ldrb	r2, [r3, #27]
	lsls	r2, r2, #24
	adds	r1, r2, r1
	adds	r0, r1, r0
	ldrb	r1, [r3, #31]
	ldrb	r2, [r3, #30]
	ldrb	r4, [r3, #28]
	ldrb	r3, [r3, #29]
	str	r0, [r6, #24]
	lsls	r0, r3, #8
	adds	r0, r0, r4
	lsls	r2, r2, #16
	lsls	r1, r1, #24
	adds	r1, r1, r2
	adds	r0, r1, r0
	str	r0, [r6, #28]
	add	sp, #44
	pop	{r4, r5, r6, r7, pc}
.LBB63_10:
	str	r3, [sp]
	str	r7, [sp, #8]
	str	r1, [sp, #12]
	mov	r3, r5
	bl	tlsf_words.words.Words.write_run
.LBB63_11:
	add	sp, #44
	pop	{r4, r5, r6, r7, pc}
.LBB63_12:
	lsrs	r1, r1, #3
	str	r3, [sp]
	mov	r3, r1
	bl	tlsf_words.cells.pack_many
	add	sp, #44
	pop	{r4, r5, r6, r7, pc}
.Lfunc_end63:
	.size	tlsf_heap.region.Region.write.5, .Lfunc_end63-tlsf_heap.region.Region.write.5
	.cfi_endproc
	.section	.text.tlsf_allocate,"ax",%progbits
	.globl	tlsf_allocate
	.p2align	2
	.type	tlsf_allocate,%function
	.code	16
	.thumb_func
tlsf_allocate:
	.cfi_startproc
	push	{r4, r5, r6, r7, lr}
	.cfi_def_cfa_offset 20
	.cfi_offset lr, -4
	.cfi_offset r7, -8
	.cfi_offset r6, -12
	.cfi_offset r5, -16
	.cfi_offset r4, -20
	sub	sp, #108
	.cfi_def_cfa_offset 128
	ldrb	r3, [r0, #8]
	cmp	r3, #0
	bne	.LBB64_1
	b	.LBB64_21
.LBB64_1:
	ldr	r5, [r0]
	ldrb	r3, [r5]
	cmp	r3, #0
	bne	.LBB64_2
	b	.LBB64_21
.LBB64_2:
	movs	r3, #0
	strb	r3, [r5]
	adds	r4, r1, #1
	mov	r6, r3
	adcs	r6, r3
	cmp	r1, #0
	beq	.LBB64_4
	mov	r4, r1
.LBB64_4:
	beq	.LBB64_6
	mov	r6, r3
.LBB64_6:
	str	r2, [sp, #100]
	str	r1, [sp, #104]
	adds	r4, #31
	adcs	r6, r3
	lsrs	r3, r4, #3
	lsls	r1, r6, #29
	adds	r1, r3, r1
	ldrb	r2, [r5, #16]
	cmp	r2, #0
	beq	.LBB64_12
	movs	r6, #1
	lsls	r2, r6, #24
	cmp	r1, r2
	bhi	.LBB64_13
	str	r0, [sp, #80]
	movs	r2, #32
	mov	r0, r1
	str	r2, [sp, #84]
	orrs	r0, r2
	mov	r7, r1
	bl	__clzsi2
	movs	r1, #26
	str	r1, [sp, #52]
	subs	r0, r1, r0
	str	r7, [sp, #88]
	subs	r2, r7, #1
	lsrs	r2, r0
	lsls	r0, r0, #5
	adds	r0, r2, r0
	adds	r0, r0, #1
	movs	r3, #0
	subs	r1, r0, #1
	str	r3, [sp, #92]
	mov	r0, r3
	sbcs	r0, r3
	lsrs	r3, r1, #5
	lsls	r7, r0, #27
	adds	r3, r3, r7
	lsls	r7, r3, #2
	mov	r4, r5
	adds	r5, #108
	str	r5, [sp, #64]
	ldr	r7, [r5, r7]
	movs	r5, #31
	str	r5, [sp, #56]
	ands	r2, r5
	lsrs	r7, r2
	bics	r7, r6
	str	r4, [sp, #96]
	beq	.LBB64_22
	str	r6, [sp, #48]
	cmp	r7, #0
	ldr	r2, [sp, #84]
	beq	.LBB64_11
	rsbs	r2, r7, #0
	ands	r2, r7
	ldr	r3, .LCPI64_2
	muls	r3, r2, r3
	lsrs	r2, r3, #27
	adr	r3, .LCPI64_3
	ldrb	r2, [r3, r2]
.LBB64_11:
	adds	r2, r1, r2
	ldr	r6, [sp, #92]
	adcs	r0, r6
	lsrs	r1, r2, #5
	lsls	r0, r0, #27
	adds	r1, r1, r0
	ldr	r5, [sp, #96]
	b	.LBB64_38
.LBB64_12:
	movs	r7, #1
	lsls	r2, r7, #20
	cmp	r1, r2
	bls	.LBB64_18
.LBB64_13:
	ldr	r0, [r5, #12]
	ldr	r1, [sp, #104]
	cmp	r1, r0
	bhi	.LBB64_15
	mov	r1, r0
.LBB64_15:
	str	r1, [r5, #12]
	ldr	r0, [r5, #8]
	adds	r0, r0, #1
	blo	.LBB64_17
	movs	r0, #0
	mvns	r0, r0
.LBB64_17:
	str	r0, [r5, #8]
	movs	r0, #1
	b	.LBB64_66
.LBB64_18:
	str	r0, [sp, #80]
	movs	r2, #16
	mov	r0, r1
	str	r2, [sp, #48]
	orrs	r0, r2
	mov	r4, r1
	bl	__clzsi2
	movs	r1, #27
	str	r1, [sp, #44]
	subs	r0, r1, r0
	str	r4, [sp, #88]
	subs	r2, r4, #1
	lsrs	r2, r0
	lsls	r0, r0, #4
	adds	r0, r2, r0
	adds	r0, r0, #1
	movs	r3, #0
	subs	r1, r0, #1
	str	r3, [sp, #92]
	mov	r0, r3
	sbcs	r0, r3
	lsrs	r3, r1, #4
	lsls	r4, r0, #28
	adds	r3, r3, r4
	lsls	r4, r3, #2
	mov	r6, r5
	adds	r5, #108
	str	r5, [sp, #64]
	ldr	r4, [r5, r4]
	movs	r5, #15
	str	r5, [sp, #56]
	ands	r2, r5
	lsrs	r4, r2
	bics	r4, r7
	str	r6, [sp, #96]
	beq	.LBB64_28
	str	r7, [sp, #40]
	cmp	r4, #0
	beq	.LBB64_34
	rsbs	r2, r4, #0
	ands	r2, r4
	ldr	r3, .LCPI64_2
	muls	r3, r2, r3
	lsrs	r2, r3, #27
	adr	r3, .LCPI64_3
	ldrb	r2, [r3, r2]
	b	.LBB64_35
.LBB64_21:
	movs	r0, #0
	bl	tlsf_c.call_fault.CallFault.refusal
	add	sp, #108
	pop	{r4, r5, r6, r7, pc}
.LBB64_22:
	mvns	r0, r6
	lsls	r0, r3
	ldr	r7, [r4, #104]
	ands	r7, r0
	mov	r5, r4
	beq	.LBB64_13
	str	r6, [sp, #48]
	ldr	r2, .LCPI64_2
	adr	r1, .LCPI64_3
	movs	r3, #32
	cmp	r7, #0
	mov	r0, r3
	beq	.LBB64_25
	rsbs	r0, r7, #0
	ands	r0, r7
	muls	r0, r2, r0
	lsrs	r0, r0, #27
	ldrb	r0, [r1, r0]
.LBB64_25:
	lsls	r4, r0, #2
	ldr	r5, [sp, #64]
	ldr	r4, [r5, r4]
	cmp	r4, #0
	ldr	r6, [sp, #92]
	ldr	r5, [sp, #96]
	beq	.LBB64_37
	cmp	r4, #0
	beq	.LBB64_36
	rsbs	r3, r4, #0
	ands	r3, r4
	muls	r2, r3, r2
	lsrs	r2, r2, #27
	ldrb	r3, [r1, r2]
	b	.LBB64_37
.LBB64_28:
	mvns	r0, r7
	lsls	r0, r3
	ldr	r4, [r6, #104]
	ands	r4, r0
	mov	r5, r6
	beq	.LBB64_13
	str	r7, [sp, #40]
	ldr	r2, .LCPI64_2
	adr	r1, .LCPI64_3
	movs	r3, #32
	cmp	r4, #0
	mov	r0, r3
	beq	.LBB64_31
	rsbs	r0, r4, #0
	ands	r0, r4
	muls	r0, r2, r0
	lsrs	r0, r0, #27
	ldrb	r0, [r1, r0]
.LBB64_31:
	lsls	r4, r0, #2
	ldr	r5, [sp, #64]
	ldr	r4, [r5, r4]
	cmp	r4, #0
	ldr	r5, [sp, #96]
	bne	.LBB64_32
	b	.LBB64_60
.LBB64_32:
	cmp	r4, #0
	bne	.LBB64_33
	b	.LBB64_59
.LBB64_33:
	rsbs	r3, r4, #0
	ands	r3, r4
	muls	r2, r3, r2
	lsrs	r2, r2, #27
	ldrb	r3, [r1, r2]
	b	.LBB64_60
.LBB64_34:
	movs	r2, #32
.LBB64_35:
	ldr	r5, [sp, #96]
	adds	r2, r1, r2
	ldr	r1, [sp, #92]
	adcs	r0, r1
	lsrs	r1, r2, #4
	lsls	r0, r0, #28
	adds	r1, r1, r0
	b	.LBB64_61
.LBB64_36:
	movs	r3, #32
.LBB64_37:
	lsls	r0, r0, #5
	adds	r2, r3, r0
	lsrs	r1, r2, #5
.LBB64_38:
	ldr	r0, [r5, #32]
	ldr	r3, [r5, #36]
	str	r0, [sp, #76]
	ands	r0, r3
	adds	r0, r0, #1
	bne	.LBB64_39
	b	.LBB64_65
.LBB64_39:
	str	r3, [sp, #60]
	mvns	r0, r6
	str	r0, [sp, #44]
	lsls	r3, r2, #2
	mov	r6, r5
	adds	r5, #192
	ldr	r0, [r5, r3]
	str	r0, [sp, #72]
	lsls	r4, r0, #3
	ldr	r0, [r6, #48]
	str	r4, [sp, #84]
	adds	r4, r0, r4
	ldr	r4, [r4, #16]
	adds	r7, r4, #1
	str	r5, [sp, #40]
	beq	.LBB64_42
	lsls	r1, r4, #3
	adds	r0, r0, r1
	ldr	r1, [sp, #44]
	str	r1, [r0, #20]
	str	r4, [r5, r3]
	ldr	r0, [r6, #48]
	ldr	r3, [sp, #88]
	mov	r5, r6
.LBB64_41:
	ldr	r6, [sp, #92]
	b	.LBB64_44
.LBB64_42:
	ldr	r6, [sp, #48]
	mvns	r4, r6
	adds	r4, r4, #1
	str	r4, [r5, r3]
	ldr	r3, [sp, #56]
	ands	r2, r3
	mov	r3, r6
	lsls	r3, r2
	lsls	r2, r1, #2
	ldr	r7, [sp, #64]
	ldr	r4, [r7, r2]
	bics	r4, r3
	str	r4, [r7, r2]
	bne	.LBB64_43
	b	.LBB64_58
.LBB64_43:
	ldr	r3, [sp, #88]
	ldr	r6, [sp, #92]
	ldr	r5, [sp, #96]
.LBB64_44:
	ldr	r1, [sp, #84]
	adds	r4, r0, r1
	ldr	r2, [r4, #4]
	str	r2, [sp, #68]
	ldr	r1, [r0, r1]
	lsls	r2, r3, #2
	subs	r7, r1, r2
	cmp	r7, #15
	bhi	.LBB64_46
	str	r6, [r4, #20]
	ldr	r0, [sp, #104]
	str	r0, [r4, #16]
	ldr	r0, [sp, #76]
	str	r0, [r4, #8]
	ldr	r7, [sp, #60]
	str	r7, [r4, #12]
	subs	r0, r1, #1
	str	r0, [r4]
	ldr	r1, [sp, #68]
	sbcs	r1, r6
	str	r1, [r4, #4]
	lsrs	r0, r0, #2
	ldr	r4, [sp, #100]
	b	.LBB64_52
.LBB64_46:
	lsrs	r2, r7, #2
	str	r2, [sp, #28]
	ldr	r2, [sp, #104]
	str	r2, [r4, #16]
	ldr	r2, [sp, #76]
	str	r2, [r4, #8]
	ldr	r2, [sp, #72]
	adds	r3, r2, r3
	lsls	r2, r3, #3
	adds	r6, r0, r2
	str	r6, [sp, #104]
	subs	r1, r1, r7
	str	r1, [r4]
	str	r2, [sp, #32]
	str	r7, [r0, r2]
	ldr	r0, [sp, #104]
	ldr	r1, [sp, #76]
	str	r1, [r0, #8]
	ldr	r0, [sp, #68]
	ldr	r1, [sp, #92]
	sbcs	r0, r1
	str	r0, [sp, #68]
	lsrs	r0, r3, #6
	lsls	r0, r0, #3
	str	r0, [sp, #20]
	ldr	r6, [r5, #72]
	ldr	r2, [r6, r0]
	str	r2, [sp, #24]
	movs	r2, #63
	str	r3, [sp, #36]
	ands	r2, r3
	movs	r0, #1
	str	r0, [sp, #16]
	bl	__aeabi_llsl
	ldr	r2, [sp, #24]
	orrs	r0, r2
	ldr	r3, [sp, #20]
	str	r0, [r6, r3]
	ldr	r0, [sp, #92]
	str	r0, [r4, #20]
	ldr	r0, [sp, #60]
	str	r0, [r4, #12]
	ldr	r2, [sp, #68]
	str	r2, [r4, #4]
	ldr	r2, [sp, #104]
	str	r0, [r2, #12]
	ldr	r0, [sp, #72]
	str	r0, [r2, #4]
	adds	r0, r6, r3
	ldr	r2, [r0, #4]
	orrs	r2, r1
	str	r2, [r0, #4]
	lsls	r0, r7, #30
	ldr	r7, [sp, #28]
	ldr	r6, [sp, #44]
	bmi	.LBB64_48
	ldr	r3, [sp, #36]
	adds	r0, r7, r3
	lsls	r0, r0, #3
	ldr	r1, [r5, #48]
	ldr	r2, [r1, r0]
	ands	r2, r6
	str	r2, [r1, r0]
	adds	r0, r1, r0
	str	r3, [r0, #4]
.LBB64_48:
	movs	r0, #32
	orrs	r0, r7
	bl	__clzsi2
	ldr	r1, [sp, #52]
	subs	r0, r1, r0
	lsrs	r7, r0
	lsls	r0, r0, #5
	adds	r0, r7, r0
	lsls	r2, r0, #2
	ldr	r3, [sp, #40]
	ldr	r1, [r3, r2]
	ldr	r4, [sp, #36]
	str	r4, [r3, r2]
	mov	r3, r4
	cmp	r1, #0
	ldr	r4, [sp, #100]
	bmi	.LBB64_50
	ldr	r0, [r5, #48]
	ldr	r2, [sp, #32]
	adds	r2, r0, r2
	str	r1, [r2, #16]
	str	r6, [r2, #20]
	lsls	r1, r1, #3
	adds	r0, r0, r1
	str	r3, [r0, #20]
	ldr	r1, [r0, #16]
	ands	r1, r6
	str	r1, [r0, #16]
	b	.LBB64_51
.LBB64_50:
	ldr	r1, [r5, #48]
	ldr	r2, [sp, #32]
	adds	r1, r1, r2
	str	r6, [r1, #16]
	str	r6, [r1, #20]
	ldr	r1, [sp, #56]
	ands	r7, r1
	ldr	r6, [sp, #16]
	mov	r1, r6
	lsls	r1, r7
	lsrs	r0, r0, #5
	lsls	r2, r0, #2
	ldr	r5, [sp, #64]
	ldr	r3, [r5, r2]
	orrs	r3, r1
	str	r3, [r5, r2]
	ldr	r5, [sp, #96]
	lsls	r6, r0
	ldr	r0, [r5, #104]
	orrs	r0, r6
	str	r0, [r5, #104]
.LBB64_51:
	ldr	r3, [sp, #88]
	mov	r0, r3
	ldr	r6, [sp, #92]
	ldr	r7, [sp, #60]
.LBB64_52:
	ldr	r1, [r5, #40]
	adds	r0, r1, r0
	str	r0, [r5, #40]
	ldr	r1, [r5, #44]
	cmp	r1, r0
	bhs	.LBB64_54
	str	r0, [r5, #44]
.LBB64_54:
	ldr	r0, [r5, #32]
	adds	r0, r0, #1
	str	r0, [r5, #32]
	ldr	r0, [r5, #36]
	adcs	r0, r6
	str	r0, [r5, #36]
	ldr	r0, [r5, #24]
	lsls	r1, r3, #31
	beq	.LBB64_57
	ldr	r1, [sp, #80]
	ldrb	r1, [r1, #28]
	cmp	r1, #0
	bne	.LBB64_57
	ldr	r1, [sp, #80]
	ldr	r2, [sp, #48]
	strb	r2, [r1, #28]
.LBB64_57:
	ldr	r2, [sp, #76]
	strb	r2, [r4, #8]
	ldr	r6, [sp, #72]
	strb	r6, [r4, #4]
	strb	r0, [r4]
	strb	r7, [r4, #12]
	lsrs	r1, r2, #24
	strb	r1, [r4, #11]
	lsrs	r1, r2, #16
	strb	r1, [r4, #10]
	lsrs	r1, r2, #8
	strb	r1, [r4, #9]
	lsrs	r1, r6, #24
	strb	r1, [r4, #7]
	lsrs	r1, r6, #16
	strb	r1, [r4, #6]
	lsrs	r1, r6, #8
	strb	r1, [r4, #5]
	lsrs	r1, r0, #24
	strb	r1, [r4, #3]
	lsrs	r1, r0, #16
	strb	r1, [r4, #2]
	lsrs	r0, r0, #8
	strb	r0, [r4, #1]
	lsrs	r0, r7, #24
	strb	r0, [r4, #15]
	lsrs	r0, r7, #16
	strb	r0, [r4, #14]
	lsrs	r0, r7, #8
	b	.LBB64_85
.LBB64_58:
	mov	r2, r6
	lsls	r2, r1
	ldr	r5, [sp, #96]
	ldr	r1, [r5, #104]
	bics	r1, r2
	str	r1, [r5, #104]
	ldr	r3, [sp, #88]
	b	.LBB64_41
.LBB64_59:
	movs	r3, #32
.LBB64_60:
	lsls	r0, r0, #4
	adds	r2, r3, r0
	lsrs	r1, r2, #4
.LBB64_61:
	ldr	r0, [r5, #32]
	ldr	r3, [r5, #36]
	str	r0, [sp, #76]
	str	r3, [sp, #72]
	ands	r0, r3
	adds	r0, r0, #1
	beq	.LBB64_65
	ldr	r0, [sp, #92]
	mvns	r0, r0
	str	r0, [sp, #52]
	lsls	r3, r2, #2
	mov	r6, r5
	adds	r6, #192
	ldr	r0, [r6, r3]
	str	r0, [sp, #60]
	lsls	r4, r0, #3
	ldr	r0, [r5, #48]
	str	r4, [sp, #84]
	adds	r4, r0, r4
	ldr	r4, [r4, #16]
	adds	r7, r4, #1
	beq	.LBB64_67
	lsls	r1, r4, #3
	adds	r0, r0, r1
	ldr	r1, [sp, #52]
	str	r1, [r0, #20]
	str	r4, [r6, r3]
	ldr	r0, [r5, #48]
.LBB64_64:
	ldr	r3, [sp, #88]
	b	.LBB64_69
.LBB64_65:
	movs	r0, #2
.LBB64_66:
	movs	r1, #1
	strb	r1, [r5]
	add	sp, #108
	pop	{r4, r5, r6, r7, pc}
.LBB64_67:
	ldr	r7, [sp, #40]
	mvns	r4, r7
	adds	r4, r4, #1
	str	r4, [r6, r3]
	ldr	r3, [sp, #56]
	ands	r2, r3
	mov	r3, r7
	lsls	r3, r2
	lsls	r2, r1, #2
	ldr	r5, [sp, #64]
	ldr	r4, [r5, r2]
	bics	r4, r3
	str	r4, [r5, r2]
	bne	.LBB64_68
	b	.LBB64_88
.LBB64_68:
	ldr	r3, [sp, #88]
	ldr	r5, [sp, #96]
.LBB64_69:
	ldr	r1, [sp, #84]
	adds	r7, r0, r1
	ldr	r2, [r7, #4]
	str	r2, [sp, #68]
	ldr	r1, [r0, r1]
	lsls	r2, r3, #2
	subs	r4, r1, r2
	cmp	r4, #15
	bhi	.LBB64_73
	ldr	r2, [sp, #92]
	str	r2, [r7, #20]
	ldr	r0, [sp, #104]
	str	r0, [r7, #16]
	ldr	r0, [sp, #76]
	str	r0, [r7, #8]
	ldr	r0, [sp, #72]
	str	r0, [r7, #12]
	subs	r0, r1, #1
	str	r0, [r7]
	ldr	r1, [sp, #68]
	sbcs	r1, r2
	str	r1, [r7, #4]
	lsrs	r0, r0, #2
	ldr	r4, [sp, #100]
	ldr	r7, [sp, #60]
	b	.LBB64_79
	.p2align	2
.LCPI64_2:
	.long	125613361
	.p2align	2
.LCPI64_3:
	.ascii	"\000\001\034\002\035\016\030\003\036\026\024\017\031\021\004\b\037\033\r\027\025\023\020\007\032\f\022\006\013\005\n\t"
	.p2align	1
.LBB64_73:
	str	r6, [sp, #36]
	lsrs	r2, r4, #2
	str	r2, [sp, #28]
	ldr	r2, [sp, #104]
	str	r2, [r7, #16]
	ldr	r2, [sp, #76]
	str	r2, [r7, #8]
	ldr	r6, [sp, #60]
	adds	r3, r6, r3
	lsls	r6, r3, #3
	adds	r2, r0, r6
	str	r2, [sp, #24]
	subs	r1, r1, r4
	str	r1, [r7]
	str	r6, [sp, #32]
	str	r4, [r0, r6]
	ldr	r0, [sp, #76]
	str	r0, [r2, #8]
	ldr	r6, [sp, #92]
	ldr	r0, [sp, #68]
	sbcs	r0, r6
	str	r0, [sp, #68]
	lsrs	r0, r3, #6
	lsls	r0, r0, #3
	str	r0, [sp, #16]
	ldr	r1, [r5, #72]
	str	r1, [sp, #20]
	ldr	r0, [r1, r0]
	str	r0, [sp, #12]
	movs	r2, #63
	str	r3, [sp, #104]
	ands	r2, r3
	movs	r0, #1
	str	r0, [sp, #4]
	mov	r1, r6
	bl	__aeabi_llsl
	str	r1, [sp, #8]
	ldr	r1, [sp, #12]
	orrs	r0, r1
	ldr	r3, [sp, #20]
	ldr	r1, [sp, #16]
	str	r0, [r3, r1]
	str	r6, [r7, #20]
	ldr	r6, [sp, #28]
	ldr	r0, [sp, #72]
	str	r0, [r7, #12]
	ldr	r2, [sp, #68]
	str	r2, [r7, #4]
	ldr	r7, [sp, #60]
	ldr	r2, [sp, #24]
	str	r0, [r2, #12]
	str	r7, [r2, #4]
	adds	r0, r3, r1
	ldr	r2, [r0, #4]
	ldr	r1, [sp, #8]
	orrs	r2, r1
	str	r2, [r0, #4]
	lsls	r0, r4, #30
	bmi	.LBB64_75
	ldr	r4, [sp, #104]
	adds	r0, r6, r4
	lsls	r0, r0, #3
	ldr	r1, [r5, #48]
	ldr	r2, [r1, r0]
	ldr	r3, [sp, #52]
	ands	r2, r3
	str	r2, [r1, r0]
	adds	r0, r1, r0
	str	r4, [r0, #4]
.LBB64_75:
	ldr	r0, [sp, #48]
	orrs	r0, r6
	bl	__clzsi2
	ldr	r1, [sp, #44]
	subs	r0, r1, r0
	lsrs	r6, r0
	lsls	r0, r0, #4
	adds	r0, r6, r0
	lsls	r2, r0, #2
	ldr	r3, [sp, #36]
	ldr	r1, [r3, r2]
	ldr	r4, [sp, #104]
	str	r4, [r3, r2]
	cmp	r1, #0
	ldr	r4, [sp, #100]
	bmi	.LBB64_77
	ldr	r0, [r5, #48]
	ldr	r2, [sp, #32]
	adds	r2, r0, r2
	str	r1, [r2, #16]
	ldr	r3, [sp, #52]
	str	r3, [r2, #20]
	lsls	r1, r1, #3
	adds	r0, r0, r1
	ldr	r1, [sp, #104]
	str	r1, [r0, #20]
	ldr	r1, [r0, #16]
	ands	r1, r3
	str	r1, [r0, #16]
	b	.LBB64_78
.LBB64_77:
	ldr	r1, [r5, #48]
	ldr	r2, [sp, #32]
	adds	r1, r1, r2
	ldr	r2, [sp, #52]
	str	r2, [r1, #16]
	str	r2, [r1, #20]
	ldr	r1, [sp, #56]
	ands	r6, r1
	ldr	r1, [sp, #4]
	mov	r2, r1
	lsls	r2, r6
	lsrs	r0, r0, #4
	lsls	r6, r0, #2
	ldr	r5, [sp, #64]
	ldr	r3, [r5, r6]
	orrs	r3, r2
	str	r3, [r5, r6]
	ldr	r5, [sp, #96]
	lsls	r1, r0
	ldr	r0, [r5, #104]
	orrs	r0, r1
	str	r0, [r5, #104]
.LBB64_78:
	ldr	r3, [sp, #88]
	mov	r0, r3
.LBB64_79:
	ldr	r1, [r5, #40]
	adds	r0, r1, r0
	str	r0, [r5, #40]
	ldr	r1, [r5, #44]
	cmp	r1, r0
	bhs	.LBB64_81
	str	r0, [r5, #44]
.LBB64_81:
	ldr	r0, [r5, #32]
	adds	r0, r0, #1
	str	r0, [r5, #32]
	ldr	r0, [r5, #36]
	ldr	r1, [sp, #92]
	adcs	r0, r1
	str	r0, [r5, #36]
	ldr	r0, [r5, #24]
	lsls	r1, r3, #31
	beq	.LBB64_84
	ldr	r1, [sp, #80]
	ldrb	r1, [r1, #28]
	cmp	r1, #0
	bne	.LBB64_84
	ldr	r1, [sp, #80]
	ldr	r2, [sp, #40]
	strb	r2, [r1, #28]
.LBB64_84:
	ldr	r2, [sp, #76]
	strb	r2, [r4, #8]
	strb	r7, [r4, #4]
	strb	r0, [r4]
	ldr	r6, [sp, #72]
	strb	r6, [r4, #12]
	lsrs	r1, r2, #24
	strb	r1, [r4, #11]
	lsrs	r1, r2, #16
	strb	r1, [r4, #10]
	lsrs	r1, r2, #8
	strb	r1, [r4, #9]
	lsrs	r1, r7, #24
	strb	r1, [r4, #7]
	lsrs	r1, r7, #16
	strb	r1, [r4, #6]
	lsrs	r1, r7, #8
	strb	r1, [r4, #5]
	lsrs	r1, r0, #24
	strb	r1, [r4, #3]
	lsrs	r1, r0, #16
	strb	r1, [r4, #2]
	lsrs	r0, r0, #8
	strb	r0, [r4, #1]
	lsrs	r0, r6, #24
	strb	r0, [r4, #15]
	lsrs	r0, r6, #16
	strb	r0, [r4, #14]
	lsrs	r0, r6, #8
.LBB64_85:
	strb	r0, [r4, #13]
	subs	r1, r3, #3
	beq	.LBB64_87
	ldr	r0, [r5, #48]
	ldr	r2, [sp, #84]
	adds	r0, r0, r2
	adds	r0, #24
	lsls	r2, r1, #3
	movs	r1, #0
	bl	tlsf_memory_set
.LBB64_87:
	movs	r0, #1
	strb	r0, [r5]
	movs	r0, #0
	add	sp, #108
	pop	{r4, r5, r6, r7, pc}
.LBB64_88:
	mov	r2, r7
	lsls	r2, r1
	ldr	r5, [sp, #96]
	ldr	r1, [r5, #104]
	bics	r1, r2
	str	r1, [r5, #104]
	b	.LBB64_64
.Lfunc_end64:
	.size	tlsf_allocate, .Lfunc_end64-tlsf_allocate
	.cfi_endproc
	.section	.text.tlsf_allocate_aligned,"ax",%progbits
	.globl	tlsf_allocate_aligned
	.p2align	2
	.type	tlsf_allocate_aligned,%function
	.code	16
	.thumb_func
tlsf_allocate_aligned:
	.cfi_startproc
	push	{r4, r5, r6, r7, lr}
	.cfi_def_cfa_offset 20
	.cfi_offset lr, -4
	.cfi_offset r7, -8
	.cfi_offset r6, -12
	.cfi_offset r5, -16
	.cfi_offset r4, -20
	sub	sp, #148
	.cfi_def_cfa_offset 168
	str	r3, [sp, #116]
	ldrb	r4, [r1, #8]
	cmp	r4, #0
	bne	.LBB65_1
	b	.LBB65_29
.LBB65_1:
	ldr	r6, [r1]
	ldrb	r1, [r6]
	cmp	r1, #0
	bne	.LBB65_2
	b	.LBB65_29
.LBB65_2:
	str	r2, [sp, #120]
	str	r0, [sp, #124]
	ldr	r0, [sp, #168]
	str	r0, [sp, #104]
	movs	r1, #0
	strb	r1, [r6]
	mvns	r5, r1
	subs	r2, r5, #4
	str	r5, [sp, #100]
	sbcs	r5, r1
	ldr	r0, [r6, #32]
	ldr	r4, [r6, #36]
	mov	r7, r6
	adds	r7, #24
	str	r7, [sp, #108]
	mov	r3, r6
	ldrb	r7, [r6, #16]
	cmp	r7, #0
	str	r0, [sp, #112]
	beq	.LBB65_16
	subs	r6, r2, r0
	sbcs	r5, r4
	blo	.LBB65_17
	mov	r7, r4
	movs	r5, #1
	ldr	r0, [sp, #116]
	cmp	r0, #1
	mov	r2, r0
	mov	r4, r3
	bhi	.LBB65_6
	mov	r2, r5
.LBB65_6:
	lsls	r5, r5, #24
	cmp	r0, r5
	bls	.LBB65_7
	b	.LBB65_107
.LBB65_7:
	ldr	r0, [sp, #120]
	adds	r3, r0, #1
	mov	r6, r1
	adcs	r6, r1
	cmp	r0, #0
	beq	.LBB65_9
	ldr	r3, [sp, #120]
.LBB65_9:
	beq	.LBB65_11
	mov	r6, r1
.LBB65_11:
	adds	r3, #31
	adcs	r6, r1
	lsrs	r1, r3, #3
	lsls	r3, r6, #29
	adds	r0, r1, r3
	adds	r1, r2, r0
	adds	r1, r1, #4
	cmp	r1, r5
	bls	.LBB65_12
	b	.LBB65_107
.LBB65_12:
	str	r2, [sp, #84]
	str	r0, [sp, #56]
	ldr	r0, [r4, #44]
	str	r0, [sp, #44]
	movs	r2, #32
	mov	r0, r1
	str	r2, [sp, #96]
	orrs	r0, r2
	mov	r5, r1
	bl	__clzsi2
	movs	r1, #26
	str	r1, [sp, #64]
	subs	r0, r1, r0
	str	r5, [sp, #80]
	subs	r2, r5, #1
	lsrs	r2, r0
	lsls	r0, r0, #5
	adds	r0, r2, r0
	adds	r0, r0, #1
	movs	r3, #0
	subs	r1, r0, #1
	str	r3, [sp, #116]
	mov	r0, r3
	sbcs	r0, r3
	lsrs	r3, r1, #5
	lsls	r6, r0, #27
	adds	r3, r3, r6
	lsls	r6, r3, #2
	mov	r5, r4
	adds	r4, #108
	str	r4, [sp, #72]
	ldr	r6, [r4, r6]
	movs	r4, #31
	str	r4, [sp, #68]
	ands	r2, r4
	lsrs	r6, r2
	movs	r2, #1
	bics	r6, r2
	beq	.LBB65_30
	str	r2, [sp, #40]
	mov	r4, r5
	cmp	r6, #0
	ldr	r2, [sp, #96]
	beq	.LBB65_15
	rsbs	r2, r6, #0
	ands	r2, r6
	ldr	r3, .LCPI65_4
	muls	r3, r2, r3
	lsrs	r2, r3, #27
	adr	r3, .LCPI65_5
	ldrb	r2, [r3, r2]
.LBB65_15:
	str	r7, [sp, #96]
	adds	r5, r1, r2
	ldr	r1, [sp, #116]
	adcs	r0, r1
	lsrs	r1, r5, #5
	lsls	r0, r0, #27
	adds	r0, r1, r0
	b	.LBB65_46
.LBB65_16:
	subs	r1, r2, r0
	sbcs	r5, r4
	bhs	.LBB65_18
.LBB65_17:
	movs	r1, #1
	strb	r1, [r3]
	movs	r5, #0
	movs	r1, #2
	mov	r6, r5
	mov	r7, r5
	ldr	r0, [sp, #124]
	b	.LBB65_113
.LBB65_18:
	mov	r7, r4
	movs	r1, #1
	ldr	r2, [sp, #116]
	cmp	r2, #1
	mov	r0, r2
	mov	r4, r3
	bhi	.LBB65_20
	mov	r0, r1
.LBB65_20:
	lsls	r1, r1, #20
	cmp	r2, r1
	bls	.LBB65_21
	b	.LBB65_107
.LBB65_21:
	movs	r3, #0
	ldr	r2, [sp, #120]
	adds	r5, r2, #1
	mov	r6, r3
	adcs	r6, r3
	cmp	r2, #0
	beq	.LBB65_23
	mov	r5, r2
.LBB65_23:
	beq	.LBB65_25
	mov	r6, r3
.LBB65_25:
	adds	r5, #31
	adcs	r6, r3
	lsrs	r3, r5, #3
	lsls	r5, r6, #29
	adds	r5, r3, r5
	adds	r3, r0, r5
	adds	r2, r3, #4
	cmp	r2, r1
	bls	.LBB65_26
	b	.LBB65_107
.LBB65_26:
	str	r5, [sp, #40]
	str	r0, [sp, #84]
	ldr	r0, [r4, #44]
	str	r0, [sp, #28]
	movs	r1, #16
	mov	r0, r2
	str	r1, [sp, #52]
	orrs	r0, r1
	mov	r5, r2
	bl	__clzsi2
	movs	r1, #27
	str	r1, [sp, #48]
	subs	r0, r1, r0
	str	r5, [sp, #80]
	subs	r2, r5, #1
	lsrs	r2, r0
	lsls	r0, r0, #4
	adds	r0, r2, r0
	adds	r0, r0, #1
	movs	r3, #0
	subs	r1, r0, #1
	str	r3, [sp, #116]
	mov	r0, r3
	sbcs	r0, r3
	lsrs	r3, r1, #4
	lsls	r5, r0, #28
	adds	r3, r3, r5
	lsls	r5, r3, #2
	mov	r6, r4
	adds	r4, #108
	str	r4, [sp, #72]
	ldr	r5, [r4, r5]
	movs	r4, #15
	str	r4, [sp, #56]
	ands	r2, r4
	lsrs	r5, r2
	movs	r2, #1
	bics	r5, r2
	str	r6, [sp, #92]
	beq	.LBB65_36
	str	r2, [sp, #24]
	cmp	r5, #0
	beq	.LBB65_42
	rsbs	r2, r5, #0
	ands	r2, r5
	ldr	r3, .LCPI65_4
	muls	r3, r2, r3
	lsrs	r2, r3, #27
	adr	r3, .LCPI65_5
	ldrb	r2, [r3, r2]
	b	.LBB65_43
.LBB65_29:
	movs	r5, #0
	mov	r4, r0
	mov	r0, r5
	bl	tlsf_c.call_fault.CallFault.refusal
	mov	r1, r0
	mov	r0, r4
	b	.LBB65_112
.LBB65_30:
	movs	r0, #1
	mvns	r0, r0
	lsls	r0, r3
	ldr	r1, [r5, #104]
	ands	r1, r0
	mov	r4, r5
	bne	.LBB65_31
	b	.LBB65_107
.LBB65_31:
	str	r2, [sp, #40]
	mov	r6, r4
	ldr	r2, .LCPI65_4
	adr	r4, .LCPI65_5
	movs	r3, #32
	cmp	r1, #0
	mov	r0, r3
	beq	.LBB65_33
	rsbs	r0, r1, #0
	ands	r0, r1
	muls	r0, r2, r0
	lsrs	r0, r0, #27
	ldrb	r0, [r4, r0]
.LBB65_33:
	mov	r1, r4
	lsls	r5, r0, #2
	ldr	r4, [sp, #72]
	ldr	r5, [r4, r5]
	cmp	r5, #0
	mov	r4, r6
	beq	.LBB65_45
	cmp	r5, #0
	beq	.LBB65_44
	rsbs	r3, r5, #0
	ands	r3, r5
	muls	r2, r3, r2
	lsrs	r2, r2, #27
	ldrb	r3, [r1, r2]
	b	.LBB65_45
.LBB65_36:
	movs	r0, #1
	mvns	r0, r0
	lsls	r0, r3
	ldr	r5, [r6, #104]
	ands	r5, r0
	mov	r4, r6
	bne	.LBB65_37
	b	.LBB65_107
.LBB65_37:
	str	r2, [sp, #24]
	ldr	r2, .LCPI65_4
	adr	r1, .LCPI65_5
	movs	r3, #32
	cmp	r5, #0
	mov	r0, r3
	beq	.LBB65_39
	rsbs	r0, r5, #0
	ands	r0, r5
	muls	r0, r2, r0
	lsrs	r0, r0, #27
	ldrb	r0, [r1, r0]
.LBB65_39:
	lsls	r5, r0, #2
	ldr	r4, [sp, #72]
	ldr	r5, [r4, r5]
	cmp	r5, #0
	ldr	r4, [sp, #92]
	bne	.LBB65_40
	b	.LBB65_76
.LBB65_40:
	cmp	r5, #0
	bne	.LBB65_41
	b	.LBB65_75
.LBB65_41:
	rsbs	r3, r5, #0
	ands	r3, r5
	muls	r2, r3, r2
	lsrs	r2, r2, #27
	ldrb	r3, [r1, r2]
	b	.LBB65_76
.LBB65_42:
	movs	r2, #32
.LBB65_43:
	ldr	r4, [sp, #92]
	str	r7, [sp, #96]
	adds	r2, r1, r2
	ldr	r1, [sp, #116]
	adcs	r0, r1
	lsrs	r1, r2, #4
	lsls	r0, r0, #28
	adds	r1, r1, r0
	b	.LBB65_77
.LBB65_44:
	movs	r3, #32
.LBB65_45:
	str	r7, [sp, #96]
	lsls	r0, r0, #5
	adds	r5, r3, r0
	lsrs	r0, r5, #5
.LBB65_46:
	str	r0, [sp, #48]
	mov	r3, r4
	mov	r2, r4
	adds	r2, #48
	mov	r1, r5
	lsls	r0, r5, #2
	adds	r4, #192
	str	r0, [sp, #88]
	ldr	r5, [r4, r0]
	lsls	r6, r5, #3
	ldr	r0, [r3, #48]
	str	r6, [sp, #76]
	adds	r6, r0, r6
	ldr	r6, [r6, #16]
	adds	r7, r6, #1
	str	r4, [sp, #52]
	str	r2, [sp, #60]
	beq	.LBB65_48
	lsls	r1, r6, #3
	adds	r0, r0, r1
	ldr	r1, [sp, #116]
	mvns	r1, r1
	str	r1, [r0, #20]
	ldr	r0, [sp, #88]
	str	r6, [r4, r0]
	ldr	r0, [r2]
	ldr	r1, [sp, #76]
	mov	r4, r3
	b	.LBB65_52
.LBB65_48:
	str	r3, [sp, #92]
	movs	r6, #1
	mvns	r7, r6
	adds	r7, r7, #1
	ldr	r2, [sp, #88]
	str	r7, [r4, r2]
	ldr	r3, [sp, #68]
	ands	r1, r3
	mov	r3, r6
	lsls	r3, r1
	ldr	r1, [sp, #48]
	lsls	r2, r1, #2
	ldr	r4, [sp, #72]
	ldr	r7, [r4, r2]
	bics	r7, r3
	str	r7, [r4, r2]
	beq	.LBB65_50
	ldr	r4, [sp, #92]
	b	.LBB65_51
.LBB65_50:
	lsls	r6, r1
	ldr	r4, [sp, #92]
	ldr	r1, [r4, #104]
	bics	r1, r6
	str	r1, [r4, #104]
.LBB65_51:
	ldr	r1, [sp, #76]
.LBB65_52:
	ldr	r3, [sp, #80]
	adds	r7, r0, r1
	ldr	r2, [r7, #4]
	str	r2, [sp, #88]
	ldr	r1, [r0, r1]
	lsls	r2, r3, #2
	subs	r2, r1, r2
	cmp	r2, #15
	bhi	.LBB65_54
	ldr	r2, [sp, #116]
	str	r2, [r7, #20]
	str	r2, [r7, #16]
	ldr	r6, [sp, #112]
	str	r6, [r7, #8]
	ldr	r0, [sp, #96]
	str	r0, [r7, #12]
	subs	r0, r1, #1
	str	r0, [r7]
	ldr	r1, [sp, #88]
	sbcs	r1, r2
	str	r1, [r7, #4]
	lsrs	r1, r0, #2
	b	.LBB65_62
.LBB65_54:
	lsrs	r6, r2, #2
	str	r6, [sp, #32]
	mov	r6, r3
	str	r4, [sp, #92]
	ldr	r3, [sp, #116]
	str	r3, [r7, #16]
	ldr	r3, [sp, #112]
	str	r3, [r7, #8]
	adds	r6, r5, r6
	mov	r3, r2
	str	r2, [sp, #28]
	lsls	r2, r6, #3
	adds	r4, r0, r2
	str	r4, [sp, #24]
	subs	r1, r1, r3
	str	r1, [r7]
	str	r2, [sp, #36]
	str	r3, [r0, r2]
	ldr	r0, [sp, #112]
	str	r0, [r4, #8]
	ldr	r0, [sp, #88]
	ldr	r4, [sp, #116]
	sbcs	r0, r4
	str	r0, [sp, #88]
	lsrs	r0, r6, #6
	lsls	r0, r0, #3
	str	r0, [sp, #16]
	ldr	r1, [sp, #92]
	ldr	r1, [r1, #72]
	str	r1, [sp, #20]
	ldr	r0, [r1, r0]
	str	r0, [sp, #12]
	movs	r2, #63
	str	r6, [sp, #48]
	ands	r2, r6
	movs	r0, #1
	str	r0, [sp, #8]
	mov	r1, r4
	bl	__aeabi_llsl
	ldr	r2, [sp, #12]
	orrs	r0, r2
	ldr	r3, [sp, #20]
	ldr	r6, [sp, #16]
	str	r0, [r3, r6]
	str	r4, [r7, #20]
	ldr	r0, [sp, #96]
	str	r0, [r7, #12]
	ldr	r2, [sp, #88]
	str	r2, [r7, #4]
	ldr	r2, [sp, #24]
	str	r0, [r2, #12]
	str	r5, [r2, #4]
	adds	r0, r3, r6
	ldr	r2, [r0, #4]
	orrs	r2, r1
	str	r2, [r0, #4]
	mvns	r7, r4
	ldr	r0, [sp, #28]
	lsls	r0, r0, #30
	ldr	r6, [sp, #32]
	ldr	r4, [sp, #60]
	bmi	.LBB65_56
	ldr	r3, [sp, #48]
	adds	r0, r6, r3
	lsls	r0, r0, #3
	ldr	r1, [r4]
	ldr	r2, [r1, r0]
	ands	r2, r7
	str	r2, [r1, r0]
	adds	r0, r1, r0
	str	r3, [r0, #4]
.LBB65_56:
	str	r7, [sp, #88]
	movs	r0, #32
	orrs	r0, r6
	bl	__clzsi2
	ldr	r1, [sp, #64]
	subs	r0, r1, r0
	lsrs	r6, r0
	lsls	r0, r0, #5
	adds	r0, r6, r0
	lsls	r2, r0, #2
	ldr	r7, [sp, #52]
	ldr	r1, [r7, r2]
	ldr	r3, [sp, #48]
	str	r3, [r7, r2]
	cmp	r1, #0
	bmi	.LBB65_60
	ldr	r0, [r4]
	ldr	r2, [sp, #36]
	adds	r2, r0, r2
	str	r1, [r2, #16]
	ldr	r4, [sp, #88]
	str	r4, [r2, #20]
	lsls	r1, r1, #3
	adds	r0, r0, r1
	str	r3, [r0, #20]
	ldr	r1, [r0, #16]
	ands	r1, r4
	str	r1, [r0, #16]
	ldr	r6, [sp, #112]
	ldr	r4, [sp, #92]
	b	.LBB65_61
	.p2align	2
.LCPI65_4:
	.long	125613361
	.p2align	2
.LCPI65_5:
	.ascii	"\000\001\034\002\035\016\030\003\036\026\024\017\031\021\004\b\037\033\r\027\025\023\020\007\032\f\022\006\013\005\n\t"
	.p2align	1
.LBB65_60:
	mov	r3, r6
	ldr	r6, [sp, #92]
	ldr	r1, [r6, #48]
	ldr	r2, [sp, #36]
	adds	r1, r1, r2
	ldr	r2, [sp, #100]
	str	r2, [r1, #16]
	str	r2, [r1, #20]
	ldr	r1, [sp, #68]
	ands	r3, r1
	ldr	r7, [sp, #8]
	mov	r1, r7
	lsls	r1, r3
	lsrs	r0, r0, #5
	lsls	r2, r0, #2
	ldr	r4, [sp, #72]
	ldr	r3, [r4, r2]
	orrs	r3, r1
	str	r3, [r4, r2]
	mov	r4, r6
	lsls	r7, r0
	ldr	r0, [r6, #104]
	orrs	r0, r7
	str	r0, [r6, #104]
	ldr	r6, [sp, #112]
.LBB65_61:
	ldr	r1, [sp, #80]
.LBB65_62:
	ldr	r0, [r4, #40]
	adds	r0, r0, r1
	str	r0, [r4, #40]
	ldr	r1, [r4, #44]
	cmp	r1, r0
	ldr	r7, [sp, #84]
	bhs	.LBB65_64
	str	r0, [r4, #44]
.LBB65_64:
	ldr	r0, [r4, #32]
	adds	r0, r0, #1
	str	r0, [r4, #32]
	ldr	r0, [r4, #36]
	ldr	r1, [sp, #116]
	adcs	r0, r1
	str	r0, [r4, #36]
	ldr	r0, [sp, #104]
	mov	r1, r7
	bl	__aeabi_uidivmod
	adds	r0, r5, r1
	adds	r0, r0, #3
	mov	r1, r7
	bl	__aeabi_uidivmod
	ldr	r0, [r4, #24]
	cmp	r1, #0
	ldr	r7, [sp, #96]
	beq	.LBB65_73
	add	r2, sp, #128
	stm	r2!, {r0, r5, r6, r7}
	movs	r7, #5
	mov	r0, r7
	ldr	r2, [sp, #84]
	muls	r0, r2, r0
	subs	r0, r0, r1
	subs	r0, r0, #4
	mov	r1, r2
	bl	__aeabi_uidivmod
	adds	r6, r1, #4
	add	r1, sp, #128
	ldr	r0, [sp, #108]
	mov	r2, r6
	bl	tlsf_heap.heap.Heap.resize_live.5
	lsls	r0, r0, #24
	beq	.LBB65_66
	b	.LBB65_103
.LBB65_66:
	adds	r5, r6, r5
	ldr	r0, [r4, #56]
	movs	r1, #3
	cmp	r5, r0
	blo	.LBB65_67
	b	.LBB65_104
.LBB65_67:
	mov	r6, r1
	movs	r0, #63
	mov	r2, r5
	str	r0, [sp, #104]
	ands	r2, r0
	ldr	r1, [r4, #72]
	lsrs	r0, r5, #6
	lsls	r3, r0, #3
	ldr	r0, [r1, r3]
	adds	r1, r1, r3
	ldr	r1, [r1, #4]
	bl	__aeabi_llsr
	lsls	r0, r0, #31
	bne	.LBB65_68
	b	.LBB65_117
.LBB65_68:
	lsls	r0, r5, #3
	ldr	r1, [sp, #60]
	ldr	r3, [r1]
	str	r0, [sp, #76]
	ldr	r0, [r3, r0]
	str	r0, [sp, #112]
	lsls	r0, r0, #31
	mov	r1, r6
	bne	.LBB65_69
	b	.LBB65_104
.LBB65_69:
	ldr	r0, [sp, #112]
	lsrs	r2, r0, #2
	ldr	r0, [sp, #56]
	cmp	r0, r2
	mov	r1, r7
	bls	.LBB65_70
	b	.LBB65_104
.LBB65_70:
	ldr	r1, [r4, #32]
	ldr	r6, [r4, #36]
	ldr	r0, [sp, #100]
	eors	r6, r0
	eors	r1, r0
	orrs	r1, r6
	ldr	r1, [sp, #40]
	bne	.LBB65_71
	b	.LBB65_104
.LBB65_71:
	ldr	r0, [sp, #76]
	adds	r0, r3, r0
	ldr	r0, [r0, #4]
	str	r0, [sp, #88]
	ldr	r0, [sp, #60]
	mov	r1, r2
	mov	r2, r5
	bl	tlsf_heap.region.Region.remove.5
	ldr	r1, [sp, #56]
	lsls	r0, r1, #2
	ldr	r2, [sp, #112]
	subs	r0, r2, r0
	ldr	r6, [r4, #32]
	ldr	r7, [r4, #36]
	cmp	r0, #15
	bls	.LBB65_72
	b	.LBB65_118
.LBB65_72:
	ldr	r0, [sp, #60]
	ldr	r0, [r0]
	ldr	r3, [sp, #76]
	adds	r1, r0, r3
	subs	r2, r2, #1
	str	r2, [r0, r3]
	ldr	r0, [sp, #116]
	str	r0, [r1, #20]
	str	r0, [r1, #16]
	str	r7, [r1, #12]
	str	r6, [r1, #8]
	ldr	r3, [sp, #88]
	sbcs	r3, r0
	str	r3, [r1, #4]
	lsrs	r2, r2, #2
	ldr	r0, [sp, #108]
	b	.LBB65_127
.LBB65_73:
	add	r1, sp, #128
	stm	r1!, {r0, r5, r6, r7}
	add	r1, sp, #128
	ldr	r0, [sp, #108]
	ldr	r2, [sp, #56]
	bl	tlsf_heap.heap.Heap.resize_live.5
	lsls	r0, r0, #24
	beq	.LBB65_74
	b	.LBB65_103
.LBB65_74:
	ldr	r1, [r4, #40]
	ldr	r0, [sp, #44]
	b	.LBB65_136
.LBB65_75:
	movs	r3, #32
.LBB65_76:
	str	r7, [sp, #96]
	lsls	r0, r0, #4
	adds	r2, r3, r0
	lsrs	r1, r2, #4
.LBB65_77:
	mov	r3, r4
	adds	r3, #48
	lsls	r5, r2, #2
	mov	r0, r4
	adds	r4, #192
	str	r5, [sp, #88]
	ldr	r5, [r4, r5]
	lsls	r6, r5, #3
	ldr	r0, [r0, #48]
	str	r6, [sp, #76]
	adds	r6, r0, r6
	ldr	r6, [r6, #16]
	adds	r7, r6, #1
	str	r4, [sp, #36]
	str	r3, [sp, #44]
	beq	.LBB65_79
	lsls	r1, r6, #3
	adds	r0, r0, r1
	ldr	r1, [sp, #116]
	mvns	r1, r1
	str	r1, [r0, #20]
	ldr	r0, [sp, #88]
	str	r6, [r4, r0]
	ldr	r0, [r3]
	ldr	r6, [sp, #112]
	ldr	r1, [sp, #76]
	ldr	r4, [sp, #92]
	b	.LBB65_83
.LBB65_79:
	movs	r6, #1
	mvns	r7, r6
	adds	r7, r7, #1
	ldr	r3, [sp, #88]
	str	r7, [r4, r3]
	ldr	r3, [sp, #56]
	ands	r2, r3
	mov	r3, r6
	lsls	r3, r2
	lsls	r2, r1, #2
	ldr	r4, [sp, #72]
	ldr	r7, [r4, r2]
	bics	r7, r3
	str	r7, [r4, r2]
	beq	.LBB65_81
	ldr	r6, [sp, #112]
	ldr	r4, [sp, #92]
	b	.LBB65_82
.LBB65_81:
	lsls	r6, r1
	ldr	r4, [sp, #92]
	ldr	r1, [r4, #104]
	bics	r1, r6
	str	r1, [r4, #104]
	ldr	r6, [sp, #112]
.LBB65_82:
	ldr	r1, [sp, #76]
.LBB65_83:
	ldr	r3, [sp, #80]
	adds	r7, r0, r1
	ldr	r2, [r7, #4]
	str	r2, [sp, #88]
	ldr	r1, [r0, r1]
	lsls	r2, r3, #2
	subs	r2, r1, r2
	cmp	r2, #15
	bhi	.LBB65_85
	ldr	r2, [sp, #116]
	str	r2, [r7, #20]
	str	r2, [r7, #16]
	str	r6, [r7, #8]
	ldr	r0, [sp, #96]
	str	r0, [r7, #12]
	subs	r0, r1, #1
	str	r0, [r7]
	ldr	r1, [sp, #88]
	sbcs	r1, r2
	str	r1, [r7, #4]
	lsrs	r1, r0, #2
	b	.LBB65_91
.LBB65_85:
	str	r2, [sp, #68]
	ldr	r2, [sp, #68]
	lsrs	r2, r2, #2
	str	r2, [sp, #64]
	ldr	r2, [sp, #116]
	str	r2, [r7, #16]
	str	r6, [r7, #8]
	adds	r2, r5, r3
	str	r2, [sp, #60]
	lsls	r3, r2, #3
	adds	r2, r0, r3
	str	r2, [sp, #32]
	ldr	r2, [sp, #68]
	subs	r1, r1, r2
	str	r1, [r7]
	str	r3, [sp, #20]
	str	r2, [r0, r3]
	ldr	r0, [sp, #32]
	str	r6, [r0, #8]
	ldr	r1, [sp, #116]
	ldr	r0, [sp, #88]
	sbcs	r0, r1
	str	r0, [sp, #88]
	ldr	r3, [sp, #60]
	lsrs	r0, r3, #6
	lsls	r0, r0, #3
	str	r0, [sp, #12]
	ldr	r6, [r4, #72]
	ldr	r2, [r6, r0]
	str	r2, [sp, #16]
	movs	r2, #63
	ands	r2, r3
	movs	r0, #1
	str	r0, [sp, #4]
	bl	__aeabi_llsl
	str	r1, [sp, #8]
	ldr	r1, [sp, #16]
	orrs	r0, r1
	ldr	r3, [sp, #12]
	str	r0, [r6, r3]
	ldr	r1, [sp, #116]
	str	r1, [r7, #20]
	ldr	r0, [sp, #96]
	str	r0, [r7, #12]
	ldr	r2, [sp, #88]
	str	r2, [r7, #4]
	ldr	r2, [sp, #32]
	str	r0, [r2, #12]
	str	r5, [r2, #4]
	adds	r0, r6, r3
	ldr	r2, [r0, #4]
	ldr	r3, [sp, #8]
	orrs	r2, r3
	str	r2, [r0, #4]
	mvns	r6, r1
	ldr	r0, [sp, #68]
	lsls	r0, r0, #30
	ldr	r7, [sp, #44]
	bmi	.LBB65_87
	ldr	r0, [sp, #64]
	ldr	r3, [sp, #60]
	adds	r0, r0, r3
	lsls	r0, r0, #3
	ldr	r1, [r7]
	ldr	r2, [r1, r0]
	ands	r2, r6
	str	r2, [r1, r0]
	adds	r0, r1, r0
	str	r3, [r0, #4]
.LBB65_87:
	str	r6, [sp, #88]
	ldr	r6, [sp, #64]
	mov	r0, r6
	ldr	r1, [sp, #52]
	orrs	r0, r1
	bl	__clzsi2
	ldr	r1, [sp, #48]
	subs	r0, r1, r0
	lsrs	r6, r0
	lsls	r0, r0, #4
	str	r6, [sp, #64]
	adds	r0, r6, r0
	lsls	r2, r0, #2
	ldr	r3, [sp, #36]
	ldr	r1, [r3, r2]
	ldr	r6, [sp, #60]
	str	r6, [r3, r2]
	cmp	r1, #0
	bmi	.LBB65_89
	mov	r3, r6
	ldr	r0, [r7]
	ldr	r2, [sp, #20]
	adds	r2, r0, r2
	str	r1, [r2, #16]
	ldr	r6, [sp, #88]
	str	r6, [r2, #20]
	lsls	r1, r1, #3
	adds	r0, r0, r1
	str	r3, [r0, #20]
	ldr	r1, [r0, #16]
	ands	r1, r6
	str	r1, [r0, #16]
	b	.LBB65_90
.LBB65_89:
	ldr	r1, [r4, #48]
	ldr	r2, [sp, #20]
	adds	r1, r1, r2
	ldr	r2, [sp, #100]
	str	r2, [r1, #16]
	str	r2, [r1, #20]
	ldr	r1, [sp, #56]
	ldr	r2, [sp, #64]
	ands	r2, r1
	ldr	r6, [sp, #4]
	mov	r1, r6
	lsls	r1, r2
	lsrs	r0, r0, #4
	lsls	r2, r0, #2
	ldr	r4, [sp, #72]
	ldr	r3, [r4, r2]
	orrs	r3, r1
	str	r3, [r4, r2]
	ldr	r4, [sp, #92]
	lsls	r6, r0
	ldr	r0, [r4, #104]
	orrs	r0, r6
	str	r0, [r4, #104]
.LBB65_90:
	ldr	r6, [sp, #112]
	ldr	r1, [sp, #80]
.LBB65_91:
	ldr	r0, [r4, #40]
	adds	r0, r0, r1
	str	r0, [r4, #40]
	ldr	r1, [r4, #44]
	cmp	r1, r0
	bhs	.LBB65_93
	str	r0, [r4, #44]
.LBB65_93:
	ldr	r0, [r4, #32]
	adds	r0, r0, #1
	str	r0, [r4, #32]
	ldr	r0, [r4, #36]
	ldr	r1, [sp, #116]
	adcs	r0, r1
	str	r0, [r4, #36]
	ldr	r0, [sp, #104]
	ldr	r7, [sp, #84]
	mov	r1, r7
	bl	__aeabi_uidivmod
	adds	r0, r5, r1
	adds	r0, r0, #3
	mov	r1, r7
	bl	__aeabi_uidivmod
	ldr	r0, [r4, #24]
	cmp	r1, #0
	ldr	r7, [sp, #96]
	beq	.LBB65_102
	add	r2, sp, #128
	stm	r2!, {r0, r5, r6, r7}
	movs	r7, #5
	mov	r0, r7
	ldr	r2, [sp, #84]
	muls	r0, r2, r0
	subs	r0, r0, r1
	subs	r0, r0, #4
	mov	r1, r2
	bl	__aeabi_uidivmod
	adds	r6, r1, #4
	add	r1, sp, #128
	ldr	r0, [sp, #108]
	mov	r2, r6
	bl	tlsf_heap.heap.Heap.resize_live.4
	lsls	r0, r0, #24
	bne	.LBB65_103
	adds	r5, r6, r5
	ldr	r0, [r4, #56]
	movs	r1, #3
	cmp	r5, r0
	bhs	.LBB65_104
	mov	r6, r1
	movs	r0, #63
	mov	r2, r5
	str	r0, [sp, #104]
	ands	r2, r0
	ldr	r1, [r4, #72]
	lsrs	r0, r5, #6
	lsls	r3, r0, #3
	ldr	r0, [r1, r3]
	adds	r1, r1, r3
	ldr	r1, [r1, #4]
	bl	__aeabi_llsr
	lsls	r0, r0, #31
	beq	.LBB65_117
	lsls	r0, r5, #3
	ldr	r1, [sp, #44]
	ldr	r3, [r1]
	str	r0, [sp, #76]
	ldr	r0, [r3, r0]
	str	r0, [sp, #112]
	lsls	r0, r0, #31
	mov	r1, r6
	beq	.LBB65_104
	ldr	r0, [sp, #112]
	lsrs	r2, r0, #2
	ldr	r0, [sp, #40]
	cmp	r0, r2
	mov	r1, r7
	bhi	.LBB65_104
	ldr	r1, [r4, #32]
	ldr	r6, [r4, #36]
	ldr	r0, [sp, #100]
	eors	r6, r0
	eors	r1, r0
	orrs	r1, r6
	ldr	r1, [sp, #24]
	beq	.LBB65_104
	ldr	r0, [sp, #76]
	adds	r0, r3, r0
	ldr	r0, [r0, #4]
	str	r0, [sp, #88]
	ldr	r0, [sp, #44]
	mov	r1, r2
	mov	r2, r5
	bl	tlsf_heap.region.Region.remove.4
	ldr	r1, [sp, #40]
	lsls	r0, r1, #2
	ldr	r2, [sp, #112]
	subs	r0, r2, r0
	ldr	r6, [r4, #32]
	ldr	r7, [r4, #36]
	cmp	r0, #15
	bls	.LBB65_101
	b	.LBB65_122
.LBB65_101:
	ldr	r0, [sp, #44]
	ldr	r0, [r0]
	ldr	r3, [sp, #76]
	adds	r1, r0, r3
	subs	r2, r2, #1
	str	r2, [r0, r3]
	ldr	r0, [sp, #116]
	str	r0, [r1, #20]
	str	r0, [r1, #16]
	str	r7, [r1, #12]
	str	r6, [r1, #8]
	ldr	r3, [sp, #88]
	sbcs	r3, r0
	str	r3, [r1, #4]
	lsrs	r2, r2, #2
	ldr	r0, [sp, #108]
	b	.LBB65_132
.LBB65_102:
	add	r1, sp, #128
	stm	r1!, {r0, r5, r6, r7}
	add	r1, sp, #128
	ldr	r0, [sp, #108]
	ldr	r2, [sp, #40]
	bl	tlsf_heap.heap.Heap.resize_live.4
	lsls	r0, r0, #24
	bne	.LBB65_103
	b	.LBB65_135
.LBB65_103:
	lsls	r3, r1, #24
	beq	.LBB65_107
.LBB65_104:
	movs	r2, #1
	strb	r2, [r4]
	uxtb	r1, r1
	subs	r2, r1, #1
	movs	r7, #0
	movs	r1, #2
	mov	r5, r7
	mov	r6, r7
	ldr	r0, [sp, #124]
	.p2align	2
	add	r2, pc
	ldrb	r2, [r2, #4]
	lsls	r2, r2, #1
.LCPI65_3:
	add	pc, r2
	.p2align	2
.LJTI65_0:
	.byte	(.LBB65_113-(.LCPI65_3+4))/2
	.byte	(.LBB65_106-(.LCPI65_3+4))/2
	.byte	(.LBB65_115-(.LCPI65_3+4))/2
	.byte	(.LBB65_116-(.LCPI65_3+4))/2
	.byte	(.LBB65_114-(.LCPI65_3+4))/2
	.p2align	1
.LBB65_106:
	movs	r5, #0
	movs	r1, #3
	b	.LBB65_112
.LBB65_107:
	movs	r1, #1
	strb	r1, [r4]
	ldr	r3, [r4, #12]
	ldr	r0, [sp, #120]
	cmp	r0, r3
	bhi	.LBB65_109
	mov	r0, r3
.LBB65_109:
	str	r0, [r4, #12]
	movs	r5, #0
	ldr	r2, [r4, #8]
	adds	r2, r2, #1
	ldr	r0, [sp, #124]
	blo	.LBB65_111
	mvns	r2, r5
.LBB65_111:
	str	r2, [r4, #8]
.LBB65_112:
	mov	r6, r5
	mov	r7, r5
.LBB65_113:
	str	r5, [r0]
	adds	r0, r0, #4
	stm	r0!, {r1, r6, r7}
	add	sp, #148
	pop	{r4, r5, r6, r7, pc}
.LBB65_114:
	movs	r5, #0
	movs	r1, #10
	b	.LBB65_112
.LBB65_115:
	movs	r5, #0
	movs	r1, #4
	b	.LBB65_112
.LBB65_116:
	movs	r5, #0
	movs	r1, #7
	b	.LBB65_112
.LBB65_117:
	mov	r1, r6
	b	.LBB65_104
.LBB65_118:
	lsrs	r2, r0, #2
	str	r2, [sp, #84]
	adds	r1, r5, r1
	str	r1, [sp, #80]
	mov	r2, r0
	lsls	r3, r1, #3
	ldr	r1, [r4, #48]
	adds	r0, r1, r3
	str	r0, [sp, #48]
	str	r7, [sp, #96]
	ldr	r7, [sp, #76]
	adds	r0, r1, r7
	str	r0, [sp, #24]
	mov	r0, r2
	str	r2, [sp, #36]
	ldr	r2, [sp, #112]
	subs	r2, r2, r0
	str	r2, [r1, r7]
	mov	r2, r4
	ldr	r4, [sp, #116]
	ldr	r7, [sp, #24]
	str	r4, [r7, #16]
	str	r6, [r7, #8]
	str	r3, [sp, #40]
	str	r0, [r1, r3]
	str	r6, [sp, #112]
	ldr	r0, [sp, #48]
	str	r6, [r0, #8]
	ldr	r0, [sp, #88]
	sbcs	r0, r4
	str	r0, [sp, #88]
	ldr	r1, [sp, #80]
	lsrs	r6, r1, #3
	ldr	r0, .LCPI65_2
	ands	r6, r0
	str	r2, [sp, #92]
	ldr	r0, [r2, #72]
	str	r0, [sp, #28]
	ldr	r2, [r0, r6]
	str	r2, [sp, #32]
	ldr	r2, [sp, #104]
	ands	r2, r1
	movs	r0, #1
	str	r0, [sp, #104]
	mov	r1, r4
	bl	__aeabi_llsl
	ldr	r2, [sp, #32]
	orrs	r0, r2
	ldr	r2, [sp, #28]
	str	r0, [r2, r6]
	ldr	r0, [sp, #96]
	str	r0, [r7, #12]
	str	r4, [r7, #20]
	ldr	r0, [sp, #88]
	str	r0, [r7, #4]
	ldr	r7, [sp, #96]
	ldr	r0, [sp, #48]
	str	r7, [r0, #12]
	str	r5, [r0, #4]
	adds	r0, r2, r6
	ldr	r2, [r0, #4]
	orrs	r2, r1
	str	r2, [r0, #4]
	mvns	r6, r4
	ldr	r0, [sp, #36]
	lsls	r0, r0, #30
	ldr	r4, [sp, #60]
	bmi	.LBB65_120
	ldr	r0, [sp, #84]
	ldr	r3, [sp, #80]
	adds	r0, r0, r3
	lsls	r0, r0, #3
	ldr	r1, [r4]
	ldr	r2, [r1, r0]
	ands	r2, r6
	str	r2, [r1, r0]
	adds	r0, r1, r0
	str	r3, [r0, #4]
.LBB65_120:
	movs	r0, #32
	ldr	r4, [sp, #84]
	orrs	r0, r4
	bl	__clzsi2
	ldr	r1, [sp, #64]
	subs	r0, r1, r0
	lsrs	r4, r0
	lsls	r0, r0, #5
	str	r4, [sp, #84]
	adds	r0, r4, r0
	lsls	r2, r0, #2
	ldr	r3, [sp, #52]
	ldr	r1, [r3, r2]
	ldr	r4, [sp, #80]
	str	r4, [r3, r2]
	cmp	r1, #0
	bpl	.LBB65_121
	b	.LBB65_126
.LBB65_121:
	ldr	r0, [sp, #60]
	ldr	r0, [r0]
	ldr	r2, [sp, #40]
	adds	r2, r0, r2
	str	r1, [r2, #16]
	str	r6, [r2, #20]
	lsls	r1, r1, #3
	adds	r0, r0, r1
	str	r4, [r0, #20]
	ldr	r1, [r0, #16]
	ands	r1, r6
	str	r1, [r0, #16]
	ldr	r0, [sp, #108]
	ldr	r6, [sp, #112]
	ldr	r2, [sp, #56]
	ldr	r4, [sp, #92]
	b	.LBB65_127
.LBB65_122:
	lsrs	r2, r0, #2
	str	r2, [sp, #84]
	adds	r1, r5, r1
	str	r1, [sp, #80]
	mov	r2, r0
	lsls	r3, r1, #3
	ldr	r1, [r4, #48]
	adds	r0, r1, r3
	str	r0, [sp, #68]
	str	r7, [sp, #96]
	ldr	r7, [sp, #76]
	adds	r0, r1, r7
	str	r0, [sp, #20]
	mov	r0, r2
	str	r2, [sp, #60]
	ldr	r2, [sp, #112]
	subs	r2, r2, r0
	str	r2, [r1, r7]
	ldr	r2, [sp, #116]
	ldr	r7, [sp, #20]
	str	r2, [r7, #16]
	str	r6, [r7, #8]
	str	r3, [sp, #64]
	str	r0, [r1, r3]
	str	r6, [sp, #112]
	ldr	r0, [sp, #68]
	str	r6, [r0, #8]
	ldr	r0, [sp, #88]
	sbcs	r0, r2
	str	r0, [sp, #88]
	mov	r1, r2
	ldr	r3, [sp, #80]
	lsrs	r6, r3, #3
	ldr	r0, .LCPI65_2
	ands	r6, r0
	ldr	r0, [r4, #72]
	str	r0, [sp, #24]
	ldr	r2, [r0, r6]
	str	r2, [sp, #32]
	ldr	r2, [sp, #104]
	ands	r2, r3
	movs	r0, #1
	str	r0, [sp, #16]
	bl	__aeabi_llsl
	ldr	r2, [sp, #32]
	orrs	r0, r2
	ldr	r2, [sp, #24]
	str	r0, [r2, r6]
	ldr	r0, [sp, #96]
	str	r0, [r7, #12]
	ldr	r3, [sp, #116]
	str	r3, [r7, #20]
	ldr	r0, [sp, #88]
	str	r0, [r7, #4]
	ldr	r7, [sp, #96]
	ldr	r0, [sp, #68]
	str	r7, [r0, #12]
	str	r5, [r0, #4]
	adds	r0, r2, r6
	ldr	r2, [r0, #4]
	orrs	r2, r1
	str	r2, [r0, #4]
	mvns	r6, r3
	ldr	r0, [sp, #60]
	lsls	r0, r0, #30
	bmi	.LBB65_124
	ldr	r0, [sp, #84]
	ldr	r3, [sp, #80]
	adds	r0, r0, r3
	lsls	r0, r0, #3
	ldr	r1, [sp, #44]
	ldr	r1, [r1]
	ldr	r2, [r1, r0]
	ands	r2, r6
	str	r2, [r1, r0]
	adds	r0, r1, r0
	str	r3, [r0, #4]
.LBB65_124:
	str	r6, [sp, #104]
	ldr	r0, [sp, #52]
	ldr	r6, [sp, #84]
	orrs	r0, r6
	bl	__clzsi2
	ldr	r1, [sp, #48]
	subs	r0, r1, r0
	lsrs	r6, r0
	lsls	r0, r0, #4
	str	r6, [sp, #84]
	adds	r0, r6, r0
	lsls	r2, r0, #2
	ldr	r3, [sp, #36]
	ldr	r1, [r3, r2]
	ldr	r6, [sp, #80]
	str	r6, [r3, r2]
	cmp	r1, #0
	bmi	.LBB65_130
	mov	r3, r6
	ldr	r0, [sp, #44]
	ldr	r0, [r0]
	ldr	r2, [sp, #64]
	adds	r2, r0, r2
	str	r1, [r2, #16]
	ldr	r6, [sp, #104]
	str	r6, [r2, #20]
	lsls	r1, r1, #3
	adds	r0, r0, r1
	str	r3, [r0, #20]
	ldr	r1, [r0, #16]
	ands	r1, r6
	str	r1, [r0, #16]
	b	.LBB65_131
.LBB65_126:
	ldr	r1, [sp, #92]
	ldr	r1, [r1, #48]
	ldr	r2, [sp, #40]
	adds	r1, r1, r2
	ldr	r2, [sp, #100]
	str	r2, [r1, #16]
	str	r2, [r1, #20]
	ldr	r1, [sp, #68]
	ldr	r2, [sp, #84]
	ands	r2, r1
	ldr	r1, [sp, #104]
	mov	r4, r1
	lsls	r4, r2
	lsrs	r6, r0, #5
	lsls	r2, r6, #2
	ldr	r0, [sp, #72]
	ldr	r3, [r0, r2]
	orrs	r3, r4
	str	r3, [r0, r2]
	ldr	r4, [sp, #92]
	lsls	r1, r6
	ldr	r0, [r4, #104]
	orrs	r0, r1
	str	r0, [r4, #104]
	ldr	r0, [sp, #108]
	ldr	r6, [sp, #112]
	ldr	r2, [sp, #56]
.LBB65_127:
	ldr	r1, [r4, #40]
	adds	r2, r1, r2
	str	r2, [r4, #40]
	ldr	r1, [r4, #44]
	cmp	r1, r2
	bhs	.LBB65_129
	str	r2, [r4, #44]
.LBB65_129:
	adds	r1, r6, #1
	str	r1, [r4, #32]
	ldr	r1, [sp, #116]
	adcs	r1, r7
	str	r1, [r4, #36]
	add	r1, sp, #128
	bl	tlsf_heap.heap.Heap.release_live.5
	b	.LBB65_74
.LBB65_130:
	ldr	r1, [r4, #48]
	ldr	r2, [sp, #64]
	adds	r1, r1, r2
	ldr	r2, [sp, #100]
	str	r2, [r1, #16]
	str	r2, [r1, #20]
	ldr	r1, [sp, #56]
	ldr	r2, [sp, #84]
	ands	r2, r1
	ldr	r6, [sp, #16]
	mov	r1, r6
	lsls	r1, r2
	lsrs	r0, r0, #4
	lsls	r2, r0, #2
	ldr	r4, [sp, #72]
	ldr	r3, [r4, r2]
	orrs	r3, r1
	str	r3, [r4, r2]
	ldr	r4, [sp, #92]
	lsls	r6, r0
	ldr	r0, [r4, #104]
	orrs	r0, r6
	str	r0, [r4, #104]
.LBB65_131:
	ldr	r0, [sp, #108]
	ldr	r6, [sp, #112]
	ldr	r2, [sp, #40]
.LBB65_132:
	ldr	r1, [r4, #40]
	adds	r2, r1, r2
	str	r2, [r4, #40]
	ldr	r1, [r4, #44]
	cmp	r1, r2
	bhs	.LBB65_134
	str	r2, [r4, #44]
.LBB65_134:
	adds	r1, r6, #1
	str	r1, [r4, #32]
	ldr	r1, [sp, #116]
	adcs	r1, r7
	str	r1, [r4, #36]
	add	r1, sp, #128
	bl	tlsf_heap.heap.Heap.release_live.4
.LBB65_135:
	ldr	r1, [r4, #40]
	ldr	r0, [sp, #28]
.LBB65_136:
	cmp	r1, r0
	ldr	r2, [sp, #120]
	bhi	.LBB65_138
	mov	r1, r0
.LBB65_138:
	str	r1, [r4, #44]
	ldr	r1, [r4, #48]
	ldr	r0, [sp, #76]
	adds	r3, r1, r0
	movs	r1, #0
	str	r2, [r3, #16]
	str	r1, [r3, #20]
	movs	r2, #1
	strb	r2, [r4]
	ldr	r0, [sp, #124]
	b	.LBB65_113
	.p2align	2
.LCPI65_2:
	.long	536870904
.Lfunc_end65:
	.size	tlsf_allocate_aligned, .Lfunc_end65-tlsf_allocate_aligned
	.cfi_endproc
	.section	.text.tlsf_allocate_payload,"ax",%progbits
	.globl	tlsf_allocate_payload
	.p2align	2
	.type	tlsf_allocate_payload,%function
	.code	16
	.thumb_func
tlsf_allocate_payload:
	.cfi_startproc
	push	{r4, r5, r6, r7, lr}
	.cfi_def_cfa_offset 20
	.cfi_offset lr, -4
	.cfi_offset r7, -8
	.cfi_offset r6, -12
	.cfi_offset r5, -16
	.cfi_offset r4, -20
	sub	sp, #76
	.cfi_def_cfa_offset 96
	mov	r2, r0
	ldrb	r3, [r0, #8]
	movs	r0, #0
	cmp	r3, #0
	beq	.LBB66_16
	ldr	r7, [r2]
	ldrb	r2, [r7]
	cmp	r2, #1
	bne	.LBB66_16
	ldr	r2, .LCPI66_5
	mov	r3, r2
	adds	r3, #33
	cmp	r1, r3
	bhs	.LBB66_16
	movs	r0, #0
	strb	r0, [r7]
	ldr	r3, .LCPI66_6
	subs	r3, #8
	adds	r1, r1, #7
	ands	r1, r3
	mov	r4, r1
	adds	r4, #8
	mov	r3, r1
	adds	r3, #39
	lsrs	r5, r3, #3
	ldrb	r3, [r7, #16]
	cmp	r3, #0
	beq	.LBB66_9
	cmp	r1, r2
	bhi	.LBB66_10
	str	r4, [sp, #72]
	movs	r4, #32
	mov	r1, r5
	orrs	r1, r4
	str	r0, [sp, #64]
	mov	r0, r1
	bl	__clzsi2
	mov	r1, r0
	ldr	r0, [sp, #64]
	movs	r2, #26
	str	r2, [sp, #40]
	subs	r2, r2, r1
	str	r5, [sp, #68]
	subs	r1, r5, #1
	lsrs	r1, r2
	lsls	r2, r2, #5
	adds	r2, r1, r2
	adds	r2, r2, #1
	subs	r3, r2, #1
	mov	r2, r0
	sbcs	r2, r0
	str	r3, [sp, #60]
	lsrs	r5, r3, #5
	lsls	r6, r2, #27
	adds	r6, r5, r6
	lsls	r5, r6, #2
	mov	r3, r7
	adds	r7, #108
	str	r7, [sp, #52]
	ldr	r5, [r7, r5]
	movs	r7, #31
	str	r7, [sp, #44]
	ands	r1, r7
	lsrs	r5, r1
	movs	r1, #1
	bics	r5, r1
	str	r1, [sp, #56]
	beq	.LBB66_20
	mov	r7, r3
	cmp	r5, #0
	beq	.LBB66_8
	rsbs	r4, r5, #0
	ands	r4, r5
	ldr	r5, .LCPI66_7
	muls	r5, r4, r5
	lsrs	r4, r5, #27
	adr	r5, .LCPI66_8
	ldrb	r4, [r5, r4]
.LBB66_8:
	ldr	r1, [sp, #60]
	adds	r6, r1, r4
	adcs	r2, r0
	lsrs	r3, r6, #5
	lsls	r2, r2, #27
	adds	r4, r3, r2
	b	.LBB66_36
.LBB66_9:
	ldr	r2, .LCPI66_9
	cmp	r1, r2
	bls	.LBB66_17
.LBB66_10:
	ldr	r1, [r7, #12]
	cmp	r4, r1
	bhi	.LBB66_12
	mov	r4, r1
.LBB66_12:
	str	r4, [r7, #12]
	ldr	r1, [r7, #8]
	adds	r1, r1, #1
	blo	.LBB66_14
	movs	r1, #0
	mvns	r1, r1
.LBB66_14:
	str	r1, [r7, #8]
.LBB66_15:
	movs	r1, #1
	strb	r1, [r7]
.LBB66_16:
	add	sp, #76
	pop	{r4, r5, r6, r7, pc}
.LBB66_17:
	str	r4, [sp, #72]
	mov	r4, r0
	movs	r1, #16
	mov	r0, r5
	str	r1, [sp, #40]
	orrs	r0, r1
	bl	__clzsi2
	movs	r1, #27
	str	r1, [sp, #36]
	subs	r1, r1, r0
	str	r5, [sp, #68]
	subs	r0, r5, #1
	lsrs	r0, r1
	lsls	r1, r1, #4
	adds	r1, r0, r1
	adds	r1, r1, #1
	movs	r2, #0
	subs	r3, r1, #1
	str	r2, [sp, #60]
	sbcs	r2, r2
	lsrs	r1, r3, #4
	lsls	r5, r2, #28
	adds	r6, r1, r5
	lsls	r1, r6, #2
	mov	r5, r7
	adds	r5, #108
	str	r5, [sp, #52]
	ldr	r5, [r5, r1]
	movs	r1, #15
	str	r1, [sp, #44]
	ands	r0, r1
	lsrs	r5, r0
	movs	r1, #1
	bics	r5, r1
	beq	.LBB66_26
	cmp	r5, #0
	beq	.LBB66_32
	rsbs	r0, r5, #0
	ands	r0, r5
	ldr	r5, .LCPI66_7
	muls	r5, r0, r5
	lsrs	r0, r5, #27
	adr	r5, .LCPI66_8
	ldrb	r5, [r5, r0]
	b	.LBB66_33
.LBB66_20:
	mvns	r2, r1
	lsls	r2, r6
	ldr	r5, [r3, #104]
	ands	r5, r2
	ldr	r4, [sp, #72]
	mov	r7, r3
	beq	.LBB66_10
	ldr	r4, .LCPI66_7
	adr	r3, .LCPI66_8
	movs	r6, #32
	cmp	r5, #0
	mov	r2, r6
	beq	.LBB66_23
	rsbs	r2, r5, #0
	ands	r2, r5
	muls	r2, r4, r2
	lsrs	r2, r2, #27
	ldrb	r2, [r3, r2]
.LBB66_23:
	lsls	r5, r2, #2
	ldr	r1, [sp, #52]
	ldr	r5, [r1, r5]
	cmp	r5, #0
	beq	.LBB66_35
	cmp	r5, #0
	beq	.LBB66_34
	rsbs	r6, r5, #0
	ands	r6, r5
	muls	r4, r6, r4
	lsrs	r4, r4, #27
	ldrb	r6, [r3, r4]
	b	.LBB66_35
.LBB66_26:
	mvns	r0, r1
	lsls	r0, r6
	ldr	r5, [r7, #104]
	ands	r5, r0
	mov	r0, r4
	ldr	r4, [sp, #72]
	beq	.LBB66_10
	ldr	r4, .LCPI66_2
	adr	r3, .LCPI66_3
	movs	r6, #32
	cmp	r5, #0
	mov	r2, r6
	beq	.LBB66_29
	rsbs	r2, r5, #0
	ands	r2, r5
	muls	r2, r4, r2
	lsrs	r2, r2, #27
	ldrb	r2, [r3, r2]
.LBB66_29:
	lsls	r5, r2, #2
	ldr	r3, [sp, #52]
	ldr	r5, [r3, r5]
	cmp	r5, #0
	bne	.LBB66_30
	b	.LBB66_54
.LBB66_30:
	cmp	r5, #0
	bne	.LBB66_31
	b	.LBB66_53
.LBB66_31:
	rsbs	r6, r5, #0
	ands	r6, r5
	muls	r4, r6, r4
	lsrs	r4, r4, #27
	adr	r3, .LCPI66_3
	ldrb	r6, [r3, r4]
	b	.LBB66_54
.LBB66_32:
	movs	r5, #32
.LBB66_33:
	mov	r0, r4
	adds	r4, r3, r5
	ldr	r3, [sp, #60]
	adcs	r2, r3
	lsrs	r3, r4, #4
	lsls	r2, r2, #28
	adds	r6, r3, r2
	b	.LBB66_55
.LBB66_34:
	movs	r6, #32
.LBB66_35:
	lsls	r2, r2, #5
	adds	r6, r6, r2
	lsrs	r4, r6, #5
.LBB66_36:
	ldr	r2, [r7, #32]
	ldr	r1, [r7, #36]
	mov	r3, r2
	ands	r3, r1
	adds	r3, r3, #1
	bne	.LBB66_37
	b	.LBB66_15
.LBB66_37:
	str	r4, [sp, #20]
	str	r2, [sp, #48]
	str	r1, [sp, #32]
	mvns	r1, r0
	str	r1, [sp, #36]
	lsls	r1, r6, #2
	mov	r4, r7
	adds	r7, #192
	str	r1, [sp, #60]
	ldr	r1, [r7, r1]
	str	r1, [sp, #28]
	lsls	r2, r1, #3
	ldr	r3, [r4, #48]
	adds	r5, r3, r2
	ldr	r5, [r5, #16]
	adds	r1, r5, #1
	str	r7, [sp, #24]
	beq	.LBB66_39
	lsls	r1, r5, #3
	adds	r1, r3, r1
	ldr	r3, [sp, #36]
	str	r3, [r1, #20]
	ldr	r1, [sp, #60]
	str	r5, [r7, r1]
	ldr	r3, [r4, #48]
	mov	r7, r4
	b	.LBB66_42
.LBB66_39:
	str	r4, [sp, #16]
	ldr	r4, [sp, #56]
	mvns	r1, r4
	adds	r1, r1, #1
	ldr	r5, [sp, #60]
	str	r1, [r7, r5]
	ldr	r1, [sp, #44]
	ands	r6, r1
	mov	r1, r4
	lsls	r1, r6
	ldr	r7, [sp, #20]
	lsls	r4, r7, #2
	ldr	r6, [sp, #52]
	ldr	r5, [r6, r4]
	bics	r5, r1
	str	r5, [r6, r4]
	beq	.LBB66_41
	ldr	r7, [sp, #16]
	b	.LBB66_42
.LBB66_41:
	ldr	r4, [sp, #56]
	lsls	r4, r7
	ldr	r7, [sp, #16]
	ldr	r1, [r7, #104]
	bics	r1, r4
	str	r1, [r7, #104]
.LBB66_42:
	adds	r6, r3, r2
	ldr	r1, [r6, #4]
	str	r1, [sp, #60]
	str	r2, [sp, #56]
	ldr	r1, [r3, r2]
	ldr	r5, [sp, #68]
	lsls	r4, r5, #2
	subs	r4, r1, r4
	cmp	r4, #15
	bhi	.LBB66_44
	str	r0, [r6, #20]
	ldr	r2, [sp, #72]
	str	r2, [r6, #16]
	ldr	r2, [sp, #48]
	str	r2, [r6, #8]
	ldr	r2, [sp, #32]
	str	r2, [r6, #12]
	subs	r1, r1, #1
	str	r1, [r6]
	ldr	r2, [sp, #60]
	sbcs	r2, r0
	str	r2, [r6, #4]
	lsrs	r2, r1, #2
	b	.LBB66_50
.LBB66_44:
	lsrs	r2, r4, #2
	str	r2, [sp, #16]
	ldr	r2, [sp, #72]
	str	r2, [r6, #16]
	ldr	r2, [sp, #48]
	str	r2, [r6, #8]
	ldr	r2, [sp, #28]
	adds	r2, r2, r5
	str	r2, [sp, #72]
	lsls	r5, r2, #3
	adds	r2, r3, r5
	str	r2, [sp, #12]
	subs	r1, r1, r4
	str	r1, [r6]
	str	r5, [sp, #20]
	str	r4, [r3, r5]
	ldr	r1, [sp, #48]
	str	r1, [r2, #8]
	ldr	r1, [sp, #60]
	sbcs	r1, r0
	str	r1, [sp, #60]
	ldr	r3, [sp, #72]
	lsrs	r5, r3, #3
	ldr	r1, .LCPI66_1
	ands	r5, r1
	ldr	r1, [r7, #72]
	str	r1, [sp, #8]
	ldr	r2, [r1, r5]
	str	r2, [sp, #48]
	movs	r2, #63
	ands	r2, r3
	movs	r3, #1
	mov	r1, r0
	str	r3, [sp, #4]
	mov	r0, r3
	bl	__aeabi_llsl
	ldr	r2, [sp, #48]
	orrs	r0, r2
	ldr	r3, [sp, #8]
	str	r0, [r3, r5]
	ldr	r0, [sp, #64]
	str	r0, [r6, #20]
	ldr	r0, [sp, #32]
	str	r0, [r6, #12]
	ldr	r2, [sp, #60]
	str	r2, [r6, #4]
	ldr	r6, [sp, #72]
	ldr	r2, [sp, #12]
	str	r0, [r2, #12]
	ldr	r0, [sp, #28]
	str	r0, [r2, #4]
	adds	r0, r3, r5
	ldr	r5, [sp, #16]
	ldr	r2, [r0, #4]
	orrs	r2, r1
	str	r2, [r0, #4]
	lsls	r0, r4, #30
	ldr	r4, [sp, #36]
	bmi	.LBB66_46
	adds	r0, r5, r6
	lsls	r0, r0, #3
	ldr	r1, [r7, #48]
	ldr	r2, [r1, r0]
	ands	r2, r4
	str	r2, [r1, r0]
	adds	r0, r1, r0
	str	r6, [r0, #4]
.LBB66_46:
	movs	r0, #32
	orrs	r0, r5
	bl	__clzsi2
	ldr	r1, [sp, #40]
	subs	r0, r1, r0
	lsrs	r5, r0
	lsls	r0, r0, #5
	adds	r0, r5, r0
	lsls	r2, r0, #2
	ldr	r3, [sp, #24]
	ldr	r1, [r3, r2]
	str	r6, [r3, r2]
	cmp	r1, #0
	bmi	.LBB66_48
	ldr	r0, [r7, #48]
	ldr	r2, [sp, #20]
	adds	r2, r0, r2
	str	r1, [r2, #16]
	str	r4, [r2, #20]
	lsls	r1, r1, #3
	adds	r0, r0, r1
	str	r6, [r0, #20]
	ldr	r1, [r0, #16]
	ands	r1, r4
	str	r1, [r0, #16]
	b	.LBB66_49
.LBB66_48:
	ldr	r1, [r7, #48]
	ldr	r2, [sp, #20]
	adds	r1, r1, r2
	str	r4, [r1, #16]
	str	r4, [r1, #20]
	ldr	r1, [sp, #44]
	ands	r5, r1
	ldr	r6, [sp, #4]
	mov	r1, r6
	lsls	r1, r5
	lsrs	r0, r0, #5
	lsls	r2, r0, #2
	ldr	r4, [sp, #52]
	ldr	r3, [r4, r2]
	orrs	r3, r1
	str	r3, [r4, r2]
	lsls	r6, r0
	ldr	r0, [r7, #104]
	orrs	r0, r6
	str	r0, [r7, #104]
.LBB66_49:
	ldr	r0, [sp, #64]
	ldr	r2, [sp, #68]
.LBB66_50:
	ldr	r1, [r7, #40]
	adds	r1, r1, r2
	str	r1, [r7, #40]
	ldr	r2, [r7, #44]
	cmp	r2, r1
	bhs	.LBB66_52
	str	r1, [r7, #44]
.LBB66_52:
	ldr	r1, [r7, #32]
	adds	r1, r1, #1
	str	r1, [r7, #32]
	ldr	r1, [r7, #36]
	adcs	r1, r0
	str	r1, [r7, #36]
	ldr	r1, [sp, #56]
	b	.LBB66_76
.LBB66_53:
	movs	r6, #32
.LBB66_54:
	lsls	r2, r2, #4
	adds	r4, r6, r2
	lsrs	r6, r4, #4
.LBB66_55:
	ldr	r3, [r7, #32]
	ldr	r2, [r7, #36]
	mov	r5, r3
	ands	r5, r2
	adds	r5, r5, #1
	bne	.LBB66_56
	b	.LBB66_15
.LBB66_56:
	str	r6, [sp, #64]
	str	r3, [sp, #48]
	str	r2, [sp, #28]
	ldr	r0, [sp, #60]
	mvns	r0, r0
	str	r0, [sp, #32]
	lsls	r6, r4, #2
	mov	r2, r7
	adds	r2, #192
	ldr	r0, [r2, r6]
	str	r0, [sp, #24]
	lsls	r3, r0, #3
	ldr	r0, [r7, #48]
	str	r3, [sp, #56]
	adds	r5, r0, r3
	ldr	r5, [r5, #16]
	adds	r3, r5, #1
	beq	.LBB66_63
	lsls	r1, r5, #3
	adds	r0, r0, r1
	ldr	r1, [sp, #32]
	str	r1, [r0, #20]
	str	r5, [r2, r6]
	ldr	r0, [r7, #48]
	b	.LBB66_65
	.p2align	2
.LCPI66_5:
	.long	134217696
	.p2align	2
.LCPI66_6:
	.long	536870904
	.p2align	2
.LCPI66_7:
	.long	125613361
	.p2align	2
.LCPI66_8:
	.ascii	"\000\001\034\002\035\016\030\003\036\026\024\017\031\021\004\b\037\033\r\027\025\023\020\007\032\f\022\006\013\005\n\t"
	.p2align	2
.LCPI66_9:
	.long	8388576
	.p2align	1
.LBB66_63:
	mvns	r3, r1
	adds	r3, r3, #1
	str	r3, [r2, r6]
	ldr	r3, [sp, #44]
	ands	r4, r3
	mov	r3, r1
	lsls	r3, r4
	ldr	r4, [sp, #64]
	lsls	r4, r4, #2
	ldr	r6, [sp, #52]
	ldr	r5, [r6, r4]
	bics	r5, r3
	str	r5, [r6, r4]
	bne	.LBB66_65
	ldr	r3, [sp, #64]
	lsls	r1, r3
	ldr	r3, [r7, #104]
	bics	r3, r1
	str	r3, [r7, #104]
.LBB66_65:
	ldr	r1, [sp, #56]
	adds	r6, r0, r1
	ldr	r3, [r6, #4]
	str	r3, [sp, #64]
	ldr	r1, [r0, r1]
	ldr	r5, [sp, #68]
	lsls	r3, r5, #2
	subs	r4, r1, r3
	cmp	r4, #15
	bhi	.LBB66_67
	ldr	r3, [sp, #60]
	str	r3, [r6, #20]
	ldr	r0, [sp, #72]
	str	r0, [r6, #16]
	ldr	r0, [sp, #48]
	str	r0, [r6, #8]
	ldr	r0, [sp, #28]
	str	r0, [r6, #12]
	subs	r0, r1, #1
	str	r0, [r6]
	ldr	r1, [sp, #64]
	sbcs	r1, r3
	str	r1, [r6, #4]
	lsrs	r1, r0, #2
	b	.LBB66_73
.LBB66_67:
	str	r2, [sp, #20]
	lsrs	r2, r4, #2
	str	r2, [sp, #16]
	ldr	r3, [sp, #72]
	str	r3, [r6, #16]
	ldr	r2, [sp, #48]
	str	r2, [r6, #8]
	ldr	r3, [sp, #24]
	adds	r5, r3, r5
	lsls	r3, r5, #3
	adds	r2, r0, r3
	str	r2, [sp, #12]
	subs	r1, r1, r4
	str	r1, [r6]
	str	r3, [sp, #72]
	str	r4, [r0, r3]
	ldr	r0, [sp, #48]
	str	r0, [r2, #8]
	ldr	r1, [sp, #60]
	ldr	r0, [sp, #64]
	sbcs	r0, r1
	str	r0, [sp, #64]
	mov	r3, r5
	str	r5, [sp, #8]
	lsrs	r5, r5, #3
	ldr	r0, .LCPI66_1
	ands	r5, r0
	ldr	r0, [r7, #72]
	str	r0, [sp, #4]
	ldr	r2, [r0, r5]
	str	r2, [sp, #48]
	movs	r2, #63
	ands	r2, r3
	movs	r0, #1
	str	r0, [sp]
	bl	__aeabi_llsl
	ldr	r2, [sp, #48]
	orrs	r0, r2
	ldr	r3, [sp, #4]
	str	r0, [r3, r5]
	ldr	r0, [sp, #60]
	str	r0, [r6, #20]
	ldr	r0, [sp, #28]
	str	r0, [r6, #12]
	ldr	r2, [sp, #64]
	str	r2, [r6, #4]
	ldr	r6, [sp, #8]
	ldr	r2, [sp, #12]
	str	r0, [r2, #12]
	ldr	r0, [sp, #24]
	str	r0, [r2, #4]
	adds	r0, r3, r5
	ldr	r5, [sp, #16]
	ldr	r2, [r0, #4]
	orrs	r2, r1
	str	r2, [r0, #4]
	lsls	r0, r4, #30
	ldr	r4, [sp, #32]
	bmi	.LBB66_69
	adds	r0, r5, r6
	lsls	r0, r0, #3
	ldr	r1, [r7, #48]
	ldr	r2, [r1, r0]
	ands	r2, r4
	str	r2, [r1, r0]
	adds	r0, r1, r0
	str	r6, [r0, #4]
.LBB66_69:
	ldr	r0, [sp, #40]
	orrs	r0, r5
	bl	__clzsi2
	ldr	r1, [sp, #36]
	subs	r0, r1, r0
	lsrs	r5, r0
	lsls	r0, r0, #4
	adds	r0, r5, r0
	lsls	r2, r0, #2
	ldr	r3, [sp, #20]
	ldr	r1, [r3, r2]
	str	r6, [r3, r2]
	cmp	r1, #0
	bmi	.LBB66_71
	ldr	r0, [r7, #48]
	ldr	r2, [sp, #72]
	adds	r2, r0, r2
	str	r1, [r2, #16]
	str	r4, [r2, #20]
	lsls	r1, r1, #3
	adds	r0, r0, r1
	str	r6, [r0, #20]
	ldr	r1, [r0, #16]
	ands	r1, r4
	str	r1, [r0, #16]
	b	.LBB66_72
.LBB66_71:
	ldr	r1, [r7, #48]
	ldr	r2, [sp, #72]
	adds	r1, r1, r2
	str	r4, [r1, #16]
	str	r4, [r1, #20]
	ldr	r1, [sp, #44]
	ands	r5, r1
	ldr	r6, [sp]
	mov	r1, r6
	lsls	r1, r5
	lsrs	r0, r0, #4
	lsls	r2, r0, #2
	ldr	r4, [sp, #52]
	ldr	r3, [r4, r2]
	orrs	r3, r1
	str	r3, [r4, r2]
	lsls	r6, r0
	ldr	r0, [r7, #104]
	orrs	r0, r6
	str	r0, [r7, #104]
.LBB66_72:
	ldr	r1, [sp, #68]
.LBB66_73:
	ldr	r0, [r7, #40]
	adds	r0, r0, r1
	str	r0, [r7, #40]
	ldr	r1, [r7, #44]
	cmp	r1, r0
	ldr	r1, [sp, #56]
	bhs	.LBB66_75
	str	r0, [r7, #44]
.LBB66_75:
	ldr	r0, [r7, #32]
	adds	r0, r0, #1
	str	r0, [r7, #32]
	ldr	r0, [r7, #36]
	ldr	r2, [sp, #60]
	adcs	r0, r2
	str	r0, [r7, #36]
.LBB66_76:
	movs	r0, #1
	strb	r0, [r7]
	adds	r1, #24
	mov	r0, r1
	add	sp, #76
	pop	{r4, r5, r6, r7, pc}
	.p2align	2
.LCPI66_1:
	.long	536870904
.LCPI66_2:
	.long	125613361
.LCPI66_3:
	.ascii	"\000\001\034\002\035\016\030\003\036\026\024\017\031\021\004\b\037\033\r\027\025\023\020\007\032\f\022\006\013\005\n\t"
.Lfunc_end66:
	.size	tlsf_allocate_payload, .Lfunc_end66-tlsf_allocate_payload
	.cfi_endproc
	.section	.text.tlsf_allocate_place,"ax",%progbits
	.globl	tlsf_allocate_place
	.p2align	2
	.type	tlsf_allocate_place,%function
	.code	16
	.thumb_func
tlsf_allocate_place:
	.cfi_startproc
	push	{r4, r5, r6, r7, lr}
	.cfi_def_cfa_offset 20
	.cfi_offset lr, -4
	.cfi_offset r7, -8
	.cfi_offset r6, -12
	.cfi_offset r5, -16
	.cfi_offset r4, -20
	sub	sp, #84
	.cfi_def_cfa_offset 104
	ldrb	r4, [r1, #8]
	movs	r3, #32
	cmp	r4, #0
	beq	.LBB67_12
	ldr	r7, [r1]
	ldrb	r1, [r7]
	cmp	r1, #1
	bne	.LBB67_12
	movs	r1, #0
	strb	r1, [r7]
	adds	r3, r2, #1
	mov	r4, r1
	adcs	r4, r1
	cmp	r2, #0
	beq	.LBB67_4
	mov	r3, r2
.LBB67_4:
	beq	.LBB67_6
	mov	r4, r1
.LBB67_6:
	adds	r3, #31
	adcs	r4, r1
	lsrs	r1, r3, #3
	lsls	r3, r4, #29
	adds	r4, r1, r3
	ldrb	r1, [r7, #16]
	cmp	r1, #0
	beq	.LBB67_13
	movs	r5, #1
	lsls	r1, r5, #24
	cmp	r4, r1
	bhi	.LBB67_14
	str	r2, [sp, #76]
	str	r0, [sp, #80]
	movs	r1, #32
	mov	r0, r4
	str	r1, [sp, #64]
	orrs	r0, r1
	bl	__clzsi2
	movs	r1, #26
	str	r1, [sp, #48]
	subs	r1, r1, r0
	str	r4, [sp, #72]
	subs	r0, r4, #1
	lsrs	r0, r1
	lsls	r1, r1, #5
	adds	r1, r0, r1
	adds	r1, r1, #1
	movs	r3, #0
	subs	r2, r1, #1
	str	r3, [sp, #68]
	mov	r1, r3
	sbcs	r1, r3
	lsrs	r3, r2, #5
	lsls	r4, r1, #27
	adds	r3, r3, r4
	lsls	r4, r3, #2
	mov	r6, r7
	adds	r7, #108
	str	r7, [sp, #60]
	ldr	r4, [r7, r4]
	movs	r7, #31
	str	r7, [sp, #56]
	ands	r0, r7
	lsrs	r4, r0
	bics	r4, r5
	str	r5, [sp, #52]
	beq	.LBB67_22
	cmp	r4, #0
	ldr	r0, [sp, #80]
	ldr	r3, [sp, #64]
	beq	.LBB67_11
	rsbs	r3, r4, #0
	ands	r3, r4
	ldr	r4, .LCPI67_2
	muls	r4, r3, r4
	lsrs	r3, r4, #27
	adr	r4, .LCPI67_3
	ldrb	r3, [r4, r3]
.LBB67_11:
	adds	r5, r2, r3
	ldr	r2, [sp, #68]
	adcs	r1, r2
	lsrs	r2, r5, #5
	lsls	r1, r1, #27
	adds	r4, r2, r1
	ldr	r2, [sp, #76]
	mov	r7, r6
	b	.LBB67_38
.LBB67_12:
	movs	r6, #0
	mov	r4, r6
	mov	r5, r6
	b	.LBB67_79
.LBB67_13:
	movs	r3, #1
	lsls	r1, r3, #20
	cmp	r4, r1
	bls	.LBB67_19
.LBB67_14:
	ldr	r1, [r7, #12]
	cmp	r2, r1
	bhi	.LBB67_16
	mov	r2, r1
.LBB67_16:
	str	r2, [r7, #12]
	movs	r6, #0
	ldr	r1, [r7, #8]
	adds	r1, r1, #1
	blo	.LBB67_18
	mvns	r1, r6
.LBB67_18:
	str	r1, [r7, #8]
	movs	r3, #1
	mov	r4, r6
	mov	r5, r6
	b	.LBB67_78
.LBB67_19:
	mov	r5, r4
	str	r2, [sp, #76]
	str	r0, [sp, #80]
	movs	r1, #16
	mov	r0, r4
	str	r1, [sp, #48]
	orrs	r0, r1
	mov	r4, r3
	bl	__clzsi2
	movs	r1, #27
	str	r1, [sp, #44]
	subs	r1, r1, r0
	str	r5, [sp, #72]
	subs	r0, r5, #1
	lsrs	r0, r1
	lsls	r1, r1, #4
	adds	r1, r0, r1
	adds	r1, r1, #1
	movs	r2, #0
	subs	r3, r1, #1
	str	r2, [sp, #68]
	mov	r1, r2
	sbcs	r1, r2
	lsrs	r2, r3, #4
	lsls	r5, r1, #28
	adds	r2, r2, r5
	lsls	r5, r2, #2
	mov	r6, r7
	adds	r6, #108
	str	r6, [sp, #64]
	ldr	r5, [r6, r5]
	movs	r6, #15
	str	r6, [sp, #52]
	ands	r0, r6
	lsrs	r5, r0
	bics	r5, r4
	beq	.LBB67_28
	str	r4, [sp, #60]
	cmp	r5, #0
	beq	.LBB67_34
	rsbs	r0, r5, #0
	ands	r0, r5
	ldr	r2, .LCPI67_2
	muls	r2, r0, r2
	lsrs	r0, r2, #27
	adr	r2, .LCPI67_3
	ldrb	r5, [r2, r0]
	b	.LBB67_35
.LBB67_22:
	mvns	r0, r5
	lsls	r0, r3
	ldr	r3, [r6, #104]
	ands	r3, r0
	ldr	r0, [sp, #80]
	ldr	r2, [sp, #76]
	mov	r7, r6
	beq	.LBB67_14
	mov	r6, r7
	ldr	r4, .LCPI67_2
	adr	r7, .LCPI67_3
	movs	r5, #32
	cmp	r3, #0
	mov	r1, r5
	beq	.LBB67_25
	rsbs	r1, r3, #0
	ands	r1, r3
	muls	r1, r4, r1
	lsrs	r1, r1, #27
	ldrb	r1, [r7, r1]
.LBB67_25:
	lsls	r3, r1, #2
	ldr	r7, [sp, #60]
	ldr	r3, [r7, r3]
	cmp	r3, #0
	mov	r7, r6
	beq	.LBB67_37
	cmp	r3, #0
	beq	.LBB67_36
	rsbs	r5, r3, #0
	ands	r5, r3
	muls	r4, r5, r4
	lsrs	r3, r4, #27
	adr	r4, .LCPI67_3
	ldrb	r5, [r4, r3]
	b	.LBB67_37
.LBB67_28:
	mvns	r0, r4
	lsls	r0, r2
	ldr	r6, [r7, #104]
	ands	r6, r0
	ldr	r0, [sp, #80]
	ldr	r2, [sp, #76]
	beq	.LBB67_14
	str	r4, [sp, #60]
	ldr	r4, .LCPI67_2
	adr	r3, .LCPI67_3
	movs	r5, #32
	cmp	r6, #0
	mov	r1, r5
	beq	.LBB67_31
	rsbs	r1, r6, #0
	ands	r1, r6
	muls	r1, r4, r1
	lsrs	r1, r1, #27
	ldrb	r1, [r3, r1]
.LBB67_31:
	lsls	r6, r1, #2
	ldr	r3, [sp, #64]
	ldr	r6, [r3, r6]
	cmp	r6, #0
	bne	.LBB67_32
	b	.LBB67_57
.LBB67_32:
	cmp	r6, #0
	bne	.LBB67_33
	b	.LBB67_56
.LBB67_33:
	rsbs	r5, r6, #0
	ands	r5, r6
	muls	r4, r5, r4
	lsrs	r4, r4, #27
	adr	r3, .LCPI67_3
	ldrb	r5, [r3, r4]
	b	.LBB67_57
.LBB67_34:
	movs	r5, #32
.LBB67_35:
	ldr	r0, [sp, #80]
	ldr	r2, [sp, #76]
	adds	r4, r3, r5
	ldr	r3, [sp, #68]
	adcs	r1, r3
	lsrs	r3, r4, #4
	lsls	r1, r1, #28
	adds	r3, r3, r1
	b	.LBB67_58
.LBB67_36:
	movs	r5, #32
.LBB67_37:
	lsls	r1, r1, #5
	adds	r5, r5, r1
	lsrs	r4, r5, #5
.LBB67_38:
	ldr	r1, [r7, #32]
	ldr	r3, [r7, #36]
	str	r1, [sp, #76]
	ands	r1, r3
	adds	r1, r1, #1
	bne	.LBB67_39
	b	.LBB67_61
.LBB67_39:
	str	r4, [sp, #28]
	str	r3, [sp, #40]
	lsls	r1, r5, #2
	str	r5, [sp, #24]
	mov	r5, r7
	adds	r7, #192
	str	r1, [sp, #64]
	ldr	r6, [r7, r1]
	lsls	r1, r6, #3
	ldr	r4, [r5, #48]
	str	r1, [sp, #36]
	adds	r3, r4, r1
	ldr	r3, [r3, #16]
	adds	r1, r3, #1
	str	r7, [sp, #32]
	beq	.LBB67_41
	lsls	r1, r3, #3
	adds	r1, r4, r1
	movs	r4, #0
	mvns	r4, r4
	str	r4, [r1, #20]
	ldr	r1, [sp, #64]
	str	r3, [r7, r1]
	ldr	r1, [r5, #48]
	mov	r7, r5
	b	.LBB67_45
.LBB67_41:
	str	r4, [sp, #44]
	str	r5, [sp, #20]
	ldr	r4, [sp, #52]
	mvns	r1, r4
	adds	r1, r1, #1
	ldr	r3, [sp, #64]
	str	r1, [r7, r3]
	ldr	r1, [sp, #56]
	ldr	r3, [sp, #24]
	ands	r3, r1
	mov	r1, r4
	lsls	r1, r3
	ldr	r5, [sp, #28]
	lsls	r3, r5, #2
	ldr	r7, [sp, #60]
	ldr	r4, [r7, r3]
	bics	r4, r1
	str	r4, [r7, r3]
	beq	.LBB67_43
	ldr	r7, [sp, #20]
	b	.LBB67_44
.LBB67_43:
	ldr	r3, [sp, #52]
	lsls	r3, r5
	ldr	r7, [sp, #20]
	ldr	r1, [r7, #104]
	bics	r1, r3
	str	r1, [r7, #104]
.LBB67_44:
	ldr	r1, [sp, #44]
.LBB67_45:
	str	r1, [sp, #44]
	ldr	r5, [sp, #36]
	adds	r4, r1, r5
	ldr	r3, [r4, #4]
	str	r3, [sp, #64]
	ldr	r5, [r1, r5]
	ldr	r3, [sp, #72]
	lsls	r1, r3, #2
	str	r5, [sp, #52]
	subs	r1, r5, r1
	cmp	r1, #15
	bhi	.LBB67_47
	movs	r1, #0
	str	r1, [r4, #20]
	str	r2, [r4, #16]
	ldr	r2, [sp, #76]
	str	r2, [r4, #8]
	ldr	r5, [sp, #40]
	str	r5, [r4, #12]
	ldr	r2, [sp, #52]
	subs	r2, r2, #1
	str	r2, [r4]
	ldr	r3, [sp, #64]
	sbcs	r3, r1
	str	r3, [r4, #4]
	lsrs	r2, r2, #2
	b	.LBB67_53
.LBB67_47:
	lsrs	r0, r1, #2
	str	r0, [sp, #36]
	str	r2, [r4, #16]
	mov	r5, r1
	str	r1, [sp, #20]
	ldr	r0, [sp, #76]
	str	r0, [r4, #8]
	adds	r3, r6, r3
	lsls	r2, r3, #3
	ldr	r1, [sp, #44]
	adds	r0, r1, r2
	str	r0, [sp, #28]
	movs	r0, #0
	str	r0, [sp, #4]
	ldr	r0, [sp, #52]
	subs	r0, r0, r5
	str	r0, [r4]
	str	r2, [sp, #24]
	str	r5, [r1, r2]
	ldr	r0, [sp, #28]
	ldr	r1, [sp, #76]
	str	r1, [r0, #8]
	ldr	r5, [sp, #4]
	ldr	r0, [sp, #64]
	sbcs	r0, r5
	str	r0, [sp, #64]
	lsrs	r0, r3, #6
	lsls	r0, r0, #3
	str	r0, [sp, #16]
	ldr	r1, [r7, #72]
	str	r1, [sp, #44]
	ldr	r0, [r1, r0]
	str	r0, [sp, #12]
	movs	r2, #63
	str	r3, [sp, #52]
	ands	r2, r3
	movs	r0, #1
	str	r0, [sp]
	mov	r1, r5
	bl	__aeabi_llsl
	str	r1, [sp, #8]
	ldr	r1, [sp, #12]
	orrs	r0, r1
	ldr	r2, [sp, #44]
	ldr	r1, [sp, #16]
	str	r0, [r2, r1]
	str	r5, [r4, #20]
	mov	r3, r5
	ldr	r5, [sp, #40]
	str	r5, [r4, #12]
	ldr	r0, [sp, #64]
	str	r0, [r4, #4]
	ldr	r0, [sp, #28]
	str	r5, [r0, #12]
	str	r6, [r0, #4]
	adds	r0, r2, r1
	ldr	r2, [r0, #4]
	ldr	r1, [sp, #8]
	orrs	r2, r1
	str	r2, [r0, #4]
	mvns	r4, r3
	ldr	r0, [sp, #20]
	lsls	r0, r0, #30
	bmi	.LBB67_49
	ldr	r0, [sp, #36]
	ldr	r3, [sp, #52]
	adds	r0, r0, r3
	lsls	r0, r0, #3
	ldr	r1, [r7, #48]
	ldr	r2, [r1, r0]
	ands	r2, r4
	str	r2, [r1, r0]
	adds	r0, r1, r0
	str	r3, [r0, #4]
.LBB67_49:
	str	r4, [sp, #64]
	movs	r0, #32
	ldr	r4, [sp, #36]
	orrs	r0, r4
	bl	__clzsi2
	ldr	r1, [sp, #48]
	subs	r0, r1, r0
	lsrs	r4, r0
	lsls	r0, r0, #5
	str	r4, [sp, #36]
	adds	r0, r4, r0
	lsls	r2, r0, #2
	ldr	r3, [sp, #32]
	ldr	r1, [r3, r2]
	ldr	r4, [sp, #52]
	str	r4, [r3, r2]
	cmp	r1, #0
	bmi	.LBB67_51
	mov	r3, r4
	ldr	r0, [r7, #48]
	ldr	r2, [sp, #24]
	adds	r2, r0, r2
	str	r1, [r2, #16]
	ldr	r4, [sp, #64]
	str	r4, [r2, #20]
	lsls	r1, r1, #3
	adds	r0, r0, r1
	str	r3, [r0, #20]
	ldr	r1, [r0, #16]
	ands	r1, r4
	str	r1, [r0, #16]
	b	.LBB67_52
.LBB67_51:
	ldr	r1, [sp, #68]
	mvns	r1, r1
	ldr	r2, [r7, #48]
	ldr	r3, [sp, #24]
	adds	r2, r2, r3
	str	r1, [r2, #16]
	str	r1, [r2, #20]
	ldr	r1, [sp, #56]
	ldr	r2, [sp, #36]
	ands	r2, r1
	ldr	r1, [sp]
	mov	r4, r1
	lsls	r4, r2
	lsrs	r0, r0, #5
	str	r0, [sp, #68]
	lsls	r2, r0, #2
	ldr	r0, [sp, #60]
	ldr	r3, [r0, r2]
	orrs	r3, r4
	str	r3, [r0, r2]
	ldr	r0, [sp, #68]
	lsls	r1, r0
	ldr	r0, [r7, #104]
	orrs	r0, r1
	str	r0, [r7, #104]
.LBB67_52:
	ldr	r0, [sp, #80]
	ldr	r2, [sp, #72]
.LBB67_53:
	ldr	r1, [r7, #40]
	adds	r1, r1, r2
	str	r1, [r7, #40]
	ldr	r2, [r7, #44]
	cmp	r2, r1
	bhs	.LBB67_55
	str	r1, [r7, #44]
.LBB67_55:
	ldr	r1, [r7, #32]
	movs	r3, #0
	adds	r1, r1, #1
	str	r1, [r7, #32]
	ldr	r1, [r7, #36]
	adcs	r1, r3
	str	r1, [r7, #36]
	ldr	r4, [sp, #76]
	b	.LBB67_78
.LBB67_56:
	movs	r5, #32
.LBB67_57:
	lsls	r1, r1, #4
	adds	r4, r5, r1
	lsrs	r3, r4, #4
.LBB67_58:
	ldr	r1, [r7, #32]
	ldr	r5, [r7, #36]
	str	r1, [sp, #76]
	ands	r1, r5
	adds	r1, r1, #1
	beq	.LBB67_61
	str	r3, [sp, #28]
	lsls	r1, r4, #2
	mov	r3, r7
	adds	r3, #192
	str	r1, [sp, #32]
	str	r3, [sp, #56]
	ldr	r6, [r3, r1]
	lsls	r1, r6, #3
	str	r4, [sp, #24]
	ldr	r4, [r7, #48]
	str	r1, [sp, #36]
	adds	r3, r4, r1
	ldr	r3, [r3, #16]
	adds	r1, r3, #1
	beq	.LBB67_62
	lsls	r1, r3, #3
	adds	r1, r4, r1
	movs	r4, #0
	mvns	r4, r4
	str	r4, [r1, #20]
	ldr	r1, [sp, #32]
	ldr	r4, [sp, #56]
	str	r3, [r4, r1]
	ldr	r1, [r7, #48]
	b	.LBB67_65
.LBB67_61:
	movs	r3, #2
	ldr	r5, [sp, #68]
	mov	r6, r5
	mov	r4, r5
	b	.LBB67_78
.LBB67_62:
	str	r4, [sp, #40]
	ldr	r1, [sp, #60]
	mvns	r1, r1
	adds	r1, r1, #1
	ldr	r3, [sp, #32]
	ldr	r4, [sp, #56]
	str	r1, [r4, r3]
	ldr	r1, [sp, #52]
	ldr	r3, [sp, #24]
	ands	r3, r1
	ldr	r1, [sp, #60]
	lsls	r1, r3
	ldr	r3, [sp, #28]
	lsls	r3, r3, #2
	ldr	r4, [sp, #64]
	ldr	r4, [r4, r3]
	bics	r4, r1
	ldr	r1, [sp, #64]
	str	r4, [r1, r3]
	bne	.LBB67_64
	ldr	r3, [sp, #60]
	ldr	r1, [sp, #28]
	lsls	r3, r1
	ldr	r1, [r7, #104]
	bics	r1, r3
	str	r1, [r7, #104]
.LBB67_64:
	ldr	r1, [sp, #40]
.LBB67_65:
	str	r1, [sp, #40]
	ldr	r4, [sp, #36]
	adds	r3, r1, r4
	str	r3, [sp, #60]
	ldr	r3, [r3, #4]
	str	r3, [sp, #32]
	ldr	r3, [r1, r4]
	ldr	r4, [sp, #72]
	lsls	r1, r4, #2
	subs	r1, r3, r1
	cmp	r1, #15
	bhi	.LBB67_69
	movs	r4, #0
	str	r4, [sp, #80]
	ldr	r1, [sp, #60]
	str	r4, [r1, #20]
	str	r2, [r1, #16]
	ldr	r4, [sp, #76]
	str	r4, [r1, #8]
	str	r5, [r1, #12]
	subs	r2, r3, #1
	str	r2, [sp, #72]
	str	r2, [r1]
	ldr	r3, [sp, #32]
	ldr	r2, [sp, #80]
	sbcs	r3, r2
	str	r3, [r1, #4]
	ldr	r1, [sp, #72]
	lsrs	r2, r1, #2
	b	.LBB67_75
	.p2align	2
.LCPI67_2:
	.long	125613361
	.p2align	2
.LCPI67_3:
	.ascii	"\000\001\034\002\035\016\030\003\036\026\024\017\031\021\004\b\037\033\r\027\025\023\020\007\032\f\022\006\013\005\n\t"
	.p2align	1
.LBB67_69:
	lsrs	r0, r1, #2
	str	r0, [sp, #16]
	ldr	r0, [sp, #60]
	str	r2, [r0, #16]
	ldr	r2, [sp, #76]
	str	r2, [r0, #8]
	str	r1, [sp, #12]
	adds	r0, r6, r4
	str	r0, [sp, #36]
	ldr	r2, [sp, #40]
	lsls	r4, r0, #3
	adds	r0, r2, r4
	str	r0, [sp, #28]
	movs	r0, #0
	str	r0, [sp, #24]
	subs	r0, r3, r1
	ldr	r3, [sp, #60]
	str	r0, [r3]
	str	r4, [sp, #20]
	str	r1, [r2, r4]
	ldr	r0, [sp, #28]
	ldr	r1, [sp, #76]
	str	r1, [r0, #8]
	ldr	r4, [sp, #32]
	ldr	r1, [sp, #24]
	sbcs	r4, r1
	ldr	r3, [sp, #36]
	lsrs	r0, r3, #6
	lsls	r0, r0, #3
	str	r0, [sp, #32]
	ldr	r2, [r7, #72]
	str	r2, [sp, #40]
	ldr	r0, [r2, r0]
	str	r0, [sp, #8]
	movs	r2, #63
	ands	r2, r3
	movs	r0, #1
	str	r0, [sp]
	bl	__aeabi_llsl
	str	r1, [sp, #4]
	ldr	r1, [sp, #8]
	orrs	r0, r1
	ldr	r2, [sp, #40]
	ldr	r3, [sp, #32]
	str	r0, [r2, r3]
	ldr	r0, [sp, #60]
	ldr	r1, [sp, #24]
	str	r1, [r0, #20]
	str	r5, [r0, #12]
	str	r4, [r0, #4]
	ldr	r0, [sp, #28]
	str	r5, [r0, #12]
	str	r6, [r0, #4]
	adds	r0, r2, r3
	ldr	r2, [r0, #4]
	ldr	r3, [sp, #4]
	orrs	r2, r3
	str	r2, [r0, #4]
	mvns	r0, r1
	str	r0, [sp, #60]
	ldr	r0, [sp, #12]
	lsls	r0, r0, #30
	ldr	r4, [sp, #16]
	bmi	.LBB67_71
	ldr	r0, [sp, #36]
	adds	r0, r4, r0
	lsls	r0, r0, #3
	ldr	r1, [r7, #48]
	ldr	r2, [r1, r0]
	ldr	r3, [sp, #60]
	ands	r2, r3
	str	r2, [r1, r0]
	adds	r0, r1, r0
	ldr	r1, [sp, #36]
	str	r1, [r0, #4]
.LBB67_71:
	ldr	r0, [sp, #48]
	orrs	r0, r4
	bl	__clzsi2
	ldr	r1, [sp, #44]
	subs	r0, r1, r0
	lsrs	r4, r0
	lsls	r0, r0, #4
	adds	r0, r4, r0
	str	r0, [sp, #48]
	lsls	r2, r0, #2
	ldr	r0, [sp, #56]
	ldr	r1, [r0, r2]
	ldr	r3, [sp, #36]
	str	r3, [r0, r2]
	cmp	r1, #0
	bmi	.LBB67_73
	ldr	r0, [r7, #48]
	ldr	r2, [sp, #20]
	adds	r2, r0, r2
	str	r1, [r2, #16]
	ldr	r4, [sp, #60]
	str	r4, [r2, #20]
	lsls	r1, r1, #3
	adds	r0, r0, r1
	str	r3, [r0, #20]
	ldr	r1, [r0, #16]
	ands	r1, r4
	str	r1, [r0, #16]
	b	.LBB67_74
.LBB67_73:
	ldr	r1, [sp, #68]
	mvns	r1, r1
	ldr	r2, [r7, #48]
	ldr	r0, [sp, #20]
	adds	r2, r2, r0
	str	r1, [r2, #16]
	str	r1, [r2, #20]
	ldr	r1, [sp, #52]
	ands	r4, r1
	ldr	r1, [sp]
	mov	r0, r1
	lsls	r0, r4
	ldr	r2, [sp, #48]
	lsrs	r2, r2, #4
	str	r2, [sp, #68]
	lsls	r2, r2, #2
	ldr	r4, [sp, #64]
	ldr	r3, [r4, r2]
	orrs	r3, r0
	str	r3, [r4, r2]
	ldr	r0, [sp, #68]
	lsls	r1, r0
	ldr	r0, [r7, #104]
	orrs	r0, r1
	str	r0, [r7, #104]
.LBB67_74:
	ldr	r0, [sp, #80]
	ldr	r2, [sp, #72]
	ldr	r4, [sp, #76]
.LBB67_75:
	ldr	r1, [r7, #40]
	adds	r1, r1, r2
	str	r1, [r7, #40]
	ldr	r2, [r7, #44]
	cmp	r2, r1
	bhs	.LBB67_77
	str	r1, [r7, #44]
.LBB67_77:
	ldr	r1, [r7, #32]
	movs	r3, #0
	adds	r1, r1, #1
	str	r1, [r7, #32]
	ldr	r1, [r7, #36]
	adcs	r1, r3
	str	r1, [r7, #36]
.LBB67_78:
	movs	r1, #1
	strb	r1, [r7]
.LBB67_79:
	str	r6, [r0]
	adds	r0, r0, #4
	stm	r0!, {r3, r4, r5}
	add	sp, #84
	pop	{r4, r5, r6, r7, pc}
.Lfunc_end67:
	.size	tlsf_allocate_place, .Lfunc_end67-tlsf_allocate_place
	.cfi_endproc
	.section	.text.tlsf_block_at,"ax",%progbits
	.globl	tlsf_block_at
	.p2align	1
	.type	tlsf_block_at,%function
	.code	16
	.thumb_func
tlsf_block_at:
	.cfi_startproc
	push	{r4, r5, r6, r7, lr}
	.cfi_def_cfa_offset 20
	.cfi_offset lr, -4
	.cfi_offset r7, -8
	.cfi_offset r6, -12
	.cfi_offset r5, -16
	.cfi_offset r4, -20
	sub	sp, #44
	.cfi_def_cfa_offset 64
	mov	r4, r2
	mov	r2, r1
	ldrb	r1, [r0, #8]
	cmp	r1, #0
	beq	.LBB68_8
	ldr	r7, [r0]
	ldrb	r0, [r7]
	cmp	r0, #0
	beq	.LBB68_8
	movs	r5, #0
	strb	r5, [r7]
	mov	r1, r7
	adds	r1, #8
	mov	r6, sp
	mov	r0, r6
	bl	tlsf_c.any_heap.AnyHeap.block_at
	movs	r0, #1
	strb	r0, [r7]
	ldrb	r0, [r6]
	cmp	r0, #1
	bne	.LBB68_5
	ldr	r3, [sp, #28]
	strb	r3, [r4, #20]
	ldr	r2, [sp, #24]
	strb	r2, [r4, #16]
	strb	r5, [r4, #11]
	strb	r5, [r4, #10]
	strb	r5, [r4, #9]
	ldr	r1, [sp, #12]
	strb	r1, [r4, #4]
	ldr	r0, [sp, #8]
	strb	r0, [r4]
	lsrs	r6, r3, #24
	strb	r6, [r4, #23]
	lsrs	r6, r3, #16
	strb	r6, [r4, #22]
	lsrs	r3, r3, #8
	strb	r3, [r4, #21]
	lsrs	r3, r2, #24
	strb	r3, [r4, #19]
	lsrs	r3, r2, #16
	strb	r3, [r4, #18]
	lsrs	r2, r2, #8
	strb	r2, [r4, #17]
	lsrs	r2, r1, #24
	strb	r2, [r4, #7]
	lsrs	r2, r1, #16
	strb	r2, [r4, #6]
	lsrs	r1, r1, #8
	strb	r1, [r4, #5]
	lsrs	r1, r0, #24
	strb	r1, [r4, #3]
	lsrs	r1, r0, #16
	strb	r1, [r4, #2]
	lsrs	r0, r0, #8
	strb	r0, [r4, #1]
	mov	r0, sp
	ldrb	r0, [r0, #16]
	cmp	r0, #1
	beq	.LBB68_6
	mov	r1, r5
	b	.LBB68_7
.LBB68_5:
	movs	r5, #4
	b	.LBB68_9
.LBB68_6:
	ldr	r1, [sp, #32]
.LBB68_7:
	strb	r1, [r4, #12]
	lsrs	r2, r1, #24
	strb	r2, [r4, #15]
	lsrs	r2, r1, #16
	strb	r2, [r4, #14]
	lsrs	r1, r1, #8
	strb	r1, [r4, #13]
	subs	r0, r0, #1
	rsbs	r1, r0, #0
	adcs	r1, r0
	strb	r1, [r4, #8]
	b	.LBB68_9
.LBB68_8:
	movs	r0, #0
	bl	tlsf_c.call_fault.CallFault.refusal
	mov	r5, r0
.LBB68_9:
	mov	r0, r5
	add	sp, #44
	pop	{r4, r5, r6, r7, pc}
.Lfunc_end68:
	.size	tlsf_block_at, .Lfunc_end68-tlsf_block_at
	.cfi_endproc
	.section	.text.tlsf_check,"ax",%progbits
	.globl	tlsf_check
	.p2align	1
	.type	tlsf_check,%function
	.code	16
	.thumb_func
tlsf_check:
	.cfi_startproc
	push	{r4, r5, r6, r7, lr}
	.cfi_def_cfa_offset 20
	.cfi_offset lr, -4
	.cfi_offset r7, -8
	.cfi_offset r6, -12
	.cfi_offset r5, -16
	.cfi_offset r4, -20
	sub	sp, #20
	.cfi_def_cfa_offset 40
	mov	r5, r2
	mov	r4, r1
	mov	r1, r0
	ldrb	r2, [r0, #8]
	movs	r0, #32
	cmp	r2, #0
	beq	.LBB69_23
	ldr	r7, [r1]
	ldrb	r1, [r7]
	cmp	r1, #1
	bne	.LBB69_23
	ldr	r0, [sp, #40]
	str	r0, [sp, #4]
	movs	r6, #0
	strb	r6, [r7]
	mov	r0, r7
	adds	r0, #48
	str	r0, [sp, #12]
	ldr	r0, [r7, #56]
	str	r0, [sp, #16]
	subs	r0, r0, #4
	ldrb	r1, [r7, #16]
	cmp	r1, #0
	beq	.LBB69_10
	cmp	r4, r0
	bhi	.LBB69_18
	movs	r2, #63
	ands	r2, r4
	ldr	r0, [r7, #72]
	str	r0, [sp, #8]
	lsrs	r0, r4, #6
	lsls	r0, r0, #3
	ldr	r1, [sp, #8]
	ldr	r1, [r1, r0]
	str	r1, [sp]
	ldr	r1, [sp, #8]
	adds	r0, r1, r0
	ldr	r1, [r0, #4]
	ldr	r0, [sp]
	str	r3, [sp, #8]
	bl	__aeabi_llsr
	ldr	r2, [sp, #8]
	lsls	r1, r0, #31
	beq	.LBB69_18
	cmp	r5, #0
	beq	.LBB69_19
	ldr	r6, [sp, #12]
.LBB69_7:
	mov	r0, r6
	mov	r1, r4
	bl	tlsf_heap.check.examine
	uxtb	r0, r0
	cmp	r0, #1
	bne	.LBB69_20
	movs	r0, #0
	ldr	r2, [sp, #16]
	cmp	r1, r2
	beq	.LBB69_21
	subs	r5, r5, #1
	mov	r4, r1
	bne	.LBB69_7
	b	.LBB69_17
.LBB69_10:
	cmp	r4, r0
	bhi	.LBB69_18
	movs	r2, #63
	ands	r2, r4
	ldr	r0, [r7, #72]
	str	r0, [sp, #8]
	lsrs	r0, r4, #6
	lsls	r0, r0, #3
	ldr	r1, [sp, #8]
	ldr	r1, [r1, r0]
	str	r1, [sp]
	ldr	r1, [sp, #8]
	adds	r0, r1, r0
	ldr	r1, [r0, #4]
	ldr	r0, [sp]
	str	r3, [sp, #8]
	bl	__aeabi_llsr
	ldr	r2, [sp, #8]
	lsls	r1, r0, #31
	beq	.LBB69_18
	cmp	r5, #0
	beq	.LBB69_19
	ldr	r6, [sp, #12]
.LBB69_14:
	mov	r0, r6
	mov	r1, r4
	bl	tlsf_heap.check.examine
	uxtb	r0, r0
	cmp	r0, #1
	bne	.LBB69_20
	movs	r0, #0
	ldr	r2, [sp, #16]
	cmp	r1, r2
	beq	.LBB69_21
	subs	r5, r5, #1
	mov	r4, r1
	bne	.LBB69_14
.LBB69_17:
	ldr	r2, [sp, #8]
	mov	r4, r1
	b	.LBB69_22
.LBB69_18:
	movs	r0, #1
	strb	r0, [r7]
	movs	r0, #4
	add	sp, #20
	pop	{r4, r5, r6, r7, pc}
.LBB69_19:
	mov	r0, r6
	b	.LBB69_22
.LBB69_20:
	movs	r0, #36
	ldr	r2, [sp, #4]
	b	.LBB69_22
.LBB69_21:
	ldr	r2, [sp, #8]
	mov	r4, r0
.LBB69_22:
	movs	r1, #1
	strb	r1, [r7]
	str	r4, [r2]
.LBB69_23:
	add	sp, #20
	pop	{r4, r5, r6, r7, pc}
.Lfunc_end69:
	.size	tlsf_check, .Lfunc_end69-tlsf_check
	.cfi_endproc
	.section	.text.tlsf_check_around,"ax",%progbits
	.globl	tlsf_check_around
	.p2align	1
	.type	tlsf_check_around,%function
	.code	16
	.thumb_func
tlsf_check_around:
	.cfi_startproc
	push	{r4, r5, r6, r7, lr}
	.cfi_def_cfa_offset 20
	.cfi_offset lr, -4
	.cfi_offset r7, -8
	.cfi_offset r6, -12
	.cfi_offset r5, -16
	.cfi_offset r4, -20
	sub	sp, #12
	.cfi_def_cfa_offset 32
	mov	r3, r0
	ldrb	r4, [r0, #8]
	movs	r0, #32
	cmp	r4, #0
	beq	.LBB70_5
	ldr	r5, [r3]
	ldrb	r3, [r5]
	cmp	r3, #1
	bne	.LBB70_5
	mov	r3, r1
	mov	r7, r2
	movs	r0, #0
	mov	r6, r0
	strb	r0, [r5]
	mov	r1, r5
	adds	r1, #48
	ldrb	r0, [r5, #16]
	cmp	r0, #0
	mov	r4, sp
	mov	r0, r4
	mov	r2, r3
	bl	tlsf_heap.around.check_around
	ldrb	r0, [r4, #4]
	ldrb	r2, [r4]
	ldr	r1, [sp, #8]
	movs	r3, #1
	strb	r3, [r5]
	cmp	r2, #0
	beq	.LBB70_6
	cmp	r0, #0
	mov	r0, r6
	beq	.LBB70_5
	str	r1, [r7]
	movs	r0, #36
.LBB70_5:
	add	sp, #12
	pop	{r4, r5, r6, r7, pc}
.LBB70_6:
	movs	r0, #4
	add	sp, #12
	pop	{r4, r5, r6, r7, pc}
.Lfunc_end70:
	.size	tlsf_check_around, .Lfunc_end70-tlsf_check_around
	.cfi_endproc
	.section	.text.tlsf_check_request,"ax",%progbits
	.globl	tlsf_check_request
	.p2align	2
	.type	tlsf_check_request,%function
	.code	16
	.thumb_func
tlsf_check_request:
	.cfi_startproc
	push	{r4, r5, r6, r7, lr}
	.cfi_def_cfa_offset 20
	.cfi_offset lr, -4
	.cfi_offset r7, -8
	.cfi_offset r6, -12
	.cfi_offset r5, -16
	.cfi_offset r4, -20
	sub	sp, #36
	.cfi_def_cfa_offset 56
	mov	r3, r0
	ldrb	r4, [r0, #8]
	movs	r0, #32
	cmp	r4, #0
	bne	.LBB71_1
	b	.LBB71_49
.LBB71_1:
	ldr	r7, [r3]
	ldrb	r3, [r7]
	cmp	r3, #1
	beq	.LBB71_2
	b	.LBB71_49
.LBB71_2:
	movs	r0, #0
	strb	r0, [r7]
	adds	r3, r1, #1
	mov	r4, r0
	adcs	r4, r0
	cmp	r1, #0
	beq	.LBB71_4
	mov	r3, r1
.LBB71_4:
	beq	.LBB71_6
	mov	r4, r0
.LBB71_6:
	adds	r3, #31
	adcs	r4, r0
	lsrs	r0, r3, #3
	lsls	r1, r4, #29
	adds	r1, r0, r1
	mov	r0, r7
	adds	r0, #48
	str	r0, [sp, #16]
	ldrb	r0, [r7, #16]
	cmp	r0, #0
	beq	.LBB71_12
	movs	r5, #1
	lsls	r0, r5, #24
	cmp	r1, r0
	bls	.LBB71_8
	b	.LBB71_50
.LBB71_8:
	str	r2, [sp, #20]
	movs	r2, #32
	mov	r0, r1
	str	r2, [sp, #8]
	orrs	r0, r2
	mov	r4, r1
	bl	__clzsi2
	movs	r1, #26
	subs	r0, r1, r0
	str	r4, [sp, #12]
	subs	r2, r4, #1
	lsrs	r2, r0
	lsls	r0, r0, #5
	adds	r0, r2, r0
	adds	r0, r0, #1
	movs	r1, #0
	subs	r0, r0, #1
	str	r1, [sp, #4]
	sbcs	r1, r1
	lsrs	r3, r0, #5
	lsls	r1, r1, #27
	adds	r3, r3, r1
	lsls	r4, r3, #2
	mov	r1, r7
	adds	r1, #108
	ldr	r4, [r1, r4]
	movs	r6, #31
	ands	r6, r2
	lsrs	r4, r6
	mov	r6, r5
	bics	r4, r5
	beq	.LBB71_16
	cmp	r4, #0
	ldr	r1, [sp, #8]
	beq	.LBB71_11
	rsbs	r1, r4, #0
	ands	r1, r4
	ldr	r2, .LCPI71_0
	muls	r2, r1, r2
	lsrs	r1, r2, #27
	adr	r2, .LCPI71_1
	ldrb	r1, [r2, r1]
.LBB71_11:
	adds	r1, r1, r0
	ldr	r0, [sp, #20]
	b	.LBB71_32
.LBB71_12:
	movs	r6, #1
	lsls	r0, r6, #20
	cmp	r1, r0
	bls	.LBB71_13
	b	.LBB71_50
.LBB71_13:
	str	r2, [sp, #20]
	movs	r0, #16
	orrs	r0, r1
	mov	r4, r1
	bl	__clzsi2
	movs	r1, #27
	subs	r1, r1, r0
	str	r4, [sp, #12]
	subs	r0, r4, #1
	lsrs	r0, r1
	lsls	r1, r1, #4
	adds	r1, r0, r1
	adds	r1, r1, #1
	movs	r3, #0
	subs	r2, r1, #1
	str	r3, [sp, #8]
	mov	r1, r3
	sbcs	r1, r3
	lsrs	r3, r2, #4
	lsls	r1, r1, #28
	adds	r3, r3, r1
	lsls	r4, r3, #2
	mov	r1, r7
	adds	r1, #108
	ldr	r4, [r1, r4]
	movs	r5, #15
	ands	r5, r0
	lsrs	r4, r5
	bics	r4, r6
	beq	.LBB71_22
	cmp	r4, #0
	beq	.LBB71_28
	rsbs	r0, r4, #0
	ands	r0, r4
	ldr	r1, .LCPI71_0
	muls	r1, r0, r1
	lsrs	r0, r1, #27
	adr	r1, .LCPI71_1
	ldrb	r1, [r1, r0]
	b	.LBB71_29
.LBB71_16:
	movs	r0, #1
	mvns	r0, r0
	lsls	r0, r3
	ldr	r4, [r7, #104]
	ands	r4, r0
	ldr	r0, [sp, #20]
	bne	.LBB71_17
	b	.LBB71_50
.LBB71_17:
	ldr	r5, .LCPI71_0
	movs	r2, #32
	cmp	r4, #0
	mov	r3, r2
	beq	.LBB71_19
	rsbs	r3, r4, #0
	ands	r3, r4
	muls	r3, r5, r3
	lsrs	r3, r3, #27
	adr	r4, .LCPI71_1
	ldrb	r3, [r4, r3]
.LBB71_19:
	lsls	r4, r3, #2
	ldr	r1, [r1, r4]
	cmp	r1, #0
	beq	.LBB71_31
	cmp	r1, #0
	beq	.LBB71_30
	rsbs	r2, r1, #0
	ands	r2, r1
	muls	r5, r2, r5
	lsrs	r1, r5, #27
	adr	r2, .LCPI71_1
	ldrb	r2, [r2, r1]
	b	.LBB71_31
.LBB71_22:
	movs	r0, #1
	mvns	r0, r0
	lsls	r0, r3
	ldr	r4, [r7, #104]
	ands	r4, r0
	ldr	r0, [sp, #20]
	beq	.LBB71_50
	ldr	r5, .LCPI71_0
	movs	r2, #32
	cmp	r4, #0
	mov	r3, r2
	beq	.LBB71_25
	rsbs	r3, r4, #0
	ands	r3, r4
	muls	r3, r5, r3
	lsrs	r3, r3, #27
	adr	r4, .LCPI71_1
	ldrb	r3, [r4, r3]
.LBB71_25:
	lsls	r4, r3, #2
	ldr	r1, [r1, r4]
	cmp	r1, #0
	beq	.LBB71_39
	cmp	r1, #0
	beq	.LBB71_38
	rsbs	r2, r1, #0
	ands	r2, r1
	muls	r5, r2, r5
	lsrs	r1, r5, #27
	adr	r2, .LCPI71_1
	ldrb	r2, [r2, r1]
	b	.LBB71_39
.LBB71_28:
	movs	r1, #32
.LBB71_29:
	ldr	r0, [sp, #20]
	adds	r1, r1, r2
	b	.LBB71_40
.LBB71_30:
	movs	r2, #32
.LBB71_31:
	lsls	r1, r3, #5
	adds	r1, r2, r1
.LBB71_32:
	lsls	r1, r1, #2
	adds	r1, r7, r1
	movs	r2, #192
	ldr	r5, [r1, r2]
	adds	r1, r5, #1
	beq	.LBB71_50
	ldr	r1, [r7, #56]
	subs	r1, r1, #4
	cmp	r5, r1
	bhi	.LBB71_47
	movs	r2, #63
	ands	r2, r5
	ldr	r1, [r7, #72]
	lsrs	r0, r5, #6
	lsls	r3, r0, #3
	ldr	r0, [r1, r3]
	adds	r1, r1, r3
	ldr	r1, [r1, #4]
	bl	__aeabi_llsr
	lsls	r0, r0, #31
	beq	.LBB71_46
	lsls	r0, r5, #3
	ldr	r1, [sp, #16]
	ldr	r2, [r1]
	ldr	r3, [r2, r0]
	movs	r6, #1
	mov	r2, r3
	ands	r2, r6
	rsbs	r0, r2, #0
	adcs	r0, r2
	lsrs	r2, r3, #2
	ldr	r3, [sp, #12]
	cmp	r2, r3
	mov	r2, r6
	blo	.LBB71_37
	ldr	r2, [sp, #4]
.LBB71_37:
	orrs	r0, r2
	beq	.LBB71_52
	b	.LBB71_46
.LBB71_38:
	movs	r2, #32
.LBB71_39:
	lsls	r1, r3, #4
	adds	r1, r2, r1
.LBB71_40:
	lsls	r1, r1, #2
	adds	r1, r7, r1
	movs	r2, #192
	ldr	r5, [r1, r2]
	adds	r1, r5, #1
	beq	.LBB71_50
	ldr	r1, [r7, #56]
	subs	r1, r1, #4
	cmp	r5, r1
	bhi	.LBB71_47
	movs	r2, #63
	ands	r2, r5
	ldr	r1, [r7, #72]
	lsrs	r0, r5, #6
	lsls	r3, r0, #3
	ldr	r0, [r1, r3]
	adds	r1, r1, r3
	ldr	r1, [r1, #4]
	bl	__aeabi_llsr
	lsls	r0, r0, #31
	beq	.LBB71_46
	lsls	r0, r5, #3
	ldr	r1, [sp, #16]
	ldr	r2, [r1]
	ldr	r3, [r2, r0]
	movs	r6, #1
	mov	r2, r3
	ands	r2, r6
	rsbs	r0, r2, #0
	adcs	r0, r2
	lsrs	r2, r3, #2
	ldr	r3, [sp, #12]
	cmp	r2, r3
	mov	r2, r6
	blo	.LBB71_45
	ldr	r2, [sp, #8]
.LBB71_45:
	orrs	r0, r2
	beq	.LBB71_52
.LBB71_46:
	ldr	r0, [sp, #20]
.LBB71_47:
	movs	r1, #1
	strb	r1, [r7]
	cmp	r6, #0
	beq	.LBB71_51
	str	r5, [r0]
	movs	r0, #36
.LBB71_49:
	add	sp, #36
	pop	{r4, r5, r6, r7, pc}
.LBB71_50:
	movs	r0, #1
	strb	r0, [r7]
	add	sp, #36
	pop	{r4, r5, r6, r7, pc}
.LBB71_51:
	movs	r0, #0
	add	sp, #36
	pop	{r4, r5, r6, r7, pc}
.LBB71_52:
	add	r4, sp, #24
	mov	r0, r4
	mov	r2, r5
	bl	tlsf_heap.around.check_around
	ldrb	r0, [r4]
	cmp	r0, #1
	ldr	r0, [sp, #20]
	bne	.LBB71_47
	add	r1, sp, #24
	ldrb	r6, [r1, #4]
	ldr	r5, [sp, #32]
	b	.LBB71_47
	.p2align	2
.LCPI71_0:
	.long	125613361
.LCPI71_1:
	.ascii	"\000\001\034\002\035\016\030\003\036\026\024\017\031\021\004\b\037\033\r\027\025\023\020\007\032\f\022\006\013\005\n\t"
.Lfunc_end71:
	.size	tlsf_check_request, .Lfunc_end71-tlsf_check_request
	.cfi_endproc
	.section	.text.tlsf_close,"ax",%progbits
	.globl	tlsf_close
	.p2align	1
	.type	tlsf_close,%function
	.code	16
	.thumb_func
tlsf_close:
	.cfi_startproc
	push	{r4, r5, r6, r7, lr}
	.cfi_def_cfa_offset 20
	.cfi_offset lr, -4
	.cfi_offset r7, -8
	.cfi_offset r6, -12
	.cfi_offset r5, -16
	.cfi_offset r4, -20
	sub	sp, #92
	.cfi_def_cfa_offset 112
	ldrb	r2, [r0, #8]
	movs	r1, #32
	cmp	r2, #0
	bne	.LBB72_1
	b	.LBB72_7
.LBB72_1:
	ldr	r2, [r0]
	ldrb	r3, [r2]
	cmp	r3, #1
	beq	.LBB72_2
	b	.LBB72_7
.LBB72_2:
	movs	r1, #0
	strb	r1, [r0, #8]
	strb	r1, [r2]
	strb	r1, [r0, #7]
	strb	r1, [r0, #6]
	strb	r1, [r0, #5]
	strb	r1, [r0, #4]
	ldrb	r2, [r0, #3]
	strb	r1, [r0, #3]
	ldrb	r3, [r0, #2]
	strb	r1, [r0, #2]
	ldrb	r4, [r0, #1]
	strb	r1, [r0, #1]
	ldrb	r5, [r0]
	str	r1, [sp, #88]
	strb	r1, [r0]
	lsls	r0, r4, #8
	adds	r0, r0, r5
	lsls	r1, r3, #16
	lsls	r2, r2, #24
	adds	r1, r2, r1
	adds	r0, r1, r0
	ldrb	r1, [r0, #16]
	str	r1, [sp, #84]
	mov	r1, r0
	adds	r1, #48
	ldrb	r2, [r1, #3]
	str	r2, [sp, #80]
	ldrb	r2, [r1, #2]
	str	r2, [sp, #76]
	movs	r2, #48
	ldrb	r2, [r0, r2]
	str	r2, [sp, #72]
	ldrb	r1, [r1, #1]
	str	r1, [sp, #68]
	mov	r1, r0
	adds	r1, #72
	ldrb	r2, [r1, #3]
	str	r2, [sp, #16]
	ldrb	r2, [r1, #2]
	str	r2, [sp, #12]
	movs	r2, #72
	ldrb	r2, [r0, r2]
	str	r2, [sp, #8]
	ldrb	r1, [r1, #1]
	str	r1, [sp, #4]
	mov	r1, r0
	adds	r1, #64
	ldrb	r2, [r1, #3]
	str	r2, [sp, #64]
	ldrb	r2, [r1, #2]
	str	r2, [sp, #60]
	movs	r2, #64
	ldrb	r2, [r0, r2]
	str	r2, [sp, #56]
	ldrb	r1, [r1, #1]
	str	r1, [sp, #52]
	mov	r1, r0
	adds	r1, #68
	ldrb	r2, [r1, #3]
	str	r2, [sp, #48]
	ldrb	r2, [r1, #2]
	str	r2, [sp, #44]
	movs	r2, #68
	ldrb	r2, [r0, r2]
	str	r2, [sp, #40]
	ldrb	r1, [r1, #1]
	str	r1, [sp, #36]
	mov	r1, r0
	adds	r1, #88
	ldrb	r2, [r1, #3]
	str	r2, [sp, #32]
	ldrb	r2, [r1, #2]
	str	r2, [sp, #28]
	movs	r2, #88
	ldrb	r2, [r0, r2]
	str	r2, [sp, #24]
	ldrb	r1, [r1, #1]
	str	r1, [sp, #20]
	mov	r1, r0
	adds	r1, #92
	ldrb	r6, [r1, #3]
	ldrb	r4, [r1, #2]
	movs	r2, #92
	ldrb	r7, [r0, r2]
	ldrb	r5, [r1, #1]
	bl	tlsf_memory_dealloc
	lsls	r0, r5, #8
	adds	r0, r0, r7
	lsls	r1, r4, #16
	lsls	r2, r6, #24
	adds	r1, r2, r1
	adds	r5, r1, r0
	ldr	r0, [sp, #20]
	lsls	r0, r0, #8
	ldr	r1, [sp, #24]
	adds	r0, r0, r1
	ldr	r1, [sp, #28]
	lsls	r1, r1, #16
	ldr	r2, [sp, #32]
	lsls	r2, r2, #24
	adds	r1, r2, r1
	adds	r6, r1, r0
	ldr	r0, [sp, #36]
	lsls	r0, r0, #8
	ldr	r1, [sp, #40]
	adds	r0, r0, r1
	ldr	r1, [sp, #44]
	lsls	r1, r1, #16
	ldr	r2, [sp, #48]
	lsls	r2, r2, #24
	adds	r1, r2, r1
	adds	r1, r1, r0
	ldr	r0, [sp, #52]
	lsls	r0, r0, #8
	ldr	r2, [sp, #56]
	adds	r0, r0, r2
	ldr	r2, [sp, #60]
	lsls	r2, r2, #16
	ldr	r3, [sp, #64]
	lsls	r3, r3, #24
	adds	r2, r3, r2
	adds	r2, r2, r0
	ldr	r0, [sp, #68]
	lsls	r0, r0, #8
	ldr	r3, [sp, #72]
	adds	r0, r0, r3
	ldr	r3, [sp, #76]
	lsls	r3, r3, #16
	ldr	r4, [sp, #80]
	lsls	r4, r4, #24
	adds	r3, r4, r3
	adds	r0, r3, r0
	ldr	r3, [sp, #84]
	cmp	r3, #0
	orrs	r2, r1
	beq	.LBB72_4
	bl	tlsf_memory_dealloc
.LBB72_4:
	orrs	r6, r5
	beq	.LBB72_6
	ldr	r0, [sp, #4]
	lsls	r0, r0, #8
	ldr	r1, [sp, #8]
	adds	r0, r0, r1
	ldr	r1, [sp, #12]
	lsls	r1, r1, #16
	ldr	r2, [sp, #16]
	lsls	r2, r2, #24
	adds	r1, r2, r1
	adds	r0, r1, r0
	bl	tlsf_memory_dealloc
.LBB72_6:
	ldr	r1, [sp, #88]
.LBB72_7:
	mov	r0, r1
	add	sp, #92
	pop	{r4, r5, r6, r7, pc}
.Lfunc_end72:
	.size	tlsf_close, .Lfunc_end72-tlsf_close
	.cfi_endproc
	.section	.text.tlsf_counts,"ax",%progbits
	.globl	tlsf_counts
	.p2align	1
	.type	tlsf_counts,%function
	.code	16
	.thumb_func
tlsf_counts:
	.cfi_startproc
	push	{r4, r5, r7, lr}
	.cfi_def_cfa_offset 16
	.cfi_offset lr, -4
	.cfi_offset r7, -8
	.cfi_offset r5, -12
	.cfi_offset r4, -16
	ldrb	r2, [r0, #8]
	cmp	r2, #0
	beq	.LBB73_3
	ldr	r3, [r0]
	ldrb	r0, [r3]
	cmp	r0, #0
	beq	.LBB73_3
	ldr	r0, [r3, #40]
	ldr	r2, [r3, #44]
	ldr	r4, [r3, #8]
	ldr	r3, [r3, #12]
	strb	r3, [r1, #12]
	strb	r4, [r1, #8]
	strb	r2, [r1, #4]
	strb	r0, [r1]
	lsrs	r5, r3, #24
	strb	r5, [r1, #15]
	lsrs	r5, r3, #16
	strb	r5, [r1, #14]
	lsrs	r3, r3, #8
	strb	r3, [r1, #13]
	lsrs	r3, r4, #24
	strb	r3, [r1, #11]
	lsrs	r3, r4, #16
	strb	r3, [r1, #10]
	lsrs	r3, r4, #8
	strb	r3, [r1, #9]
	lsrs	r3, r2, #24
	strb	r3, [r1, #7]
	lsrs	r3, r2, #16
	strb	r3, [r1, #6]
	lsrs	r2, r2, #8
	strb	r2, [r1, #5]
	lsrs	r2, r0, #24
	strb	r2, [r1, #3]
	lsrs	r2, r0, #16
	strb	r2, [r1, #2]
	lsrs	r0, r0, #8
	strb	r0, [r1, #1]
	movs	r0, #0
	pop	{r4, r5, r7, pc}
.LBB73_3:
	movs	r0, #0
	bl	tlsf_c.call_fault.CallFault.refusal
	pop	{r4, r5, r7, pc}
.Lfunc_end73:
	.size	tlsf_counts, .Lfunc_end73-tlsf_counts
	.cfi_endproc
	.section	.text.tlsf_drain,"ax",%progbits
	.globl	tlsf_drain
	.p2align	1
	.type	tlsf_drain,%function
	.code	16
	.thumb_func
tlsf_drain:
	.cfi_startproc
	push	{r4, r5, r6, r7, lr}
	.cfi_def_cfa_offset 20
	.cfi_offset lr, -4
	.cfi_offset r7, -8
	.cfi_offset r6, -12
	.cfi_offset r5, -16
	.cfi_offset r4, -20
	sub	sp, #508
	sub	sp, #312
	.cfi_def_cfa_offset 840
	str	r3, [sp, #12]
	mov	r4, r2
	ldrb	r2, [r0, #8]
	cmp	r2, #0
	beq	.LBB74_16
	ldr	r2, [r0]
	ldrb	r2, [r2]
	cmp	r2, #1
	bne	.LBB74_16
	ldrb	r2, [r1, #8]
	cmp	r2, #0
	beq	.LBB74_16
	ldr	r6, [r1]
	ldrb	r1, [r6, #1]
	cmp	r1, #0
	beq	.LBB74_16
	ldrb	r1, [r6]
	cmp	r1, #1
	bne	.LBB74_19
	str	r0, [sp, #24]
	movs	r5, #0
	strb	r5, [r6, #1]
	movs	r0, #3
	lsls	r2, r0, #8
	add	r0, sp, #48
	mov	r1, r5
	bl	tlsf_memory_set
	cmp	r4, #0
	str	r5, [sp, #8]
	beq	.LBB74_15
	mov	r0, r6
	adds	r0, #8
	str	r0, [sp, #16]
	movs	r5, #0
	str	r6, [sp, #20]
.LBB74_7:
	str	r5, [sp, #36]
	cmp	r4, #32
	str	r4, [sp, #28]
	blo	.LBB74_9
	movs	r4, #32
.LBB74_9:
	add	r1, sp, #48
	movs	r3, #0
	ldr	r0, [sp, #16]
	str	r4, [sp, #32]
	mov	r2, r4
	str	r3, [sp, #44]
	bl	tlsf_post.take_end.TakeEnd.take_slice
	mov	r4, r1
	mov	r1, r0
	orrs	r1, r4
	ldr	r5, [sp, #24]
	beq	.LBB74_12
	ldr	r6, [sp, #44]
	mov	r7, r6
	str	r0, [sp, #40]
.LBB74_11:
	movs	r2, #24
	muls	r2, r7, r2
	add	r1, sp, #48
	adds	r3, r1, r2
	ldr	r1, [r3, #8]
	mov	r0, r5
	mov	r5, r4
	ldr	r4, [r3, #12]
	ldr	r2, [r3, #16]
	ldr	r3, [r3, #20]
	str	r4, [sp]
	mov	r4, r5
	mov	r5, r0
	bl	tlsf_c.heap_calls.release_named
	ldr	r0, [sp, #40]
	adds	r7, r7, #1
	ldr	r1, [sp, #44]
	adcs	r6, r1
	subs	r1, r7, r0
	mov	r1, r6
	sbcs	r1, r4
	blo	.LBB74_11
.LBB74_12:
	ldr	r5, [sp, #36]
	adds	r5, r5, r0
	movs	r3, #0
	ldr	r1, [sp, #32]
	subs	r1, r0, r1
	sbcs	r4, r3
	blo	.LBB74_14
	ldr	r4, [sp, #28]
	subs	r4, r4, r0
	ldr	r6, [sp, #20]
	bne	.LBB74_7
	b	.LBB74_15
.LBB74_14:
	ldr	r6, [sp, #20]
.LBB74_15:
	ldr	r0, [sp, #12]
	str	r5, [r0]
	movs	r0, #1
	strb	r0, [r6, #1]
	ldr	r0, [sp, #8]
	b	.LBB74_18
.LBB74_16:
	movs	r0, #0
.LBB74_17:
	bl	tlsf_c.call_fault.CallFault.refusal
.LBB74_18:
	add	sp, #508
	add	sp, #312
	pop	{r4, r5, r6, r7, pc}
.LBB74_19:
	movs	r0, #2
	b	.LBB74_17
.Lfunc_end74:
	.size	tlsf_drain, .Lfunc_end74-tlsf_drain
	.cfi_endproc
	.section	.text.tlsf_lane_open,"ax",%progbits
	.globl	tlsf_lane_open
	.p2align	2
	.type	tlsf_lane_open,%function
	.code	16
	.thumb_func
tlsf_lane_open:
	.cfi_startproc
	push	{r4, r5, r6, r7, lr}
	.cfi_def_cfa_offset 20
	.cfi_offset lr, -4
	.cfi_offset r7, -8
	.cfi_offset r6, -12
	.cfi_offset r5, -16
	.cfi_offset r4, -20
	sub	sp, #260
	.cfi_def_cfa_offset 280
	str	r2, [sp, #28]
	mov	r7, r1
	mov	r5, r0
	add	r0, sp, #200
	movs	r4, #0
	movs	r2, #56
	mov	r1, r4
	bl	tlsf_memory_set
	add	r0, sp, #152
	movs	r2, #48
	mov	r1, r4
	bl	tlsf_memory_set
	add	r0, sp, #72
	movs	r6, #40
	mov	r1, r4
	mov	r2, r6
	bl	tlsf_memory_set
	add	r0, sp, #32
	mov	r1, r4
	mov	r2, r6
	bl	tlsf_memory_set
	ldrb	r1, [r5, #8]
	movs	r0, #33
	cmp	r1, #0
	bne	.LBB75_2
	ldrb	r1, [r7, #8]
	cmp	r1, #0
	beq	.LBB75_3
.LBB75_2:
	add	sp, #260
	pop	{r4, r5, r6, r7, pc}
.LBB75_3:
	mov	r6, r5
	ldr	r0, .LCPI75_0
	ldr	r5, [sp, #28]
	adds	r1, r5, r0
	subs	r1, r1, #1
	cmp	r1, r0
	bhs	.LBB75_5
	movs	r0, #5
	add	sp, #260
	pop	{r4, r5, r6, r7, pc}
.LBB75_5:
	str	r7, [sp, #24]
	movs	r0, #3
	lsls	r1, r0, #7
	add	r0, sp, #112
	movs	r2, #8
	bl	tlsf_memory_alloc
	ldr	r1, [sp, #112]
	movs	r0, #6
	lsls	r1, r1, #31
	beq	.LBB75_2
	str	r0, [sp, #20]
	ldr	r7, [sp, #120]
	movs	r1, #24
	muls	r1, r5, r1
	add	r0, sp, #112
	movs	r2, #8
	bl	tlsf_memory_alloc
	ldr	r0, [sp, #112]
	lsls	r0, r0, #31
	beq	.LBB75_12
	ldr	r0, [sp, #120]
	str	r0, [sp, #16]
	movs	r0, #128
	str	r4, [r7, r0]
	movs	r0, #1
	str	r0, [sp, #12]
	lsls	r0, r0, #8
	str	r4, [r7, r0]
	str	r4, [r7]
	str	r4, [r7, #4]
	mov	r1, r7
	adds	r1, #128
	str	r4, [r1, #4]
	adds	r0, r7, r0
	str	r0, [sp, #8]
	str	r4, [r0, #4]
	add	r0, sp, #112
	movs	r1, #48
	movs	r2, #8
	bl	tlsf_memory_alloc
	ldr	r0, [sp, #112]
	lsls	r0, r0, #31
	beq	.LBB75_13
	mov	r1, r7
	str	r7, [sp, #4]
	mov	r2, r5
	ldr	r5, [sp, #120]
	strb	r4, [r5, #31]
	strb	r4, [r5, #30]
	strb	r4, [r5, #29]
	strb	r4, [r5, #28]
	strb	r2, [r5, #24]
	strb	r4, [r5, #23]
	strb	r4, [r5, #22]
	strb	r4, [r5, #21]
	strb	r4, [r5, #20]
	ldr	r7, [sp, #16]
	strb	r7, [r5, #16]
	strb	r4, [r5, #15]
	strb	r4, [r5, #14]
	strb	r4, [r5, #13]
	strb	r4, [r5, #12]
	strb	r1, [r5, #8]
	ldr	r0, [sp, #12]
	strb	r0, [r5, #1]
	strb	r4, [r5]
	lsrs	r0, r2, #24
	strb	r0, [r5, #27]
	lsrs	r0, r2, #16
	strb	r0, [r5, #26]
	lsrs	r0, r2, #8
	strb	r0, [r5, #25]
	lsrs	r0, r7, #24
	strb	r0, [r5, #19]
	lsrs	r0, r7, #16
	strb	r0, [r5, #18]
	lsrs	r0, r7, #8
	strb	r0, [r5, #17]
	lsrs	r0, r1, #24
	strb	r0, [r5, #11]
	lsrs	r0, r1, #16
	strb	r0, [r5, #10]
	lsrs	r0, r1, #8
	strb	r0, [r5, #9]
	mov	r0, r5
	adds	r0, #32
	movs	r2, #16
	mov	r1, r4
	bl	tlsf_memory_set
	movs	r0, #255
	adds	r0, #2
	add	r1, sp, #152
	strh	r0, [r1]
	str	r4, [sp, #180]
	ldr	r0, [sp, #28]
	str	r0, [sp, #176]
	str	r4, [sp, #184]
	str	r4, [sp, #172]
	str	r7, [sp, #168]
	str	r4, [sp, #164]
	ldr	r0, [sp, #4]
	str	r0, [sp, #160]
	str	r4, [sp, #188]
	str	r4, [sp, #192]
	str	r4, [sp, #196]
	add	r7, sp, #200
	mov	r0, r7
	bl	std_alloc.boxed.Box.new.91a8e04f462e8cea
	ldrb	r0, [r7]
	cmp	r0, #0
	beq	.LBB75_15
	mov	r7, r5
	add	r4, sp, #200
	ldrb	r5, [r4, #8]
	adds	r4, #32
	ldr	r1, [sp, #228]
	add	r3, sp, #216
	ldm	r3, {r0, r2, r3}
	.p2align	2
	add	r5, pc
	ldrb	r5, [r5, #4]
	lsls	r5, r5, #1
.LCPI75_1:
	add	pc, r5
	.p2align	2
.LJTI75_0:
	.byte	(.LBB75_11-(.LCPI75_1+4))/2
	.byte	(.LBB75_18-(.LCPI75_1+4))/2
	.byte	(.LBB75_16-(.LCPI75_1+4))/2
	.byte	(.LBB75_17-(.LCPI75_1+4))/2
	.p2align	1
.LBB75_11:
	add	r5, sp, #72
	stm	r5!, {r0, r2, r3}
	str	r1, [sp, #84]
	add	r0, sp, #72
	mov	r1, r0
	adds	r1, #16
	ldm	r4!, {r2, r3, r5}
	stm	r1!, {r2, r3, r5}
	ldm	r4!, {r2, r3, r5}
	stm	r1!, {r2, r3, r5}
	bl	rtrb.producer.Producer.drop.9fca81e6602d26fc
	b	.LBB75_19
.LBB75_12:
	mov	r0, r7
	bl	tlsf_memory_dealloc
	b	.LBB75_20
.LBB75_13:
	str	r4, [sp, #132]
	str	r5, [sp, #128]
	str	r4, [sp, #124]
	ldr	r6, [sp, #16]
	str	r6, [sp, #120]
	str	r4, [sp, #136]
	str	r4, [sp, #116]
	str	r7, [sp, #112]
	str	r4, [sp, #140]
	str	r4, [sp, #144]
	str	r4, [sp, #148]
	add	r0, sp, #112
	bl	rtrb.producer.Producer.drop.9fca81e6602d26fc
	movs	r0, #5
	str	r0, [sp]
	movs	r2, #1
	ldr	r0, [sp, #8]
	mov	r3, r4
	bl	__atomic_exchange_8
	orrs	r1, r0
	beq	.LBB75_20
	movs	r3, #0
	mov	r0, r7
	mov	r1, r6
	mov	r2, r5
	bl	rtrb.release.drop_slow.23d795680250cb0d
	b	.LBB75_20
.LBB75_15:
	strb	r4, [r6, #9]
	ldr	r1, [sp, #12]
	strb	r1, [r6, #8]
	strb	r4, [r6, #7]
	strb	r4, [r6, #6]
	strb	r4, [r6, #5]
	strb	r4, [r6, #4]
	strb	r5, [r6]
	strb	r4, [r6, #10]
	strb	r4, [r6, #11]
	strb	r4, [r6, #12]
	strb	r4, [r6, #13]
	strb	r4, [r6, #14]
	strb	r4, [r6, #15]
	lsrs	r0, r5, #24
	strb	r0, [r6, #3]
	lsrs	r0, r5, #16
	strb	r0, [r6, #2]
	lsrs	r0, r5, #8
	strb	r0, [r6, #1]
	ldr	r5, [sp, #24]
	strb	r4, [r5, #11]
	strb	r4, [r5, #12]
	strb	r4, [r5, #13]
	strb	r4, [r5, #14]
	strb	r4, [r5, #15]
	strb	r4, [r5, #9]
	strb	r1, [r5, #8]
	ldr	r0, [sp, #208]
	lsrs	r1, r0, #16
	strb	r1, [r5, #2]
	lsrs	r1, r0, #24
	strb	r1, [r5, #3]
	strb	r0, [r5]
	lsrs	r0, r0, #8
	strb	r0, [r5, #1]
	strb	r4, [r5, #6]
	strb	r4, [r5, #7]
	strb	r4, [r5, #4]
	strb	r4, [r5, #5]
	strb	r4, [r5, #10]
	mov	r0, r4
	add	sp, #260
	pop	{r4, r5, r6, r7, pc}
.LBB75_16:
	bl	std_alloc.arc.Arc.drop.c4a047e811255370
	mov	r0, r4
	bl	std_alloc.vec.Vec.drop.7ac45d8413b9ad54
	b	.LBB75_19
.LBB75_17:
	bl	std_alloc.arc.Arc.drop.c4a047e811255370
	b	.LBB75_19
.LBB75_18:
	add	r5, sp, #32
	stm	r5!, {r0, r2, r3}
	str	r1, [sp, #44]
	add	r0, sp, #32
	mov	r1, r0
	adds	r1, #16
	ldm	r4!, {r2, r3, r5}
	stm	r1!, {r2, r3, r5}
	ldm	r4!, {r2, r3, r5}
	stm	r1!, {r2, r3, r5}
	bl	rtrb.consumer.Consumer.drop.9fca81e6602d26fc
.LBB75_19:
	mov	r0, r7
	bl	std_alloc.boxed.Box.drop.7d8ec8058c3633cd
.LBB75_20:
	ldr	r0, [sp, #20]
	add	sp, #260
	pop	{r4, r5, r6, r7, pc}
	.p2align	2
.LCPI75_0:
	.long	4294966272
.Lfunc_end75:
	.size	tlsf_lane_open, .Lfunc_end75-tlsf_lane_open
	.cfi_endproc
	.section	.text.tlsf_locate,"ax",%progbits
	.globl	tlsf_locate
	.p2align	1
	.type	tlsf_locate,%function
	.code	16
	.thumb_func
tlsf_locate:
	.cfi_startproc
	push	{r4, r5, r6, r7, lr}
	.cfi_def_cfa_offset 20
	.cfi_offset lr, -4
	.cfi_offset r7, -8
	.cfi_offset r6, -12
	.cfi_offset r5, -16
	.cfi_offset r4, -20
	sub	sp, #20
	.cfi_def_cfa_offset 40
	mov	r6, r3
	mov	r5, r2
	ldr	r2, [sp, #48]
	ldr	r3, [r2]
	ldrb	r1, [r0, #8]
	cmp	r1, #0
	beq	.LBB76_12
	ldr	r7, [r0]
	ldrb	r0, [r7]
	cmp	r0, #0
	beq	.LBB76_12
	str	r3, [sp, #4]
	str	r2, [sp, #16]
	ldr	r0, [sp, #44]
	str	r0, [sp, #8]
	ldr	r0, [sp, #40]
	str	r0, [sp, #12]
	movs	r4, #0
	strb	r4, [r7]
	ldr	r1, [r7, #24]
	ldrb	r0, [r7, #16]
	cmp	r0, #0
	cmp	r1, r5
	bne	.LBB76_8
	ldr	r0, [r7, #56]
	cmp	r6, r0
	mov	r1, r5
	bhs	.LBB76_8
	movs	r2, #63
	ands	r2, r6
	ldr	r1, [r7, #72]
	lsrs	r0, r6, #6
	lsls	r3, r0, #3
	ldr	r0, [r1, r3]
	adds	r1, r1, r3
	ldr	r1, [r1, #4]
	bl	__aeabi_llsr
	lsls	r0, r0, #31
	mov	r1, r5
	beq	.LBB76_8
	lsls	r2, r6, #3
	ldr	r0, [r7, #48]
	ldrb	r1, [r0, r2]
	lsls	r1, r1, #31
	mov	r1, r5
	bne	.LBB76_8
	adds	r2, r0, r2
	ldr	r1, [r2, #8]
	ldr	r3, [r2, #12]
	ldr	r6, [sp, #8]
	eors	r3, r6
	ldr	r6, [sp, #12]
	eors	r1, r6
	orrs	r1, r3
	mov	r1, r5
	bne	.LBB76_8
	ldr	r1, [sp, #52]
	ldr	r2, [r2, #16]
	movs	r3, #1
	strb	r3, [r7]
	str	r2, [r1]
	mov	r2, r0
	ldr	r1, [sp, #16]
	b	.LBB76_13
.LBB76_8:
	mov	r0, r5
	bl	tlsf_heap.refusal.Refusal.of_name
	movs	r1, #1
	strb	r1, [r7]
	uxtb	r0, r0
	cmp	r0, #3
	beq	.LBB76_10
	movs	r4, #3
	b	.LBB76_11
.LBB76_10:
	movs	r4, #4
.LBB76_11:
	ldr	r1, [sp, #16]
	ldr	r2, [sp, #4]
	b	.LBB76_13
.LBB76_12:
	movs	r0, #0
	mov	r4, r2
	mov	r5, r3
	bl	tlsf_c.call_fault.CallFault.refusal
	mov	r2, r5
	mov	r1, r4
	mov	r4, r0
.LBB76_13:
	str	r2, [r1]
	mov	r0, r4
	add	sp, #20
	pop	{r4, r5, r6, r7, pc}
.Lfunc_end76:
	.size	tlsf_locate, .Lfunc_end76-tlsf_locate
	.cfi_endproc
	.section	.text.tlsf_offsets_allocate,"ax",%progbits
	.globl	tlsf_offsets_allocate
	.p2align	2
	.type	tlsf_offsets_allocate,%function
	.code	16
	.thumb_func
tlsf_offsets_allocate:
	.cfi_startproc
	push	{r4, r5, r6, r7, lr}
	.cfi_def_cfa_offset 20
	.cfi_offset lr, -4
	.cfi_offset r7, -8
	.cfi_offset r6, -12
	.cfi_offset r5, -16
	.cfi_offset r4, -20
	sub	sp, #92
	.cfi_def_cfa_offset 112
	ldrb	r1, [r0, #8]
	cmp	r1, #0
	bne	.LBB77_1
	b	.LBB77_40
.LBB77_1:
	ldr	r1, [r0]
	ldrb	r0, [r1, #1]
	cmp	r0, #0
	bne	.LBB77_2
	b	.LBB77_40
.LBB77_2:
	ldrb	r0, [r1]
	cmp	r0, #0
	beq	.LBB77_3
	b	.LBB77_53
.LBB77_3:
	mov	r5, r3
	mov	r3, r2
	movs	r4, #0
	strb	r4, [r1, #1]
	movs	r0, #43
	lsls	r2, r0, #6
	ldr	r6, [r1, r2]
	ldrb	r0, [r1, #8]
	cmp	r0, #0
	str	r1, [sp, #88]
	str	r4, [sp, #84]
	str	r2, [sp, #76]
	str	r3, [sp, #80]
	beq	.LBB77_22
	cmp	r6, #0
	bne	.LBB77_5
	b	.LBB77_97
.LBB77_5:
	mov	r0, r3
	mov	r1, r5
	mov	r2, r6
	mov	r3, r4
	bl	__aeabi_uldivmod
	mov	r2, r0
	mov	r7, r1
	adds	r0, r0, #1
	str	r0, [sp, #72]
	mov	r3, r4
	mov	r4, r1
	adcs	r4, r3
	str	r2, [sp, #68]
	mov	r0, r2
	mov	r2, r6
	bl	__aeabi_lmul
	ldr	r2, [sp, #80]
	subs	r0, r2, r0
	sbcs	r5, r1
	orrs	r5, r0
	cmp	r5, #0
	bne	.LBB77_7
	mov	r4, r7
.LBB77_7:
	ldr	r2, [sp, #72]
	bne	.LBB77_9
	ldr	r2, [sp, #68]
.LBB77_9:
	movs	r1, #4
	cmp	r2, #4
	mov	r5, r2
	bhi	.LBB77_11
	mov	r5, r1
.LBB77_11:
	ldr	r0, [sp, #84]
	mvns	r0, r0
	cmp	r4, #0
	bne	.LBB77_20
	mov	r2, r1
	bne	.LBB77_21
.LBB77_13:
	beq	.LBB77_15
.LBB77_14:
	mov	r5, r0
.LBB77_15:
	movs	r1, #1
	lsls	r0, r1, #24
	cmp	r5, r0
	bhi	.LBB77_34
	movs	r4, #32
	mov	r0, r5
	orrs	r0, r4
	str	r1, [sp, #64]
	bl	__clzsi2
	movs	r1, #26
	str	r1, [sp, #40]
	subs	r0, r1, r0
	str	r5, [sp, #60]
	subs	r2, r5, #1
	lsrs	r2, r0
	lsls	r0, r0, #5
	adds	r0, r2, r0
	adds	r0, r0, #1
	subs	r1, r0, #1
	ldr	r0, [sp, #84]
	sbcs	r0, r0
	lsrs	r3, r1, #5
	lsls	r7, r0, #27
	adds	r3, r3, r7
	lsls	r7, r3, #2
	ldr	r6, [sp, #88]
	mov	r5, r6
	adds	r5, #100
	str	r5, [sp, #56]
	ldr	r7, [r5, r7]
	movs	r5, #31
	str	r5, [sp, #48]
	ands	r2, r5
	lsrs	r7, r2
	ldr	r2, [sp, #64]
	bics	r7, r2
	beq	.LBB77_41
	cmp	r7, #0
	beq	.LBB77_19
	rsbs	r2, r7, #0
	ands	r2, r7
	ldr	r3, .LCPI77_2
	muls	r3, r2, r3
	lsrs	r2, r3, #27
	adr	r3, .LCPI77_3
	ldrb	r4, [r3, r2]
.LBB77_19:
	adds	r2, r1, r4
	ldr	r3, [sp, #84]
	adcs	r0, r3
	lsrs	r1, r2, #5
	lsls	r0, r0, #27
	adds	r1, r1, r0
	ldr	r5, [sp, #88]
	b	.LBB77_59
.LBB77_20:
	beq	.LBB77_13
.LBB77_21:
	mov	r5, r2
	bne	.LBB77_14
	b	.LBB77_15
.LBB77_22:
	cmp	r6, #0
	bne	.LBB77_23
	b	.LBB77_97
.LBB77_23:
	movs	r4, #0
	mov	r0, r3
	mov	r1, r5
	mov	r2, r6
	mov	r3, r4
	bl	__aeabi_uldivmod
	mov	r2, r0
	mov	r7, r1
	adds	r0, r0, #1
	str	r0, [sp, #68]
	mov	r0, r1
	adcs	r0, r4
	str	r0, [sp, #72]
	str	r2, [sp, #64]
	mov	r0, r2
	mov	r2, r6
	mov	r6, r4
	mov	r3, r4
	bl	__aeabi_lmul
	ldr	r2, [sp, #80]
	subs	r0, r2, r0
	sbcs	r5, r1
	orrs	r5, r0
	cmp	r5, #0
	bne	.LBB77_25
	str	r7, [sp, #72]
.LBB77_25:
	ldr	r2, [sp, #68]
	bne	.LBB77_27
	ldr	r2, [sp, #64]
.LBB77_27:
	movs	r1, #4
	cmp	r2, #4
	mov	r4, r2
	bhi	.LBB77_29
	mov	r4, r1
.LBB77_29:
	mvns	r0, r6
	ldr	r3, [sp, #72]
	cmp	r3, #0
	bne	.LBB77_35
	mov	r2, r1
	bne	.LBB77_36
.LBB77_31:
	beq	.LBB77_33
.LBB77_32:
	mov	r4, r0
.LBB77_33:
	movs	r5, #1
	lsls	r0, r5, #20
	cmp	r4, r0
	bls	.LBB77_37
.LBB77_34:
	movs	r0, #1
	ldr	r1, [sp, #88]
	strb	r0, [r1, #1]
	add	sp, #92
	pop	{r4, r5, r6, r7, pc}
.LBB77_35:
	beq	.LBB77_31
.LBB77_36:
	mov	r4, r2
	bne	.LBB77_32
	b	.LBB77_33
.LBB77_37:
	movs	r1, #16
	mov	r0, r4
	str	r1, [sp, #36]
	orrs	r0, r1
	bl	__clzsi2
	movs	r1, #27
	str	r1, [sp, #32]
	subs	r0, r1, r0
	str	r4, [sp, #56]
	subs	r2, r4, #1
	lsrs	r2, r0
	lsls	r0, r0, #4
	adds	r0, r2, r0
	adds	r0, r0, #1
	subs	r1, r0, #1
	mov	r0, r6
	sbcs	r0, r6
	lsrs	r3, r1, #4
	lsls	r4, r0, #28
	adds	r3, r3, r4
	lsls	r4, r3, #2
	ldr	r7, [sp, #88]
	str	r5, [sp, #64]
	mov	r5, r7
	adds	r5, #100
	str	r5, [sp, #52]
	ldr	r4, [r5, r4]
	movs	r5, #15
	str	r5, [sp, #44]
	ands	r2, r5
	ldr	r5, [sp, #64]
	lsrs	r4, r2
	bics	r4, r5
	beq	.LBB77_47
	cmp	r4, #0
	beq	.LBB77_55
	rsbs	r2, r4, #0
	ands	r2, r4
	ldr	r3, .LCPI77_2
	muls	r3, r2, r3
	lsrs	r2, r3, #27
	adr	r3, .LCPI77_3
	ldrb	r2, [r3, r2]
	b	.LBB77_56
.LBB77_40:
	movs	r0, #0
	b	.LBB77_54
.LBB77_41:
	mvns	r0, r2
	lsls	r0, r3
	ldr	r4, [r6, #96]
	ands	r4, r0
	beq	.LBB77_34
	ldr	r2, .LCPI77_2
	adr	r1, .LCPI77_3
	movs	r3, #32
	cmp	r4, #0
	mov	r0, r3
	beq	.LBB77_44
	rsbs	r0, r4, #0
	ands	r0, r4
	muls	r0, r2, r0
	lsrs	r0, r0, #27
	ldrb	r0, [r1, r0]
.LBB77_44:
	lsls	r4, r0, #2
	ldr	r5, [sp, #56]
	ldr	r4, [r5, r4]
	cmp	r4, #0
	ldr	r5, [sp, #88]
	beq	.LBB77_58
	cmp	r4, #0
	beq	.LBB77_57
	rsbs	r3, r4, #0
	ands	r3, r4
	muls	r2, r3, r2
	lsrs	r2, r2, #27
	ldrb	r3, [r1, r2]
	b	.LBB77_58
.LBB77_47:
	mvns	r0, r5
	lsls	r0, r3
	ldr	r4, [r7, #96]
	ands	r4, r0
	beq	.LBB77_34
	ldr	r2, .LCPI77_2
	adr	r1, .LCPI77_3
	movs	r3, #32
	cmp	r4, #0
	mov	r0, r3
	beq	.LBB77_50
	rsbs	r0, r4, #0
	ands	r0, r4
	muls	r0, r2, r0
	lsrs	r0, r0, #27
	ldrb	r0, [r1, r0]
.LBB77_50:
	lsls	r4, r0, #2
	ldr	r5, [sp, #52]
	ldr	r4, [r5, r4]
	cmp	r4, #0
	bne	.LBB77_51
	b	.LBB77_76
.LBB77_51:
	cmp	r4, #0
	bne	.LBB77_52
	b	.LBB77_75
.LBB77_52:
	rsbs	r3, r4, #0
	ands	r3, r4
	muls	r2, r3, r2
	lsrs	r2, r2, #27
	ldrb	r3, [r1, r2]
	b	.LBB77_76
.LBB77_53:
	movs	r0, #2
.LBB77_54:
	bl	tlsf_c.call_fault.CallFault.refusal
	add	sp, #92
	pop	{r4, r5, r6, r7, pc}
.LBB77_55:
	movs	r2, #32
.LBB77_56:
	adds	r2, r1, r2
	adcs	r0, r6
	lsrs	r1, r2, #4
	lsls	r0, r0, #28
	adds	r1, r1, r0
	b	.LBB77_77
.LBB77_57:
	movs	r3, #32
.LBB77_58:
	lsls	r0, r0, #5
	adds	r2, r3, r0
	lsrs	r1, r2, #5
	ldr	r3, [sp, #84]
.LBB77_59:
	ldr	r0, [r5, #24]
	ldr	r4, [r5, #28]
	str	r0, [sp, #80]
	str	r4, [sp, #72]
	ands	r0, r4
	adds	r0, r0, #1
	bne	.LBB77_60
	b	.LBB77_80
.LBB77_60:
	mvns	r0, r3
	str	r0, [sp, #44]
	lsls	r3, r2, #2
	mov	r6, r5
	adds	r6, #184
	ldr	r0, [r6, r3]
	str	r0, [sp, #68]
	lsls	r4, r0, #3
	ldr	r0, [r5, #40]
	str	r4, [sp, #52]
	adds	r4, r0, r4
	ldr	r4, [r4, #16]
	adds	r7, r4, #1
	str	r6, [sp, #36]
	beq	.LBB77_62
	lsls	r1, r4, #3
	adds	r0, r0, r1
	ldr	r1, [sp, #44]
	str	r1, [r0, #20]
	str	r4, [r6, r3]
	ldr	r0, [r5, #40]
	b	.LBB77_64
.LBB77_62:
	ldr	r7, [sp, #64]
	mvns	r4, r7
	adds	r4, r4, #1
	str	r4, [r6, r3]
	ldr	r3, [sp, #48]
	ands	r2, r3
	mov	r3, r7
	lsls	r3, r2
	lsls	r2, r1, #2
	ldr	r5, [sp, #56]
	ldr	r4, [r5, r2]
	bics	r4, r3
	str	r4, [r5, r2]
	bne	.LBB77_64
	lsls	r7, r1
	ldr	r2, [sp, #88]
	ldr	r1, [r2, #96]
	bics	r1, r7
	str	r1, [r2, #96]
.LBB77_64:
	ldr	r3, [sp, #60]
	ldr	r5, [sp, #52]
	adds	r6, r0, r5
	ldr	r7, [r6, #4]
	ldr	r1, [r0, r5]
	lsls	r2, r3, #2
	subs	r4, r1, r2
	cmp	r4, #15
	bhi	.LBB77_66
	ldr	r2, [sp, #84]
	str	r2, [r6, #20]
	str	r2, [r6, #16]
	ldr	r0, [sp, #80]
	str	r0, [r6, #8]
	ldr	r0, [sp, #72]
	str	r0, [r6, #12]
	subs	r0, r1, #1
	str	r0, [r6]
	sbcs	r7, r2
	str	r7, [r6, #4]
	lsrs	r1, r0, #2
	ldr	r6, [sp, #88]
	ldr	r7, [sp, #76]
	b	.LBB77_72
.LBB77_66:
	lsrs	r2, r4, #2
	str	r2, [sp, #28]
	ldr	r2, [sp, #84]
	str	r2, [r6, #16]
	ldr	r5, [sp, #80]
	str	r5, [r6, #8]
	ldr	r2, [sp, #68]
	adds	r2, r2, r3
	str	r2, [sp, #64]
	lsls	r3, r2, #3
	adds	r2, r0, r3
	str	r2, [sp, #24]
	subs	r1, r1, r4
	str	r1, [r6]
	str	r3, [sp, #32]
	str	r4, [r0, r3]
	str	r5, [r2, #8]
	ldr	r5, [sp, #84]
	sbcs	r7, r5
	ldr	r3, [sp, #64]
	lsrs	r0, r3, #6
	lsls	r0, r0, #3
	str	r0, [sp, #16]
	ldr	r2, [sp, #88]
	ldr	r2, [r2, #64]
	str	r2, [sp, #20]
	ldr	r0, [r2, r0]
	str	r0, [sp, #12]
	movs	r2, #63
	ands	r2, r3
	movs	r0, #1
	str	r0, [sp, #4]
	mov	r1, r5
	bl	__aeabi_llsl
	str	r1, [sp, #8]
	ldr	r1, [sp, #12]
	orrs	r0, r1
	ldr	r3, [sp, #20]
	ldr	r1, [sp, #16]
	str	r0, [r3, r1]
	str	r5, [r6, #20]
	ldr	r0, [sp, #72]
	str	r0, [r6, #12]
	str	r7, [r6, #4]
	ldr	r6, [sp, #88]
	ldr	r5, [sp, #64]
	ldr	r2, [sp, #24]
	str	r0, [r2, #12]
	ldr	r0, [sp, #68]
	str	r0, [r2, #4]
	adds	r0, r3, r1
	ldr	r2, [r0, #4]
	ldr	r1, [sp, #8]
	orrs	r2, r1
	str	r2, [r0, #4]
	lsls	r0, r4, #30
	ldr	r4, [sp, #28]
	bmi	.LBB77_68
	adds	r0, r4, r5
	lsls	r0, r0, #3
	ldr	r1, [r6, #40]
	ldr	r2, [r1, r0]
	ldr	r3, [sp, #44]
	ands	r2, r3
	str	r2, [r1, r0]
	adds	r0, r1, r0
	str	r5, [r0, #4]
.LBB77_68:
	movs	r0, #32
	orrs	r0, r4
	bl	__clzsi2
	ldr	r1, [sp, #40]
	subs	r0, r1, r0
	lsrs	r4, r0
	lsls	r0, r0, #5
	adds	r0, r4, r0
	lsls	r2, r0, #2
	ldr	r3, [sp, #36]
	ldr	r1, [r3, r2]
	str	r5, [r3, r2]
	cmp	r1, #0
	ldr	r7, [sp, #76]
	bmi	.LBB77_70
	ldr	r0, [r6, #40]
	ldr	r2, [sp, #32]
	adds	r2, r0, r2
	str	r1, [r2, #16]
	ldr	r3, [sp, #44]
	str	r3, [r2, #20]
	lsls	r1, r1, #3
	adds	r0, r0, r1
	str	r5, [r0, #20]
	ldr	r1, [r0, #16]
	ands	r1, r3
	str	r1, [r0, #16]
	b	.LBB77_71
.LBB77_70:
	ldr	r1, [r6, #40]
	ldr	r2, [sp, #32]
	adds	r1, r1, r2
	ldr	r2, [sp, #44]
	str	r2, [r1, #16]
	str	r2, [r1, #20]
	ldr	r1, [sp, #48]
	ands	r4, r1
	ldr	r5, [sp, #4]
	mov	r1, r5
	lsls	r1, r4
	lsrs	r0, r0, #5
	lsls	r2, r0, #2
	ldr	r4, [sp, #56]
	ldr	r3, [r4, r2]
	orrs	r3, r1
	str	r3, [r4, r2]
	lsls	r5, r0
	ldr	r0, [r6, #96]
	orrs	r0, r5
	str	r0, [r6, #96]
.LBB77_71:
	ldr	r2, [sp, #84]
	ldr	r1, [sp, #60]
	ldr	r5, [sp, #52]
.LBB77_72:
	ldr	r0, [r6, #32]
	adds	r0, r0, r1
	str	r0, [r6, #32]
	ldr	r1, [r6, #36]
	cmp	r1, r0
	bhs	.LBB77_74
	str	r0, [r6, #36]
.LBB77_74:
	ldr	r0, [r6, #24]
	adds	r0, r0, #1
	str	r0, [r6, #24]
	ldr	r0, [r6, #28]
	adcs	r0, r2
	str	r0, [r6, #28]
	ldr	r0, [r6, #40]
	adds	r0, r0, r5
	ldr	r1, [r6, #16]
	str	r1, [sp, #88]
	str	r2, [r0, #24]
	str	r2, [r0, #28]
	ldr	r0, [r6, #40]
	adds	r0, r0, r5
	mov	r1, r2
	b	.LBB77_96
.LBB77_75:
	movs	r3, #32
.LBB77_76:
	lsls	r0, r0, #4
	adds	r2, r3, r0
	lsrs	r1, r2, #4
.LBB77_77:
	ldr	r5, [sp, #88]
	ldr	r0, [r5, #24]
	ldr	r3, [r5, #28]
	str	r0, [sp, #80]
	str	r3, [sp, #72]
	ands	r0, r3
	adds	r0, r0, #1
	beq	.LBB77_80
	str	r6, [sp, #60]
	mvns	r0, r6
	str	r0, [sp, #40]
	lsls	r3, r2, #2
	mov	r7, r5
	adds	r7, #184
	ldr	r0, [r7, r3]
	str	r0, [sp, #68]
	lsls	r4, r0, #3
	ldr	r0, [r5, #40]
	str	r4, [sp, #48]
	adds	r4, r0, r4
	ldr	r4, [r4, #16]
	adds	r6, r4, #1
	str	r7, [sp, #28]
	beq	.LBB77_81
	lsls	r1, r4, #3
	adds	r0, r0, r1
	ldr	r1, [sp, #40]
	str	r1, [r0, #20]
	str	r4, [r7, r3]
	ldr	r0, [r5, #40]
	b	.LBB77_83
.LBB77_80:
	movs	r0, #1
	strb	r0, [r5, #1]
	movs	r0, #2
	add	sp, #92
	pop	{r4, r5, r6, r7, pc}
.LBB77_81:
	ldr	r6, [sp, #64]
	mvns	r4, r6
	adds	r4, r4, #1
	str	r4, [r7, r3]
	ldr	r3, [sp, #44]
	ands	r2, r3
	mov	r3, r6
	lsls	r3, r2
	lsls	r2, r1, #2
	ldr	r5, [sp, #52]
	ldr	r4, [r5, r2]
	bics	r4, r3
	str	r4, [r5, r2]
	bne	.LBB77_83
	lsls	r6, r1
	ldr	r2, [sp, #88]
	ldr	r1, [r2, #96]
	bics	r1, r6
	str	r1, [r2, #96]
.LBB77_83:
	ldr	r3, [sp, #56]
	ldr	r5, [sp, #48]
	adds	r7, r0, r5
	ldr	r6, [r7, #4]
	ldr	r1, [r0, r5]
	lsls	r2, r3, #2
	subs	r4, r1, r2
	cmp	r4, #15
	bhi	.LBB77_87
	ldr	r2, [sp, #60]
	str	r2, [r7, #20]
	str	r2, [r7, #16]
	ldr	r0, [sp, #80]
	str	r0, [r7, #8]
	ldr	r0, [sp, #72]
	str	r0, [r7, #12]
	subs	r0, r1, #1
	str	r0, [r7]
	sbcs	r6, r2
	str	r6, [r7, #4]
	lsrs	r1, r0, #2
	ldr	r6, [sp, #88]
	ldr	r7, [sp, #76]
	b	.LBB77_93
	.p2align	2
.LCPI77_2:
	.long	125613361
	.p2align	2
.LCPI77_3:
	.ascii	"\000\001\034\002\035\016\030\003\036\026\024\017\031\021\004\b\037\033\r\027\025\023\020\007\032\f\022\006\013\005\n\t"
	.p2align	1
.LBB77_87:
	lsrs	r2, r4, #2
	str	r2, [sp, #24]
	ldr	r2, [sp, #60]
	str	r2, [r7, #16]
	ldr	r2, [sp, #80]
	str	r2, [r7, #8]
	ldr	r2, [sp, #68]
	adds	r5, r2, r3
	lsls	r3, r5, #3
	adds	r2, r0, r3
	str	r2, [sp, #20]
	subs	r1, r1, r4
	str	r1, [r7]
	str	r3, [sp, #64]
	str	r4, [r0, r3]
	ldr	r0, [sp, #80]
	str	r0, [r2, #8]
	ldr	r1, [sp, #60]
	sbcs	r6, r1
	lsrs	r0, r5, #6
	lsls	r0, r0, #3
	str	r0, [sp, #12]
	ldr	r2, [sp, #88]
	ldr	r2, [r2, #64]
	str	r2, [sp, #16]
	ldr	r0, [r2, r0]
	str	r0, [sp, #8]
	movs	r2, #63
	ands	r2, r5
	movs	r0, #1
	str	r0, [sp]
	bl	__aeabi_llsl
	str	r1, [sp, #4]
	ldr	r1, [sp, #8]
	orrs	r0, r1
	ldr	r3, [sp, #16]
	ldr	r1, [sp, #12]
	str	r0, [r3, r1]
	ldr	r0, [sp, #60]
	str	r0, [r7, #20]
	ldr	r0, [sp, #72]
	str	r0, [r7, #12]
	str	r6, [r7, #4]
	ldr	r6, [sp, #88]
	ldr	r2, [sp, #20]
	str	r0, [r2, #12]
	ldr	r0, [sp, #68]
	str	r0, [r2, #4]
	adds	r0, r3, r1
	ldr	r2, [r0, #4]
	ldr	r1, [sp, #4]
	orrs	r2, r1
	str	r2, [r0, #4]
	lsls	r0, r4, #30
	ldr	r4, [sp, #24]
	bmi	.LBB77_89
	adds	r0, r4, r5
	lsls	r0, r0, #3
	ldr	r1, [r6, #40]
	ldr	r2, [r1, r0]
	ldr	r3, [sp, #40]
	ands	r2, r3
	str	r2, [r1, r0]
	adds	r0, r1, r0
	str	r5, [r0, #4]
.LBB77_89:
	ldr	r0, [sp, #36]
	orrs	r0, r4
	bl	__clzsi2
	ldr	r1, [sp, #32]
	subs	r0, r1, r0
	lsrs	r4, r0
	lsls	r0, r0, #4
	adds	r0, r4, r0
	lsls	r2, r0, #2
	ldr	r3, [sp, #28]
	ldr	r1, [r3, r2]
	str	r5, [r3, r2]
	cmp	r1, #0
	ldr	r7, [sp, #76]
	bmi	.LBB77_91
	ldr	r0, [r6, #40]
	ldr	r2, [sp, #64]
	adds	r2, r0, r2
	str	r1, [r2, #16]
	ldr	r3, [sp, #40]
	str	r3, [r2, #20]
	lsls	r1, r1, #3
	adds	r0, r0, r1
	str	r5, [r0, #20]
	ldr	r1, [r0, #16]
	ands	r1, r3
	str	r1, [r0, #16]
	b	.LBB77_92
.LBB77_91:
	ldr	r1, [r6, #40]
	ldr	r2, [sp, #64]
	adds	r1, r1, r2
	ldr	r2, [sp, #40]
	str	r2, [r1, #16]
	str	r2, [r1, #20]
	ldr	r1, [sp, #44]
	ands	r4, r1
	ldr	r5, [sp]
	mov	r1, r5
	lsls	r1, r4
	lsrs	r0, r0, #4
	lsls	r2, r0, #2
	ldr	r4, [sp, #52]
	ldr	r3, [r4, r2]
	orrs	r3, r1
	str	r3, [r4, r2]
	lsls	r5, r0
	ldr	r0, [r6, #96]
	orrs	r0, r5
	str	r0, [r6, #96]
.LBB77_92:
	ldr	r1, [sp, #56]
	ldr	r5, [sp, #48]
.LBB77_93:
	ldr	r0, [r6, #32]
	adds	r0, r0, r1
	str	r0, [r6, #32]
	ldr	r1, [r6, #36]
	cmp	r1, r0
	bhs	.LBB77_95
	str	r0, [r6, #36]
.LBB77_95:
	ldr	r0, [r6, #24]
	adds	r0, r0, #1
	str	r0, [r6, #24]
	ldr	r0, [r6, #28]
	ldr	r1, [sp, #60]
	adcs	r0, r1
	str	r0, [r6, #28]
	ldr	r0, [r6, #40]
	adds	r0, r0, r5
	ldr	r2, [r6, #16]
	str	r2, [sp, #88]
	str	r1, [r0, #24]
	str	r1, [r0, #28]
	ldr	r0, [r6, #40]
	adds	r0, r0, r5
	ldr	r1, [sp, #84]
.LBB77_96:
	ldr	r4, [sp, #112]
	adds	r2, r6, r7
	ldr	r0, [r0]
	str	r0, [sp, #76]
	movs	r0, #1
	strb	r0, [r6, #1]
	ldr	r0, [r2]
	str	r0, [sp, #64]
	ldr	r5, [sp, #68]
	mov	r2, r5
	mov	r3, r1
	bl	__aeabi_lmul
	mov	r6, r0
	mov	r7, r1
	strb	r1, [r4, #20]
	strb	r0, [r4, #16]
	ldr	r1, [sp, #72]
	lsrs	r0, r1, #24
	strb	r0, [r4, #15]
	lsrs	r0, r1, #16
	strb	r0, [r4, #14]
	lsrs	r0, r1, #8
	strb	r0, [r4, #13]
	strb	r1, [r4, #12]
	ldr	r1, [sp, #80]
	lsrs	r0, r1, #24
	strb	r0, [r4, #11]
	lsrs	r0, r1, #16
	strb	r0, [r4, #10]
	lsrs	r0, r1, #8
	strb	r0, [r4, #9]
	strb	r1, [r4, #8]
	lsrs	r0, r5, #24
	strb	r0, [r4, #7]
	lsrs	r0, r5, #16
	strb	r0, [r4, #6]
	lsrs	r0, r5, #8
	strb	r0, [r4, #5]
	strb	r5, [r4, #4]
	ldr	r1, [sp, #88]
	lsrs	r0, r1, #24
	strb	r0, [r4, #3]
	lsrs	r0, r1, #16
	strb	r0, [r4, #2]
	lsrs	r0, r1, #8
	strb	r0, [r4, #1]
	strb	r1, [r4]
	ldr	r0, [sp, #76]
	lsrs	r0, r0, #2
	ldr	r1, [sp, #84]
	ldr	r2, [sp, #64]
	mov	r3, r1
	mov	r5, r1
	bl	__aeabi_lmul
	strb	r1, [r4, #28]
	strb	r0, [r4, #24]
	lsrs	r2, r7, #24
	strb	r2, [r4, #23]
	lsrs	r2, r7, #16
	strb	r2, [r4, #22]
	lsrs	r2, r7, #8
	strb	r2, [r4, #21]
	lsrs	r2, r6, #24
	strb	r2, [r4, #19]
	lsrs	r2, r6, #16
	strb	r2, [r4, #18]
	lsrs	r2, r6, #8
	strb	r2, [r4, #17]
	lsrs	r2, r1, #24
	strb	r2, [r4, #31]
	lsrs	r2, r1, #16
	strb	r2, [r4, #30]
	lsrs	r1, r1, #8
	strb	r1, [r4, #29]
	lsrs	r1, r0, #24
	strb	r1, [r4, #27]
	lsrs	r1, r0, #16
	strb	r1, [r4, #26]
	lsrs	r0, r0, #8
	strb	r0, [r4, #25]
	mov	r0, r5
	add	sp, #92
	pop	{r4, r5, r6, r7, pc}
.LBB77_97:
	.inst.n	0xdefe
.Lfunc_end77:
	.size	tlsf_offsets_allocate, .Lfunc_end77-tlsf_offsets_allocate
	.cfi_endproc
	.section	.text.tlsf_offsets_close,"ax",%progbits
	.globl	tlsf_offsets_close
	.p2align	1
	.type	tlsf_offsets_close,%function
	.code	16
	.thumb_func
tlsf_offsets_close:
	.cfi_startproc
	push	{r7, lr}
	.cfi_def_cfa_offset 8
	.cfi_offset lr, -4
	.cfi_offset r7, -8
	mov	r1, r0
	ldrb	r2, [r0, #8]
	movs	r0, #32
	cmp	r2, #0
	beq	.LBB78_5
	ldr	r2, [r1]
	ldrb	r3, [r2, #1]
	cmp	r3, #1
	bne	.LBB78_5
	ldrb	r0, [r2]
	cmp	r0, #0
	beq	.LBB78_4
	movs	r0, #40
	pop	{r7, pc}
.LBB78_4:
	mov	r0, r1
	bl	tlsf_c.arena_slot.ArenaSlot.close
	movs	r0, #0
.LBB78_5:
	pop	{r7, pc}
.Lfunc_end78:
	.size	tlsf_offsets_close, .Lfunc_end78-tlsf_offsets_close
	.cfi_endproc
	.section	.text.tlsf_offsets_open,"ax",%progbits
	.globl	tlsf_offsets_open
	.p2align	2
	.type	tlsf_offsets_open,%function
	.code	16
	.thumb_func
tlsf_offsets_open:
	.cfi_startproc
	push	{r4, r5, r6, r7, lr}
	.cfi_def_cfa_offset 20
	.cfi_offset lr, -4
	.cfi_offset r7, -8
	.cfi_offset r6, -12
	.cfi_offset r5, -16
	.cfi_offset r4, -20
	sub	sp, #52
	.cfi_def_cfa_offset 72
	ldrb	r4, [r0, #8]
	cmp	r4, #0
	beq	.LBB79_2
	movs	r0, #33
	add	sp, #52
	pop	{r4, r5, r6, r7, pc}
.LBB79_2:
	movs	r7, #1
	mvns	r4, r7
	subs	r5, r1, #6
	cmp	r5, r4
	bhs	.LBB79_4
	movs	r0, #34
	add	sp, #52
	pop	{r4, r5, r6, r7, pc}
.LBB79_4:
	mov	r4, r0
	ldr	r6, [sp, #72]
	movs	r0, #5
	cmp	r1, #4
	beq	.LBB79_5
	b	.LBB79_13
.LBB79_5:
	cmp	r3, #0
	bne	.LBB79_6
	b	.LBB79_20
.LBB79_6:
	ldr	r1, .LCPI79_3
	adds	r5, r6, r1
	subs	r5, r5, #4
	cmp	r5, r1
	bhs	.LBB79_7
	b	.LBB79_20
.LBB79_7:
	add	r0, sp, #20
	stm	r0!, {r2, r3, r4}
	lsls	r1, r6, #3
	add	r0, sp, #32
	movs	r2, #8
	bl	tlsf_memory_alloc
	ldr	r1, [sp, #32]
	movs	r0, #6
	lsls	r1, r1, #31
	bne	.LBB79_8
	b	.LBB79_20
.LBB79_8:
	mov	r4, r0
	mov	r0, r6
	ldr	r6, [sp, #40]
	movs	r5, #0
	str	r5, [r6]
	str	r5, [r6, #4]
	str	r5, [r6, #8]
	str	r5, [r6, #12]
	str	r5, [r6, #16]
	str	r5, [r6, #20]
	str	r5, [r6, #24]
	str	r5, [r6, #28]
	str	r0, [sp, #16]
	adds	r0, #63
	lsrs	r0, r0, #6
	str	r0, [sp, #8]
	lsls	r1, r0, #3
	add	r0, sp, #32
	movs	r2, #8
	bl	tlsf_memory_alloc
	ldr	r0, [sp, #32]
	lsls	r0, r0, #31
	bne	.LBB79_9
	b	.LBB79_21
.LBB79_9:
	ldr	r1, [sp, #40]
	str	r5, [r1]
	str	r5, [r6, #8]
	movs	r0, #19
	str	r0, [r6]
	str	r5, [r1, #4]
	ldr	r0, [r1]
	orrs	r0, r7
	str	r1, [sp, #12]
	str	r0, [r1]
	mvns	r0, r5
	str	r0, [r6, #4]
	str	r5, [r6, #12]
	str	r0, [r6, #16]
	str	r0, [r6, #20]
	add	r0, sp, #32
	ldr	r1, .LCPI79_4
	movs	r2, #8
	bl	tlsf_memory_alloc
	ldr	r0, [sp, #32]
	lsls	r0, r0, #31
	bne	.LBB79_10
	b	.LBB79_22
.LBB79_10:
	ldr	r4, [sp, #40]
	movs	r0, #84
	strb	r5, [r4, r0]
	movs	r0, #80
	str	r0, [sp, #4]
	ldr	r2, [sp, #8]
	strb	r2, [r4, r0]
	movs	r0, #76
	strb	r5, [r4, r0]
	movs	r0, #72
	strb	r7, [r4, r0]
	movs	r0, #60
	strb	r5, [r4, r0]
	movs	r0, #56
	ldr	r1, [sp, #16]
	strb	r1, [r4, r0]
	movs	r0, #52
	strb	r5, [r4, r0]
	movs	r0, #48
	movs	r1, #4
	strb	r1, [r4, r0]
	movs	r0, #100
	movs	r3, #16
	str	r3, [sp]
	strb	r3, [r4, r0]
	movs	r0, #96
	strb	r7, [r4, r0]
	movs	r0, #92
	strb	r5, [r4, r0]
	movs	r0, #88
	strb	r1, [r4, r0]
	movs	r0, #68
	strb	r5, [r4, r0]
	movs	r0, #64
	ldr	r1, [sp, #12]
	strb	r1, [r4, r0]
	movs	r0, #44
	strb	r5, [r4, r0]
	movs	r0, #40
	strb	r6, [r4, r0]
	movs	r0, #36
	strb	r5, [r4, r0]
	movs	r0, #32
	strb	r5, [r4, r0]
	strb	r5, [r4, #31]
	strb	r5, [r4, #30]
	strb	r5, [r4, #29]
	strb	r5, [r4, #28]
	strb	r5, [r4, #27]
	strb	r5, [r4, #26]
	strb	r5, [r4, #25]
	strb	r7, [r4, #24]
	strb	r5, [r4, #15]
	strb	r5, [r4, #14]
	strb	r5, [r4, #13]
	strb	r5, [r4, #12]
	strb	r5, [r4, #11]
	strb	r5, [r4, #10]
	strb	r5, [r4, #9]
	strb	r5, [r4, #8]
	ldr	r0, [sp, #20]
	strb	r0, [r4, #16]
	strb	r7, [r4, #1]
	strb	r5, [r4]
	mov	r1, r4
	adds	r1, #84
	strb	r5, [r1, #3]
	strb	r5, [r1, #2]
	strb	r5, [r1, #1]
	mov	r1, r4
	adds	r1, #80
	lsrs	r3, r2, #24
	strb	r3, [r1, #3]
	lsrs	r3, r2, #16
	strb	r3, [r1, #2]
	lsrs	r3, r2, #8
	strb	r3, [r1, #1]
	mov	r1, r4
	adds	r1, #76
	strb	r5, [r1, #3]
	strb	r5, [r1, #2]
	strb	r5, [r1, #1]
	mov	r1, r4
	adds	r1, #72
	strb	r5, [r1, #3]
	strb	r5, [r1, #2]
	strb	r5, [r1, #1]
	mov	r1, r4
	adds	r1, #60
	strb	r5, [r1, #3]
	strb	r5, [r1, #2]
	strb	r5, [r1, #1]
	mov	r1, r4
	adds	r1, #56
	ldr	r2, [sp, #16]
	lsrs	r3, r2, #24
	strb	r3, [r1, #3]
	lsrs	r3, r2, #16
	strb	r3, [r1, #2]
	lsrs	r3, r2, #8
	strb	r3, [r1, #1]
	mov	r1, r4
	adds	r1, #52
	strb	r5, [r1, #3]
	strb	r5, [r1, #2]
	strb	r5, [r1, #1]
	mov	r1, r4
	adds	r1, #48
	strb	r5, [r1, #3]
	strb	r5, [r1, #2]
	strb	r5, [r1, #1]
	mov	r1, r4
	adds	r1, #100
	strb	r5, [r1, #3]
	strb	r5, [r1, #2]
	strb	r5, [r1, #1]
	mov	r1, r4
	adds	r1, #96
	strb	r5, [r1, #3]
	strb	r5, [r1, #2]
	strb	r5, [r1, #1]
	mov	r1, r4
	adds	r1, #92
	strb	r5, [r1, #3]
	strb	r5, [r1, #2]
	strb	r5, [r1, #1]
	mov	r1, r4
	adds	r1, #88
	strb	r5, [r1, #3]
	strb	r5, [r1, #2]
	strb	r5, [r1, #1]
	mov	r1, r4
	adds	r1, #68
	strb	r5, [r1, #3]
	strb	r5, [r1, #2]
	strb	r5, [r1, #1]
	mov	r1, r4
	adds	r1, #64
	ldr	r2, [sp, #12]
	lsrs	r3, r2, #24
	strb	r3, [r1, #3]
	lsrs	r3, r2, #16
	strb	r3, [r1, #2]
	lsrs	r3, r2, #8
	strb	r3, [r1, #1]
	mov	r1, r4
	adds	r1, #44
	strb	r5, [r1, #3]
	strb	r5, [r1, #2]
	strb	r5, [r1, #1]
	mov	r1, r4
	adds	r1, #40
	lsrs	r3, r6, #24
	strb	r3, [r1, #3]
	lsrs	r3, r6, #16
	strb	r3, [r1, #2]
	lsrs	r3, r6, #8
	strb	r3, [r1, #1]
	mov	r1, r4
	adds	r1, #36
	strb	r5, [r1, #3]
	strb	r5, [r1, #2]
	strb	r5, [r1, #1]
	mov	r1, r4
	adds	r1, #32
	strb	r5, [r1, #3]
	strb	r5, [r1, #2]
	strb	r5, [r1, #1]
	lsrs	r1, r0, #24
	strb	r1, [r4, #19]
	lsrs	r1, r0, #16
	strb	r1, [r4, #18]
	lsrs	r0, r0, #8
	strb	r0, [r4, #17]
	mov	r0, r4
	adds	r0, #104
	mov	r1, r5
	ldr	r2, [sp, #4]
	bl	tlsf_memory_set
	mov	r0, r4
	adds	r0, #184
	movs	r6, #255
	mov	r1, r6
	ldr	r2, [sp]
	bl	tlsf_memory_set
	movs	r0, #200
	strb	r5, [r4, r0]
	mov	r0, r4
	adds	r0, #200
	strb	r5, [r0, #3]
	strb	r5, [r0, #2]
	strb	r5, [r0, #1]
	mov	r0, r4
	adds	r0, #204
	movs	r1, #159
	lsls	r2, r1, #4
	mov	r1, r6
	bl	tlsf_memory_set
	movs	r0, #43
	lsls	r0, r0, #6
	ldr	r1, [sp, #24]
	strb	r1, [r4, r0]
	adds	r0, r4, r0
	lsrs	r2, r1, #24
	strb	r2, [r0, #3]
	lsrs	r2, r1, #16
	strb	r2, [r0, #2]
	lsrs	r1, r1, #8
	strb	r1, [r0, #1]
	mov	r0, r4
	adds	r0, #16
	ldr	r1, [sp, #16]
	bl	tlsf_heap.heap.Heap.begin.4
	b	.LBB79_19
	.p2align	2
.LCPI79_3:
	.long	4293918723
	.p2align	2
.LCPI79_4:
	.long	2760
	.p2align	1
.LBB79_13:
	cmp	r3, #0
	bne	.LBB79_14
	b	.LBB79_20
.LBB79_14:
	ldr	r1, .LCPI79_0
	adds	r5, r6, r1
	subs	r5, r5, #4
	cmp	r5, r1
	bhs	.LBB79_15
	b	.LBB79_20
.LBB79_15:
	add	r0, sp, #20
	stm	r0!, {r2, r3, r4}
	lsls	r1, r6, #3
	add	r0, sp, #32
	movs	r2, #8
	bl	tlsf_memory_alloc
	ldr	r1, [sp, #32]
	movs	r0, #6
	lsls	r1, r1, #31
	bne	.LBB79_16
	b	.LBB79_20
.LBB79_16:
	mov	r4, r0
	mov	r0, r6
	ldr	r6, [sp, #40]
	movs	r5, #0
	str	r5, [r6]
	str	r5, [r6, #4]
	str	r5, [r6, #8]
	str	r5, [r6, #12]
	str	r5, [r6, #16]
	str	r5, [r6, #20]
	str	r5, [r6, #24]
	str	r5, [r6, #28]
	str	r0, [sp, #16]
	adds	r0, #63
	lsrs	r0, r0, #6
	str	r0, [sp, #8]
	lsls	r1, r0, #3
	add	r0, sp, #32
	movs	r2, #8
	bl	tlsf_memory_alloc
	ldr	r0, [sp, #32]
	lsls	r0, r0, #31
	bne	.LBB79_17
	b	.LBB79_21
.LBB79_17:
	ldr	r1, [sp, #40]
	str	r5, [r1]
	str	r5, [r6, #8]
	movs	r0, #19
	str	r0, [r6]
	str	r5, [r1, #4]
	ldr	r0, [r1]
	orrs	r0, r7
	str	r1, [sp, #12]
	str	r0, [r1]
	mvns	r0, r5
	str	r0, [r6, #4]
	str	r5, [r6, #12]
	str	r0, [r6, #16]
	str	r0, [r6, #20]
	add	r0, sp, #32
	ldr	r1, .LCPI79_1
	movs	r2, #8
	bl	tlsf_memory_alloc
	ldr	r0, [sp, #32]
	lsls	r0, r0, #31
	bne	.LBB79_18
	b	.LBB79_22
.LBB79_18:
	ldr	r4, [sp, #40]
	movs	r0, #84
	strb	r5, [r4, r0]
	movs	r0, #80
	str	r0, [sp, #4]
	ldr	r2, [sp, #8]
	strb	r2, [r4, r0]
	movs	r0, #76
	strb	r5, [r4, r0]
	movs	r0, #72
	strb	r7, [r4, r0]
	movs	r0, #60
	strb	r5, [r4, r0]
	movs	r0, #56
	ldr	r1, [sp, #16]
	strb	r1, [r4, r0]
	movs	r0, #52
	strb	r5, [r4, r0]
	movs	r0, #48
	movs	r1, #4
	strb	r1, [r4, r0]
	movs	r0, #100
	movs	r3, #16
	str	r3, [sp]
	strb	r3, [r4, r0]
	movs	r0, #96
	strb	r7, [r4, r0]
	movs	r0, #92
	strb	r5, [r4, r0]
	movs	r0, #88
	strb	r1, [r4, r0]
	movs	r0, #68
	strb	r5, [r4, r0]
	movs	r0, #64
	ldr	r1, [sp, #12]
	strb	r1, [r4, r0]
	movs	r0, #44
	strb	r5, [r4, r0]
	movs	r0, #40
	strb	r6, [r4, r0]
	movs	r0, #36
	strb	r5, [r4, r0]
	movs	r0, #32
	strb	r5, [r4, r0]
	strb	r5, [r4, #31]
	strb	r5, [r4, #30]
	strb	r5, [r4, #29]
	strb	r5, [r4, #28]
	strb	r5, [r4, #27]
	strb	r5, [r4, #26]
	strb	r5, [r4, #25]
	strb	r7, [r4, #24]
	strb	r5, [r4, #15]
	strb	r5, [r4, #14]
	strb	r5, [r4, #13]
	strb	r5, [r4, #12]
	strb	r5, [r4, #11]
	strb	r5, [r4, #10]
	strb	r5, [r4, #9]
	strb	r7, [r4, #8]
	ldr	r0, [sp, #20]
	strb	r0, [r4, #16]
	strb	r7, [r4, #1]
	strb	r5, [r4]
	mov	r1, r4
	adds	r1, #84
	strb	r5, [r1, #3]
	strb	r5, [r1, #2]
	strb	r5, [r1, #1]
	mov	r1, r4
	adds	r1, #80
	lsrs	r3, r2, #24
	strb	r3, [r1, #3]
	lsrs	r3, r2, #16
	strb	r3, [r1, #2]
	lsrs	r3, r2, #8
	strb	r3, [r1, #1]
	mov	r1, r4
	adds	r1, #76
	strb	r5, [r1, #3]
	strb	r5, [r1, #2]
	strb	r5, [r1, #1]
	mov	r1, r4
	adds	r1, #72
	strb	r5, [r1, #3]
	strb	r5, [r1, #2]
	strb	r5, [r1, #1]
	mov	r1, r4
	adds	r1, #60
	strb	r5, [r1, #3]
	strb	r5, [r1, #2]
	strb	r5, [r1, #1]
	mov	r1, r4
	adds	r1, #56
	ldr	r2, [sp, #16]
	lsrs	r3, r2, #24
	strb	r3, [r1, #3]
	lsrs	r3, r2, #16
	strb	r3, [r1, #2]
	lsrs	r3, r2, #8
	strb	r3, [r1, #1]
	mov	r1, r4
	adds	r1, #52
	strb	r5, [r1, #3]
	strb	r5, [r1, #2]
	strb	r5, [r1, #1]
	mov	r1, r4
	adds	r1, #48
	strb	r5, [r1, #3]
	strb	r5, [r1, #2]
	strb	r5, [r1, #1]
	mov	r1, r4
	adds	r1, #100
	strb	r5, [r1, #3]
	strb	r5, [r1, #2]
	strb	r5, [r1, #1]
	mov	r1, r4
	adds	r1, #96
	strb	r5, [r1, #3]
	strb	r5, [r1, #2]
	strb	r5, [r1, #1]
	mov	r1, r4
	adds	r1, #92
	strb	r5, [r1, #3]
	strb	r5, [r1, #2]
	strb	r5, [r1, #1]
	mov	r1, r4
	adds	r1, #88
	strb	r5, [r1, #3]
	strb	r5, [r1, #2]
	strb	r5, [r1, #1]
	mov	r1, r4
	adds	r1, #68
	strb	r5, [r1, #3]
	strb	r5, [r1, #2]
	strb	r5, [r1, #1]
	mov	r1, r4
	adds	r1, #64
	ldr	r2, [sp, #12]
	lsrs	r3, r2, #24
	strb	r3, [r1, #3]
	lsrs	r3, r2, #16
	strb	r3, [r1, #2]
	lsrs	r3, r2, #8
	strb	r3, [r1, #1]
	mov	r1, r4
	adds	r1, #44
	strb	r5, [r1, #3]
	strb	r5, [r1, #2]
	strb	r5, [r1, #1]
	mov	r1, r4
	adds	r1, #40
	lsrs	r3, r6, #24
	strb	r3, [r1, #3]
	lsrs	r3, r6, #16
	strb	r3, [r1, #2]
	lsrs	r3, r6, #8
	strb	r3, [r1, #1]
	mov	r1, r4
	adds	r1, #36
	strb	r5, [r1, #3]
	strb	r5, [r1, #2]
	strb	r5, [r1, #1]
	mov	r1, r4
	adds	r1, #32
	strb	r5, [r1, #3]
	strb	r5, [r1, #2]
	strb	r5, [r1, #1]
	lsrs	r1, r0, #24
	strb	r1, [r4, #19]
	lsrs	r1, r0, #16
	strb	r1, [r4, #18]
	lsrs	r0, r0, #8
	strb	r0, [r4, #17]
	mov	r0, r4
	adds	r0, #104
	mov	r1, r5
	ldr	r2, [sp, #4]
	bl	tlsf_memory_set
	mov	r0, r4
	adds	r0, #184
	movs	r6, #255
	mov	r1, r6
	ldr	r2, [sp]
	bl	tlsf_memory_set
	movs	r0, #200
	strb	r5, [r4, r0]
	mov	r0, r4
	adds	r0, #200
	strb	r5, [r0, #3]
	strb	r5, [r0, #2]
	strb	r5, [r0, #1]
	mov	r0, r4
	adds	r0, #204
	movs	r1, #159
	lsls	r2, r1, #4
	mov	r1, r6
	bl	tlsf_memory_set
	movs	r0, #43
	lsls	r0, r0, #6
	ldr	r1, [sp, #24]
	strb	r1, [r4, r0]
	adds	r0, r4, r0
	lsrs	r2, r1, #24
	strb	r2, [r0, #3]
	lsrs	r2, r1, #16
	strb	r2, [r0, #2]
	lsrs	r1, r1, #8
	strb	r1, [r0, #1]
	mov	r0, r4
	adds	r0, #16
	ldr	r1, [sp, #16]
	bl	tlsf_heap.heap.Heap.begin.5
.LBB79_19:
	movs	r0, #0
	ldr	r1, [sp, #28]
	strb	r0, [r1, #7]
	strb	r0, [r1, #6]
	strb	r0, [r1, #5]
	strb	r0, [r1, #4]
	strb	r4, [r1]
	strb	r0, [r1, #9]
	strb	r7, [r1, #8]
	strb	r0, [r1, #10]
	strb	r0, [r1, #11]
	strb	r0, [r1, #12]
	strb	r0, [r1, #13]
	strb	r0, [r1, #14]
	strb	r0, [r1, #15]
	lsrs	r2, r4, #24
	strb	r2, [r1, #3]
	lsrs	r2, r4, #16
	strb	r2, [r1, #2]
	lsrs	r2, r4, #8
	strb	r2, [r1, #1]
.LBB79_20:
	add	sp, #52
	pop	{r4, r5, r6, r7, pc}
.LBB79_21:
	mov	r0, r6
	b	.LBB79_23
.LBB79_22:
	mov	r0, r6
	bl	tlsf_memory_dealloc
	ldr	r0, [sp, #12]
.LBB79_23:
	bl	tlsf_memory_dealloc
	mov	r0, r4
	add	sp, #52
	pop	{r4, r5, r6, r7, pc}
	.p2align	2
.LCPI79_0:
	.long	4278190083
.LCPI79_1:
	.long	2760
.Lfunc_end79:
	.size	tlsf_offsets_open, .Lfunc_end79-tlsf_offsets_open
	.cfi_endproc
	.section	.text.tlsf_offsets_release,"ax",%progbits
	.globl	tlsf_offsets_release
	.p2align	1
	.type	tlsf_offsets_release,%function
	.code	16
	.thumb_func
tlsf_offsets_release:
	.cfi_startproc
	push	{r4, r5, r6, r7, lr}
	.cfi_def_cfa_offset 20
	.cfi_offset lr, -4
	.cfi_offset r7, -8
	.cfi_offset r6, -12
	.cfi_offset r5, -16
	.cfi_offset r4, -20
	sub	sp, #76
	.cfi_def_cfa_offset 96
	ldrb	r1, [r0, #8]
	cmp	r1, #0
	bne	.LBB80_1
	b	.LBB80_33
.LBB80_1:
	ldr	r7, [r0]
	ldrb	r0, [r7, #1]
	cmp	r0, #0
	bne	.LBB80_2
	b	.LBB80_33
.LBB80_2:
	ldrb	r0, [r7]
	cmp	r0, #0
	beq	.LBB80_3
	b	.LBB80_37
.LBB80_3:
	mov	r5, r2
	str	r3, [sp, #72]
	ldr	r0, [sp, #100]
	str	r0, [sp, #64]
	ldr	r0, [sp, #96]
	str	r0, [sp, #68]
	movs	r6, #0
	strb	r6, [r7, #1]
	ldr	r1, [r7, #16]
	ldrb	r0, [r7, #8]
	cmp	r0, #0
	bne	.LBB80_4
	b	.LBB80_17
.LBB80_4:
	cmp	r1, r5
	beq	.LBB80_5
	b	.LBB80_31
.LBB80_5:
	ldr	r0, [r7, #48]
	ldr	r1, [sp, #72]
	cmp	r1, r0
	mov	r1, r5
	blo	.LBB80_6
	b	.LBB80_31
.LBB80_6:
	movs	r2, #63
	ldr	r0, [sp, #72]
	ands	r2, r0
	ldr	r1, [r7, #64]
	lsrs	r0, r0, #6
	lsls	r3, r0, #3
	ldr	r0, [r1, r3]
	adds	r1, r1, r3
	ldr	r1, [r1, #4]
	bl	__aeabi_llsr
	lsls	r0, r0, #31
	mov	r1, r5
	bne	.LBB80_7
	b	.LBB80_31
.LBB80_7:
	mov	r1, r7
	adds	r1, #40
	ldr	r0, [sp, #72]
	lsls	r0, r0, #3
	str	r1, [sp, #52]
	ldr	r3, [r1]
	ldr	r1, [r3, r0]
	str	r1, [sp, #56]
	lsls	r1, r1, #31
	mov	r1, r5
	beq	.LBB80_8
	b	.LBB80_31
.LBB80_8:
	adds	r2, r3, r0
	ldr	r1, [r2, #8]
	str	r2, [sp, #60]
	ldr	r2, [r2, #12]
	ldr	r4, [sp, #64]
	eors	r2, r4
	str	r0, [sp, #64]
	mov	r0, r6
	ldr	r6, [sp, #68]
	eors	r1, r6
	orrs	r1, r2
	mov	r1, r5
	beq	.LBB80_9
	b	.LBB80_31
.LBB80_9:
	mov	r6, r0
	ldr	r5, [r7, #24]
	ldr	r0, [r7, #28]
	mov	r2, r5
	ands	r2, r0
	adds	r2, r2, #1
	bne	.LBB80_10
	b	.LBB80_30
.LBB80_10:
	str	r0, [sp, #48]
	ldr	r0, [sp, #60]
	ldr	r0, [r0, #4]
	str	r0, [sp, #68]
	ldr	r0, [sp, #56]
	lsrs	r4, r0, #2
	ldr	r2, [r7, #32]
	subs	r2, r2, r4
	str	r2, [r7, #32]
	lsls	r2, r0, #30
	mov	r1, r6
	str	r6, [sp, #40]
	bmi	.LBB80_12
	ldr	r1, [sp, #72]
	adds	r2, r4, r1
	lsls	r2, r2, #3
	ldr	r6, [r3, r2]
	adds	r2, r3, r2
	ldr	r1, [r2, #4]
.LBB80_12:
	str	r1, [sp, #44]
	ldr	r1, [sp, #72]
	cmp	r1, #0
	beq	.LBB80_14
	ldr	r1, [sp, #68]
	lsls	r2, r1, #3
	ldr	r1, [r3, r2]
	str	r1, [sp, #36]
	lsls	r1, r1, #31
	beq	.LBB80_14
	b	.LBB80_36
.LBB80_14:
	lsls	r1, r6, #31
	beq	.LBB80_15
	b	.LBB80_35
.LBB80_15:
	movs	r1, #1
	str	r1, [sp, #44]
	orrs	r0, r1
	ldr	r1, [sp, #60]
	str	r0, [r1]
	ldr	r0, [sp, #68]
	str	r0, [r1, #4]
	str	r5, [r1, #8]
	ldr	r0, [sp, #48]
	str	r0, [r1, #12]
	ldr	r0, [r7, #24]
	movs	r6, #0
	adds	r0, r0, #1
	str	r0, [r7, #24]
	ldr	r0, [r7, #28]
	adcs	r0, r6
	str	r0, [r7, #28]
	movs	r0, #32
	orrs	r0, r4
	bl	__clzsi2
	movs	r1, #26
	subs	r0, r1, r0
	lsrs	r4, r0
	lsls	r0, r0, #5
	adds	r0, r4, r0
	lsls	r1, r0, #2
	adds	r2, r7, r1
	movs	r3, #184
	ldr	r1, [r2, r3]
	ldr	r5, [sp, #72]
	str	r5, [r2, r3]
	cmp	r1, #0
	bpl	.LBB80_16
	b	.LBB80_41
.LBB80_16:
	ldr	r0, [sp, #52]
	ldr	r0, [r0]
	ldr	r2, [sp, #64]
	adds	r2, r0, r2
	mvns	r3, r6
	str	r1, [r2, #16]
	str	r3, [r2, #20]
	lsls	r1, r1, #3
	adds	r0, r0, r1
	str	r5, [r0, #20]
	b	.LBB80_44
.LBB80_17:
	cmp	r1, r5
	beq	.LBB80_18
	b	.LBB80_31
.LBB80_18:
	ldr	r0, [r7, #48]
	ldr	r1, [sp, #72]
	cmp	r1, r0
	mov	r1, r5
	bhs	.LBB80_31
	movs	r2, #63
	ldr	r0, [sp, #72]
	ands	r2, r0
	ldr	r1, [r7, #64]
	lsrs	r0, r0, #6
	lsls	r3, r0, #3
	ldr	r0, [r1, r3]
	adds	r1, r1, r3
	ldr	r1, [r1, #4]
	bl	__aeabi_llsr
	lsls	r0, r0, #31
	mov	r1, r5
	beq	.LBB80_31
	mov	r3, r7
	adds	r3, #40
	ldr	r0, [sp, #72]
	lsls	r2, r0, #3
	ldr	r4, [r3]
	ldr	r0, [r4, r2]
	str	r0, [sp, #60]
	lsls	r1, r0, #31
	mov	r1, r5
	bne	.LBB80_31
	adds	r6, r4, r2
	ldr	r1, [r6, #8]
	str	r2, [sp, #56]
	ldr	r2, [r6, #12]
	ldr	r0, [sp, #64]
	eors	r2, r0
	ldr	r0, [sp, #68]
	eors	r1, r0
	orrs	r1, r2
	mov	r1, r5
	bne	.LBB80_31
	ldr	r5, [r7, #24]
	ldr	r0, [r7, #28]
	mov	r2, r5
	ands	r2, r0
	adds	r2, r2, #1
	beq	.LBB80_30
	str	r0, [sp, #52]
	str	r3, [sp, #48]
	ldr	r0, [r6, #4]
	str	r0, [sp, #68]
	movs	r0, #0
	ldr	r3, [sp, #60]
	lsrs	r1, r3, #2
	ldr	r2, [r7, #32]
	str	r1, [sp, #44]
	subs	r2, r2, r1
	str	r2, [r7, #32]
	lsls	r2, r3, #30
	str	r0, [sp, #64]
	str	r0, [sp, #36]
	ldr	r3, [sp, #72]
	bmi	.LBB80_25
	ldr	r0, [sp, #44]
	adds	r2, r0, r3
	lsls	r2, r2, #3
	ldr	r0, [r4, r2]
	str	r0, [sp, #64]
	adds	r2, r4, r2
	ldr	r0, [r2, #4]
.LBB80_25:
	str	r0, [sp, #40]
	cmp	r3, #0
	ldr	r1, [sp, #52]
	beq	.LBB80_27
	ldr	r0, [sp, #68]
	lsls	r3, r0, #3
	ldr	r0, [r4, r3]
	lsls	r2, r0, #31
	beq	.LBB80_27
	b	.LBB80_40
.LBB80_27:
	ldr	r2, [sp, #64]
	lsls	r0, r2, #31
	bne	.LBB80_39
	movs	r0, #1
	ldr	r2, [sp, #60]
	str	r0, [sp, #64]
	orrs	r2, r0
	str	r2, [r6]
	ldr	r0, [sp, #68]
	str	r0, [r6, #4]
	str	r5, [r6, #8]
	str	r1, [r6, #12]
	ldr	r4, [sp, #44]
	ldr	r0, [r7, #24]
	movs	r5, #0
	adds	r0, r0, #1
	str	r0, [r7, #24]
	ldr	r0, [r7, #28]
	adcs	r0, r5
	str	r0, [r7, #28]
	movs	r0, #16
	orrs	r0, r4
	bl	__clzsi2
	movs	r1, #27
	subs	r0, r1, r0
	lsrs	r4, r0
	lsls	r0, r0, #4
	adds	r0, r4, r0
	lsls	r1, r0, #2
	adds	r2, r7, r1
	movs	r3, #184
	ldr	r1, [r2, r3]
	ldr	r6, [sp, #72]
	str	r6, [r2, r3]
	cmp	r1, #0
	bpl	.LBB80_29
	b	.LBB80_42
.LBB80_29:
	ldr	r0, [sp, #48]
	ldr	r0, [r0]
	ldr	r2, [sp, #56]
	adds	r2, r0, r2
	mvns	r3, r5
	str	r1, [r2, #16]
	str	r3, [r2, #20]
	lsls	r1, r1, #3
	adds	r0, r0, r1
	str	r6, [r0, #20]
	b	.LBB80_44
.LBB80_30:
	movs	r0, #1
	strb	r0, [r7, #1]
	movs	r0, #2
	add	sp, #76
	pop	{r4, r5, r6, r7, pc}
.LBB80_31:
	mov	r0, r5
	bl	tlsf_heap.refusal.Refusal.of_name
	movs	r1, #1
	strb	r1, [r7, #1]
	uxtb	r0, r0
	cmp	r0, #3
	beq	.LBB80_34
	movs	r0, #3
	add	sp, #76
	pop	{r4, r5, r6, r7, pc}
.LBB80_33:
	movs	r0, #0
	b	.LBB80_38
.LBB80_34:
	movs	r0, #4
	add	sp, #76
	pop	{r4, r5, r6, r7, pc}
.LBB80_35:
	movs	r1, #0
	adds	r2, r5, #1
	str	r2, [r7, #24]
	ldr	r2, [sp, #48]
	adcs	r1, r2
	str	r1, [r7, #28]
	str	r0, [sp]
	ldr	r0, [sp, #68]
	str	r0, [sp, #4]
	str	r5, [sp, #8]
	str	r2, [sp, #12]
	ldr	r0, [sp, #72]
	str	r0, [sp, #16]
	ldr	r0, [sp, #52]
	mov	r2, r6
	ldr	r3, [sp, #44]
	bl	tlsf_heap.fitting.merge_next.5
	b	.LBB80_44
.LBB80_36:
	adds	r1, r3, r2
	ldr	r1, [r1, #4]
	movs	r2, #0
	adds	r3, r5, #1
	str	r3, [r7, #24]
	ldr	r3, [sp, #48]
	adcs	r2, r3
	str	r2, [r7, #28]
	str	r0, [sp, #24]
	ldr	r0, [sp, #68]
	str	r0, [sp, #28]
	ldr	r0, [sp, #36]
	add	r2, sp, #0
	stm	r2!, {r0, r1, r5}
	str	r3, [sp, #12]
	ldr	r0, [sp, #72]
	str	r0, [sp, #16]
	ldr	r0, [sp, #52]
	mov	r2, r6
	ldr	r3, [sp, #44]
	bl	tlsf_heap.fitting.merge_before.5
	b	.LBB80_44
.LBB80_37:
	movs	r0, #2
.LBB80_38:
	bl	tlsf_c.call_fault.CallFault.refusal
	add	sp, #76
	pop	{r4, r5, r6, r7, pc}
.LBB80_39:
	movs	r0, #0
	adds	r3, r5, #1
	str	r3, [r7, #24]
	adcs	r0, r1
	str	r0, [r7, #28]
	ldr	r0, [sp, #60]
	str	r0, [sp]
	ldr	r0, [sp, #68]
	str	r0, [sp, #4]
	str	r5, [sp, #8]
	str	r1, [sp, #12]
	ldr	r0, [sp, #72]
	str	r0, [sp, #16]
	ldr	r0, [sp, #48]
	ldr	r3, [sp, #40]
	bl	tlsf_heap.fitting.merge_next.4
	b	.LBB80_44
.LBB80_40:
	adds	r2, r4, r3
	ldr	r2, [r2, #4]
	movs	r3, #0
	adds	r4, r5, #1
	str	r4, [r7, #24]
	adcs	r3, r1
	str	r3, [r7, #28]
	mov	r3, r0
	ldr	r0, [sp, #60]
	str	r0, [sp, #24]
	ldr	r0, [sp, #68]
	str	r0, [sp, #28]
	str	r3, [sp]
	str	r2, [sp, #4]
	str	r5, [sp, #8]
	str	r1, [sp, #12]
	ldr	r0, [sp, #72]
	str	r0, [sp, #16]
	ldr	r0, [sp, #48]
	ldr	r2, [sp, #64]
	ldr	r3, [sp, #40]
	bl	tlsf_heap.fitting.merge_before.4
	b	.LBB80_44
.LBB80_41:
	ldr	r1, [sp, #40]
	mvns	r1, r1
	ldr	r2, [r7, #40]
	ldr	r3, [sp, #64]
	adds	r2, r2, r3
	str	r1, [r2, #16]
	str	r1, [r2, #20]
	lsrs	r0, r0, #5
	ldr	r3, [sp, #44]
	mov	r1, r3
	lsls	r1, r0
	ldr	r2, [r7, #96]
	orrs	r2, r1
	str	r2, [r7, #96]
	movs	r1, #31
	b	.LBB80_43
.LBB80_42:
	ldr	r1, [sp, #36]
	mvns	r1, r1
	ldr	r2, [r7, #40]
	ldr	r3, [sp, #56]
	adds	r2, r2, r3
	str	r1, [r2, #16]
	str	r1, [r2, #20]
	lsrs	r0, r0, #4
	ldr	r3, [sp, #64]
	mov	r1, r3
	lsls	r1, r0
	ldr	r2, [r7, #96]
	orrs	r2, r1
	str	r2, [r7, #96]
	movs	r1, #15
.LBB80_43:
	ands	r4, r1
	lsls	r3, r4
	lsls	r0, r0, #2
	adds	r0, r7, r0
	ldr	r1, [r0, #100]
	orrs	r1, r3
	str	r1, [r0, #100]
.LBB80_44:
	movs	r0, #1
	strb	r0, [r7, #1]
	movs	r0, #0
	add	sp, #76
	pop	{r4, r5, r6, r7, pc}
.Lfunc_end80:
	.size	tlsf_offsets_release, .Lfunc_end80-tlsf_offsets_release
	.cfi_endproc
	.section	.text.tlsf_offsets_resize,"ax",%progbits
	.globl	tlsf_offsets_resize
	.p2align	1
	.type	tlsf_offsets_resize,%function
	.code	16
	.thumb_func
tlsf_offsets_resize:
	.cfi_startproc
	push	{r4, r5, r6, r7, lr}
	.cfi_def_cfa_offset 20
	.cfi_offset lr, -4
	.cfi_offset r7, -8
	.cfi_offset r6, -12
	.cfi_offset r5, -16
	.cfi_offset r4, -20
	sub	sp, #76
	.cfi_def_cfa_offset 96
	mov	r4, r1
	ldrb	r1, [r0, #8]
	cmp	r1, #0
	bne	.LBB81_1
	b	.LBB81_57
.LBB81_1:
	mov	r5, r3
	ldr	r3, [r0]
	ldrb	r0, [r3, #1]
	cmp	r0, #0
	bne	.LBB81_2
	b	.LBB81_57
.LBB81_2:
	ldrb	r0, [r3]
	cmp	r0, #0
	beq	.LBB81_3
	b	.LBB81_59
.LBB81_3:
	mov	r6, r2
	movs	r0, #0
	str	r0, [sp, #60]
	strb	r0, [r3, #1]
	ldrb	r0, [r4, #12]
	ldrb	r1, [r4, #13]
	lsls	r1, r1, #8
	adds	r0, r1, r0
	ldrb	r1, [r4, #14]
	lsls	r1, r1, #16
	ldrb	r2, [r4, #15]
	lsls	r2, r2, #24
	adds	r1, r2, r1
	adds	r0, r1, r0
	str	r0, [sp, #56]
	ldrb	r0, [r4, #8]
	ldrb	r1, [r4, #9]
	lsls	r1, r1, #8
	adds	r0, r1, r0
	ldrb	r1, [r4, #10]
	lsls	r1, r1, #16
	ldrb	r2, [r4, #11]
	lsls	r2, r2, #24
	adds	r1, r2, r1
	adds	r0, r1, r0
	str	r0, [sp, #52]
	ldrb	r0, [r4, #4]
	ldrb	r1, [r4, #5]
	lsls	r1, r1, #8
	adds	r0, r1, r0
	ldrb	r1, [r4, #6]
	lsls	r1, r1, #16
	ldrb	r2, [r4, #7]
	lsls	r2, r2, #24
	adds	r1, r2, r1
	adds	r0, r1, r0
	str	r0, [sp, #72]
	ldrb	r0, [r4]
	ldrb	r1, [r4, #1]
	lsls	r1, r1, #8
	adds	r0, r1, r0
	ldrb	r1, [r4, #2]
	lsls	r1, r1, #16
	ldrb	r2, [r4, #3]
	lsls	r2, r2, #24
	adds	r1, r2, r1
	adds	r0, r1, r0
	str	r0, [sp, #68]
	movs	r0, #43
	lsls	r1, r0, #6
	ldr	r7, [r3, r1]
	str	r3, [sp, #64]
	ldrb	r0, [r3, #8]
	cmp	r0, #0
	str	r4, [sp, #40]
	str	r1, [sp, #36]
	str	r6, [sp, #48]
	beq	.LBB81_26
	cmp	r7, #0
	bne	.LBB81_5
	b	.LBB81_77
.LBB81_5:
	mov	r0, r6
	mov	r1, r5
	mov	r2, r7
	ldr	r6, [sp, #60]
	mov	r3, r6
	bl	__aeabi_uldivmod
	mov	r2, r0
	mov	r4, r1
	adds	r0, r0, #1
	str	r0, [sp, #32]
	mov	r0, r1
	adcs	r0, r6
	str	r0, [sp, #44]
	str	r2, [sp, #28]
	mov	r0, r2
	mov	r2, r7
	mov	r3, r6
	bl	__aeabi_lmul
	ldr	r2, [sp, #48]
	subs	r0, r2, r0
	sbcs	r5, r1
	orrs	r5, r0
	cmp	r5, #0
	bne	.LBB81_7
	str	r4, [sp, #44]
.LBB81_7:
	ldr	r7, [sp, #64]
	ldr	r3, [sp, #32]
	bne	.LBB81_9
	ldr	r3, [sp, #28]
.LBB81_9:
	movs	r1, #4
	cmp	r3, #4
	mov	r2, r3
	ldr	r5, [sp, #68]
	bhi	.LBB81_11
	mov	r2, r1
.LBB81_11:
	ldr	r0, [sp, #60]
	mvns	r0, r0
	ldr	r4, [sp, #44]
	cmp	r4, #0
	bne	.LBB81_24
	mov	r3, r1
	bne	.LBB81_25
.LBB81_13:
	beq	.LBB81_15
.LBB81_14:
	mov	r2, r0
.LBB81_15:
	str	r2, [sp, #48]
	ldr	r1, [r7, #16]
	cmp	r5, r1
	beq	.LBB81_16
	b	.LBB81_48
.LBB81_16:
	ldr	r0, [r7, #48]
	ldr	r1, [sp, #72]
	cmp	r1, r0
	mov	r1, r5
	blo	.LBB81_17
	b	.LBB81_48
.LBB81_17:
	movs	r2, #63
	ldr	r0, [sp, #72]
	ands	r2, r0
	ldr	r1, [r7, #64]
	lsrs	r0, r0, #6
	lsls	r3, r0, #3
	ldr	r0, [r1, r3]
	adds	r1, r1, r3
	ldr	r1, [r1, #4]
	bl	__aeabi_llsr
	lsls	r0, r0, #31
	mov	r1, r5
	bne	.LBB81_18
	b	.LBB81_48
.LBB81_18:
	mov	r1, r7
	adds	r1, #40
	ldr	r0, [sp, #72]
	lsls	r6, r0, #3
	str	r1, [sp, #44]
	ldr	r0, [r1]
	ldr	r2, [r0, r6]
	lsls	r1, r2, #31
	mov	r1, r5
	beq	.LBB81_19
	b	.LBB81_48
.LBB81_19:
	adds	r4, r0, r6
	ldr	r1, [r4, #8]
	ldr	r3, [r4, #12]
	ldr	r5, [sp, #56]
	eors	r3, r5
	ldr	r5, [sp, #52]
	eors	r1, r5
	ldr	r5, [sp, #68]
	orrs	r1, r3
	mov	r1, r5
	beq	.LBB81_20
	b	.LBB81_48
.LBB81_20:
	str	r6, [sp, #32]
	ldr	r5, [r4, #4]
	lsrs	r7, r2, #2
	ldr	r6, [sp, #48]
	cmp	r6, r7
	bhi	.LBB81_21
	b	.LBB81_50
.LBB81_21:
	lsls	r1, r2, #30
	bmi	.LBB81_23
	ldr	r1, [sp, #72]
	adds	r1, r7, r1
	lsls	r4, r1, #3
	ldr	r1, [r0, r4]
	lsls	r3, r1, #31
	beq	.LBB81_23
	b	.LBB81_61
.LBB81_23:
	ldr	r0, [sp, #60]
	mov	r1, r0
	mov	r3, r0
	b	.LBB81_62
.LBB81_24:
	beq	.LBB81_13
.LBB81_25:
	mov	r2, r3
	bne	.LBB81_14
	b	.LBB81_15
.LBB81_26:
	cmp	r7, #0
	bne	.LBB81_27
	b	.LBB81_77
.LBB81_27:
	mov	r0, r6
	movs	r6, #0
	mov	r1, r5
	mov	r2, r7
	mov	r3, r6
	bl	__aeabi_uldivmod
	mov	r2, r0
	adds	r0, r0, #1
	str	r0, [sp, #32]
	mov	r0, r1
	adcs	r0, r6
	str	r0, [sp, #44]
	str	r2, [sp, #28]
	mov	r0, r2
	str	r1, [sp, #24]
	mov	r2, r7
	str	r6, [sp, #60]
	mov	r3, r6
	bl	__aeabi_lmul
	ldr	r2, [sp, #48]
	subs	r0, r2, r0
	sbcs	r5, r1
	orrs	r5, r0
	cmp	r5, #0
	bne	.LBB81_29
	ldr	r0, [sp, #24]
	str	r0, [sp, #44]
.LBB81_29:
	ldr	r7, [sp, #64]
	ldr	r3, [sp, #32]
	bne	.LBB81_31
	ldr	r3, [sp, #28]
.LBB81_31:
	movs	r1, #4
	cmp	r3, #4
	mov	r2, r3
	ldr	r5, [sp, #68]
	ldr	r6, [sp, #60]
	bhi	.LBB81_33
	mov	r2, r1
.LBB81_33:
	mov	r0, r6
	mvns	r6, r6
	str	r6, [sp, #48]
	ldr	r6, [sp, #44]
	cmp	r6, #0
	bne	.LBB81_46
	mov	r3, r1
	bne	.LBB81_47
.LBB81_35:
	mov	r6, r0
	beq	.LBB81_37
.LBB81_36:
	ldr	r2, [sp, #48]
.LBB81_37:
	str	r2, [sp, #48]
	ldr	r1, [r7, #16]
	cmp	r5, r1
	bne	.LBB81_48
	ldr	r0, [r7, #48]
	ldr	r1, [sp, #72]
	cmp	r1, r0
	mov	r1, r5
	bhs	.LBB81_48
	movs	r2, #63
	ldr	r0, [sp, #72]
	ands	r2, r0
	ldr	r1, [r7, #64]
	lsrs	r0, r0, #6
	lsls	r3, r0, #3
	ldr	r0, [r1, r3]
	adds	r1, r1, r3
	ldr	r1, [r1, #4]
	bl	__aeabi_llsr
	lsls	r0, r0, #31
	mov	r1, r5
	beq	.LBB81_48
	mov	r1, r7
	adds	r1, #40
	ldr	r0, [sp, #72]
	lsls	r3, r0, #3
	str	r1, [sp, #44]
	ldr	r0, [r1]
	ldr	r2, [r0, r3]
	lsls	r1, r2, #31
	mov	r1, r5
	bne	.LBB81_48
	adds	r4, r0, r3
	ldr	r1, [r4, #8]
	str	r3, [sp, #32]
	ldr	r3, [r4, #12]
	ldr	r5, [sp, #56]
	eors	r3, r5
	ldr	r5, [sp, #52]
	eors	r1, r5
	ldr	r5, [sp, #68]
	orrs	r1, r3
	mov	r1, r5
	bne	.LBB81_48
	ldr	r3, [r4, #4]
	lsrs	r7, r2, #2
	ldr	r1, [sp, #48]
	cmp	r1, r7
	bls	.LBB81_53
	lsls	r1, r2, #30
	bmi	.LBB81_45
	ldr	r1, [sp, #72]
	adds	r1, r7, r1
	lsls	r4, r1, #3
	ldr	r1, [r0, r4]
	mov	r5, r6
	lsls	r6, r1, #31
	mov	r6, r5
	beq	.LBB81_45
	b	.LBB81_67
.LBB81_45:
	mov	r1, r6
	mov	r5, r6
	b	.LBB81_68
.LBB81_46:
	beq	.LBB81_35
.LBB81_47:
	mov	r2, r3
	mov	r6, r0
	bne	.LBB81_36
	b	.LBB81_37
.LBB81_48:
	mov	r0, r5
	bl	tlsf_heap.refusal.Refusal.of_name
	movs	r1, #1
	strb	r1, [r7, #1]
	uxtb	r0, r0
	cmp	r0, #3
	beq	.LBB81_58
	movs	r0, #3
	add	sp, #76
	pop	{r4, r5, r6, r7, pc}
.LBB81_50:
	str	r5, [sp, #28]
	ldr	r5, [sp, #64]
	ldr	r1, [r5, #24]
	ldr	r3, [r5, #28]
	mov	r0, r1
	ands	r0, r3
	adds	r0, r0, #1
	bne	.LBB81_51
	b	.LBB81_76
.LBB81_51:
	ldr	r0, [sp, #60]
	str	r0, [r4, #16]
	str	r0, [r4, #20]
	adds	r0, r6, #4
	cmp	r7, r0
	mov	r4, r7
	blo	.LBB81_56
	str	r6, [sp]
	str	r1, [sp, #8]
	str	r3, [sp, #12]
	ldr	r0, [sp, #44]
	ldr	r1, [sp, #72]
	ldr	r3, [sp, #28]
	bl	tlsf_heap.refitting.split_off.5
	mov	r4, r6
	b	.LBB81_56
.LBB81_53:
	ldr	r5, [sp, #64]
	ldr	r6, [r5, #24]
	ldr	r1, [r5, #28]
	mov	r0, r6
	ands	r0, r1
	adds	r0, r0, #1
	bne	.LBB81_54
	b	.LBB81_76
.LBB81_54:
	ldr	r0, [sp, #60]
	str	r0, [r4, #16]
	str	r0, [r4, #20]
	ldr	r5, [sp, #48]
	adds	r0, r5, #4
	cmp	r7, r0
	mov	r4, r7
	blo	.LBB81_56
	str	r5, [sp]
	str	r6, [sp, #8]
	str	r1, [sp, #12]
	ldr	r0, [sp, #44]
	ldr	r1, [sp, #72]
	bl	tlsf_heap.refitting.split_off.4
	mov	r4, r5
.LBB81_56:
	subs	r0, r4, r7
	ldr	r5, [sp, #64]
	ldr	r1, [r5, #32]
	adds	r0, r0, r1
	ldr	r1, [r5, #24]
	adds	r1, r1, #1
	str	r1, [r5, #24]
	str	r0, [r5, #32]
	ldr	r0, [r5, #28]
	ldr	r1, [sp, #60]
	adcs	r0, r1
	str	r0, [r5, #28]
	ldr	r4, [sp, #40]
	ldr	r1, [sp, #36]
	ldr	r3, [sp, #32]
	b	.LBB81_75
.LBB81_57:
	movs	r0, #0
	b	.LBB81_60
.LBB81_58:
	movs	r0, #4
	add	sp, #76
	pop	{r4, r5, r6, r7, pc}
.LBB81_59:
	movs	r0, #2
.LBB81_60:
	bl	tlsf_c.call_fault.CallFault.refusal
	add	sp, #76
	pop	{r4, r5, r6, r7, pc}
.LBB81_61:
	adds	r0, r0, r4
	ldr	r3, [r0, #4]
.LBB81_62:
	lsrs	r0, r1, #2
	adds	r0, r0, r7
	cmp	r0, r6
	blo	.LBB81_69
	str	r3, [sp, #24]
	str	r5, [sp, #28]
	ldr	r5, [sp, #64]
	ldr	r4, [r5, #24]
	ldr	r0, [r5, #28]
	mov	r3, r4
	ands	r3, r0
	adds	r3, r3, #1
	bne	.LBB81_64
	b	.LBB81_76
.LBB81_64:
	str	r4, [sp, #16]
	str	r0, [sp, #20]
	str	r1, [sp]
	ldr	r0, [sp, #24]
	str	r0, [sp, #4]
	str	r6, [sp, #8]
	ldr	r0, [sp, #44]
	ldr	r1, [sp, #72]
	ldr	r3, [sp, #28]
	bl	tlsf_heap.refitting.recut.5
	ldr	r1, [r5, #40]
	ldr	r3, [sp, #32]
	adds	r1, r1, r3
	ldr	r2, [sp, #60]
	str	r2, [r1, #16]
	str	r2, [r1, #20]
	subs	r0, r0, r7
	ldr	r1, [r5, #32]
	adds	r0, r1, r0
	str	r0, [r5, #32]
	ldr	r1, [r5, #36]
	cmp	r1, r0
	bhs	.LBB81_66
	str	r0, [r5, #36]
.LBB81_66:
	ldr	r0, [r5, #24]
	adds	r0, r0, #1
	str	r0, [r5, #24]
	ldr	r0, [r5, #28]
	ldr	r1, [sp, #60]
	adcs	r0, r1
	b	.LBB81_74
.LBB81_67:
	adds	r0, r0, r4
	ldr	r5, [r0, #4]
.LBB81_68:
	lsrs	r0, r1, #2
	adds	r0, r0, r7
	ldr	r4, [sp, #48]
	cmp	r0, r4
	bhs	.LBB81_70
.LBB81_69:
	movs	r0, #1
	ldr	r1, [sp, #64]
	strb	r0, [r1, #1]
	movs	r0, #10
	add	sp, #76
	pop	{r4, r5, r6, r7, pc}
.LBB81_70:
	str	r5, [sp, #28]
	ldr	r5, [sp, #64]
	ldr	r4, [r5, #24]
	ldr	r0, [r5, #28]
	mov	r6, r4
	ands	r6, r0
	adds	r6, r6, #1
	beq	.LBB81_76
	str	r4, [sp, #16]
	str	r0, [sp, #20]
	str	r1, [sp]
	ldr	r0, [sp, #28]
	str	r0, [sp, #4]
	ldr	r0, [sp, #48]
	str	r0, [sp, #8]
	ldr	r0, [sp, #44]
	ldr	r1, [sp, #72]
	bl	tlsf_heap.refitting.recut.4
	ldr	r1, [r5, #40]
	ldr	r3, [sp, #32]
	adds	r1, r1, r3
	ldr	r2, [sp, #60]
	str	r2, [r1, #16]
	str	r2, [r1, #20]
	subs	r0, r0, r7
	ldr	r1, [r5, #32]
	adds	r0, r1, r0
	str	r0, [r5, #32]
	ldr	r1, [r5, #36]
	cmp	r1, r0
	bhs	.LBB81_73
	str	r0, [r5, #36]
.LBB81_73:
	ldr	r0, [r5, #24]
	adds	r0, r0, #1
	str	r0, [r5, #24]
	ldr	r0, [r5, #28]
	adcs	r0, r2
.LBB81_74:
	str	r0, [r5, #28]
	ldr	r4, [sp, #40]
	ldr	r1, [sp, #36]
.LBB81_75:
	ldr	r0, [sp, #44]
	ldr	r0, [r0]
	adds	r0, r0, r3
	adds	r1, r5, r1
	ldr	r0, [r0]
	str	r0, [sp, #60]
	movs	r0, #1
	strb	r0, [r5, #1]
	ldr	r0, [r1]
	str	r0, [sp, #48]
	movs	r6, #0
	mov	r1, r6
	ldr	r5, [sp, #72]
	mov	r2, r5
	mov	r3, r6
	bl	__aeabi_lmul
	str	r0, [sp, #64]
	mov	r7, r1
	strb	r1, [r4, #20]
	strb	r0, [r4, #16]
	ldr	r1, [sp, #56]
	lsrs	r0, r1, #24
	strb	r0, [r4, #15]
	lsrs	r0, r1, #16
	strb	r0, [r4, #14]
	lsrs	r0, r1, #8
	strb	r0, [r4, #13]
	strb	r1, [r4, #12]
	ldr	r1, [sp, #52]
	lsrs	r0, r1, #24
	strb	r0, [r4, #11]
	lsrs	r0, r1, #16
	strb	r0, [r4, #10]
	lsrs	r0, r1, #8
	strb	r0, [r4, #9]
	strb	r1, [r4, #8]
	lsrs	r0, r5, #24
	strb	r0, [r4, #7]
	lsrs	r0, r5, #16
	strb	r0, [r4, #6]
	lsrs	r0, r5, #8
	strb	r0, [r4, #5]
	strb	r5, [r4, #4]
	ldr	r1, [sp, #68]
	lsrs	r0, r1, #24
	strb	r0, [r4, #3]
	lsrs	r0, r1, #16
	strb	r0, [r4, #2]
	lsrs	r0, r1, #8
	strb	r0, [r4, #1]
	strb	r1, [r4]
	ldr	r0, [sp, #60]
	lsrs	r0, r0, #2
	mov	r1, r6
	ldr	r2, [sp, #48]
	mov	r3, r6
	bl	__aeabi_lmul
	mov	r2, r0
	mov	r0, r6
	strb	r1, [r4, #28]
	strb	r2, [r4, #24]
	lsrs	r3, r7, #24
	strb	r3, [r4, #23]
	lsrs	r3, r7, #16
	strb	r3, [r4, #22]
	lsrs	r3, r7, #8
	strb	r3, [r4, #21]
	ldr	r5, [sp, #64]
	lsrs	r3, r5, #24
	strb	r3, [r4, #19]
	lsrs	r3, r5, #16
	strb	r3, [r4, #18]
	lsrs	r3, r5, #8
	strb	r3, [r4, #17]
	lsrs	r3, r1, #24
	strb	r3, [r4, #31]
	lsrs	r3, r1, #16
	strb	r3, [r4, #30]
	lsrs	r1, r1, #8
	strb	r1, [r4, #29]
	lsrs	r1, r2, #24
	strb	r1, [r4, #27]
	lsrs	r1, r2, #16
	strb	r1, [r4, #26]
	lsrs	r1, r2, #8
	strb	r1, [r4, #25]
	add	sp, #76
	pop	{r4, r5, r6, r7, pc}
.LBB81_76:
	movs	r0, #1
	strb	r0, [r5, #1]
	movs	r0, #2
	add	sp, #76
	pop	{r4, r5, r6, r7, pc}
.LBB81_77:
	.inst.n	0xdefe
.Lfunc_end81:
	.size	tlsf_offsets_resize, .Lfunc_end81-tlsf_offsets_resize
	.cfi_endproc
	.section	.text.tlsf_open,"ax",%progbits
	.globl	tlsf_open
	.p2align	2
	.type	tlsf_open,%function
	.code	16
	.thumb_func
tlsf_open:
	.cfi_startproc
	push	{r4, r5, r6, r7, lr}
	.cfi_def_cfa_offset 20
	.cfi_offset lr, -4
	.cfi_offset r7, -8
	.cfi_offset r6, -12
	.cfi_offset r5, -16
	.cfi_offset r4, -20
	sub	sp, #52
	.cfi_def_cfa_offset 72
	ldrb	r4, [r0, #8]
	cmp	r4, #0
	beq	.LBB82_2
	movs	r0, #33
	add	sp, #52
	pop	{r4, r5, r6, r7, pc}
.LBB82_2:
	movs	r6, #1
	mvns	r4, r6
	subs	r5, r1, #6
	cmp	r5, r4
	bhs	.LBB82_4
	movs	r0, #34
	add	sp, #52
	pop	{r4, r5, r6, r7, pc}
.LBB82_4:
	cmp	r1, #4
	beq	.LBB82_5
	b	.LBB82_10
.LBB82_5:
	ldr	r1, .LCPI82_3
	adds	r4, r3, r1
	subs	r4, r4, #4
	cmp	r4, r1
	bhs	.LBB82_6
	b	.LBB82_11
.LBB82_6:
	add	r1, sp, #20
	stm	r1!, {r0, r2, r3}
	lsls	r1, r3, #3
	add	r0, sp, #32
	movs	r2, #8
	bl	tlsf_memory_alloc
	ldr	r1, [sp, #32]
	movs	r0, #6
	lsls	r1, r1, #31
	bne	.LBB82_7
	b	.LBB82_19
.LBB82_7:
	mov	r7, r0
	ldr	r5, [sp, #40]
	movs	r4, #0
	str	r4, [r5]
	str	r4, [r5, #4]
	str	r4, [r5, #8]
	str	r4, [r5, #12]
	str	r4, [r5, #16]
	str	r4, [r5, #20]
	str	r4, [r5, #24]
	str	r4, [r5, #28]
	ldr	r0, [sp, #28]
	adds	r0, #63
	lsrs	r0, r0, #6
	str	r0, [sp, #16]
	lsls	r1, r0, #3
	add	r0, sp, #32
	movs	r2, #8
	bl	tlsf_memory_alloc
	ldr	r0, [sp, #32]
	lsls	r0, r0, #31
	bne	.LBB82_8
	b	.LBB82_20
.LBB82_8:
	ldr	r1, [sp, #40]
	str	r4, [r1]
	str	r4, [r5, #8]
	movs	r0, #19
	str	r0, [r5]
	str	r4, [r1, #4]
	ldr	r0, [r1]
	orrs	r0, r6
	str	r1, [sp, #12]
	str	r0, [r1]
	mvns	r0, r4
	str	r0, [r5, #4]
	str	r4, [r5, #12]
	str	r0, [r5, #16]
	str	r0, [r5, #20]
	add	r0, sp, #32
	ldr	r1, .LCPI82_4
	movs	r2, #8
	bl	tlsf_memory_alloc
	ldr	r0, [sp, #32]
	lsls	r0, r0, #31
	bne	.LBB82_9
	b	.LBB82_22
.LBB82_9:
	ldr	r7, [sp, #40]
	strb	r6, [r7]
	mov	r0, r7
	adds	r0, #8
	movs	r2, #16
	str	r2, [sp, #8]
	mov	r1, r4
	bl	tlsf_memory_set
	movs	r0, #92
	strb	r4, [r7, r0]
	movs	r0, #88
	ldr	r2, [sp, #16]
	strb	r2, [r7, r0]
	movs	r0, #84
	strb	r4, [r7, r0]
	movs	r0, #80
	str	r0, [sp, #4]
	strb	r6, [r7, r0]
	movs	r0, #68
	strb	r4, [r7, r0]
	movs	r0, #64
	ldr	r1, [sp, #28]
	strb	r1, [r7, r0]
	movs	r0, #60
	strb	r4, [r7, r0]
	movs	r0, #56
	movs	r1, #4
	strb	r1, [r7, r0]
	movs	r0, #36
	strb	r4, [r7, r0]
	movs	r0, #32
	strb	r6, [r7, r0]
	movs	r0, #108
	ldr	r3, [sp, #8]
	strb	r3, [r7, r0]
	movs	r0, #104
	strb	r6, [r7, r0]
	movs	r0, #100
	strb	r4, [r7, r0]
	movs	r0, #96
	strb	r1, [r7, r0]
	movs	r0, #76
	strb	r4, [r7, r0]
	movs	r0, #72
	ldr	r3, [sp, #12]
	strb	r3, [r7, r0]
	movs	r0, #52
	strb	r4, [r7, r0]
	movs	r0, #48
	strb	r5, [r7, r0]
	movs	r0, #44
	strb	r4, [r7, r0]
	movs	r0, #40
	strb	r4, [r7, r0]
	mov	r0, r7
	adds	r0, #92
	strb	r4, [r0, #3]
	strb	r4, [r0, #2]
	strb	r4, [r0, #1]
	mov	r0, r7
	adds	r0, #88
	lsrs	r1, r2, #24
	strb	r1, [r0, #3]
	lsrs	r1, r2, #16
	strb	r1, [r0, #2]
	lsrs	r1, r2, #8
	strb	r1, [r0, #1]
	mov	r0, r7
	adds	r0, #84
	strb	r4, [r0, #3]
	strb	r4, [r0, #2]
	strb	r4, [r0, #1]
	mov	r0, r7
	adds	r0, #80
	strb	r4, [r0, #3]
	strb	r4, [r0, #2]
	strb	r4, [r0, #1]
	mov	r0, r7
	adds	r0, #68
	strb	r4, [r0, #3]
	strb	r4, [r0, #2]
	strb	r4, [r0, #1]
	mov	r0, r7
	adds	r0, #64
	ldr	r2, [sp, #28]
	lsrs	r1, r2, #24
	strb	r1, [r0, #3]
	lsrs	r1, r2, #16
	strb	r1, [r0, #2]
	lsrs	r1, r2, #8
	strb	r1, [r0, #1]
	mov	r0, r7
	adds	r0, #60
	strb	r4, [r0, #3]
	strb	r4, [r0, #2]
	strb	r4, [r0, #1]
	mov	r0, r7
	adds	r0, #56
	strb	r4, [r0, #3]
	strb	r4, [r0, #2]
	strb	r4, [r0, #1]
	mov	r0, r7
	adds	r0, #36
	strb	r4, [r0, #3]
	strb	r4, [r0, #2]
	strb	r4, [r0, #1]
	mov	r0, r7
	adds	r0, #32
	strb	r4, [r0, #3]
	strb	r4, [r0, #2]
	strb	r4, [r0, #1]
	mov	r0, r7
	adds	r0, #108
	strb	r4, [r0, #3]
	strb	r4, [r0, #2]
	strb	r4, [r0, #1]
	mov	r0, r7
	adds	r0, #104
	strb	r4, [r0, #3]
	strb	r4, [r0, #2]
	strb	r4, [r0, #1]
	mov	r0, r7
	adds	r0, #100
	strb	r4, [r0, #3]
	strb	r4, [r0, #2]
	strb	r4, [r0, #1]
	mov	r0, r7
	adds	r0, #96
	strb	r4, [r0, #3]
	strb	r4, [r0, #2]
	strb	r4, [r0, #1]
	mov	r0, r7
	adds	r0, #76
	strb	r4, [r0, #3]
	strb	r4, [r0, #2]
	strb	r4, [r0, #1]
	mov	r0, r7
	adds	r0, #72
	lsrs	r1, r3, #24
	strb	r1, [r0, #3]
	lsrs	r1, r3, #16
	strb	r1, [r0, #2]
	lsrs	r1, r3, #8
	strb	r1, [r0, #1]
	mov	r0, r7
	adds	r0, #52
	strb	r4, [r0, #3]
	strb	r4, [r0, #2]
	strb	r4, [r0, #1]
	mov	r0, r7
	adds	r0, #48
	lsrs	r1, r5, #24
	strb	r1, [r0, #3]
	lsrs	r1, r5, #16
	strb	r1, [r0, #2]
	lsrs	r1, r5, #8
	strb	r1, [r0, #1]
	mov	r0, r7
	adds	r0, #44
	strb	r4, [r0, #3]
	strb	r4, [r0, #2]
	strb	r4, [r0, #1]
	mov	r0, r7
	adds	r0, #40
	strb	r4, [r0, #3]
	strb	r4, [r0, #2]
	strb	r4, [r0, #1]
	ldr	r0, [sp, #24]
	lsrs	r1, r0, #24
	strb	r1, [r7, #27]
	lsrs	r1, r0, #16
	strb	r1, [r7, #26]
	lsrs	r1, r0, #8
	strb	r1, [r7, #25]
	strb	r0, [r7, #24]
	mov	r0, r7
	adds	r0, #112
	mov	r1, r4
	ldr	r2, [sp, #4]
	bl	tlsf_memory_set
	mov	r0, r7
	adds	r0, #192
	movs	r5, #255
	mov	r1, r5
	ldr	r2, [sp, #8]
	bl	tlsf_memory_set
	movs	r0, #208
	strb	r4, [r7, r0]
	mov	r0, r7
	adds	r0, #208
	strb	r4, [r0, #3]
	strb	r4, [r0, #2]
	strb	r4, [r0, #1]
	mov	r0, r7
	adds	r0, #212
	movs	r1, #159
	lsls	r2, r1, #4
	mov	r1, r5
	bl	tlsf_memory_set
	mov	r0, r7
	adds	r0, #24
	ldr	r1, [sp, #28]
	bl	tlsf_heap.heap.Heap.begin.4
	b	.LBB82_18
.LBB82_10:
	ldr	r1, .LCPI82_0
	adds	r4, r3, r1
	subs	r4, r4, #4
	cmp	r4, r1
	bhs	.LBB82_14
.LBB82_11:
	movs	r0, #5
	add	sp, #52
	pop	{r4, r5, r6, r7, pc}
	.p2align	2
.LCPI82_3:
	.long	4293918723
	.p2align	2
.LCPI82_4:
	.long	2760
	.p2align	1
.LBB82_14:
	add	r1, sp, #20
	stm	r1!, {r0, r2, r3}
	lsls	r1, r3, #3
	add	r0, sp, #32
	movs	r2, #8
	bl	tlsf_memory_alloc
	ldr	r1, [sp, #32]
	movs	r0, #6
	lsls	r1, r1, #31
	bne	.LBB82_15
	b	.LBB82_19
.LBB82_15:
	mov	r7, r0
	ldr	r5, [sp, #40]
	movs	r4, #0
	str	r4, [r5]
	str	r4, [r5, #4]
	str	r4, [r5, #8]
	str	r4, [r5, #12]
	str	r4, [r5, #16]
	str	r4, [r5, #20]
	str	r4, [r5, #24]
	str	r4, [r5, #28]
	ldr	r0, [sp, #28]
	adds	r0, #63
	lsrs	r0, r0, #6
	str	r0, [sp, #12]
	lsls	r1, r0, #3
	add	r0, sp, #32
	movs	r2, #8
	bl	tlsf_memory_alloc
	ldr	r0, [sp, #32]
	lsls	r0, r0, #31
	bne	.LBB82_16
	b	.LBB82_20
.LBB82_16:
	ldr	r1, [sp, #40]
	str	r4, [r1]
	str	r4, [r5, #8]
	movs	r0, #19
	str	r0, [r5]
	str	r4, [r1, #4]
	ldr	r0, [r1]
	orrs	r0, r6
	str	r1, [sp, #16]
	str	r0, [r1]
	mvns	r0, r4
	str	r0, [r5, #4]
	str	r4, [r5, #12]
	str	r0, [r5, #16]
	str	r0, [r5, #20]
	add	r0, sp, #32
	ldr	r1, .LCPI82_1
	movs	r2, #8
	bl	tlsf_memory_alloc
	ldr	r0, [sp, #32]
	lsls	r0, r0, #31
	bne	.LBB82_17
	b	.LBB82_23
.LBB82_17:
	ldr	r7, [sp, #40]
	movs	r0, #92
	strb	r4, [r7, r0]
	movs	r0, #88
	ldr	r2, [sp, #12]
	strb	r2, [r7, r0]
	movs	r0, #84
	strb	r4, [r7, r0]
	movs	r0, #80
	str	r0, [sp, #8]
	strb	r6, [r7, r0]
	movs	r0, #68
	strb	r4, [r7, r0]
	movs	r0, #64
	ldr	r1, [sp, #28]
	strb	r1, [r7, r0]
	movs	r0, #60
	strb	r4, [r7, r0]
	movs	r0, #56
	movs	r1, #4
	strb	r1, [r7, r0]
	movs	r0, #36
	strb	r4, [r7, r0]
	movs	r0, #32
	strb	r6, [r7, r0]
	movs	r0, #108
	movs	r3, #16
	str	r3, [sp, #4]
	strb	r3, [r7, r0]
	movs	r0, #104
	strb	r6, [r7, r0]
	movs	r0, #100
	strb	r4, [r7, r0]
	movs	r0, #96
	strb	r1, [r7, r0]
	movs	r0, #76
	strb	r4, [r7, r0]
	movs	r0, #72
	ldr	r1, [sp, #16]
	strb	r1, [r7, r0]
	movs	r0, #52
	strb	r4, [r7, r0]
	movs	r0, #48
	strb	r5, [r7, r0]
	movs	r0, #44
	strb	r4, [r7, r0]
	movs	r0, #40
	strb	r4, [r7, r0]
	strb	r4, [r7, #23]
	strb	r4, [r7, #22]
	strb	r4, [r7, #21]
	strb	r4, [r7, #20]
	strb	r4, [r7, #19]
	strb	r4, [r7, #18]
	strb	r4, [r7, #17]
	strb	r6, [r7, #16]
	strb	r4, [r7, #15]
	strb	r4, [r7, #14]
	strb	r4, [r7, #13]
	strb	r4, [r7, #12]
	strb	r4, [r7, #11]
	strb	r4, [r7, #10]
	strb	r4, [r7, #9]
	strb	r4, [r7, #8]
	ldr	r0, [sp, #24]
	strb	r0, [r7, #24]
	strb	r6, [r7]
	mov	r1, r7
	adds	r1, #92
	strb	r4, [r1, #3]
	strb	r4, [r1, #2]
	strb	r4, [r1, #1]
	mov	r1, r7
	adds	r1, #88
	lsrs	r3, r2, #24
	strb	r3, [r1, #3]
	lsrs	r3, r2, #16
	strb	r3, [r1, #2]
	lsrs	r3, r2, #8
	strb	r3, [r1, #1]
	mov	r1, r7
	adds	r1, #84
	strb	r4, [r1, #3]
	strb	r4, [r1, #2]
	strb	r4, [r1, #1]
	mov	r1, r7
	adds	r1, #80
	strb	r4, [r1, #3]
	strb	r4, [r1, #2]
	strb	r4, [r1, #1]
	mov	r1, r7
	adds	r1, #68
	strb	r4, [r1, #3]
	strb	r4, [r1, #2]
	strb	r4, [r1, #1]
	mov	r1, r7
	adds	r1, #64
	ldr	r2, [sp, #28]
	lsrs	r3, r2, #24
	strb	r3, [r1, #3]
	lsrs	r3, r2, #16
	strb	r3, [r1, #2]
	lsrs	r3, r2, #8
	strb	r3, [r1, #1]
	mov	r1, r7
	adds	r1, #60
	strb	r4, [r1, #3]
	strb	r4, [r1, #2]
	strb	r4, [r1, #1]
	mov	r1, r7
	adds	r1, #56
	strb	r4, [r1, #3]
	strb	r4, [r1, #2]
	strb	r4, [r1, #1]
	mov	r1, r7
	adds	r1, #36
	strb	r4, [r1, #3]
	strb	r4, [r1, #2]
	strb	r4, [r1, #1]
	mov	r1, r7
	adds	r1, #32
	strb	r4, [r1, #3]
	strb	r4, [r1, #2]
	strb	r4, [r1, #1]
	mov	r1, r7
	adds	r1, #108
	strb	r4, [r1, #3]
	strb	r4, [r1, #2]
	strb	r4, [r1, #1]
	mov	r1, r7
	adds	r1, #104
	strb	r4, [r1, #3]
	strb	r4, [r1, #2]
	strb	r4, [r1, #1]
	mov	r1, r7
	adds	r1, #100
	strb	r4, [r1, #3]
	strb	r4, [r1, #2]
	strb	r4, [r1, #1]
	mov	r1, r7
	adds	r1, #96
	strb	r4, [r1, #3]
	strb	r4, [r1, #2]
	strb	r4, [r1, #1]
	mov	r1, r7
	adds	r1, #76
	strb	r4, [r1, #3]
	strb	r4, [r1, #2]
	strb	r4, [r1, #1]
	mov	r1, r7
	adds	r1, #72
	ldr	r2, [sp, #16]
	lsrs	r3, r2, #24
	strb	r3, [r1, #3]
	lsrs	r3, r2, #16
	strb	r3, [r1, #2]
	lsrs	r3, r2, #8
	strb	r3, [r1, #1]
	mov	r1, r7
	adds	r1, #52
	strb	r4, [r1, #3]
	strb	r4, [r1, #2]
	strb	r4, [r1, #1]
	mov	r1, r7
	adds	r1, #48
	lsrs	r3, r5, #24
	strb	r3, [r1, #3]
	lsrs	r3, r5, #16
	strb	r3, [r1, #2]
	lsrs	r3, r5, #8
	strb	r3, [r1, #1]
	mov	r1, r7
	adds	r1, #44
	strb	r4, [r1, #3]
	strb	r4, [r1, #2]
	strb	r4, [r1, #1]
	mov	r1, r7
	adds	r1, #40
	strb	r4, [r1, #3]
	strb	r4, [r1, #2]
	strb	r4, [r1, #1]
	lsrs	r1, r0, #24
	strb	r1, [r7, #27]
	lsrs	r1, r0, #16
	strb	r1, [r7, #26]
	lsrs	r0, r0, #8
	strb	r0, [r7, #25]
	mov	r0, r7
	adds	r0, #112
	mov	r1, r4
	ldr	r2, [sp, #8]
	bl	tlsf_memory_set
	mov	r0, r7
	adds	r0, #192
	movs	r5, #255
	mov	r1, r5
	ldr	r2, [sp, #4]
	bl	tlsf_memory_set
	movs	r0, #208
	strb	r4, [r7, r0]
	mov	r0, r7
	adds	r0, #208
	strb	r4, [r0, #3]
	strb	r4, [r0, #2]
	strb	r4, [r0, #1]
	mov	r0, r7
	adds	r0, #212
	movs	r1, #159
	lsls	r2, r1, #4
	mov	r1, r5
	bl	tlsf_memory_set
	mov	r0, r7
	adds	r0, #24
	ldr	r1, [sp, #28]
	bl	tlsf_heap.heap.Heap.begin.5
.LBB82_18:
	ldr	r2, [r7, #48]
	movs	r0, #0
	ldr	r3, [sp, #20]
	strb	r0, [r3, #28]
	ldr	r1, [sp, #24]
	str	r1, [r3, #24]
	str	r2, [r3, #16]
	strb	r6, [r3, #8]
	str	r7, [r3]
	str	r0, [r3, #4]
.LBB82_19:
	add	sp, #52
	pop	{r4, r5, r6, r7, pc}
.LBB82_20:
	mov	r0, r5
.LBB82_21:
	bl	tlsf_memory_dealloc
	mov	r0, r7
	add	sp, #52
	pop	{r4, r5, r6, r7, pc}
.LBB82_22:
	mov	r0, r5
	bl	tlsf_memory_dealloc
	ldr	r0, [sp, #12]
	b	.LBB82_21
.LBB82_23:
	mov	r0, r5
	bl	tlsf_memory_dealloc
	ldr	r0, [sp, #16]
	b	.LBB82_21
	.p2align	2
.LCPI82_0:
	.long	4278190083
.LCPI82_1:
	.long	2760
.Lfunc_end82:
	.size	tlsf_open, .Lfunc_end82-tlsf_open
	.cfi_endproc
	.section	.text.tlsf_place,"ax",%progbits
	.globl	tlsf_place
	.p2align	1
	.type	tlsf_place,%function
	.code	16
	.thumb_func
tlsf_place:
	.cfi_startproc
	push	{r4, r5, r6, r7, lr}
	.cfi_def_cfa_offset 20
	.cfi_offset lr, -4
	.cfi_offset r7, -8
	.cfi_offset r6, -12
	.cfi_offset r5, -16
	.cfi_offset r4, -20
	sub	sp, #60
	.cfi_def_cfa_offset 80
	mov	r6, r1
	ldrb	r1, [r0, #8]
	cmp	r1, #0
	beq	.LBB83_6
	ldr	r4, [r0]
	ldrb	r0, [r4]
	cmp	r0, #0
	beq	.LBB83_6
	mov	r5, r2
	str	r3, [sp, #12]
	movs	r0, #0
	str	r0, [sp, #8]
	strb	r0, [r4]
	ldr	r0, [r4, #24]
	str	r0, [sp, #4]
	mov	r1, r4
	adds	r1, #8
	add	r7, sp, #16
	mov	r0, r7
	mov	r2, r6
	bl	tlsf_c.any_heap.AnyHeap.block_at
	movs	r0, #1
	strb	r0, [r4]
	ldrb	r1, [r7]
	movs	r0, #4
	cmp	r1, #1
	bne	.LBB83_5
	ldrb	r1, [r7, #16]
	cmp	r1, #1
	bne	.LBB83_5
	ldr	r0, [sp, #44]
	ldr	r2, [sp, #40]
	ldr	r1, [sp, #48]
	strb	r2, [r5, #8]
	strb	r6, [r5, #4]
	ldr	r4, [sp, #4]
	strb	r4, [r5]
	strb	r0, [r5, #12]
	lsrs	r3, r2, #24
	strb	r3, [r5, #11]
	lsrs	r3, r2, #16
	strb	r3, [r5, #10]
	lsrs	r2, r2, #8
	strb	r2, [r5, #9]
	lsrs	r2, r6, #24
	strb	r2, [r5, #7]
	lsrs	r2, r6, #16
	strb	r2, [r5, #6]
	lsrs	r2, r6, #8
	strb	r2, [r5, #5]
	lsrs	r2, r4, #24
	strb	r2, [r5, #3]
	lsrs	r2, r4, #16
	strb	r2, [r5, #2]
	lsrs	r2, r4, #8
	strb	r2, [r5, #1]
	lsrs	r2, r0, #24
	strb	r2, [r5, #15]
	lsrs	r2, r0, #16
	strb	r2, [r5, #14]
	lsrs	r0, r0, #8
	strb	r0, [r5, #13]
	ldr	r0, [sp, #12]
	str	r1, [r0]
	ldr	r0, [sp, #8]
.LBB83_5:
	add	sp, #60
	pop	{r4, r5, r6, r7, pc}
.LBB83_6:
	movs	r0, #0
	bl	tlsf_c.call_fault.CallFault.refusal
	add	sp, #60
	pop	{r4, r5, r6, r7, pc}
.Lfunc_end83:
	.size	tlsf_place, .Lfunc_end83-tlsf_place
	.cfi_endproc
	.section	.text.tlsf_pools_allocate,"ax",%progbits
	.globl	tlsf_pools_allocate
	.p2align	2
	.type	tlsf_pools_allocate,%function
	.code	16
	.thumb_func
tlsf_pools_allocate:
	.cfi_startproc
	push	{r4, r5, r6, r7, lr}
	.cfi_def_cfa_offset 20
	.cfi_offset lr, -4
	.cfi_offset r7, -8
	.cfi_offset r6, -12
	.cfi_offset r5, -16
	.cfi_offset r4, -20
	sub	sp, #108
	.cfi_def_cfa_offset 128
	ldrb	r3, [r0, #8]
	cmp	r3, #0
	bne	.LBB84_1
	b	.LBB84_41
.LBB84_1:
	ldr	r3, [r0]
	ldrb	r0, [r3, #1]
	cmp	r0, #0
	bne	.LBB84_2
	b	.LBB84_41
.LBB84_2:
	ldrb	r0, [r3]
	cmp	r0, #1
	beq	.LBB84_3
	b	.LBB84_42
.LBB84_3:
	str	r2, [sp, #80]
	movs	r5, #0
	strb	r5, [r3, #1]
	ldr	r2, [r3, #32]
	ldr	r4, [r3, #36]
	ldr	r0, [r3, #24]
	str	r0, [sp, #104]
	str	r3, [sp, #88]
	ldrb	r0, [r3, #8]
	cmp	r0, #0
	str	r2, [sp, #100]
	str	r4, [sp, #96]
	mov	r0, r2
	beq	.LBB84_13
	orrs	r0, r4
	bne	.LBB84_5
	b	.LBB84_40
.LBB84_5:
	mov	r4, r5
	b	.LBB84_7
.LBB84_6:
	movs	r0, #0
	adds	r4, r4, #1
	ldr	r5, [sp, #84]
	adcs	r5, r0
	ldr	r0, [sp, #100]
	subs	r0, r4, r0
	mov	r0, r5
	ldr	r2, [sp, #96]
	sbcs	r0, r2
	blo	.LBB84_7
	b	.LBB84_40
.LBB84_7:
	str	r5, [sp, #84]
	ldr	r0, .LCPI84_5
	muls	r0, r4, r0
	ldr	r2, [sp, #104]
	adds	r0, r2, r0
	ldr	r2, .LCPI84_6
	ldr	r7, [r0, r2]
	str	r0, [sp, #92]
	adds	r0, r0, r2
	ldr	r6, [r0, #4]
	mov	r0, r7
	orrs	r0, r6
	beq	.LBB84_6
	movs	r0, #171
	lsls	r0, r0, #4
	ldr	r2, [sp, #92]
	ldr	r2, [r2, r0]
	str	r2, [sp, #76]
	adds	r2, #12
	mov	r3, r7
	mov	r0, r6
.LBB84_9:
	mov	r5, r2
	subs	r5, #8
	ldr	r5, [r5]
	cmp	r5, r1
	bhs	.LBB84_22
	movs	r5, #1
	eors	r5, r3
	orrs	r5, r0
	beq	.LBB84_6
	ldr	r5, [r2]
	cmp	r5, r1
	bhs	.LBB84_22
	adds	r2, #16
	movs	r5, #0
	subs	r3, r3, #2
	sbcs	r0, r5
	mov	r5, r3
	orrs	r5, r0
	bne	.LBB84_9
	b	.LBB84_6
.LBB84_13:
	orrs	r0, r4
	beq	.LBB84_40
	movs	r4, #0
	mov	r2, r4
	b	.LBB84_16
.LBB84_15:
	movs	r0, #0
	adds	r2, r2, #1
	ldr	r4, [sp, #84]
	adcs	r4, r0
	ldr	r0, [sp, #100]
	subs	r0, r2, r0
	mov	r0, r4
	ldr	r3, [sp, #96]
	sbcs	r0, r3
	bhs	.LBB84_40
.LBB84_16:
	str	r4, [sp, #84]
	ldr	r3, .LCPI84_5
	muls	r3, r2, r3
	ldr	r0, [sp, #104]
	adds	r0, r0, r3
	ldr	r4, .LCPI84_6
	ldr	r3, [r0, r4]
	str	r0, [sp, #92]
	adds	r4, r0, r4
	ldr	r6, [r4, #4]
	mov	r4, r3
	orrs	r4, r6
	beq	.LBB84_15
	movs	r4, #171
	lsls	r4, r4, #4
	ldr	r0, [sp, #92]
	ldr	r0, [r0, r4]
	str	r0, [sp, #76]
	adds	r0, #12
	mov	r4, r3
	mov	r7, r6
.LBB84_18:
	mov	r5, r0
	subs	r5, #8
	ldr	r5, [r5]
	cmp	r5, r1
	bhs	.LBB84_31
	movs	r5, #1
	eors	r5, r4
	orrs	r5, r7
	beq	.LBB84_15
	ldr	r5, [r0]
	cmp	r5, r1
	bhs	.LBB84_31
	adds	r0, #16
	movs	r5, #0
	subs	r4, r4, #2
	sbcs	r7, r5
	mov	r5, r4
	orrs	r5, r7
	bne	.LBB84_18
	b	.LBB84_15
.LBB84_22:
	movs	r0, #0
	ldr	r4, [sp, #76]
	mov	r2, r4
.LBB84_23:
	ldr	r3, [r2, #4]
	cmp	r3, r1
	bhs	.LBB84_47
	movs	r3, #1
	eors	r3, r7
	orrs	r3, r6
	beq	.LBB84_40
	ldr	r3, [r2, #12]
	cmp	r3, r1
	bhs	.LBB84_44
	movs	r3, #2
	eors	r3, r7
	orrs	r3, r6
	beq	.LBB84_40
	ldr	r3, [r2, #20]
	cmp	r3, r1
	bhs	.LBB84_45
	movs	r3, #3
	eors	r3, r7
	orrs	r3, r6
	beq	.LBB84_40
	ldr	r3, [r2, #28]
	cmp	r3, r1
	bhs	.LBB84_46
	movs	r3, #0
	subs	r7, r7, #4
	sbcs	r6, r3
	mov	r3, r7
	orrs	r3, r6
	adds	r0, r0, #4
	adds	r2, #32
	cmp	r3, #0
	bne	.LBB84_23
	b	.LBB84_40
.LBB84_31:
	movs	r0, #0
	ldr	r7, [sp, #76]
	mov	r2, r7
.LBB84_32:
	ldr	r4, [r2, #4]
	cmp	r4, r1
	bhs	.LBB84_56
	movs	r4, #1
	eors	r4, r3
	orrs	r4, r6
	beq	.LBB84_40
	ldr	r4, [r2, #12]
	cmp	r4, r1
	bhs	.LBB84_53
	movs	r4, #2
	eors	r4, r3
	orrs	r4, r6
	beq	.LBB84_40
	ldr	r4, [r2, #20]
	cmp	r4, r1
	bhs	.LBB84_54
	movs	r4, #3
	eors	r4, r3
	orrs	r4, r6
	beq	.LBB84_40
	ldr	r4, [r2, #28]
	cmp	r4, r1
	bhs	.LBB84_55
	movs	r4, #0
	subs	r3, r3, #4
	sbcs	r6, r4
	mov	r4, r3
	orrs	r4, r6
	adds	r0, r0, #4
	adds	r2, #32
	cmp	r4, #0
	bne	.LBB84_32
.LBB84_40:
	movs	r0, #1
	ldr	r1, [sp, #88]
	strb	r0, [r1, #1]
	movs	r0, #5
	add	sp, #108
	pop	{r4, r5, r6, r7, pc}
.LBB84_41:
	movs	r0, #0
	b	.LBB84_43
.LBB84_42:
	movs	r0, #2
.LBB84_43:
	bl	tlsf_c.call_fault.CallFault.refusal
	add	sp, #108
	pop	{r4, r5, r6, r7, pc}
.LBB84_44:
	adds	r0, r0, #1
	b	.LBB84_47
.LBB84_45:
	adds	r0, r0, #2
	b	.LBB84_47
.LBB84_46:
	adds	r0, r0, #3
.LBB84_47:
	movs	r2, #173
	lsls	r5, r2, #4
	lsls	r2, r0, #3
	ldr	r2, [r4, r2]
	ldr	r6, [sp, #92]
	ldr	r3, [r6, r5]
	lsls	r4, r0, #2
	ldr	r0, [r3, r4]
	cmp	r0, r2
	blo	.LBB84_48
	b	.LBB84_61
.LBB84_48:
	str	r5, [sp, #64]
	str	r4, [sp, #68]
	ldr	r0, .LCPI84_7
	ldr	r2, [r6, r0]
	movs	r0, #1
	str	r0, [sp, #84]
	lsls	r0, r0, #24
	str	r2, [sp, #104]
	cmp	r2, r0
	bls	.LBB84_49
	b	.LBB84_110
.LBB84_49:
	str	r1, [sp, #76]
	movs	r4, #32
	ldr	r7, [sp, #104]
	mov	r0, r7
	orrs	r0, r4
	bl	__clzsi2
	movs	r1, #26
	str	r1, [sp, #44]
	subs	r0, r1, r0
	subs	r2, r7, #1
	lsrs	r2, r0
	lsls	r0, r0, #5
	adds	r0, r2, r0
	adds	r0, r0, #1
	movs	r3, #0
	subs	r1, r0, #1
	str	r3, [sp, #100]
	mov	r0, r3
	sbcs	r0, r3
	lsrs	r3, r1, #5
	mov	r5, r6
	lsls	r6, r0, #27
	adds	r6, r3, r6
	lsls	r3, r6, #2
	mov	r7, r5
	adds	r7, #84
	str	r7, [sp, #56]
	ldr	r3, [r7, r3]
	movs	r7, #31
	str	r7, [sp, #52]
	ands	r2, r7
	lsrs	r3, r2
	ldr	r2, [sp, #84]
	bics	r3, r2
	beq	.LBB84_62
	cmp	r3, #0
	beq	.LBB84_52
	rsbs	r2, r3, #0
	ands	r2, r3
	ldr	r3, .LCPI84_8
	muls	r3, r2, r3
	lsrs	r2, r3, #27
	adr	r3, .LCPI84_9
	ldrb	r4, [r3, r2]
.LBB84_52:
	adds	r3, r1, r4
	ldr	r1, [sp, #100]
	adcs	r0, r1
	lsrs	r1, r3, #5
	lsls	r0, r0, #27
	adds	r1, r1, r0
	ldr	r0, [sp, #80]
	b	.LBB84_78
.LBB84_53:
	adds	r0, r0, #1
	b	.LBB84_56
.LBB84_54:
	adds	r0, r0, #2
	b	.LBB84_56
.LBB84_55:
	adds	r0, r0, #3
.LBB84_56:
	movs	r2, #173
	lsls	r5, r2, #4
	lsls	r2, r0, #3
	ldr	r2, [r7, r2]
	ldr	r4, [sp, #92]
	ldr	r3, [r4, r5]
	lsls	r6, r0, #2
	ldr	r0, [r3, r6]
	cmp	r0, r2
	bhs	.LBB84_61
	str	r6, [sp, #100]
	ldr	r0, .LCPI84_7
	ldr	r7, [r4, r0]
	movs	r6, #1
	lsls	r0, r6, #20
	cmp	r7, r0
	bls	.LBB84_58
	b	.LBB84_110
.LBB84_58:
	str	r5, [sp, #84]
	str	r1, [sp, #76]
	movs	r1, #16
	mov	r0, r7
	str	r1, [sp, #44]
	orrs	r0, r1
	bl	__clzsi2
	movs	r1, #27
	str	r1, [sp, #40]
	subs	r1, r1, r0
	str	r7, [sp, #68]
	subs	r0, r7, #1
	lsrs	r0, r1
	lsls	r1, r1, #4
	adds	r1, r0, r1
	adds	r1, r1, #1
	movs	r2, #0
	subs	r3, r1, #1
	str	r2, [sp, #104]
	sbcs	r2, r2
	lsrs	r1, r3, #4
	mov	r5, r4
	lsls	r4, r2, #28
	adds	r4, r1, r4
	lsls	r1, r4, #2
	mov	r7, r5
	adds	r7, #84
	str	r7, [sp, #56]
	ldr	r1, [r7, r1]
	movs	r7, #15
	str	r7, [sp, #48]
	ands	r0, r7
	lsrs	r1, r0
	mov	r7, r6
	bics	r1, r6
	beq	.LBB84_68
	cmp	r1, #0
	beq	.LBB84_74
	rsbs	r0, r1, #0
	ands	r0, r1
	ldr	r1, .LCPI84_8
	muls	r1, r0, r1
	lsrs	r0, r1, #27
	adr	r1, .LCPI84_9
	ldrb	r4, [r1, r0]
	b	.LBB84_75
.LBB84_61:
	movs	r0, #1
	ldr	r1, [sp, #88]
	strb	r0, [r1, #1]
	movs	r0, #38
	add	sp, #108
	pop	{r4, r5, r6, r7, pc}
.LBB84_62:
	adds	r0, r6, #1
	ldr	r7, [r5, #80]
	lsrs	r7, r0
	lsls	r7, r0
	ldr	r0, [sp, #80]
	bne	.LBB84_63
	b	.LBB84_110
.LBB84_63:
	ldr	r4, .LCPI84_8
	adr	r3, .LCPI84_9
	movs	r6, #32
	cmp	r7, #0
	mov	r2, r6
	beq	.LBB84_65
	rsbs	r2, r7, #0
	ands	r2, r7
	muls	r2, r4, r2
	lsrs	r2, r2, #27
	ldrb	r2, [r3, r2]
.LBB84_65:
	lsls	r7, r2, #2
	ldr	r1, [sp, #56]
	ldr	r7, [r1, r7]
	cmp	r7, #0
	beq	.LBB84_77
	cmp	r7, #0
	beq	.LBB84_76
	rsbs	r6, r7, #0
	ands	r6, r7
	muls	r4, r6, r4
	lsrs	r4, r4, #27
	ldrb	r6, [r3, r4]
	b	.LBB84_77
.LBB84_68:
	adds	r0, r4, #1
	ldr	r3, [r5, #80]
	lsrs	r3, r0
	lsls	r3, r0
	ldr	r0, [sp, #80]
	bne	.LBB84_69
	b	.LBB84_110
.LBB84_69:
	mov	r6, r7
	ldr	r4, .LCPI84_8
	adr	r1, .LCPI84_9
	movs	r7, #32
	cmp	r3, #0
	mov	r2, r7
	beq	.LBB84_71
	rsbs	r2, r3, #0
	ands	r2, r3
	muls	r2, r4, r2
	lsrs	r2, r2, #27
	ldrb	r2, [r1, r2]
.LBB84_71:
	lsls	r3, r2, #2
	ldr	r1, [sp, #56]
	ldr	r3, [r1, r3]
	cmp	r3, #0
	bne	.LBB84_72
	b	.LBB84_106
.LBB84_72:
	cmp	r3, #0
	bne	.LBB84_73
	b	.LBB84_105
.LBB84_73:
	rsbs	r7, r3, #0
	ands	r7, r3
	muls	r4, r7, r4
	lsrs	r3, r4, #27
	adr	r1, .LCPI84_9
	ldrb	r7, [r1, r3]
	b	.LBB84_106
.LBB84_74:
	movs	r4, #32
.LBB84_75:
	ldr	r0, [sp, #80]
	mov	r6, r7
	adds	r3, r3, r4
	ldr	r1, [sp, #104]
	adcs	r2, r1
	lsrs	r4, r3, #4
	lsls	r2, r2, #28
	adds	r7, r4, r2
	b	.LBB84_107
.LBB84_76:
	movs	r6, #32
.LBB84_77:
	lsls	r2, r2, #5
	adds	r3, r6, r2
	lsrs	r1, r3, #5
.LBB84_78:
	ldr	r6, [sp, #92]
	ldr	r4, [r6, #8]
	ldr	r2, [r6, #12]
	str	r4, [sp, #96]
	ands	r4, r2
	adds	r4, r4, #1
	bne	.LBB84_79
	b	.LBB84_110
.LBB84_79:
	str	r1, [sp, #40]
	str	r2, [sp, #60]
	ldr	r2, [sp, #100]
	mvns	r1, r2
	str	r1, [sp, #48]
	lsls	r4, r3, #2
	mov	r1, r6
	adds	r1, #168
	ldr	r2, [r1, r4]
	str	r2, [sp, #72]
	lsls	r5, r2, #3
	ldr	r6, [r6, #24]
	adds	r7, r6, r5
	ldr	r7, [r7, #16]
	adds	r2, r7, #1
	str	r1, [sp, #36]
	beq	.LBB84_81
	lsls	r2, r7, #3
	adds	r2, r6, r2
	ldr	r3, [sp, #48]
	str	r3, [r2, #20]
	str	r7, [r1, r4]
	ldr	r6, [sp, #92]
	b	.LBB84_83
.LBB84_81:
	movs	r2, #0
	mvns	r2, r2
	str	r2, [r1, r4]
	ldr	r1, [sp, #52]
	ands	r3, r1
	ldr	r7, [sp, #84]
	mov	r2, r7
	lsls	r2, r3
	ldr	r1, [sp, #40]
	lsls	r3, r1, #2
	ldr	r1, [sp, #56]
	ldr	r4, [r1, r3]
	bics	r4, r2
	str	r4, [r1, r3]
	ldr	r6, [sp, #92]
	bne	.LBB84_83
	ldr	r1, [sp, #40]
	lsls	r7, r1
	ldr	r2, [r6, #80]
	bics	r2, r7
	str	r2, [r6, #80]
.LBB84_83:
	ldr	r3, [r6, #24]
	adds	r7, r3, r5
	ldr	r1, [r7, #4]
	str	r1, [sp, #84]
	str	r5, [sp, #40]
	ldr	r2, [r3, r5]
	ldr	r1, [sp, #104]
	lsls	r4, r1, #2
	mov	r5, r6
	subs	r6, r2, r4
	cmp	r6, #15
	bhi	.LBB84_90
	movs	r3, #0
	str	r3, [r7, #20]
	ldr	r1, [sp, #76]
	str	r1, [r7, #16]
	ldr	r4, [sp, #96]
	str	r4, [r7, #8]
	ldr	r4, [sp, #60]
	str	r4, [r7, #12]
	subs	r2, r2, #1
	str	r2, [r7]
	ldr	r6, [sp, #84]
	sbcs	r6, r3
	str	r6, [r7, #4]
	mov	r7, r4
	mov	r4, r1
	lsrs	r1, r2, #2
	b	.LBB84_96
	.p2align	2
.LCPI84_5:
	.long	2792
	.p2align	2
.LCPI84_6:
	.long	2744
	.p2align	2
.LCPI84_7:
	.long	2760
	.p2align	2
.LCPI84_8:
	.long	125613361
	.p2align	2
.LCPI84_9:
	.ascii	"\000\001\034\002\035\016\030\003\036\026\024\017\031\021\004\b\037\033\r\027\025\023\020\007\032\f\022\006\013\005\n\t"
	.p2align	1
.LBB84_90:
	lsrs	r0, r6, #2
	str	r0, [sp, #24]
	ldr	r0, [sp, #76]
	str	r0, [r7, #16]
	ldr	r0, [sp, #96]
	str	r0, [r7, #8]
	ldr	r0, [sp, #72]
	adds	r0, r0, r1
	str	r0, [sp, #32]
	lsls	r1, r0, #3
	adds	r4, r3, r1
	str	r4, [sp, #20]
	subs	r0, r2, r6
	str	r0, [r7]
	str	r1, [sp, #28]
	str	r6, [r3, r1]
	ldr	r0, [sp, #96]
	str	r0, [r4, #8]
	ldr	r4, [sp, #100]
	ldr	r0, [sp, #84]
	sbcs	r0, r4
	str	r0, [sp, #84]
	ldr	r1, [sp, #32]
	lsrs	r0, r1, #6
	lsls	r0, r0, #3
	str	r0, [sp, #12]
	ldr	r5, [r5, #48]
	ldr	r2, [r5, r0]
	str	r2, [sp, #16]
	movs	r2, #63
	ands	r2, r1
	movs	r0, #1
	str	r0, [sp, #8]
	mov	r1, r4
	bl	__aeabi_llsl
	ldr	r2, [sp, #16]
	orrs	r0, r2
	ldr	r3, [sp, #12]
	str	r0, [r5, r3]
	str	r4, [r7, #20]
	ldr	r4, [sp, #24]
	ldr	r0, [sp, #60]
	str	r0, [r7, #12]
	ldr	r2, [sp, #84]
	str	r2, [r7, #4]
	mov	r7, r0
	ldr	r2, [sp, #20]
	str	r0, [r2, #12]
	ldr	r0, [sp, #72]
	str	r0, [r2, #4]
	adds	r0, r5, r3
	ldr	r2, [r0, #4]
	orrs	r2, r1
	str	r2, [r0, #4]
	lsls	r0, r6, #30
	ldr	r6, [sp, #32]
	bmi	.LBB84_92
	adds	r0, r4, r6
	lsls	r0, r0, #3
	ldr	r1, [sp, #92]
	ldr	r1, [r1, #24]
	ldr	r2, [r1, r0]
	ldr	r3, [sp, #48]
	ands	r2, r3
	str	r2, [r1, r0]
	adds	r0, r1, r0
	str	r6, [r0, #4]
.LBB84_92:
	movs	r0, #32
	orrs	r0, r4
	bl	__clzsi2
	ldr	r1, [sp, #44]
	subs	r0, r1, r0
	lsrs	r4, r0
	lsls	r0, r0, #5
	adds	r0, r4, r0
	lsls	r2, r0, #2
	ldr	r3, [sp, #36]
	ldr	r1, [r3, r2]
	str	r6, [r3, r2]
	cmp	r1, #0
	bmi	.LBB84_94
	ldr	r5, [sp, #92]
	ldr	r0, [r5, #24]
	ldr	r2, [sp, #28]
	adds	r2, r0, r2
	str	r1, [r2, #16]
	ldr	r3, [sp, #48]
	str	r3, [r2, #20]
	lsls	r1, r1, #3
	adds	r0, r0, r1
	str	r6, [r0, #20]
	ldr	r1, [r0, #16]
	ands	r1, r3
	str	r1, [r0, #16]
	b	.LBB84_95
.LBB84_94:
	ldr	r5, [sp, #92]
	ldr	r1, [r5, #24]
	ldr	r2, [sp, #28]
	adds	r1, r1, r2
	ldr	r2, [sp, #48]
	str	r2, [r1, #16]
	str	r2, [r1, #20]
	ldr	r1, [sp, #52]
	ands	r4, r1
	ldr	r6, [sp, #8]
	mov	r1, r6
	lsls	r1, r4
	lsrs	r0, r0, #5
	lsls	r2, r0, #2
	ldr	r4, [sp, #56]
	ldr	r3, [r4, r2]
	orrs	r3, r1
	str	r3, [r4, r2]
	lsls	r6, r0
	ldr	r0, [r5, #80]
	orrs	r0, r6
	str	r0, [r5, #80]
.LBB84_95:
	ldr	r0, [sp, #80]
	ldr	r4, [sp, #76]
	ldr	r1, [sp, #104]
.LBB84_96:
	ldr	r2, [r5, #16]
	adds	r2, r2, r1
	str	r2, [r5, #16]
	ldr	r3, [r5, #20]
	cmp	r3, r2
	bhs	.LBB84_98
	str	r2, [r5, #20]
.LBB84_98:
	ldr	r2, [sp, #64]
	adds	r6, r5, r2
	ldr	r2, [r5, #8]
	adds	r2, r2, #1
	str	r2, [r5, #8]
	ldr	r2, [r5, #12]
	ldr	r3, [sp, #100]
	adcs	r2, r3
	str	r2, [r5, #12]
	adds	r2, r4, #1
	adcs	r3, r3
	cmp	r4, #0
	beq	.LBB84_100
	mov	r2, r4
.LBB84_100:
	ldr	r5, [sp, #40]
	beq	.LBB84_102
	ldr	r3, [sp, #100]
.LBB84_102:
	adds	r2, #31
	ldr	r1, [sp, #100]
	adcs	r3, r1
	lsrs	r1, r2, #3
	lsls	r2, r3, #29
	adds	r1, r1, r2
	subs	r1, r1, #3
	ldr	r2, [sp, #92]
	ldr	r4, [r2]
	beq	.LBB84_104
	ldr	r0, [r2, #24]
	adds	r0, r0, r5
	adds	r0, #24
	lsls	r2, r1, #3
	movs	r1, #0
	bl	tlsf_memory_set
	ldr	r0, [sp, #80]
.LBB84_104:
	ldr	r1, [r6]
	ldr	r3, [sp, #68]
	ldr	r2, [r1, r3]
	adds	r2, r2, #1
	str	r2, [r1, r3]
	b	.LBB84_130
.LBB84_105:
	movs	r7, #32
.LBB84_106:
	lsls	r2, r2, #4
	adds	r3, r7, r2
	lsrs	r7, r3, #4
.LBB84_107:
	ldr	r4, [sp, #92]
	ldr	r2, [r4, #8]
	ldr	r1, [r4, #12]
	str	r2, [sp, #96]
	ands	r2, r1
	adds	r2, r2, #1
	beq	.LBB84_110
	str	r7, [sp, #32]
	str	r6, [sp, #64]
	str	r1, [sp, #60]
	ldr	r1, [sp, #104]
	mvns	r5, r1
	mov	r1, r4
	lsls	r4, r3, #2
	mov	r6, r1
	adds	r6, #168
	ldr	r2, [r6, r4]
	str	r2, [sp, #72]
	lsls	r2, r2, #3
	ldr	r7, [r1, #24]
	str	r2, [sp, #52]
	adds	r2, r7, r2
	ldr	r2, [r2, #16]
	adds	r1, r2, #1
	str	r5, [sp, #36]
	str	r6, [sp, #24]
	beq	.LBB84_111
	lsls	r1, r2, #3
	adds	r1, r7, r1
	str	r5, [r1, #20]
	str	r2, [r6, r4]
	ldr	r2, [sp, #92]
	b	.LBB84_113
.LBB84_110:
	movs	r0, #1
	ldr	r1, [sp, #88]
	strb	r0, [r1, #1]
	movs	r0, #2
	add	sp, #108
	pop	{r4, r5, r6, r7, pc}
.LBB84_111:
	movs	r1, #0
	mvns	r1, r1
	str	r1, [r6, r4]
	ldr	r1, [sp, #48]
	ands	r3, r1
	ldr	r5, [sp, #64]
	mov	r1, r5
	lsls	r1, r3
	ldr	r6, [sp, #32]
	lsls	r2, r6, #2
	ldr	r4, [sp, #56]
	ldr	r3, [r4, r2]
	bics	r3, r1
	str	r3, [r4, r2]
	ldr	r2, [sp, #92]
	bne	.LBB84_113
	lsls	r5, r6
	ldr	r1, [r2, #80]
	bics	r1, r5
	str	r1, [r2, #80]
.LBB84_113:
	ldr	r3, [r2, #24]
	ldr	r1, [sp, #52]
	adds	r6, r3, r1
	ldr	r2, [r6, #4]
	str	r2, [sp, #64]
	ldr	r2, [r3, r1]
	ldr	r7, [sp, #68]
	lsls	r1, r7, #2
	subs	r4, r2, r1
	cmp	r4, #15
	ldr	r5, [sp, #84]
	bhi	.LBB84_115
	movs	r1, #0
	str	r1, [r6, #20]
	ldr	r3, [sp, #76]
	str	r3, [r6, #16]
	ldr	r3, [sp, #96]
	str	r3, [r6, #8]
	ldr	r7, [sp, #60]
	str	r7, [r6, #12]
	subs	r2, r2, #1
	str	r2, [r6]
	ldr	r4, [sp, #64]
	sbcs	r4, r1
	str	r4, [r6, #4]
	lsrs	r2, r2, #2
	ldr	r4, [sp, #92]
	ldr	r6, [sp, #100]
	b	.LBB84_121
.LBB84_115:
	lsrs	r0, r4, #2
	str	r0, [sp, #32]
	ldr	r0, [sp, #76]
	str	r0, [r6, #16]
	ldr	r0, [sp, #96]
	str	r0, [r6, #8]
	ldr	r0, [sp, #72]
	adds	r7, r0, r7
	lsls	r5, r7, #3
	adds	r1, r3, r5
	str	r1, [sp, #16]
	subs	r0, r2, r4
	str	r0, [r6]
	str	r5, [sp, #20]
	str	r4, [r3, r5]
	ldr	r0, [sp, #96]
	str	r0, [r1, #8]
	ldr	r5, [sp, #104]
	ldr	r0, [sp, #64]
	sbcs	r0, r5
	str	r0, [sp, #64]
	lsrs	r0, r7, #6
	lsls	r1, r0, #3
	str	r1, [sp, #8]
	ldr	r0, [sp, #92]
	ldr	r0, [r0, #48]
	str	r0, [sp, #12]
	ldr	r0, [r0, r1]
	str	r0, [sp, #4]
	movs	r2, #63
	str	r7, [sp, #28]
	ands	r2, r7
	movs	r0, #1
	str	r0, [sp]
	mov	r1, r5
	bl	__aeabi_llsl
	ldr	r2, [sp, #4]
	orrs	r0, r2
	ldr	r3, [sp, #12]
	ldr	r7, [sp, #8]
	str	r0, [r3, r7]
	str	r5, [r6, #20]
	ldr	r5, [sp, #32]
	ldr	r0, [sp, #60]
	str	r0, [r6, #12]
	ldr	r2, [sp, #64]
	str	r2, [r6, #4]
	ldr	r2, [sp, #16]
	str	r0, [r2, #12]
	ldr	r0, [sp, #72]
	str	r0, [r2, #4]
	adds	r0, r3, r7
	ldr	r2, [r0, #4]
	orrs	r2, r1
	str	r2, [r0, #4]
	lsls	r0, r4, #30
	ldr	r4, [sp, #92]
	bmi	.LBB84_117
	ldr	r6, [sp, #28]
	adds	r0, r5, r6
	lsls	r0, r0, #3
	ldr	r1, [r4, #24]
	ldr	r2, [r1, r0]
	ldr	r3, [sp, #36]
	ands	r2, r3
	str	r2, [r1, r0]
	adds	r0, r1, r0
	str	r6, [r0, #4]
.LBB84_117:
	ldr	r0, [sp, #44]
	orrs	r0, r5
	bl	__clzsi2
	ldr	r1, [sp, #40]
	subs	r0, r1, r0
	lsrs	r5, r0
	lsls	r0, r0, #4
	str	r5, [sp, #32]
	adds	r0, r5, r0
	lsls	r2, r0, #2
	ldr	r3, [sp, #24]
	ldr	r1, [r3, r2]
	ldr	r5, [sp, #28]
	str	r5, [r3, r2]
	cmp	r1, #0
	ldr	r6, [sp, #100]
	ldr	r5, [sp, #84]
	bmi	.LBB84_119
	ldr	r0, [r4, #24]
	ldr	r2, [sp, #20]
	adds	r2, r0, r2
	str	r1, [r2, #16]
	ldr	r3, [sp, #36]
	str	r3, [r2, #20]
	lsls	r1, r1, #3
	adds	r0, r0, r1
	ldr	r1, [sp, #28]
	str	r1, [r0, #20]
	ldr	r1, [r0, #16]
	ands	r1, r3
	str	r1, [r0, #16]
	b	.LBB84_120
.LBB84_119:
	ldr	r1, [r4, #24]
	ldr	r2, [sp, #20]
	adds	r1, r1, r2
	ldr	r2, [sp, #36]
	str	r2, [r1, #16]
	str	r2, [r1, #20]
	ldr	r1, [sp, #48]
	ldr	r2, [sp, #32]
	ands	r2, r1
	ldr	r1, [sp]
	mov	r6, r1
	lsls	r6, r2
	lsrs	r7, r0, #4
	lsls	r2, r7, #2
	ldr	r0, [sp, #56]
	ldr	r3, [r0, r2]
	orrs	r3, r6
	ldr	r6, [sp, #100]
	str	r3, [r0, r2]
	lsls	r1, r7
	ldr	r0, [r4, #80]
	orrs	r0, r1
	str	r0, [r4, #80]
.LBB84_120:
	ldr	r0, [sp, #80]
	ldr	r2, [sp, #68]
	ldr	r7, [sp, #60]
.LBB84_121:
	ldr	r1, [r4, #16]
	adds	r2, r1, r2
	str	r2, [r4, #16]
	ldr	r1, [r4, #20]
	cmp	r1, r2
	bhs	.LBB84_123
	str	r2, [r4, #20]
.LBB84_123:
	adds	r5, r4, r5
	ldr	r1, [r4, #8]
	adds	r1, r1, #1
	str	r1, [r4, #8]
	ldr	r1, [r4, #12]
	ldr	r3, [sp, #104]
	adcs	r1, r3
	str	r1, [r4, #12]
	ldr	r1, [sp, #76]
	adds	r2, r1, #1
	adcs	r3, r3
	cmp	r1, #0
	beq	.LBB84_125
	mov	r2, r1
.LBB84_125:
	beq	.LBB84_127
	ldr	r3, [sp, #104]
.LBB84_127:
	adds	r2, #31
	ldr	r1, [sp, #104]
	adcs	r3, r1
	lsrs	r1, r2, #3
	lsls	r2, r3, #29
	adds	r1, r1, r2
	subs	r1, r1, #3
	mov	r2, r4
	ldr	r4, [r4]
	beq	.LBB84_129
	ldr	r0, [r2, #24]
	ldr	r2, [sp, #52]
	adds	r0, r0, r2
	adds	r0, #24
	lsls	r2, r1, #3
	movs	r1, #0
	bl	tlsf_memory_set
	ldr	r0, [sp, #80]
.LBB84_129:
	ldr	r1, [r5]
	ldr	r2, [r1, r6]
	adds	r2, r2, #1
	str	r2, [r1, r6]
.LBB84_130:
	movs	r1, #1
	ldr	r2, [sp, #88]
	strb	r1, [r2, #1]
	strb	r7, [r0, #12]
	ldr	r2, [sp, #96]
	lsrs	r1, r2, #24
	strb	r1, [r0, #11]
	lsrs	r1, r2, #16
	strb	r1, [r0, #10]
	lsrs	r1, r2, #8
	strb	r1, [r0, #9]
	strb	r2, [r0, #8]
	ldr	r2, [sp, #72]
	lsrs	r1, r2, #24
	strb	r1, [r0, #7]
	lsrs	r1, r2, #16
	strb	r1, [r0, #6]
	lsrs	r1, r2, #8
	strb	r1, [r0, #5]
	strb	r2, [r0, #4]
	lsrs	r1, r4, #24
	strb	r1, [r0, #3]
	lsrs	r1, r4, #16
	strb	r1, [r0, #2]
	lsrs	r1, r4, #8
	strb	r1, [r0, #1]
	strb	r4, [r0]
	lsrs	r1, r7, #24
	strb	r1, [r0, #15]
	lsrs	r1, r7, #16
	strb	r1, [r0, #14]
	lsrs	r1, r7, #8
	strb	r1, [r0, #13]
	movs	r0, #0
	add	sp, #108
	pop	{r4, r5, r6, r7, pc}
.Lfunc_end84:
	.size	tlsf_pools_allocate, .Lfunc_end84-tlsf_pools_allocate
	.cfi_endproc
	.section	.text.tlsf_pools_check,"ax",%progbits
	.globl	tlsf_pools_check
	.p2align	2
	.type	tlsf_pools_check,%function
	.code	16
	.thumb_func
tlsf_pools_check:
	.cfi_startproc
	push	{r4, r5, r6, r7, lr}
	.cfi_def_cfa_offset 20
	.cfi_offset lr, -4
	.cfi_offset r7, -8
	.cfi_offset r6, -12
	.cfi_offset r5, -16
	.cfi_offset r4, -20
	sub	sp, #20
	.cfi_def_cfa_offset 40
	mov	r4, r2
	ldrb	r2, [r0, #8]
	cmp	r2, #0
	bne	.LBB85_1
	b	.LBB85_22
.LBB85_1:
	ldr	r7, [r0]
	ldrb	r0, [r7, #1]
	cmp	r0, #0
	beq	.LBB85_22
	ldrb	r0, [r7]
	cmp	r0, #1
	bne	.LBB85_23
	mov	r5, r3
	ldr	r0, [sp, #44]
	str	r0, [sp, #12]
	ldr	r0, [sp, #40]
	str	r0, [sp, #16]
	movs	r3, #0
	strb	r3, [r7, #1]
	ldr	r2, [r7, #32]
	ldr	r0, [r7, #36]
	ldrb	r6, [r7, #8]
	cmp	r6, #0
	beq	.LBB85_12
	subs	r2, r1, r2
	mov	r2, r3
	sbcs	r2, r0
	bhs	.LBB85_21
	ldr	r0, .LCPI85_0
	muls	r0, r1, r0
	ldr	r1, [r7, #24]
	adds	r6, r1, r0
	ldr	r0, [r6, #32]
	str	r0, [sp, #8]
	subs	r0, r0, #4
	cmp	r4, r0
	bhi	.LBB85_21
	movs	r2, #63
	ands	r2, r4
	ldr	r0, [r6, #48]
	str	r0, [sp, #4]
	lsrs	r0, r4, #6
	lsls	r0, r0, #3
	ldr	r1, [sp, #4]
	ldr	r1, [r1, r0]
	str	r1, [sp]
	ldr	r1, [sp, #4]
	adds	r0, r1, r0
	ldr	r1, [r0, #4]
	str	r3, [sp, #4]
	ldr	r0, [sp]
	bl	__aeabi_llsr
	mov	r1, r0
	ldr	r0, [sp, #4]
	lsls	r1, r1, #31
	beq	.LBB85_21
	cmp	r5, #0
	beq	.LBB85_25
	adds	r6, #24
.LBB85_9:
	mov	r0, r6
	mov	r1, r4
	bl	tlsf_heap.check.examine
	uxtb	r0, r0
	cmp	r0, #1
	bne	.LBB85_26
	movs	r0, #0
	ldr	r2, [sp, #8]
	cmp	r1, r2
	beq	.LBB85_27
	subs	r5, r5, #1
	mov	r4, r1
	bne	.LBB85_9
	b	.LBB85_20
.LBB85_12:
	movs	r3, #0
	subs	r2, r1, r2
	mov	r2, r3
	sbcs	r2, r0
	bhs	.LBB85_21
	ldr	r0, .LCPI85_0
	muls	r0, r1, r0
	ldr	r1, [r7, #24]
	adds	r6, r1, r0
	ldr	r0, [r6, #32]
	str	r0, [sp, #8]
	subs	r0, r0, #4
	cmp	r4, r0
	bhi	.LBB85_21
	movs	r2, #63
	ands	r2, r4
	ldr	r0, [r6, #48]
	str	r0, [sp, #4]
	lsrs	r0, r4, #6
	lsls	r0, r0, #3
	ldr	r1, [sp, #4]
	ldr	r1, [r1, r0]
	str	r1, [sp]
	ldr	r1, [sp, #4]
	adds	r0, r1, r0
	ldr	r1, [r0, #4]
	str	r3, [sp, #4]
	ldr	r0, [sp]
	bl	__aeabi_llsr
	mov	r1, r0
	ldr	r0, [sp, #4]
	lsls	r1, r1, #31
	beq	.LBB85_21
	cmp	r5, #0
	beq	.LBB85_25
	adds	r6, #24
.LBB85_17:
	mov	r0, r6
	mov	r1, r4
	bl	tlsf_heap.check.examine
	uxtb	r0, r0
	cmp	r0, #1
	bne	.LBB85_26
	movs	r0, #0
	ldr	r2, [sp, #8]
	cmp	r1, r2
	beq	.LBB85_27
	subs	r5, r5, #1
	mov	r4, r1
	bne	.LBB85_17
.LBB85_20:
	ldr	r2, [sp, #16]
	mov	r4, r1
	b	.LBB85_28
.LBB85_21:
	movs	r0, #1
	strb	r0, [r7, #1]
	movs	r0, #4
	add	sp, #20
	pop	{r4, r5, r6, r7, pc}
.LBB85_22:
	movs	r0, #0
	b	.LBB85_24
.LBB85_23:
	movs	r0, #2
.LBB85_24:
	bl	tlsf_c.call_fault.CallFault.refusal
	add	sp, #20
	pop	{r4, r5, r6, r7, pc}
.LBB85_25:
	ldr	r2, [sp, #16]
	b	.LBB85_28
.LBB85_26:
	movs	r0, #36
	ldr	r2, [sp, #12]
	b	.LBB85_28
.LBB85_27:
	ldr	r2, [sp, #16]
	mov	r4, r0
.LBB85_28:
	movs	r1, #1
	strb	r1, [r7, #1]
	str	r4, [r2]
	add	sp, #20
	pop	{r4, r5, r6, r7, pc}
	.p2align	2
.LCPI85_0:
	.long	2792
.Lfunc_end85:
	.size	tlsf_pools_check, .Lfunc_end85-tlsf_pools_check
	.cfi_endproc
	.section	.text.tlsf_pools_close,"ax",%progbits
	.globl	tlsf_pools_close
	.p2align	1
	.type	tlsf_pools_close,%function
	.code	16
	.thumb_func
tlsf_pools_close:
	.cfi_startproc
	push	{r7, lr}
	.cfi_def_cfa_offset 8
	.cfi_offset lr, -4
	.cfi_offset r7, -8
	mov	r1, r0
	ldrb	r2, [r0, #8]
	movs	r0, #32
	cmp	r2, #0
	beq	.LBB86_4
	ldr	r2, [r1]
	ldrb	r3, [r2, #1]
	cmp	r3, #1
	bne	.LBB86_4
	ldrb	r0, [r2]
	cmp	r0, #1
	bne	.LBB86_5
	mov	r0, r1
	bl	tlsf_c.arena_slot.ArenaSlot.close
	movs	r0, #0
.LBB86_4:
	pop	{r7, pc}
.LBB86_5:
	movs	r0, #40
	pop	{r7, pc}
.Lfunc_end86:
	.size	tlsf_pools_close, .Lfunc_end86-tlsf_pools_close
	.cfi_endproc
	.section	.text.tlsf_pools_counts,"ax",%progbits
	.globl	tlsf_pools_counts
	.p2align	2
	.type	tlsf_pools_counts,%function
	.code	16
	.thumb_func
tlsf_pools_counts:
	.cfi_startproc
	push	{r4, r5, r6, r7, lr}
	.cfi_def_cfa_offset 20
	.cfi_offset lr, -4
	.cfi_offset r7, -8
	.cfi_offset r6, -12
	.cfi_offset r5, -16
	.cfi_offset r4, -20
	sub	sp, #28
	.cfi_def_cfa_offset 48
	ldrb	r4, [r0, #8]
	cmp	r4, #0
	bne	.LBB87_1
	b	.LBB87_29
.LBB87_1:
	ldr	r4, [r0]
	ldrb	r0, [r4, #1]
	cmp	r0, #0
	bne	.LBB87_2
	b	.LBB87_29
.LBB87_2:
	ldrb	r0, [r4]
	cmp	r0, #1
	beq	.LBB87_3
	b	.LBB87_30
.LBB87_3:
	str	r2, [sp, #4]
	str	r3, [sp, #8]
	movs	r6, #0
	strb	r6, [r4, #1]
	ldr	r2, [r4, #32]
	ldr	r3, [r4, #36]
	ldr	r0, [r4, #24]
	str	r0, [sp, #24]
	str	r4, [sp, #12]
	ldrb	r0, [r4, #8]
	cmp	r0, #0
	str	r2, [sp, #20]
	str	r3, [sp, #16]
	mov	r0, r2
	beq	.LBB87_14
	orrs	r0, r3
	bne	.LBB87_5
	b	.LBB87_24
.LBB87_5:
	mov	r3, r6
	mov	r0, r6
.LBB87_6:
	ldr	r4, .LCPI87_0
	muls	r4, r3, r4
	ldr	r2, [sp, #24]
	adds	r7, r2, r4
	ldr	r2, .LCPI87_1
	adds	r4, r7, r2
	ldr	r4, [r4, #4]
	ldr	r5, [r7, r2]
	subs	r2, r1, r5
	mov	r2, r0
	sbcs	r2, r4
	bhs	.LBB87_7
	b	.LBB87_25
.LBB87_7:
	subs	r1, r1, r5
	sbcs	r0, r4
	movs	r5, #1
	orrs	r5, r3
	ldr	r2, [sp, #20]
	subs	r2, r5, r2
	mov	r2, r6
	ldr	r4, [sp, #16]
	sbcs	r2, r4
	blo	.LBB87_8
	b	.LBB87_24
.LBB87_8:
	ldr	r2, .LCPI87_0
	muls	r5, r2, r5
	ldr	r2, [sp, #24]
	adds	r7, r2, r5
	ldr	r5, .LCPI87_1
	adds	r2, r7, r5
	ldr	r4, [r2, #4]
	ldr	r5, [r7, r5]
	subs	r2, r1, r5
	mov	r2, r0
	sbcs	r2, r4
	bhs	.LBB87_9
	b	.LBB87_25
.LBB87_9:
	subs	r1, r1, r5
	sbcs	r0, r4
	movs	r5, #2
	orrs	r5, r3
	ldr	r2, [sp, #20]
	subs	r2, r5, r2
	mov	r2, r6
	ldr	r4, [sp, #16]
	sbcs	r2, r4
	blo	.LBB87_10
	b	.LBB87_24
.LBB87_10:
	ldr	r2, .LCPI87_0
	muls	r5, r2, r5
	ldr	r2, [sp, #24]
	adds	r7, r2, r5
	ldr	r5, .LCPI87_1
	adds	r2, r7, r5
	ldr	r4, [r2, #4]
	ldr	r5, [r7, r5]
	subs	r2, r1, r5
	mov	r2, r0
	sbcs	r2, r4
	bhs	.LBB87_11
	b	.LBB87_25
.LBB87_11:
	subs	r1, r1, r5
	sbcs	r0, r4
	movs	r5, #3
	orrs	r5, r3
	ldr	r2, [sp, #20]
	subs	r2, r5, r2
	mov	r2, r6
	ldr	r4, [sp, #16]
	sbcs	r2, r4
	bhs	.LBB87_24
	ldr	r2, .LCPI87_0
	muls	r5, r2, r5
	ldr	r2, [sp, #24]
	adds	r7, r2, r5
	ldr	r4, .LCPI87_1
	adds	r2, r7, r4
	ldr	r5, [r2, #4]
	ldr	r4, [r7, r4]
	subs	r2, r1, r4
	mov	r2, r0
	sbcs	r2, r5
	blo	.LBB87_25
	movs	r2, #0
	adds	r3, r3, #4
	adcs	r6, r2
	subs	r1, r1, r4
	sbcs	r0, r5
	ldr	r2, [sp, #20]
	subs	r2, r3, r2
	mov	r2, r6
	ldr	r4, [sp, #16]
	sbcs	r2, r4
	blo	.LBB87_6
	b	.LBB87_24
.LBB87_14:
	orrs	r0, r3
	beq	.LBB87_24
	movs	r2, #0
	mov	r3, r2
	mov	r0, r2
.LBB87_16:
	ldr	r4, .LCPI87_0
	muls	r4, r3, r4
	ldr	r5, [sp, #24]
	adds	r7, r5, r4
	ldr	r5, .LCPI87_1
	adds	r4, r7, r5
	ldr	r4, [r4, #4]
	ldr	r5, [r7, r5]
	subs	r6, r1, r5
	mov	r6, r0
	sbcs	r6, r4
	blo	.LBB87_25
	subs	r1, r1, r5
	sbcs	r0, r4
	movs	r5, #1
	orrs	r5, r3
	ldr	r4, [sp, #20]
	subs	r4, r5, r4
	mov	r4, r2
	ldr	r6, [sp, #16]
	sbcs	r4, r6
	bhs	.LBB87_24
	ldr	r4, .LCPI87_0
	muls	r5, r4, r5
	ldr	r4, [sp, #24]
	adds	r7, r4, r5
	ldr	r5, .LCPI87_1
	adds	r4, r7, r5
	ldr	r4, [r4, #4]
	ldr	r5, [r7, r5]
	subs	r6, r1, r5
	mov	r6, r0
	sbcs	r6, r4
	blo	.LBB87_25
	subs	r1, r1, r5
	sbcs	r0, r4
	movs	r5, #2
	orrs	r5, r3
	ldr	r4, [sp, #20]
	subs	r4, r5, r4
	mov	r4, r2
	ldr	r6, [sp, #16]
	sbcs	r4, r6
	bhs	.LBB87_24
	ldr	r4, .LCPI87_0
	muls	r5, r4, r5
	ldr	r4, [sp, #24]
	adds	r7, r4, r5
	ldr	r5, .LCPI87_1
	adds	r4, r7, r5
	ldr	r4, [r4, #4]
	ldr	r5, [r7, r5]
	subs	r6, r1, r5
	mov	r6, r0
	sbcs	r6, r4
	blo	.LBB87_25
	subs	r1, r1, r5
	sbcs	r0, r4
	movs	r5, #3
	orrs	r5, r3
	ldr	r4, [sp, #20]
	subs	r4, r5, r4
	mov	r4, r2
	ldr	r6, [sp, #16]
	sbcs	r4, r6
	bhs	.LBB87_24
	ldr	r4, .LCPI87_0
	muls	r5, r4, r5
	ldr	r4, [sp, #24]
	adds	r7, r4, r5
	ldr	r5, .LCPI87_1
	adds	r4, r7, r5
	ldr	r6, [r4, #4]
	ldr	r5, [r7, r5]
	subs	r4, r1, r5
	mov	r4, r0
	sbcs	r4, r6
	blo	.LBB87_25
	movs	r4, #0
	adds	r3, r3, #4
	adcs	r2, r4
	subs	r1, r1, r5
	sbcs	r0, r6
	ldr	r4, [sp, #20]
	subs	r4, r3, r4
	mov	r4, r2
	ldr	r5, [sp, #16]
	sbcs	r4, r5
	blo	.LBB87_16
.LBB87_24:
	movs	r0, #1
	ldr	r1, [sp, #12]
	strb	r0, [r1, #1]
	movs	r0, #4
	add	sp, #28
	pop	{r4, r5, r6, r7, pc}
.LBB87_25:
	movs	r2, #173
	lsls	r2, r2, #4
	adds	r2, r7, r2
	ldr	r3, [r2, #8]
	ldr	r4, [r2, #12]
	subs	r3, r1, r3
	sbcs	r0, r4
	bhs	.LBB87_27
	lsls	r0, r1, #2
	ldr	r2, [r2]
	ldr	r0, [r2, r0]
	b	.LBB87_28
.LBB87_27:
	movs	r0, #0
.LBB87_28:
	ldr	r3, [sp, #8]
	ldr	r4, [sp, #4]
	movs	r2, #171
	lsls	r2, r2, #4
	ldr	r2, [r7, r2]
	lsls	r1, r1, #3
	ldr	r1, [r2, r1]
	movs	r2, #1
	ldr	r5, [sp, #12]
	strb	r2, [r5, #1]
	str	r0, [r4]
	str	r1, [r3]
	movs	r0, #0
	add	sp, #28
	pop	{r4, r5, r6, r7, pc}
.LBB87_29:
	movs	r0, #0
	b	.LBB87_31
.LBB87_30:
	movs	r0, #2
.LBB87_31:
	bl	tlsf_c.call_fault.CallFault.refusal
	add	sp, #28
	pop	{r4, r5, r6, r7, pc}
	.p2align	2
.LCPI87_0:
	.long	2792
.LCPI87_1:
	.long	2744
.Lfunc_end87:
	.size	tlsf_pools_counts, .Lfunc_end87-tlsf_pools_counts
	.cfi_endproc
	.section	.text.tlsf_pools_open,"ax",%progbits
	.globl	tlsf_pools_open
	.p2align	2
	.type	tlsf_pools_open,%function
	.code	16
	.thumb_func
tlsf_pools_open:
	.cfi_startproc
	push	{r4, r5, r6, r7, lr}
	.cfi_def_cfa_offset 20
	.cfi_offset lr, -4
	.cfi_offset r7, -8
	.cfi_offset r6, -12
	.cfi_offset r5, -16
	.cfi_offset r4, -20
	sub	sp, #508
	sub	sp, #508
	sub	sp, #52
	.cfi_def_cfa_offset 1088
	movs	r6, #0
	str	r6, [sp, #204]
	str	r6, [sp, #200]
	str	r6, [sp, #196]
	str	r6, [sp, #192]
	str	r6, [sp, #188]
	movs	r4, #1
	cmp	r3, #0
	beq	.LBB88_2
	mov	r7, r4
	b	.LBB88_3
.LBB88_2:
	mov	r7, r4
	lsls	r4, r4, #12
	adds	r3, r3, r4
.LBB88_3:
	ldrb	r4, [r0, #8]
	cmp	r4, #0
	beq	.LBB88_5
	movs	r0, #33
	b	.LBB88_7
.LBB88_5:
	mvns	r4, r7
	subs	r5, r1, #6
	cmp	r5, r4
	bhs	.LBB88_8
	movs	r0, #34
.LBB88_7:
	add	sp, #508
	add	sp, #508
	add	sp, #52
	pop	{r4, r5, r6, r7, pc}
.LBB88_8:
	mov	r4, r0
	movs	r0, #7
	mvns	r5, r0
	movs	r0, #5
	cmp	r2, r5
	bhi	.LBB88_7
	str	r6, [sp, #140]
	add	r6, sp, #964
	ldr	r6, [r6, #124]
	cmp	r6, #64
	bhi	.LBB88_7
	str	r2, [sp, #128]
	str	r4, [sp, #120]
	ldr	r4, [sp, #140]
	str	r4, [sp, #720]
	str	r4, [sp, #724]
	str	r4, [sp, #728]
	str	r4, [sp, #732]
	str	r4, [sp, #736]
	lsls	r2, r7, #9
	add	r0, sp, #208
	str	r1, [sp, #136]
	mov	r1, r4
	str	r3, [sp, #156]
	bl	tlsf_memory_set
	cmp	r6, #0
	bne	.LBB88_11
	b	.LBB88_38
.LBB88_11:
	movs	r1, #3
	mov	r0, r6
	str	r1, [sp, #148]
	ands	r0, r1
	str	r0, [sp, #132]
	movs	r5, #0
	cmp	r6, #4
	str	r5, [sp, #116]
	bhs	.LBB88_12
	b	.LBB88_26
.LBB88_12:
	movs	r0, #124
	str	r6, [sp, #124]
	ands	r0, r6
	str	r0, [sp, #144]
	movs	r3, #0
	mov	r5, r3
	mov	r2, r3
	mov	r4, r7
	str	r7, [sp, #152]
	str	r3, [sp, #180]
	b	.LBB88_14
.LBB88_13:
	ldr	r2, [sp, #176]
	adds	r0, r7, r5
	str	r6, [r0, #4]
	ldr	r5, [sp, #184]
	adds	r5, r5, #4
	ldr	r3, [sp, #180]
	adcs	r2, r3
	mov	r0, r5
	ldr	r1, [sp, #144]
	eors	r0, r1
	orrs	r0, r2
	bne	.LBB88_14
	b	.LBB88_25
.LBB88_14:
	str	r2, [sp, #176]
	lsls	r1, r5, #4
	ldr	r7, [sp, #156]
	ldrb	r3, [r7, r1]
	adds	r2, r7, r1
	ldrb	r1, [r2, #1]
	lsls	r1, r1, #8
	adds	r1, r1, r3
	ldrb	r3, [r2, #2]
	lsls	r3, r3, #16
	mov	r0, r5
	ldrb	r5, [r2, #3]
	lsls	r5, r5, #24
	adds	r3, r5, r3
	adds	r1, r3, r1
	lsls	r3, r0, #3
	add	r5, sp, #208
	str	r3, [sp, #160]
	str	r1, [r5, r3]
	mov	r1, r0
	mov	r3, r4
	mov	r4, r0
	str	r0, [sp, #184]
	orrs	r1, r3
	lsls	r3, r1, #4
	ldrb	r0, [r7, r3]
	adds	r3, r7, r3
	ldrb	r6, [r3, #1]
	lsls	r6, r6, #8
	adds	r0, r6, r0
	str	r0, [sp, #172]
	ldrb	r6, [r3, #2]
	lsls	r6, r6, #16
	ldrb	r0, [r3, #3]
	lsls	r0, r0, #24
	adds	r0, r0, r6
	ldr	r6, [sp, #172]
	adds	r0, r0, r6
	lsls	r1, r1, #3
	str	r1, [sp, #164]
	str	r0, [r5, r1]
	movs	r0, #2
	orrs	r0, r4
	lsls	r1, r0, #4
	ldrb	r4, [r7, r1]
	adds	r1, r7, r1
	ldrb	r6, [r1, #1]
	lsls	r6, r6, #8
	adds	r4, r6, r4
	str	r4, [sp, #172]
	ldrb	r6, [r1, #2]
	lsls	r6, r6, #16
	ldrb	r4, [r1, #3]
	lsls	r4, r4, #24
	adds	r4, r4, r6
	ldr	r6, [sp, #172]
	adds	r4, r4, r6
	lsls	r0, r0, #3
	str	r0, [sp, #168]
	str	r4, [r5, r0]
	ldr	r0, [sp, #184]
	ldr	r4, [sp, #148]
	orrs	r0, r4
	lsls	r4, r0, #4
	ldrb	r6, [r7, r4]
	adds	r7, r7, r4
	ldrb	r4, [r7, #1]
	lsls	r4, r4, #8
	adds	r4, r4, r6
	ldrb	r6, [r7, #2]
	lsls	r6, r6, #16
	str	r7, [sp, #172]
	ldrb	r7, [r7, #3]
	lsls	r7, r7, #24
	adds	r6, r7, r6
	adds	r4, r6, r4
	lsls	r0, r0, #3
	mov	r7, r5
	str	r4, [r5, r0]
	mov	r5, r0
	ldrb	r0, [r2, #12]
	ldrb	r4, [r2, #13]
	lsls	r4, r4, #8
	adds	r0, r4, r0
	ldrb	r4, [r2, #14]
	lsls	r4, r4, #16
	ldrb	r6, [r2, #15]
	lsls	r6, r6, #24
	adds	r4, r6, r4
	adds	r0, r4, r0
	ldr	r4, [sp, #180]
	mvns	r6, r4
	cmp	r0, #0
	beq	.LBB88_16
	mov	r2, r6
	b	.LBB88_17
.LBB88_16:
	ldrb	r0, [r2, #8]
	ldrb	r4, [r2, #9]
	lsls	r4, r4, #8
	adds	r0, r4, r0
	ldrb	r4, [r2, #10]
	lsls	r4, r4, #16
	ldrb	r2, [r2, #11]
	lsls	r2, r2, #24
	adds	r2, r2, r4
	adds	r2, r2, r0
.LBB88_17:
	ldr	r0, [sp, #160]
	adds	r0, r7, r0
	str	r2, [r0, #4]
	ldrb	r0, [r3, #12]
	ldrb	r2, [r3, #13]
	lsls	r2, r2, #8
	adds	r0, r2, r0
	ldrb	r2, [r3, #14]
	lsls	r2, r2, #16
	ldrb	r4, [r3, #15]
	lsls	r4, r4, #24
	adds	r2, r4, r2
	adds	r0, r2, r0
	ldr	r4, [sp, #152]
	beq	.LBB88_19
	mov	r2, r6
	b	.LBB88_20
.LBB88_19:
	ldrb	r0, [r3, #8]
	ldrb	r2, [r3, #9]
	lsls	r2, r2, #8
	adds	r0, r2, r0
	ldrb	r2, [r3, #10]
	lsls	r2, r2, #16
	ldrb	r3, [r3, #11]
	lsls	r3, r3, #24
	adds	r2, r3, r2
	adds	r2, r2, r0
.LBB88_20:
	ldr	r0, [sp, #164]
	adds	r0, r7, r0
	str	r2, [r0, #4]
	ldrb	r0, [r1, #12]
	ldrb	r2, [r1, #13]
	lsls	r2, r2, #8
	adds	r0, r2, r0
	ldrb	r2, [r1, #14]
	lsls	r2, r2, #16
	ldrb	r3, [r1, #15]
	lsls	r3, r3, #24
	adds	r2, r3, r2
	adds	r0, r2, r0
	beq	.LBB88_22
	mov	r1, r6
	b	.LBB88_23
.LBB88_22:
	ldrb	r0, [r1, #8]
	ldrb	r2, [r1, #9]
	lsls	r2, r2, #8
	adds	r0, r2, r0
	ldrb	r2, [r1, #10]
	lsls	r2, r2, #16
	ldrb	r1, [r1, #11]
	lsls	r1, r1, #24
	adds	r1, r1, r2
	adds	r1, r1, r0
.LBB88_23:
	ldr	r3, [sp, #172]
	ldr	r0, [sp, #168]
	adds	r0, r7, r0
	str	r1, [r0, #4]
	ldrb	r0, [r3, #12]
	ldrb	r1, [r3, #13]
	lsls	r1, r1, #8
	adds	r0, r1, r0
	ldrb	r1, [r3, #14]
	lsls	r1, r1, #16
	ldrb	r2, [r3, #15]
	lsls	r2, r2, #24
	adds	r1, r2, r1
	adds	r0, r1, r0
	beq	.LBB88_24
	b	.LBB88_13
.LBB88_24:
	ldrb	r0, [r3, #8]
	ldrb	r1, [r3, #9]
	lsls	r1, r1, #8
	adds	r0, r1, r0
	ldrb	r1, [r3, #10]
	lsls	r1, r1, #16
	ldrb	r2, [r3, #11]
	lsls	r2, r2, #24
	adds	r1, r2, r1
	adds	r6, r1, r0
	b	.LBB88_13
.LBB88_25:
	mov	r7, r4
	ldr	r0, [sp, #132]
	cmp	r0, #0
	ldr	r6, [sp, #124]
	bne	.LBB88_26
	b	.LBB88_38
.LBB88_26:
	lsls	r0, r5, #4
	ldr	r1, [sp, #156]
	ldrb	r2, [r1, r0]
	adds	r1, r1, r0
	ldrb	r0, [r1, #1]
	lsls	r0, r0, #8
	adds	r0, r0, r2
	ldrb	r2, [r1, #2]
	lsls	r2, r2, #16
	ldrb	r3, [r1, #3]
	lsls	r3, r3, #24
	adds	r2, r3, r2
	adds	r3, r2, r0
	str	r5, [sp, #184]
	lsls	r0, r5, #3
	add	r2, sp, #208
	str	r3, [r2, r0]
	ldrb	r3, [r1, #12]
	ldrb	r4, [r1, #13]
	lsls	r4, r4, #8
	adds	r3, r4, r3
	ldrb	r4, [r1, #14]
	lsls	r4, r4, #16
	ldrb	r5, [r1, #15]
	lsls	r5, r5, #24
	adds	r4, r5, r4
	adds	r3, r4, r3
	beq	.LBB88_28
	ldr	r1, [sp, #116]
	mvns	r1, r1
	b	.LBB88_29
.LBB88_28:
	ldrb	r3, [r1, #8]
	ldrb	r4, [r1, #9]
	lsls	r4, r4, #8
	adds	r3, r4, r3
	ldrb	r4, [r1, #10]
	lsls	r4, r4, #16
	ldrb	r1, [r1, #11]
	lsls	r1, r1, #24
	adds	r1, r1, r4
	adds	r1, r1, r3
.LBB88_29:
	adds	r0, r2, r0
	str	r1, [r0, #4]
	ldr	r0, [sp, #132]
	cmp	r0, #1
	ldr	r0, [sp, #184]
	beq	.LBB88_38
	adds	r0, r0, #1
	lsls	r1, r0, #4
	ldr	r3, [sp, #156]
	ldrb	r2, [r3, r1]
	adds	r1, r3, r1
	ldrb	r3, [r1, #1]
	lsls	r3, r3, #8
	adds	r2, r3, r2
	ldrb	r3, [r1, #2]
	lsls	r3, r3, #16
	ldrb	r4, [r1, #3]
	lsls	r4, r4, #24
	adds	r3, r4, r3
	adds	r3, r3, r2
	lsls	r0, r0, #3
	add	r2, sp, #208
	str	r3, [r2, r0]
	ldrb	r3, [r1, #12]
	ldrb	r4, [r1, #13]
	lsls	r4, r4, #8
	adds	r3, r4, r3
	ldrb	r4, [r1, #14]
	lsls	r4, r4, #16
	ldrb	r5, [r1, #15]
	lsls	r5, r5, #24
	adds	r4, r5, r4
	adds	r3, r4, r3
	beq	.LBB88_32
	ldr	r1, [sp, #116]
	mvns	r1, r1
	b	.LBB88_33
.LBB88_32:
	ldrb	r3, [r1, #8]
	ldrb	r4, [r1, #9]
	lsls	r4, r4, #8
	adds	r3, r4, r3
	ldrb	r4, [r1, #10]
	lsls	r4, r4, #16
	ldrb	r1, [r1, #11]
	lsls	r1, r1, #24
	adds	r1, r1, r4
	adds	r1, r1, r3
.LBB88_33:
	adds	r0, r2, r0
	str	r1, [r0, #4]
	ldr	r0, [sp, #132]
	cmp	r0, #2
	ldr	r0, [sp, #184]
	beq	.LBB88_38
	adds	r0, r0, #2
	lsls	r1, r0, #4
	ldr	r3, [sp, #156]
	ldrb	r2, [r3, r1]
	adds	r1, r3, r1
	ldrb	r3, [r1, #1]
	lsls	r3, r3, #8
	adds	r2, r3, r2
	ldrb	r3, [r1, #2]
	lsls	r3, r3, #16
	ldrb	r4, [r1, #3]
	lsls	r4, r4, #24
	adds	r3, r4, r3
	adds	r3, r3, r2
	lsls	r0, r0, #3
	add	r2, sp, #208
	str	r3, [r2, r0]
	ldrb	r3, [r1, #12]
	ldrb	r4, [r1, #13]
	lsls	r4, r4, #8
	adds	r3, r4, r3
	ldrb	r4, [r1, #14]
	lsls	r4, r4, #16
	ldrb	r5, [r1, #15]
	lsls	r5, r5, #24
	adds	r4, r5, r4
	adds	r3, r4, r3
	beq	.LBB88_36
	ldr	r1, [sp, #116]
	mvns	r1, r1
	b	.LBB88_37
.LBB88_36:
	ldrb	r3, [r1, #8]
	ldrb	r4, [r1, #9]
	lsls	r4, r4, #8
	adds	r3, r4, r3
	ldrb	r4, [r1, #10]
	lsls	r4, r4, #16
	ldrb	r1, [r1, #11]
	lsls	r1, r1, #24
	adds	r1, r1, r4
	adds	r1, r1, r3
.LBB88_37:
	adds	r0, r2, r0
	str	r1, [r0, #4]
.LBB88_38:
	ldr	r5, [sp, #140]
	str	r5, [sp, #768]
	str	r5, [sp, #772]
	str	r5, [sp, #776]
	str	r5, [sp, #780]
	str	r5, [sp, #784]
	str	r5, [sp, #788]
	str	r5, [sp, #792]
	str	r5, [sp, #740]
	str	r5, [sp, #744]
	str	r5, [sp, #748]
	str	r5, [sp, #752]
	str	r5, [sp, #756]
	str	r5, [sp, #760]
	str	r5, [sp, #764]
	ldr	r0, [sp, #136]
	cmp	r0, #4
	beq	.LBB88_39
	b	.LBB88_46
.LBB88_39:
	add	r4, sp, #856
	movs	r5, #0
	movs	r2, #88
	mov	r0, r4
	mov	r1, r5
	bl	tlsf_memory_set
	add	r0, sp, #824
	strh	r5, [r0, #28]
	str	r5, [sp, #824]
	str	r5, [sp, #828]
	str	r5, [sp, #832]
	str	r5, [sp, #836]
	str	r5, [sp, #840]
	str	r5, [sp, #844]
	str	r5, [sp, #848]
	str	r5, [sp, #796]
	str	r5, [sp, #800]
	str	r5, [sp, #804]
	str	r5, [sp, #808]
	str	r5, [sp, #812]
	str	r5, [sp, #816]
	str	r5, [sp, #820]
	add	r1, sp, #208
	mov	r0, r4
	mov	r2, r6
	str	r5, [sp, #140]
	mov	r3, r5
	bl	tlsf_pool.sizes.split.rising_split.4
	ldrb	r0, [r4]
	cmp	r0, #1
	beq	.LBB88_40
	bl	.LBB88_261
.LBB88_40:
	add	r1, sp, #856
	adds	r1, #8
	add	r0, sp, #944
	movs	r4, #80
	mov	r2, r4
	bl	tlsf_memory_cpy
	movs	r0, #0
	add	r1, sp, #920
	str	r0, [r1, #124]
	add	r1, sp, #916
	str	r0, [r1, #124]
	add	r1, sp, #912
	str	r0, [r1, #124]
	add	r1, sp, #908
	str	r0, [r1, #124]
	add	r1, sp, #904
	str	r0, [r1, #124]
	str	r0, [sp, #180]
	add	r1, sp, #900
	str	r0, [r1, #124]
	ldr	r5, [sp, #948]
	ldr	r3, [sp, #944]
	mov	r0, r3
	orrs	r0, r5
	bne	.LBB88_41
	bl	.LBB88_208
.LBB88_41:
	movs	r0, #2
	str	r0, [sp, #140]
	ldr	r0, .LCPI88_12
	ldr	r1, .LCPI88_13
	subs	r1, r3, r1
	mov	r1, r5
	sbcs	r1, r0
	blo	.LBB88_42
	bl	.LBB88_261
.LBB88_42:
	ldr	r2, .LCPI88_14
	str	r3, [sp, #40]
	mov	r0, r3
	mov	r1, r5
	ldr	r3, [sp, #180]
	bl	__aeabi_lmul
	mov	r3, r0
	cmp	r1, #0
	beq	.LBB88_44
	ldr	r0, [sp, #180]
	mvns	r3, r0
.LBB88_44:
	add	r0, sp, #1020
	adds	r0, #28
	movs	r2, #8
	mov	r1, r3
	bl	tlsf_memory_alloc
	add	r0, sp, #924
	ldr	r0, [r0, #124]
	lsls	r0, r0, #31
	bne	.LBB88_45
	bl	.LBB88_261
.LBB88_45:
	str	r4, [sp, #24]
	add	r2, sp, #932
	ldr	r2, [r2, #124]
	ldr	r1, [sp, #40]
	add	r0, sp, #916
	str	r1, [r0, #124]
	ldr	r0, [sp, #180]
	add	r3, sp, #912
	str	r0, [r3, #124]
	add	r3, sp, #908
	str	r0, [r3, #124]
	add	r3, sp, #904
	str	r0, [r3, #124]
	str	r2, [sp, #112]
	add	r3, sp, #900
	str	r2, [r3, #124]
	str	r5, [sp, #20]
	add	r2, sp, #920
	str	r5, [r2, #124]
	movs	r2, #3
	str	r2, [sp, #12]
	mvns	r2, r2
	str	r2, [sp, #16]
	mvns	r2, r0
	str	r2, [sp, #32]
	add	r2, sp, #944
	adds	r2, #8
	str	r2, [sp, #36]
	movs	r2, #19
	str	r2, [sp, #28]
	add	r2, sp, #208
	str	r2, [sp, #184]
	mov	r7, r0
	mov	r4, r0
	mov	r2, r0
	mov	r5, r0
	b	.LBB88_57
.LBB88_46:
	add	r4, sp, #856
	movs	r2, #88
	mov	r0, r4
	mov	r1, r5
	bl	tlsf_memory_set
	add	r0, sp, #824
	strh	r5, [r0, #28]
	str	r5, [sp, #824]
	str	r5, [sp, #828]
	str	r5, [sp, #832]
	str	r5, [sp, #836]
	str	r5, [sp, #840]
	str	r5, [sp, #844]
	str	r5, [sp, #848]
	str	r5, [sp, #796]
	str	r5, [sp, #800]
	str	r5, [sp, #804]
	str	r5, [sp, #808]
	str	r5, [sp, #812]
	str	r5, [sp, #816]
	str	r5, [sp, #820]
	add	r1, sp, #208
	mov	r0, r4
	mov	r2, r6
	mov	r3, r5
	bl	tlsf_pool.sizes.split.rising_split.5
	ldrb	r0, [r4]
	cmp	r0, #1
	beq	.LBB88_47
	bl	.LBB88_261
.LBB88_47:
	add	r1, sp, #856
	adds	r1, #8
	add	r0, sp, #944
	movs	r4, #80
	mov	r2, r4
	bl	tlsf_memory_cpy
	movs	r0, #0
	add	r1, sp, #920
	str	r0, [r1, #124]
	add	r1, sp, #916
	str	r0, [r1, #124]
	add	r1, sp, #912
	str	r0, [r1, #124]
	add	r1, sp, #908
	str	r0, [r1, #124]
	add	r1, sp, #904
	str	r0, [r1, #124]
	str	r0, [sp, #180]
	add	r1, sp, #900
	str	r0, [r1, #124]
	ldr	r5, [sp, #948]
	ldr	r3, [sp, #944]
	mov	r0, r3
	orrs	r0, r5
	bne	.LBB88_48
	bl	.LBB88_210
.LBB88_48:
	movs	r0, #2
	str	r0, [sp, #140]
	ldr	r0, .LCPI88_12
	ldr	r1, .LCPI88_13
	subs	r1, r3, r1
	mov	r1, r5
	sbcs	r1, r0
	blo	.LBB88_49
	bl	.LBB88_261
.LBB88_49:
	ldr	r2, .LCPI88_14
	str	r3, [sp, #32]
	mov	r0, r3
	mov	r1, r5
	ldr	r3, [sp, #180]
	bl	__aeabi_lmul
	mov	r3, r0
	cmp	r1, #0
	beq	.LBB88_51
	ldr	r0, [sp, #180]
	mvns	r3, r0
.LBB88_51:
	add	r0, sp, #1020
	adds	r0, #28
	movs	r2, #8
	mov	r1, r3
	bl	tlsf_memory_alloc
	add	r0, sp, #924
	ldr	r0, [r0, #124]
	lsls	r0, r0, #31
	bne	.LBB88_52
	bl	.LBB88_261
.LBB88_52:
	str	r4, [sp, #104]
	add	r2, sp, #932
	ldr	r2, [r2, #124]
	ldr	r1, [sp, #32]
	add	r0, sp, #916
	str	r1, [r0, #124]
	ldr	r0, [sp, #180]
	add	r3, sp, #912
	str	r0, [r3, #124]
	add	r3, sp, #908
	str	r0, [r3, #124]
	add	r3, sp, #904
	str	r0, [r3, #124]
	str	r2, [sp, #108]
	add	r3, sp, #900
	str	r2, [r3, #124]
	str	r5, [sp, #16]
	add	r2, sp, #920
	str	r5, [r2, #124]
	movs	r2, #3
	str	r2, [sp, #8]
	mvns	r2, r2
	str	r2, [sp, #12]
	mvns	r2, r0
	str	r2, [sp, #24]
	add	r2, sp, #944
	adds	r2, #8
	str	r2, [sp, #28]
	movs	r2, #19
	str	r2, [sp, #20]
	add	r2, sp, #208
	str	r2, [sp, #184]
	str	r0, [sp, #176]
	mov	r3, r0
	mov	r2, r0
	mov	r5, r0
	str	r7, [sp, #152]
	b	.LBB88_137
	.p2align	2
.LCPI88_12:
	.long	769156
	.p2align	2
.LCPI88_13:
	.long	147677959
	.p2align	2
.LCPI88_14:
	.long	2792
	.p2align	1
.LBB88_56:
	ldr	r2, [sp, #152]
	adds	r2, r2, #1
	ldr	r0, [sp, #76]
	adcs	r5, r0
	ldr	r0, [sp, #172]
	subs	r6, r6, r0
	ldr	r1, [sp, #168]
	sbcs	r4, r1
	lsls	r0, r0, #3
	ldr	r1, [sp, #184]
	adds	r1, r1, r0
	str	r1, [sp, #184]
	ldr	r1, [sp, #40]
	subs	r0, r2, r1
	mov	r0, r5
	ldr	r3, [sp, #20]
	sbcs	r0, r3
	ldr	r0, [sp, #104]
	str	r0, [sp, #180]
	ldr	r7, [sp, #176]
	blo	.LBB88_57
	bl	.LBB88_209
.LBB88_57:
	str	r2, [sp, #152]
	mvns	r0, r2
	adds	r0, r1, r0
	lsls	r1, r0, #3
	ldr	r2, [sp, #36]
	adds	r0, r2, r1
	ldr	r0, [r0, #4]
	ldr	r1, [r2, r1]
	subs	r2, r6, r1
	mov	r2, r4
	sbcs	r2, r0
	str	r6, [sp, #172]
	blo	.LBB88_59
	str	r1, [sp, #172]
.LBB88_59:
	str	r5, [sp, #108]
	mov	r5, r4
	blo	.LBB88_61
	mov	r5, r0
.LBB88_61:
	ldr	r0, [sp, #184]
	ldr	r2, [sp, #172]
	mov	r3, r5
	bl	tlsf_pool.sizes.region.region_words.4
	uxtb	r0, r0
	cmp	r0, #1
	beq	.LBB88_62
	bl	.LBB88_266
.LBB88_62:
	mov	r2, r1
	ldr	r1, .LCPI88_44
	adds	r0, r1, r2
	subs	r0, r0, #4
	cmp	r0, r1
	bhs	.LBB88_63
	bl	.LBB88_219
.LBB88_63:
	str	r5, [sp, #168]
	lsls	r1, r2, #3
	add	r0, sp, #1020
	adds	r0, #28
	mov	r5, r2
	movs	r2, #8
	bl	tlsf_memory_alloc
	add	r0, sp, #924
	ldr	r0, [r0, #124]
	movs	r1, #2
	str	r1, [sp, #140]
	lsls	r0, r0, #31
	bne	.LBB88_64
	bl	.LBB88_227
.LBB88_64:
	str	r4, [sp, #92]
	mov	r4, r7
	str	r6, [sp, #124]
	add	r6, sp, #932
	ldr	r6, [r6, #124]
	movs	r7, #0
	str	r7, [r6]
	str	r7, [r6, #4]
	str	r7, [r6, #8]
	str	r7, [r6, #12]
	str	r7, [r6, #16]
	str	r7, [r6, #20]
	str	r7, [r6, #24]
	str	r7, [r6, #28]
	str	r5, [sp, #164]
	adds	r5, #63
	lsrs	r5, r5, #6
	lsls	r1, r5, #3
	add	r0, sp, #1020
	adds	r0, #28
	movs	r2, #8
	str	r2, [sp, #88]
	bl	tlsf_memory_alloc
	add	r0, sp, #924
	ldr	r0, [r0, #124]
	lsls	r0, r0, #31
	bne	.LBB88_65
	bl	.LBB88_220
.LBB88_65:
	add	r3, sp, #932
	ldr	r3, [r3, #124]
	str	r7, [r3]
	str	r7, [r6, #8]
	ldr	r0, [sp, #28]
	str	r0, [r6]
	str	r7, [r3, #4]
	ldr	r0, [r3]
	movs	r1, #1
	str	r1, [sp, #156]
	orrs	r0, r1
	str	r0, [r3]
	ldr	r0, [sp, #32]
	str	r0, [r6, #4]
	str	r7, [r6, #12]
	str	r0, [r6, #16]
	str	r0, [r6, #20]
	add	r0, sp, #916
	ldr	r0, [r0, #124]
	ldr	r2, [sp, #180]
	eors	r0, r2
	add	r1, sp, #920
	ldr	r1, [r1, #124]
	eors	r1, r4
	orrs	r1, r0
	str	r3, [sp, #160]
	bne	.LBB88_66
	b	.LBB88_127
.LBB88_66:
	str	r4, [sp, #176]
	str	r2, [sp, #148]
	ldr	r0, [sp, #128]
	ldr	r1, [sp, #152]
	adds	r0, r0, r1
	str	r0, [sp, #132]
	ldr	r1, .LCPI88_16
	muls	r1, r2, r1
	ldr	r2, [sp, #112]
	strb	r0, [r2, r1]
	adds	r4, r2, r1
	movs	r1, #68
	strb	r7, [r4, r1]
	movs	r1, #64
	strb	r5, [r4, r1]
	movs	r1, #60
	strb	r7, [r4, r1]
	movs	r1, #56
	ldr	r0, [sp, #156]
	strb	r0, [r4, r1]
	movs	r1, #44
	strb	r7, [r4, r1]
	movs	r1, #40
	ldr	r2, [sp, #164]
	strb	r2, [r4, r1]
	movs	r1, #36
	strb	r7, [r4, r1]
	movs	r1, #32
	movs	r2, #4
	strb	r2, [r4, r1]
	str	r2, [sp, #104]
	movs	r1, #84
	mov	r3, r5
	movs	r5, #16
	str	r5, [sp, #144]
	strb	r5, [r4, r1]
	ldr	r5, [sp, #24]
	strb	r0, [r4, r5]
	movs	r1, #76
	strb	r7, [r4, r1]
	movs	r1, #72
	strb	r2, [r4, r1]
	movs	r1, #52
	strb	r7, [r4, r1]
	movs	r1, #48
	ldr	r2, [sp, #160]
	strb	r2, [r4, r1]
	strb	r7, [r4, #15]
	strb	r7, [r4, #14]
	strb	r7, [r4, #13]
	strb	r7, [r4, #12]
	strb	r7, [r4, #11]
	strb	r7, [r4, #10]
	strb	r7, [r4, #9]
	strb	r0, [r4, #8]
	strb	r7, [r4, #31]
	strb	r7, [r4, #30]
	strb	r7, [r4, #29]
	strb	r7, [r4, #28]
	lsrs	r1, r6, #24
	strb	r1, [r4, #27]
	lsrs	r1, r6, #16
	strb	r1, [r4, #26]
	lsrs	r1, r6, #8
	strb	r1, [r4, #25]
	strb	r6, [r4, #24]
	strb	r7, [r4, #23]
	strb	r7, [r4, #22]
	strb	r7, [r4, #21]
	strb	r7, [r4, #20]
	strb	r7, [r4, #19]
	strb	r7, [r4, #18]
	strb	r7, [r4, #17]
	strb	r7, [r4, #16]
	ldr	r0, [sp, #132]
	lsrs	r1, r0, #24
	strb	r1, [r4, #3]
	lsrs	r1, r0, #16
	strb	r1, [r4, #2]
	lsrs	r0, r0, #8
	strb	r0, [r4, #1]
	mov	r0, r4
	adds	r0, #68
	strb	r7, [r0, #3]
	strb	r7, [r0, #2]
	strb	r7, [r0, #1]
	mov	r0, r4
	adds	r0, #64
	lsrs	r1, r3, #24
	strb	r1, [r0, #3]
	lsrs	r1, r3, #16
	strb	r1, [r0, #2]
	lsrs	r1, r3, #8
	strb	r1, [r0, #1]
	mov	r0, r4
	adds	r0, #60
	strb	r7, [r0, #3]
	strb	r7, [r0, #2]
	strb	r7, [r0, #1]
	mov	r0, r4
	adds	r0, #56
	strb	r7, [r0, #3]
	strb	r7, [r0, #2]
	strb	r7, [r0, #1]
	mov	r0, r4
	adds	r0, #44
	strb	r7, [r0, #3]
	strb	r7, [r0, #2]
	strb	r7, [r0, #1]
	mov	r0, r4
	adds	r0, #40
	ldr	r3, [sp, #164]
	lsrs	r1, r3, #24
	strb	r1, [r0, #3]
	lsrs	r1, r3, #16
	strb	r1, [r0, #2]
	lsrs	r1, r3, #8
	strb	r1, [r0, #1]
	mov	r0, r4
	adds	r0, #36
	strb	r7, [r0, #3]
	strb	r7, [r0, #2]
	strb	r7, [r0, #1]
	mov	r0, r4
	adds	r0, #32
	strb	r7, [r0, #3]
	strb	r7, [r0, #2]
	strb	r7, [r0, #1]
	mov	r0, r4
	adds	r0, #84
	strb	r7, [r0, #3]
	strb	r7, [r0, #2]
	strb	r7, [r0, #1]
	mov	r0, r4
	adds	r0, #80
	strb	r7, [r0, #3]
	strb	r7, [r0, #2]
	strb	r7, [r0, #1]
	mov	r0, r4
	adds	r0, #76
	strb	r7, [r0, #3]
	strb	r7, [r0, #2]
	strb	r7, [r0, #1]
	mov	r0, r4
	adds	r0, #72
	strb	r7, [r0, #3]
	strb	r7, [r0, #2]
	strb	r7, [r0, #1]
	mov	r0, r4
	adds	r0, #52
	strb	r7, [r0, #3]
	strb	r7, [r0, #2]
	strb	r7, [r0, #1]
	mov	r0, r4
	adds	r0, #48
	lsrs	r1, r2, #24
	strb	r1, [r0, #3]
	lsrs	r1, r2, #16
	strb	r1, [r0, #2]
	lsrs	r1, r2, #8
	strb	r1, [r0, #1]
	mov	r0, r4
	adds	r0, #88
	mov	r1, r7
	mov	r2, r5
	bl	tlsf_memory_set
	mov	r0, r4
	adds	r0, #168
	movs	r6, #255
	mov	r1, r6
	ldr	r2, [sp, #144]
	bl	tlsf_memory_set
	movs	r0, #184
	strb	r7, [r4, r0]
	mov	r0, r4
	adds	r0, #184
	strb	r7, [r0, #3]
	strb	r7, [r0, #2]
	strb	r7, [r0, #1]
	mov	r0, r4
	adds	r0, #188
	movs	r1, #159
	lsls	r2, r1, #4
	mov	r1, r6
	bl	tlsf_memory_set
	movs	r0, #171
	lsls	r0, r0, #4
	add	r6, sp, #1020
	adds	r6, #44
	strb	r6, [r4, r0]
	str	r0, [sp, #132]
	adds	r0, r4, r0
	lsrs	r1, r6, #24
	str	r1, [sp, #156]
	strb	r1, [r0, #3]
	ldr	r5, [sp, #176]
	lsrs	r1, r6, #16
	str	r1, [sp, #100]
	strb	r1, [r0, #2]
	lsrs	r1, r6, #8
	str	r1, [sp, #96]
	strb	r1, [r0, #1]
	ldr	r0, .LCPI88_17
	adds	r0, r4, r0
	movs	r2, #20
	str	r2, [sp, #160]
	mov	r1, r7
	bl	tlsf_memory_set
	movs	r0, #173
	lsls	r3, r0, #4
	strb	r6, [r4, r3]
	ldr	r1, .LCPI88_18
	strb	r7, [r4, r1]
	ldr	r2, .LCPI88_19
	ldr	r0, [sp, #104]
	strb	r0, [r4, r2]
	str	r3, [sp, #116]
	adds	r0, r4, r3
	ldr	r3, [sp, #156]
	strb	r3, [r0, #3]
	ldr	r3, [sp, #100]
	strb	r3, [r0, #2]
	ldr	r3, [sp, #96]
	strb	r3, [r0, #1]
	adds	r0, r4, r1
	strb	r7, [r0, #3]
	strb	r7, [r0, #2]
	strb	r7, [r0, #1]
	adds	r0, r4, r2
	strb	r7, [r0, #3]
	strb	r7, [r0, #2]
	strb	r7, [r0, #1]
	ldr	r0, .LCPI88_20
	adds	r0, r4, r0
	mov	r1, r7
	ldr	r2, [sp, #160]
	bl	tlsf_memory_set
	ldr	r0, [sp, #148]
	adds	r3, r0, #1
	adcs	r5, r7
	str	r5, [sp, #176]
	add	r0, sp, #912
	str	r5, [r0, #124]
	add	r0, sp, #908
	str	r3, [r0, #124]
	ldr	r4, [sp, #172]
	mov	r0, r4
	ldr	r2, [sp, #168]
	orrs	r0, r2
	str	r3, [sp, #104]
	beq	.LBB88_73
	str	r7, [sp, #100]
	movs	r7, #0
	ldr	r0, [sp, #16]
	adds	r0, r0, #4
	ldr	r1, .LCPI88_21
	adcs	r1, r7
	subs	r0, r4, r0
	mov	r0, r2
	sbcs	r0, r1
	blo	.LBB88_68
	bl	.LBB88_222
.LBB88_68:
	mov	r6, r3
	lsrs	r0, r4, #29
	lsls	r1, r2, #3
	adds	r5, r1, r0
	lsls	r1, r4, #3
	cmp	r5, #0
	str	r1, [sp, #160]
	beq	.LBB88_70
	mvns	r1, r7
.LBB88_70:
	add	r0, sp, #1020
	adds	r0, #28
	movs	r2, #4
	bl	tlsf_memory_alloc
	add	r0, sp, #924
	ldr	r0, [r0, #124]
	lsls	r0, r0, #31
	bne	.LBB88_71
	bl	.LBB88_223
.LBB88_71:
	add	r6, sp, #932
	ldr	r6, [r6, #124]
	ldr	r0, [sp, #184]
	subs	r0, r6, r0
	mov	r1, r7
	sbcs	r1, r7
	ldr	r2, [sp, #160]
	subs	r0, r0, r2
	sbcs	r1, r5
	ldr	r5, [sp, #168]
	mov	r0, r6
	ldr	r1, [sp, #184]
	bl	tlsf_memory_cpy
	lsrs	r0, r4, #30
	lsls	r1, r5, #2
	adds	r0, r1, r0
	beq	.LBB88_74
	mvns	r1, r7
	b	.LBB88_75
.LBB88_73:
	str	r7, [sp, #140]
	str	r6, [sp, #160]
	str	r6, [sp, #148]
	mov	r5, r7
	mov	r2, r7
	b	.LBB88_117
.LBB88_74:
	lsls	r1, r4, #2
.LBB88_75:
	add	r0, sp, #1020
	adds	r0, #28
	movs	r2, #4
	bl	tlsf_memory_alloc
	add	r0, sp, #924
	ldr	r0, [r0, #124]
	lsls	r0, r0, #31
	bne	.LBB88_76
	bl	.LBB88_225
.LBB88_76:
	add	r1, sp, #932
	ldr	r1, [r1, #124]
	subs	r3, r4, #1
	mov	r2, r5
	sbcs	r2, r7
	mov	r0, r3
	str	r2, [sp, #156]
	orrs	r0, r2
	str	r1, [sp, #160]
	beq	.LBB88_78
	lsls	r0, r4, #2
	subs	r2, r0, #4
	movs	r1, #0
	ldr	r0, [sp, #160]
	mov	r5, r6
	mov	r6, r3
	bl	tlsf_memory_set
	mov	r3, r6
	mov	r6, r5
	ldr	r5, [sp, #168]
	ldr	r1, [sp, #160]
	b	.LBB88_79
.LBB88_78:
	mov	r3, r7
	str	r7, [sp, #156]
.LBB88_79:
	lsls	r0, r3, #2
	str	r7, [r1, r0]
	mov	r0, r4
	ldr	r1, [sp, #12]
	ands	r0, r1
	str	r0, [sp, #140]
	subs	r1, r4, #4
	mov	r1, r5
	sbcs	r1, r7
	mov	r1, r7
	str	r6, [sp, #148]
	mov	r0, r5
	ldr	r5, [sp, #156]
	blo	.LBB88_96
	str	r3, [sp, #96]
	mov	r2, r4
	ldr	r1, [sp, #16]
	ands	r2, r1
	mov	r3, r0
	ldr	r1, .LCPI88_21
	ands	r3, r1
	movs	r7, #0
	mov	r1, r7
	mov	r6, r7
	b	.LBB88_83
.LBB88_81:
	mov	r7, r4
.LBB88_82:
	movs	r4, #0
	adds	r1, r1, #4
	adcs	r6, r4
	mov	r4, r6
	eors	r4, r3
	mov	r5, r1
	eors	r5, r2
	orrs	r5, r4
	beq	.LBB88_95
.LBB88_83:
	lsls	r4, r1, #3
	ldr	r0, [sp, #184]
	adds	r5, r0, r4
	ldr	r4, [r0, r4]
	cmp	r4, #0
	beq	.LBB88_85
	ldr	r4, [r5, #4]
	cmp	r4, r7
	bhi	.LBB88_86
.LBB88_85:
	mov	r4, r7
.LBB88_86:
	ldr	r7, [r5, #8]
	cmp	r7, #0
	beq	.LBB88_88
	ldr	r7, [r5, #12]
	cmp	r7, r4
	bhi	.LBB88_89
.LBB88_88:
	mov	r7, r4
.LBB88_89:
	ldr	r4, [r5, #16]
	cmp	r4, #0
	beq	.LBB88_91
	ldr	r4, [r5, #20]
	cmp	r4, r7
	bhi	.LBB88_92
.LBB88_91:
	mov	r4, r7
.LBB88_92:
	ldr	r7, [r5, #24]
	cmp	r7, #0
	beq	.LBB88_81
	ldr	r7, [r5, #28]
	cmp	r7, r4
	bls	.LBB88_81
	b	.LBB88_82
	.p2align	2
.LCPI88_44:
	.long	4293918723
	.p2align	1
.LBB88_95:
	ldr	r0, [sp, #140]
	cmp	r0, #0
	ldr	r5, [sp, #156]
	ldr	r3, [sp, #96]
	beq	.LBB88_116
.LBB88_96:
	lsls	r2, r1, #3
	ldr	r0, [sp, #184]
	adds	r1, r0, r2
	ldr	r2, [r0, r2]
	cmp	r2, #0
	beq	.LBB88_98
	ldr	r2, [r1, #4]
	cmp	r2, r7
	bhi	.LBB88_99
.LBB88_98:
	mov	r2, r7
.LBB88_99:
	ldr	r0, [sp, #140]
	cmp	r0, #1
	bne	.LBB88_108
	mov	r7, r2
	b	.LBB88_116
	.p2align	2
.LCPI88_16:
	.long	2792
	.p2align	2
.LCPI88_17:
	.long	2740
	.p2align	2
.LCPI88_18:
	.long	2764
	.p2align	2
.LCPI88_19:
	.long	2760
	.p2align	2
.LCPI88_20:
	.long	2772
	.p2align	2
.LCPI88_21:
	.long	268435455
	.p2align	1
.LBB88_108:
	mov	r4, r3
	ldr	r3, [r1, #8]
	cmp	r3, #0
	beq	.LBB88_110
	ldr	r3, [r1, #12]
	cmp	r3, r2
	bhi	.LBB88_111
.LBB88_110:
	mov	r3, r2
.LBB88_111:
	ldr	r0, [sp, #140]
	cmp	r0, #2
	beq	.LBB88_114
	ldr	r0, [r1, #16]
	cmp	r0, #0
	beq	.LBB88_114
	ldr	r7, [r1, #20]
	cmp	r7, r3
	bhi	.LBB88_115
.LBB88_114:
	mov	r7, r3
.LBB88_115:
	mov	r3, r4
.LBB88_116:
	movs	r0, #0
	adds	r1, r3, #1
	str	r1, [sp, #140]
	adcs	r5, r0
	mov	r2, r7
	ldr	r7, [sp, #100]
.LBB88_117:
	adds	r0, r2, #1
	mov	r1, r7
	adcs	r1, r7
	cmp	r2, #0
	beq	.LBB88_119
	mov	r0, r2
.LBB88_119:
	str	r5, [sp, #156]
	beq	.LBB88_121
	mov	r1, r7
.LBB88_121:
	adds	r0, #31
	adcs	r1, r7
	lsrs	r0, r0, #3
	lsls	r1, r1, #29
	adds	r4, r0, r1
	ldr	r0, [sp, #144]
	orrs	r0, r4
	bl	__clzsi2
	movs	r1, #27
	subs	r1, r1, r0
	subs	r0, r4, #1
	lsrs	r0, r1
	adds	r0, r0, #1
	lsls	r1, r1, #4
	adds	r5, r0, r1
	lsrs	r1, r5, #4
	beq	.LBB88_123
	ldr	r3, [sp, #88]
	lsls	r3, r1
	movs	r2, #15
	ands	r0, r2
	subs	r1, r1, #1
	lsls	r0, r1
	adds	r5, r0, r3
.LBB88_123:
	ldr	r0, .LCPI88_22
	ldr	r1, [sp, #180]
	muls	r1, r0, r1
	ldr	r0, [sp, #112]
	adds	r4, r0, r1
	mov	r0, r4
	ldr	r1, [sp, #164]
	bl	tlsf_heap.heap.Heap.begin.4
	ldr	r1, .LCPI88_23
	ldr	r3, [sp, #140]
	strb	r3, [r4, r1]
	ldr	r0, .LCPI88_24
	ldr	r2, [sp, #172]
	strb	r2, [r4, r0]
	movs	r7, #0
	ldr	r0, .LCPI88_25
	strb	r7, [r4, r0]
	ldr	r0, .LCPI88_26
	strb	r7, [r4, r0]
	ldr	r0, .LCPI88_27
	strb	r5, [r4, r0]
	ldr	r0, .LCPI88_28
	strb	r7, [r4, r0]
	movs	r0, #87
	lsls	r6, r0, #5
	str	r6, [sp, #144]
	ldrb	r0, [r4, r6]
	str	r0, [sp, #180]
	strb	r2, [r4, r6]
	movs	r0, #43
	lsls	r6, r0, #6
	str	r6, [sp, #84]
	ldrb	r0, [r4, r6]
	str	r0, [sp, #164]
	strb	r2, [r4, r6]
	ldr	r6, [sp, #116]
	ldrb	r0, [r4, r6]
	str	r0, [sp, #48]
	ldr	r0, [sp, #160]
	strb	r0, [r4, r6]
	ldr	r6, [sp, #132]
	ldrb	r0, [r4, r6]
	str	r0, [sp, #44]
	ldr	r0, [sp, #148]
	strb	r0, [r4, r6]
	adds	r0, r4, r1
	ldr	r6, [sp, #156]
	lsrs	r1, r6, #24
	strb	r1, [r0, #7]
	lsrs	r1, r6, #16
	strb	r1, [r0, #6]
	lsrs	r1, r6, #8
	strb	r1, [r0, #5]
	strb	r6, [r0, #4]
	lsrs	r1, r3, #24
	strb	r1, [r0, #3]
	lsrs	r1, r3, #16
	strb	r1, [r0, #2]
	lsrs	r1, r3, #8
	strb	r1, [r0, #1]
	ldr	r0, .LCPI88_24
	adds	r0, r4, r0
	ldr	r1, [sp, #168]
	lsrs	r3, r1, #24
	str	r3, [sp, #72]
	strb	r3, [r0, #7]
	lsrs	r3, r1, #16
	str	r3, [sp, #64]
	strb	r3, [r0, #6]
	lsrs	r3, r1, #8
	str	r3, [sp, #68]
	strb	r3, [r0, #5]
	strb	r1, [r0, #4]
	lsrs	r3, r2, #24
	str	r3, [sp, #60]
	strb	r3, [r0, #3]
	lsrs	r3, r2, #16
	strb	r3, [r0, #2]
	str	r3, [sp, #52]
	lsrs	r2, r2, #8
	strb	r2, [r0, #1]
	str	r2, [sp, #56]
	ldr	r0, .LCPI88_25
	adds	r0, r4, r0
	strb	r7, [r0, #3]
	strb	r7, [r0, #2]
	strb	r7, [r0, #1]
	ldr	r0, .LCPI88_26
	adds	r0, r4, r0
	strb	r7, [r0, #3]
	strb	r7, [r0, #2]
	strb	r7, [r0, #1]
	ldr	r0, .LCPI88_27
	adds	r0, r4, r0
	lsrs	r6, r5, #24
	strb	r6, [r0, #3]
	lsrs	r6, r5, #16
	strb	r6, [r0, #2]
	lsrs	r5, r5, #8
	strb	r5, [r0, #1]
	ldr	r0, .LCPI88_28
	adds	r0, r4, r0
	strb	r7, [r0, #3]
	strb	r7, [r0, #2]
	str	r7, [sp, #76]
	strb	r7, [r0, #1]
	ldr	r0, [sp, #144]
	adds	r0, r4, r0
	ldrb	r5, [r0, #2]
	str	r5, [sp, #156]
	strb	r3, [r0, #2]
	ldrb	r5, [r0, #3]
	str	r5, [sp, #144]
	ldr	r3, [sp, #60]
	strb	r3, [r0, #3]
	ldrb	r5, [r0, #1]
	str	r5, [sp, #140]
	strb	r2, [r0, #1]
	ldrb	r5, [r0, #6]
	str	r5, [sp, #100]
	ldr	r2, [sp, #64]
	strb	r2, [r0, #6]
	ldrb	r5, [r0, #7]
	str	r5, [sp, #96]
	ldr	r6, [sp, #72]
	strb	r6, [r0, #7]
	ldrb	r5, [r0, #4]
	str	r5, [sp, #88]
	strb	r1, [r0, #4]
	ldrb	r5, [r0, #5]
	str	r5, [sp, #80]
	ldr	r5, [sp, #68]
	strb	r5, [r0, #5]
	ldr	r0, [sp, #84]
	adds	r0, r4, r0
	ldrb	r7, [r0, #2]
	str	r7, [sp, #84]
	ldr	r7, [sp, #52]
	strb	r7, [r0, #2]
	ldrb	r7, [r0, #3]
	strb	r3, [r0, #3]
	ldrb	r3, [r0, #1]
	str	r3, [sp, #60]
	ldr	r3, [sp, #56]
	strb	r3, [r0, #1]
	ldrb	r3, [r0, #6]
	str	r3, [sp, #56]
	strb	r2, [r0, #6]
	ldrb	r2, [r0, #7]
	strb	r6, [r0, #7]
	ldrb	r6, [r0, #4]
	strb	r1, [r0, #4]
	ldrb	r3, [r0, #5]
	strb	r5, [r0, #5]
	ldr	r0, [sp, #116]
	adds	r0, r4, r0
	ldrb	r1, [r0, #2]
	str	r1, [sp, #116]
	ldr	r1, [sp, #160]
	lsrs	r5, r1, #16
	strb	r5, [r0, #2]
	ldrb	r5, [r0, #3]
	str	r5, [sp, #72]
	lsrs	r5, r1, #24
	strb	r5, [r0, #3]
	ldrb	r5, [r0, #1]
	str	r5, [sp, #68]
	lsrs	r5, r1, #8
	strb	r5, [r0, #1]
	ldr	r0, [sp, #132]
	adds	r5, r4, r0
	ldrb	r0, [r5, #2]
	str	r0, [sp, #160]
	ldr	r1, [sp, #148]
	lsrs	r0, r1, #16
	strb	r0, [r5, #2]
	ldrb	r0, [r5, #3]
	str	r0, [sp, #132]
	lsrs	r0, r1, #24
	strb	r0, [r5, #3]
	ldrb	r0, [r5, #1]
	lsrs	r4, r1, #8
	strb	r4, [r5, #1]
	lsls	r3, r3, #8
	adds	r3, r3, r6
	ldr	r1, [sp, #56]
	lsls	r1, r1, #16
	lsls	r2, r2, #24
	adds	r1, r2, r1
	adds	r1, r1, r3
	ldr	r2, [sp, #60]
	lsls	r2, r2, #8
	ldr	r3, [sp, #164]
	adds	r2, r2, r3
	ldr	r3, [sp, #84]
	lsls	r3, r3, #16
	lsls	r4, r7, #24
	adds	r3, r4, r3
	adds	r2, r3, r2
	orrs	r2, r1
	beq	.LBB88_125
	lsls	r0, r0, #8
	ldr	r1, [sp, #44]
	adds	r0, r0, r1
	ldr	r1, [sp, #160]
	lsls	r1, r1, #16
	ldr	r2, [sp, #132]
	lsls	r2, r2, #24
	adds	r1, r2, r1
	adds	r0, r1, r0
	bl	tlsf_memory_dealloc
.LBB88_125:
	ldr	r0, [sp, #80]
	lsls	r0, r0, #8
	ldr	r1, [sp, #88]
	adds	r0, r0, r1
	ldr	r1, [sp, #100]
	lsls	r1, r1, #16
	ldr	r2, [sp, #96]
	lsls	r2, r2, #24
	adds	r1, r2, r1
	adds	r0, r1, r0
	ldr	r1, [sp, #140]
	lsls	r1, r1, #8
	ldr	r2, [sp, #180]
	adds	r1, r1, r2
	ldr	r2, [sp, #156]
	lsls	r2, r2, #16
	ldr	r3, [sp, #144]
	lsls	r3, r3, #24
	adds	r2, r3, r2
	adds	r1, r2, r1
	orrs	r1, r0
	ldr	r6, [sp, #124]
	ldr	r4, [sp, #92]
	ldr	r5, [sp, #108]
	bne	.LBB88_126
	b	.LBB88_56
.LBB88_126:
	ldr	r0, [sp, #68]
	lsls	r0, r0, #8
	ldr	r1, [sp, #48]
	adds	r0, r0, r1
	ldr	r1, [sp, #116]
	lsls	r1, r1, #16
	ldr	r2, [sp, #72]
	lsls	r2, r2, #24
	adds	r1, r2, r1
	adds	r0, r1, r0
	bl	tlsf_memory_dealloc
	b	.LBB88_56
.LBB88_127:
	str	r6, [sp, #148]
	add	r0, sp, #1020
	adds	r0, #4
	bl	std_alloc.vec.Vec.grow_amortized.8f83c87fc5454f35
	cmp	r0, #0
	bne	.LBB88_128
	bl	.LBB88_265
.LBB88_128:
	add	r4, sp, #912
	ldr	r4, [r4, #124]
	add	r2, sp, #908
	ldr	r2, [r2, #124]
	add	r0, sp, #900
	ldr	r0, [r0, #124]
	str	r0, [sp, #112]
	ldr	r6, [sp, #148]
	b	.LBB88_66
	.p2align	2
.LCPI88_22:
	.long	2792
	.p2align	2
.LCPI88_23:
	.long	2776
	.p2align	2
.LCPI88_24:
	.long	2744
	.p2align	2
.LCPI88_25:
	.long	2772
	.p2align	2
.LCPI88_26:
	.long	2764
	.p2align	2
.LCPI88_27:
	.long	2760
	.p2align	2
.LCPI88_28:
	.long	2740
	.p2align	1
.LBB88_136:
	ldr	r2, [sp, #144]
	adds	r2, r2, #1
	ldr	r0, [sp, #64]
	adcs	r5, r0
	ldr	r6, [sp, #124]
	ldr	r0, [sp, #168]
	subs	r6, r6, r0
	ldr	r3, [sp, #100]
	ldr	r1, [sp, #164]
	sbcs	r3, r1
	lsls	r0, r0, #3
	ldr	r1, [sp, #184]
	adds	r1, r1, r0
	str	r1, [sp, #184]
	ldr	r1, [sp, #32]
	subs	r0, r2, r1
	mov	r0, r5
	ldr	r4, [sp, #16]
	sbcs	r0, r4
	ldr	r0, [sp, #92]
	str	r0, [sp, #180]
	blo	.LBB88_137
	b	.LBB88_211
.LBB88_137:
	str	r5, [sp, #96]
	str	r2, [sp, #144]
	mvns	r0, r2
	adds	r0, r1, r0
	lsls	r1, r0, #3
	ldr	r2, [sp, #28]
	adds	r0, r2, r1
	ldr	r0, [r0, #4]
	ldr	r1, [r2, r1]
	subs	r2, r6, r1
	mov	r2, r3
	sbcs	r2, r0
	mov	r5, r6
	blo	.LBB88_139
	mov	r5, r1
.LBB88_139:
	str	r3, [sp, #100]
	blo	.LBB88_141
	mov	r3, r0
.LBB88_141:
	ldr	r0, [sp, #184]
	mov	r2, r5
	str	r3, [sp, #164]
	bl	tlsf_pool.sizes.region.region_words.5
	uxtb	r0, r0
	cmp	r0, #1
	beq	.LBB88_142
	bl	.LBB88_266
.LBB88_142:
	mov	r4, r1
	ldr	r1, .LCPI88_29
	adds	r0, r1, r4
	subs	r0, r0, #4
	cmp	r0, r1
	bhs	.LBB88_143
	bl	.LBB88_218
.LBB88_143:
	lsls	r1, r4, #3
	add	r0, sp, #1020
	adds	r0, #28
	movs	r2, #8
	bl	tlsf_memory_alloc
	add	r0, sp, #924
	ldr	r0, [r0, #124]
	movs	r1, #2
	str	r1, [sp, #140]
	lsls	r0, r0, #31
	bne	.LBB88_144
	bl	.LBB88_247
.LBB88_144:
	str	r6, [sp, #124]
	mov	r6, r5
	add	r7, sp, #932
	ldr	r7, [r7, #124]
	movs	r5, #0
	str	r5, [r7]
	str	r5, [r7, #4]
	str	r5, [r7, #8]
	str	r5, [r7, #12]
	str	r5, [r7, #16]
	str	r5, [r7, #20]
	str	r5, [r7, #24]
	str	r5, [r7, #28]
	str	r4, [sp, #160]
	adds	r4, #63
	lsrs	r4, r4, #6
	lsls	r1, r4, #3
	add	r0, sp, #1020
	adds	r0, #28
	movs	r2, #8
	bl	tlsf_memory_alloc
	add	r0, sp, #924
	ldr	r0, [r0, #124]
	lsls	r0, r0, #31
	bne	.LBB88_145
	b	.LBB88_221
.LBB88_145:
	str	r4, [sp, #156]
	str	r6, [sp, #168]
	add	r1, sp, #932
	ldr	r1, [r1, #124]
	str	r5, [r1]
	str	r5, [r7, #8]
	ldr	r0, [sp, #20]
	str	r0, [r7]
	str	r5, [r1, #4]
	ldr	r0, [r1]
	ldr	r2, [sp, #152]
	orrs	r0, r2
	str	r1, [sp, #172]
	str	r0, [r1]
	ldr	r0, [sp, #24]
	str	r0, [r7, #4]
	str	r5, [r7, #12]
	str	r0, [r7, #16]
	str	r0, [r7, #20]
	add	r0, sp, #916
	ldr	r0, [r0, #124]
	ldr	r3, [sp, #180]
	eors	r0, r3
	add	r1, sp, #920
	ldr	r1, [r1, #124]
	ldr	r4, [sp, #176]
	eors	r1, r4
	orrs	r1, r0
	bne	.LBB88_146
	b	.LBB88_206
.LBB88_146:
	str	r3, [sp, #148]
	ldr	r0, [sp, #128]
	ldr	r1, [sp, #144]
	adds	r0, r0, r1
	str	r0, [sp, #132]
	ldr	r1, .LCPI88_30
	muls	r1, r3, r1
	ldr	r3, [sp, #108]
	strb	r0, [r3, r1]
	adds	r4, r3, r1
	movs	r1, #68
	strb	r5, [r4, r1]
	movs	r1, #64
	ldr	r3, [sp, #156]
	strb	r3, [r4, r1]
	movs	r1, #60
	strb	r5, [r4, r1]
	movs	r1, #56
	strb	r2, [r4, r1]
	movs	r1, #44
	strb	r5, [r4, r1]
	movs	r1, #40
	ldr	r0, [sp, #160]
	strb	r0, [r4, r1]
	movs	r1, #36
	strb	r5, [r4, r1]
	movs	r1, #32
	movs	r6, #4
	str	r1, [sp, #84]
	strb	r6, [r4, r1]
	str	r6, [sp, #92]
	movs	r1, #84
	movs	r0, #16
	str	r0, [sp, #112]
	strb	r0, [r4, r1]
	ldr	r0, [sp, #104]
	strb	r2, [r4, r0]
	movs	r1, #76
	strb	r5, [r4, r1]
	movs	r1, #72
	strb	r6, [r4, r1]
	movs	r1, #52
	strb	r5, [r4, r1]
	movs	r1, #48
	ldr	r6, [sp, #172]
	strb	r6, [r4, r1]
	strb	r5, [r4, #15]
	strb	r5, [r4, #14]
	strb	r5, [r4, #13]
	strb	r5, [r4, #12]
	strb	r5, [r4, #11]
	strb	r5, [r4, #10]
	strb	r5, [r4, #9]
	strb	r2, [r4, #8]
	strb	r5, [r4, #31]
	strb	r5, [r4, #30]
	strb	r5, [r4, #29]
	strb	r5, [r4, #28]
	lsrs	r1, r7, #24
	strb	r1, [r4, #27]
	lsrs	r1, r7, #16
	strb	r1, [r4, #26]
	lsrs	r1, r7, #8
	strb	r1, [r4, #25]
	strb	r7, [r4, #24]
	strb	r5, [r4, #23]
	strb	r5, [r4, #22]
	strb	r5, [r4, #21]
	strb	r5, [r4, #20]
	strb	r5, [r4, #19]
	strb	r5, [r4, #18]
	strb	r5, [r4, #17]
	strb	r5, [r4, #16]
	ldr	r0, [sp, #132]
	lsrs	r1, r0, #24
	strb	r1, [r4, #3]
	lsrs	r1, r0, #16
	strb	r1, [r4, #2]
	lsrs	r0, r0, #8
	strb	r0, [r4, #1]
	mov	r0, r4
	adds	r0, #68
	strb	r5, [r0, #3]
	strb	r5, [r0, #2]
	strb	r5, [r0, #1]
	mov	r0, r4
	adds	r0, #64
	lsrs	r1, r3, #24
	strb	r1, [r0, #3]
	lsrs	r1, r3, #16
	strb	r1, [r0, #2]
	lsrs	r1, r3, #8
	strb	r1, [r0, #1]
	mov	r0, r4
	adds	r0, #60
	strb	r5, [r0, #3]
	strb	r5, [r0, #2]
	strb	r5, [r0, #1]
	mov	r0, r4
	adds	r0, #56
	strb	r5, [r0, #3]
	strb	r5, [r0, #2]
	strb	r5, [r0, #1]
	mov	r0, r4
	adds	r0, #44
	strb	r5, [r0, #3]
	strb	r5, [r0, #2]
	strb	r5, [r0, #1]
	mov	r0, r4
	adds	r0, #40
	ldr	r2, [sp, #160]
	lsrs	r1, r2, #24
	strb	r1, [r0, #3]
	lsrs	r1, r2, #16
	strb	r1, [r0, #2]
	lsrs	r1, r2, #8
	strb	r1, [r0, #1]
	mov	r0, r4
	adds	r0, #36
	strb	r5, [r0, #3]
	strb	r5, [r0, #2]
	strb	r5, [r0, #1]
	mov	r0, r4
	adds	r0, #32
	strb	r5, [r0, #3]
	strb	r5, [r0, #2]
	strb	r5, [r0, #1]
	mov	r0, r4
	adds	r0, #84
	strb	r5, [r0, #3]
	strb	r5, [r0, #2]
	strb	r5, [r0, #1]
	mov	r0, r4
	adds	r0, #80
	strb	r5, [r0, #3]
	strb	r5, [r0, #2]
	strb	r5, [r0, #1]
	mov	r0, r4
	adds	r0, #76
	strb	r5, [r0, #3]
	strb	r5, [r0, #2]
	strb	r5, [r0, #1]
	mov	r0, r4
	adds	r0, #72
	strb	r5, [r0, #3]
	strb	r5, [r0, #2]
	strb	r5, [r0, #1]
	mov	r0, r4
	adds	r0, #52
	strb	r5, [r0, #3]
	strb	r5, [r0, #2]
	strb	r5, [r0, #1]
	mov	r0, r4
	adds	r0, #48
	lsrs	r1, r6, #24
	strb	r1, [r0, #3]
	lsrs	r1, r6, #16
	strb	r1, [r0, #2]
	lsrs	r1, r6, #8
	strb	r1, [r0, #1]
	mov	r0, r4
	adds	r0, #88
	mov	r1, r5
	ldr	r2, [sp, #104]
	bl	tlsf_memory_set
	mov	r0, r4
	adds	r0, #168
	movs	r6, #255
	mov	r1, r6
	ldr	r2, [sp, #112]
	bl	tlsf_memory_set
	movs	r0, #184
	strb	r5, [r4, r0]
	mov	r0, r4
	adds	r0, #184
	strb	r5, [r0, #3]
	strb	r5, [r0, #2]
	strb	r5, [r0, #1]
	mov	r0, r4
	adds	r0, #188
	movs	r1, #159
	lsls	r2, r1, #4
	mov	r1, r6
	bl	tlsf_memory_set
	movs	r0, #171
	lsls	r0, r0, #4
	add	r6, sp, #1020
	adds	r6, #44
	strb	r6, [r4, r0]
	str	r0, [sp, #132]
	adds	r0, r4, r0
	str	r5, [sp, #172]
	lsrs	r1, r6, #24
	str	r1, [sp, #88]
	strb	r1, [r0, #3]
	lsrs	r5, r6, #16
	strb	r5, [r0, #2]
	lsrs	r7, r6, #8
	strb	r7, [r0, #1]
	ldr	r0, .LCPI88_31
	adds	r0, r4, r0
	movs	r2, #20
	str	r2, [sp, #156]
	ldr	r1, [sp, #172]
	bl	tlsf_memory_set
	movs	r0, #173
	lsls	r3, r0, #4
	strb	r6, [r4, r3]
	ldr	r1, .LCPI88_32
	ldr	r0, [sp, #172]
	strb	r0, [r4, r1]
	ldr	r2, .LCPI88_33
	ldr	r0, [sp, #92]
	strb	r0, [r4, r2]
	str	r3, [sp, #116]
	adds	r0, r4, r3
	ldr	r3, [sp, #88]
	strb	r3, [r0, #3]
	ldr	r3, [sp, #172]
	strb	r5, [r0, #2]
	strb	r7, [r0, #1]
	adds	r0, r4, r1
	strb	r3, [r0, #3]
	strb	r3, [r0, #2]
	strb	r3, [r0, #1]
	adds	r0, r4, r2
	strb	r3, [r0, #3]
	strb	r3, [r0, #2]
	strb	r3, [r0, #1]
	ldr	r0, .LCPI88_34
	adds	r0, r4, r0
	mov	r4, r3
	mov	r1, r3
	ldr	r2, [sp, #156]
	bl	tlsf_memory_set
	ldr	r0, [sp, #148]
	adds	r1, r0, #1
	ldr	r3, [sp, #176]
	adcs	r3, r4
	add	r0, sp, #912
	str	r3, [r0, #124]
	add	r0, sp, #908
	str	r1, [r0, #124]
	ldr	r2, [sp, #168]
	mov	r0, r2
	ldr	r7, [sp, #164]
	orrs	r0, r7
	str	r3, [sp, #176]
	str	r1, [sp, #92]
	beq	.LBB88_153
	movs	r6, #0
	ldr	r0, [sp, #12]
	adds	r0, r0, #4
	ldr	r1, .LCPI88_35
	adcs	r1, r6
	subs	r0, r2, r0
	mov	r0, r7
	sbcs	r0, r1
	blo	.LBB88_148
	b	.LBB88_217
.LBB88_148:
	lsrs	r0, r2, #29
	lsls	r1, r7, #3
	adds	r5, r1, r0
	lsls	r4, r2, #3
	cmp	r5, #0
	mov	r1, r4
	beq	.LBB88_150
	mvns	r1, r6
.LBB88_150:
	add	r0, sp, #1020
	adds	r0, #28
	movs	r2, #4
	bl	tlsf_memory_alloc
	add	r0, sp, #924
	ldr	r0, [r0, #124]
	lsls	r0, r0, #31
	bne	.LBB88_151
	b	.LBB88_217
.LBB88_151:
	add	r1, sp, #932
	ldr	r1, [r1, #124]
	ldr	r0, [sp, #184]
	str	r1, [sp, #148]
	subs	r0, r1, r0
	mov	r1, r6
	sbcs	r1, r6
	mov	r2, r4
	subs	r0, r0, r4
	sbcs	r1, r5
	ldr	r4, [sp, #168]
	ldr	r0, [sp, #148]
	ldr	r1, [sp, #184]
	bl	tlsf_memory_cpy
	lsrs	r0, r4, #30
	lsls	r1, r7, #2
	adds	r0, r1, r0
	beq	.LBB88_154
	mvns	r1, r6
	b	.LBB88_155
.LBB88_153:
	mov	r7, r4
	mov	r5, r4
	str	r6, [sp, #156]
	str	r6, [sp, #148]
	mov	r6, r4
	b	.LBB88_196
.LBB88_154:
	lsls	r1, r4, #2
.LBB88_155:
	add	r0, sp, #1020
	adds	r0, #28
	movs	r2, #4
	bl	tlsf_memory_alloc
	add	r0, sp, #924
	ldr	r0, [r0, #124]
	lsls	r0, r0, #31
	bne	.LBB88_156
	b	.LBB88_245
.LBB88_156:
	add	r1, sp, #932
	ldr	r1, [r1, #124]
	subs	r3, r4, #1
	mov	r5, r7
	sbcs	r5, r6
	mov	r0, r3
	orrs	r0, r5
	str	r1, [sp, #156]
	beq	.LBB88_158
	lsls	r0, r4, #2
	subs	r2, r0, #4
	movs	r1, #0
	ldr	r0, [sp, #156]
	str	r3, [sp, #80]
	bl	tlsf_memory_set
	ldr	r3, [sp, #80]
	ldr	r1, [sp, #156]
	b	.LBB88_159
.LBB88_158:
	mov	r3, r6
	mov	r5, r6
.LBB88_159:
	lsls	r0, r3, #2
	str	r6, [r1, r0]
	mov	r0, r4
	ldr	r1, [sp, #8]
	ands	r0, r1
	str	r0, [sp, #88]
	subs	r1, r4, #4
	mov	r1, r7
	sbcs	r1, r6
	mov	r1, r6
	blo	.LBB88_175
	str	r3, [sp, #80]
	str	r5, [sp, #140]
	mov	r2, r4
	ldr	r1, [sp, #12]
	ands	r2, r1
	mov	r3, r7
	ldr	r1, .LCPI88_35
	ands	r3, r1
	movs	r6, #0
	mov	r1, r6
	mov	r7, r6
	b	.LBB88_163
.LBB88_161:
	mov	r6, r4
.LBB88_162:
	movs	r4, #0
	adds	r1, r1, #4
	adcs	r7, r4
	mov	r4, r7
	eors	r4, r3
	mov	r5, r1
	eors	r5, r2
	orrs	r5, r4
	beq	.LBB88_174
.LBB88_163:
	lsls	r4, r1, #3
	ldr	r0, [sp, #184]
	adds	r5, r0, r4
	ldr	r4, [r0, r4]
	cmp	r4, #0
	beq	.LBB88_165
	ldr	r4, [r5, #4]
	cmp	r4, r6
	bhi	.LBB88_166
.LBB88_165:
	mov	r4, r6
.LBB88_166:
	ldr	r6, [r5, #8]
	cmp	r6, #0
	beq	.LBB88_168
	ldr	r6, [r5, #12]
	cmp	r6, r4
	bhi	.LBB88_169
.LBB88_168:
	mov	r6, r4
.LBB88_169:
	ldr	r4, [r5, #16]
	cmp	r4, #0
	beq	.LBB88_171
	ldr	r4, [r5, #20]
	cmp	r4, r6
	bhi	.LBB88_172
.LBB88_171:
	mov	r4, r6
.LBB88_172:
	ldr	r6, [r5, #24]
	cmp	r6, #0
	beq	.LBB88_161
	ldr	r6, [r5, #28]
	cmp	r6, r4
	bls	.LBB88_161
	b	.LBB88_162
.LBB88_174:
	ldr	r0, [sp, #88]
	cmp	r0, #0
	ldr	r5, [sp, #140]
	ldr	r3, [sp, #80]
	beq	.LBB88_195
.LBB88_175:
	lsls	r2, r1, #3
	ldr	r0, [sp, #184]
	adds	r1, r0, r2
	ldr	r2, [r0, r2]
	cmp	r2, #0
	beq	.LBB88_177
	ldr	r2, [r1, #4]
	cmp	r2, r6
	bhi	.LBB88_178
.LBB88_177:
	mov	r2, r6
.LBB88_178:
	ldr	r0, [sp, #88]
	cmp	r0, #1
	bne	.LBB88_187
	mov	r6, r2
	b	.LBB88_195
	.p2align	2
.LCPI88_29:
	.long	4278190083
	.p2align	2
.LCPI88_30:
	.long	2792
	.p2align	2
.LCPI88_31:
	.long	2740
	.p2align	2
.LCPI88_32:
	.long	2764
	.p2align	2
.LCPI88_33:
	.long	2760
	.p2align	2
.LCPI88_34:
	.long	2772
	.p2align	2
.LCPI88_35:
	.long	268435455
	.p2align	1
.LBB88_187:
	mov	r4, r3
	ldr	r3, [r1, #8]
	cmp	r3, #0
	beq	.LBB88_189
	ldr	r3, [r1, #12]
	cmp	r3, r2
	bhi	.LBB88_190
.LBB88_189:
	mov	r3, r2
.LBB88_190:
	ldr	r0, [sp, #88]
	cmp	r0, #2
	beq	.LBB88_193
	ldr	r0, [r1, #16]
	cmp	r0, #0
	beq	.LBB88_193
	ldr	r6, [r1, #20]
	cmp	r6, r3
	bhi	.LBB88_194
.LBB88_193:
	mov	r6, r3
.LBB88_194:
	mov	r3, r4
.LBB88_195:
	movs	r0, #0
	adds	r7, r3, #1
	adcs	r5, r0
	ldr	r4, [sp, #172]
.LBB88_196:
	adds	r0, r6, #1
	mov	r1, r4
	adcs	r1, r4
	cmp	r6, #0
	beq	.LBB88_198
	mov	r0, r6
.LBB88_198:
	str	r5, [sp, #140]
	beq	.LBB88_200
	mov	r1, r4
.LBB88_200:
	adds	r0, #31
	adcs	r1, r4
	lsrs	r0, r0, #3
	lsls	r1, r1, #29
	adds	r4, r0, r1
	ldr	r0, [sp, #84]
	orrs	r0, r4
	bl	__clzsi2
	movs	r1, #26
	subs	r1, r1, r0
	subs	r0, r4, #1
	lsrs	r0, r1
	adds	r0, r0, #1
	lsls	r1, r1, #5
	adds	r5, r0, r1
	lsrs	r1, r5, #5
	beq	.LBB88_202
	ldr	r3, [sp, #112]
	lsls	r3, r1
	movs	r2, #31
	ands	r0, r2
	subs	r1, r1, #1
	lsls	r0, r1
	adds	r5, r0, r3
.LBB88_202:
	str	r5, [sp, #88]
	ldr	r0, .LCPI88_45
	ldr	r1, [sp, #180]
	muls	r1, r0, r1
	ldr	r0, [sp, #108]
	adds	r4, r0, r1
	mov	r0, r4
	ldr	r1, [sp, #160]
	bl	tlsf_heap.heap.Heap.begin.5
	ldr	r3, .LCPI88_37
	mov	r1, r7
	strb	r7, [r4, r3]
	ldr	r0, .LCPI88_38
	ldr	r2, [sp, #168]
	strb	r2, [r4, r0]
	movs	r6, #0
	ldr	r0, .LCPI88_39
	strb	r6, [r4, r0]
	ldr	r0, .LCPI88_40
	strb	r6, [r4, r0]
	ldr	r0, .LCPI88_41
	strb	r5, [r4, r0]
	ldr	r0, .LCPI88_42
	strb	r6, [r4, r0]
	movs	r0, #87
	lsls	r7, r0, #5
	str	r7, [sp, #112]
	ldrb	r0, [r4, r7]
	str	r0, [sp, #172]
	strb	r2, [r4, r7]
	movs	r0, #43
	lsls	r7, r0, #6
	str	r7, [sp, #72]
	ldrb	r0, [r4, r7]
	str	r0, [sp, #160]
	strb	r2, [r4, r7]
	ldr	r5, [sp, #116]
	ldrb	r0, [r4, r5]
	str	r0, [sp, #40]
	ldr	r0, [sp, #156]
	strb	r0, [r4, r5]
	ldr	r5, [sp, #132]
	ldrb	r0, [r4, r5]
	str	r0, [sp, #36]
	ldr	r0, [sp, #148]
	strb	r0, [r4, r5]
	adds	r0, r4, r3
	mov	r5, r1
	ldr	r7, [sp, #140]
	lsrs	r1, r7, #24
	strb	r1, [r0, #7]
	lsrs	r1, r7, #16
	strb	r1, [r0, #6]
	lsrs	r1, r7, #8
	strb	r1, [r0, #5]
	strb	r7, [r0, #4]
	lsrs	r1, r5, #24
	strb	r1, [r0, #3]
	lsrs	r1, r5, #16
	strb	r1, [r0, #2]
	lsrs	r1, r5, #8
	strb	r1, [r0, #1]
	ldr	r0, .LCPI88_38
	adds	r0, r4, r0
	ldr	r1, [sp, #164]
	lsrs	r3, r1, #24
	str	r3, [sp, #60]
	strb	r3, [r0, #7]
	lsrs	r3, r1, #16
	str	r3, [sp, #52]
	strb	r3, [r0, #6]
	lsrs	r3, r1, #8
	str	r3, [sp, #56]
	strb	r3, [r0, #5]
	strb	r1, [r0, #4]
	lsrs	r3, r2, #24
	str	r3, [sp, #48]
	strb	r3, [r0, #3]
	lsrs	r3, r2, #16
	strb	r3, [r0, #2]
	str	r3, [sp, #44]
	lsrs	r2, r2, #8
	str	r2, [sp, #180]
	strb	r2, [r0, #1]
	ldr	r0, .LCPI88_39
	adds	r0, r4, r0
	strb	r6, [r0, #3]
	strb	r6, [r0, #2]
	strb	r6, [r0, #1]
	ldr	r0, .LCPI88_40
	adds	r0, r4, r0
	strb	r6, [r0, #3]
	strb	r6, [r0, #2]
	strb	r6, [r0, #1]
	ldr	r0, .LCPI88_41
	adds	r0, r4, r0
	ldr	r2, [sp, #88]
	lsrs	r7, r2, #24
	strb	r7, [r0, #3]
	lsrs	r7, r2, #16
	strb	r7, [r0, #2]
	lsrs	r5, r2, #8
	strb	r5, [r0, #1]
	ldr	r0, .LCPI88_42
	adds	r0, r4, r0
	strb	r6, [r0, #3]
	strb	r6, [r0, #2]
	str	r6, [sp, #64]
	strb	r6, [r0, #1]
	ldr	r0, [sp, #112]
	adds	r0, r4, r0
	ldrb	r5, [r0, #2]
	str	r5, [sp, #140]
	strb	r3, [r0, #2]
	ldrb	r5, [r0, #3]
	str	r5, [sp, #112]
	ldr	r3, [sp, #48]
	strb	r3, [r0, #3]
	ldrb	r5, [r0, #1]
	str	r5, [sp, #88]
	ldr	r2, [sp, #180]
	strb	r2, [r0, #1]
	ldrb	r5, [r0, #6]
	str	r5, [sp, #84]
	ldr	r2, [sp, #52]
	strb	r2, [r0, #6]
	ldrb	r5, [r0, #7]
	str	r5, [sp, #80]
	ldr	r7, [sp, #60]
	strb	r7, [r0, #7]
	ldrb	r5, [r0, #4]
	str	r5, [sp, #76]
	strb	r1, [r0, #4]
	ldrb	r5, [r0, #5]
	str	r5, [sp, #68]
	ldr	r5, [sp, #56]
	strb	r5, [r0, #5]
	ldr	r0, [sp, #72]
	adds	r0, r4, r0
	ldrb	r6, [r0, #2]
	str	r6, [sp, #72]
	ldr	r6, [sp, #44]
	strb	r6, [r0, #2]
	ldrb	r6, [r0, #3]
	strb	r3, [r0, #3]
	ldrb	r3, [r0, #1]
	str	r3, [sp, #48]
	ldr	r3, [sp, #180]
	strb	r3, [r0, #1]
	ldrb	r3, [r0, #6]
	str	r3, [sp, #180]
	strb	r2, [r0, #6]
	ldrb	r2, [r0, #7]
	strb	r7, [r0, #7]
	ldrb	r7, [r0, #4]
	strb	r1, [r0, #4]
	ldrb	r3, [r0, #5]
	strb	r5, [r0, #5]
	ldr	r0, [sp, #116]
	adds	r0, r4, r0
	ldrb	r1, [r0, #2]
	str	r1, [sp, #116]
	ldr	r1, [sp, #156]
	lsrs	r5, r1, #16
	strb	r5, [r0, #2]
	ldrb	r5, [r0, #3]
	str	r5, [sp, #60]
	lsrs	r5, r1, #24
	strb	r5, [r0, #3]
	ldrb	r5, [r0, #1]
	str	r5, [sp, #56]
	lsrs	r5, r1, #8
	strb	r5, [r0, #1]
	ldr	r0, [sp, #132]
	adds	r5, r4, r0
	ldrb	r0, [r5, #2]
	str	r0, [sp, #156]
	ldr	r1, [sp, #148]
	lsrs	r0, r1, #16
	strb	r0, [r5, #2]
	ldrb	r0, [r5, #3]
	str	r0, [sp, #132]
	lsrs	r0, r1, #24
	strb	r0, [r5, #3]
	ldrb	r0, [r5, #1]
	lsrs	r4, r1, #8
	strb	r4, [r5, #1]
	lsls	r3, r3, #8
	adds	r3, r3, r7
	ldr	r1, [sp, #180]
	lsls	r1, r1, #16
	lsls	r2, r2, #24
	adds	r1, r2, r1
	adds	r1, r1, r3
	ldr	r2, [sp, #48]
	lsls	r2, r2, #8
	ldr	r3, [sp, #160]
	adds	r2, r2, r3
	ldr	r3, [sp, #72]
	lsls	r3, r3, #16
	lsls	r4, r6, #24
	adds	r3, r4, r3
	adds	r2, r3, r2
	orrs	r2, r1
	beq	.LBB88_204
	lsls	r0, r0, #8
	ldr	r1, [sp, #36]
	adds	r0, r0, r1
	ldr	r1, [sp, #156]
	lsls	r1, r1, #16
	ldr	r2, [sp, #132]
	lsls	r2, r2, #24
	adds	r1, r2, r1
	adds	r0, r1, r0
	bl	tlsf_memory_dealloc
.LBB88_204:
	ldr	r0, [sp, #68]
	lsls	r0, r0, #8
	ldr	r1, [sp, #76]
	adds	r0, r0, r1
	ldr	r1, [sp, #84]
	lsls	r1, r1, #16
	ldr	r2, [sp, #80]
	lsls	r2, r2, #24
	adds	r1, r2, r1
	adds	r0, r1, r0
	ldr	r1, [sp, #88]
	lsls	r1, r1, #8
	ldr	r2, [sp, #172]
	adds	r1, r1, r2
	ldr	r2, [sp, #140]
	lsls	r2, r2, #16
	ldr	r3, [sp, #112]
	lsls	r3, r3, #24
	adds	r2, r3, r2
	adds	r1, r2, r1
	orrs	r1, r0
	ldr	r7, [sp, #152]
	ldr	r5, [sp, #96]
	bne	.LBB88_205
	b	.LBB88_136
.LBB88_205:
	ldr	r0, [sp, #56]
	lsls	r0, r0, #8
	ldr	r1, [sp, #40]
	adds	r0, r0, r1
	ldr	r1, [sp, #116]
	lsls	r1, r1, #16
	ldr	r2, [sp, #60]
	lsls	r2, r2, #24
	adds	r1, r2, r1
	adds	r0, r1, r0
	bl	tlsf_memory_dealloc
	b	.LBB88_136
.LBB88_206:
	add	r0, sp, #1020
	adds	r0, #4
	bl	std_alloc.vec.Vec.grow_amortized.cb831ce0f1fbfa3d
	cmp	r0, #0
	bne	.LBB88_207
	b	.LBB88_264
.LBB88_207:
	add	r0, sp, #912
	ldr	r0, [r0, #124]
	str	r0, [sp, #176]
	add	r3, sp, #908
	ldr	r3, [r3, #124]
	add	r0, sp, #900
	ldr	r0, [r0, #124]
	str	r0, [sp, #108]
	ldr	r2, [sp, #152]
	b	.LBB88_146
.LBB88_208:
	movs	r0, #0
	add	r1, sp, #908
	str	r0, [r1, #124]
	add	r1, sp, #1020
	adds	r1, #44
	add	r2, sp, #900
	str	r1, [r2, #124]
	add	r1, sp, #912
	str	r0, [r1, #124]
	add	r1, sp, #916
	str	r0, [r1, #124]
	add	r1, sp, #920
	str	r0, [r1, #124]
.LBB88_209:
	add	r0, sp, #824
	adds	r4, r0, #6
	add	r1, sp, #1020
	adds	r1, #4
	movs	r5, #24
	mov	r0, r4
	mov	r2, r5
	bl	tlsf_memory_cpy
	add	r6, sp, #796
	adds	r0, r6, #4
	mov	r1, r4
	mov	r2, r5
	bl	tlsf_memory_cpy
	add	r0, sp, #768
	mov	r1, r0
	ldm	r6!, {r2, r3, r4}
	stm	r1!, {r2, r3, r4}
	ldm	r6!, {r2, r3, r4, r5}
	stm	r1!, {r2, r3, r4, r5}
	movs	r7, #0
	b	.LBB88_212
.LBB88_210:
	movs	r0, #0
	add	r1, sp, #908
	str	r0, [r1, #124]
	add	r1, sp, #1020
	adds	r1, #44
	add	r2, sp, #900
	str	r1, [r2, #124]
	add	r1, sp, #912
	str	r0, [r1, #124]
	add	r1, sp, #916
	str	r0, [r1, #124]
	add	r1, sp, #920
	str	r0, [r1, #124]
.LBB88_211:
	add	r0, sp, #824
	adds	r4, r0, #6
	add	r1, sp, #1020
	adds	r1, #4
	movs	r5, #24
	mov	r0, r4
	mov	r2, r5
	bl	tlsf_memory_cpy
	add	r6, sp, #796
	adds	r0, r6, #4
	mov	r1, r4
	mov	r2, r5
	bl	tlsf_memory_cpy
	add	r0, sp, #740
	mov	r1, r0
	ldm	r6!, {r2, r3, r4}
	stm	r1!, {r2, r3, r4}
	ldm	r6!, {r2, r3, r4, r5}
	stm	r1!, {r2, r3, r4, r5}
.LBB88_212:
	add	r1, sp, #720
	mov	r2, r1
	mov	r3, r0
	ldm	r3!, {r4, r5}
	stm	r2!, {r4, r5}
	ldm	r3!, {r4, r5, r6}
	stm	r2!, {r4, r5, r6}
	ldr	r4, [r0, #20]
	ldr	r5, [r0, #24]
	add	r0, sp, #188
	ldm	r1!, {r2, r3}
	stm	r0!, {r2, r3}
	ldm	r1!, {r2, r3, r6}
	stm	r0!, {r2, r3, r6}
	ldr	r1, .LCPI88_36
	subs	r1, #32
	add	r0, sp, #944
	movs	r2, #8
	bl	tlsf_memory_alloc
	ldr	r0, [sp, #944]
	lsls	r0, r0, #31
	beq	.LBB88_214
	ldr	r6, [sp, #952]
	mov	r0, r7
	movs	r7, #0
	strb	r7, [r6, #15]
	strb	r7, [r6, #14]
	strb	r7, [r6, #13]
	strb	r7, [r6, #12]
	strb	r7, [r6, #11]
	strb	r7, [r6, #10]
	strb	r7, [r6, #9]
	strb	r0, [r6, #8]
	ldr	r0, [sp, #128]
	strb	r0, [r6, #16]
	movs	r1, #1
	str	r1, [sp, #184]
	strb	r1, [r6, #1]
	strb	r1, [r6]
	lsrs	r1, r0, #24
	strb	r1, [r6, #19]
	lsrs	r1, r0, #16
	strb	r1, [r6, #18]
	lsrs	r0, r0, #8
	strb	r0, [r6, #17]
	mov	r0, r6
	adds	r0, #20
	add	r1, sp, #188
	movs	r2, #20
	bl	tlsf_memory_cpy
	mov	r0, r7
	movs	r1, #44
	strb	r5, [r6, r1]
	movs	r1, #40
	strb	r4, [r6, r1]
	mov	r1, r6
	adds	r1, #44
	lsrs	r2, r5, #24
	strb	r2, [r1, #3]
	lsrs	r2, r5, #16
	strb	r2, [r1, #2]
	lsrs	r2, r5, #8
	strb	r2, [r1, #1]
	mov	r1, r6
	adds	r1, #40
	lsrs	r2, r4, #24
	strb	r2, [r1, #3]
	lsrs	r2, r4, #16
	strb	r2, [r1, #2]
	lsrs	r2, r4, #8
	strb	r2, [r1, #1]
	ldr	r1, [sp, #120]
	strb	r7, [r1, #7]
	strb	r7, [r1, #6]
	strb	r7, [r1, #5]
	strb	r7, [r1, #4]
	lsrs	r2, r6, #24
	strb	r2, [r1, #3]
	lsrs	r2, r6, #16
	strb	r2, [r1, #2]
	lsrs	r2, r6, #8
	strb	r2, [r1, #1]
	strb	r6, [r1]
	strb	r7, [r1, #9]
	ldr	r2, [sp, #184]
	strb	r2, [r1, #8]
	strb	r7, [r1, #10]
	strb	r7, [r1, #11]
	strb	r7, [r1, #12]
	strb	r7, [r1, #13]
	strb	r7, [r1, #14]
	strb	r7, [r1, #15]
	bl	.LBB88_7
.LBB88_214:
	add	r0, sp, #188
	adds	r0, r0, #4
	ldr	r1, [sp, #136]
	cmp	r1, #4
	bne	.LBB88_216
	str	r5, [sp, #228]
	str	r4, [sp, #224]
	ldm	r0!, {r1, r2, r3}
	ldr	r0, [r0]
	str	r0, [sp, #220]
	add	r0, sp, #208
	stm	r0!, {r1, r2, r3}
	add	r0, sp, #208
	bl	std_alloc.vec.Vec.drop.01e19ae241269710
	movs	r0, #6
	bl	.LBB88_7
.LBB88_216:
	str	r5, [sp, #876]
	str	r4, [sp, #872]
	ldm	r0!, {r1, r2, r3}
	ldr	r0, [r0]
	str	r0, [sp, #868]
	str	r3, [sp, #864]
	str	r2, [sp, #860]
	str	r1, [sp, #856]
	add	r0, sp, #856
	bl	std_alloc.vec.Vec.drop.1d6c342d5cae5f6b
	movs	r0, #6
	bl	.LBB88_7
.LBB88_217:
	ldr	r0, [sp, #92]
	str	r0, [sp, #180]
	b	.LBB88_247
.LBB88_218:
	movs	r0, #0
	str	r0, [sp, #140]
	b	.LBB88_247
.LBB88_219:
	movs	r0, #0
	str	r0, [sp, #140]
	b	.LBB88_227
.LBB88_220:
	mov	r7, r4
	b	.LBB88_226
.LBB88_221:
	mov	r0, r7
	b	.LBB88_246
.LBB88_222:
	str	r3, [sp, #180]
	ldr	r7, [sp, #176]
	b	.LBB88_227
.LBB88_223:
	str	r6, [sp, #180]
	ldr	r7, [sp, #176]
	b	.LBB88_227
	.p2align	2
.LCPI88_45:
	.long	2792
	.p2align	1
.LBB88_225:
	ldr	r0, [sp, #104]
	str	r0, [sp, #180]
	ldr	r7, [sp, #176]
.LBB88_226:
	mov	r0, r6
	bl	tlsf_memory_dealloc
.LBB88_227:
	ldr	r0, [sp, #180]
	str	r7, [sp, #176]
	orrs	r0, r7
	add	r0, sp, #920
	ldr	r0, [r0, #124]
	str	r0, [sp, #32]
	add	r0, sp, #916
	ldr	r0, [r0, #124]
	str	r0, [sp, #28]
	add	r0, sp, #900
	ldr	r0, [r0, #124]
	str	r0, [sp, #36]
	bne	.LBB88_228
	b	.LBB88_259
.LBB88_228:
	movs	r7, #0
	mov	r6, r7
	b	.LBB88_237
	.p2align	2
.LCPI88_36:
	.long	2792
	.p2align	2
.LCPI88_37:
	.long	2776
	.p2align	2
.LCPI88_38:
	.long	2744
	.p2align	2
.LCPI88_39:
	.long	2772
	.p2align	2
.LCPI88_40:
	.long	2764
	.p2align	2
.LCPI88_41:
	.long	2760
	.p2align	2
.LCPI88_42:
	.long	2740
	.p2align	1
.LBB88_236:
	movs	r0, #0
	adds	r6, r6, #1
	adcs	r7, r0
	ldr	r0, [sp, #180]
	subs	r0, r6, r0
	mov	r0, r7
	ldr	r1, [sp, #176]
	sbcs	r0, r1
	blo	.LBB88_237
	b	.LBB88_259
.LBB88_237:
	ldr	r0, .LCPI88_43
	muls	r0, r6, r0
	ldr	r1, [sp, #36]
	adds	r0, r1, r0
	movs	r1, #44
	ldrb	r1, [r0, r1]
	mov	r2, r0
	adds	r2, #44
	ldrb	r3, [r2, #1]
	lsls	r3, r3, #8
	adds	r1, r3, r1
	ldrb	r3, [r2, #2]
	lsls	r3, r3, #16
	ldrb	r2, [r2, #3]
	lsls	r2, r2, #24
	adds	r2, r2, r3
	adds	r2, r2, r1
	movs	r1, #40
	ldrb	r1, [r0, r1]
	mov	r3, r0
	adds	r3, #40
	ldrb	r4, [r3, #1]
	lsls	r4, r4, #8
	adds	r1, r4, r1
	ldrb	r4, [r3, #2]
	lsls	r4, r4, #16
	ldrb	r3, [r3, #3]
	lsls	r3, r3, #24
	adds	r3, r3, r4
	adds	r1, r3, r1
	orrs	r1, r2
	movs	r2, #87
	lsls	r2, r2, #5
	adds	r3, r0, r2
	ldrb	r4, [r3, #4]
	str	r4, [sp, #164]
	ldrb	r4, [r3, #5]
	str	r4, [sp, #148]
	ldrb	r4, [r3, #6]
	str	r4, [sp, #156]
	ldrb	r4, [r3, #7]
	str	r4, [sp, #152]
	ldrb	r2, [r0, r2]
	str	r2, [sp, #184]
	ldrb	r2, [r3, #1]
	str	r2, [sp, #160]
	ldrb	r2, [r3, #2]
	str	r2, [sp, #172]
	ldrb	r2, [r3, #3]
	str	r2, [sp, #168]
	movs	r2, #43
	lsls	r2, r2, #6
	adds	r3, r0, r2
	ldrb	r4, [r3, #4]
	str	r4, [sp, #128]
	ldrb	r4, [r3, #5]
	str	r4, [sp, #112]
	ldrb	r4, [r3, #6]
	str	r4, [sp, #120]
	ldrb	r4, [r3, #7]
	str	r4, [sp, #116]
	ldrb	r2, [r0, r2]
	str	r2, [sp, #144]
	ldrb	r2, [r3, #1]
	str	r2, [sp, #124]
	ldrb	r2, [r3, #2]
	str	r2, [sp, #136]
	ldrb	r2, [r3, #3]
	str	r2, [sp, #132]
	movs	r2, #68
	ldrb	r2, [r0, r2]
	str	r2, [sp, #108]
	mov	r2, r0
	adds	r2, #68
	ldrb	r3, [r2, #1]
	str	r3, [sp, #92]
	ldrb	r3, [r2, #2]
	str	r3, [sp, #100]
	ldrb	r2, [r2, #3]
	str	r2, [sp, #96]
	movs	r2, #64
	ldrb	r2, [r0, r2]
	str	r2, [sp, #104]
	mov	r2, r0
	adds	r2, #64
	ldrb	r4, [r2, #1]
	ldrb	r5, [r2, #2]
	ldrb	r2, [r2, #3]
	str	r2, [sp, #88]
	movs	r2, #173
	lsls	r2, r2, #4
	ldrb	r3, [r0, r2]
	str	r3, [sp, #84]
	adds	r2, r0, r2
	ldrb	r3, [r2, #1]
	str	r3, [sp, #72]
	ldrb	r3, [r2, #2]
	str	r3, [sp, #80]
	ldrb	r2, [r2, #3]
	str	r2, [sp, #76]
	movs	r2, #171
	lsls	r2, r2, #4
	ldrb	r3, [r0, r2]
	str	r3, [sp, #68]
	adds	r2, r0, r2
	ldrb	r3, [r2, #1]
	str	r3, [sp, #56]
	ldrb	r3, [r2, #2]
	str	r3, [sp, #64]
	ldrb	r2, [r2, #3]
	str	r2, [sp, #60]
	movs	r2, #48
	ldrb	r2, [r0, r2]
	str	r2, [sp, #52]
	mov	r2, r0
	adds	r2, #48
	ldrb	r3, [r2, #1]
	str	r3, [sp, #40]
	ldrb	r3, [r2, #2]
	str	r3, [sp, #48]
	ldrb	r2, [r2, #3]
	str	r2, [sp, #44]
	cmp	r1, #0
	beq	.LBB88_239
	ldrb	r1, [r0, #24]
	ldrb	r2, [r0, #25]
	lsls	r2, r2, #8
	adds	r1, r2, r1
	ldrb	r2, [r0, #26]
	lsls	r2, r2, #16
	ldrb	r0, [r0, #27]
	lsls	r0, r0, #24
	adds	r0, r0, r2
	adds	r0, r0, r1
	bl	tlsf_memory_dealloc
.LBB88_239:
	ldr	r0, [sp, #92]
	lsls	r0, r0, #8
	ldr	r1, [sp, #108]
	adds	r0, r0, r1
	ldr	r1, [sp, #100]
	lsls	r1, r1, #16
	ldr	r2, [sp, #96]
	lsls	r2, r2, #24
	adds	r1, r2, r1
	adds	r0, r1, r0
	lsls	r1, r4, #8
	ldr	r2, [sp, #104]
	adds	r1, r1, r2
	lsls	r2, r5, #16
	ldr	r3, [sp, #88]
	lsls	r3, r3, #24
	adds	r2, r3, r2
	adds	r1, r2, r1
	orrs	r1, r0
	beq	.LBB88_241
	ldr	r0, [sp, #40]
	lsls	r0, r0, #8
	ldr	r1, [sp, #52]
	adds	r0, r0, r1
	ldr	r1, [sp, #48]
	lsls	r1, r1, #16
	ldr	r2, [sp, #44]
	lsls	r2, r2, #24
	adds	r1, r2, r1
	adds	r0, r1, r0
	bl	tlsf_memory_dealloc
.LBB88_241:
	ldr	r0, [sp, #112]
	lsls	r0, r0, #8
	ldr	r1, [sp, #128]
	adds	r0, r0, r1
	ldr	r1, [sp, #120]
	lsls	r1, r1, #16
	ldr	r2, [sp, #116]
	lsls	r2, r2, #24
	adds	r1, r2, r1
	adds	r0, r1, r0
	ldr	r1, [sp, #124]
	lsls	r1, r1, #8
	ldr	r2, [sp, #144]
	adds	r1, r1, r2
	ldr	r2, [sp, #136]
	lsls	r2, r2, #16
	ldr	r3, [sp, #132]
	lsls	r3, r3, #24
	adds	r2, r3, r2
	adds	r1, r2, r1
	orrs	r1, r0
	beq	.LBB88_243
	ldr	r0, [sp, #56]
	lsls	r0, r0, #8
	ldr	r1, [sp, #68]
	adds	r0, r0, r1
	ldr	r1, [sp, #64]
	lsls	r1, r1, #16
	ldr	r2, [sp, #60]
	lsls	r2, r2, #24
	adds	r1, r2, r1
	adds	r0, r1, r0
	bl	tlsf_memory_dealloc
.LBB88_243:
	ldr	r0, [sp, #148]
	lsls	r0, r0, #8
	ldr	r1, [sp, #164]
	adds	r0, r0, r1
	ldr	r1, [sp, #156]
	lsls	r1, r1, #16
	ldr	r2, [sp, #152]
	lsls	r2, r2, #24
	adds	r1, r2, r1
	adds	r0, r1, r0
	ldr	r1, [sp, #160]
	lsls	r1, r1, #8
	ldr	r2, [sp, #184]
	adds	r1, r1, r2
	ldr	r2, [sp, #172]
	lsls	r2, r2, #16
	ldr	r3, [sp, #168]
	lsls	r3, r3, #24
	adds	r2, r3, r2
	adds	r1, r2, r1
	orrs	r1, r0
	bne	.LBB88_244
	b	.LBB88_236
.LBB88_244:
	ldr	r0, [sp, #72]
	lsls	r0, r0, #8
	ldr	r1, [sp, #84]
	adds	r0, r0, r1
	ldr	r1, [sp, #80]
	lsls	r1, r1, #16
	ldr	r2, [sp, #76]
	lsls	r2, r2, #24
	adds	r1, r2, r1
	adds	r0, r1, r0
	bl	tlsf_memory_dealloc
	b	.LBB88_236
.LBB88_245:
	ldr	r0, [sp, #92]
	str	r0, [sp, #180]
	ldr	r0, [sp, #148]
.LBB88_246:
	bl	tlsf_memory_dealloc
.LBB88_247:
	ldr	r0, [sp, #180]
	ldr	r1, [sp, #176]
	orrs	r0, r1
	add	r0, sp, #920
	ldr	r0, [r0, #124]
	str	r0, [sp, #32]
	add	r0, sp, #916
	ldr	r0, [r0, #124]
	str	r0, [sp, #28]
	add	r0, sp, #900
	ldr	r0, [r0, #124]
	str	r0, [sp, #36]
	bne	.LBB88_248
	b	.LBB88_259
.LBB88_248:
	movs	r7, #0
	mov	r6, r7
	b	.LBB88_250
.LBB88_249:
	movs	r0, #0
	adds	r6, r6, #1
	adcs	r7, r0
	ldr	r0, [sp, #180]
	subs	r0, r6, r0
	mov	r0, r7
	ldr	r1, [sp, #176]
	sbcs	r0, r1
	blo	.LBB88_250
	b	.LBB88_259
.LBB88_250:
	ldr	r0, .LCPI88_2
	muls	r0, r6, r0
	ldr	r1, [sp, #36]
	adds	r0, r1, r0
	movs	r1, #44
	ldrb	r1, [r0, r1]
	mov	r2, r0
	adds	r2, #44
	ldrb	r3, [r2, #1]
	lsls	r3, r3, #8
	adds	r1, r3, r1
	ldrb	r3, [r2, #2]
	lsls	r3, r3, #16
	ldrb	r2, [r2, #3]
	lsls	r2, r2, #24
	adds	r2, r2, r3
	adds	r2, r2, r1
	movs	r1, #40
	ldrb	r1, [r0, r1]
	mov	r3, r0
	adds	r3, #40
	ldrb	r4, [r3, #1]
	lsls	r4, r4, #8
	adds	r1, r4, r1
	ldrb	r4, [r3, #2]
	lsls	r4, r4, #16
	ldrb	r3, [r3, #3]
	lsls	r3, r3, #24
	adds	r3, r3, r4
	adds	r1, r3, r1
	orrs	r1, r2
	movs	r2, #87
	lsls	r2, r2, #5
	adds	r3, r0, r2
	ldrb	r4, [r3, #4]
	str	r4, [sp, #164]
	ldrb	r4, [r3, #5]
	str	r4, [sp, #148]
	ldrb	r4, [r3, #6]
	str	r4, [sp, #156]
	ldrb	r4, [r3, #7]
	str	r4, [sp, #152]
	ldrb	r2, [r0, r2]
	str	r2, [sp, #184]
	ldrb	r2, [r3, #1]
	str	r2, [sp, #160]
	ldrb	r2, [r3, #2]
	str	r2, [sp, #172]
	ldrb	r2, [r3, #3]
	str	r2, [sp, #168]
	movs	r2, #43
	lsls	r2, r2, #6
	adds	r3, r0, r2
	ldrb	r4, [r3, #4]
	str	r4, [sp, #128]
	ldrb	r4, [r3, #5]
	str	r4, [sp, #112]
	ldrb	r4, [r3, #6]
	str	r4, [sp, #120]
	ldrb	r4, [r3, #7]
	str	r4, [sp, #116]
	ldrb	r2, [r0, r2]
	str	r2, [sp, #144]
	ldrb	r2, [r3, #1]
	str	r2, [sp, #124]
	ldrb	r2, [r3, #2]
	str	r2, [sp, #136]
	ldrb	r2, [r3, #3]
	str	r2, [sp, #132]
	movs	r2, #68
	ldrb	r2, [r0, r2]
	str	r2, [sp, #108]
	mov	r2, r0
	adds	r2, #68
	ldrb	r3, [r2, #1]
	str	r3, [sp, #92]
	ldrb	r3, [r2, #2]
	str	r3, [sp, #100]
	ldrb	r2, [r2, #3]
	str	r2, [sp, #96]
	movs	r2, #64
	ldrb	r2, [r0, r2]
	str	r2, [sp, #104]
	mov	r2, r0
	adds	r2, #64
	ldrb	r4, [r2, #1]
	ldrb	r5, [r2, #2]
	ldrb	r2, [r2, #3]
	str	r2, [sp, #88]
	movs	r2, #173
	lsls	r2, r2, #4
	ldrb	r3, [r0, r2]
	str	r3, [sp, #84]
	adds	r2, r0, r2
	ldrb	r3, [r2, #1]
	str	r3, [sp, #72]
	ldrb	r3, [r2, #2]
	str	r3, [sp, #80]
	ldrb	r2, [r2, #3]
	str	r2, [sp, #76]
	movs	r2, #171
	lsls	r2, r2, #4
	ldrb	r3, [r0, r2]
	str	r3, [sp, #68]
	adds	r2, r0, r2
	ldrb	r3, [r2, #1]
	str	r3, [sp, #56]
	ldrb	r3, [r2, #2]
	str	r3, [sp, #64]
	ldrb	r2, [r2, #3]
	str	r2, [sp, #60]
	movs	r2, #48
	ldrb	r2, [r0, r2]
	str	r2, [sp, #52]
	mov	r2, r0
	adds	r2, #48
	ldrb	r3, [r2, #1]
	str	r3, [sp, #40]
	ldrb	r3, [r2, #2]
	str	r3, [sp, #48]
	ldrb	r2, [r2, #3]
	str	r2, [sp, #44]
	cmp	r1, #0
	beq	.LBB88_252
	ldrb	r1, [r0, #24]
	ldrb	r2, [r0, #25]
	lsls	r2, r2, #8
	adds	r1, r2, r1
	ldrb	r2, [r0, #26]
	lsls	r2, r2, #16
	ldrb	r0, [r0, #27]
	lsls	r0, r0, #24
	adds	r0, r0, r2
	adds	r0, r0, r1
	bl	tlsf_memory_dealloc
.LBB88_252:
	ldr	r0, [sp, #92]
	lsls	r0, r0, #8
	ldr	r1, [sp, #108]
	adds	r0, r0, r1
	ldr	r1, [sp, #100]
	lsls	r1, r1, #16
	ldr	r2, [sp, #96]
	lsls	r2, r2, #24
	adds	r1, r2, r1
	adds	r0, r1, r0
	lsls	r1, r4, #8
	ldr	r2, [sp, #104]
	adds	r1, r1, r2
	lsls	r2, r5, #16
	ldr	r3, [sp, #88]
	lsls	r3, r3, #24
	adds	r2, r3, r2
	adds	r1, r2, r1
	orrs	r1, r0
	beq	.LBB88_254
	ldr	r0, [sp, #40]
	lsls	r0, r0, #8
	ldr	r1, [sp, #52]
	adds	r0, r0, r1
	ldr	r1, [sp, #48]
	lsls	r1, r1, #16
	ldr	r2, [sp, #44]
	lsls	r2, r2, #24
	adds	r1, r2, r1
	adds	r0, r1, r0
	bl	tlsf_memory_dealloc
.LBB88_254:
	ldr	r0, [sp, #112]
	lsls	r0, r0, #8
	ldr	r1, [sp, #128]
	adds	r0, r0, r1
	ldr	r1, [sp, #120]
	lsls	r1, r1, #16
	ldr	r2, [sp, #116]
	lsls	r2, r2, #24
	adds	r1, r2, r1
	adds	r0, r1, r0
	ldr	r1, [sp, #124]
	lsls	r1, r1, #8
	ldr	r2, [sp, #144]
	adds	r1, r1, r2
	ldr	r2, [sp, #136]
	lsls	r2, r2, #16
	ldr	r3, [sp, #132]
	lsls	r3, r3, #24
	adds	r2, r3, r2
	adds	r1, r2, r1
	orrs	r1, r0
	beq	.LBB88_256
	ldr	r0, [sp, #56]
	lsls	r0, r0, #8
	ldr	r1, [sp, #68]
	adds	r0, r0, r1
	ldr	r1, [sp, #64]
	lsls	r1, r1, #16
	ldr	r2, [sp, #60]
	lsls	r2, r2, #24
	adds	r1, r2, r1
	adds	r0, r1, r0
	bl	tlsf_memory_dealloc
.LBB88_256:
	ldr	r0, [sp, #148]
	lsls	r0, r0, #8
	ldr	r1, [sp, #164]
	adds	r0, r0, r1
	ldr	r1, [sp, #156]
	lsls	r1, r1, #16
	ldr	r2, [sp, #152]
	lsls	r2, r2, #24
	adds	r1, r2, r1
	adds	r0, r1, r0
	ldr	r1, [sp, #160]
	lsls	r1, r1, #8
	ldr	r2, [sp, #184]
	adds	r1, r1, r2
	ldr	r2, [sp, #172]
	lsls	r2, r2, #16
	ldr	r3, [sp, #168]
	lsls	r3, r3, #24
	adds	r2, r3, r2
	adds	r1, r2, r1
	orrs	r1, r0
	bne	.LBB88_257
	b	.LBB88_249
.LBB88_257:
	ldr	r0, [sp, #72]
	lsls	r0, r0, #8
	ldr	r1, [sp, #84]
	adds	r0, r0, r1
	ldr	r1, [sp, #80]
	lsls	r1, r1, #16
	ldr	r2, [sp, #76]
	lsls	r2, r2, #24
	adds	r1, r2, r1
	adds	r0, r1, r0
	bl	tlsf_memory_dealloc
	b	.LBB88_249
	.p2align	2
.LCPI88_43:
	.long	2792
	.p2align	1
.LBB88_259:
	ldr	r0, [sp, #32]
	ldr	r1, [sp, #28]
	orrs	r1, r0
	beq	.LBB88_261
	ldr	r0, [sp, #36]
	bl	tlsf_memory_dealloc
.LBB88_261:
	ldr	r0, [sp, #140]
	cmp	r0, #0
	beq	.LBB88_263
	movs	r0, #6
	bl	.LBB88_7
.LBB88_263:
	movs	r0, #5
	bl	.LBB88_7
.LBB88_264:
	mov	r0, r7
	bl	tlsf_memory_dealloc
	add	r0, sp, #912
	ldr	r0, [r0, #124]
	str	r0, [sp, #176]
	add	r0, sp, #908
	ldr	r0, [r0, #124]
	str	r0, [sp, #180]
	ldr	r0, [sp, #172]
	b	.LBB88_246
.LBB88_265:
	ldr	r0, [sp, #148]
	bl	tlsf_memory_dealloc
	add	r7, sp, #912
	ldr	r7, [r7, #124]
	add	r0, sp, #908
	ldr	r0, [r0, #124]
	str	r0, [sp, #180]
	ldr	r6, [sp, #160]
	b	.LBB88_226
.LBB88_266:
	.inst.n	0xdefe
	.p2align	2
.LCPI88_2:
	.long	2792
.Lfunc_end88:
	.size	tlsf_pools_open, .Lfunc_end88-tlsf_pools_open
	.cfi_endproc
	.section	.text.tlsf_pools_part,"ax",%progbits
	.globl	tlsf_pools_part
	.p2align	2
	.type	tlsf_pools_part,%function
	.code	16
	.thumb_func
tlsf_pools_part:
	.cfi_startproc
	push	{r4, r5, r6, r7, lr}
	.cfi_def_cfa_offset 20
	.cfi_offset lr, -4
	.cfi_offset r7, -8
	.cfi_offset r6, -12
	.cfi_offset r5, -16
	.cfi_offset r4, -20
	sub	sp, #4
	.cfi_def_cfa_offset 24
	ldr	r4, [r2]
	ldrb	r5, [r0, #8]
	cmp	r5, #0
	beq	.LBB89_6
	ldr	r5, [r0]
	ldrb	r0, [r5, #1]
	cmp	r0, #0
	beq	.LBB89_6
	ldrb	r0, [r5]
	cmp	r0, #1
	bne	.LBB89_7
	movs	r0, #0
	strb	r0, [r5, #1]
	ldr	r6, [r5, #32]
	ldr	r7, [r5, #36]
	subs	r6, r1, r6
	mov	r6, r0
	sbcs	r6, r7
	bhs	.LBB89_5
	ldr	r6, .LCPI89_0
	muls	r6, r1, r6
	ldr	r1, [r5, #24]
	adds	r4, r1, r6
	ldr	r4, [r4, #24]
	ldr	r1, [r1, r6]
	movs	r6, #1
	strb	r6, [r5, #1]
	str	r1, [r3]
	b	.LBB89_9
.LBB89_5:
	movs	r0, #1
	strb	r0, [r5, #1]
	movs	r0, #4
	b	.LBB89_9
.LBB89_6:
	movs	r0, #0
	b	.LBB89_8
.LBB89_7:
	movs	r0, #2
.LBB89_8:
	mov	r5, r2
	bl	tlsf_c.call_fault.CallFault.refusal
	mov	r2, r5
.LBB89_9:
	str	r4, [r2]
	add	sp, #4
	pop	{r4, r5, r6, r7, pc}
	.p2align	2
.LCPI89_0:
	.long	2792
.Lfunc_end89:
	.size	tlsf_pools_part, .Lfunc_end89-tlsf_pools_part
	.cfi_endproc
	.section	.text.tlsf_pools_place,"ax",%progbits
	.globl	tlsf_pools_place
	.p2align	2
	.type	tlsf_pools_place,%function
	.code	16
	.thumb_func
tlsf_pools_place:
	.cfi_startproc
	push	{r4, r5, r6, r7, lr}
	.cfi_def_cfa_offset 20
	.cfi_offset lr, -4
	.cfi_offset r7, -8
	.cfi_offset r6, -12
	.cfi_offset r5, -16
	.cfi_offset r4, -20
	sub	sp, #20
	.cfi_def_cfa_offset 40
	ldrb	r4, [r0, #8]
	cmp	r4, #0
	beq	.LBB90_13
	ldr	r5, [r0]
	ldrb	r0, [r5, #1]
	cmp	r0, #0
	beq	.LBB90_13
	ldrb	r0, [r5]
	cmp	r0, #1
	bne	.LBB90_14
	movs	r6, #0
	strb	r6, [r5, #1]
	ldr	r0, [r5, #32]
	ldr	r4, [r5, #36]
	subs	r0, r1, r0
	mov	r0, r6
	sbcs	r0, r4
	bhs	.LBB90_12
	ldr	r0, .LCPI90_0
	muls	r0, r1, r0
	ldr	r1, [r5, #24]
	ldr	r7, [r1, r0]
	adds	r0, r1, r0
	str	r0, [sp, #16]
	ldr	r0, [r0, #32]
	ldrb	r1, [r5, #8]
	cmp	r1, #0
	beq	.LBB90_7
	cmp	r2, r0
	bhs	.LBB90_12
	movs	r4, #63
	ands	r4, r2
	ldr	r0, [sp, #16]
	ldr	r1, [r0, #48]
	lsrs	r0, r2, #6
	str	r7, [sp, #8]
	lsls	r7, r0, #3
	ldr	r0, [r1, r7]
	adds	r1, r1, r7
	ldr	r1, [r1, #4]
	str	r6, [sp, #12]
	b	.LBB90_9
.LBB90_7:
	cmp	r2, r0
	bhs	.LBB90_12
	movs	r4, #63
	ands	r4, r2
	ldr	r0, [sp, #16]
	ldr	r1, [r0, #48]
	lsrs	r0, r2, #6
	lsls	r0, r0, #3
	str	r7, [sp, #8]
	ldr	r7, [r1, r0]
	str	r7, [sp, #4]
	adds	r0, r1, r0
	ldr	r1, [r0, #4]
	str	r6, [sp, #12]
	ldr	r0, [sp, #4]
.LBB90_9:
	mov	r6, r2
	mov	r2, r4
	mov	r4, r3
	bl	__aeabi_llsr
	mov	r1, r0
	ldr	r0, [sp, #12]
	lsls	r1, r1, #31
	beq	.LBB90_12
	mov	r3, r6
	mov	r2, r4
	lsls	r1, r6, #3
	ldr	r4, [sp, #16]
	ldr	r4, [r4, #24]
	ldrb	r6, [r4, r1]
	lsls	r6, r6, #31
	bne	.LBB90_12
	adds	r4, r4, r1
	ldr	r1, [sp, #40]
	str	r1, [sp, #16]
	ldr	r6, [r4, #8]
	ldr	r7, [r4, #12]
	ldr	r4, [r4, #16]
	movs	r1, #1
	strb	r1, [r5, #1]
	lsrs	r1, r7, #24
	strb	r1, [r2, #15]
	lsrs	r1, r7, #16
	strb	r1, [r2, #14]
	lsrs	r1, r7, #8
	strb	r1, [r2, #13]
	strb	r7, [r2, #12]
	lsrs	r1, r6, #24
	strb	r1, [r2, #11]
	lsrs	r1, r6, #16
	strb	r1, [r2, #10]
	lsrs	r1, r6, #8
	strb	r1, [r2, #9]
	strb	r6, [r2, #8]
	lsrs	r1, r3, #24
	strb	r1, [r2, #7]
	lsrs	r1, r3, #16
	strb	r1, [r2, #6]
	lsrs	r1, r3, #8
	strb	r1, [r2, #5]
	strb	r3, [r2, #4]
	ldr	r3, [sp, #8]
	lsrs	r1, r3, #24
	strb	r1, [r2, #3]
	lsrs	r1, r3, #16
	strb	r1, [r2, #2]
	lsrs	r1, r3, #8
	strb	r1, [r2, #1]
	strb	r3, [r2]
	ldr	r1, [sp, #16]
	str	r4, [r1]
	add	sp, #20
	pop	{r4, r5, r6, r7, pc}
.LBB90_12:
	movs	r0, #1
	strb	r0, [r5, #1]
	movs	r0, #4
	add	sp, #20
	pop	{r4, r5, r6, r7, pc}
.LBB90_13:
	movs	r0, #0
	b	.LBB90_15
.LBB90_14:
	movs	r0, #2
.LBB90_15:
	bl	tlsf_c.call_fault.CallFault.refusal
	add	sp, #20
	pop	{r4, r5, r6, r7, pc}
	.p2align	2
.LCPI90_0:
	.long	2792
.Lfunc_end90:
	.size	tlsf_pools_place, .Lfunc_end90-tlsf_pools_place
	.cfi_endproc
	.section	.text.tlsf_pools_read,"ax",%progbits
	.globl	tlsf_pools_read
	.p2align	2
	.type	tlsf_pools_read,%function
	.code	16
	.thumb_func
tlsf_pools_read:
	.cfi_startproc
	push	{r4, r5, r6, r7, lr}
	.cfi_def_cfa_offset 20
	.cfi_offset lr, -4
	.cfi_offset r7, -8
	.cfi_offset r6, -12
	.cfi_offset r5, -16
	.cfi_offset r4, -20
	sub	sp, #52
	.cfi_def_cfa_offset 72
	str	r3, [sp, #48]
	movs	r4, #1
	ldr	r5, [sp, #84]
	cmp	r5, #0
	bne	.LBB91_2
	lsls	r1, r4, #12
	adds	r5, r5, r1
.LBB91_2:
	ldrb	r1, [r0, #8]
	cmp	r1, #0
	bne	.LBB91_3
	b	.LBB91_26
.LBB91_3:
	ldr	r6, [r0]
	ldrb	r0, [r6, #1]
	cmp	r0, #0
	bne	.LBB91_4
	b	.LBB91_26
.LBB91_4:
	ldrb	r0, [r6]
	cmp	r0, #1
	beq	.LBB91_5
	b	.LBB91_29
.LBB91_5:
	str	r5, [sp, #28]
	ldr	r0, [sp, #76]
	str	r0, [sp, #40]
	ldr	r0, [sp, #72]
	str	r0, [sp, #44]
	ldr	r0, [sp, #88]
	str	r0, [sp, #32]
	ldr	r0, [sp, #80]
	str	r0, [sp, #36]
	movs	r1, #0
	strb	r1, [r6, #1]
	ldr	r7, [r6, #16]
	ldr	r0, [r6, #24]
	ldrb	r5, [r6, #8]
	cmp	r5, #0
	beq	.LBB91_15
	cmp	r2, r7
	bhs	.LBB91_7
	b	.LBB91_24
.LBB91_7:
	subs	r7, r2, r7
	ldr	r5, [r6, #32]
	str	r4, [sp, #24]
	ldr	r4, [r6, #36]
	subs	r5, r7, r5
	mov	r5, r1
	sbcs	r5, r4
	ldr	r4, [sp, #24]
	blo	.LBB91_8
	b	.LBB91_24
.LBB91_8:
	str	r1, [sp, #16]
	ldr	r1, .LCPI91_0
	muls	r1, r7, r1
	ldr	r7, [r0, r1]
	cmp	r7, r2
	ldr	r5, [sp, #48]
	beq	.LBB91_9
	b	.LBB91_27
.LBB91_9:
	adds	r0, r0, r1
	str	r0, [sp, #20]
	ldr	r0, [r0, #32]
	cmp	r5, r0
	mov	r7, r2
	blo	.LBB91_10
	b	.LBB91_27
.LBB91_10:
	movs	r7, #63
	ands	r7, r5
	ldr	r0, [sp, #20]
	ldr	r1, [r0, #48]
	lsrs	r0, r5, #6
	lsls	r4, r0, #3
	ldr	r0, [r1, r4]
	adds	r1, r1, r4
	ldr	r1, [r1, #4]
	str	r2, [sp, #12]
	mov	r2, r7
	bl	__aeabi_llsr
	ldr	r2, [sp, #12]
	lsls	r0, r0, #31
	mov	r7, r2
	beq	.LBB91_27
	mov	r1, r5
	ldr	r3, [sp, #20]
	adds	r3, #24
	lsls	r0, r5, #3
	str	r3, [sp, #20]
	ldr	r3, [r3]
	ldrb	r4, [r3, r0]
	lsls	r4, r4, #31
	mov	r7, r2
	bne	.LBB91_27
	adds	r0, r3, r0
	ldr	r3, [r0, #8]
	ldr	r4, [r0, #12]
	ldr	r5, [sp, #40]
	eors	r4, r5
	ldr	r5, [sp, #44]
	eors	r3, r5
	orrs	r3, r4
	mov	r7, r2
	bne	.LBB91_27
	ldr	r2, [sp, #36]
	ldr	r7, [sp, #32]
	adds	r3, r7, r2
	ldr	r5, [sp, #16]
	mov	r4, r5
	adcs	r4, r5
	ldr	r0, [r0, #16]
	subs	r0, r0, r3
	mov	r0, r5
	sbcs	r0, r4
	blo	.LBB91_23
	str	r7, [sp]
	str	r5, [sp, #4]
	ldr	r0, [sp, #20]
	ldr	r3, [sp, #28]
	bl	tlsf_heap.region.Region.read.5
	b	.LBB91_32
.LBB91_15:
	cmp	r2, r7
	blo	.LBB91_24
	str	r0, [sp, #20]
	subs	r3, r2, r7
	ldr	r5, [r6, #32]
	ldr	r7, [r6, #36]
	movs	r0, #0
	str	r3, [sp, #12]
	subs	r5, r3, r5
	ldr	r3, [sp, #20]
	str	r0, [sp, #8]
	sbcs	r0, r7
	bhs	.LBB91_24
	str	r4, [sp, #24]
	str	r1, [sp, #16]
	ldr	r1, .LCPI91_0
	ldr	r0, [sp, #12]
	muls	r1, r0, r1
	ldr	r7, [r3, r1]
	cmp	r7, r2
	ldr	r4, [sp, #48]
	bne	.LBB91_27
	adds	r0, r3, r1
	str	r0, [sp, #20]
	ldr	r0, [r0, #32]
	cmp	r4, r0
	mov	r7, r2
	bhs	.LBB91_27
	movs	r7, #63
	ands	r7, r4
	ldr	r0, [sp, #20]
	ldr	r1, [r0, #48]
	lsrs	r0, r4, #6
	lsls	r5, r0, #3
	ldr	r0, [r1, r5]
	adds	r1, r1, r5
	ldr	r1, [r1, #4]
	str	r2, [sp, #12]
	mov	r2, r7
	bl	__aeabi_llsr
	ldr	r2, [sp, #12]
	lsls	r0, r0, #31
	mov	r7, r2
	beq	.LBB91_27
	mov	r1, r4
	ldr	r3, [sp, #20]
	adds	r3, #24
	lsls	r0, r4, #3
	str	r3, [sp, #20]
	ldr	r3, [r3]
	ldrb	r5, [r3, r0]
	lsls	r5, r5, #31
	mov	r7, r2
	bne	.LBB91_27
	adds	r0, r3, r0
	ldr	r3, [r0, #8]
	ldr	r5, [r0, #12]
	ldr	r4, [sp, #40]
	eors	r5, r4
	ldr	r4, [sp, #44]
	eors	r3, r4
	orrs	r3, r5
	mov	r7, r2
	bne	.LBB91_27
	ldr	r2, [sp, #36]
	ldr	r5, [sp, #32]
	adds	r4, r5, r2
	ldr	r7, [sp, #8]
	mov	r3, r7
	adcs	r3, r7
	ldr	r0, [r0, #16]
	subs	r0, r0, r4
	mov	r0, r7
	sbcs	r0, r3
	bhs	.LBB91_31
.LBB91_23:
	ldr	r0, [sp, #24]
	strb	r0, [r6, #1]
	movs	r0, #7
	add	sp, #52
	pop	{r4, r5, r6, r7, pc}
.LBB91_24:
	strb	r4, [r6, #1]
.LBB91_25:
	movs	r0, #3
	add	sp, #52
	pop	{r4, r5, r6, r7, pc}
.LBB91_26:
	movs	r0, #0
	b	.LBB91_30
.LBB91_27:
	mov	r0, r2
	mov	r1, r7
	bl	tlsf_heap.refusal.Refusal.of_name
	ldr	r1, [sp, #24]
	strb	r1, [r6, #1]
	uxtb	r0, r0
	cmp	r0, #3
	bne	.LBB91_25
	movs	r0, #4
	add	sp, #52
	pop	{r4, r5, r6, r7, pc}
.LBB91_29:
	movs	r0, #2
.LBB91_30:
	bl	tlsf_c.call_fault.CallFault.refusal
	add	sp, #52
	pop	{r4, r5, r6, r7, pc}
.LBB91_31:
	str	r5, [sp]
	str	r7, [sp, #4]
	ldr	r0, [sp, #20]
	ldr	r3, [sp, #28]
	bl	tlsf_heap.region.Region.read.4
.LBB91_32:
	ldr	r0, [sp, #24]
	strb	r0, [r6, #1]
	ldr	r0, [sp, #16]
	add	sp, #52
	pop	{r4, r5, r6, r7, pc}
	.p2align	2
.LCPI91_0:
	.long	2792
.Lfunc_end91:
	.size	tlsf_pools_read, .Lfunc_end91-tlsf_pools_read
	.cfi_endproc
	.section	.text.tlsf_pools_release,"ax",%progbits
	.globl	tlsf_pools_release
	.p2align	2
	.type	tlsf_pools_release,%function
	.code	16
	.thumb_func
tlsf_pools_release:
	.cfi_startproc
	push	{r4, r5, r6, r7, lr}
	.cfi_def_cfa_offset 20
	.cfi_offset lr, -4
	.cfi_offset r7, -8
	.cfi_offset r6, -12
	.cfi_offset r5, -16
	.cfi_offset r4, -20
	sub	sp, #84
	.cfi_def_cfa_offset 104
	ldrb	r1, [r0, #8]
	cmp	r1, #0
	bne	.LBB92_1
	b	.LBB92_36
.LBB92_1:
	ldr	r5, [r0]
	ldrb	r0, [r5, #1]
	cmp	r0, #0
	bne	.LBB92_2
	b	.LBB92_36
.LBB92_2:
	ldrb	r0, [r5]
	cmp	r0, #1
	beq	.LBB92_3
	b	.LBB92_40
.LBB92_3:
	ldr	r0, [sp, #108]
	str	r0, [sp, #76]
	ldr	r0, [sp, #104]
	str	r0, [sp, #80]
	movs	r6, #0
	strb	r6, [r5, #1]
	ldr	r1, [r5, #16]
	ldr	r0, [r5, #24]
	ldrb	r4, [r5, #8]
	cmp	r4, #0
	bne	.LBB92_4
	b	.LBB92_19
.LBB92_4:
	cmp	r2, r1
	bhs	.LBB92_5
	b	.LBB92_34
.LBB92_5:
	subs	r1, r2, r1
	ldr	r4, [r5, #32]
	ldr	r7, [r5, #36]
	subs	r4, r1, r4
	mov	r4, r6
	sbcs	r4, r7
	blo	.LBB92_6
	b	.LBB92_34
.LBB92_6:
	ldr	r4, .LCPI92_2
	muls	r4, r1, r4
	ldr	r1, [r0, r4]
	cmp	r1, r2
	beq	.LBB92_7
	b	.LBB92_38
.LBB92_7:
	adds	r0, r0, r4
	str	r0, [sp, #68]
	ldr	r0, [r0, #32]
	cmp	r3, r0
	mov	r1, r2
	blo	.LBB92_8
	b	.LBB92_38
.LBB92_8:
	movs	r4, #63
	ands	r4, r3
	ldr	r0, [sp, #68]
	ldr	r1, [r0, #48]
	lsrs	r0, r3, #6
	lsls	r7, r0, #3
	ldr	r0, [r1, r7]
	adds	r1, r1, r7
	ldr	r1, [r1, #4]
	mov	r7, r2
	mov	r2, r4
	str	r3, [sp, #72]
	bl	__aeabi_llsr
	mov	r2, r7
	lsls	r0, r0, #31
	mov	r1, r7
	bne	.LBB92_9
	b	.LBB92_38
.LBB92_9:
	ldr	r0, [sp, #68]
	adds	r0, #24
	ldr	r1, [sp, #72]
	lsls	r7, r1, #3
	str	r0, [sp, #60]
	ldr	r4, [r0]
	ldr	r0, [r4, r7]
	str	r0, [sp, #64]
	lsls	r1, r0, #31
	mov	r1, r2
	beq	.LBB92_10
	b	.LBB92_38
.LBB92_10:
	adds	r3, r4, r7
	ldr	r1, [r3, #8]
	str	r7, [sp, #56]
	ldr	r7, [r3, #12]
	ldr	r0, [sp, #76]
	eors	r7, r0
	ldr	r0, [sp, #80]
	eors	r1, r0
	orrs	r1, r7
	mov	r1, r2
	beq	.LBB92_11
	b	.LBB92_38
.LBB92_11:
	ldr	r1, [sp, #68]
	ldr	r7, [r1, #8]
	ldr	r0, [r1, #12]
	mov	r2, r7
	ands	r2, r0
	adds	r2, r2, #1
	bne	.LBB92_12
	b	.LBB92_37
.LBB92_12:
	str	r7, [sp, #52]
	str	r0, [sp, #44]
	ldr	r0, [r3, #4]
	str	r0, [sp, #80]
	mov	r7, r1
	ldr	r1, [r3, #16]
	str	r1, [sp, #76]
	ldr	r0, [sp, #64]
	lsrs	r1, r0, #2
	ldr	r2, [r7, #16]
	subs	r2, r2, r1
	str	r2, [r7, #16]
	lsls	r2, r0, #30
	mov	r0, r6
	mov	r2, r6
	bmi	.LBB92_14
	ldr	r0, [sp, #72]
	adds	r2, r1, r0
	lsls	r2, r2, #3
	ldr	r0, [r4, r2]
	adds	r2, r4, r2
	ldr	r2, [r2, #4]
.LBB92_14:
	str	r2, [sp, #40]
	str	r0, [sp, #48]
	str	r1, [sp, #36]
	ldr	r0, [sp, #72]
	cmp	r0, #0
	ldr	r7, [sp, #52]
	beq	.LBB92_16
	ldr	r0, [sp, #80]
	lsls	r2, r0, #3
	ldr	r0, [r4, r2]
	lsls	r1, r0, #31
	beq	.LBB92_16
	b	.LBB92_43
.LBB92_16:
	ldr	r0, [sp, #48]
	lsls	r1, r0, #31
	beq	.LBB92_17
	b	.LBB92_42
.LBB92_17:
	movs	r1, #1
	ldr	r0, [sp, #64]
	str	r1, [sp, #48]
	orrs	r0, r1
	str	r0, [r3]
	ldr	r0, [sp, #80]
	str	r0, [r3, #4]
	str	r7, [r3, #8]
	ldr	r0, [sp, #44]
	str	r0, [r3, #12]
	ldr	r4, [sp, #68]
	ldr	r0, [r4, #8]
	movs	r1, #0
	adds	r0, r0, #1
	str	r0, [r4, #8]
	ldr	r0, [r4, #12]
	str	r1, [sp, #80]
	adcs	r0, r1
	str	r0, [r4, #12]
	movs	r0, #32
	ldr	r7, [sp, #36]
	orrs	r0, r7
	bl	__clzsi2
	ldr	r1, [sp, #72]
	movs	r2, #26
	subs	r0, r2, r0
	lsrs	r7, r0
	lsls	r0, r0, #5
	adds	r0, r7, r0
	lsls	r2, r0, #2
	adds	r3, r4, r2
	movs	r4, #168
	ldr	r2, [r3, r4]
	str	r1, [r3, r4]
	cmp	r2, #0
	bpl	.LBB92_18
	b	.LBB92_46
.LBB92_18:
	ldr	r0, [sp, #60]
	ldr	r0, [r0]
	ldr	r3, [sp, #56]
	adds	r3, r0, r3
	ldr	r4, [sp, #80]
	mvns	r4, r4
	str	r2, [r3, #16]
	str	r4, [r3, #20]
	lsls	r2, r2, #3
	adds	r0, r0, r2
	str	r1, [r0, #20]
	ldr	r4, [sp, #68]
	b	.LBB92_47
.LBB92_19:
	cmp	r2, r1
	bhs	.LBB92_20
	b	.LBB92_34
.LBB92_20:
	subs	r1, r2, r1
	ldr	r4, [r5, #32]
	ldr	r6, [r5, #36]
	movs	r7, #0
	subs	r4, r1, r4
	mov	r4, r7
	sbcs	r4, r6
	blo	.LBB92_21
	b	.LBB92_34
.LBB92_21:
	str	r7, [sp, #64]
	ldr	r4, .LCPI92_0
	muls	r4, r1, r4
	ldr	r1, [r0, r4]
	cmp	r1, r2
	beq	.LBB92_22
	b	.LBB92_38
.LBB92_22:
	adds	r7, r0, r4
	ldr	r0, [r7, #32]
	cmp	r3, r0
	mov	r1, r2
	blo	.LBB92_23
	b	.LBB92_38
.LBB92_23:
	movs	r4, #63
	ands	r4, r3
	ldr	r1, [r7, #48]
	lsrs	r0, r3, #6
	str	r7, [sp, #68]
	lsls	r6, r0, #3
	ldr	r0, [r1, r6]
	adds	r1, r1, r6
	ldr	r1, [r1, #4]
	mov	r6, r2
	mov	r2, r4
	str	r3, [sp, #72]
	bl	__aeabi_llsr
	mov	r2, r6
	ldr	r3, [sp, #68]
	lsls	r0, r0, #31
	mov	r1, r6
	beq	.LBB92_38
	adds	r3, #24
	ldr	r0, [sp, #72]
	lsls	r7, r0, #3
	str	r3, [sp, #60]
	ldr	r4, [r3]
	ldr	r0, [r4, r7]
	lsls	r1, r0, #31
	mov	r1, r2
	bne	.LBB92_38
	adds	r3, r4, r7
	ldr	r1, [r3, #8]
	ldr	r6, [r3, #12]
	str	r7, [sp, #56]
	ldr	r7, [sp, #76]
	eors	r6, r7
	ldr	r7, [sp, #80]
	eors	r1, r7
	orrs	r1, r6
	ldr	r6, [sp, #68]
	mov	r1, r2
	bne	.LBB92_38
	ldr	r1, [r6, #8]
	ldr	r7, [r6, #12]
	mov	r2, r1
	ands	r2, r7
	adds	r2, r2, #1
	beq	.LBB92_37
	str	r7, [sp, #48]
	ldr	r2, [r3, #4]
	str	r2, [sp, #80]
	ldr	r2, [r3, #16]
	str	r2, [sp, #52]
	lsrs	r7, r0, #2
	ldr	r2, [r6, #16]
	subs	r2, r2, r7
	str	r2, [r6, #16]
	lsls	r2, r0, #30
	ldr	r2, [sp, #64]
	str	r2, [sp, #76]
	bmi	.LBB92_29
	ldr	r2, [sp, #72]
	adds	r2, r7, r2
	lsls	r2, r2, #3
	str	r7, [sp, #44]
	ldr	r7, [r4, r2]
	str	r7, [sp, #76]
	ldr	r7, [sp, #44]
	adds	r2, r4, r2
	ldr	r2, [r2, #4]
.LBB92_29:
	str	r2, [sp, #44]
	ldr	r2, [sp, #72]
	cmp	r2, #0
	beq	.LBB92_31
	ldr	r2, [sp, #80]
	lsls	r2, r2, #3
	ldr	r6, [r4, r2]
	str	r6, [sp, #40]
	lsls	r6, r6, #31
	ldr	r6, [sp, #68]
	beq	.LBB92_31
	b	.LBB92_45
.LBB92_31:
	ldr	r2, [sp, #76]
	lsls	r4, r2, #31
	bne	.LBB92_44
	movs	r2, #1
	str	r2, [sp, #76]
	orrs	r0, r2
	str	r0, [r3]
	ldr	r0, [sp, #80]
	str	r0, [r3, #4]
	str	r1, [r3, #8]
	ldr	r0, [sp, #48]
	str	r0, [r3, #12]
	ldr	r0, [r6, #8]
	movs	r4, #0
	adds	r0, r0, #1
	str	r0, [r6, #8]
	ldr	r0, [r6, #12]
	adcs	r0, r4
	str	r0, [r6, #12]
	movs	r0, #16
	orrs	r0, r7
	bl	__clzsi2
	ldr	r1, [sp, #72]
	movs	r2, #27
	subs	r0, r2, r0
	lsrs	r7, r0
	str	r7, [sp, #44]
	lsls	r0, r0, #4
	adds	r0, r7, r0
	lsls	r2, r0, #2
	adds	r3, r6, r2
	mov	r7, r6
	movs	r6, #168
	ldr	r2, [r3, r6]
	str	r1, [r3, r6]
	cmp	r2, #0
	bpl	.LBB92_33
	b	.LBB92_58
.LBB92_33:
	ldr	r0, [sp, #60]
	ldr	r0, [r0]
	ldr	r3, [sp, #56]
	adds	r3, r0, r3
	mvns	r4, r4
	str	r2, [r3, #16]
	str	r4, [r3, #20]
	lsls	r2, r2, #3
	adds	r0, r0, r2
	str	r1, [r0, #20]
	b	.LBB92_59
.LBB92_34:
	movs	r0, #1
	strb	r0, [r5, #1]
.LBB92_35:
	movs	r0, #3
	add	sp, #84
	pop	{r4, r5, r6, r7, pc}
.LBB92_36:
	movs	r0, #0
	b	.LBB92_41
.LBB92_37:
	movs	r0, #1
	strb	r0, [r5, #1]
	movs	r0, #2
	add	sp, #84
	pop	{r4, r5, r6, r7, pc}
.LBB92_38:
	mov	r0, r2
	bl	tlsf_heap.refusal.Refusal.of_name
	movs	r1, #1
	strb	r1, [r5, #1]
	uxtb	r0, r0
	cmp	r0, #3
	bne	.LBB92_35
	movs	r0, #4
	add	sp, #84
	pop	{r4, r5, r6, r7, pc}
.LBB92_40:
	movs	r0, #2
.LBB92_41:
	bl	tlsf_c.call_fault.CallFault.refusal
	add	sp, #84
	pop	{r4, r5, r6, r7, pc}
.LBB92_42:
	movs	r1, #0
	adds	r2, r7, #1
	ldr	r4, [sp, #68]
	str	r2, [r4, #8]
	ldr	r3, [sp, #44]
	adcs	r1, r3
	str	r1, [r4, #12]
	mov	r2, r0
	ldr	r0, [sp, #64]
	str	r0, [sp]
	ldr	r0, [sp, #80]
	str	r0, [sp, #4]
	str	r7, [sp, #8]
	str	r3, [sp, #12]
	ldr	r0, [sp, #72]
	str	r0, [sp, #16]
	ldr	r0, [sp, #60]
	ldr	r3, [sp, #40]
	bl	tlsf_heap.fitting.merge_next.5
	b	.LBB92_47
.LBB92_43:
	adds	r1, r4, r2
	ldr	r1, [r1, #4]
	movs	r2, #0
	adds	r3, r7, #1
	ldr	r4, [sp, #68]
	str	r3, [r4, #8]
	ldr	r3, [sp, #44]
	adcs	r2, r3
	str	r2, [r4, #12]
	mov	r2, r0
	ldr	r0, [sp, #64]
	str	r0, [sp, #24]
	ldr	r0, [sp, #80]
	str	r0, [sp, #28]
	str	r2, [sp]
	str	r1, [sp, #4]
	str	r7, [sp, #8]
	str	r3, [sp, #12]
	ldr	r0, [sp, #72]
	str	r0, [sp, #16]
	ldr	r0, [sp, #60]
	ldr	r2, [sp, #48]
	ldr	r3, [sp, #40]
	bl	tlsf_heap.fitting.merge_before.5
	b	.LBB92_47
.LBB92_44:
	movs	r4, #0
	adds	r3, r1, #1
	str	r3, [r6, #8]
	ldr	r3, [sp, #48]
	adcs	r4, r3
	str	r4, [r6, #12]
	str	r0, [sp]
	ldr	r0, [sp, #80]
	add	r4, sp, #4
	stm	r4!, {r0, r1, r3}
	ldr	r0, [sp, #72]
	str	r0, [sp, #16]
	ldr	r0, [sp, #60]
	ldr	r3, [sp, #44]
	bl	tlsf_heap.fitting.merge_next.4
	b	.LBB92_60
.LBB92_45:
	adds	r2, r4, r2
	ldr	r2, [r2, #4]
	movs	r3, #0
	adds	r4, r1, #1
	str	r4, [r6, #8]
	ldr	r4, [sp, #48]
	adcs	r3, r4
	str	r3, [r6, #12]
	str	r0, [sp, #24]
	ldr	r0, [sp, #80]
	str	r0, [sp, #28]
	ldr	r0, [sp, #40]
	str	r0, [sp]
	str	r2, [sp, #4]
	str	r1, [sp, #8]
	str	r4, [sp, #12]
	ldr	r0, [sp, #72]
	str	r0, [sp, #16]
	ldr	r0, [sp, #60]
	ldr	r2, [sp, #76]
	ldr	r3, [sp, #44]
	bl	tlsf_heap.fitting.merge_before.4
	b	.LBB92_60
.LBB92_46:
	mvns	r1, r6
	ldr	r4, [sp, #68]
	ldr	r2, [r4, #24]
	ldr	r3, [sp, #56]
	adds	r2, r2, r3
	str	r1, [r2, #16]
	str	r1, [r2, #20]
	lsrs	r0, r0, #5
	ldr	r3, [sp, #48]
	mov	r1, r3
	lsls	r1, r0
	ldr	r2, [r4, #80]
	orrs	r2, r1
	str	r2, [r4, #80]
	movs	r1, #31
	ands	r7, r1
	lsls	r3, r7
	lsls	r0, r0, #2
	adds	r0, r4, r0
	ldr	r1, [r0, #84]
	orrs	r1, r3
	str	r1, [r0, #84]
.LBB92_47:
	ldr	r0, .LCPI92_1
	ldr	r2, [r4, r0]
	adds	r0, r4, r0
	ldr	r3, [r0, #4]
	mov	r0, r2
	orrs	r0, r3
	ldr	r7, [sp, #76]
	beq	.LBB92_74
	movs	r0, #173
	lsls	r0, r0, #4
	ldr	r0, [r4, r0]
	movs	r1, #171
	lsls	r1, r1, #4
	ldr	r4, [r4, r1]
	movs	r1, #0
.LBB92_49:
	ldr	r6, [r4, #4]
	cmp	r6, r7
	bhs	.LBB92_73
	movs	r6, #1
	eors	r6, r2
	orrs	r6, r3
	beq	.LBB92_74
	ldr	r6, [r4, #12]
	cmp	r6, r7
	bhs	.LBB92_70
	movs	r6, #2
	eors	r6, r2
	orrs	r6, r3
	beq	.LBB92_74
	ldr	r6, [r4, #20]
	cmp	r6, r7
	bhs	.LBB92_71
	movs	r6, #3
	eors	r6, r2
	orrs	r6, r3
	beq	.LBB92_74
	ldr	r6, [r4, #28]
	cmp	r6, r7
	bhs	.LBB92_72
	movs	r6, #0
	subs	r2, r2, #4
	sbcs	r3, r6
	mov	r6, r2
	orrs	r6, r3
	adds	r1, r1, #4
	adds	r4, #32
	cmp	r6, #0
	bne	.LBB92_49
	b	.LBB92_74
	.p2align	2
.LCPI92_2:
	.long	2792
	.p2align	1
.LBB92_58:
	ldr	r1, [sp, #64]
	mvns	r1, r1
	ldr	r2, [r7, #24]
	ldr	r3, [sp, #56]
	adds	r2, r2, r3
	str	r1, [r2, #16]
	str	r1, [r2, #20]
	lsrs	r0, r0, #4
	ldr	r3, [sp, #76]
	mov	r1, r3
	lsls	r1, r0
	ldr	r2, [r7, #80]
	orrs	r2, r1
	str	r2, [r7, #80]
	movs	r1, #15
	ldr	r2, [sp, #44]
	ands	r2, r1
	lsls	r3, r2
	lsls	r0, r0, #2
	adds	r0, r7, r0
	ldr	r1, [r0, #84]
	orrs	r1, r3
	str	r1, [r0, #84]
.LBB92_59:
	mov	r6, r7
.LBB92_60:
	ldr	r0, .LCPI92_1
	ldr	r2, [r6, r0]
	adds	r0, r6, r0
	ldr	r3, [r0, #4]
	mov	r0, r2
	orrs	r0, r3
	ldr	r7, [sp, #52]
	beq	.LBB92_74
	movs	r0, #173
	lsls	r0, r0, #4
	ldr	r0, [r6, r0]
	movs	r1, #171
	lsls	r1, r1, #4
	ldr	r4, [r6, r1]
	movs	r1, #0
.LBB92_62:
	ldr	r6, [r4, #4]
	cmp	r6, r7
	bhs	.LBB92_73
	movs	r6, #1
	eors	r6, r2
	orrs	r6, r3
	beq	.LBB92_74
	ldr	r6, [r4, #12]
	cmp	r6, r7
	bhs	.LBB92_70
	movs	r6, #2
	eors	r6, r2
	orrs	r6, r3
	beq	.LBB92_74
	ldr	r6, [r4, #20]
	cmp	r6, r7
	bhs	.LBB92_71
	movs	r6, #3
	eors	r6, r2
	orrs	r6, r3
	beq	.LBB92_74
	ldr	r6, [r4, #28]
	cmp	r6, r7
	bhs	.LBB92_72
	movs	r6, #0
	subs	r2, r2, #4
	sbcs	r3, r6
	mov	r6, r2
	orrs	r6, r3
	adds	r1, r1, #4
	adds	r4, #32
	cmp	r6, #0
	bne	.LBB92_62
	b	.LBB92_74
.LBB92_70:
	adds	r1, r1, #1
	b	.LBB92_73
.LBB92_71:
	adds	r1, r1, #2
	b	.LBB92_73
.LBB92_72:
	adds	r1, r1, #3
.LBB92_73:
	lsls	r1, r1, #2
	ldr	r2, [r0, r1]
	subs	r2, r2, #1
	str	r2, [r0, r1]
.LBB92_74:
	movs	r0, #1
	strb	r0, [r5, #1]
	movs	r0, #0
	add	sp, #84
	pop	{r4, r5, r6, r7, pc}
	.p2align	2
.LCPI92_0:
	.long	2792
.LCPI92_1:
	.long	2744
.Lfunc_end92:
	.size	tlsf_pools_release, .Lfunc_end92-tlsf_pools_release
	.cfi_endproc
	.section	.text.tlsf_pools_report,"ax",%progbits
	.globl	tlsf_pools_report
	.p2align	2
	.type	tlsf_pools_report,%function
	.code	16
	.thumb_func
tlsf_pools_report:
	.cfi_startproc
	push	{r4, r5, r6, r7, lr}
	.cfi_def_cfa_offset 20
	.cfi_offset lr, -4
	.cfi_offset r7, -8
	.cfi_offset r6, -12
	.cfi_offset r5, -16
	.cfi_offset r4, -20
	sub	sp, #132
	.cfi_def_cfa_offset 152
	mov	r5, r1
	ldrb	r1, [r0, #8]
	cmp	r1, #0
	bne	.LBB93_1
	b	.LBB93_10
.LBB93_1:
	ldr	r7, [r0]
	ldrb	r0, [r7, #1]
	cmp	r0, #0
	bne	.LBB93_2
	b	.LBB93_10
.LBB93_2:
	ldrb	r0, [r7]
	cmp	r0, #1
	beq	.LBB93_3
	b	.LBB93_11
.LBB93_3:
	mov	r4, r2
	movs	r0, #0
	strb	r0, [r7, #1]
	ldr	r2, [r7, #32]
	ldr	r1, [r7, #36]
	ldrb	r3, [r7, #8]
	cmp	r3, #0
	beq	.LBB93_6
	subs	r2, r5, r2
	mov	r2, r0
	sbcs	r2, r1
	blo	.LBB93_5
	b	.LBB93_9
.LBB93_5:
	str	r0, [sp, #28]
	ldr	r0, [r7, #24]
	str	r0, [sp, #24]
	add	r6, sp, #80
	movs	r1, #0
	movs	r2, #48
	mov	r0, r6
	bl	tlsf_memory_set
	ldr	r0, .LCPI93_0
	muls	r0, r5, r0
	ldr	r1, [sp, #24]
	adds	r1, r1, r0
	mov	r0, r6
	bl	tlsf_heap.heap.Heap.report.5
	b	.LBB93_8
.LBB93_6:
	movs	r3, #0
	subs	r2, r5, r2
	sbcs	r3, r1
	blo	.LBB93_7
	b	.LBB93_9
.LBB93_7:
	str	r0, [sp, #28]
	ldr	r0, [r7, #24]
	str	r0, [sp, #24]
	add	r6, sp, #32
	movs	r1, #0
	movs	r2, #48
	mov	r0, r6
	bl	tlsf_memory_set
	ldr	r0, .LCPI93_0
	muls	r0, r5, r0
	ldr	r1, [sp, #24]
	adds	r1, r1, r0
	mov	r0, r6
	bl	tlsf_heap.heap.Heap.report.4
.LBB93_8:
	ldr	r0, [r6]
	str	r0, [sp, #24]
	ldr	r0, [r6, #4]
	str	r0, [sp, #20]
	ldr	r0, [r6, #8]
	str	r0, [sp, #16]
	ldr	r0, [r6, #12]
	str	r0, [sp, #12]
	ldr	r0, [r6, #16]
	str	r0, [sp, #8]
	ldr	r0, [r6, #20]
	str	r0, [sp, #4]
	ldr	r0, [r6, #24]
	str	r0, [sp]
	ldr	r3, [r6, #28]
	ldr	r2, [r6, #32]
	ldr	r1, [r6, #40]
	ldr	r0, [r6, #44]
	movs	r6, #1
	strb	r6, [r7, #1]
	movs	r6, #44
	strb	r0, [r4, r6]
	movs	r6, #40
	strb	r1, [r4, r6]
	movs	r7, #36
	ldr	r6, [sp, #28]
	strb	r6, [r4, r7]
	movs	r7, #32
	strb	r2, [r4, r7]
	mov	r7, r4
	adds	r7, #44
	lsrs	r5, r0, #24
	strb	r5, [r7, #3]
	lsrs	r5, r0, #16
	strb	r5, [r7, #2]
	lsrs	r0, r0, #8
	strb	r0, [r7, #1]
	mov	r0, r4
	adds	r0, #40
	lsrs	r5, r1, #24
	strb	r5, [r0, #3]
	lsrs	r5, r1, #16
	strb	r5, [r0, #2]
	lsrs	r1, r1, #8
	strb	r1, [r0, #1]
	mov	r0, r4
	adds	r0, #36
	strb	r6, [r0, #3]
	strb	r6, [r0, #2]
	strb	r6, [r0, #1]
	mov	r1, r4
	adds	r1, #32
	lsrs	r0, r2, #24
	strb	r0, [r1, #3]
	lsrs	r0, r2, #16
	strb	r0, [r1, #2]
	lsrs	r2, r2, #8
	mov	r0, r6
	strb	r2, [r1, #1]
	lsrs	r1, r3, #24
	strb	r1, [r4, #31]
	lsrs	r1, r3, #16
	strb	r1, [r4, #30]
	lsrs	r1, r3, #8
	strb	r1, [r4, #29]
	strb	r3, [r4, #28]
	ldr	r2, [sp]
	lsrs	r1, r2, #24
	strb	r1, [r4, #27]
	lsrs	r1, r2, #16
	strb	r1, [r4, #26]
	lsrs	r1, r2, #8
	strb	r1, [r4, #25]
	strb	r2, [r4, #24]
	ldr	r2, [sp, #4]
	lsrs	r1, r2, #24
	strb	r1, [r4, #23]
	lsrs	r1, r2, #16
	strb	r1, [r4, #22]
	lsrs	r1, r2, #8
	strb	r1, [r4, #21]
	strb	r2, [r4, #20]
	ldr	r2, [sp, #8]
	lsrs	r1, r2, #24
	strb	r1, [r4, #19]
	lsrs	r1, r2, #16
	strb	r1, [r4, #18]
	lsrs	r1, r2, #8
	strb	r1, [r4, #17]
	strb	r2, [r4, #16]
	ldr	r2, [sp, #12]
	lsrs	r1, r2, #24
	strb	r1, [r4, #15]
	lsrs	r1, r2, #16
	strb	r1, [r4, #14]
	lsrs	r1, r2, #8
	strb	r1, [r4, #13]
	strb	r2, [r4, #12]
	ldr	r2, [sp, #16]
	lsrs	r1, r2, #24
	strb	r1, [r4, #11]
	lsrs	r1, r2, #16
	strb	r1, [r4, #10]
	lsrs	r1, r2, #8
	strb	r1, [r4, #9]
	strb	r2, [r4, #8]
	ldr	r2, [sp, #20]
	lsrs	r1, r2, #24
	strb	r1, [r4, #7]
	lsrs	r1, r2, #16
	strb	r1, [r4, #6]
	lsrs	r1, r2, #8
	strb	r1, [r4, #5]
	strb	r2, [r4, #4]
	ldr	r2, [sp, #24]
	lsrs	r1, r2, #24
	strb	r1, [r4, #3]
	lsrs	r1, r2, #16
	strb	r1, [r4, #2]
	lsrs	r1, r2, #8
	strb	r1, [r4, #1]
	strb	r2, [r4]
	add	sp, #132
	pop	{r4, r5, r6, r7, pc}
.LBB93_9:
	movs	r0, #1
	strb	r0, [r7, #1]
	movs	r0, #4
	add	sp, #132
	pop	{r4, r5, r6, r7, pc}
.LBB93_10:
	movs	r0, #0
	b	.LBB93_12
.LBB93_11:
	movs	r0, #2
.LBB93_12:
	bl	tlsf_c.call_fault.CallFault.refusal
	add	sp, #132
	pop	{r4, r5, r6, r7, pc}
	.p2align	2
.LCPI93_0:
	.long	2792
.Lfunc_end93:
	.size	tlsf_pools_report, .Lfunc_end93-tlsf_pools_report
	.cfi_endproc
	.section	.text.tlsf_pools_row,"ax",%progbits
	.globl	tlsf_pools_row
	.p2align	2
	.type	tlsf_pools_row,%function
	.code	16
	.thumb_func
tlsf_pools_row:
	.cfi_startproc
	push	{r4, r5, r6, r7, lr}
	.cfi_def_cfa_offset 20
	.cfi_offset lr, -4
	.cfi_offset r7, -8
	.cfi_offset r6, -12
	.cfi_offset r5, -16
	.cfi_offset r4, -20
	sub	sp, #28
	.cfi_def_cfa_offset 48
	ldrb	r3, [r0, #8]
	cmp	r3, #0
	bne	.LBB94_1
	b	.LBB94_41
.LBB94_1:
	ldr	r3, [r0]
	ldrb	r0, [r3, #1]
	cmp	r0, #0
	bne	.LBB94_2
	b	.LBB94_41
.LBB94_2:
	ldrb	r0, [r3]
	cmp	r0, #1
	beq	.LBB94_3
	b	.LBB94_46
.LBB94_3:
	str	r2, [sp]
	movs	r6, #0
	strb	r6, [r3, #1]
	ldr	r2, [r3, #32]
	ldr	r4, [r3, #36]
	ldr	r0, [r3, #24]
	str	r0, [sp, #20]
	str	r3, [sp, #8]
	ldrb	r0, [r3, #8]
	cmp	r0, #0
	str	r2, [sp, #16]
	str	r4, [sp, #12]
	mov	r0, r2
	beq	.LBB94_13
	orrs	r0, r4
	bne	.LBB94_5
	b	.LBB94_40
.LBB94_5:
	mov	r5, r6
	b	.LBB94_7
.LBB94_6:
	movs	r0, #0
	adds	r5, r5, #1
	ldr	r6, [sp, #4]
	adcs	r6, r0
	ldr	r0, [sp, #16]
	subs	r0, r5, r0
	mov	r0, r6
	ldr	r2, [sp, #12]
	sbcs	r0, r2
	blo	.LBB94_7
	b	.LBB94_40
.LBB94_7:
	str	r6, [sp, #4]
	ldr	r0, .LCPI94_0
	muls	r0, r5, r0
	ldr	r2, [sp, #20]
	adds	r0, r2, r0
	ldr	r2, .LCPI94_1
	ldr	r7, [r0, r2]
	adds	r3, r0, r2
	ldr	r6, [r3, #4]
	mov	r3, r7
	orrs	r3, r6
	beq	.LBB94_6
	movs	r3, #171
	lsls	r3, r3, #4
	ldr	r2, [r0, r3]
	str	r2, [sp, #24]
	adds	r2, #12
	mov	r0, r7
	mov	r4, r6
.LBB94_9:
	mov	r3, r2
	subs	r3, #8
	ldr	r3, [r3]
	cmp	r3, r1
	bhs	.LBB94_22
	movs	r3, #1
	eors	r3, r0
	orrs	r3, r4
	beq	.LBB94_6
	ldr	r3, [r2]
	cmp	r3, r1
	bhs	.LBB94_22
	adds	r2, #16
	movs	r3, #0
	subs	r0, r0, #2
	sbcs	r4, r3
	mov	r3, r0
	orrs	r3, r4
	bne	.LBB94_9
	b	.LBB94_6
.LBB94_13:
	orrs	r0, r4
	beq	.LBB94_40
	movs	r4, #0
	mov	r2, r4
	b	.LBB94_16
.LBB94_15:
	movs	r0, #0
	adds	r2, r2, #1
	ldr	r4, [sp, #4]
	adcs	r4, r0
	ldr	r0, [sp, #16]
	subs	r0, r2, r0
	mov	r0, r4
	ldr	r3, [sp, #12]
	sbcs	r0, r3
	bhs	.LBB94_40
.LBB94_16:
	str	r4, [sp, #4]
	ldr	r0, .LCPI94_0
	muls	r0, r2, r0
	ldr	r3, [sp, #20]
	adds	r3, r3, r0
	ldr	r4, .LCPI94_1
	ldr	r0, [r3, r4]
	adds	r5, r3, r4
	ldr	r5, [r5, #4]
	mov	r6, r0
	orrs	r6, r5
	beq	.LBB94_15
	movs	r6, #171
	lsls	r6, r6, #4
	ldr	r4, [r3, r6]
	str	r4, [sp, #24]
	adds	r4, #12
	mov	r7, r0
	mov	r6, r5
.LBB94_18:
	mov	r3, r4
	subs	r3, #8
	ldr	r3, [r3]
	cmp	r3, r1
	bhs	.LBB94_31
	movs	r3, #1
	eors	r3, r7
	orrs	r3, r6
	beq	.LBB94_15
	ldr	r3, [r4]
	cmp	r3, r1
	bhs	.LBB94_31
	adds	r4, #16
	movs	r3, #0
	subs	r7, r7, #2
	sbcs	r6, r3
	mov	r3, r7
	orrs	r3, r6
	bne	.LBB94_18
	b	.LBB94_15
.LBB94_22:
	movs	r4, #0
	mov	r2, r4
.LBB94_23:
	ldr	r0, [sp, #24]
	adds	r3, r0, r2
	ldr	r0, [r3, #4]
	cmp	r0, r1
	bhs	.LBB94_45
	movs	r0, #1
	eors	r0, r7
	orrs	r0, r6
	beq	.LBB94_40
	ldr	r0, [r3, #12]
	cmp	r0, r1
	bhs	.LBB94_42
	movs	r0, #2
	eors	r0, r7
	orrs	r0, r6
	beq	.LBB94_40
	ldr	r0, [r3, #20]
	cmp	r0, r1
	bhs	.LBB94_43
	movs	r0, #3
	eors	r0, r7
	orrs	r0, r6
	beq	.LBB94_40
	ldr	r0, [r3, #28]
	cmp	r0, r1
	bhs	.LBB94_44
	movs	r0, #0
	subs	r7, r7, #4
	sbcs	r6, r0
	mov	r0, r7
	orrs	r0, r6
	adds	r2, #32
	adds	r4, r4, #4
	cmp	r0, #0
	bne	.LBB94_23
	b	.LBB94_40
.LBB94_31:
	movs	r4, #0
	mov	r2, r4
.LBB94_32:
	ldr	r3, [sp, #24]
	adds	r3, r3, r2
	ldr	r6, [r3, #4]
	cmp	r6, r1
	bhs	.LBB94_45
	movs	r6, #1
	eors	r6, r0
	orrs	r6, r5
	beq	.LBB94_40
	ldr	r6, [r3, #12]
	cmp	r6, r1
	bhs	.LBB94_42
	movs	r6, #2
	eors	r6, r0
	orrs	r6, r5
	beq	.LBB94_40
	ldr	r6, [r3, #20]
	cmp	r6, r1
	bhs	.LBB94_43
	movs	r6, #3
	eors	r6, r0
	orrs	r6, r5
	beq	.LBB94_40
	ldr	r3, [r3, #28]
	cmp	r3, r1
	bhs	.LBB94_44
	movs	r3, #0
	subs	r0, r0, #4
	sbcs	r5, r3
	mov	r3, r0
	orrs	r3, r5
	adds	r2, #32
	adds	r4, r4, #4
	cmp	r3, #0
	bne	.LBB94_32
.LBB94_40:
	movs	r0, #1
	ldr	r1, [sp, #8]
	strb	r0, [r1, #1]
	movs	r0, #5
	add	sp, #28
	pop	{r4, r5, r6, r7, pc}
.LBB94_41:
	movs	r0, #0
	b	.LBB94_47
.LBB94_42:
	adds	r4, r4, #1
	b	.LBB94_45
.LBB94_43:
	adds	r4, r4, #2
	b	.LBB94_45
.LBB94_44:
	adds	r4, r4, #3
.LBB94_45:
	lsls	r0, r4, #3
	ldr	r1, [sp, #24]
	adds	r0, r1, r0
	ldr	r0, [r0, #4]
	movs	r1, #1
	ldr	r2, [sp, #8]
	strb	r1, [r2, #1]
	ldr	r1, [sp]
	str	r0, [r1]
	movs	r0, #0
	add	sp, #28
	pop	{r4, r5, r6, r7, pc}
.LBB94_46:
	movs	r0, #2
.LBB94_47:
	bl	tlsf_c.call_fault.CallFault.refusal
	add	sp, #28
	pop	{r4, r5, r6, r7, pc}
	.p2align	2
.LCPI94_0:
	.long	2792
.LCPI94_1:
	.long	2744
.Lfunc_end94:
	.size	tlsf_pools_row, .Lfunc_end94-tlsf_pools_row
	.cfi_endproc
	.section	.text.tlsf_pools_words,"ax",%progbits
	.globl	tlsf_pools_words
	.p2align	1
	.type	tlsf_pools_words,%function
	.code	16
	.thumb_func
tlsf_pools_words:
	.cfi_startproc
	push	{r4, r5, r6, r7, lr}
	.cfi_def_cfa_offset 20
	.cfi_offset lr, -4
	.cfi_offset r7, -8
	.cfi_offset r6, -12
	.cfi_offset r5, -16
	.cfi_offset r4, -20
	sub	sp, #508
	sub	sp, #176
	.cfi_def_cfa_offset 704
	movs	r6, #1
	cmp	r1, #0
	bne	.LBB95_2
	lsls	r4, r6, #12
	adds	r1, r1, r4
.LBB95_2:
	mvns	r4, r6
	subs	r5, r0, #6
	cmp	r5, r4
	bhs	.LBB95_4
	movs	r5, #34
	b	.LBB95_38
.LBB95_4:
	movs	r5, #5
	cmp	r2, #64
	bls	.LBB95_5
	b	.LBB95_38
.LBB95_5:
	str	r5, [sp, #20]
	str	r3, [sp, #16]
	add	r3, sp, #80
	movs	r4, #0
	movs	r5, #88
	str	r0, [sp, #12]
	mov	r0, r3
	str	r1, [sp, #40]
	mov	r1, r4
	mov	r7, r2
	mov	r2, r5
	bl	tlsf_memory_set
	str	r6, [sp, #36]
	lsls	r2, r6, #9
	add	r0, sp, #172
	str	r4, [sp, #4]
	mov	r1, r4
	bl	tlsf_memory_set
	str	r7, [sp, #24]
	cmp	r7, #0
	bne	.LBB95_6
	b	.LBB95_33
.LBB95_6:
	movs	r2, #3
	ldr	r0, [sp, #24]
	mov	r1, r0
	str	r2, [sp, #32]
	ands	r1, r2
	str	r1, [sp, #8]
	movs	r6, #0
	cmp	r0, #4
	str	r6, [sp]
	bhs	.LBB95_7
	b	.LBB95_21
.LBB95_7:
	movs	r1, #124
	ldr	r0, [sp, #24]
	ands	r1, r0
	str	r1, [sp, #28]
	movs	r2, #0
	mov	r6, r2
	mov	r3, r2
	str	r2, [sp, #68]
	b	.LBB95_9
.LBB95_8:
	ldr	r3, [sp, #64]
	ldr	r1, [sp, #60]
	adds	r1, r5, r1
	str	r0, [r1, #4]
	adds	r6, r6, #4
	ldr	r2, [sp, #68]
	adcs	r3, r2
	mov	r0, r6
	ldr	r1, [sp, #28]
	eors	r0, r1
	orrs	r0, r3
	bne	.LBB95_9
	b	.LBB95_20
.LBB95_9:
	str	r3, [sp, #64]
	lsls	r0, r6, #4
	mov	r1, r6
	ldr	r6, [sp, #40]
	ldrb	r2, [r6, r0]
	adds	r3, r6, r0
	ldrb	r0, [r3, #1]
	lsls	r0, r0, #8
	adds	r0, r0, r2
	ldrb	r2, [r3, #2]
	lsls	r2, r2, #16
	ldrb	r5, [r3, #3]
	lsls	r5, r5, #24
	adds	r2, r5, r2
	adds	r0, r2, r0
	mov	r4, r1
	str	r1, [sp, #76]
	lsls	r1, r1, #3
	add	r2, sp, #172
	str	r2, [sp, #72]
	str	r1, [sp, #48]
	str	r0, [r2, r1]
	mov	r0, r4
	ldr	r1, [sp, #36]
	orrs	r0, r1
	lsls	r2, r0, #4
	ldrb	r7, [r6, r2]
	adds	r5, r6, r2
	ldrb	r2, [r5, #1]
	lsls	r2, r2, #8
	adds	r2, r2, r7
	ldrb	r7, [r5, #2]
	lsls	r7, r7, #16
	ldrb	r4, [r5, #3]
	lsls	r4, r4, #24
	adds	r4, r4, r7
	adds	r2, r4, r2
	lsls	r0, r0, #3
	str	r0, [sp, #52]
	ldr	r7, [sp, #72]
	str	r2, [r7, r0]
	movs	r0, #2
	ldr	r1, [sp, #76]
	orrs	r0, r1
	lsls	r2, r0, #4
	ldrb	r4, [r6, r2]
	adds	r1, r6, r2
	ldrb	r2, [r1, #1]
	lsls	r2, r2, #8
	adds	r2, r2, r4
	ldrb	r4, [r1, #2]
	lsls	r4, r4, #16
	str	r1, [sp, #44]
	ldrb	r1, [r1, #3]
	lsls	r1, r1, #24
	adds	r1, r1, r4
	adds	r1, r1, r2
	lsls	r0, r0, #3
	str	r0, [sp, #56]
	str	r1, [r7, r0]
	ldr	r0, [sp, #76]
	ldr	r1, [sp, #32]
	orrs	r0, r1
	lsls	r1, r0, #4
	ldrb	r4, [r6, r1]
	adds	r2, r6, r1
	ldrb	r1, [r2, #1]
	lsls	r1, r1, #8
	adds	r1, r1, r4
	ldrb	r4, [r2, #2]
	lsls	r4, r4, #16
	ldrb	r6, [r2, #3]
	lsls	r6, r6, #24
	adds	r4, r6, r4
	adds	r1, r4, r1
	lsls	r0, r0, #3
	str	r0, [sp, #60]
	str	r1, [r7, r0]
	ldrb	r0, [r3, #12]
	ldrb	r1, [r3, #13]
	lsls	r1, r1, #8
	adds	r0, r1, r0
	ldrb	r1, [r3, #14]
	lsls	r1, r1, #16
	ldrb	r4, [r3, #15]
	lsls	r4, r4, #24
	adds	r1, r4, r1
	adds	r1, r1, r0
	ldr	r0, [sp, #68]
	mvns	r0, r0
	cmp	r1, #0
	beq	.LBB95_11
	mov	r3, r0
	b	.LBB95_12
.LBB95_11:
	ldrb	r1, [r3, #8]
	ldrb	r4, [r3, #9]
	lsls	r4, r4, #8
	adds	r1, r4, r1
	ldrb	r4, [r3, #10]
	lsls	r4, r4, #16
	ldrb	r3, [r3, #11]
	lsls	r3, r3, #24
	adds	r3, r3, r4
	adds	r3, r3, r1
.LBB95_12:
	ldr	r1, [sp, #72]
	ldr	r4, [sp, #48]
	adds	r1, r1, r4
	str	r3, [r1, #4]
	ldrb	r1, [r5, #12]
	ldrb	r3, [r5, #13]
	lsls	r3, r3, #8
	adds	r1, r3, r1
	ldrb	r3, [r5, #14]
	lsls	r3, r3, #16
	ldrb	r4, [r5, #15]
	lsls	r4, r4, #24
	adds	r3, r4, r3
	adds	r1, r3, r1
	ldr	r6, [sp, #76]
	ldr	r7, [sp, #44]
	beq	.LBB95_14
	mov	r3, r0
	b	.LBB95_15
.LBB95_14:
	ldrb	r1, [r5, #8]
	ldrb	r3, [r5, #9]
	lsls	r3, r3, #8
	adds	r1, r3, r1
	ldrb	r3, [r5, #10]
	lsls	r3, r3, #16
	ldrb	r4, [r5, #11]
	lsls	r4, r4, #24
	adds	r3, r4, r3
	adds	r3, r3, r1
.LBB95_15:
	ldr	r5, [sp, #72]
	ldr	r1, [sp, #52]
	adds	r1, r5, r1
	str	r3, [r1, #4]
	ldrb	r1, [r7, #12]
	ldrb	r3, [r7, #13]
	lsls	r3, r3, #8
	adds	r1, r3, r1
	ldrb	r3, [r7, #14]
	lsls	r3, r3, #16
	ldrb	r4, [r7, #15]
	lsls	r4, r4, #24
	adds	r3, r4, r3
	adds	r1, r3, r1
	beq	.LBB95_17
	mov	r3, r0
	b	.LBB95_18
.LBB95_17:
	ldrb	r1, [r7, #8]
	ldrb	r3, [r7, #9]
	lsls	r3, r3, #8
	adds	r1, r3, r1
	ldrb	r3, [r7, #10]
	lsls	r3, r3, #16
	ldrb	r4, [r7, #11]
	lsls	r4, r4, #24
	adds	r3, r4, r3
	adds	r3, r3, r1
.LBB95_18:
	ldr	r1, [sp, #56]
	adds	r1, r5, r1
	str	r3, [r1, #4]
	ldrb	r1, [r2, #12]
	ldrb	r3, [r2, #13]
	lsls	r3, r3, #8
	adds	r1, r3, r1
	ldrb	r3, [r2, #14]
	lsls	r3, r3, #16
	ldrb	r4, [r2, #15]
	lsls	r4, r4, #24
	adds	r3, r4, r3
	adds	r1, r3, r1
	beq	.LBB95_19
	b	.LBB95_8
.LBB95_19:
	ldrb	r0, [r2, #8]
	ldrb	r1, [r2, #9]
	lsls	r1, r1, #8
	adds	r0, r1, r0
	ldrb	r1, [r2, #10]
	lsls	r1, r1, #16
	ldrb	r2, [r2, #11]
	lsls	r2, r2, #24
	adds	r1, r2, r1
	adds	r0, r1, r0
	b	.LBB95_8
.LBB95_20:
	ldr	r0, [sp, #8]
	cmp	r0, #0
	bne	.LBB95_21
	b	.LBB95_33
.LBB95_21:
	lsls	r0, r6, #4
	ldr	r2, [sp, #40]
	ldrb	r1, [r2, r0]
	adds	r2, r2, r0
	ldrb	r0, [r2, #1]
	lsls	r0, r0, #8
	adds	r0, r0, r1
	ldrb	r1, [r2, #2]
	lsls	r1, r1, #16
	ldrb	r3, [r2, #3]
	lsls	r3, r3, #24
	adds	r1, r3, r1
	adds	r1, r1, r0
	lsls	r0, r6, #3
	add	r3, sp, #172
	str	r1, [r3, r0]
	ldrb	r1, [r2, #12]
	ldrb	r4, [r2, #13]
	lsls	r4, r4, #8
	adds	r1, r4, r1
	ldrb	r4, [r2, #14]
	lsls	r4, r4, #16
	ldrb	r5, [r2, #15]
	lsls	r5, r5, #24
	adds	r4, r5, r4
	adds	r1, r4, r1
	beq	.LBB95_23
	ldr	r1, [sp]
	mvns	r2, r1
	b	.LBB95_24
.LBB95_23:
	ldrb	r1, [r2, #8]
	ldrb	r4, [r2, #9]
	lsls	r4, r4, #8
	adds	r1, r4, r1
	ldrb	r4, [r2, #10]
	lsls	r4, r4, #16
	ldrb	r2, [r2, #11]
	lsls	r2, r2, #24
	adds	r2, r2, r4
	adds	r2, r2, r1
.LBB95_24:
	adds	r0, r3, r0
	str	r2, [r0, #4]
	ldr	r0, [sp, #8]
	cmp	r0, #1
	beq	.LBB95_33
	adds	r0, r6, #1
	lsls	r1, r0, #4
	ldr	r2, [sp, #40]
	ldrb	r3, [r2, r1]
	adds	r2, r2, r1
	ldrb	r1, [r2, #1]
	lsls	r1, r1, #8
	adds	r1, r1, r3
	ldrb	r3, [r2, #2]
	lsls	r3, r3, #16
	ldrb	r4, [r2, #3]
	lsls	r4, r4, #24
	adds	r3, r4, r3
	adds	r1, r3, r1
	lsls	r0, r0, #3
	add	r3, sp, #172
	str	r1, [r3, r0]
	ldrb	r1, [r2, #12]
	ldrb	r4, [r2, #13]
	lsls	r4, r4, #8
	adds	r1, r4, r1
	ldrb	r4, [r2, #14]
	lsls	r4, r4, #16
	ldrb	r5, [r2, #15]
	lsls	r5, r5, #24
	adds	r4, r5, r4
	adds	r1, r4, r1
	beq	.LBB95_27
	ldr	r1, [sp]
	mvns	r2, r1
	b	.LBB95_28
.LBB95_27:
	ldrb	r1, [r2, #8]
	ldrb	r4, [r2, #9]
	lsls	r4, r4, #8
	adds	r1, r4, r1
	ldrb	r4, [r2, #10]
	lsls	r4, r4, #16
	ldrb	r2, [r2, #11]
	lsls	r2, r2, #24
	adds	r2, r2, r4
	adds	r2, r2, r1
.LBB95_28:
	adds	r0, r3, r0
	str	r2, [r0, #4]
	ldr	r0, [sp, #8]
	cmp	r0, #2
	beq	.LBB95_33
	adds	r0, r6, #2
	lsls	r1, r0, #4
	ldr	r3, [sp, #40]
	ldrb	r2, [r3, r1]
	adds	r1, r3, r1
	ldrb	r3, [r1, #1]
	lsls	r3, r3, #8
	adds	r2, r3, r2
	ldrb	r3, [r1, #2]
	lsls	r3, r3, #16
	ldrb	r4, [r1, #3]
	lsls	r4, r4, #24
	adds	r3, r4, r3
	adds	r3, r3, r2
	lsls	r0, r0, #3
	add	r2, sp, #172
	str	r3, [r2, r0]
	ldrb	r3, [r1, #12]
	ldrb	r4, [r1, #13]
	lsls	r4, r4, #8
	adds	r3, r4, r3
	ldrb	r4, [r1, #14]
	lsls	r4, r4, #16
	ldrb	r5, [r1, #15]
	lsls	r5, r5, #24
	adds	r4, r5, r4
	adds	r3, r4, r3
	beq	.LBB95_31
	ldr	r1, [sp]
	mvns	r1, r1
	b	.LBB95_32
.LBB95_31:
	ldrb	r3, [r1, #8]
	ldrb	r4, [r1, #9]
	lsls	r4, r4, #8
	adds	r3, r4, r3
	ldrb	r4, [r1, #10]
	lsls	r4, r4, #16
	ldrb	r1, [r1, #11]
	lsls	r1, r1, #24
	adds	r1, r1, r4
	adds	r1, r1, r3
.LBB95_32:
	adds	r0, r2, r0
	str	r1, [r0, #4]
.LBB95_33:
	ldr	r0, [sp, #12]
	cmp	r0, #4
	bne	.LBB95_35
	add	r0, sp, #80
	add	r1, sp, #172
	movs	r3, #0
	ldr	r2, [sp, #24]
	bl	tlsf_pool.sizes.split.rising_split.4
	b	.LBB95_36
.LBB95_35:
	add	r0, sp, #80
	add	r1, sp, #172
	movs	r3, #0
	ldr	r2, [sp, #24]
	bl	tlsf_pool.sizes.split.rising_split.5
.LBB95_36:
	add	r0, sp, #80
	ldrb	r0, [r0]
	cmp	r0, #0
	ldr	r0, [sp, #16]
	ldr	r5, [sp, #20]
	beq	.LBB95_38
	ldr	r1, [sp, #704]
	ldr	r2, [sp, #164]
	ldr	r3, [sp, #160]
	ldr	r4, [sp, #88]
	str	r3, [r0]
	str	r2, [r0, #4]
	str	r4, [r1]
	ldr	r5, [sp, #4]
.LBB95_38:
	mov	r0, r5
	add	sp, #508
	add	sp, #176
	pop	{r4, r5, r6, r7, pc}
.Lfunc_end95:
	.size	tlsf_pools_words, .Lfunc_end95-tlsf_pools_words
	.cfi_endproc
	.section	.text.tlsf_post_close,"ax",%progbits
	.globl	tlsf_post_close
	.p2align	1
	.type	tlsf_post_close,%function
	.code	16
	.thumb_func
tlsf_post_close:
	.cfi_startproc
	push	{r4, r5, r6, r7, lr}
	.cfi_def_cfa_offset 20
	.cfi_offset lr, -4
	.cfi_offset r7, -8
	.cfi_offset r6, -12
	.cfi_offset r5, -16
	.cfi_offset r4, -20
	sub	sp, #108
	.cfi_def_cfa_offset 128
	ldrb	r1, [r0, #8]
	movs	r4, #32
	cmp	r1, #0
	beq	.LBB96_5
	ldr	r1, [r0]
	ldrb	r2, [r1, #1]
	cmp	r2, #1
	bne	.LBB96_5
	ldrb	r2, [r1]
	cmp	r2, #0
	beq	.LBB96_4
	movs	r4, #40
	b	.LBB96_5
.LBB96_4:
	movs	r4, #0
	strb	r4, [r1, #1]
	ldrb	r1, [r0, #3]
	str	r1, [sp, #4]
	ldrb	r6, [r0, #2]
	ldrb	r7, [r0]
	ldrb	r5, [r0, #1]
	movs	r2, #16
	mov	r1, r4
	bl	tlsf_memory_set
	lsls	r0, r5, #8
	adds	r0, r0, r7
	lsls	r1, r6, #16
	ldr	r2, [sp, #4]
	lsls	r2, r2, #24
	adds	r1, r2, r1
	adds	r7, r1, r0
	ldrb	r0, [r7]
	str	r0, [sp, #4]
	ldrb	r0, [r7, #1]
	str	r0, [sp]
	mov	r1, r7
	adds	r1, #8
	add	r0, sp, #8
	adds	r5, r0, #6
	movs	r6, #40
	mov	r0, r5
	mov	r2, r6
	bl	tlsf_memory_cpy
	mov	r0, r7
	bl	tlsf_memory_dealloc
	str	r4, [sp, #56]
	add	r7, sp, #56
	ldr	r0, [sp]
	strb	r0, [r7, #1]
	ldr	r0, [sp, #4]
	strb	r0, [r7]
	str	r4, [sp, #60]
	mov	r0, r7
	adds	r0, #8
	mov	r1, r5
	mov	r2, r6
	bl	tlsf_memory_cpy
	mov	r0, r7
	bl	tlsf_c.tlsf_c.any_end.AnyEnd.Destruct.drop
.LBB96_5:
	mov	r0, r4
	add	sp, #108
	pop	{r4, r5, r6, r7, pc}
.Lfunc_end96:
	.size	tlsf_post_close, .Lfunc_end96-tlsf_post_close
	.cfi_endproc
	.section	.text.tlsf_poster_close,"ax",%progbits
	.globl	tlsf_poster_close
	.p2align	1
	.type	tlsf_poster_close,%function
	.code	16
	.thumb_func
tlsf_poster_close:
	.cfi_startproc
	push	{r4, r5, r6, r7, lr}
	.cfi_def_cfa_offset 20
	.cfi_offset lr, -4
	.cfi_offset r7, -8
	.cfi_offset r6, -12
	.cfi_offset r5, -16
	.cfi_offset r4, -20
	sub	sp, #108
	.cfi_def_cfa_offset 128
	ldrb	r1, [r0, #8]
	movs	r4, #32
	cmp	r1, #0
	beq	.LBB97_5
	ldr	r1, [r0]
	ldrb	r2, [r1, #1]
	cmp	r2, #1
	bne	.LBB97_5
	ldrb	r2, [r1]
	cmp	r2, #3
	bne	.LBB97_4
	movs	r4, #0
	strb	r4, [r1, #1]
	ldrb	r1, [r0, #3]
	str	r1, [sp, #4]
	ldrb	r6, [r0, #2]
	ldrb	r7, [r0]
	ldrb	r5, [r0, #1]
	movs	r2, #16
	mov	r1, r4
	bl	tlsf_memory_set
	lsls	r0, r5, #8
	adds	r0, r0, r7
	lsls	r1, r6, #16
	ldr	r2, [sp, #4]
	lsls	r2, r2, #24
	adds	r1, r2, r1
	adds	r7, r1, r0
	ldrb	r0, [r7]
	str	r0, [sp, #4]
	ldrb	r0, [r7, #1]
	str	r0, [sp]
	mov	r1, r7
	adds	r1, #8
	add	r0, sp, #8
	adds	r5, r0, #6
	movs	r6, #40
	mov	r0, r5
	mov	r2, r6
	bl	tlsf_memory_cpy
	mov	r0, r7
	bl	tlsf_memory_dealloc
	str	r4, [sp, #56]
	add	r7, sp, #56
	ldr	r0, [sp]
	strb	r0, [r7, #1]
	ldr	r0, [sp, #4]
	strb	r0, [r7]
	str	r4, [sp, #60]
	mov	r0, r7
	adds	r0, #8
	mov	r1, r5
	mov	r2, r6
	bl	tlsf_memory_cpy
	mov	r0, r7
	bl	tlsf_c.tlsf_c.any_end.AnyEnd.Destruct.drop
	b	.LBB97_5
.LBB97_4:
	movs	r4, #40
.LBB97_5:
	mov	r0, r4
	add	sp, #108
	pop	{r4, r5, r6, r7, pc}
.Lfunc_end97:
	.size	tlsf_poster_close, .Lfunc_end97-tlsf_poster_close
	.cfi_endproc
	.section	.text.tlsf_poster_open,"ax",%progbits
	.globl	tlsf_poster_open
	.p2align	1
	.type	tlsf_poster_open,%function
	.code	16
	.thumb_func
tlsf_poster_open:
	.cfi_startproc
	push	{r4, r5, r6, r7, lr}
	.cfi_def_cfa_offset 20
	.cfi_offset lr, -4
	.cfi_offset r7, -8
	.cfi_offset r6, -12
	.cfi_offset r5, -16
	.cfi_offset r4, -20
	sub	sp, #4
	.cfi_def_cfa_offset 24
	ldrb	r2, [r0, #8]
	cmp	r2, #0
	beq	.LBB98_10
	ldr	r2, [r0]
	ldrb	r0, [r2, #1]
	cmp	r0, #0
	beq	.LBB98_10
	ldrb	r0, [r2]
	ldrb	r3, [r1, #8]
	cmp	r3, #1
	bne	.LBB98_5
	cmp	r0, #2
	beq	.LBB98_8
	movs	r0, #40
	add	sp, #4
	pop	{r4, r5, r6, r7, pc}
.LBB98_5:
	cmp	r0, #2
	bne	.LBB98_12
	movs	r0, #0
	strb	r0, [r2, #1]
	ldr	r4, [r2, #32]
	ldr	r3, [r2, #36]
	mov	r5, r4
	orrs	r5, r3
	beq	.LBB98_9
	subs	r4, r4, #1
	str	r4, [r2, #32]
	sbcs	r3, r0
	str	r3, [r2, #36]
	ldr	r3, [r2, #24]
	lsls	r4, r4, #3
	ldrb	r5, [r3, r4]
	adds	r3, r3, r4
	ldrb	r4, [r3, #1]
	ldrb	r6, [r3, #2]
	ldrb	r3, [r3, #3]
	movs	r7, #1
	strb	r7, [r2, #1]
	strb	r0, [r1, #7]
	strb	r0, [r1, #6]
	strb	r0, [r1, #5]
	strb	r0, [r1, #4]
	strb	r3, [r1, #3]
	strb	r6, [r1, #2]
	strb	r4, [r1, #1]
	strb	r5, [r1]
	strb	r0, [r1, #9]
	strb	r7, [r1, #8]
	strb	r0, [r1, #10]
	strb	r0, [r1, #11]
	strb	r0, [r1, #12]
	strb	r0, [r1, #13]
	strb	r0, [r1, #14]
	strb	r0, [r1, #15]
	add	sp, #4
	pop	{r4, r5, r6, r7, pc}
.LBB98_8:
	movs	r0, #33
	add	sp, #4
	pop	{r4, r5, r6, r7, pc}
.LBB98_9:
	movs	r0, #1
	strb	r0, [r2, #1]
	movs	r0, #35
	add	sp, #4
	pop	{r4, r5, r6, r7, pc}
.LBB98_10:
	movs	r0, #0
.LBB98_11:
	bl	tlsf_c.call_fault.CallFault.refusal
	add	sp, #4
	pop	{r4, r5, r6, r7, pc}
.LBB98_12:
	movs	r0, #2
	b	.LBB98_11
.Lfunc_end98:
	.size	tlsf_poster_open, .Lfunc_end98-tlsf_poster_open
	.cfi_endproc
	.section	.text.tlsf_put,"ax",%progbits
	.globl	tlsf_put
	.p2align	1
	.type	tlsf_put,%function
	.code	16
	.thumb_func
tlsf_put:
	.cfi_startproc
	push	{r4, r5, r6, r7, lr}
	.cfi_def_cfa_offset 20
	.cfi_offset lr, -4
	.cfi_offset r7, -8
	.cfi_offset r6, -12
	.cfi_offset r5, -16
	.cfi_offset r4, -20
	sub	sp, #28
	.cfi_def_cfa_offset 48
	ldrb	r1, [r0, #8]
	cmp	r1, #0
	bne	.LBB99_1
	b	.LBB99_21
.LBB99_1:
	ldr	r7, [r0]
	ldrb	r0, [r7, #1]
	cmp	r0, #0
	bne	.LBB99_2
	b	.LBB99_21
.LBB99_2:
	ldrb	r0, [r7]
	cmp	r0, #0
	beq	.LBB99_3
	b	.LBB99_22
.LBB99_3:
	str	r3, [sp, #16]
	str	r2, [sp, #20]
	movs	r0, #0
	str	r0, [sp, #12]
	strb	r0, [r7, #1]
	ldr	r6, [r7, #24]
	ldr	r4, [r7, #28]
	ldr	r1, [r7, #32]
	ldr	r5, [r7, #36]
	ldr	r2, [r7, #40]
	ldr	r3, [r7, #44]
	subs	r0, r2, r1
	mov	r0, r3
	sbcs	r0, r5
	str	r2, [sp, #24]
	bhs	.LBB99_5
	lsrs	r0, r6, #31
	str	r3, [sp, #8]
	mov	r3, r6
	lsls	r6, r4, #1
	adds	r0, r6, r0
	lsls	r6, r3, #1
	subs	r1, r6, r1
	mov	r6, r3
	ldr	r3, [sp, #8]
	sbcs	r0, r5
	adds	r1, r1, r2
	adcs	r0, r3
	b	.LBB99_6
.LBB99_5:
	subs	r1, r2, r1
	mov	r0, r3
	sbcs	r0, r5
.LBB99_6:
	eors	r1, r6
	eors	r0, r4
	orrs	r0, r1
	bne	.LBB99_12
	ldr	r0, [r7, #8]
	movs	r1, #5
	bl	__atomic_load_8
	str	r0, [r7, #32]
	str	r1, [r7, #36]
	ldr	r6, [r7, #24]
	ldr	r4, [r7, #28]
	ldr	r2, [r7, #40]
	ldr	r3, [r7, #44]
	subs	r5, r2, r0
	mov	r5, r3
	sbcs	r5, r1
	str	r2, [sp, #24]
	bhs	.LBB99_9
	lsrs	r5, r6, #31
	str	r3, [sp, #8]
	mov	r3, r6
	lsls	r6, r4, #1
	adds	r5, r6, r5
	lsls	r6, r3, #1
	subs	r0, r6, r0
	mov	r6, r3
	ldr	r3, [sp, #8]
	sbcs	r5, r1
	adds	r0, r0, r2
	adcs	r5, r3
	b	.LBB99_10
.LBB99_9:
	subs	r0, r2, r0
	mov	r5, r3
	sbcs	r5, r1
.LBB99_10:
	eors	r0, r6
	eors	r5, r4
	orrs	r5, r0
	bne	.LBB99_12
	movs	r0, #1
	strb	r0, [r7, #1]
	movs	r4, #8
	b	.LBB99_24
.LBB99_12:
	ldr	r5, [sp, #52]
	ldr	r1, [sp, #48]
	str	r6, [sp, #8]
	ldr	r2, [sp, #24]
	subs	r6, r2, r6
	mov	r0, r3
	str	r4, [sp, #4]
	sbcs	r0, r4
	mov	r0, r2
	blo	.LBB99_14
	mov	r0, r6
.LBB99_14:
	movs	r6, #24
	muls	r6, r0, r6
	ldr	r0, [r7, #16]
	ldr	r4, [sp, #12]
	strb	r4, [r0, r6]
	adds	r0, r0, r6
	lsrs	r6, r5, #24
	strb	r6, [r0, #23]
	lsrs	r6, r5, #16
	strb	r6, [r0, #22]
	lsrs	r6, r5, #8
	strb	r6, [r0, #21]
	strb	r5, [r0, #20]
	lsrs	r5, r1, #24
	strb	r5, [r0, #19]
	lsrs	r5, r1, #16
	strb	r5, [r0, #18]
	lsrs	r5, r1, #8
	strb	r5, [r0, #17]
	strb	r1, [r0, #16]
	ldr	r5, [sp, #16]
	lsrs	r1, r5, #24
	strb	r1, [r0, #15]
	lsrs	r1, r5, #16
	strb	r1, [r0, #14]
	lsrs	r1, r5, #8
	strb	r1, [r0, #13]
	strb	r5, [r0, #12]
	ldr	r5, [sp, #20]
	lsrs	r1, r5, #24
	strb	r1, [r0, #11]
	lsrs	r1, r5, #16
	strb	r1, [r0, #10]
	lsrs	r1, r5, #8
	strb	r1, [r0, #9]
	strb	r5, [r0, #8]
	strb	r4, [r0, #7]
	strb	r4, [r0, #6]
	strb	r4, [r0, #5]
	strb	r4, [r0, #4]
	strb	r4, [r0, #3]
	strb	r4, [r0, #2]
	strb	r4, [r0, #1]
	ldr	r0, [r7, #8]
	str	r0, [sp, #20]
	movs	r1, #5
	str	r1, [sp]
	adds	r0, r2, #1
	str	r0, [sp, #16]
	mov	r5, r3
	adcs	r5, r4
	mov	r0, r4
	mov	r4, r3
	ldr	r3, [sp, #8]
	lsrs	r1, r3, #31
	str	r2, [sp, #24]
	ldr	r2, [sp, #4]
	lsls	r6, r2, #1
	adds	r1, r6, r1
	lsls	r6, r3, #1
	subs	r6, r6, #1
	sbcs	r1, r0
	movs	r3, #1
	ldr	r2, [sp, #24]
	subs	r2, r2, r6
	sbcs	r4, r1
	mov	r4, r0
	str	r3, [sp, #24]
	mov	r1, r3
	bhs	.LBB99_19
	cmp	r1, #0
	beq	.LBB99_20
.LBB99_16:
	ldr	r6, [sp, #16]
	bne	.LBB99_18
.LBB99_17:
	mov	r6, r1
.LBB99_18:
	ldr	r0, [sp, #20]
	adds	r0, #128
	mov	r2, r6
	mov	r3, r5
	bl	__atomic_store_8
	str	r6, [r7, #40]
	str	r5, [r7, #44]
	ldr	r0, [sp, #24]
	strb	r0, [r7, #1]
	b	.LBB99_24
.LBB99_19:
	mov	r1, r4
	cmp	r1, #0
	bne	.LBB99_16
.LBB99_20:
	mov	r5, r1
	ldr	r6, [sp, #16]
	beq	.LBB99_17
	b	.LBB99_18
.LBB99_21:
	movs	r0, #0
	b	.LBB99_23
.LBB99_22:
	movs	r0, #2
.LBB99_23:
	bl	tlsf_c.call_fault.CallFault.refusal
	mov	r4, r0
.LBB99_24:
	mov	r0, r4
	add	sp, #28
	pop	{r4, r5, r6, r7, pc}
.Lfunc_end99:
	.size	tlsf_put, .Lfunc_end99-tlsf_put
	.cfi_endproc
	.section	.text.tlsf_put_all,"ax",%progbits
	.globl	tlsf_put_all
	.p2align	1
	.type	tlsf_put_all,%function
	.code	16
	.thumb_func
tlsf_put_all:
	.cfi_startproc
	push	{r4, r5, r6, r7, lr}
	.cfi_def_cfa_offset 20
	.cfi_offset lr, -4
	.cfi_offset r7, -8
	.cfi_offset r6, -12
	.cfi_offset r5, -16
	.cfi_offset r4, -20
	sub	sp, #508
	sub	sp, #352
	.cfi_def_cfa_offset 880
	str	r3, [sp, #8]
	mov	r3, r2
	mov	r2, r1
	movs	r1, #1
	cmp	r2, #0
	str	r1, [sp, #12]
	bne	.LBB100_2
	lsls	r1, r1, #12
	adds	r2, r2, r1
.LBB100_2:
	ldr	r1, [sp, #8]
	ldr	r4, [r1]
	ldrb	r1, [r0, #8]
	cmp	r1, #0
	bne	.LBB100_3
	b	.LBB100_56
.LBB100_3:
	ldr	r6, [r0]
	ldrb	r0, [r6, #1]
	cmp	r0, #0
	bne	.LBB100_4
	b	.LBB100_56
.LBB100_4:
	ldrb	r0, [r6]
	cmp	r0, #0
	beq	.LBB100_5
	b	.LBB100_57
.LBB100_5:
	movs	r1, #0
	strb	r1, [r6, #1]
	cmp	r3, #0
	mov	r4, r1
	bne	.LBB100_6
	b	.LBB100_54
.LBB100_6:
	str	r1, [sp, #4]
	str	r2, [sp, #16]
	movs	r0, #0
	mov	r4, r0
	str	r0, [sp, #40]
	mov	r2, r0
	str	r3, [sp, #20]
	str	r6, [sp, #24]
.LBB100_7:
	movs	r0, #3
	mov	r5, r2
	str	r0, [sp, #48]
	lsls	r2, r0, #8
	add	r0, sp, #88
	ldr	r7, [sp, #40]
	mov	r1, r7
	mov	r6, r3
	bl	tlsf_memory_set
	str	r4, [sp, #36]
	subs	r1, r6, r4
	str	r5, [sp, #32]
	sbcs	r7, r5
	movs	r2, #32
	cmp	r1, #32
	mov	r3, r1
	blo	.LBB100_9
	mov	r3, r2
.LBB100_9:
	cmp	r7, #0
	beq	.LBB100_11
	mov	r3, r2
.LBB100_11:
	cmp	r3, #1
	str	r3, [sp, #44]
	str	r3, [sp, #52]
	ldr	r2, [sp, #48]
	bhi	.LBB100_13
	ldr	r3, [sp, #12]
	str	r3, [sp, #52]
.LBB100_13:
	ldr	r4, [sp, #52]
	ands	r4, r2
	ldr	r2, [sp, #36]
	lsls	r2, r2, #4
	ldr	r3, [sp, #16]
	adds	r6, r3, r2
	subs	r1, r1, #4
	ldr	r5, [sp, #40]
	sbcs	r7, r5
	str	r6, [sp, #80]
	str	r4, [sp, #28]
	bhs	.LBB100_14
	b	.LBB100_17
.LBB100_14:
	movs	r0, #60
	ldr	r1, [sp, #52]
	ands	r1, r0
	str	r1, [sp, #52]
	movs	r0, #0
	mov	r5, r0
	str	r0, [sp, #76]
	mov	r2, r0
.LBB100_15:
	str	r2, [sp, #68]
	str	r5, [sp, #84]
	movs	r0, #24
	str	r0, [sp, #72]
	muls	r0, r5, r0
	add	r1, sp, #88
	ldr	r2, [sp, #76]
	str	r2, [r1, r0]
	mov	r2, r1
	ldr	r1, [sp, #84]
	lsls	r5, r1, #4
	adds	r4, r6, r5
	ldrb	r3, [r4, #8]
	ldrb	r6, [r4, #9]
	lsls	r6, r6, #8
	adds	r3, r6, r3
	ldrb	r6, [r4, #10]
	lsls	r6, r6, #16
	ldrb	r7, [r4, #11]
	lsls	r7, r7, #24
	adds	r6, r7, r6
	adds	r6, r6, r3
	mov	r3, r2
	adds	r1, r2, r0
	str	r6, [r1, #16]
	str	r1, [sp, #56]
	ldr	r0, [sp, #80]
	ldrb	r0, [r0, r5]
	ldrb	r5, [r4, #1]
	lsls	r5, r5, #8
	adds	r0, r5, r0
	ldrb	r5, [r4, #2]
	lsls	r5, r5, #16
	ldrb	r6, [r4, #3]
	lsls	r6, r6, #24
	adds	r5, r6, r5
	adds	r0, r5, r0
	str	r0, [r1, #8]
	movs	r0, #1
	ldr	r1, [sp, #84]
	orrs	r0, r1
	ldr	r5, [sp, #72]
	muls	r5, r0, r5
	ldr	r1, [sp, #76]
	str	r1, [r2, r5]
	lsls	r6, r0, #4
	ldr	r0, [sp, #80]
	adds	r0, r0, r6
	ldrb	r7, [r0, #8]
	ldrb	r2, [r0, #9]
	lsls	r2, r2, #8
	adds	r2, r2, r7
	ldrb	r7, [r0, #10]
	lsls	r7, r7, #16
	ldrb	r1, [r0, #11]
	lsls	r1, r1, #24
	adds	r1, r1, r7
	adds	r1, r1, r2
	str	r3, [sp, #60]
	adds	r7, r3, r5
	str	r1, [r7, #16]
	ldr	r1, [sp, #80]
	ldrb	r1, [r1, r6]
	ldrb	r2, [r0, #1]
	lsls	r2, r2, #8
	adds	r1, r2, r1
	ldrb	r2, [r0, #2]
	lsls	r2, r2, #16
	ldrb	r5, [r0, #3]
	lsls	r5, r5, #24
	adds	r2, r5, r2
	adds	r1, r2, r1
	str	r1, [r7, #8]
	movs	r6, #2
	ldr	r1, [sp, #84]
	orrs	r6, r1
	ldr	r2, [sp, #72]
	muls	r2, r6, r2
	str	r2, [sp, #64]
	ldr	r1, [sp, #76]
	str	r1, [r3, r2]
	ldr	r3, [sp, #56]
	str	r1, [r3, #4]
	ldrb	r1, [r4, #12]
	ldrb	r2, [r4, #13]
	lsls	r2, r2, #8
	adds	r1, r2, r1
	ldrb	r2, [r4, #14]
	lsls	r2, r2, #16
	ldrb	r5, [r4, #15]
	lsls	r5, r5, #24
	adds	r2, r5, r2
	adds	r1, r2, r1
	str	r1, [r3, #20]
	ldrb	r1, [r4, #4]
	ldrb	r2, [r4, #5]
	lsls	r2, r2, #8
	adds	r1, r2, r1
	ldrb	r2, [r4, #6]
	lsls	r2, r2, #16
	ldrb	r4, [r4, #7]
	lsls	r4, r4, #24
	adds	r2, r4, r2
	adds	r1, r2, r1
	str	r1, [r3, #12]
	ldrb	r1, [r0, #12]
	ldrb	r2, [r0, #13]
	lsls	r2, r2, #8
	adds	r1, r2, r1
	ldrb	r2, [r0, #14]
	lsls	r2, r2, #16
	ldrb	r3, [r0, #15]
	lsls	r3, r3, #24
	adds	r2, r3, r2
	adds	r1, r2, r1
	str	r1, [r7, #20]
	ldrb	r1, [r0, #4]
	ldrb	r2, [r0, #5]
	lsls	r2, r2, #8
	adds	r1, r2, r1
	ldrb	r2, [r0, #6]
	lsls	r2, r2, #16
	ldrb	r0, [r0, #7]
	lsls	r0, r0, #24
	adds	r0, r0, r2
	adds	r0, r0, r1
	str	r0, [r7, #12]
	ldr	r0, [sp, #76]
	str	r0, [r7, #4]
	lsls	r4, r6, #4
	ldr	r7, [sp, #80]
	adds	r0, r7, r4
	ldrb	r1, [r0, #12]
	ldrb	r2, [r0, #13]
	lsls	r2, r2, #8
	adds	r1, r2, r1
	ldrb	r2, [r0, #14]
	lsls	r2, r2, #16
	ldrb	r3, [r0, #15]
	lsls	r3, r3, #24
	adds	r2, r3, r2
	adds	r1, r2, r1
	ldr	r6, [sp, #60]
	ldr	r2, [sp, #64]
	adds	r3, r6, r2
	str	r1, [r3, #20]
	ldrb	r1, [r0, #8]
	ldrb	r2, [r0, #9]
	lsls	r2, r2, #8
	adds	r1, r2, r1
	ldrb	r2, [r0, #10]
	lsls	r2, r2, #16
	ldrb	r5, [r0, #11]
	lsls	r5, r5, #24
	adds	r2, r5, r2
	adds	r1, r2, r1
	str	r1, [r3, #16]
	ldrb	r1, [r7, r4]
	ldrb	r2, [r0, #1]
	lsls	r2, r2, #8
	adds	r1, r2, r1
	ldrb	r2, [r0, #2]
	lsls	r2, r2, #16
	ldrb	r4, [r0, #3]
	lsls	r4, r4, #24
	adds	r2, r4, r2
	adds	r1, r2, r1
	str	r1, [r3, #8]
	ldr	r4, [sp, #84]
	ldr	r1, [sp, #48]
	orrs	r4, r1
	ldr	r1, [sp, #72]
	muls	r1, r4, r1
	ldr	r7, [sp, #76]
	str	r7, [r6, r1]
	mov	r5, r1
	ldrb	r1, [r0, #4]
	ldrb	r2, [r0, #5]
	lsls	r2, r2, #8
	adds	r1, r2, r1
	ldrb	r2, [r0, #6]
	lsls	r2, r2, #16
	ldrb	r0, [r0, #7]
	lsls	r0, r0, #24
	adds	r0, r0, r2
	adds	r0, r0, r1
	str	r0, [r3, #12]
	str	r7, [r3, #4]
	adds	r0, r6, r5
	ldr	r6, [sp, #80]
	str	r7, [r0, #4]
	lsls	r2, r4, #4
	adds	r1, r6, r2
	ldrb	r3, [r1, #12]
	ldrb	r4, [r1, #13]
	lsls	r4, r4, #8
	adds	r3, r4, r3
	ldrb	r4, [r1, #14]
	lsls	r4, r4, #16
	ldrb	r5, [r1, #15]
	lsls	r5, r5, #24
	adds	r4, r5, r4
	adds	r3, r4, r3
	str	r3, [r0, #20]
	ldrb	r3, [r1, #8]
	ldrb	r4, [r1, #9]
	lsls	r4, r4, #8
	adds	r3, r4, r3
	ldrb	r4, [r1, #10]
	lsls	r4, r4, #16
	ldrb	r5, [r1, #11]
	lsls	r5, r5, #24
	adds	r4, r5, r4
	ldr	r5, [sp, #84]
	adds	r3, r4, r3
	str	r3, [r0, #16]
	ldrb	r2, [r6, r2]
	ldrb	r3, [r1, #1]
	lsls	r3, r3, #8
	adds	r2, r3, r2
	ldrb	r3, [r1, #2]
	lsls	r3, r3, #16
	ldrb	r4, [r1, #3]
	lsls	r4, r4, #24
	adds	r3, r4, r3
	adds	r2, r3, r2
	str	r2, [r0, #8]
	ldrb	r2, [r1, #4]
	ldrb	r3, [r1, #5]
	lsls	r3, r3, #8
	adds	r2, r3, r2
	ldrb	r3, [r1, #6]
	lsls	r3, r3, #16
	ldrb	r1, [r1, #7]
	lsls	r1, r1, #24
	adds	r1, r1, r3
	adds	r1, r1, r2
	ldr	r2, [sp, #68]
	str	r1, [r0, #12]
	adds	r5, r5, #4
	adcs	r2, r7
	mov	r0, r5
	ldr	r1, [sp, #52]
	eors	r0, r1
	orrs	r0, r2
	beq	.LBB100_16
	b	.LBB100_15
.LBB100_16:
	ldr	r4, [sp, #28]
	cmp	r4, #0
	bne	.LBB100_17
	b	.LBB100_20
.LBB100_17:
	str	r5, [sp, #84]
	movs	r0, #24
	str	r0, [sp, #76]
	muls	r0, r5, r0
	add	r2, sp, #88
	movs	r3, #0
	str	r3, [r2, r0]
	adds	r0, r2, r0
	str	r3, [r0, #4]
	mov	r1, r4
	lsls	r4, r5, #4
	adds	r2, r6, r4
	ldrb	r5, [r2, #12]
	ldrb	r6, [r2, #13]
	lsls	r6, r6, #8
	adds	r5, r6, r5
	ldrb	r6, [r2, #14]
	lsls	r6, r6, #16
	ldrb	r7, [r2, #15]
	lsls	r7, r7, #24
	adds	r6, r7, r6
	adds	r5, r6, r5
	str	r5, [r0, #20]
	ldrb	r5, [r2, #8]
	ldrb	r6, [r2, #9]
	lsls	r6, r6, #8
	adds	r5, r6, r5
	ldrb	r6, [r2, #10]
	lsls	r6, r6, #16
	ldrb	r7, [r2, #11]
	lsls	r7, r7, #24
	adds	r6, r7, r6
	adds	r5, r6, r5
	str	r5, [r0, #16]
	ldrb	r5, [r2, #4]
	ldrb	r6, [r2, #5]
	lsls	r6, r6, #8
	adds	r5, r6, r5
	ldrb	r6, [r2, #6]
	lsls	r6, r6, #16
	ldrb	r7, [r2, #7]
	lsls	r7, r7, #24
	adds	r6, r7, r6
	adds	r5, r6, r5
	ldr	r6, [sp, #80]
	str	r5, [r0, #12]
	ldrb	r4, [r6, r4]
	ldrb	r5, [r2, #1]
	lsls	r5, r5, #8
	adds	r4, r5, r4
	ldrb	r5, [r2, #2]
	lsls	r5, r5, #16
	ldrb	r2, [r2, #3]
	lsls	r2, r2, #24
	adds	r2, r2, r5
	ldr	r5, [sp, #84]
	adds	r2, r2, r4
	str	r2, [r0, #8]
	cmp	r1, #1
	beq	.LBB100_20
	adds	r2, r5, #1
	ldr	r0, [sp, #76]
	muls	r0, r2, r0
	add	r4, sp, #88
	str	r3, [r4, r0]
	adds	r0, r4, r0
	str	r3, [r0, #4]
	lsls	r4, r2, #4
	adds	r2, r6, r4
	ldrb	r5, [r2, #12]
	ldrb	r6, [r2, #13]
	lsls	r6, r6, #8
	adds	r5, r6, r5
	ldrb	r6, [r2, #14]
	lsls	r6, r6, #16
	ldrb	r7, [r2, #15]
	lsls	r7, r7, #24
	adds	r6, r7, r6
	adds	r5, r6, r5
	str	r5, [r0, #20]
	ldrb	r5, [r2, #8]
	ldrb	r6, [r2, #9]
	lsls	r6, r6, #8
	adds	r5, r6, r5
	ldrb	r6, [r2, #10]
	lsls	r6, r6, #16
	ldrb	r7, [r2, #11]
	lsls	r7, r7, #24
	adds	r6, r7, r6
	adds	r5, r6, r5
	str	r5, [r0, #16]
	ldrb	r5, [r2, #4]
	ldrb	r6, [r2, #5]
	lsls	r6, r6, #8
	adds	r5, r6, r5
	ldrb	r6, [r2, #6]
	lsls	r6, r6, #16
	ldrb	r7, [r2, #7]
	lsls	r7, r7, #24
	adds	r6, r7, r6
	adds	r5, r6, r5
	ldr	r6, [sp, #80]
	str	r5, [r0, #12]
	ldrb	r4, [r6, r4]
	ldrb	r5, [r2, #1]
	lsls	r5, r5, #8
	adds	r4, r5, r4
	ldrb	r5, [r2, #2]
	lsls	r5, r5, #16
	ldrb	r2, [r2, #3]
	lsls	r2, r2, #24
	adds	r2, r2, r5
	ldr	r1, [sp, #84]
	adds	r2, r2, r4
	str	r2, [r0, #8]
	ldr	r0, [sp, #28]
	cmp	r0, #2
	beq	.LBB100_20
	adds	r2, r1, #2
	ldr	r1, [sp, #76]
	muls	r1, r2, r1
	add	r0, sp, #88
	str	r3, [r0, r1]
	adds	r0, r0, r1
	str	r3, [r0, #4]
	lsls	r2, r2, #4
	adds	r1, r6, r2
	ldrb	r3, [r1, #12]
	ldrb	r4, [r1, #13]
	lsls	r4, r4, #8
	adds	r3, r4, r3
	ldrb	r4, [r1, #14]
	lsls	r4, r4, #16
	ldrb	r5, [r1, #15]
	lsls	r5, r5, #24
	adds	r4, r5, r4
	adds	r3, r4, r3
	str	r3, [r0, #20]
	ldrb	r3, [r1, #8]
	ldrb	r4, [r1, #9]
	lsls	r4, r4, #8
	adds	r3, r4, r3
	ldrb	r4, [r1, #10]
	lsls	r4, r4, #16
	ldrb	r5, [r1, #11]
	lsls	r5, r5, #24
	adds	r4, r5, r4
	adds	r3, r4, r3
	str	r3, [r0, #16]
	ldrb	r3, [r1, #4]
	ldrb	r4, [r1, #5]
	lsls	r4, r4, #8
	adds	r3, r4, r3
	ldrb	r4, [r1, #6]
	lsls	r4, r4, #16
	ldrb	r5, [r1, #7]
	lsls	r5, r5, #24
	adds	r4, r5, r4
	adds	r3, r4, r3
	str	r3, [r0, #12]
	ldrb	r2, [r6, r2]
	ldrb	r3, [r1, #1]
	lsls	r3, r3, #8
	adds	r2, r3, r2
	ldrb	r3, [r1, #2]
	lsls	r3, r3, #16
	ldrb	r1, [r1, #3]
	lsls	r1, r1, #24
	adds	r1, r1, r3
	adds	r1, r1, r2
	str	r1, [r0, #8]
.LBB100_20:
	ldr	r6, [sp, #24]
	ldr	r7, [r6, #24]
	ldr	r5, [r6, #28]
	ldr	r2, [r6, #32]
	ldr	r1, [r6, #36]
	ldr	r4, [r6, #40]
	ldr	r3, [r6, #44]
	subs	r0, r4, r2
	mov	r0, r3
	sbcs	r0, r1
	str	r5, [sp, #84]
	str	r4, [sp, #76]
	bhs	.LBB100_22
	lsrs	r0, r7, #31
	mov	r5, r7
	mov	r7, r3
	ldr	r3, [sp, #84]
	lsls	r3, r3, #1
	adds	r0, r3, r0
	lsls	r3, r5, #1
	subs	r2, r3, r2
	mov	r3, r7
	mov	r7, r5
	ldr	r5, [sp, #84]
	sbcs	r0, r1
	adds	r2, r2, r4
	adcs	r0, r3
	b	.LBB100_23
.LBB100_22:
	subs	r2, r4, r2
	mov	r0, r3
	sbcs	r0, r1
.LBB100_23:
	ldr	r1, [sp, #44]
	subs	r4, r7, r2
	mov	r2, r5
	sbcs	r2, r0
	movs	r5, #0
	subs	r0, r4, r1
	str	r5, [sp, #72]
	sbcs	r2, r5
	ldr	r5, [sp, #40]
	bhs	.LBB100_32
	ldr	r0, [r6, #8]
	movs	r1, #5
	bl	__atomic_load_8
	str	r0, [r6, #32]
	str	r1, [r6, #36]
	ldr	r7, [r6, #24]
	ldr	r5, [r6, #28]
	ldr	r4, [r6, #40]
	ldr	r3, [r6, #44]
	subs	r2, r4, r0
	mov	r2, r3
	sbcs	r2, r1
	str	r5, [sp, #84]
	str	r4, [sp, #76]
	bhs	.LBB100_26
	lsrs	r2, r7, #31
	mov	r5, r7
	mov	r7, r3
	ldr	r3, [sp, #84]
	lsls	r3, r3, #1
	adds	r2, r3, r2
	lsls	r3, r5, #1
	subs	r0, r3, r0
	mov	r3, r7
	mov	r7, r5
	ldr	r5, [sp, #84]
	sbcs	r2, r1
	adds	r0, r0, r4
	adcs	r2, r3
	b	.LBB100_27
.LBB100_26:
	subs	r0, r4, r0
	mov	r2, r3
	sbcs	r2, r1
.LBB100_27:
	subs	r1, r7, r0
	sbcs	r5, r2
	movs	r0, #1
	str	r0, [sp, #68]
	movs	r0, #0
	str	r1, [sp, #80]
	ldr	r4, [sp, #44]
	subs	r2, r1, r4
	mov	r1, r4
	mov	r4, r0
	mov	r2, r5
	sbcs	r2, r0
	blo	.LBB100_28
	b	.LBB100_50
.LBB100_28:
	ldr	r0, [sp, #68]
	blo	.LBB100_29
	b	.LBB100_51
.LBB100_29:
	cmp	r0, #0
	bne	.LBB100_31
.LBB100_30:
	mov	r5, r0
.LBB100_31:
	ldr	r1, [sp, #80]
.LBB100_32:
	mov	r0, r1
	orrs	r0, r5
	ldr	r4, [sp, #76]
	bne	.LBB100_33
	b	.LBB100_48
.LBB100_33:
	str	r1, [sp, #80]
	ldrb	r0, [r6, #16]
	ldrb	r1, [r6, #17]
	lsls	r1, r1, #8
	adds	r0, r1, r0
	ldrb	r1, [r6, #18]
	lsls	r1, r1, #16
	ldrb	r2, [r6, #19]
	lsls	r2, r2, #24
	adds	r1, r2, r1
	adds	r0, r1, r0
	str	r0, [sp, #56]
	ldrb	r0, [r6, #8]
	ldrb	r1, [r6, #9]
	lsls	r1, r1, #8
	adds	r0, r1, r0
	ldrb	r1, [r6, #10]
	lsls	r1, r1, #16
	ldrb	r2, [r6, #11]
	lsls	r2, r2, #24
	adds	r1, r2, r1
	adds	r0, r1, r0
	str	r0, [sp, #60]
	subs	r0, r4, r7
	mov	r0, r3
	ldr	r1, [sp, #84]
	sbcs	r0, r1
	ldr	r0, [sp, #72]
	mov	r2, r0
	blo	.LBB100_35
	ldr	r2, [sp, #84]
.LBB100_35:
	blo	.LBB100_37
	mov	r0, r7
.LBB100_37:
	str	r0, [sp, #72]
	subs	r0, r4, r0
	mov	r1, r3
	sbcs	r1, r2
	str	r7, [sp, #64]
	subs	r6, r7, r0
	ldr	r7, [sp, #84]
	sbcs	r7, r1
	ldr	r2, [sp, #80]
	subs	r2, r6, r2
	mov	r2, r7
	sbcs	r2, r5
	mov	r2, r6
	blo	.LBB100_39
	ldr	r2, [sp, #80]
.LBB100_39:
	str	r3, [sp, #68]
	movs	r3, #24
	mov	r4, r3
	str	r2, [sp, #52]
	muls	r4, r2, r4
	add	r2, sp, #88
	str	r2, [sp, #48]
	ldr	r2, [sp, #84]
	eors	r1, r2
	ldr	r2, [sp, #64]
	eors	r0, r2
	orrs	r0, r1
	beq	.LBB100_41
	mov	r0, r3
	ldr	r1, [sp, #76]
	muls	r0, r1, r0
	movs	r1, #23
	mvns	r1, r1
	ldr	r2, [sp, #72]
	muls	r1, r2, r1
	ldr	r2, [sp, #56]
	adds	r1, r2, r1
	adds	r0, r1, r0
	add	r1, sp, #88
	mov	r2, r4
	str	r3, [sp, #72]
	bl	tlsf_memory_cpy
	ldr	r3, [sp, #72]
.LBB100_41:
	ldr	r0, [sp, #80]
	subs	r0, r6, r0
	sbcs	r7, r5
	bhs	.LBB100_43
	ldr	r0, [sp, #48]
	adds	r1, r0, r4
	ldr	r0, [sp, #80]
	ldr	r2, [sp, #52]
	subs	r0, r0, r2
	muls	r3, r0, r3
	ldr	r0, [sp, #56]
	mov	r2, r3
	bl	tlsf_memory_cpy
.LBB100_43:
	movs	r0, #0
	ldr	r6, [sp, #24]
	strb	r0, [r6, #23]
	strb	r0, [r6, #22]
	strb	r0, [r6, #21]
	strb	r0, [r6, #20]
	ldr	r3, [sp, #56]
	strb	r3, [r6, #16]
	strb	r0, [r6, #15]
	strb	r0, [r6, #14]
	strb	r0, [r6, #13]
	strb	r0, [r6, #12]
	ldr	r2, [sp, #60]
	strb	r2, [r6, #8]
	lsrs	r1, r3, #24
	strb	r1, [r6, #19]
	lsrs	r1, r3, #16
	strb	r1, [r6, #18]
	lsrs	r1, r3, #8
	strb	r1, [r6, #17]
	lsrs	r1, r2, #24
	strb	r1, [r6, #11]
	lsrs	r1, r2, #16
	strb	r1, [r6, #10]
	lsrs	r1, r2, #8
	strb	r1, [r6, #9]
	movs	r1, #5
	str	r1, [sp]
	ldr	r3, [sp, #64]
	lsrs	r1, r3, #31
	ldr	r2, [sp, #84]
	lsls	r2, r2, #1
	adds	r2, r2, r1
	lsls	r1, r3, #1
	ldr	r7, [sp, #76]
	subs	r3, r1, r7
	ldr	r1, [sp, #68]
	sbcs	r2, r1
	rsbs	r1, r3, #0
	sbcs	r0, r2
	ldr	r4, [sp, #80]
	subs	r3, r4, r3
	mov	r3, r5
	sbcs	r3, r2
	blo	.LBB100_45
	str	r0, [sp, #68]
.LBB100_45:
	blo	.LBB100_47
	mov	r7, r1
.LBB100_47:
	ldr	r1, [sp, #80]
	adds	r7, r7, r1
	ldr	r4, [sp, #68]
	adcs	r4, r5
	ldr	r0, [sp, #60]
	adds	r0, #128
	mov	r2, r7
	mov	r3, r4
	bl	__atomic_store_8
	ldr	r1, [sp, #80]
	mov	r3, r4
	mov	r4, r7
.LBB100_48:
	str	r4, [r6, #40]
	str	r3, [r6, #44]
	ldr	r4, [sp, #36]
	adds	r4, r1, r4
	ldr	r2, [sp, #32]
	adcs	r2, r5
	movs	r0, #0
	ldr	r3, [sp, #44]
	subs	r1, r1, r3
	sbcs	r5, r0
	ldr	r3, [sp, #20]
	blo	.LBB100_53
	subs	r1, r4, r3
	mov	r1, r2
	sbcs	r1, r0
	bhs	.LBB100_53
	b	.LBB100_7
.LBB100_50:
	str	r1, [sp, #80]
	ldr	r0, [sp, #68]
	bhs	.LBB100_51
	b	.LBB100_29
.LBB100_51:
	mov	r0, r4
	cmp	r0, #0
	bne	.LBB100_52
	b	.LBB100_30
.LBB100_52:
	b	.LBB100_31
.LBB100_53:
	ldr	r1, [sp, #4]
.LBB100_54:
	movs	r0, #1
	strb	r0, [r6, #1]
.LBB100_55:
	ldr	r0, [sp, #8]
	str	r4, [r0]
	mov	r0, r1
	add	sp, #508
	add	sp, #352
	pop	{r4, r5, r6, r7, pc}
.LBB100_56:
	movs	r0, #0
	b	.LBB100_58
.LBB100_57:
	movs	r0, #2
.LBB100_58:
	bl	tlsf_c.call_fault.CallFault.refusal
	mov	r1, r0
	b	.LBB100_55
.Lfunc_end100:
	.size	tlsf_put_all, .Lfunc_end100-tlsf_put_all
	.cfi_endproc
	.section	.text.tlsf_queue_close,"ax",%progbits
	.globl	tlsf_queue_close
	.p2align	1
	.type	tlsf_queue_close,%function
	.code	16
	.thumb_func
tlsf_queue_close:
	.cfi_startproc
	push	{r4, r5, r6, r7, lr}
	.cfi_def_cfa_offset 20
	.cfi_offset lr, -4
	.cfi_offset r7, -8
	.cfi_offset r6, -12
	.cfi_offset r5, -16
	.cfi_offset r4, -20
	sub	sp, #108
	.cfi_def_cfa_offset 128
	ldrb	r1, [r0, #8]
	movs	r4, #32
	cmp	r1, #0
	beq	.LBB101_5
	ldr	r1, [r0]
	ldrb	r2, [r1, #1]
	cmp	r2, #1
	bne	.LBB101_5
	ldrb	r2, [r1]
	cmp	r2, #2
	bne	.LBB101_4
	movs	r4, #0
	strb	r4, [r1, #1]
	ldrb	r1, [r0, #3]
	str	r1, [sp, #4]
	ldrb	r6, [r0, #2]
	ldrb	r7, [r0]
	ldrb	r5, [r0, #1]
	movs	r2, #16
	mov	r1, r4
	bl	tlsf_memory_set
	lsls	r0, r5, #8
	adds	r0, r0, r7
	lsls	r1, r6, #16
	ldr	r2, [sp, #4]
	lsls	r2, r2, #24
	adds	r1, r2, r1
	adds	r7, r1, r0
	ldrb	r0, [r7]
	str	r0, [sp, #4]
	ldrb	r0, [r7, #1]
	str	r0, [sp]
	mov	r1, r7
	adds	r1, #8
	add	r0, sp, #8
	adds	r5, r0, #6
	movs	r6, #40
	mov	r0, r5
	mov	r2, r6
	bl	tlsf_memory_cpy
	mov	r0, r7
	bl	tlsf_memory_dealloc
	str	r4, [sp, #56]
	add	r7, sp, #56
	ldr	r0, [sp]
	strb	r0, [r7, #1]
	ldr	r0, [sp, #4]
	strb	r0, [r7]
	str	r4, [sp, #60]
	mov	r0, r7
	adds	r0, #8
	mov	r1, r5
	mov	r2, r6
	bl	tlsf_memory_cpy
	mov	r0, r7
	bl	tlsf_c.tlsf_c.any_end.AnyEnd.Destruct.drop
	b	.LBB101_5
.LBB101_4:
	movs	r4, #40
.LBB101_5:
	mov	r0, r4
	add	sp, #108
	pop	{r4, r5, r6, r7, pc}
.Lfunc_end101:
	.size	tlsf_queue_close, .Lfunc_end101-tlsf_queue_close
	.cfi_endproc
	.section	.text.tlsf_queue_drain,"ax",%progbits
	.globl	tlsf_queue_drain
	.p2align	1
	.type	tlsf_queue_drain,%function
	.code	16
	.thumb_func
tlsf_queue_drain:
	.cfi_startproc
	push	{r4, r5, r6, r7, lr}
	.cfi_def_cfa_offset 20
	.cfi_offset lr, -4
	.cfi_offset r7, -8
	.cfi_offset r6, -12
	.cfi_offset r5, -16
	.cfi_offset r4, -20
	sub	sp, #60
	.cfi_def_cfa_offset 80
	str	r2, [sp, #20]
	str	r0, [sp, #16]
	ldrb	r0, [r0, #8]
	cmp	r0, #0
	beq	.LBB102_12
	ldr	r0, [sp, #16]
	ldr	r0, [r0]
	ldrb	r0, [r0]
	cmp	r0, #1
	bne	.LBB102_12
	ldrb	r0, [r1, #8]
	cmp	r0, #0
	beq	.LBB102_12
	ldr	r7, [r1]
	ldrb	r0, [r7, #1]
	cmp	r0, #0
	beq	.LBB102_12
	ldrb	r0, [r7]
	cmp	r0, #2
	bne	.LBB102_14
	movs	r0, #0
	strb	r0, [r7, #1]
	ldr	r1, [sp, #20]
	cmp	r1, #0
	mov	r6, r0
	beq	.LBB102_11
	str	r3, [sp, #8]
	str	r0, [sp, #12]
	str	r7, [sp, #4]
	adds	r7, #8
	movs	r5, #0
	mov	r6, r5
.LBB102_7:
	str	r5, [sp, #52]
	str	r5, [sp, #48]
	str	r5, [sp, #44]
	str	r5, [sp, #40]
	str	r5, [sp, #36]
	str	r5, [sp, #32]
	str	r5, [sp, #28]
	str	r5, [sp, #24]
	add	r4, sp, #24
	mov	r0, r4
	mov	r1, r7
	bl	tlsf_c.queue_end.take_once
	ldrb	r0, [r4]
	cmp	r0, #0
	bne	.LBB102_10
	ldr	r1, [sp, #40]
	add	r3, sp, #44
	ldm	r3, {r0, r2, r3}
	str	r0, [sp]
	ldr	r0, [sp, #16]
	bl	tlsf_c.heap_calls.release_named
	adds	r6, r6, #1
	ldr	r0, [sp, #20]
	cmp	r0, r6
	bne	.LBB102_7
	ldr	r6, [sp, #20]
.LBB102_10:
	ldr	r0, [sp, #12]
	ldr	r3, [sp, #8]
	ldr	r7, [sp, #4]
.LBB102_11:
	str	r6, [r3]
	movs	r1, #1
	strb	r1, [r7, #1]
	add	sp, #60
	pop	{r4, r5, r6, r7, pc}
.LBB102_12:
	movs	r0, #0
.LBB102_13:
	bl	tlsf_c.call_fault.CallFault.refusal
	add	sp, #60
	pop	{r4, r5, r6, r7, pc}
.LBB102_14:
	movs	r0, #2
	b	.LBB102_13
.Lfunc_end102:
	.size	tlsf_queue_drain, .Lfunc_end102-tlsf_queue_drain
	.cfi_endproc
	.section	.text.tlsf_queue_open,"ax",%progbits
	.globl	tlsf_queue_open
	.p2align	1
	.type	tlsf_queue_open,%function
	.code	16
	.thumb_func
tlsf_queue_open:
	.cfi_startproc
	push	{r4, r5, r6, r7, lr}
	.cfi_def_cfa_offset 20
	.cfi_offset lr, -4
	.cfi_offset r7, -8
	.cfi_offset r6, -12
	.cfi_offset r5, -16
	.cfi_offset r4, -20
	sub	sp, #332
	.cfi_def_cfa_offset 352
	mov	r4, r1
	movs	r5, #0
	str	r5, [sp, #140]
	str	r5, [sp, #136]
	str	r5, [sp, #132]
	str	r5, [sp, #128]
	str	r5, [sp, #124]
	str	r5, [sp, #120]
	ldrb	r1, [r0, #8]
	cmp	r1, #0
	beq	.LBB103_2
	movs	r0, #33
	add	sp, #332
	pop	{r4, r5, r6, r7, pc}
.LBB103_2:
	mov	r7, r2
	movs	r1, #1
	lsls	r1, r1, #10
	subs	r2, r1, r4
	subs	r1, r1, r7
	orrs	r1, r2
	lsrs	r1, r1, #10
	bne	.LBB103_9
	str	r0, [sp, #64]
	str	r5, [sp, #148]
	str	r5, [sp, #144]
	lsls	r1, r4, #4
	add	r0, sp, #280
	movs	r2, #8
	bl	tlsf_memory_alloc
	ldr	r0, [sp, #280]
	lsls	r0, r0, #31
	bne	.LBB103_4
	bl	.LBB103_84
.LBB103_4:
	ldr	r0, [sp, #288]
	str	r5, [sp, #172]
	str	r4, [sp, #80]
	str	r4, [sp, #168]
	str	r5, [sp, #164]
	str	r5, [sp, #160]
	str	r5, [sp, #156]
	str	r0, [sp, #152]
	mov	r0, r7
	adds	r0, #48
	mov	r4, r5
	adcs	r4, r5
	str	r0, [sp, #40]
	lsls	r6, r0, #3
	add	r0, sp, #280
	movs	r2, #8
	mov	r1, r6
	bl	tlsf_memory_alloc
	mov	r0, r7
	bl	__clzsi2
	movs	r1, #32
	str	r1, [sp, #36]
	subs	r2, r1, r0
	movs	r0, #1
	str	r0, [sp, #108]
	mov	r1, r5
	bl	__aeabi_llsl
	ldr	r2, [sp, #280]
	lsls	r2, r2, #31
	bne	.LBB103_5
	b	.LBB103_77
.LBB103_5:
	str	r0, [sp, #24]
	str	r4, [sp, #60]
	str	r1, [sp, #28]
	ldr	r4, [sp, #288]
	str	r6, [sp, #72]
	subs	r6, #8
	movs	r1, #0
	str	r1, [sp, #112]
	mov	r0, r4
	mov	r2, r6
	bl	tlsf_memory_set
	ldr	r1, [sp, #112]
	str	r1, [r6, r4]
	str	r4, [sp, #104]
	adds	r0, r6, r4
	str	r1, [r0, #4]
	cmp	r7, #1
	str	r7, [sp, #96]
	bhi	.LBB103_7
	ldr	r0, [sp, #108]
	str	r0, [sp, #96]
.LBB103_7:
	movs	r6, #3
	ldr	r4, [sp, #96]
	ands	r4, r6
	cmp	r7, #4
	str	r5, [sp, #116]
	str	r6, [sp, #92]
	str	r7, [sp, #88]
	str	r4, [sp, #76]
	bhs	.LBB103_10
	mov	r2, r1
	mov	r7, r1
	b	.LBB103_13
.LBB103_9:
	movs	r0, #5
	add	sp, #332
	pop	{r4, r5, r6, r7, pc}
.LBB103_10:
	ldr	r0, [sp, #96]
	bics	r0, r6
	str	r0, [sp, #96]
	movs	r7, #0
	mov	r2, r7
	str	r7, [sp, #84]
	ldr	r1, [sp, #104]
.LBB103_11:
	lsls	r6, r2, #3
	adds	r0, r1, r6
	str	r0, [sp, #100]
	ldr	r4, [sp, #92]
	lsls	r6, r4, #7
	str	r2, [r0, r6]
	movs	r0, #1
	orrs	r0, r2
	lsls	r5, r0, #3
	adds	r5, r1, r5
	str	r0, [r5, r6]
	movs	r0, #2
	orrs	r0, r2
	lsls	r3, r0, #3
	adds	r3, r1, r3
	str	r0, [r3, r6]
	mov	r0, r2
	orrs	r0, r4
	lsls	r4, r0, #3
	adds	r4, r1, r4
	str	r0, [r4, r6]
	ldr	r0, [sp, #100]
	adds	r0, r0, r6
	str	r7, [r0, #4]
	adds	r0, r5, r6
	str	r7, [r0, #4]
	adds	r0, r3, r6
	str	r7, [r0, #4]
	adds	r0, r4, r6
	str	r7, [r0, #4]
	adds	r2, r2, #4
	ldr	r0, [sp, #84]
	adcs	r7, r0
	mov	r0, r2
	ldr	r3, [sp, #96]
	eors	r0, r3
	orrs	r0, r7
	bne	.LBB103_11
	ldr	r4, [sp, #76]
	cmp	r4, #0
	ldr	r5, [sp, #116]
	ldr	r6, [sp, #92]
	beq	.LBB103_16
.LBB103_13:
	lsls	r0, r2, #3
	ldr	r3, [sp, #104]
	adds	r0, r3, r0
	lsls	r3, r6, #7
	str	r2, [r0, r3]
	adds	r0, r0, r3
	str	r7, [r0, #4]
	cmp	r4, #1
	beq	.LBB103_16
	movs	r1, #0
	adds	r0, r2, #1
	mov	r5, r7
	str	r1, [sp, #100]
	adcs	r5, r1
	lsls	r6, r0, #3
	ldr	r4, [sp, #104]
	adds	r6, r4, r6
	str	r0, [r6, r3]
	adds	r0, r6, r3
	str	r5, [r0, #4]
	ldr	r5, [sp, #116]
	ldr	r0, [sp, #76]
	cmp	r0, #2
	beq	.LBB103_16
	adds	r0, r2, #2
	ldr	r1, [sp, #100]
	adcs	r7, r1
	lsls	r2, r0, #3
	ldr	r4, [sp, #104]
	adds	r2, r4, r2
	str	r0, [r2, r3]
	adds	r0, r2, r3
	str	r7, [r0, #4]
.LBB103_16:
	ldr	r6, [sp, #112]
	str	r6, [sp, #212]
	str	r6, [sp, #208]
	str	r6, [sp, #204]
	str	r6, [sp, #200]
	str	r6, [sp, #196]
	str	r6, [sp, #192]
	ldr	r7, [sp, #88]
	lsls	r1, r7, #5
	add	r0, sp, #232
	movs	r2, #8
	bl	tlsf_memory_alloc
	ldr	r0, [sp, #232]
	lsls	r0, r0, #31
	bne	.LBB103_17
	b	.LBB103_75
.LBB103_17:
	ldr	r0, [sp, #80]
	adds	r0, r0, #1
	str	r0, [sp, #12]
	ldr	r1, [sp, #240]
	str	r6, [sp, #300]
	str	r7, [sp, #296]
	str	r6, [sp, #292]
	str	r6, [sp, #288]
	str	r6, [sp, #308]
	add	r0, sp, #328
	str	r0, [sp, #304]
	str	r6, [sp, #284]
	str	r1, [sp, #84]
	str	r1, [sp, #280]
	mov	r4, r6
	mov	r0, r6
	b	.LBB103_20
.LBB103_18:
	ldr	r4, [sp, #292]
	ldr	r6, [sp, #288]
	ldr	r0, [sp, #280]
	str	r0, [sp, #84]
.LBB103_19:
	str	r4, [sp, #80]
	str	r6, [sp, #100]
	lsls	r1, r6, #5
	mov	r6, r7
	movs	r7, #0
	ldr	r0, [sp, #84]
	strb	r7, [r0, r1]
	str	r1, [sp, #76]
	adds	r0, r0, r1
	strb	r7, [r0, #7]
	strb	r7, [r0, #6]
	strb	r7, [r0, #5]
	strb	r7, [r0, #4]
	strb	r7, [r0, #3]
	strb	r7, [r0, #2]
	strb	r7, [r0, #1]
	adds	r0, #8
	add	r1, sp, #232
	movs	r5, #24
	mov	r2, r5
	bl	tlsf_memory_cpy
	ldr	r0, [sp, #100]
	adds	r0, r0, #1
	adcs	r4, r7
	str	r4, [sp, #292]
	str	r0, [sp, #112]
	str	r0, [sp, #288]
	ldr	r1, [sp, #96]
	adds	r1, r1, #1
	adcs	r6, r7
	ldr	r0, [sp, #88]
	subs	r0, r1, r0
	mov	r0, r6
	sbcs	r0, r7
	mov	r0, r1
	bhs	.LBB103_31
.LBB103_20:
	str	r0, [sp, #96]
	add	r0, sp, #192
	add	r1, sp, #232
	mov	r7, r6
	ldm	r0!, {r2, r3, r5}
	stm	r1!, {r2, r3, r5}
	ldm	r0!, {r2, r3, r5}
	stm	r1!, {r2, r3, r5}
	ldr	r0, [sp, #300]
	eors	r0, r4
	ldr	r1, [sp, #296]
	ldr	r6, [sp, #112]
	eors	r1, r6
	orrs	r1, r0
	bne	.LBB103_19
	add	r0, sp, #280
	bl	std_alloc.vec.Vec.grow_amortized.94730218a1e37034
	cmp	r0, #0
	bne	.LBB103_18
	ldr	r0, [sp, #300]
	str	r0, [sp, #112]
	ldr	r2, [sp, #296]
	ldr	r3, [sp, #292]
	ldr	r4, [sp, #288]
	ldr	r0, [sp, #280]
.LBB103_23:
	mov	r5, r4
	orrs	r5, r3
	bne	.LBB103_24
	b	.LBB103_73
.LBB103_24:
	movs	r5, #0
	subs	r6, r4, #1
	mov	r7, r3
	sbcs	r7, r5
	lsls	r1, r6, #5
	ldrb	r1, [r0, r1]
	cmp	r1, #0
	beq	.LBB103_25
	b	.LBB103_69
.LBB103_25:
	orrs	r6, r7
	bne	.LBB103_26
	b	.LBB103_73
.LBB103_26:
	subs	r6, r4, #2
	mov	r7, r3
	sbcs	r7, r5
	lsls	r1, r6, #5
	ldrb	r1, [r0, r1]
	cmp	r1, #0
	beq	.LBB103_27
	b	.LBB103_69
.LBB103_27:
	orrs	r6, r7
	bne	.LBB103_28
	b	.LBB103_73
.LBB103_28:
	subs	r6, r4, #3
	mov	r7, r3
	sbcs	r7, r5
	lsls	r1, r6, #5
	ldrb	r1, [r0, r1]
	cmp	r1, #0
	beq	.LBB103_29
	b	.LBB103_69
.LBB103_29:
	orrs	r6, r7
	bne	.LBB103_30
	b	.LBB103_73
.LBB103_30:
	subs	r4, r4, #4
	sbcs	r3, r5
	lsls	r1, r4, #5
	ldrb	r1, [r0, r1]
	cmp	r1, #0
	beq	.LBB103_23
	b	.LBB103_69
.LBB103_31:
	str	r5, [sp, #56]
	str	r4, [sp, #32]
	ldr	r0, [sp, #300]
	str	r0, [sp, #20]
	ldr	r0, [sp, #296]
	str	r0, [sp, #16]
	ldr	r0, [sp, #280]
	str	r0, [sp, #96]
	add	r0, sp, #280
	movs	r2, #8
	ldr	r1, [sp, #72]
	bl	tlsf_memory_alloc
	ldr	r0, [sp, #280]
	lsls	r0, r0, #31
	bne	.LBB103_32
	b	.LBB103_60
.LBB103_32:
	ldr	r0, [sp, #288]
	str	r0, [sp, #84]
	ldr	r0, [sp, #112]
	lsrs	r0, r0, #27
	ldr	r1, [sp, #32]
	lsls	r1, r1, #5
	adds	r0, r1, r0
	ldr	r4, [sp, #88]
	bpl	.LBB103_33
	b	.LBB103_59
.LBB103_33:
	cmp	r0, #0
	ldr	r0, [sp, #112]
	beq	.LBB103_35
	mvns	r1, r7
	b	.LBB103_36
.LBB103_35:
	lsls	r1, r0, #5
.LBB103_36:
	add	r0, sp, #280
	movs	r6, #8
	mov	r2, r6
	bl	tlsf_memory_alloc
	ldr	r0, [sp, #280]
	lsls	r0, r0, #31
	bne	.LBB103_37
	b	.LBB103_59
.LBB103_37:
	ldr	r0, [sp, #288]
	str	r0, [sp, #72]
	ldr	r1, [sp, #40]
	ldr	r0, [sp, #92]
	bics	r1, r0
	str	r1, [sp, #48]
	ands	r4, r0
	str	r4, [sp, #8]
	movs	r3, #0
	mov	r2, r3
	mov	r5, r3
	ldr	r4, [sp, #84]
	str	r6, [sp, #44]
	ldr	r6, [sp, #104]
	str	r3, [sp, #52]
.LBB103_38:
	lsls	r7, r2, #3
	ldr	r0, [r6, r7]
	str	r0, [r4, r7]
	mov	r4, r7
	ldr	r0, [sp, #44]
	orrs	r4, r0
	ldr	r0, [r6, r4]
	ldr	r1, [sp, #84]
	str	r0, [r1, r4]
	movs	r6, #16
	orrs	r6, r7
	ldr	r0, [sp, #104]
	ldr	r0, [r0, r6]
	ldr	r1, [sp, #84]
	str	r0, [r1, r6]
	mov	r0, r7
	ldr	r1, [sp, #56]
	orrs	r0, r1
	ldr	r1, [sp, #104]
	ldr	r1, [r1, r0]
	ldr	r3, [sp, #84]
	str	r1, [r3, r0]
	ldr	r3, [sp, #52]
	ldr	r1, [sp, #84]
	adds	r1, r1, r7
	str	r1, [sp, #68]
	ldr	r1, [sp, #104]
	adds	r7, r1, r7
	ldr	r7, [r7, #4]
	ldr	r1, [sp, #68]
	str	r7, [r1, #4]
	ldr	r1, [sp, #84]
	adds	r1, r1, r4
	ldr	r7, [sp, #104]
	adds	r4, r7, r4
	ldr	r4, [r4, #4]
	str	r4, [r1, #4]
	ldr	r1, [sp, #84]
	adds	r1, r1, r6
	ldr	r4, [sp, #104]
	adds	r4, r4, r6
	ldr	r6, [sp, #104]
	ldr	r4, [r4, #4]
	str	r4, [r1, #4]
	ldr	r4, [sp, #84]
	adds	r1, r4, r0
	adds	r0, r6, r0
	ldr	r0, [r0, #4]
	str	r0, [r1, #4]
	adds	r2, r2, #4
	mov	r0, r5
	adcs	r0, r3
	mov	r5, r0
	ldr	r1, [sp, #60]
	eors	r0, r1
	mov	r1, r2
	ldr	r7, [sp, #48]
	eors	r1, r7
	orrs	r1, r0
	bne	.LBB103_38
	ldr	r5, [sp, #8]
	cmp	r5, #0
	beq	.LBB103_43
	mov	r3, r6
	lsls	r1, r2, #3
	ldr	r0, [r6, r1]
	str	r0, [r4, r1]
	adds	r0, r4, r1
	adds	r2, r6, r1
	ldr	r2, [r2, #4]
	str	r2, [r0, #4]
	cmp	r5, #1
	beq	.LBB103_43
	mov	r0, r1
	adds	r0, #8
	ldr	r2, [r3, r0]
	str	r2, [r4, r0]
	adds	r2, r4, r0
	adds	r0, r3, r0
	ldr	r0, [r0, #4]
	str	r0, [r2, #4]
	cmp	r5, #2
	beq	.LBB103_43
	adds	r1, #16
	ldr	r0, [r3, r1]
	str	r0, [r4, r1]
	adds	r0, r4, r1
	adds	r1, r3, r1
	ldr	r1, [r1, #4]
	str	r1, [r0, #4]
.LBB103_43:
	ldr	r0, [sp, #112]
	ldr	r1, [sp, #32]
	orrs	r0, r1
	ldr	r7, [sp, #52]
	ldr	r2, [sp, #96]
	ldr	r3, [sp, #80]
	ldr	r6, [sp, #100]
	bne	.LBB103_44
	b	.LBB103_50
.LBB103_44:
	ldr	r1, [sp, #112]
	mov	r5, r1
	ldr	r0, [sp, #92]
	ands	r5, r0
	ldr	r0, [sp, #32]
	beq	.LBB103_48
	ldr	r4, [sp, #76]
	ldrb	r0, [r2, r4]
	str	r0, [sp, #56]
	adds	r1, r2, r4
	adds	r1, #8
	add	r6, sp, #280
	movs	r2, #24
	str	r2, [sp, #68]
	mov	r0, r6
	bl	tlsf_memory_cpy
	ldr	r0, [sp, #72]
	ldr	r1, [sp, #56]
	strb	r1, [r0, r4]
	adds	r0, r0, r4
	strb	r7, [r0, #7]
	strb	r7, [r0, #6]
	strb	r7, [r0, #5]
	strb	r7, [r0, #4]
	strb	r7, [r0, #3]
	strb	r7, [r0, #2]
	strb	r7, [r0, #1]
	adds	r0, #8
	mov	r1, r6
	ldr	r6, [sp, #100]
	ldr	r2, [sp, #68]
	bl	tlsf_memory_cpy
	ldr	r3, [sp, #80]
	ldr	r2, [sp, #96]
	cmp	r5, #1
	mov	r1, r6
	mov	r0, r3
	beq	.LBB103_48
	subs	r4, r6, #1
	sbcs	r3, r7
	str	r3, [sp, #76]
	lsls	r6, r4, #5
	ldrb	r0, [r2, r6]
	str	r0, [sp, #48]
	adds	r1, r2, r6
	adds	r1, #8
	add	r0, sp, #280
	str	r0, [sp, #68]
	movs	r2, #24
	str	r2, [sp, #56]
	bl	tlsf_memory_cpy
	ldr	r0, [sp, #72]
	ldr	r1, [sp, #48]
	strb	r1, [r0, r6]
	adds	r0, r0, r6
	ldr	r6, [sp, #100]
	strb	r7, [r0, #1]
	strb	r7, [r0, #2]
	strb	r7, [r0, #3]
	strb	r7, [r0, #4]
	strb	r7, [r0, #5]
	strb	r7, [r0, #6]
	strb	r7, [r0, #7]
	adds	r0, #8
	ldr	r1, [sp, #68]
	ldr	r2, [sp, #56]
	bl	tlsf_memory_cpy
	ldr	r0, [sp, #76]
	mov	r1, r4
	ldr	r3, [sp, #80]
	ldr	r2, [sp, #96]
	cmp	r5, #2
	beq	.LBB103_48
	subs	r5, r6, #2
	sbcs	r3, r7
	str	r3, [sp, #76]
	lsls	r4, r5, #5
	ldrb	r0, [r2, r4]
	str	r0, [sp, #56]
	adds	r1, r2, r4
	adds	r1, #8
	add	r6, sp, #280
	movs	r2, #24
	str	r2, [sp, #68]
	mov	r0, r6
	bl	tlsf_memory_cpy
	ldr	r0, [sp, #72]
	ldr	r1, [sp, #56]
	strb	r1, [r0, r4]
	adds	r0, r0, r4
	strb	r7, [r0, #1]
	strb	r7, [r0, #2]
	strb	r7, [r0, #3]
	strb	r7, [r0, #4]
	strb	r7, [r0, #5]
	strb	r7, [r0, #6]
	strb	r7, [r0, #7]
	adds	r0, #8
	mov	r1, r6
	ldr	r6, [sp, #100]
	ldr	r2, [sp, #68]
	bl	tlsf_memory_cpy
	ldr	r0, [sp, #76]
	mov	r1, r5
	ldr	r3, [sp, #80]
	ldr	r2, [sp, #96]
.LBB103_48:
	mov	r4, r0
	subs	r0, r6, #3
	sbcs	r3, r7
	bhs	.LBB103_49
	b	.LBB103_50
.LBB103_49:
	str	r4, [sp, #76]
	str	r1, [sp, #100]
	lsls	r5, r1, #5
	mov	r6, r5
	subs	r6, #32
	ldrb	r0, [r2, r6]
	str	r0, [sp, #56]
	adds	r1, r2, r6
	adds	r1, #8
	add	r4, sp, #280
	movs	r2, #24
	str	r2, [sp, #68]
	mov	r0, r4
	str	r4, [sp, #80]
	bl	tlsf_memory_cpy
	ldr	r0, [sp, #72]
	ldr	r1, [sp, #56]
	strb	r1, [r0, r6]
	ldr	r0, [sp, #72]
	adds	r0, r0, r6
	strb	r7, [r0, #7]
	strb	r7, [r0, #6]
	strb	r7, [r0, #5]
	strb	r7, [r0, #4]
	strb	r7, [r0, #3]
	strb	r7, [r0, #2]
	strb	r7, [r0, #1]
	adds	r0, #8
	mov	r1, r4
	ldr	r4, [sp, #68]
	mov	r2, r4
	bl	tlsf_memory_cpy
	mov	r6, r5
	subs	r6, #64
	ldr	r0, [sp, #96]
	ldrb	r0, [r0, r6]
	str	r0, [sp, #56]
	ldr	r0, [sp, #96]
	adds	r1, r0, r6
	adds	r1, #8
	ldr	r0, [sp, #80]
	mov	r2, r4
	bl	tlsf_memory_cpy
	ldr	r0, [sp, #72]
	ldr	r1, [sp, #56]
	strb	r1, [r0, r6]
	ldr	r0, [sp, #72]
	adds	r0, r0, r6
	strb	r7, [r0, #7]
	strb	r7, [r0, #6]
	strb	r7, [r0, #5]
	strb	r7, [r0, #4]
	strb	r7, [r0, #3]
	strb	r7, [r0, #2]
	strb	r7, [r0, #1]
	adds	r0, #8
	ldr	r6, [sp, #80]
	mov	r1, r6
	mov	r2, r4
	bl	tlsf_memory_cpy
	subs	r5, #96
	ldr	r0, [sp, #96]
	ldrb	r0, [r0, r5]
	str	r0, [sp, #56]
	ldr	r0, [sp, #96]
	adds	r1, r0, r5
	adds	r1, #8
	mov	r0, r6
	mov	r2, r4
	bl	tlsf_memory_cpy
	ldr	r0, [sp, #72]
	ldr	r1, [sp, #56]
	strb	r1, [r0, r5]
	ldr	r0, [sp, #72]
	adds	r0, r0, r5
	strb	r7, [r0, #7]
	strb	r7, [r0, #6]
	strb	r7, [r0, #5]
	strb	r7, [r0, #4]
	strb	r7, [r0, #3]
	strb	r7, [r0, #2]
	strb	r7, [r0, #1]
	adds	r0, #8
	ldr	r5, [sp, #80]
	mov	r1, r5
	mov	r2, r4
	mov	r6, r4
	bl	tlsf_memory_cpy
	ldr	r0, [sp, #100]
	subs	r0, r0, #4
	str	r0, [sp, #100]
	ldr	r0, [sp, #76]
	sbcs	r0, r7
	str	r0, [sp, #76]
	ldr	r0, [sp, #100]
	lsls	r4, r0, #5
	ldr	r0, [sp, #96]
	ldrb	r0, [r0, r4]
	str	r0, [sp, #56]
	ldr	r0, [sp, #96]
	adds	r1, r0, r4
	adds	r1, #8
	mov	r0, r5
	mov	r2, r6
	bl	tlsf_memory_cpy
	ldr	r0, [sp, #72]
	ldr	r1, [sp, #56]
	strb	r1, [r0, r4]
	ldr	r5, [sp, #72]
	adds	r0, r5, r4
	ldr	r4, [sp, #76]
	strb	r7, [r0, #1]
	strb	r7, [r0, #2]
	strb	r7, [r0, #3]
	strb	r7, [r0, #4]
	strb	r7, [r0, #5]
	strb	r7, [r0, #6]
	strb	r7, [r0, #7]
	adds	r0, #8
	ldr	r1, [sp, #80]
	mov	r2, r6
	bl	tlsf_memory_cpy
	ldr	r1, [sp, #100]
	ldr	r2, [sp, #96]
	mov	r0, r1
	orrs	r0, r4
	beq	.LBB103_50
	b	.LBB103_49
.LBB103_50:
	ldr	r0, [sp, #20]
	ldr	r1, [sp, #16]
	orrs	r1, r0
	beq	.LBB103_52
	mov	r0, r2
	bl	tlsf_memory_dealloc
.LBB103_52:
	ldr	r0, [sp, #104]
	bl	tlsf_memory_dealloc
	ldr	r4, [sp, #12]
	ldr	r5, [sp, #116]
	ldr	r7, [sp, #84]
.LBB103_53:
	movs	r1, #5
	mov	r0, r7
	bl	__atomic_load_8
	subs	r4, r4, #1
	bne	.LBB103_53
	ldr	r4, [sp, #88]
.LBB103_55:
	movs	r1, #5
	mov	r0, r7
	bl	__atomic_load_8
	subs	r4, r4, #1
	bne	.LBB103_55
	add	r0, sp, #280
	movs	r1, #88
	movs	r2, #8
	bl	tlsf_memory_alloc
	ldr	r0, [sp, #280]
	lsls	r0, r0, #31
	bne	.LBB103_57
	b	.LBB103_72
.LBB103_57:
	ldr	r0, [sp, #288]
	movs	r1, #80
	ldr	r6, [sp, #24]
	strb	r6, [r0, r1]
	movs	r1, #76
	ldr	r4, [sp, #52]
	strb	r4, [r0, r1]
	movs	r1, #72
	ldr	r2, [sp, #88]
	strb	r2, [r0, r1]
	movs	r1, #64
	ldr	r7, [sp, #112]
	strb	r7, [r0, r1]
	movs	r1, #48
	ldr	r5, [sp, #40]
	strb	r5, [r0, r1]
	ldr	r1, [sp, #36]
	strb	r7, [r0, r1]
	movs	r1, #60
	strb	r4, [r0, r1]
	movs	r1, #56
	str	r1, [sp, #56]
	ldr	r2, [sp, #72]
	strb	r2, [r0, r1]
	movs	r1, #44
	str	r1, [sp, #20]
	strb	r4, [r0, r1]
	movs	r1, #40
	ldr	r2, [sp, #84]
	strb	r2, [r0, r1]
	movs	r2, #84
	ldr	r1, [sp, #28]
	strb	r1, [r0, r2]
	movs	r2, #68
	ldr	r3, [sp, #32]
	strb	r3, [r0, r2]
	movs	r2, #52
	ldr	r1, [sp, #60]
	strb	r1, [r0, r2]
	movs	r1, #36
	str	r1, [sp, #16]
	strb	r3, [r0, r1]
	strb	r4, [r0, #31]
	strb	r4, [r0, #30]
	strb	r4, [r0, #29]
	strb	r5, [r0, #24]
	strb	r4, [r0, #7]
	strb	r4, [r0, #6]
	strb	r4, [r0, #5]
	strb	r4, [r0, #4]
	strb	r4, [r0, #3]
	strb	r4, [r0, #2]
	strb	r4, [r0, #1]
	movs	r1, #1
	str	r1, [sp, #104]
	strb	r1, [r0]
	strb	r4, [r0, #23]
	strb	r4, [r0, #22]
	strb	r4, [r0, #21]
	strb	r4, [r0, #20]
	ldr	r1, [sp, #72]
	strb	r1, [r0, #16]
	strb	r4, [r0, #15]
	strb	r4, [r0, #14]
	strb	r4, [r0, #13]
	strb	r4, [r0, #12]
	ldr	r1, [sp, #84]
	strb	r1, [r0, #8]
	mov	r2, r0
	adds	r2, #80
	lsrs	r3, r6, #24
	strb	r3, [r2, #3]
	lsrs	r3, r6, #16
	strb	r3, [r2, #2]
	lsrs	r3, r6, #8
	strb	r3, [r2, #1]
	mov	r2, r0
	adds	r2, #76
	strb	r4, [r2, #3]
	strb	r4, [r2, #2]
	strb	r4, [r2, #1]
	mov	r2, r0
	adds	r2, #72
	ldr	r1, [sp, #88]
	lsrs	r3, r1, #24
	strb	r3, [r2, #3]
	lsrs	r3, r1, #16
	strb	r3, [r2, #2]
	lsrs	r3, r1, #8
	strb	r3, [r2, #1]
	mov	r5, r0
	adds	r5, #64
	lsrs	r1, r7, #24
	str	r1, [sp, #100]
	strb	r1, [r5, #3]
	lsrs	r1, r7, #16
	str	r1, [sp, #96]
	strb	r1, [r5, #2]
	lsrs	r2, r7, #8
	strb	r2, [r5, #1]
	mov	r5, r0
	adds	r5, #52
	strb	r4, [r5, #3]
	strb	r4, [r5, #2]
	strb	r4, [r5, #1]
	mov	r5, r0
	adds	r5, #48
	ldr	r1, [sp, #40]
	lsrs	r6, r1, #24
	strb	r6, [r5, #3]
	lsrs	r7, r1, #16
	strb	r7, [r5, #2]
	lsrs	r1, r1, #8
	strb	r1, [r5, #1]
	mov	r5, r0
	adds	r5, #32
	ldr	r3, [sp, #100]
	strb	r3, [r5, #3]
	ldr	r3, [sp, #96]
	strb	r3, [r5, #2]
	strb	r2, [r5, #1]
	ldr	r2, [sp, #60]
	strb	r2, [r0, #28]
	strb	r6, [r0, #27]
	strb	r7, [r0, #26]
	strb	r1, [r0, #25]
	mov	r1, r0
	adds	r1, #60
	strb	r4, [r1, #3]
	strb	r4, [r1, #2]
	strb	r4, [r1, #1]
	mov	r1, r0
	adds	r1, #56
	ldr	r2, [sp, #72]
	lsrs	r3, r2, #24
	str	r3, [sp, #112]
	strb	r3, [r1, #3]
	lsrs	r3, r2, #16
	str	r3, [sp, #100]
	strb	r3, [r1, #2]
	lsrs	r3, r2, #8
	strb	r3, [r1, #1]
	mov	r1, r0
	adds	r1, #44
	strb	r4, [r1, #3]
	strb	r4, [r1, #2]
	strb	r4, [r1, #1]
	mov	r1, r0
	adds	r1, #40
	ldr	r7, [sp, #84]
	lsrs	r5, r7, #24
	strb	r5, [r1, #3]
	lsrs	r6, r7, #16
	strb	r6, [r1, #2]
	lsrs	r2, r7, #8
	strb	r2, [r1, #1]
	ldr	r1, [sp, #112]
	strb	r1, [r0, #19]
	ldr	r1, [sp, #100]
	strb	r1, [r0, #18]
	strb	r3, [r0, #17]
	strb	r5, [r0, #11]
	strb	r6, [r0, #10]
	strb	r2, [r0, #9]
	mov	r1, r0
	adds	r1, #84
	ldr	r3, [sp, #28]
	lsrs	r2, r3, #24
	strb	r2, [r1, #3]
	lsrs	r2, r3, #16
	strb	r2, [r1, #2]
	lsrs	r2, r3, #8
	strb	r2, [r1, #1]
	mov	r1, r0
	adds	r1, #68
	ldr	r5, [sp, #32]
	lsrs	r2, r5, #24
	strb	r2, [r1, #3]
	lsrs	r3, r5, #16
	strb	r3, [r1, #2]
	lsrs	r5, r5, #8
	strb	r5, [r1, #1]
	mov	r1, r0
	adds	r1, #36
	strb	r2, [r1, #3]
	strb	r3, [r1, #2]
	strb	r5, [r1, #1]
	str	r4, [sp, #148]
	str	r0, [sp, #144]
	movs	r1, #5
	mov	r0, r7
	str	r1, [sp, #100]
	bl	__atomic_load_8
	add	r0, sp, #144
	add	r3, sp, #152
	ldr	r1, [sp, #104]
	ldr	r2, [sp, #12]
	bl	tlsf_post.mailboxes.send_out
	uxtb	r0, r0
	cmp	r0, #0
	bne	.LBB103_58
	b	.LBB103_86
.LBB103_58:
	ldr	r0, [sp, #144]
	bl	std_alloc.arc.Arc.drop.f29941b0e8355977
	ldr	r5, [sp, #116]
	b	.LBB103_77
.LBB103_59:
	ldr	r0, [sp, #84]
	bl	tlsf_memory_dealloc
.LBB103_60:
	ldr	r5, [sp, #116]
	ldr	r3, [sp, #112]
	ldr	r4, [sp, #32]
.LBB103_61:
	mov	r0, r3
	orrs	r0, r4
	beq	.LBB103_70
	subs	r0, r3, #1
	mov	r1, r4
	sbcs	r1, r7
	lsls	r2, r0, #5
	ldr	r6, [sp, #96]
	ldrb	r2, [r6, r2]
	cmp	r2, #0
	bne	.LBB103_69
	orrs	r0, r1
	beq	.LBB103_70
	subs	r0, r3, #2
	mov	r1, r4
	sbcs	r1, r7
	lsls	r2, r0, #5
	ldr	r6, [sp, #96]
	ldrb	r2, [r6, r2]
	cmp	r2, #0
	bne	.LBB103_69
	orrs	r0, r1
	beq	.LBB103_70
	subs	r0, r3, #3
	mov	r1, r4
	sbcs	r1, r7
	lsls	r2, r0, #5
	ldr	r6, [sp, #96]
	ldrb	r2, [r6, r2]
	cmp	r2, #0
	bne	.LBB103_69
	orrs	r0, r1
	beq	.LBB103_70
	subs	r3, r3, #4
	sbcs	r4, r7
	lsls	r0, r3, #5
	ldr	r1, [sp, #96]
	ldrb	r0, [r1, r0]
	cmp	r0, #0
	beq	.LBB103_61
.LBB103_69:
	.inst.n	0xdefe
.LBB103_70:
	ldr	r0, [sp, #20]
	ldr	r1, [sp, #16]
	orrs	r0, r1
	ldr	r0, [sp, #104]
	beq	.LBB103_76
	mov	r4, r0
	ldr	r0, [sp, #96]
	bl	tlsf_memory_dealloc
	mov	r0, r4
	b	.LBB103_76
.LBB103_72:
	ldr	r0, [sp, #84]
	bl	tlsf_memory_dealloc
	ldr	r0, [sp, #72]
	b	.LBB103_76
.LBB103_73:
	ldr	r1, [sp, #112]
	orrs	r2, r1
	ldr	r5, [sp, #116]
	beq	.LBB103_75
	bl	tlsf_memory_dealloc
.LBB103_75:
	ldr	r0, [sp, #104]
.LBB103_76:
	bl	tlsf_memory_dealloc
.LBB103_77:
	ldr	r1, [sp, #164]
	ldr	r0, [sp, #160]
	str	r0, [sp, #100]
	str	r1, [sp, #104]
	orrs	r0, r1
	ldr	r0, [sp, #172]
	str	r0, [sp, #68]
	ldr	r0, [sp, #168]
	str	r0, [sp, #64]
	ldr	r0, [sp, #152]
	str	r0, [sp, #112]
	beq	.LBB103_82
	mov	r4, r5
	b	.LBB103_80
.LBB103_79:
	adds	r4, r4, #1
	ldr	r5, [sp, #116]
	adcs	r5, r6
	ldr	r0, [sp, #100]
	subs	r0, r4, r0
	mov	r0, r5
	ldr	r1, [sp, #104]
	sbcs	r0, r1
	bhs	.LBB103_82
.LBB103_80:
	str	r5, [sp, #116]
	lsls	r0, r4, #4
	ldr	r5, [sp, #112]
	adds	r1, r5, r0
	ldrb	r2, [r1, #3]
	ldrb	r3, [r1, #2]
	ldrb	r0, [r5, r0]
	ldrb	r1, [r1, #1]
	movs	r5, #5
	str	r5, [sp]
	lsls	r1, r1, #8
	adds	r0, r1, r0
	lsls	r1, r3, #16
	lsls	r2, r2, #24
	adds	r1, r2, r1
	adds	r7, r1, r0
	movs	r6, #0
	mov	r0, r7
	ldr	r5, [sp, #108]
	mov	r2, r5
	mov	r3, r6
	bl	__atomic_fetch_sub_8
	eors	r0, r5
	orrs	r0, r1
	bne	.LBB103_79
	movs	r0, #56
	ldrb	r0, [r7, r0]
	str	r0, [sp, #96]
	movs	r0, #40
	ldrb	r0, [r7, r0]
	str	r0, [sp, #80]
	mov	r0, r7
	adds	r0, #56
	ldrb	r1, [r0, #3]
	str	r1, [sp, #92]
	ldrb	r1, [r0, #2]
	str	r1, [sp, #88]
	ldrb	r0, [r0, #1]
	str	r0, [sp, #84]
	mov	r0, r7
	adds	r0, #40
	ldrb	r1, [r0, #3]
	str	r1, [sp, #76]
	ldrb	r1, [r0, #2]
	str	r1, [sp, #72]
	ldrb	r5, [r0, #1]
	mov	r0, r7
	bl	tlsf_memory_dealloc
	lsls	r0, r5, #8
	ldr	r1, [sp, #80]
	adds	r0, r0, r1
	ldr	r1, [sp, #72]
	lsls	r1, r1, #16
	ldr	r2, [sp, #76]
	lsls	r2, r2, #24
	adds	r1, r2, r1
	adds	r0, r1, r0
	bl	tlsf_memory_dealloc
	ldr	r0, [sp, #84]
	lsls	r0, r0, #8
	ldr	r1, [sp, #96]
	adds	r0, r0, r1
	ldr	r1, [sp, #88]
	lsls	r1, r1, #16
	ldr	r2, [sp, #92]
	lsls	r2, r2, #24
	adds	r1, r2, r1
	adds	r0, r1, r0
	bl	tlsf_memory_dealloc
	b	.LBB103_79
.LBB103_82:
	ldr	r0, [sp, #68]
	ldr	r1, [sp, #64]
	orrs	r1, r0
	beq	.LBB103_84
	ldr	r0, [sp, #112]
	bl	tlsf_memory_dealloc
.LBB103_84:
	movs	r0, #6
.LBB103_85:
	add	sp, #332
	pop	{r4, r5, r6, r7, pc}
.LBB103_86:
	ldr	r0, [sp, #172]
	str	r0, [sp, #32]
	ldr	r0, [sp, #168]
	str	r0, [sp, #24]
	ldr	r0, [sp, #148]
	str	r0, [sp, #12]
	ldr	r0, [sp, #144]
	str	r0, [sp, #28]
	ldr	r0, [sp, #152]
	str	r0, [sp, #112]
	ldr	r6, [sp, #164]
	ldr	r7, [sp, #160]
	add	r0, sp, #192
	movs	r4, #0
	movs	r5, #40
	mov	r1, r4
	mov	r2, r5
	bl	tlsf_memory_set
	add	r0, sp, #152
	mov	r1, r4
	str	r5, [sp, #60]
	mov	r2, r5
	bl	tlsf_memory_set
	ldr	r3, [sp, #32]
	mov	r2, r7
	mov	r0, r7
	orrs	r0, r6
	add	r5, sp, #328
	cmp	r0, #0
	bne	.LBB103_87
	b	.LBB103_96
.LBB103_87:
	lsrs	r0, r6, #28
	str	r6, [sp, #108]
	str	r2, [sp, #96]
	beq	.LBB103_88
	b	.LBB103_98
.LBB103_88:
	lsrs	r0, r2, #29
	lsls	r1, r6, #3
	movs	r7, #0
	adds	r0, r1, r0
	beq	.LBB103_90
	mvns	r1, r7
	b	.LBB103_91
.LBB103_90:
	lsls	r1, r2, #3
.LBB103_91:
	add	r0, sp, #280
	movs	r2, #8
	bl	tlsf_memory_alloc
	ldr	r0, [sp, #280]
	lsls	r0, r0, #31
	ldr	r0, [sp, #96]
	bne	.LBB103_92
	b	.LBB103_98
.LBB103_92:
	ldr	r5, [sp, #288]
	mov	r2, r7
	str	r7, [sp, #40]
	str	r0, [sp, #80]
	str	r6, [sp, #88]
	str	r7, [sp, #44]
	str	r7, [sp, #84]
	str	r5, [sp, #48]
.LBB103_93:
	str	r2, [sp, #116]
	lsls	r0, r2, #4
	ldr	r2, [sp, #112]
	adds	r1, r2, r0
	ldrb	r4, [r1, #3]
	str	r4, [sp, #76]
	ldrb	r3, [r1, #2]
	str	r3, [sp, #72]
	ldrb	r0, [r2, r0]
	str	r0, [sp, #68]
	ldrb	r5, [r1, #1]
	ldrb	r0, [r1, #11]
	str	r0, [sp, #52]
	ldrb	r6, [r1, #10]
	ldrb	r7, [r1, #8]
	ldrb	r4, [r1, #9]
	add	r0, sp, #280
	movs	r1, #48
	movs	r2, #8
	bl	tlsf_memory_alloc
	lsls	r0, r5, #8
	ldr	r1, [sp, #68]
	adds	r0, r0, r1
	ldr	r1, [sp, #72]
	lsls	r1, r1, #16
	ldr	r2, [sp, #76]
	lsls	r2, r2, #24
	adds	r1, r2, r1
	adds	r5, r1, r0
	ldr	r0, [sp, #80]
	subs	r0, r0, #1
	str	r0, [sp, #80]
	ldr	r0, [sp, #40]
	ldr	r1, [sp, #88]
	sbcs	r1, r0
	str	r1, [sp, #88]
	ldr	r1, [sp, #116]
	adds	r3, r1, #1
	ldr	r1, [sp, #84]
	adcs	r1, r0
	str	r1, [sp, #84]
	ldr	r0, [sp, #280]
	lsls	r0, r0, #31
	bne	.LBB103_94
	b	.LBB103_105
.LBB103_94:
	lsls	r0, r4, #8
	adds	r0, r0, r7
	lsls	r1, r6, #16
	ldr	r2, [sp, #52]
	lsls	r2, r2, #24
	adds	r1, r2, r1
	adds	r0, r1, r0
	ldr	r4, [sp, #288]
	movs	r6, #0
	strb	r6, [r4, #23]
	strb	r6, [r4, #22]
	strb	r6, [r4, #21]
	strb	r6, [r4, #20]
	strb	r0, [r4, #16]
	strb	r6, [r4, #15]
	strb	r6, [r4, #14]
	strb	r6, [r4, #13]
	strb	r6, [r4, #12]
	strb	r5, [r4, #8]
	ldr	r1, [sp, #104]
	strb	r1, [r4, #1]
	ldr	r1, [sp, #92]
	strb	r1, [r4]
	lsrs	r1, r0, #24
	strb	r1, [r4, #19]
	lsrs	r1, r0, #16
	strb	r1, [r4, #18]
	lsrs	r0, r0, #8
	strb	r0, [r4, #17]
	lsrs	r0, r5, #24
	strb	r0, [r4, #11]
	lsrs	r0, r5, #16
	strb	r0, [r4, #10]
	lsrs	r0, r5, #8
	strb	r0, [r4, #9]
	mov	r0, r4
	adds	r0, #24
	movs	r2, #24
	mov	r1, r6
	mov	r7, r3
	bl	tlsf_memory_set
	ldr	r0, [sp, #116]
	lsls	r0, r0, #3
	ldr	r5, [sp, #48]
	strb	r4, [r5, r0]
	adds	r0, r5, r0
	strb	r6, [r0, #7]
	strb	r6, [r0, #6]
	strb	r6, [r0, #5]
	strb	r6, [r0, #4]
	lsrs	r1, r4, #24
	strb	r1, [r0, #3]
	lsrs	r1, r4, #16
	strb	r1, [r0, #2]
	lsrs	r1, r4, #8
	strb	r1, [r0, #1]
	ldr	r0, [sp, #80]
	ldr	r1, [sp, #88]
	orrs	r0, r1
	mov	r2, r7
	ldr	r0, [sp, #84]
	str	r0, [sp, #44]
	bne	.LBB103_93
	ldr	r6, [sp, #108]
	ldr	r3, [sp, #32]
	ldr	r2, [sp, #96]
.LBB103_96:
	movs	r0, #0
	str	r0, [sp, #188]
	str	r0, [sp, #184]
	str	r2, [sp, #176]
	ldr	r1, [sp, #24]
	str	r1, [sp, #168]
	str	r0, [sp, #164]
	str	r0, [sp, #160]
	mov	r4, r0
	str	r0, [sp, #156]
	ldr	r0, [sp, #112]
	str	r0, [sp, #152]
	str	r6, [sp, #180]
	str	r3, [sp, #172]
	add	r0, sp, #152
	mov	r7, r2
	bl	std_alloc.vec.deque.VecDeque.drop.ca3d8856d46a41b8
	add	r0, sp, #280
	movs	r1, #48
	movs	r2, #8
	bl	tlsf_memory_alloc
	ldr	r0, [sp, #280]
	lsls	r0, r0, #31
	bne	.LBB103_97
	b	.LBB103_104
.LBB103_97:
	ldr	r1, [sp, #288]
	ldr	r0, [sp, #60]
	strb	r7, [r1, r0]
	ldr	r0, [sp, #36]
	strb	r7, [r1, r0]
	ldr	r0, [sp, #20]
	strb	r6, [r1, r0]
	ldr	r0, [sp, #16]
	strb	r6, [r1, r0]
	mov	r0, r4
	strb	r4, [r1, #31]
	strb	r4, [r1, #30]
	strb	r4, [r1, #29]
	strb	r4, [r1, #28]
	strb	r5, [r1, #24]
	strb	r4, [r1, #23]
	strb	r4, [r1, #22]
	strb	r4, [r1, #21]
	strb	r4, [r1, #20]
	strb	r4, [r1, #19]
	strb	r4, [r1, #18]
	strb	r4, [r1, #17]
	strb	r4, [r1, #16]
	ldr	r3, [sp, #12]
	strb	r3, [r1, #12]
	ldr	r2, [sp, #28]
	strb	r2, [r1, #8]
	str	r6, [sp, #108]
	ldr	r2, [sp, #104]
	strb	r2, [r1, #1]
	movs	r2, #2
	strb	r2, [r1]
	mov	r2, r1
	adds	r2, #40
	lsrs	r6, r7, #24
	strb	r6, [r2, #3]
	lsrs	r4, r7, #16
	strb	r4, [r2, #2]
	lsrs	r7, r7, #8
	strb	r7, [r2, #1]
	mov	r2, r1
	adds	r2, #32
	strb	r6, [r2, #3]
	strb	r4, [r2, #2]
	strb	r7, [r2, #1]
	lsrs	r2, r5, #24
	strb	r2, [r1, #27]
	lsrs	r2, r5, #16
	strb	r2, [r1, #26]
	lsrs	r2, r5, #8
	strb	r2, [r1, #25]
	lsrs	r2, r3, #24
	strb	r2, [r1, #15]
	lsrs	r2, r3, #16
	strb	r2, [r1, #14]
	lsrs	r2, r3, #8
	strb	r2, [r1, #13]
	ldr	r3, [sp, #28]
	lsrs	r2, r3, #24
	strb	r2, [r1, #11]
	lsrs	r2, r3, #16
	strb	r2, [r1, #10]
	lsrs	r2, r3, #8
	strb	r2, [r1, #9]
	mov	r2, r1
	adds	r2, #44
	ldr	r5, [sp, #108]
	lsrs	r3, r5, #24
	strb	r3, [r2, #3]
	lsrs	r4, r5, #16
	strb	r4, [r2, #2]
	lsrs	r5, r5, #8
	strb	r5, [r2, #1]
	mov	r2, r1
	adds	r2, #36
	strb	r3, [r2, #3]
	strb	r4, [r2, #2]
	strb	r5, [r2, #1]
	ldr	r2, [sp, #64]
	strb	r0, [r2, #9]
	strb	r0, [r2, #15]
	strb	r0, [r2, #14]
	strb	r0, [r2, #13]
	strb	r0, [r2, #12]
	strb	r0, [r2, #11]
	strb	r0, [r2, #10]
	strb	r0, [r2, #7]
	strb	r0, [r2, #6]
	strb	r0, [r2, #5]
	strb	r0, [r2, #4]
	lsrs	r3, r1, #24
	strb	r3, [r2, #3]
	lsrs	r3, r1, #16
	strb	r3, [r2, #2]
	lsrs	r3, r1, #8
	strb	r3, [r2, #1]
	strb	r1, [r2]
	ldr	r1, [sp, #104]
	strb	r1, [r2, #8]
	add	sp, #332
	pop	{r4, r5, r6, r7, pc}
.LBB103_98:
	mov	r5, r4
	b	.LBB103_100
.LBB103_99:
	adds	r5, r5, #1
	ldr	r0, [sp, #116]
	adcs	r4, r0
	ldr	r0, [sp, #96]
	subs	r0, r5, r0
	mov	r0, r4
	ldr	r1, [sp, #108]
	sbcs	r0, r1
	bhs	.LBB103_102
.LBB103_100:
	lsls	r0, r5, #4
	ldr	r6, [sp, #112]
	adds	r1, r6, r0
	ldrb	r2, [r1, #3]
	ldrb	r3, [r1, #2]
	ldrb	r0, [r6, r0]
	ldrb	r1, [r1, #1]
	ldr	r6, [sp, #100]
	str	r6, [sp]
	lsls	r1, r1, #8
	adds	r0, r1, r0
	lsls	r1, r3, #16
	lsls	r2, r2, #24
	adds	r1, r2, r1
	adds	r7, r1, r0
	movs	r3, #0
	mov	r0, r7
	ldr	r6, [sp, #104]
	mov	r2, r6
	str	r3, [sp, #116]
	bl	__atomic_fetch_sub_8
	eors	r0, r6
	orrs	r0, r1
	bne	.LBB103_99
	ldr	r0, [sp, #56]
	ldrb	r6, [r7, r0]
	ldr	r0, [sp, #60]
	ldrb	r0, [r7, r0]
	str	r0, [sp, #80]
	mov	r0, r7
	adds	r0, #56
	ldrb	r1, [r0, #3]
	str	r1, [sp, #92]
	ldrb	r1, [r0, #2]
	str	r1, [sp, #88]
	ldrb	r0, [r0, #1]
	str	r0, [sp, #84]
	mov	r0, r7
	adds	r0, #40
	ldrb	r1, [r0, #3]
	str	r1, [sp, #76]
	ldrb	r1, [r0, #2]
	str	r1, [sp, #72]
	ldrb	r0, [r0, #1]
	str	r0, [sp, #68]
	mov	r0, r7
	bl	tlsf_memory_dealloc
	ldr	r0, [sp, #68]
	lsls	r0, r0, #8
	ldr	r1, [sp, #80]
	adds	r0, r0, r1
	ldr	r1, [sp, #72]
	lsls	r1, r1, #16
	ldr	r2, [sp, #76]
	lsls	r2, r2, #24
	adds	r1, r2, r1
	adds	r0, r1, r0
	bl	tlsf_memory_dealloc
	ldr	r0, [sp, #84]
	lsls	r0, r0, #8
	adds	r0, r0, r6
	ldr	r1, [sp, #88]
	lsls	r1, r1, #16
	ldr	r2, [sp, #92]
	lsls	r2, r2, #24
	adds	r1, r2, r1
	adds	r0, r1, r0
	bl	tlsf_memory_dealloc
	b	.LBB103_99
.LBB103_102:
	ldr	r0, [sp, #32]
	ldr	r1, [sp, #24]
	orrs	r1, r0
	beq	.LBB103_103
	b	.LBB103_111
.LBB103_103:
	b	.LBB103_112
.LBB103_104:
	ldr	r0, [sp, #28]
	bl	std_alloc.arc.Arc.drop.c4a047e811255370
	str	r6, [sp, #140]
	str	r7, [sp, #136]
	str	r6, [sp, #132]
	str	r7, [sp, #128]
	str	r4, [sp, #124]
	str	r5, [sp, #120]
	add	r0, sp, #120
	bl	std_alloc.vec.Vec.drop.7ac45d8413b9ad54
	b	.LBB103_84
.LBB103_105:
	str	r3, [sp, #108]
	ldr	r0, [sp, #100]
	str	r0, [sp]
	movs	r3, #0
	mov	r0, r5
	ldr	r4, [sp, #104]
	mov	r2, r4
	str	r3, [sp, #76]
	bl	__atomic_fetch_sub_8
	eors	r0, r4
	orrs	r0, r1
	bne	.LBB103_107
	ldr	r0, [sp, #56]
	ldrb	r0, [r5, r0]
	str	r0, [sp, #96]
	ldr	r0, [sp, #60]
	ldrb	r0, [r5, r0]
	str	r0, [sp, #64]
	mov	r0, r5
	adds	r0, #56
	ldrb	r1, [r0, #3]
	str	r1, [sp, #92]
	ldrb	r1, [r0, #2]
	str	r1, [sp, #72]
	ldrb	r0, [r0, #1]
	str	r0, [sp, #68]
	mov	r0, r5
	adds	r0, #40
	ldrb	r7, [r0, #3]
	ldrb	r4, [r0, #2]
	ldrb	r6, [r0, #1]
	mov	r0, r5
	bl	tlsf_memory_dealloc
	lsls	r0, r6, #8
	ldr	r1, [sp, #64]
	adds	r0, r0, r1
	lsls	r1, r4, #16
	lsls	r2, r7, #24
	adds	r1, r2, r1
	adds	r0, r1, r0
	bl	tlsf_memory_dealloc
	ldr	r0, [sp, #68]
	lsls	r0, r0, #8
	ldr	r1, [sp, #96]
	adds	r0, r0, r1
	ldr	r1, [sp, #72]
	lsls	r1, r1, #16
	ldr	r2, [sp, #92]
	lsls	r2, r2, #24
	adds	r1, r2, r1
	adds	r0, r1, r0
	bl	tlsf_memory_dealloc
.LBB103_107:
	ldr	r5, [sp, #76]
	str	r5, [sp, #228]
	str	r5, [sp, #224]
	ldr	r0, [sp, #108]
	str	r0, [sp, #216]
	ldr	r0, [sp, #24]
	str	r0, [sp, #208]
	ldr	r0, [sp, #80]
	str	r0, [sp, #200]
	str	r5, [sp, #196]
	ldr	r0, [sp, #112]
	str	r0, [sp, #192]
	ldr	r0, [sp, #84]
	str	r0, [sp, #220]
	ldr	r0, [sp, #32]
	str	r0, [sp, #212]
	ldr	r0, [sp, #88]
	str	r0, [sp, #204]
	add	r0, sp, #192
	bl	std_alloc.vec.deque.VecDeque.drop.ca3d8856d46a41b8
	ldr	r0, [sp, #116]
	ldr	r1, [sp, #44]
	orrs	r0, r1
	beq	.LBB103_110
	add	r0, sp, #280
	adds	r0, #8
	str	r0, [sp, #88]
	add	r0, sp, #232
	adds	r0, r0, #6
	str	r0, [sp, #112]
	mov	r4, r5
	ldr	r6, [sp, #76]
.LBB103_109:
	lsls	r0, r4, #3
	ldr	r2, [sp, #48]
	ldrb	r1, [r2, r0]
	adds	r0, r2, r0
	ldrb	r2, [r0, #1]
	lsls	r2, r2, #8
	adds	r1, r2, r1
	ldrb	r2, [r0, #2]
	lsls	r2, r2, #16
	ldrb	r0, [r0, #3]
	lsls	r0, r0, #24
	adds	r0, r0, r2
	adds	r7, r0, r1
	ldrb	r0, [r7]
	str	r0, [sp, #108]
	ldrb	r0, [r7, #1]
	str	r0, [sp, #96]
	mov	r1, r7
	adds	r1, #8
	movs	r2, #40
	str	r2, [sp, #92]
	ldr	r0, [sp, #112]
	bl	tlsf_memory_cpy
	mov	r0, r7
	bl	tlsf_memory_dealloc
	str	r6, [sp, #280]
	add	r7, sp, #280
	ldr	r0, [sp, #96]
	strb	r0, [r7, #1]
	ldr	r0, [sp, #108]
	strb	r0, [r7]
	str	r6, [sp, #284]
	ldr	r0, [sp, #88]
	ldr	r1, [sp, #112]
	ldr	r2, [sp, #92]
	bl	tlsf_memory_cpy
	mov	r0, r7
	bl	tlsf_c.tlsf_c.any_end.AnyEnd.Destruct.drop
	adds	r4, r4, #1
	adcs	r5, r6
	ldr	r0, [sp, #116]
	subs	r0, r4, r0
	mov	r0, r5
	ldr	r1, [sp, #44]
	sbcs	r0, r1
	blo	.LBB103_109
.LBB103_110:
	ldr	r0, [sp, #48]
	str	r0, [sp, #112]
.LBB103_111:
	ldr	r0, [sp, #112]
	bl	tlsf_memory_dealloc
.LBB103_112:
	ldr	r0, [sp, #100]
	str	r0, [sp]
	movs	r3, #0
	ldr	r7, [sp, #28]
	mov	r0, r7
	ldr	r4, [sp, #104]
	mov	r2, r4
	bl	__atomic_fetch_sub_8
	mov	r2, r0
	eors	r2, r4
	orrs	r2, r1
	movs	r0, #6
	cmp	r2, #0
	beq	.LBB103_113
	b	.LBB103_85
.LBB103_113:
	ldr	r1, [sp, #56]
	ldrb	r1, [r7, r1]
	str	r1, [sp, #112]
	ldr	r1, [sp, #60]
	ldrb	r5, [r7, r1]
	mov	r1, r7
	adds	r1, #56
	ldrb	r2, [r1, #3]
	str	r2, [sp, #108]
	ldrb	r2, [r1, #2]
	str	r2, [sp, #104]
	ldrb	r1, [r1, #1]
	str	r1, [sp, #100]
	mov	r1, r7
	adds	r1, #40
	ldrb	r6, [r1, #3]
	mov	r2, r7
	ldrb	r7, [r1, #2]
	ldrb	r4, [r1, #1]
	str	r0, [sp, #116]
	mov	r0, r2
	bl	tlsf_memory_dealloc
	lsls	r0, r4, #8
	adds	r0, r0, r5
	lsls	r1, r7, #16
	lsls	r2, r6, #24
	adds	r1, r2, r1
	adds	r0, r1, r0
	bl	tlsf_memory_dealloc
	ldr	r0, [sp, #100]
	lsls	r0, r0, #8
	ldr	r1, [sp, #112]
	adds	r0, r0, r1
	ldr	r1, [sp, #104]
	lsls	r1, r1, #16
	ldr	r2, [sp, #108]
	lsls	r2, r2, #24
	adds	r1, r2, r1
	adds	r0, r1, r0
	bl	tlsf_memory_dealloc
	ldr	r0, [sp, #116]
	add	sp, #332
	pop	{r4, r5, r6, r7, pc}
.Lfunc_end103:
	.size	tlsf_queue_open, .Lfunc_end103-tlsf_queue_open
	.cfi_endproc
	.section	.text.tlsf_queue_post,"ax",%progbits
	.globl	tlsf_queue_post
	.p2align	1
	.type	tlsf_queue_post,%function
	.code	16
	.thumb_func
tlsf_queue_post:
	.cfi_startproc
	push	{r4, r5, r6, r7, lr}
	.cfi_def_cfa_offset 20
	.cfi_offset lr, -4
	.cfi_offset r7, -8
	.cfi_offset r6, -12
	.cfi_offset r5, -16
	.cfi_offset r4, -20
	sub	sp, #68
	.cfi_def_cfa_offset 88
	ldrb	r1, [r0, #8]
	cmp	r1, #0
	bne	.LBB104_1
	b	.LBB104_15
.LBB104_1:
	ldr	r1, [r0]
	ldrb	r0, [r1, #1]
	cmp	r0, #0
	bne	.LBB104_2
	b	.LBB104_15
.LBB104_2:
	ldrb	r0, [r1]
	cmp	r0, #3
	beq	.LBB104_3
	b	.LBB104_16
.LBB104_3:
	str	r3, [sp, #28]
	str	r2, [sp, #32]
	movs	r6, #0
	strb	r6, [r1, #1]
	ldr	r0, [r1, #16]
	str	r0, [sp, #24]
	str	r1, [sp, #52]
	ldr	r5, [r1, #8]
	ldr	r0, [r5, #8]
	adds	r0, #128
	movs	r4, #5
	mov	r1, r4
	bl	__atomic_load_8
	str	r1, [sp, #44]
	ldr	r1, [r5, #80]
	ldr	r7, [r5, #84]
	subs	r1, r1, #1
	str	r6, [sp, #40]
	sbcs	r7, r6
	ands	r1, r0
	mov	r6, r0
	str	r1, [sp, #36]
	lsls	r1, r1, #3
	str	r5, [sp, #48]
	ldr	r0, [r5, #8]
	str	r1, [sp, #12]
	adds	r0, r0, r1
	movs	r1, #3
	lsls	r1, r1, #7
	str	r1, [sp, #8]
	adds	r0, r0, r1
	mov	r5, r4
	mov	r1, r4
	bl	__atomic_load_8
	ldr	r4, [sp, #44]
	lsrs	r2, r4, #30
	cmp	r2, #2
	bhi	.LBB104_11
	eors	r0, r6
	eors	r1, r4
	orrs	r1, r0
	bne	.LBB104_11
	str	r5, [sp, #20]
	str	r6, [sp, #16]
	ands	r7, r4
	ldr	r6, [sp, #36]
	adds	r0, r6, #1
	mov	r1, r7
	ldr	r2, [sp, #40]
	adcs	r1, r2
	ldr	r3, [sp, #48]
	ldr	r2, [r3, #72]
	ldr	r3, [r3, #76]
	subs	r0, r0, r2
	sbcs	r1, r3
	bhs	.LBB104_7
	movs	r3, #0
	ldr	r1, [sp, #16]
	adds	r2, r1, #1
	adcs	r3, r4
	b	.LBB104_8
.LBB104_7:
	ldr	r0, [sp, #16]
	subs	r5, r0, r6
	mov	r1, r4
	sbcs	r1, r7
	ldr	r3, [sp, #48]
	ldr	r2, [r3, #80]
	ldr	r3, [r3, #84]
	adds	r2, r5, r2
	adcs	r3, r1
	mov	r1, r0
.LBB104_8:
	ldr	r0, [sp, #48]
	ldr	r0, [r0, #8]
	str	r4, [sp, #60]
	str	r1, [sp, #56]
	ldr	r1, [sp, #20]
	str	r1, [sp]
	str	r1, [sp, #4]
	adds	r0, #128
	add	r1, sp, #56
	bl	__atomic_compare_exchange_8
	cmp	r0, #0
	beq	.LBB104_11
	ldr	r3, [sp, #92]
	ldr	r2, [sp, #88]
	ldr	r0, [sp, #36]
	lsls	r1, r0, #5
	ldr	r0, [sp, #48]
	ldr	r7, [r0, #16]
	ldrb	r0, [r7, r1]
	movs	r6, #1
	strb	r6, [r7, r1]
	adds	r1, r7, r1
	lsrs	r7, r3, #24
	strb	r7, [r1, #31]
	lsrs	r7, r3, #16
	strb	r7, [r1, #30]
	lsrs	r7, r3, #8
	strb	r7, [r1, #29]
	strb	r3, [r1, #28]
	lsrs	r3, r2, #24
	strb	r3, [r1, #27]
	lsrs	r3, r2, #16
	strb	r3, [r1, #26]
	lsrs	r3, r2, #8
	strb	r3, [r1, #25]
	strb	r2, [r1, #24]
	ldr	r7, [sp, #40]
	strb	r7, [r1, #7]
	strb	r7, [r1, #6]
	strb	r7, [r1, #5]
	strb	r7, [r1, #4]
	strb	r7, [r1, #2]
	strb	r7, [r1, #3]
	strb	r7, [r1, #1]
	ldr	r3, [sp, #28]
	lsrs	r2, r3, #24
	strb	r2, [r1, #23]
	lsrs	r2, r3, #16
	strb	r2, [r1, #22]
	lsrs	r2, r3, #8
	strb	r2, [r1, #21]
	strb	r3, [r1, #20]
	ldr	r3, [sp, #32]
	lsrs	r2, r3, #24
	strb	r2, [r1, #19]
	lsrs	r2, r3, #16
	strb	r2, [r1, #18]
	lsrs	r2, r3, #8
	strb	r2, [r1, #17]
	strb	r3, [r1, #16]
	strb	r7, [r1, #15]
	strb	r7, [r1, #14]
	strb	r7, [r1, #13]
	strb	r7, [r1, #12]
	ldr	r3, [sp, #24]
	lsrs	r2, r3, #24
	strb	r2, [r1, #11]
	lsrs	r2, r3, #16
	strb	r2, [r1, #10]
	lsrs	r2, r3, #8
	strb	r2, [r1, #9]
	strb	r3, [r1, #8]
	cmp	r0, #0
	bne	.LBB104_20
	ldr	r0, [sp, #48]
	ldr	r0, [r0, #8]
	ldr	r1, [sp, #20]
	str	r1, [sp]
	ldr	r1, [sp, #16]
	adds	r2, r1, #1
	mov	r3, r4
	adcs	r3, r7
	ldr	r1, [sp, #12]
	adds	r0, r0, r1
	ldr	r1, [sp, #8]
	adds	r0, r0, r1
	bl	__atomic_store_8
	ldr	r0, [sp, #52]
	strb	r6, [r0, #1]
	b	.LBB104_19
.LBB104_11:
	ldr	r0, [sp, #52]
	ldr	r7, [r0, #8]
	ldr	r0, [r7, #8]
	adds	r0, #128
	movs	r4, #5
	mov	r1, r4
	bl	__atomic_load_8
	mov	r6, r0
	mov	r5, r1
	movs	r0, #1
	str	r0, [sp, #48]
	lsls	r0, r0, #8
	ldr	r1, [r7, #8]
	adds	r0, r1, r0
	mov	r1, r4
	bl	__atomic_load_8
	ldr	r3, [r7, #80]
	ldr	r2, [r7, #84]
	subs	r4, r6, r3
	mov	r7, r5
	sbcs	r7, r2
	eors	r4, r0
	eors	r7, r1
	movs	r0, #37
	orrs	r7, r4
	beq	.LBB104_13
	mov	r7, r0
	b	.LBB104_14
.LBB104_13:
	movs	r7, #8
.LBB104_14:
	subs	r1, r6, r3
	sbcs	r5, r2
	ldr	r1, [sp, #52]
	ldr	r2, [sp, #48]
	strb	r2, [r1, #1]
	blo	.LBB104_18
	b	.LBB104_19
.LBB104_15:
	movs	r0, #0
	b	.LBB104_17
.LBB104_16:
	movs	r0, #2
.LBB104_17:
	bl	tlsf_c.call_fault.CallFault.refusal
.LBB104_18:
	mov	r7, r0
.LBB104_19:
	mov	r0, r7
	add	sp, #68
	pop	{r4, r5, r6, r7, pc}
.LBB104_20:
	.inst.n	0xdefe
.Lfunc_end104:
	.size	tlsf_queue_post, .Lfunc_end104-tlsf_queue_post
	.cfi_endproc
	.section	.text.tlsf_queue_take,"ax",%progbits
	.globl	tlsf_queue_take
	.p2align	2
	.type	tlsf_queue_take,%function
	.code	16
	.thumb_func
tlsf_queue_take:
	.cfi_startproc
	push	{r4, r5, r6, r7, lr}
	.cfi_def_cfa_offset 20
	.cfi_offset lr, -4
	.cfi_offset r7, -8
	.cfi_offset r6, -12
	.cfi_offset r5, -16
	.cfi_offset r4, -20
	sub	sp, #36
	.cfi_def_cfa_offset 56
	mov	r5, r1
	ldrb	r1, [r0, #8]
	cmp	r1, #0
	beq	.LBB105_8
	ldr	r7, [r0]
	ldrb	r0, [r7, #1]
	cmp	r0, #0
	beq	.LBB105_8
	ldrb	r0, [r7]
	cmp	r0, #2
	bne	.LBB105_9
	movs	r4, #0
	strb	r4, [r7, #1]
	str	r4, [sp, #28]
	str	r4, [sp, #24]
	str	r4, [sp, #20]
	str	r4, [sp, #16]
	str	r4, [sp, #12]
	str	r4, [sp, #8]
	str	r4, [sp, #4]
	str	r4, [sp]
	mov	r1, r7
	adds	r1, #8
	mov	r6, sp
	mov	r0, r6
	bl	tlsf_c.queue_end.take_once
	ldrb	r0, [r6]
	cmp	r0, #0
	beq	.LBB105_5
	mov	r0, sp
	ldrb	r0, [r0, #1]
	lsls	r0, r0, #2
	ldr	r1, .LCPI105_0
	ldr	r4, [r1, r0]
	b	.LBB105_6
.LBB105_5:
	ldr	r2, [sp, #28]
	strb	r2, [r5, #12]
	ldr	r3, [sp, #24]
	strb	r3, [r5, #8]
	ldr	r1, [sp, #20]
	strb	r1, [r5, #4]
	ldr	r0, [sp, #16]
	strb	r0, [r5]
	lsrs	r6, r2, #24
	strb	r6, [r5, #15]
	lsrs	r6, r2, #16
	strb	r6, [r5, #14]
	lsrs	r2, r2, #8
	strb	r2, [r5, #13]
	lsrs	r2, r3, #24
	strb	r2, [r5, #11]
	lsrs	r2, r3, #16
	strb	r2, [r5, #10]
	lsrs	r2, r3, #8
	strb	r2, [r5, #9]
	lsrs	r2, r1, #24
	strb	r2, [r5, #7]
	lsrs	r2, r1, #16
	strb	r2, [r5, #6]
	lsrs	r1, r1, #8
	strb	r1, [r5, #5]
	lsrs	r1, r0, #24
	strb	r1, [r5, #3]
	lsrs	r1, r0, #16
	strb	r1, [r5, #2]
	lsrs	r0, r0, #8
	strb	r0, [r5, #1]
.LBB105_6:
	movs	r0, #1
	strb	r0, [r7, #1]
.LBB105_7:
	mov	r0, r4
	add	sp, #36
	pop	{r4, r5, r6, r7, pc}
.LBB105_8:
	movs	r0, #0
	b	.LBB105_10
.LBB105_9:
	movs	r0, #2
.LBB105_10:
	bl	tlsf_c.call_fault.CallFault.refusal
	mov	r4, r0
	b	.LBB105_7
	.p2align	2
.LCPI105_0:
	.long	.Lswitch.table.tlsf_queue_take
.Lfunc_end105:
	.size	tlsf_queue_take, .Lfunc_end105-tlsf_queue_take
	.cfi_endproc
	.section	.text.tlsf_read,"ax",%progbits
	.globl	tlsf_read
	.p2align	2
	.type	tlsf_read,%function
	.code	16
	.thumb_func
tlsf_read:
	.cfi_startproc
	push	{r4, r5, r6, r7, lr}
	.cfi_def_cfa_offset 20
	.cfi_offset lr, -4
	.cfi_offset r7, -8
	.cfi_offset r6, -12
	.cfi_offset r5, -16
	.cfi_offset r4, -20
	sub	sp, #44
	.cfi_def_cfa_offset 64
	movs	r7, #1
	ldr	r5, [sp, #76]
	cmp	r5, #0
	bne	.LBB106_2
	lsls	r1, r7, #12
	adds	r5, r5, r1
.LBB106_2:
	ldrb	r1, [r0, #8]
	movs	r4, #32
	cmp	r1, #0
	bne	.LBB106_3
	b	.LBB106_28
.LBB106_3:
	ldr	r6, [r0]
	ldrb	r0, [r6]
	cmp	r0, #1
	beq	.LBB106_4
	b	.LBB106_28
.LBB106_4:
	str	r7, [sp, #16]
	ldr	r0, [sp, #68]
	str	r0, [sp, #20]
	ldr	r0, [sp, #64]
	str	r0, [sp, #24]
	ldr	r0, [sp, #80]
	str	r0, [sp, #36]
	ldr	r0, [sp, #72]
	str	r0, [sp, #28]
	movs	r4, #0
	strb	r4, [r6]
	ldr	r1, [r6, #24]
	ldrb	r0, [r6, #16]
	cmp	r0, #0
	str	r4, [sp, #32]
	beq	.LBB106_12
	cmp	r1, r2
	bne	.LBB106_20
	ldr	r0, [r6, #56]
	cmp	r3, r0
	mov	r1, r2
	bhs	.LBB106_20
	movs	r7, #63
	ands	r7, r3
	ldr	r1, [r6, #72]
	lsrs	r0, r3, #6
	lsls	r4, r0, #3
	ldr	r0, [r1, r4]
	adds	r1, r1, r4
	ldr	r1, [r1, #4]
	mov	r4, r2
	mov	r2, r7
	str	r3, [sp, #40]
	bl	__aeabi_llsr
	mov	r2, r4
	ldr	r4, [sp, #32]
	lsls	r0, r0, #31
	mov	r1, r2
	beq	.LBB106_20
	mov	r1, r6
	adds	r1, #48
	ldr	r0, [sp, #40]
	lsls	r7, r0, #3
	str	r1, [sp, #12]
	ldr	r3, [r1]
	ldrb	r1, [r3, r7]
	lsls	r1, r1, #31
	mov	r1, r2
	bne	.LBB106_20
	adds	r0, r3, r7
	ldr	r1, [r0, #8]
	ldr	r3, [r0, #12]
	ldr	r7, [sp, #20]
	eors	r3, r7
	str	r6, [sp, #20]
	ldr	r6, [sp, #24]
	eors	r1, r6
	ldr	r6, [sp, #20]
	orrs	r1, r3
	mov	r1, r2
	bne	.LBB106_20
	ldr	r2, [sp, #28]
	ldr	r1, [sp, #36]
	adds	r1, r1, r2
	mov	r7, r4
	adcs	r7, r4
	ldr	r3, [r0, #16]
	subs	r1, r3, r1
	mov	r1, r4
	sbcs	r1, r7
	bhs	.LBB106_19
	movs	r7, #4
	b	.LBB106_24
.LBB106_12:
	cmp	r1, r2
	bne	.LBB106_22
	ldr	r0, [r6, #56]
	cmp	r3, r0
	mov	r1, r2
	bhs	.LBB106_22
	movs	r7, #63
	ands	r7, r3
	ldr	r1, [r6, #72]
	lsrs	r0, r3, #6
	lsls	r4, r0, #3
	ldr	r0, [r1, r4]
	adds	r1, r1, r4
	ldr	r1, [r1, #4]
	str	r2, [sp, #12]
	mov	r2, r7
	str	r3, [sp, #40]
	bl	__aeabi_llsr
	ldr	r2, [sp, #12]
	lsls	r0, r0, #31
	mov	r1, r2
	beq	.LBB106_22
	mov	r0, r6
	adds	r0, #48
	ldr	r1, [sp, #40]
	lsls	r3, r1, #3
	ldr	r7, [r0]
	ldrb	r1, [r7, r3]
	lsls	r1, r1, #31
	mov	r1, r2
	bne	.LBB106_22
	adds	r3, r7, r3
	ldr	r1, [r3, #8]
	ldr	r4, [r3, #12]
	ldr	r7, [sp, #20]
	eors	r4, r7
	mov	r7, r6
	ldr	r6, [sp, #24]
	eors	r1, r6
	mov	r6, r7
	orrs	r1, r4
	mov	r1, r2
	bne	.LBB106_22
	movs	r7, #0
	ldr	r2, [sp, #36]
	ldr	r1, [sp, #28]
	adds	r1, r2, r1
	mov	r4, r7
	adcs	r4, r7
	ldr	r3, [r3, #16]
	subs	r1, r3, r1
	mov	r1, r7
	sbcs	r1, r4
	bhs	.LBB106_21
	movs	r7, #4
	b	.LBB106_23
.LBB106_19:
	ldr	r0, [sp, #36]
	str	r0, [sp]
	str	r4, [sp, #4]
	ldr	r0, [sp, #12]
	ldr	r1, [sp, #40]
	mov	r3, r5
	bl	tlsf_heap.region.Region.read.5
	mov	r0, r4
	mov	r7, r4
	b	.LBB106_25
.LBB106_20:
	mov	r0, r2
	bl	tlsf_heap.refusal.Refusal.of_name
	mov	r7, r0
	b	.LBB106_24
.LBB106_21:
	str	r2, [sp]
	str	r7, [sp, #4]
	ldr	r1, [sp, #40]
	ldr	r2, [sp, #28]
	mov	r3, r5
	bl	tlsf_heap.region.Region.read.4
	mov	r0, r7
	ldr	r4, [sp, #32]
	b	.LBB106_25
.LBB106_22:
	mov	r0, r2
	bl	tlsf_heap.refusal.Refusal.of_name
	mov	r7, r0
.LBB106_23:
	ldr	r4, [sp, #32]
.LBB106_24:
	ldr	r0, [sp, #16]
.LBB106_25:
	lsls	r0, r0, #31
	beq	.LBB106_27
	uxtb	r0, r7
	lsls	r0, r0, #2
	ldr	r1, .LCPI106_0
	ldr	r4, [r1, r0]
.LBB106_27:
	movs	r0, #1
	strb	r0, [r6]
.LBB106_28:
	mov	r0, r4
	add	sp, #44
	pop	{r4, r5, r6, r7, pc}
	.p2align	2
.LCPI106_0:
	.long	.Lswitch.table.tlsf_write
.Lfunc_end106:
	.size	tlsf_read, .Lfunc_end106-tlsf_read
	.cfi_endproc
	.section	.text.tlsf_reallocate,"ax",%progbits
	.globl	tlsf_reallocate
	.p2align	2
	.type	tlsf_reallocate,%function
	.code	16
	.thumb_func
tlsf_reallocate:
	.cfi_startproc
	push	{r4, r5, r6, r7, lr}
	.cfi_def_cfa_offset 20
	.cfi_offset lr, -4
	.cfi_offset r7, -8
	.cfi_offset r6, -12
	.cfi_offset r5, -16
	.cfi_offset r4, -20
	sub	sp, #156
	.cfi_def_cfa_offset 176
	mov	r5, r0
	ldrb	r3, [r0, #8]
	movs	r0, #32
	cmp	r3, #0
	bne	.LBB107_1
	b	.LBB107_31
.LBB107_1:
	ldr	r4, [r5]
	ldrb	r3, [r4]
	cmp	r3, #1
	beq	.LBB107_2
	b	.LBB107_31
.LBB107_2:
	str	r5, [sp, #108]
	str	r2, [sp, #124]
	movs	r5, #0
	strb	r5, [r4]
	ldrb	r0, [r1, #12]
	ldrb	r2, [r1, #13]
	lsls	r2, r2, #8
	adds	r0, r2, r0
	ldrb	r2, [r1, #14]
	lsls	r2, r2, #16
	ldrb	r3, [r1, #15]
	lsls	r3, r3, #24
	adds	r2, r3, r2
	adds	r0, r2, r0
	str	r0, [sp, #116]
	ldrb	r0, [r1, #8]
	ldrb	r2, [r1, #9]
	lsls	r2, r2, #8
	adds	r0, r2, r0
	ldrb	r2, [r1, #10]
	lsls	r2, r2, #16
	ldrb	r3, [r1, #11]
	lsls	r3, r3, #24
	adds	r2, r3, r2
	adds	r0, r2, r0
	str	r0, [sp, #120]
	ldrb	r0, [r1, #4]
	ldrb	r2, [r1, #5]
	lsls	r2, r2, #8
	adds	r0, r2, r0
	ldrb	r2, [r1, #6]
	lsls	r2, r2, #16
	ldrb	r3, [r1, #7]
	lsls	r3, r3, #24
	adds	r2, r3, r2
	adds	r0, r2, r0
	str	r0, [sp, #132]
	ldrb	r0, [r1]
	ldrb	r2, [r1, #1]
	lsls	r2, r2, #8
	adds	r0, r2, r0
	ldrb	r2, [r1, #2]
	lsls	r2, r2, #16
	str	r1, [sp, #112]
	ldrb	r1, [r1, #3]
	lsls	r1, r1, #24
	adds	r1, r1, r2
	adds	r3, r1, r0
	ldr	r1, [r4, #24]
	mov	r0, r4
	adds	r0, #24
	str	r0, [sp, #104]
	ldrb	r0, [r4, #16]
	cmp	r0, #0
	str	r3, [sp, #128]
	beq	.LBB107_16
	cmp	r3, r1
	beq	.LBB107_4
	b	.LBB107_29
.LBB107_4:
	ldr	r0, [r4, #56]
	ldr	r1, [sp, #132]
	cmp	r1, r0
	mov	r1, r3
	blo	.LBB107_5
	b	.LBB107_29
.LBB107_5:
	movs	r1, #63
	ldr	r0, [sp, #132]
	mov	r2, r0
	str	r1, [sp, #80]
	ands	r2, r1
	ldr	r1, [r4, #72]
	lsrs	r0, r0, #6
	lsls	r3, r0, #3
	ldr	r0, [r1, r3]
	adds	r1, r1, r3
	ldr	r1, [r1, #4]
	bl	__aeabi_llsr
	ldr	r3, [sp, #128]
	lsls	r0, r0, #31
	mov	r1, r3
	bne	.LBB107_6
	b	.LBB107_29
.LBB107_6:
	mov	r1, r4
	adds	r1, #48
	ldr	r0, [sp, #132]
	lsls	r2, r0, #3
	str	r1, [sp, #100]
	ldr	r7, [r1]
	ldr	r6, [r7, r2]
	lsls	r0, r6, #31
	mov	r1, r3
	bne	.LBB107_29
	adds	r0, r7, r2
	ldr	r1, [r0, #8]
	str	r2, [sp, #88]
	ldr	r2, [r0, #12]
	ldr	r3, [sp, #116]
	eors	r2, r3
	ldr	r3, [sp, #120]
	eors	r1, r3
	ldr	r3, [sp, #128]
	orrs	r1, r2
	mov	r1, r3
	bne	.LBB107_29
	str	r7, [sp, #96]
	ldr	r3, [sp, #124]
	adds	r1, r3, #1
	mov	r2, r5
	adcs	r2, r5
	cmp	r3, #0
	beq	.LBB107_10
	ldr	r1, [sp, #124]
.LBB107_10:
	beq	.LBB107_12
	mov	r2, r5
.LBB107_12:
	ldr	r3, [r0, #4]
	str	r3, [sp, #84]
	adds	r1, #31
	adcs	r2, r5
	lsrs	r1, r1, #3
	lsls	r2, r2, #29
	adds	r5, r1, r2
	lsrs	r7, r6, #2
	cmp	r5, r7
	bls	.LBB107_32
	lsls	r0, r6, #30
	bmi	.LBB107_15
	ldr	r0, [sp, #132]
	adds	r0, r7, r0
	lsls	r1, r0, #3
	ldr	r0, [sp, #96]
	ldr	r0, [r0, r1]
	lsls	r2, r0, #31
	beq	.LBB107_15
	b	.LBB107_59
.LBB107_15:
	movs	r0, #0
	str	r0, [sp, #72]
	b	.LBB107_60
.LBB107_16:
	cmp	r3, r1
	bne	.LBB107_29
	ldr	r0, [r4, #56]
	ldr	r1, [sp, #132]
	cmp	r1, r0
	mov	r1, r3
	bhs	.LBB107_29
	movs	r1, #63
	ldr	r0, [sp, #132]
	mov	r2, r0
	str	r1, [sp, #80]
	ands	r2, r1
	ldr	r1, [r4, #72]
	lsrs	r0, r0, #6
	lsls	r3, r0, #3
	ldr	r0, [r1, r3]
	adds	r1, r1, r3
	ldr	r1, [r1, #4]
	bl	__aeabi_llsr
	ldr	r3, [sp, #128]
	lsls	r0, r0, #31
	mov	r1, r3
	beq	.LBB107_29
	mov	r1, r4
	adds	r1, #48
	ldr	r0, [sp, #132]
	lsls	r5, r0, #3
	str	r1, [sp, #100]
	ldr	r2, [r1]
	ldr	r6, [r2, r5]
	lsls	r0, r6, #31
	mov	r1, r3
	bne	.LBB107_29
	adds	r0, r2, r5
	ldr	r1, [r0, #8]
	str	r2, [sp, #92]
	ldr	r2, [r0, #12]
	ldr	r3, [sp, #116]
	eors	r2, r3
	ldr	r3, [sp, #120]
	eors	r1, r3
	ldr	r3, [sp, #128]
	orrs	r1, r2
	mov	r1, r3
	bne	.LBB107_29
	str	r5, [sp, #88]
	movs	r1, #0
	ldr	r5, [sp, #124]
	adds	r2, r5, #1
	mov	r3, r1
	adcs	r3, r1
	cmp	r5, #0
	beq	.LBB107_23
	mov	r2, r5
.LBB107_23:
	beq	.LBB107_25
	mov	r3, r1
.LBB107_25:
	ldr	r7, [r0, #4]
	str	r7, [sp, #84]
	adds	r2, #31
	adcs	r3, r1
	lsrs	r1, r2, #3
	lsls	r2, r3, #29
	adds	r3, r1, r2
	lsrs	r7, r6, #2
	cmp	r3, r7
	str	r3, [sp, #96]
	bhi	.LBB107_26
	b	.LBB107_45
.LBB107_26:
	lsls	r0, r6, #30
	bmi	.LBB107_28
	ldr	r0, [sp, #132]
	adds	r0, r7, r0
	lsls	r1, r0, #3
	ldr	r0, [sp, #92]
	ldr	r0, [r0, r1]
	lsls	r2, r0, #31
	beq	.LBB107_28
	b	.LBB107_80
.LBB107_28:
	movs	r0, #0
	mov	r1, r0
	b	.LBB107_81
.LBB107_29:
	mov	r0, r3
	bl	tlsf_heap.refusal.Refusal.of_name
	movs	r1, #1
	strb	r1, [r4]
	uxtb	r0, r0
	cmp	r0, #3
	bne	.LBB107_30
	b	.LBB107_58
.LBB107_30:
	movs	r0, #3
.LBB107_31:
	add	sp, #156
	pop	{r4, r5, r6, r7, pc}
.LBB107_32:
	str	r5, [sp, #92]
	ldr	r2, [r4, #32]
	ldr	r3, [r4, #36]
	mov	r1, r2
	str	r3, [sp, #104]
	ands	r1, r3
	adds	r1, r1, #1
	ldr	r5, [sp, #124]
	bne	.LBB107_33
	b	.LBB107_107
.LBB107_33:
	movs	r1, #0
	str	r1, [sp, #96]
	str	r1, [r0, #20]
	ldr	r1, [r0, #16]
	str	r5, [r0, #16]
	cmp	r5, r1
	bls	.LBB107_42
	str	r7, [sp, #72]
	movs	r0, #7
	mov	r7, r1
	ands	r7, r0
	str	r2, [sp, #76]
	str	r1, [sp, #80]
	beq	.LBB107_36
	ldr	r1, [sp, #88]
	ldr	r5, [sp, #80]
	adds	r5, r1, r5
	adds	r5, #24
	bics	r5, r0
	ldr	r0, [sp, #100]
	ldr	r1, [r0]
	str	r1, [sp, #68]
	ldr	r0, [r1, r5]
	str	r0, [sp, #136]
	adds	r0, r1, r5
	str	r0, [sp, #88]
	ldr	r0, [sp, #88]
	ldr	r0, [r0, #4]
	str	r0, [sp, #140]
	add	r0, sp, #136
	adds	r0, r0, r7
	ldr	r1, .LCPI107_4
	adds	r1, r1, r7
	movs	r2, #8
	subs	r2, r2, r7
	bl	tlsf_memory_cpy
	ldr	r2, [sp, #76]
	ldr	r0, [sp, #136]
	ldr	r3, [sp, #68]
	str	r0, [r3, r5]
	ldr	r5, [sp, #124]
	ldr	r0, [sp, #140]
	ldr	r3, [sp, #88]
	str	r0, [r3, #4]
.LBB107_36:
	lsrs	r0, r5, #3
	lsls	r1, r5, #29
	beq	.LBB107_38
	adds	r0, r0, #1
.LBB107_38:
	ldr	r1, [sp, #80]
	lsrs	r1, r1, #3
	cmp	r7, #0
	beq	.LBB107_40
	adds	r1, r1, #1
.LBB107_40:
	ldr	r7, [sp, #72]
	cmp	r0, r1
	beq	.LBB107_42
	subs	r0, r0, r1
	lsls	r2, r0, #3
	ldr	r0, [sp, #132]
	adds	r0, r0, r1
	lsls	r0, r0, #3
	ldr	r1, [sp, #100]
	ldr	r1, [r1]
	adds	r0, r0, r1
	adds	r0, #24
	movs	r1, #0
	bl	tlsf_memory_set
	ldr	r2, [sp, #76]
.LBB107_42:
	ldr	r5, [sp, #92]
	adds	r0, r5, #4
	cmp	r7, r0
	mov	r0, r7
	blo	.LBB107_44
	str	r5, [sp]
	str	r2, [sp, #8]
	ldr	r0, [sp, #104]
	str	r0, [sp, #12]
	ldr	r0, [sp, #100]
	ldr	r1, [sp, #132]
	mov	r2, r6
	ldr	r3, [sp, #84]
	bl	tlsf_heap.refitting.split_off.5
	mov	r0, r5
.LBB107_44:
	subs	r0, r0, r7
	ldr	r1, [r4, #40]
	adds	r0, r0, r1
	ldr	r1, [r4, #32]
	adds	r1, r1, #1
	str	r1, [r4, #32]
	str	r0, [r4, #40]
	ldr	r0, [r4, #36]
	ldr	r1, [sp, #96]
	adcs	r0, r1
	str	r0, [r4, #36]
	ldr	r5, [sp, #124]
	rsbs	r1, r5, #0
	adcs	r1, r5
	bl	.LBB107_173
.LBB107_45:
	ldr	r2, [r4, #32]
	ldr	r3, [r4, #36]
	mov	r1, r2
	ands	r1, r3
	adds	r1, r1, #1
	bne	.LBB107_46
	b	.LBB107_107
.LBB107_46:
	str	r6, [sp, #80]
	str	r3, [sp, #92]
	movs	r1, #0
	str	r1, [sp, #104]
	str	r1, [r0, #20]
	ldr	r3, [r0, #16]
	str	r5, [r0, #16]
	cmp	r5, r3
	ldr	r6, [sp, #112]
	bls	.LBB107_55
	str	r7, [sp, #72]
	str	r2, [sp, #76]
	movs	r1, #7
	mov	r7, r3
	ands	r7, r1
	beq	.LBB107_49
	ldr	r0, [sp, #88]
	adds	r5, r0, r3
	adds	r5, #24
	bics	r5, r1
	ldr	r0, [sp, #100]
	ldr	r1, [r0]
	str	r1, [sp, #68]
	ldr	r0, [r1, r5]
	str	r0, [sp, #136]
	adds	r0, r1, r5
	str	r0, [sp, #88]
	ldr	r0, [r0, #4]
	str	r0, [sp, #140]
	add	r0, sp, #136
	adds	r0, r0, r7
	ldr	r1, .LCPI107_4
	adds	r1, r1, r7
	movs	r2, #8
	subs	r2, r2, r7
	mov	r6, r3
	bl	tlsf_memory_cpy
	mov	r3, r6
	ldr	r6, [sp, #112]
	ldr	r1, [sp, #136]
	ldr	r0, [sp, #68]
	str	r1, [r0, r5]
	ldr	r5, [sp, #124]
	ldr	r1, [sp, #140]
	ldr	r0, [sp, #88]
	str	r1, [r0, #4]
.LBB107_49:
	lsrs	r1, r5, #3
	lsls	r2, r5, #29
	beq	.LBB107_51
	adds	r1, r1, #1
.LBB107_51:
	lsrs	r3, r3, #3
	cmp	r7, #0
	ldr	r2, [sp, #76]
	beq	.LBB107_53
	adds	r3, r3, #1
.LBB107_53:
	ldr	r7, [sp, #72]
	cmp	r1, r3
	beq	.LBB107_55
	subs	r0, r1, r3
	lsls	r2, r0, #3
	ldr	r0, [sp, #132]
	adds	r0, r0, r3
	lsls	r0, r0, #3
	ldr	r1, [sp, #100]
	ldr	r1, [r1]
	adds	r0, r0, r1
	adds	r0, #24
	movs	r1, #0
	bl	tlsf_memory_set
	ldr	r2, [sp, #76]
	ldr	r6, [sp, #112]
.LBB107_55:
	ldr	r3, [sp, #96]
	adds	r1, r3, #4
	cmp	r7, r1
	mov	r1, r7
	blo	.LBB107_57
	str	r3, [sp]
	str	r2, [sp, #8]
	ldr	r0, [sp, #92]
	str	r0, [sp, #12]
	ldr	r0, [sp, #100]
	ldr	r1, [sp, #132]
	ldr	r2, [sp, #80]
	ldr	r3, [sp, #84]
	bl	tlsf_heap.refitting.split_off.4
	ldr	r6, [sp, #112]
	ldr	r1, [sp, #96]
.LBB107_57:
	subs	r1, r1, r7
	ldr	r2, [r4, #40]
	adds	r1, r1, r2
	ldr	r2, [r4, #32]
	adds	r2, r2, #1
	str	r2, [r4, #32]
	str	r1, [r4, #40]
	b	.LBB107_105
.LBB107_58:
	movs	r0, #4
	add	sp, #156
	pop	{r4, r5, r6, r7, pc}
.LBB107_59:
	ldr	r2, [sp, #96]
	adds	r1, r2, r1
	ldr	r1, [r1, #4]
	str	r1, [sp, #72]
.LBB107_60:
	lsrs	r2, r0, #2
	adds	r2, r2, r7
	movs	r3, #0
	mvns	r1, r3
	cmp	r2, r5
	str	r3, [sp, #76]
	bhs	.LBB107_67
	ldr	r0, [sp, #120]
	str	r0, [sp, #144]
	ldr	r0, [sp, #132]
	str	r0, [sp, #140]
	ldr	r0, [sp, #128]
	str	r0, [sp, #136]
	ldr	r0, [sp, #116]
	str	r0, [sp, #148]
	subs	r0, r1, #2
	mov	r6, r1
	sbcs	r6, r3
	ldr	r3, [r4, #32]
	ldr	r2, [r4, #36]
	str	r3, [sp, #120]
	subs	r0, r0, r3
	str	r2, [sp, #116]
	sbcs	r6, r2
	bhs	.LBB107_62
	b	.LBB107_107
.LBB107_62:
	str	r1, [sp, #68]
	movs	r1, #1
	lsls	r0, r1, #24
	cmp	r5, r0
	bls	.LBB107_63
	b	.LBB107_84
.LBB107_63:
	mov	r6, r5
	movs	r5, #32
	mov	r0, r6
	orrs	r0, r5
	str	r1, [sp, #128]
	bl	__clzsi2
	movs	r1, #26
	str	r1, [sp, #56]
	subs	r0, r1, r0
	str	r6, [sp, #92]
	subs	r2, r6, #1
	lsrs	r2, r0
	lsls	r0, r0, #5
	adds	r0, r2, r0
	adds	r0, r0, #1
	subs	r1, r0, #1
	ldr	r0, [sp, #76]
	sbcs	r0, r0
	lsrs	r3, r1, #5
	lsls	r6, r0, #27
	adds	r3, r3, r6
	lsls	r6, r3, #2
	mov	r7, r4
	adds	r7, #108
	str	r7, [sp, #64]
	ldr	r6, [r7, r6]
	movs	r7, #31
	str	r7, [sp, #60]
	ands	r2, r7
	lsrs	r6, r2
	ldr	r2, [sp, #128]
	bics	r6, r2
	bne	.LBB107_64
	b	.LBB107_111
.LBB107_64:
	cmp	r6, #0
	beq	.LBB107_66
	rsbs	r2, r6, #0
	ands	r2, r6
	ldr	r3, .LCPI107_5
	muls	r3, r2, r3
	lsrs	r2, r3, #27
	adr	r3, .LCPI107_6
	ldrb	r5, [r3, r2]
.LBB107_66:
	adds	r1, r1, r5
	ldr	r2, [sp, #76]
	adcs	r0, r2
	lsrs	r2, r1, #5
	lsls	r0, r0, #27
	adds	r0, r2, r0
	b	.LBB107_127
.LBB107_67:
	str	r5, [sp, #92]
	ldr	r2, [r4, #32]
	ldr	r3, [r4, #36]
	mov	r5, r3
	eors	r5, r1
	eors	r1, r2
	orrs	r1, r5
	bne	.LBB107_68
	b	.LBB107_107
.LBB107_68:
	str	r2, [sp, #16]
	str	r3, [sp, #20]
	str	r0, [sp]
	ldr	r0, [sp, #72]
	str	r0, [sp, #4]
	ldr	r0, [sp, #92]
	str	r0, [sp, #8]
	ldr	r5, [sp, #100]
	mov	r0, r5
	ldr	r1, [sp, #132]
	mov	r2, r6
	ldr	r3, [sp, #84]
	bl	tlsf_heap.refitting.recut.5
	str	r0, [sp, #104]
	ldr	r0, [r5]
	ldr	r5, [sp, #124]
	ldr	r2, [sp, #88]
	adds	r0, r0, r2
	ldr	r1, [sp, #76]
	str	r1, [r0, #20]
	ldr	r3, [r0, #16]
	str	r5, [r0, #16]
	cmp	r5, r3
	ldr	r6, [sp, #112]
	bls	.LBB107_77
	movs	r1, #7
	mov	r0, r3
	ands	r0, r1
	beq	.LBB107_71
	adds	r5, r2, r3
	adds	r5, #24
	bics	r5, r1
	mov	r6, r0
	ldr	r0, [sp, #100]
	ldr	r1, [r0]
	str	r1, [sp, #88]
	ldr	r0, [r1, r5]
	str	r0, [sp, #136]
	adds	r0, r1, r5
	str	r0, [sp, #92]
	ldr	r0, [r0, #4]
	str	r0, [sp, #140]
	add	r0, sp, #136
	adds	r0, r0, r6
	ldr	r1, .LCPI107_4
	adds	r1, r1, r6
	movs	r2, #8
	subs	r2, r2, r6
	str	r3, [sp, #96]
	bl	tlsf_memory_cpy
	mov	r0, r6
	ldr	r3, [sp, #96]
	ldr	r6, [sp, #112]
	ldr	r1, [sp, #136]
	ldr	r2, [sp, #88]
	str	r1, [r2, r5]
	ldr	r5, [sp, #124]
	ldr	r1, [sp, #140]
	ldr	r2, [sp, #92]
	str	r1, [r2, #4]
.LBB107_71:
	lsrs	r1, r5, #3
	lsls	r2, r5, #29
	beq	.LBB107_73
	adds	r1, r1, #1
.LBB107_73:
	lsrs	r3, r3, #3
	cmp	r0, #0
	beq	.LBB107_75
	adds	r3, r3, #1
.LBB107_75:
	cmp	r1, r3
	beq	.LBB107_77
	subs	r0, r1, r3
	lsls	r2, r0, #3
	ldr	r0, [sp, #132]
	adds	r0, r0, r3
	lsls	r0, r0, #3
	ldr	r1, [sp, #100]
	ldr	r1, [r1]
	adds	r0, r0, r1
	adds	r0, #24
	movs	r1, #0
	bl	tlsf_memory_set
	ldr	r6, [sp, #112]
.LBB107_77:
	ldr	r0, [sp, #104]
	subs	r1, r0, r7
	ldr	r2, [r4, #40]
	adds	r1, r2, r1
	str	r1, [r4, #40]
	ldr	r2, [r4, #44]
	cmp	r2, r1
	bhs	.LBB107_79
	str	r1, [r4, #44]
.LBB107_79:
	ldr	r1, [r4, #32]
	adds	r1, r1, #1
	str	r1, [r4, #32]
	ldr	r1, [r4, #36]
	ldr	r2, [sp, #76]
	b	.LBB107_106
.LBB107_80:
	ldr	r2, [sp, #92]
	adds	r1, r2, r1
	ldr	r1, [r1, #4]
.LBB107_81:
	lsrs	r2, r0, #2
	adds	r2, r2, r7
	cmp	r2, r3
	bhs	.LBB107_92
	ldr	r0, [sp, #120]
	str	r0, [sp, #144]
	ldr	r0, [sp, #132]
	str	r0, [sp, #140]
	ldr	r0, [sp, #128]
	str	r0, [sp, #136]
	ldr	r0, [sp, #116]
	str	r0, [sp, #148]
	movs	r7, #0
	mvns	r6, r7
	subs	r0, r6, #2
	mov	r1, r6
	sbcs	r1, r7
	ldr	r3, [r4, #32]
	ldr	r2, [r4, #36]
	str	r3, [sp, #120]
	subs	r0, r0, r3
	str	r2, [sp, #116]
	sbcs	r1, r2
	bhs	.LBB107_83
	b	.LBB107_107
.LBB107_83:
	movs	r2, #1
	lsls	r0, r2, #20
	ldr	r1, [sp, #96]
	cmp	r1, r0
	bhi	.LBB107_84
	b	.LBB107_108
.LBB107_84:
	movs	r0, #1
	strb	r0, [r4]
	ldr	r1, [r4, #12]
	ldr	r2, [sp, #124]
	cmp	r2, r1
	bhi	.LBB107_86
	mov	r2, r1
.LBB107_86:
	str	r2, [r4, #12]
	ldr	r1, [r4, #8]
	adds	r1, r1, #1
	blo	.LBB107_88
	movs	r1, #0
	mvns	r1, r1
.LBB107_88:
	str	r1, [r4, #8]
	add	sp, #156
	pop	{r4, r5, r6, r7, pc}
	.p2align	2
.LCPI107_4:
	.long	.Lstatic.0
	.p2align	2
.LCPI107_5:
	.long	125613361
	.p2align	2
.LCPI107_6:
	.ascii	"\000\001\034\002\035\016\030\003\036\026\024\017\031\021\004\b\037\033\r\027\025\023\020\007\032\f\022\006\013\005\n\t"
	.p2align	1
.LBB107_92:
	ldr	r2, [r4, #32]
	ldr	r3, [r4, #36]
	mov	r5, r2
	ands	r5, r3
	adds	r5, r5, #1
	ldr	r5, [sp, #124]
	beq	.LBB107_107
	str	r2, [sp, #16]
	str	r3, [sp, #20]
	str	r0, [sp]
	str	r1, [sp, #4]
	ldr	r0, [sp, #96]
	str	r0, [sp, #8]
	ldr	r0, [sp, #100]
	ldr	r1, [sp, #132]
	mov	r2, r6
	ldr	r3, [sp, #84]
	bl	tlsf_heap.refitting.recut.4
	ldr	r1, [sp, #100]
	ldr	r2, [r1]
	ldr	r1, [sp, #88]
	adds	r2, r2, r1
	movs	r1, #0
	str	r1, [sp, #104]
	str	r1, [r2, #20]
	ldr	r3, [r2, #16]
	str	r5, [r2, #16]
	cmp	r5, r3
	ldr	r6, [sp, #112]
	bls	.LBB107_102
	str	r0, [sp, #96]
	movs	r1, #7
	mov	r2, r3
	ands	r2, r1
	beq	.LBB107_96
	ldr	r0, [sp, #88]
	adds	r5, r0, r3
	adds	r5, #24
	bics	r5, r1
	ldr	r0, [sp, #100]
	ldr	r1, [r0]
	str	r1, [sp, #84]
	ldr	r0, [r1, r5]
	str	r0, [sp, #136]
	adds	r0, r1, r5
	str	r0, [sp, #88]
	ldr	r0, [r0, #4]
	str	r0, [sp, #140]
	add	r0, sp, #136
	adds	r0, r0, r2
	ldr	r1, .LCPI107_7
	adds	r1, r1, r2
	mov	r6, r2
	movs	r2, #8
	subs	r2, r2, r6
	str	r3, [sp, #92]
	bl	tlsf_memory_cpy
	mov	r2, r6
	ldr	r3, [sp, #92]
	ldr	r6, [sp, #112]
	ldr	r1, [sp, #136]
	ldr	r0, [sp, #84]
	str	r1, [r0, r5]
	ldr	r5, [sp, #124]
	ldr	r1, [sp, #140]
	ldr	r0, [sp, #88]
	str	r1, [r0, #4]
.LBB107_96:
	mov	r0, r2
	lsrs	r1, r5, #3
	lsls	r2, r5, #29
	beq	.LBB107_98
	adds	r1, r1, #1
.LBB107_98:
	lsrs	r3, r3, #3
	cmp	r0, #0
	ldr	r0, [sp, #96]
	beq	.LBB107_100
	adds	r3, r3, #1
.LBB107_100:
	cmp	r1, r3
	beq	.LBB107_102
	subs	r0, r1, r3
	lsls	r2, r0, #3
	ldr	r0, [sp, #132]
	adds	r0, r0, r3
	lsls	r0, r0, #3
	ldr	r1, [sp, #100]
	ldr	r1, [r1]
	adds	r0, r0, r1
	adds	r0, #24
	movs	r1, #0
	bl	tlsf_memory_set
	ldr	r0, [sp, #96]
	ldr	r6, [sp, #112]
.LBB107_102:
	subs	r1, r0, r7
	ldr	r2, [r4, #40]
	adds	r1, r2, r1
	str	r1, [r4, #40]
	ldr	r2, [r4, #44]
	cmp	r2, r1
	bhs	.LBB107_104
	str	r1, [r4, #44]
.LBB107_104:
	ldr	r1, [r4, #32]
	adds	r1, r1, #1
	str	r1, [r4, #32]
.LBB107_105:
	ldr	r1, [r4, #36]
	ldr	r2, [sp, #104]
.LBB107_106:
	adcs	r1, r2
	str	r1, [r4, #36]
	rsbs	r1, r5, #0
	adcs	r1, r5
	b	.LBB107_174
.LBB107_107:
	movs	r0, #1
	strb	r0, [r4]
	movs	r0, #2
	add	sp, #156
	pop	{r4, r5, r6, r7, pc}
.LBB107_108:
	str	r2, [sp, #128]
	movs	r2, #16
	mov	r0, r1
	str	r2, [sp, #56]
	orrs	r0, r2
	mov	r5, r1
	bl	__clzsi2
	movs	r1, #27
	str	r1, [sp, #52]
	subs	r0, r1, r0
	subs	r2, r5, #1
	lsrs	r2, r0
	lsls	r0, r0, #4
	adds	r0, r2, r0
	adds	r0, r0, #1
	subs	r1, r0, #1
	mov	r0, r7
	sbcs	r0, r7
	str	r1, [sp, #84]
	lsrs	r3, r1, #4
	lsls	r5, r0, #28
	adds	r3, r3, r5
	lsls	r5, r3, #2
	mov	r1, r4
	adds	r1, #108
	str	r1, [sp, #64]
	ldr	r5, [r1, r5]
	movs	r1, #15
	str	r1, [sp, #60]
	ands	r2, r1
	lsrs	r5, r2
	ldr	r1, [sp, #128]
	bics	r5, r1
	beq	.LBB107_117
	cmp	r5, #0
	beq	.LBB107_123
	rsbs	r2, r5, #0
	ands	r2, r5
	ldr	r3, .LCPI107_8
	muls	r3, r2, r3
	lsrs	r2, r3, #27
	adr	r3, .LCPI107_9
	ldrb	r2, [r3, r2]
	b	.LBB107_124
.LBB107_111:
	mvns	r0, r2
	lsls	r0, r3
	ldr	r5, [r4, #104]
	ands	r5, r0
	bne	.LBB107_112
	b	.LBB107_84
.LBB107_112:
	ldr	r2, .LCPI107_8
	adr	r1, .LCPI107_9
	movs	r3, #32
	cmp	r5, #0
	mov	r0, r3
	beq	.LBB107_114
	rsbs	r0, r5, #0
	ands	r0, r5
	muls	r0, r2, r0
	lsrs	r0, r0, #27
	ldrb	r0, [r1, r0]
.LBB107_114:
	lsls	r5, r0, #2
	ldr	r6, [sp, #64]
	ldr	r5, [r6, r5]
	cmp	r5, #0
	beq	.LBB107_126
	cmp	r5, #0
	beq	.LBB107_125
	rsbs	r3, r5, #0
	ands	r3, r5
	muls	r2, r3, r2
	lsrs	r2, r2, #27
	ldrb	r3, [r1, r2]
	b	.LBB107_126
.LBB107_117:
	mvns	r0, r1
	lsls	r0, r3
	ldr	r5, [r4, #104]
	ands	r5, r0
	bne	.LBB107_118
	b	.LBB107_84
.LBB107_118:
	ldr	r2, .LCPI107_8
	adr	r1, .LCPI107_9
	movs	r3, #32
	cmp	r5, #0
	mov	r0, r3
	beq	.LBB107_120
	rsbs	r0, r5, #0
	ands	r0, r5
	muls	r0, r2, r0
	lsrs	r0, r0, #27
	ldrb	r0, [r1, r0]
.LBB107_120:
	lsls	r5, r0, #2
	ldr	r1, [sp, #64]
	ldr	r5, [r1, r5]
	cmp	r5, #0
	bne	.LBB107_121
	b	.LBB107_148
.LBB107_121:
	cmp	r5, #0
	bne	.LBB107_122
	b	.LBB107_147
.LBB107_122:
	rsbs	r3, r5, #0
	ands	r3, r5
	muls	r2, r3, r2
	lsrs	r2, r2, #27
	adr	r1, .LCPI107_9
	ldrb	r3, [r1, r2]
	b	.LBB107_148
.LBB107_123:
	movs	r2, #32
.LBB107_124:
	str	r6, [sp, #72]
	ldr	r1, [sp, #84]
	adds	r1, r1, r2
	adcs	r0, r7
	lsrs	r2, r1, #4
	lsls	r0, r0, #28
	adds	r0, r2, r0
	b	.LBB107_149
.LBB107_125:
	movs	r3, #32
.LBB107_126:
	lsls	r0, r0, #5
	adds	r1, r3, r0
	lsrs	r0, r1, #5
.LBB107_127:
	str	r0, [sp, #48]
	lsls	r2, r1, #2
	mov	r7, r4
	adds	r7, #192
	ldr	r0, [r7, r2]
	lsls	r3, r0, #3
	ldr	r6, [sp, #96]
	str	r3, [sp, #72]
	adds	r3, r6, r3
	ldr	r3, [r3, #16]
	adds	r5, r3, #1
	str	r0, [sp, #84]
	str	r7, [sp, #52]
	beq	.LBB107_129
	lsls	r0, r3, #3
	adds	r0, r6, r0
	ldr	r1, [sp, #68]
	str	r1, [r0, #20]
	str	r3, [r7, r2]
	ldr	r0, [sp, #100]
	ldr	r6, [r0]
	ldr	r2, [sp, #92]
	b	.LBB107_132
.LBB107_129:
	ldr	r6, [sp, #128]
	mvns	r3, r6
	adds	r3, r3, #1
	str	r3, [r7, r2]
	ldr	r2, [sp, #60]
	ands	r1, r2
	mov	r2, r6
	lsls	r2, r1
	ldr	r7, [sp, #48]
	lsls	r1, r7, #2
	ldr	r5, [sp, #64]
	ldr	r3, [r5, r1]
	bics	r3, r2
	str	r3, [r5, r1]
	ldr	r2, [sp, #92]
	bne	.LBB107_131
	lsls	r6, r7
	ldr	r0, [r4, #104]
	bics	r0, r6
	str	r0, [r4, #104]
.LBB107_131:
	ldr	r6, [sp, #96]
.LBB107_132:
	ldr	r0, [sp, #72]
	adds	r7, r6, r0
	ldr	r1, [r7, #4]
	str	r1, [sp, #128]
	ldr	r0, [r6, r0]
	lsls	r1, r2, #2
	subs	r5, r0, r1
	cmp	r5, #15
	bhi	.LBB107_134
	ldr	r3, [sp, #76]
	str	r3, [r7, #20]
	ldr	r5, [sp, #124]
	str	r5, [r7, #16]
	ldr	r1, [sp, #120]
	str	r1, [r7, #8]
	ldr	r1, [sp, #116]
	str	r1, [r7, #12]
	subs	r0, r0, #1
	str	r0, [r7]
	ldr	r1, [sp, #128]
	sbcs	r1, r3
	str	r1, [r7, #4]
	lsrs	r0, r0, #2
	ldr	r6, [sp, #100]
	b	.LBB107_140
.LBB107_134:
	mov	r3, r2
	lsrs	r1, r5, #2
	str	r1, [sp, #44]
	ldr	r2, [sp, #124]
	str	r2, [r7, #16]
	ldr	r1, [sp, #120]
	str	r1, [r7, #8]
	ldr	r1, [sp, #84]
	adds	r3, r1, r3
	lsls	r1, r3, #3
	adds	r2, r6, r1
	str	r2, [sp, #40]
	subs	r0, r0, r5
	str	r0, [r7]
	str	r1, [sp, #48]
	str	r5, [r6, r1]
	ldr	r0, [sp, #120]
	str	r0, [r2, #8]
	ldr	r0, [sp, #128]
	ldr	r1, [sp, #76]
	sbcs	r0, r1
	str	r0, [sp, #128]
	lsrs	r6, r3, #3
	ldr	r0, .LCPI107_0
	ands	r6, r0
	ldr	r0, [r4, #72]
	str	r0, [sp, #32]
	ldr	r1, [r0, r6]
	str	r1, [sp, #36]
	ldr	r2, [sp, #80]
	str	r3, [sp, #96]
	ands	r2, r3
	movs	r0, #1
	str	r0, [sp, #80]
	ldr	r1, [sp, #76]
	bl	__aeabi_llsl
	ldr	r2, [sp, #36]
	orrs	r0, r2
	ldr	r3, [sp, #32]
	str	r0, [r3, r6]
	ldr	r0, [sp, #76]
	str	r0, [r7, #20]
	ldr	r0, [sp, #116]
	str	r0, [r7, #12]
	ldr	r2, [sp, #128]
	str	r2, [r7, #4]
	ldr	r7, [sp, #44]
	ldr	r2, [sp, #40]
	str	r0, [r2, #12]
	ldr	r0, [sp, #84]
	str	r0, [r2, #4]
	adds	r0, r3, r6
	ldr	r6, [sp, #100]
	ldr	r2, [r0, #4]
	orrs	r2, r1
	str	r2, [r0, #4]
	lsls	r0, r5, #30
	ldr	r5, [sp, #68]
	bmi	.LBB107_136
	ldr	r3, [sp, #96]
	adds	r0, r7, r3
	lsls	r0, r0, #3
	ldr	r1, [r6]
	ldr	r2, [r1, r0]
	ands	r2, r5
	str	r2, [r1, r0]
	adds	r0, r1, r0
	str	r3, [r0, #4]
.LBB107_136:
	movs	r0, #32
	orrs	r0, r7
	bl	__clzsi2
	ldr	r1, [sp, #56]
	subs	r0, r1, r0
	lsrs	r7, r0
	lsls	r0, r0, #5
	adds	r0, r7, r0
	lsls	r2, r0, #2
	ldr	r5, [sp, #52]
	ldr	r1, [r5, r2]
	ldr	r3, [sp, #96]
	str	r3, [r5, r2]
	cmp	r1, #0
	bmi	.LBB107_138
	ldr	r0, [r6]
	ldr	r2, [sp, #48]
	adds	r2, r0, r2
	str	r1, [r2, #16]
	ldr	r5, [sp, #68]
	str	r5, [r2, #20]
	lsls	r1, r1, #3
	adds	r0, r0, r1
	str	r3, [r0, #20]
	ldr	r1, [r0, #16]
	ands	r1, r5
	str	r1, [r0, #16]
	b	.LBB107_139
.LBB107_138:
	ldr	r1, [r4, #48]
	ldr	r2, [sp, #48]
	adds	r1, r1, r2
	ldr	r2, [sp, #68]
	str	r2, [r1, #16]
	str	r2, [r1, #20]
	ldr	r1, [sp, #60]
	ands	r7, r1
	ldr	r1, [sp, #80]
	mov	r2, r1
	lsls	r2, r7
	lsrs	r0, r0, #5
	lsls	r7, r0, #2
	ldr	r5, [sp, #64]
	ldr	r3, [r5, r7]
	orrs	r3, r2
	str	r3, [r5, r7]
	lsls	r1, r0
	ldr	r0, [r4, #104]
	orrs	r0, r1
	str	r0, [r4, #104]
.LBB107_139:
	ldr	r0, [sp, #92]
	ldr	r5, [sp, #124]
	ldr	r3, [sp, #76]
.LBB107_140:
	ldr	r1, [r4, #40]
	adds	r0, r1, r0
	str	r0, [r4, #40]
	ldr	r1, [r4, #44]
	cmp	r1, r0
	ldr	r2, [sp, #88]
	bhs	.LBB107_142
	str	r0, [r4, #44]
.LBB107_142:
	ldr	r0, [r4, #32]
	adds	r0, r0, #1
	str	r0, [r4, #32]
	ldr	r0, [r4, #36]
	adcs	r0, r3
	str	r0, [r4, #36]
	ldr	r0, [r4, #24]
	str	r0, [sp, #128]
	ldr	r0, [sp, #92]
	subs	r1, r0, #3
	ldr	r7, [sp, #72]
	beq	.LBB107_144
	ldr	r0, [r6]
	adds	r0, r0, r7
	adds	r0, #24
	lsls	r2, r1, #3
	movs	r1, #0
	bl	tlsf_memory_set
	ldr	r2, [sp, #88]
.LBB107_144:
	ldr	r1, [r6]
	adds	r0, r1, r2
	ldr	r0, [r0, #16]
	adds	r1, r1, r7
	ldr	r3, [r1, #16]
	cmp	r3, r0
	blo	.LBB107_146
	mov	r3, r0
.LBB107_146:
	mov	r0, r6
	ldr	r1, [sp, #132]
	ldr	r6, [sp, #84]
	mov	r2, r6
	bl	tlsf_words.words.Words.copy_payload
	add	r1, sp, #136
	ldr	r0, [sp, #104]
	bl	tlsf_heap.heap.Heap.release_live.5
	b	.LBB107_172
.LBB107_147:
	movs	r3, #32
.LBB107_148:
	str	r6, [sp, #72]
	lsls	r0, r0, #4
	adds	r1, r3, r0
	lsrs	r0, r1, #4
.LBB107_149:
	lsls	r3, r1, #2
	mov	r2, r4
	adds	r2, #192
	str	r3, [sp, #68]
	ldr	r3, [r2, r3]
	str	r3, [sp, #84]
	lsls	r3, r3, #3
	ldr	r6, [sp, #92]
	str	r3, [sp, #76]
	adds	r3, r6, r3
	ldr	r3, [r3, #16]
	adds	r5, r3, #1
	str	r2, [sp, #44]
	beq	.LBB107_151
	lsls	r0, r3, #3
	adds	r0, r6, r0
	ldr	r1, [sp, #72]
	str	r1, [r0, #20]
	ldr	r0, [sp, #68]
	str	r3, [r2, r0]
	ldr	r0, [sp, #100]
	ldr	r2, [r0]
	ldr	r3, [sp, #96]
	b	.LBB107_154
.LBB107_151:
	ldr	r6, [sp, #128]
	mvns	r3, r6
	adds	r3, r3, #1
	ldr	r5, [sp, #68]
	str	r3, [r2, r5]
	ldr	r2, [sp, #60]
	ands	r1, r2
	mov	r2, r6
	lsls	r2, r1
	lsls	r1, r0, #2
	ldr	r5, [sp, #64]
	ldr	r3, [r5, r1]
	bics	r3, r2
	str	r3, [r5, r1]
	bne	.LBB107_153
	lsls	r6, r0
	ldr	r0, [r4, #104]
	bics	r0, r6
	str	r0, [r4, #104]
.LBB107_153:
	ldr	r3, [sp, #96]
	ldr	r2, [sp, #92]
.LBB107_154:
	ldr	r0, [sp, #76]
	adds	r5, r2, r0
	ldr	r1, [r5, #4]
	str	r1, [sp, #128]
	ldr	r0, [r2, r0]
	lsls	r1, r3, #2
	subs	r1, r0, r1
	cmp	r1, #15
	bhi	.LBB107_159
	str	r7, [r5, #20]
	ldr	r1, [sp, #124]
	str	r1, [r5, #16]
	ldr	r1, [sp, #120]
	str	r1, [r5, #8]
	ldr	r1, [sp, #116]
	str	r1, [r5, #12]
	subs	r0, r0, #1
	str	r0, [r5]
	ldr	r1, [sp, #128]
	sbcs	r1, r7
	str	r1, [r5, #4]
	lsrs	r0, r0, #2
	ldr	r6, [sp, #100]
	b	.LBB107_165
	.p2align	2
.LCPI107_7:
	.long	.Lstatic.0
	.p2align	2
.LCPI107_8:
	.long	125613361
	.p2align	2
.LCPI107_9:
	.ascii	"\000\001\034\002\035\016\030\003\036\026\024\017\031\021\004\b\037\033\r\027\025\023\020\007\032\f\022\006\013\005\n\t"
	.p2align	1
.LBB107_159:
	str	r1, [sp, #92]
	lsrs	r1, r1, #2
	str	r1, [sp, #36]
	mov	r6, r2
	ldr	r2, [sp, #124]
	str	r2, [r5, #16]
	ldr	r1, [sp, #120]
	str	r1, [r5, #8]
	ldr	r1, [sp, #84]
	adds	r2, r1, r3
	lsls	r3, r2, #3
	mov	r1, r6
	adds	r6, r6, r3
	str	r6, [sp, #68]
	ldr	r6, [sp, #92]
	subs	r0, r0, r6
	str	r0, [r5]
	str	r3, [sp, #40]
	str	r6, [r1, r3]
	ldr	r0, [sp, #68]
	ldr	r1, [sp, #120]
	str	r1, [r0, #8]
	ldr	r0, [sp, #128]
	sbcs	r0, r7
	str	r0, [sp, #128]
	mov	r1, r7
	str	r7, [sp, #48]
	mov	r3, r2
	str	r2, [sp, #32]
	lsrs	r7, r2, #3
	ldr	r0, .LCPI107_0
	ands	r7, r0
	ldr	r6, [r4, #72]
	ldr	r0, [r6, r7]
	str	r0, [sp, #28]
	ldr	r2, [sp, #80]
	ands	r2, r3
	movs	r0, #1
	str	r0, [sp, #80]
	bl	__aeabi_llsl
	ldr	r2, [sp, #28]
	orrs	r0, r2
	str	r0, [r6, r7]
	ldr	r0, [sp, #48]
	str	r0, [r5, #20]
	ldr	r0, [sp, #116]
	str	r0, [r5, #12]
	ldr	r2, [sp, #128]
	str	r2, [r5, #4]
	ldr	r5, [sp, #36]
	ldr	r2, [sp, #68]
	str	r0, [r2, #12]
	ldr	r0, [sp, #84]
	str	r0, [r2, #4]
	adds	r0, r6, r7
	ldr	r7, [sp, #32]
	ldr	r2, [r0, #4]
	orrs	r2, r1
	str	r2, [r0, #4]
	ldr	r0, [sp, #92]
	lsls	r0, r0, #30
	ldr	r6, [sp, #100]
	bmi	.LBB107_161
	adds	r0, r5, r7
	lsls	r0, r0, #3
	ldr	r1, [r6]
	ldr	r2, [r1, r0]
	ldr	r3, [sp, #72]
	ands	r2, r3
	str	r2, [r1, r0]
	adds	r0, r1, r0
	str	r7, [r0, #4]
.LBB107_161:
	ldr	r0, [sp, #56]
	orrs	r0, r5
	bl	__clzsi2
	ldr	r1, [sp, #52]
	subs	r0, r1, r0
	lsrs	r5, r0
	lsls	r0, r0, #4
	adds	r0, r5, r0
	lsls	r2, r0, #2
	ldr	r3, [sp, #44]
	ldr	r1, [r3, r2]
	str	r7, [r3, r2]
	cmp	r1, #0
	bmi	.LBB107_163
	ldr	r0, [r6]
	ldr	r2, [sp, #40]
	adds	r2, r0, r2
	str	r1, [r2, #16]
	ldr	r3, [sp, #72]
	str	r3, [r2, #20]
	lsls	r1, r1, #3
	adds	r0, r0, r1
	str	r7, [r0, #20]
	ldr	r1, [r0, #16]
	ands	r1, r3
	str	r1, [r0, #16]
	b	.LBB107_164
.LBB107_163:
	ldr	r1, [r4, #48]
	ldr	r2, [sp, #40]
	adds	r1, r1, r2
	ldr	r2, [sp, #72]
	str	r2, [r1, #16]
	str	r2, [r1, #20]
	ldr	r1, [sp, #60]
	ands	r5, r1
	ldr	r7, [sp, #80]
	mov	r1, r7
	lsls	r1, r5
	lsrs	r0, r0, #4
	lsls	r2, r0, #2
	ldr	r5, [sp, #64]
	ldr	r3, [r5, r2]
	orrs	r3, r1
	str	r3, [r5, r2]
	lsls	r7, r0
	ldr	r0, [r4, #104]
	orrs	r0, r7
	str	r0, [r4, #104]
.LBB107_164:
	ldr	r3, [sp, #96]
	mov	r0, r3
	ldr	r7, [sp, #48]
.LBB107_165:
	ldr	r1, [r4, #40]
	adds	r0, r1, r0
	str	r0, [r4, #40]
	ldr	r1, [r4, #44]
	cmp	r1, r0
	bhs	.LBB107_167
	str	r0, [r4, #44]
.LBB107_167:
	ldr	r0, [r4, #32]
	adds	r0, r0, #1
	str	r0, [r4, #32]
	ldr	r0, [r4, #36]
	adcs	r0, r7
	str	r0, [r4, #36]
	ldr	r0, [r4, #24]
	str	r0, [sp, #128]
	subs	r1, r3, #3
	ldr	r5, [sp, #124]
	ldr	r7, [sp, #76]
	beq	.LBB107_169
	ldr	r0, [r6]
	adds	r0, r0, r7
	adds	r0, #24
	lsls	r2, r1, #3
	movs	r1, #0
	bl	tlsf_memory_set
.LBB107_169:
	ldr	r1, [r6]
	ldr	r0, [sp, #88]
	adds	r0, r1, r0
	ldr	r0, [r0, #16]
	adds	r1, r1, r7
	ldr	r3, [r1, #16]
	cmp	r3, r0
	blo	.LBB107_171
	mov	r3, r0
.LBB107_171:
	mov	r0, r6
	ldr	r1, [sp, #132]
	ldr	r6, [sp, #84]
	mov	r2, r6
	bl	tlsf_words.words.Words.copy_payload
	add	r1, sp, #136
	ldr	r0, [sp, #104]
	bl	tlsf_heap.heap.Heap.release_live.4
.LBB107_172:
	rsbs	r1, r5, #0
	adcs	r1, r5
	str	r6, [sp, #132]
.LBB107_173:
	ldr	r6, [sp, #112]
.LBB107_174:
	movs	r2, #1
	strb	r2, [r4]
	adds	r1, r5, r1
	subs	r1, r1, #1
	lsls	r1, r1, #28
	ldr	r3, [sp, #108]
	bpl	.LBB107_177
	ldrb	r1, [r3, #28]
	cmp	r1, #0
	bne	.LBB107_177
	strb	r2, [r3, #28]
.LBB107_177:
	ldr	r3, [sp, #120]
	strb	r3, [r6, #8]
	ldr	r4, [sp, #132]
	strb	r4, [r6, #4]
	ldr	r5, [sp, #128]
	strb	r5, [r6]
	ldr	r2, [sp, #116]
	strb	r2, [r6, #12]
	lsrs	r1, r3, #24
	strb	r1, [r6, #11]
	lsrs	r1, r3, #16
	strb	r1, [r6, #10]
	lsrs	r1, r3, #8
	strb	r1, [r6, #9]
	lsrs	r1, r4, #24
	strb	r1, [r6, #7]
	lsrs	r1, r4, #16
	strb	r1, [r6, #6]
	lsrs	r1, r4, #8
	strb	r1, [r6, #5]
	lsrs	r1, r5, #24
	strb	r1, [r6, #3]
	lsrs	r1, r5, #16
	strb	r1, [r6, #2]
	lsrs	r1, r5, #8
	strb	r1, [r6, #1]
	lsrs	r1, r2, #24
	strb	r1, [r6, #15]
	lsrs	r1, r2, #16
	strb	r1, [r6, #14]
	lsrs	r1, r2, #8
	strb	r1, [r6, #13]
	movs	r0, #0
	add	sp, #156
	pop	{r4, r5, r6, r7, pc}
	.p2align	2
.LCPI107_0:
	.long	536870904
.Lfunc_end107:
	.size	tlsf_reallocate, .Lfunc_end107-tlsf_reallocate
	.cfi_endproc
	.section	.text.tlsf_release,"ax",%progbits
	.globl	tlsf_release
	.p2align	1
	.type	tlsf_release,%function
	.code	16
	.thumb_func
tlsf_release:
	.cfi_startproc
	push	{r7, lr}
	.cfi_def_cfa_offset 8
	.cfi_offset lr, -4
	.cfi_offset r7, -8
	sub	sp, #8
	.cfi_def_cfa_offset 16
	mov	r1, r2
	str	r3, [sp]
	ldr	r2, [sp, #16]
	ldr	r3, [sp, #20]
	bl	tlsf_c.heap_calls.release_named
	add	sp, #8
	pop	{r7, pc}
.Lfunc_end108:
	.size	tlsf_release, .Lfunc_end108-tlsf_release
	.cfi_endproc
	.section	.text.tlsf_release_all,"ax",%progbits
	.globl	tlsf_release_all
	.p2align	2
	.type	tlsf_release_all,%function
	.code	16
	.thumb_func
tlsf_release_all:
	.cfi_startproc
	push	{r4, r5, r6, r7, lr}
	.cfi_def_cfa_offset 20
	.cfi_offset lr, -4
	.cfi_offset r7, -8
	.cfi_offset r6, -12
	.cfi_offset r5, -16
	.cfi_offset r4, -20
	sub	sp, #108
	.cfi_def_cfa_offset 128
	str	r2, [sp, #104]
	movs	r3, #1
	cmp	r1, #0
	bne	.LBB109_2
	lsls	r2, r3, #12
	adds	r1, r1, r2
.LBB109_2:
	ldrb	r2, [r0, #8]
	cmp	r2, #0
	beq	.LBB109_9
	ldr	r6, [r0]
	ldrb	r0, [r6]
	cmp	r0, #0
	beq	.LBB109_9
	str	r3, [sp, #56]
	movs	r7, #0
	strb	r7, [r6]
	ldrb	r0, [r6, #16]
	cmp	r0, #0
	str	r1, [sp, #100]
	beq	.LBB109_7
	ldr	r0, [sp, #104]
	cmp	r0, #0
	bne	.LBB109_6
	b	.LBB109_44
.LBB109_6:
	mvns	r0, r7
	str	r0, [sp, #48]
	mov	r0, r6
	adds	r0, #108
	str	r0, [sp, #40]
	mov	r0, r6
	adds	r0, #192
	str	r0, [sp, #44]
	mov	r0, r6
	adds	r0, #48
	str	r0, [sp, #60]
	mov	r4, r7
	b	.LBB109_12
.LBB109_7:
	ldr	r0, [sp, #104]
	cmp	r0, #0
	bne	.LBB109_8
	b	.LBB109_44
.LBB109_8:
	movs	r4, #0
	mvns	r0, r4
	str	r0, [sp, #48]
	mov	r0, r6
	adds	r0, #108
	str	r0, [sp, #40]
	mov	r0, r6
	adds	r0, #192
	str	r0, [sp, #44]
	mov	r0, r6
	adds	r0, #48
	str	r0, [sp, #60]
	mov	r7, r4
	b	.LBB109_29
.LBB109_9:
	movs	r0, #0
	bl	tlsf_c.call_fault.CallFault.refusal
	add	sp, #108
	pop	{r4, r5, r6, r7, pc}
.LBB109_10:
	movs	r0, #0
	ldr	r1, [sp, #96]
	adds	r1, r1, #1
	str	r2, [sp, #88]
	str	r1, [r5, #32]
	ldr	r1, [sp, #76]
	adcs	r0, r1
	str	r0, [r5, #36]
	str	r3, [sp]
	ldr	r0, [sp, #80]
	str	r0, [sp, #4]
	ldr	r0, [sp, #96]
	add	r2, sp, #8
	stm	r2!, {r0, r1, r6}
	ldr	r0, [sp, #60]
	ldr	r2, [sp, #88]
	ldr	r3, [sp, #68]
	bl	tlsf_heap.fitting.merge_next.5
.LBB109_11:
	movs	r0, #0
	adds	r4, r4, #1
	adcs	r7, r0
	ldr	r1, [sp, #104]
	subs	r1, r4, r1
	mov	r1, r7
	sbcs	r1, r0
	ldr	r1, [sp, #100]
	mov	r6, r5
	blo	.LBB109_12
	b	.LBB109_44
.LBB109_12:
	lsls	r2, r4, #4
	adds	r0, r1, r2
	ldrb	r1, [r1, r2]
	ldrb	r2, [r0, #1]
	lsls	r2, r2, #8
	adds	r1, r2, r1
	ldrb	r2, [r0, #2]
	lsls	r2, r2, #16
	ldrb	r3, [r0, #3]
	lsls	r3, r3, #24
	adds	r2, r3, r2
	adds	r1, r2, r1
	mov	r5, r6
	ldr	r2, [r6, #24]
	cmp	r1, r2
	bne	.LBB109_11
	ldrb	r1, [r0, #4]
	ldrb	r2, [r0, #5]
	lsls	r2, r2, #8
	adds	r1, r2, r1
	ldrb	r2, [r0, #6]
	lsls	r2, r2, #16
	ldrb	r3, [r0, #7]
	lsls	r3, r3, #24
	adds	r2, r3, r2
	adds	r6, r2, r1
	ldr	r1, [r5, #56]
	cmp	r6, r1
	bhs	.LBB109_11
	ldrb	r1, [r0, #12]
	str	r1, [sp, #84]
	ldrb	r1, [r0, #13]
	str	r1, [sp, #68]
	ldrb	r1, [r0, #14]
	str	r1, [sp, #76]
	ldrb	r1, [r0, #15]
	str	r1, [sp, #72]
	ldrb	r1, [r0, #8]
	str	r1, [sp, #96]
	ldrb	r1, [r0, #9]
	str	r1, [sp, #80]
	ldrb	r1, [r0, #10]
	str	r1, [sp, #92]
	ldrb	r0, [r0, #11]
	str	r0, [sp, #88]
	movs	r2, #63
	ands	r2, r6
	lsrs	r1, r6, #3
	ldr	r0, .LCPI109_0
	ands	r1, r0
	ldr	r3, [r5, #72]
	ldr	r0, [r3, r1]
	adds	r1, r3, r1
	ldr	r1, [r1, #4]
	bl	__aeabi_llsr
	lsls	r0, r0, #31
	beq	.LBB109_11
	lsls	r1, r6, #3
	ldr	r0, [sp, #60]
	ldr	r3, [r0]
	str	r1, [sp, #64]
	ldr	r0, [r3, r1]
	str	r0, [sp, #52]
	lsls	r1, r0, #31
	bne	.LBB109_11
	ldr	r0, [sp, #68]
	lsls	r1, r0, #8
	ldr	r0, [sp, #84]
	adds	r1, r1, r0
	ldr	r0, [sp, #76]
	lsls	r2, r0, #16
	ldr	r0, [sp, #72]
	lsls	r0, r0, #24
	adds	r0, r0, r2
	adds	r0, r0, r1
	str	r0, [sp, #84]
	ldr	r0, [sp, #80]
	lsls	r1, r0, #8
	ldr	r0, [sp, #96]
	adds	r1, r1, r0
	ldr	r0, [sp, #92]
	lsls	r2, r0, #16
	ldr	r0, [sp, #88]
	lsls	r0, r0, #24
	adds	r0, r0, r2
	adds	r0, r0, r1
	str	r0, [sp, #96]
	ldr	r1, [sp, #64]
	adds	r2, r3, r1
	ldr	r1, [r2, #8]
	str	r2, [sp, #92]
	ldr	r2, [r2, #12]
	ldr	r0, [sp, #84]
	eors	r2, r0
	ldr	r0, [sp, #96]
	eors	r1, r0
	orrs	r1, r2
	bne	.LBB109_11
	ldr	r1, [r5, #32]
	ldr	r0, [r5, #36]
	str	r0, [sp, #76]
	ldr	r2, [sp, #48]
	eors	r0, r2
	str	r1, [sp, #96]
	eors	r1, r2
	orrs	r1, r0
	beq	.LBB109_11
	str	r3, [sp, #72]
	ldr	r0, [sp, #92]
	ldr	r0, [r0, #4]
	str	r0, [sp, #80]
	ldr	r3, [sp, #52]
	lsrs	r2, r3, #2
	ldr	r0, [r5, #40]
	str	r2, [sp, #84]
	subs	r0, r0, r2
	str	r0, [r5, #40]
	lsls	r0, r3, #30
	movs	r1, #0
	cmp	r0, #0
	str	r1, [sp, #88]
	bmi	.LBB109_20
	ldr	r0, [sp, #84]
	adds	r0, r0, r6
	lsls	r0, r0, #3
	ldr	r1, [sp, #72]
	ldr	r2, [r1, r0]
	str	r2, [sp, #88]
	adds	r0, r1, r0
	ldr	r1, [r0, #4]
.LBB109_20:
	str	r1, [sp, #68]
	cmp	r6, #0
	beq	.LBB109_22
	ldr	r0, [sp, #80]
	lsls	r1, r0, #3
	ldr	r0, [sp, #72]
	ldr	r2, [r0, r1]
	lsls	r0, r2, #31
	bne	.LBB109_25
.LBB109_22:
	ldr	r2, [sp, #88]
	lsls	r0, r2, #31
	beq	.LBB109_23
	b	.LBB109_10
.LBB109_23:
	ldr	r0, [sp, #56]
	orrs	r3, r0
	ldr	r1, [sp, #92]
	str	r3, [r1]
	ldr	r0, [sp, #80]
	str	r0, [r1, #4]
	ldr	r0, [sp, #96]
	str	r0, [r1, #8]
	ldr	r0, [sp, #76]
	str	r0, [r1, #12]
	ldr	r0, [r5, #32]
	movs	r2, #0
	adds	r0, r0, #1
	str	r0, [r5, #32]
	ldr	r0, [r5, #36]
	str	r2, [sp, #92]
	adcs	r0, r2
	str	r5, [sp, #96]
	str	r0, [r5, #36]
	movs	r0, #32
	ldr	r1, [sp, #84]
	orrs	r0, r1
	bl	__clzsi2
	movs	r1, #26
	subs	r0, r1, r0
	ldr	r1, [sp, #84]
	lsrs	r1, r0
	lsls	r0, r0, #5
	str	r1, [sp, #84]
	adds	r0, r1, r0
	lsls	r2, r0, #2
	ldr	r3, [sp, #44]
	ldr	r1, [r3, r2]
	str	r6, [r3, r2]
	cmp	r1, #0
	bmi	.LBB109_26
	ldr	r0, [sp, #60]
	ldr	r0, [r0]
	ldr	r2, [sp, #64]
	adds	r2, r0, r2
	ldr	r3, [sp, #92]
	mvns	r3, r3
	str	r1, [r2, #16]
	str	r3, [r2, #20]
	lsls	r1, r1, #3
	adds	r0, r0, r1
	str	r6, [r0, #20]
	b	.LBB109_11
.LBB109_25:
	ldr	r0, [sp, #72]
	adds	r0, r0, r1
	ldr	r0, [r0, #4]
	str	r0, [sp, #92]
	movs	r1, #0
	str	r2, [sp, #84]
	ldr	r0, [sp, #96]
	adds	r2, r0, #1
	str	r2, [r5, #32]
	ldr	r2, [sp, #76]
	adcs	r1, r2
	str	r1, [r5, #36]
	str	r3, [sp, #24]
	ldr	r0, [sp, #80]
	str	r0, [sp, #28]
	ldr	r0, [sp, #84]
	str	r0, [sp]
	ldr	r0, [sp, #92]
	str	r0, [sp, #4]
	ldr	r0, [sp, #96]
	add	r1, sp, #8
	stm	r1!, {r0, r2, r6}
	ldr	r0, [sp, #60]
	ldr	r2, [sp, #88]
	ldr	r3, [sp, #68]
	bl	tlsf_heap.fitting.merge_before.5
	b	.LBB109_11
.LBB109_26:
	ldr	r1, [sp, #96]
	ldr	r1, [r1, #48]
	ldr	r2, [sp, #64]
	adds	r1, r1, r2
	ldr	r2, [sp, #48]
	str	r2, [r1, #16]
	str	r2, [r1, #20]
	movs	r1, #31
	ldr	r2, [sp, #84]
	ands	r2, r1
	ldr	r1, [sp, #56]
	lsls	r1, r2
	lsrs	r0, r0, #5
	lsls	r2, r0, #2
	ldr	r6, [sp, #40]
	ldr	r3, [r6, r2]
	orrs	r3, r1
	str	r3, [r6, r2]
	ldr	r1, [sp, #56]
	lsls	r1, r0
	ldr	r2, [sp, #96]
	ldr	r0, [r2, #104]
	orrs	r0, r1
	str	r0, [r2, #104]
	b	.LBB109_11
.LBB109_27:
	movs	r0, #0
	adds	r5, r1, #1
	str	r5, [r6, #32]
	ldr	r5, [sp, #84]
	adcs	r0, r5
	str	r0, [r6, #36]
	str	r3, [sp]
	ldr	r0, [sp, #88]
	add	r3, sp, #4
	stm	r3!, {r0, r1, r5}
	ldr	r0, [sp, #96]
	str	r0, [sp, #16]
	ldr	r0, [sp, #60]
	ldr	r3, [sp, #72]
	bl	tlsf_heap.fitting.merge_next.4
.LBB109_28:
	movs	r0, #0
	adds	r7, r7, #1
	adcs	r4, r0
	ldr	r1, [sp, #104]
	subs	r1, r7, r1
	mov	r1, r4
	sbcs	r1, r0
	ldr	r1, [sp, #100]
	blo	.LBB109_29
	b	.LBB109_44
.LBB109_29:
	lsls	r2, r7, #4
	adds	r0, r1, r2
	ldrb	r1, [r1, r2]
	ldrb	r2, [r0, #1]
	lsls	r2, r2, #8
	adds	r1, r2, r1
	ldrb	r2, [r0, #2]
	lsls	r2, r2, #16
	ldrb	r3, [r0, #3]
	lsls	r3, r3, #24
	adds	r2, r3, r2
	adds	r1, r2, r1
	ldr	r2, [r6, #24]
	cmp	r1, r2
	bne	.LBB109_28
	ldrb	r1, [r0, #4]
	ldrb	r2, [r0, #5]
	lsls	r2, r2, #8
	adds	r1, r2, r1
	ldrb	r2, [r0, #6]
	lsls	r2, r2, #16
	ldrb	r3, [r0, #7]
	lsls	r3, r3, #24
	adds	r2, r3, r2
	adds	r2, r2, r1
	ldr	r1, [r6, #56]
	cmp	r2, r1
	bhs	.LBB109_28
	ldrb	r1, [r0, #12]
	str	r1, [sp, #80]
	ldrb	r5, [r0, #13]
	ldrb	r1, [r0, #14]
	str	r1, [sp, #72]
	ldrb	r1, [r0, #15]
	str	r1, [sp, #68]
	ldrb	r1, [r0, #8]
	str	r1, [sp, #92]
	ldrb	r1, [r0, #9]
	str	r1, [sp, #76]
	ldrb	r1, [r0, #10]
	str	r1, [sp, #88]
	ldrb	r0, [r0, #11]
	str	r0, [sp, #84]
	str	r2, [sp, #96]
	movs	r2, #63
	ldr	r0, [sp, #96]
	ands	r2, r0
	ldr	r0, [sp, #96]
	lsrs	r1, r0, #3
	ldr	r0, .LCPI109_0
	ands	r1, r0
	ldr	r3, [r6, #72]
	ldr	r0, [r3, r1]
	adds	r1, r3, r1
	ldr	r1, [r1, #4]
	bl	__aeabi_llsr
	ldr	r1, [sp, #96]
	lsls	r0, r0, #31
	beq	.LBB109_28
	lsls	r1, r1, #3
	ldr	r0, [sp, #60]
	ldr	r3, [r0]
	str	r1, [sp, #64]
	ldr	r0, [r3, r1]
	str	r0, [sp, #52]
	lsls	r1, r0, #31
	bne	.LBB109_28
	lsls	r1, r5, #8
	ldr	r0, [sp, #80]
	adds	r1, r1, r0
	ldr	r0, [sp, #72]
	lsls	r2, r0, #16
	ldr	r0, [sp, #68]
	lsls	r5, r0, #24
	adds	r2, r5, r2
	adds	r1, r2, r1
	ldr	r0, [sp, #76]
	lsls	r2, r0, #8
	ldr	r0, [sp, #92]
	adds	r2, r2, r0
	ldr	r0, [sp, #88]
	lsls	r5, r0, #16
	ldr	r0, [sp, #84]
	lsls	r0, r0, #24
	adds	r0, r0, r5
	adds	r0, r0, r2
	ldr	r2, [sp, #64]
	adds	r2, r3, r2
	ldr	r5, [r2, #8]
	str	r2, [sp, #92]
	ldr	r2, [r2, #12]
	eors	r2, r1
	eors	r5, r0
	orrs	r5, r2
	bne	.LBB109_28
	ldr	r1, [r6, #32]
	ldr	r0, [r6, #36]
	str	r0, [sp, #84]
	ldr	r5, [sp, #48]
	eors	r0, r5
	mov	r2, r1
	eors	r2, r5
	orrs	r2, r0
	beq	.LBB109_28
	str	r3, [sp, #76]
	ldr	r0, [sp, #92]
	ldr	r0, [r0, #4]
	str	r0, [sp, #88]
	ldr	r3, [sp, #52]
	lsrs	r5, r3, #2
	ldr	r0, [r6, #40]
	subs	r0, r0, r5
	str	r0, [r6, #40]
	lsls	r0, r3, #30
	movs	r2, #0
	cmp	r0, #0
	str	r2, [sp, #80]
	bmi	.LBB109_37
	ldr	r0, [sp, #96]
	adds	r0, r5, r0
	lsls	r0, r0, #3
	str	r1, [sp, #72]
	ldr	r1, [sp, #76]
	ldr	r2, [r1, r0]
	str	r2, [sp, #80]
	adds	r0, r1, r0
	ldr	r1, [sp, #72]
	ldr	r2, [r0, #4]
.LBB109_37:
	str	r2, [sp, #72]
	str	r5, [sp, #68]
	ldr	r2, [sp, #96]
	cmp	r2, #0
	beq	.LBB109_39
	ldr	r0, [sp, #88]
	lsls	r5, r0, #3
	ldr	r0, [sp, #76]
	ldr	r0, [r0, r5]
	str	r0, [sp, #36]
	lsls	r0, r0, #31
	bne	.LBB109_42
.LBB109_39:
	ldr	r2, [sp, #80]
	lsls	r0, r2, #31
	beq	.LBB109_40
	b	.LBB109_27
.LBB109_40:
	ldr	r0, [sp, #56]
	orrs	r3, r0
	ldr	r2, [sp, #92]
	str	r3, [r2]
	ldr	r0, [sp, #88]
	str	r0, [r2, #4]
	str	r1, [r2, #8]
	ldr	r0, [sp, #84]
	str	r0, [r2, #12]
	ldr	r0, [r6, #32]
	movs	r1, #0
	adds	r0, r0, #1
	str	r0, [r6, #32]
	ldr	r0, [r6, #36]
	str	r1, [sp, #92]
	adcs	r0, r1
	str	r0, [r6, #36]
	movs	r0, #16
	ldr	r5, [sp, #68]
	orrs	r0, r5
	bl	__clzsi2
	movs	r1, #27
	subs	r0, r1, r0
	lsrs	r5, r0
	lsls	r0, r0, #4
	adds	r0, r5, r0
	str	r0, [sp, #88]
	lsls	r0, r0, #2
	ldr	r3, [sp, #44]
	ldr	r1, [r3, r0]
	ldr	r2, [sp, #96]
	str	r2, [r3, r0]
	cmp	r1, #0
	bmi	.LBB109_43
	ldr	r0, [sp, #60]
	ldr	r0, [r0]
	mov	r5, r2
	ldr	r2, [sp, #64]
	adds	r2, r0, r2
	ldr	r3, [sp, #92]
	mvns	r3, r3
	str	r1, [r2, #16]
	str	r3, [r2, #20]
	lsls	r1, r1, #3
	adds	r0, r0, r1
	str	r5, [r0, #20]
	b	.LBB109_28
.LBB109_42:
	ldr	r0, [sp, #76]
	adds	r0, r0, r5
	ldr	r5, [r0, #4]
	movs	r2, #0
	mov	r0, r3
	adds	r3, r1, #1
	str	r3, [r6, #32]
	ldr	r3, [sp, #84]
	adcs	r2, r3
	str	r2, [r6, #36]
	str	r0, [sp, #24]
	ldr	r0, [sp, #88]
	str	r0, [sp, #28]
	ldr	r0, [sp, #36]
	str	r0, [sp]
	str	r5, [sp, #4]
	str	r1, [sp, #8]
	str	r3, [sp, #12]
	ldr	r0, [sp, #96]
	str	r0, [sp, #16]
	ldr	r0, [sp, #60]
	ldr	r2, [sp, #80]
	ldr	r3, [sp, #72]
	bl	tlsf_heap.fitting.merge_before.4
	b	.LBB109_28
.LBB109_43:
	ldr	r1, [r6, #48]
	ldr	r2, [sp, #64]
	adds	r1, r1, r2
	ldr	r2, [sp, #48]
	str	r2, [r1, #16]
	str	r2, [r1, #20]
	movs	r1, #15
	ands	r5, r1
	ldr	r1, [sp, #56]
	lsls	r1, r5
	ldr	r0, [sp, #88]
	lsrs	r0, r0, #4
	lsls	r2, r0, #2
	ldr	r5, [sp, #40]
	ldr	r3, [r5, r2]
	orrs	r3, r1
	str	r3, [r5, r2]
	ldr	r1, [sp, #56]
	lsls	r1, r0
	ldr	r0, [r6, #104]
	orrs	r0, r1
	str	r0, [r6, #104]
	b	.LBB109_28
.LBB109_44:
	ldr	r0, [sp, #56]
	strb	r0, [r6]
	movs	r0, #0
	add	sp, #108
	pop	{r4, r5, r6, r7, pc}
	.p2align	2
.LCPI109_0:
	.long	536870904
.Lfunc_end109:
	.size	tlsf_release_all, .Lfunc_end109-tlsf_release_all
	.cfi_endproc
	.section	.text.tlsf_release_place,"ax",%progbits
	.globl	tlsf_release_place
	.p2align	1
	.type	tlsf_release_place,%function
	.code	16
	.thumb_func
tlsf_release_place:
	.cfi_startproc
	push	{r4, r5, r6, r7, lr}
	.cfi_def_cfa_offset 20
	.cfi_offset lr, -4
	.cfi_offset r7, -8
	.cfi_offset r6, -12
	.cfi_offset r5, -16
	.cfi_offset r4, -20
	sub	sp, #68
	.cfi_def_cfa_offset 88
	mov	r4, r1
	ldrb	r1, [r0, #8]
	cmp	r1, #0
	bne	.LBB110_1
	b	.LBB110_28
.LBB110_1:
	ldr	r6, [r0]
	ldrb	r0, [r6]
	cmp	r0, #0
	bne	.LBB110_2
	b	.LBB110_28
.LBB110_2:
	movs	r7, #0
	strb	r7, [r6]
	ldr	r0, [r6, #56]
	mov	r1, r6
	adds	r1, #48
	str	r1, [sp, #64]
	ldrb	r1, [r6, #16]
	cmp	r1, #0
	beq	.LBB110_14
	cmp	r4, r0
	blo	.LBB110_4
	b	.LBB110_26
.LBB110_4:
	movs	r2, #63
	ands	r2, r4
	ldr	r1, [r6, #72]
	lsrs	r0, r4, #6
	lsls	r3, r0, #3
	ldr	r0, [r1, r3]
	adds	r1, r1, r3
	ldr	r1, [r1, #4]
	bl	__aeabi_llsr
	lsls	r0, r0, #31
	bne	.LBB110_5
	b	.LBB110_26
.LBB110_5:
	lsls	r2, r4, #3
	ldr	r0, [sp, #64]
	ldr	r3, [r0]
	ldr	r5, [r3, r2]
	lsls	r0, r5, #31
	beq	.LBB110_6
	b	.LBB110_26
.LBB110_6:
	ldr	r0, [r6, #32]
	ldr	r1, [r6, #36]
	str	r0, [sp, #52]
	str	r1, [sp, #56]
	ands	r0, r1
	adds	r0, r0, #1
	bne	.LBB110_7
	b	.LBB110_25
.LBB110_7:
	str	r2, [sp, #40]
	adds	r0, r3, r2
	str	r0, [sp, #44]
	ldr	r0, [r0, #4]
	str	r0, [sp, #60]
	lsrs	r0, r5, #2
	ldr	r2, [r6, #40]
	subs	r2, r2, r0
	str	r2, [r6, #40]
	lsls	r2, r5, #30
	mov	r1, r7
	mov	r2, r7
	bmi	.LBB110_9
	adds	r2, r0, r4
	lsls	r2, r2, #3
	ldr	r1, [r3, r2]
	adds	r2, r3, r2
	ldr	r2, [r2, #4]
.LBB110_9:
	str	r2, [sp, #48]
	str	r0, [sp, #36]
	cmp	r4, #0
	beq	.LBB110_11
	ldr	r0, [sp, #60]
	lsls	r2, r0, #3
	ldr	r0, [r3, r2]
	str	r0, [sp, #32]
	lsls	r0, r0, #31
	beq	.LBB110_11
	b	.LBB110_30
.LBB110_11:
	lsls	r0, r1, #31
	beq	.LBB110_12
	b	.LBB110_29
.LBB110_12:
	movs	r0, #1
	str	r0, [sp, #48]
	orrs	r5, r0
	ldr	r1, [sp, #44]
	str	r5, [r1]
	ldr	r0, [sp, #60]
	str	r0, [r1, #4]
	ldr	r0, [sp, #52]
	str	r0, [r1, #8]
	ldr	r0, [sp, #56]
	str	r0, [r1, #12]
	ldr	r0, [r6, #32]
	movs	r1, #0
	adds	r0, r0, #1
	str	r0, [r6, #32]
	ldr	r0, [r6, #36]
	str	r1, [sp, #44]
	adcs	r0, r1
	str	r0, [r6, #36]
	movs	r0, #32
	ldr	r5, [sp, #36]
	orrs	r0, r5
	bl	__clzsi2
	movs	r1, #26
	subs	r0, r1, r0
	lsrs	r5, r0
	lsls	r0, r0, #5
	adds	r0, r5, r0
	lsls	r1, r0, #2
	adds	r2, r6, r1
	movs	r3, #192
	ldr	r1, [r2, r3]
	str	r4, [r2, r3]
	cmp	r1, #0
	bpl	.LBB110_24
	mvns	r1, r7
	ldr	r2, [r6, #48]
	ldr	r3, [sp, #40]
	adds	r2, r2, r3
	str	r1, [r2, #16]
	str	r1, [r2, #20]
	lsrs	r0, r0, #5
	ldr	r3, [sp, #48]
	mov	r1, r3
	lsls	r1, r0
	ldr	r2, [r6, #104]
	orrs	r2, r1
	str	r2, [r6, #104]
	movs	r1, #31
	ands	r5, r1
	lsls	r3, r5
	lsls	r0, r0, #2
	adds	r0, r6, r0
	ldr	r1, [r0, #108]
	orrs	r1, r3
	b	.LBB110_35
.LBB110_14:
	cmp	r4, r0
	bhs	.LBB110_26
	movs	r2, #63
	ands	r2, r4
	ldr	r1, [r6, #72]
	lsrs	r0, r4, #6
	lsls	r3, r0, #3
	ldr	r0, [r1, r3]
	adds	r1, r1, r3
	ldr	r1, [r1, #4]
	bl	__aeabi_llsr
	lsls	r0, r0, #31
	beq	.LBB110_26
	lsls	r3, r4, #3
	ldr	r0, [sp, #64]
	ldr	r5, [r0]
	ldr	r7, [r5, r3]
	lsls	r0, r7, #31
	bne	.LBB110_26
	ldr	r1, [r6, #32]
	ldr	r0, [r6, #36]
	mov	r2, r1
	ands	r2, r0
	adds	r2, r2, #1
	beq	.LBB110_25
	str	r0, [sp, #52]
	str	r3, [sp, #40]
	adds	r0, r5, r3
	str	r0, [sp, #44]
	ldr	r0, [r0, #4]
	str	r0, [sp, #60]
	movs	r3, #0
	lsrs	r0, r7, #2
	ldr	r2, [r6, #40]
	subs	r2, r2, r0
	str	r2, [r6, #40]
	lsls	r2, r7, #30
	str	r3, [sp, #56]
	str	r3, [sp, #36]
	bmi	.LBB110_20
	adds	r2, r0, r4
	lsls	r2, r2, #3
	ldr	r3, [r5, r2]
	str	r3, [sp, #56]
	adds	r2, r5, r2
	ldr	r3, [r2, #4]
.LBB110_20:
	str	r0, [sp, #48]
	cmp	r4, #0
	beq	.LBB110_22
	ldr	r0, [sp, #60]
	lsls	r2, r0, #3
	ldr	r0, [r5, r2]
	str	r0, [sp, #32]
	lsls	r0, r0, #31
	beq	.LBB110_22
	b	.LBB110_33
.LBB110_22:
	ldr	r2, [sp, #56]
	lsls	r0, r2, #31
	bne	.LBB110_32
	movs	r0, #1
	mov	r5, r0
	orrs	r7, r0
	ldr	r2, [sp, #44]
	str	r7, [r2]
	ldr	r0, [sp, #60]
	str	r0, [r2, #4]
	str	r1, [r2, #8]
	ldr	r0, [sp, #52]
	str	r0, [r2, #12]
	ldr	r0, [r6, #32]
	movs	r1, #0
	adds	r0, r0, #1
	str	r0, [r6, #32]
	ldr	r0, [r6, #36]
	str	r1, [sp, #44]
	adcs	r0, r1
	str	r0, [r6, #36]
	movs	r0, #16
	ldr	r7, [sp, #48]
	orrs	r0, r7
	bl	__clzsi2
	movs	r1, #27
	subs	r0, r1, r0
	lsrs	r7, r0
	lsls	r0, r0, #4
	adds	r0, r7, r0
	lsls	r1, r0, #2
	adds	r2, r6, r1
	movs	r3, #192
	ldr	r1, [r2, r3]
	str	r4, [r2, r3]
	cmp	r1, #0
	bmi	.LBB110_34
.LBB110_24:
	ldr	r0, [sp, #64]
	ldr	r2, [r0]
	ldr	r0, [sp, #40]
	adds	r3, r2, r0
	movs	r0, #0
	mvns	r5, r0
	str	r1, [r3, #16]
	str	r5, [r3, #20]
	lsls	r1, r1, #3
	adds	r1, r2, r1
	str	r4, [r1, #20]
	b	.LBB110_37
.LBB110_25:
	movs	r0, #2
	b	.LBB110_37
.LBB110_26:
	ldr	r0, [r6, #24]
	mov	r1, r0
	bl	tlsf_heap.refusal.Refusal.of_name
	uxtb	r0, r0
	cmp	r0, #3
	beq	.LBB110_31
	movs	r0, #3
	b	.LBB110_37
.LBB110_28:
	movs	r0, #0
	bl	tlsf_c.call_fault.CallFault.refusal
	add	sp, #68
	pop	{r4, r5, r6, r7, pc}
.LBB110_29:
	mov	r2, r1
	movs	r7, #0
	ldr	r1, [sp, #52]
	adds	r0, r1, #1
	str	r0, [r6, #32]
	ldr	r3, [sp, #56]
	mov	r0, r3
	adcs	r0, r7
	str	r0, [r6, #36]
	str	r5, [sp]
	ldr	r0, [sp, #60]
	add	r5, sp, #4
	stm	r5!, {r0, r1, r3, r4}
	ldr	r0, [sp, #64]
	ldr	r3, [sp, #48]
	bl	tlsf_heap.fitting.merge_next.5
	mov	r0, r7
	b	.LBB110_37
.LBB110_30:
	adds	r0, r3, r2
	ldr	r0, [r0, #4]
	str	r0, [sp, #40]
	movs	r0, #0
	str	r0, [sp, #44]
	ldr	r7, [sp, #52]
	adds	r2, r7, #1
	str	r2, [r6, #32]
	ldr	r3, [sp, #56]
	mov	r2, r3
	adcs	r2, r0
	str	r2, [r6, #36]
	str	r5, [sp, #24]
	ldr	r0, [sp, #60]
	str	r0, [sp, #28]
	ldr	r0, [sp, #32]
	str	r0, [sp]
	ldr	r0, [sp, #40]
	str	r0, [sp, #4]
	str	r7, [sp, #8]
	str	r3, [sp, #12]
	str	r4, [sp, #16]
	ldr	r0, [sp, #64]
	mov	r2, r1
	ldr	r3, [sp, #48]
	bl	tlsf_heap.fitting.merge_before.5
	b	.LBB110_36
.LBB110_31:
	movs	r0, #4
	b	.LBB110_37
.LBB110_32:
	movs	r5, #0
	adds	r0, r1, #1
	str	r0, [r6, #32]
	str	r3, [sp, #48]
	ldr	r3, [sp, #52]
	mov	r0, r3
	adcs	r0, r5
	str	r0, [r6, #36]
	str	r7, [sp]
	ldr	r0, [sp, #60]
	add	r7, sp, #4
	stm	r7!, {r0, r1, r3, r4}
	ldr	r0, [sp, #64]
	ldr	r3, [sp, #48]
	bl	tlsf_heap.fitting.merge_next.4
	mov	r0, r5
	b	.LBB110_37
.LBB110_33:
	adds	r0, r5, r2
	ldr	r0, [r0, #4]
	movs	r5, #0
	adds	r2, r1, #1
	str	r2, [r6, #32]
	str	r3, [sp, #48]
	ldr	r3, [sp, #52]
	mov	r2, r3
	adcs	r2, r5
	str	r2, [r6, #36]
	str	r7, [sp, #24]
	ldr	r2, [sp, #60]
	str	r2, [sp, #28]
	ldr	r2, [sp, #32]
	str	r2, [sp]
	add	r2, sp, #4
	stm	r2!, {r0, r1, r3, r4}
	ldr	r0, [sp, #64]
	ldr	r2, [sp, #56]
	ldr	r3, [sp, #48]
	bl	tlsf_heap.fitting.merge_before.4
	mov	r0, r5
	b	.LBB110_37
.LBB110_34:
	ldr	r1, [sp, #36]
	mvns	r1, r1
	ldr	r2, [r6, #48]
	ldr	r3, [sp, #40]
	adds	r2, r2, r3
	str	r1, [r2, #16]
	str	r1, [r2, #20]
	lsrs	r0, r0, #4
	mov	r1, r5
	lsls	r1, r0
	ldr	r2, [r6, #104]
	orrs	r2, r1
	str	r2, [r6, #104]
	movs	r1, #15
	ands	r7, r1
	lsls	r5, r7
	lsls	r0, r0, #2
	adds	r0, r6, r0
	ldr	r1, [r0, #108]
	orrs	r1, r5
.LBB110_35:
	str	r1, [r0, #108]
.LBB110_36:
	ldr	r0, [sp, #44]
.LBB110_37:
	movs	r1, #1
	strb	r1, [r6]
	add	sp, #68
	pop	{r4, r5, r6, r7, pc}
.Lfunc_end110:
	.size	tlsf_release_place, .Lfunc_end110-tlsf_release_place
	.cfi_endproc
	.section	.text.tlsf_report,"ax",%progbits
	.globl	tlsf_report
	.p2align	1
	.type	tlsf_report,%function
	.code	16
	.thumb_func
tlsf_report:
	.cfi_startproc
	push	{r4, r5, r6, r7, lr}
	.cfi_def_cfa_offset 20
	.cfi_offset lr, -4
	.cfi_offset r7, -8
	.cfi_offset r6, -12
	.cfi_offset r5, -16
	.cfi_offset r4, -20
	sub	sp, #92
	.cfi_def_cfa_offset 112
	mov	r2, r0
	ldrb	r0, [r0, #8]
	movs	r7, #32
	cmp	r0, #0
	bne	.LBB111_1
	b	.LBB111_6
.LBB111_1:
	ldr	r4, [r2]
	ldrb	r0, [r4]
	cmp	r0, #1
	beq	.LBB111_2
	b	.LBB111_6
.LBB111_2:
	str	r1, [sp, #36]
	movs	r1, #0
	strb	r1, [r4]
	add	r0, sp, #40
	movs	r2, #48
	str	r1, [sp, #32]
	bl	tlsf_memory_set
	mov	r1, r4
	adds	r1, #24
	ldrb	r0, [r4, #16]
	cmp	r0, #0
	str	r4, [sp, #28]
	beq	.LBB111_4
	add	r0, sp, #40
	bl	tlsf_heap.heap.Heap.report.5
	b	.LBB111_5
.LBB111_4:
	add	r0, sp, #40
	bl	tlsf_heap.heap.Heap.report.4
.LBB111_5:
	ldr	r0, [sp, #40]
	str	r0, [sp, #24]
	ldr	r0, [sp, #44]
	str	r0, [sp, #20]
	ldr	r0, [sp, #48]
	str	r0, [sp, #16]
	ldr	r0, [sp, #52]
	str	r0, [sp, #12]
	ldr	r0, [sp, #56]
	str	r0, [sp, #8]
	ldr	r0, [sp, #60]
	str	r0, [sp, #4]
	ldr	r0, [sp, #64]
	str	r0, [sp]
	ldr	r5, [sp, #68]
	ldr	r1, [sp, #72]
	ldr	r0, [sp, #80]
	ldr	r6, [sp, #84]
	movs	r7, #44
	ldr	r3, [sp, #36]
	strb	r6, [r3, r7]
	movs	r7, #40
	strb	r0, [r3, r7]
	movs	r2, #36
	ldr	r7, [sp, #32]
	strb	r7, [r3, r2]
	movs	r2, #32
	strb	r1, [r3, r2]
	mov	r2, r3
	adds	r2, #44
	lsrs	r4, r6, #24
	strb	r4, [r2, #3]
	lsrs	r4, r6, #16
	strb	r4, [r2, #2]
	lsrs	r4, r6, #8
	strb	r4, [r2, #1]
	mov	r2, r3
	adds	r2, #40
	lsrs	r4, r0, #24
	strb	r4, [r2, #3]
	lsrs	r4, r0, #16
	strb	r4, [r2, #2]
	lsrs	r0, r0, #8
	strb	r0, [r2, #1]
	mov	r0, r3
	adds	r0, #36
	strb	r7, [r0, #3]
	strb	r7, [r0, #2]
	strb	r7, [r0, #1]
	mov	r0, r3
	adds	r0, #32
	lsrs	r2, r1, #24
	strb	r2, [r0, #3]
	lsrs	r2, r1, #16
	strb	r2, [r0, #2]
	lsrs	r1, r1, #8
	strb	r1, [r0, #1]
	lsrs	r0, r5, #24
	strb	r0, [r3, #31]
	lsrs	r0, r5, #16
	strb	r0, [r3, #30]
	lsrs	r0, r5, #8
	strb	r0, [r3, #29]
	strb	r5, [r3, #28]
	ldr	r1, [sp]
	lsrs	r0, r1, #24
	strb	r0, [r3, #27]
	lsrs	r0, r1, #16
	strb	r0, [r3, #26]
	lsrs	r0, r1, #8
	strb	r0, [r3, #25]
	strb	r1, [r3, #24]
	ldr	r1, [sp, #4]
	lsrs	r0, r1, #24
	strb	r0, [r3, #23]
	lsrs	r0, r1, #16
	strb	r0, [r3, #22]
	lsrs	r0, r1, #8
	strb	r0, [r3, #21]
	strb	r1, [r3, #20]
	ldr	r1, [sp, #8]
	lsrs	r0, r1, #24
	strb	r0, [r3, #19]
	lsrs	r0, r1, #16
	strb	r0, [r3, #18]
	lsrs	r0, r1, #8
	strb	r0, [r3, #17]
	strb	r1, [r3, #16]
	ldr	r1, [sp, #12]
	lsrs	r0, r1, #24
	strb	r0, [r3, #15]
	lsrs	r0, r1, #16
	strb	r0, [r3, #14]
	lsrs	r0, r1, #8
	strb	r0, [r3, #13]
	strb	r1, [r3, #12]
	ldr	r1, [sp, #16]
	lsrs	r0, r1, #24
	strb	r0, [r3, #11]
	lsrs	r0, r1, #16
	strb	r0, [r3, #10]
	lsrs	r0, r1, #8
	strb	r0, [r3, #9]
	strb	r1, [r3, #8]
	ldr	r1, [sp, #20]
	lsrs	r0, r1, #24
	strb	r0, [r3, #7]
	lsrs	r0, r1, #16
	strb	r0, [r3, #6]
	lsrs	r0, r1, #8
	strb	r0, [r3, #5]
	strb	r1, [r3, #4]
	ldr	r1, [sp, #24]
	lsrs	r0, r1, #24
	strb	r0, [r3, #3]
	lsrs	r0, r1, #16
	strb	r0, [r3, #2]
	lsrs	r0, r1, #8
	strb	r0, [r3, #1]
	strb	r1, [r3]
	movs	r0, #1
	ldr	r1, [sp, #28]
	strb	r0, [r1]
.LBB111_6:
	mov	r0, r7
	add	sp, #92
	pop	{r4, r5, r6, r7, pc}
.Lfunc_end111:
	.size	tlsf_report, .Lfunc_end111-tlsf_report
	.cfi_endproc
	.section	.text.tlsf_reset,"ax",%progbits
	.globl	tlsf_reset
	.p2align	2
	.type	tlsf_reset,%function
	.code	16
	.thumb_func
tlsf_reset:
	.cfi_startproc
	push	{r4, r5, r6, r7, lr}
	.cfi_def_cfa_offset 20
	.cfi_offset lr, -4
	.cfi_offset r7, -8
	.cfi_offset r6, -12
	.cfi_offset r5, -16
	.cfi_offset r4, -20
	sub	sp, #28
	.cfi_def_cfa_offset 48
	mov	r1, r0
	ldrb	r2, [r0, #8]
	movs	r0, #32
	cmp	r2, #0
	bne	.LBB112_1
	b	.LBB112_19
.LBB112_1:
	ldr	r6, [r1]
	ldrb	r1, [r6]
	cmp	r1, #1
	beq	.LBB112_2
	b	.LBB112_19
.LBB112_2:
	movs	r5, #0
	strb	r5, [r6]
	ldr	r3, [r6, #32]
	ldr	r7, [r6, #36]
	mvns	r2, r5
	ldrb	r0, [r6, #16]
	cmp	r0, #0
	beq	.LBB112_8
	mov	r0, r3
	eors	r0, r2
	mov	r1, r7
	eors	r1, r2
	orrs	r1, r0
	bne	.LBB112_4
	b	.LBB112_13
.LBB112_4:
	str	r3, [sp, #20]
	str	r7, [sp, #16]
	str	r2, [sp, #24]
	ldr	r1, [r6, #80]
	ldr	r0, [r6, #84]
	orrs	r0, r1
	beq	.LBB112_6
	ldr	r0, [r6, #72]
	lsls	r2, r1, #3
	movs	r1, #0
	bl	tlsf_memory_set
.LBB112_6:
	mov	r4, r6
	adds	r4, #192
	movs	r1, #255
	ldr	r2, .LCPI112_0
	mov	r0, r4
	bl	tlsf_memory_set
	mov	r0, r6
	adds	r0, #104
	movs	r2, #88
	mov	r1, r5
	bl	tlsf_memory_set
	ldr	r7, [r6, #56]
	ldr	r0, [r6, #48]
	lsls	r1, r7, #2
	adds	r1, r1, #3
	str	r1, [r0]
	ldr	r1, [sp, #24]
	str	r1, [r0, #4]
	ldr	r1, [sp, #20]
	str	r1, [r0, #8]
	ldr	r1, [sp, #16]
	str	r1, [r0, #12]
	ldr	r0, [r6, #72]
	ldr	r1, [r0]
	movs	r2, #1
	str	r2, [sp, #20]
	orrs	r1, r2
	str	r1, [r0]
	movs	r0, #32
	orrs	r0, r7
	bl	__clzsi2
	mov	r1, r0
	mov	r0, r5
	movs	r2, #26
	subs	r1, r2, r1
	lsrs	r7, r1
	lsls	r1, r1, #5
	adds	r1, r7, r1
	lsls	r3, r1, #2
	ldr	r2, [r4, r3]
	str	r5, [r4, r3]
	cmp	r2, #0
	bmi	.LBB112_14
	ldr	r1, [r6, #48]
	str	r2, [r1, #16]
	ldr	r3, [sp, #24]
	str	r3, [r1, #20]
	lsls	r2, r2, #3
	adds	r1, r1, r2
	str	r0, [r1, #20]
	b	.LBB112_17
.LBB112_8:
	mov	r0, r3
	eors	r0, r2
	mov	r1, r7
	eors	r1, r2
	orrs	r1, r0
	beq	.LBB112_13
	str	r3, [sp, #20]
	str	r2, [sp, #24]
	str	r5, [sp, #16]
	ldr	r1, [r6, #80]
	ldr	r0, [r6, #84]
	orrs	r0, r1
	beq	.LBB112_11
	ldr	r0, [r6, #72]
	lsls	r2, r1, #3
	movs	r1, #0
	bl	tlsf_memory_set
.LBB112_11:
	mov	r0, r6
	adds	r0, #192
	str	r0, [sp, #12]
	movs	r1, #255
	ldr	r2, .LCPI112_0
	bl	tlsf_memory_set
	mov	r0, r6
	adds	r0, #104
	movs	r4, #0
	movs	r2, #88
	mov	r1, r4
	str	r4, [sp, #8]
	bl	tlsf_memory_set
	ldr	r5, [r6, #56]
	ldr	r0, [r6, #48]
	lsls	r1, r5, #2
	adds	r1, r1, #3
	mvns	r2, r4
	str	r1, [r0]
	str	r2, [sp, #4]
	str	r2, [r0, #4]
	ldr	r1, [sp, #20]
	str	r1, [r0, #8]
	str	r7, [r0, #12]
	ldr	r0, [r6, #72]
	ldr	r1, [r0]
	movs	r7, #1
	orrs	r1, r7
	str	r1, [r0]
	movs	r0, #16
	orrs	r0, r5
	bl	__clzsi2
	movs	r1, #27
	subs	r0, r1, r0
	lsrs	r5, r0
	lsls	r0, r0, #4
	adds	r0, r5, r0
	lsls	r2, r0, #2
	ldr	r4, [sp, #12]
	ldr	r1, [r4, r2]
	ldr	r3, [sp, #8]
	str	r3, [r4, r2]
	cmp	r1, #0
	bmi	.LBB112_15
	mov	r2, r3
	ldr	r0, [r6, #48]
	str	r1, [r0, #16]
	ldr	r3, [sp, #4]
	str	r3, [r0, #20]
	lsls	r1, r1, #3
	adds	r0, r0, r1
	str	r2, [r0, #20]
	b	.LBB112_16
.LBB112_13:
	movs	r0, #2
	b	.LBB112_18
.LBB112_14:
	ldr	r2, [r6, #48]
	ldr	r3, [sp, #24]
	str	r3, [r2, #16]
	str	r3, [r2, #20]
	lsrs	r1, r1, #5
	ldr	r4, [sp, #20]
	mov	r2, r4
	lsls	r2, r1
	ldr	r3, [r6, #104]
	orrs	r3, r2
	str	r3, [r6, #104]
	movs	r2, #31
	ands	r7, r2
	lsls	r4, r7
	lsls	r1, r1, #2
	adds	r1, r6, r1
	ldr	r2, [r1, #108]
	orrs	r2, r4
	str	r2, [r1, #108]
	b	.LBB112_17
.LBB112_15:
	ldr	r1, [r6, #48]
	ldr	r2, [sp, #24]
	str	r2, [r1, #16]
	str	r2, [r1, #20]
	lsrs	r0, r0, #4
	mov	r1, r7
	lsls	r1, r0
	ldr	r2, [r6, #104]
	orrs	r2, r1
	str	r2, [r6, #104]
	movs	r1, #15
	ands	r5, r1
	lsls	r7, r5
	lsls	r0, r0, #2
	adds	r0, r6, r0
	ldr	r1, [r0, #108]
	orrs	r1, r7
	str	r1, [r0, #108]
.LBB112_16:
	ldr	r0, [sp, #16]
.LBB112_17:
	str	r0, [r6, #40]
	ldr	r1, [r6, #32]
	adds	r1, r1, #1
	str	r1, [r6, #32]
	ldr	r1, [r6, #36]
	adcs	r1, r0
	str	r1, [r6, #36]
.LBB112_18:
	movs	r1, #1
	strb	r1, [r6]
.LBB112_19:
	add	sp, #28
	pop	{r4, r5, r6, r7, pc}
	.p2align	2
.LCPI112_0:
	.long	2564
.Lfunc_end112:
	.size	tlsf_reset, .Lfunc_end112-tlsf_reset
	.cfi_endproc
	.section	.text.tlsf_resize,"ax",%progbits
	.globl	tlsf_resize
	.p2align	2
	.type	tlsf_resize,%function
	.code	16
	.thumb_func
tlsf_resize:
	.cfi_startproc
	push	{r4, r5, r6, r7, lr}
	.cfi_def_cfa_offset 20
	.cfi_offset lr, -4
	.cfi_offset r7, -8
	.cfi_offset r6, -12
	.cfi_offset r5, -16
	.cfi_offset r4, -20
	sub	sp, #92
	.cfi_def_cfa_offset 112
	str	r3, [sp, #76]
	ldrb	r1, [r0, #8]
	cmp	r1, #0
	bne	.LBB113_1
	b	.LBB113_54
.LBB113_1:
	ldr	r6, [r0]
	ldrb	r1, [r6]
	cmp	r1, #0
	bne	.LBB113_2
	b	.LBB113_54
.LBB113_2:
	mov	r4, r2
	ldr	r5, [sp, #120]
	movs	r3, #0
	strb	r3, [r6]
	adds	r1, r5, #1
	mov	r2, r3
	adcs	r2, r3
	cmp	r5, #0
	beq	.LBB113_4
	mov	r1, r5
.LBB113_4:
	str	r5, [sp, #64]
	str	r0, [sp, #60]
	beq	.LBB113_6
	mov	r2, r3
.LBB113_6:
	ldr	r7, [sp, #116]
	ldr	r0, [sp, #112]
	str	r0, [sp, #68]
	adds	r1, #31
	adcs	r2, r3
	lsrs	r0, r1, #3
	lsls	r1, r2, #29
	adds	r0, r0, r1
	str	r0, [sp, #72]
	ldr	r1, [r6, #24]
	ldrb	r0, [r6, #16]
	cmp	r0, #0
	beq	.LBB113_16
	cmp	r1, r4
	bne	.LBB113_25
	ldr	r0, [r6, #56]
	ldr	r1, [sp, #76]
	cmp	r1, r0
	mov	r1, r4
	bhs	.LBB113_25
	movs	r2, #63
	ldr	r0, [sp, #76]
	ands	r2, r0
	ldr	r1, [r6, #72]
	lsrs	r0, r0, #6
	lsls	r3, r0, #3
	ldr	r0, [r1, r3]
	adds	r1, r1, r3
	ldr	r1, [r1, #4]
	bl	__aeabi_llsr
	lsls	r0, r0, #31
	mov	r1, r4
	beq	.LBB113_25
	mov	r1, r6
	adds	r1, #48
	ldr	r0, [sp, #76]
	lsls	r5, r0, #3
	str	r1, [sp, #52]
	ldr	r0, [r1]
	ldr	r1, [r0, r5]
	str	r1, [sp, #56]
	lsls	r1, r1, #31
	mov	r1, r4
	bne	.LBB113_25
	adds	r2, r0, r5
	ldr	r1, [r2, #8]
	ldr	r3, [r2, #12]
	eors	r3, r7
	ldr	r7, [sp, #68]
	eors	r1, r7
	orrs	r1, r3
	mov	r1, r4
	bne	.LBB113_25
	str	r5, [sp, #68]
	ldr	r5, [r2, #4]
	ldr	r1, [sp, #56]
	lsrs	r4, r1, #2
	ldr	r7, [sp, #72]
	cmp	r7, r4
	bls	.LBB113_27
	lsls	r1, r1, #30
	bmi	.LBB113_15
	ldr	r1, [sp, #76]
	adds	r1, r4, r1
	lsls	r2, r1, #3
	ldr	r1, [r0, r2]
	lsls	r3, r1, #31
	beq	.LBB113_15
	b	.LBB113_55
.LBB113_15:
	movs	r1, #0
	mov	r0, r1
	b	.LBB113_56
.LBB113_16:
	cmp	r1, r4
	bne	.LBB113_25
	ldr	r0, [r6, #56]
	ldr	r1, [sp, #76]
	cmp	r1, r0
	mov	r1, r4
	bhs	.LBB113_25
	movs	r2, #63
	ldr	r0, [sp, #76]
	ands	r2, r0
	ldr	r1, [r6, #72]
	lsrs	r0, r0, #6
	lsls	r3, r0, #3
	ldr	r0, [r1, r3]
	adds	r1, r1, r3
	ldr	r1, [r1, #4]
	bl	__aeabi_llsr
	lsls	r0, r0, #31
	mov	r1, r4
	beq	.LBB113_25
	mov	r1, r6
	adds	r1, #48
	ldr	r0, [sp, #76]
	lsls	r5, r0, #3
	str	r1, [sp, #52]
	ldr	r0, [r1]
	ldr	r1, [r0, r5]
	str	r1, [sp, #56]
	lsls	r1, r1, #31
	mov	r1, r4
	bne	.LBB113_25
	adds	r2, r0, r5
	ldr	r1, [r2, #8]
	ldr	r3, [r2, #12]
	eors	r3, r7
	ldr	r7, [sp, #68]
	eors	r1, r7
	orrs	r1, r3
	mov	r1, r4
	bne	.LBB113_25
	str	r5, [sp, #68]
	ldr	r5, [r2, #4]
	ldr	r1, [sp, #56]
	lsrs	r4, r1, #2
	ldr	r7, [sp, #72]
	cmp	r7, r4
	bls	.LBB113_39
	lsls	r1, r1, #30
	bmi	.LBB113_24
	ldr	r1, [sp, #76]
	adds	r1, r4, r1
	lsls	r2, r1, #3
	ldr	r1, [r0, r2]
	lsls	r3, r1, #31
	beq	.LBB113_24
	b	.LBB113_70
.LBB113_24:
	movs	r1, #0
	mov	r0, r1
	b	.LBB113_71
.LBB113_25:
	mov	r0, r4
	bl	tlsf_heap.refusal.Refusal.of_name
	movs	r1, #1
	strb	r1, [r6]
	uxtb	r0, r0
	cmp	r0, #3
	bne	.LBB113_26
	b	.LBB113_53
.LBB113_26:
	movs	r0, #3
	add	sp, #92
	pop	{r4, r5, r6, r7, pc}
.LBB113_27:
	str	r5, [sp, #48]
	ldr	r0, [r6, #32]
	ldr	r1, [r6, #36]
	str	r0, [sp, #44]
	ands	r0, r1
	adds	r0, r0, #1
	bne	.LBB113_28
	b	.LBB113_90
.LBB113_28:
	str	r1, [sp, #36]
	movs	r0, #0
	str	r0, [sp, #40]
	str	r0, [r2, #20]
	ldr	r5, [r2, #16]
	ldr	r0, [sp, #64]
	str	r0, [r2, #16]
	cmp	r0, r5
	bls	.LBB113_37
	movs	r0, #7
	mov	r2, r5
	ands	r2, r0
	beq	.LBB113_31
	ldr	r1, [sp, #68]
	adds	r7, r1, r5
	adds	r7, #24
	bics	r7, r0
	ldr	r0, [sp, #52]
	ldr	r1, [r0]
	str	r1, [sp, #28]
	ldr	r0, [r1, r7]
	str	r0, [sp, #80]
	adds	r0, r1, r7
	str	r0, [sp, #32]
	ldr	r0, [r0, #4]
	str	r0, [sp, #84]
	add	r0, sp, #80
	adds	r0, r0, r2
	ldr	r1, .LCPI113_0
	adds	r1, r1, r2
	str	r2, [sp, #68]
	movs	r2, #8
	ldr	r3, [sp, #68]
	subs	r2, r2, r3
	bl	tlsf_memory_cpy
	ldr	r2, [sp, #68]
	ldr	r0, [sp, #80]
	ldr	r1, [sp, #28]
	str	r0, [r1, r7]
	ldr	r7, [sp, #72]
	ldr	r0, [sp, #84]
	ldr	r1, [sp, #32]
	str	r0, [r1, #4]
.LBB113_31:
	ldr	r1, [sp, #64]
	lsrs	r0, r1, #3
	lsls	r1, r1, #29
	beq	.LBB113_33
	adds	r0, r0, #1
.LBB113_33:
	lsrs	r1, r5, #3
	cmp	r2, #0
	beq	.LBB113_35
	adds	r1, r1, #1
.LBB113_35:
	cmp	r0, r1
	beq	.LBB113_37
	subs	r0, r0, r1
	lsls	r2, r0, #3
	ldr	r0, [sp, #76]
	adds	r0, r0, r1
	lsls	r0, r0, #3
	ldr	r1, [sp, #52]
	ldr	r1, [r1]
	adds	r0, r0, r1
	adds	r0, #24
	movs	r1, #0
	bl	tlsf_memory_set
.LBB113_37:
	adds	r0, r7, #4
	cmp	r4, r0
	mov	r0, r4
	blo	.LBB113_52
	str	r7, [sp]
	ldr	r0, [sp, #44]
	str	r0, [sp, #8]
	ldr	r0, [sp, #36]
	str	r0, [sp, #12]
	ldr	r0, [sp, #52]
	ldr	r1, [sp, #76]
	ldr	r2, [sp, #56]
	ldr	r3, [sp, #48]
	bl	tlsf_heap.refitting.split_off.5
	b	.LBB113_51
.LBB113_39:
	str	r5, [sp, #48]
	ldr	r0, [r6, #32]
	ldr	r1, [r6, #36]
	str	r0, [sp, #44]
	ands	r0, r1
	adds	r0, r0, #1
	bne	.LBB113_40
	b	.LBB113_90
.LBB113_40:
	str	r1, [sp, #36]
	movs	r0, #0
	str	r0, [sp, #40]
	str	r0, [r2, #20]
	ldr	r5, [r2, #16]
	ldr	r0, [sp, #64]
	str	r0, [r2, #16]
	cmp	r0, r5
	bls	.LBB113_49
	movs	r0, #7
	mov	r2, r5
	ands	r2, r0
	beq	.LBB113_43
	ldr	r1, [sp, #68]
	adds	r7, r1, r5
	adds	r7, #24
	bics	r7, r0
	ldr	r0, [sp, #52]
	ldr	r1, [r0]
	str	r1, [sp, #28]
	ldr	r0, [r1, r7]
	str	r0, [sp, #80]
	adds	r0, r1, r7
	str	r0, [sp, #32]
	ldr	r0, [r0, #4]
	str	r0, [sp, #84]
	add	r0, sp, #80
	adds	r0, r0, r2
	ldr	r1, .LCPI113_0
	adds	r1, r1, r2
	str	r2, [sp, #68]
	movs	r2, #8
	ldr	r3, [sp, #68]
	subs	r2, r2, r3
	bl	tlsf_memory_cpy
	ldr	r2, [sp, #68]
	ldr	r0, [sp, #80]
	ldr	r1, [sp, #28]
	str	r0, [r1, r7]
	ldr	r7, [sp, #72]
	ldr	r0, [sp, #84]
	ldr	r1, [sp, #32]
	str	r0, [r1, #4]
.LBB113_43:
	ldr	r1, [sp, #64]
	lsrs	r0, r1, #3
	lsls	r1, r1, #29
	beq	.LBB113_45
	adds	r0, r0, #1
.LBB113_45:
	lsrs	r1, r5, #3
	cmp	r2, #0
	beq	.LBB113_47
	adds	r1, r1, #1
.LBB113_47:
	cmp	r0, r1
	beq	.LBB113_49
	subs	r0, r0, r1
	lsls	r2, r0, #3
	ldr	r0, [sp, #76]
	adds	r0, r0, r1
	lsls	r0, r0, #3
	ldr	r1, [sp, #52]
	ldr	r1, [r1]
	adds	r0, r0, r1
	adds	r0, #24
	movs	r1, #0
	bl	tlsf_memory_set
.LBB113_49:
	adds	r0, r7, #4
	cmp	r4, r0
	mov	r0, r4
	blo	.LBB113_52
	str	r7, [sp]
	ldr	r0, [sp, #44]
	str	r0, [sp, #8]
	ldr	r0, [sp, #36]
	str	r0, [sp, #12]
	ldr	r0, [sp, #52]
	ldr	r1, [sp, #76]
	ldr	r2, [sp, #56]
	ldr	r3, [sp, #48]
	bl	tlsf_heap.refitting.split_off.4
.LBB113_51:
	mov	r0, r7
.LBB113_52:
	subs	r0, r0, r4
	ldr	r1, [r6, #40]
	adds	r0, r0, r1
	ldr	r1, [r6, #32]
	adds	r1, r1, #1
	str	r1, [r6, #32]
	str	r0, [r6, #40]
	ldr	r0, [r6, #36]
	ldr	r1, [sp, #40]
	adcs	r0, r1
	str	r0, [r6, #36]
	ldr	r5, [sp, #60]
	b	.LBB113_87
.LBB113_53:
	movs	r0, #4
	add	sp, #92
	pop	{r4, r5, r6, r7, pc}
.LBB113_54:
	movs	r0, #0
	bl	tlsf_c.call_fault.CallFault.refusal
	add	sp, #92
	pop	{r4, r5, r6, r7, pc}
.LBB113_55:
	adds	r0, r0, r2
	ldr	r0, [r0, #4]
.LBB113_56:
	lsrs	r2, r1, #2
	adds	r2, r2, r4
	cmp	r2, r7
	blo	.LBB113_72
	str	r5, [sp, #48]
	ldr	r2, [r6, #32]
	ldr	r3, [r6, #36]
	mov	r5, r2
	ands	r5, r3
	adds	r5, r5, #1
	bne	.LBB113_58
	b	.LBB113_90
.LBB113_58:
	str	r2, [sp, #16]
	str	r3, [sp, #20]
	str	r1, [sp]
	str	r0, [sp, #4]
	str	r7, [sp, #8]
	ldr	r5, [sp, #52]
	mov	r0, r5
	ldr	r1, [sp, #76]
	ldr	r2, [sp, #56]
	ldr	r3, [sp, #48]
	bl	tlsf_heap.refitting.recut.5
	str	r0, [sp, #56]
	ldr	r0, [r5]
	ldr	r1, [sp, #68]
	adds	r0, r0, r1
	movs	r2, #0
	str	r2, [r0, #20]
	ldr	r7, [r0, #16]
	ldr	r1, [sp, #64]
	str	r1, [r0, #16]
	cmp	r1, r7
	ldr	r5, [sp, #60]
	bls	.LBB113_67
	movs	r0, #7
	mov	r1, r7
	ands	r7, r0
	str	r2, [sp, #44]
	str	r1, [sp, #48]
	beq	.LBB113_61
	ldr	r1, [sp, #68]
	ldr	r5, [sp, #48]
	adds	r5, r1, r5
	adds	r5, #24
	bics	r5, r0
	ldr	r0, [sp, #52]
	ldr	r1, [r0]
	str	r1, [sp, #40]
	ldr	r0, [r1, r5]
	str	r0, [sp, #80]
	adds	r0, r1, r5
	str	r0, [sp, #68]
	ldr	r0, [r0, #4]
	str	r0, [sp, #84]
	add	r0, sp, #80
	adds	r0, r0, r7
	ldr	r1, .LCPI113_0
	adds	r1, r1, r7
	movs	r2, #8
	subs	r2, r2, r7
	bl	tlsf_memory_cpy
	ldr	r2, [sp, #44]
	ldr	r0, [sp, #80]
	ldr	r3, [sp, #40]
	str	r0, [r3, r5]
	ldr	r5, [sp, #60]
	ldr	r0, [sp, #84]
	ldr	r3, [sp, #68]
	str	r0, [r3, #4]
.LBB113_61:
	ldr	r1, [sp, #64]
	lsrs	r0, r1, #3
	lsls	r1, r1, #29
	beq	.LBB113_63
	adds	r0, r0, #1
.LBB113_63:
	ldr	r1, [sp, #48]
	lsrs	r1, r1, #3
	cmp	r7, #0
	beq	.LBB113_65
	adds	r1, r1, #1
.LBB113_65:
	cmp	r0, r1
	beq	.LBB113_67
	subs	r0, r0, r1
	lsls	r2, r0, #3
	ldr	r0, [sp, #76]
	adds	r0, r0, r1
	lsls	r0, r0, #3
	ldr	r1, [sp, #52]
	ldr	r1, [r1]
	adds	r0, r0, r1
	adds	r0, #24
	movs	r1, #0
	bl	tlsf_memory_set
	ldr	r2, [sp, #44]
.LBB113_67:
	ldr	r0, [sp, #56]
	subs	r0, r0, r4
	ldr	r1, [r6, #40]
	adds	r0, r1, r0
	str	r0, [r6, #40]
	ldr	r1, [r6, #44]
	cmp	r1, r0
	bhs	.LBB113_69
	str	r0, [r6, #44]
.LBB113_69:
	ldr	r0, [r6, #32]
	adds	r0, r0, #1
	str	r0, [r6, #32]
	ldr	r0, [r6, #36]
	adcs	r0, r2
	b	.LBB113_86
.LBB113_70:
	adds	r0, r0, r2
	ldr	r0, [r0, #4]
.LBB113_71:
	lsrs	r2, r1, #2
	adds	r2, r2, r4
	cmp	r2, r7
	bhs	.LBB113_73
.LBB113_72:
	movs	r0, #1
	strb	r0, [r6]
	movs	r0, #10
	add	sp, #92
	pop	{r4, r5, r6, r7, pc}
.LBB113_73:
	str	r5, [sp, #48]
	ldr	r2, [r6, #32]
	ldr	r3, [r6, #36]
	mov	r5, r2
	ands	r5, r3
	adds	r5, r5, #1
	beq	.LBB113_90
	str	r2, [sp, #16]
	str	r3, [sp, #20]
	str	r1, [sp]
	str	r0, [sp, #4]
	str	r7, [sp, #8]
	ldr	r5, [sp, #52]
	mov	r0, r5
	ldr	r1, [sp, #76]
	ldr	r2, [sp, #56]
	ldr	r3, [sp, #48]
	bl	tlsf_heap.refitting.recut.4
	str	r0, [sp, #48]
	ldr	r0, [r5]
	ldr	r2, [sp, #68]
	adds	r0, r0, r2
	movs	r1, #0
	str	r1, [sp, #56]
	str	r1, [r0, #20]
	ldr	r7, [r0, #16]
	ldr	r1, [sp, #64]
	str	r1, [r0, #16]
	cmp	r1, r7
	ldr	r5, [sp, #60]
	bls	.LBB113_83
	movs	r0, #7
	mov	r1, r7
	ands	r7, r0
	beq	.LBB113_77
	adds	r5, r2, r1
	adds	r5, #24
	bics	r5, r0
	ldr	r0, [sp, #52]
	ldr	r2, [r0]
	str	r2, [sp, #40]
	ldr	r0, [r2, r5]
	str	r0, [sp, #80]
	adds	r0, r2, r5
	str	r0, [sp, #44]
	ldr	r0, [r0, #4]
	str	r0, [sp, #84]
	add	r0, sp, #80
	adds	r0, r0, r7
	str	r1, [sp, #68]
	ldr	r1, .LCPI113_0
	adds	r1, r1, r7
	movs	r2, #8
	subs	r2, r2, r7
	bl	tlsf_memory_cpy
	ldr	r1, [sp, #68]
	ldr	r0, [sp, #80]
	ldr	r2, [sp, #40]
	str	r0, [r2, r5]
	ldr	r5, [sp, #60]
	ldr	r0, [sp, #84]
	ldr	r2, [sp, #44]
	str	r0, [r2, #4]
.LBB113_77:
	mov	r2, r1
	ldr	r1, [sp, #64]
	lsrs	r0, r1, #3
	lsls	r1, r1, #29
	beq	.LBB113_79
	adds	r0, r0, #1
.LBB113_79:
	lsrs	r1, r2, #3
	cmp	r7, #0
	beq	.LBB113_81
	adds	r1, r1, #1
.LBB113_81:
	cmp	r0, r1
	beq	.LBB113_83
	subs	r0, r0, r1
	lsls	r2, r0, #3
	ldr	r0, [sp, #76]
	adds	r0, r0, r1
	lsls	r0, r0, #3
	ldr	r1, [sp, #52]
	ldr	r1, [r1]
	adds	r0, r0, r1
	adds	r0, #24
	movs	r1, #0
	bl	tlsf_memory_set
.LBB113_83:
	ldr	r0, [sp, #48]
	subs	r0, r0, r4
	ldr	r1, [r6, #40]
	adds	r0, r1, r0
	str	r0, [r6, #40]
	ldr	r1, [r6, #44]
	cmp	r1, r0
	bhs	.LBB113_85
	str	r0, [r6, #44]
.LBB113_85:
	ldr	r0, [r6, #32]
	adds	r0, r0, #1
	str	r0, [r6, #32]
	ldr	r0, [r6, #36]
	ldr	r1, [sp, #56]
	adcs	r0, r1
.LBB113_86:
	str	r0, [r6, #36]
	ldr	r7, [sp, #72]
.LBB113_87:
	movs	r1, #1
	strb	r1, [r6]
	movs	r0, #0
	lsls	r2, r7, #31
	beq	.LBB113_89
	ldrb	r2, [r5, #28]
	cmp	r2, #0
	beq	.LBB113_91
.LBB113_89:
	add	sp, #92
	pop	{r4, r5, r6, r7, pc}
.LBB113_90:
	movs	r0, #1
	strb	r0, [r6]
	movs	r0, #2
	add	sp, #92
	pop	{r4, r5, r6, r7, pc}
.LBB113_91:
	strb	r1, [r5, #28]
	add	sp, #92
	pop	{r4, r5, r6, r7, pc}
	.p2align	2
.LCPI113_0:
	.long	.Lstatic.0
.Lfunc_end113:
	.size	tlsf_resize, .Lfunc_end113-tlsf_resize
	.cfi_endproc
	.section	.text.tlsf_resize_place,"ax",%progbits
	.globl	tlsf_resize_place
	.p2align	2
	.type	tlsf_resize_place,%function
	.code	16
	.thumb_func
tlsf_resize_place:
	.cfi_startproc
	push	{r4, r5, r6, r7, lr}
	.cfi_def_cfa_offset 20
	.cfi_offset lr, -4
	.cfi_offset r7, -8
	.cfi_offset r6, -12
	.cfi_offset r5, -16
	.cfi_offset r4, -20
	sub	sp, #148
	.cfi_def_cfa_offset 168
	mov	r5, r1
	ldrb	r1, [r0, #8]
	cmp	r1, #0
	bne	.LBB114_1
	b	.LBB114_30
.LBB114_1:
	ldr	r7, [r0]
	ldrb	r0, [r7]
	cmp	r0, #0
	bne	.LBB114_2
	b	.LBB114_30
.LBB114_2:
	str	r2, [sp, #124]
	str	r3, [sp, #116]
	movs	r6, #0
	strb	r6, [r7]
	ldr	r0, [r7, #56]
	mov	r3, r7
	adds	r3, #48
	mov	r4, r7
	adds	r4, #24
	ldrb	r1, [r7, #16]
	cmp	r1, #0
	beq	.LBB114_16
	cmp	r5, r0
	blo	.LBB114_4
	b	.LBB114_29
.LBB114_4:
	movs	r0, #63
	mov	r2, r5
	str	r0, [sp, #108]
	ands	r2, r0
	ldr	r1, [r7, #72]
	lsrs	r0, r5, #6
	str	r3, [sp, #120]
	lsls	r3, r0, #3
	ldr	r0, [r1, r3]
	adds	r1, r1, r3
	ldr	r1, [r1, #4]
	bl	__aeabi_llsr
	ldr	r1, [sp, #120]
	lsls	r0, r0, #31
	bne	.LBB114_5
	b	.LBB114_29
.LBB114_5:
	lsls	r3, r5, #3
	ldr	r1, [r1]
	ldr	r2, [r1, r3]
	lsls	r0, r2, #31
	beq	.LBB114_6
	b	.LBB114_29
.LBB114_6:
	str	r4, [sp, #96]
	mov	r4, r5
	str	r3, [sp, #92]
	str	r1, [sp, #84]
	adds	r0, r1, r3
	ldr	r5, [sp, #124]
	adds	r1, r5, #1
	mov	r3, r6
	adcs	r3, r6
	cmp	r5, #0
	beq	.LBB114_8
	ldr	r1, [sp, #124]
.LBB114_8:
	beq	.LBB114_10
	mov	r3, r6
.LBB114_10:
	adds	r1, #31
	adcs	r3, r6
	lsrs	r1, r1, #3
	lsls	r3, r3, #29
	adds	r1, r1, r3
	str	r1, [sp, #104]
	ldr	r1, [r0, #16]
	ldr	r3, [sp, #124]
	cmp	r3, r1
	str	r4, [sp, #112]
	blo	.LBB114_12
	mov	r3, r1
.LBB114_12:
	str	r3, [sp, #88]
	ldr	r1, [r0, #4]
	str	r1, [sp, #80]
	mvns	r5, r6
	lsrs	r1, r2, #2
	ldr	r6, [sp, #104]
	str	r1, [sp, #100]
	cmp	r6, r1
	ldr	r4, [sp, #96]
	bls	.LBB114_31
	str	r5, [sp, #76]
	ldr	r6, [r0, #8]
	ldr	r0, [r0, #12]
	str	r0, [sp, #72]
	ldr	r0, [r4]
	str	r0, [sp, #68]
	lsls	r0, r2, #30
	ldr	r5, [sp, #112]
	bmi	.LBB114_15
	ldr	r0, [sp, #100]
	adds	r0, r0, r5
	lsls	r3, r0, #3
	ldr	r0, [sp, #84]
	ldr	r0, [r0, r3]
	lsls	r1, r0, #31
	beq	.LBB114_15
	b	.LBB114_39
.LBB114_15:
	movs	r0, #0
	str	r0, [sp, #64]
	b	.LBB114_40
.LBB114_16:
	cmp	r5, r0
	bhs	.LBB114_29
	movs	r6, #63
	mov	r2, r5
	ands	r2, r6
	ldr	r1, [r7, #72]
	lsrs	r0, r5, #6
	str	r3, [sp, #120]
	lsls	r3, r0, #3
	ldr	r0, [r1, r3]
	adds	r1, r1, r3
	ldr	r1, [r1, #4]
	bl	__aeabi_llsr
	ldr	r1, [sp, #120]
	lsls	r0, r0, #31
	beq	.LBB114_29
	lsls	r3, r5, #3
	ldr	r1, [r1]
	ldr	r2, [r1, r3]
	lsls	r0, r2, #31
	bne	.LBB114_29
	str	r6, [sp, #80]
	str	r5, [sp, #112]
	str	r3, [sp, #104]
	str	r1, [sp, #100]
	adds	r0, r1, r3
	movs	r1, #0
	ldr	r5, [sp, #124]
	adds	r3, r5, #1
	mov	r6, r1
	adcs	r6, r1
	cmp	r5, #0
	beq	.LBB114_21
	ldr	r3, [sp, #124]
.LBB114_21:
	beq	.LBB114_23
	mov	r6, r1
.LBB114_23:
	adds	r3, #31
	adcs	r6, r1
	lsrs	r1, r3, #3
	lsls	r3, r6, #29
	adds	r6, r1, r3
	ldr	r1, [r0, #16]
	ldr	r3, [sp, #124]
	cmp	r3, r1
	ldr	r5, [sp, #112]
	blo	.LBB114_25
	mov	r3, r1
.LBB114_25:
	str	r3, [sp, #92]
	ldr	r1, [r0, #4]
	str	r1, [sp, #84]
	lsrs	r1, r2, #2
	str	r1, [sp, #108]
	cmp	r6, r1
	bls	.LBB114_35
	str	r6, [sp, #88]
	ldr	r6, [r0, #8]
	ldr	r0, [r0, #12]
	str	r0, [sp, #76]
	ldr	r0, [r4]
	str	r0, [sp, #72]
	lsls	r1, r2, #30
	bmi	.LBB114_28
	ldr	r0, [sp, #108]
	adds	r1, r0, r5
	lsls	r3, r1, #3
	ldr	r0, [sp, #100]
	ldr	r1, [r0, r3]
	lsls	r0, r1, #31
	beq	.LBB114_28
	b	.LBB114_51
.LBB114_28:
	movs	r1, #0
	mov	r3, r1
	b	.LBB114_52
.LBB114_29:
	movs	r0, #1
	strb	r0, [r7]
	movs	r0, #4
	add	sp, #148
	pop	{r4, r5, r6, r7, pc}
.LBB114_30:
	movs	r0, #0
	bl	tlsf_c.call_fault.CallFault.refusal
	add	sp, #148
	pop	{r4, r5, r6, r7, pc}
.LBB114_31:
	ldr	r1, [r7, #32]
	ldr	r3, [r7, #36]
	mov	r4, r3
	eors	r4, r5
	eors	r5, r1
	orrs	r5, r4
	ldr	r5, [sp, #112]
	bne	.LBB114_32
	b	.LBB114_66
.LBB114_32:
	str	r1, [sp, #96]
	movs	r1, #0
	ldr	r4, [sp, #88]
	str	r4, [r0, #16]
	str	r1, [sp, #108]
	str	r1, [r0, #20]
	adds	r0, r6, #4
	mov	r4, r5
	ldr	r5, [sp, #100]
	cmp	r5, r0
	mov	r0, r5
	mov	r5, r4
	blo	.LBB114_34
	str	r6, [sp]
	ldr	r0, [sp, #96]
	str	r0, [sp, #8]
	str	r3, [sp, #12]
	ldr	r0, [sp, #120]
	mov	r1, r5
	ldr	r3, [sp, #80]
	bl	tlsf_heap.refitting.split_off.5
	mov	r0, r6
.LBB114_34:
	ldr	r1, [sp, #100]
	subs	r0, r0, r1
	ldr	r1, [r7, #40]
	adds	r0, r0, r1
	ldr	r1, [r7, #32]
	adds	r1, r1, #1
	str	r1, [r7, #32]
	str	r0, [r7, #40]
	ldr	r0, [r7, #36]
	ldr	r1, [sp, #108]
	adcs	r0, r1
	str	r0, [r7, #36]
	ldr	r6, [sp, #116]
	ldr	r2, [sp, #124]
	ldr	r3, [sp, #92]
	b	.LBB114_64
.LBB114_35:
	ldr	r1, [r7, #32]
	ldr	r3, [r7, #36]
	mov	r4, r1
	ands	r4, r3
	adds	r4, r4, #1
	bne	.LBB114_36
	b	.LBB114_66
.LBB114_36:
	movs	r5, #0
	ldr	r4, [sp, #92]
	str	r4, [r0, #16]
	str	r5, [sp, #100]
	str	r5, [r0, #20]
	ldr	r5, [sp, #112]
	adds	r0, r6, #4
	ldr	r4, [sp, #108]
	cmp	r4, r0
	blo	.LBB114_38
	str	r6, [sp]
	str	r1, [sp, #8]
	str	r3, [sp, #12]
	ldr	r0, [sp, #120]
	mov	r1, r5
	ldr	r3, [sp, #84]
	bl	tlsf_heap.refitting.split_off.4
	mov	r4, r6
.LBB114_38:
	ldr	r1, [sp, #108]
	subs	r0, r4, r1
	ldr	r1, [r7, #40]
	adds	r0, r0, r1
	ldr	r1, [r7, #32]
	adds	r1, r1, #1
	str	r1, [r7, #32]
	str	r0, [r7, #40]
	ldr	r0, [r7, #36]
	ldr	r1, [sp, #100]
	adcs	r0, r1
	str	r0, [r7, #36]
	ldr	r6, [sp, #116]
	ldr	r2, [sp, #124]
	ldr	r3, [sp, #104]
	b	.LBB114_64
.LBB114_39:
	ldr	r1, [sp, #84]
	adds	r1, r1, r3
	ldr	r1, [r1, #4]
	str	r1, [sp, #64]
.LBB114_40:
	lsrs	r1, r0, #2
	ldr	r3, [sp, #100]
	adds	r1, r1, r3
	ldr	r3, [sp, #104]
	cmp	r1, r3
	bhs	.LBB114_47
	str	r6, [sp, #136]
	str	r5, [sp, #132]
	ldr	r0, [sp, #68]
	str	r0, [sp, #128]
	ldr	r0, [sp, #72]
	str	r0, [sp, #140]
	movs	r2, #0
	ldr	r1, [sp, #76]
	subs	r0, r1, #2
	str	r2, [sp, #100]
	sbcs	r1, r2
	ldr	r3, [r7, #32]
	ldr	r2, [r7, #36]
	subs	r0, r0, r3
	sbcs	r1, r2
	bhs	.LBB114_42
	b	.LBB114_66
.LBB114_42:
	movs	r4, #1
	lsls	r0, r4, #24
	ldr	r5, [sp, #104]
	cmp	r5, r0
	bls	.LBB114_43
	b	.LBB114_55
.LBB114_43:
	str	r3, [sp, #72]
	str	r2, [sp, #68]
	movs	r1, #32
	mov	r0, r5
	str	r1, [sp, #88]
	orrs	r0, r1
	bl	__clzsi2
	movs	r1, #26
	str	r1, [sp, #60]
	subs	r0, r1, r0
	subs	r2, r5, #1
	lsrs	r2, r0
	lsls	r0, r0, #5
	adds	r0, r2, r0
	adds	r0, r0, #1
	subs	r1, r0, #1
	ldr	r0, [sp, #100]
	sbcs	r0, r0
	str	r1, [sp, #80]
	lsrs	r1, r1, #5
	lsls	r3, r0, #27
	adds	r3, r1, r3
	lsls	r1, r3, #2
	mov	r5, r7
	adds	r5, #108
	ldr	r1, [r5, r1]
	movs	r6, #31
	str	r6, [sp, #64]
	ands	r2, r6
	lsrs	r1, r2
	bics	r1, r4
	bne	.LBB114_44
	b	.LBB114_70
.LBB114_44:
	str	r4, [sp, #48]
	str	r5, [sp, #56]
	cmp	r1, #0
	ldr	r2, [sp, #88]
	beq	.LBB114_46
	rsbs	r2, r1, #0
	ands	r2, r1
	ldr	r1, .LCPI114_3
	muls	r1, r2, r1
	lsrs	r1, r1, #27
	adr	r2, .LCPI114_4
	ldrb	r2, [r2, r1]
.LBB114_46:
	ldr	r1, [sp, #80]
	adds	r1, r1, r2
	ldr	r2, [sp, #100]
	adcs	r0, r2
	lsrs	r2, r1, #5
	lsls	r0, r0, #27
	adds	r0, r2, r0
	b	.LBB114_86
.LBB114_47:
	ldr	r1, [r7, #32]
	ldr	r3, [r7, #36]
	mov	r4, r3
	ldr	r5, [sp, #76]
	eors	r4, r5
	eors	r5, r1
	orrs	r5, r4
	ldr	r5, [sp, #112]
	ldr	r4, [sp, #104]
	bne	.LBB114_48
	b	.LBB114_66
.LBB114_48:
	str	r1, [sp, #16]
	str	r3, [sp, #20]
	str	r0, [sp]
	ldr	r0, [sp, #64]
	str	r0, [sp, #4]
	str	r4, [sp, #8]
	ldr	r0, [sp, #120]
	mov	r1, r5
	ldr	r3, [sp, #80]
	bl	tlsf_heap.refitting.recut.5
	ldr	r1, [r7, #48]
	ldr	r3, [sp, #92]
	adds	r2, r1, r3
	movs	r1, #0
	ldr	r4, [sp, #88]
	str	r4, [r2, #16]
	str	r1, [r2, #20]
	ldr	r2, [sp, #100]
	subs	r0, r0, r2
	ldr	r2, [r7, #40]
	adds	r0, r2, r0
	str	r0, [r7, #40]
	ldr	r2, [r7, #44]
	cmp	r2, r0
	ldr	r2, [sp, #124]
	bhs	.LBB114_50
	str	r0, [r7, #44]
.LBB114_50:
	ldr	r0, [r7, #32]
	adds	r0, r0, #1
	str	r0, [r7, #32]
	ldr	r0, [r7, #36]
	adcs	r0, r1
	str	r0, [r7, #36]
	ldr	r6, [sp, #116]
	b	.LBB114_64
.LBB114_51:
	ldr	r0, [sp, #100]
	adds	r0, r0, r3
	ldr	r3, [r0, #4]
.LBB114_52:
	lsrs	r0, r1, #2
	ldr	r5, [sp, #108]
	adds	r0, r0, r5
	ldr	r5, [sp, #88]
	cmp	r0, r5
	bhs	.LBB114_60
	str	r6, [sp, #136]
	ldr	r0, [sp, #112]
	str	r0, [sp, #132]
	ldr	r0, [sp, #72]
	str	r0, [sp, #128]
	ldr	r0, [sp, #76]
	str	r0, [sp, #140]
	movs	r5, #0
	mvns	r3, r5
	subs	r0, r3, #2
	mov	r1, r3
	sbcs	r1, r5
	ldr	r2, [r7, #32]
	ldr	r6, [r7, #36]
	str	r2, [sp, #108]
	subs	r0, r0, r2
	sbcs	r1, r6
	blo	.LBB114_66
	str	r6, [sp, #84]
	movs	r2, #1
	lsls	r0, r2, #20
	ldr	r6, [sp, #88]
	cmp	r6, r0
	bls	.LBB114_67
.LBB114_55:
	movs	r0, #1
	strb	r0, [r7]
	ldr	r1, [r7, #12]
	ldr	r2, [sp, #124]
	cmp	r2, r1
	bhi	.LBB114_57
	mov	r2, r1
.LBB114_57:
	str	r2, [r7, #12]
	ldr	r1, [r7, #8]
	adds	r1, r1, #1
	blo	.LBB114_59
	movs	r1, #0
	mvns	r1, r1
.LBB114_59:
	str	r1, [r7, #8]
	add	sp, #148
	pop	{r4, r5, r6, r7, pc}
.LBB114_60:
	ldr	r0, [r7, #32]
	ldr	r4, [r7, #36]
	mov	r6, r0
	ands	r6, r4
	adds	r6, r6, #1
	ldr	r6, [sp, #88]
	ldr	r5, [sp, #112]
	beq	.LBB114_66
	str	r0, [sp, #16]
	str	r4, [sp, #20]
	add	r0, sp, #0
	stm	r0!, {r1, r3, r6}
	ldr	r0, [sp, #120]
	mov	r1, r5
	ldr	r3, [sp, #84]
	bl	tlsf_heap.refitting.recut.4
	ldr	r1, [r7, #48]
	ldr	r3, [sp, #104]
	adds	r2, r1, r3
	movs	r1, #0
	ldr	r4, [sp, #92]
	str	r4, [r2, #16]
	str	r1, [r2, #20]
	ldr	r2, [sp, #108]
	subs	r0, r0, r2
	ldr	r2, [r7, #40]
	adds	r0, r2, r0
	str	r0, [r7, #40]
	ldr	r2, [r7, #44]
	cmp	r2, r0
	bhs	.LBB114_63
	str	r0, [r7, #44]
.LBB114_63:
	ldr	r0, [r7, #32]
	adds	r0, r0, #1
	str	r0, [r7, #32]
	ldr	r0, [r7, #36]
	adcs	r0, r1
	str	r0, [r7, #36]
	ldr	r6, [sp, #116]
	ldr	r2, [sp, #124]
.LBB114_64:
	ldr	r0, [sp, #120]
	ldr	r0, [r0]
	adds	r0, r0, r3
	movs	r1, #0
	str	r2, [r0, #16]
	str	r1, [r0, #20]
.LBB114_65:
	movs	r0, #1
	strb	r0, [r7]
	str	r5, [r6]
	movs	r0, #0
	add	sp, #148
	pop	{r4, r5, r6, r7, pc}
.LBB114_66:
	movs	r0, #1
	strb	r0, [r7]
	movs	r0, #2
	add	sp, #148
	pop	{r4, r5, r6, r7, pc}
.LBB114_67:
	str	r3, [sp, #64]
	movs	r1, #16
	mov	r0, r6
	str	r1, [sp, #48]
	orrs	r0, r1
	str	r2, [sp, #68]
	bl	__clzsi2
	movs	r1, #27
	str	r1, [sp, #44]
	subs	r0, r1, r0
	subs	r2, r6, #1
	lsrs	r2, r0
	lsls	r0, r0, #4
	adds	r0, r2, r0
	adds	r0, r0, #1
	subs	r1, r0, #1
	str	r5, [sp, #92]
	mov	r0, r5
	sbcs	r0, r5
	lsrs	r3, r1, #4
	lsls	r6, r0, #28
	adds	r3, r3, r6
	lsls	r6, r3, #2
	mov	r5, r7
	adds	r5, #108
	str	r5, [sp, #56]
	ldr	r6, [r5, r6]
	movs	r5, #15
	str	r5, [sp, #52]
	ands	r2, r5
	lsrs	r6, r2
	ldr	r2, [sp, #68]
	bics	r6, r2
	beq	.LBB114_76
	cmp	r6, #0
	beq	.LBB114_82
	rsbs	r2, r6, #0
	ands	r2, r6
	ldr	r3, .LCPI114_3
	muls	r3, r2, r3
	lsrs	r2, r3, #27
	adr	r3, .LCPI114_4
	ldrb	r2, [r3, r2]
	b	.LBB114_83
.LBB114_70:
	mvns	r0, r4
	lsls	r0, r3
	ldr	r6, [r7, #104]
	ands	r6, r0
	beq	.LBB114_55
	str	r4, [sp, #48]
	ldr	r2, .LCPI114_3
	adr	r1, .LCPI114_4
	movs	r3, #32
	cmp	r6, #0
	mov	r0, r3
	beq	.LBB114_73
	rsbs	r0, r6, #0
	ands	r0, r6
	muls	r0, r2, r0
	lsrs	r0, r0, #27
	ldrb	r0, [r1, r0]
.LBB114_73:
	lsls	r6, r0, #2
	str	r5, [sp, #56]
	ldr	r6, [r5, r6]
	cmp	r6, #0
	beq	.LBB114_85
	cmp	r6, #0
	beq	.LBB114_84
	rsbs	r3, r6, #0
	ands	r3, r6
	muls	r2, r3, r2
	lsrs	r2, r2, #27
	ldrb	r3, [r1, r2]
	b	.LBB114_85
.LBB114_76:
	mvns	r0, r2
	lsls	r0, r3
	ldr	r6, [r7, #104]
	ands	r6, r0
	bne	.LBB114_77
	b	.LBB114_55
.LBB114_77:
	ldr	r2, .LCPI114_3
	adr	r1, .LCPI114_4
	movs	r3, #32
	cmp	r6, #0
	mov	r0, r3
	beq	.LBB114_79
	rsbs	r0, r6, #0
	ands	r0, r6
	muls	r0, r2, r0
	lsrs	r0, r0, #27
	ldrb	r0, [r1, r0]
.LBB114_79:
	lsls	r6, r0, #2
	ldr	r5, [sp, #56]
	ldr	r6, [r5, r6]
	cmp	r6, #0
	bne	.LBB114_80
	b	.LBB114_107
.LBB114_80:
	cmp	r6, #0
	bne	.LBB114_81
	b	.LBB114_106
.LBB114_81:
	rsbs	r3, r6, #0
	ands	r3, r6
	muls	r2, r3, r2
	lsrs	r2, r2, #27
	ldrb	r3, [r1, r2]
	b	.LBB114_107
.LBB114_82:
	movs	r2, #32
.LBB114_83:
	ldr	r3, [sp, #92]
	adds	r1, r1, r2
	adcs	r0, r3
	lsrs	r2, r1, #4
	lsls	r0, r0, #28
	adds	r0, r2, r0
	b	.LBB114_108
.LBB114_84:
	movs	r3, #32
.LBB114_85:
	lsls	r0, r0, #5
	adds	r1, r3, r0
	lsrs	r0, r1, #5
.LBB114_86:
	lsls	r2, r1, #2
	mov	r4, r7
	adds	r4, #192
	ldr	r3, [r4, r2]
	str	r3, [sp, #88]
	lsls	r3, r3, #3
	ldr	r5, [sp, #84]
	str	r3, [sp, #80]
	adds	r3, r5, r3
	ldr	r3, [r3, #16]
	adds	r6, r3, #1
	str	r4, [sp, #52]
	beq	.LBB114_88
	lsls	r0, r3, #3
	adds	r0, r5, r0
	ldr	r1, [sp, #100]
	mvns	r1, r1
	str	r1, [r0, #20]
	str	r3, [r4, r2]
	ldr	r0, [sp, #120]
	ldr	r5, [r0]
	ldr	r2, [sp, #92]
	b	.LBB114_91
.LBB114_88:
	ldr	r6, [sp, #48]
	mvns	r3, r6
	adds	r3, r3, #1
	str	r3, [r4, r2]
	ldr	r2, [sp, #64]
	ands	r1, r2
	mov	r2, r6
	lsls	r2, r1
	lsls	r1, r0, #2
	ldr	r5, [sp, #56]
	ldr	r3, [r5, r1]
	bics	r3, r2
	str	r3, [r5, r1]
	bne	.LBB114_90
	lsls	r6, r0
	ldr	r0, [r7, #104]
	bics	r0, r6
	str	r0, [r7, #104]
.LBB114_90:
	ldr	r2, [sp, #92]
	ldr	r5, [sp, #84]
.LBB114_91:
	ldr	r0, [sp, #80]
	adds	r6, r5, r0
	ldr	r4, [r6, #4]
	ldr	r0, [r5, r0]
	ldr	r3, [sp, #104]
	lsls	r1, r3, #2
	subs	r1, r0, r1
	cmp	r1, #15
	bhi	.LBB114_93
	ldr	r3, [sp, #100]
	str	r3, [r6, #20]
	ldr	r1, [sp, #124]
	str	r1, [r6, #16]
	ldr	r1, [sp, #72]
	str	r1, [r6, #8]
	ldr	r1, [sp, #68]
	str	r1, [r6, #12]
	subs	r0, r0, #1
	str	r0, [r6]
	sbcs	r4, r3
	str	r4, [r6, #4]
	lsrs	r1, r0, #2
	ldr	r5, [sp, #112]
	b	.LBB114_101
.LBB114_93:
	str	r4, [sp, #36]
	lsrs	r2, r1, #2
	str	r2, [sp, #48]
	ldr	r2, [sp, #124]
	str	r2, [r6, #16]
	ldr	r2, [sp, #72]
	str	r2, [r6, #8]
	ldr	r2, [sp, #88]
	adds	r3, r2, r3
	mov	r2, r1
	str	r1, [sp, #44]
	lsls	r1, r3, #3
	adds	r4, r5, r1
	str	r4, [sp, #40]
	subs	r0, r0, r2
	str	r0, [r6]
	str	r1, [sp, #84]
	str	r2, [r5, r1]
	ldr	r0, [sp, #72]
	str	r0, [r4, #8]
	ldr	r5, [sp, #100]
	ldr	r4, [sp, #36]
	sbcs	r4, r5
	lsrs	r0, r3, #3
	ldr	r1, .LCPI114_0
	ands	r0, r1
	str	r0, [sp, #36]
	ldr	r1, [r7, #72]
	str	r1, [sp, #72]
	ldr	r0, [r1, r0]
	str	r0, [sp, #32]
	ldr	r2, [sp, #108]
	str	r3, [sp, #124]
	ands	r2, r3
	movs	r0, #1
	str	r0, [sp, #28]
	mov	r1, r5
	bl	__aeabi_llsl
	str	r1, [sp, #108]
	ldr	r1, [sp, #32]
	orrs	r0, r1
	ldr	r3, [sp, #72]
	ldr	r1, [sp, #36]
	str	r0, [r3, r1]
	str	r5, [r6, #20]
	ldr	r0, [sp, #68]
	str	r0, [r6, #12]
	str	r4, [r6, #4]
	ldr	r4, [sp, #48]
	ldr	r2, [sp, #40]
	str	r0, [r2, #12]
	ldr	r0, [sp, #88]
	str	r0, [r2, #4]
	adds	r0, r3, r1
	ldr	r2, [r0, #4]
	ldr	r1, [sp, #108]
	orrs	r2, r1
	str	r2, [r0, #4]
	mvns	r6, r5
	ldr	r0, [sp, #44]
	lsls	r0, r0, #30
	bmi	.LBB114_95
	ldr	r3, [sp, #124]
	adds	r0, r4, r3
	lsls	r0, r0, #3
	ldr	r1, [sp, #120]
	ldr	r1, [r1]
	ldr	r2, [r1, r0]
	ands	r2, r6
	str	r2, [r1, r0]
	adds	r0, r1, r0
	str	r3, [r0, #4]
.LBB114_95:
	movs	r0, #32
	orrs	r0, r4
	bl	__clzsi2
	ldr	r1, [sp, #60]
	subs	r0, r1, r0
	lsrs	r4, r0
	lsls	r0, r0, #5
	adds	r0, r4, r0
	lsls	r2, r0, #2
	ldr	r3, [sp, #52]
	ldr	r1, [r3, r2]
	ldr	r5, [sp, #124]
	str	r5, [r3, r2]
	mov	r3, r5
	cmp	r1, #0
	ldr	r5, [sp, #112]
	bmi	.LBB114_99
	ldr	r0, [sp, #120]
	ldr	r0, [r0]
	ldr	r2, [sp, #84]
	adds	r2, r0, r2
	str	r1, [r2, #16]
	str	r6, [r2, #20]
	lsls	r1, r1, #3
	adds	r0, r0, r1
	str	r3, [r0, #20]
	ldr	r1, [r0, #16]
	ands	r1, r6
	str	r1, [r0, #16]
	b	.LBB114_100
	.p2align	2
.LCPI114_3:
	.long	125613361
	.p2align	2
.LCPI114_4:
	.ascii	"\000\001\034\002\035\016\030\003\036\026\024\017\031\021\004\b\037\033\r\027\025\023\020\007\032\f\022\006\013\005\n\t"
	.p2align	1
.LBB114_99:
	ldr	r1, [r7, #48]
	ldr	r2, [sp, #84]
	adds	r1, r1, r2
	ldr	r2, [sp, #76]
	str	r2, [r1, #16]
	str	r2, [r1, #20]
	ldr	r1, [sp, #64]
	ands	r4, r1
	ldr	r1, [sp, #28]
	mov	r2, r1
	lsls	r2, r4
	lsrs	r0, r0, #5
	lsls	r4, r0, #2
	ldr	r6, [sp, #56]
	ldr	r3, [r6, r4]
	orrs	r3, r2
	str	r3, [r6, r4]
	lsls	r1, r0
	ldr	r0, [r7, #104]
	orrs	r0, r1
	str	r0, [r7, #104]
.LBB114_100:
	ldr	r2, [sp, #92]
	ldr	r1, [sp, #104]
.LBB114_101:
	ldr	r0, [r7, #40]
	adds	r0, r0, r1
	str	r0, [r7, #40]
	ldr	r1, [r7, #44]
	cmp	r1, r0
	ldr	r6, [sp, #116]
	bhs	.LBB114_103
	str	r0, [r7, #44]
.LBB114_103:
	ldr	r0, [r7, #32]
	adds	r0, r0, #1
	str	r0, [r7, #32]
	ldr	r0, [r7, #36]
	ldr	r1, [sp, #100]
	adcs	r0, r1
	str	r0, [r7, #36]
	ldr	r1, [r7, #48]
	adds	r0, r1, r2
	ldr	r0, [r0, #16]
	ldr	r2, [sp, #80]
	adds	r1, r1, r2
	ldr	r3, [r1, #16]
	cmp	r3, r0
	blo	.LBB114_105
	mov	r3, r0
.LBB114_105:
	ldr	r0, [sp, #120]
	mov	r1, r5
	ldr	r5, [sp, #88]
	mov	r2, r5
	bl	tlsf_words.words.Words.copy_payload
	add	r1, sp, #128
	ldr	r0, [sp, #96]
	bl	tlsf_heap.heap.Heap.release_live.5
	b	.LBB114_65
.LBB114_106:
	movs	r3, #32
.LBB114_107:
	lsls	r0, r0, #4
	adds	r1, r3, r0
	lsrs	r0, r1, #4
.LBB114_108:
	lsls	r3, r1, #2
	mov	r2, r7
	adds	r2, #192
	str	r3, [sp, #60]
	ldr	r3, [r2, r3]
	str	r3, [sp, #76]
	lsls	r3, r3, #3
	ldr	r5, [sp, #100]
	str	r3, [sp, #72]
	adds	r3, r5, r3
	ldr	r3, [r3, #16]
	adds	r6, r3, #1
	str	r2, [sp, #40]
	beq	.LBB114_110
	lsls	r0, r3, #3
	adds	r0, r5, r0
	ldr	r1, [sp, #64]
	str	r1, [r0, #20]
	ldr	r0, [sp, #60]
	str	r3, [r2, r0]
	ldr	r0, [sp, #120]
	ldr	r5, [r0]
	ldr	r2, [sp, #104]
	b	.LBB114_113
.LBB114_110:
	ldr	r6, [sp, #68]
	mvns	r3, r6
	adds	r3, r3, #1
	ldr	r5, [sp, #60]
	str	r3, [r2, r5]
	ldr	r2, [sp, #52]
	ands	r1, r2
	mov	r2, r6
	lsls	r2, r1
	lsls	r1, r0, #2
	ldr	r5, [sp, #56]
	ldr	r3, [r5, r1]
	bics	r3, r2
	str	r3, [r5, r1]
	bne	.LBB114_112
	lsls	r6, r0
	ldr	r0, [r7, #104]
	bics	r0, r6
	str	r0, [r7, #104]
.LBB114_112:
	ldr	r2, [sp, #104]
	ldr	r5, [sp, #100]
.LBB114_113:
	ldr	r0, [sp, #72]
	adds	r6, r5, r0
	ldr	r1, [r6, #4]
	str	r1, [sp, #68]
	ldr	r0, [r5, r0]
	ldr	r3, [sp, #88]
	lsls	r1, r3, #2
	subs	r1, r0, r1
	cmp	r1, #15
	bhi	.LBB114_115
	ldr	r3, [sp, #92]
	str	r3, [r6, #20]
	ldr	r1, [sp, #124]
	str	r1, [r6, #16]
	ldr	r1, [sp, #108]
	str	r1, [r6, #8]
	ldr	r1, [sp, #84]
	str	r1, [r6, #12]
	subs	r0, r0, #1
	str	r0, [r6]
	ldr	r1, [sp, #68]
	sbcs	r1, r3
	str	r1, [r6, #4]
	lsrs	r1, r0, #2
	ldr	r6, [sp, #116]
	b	.LBB114_121
.LBB114_115:
	lsrs	r2, r1, #2
	str	r2, [sp, #36]
	ldr	r2, [sp, #124]
	str	r2, [r6, #16]
	ldr	r2, [sp, #108]
	str	r2, [r6, #8]
	ldr	r2, [sp, #76]
	str	r5, [sp, #100]
	adds	r5, r2, r3
	mov	r2, r1
	str	r1, [sp, #28]
	lsls	r1, r5, #3
	ldr	r3, [sp, #100]
	adds	r3, r3, r1
	str	r3, [sp, #60]
	subs	r0, r0, r2
	str	r0, [r6]
	str	r1, [sp, #32]
	ldr	r0, [sp, #100]
	str	r2, [r0, r1]
	ldr	r0, [sp, #60]
	ldr	r1, [sp, #108]
	str	r1, [r0, #8]
	ldr	r1, [sp, #92]
	ldr	r0, [sp, #68]
	sbcs	r0, r1
	str	r0, [sp, #68]
	lsrs	r0, r5, #3
	ldr	r2, .LCPI114_0
	ands	r0, r2
	str	r0, [sp, #100]
	ldr	r2, [r7, #72]
	str	r2, [sp, #108]
	ldr	r0, [r2, r0]
	str	r0, [sp, #24]
	ldr	r2, [sp, #80]
	str	r5, [sp, #124]
	ands	r2, r5
	movs	r0, #1
	str	r0, [sp, #80]
	bl	__aeabi_llsl
	ldr	r2, [sp, #24]
	orrs	r0, r2
	ldr	r3, [sp, #108]
	ldr	r5, [sp, #100]
	str	r0, [r3, r5]
	ldr	r0, [sp, #92]
	str	r0, [r6, #20]
	ldr	r0, [sp, #84]
	str	r0, [r6, #12]
	ldr	r2, [sp, #68]
	str	r2, [r6, #4]
	ldr	r2, [sp, #60]
	str	r0, [r2, #12]
	ldr	r0, [sp, #76]
	str	r0, [r2, #4]
	adds	r0, r3, r5
	ldr	r2, [r0, #4]
	orrs	r2, r1
	str	r2, [r0, #4]
	ldr	r0, [sp, #28]
	lsls	r0, r0, #30
	bmi	.LBB114_117
	ldr	r6, [sp, #124]
	ldr	r0, [sp, #36]
	adds	r0, r0, r6
	lsls	r0, r0, #3
	ldr	r1, [sp, #120]
	ldr	r1, [r1]
	ldr	r2, [r1, r0]
	ldr	r3, [sp, #64]
	ands	r2, r3
	str	r2, [r1, r0]
	adds	r0, r1, r0
	str	r6, [r0, #4]
.LBB114_117:
	ldr	r0, [sp, #48]
	ldr	r6, [sp, #36]
	orrs	r0, r6
	bl	__clzsi2
	ldr	r1, [sp, #44]
	subs	r0, r1, r0
	lsrs	r6, r0
	lsls	r0, r0, #4
	mov	r5, r6
	adds	r0, r6, r0
	lsls	r2, r0, #2
	ldr	r3, [sp, #40]
	ldr	r1, [r3, r2]
	ldr	r6, [sp, #124]
	str	r6, [r3, r2]
	cmp	r1, #0
	ldr	r6, [sp, #116]
	bmi	.LBB114_119
	ldr	r0, [sp, #120]
	ldr	r0, [r0]
	ldr	r2, [sp, #32]
	adds	r2, r0, r2
	str	r1, [r2, #16]
	ldr	r3, [sp, #64]
	str	r3, [r2, #20]
	lsls	r1, r1, #3
	adds	r0, r0, r1
	ldr	r1, [sp, #124]
	str	r1, [r0, #20]
	ldr	r1, [r0, #16]
	ands	r1, r3
	str	r1, [r0, #16]
	b	.LBB114_120
.LBB114_119:
	ldr	r1, [r7, #48]
	ldr	r2, [sp, #32]
	adds	r1, r1, r2
	ldr	r2, [sp, #64]
	str	r2, [r1, #16]
	str	r2, [r1, #20]
	ldr	r1, [sp, #52]
	ands	r5, r1
	ldr	r1, [sp, #80]
	mov	r2, r1
	lsls	r2, r5
	lsrs	r0, r0, #4
	str	r0, [sp, #124]
	lsls	r0, r0, #2
	ldr	r5, [sp, #56]
	ldr	r3, [r5, r0]
	orrs	r3, r2
	str	r3, [r5, r0]
	ldr	r0, [sp, #124]
	lsls	r1, r0
	ldr	r0, [r7, #104]
	orrs	r0, r1
	str	r0, [r7, #104]
.LBB114_120:
	ldr	r2, [sp, #104]
	ldr	r1, [sp, #88]
	ldr	r3, [sp, #92]
.LBB114_121:
	ldr	r0, [r7, #40]
	adds	r0, r0, r1
	str	r0, [r7, #40]
	ldr	r1, [r7, #44]
	cmp	r1, r0
	bhs	.LBB114_123
	str	r0, [r7, #44]
.LBB114_123:
	ldr	r0, [r7, #32]
	adds	r0, r0, #1
	str	r0, [r7, #32]
	ldr	r0, [r7, #36]
	adcs	r0, r3
	str	r0, [r7, #36]
	ldr	r1, [r7, #48]
	adds	r0, r1, r2
	ldr	r0, [r0, #16]
	ldr	r2, [sp, #72]
	adds	r1, r1, r2
	ldr	r3, [r1, #16]
	cmp	r3, r0
	blo	.LBB114_125
	mov	r3, r0
.LBB114_125:
	ldr	r0, [sp, #120]
	ldr	r1, [sp, #112]
	ldr	r5, [sp, #76]
	mov	r2, r5
	bl	tlsf_words.words.Words.copy_payload
	add	r1, sp, #128
	mov	r0, r4
	bl	tlsf_heap.heap.Heap.release_live.4
	b	.LBB114_65
	.p2align	2
.LCPI114_0:
	.long	536870904
.Lfunc_end114:
	.size	tlsf_resize_place, .Lfunc_end114-tlsf_resize_place
	.cfi_endproc
	.section	.text.tlsf_take,"ax",%progbits
	.globl	tlsf_take
	.p2align	1
	.type	tlsf_take,%function
	.code	16
	.thumb_func
tlsf_take:
	.cfi_startproc
	push	{r4, lr}
	.cfi_def_cfa_offset 8
	.cfi_offset lr, -4
	.cfi_offset r4, -8
	ldrb	r2, [r0, #8]
	cmp	r2, #0
	beq	.LBB115_4
	ldr	r4, [r0]
	ldrb	r0, [r4, #1]
	cmp	r0, #0
	beq	.LBB115_4
	ldrb	r0, [r4]
	cmp	r0, #1
	bne	.LBB115_5
	movs	r0, #0
	strb	r0, [r4, #1]
	mov	r0, r4
	adds	r0, #8
	bl	tlsf_c.lane_calls.take_name
	movs	r1, #1
	strb	r1, [r4, #1]
	pop	{r4, pc}
.LBB115_4:
	movs	r0, #0
	bl	tlsf_c.call_fault.CallFault.refusal
	pop	{r4, pc}
.LBB115_5:
	movs	r0, #2
	bl	tlsf_c.call_fault.CallFault.refusal
	pop	{r4, pc}
.Lfunc_end115:
	.size	tlsf_take, .Lfunc_end115-tlsf_take
	.cfi_endproc
	.section	.text.tlsf_take_all,"ax",%progbits
	.globl	tlsf_take_all
	.p2align	1
	.type	tlsf_take_all,%function
	.code	16
	.thumb_func
tlsf_take_all:
	.cfi_startproc
	push	{r4, r5, r6, r7, lr}
	.cfi_def_cfa_offset 20
	.cfi_offset lr, -4
	.cfi_offset r7, -8
	.cfi_offset r6, -12
	.cfi_offset r5, -16
	.cfi_offset r4, -20
	sub	sp, #508
	sub	sp, #336
	.cfi_def_cfa_offset 864
	movs	r6, #1
	cmp	r1, #0
	beq	.LBB116_2
	str	r1, [sp, #64]
	b	.LBB116_3
.LBB116_2:
	mov	r4, r1
	lsls	r1, r6, #12
	adds	r4, r4, r1
	str	r4, [sp, #64]
.LBB116_3:
	ldr	r7, [r3]
	ldrb	r1, [r0, #8]
	cmp	r1, #0
	bne	.LBB116_4
	b	.LBB116_46
.LBB116_4:
	ldr	r5, [r0]
	ldrb	r0, [r5, #1]
	cmp	r0, #0
	bne	.LBB116_5
	b	.LBB116_46
.LBB116_5:
	ldrb	r0, [r5]
	cmp	r0, #1
	beq	.LBB116_6
	b	.LBB116_49
.LBB116_6:
	str	r7, [sp, #52]
	str	r3, [sp, #12]
	movs	r0, #0
	str	r0, [sp, #68]
	strb	r0, [r5, #1]
	cmp	r2, #32
	str	r2, [sp, #56]
	mov	r4, r2
	blo	.LBB116_8
	movs	r4, #32
.LBB116_8:
	mov	r3, r5
	adds	r3, #32
	ldm	r3, {r1, r2, r3}
	ldr	r0, [r5, #44]
	mov	r7, r5
	subs	r5, r3, r1
	mov	r5, r0
	sbcs	r5, r2
	str	r7, [sp, #16]
	bhs	.LBB116_10
	subs	r1, r3, r1
	mov	r3, r0
	sbcs	r3, r2
	ldr	r2, [r7, #24]
	ldr	r0, [r7, #28]
	lsrs	r5, r2, #31
	lsls	r0, r0, #1
	adds	r0, r0, r5
	lsls	r2, r2, #1
	adds	r1, r1, r2
	adcs	r0, r3
	b	.LBB116_11
.LBB116_10:
	subs	r1, r3, r1
	sbcs	r0, r2
.LBB116_11:
	mov	r7, r4
	subs	r1, r1, r4
	ldr	r3, [sp, #68]
	sbcs	r0, r3
	ldr	r5, [sp, #16]
	bhs	.LBB116_20
	ldr	r0, [r5, #8]
	adds	r0, #128
	movs	r1, #5
	bl	__atomic_load_8
	str	r0, [r5, #40]
	str	r1, [r5, #44]
	ldr	r2, [r5, #32]
	ldr	r4, [r5, #36]
	subs	r3, r0, r2
	mov	r3, r1
	sbcs	r3, r4
	bhs	.LBB116_14
	subs	r0, r0, r2
	mov	r2, r1
	sbcs	r2, r4
	ldr	r1, [r5, #24]
	ldr	r3, [r5, #28]
	lsrs	r5, r1, #31
	lsls	r3, r3, #1
	adds	r3, r3, r5
	ldr	r5, [sp, #16]
	lsls	r1, r1, #1
	adds	r0, r0, r1
	adcs	r3, r2
	b	.LBB116_15
.LBB116_14:
	subs	r0, r0, r2
	sbcs	r1, r4
	mov	r3, r1
.LBB116_15:
	movs	r1, #0
	subs	r2, r0, r7
	mov	r2, r3
	sbcs	r2, r1
	blo	.LBB116_16
	b	.LBB116_37
.LBB116_16:
	mov	r2, r6
	blo	.LBB116_17
	b	.LBB116_38
.LBB116_17:
	cmp	r2, #0
	bne	.LBB116_19
.LBB116_18:
	mov	r3, r2
.LBB116_19:
	mov	r7, r0
.LBB116_20:
	mov	r2, r5
	adds	r2, #8
	mov	r0, r7
	subs	r0, #21
	mov	r0, r3
	ldr	r1, [sp, #68]
	sbcs	r0, r1
	str	r2, [sp, #60]
	bhs	.LBB116_21
	b	.LBB116_28
.LBB116_21:
	movs	r4, #3
	lsls	r2, r4, #8
	add	r0, sp, #72
	str	r0, [sp, #68]
	movs	r5, #0
	mov	r1, r5
	str	r6, [sp, #36]
	mov	r6, r3
	bl	tlsf_memory_set
	ldr	r0, [sp, #60]
	ldr	r1, [sp, #68]
	mov	r2, r7
	str	r6, [sp, #24]
	mov	r3, r6
	bl	tlsf_post.take_end.TakeEnd.take_slice
	mov	r0, r7
	bics	r0, r4
	str	r0, [sp, #20]
	str	r7, [sp, #4]
	str	r4, [sp, #32]
	ands	r7, r4
	str	r7, [sp, #8]
	mov	r2, r5
	str	r5, [sp, #28]
	ldr	r6, [sp, #36]
.LBB116_22:
	str	r5, [sp, #56]
	str	r2, [sp, #68]
	ldr	r4, [sp, #64]
	movs	r0, #24
	mov	r1, r0
	mov	r7, r6
	mov	r6, r0
	muls	r1, r2, r1
	add	r5, sp, #72
	adds	r1, r5, r1
	str	r1, [sp, #40]
	ldr	r1, [r1, #8]
	ldr	r0, [sp, #68]
	lsls	r2, r0, #4
	strb	r1, [r4, r2]
	adds	r2, r4, r2
	lsrs	r3, r1, #24
	strb	r3, [r2, #3]
	lsrs	r3, r1, #16
	strb	r3, [r2, #2]
	lsrs	r1, r1, #8
	strb	r1, [r2, #1]
	ldr	r1, [sp, #68]
	orrs	r1, r7
	lsls	r3, r1, #4
	muls	r1, r6, r1
	str	r6, [sp, #60]
	adds	r0, r5, r1
	str	r0, [sp, #44]
	str	r5, [sp, #52]
	ldr	r1, [r0, #8]
	strb	r1, [r4, r3]
	ldr	r0, [sp, #64]
	adds	r7, r0, r3
	lsrs	r3, r1, #24
	strb	r3, [r7, #3]
	lsrs	r3, r1, #16
	strb	r3, [r7, #2]
	lsrs	r1, r1, #8
	strb	r1, [r7, #1]
	movs	r3, #2
	ldr	r0, [sp, #68]
	orrs	r3, r0
	lsls	r1, r3, #4
	str	r1, [sp, #48]
	muls	r3, r6, r3
	adds	r5, r5, r3
	ldr	r3, [r5, #8]
	ldr	r0, [sp, #64]
	strb	r3, [r0, r1]
	ldr	r4, [sp, #40]
	ldr	r0, [r4, #12]
	strb	r0, [r2, #4]
	lsrs	r1, r0, #24
	strb	r1, [r2, #7]
	lsrs	r1, r0, #16
	strb	r1, [r2, #6]
	lsrs	r0, r0, #8
	strb	r0, [r2, #5]
	ldr	r0, [r4, #20]
	strb	r0, [r2, #12]
	ldr	r1, [r4, #16]
	strb	r1, [r2, #8]
	lsrs	r4, r0, #24
	strb	r4, [r2, #15]
	lsrs	r4, r0, #16
	strb	r4, [r2, #14]
	lsrs	r0, r0, #8
	strb	r0, [r2, #13]
	lsrs	r0, r1, #24
	strb	r0, [r2, #11]
	lsrs	r0, r1, #16
	strb	r0, [r2, #10]
	lsrs	r0, r1, #8
	strb	r0, [r2, #9]
	ldr	r2, [sp, #44]
	ldr	r0, [r2, #12]
	lsrs	r1, r0, #24
	strb	r1, [r7, #7]
	lsrs	r1, r0, #16
	strb	r1, [r7, #6]
	lsrs	r1, r0, #8
	strb	r1, [r7, #5]
	strb	r0, [r7, #4]
	ldr	r0, [r2, #16]
	lsrs	r1, r0, #24
	strb	r1, [r7, #11]
	lsrs	r1, r0, #16
	strb	r1, [r7, #10]
	lsrs	r1, r0, #8
	strb	r1, [r7, #9]
	strb	r0, [r7, #8]
	ldr	r0, [r2, #20]
	ldr	r6, [sp, #36]
	lsrs	r1, r0, #24
	strb	r1, [r7, #15]
	lsrs	r1, r0, #16
	strb	r1, [r7, #14]
	lsrs	r1, r0, #8
	strb	r1, [r7, #13]
	strb	r0, [r7, #12]
	ldr	r7, [sp, #64]
	ldr	r0, [sp, #48]
	adds	r1, r7, r0
	ldr	r0, [r5, #12]
	lsrs	r2, r0, #24
	strb	r2, [r1, #7]
	lsrs	r2, r0, #16
	strb	r2, [r1, #6]
	lsrs	r2, r0, #8
	strb	r2, [r1, #5]
	strb	r0, [r1, #4]
	lsrs	r0, r3, #24
	strb	r0, [r1, #3]
	lsrs	r0, r3, #16
	strb	r0, [r1, #2]
	lsrs	r0, r3, #8
	strb	r0, [r1, #1]
	ldr	r0, [r5, #16]
	lsrs	r2, r0, #24
	strb	r2, [r1, #11]
	lsrs	r2, r0, #16
	strb	r2, [r1, #10]
	lsrs	r2, r0, #8
	strb	r2, [r1, #9]
	strb	r0, [r1, #8]
	ldr	r0, [r5, #20]
	lsrs	r2, r0, #24
	strb	r2, [r1, #15]
	lsrs	r2, r0, #16
	strb	r2, [r1, #14]
	lsrs	r2, r0, #8
	strb	r2, [r1, #13]
	strb	r0, [r1, #12]
	ldr	r0, [sp, #68]
	ldr	r1, [sp, #32]
	orrs	r0, r1
	lsls	r2, r0, #4
	ldr	r1, [sp, #60]
	muls	r0, r1, r0
	ldr	r1, [sp, #52]
	adds	r0, r1, r0
	ldr	r4, [r0, #8]
	ldr	r5, [r0, #12]
	ldr	r1, [r0, #16]
	ldr	r3, [r0, #20]
	strb	r4, [r7, r2]
	str	r7, [sp, #64]
	adds	r2, r7, r2
	strb	r5, [r2, #4]
	strb	r3, [r2, #12]
	strb	r1, [r2, #8]
	lsrs	r0, r5, #16
	strb	r0, [r2, #6]
	lsrs	r0, r5, #24
	strb	r0, [r2, #7]
	lsrs	r0, r5, #8
	strb	r0, [r2, #5]
	lsrs	r0, r4, #16
	strb	r0, [r2, #2]
	lsrs	r0, r4, #24
	strb	r0, [r2, #3]
	lsrs	r0, r4, #8
	ldr	r5, [sp, #56]
	strb	r0, [r2, #1]
	lsrs	r0, r3, #16
	strb	r0, [r2, #14]
	lsrs	r0, r3, #24
	strb	r0, [r2, #15]
	lsrs	r0, r3, #8
	strb	r0, [r2, #13]
	lsrs	r0, r1, #16
	strb	r0, [r2, #10]
	lsrs	r0, r1, #24
	strb	r0, [r2, #11]
	lsrs	r0, r1, #8
	strb	r0, [r2, #9]
	ldr	r2, [sp, #68]
	adds	r2, r2, #4
	ldr	r0, [sp, #28]
	adcs	r5, r0
	mov	r0, r5
	ldr	r1, [sp, #24]
	eors	r0, r1
	mov	r1, r2
	ldr	r3, [sp, #20]
	eors	r1, r3
	orrs	r1, r0
	beq	.LBB116_23
	b	.LBB116_22
.LBB116_23:
	ldr	r0, [sp, #8]
	cmp	r0, #0
	beq	.LBB116_27
	ldr	r0, [sp, #60]
	muls	r0, r2, r0
	add	r1, sp, #72
	adds	r0, r1, r0
	mov	r4, r0
	adds	r4, #8
	ldm	r4, {r1, r3, r4}
	ldr	r0, [r0, #20]
	str	r2, [sp, #68]
	ldr	r2, [sp, #68]
	lsls	r2, r2, #4
	ldr	r5, [sp, #64]
	strb	r1, [r5, r2]
	adds	r2, r5, r2
	strb	r0, [r2, #12]
	strb	r4, [r2, #8]
	strb	r3, [r2, #4]
	lsrs	r5, r0, #24
	strb	r5, [r2, #15]
	lsrs	r5, r0, #16
	strb	r5, [r2, #14]
	lsrs	r0, r0, #8
	strb	r0, [r2, #13]
	lsrs	r0, r4, #24
	strb	r0, [r2, #11]
	lsrs	r0, r4, #16
	strb	r0, [r2, #10]
	lsrs	r0, r4, #8
	strb	r0, [r2, #9]
	lsrs	r0, r3, #24
	strb	r0, [r2, #7]
	lsrs	r0, r3, #16
	strb	r0, [r2, #6]
	lsrs	r0, r3, #8
	strb	r0, [r2, #5]
	lsrs	r0, r1, #24
	strb	r0, [r2, #3]
	lsrs	r0, r1, #16
	strb	r0, [r2, #2]
	lsrs	r0, r1, #8
	ldr	r1, [sp, #8]
	strb	r0, [r2, #1]
	ldr	r0, [sp, #68]
	cmp	r1, #1
	beq	.LBB116_27
	adds	r0, r0, #1
	mov	r6, r1
	ldr	r1, [sp, #60]
	muls	r1, r0, r1
	add	r2, sp, #72
	adds	r2, r2, r1
	mov	r5, r2
	adds	r5, #8
	ldm	r5, {r1, r3, r4, r5}
	lsls	r0, r0, #4
	ldr	r2, [sp, #64]
	strb	r1, [r2, r0]
	adds	r2, r2, r0
	strb	r5, [r2, #12]
	strb	r4, [r2, #8]
	strb	r3, [r2, #4]
	lsrs	r0, r5, #24
	strb	r0, [r2, #15]
	lsrs	r0, r5, #16
	strb	r0, [r2, #14]
	lsrs	r0, r5, #8
	strb	r0, [r2, #13]
	lsrs	r0, r4, #24
	strb	r0, [r2, #11]
	lsrs	r0, r4, #16
	strb	r0, [r2, #10]
	lsrs	r0, r4, #8
	strb	r0, [r2, #9]
	lsrs	r0, r3, #24
	strb	r0, [r2, #7]
	lsrs	r0, r3, #16
	strb	r0, [r2, #6]
	lsrs	r0, r3, #8
	strb	r0, [r2, #5]
	lsrs	r0, r1, #24
	strb	r0, [r2, #3]
	lsrs	r0, r1, #16
	strb	r0, [r2, #2]
	lsrs	r0, r1, #8
	strb	r0, [r2, #1]
	ldr	r0, [sp, #68]
	cmp	r6, #2
	beq	.LBB116_27
	adds	r1, r0, #2
	ldr	r6, [sp, #60]
	muls	r6, r1, r6
	add	r0, sp, #72
	adds	r4, r0, r6
	adds	r4, #8
	ldm	r4, {r0, r2, r3, r4}
	lsls	r1, r1, #4
	ldr	r5, [sp, #64]
	strb	r0, [r5, r1]
	adds	r1, r5, r1
	strb	r4, [r1, #12]
	strb	r3, [r1, #8]
	strb	r2, [r1, #4]
	lsrs	r5, r4, #24
	strb	r5, [r1, #15]
	lsrs	r5, r4, #16
	strb	r5, [r1, #14]
	lsrs	r4, r4, #8
	strb	r4, [r1, #13]
	lsrs	r4, r3, #24
	strb	r4, [r1, #11]
	lsrs	r4, r3, #16
	strb	r4, [r1, #10]
	lsrs	r3, r3, #8
	strb	r3, [r1, #9]
	lsrs	r3, r2, #24
	strb	r3, [r1, #7]
	lsrs	r3, r2, #16
	strb	r3, [r1, #6]
	lsrs	r2, r2, #8
	strb	r2, [r1, #5]
	lsrs	r2, r0, #24
	strb	r2, [r1, #3]
	lsrs	r2, r0, #16
	strb	r2, [r1, #2]
	lsrs	r0, r0, #8
	strb	r0, [r1, #1]
.LBB116_27:
	ldr	r1, [sp, #12]
	ldr	r5, [sp, #16]
	ldr	r7, [sp, #4]
	ldr	r6, [sp, #36]
	b	.LBB116_43
.LBB116_28:
	movs	r4, #0
	subs	r0, r7, #2
	mov	r0, r3
	sbcs	r0, r4
	bhs	.LBB116_29
	b	.LBB116_40
.LBB116_29:
	str	r6, [sp, #36]
	movs	r0, #15
	lsls	r2, r0, #5
	add	r6, sp, #72
	mov	r0, r6
	mov	r1, r4
	mov	r5, r3
	bl	tlsf_memory_set
	ldr	r0, [sp, #60]
	mov	r1, r6
	mov	r2, r7
	mov	r3, r5
	bl	tlsf_post.take_end.TakeEnd.take_slice
	movs	r6, #3
	mov	r1, r7
	ands	r1, r6
	subs	r0, r7, #4
	sbcs	r5, r4
	str	r1, [sp, #24]
	bhs	.LBB116_30
	b	.LBB116_33
.LBB116_30:
	movs	r0, #28
	str	r7, [sp, #4]
	ands	r0, r7
	str	r0, [sp, #32]
	movs	r0, #0
	mov	r4, r0
	str	r0, [sp, #28]
	mov	r2, r0
	str	r6, [sp, #40]
.LBB116_31:
	str	r2, [sp, #56]
	str	r4, [sp, #68]
	movs	r1, #24
	mov	r0, r1
	mov	r3, r1
	str	r1, [sp, #60]
	muls	r0, r4, r0
	add	r7, sp, #72
	adds	r0, r7, r0
	str	r0, [sp, #44]
	ldr	r0, [r0, #8]
	lsls	r1, r4, #4
	ldr	r5, [sp, #64]
	strb	r0, [r5, r1]
	adds	r6, r5, r1
	lsrs	r1, r0, #24
	strb	r1, [r6, #3]
	lsrs	r1, r0, #16
	strb	r1, [r6, #2]
	lsrs	r0, r0, #8
	strb	r0, [r6, #1]
	mov	r0, r4
	ldr	r1, [sp, #36]
	orrs	r0, r1
	lsls	r1, r0, #4
	muls	r0, r3, r0
	str	r7, [sp, #52]
	adds	r0, r7, r0
	ldr	r3, [r0, #8]
	strb	r3, [r5, r1]
	adds	r2, r5, r1
	str	r5, [sp, #64]
	lsrs	r1, r3, #24
	strb	r1, [r2, #3]
	lsrs	r1, r3, #16
	strb	r1, [r2, #2]
	lsrs	r1, r3, #8
	strb	r1, [r2, #1]
	movs	r1, #2
	orrs	r1, r4
	lsls	r4, r1, #4
	str	r4, [sp, #48]
	ldr	r3, [sp, #60]
	muls	r1, r3, r1
	adds	r1, r7, r1
	ldr	r3, [r1, #8]
	strb	r3, [r5, r4]
	ldr	r7, [sp, #44]
	ldr	r4, [r7, #12]
	strb	r4, [r6, #4]
	lsrs	r5, r4, #24
	strb	r5, [r6, #7]
	lsrs	r5, r4, #16
	strb	r5, [r6, #6]
	lsrs	r4, r4, #8
	strb	r4, [r6, #5]
	ldr	r4, [r7, #20]
	strb	r4, [r6, #12]
	ldr	r5, [r7, #16]
	strb	r5, [r6, #8]
	lsrs	r7, r4, #24
	strb	r7, [r6, #15]
	lsrs	r7, r4, #16
	strb	r7, [r6, #14]
	lsrs	r4, r4, #8
	strb	r4, [r6, #13]
	lsrs	r4, r5, #24
	strb	r4, [r6, #11]
	lsrs	r4, r5, #16
	strb	r4, [r6, #10]
	lsrs	r4, r5, #8
	strb	r4, [r6, #9]
	ldr	r6, [sp, #40]
	ldr	r4, [r0, #12]
	lsrs	r5, r4, #24
	strb	r5, [r2, #7]
	lsrs	r5, r4, #16
	strb	r5, [r2, #6]
	lsrs	r5, r4, #8
	strb	r5, [r2, #5]
	strb	r4, [r2, #4]
	ldr	r4, [r0, #16]
	lsrs	r5, r4, #24
	strb	r5, [r2, #11]
	lsrs	r5, r4, #16
	strb	r5, [r2, #10]
	lsrs	r5, r4, #8
	strb	r5, [r2, #9]
	strb	r4, [r2, #8]
	ldr	r0, [r0, #20]
	lsrs	r4, r0, #24
	strb	r4, [r2, #15]
	lsrs	r4, r0, #16
	strb	r4, [r2, #14]
	lsrs	r4, r0, #8
	strb	r4, [r2, #13]
	strb	r0, [r2, #12]
	ldr	r5, [sp, #64]
	ldr	r0, [sp, #48]
	adds	r0, r5, r0
	ldr	r2, [r1, #12]
	lsrs	r4, r2, #24
	strb	r4, [r0, #7]
	lsrs	r4, r2, #16
	strb	r4, [r0, #6]
	lsrs	r4, r2, #8
	strb	r4, [r0, #5]
	strb	r2, [r0, #4]
	lsrs	r2, r3, #24
	strb	r2, [r0, #3]
	lsrs	r2, r3, #16
	strb	r2, [r0, #2]
	lsrs	r2, r3, #8
	strb	r2, [r0, #1]
	ldr	r2, [r1, #16]
	lsrs	r3, r2, #24
	strb	r3, [r0, #11]
	lsrs	r3, r2, #16
	strb	r3, [r0, #10]
	lsrs	r3, r2, #8
	strb	r3, [r0, #9]
	strb	r2, [r0, #8]
	ldr	r1, [r1, #20]
	lsrs	r2, r1, #24
	strb	r2, [r0, #15]
	lsrs	r2, r1, #16
	strb	r2, [r0, #14]
	lsrs	r2, r1, #8
	strb	r2, [r0, #13]
	strb	r1, [r0, #12]
	ldr	r0, [sp, #68]
	orrs	r0, r6
	lsls	r1, r0, #4
	ldr	r2, [sp, #60]
	muls	r0, r2, r0
	ldr	r2, [sp, #52]
	adds	r2, r2, r0
	ldr	r3, [r2, #8]
	ldr	r4, [r2, #12]
	ldr	r0, [r2, #16]
	ldr	r2, [r2, #20]
	strb	r3, [r5, r1]
	adds	r1, r5, r1
	strb	r4, [r1, #4]
	strb	r2, [r1, #12]
	strb	r0, [r1, #8]
	lsrs	r5, r4, #16
	strb	r5, [r1, #6]
	lsrs	r5, r4, #24
	strb	r5, [r1, #7]
	lsrs	r4, r4, #8
	strb	r4, [r1, #5]
	lsrs	r4, r3, #16
	strb	r4, [r1, #2]
	lsrs	r4, r3, #24
	strb	r4, [r1, #3]
	ldr	r4, [sp, #68]
	lsrs	r3, r3, #8
	strb	r3, [r1, #1]
	lsrs	r3, r2, #16
	strb	r3, [r1, #14]
	lsrs	r3, r2, #24
	strb	r3, [r1, #15]
	lsrs	r2, r2, #8
	strb	r2, [r1, #13]
	lsrs	r2, r0, #16
	strb	r2, [r1, #10]
	lsrs	r2, r0, #24
	strb	r2, [r1, #11]
	ldr	r2, [sp, #56]
	lsrs	r0, r0, #8
	strb	r0, [r1, #9]
	adds	r4, r4, #4
	ldr	r0, [sp, #28]
	adcs	r2, r0
	mov	r0, r4
	ldr	r1, [sp, #32]
	eors	r0, r1
	orrs	r0, r2
	beq	.LBB116_32
	b	.LBB116_31
.LBB116_32:
	ldr	r1, [sp, #24]
	cmp	r1, #0
	ldr	r7, [sp, #4]
	beq	.LBB116_36
.LBB116_33:
	movs	r1, #24
	str	r1, [sp, #68]
	muls	r1, r4, r1
	add	r2, sp, #72
	adds	r2, r2, r1
	ldr	r1, [r2, #8]
	ldr	r3, [r2, #12]
	mov	r0, r4
	ldr	r4, [r2, #16]
	ldr	r5, [r2, #20]
	lsls	r2, r0, #4
	ldr	r6, [sp, #64]
	strb	r1, [r6, r2]
	adds	r2, r6, r2
	strb	r5, [r2, #12]
	strb	r4, [r2, #8]
	strb	r3, [r2, #4]
	lsrs	r6, r5, #24
	strb	r6, [r2, #15]
	lsrs	r6, r5, #16
	strb	r6, [r2, #14]
	lsrs	r5, r5, #8
	strb	r5, [r2, #13]
	lsrs	r5, r4, #24
	strb	r5, [r2, #11]
	lsrs	r5, r4, #16
	strb	r5, [r2, #10]
	lsrs	r4, r4, #8
	strb	r4, [r2, #9]
	lsrs	r4, r3, #24
	strb	r4, [r2, #7]
	lsrs	r4, r3, #16
	strb	r4, [r2, #6]
	lsrs	r3, r3, #8
	strb	r3, [r2, #5]
	lsrs	r3, r1, #24
	strb	r3, [r2, #3]
	lsrs	r3, r1, #16
	strb	r3, [r2, #2]
	lsrs	r1, r1, #8
	strb	r1, [r2, #1]
	ldr	r1, [sp, #24]
	cmp	r1, #1
	beq	.LBB116_36
	adds	r2, r0, #1
	ldr	r1, [sp, #68]
	muls	r1, r2, r1
	add	r3, sp, #72
	adds	r5, r3, r1
	adds	r5, #8
	ldm	r5, {r1, r3, r4, r5}
	lsls	r2, r2, #4
	ldr	r6, [sp, #64]
	strb	r1, [r6, r2]
	adds	r2, r6, r2
	strb	r5, [r2, #12]
	strb	r4, [r2, #8]
	strb	r3, [r2, #4]
	lsrs	r6, r5, #24
	strb	r6, [r2, #15]
	lsrs	r6, r5, #16
	strb	r6, [r2, #14]
	lsrs	r5, r5, #8
	strb	r5, [r2, #13]
	lsrs	r5, r4, #24
	strb	r5, [r2, #11]
	lsrs	r5, r4, #16
	strb	r5, [r2, #10]
	lsrs	r4, r4, #8
	strb	r4, [r2, #9]
	lsrs	r4, r3, #24
	strb	r4, [r2, #7]
	lsrs	r4, r3, #16
	strb	r4, [r2, #6]
	lsrs	r3, r3, #8
	strb	r3, [r2, #5]
	lsrs	r3, r1, #24
	strb	r3, [r2, #3]
	lsrs	r3, r1, #16
	strb	r3, [r2, #2]
	lsrs	r1, r1, #8
	strb	r1, [r2, #1]
	ldr	r1, [sp, #24]
	cmp	r1, #2
	beq	.LBB116_36
	adds	r1, r0, #2
	ldr	r0, [sp, #68]
	muls	r0, r1, r0
	add	r2, sp, #72
	adds	r4, r2, r0
	adds	r4, #8
	ldm	r4, {r0, r2, r3, r4}
	lsls	r1, r1, #4
	ldr	r5, [sp, #64]
	strb	r0, [r5, r1]
	adds	r1, r5, r1
	strb	r4, [r1, #12]
	strb	r3, [r1, #8]
	strb	r2, [r1, #4]
	lsrs	r5, r4, #24
	strb	r5, [r1, #15]
	lsrs	r5, r4, #16
	strb	r5, [r1, #14]
	lsrs	r4, r4, #8
	strb	r4, [r1, #13]
	lsrs	r4, r3, #24
	strb	r4, [r1, #11]
	lsrs	r4, r3, #16
	strb	r4, [r1, #10]
	lsrs	r3, r3, #8
	strb	r3, [r1, #9]
	lsrs	r3, r2, #24
	strb	r3, [r1, #7]
	lsrs	r3, r2, #16
	strb	r3, [r1, #6]
	lsrs	r2, r2, #8
	strb	r2, [r1, #5]
	lsrs	r2, r0, #24
	strb	r2, [r1, #3]
	lsrs	r2, r0, #16
	strb	r2, [r1, #2]
	lsrs	r0, r0, #8
	strb	r0, [r1, #1]
.LBB116_36:
	ldr	r6, [sp, #36]
	ldr	r5, [sp, #16]
	b	.LBB116_42
.LBB116_37:
	mov	r0, r7
	mov	r2, r6
	bhs	.LBB116_38
	b	.LBB116_17
.LBB116_38:
	mov	r2, r1
	cmp	r2, #0
	bne	.LBB116_39
	b	.LBB116_18
.LBB116_39:
	b	.LBB116_19
.LBB116_40:
	mov	r0, r7
	eors	r0, r6
	orrs	r0, r3
	ldr	r1, [sp, #64]
	bne	.LBB116_47
	ldr	r0, [sp, #60]
	bl	tlsf_c.lane_calls.take_name
.LBB116_42:
	ldr	r1, [sp, #12]
.LBB116_43:
	strb	r6, [r5, #1]
.LBB116_44:
	movs	r0, #0
.LBB116_45:
	str	r7, [r1]
	add	sp, #508
	add	sp, #336
	pop	{r4, r5, r6, r7, pc}
.LBB116_46:
	movs	r0, #0
	b	.LBB116_50
.LBB116_47:
	strb	r6, [r5, #1]
	ldr	r0, [sp, #56]
	cmp	r0, #0
	ldr	r1, [sp, #12]
	beq	.LBB116_44
	movs	r0, #35
	ldr	r7, [sp, #52]
	b	.LBB116_45
.LBB116_49:
	movs	r0, #2
.LBB116_50:
	mov	r4, r3
	bl	tlsf_c.call_fault.CallFault.refusal
	mov	r1, r4
	b	.LBB116_45
.Lfunc_end116:
	.size	tlsf_take_all, .Lfunc_end116-tlsf_take_all
	.cfi_endproc
	.section	.text.tlsf_take_close,"ax",%progbits
	.globl	tlsf_take_close
	.p2align	1
	.type	tlsf_take_close,%function
	.code	16
	.thumb_func
tlsf_take_close:
	.cfi_startproc
	push	{r4, r5, r6, r7, lr}
	.cfi_def_cfa_offset 20
	.cfi_offset lr, -4
	.cfi_offset r7, -8
	.cfi_offset r6, -12
	.cfi_offset r5, -16
	.cfi_offset r4, -20
	sub	sp, #108
	.cfi_def_cfa_offset 128
	ldrb	r1, [r0, #8]
	movs	r4, #32
	cmp	r1, #0
	beq	.LBB117_5
	ldr	r1, [r0]
	ldrb	r2, [r1, #1]
	cmp	r2, #1
	bne	.LBB117_5
	ldrb	r2, [r1]
	cmp	r2, #1
	bne	.LBB117_4
	movs	r4, #0
	strb	r4, [r1, #1]
	ldrb	r1, [r0, #3]
	str	r1, [sp, #4]
	ldrb	r6, [r0, #2]
	ldrb	r7, [r0]
	ldrb	r5, [r0, #1]
	movs	r2, #16
	mov	r1, r4
	bl	tlsf_memory_set
	lsls	r0, r5, #8
	adds	r0, r0, r7
	lsls	r1, r6, #16
	ldr	r2, [sp, #4]
	lsls	r2, r2, #24
	adds	r1, r2, r1
	adds	r7, r1, r0
	ldrb	r0, [r7]
	str	r0, [sp, #4]
	ldrb	r0, [r7, #1]
	str	r0, [sp]
	mov	r1, r7
	adds	r1, #8
	add	r0, sp, #8
	adds	r5, r0, #6
	movs	r6, #40
	mov	r0, r5
	mov	r2, r6
	bl	tlsf_memory_cpy
	mov	r0, r7
	bl	tlsf_memory_dealloc
	str	r4, [sp, #56]
	add	r7, sp, #56
	ldr	r0, [sp]
	strb	r0, [r7, #1]
	ldr	r0, [sp, #4]
	strb	r0, [r7]
	str	r4, [sp, #60]
	mov	r0, r7
	adds	r0, #8
	mov	r1, r5
	mov	r2, r6
	bl	tlsf_memory_cpy
	mov	r0, r7
	bl	tlsf_c.tlsf_c.any_end.AnyEnd.Destruct.drop
	b	.LBB117_5
.LBB117_4:
	movs	r4, #40
.LBB117_5:
	mov	r0, r4
	add	sp, #108
	pop	{r4, r5, r6, r7, pc}
.Lfunc_end117:
	.size	tlsf_take_close, .Lfunc_end117-tlsf_take_close
	.cfi_endproc
	.section	.text.tlsf_words,"ax",%progbits
	.globl	tlsf_words
	.p2align	2
	.type	tlsf_words,%function
	.code	16
	.thumb_func
tlsf_words:
	.cfi_startproc
	push	{r4, r5, r6, r7, lr}
	.cfi_def_cfa_offset 20
	.cfi_offset lr, -4
	.cfi_offset r7, -8
	.cfi_offset r6, -12
	.cfi_offset r5, -16
	.cfi_offset r4, -20
	sub	sp, #20
	.cfi_def_cfa_offset 40
	movs	r7, #1
	mov	r4, r0
	bics	r4, r7
	cmp	r4, #4
	bne	.LBB118_12
	cmp	r1, #0
	beq	.LBB118_13
	cmp	r0, #4
	bne	.LBB118_15
	movs	r0, #5
	ldr	r4, .LCPI118_2
	cmp	r2, r4
	bls	.LBB118_4
	b	.LBB118_32
.LBB118_4:
	cmp	r2, #9
	bhs	.LBB118_5
	b	.LBB118_24
.LBB118_5:
	str	r0, [sp, #16]
	str	r3, [sp, #12]
	adds	r2, #31
	lsrs	r5, r2, #3
	adds	r6, r5, #3
	movs	r4, #0
	mov	r0, r6
	mov	r2, r1
	mov	r1, r4
	str	r2, [sp, #8]
	mov	r3, r4
	bl	__aeabi_lmul
	subs	r0, r0, r6
	sbcs	r1, r4
	mov	r2, r4
	adcs	r2, r4
	eors	r2, r7
	cmp	r2, #0
	mov	r2, r4
	bne	.LBB118_7
	mov	r2, r1
.LBB118_7:
	mov	r6, r4
	bne	.LBB118_9
	mov	r6, r0
.LBB118_9:
	mvns	r0, r2
	str	r0, [sp, #4]
	movs	r0, #16
	orrs	r0, r5
	bl	__clzsi2
	movs	r1, #27
	subs	r0, r1, r0
	lsls	r1, r0, #4
	subs	r2, r5, #1
	lsrs	r2, r0
	adds	r0, r2, #1
	adds	r1, r0, r1
	lsrs	r2, r1, #4
	beq	.LBB118_11
	movs	r1, #8
	lsls	r1, r2
	subs	r2, r2, #1
	movs	r3, #15
	ands	r0, r3
	lsls	r0, r2
	adds	r1, r0, r1
.LBB118_11:
	subs	r0, r1, #1
	mov	r1, r4
	ldr	r2, [sp, #8]
	mov	r3, r4
	bl	__aeabi_lmul
	mov	r2, r1
	mvns	r1, r6
	subs	r4, r0, r1
	ldr	r0, [sp, #4]
	sbcs	r2, r0
	ldr	r3, [sp, #12]
	ldr	r0, [sp, #16]
	b	.LBB118_25
.LBB118_12:
	movs	r0, #34
	add	sp, #20
	pop	{r4, r5, r6, r7, pc}
.LBB118_13:
	movs	r1, #4
.LBB118_14:
	str	r1, [r3]
	movs	r0, #0
	add	sp, #20
	pop	{r4, r5, r6, r7, pc}
.LBB118_15:
	movs	r0, #5
	ldr	r4, .LCPI118_0
	cmp	r2, r4
	bhi	.LBB118_32
	cmp	r2, #9
	blo	.LBB118_33
	str	r0, [sp, #16]
	str	r3, [sp, #12]
	adds	r2, #31
	lsrs	r5, r2, #3
	adds	r6, r5, #3
	movs	r4, #0
	mov	r0, r6
	mov	r2, r1
	mov	r1, r4
	str	r2, [sp, #8]
	mov	r3, r4
	bl	__aeabi_lmul
	subs	r0, r0, r6
	sbcs	r1, r4
	mov	r2, r4
	adcs	r2, r4
	eors	r2, r7
	cmp	r2, #0
	mov	r2, r4
	bne	.LBB118_19
	mov	r2, r1
.LBB118_19:
	mov	r6, r4
	bne	.LBB118_21
	mov	r6, r0
.LBB118_21:
	mvns	r7, r2
	movs	r0, #32
	orrs	r0, r5
	bl	__clzsi2
	movs	r1, #26
	subs	r0, r1, r0
	lsls	r1, r0, #5
	subs	r2, r5, #1
	lsrs	r2, r0
	adds	r0, r2, #1
	adds	r1, r0, r1
	lsrs	r2, r1, #5
	beq	.LBB118_23
	movs	r1, #16
	lsls	r1, r2
	subs	r2, r2, #1
	movs	r3, #31
	ands	r0, r3
	lsls	r0, r2
	adds	r1, r0, r1
.LBB118_23:
	subs	r0, r1, #1
	mov	r1, r4
	ldr	r2, [sp, #8]
	mov	r3, r4
	bl	__aeabi_lmul
	mov	r2, r1
	mvns	r1, r6
	subs	r4, r0, r1
	sbcs	r2, r7
	ldr	r3, [sp, #12]
	ldr	r0, [sp, #16]
	b	.LBB118_34
.LBB118_24:
	lsrs	r2, r1, #30
	lsls	r4, r1, #2
.LBB118_25:
	movs	r5, #4
	cmp	r4, #4
	mov	r1, r4
	bhi	.LBB118_27
	mov	r1, r5
.LBB118_27:
	cmp	r2, #0
	mov	r6, r4
	bne	.LBB118_29
	mov	r6, r5
.LBB118_29:
	beq	.LBB118_31
	mov	r1, r6
.LBB118_31:
	lsls	r5, r7, #20
	movs	r6, #0
	subs	r4, r5, r4
	sbcs	r6, r2
	bhs	.LBB118_14
.LBB118_32:
	add	sp, #20
	pop	{r4, r5, r6, r7, pc}
.LBB118_33:
	lsrs	r2, r1, #30
	lsls	r4, r1, #2
.LBB118_34:
	movs	r5, #4
	cmp	r4, #4
	mov	r1, r4
	bhi	.LBB118_36
	mov	r1, r5
.LBB118_36:
	cmp	r2, #0
	mov	r6, r4
	bne	.LBB118_38
	mov	r6, r5
.LBB118_38:
	beq	.LBB118_40
	mov	r1, r6
.LBB118_40:
	movs	r5, #0
	ldr	r6, .LCPI118_1
	subs	r4, r4, r6
	sbcs	r2, r5
	blo	.LBB118_14
	b	.LBB118_32
	.p2align	2
.LCPI118_0:
	.long	134217704
.LCPI118_1:
	.long	16777217
.LCPI118_2:
	.long	8388584
.Lfunc_end118:
	.size	tlsf_words, .Lfunc_end118-tlsf_words
	.cfi_endproc
	.section	.text.tlsf_offsets_report,"ax",%progbits
	.globl	tlsf_offsets_report
	.p2align	1
	.type	tlsf_offsets_report,%function
	.code	16
	.thumb_func
tlsf_offsets_report:
	.cfi_startproc
	push	{r4, r5, r6, r7, lr}
	.cfi_def_cfa_offset 20
	.cfi_offset lr, -4
	.cfi_offset r7, -8
	.cfi_offset r6, -12
	.cfi_offset r5, -16
	.cfi_offset r4, -20
	sub	sp, #76
	.cfi_def_cfa_offset 96
	mov	r4, r1
	ldrb	r1, [r0, #8]
	cmp	r1, #0
	bne	.LBB119_1
	b	.LBB119_8
.LBB119_1:
	ldr	r1, [r0]
	ldrb	r0, [r1, #1]
	cmp	r0, #0
	beq	.LBB119_8
	ldrb	r0, [r1]
	cmp	r0, #0
	bne	.LBB119_9
	movs	r0, #0
	str	r0, [sp, #20]
	strb	r0, [r1, #1]
	movs	r0, #43
	lsls	r0, r0, #6
	adds	r0, r1, r0
	str	r0, [sp, #12]
	mov	r5, r1
	adds	r5, #16
	str	r1, [sp, #16]
	ldrb	r0, [r1, #8]
	cmp	r0, #0
	beq	.LBB119_5
	add	r7, sp, #24
	movs	r6, #0
	movs	r2, #48
	mov	r0, r7
	mov	r1, r6
	bl	tlsf_memory_set
	mov	r0, r7
	mov	r1, r5
	bl	tlsf_heap.heap.Heap.report.5
	b	.LBB119_6
.LBB119_5:
	add	r7, sp, #24
	movs	r6, #0
	movs	r2, #48
	mov	r0, r7
	mov	r1, r6
	bl	tlsf_memory_set
	mov	r0, r7
	mov	r1, r5
	bl	tlsf_heap.heap.Heap.report.4
.LBB119_6:
	ldr	r0, [sp, #12]
	ldr	r7, [r0]
	ldr	r2, [sp, #28]
	mov	r0, r7
	mov	r1, r6
	mov	r3, r6
	bl	__aeabi_lmul
	str	r0, [sp, #8]
	str	r1, [sp, #12]
	ldr	r0, [sp, #40]
	mov	r1, r6
	mov	r2, r7
	mov	r3, r6
	bl	__aeabi_lmul
	mov	r5, r0
	str	r1, [sp, #4]
	ldr	r0, [sp, #44]
	mov	r1, r6
	mov	r2, r7
	mov	r3, r6
	bl	__aeabi_lmul
	ldr	r2, [sp, #24]
	movs	r3, #1
	ldr	r6, [sp, #16]
	strb	r3, [r6, #1]
	strb	r1, [r4, #28]
	lsrs	r3, r0, #24
	strb	r3, [r4, #27]
	lsrs	r3, r0, #16
	strb	r3, [r4, #26]
	lsrs	r3, r0, #8
	strb	r3, [r4, #25]
	strb	r0, [r4, #24]
	ldr	r6, [sp, #4]
	strb	r6, [r4, #20]
	lsrs	r0, r5, #24
	strb	r0, [r4, #19]
	lsrs	r0, r5, #16
	strb	r0, [r4, #18]
	lsrs	r0, r5, #8
	strb	r0, [r4, #17]
	strb	r5, [r4, #16]
	ldr	r5, [sp, #12]
	strb	r5, [r4, #12]
	ldr	r3, [sp, #8]
	lsrs	r0, r3, #24
	strb	r0, [r4, #11]
	lsrs	r0, r3, #16
	strb	r0, [r4, #10]
	lsrs	r0, r3, #8
	strb	r0, [r4, #9]
	strb	r3, [r4, #8]
	ldr	r3, [sp, #20]
	strb	r3, [r4, #7]
	strb	r3, [r4, #6]
	strb	r3, [r4, #5]
	strb	r3, [r4, #4]
	lsrs	r0, r2, #24
	strb	r0, [r4, #3]
	lsrs	r0, r2, #16
	strb	r0, [r4, #2]
	lsrs	r0, r2, #8
	strb	r0, [r4, #1]
	strb	r2, [r4]
	lsrs	r0, r1, #24
	strb	r0, [r4, #31]
	lsrs	r0, r1, #16
	strb	r0, [r4, #30]
	lsrs	r0, r1, #8
	strb	r0, [r4, #29]
	lsrs	r0, r6, #24
	strb	r0, [r4, #23]
	lsrs	r0, r6, #16
	strb	r0, [r4, #22]
	lsrs	r0, r6, #8
	strb	r0, [r4, #21]
	lsrs	r0, r5, #24
	strb	r0, [r4, #15]
	lsrs	r0, r5, #16
	strb	r0, [r4, #14]
	lsrs	r0, r5, #8
	strb	r0, [r4, #13]
.LBB119_7:
	mov	r0, r3
	add	sp, #76
	pop	{r4, r5, r6, r7, pc}
.LBB119_8:
	movs	r0, #0
	b	.LBB119_10
.LBB119_9:
	movs	r0, #2
.LBB119_10:
	bl	tlsf_c.call_fault.CallFault.refusal
	mov	r3, r0
	b	.LBB119_7
.Lfunc_end119:
	.size	tlsf_offsets_report, .Lfunc_end119-tlsf_offsets_report
	.cfi_endproc
	.section	.text.tlsf_write,"ax",%progbits
	.globl	tlsf_write
	.p2align	2
	.type	tlsf_write,%function
	.code	16
	.thumb_func
tlsf_write:
	.cfi_startproc
	push	{r4, r5, r6, r7, lr}
	.cfi_def_cfa_offset 20
	.cfi_offset lr, -4
	.cfi_offset r7, -8
	.cfi_offset r6, -12
	.cfi_offset r5, -16
	.cfi_offset r4, -20
	sub	sp, #44
	.cfi_def_cfa_offset 64
	movs	r7, #1
	ldr	r5, [sp, #76]
	cmp	r5, #0
	bne	.LBB120_2
	lsls	r1, r7, #12
	adds	r5, r5, r1
.LBB120_2:
	ldrb	r1, [r0, #8]
	movs	r4, #32
	cmp	r1, #0
	bne	.LBB120_3
	b	.LBB120_28
.LBB120_3:
	ldr	r6, [r0]
	ldrb	r0, [r6]
	cmp	r0, #1
	beq	.LBB120_4
	b	.LBB120_28
.LBB120_4:
	str	r7, [sp, #16]
	ldr	r0, [sp, #68]
	str	r0, [sp, #20]
	ldr	r0, [sp, #64]
	str	r0, [sp, #24]
	ldr	r0, [sp, #80]
	str	r0, [sp, #36]
	ldr	r0, [sp, #72]
	str	r0, [sp, #28]
	movs	r4, #0
	strb	r4, [r6]
	ldr	r1, [r6, #24]
	ldrb	r0, [r6, #16]
	cmp	r0, #0
	str	r4, [sp, #32]
	beq	.LBB120_12
	cmp	r1, r2
	bne	.LBB120_20
	ldr	r0, [r6, #56]
	cmp	r3, r0
	mov	r1, r2
	bhs	.LBB120_20
	movs	r7, #63
	ands	r7, r3
	ldr	r1, [r6, #72]
	lsrs	r0, r3, #6
	lsls	r4, r0, #3
	ldr	r0, [r1, r4]
	adds	r1, r1, r4
	ldr	r1, [r1, #4]
	mov	r4, r2
	mov	r2, r7
	str	r3, [sp, #40]
	bl	__aeabi_llsr
	mov	r2, r4
	ldr	r4, [sp, #32]
	lsls	r0, r0, #31
	mov	r1, r2
	beq	.LBB120_20
	mov	r1, r6
	adds	r1, #48
	ldr	r0, [sp, #40]
	lsls	r7, r0, #3
	str	r1, [sp, #12]
	ldr	r3, [r1]
	ldrb	r1, [r3, r7]
	lsls	r1, r1, #31
	mov	r1, r2
	bne	.LBB120_20
	adds	r0, r3, r7
	ldr	r1, [r0, #8]
	ldr	r3, [r0, #12]
	ldr	r7, [sp, #20]
	eors	r3, r7
	str	r6, [sp, #20]
	ldr	r6, [sp, #24]
	eors	r1, r6
	ldr	r6, [sp, #20]
	orrs	r1, r3
	mov	r1, r2
	bne	.LBB120_20
	ldr	r2, [sp, #28]
	ldr	r1, [sp, #36]
	adds	r1, r1, r2
	mov	r7, r4
	adcs	r7, r4
	ldr	r3, [r0, #16]
	subs	r1, r3, r1
	mov	r1, r4
	sbcs	r1, r7
	bhs	.LBB120_19
	movs	r7, #4
	b	.LBB120_24
.LBB120_12:
	cmp	r1, r2
	bne	.LBB120_22
	ldr	r0, [r6, #56]
	cmp	r3, r0
	mov	r1, r2
	bhs	.LBB120_22
	movs	r7, #63
	ands	r7, r3
	ldr	r1, [r6, #72]
	lsrs	r0, r3, #6
	lsls	r4, r0, #3
	ldr	r0, [r1, r4]
	adds	r1, r1, r4
	ldr	r1, [r1, #4]
	str	r2, [sp, #12]
	mov	r2, r7
	str	r3, [sp, #40]
	bl	__aeabi_llsr
	ldr	r2, [sp, #12]
	lsls	r0, r0, #31
	mov	r1, r2
	beq	.LBB120_22
	mov	r0, r6
	adds	r0, #48
	ldr	r1, [sp, #40]
	lsls	r3, r1, #3
	ldr	r7, [r0]
	ldrb	r1, [r7, r3]
	lsls	r1, r1, #31
	mov	r1, r2
	bne	.LBB120_22
	adds	r3, r7, r3
	ldr	r1, [r3, #8]
	ldr	r4, [r3, #12]
	ldr	r7, [sp, #20]
	eors	r4, r7
	mov	r7, r6
	ldr	r6, [sp, #24]
	eors	r1, r6
	mov	r6, r7
	orrs	r1, r4
	mov	r1, r2
	bne	.LBB120_22
	movs	r7, #0
	ldr	r2, [sp, #36]
	ldr	r1, [sp, #28]
	adds	r1, r2, r1
	mov	r4, r7
	adcs	r4, r7
	ldr	r3, [r3, #16]
	subs	r1, r3, r1
	mov	r1, r7
	sbcs	r1, r4
	bhs	.LBB120_21
	movs	r7, #4
	b	.LBB120_23
.LBB120_19:
	ldr	r0, [sp, #36]
	str	r0, [sp]
	str	r4, [sp, #4]
	ldr	r0, [sp, #12]
	ldr	r1, [sp, #40]
	mov	r3, r5
	bl	tlsf_heap.region.Region.write.5
	mov	r0, r4
	mov	r7, r4
	b	.LBB120_25
.LBB120_20:
	mov	r0, r2
	bl	tlsf_heap.refusal.Refusal.of_name
	mov	r7, r0
	b	.LBB120_24
.LBB120_21:
	str	r2, [sp]
	str	r7, [sp, #4]
	ldr	r1, [sp, #40]
	ldr	r2, [sp, #28]
	mov	r3, r5
	bl	tlsf_heap.region.Region.write.4
	mov	r0, r7
	ldr	r4, [sp, #32]
	b	.LBB120_25
.LBB120_22:
	mov	r0, r2
	bl	tlsf_heap.refusal.Refusal.of_name
	mov	r7, r0
.LBB120_23:
	ldr	r4, [sp, #32]
.LBB120_24:
	ldr	r0, [sp, #16]
.LBB120_25:
	lsls	r0, r0, #31
	beq	.LBB120_27
	uxtb	r0, r7
	lsls	r0, r0, #2
	ldr	r1, .LCPI120_0
	ldr	r4, [r1, r0]
.LBB120_27:
	movs	r0, #1
	strb	r0, [r6]
.LBB120_28:
	mov	r0, r4
	add	sp, #44
	pop	{r4, r5, r6, r7, pc}
	.p2align	2
.LCPI120_0:
	.long	.Lswitch.table.tlsf_write
.Lfunc_end120:
	.size	tlsf_write, .Lfunc_end120-tlsf_write
	.cfi_endproc
	.section	.text.tlsf_pools_write,"ax",%progbits
	.globl	tlsf_pools_write
	.p2align	2
	.type	tlsf_pools_write,%function
	.code	16
	.thumb_func
tlsf_pools_write:
	.cfi_startproc
	push	{r4, r5, r6, r7, lr}
	.cfi_def_cfa_offset 20
	.cfi_offset lr, -4
	.cfi_offset r7, -8
	.cfi_offset r6, -12
	.cfi_offset r5, -16
	.cfi_offset r4, -20
	sub	sp, #52
	.cfi_def_cfa_offset 72
	str	r3, [sp, #48]
	movs	r4, #1
	ldr	r5, [sp, #84]
	cmp	r5, #0
	bne	.LBB121_2
	lsls	r1, r4, #12
	adds	r5, r5, r1
.LBB121_2:
	ldrb	r1, [r0, #8]
	cmp	r1, #0
	bne	.LBB121_3
	b	.LBB121_26
.LBB121_3:
	ldr	r6, [r0]
	ldrb	r0, [r6, #1]
	cmp	r0, #0
	bne	.LBB121_4
	b	.LBB121_26
.LBB121_4:
	ldrb	r0, [r6]
	cmp	r0, #1
	beq	.LBB121_5
	b	.LBB121_29
.LBB121_5:
	str	r5, [sp, #28]
	ldr	r0, [sp, #76]
	str	r0, [sp, #40]
	ldr	r0, [sp, #72]
	str	r0, [sp, #44]
	ldr	r0, [sp, #88]
	str	r0, [sp, #32]
	ldr	r0, [sp, #80]
	str	r0, [sp, #36]
	movs	r1, #0
	strb	r1, [r6, #1]
	ldr	r7, [r6, #16]
	ldr	r0, [r6, #24]
	ldrb	r5, [r6, #8]
	cmp	r5, #0
	beq	.LBB121_15
	cmp	r2, r7
	bhs	.LBB121_7
	b	.LBB121_24
.LBB121_7:
	subs	r7, r2, r7
	ldr	r5, [r6, #32]
	str	r4, [sp, #24]
	ldr	r4, [r6, #36]
	subs	r5, r7, r5
	mov	r5, r1
	sbcs	r5, r4
	ldr	r4, [sp, #24]
	blo	.LBB121_8
	b	.LBB121_24
.LBB121_8:
	str	r1, [sp, #16]
	ldr	r1, .LCPI121_0
	muls	r1, r7, r1
	ldr	r7, [r0, r1]
	cmp	r7, r2
	ldr	r5, [sp, #48]
	beq	.LBB121_9
	b	.LBB121_27
.LBB121_9:
	adds	r0, r0, r1
	str	r0, [sp, #20]
	ldr	r0, [r0, #32]
	cmp	r5, r0
	mov	r7, r2
	blo	.LBB121_10
	b	.LBB121_27
.LBB121_10:
	movs	r7, #63
	ands	r7, r5
	ldr	r0, [sp, #20]
	ldr	r1, [r0, #48]
	lsrs	r0, r5, #6
	lsls	r4, r0, #3
	ldr	r0, [r1, r4]
	adds	r1, r1, r4
	ldr	r1, [r1, #4]
	str	r2, [sp, #12]
	mov	r2, r7
	bl	__aeabi_llsr
	ldr	r2, [sp, #12]
	lsls	r0, r0, #31
	mov	r7, r2
	beq	.LBB121_27
	mov	r1, r5
	ldr	r3, [sp, #20]
	adds	r3, #24
	lsls	r0, r5, #3
	str	r3, [sp, #20]
	ldr	r3, [r3]
	ldrb	r4, [r3, r0]
	lsls	r4, r4, #31
	mov	r7, r2
	bne	.LBB121_27
	adds	r0, r3, r0
	ldr	r3, [r0, #8]
	ldr	r4, [r0, #12]
	ldr	r5, [sp, #40]
	eors	r4, r5
	ldr	r5, [sp, #44]
	eors	r3, r5
	orrs	r3, r4
	mov	r7, r2
	bne	.LBB121_27
	ldr	r2, [sp, #36]
	ldr	r7, [sp, #32]
	adds	r3, r7, r2
	ldr	r5, [sp, #16]
	mov	r4, r5
	adcs	r4, r5
	ldr	r0, [r0, #16]
	subs	r0, r0, r3
	mov	r0, r5
	sbcs	r0, r4
	blo	.LBB121_23
	str	r7, [sp]
	str	r5, [sp, #4]
	ldr	r0, [sp, #20]
	ldr	r3, [sp, #28]
	bl	tlsf_heap.region.Region.write.5
	b	.LBB121_32
.LBB121_15:
	cmp	r2, r7
	blo	.LBB121_24
	str	r0, [sp, #20]
	subs	r3, r2, r7
	ldr	r5, [r6, #32]
	ldr	r7, [r6, #36]
	movs	r0, #0
	str	r3, [sp, #12]
	subs	r5, r3, r5
	ldr	r3, [sp, #20]
	str	r0, [sp, #8]
	sbcs	r0, r7
	bhs	.LBB121_24
	str	r4, [sp, #24]
	str	r1, [sp, #16]
	ldr	r1, .LCPI121_0
	ldr	r0, [sp, #12]
	muls	r1, r0, r1
	ldr	r7, [r3, r1]
	cmp	r7, r2
	ldr	r4, [sp, #48]
	bne	.LBB121_27
	adds	r0, r3, r1
	str	r0, [sp, #20]
	ldr	r0, [r0, #32]
	cmp	r4, r0
	mov	r7, r2
	bhs	.LBB121_27
	movs	r7, #63
	ands	r7, r4
	ldr	r0, [sp, #20]
	ldr	r1, [r0, #48]
	lsrs	r0, r4, #6
	lsls	r5, r0, #3
	ldr	r0, [r1, r5]
	adds	r1, r1, r5
	ldr	r1, [r1, #4]
	str	r2, [sp, #12]
	mov	r2, r7
	bl	__aeabi_llsr
	ldr	r2, [sp, #12]
	lsls	r0, r0, #31
	mov	r7, r2
	beq	.LBB121_27
	mov	r1, r4
	ldr	r3, [sp, #20]
	adds	r3, #24
	lsls	r0, r4, #3
	str	r3, [sp, #20]
	ldr	r3, [r3]
	ldrb	r5, [r3, r0]
	lsls	r5, r5, #31
	mov	r7, r2
	bne	.LBB121_27
	adds	r0, r3, r0
	ldr	r3, [r0, #8]
	ldr	r5, [r0, #12]
	ldr	r4, [sp, #40]
	eors	r5, r4
	ldr	r4, [sp, #44]
	eors	r3, r4
	orrs	r3, r5
	mov	r7, r2
	bne	.LBB121_27
	ldr	r2, [sp, #36]
	ldr	r5, [sp, #32]
	adds	r4, r5, r2
	ldr	r7, [sp, #8]
	mov	r3, r7
	adcs	r3, r7
	ldr	r0, [r0, #16]
	subs	r0, r0, r4
	mov	r0, r7
	sbcs	r0, r3
	bhs	.LBB121_31
.LBB121_23:
	ldr	r0, [sp, #24]
	strb	r0, [r6, #1]
	movs	r0, #7
	add	sp, #52
	pop	{r4, r5, r6, r7, pc}
.LBB121_24:
	strb	r4, [r6, #1]
.LBB121_25:
	movs	r0, #3
	add	sp, #52
	pop	{r4, r5, r6, r7, pc}
.LBB121_26:
	movs	r0, #0
	b	.LBB121_30
.LBB121_27:
	mov	r0, r2
	mov	r1, r7
	bl	tlsf_heap.refusal.Refusal.of_name
	ldr	r1, [sp, #24]
	strb	r1, [r6, #1]
	uxtb	r0, r0
	cmp	r0, #3
	bne	.LBB121_25
	movs	r0, #4
	add	sp, #52
	pop	{r4, r5, r6, r7, pc}
.LBB121_29:
	movs	r0, #2
.LBB121_30:
	bl	tlsf_c.call_fault.CallFault.refusal
	add	sp, #52
	pop	{r4, r5, r6, r7, pc}
.LBB121_31:
	str	r5, [sp]
	str	r7, [sp, #4]
	ldr	r0, [sp, #20]
	ldr	r3, [sp, #28]
	bl	tlsf_heap.region.Region.write.4
.LBB121_32:
	ldr	r0, [sp, #24]
	strb	r0, [r6, #1]
	ldr	r0, [sp, #16]
	add	sp, #52
	pop	{r4, r5, r6, r7, pc}
	.p2align	2
.LCPI121_0:
	.long	2792
.Lfunc_end121:
	.size	tlsf_pools_write, .Lfunc_end121-tlsf_pools_write
	.cfi_endproc
	.type	.Lstatic.0,%object
	.section	.rodata.cst8,"aM",%progbits,8
.Lstatic.0:
	.zero	8
	.size	.Lstatic.0, 8
	.type	.Lswitch.table.tlsf_queue_take,%object
	.section	.rodata..Lswitch.table.tlsf_queue_take,"a",%progbits
	.p2align	2, 0x0
.Lswitch.table.tlsf_queue_take:
	.long	32
	.long	36
	.long	40
	.long	5
	.long	6
	.long	33
	.long	34
	.long	8
	.long	35
	.long	37
	.long	38
	.size	.Lswitch.table.tlsf_queue_take, 44
	.type	.Lswitch.table.tlsf_write,%object
	.section	.rodata..Lswitch.table.tlsf_write,"a",%progbits
	.p2align	2, 0x0
.Lswitch.table.tlsf_write:
	.long	1
	.long	2
	.long	3
	.long	4
	.long	7
	.size	.Lswitch.table.tlsf_write, 20
	.ident	"rattle logic=dac8208d650f15bf3e2dc313a14fa4c783a3acf887bdfab66e1714b038d9e11b"
	.section	".note.GNU-stack","",%progbits
/* The calls in C: c/pointers.c. */
	.syntax	unified
	.eabi_attribute	24, 1
	.eabi_attribute	25, 1
	.section	.text.tlsf_rounded,"ax",%progbits
	.globl	tlsf_rounded
	.p2align	1
	.type	tlsf_rounded,%function
	.code	16
	.thumb_func
tlsf_rounded:
	.cfi_sections .debug_frame
	.cfi_startproc
	movs	r1, #0
	movs	r2, #15
	mvns	r2, r2
	cmp	r0, r2
	bls	.Lp_BB0_2
	mvns	r0, r1
	bx	lr
.Lp_BB0_2:
	cmp	r0, #0
	bne	.Lp_BB0_4
	movs	r1, #8
.Lp_BB0_4:
	adds	r0, r0, #7
	movs	r2, #7
	bics	r0, r2
	orrs	r0, r1
	bx	lr
.Lp_func_end0:
	.size	tlsf_rounded, .Lp_func_end0-tlsf_rounded
	.cfi_endproc
	.section	.text.tlsf_place_of,"ax",%progbits
	.globl	tlsf_place_of
	.p2align	1
	.type	tlsf_place_of,%function
	.code	16
	.thumb_func
tlsf_place_of:
	.cfi_startproc
	ldr	r0, [r0, #16]
	subs	r0, r1, r0
	subs	r0, #24
	lsls	r1, r0, #29
	beq	.Lp_BB1_2
	movs	r0, #0
	mvns	r0, r0
	bx	lr
.Lp_BB1_2:
	lsrs	r0, r0, #3
	bx	lr
.Lp_func_end1:
	.size	tlsf_place_of, .Lp_func_end1-tlsf_place_of
	.cfi_endproc
	.section	.text.tlsf_near,"ax",%progbits
	.globl	tlsf_near
	.p2align	1
	.type	tlsf_near,%function
	.code	16
	.thumb_func
tlsf_near:
	.cfi_startproc
	rsbs	r1, r0, #0
	movs	r2, #63
	ands	r2, r1
	adds	r0, r0, r2
	bx	lr
.Lp_func_end2:
	.size	tlsf_near, .Lp_func_end2-tlsf_near
	.cfi_endproc
	.section	.text.tlsf_base,"ax",%progbits
	.globl	tlsf_base
	.p2align	1
	.type	tlsf_base,%function
	.code	16
	.thumb_func
tlsf_base:
	.cfi_startproc
	ldrb	r1, [r0, #8]
	cmp	r1, #1
	bne	.Lp_BB3_2
	ldr	r0, [r0, #16]
	bx	lr
.Lp_BB3_2:
	movs	r0, #0
	bx	lr
.Lp_func_end3:
	.size	tlsf_base, .Lp_func_end3-tlsf_base
	.cfi_endproc
	.section	.text.tlsf_at,"ax",%progbits
	.globl	tlsf_at
	.p2align	1
	.type	tlsf_at,%function
	.code	16
	.thumb_func
tlsf_at:
	.cfi_startproc
	cmp	r0, #0
	beq	.Lp_BB4_2
	lsls	r1, r3, #3
	adds	r0, r0, r1
	adds	r0, #24
.Lp_BB4_2:
	bx	lr
.Lp_func_end4:
	.size	tlsf_at, .Lp_func_end4-tlsf_at
	.cfi_endproc
	.section	.text.tlsf_block_size,"ax",%progbits
	.globl	tlsf_block_size
	.p2align	1
	.type	tlsf_block_size,%function
	.code	16
	.thumb_func
tlsf_block_size:
	.cfi_startproc
	cmp	r0, #0
	beq	.Lp_BB5_2
	subs	r0, #8
	ldrb	r1, [r0]
	ldrb	r2, [r0, #1]
	lsls	r2, r2, #8
	adds	r1, r2, r1
	ldrb	r2, [r0, #2]
	lsls	r2, r2, #16
	ldrb	r0, [r0, #3]
	lsls	r0, r0, #24
	adds	r0, r0, r2
	adds	r0, r0, r1
	bx	lr
.Lp_BB5_2:
	movs	r0, #0
	bx	lr
.Lp_func_end5:
	.size	tlsf_block_size, .Lp_func_end5-tlsf_block_size
	.cfi_endproc
	.section	.text.tlsf_aligned_alloc,"ax",%progbits
	.globl	tlsf_aligned_alloc
	.p2align	2
	.type	tlsf_aligned_alloc,%function
	.code	16
	.thumb_func
tlsf_aligned_alloc:
	.cfi_startproc
	push	{r4, r5, r7, lr}
	.cfi_def_cfa_offset 16
	.cfi_offset lr, -4
	.cfi_offset r7, -8
	.cfi_offset r5, -12
	.cfi_offset r4, -16
	sub	sp, #24
	.cfi_def_cfa_offset 40
	mov	r3, r1
	mov	r4, r0
	subs	r0, r1, #1
	eors	r1, r0
	cmp	r1, r0
	bls	.Lp_BB6_6
	movs	r1, #1
	lsls	r1, r1, #27
	cmp	r3, r1
	bhi	.Lp_BB6_16
	cmp	r2, r1
	bhi	.Lp_BB6_16
	ldrb	r1, [r4, #29]
	cmp	r1, #9
	bhs	.Lp_BB6_17
	cmp	r2, #0
	beq	.Lp_BB6_8
	movs	r1, #0
	b	.Lp_BB6_9
.Lp_BB6_6:
	movs	r0, #5
.Lp_BB6_7:
	str	r0, [sp, #12]
	movs	r0, #0
	str	r0, [sp, #8]
	b	.Lp_BB6_12
.Lp_BB6_8:
	movs	r1, #8
.Lp_BB6_9:
	adds	r5, r2, #7
	ldr	r2, .Lp_CPI6_0
	ands	r2, r5
	orrs	r2, r1
	cmp	r3, #8
	bhi	.Lp_BB6_11
	add	r0, sp, #8
	mov	r1, r4
	bl	tlsf_allocate_place
	b	.Lp_BB6_12
.Lp_BB6_11:
	ldr	r1, [r4, #16]
	ands	r0, r1
	lsrs	r0, r0, #3
	str	r0, [sp]
	lsrs	r3, r3, #3
	add	r0, sp, #8
	mov	r1, r4
	bl	tlsf_allocate_aligned
.Lp_BB6_12:
	ldr	r0, [sp, #12]
	cmp	r0, #0
	beq	.Lp_BB6_14
	movs	r0, #0
	b	.Lp_BB6_15
.Lp_BB6_14:
	ldr	r0, [sp, #8]
	lsls	r0, r0, #3
	ldr	r1, [r4, #16]
	adds	r0, r1, r0
	adds	r0, #24
.Lp_BB6_15:
	add	sp, #24
	pop	{r4, r5, r7, pc}
.Lp_BB6_16:
	mov	r0, r4
	bl	tlsf_too_long
	b	.Lp_BB6_7
.Lp_BB6_17:
	add	r0, sp, #8
	mov	r1, r4
	bl	tlsf_mixed_place
	b	.Lp_BB6_12
	.p2align	2
.Lp_CPI6_0:
	.long	536870904
.Lp_func_end6:
	.size	tlsf_aligned_alloc, .Lp_func_end6-tlsf_aligned_alloc
	.cfi_endproc
	.section	.text.tlsf_malloc,"ax",%progbits
	.globl	tlsf_malloc
	.p2align	2
	.type	tlsf_malloc,%function
	.code	16
	.thumb_func
tlsf_malloc:
	.cfi_startproc
	push	{r4, r5, r7, lr}
	.cfi_def_cfa_offset 16
	.cfi_offset lr, -4
	.cfi_offset r7, -8
	.cfi_offset r5, -12
	.cfi_offset r4, -16
	sub	sp, #16
	.cfi_def_cfa_offset 32
	mov	r4, r0
	ldrb	r0, [r0, #29]
	cmp	r0, #9
	bhs	.Lp_BB7_7
	movs	r0, #1
	lsls	r0, r0, #27
	movs	r5, #0
	cmp	r1, r0
	bhi	.Lp_BB7_8
	cmp	r1, #0
	beq	.Lp_BB7_4
	mov	r0, r5
	b	.Lp_BB7_5
.Lp_BB7_4:
	movs	r0, #8
.Lp_BB7_5:
	adds	r1, r1, #7
	ldr	r2, .Lp_CPI7_0
	ands	r2, r1
	orrs	r2, r0
	mov	r0, sp
	mov	r1, r4
	bl	tlsf_allocate_place
	ldr	r0, [sp, #4]
	cmp	r0, #0
	bne	.Lp_BB7_8
	ldr	r0, [sp]
	lsls	r0, r0, #3
	ldr	r1, [r4, #16]
	adds	r5, r1, r0
	adds	r5, #24
	b	.Lp_BB7_8
.Lp_BB7_7:
	mov	r0, r4
	bl	tlsf_malloc_mixed
	mov	r5, r0
.Lp_BB7_8:
	mov	r0, r5
	add	sp, #16
	pop	{r4, r5, r7, pc}
	.p2align	2
.Lp_CPI7_0:
	.long	536870904
.Lp_func_end7:
	.size	tlsf_malloc, .Lp_func_end7-tlsf_malloc
	.cfi_endproc
	.section	.text.unlikely.tlsf_malloc_mixed,"ax",%progbits
	.p2align	1
	.type	tlsf_malloc_mixed,%function
	.code	16
	.thumb_func
tlsf_malloc_mixed:
	.cfi_startproc
	push	{r7, lr}
	.cfi_def_cfa_offset 8
	.cfi_offset lr, -4
	.cfi_offset r7, -8
	bl	tlsf_malloc_own
	pop	{r7, pc}
.Lp_func_end8:
	.size	tlsf_malloc_mixed, .Lp_func_end8-tlsf_malloc_mixed
	.cfi_endproc
	.section	.text.tlsf_words_for,"ax",%progbits
	.globl	tlsf_words_for
	.p2align	2
	.type	tlsf_words_for,%function
	.code	16
	.thumb_func
tlsf_words_for:
	.cfi_startproc
	push	{r4, r5, r7, lr}
	.cfi_def_cfa_offset 16
	.cfi_offset lr, -4
	.cfi_offset r7, -8
	.cfi_offset r5, -12
	.cfi_offset r4, -16
	cmp	r3, #16
	bhi	.Lp_BB9_2
	movs	r3, #16
.Lp_BB9_2:
	movs	r4, #1
	lsls	r4, r4, #27
	cmp	r3, r4
	blo	.Lp_BB9_4
	mov	r3, r4
.Lp_BB9_4:
	cmp	r2, #0
	beq	.Lp_BB9_6
	movs	r5, #0
	b	.Lp_BB9_7
.Lp_BB9_6:
	movs	r5, #8
.Lp_BB9_7:
	cmp	r2, r4
	blo	.Lp_BB9_9
	mov	r2, r4
.Lp_BB9_9:
	adds	r2, r2, #7
	ldr	r4, .Lp_CPI9_0
	ands	r4, r2
	orrs	r4, r5
	adds	r2, r3, r4
	adds	r2, #32
	ldr	r3, [sp, #16]
	bl	tlsf_words
	pop	{r4, r5, r7, pc}
	.p2align	2
.Lp_CPI9_0:
	.long	536870904
.Lp_func_end9:
	.size	tlsf_words_for, .Lp_func_end9-tlsf_words_for
	.cfi_endproc
	.section	.text.tlsf_calloc,"ax",%progbits
	.globl	tlsf_calloc
	.p2align	1
	.type	tlsf_calloc,%function
	.code	16
	.thumb_func
tlsf_calloc:
	.cfi_startproc
	push	{r4, r5, r6, r7, lr}
	.cfi_def_cfa_offset 20
	.cfi_offset lr, -4
	.cfi_offset r7, -8
	.cfi_offset r6, -12
	.cfi_offset r5, -16
	.cfi_offset r4, -20
	sub	sp, #20
	.cfi_def_cfa_offset 40
	mov	r7, r2
	mov	r5, r1
	mov	r4, r0
	movs	r6, #0
	str	r6, [sp, #12]
	str	r6, [sp, #8]
	str	r6, [sp, #4]
	str	r6, [sp]
	cmp	r2, #0
	beq	.Lp_BB10_2
	movs	r0, #1
	lsls	r0, r0, #27
	mov	r1, r7
	bl	__aeabi_uidiv
	cmp	r5, r0
	bhi	.Lp_BB10_13
.Lp_BB10_2:
	muls	r5, r7, r5
	ldrb	r0, [r4, #29]
	cmp	r0, #9
	bhs	.Lp_BB10_5
	movs	r0, #0
	movs	r1, #15
	mvns	r1, r1
	cmp	r5, r1
	bls	.Lp_BB10_7
	mvns	r1, r0
	b	.Lp_BB10_10
.Lp_BB10_5:
	mov	r0, r4
	mov	r1, r5
	bl	tlsf_malloc
	cmp	r0, #0
	beq	.Lp_BB10_13
	mov	r4, r0
	movs	r1, #0
	mov	r2, r5
	bl	memset
	mov	r6, r4
	b	.Lp_BB10_13
.Lp_BB10_7:
	cmp	r5, #0
	bne	.Lp_BB10_9
	movs	r0, #8
.Lp_BB10_9:
	adds	r1, r5, #7
	movs	r2, #7
	bics	r1, r2
	orrs	r1, r0
.Lp_BB10_10:
	mov	r2, sp
	mov	r0, r4
	bl	tlsf_allocate
	cmp	r0, #0
	beq	.Lp_BB10_12
	movs	r6, #0
	b	.Lp_BB10_13
.Lp_BB10_12:
	ldr	r0, [sp, #4]
	lsls	r0, r0, #3
	ldr	r1, [r4, #16]
	adds	r6, r1, r0
	adds	r6, #24
.Lp_BB10_13:
	mov	r0, r6
	add	sp, #20
	pop	{r4, r5, r6, r7, pc}
.Lp_func_end10:
	.size	tlsf_calloc, .Lp_func_end10-tlsf_calloc
	.cfi_endproc
	.section	.text.tlsf_free,"ax",%progbits
	.globl	tlsf_free
	.p2align	1
	.type	tlsf_free,%function
	.code	16
	.thumb_func
tlsf_free:
	.cfi_startproc
	push	{r7, lr}
	.cfi_def_cfa_offset 8
	.cfi_offset lr, -4
	.cfi_offset r7, -8
	cmp	r1, #0
	beq	.Lp_BB11_3
	ldr	r2, [r0, #16]
	subs	r1, r1, r2
	subs	r1, #24
	lsls	r2, r1, #29
	beq	.Lp_BB11_4
	movs	r1, #0
	mvns	r1, r1
	b	.Lp_BB11_5
.Lp_BB11_3:
	movs	r0, #0
	pop	{r7, pc}
.Lp_BB11_4:
	lsrs	r1, r1, #3
.Lp_BB11_5:
	bl	tlsf_release_place
	pop	{r7, pc}
.Lp_func_end11:
	.size	tlsf_free, .Lp_func_end11-tlsf_free
	.cfi_endproc
	.section	.text.tlsf_usable_size,"ax",%progbits
	.globl	tlsf_usable_size
	.p2align	1
	.type	tlsf_usable_size,%function
	.code	16
	.thumb_func
tlsf_usable_size:
	.cfi_startproc
	push	{r4, lr}
	.cfi_def_cfa_offset 8
	.cfi_offset lr, -4
	.cfi_offset r4, -8
	sub	sp, #24
	.cfi_def_cfa_offset 32
	movs	r4, #0
	str	r4, [sp, #20]
	str	r4, [sp, #16]
	str	r4, [sp, #12]
	str	r4, [sp, #8]
	str	r4, [sp, #4]
	ldr	r2, [r0, #16]
	subs	r1, r1, r2
	subs	r1, #24
	lsls	r2, r1, #29
	beq	.Lp_BB12_2
	mvns	r1, r4
	b	.Lp_BB12_3
.Lp_BB12_2:
	lsrs	r1, r1, #3
.Lp_BB12_3:
	add	r2, sp, #8
	add	r3, sp, #4
	bl	tlsf_place
	cmp	r0, #0
	bne	.Lp_BB12_5
	ldr	r4, [sp, #4]
.Lp_BB12_5:
	mov	r0, r4
	add	sp, #24
	pop	{r4, pc}
.Lp_func_end12:
	.size	tlsf_usable_size, .Lp_func_end12-tlsf_usable_size
	.cfi_endproc
	.section	.text.tlsf_name_at,"ax",%progbits
	.globl	tlsf_name_at
	.p2align	1
	.type	tlsf_name_at,%function
	.code	16
	.thumb_func
tlsf_name_at:
	.cfi_startproc
	push	{r4, r5, r6, lr}
	.cfi_def_cfa_offset 16
	.cfi_offset lr, -4
	.cfi_offset r6, -8
	.cfi_offset r5, -12
	.cfi_offset r4, -16
	sub	sp, #24
	.cfi_def_cfa_offset 40
	mov	r4, r2
	movs	r2, #0
	str	r2, [sp, #20]
	str	r2, [sp, #16]
	str	r2, [sp, #12]
	str	r2, [sp, #8]
	str	r2, [sp, #4]
	ldr	r3, [r0, #16]
	subs	r1, r1, r3
	subs	r1, #24
	lsls	r3, r1, #29
	beq	.Lp_BB13_2
	mvns	r1, r2
	b	.Lp_BB13_3
.Lp_BB13_2:
	lsrs	r1, r1, #3
.Lp_BB13_3:
	add	r2, sp, #8
	add	r3, sp, #4
	bl	tlsf_place
	cmp	r0, #0
	bne	.Lp_BB13_5
	add	r1, sp, #8
	ldm	r1!, {r2, r3, r5, r6}
	stm	r4!, {r2, r3, r5, r6}
.Lp_BB13_5:
	add	sp, #24
	pop	{r4, r5, r6, pc}
.Lp_func_end13:
	.size	tlsf_name_at, .Lp_func_end13-tlsf_name_at
	.cfi_endproc
	.section	.text.tlsf_realloc,"ax",%progbits
	.globl	tlsf_realloc
	.p2align	2
	.type	tlsf_realloc,%function
	.code	16
	.thumb_func
tlsf_realloc:
	.cfi_startproc
	push	{r4, r5, r7, lr}
	.cfi_def_cfa_offset 16
	.cfi_offset lr, -4
	.cfi_offset r7, -8
	.cfi_offset r5, -12
	.cfi_offset r4, -16
	sub	sp, #8
	.cfi_def_cfa_offset 24
	mov	r4, r0
	cmp	r1, #0
	beq	.Lp_BB14_4
	cmp	r2, #0
	beq	.Lp_BB14_6
	movs	r0, #1
	lsls	r0, r0, #27
	cmp	r2, r0
	bls	.Lp_BB14_8
	movs	r5, #0
	b	.Lp_BB14_16
.Lp_BB14_4:
	mov	r0, r4
	mov	r1, r2
	bl	tlsf_malloc
.Lp_BB14_5:
	mov	r5, r0
	b	.Lp_BB14_16
.Lp_BB14_6:
	ldr	r0, [r4, #16]
	subs	r0, r1, r0
	subs	r0, #24
	movs	r5, #0
	lsls	r1, r0, #29
	beq	.Lp_BB14_11
	mvns	r1, r5
	b	.Lp_BB14_12
.Lp_BB14_8:
	ldrb	r0, [r4, #29]
	cmp	r0, #9
	bhs	.Lp_BB14_17
	ldr	r0, [r4, #16]
	subs	r0, r1, r0
	subs	r0, #24
	movs	r5, #0
	lsls	r1, r0, #29
	beq	.Lp_BB14_13
	mvns	r1, r5
	b	.Lp_BB14_14
.Lp_BB14_11:
	lsrs	r1, r0, #3
.Lp_BB14_12:
	mov	r0, r4
	bl	tlsf_release_place
	b	.Lp_BB14_16
.Lp_BB14_13:
	lsrs	r1, r0, #3
.Lp_BB14_14:
	str	r1, [sp, #4]
	adds	r0, r2, #7
	ldr	r2, .Lp_CPI14_0
	ands	r2, r0
	add	r3, sp, #4
	mov	r0, r4
	bl	tlsf_resize_place
	cmp	r0, #0
	bne	.Lp_BB14_16
	ldr	r0, [sp, #4]
	lsls	r0, r0, #3
	ldr	r1, [r4, #16]
	adds	r5, r1, r0
	adds	r5, #24
.Lp_BB14_16:
	mov	r0, r5
	add	sp, #8
	pop	{r4, r5, r7, pc}
.Lp_BB14_17:
	mov	r0, r4
	bl	tlsf_realloc_mixed
	b	.Lp_BB14_5
	.p2align	2
.Lp_CPI14_0:
	.long	536870904
.Lp_func_end14:
	.size	tlsf_realloc, .Lp_func_end14-tlsf_realloc
	.cfi_endproc
	.section	.text.unlikely.tlsf_realloc_mixed,"ax",%progbits
	.p2align	1
	.type	tlsf_realloc_mixed,%function
	.code	16
	.thumb_func
tlsf_realloc_mixed:
	.cfi_startproc
	push	{r4, r5, r6, r7, lr}
	.cfi_def_cfa_offset 20
	.cfi_offset lr, -4
	.cfi_offset r7, -8
	.cfi_offset r6, -12
	.cfi_offset r5, -16
	.cfi_offset r4, -20
	sub	sp, #68
	.cfi_def_cfa_offset 88
	mov	r6, r2
	mov	r7, r1
	mov	r4, r0
	add	r0, sp, #16
	movs	r5, #0
	movs	r2, #24
	mov	r1, r5
	bl	memset
	ldrb	r0, [r4, #29]
	cmp	r0, #0
	bne	.Lp_BB15_2
	movs	r0, #8
.Lp_BB15_2:
	rsbs	r1, r0, #0
	str	r6, [sp, #12]
	adds	r6, r6, r0
	adds	r6, #23
	ands	r6, r1
	ldr	r1, [r4, #16]
	str	r7, [sp, #8]
	subs	r1, r7, r1
	subs	r1, #24
	lsls	r2, r1, #29
	beq	.Lp_BB15_4
	mvns	r7, r5
	b	.Lp_BB15_5
.Lp_BB15_4:
	lsrs	r7, r1, #3
.Lp_BB15_5:
	subs	r6, #24
	cmp	r0, #8
	bne	.Lp_BB15_8
	str	r7, [sp, #40]
	add	r3, sp, #40
	mov	r0, r4
	mov	r1, r7
	mov	r2, r6
	bl	tlsf_resize_place
	cmp	r0, #0
	beq	.Lp_BB15_22
.Lp_BB15_7:
	movs	r5, #0
	b	.Lp_BB15_23
.Lp_BB15_8:
	add	r2, sp, #16
	mov	r0, r4
	mov	r1, r7
	bl	tlsf_block_at
	cmp	r0, #0
	bne	.Lp_BB15_21
	ldr	r0, [sp, #24]
	cmp	r0, #0
	beq	.Lp_BB15_21
	ldr	r0, [sp, #20]
	str	r0, [sp, #4]
	add	r0, sp, #40
	movs	r5, #0
	movs	r2, #24
	mov	r1, r5
	bl	memset
	ldr	r3, [sp, #4]
	lsls	r0, r3, #3
	subs	r0, #24
	cmp	r0, r6
	mov	r1, r0
	blo	.Lp_BB15_12
	mov	r1, r6
.Lp_BB15_12:
	ldr	r2, [sp, #12]
	cmp	r0, r2
	blo	.Lp_BB15_14
	mov	r6, r1
.Lp_BB15_14:
	lsrs	r0, r6, #3
	adds	r0, r0, #3
	cmp	r3, r0
	bhs	.Lp_BB15_21
	str	r0, [sp]
	ldr	r0, [sp, #16]
	adds	r1, r0, r3
	add	r2, sp, #40
	mov	r0, r4
	bl	tlsf_block_at
	ldr	r1, [sp, #48]
	orrs	r1, r0
	bne	.Lp_BB15_17
	ldr	r0, [sp, #20]
	ldr	r1, [sp, #44]
	adds	r0, r1, r0
	ldr	r1, [sp]
	cmp	r0, r1
	bhs	.Lp_BB15_21
.Lp_BB15_17:
	mov	r0, r4
	ldr	r6, [sp, #12]
	mov	r1, r6
	bl	tlsf_malloc
	cmp	r0, #0
	beq	.Lp_BB15_7
	mov	r5, r0
	ldr	r2, [sp, #28]
	cmp	r2, r6
	blo	.Lp_BB15_20
	mov	r2, r6
.Lp_BB15_20:
	mov	r0, r5
	ldr	r1, [sp, #8]
	bl	memcpy
	ldr	r1, [sp, #16]
	mov	r0, r4
	bl	tlsf_release_place
	b	.Lp_BB15_23
.Lp_BB15_21:
	str	r7, [sp, #40]
	add	r3, sp, #40
	mov	r0, r4
	mov	r1, r7
	mov	r2, r6
	bl	tlsf_resize_place
	cmp	r0, #0
	bne	.Lp_BB15_23
.Lp_BB15_22:
	ldr	r0, [sp, #40]
	lsls	r0, r0, #3
	ldr	r1, [r4, #16]
	adds	r5, r1, r0
	adds	r5, #24
.Lp_BB15_23:
	mov	r0, r5
	add	sp, #68
	pop	{r4, r5, r6, r7, pc}
.Lp_func_end15:
	.size	tlsf_realloc_mixed, .Lp_func_end15-tlsf_realloc_mixed
	.cfi_endproc
	.section	.text.tlsf_aligned_realloc,"ax",%progbits
	.globl	tlsf_aligned_realloc
	.p2align	1
	.type	tlsf_aligned_realloc,%function
	.code	16
	.thumb_func
tlsf_aligned_realloc:
	.cfi_startproc
	push	{r4, r5, r6, r7, lr}
	.cfi_def_cfa_offset 20
	.cfi_offset lr, -4
	.cfi_offset r7, -8
	.cfi_offset r6, -12
	.cfi_offset r5, -16
	.cfi_offset r4, -20
	sub	sp, #76
	.cfi_def_cfa_offset 96
	mov	r7, r3
	mov	r4, r2
	cmp	r1, #0
	beq	.Lp_BB16_10
	movs	r5, #0
	cmp	r4, #0
	beq	.Lp_BB16_12
	subs	r2, r4, #1
	tst	r4, r2
	bne	.Lp_BB16_12
	mov	r6, r1
	cmp	r7, #0
	beq	.Lp_BB16_13
	movs	r1, #1
	lsls	r1, r1, #27
	cmp	r7, r1
	bhi	.Lp_BB16_12
	ldrb	r1, [r0, #29]
	cmp	r1, #0
	bne	.Lp_BB16_7
	movs	r1, #8
.Lp_BB16_7:
	ands	r2, r6
	bne	.Lp_BB16_17
	cmp	r4, r1
	bhi	.Lp_BB16_17
	mov	r1, r6
	mov	r2, r7
	bl	tlsf_realloc
	b	.Lp_BB16_11
.Lp_BB16_10:
	mov	r1, r4
	mov	r2, r7
	bl	tlsf_aligned_alloc
.Lp_BB16_11:
	mov	r5, r0
.Lp_BB16_12:
	mov	r0, r5
	add	sp, #76
	pop	{r4, r5, r6, r7, pc}
.Lp_BB16_13:
	ldr	r1, [r0, #16]
	subs	r2, r6, r1
	subs	r2, #24
	movs	r5, #0
	lsls	r1, r2, #29
	beq	.Lp_BB16_15
	mvns	r1, r5
	b	.Lp_BB16_16
.Lp_BB16_15:
	lsrs	r1, r2, #3
.Lp_BB16_16:
	bl	tlsf_release_place
	b	.Lp_BB16_12
.Lp_BB16_17:
	str	r1, [sp, #16]
	str	r2, [sp, #4]
	add	r1, sp, #24
	movs	r5, #0
	str	r0, [sp, #20]
	movs	r2, #24
	str	r1, [sp, #12]
	mov	r0, r1
	mov	r1, r5
	bl	memset
	ldr	r0, [sp, #20]
	ldr	r1, [r0, #16]
	subs	r2, r6, r1
	subs	r2, #24
	lsls	r1, r2, #29
	beq	.Lp_BB16_19
	mvns	r1, r5
	b	.Lp_BB16_20
.Lp_BB16_19:
	lsrs	r1, r2, #3
.Lp_BB16_20:
	str	r1, [sp, #8]
	ldr	r2, [sp, #12]
	bl	tlsf_block_at
	ldr	r2, [sp, #16]
	adds	r1, r7, r2
	adds	r1, #23
	rsbs	r2, r2, #0
	ands	r2, r1
	subs	r2, #24
	cmp	r0, #0
	bne	.Lp_BB16_31
	ldr	r0, [sp, #32]
	cmp	r0, #0
	beq	.Lp_BB16_31
	ldr	r3, [sp, #28]
	lsls	r0, r3, #3
	subs	r0, #24
	cmp	r0, r2
	mov	r1, r0
	blo	.Lp_BB16_24
	mov	r1, r2
.Lp_BB16_24:
	str	r2, [sp, #16]
	cmp	r0, r7
	ldr	r0, [sp, #20]
	ldr	r2, [sp, #4]
	blo	.Lp_BB16_26
	str	r1, [sp, #16]
.Lp_BB16_26:
	cmp	r2, #0
	beq	.Lp_BB16_33
.Lp_BB16_27:
	mov	r1, r4
	mov	r2, r7
	bl	tlsf_aligned_alloc
	cmp	r0, #0
	beq	.Lp_BB16_12
	mov	r4, r0
	ldr	r2, [sp, #36]
	cmp	r2, r7
	blo	.Lp_BB16_30
	mov	r2, r7
.Lp_BB16_30:
	mov	r0, r4
	mov	r1, r6
	bl	memcpy
	ldr	r1, [sp, #24]
	ldr	r0, [sp, #20]
	bl	tlsf_release_place
	mov	r5, r4
	b	.Lp_BB16_12
.Lp_BB16_31:
	ldr	r1, [sp, #8]
	str	r1, [sp, #48]
	add	r3, sp, #48
	ldr	r4, [sp, #20]
	mov	r0, r4
	bl	tlsf_resize_place
	cmp	r0, #0
	beq	.Lp_BB16_38
	movs	r5, #0
	b	.Lp_BB16_12
.Lp_BB16_33:
	add	r0, sp, #48
	movs	r1, #0
	movs	r2, #24
	str	r1, [sp, #4]
	str	r3, [sp, #12]
	bl	memset
	ldr	r1, [sp, #12]
	ldr	r0, [sp, #16]
	lsrs	r0, r0, #3
	adds	r0, r0, #3
	cmp	r1, r0
	bhs	.Lp_BB16_36
	str	r0, [sp]
	ldr	r0, [sp, #24]
	adds	r1, r0, r1
	add	r2, sp, #48
	ldr	r0, [sp, #20]
	bl	tlsf_block_at
	ldr	r1, [sp, #56]
	orrs	r1, r0
	bne	.Lp_BB16_39
	ldr	r0, [sp, #28]
	ldr	r1, [sp, #52]
	adds	r0, r1, r0
	ldr	r1, [sp]
	cmp	r0, r1
	ldr	r0, [sp, #20]
	blo	.Lp_BB16_27
	b	.Lp_BB16_37
.Lp_BB16_36:
	ldr	r0, [sp, #20]
.Lp_BB16_37:
	ldr	r1, [sp, #8]
	str	r1, [sp, #48]
	add	r3, sp, #48
	mov	r4, r0
	ldr	r2, [sp, #16]
	bl	tlsf_resize_place
	cmp	r0, #0
	ldr	r5, [sp, #4]
	beq	.Lp_BB16_38
	b	.Lp_BB16_12
.Lp_BB16_38:
	ldr	r0, [sp, #48]
	lsls	r0, r0, #3
	ldr	r1, [r4, #16]
	adds	r5, r1, r0
	adds	r5, #24
	b	.Lp_BB16_12
.Lp_BB16_39:
	ldr	r0, [sp, #20]
	b	.Lp_BB16_27
.Lp_func_end16:
	.size	tlsf_aligned_realloc, .Lp_func_end16-tlsf_aligned_realloc
	.cfi_endproc
	.section	.text.tlsf_allocate_at,"ax",%progbits
	.globl	tlsf_allocate_at
	.p2align	2
	.type	tlsf_allocate_at,%function
	.code	16
	.thumb_func
tlsf_allocate_at:
	.cfi_startproc
	push	{r4, r5, r6, r7, lr}
	.cfi_def_cfa_offset 20
	.cfi_offset lr, -4
	.cfi_offset r7, -8
	.cfi_offset r6, -12
	.cfi_offset r5, -16
	.cfi_offset r4, -20
	sub	sp, #52
	.cfi_def_cfa_offset 72
	mov	r5, r1
	mov	r4, r0
	subs	r0, r2, #1
	mov	r1, r2
	eors	r1, r0
	cmp	r1, r0
	str	r3, [sp, #28]
	bls	.Lp_BB17_6
	movs	r1, #1
	lsls	r1, r1, #27
	cmp	r5, r1
	bhi	.Lp_BB17_20
	mov	r7, r2
	cmp	r2, r1
	bhi	.Lp_BB17_20
	ldrb	r1, [r4, #29]
	cmp	r1, #9
	bhs	.Lp_BB17_21
	cmp	r5, #0
	beq	.Lp_BB17_7
	movs	r1, #0
	b	.Lp_BB17_8
.Lp_BB17_6:
	movs	r0, #0
	str	r0, [sp, #44]
	str	r0, [sp, #40]
	movs	r1, #5
	str	r1, [sp, #36]
	str	r0, [sp, #32]
	b	.Lp_BB17_11
.Lp_BB17_7:
	movs	r1, #8
.Lp_BB17_8:
	adds	r6, r5, #7
	ldr	r2, .Lp_CPI17_0
	ands	r2, r6
	orrs	r2, r1
	cmp	r7, #8
	bhi	.Lp_BB17_10
	add	r0, sp, #32
	mov	r1, r4
	bl	tlsf_allocate_place
	b	.Lp_BB17_11
.Lp_BB17_10:
	ldr	r1, [r4, #16]
	ands	r0, r1
	lsrs	r0, r0, #3
	str	r0, [sp]
	lsrs	r3, r7, #3
	add	r0, sp, #32
	mov	r1, r4
	bl	tlsf_allocate_aligned
.Lp_BB17_11:
	ldr	r7, [sp, #36]
	cmp	r7, #0
	bne	.Lp_BB17_19
	str	r5, [sp, #20]
	ldr	r2, [sp, #76]
	ldr	r6, [sp, #72]
	ldr	r3, [r4, #24]
	ldr	r1, [sp, #44]
	ldr	r0, [sp, #40]
	str	r0, [sp, #24]
	mov	r5, r4
	ldr	r4, [sp, #32]
	ldr	r0, [sp, #28]
	lsls	r0, r0, #31
	mov	r0, r4
	bne	.Lp_BB17_18
	str	r5, [sp, #28]
	ldr	r5, [sp, #20]
	cmp	r5, #1
	bhi	.Lp_BB17_15
	movs	r5, #1
.Lp_BB17_15:
	ldr	r0, [sp, #28]
	ldrb	r0, [r0, #29]
	cmp	r0, #0
	str	r2, [sp, #16]
	str	r1, [sp, #12]
	str	r3, [sp, #8]
	bne	.Lp_BB17_17
	movs	r0, #8
.Lp_BB17_17:
	adds	r1, r5, r0
	adds	r1, #23
	rsbs	r2, r0, #0
	ands	r2, r1
	subs	r2, #24
	lsls	r0, r4, #3
	ldr	r5, [sp, #28]
	ldr	r1, [r5, #16]
	adds	r0, r1, r0
	adds	r0, #24
	movs	r1, #0
	bl	memset
	ldr	r0, [sp, #32]
	ldr	r2, [sp, #16]
	ldr	r1, [sp, #12]
	ldr	r3, [sp, #8]
.Lp_BB17_18:
	stm	r6!, {r3, r4}
	ldr	r3, [sp, #24]
	str	r3, [r6]
	str	r1, [r6, #4]
	lsls	r0, r0, #3
	ldr	r1, [r5, #16]
	adds	r0, r1, r0
	adds	r0, #24
	str	r0, [r2]
.Lp_BB17_19:
	mov	r0, r7
	add	sp, #52
	pop	{r4, r5, r6, r7, pc}
.Lp_BB17_20:
	mov	r0, r4
	bl	tlsf_too_long
	movs	r1, #0
	str	r1, [sp, #44]
	str	r1, [sp, #40]
	str	r0, [sp, #36]
	str	r1, [sp, #32]
	b	.Lp_BB17_11
.Lp_BB17_21:
	add	r0, sp, #32
	mov	r1, r4
	mov	r2, r5
	mov	r3, r7
	bl	tlsf_mixed_place
	b	.Lp_BB17_11
	.p2align	2
.Lp_CPI17_0:
	.long	536870904
.Lp_func_end17:
	.size	tlsf_allocate_at, .Lp_func_end17-tlsf_allocate_at
	.cfi_endproc
	.section	.text.tlsf_payload,"ax",%progbits
	.globl	tlsf_payload
	.p2align	1
	.type	tlsf_payload,%function
	.code	16
	.thumb_func
tlsf_payload:
	.cfi_startproc
	push	{r4, r5, r7, lr}
	.cfi_def_cfa_offset 16
	.cfi_offset lr, -4
	.cfi_offset r7, -8
	.cfi_offset r5, -12
	.cfi_offset r4, -16
	sub	sp, #24
	.cfi_def_cfa_offset 40
	mov	r4, r3
	movs	r5, #0
	str	r5, [sp, #20]
	str	r5, [sp, #16]
	add	r1, sp, #16
	str	r1, [sp, #12]
	add	r1, sp, #20
	str	r1, [sp, #8]
	ldr	r1, [sp, #44]
	str	r1, [sp, #4]
	ldr	r1, [sp, #40]
	str	r1, [sp]
	bl	tlsf_locate
	cmp	r0, #0
	bne	.Lp_BB18_4
	ldr	r0, [sp, #48]
	cmp	r0, #0
	beq	.Lp_BB18_3
	ldr	r1, [sp, #16]
	str	r1, [r0]
.Lp_BB18_3:
	lsls	r0, r4, #3
	ldr	r1, [sp, #20]
	adds	r5, r1, r0
	adds	r5, #24
.Lp_BB18_4:
	mov	r0, r5
	add	sp, #24
	pop	{r4, r5, r7, pc}
.Lp_func_end18:
	.size	tlsf_payload, .Lp_func_end18-tlsf_payload
	.cfi_endproc
	.section	.text.tlsf_pools_name_at,"ax",%progbits
	.globl	tlsf_pools_name_at
	.p2align	1
	.type	tlsf_pools_name_at,%function
	.code	16
	.thumb_func
tlsf_pools_name_at:
	.cfi_startproc
	push	{r4, r5, r6, r7, lr}
	.cfi_def_cfa_offset 20
	.cfi_offset lr, -4
	.cfi_offset r7, -8
	.cfi_offset r6, -12
	.cfi_offset r5, -16
	.cfi_offset r4, -20
	sub	sp, #28
	.cfi_def_cfa_offset 48
	mov	r5, r2
	mov	r7, r1
	movs	r6, #0
	str	r6, [sp, #16]
	str	r6, [sp, #24]
	str	r6, [sp, #20]
	add	r2, sp, #20
	add	r3, sp, #24
	str	r0, [sp, #12]
	mov	r1, r6
	bl	tlsf_pools_part
	cmp	r0, #0
	mov	r4, r6
	str	r6, [sp, #8]
	bne	.Lp_BB19_7
	str	r5, [sp, #4]
	movs	r4, #0
	mov	r5, r4
	mov	r6, r4
.Lp_BB19_2:
	ldr	r0, [sp, #20]
	cmp	r6, #0
	beq	.Lp_BB19_4
	subs	r1, r7, r4
	subs	r2, r7, r0
	cmp	r2, r1
	bhi	.Lp_BB19_5
.Lp_BB19_4:
	mov	r4, r0
	mov	r5, r6
.Lp_BB19_5:
	adds	r6, r6, #1
	add	r2, sp, #20
	add	r3, sp, #24
	ldr	r0, [sp, #12]
	mov	r1, r6
	bl	tlsf_pools_part
	cmp	r0, #0
	beq	.Lp_BB19_2
	ldr	r0, [sp, #4]
	mov	r6, r5
	mov	r5, r0
.Lp_BB19_7:
	add	r0, sp, #16
	str	r0, [sp]
	subs	r0, r7, r4
	subs	r0, #24
	lsls	r1, r0, #29
	beq	.Lp_BB19_9
	ldr	r0, [sp, #8]
	mvns	r2, r0
	b	.Lp_BB19_10
.Lp_BB19_9:
	lsrs	r2, r0, #3
.Lp_BB19_10:
	ldr	r0, [sp, #12]
	mov	r1, r6
	mov	r3, r5
	bl	tlsf_pools_place
	add	sp, #28
	pop	{r4, r5, r6, r7, pc}
.Lp_func_end19:
	.size	tlsf_pools_name_at, .Lp_func_end19-tlsf_pools_name_at
	.cfi_endproc
	.section	.text.tlsf_pools_usable_size,"ax",%progbits
	.globl	tlsf_pools_usable_size
	.p2align	1
	.type	tlsf_pools_usable_size,%function
	.code	16
	.thumb_func
tlsf_pools_usable_size:
	.cfi_startproc
	push	{r4, r5, r6, r7, lr}
	.cfi_def_cfa_offset 20
	.cfi_offset lr, -4
	.cfi_offset r7, -8
	.cfi_offset r6, -12
	.cfi_offset r5, -16
	.cfi_offset r4, -20
	sub	sp, #44
	.cfi_def_cfa_offset 64
	mov	r6, r1
	mov	r5, r0
	movs	r7, #0
	str	r7, [sp, #28]
	str	r7, [sp, #24]
	str	r7, [sp, #20]
	str	r7, [sp, #16]
	str	r7, [sp, #12]
	str	r7, [sp, #40]
	str	r7, [sp, #36]
	add	r2, sp, #36
	add	r3, sp, #40
	mov	r1, r7
	bl	tlsf_pools_part
	cmp	r0, #0
	mov	r4, r7
	str	r7, [sp, #8]
	bne	.Lp_BB20_7
	str	r7, [sp, #4]
	movs	r4, #0
	str	r4, [sp, #8]
	mov	r7, r4
.Lp_BB20_2:
	ldr	r0, [sp, #36]
	cmp	r7, #0
	beq	.Lp_BB20_4
	subs	r1, r6, r4
	subs	r2, r6, r0
	cmp	r2, r1
	bhi	.Lp_BB20_5
.Lp_BB20_4:
	mov	r4, r0
	str	r7, [sp, #8]
.Lp_BB20_5:
	adds	r7, r7, #1
	add	r2, sp, #36
	add	r3, sp, #40
	mov	r0, r5
	mov	r1, r7
	bl	tlsf_pools_part
	cmp	r0, #0
	beq	.Lp_BB20_2
	ldr	r7, [sp, #4]
.Lp_BB20_7:
	add	r0, sp, #12
	str	r0, [sp]
	subs	r0, r6, r4
	subs	r0, #24
	lsls	r1, r0, #29
	beq	.Lp_BB20_9
	mvns	r2, r7
	b	.Lp_BB20_10
.Lp_BB20_9:
	lsrs	r2, r0, #3
.Lp_BB20_10:
	ldr	r1, [sp, #8]
	add	r3, sp, #16
	mov	r0, r5
	bl	tlsf_pools_place
	cmp	r0, #0
	bne	.Lp_BB20_12
	ldr	r7, [sp, #12]
.Lp_BB20_12:
	mov	r0, r7
	add	sp, #44
	pop	{r4, r5, r6, r7, pc}
.Lp_func_end20:
	.size	tlsf_pools_usable_size, .Lp_func_end20-tlsf_pools_usable_size
	.cfi_endproc
	.section	.text.tlsf_pools_free,"ax",%progbits
	.globl	tlsf_pools_free
	.p2align	1
	.type	tlsf_pools_free,%function
	.code	16
	.thumb_func
tlsf_pools_free:
	.cfi_startproc
	push	{r4, lr}
	.cfi_def_cfa_offset 8
	.cfi_offset lr, -4
	.cfi_offset r4, -8
	sub	sp, #24
	.cfi_def_cfa_offset 32
	mov	r4, r0
	movs	r0, #0
	str	r0, [sp, #20]
	str	r0, [sp, #16]
	str	r0, [sp, #12]
	str	r0, [sp, #8]
	cmp	r1, #0
	beq	.Lp_BB21_3
	add	r2, sp, #8
	mov	r0, r4
	bl	tlsf_pools_name_at
	cmp	r0, #0
	bne	.Lp_BB21_3
	ldr	r3, [sp, #12]
	ldr	r2, [sp, #8]
	ldr	r0, [sp, #16]
	ldr	r1, [sp, #20]
	str	r0, [sp]
	str	r1, [sp, #4]
	mov	r0, r4
	bl	tlsf_pools_release
.Lp_BB21_3:
	add	sp, #24
	pop	{r4, pc}
.Lp_func_end21:
	.size	tlsf_pools_free, .Lp_func_end21-tlsf_pools_free
	.cfi_endproc
	.section	.text.tlsf_pools_malloc,"ax",%progbits
	.globl	tlsf_pools_malloc
	.p2align	1
	.type	tlsf_pools_malloc,%function
	.code	16
	.thumb_func
tlsf_pools_malloc:
	.cfi_startproc
	push	{r4, r5, r7, lr}
	.cfi_def_cfa_offset 16
	.cfi_offset lr, -4
	.cfi_offset r7, -8
	.cfi_offset r5, -12
	.cfi_offset r4, -16
	sub	sp, #32
	.cfi_def_cfa_offset 48
	mov	r5, r0
	movs	r4, #0
	str	r4, [sp, #4]
	add	r2, sp, #4
	bl	tlsf_pools_row
	cmp	r0, #0
	bne	.Lp_BB22_6
	ldr	r1, [sp, #4]
	movs	r4, #0
	str	r4, [sp, #28]
	str	r4, [sp, #24]
	str	r4, [sp, #20]
	str	r4, [sp, #16]
	str	r4, [sp, #12]
	str	r4, [sp, #8]
	add	r2, sp, #16
	mov	r0, r5
	bl	tlsf_pools_allocate
	cmp	r0, #0
	bne	.Lp_BB22_6
	movs	r4, #0
	add	r2, sp, #8
	add	r3, sp, #12
	mov	r0, r5
	mov	r1, r4
	bl	tlsf_pools_part
	cmp	r0, #0
	bne	.Lp_BB22_6
	ldr	r0, [sp, #12]
	ldr	r1, [sp, #16]
	cmp	r1, r0
	beq	.Lp_BB22_5
	subs	r1, r1, r0
	add	r2, sp, #8
	add	r3, sp, #12
	mov	r0, r5
	bl	tlsf_pools_part
	cmp	r0, #0
	bne	.Lp_BB22_6
.Lp_BB22_5:
	ldr	r0, [sp, #20]
	lsls	r0, r0, #3
	ldr	r1, [sp, #8]
	adds	r4, r1, r0
	adds	r4, #24
.Lp_BB22_6:
	mov	r0, r4
	add	sp, #32
	pop	{r4, r5, r7, pc}
.Lp_func_end22:
	.size	tlsf_pools_malloc, .Lp_func_end22-tlsf_pools_malloc
	.cfi_endproc
	.section	.text.tlsf_pools_realloc,"ax",%progbits
	.globl	tlsf_pools_realloc
	.p2align	1
	.type	tlsf_pools_realloc,%function
	.code	16
	.thumb_func
tlsf_pools_realloc:
	.cfi_startproc
	push	{r4, r5, r6, r7, lr}
	.cfi_def_cfa_offset 20
	.cfi_offset lr, -4
	.cfi_offset r7, -8
	.cfi_offset r6, -12
	.cfi_offset r5, -16
	.cfi_offset r4, -20
	sub	sp, #76
	.cfi_def_cfa_offset 96
	mov	r4, r0
	movs	r5, #0
	str	r5, [sp, #44]
	str	r5, [sp, #40]
	str	r5, [sp, #36]
	str	r5, [sp, #32]
	str	r5, [sp, #28]
	str	r5, [sp, #24]
	str	r1, [sp, #20]
	cmp	r1, #0
	beq	.Lp_BB23_11
	cmp	r2, #0
	beq	.Lp_BB23_12
	str	r2, [sp, #16]
	str	r5, [sp, #56]
	str	r5, [sp, #52]
	add	r2, sp, #52
	add	r3, sp, #56
	mov	r0, r4
	mov	r1, r5
	bl	tlsf_pools_part
	cmp	r0, #0
	mov	r7, r5
	mov	r6, r5
	bne	.Lp_BB23_9
	str	r5, [sp, #12]
	mov	r5, r4
	movs	r7, #0
	mov	r6, r7
	mov	r4, r7
.Lp_BB23_4:
	ldr	r0, [sp, #52]
	cmp	r4, #0
	beq	.Lp_BB23_6
	ldr	r2, [sp, #20]
	subs	r1, r2, r7
	subs	r2, r2, r0
	cmp	r2, r1
	bhi	.Lp_BB23_7
.Lp_BB23_6:
	mov	r7, r0
	mov	r6, r4
.Lp_BB23_7:
	adds	r4, r4, #1
	add	r2, sp, #52
	add	r3, sp, #56
	mov	r0, r5
	mov	r1, r4
	bl	tlsf_pools_part
	cmp	r0, #0
	beq	.Lp_BB23_4
	mov	r4, r5
	ldr	r5, [sp, #12]
.Lp_BB23_9:
	add	r0, sp, #28
	str	r0, [sp]
	ldr	r0, [sp, #20]
	subs	r0, r0, r7
	subs	r0, #24
	lsls	r1, r0, #29
	beq	.Lp_BB23_13
	mvns	r2, r5
	b	.Lp_BB23_14
.Lp_BB23_11:
	mov	r0, r4
	mov	r1, r2
	bl	tlsf_pools_malloc
	mov	r5, r0
	b	.Lp_BB23_26
.Lp_BB23_12:
	mov	r0, r4
	ldr	r1, [sp, #20]
	bl	tlsf_pools_free
	b	.Lp_BB23_26
.Lp_BB23_13:
	lsrs	r2, r0, #3
.Lp_BB23_14:
	add	r3, sp, #32
	mov	r0, r4
	mov	r1, r6
	bl	tlsf_pools_place
	cmp	r0, #0
	bne	.Lp_BB23_26
	add	r2, sp, #24
	mov	r0, r4
	ldr	r6, [sp, #16]
	mov	r1, r6
	bl	tlsf_pools_row
	cmp	r0, #0
	bne	.Lp_BB23_26
	ldr	r0, [sp, #28]
	ldr	r1, [sp, #24]
	cmp	r6, r0
	bhi	.Lp_BB23_19
	cmp	r0, r1
	bhi	.Lp_BB23_19
	ldr	r5, [sp, #20]
	b	.Lp_BB23_26
.Lp_BB23_19:
	movs	r5, #0
	str	r5, [sp, #68]
	str	r5, [sp, #64]
	str	r5, [sp, #60]
	str	r5, [sp, #56]
	str	r5, [sp, #52]
	str	r5, [sp, #48]
	add	r2, sp, #56
	mov	r0, r4
	bl	tlsf_pools_allocate
	cmp	r0, #0
	bne	.Lp_BB23_26
	movs	r1, #0
	add	r2, sp, #48
	add	r3, sp, #52
	mov	r0, r4
	bl	tlsf_pools_part
	cmp	r0, #0
	bne	.Lp_BB23_26
	ldr	r0, [sp, #52]
	ldr	r1, [sp, #56]
	cmp	r1, r0
	beq	.Lp_BB23_23
	subs	r1, r1, r0
	add	r2, sp, #48
	add	r3, sp, #52
	mov	r0, r4
	bl	tlsf_pools_part
	cmp	r0, #0
	bne	.Lp_BB23_26
.Lp_BB23_23:
	ldr	r2, [sp, #28]
	cmp	r2, r6
	blo	.Lp_BB23_25
	mov	r2, r6
.Lp_BB23_25:
	ldr	r0, [sp, #60]
	lsls	r0, r0, #3
	ldr	r1, [sp, #48]
	adds	r5, r1, r0
	adds	r5, #24
	mov	r0, r5
	ldr	r1, [sp, #20]
	bl	memcpy
	ldr	r3, [sp, #36]
	ldr	r2, [sp, #32]
	ldr	r0, [sp, #40]
	ldr	r1, [sp, #44]
	str	r0, [sp]
	str	r1, [sp, #4]
	mov	r0, r4
	bl	tlsf_pools_release
.Lp_BB23_26:
	mov	r0, r5
	add	sp, #76
	pop	{r4, r5, r6, r7, pc}
.Lp_func_end23:
	.size	tlsf_pools_realloc, .Lp_func_end23-tlsf_pools_realloc
	.cfi_endproc
	.section	.text.tlsf_text_of,"ax",%progbits
	.globl	tlsf_text_of
	.p2align	2
	.type	tlsf_text_of,%function
	.code	16
	.thumb_func
tlsf_text_of:
	.cfi_startproc
	cmp	r0, #40
	bhi	.Lp_BB24_2
	lsls	r0, r0, #2
	ldr	r1, .Lp_CPI24_1
	ldr	r0, [r1, r0]
	bx	lr
.Lp_BB24_2:
	ldr	r0, .Lp_CPI24_0
	bx	lr
	.p2align	2
.Lp_CPI24_0:
	.long	.L.str.20
.Lp_CPI24_1:
	.long	.Lp_switch.table.tlsf_text_of
.Lp_func_end24:
	.size	tlsf_text_of, .Lp_func_end24-tlsf_text_of
	.cfi_endproc
	.section	.text.unlikely.tlsf_too_long,"ax",%progbits
	.p2align	1
	.type	tlsf_too_long,%function
	.code	16
	.thumb_func
tlsf_too_long:
	.cfi_startproc
	push	{r4, r5, r6, lr}
	.cfi_def_cfa_offset 16
	.cfi_offset lr, -4
	.cfi_offset r6, -8
	.cfi_offset r5, -12
	.cfi_offset r4, -16
	sub	sp, #24
	.cfi_def_cfa_offset 40
	mov	r4, r0
	mov	r5, sp
	movs	r6, #0
	movs	r2, #24
	mov	r0, r5
	mov	r1, r6
	bl	memset
	mvns	r1, r6
	mov	r0, r4
	mov	r2, r5
	bl	tlsf_block_at
	cmp	r0, #32
	beq	.Lp_BB25_2
	movs	r0, #1
.Lp_BB25_2:
	add	sp, #24
	pop	{r4, r5, r6, pc}
.Lp_func_end25:
	.size	tlsf_too_long, .Lp_func_end25-tlsf_too_long
	.cfi_endproc
	.section	.text.unlikely.tlsf_mixed_place,"ax",%progbits
	.p2align	1
	.type	tlsf_mixed_place,%function
	.code	16
	.thumb_func
tlsf_mixed_place:
	.cfi_startproc
	push	{r4, r5, r6, r7, lr}
	.cfi_def_cfa_offset 20
	.cfi_offset lr, -4
	.cfi_offset r7, -8
	.cfi_offset r6, -12
	.cfi_offset r5, -16
	.cfi_offset r4, -20
	sub	sp, #28
	.cfi_def_cfa_offset 48
	mov	r5, r1
	mov	r4, r0
	cmp	r2, #1
	bhi	.Lp_BB26_2
	movs	r2, #1
.Lp_BB26_2:
	ldrb	r7, [r5, #29]
	cmp	r7, #0
	bne	.Lp_BB26_4
	movs	r7, #8
.Lp_BB26_4:
	adds	r0, r2, r7
	adds	r0, #23
	rsbs	r6, r7, #0
	ands	r6, r0
	subs	r6, #24
	cmp	r3, r7
	bls	.Lp_BB26_7
	ldr	r0, [r5, #16]
	subs	r1, r3, #1
	ands	r1, r0
	lsrs	r0, r1, #3
	str	r0, [sp]
	lsrs	r3, r3, #3
.Lp_BB26_6:
	mov	r0, r4
	mov	r1, r5
	mov	r2, r6
	bl	tlsf_allocate_aligned
	b	.Lp_BB26_9
.Lp_BB26_7:
	add	r0, sp, #8
	mov	r1, r5
	mov	r2, r6
	bl	tlsf_allocate_place
	ldr	r0, [sp, #12]
	cmp	r0, #0
	beq	.Lp_BB26_10
.Lp_BB26_8:
	add	r0, sp, #8
	ldm	r0!, {r1, r2, r3, r5}
	stm	r4!, {r1, r2, r3, r5}
.Lp_BB26_9:
	add	sp, #28
	pop	{r4, r5, r6, r7, pc}
.Lp_BB26_10:
	ldr	r1, [sp, #8]
	lsls	r0, r1, #3
	ldr	r2, [r5, #16]
	adds	r0, r2, r0
	adds	r0, #24
	subs	r2, r7, #1
	tst	r2, r0
	beq	.Lp_BB26_8
	mov	r0, r5
	str	r2, [sp, #4]
	bl	tlsf_release_place
	ldr	r0, [r5, #16]
	ldr	r1, [sp, #4]
	ands	r1, r0
	lsrs	r0, r1, #3
	str	r0, [sp]
	lsrs	r3, r7, #3
	b	.Lp_BB26_6
.Lp_func_end26:
	.size	tlsf_mixed_place, .Lp_func_end26-tlsf_mixed_place
	.cfi_endproc
	.section	.text.unlikely.tlsf_malloc_own,"ax",%progbits
	.p2align	1
	.type	tlsf_malloc_own,%function
	.code	16
	.thumb_func
tlsf_malloc_own:
	.cfi_startproc
	push	{r4, lr}
	.cfi_def_cfa_offset 8
	.cfi_offset lr, -4
	.cfi_offset r4, -8
	sub	sp, #16
	.cfi_def_cfa_offset 24
	mov	r4, r0
	movs	r0, #1
	lsls	r0, r0, #27
	cmp	r1, r0
	bls	.Lp_BB27_3
.Lp_BB27_1:
	movs	r0, #0
.Lp_BB27_2:
	add	sp, #16
	pop	{r4, pc}
.Lp_BB27_3:
	mov	r2, r1
	mov	r0, sp
	movs	r3, #1
	mov	r1, r4
	bl	tlsf_mixed_place
	ldr	r0, [sp, #4]
	cmp	r0, #0
	bne	.Lp_BB27_1
	ldr	r0, [sp]
	lsls	r0, r0, #3
	ldr	r1, [r4, #16]
	adds	r0, r1, r0
	adds	r0, #24
	b	.Lp_BB27_2
.Lp_func_end27:
	.size	tlsf_malloc_own, .Lp_func_end27-tlsf_malloc_own
	.cfi_endproc
	.type	.L.str,%object
	.section	.rodata.str1.1,"aMS",%progbits,1
.L.str:
	.asciz	"done"
	.size	.L.str, 5
	.type	.L.str.1,%object
.L.str.1:
	.asciz	"no free block fits"
	.size	.L.str.1, 19
	.type	.L.str.2,%object
.L.str.2:
	.asciz	"the ticks or the numbers are used up"
	.size	.L.str.2, 37
	.type	.L.str.3,%object
.L.str.3:
	.asciz	"a name of another heap"
	.size	.L.str.3, 23
	.type	.L.str.4,%object
.L.str.4:
	.asciz	"no live block has that name or address"
	.size	.L.str.4, 39
	.type	.L.str.5,%object
.L.str.5:
	.asciz	"a size out of range"
	.size	.L.str.5, 20
	.type	.L.str.6,%object
.L.str.6:
	.asciz	"no memory"
	.size	.L.str.6, 10
	.type	.L.str.7,%object
.L.str.7:
	.asciz	"bytes past the end of the payload"
	.size	.L.str.7, 34
	.type	.L.str.8,%object
.L.str.8:
	.asciz	"the lane or queue is full"
	.size	.L.str.8, 26
	.type	.L.str.9,%object
.L.str.9:
	.asciz	"no room where the block stands"
	.size	.L.str.9, 31
	.type	.L.str.10,%object
.L.str.10:
	.asciz	"a line was not written"
	.size	.L.str.10, 23
	.type	.L.str.11,%object
.L.str.11:
	.asciz	"the handle is closed"
	.size	.L.str.11, 21
	.type	.L.str.12,%object
.L.str.12:
	.asciz	"the handle is open already"
	.size	.L.str.12, 27
	.type	.L.str.13,%object
.L.str.13:
	.asciz	"a level is 4 or 5"
	.size	.L.str.13, 18
	.type	.L.str.14,%object
.L.str.14:
	.asciz	"the lane or queue is empty"
	.size	.L.str.14, 27
	.type	.L.str.15,%object
.L.str.15:
	.asciz	"a header is damaged"
	.size	.L.str.15, 20
	.type	.L.str.16,%object
.L.str.16:
	.asciz	"another thread is in the way: try again"
	.size	.L.str.16, 40
	.type	.L.str.17,%object
.L.str.17:
	.asciz	"all blocks of that row are held"
	.size	.L.str.17, 32
	.type	.L.str.18,%object
.L.str.18:
	.asciz	"memory that is null, or past the end of the address space"
	.size	.L.str.18, 58
	.type	.L.str.19,%object
.L.str.19:
	.asciz	"the handle holds something of another kind"
	.size	.L.str.19, 43
	.type	.L.str.20,%object
.L.str.20:
	.asciz	"no answer of this library"
	.size	.L.str.20, 26
	.type	.Lp_switch.table.tlsf_text_of,%object
	.section	.rodata..Lswitch.table.tlsf_text_of,"a",%progbits
	.p2align	2, 0x0
.Lp_switch.table.tlsf_text_of:
	.long	.L.str
	.long	.L.str.1
	.long	.L.str.2
	.long	.L.str.3
	.long	.L.str.4
	.long	.L.str.5
	.long	.L.str.6
	.long	.L.str.7
	.long	.L.str.8
	.long	.L.str.20
	.long	.L.str.9
	.long	.L.str.20
	.long	.L.str.20
	.long	.L.str.20
	.long	.L.str.20
	.long	.L.str.20
	.long	.L.str.20
	.long	.L.str.10
	.long	.L.str.20
	.long	.L.str.20
	.long	.L.str.20
	.long	.L.str.20
	.long	.L.str.20
	.long	.L.str.20
	.long	.L.str.20
	.long	.L.str.20
	.long	.L.str.20
	.long	.L.str.20
	.long	.L.str.20
	.long	.L.str.20
	.long	.L.str.20
	.long	.L.str.20
	.long	.L.str.11
	.long	.L.str.12
	.long	.L.str.13
	.long	.L.str.14
	.long	.L.str.15
	.long	.L.str.16
	.long	.L.str.17
	.long	.L.str.18
	.long	.L.str.19
	.size	.Lp_switch.table.tlsf_text_of, 164
	.ident	"clang version 22.1.8"
	.section	".note.GNU-stack","",%progbits
/* What lanes, queues and tlsf_next_number call: c/atomics64.c. */
	.syntax	unified
	.eabi_attribute	24, 1
	.eabi_attribute	25, 1
	.section	.text.__atomic_load_8,"ax",%progbits
	.weak	__atomic_load_8
	.p2align	1
	.type	__atomic_load_8,%function
	.code	16
	.thumb_func
__atomic_load_8:
	.cfi_sections .debug_frame
	.cfi_startproc
	mrs	r2, primask
	cpsid i
	ldr	r1, [r0, #4]
	ldr	r0, [r0]
	msr	primask, r2
	bx	lr
.La_func_end0:
	.size	__atomic_load_8, .La_func_end0-__atomic_load_8
	.cfi_endproc
	.section	.text.__atomic_store_8,"ax",%progbits
	.weak	__atomic_store_8
	.p2align	1
	.type	__atomic_store_8,%function
	.code	16
	.thumb_func
__atomic_store_8:
	.cfi_startproc
	mrs	r1, primask
	cpsid i
	str	r3, [r0, #4]
	str	r2, [r0]
	msr	primask, r1
	bx	lr
.La_func_end1:
	.size	__atomic_store_8, .La_func_end1-__atomic_store_8
	.cfi_endproc
	.section	.text.__atomic_exchange_8,"ax",%progbits
	.weak	__atomic_exchange_8
	.p2align	1
	.type	__atomic_exchange_8,%function
	.code	16
	.thumb_func
__atomic_exchange_8:
	.cfi_startproc
	push	{r4, r5, r7, lr}
	.cfi_def_cfa_offset 16
	.cfi_offset lr, -4
	.cfi_offset r7, -8
	.cfi_offset r5, -12
	.cfi_offset r4, -16
	mrs	r5, primask
	cpsid i
	ldr	r1, [r0, #4]
	ldr	r4, [r0]
	str	r3, [r0, #4]
	str	r2, [r0]
	msr	primask, r5
	mov	r0, r4
	pop	{r4, r5, r7, pc}
.La_func_end2:
	.size	__atomic_exchange_8, .La_func_end2-__atomic_exchange_8
	.cfi_endproc
	.section	.text.__atomic_fetch_add_8,"ax",%progbits
	.weak	__atomic_fetch_add_8
	.p2align	1
	.type	__atomic_fetch_add_8,%function
	.code	16
	.thumb_func
__atomic_fetch_add_8:
	.cfi_startproc
	push	{r4, r5, r7, lr}
	.cfi_def_cfa_offset 16
	.cfi_offset lr, -4
	.cfi_offset r7, -8
	.cfi_offset r5, -12
	.cfi_offset r4, -16
	mrs	r5, primask
	cpsid i
	ldr	r1, [r0, #4]
	ldr	r4, [r0]
	adds	r2, r4, r2
	str	r2, [r0]
	adcs	r3, r1
	str	r3, [r0, #4]
	msr	primask, r5
	mov	r0, r4
	pop	{r4, r5, r7, pc}
.La_func_end3:
	.size	__atomic_fetch_add_8, .La_func_end3-__atomic_fetch_add_8
	.cfi_endproc
	.section	.text.__atomic_fetch_sub_8,"ax",%progbits
	.weak	__atomic_fetch_sub_8
	.p2align	1
	.type	__atomic_fetch_sub_8,%function
	.code	16
	.thumb_func
__atomic_fetch_sub_8:
	.cfi_startproc
	push	{r7, lr}
	.cfi_def_cfa_offset 8
	.cfi_offset lr, -4
	.cfi_offset r7, -8
	sub	sp, #8
	.cfi_def_cfa_offset 16
	ldr	r1, [sp, #16]
	str	r1, [sp]
	movs	r1, #0
	rsbs	r2, r2, #0
	sbcs	r1, r3
	mov	r3, r1
	bl	__atomic_fetch_add_8
	add	sp, #8
	pop	{r7, pc}
.La_func_end4:
	.size	__atomic_fetch_sub_8, .La_func_end4-__atomic_fetch_sub_8
	.cfi_endproc
	.section	.text.__atomic_compare_exchange_8,"ax",%progbits
	.weak	__atomic_compare_exchange_8
	.p2align	1
	.type	__atomic_compare_exchange_8,%function
	.code	16
	.thumb_func
__atomic_compare_exchange_8:
	.cfi_startproc
	push	{r4, r5, r6, r7, lr}
	.cfi_def_cfa_offset 20
	.cfi_offset lr, -4
	.cfi_offset r7, -8
	.cfi_offset r6, -12
	.cfi_offset r5, -16
	.cfi_offset r4, -20
	sub	sp, #4
	.cfi_def_cfa_offset 24
	str	r3, [sp]
	ldr	r5, [r1]
	ldr	r4, [r1, #4]
	mrs	r3, primask
	cpsid i
	ldr	r6, [r0, #4]
	eors	r4, r6
	ldr	r7, [r0]
	eors	r5, r7
	orrs	r5, r4
	rsbs	r4, r5, #0
	adcs	r4, r5
	cmp	r5, #0
	bne	.La_BB5_2
	str	r2, [r0]
	ldr	r1, [sp]
	str	r1, [r0, #4]
	msr	primask, r3
	b	.La_BB5_3
.La_BB5_2:
	msr	primask, r3
	str	r7, [r1]
	str	r6, [r1, #4]
.La_BB5_3:
	mov	r0, r4
	add	sp, #4
	pop	{r4, r5, r6, r7, pc}
.La_func_end5:
	.size	__atomic_compare_exchange_8, .La_func_end5-__atomic_compare_exchange_8
	.cfi_endproc
	.ident	"clang version 22.1.8"
	.section	".note.GNU-stack","",%progbits
#endif
/* c/memory.c */
#ifndef TLSF_ONLY_CALLS
	.syntax	unified
	.eabi_attribute	24, 1
	.eabi_attribute	25, 1
	.section	.text.tlsf_memory_alloc,"ax",%progbits
	.hidden	tlsf_memory_alloc
	.globl	tlsf_memory_alloc
	.p2align	2
	.type	tlsf_memory_alloc,%function
	.code	16
	.thumb_func
tlsf_memory_alloc:
	.cfi_sections .debug_frame
	.cfi_startproc
	push	{r4, r5, r6, r7, lr}
	.cfi_def_cfa_offset 20
	.cfi_offset lr, -4
	.cfi_offset r7, -8
	.cfi_offset r6, -12
	.cfi_offset r5, -16
	.cfi_offset r4, -20
	sub	sp, #4
	.cfi_def_cfa_offset 24
	mov	r4, r0
	movs	r7, #0
	cmp	r2, #8
	mov	r0, r7
	bhi	.Lm_BB0_11
	mov	r5, r1
	ldr	r0, .Lm_CPI0_0
	ldr	r1, [r0]
	cmp	r1, #0
	beq	.Lm_BB0_3
	ldr	r0, .Lm_CPI0_1
	ldr	r2, [r0]
	subs	r3, r2, #1
	str	r3, [r0]
	cmp	r2, #0
	beq	.Lm_BB0_9
.Lm_BB0_3:
	ldr	r0, .Lm_CPI0_3
	ldr	r6, [r0]
	cmp	r6, #0
	mov	r0, r7
	beq	.Lm_BB0_11
	ldr	r0, .Lm_CPI0_4
	ldr	r1, [r0]
	adds	r0, r5, r1
	adds	r0, r0, #7
	str	r0, [sp]
	bl	__aeabi_uidivmod
	movs	r0, #1
	lsls	r0, r0, #28
	cmp	r5, r0
	mov	r0, r7
	bhi	.Lm_BB0_11
	ldr	r0, .Lm_CPI0_5
	ldr	r2, [r0]
	subs	r3, r2, r6
	adds	r5, #8
	cmp	r5, r3
	mov	r0, r7
	bhi	.Lm_BB0_11
	ldr	r0, [sp]
	subs	r0, r0, r1
	movs	r1, #0
	str	r1, [r6]
	str	r1, [r6, #4]
	cmp	r0, r3
	bhs	.Lm_BB0_8
	adds	r2, r6, r0
.Lm_BB0_8:
	adds	r6, #8
	ldr	r0, .Lm_CPI0_3
	str	r2, [r0]
	mov	r0, r6
	b	.Lm_BB0_11
.Lm_BB0_9:
	ldr	r0, .Lm_CPI0_2
	cmp	r5, r0
	mov	r0, r7
	bhi	.Lm_BB0_11
	movs	r0, #0
	str	r0, [r1]
	str	r0, [r1, #4]
	adds	r1, #8
	mov	r0, r1
.Lm_BB0_11:
	str	r7, [r4, #4]
	str	r7, [r4, #12]
	subs	r1, r0, #1
	mov	r2, r0
	sbcs	r2, r1
	str	r2, [r4]
	cmp	r0, #0
	bne	.Lm_BB0_13
	ldr	r0, .Lm_CPI0_6
.Lm_BB0_13:
	str	r0, [r4, #8]
	add	sp, #4
	pop	{r4, r5, r6, r7, pc}
	.p2align	2
.Lm_CPI0_0:
	.long	near_room
.Lm_CPI0_1:
	.long	pieces_first
.Lm_CPI0_2:
	.long	2776
.Lm_CPI0_3:
	.long	lent
.Lm_CPI0_4:
	.long	lent_step
.Lm_CPI0_5:
	.long	lent_end
.Lm_CPI0_6:
	.long	tlsf_memory_alloc.nothing
.Lm_func_end0:
	.size	tlsf_memory_alloc, .Lm_func_end0-tlsf_memory_alloc
	.cfi_endproc
	.section	.text.tlsf_memory_dealloc,"ax",%progbits
	.hidden	tlsf_memory_dealloc
	.globl	tlsf_memory_dealloc
	.p2align	1
	.type	tlsf_memory_dealloc,%function
	.code	16
	.thumb_func
tlsf_memory_dealloc:
	.cfi_startproc
	bx	lr
.Lm_func_end1:
	.size	tlsf_memory_dealloc, .Lm_func_end1-tlsf_memory_dealloc
	.cfi_endproc
	.section	.text.tlsf_memory_realloc,"ax",%progbits
	.hidden	tlsf_memory_realloc
	.globl	tlsf_memory_realloc
	.p2align	1
	.type	tlsf_memory_realloc,%function
	.code	16
	.thumb_func
tlsf_memory_realloc:
	.cfi_startproc
	push	{r4, r5, r6, lr}
	.cfi_def_cfa_offset 16
	.cfi_offset lr, -4
	.cfi_offset r6, -8
	.cfi_offset r5, -12
	.cfi_offset r4, -16
	mov	r4, r2
	mov	r5, r1
	mov	r6, r0
	ldr	r2, [sp, #16]
	mov	r1, r3
	bl	tlsf_memory_alloc
	ldm	r6!, {r0, r1}
	subs	r6, #8
	orrs	r1, r0
	beq	.Lm_BB2_2
	ldr	r0, [r6, #8]
	mov	r1, r5
	mov	r2, r4
	bl	memcpy
.Lm_BB2_2:
	pop	{r4, r5, r6, pc}
.Lm_func_end2:
	.size	tlsf_memory_realloc, .Lm_func_end2-tlsf_memory_realloc
	.cfi_endproc
	.section	.text.tlsf_memory_set,"ax",%progbits
	.hidden	tlsf_memory_set
	.weak	tlsf_memory_set
	.p2align	1
	.type	tlsf_memory_set,%function
	.code	16
	.thumb_func
tlsf_memory_set:
	.cfi_startproc
	push	{r7, lr}
	.cfi_def_cfa_offset 8
	.cfi_offset lr, -4
	.cfi_offset r7, -8
	bl	memset
	pop	{r7, pc}
.Lm_func_end3:
	.size	tlsf_memory_set, .Lm_func_end3-tlsf_memory_set
	.cfi_endproc
	.section	.text.tlsf_memory_cpy,"ax",%progbits
	.hidden	tlsf_memory_cpy
	.weak	tlsf_memory_cpy
	.p2align	1
	.type	tlsf_memory_cpy,%function
	.code	16
	.thumb_func
tlsf_memory_cpy:
	.cfi_startproc
	push	{r7, lr}
	.cfi_def_cfa_offset 8
	.cfi_offset lr, -4
	.cfi_offset r7, -8
	bl	memcpy
	pop	{r7, pc}
.Lm_func_end4:
	.size	tlsf_memory_cpy, .Lm_func_end4-tlsf_memory_cpy
	.cfi_endproc
	.section	.text.tlsf_memory_move,"ax",%progbits
	.hidden	tlsf_memory_move
	.weak	tlsf_memory_move
	.p2align	1
	.type	tlsf_memory_move,%function
	.code	16
	.thumb_func
tlsf_memory_move:
	.cfi_startproc
	push	{r7, lr}
	.cfi_def_cfa_offset 8
	.cfi_offset lr, -4
	.cfi_offset r7, -8
	bl	memmove
	pop	{r7, pc}
.Lm_func_end5:
	.size	tlsf_memory_move, .Lm_func_end5-tlsf_memory_move
	.cfi_endproc
	.section	.text.tlsf_bytes,"ax",%progbits
	.globl	tlsf_bytes
	.p2align	2
	.type	tlsf_bytes,%function
	.code	16
	.thumb_func
tlsf_bytes:
	.cfi_startproc
	push	{r4, lr}
	.cfi_def_cfa_offset 8
	.cfi_offset lr, -4
	.cfi_offset r4, -8
	cmp	r1, #4
	bhs	.Lm_BB6_2
	movs	r0, #0
	pop	{r4, pc}
.Lm_BB6_2:
	mov	r2, r0
	movs	r3, #1
	movs	r0, #0
	cmp	r2, #5
	beq	.Lm_BB6_4
	mov	r4, r0
	b	.Lm_BB6_5
.Lm_BB6_4:
	lsls	r4, r3, #24
.Lm_BB6_5:
	cmp	r2, #4
	bne	.Lm_BB6_7
	lsls	r4, r3, #20
.Lm_BB6_7:
	cmp	r1, r4
	bhi	.Lm_BB6_9
	lsls	r0, r1, #3
	adds	r1, #63
	lsrs	r1, r1, #3
	adds	r1, #16
	movs	r2, #15
	bics	r1, r2
	adds	r0, r0, r1
	ldr	r1, .Lm_CPI6_0
	adds	r0, r0, r1
	orrs	r0, r2
.Lm_BB6_9:
	pop	{r4, pc}
	.p2align	2
.Lm_CPI6_0:
	.long	2791
.Lm_func_end6:
	.size	tlsf_bytes, .Lm_func_end6-tlsf_bytes
	.cfi_endproc
	.section	.text.heap_bytes,"ax",%progbits
	.p2align	1
	.type	heap_bytes,%function
	.code	16
	.thumb_func
heap_bytes:
	.cfi_startproc
	movs	r1, #15
	mvns	r1, r1
	lsls	r2, r0, #3
	adds	r2, #23
	ands	r2, r1
	adds	r0, #63
	lsrs	r0, r0, #3
	adds	r0, #16
	ands	r0, r1
	adds	r0, r2, r0
	movs	r1, #173
	lsls	r1, r1, #4
	adds	r0, r0, r1
	bx	lr
.Lm_func_end7:
	.size	heap_bytes, .Lm_func_end7-heap_bytes
	.cfi_endproc
	.section	.text.tlsf_near_bytes,"ax",%progbits
	.globl	tlsf_near_bytes
	.p2align	1
	.type	tlsf_near_bytes,%function
	.code	16
	.thumb_func
tlsf_near_bytes:
	.cfi_startproc
	push	{r4, lr}
	.cfi_def_cfa_offset 8
	.cfi_offset lr, -4
	.cfi_offset r4, -8
	cmp	r1, #4
	bhs	.Lm_BB8_2
	movs	r0, #0
	pop	{r4, pc}
.Lm_BB8_2:
	mov	r2, r0
	movs	r3, #1
	movs	r0, #0
	cmp	r2, #5
	beq	.Lm_BB8_4
	mov	r4, r0
	b	.Lm_BB8_5
.Lm_BB8_4:
	lsls	r4, r3, #24
.Lm_BB8_5:
	cmp	r2, #4
	bne	.Lm_BB8_7
	lsls	r4, r3, #20
.Lm_BB8_7:
	cmp	r1, r4
	bhi	.Lm_BB8_9
	lsls	r0, r1, #3
	adds	r0, #23
	movs	r2, #15
	bics	r0, r2
	adds	r1, #63
	lsrs	r1, r1, #6
	lsls	r1, r1, #3
	adds	r0, r0, r1
	adds	r0, #23
.Lm_BB8_9:
	pop	{r4, pc}
.Lm_func_end8:
	.size	tlsf_near_bytes, .Lm_func_end8-tlsf_near_bytes
	.cfi_endproc
	.section	.text.near_bytes,"ax",%progbits
	.p2align	1
	.type	near_bytes,%function
	.code	16
	.thumb_func
near_bytes:
	.cfi_startproc
	lsls	r1, r0, #3
	adds	r1, #23
	movs	r2, #15
	bics	r1, r2
	adds	r0, #63
	lsrs	r0, r0, #6
	lsls	r0, r0, #3
	adds	r0, r0, r1
	adds	r0, #8
	bx	lr
.Lm_func_end9:
	.size	near_bytes, .Lm_func_end9-near_bytes
	.cfi_endproc
	.section	.text.tlsf_open_in,"ax",%progbits
	.globl	tlsf_open_in
	.p2align	2
	.type	tlsf_open_in,%function
	.code	16
	.thumb_func
tlsf_open_in:
	.cfi_startproc
	push	{r4, lr}
	.cfi_def_cfa_offset 8
	.cfi_offset lr, -4
	.cfi_offset r4, -8
	sub	sp, #8
	.cfi_def_cfa_offset 16
	ldr	r4, .Lm_CPI10_0
	str	r4, [sp, #4]
	ldr	r4, [sp, #16]
	str	r4, [sp]
	bl	open_in
	add	sp, #8
	pop	{r4, pc}
	.p2align	2
.Lm_CPI10_0:
	.long	heap_bytes
.Lm_func_end10:
	.size	tlsf_open_in, .Lm_func_end10-tlsf_open_in
	.cfi_endproc
	.section	.text.open_in,"ax",%progbits
	.p2align	2
	.type	open_in,%function
	.code	16
	.thumb_func
open_in:
	.cfi_startproc
	push	{r4, r5, r6, r7, lr}
	.cfi_def_cfa_offset 20
	.cfi_offset lr, -4
	.cfi_offset r7, -8
	.cfi_offset r6, -12
	.cfi_offset r5, -16
	.cfi_offset r4, -20
	sub	sp, #36
	.cfi_def_cfa_offset 56
	str	r2, [sp, #28]
	str	r1, [sp, #32]
	str	r0, [sp, #24]
	ldrb	r0, [r0, #29]
	cmp	r0, #0
	beq	.Lm_BB11_3
	movs	r1, #56
	mvns	r1, r1
	mov	r2, r0
	subs	r2, #65
	movs	r4, #0
	cmp	r2, r1
	bhs	.Lm_BB11_4
	mov	r2, r4
	b	.Lm_BB11_8
.Lm_BB11_3:
	movs	r1, #16
	b	.Lm_BB11_7
.Lm_BB11_4:
	cmp	r0, #16
	mov	r1, r0
	bhi	.Lm_BB11_6
	movs	r1, #16
.Lm_BB11_6:
	mov	r2, r0
	adds	r2, #127
	tst	r2, r0
	mov	r2, r4
	bne	.Lm_BB11_8
.Lm_BB11_7:
	movs	r0, #31
	mvns	r0, r0
	subs	r0, r0, r3
	mov	r4, r3
	bl	__aeabi_uidivmod
	mov	r3, r4
	mov	r2, r1
.Lm_BB11_8:
	ldr	r4, [sp, #56]
	mvns	r0, r3
	movs	r5, #0
	cmp	r3, #0
	str	r0, [sp, #20]
	beq	.Lm_BB11_24
	cmp	r4, r0
	bhi	.Lm_BB11_24
	cmp	r4, r2
	blo	.Lm_BB11_24
	movs	r7, #1
	movs	r5, #0
	ldr	r0, [sp, #32]
	cmp	r0, #5
	beq	.Lm_BB11_13
	mov	r1, r5
	b	.Lm_BB11_14
.Lm_BB11_13:
	lsls	r1, r7, #24
.Lm_BB11_14:
	ldr	r6, [sp, #60]
	ldr	r0, [sp, #32]
	cmp	r0, #4
	str	r3, [sp, #12]
	str	r7, [sp, #4]
	beq	.Lm_BB11_16
	str	r1, [sp, #8]
	b	.Lm_BB11_17
.Lm_BB11_16:
	lsls	r0, r7, #20
	str	r0, [sp, #8]
.Lm_BB11_17:
	subs	r7, r4, r2
	movs	r0, #4
	str	r2, [sp, #16]
	blx	r6
	ldr	r2, [sp, #16]
	cmp	r7, r0
	ldr	r3, [sp, #12]
	blo	.Lm_BB11_24
	ldr	r0, [sp, #4]
	lsls	r0, r0, #28
	cmp	r7, r0
	blo	.Lm_BB11_20
	mov	r7, r0
.Lm_BB11_20:
	movs	r0, #0
	blx	r6
	subs	r0, r7, r0
	lsls	r0, r0, #3
	movs	r1, #65
	bl	__aeabi_uidiv
	mov	r5, r0
	adds	r5, #9
.Lm_BB11_21:
	subs	r5, r5, #1
	mov	r0, r5
	blx	r6
	cmp	r0, r7
	bhi	.Lm_BB11_21
	ldr	r0, [sp, #8]
	cmp	r5, r0
	ldr	r3, [sp, #12]
	ldr	r2, [sp, #16]
	blo	.Lm_BB11_24
	mov	r5, r0
.Lm_BB11_24:
	ldr	r0, .Lm_CPI11_0
	movs	r1, #16
	str	r1, [r0]
	subs	r0, r3, #1
	mov	r6, r3
	sbcs	r6, r0
	cmp	r2, r4
	blo	.Lm_BB11_26
	mov	r2, r4
.Lm_BB11_26:
	movs	r7, #0
	ldr	r0, [sp, #20]
	cmp	r4, r0
	str	r7, [sp, #16]
	bhi	.Lm_BB11_28
	movs	r7, #1
.Lm_BB11_28:
	adds	r0, r3, r2
	adds	r2, r3, r4
	ldr	r1, .Lm_CPI11_1
	tst	r6, r7
	bne	.Lm_BB11_30
	mov	r2, r1
.Lm_BB11_30:
	ldr	r3, .Lm_CPI11_2
	str	r2, [r3]
	bne	.Lm_BB11_32
	mov	r0, r1
.Lm_BB11_32:
	ldr	r4, .Lm_CPI11_3
	str	r0, [r4]
	ldr	r0, [sp, #24]
	ldr	r1, [sp, #32]
	ldr	r2, [sp, #28]
	mov	r3, r5
	bl	open_noted
	cmp	r0, #5
	mov	r1, r0
	bne	.Lm_BB11_34
	movs	r1, #39
.Lm_BB11_34:
	tst	r6, r7
	ldr	r2, [sp, #16]
	str	r2, [r4]
	bne	.Lm_BB11_36
	mov	r0, r1
.Lm_BB11_36:
	add	sp, #36
	pop	{r4, r5, r6, r7, pc}
	.p2align	2
.Lm_CPI11_0:
	.long	lent_step
.Lm_CPI11_1:
	.long	begin_behind.nothing
.Lm_CPI11_2:
	.long	lent_end
.Lm_CPI11_3:
	.long	lent
.Lm_func_end11:
	.size	open_in, .Lm_func_end11-open_in
	.cfi_endproc
	.section	.text.tlsf_open_near,"ax",%progbits
	.globl	tlsf_open_near
	.p2align	2
	.type	tlsf_open_near,%function
	.code	16
	.thumb_func
tlsf_open_near:
	.cfi_startproc
	push	{r4, r5, r7, lr}
	.cfi_def_cfa_offset 16
	.cfi_offset lr, -4
	.cfi_offset r7, -8
	.cfi_offset r5, -12
	.cfi_offset r4, -16
	ldr	r4, .Lm_CPI12_0
	movs	r5, #2
	str	r5, [r4]
	rsbs	r4, r0, #0
	movs	r5, #63
	ands	r5, r4
	adds	r0, r0, r5
	mov	r4, r0
	adds	r4, #32
	ldr	r5, .Lm_CPI12_1
	str	r4, [r5]
	bl	open_noted
	movs	r1, #0
	str	r1, [r5]
	pop	{r4, r5, r7, pc}
	.p2align	2
.Lm_CPI12_0:
	.long	pieces_first
.Lm_CPI12_1:
	.long	near_room
.Lm_func_end12:
	.size	tlsf_open_near, .Lm_func_end12-tlsf_open_near
	.cfi_endproc
	.section	.text.tlsf_open_near_in,"ax",%progbits
	.globl	tlsf_open_near_in
	.p2align	2
	.type	tlsf_open_near_in,%function
	.code	16
	.thumb_func
tlsf_open_near_in:
	.cfi_startproc
	push	{r4, r5, r7, lr}
	.cfi_def_cfa_offset 16
	.cfi_offset lr, -4
	.cfi_offset r7, -8
	.cfi_offset r5, -12
	.cfi_offset r4, -16
	sub	sp, #8
	.cfi_def_cfa_offset 24
	ldr	r4, .Lm_CPI13_0
	movs	r5, #2
	str	r5, [r4]
	rsbs	r4, r0, #0
	movs	r5, #63
	ands	r5, r4
	adds	r0, r0, r5
	mov	r4, r0
	adds	r4, #32
	ldr	r5, .Lm_CPI13_1
	str	r4, [r5]
	ldr	r4, .Lm_CPI13_2
	str	r4, [sp, #4]
	ldr	r4, [sp, #24]
	str	r4, [sp]
	bl	open_in
	movs	r1, #0
	str	r1, [r5]
	add	sp, #8
	pop	{r4, r5, r7, pc}
	.p2align	2
.Lm_CPI13_0:
	.long	pieces_first
.Lm_CPI13_1:
	.long	near_room
.Lm_CPI13_2:
	.long	near_bytes
.Lm_func_end13:
	.size	tlsf_open_near_in, .Lm_func_end13-tlsf_open_near_in
	.cfi_endproc
	.section	.text.tlsf_open_32,"ax",%progbits
	.globl	tlsf_open_32
	.p2align	1
	.type	tlsf_open_32,%function
	.code	16
	.thumb_func
tlsf_open_32:
	.cfi_startproc
	push	{r7, lr}
	.cfi_def_cfa_offset 8
	.cfi_offset lr, -4
	.cfi_offset r7, -8
	bl	open_noted
	pop	{r7, pc}
.Lm_func_end14:
	.size	tlsf_open_32, .Lm_func_end14-tlsf_open_32
	.cfi_endproc
	.section	.text.tlsf_open_in_32,"ax",%progbits
	.globl	tlsf_open_in_32
	.p2align	2
	.type	tlsf_open_in_32,%function
	.code	16
	.thumb_func
tlsf_open_in_32:
	.cfi_startproc
	push	{r4, lr}
	.cfi_def_cfa_offset 8
	.cfi_offset lr, -4
	.cfi_offset r4, -8
	sub	sp, #8
	.cfi_def_cfa_offset 16
	ldr	r4, .Lm_CPI15_0
	str	r4, [sp, #4]
	ldr	r4, [sp, #16]
	str	r4, [sp]
	bl	open_in
	add	sp, #8
	pop	{r4, pc}
	.p2align	2
.Lm_CPI15_0:
	.long	heap_bytes
.Lm_func_end15:
	.size	tlsf_open_in_32, .Lm_func_end15-tlsf_open_in_32
	.cfi_endproc
	.section	.text.tlsf_open_near_2880,"ax",%progbits
	.globl	tlsf_open_near_2880
	.p2align	2
	.type	tlsf_open_near_2880,%function
	.code	16
	.thumb_func
tlsf_open_near_2880:
	.cfi_startproc
	push	{r4, r5, r7, lr}
	.cfi_def_cfa_offset 16
	.cfi_offset lr, -4
	.cfi_offset r7, -8
	.cfi_offset r5, -12
	.cfi_offset r4, -16
	ldr	r4, .Lm_CPI16_0
	movs	r5, #2
	str	r5, [r4]
	rsbs	r4, r0, #0
	movs	r5, #63
	ands	r5, r4
	adds	r0, r0, r5
	mov	r4, r0
	adds	r4, #32
	ldr	r5, .Lm_CPI16_1
	str	r4, [r5]
	bl	open_noted
	movs	r1, #0
	str	r1, [r5]
	pop	{r4, r5, r7, pc}
	.p2align	2
.Lm_CPI16_0:
	.long	pieces_first
.Lm_CPI16_1:
	.long	near_room
.Lm_func_end16:
	.size	tlsf_open_near_2880, .Lm_func_end16-tlsf_open_near_2880
	.cfi_endproc
	.section	.text.tlsf_open_near_in_2880,"ax",%progbits
	.globl	tlsf_open_near_in_2880
	.p2align	2
	.type	tlsf_open_near_in_2880,%function
	.code	16
	.thumb_func
tlsf_open_near_in_2880:
	.cfi_startproc
	push	{r4, r5, r7, lr}
	.cfi_def_cfa_offset 16
	.cfi_offset lr, -4
	.cfi_offset r7, -8
	.cfi_offset r5, -12
	.cfi_offset r4, -16
	sub	sp, #8
	.cfi_def_cfa_offset 24
	ldr	r4, .Lm_CPI17_0
	movs	r5, #2
	str	r5, [r4]
	rsbs	r4, r0, #0
	movs	r5, #63
	ands	r5, r4
	adds	r0, r0, r5
	mov	r4, r0
	adds	r4, #32
	ldr	r5, .Lm_CPI17_1
	str	r4, [r5]
	ldr	r4, .Lm_CPI17_2
	str	r4, [sp, #4]
	ldr	r4, [sp, #24]
	str	r4, [sp]
	bl	open_in
	movs	r1, #0
	str	r1, [r5]
	add	sp, #8
	pop	{r4, r5, r7, pc}
	.p2align	2
.Lm_CPI17_0:
	.long	pieces_first
.Lm_CPI17_1:
	.long	near_room
.Lm_CPI17_2:
	.long	near_bytes
.Lm_func_end17:
	.size	tlsf_open_near_in_2880, .Lm_func_end17-tlsf_open_near_in_2880
	.cfi_endproc
	.section	.text.tlsf_lane_bytes,"ax",%progbits
	.globl	tlsf_lane_bytes
	.p2align	2
	.type	tlsf_lane_bytes,%function
	.code	16
	.thumb_func
tlsf_lane_bytes:
	.cfi_startproc
	ldr	r1, .Lm_CPI18_2
	adds	r2, r0, r1
	adds	r1, r1, #1
	cmp	r2, r1
	blo	.Lm_BB18_2
	movs	r1, #24
	muls	r1, r0, r1
	adds	r1, #135
	ldr	r0, .Lm_CPI18_0
	ands	r0, r1
	ldr	r1, .Lm_CPI18_1
	adds	r0, r0, r1
	bx	lr
.Lm_BB18_2:
	movs	r0, #0
	bx	lr
	.p2align	2
.Lm_CPI18_0:
	.long	130944
.Lm_CPI18_1:
	.long	895
.Lm_CPI18_2:
	.long	4294966271
.Lm_func_end18:
	.size	tlsf_lane_bytes, .Lm_func_end18-tlsf_lane_bytes
	.cfi_endproc
	.section	.text.tlsf_lane_open_in,"ax",%progbits
	.globl	tlsf_lane_open_in
	.p2align	2
	.type	tlsf_lane_open_in,%function
	.code	16
	.thumb_func
tlsf_lane_open_in:
	.cfi_startproc
	push	{r4, r5, r6, r7, lr}
	.cfi_def_cfa_offset 20
	.cfi_offset lr, -4
	.cfi_offset r7, -8
	.cfi_offset r6, -12
	.cfi_offset r5, -16
	.cfi_offset r4, -20
	sub	sp, #12
	.cfi_def_cfa_offset 32
	mov	r4, r2
	str	r1, [sp, #8]
	str	r0, [sp]
	ldr	r0, [sp, #32]
	ldr	r2, .Lm_CPI19_0
	cmp	r4, r2
	bhs	.Lm_BB19_9
	rsbs	r2, r3, #0
	movs	r6, #127
	ands	r6, r2
	subs	r1, r0, r6
	movs	r2, #24
	muls	r2, r4, r2
	adds	r2, #135
	ldr	r5, .Lm_CPI19_1
	ands	r5, r2
	movs	r2, #3
	lsls	r2, r2, #8
	adds	r5, r5, r2
	movs	r2, #0
	cmp	r1, r5
	mov	r5, r2
	blo	.Lm_BB19_3
	mov	r5, r4
.Lm_BB19_3:
	cmp	r0, r6
	mov	r4, r2
	blo	.Lm_BB19_5
	mov	r4, r5
.Lm_BB19_5:
	mvns	r5, r3
	cmp	r0, r5
	bhi	.Lm_BB19_7
	mov	r2, r4
.Lm_BB19_7:
	cmp	r3, #0
	bne	.Lm_BB19_10
	mov	r2, r3
	b	.Lm_BB19_10
.Lm_BB19_9:
	rsbs	r2, r3, #0
	movs	r6, #127
	ands	r6, r2
	mvns	r5, r3
	mov	r2, r4
.Lm_BB19_10:
	ldr	r1, .Lm_CPI19_2
	movs	r4, #128
	str	r4, [r1]
	subs	r1, r3, #1
	mov	r4, r3
	sbcs	r4, r1
	cmp	r6, r0
	blo	.Lm_BB19_12
	mov	r6, r0
.Lm_BB19_12:
	movs	r1, #0
	cmp	r0, r5
	bls	.Lm_BB19_14
	mov	r7, r1
	b	.Lm_BB19_15
.Lm_BB19_14:
	movs	r7, #1
.Lm_BB19_15:
	str	r1, [sp, #4]
	adds	r6, r3, r6
	adds	r5, r3, r0
	ldr	r3, .Lm_CPI19_3
	tst	r4, r7
	bne	.Lm_BB19_17
	mov	r5, r3
.Lm_BB19_17:
	ldr	r1, .Lm_CPI19_4
	str	r5, [r1]
	bne	.Lm_BB19_19
	mov	r6, r3
.Lm_BB19_19:
	ldr	r5, .Lm_CPI19_5
	str	r6, [r5]
	ldr	r0, [sp]
	ldr	r1, [sp, #8]
	bl	tlsf_lane_open
	cmp	r0, #5
	mov	r1, r0
	bne	.Lm_BB19_21
	movs	r1, #39
.Lm_BB19_21:
	tst	r4, r7
	ldr	r2, [sp, #4]
	str	r2, [r5]
	bne	.Lm_BB19_23
	mov	r0, r1
.Lm_BB19_23:
	add	sp, #12
	pop	{r4, r5, r6, r7, pc}
	.p2align	2
.Lm_CPI19_0:
	.long	1025
.Lm_CPI19_1:
	.long	130944
.Lm_CPI19_2:
	.long	lent_step
.Lm_CPI19_3:
	.long	begin_behind.nothing
.Lm_CPI19_4:
	.long	lent_end
.Lm_CPI19_5:
	.long	lent
.Lm_func_end19:
	.size	tlsf_lane_open_in, .Lm_func_end19-tlsf_lane_open_in
	.cfi_endproc
	.section	.text.tlsf_queue_bytes,"ax",%progbits
	.globl	tlsf_queue_bytes
	.p2align	1
	.type	tlsf_queue_bytes,%function
	.code	16
	.thumb_func
tlsf_queue_bytes:
	.cfi_startproc
	push	{r4, r5, r7, lr}
	.cfi_def_cfa_offset 16
	.cfi_offset lr, -4
	.cfi_offset r7, -8
	.cfi_offset r5, -12
	.cfi_offset r4, -16
	movs	r2, #1
	lsls	r2, r2, #10
	subs	r3, r2, r0
	subs	r2, r2, r1
	orrs	r2, r3
	lsrs	r2, r2, #10
	bne	.Lm_BB20_2
	movs	r2, #127
	mvns	r2, r2
	lsls	r3, r0, #3
	adds	r3, #135
	ands	r3, r2
	lsls	r4, r0, #4
	adds	r4, #135
	movs	r5, #119
	bics	r4, r5
	lsls	r0, r0, #7
	adds	r0, r0, r4
	adds	r0, r0, r3
	lsls	r3, r1, #5
	adds	r3, #135
	movs	r4, #103
	bics	r3, r4
	movs	r4, #255
	adds	r4, #128
	lsls	r1, r1, #3
	adds	r1, r1, r4
	adds	r1, #136
	ands	r1, r2
	adds	r1, r1, r3
	lsls	r1, r1, #1
	adds	r0, r0, r1
	adds	r0, r0, r4
	pop	{r4, r5, r7, pc}
.Lm_BB20_2:
	movs	r0, #0
	pop	{r4, r5, r7, pc}
.Lm_func_end20:
	.size	tlsf_queue_bytes, .Lm_func_end20-tlsf_queue_bytes
	.cfi_endproc
	.section	.text.tlsf_queue_open_in,"ax",%progbits
	.globl	tlsf_queue_open_in
	.p2align	2
	.type	tlsf_queue_open_in,%function
	.code	16
	.thumb_func
tlsf_queue_open_in:
	.cfi_startproc
	push	{r4, r5, r6, r7, lr}
	.cfi_def_cfa_offset 20
	.cfi_offset lr, -4
	.cfi_offset r7, -8
	.cfi_offset r6, -12
	.cfi_offset r5, -16
	.cfi_offset r4, -20
	sub	sp, #12
	.cfi_def_cfa_offset 32
	str	r0, [sp, #8]
	ldr	r5, .Lm_CPI21_0
	ldr	r0, [sp, #32]
	cmp	r1, r5
	bhs	.Lm_BB21_11
	cmp	r2, r5
	bhs	.Lm_BB21_11
	movs	r5, #255
	lsls	r5, r5, #7
	lsls	r6, r1, #3
	adds	r6, #135
	ands	r6, r5
	lsls	r7, r1, #4
	adds	r7, #135
	ldr	r4, .Lm_CPI21_1
	ands	r4, r7
	lsls	r7, r1, #7
	adds	r4, r7, r4
	adds	r4, r4, r6
	str	r4, [sp, #4]
	lsls	r6, r2, #5
	adds	r6, #135
	ldr	r7, .Lm_CPI21_2
	ands	r7, r6
	lsls	r6, r2, #3
	ldr	r4, .Lm_CPI21_3
	adds	r4, r6, r4
	ands	r4, r5
	adds	r4, r4, r7
	lsls	r4, r4, #1
	ldr	r5, [sp, #4]
	adds	r4, r5, r4
	movs	r5, #1
	lsls	r5, r5, #8
	adds	r4, r4, r5
	rsbs	r6, r3, #0
	movs	r5, #127
	ands	r5, r6
	subs	r7, r0, r5
	movs	r6, #0
	cmp	r7, r4
	mov	r7, r6
	blo	.Lm_BB21_4
	mov	r7, r2
.Lm_BB21_4:
	cmp	r0, r5
	mov	r2, r6
	blo	.Lm_BB21_6
	mov	r2, r7
.Lm_BB21_6:
	mvns	r7, r3
	cmp	r0, r7
	bhi	.Lm_BB21_8
	mov	r6, r2
.Lm_BB21_8:
	cmp	r3, #0
	bne	.Lm_BB21_10
	mov	r6, r3
.Lm_BB21_10:
	mov	r2, r6
	b	.Lm_BB21_12
.Lm_BB21_11:
	rsbs	r6, r3, #0
	movs	r5, #127
	ands	r5, r6
	mvns	r7, r3
.Lm_BB21_12:
	ldr	r4, .Lm_CPI21_4
	movs	r6, #128
	str	r6, [r4]
	subs	r4, r3, #1
	mov	r6, r3
	sbcs	r6, r4
	cmp	r5, r0
	blo	.Lm_BB21_14
	mov	r5, r0
.Lm_BB21_14:
	movs	r4, #0
	cmp	r0, r7
	str	r4, [sp, #4]
	bls	.Lm_BB21_16
	mov	r7, r4
	b	.Lm_BB21_17
.Lm_BB21_16:
	movs	r7, #1
.Lm_BB21_17:
	adds	r5, r3, r5
	adds	r4, r3, r0
	ldr	r3, .Lm_CPI21_5
	tst	r6, r7
	bne	.Lm_BB21_19
	mov	r4, r3
.Lm_BB21_19:
	ldr	r0, .Lm_CPI21_6
	str	r4, [r0]
	bne	.Lm_BB21_21
	mov	r5, r3
.Lm_BB21_21:
	ldr	r4, .Lm_CPI21_7
	str	r5, [r4]
	ldr	r0, [sp, #8]
	bl	tlsf_queue_open
	cmp	r0, #5
	mov	r1, r0
	bne	.Lm_BB21_23
	movs	r1, #39
.Lm_BB21_23:
	tst	r6, r7
	ldr	r2, [sp, #4]
	str	r2, [r4]
	bne	.Lm_BB21_25
	mov	r0, r1
.Lm_BB21_25:
	add	sp, #12
	pop	{r4, r5, r6, r7, pc}
	.p2align	2
.Lm_CPI21_0:
	.long	1025
.Lm_CPI21_1:
	.long	65408
.Lm_CPI21_2:
	.long	130944
.Lm_CPI21_3:
	.long	519
.Lm_CPI21_4:
	.long	lent_step
.Lm_CPI21_5:
	.long	begin_behind.nothing
.Lm_CPI21_6:
	.long	lent_end
.Lm_CPI21_7:
	.long	lent
.Lm_func_end21:
	.size	tlsf_queue_open_in, .Lm_func_end21-tlsf_queue_open_in
	.cfi_endproc
	.section	.text.tlsf_offsets_bytes,"ax",%progbits
	.globl	tlsf_offsets_bytes
	.p2align	2
	.type	tlsf_offsets_bytes,%function
	.code	16
	.thumb_func
tlsf_offsets_bytes:
	.cfi_startproc
	push	{r4, lr}
	.cfi_def_cfa_offset 8
	.cfi_offset lr, -4
	.cfi_offset r4, -8
	cmp	r1, #4
	bhs	.Lm_BB22_2
	movs	r0, #0
	pop	{r4, pc}
.Lm_BB22_2:
	mov	r2, r0
	ldr	r3, .Lm_CPI22_0
	movs	r0, #0
	cmp	r2, #5
	beq	.Lm_BB22_4
	mov	r4, r0
	b	.Lm_BB22_5
.Lm_BB22_4:
	mov	r4, r3
	adds	r4, #16
.Lm_BB22_5:
	cmp	r2, #4
	bne	.Lm_BB22_7
	movs	r2, #1
	lsls	r4, r2, #20
.Lm_BB22_7:
	cmp	r1, r4
	bhi	.Lm_BB22_9
	lsls	r0, r1, #3
	adds	r0, #23
	ldr	r2, .Lm_CPI22_1
	ands	r2, r0
	adds	r1, #63
	lsrs	r0, r1, #3
	adds	r0, #16
	ands	r0, r3
	adds	r0, r2, r0
	ldr	r1, .Lm_CPI22_2
	adds	r0, r0, r1
.Lm_BB22_9:
	pop	{r4, pc}
	.p2align	2
.Lm_CPI22_0:
	.long	16777200
.Lm_CPI22_1:
	.long	536870896
.Lm_CPI22_2:
	.long	2783
.Lm_func_end22:
	.size	tlsf_offsets_bytes, .Lm_func_end22-tlsf_offsets_bytes
	.cfi_endproc
	.section	.text.tlsf_offsets_open_in,"ax",%progbits
	.globl	tlsf_offsets_open_in
	.p2align	2
	.type	tlsf_offsets_open_in,%function
	.code	16
	.thumb_func
tlsf_offsets_open_in:
	.cfi_startproc
	push	{r4, r5, r6, r7, lr}
	.cfi_def_cfa_offset 20
	.cfi_offset lr, -4
	.cfi_offset r7, -8
	.cfi_offset r6, -12
	.cfi_offset r5, -16
	.cfi_offset r4, -20
	sub	sp, #28
	.cfi_def_cfa_offset 48
	add	r4, sp, #12
	stm	r4!, {r0, r2, r3}
	ldr	r3, .Lm_CPI23_0
	cmp	r1, #5
	beq	.Lm_BB23_2
	movs	r2, #0
	b	.Lm_BB23_3
.Lm_BB23_2:
	mov	r2, r3
	adds	r2, #16
.Lm_BB23_3:
	movs	r0, #1
	cmp	r1, #4
	str	r0, [sp, #24]
	bne	.Lm_BB23_5
	lsls	r2, r0, #20
.Lm_BB23_5:
	ldr	r4, [sp, #56]
	ldr	r6, [sp, #52]
	ldr	r7, [sp, #48]
	cmp	r7, r2
	bls	.Lm_BB23_7
	rsbs	r2, r6, #0
	movs	r5, #15
	ands	r5, r2
	mvns	r3, r6
	mov	r0, r7
	b	.Lm_BB23_15
.Lm_BB23_7:
	lsls	r2, r7, #3
	adds	r2, #23
	ldr	r5, .Lm_CPI23_1
	ands	r5, r2
	mov	r2, r7
	adds	r2, #63
	lsrs	r2, r2, #3
	adds	r2, #16
	ands	r2, r3
	adds	r2, r5, r2
	movs	r3, #173
	lsls	r3, r3, #4
	adds	r3, r2, r3
	rsbs	r2, r6, #0
	movs	r5, #15
	ands	r5, r2
	subs	r2, r4, r5
	movs	r0, #0
	cmp	r2, r3
	mov	r3, r0
	blo	.Lm_BB23_9
	mov	r3, r7
.Lm_BB23_9:
	cmp	r4, r5
	mov	r7, r0
	blo	.Lm_BB23_11
	mov	r7, r3
.Lm_BB23_11:
	mvns	r3, r6
	cmp	r4, r3
	bhi	.Lm_BB23_13
	mov	r0, r7
.Lm_BB23_13:
	cmp	r6, #0
	bne	.Lm_BB23_15
	mov	r0, r6
.Lm_BB23_15:
	ldr	r2, .Lm_CPI23_2
	movs	r7, #16
	str	r7, [r2]
	subs	r2, r6, #1
	mov	r7, r6
	sbcs	r7, r2
	cmp	r5, r4
	blo	.Lm_BB23_17
	mov	r5, r4
.Lm_BB23_17:
	movs	r2, #0
	cmp	r4, r3
	bls	.Lm_BB23_19
	str	r2, [sp, #24]
.Lm_BB23_19:
	str	r2, [sp, #8]
	adds	r3, r6, r5
	adds	r5, r6, r4
	ldr	r4, .Lm_CPI23_3
	ldr	r6, [sp, #24]
	tst	r7, r6
	bne	.Lm_BB23_21
	mov	r5, r4
.Lm_BB23_21:
	ldr	r2, .Lm_CPI23_4
	str	r5, [r2]
	bne	.Lm_BB23_23
	mov	r3, r4
.Lm_BB23_23:
	ldr	r4, .Lm_CPI23_5
	str	r3, [r4]
	str	r0, [sp]
	add	r3, sp, #12
	ldm	r3, {r0, r2, r3}
	bl	tlsf_offsets_open
	cmp	r0, #5
	mov	r1, r0
	bne	.Lm_BB23_25
	movs	r1, #39
.Lm_BB23_25:
	tst	r7, r6
	ldr	r2, [sp, #8]
	str	r2, [r4]
	bne	.Lm_BB23_27
	mov	r0, r1
.Lm_BB23_27:
	add	sp, #28
	pop	{r4, r5, r6, r7, pc}
	.p2align	2
.Lm_CPI23_0:
	.long	16777200
.Lm_CPI23_1:
	.long	536870896
.Lm_CPI23_2:
	.long	lent_step
.Lm_CPI23_3:
	.long	begin_behind.nothing
.Lm_CPI23_4:
	.long	lent_end
.Lm_CPI23_5:
	.long	lent
.Lm_func_end23:
	.size	tlsf_offsets_open_in, .Lm_func_end23-tlsf_offsets_open_in
	.cfi_endproc
	.section	.text.tlsf_pools_bytes,"ax",%progbits
	.globl	tlsf_pools_bytes
	.p2align	2
	.type	tlsf_pools_bytes,%function
	.code	16
	.thumb_func
tlsf_pools_bytes:
	.cfi_startproc
	push	{r4, r5, r7, lr}
	.cfi_def_cfa_offset 16
	.cfi_offset lr, -4
	.cfi_offset r7, -8
	.cfi_offset r5, -12
	.cfi_offset r4, -16
	sub	sp, #16
	.cfi_def_cfa_offset 32
	mov	r4, r2
	movs	r5, #0
	str	r5, [sp, #12]
	str	r5, [sp, #8]
	str	r5, [sp, #4]
	add	r2, sp, #4
	str	r2, [sp]
	add	r3, sp, #8
	mov	r2, r4
	bl	tlsf_pools_words
	cmp	r0, #0
	bne	.Lm_BB24_2
	movs	r1, #80
	ldr	r0, [sp, #4]
	muls	r1, r0, r1
	movs	r2, #12
	muls	r2, r4, r2
	ldr	r3, [sp, #8]
	lsls	r4, r3, #3
	adds	r2, r2, r4
	adds	r1, r2, r1
	lsrs	r2, r3, #6
	lsls	r2, r2, #3
	adds	r1, r1, r2
	ldr	r2, .Lm_CPI24_0
	mov	r3, r2
	adds	r3, #9
	muls	r3, r0, r3
	adds	r3, #23
	movs	r0, #15
	bics	r3, r0
	adds	r0, r1, r3
	adds	r5, r0, r2
.Lm_BB24_2:
	mov	r0, r5
	add	sp, #16
	pop	{r4, r5, r7, pc}
	.p2align	2
.Lm_CPI24_0:
	.long	2783
.Lm_func_end24:
	.size	tlsf_pools_bytes, .Lm_func_end24-tlsf_pools_bytes
	.cfi_endproc
	.section	.text.tlsf_pools_open_in,"ax",%progbits
	.globl	tlsf_pools_open_in
	.p2align	2
	.type	tlsf_pools_open_in,%function
	.code	16
	.thumb_func
tlsf_pools_open_in:
	.cfi_startproc
	push	{r4, r5, r6, r7, lr}
	.cfi_def_cfa_offset 20
	.cfi_offset lr, -4
	.cfi_offset r7, -8
	.cfi_offset r6, -12
	.cfi_offset r5, -16
	.cfi_offset r4, -20
	sub	sp, #28
	.cfi_def_cfa_offset 48
	str	r3, [sp, #20]
	str	r2, [sp, #16]
	str	r1, [sp, #8]
	ldr	r4, .Lm_CPI25_0
	movs	r5, #16
	str	r5, [r4]
	ldr	r7, [sp, #52]
	rsbs	r4, r7, #0
	movs	r5, #15
	ands	r5, r4
	ldr	r6, [sp, #56]
	cmp	r5, r6
	blo	.Lm_BB25_2
	mov	r5, r6
.Lm_BB25_2:
	subs	r3, r7, #1
	mov	r4, r7
	sbcs	r4, r3
	str	r4, [sp, #24]
	mvns	r4, r7
	movs	r2, #0
	cmp	r6, r4
	bls	.Lm_BB25_4
	mov	r3, r2
	b	.Lm_BB25_5
.Lm_BB25_4:
	movs	r3, #1
.Lm_BB25_5:
	adds	r5, r7, r5
	adds	r7, r7, r6
	ldr	r1, .Lm_CPI25_1
	ldr	r4, [sp, #24]
	str	r3, [sp, #12]
	tst	r4, r3
	bne	.Lm_BB25_7
	mov	r7, r1
.Lm_BB25_7:
	mov	r6, r2
	ldr	r4, .Lm_CPI25_2
	str	r7, [r4]
	bne	.Lm_BB25_9
	mov	r5, r1
.Lm_BB25_9:
	ldr	r7, .Lm_CPI25_3
	str	r5, [r7]
	ldr	r4, [sp, #48]
	str	r4, [sp]
	ldr	r1, [sp, #8]
	ldr	r2, [sp, #16]
	ldr	r3, [sp, #20]
	bl	tlsf_pools_open
	cmp	r0, #6
	bne	.Lm_BB25_11
	movs	r0, #5
.Lm_BB25_11:
	ldr	r3, [sp, #12]
	cmp	r0, #5
	mov	r1, r0
	bne	.Lm_BB25_13
	movs	r1, #39
.Lm_BB25_13:
	ldr	r2, [sp, #24]
	tst	r2, r3
	str	r6, [r7]
	bne	.Lm_BB25_15
	mov	r0, r1
.Lm_BB25_15:
	add	sp, #28
	pop	{r4, r5, r6, r7, pc}
	.p2align	2
.Lm_CPI25_0:
	.long	lent_step
.Lm_CPI25_1:
	.long	begin_behind.nothing
.Lm_CPI25_2:
	.long	lent_end
.Lm_CPI25_3:
	.long	lent
.Lm_func_end25:
	.size	tlsf_pools_open_in, .Lm_func_end25-tlsf_pools_open_in
	.cfi_endproc
	.section	.text.tlsf_next_number,"ax",%progbits
	.globl	tlsf_next_number
	.p2align	2
	.type	tlsf_next_number,%function
	.code	16
	.thumb_func
tlsf_next_number:
	.cfi_startproc
	push	{r4, r5, r6, lr}
	.cfi_def_cfa_offset 16
	.cfi_offset lr, -4
	.cfi_offset r6, -8
	.cfi_offset r5, -12
	.cfi_offset r4, -16
	sub	sp, #8
	.cfi_def_cfa_offset 24
	mov	r5, r0
	movs	r4, #0
	str	r4, [sp]
	ldr	r0, .Lm_CPI26_0
	movs	r6, #1
	mov	r2, r6
	mov	r3, r4
	bl	__atomic_fetch_add_8
	lsrs	r2, r0, #29
	lsls	r1, r1, #3
	adds	r1, r1, r2
	lsls	r0, r0, #3
	lsls	r2, r6, #31
	adds	r0, r0, r2
	adcs	r1, r4
	bne	.Lm_BB26_2
	str	r0, [r5]
	b	.Lm_BB26_3
.Lm_BB26_2:
	movs	r4, #2
.Lm_BB26_3:
	mov	r0, r4
	add	sp, #8
	pop	{r4, r5, r6, pc}
	.p2align	2
.Lm_CPI26_0:
	.long	tlsf_next_number.calls
.Lm_func_end26:
	.size	tlsf_next_number, .Lm_func_end26-tlsf_next_number
	.cfi_endproc
	.section	.text.open_noted,"ax",%progbits
	.p2align	1
	.type	open_noted,%function
	.code	16
	.thumb_func
open_noted:
	.cfi_startproc
	push	{r4, r5, r6, lr}
	.cfi_def_cfa_offset 16
	.cfi_offset lr, -4
	.cfi_offset r6, -8
	.cfi_offset r5, -12
	.cfi_offset r4, -16
	mov	r4, r0
	ldrb	r0, [r0, #29]
	cmp	r0, #0
	beq	.Lm_BB27_4
	movs	r5, #56
	mvns	r5, r5
	mov	r6, r0
	subs	r6, #65
	cmp	r6, r5
	blo	.Lm_BB27_3
	mov	r5, r0
	adds	r5, #127
	tst	r5, r0
	beq	.Lm_BB27_4
.Lm_BB27_3:
	movs	r3, #0
.Lm_BB27_4:
	mov	r0, r4
	bl	tlsf_open
	cmp	r0, #0
	beq	.Lm_BB27_6
.Lm_BB27_5:
	pop	{r4, r5, r6, pc}
.Lm_BB27_6:
	ldrb	r1, [r4, #29]
	movs	r2, #247
	tst	r1, r2
	beq	.Lm_BB27_5
	movs	r1, #1
	strb	r1, [r4, #28]
	pop	{r4, r5, r6, pc}
.Lm_func_end27:
	.size	open_noted, .Lm_func_end27-open_noted
	.cfi_endproc
	.type	tlsf_memory_alloc.nothing,%object
	.section	.bss.tlsf_memory_alloc.nothing,"aw",%nobits
	.p2align	3, 0x0
tlsf_memory_alloc.nothing:
	.long	0
	.long	0
	.size	tlsf_memory_alloc.nothing, 8
	.type	near_room,%object
	.section	.bss.near_room,"aw",%nobits
	.p2align	2, 0x0
near_room:
	.long	0
	.size	near_room, 4
	.type	pieces_first,%object
	.section	.bss.pieces_first,"aw",%nobits
	.p2align	2, 0x0
pieces_first:
	.long	0
	.size	pieces_first, 4
	.type	lent,%object
	.section	.bss.lent,"aw",%nobits
	.p2align	2, 0x0
lent:
	.long	0
	.size	lent, 4
	.type	tlsf_next_number.calls,%object
	.section	.bss.tlsf_next_number.calls,"aw",%nobits
	.p2align	3, 0x0
tlsf_next_number.calls:
	.long	0
	.long	0
	.size	tlsf_next_number.calls, 8
	.type	lent_step,%object
	.section	.bss.lent_step,"aw",%nobits
	.p2align	2, 0x0
lent_step:
	.long	0
	.size	lent_step, 4
	.type	lent_end,%object
	.section	.bss.lent_end,"aw",%nobits
	.p2align	2, 0x0
lent_end:
	.long	0
	.size	lent_end, 4
	.type	begin_behind.nothing,%object
	.section	.bss.begin_behind.nothing,"aw",%nobits
begin_behind.nothing:
	.byte	0
	.size	begin_behind.nothing, 1
	.ident	"clang version 22.1.8"
	.section	".note.GNU-stack","",%progbits
#endif
