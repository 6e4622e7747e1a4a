#ifndef TLSF_ONLY_MEMORY
/* The calls in Rattle. */
	.syntax	unified
	.eabi_attribute	24, 1
	.eabi_attribute	25, 1
	.section	.text.unlikely.tlsf_c.call_fault.CallFault.refusal,"ax",%progbits
	.p2align	1
	.type	tlsf_c.call_fault.CallFault.refusal,%function
	.code	16
	.thumb_func
tlsf_c.call_fault.CallFault.refusal:
	.cfi_sections .debug_frame
	.cfi_startproc
	movs	r1, #32
	orr.w	r0, r1, r0, lsl #2
	uxtb	r0, r0
	bx	lr
.Lfunc_end0:
	.size	tlsf_c.call_fault.CallFault.refusal, .Lfunc_end0-tlsf_c.call_fault.CallFault.refusal
	.cfi_endproc
	.section	.text.tlsf_heap.heap.Heap.resize_live.4,"ax",%progbits
	.p2align	1
	.type	tlsf_heap.heap.Heap.resize_live.4,%function
	.code	16
	.thumb_func
tlsf_heap.heap.Heap.resize_live.4:
	.cfi_startproc
	push.w	{r4, r5, r6, r7, r8, r9, lr}
	.cfi_def_cfa_offset 28
	.cfi_offset lr, -4
	.cfi_offset r9, -8
	.cfi_offset r8, -12
	.cfi_offset r7, -16
	.cfi_offset r6, -20
	.cfi_offset r5, -24
	.cfi_offset r4, -28
	sub	sp, #28
	.cfi_def_cfa_offset 56
	mov	lr, r0
	ldr	r1, [r1, #4]
	ldr	r6, [lr, #24]!
	add.w	r7, r6, r1, lsl #3
	ldr.w	r12, [r6, r1, lsl #3]
	ldr	r3, [r7, #4]
	lsr.w	r9, r12, #2
	cmp.w	r2, r12, lsr #2
	bls	.LBB1_5
	lsls.w	r4, r12, #30
	bmi	.LBB1_3
	add.w	r7, r9, r1
	ldr.w	r5, [r6, r7, lsl #3]
	lsls	r4, r5, #31
	bne	.LBB1_9
.LBB1_3:
	movs	r5, #0
	mov.w	r8, #0
	add.w	r4, r9, r5, lsr #2
	cmp	r4, r2
	bhs	.LBB1_10
.LBB1_4:
	movs	r0, #1
	movs	r1, #5
	add	sp, #28
	pop.w	{r4, r5, r6, r7, r8, r9, pc}
.LBB1_5:
	ldrd	r5, r6, [r0, #8]
	and.w	r4, r5, r6
	adds	r4, #1
	beq	.LBB1_12
	movs	r4, #0
	strd	r4, r4, [r7, #16]
	adds	r4, r2, #4
	mov	r7, r9
	cmp	r9, r4
	blo	.LBB1_8
	strd	r5, r6, [sp, #8]
	mov	r5, r0
	str	r2, [sp]
	mov	r7, r2
	mov	r0, lr
	mov	r2, r12
	bl	tlsf_heap.refitting.split_off.4
	mov	r0, r5
.LBB1_8:
	add.w	r3, r0, #8
	sub.w	r7, r7, r9
	adds	r0, #8
	ldm	r3, {r1, r2, r3}
	add	r3, r7
	adds	r1, #1
	adc	r2, r2, #0
	stm	r0!, {r1, r2, r3}
	movs	r1, #0
	movs	r0, #0
	add	sp, #28
	pop.w	{r4, r5, r6, r7, r8, r9, pc}
.LBB1_9:
	add.w	r4, r6, r7, lsl #3
	ldr.w	r8, [r4, #4]
	add.w	r4, r9, r5, lsr #2
	cmp	r4, r2
	blo	.LBB1_4
.LBB1_10:
	ldrd	r7, r6, [r0, #8]
	and.w	r4, r7, r6
	adds	r4, #1
	beq	.LBB1_12
	strd	r5, r8, [sp]
	mov	r5, r0
	str	r2, [sp, #8]
	mov	r0, lr
	mov	r2, r12
	lsls	r4, r1, #3
	strd	r7, r6, [sp, #16]
	bl	tlsf_heap.refitting.recut.4
	ldr	r2, [r5, #24]
	movs	r3, #0
	sub.w	r0, r0, r9
	mov	r1, r5
	add	r2, r4
	strd	r3, r3, [r2, #16]
	ldrd	r2, r3, [r5, #16]
	add	r0, r2
	str	r0, [r5, #16]
	cmp	r3, r0
	it	lo
	strlo	r0, [r1, #20]
	ldrd	r0, r2, [r1, #8]
	adds	r0, #1
	adc	r2, r2, #0
	strd	r0, r2, [r1, #8]
	movs	r1, #0
	movs	r0, #0
	add	sp, #28
	pop.w	{r4, r5, r6, r7, r8, r9, pc}
.LBB1_12:
	movs	r1, #1
	movs	r0, #1
	add	sp, #28
	pop.w	{r4, r5, r6, r7, r8, r9, pc}
.Lfunc_end1:
	.size	tlsf_heap.heap.Heap.resize_live.4, .Lfunc_end1-tlsf_heap.heap.Heap.resize_live.4
	.cfi_endproc
	.section	.text.tlsf_heap.refitting.split_off.4,"ax",%progbits
	.p2align	1
	.type	tlsf_heap.refitting.split_off.4,%function
	.code	16
	.thumb_func
tlsf_heap.refitting.split_off.4:
	.cfi_startproc
	push.w	{r4, r5, r6, r7, r8, r9, r10, r11, lr}
	.cfi_def_cfa_offset 36
	.cfi_offset lr, -4
	.cfi_offset r11, -8
	.cfi_offset r10, -12
	.cfi_offset r9, -16
	.cfi_offset r8, -20
	.cfi_offset r7, -24
	.cfi_offset r6, -28
	.cfi_offset r5, -32
	.cfi_offset r4, -36
	sub	sp, #28
	.cfi_def_cfa_offset 64
	ldrd	r9, lr, [sp, #72]
	lsls	r6, r2, #30
	ldr	r5, [sp, #64]
	ldr.w	r12, [r0]
	bmi	.LBB2_2
	add.w	r4, r1, r2, lsr #2
	ldr.w	r6, [r12, r4, lsl #3]
	lsls	r7, r6, #31
	bne	.LBB2_5
.LBB2_2:
	orr	r7, r2, #1
	add.w	lr, r5, r1
	sub.w	r6, r7, r5, lsl #2
	mvn	r8, #7
	subs	r7, r7, r6
	str.w	r7, [r12, r1, lsl #3]
	and	r7, lr, #63
	ldr	r4, [r0]
	sbc	r10, r3, #0
	movs	r3, #1
	subs.w	r11, r7, #32
	lsl.w	r3, r3, r7
	and.w	r8, r8, lr, lsr #3
	str.w	r6, [r4, lr, lsl #3]
	add.w	r4, r4, lr, lsl #3
	rsb.w	r7, r7, #32
	str.w	r9, [r4, #8]
	it	pl
	movpl	r3, #0
	ldr	r5, [r0, #24]
	ldr.w	r9, [r5, r8]
	orr.w	r3, r3, r9
	str.w	r3, [r5, r8]
	add.w	r3, r12, r1, lsl #3
	str.w	r10, [r3, #4]
	ldr	r3, [sp, #76]
	str	r3, [r4, #12]
	add.w	r3, r5, r8
	str	r1, [r4, #4]
	mov.w	r4, #1
	ldr	r5, [r3, #4]
	lsr.w	r7, r4, r7
	it	pl
	lslpl.w	r7, r4, r11
	orrs	r7, r5
	str	r7, [r3, #4]
	lsls	r3, r6, #30
	lsr.w	r3, r2, #2
	itttt	pl
	ldrpl	r2, [r0]
	addpl	r1, r3
	addpl.w	r1, r2, r1, lsl #3
	strpl.w	lr, [r1, #4]
	ldr	r1, [sp, #64]
	lsl.w	r2, lr, #3
	subs	r1, r3, r1
	orr	r3, r1, #16
	clz	r3, r3
	rsb.w	r3, r3, #27
	lsrs	r1, r3
	add.w	r3, r1, r3, lsl #4
	add.w	r6, r0, r3, lsl #2
	ldr.w	r7, [r6, #144]
	str.w	lr, [r6, #144]
	mov.w	r6, #-1
	ldr	r5, [r0]
	cmp.w	r7, #-1
	ble	.LBB2_4
	adds	r0, r5, r2
	strd	r7, r6, [r0, #16]
	add.w	r0, r5, r7, lsl #3
	str.w	lr, [r0, #20]
	add	sp, #28
	pop.w	{r4, r5, r6, r7, r8, r9, r10, r11, pc}
.LBB2_4:
	add	r2, r5
	strd	r6, r6, [r2, #16]
	lsrs	r2, r3, #4
	movs	r3, #1
	ldr	r6, [r0, #56]
	lsl.w	r7, r3, r2
	add.w	r2, r0, r2, lsl #2
	orrs	r7, r6
	str	r7, [r0, #56]
	and	r0, r1, #15
	ldr	r5, [r2, #60]
	lsl.w	r0, r3, r0
	orrs	r0, r5
	str	r0, [r2, #60]
	add	sp, #28
	pop.w	{r4, r5, r6, r7, r8, r9, r10, r11, pc}
.LBB2_5:
	add.w	r7, r12, r4, lsl #3
	ldr	r7, [r7, #4]
	strd	r9, lr, [sp, #16]
	str	r5, [sp, #8]
	strd	r6, r7, [sp]
	bl	tlsf_heap.refitting.recut.4
	add	sp, #28
	pop.w	{r4, r5, r6, r7, r8, r9, r10, r11, pc}
.Lfunc_end2:
	.size	tlsf_heap.refitting.split_off.4, .Lfunc_end2-tlsf_heap.refitting.split_off.4
	.cfi_endproc
	.section	.text.tlsf_heap.refitting.recut.4,"ax",%progbits
	.p2align	1
	.type	tlsf_heap.refitting.recut.4,%function
	.code	16
	.thumb_func
tlsf_heap.refitting.recut.4:
	.cfi_startproc
	push.w	{r4, r5, r6, r7, r8, r9, r10, r11, lr}
	.cfi_def_cfa_offset 36
	.cfi_offset lr, -4
	.cfi_offset r11, -8
	.cfi_offset r10, -12
	.cfi_offset r9, -16
	.cfi_offset r8, -20
	.cfi_offset r7, -24
	.cfi_offset r6, -28
	.cfi_offset r5, -32
	.cfi_offset r4, -36
	sub	sp, #12
	.cfi_def_cfa_offset 48
	ldr	r6, [r0]
	add.w	r7, r1, r2, lsr #2
	ldr.w	lr, [sp, #48]
	add.w	r7, r6, r7, lsl #3
	ldr.w	r12, [sp, #56]
	ldrd	r5, r7, [r7, #16]
	cmp	r7, #0
	lsr.w	r10, lr, #2
	bmi	.LBB3_3
	add.w	r9, r6, r7, lsl #3
	adds	r4, r5, #1
	ldr.w	r8, [r9, #20]
	beq	.LBB3_5
	add.w	r4, r6, r5, lsl #3
	strd	r5, r8, [r9, #16]
	bic	r5, r7, #-2147483648
	str	r5, [r4, #20]
	b	.LBB3_8
.LBB3_3:
	orr	r4, r10, #16
	clz	r4, r4
	rsb.w	r4, r4, #27
	lsr.w	r7, r10, r4
	add.w	r8, r7, r4, lsl #4
	adds	r4, r5, #1
	beq	.LBB3_6
	add.w	r4, r6, r5, lsl #3
	mov.w	r6, #-1
	str	r6, [r4, #20]
	add.w	r4, r0, r8, lsl #2
	str.w	r5, [r4, #144]
	b	.LBB3_8
.LBB3_5:
	mov.w	r4, #-1
	strd	r4, r8, [r9, #16]
	b	.LBB3_8
.LBB3_6:
	add.w	r4, r0, r8, lsl #2
	mov.w	r5, #-1
	and	r7, r7, #15
	str.w	r5, [r4, #144]
	lsr.w	r5, r8, #4
	add.w	r6, r0, r5, lsl #2
	mov.w	r8, #1
	lsl.w	r7, r8, r7
	ldr	r4, [r6, #60]
	bics	r4, r7
	str	r4, [r6, #60]
	bne	.LBB3_8
	ldr	r4, [r0, #56]
	lsl.w	r5, r8, r5
	bics	r4, r5
	str	r4, [r0, #56]
.LBB3_8:
	adds.w	r6, lr, r2
	movw	r8, #65528
	adc	r9, r3, #0
	add.w	r3, r12, #4
	add.w	r7, r1, r6, lsr #2
	lsr.w	r11, r6, #2
	movt	r8, #8191
	cmp.w	r3, r6, lsr #2
	str	r7, [sp, #8]
	bls	.LBB3_10
	sub.w	r3, r7, r10
	ldr	r4, [r0, #24]
	mvn	r7, #1
	and	lr, r3, #31
	and.w	r2, r8, r3, lsr #3
	tst.w	r3, #32
	it	ne
	movne.w	r7, #-1
	lsl.w	r8, r7, lr
	mov.w	r7, #31
	bic.w	r3, r7, r3
	ldr.w	r12, [r4, r2]
	mvn	r7, #-2147483648
	lsr.w	r3, r7, r3
	orr.w	r8, r8, r3
	add.w	r7, r4, r2
	and.w	r5, r12, r8
	str	r5, [r4, r2]
	mov.w	r2, #-1
	ldr.w	r10, [r7, #4]
	it	ne
	mvnne	r2, #1
	lsl.w	r2, r2, lr
	orrs	r2, r3
	and.w	r2, r2, r10
	str	r2, [r7, #4]
	lsls	r2, r6, #30
	itttt	pl
	ldrpl	r2, [r0]
	ldrpl	r3, [sp, #8]
	addpl.w	r2, r2, r3, lsl #3
	strpl	r1, [r2, #4]
	ldr	r0, [r0]
	subs	r2, r6, #1
	str.w	r2, [r0, r1, lsl #3]
	add.w	r0, r0, r1, lsl #3
	sbc	r1, r9, #0
	str	r1, [r0, #4]
	mov	r0, r11
	add	sp, #12
	pop.w	{r4, r5, r6, r7, r8, r9, r10, r11, pc}
.LBB3_10:
	ldr	r4, [r0]
	sub.w	r2, r7, r10
	str.w	r11, [sp, #4]
	sub.w	r11, r6, r12, lsl #2
	subs.w	r3, r6, r11
	ldr	r5, [sp, #64]
	str.w	r3, [r4, r1, lsl #3]
	add.w	r3, r12, r1
	mov.w	lr, #31
	ldr	r6, [r0]
	and	r10, r2, #31
	sbc	r9, r9, #0
	tst.w	r2, #32
	bic.w	lr, lr, r2
	mvn	r12, #-2147483648
	str.w	r11, [r6, r3, lsl #3]
	add.w	r6, r6, r3, lsl #3
	lsr.w	r12, r12, lr
	str	r5, [r6, #8]
	mvn	r5, #1
	it	ne
	movne.w	r5, #-1
	and.w	r2, r8, r2, lsr #3
	lsl.w	r5, r5, r10
	orr.w	lr, r5, r12
	ldr	r5, [r0, #24]
	ldr.w	r8, [r5, r2]
	and.w	r7, r8, lr
	str	r7, [r5, r2]
	add.w	r7, r4, r1, lsl #3
	add	r2, r5
	str.w	r9, [r7, #4]
	ldr	r7, [sp, #68]
	str	r1, [r6, #4]
	mov.w	r1, #-1
	str	r7, [r6, #12]
	it	ne
	mvnne	r1, #1
	lsl.w	r1, r1, r10
	ldr	r7, [r2, #4]
	orr.w	r1, r1, r12
	mov.w	r12, #1
	ands	r1, r7
	str	r1, [r2, #4]
	and	r1, r3, #63
	movw	r2, #65528
	subs.w	lr, r1, #32
	movt	r2, #8191
	lsl.w	r7, r12, r1
	and.w	r5, r2, r3, lsr #3
	it	pl
	movpl	r7, #0
	ldr	r4, [r0, #24]
	rsb.w	r1, r1, #32
	ldr	r2, [r4, r5]
	lsr.w	r1, r12, r1
	orr.w	r2, r2, r7
	add.w	r7, r4, r5
	str	r2, [r4, r5]
	ldr	r6, [r7, #4]
	it	pl
	lslpl.w	r1, r12, lr
	orrs	r1, r6
	str	r1, [r7, #4]
	lsls.w	r1, r11, #30
	itttt	pl
	ldrpl	r1, [r0]
	ldrpl	r2, [sp, #8]
	addpl.w	r1, r1, r2, lsl #3
	strpl	r3, [r1, #4]
	ldr.w	r11, [sp, #56]
	lsls	r7, r3, #3
	ldr	r1, [sp, #4]
	sub.w	r1, r1, r11
	orr	r2, r1, #16
	clz	r2, r2
	rsb.w	r2, r2, #27
	lsrs	r1, r2
	add.w	r2, r1, r2, lsl #4
	add.w	r5, r0, r2, lsl #2
	ldr.w	r6, [r5, #144]
	str.w	r3, [r5, #144]
	mov.w	r5, #-1
	ldr	r4, [r0]
	cmp.w	r6, #-1
	ble	.LBB3_12
	adds	r0, r4, r7
	strd	r6, r5, [r0, #16]
	add.w	r0, r4, r6, lsl #3
	str	r3, [r0, #20]
	mov	r0, r11
	add	sp, #12
	pop.w	{r4, r5, r6, r7, r8, r9, r10, r11, pc}
.LBB3_12:
	adds	r3, r4, r7
	lsrs	r2, r2, #4
	strd	r5, r5, [r3, #16]
	movs	r3, #1
	ldr	r6, [r0, #56]
	lsl.w	r7, r3, r2
	add.w	r2, r0, r2, lsl #2
	orrs	r7, r6
	str	r7, [r0, #56]
	and	r0, r1, #15
	ldr	r5, [r2, #60]
	lsl.w	r0, r3, r0
	orrs	r0, r5
	str	r0, [r2, #60]
	mov	r0, r11
	add	sp, #12
	pop.w	{r4, r5, r6, r7, r8, r9, r10, r11, pc}
.Lfunc_end3:
	.size	tlsf_heap.refitting.recut.4, .Lfunc_end3-tlsf_heap.refitting.recut.4
	.cfi_endproc
	.section	.text.tlsf_heap.heap.Heap.release_live.4,"ax",%progbits
	.p2align	1
	.type	tlsf_heap.heap.Heap.release_live.4,%function
	.code	16
	.thumb_func
tlsf_heap.heap.Heap.release_live.4:
	.cfi_startproc
	push.w	{r4, r5, r6, r7, r8, r9, r10, lr}
	.cfi_def_cfa_offset 32
	.cfi_offset lr, -4
	.cfi_offset r10, -8
	.cfi_offset r9, -12
	.cfi_offset r8, -16
	.cfi_offset r7, -20
	.cfi_offset r6, -24
	.cfi_offset r5, -28
	.cfi_offset r4, -32
	sub	sp, #32
	.cfi_def_cfa_offset 64
	ldr.w	r12, [r1, #4]
	mov	r1, r0
	ldr	r7, [r1, #24]!
	ldr	r2, [r1, #-8]
	add.w	r5, r7, r12, lsl #3
	ldr.w	lr, [r7, r12, lsl #3]
	sub.w	r2, r2, lr, lsr #2
	lsr.w	r8, lr, #2
	str	r2, [r1, #-8]
	lsls.w	r2, lr, #30
	bmi	.LBB4_2
	add.w	r3, r8, r12
	ldr.w	r2, [r7, r3, lsl #3]
	add.w	r3, r7, r3, lsl #3
	ldr	r3, [r3, #4]
	b	.LBB4_3
.LBB4_2:
	movs	r2, #0
	movs	r3, #0
.LBB4_3:
	ldr	r6, [r5, #4]
	cmp.w	r12, #0
	itt	ne
	ldrne.w	r9, [r7, r6, lsl #3]
	lslsne.w	r4, r9, #31
	bne	.LBB4_8
	ldrd	r4, r9, [r0, #8]
	lsls	r7, r2, #31
	bne	.LBB4_7
	orr	r2, lr, #1
	str	r4, [r5, #8]
	str	r2, [r5]
	lsl.w	r1, r12, #3
	str.w	r9, [r5, #12]
	ldr	r2, [r0, #8]
	str	r6, [r5, #4]
	ldr	r3, [r0, #12]
	adds	r2, #1
	adc	r3, r3, #0
	strd	r2, r3, [r0, #8]
	orr	r2, r8, #16
	clz	r2, r2
	rsb.w	r3, r2, #27
	lsr.w	r2, r8, r3
	add.w	r3, r2, r3, lsl #4
	add.w	r6, r0, r3, lsl #2
	ldr.w	r7, [r6, #168]
	str.w	r12, [r6, #168]
	mov.w	r6, #-1
	ldr	r5, [r0, #24]
	cmp.w	r7, #-1
	ble	.LBB4_9
	adds	r0, r5, r1
	strd	r7, r6, [r0, #16]
	add.w	r0, r5, r7, lsl #3
	str.w	r12, [r0, #20]
	add	sp, #32
	pop.w	{r4, r5, r6, r7, r8, r9, r10, pc}
.LBB4_7:
	adds	r5, r4, #1
	adc	r7, r9, #0
	strd	r5, r7, [r0, #8]
	add	r0, sp, #8
	stm.w	r0, {r4, r9, r12}
	mov	r0, r1
	strd	lr, r6, [sp]
	bl	tlsf_heap.fitting.merge_next.4
	add	sp, #32
	pop.w	{r4, r5, r6, r7, r8, r9, r10, pc}
.LBB4_8:
	add.w	r4, r7, r6, lsl #3
	ldrd	r5, r7, [r0, #8]
	adds.w	r10, r5, #1
	ldr.w	r8, [r4, #4]
	adc	r4, r7, #0
	strd	r10, r4, [r0, #8]
	add	r0, sp, #8
	stm.w	r0, {r5, r7, r12}
	mov	r0, r1
	strd	lr, r6, [sp, #24]
	strd	r9, r8, [sp]
	bl	tlsf_heap.fitting.merge_before.4
	add	sp, #32
	pop.w	{r4, r5, r6, r7, r8, r9, r10, pc}
.LBB4_9:
	add	r1, r5
	strd	r6, r6, [r1, #16]
	lsrs	r1, r3, #4
	movs	r3, #1
	ldr	r6, [r0, #80]
	lsl.w	r7, r3, r1
	add.w	r1, r0, r1, lsl #2
	orrs	r7, r6
	str	r7, [r0, #80]
	and	r0, r2, #15
	ldr	r5, [r1, #84]
	lsl.w	r0, r3, r0
	orrs	r0, r5
	str	r0, [r1, #84]
	add	sp, #32
	pop.w	{r4, r5, r6, r7, r8, r9, r10, pc}
.Lfunc_end4:
	.size	tlsf_heap.heap.Heap.release_live.4, .Lfunc_end4-tlsf_heap.heap.Heap.release_live.4
	.cfi_endproc
	.section	.text.tlsf_heap.fitting.merge_before.4,"ax",%progbits
	.p2align	1
	.type	tlsf_heap.fitting.merge_before.4,%function
	.code	16
	.thumb_func
tlsf_heap.fitting.merge_before.4:
	.cfi_startproc
	push.w	{r4, r5, r6, r7, r8, r9, r10, r11, lr}
	.cfi_def_cfa_offset 36
	.cfi_offset lr, -4
	.cfi_offset r11, -8
	.cfi_offset r10, -12
	.cfi_offset r9, -16
	.cfi_offset r8, -20
	.cfi_offset r7, -24
	.cfi_offset r6, -28
	.cfi_offset r5, -32
	.cfi_offset r4, -36
	sub	sp, #4
	.cfi_def_cfa_offset 40
	ldr	r6, [sp, #64]
	lsls	r7, r2, #31
	ldrd	lr, r12, [sp, #48]
	ldrd	r4, r1, [sp, #40]
	ldr	r5, [sp, #56]
	bne	.LBB5_4
	orr	r2, r6, #1
	sub.w	r8, r5, r4, lsr #2
	adds	r2, r2, r4
	ldr	r7, [r0]
	adc	r1, r1, #0
	subs.w	r10, r2, #1
	sbc	r9, r1, #0
	add.w	r1, r7, r8, lsl #3
	ldrd	r6, r2, [r1, #16]
	lsl.w	r11, r8, #3
	cmp.w	r2, #-1
	ble	.LBB5_5
	add.w	r4, r7, r2, lsl #3
	adds	r3, r6, #1
	ldr	r1, [r4, #20]
	beq	.LBB5_8
	strd	r6, r1, [r4, #16]
	add.w	r1, r7, r6, lsl #3
	bic	r2, r2, #-2147483648
	str	r2, [r1, #20]
	b	.LBB5_13
.LBB5_4:
	ldr	r7, [sp, #68]
	str	r5, [sp, #56]
	strd	r6, r7, [sp, #64]
	strd	lr, r12, [sp, #48]
	strd	r4, r1, [sp, #40]
	add	sp, #4
	pop.w	{r4, r5, r6, r7, r8, r9, r10, r11, lr}
	b	tlsf_heap.fitting.merge_both.4
.LBB5_5:
	movs	r2, #16
	lsrs	r1, r4, #2
	orr.w	r2, r2, r10, lsr #2
	lsr.w	r4, r10, #2
	clz	r2, r2
	mov	r3, r9
	rsb.w	r2, r2, #27
	str	r4, [sp]
	lsrs	r4, r2
	add.w	r9, r4, r2, lsl #4
	orr	r2, r1, #16
	clz	r2, r2
	rsb.w	r2, r2, #27
	lsr.w	r4, r1, r2
	add.w	r2, r4, r2, lsl #4
	cmp	r2, r9
	bne	.LBB5_9
	movs	r4, #31
	mvn	r6, #-2147483648
	bics	r4, r5
	ldr	r2, [r0, #24]
	mvn	r1, #1
	tst.w	r5, #32
	lsr.w	r4, r6, r4
	movw	r6, #65528
	movt	r6, #8191
	it	ne
	movne.w	r1, #-1
	and.w	r6, r6, r5, lsr #3
	and	r5, r5, #31
	ldr	r7, [r2, r6]
	lsl.w	r1, r1, r5
	orr.w	r1, r1, r4
	and.w	r1, r1, r7
	str	r1, [r2, r6]
	mov.w	r1, #-1
	add	r2, r6
	it	ne
	mvnne	r1, #1
	lsls	r1, r5
	ldr	r7, [r0]
	ldr	r6, [r2, #4]
	orrs	r1, r4
	ands	r1, r6
	str.w	r10, [r7, r11]
	str	r1, [r2, #4]
	add.w	r1, r7, r11
	strd	r3, lr, [r1, #4]
	str.w	r12, [r1, #12]
	lsls.w	r1, r10, #30
	bmi.w	.LBB5_16
	ldr	r1, [sp]
	ldr	r0, [r0]
	add	r1, r8
	add.w	r0, r0, r1, lsl #3
	str.w	r8, [r0, #4]
	add	sp, #4
	pop.w	{r4, r5, r6, r7, r8, r9, r10, r11, pc}
.LBB5_8:
	mov.w	r2, #-1
	strd	r2, r1, [r4, #16]
	b	.LBB5_13
.LBB5_9:
	mov	r9, r3
	adds	r1, r6, #1
	beq	.LBB5_11
	add.w	r1, r7, r6, lsl #3
	mov.w	r3, #-1
	str	r3, [r1, #20]
	add.w	r1, r0, r2, lsl #2
	str.w	r6, [r1, #144]
	b	.LBB5_13
.LBB5_11:
	add.w	r1, r0, r2, lsl #2
	mov.w	r3, #-1
	lsrs	r2, r2, #4
	and	r4, r4, #15
	str.w	r3, [r1, #144]
	add.w	r3, r0, r2, lsl #2
	movs	r1, #1
	ldr	r6, [r3, #60]
	lsl.w	r4, r1, r4
	bics.w	r4, r6, r4
	str	r4, [r3, #60]
	bne	.LBB5_13
	ldr	r3, [r0, #56]
	lsls	r1, r2
	bic.w	r1, r3, r1
	str	r1, [r0, #56]
.LBB5_13:
	movs	r3, #31
	mvn	r4, #-2147483648
	bics	r3, r5
	ldr	r2, [r0, #24]
	mvn	r1, #1
	tst.w	r5, #32
	lsr.w	r3, r4, r3
	movw	r4, #65528
	movt	r4, #8191
	it	ne
	movne.w	r1, #-1
	and.w	r4, r4, r5, lsr #3
	and	r5, r5, #31
	ldr	r6, [r2, r4]
	lsl.w	r1, r1, r5
	orr.w	r1, r1, r3
	and.w	r1, r1, r6
	str	r1, [r2, r4]
	mov.w	r1, #-1
	add	r2, r4
	it	ne
	mvnne	r1, #1
	lsls	r1, r5
	ldr	r6, [r0]
	ldr	r4, [r2, #4]
	orrs	r1, r3
	ands	r1, r4
	str.w	r10, [r6, r11]
	str	r1, [r2, #4]
	add.w	r1, r6, r11
	lsr.w	r2, r10, #2
	mov.w	r6, #-1
	strd	r9, lr, [r1, #4]
	str.w	r12, [r1, #12]
	lsls.w	r1, r10, #30
	itttt	pl
	ldrpl	r1, [r0]
	addpl.w	r3, r2, r8
	addpl.w	r1, r1, r3, lsl #3
	strpl.w	r8, [r1, #4]
	orr	r1, r2, #16
	clz	r1, r1
	rsb.w	r1, r1, #27
	lsr.w	r3, r2, r1
	add.w	r2, r3, r1, lsl #4
	add.w	r1, r0, r2, lsl #2
	ldr.w	r7, [r1, #144]
	str.w	r8, [r1, #144]
	ldr	r1, [r0]
	cmp.w	r7, #-1
	ble	.LBB5_15
	add.w	r0, r1, r11
	strd	r7, r6, [r0, #16]
	add.w	r0, r1, r7, lsl #3
	str.w	r8, [r0, #20]
	add	sp, #4
	pop.w	{r4, r5, r6, r7, r8, r9, r10, r11, pc}
.LBB5_15:
	add	r1, r11
	strd	r6, r6, [r1, #16]
	lsrs	r1, r2, #4
	movs	r2, #1
	ldr	r6, [r0, #56]
	lsl.w	r7, r2, r1
	add.w	r1, r0, r1, lsl #2
	orrs	r7, r6
	str	r7, [r0, #56]
	and	r0, r3, #15
	ldr	r5, [r1, #60]
	lsl.w	r0, r2, r0
	orrs	r0, r5
	str	r0, [r1, #60]
.LBB5_16:
	add	sp, #4
	pop.w	{r4, r5, r6, r7, r8, r9, r10, r11, pc}
.Lfunc_end5:
	.size	tlsf_heap.fitting.merge_before.4, .Lfunc_end5-tlsf_heap.fitting.merge_before.4
	.cfi_endproc
	.section	.text.tlsf_heap.fitting.merge_both.4,"ax",%progbits
	.p2align	1
	.type	tlsf_heap.fitting.merge_both.4,%function
	.code	16
	.thumb_func
tlsf_heap.fitting.merge_both.4:
	.cfi_startproc
	push.w	{r4, r5, r6, r7, r8, r9, r10, r11, lr}
	.cfi_def_cfa_offset 36
	.cfi_offset lr, -4
	.cfi_offset r11, -8
	.cfi_offset r10, -12
	.cfi_offset r9, -16
	.cfi_offset r8, -20
	.cfi_offset r7, -24
	.cfi_offset r6, -28
	.cfi_offset r5, -32
	.cfi_offset r4, -36
	sub	sp, #28
	.cfi_def_cfa_offset 64
	ldr.w	r10, [sp, #88]
	lsrs	r4, r2, #2
	ldr.w	r9, [sp, #80]
	mov.w	lr, #-1
	ldr	r7, [r0]
	add.w	r1, r9, r10, lsr #2
	ldr.w	r12, [sp, #64]
	str	r4, [sp, #20]
	add.w	r1, r7, r1, lsl #3
	ldrd	r3, r5, [r1, #16]
	cmp	r5, #0
	bmi	.LBB6_3
	add.w	r4, r7, r5, lsl #3
	adds	r1, r3, #1
	ldr	r6, [r4, #20]
	beq	.LBB6_5
	add.w	r1, r7, r3, lsl #3
	strd	r3, r6, [r4, #16]
	bic	r3, r5, #-2147483648
	str	r3, [r1, #20]
	b	.LBB6_8
.LBB6_3:
	orr	r1, r4, #16
	clz	r1, r1
	rsb.w	r1, r1, #27
	lsrs	r4, r1
	add.w	r5, r4, r1, lsl #4
	adds	r1, r3, #1
	beq	.LBB6_6
	add.w	r1, r7, r3, lsl #3
	ldr	r7, [r1, #20]
	orr.w	r7, r7, lr
	str	r7, [r1, #20]
	add.w	r1, r0, r5, lsl #2
	str.w	r3, [r1, #144]
	b	.LBB6_8
.LBB6_5:
	mov.w	r1, #-1
	strd	r1, r6, [r4, #16]
	b	.LBB6_8
.LBB6_6:
	add.w	r1, r0, r5, lsl #2
	mov.w	r3, #-1
	str.w	r3, [r1, #144]
	lsrs	r3, r5, #4
	add.w	r7, r0, r3, lsl #2
	and	r5, r4, #15
	movs	r1, #1
	ldr	r6, [r7, #60]
	lsl.w	r5, r1, r5
	bics	r6, r5
	str	r6, [r7, #60]
	bne	.LBB6_8
	ldr	r7, [r0, #56]
	lsls	r1, r3
	bic.w	r1, r7, r1
	str	r1, [r0, #56]
.LBB6_8:
	sub.w	r3, r9, r12, lsr #2
	ldr	r7, [r0]
	ldr.w	r11, [sp, #68]
	add.w	r1, r7, r3, lsl #3
	mov	r8, r3
	ldrd	r5, r4, [r1, #16]
	lsls	r1, r3, #3
	cmp	r4, #0
	str	r1, [sp, #16]
	bmi	.LBB6_11
	add.w	r6, r7, r4, lsl #3
	adds	r3, r5, #1
	ldr	r1, [r6, #20]
	beq	.LBB6_13
	strd	r5, r1, [r6, #16]
	add.w	r1, r7, r5, lsl #3
	bic	r3, r4, #-2147483648
	str	r3, [r1, #20]
	b	.LBB6_16
.LBB6_11:
	lsr.w	r1, r12, #2
	orr	r3, r1, #16
	clz	r3, r3
	rsb.w	r3, r3, #27
	lsr.w	r6, r1, r3
	add.w	r4, r6, r3, lsl #4
	adds	r1, r5, #1
	beq	.LBB6_14
	add.w	r1, r7, r5, lsl #3
	ldr	r3, [r1, #20]
	orr.w	r3, r3, lr
	str	r3, [r1, #20]
	add.w	r1, r0, r4, lsl #2
	str.w	r5, [r1, #144]
	b	.LBB6_16
.LBB6_13:
	mov.w	r3, #-1
	strd	r3, r1, [r6, #16]
	b	.LBB6_16
.LBB6_14:
	add.w	r1, r0, r4, lsl #2
	mov.w	r3, #-1
	lsrs	r4, r4, #4
	and	r6, r6, #15
	str.w	r3, [r1, #144]
	add.w	r3, r0, r4, lsl #2
	movs	r1, #1
	ldr	r5, [r3, #60]
	lsl.w	r6, r1, r6
	bics	r5, r6
	str	r5, [r3, #60]
	bne	.LBB6_16
	ldr	r3, [r0, #56]
	lsls	r1, r4
	bic.w	r1, r3, r1
	str	r1, [r0, #56]
.LBB6_16:
	add.w	r1, r10, r2
	ldr	r3, [r0, #24]
	adds.w	r1, r1, r12
	mvn	r6, #7
	adc	r4, r11, #0
	subs	r2, r1, #1
	sbc	r1, r4, #0
	str	r1, [sp, #12]
	movs	r1, #31
	and.w	lr, r6, r9, lsr #3
	bic.w	r1, r1, r9
	mvn	r7, #-2147483648
	str	r0, [sp, #24]
	and	r12, r9, #31
	lsr.w	r0, r7, r1
	mvn	r1, #1
	tst.w	r9, #32
	it	ne
	movne.w	r1, #-1
	ldr.w	r10, [r3, lr]
	lsl.w	r1, r1, r12
	orr.w	r1, r1, r0
	add.w	r11, r3, lr
	mvn	r5, #1
	and.w	r1, r1, r10
	str.w	r1, [r3, lr]
	mov.w	r1, #-1
	ldr.w	r4, [r11, #4]
	add.w	lr, r8, r2, lsr #2
	str	r4, [sp, #8]
	it	ne
	mvnne	r1, #1
	ldr	r3, [sp, #20]
	mov	r4, r8
	str.w	lr, [sp, #4]
	lsl.w	r1, r1, r12
	sub.w	r3, lr, r3
	orrs	r1, r0
	tst.w	r3, #32
	it	ne
	movne.w	r5, #-1
	ldr	r7, [sp, #24]
	and	r8, r3, #31
	ldr	r0, [sp, #24]
	mov.w	r10, #-1
	lsl.w	r5, r5, r8
	ldr.w	r12, [sp, #16]
	ldr.w	r9, [r7, #24]
	and.w	r7, r6, r3, lsr #3
	mov.w	r6, #31
	bic.w	r3, r6, r3
	mvn	r6, #-2147483648
	ldr.w	lr, [r9, r7]
	lsr.w	r3, r6, r3
	ldr	r6, [sp, #8]
	orr.w	r5, r5, r3
	and.w	r5, r5, lr
	str.w	r5, [r9, r7]
	and.w	r1, r1, r6
	str.w	r1, [r11, #4]
	add	r7, r9
	ldr	r1, [r0]
	ldr	r6, [r7, #4]
	str.w	r2, [r1, r12]
	it	ne
	mvnne	r10, #1
	lsl.w	r5, r10, r8
	orrs	r3, r5
	add	r1, r12
	ands	r3, r6
	str	r3, [r7, #4]
	ldr	r3, [sp, #12]
	lsrs	r7, r2, #2
	str	r3, [r1, #4]
	mov.w	r5, #-1
	ldr	r3, [sp, #72]
	str	r3, [r1, #8]
	ldr	r3, [sp, #76]
	str	r3, [r1, #12]
	lsls	r1, r2, #30
	itttt	pl
	ldrpl	r1, [r0]
	ldrpl	r2, [sp, #4]
	addpl.w	r1, r1, r2, lsl #3
	strpl	r4, [r1, #4]
	orr	r1, r7, #16
	clz	r1, r1
	rsb.w	r2, r1, #27
	lsr.w	r1, r7, r2
	add.w	r2, r1, r2, lsl #4
	add.w	r3, r0, r2, lsl #2
	ldr.w	r7, [r3, #144]
	str.w	r4, [r3, #144]
	ldr	r6, [r0]
	cmp.w	r7, #-1
	ble	.LBB6_18
	add.w	r0, r6, r12
	strd	r7, r5, [r0, #16]
	add.w	r0, r6, r7, lsl #3
	str	r4, [r0, #20]
	add	sp, #28
	pop.w	{r4, r5, r6, r7, r8, r9, r10, r11, pc}
.LBB6_18:
	add.w	r3, r6, r12
	mov.w	r7, #-1
	lsrs	r2, r2, #4
	strd	r7, r5, [r3, #16]
	movs	r3, #1
	ldr	r6, [r0, #56]
	lsl.w	r7, r3, r2
	add.w	r2, r0, r2, lsl #2
	orrs	r7, r6
	str	r7, [r0, #56]
	and	r0, r1, #15
	ldr	r5, [r2, #60]
	lsl.w	r0, r3, r0
	orrs	r0, r5
	str	r0, [r2, #60]
	add	sp, #28
	pop.w	{r4, r5, r6, r7, r8, r9, r10, r11, pc}
.Lfunc_end6:
	.size	tlsf_heap.fitting.merge_both.4, .Lfunc_end6-tlsf_heap.fitting.merge_both.4
	.cfi_endproc
	.section	.text.tlsf_heap.fitting.merge_next.4,"ax",%progbits
	.p2align	1
	.type	tlsf_heap.fitting.merge_next.4,%function
	.code	16
	.thumb_func
tlsf_heap.fitting.merge_next.4:
	.cfi_startproc
	push.w	{r4, r5, r6, r7, r8, r9, r10, r11, lr}
	.cfi_def_cfa_offset 36
	.cfi_offset lr, -4
	.cfi_offset r11, -8
	.cfi_offset r10, -12
	.cfi_offset r9, -16
	.cfi_offset r8, -20
	.cfi_offset r7, -24
	.cfi_offset r6, -28
	.cfi_offset r5, -32
	.cfi_offset r4, -36
	sub	sp, #4
	.cfi_def_cfa_offset 40
	ldr.w	r10, [sp, #40]
	mov.w	r12, #-1
	ldr.w	r11, [sp, #56]
	lsrs	r6, r2, #2
	ldr	r7, [r0]
	add.w	r1, r11, r10, lsr #2
	ldr.w	r8, [sp, #48]
	ldr.w	r9, [sp, #44]
	add.w	r1, r7, r1, lsl #3
	ldrd	r3, r5, [r1, #16]
	cmp	r5, #0
	bmi	.LBB7_3
	add.w	r4, r7, r5, lsl #3
	mov.w	lr, #-1
	adds.w	r12, r3, #1
	ldr	r1, [r4, #20]
	beq	.LBB7_5
	strd	r3, r1, [r4, #16]
	add.w	r1, r7, r3, lsl #3
	bic	r3, r5, #-2147483648
	str	r3, [r1, #20]
	b	.LBB7_8
.LBB7_3:
	orr	r1, r6, #16
	clz	r1, r1
	rsb.w	r1, r1, #27
	lsr.w	r4, r6, r1
	add.w	r5, r4, r1, lsl #4
	adds	r1, r3, #1
	beq	.LBB7_6
	add.w	r1, r7, r3, lsl #3
	mov.w	lr, #-1
	ldr	r7, [r1, #20]
	orr.w	r7, r7, r12
	str	r7, [r1, #20]
	add.w	r1, r0, r5, lsl #2
	str.w	r3, [r1, #144]
	b	.LBB7_8
.LBB7_5:
	mov.w	r3, #-1
	strd	r3, r1, [r4, #16]
	b	.LBB7_8
.LBB7_6:
	add.w	r1, r0, r5, lsl #2
	mov.w	r3, #-1
	and	r4, r4, #15
	mov.w	lr, #-1
	str.w	r3, [r1, #144]
	lsrs	r3, r5, #4
	add.w	r7, r0, r3, lsl #2
	movs	r1, #1
	lsl.w	r4, r1, r4
	ldr	r5, [r7, #60]
	bics	r5, r4
	str	r5, [r7, #60]
	bne	.LBB7_8
	ldr	r7, [r0, #56]
	lsls	r1, r3
	bic.w	r1, r7, r1
	str	r1, [r0, #56]
.LBB7_8:
	adds.w	r4, r2, r10
	ldr	r7, [r0, #24]
	adc	r12, r9, #0
	mvn	r5, #7
	add.w	r9, r11, r4, lsr #2
	mvn	r1, #1
	sub.w	r6, r9, r6
	movs	r3, #31
	and	r2, r6, #31
	tst.w	r6, #32
	and.w	r5, r5, r6, lsr #3
	it	ne
	movne.w	r1, #-1
	bic.w	r3, r3, r6
	mvn	r6, #-2147483648
	ldr.w	r10, [r7, r5]
	lsl.w	r1, r1, r2
	lsr.w	r3, r6, r3
	orr.w	r1, r1, r3
	and.w	r1, r1, r10
	str	r1, [r7, r5]
	add	r5, r7
	ldr	r1, [r0]
	mov.w	r7, #-1
	ldr	r6, [r5, #4]
	str.w	r4, [r1, r11, lsl #3]
	it	ne
	mvnne	r7, #1
	lsl.w	r2, r7, r2
	orrs	r2, r3
	add.w	r1, r1, r11, lsl #3
	ands	r2, r6
	str	r2, [r5, #4]
	ldr	r2, [sp, #52]
	lsrs	r7, r4, #2
	strd	r12, r8, [r1, #4]
	lsl.w	r3, r11, #3
	str	r2, [r1, #12]
	lsls	r1, r4, #30
	ittt	pl
	ldrpl	r1, [r0]
	addpl.w	r1, r1, r9, lsl #3
	strpl.w	r11, [r1, #4]
	orr	r1, r7, #16
	clz	r1, r1
	rsb.w	r1, r1, #27
	lsr.w	r2, r7, r1
	add.w	r7, r2, r1, lsl #4
	add.w	r6, r0, r7, lsl #2
	ldr.w	r1, [r6, #144]
	str.w	r11, [r6, #144]
	ldr	r6, [r0]
	cmp.w	r1, #-1
	ble	.LBB7_10
	adds	r0, r6, r3
	strd	r1, lr, [r0, #16]
	add.w	r0, r6, r1, lsl #3
	str.w	r11, [r0, #20]
	add	sp, #4
	pop.w	{r4, r5, r6, r7, r8, r9, r10, r11, pc}
.LBB7_10:
	adds	r1, r6, r3
	mov.w	r3, #-1
	strd	r3, lr, [r1, #16]
	lsrs	r1, r7, #4
	movs	r3, #1
	ldr	r6, [r0, #56]
	lsl.w	r7, r3, r1
	add.w	r1, r0, r1, lsl #2
	orrs	r7, r6
	str	r7, [r0, #56]
	and	r0, r2, #15
	ldr	r5, [r1, #60]
	lsl.w	r0, r3, r0
	orrs	r0, r5
	str	r0, [r1, #60]
	add	sp, #4
	pop.w	{r4, r5, r6, r7, r8, r9, r10, r11, pc}
.Lfunc_end7:
	.size	tlsf_heap.fitting.merge_next.4, .Lfunc_end7-tlsf_heap.fitting.merge_next.4
	.cfi_endproc
	.section	.text.tlsf_heap.heap.Heap.resize_live.5,"ax",%progbits
	.p2align	1
	.type	tlsf_heap.heap.Heap.resize_live.5,%function
	.code	16
	.thumb_func
tlsf_heap.heap.Heap.resize_live.5:
	.cfi_startproc
	push.w	{r4, r5, r6, r7, r8, r9, lr}
	.cfi_def_cfa_offset 28
	.cfi_offset lr, -4
	.cfi_offset r9, -8
	.cfi_offset r8, -12
	.cfi_offset r7, -16
	.cfi_offset r6, -20
	.cfi_offset r5, -24
	.cfi_offset r4, -28
	sub	sp, #28
	.cfi_def_cfa_offset 56
	mov	lr, r0
	ldr	r1, [r1, #4]
	ldr	r6, [lr, #24]!
	add.w	r7, r6, r1, lsl #3
	ldr.w	r12, [r6, r1, lsl #3]
	ldr	r3, [r7, #4]
	lsr.w	r9, r12, #2
	cmp.w	r2, r12, lsr #2
	bls	.LBB8_5
	lsls.w	r4, r12, #30
	bmi	.LBB8_3
	add.w	r7, r9, r1
	ldr.w	r5, [r6, r7, lsl #3]
	lsls	r4, r5, #31
	bne	.LBB8_9
.LBB8_3:
	movs	r5, #0
	mov.w	r8, #0
	add.w	r4, r9, r5, lsr #2
	cmp	r4, r2
	bhs	.LBB8_10
.LBB8_4:
	movs	r0, #1
	movs	r1, #5
	add	sp, #28
	pop.w	{r4, r5, r6, r7, r8, r9, pc}
.LBB8_5:
	ldrd	r5, r6, [r0, #8]
	and.w	r4, r5, r6
	adds	r4, #1
	beq	.LBB8_12
	movs	r4, #0
	strd	r4, r4, [r7, #16]
	adds	r4, r2, #4
	mov	r7, r9
	cmp	r9, r4
	blo	.LBB8_8
	strd	r5, r6, [sp, #8]
	mov	r5, r0
	str	r2, [sp]
	mov	r7, r2
	mov	r0, lr
	mov	r2, r12
	bl	tlsf_heap.refitting.split_off.5
	mov	r0, r5
.LBB8_8:
	add.w	r3, r0, #8
	sub.w	r7, r7, r9
	adds	r0, #8
	ldm	r3, {r1, r2, r3}
	add	r3, r7
	adds	r1, #1
	adc	r2, r2, #0
	stm	r0!, {r1, r2, r3}
	movs	r1, #0
	movs	r0, #0
	add	sp, #28
	pop.w	{r4, r5, r6, r7, r8, r9, pc}
.LBB8_9:
	add.w	r4, r6, r7, lsl #3
	ldr.w	r8, [r4, #4]
	add.w	r4, r9, r5, lsr #2
	cmp	r4, r2
	blo	.LBB8_4
.LBB8_10:
	ldrd	r7, r6, [r0, #8]
	and.w	r4, r7, r6
	adds	r4, #1
	beq	.LBB8_12
	strd	r5, r8, [sp]
	mov	r5, r0
	str	r2, [sp, #8]
	mov	r0, lr
	mov	r2, r12
	lsls	r4, r1, #3
	strd	r7, r6, [sp, #16]
	bl	tlsf_heap.refitting.recut.5
	ldr	r2, [r5, #24]
	movs	r3, #0
	sub.w	r0, r0, r9
	mov	r1, r5
	add	r2, r4
	strd	r3, r3, [r2, #16]
	ldrd	r2, r3, [r5, #16]
	add	r0, r2
	str	r0, [r5, #16]
	cmp	r3, r0
	it	lo
	strlo	r0, [r1, #20]
	ldrd	r0, r2, [r1, #8]
	adds	r0, #1
	adc	r2, r2, #0
	strd	r0, r2, [r1, #8]
	movs	r1, #0
	movs	r0, #0
	add	sp, #28
	pop.w	{r4, r5, r6, r7, r8, r9, pc}
.LBB8_12:
	movs	r1, #1
	movs	r0, #1
	add	sp, #28
	pop.w	{r4, r5, r6, r7, r8, r9, pc}
.Lfunc_end8:
	.size	tlsf_heap.heap.Heap.resize_live.5, .Lfunc_end8-tlsf_heap.heap.Heap.resize_live.5
	.cfi_endproc
	.section	.text.tlsf_heap.refitting.split_off.5,"ax",%progbits
	.p2align	1
	.type	tlsf_heap.refitting.split_off.5,%function
	.code	16
	.thumb_func
tlsf_heap.refitting.split_off.5:
	.cfi_startproc
	push.w	{r4, r5, r6, r7, r8, r9, r10, r11, lr}
	.cfi_def_cfa_offset 36
	.cfi_offset lr, -4
	.cfi_offset r11, -8
	.cfi_offset r10, -12
	.cfi_offset r9, -16
	.cfi_offset r8, -20
	.cfi_offset r7, -24
	.cfi_offset r6, -28
	.cfi_offset r5, -32
	.cfi_offset r4, -36
	sub	sp, #28
	.cfi_def_cfa_offset 64
	ldrd	r9, lr, [sp, #72]
	lsls	r6, r2, #30
	ldr	r5, [sp, #64]
	ldr.w	r12, [r0]
	bmi	.LBB9_2
	add.w	r4, r1, r2, lsr #2
	ldr.w	r6, [r12, r4, lsl #3]
	lsls	r7, r6, #31
	bne	.LBB9_5
.LBB9_2:
	orr	r7, r2, #1
	add.w	lr, r5, r1
	sub.w	r6, r7, r5, lsl #2
	mvn	r8, #7
	subs	r7, r7, r6
	str.w	r7, [r12, r1, lsl #3]
	and	r7, lr, #63
	ldr	r4, [r0]
	sbc	r10, r3, #0
	movs	r3, #1
	subs.w	r11, r7, #32
	lsl.w	r3, r3, r7
	and.w	r8, r8, lr, lsr #3
	str.w	r6, [r4, lr, lsl #3]
	add.w	r4, r4, lr, lsl #3
	rsb.w	r7, r7, #32
	str.w	r9, [r4, #8]
	it	pl
	movpl	r3, #0
	ldr	r5, [r0, #24]
	ldr.w	r9, [r5, r8]
	orr.w	r3, r3, r9
	str.w	r3, [r5, r8]
	add.w	r3, r12, r1, lsl #3
	str.w	r10, [r3, #4]
	ldr	r3, [sp, #76]
	str	r3, [r4, #12]
	add.w	r3, r5, r8
	str	r1, [r4, #4]
	mov.w	r4, #1
	ldr	r5, [r3, #4]
	lsr.w	r7, r4, r7
	it	pl
	lslpl.w	r7, r4, r11
	orrs	r7, r5
	str	r7, [r3, #4]
	lsls	r3, r6, #30
	lsr.w	r3, r2, #2
	itttt	pl
	ldrpl	r2, [r0]
	addpl	r1, r3
	addpl.w	r1, r2, r1, lsl #3
	strpl.w	lr, [r1, #4]
	ldr	r1, [sp, #64]
	lsl.w	r2, lr, #3
	subs	r1, r3, r1
	orr	r3, r1, #32
	clz	r3, r3
	rsb.w	r3, r3, #26
	lsrs	r1, r3
	add.w	r3, r1, r3, lsl #5
	add.w	r6, r0, r3, lsl #2
	ldr.w	r7, [r6, #144]
	str.w	lr, [r6, #144]
	mov.w	r6, #-1
	ldr	r5, [r0]
	cmp.w	r7, #-1
	ble	.LBB9_4
	adds	r0, r5, r2
	strd	r7, r6, [r0, #16]
	add.w	r0, r5, r7, lsl #3
	str.w	lr, [r0, #20]
	add	sp, #28
	pop.w	{r4, r5, r6, r7, r8, r9, r10, r11, pc}
.LBB9_4:
	add	r2, r5
	strd	r6, r6, [r2, #16]
	lsrs	r2, r3, #5
	movs	r3, #1
	ldr	r6, [r0, #56]
	lsl.w	r7, r3, r2
	add.w	r2, r0, r2, lsl #2
	orrs	r7, r6
	str	r7, [r0, #56]
	and	r0, r1, #31
	ldr	r5, [r2, #60]
	lsl.w	r0, r3, r0
	orrs	r0, r5
	str	r0, [r2, #60]
	add	sp, #28
	pop.w	{r4, r5, r6, r7, r8, r9, r10, r11, pc}
.LBB9_5:
	add.w	r7, r12, r4, lsl #3
	ldr	r7, [r7, #4]
	strd	r9, lr, [sp, #16]
	str	r5, [sp, #8]
	strd	r6, r7, [sp]
	bl	tlsf_heap.refitting.recut.5
	add	sp, #28
	pop.w	{r4, r5, r6, r7, r8, r9, r10, r11, pc}
.Lfunc_end9:
	.size	tlsf_heap.refitting.split_off.5, .Lfunc_end9-tlsf_heap.refitting.split_off.5
	.cfi_endproc
	.section	.text.tlsf_heap.refitting.recut.5,"ax",%progbits
	.p2align	1
	.type	tlsf_heap.refitting.recut.5,%function
	.code	16
	.thumb_func
tlsf_heap.refitting.recut.5:
	.cfi_startproc
	push.w	{r4, r5, r6, r7, r8, r9, r10, r11, lr}
	.cfi_def_cfa_offset 36
	.cfi_offset lr, -4
	.cfi_offset r11, -8
	.cfi_offset r10, -12
	.cfi_offset r9, -16
	.cfi_offset r8, -20
	.cfi_offset r7, -24
	.cfi_offset r6, -28
	.cfi_offset r5, -32
	.cfi_offset r4, -36
	sub	sp, #12
	.cfi_def_cfa_offset 48
	ldr	r6, [r0]
	add.w	r7, r1, r2, lsr #2
	ldr.w	lr, [sp, #48]
	add.w	r7, r6, r7, lsl #3
	ldr.w	r12, [sp, #56]
	ldrd	r5, r7, [r7, #16]
	cmp	r7, #0
	lsr.w	r10, lr, #2
	bmi	.LBB10_3
	add.w	r9, r6, r7, lsl #3
	adds	r4, r5, #1
	ldr.w	r8, [r9, #20]
	beq	.LBB10_5
	add.w	r4, r6, r5, lsl #3
	strd	r5, r8, [r9, #16]
	bic	r5, r7, #-2147483648
	str	r5, [r4, #20]
	b	.LBB10_8
.LBB10_3:
	orr	r4, r10, #32
	clz	r4, r4
	rsb.w	r4, r4, #26
	lsr.w	r7, r10, r4
	add.w	r8, r7, r4, lsl #5
	adds	r4, r5, #1
	beq	.LBB10_6
	add.w	r4, r6, r5, lsl #3
	mov.w	r6, #-1
	str	r6, [r4, #20]
	add.w	r4, r0, r8, lsl #2
	str.w	r5, [r4, #144]
	b	.LBB10_8
.LBB10_5:
	mov.w	r4, #-1
	strd	r4, r8, [r9, #16]
	b	.LBB10_8
.LBB10_6:
	add.w	r4, r0, r8, lsl #2
	mov.w	r5, #-1
	and	r7, r7, #31
	str.w	r5, [r4, #144]
	lsr.w	r5, r8, #5
	add.w	r6, r0, r5, lsl #2
	mov.w	r8, #1
	lsl.w	r7, r8, r7
	ldr	r4, [r6, #60]
	bics	r4, r7
	str	r4, [r6, #60]
	bne	.LBB10_8
	ldr	r4, [r0, #56]
	lsl.w	r5, r8, r5
	bics	r4, r5
	str	r4, [r0, #56]
.LBB10_8:
	adds.w	r6, lr, r2
	movw	r8, #65528
	adc	r9, r3, #0
	add.w	r3, r12, #4
	add.w	r7, r1, r6, lsr #2
	lsr.w	r11, r6, #2
	movt	r8, #8191
	cmp.w	r3, r6, lsr #2
	str	r7, [sp, #8]
	bls	.LBB10_10
	sub.w	r3, r7, r10
	ldr	r4, [r0, #24]
	mvn	r7, #1
	and	lr, r3, #31
	and.w	r2, r8, r3, lsr #3
	tst.w	r3, #32
	it	ne
	movne.w	r7, #-1
	lsl.w	r8, r7, lr
	mov.w	r7, #31
	bic.w	r3, r7, r3
	ldr.w	r12, [r4, r2]
	mvn	r7, #-2147483648
	lsr.w	r3, r7, r3
	orr.w	r8, r8, r3
	add.w	r7, r4, r2
	and.w	r5, r12, r8
	str	r5, [r4, r2]
	mov.w	r2, #-1
	ldr.w	r10, [r7, #4]
	it	ne
	mvnne	r2, #1
	lsl.w	r2, r2, lr
	orrs	r2, r3
	and.w	r2, r2, r10
	str	r2, [r7, #4]
	lsls	r2, r6, #30
	itttt	pl
	ldrpl	r2, [r0]
	ldrpl	r3, [sp, #8]
	addpl.w	r2, r2, r3, lsl #3
	strpl	r1, [r2, #4]
	ldr	r0, [r0]
	subs	r2, r6, #1
	str.w	r2, [r0, r1, lsl #3]
	add.w	r0, r0, r1, lsl #3
	sbc	r1, r9, #0
	str	r1, [r0, #4]
	mov	r0, r11
	add	sp, #12
	pop.w	{r4, r5, r6, r7, r8, r9, r10, r11, pc}
.LBB10_10:
	ldr	r4, [r0]
	sub.w	r2, r7, r10
	str.w	r11, [sp, #4]
	sub.w	r11, r6, r12, lsl #2
	subs.w	r3, r6, r11
	ldr	r5, [sp, #64]
	str.w	r3, [r4, r1, lsl #3]
	add.w	r3, r12, r1
	mov.w	lr, #31
	ldr	r6, [r0]
	and	r10, r2, #31
	sbc	r9, r9, #0
	tst.w	r2, #32
	bic.w	lr, lr, r2
	mvn	r12, #-2147483648
	str.w	r11, [r6, r3, lsl #3]
	add.w	r6, r6, r3, lsl #3
	lsr.w	r12, r12, lr
	str	r5, [r6, #8]
	mvn	r5, #1
	it	ne
	movne.w	r5, #-1
	and.w	r2, r8, r2, lsr #3
	lsl.w	r5, r5, r10
	orr.w	lr, r5, r12
	ldr	r5, [r0, #24]
	ldr.w	r8, [r5, r2]
	and.w	r7, r8, lr
	str	r7, [r5, r2]
	add.w	r7, r4, r1, lsl #3
	add	r2, r5
	str.w	r9, [r7, #4]
	ldr	r7, [sp, #68]
	str	r1, [r6, #4]
	mov.w	r1, #-1
	str	r7, [r6, #12]
	it	ne
	mvnne	r1, #1
	lsl.w	r1, r1, r10
	ldr	r7, [r2, #4]
	orr.w	r1, r1, r12
	mov.w	r12, #1
	ands	r1, r7
	str	r1, [r2, #4]
	and	r1, r3, #63
	movw	r2, #65528
	subs.w	lr, r1, #32
	movt	r2, #8191
	lsl.w	r7, r12, r1
	and.w	r5, r2, r3, lsr #3
	it	pl
	movpl	r7, #0
	ldr	r4, [r0, #24]
	rsb.w	r1, r1, #32
	ldr	r2, [r4, r5]
	lsr.w	r1, r12, r1
	orr.w	r2, r2, r7
	add.w	r7, r4, r5
	str	r2, [r4, r5]
	ldr	r6, [r7, #4]
	it	pl
	lslpl.w	r1, r12, lr
	orrs	r1, r6
	str	r1, [r7, #4]
	lsls.w	r1, r11, #30
	itttt	pl
	ldrpl	r1, [r0]
	ldrpl	r2, [sp, #8]
	addpl.w	r1, r1, r2, lsl #3
	strpl	r3, [r1, #4]
	ldr.w	r11, [sp, #56]
	lsls	r7, r3, #3
	ldr	r1, [sp, #4]
	sub.w	r1, r1, r11
	orr	r2, r1, #32
	clz	r2, r2
	rsb.w	r2, r2, #26
	lsrs	r1, r2
	add.w	r2, r1, r2, lsl #5
	add.w	r5, r0, r2, lsl #2
	ldr.w	r6, [r5, #144]
	str.w	r3, [r5, #144]
	mov.w	r5, #-1
	ldr	r4, [r0]
	cmp.w	r6, #-1
	ble	.LBB10_12
	adds	r0, r4, r7
	strd	r6, r5, [r0, #16]
	add.w	r0, r4, r6, lsl #3
	str	r3, [r0, #20]
	mov	r0, r11
	add	sp, #12
	pop.w	{r4, r5, r6, r7, r8, r9, r10, r11, pc}
.LBB10_12:
	adds	r3, r4, r7
	lsrs	r2, r2, #5
	strd	r5, r5, [r3, #16]
	movs	r3, #1
	ldr	r6, [r0, #56]
	lsl.w	r7, r3, r2
	add.w	r2, r0, r2, lsl #2
	orrs	r7, r6
	str	r7, [r0, #56]
	and	r0, r1, #31
	ldr	r5, [r2, #60]
	lsl.w	r0, r3, r0
	orrs	r0, r5
	str	r0, [r2, #60]
	mov	r0, r11
	add	sp, #12
	pop.w	{r4, r5, r6, r7, r8, r9, r10, r11, pc}
.Lfunc_end10:
	.size	tlsf_heap.refitting.recut.5, .Lfunc_end10-tlsf_heap.refitting.recut.5
	.cfi_endproc
	.section	.text.tlsf_heap.heap.Heap.release_live.5,"ax",%progbits
	.p2align	1
	.type	tlsf_heap.heap.Heap.release_live.5,%function
	.code	16
	.thumb_func
tlsf_heap.heap.Heap.release_live.5:
	.cfi_startproc
	push.w	{r4, r5, r6, r7, r8, r9, r10, lr}
	.cfi_def_cfa_offset 32
	.cfi_offset lr, -4
	.cfi_offset r10, -8
	.cfi_offset r9, -12
	.cfi_offset r8, -16
	.cfi_offset r7, -20
	.cfi_offset r6, -24
	.cfi_offset r5, -28
	.cfi_offset r4, -32
	sub	sp, #32
	.cfi_def_cfa_offset 64
	ldr.w	r12, [r1, #4]
	mov	r1, r0
	ldr	r7, [r1, #24]!
	ldr	r2, [r1, #-8]
	add.w	r5, r7, r12, lsl #3
	ldr.w	lr, [r7, r12, lsl #3]
	sub.w	r2, r2, lr, lsr #2
	lsr.w	r8, lr, #2
	str	r2, [r1, #-8]
	lsls.w	r2, lr, #30
	bmi	.LBB11_2
	add.w	r3, r8, r12
	ldr.w	r2, [r7, r3, lsl #3]
	add.w	r3, r7, r3, lsl #3
	ldr	r3, [r3, #4]
	b	.LBB11_3
.LBB11_2:
	movs	r2, #0
	movs	r3, #0
.LBB11_3:
	ldr	r6, [r5, #4]
	cmp.w	r12, #0
	itt	ne
	ldrne.w	r9, [r7, r6, lsl #3]
	lslsne.w	r4, r9, #31
	bne	.LBB11_8
	ldrd	r4, r9, [r0, #8]
	lsls	r7, r2, #31
	bne	.LBB11_7
	orr	r2, lr, #1
	str	r4, [r5, #8]
	str	r2, [r5]
	lsl.w	r1, r12, #3
	str.w	r9, [r5, #12]
	ldr	r2, [r0, #8]
	str	r6, [r5, #4]
	ldr	r3, [r0, #12]
	adds	r2, #1
	adc	r3, r3, #0
	strd	r2, r3, [r0, #8]
	orr	r2, r8, #32
	clz	r2, r2
	rsb.w	r3, r2, #26
	lsr.w	r2, r8, r3
	add.w	r3, r2, r3, lsl #5
	add.w	r6, r0, r3, lsl #2
	ldr.w	r7, [r6, #168]
	str.w	r12, [r6, #168]
	mov.w	r6, #-1
	ldr	r5, [r0, #24]
	cmp.w	r7, #-1
	ble	.LBB11_9
	adds	r0, r5, r1
	strd	r7, r6, [r0, #16]
	add.w	r0, r5, r7, lsl #3
	str.w	r12, [r0, #20]
	add	sp, #32
	pop.w	{r4, r5, r6, r7, r8, r9, r10, pc}
.LBB11_7:
	adds	r5, r4, #1
	adc	r7, r9, #0
	strd	r5, r7, [r0, #8]
	add	r0, sp, #8
	stm.w	r0, {r4, r9, r12}
	mov	r0, r1
	strd	lr, r6, [sp]
	bl	tlsf_heap.fitting.merge_next.5
	add	sp, #32
	pop.w	{r4, r5, r6, r7, r8, r9, r10, pc}
.LBB11_8:
	add.w	r4, r7, r6, lsl #3
	ldrd	r5, r7, [r0, #8]
	adds.w	r10, r5, #1
	ldr.w	r8, [r4, #4]
	adc	r4, r7, #0
	strd	r10, r4, [r0, #8]
	add	r0, sp, #8
	stm.w	r0, {r5, r7, r12}
	mov	r0, r1
	strd	lr, r6, [sp, #24]
	strd	r9, r8, [sp]
	bl	tlsf_heap.fitting.merge_before.5
	add	sp, #32
	pop.w	{r4, r5, r6, r7, r8, r9, r10, pc}
.LBB11_9:
	add	r1, r5
	strd	r6, r6, [r1, #16]
	lsrs	r1, r3, #5
	movs	r3, #1
	ldr	r6, [r0, #80]
	lsl.w	r7, r3, r1
	add.w	r1, r0, r1, lsl #2
	orrs	r7, r6
	str	r7, [r0, #80]
	and	r0, r2, #31
	ldr	r5, [r1, #84]
	lsl.w	r0, r3, r0
	orrs	r0, r5
	str	r0, [r1, #84]
	add	sp, #32
	pop.w	{r4, r5, r6, r7, r8, r9, r10, pc}
.Lfunc_end11:
	.size	tlsf_heap.heap.Heap.release_live.5, .Lfunc_end11-tlsf_heap.heap.Heap.release_live.5
	.cfi_endproc
	.section	.text.tlsf_heap.fitting.merge_before.5,"ax",%progbits
	.p2align	1
	.type	tlsf_heap.fitting.merge_before.5,%function
	.code	16
	.thumb_func
tlsf_heap.fitting.merge_before.5:
	.cfi_startproc
	push.w	{r4, r5, r6, r7, r8, r9, r10, r11, lr}
	.cfi_def_cfa_offset 36
	.cfi_offset lr, -4
	.cfi_offset r11, -8
	.cfi_offset r10, -12
	.cfi_offset r9, -16
	.cfi_offset r8, -20
	.cfi_offset r7, -24
	.cfi_offset r6, -28
	.cfi_offset r5, -32
	.cfi_offset r4, -36
	sub	sp, #4
	.cfi_def_cfa_offset 40
	ldr	r6, [sp, #64]
	lsls	r7, r2, #31
	ldrd	lr, r12, [sp, #48]
	ldrd	r4, r1, [sp, #40]
	ldr	r5, [sp, #56]
	bne	.LBB12_4
	orr	r2, r6, #1
	sub.w	r8, r5, r4, lsr #2
	adds	r2, r2, r4
	ldr	r7, [r0]
	adc	r1, r1, #0
	subs.w	r10, r2, #1
	sbc	r9, r1, #0
	add.w	r1, r7, r8, lsl #3
	ldrd	r6, r2, [r1, #16]
	lsl.w	r11, r8, #3
	cmp.w	r2, #-1
	ble	.LBB12_5
	add.w	r4, r7, r2, lsl #3
	adds	r3, r6, #1
	ldr	r1, [r4, #20]
	beq	.LBB12_8
	strd	r6, r1, [r4, #16]
	add.w	r1, r7, r6, lsl #3
	bic	r2, r2, #-2147483648
	str	r2, [r1, #20]
	b	.LBB12_13
.LBB12_4:
	ldr	r7, [sp, #68]
	str	r5, [sp, #56]
	strd	r6, r7, [sp, #64]
	strd	lr, r12, [sp, #48]
	strd	r4, r1, [sp, #40]
	add	sp, #4
	pop.w	{r4, r5, r6, r7, r8, r9, r10, r11, lr}
	b	tlsf_heap.fitting.merge_both.5
.LBB12_5:
	movs	r2, #32
	lsrs	r1, r4, #2
	orr.w	r2, r2, r10, lsr #2
	lsr.w	r4, r10, #2
	clz	r2, r2
	mov	r3, r9
	rsb.w	r2, r2, #26
	str	r4, [sp]
	lsrs	r4, r2
	add.w	r9, r4, r2, lsl #5
	orr	r2, r1, #32
	clz	r2, r2
	rsb.w	r2, r2, #26
	lsr.w	r4, r1, r2
	add.w	r2, r4, r2, lsl #5
	cmp	r2, r9
	bne	.LBB12_9
	movs	r4, #31
	mvn	r6, #-2147483648
	bics	r4, r5
	ldr	r2, [r0, #24]
	mvn	r1, #1
	tst.w	r5, #32
	lsr.w	r4, r6, r4
	movw	r6, #65528
	movt	r6, #8191
	it	ne
	movne.w	r1, #-1
	and.w	r6, r6, r5, lsr #3
	and	r5, r5, #31
	ldr	r7, [r2, r6]
	lsl.w	r1, r1, r5
	orr.w	r1, r1, r4
	and.w	r1, r1, r7
	str	r1, [r2, r6]
	mov.w	r1, #-1
	add	r2, r6
	it	ne
	mvnne	r1, #1
	lsls	r1, r5
	ldr	r7, [r0]
	ldr	r6, [r2, #4]
	orrs	r1, r4
	ands	r1, r6
	str.w	r10, [r7, r11]
	str	r1, [r2, #4]
	add.w	r1, r7, r11
	strd	r3, lr, [r1, #4]
	str.w	r12, [r1, #12]
	lsls.w	r1, r10, #30
	bmi.w	.LBB12_16
	ldr	r1, [sp]
	ldr	r0, [r0]
	add	r1, r8
	add.w	r0, r0, r1, lsl #3
	str.w	r8, [r0, #4]
	add	sp, #4
	pop.w	{r4, r5, r6, r7, r8, r9, r10, r11, pc}
.LBB12_8:
	mov.w	r2, #-1
	strd	r2, r1, [r4, #16]
	b	.LBB12_13
.LBB12_9:
	mov	r9, r3
	adds	r1, r6, #1
	beq	.LBB12_11
	add.w	r1, r7, r6, lsl #3
	mov.w	r3, #-1
	str	r3, [r1, #20]
	add.w	r1, r0, r2, lsl #2
	str.w	r6, [r1, #144]
	b	.LBB12_13
.LBB12_11:
	add.w	r1, r0, r2, lsl #2
	mov.w	r3, #-1
	lsrs	r2, r2, #5
	and	r4, r4, #31
	str.w	r3, [r1, #144]
	add.w	r3, r0, r2, lsl #2
	movs	r1, #1
	ldr	r6, [r3, #60]
	lsl.w	r4, r1, r4
	bics.w	r4, r6, r4
	str	r4, [r3, #60]
	bne	.LBB12_13
	ldr	r3, [r0, #56]
	lsls	r1, r2
	bic.w	r1, r3, r1
	str	r1, [r0, #56]
.LBB12_13:
	movs	r3, #31
	mvn	r4, #-2147483648
	bics	r3, r5
	ldr	r2, [r0, #24]
	mvn	r1, #1
	tst.w	r5, #32
	lsr.w	r3, r4, r3
	movw	r4, #65528
	movt	r4, #8191
	it	ne
	movne.w	r1, #-1
	and.w	r4, r4, r5, lsr #3
	and	r5, r5, #31
	ldr	r6, [r2, r4]
	lsl.w	r1, r1, r5
	orr.w	r1, r1, r3
	and.w	r1, r1, r6
	str	r1, [r2, r4]
	mov.w	r1, #-1
	add	r2, r4
	it	ne
	mvnne	r1, #1
	lsls	r1, r5
	ldr	r6, [r0]
	ldr	r4, [r2, #4]
	orrs	r1, r3
	ands	r1, r4
	str.w	r10, [r6, r11]
	str	r1, [r2, #4]
	add.w	r1, r6, r11
	lsr.w	r2, r10, #2
	mov.w	r6, #-1
	strd	r9, lr, [r1, #4]
	str.w	r12, [r1, #12]
	lsls.w	r1, r10, #30
	itttt	pl
	ldrpl	r1, [r0]
	addpl.w	r3, r2, r8
	addpl.w	r1, r1, r3, lsl #3
	strpl.w	r8, [r1, #4]
	orr	r1, r2, #32
	clz	r1, r1
	rsb.w	r1, r1, #26
	lsr.w	r3, r2, r1
	add.w	r2, r3, r1, lsl #5
	add.w	r1, r0, r2, lsl #2
	ldr.w	r7, [r1, #144]
	str.w	r8, [r1, #144]
	ldr	r1, [r0]
	cmp.w	r7, #-1
	ble	.LBB12_15
	add.w	r0, r1, r11
	strd	r7, r6, [r0, #16]
	add.w	r0, r1, r7, lsl #3
	str.w	r8, [r0, #20]
	add	sp, #4
	pop.w	{r4, r5, r6, r7, r8, r9, r10, r11, pc}
.LBB12_15:
	add	r1, r11
	strd	r6, r6, [r1, #16]
	lsrs	r1, r2, #5
	movs	r2, #1
	ldr	r6, [r0, #56]
	lsl.w	r7, r2, r1
	add.w	r1, r0, r1, lsl #2
	orrs	r7, r6
	str	r7, [r0, #56]
	and	r0, r3, #31
	ldr	r5, [r1, #60]
	lsl.w	r0, r2, r0
	orrs	r0, r5
	str	r0, [r1, #60]
.LBB12_16:
	add	sp, #4
	pop.w	{r4, r5, r6, r7, r8, r9, r10, r11, pc}
.Lfunc_end12:
	.size	tlsf_heap.fitting.merge_before.5, .Lfunc_end12-tlsf_heap.fitting.merge_before.5
	.cfi_endproc
	.section	.text.tlsf_heap.fitting.merge_both.5,"ax",%progbits
	.p2align	1
	.type	tlsf_heap.fitting.merge_both.5,%function
	.code	16
	.thumb_func
tlsf_heap.fitting.merge_both.5:
	.cfi_startproc
	push.w	{r4, r5, r6, r7, r8, r9, r10, r11, lr}
	.cfi_def_cfa_offset 36
	.cfi_offset lr, -4
	.cfi_offset r11, -8
	.cfi_offset r10, -12
	.cfi_offset r9, -16
	.cfi_offset r8, -20
	.cfi_offset r7, -24
	.cfi_offset r6, -28
	.cfi_offset r5, -32
	.cfi_offset r4, -36
	sub	sp, #28
	.cfi_def_cfa_offset 64
	ldr.w	r10, [sp, #88]
	lsrs	r4, r2, #2
	ldr.w	r9, [sp, #80]
	mov.w	lr, #-1
	ldr	r7, [r0]
	add.w	r1, r9, r10, lsr #2
	ldr.w	r12, [sp, #64]
	str	r4, [sp, #20]
	add.w	r1, r7, r1, lsl #3
	ldrd	r3, r5, [r1, #16]
	cmp	r5, #0
	bmi	.LBB13_3
	add.w	r4, r7, r5, lsl #3
	adds	r1, r3, #1
	ldr	r6, [r4, #20]
	beq	.LBB13_5
	add.w	r1, r7, r3, lsl #3
	strd	r3, r6, [r4, #16]
	bic	r3, r5, #-2147483648
	str	r3, [r1, #20]
	b	.LBB13_8
.LBB13_3:
	orr	r1, r4, #32
	clz	r1, r1
	rsb.w	r1, r1, #26
	lsrs	r4, r1
	add.w	r5, r4, r1, lsl #5
	adds	r1, r3, #1
	beq	.LBB13_6
	add.w	r1, r7, r3, lsl #3
	ldr	r7, [r1, #20]
	orr.w	r7, r7, lr
	str	r7, [r1, #20]
	add.w	r1, r0, r5, lsl #2
	str.w	r3, [r1, #144]
	b	.LBB13_8
.LBB13_5:
	mov.w	r1, #-1
	strd	r1, r6, [r4, #16]
	b	.LBB13_8
.LBB13_6:
	add.w	r1, r0, r5, lsl #2
	mov.w	r3, #-1
	str.w	r3, [r1, #144]
	lsrs	r3, r5, #5
	add.w	r7, r0, r3, lsl #2
	and	r5, r4, #31
	movs	r1, #1
	ldr	r6, [r7, #60]
	lsl.w	r5, r1, r5
	bics	r6, r5
	str	r6, [r7, #60]
	bne	.LBB13_8
	ldr	r7, [r0, #56]
	lsls	r1, r3
	bic.w	r1, r7, r1
	str	r1, [r0, #56]
.LBB13_8:
	sub.w	r3, r9, r12, lsr #2
	ldr	r7, [r0]
	ldr.w	r11, [sp, #68]
	add.w	r1, r7, r3, lsl #3
	mov	r8, r3
	ldrd	r5, r4, [r1, #16]
	lsls	r1, r3, #3
	cmp	r4, #0
	str	r1, [sp, #16]
	bmi	.LBB13_11
	add.w	r6, r7, r4, lsl #3
	adds	r3, r5, #1
	ldr	r1, [r6, #20]
	beq	.LBB13_13
	strd	r5, r1, [r6, #16]
	add.w	r1, r7, r5, lsl #3
	bic	r3, r4, #-2147483648
	str	r3, [r1, #20]
	b	.LBB13_16
.LBB13_11:
	lsr.w	r1, r12, #2
	orr	r3, r1, #32
	clz	r3, r3
	rsb.w	r3, r3, #26
	lsr.w	r6, r1, r3
	add.w	r4, r6, r3, lsl #5
	adds	r1, r5, #1
	beq	.LBB13_14
	add.w	r1, r7, r5, lsl #3
	ldr	r3, [r1, #20]
	orr.w	r3, r3, lr
	str	r3, [r1, #20]
	add.w	r1, r0, r4, lsl #2
	str.w	r5, [r1, #144]
	b	.LBB13_16
.LBB13_13:
	mov.w	r3, #-1
	strd	r3, r1, [r6, #16]
	b	.LBB13_16
.LBB13_14:
	add.w	r1, r0, r4, lsl #2
	mov.w	r3, #-1
	lsrs	r4, r4, #5
	and	r6, r6, #31
	str.w	r3, [r1, #144]
	add.w	r3, r0, r4, lsl #2
	movs	r1, #1
	ldr	r5, [r3, #60]
	lsl.w	r6, r1, r6
	bics	r5, r6
	str	r5, [r3, #60]
	bne	.LBB13_16
	ldr	r3, [r0, #56]
	lsls	r1, r4
	bic.w	r1, r3, r1
	str	r1, [r0, #56]
.LBB13_16:
	add.w	r1, r10, r2
	ldr	r3, [r0, #24]
	adds.w	r1, r1, r12
	mvn	r6, #7
	adc	r4, r11, #0
	subs	r2, r1, #1
	sbc	r1, r4, #0
	str	r1, [sp, #12]
	movs	r1, #31
	and.w	lr, r6, r9, lsr #3
	bic.w	r1, r1, r9
	mvn	r7, #-2147483648
	str	r0, [sp, #24]
	and	r12, r9, #31
	lsr.w	r0, r7, r1
	mvn	r1, #1
	tst.w	r9, #32
	it	ne
	movne.w	r1, #-1
	ldr.w	r10, [r3, lr]
	lsl.w	r1, r1, r12
	orr.w	r1, r1, r0
	add.w	r11, r3, lr
	mvn	r5, #1
	and.w	r1, r1, r10
	str.w	r1, [r3, lr]
	mov.w	r1, #-1
	ldr.w	r4, [r11, #4]
	add.w	lr, r8, r2, lsr #2
	str	r4, [sp, #8]
	it	ne
	mvnne	r1, #1
	ldr	r3, [sp, #20]
	mov	r4, r8
	str.w	lr, [sp, #4]
	lsl.w	r1, r1, r12
	sub.w	r3, lr, r3
	orrs	r1, r0
	tst.w	r3, #32
	it	ne
	movne.w	r5, #-1
	ldr	r7, [sp, #24]
	and	r8, r3, #31
	ldr	r0, [sp, #24]
	mov.w	r10, #-1
	lsl.w	r5, r5, r8
	ldr.w	r12, [sp, #16]
	ldr.w	r9, [r7, #24]
	and.w	r7, r6, r3, lsr #3
	mov.w	r6, #31
	bic.w	r3, r6, r3
	mvn	r6, #-2147483648
	ldr.w	lr, [r9, r7]
	lsr.w	r3, r6, r3
	ldr	r6, [sp, #8]
	orr.w	r5, r5, r3
	and.w	r5, r5, lr
	str.w	r5, [r9, r7]
	and.w	r1, r1, r6
	str.w	r1, [r11, #4]
	add	r7, r9
	ldr	r1, [r0]
	ldr	r6, [r7, #4]
	str.w	r2, [r1, r12]
	it	ne
	mvnne	r10, #1
	lsl.w	r5, r10, r8
	orrs	r3, r5
	add	r1, r12
	ands	r3, r6
	str	r3, [r7, #4]
	ldr	r3, [sp, #12]
	lsrs	r7, r2, #2
	str	r3, [r1, #4]
	mov.w	r5, #-1
	ldr	r3, [sp, #72]
	str	r3, [r1, #8]
	ldr	r3, [sp, #76]
	str	r3, [r1, #12]
	lsls	r1, r2, #30
	itttt	pl
	ldrpl	r1, [r0]
	ldrpl	r2, [sp, #4]
	addpl.w	r1, r1, r2, lsl #3
	strpl	r4, [r1, #4]
	orr	r1, r7, #32
	clz	r1, r1
	rsb.w	r2, r1, #26
	lsr.w	r1, r7, r2
	add.w	r2, r1, r2, lsl #5
	add.w	r3, r0, r2, lsl #2
	ldr.w	r7, [r3, #144]
	str.w	r4, [r3, #144]
	ldr	r6, [r0]
	cmp.w	r7, #-1
	ble	.LBB13_18
	add.w	r0, r6, r12
	strd	r7, r5, [r0, #16]
	add.w	r0, r6, r7, lsl #3
	str	r4, [r0, #20]
	add	sp, #28
	pop.w	{r4, r5, r6, r7, r8, r9, r10, r11, pc}
.LBB13_18:
	add.w	r3, r6, r12
	mov.w	r7, #-1
	lsrs	r2, r2, #5
	strd	r7, r5, [r3, #16]
	movs	r3, #1
	ldr	r6, [r0, #56]
	lsl.w	r7, r3, r2
	add.w	r2, r0, r2, lsl #2
	orrs	r7, r6
	str	r7, [r0, #56]
	and	r0, r1, #31
	ldr	r5, [r2, #60]
	lsl.w	r0, r3, r0
	orrs	r0, r5
	str	r0, [r2, #60]
	add	sp, #28
	pop.w	{r4, r5, r6, r7, r8, r9, r10, r11, pc}
.Lfunc_end13:
	.size	tlsf_heap.fitting.merge_both.5, .Lfunc_end13-tlsf_heap.fitting.merge_both.5
	.cfi_endproc
	.section	.text.tlsf_heap.fitting.merge_next.5,"ax",%progbits
	.p2align	1
	.type	tlsf_heap.fitting.merge_next.5,%function
	.code	16
	.thumb_func
tlsf_heap.fitting.merge_next.5:
	.cfi_startproc
	push.w	{r4, r5, r6, r7, r8, r9, r10, r11, lr}
	.cfi_def_cfa_offset 36
	.cfi_offset lr, -4
	.cfi_offset r11, -8
	.cfi_offset r10, -12
	.cfi_offset r9, -16
	.cfi_offset r8, -20
	.cfi_offset r7, -24
	.cfi_offset r6, -28
	.cfi_offset r5, -32
	.cfi_offset r4, -36
	sub	sp, #4
	.cfi_def_cfa_offset 40
	ldr.w	r10, [sp, #40]
	mov.w	r12, #-1
	ldr.w	r11, [sp, #56]
	lsrs	r6, r2, #2
	ldr	r7, [r0]
	add.w	r1, r11, r10, lsr #2
	ldr.w	r8, [sp, #48]
	ldr.w	r9, [sp, #44]
	add.w	r1, r7, r1, lsl #3
	ldrd	r3, r5, [r1, #16]
	cmp	r5, #0
	bmi	.LBB14_3
	add.w	r4, r7, r5, lsl #3
	mov.w	lr, #-1
	adds.w	r12, r3, #1
	ldr	r1, [r4, #20]
	beq	.LBB14_5
	strd	r3, r1, [r4, #16]
	add.w	r1, r7, r3, lsl #3
	bic	r3, r5, #-2147483648
	str	r3, [r1, #20]
	b	.LBB14_8
.LBB14_3:
	orr	r1, r6, #32
	clz	r1, r1
	rsb.w	r1, r1, #26
	lsr.w	r4, r6, r1
	add.w	r5, r4, r1, lsl #5
	adds	r1, r3, #1
	beq	.LBB14_6
	add.w	r1, r7, r3, lsl #3
	mov.w	lr, #-1
	ldr	r7, [r1, #20]
	orr.w	r7, r7, r12
	str	r7, [r1, #20]
	add.w	r1, r0, r5, lsl #2
	str.w	r3, [r1, #144]
	b	.LBB14_8
.LBB14_5:
	mov.w	r3, #-1
	strd	r3, r1, [r4, #16]
	b	.LBB14_8
.LBB14_6:
	add.w	r1, r0, r5, lsl #2
	mov.w	r3, #-1
	and	r4, r4, #31
	mov.w	lr, #-1
	str.w	r3, [r1, #144]
	lsrs	r3, r5, #5
	add.w	r7, r0, r3, lsl #2
	movs	r1, #1
	lsl.w	r4, r1, r4
	ldr	r5, [r7, #60]
	bics	r5, r4
	str	r5, [r7, #60]
	bne	.LBB14_8
	ldr	r7, [r0, #56]
	lsls	r1, r3
	bic.w	r1, r7, r1
	str	r1, [r0, #56]
.LBB14_8:
	adds.w	r4, r2, r10
	ldr	r7, [r0, #24]
	adc	r12, r9, #0
	mvn	r5, #7
	add.w	r9, r11, r4, lsr #2
	mvn	r1, #1
	sub.w	r6, r9, r6
	movs	r3, #31
	and	r2, r6, #31
	tst.w	r6, #32
	and.w	r5, r5, r6, lsr #3
	it	ne
	movne.w	r1, #-1
	bic.w	r3, r3, r6
	mvn	r6, #-2147483648
	ldr.w	r10, [r7, r5]
	lsl.w	r1, r1, r2
	lsr.w	r3, r6, r3
	orr.w	r1, r1, r3
	and.w	r1, r1, r10
	str	r1, [r7, r5]
	add	r5, r7
	ldr	r1, [r0]
	mov.w	r7, #-1
	ldr	r6, [r5, #4]
	str.w	r4, [r1, r11, lsl #3]
	it	ne
	mvnne	r7, #1
	lsl.w	r2, r7, r2
	orrs	r2, r3
	add.w	r1, r1, r11, lsl #3
	ands	r2, r6
	str	r2, [r5, #4]
	ldr	r2, [sp, #52]
	lsrs	r7, r4, #2
	strd	r12, r8, [r1, #4]
	lsl.w	r3, r11, #3
	str	r2, [r1, #12]
	lsls	r1, r4, #30
	ittt	pl
	ldrpl	r1, [r0]
	addpl.w	r1, r1, r9, lsl #3
	strpl.w	r11, [r1, #4]
	orr	r1, r7, #32
	clz	r1, r1
	rsb.w	r1, r1, #26
	lsr.w	r2, r7, r1
	add.w	r7, r2, r1, lsl #5
	add.w	r6, r0, r7, lsl #2
	ldr.w	r1, [r6, #144]
	str.w	r11, [r6, #144]
	ldr	r6, [r0]
	cmp.w	r1, #-1
	ble	.LBB14_10
	adds	r0, r6, r3
	strd	r1, lr, [r0, #16]
	add.w	r0, r6, r1, lsl #3
	str.w	r11, [r0, #20]
	add	sp, #4
	pop.w	{r4, r5, r6, r7, r8, r9, r10, r11, pc}
.LBB14_10:
	adds	r1, r6, r3
	mov.w	r3, #-1
	strd	r3, lr, [r1, #16]
	lsrs	r1, r7, #5
	movs	r3, #1
	ldr	r6, [r0, #56]
	lsl.w	r7, r3, r1
	add.w	r1, r0, r1, lsl #2
	orrs	r7, r6
	str	r7, [r0, #56]
	and	r0, r2, #31
	ldr	r5, [r1, #60]
	lsl.w	r0, r3, r0
	orrs	r0, r5
	str	r0, [r1, #60]
	add	sp, #4
	pop.w	{r4, r5, r6, r7, r8, r9, r10, r11, pc}
.Lfunc_end14:
	.size	tlsf_heap.fitting.merge_next.5, .Lfunc_end14-tlsf_heap.fitting.merge_next.5
	.cfi_endproc
	.section	.text.tlsf_heap.check.examine,"ax",%progbits
	.p2align	1
	.type	tlsf_heap.check.examine,%function
	.code	16
	.thumb_func
tlsf_heap.check.examine:
	.cfi_startproc
	push.w	{r4, r5, r6, r7, r8, r9, r10, r11, lr}
	.cfi_def_cfa_offset 36
	.cfi_offset lr, -4
	.cfi_offset r11, -8
	.cfi_offset r10, -12
	.cfi_offset r9, -16
	.cfi_offset r8, -20
	.cfi_offset r7, -24
	.cfi_offset r6, -28
	.cfi_offset r5, -32
	.cfi_offset r4, -36
	ldr	r7, [r0, #8]
	subs	r4, r7, #4
	cmp	r1, r4
	bhi.w	.LBB15_27
	mvn	r2, #7
	ldr.w	r10, [r0, #24]
	and.w	r2, r2, r1, lsr #3
	and	r5, r1, #63
	rsb.w	r3, r5, #32
	ldr.w	r6, [r10, r2]
	add	r2, r10
	ldr	r2, [r2, #4]
	lsrs	r6, r5
	lsl.w	r3, r2, r3
	orrs	r3, r6
	subs.w	r6, r5, #32
	it	pl
	lsrpl.w	r3, r2, r6
	lsls	r2, r3, #31
	beq.w	.LBB15_27
	ldr.w	lr, [r0]
	movs	r2, #0
	ldr.w	r6, [lr, r1, lsl #3]
	cmp	r6, #16
	blo	.LBB15_17
	add.w	r12, r1, r6, lsr #2
	movs	r0, #0
	cmp	r12, r7
	bhi.w	.LBB15_24
	sub.w	r0, r12, r7
	and	r2, r6, #2
	clz	r0, r0
	lsrs	r0, r0, #5
	teq.w	r0, r2, lsr #1
	bne.w	.LBB15_27
	add.w	r11, lr, r1, lsl #3
	movw	r8, #65528
	movt	r8, #8191
	ldr.w	r0, [r11, #4]
	cbz	r1, .LBB15_9
	cmp	r4, r0
	blo.w	.LBB15_27
	and.w	r2, r8, r0, lsr #3
	and	r3, r0, #63
	rsb.w	r5, r3, #32
	ldr.w	r9, [r10, r2]
	add	r2, r10
	ldr	r2, [r2, #4]
	lsl.w	r8, r2, r5
	lsr.w	r5, r9, r3
	orr.w	r5, r5, r8
	subs	r3, #32
	it	pl
	lsrpl.w	r5, r2, r3
	lsls	r2, r5, #31
	beq.w	.LBB15_27
	ldr.w	r2, [lr, r0, lsl #3]
	movw	r8, #65528
	movt	r8, #8191
	add.w	r0, r0, r2, lsr #2
	cmp	r0, r1
	beq	.LBB15_10
	b	.LBB15_27
.LBB15_9:
	adds	r0, #1
	bne.w	.LBB15_27
.LBB15_10:
	and	r9, r6, #1
	cmp	r12, r7
	bhs	.LBB15_15
	cmp	r12, r4
	bhi	.LBB15_27
	and.w	r0, r8, r12, lsr #3
	and	r3, r12, #63
	rsb.w	r5, r3, #32
	ldr.w	r2, [r10, r0]
	add	r0, r10
	ldr	r0, [r0, #4]
	lsrs	r2, r3
	subs	r3, #32
	lsl.w	r5, r0, r5
	orr.w	r2, r2, r5
	it	pl
	lsrpl.w	r2, r0, r3
	lsls	r0, r2, #31
	beq	.LBB15_27
	add.w	r0, lr, r12, lsl #3
	movs	r2, #0
	ldr	r0, [r0, #4]
	cmp	r1, r0
	bne	.LBB15_17
	ldr.w	r0, [lr, r12, lsl #3]
	ands.w	r0, r0, r9
	mov.w	r0, #0
	bne	.LBB15_24
.LBB15_15:
	ldrd	r2, r0, [r11, #16]
	cmp.w	r9, #0
	bne	.LBB15_18
	lsrs	r1, r6, #2
	mvn	r7, #23
	lsrs	r3, r1, #29
	adds.w	r1, r7, r1, lsl #3
	sbc	r3, r3, #0
	subs	r1, r1, r2
	sbcs.w	r0, r3, r0
	bhs	.LBB15_23
	b	.LBB15_27
.LBB15_17:
	movs	r0, #0
	mov	r1, r2
	pop.w	{r4, r5, r6, r7, r8, r9, r10, r11, pc}
.LBB15_18:
	adds	r3, r2, #1
	beq	.LBB15_22
	cmp	r4, r2
	blo	.LBB15_27
	and.w	r3, r8, r2, lsr #3
	and	r6, r2, #63
	rsb.w	r7, r6, #32
	ldr.w	r5, [r10, r3]
	add	r3, r10
	ldr	r3, [r3, #4]
	lsrs	r5, r6
	subs	r6, #32
	lsl.w	r7, r3, r7
	orr.w	r5, r5, r7
	it	pl
	lsrpl.w	r5, r3, r6
	lsls	r3, r5, #31
	itt	ne
	ldrbne.w	r3, [lr, r2, lsl #3]
	lslsne.w	r3, r3, #31
	beq	.LBB15_27
	add.w	r2, lr, r2, lsl #3
	ldr	r2, [r2, #20]
	cmp	r1, r2
	bne	.LBB15_27
.LBB15_22:
	adds	r2, r0, #1
	bne	.LBB15_25
.LBB15_23:
	movs	r0, #1
	mov	r2, r12
.LBB15_24:
	mov	r1, r2
	pop.w	{r4, r5, r6, r7, r8, r9, r10, r11, pc}
.LBB15_25:
	cmp	r4, r0
	blo	.LBB15_27
	and.w	r2, r8, r0, lsr #3
	and	r4, r0, #63
	rsb.w	r5, r4, #32
	ldr.w	r3, [r10, r2]
	add	r2, r10
	ldr	r2, [r2, #4]
	lsrs	r3, r4
	subs	r4, #32
	lsl.w	r5, r2, r5
	orr.w	r3, r3, r5
	it	pl
	lsrpl.w	r3, r2, r4
	lsls	r2, r3, #31
	itt	ne
	ldrbne.w	r2, [lr, r0, lsl #3]
	lslsne.w	r2, r2, #31
	bne	.LBB15_28
.LBB15_27:
	movs	r1, #0
	movs	r0, #0
	pop.w	{r4, r5, r6, r7, r8, r9, r10, r11, pc}
.LBB15_28:
	add.w	r0, lr, r0, lsl #3
	ldr	r0, [r0, #16]
	cmp	r1, r0
	beq	.LBB15_23
	b	.LBB15_27
.Lfunc_end15:
	.size	tlsf_heap.check.examine, .Lfunc_end15-tlsf_heap.check.examine
	.cfi_endproc
	.section	.text.tlsf_post.take_end.TakeEnd.take_slice,"ax",%progbits
	.p2align	1
	.type	tlsf_post.take_end.TakeEnd.take_slice,%function
	.code	16
	.thumb_func
tlsf_post.take_end.TakeEnd.take_slice:
	.cfi_startproc
	push.w	{r4, r5, r6, r7, r8, r9, r10, r11, lr}
	.cfi_def_cfa_offset 36
	.cfi_offset lr, -4
	.cfi_offset r11, -8
	.cfi_offset r10, -12
	.cfi_offset r9, -16
	.cfi_offset r8, -20
	.cfi_offset r7, -24
	.cfi_offset r6, -28
	.cfi_offset r5, -32
	.cfi_offset r4, -36
	sub	sp, #44
	.cfi_def_cfa_offset 80
	mov	r5, r0
	mov	r4, r1
	ldrd	r7, r6, [r0, #24]
	mov	lr, r2
	ldr	r0, [r0, #32]
	ldr	r1, [r5, #36]
	subs	r2, r0, r7
	str	r3, [sp, #40]
	sbcs.w	r2, r1, r6
	bhs	.LBB16_2
	ldrd	r2, r3, [r5, #16]
	subs	r0, r0, r7
	lsl.w	r3, r3, #1
	sbcs	r1, r6
	orr.w	r3, r3, r2, lsr #31
	adds.w	r0, r0, r2, lsl #1
	adcs	r1, r3
	subs.w	r0, r0, lr
	ldr	r0, [sp, #40]
	sbcs.w	r0, r1, r0
	blo	.LBB16_3
	b	.LBB16_7
.LBB16_2:
	subs	r0, r0, r7
	sbcs	r1, r6
	subs.w	r0, r0, lr
	ldr	r0, [sp, #40]
	sbcs.w	r0, r1, r0
	bhs	.LBB16_7
.LBB16_3:
	ldr	r0, [r5]
	adds	r0, #128
	ldrexd	r0, r1, [r0]
	clrex
	dmb	ish
	strd	r0, r1, [r5, #32]
	ldrd	r7, r6, [r5, #24]
	subs	r2, r0, r7
	sbcs.w	r2, r1, r6
	bhs	.LBB16_5
	ldrd	r2, r3, [r5, #16]
	subs	r0, r0, r7
	lsl.w	r3, r3, #1
	sbcs	r1, r6
	orr.w	r3, r3, r2, lsr #31
	adds.w	r0, r0, r2, lsl #1
	adcs	r1, r3
	b	.LBB16_6
.LBB16_5:
	subs	r0, r0, r7
	sbcs	r1, r6
.LBB16_6:
	ldr	r3, [sp, #40]
	subs.w	r2, r0, lr
	sbcs.w	r2, r1, r3
	it	lo
	movlo	r3, r1
	str	r3, [sp, #40]
	it	lo
	movlo	lr, r0
.LBB16_7:
	ldr	r0, [sp, #40]
	orrs.w	r0, r0, lr
	beq.w	.LBB16_17
	ldrd	r10, r12, [r5, #16]
	mov	r9, lr
	str	r6, [sp, #28]
	subs.w	r8, r7, r10
	sbcs.w	r0, r6, r12
	it	lo
	movlo	r0, r6
	str	r7, [sp, #32]
	it	lo
	movlo	r8, r7
	ldr	r2, [sp, #40]
	subs.w	r6, r10, r8
	sbc.w	r3, r12, r0
	subs.w	r1, r6, lr
	sbcs.w	r1, r3, r2
	mov	r7, r2
	str	r3, [sp, #4]
	it	lo
	movlo	r7, r3
	str	r6, [sp, #8]
	it	lo
	movlo	r9, r6
	subs.w	r1, lr, r9
	str	r1, [sp, #16]
	sbc.w	r1, r2, r7
	str	r1, [sp, #12]
	str.w	r10, [sp, #24]
	eor.w	r1, r10, r8
	eor.w	r0, r0, r12
	mov	r10, r5
	orrs	r0, r1
	str.w	lr, [sp, #36]
	str.w	r12, [sp, #20]
	beq	.LBB16_11
	mov.w	r11, #0
	movs	r6, #0
.LBB16_10:
	add.w	r2, r11, r8
	add.w	r0, r11, r11, lsl #1
	ldr	r1, [r5, #8]
	add.w	r2, r2, r2, lsl #1
	add.w	r0, r4, r0, lsl #3
	add.w	r1, r1, r2, lsl #3
	movs	r2, #24
	bl	tlsf_memory_move
	adds.w	r11, r11, #1
	mov	r5, r10
	adc	r6, r6, #0
	subs.w	r0, r11, r9
	sbcs.w	r0, r6, r7
	blo	.LBB16_10
.LBB16_11:
	ldr	r0, [sp, #36]
	ldr	r1, [sp, #8]
	ldrd	r11, r8, [sp, #12]
	subs	r0, r1, r0
	ldr	r1, [sp, #4]
	ldr	r0, [sp, #40]
	sbcs.w	r0, r1, r0
	bhs	.LBB16_14
	add.w	r0, r9, r9, lsl #1
	movs	r6, #0
	add.w	r7, r4, r0, lsl #3
	movs	r4, #0
.LBB16_13:
	add.w	r2, r6, r6, lsl #1
	ldr	r1, [r5, #8]
	add.w	r0, r7, r2, lsl #3
	add.w	r1, r1, r2, lsl #3
	movs	r2, #24
	bl	tlsf_memory_move
	adds	r6, #1
	mov	r5, r10
	adc	r4, r4, #0
	subs.w	r0, r6, r8
	sbcs.w	r0, r4, r11
	blo	.LBB16_13
.LBB16_14:
	ldr	r2, [sp, #20]
	movs	r1, #0
	ldr	r3, [sp, #24]
	ldr	r6, [sp, #32]
	lsls	r2, r2, #1
	ldr	r4, [sp, #28]
	orr.w	r2, r2, r3, lsr #31
	ldr.w	lr, [sp, #36]
	rsbs	r3, r6, r3, lsl #1
	ldr.w	r8, [sp, #40]
	sbcs	r2, r4
	rsbs	r7, r3, #0
	sbcs	r1, r2
	subs.w	r3, lr, r3
	ldr	r0, [r5]
	sbcs.w	r2, r8, r2
	itt	lo
	movlo	r1, r4
	movlo	r7, r6
	adds.w	r7, r7, lr
	dmb	ish
	adc.w	r6, r1, r8
.LBB16_15:
	ldrexd	r1, r2, [r0]
	strexd	r1, r7, r6, [r0]
	cmp	r1, #0
	bne	.LBB16_15
	dmb	ish
.LBB16_17:
	strd	r7, r6, [r5, #24]
	mov	r0, lr
	ldr	r1, [sp, #40]
	add	sp, #44
	pop.w	{r4, r5, r6, r7, r8, r9, r10, r11, pc}
.Lfunc_end16:
	.size	tlsf_post.take_end.TakeEnd.take_slice, .Lfunc_end16-tlsf_post.take_end.TakeEnd.take_slice
	.cfi_endproc
	.section	.text.tlsf_c.heap_calls.release_named,"ax",%progbits
	.p2align	1
	.type	tlsf_c.heap_calls.release_named,%function
	.code	16
	.thumb_func
tlsf_c.heap_calls.release_named:
	.cfi_startproc
	push.w	{r4, r5, r6, r7, r8, r9, r10, r11, lr}
	.cfi_def_cfa_offset 36
	.cfi_offset lr, -4
	.cfi_offset r11, -8
	.cfi_offset r10, -12
	.cfi_offset r9, -16
	.cfi_offset r8, -20
	.cfi_offset r7, -24
	.cfi_offset r6, -28
	.cfi_offset r5, -32
	.cfi_offset r4, -36
	sub	sp, #36
	.cfi_def_cfa_offset 72
	ldrb	r7, [r0, #8]
	cmp	r7, #0
	ittt	ne
	ldrne	r4, [r0]
	ldrbne	r0, [r4]
	cmpne	r0, #0
	bne	.LBB17_2
	movs	r0, #0
	add	sp, #36
	pop.w	{r4, r5, r6, r7, r8, r9, r10, r11, lr}
	b	tlsf_c.call_fault.CallFault.refusal
.LBB17_2:
	ldr.w	lr, [sp, #72]
	movs	r5, #0
	ldr.w	r12, [r4, #24]
	ldrb	r0, [r4, #16]
	strb	r5, [r4]
	cmp	r0, #0
	beq	.LBB17_11
	cmp	r1, r12
	bne.w	.LBB17_20
	ldr	r0, [r4, #56]
	mov	r12, r1
	cmp	lr, r0
	bhs.w	.LBB17_20
	mvn	r7, #7
	ldr	r0, [r4, #72]
	and.w	r7, r7, lr, lsr #3
	mov	r12, r1
	ldr	r6, [r0, r7]
	add	r0, r7
	and	r7, lr, #63
	ldr	r0, [r0, #4]
	rsb.w	r5, r7, #32
	lsrs	r6, r7
	subs	r7, #32
	lsl.w	r5, r0, r5
	orr.w	r6, r6, r5
	it	pl
	lsrpl.w	r6, r0, r7
	lsls	r0, r6, #31
	beq	.LBB17_20
	add.w	r0, r4, #48
	mov	r12, r1
	ldr	r6, [r0]
	ldr.w	r9, [r6, lr, lsl #3]
	lsls.w	r7, r9, #31
	bne	.LBB17_20
	add.w	r11, r6, lr, lsl #3
	mov	r12, r1
	ldrd	r7, r5, [r11, #8]
	eors	r3, r5
	eors	r2, r7
	orrs	r2, r3
	bne	.LBB17_20
	ldrd	r1, r12, [r4, #32]
	and.w	r2, r1, r12
	adds	r2, #1
	beq	.LBB17_19
	ldr	r2, [r4, #40]
	lsr.w	r5, r9, #2
	ldr.w	r8, [r11, #4]
	sub.w	r2, r2, r9, lsr #2
	str	r2, [r4, #40]
	lsls.w	r2, r9, #30
	bmi	.LBB17_21
	add.w	r3, r5, lr
	ldr.w	r2, [r6, r3, lsl #3]
	add.w	r3, r6, r3, lsl #3
	ldr	r3, [r3, #4]
	b	.LBB17_22
.LBB17_11:
	cmp	r1, r12
	bne	.LBB17_20
	ldr	r0, [r4, #56]
	mov	r12, r1
	cmp	lr, r0
	bhs	.LBB17_20
	mvn	r7, #7
	ldr	r0, [r4, #72]
	and.w	r7, r7, lr, lsr #3
	mov	r12, r1
	ldr	r6, [r0, r7]
	add	r0, r7
	and	r7, lr, #63
	ldr	r0, [r0, #4]
	rsb.w	r5, r7, #32
	lsrs	r6, r7
	subs	r7, #32
	lsl.w	r5, r0, r5
	orr.w	r6, r6, r5
	it	pl
	lsrpl.w	r6, r0, r7
	lsls	r0, r6, #31
	beq	.LBB17_20
	add.w	r0, r4, #48
	mov	r12, r1
	ldr	r6, [r0]
	ldr.w	r9, [r6, lr, lsl #3]
	lsls.w	r7, r9, #31
	bne	.LBB17_20
	add.w	r11, r6, lr, lsl #3
	mov	r12, r1
	ldrd	r7, r5, [r11, #8]
	eors	r3, r5
	eors	r2, r7
	orrs	r2, r3
	bne	.LBB17_20
	ldrd	r1, r12, [r4, #32]
	and.w	r2, r1, r12
	adds	r2, #1
	beq	.LBB17_19
	ldr	r2, [r4, #40]
	lsr.w	r5, r9, #2
	ldr.w	r8, [r11, #4]
	sub.w	r2, r2, r9, lsr #2
	str	r2, [r4, #40]
	lsls.w	r2, r9, #30
	bmi	.LBB17_27
	add.w	r3, r5, lr
	ldr.w	r2, [r6, r3, lsl #3]
	add.w	r3, r6, r3, lsl #3
	ldr	r3, [r3, #4]
	b	.LBB17_28
.LBB17_19:
	movs	r0, #2
	movs	r1, #1
	strb	r1, [r4]
	add	sp, #36
	pop.w	{r4, r5, r6, r7, r8, r9, r10, r11, pc}
.LBB17_20:
	mov	r0, r1
	mov	r1, r12
	bl	tlsf_heap.refusal.Refusal.of_name
	uxtb	r1, r0
	movs	r0, #3
	cmp	r1, #3
	it	eq
	moveq	r0, #4
	movs	r1, #1
	strb	r1, [r4]
	add	sp, #36
	pop.w	{r4, r5, r6, r7, r8, r9, r10, r11, pc}
.LBB17_21:
	movs	r2, #0
	movs	r3, #0
.LBB17_22:
	cmp.w	lr, #0
	itt	ne
	ldrne.w	r10, [r6, r8, lsl #3]
	lslsne.w	r7, r10, #31
	bne.w	.LBB17_32
	lsls	r6, r2, #31
	bne	.LBB17_26
	str.w	r1, [r11, #8]
	orr	r1, r9, #1
	str.w	r1, [r11]
	mov.w	r2, #-1
	str.w	r12, [r11, #12]
	lsl.w	r0, lr, #3
	ldr	r1, [r4, #32]
	str.w	r8, [r11, #4]
	ldr	r3, [r4, #36]
	adds	r1, #1
	adc	r3, r3, #0
	strd	r1, r3, [r4, #32]
	orr	r1, r5, #32
	clz	r1, r1
	rsb.w	r3, r1, #26
	lsr.w	r1, r5, r3
	add.w	r6, r1, r3, lsl #5
	add.w	r3, r4, r6, lsl #2
	ldr.w	r7, [r3, #192]
	str.w	lr, [r3, #192]
	ldr	r3, [r4, #48]
	cmp.w	r7, #-1
	bgt	.LBB17_31
	add	r0, r3
	and	r1, r1, #31
	strd	r2, r2, [r0, #16]
	lsrs	r0, r6, #5
	b	.LBB17_36
.LBB17_26:
	adds	r5, r1, #1
	adc	r6, r12, #0
	strd	r5, r6, [r4, #32]
	add	r5, sp, #8
	strd	r9, r8, [sp]
	stm.w	r5, {r1, r12, lr}
	bl	tlsf_heap.fitting.merge_next.5
	b	.LBB17_37
.LBB17_27:
	movs	r2, #0
	movs	r3, #0
.LBB17_28:
	cmp.w	lr, #0
	itt	ne
	ldrne.w	r10, [r6, r8, lsl #3]
	lslsne.w	r7, r10, #31
	bne	.LBB17_34
	lsls	r6, r2, #31
	bne	.LBB17_33
	str.w	r1, [r11, #8]
	orr	r1, r9, #1
	str.w	r1, [r11]
	mov.w	r2, #-1
	str.w	r12, [r11, #12]
	lsl.w	r0, lr, #3
	ldr	r1, [r4, #32]
	str.w	r8, [r11, #4]
	ldr	r3, [r4, #36]
	adds	r1, #1
	adc	r3, r3, #0
	strd	r1, r3, [r4, #32]
	orr	r1, r5, #16
	clz	r1, r1
	rsb.w	r3, r1, #27
	lsr.w	r1, r5, r3
	add.w	r6, r1, r3, lsl #4
	add.w	r3, r4, r6, lsl #2
	ldr.w	r7, [r3, #192]
	str.w	lr, [r3, #192]
	ldr	r3, [r4, #48]
	cmp.w	r7, #-1
	ble	.LBB17_35
.LBB17_31:
	adds	r1, r2, r7
	add	r0, r3
	adc	r2, r2, #0
	adds	r1, #1
	sbc	r2, r2, #0
	strd	r1, r2, [r0, #16]
	add.w	r0, r3, r7, lsl #3
	str.w	lr, [r0, #20]
	b	.LBB17_37
.LBB17_32:
	add.w	r5, r6, r8, lsl #3
	adds	r6, r1, #1
	adc	r7, r12, #0
	ldr	r5, [r5, #4]
	strd	r6, r7, [r4, #32]
	strd	r9, r8, [sp, #24]
	strd	r10, r5, [sp]
	add	r5, sp, #8
	stm.w	r5, {r1, r12, lr}
	bl	tlsf_heap.fitting.merge_before.5
	b	.LBB17_37
.LBB17_33:
	adds	r5, r1, #1
	adc	r6, r12, #0
	strd	r5, r6, [r4, #32]
	add	r5, sp, #8
	strd	r9, r8, [sp]
	stm.w	r5, {r1, r12, lr}
	bl	tlsf_heap.fitting.merge_next.4
	b	.LBB17_37
.LBB17_34:
	add.w	r5, r6, r8, lsl #3
	adds	r6, r1, #1
	adc	r7, r12, #0
	ldr	r5, [r5, #4]
	strd	r6, r7, [r4, #32]
	strd	r9, r8, [sp, #24]
	strd	r10, r5, [sp]
	add	r5, sp, #8
	stm.w	r5, {r1, r12, lr}
	bl	tlsf_heap.fitting.merge_before.4
	b	.LBB17_37
.LBB17_35:
	add	r0, r3
	and	r1, r1, #15
	strd	r2, r2, [r0, #16]
	lsrs	r0, r6, #4
.LBB17_36:
	movs	r2, #1
	ldr	r7, [r4, #104]
	lsl.w	r3, r2, r0
	add.w	r0, r4, r0, lsl #2
	orrs	r3, r7
	str	r3, [r4, #104]
	ldr	r6, [r0, #108]
	lsl.w	r1, r2, r1
	orrs	r1, r6
	str	r1, [r0, #108]
.LBB17_37:
	movs	r0, #0
	movs	r1, #1
	strb	r1, [r4]
	add	sp, #36
	pop.w	{r4, r5, r6, r7, r8, r9, r10, r11, pc}
.Lfunc_end17:
	.size	tlsf_c.heap_calls.release_named, .Lfunc_end17-tlsf_c.heap_calls.release_named
	.cfi_endproc
	.section	.text.unlikely.tlsf_heap.refusal.Refusal.of_name,"ax",%progbits
	.p2align	1
	.type	tlsf_heap.refusal.Refusal.of_name,%function
	.code	16
	.thumb_func
tlsf_heap.refusal.Refusal.of_name:
	.cfi_startproc
	movs	r2, #2
	cmp	r0, r1
	it	eq
	moveq	r2, #3
	mov	r0, r2
	bx	lr
.Lfunc_end18:
	.size	tlsf_heap.refusal.Refusal.of_name, .Lfunc_end18-tlsf_heap.refusal.Refusal.of_name
	.cfi_endproc
	.section	.text.std_alloc.boxed.Box.new.91a8e04f462e8cea,"ax",%progbits
	.p2align	1
	.type	std_alloc.boxed.Box.new.91a8e04f462e8cea,%function
	.code	16
	.thumb_func
std_alloc.boxed.Box.new.91a8e04f462e8cea:
	.cfi_startproc
	push	{r4, r5, r6, r7, lr}
	.cfi_def_cfa_offset 20
	.cfi_offset lr, -4
	.cfi_offset r7, -8
	.cfi_offset r6, -12
	.cfi_offset r5, -16
	.cfi_offset r4, -20
	sub	sp, #60
	.cfi_def_cfa_offset 80
	ldrb	r6, [r1], #8
	mov	r4, r0
	mov	r0, sp
	movs	r2, #40
	ldrb	r7, [r1, #-7]
	bl	tlsf_memory_cpy
	add	r0, sp, #40
	movs	r1, #48
	movs	r2, #8
	bl	tlsf_memory_alloc
	ldr	r0, [sp, #40]
	lsls	r0, r0, #31
	beq	.LBB19_2
	ldr	r5, [sp, #48]
	mov	r1, sp
	movs	r2, #40
	add.w	r0, r5, #8
	strb	r7, [r5, #1]
	strb	r6, [r5]
	bl	tlsf_memory_cpy
	add.w	r0, r4, #16
	movs	r1, #0
	movs	r2, #40
	movs	r6, #0
	bl	tlsf_memory_set
	b	.LBB19_3
.LBB19_2:
	add.w	r0, r4, #16
	mov	r1, sp
	movs	r2, #40
	bl	tlsf_memory_cpy
	orr.w	r5, r6, r7, lsl #8
	movs	r6, #1
.LBB19_3:
	movs	r0, #0
	str	r6, [r4]
	str	r0, [r4, #4]
	str	r0, [r4, #12]
	str	r5, [r4, #8]
	add	sp, #60
	pop	{r4, r5, r6, r7, pc}
.Lfunc_end19:
	.size	std_alloc.boxed.Box.new.91a8e04f462e8cea, .Lfunc_end19-std_alloc.boxed.Box.new.91a8e04f462e8cea
	.cfi_endproc
	.section	.text.rtrb.release.drop_slow.23d795680250cb0d,"ax",%progbits
	.p2align	1
	.type	rtrb.release.drop_slow.23d795680250cb0d,%function
	.code	16
	.thumb_func
rtrb.release.drop_slow.23d795680250cb0d:
	.cfi_startproc
	push	{r4, r5, r6, r7, lr}
	.cfi_def_cfa_offset 20
	.cfi_offset lr, -4
	.cfi_offset r7, -8
	.cfi_offset r6, -12
	.cfi_offset r5, -16
	.cfi_offset r4, -20
	sub	sp, #4
	.cfi_def_cfa_offset 24
	mov	r4, r0
	mov	r12, r1
	ldrexd	r0, r5, [r0]
	clrex
	dmb	ish
	add.w	r1, r4, #128
	ldrexd	r1, lr, [r1]
	clrex
	dmb	ish
	eor.w	r6, r5, lr
	eor.w	r7, r0, r1
	orrs	r6, r7
	beq	.LBB20_5
	lsls	r3, r3, #1
	mov.w	r6, #-1
	orr.w	r3, r3, r2, lsr #31
	adds.w	r2, r6, r2, lsl #1
	sbc	r3, r3, #0
.LBB20_2:
	adds	r7, r0, #1
	adc	r6, r5, #0
	subs	r0, r0, r2
	sbcs.w	r0, r5, r3
	mov.w	r0, #0
	it	lo
	movlo	r0, #1
	cmp	r0, #0
	ite	eq
	moveq	r6, r0
	movne	r0, r7
	dmb	ish
.LBB20_3:
	ldrexd	r5, r7, [r4]
	strexd	r5, r0, r6, [r4]
	cmp	r5, #0
	bne	.LBB20_3
	eor.w	r5, r0, r1
	eor.w	r7, r6, lr
	orrs	r5, r7
	dmb	ish
	mov	r5, r6
	bne	.LBB20_2
.LBB20_5:
	mov	r0, r12
	bl	tlsf_memory_dealloc
	mov	r0, r4
	add	sp, #4
	pop.w	{r4, r5, r6, r7, lr}
	b	tlsf_memory_dealloc
.Lfunc_end20:
	.size	rtrb.release.drop_slow.23d795680250cb0d, .Lfunc_end20-rtrb.release.drop_slow.23d795680250cb0d
	.cfi_endproc
	.section	.text.std_alloc.vec.Vec.drop.7ac45d8413b9ad54,"ax",%progbits
	.p2align	1
	.type	std_alloc.vec.Vec.drop.7ac45d8413b9ad54,%function
	.code	16
	.thumb_func
std_alloc.vec.Vec.drop.7ac45d8413b9ad54:
	.cfi_startproc
	push.w	{r4, r5, r6, r7, r8, r9, r10, r11, lr}
	.cfi_def_cfa_offset 36
	.cfi_offset lr, -4
	.cfi_offset r11, -8
	.cfi_offset r10, -12
	.cfi_offset r9, -16
	.cfi_offset r8, -20
	.cfi_offset r7, -24
	.cfi_offset r6, -28
	.cfi_offset r5, -32
	.cfi_offset r4, -36
	sub	sp, #116
	.cfi_def_cfa_offset 152
	ldr	r5, [r0]
	ldr	r4, [r0, #8]
	ldr	r7, [r0, #12]
	ldr	r3, [r0, #16]
	ldr	r0, [r0, #20]
	str	r3, [sp, #8]
	str	r0, [sp, #4]
	orrs.w	r0, r4, r7
	beq	.LBB21_3
	add	r0, sp, #64
	mov.w	r8, #0
	adds	r0, #8
	str	r0, [sp, #12]
	add.w	r0, sp, #18
	mov.w	r9, #0
	add.w	r10, r0, #6
.LBB21_2:
	ldr.w	r6, [r5, r8, lsl #3]
	mov	r0, r10
	movs	r2, #40
	mov	r1, r6
	ldrh	r11, [r1], #8
	bl	tlsf_memory_cpy
	mov	r0, r6
	bl	tlsf_memory_dealloc
	movs	r0, #0
	mov	r1, r10
	strd	r0, r0, [sp, #64]
	movs	r2, #40
	ldr	r0, [sp, #12]
	strh.w	r11, [sp, #64]
	bl	tlsf_memory_cpy
	add	r0, sp, #64
	bl	tlsf_c.tlsf_c.any_end.AnyEnd.Destruct.drop
	adds.w	r8, r8, #1
	adc	r9, r9, #0
	subs.w	r0, r8, r4
	sbcs.w	r0, r9, r7
	blo	.LBB21_2
.LBB21_3:
	ldrd	r2, r0, [sp, #4]
	orrs	r0, r2
	beq	.LBB21_5
	mov	r0, r5
	add	sp, #116
	pop.w	{r4, r5, r6, r7, r8, r9, r10, r11, lr}
	b	tlsf_memory_dealloc
.LBB21_5:
	add	sp, #116
	pop.w	{r4, r5, r6, r7, r8, r9, r10, r11, pc}
.Lfunc_end21:
	.size	std_alloc.vec.Vec.drop.7ac45d8413b9ad54, .Lfunc_end21-std_alloc.vec.Vec.drop.7ac45d8413b9ad54
	.cfi_endproc
	.section	.text.std_alloc.arc.Arc.drop.c4a047e811255370,"ax",%progbits
	.p2align	1
	.type	std_alloc.arc.Arc.drop.c4a047e811255370,%function
	.code	16
	.thumb_func
std_alloc.arc.Arc.drop.c4a047e811255370:
	.cfi_startproc
	push	{r4, r5, r7, lr}
	.cfi_def_cfa_offset 16
	.cfi_offset lr, -4
	.cfi_offset r7, -8
	.cfi_offset r5, -12
	.cfi_offset r4, -16
	dmb	ish
.LBB22_1:
	ldrexd	r2, r1, [r0]
	subs	r3, r2, #1
	sbc	r5, r1, #0
	strexd	r4, r3, r5, [r0]
	cmp	r4, #0
	bne	.LBB22_1
	eor	r2, r2, #1
	dmb	ish
	orrs	r1, r2
	it	ne
	popne	{r4, r5, r7, pc}
.LBB22_3:
	ldr	r4, [r0, #40]
	ldr	r5, [r0, #56]
	bl	tlsf_memory_dealloc
	mov	r0, r4
	bl	tlsf_memory_dealloc
	mov	r0, r5
	pop.w	{r4, r5, r7, lr}
	b	tlsf_memory_dealloc
.Lfunc_end22:
	.size	std_alloc.arc.Arc.drop.c4a047e811255370, .Lfunc_end22-std_alloc.arc.Arc.drop.c4a047e811255370
	.cfi_endproc
	.section	.text.std_alloc.boxed.Box.drop.7d8ec8058c3633cd,"ax",%progbits
	.p2align	1
	.type	std_alloc.boxed.Box.drop.7d8ec8058c3633cd,%function
	.code	16
	.thumb_func
std_alloc.boxed.Box.drop.7d8ec8058c3633cd:
	.cfi_startproc
	push	{r4, r5, r6, r7, lr}
	.cfi_def_cfa_offset 20
	.cfi_offset lr, -4
	.cfi_offset r7, -8
	.cfi_offset r6, -12
	.cfi_offset r5, -16
	.cfi_offset r4, -20
	sub	sp, #92
	.cfi_def_cfa_offset 112
	mov	r1, r0
	mov	r7, sp
	ldrh	r6, [r1], #8
	mov	r4, r0
	mov	r0, r7
	movs	r2, #40
	bl	tlsf_memory_cpy
	mov	r0, r4
	bl	tlsf_memory_dealloc
	movs	r0, #0
	strd	r0, r0, [sp, #40]
	add	r0, sp, #40
	strh.w	r6, [sp, #40]
	add.w	r1, r0, #8
	ldm	r7!, {r2, r3, r4, r5, r6}
	stm	r1!, {r2, r3, r4, r5, r6}
	ldm.w	r7, {r2, r3, r4, r5, r6}
	stm	r1!, {r2, r3, r4, r5, r6}
	bl	tlsf_c.tlsf_c.any_end.AnyEnd.Destruct.drop
	add	sp, #92
	pop	{r4, r5, r6, r7, pc}
.Lfunc_end23:
	.size	std_alloc.boxed.Box.drop.7d8ec8058c3633cd, .Lfunc_end23-std_alloc.boxed.Box.drop.7d8ec8058c3633cd
	.cfi_endproc
	.section	.text.tlsf_c.tlsf_c.any_end.AnyEnd.Destruct.drop,"ax",%progbits
	.p2align	2
	.type	tlsf_c.tlsf_c.any_end.AnyEnd.Destruct.drop,%function
	.code	16
	.thumb_func
tlsf_c.tlsf_c.any_end.AnyEnd.Destruct.drop:
	.cfi_startproc
	push.w	{r4, r5, r6, r7, r8, r9, r10, r11, lr}
	.cfi_def_cfa_offset 36
	.cfi_offset lr, -4
	.cfi_offset r11, -8
	.cfi_offset r10, -12
	.cfi_offset r9, -16
	.cfi_offset r8, -20
	.cfi_offset r7, -24
	.cfi_offset r6, -28
	.cfi_offset r5, -32
	.cfi_offset r4, -36
	sub	sp, #116
	.cfi_def_cfa_offset 152
	mov	r2, r0
	ldr	r3, [r0, #28]
	ldrb	r7, [r2]
	ldr.w	r11, [r0, #24]
	ldr	r1, [r0, #16]
	ldr	r0, [r0, #8]
.LCPI24_0:
	tbb	[pc, r7]
.LJTI24_0:
	.byte	(.LBB24_2-(.LCPI24_0+4))/2
	.byte	(.LBB24_18-(.LCPI24_0+4))/2
	.byte	(.LBB24_5-(.LCPI24_0+4))/2
	.byte	(.LBB24_14-(.LCPI24_0+4))/2
	.p2align	1
.LBB24_2:
	add.w	r2, r0, #256
	mov.w	r12, #0
	movs	r6, #1
	dmb	ish
.LBB24_3:
	ldrexd	r5, r4, [r2]
	strexd	r7, r6, r12, [r2]
	cmp	r7, #0
	bne	.LBB24_3
	dmb	ish
	orrs.w	r2, r5, r4
	bne.w	.LBB24_21
	b	.LBB24_22
.LBB24_5:
	ldr	r1, [r2, #40]
	str	r1, [sp, #8]
	ldr	r1, [r2, #44]
	ldr	r5, [r2, #32]
	ldr.w	r10, [r2, #36]
	str	r1, [sp, #4]
	dmb	ish
.LBB24_6:
	ldrexd	r2, r1, [r0]
	subs	r3, r2, #1
	sbc	r7, r1, #0
	strexd	r6, r3, r7, [r0]
	cmp	r6, #0
	bne	.LBB24_6
	eor	r2, r2, #1
	dmb	ish
	orrs	r1, r2
	bne	.LBB24_9
	ldr	r7, [r0, #40]
	ldr	r6, [r0, #56]
	bl	tlsf_memory_dealloc
	mov	r0, r7
	bl	tlsf_memory_dealloc
	mov	r0, r6
	bl	tlsf_memory_dealloc
.LBB24_9:
	orrs.w	r0, r5, r10
	beq	.LBB24_12
	add	r0, sp, #64
	mov.w	r8, #0
	adds	r0, #8
	str	r0, [sp, #12]
	add.w	r0, sp, #18
	mov.w	r9, #0
	adds	r7, r0, #6
.LBB24_11:
	ldr.w	r6, [r11, r8, lsl #3]
	mov	r4, r5
	mov	r5, r11
	mov	r0, r7
	movs	r2, #40
	mov	r1, r6
	ldrh	r11, [r1], #8
	bl	tlsf_memory_cpy
	mov	r0, r6
	bl	tlsf_memory_dealloc
	movs	r0, #0
	mov	r1, r7
	strd	r0, r0, [sp, #64]
	movs	r2, #40
	ldr	r0, [sp, #12]
	strh.w	r11, [sp, #64]
	mov	r11, r5
	mov	r5, r4
	bl	tlsf_memory_cpy
	add	r0, sp, #64
	bl	tlsf_c.tlsf_c.any_end.AnyEnd.Destruct.drop
	adds.w	r8, r8, #1
	adc	r9, r9, #0
	subs.w	r0, r8, r4
	sbcs.w	r0, r9, r10
	blo	.LBB24_11
.LBB24_12:
	ldrd	r1, r0, [sp, #4]
	orrs	r0, r1
	beq	.LBB24_22
	mov	r0, r11
	add	sp, #116
	pop.w	{r4, r5, r6, r7, r8, r9, r10, r11, lr}
	b	tlsf_memory_dealloc
.LBB24_14:
	dmb	ish
.LBB24_15:
	ldrexd	r2, r1, [r0]
	subs	r3, r2, #1
	sbc	r7, r1, #0
	strexd	r6, r3, r7, [r0]
	cmp	r6, #0
	bne	.LBB24_15
	eor	r2, r2, #1
	dmb	ish
	orrs	r1, r2
	bne	.LBB24_22
	ldr	r4, [r0, #40]
	ldr	r5, [r0, #56]
	bl	tlsf_memory_dealloc
	mov	r0, r4
	bl	tlsf_memory_dealloc
	mov	r0, r5
	add	sp, #116
	pop.w	{r4, r5, r6, r7, r8, r9, r10, r11, lr}
	b	tlsf_memory_dealloc
.LBB24_18:
	add.w	r2, r0, #256
	mov.w	r12, #0
	movs	r6, #1
	dmb	ish
.LBB24_19:
	ldrexd	r5, r4, [r2]
	strexd	r7, r6, r12, [r2]
	cmp	r7, #0
	bne	.LBB24_19
	dmb	ish
	orrs.w	r2, r5, r4
	beq	.LBB24_22
.LBB24_21:
	mov	r2, r11
	add	sp, #116
	pop.w	{r4, r5, r6, r7, r8, r9, r10, r11, lr}
	b	rtrb.release.drop_slow.23d795680250cb0d
.LBB24_22:
	add	sp, #116
	pop.w	{r4, r5, r6, r7, r8, r9, r10, r11, pc}
.Lfunc_end24:
	.size	tlsf_c.tlsf_c.any_end.AnyEnd.Destruct.drop, .Lfunc_end24-tlsf_c.tlsf_c.any_end.AnyEnd.Destruct.drop
	.cfi_endproc
	.section	.text.tlsf_c.arena_slot.ArenaSlot.close,"ax",%progbits
	.p2align	1
	.type	tlsf_c.arena_slot.ArenaSlot.close,%function
	.code	16
	.thumb_func
tlsf_c.arena_slot.ArenaSlot.close:
	.cfi_startproc
	ldrb	r1, [r0, #8]
	cmp	r1, #0
	beq	.LBB25_9
	ldr	r1, [r0]
	ldrb	r2, [r1, #1]
	cmp	r2, #1
	it	ne
	bxne	lr
.LBB25_2:
	push.w	{r4, r5, r6, r7, r8, r9, r10, r11, lr}
	.cfi_def_cfa_offset 36
	.cfi_offset lr, -4
	.cfi_offset r11, -8
	.cfi_offset r10, -12
	.cfi_offset r9, -16
	.cfi_offset r8, -20
	.cfi_offset r7, -24
	.cfi_offset r6, -28
	.cfi_offset r5, -32
	.cfi_offset r4, -36
	sub	sp, #60
	.cfi_def_cfa_offset 96
	movs	r2, #0
	strb	r2, [r1, #1]
	ldr	r7, [r0]
	str	r2, [r0, #4]
	str	r2, [r0, #8]
	add.w	r1, r7, #16
	str	r2, [r0, #12]
	str	r2, [r0]
	add	r0, sp, #8
	movs	r2, #24
	ldrb.w	r10, [r7]
	ldrb	r4, [r7, #8]
	bl	tlsf_memory_cpy
	ldr	r0, [r7, #40]
	str	r0, [sp, #4]
	ldr	r0, [r7, #44]
	str	r0, [sp]
	mov	r0, r7
	ldr.w	r8, [r7, #56]
	ldr.w	r9, [r7, #60]
	ldr	r6, [r7, #84]
	ldr	r5, [r7, #80]
	ldr.w	r11, [r7, #64]
	bl	tlsf_memory_dealloc
	cmp.w	r10, #0
	beq	.LBB25_5
	add	r0, sp, #8
	add.w	r0, r0, #8
	cbz	r4, .LBB25_7
	ldr	r7, [sp]
	str	r7, [sp, #52]
	ldr	r7, [sp, #4]
	ldm.w	r0, {r1, r2, r3}
	ldr	r0, [r0, #12]
	strd	r0, r7, [sp, #44]
	add	r0, sp, #32
	stm	r0!, {r1, r2, r3}
	add	r0, sp, #32
	bl	std_alloc.vec.Vec.drop.1d6c342d5cae5f6b
	b	.LBB25_8
.LBB25_5:
	cmp	r4, #0
	mov	r1, r5
	orrs.w	r0, r8, r9
	mov	r5, r6
	mov	r6, r1
	itt	ne
	ldrne	r0, [sp, #4]
	blne	tlsf_memory_dealloc
	orrs.w	r0, r6, r5
	beq	.LBB25_8
	mov	r0, r11
	bl	tlsf_memory_dealloc
	b	.LBB25_8
.LBB25_7:
	ldr	r7, [sp]
	str	r7, [sp, #52]
	ldr	r7, [sp, #4]
	ldm.w	r0, {r1, r2, r3}
	ldr	r0, [r0, #12]
	strd	r0, r7, [sp, #44]
	add	r0, sp, #32
	stm	r0!, {r1, r2, r3}
	add	r0, sp, #32
	bl	std_alloc.vec.Vec.drop.01e19ae241269710
.LBB25_8:
	add	sp, #60
	pop.w	{r4, r5, r6, r7, r8, r9, r10, r11, lr}
.LBB25_9:
	bx	lr
.Lfunc_end25:
	.size	tlsf_c.arena_slot.ArenaSlot.close, .Lfunc_end25-tlsf_c.arena_slot.ArenaSlot.close
	.cfi_endproc
	.section	.text.std_alloc.vec.Vec.drop.01e19ae241269710,"ax",%progbits
	.p2align	1
	.type	std_alloc.vec.Vec.drop.01e19ae241269710,%function
	.code	16
	.thumb_func
std_alloc.vec.Vec.drop.01e19ae241269710:
	.cfi_startproc
	push.w	{r4, r5, r6, r7, r8, r9, r10, r11, lr}
	.cfi_def_cfa_offset 36
	.cfi_offset lr, -4
	.cfi_offset r11, -8
	.cfi_offset r10, -12
	.cfi_offset r9, -16
	.cfi_offset r8, -20
	.cfi_offset r7, -24
	.cfi_offset r6, -28
	.cfi_offset r5, -32
	.cfi_offset r4, -36
	sub	sp, #36
	.cfi_def_cfa_offset 72
	ldr	r1, [r0]
	str	r1, [sp, #20]
	ldr	r1, [r0, #8]
	ldr	r3, [r0, #12]
	ldr	r2, [r0, #16]
	ldr	r0, [r0, #20]
	str	r2, [sp, #8]
	str	r0, [sp, #4]
	orrs.w	r0, r1, r3
	strd	r3, r1, [sp, #12]
	beq	.LBB26_3
	mov.w	r9, #0
	mov.w	r11, #0
.LBB26_2:
	ldr	r0, [sp, #20]
	movw	r1, #2792
	mla	r0, r9, r1, r0
	ldr	r1, [r0, #40]
	ldr	r2, [r0, #44]
	ldr.w	r3, [r0, #2788]
	orrs	r1, r2
	str	r3, [sp, #32]
	ldr.w	r1, [r0, #2768]
	str	r1, [sp, #28]
	ldr.w	r1, [r0, #2736]
	ldr	r7, [r0, #48]
	ldr.w	r8, [r0, #64]
	ldr.w	r10, [r0, #2784]
	ldr.w	r4, [r0, #2756]
	ldr.w	r5, [r0, #2752]
	ldr	r6, [r0, #68]
	str	r1, [sp, #24]
	itt	ne
	ldrne	r0, [r0, #24]
	blne	tlsf_memory_dealloc
	orrs.w	r0, r8, r6
	itt	ne
	movne	r0, r7
	blne	tlsf_memory_dealloc
	orrs.w	r0, r5, r4
	itt	ne
	ldrne	r0, [sp, #24]
	blne	tlsf_memory_dealloc
	ldr	r0, [sp, #32]
	orrs.w	r0, r0, r10
	itt	ne
	ldrne	r0, [sp, #28]
	blne	tlsf_memory_dealloc
	ldr	r0, [sp, #16]
	adds.w	r9, r9, #1
	adc	r11, r11, #0
	subs.w	r0, r9, r0
	ldr	r0, [sp, #12]
	sbcs.w	r0, r11, r0
	blo	.LBB26_2
.LBB26_3:
	ldrd	r1, r0, [sp, #4]
	orrs	r0, r1
	beq	.LBB26_5
	ldr	r0, [sp, #20]
	add	sp, #36
	pop.w	{r4, r5, r6, r7, r8, r9, r10, r11, lr}
	b	tlsf_memory_dealloc
.LBB26_5:
	add	sp, #36
	pop.w	{r4, r5, r6, r7, r8, r9, r10, r11, pc}
.Lfunc_end26:
	.size	std_alloc.vec.Vec.drop.01e19ae241269710, .Lfunc_end26-std_alloc.vec.Vec.drop.01e19ae241269710
	.cfi_endproc
	.section	.text.std_alloc.vec.Vec.drop.1d6c342d5cae5f6b,"ax",%progbits
	.p2align	1
	.type	std_alloc.vec.Vec.drop.1d6c342d5cae5f6b,%function
	.code	16
	.thumb_func
std_alloc.vec.Vec.drop.1d6c342d5cae5f6b:
	.cfi_startproc
	push.w	{r4, r5, r6, r7, r8, r9, r10, r11, lr}
	.cfi_def_cfa_offset 36
	.cfi_offset lr, -4
	.cfi_offset r11, -8
	.cfi_offset r10, -12
	.cfi_offset r9, -16
	.cfi_offset r8, -20
	.cfi_offset r7, -24
	.cfi_offset r6, -28
	.cfi_offset r5, -32
	.cfi_offset r4, -36
	sub	sp, #36
	.cfi_def_cfa_offset 72
	ldr	r1, [r0]
	str	r1, [sp, #20]
	ldr	r1, [r0, #8]
	ldr	r3, [r0, #12]
	ldr	r2, [r0, #16]
	ldr	r0, [r0, #20]
	str	r2, [sp, #8]
	str	r0, [sp, #4]
	orrs.w	r0, r1, r3
	strd	r3, r1, [sp, #12]
	beq	.LBB27_3
	mov.w	r9, #0
	mov.w	r11, #0
.LBB27_2:
	ldr	r0, [sp, #20]
	movw	r1, #2792
	mla	r0, r9, r1, r0
	ldr	r1, [r0, #40]
	ldr	r2, [r0, #44]
	ldr.w	r3, [r0, #2788]
	orrs	r1, r2
	str	r3, [sp, #32]
	ldr.w	r1, [r0, #2768]
	str	r1, [sp, #28]
	ldr.w	r1, [r0, #2736]
	ldr	r7, [r0, #48]
	ldr.w	r8, [r0, #64]
	ldr.w	r10, [r0, #2784]
	ldr.w	r4, [r0, #2756]
	ldr.w	r5, [r0, #2752]
	ldr	r6, [r0, #68]
	str	r1, [sp, #24]
	itt	ne
	ldrne	r0, [r0, #24]
	blne	tlsf_memory_dealloc
	orrs.w	r0, r8, r6
	itt	ne
	movne	r0, r7
	blne	tlsf_memory_dealloc
	orrs.w	r0, r5, r4
	itt	ne
	ldrne	r0, [sp, #24]
	blne	tlsf_memory_dealloc
	ldr	r0, [sp, #32]
	orrs.w	r0, r0, r10
	itt	ne
	ldrne	r0, [sp, #28]
	blne	tlsf_memory_dealloc
	ldr	r0, [sp, #16]
	adds.w	r9, r9, #1
	adc	r11, r11, #0
	subs.w	r0, r9, r0
	ldr	r0, [sp, #12]
	sbcs.w	r0, r11, r0
	blo	.LBB27_2
.LBB27_3:
	ldrd	r1, r0, [sp, #4]
	orrs	r0, r1
	beq	.LBB27_5
	ldr	r0, [sp, #20]
	add	sp, #36
	pop.w	{r4, r5, r6, r7, r8, r9, r10, r11, lr}
	b	tlsf_memory_dealloc
.LBB27_5:
	add	sp, #36
	pop.w	{r4, r5, r6, r7, r8, r9, r10, r11, pc}
.Lfunc_end27:
	.size	std_alloc.vec.Vec.drop.1d6c342d5cae5f6b, .Lfunc_end27-std_alloc.vec.Vec.drop.1d6c342d5cae5f6b
	.cfi_endproc
	.section	.text.unlikely.std_alloc.vec.Vec.grow_amortized.1345b5ed95b64201,"ax",%progbits
	.p2align	1
	.type	std_alloc.vec.Vec.grow_amortized.1345b5ed95b64201,%function
	.code	16
	.thumb_func
std_alloc.vec.Vec.grow_amortized.1345b5ed95b64201:
	.cfi_startproc
	push.w	{r4, r5, r6, r7, r8, r9, lr}
	.cfi_def_cfa_offset 28
	.cfi_offset lr, -4
	.cfi_offset r9, -8
	.cfi_offset r8, -12
	.cfi_offset r7, -16
	.cfi_offset r6, -20
	.cfi_offset r5, -24
	.cfi_offset r4, -28
	sub	sp, #28
	.cfi_def_cfa_offset 56
	ldrd	r6, r7, [r0, #8]
	mov	r1, r0
	movs	r0, #0
	adds	r5, r6, r2
	adcs.w	r5, r7, r3
	adc	r5, r0, #0
	cmp	r5, #1
	beq	.LBB28_5
	adds	r2, r2, r6
	ldrd	r5, r12, [r1, #16]
	adc.w	r9, r7, r3
	movs	r4, #4
	cmp	r2, #4
	mov.w	r3, #4
	it	hi
	movhi	r3, r2
	cmp.w	r9, #0
	ite	ne
	movne	r4, r2
	moveq	r4, r3
	lsl.w	r2, r12, #1
	orr.w	r3, r2, r5, lsr #31
	rsbs	r2, r4, r5, lsl #1
	sbcs.w	r2, r3, r9
	mov	r2, r4
	ite	hs
	lslhs	r2, r5, #1
	movlo	r3, r9
	cmp.w	r12, #1073741824
	itt	lo
	movlo	r4, r2
	movlo	r9, r3
	cmp.w	r0, r9, lsr #28
	bne	.LBB28_5
	orrs.w	r0, r5, r12
	beq	.LBB28_6
	movs	r0, #8
	mov	r8, r1
	ldr	r1, [r1]
	mov.w	r2, #-1
	str	r0, [sp]
	lsls	r0, r7, #3
	orrs.w	r0, r0, r6, lsr #29
	it	eq
	lsleq	r2, r6, #3
	lsl.w	r0, r9, #3
	mov.w	r3, #-1
	orrs.w	r0, r0, r4, lsr #29
	it	eq
	lsleq	r3, r4, #3
	add	r0, sp, #8
	bl	tlsf_memory_realloc
	ldr	r0, [sp, #8]
	lsls	r0, r0, #31
	beq	.LBB28_7
.LBB28_4:
	ldr	r0, [sp, #16]
	str.w	r0, [r8]
	movs	r0, #1
	strd	r4, r9, [r8, #16]
.LBB28_5:
	add	sp, #28
	pop.w	{r4, r5, r6, r7, r8, r9, pc}
.LBB28_6:
	lsls	r0, r3, #3
	mov	r8, r1
	orrs.w	r0, r0, r2, lsr #29
	mov.w	r1, #-1
	add	r0, sp, #8
	it	eq
	lsleq	r1, r2, #3
	movs	r2, #8
	bl	tlsf_memory_alloc
	ldr	r0, [sp, #8]
	lsls	r0, r0, #31
	bne	.LBB28_4
.LBB28_7:
	movs	r0, #0
	add	sp, #28
	pop.w	{r4, r5, r6, r7, r8, r9, pc}
.Lfunc_end28:
	.size	std_alloc.vec.Vec.grow_amortized.1345b5ed95b64201, .Lfunc_end28-std_alloc.vec.Vec.grow_amortized.1345b5ed95b64201
	.cfi_endproc
	.section	.text.tlsf_words.words.Words.lengthen,"ax",%progbits
	.p2align	1
	.type	tlsf_words.words.Words.lengthen,%function
	.code	16
	.thumb_func
tlsf_words.words.Words.lengthen:
	.cfi_startproc
	push.w	{r4, r5, r6, r7, r8, r9, r10, r11, lr}
	.cfi_def_cfa_offset 36
	.cfi_offset lr, -4
	.cfi_offset r11, -8
	.cfi_offset r10, -12
	.cfi_offset r9, -16
	.cfi_offset r8, -20
	.cfi_offset r7, -24
	.cfi_offset r6, -28
	.cfi_offset r5, -32
	.cfi_offset r4, -36
	sub	sp, #4
	.cfi_def_cfa_offset 40
	mov	r4, r1
	mov	r5, r0
	ldrd	r1, r0, [r0, #8]
	subs	r2, r1, r4
	sbcs	r2, r0, #0
	bhs	.LBB29_5
	ldrd	r8, r9, [r5, #16]
	movs	r2, #0
	subs	r6, r4, r1
	sbc.w	r7, r2, r0
	subs.w	r2, r8, r1
	sbc.w	r3, r9, r0
	subs	r2, r2, r6
	sbcs.w	r2, r3, r7
	blo	.LBB29_15
.LBB29_2:
	adds	r6, r6, r1
	ldr.w	r10, [r5]
	adcs	r7, r0
	subs	r2, r1, r6
	sbcs	r0, r7
	bhs	.LBB29_4
	add.w	r0, r10, r1, lsl #3
	subs	r1, r6, r1
	lsls	r2, r1, #3
	movs	r1, #0
	bl	tlsf_memory_set
.LBB29_4:
	add.w	r0, r5, #8
	str.w	r10, [r5]
	stm.w	r0, {r6, r7, r8, r9}
	b	.LBB29_6
.LBB29_5:
	subs	r1, r4, r1
	mov.w	r2, #0
	sbcs.w	r0, r2, r0
	it	lo
	strdlo	r4, r2, [r5, #8]
.LBB29_6:
	ldrd	r0, r1, [r5, #32]
	lsrs	r6, r4, #6
	orrs	r0, r1
	itt	ne
	movne	r0, #0
	strdne	r0, r0, [r5, #32]
	lsls	r1, r4, #26
	mov.w	r0, #1
	it	ne
	addne.w	r6, r0, r4, lsr #6
	cbz	r4, .LBB29_12
	ldrd	r9, r8, [r5, #40]
	subs.w	r0, r9, r6
	sbcs	r0, r8, #0
	blo	.LBB29_13
	movs	r0, #0
	movs	r1, #0
.LBB29_9:
	adds	r7, r0, r6
	ldr.w	r11, [r5, #24]
	adc	r10, r1, #0
	subs	r2, r0, r7
	sbcs.w	r1, r1, r10
	bhs	.LBB29_11
	add.w	r0, r11, r0, lsl #3
	lsls	r2, r6, #3
	movs	r1, #0
	bl	tlsf_memory_set
.LBB29_11:
	str.w	r11, [r5, #24]
	strd	r7, r10, [r5, #32]
	strd	r9, r8, [r5, #40]
.LBB29_12:
	str	r4, [r5, #48]
	add	sp, #4
	pop.w	{r4, r5, r6, r7, r8, r9, r10, r11, pc}
.LBB29_13:
	add.w	r0, r5, #24
	mov	r2, r6
	movs	r3, #0
	bl	std_alloc.vec.Vec.grow_amortized.1345b5ed95b64201
	cbz	r0, .LBB29_17
	add.w	r9, r5, #32
	ldr.w	r8, [r5, #44]
	ldm.w	r9, {r0, r1, r9}
	b	.LBB29_9
.LBB29_15:
	mov	r0, r5
	mov	r2, r6
	mov	r3, r7
	bl	std_alloc.vec.Vec.grow_amortized.1345b5ed95b64201
	cbz	r0, .LBB29_17
	ldrd	r1, r0, [r5, #8]
	ldrd	r8, r9, [r5, #16]
	b	.LBB29_2
.LBB29_17:
	.inst.n	0xdefe
.Lfunc_end29:
	.size	tlsf_words.words.Words.lengthen, .Lfunc_end29-tlsf_words.words.Words.lengthen
	.cfi_endproc
	.section	.text.tlsf_pool.sizes.split.rising_split.4,"ax",%progbits
	.p2align	1
	.type	tlsf_pool.sizes.split.rising_split.4,%function
	.code	16
	.thumb_func
tlsf_pool.sizes.split.rising_split.4:
	.cfi_startproc
	push.w	{r4, r5, r6, r7, r8, r9, r10, r11, lr}
	.cfi_def_cfa_offset 36
	.cfi_offset lr, -4
	.cfi_offset r11, -8
	.cfi_offset r10, -12
	.cfi_offset r9, -16
	.cfi_offset r8, -20
	.cfi_offset r7, -24
	.cfi_offset r6, -28
	.cfi_offset r5, -32
	.cfi_offset r4, -36
	subw	sp, sp, #1476
	.cfi_def_cfa_offset 1512
	mov	r7, r0
	subs	r0, r2, #2
	str	r1, [sp, #24]
	sbcs	r0, r3, #0
	strd	r3, r2, [sp, #16]
	blo	.LBB30_5
	movs	r0, #0
	movs	r1, #1
.LBB30_2:
	ldr	r6, [sp, #24]
	add.w	r5, r6, r1, lsl #3
	ldr	r6, [r5, #-4]
	ldr	r5, [r5, #4]
	cmp	r5, r6
	bls.w	.LBB30_34
	adds	r1, #1
	adc	r0, r0, #0
	subs	r6, r1, r2
	sbcs.w	r6, r0, r3
	blo	.LBB30_2
	add	r0, sp, #88
	movs	r1, #0
	movw	r2, #1300
	bl	tlsf_memory_set
	ldr	r1, [sp, #20]
	b	.LBB30_6
.LBB30_5:
	add	r0, sp, #88
	movs	r1, #0
	movw	r2, #1300
	movs	r4, #0
	mov	r5, r3
	bl	tlsf_memory_set
	ldr	r1, [sp, #20]
	orrs.w	r0, r1, r5
	beq.w	.LBB30_35
.LBB30_6:
	add.w	r4, r1, r1, lsl #2
	add	r5, sp, #88
	movs	r1, #0
	str	r7, [sp]
	lsls	r2, r4, #2
	mov	r0, r5
	movs	r6, #0
	bl	tlsf_memory_set
	movs	r0, #1
	ldr	r7, [sp, #20]
	str.w	r0, [r5, r4, lsl #2]
	add.w	r0, r5, r4, lsl #2
	movw	r10, #65513
	strd	r6, r6, [r0, #4]
	movt	r10, #127
	strd	r6, r6, [r0, #12]
	add.w	r0, sp, #1408
	add.w	r1, r0, #8
	adds	r0, #4
	str	r1, [sp, #60]
	add.w	r1, sp, #1432
	str	r0, [sp, #44]
	add.w	r0, sp, #1456
	adds	r0, #5
	str	r0, [sp, #40]
	ldr	r3, [sp, #16]
	add.w	lr, r1, #8
	adds	r6, r1, #4
	movs	r0, #0
	movs	r1, #0
	str.w	lr, [sp, #48]
	str	r6, [sp, #12]
	b	.LBB30_8
.LBB30_7:
	ldr	r2, [sp, #8]
	ldr	r4, [sp, #4]
	adds	r0, r2, #1
	adc	r1, r4, #0
	subs	r2, #7
	sbcs	r2, r4, #0
	bhs.w	.LBB30_31
.LBB30_8:
	strd	r1, r0, [sp, #4]
	movs	r2, #0
	movs	r1, #0
	b	.LBB30_10
.LBB30_9:
	ldr	r0, [sp, #64]
	add	r5, sp, #88
	str.w	r0, [sp, #1436]
	ldr	r0, [sp, #28]
	ldr	r6, [sp, #12]
	add.w	r0, r0, r0, lsl #2
	ldm.w	r6, {r1, r2, r3, r7}
	str.w	r4, [r5, r0, lsl #2]
	add.w	r0, r5, r0, lsl #2
	adds	r0, #4
	stm	r0!, {r1, r2, r3, r7}
	add.w	r0, sp, #1392
	stm	r0!, {r1, r2, r3, r7}
	ldr	r7, [sp, #20]
	ldr	r2, [sp, #32]
	ldr	r3, [sp, #16]
	ldr	r1, [sp, #36]
	subs	r0, r2, r7
	sbcs.w	r0, r1, r3
	bhs	.LBB30_7
.LBB30_10:
	movs	r0, #0
	subs.w	r11, r7, r2
	strd	r0, r0, [r6]
	sbc.w	r8, r3, r1
	strd	r0, r0, [r6, #8]
	movs	r4, #0
	ldr	r0, [sp, #24]
	movs	r7, #0
	str	r2, [sp, #28]
	movs	r3, #0
	add.w	r12, r0, r2, lsl #3
	adds	r0, r2, #1
	adc	r1, r1, #0
	strd	r0, r1, [sp, #32]
	add.w	r0, r0, r0, lsl #2
	add.w	r5, r5, r0, lsl #2
	movs	r0, #0
	str	r0, [sp, #64]
	strd	r8, r11, [sp, #52]
	str	r5, [sp, #68]
	b	.LBB30_13
.LBB30_11:
	movs	r4, #1
	mov	r2, lr
.LBB30_12:
	ldm	r2, {r0, r1, r2}
	ldr	r5, [sp, #68]
	stm.w	lr, {r0, r1, r2}
	subs.w	r0, r7, r11
	sbcs.w	r0, r3, r8
	bhs	.LBB30_9
.LBB30_13:
	mov	r9, r11
	mov	r11, r7
	adds	r7, #1
	add.w	r1, r11, r11, lsl #2
	adc	r0, r3, #0
	movs	r2, #0
	movs	r6, #0
	str	r4, [sp, #80]
	str	r0, [sp, #84]
	add.w	r0, r5, r1, lsl #2
	str	r0, [sp, #76]
.LBB30_14:
	add.w	r1, r12, r2, lsl #3
	ldr	r1, [r1, #4]
	cmp	r1, r10
	bhs	.LBB30_22
	adds	r1, r2, #1
	adc	r4, r6, #0
	subs.w	r2, r2, r11
	sbcs.w	r2, r6, r3
	mov	r2, r1
	mov	r6, r4
	blo	.LBB30_14
	str	r7, [sp, #72]
	movs	r7, #0
	movs	r2, #0
	movs	r6, #0
	movs	r1, #0
.LBB30_17:
	ldr.w	r5, [r12, r7, lsl #3]
	mov	r4, r7
	adds	r7, #1
	mov	r0, r1
	adc	r1, r1, #0
	adds	r2, r2, r5
	adc	r6, r6, #0
	subs.w	r5, r4, r11
	sbcs	r0, r3
	blo	.LBB30_17
	mov.w	lr, #0
	mov.w	r8, #0
	mov.w	r9, #0
	b	.LBB30_20
.LBB30_19:
	adds.w	r0, lr, #1
	adc	r1, r9, #0
	subs.w	r7, lr, r11
	sbcs.w	r7, r9, r3
	mov	lr, r0
	mov	r9, r1
	bhs	.LBB30_25
.LBB30_20:
	ldr.w	r0, [r12, lr, lsl #3]
	cmp	r0, #0
	beq	.LBB30_19
	add.w	r0, r12, lr, lsl #3
	ldr	r0, [r0, #4]
	cmp	r0, r8
	it	hi
	movhi	r8, r0
	b	.LBB30_19
.LBB30_22:
	ldr	r5, [sp, #80]
	mov	r11, r9
.LBB30_23:
	ldr	r3, [sp, #84]
	movs	r0, #0
	cmp	r5, #0
	str.w	r0, [sp, #1424]
	str.w	r0, [sp, #1420]
	str.w	r0, [sp, #1416]
	str.w	r0, [sp, #1412]
	str.w	r0, [sp, #1408]
	bne	.LBB30_11
	ldr	r2, [sp, #60]
	movs	r4, #0
	str	r0, [sp, #64]
	b	.LBB30_12
.LBB30_25:
	adds.w	r0, r8, #1
	mov.w	r7, #0
	adc	r1, r7, #0
	cmp.w	r8, #0
	itt	ne
	movne	r0, r8
	movne	r1, r7
	adds	r0, #31
	adc	r1, r1, #0
	lsrs	r0, r0, #3
	orr.w	r0, r0, r1, lsl #29
	subs	r1, r0, #1
	orr	r0, r0, #16
	clz	r0, r0
	rsb.w	r0, r0, #27
	lsrs	r1, r0
	adds	r3, r1, #1
	add.w	r1, r3, r0, lsl #4
	lsrs	r4, r1, #4
	itttt	ne
	movne	r0, #8
	lslne	r0, r4
	subne	r1, r4, #1
	andne	r3, r3, #15
	itt	ne
	lslne.w	r1, r3, r1
	addne	r1, r0
	umull	r2, r0, r2, r1
	ldr.w	r11, [sp, #56]
	ldrd	lr, r8, [sp, #48]
	mla	r3, r6, r1, r0
	ldr	r5, [sp, #80]
	rsbs.w	r0, r2, #1048576
	sbcs.w	r0, r7, r3
	ldrd	r7, r4, [sp, #72]
	blo	.LBB30_23
	ldrb	r0, [r4]
	cmp	r0, #1
	bne	.LBB30_23
	adds	r7, r4, #4
	ldr	r6, [r4, #16]
	ldr	r4, [sp, #40]
	cmp	r2, #4
	ldm	r7, {r0, r1, r7}
	str.w	r7, [sp, #1464]
	uxtb	r7, r1
	str.w	r1, [sp, #1460]
	add.w	r1, r1, #1
	str.w	r6, [sp, #1468]
	ldr	r6, [sp, #72]
	strb.w	r1, [sp, #1460]
	mov.w	r1, #4
	strb	r6, [r4, r7]
	ldr	r7, [sp, #72]
	it	hi
	movhi	r1, r2
	cmp	r3, #0
	mov.w	r3, #4
	itt	eq
	moveq	r2, r3
	moveq	r2, r1
	add	r0, r2
	ldr.w	r3, [sp, #1468]
	ldr.w	r2, [sp, #1460]
	ldr	r4, [sp, #44]
	ldr.w	r1, [sp, #1464]
	strd	r0, r2, [r4]
	strd	r1, r3, [r4, #8]
	ldr.w	r1, [sp, #1412]
	cbz	r5, .LBB30_29
	ldr	r0, [sp, #64]
	mov	r2, lr
	movs	r4, #1
	cmp	r1, r0
	it	lo
	movlo	r0, r1
	str	r0, [sp, #64]
	ldr	r0, [sp, #60]
	it	lo
	movlo	r2, r0
	b	.LBB30_30
.LBB30_29:
	ldr	r2, [sp, #60]
	movs	r4, #1
	str	r1, [sp, #64]
.LBB30_30:
	ldr	r3, [sp, #84]
	b	.LBB30_12
.LBB30_31:
	ldrb.w	r2, [sp, #88]
	ldr	r7, [sp]
	cmp	r2, #1
	bne	.LBB30_33
	ldr	r4, [sp, #92]
	ldrb.w	r12, [sp, #96]
	ldrb.w	lr, [sp, #97]
	ldrb.w	r8, [sp, #98]
	ldrb.w	r9, [sp, #99]
	ldrb.w	r10, [sp, #100]
	ldrb.w	r6, [sp, #101]
	ldrb.w	r5, [sp, #102]
	ldrb.w	r0, [sp, #103]
	ldrb.w	r1, [sp, #104]
	b	.LBB30_36
.LBB30_33:
	mov.w	r12, #0
	mov.w	lr, #0
	mov.w	r8, #0
	mov.w	r9, #0
	mov.w	r10, #0
	movs	r6, #0
	movs	r5, #0
	movs	r0, #0
	movs	r1, #0
	movs	r4, #0
	b	.LBB30_37
.LBB30_34:
	mov	r0, r7
	movs	r1, #0
	movs	r2, #88
	addw	sp, sp, #1476
	pop.w	{r4, r5, r6, r7, r8, r9, r10, r11, lr}
	b	tlsf_memory_set
.LBB30_35:
	mov.w	r12, #0
	mov.w	lr, #0
	mov.w	r8, #0
	mov.w	r9, #0
	mov.w	r10, #0
	movs	r6, #0
	movs	r5, #0
	movs	r0, #0
	movs	r1, #0
.LBB30_36:
	movs	r2, #1
.LBB30_37:
	movs	r3, #0
	str	r4, [r7, #80]
	str	r3, [r7, #84]
	str	r3, [r7, #76]
	str	r1, [r7, #72]
	str	r3, [r7, #68]
	str	r0, [r7, #64]
	str	r3, [r7, #60]
	str	r5, [r7, #56]
	str	r3, [r7, #52]
	str	r6, [r7, #48]
	str	r3, [r7, #44]
	str.w	r10, [r7, #40]
	str	r3, [r7, #36]
	str.w	r9, [r7, #32]
	str	r3, [r7, #28]
	str.w	r8, [r7, #24]
	str	r3, [r7, #20]
	str.w	lr, [r7, #16]
	str	r3, [r7, #12]
	str.w	r12, [r7, #8]
	str	r3, [r7, #4]
	str	r2, [r7]
	addw	sp, sp, #1476
	pop.w	{r4, r5, r6, r7, r8, r9, r10, r11, pc}
.Lfunc_end30:
	.size	tlsf_pool.sizes.split.rising_split.4, .Lfunc_end30-tlsf_pool.sizes.split.rising_split.4
	.cfi_endproc
	.section	.text.unlikely.std_alloc.vec.Vec.grow_amortized.8f83c87fc5454f35,"ax",%progbits
	.p2align	1
	.type	std_alloc.vec.Vec.grow_amortized.8f83c87fc5454f35,%function
	.code	16
	.thumb_func
std_alloc.vec.Vec.grow_amortized.8f83c87fc5454f35:
	.cfi_startproc
	push.w	{r4, r5, r6, r7, r8, r9, lr}
	.cfi_def_cfa_offset 28
	.cfi_offset lr, -4
	.cfi_offset r9, -8
	.cfi_offset r8, -12
	.cfi_offset r7, -16
	.cfi_offset r6, -20
	.cfi_offset r5, -24
	.cfi_offset r4, -28
	sub	sp, #28
	.cfi_def_cfa_offset 56
	ldrd	r2, r6, [r0, #8]
	movs	r1, #0
	adds.w	r9, r2, #1
	adcs	r8, r6, #0
	adc	r3, r1, #0
	cmp	r3, #1
	bne	.LBB31_2
	mov	r0, r1
	add	sp, #28
	pop.w	{r4, r5, r6, r7, r8, r9, pc}
.LBB31_2:
	ldrd	r1, r5, [r0, #16]
	movw	r7, #25350
	lsls	r3, r5, #1
	movt	r7, #2253
	rsbs	r4, r9, r1, lsl #1
	movw	r12, #48260
	orr.w	r3, r3, r1, lsr #31
	movt	r12, #11
	sbcs.w	r4, r3, r8
	mov	r4, r9
	ite	hs
	lslhs	r4, r1, #1
	movlo	r3, r8
	cmp.w	r5, #1073741824
	itt	lo
	movlo	r8, r3
	movlo	r9, r4
	subs.w	r7, r7, r9
	sbcs.w	r7, r12, r8
	blo	.LBB31_8
	orrs	r1, r5
	beq	.LBB31_6
	movw	r7, #2792
	umull	r2, r1, r2, r7
	umull	r3, r5, r9, r7
	mla	r4, r6, r7, r1
	mov	r6, r0
	ldr	r1, [r0]
	mla	r0, r8, r7, r5
	movs	r7, #8
	str	r7, [sp]
	mov.w	r7, #-1
	cmp	r4, #0
	it	ne
	movne	r2, r7
	cmp	r0, #0
	add	r0, sp, #8
	it	ne
	movne	r3, r7
	bl	tlsf_memory_realloc
	ldr	r0, [sp, #8]
	lsls	r0, r0, #31
	bne	.LBB31_7
	movs	r1, #0
	mov	r0, r1
	add	sp, #28
	pop.w	{r4, r5, r6, r7, r8, r9, pc}
.LBB31_6:
	mov	r6, r0
	movw	r0, #2792
	umull	r1, r2, r4, r0
	mla	r0, r3, r0, r2
	movs	r2, #8
	cmp	r0, #0
	add	r0, sp, #8
	it	ne
	movne.w	r1, #-1
	bl	tlsf_memory_alloc
	ldr	r0, [sp, #8]
	lsls	r0, r0, #31
	beq	.LBB31_8
.LBB31_7:
	ldr	r0, [sp, #16]
	movs	r1, #1
	str	r0, [r6]
	strd	r9, r8, [r6, #16]
	mov	r0, r1
	add	sp, #28
	pop.w	{r4, r5, r6, r7, r8, r9, pc}
.LBB31_8:
	movs	r1, #0
	mov	r0, r1
	add	sp, #28
	pop.w	{r4, r5, r6, r7, r8, r9, pc}
.Lfunc_end31:
	.size	std_alloc.vec.Vec.grow_amortized.8f83c87fc5454f35, .Lfunc_end31-std_alloc.vec.Vec.grow_amortized.8f83c87fc5454f35
	.cfi_endproc
	.section	.text.tlsf_pool.sizes.split.rising_split.5,"ax",%progbits
	.p2align	1
	.type	tlsf_pool.sizes.split.rising_split.5,%function
	.code	16
	.thumb_func
tlsf_pool.sizes.split.rising_split.5:
	.cfi_startproc
	push.w	{r4, r5, r6, r7, r8, r9, r10, r11, lr}
	.cfi_def_cfa_offset 36
	.cfi_offset lr, -4
	.cfi_offset r11, -8
	.cfi_offset r10, -12
	.cfi_offset r9, -16
	.cfi_offset r8, -20
	.cfi_offset r7, -24
	.cfi_offset r6, -28
	.cfi_offset r5, -32
	.cfi_offset r4, -36
	subw	sp, sp, #1476
	.cfi_def_cfa_offset 1512
	mov	r7, r0
	subs	r0, r2, #2
	str	r1, [sp, #24]
	sbcs	r0, r3, #0
	strd	r3, r2, [sp, #16]
	blo	.LBB32_5
	movs	r0, #0
	movs	r1, #1
.LBB32_2:
	ldr	r6, [sp, #24]
	add.w	r5, r6, r1, lsl #3
	ldr	r6, [r5, #-4]
	ldr	r5, [r5, #4]
	cmp	r5, r6
	bls.w	.LBB32_34
	adds	r1, #1
	adc	r0, r0, #0
	subs	r6, r1, r2
	sbcs.w	r6, r0, r3
	blo	.LBB32_2
	add	r0, sp, #88
	movs	r1, #0
	movw	r2, #1300
	bl	tlsf_memory_set
	ldr	r1, [sp, #20]
	b	.LBB32_6
.LBB32_5:
	add	r0, sp, #88
	movs	r1, #0
	movw	r2, #1300
	movs	r4, #0
	mov	r5, r3
	bl	tlsf_memory_set
	ldr	r1, [sp, #20]
	orrs.w	r0, r1, r5
	beq.w	.LBB32_35
.LBB32_6:
	add.w	r4, r1, r1, lsl #2
	add	r5, sp, #88
	movs	r1, #0
	str	r7, [sp]
	lsls	r2, r4, #2
	mov	r0, r5
	movs	r6, #0
	bl	tlsf_memory_set
	movs	r0, #1
	ldr	r7, [sp, #20]
	str.w	r0, [r5, r4, lsl #2]
	add.w	r0, r5, r4, lsl #2
	movw	r10, #65513
	strd	r6, r6, [r0, #4]
	movt	r10, #2047
	strd	r6, r6, [r0, #12]
	add.w	r0, sp, #1408
	add.w	r1, r0, #8
	adds	r0, #4
	str	r1, [sp, #60]
	add.w	r1, sp, #1432
	str	r0, [sp, #44]
	add.w	r0, sp, #1456
	adds	r0, #5
	str	r0, [sp, #40]
	ldr	r3, [sp, #16]
	add.w	lr, r1, #8
	adds	r6, r1, #4
	movs	r0, #0
	movs	r1, #0
	str.w	lr, [sp, #48]
	str	r6, [sp, #12]
	b	.LBB32_8
.LBB32_7:
	ldr	r2, [sp, #8]
	ldr	r4, [sp, #4]
	adds	r0, r2, #1
	adc	r1, r4, #0
	subs	r2, #7
	sbcs	r2, r4, #0
	bhs.w	.LBB32_31
.LBB32_8:
	strd	r1, r0, [sp, #4]
	movs	r2, #0
	movs	r1, #0
	b	.LBB32_10
.LBB32_9:
	ldr	r0, [sp, #64]
	add	r5, sp, #88
	str.w	r0, [sp, #1436]
	ldr	r0, [sp, #28]
	ldr	r6, [sp, #12]
	add.w	r0, r0, r0, lsl #2
	ldm.w	r6, {r1, r2, r3, r7}
	str.w	r4, [r5, r0, lsl #2]
	add.w	r0, r5, r0, lsl #2
	adds	r0, #4
	stm	r0!, {r1, r2, r3, r7}
	add.w	r0, sp, #1392
	stm	r0!, {r1, r2, r3, r7}
	ldr	r7, [sp, #20]
	ldr	r2, [sp, #32]
	ldr	r3, [sp, #16]
	ldr	r1, [sp, #36]
	subs	r0, r2, r7
	sbcs.w	r0, r1, r3
	bhs	.LBB32_7
.LBB32_10:
	movs	r0, #0
	subs.w	r11, r7, r2
	strd	r0, r0, [r6]
	sbc.w	r8, r3, r1
	strd	r0, r0, [r6, #8]
	movs	r4, #0
	ldr	r0, [sp, #24]
	movs	r7, #0
	str	r2, [sp, #28]
	movs	r3, #0
	add.w	r12, r0, r2, lsl #3
	adds	r0, r2, #1
	adc	r1, r1, #0
	strd	r0, r1, [sp, #32]
	add.w	r0, r0, r0, lsl #2
	add.w	r5, r5, r0, lsl #2
	movs	r0, #0
	str	r0, [sp, #64]
	strd	r8, r11, [sp, #52]
	str	r5, [sp, #68]
	b	.LBB32_13
.LBB32_11:
	movs	r4, #1
	mov	r2, lr
.LBB32_12:
	ldm	r2, {r0, r1, r2}
	ldr	r5, [sp, #68]
	stm.w	lr, {r0, r1, r2}
	subs.w	r0, r7, r11
	sbcs.w	r0, r3, r8
	bhs	.LBB32_9
.LBB32_13:
	mov	r9, r11
	mov	r11, r7
	adds	r7, #1
	add.w	r1, r11, r11, lsl #2
	adc	r0, r3, #0
	movs	r2, #0
	movs	r6, #0
	str	r4, [sp, #80]
	str	r0, [sp, #84]
	add.w	r0, r5, r1, lsl #2
	str	r0, [sp, #76]
.LBB32_14:
	add.w	r1, r12, r2, lsl #3
	ldr	r1, [r1, #4]
	cmp	r1, r10
	bhs	.LBB32_22
	adds	r1, r2, #1
	adc	r4, r6, #0
	subs.w	r2, r2, r11
	sbcs.w	r2, r6, r3
	mov	r2, r1
	mov	r6, r4
	blo	.LBB32_14
	str	r7, [sp, #72]
	movs	r7, #0
	movs	r2, #0
	movs	r6, #0
	movs	r1, #0
.LBB32_17:
	ldr.w	r5, [r12, r7, lsl #3]
	mov	r4, r7
	adds	r7, #1
	mov	r0, r1
	adc	r1, r1, #0
	adds	r2, r2, r5
	adc	r6, r6, #0
	subs.w	r5, r4, r11
	sbcs	r0, r3
	blo	.LBB32_17
	mov.w	lr, #0
	mov.w	r8, #0
	mov.w	r9, #0
	b	.LBB32_20
.LBB32_19:
	adds.w	r0, lr, #1
	adc	r1, r9, #0
	subs.w	r7, lr, r11
	sbcs.w	r7, r9, r3
	mov	lr, r0
	mov	r9, r1
	bhs	.LBB32_25
.LBB32_20:
	ldr.w	r0, [r12, lr, lsl #3]
	cmp	r0, #0
	beq	.LBB32_19
	add.w	r0, r12, lr, lsl #3
	ldr	r0, [r0, #4]
	cmp	r0, r8
	it	hi
	movhi	r8, r0
	b	.LBB32_19
.LBB32_22:
	ldr	r5, [sp, #80]
	mov	r11, r9
.LBB32_23:
	ldr	r3, [sp, #84]
	movs	r0, #0
	cmp	r5, #0
	str.w	r0, [sp, #1424]
	str.w	r0, [sp, #1420]
	str.w	r0, [sp, #1416]
	str.w	r0, [sp, #1412]
	str.w	r0, [sp, #1408]
	bne	.LBB32_11
	ldr	r2, [sp, #60]
	movs	r4, #0
	str	r0, [sp, #64]
	b	.LBB32_12
.LBB32_25:
	adds.w	r0, r8, #1
	mov.w	r7, #0
	adc	r1, r7, #0
	cmp.w	r8, #0
	itt	ne
	movne	r0, r8
	movne	r1, r7
	adds	r0, #31
	adc	r1, r1, #0
	lsrs	r0, r0, #3
	orr.w	r0, r0, r1, lsl #29
	subs	r1, r0, #1
	orr	r0, r0, #32
	clz	r0, r0
	rsb.w	r0, r0, #26
	lsrs	r1, r0
	adds	r3, r1, #1
	add.w	r1, r3, r0, lsl #5
	lsrs	r4, r1, #5
	itttt	ne
	movne	r0, #16
	lslne	r0, r4
	subne	r1, r4, #1
	andne	r3, r3, #31
	itt	ne
	lslne.w	r1, r3, r1
	addne	r1, r0
	umull	r2, r0, r2, r1
	ldr.w	r11, [sp, #56]
	ldrd	lr, r8, [sp, #48]
	mla	r3, r6, r1, r0
	ldr	r5, [sp, #80]
	rsbs.w	r0, r2, #16777216
	sbcs.w	r0, r7, r3
	ldrd	r7, r4, [sp, #72]
	blo	.LBB32_23
	ldrb	r0, [r4]
	cmp	r0, #1
	bne	.LBB32_23
	adds	r7, r4, #4
	ldr	r6, [r4, #16]
	ldr	r4, [sp, #40]
	cmp	r2, #4
	ldm	r7, {r0, r1, r7}
	str.w	r7, [sp, #1464]
	uxtb	r7, r1
	str.w	r1, [sp, #1460]
	add.w	r1, r1, #1
	str.w	r6, [sp, #1468]
	ldr	r6, [sp, #72]
	strb.w	r1, [sp, #1460]
	mov.w	r1, #4
	strb	r6, [r4, r7]
	ldr	r7, [sp, #72]
	it	hi
	movhi	r1, r2
	cmp	r3, #0
	mov.w	r3, #4
	itt	eq
	moveq	r2, r3
	moveq	r2, r1
	add	r0, r2
	ldr.w	r3, [sp, #1468]
	ldr.w	r2, [sp, #1460]
	ldr	r4, [sp, #44]
	ldr.w	r1, [sp, #1464]
	strd	r0, r2, [r4]
	strd	r1, r3, [r4, #8]
	ldr.w	r1, [sp, #1412]
	cbz	r5, .LBB32_29
	ldr	r0, [sp, #64]
	mov	r2, lr
	movs	r4, #1
	cmp	r1, r0
	it	lo
	movlo	r0, r1
	str	r0, [sp, #64]
	ldr	r0, [sp, #60]
	it	lo
	movlo	r2, r0
	b	.LBB32_30
.LBB32_29:
	ldr	r2, [sp, #60]
	movs	r4, #1
	str	r1, [sp, #64]
.LBB32_30:
	ldr	r3, [sp, #84]
	b	.LBB32_12
.LBB32_31:
	ldrb.w	r2, [sp, #88]
	ldr	r7, [sp]
	cmp	r2, #1
	bne	.LBB32_33
	ldr	r4, [sp, #92]
	ldrb.w	r12, [sp, #96]
	ldrb.w	lr, [sp, #97]
	ldrb.w	r8, [sp, #98]
	ldrb.w	r9, [sp, #99]
	ldrb.w	r10, [sp, #100]
	ldrb.w	r6, [sp, #101]
	ldrb.w	r5, [sp, #102]
	ldrb.w	r0, [sp, #103]
	ldrb.w	r1, [sp, #104]
	b	.LBB32_36
.LBB32_33:
	mov.w	r12, #0
	mov.w	lr, #0
	mov.w	r8, #0
	mov.w	r9, #0
	mov.w	r10, #0
	movs	r6, #0
	movs	r5, #0
	movs	r0, #0
	movs	r1, #0
	movs	r4, #0
	b	.LBB32_37
.LBB32_34:
	mov	r0, r7
	movs	r1, #0
	movs	r2, #88
	addw	sp, sp, #1476
	pop.w	{r4, r5, r6, r7, r8, r9, r10, r11, lr}
	b	tlsf_memory_set
.LBB32_35:
	mov.w	r12, #0
	mov.w	lr, #0
	mov.w	r8, #0
	mov.w	r9, #0
	mov.w	r10, #0
	movs	r6, #0
	movs	r5, #0
	movs	r0, #0
	movs	r1, #0
.LBB32_36:
	movs	r2, #1
.LBB32_37:
	movs	r3, #0
	str	r4, [r7, #80]
	str	r3, [r7, #84]
	str	r3, [r7, #76]
	str	r1, [r7, #72]
	str	r3, [r7, #68]
	str	r0, [r7, #64]
	str	r3, [r7, #60]
	str	r5, [r7, #56]
	str	r3, [r7, #52]
	str	r6, [r7, #48]
	str	r3, [r7, #44]
	str.w	r10, [r7, #40]
	str	r3, [r7, #36]
	str.w	r9, [r7, #32]
	str	r3, [r7, #28]
	str.w	r8, [r7, #24]
	str	r3, [r7, #20]
	str.w	lr, [r7, #16]
	str	r3, [r7, #12]
	str.w	r12, [r7, #8]
	str	r3, [r7, #4]
	str	r2, [r7]
	addw	sp, sp, #1476
	pop.w	{r4, r5, r6, r7, r8, r9, r10, r11, pc}
.Lfunc_end32:
	.size	tlsf_pool.sizes.split.rising_split.5, .Lfunc_end32-tlsf_pool.sizes.split.rising_split.5
	.cfi_endproc
	.section	.text.unlikely.std_alloc.vec.Vec.grow_amortized.cb831ce0f1fbfa3d,"ax",%progbits
	.p2align	1
	.type	std_alloc.vec.Vec.grow_amortized.cb831ce0f1fbfa3d,%function
	.code	16
	.thumb_func
std_alloc.vec.Vec.grow_amortized.cb831ce0f1fbfa3d:
	.cfi_startproc
	push.w	{r4, r5, r6, r7, r8, r9, lr}
	.cfi_def_cfa_offset 28
	.cfi_offset lr, -4
	.cfi_offset r9, -8
	.cfi_offset r8, -12
	.cfi_offset r7, -16
	.cfi_offset r6, -20
	.cfi_offset r5, -24
	.cfi_offset r4, -28
	sub	sp, #28
	.cfi_def_cfa_offset 56
	ldrd	r2, r6, [r0, #8]
	movs	r1, #0
	adds.w	r9, r2, #1
	adcs	r8, r6, #0
	adc	r3, r1, #0
	cmp	r3, #1
	bne	.LBB33_2
	mov	r0, r1
	add	sp, #28
	pop.w	{r4, r5, r6, r7, r8, r9, pc}
.LBB33_2:
	ldrd	r1, r5, [r0, #16]
	movw	r7, #25350
	lsls	r3, r5, #1
	movt	r7, #2253
	rsbs	r4, r9, r1, lsl #1
	movw	r12, #48260
	orr.w	r3, r3, r1, lsr #31
	movt	r12, #11
	sbcs.w	r4, r3, r8
	mov	r4, r9
	ite	hs
	lslhs	r4, r1, #1
	movlo	r3, r8
	cmp.w	r5, #1073741824
	itt	lo
	movlo	r8, r3
	movlo	r9, r4
	subs.w	r7, r7, r9
	sbcs.w	r7, r12, r8
	blo	.LBB33_8
	orrs	r1, r5
	beq	.LBB33_6
	movw	r7, #2792
	umull	r2, r1, r2, r7
	umull	r3, r5, r9, r7
	mla	r4, r6, r7, r1
	mov	r6, r0
	ldr	r1, [r0]
	mla	r0, r8, r7, r5
	movs	r7, #8
	str	r7, [sp]
	mov.w	r7, #-1
	cmp	r4, #0
	it	ne
	movne	r2, r7
	cmp	r0, #0
	add	r0, sp, #8
	it	ne
	movne	r3, r7
	bl	tlsf_memory_realloc
	ldr	r0, [sp, #8]
	lsls	r0, r0, #31
	bne	.LBB33_7
	movs	r1, #0
	mov	r0, r1
	add	sp, #28
	pop.w	{r4, r5, r6, r7, r8, r9, pc}
.LBB33_6:
	mov	r6, r0
	movw	r0, #2792
	umull	r1, r2, r4, r0
	mla	r0, r3, r0, r2
	movs	r2, #8
	cmp	r0, #0
	add	r0, sp, #8
	it	ne
	movne.w	r1, #-1
	bl	tlsf_memory_alloc
	ldr	r0, [sp, #8]
	lsls	r0, r0, #31
	beq	.LBB33_8
.LBB33_7:
	ldr	r0, [sp, #16]
	movs	r1, #1
	str	r0, [r6]
	strd	r9, r8, [r6, #16]
	mov	r0, r1
	add	sp, #28
	pop.w	{r4, r5, r6, r7, r8, r9, pc}
.LBB33_8:
	movs	r1, #0
	mov	r0, r1
	add	sp, #28
	pop.w	{r4, r5, r6, r7, r8, r9, pc}
.Lfunc_end33:
	.size	std_alloc.vec.Vec.grow_amortized.cb831ce0f1fbfa3d, .Lfunc_end33-std_alloc.vec.Vec.grow_amortized.cb831ce0f1fbfa3d
	.cfi_endproc
	.section	.text.tlsf_heap.region.Region.read.4,"ax",%progbits
	.p2align	1
	.type	tlsf_heap.region.Region.read.4,%function
	.code	16
	.thumb_func
tlsf_heap.region.Region.read.4:
	.cfi_startproc
	push	{r4, r5, r7, lr}
	.cfi_def_cfa_offset 16
	.cfi_offset lr, -4
	.cfi_offset r7, -8
	.cfi_offset r5, -12
	.cfi_offset r4, -16
	sub	sp, #16
	.cfi_def_cfa_offset 32
	lsrs	r4, r1, #29
	adds.w	r1, r2, r1, lsl #3
	ldrd	r5, lr, [sp, #32]
	adc	r4, r4, #0
	adds	r1, #24
	adc	r12, r4, #0
	orrs	r2, r5
	lsls	r2, r2, #29
	beq	.LBB34_3
	movs	r2, #0
	rsbs.w	r4, r5, #7
	sbcs.w	r2, r2, lr
	blo	.LBB34_8
	str	r3, [sp]
	mov	r2, r1
	mov	r3, r12
	strd	r5, lr, [sp, #8]
	bl	tlsf_words.words.Words.read_few
	add	sp, #16
	pop	{r4, r5, r7, pc}
.LBB34_3:
	ldr	r0, [r0]
	lsrs	r2, r5, #3
	bic	r1, r1, #7
	orr.w	r2, r2, lr, lsl #29
	add	r0, r1
	movs	r1, #0
	rsbs.w	r4, r5, #63
	sbcs.w	r1, r1, lr
	blo	.LBB34_9
	lsls	r1, r5, #28
	bmi	.LBB34_10
	lsls	r1, r5, #27
	bmi	.LBB34_11
.LBB34_6:
	subs.w	r1, r5, #25
	sbcs	r1, lr, #0
	bhs	.LBB34_12
.LBB34_7:
	add	sp, #16
	pop	{r4, r5, r7, pc}
.LBB34_8:
	str	r3, [sp]
	mov	r2, r1
	mov	r3, r12
	strd	r5, lr, [sp, #8]
	bl	tlsf_words.words.Words.read_run
	add	sp, #16
	pop	{r4, r5, r7, pc}
.LBB34_9:
	lsr.w	r1, lr, #3
	str	r3, [sp, #32]
	mov	r3, r1
	add	sp, #16
	pop.w	{r4, r5, r7, lr}
	b	tlsf_words.cells.unpack_many
.LBB34_10:
	mvn	r1, #7
	add.w	r1, r1, r2, lsl #3
	adds	r4, r0, r1
	ldr.w	r12, [r0, r1]
	ldr	r4, [r4, #4]
	str.w	r12, [r3, r1]
	add	r1, r3
	str	r4, [r1, #4]
	lsls	r1, r5, #27
	bpl	.LBB34_6
.LBB34_11:
	movs	r1, #32
	and.w	r1, r1, r2, lsl #3
	adds	r4, r0, r1
	ldr	r2, [r0, r1]
	ldr	r4, [r4, #4]
	str	r2, [r3, r1]
	adds	r2, r3, r1
	adds	r1, #8
	str	r4, [r2, #4]
	adds	r4, r0, r1
	ldr	r2, [r0, r1]
	ldr	r4, [r4, #4]
	str	r2, [r3, r1]
	add	r1, r3
	str	r4, [r1, #4]
	subs.w	r1, r5, #25
	sbcs	r1, lr, #0
	blo	.LBB34_7
.LBB34_12:
	ldrd	r1, r2, [r0]
	str	r1, [r3]
	str	r2, [r3, #4]
	ldrd	r1, r2, [r0, #8]
	str	r1, [r3, #8]
	str	r2, [r3, #12]
	ldrd	r1, r2, [r0, #16]
	str	r1, [r3, #16]
	str	r2, [r3, #20]
	ldrd	r1, r0, [r0, #24]
	str	r1, [r3, #24]
	str	r0, [r3, #28]
	add	sp, #16
	pop	{r4, r5, r7, pc}
.Lfunc_end34:
	.size	tlsf_heap.region.Region.read.4, .Lfunc_end34-tlsf_heap.region.Region.read.4
	.cfi_endproc
	.section	.text.tlsf_words.cells.unpack_many,"ax",%progbits
	.p2align	1
	.type	tlsf_words.cells.unpack_many,%function
	.code	16
	.thumb_func
tlsf_words.cells.unpack_many:
	.cfi_startproc
	push	{r4, r5, r6, r7, lr}
	.cfi_def_cfa_offset 20
	.cfi_offset lr, -4
	.cfi_offset r7, -8
	.cfi_offset r6, -12
	.cfi_offset r5, -16
	.cfi_offset r4, -20
	sub	sp, #28
	.cfi_def_cfa_offset 48
	bic	r1, r2, #3
	ldr.w	r12, [sp, #48]
	lsls	r5, r2, #31
	add.w	r4, r0, r1, lsl #3
	add.w	lr, r12, r1, lsl #3
	beq	.LBB35_2
	movs	r5, #24
	and.w	r5, r5, r2, lsl #3
	subs	r5, #8
	adds	r7, r4, r5
	ldr	r6, [r4, r5]
	ldr	r7, [r7, #4]
	str.w	r6, [lr, r5]
	add	r5, lr
	str	r7, [r5, #4]
.LBB35_2:
	lsls	r2, r2, #30
	bpl	.LBB35_4
	ldrd	r2, r5, [r4]
	str.w	r2, [lr]
	str.w	r5, [lr, #4]
	ldrd	r2, r4, [r4, #8]
	str.w	r2, [lr, #8]
	str.w	r4, [lr, #12]
.LBB35_4:
	movs	r2, #0
	movs	r4, #0
.LBB35_5:
	add.w	r6, r0, r2, lsl #3
	ldr.w	r7, [r0, r2, lsl #3]
	ldr	r6, [r6, #4]
	str.w	r7, [r12, r2, lsl #3]
	add.w	r7, r12, r2, lsl #3
	adds	r2, #1
	adc	r4, r4, #0
	str	r6, [r7, #4]
	subs	r7, r2, r1
	sbcs.w	r7, r4, r3
	blo	.LBB35_5
	add	sp, #28
	pop	{r4, r5, r6, r7, pc}
.Lfunc_end35:
	.size	tlsf_words.cells.unpack_many, .Lfunc_end35-tlsf_words.cells.unpack_many
	.cfi_endproc
	.section	.text.tlsf_words.words.Words.read_few,"ax",%progbits
	.p2align	1
	.type	tlsf_words.words.Words.read_few,%function
	.code	16
	.thumb_func
tlsf_words.words.Words.read_few:
	.cfi_startproc
	push.w	{r4, r5, r6, r7, r8, r9, r10, r11, lr}
	.cfi_def_cfa_offset 36
	.cfi_offset lr, -4
	.cfi_offset r11, -8
	.cfi_offset r10, -12
	.cfi_offset r9, -16
	.cfi_offset r8, -20
	.cfi_offset r7, -24
	.cfi_offset r6, -28
	.cfi_offset r5, -32
	.cfi_offset r4, -36
	sub	sp, #12
	.cfi_def_cfa_offset 48
	mov	r9, r0
	lsrs	r0, r2, #3
	ldrd	r7, r10, [sp, #56]
	orr.w	r6, r0, r3, lsl #29
	and	r0, r2, #7
	ldr.w	r8, [sp, #48]
	rsb.w	r4, r0, #8
	mov.w	r11, #0
	subs	r1, r4, r7
	mov	r5, r7
	sbcs.w	r1, r11, r10
	it	lo
	movlo	r5, r4
	orr.w	r1, r7, r10
	cbz	r1, .LBB36_2
	ldr.w	r1, [r9]
	ldr.w	r2, [r1, r6, lsl #3]
	add.w	r1, r1, r6, lsl #3
	ldr	r1, [r1, #4]
	strd	r2, r1, [sp]
	mov	r1, sp
	add	r1, r0
	mov	r0, r8
	mov	r2, r5
	bl	tlsf_memory_cpy
.LBB36_2:
	subs	r0, r4, r7
	sbcs.w	r0, r11, r10
	bhs	.LBB36_4
	ldr.w	r0, [r9]
	subs	r2, r7, r5
	add.w	r0, r0, r6, lsl #3
	ldrd	r0, r1, [r0, #8]
	strd	r0, r1, [sp]
	add.w	r0, r8, r5
	mov	r1, sp
	bl	tlsf_memory_cpy
.LBB36_4:
	add	sp, #12
	pop.w	{r4, r5, r6, r7, r8, r9, r10, r11, pc}
.Lfunc_end36:
	.size	tlsf_words.words.Words.read_few, .Lfunc_end36-tlsf_words.words.Words.read_few
	.cfi_endproc
	.section	.text.tlsf_words.words.Words.read_run,"ax",%progbits
	.p2align	1
	.type	tlsf_words.words.Words.read_run,%function
	.code	16
	.thumb_func
tlsf_words.words.Words.read_run:
	.cfi_startproc
	push.w	{r4, r5, r6, r7, r8, r9, r10, r11, lr}
	.cfi_def_cfa_offset 36
	.cfi_offset lr, -4
	.cfi_offset r11, -8
	.cfi_offset r10, -12
	.cfi_offset r9, -16
	.cfi_offset r8, -20
	.cfi_offset r7, -24
	.cfi_offset r6, -28
	.cfi_offset r5, -32
	.cfi_offset r4, -36
	sub	sp, #20
	.cfi_def_cfa_offset 56
	rsbs	r5, r2, #0
	ldrd	r8, r6, [sp, #64]
	and	r1, r5, #7
	str	r1, [sp, #12]
	subs.w	r11, r8, r1
	sbc	r1, r6, #0
	str	r1, [sp, #16]
	mov	r7, r11
	ldr.w	lr, [sp, #56]
	bfi	r7, r5, #0, #3
	adds	r5, r2, #7
	adc	r9, r3, #0
	lsr.w	r1, r11, #3
	lsr.w	r10, r5, #3
	ands	r5, r2, #7
	beq	.LBB37_2
	str	r1, [sp, #8]
	bic	r2, r2, #7
	ldr	r1, [r0]
	add.w	r12, r1, r2
	ldr	r1, [r1, r2]
	lsls	r2, r5, #3
	ldr.w	r3, [r12, #4]
	str	r1, [sp, #4]
	mvn	r12, #31
	add.w	r4, r12, r5, lsl #3
	lsr.w	r1, r3, r2
	cmp	r4, #0
	it	pl
	movpl	r1, #0
	str.w	r1, [lr, #4]
	mov.w	r1, #32
	sub.w	r1, r1, r5, lsl #3
	ldr	r5, [sp, #4]
	lsl.w	r1, r3, r1
	lsr.w	r2, r5, r2
	orr.w	r1, r1, r2
	it	pl
	lsrpl.w	r1, r3, r4
	str.w	r1, [lr]
	ldr	r1, [sp, #8]
.LBB37_2:
	ldr	r5, [sp, #16]
	orr.w	r12, r10, r9, lsl #29
	orr.w	r2, r1, r5, lsl #29
	eor.w	r1, r7, r8
	orrs	r1, r6
	beq	.LBB37_4
	ldr	r3, [r0]
	sub.w	r1, r7, r8
	add.w	r7, r2, r12
	movs	r4, #64
	add.w	r6, r3, r7, lsl #3
	ldr.w	r3, [r3, r7, lsl #3]
	add.w	r7, r4, r1, lsl #3
	mvn	r4, #31
	ldr	r6, [r6, #4]
	sub.w	r4, r4, r1, lsl #3
	lsr.w	r4, r3, r4
	lsls	r6, r7
	orr.w	r9, r4, r6
	movs	r4, #32
	add.w	r1, r4, r1, lsl #3
	mov.w	r4, #-1
	add.w	r6, lr, r8
	lsl.w	r5, r4, r7
	cmp	r1, #0
	it	pl
	lslpl.w	r9, r3, r1
	itt	pl
	lslpl	r4, r1
	movpl	r5, #0
	ldr	r1, [r6, #-8]
	ldr	r8, [r6, #-4]
	lsl.w	r3, r3, r7
	bic.w	r1, r1, r5
	ldr	r5, [sp, #16]
	it	pl
	movpl	r3, #0
	adds	r1, r1, r3
	str	r1, [r6, #-8]
	bic.w	r1, r8, r4
	adc.w	r1, r1, r9
	str	r1, [r6, #-4]
.LBB37_4:
	ldr	r0, [r0]
	rsbs.w	r3, r11, #63
	ldr	r1, [sp, #12]
	add.w	r0, r0, r12, lsl #3
	add.w	r4, lr, r1
	mov.w	r1, #0
	sbcs	r1, r5
	blo	.LBB37_9
	lsls.w	r1, r11, #28
	bmi	.LBB37_10
	lsls.w	r1, r11, #27
	bmi	.LBB37_11
.LBB37_7:
	subs.w	r1, r11, #32
	sbcs	r1, r5, #0
	bhs	.LBB37_12
.LBB37_8:
	add	sp, #20
	pop.w	{r4, r5, r6, r7, r8, r9, r10, r11, pc}
.LBB37_9:
	lsrs	r3, r5, #3
	str	r4, [sp, #56]
	add	sp, #20
	pop.w	{r4, r5, r6, r7, r8, r9, r10, r11, lr}
	b	tlsf_words.cells.unpack_many
.LBB37_10:
	mvn	r1, #7
	add.w	r1, r1, r2, lsl #3
	adds	r7, r0, r1
	ldr	r3, [r0, r1]
	ldr	r7, [r7, #4]
	str	r3, [r4, r1]
	add	r1, r4
	str	r7, [r1, #4]
	lsls.w	r1, r11, #27
	bpl	.LBB37_7
.LBB37_11:
	movs	r1, #32
	and.w	r1, r1, r2, lsl #3
	adds	r3, r0, r1
	ldr	r2, [r0, r1]
	ldr	r3, [r3, #4]
	str	r2, [r4, r1]
	adds	r2, r4, r1
	adds	r1, #8
	str	r3, [r2, #4]
	adds	r3, r0, r1
	ldr	r2, [r0, r1]
	ldr	r3, [r3, #4]
	str	r2, [r4, r1]
	add	r1, r4
	str	r3, [r1, #4]
	subs.w	r1, r11, #32
	sbcs	r1, r5, #0
	blo	.LBB37_8
.LBB37_12:
	ldrd	r1, r2, [r0]
	str	r1, [r4]
	str	r2, [r4, #4]
	ldrd	r1, r2, [r0, #8]
	str	r1, [r4, #8]
	str	r2, [r4, #12]
	ldrd	r1, r2, [r0, #16]
	str	r1, [r4, #16]
	str	r2, [r4, #20]
	ldrd	r1, r0, [r0, #24]
	str	r1, [r4, #24]
	str	r0, [r4, #28]
	add	sp, #20
	pop.w	{r4, r5, r6, r7, r8, r9, r10, r11, pc}
.Lfunc_end37:
	.size	tlsf_words.words.Words.read_run, .Lfunc_end37-tlsf_words.words.Words.read_run
	.cfi_endproc
	.section	.text.tlsf_heap.region.Region.read.5,"ax",%progbits
	.p2align	1
	.type	tlsf_heap.region.Region.read.5,%function
	.code	16
	.thumb_func
tlsf_heap.region.Region.read.5:
	.cfi_startproc
	push	{r4, r5, r7, lr}
	.cfi_def_cfa_offset 16
	.cfi_offset lr, -4
	.cfi_offset r7, -8
	.cfi_offset r5, -12
	.cfi_offset r4, -16
	sub	sp, #16
	.cfi_def_cfa_offset 32
	lsrs	r4, r1, #29
	adds.w	r1, r2, r1, lsl #3
	ldrd	r5, lr, [sp, #32]
	adc	r4, r4, #0
	adds	r1, #24
	adc	r12, r4, #0
	orrs	r2, r5
	lsls	r2, r2, #29
	beq	.LBB38_3
	movs	r2, #0
	rsbs.w	r4, r5, #7
	sbcs.w	r2, r2, lr
	blo	.LBB38_8
	str	r3, [sp]
	mov	r2, r1
	mov	r3, r12
	strd	r5, lr, [sp, #8]
	bl	tlsf_words.words.Words.read_few
	add	sp, #16
	pop	{r4, r5, r7, pc}
.LBB38_3:
	ldr	r0, [r0]
	lsrs	r2, r5, #3
	bic	r1, r1, #7
	orr.w	r2, r2, lr, lsl #29
	add	r0, r1
	movs	r1, #0
	rsbs.w	r4, r5, #63
	sbcs.w	r1, r1, lr
	blo	.LBB38_9
	lsls	r1, r5, #28
	bmi	.LBB38_10
	lsls	r1, r5, #27
	bmi	.LBB38_11
.LBB38_6:
	subs.w	r1, r5, #25
	sbcs	r1, lr, #0
	bhs	.LBB38_12
.LBB38_7:
	add	sp, #16
	pop	{r4, r5, r7, pc}
.LBB38_8:
	str	r3, [sp]
	mov	r2, r1
	mov	r3, r12
	strd	r5, lr, [sp, #8]
	bl	tlsf_words.words.Words.read_run
	add	sp, #16
	pop	{r4, r5, r7, pc}
.LBB38_9:
	lsr.w	r1, lr, #3
	str	r3, [sp, #32]
	mov	r3, r1
	add	sp, #16
	pop.w	{r4, r5, r7, lr}
	b	tlsf_words.cells.unpack_many
.LBB38_10:
	mvn	r1, #7
	add.w	r1, r1, r2, lsl #3
	adds	r4, r0, r1
	ldr.w	r12, [r0, r1]
	ldr	r4, [r4, #4]
	str.w	r12, [r3, r1]
	add	r1, r3
	str	r4, [r1, #4]
	lsls	r1, r5, #27
	bpl	.LBB38_6
.LBB38_11:
	movs	r1, #32
	and.w	r1, r1, r2, lsl #3
	adds	r4, r0, r1
	ldr	r2, [r0, r1]
	ldr	r4, [r4, #4]
	str	r2, [r3, r1]
	adds	r2, r3, r1
	adds	r1, #8
	str	r4, [r2, #4]
	adds	r4, r0, r1
	ldr	r2, [r0, r1]
	ldr	r4, [r4, #4]
	str	r2, [r3, r1]
	add	r1, r3
	str	r4, [r1, #4]
	subs.w	r1, r5, #25
	sbcs	r1, lr, #0
	blo	.LBB38_7
.LBB38_12:
	ldrd	r1, r2, [r0]
	str	r1, [r3]
	str	r2, [r3, #4]
	ldrd	r1, r2, [r0, #8]
	str	r1, [r3, #8]
	str	r2, [r3, #12]
	ldrd	r1, r2, [r0, #16]
	str	r1, [r3, #16]
	str	r2, [r3, #20]
	ldrd	r1, r0, [r0, #24]
	str	r1, [r3, #24]
	str	r0, [r3, #28]
	add	sp, #16
	pop	{r4, r5, r7, pc}
.Lfunc_end38:
	.size	tlsf_heap.region.Region.read.5, .Lfunc_end38-tlsf_heap.region.Region.read.5
	.cfi_endproc
	.section	.text.tlsf_c.queue_end.take_once,"ax",%progbits
	.p2align	1
	.type	tlsf_c.queue_end.take_once,%function
	.code	16
	.thumb_func
tlsf_c.queue_end.take_once:
	.cfi_startproc
	push.w	{r4, r5, r6, r7, r8, r9, r10, r11, lr}
	.cfi_def_cfa_offset 36
	.cfi_offset lr, -4
	.cfi_offset r11, -8
	.cfi_offset r10, -12
	.cfi_offset r9, -16
	.cfi_offset r8, -20
	.cfi_offset r7, -24
	.cfi_offset r6, -28
	.cfi_offset r5, -32
	.cfi_offset r4, -36
	sub	sp, #132
	.cfi_def_cfa_offset 168
	ldr	r5, [r1]
	mov	r11, r0
	movs	r0, #0
	strd	r0, r0, [sp, #32]
	ldr	r2, [r5, #8]
	strd	r0, r0, [sp, #24]
	strd	r0, r0, [sp, #8]
	strd	r0, r0, [sp, #16]
	strd	r0, r0, [sp, #48]
	strd	r0, r0, [sp, #40]
	strd	r0, r0, [sp, #72]
	strd	r0, r0, [sp, #80]
	strd	r0, r0, [sp, #56]
	strd	r0, r0, [sp, #64]
	add.w	r0, r2, #256
	ldrexd	r10, r6, [r0]
	clrex
	dmb	ish
	lsrs	r4, r6, #30
	ldrd	r0, r2, [r5, #80]
	ldr	r3, [r5, #8]
	subs	r0, #1
	and.w	r0, r0, r10
	sbc	r2, r2, #0
	add.w	r3, r3, r0, lsl #3
	add.w	r3, r3, #384
	ldrexd	r12, lr, [r3]
	adds.w	r3, r10, #1
	adc	r7, r6, #0
	clrex
	dmb	ish
	cmp	r4, #2
	bhi	.LBB39_9
	eor.w	r3, r3, r12
	eor.w	r4, lr, r7
	orrs	r3, r4
	bne	.LBB39_9
	movs	r7, #0
	ldrd	r3, r8, [r5, #72]
	ands	r2, r6
	strd	r7, r7, [sp, #104]
	strd	r7, r7, [sp, #112]
	strd	r7, r7, [sp, #120]
	strd	r7, r7, [sp, #88]
	strd	r7, r7, [sp, #96]
	adds	r7, r0, #1
	adc	r4, r2, #0
	subs	r3, r7, r3
	sbcs.w	r3, r4, r8
	blo	.LBB39_4
	ldrd	r3, r7, [r5, #80]
	subs.w	r4, r10, r0
	sbc.w	r2, r6, r2
	adds.w	r12, r4, r3
	adc.w	lr, r2, r7
.LBB39_4:
	ldr	r2, [r5, #8]
	add.w	r2, r2, #256
	ldrexd	r3, r4, [r2]
	eors	r4, r6
	eor.w	r3, r3, r10
	orrs	r3, r4
	bne	.LBB39_8
	lsls	r3, r0, #3
	str	r3, [sp, #4]
	dmb	ish
.LBB39_6:
	strexd	r3, r12, lr, [r2]
	cbz	r3, .LBB39_10
	ldrexd	r3, r4, [r2]
	eor.w	r3, r3, r10
	eors	r4, r6
	orrs	r3, r4
	beq	.LBB39_6
.LBB39_8:
	clrex
	movs	r0, #0
	dmb	ish
	strd	r0, r0, [sp, #72]
	strd	r0, r0, [sp, #80]
.LBB39_9:
	add	r7, sp, #72
	add.w	r12, sp, #24
	mov.w	r8, #0
	mov.w	r9, #0
	ldm	r7, {r0, r2, r3, r7}
	stm.w	r12, {r0, r2, r3, r7}
	ldr	r0, [r1]
	ldr	r1, [r0, #8]
	add.w	r1, r1, #256
	ldrexd	r1, r2, [r1]
	clrex
	dmb	ish
	ldr	r0, [r0, #8]
	adds	r0, #128
	ldrexd	r0, r3, [r0]
	eors	r0, r1
	eors	r2, r3
	orrs	r0, r2
	add	r1, sp, #8
	mov.w	r0, #9
	mov.w	r2, #1
	it	eq
	moveq	r0, #8
	clrex
	dmb	ish
	b	.LBB39_14
.LBB39_10:
	dmb	ish
	lsls	r2, r0, #5
	movs	r3, #0
	ldr	r1, [r5, #16]
	ldrb	r4, [r1, r2]
	str	r3, [r1, r2]
	add.w	r1, r1, r0, lsl #5
	ldr	r0, [r1, #16]
	ldr	r7, [r1, #24]
	ldr	r2, [r1, #20]
	str	r0, [sp, #88]
	mov	r0, r1
	ldr.w	r9, [r1, #12]
	str	r3, [r1, #4]
	ldr	r1, [r1, #28]
	str	r1, [sp, #100]
	add	r1, sp, #104
	ldr	r8, [r0, #8]!
	strd	r2, r7, [sp, #92]
	movs	r2, #24
	bl	tlsf_memory_cpy
	ldrd	r0, r1, [r5, #80]
	ldr	r2, [r5, #8]
	ldr	r3, [sp, #4]
	adds.w	r0, r0, r10
	adcs	r1, r6
	add	r2, r3
	dmb	ish
	add.w	r2, r2, #384
.LBB39_11:
	ldrexd	r3, r7, [r2]
	strexd	r3, r0, r1, [r2]
	cmp	r3, #0
	bne	.LBB39_11
	dmb	ish
	cmp	r4, #1
	bne	.LBB39_15
	add	r3, sp, #88
	add.w	r12, sp, #60
	ldm	r3, {r0, r1, r2, r3}
	stm.w	r12, {r1, r2, r3}
	add.w	r12, sp, #24
	stm.w	r12, {r0, r1, r2, r3}
	movs	r2, #0
	strd	r0, r1, [sp, #40]
	add	r1, sp, #24
	movs	r0, #0
.LBB39_14:
	ldr	r3, [r1]
	ldr	r7, [r1, #4]
	ldr	r6, [r1, #8]
	ldr	r1, [r1, #12]
	str.w	r8, [r11, #8]
	strb.w	r0, [r11, #1]
	strb.w	r2, [r11]
	str.w	r9, [r11, #12]
	str.w	r3, [r11, #16]
	str.w	r7, [r11, #20]
	str.w	r6, [r11, #24]
	str.w	r1, [r11, #28]
	add	sp, #132
	pop.w	{r4, r5, r6, r7, r8, r9, r10, r11, pc}
.LBB39_15:
	.inst.n	0xdefe
.Lfunc_end39:
	.size	tlsf_c.queue_end.take_once, .Lfunc_end39-tlsf_c.queue_end.take_once
	.cfi_endproc
	.section	.text.unlikely.std_alloc.vec.Vec.grow_amortized.94730218a1e37034,"ax",%progbits
	.p2align	1
	.type	std_alloc.vec.Vec.grow_amortized.94730218a1e37034,%function
	.code	16
	.thumb_func
std_alloc.vec.Vec.grow_amortized.94730218a1e37034:
	.cfi_startproc
	push.w	{r4, r5, r6, r7, r8, r9, lr}
	.cfi_def_cfa_offset 28
	.cfi_offset lr, -4
	.cfi_offset r9, -8
	.cfi_offset r8, -12
	.cfi_offset r7, -16
	.cfi_offset r6, -20
	.cfi_offset r5, -24
	.cfi_offset r4, -28
	sub	sp, #28
	.cfi_def_cfa_offset 56
	ldrd	r6, r2, [r0, #8]
	mov	r1, r0
	and.w	r0, r6, r2
	adds	r0, #1
	mov.w	r0, #0
	beq	.LBB40_5
	cmp	r6, #3
	mov.w	r4, #3
	ldrd	r3, r7, [r1, #16]
	it	hi
	movhi	r4, r6
	movs	r5, #3
	cmp	r2, #0
	ite	ne
	movne	r5, r6
	moveq	r5, r4
	adds.w	r8, r5, #1
	lsl.w	r5, r7, #1
	adc	r9, r2, #0
	orr.w	r4, r5, r3, lsr #31
	rsbs	r5, r8, r3, lsl #1
	sbcs.w	r5, r4, r9
	mov	r5, r8
	ite	lo
	movlo	r4, r9
	lslhs	r5, r3, #1
	cmp.w	r7, #1073741824
	itt	lo
	movlo	r8, r5
	movlo	r9, r4
	cmp.w	r0, r9, lsr #26
	bne	.LBB40_5
	orrs.w	r0, r3, r7
	beq	.LBB40_6
	movs	r0, #8
	mov	r7, r1
	ldr	r1, [r1]
	mov.w	r3, #-1
	str	r0, [sp]
	lsls	r0, r2, #5
	orrs.w	r0, r0, r6, lsr #27
	mov.w	r2, #-1
	lsl.w	r0, r9, #5
	it	eq
	lsleq	r2, r6, #5
	orrs.w	r0, r0, r8, lsr #27
	it	eq
	lsleq.w	r3, r8, #5
	add	r0, sp, #8
	bl	tlsf_memory_realloc
	ldr	r0, [sp, #8]
	lsls	r0, r0, #31
	beq	.LBB40_7
.LBB40_4:
	ldr	r0, [sp, #16]
	str	r0, [r7]
	movs	r0, #1
	strd	r8, r9, [r7, #16]
.LBB40_5:
	add	sp, #28
	pop.w	{r4, r5, r6, r7, r8, r9, pc}
.LBB40_6:
	lsls	r0, r4, #5
	mov	r7, r1
	orrs.w	r0, r0, r5, lsr #27
	mov.w	r1, #-1
	add	r0, sp, #8
	mov.w	r2, #8
	it	eq
	lsleq	r1, r5, #5
	bl	tlsf_memory_alloc
	ldr	r0, [sp, #8]
	lsls	r0, r0, #31
	bne	.LBB40_4
.LBB40_7:
	movs	r0, #0
	add	sp, #28
	pop.w	{r4, r5, r6, r7, r8, r9, pc}
.Lfunc_end40:
	.size	std_alloc.vec.Vec.grow_amortized.94730218a1e37034, .Lfunc_end40-std_alloc.vec.Vec.grow_amortized.94730218a1e37034
	.cfi_endproc
	.section	.text.tlsf_post.mailboxes.send_out,"ax",%progbits
	.p2align	1
	.type	tlsf_post.mailboxes.send_out,%function
	.code	16
	.thumb_func
tlsf_post.mailboxes.send_out:
	.cfi_startproc
	cmp	r1, r2
	itt	hs
	movhs	r0, #0
	bxhs	lr
.LBB41_1:
	push.w	{r4, r5, r6, r7, r8, r9, r10, lr}
	.cfi_def_cfa_offset 32
	.cfi_offset lr, -4
	.cfi_offset r10, -8
	.cfi_offset r9, -12
	.cfi_offset r8, -16
	.cfi_offset r7, -20
	.cfi_offset r6, -24
	.cfi_offset r5, -28
	.cfi_offset r4, -32
	mvn	lr, #-2147483648
	mvn	r8, #1
	b	.LBB41_3
.LBB41_2:
	dmb	ish
	mov.w	r12, #0
	ldr	r7, [r0, #8]
	ldrexd	r7, r6, [r7]
	clrex
	dmb	ish
	ldrd	r4, r5, [r3, #8]
	ldr	r7, [r3]
	lsls	r6, r4, #4
	str	r0, [r7, r6]
	add.w	r6, r7, r4, lsl #4
	adds	r4, #1
	str	r1, [r6, #8]
	adc	r5, r5, #0
	adds	r1, #1
	str.w	r12, [r6, #4]
	str.w	r12, [r6, #12]
	cmp	r1, r2
	strd	r4, r5, [r3, #8]
	beq	.LBB41_10
.LBB41_3:
	ldrexd	r4, r5, [r0]
	clrex
	dmb	ish
	subs.w	r7, r8, r4
	sbcs.w	r7, lr, r5
	blo	.LBB41_9
	adds.w	r12, r4, #1
	ldrexd	r7, r6, [r0]
	eor.w	r7, r7, r4
	eor.w	r6, r6, r5
	orr.w	r6, r6, r7
	adc	r7, r5, #0
	cbnz	r6, .LBB41_8
	dmb	ish
.LBB41_6:
	strexd	r6, r12, r7, [r0]
	cmp	r6, #0
	beq	.LBB41_2
	ldrexd	r6, r9, [r0]
	eor.w	r10, r6, r4
	eor.w	r6, r9, r5
	orrs.w	r6, r6, r10
	beq	.LBB41_6
.LBB41_8:
	clrex
	dmb	ish
	b	.LBB41_3
.LBB41_9:
	mov.w	r12, #1
.LBB41_10:
	pop.w	{r4, r5, r6, r7, r8, r9, r10, lr}
	mov	r0, r12
	bx	lr
.Lfunc_end41:
	.size	tlsf_post.mailboxes.send_out, .Lfunc_end41-tlsf_post.mailboxes.send_out
	.cfi_endproc
	.section	.text.std_alloc.arc.Arc.drop.f29941b0e8355977,"ax",%progbits
	.p2align	1
	.type	std_alloc.arc.Arc.drop.f29941b0e8355977,%function
	.code	16
	.thumb_func
std_alloc.arc.Arc.drop.f29941b0e8355977:
	.cfi_startproc
	push	{r4, r5, r7, lr}
	.cfi_def_cfa_offset 16
	.cfi_offset lr, -4
	.cfi_offset r7, -8
	.cfi_offset r5, -12
	.cfi_offset r4, -16
	dmb	ish
.LBB42_1:
	ldrexd	r2, r1, [r0]
	subs	r3, r2, #1
	sbc	r5, r1, #0
	strexd	r4, r3, r5, [r0]
	cmp	r4, #0
	bne	.LBB42_1
	eor	r2, r2, #1
	dmb	ish
	orrs	r1, r2
	it	ne
	popne	{r4, r5, r7, pc}
.LBB42_3:
	ldr	r4, [r0, #40]
	ldr	r5, [r0, #56]
	bl	tlsf_memory_dealloc
	mov	r0, r4
	bl	tlsf_memory_dealloc
	mov	r0, r5
	pop.w	{r4, r5, r7, lr}
	b	tlsf_memory_dealloc
.Lfunc_end42:
	.size	std_alloc.arc.Arc.drop.f29941b0e8355977, .Lfunc_end42-std_alloc.arc.Arc.drop.f29941b0e8355977
	.cfi_endproc
	.section	.text.std_alloc.vec.Vec.drop.05316b64237a7125,"ax",%progbits
	.p2align	1
	.type	std_alloc.vec.Vec.drop.05316b64237a7125,%function
	.code	16
	.thumb_func
std_alloc.vec.Vec.drop.05316b64237a7125:
	.cfi_startproc
	push.w	{r4, r5, r6, r7, r8, r9, r10, r11, lr}
	.cfi_def_cfa_offset 36
	.cfi_offset lr, -4
	.cfi_offset r11, -8
	.cfi_offset r10, -12
	.cfi_offset r9, -16
	.cfi_offset r8, -20
	.cfi_offset r7, -24
	.cfi_offset r6, -28
	.cfi_offset r5, -32
	.cfi_offset r4, -36
	sub	sp, #4
	.cfi_def_cfa_offset 40
	ldr.w	r9, [r0]
	ldr.w	r11, [r0, #8]
	ldr	r4, [r0, #12]
	ldr.w	r10, [r0, #20]
	ldr	r1, [r0, #16]
	orrs.w	r0, r11, r4
	str	r1, [sp]
	beq	.LBB43_7
	movs	r7, #0
	mov.w	r8, #0
	b	.LBB43_3
.LBB43_2:
	adds	r7, #1
	adc	r8, r8, #0
	subs.w	r0, r7, r11
	sbcs.w	r0, r8, r4
	bhs	.LBB43_7
.LBB43_3:
	lsls	r0, r7, #4
	ldr.w	r0, [r9, r0]
	dmb	ish
.LBB43_4:
	ldrexd	r2, r1, [r0]
	subs	r3, r2, #1
	sbc	r6, r1, #0
	strexd	r5, r3, r6, [r0]
	cmp	r5, #0
	bne	.LBB43_4
	eor	r2, r2, #1
	dmb	ish
	orrs	r1, r2
	bne	.LBB43_2
	ldr	r5, [r0, #40]
	ldr	r6, [r0, #56]
	bl	tlsf_memory_dealloc
	mov	r0, r5
	bl	tlsf_memory_dealloc
	mov	r0, r6
	bl	tlsf_memory_dealloc
	b	.LBB43_2
.LBB43_7:
	ldr	r0, [sp]
	orrs.w	r0, r0, r10
	beq	.LBB43_9
	mov	r0, r9
	add	sp, #4
	pop.w	{r4, r5, r6, r7, r8, r9, r10, r11, lr}
	b	tlsf_memory_dealloc
.LBB43_9:
	add	sp, #4
	pop.w	{r4, r5, r6, r7, r8, r9, r10, r11, pc}
.Lfunc_end43:
	.size	std_alloc.vec.Vec.drop.05316b64237a7125, .Lfunc_end43-std_alloc.vec.Vec.drop.05316b64237a7125
	.cfi_endproc
	.section	.text.std_alloc.vec.deque.VecDeque.drop.ca3d8856d46a41b8,"ax",%progbits
	.p2align	1
	.type	std_alloc.vec.deque.VecDeque.drop.ca3d8856d46a41b8,%function
	.code	16
	.thumb_func
std_alloc.vec.deque.VecDeque.drop.ca3d8856d46a41b8:
	.cfi_startproc
	push.w	{r4, r5, r6, r7, r8, r9, r10, r11, lr}
	.cfi_def_cfa_offset 36
	.cfi_offset lr, -4
	.cfi_offset r11, -8
	.cfi_offset r10, -12
	.cfi_offset r9, -16
	.cfi_offset r8, -20
	.cfi_offset r7, -24
	.cfi_offset r6, -28
	.cfi_offset r5, -32
	.cfi_offset r4, -36
	sub	sp, #12
	.cfi_def_cfa_offset 48
	ldr.w	r11, [r0]
	ldr	r1, [r0, #8]
	ldr	r2, [r0, #12]
	ldr.w	r8, [r0, #16]
	ldr.w	r9, [r0, #20]
	orrs.w	r3, r1, r2
	beq	.LBB44_15
	ldr	r6, [r0, #32]
	ldr	r3, [r0, #36]
	ldr	r7, [r0, #24]
	strd	r8, r9, [sp]
	ldr.w	r8, [r0, #28]
	subs	r0, r1, r6
	sbc.w	r1, r2, r3
	adds.w	r9, r7, r0
	adc.w	r10, r8, r1
	mov	r4, r3
	str	r6, [sp, #8]
	b	.LBB44_3
.LBB44_2:
	adds	r7, #1
	adc	r8, r8, #0
.LBB44_3:
	subs.w	r0, r7, r9
	sbcs.w	r0, r8, r10
	bhs	.LBB44_8
	lsls	r0, r7, #4
	ldr.w	r0, [r11, r0]
	dmb	ish
.LBB44_5:
	ldrexd	r2, r1, [r0]
	subs	r3, r2, #1
	sbc	r6, r1, #0
	strexd	r5, r3, r6, [r0]
	cmp	r5, #0
	bne	.LBB44_5
	eor	r2, r2, #1
	dmb	ish
	orrs	r1, r2
	bne	.LBB44_2
	ldr	r5, [r0, #40]
	ldr	r6, [r0, #56]
	bl	tlsf_memory_dealloc
	mov	r0, r5
	bl	tlsf_memory_dealloc
	mov	r0, r6
	bl	tlsf_memory_dealloc
	b	.LBB44_2
.LBB44_8:
	ldrd	r8, r9, [sp]
	ldr	r0, [sp, #8]
	orrs	r0, r4
	beq	.LBB44_15
	mov	r10, r4
	movs	r7, #0
	movs	r4, #0
	b	.LBB44_11
.LBB44_10:
	adds	r7, #1
	ldr	r0, [sp, #8]
	adc	r4, r4, #0
	subs	r0, r7, r0
	sbcs.w	r0, r4, r10
	bhs	.LBB44_15
.LBB44_11:
	lsls	r0, r7, #4
	ldr.w	r0, [r11, r0]
	dmb	ish
.LBB44_12:
	ldrexd	r2, r1, [r0]
	subs	r3, r2, #1
	sbc	r6, r1, #0
	strexd	r5, r3, r6, [r0]
	cmp	r5, #0
	bne	.LBB44_12
	eor	r2, r2, #1
	dmb	ish
	orrs	r1, r2
	bne	.LBB44_10
	ldr	r5, [r0, #40]
	ldr	r6, [r0, #56]
	bl	tlsf_memory_dealloc
	mov	r0, r5
	bl	tlsf_memory_dealloc
	mov	r0, r6
	bl	tlsf_memory_dealloc
	b	.LBB44_10
.LBB44_15:
	orrs.w	r0, r8, r9
	beq	.LBB44_17
	mov	r0, r11
	add	sp, #12
	pop.w	{r4, r5, r6, r7, r8, r9, r10, r11, lr}
	b	tlsf_memory_dealloc
.LBB44_17:
	add	sp, #12
	pop.w	{r4, r5, r6, r7, r8, r9, r10, r11, pc}
.Lfunc_end44:
	.size	std_alloc.vec.deque.VecDeque.drop.ca3d8856d46a41b8, .Lfunc_end44-std_alloc.vec.deque.VecDeque.drop.ca3d8856d46a41b8
	.cfi_endproc
	.section	.text.tlsf_words.cells.copy_run,"ax",%progbits
	.p2align	1
	.type	tlsf_words.cells.copy_run,%function
	.code	16
	.thumb_func
tlsf_words.cells.copy_run:
	.cfi_startproc
	push.w	{r4, r5, r6, r7, r8, r9, lr}
	.cfi_def_cfa_offset 28
	.cfi_offset lr, -4
	.cfi_offset r9, -8
	.cfi_offset r8, -12
	.cfi_offset r7, -16
	.cfi_offset r6, -20
	.cfi_offset r5, -24
	.cfi_offset r4, -28
	sub	sp, #4
	.cfi_def_cfa_offset 32
	ldr.w	r12, [sp, #44]
	mov	r1, r2
	ldrd	r5, lr, [sp, #36]
	ldr	r7, [sp, #32]
	lsl.w	r2, r12, #3
	orr.w	r8, r2, lr, lsr #29
	lsls	r2, r3, #3
	lsls	r6, r5, #3
	orr.w	r2, r2, r1, lsr #29
	orr.w	r4, r6, r7, lsr #29
	lsl.w	r9, r7, #3
	subs.w	r6, r9, r1, lsl #3
	sbc.w	r2, r4, r2
	subs.w	r4, r6, lr, lsl #3
	sbcs.w	r2, r2, r8
	bhs	.LBB45_2
.LBB45_1:
	add	sp, #4
	pop.w	{r4, r5, r6, r7, r8, r9, pc}
.LBB45_2:
	adds.w	r4, lr, r1
	lsl.w	r2, lr, #3
	adc.w	r6, r12, r3
	subs	r4, r7, r4
	sbcs.w	r4, r5, r6
	bhs	.LBB45_7
	adds.w	r4, lr, r7
	adc.w	r5, r5, r12
	subs	r4, r1, r4
	sbcs	r3, r5
	blo	.LBB45_1
	add.w	r1, r0, r1, lsl #3
	add	r0, r9
	movs	r3, #0
	subs	r4, r0, r1
	sbc	r3, r3, #0
	subs	r4, r4, r2
	sbcs.w	r3, r3, r8
	bhs	.LBB45_10
	movs	r2, #0
	movs	r3, #0
.LBB45_6:
	ldr.w	r4, [r1, r2, lsl #3]
	add.w	r5, r1, r2, lsl #3
	str.w	r4, [r0, r2, lsl #3]
	add.w	r4, r0, r2, lsl #3
	adds	r2, #1
	ldr	r5, [r5, #4]
	adc	r3, r3, #0
	str	r5, [r4, #4]
	subs.w	r4, r2, lr
	sbcs.w	r4, r3, r12
	blo	.LBB45_6
	b	.LBB45_1
.LBB45_7:
	lsls	r1, r1, #3
	movs	r3, #0
	add	r1, r0
	add.w	r0, r0, r7, lsl #3
	subs	r4, r0, r1
	sbc	r3, r3, #0
	subs	r4, r4, r2
	sbcs.w	r3, r3, r8
	bhs	.LBB45_10
	movs	r2, #0
	movs	r3, #0
.LBB45_9:
	ldr.w	r4, [r1, r2, lsl #3]
	add.w	r5, r1, r2, lsl #3
	str.w	r4, [r0, r2, lsl #3]
	add.w	r4, r0, r2, lsl #3
	adds	r2, #1
	ldr	r5, [r5, #4]
	adc	r3, r3, #0
	str	r5, [r4, #4]
	subs.w	r4, r2, lr
	sbcs.w	r4, r3, r12
	blo	.LBB45_9
	b	.LBB45_1
.LBB45_10:
	add	sp, #4
	pop.w	{r4, r5, r6, r7, r8, r9, lr}
	b	tlsf_memory_move
.Lfunc_end45:
	.size	tlsf_words.cells.copy_run, .Lfunc_end45-tlsf_words.cells.copy_run
	.cfi_endproc
	.section	.text.tlsf_heap.region.Region.write.4,"ax",%progbits
	.p2align	1
	.type	tlsf_heap.region.Region.write.4,%function
	.code	16
	.thumb_func
tlsf_heap.region.Region.write.4:
	.cfi_startproc
	push	{r4, r5, r7, lr}
	.cfi_def_cfa_offset 16
	.cfi_offset lr, -4
	.cfi_offset r7, -8
	.cfi_offset r5, -12
	.cfi_offset r4, -16
	sub	sp, #16
	.cfi_def_cfa_offset 32
	lsrs	r4, r1, #29
	adds.w	r1, r2, r1, lsl #3
	ldrd	r5, lr, [sp, #32]
	adc	r4, r4, #0
	adds	r1, #24
	adc	r12, r4, #0
	orrs	r2, r5
	lsls	r2, r2, #29
	beq	.LBB46_3
	movs	r2, #0
	rsbs.w	r4, r5, #7
	sbcs.w	r2, r2, lr
	blo	.LBB46_8
	str	r3, [sp]
	mov	r2, r1
	mov	r3, r12
	strd	r5, lr, [sp, #8]
	bl	tlsf_words.words.Words.write_few
	add	sp, #16
	pop	{r4, r5, r7, pc}
.LBB46_3:
	ldr	r0, [r0]
	lsrs	r2, r5, #3
	bic	r1, r1, #7
	orr.w	r2, r2, lr, lsl #29
	add	r0, r1
	movs	r1, #0
	rsbs.w	r4, r5, #63
	sbcs.w	r1, r1, lr
	blo	.LBB46_9
	lsls	r1, r5, #28
	bmi	.LBB46_10
	lsls	r1, r5, #27
	bmi	.LBB46_11
.LBB46_6:
	subs.w	r1, r5, #25
	sbcs	r1, lr, #0
	bhs	.LBB46_12
.LBB46_7:
	add	sp, #16
	pop	{r4, r5, r7, pc}
.LBB46_8:
	str	r3, [sp]
	mov	r2, r1
	mov	r3, r12
	strd	r5, lr, [sp, #8]
	bl	tlsf_words.words.Words.write_run
	add	sp, #16
	pop	{r4, r5, r7, pc}
.LBB46_9:
	lsr.w	r1, lr, #3
	str	r3, [sp, #32]
	mov	r3, r1
	add	sp, #16
	pop.w	{r4, r5, r7, lr}
	b	tlsf_words.cells.pack_many
.LBB46_10:
	mvn	r1, #7
	add.w	r1, r1, r2, lsl #3
	adds	r4, r3, r1
	ldr.w	r12, [r3, r1]
	ldr	r4, [r4, #4]
	str.w	r12, [r0, r1]
	add	r1, r0
	str	r4, [r1, #4]
	lsls	r1, r5, #27
	bpl	.LBB46_6
.LBB46_11:
	movs	r1, #32
	and.w	r1, r1, r2, lsl #3
	adds	r4, r3, r1
	ldr	r2, [r3, r1]
	ldr	r4, [r4, #4]
	str	r2, [r0, r1]
	adds	r2, r0, r1
	adds	r1, #8
	str	r4, [r2, #4]
	adds	r4, r3, r1
	ldr	r2, [r3, r1]
	ldr	r4, [r4, #4]
	str	r2, [r0, r1]
	add	r1, r0
	str	r4, [r1, #4]
	subs.w	r1, r5, #25
	sbcs	r1, lr, #0
	blo	.LBB46_7
.LBB46_12:
	ldr	r2, [r3, #4]
	ldr	r1, [r3]
	strd	r1, r2, [r0]
	ldr	r2, [r3, #12]
	ldr	r1, [r3, #8]
	strd	r1, r2, [r0, #8]
	ldr	r2, [r3, #20]
	ldr	r1, [r3, #16]
	strd	r1, r2, [r0, #16]
	ldr	r2, [r3, #28]
	ldr	r1, [r3, #24]
	strd	r1, r2, [r0, #24]
	add	sp, #16
	pop	{r4, r5, r7, pc}
.Lfunc_end46:
	.size	tlsf_heap.region.Region.write.4, .Lfunc_end46-tlsf_heap.region.Region.write.4
	.cfi_endproc
	.section	.text.tlsf_words.cells.pack_many,"ax",%progbits
	.p2align	1
	.type	tlsf_words.cells.pack_many,%function
	.code	16
	.thumb_func
tlsf_words.cells.pack_many:
	.cfi_startproc
	push	{r4, r5, r6, r7, lr}
	.cfi_def_cfa_offset 20
	.cfi_offset lr, -4
	.cfi_offset r7, -8
	.cfi_offset r6, -12
	.cfi_offset r5, -16
	.cfi_offset r4, -20
	bic	r1, r2, #3
	ldr.w	r12, [sp, #20]
	lsls	r5, r2, #31
	add.w	r4, r12, r1, lsl #3
	add.w	lr, r0, r1, lsl #3
	beq	.LBB47_2
	movs	r5, #24
	and.w	r5, r5, r2, lsl #3
	subs	r5, #8
	adds	r7, r4, r5
	ldr	r6, [r4, r5]
	ldr	r7, [r7, #4]
	str.w	r6, [lr, r5]
	add	r5, lr
	str	r7, [r5, #4]
.LBB47_2:
	lsls	r2, r2, #30
	bpl	.LBB47_4
	ldr	r5, [r4, #4]
	ldr	r2, [r4]
	strd	r2, r5, [lr]
	ldr	r2, [r4, #8]
	ldr	r4, [r4, #12]
	strd	r2, r4, [lr, #8]
.LBB47_4:
	movs	r2, #0
	movs	r4, #0
.LBB47_5:
	add.w	r6, r12, r2, lsl #3
	ldr.w	r7, [r12, r2, lsl #3]
	ldr	r6, [r6, #4]
	str.w	r7, [r0, r2, lsl #3]
	add.w	r7, r0, r2, lsl #3
	adds	r2, #1
	adc	r4, r4, #0
	str	r6, [r7, #4]
	subs	r7, r2, r1
	sbcs.w	r7, r4, r3
	blo	.LBB47_5
	pop	{r4, r5, r6, r7, pc}
.Lfunc_end47:
	.size	tlsf_words.cells.pack_many, .Lfunc_end47-tlsf_words.cells.pack_many
	.cfi_endproc
	.section	.text.tlsf_words.words.Words.write_few,"ax",%progbits
	.p2align	1
	.type	tlsf_words.words.Words.write_few,%function
	.code	16
	.thumb_func
tlsf_words.words.Words.write_few:
	.cfi_startproc
	push.w	{r4, r5, r6, r7, r8, r9, r10, r11, lr}
	.cfi_def_cfa_offset 36
	.cfi_offset lr, -4
	.cfi_offset r11, -8
	.cfi_offset r10, -12
	.cfi_offset r9, -16
	.cfi_offset r8, -20
	.cfi_offset r7, -24
	.cfi_offset r6, -28
	.cfi_offset r5, -32
	.cfi_offset r4, -36
	sub	sp, #12
	.cfi_def_cfa_offset 48
	mov	r9, r0
	lsrs	r0, r2, #3
	orr.w	r6, r0, r3, lsl #29
	ldrd	r7, r10, [sp, #56]
	and	r0, r2, #7
	movs	r3, #0
	rsb.w	r4, r0, #8
	orr.w	r2, r7, r10
	subs	r1, r4, r7
	mov	r5, r7
	sbcs.w	r1, r3, r10
	it	lo
	movlo	r5, r4
	ldr	r1, [sp, #48]
	cbz	r2, .LBB48_2
	ldr.w	r8, [r9]
	add.w	r11, r8, r6, lsl #3
	ldr.w	r3, [r8, r6, lsl #3]
	ldr.w	r2, [r11, #4]
	strd	r3, r2, [sp]
	mov	r2, sp
	add	r0, r2
	mov	r2, r5
	bl	tlsf_memory_cpy
	ldr	r1, [sp, #48]
	movs	r3, #0
	ldrd	r0, r2, [sp]
	str.w	r0, [r8, r6, lsl #3]
	str.w	r2, [r11, #4]
.LBB48_2:
	subs	r0, r4, r7
	sbcs.w	r0, r3, r10
	bhs	.LBB48_4
	ldr.w	r0, [r9]
	add	r1, r5
	add.w	r4, r0, r6, lsl #3
	ldrd	r0, r2, [r4, #8]
	strd	r0, r2, [sp]
	subs	r2, r7, r5
	mov	r0, sp
	bl	tlsf_memory_cpy
	ldrd	r0, r1, [sp]
	strd	r0, r1, [r4, #8]
.LBB48_4:
	add	sp, #12
	pop.w	{r4, r5, r6, r7, r8, r9, r10, r11, pc}
.Lfunc_end48:
	.size	tlsf_words.words.Words.write_few, .Lfunc_end48-tlsf_words.words.Words.write_few
	.cfi_endproc
	.section	.text.tlsf_words.words.Words.write_run,"ax",%progbits
	.p2align	1
	.type	tlsf_words.words.Words.write_run,%function
	.code	16
	.thumb_func
tlsf_words.words.Words.write_run:
	.cfi_startproc
	push.w	{r4, r5, r6, r7, r8, r9, r10, r11, lr}
	.cfi_def_cfa_offset 36
	.cfi_offset lr, -4
	.cfi_offset r11, -8
	.cfi_offset r10, -12
	.cfi_offset r9, -16
	.cfi_offset r8, -20
	.cfi_offset r7, -24
	.cfi_offset r6, -28
	.cfi_offset r5, -32
	.cfi_offset r4, -36
	sub	sp, #36
	.cfi_def_cfa_offset 72
	ldrd	r9, r6, [sp, #80]
	rsbs	r4, r2, #0
	mov	lr, r0
	and	r0, r4, #7
	subs.w	r11, r9, r0
	str	r0, [sp, #32]
	sbc	r8, r6, #0
	str.w	r11, [sp, #28]
	lsr.w	r0, r11, #3
	bfi	r11, r4, #0, #3
	adds	r4, r2, #7
	mov.w	r5, #-1
	adc	r1, r3, #0
	ands	r3, r2, #7
	lsr.w	r7, r4, #3
	ldr	r4, [sp, #72]
	beq	.LBB49_2
	str.w	r8, [sp, #24]
	bic	r2, r2, #7
	ldr.w	r8, [r4]
	str	r7, [sp, #8]
	str	r0, [sp, #16]
	mov	r0, lr
	str	r4, [sp, #20]
	mov.w	lr, #32
	ldr.w	r12, [r4, #4]
	sub.w	r4, lr, r3, lsl #3
	mov	lr, r0
	str	r1, [sp, #12]
	lsls	r0, r3, #3
	str	r6, [sp, #4]
	lsr.w	r6, r8, r4
	lsl.w	r1, r12, r0
	orr.w	r10, r6, r1
	mvn	r6, #31
	add.w	r3, r6, r3, lsl #3
	lsr.w	r12, r5, r4
	cmp	r3, #0
	it	pl
	lslpl.w	r10, r8, r3
	ldr.w	r4, [lr]
	lsl.w	r6, r5, r0
	orr.w	r5, r12, r6
	mov.w	r1, #-1
	lsl.w	r0, r8, r0
	it	pl
	lslpl.w	r5, r1, r3
	ldr	r1, [sp, #12]
	ldr.w	r8, [sp, #24]
	it	pl
	movpl	r0, #0
	ldr	r3, [r4, r2]
	it	pl
	movpl	r6, #0
	ldr	r7, [sp, #8]
	bics	r3, r6
	adds	r6, r4, r2
	adds	r0, r0, r3
	str	r0, [r4, r2]
	ldr.w	r12, [r6, #4]
	ldr	r4, [sp, #20]
	bic.w	r0, r12, r5
	mov.w	r5, #-1
	adc.w	r0, r0, r10
	str	r0, [r6, #4]
	ldr	r6, [sp, #4]
	ldr	r0, [sp, #16]
.LBB49_2:
	orr.w	r2, r0, r8, lsl #29
	orr.w	r12, r7, r1, lsl #29
	eor.w	r0, r9, r11
	orrs	r0, r6
	beq	.LBB49_4
	sub.w	r1, r9, r11
	add.w	r0, r4, r9
	movs	r7, #64
	mov	r11, r4
	mov	r9, lr
	ldr	r4, [r0, #-8]
	sub.w	r6, r7, r1, lsl #3
	ldr	lr, [r0, #-4]
	rsb.w	r0, r6, #32
	mov	r10, r5
	lsr.w	r7, r4, r6
	lsls	r4, r1, #3
	lsl.w	r0, lr, r0
	lsl.w	r4, r5, r4
	orrs	r0, r7
	movs	r7, #32
	sub.w	r7, r7, r1, lsl #3
	lsr.w	r3, r5, r7
	mvn	r5, #31
	add.w	r1, r5, r1, lsl #3
	orrs	r3, r4
	cmp	r1, #0
	itt	pl
	lslpl.w	r3, r10, r1
	movpl	r4, #0
	ldr.w	r1, [r9]
	add.w	r5, r2, r12
	cmp	r7, #0
	it	pl
	lsrpl.w	r0, lr, r7
	bic.w	r0, r0, r4
	ldr.w	r7, [r1, r5, lsl #3]
	and.w	r4, r4, r7
	add	r0, r4
	add.w	r4, r1, r5, lsl #3
	str.w	r0, [r1, r5, lsl #3]
	lsr.w	r0, lr, r6
	mov	lr, r9
	ldr	r7, [r4, #4]
	it	pl
	movpl	r0, #0
	bics	r0, r3
	and.w	r1, r7, r3
	add	r0, r1
	str	r0, [r4, #4]
	mov	r4, r11
.LBB49_4:
	ldr.w	r0, [lr]
	ldr	r1, [sp, #32]
	ldr	r6, [sp, #28]
	add.w	r0, r0, r12, lsl #3
	add	r4, r1
	movs	r1, #0
	rsbs.w	r3, r6, #63
	sbcs.w	r1, r1, r8
	blo	.LBB49_9
	lsls	r1, r6, #28
	bmi	.LBB49_10
	lsls	r1, r6, #27
	bmi	.LBB49_11
.LBB49_7:
	subs.w	r1, r6, #32
	sbcs	r1, r8, #0
	bhs	.LBB49_12
.LBB49_8:
	add	sp, #36
	pop.w	{r4, r5, r6, r7, r8, r9, r10, r11, pc}
.LBB49_9:
	lsr.w	r3, r8, #3
	str	r4, [sp, #72]
	add	sp, #36
	pop.w	{r4, r5, r6, r7, r8, r9, r10, r11, lr}
	b	tlsf_words.cells.pack_many
.LBB49_10:
	mvn	r1, #7
	add.w	r1, r1, r2, lsl #3
	adds	r7, r4, r1
	ldr	r3, [r4, r1]
	ldr	r7, [r7, #4]
	str	r3, [r0, r1]
	add	r1, r0
	str	r7, [r1, #4]
	lsls	r1, r6, #27
	bpl	.LBB49_7
.LBB49_11:
	movs	r1, #32
	and.w	r1, r1, r2, lsl #3
	adds	r3, r4, r1
	ldr	r2, [r4, r1]
	ldr	r3, [r3, #4]
	str	r2, [r0, r1]
	adds	r2, r0, r1
	adds	r1, #8
	str	r3, [r2, #4]
	adds	r3, r4, r1
	ldr	r2, [r4, r1]
	ldr	r3, [r3, #4]
	str	r2, [r0, r1]
	add	r1, r0
	str	r3, [r1, #4]
	subs.w	r1, r6, #32
	sbcs	r1, r8, #0
	blo	.LBB49_8
.LBB49_12:
	ldr	r2, [r4, #4]
	ldr	r1, [r4]
	strd	r1, r2, [r0]
	ldr	r2, [r4, #12]
	ldr	r1, [r4, #8]
	strd	r1, r2, [r0, #8]
	ldr	r2, [r4, #20]
	ldr	r1, [r4, #16]
	strd	r1, r2, [r0, #16]
	ldr	r2, [r4, #28]
	ldr	r1, [r4, #24]
	strd	r1, r2, [r0, #24]
	add	sp, #36
	pop.w	{r4, r5, r6, r7, r8, r9, r10, r11, pc}
.Lfunc_end49:
	.size	tlsf_words.words.Words.write_run, .Lfunc_end49-tlsf_words.words.Words.write_run
	.cfi_endproc
	.section	.text.tlsf_heap.region.Region.write.5,"ax",%progbits
	.p2align	1
	.type	tlsf_heap.region.Region.write.5,%function
	.code	16
	.thumb_func
tlsf_heap.region.Region.write.5:
	.cfi_startproc
	push	{r4, r5, r7, lr}
	.cfi_def_cfa_offset 16
	.cfi_offset lr, -4
	.cfi_offset r7, -8
	.cfi_offset r5, -12
	.cfi_offset r4, -16
	sub	sp, #16
	.cfi_def_cfa_offset 32
	lsrs	r4, r1, #29
	adds.w	r1, r2, r1, lsl #3
	ldrd	r5, lr, [sp, #32]
	adc	r4, r4, #0
	adds	r1, #24
	adc	r12, r4, #0
	orrs	r2, r5
	lsls	r2, r2, #29
	beq	.LBB50_3
	movs	r2, #0
	rsbs.w	r4, r5, #7
	sbcs.w	r2, r2, lr
	blo	.LBB50_8
	str	r3, [sp]
	mov	r2, r1
	mov	r3, r12
	strd	r5, lr, [sp, #8]
	bl	tlsf_words.words.Words.write_few
	add	sp, #16
	pop	{r4, r5, r7, pc}
.LBB50_3:
	ldr	r0, [r0]
	lsrs	r2, r5, #3
	bic	r1, r1, #7
	orr.w	r2, r2, lr, lsl #29
	add	r0, r1
	movs	r1, #0
	rsbs.w	r4, r5, #63
	sbcs.w	r1, r1, lr
	blo	.LBB50_9
	lsls	r1, r5, #28
	bmi	.LBB50_10
	lsls	r1, r5, #27
	bmi	.LBB50_11
.LBB50_6:
	subs.w	r1, r5, #25
	sbcs	r1, lr, #0
	bhs	.LBB50_12
.LBB50_7:
	add	sp, #16
	pop	{r4, r5, r7, pc}
.LBB50_8:
	str	r3, [sp]
	mov	r2, r1
	mov	r3, r12
	strd	r5, lr, [sp, #8]
	bl	tlsf_words.words.Words.write_run
	add	sp, #16
	pop	{r4, r5, r7, pc}
.LBB50_9:
	lsr.w	r1, lr, #3
	str	r3, [sp, #32]
	mov	r3, r1
	add	sp, #16
	pop.w	{r4, r5, r7, lr}
	b	tlsf_words.cells.pack_many
.LBB50_10:
	mvn	r1, #7
	add.w	r1, r1, r2, lsl #3
	adds	r4, r3, r1
	ldr.w	r12, [r3, r1]
	ldr	r4, [r4, #4]
	str.w	r12, [r0, r1]
	add	r1, r0
	str	r4, [r1, #4]
	lsls	r1, r5, #27
	bpl	.LBB50_6
.LBB50_11:
	movs	r1, #32
	and.w	r1, r1, r2, lsl #3
	adds	r4, r3, r1
	ldr	r2, [r3, r1]
	ldr	r4, [r4, #4]
	str	r2, [r0, r1]
	adds	r2, r0, r1
	adds	r1, #8
	str	r4, [r2, #4]
	adds	r4, r3, r1
	ldr	r2, [r3, r1]
	ldr	r4, [r4, #4]
	str	r2, [r0, r1]
	add	r1, r0
	str	r4, [r1, #4]
	subs.w	r1, r5, #25
	sbcs	r1, lr, #0
	blo	.LBB50_7
.LBB50_12:
	ldr	r2, [r3, #4]
	ldr	r1, [r3]
	strd	r1, r2, [r0]
	ldr	r2, [r3, #12]
	ldr	r1, [r3, #8]
	strd	r1, r2, [r0, #8]
	ldr	r2, [r3, #20]
	ldr	r1, [r3, #16]
	strd	r1, r2, [r0, #16]
	ldr	r2, [r3, #28]
	ldr	r1, [r3, #24]
	strd	r1, r2, [r0, #24]
	add	sp, #16
	pop	{r4, r5, r7, pc}
.Lfunc_end50:
	.size	tlsf_heap.region.Region.write.5, .Lfunc_end50-tlsf_heap.region.Region.write.5
	.cfi_endproc
	.section	.text.tlsf_allocate,"ax",%progbits
	.globl	tlsf_allocate
	.p2align	1
	.type	tlsf_allocate,%function
	.code	16
	.thumb_func
tlsf_allocate:
	.cfi_startproc
	push.w	{r4, r5, r6, r7, r8, r9, r10, r11, lr}
	.cfi_def_cfa_offset 36
	.cfi_offset lr, -4
	.cfi_offset r11, -8
	.cfi_offset r10, -12
	.cfi_offset r9, -16
	.cfi_offset r8, -20
	.cfi_offset r7, -24
	.cfi_offset r6, -28
	.cfi_offset r5, -32
	.cfi_offset r4, -36
	sub	sp, #28
	.cfi_def_cfa_offset 64
	ldrb	r3, [r0, #8]
	cmp	r3, #0
	ittt	ne
	ldrne.w	r8, [r0]
	ldrbne.w	r3, [r8]
	cmpne	r3, #0
	bne	.LBB51_2
	movs	r0, #0
	add	sp, #28
	pop.w	{r4, r5, r6, r7, r8, r9, r10, r11, lr}
	b	tlsf_c.call_fault.CallFault.refusal
.LBB51_2:
	adds	r6, r1, #1
	mov.w	r3, #0
	adc	r5, r3, #0
	cmp	r1, #0
	strb.w	r3, [r8]
	ldrb.w	r7, [r8, #16]
	itt	ne
	movne	r6, r1
	movne	r5, r3
	adds.w	r3, r6, #31
	adc	r6, r5, #0
	lsr.w	r3, r3, #3
	orr.w	r11, r3, r6, lsl #29
	cbz	r7, .LBB51_6
	cmp.w	r11, #16777216
	bhi	.LBB51_7
	orr	r7, r11, #32
	sub.w	r3, r11, #1
	clz	r7, r7
	movs	r6, #0
	rsb.w	r7, r7, #26
	add.w	r12, r8, #108
	lsrs	r3, r7
	add.w	r7, r3, r7, lsl #5
	adds	r7, #1
	and	r3, r3, #31
	subs	r7, #1
	sbc	r5, r6, #0
	lsrs	r6, r7, #5
	orr.w	r6, r6, r5, lsl #27
	ldr.w	r4, [r12, r6, lsl #2]
	lsr.w	r3, r4, r3
	bics	r3, r3, #1
	beq	.LBB51_10
	rbit	r3, r3
	clz	r3, r3
	adds	r6, r7, r3
	adc	r3, r5, #0
	lsrs	r7, r6, #5
	orr.w	r9, r7, r3, lsl #27
	b	.LBB51_12
.LBB51_6:
	cmp.w	r11, #1048576
	bls	.LBB51_8
.LBB51_7:
	ldrd	r0, r2, [r8, #8]
	cmp	r1, r2
	it	hi
	movhi	r2, r1
	adds	r0, #1
	it	hs
	movhs.w	r0, #-1
	strd	r0, r2, [r8, #8]
	movs	r0, #1
	movs	r1, #1
	strb.w	r1, [r8]
	add	sp, #28
	pop.w	{r4, r5, r6, r7, r8, r9, r10, r11, pc}
.LBB51_8:
	orr	r7, r11, #16
	sub.w	r3, r11, #1
	clz	r7, r7
	movs	r6, #0
	rsb.w	r7, r7, #27
	add.w	r4, r8, #108
	lsrs	r3, r7
	add.w	r7, r3, r7, lsl #4
	adds	r7, #1
	and	r3, r3, #15
	subs	r7, #1
	sbc	r5, r6, #0
	lsrs	r6, r7, #4
	orr.w	r12, r6, r5, lsl #28
	ldr.w	r6, [r4, r12, lsl #2]
	lsr.w	r3, r6, r3
	bics	r3, r3, #1
	beq	.LBB51_15
	rbit	r3, r3
	clz	r3, r3
	adds	r6, r7, r3
	adc	r3, r5, #0
	lsrs	r7, r6, #4
	orr.w	r10, r7, r3, lsl #28
	b	.LBB51_17
.LBB51_10:
	ldr.w	r3, [r8, #104]
	mvn	r7, #1
	lsls	r7, r6
	ands	r3, r7
	beq	.LBB51_7
	rbit	r3, r3
	clz	r3, r3
	ldr.w	r7, [r12, r3, lsl #2]
	rbit	r7, r7
	clz	r7, r7
	add.w	r6, r7, r3, lsl #5
	lsr.w	r9, r6, #5
.LBB51_12:
	ldrd	r12, lr, [r8, #32]
	mvn.w	r3, r12
	orn	r3, r3, lr
	cbz	r3, .LBB51_18
	add.w	r10, r8, #192
	ldr.w	r7, [r8, #48]
	str	r2, [sp, #24]
	ldr.w	r4, [r10, r6, lsl #2]
	str	r4, [sp, #20]
	add.w	r3, r7, r4, lsl #3
	lsls	r2, r4, #3
	ldr	r5, [r3, #16]
	adds	r3, r5, #1
	beq	.LBB51_21
	add.w	r3, r7, r5, lsl #3
	mov.w	r4, #-1
	ldr	r7, [r3, #20]
	orrs	r7, r4
	str	r7, [r3, #20]
	str.w	r5, [r10, r6, lsl #2]
	ldr.w	r7, [r8, #48]
	b	.LBB51_23
.LBB51_15:
	ldr.w	r3, [r8, #104]
	mvn	r7, #1
	lsl.w	r7, r7, r12
	ands	r3, r7
	beq.w	.LBB51_7
	rbit	r3, r3
	clz	r3, r3
	ldr.w	r7, [r4, r3, lsl #2]
	rbit	r7, r7
	clz	r7, r7
	add.w	r6, r7, r3, lsl #4
	lsr.w	r10, r6, #4
.LBB51_17:
	ldrd	r7, lr, [r8, #32]
	mvns	r3, r7
	orn	r3, r3, lr
	cbnz	r3, .LBB51_19
.LBB51_18:
	movs	r0, #2
	movs	r1, #1
	strb.w	r1, [r8]
	add	sp, #28
	pop.w	{r4, r5, r6, r7, r8, r9, r10, r11, pc}
.LBB51_19:
	add.w	r12, r8, #192
	ldr.w	r9, [r8, #48]
	str	r2, [sp, #24]
	ldr.w	r4, [r12, r6, lsl #2]
	str	r4, [sp, #20]
	str	r7, [sp, #12]
	add.w	r3, r9, r4, lsl #3
	lsls	r2, r4, #3
	ldr	r5, [r3, #16]
	adds	r3, r5, #1
	beq.w	.LBB51_27
	add.w	r3, r9, r5, lsl #3
	mov.w	r4, #-1
	ldr	r7, [r3, #20]
	orrs	r7, r4
	str	r7, [r3, #20]
	str.w	r5, [r12, r6, lsl #2]
	ldr.w	r9, [r8, #48]
	b	.LBB51_29
.LBB51_21:
	mov.w	r3, #-1
	add.w	r5, r8, #108
	str.w	r3, [r10, r6, lsl #2]
	and	r6, r6, #31
	mov.w	r10, #1
	ldr.w	r3, [r5, r9, lsl #2]
	lsl.w	r6, r10, r6
	bics	r3, r6
	str.w	r3, [r5, r9, lsl #2]
	bne	.LBB51_23
	ldr.w	r3, [r8, #104]
	lsl.w	r5, r10, r9
	bics	r3, r5
	str.w	r3, [r8, #104]
.LBB51_23:
	ldr.w	r10, [r7, r2]
	adds	r6, r7, r2
	ldr.w	r9, [r6, #4]
	sub.w	r5, r10, r11, lsl #2
	cmp	r5, #15
	bhi	.LBB51_25
	subs.w	r5, r10, #1
	mov.w	r3, #0
	sbc	r7, r9, #0
	strd	r1, r3, [r6, #16]
	stm.w	r6, {r5, r7, r12, lr}
	lsrs	r1, r5, #2
	b	.LBB51_35
.LBB51_25:
	str	r2, [sp, #16]
	movs	r3, #0
	ldr	r4, [sp, #20]
	lsrs	r2, r5, #2
	str	r1, [r6, #16]
	subs.w	r1, r10, r5
	str	r1, [r6]
	add.w	r1, r4, r11
	str.w	r12, [r6, #8]
	str.w	r5, [r7, r1, lsl #3]
	str	r3, [r6, #20]
	sbc	r3, r9, #0
	str	r3, [r6, #4]
	add.w	r3, r7, r1, lsl #3
	str.w	lr, [r6, #12]
	str	r4, [r3, #4]
	mvn	r4, #7
	str.w	r12, [r3, #8]
	and.w	r4, r4, r1, lsr #3
	str.w	lr, [r3, #12]
	and	r3, r1, #63
	str.w	r12, [sp, #8]
	mov	r12, r2
	movs	r2, #1
	str.w	lr, [sp, #12]
	lsl.w	r7, r2, r3
	subs.w	r10, r3, #32
	it	pl
	movpl	r7, #0
	ldr.w	r6, [r8, #72]
	rsb.w	r3, r3, #32
	ldr.w	r9, [r6, r4]
	lsr.w	r3, r2, r3
	orr.w	r9, r9, r7
	add.w	r7, r6, r4
	str.w	r9, [r6, r4]
	lsl.w	r9, r1, #3
	mov.w	r4, #-1
	ldr.w	lr, [r7, #4]
	it	pl
	lslpl.w	r3, r2, r10
	orr.w	r3, r3, lr
	str	r3, [r7, #4]
	lsls	r3, r5, #30
	itttt	pl
	ldrpl.w	r3, [r8, #48]
	addpl.w	r7, r12, r1
	addpl.w	r3, r3, r7, lsl #3
	strpl	r1, [r3, #4]
	orr	r3, r12, #32
	clz	r3, r3
	rsb.w	r3, r3, #26
	lsr.w	r10, r12, r3
	add.w	r7, r10, r3, lsl #5
	add.w	r3, r8, #192
	ldr.w	r5, [r3, r7, lsl #2]
	str.w	r1, [r3, r7, lsl #2]
	ldr.w	r6, [r8, #48]
	cmp.w	r5, #-1
	ble.w	.LBB51_33
	add.w	r3, r6, r9
	strd	r5, r4, [r3, #16]
	add.w	r3, r6, r5, lsl #3
	str	r1, [r3, #20]
	b	.LBB51_34
.LBB51_27:
	mov.w	r3, #-1
	add.w	r5, r8, #108
	str.w	r3, [r12, r6, lsl #2]
	and	r6, r6, #15
	movs	r4, #1
	ldr.w	r3, [r5, r10, lsl #2]
	lsl.w	r6, r4, r6
	bics	r3, r6
	str.w	r3, [r5, r10, lsl #2]
	bne	.LBB51_29
	ldr.w	r3, [r8, #104]
	lsl.w	r6, r4, r10
	bics	r3, r6
	str.w	r3, [r8, #104]
.LBB51_29:
	ldr.w	r10, [r9, r2]
	add.w	r5, r9, r2
	ldr.w	r12, [r5, #4]
	sub.w	r6, r10, r11, lsl #2
	cmp	r6, #15
	bhi	.LBB51_31
	subs.w	r6, r10, #1
	mov.w	r3, #0
	sbc	r7, r12, #0
	ldr.w	r9, [sp, #12]
	strd	r1, r3, [r5, #16]
	lsrs	r1, r6, #2
	strd	r6, r7, [r5]
	strd	r9, lr, [r5, #8]
	b	.LBB51_40
.LBB51_31:
	str	r2, [sp, #16]
	lsrs	r2, r6, #2
	str	r2, [sp, #4]
	movs	r3, #0
	ldr	r7, [sp, #20]
	movs	r2, #1
	str	r1, [r5, #16]
	subs.w	r1, r10, r6
	str	r1, [r5]
	add.w	r1, r7, r11
	ldr	r4, [sp, #12]
	str	r4, [r5, #8]
	str.w	r6, [r9, r1, lsl #3]
	str	r3, [r5, #20]
	sbc	r3, r12, #0
	str	r3, [r5, #4]
	add.w	r3, r9, r1, lsl #3
	str.w	lr, [r5, #12]
	mov	r9, r4
	strd	r7, r4, [r3, #4]
	movs	r7, #1
	str.w	lr, [r3, #12]
	and	r3, r1, #63
	str.w	lr, [sp, #8]
	subs.w	r10, r3, #32
	lsl.w	r5, r7, r3
	mvn	r7, #7
	it	pl
	movpl	r5, #0
	ldr.w	r4, [r8, #72]
	and.w	r7, r7, r1, lsr #3
	rsb.w	r3, r3, #32
	ldr.w	r12, [r4, r7]
	lsr.w	r3, r2, r3
	orr.w	r12, r12, r5
	add.w	r5, r4, r7
	str.w	r12, [r4, r7]
	add.w	r4, r8, #108
	lsl.w	r12, r1, #3
	ldr.w	lr, [r5, #4]
	it	pl
	lslpl.w	r3, r2, r10
	ldr	r2, [sp, #4]
	orr.w	r3, r3, lr
	str	r3, [r5, #4]
	lsls	r3, r6, #30
	itttt	pl
	ldrpl.w	r3, [r8, #48]
	addpl	r7, r2, r1
	addpl.w	r3, r3, r7, lsl #3
	strpl	r1, [r3, #4]
	orr	r3, r2, #16
	clz	r3, r3
	rsb.w	r3, r3, #27
	lsr.w	r10, r2, r3
	add.w	r5, r10, r3, lsl #4
	add.w	r3, r8, #192
	ldr.w	r7, [r3, r5, lsl #2]
	str.w	r1, [r3, r5, lsl #2]
	ldr.w	r6, [r8, #48]
	cmp.w	r7, #-1
	ble	.LBB51_38
	add.w	r3, r6, r12
	mov.w	r5, #-1
	strd	r7, r5, [r3, #16]
	add.w	r3, r6, r7, lsl #3
	str	r1, [r3, #20]
	b	.LBB51_39
.LBB51_33:
	add.w	r1, r6, r9
	mov.w	r3, #-1
	movs	r6, #1
	strd	r3, r4, [r1, #16]
	add.w	r4, r8, #108
	lsrs	r3, r7, #5
	and	r1, r10, #31
	ldr.w	r7, [r4, r3, lsl #2]
	lsl.w	r1, r6, r1
	ldr.w	r5, [r8, #104]
	orrs	r1, r7
	str.w	r1, [r4, r3, lsl #2]
	lsl.w	r1, r6, r3
	orrs	r1, r5
	str.w	r1, [r8, #104]
.LBB51_34:
	ldr	r2, [sp, #16]
	mov	r1, r11
	ldrd	r12, lr, [sp, #8]
.LBB51_35:
	ldrd	r3, r7, [r8, #40]
	add	r1, r3
	str.w	r1, [r8, #40]
	cmp	r7, r1
	it	lo
	strlo.w	r1, [r8, #44]
	ldrd	r3, r7, [r8, #32]
	ldr.w	r1, [r8, #24]
	adds	r3, #1
	adc	r7, r7, #0
	strd	r3, r7, [r8, #32]
	lsls.w	r3, r11, #31
	beq	.LBB51_37
	ldrb	r3, [r0, #28]
	cmp	r3, #0
	itt	eq
	moveq	r3, #1
	strbeq	r3, [r0, #28]
.LBB51_37:
	ldr	r3, [sp, #24]
	str.w	r12, [r3, #8]
	b	.LBB51_43
.LBB51_38:
	add.w	r1, r6, r12
	mov.w	r3, #-1
	mov.w	r7, #-1
	movs	r6, #1
	strd	r3, r7, [r1, #16]
	lsrs	r3, r5, #4
	and	r1, r10, #15
	ldr.w	r7, [r4, r3, lsl #2]
	ldr.w	r5, [r8, #104]
	lsl.w	r1, r6, r1
	orrs	r1, r7
	str.w	r1, [r4, r3, lsl #2]
	lsl.w	r1, r6, r3
	orrs	r1, r5
	str.w	r1, [r8, #104]
.LBB51_39:
	ldr	r2, [sp, #16]
	mov	r1, r11
	ldr.w	lr, [sp, #8]
.LBB51_40:
	ldrd	r3, r7, [r8, #40]
	add	r1, r3
	str.w	r1, [r8, #40]
	cmp	r7, r1
	it	lo
	strlo.w	r1, [r8, #44]
	ldrd	r3, r7, [r8, #32]
	ldr.w	r1, [r8, #24]
	adds	r3, #1
	adc	r7, r7, #0
	strd	r3, r7, [r8, #32]
	lsls.w	r3, r11, #31
	beq	.LBB51_42
	ldrb	r3, [r0, #28]
	cmp	r3, #0
	itt	eq
	moveq	r3, #1
	strbeq	r3, [r0, #28]
.LBB51_42:
	ldr	r3, [sp, #24]
	str.w	r9, [r3, #8]
.LBB51_43:
	str	r1, [r3]
	subs.w	r1, r11, #3
	ldr	r0, [sp, #20]
	str	r0, [r3, #4]
	str.w	lr, [r3, #12]
	beq	.LBB51_45
	ldr.w	r0, [r8, #48]
	add	r0, r2
	lsls	r2, r1, #3
	adds	r0, #24
	movs	r1, #0
	bl	tlsf_memory_set
.LBB51_45:
	movs	r0, #1
	strb.w	r0, [r8]
	movs	r0, #0
	add	sp, #28
	pop.w	{r4, r5, r6, r7, r8, r9, r10, r11, pc}
.Lfunc_end51:
	.size	tlsf_allocate, .Lfunc_end51-tlsf_allocate
	.cfi_endproc
	.section	.text.tlsf_allocate_aligned,"ax",%progbits
	.globl	tlsf_allocate_aligned
	.p2align	2
	.type	tlsf_allocate_aligned,%function
	.code	16
	.thumb_func
tlsf_allocate_aligned:
	.cfi_startproc
	push.w	{r4, r5, r6, r7, r8, r9, r10, r11, lr}
	.cfi_def_cfa_offset 36
	.cfi_offset lr, -4
	.cfi_offset r11, -8
	.cfi_offset r10, -12
	.cfi_offset r9, -16
	.cfi_offset r8, -20
	.cfi_offset r7, -24
	.cfi_offset r6, -28
	.cfi_offset r5, -32
	.cfi_offset r4, -36
	sub	sp, #60
	.cfi_def_cfa_offset 96
	ldrb	r7, [r1, #8]
	cmp	r7, #0
	ittt	ne
	ldrne	r7, [r1]
	ldrbne	r1, [r7]
	cmpne	r1, #0
	beq.w	.LBB52_13
	movs	r1, #0
	ldr.w	lr, [sp, #96]
	strb	r1, [r7]
	mov.w	r6, #-1
	subs	r1, r6, #4
	ldrd	r11, r9, [r7, #32]
	sbc	r6, r6, #0
	ldrb	r5, [r7, #16]
	cmp	r5, #0
	beq	.LBB52_7
	subs.w	r1, r1, r11
	sbcs.w	r1, r6, r9
	blo	.LBB52_8
	cmp	r3, #1
	mov	r10, r3
	it	ls
	movls.w	r10, #1
	cmp.w	r3, #16777216
	bhi.w	.LBB52_60
	adds	r3, r2, #1
	mov.w	r1, #0
	adc	r6, r1, #0
	cmp	r2, #0
	itt	ne
	movne	r3, r2
	movne	r6, r1
	adds	r3, #31
	adc	r6, r6, #0
	lsrs	r3, r3, #3
	orr.w	r6, r3, r6, lsl #29
	add.w	r3, r10, r6
	add.w	r8, r3, #4
	cmp.w	r8, #16777216
	bhi.w	.LBB52_60
	str	r6, [sp, #24]
	orr	r6, r8, #32
	clz	r6, r6
	ldr	r3, [r7, #44]
	str	r3, [sp, #16]
	sub.w	r3, r8, #1
	rsb.w	r6, r6, #26
	add.w	r4, r7, #108
	lsr.w	r5, r3, r6
	add.w	r3, r5, r6, lsl #5
	adds	r3, #1
	and	r5, r5, #31
	subs	r3, #1
	sbc	r6, r1, #0
	lsrs	r1, r3, #5
	orr.w	r1, r1, r6, lsl #27
	ldr.w	r4, [r4, r1, lsl #2]
	lsr.w	r5, r4, r5
	bics	r12, r5, #1
	beq	.LBB52_14
	rbit	r1, r12
	clz	r1, r1
	adds	r1, r1, r3
	adc	r3, r6, #0
	lsrs	r6, r1, #5
	orr.w	r3, r6, r3, lsl #27
	b	.LBB52_16
.LBB52_7:
	subs.w	r1, r1, r11
	sbcs.w	r1, r6, r9
	bhs	.LBB52_9
.LBB52_8:
	movs	r1, #1
	movs	r5, #0
	strb	r1, [r7]
	movs	r1, #2
	b	.LBB52_61
.LBB52_9:
	cmp	r3, #1
	mov	r10, r3
	it	ls
	movls.w	r10, #1
	cmp.w	r3, #1048576
	bhi.w	.LBB52_60
	adds	r3, r2, #1
	mov.w	r1, #0
	adc	r6, r1, #0
	cmp	r2, #0
	itt	ne
	movne	r3, r2
	movne	r6, r1
	adds	r3, #31
	adc	r6, r6, #0
	lsrs	r3, r3, #3
	orr.w	r6, r3, r6, lsl #29
	add.w	r3, r10, r6
	adds	r4, r3, #4
	cmp.w	r4, #1048576
	bhi.w	.LBB52_60
	str	r6, [sp, #24]
	orr	r6, r4, #16
	clz	r6, r6
	ldr	r3, [r7, #44]
	str	r3, [sp, #20]
	subs	r3, r4, #1
	rsb.w	r6, r6, #27
	lsr.w	r5, r3, r6
	add.w	r3, r5, r6, lsl #4
	adds	r3, #1
	and	r5, r5, #15
	subs	r3, #1
	sbc	r6, r1, #0
	lsrs	r1, r3, #4
	orr.w	r8, r1, r6, lsl #28
	add.w	r1, r7, #108
	ldr.w	r1, [r1, r8, lsl #2]
	lsrs	r1, r5
	bics	r12, r1, #1
	beq	.LBB52_20
	rbit	r1, r12
	str	r4, [sp, #32]
	clz	r1, r1
	adds	r1, r1, r3
	adc	r3, r6, #0
	lsrs	r6, r1, #4
	orr.w	r8, r6, r3, lsl #28
	b	.LBB52_22
.LBB52_13:
	mov	r4, r0
	movs	r0, #0
	movs	r5, #0
	bl	tlsf_c.call_fault.CallFault.refusal
	mov	r1, r0
	mov	r0, r4
	b	.LBB52_61
.LBB52_14:
	mvn	r6, #1
	ldr	r3, [r7, #104]
	lsl.w	r1, r6, r1
	ands	r1, r3
	beq.w	.LBB52_60
	rbit	r1, r1
	add.w	r3, r7, #108
	clz	r1, r1
	ldr.w	r3, [r3, r1, lsl #2]
	rbit	r3, r3
	clz	r3, r3
	add.w	r1, r3, r1, lsl #5
	lsrs	r3, r1, #5
.LBB52_16:
	add.w	r12, r7, #192
	str	r3, [sp, #32]
	ldr	r3, [r7, #48]
	ldr.w	r5, [r12, r1, lsl #2]
	str	r5, [sp, #36]
	add.w	r6, r3, r5, lsl #3
	lsls	r4, r5, #3
	str	r4, [sp, #20]
	ldr	r6, [r6, #16]
	adds	r5, r6, #1
	beq	.LBB52_18
	add.w	r3, r3, r6, lsl #3
	mov.w	r5, #-1
	str	r5, [r3, #20]
	str.w	r6, [r12, r1, lsl #2]
	ldr	r3, [r7, #48]
	b	.LBB52_31
.LBB52_18:
	mov.w	r6, #-1
	ldr	r4, [sp, #32]
	str.w	r6, [r12, r1, lsl #2]
	add.w	r12, r7, #108
	and	r5, r1, #31
	ldr.w	r6, [r12, r4, lsl #2]
	movs	r1, #1
	lsl.w	r5, r1, r5
	bics	r6, r5
	str.w	r6, [r12, r4, lsl #2]
	beq.w	.LBB52_30
	ldr	r4, [sp, #20]
	b	.LBB52_31
.LBB52_20:
	ldr	r1, [r7, #104]
	mvn	r3, #1
	lsl.w	r3, r3, r8
	ands	r1, r3
	beq.w	.LBB52_60
	rbit	r1, r1
	add.w	r3, r7, #108
	clz	r1, r1
	str	r4, [sp, #32]
	ldr.w	r3, [r3, r1, lsl #2]
	rbit	r3, r3
	clz	r3, r3
	add.w	r1, r3, r1, lsl #4
	lsr.w	r8, r1, #4
.LBB52_22:
	add.w	r12, r7, #192
	ldr	r3, [r7, #48]
	ldr.w	r5, [r12, r1, lsl #2]
	str	r5, [sp, #36]
	add.w	r6, r3, r5, lsl #3
	lsls	r4, r5, #3
	ldr	r6, [r6, #16]
	adds	r5, r6, #1
	beq	.LBB52_24
	add.w	r3, r3, r6, lsl #3
	mov.w	r5, #-1
	str	r5, [r3, #20]
	str.w	r6, [r12, r1, lsl #2]
	ldr	r3, [r7, #48]
	b	.LBB52_26
.LBB52_24:
	mov.w	r6, #-1
	and	r5, r1, #15
	str.w	r6, [r12, r1, lsl #2]
	add.w	r12, r7, #108
	movs	r1, #1
	ldr.w	r6, [r12, r8, lsl #2]
	lsl.w	r5, r1, r5
	bics	r6, r5
	str.w	r6, [r12, r8, lsl #2]
	bne	.LBB52_26
	ldr	r6, [r7, #104]
	lsl.w	r1, r1, r8
	bic.w	r1, r6, r1
	str	r1, [r7, #104]
.LBB52_26:
	add.w	r8, r3, r4
	ldr	r1, [r3, r4]
	ldr	r6, [sp, #32]
	ldr.w	r12, [r8, #4]
	str	r4, [sp, #16]
	sub.w	r4, r1, r6, lsl #2
	cmp	r4, #15
	bhi	.LBB52_28
	subs	r1, #1
	mov.w	r3, #0
	sbc	r6, r12, #0
	stm.w	r8, {r1, r6, r11}
	strd	r9, r3, [r8, #12]
	str.w	r3, [r8, #20]
	lsrs	r3, r1, #2
	ldr	r5, [sp, #36]
	b	.LBB52_50
.LBB52_28:
	lsrs	r5, r4, #2
	subs	r1, r1, r4
	str	r5, [sp, #28]
	mov.w	lr, #0
	ldr	r5, [sp, #36]
	str.w	r1, [r8]
	add.w	r1, r5, r6
	str.w	lr, [r8, #16]
	str.w	r11, [r8, #8]
	sbc	r6, r12, #0
	str.w	r4, [r3, r1, lsl #3]
	add.w	r3, r3, r1, lsl #3
	str.w	r6, [r8, #4]
	movs	r6, #1
	str.w	lr, [r8, #20]
	str.w	r9, [r8, #12]
	strd	r5, r11, [r3, #4]
	str.w	r9, [r3, #12]
	and	r3, r1, #63
	lsl.w	r5, r6, r3
	subs.w	r6, r3, #32
	str	r6, [sp, #12]
	mvn	r6, #7
	it	pl
	movpl	r5, #0
	ldr.w	lr, [r7, #72]
	and.w	r6, r6, r1, lsr #3
	rsb.w	r3, r3, #32
	ldr.w	r12, [lr, r6]
	orr.w	r12, r12, r5
	add.w	r5, lr, r6
	str.w	r12, [lr, r6]
	mov.w	r12, #1
	lsr.w	r3, r12, r3
	ldr.w	r8, [r5, #4]
	ldr.w	lr, [sp, #28]
	ldr	r6, [sp, #12]
	it	pl
	lslpl.w	r3, r12, r6
	orr.w	r3, r3, r8
	str	r3, [r5, #4]
	lsls	r3, r4, #30
	itttt	pl
	ldrpl	r3, [r7, #48]
	addpl.w	r6, lr, r1
	addpl.w	r3, r3, r6, lsl #3
	strpl	r1, [r3, #4]
	orr	r3, lr, #16
	add.w	r5, r7, #192
	clz	r3, r3
	lsl.w	r12, r1, #3
	rsb.w	r3, r3, #27
	lsr.w	r8, lr, r3
	add.w	r3, r8, r3, lsl #4
	ldr.w	lr, [sp, #96]
	ldr.w	r6, [r5, r3, lsl #2]
	str.w	r1, [r5, r3, lsl #2]
	ldr	r4, [r7, #48]
	cmp.w	r6, #-1
	ble.w	.LBB52_48
	add.w	r3, r4, r12
	mov.w	r5, #-1
	strd	r6, r5, [r3, #16]
	add.w	r3, r4, r6, lsl #3
	str	r1, [r3, #20]
	b	.LBB52_49
.LBB52_30:
	ldr	r6, [r7, #104]
	lsls	r1, r4
	ldr	r4, [sp, #20]
	bic.w	r1, r6, r1
	str	r1, [r7, #104]
.LBB52_31:
	add.w	r12, r3, r4
	ldr	r1, [r3, r4]
	ldr.w	r6, [r12, #4]
	sub.w	r4, r1, r8, lsl #2
	cmp	r4, #15
	bhi	.LBB52_33
	subs	r1, #1
	mov.w	r3, #0
	sbc	r6, r6, #0
	stm.w	r12, {r1, r6, r11}
	strd	r9, r3, [r12, #12]
	str.w	r3, [r12, #20]
	lsrs	r3, r1, #2
	ldr	r5, [sp, #36]
	b	.LBB52_37
.LBB52_33:
	lsrs	r5, r4, #2
	subs	r1, r1, r4
	str	r5, [sp, #32]
	mov.w	lr, #0
	ldr	r5, [sp, #36]
	sbc	r6, r6, #0
	str.w	r1, [r12]
	add.w	r1, r5, r8
	str.w	lr, [r12, #16]
	str.w	r11, [r12, #8]
	str.w	r4, [r3, r1, lsl #3]
	add.w	r3, r3, r1, lsl #3
	str.w	r6, [r12, #4]
	movs	r6, #1
	str.w	lr, [r12, #20]
	str.w	r9, [r12, #12]
	strd	r5, r11, [r3, #4]
	str.w	r9, [r3, #12]
	and	r3, r1, #63
	str.w	r8, [sp, #4]
	lsl.w	r5, r6, r3
	subs.w	r6, r3, #32
	str	r6, [sp, #28]
	mvn	r6, #7
	it	pl
	movpl	r5, #0
	ldr.w	lr, [r7, #72]
	and.w	r6, r6, r1, lsr #3
	rsb.w	r3, r3, #32
	add.w	r8, lr, r6
	ldr.w	r12, [lr, r6]
	orr.w	r5, r5, r12
	str	r5, [sp, #8]
	ldr.w	r12, [r8, #4]
	str.w	r12, [sp, #12]
	mov.w	r12, #1
	ldr	r5, [sp, #8]
	lsr.w	r3, r12, r3
	str.w	r5, [lr, r6]
	ldr	r6, [sp, #28]
	ldr.w	lr, [sp, #32]
	it	pl
	lslpl.w	r3, r12, r6
	ldr	r6, [sp, #12]
	lsl.w	r12, r1, #3
	orrs	r3, r6
	str.w	r3, [r8, #4]
	lsls	r3, r4, #30
	itttt	pl
	ldrpl	r3, [r7, #48]
	addpl.w	r6, lr, r1
	addpl.w	r3, r3, r6, lsl #3
	strpl	r1, [r3, #4]
	orr	r3, lr, #32
	add.w	r4, r7, #192
	clz	r3, r3
	rsb.w	r3, r3, #26
	lsr.w	r5, lr, r3
	add.w	r3, r5, r3, lsl #5
	ldr.w	lr, [sp, #96]
	ldr.w	r6, [r4, r3, lsl #2]
	str.w	r1, [r4, r3, lsl #2]
	ldr	r4, [r7, #48]
	cmp.w	r6, #-1
	ble	.LBB52_35
	add.w	r3, r4, r12
	mov.w	r5, #-1
	strd	r6, r5, [r3, #16]
	add.w	r3, r4, r6, lsl #3
	str	r1, [r3, #20]
	b	.LBB52_36
.LBB52_35:
	add.w	r1, r4, r12
	mov.w	r6, #-1
	add.w	r12, r7, #108
	lsrs	r3, r3, #5
	strd	r6, r6, [r1, #16]
	and	r1, r5, #31
	ldr.w	r6, [r12, r3, lsl #2]
	movs	r5, #1
	lsl.w	r1, r5, r1
	ldr	r4, [r7, #104]
	orrs	r1, r6
	str.w	r1, [r12, r3, lsl #2]
	lsl.w	r1, r5, r3
	orrs	r1, r4
	str	r1, [r7, #104]
.LBB52_36:
	ldr	r5, [sp, #36]
	ldr	r3, [sp, #4]
.LBB52_37:
	strd	r2, r0, [sp, #28]
	add.w	r4, r7, #24
	ldrd	r0, r1, [r7, #40]
	add	r0, r3
	str	r0, [r7, #40]
	cmp	r1, r0
	it	lo
	strlo	r0, [r7, #44]
	ldrd	r0, r1, [r7, #32]
	ldr.w	r8, [r7, #24]
	adds	r0, #1
	adc	r1, r1, #0
	strd	r0, r1, [r7, #32]
	mov	r0, lr
	mov	r1, r10
	bl	__aeabi_uidivmod
	adds	r0, r5, r1
	mov	r1, r10
	adds	r0, #3
	bl	__aeabi_uidivmod
	cmp	r1, #0
	beq	.LBB52_46
	add.w	r0, r10, r10, lsl #2
	strd	r8, r5, [sp, #40]
	subs	r0, r0, r1
	mov	r1, r10
	subs	r0, #4
	strd	r11, r9, [sp, #48]
	bl	__aeabi_uidivmod
	adds	r6, r1, #4
	add	r1, sp, #40
	mov	r0, r4
	mov	r2, r6
	bl	tlsf_heap.heap.Heap.resize_live.5
	lsls	r0, r0, #24
	bne.w	.LBB52_56
	ldr	r0, [r7, #56]
	add	r5, r6
	cmp	r5, r0
	ldr	r0, [sp, #32]
	bhs.w	.LBB52_54
	mvn	r2, #7
	ldr	r1, [r7, #72]
	and.w	r2, r2, r5, lsr #3
	ldr	r3, [r1, r2]
	add	r1, r2
	and	r2, r5, #63
	ldr	r1, [r1, #4]
	rsb.w	r6, r2, #32
	lsrs	r3, r2
	subs	r2, #32
	lsl.w	r6, r1, r6
	orr.w	r3, r3, r6
	it	pl
	lsrpl.w	r3, r1, r2
	lsls	r1, r3, #31
	ittt	ne
	ldrne	r2, [r7, #48]
	ldrne.w	r1, [r2, r5, lsl #3]
	lslsne.w	r3, r1, #31
	beq.w	.LBB52_54
	ldr	r3, [sp, #24]
	cmp.w	r3, r1, lsr #2
	bhi.w	.LBB52_67
	ldrd	r3, r6, [r7, #32]
	mov.w	r4, #-1
	eors	r6, r4
	eors	r3, r4
	orrs	r3, r6
	beq.w	.LBB52_72
	add.w	r0, r2, r5, lsl #3
	lsls	r3, r5, #3
	str	r3, [sp, #20]
	ldrd	r3, r6, [r0, #16]
	cmp	r6, #0
	ldr.w	r12, [r0, #4]
	str	r5, [sp, #36]
	bmi.w	.LBB52_73
	add.w	r0, r2, r6, lsl #3
	adds	r5, r3, #1
	ldr	r4, [r0, #20]
	beq.w	.LBB52_75
	strd	r3, r4, [r0, #16]
	add.w	r0, r2, r3, lsl #3
	bic	r2, r6, #-2147483648
	str	r2, [r0, #20]
	b	.LBB52_81
.LBB52_46:
	ldr	r2, [sp, #24]
	add	r1, sp, #40
	mov	r0, r4
	strd	r8, r5, [sp, #40]
	strd	r11, r9, [sp, #48]
	bl	tlsf_heap.heap.Heap.resize_live.5
	lsls	r0, r0, #24
	bne.w	.LBB52_56
.LBB52_47:
	ldr	r0, [r7, #40]
	ldr	r2, [sp, #16]
	ldr	r1, [r7, #48]
	cmp	r0, r2
	it	hi
	movhi	r2, r0
	str	r2, [r7, #44]
	ldr	r0, [sp, #20]
	b	.LBB52_98
.LBB52_48:
	add.w	r1, r4, r12
	mov.w	r6, #-1
	add.w	r4, r7, #108
	lsrs	r3, r3, #4
	strd	r6, r6, [r1, #16]
	and	r1, r8, #15
	ldr.w	r6, [r4, r3, lsl #2]
	mov.w	r12, #1
	lsl.w	r1, r12, r1
	ldr	r5, [r7, #104]
	orrs	r1, r6
	str.w	r1, [r4, r3, lsl #2]
	lsl.w	r1, r12, r3
	orrs	r1, r5
	str	r1, [r7, #104]
.LBB52_49:
	ldrd	r3, r5, [sp, #32]
.LBB52_50:
	strd	r2, r0, [sp, #28]
	add.w	r4, r7, #24
	ldrd	r0, r1, [r7, #40]
	add	r0, r3
	str	r0, [r7, #40]
	cmp	r1, r0
	it	lo
	strlo	r0, [r7, #44]
	ldrd	r0, r1, [r7, #32]
	ldr.w	r8, [r7, #24]
	adds	r0, #1
	adc	r1, r1, #0
	strd	r0, r1, [r7, #32]
	mov	r0, lr
	mov	r1, r10
	bl	__aeabi_uidivmod
	adds	r0, r5, r1
	mov	r1, r10
	adds	r0, #3
	bl	__aeabi_uidivmod
	cbz	r1, .LBB52_55
	add.w	r0, r10, r10, lsl #2
	strd	r8, r5, [sp, #40]
	subs	r0, r0, r1
	mov	r1, r10
	subs	r0, #4
	strd	r11, r9, [sp, #48]
	bl	__aeabi_uidivmod
	adds	r6, r1, #4
	add	r1, sp, #40
	mov	r0, r4
	mov	r2, r6
	bl	tlsf_heap.heap.Heap.resize_live.4
	lsls	r0, r0, #24
	bne	.LBB52_56
	ldr	r0, [r7, #56]
	add	r5, r6
	cmp	r5, r0
	ldr	r0, [sp, #32]
	bhs	.LBB52_54
	mvn	r2, #7
	ldr	r1, [r7, #72]
	and.w	r2, r2, r5, lsr #3
	ldr	r3, [r1, r2]
	add	r1, r2
	and	r2, r5, #63
	ldr	r1, [r1, #4]
	rsb.w	r6, r2, #32
	lsrs	r3, r2
	subs	r2, #32
	lsl.w	r6, r1, r6
	orr.w	r3, r3, r6
	it	pl
	lsrpl.w	r3, r1, r2
	lsls	r1, r3, #31
	ittt	ne
	ldrne	r2, [r7, #48]
	ldrne.w	r1, [r2, r5, lsl #3]
	lslsne.w	r3, r1, #31
	bne	.LBB52_66
.LBB52_54:
	movs	r1, #3
	b	.LBB52_57
.LBB52_55:
	ldr	r2, [sp, #24]
	add	r1, sp, #40
	mov	r0, r4
	strd	r8, r5, [sp, #40]
	strd	r11, r9, [sp, #48]
	bl	tlsf_heap.heap.Heap.resize_live.4
	lsls	r0, r0, #24
	beq.w	.LBB52_97
.LBB52_56:
	ldrd	r2, r0, [sp, #28]
	lsls	r3, r1, #24
	beq	.LBB52_60
.LBB52_57:
	movs	r2, #1
	movs	r5, #0
	strb	r2, [r7]
	mov.w	r2, #-1
	uxtab	r2, r2, r1
	movs	r1, #2
	mov.w	r11, #0
	mov.w	r9, #0
.LCPI52_0:
	tbb	[pc, r2]
.LJTI52_0:
	.byte	(.LBB52_62-(.LCPI52_0+4))/2
	.byte	(.LBB52_59-(.LCPI52_0+4))/2
	.byte	(.LBB52_64-(.LCPI52_0+4))/2
	.byte	(.LBB52_65-(.LCPI52_0+4))/2
	.byte	(.LBB52_63-(.LCPI52_0+4))/2
	.p2align	1
.LBB52_59:
	movs	r1, #3
	strd	r5, r1, [r0]
	strd	r11, r9, [r0, #8]
	add	sp, #60
	pop.w	{r4, r5, r6, r7, r8, r9, r10, r11, pc}
.LBB52_60:
	ldrd	r3, r6, [r7, #8]
	movs	r1, #1
	cmp	r2, r6
	strb	r1, [r7]
	it	hi
	movhi	r6, r2
	adds	r2, r3, #1
	it	hs
	movhs.w	r2, #-1
	strd	r2, r6, [r7, #8]
	movs	r5, #0
.LBB52_61:
	mov.w	r11, #0
	mov.w	r9, #0
.LBB52_62:
	strd	r5, r1, [r0]
	strd	r11, r9, [r0, #8]
	add	sp, #60
	pop.w	{r4, r5, r6, r7, r8, r9, r10, r11, pc}
.LBB52_63:
	movs	r1, #10
	strd	r5, r1, [r0]
	strd	r11, r9, [r0, #8]
	add	sp, #60
	pop.w	{r4, r5, r6, r7, r8, r9, r10, r11, pc}
.LBB52_64:
	movs	r1, #4
	strd	r5, r1, [r0]
	strd	r11, r9, [r0, #8]
	add	sp, #60
	pop.w	{r4, r5, r6, r7, r8, r9, r10, r11, pc}
.LBB52_65:
	movs	r1, #7
	strd	r5, r1, [r0]
	strd	r11, r9, [r0, #8]
	add	sp, #60
	pop.w	{r4, r5, r6, r7, r8, r9, r10, r11, pc}
.LBB52_66:
	ldr.w	r8, [sp, #24]
	cmp.w	r8, r1, lsr #2
	bls	.LBB52_68
.LBB52_67:
	movs	r1, #5
	b	.LBB52_57
.LBB52_68:
	ldrd	r3, r6, [r7, #32]
	mov.w	r4, #-1
	eors	r6, r4
	eors	r3, r4
	orrs	r3, r6
	beq	.LBB52_72
	add.w	r0, r2, r5, lsl #3
	lsls	r3, r5, #3
	str	r3, [sp, #16]
	ldrd	r3, r6, [r0, #16]
	cmp	r6, #0
	ldr.w	r12, [r0, #4]
	str	r5, [sp, #36]
	bmi	.LBB52_76
	add.w	r0, r2, r6, lsl #3
	adds	r5, r3, #1
	ldr	r4, [r0, #20]
	beq	.LBB52_78
	strd	r3, r4, [r0, #16]
	add.w	r0, r2, r3, lsl #3
	bic	r2, r6, #-2147483648
	str	r2, [r0, #20]
	b	.LBB52_90
.LBB52_72:
	movs	r1, #1
	b	.LBB52_57
.LBB52_73:
	lsrs	r0, r1, #2
	orr	r6, r0, #32
	clz	r6, r6
	add.w	r5, r7, #192
	rsb.w	r6, r6, #26
	lsr.w	r4, r0, r6
	add.w	r6, r4, r6, lsl #5
	adds	r0, r3, #1
	beq	.LBB52_79
	add.w	r0, r2, r3, lsl #3
	mov.w	r2, #-1
	str	r2, [r0, #20]
	str.w	r3, [r5, r6, lsl #2]
	b	.LBB52_81
.LBB52_75:
	mov.w	r2, #-1
	strd	r2, r4, [r0, #16]
	b	.LBB52_81
.LBB52_76:
	lsrs	r0, r1, #2
	orr	r6, r0, #16
	clz	r6, r6
	rsb.w	r6, r6, #27
	lsr.w	r4, r0, r6
	add.w	r6, r4, r6, lsl #4
	adds	r0, r3, #1
	beq.w	.LBB52_88
	add.w	r0, r2, r3, lsl #3
	mov.w	r2, #-1
	str	r2, [r0, #20]
	add.w	r0, r7, #192
	str.w	r3, [r0, r6, lsl #2]
	b	.LBB52_90
.LBB52_78:
	mov.w	r2, #-1
	strd	r2, r4, [r0, #16]
	b	.LBB52_90
.LBB52_79:
	mov.w	r0, #-1
	lsrs	r2, r6, #5
	str.w	r0, [r5, r6, lsl #2]
	add.w	r5, r7, #108
	and	r6, r4, #31
	ldr.w	r0, [r5, r2, lsl #2]
	movs	r3, #1
	lsl.w	r6, r3, r6
	bics	r0, r6
	str.w	r0, [r5, r2, lsl #2]
	bne	.LBB52_81
	ldr	r0, [r7, #104]
	lsl.w	r2, r3, r2
	bics	r0, r2
	str	r0, [r7, #104]
.LBB52_81:
	ldr	r2, [sp, #24]
	ldrd	r11, r9, [r7, #32]
	sub.w	r3, r1, r2, lsl #2
	cmp	r3, #15
	bhi	.LBB52_83
	ldr	r0, [r7, #48]
	subs	r1, #1
	ldr	r2, [sp, #20]
	sbc	r3, r12, #0
	add.w	r5, r7, #24
	str	r1, [r0, r2]
	add	r0, r2
	movs	r2, #0
	strd	r3, r11, [r0, #4]
	strd	r9, r2, [r0, #12]
	str	r2, [r0, #20]
	lsrs	r2, r1, #2
	b	.LBB52_87
.LBB52_83:
	subs	r0, r1, r3
	ldr	r5, [r7, #48]
	ldr	r1, [sp, #20]
	sbc	r4, r12, #0
	mov.w	r12, #1
	movw	lr, #65528
	movt	lr, #8191
	lsr.w	r8, r3, #2
	str	r0, [r5, r1]
	add	r1, r5
	movs	r0, #0
	strd	r0, r0, [r1, #16]
	mov	r0, r2
	ldr	r2, [sp, #36]
	str.w	r11, [r1, #8]
	add	r0, r2
	str.w	r3, [r5, r0, lsl #3]
	str.w	r9, [r1, #12]
	str	r4, [r1, #4]
	add.w	r1, r5, r0, lsl #3
	strd	r2, r11, [r1, #4]
	and.w	r2, lr, r0, lsr #3
	str.w	r9, [r1, #12]
	and	r1, r0, #63
	subs.w	r10, r1, #32
	lsl.w	r4, r12, r1
	rsb.w	r1, r1, #32
	it	pl
	movpl	r4, #0
	ldr	r5, [r7, #72]
	lsr.w	r1, r12, r1
	ldr	r6, [r5, r2]
	orr.w	r6, r6, r4
	add.w	r4, r5, r2
	str	r6, [r5, r2]
	add.w	r5, r7, #24
	ldr.w	lr, [r4, #4]
	it	pl
	lslpl.w	r1, r12, r10
	lsl.w	r12, r0, #3
	orr.w	r1, r1, lr
	str	r1, [r4, #4]
	lsls	r1, r3, #30
	itttt	pl
	ldrpl	r1, [r7, #48]
	addpl.w	r2, r8, r0
	addpl.w	r1, r1, r2, lsl #3
	strpl	r0, [r1, #4]
	orr	r1, r8, #32
	mov.w	r4, #-1
	clz	r1, r1
	rsb.w	r1, r1, #26
	lsr.w	r2, r8, r1
	add.w	r3, r2, r1, lsl #5
	add.w	r1, r7, #192
	ldr.w	r6, [r1, r3, lsl #2]
	str.w	r0, [r1, r3, lsl #2]
	ldr	r1, [r7, #48]
	cmp.w	r6, #-1
	ble	.LBB52_85
	add.w	r2, r1, r12
	add.w	r1, r1, r6, lsl #3
	mov.w	r3, #-1
	strd	r6, r3, [r2, #16]
	str	r0, [r1, #20]
	b	.LBB52_86
.LBB52_85:
	add.w	r0, r1, r12
	lsrs	r1, r3, #5
	movs	r3, #1
	strd	r4, r4, [r0, #16]
	add.w	r4, r7, #108
	and	r0, r2, #31
	ldr	r6, [r7, #104]
	ldr.w	r2, [r4, r1, lsl #2]
	lsl.w	r0, r3, r0
	orrs	r0, r2
	str.w	r0, [r4, r1, lsl #2]
	lsl.w	r0, r3, r1
	orrs	r0, r6
	str	r0, [r7, #104]
.LBB52_86:
	ldr	r2, [sp, #24]
.LBB52_87:
	ldrd	r0, r1, [r7, #40]
	add	r0, r2
	str	r0, [r7, #40]
	cmp	r1, r0
	it	lo
	strlo	r0, [r7, #44]
	adds.w	r0, r11, #1
	adc	r1, r9, #0
	strd	r0, r1, [r7, #32]
	add	r1, sp, #40
	mov	r0, r5
	bl	tlsf_heap.heap.Heap.release_live.5
	ldr	r5, [sp, #36]
	b	.LBB52_47
.LBB52_88:
	add.w	r2, r7, #192
	mov.w	r0, #-1
	add.w	r5, r7, #108
	movs	r3, #1
	str.w	r0, [r2, r6, lsl #2]
	lsrs	r2, r6, #4
	and	r6, r4, #15
	ldr.w	r0, [r5, r2, lsl #2]
	lsl.w	r6, r3, r6
	bics	r0, r6
	str.w	r0, [r5, r2, lsl #2]
	bne	.LBB52_90
	ldr	r0, [r7, #104]
	lsl.w	r2, r3, r2
	bics	r0, r2
	str	r0, [r7, #104]
.LBB52_90:
	ldrd	r11, r9, [r7, #32]
	sub.w	r3, r1, r8, lsl #2
	cmp	r3, #15
	bhi	.LBB52_92
	ldr	r0, [r7, #48]
	subs	r1, #1
	ldr	r2, [sp, #16]
	sbc	r3, r12, #0
	add.w	r5, r7, #24
	str	r1, [r0, r2]
	add	r0, r2
	movs	r2, #0
	strd	r3, r11, [r0, #4]
	strd	r9, r2, [r0, #12]
	str	r2, [r0, #20]
	lsrs	r2, r1, #2
	b	.LBB52_96
.LBB52_92:
	subs	r0, r1, r3
	ldr	r5, [r7, #48]
	ldr	r1, [sp, #16]
	mov	r4, r8
	ldr	r2, [sp, #36]
	sbc	r6, r12, #0
	mov.w	r12, #1
	movw	lr, #65528
	str	r0, [r5, r1]
	add	r1, r5
	movs	r0, #0
	strd	r0, r0, [r1, #16]
	adds	r0, r2, r4
	and	r10, r0, #63
	str.w	r11, [r1, #8]
	str.w	r3, [r5, r0, lsl #3]
	subs.w	r4, r10, #32
	movt	lr, #8191
	str	r6, [r1, #4]
	and.w	r6, lr, r0, lsr #3
	str.w	r9, [r1, #12]
	add.w	r1, r5, r0, lsl #3
	lsl.w	r5, r12, r10
	lsr.w	r8, r3, #2
	strd	r2, r11, [r1, #4]
	str.w	r9, [r1, #12]
	it	pl
	movpl	r5, #0
	ldr	r2, [r7, #72]
	ldr	r1, [r2, r6]
	orr.w	r1, r1, r5
	add.w	r5, r2, r6
	str	r1, [r2, r6]
	rsb.w	r1, r10, #32
	ldr.w	lr, [r5, #4]
	lsr.w	r1, r12, r1
	it	pl
	lslpl.w	r1, r12, r4
	lsl.w	r12, r0, #3
	orr.w	r1, r1, lr
	str	r1, [r5, #4]
	lsls	r1, r3, #30
	itttt	pl
	ldrpl	r1, [r7, #48]
	addpl.w	r2, r8, r0
	addpl.w	r1, r1, r2, lsl #3
	strpl	r0, [r1, #4]
	orr	r1, r8, #16
	add.w	r5, r7, #24
	clz	r1, r1
	rsb.w	r1, r1, #27
	lsr.w	r2, r8, r1
	add.w	r3, r2, r1, lsl #4
	add.w	r1, r7, #192
	ldr.w	r6, [r1, r3, lsl #2]
	str.w	r0, [r1, r3, lsl #2]
	ldr	r1, [r7, #48]
	cmp.w	r6, #-1
	ble	.LBB52_94
	add.w	r2, r1, r12
	add.w	r1, r1, r6, lsl #3
	mov.w	r3, #-1
	strd	r6, r3, [r2, #16]
	str	r0, [r1, #20]
	b	.LBB52_95
.LBB52_94:
	add.w	r0, r1, r12
	mov.w	r1, #-1
	add.w	r4, r7, #108
	strd	r1, r1, [r0, #16]
	lsrs	r1, r3, #4
	and	r0, r2, #15
	ldr.w	r2, [r4, r1, lsl #2]
	movs	r3, #1
	lsl.w	r0, r3, r0
	ldr	r6, [r7, #104]
	orrs	r0, r2
	str.w	r0, [r4, r1, lsl #2]
	lsl.w	r0, r3, r1
	orrs	r0, r6
	str	r0, [r7, #104]
.LBB52_95:
	ldr	r2, [sp, #24]
.LBB52_96:
	ldrd	r0, r1, [r7, #40]
	add	r0, r2
	str	r0, [r7, #40]
	cmp	r1, r0
	it	lo
	strlo	r0, [r7, #44]
	adds.w	r0, r11, #1
	adc	r1, r9, #0
	strd	r0, r1, [r7, #32]
	add	r1, sp, #40
	mov	r0, r5
	bl	tlsf_heap.heap.Heap.release_live.4
	ldr	r5, [sp, #36]
.LBB52_97:
	ldr	r0, [r7, #40]
	ldr	r2, [sp, #20]
	ldr	r1, [r7, #48]
	cmp	r0, r2
	it	hi
	movhi	r2, r0
	ldr	r0, [sp, #16]
	str	r2, [r7, #44]
.LBB52_98:
	adds	r2, r1, r0
	ldrd	r3, r0, [sp, #28]
	movs	r1, #0
	strd	r3, r1, [r2, #16]
	movs	r2, #1
	strb	r2, [r7]
	strd	r5, r1, [r0]
	strd	r11, r9, [r0, #8]
	add	sp, #60
	pop.w	{r4, r5, r6, r7, r8, r9, r10, r11, pc}
.Lfunc_end52:
	.size	tlsf_allocate_aligned, .Lfunc_end52-tlsf_allocate_aligned
	.cfi_endproc
	.section	.text.tlsf_allocate_payload,"ax",%progbits
	.globl	tlsf_allocate_payload
	.p2align	1
	.type	tlsf_allocate_payload,%function
	.code	16
	.thumb_func
tlsf_allocate_payload:
	.cfi_startproc
	ldrb	r2, [r0, #8]
	cmp	r2, #0
	itt	eq
	moveq	r0, #0
	bxeq	lr
.LBB53_1:
	push.w	{r4, r5, r6, r7, r8, r9, r10, r11, lr}
	.cfi_def_cfa_offset 36
	.cfi_offset lr, -4
	.cfi_offset r11, -8
	.cfi_offset r10, -12
	.cfi_offset r9, -16
	.cfi_offset r8, -20
	.cfi_offset r7, -24
	.cfi_offset r6, -28
	.cfi_offset r5, -32
	.cfi_offset r4, -36
	sub	sp, #12
	.cfi_def_cfa_offset 48
	ldr	r2, [r0]
	movs	r0, #0
	ldrb	r3, [r2]
	cmp	r3, #1
	bne	.LBB53_10
	cmp.w	r1, #134217728
	bhi	.LBB53_10
	strb	r0, [r2]
	movw	r0, #65528
	movt	r0, #8191
	adds	r1, #7
	subs	r0, #8
	ldrb	r7, [r2, #16]
	and.w	r3, r1, r0
	add.w	r0, r3, #39
	add.w	r1, r3, #8
	lsr.w	r4, r0, #3
	movw	r0, #65504
	movt	r0, #127
	cbz	r7, .LBB53_7
	add.w	r0, r0, #125829120
	cmp	r3, r0
	bhi	.LBB53_8
	orr	r3, r4, #32
	subs	r0, r4, #1
	clz	r3, r3
	movs	r7, #0
	rsb.w	r3, r3, #26
	add.w	r8, r2, #108
	lsr.w	r6, r0, r3
	add.w	r0, r6, r3, lsl #5
	adds	r0, #1
	and	r6, r6, #31
	subs	r3, r0, #1
	sbc	r7, r7, #0
	lsrs	r0, r3, #5
	orr.w	r0, r0, r7, lsl #27
	ldr.w	r5, [r8, r0, lsl #2]
	lsr.w	r6, r5, r6
	bics	r6, r6, #1
	beq	.LBB53_13
	rbit	r0, r6
	clz	r0, r0
	adds	r3, r3, r0
	adc	r0, r7, #0
	lsrs	r7, r3, #5
	orr.w	lr, r7, r0, lsl #27
	b	.LBB53_15
.LBB53_7:
	cmp	r3, r0
	bls	.LBB53_11
.LBB53_8:
	ldrd	r0, r3, [r2, #8]
	cmp	r1, r3
	it	hi
	movhi	r3, r1
	adds	r0, #1
	it	hs
	movhs.w	r0, #-1
	strd	r0, r3, [r2, #8]
.LBB53_9:
	movs	r0, #1
	strb	r0, [r2]
	movs	r0, #0
.LBB53_10:
	add	sp, #12
	pop.w	{r4, r5, r6, r7, r8, r9, r10, r11, pc}
.LBB53_11:
	orr	r3, r4, #16
	subs	r0, r4, #1
	clz	r3, r3
	movs	r7, #0
	rsb.w	r3, r3, #27
	add.w	r12, r2, #108
	lsr.w	r6, r0, r3
	add.w	r0, r6, r3, lsl #4
	adds	r0, #1
	and	r6, r6, #15
	subs	r3, r0, #1
	sbc	r7, r7, #0
	lsrs	r0, r3, #4
	orr.w	r0, r0, r7, lsl #28
	ldr.w	r5, [r12, r0, lsl #2]
	lsr.w	r6, r5, r6
	bics	r6, r6, #1
	beq	.LBB53_18
	rbit	r0, r6
	clz	r0, r0
	adds	r3, r3, r0
	adc	r0, r7, #0
	lsrs	r7, r3, #4
	orr.w	lr, r7, r0, lsl #28
	b	.LBB53_20
.LBB53_13:
	mvn	r7, #1
	ldr	r3, [r2, #104]
	lsl.w	r0, r7, r0
	ands	r0, r3
	beq	.LBB53_8
	rbit	r0, r0
	clz	r0, r0
	ldr.w	r3, [r8, r0, lsl #2]
	rbit	r3, r3
	clz	r3, r3
	add.w	r3, r3, r0, lsl #5
	lsr.w	lr, r3, #5
.LBB53_15:
	ldrd	r11, r10, [r2, #32]
	mvn.w	r0, r11
	orn	r0, r0, r10
	cmp	r0, #0
	beq	.LBB53_9
	add.w	r9, r2, #192
	ldr	r5, [r2, #48]
	str	r4, [sp, #4]
	ldr.w	r12, [r9, r3, lsl #2]
	add.w	r0, r5, r12, lsl #3
	lsl.w	r6, r12, #3
	ldr	r0, [r0, #16]
	adds	r4, r0, #1
	beq	.LBB53_23
	add.w	r5, r5, r0, lsl #3
	mov.w	r7, #-1
	ldr	r4, [r5, #20]
	orrs	r4, r7
	str	r4, [r5, #20]
	str.w	r0, [r9, r3, lsl #2]
	ldr	r5, [r2, #48]
	b	.LBB53_25
.LBB53_18:
	mvn	r7, #1
	ldr	r3, [r2, #104]
	lsl.w	r0, r7, r0
	ands	r0, r3
	beq	.LBB53_8
	rbit	r0, r0
	clz	r0, r0
	ldr.w	r3, [r12, r0, lsl #2]
	rbit	r3, r3
	clz	r3, r3
	add.w	r3, r3, r0, lsl #4
	lsr.w	lr, r3, #4
.LBB53_20:
	ldrd	r9, r10, [r2, #32]
	mvn.w	r0, r9
	orn	r0, r0, r10
	cmp	r0, #0
	beq.w	.LBB53_9
	add.w	r8, r2, #192
	mov	r7, r12
	ldr	r5, [r2, #48]
	mov	r11, r4
	ldr.w	r12, [r8, r3, lsl #2]
	add.w	r0, r5, r12, lsl #3
	lsl.w	r6, r12, #3
	ldr	r4, [r0, #16]
	adds	r0, r4, #1
	beq.w	.LBB53_29
	add.w	r0, r5, r4, lsl #3
	mov.w	r7, #-1
	ldr	r5, [r0, #20]
	orrs	r5, r7
	str	r5, [r0, #20]
	str.w	r4, [r8, r3, lsl #2]
	ldr	r5, [r2, #48]
	b	.LBB53_31
.LBB53_23:
	mov.w	r0, #-1
	str.w	r0, [r9, r3, lsl #2]
	and	r3, r3, #31
	movs	r0, #1
	ldr.w	r4, [r8, lr, lsl #2]
	lsl.w	r3, r0, r3
	bics.w	r3, r4, r3
	str.w	r3, [r8, lr, lsl #2]
	bne	.LBB53_25
	ldr	r3, [r2, #104]
	lsl.w	r0, r0, lr
	bic.w	r0, r3, r0
	str	r0, [r2, #104]
.LBB53_25:
	add.w	r8, r5, r6
	ldr.w	lr, [r5, r6]
	ldr	r4, [sp, #4]
	ldr.w	r9, [r8, #4]
	str	r6, [sp, #8]
	sub.w	r3, lr, r4, lsl #2
	cmp	r3, #15
	bhi	.LBB53_27
	subs.w	r3, lr, #1
	mov.w	r0, #0
	sbc	r5, r9, #0
	stm.w	r8, {r3, r5, r11}
	lsrs	r3, r3, #2
	strd	r10, r1, [r8, #12]
	str.w	r0, [r8, #20]
	ldr.w	r8, [sp, #8]
	b	.LBB53_37
.LBB53_27:
	lsrs	r0, r3, #2
	str.w	r1, [r8, #16]
	str	r0, [sp]
	subs.w	r0, lr, r3
	add.w	r1, r12, r4
	str.w	r0, [r8]
	mov.w	r0, #0
	str.w	r11, [r8, #8]
	str.w	r3, [r5, r1, lsl #3]
	movw	r4, #65528
	movt	r4, #8191
	str.w	r0, [r8, #20]
	sbc	r0, r9, #0
	str.w	r0, [r8, #4]
	add.w	r0, r5, r1, lsl #3
	str.w	r10, [r8, #12]
	and.w	r4, r4, r1, lsr #3
	strd	r12, r11, [r0, #4]
	mov.w	r12, #1
	str.w	r10, [r0, #12]
	and	r0, r1, #63
	subs.w	lr, r0, #32
	lsl.w	r6, r12, r0
	rsb.w	r0, r0, #32
	it	pl
	movpl	r6, #0
	ldr	r7, [r2, #72]
	lsr.w	r0, r12, r0
	ldr	r5, [r7, r4]
	orr.w	r5, r5, r6
	add.w	r6, r7, r4
	str	r5, [r7, r4]
	mov.w	r4, #-1
	ldr.w	r8, [r6, #4]
	it	pl
	lslpl.w	r0, r12, lr
	ldr	r5, [sp]
	add.w	r12, r2, #108
	orr.w	r0, r0, r8
	str	r0, [r6, #4]
	lsls	r0, r3, #30
	itttt	pl
	ldrpl	r0, [r2, #48]
	addpl	r3, r5, r1
	addpl.w	r0, r0, r3, lsl #3
	strpl	r1, [r0, #4]
	orr	r0, r5, #32
	ldr.w	r8, [sp, #8]
	clz	r0, r0
	lsls	r3, r1, #3
	rsb.w	r7, r0, #26
	lsr.w	r0, r5, r7
	add.w	r7, r0, r7, lsl #5
	add.w	r5, r2, #192
	ldr.w	r6, [r5, r7, lsl #2]
	str.w	r1, [r5, r7, lsl #2]
	ldr	r5, [r2, #48]
	cmp.w	r6, #-1
	ble.w	.LBB53_35
	adds	r0, r5, r3
	strd	r6, r4, [r0, #16]
	add.w	r0, r5, r6, lsl #3
	str	r1, [r0, #20]
	b	.LBB53_36
.LBB53_29:
	mov.w	r0, #-1
	str.w	r0, [r8, r3, lsl #2]
	and	r3, r3, #15
	movs	r0, #1
	ldr.w	r4, [r7, lr, lsl #2]
	lsl.w	r3, r0, r3
	bics.w	r3, r4, r3
	str.w	r3, [r7, lr, lsl #2]
	bne	.LBB53_31
	ldr	r3, [r2, #104]
	lsl.w	r0, r0, lr
	bic.w	r0, r3, r0
	str	r0, [r2, #104]
.LBB53_31:
	ldr.w	lr, [r5, r6]
	add.w	r8, r5, r6
	str	r6, [sp, #8]
	ldr.w	r4, [r8, #4]
	sub.w	r3, lr, r11, lsl #2
	cmp	r3, #15
	bhi	.LBB53_33
	subs.w	r3, lr, #1
	mov.w	r0, #0
	sbc	r5, r4, #0
	stm.w	r8, {r3, r5, r9, r10}
	lsr.w	r11, r3, #2
	strd	r1, r0, [r8, #16]
	ldr.w	r8, [sp, #8]
	b	.LBB53_39
.LBB53_33:
	lsrs	r0, r3, #2
	str.w	r1, [r8, #16]
	str	r0, [sp, #4]
	subs.w	r0, lr, r3
	add.w	r1, r12, r11
	str.w	r0, [r8]
	mov.w	r0, #0
	str.w	r9, [r8, #8]
	str.w	r3, [r5, r1, lsl #3]
	str.w	r0, [r8, #20]
	sbc	r0, r4, #0
	str.w	r0, [r8, #4]
	add.w	r0, r5, r1, lsl #3
	str.w	r10, [r8, #12]
	movw	r4, #65528
	strd	r12, r9, [r0, #4]
	mov.w	r12, #1
	str.w	r10, [r0, #12]
	and	r0, r1, #63
	movt	r4, #8191
	subs.w	lr, r0, #32
	lsl.w	r6, r12, r0
	and.w	r4, r4, r1, lsr #3
	it	pl
	movpl	r6, #0
	ldr	r7, [r2, #72]
	rsb.w	r0, r0, #32
	ldr	r5, [r7, r4]
	lsr.w	r0, r12, r0
	orr.w	r5, r5, r6
	add.w	r6, r7, r4
	str	r5, [r7, r4]
	ldr.w	r8, [r6, #4]
	it	pl
	lslpl.w	r0, r12, lr
	ldr	r5, [sp, #4]
	add.w	r12, r2, #108
	orr.w	r0, r0, r8
	str	r0, [r6, #4]
	lsls	r0, r3, #30
	itttt	pl
	ldrpl	r0, [r2, #48]
	addpl	r3, r5, r1
	addpl.w	r0, r0, r3, lsl #3
	strpl	r1, [r0, #4]
	orr	r0, r5, #16
	ldr.w	r8, [sp, #8]
	clz	r0, r0
	lsls	r3, r1, #3
	rsb.w	r7, r0, #27
	mov.w	lr, #-1
	lsr.w	r0, r5, r7
	add.w	r7, r0, r7, lsl #4
	add.w	r5, r2, #192
	ldr.w	r6, [r5, r7, lsl #2]
	str.w	r1, [r5, r7, lsl #2]
	ldr	r5, [r2, #48]
	cmp.w	r6, #-1
	ble	.LBB53_38
	adds	r0, r5, r3
	strd	r6, lr, [r0, #16]
	add.w	r0, r5, r6, lsl #3
	str	r1, [r0, #20]
	b	.LBB53_39
.LBB53_35:
	adds	r1, r5, r3
	mov.w	r3, #-1
	and	r0, r0, #31
	strd	r3, r4, [r1, #16]
	lsrs	r1, r7, #5
	ldr.w	r3, [r12, r1, lsl #2]
	movs	r7, #1
	lsl.w	r0, r7, r0
	ldr	r6, [r2, #104]
	orrs	r0, r3
	str.w	r0, [r12, r1, lsl #2]
	lsl.w	r0, r7, r1
	orrs	r0, r6
	str	r0, [r2, #104]
.LBB53_36:
	ldr	r3, [sp, #4]
.LBB53_37:
	ldrd	r0, r1, [r2, #40]
	add	r0, r3
	b	.LBB53_40
.LBB53_38:
	adds	r1, r5, r3
	mov.w	r3, #-1
	and	r0, r0, #15
	strd	r3, lr, [r1, #16]
	lsrs	r1, r7, #4
	ldr.w	r3, [r12, r1, lsl #2]
	movs	r7, #1
	lsl.w	r0, r7, r0
	ldr	r6, [r2, #104]
	orrs	r0, r3
	str.w	r0, [r12, r1, lsl #2]
	lsl.w	r0, r7, r1
	orrs	r0, r6
	str	r0, [r2, #104]
.LBB53_39:
	ldrd	r0, r1, [r2, #40]
	add	r0, r11
.LBB53_40:
	str	r0, [r2, #40]
	cmp	r1, r0
	it	lo
	strlo	r0, [r2, #44]
	ldrd	r0, r1, [r2, #32]
	adds	r0, #1
	adc	r1, r1, #0
	strd	r0, r1, [r2, #32]
	movs	r0, #1
	strb	r0, [r2]
	add.w	r0, r8, #24
	add	sp, #12
	pop.w	{r4, r5, r6, r7, r8, r9, r10, r11, pc}
.Lfunc_end53:
	.size	tlsf_allocate_payload, .Lfunc_end53-tlsf_allocate_payload
	.cfi_endproc
	.section	.text.tlsf_allocate_place,"ax",%progbits
	.globl	tlsf_allocate_place
	.p2align	1
	.type	tlsf_allocate_place,%function
	.code	16
	.thumb_func
tlsf_allocate_place:
	.cfi_startproc
	push.w	{r4, r5, r6, r7, r8, r9, r10, r11, lr}
	.cfi_def_cfa_offset 36
	.cfi_offset lr, -4
	.cfi_offset r11, -8
	.cfi_offset r10, -12
	.cfi_offset r9, -16
	.cfi_offset r8, -20
	.cfi_offset r7, -24
	.cfi_offset r6, -28
	.cfi_offset r5, -32
	.cfi_offset r4, -36
	sub	sp, #8
	.cfi_def_cfa_offset 44
	ldrb	r3, [r1, #8]
	cmp	r3, #0
	beq	.LBB54_6
	ldr	r1, [r1]
	movs	r3, #0
	ldrb	r7, [r1]
	cmp	r7, #1
	bne	.LBB54_7
	adds	r6, r2, #1
	strb	r3, [r1]
	adc	r5, r3, #0
	cmp	r2, #0
	ldrb	r7, [r1, #16]
	itt	ne
	movne	r6, r2
	movne	r5, r3
	adds.w	r3, r6, #31
	adc	r6, r5, #0
	lsr.w	r3, r3, #3
	orr.w	r12, r3, r6, lsl #29
	cbz	r7, .LBB54_8
	cmp.w	r12, #16777216
	bhi	.LBB54_9
	orr	r7, r12, #32
	sub.w	r3, r12, #1
	clz	r7, r7
	add.w	lr, r1, #108
	rsb.w	r7, r7, #26
	lsr.w	r5, r3, r7
	add.w	r3, r5, r7, lsl #5
	adds	r3, #1
	movs	r7, #0
	subs	r3, #1
	and	r5, r5, #31
	sbc	r6, r7, #0
	lsrs	r7, r3, #5
	orr.w	r7, r7, r6, lsl #27
	ldr.w	r4, [lr, r7, lsl #2]
	lsr.w	r5, r4, r5
	bics	r5, r5, #1
	beq	.LBB54_12
	rbit	r7, r5
	clz	r7, r7
	adds	r7, r7, r3
	adc	r3, r6, #0
	lsrs	r6, r7, #5
	orr.w	r9, r6, r3, lsl #27
	b	.LBB54_14
.LBB54_6:
	movs	r3, #0
.LBB54_7:
	movs	r2, #32
	mov.w	lr, #0
	movs	r4, #0
	strd	r3, r2, [r0]
	strd	lr, r4, [r0, #8]
	add	sp, #8
	pop.w	{r4, r5, r6, r7, r8, r9, r10, r11, pc}
.LBB54_8:
	cmp.w	r12, #1048576
	bls	.LBB54_10
.LBB54_9:
	ldrd	r3, r7, [r1, #8]
	cmp	r2, r7
	it	hi
	movhi	r7, r2
	adds	r2, r3, #1
	mov.w	r3, #0
	it	hs
	movhs.w	r2, #-1
	strd	r2, r7, [r1, #8]
	movs	r2, #1
	b	.LBB54_21
.LBB54_10:
	orr	r7, r12, #16
	sub.w	r3, r12, #1
	clz	r7, r7
	add.w	lr, r1, #108
	rsb.w	r7, r7, #27
	lsr.w	r5, r3, r7
	add.w	r3, r5, r7, lsl #4
	adds	r3, #1
	movs	r7, #0
	subs	r3, #1
	and	r5, r5, #15
	sbc	r6, r7, #0
	lsrs	r7, r3, #4
	orr.w	r7, r7, r6, lsl #28
	ldr.w	r4, [lr, r7, lsl #2]
	lsr.w	r5, r4, r5
	bics	r5, r5, #1
	beq	.LBB54_17
	rbit	r7, r5
	clz	r7, r7
	adds	r7, r7, r3
	adc	r3, r6, #0
	lsrs	r6, r7, #4
	orr.w	r9, r6, r3, lsl #28
	b	.LBB54_19
.LBB54_12:
	ldr	r3, [r1, #104]
	mvn	r6, #1
	lsl.w	r7, r6, r7
	ands	r3, r7
	beq	.LBB54_9
	rbit	r3, r3
	clz	r3, r3
	ldr.w	r7, [lr, r3, lsl #2]
	rbit	r7, r7
	clz	r7, r7
	add.w	r7, r7, r3, lsl #5
	lsr.w	r9, r7, #5
.LBB54_14:
	ldrd	lr, r4, [r1, #32]
	mvn.w	r3, lr
	orn	r3, r3, r4
	cbz	r3, .LBB54_20
	add.w	r3, r1, #192
	ldr.w	r10, [r1, #48]
	ldr.w	r3, [r3, r7, lsl #2]
	add.w	r5, r10, r3, lsl #3
	lsl.w	r8, r3, #3
	ldr.w	r11, [r5, #16]
	adds.w	r6, r11, #1
	beq	.LBB54_24
	add.w	r9, r10, r11, lsl #3
	mov.w	r5, #-1
	ldr.w	r6, [r9, #20]
	orrs	r6, r5
	add.w	r5, r1, #192
	str.w	r6, [r9, #20]
	str.w	r11, [r5, r7, lsl #2]
	ldr.w	r10, [r1, #48]
	b	.LBB54_26
.LBB54_17:
	ldr	r3, [r1, #104]
	mvn	r6, #1
	lsl.w	r7, r6, r7
	ands	r3, r7
	beq.w	.LBB54_9
	rbit	r3, r3
	clz	r3, r3
	ldr.w	r7, [lr, r3, lsl #2]
	rbit	r7, r7
	clz	r7, r7
	add.w	r7, r7, r3, lsl #4
	lsr.w	r9, r7, #4
.LBB54_19:
	ldrd	lr, r4, [r1, #32]
	mvn.w	r3, lr
	orn	r3, r3, r4
	cbnz	r3, .LBB54_22
.LBB54_20:
	movs	r3, #0
	movs	r2, #2
.LBB54_21:
	mov.w	lr, #0
	movs	r4, #0
	b	.LBB54_38
.LBB54_22:
	add.w	r3, r1, #192
	ldr.w	r10, [r1, #48]
	ldr.w	r3, [r3, r7, lsl #2]
	add.w	r5, r10, r3, lsl #3
	lsl.w	r8, r3, #3
	ldr.w	r11, [r5, #16]
	adds.w	r6, r11, #1
	beq.w	.LBB54_29
	add.w	r9, r10, r11, lsl #3
	mov.w	r5, #-1
	ldr.w	r6, [r9, #20]
	orrs	r6, r5
	add.w	r5, r1, #192
	str.w	r6, [r9, #20]
	str.w	r11, [r5, r7, lsl #2]
	ldr.w	r10, [r1, #48]
	b	.LBB54_31
.LBB54_24:
	add.w	r6, r1, #192
	mov.w	r5, #-1
	mov.w	r11, #1
	str.w	r5, [r6, r7, lsl #2]
	add.w	r5, r1, #108
	and	r7, r7, #31
	ldr.w	r6, [r5, r9, lsl #2]
	lsl.w	r7, r11, r7
	bics	r6, r7
	str.w	r6, [r5, r9, lsl #2]
	bne	.LBB54_26
	ldr	r6, [r1, #104]
	lsl.w	r5, r11, r9
	bic.w	r5, r6, r5
	str	r5, [r1, #104]
.LBB54_26:
	ldr.w	r9, [r10, r8]
	add.w	r7, r10, r8
	ldr.w	r8, [r7, #4]
	sub.w	r5, r9, r12, lsl #2
	cmp	r5, #15
	bls.w	.LBB54_32
	str	r2, [r7, #16]
	subs.w	r2, r9, r5
	lsr.w	r6, r5, #2
	str	r2, [r7]
	add.w	r2, r3, r12
	str	r6, [sp, #4]
	mov.w	r6, #0
	str.w	lr, [r7, #8]
	str.w	r5, [r10, r2, lsl #3]
	str	r6, [r7, #20]
	sbc	r6, r8, #0
	str	r6, [r7, #4]
	add.w	r6, r10, r2, lsl #3
	and	r10, r2, #63
	str	r4, [r7, #12]
	strd	r3, lr, [r6, #4]
	str	r4, [r6, #12]
	movs	r6, #1
	lsl.w	r7, r6, r10
	subs.w	r6, r10, #32
	str	r6, [sp]
	mvn	r6, #7
	it	pl
	movpl	r7, #0
	ldr.w	r11, [r1, #72]
	and.w	r6, r6, r2, lsr #3
	ldr.w	r8, [r11, r6]
	orr.w	r7, r7, r8
	add.w	r8, r11, r6
	str.w	r7, [r11, r6]
	rsb.w	r6, r10, #32
	mov.w	r10, #1
	ldr.w	r9, [r8, #4]
	lsr.w	r6, r10, r6
	ldr	r7, [sp]
	it	pl
	lslpl.w	r6, r10, r7
	orr.w	r6, r6, r9
	str.w	r6, [r8, #4]
	ldr	r7, [sp, #4]
	lsls	r5, r5, #30
	itttt	pl
	ldrpl	r5, [r1, #48]
	addpl	r6, r7, r2
	addpl.w	r5, r5, r6, lsl #3
	strpl	r2, [r5, #4]
	lsl.w	r8, r2, #3
	orr	r5, r7, #32
	add.w	r6, r1, #192
	clz	r5, r5
	mov.w	r10, #-1
	rsb.w	r5, r5, #26
	lsr.w	r9, r7, r5
	add.w	r7, r9, r5, lsl #5
	ldr.w	r5, [r6, r7, lsl #2]
	str.w	r2, [r6, r7, lsl #2]
	ldr	r6, [r1, #48]
	cmp.w	r5, #-1
	bgt.w	.LBB54_34
	add.w	r2, r6, r8
	mov.w	r5, #-1
	strd	r5, r10, [r2, #16]
	and	r2, r9, #31
	lsrs	r5, r7, #5
	b	.LBB54_36
.LBB54_29:
	add.w	r6, r1, #192
	mov.w	r5, #-1
	mov.w	r11, #1
	str.w	r5, [r6, r7, lsl #2]
	add.w	r5, r1, #108
	and	r7, r7, #15
	ldr.w	r6, [r5, r9, lsl #2]
	lsl.w	r7, r11, r7
	bics	r6, r7
	str.w	r6, [r5, r9, lsl #2]
	bne	.LBB54_31
	ldr	r6, [r1, #104]
	lsl.w	r5, r11, r9
	bic.w	r5, r6, r5
	str	r5, [r1, #104]
.LBB54_31:
	ldr.w	r9, [r10, r8]
	add.w	r7, r10, r8
	ldr.w	r8, [r7, #4]
	sub.w	r5, r9, r12, lsl #2
	cmp	r5, #15
	bhi	.LBB54_33
.LBB54_32:
	subs.w	r5, r9, #1
	mov.w	r12, #0
	sbc	r6, r8, #0
	str	r5, [r7]
	str	r6, [r7, #4]
	str.w	lr, [r7, #8]
	str	r4, [r7, #12]
	str	r2, [r7, #16]
	str.w	r12, [r7, #20]
	lsr.w	r12, r5, #2
	b	.LBB54_37
.LBB54_33:
	str	r2, [r7, #16]
	subs.w	r2, r9, r5
	lsr.w	r6, r5, #2
	str	r2, [r7]
	add.w	r2, r3, r12
	str	r6, [sp, #4]
	mov.w	r6, #0
	str.w	lr, [r7, #8]
	str.w	r5, [r10, r2, lsl #3]
	str	r6, [r7, #20]
	sbc	r6, r8, #0
	str	r6, [r7, #4]
	add.w	r6, r10, r2, lsl #3
	and	r10, r2, #63
	str	r4, [r7, #12]
	strd	r3, lr, [r6, #4]
	str	r4, [r6, #12]
	movs	r6, #1
	lsl.w	r7, r6, r10
	subs.w	r6, r10, #32
	str	r6, [sp]
	mvn	r6, #7
	it	pl
	movpl	r7, #0
	ldr.w	r11, [r1, #72]
	and.w	r6, r6, r2, lsr #3
	ldr.w	r8, [r11, r6]
	orr.w	r7, r7, r8
	add.w	r8, r11, r6
	str.w	r7, [r11, r6]
	rsb.w	r6, r10, #32
	mov.w	r10, #1
	ldr.w	r9, [r8, #4]
	lsr.w	r6, r10, r6
	ldr	r7, [sp]
	it	pl
	lslpl.w	r6, r10, r7
	orr.w	r6, r6, r9
	str.w	r6, [r8, #4]
	ldr	r7, [sp, #4]
	lsls	r5, r5, #30
	itttt	pl
	ldrpl	r5, [r1, #48]
	addpl	r6, r7, r2
	addpl.w	r5, r5, r6, lsl #3
	strpl	r2, [r5, #4]
	lsl.w	r8, r2, #3
	orr	r5, r7, #16
	add.w	r6, r1, #192
	clz	r5, r5
	mov.w	r10, #-1
	rsb.w	r5, r5, #27
	lsr.w	r9, r7, r5
	add.w	r7, r9, r5, lsl #4
	ldr.w	r5, [r6, r7, lsl #2]
	str.w	r2, [r6, r7, lsl #2]
	ldr	r6, [r1, #48]
	cmp.w	r5, #-1
	ble	.LBB54_35
.LBB54_34:
	add.w	r7, r6, r8
	strd	r5, r10, [r7, #16]
	add.w	r5, r6, r5, lsl #3
	str	r2, [r5, #20]
	b	.LBB54_37
.LBB54_35:
	add.w	r2, r6, r8
	mov.w	r5, #-1
	strd	r5, r10, [r2, #16]
	and	r2, r9, #15
	lsrs	r5, r7, #4
.LBB54_36:
	add.w	r6, r1, #108
	mov.w	r8, #1
	lsl.w	r2, r8, r2
	ldr	r7, [r1, #104]
	ldr.w	r9, [r6, r5, lsl #2]
	orr.w	r2, r2, r9
	str.w	r2, [r6, r5, lsl #2]
	lsl.w	r2, r8, r5
	orrs	r2, r7
	str	r2, [r1, #104]
.LBB54_37:
	ldrd	r2, r5, [r1, #40]
	add	r2, r12
	str	r2, [r1, #40]
	cmp	r5, r2
	it	lo
	strlo	r2, [r1, #44]
	ldrd	r2, r7, [r1, #32]
	adds	r2, #1
	adc	r7, r7, #0
	strd	r2, r7, [r1, #32]
	movs	r2, #0
.LBB54_38:
	movs	r7, #1
	strb	r7, [r1]
	strd	r3, r2, [r0]
	strd	lr, r4, [r0, #8]
	add	sp, #8
	pop.w	{r4, r5, r6, r7, r8, r9, r10, r11, pc}
.Lfunc_end54:
	.size	tlsf_allocate_place, .Lfunc_end54-tlsf_allocate_place
	.cfi_endproc
	.section	.text.tlsf_block_at,"ax",%progbits
	.globl	tlsf_block_at
	.p2align	1
	.type	tlsf_block_at,%function
	.code	16
	.thumb_func
tlsf_block_at:
	.cfi_startproc
	ldrb	r3, [r0, #8]
	cmp	r3, #0
	ittt	ne
	ldrne	r0, [r0]
	ldrbne	r3, [r0]
	cmpne	r3, #0
	bne	.LBB55_2
	movs	r0, #0
	b	tlsf_c.call_fault.CallFault.refusal
.LBB55_2:
	push	{r4, r5, r6, lr}
	.cfi_def_cfa_offset 16
	.cfi_offset lr, -4
	.cfi_offset r6, -8
	.cfi_offset r5, -12
	.cfi_offset r4, -16
	ldrb	r5, [r0, #16]
	movs	r4, #0
	ldr	r3, [r0, #56]
	cmp	r5, #0
	strb	r4, [r0]
	cmp	r1, r3
	bhs	.LBB55_6
	mvn	r5, #7
	ldr	r3, [r0, #72]
	and.w	r5, r5, r1, lsr #3
	ldr.w	r12, [r3, r5]
	add	r3, r5
	and	r5, r1, #63
	ldr	r3, [r3, #4]
	rsb.w	r4, r5, #32
	lsl.w	lr, r3, r4
	lsr.w	r4, r12, r5
	orr.w	r4, r4, lr
	subs	r5, #32
	it	pl
	lsrpl.w	r4, r3, r5
	lsls	r3, r4, #31
	beq	.LBB55_6
	ldr	r3, [r0, #48]
	add.w	r4, r3, r1, lsl #3
	ldr.w	r5, [r3, r1, lsl #3]
	ldrd	lr, r3, [r4, #8]
	lsr.w	r12, r5, #2
	lsls	r5, r5, #31
	bne	.LBB55_7
	ldr	r5, [r4, #16]
	movs	r4, #1
	b	.LBB55_8
.LBB55_6:
	movs	r1, #1
	strb	r1, [r0]
	movs	r0, #4
	pop	{r4, r5, r6, pc}
.LBB55_7:
	movs	r4, #0
	movs	r5, #0
.LBB55_8:
	movs	r6, #1
	strb	r6, [r0]
	movs	r0, #0
	str	r3, [r2, #20]
	str.w	lr, [r2, #16]
	str	r5, [r2, #12]
	str	r4, [r2, #8]
	str.w	r12, [r2, #4]
	str	r1, [r2]
	pop	{r4, r5, r6, pc}
.Lfunc_end55:
	.size	tlsf_block_at, .Lfunc_end55-tlsf_block_at
	.cfi_endproc
	.section	.text.tlsf_check,"ax",%progbits
	.globl	tlsf_check
	.p2align	1
	.type	tlsf_check,%function
	.code	16
	.thumb_func
tlsf_check:
	.cfi_startproc
	push.w	{r4, r5, r6, r7, r8, r9, r10, lr}
	.cfi_def_cfa_offset 32
	.cfi_offset lr, -4
	.cfi_offset r10, -8
	.cfi_offset r9, -12
	.cfi_offset r8, -16
	.cfi_offset r7, -20
	.cfi_offset r6, -24
	.cfi_offset r5, -28
	.cfi_offset r4, -32
	mov	r4, r2
	ldrb	r2, [r0, #8]
	cbz	r2, .LBB56_10
	ldr	r6, [r0]
	ldrb	r0, [r6]
	cmp	r0, #1
	bne	.LBB56_10
	ldr	r7, [r6, #56]
	movs	r0, #0
	ldr.w	r8, [sp, #32]
	add.w	r10, r6, #48
	strb	r0, [r6]
	subs	r0, r7, #4
	ldrb	r2, [r6, #16]
	cbz	r2, .LBB56_11
	cmp	r1, r0
	bhi	.LBB56_19
	mvn	r2, #7
	ldr	r0, [r6, #72]
	and.w	r2, r2, r1, lsr #3
	ldr.w	r12, [r0, r2]
	add	r0, r2
	and	r2, r1, #63
	ldr	r0, [r0, #4]
	rsb.w	r5, r2, #32
	lsl.w	lr, r0, r5
	lsr.w	r5, r12, r2
	orr.w	r5, r5, lr
	subs	r2, #32
	it	pl
	lsrpl.w	r5, r0, r2
	lsls	r0, r5, #31
	beq	.LBB56_19
	cmp	r4, #0
	beq	.LBB56_20
	mov	r9, r3
.LBB56_7:
	mov	r0, r10
	mov	r5, r1
	bl	tlsf_heap.check.examine
	uxtb	r0, r0
	cmp	r0, #1
	bne	.LBB56_21
	mov	r2, r1
	cmp	r1, r7
	beq	.LBB56_22
	subs	r4, #1
	mov	r1, r2
	bne	.LBB56_7
	b	.LBB56_18
.LBB56_10:
	movs	r0, #32
	pop.w	{r4, r5, r6, r7, r8, r9, r10, pc}
.LBB56_11:
	cmp	r1, r0
	bhi	.LBB56_19
	mvn	r2, #7
	ldr	r0, [r6, #72]
	and.w	r2, r2, r1, lsr #3
	ldr.w	r12, [r0, r2]
	add	r0, r2
	and	r2, r1, #63
	ldr	r0, [r0, #4]
	rsb.w	r5, r2, #32
	lsl.w	lr, r0, r5
	lsr.w	r5, r12, r2
	orr.w	r5, r5, lr
	subs	r2, #32
	it	pl
	lsrpl.w	r5, r0, r2
	lsls	r0, r5, #31
	beq	.LBB56_19
	cbz	r4, .LBB56_20
	mov	r9, r3
.LBB56_15:
	mov	r0, r10
	mov	r5, r1
	bl	tlsf_heap.check.examine
	uxtb	r0, r0
	cmp	r0, #1
	bne	.LBB56_21
	mov	r2, r1
	cmp	r1, r7
	beq	.LBB56_22
	subs	r4, #1
	mov	r1, r2
	bne	.LBB56_15
.LBB56_18:
	movs	r0, #0
	mov	r1, r2
	b	.LBB56_23
.LBB56_19:
	movs	r0, #1
	strb	r0, [r6]
	movs	r0, #4
	pop.w	{r4, r5, r6, r7, r8, r9, r10, pc}
.LBB56_20:
	movs	r0, #0
	movs	r2, #1
	strb	r2, [r6]
	str	r1, [r3]
	pop.w	{r4, r5, r6, r7, r8, r9, r10, pc}
.LBB56_21:
	movs	r0, #36
	mov	r3, r8
	mov	r1, r5
	movs	r2, #1
	strb	r2, [r6]
	str	r1, [r3]
	pop.w	{r4, r5, r6, r7, r8, r9, r10, pc}
.LBB56_22:
	movs	r1, #0
	movs	r0, #0
.LBB56_23:
	mov	r3, r9
	movs	r2, #1
	strb	r2, [r6]
	str	r1, [r3]
	pop.w	{r4, r5, r6, r7, r8, r9, r10, pc}
.Lfunc_end56:
	.size	tlsf_check, .Lfunc_end56-tlsf_check
	.cfi_endproc
	.section	.text.tlsf_check_around,"ax",%progbits
	.globl	tlsf_check_around
	.p2align	1
	.type	tlsf_check_around,%function
	.code	16
	.thumb_func
tlsf_check_around:
	.cfi_startproc
	ldrb	r3, [r0, #8]
	cmp	r3, #0
	itt	eq
	moveq	r0, #32
	bxeq	lr
.LBB57_1:
	push.w	{r4, r5, r6, r7, r8, r9, r10, lr}
	.cfi_def_cfa_offset 32
	.cfi_offset lr, -4
	.cfi_offset r10, -8
	.cfi_offset r9, -12
	.cfi_offset r8, -16
	.cfi_offset r7, -20
	.cfi_offset r6, -24
	.cfi_offset r5, -28
	.cfi_offset r4, -32
	ldr	r6, [r0]
	ldrb	r0, [r6]
	cmp	r0, #1
	bne	.LBB57_9
	ldrb	r3, [r6, #16]
	movs	r0, #0
	ldr	r7, [r6, #56]
	add.w	r10, r6, #48
	strb	r0, [r6]
	cmp	r3, #0
	sub.w	r0, r7, #4
	cmp	r1, r0
	bhi	.LBB57_10
	mvn	r3, #7
	ldr	r0, [r6, #72]
	and.w	r3, r3, r1, lsr #3
	ldr	r5, [r0, r3]
	add	r0, r3
	and	r3, r1, #63
	ldr	r0, [r0, #4]
	rsb.w	r4, r3, #32
	lsrs	r5, r3
	subs	r3, #32
	lsl.w	r4, r0, r4
	orr.w	r5, r5, r4
	it	pl
	lsrpl.w	r5, r0, r3
	lsls	r0, r5, #31
	beq	.LBB57_10
	mov	r0, r10
	mov	r8, r2
	mov	r5, r1
	bl	tlsf_heap.check.examine
	uxtb	r0, r0
	cmp	r0, #1
	bne	.LBB57_11
	cbz	r5, .LBB57_7
	ldr.w	r0, [r10]
	mov	r9, r1
	add.w	r0, r0, r5, lsl #3
	ldr	r5, [r0, #4]
	mov	r0, r10
	mov	r1, r5
	bl	tlsf_heap.check.examine
	mov	r1, r9
	mov	r2, r8
	uxtb	r0, r0
	cmp	r0, #1
	bne	.LBB57_12
.LBB57_7:
	cmp	r1, r7
	bne	.LBB57_14
	movs	r0, #1
	strb	r0, [r6]
	movs	r0, #0
	pop.w	{r4, r5, r6, r7, r8, r9, r10, pc}
.LBB57_9:
	movs	r0, #32
	pop.w	{r4, r5, r6, r7, r8, r9, r10, pc}
.LBB57_10:
	movs	r0, #1
	strb	r0, [r6]
	movs	r0, #4
	pop.w	{r4, r5, r6, r7, r8, r9, r10, pc}
.LBB57_11:
	mov	r2, r8
.LBB57_12:
	movs	r0, #1
	strb	r0, [r6]
.LBB57_13:
	movs	r0, #36
	str	r5, [r2]
	pop.w	{r4, r5, r6, r7, r8, r9, r10, pc}
.LBB57_14:
	mov	r0, r10
	mov	r5, r1
	bl	tlsf_heap.check.examine
	movs	r1, #1
	mov	r2, r8
	uxtb	r0, r0
	cmp	r0, #1
	strb	r1, [r6]
	bne	.LBB57_13
	movs	r0, #0
	pop.w	{r4, r5, r6, r7, r8, r9, r10, pc}
.Lfunc_end57:
	.size	tlsf_check_around, .Lfunc_end57-tlsf_check_around
	.cfi_endproc
	.section	.text.tlsf_check_request,"ax",%progbits
	.globl	tlsf_check_request
	.p2align	1
	.type	tlsf_check_request,%function
	.code	16
	.thumb_func
tlsf_check_request:
	.cfi_startproc
	ldrb	r3, [r0, #8]
	cmp	r3, #0
	itt	eq
	moveq	r0, #32
	bxeq	lr
.LBB58_1:
	push.w	{r4, r5, r6, r7, r8, r9, r10, r11, lr}
	.cfi_def_cfa_offset 36
	.cfi_offset lr, -4
	.cfi_offset r11, -8
	.cfi_offset r10, -12
	.cfi_offset r9, -16
	.cfi_offset r8, -20
	.cfi_offset r7, -24
	.cfi_offset r6, -28
	.cfi_offset r5, -32
	.cfi_offset r4, -36
	sub	sp, #4
	.cfi_def_cfa_offset 40
	ldr	r7, [r0]
	ldrb	r0, [r7]
	cmp	r0, #0
	beq	.LBB58_7
	adds	r6, r1, #1
	mov.w	r0, #0
	adc	r5, r0, #0
	cmp	r1, #0
	strb	r0, [r7]
	ldrb	r3, [r7, #16]
	itt	ne
	movne	r6, r1
	movne	r5, r0
	adds.w	r0, r6, #31
	adc	r1, r5, #0
	cmp	r3, #0
	lsr.w	r0, r0, #3
	orr.w	r0, r0, r1, lsl #29
	beq	.LBB58_8
	cmp.w	r0, #16777216
	bhi.w	.LBB58_18
	orr	r3, r0, #32
	subs	r1, r0, #1
	clz	r3, r3
	movs	r6, #0
	rsb.w	r3, r3, #26
	lsr.w	r5, r1, r3
	add.w	r1, r5, r3, lsl #5
	adds	r1, #1
	and	r5, r5, #31
	subs	r3, r1, #1
	sbc	r1, r6, #0
	lsrs	r6, r3, #5
	orr.w	r6, r6, r1, lsl #27
	add.w	r1, r7, #108
	ldr.w	r4, [r1, r6, lsl #2]
	lsr.w	r5, r4, r5
	bics	r5, r5, #1
	bne	.LBB58_10
	ldr	r3, [r7, #104]
	mvn	r5, #1
	lsl.w	r6, r5, r6
	ands	r3, r6
	beq.w	.LBB58_18
	rbit	r3, r3
	clz	r3, r3
	ldr.w	r1, [r1, r3, lsl #2]
	rbit	r1, r1
	clz	r1, r1
	add.w	r1, r1, r3, lsl #5
	add.w	r1, r7, r1, lsl #2
	ldr.w	r4, [r1, #192]
	adds	r1, r4, #1
	bne	.LBB58_11
	b	.LBB58_18
.LBB58_7:
	movs	r0, #32
	add	sp, #4
	pop.w	{r4, r5, r6, r7, r8, r9, r10, r11, pc}
.LBB58_8:
	cmp.w	r0, #1048576
	bhi	.LBB58_18
	orr	r3, r0, #16
	subs	r1, r0, #1
	clz	r3, r3
	movs	r6, #0
	rsb.w	r3, r3, #27
	lsr.w	r5, r1, r3
	add.w	r1, r5, r3, lsl #4
	adds	r1, #1
	and	r5, r5, #15
	subs	r3, r1, #1
	sbc	r1, r6, #0
	lsrs	r6, r3, #4
	orr.w	r6, r6, r1, lsl #28
	add.w	r1, r7, #108
	ldr.w	r4, [r1, r6, lsl #2]
	lsr.w	r5, r4, r5
	bics	r5, r5, #1
	beq	.LBB58_16
.LBB58_10:
	rbit	r1, r5
	clz	r1, r1
	add	r1, r3
	add.w	r1, r7, r1, lsl #2
	ldr.w	r4, [r1, #192]
	adds	r1, r4, #1
	beq	.LBB58_18
.LBB58_11:
	ldr.w	r11, [r7, #56]
	sub.w	r1, r11, #4
	cmp	r4, r1
	bhi	.LBB58_13
	mvn	r3, #7
	ldr	r1, [r7, #72]
	and.w	r3, r3, r4, lsr #3
	ldr	r5, [r1, r3]
	add	r1, r3
	and	r3, r4, #63
	ldr	r1, [r1, #4]
	rsb.w	r6, r3, #32
	lsrs	r5, r3
	subs	r3, #32
	lsl.w	r6, r1, r6
	orr.w	r6, r6, r5
	it	pl
	lsrpl.w	r6, r1, r3
	lsls	r1, r6, #31
	itttt	ne
	addne.w	r9, r7, #48
	ldrne.w	r1, [r9]
	ldrne.w	r3, [r1, r4, lsl #3]
	lslsne.w	r6, r3, #31
	bne	.LBB58_19
.LBB58_13:
	mov	r5, r4
.LBB58_14:
	movs	r0, #1
	strb	r0, [r7]
.LBB58_15:
	str	r5, [r2]
	movs	r0, #36
	add	sp, #4
	pop.w	{r4, r5, r6, r7, r8, r9, r10, r11, pc}
.LBB58_16:
	ldr	r3, [r7, #104]
	mvn	r5, #1
	lsl.w	r6, r5, r6
	ands	r3, r6
	beq	.LBB58_18
	rbit	r3, r3
	clz	r3, r3
	ldr.w	r1, [r1, r3, lsl #2]
	rbit	r1, r1
	clz	r1, r1
	add.w	r1, r1, r3, lsl #4
	add.w	r1, r7, r1, lsl #2
	ldr.w	r4, [r1, #192]
	adds	r1, r4, #1
	bne	.LBB58_11
.LBB58_18:
	movs	r0, #1
	strb	r0, [r7]
	add	sp, #4
	pop.w	{r4, r5, r6, r7, r8, r9, r10, r11, pc}
.LBB58_19:
	lsrs	r3, r3, #2
	cmp	r3, r0
	blo	.LBB58_13
	add.w	r0, r1, r4, lsl #3
	mov	r1, r4
	mov	r10, r2
	ldr	r5, [r0, #4]
	mov	r0, r9
	bl	tlsf_heap.check.examine
	uxtb	r0, r0
	cmp	r0, #1
	bne	.LBB58_25
	mov	r8, r1
	cbz	r4, .LBB58_23
	mov	r0, r9
	mov	r1, r5
	bl	tlsf_heap.check.examine
	mov	r2, r10
	uxtb	r0, r0
	cmp	r0, #1
	bne	.LBB58_14
.LBB58_23:
	cmp	r8, r11
	bne	.LBB58_26
	movs	r0, #1
	strb	r0, [r7]
	movs	r0, #0
	add	sp, #4
	pop.w	{r4, r5, r6, r7, r8, r9, r10, r11, pc}
.LBB58_25:
	mov	r5, r4
	mov	r2, r10
	b	.LBB58_14
.LBB58_26:
	mov	r0, r9
	mov	r1, r8
	bl	tlsf_heap.check.examine
	movs	r1, #1
	mov	r2, r10
	mov	r5, r8
	uxtb	r0, r0
	cmp	r0, #1
	strb	r1, [r7]
	bne	.LBB58_15
	movs	r0, #0
	add	sp, #4
	pop.w	{r4, r5, r6, r7, r8, r9, r10, r11, pc}
.Lfunc_end58:
	.size	tlsf_check_request, .Lfunc_end58-tlsf_check_request
	.cfi_endproc
	.section	.text.tlsf_close,"ax",%progbits
	.globl	tlsf_close
	.p2align	1
	.type	tlsf_close,%function
	.code	16
	.thumb_func
tlsf_close:
	.cfi_startproc
	ldrb	r1, [r0, #8]
	cmp	r1, #0
	itt	eq
	moveq	r0, #32
	bxeq	lr
.LBB59_1:
	push.w	{r4, r5, r6, r7, r8, r9, r10, lr}
	.cfi_def_cfa_offset 32
	.cfi_offset lr, -4
	.cfi_offset r10, -8
	.cfi_offset r9, -12
	.cfi_offset r8, -16
	.cfi_offset r7, -20
	.cfi_offset r6, -24
	.cfi_offset r5, -28
	.cfi_offset r4, -32
	ldr	r1, [r0]
	ldrb	r2, [r1]
	cmp	r2, #1
	bne	.LBB59_3
	movs	r2, #0
	strb	r2, [r0, #8]
	strb	r2, [r1]
	ldr	r1, [r0]
	str	r2, [r0, #4]
	str	r2, [r0]
	mov	r0, r1
	ldr.w	r9, [r1, #92]
	ldr.w	r10, [r1, #88]
	ldr	r4, [r1, #68]
	ldr	r6, [r1, #64]
	ldr.w	r8, [r1, #72]
	ldr	r5, [r1, #48]
	ldrb	r7, [r1, #16]
	bl	tlsf_memory_dealloc
	cmp	r7, #0
	orrs.w	r0, r6, r4
	itt	ne
	movne	r0, r5
	blne	tlsf_memory_dealloc
	orrs.w	r0, r10, r9
	itt	ne
	movne	r0, r8
	blne	tlsf_memory_dealloc
	movs	r0, #0
	pop.w	{r4, r5, r6, r7, r8, r9, r10, pc}
.LBB59_3:
	movs	r0, #32
	pop.w	{r4, r5, r6, r7, r8, r9, r10, pc}
.Lfunc_end59:
	.size	tlsf_close, .Lfunc_end59-tlsf_close
	.cfi_endproc
	.section	.text.tlsf_counts,"ax",%progbits
	.globl	tlsf_counts
	.p2align	1
	.type	tlsf_counts,%function
	.code	16
	.thumb_func
tlsf_counts:
	.cfi_startproc
	ldrb	r2, [r0, #8]
	cmp	r2, #0
	ittt	ne
	ldrne	r0, [r0]
	ldrbne	r2, [r0]
	cmpne	r2, #0
	bne	.LBB60_2
	movs	r0, #0
	b	tlsf_c.call_fault.CallFault.refusal
.LBB60_2:
	ldrd	r2, r3, [r0, #8]
	ldrd	r12, r0, [r0, #40]
	str	r3, [r1, #12]
	str	r0, [r1, #4]
	movs	r0, #0
	str	r2, [r1, #8]
	str.w	r12, [r1]
	bx	lr
.Lfunc_end60:
	.size	tlsf_counts, .Lfunc_end60-tlsf_counts
	.cfi_endproc
	.section	.text.tlsf_drain,"ax",%progbits
	.globl	tlsf_drain
	.p2align	1
	.type	tlsf_drain,%function
	.code	16
	.thumb_func
tlsf_drain:
	.cfi_startproc
	push.w	{r4, r5, r6, r7, r8, r9, r10, r11, lr}
	.cfi_def_cfa_offset 36
	.cfi_offset lr, -4
	.cfi_offset r11, -8
	.cfi_offset r10, -12
	.cfi_offset r9, -16
	.cfi_offset r8, -20
	.cfi_offset r7, -24
	.cfi_offset r6, -28
	.cfi_offset r5, -32
	.cfi_offset r4, -36
	sub.w	sp, sp, #796
	.cfi_def_cfa_offset 832
	mov	r6, r0
	ldrb	r0, [r0, #8]
	cmp	r0, #0
	beq	.LBB61_12
	ldr	r0, [r6]
	ldrb	r0, [r0]
	cmp	r0, #1
	bne	.LBB61_12
	ldrb	r0, [r1, #8]
	cmp	r0, #0
	ittt	ne
	ldrne	r4, [r1]
	ldrbne	r0, [r4, #1]
	cmpne	r0, #0
	beq	.LBB61_12
	ldrb	r0, [r4]
	cmp	r0, #1
	bne	.LBB61_13
	add.w	r10, sp, #24
	mov	r11, r2
	movs	r7, #0
	movs	r1, #0
	mov	r0, r10
	mov.w	r2, #768
	str	r3, [sp, #8]
	strb	r7, [r4, #1]
	bl	tlsf_memory_set
	cmp.w	r11, #0
	str	r4, [sp, #4]
	beq	.LBB61_11
	movs	r7, #0
	add.w	r0, r4, #8
	str	r0, [sp, #12]
.LBB61_6:
	str	r7, [sp, #20]
	cmp.w	r11, #32
	str.w	r11, [sp, #16]
	it	hs
	movhs.w	r11, #32
	ldr	r0, [sp, #12]
	mov	r1, r10
	mov	r2, r11
	movs	r3, #0
	bl	tlsf_post.take_end.TakeEnd.take_slice
	mov	r4, r0
	mov	r5, r1
	orrs	r0, r1
	beq	.LBB61_9
	mov.w	r9, #0
	mov.w	r8, #0
.LBB61_8:
	add.w	r0, r9, r9, lsl #1
	add.w	r0, r10, r0, lsl #3
	ldrd	r1, r7, [r0, #8]
	ldrd	r2, r3, [r0, #16]
	mov	r0, r6
	str	r7, [sp]
	bl	tlsf_c.heap_calls.release_named
	adds.w	r9, r9, #1
	adc	r8, r8, #0
	subs.w	r0, r9, r4
	sbcs.w	r0, r8, r5
	blo	.LBB61_8
.LBB61_9:
	ldr	r7, [sp, #20]
	subs.w	r0, r4, r11
	sbcs	r0, r5, #0
	add	r7, r4
	blo	.LBB61_11
	ldr.w	r11, [sp, #16]
	subs.w	r11, r11, r4
	bne	.LBB61_6
.LBB61_11:
	ldr	r0, [sp, #8]
	ldr	r1, [sp, #4]
	str	r7, [r0]
	movs	r0, #1
	strb	r0, [r1, #1]
	movs	r0, #0
	add.w	sp, sp, #796
	pop.w	{r4, r5, r6, r7, r8, r9, r10, r11, pc}
.LBB61_12:
	movs	r0, #0
	add.w	sp, sp, #796
	pop.w	{r4, r5, r6, r7, r8, r9, r10, r11, lr}
	b	tlsf_c.call_fault.CallFault.refusal
.LBB61_13:
	movs	r0, #2
	add.w	sp, sp, #796
	pop.w	{r4, r5, r6, r7, r8, r9, r10, r11, lr}
	b	tlsf_c.call_fault.CallFault.refusal
.Lfunc_end61:
	.size	tlsf_drain, .Lfunc_end61-tlsf_drain
	.cfi_endproc
	.section	.text.tlsf_lane_open,"ax",%progbits
	.globl	tlsf_lane_open
	.p2align	2
	.type	tlsf_lane_open,%function
	.code	16
	.thumb_func
tlsf_lane_open:
	.cfi_startproc
	push.w	{r4, r5, r6, r7, r8, r9, r10, lr}
	.cfi_def_cfa_offset 32
	.cfi_offset lr, -4
	.cfi_offset r10, -8
	.cfi_offset r9, -12
	.cfi_offset r8, -16
	.cfi_offset r7, -20
	.cfi_offset r6, -24
	.cfi_offset r5, -28
	.cfi_offset r4, -32
	sub	sp, #144
	.cfi_def_cfa_offset 176
	mov	r7, r0
	add	r0, sp, #72
	mov	r4, r2
	mov	r6, r1
	movs	r1, #0
	movs	r2, #56
	movs	r5, #0
	bl	tlsf_memory_set
	add	r0, sp, #24
	movs	r1, #0
	movs	r2, #48
	bl	tlsf_memory_set
	ldrb	r0, [r7, #8]
	strd	r5, r5, [sp]
	strd	r5, r5, [sp, #8]
	cmp	r0, #0
	str	r5, [sp, #16]
	str	r5, [sp, #20]
	itt	eq
	ldrbeq	r0, [r6, #8]
	cmpeq	r0, #0
	beq	.LBB62_2
	movs	r0, #33
	add	sp, #144
	pop.w	{r4, r5, r6, r7, r8, r9, r10, pc}
.LBB62_2:
	subw	r0, r4, #1025
	cmn.w	r0, #1024
	bhs	.LBB62_4
	movs	r0, #5
	add	sp, #144
	pop.w	{r4, r5, r6, r7, r8, r9, r10, pc}
.LBB62_4:
	add	r0, sp, #128
	mov.w	r1, #384
	movs	r2, #8
	bl	tlsf_memory_alloc
	ldr	r0, [sp, #128]
	lsls	r0, r0, #31
	beq	.LBB62_14
	add.w	r0, r4, r4, lsl #1
	movs	r2, #8
	ldr.w	r10, [sp, #136]
	lsls	r1, r0, #3
	add	r0, sp, #128
	bl	tlsf_memory_alloc
	ldr	r0, [sp, #128]
	lsls	r0, r0, #31
	beq	.LBB62_13
	add	r0, sp, #128
	movs	r5, #0
	movs	r1, #48
	movs	r2, #8
	ldr.w	r9, [sp, #136]
	strd	r5, r5, [r10, #256]
	strd	r5, r5, [r10, #128]
	strd	r5, r5, [r10]
	bl	tlsf_memory_alloc
	ldr	r0, [sp, #128]
	lsls	r0, r0, #31
	beq	.LBB62_15
	ldr.w	r8, [sp, #136]
	mov.w	r0, #256
	add	r1, sp, #24
	strd	r4, r5, [sp, #48]
	strd	r9, r5, [sp, #40]
	strh.w	r0, [r8]
	movw	r0, #257
	strh.w	r0, [sp, #24]
	add	r0, sp, #72
	str.w	r5, [r8, #28]
	str.w	r4, [r8, #24]
	str.w	r5, [r8, #32]
	str.w	r5, [r8, #20]
	str.w	r9, [r8, #16]
	str.w	r5, [r8, #12]
	str.w	r10, [r8, #8]
	str.w	r5, [r8, #36]
	str.w	r5, [r8, #40]
	str.w	r5, [r8, #44]
	strd	r10, r5, [sp, #32]
	strd	r5, r5, [sp, #56]
	strd	r5, r5, [sp, #64]
	bl	std_alloc.boxed.Box.new.91a8e04f462e8cea
	ldrb.w	r0, [sp, #72]
	cmp	r0, #0
	beq	.LBB62_23
	ldrb.w	r2, [sp, #80]
	ldrd	r10, r9, [sp, #104]
	ldr	r1, [sp, #96]
	ldr	r0, [sp, #88]
.LCPI62_0:
	tbb	[pc, r2]
.LJTI62_0:
	.byte	(.LBB62_10-(.LCPI62_0+4))/2
	.byte	(.LBB62_26-(.LCPI62_0+4))/2
	.byte	(.LBB62_24-(.LCPI62_0+4))/2
	.byte	(.LBB62_25-(.LCPI62_0+4))/2
	.p2align	1
.LBB62_10:
	add.w	r2, r0, #256
	movs	r3, #0
	movs	r7, #1
	dmb	ish
.LBB62_11:
	ldrexd	r6, r4, [r2]
	strexd	r5, r7, r3, [r2]
	cmp	r5, #0
	bne	.LBB62_11
	dmb	ish
	orrs.w	r2, r6, r4
	bne	.LBB62_29
	b	.LBB62_30
.LBB62_13:
	mov	r0, r10
	bl	tlsf_memory_dealloc
.LBB62_14:
	movs	r0, #6
	add	sp, #144
	pop.w	{r4, r5, r6, r7, r8, r9, r10, pc}
.LBB62_15:
	add.w	r6, r10, #256
	movs	r0, #1
	dmb	ish
.LBB62_16:
	ldrexd	r1, r2, [r6]
	strexd	r3, r0, r5, [r6]
	cmp	r3, #0
	bne	.LBB62_16
	dmb	ish
	orrs.w	r0, r1, r2
	beq	.LBB62_19
	mov	r0, r10
	mov	r1, r9
	mov	r2, r4
	movs	r3, #0
	bl	rtrb.release.drop_slow.23d795680250cb0d
.LBB62_19:
	movs	r0, #0
	movs	r1, #1
	dmb	ish
.LBB62_20:
	ldrexd	r2, r3, [r6]
	strexd	r7, r1, r0, [r6]
	cmp	r7, #0
	bne	.LBB62_20
	dmb	ish
	orrs.w	r0, r2, r3
	beq	.LBB62_14
	mov	r0, r10
	mov	r1, r9
	mov	r2, r4
	movs	r3, #0
	bl	rtrb.release.drop_slow.23d795680250cb0d
	movs	r0, #6
	add	sp, #144
	pop.w	{r4, r5, r6, r7, r8, r9, r10, pc}
.LBB62_23:
	movs	r0, #0
	movs	r2, #1
	ldr	r1, [sp, #80]
	str.w	r0, [r7, #9]
	strb	r2, [r7, #8]
	str	r0, [r7, #4]
	str.w	r8, [r7]
	str	r0, [r7, #12]
	str.w	r0, [r6, #9]
	strb	r2, [r6, #8]
	str	r0, [r6, #4]
	str	r0, [r6, #12]
	str	r1, [r6]
	add	sp, #144
	pop.w	{r4, r5, r6, r7, r8, r9, r10, pc}
.LBB62_24:
	bl	std_alloc.arc.Arc.drop.c4a047e811255370
	add	r3, sp, #112
	add.w	r12, sp, #8
	strd	r10, r9, [sp]
	ldm	r3, {r0, r1, r2, r3}
	stm.w	r12, {r0, r1, r2, r3}
	mov	r0, sp
	bl	std_alloc.vec.Vec.drop.7ac45d8413b9ad54
	b	.LBB62_30
.LBB62_25:
	bl	std_alloc.arc.Arc.drop.c4a047e811255370
	b	.LBB62_30
.LBB62_26:
	add.w	r2, r0, #256
	movs	r3, #0
	movs	r7, #1
	dmb	ish
.LBB62_27:
	ldrexd	r6, r4, [r2]
	strexd	r5, r7, r3, [r2]
	cmp	r5, #0
	bne	.LBB62_27
	dmb	ish
	orrs.w	r2, r6, r4
	beq	.LBB62_30
.LBB62_29:
	mov	r2, r10
	mov	r3, r9
	bl	rtrb.release.drop_slow.23d795680250cb0d
.LBB62_30:
	mov	r0, r8
	bl	std_alloc.boxed.Box.drop.7d8ec8058c3633cd
	movs	r0, #6
	add	sp, #144
	pop.w	{r4, r5, r6, r7, r8, r9, r10, pc}
.Lfunc_end62:
	.size	tlsf_lane_open, .Lfunc_end62-tlsf_lane_open
	.cfi_endproc
	.section	.text.tlsf_locate,"ax",%progbits
	.globl	tlsf_locate
	.p2align	1
	.type	tlsf_locate,%function
	.code	16
	.thumb_func
tlsf_locate:
	.cfi_startproc
	push.w	{r4, r5, r6, r7, r8, lr}
	.cfi_def_cfa_offset 24
	.cfi_offset lr, -4
	.cfi_offset r8, -8
	.cfi_offset r7, -12
	.cfi_offset r6, -16
	.cfi_offset r5, -20
	.cfi_offset r4, -24
	ldr.w	r8, [sp, #32]
	ldrb	r1, [r0, #8]
	ldr.w	r7, [r8]
	cmp	r1, #0
	ittt	ne
	ldrne	r6, [r0]
	ldrbne	r0, [r6]
	cmpne	r0, #0
	bne	.LBB63_2
	movs	r0, #0
	bl	tlsf_c.call_fault.CallFault.refusal
	str.w	r7, [r8]
	pop.w	{r4, r5, r6, r7, r8, pc}
.LBB63_2:
	ldrd	r12, lr, [sp, #24]
	movs	r0, #0
	ldr	r1, [r6, #24]
	ldrb	r5, [r6, #16]
	strb	r0, [r6]
	cbz	r5, .LBB63_6
	cmp	r1, r2
	bne	.LBB63_12
	ldr	r0, [r6, #56]
	mov	r1, r2
	cmp	r3, r0
	bhs	.LBB63_12
	mvn	r1, #7
	ldr	r0, [r6, #72]
	and.w	r1, r1, r3, lsr #3
	ldr	r4, [r0, r1]
	add	r0, r1
	and	r1, r3, #63
	ldr	r0, [r0, #4]
	rsb.w	r5, r1, #32
	lsrs	r4, r1
	lsl.w	r5, r0, r5
	orrs	r4, r5
	b	.LBB63_9
.LBB63_6:
	cmp	r1, r2
	bne	.LBB63_12
	ldr	r0, [r6, #56]
	mov	r1, r2
	cmp	r3, r0
	bhs	.LBB63_12
	mvn	r1, #7
	ldr	r0, [r6, #72]
	and.w	r1, r1, r3, lsr #3
	ldr	r5, [r0, r1]
	add	r0, r1
	and	r1, r3, #63
	ldr	r0, [r0, #4]
	rsb.w	r4, r1, #32
	lsrs	r5, r1
	lsl.w	r4, r0, r4
	orrs	r4, r5
.LBB63_9:
	subs	r1, #32
	it	pl
	lsrpl.w	r4, r0, r1
	mov	r1, r2
	lsls	r0, r4, #31
	beq	.LBB63_12
	ldr	r5, [r6, #48]
	mov	r1, r2
	ldrb.w	r0, [r5, r3, lsl #3]
	lsls	r0, r0, #31
	bne	.LBB63_12
	add.w	r3, r5, r3, lsl #3
	ldrd	r0, r1, [r3, #8]
	eor.w	r1, r1, lr
	eor.w	r0, r0, r12
	orrs	r0, r1
	mov	r1, r2
	itttt	eq
	ldreq	r0, [sp, #36]
	moveq	r1, #1
	ldreq	r2, [r3, #16]
	strbeq	r1, [r6]
	itttt	eq
	streq	r2, [r0]
	moveq	r0, #0
	streq.w	r5, [r8]
	popeq.w	{r4, r5, r6, r7, r8, pc}
.LBB63_12:
	mov	r0, r2
	bl	tlsf_heap.refusal.Refusal.of_name
	movs	r1, #1
	strb	r1, [r6]
	uxtb	r1, r0
	movs	r0, #3
	cmp	r1, #3
	it	eq
	moveq	r0, #4
	str.w	r7, [r8]
	pop.w	{r4, r5, r6, r7, r8, pc}
.Lfunc_end63:
	.size	tlsf_locate, .Lfunc_end63-tlsf_locate
	.cfi_endproc
	.section	.text.tlsf_offsets_allocate,"ax",%progbits
	.globl	tlsf_offsets_allocate
	.p2align	1
	.type	tlsf_offsets_allocate,%function
	.code	16
	.thumb_func
tlsf_offsets_allocate:
	.cfi_startproc
	push.w	{r4, r5, r6, r7, r8, r9, r10, r11, lr}
	.cfi_def_cfa_offset 36
	.cfi_offset lr, -4
	.cfi_offset r11, -8
	.cfi_offset r10, -12
	.cfi_offset r9, -16
	.cfi_offset r8, -20
	.cfi_offset r7, -24
	.cfi_offset r6, -28
	.cfi_offset r5, -32
	.cfi_offset r4, -36
	sub	sp, #12
	.cfi_def_cfa_offset 48
	ldrb	r1, [r0, #8]
	cmp	r1, #0
	ittt	ne
	ldrne.w	r10, [r0]
	ldrbne.w	r0, [r10, #1]
	cmpne	r0, #0
	beq.w	.LBB64_12
	ldrb.w	r0, [r10]
	cmp	r0, #0
	bne.w	.LBB64_24
	ldr.w	r8, [sp, #48]
	movs	r1, #0
	ldr.w	r6, [r10, #2752]
	mov	r4, r3
	ldrb.w	r0, [r10, #8]
	mov	r5, r2
	strb.w	r1, [r10, #1]
	cmp	r0, #0
	beq	.LBB64_7
	cmp	r6, #0
	beq.w	.LBB64_43
	mov	r0, r5
	mov	r1, r4
	mov	r2, r6
	movs	r3, #0
	mov.w	r9, #0
	bl	__aeabi_uldivmod
	umull	r2, r3, r0, r6
	mla	r7, r1, r6, r3
	adds	r3, r0, #1
	adc	r6, r1, #0
	subs	r2, r5, r2
	sbc.w	r7, r4, r7
	orrs	r2, r7
	itt	eq
	moveq	r6, r1
	moveq	r3, r0
	cmp	r3, #4
	mov.w	r1, #4
	it	hi
	movhi	r1, r3
	cmp	r6, #0
	mov.w	r0, #4
	itte	eq
	moveq	r3, r0
	moveq	r3, r1
	movne.w	r3, #-1
	cmp.w	r3, #16777216
	bhi	.LBB64_9
	orr	r1, r3, #32
	subs	r0, r3, #1
	clz	r1, r1
	add.w	lr, r10, #100
	rsb.w	r1, r1, #26
	lsr.w	r7, r0, r1
	add.w	r0, r7, r1, lsl #5
	adds	r0, #1
	and	r7, r7, #31
	subs	r0, #1
	sbc	r1, r9, #0
	lsrs	r2, r0, #5
	orr.w	r2, r2, r1, lsl #27
	ldr.w	r6, [lr, r2, lsl #2]
	lsr.w	r7, r6, r7
	bics	r6, r7, #1
	beq	.LBB64_13
	rbit	r2, r6
	clz	r2, r2
	adds	r4, r0, r2
	adc	r0, r1, #0
	lsrs	r1, r4, #5
	orr.w	r2, r1, r0, lsl #27
	b	.LBB64_15
.LBB64_7:
	cmp	r6, #0
	beq.w	.LBB64_43
	mov	r0, r5
	mov	r1, r4
	mov	r2, r6
	movs	r3, #0
	mov.w	r9, #0
	bl	__aeabi_uldivmod
	umull	r2, r3, r0, r6
	mla	r6, r1, r6, r3
	adds	r3, r0, #1
	adc	r7, r1, #0
	subs	r2, r5, r2
	sbc.w	r6, r4, r6
	orrs	r2, r6
	itt	eq
	moveq	r7, r1
	moveq	r3, r0
	cmp	r3, #4
	mov.w	r1, #4
	it	hi
	movhi	r1, r3
	cmp	r7, #0
	mov.w	r0, #4
	itte	eq
	moveq	r3, r0
	moveq	r3, r1
	movne.w	r3, #-1
	cmp.w	r3, #1048576
	bls	.LBB64_10
.LBB64_9:
	movs	r0, #1
	strb.w	r0, [r10, #1]
	add	sp, #12
	pop.w	{r4, r5, r6, r7, r8, r9, r10, r11, pc}
.LBB64_10:
	orr	r1, r3, #16
	subs	r0, r3, #1
	clz	r1, r1
	add.w	lr, r10, #100
	rsb.w	r1, r1, #27
	lsr.w	r7, r0, r1
	add.w	r0, r7, r1, lsl #4
	adds	r0, #1
	and	r7, r7, #15
	subs	r0, #1
	sbc	r1, r9, #0
	lsrs	r2, r0, #4
	orr.w	r2, r2, r1, lsl #28
	ldr.w	r6, [lr, r2, lsl #2]
	lsr.w	r7, r6, r7
	bics	r6, r7, #1
	beq	.LBB64_18
	rbit	r2, r6
	clz	r2, r2
	adds	r4, r0, r2
	adc	r0, r1, #0
	lsrs	r1, r4, #4
	orr.w	r5, r1, r0, lsl #28
	b	.LBB64_20
.LBB64_12:
	movs	r0, #0
	add	sp, #12
	pop.w	{r4, r5, r6, r7, r8, r9, r10, r11, lr}
	b	tlsf_c.call_fault.CallFault.refusal
.LBB64_13:
	ldr.w	r0, [r10, #96]
	mvn	r1, #1
	lsls	r1, r2
	ands	r0, r1
	beq	.LBB64_9
	rbit	r0, r0
	clz	r0, r0
	ldr.w	r1, [lr, r0, lsl #2]
	rbit	r1, r1
	clz	r1, r1
	add.w	r4, r1, r0, lsl #5
	lsrs	r2, r4, #5
.LBB64_15:
	ldrd	r5, r12, [r10, #24]
	mvns	r0, r5
	orn	r0, r0, r12
	cbz	r0, .LBB64_21
	add.w	r7, r10, #184
	ldr.w	r6, [r10, #40]
	mov.w	r11, #-1
	ldr.w	r1, [r7, r4, lsl #2]
	str	r1, [sp, #4]
	add.w	r0, r6, r1, lsl #3
	lsl.w	r9, r1, #3
	ldr	r0, [r0, #16]
	adds	r1, r0, #1
	beq	.LBB64_25
	add.w	r1, r6, r0, lsl #3
	ldr	r2, [r1, #20]
	orr.w	r2, r2, r11
	str	r2, [r1, #20]
	str.w	r0, [r7, r4, lsl #2]
	ldr.w	r6, [r10, #40]
	b	.LBB64_27
.LBB64_18:
	ldr.w	r0, [r10, #96]
	mvn	r1, #1
	lsls	r1, r2
	ands	r0, r1
	beq	.LBB64_9
	rbit	r0, r0
	clz	r0, r0
	ldr.w	r1, [lr, r0, lsl #2]
	rbit	r1, r1
	clz	r1, r1
	add.w	r4, r1, r0, lsl #4
	lsrs	r5, r4, #4
.LBB64_20:
	ldrd	r11, r12, [r10, #24]
	mvn.w	r0, r11
	orn	r0, r0, r12
	cbnz	r0, .LBB64_22
.LBB64_21:
	movs	r0, #1
	strb.w	r0, [r10, #1]
	movs	r0, #2
	add	sp, #12
	pop.w	{r4, r5, r6, r7, r8, r9, r10, r11, pc}
.LBB64_22:
	add.w	r1, r10, #184
	ldr.w	r6, [r10, #40]
	ldr.w	r9, [r1, r4, lsl #2]
	add.w	r0, r6, r9, lsl #3
	lsl.w	r7, r9, #3
	ldr	r2, [r0, #16]
	adds	r0, r2, #1
	beq.w	.LBB64_31
	add.w	r0, r6, r2, lsl #3
	mov.w	r6, #-1
	ldr	r1, [r0, #20]
	orrs	r1, r6
	str	r1, [r0, #20]
	add.w	r0, r10, #184
	str.w	r2, [r0, r4, lsl #2]
	ldr.w	r6, [r10, #40]
	b	.LBB64_33
.LBB64_24:
	movs	r0, #2
	add	sp, #12
	pop.w	{r4, r5, r6, r7, r8, r9, r10, r11, lr}
	b	tlsf_c.call_fault.CallFault.refusal
.LBB64_25:
	mov.w	r0, #-1
	str.w	r0, [r7, r4, lsl #2]
	and	r4, r4, #31
	movs	r0, #1
	ldr.w	r1, [lr, r2, lsl #2]
	lsl.w	r4, r0, r4
	bics	r1, r4
	str.w	r1, [lr, r2, lsl #2]
	bne	.LBB64_27
	ldr.w	r1, [r10, #96]
	lsls	r0, r2
	bic.w	r0, r1, r0
	str.w	r0, [r10, #96]
.LBB64_27:
	ldr.w	r4, [r6, r9]
	add.w	r11, r6, r9
	str	r5, [sp, #8]
	ldr.w	lr, [r11, #4]
	sub.w	r2, r4, r3, lsl #2
	cmp	r2, #15
	bhi	.LBB64_29
	subs	r1, r4, #1
	mov.w	r0, #0
	sbc	r2, lr, #0
	stm.w	r11, {r1, r2, r5, r12}
	lsrs	r3, r1, #2
	strd	r0, r0, [r11, #16]
	b	.LBB64_38
.LBB64_29:
	lsrs	r0, r2, #2
	subs	r4, r4, r2
	str	r0, [sp]
	mov.w	r1, #0
	ldr	r0, [sp, #4]
	mvn	r7, #7
	str.w	r4, [r11]
	add.w	r4, r0, r3
	str.w	r1, [r11, #16]
	str.w	r5, [r11, #8]
	str.w	r2, [r6, r4, lsl #3]
	and.w	r7, r7, r4, lsr #3
	str.w	r1, [r11, #20]
	sbc	r1, lr, #0
	str.w	r1, [r11, #4]
	add.w	r1, r6, r4, lsl #3
	adds	r1, #4
	str.w	r12, [r11, #12]
	stm.w	r1, {r0, r5, r12}
	and	r1, r4, #63
	movs	r0, #1
	lsls	r0, r1
	subs.w	r11, r1, #32
	it	pl
	movpl	r0, #0
	ldr.w	r6, [r10, #64]
	add.w	r5, r6, r7
	ldr.w	lr, [r6, r7]
	orr.w	r0, r0, lr
	str	r0, [r6, r7]
	rsb.w	r0, r1, #32
	mov.w	r1, #1
	ldr.w	lr, [r5, #4]
	lsr.w	r0, r1, r0
	it	pl
	lslpl.w	r0, r1, r11
	orr.w	r0, r0, lr
	str	r0, [r5, #4]
	lsls	r0, r2, #30
	ldr	r2, [sp]
	itttt	pl
	ldrpl.w	r0, [r10, #40]
	addpl	r1, r2, r4
	addpl.w	r0, r0, r1, lsl #3
	strpl	r4, [r0, #4]
	lsl.w	lr, r4, #3
	orr	r0, r2, #32
	mov.w	r5, #-1
	clz	r0, r0
	rsb.w	r1, r0, #26
	lsr.w	r0, r2, r1
	add.w	r6, r0, r1, lsl #5
	add.w	r2, r10, #184
	ldr.w	r1, [r2, r6, lsl #2]
	str.w	r4, [r2, r6, lsl #2]
	ldr.w	r2, [r10, #40]
	cmp.w	r1, #-1
	ble.w	.LBB64_37
	add.w	r0, r2, lr
	strd	r1, r5, [r0, #16]
	add.w	r0, r2, r1, lsl #3
	str	r4, [r0, #20]
	b	.LBB64_38
.LBB64_31:
	mov.w	r0, #-1
	and	r2, r4, #15
	str.w	r0, [r1, r4, lsl #2]
	movs	r0, #1
	lsl.w	r2, r0, r2
	ldr.w	r1, [lr, r5, lsl #2]
	bics	r1, r2
	str.w	r1, [lr, r5, lsl #2]
	bne	.LBB64_33
	ldr.w	r1, [r10, #96]
	lsls	r0, r5
	bic.w	r0, r1, r0
	str.w	r0, [r10, #96]
.LBB64_33:
	ldr	r4, [r6, r7]
	adds	r2, r6, r7
	ldr.w	lr, [r2, #4]
	sub.w	r5, r4, r3, lsl #2
	cmp	r5, #15
	bhi	.LBB64_35
	subs	r1, r4, #1
	mov.w	r0, #0
	sbc	r3, lr, #0
	stm.w	r2, {r1, r3, r11, r12}
	lsrs	r3, r1, #2
	strd	r0, r0, [r2, #16]
	b	.LBB64_41
.LBB64_35:
	subs	r4, r4, r5
	str	r4, [r2]
	add.w	r4, r9, r3
	mov.w	r1, #0
	str	r1, [r2, #16]
	lsr.w	r0, r5, #2
	str.w	r11, [r2, #8]
	str.w	r5, [r6, r4, lsl #3]
	str	r1, [r2, #20]
	sbc	r1, lr, #0
	str	r1, [r2, #4]
	add.w	r1, r6, r4, lsl #3
	str	r7, [sp, #8]
	str	r0, [sp]
	adds	r0, r1, #4
	and	r1, r4, #63
	str.w	r12, [r2, #12]
	stm.w	r0, {r9, r11, r12}
	movs	r0, #1
	lsl.w	r6, r0, r1
	subs.w	r0, r1, #32
	mvn	r2, #7
	str	r0, [sp, #4]
	it	pl
	movpl	r6, #0
	ldr.w	r0, [r10, #64]
	and.w	r2, r2, r4, lsr #3
	ldr.w	lr, [r0, r2]
	orr.w	lr, lr, r6
	add.w	r6, r0, r2
	str.w	lr, [r0, r2]
	rsb.w	r0, r1, #32
	mov.w	lr, #1
	ldr	r7, [r6, #4]
	lsr.w	r0, lr, r0
	ldr	r2, [sp]
	ldr	r1, [sp, #4]
	it	pl
	lslpl.w	r0, lr, r1
	orrs	r0, r7
	str	r0, [r6, #4]
	lsls	r0, r5, #30
	itttt	pl
	ldrpl.w	r0, [r10, #40]
	addpl	r1, r2, r4
	addpl.w	r0, r0, r1, lsl #3
	strpl	r4, [r0, #4]
	lsls	r0, r4, #3
	add.w	lr, r10, #100
	str	r0, [sp, #4]
	orr	r0, r2, #16
	clz	r0, r0
	mov.w	r7, #-1
	rsb.w	r1, r0, #27
	lsr.w	r0, r2, r1
	add.w	r6, r0, r1, lsl #4
	add.w	r1, r10, #184
	ldr.w	r5, [r1, r6, lsl #2]
	str.w	r4, [r1, r6, lsl #2]
	ldr.w	r1, [r10, #40]
	cmp.w	r5, #-1
	ble	.LBB64_39
	ldr	r0, [sp, #4]
	add	r0, r1
	strd	r5, r7, [r0, #16]
	add.w	r0, r1, r5, lsl #3
	str	r4, [r0, #20]
	b	.LBB64_40
.LBB64_37:
	add.w	r1, r2, lr
	mov.w	r2, #-1
	and	r0, r0, #31
	movs	r7, #1
	strd	r2, r5, [r1, #16]
	add.w	r5, r10, #100
	lsrs	r1, r6, #5
	lsl.w	r0, r7, r0
	ldr.w	r2, [r5, r1, lsl #2]
	ldr.w	r6, [r10, #96]
	orrs	r0, r2
	str.w	r0, [r5, r1, lsl #2]
	lsl.w	r0, r7, r1
	orrs	r0, r6
	str.w	r0, [r10, #96]
.LBB64_38:
	ldrd	r0, r1, [r10, #32]
	add	r0, r3
	str.w	r0, [r10, #32]
	cmp	r1, r0
	it	lo
	strlo.w	r0, [r10, #36]
	ldrd	r0, r1, [r10, #24]
	ldr.w	r2, [r10, #40]
	adds	r0, #1
	str.w	r0, [r10, #24]
	add.w	r0, r2, r9
	mov.w	r2, #0
	ldr.w	r3, [r10, #16]
	adc	r1, r1, #0
	str	r2, [r0, #24]
	ldr.w	r7, [r10, #40]
	str.w	r1, [r10, #28]
	str	r2, [r0, #28]
	add.w	r2, r7, r9
	ldr.w	r9, [sp, #4]
	b	.LBB64_42
.LBB64_39:
	ldr	r2, [sp, #4]
	and	r0, r0, #15
	add	r1, r2
	mov.w	r2, #-1
	strd	r2, r7, [r1, #16]
	lsrs	r1, r6, #4
	ldr.w	r2, [lr, r1, lsl #2]
	movs	r6, #1
	lsl.w	r0, r6, r0
	ldr.w	r5, [r10, #96]
	orrs	r0, r2
	str.w	r0, [lr, r1, lsl #2]
	lsl.w	r0, r6, r1
	orrs	r0, r5
	str.w	r0, [r10, #96]
.LBB64_40:
	ldr	r7, [sp, #8]
.LBB64_41:
	ldrd	r0, r1, [r10, #32]
	str.w	r11, [sp, #8]
	add	r0, r3
	str.w	r0, [r10, #32]
	cmp	r1, r0
	it	lo
	strlo.w	r0, [r10, #36]
	ldrd	r0, r1, [r10, #24]
	ldr.w	r2, [r10, #40]
	adds	r0, #1
	str.w	r0, [r10, #24]
	add.w	r0, r2, r7
	mov.w	r2, #0
	ldr.w	r3, [r10, #16]
	adc	r1, r1, #0
	str	r2, [r0, #24]
	ldr.w	r6, [r10, #40]
	str.w	r1, [r10, #28]
	str	r2, [r0, #28]
	adds	r2, r6, r7
.LBB64_42:
	ldr	r1, [r2]
	movs	r2, #1
	ldr.w	r0, [r10, #2752]
	strb.w	r2, [r10, #1]
	lsrs	r1, r1, #2
	ldr	r6, [sp, #8]
	umull	r2, r7, r0, r9
	str.w	r12, [r8, #12]
	str.w	r6, [r8, #8]
	str.w	r9, [r8, #4]
	umull	r0, r1, r1, r0
	str.w	r3, [r8]
	str.w	r7, [r8, #20]
	str.w	r2, [r8, #16]
	str.w	r0, [r8, #24]
	movs	r0, #0
	str.w	r1, [r8, #28]
	add	sp, #12
	pop.w	{r4, r5, r6, r7, r8, r9, r10, r11, pc}
.LBB64_43:
	.inst.n	0xdefe
.Lfunc_end64:
	.size	tlsf_offsets_allocate, .Lfunc_end64-tlsf_offsets_allocate
	.cfi_endproc
	.section	.text.tlsf_offsets_close,"ax",%progbits
	.globl	tlsf_offsets_close
	.p2align	1
	.type	tlsf_offsets_close,%function
	.code	16
	.thumb_func
tlsf_offsets_close:
	.cfi_startproc
	ldrb	r1, [r0, #8]
	cbz	r1, .LBB65_4
	ldr	r1, [r0]
	ldrb	r2, [r1, #1]
	cmp	r2, #1
	bne	.LBB65_4
	ldrb	r1, [r1]
	cmp	r1, #0
	itt	ne
	movne	r0, #40
	bxne	lr
.LBB65_3:
	push	{r7, lr}
	.cfi_def_cfa_offset 8
	.cfi_offset lr, -4
	.cfi_offset r7, -8
	bl	tlsf_c.arena_slot.ArenaSlot.close
	movs	r0, #0
	pop	{r7, pc}
.LBB65_4:
	movs	r0, #32
	bx	lr
.Lfunc_end65:
	.size	tlsf_offsets_close, .Lfunc_end65-tlsf_offsets_close
	.cfi_endproc
	.section	.text.tlsf_offsets_open,"ax",%progbits
	.globl	tlsf_offsets_open
	.p2align	1
	.type	tlsf_offsets_open,%function
	.code	16
	.thumb_func
tlsf_offsets_open:
	.cfi_startproc
	push.w	{r4, r5, r6, r7, r8, r9, r10, r11, lr}
	.cfi_def_cfa_offset 36
	.cfi_offset lr, -4
	.cfi_offset r11, -8
	.cfi_offset r10, -12
	.cfi_offset r9, -16
	.cfi_offset r8, -20
	.cfi_offset r7, -24
	.cfi_offset r6, -28
	.cfi_offset r5, -32
	.cfi_offset r4, -36
	sub	sp, #36
	.cfi_def_cfa_offset 72
	ldrb	r7, [r0, #8]
	cbz	r7, .LBB66_2
	movs	r0, #33
	add	sp, #36
	pop.w	{r4, r5, r6, r7, r8, r9, r10, r11, pc}
.LBB66_2:
	subs	r7, r1, #6
	cmn.w	r7, #2
	bhs	.LBB66_4
	movs	r0, #34
	add	sp, #36
	pop.w	{r4, r5, r6, r7, r8, r9, r10, r11, pc}
.LBB66_4:
	ldr	r4, [sp, #72]
	movs	r6, #3
	mov	r7, r0
	movt	r6, #65280
	movs	r0, #5
	cmp	r1, #4
	bne	.LBB66_11
	cmp	r3, #0
	beq.w	.LBB66_29
	mvn	r5, #1048576
	add.w	r6, r6, #15728640
	add	r5, r4
	cmp	r5, r6
	blo.w	.LBB66_29
	add	r0, sp, #16
	mov	r11, r2
	strd	r3, r1, [sp, #4]
	lsls	r1, r4, #3
	movs	r2, #8
	str	r7, [sp, #12]
	bl	tlsf_memory_alloc
	ldr	r0, [sp, #16]
	lsls	r0, r0, #31
	beq.w	.LBB66_23
	add.w	r0, r4, #63
	ldr	r5, [sp, #24]
	mov.w	r10, #0
	movs	r2, #8
	lsr.w	r8, r0, #6
	add	r0, sp, #16
	lsl.w	r1, r8, #3
	strd	r10, r10, [r5]
	strd	r10, r10, [r5, #8]
	strd	r10, r10, [r5, #16]
	strd	r10, r10, [r5, #24]
	bl	tlsf_memory_alloc
	ldr	r0, [sp, #16]
	lsls	r0, r0, #31
	beq.w	.LBB66_20
	ldr	r6, [sp, #24]
	mov.w	r0, #-1
	adds.w	r1, r0, #20
	mov.w	r2, #8
	str.w	r10, [r6]
	str.w	r10, [r5, #8]
	str	r1, [r5]
	ldr	r1, [r6]
	str.w	r10, [r6, #4]
	orr	r1, r1, #1
	str.w	r10, [r5, #12]
	str	r1, [r6]
	sbc	r1, r0, #0
	strd	r0, r0, [r5, #16]
	add	r0, sp, #16
	str	r1, [r5, #4]
	movw	r1, #2760
	bl	tlsf_memory_alloc
	ldr	r0, [sp, #16]
	lsls	r0, r0, #31
	beq.w	.LBB66_21
	ldr	r7, [sp, #24]
	b	.LBB66_17
.LBB66_11:
	cmp	r3, #0
	beq.w	.LBB66_29
	mvn	r5, #16777216
	add	r5, r4
	cmp	r5, r6
	blo.w	.LBB66_29
	add	r0, sp, #16
	mov	r11, r2
	strd	r3, r1, [sp, #4]
	lsls	r1, r4, #3
	movs	r2, #8
	str	r7, [sp, #12]
	bl	tlsf_memory_alloc
	ldr	r0, [sp, #16]
	lsls	r0, r0, #31
	beq.w	.LBB66_23
	add.w	r0, r4, #63
	ldr	r5, [sp, #24]
	movs	r7, #0
	movs	r2, #8
	lsr.w	r8, r0, #6
	add	r0, sp, #16
	lsl.w	r1, r8, #3
	strd	r7, r7, [r5]
	strd	r7, r7, [r5, #8]
	strd	r7, r7, [r5, #16]
	strd	r7, r7, [r5, #24]
	bl	tlsf_memory_alloc
	ldr	r0, [sp, #16]
	lsls	r0, r0, #31
	beq.w	.LBB66_20
	ldr	r6, [sp, #24]
	mov.w	r0, #-1
	adds.w	r1, r0, #20
	mov.w	r2, #8
	str	r7, [r6]
	str	r7, [r5, #8]
	str	r1, [r5]
	ldr	r1, [r6]
	str	r7, [r6, #4]
	orr	r1, r1, #1
	str	r7, [r5, #12]
	str	r1, [r6]
	sbc	r1, r0, #0
	strd	r0, r0, [r5, #16]
	add	r0, sp, #16
	str	r1, [r5, #4]
	movw	r1, #2760
	bl	tlsf_memory_alloc
	ldr	r0, [sp, #16]
	lsls	r0, r0, #31
	beq.w	.LBB66_21
	ldr	r7, [sp, #24]
	mov.w	r10, #1
.LBB66_17:
	movs	r1, #4
	movs	r0, #1
	str.w	r11, [r7, #16]
	mov	r11, r7
	str	r1, [r7, #48]
	mov.w	r9, #0
	str	r1, [r7, #88]
	mov.w	r1, #256
	str.w	r8, [r7, #80]
	mov	r8, r7
	strh	r1, [r7]
	movs	r1, #16
	str	r0, [r7, #72]
	movs	r2, #80
	str	r0, [r7, #24]
	str	r0, [r11, #96]!
	add.w	r0, r7, #104
	str	r6, [r7, #64]
	mov	r6, r7
	str	r1, [r8, #100]!
	movs	r1, #0
	str.w	r9, [r7, #84]
	str.w	r9, [r7, #76]
	str.w	r9, [r7, #60]
	str	r4, [r7, #56]
	str.w	r9, [r7, #52]
	str.w	r9, [r7, #28]
	str.w	r9, [r7, #12]
	str.w	r10, [r7, #8]
	str.w	r9, [r7, #92]
	str.w	r9, [r7, #68]
	str.w	r9, [r7, #44]
	str.w	r9, [r7, #36]
	str.w	r9, [r7, #32]
	str	r5, [r6, #40]!
	bl	tlsf_memory_set
	mov.w	r10, #-1
	mov	r5, r7
	str	r10, [r5, #184]!
	movs	r1, #255
	add.w	r0, r5, #20
	mov.w	r2, #2544
	str.w	r10, [r5, #4]
	str.w	r10, [r5, #8]
	str.w	r10, [r5, #12]
	str.w	r9, [r5, #16]
	bl	tlsf_memory_set
	ldr	r0, [sp, #4]
	mov	r1, r4
	str.w	r0, [r5, #2568]
	mov	r0, r6
	bl	tlsf_words.words.Words.lengthen
	mov	r0, r11
	movs	r1, #0
	movs	r2, #88
	str.w	r10, [r5, #16]
	bl	tlsf_memory_set
	ldr	r0, [r7, #48]
	ldr	r2, [r6]
	add.w	r1, r10, r0, lsl #2
	adds	r1, #4
	str	r1, [r2]
	strd	r9, r9, [r2, #8]
	ldr	r1, [r7, #64]
	str.w	r10, [r2, #4]
	ldr	r2, [r1]
	orr	r2, r2, #1
	str	r2, [r1]
	ldr	r1, [sp, #8]
	cmp	r1, #4
	bne	.LBB66_24
	orr	r1, r0, #16
	clz	r1, r1
	rsb.w	r1, r1, #27
	lsr.w	r3, r0, r1
	add.w	r4, r3, r1, lsl #4
	ldr	r1, [sp, #12]
	ldr.w	r0, [r5, r4, lsl #2]
	str.w	r9, [r5, r4, lsl #2]
	ldr	r2, [r6]
	cmp.w	r0, #-1
	bgt	.LBB66_25
	and	r0, r3, #15
	strd	r10, r10, [r2, #16]
	lsrs	r2, r4, #4
	b	.LBB66_27
.LBB66_20:
	mov	r0, r5
	b	.LBB66_22
.LBB66_21:
	mov	r0, r5
	bl	tlsf_memory_dealloc
	mov	r0, r6
.LBB66_22:
	bl	tlsf_memory_dealloc
.LBB66_23:
	movs	r0, #6
	add	sp, #36
	pop.w	{r4, r5, r6, r7, r8, r9, r10, r11, pc}
.LBB66_24:
	orr	r1, r0, #32
	clz	r1, r1
	rsb.w	r1, r1, #26
	lsr.w	r3, r0, r1
	add.w	r4, r3, r1, lsl #5
	ldr	r1, [sp, #12]
	ldr.w	r0, [r5, r4, lsl #2]
	str.w	r9, [r5, r4, lsl #2]
	ldr	r2, [r6]
	cmp.w	r0, #-1
	ble	.LBB66_26
.LBB66_25:
	adds.w	r3, r10, r0
	add.w	r0, r2, r0, lsl #3
	adc	r6, r10, #0
	adds	r3, #1
	sbc	r6, r6, #0
	strd	r3, r6, [r2, #16]
	movs	r2, #0
	str	r2, [r0, #20]
	b	.LBB66_28
.LBB66_26:
	strd	r10, r10, [r2, #16]
	and	r0, r3, #31
	lsrs	r2, r4, #5
.LBB66_27:
	ldr.w	r3, [r8, r2, lsl #2]
	movs	r6, #1
	lsl.w	r0, r6, r0
	ldr.w	r5, [r11]
	orrs	r0, r3
	str.w	r0, [r8, r2, lsl #2]
	lsl.w	r0, r6, r2
	orrs	r0, r5
	str.w	r0, [r11]
.LBB66_28:
	movs	r0, #0
	movs	r2, #1
	str.w	r0, [r1, #9]
	strb	r2, [r1, #8]
	str	r0, [r1, #4]
	str	r7, [r1]
	str	r0, [r1, #12]
.LBB66_29:
	add	sp, #36
	pop.w	{r4, r5, r6, r7, r8, r9, r10, r11, pc}
.Lfunc_end66:
	.size	tlsf_offsets_open, .Lfunc_end66-tlsf_offsets_open
	.cfi_endproc
	.section	.text.tlsf_offsets_release,"ax",%progbits
	.globl	tlsf_offsets_release
	.p2align	1
	.type	tlsf_offsets_release,%function
	.code	16
	.thumb_func
tlsf_offsets_release:
	.cfi_startproc
	push.w	{r4, r5, r6, r7, r8, r9, r10, r11, lr}
	.cfi_def_cfa_offset 36
	.cfi_offset lr, -4
	.cfi_offset r11, -8
	.cfi_offset r10, -12
	.cfi_offset r9, -16
	.cfi_offset r8, -20
	.cfi_offset r7, -24
	.cfi_offset r6, -28
	.cfi_offset r5, -32
	.cfi_offset r4, -36
	sub	sp, #36
	.cfi_def_cfa_offset 72
	ldrb	r1, [r0, #8]
	cmp	r1, #0
	ittt	ne
	ldrne	r4, [r0]
	ldrbne	r0, [r4, #1]
	cmpne	r0, #0
	beq.w	.LBB67_26
	ldrb	r0, [r4]
	cmp	r0, #0
	bne.w	.LBB67_35
	ldrd	r12, lr, [sp, #72]
	movs	r5, #0
	ldr	r1, [r4, #16]
	ldrb	r0, [r4, #8]
	strb	r5, [r4, #1]
	cmp	r0, #0
	beq	.LBB67_11
	cmp	r1, r2
	bne.w	.LBB67_20
	ldr	r0, [r4, #48]
	mov	r1, r2
	cmp	r3, r0
	bhs.w	.LBB67_20
	mvn	r1, #7
	ldr	r0, [r4, #64]
	and.w	r1, r1, r3, lsr #3
	ldr	r5, [r0, r1]
	add	r0, r1
	and	r1, r3, #63
	ldr	r0, [r0, #4]
	rsb.w	r6, r1, #32
	lsrs	r5, r1
	subs	r1, #32
	lsl.w	r6, r0, r6
	orr.w	r5, r5, r6
	it	pl
	lsrpl.w	r5, r0, r1
	mov	r1, r2
	lsls	r0, r5, #31
	beq	.LBB67_20
	add.w	r0, r4, #40
	ldr	r7, [r0]
	ldr.w	r5, [r7, r3, lsl #3]
	lsls	r1, r5, #31
	mov	r1, r2
	bne	.LBB67_20
	add.w	r11, r7, r3, lsl #3
	ldrd	r1, r6, [r11, #8]
	eor.w	r6, r6, lr
	eor.w	r1, r1, r12
	orrs	r1, r6
	mov	r1, r2
	bne	.LBB67_20
	ldrd	r1, lr, [r4, #24]
	and.w	r2, r1, lr
	adds	r2, #1
	beq	.LBB67_19
	ldr	r2, [r4, #32]
	lsr.w	r9, r5, #2
	ldr.w	r8, [r11, #4]
	sub.w	r2, r2, r5, lsr #2
	str	r2, [r4, #32]
	lsls	r2, r5, #30
	bmi	.LBB67_21
	add.w	r6, r9, r3
	ldr.w	r2, [r7, r6, lsl #3]
	add.w	r6, r7, r6, lsl #3
	ldr.w	r12, [r6, #4]
	b	.LBB67_22
.LBB67_11:
	cmp	r1, r2
	bne	.LBB67_20
	ldr	r0, [r4, #48]
	mov	r1, r2
	cmp	r3, r0
	bhs	.LBB67_20
	mvn	r1, #7
	ldr	r0, [r4, #64]
	and.w	r1, r1, r3, lsr #3
	ldr	r5, [r0, r1]
	add	r0, r1
	and	r1, r3, #63
	ldr	r0, [r0, #4]
	rsb.w	r6, r1, #32
	lsrs	r5, r1
	subs	r1, #32
	lsl.w	r6, r0, r6
	orr.w	r5, r5, r6
	it	pl
	lsrpl.w	r5, r0, r1
	mov	r1, r2
	lsls	r0, r5, #31
	beq	.LBB67_20
	add.w	r0, r4, #40
	ldr	r7, [r0]
	ldr.w	r5, [r7, r3, lsl #3]
	lsls	r1, r5, #31
	mov	r1, r2
	bne	.LBB67_20
	add.w	r11, r7, r3, lsl #3
	ldrd	r1, r6, [r11, #8]
	eor.w	r6, r6, lr
	eor.w	r1, r1, r12
	orrs	r1, r6
	mov	r1, r2
	bne	.LBB67_20
	ldrd	r1, lr, [r4, #24]
	and.w	r2, r1, lr
	adds	r2, #1
	beq	.LBB67_19
	ldr	r2, [r4, #32]
	lsr.w	r9, r5, #2
	ldr.w	r8, [r11, #4]
	sub.w	r2, r2, r5, lsr #2
	str	r2, [r4, #32]
	lsls	r2, r5, #30
	bmi	.LBB67_28
	add.w	r6, r9, r3
	ldr.w	r2, [r7, r6, lsl #3]
	add.w	r6, r7, r6, lsl #3
	ldr.w	r12, [r6, #4]
	b	.LBB67_29
.LBB67_19:
	movs	r0, #1
	strb	r0, [r4, #1]
	movs	r0, #2
	add	sp, #36
	pop.w	{r4, r5, r6, r7, r8, r9, r10, r11, pc}
.LBB67_20:
	mov	r0, r2
	bl	tlsf_heap.refusal.Refusal.of_name
	movs	r1, #1
	strb	r1, [r4, #1]
	uxtb	r1, r0
	movs	r0, #3
	cmp	r1, #3
	it	eq
	moveq	r0, #4
	add	sp, #36
	pop.w	{r4, r5, r6, r7, r8, r9, r10, r11, pc}
.LBB67_21:
	movs	r2, #0
	mov.w	r12, #0
.LBB67_22:
	cmp	r3, #0
	itt	ne
	ldrne.w	r10, [r7, r8, lsl #3]
	lslsne.w	r6, r10, #31
	bne.w	.LBB67_33
	lsls	r6, r2, #31
	bne	.LBB67_27
	str.w	r1, [r11, #8]
	orr	r1, r5, #1
	str.w	r1, [r11]
	mov.w	r2, #-1
	str.w	lr, [r11, #12]
	lsls	r0, r3, #3
	ldr	r1, [r4, #24]
	str.w	r8, [r11, #4]
	ldr	r7, [r4, #28]
	adds	r1, #1
	adc	r7, r7, #0
	strd	r1, r7, [r4, #24]
	orr	r1, r9, #32
	clz	r1, r1
	rsb.w	r7, r1, #26
	lsr.w	r1, r9, r7
	add.w	r5, r1, r7, lsl #5
	add.w	r7, r4, r5, lsl #2
	ldr.w	r6, [r7, #184]
	str.w	r3, [r7, #184]
	ldr	r7, [r4, #40]
	cmp.w	r6, #-1
	bgt	.LBB67_32
	add	r0, r7
	and	r1, r1, #31
	strd	r2, r2, [r0, #16]
	lsrs	r0, r5, #5
	b	.LBB67_38
.LBB67_26:
	movs	r0, #0
	add	sp, #36
	pop.w	{r4, r5, r6, r7, r8, r9, r10, r11, lr}
	b	tlsf_c.call_fault.CallFault.refusal
.LBB67_27:
	adds	r6, r1, #1
	adc	r7, lr, #0
	strd	r6, r7, [r4, #24]
	str	r3, [sp, #16]
	mov	r3, r12
	strd	r5, r8, [sp]
	strd	r1, lr, [sp, #8]
	bl	tlsf_heap.fitting.merge_next.5
	b	.LBB67_39
.LBB67_28:
	movs	r2, #0
	mov.w	r12, #0
.LBB67_29:
	cmp	r3, #0
	itt	ne
	ldrne.w	r10, [r7, r8, lsl #3]
	lslsne.w	r6, r10, #31
	bne	.LBB67_36
	lsls	r6, r2, #31
	bne	.LBB67_34
	str.w	r1, [r11, #8]
	orr	r1, r5, #1
	str.w	r1, [r11]
	mov.w	r2, #-1
	str.w	lr, [r11, #12]
	lsls	r0, r3, #3
	ldr	r1, [r4, #24]
	str.w	r8, [r11, #4]
	ldr	r7, [r4, #28]
	adds	r1, #1
	adc	r7, r7, #0
	strd	r1, r7, [r4, #24]
	orr	r1, r9, #16
	clz	r1, r1
	rsb.w	r7, r1, #27
	lsr.w	r1, r9, r7
	add.w	r5, r1, r7, lsl #4
	add.w	r7, r4, r5, lsl #2
	ldr.w	r6, [r7, #184]
	str.w	r3, [r7, #184]
	ldr	r7, [r4, #40]
	cmp.w	r6, #-1
	ble	.LBB67_37
.LBB67_32:
	adds	r1, r2, r6
	add	r0, r7
	adc	r2, r2, #0
	adds	r1, #1
	sbc	r2, r2, #0
	strd	r1, r2, [r0, #16]
	add.w	r0, r7, r6, lsl #3
	str	r3, [r0, #20]
	b	.LBB67_39
.LBB67_33:
	add.w	r6, r7, r8, lsl #3
	adds	r7, r1, #1
	ldr.w	r9, [r6, #4]
	adc	r6, lr, #0
	strd	r7, r6, [r4, #24]
	str	r3, [sp, #16]
	mov	r3, r12
	strd	r5, r8, [sp, #24]
	strd	r10, r9, [sp]
	strd	r1, lr, [sp, #8]
	bl	tlsf_heap.fitting.merge_before.5
	b	.LBB67_39
.LBB67_34:
	adds	r6, r1, #1
	adc	r7, lr, #0
	strd	r6, r7, [r4, #24]
	str	r3, [sp, #16]
	mov	r3, r12
	strd	r5, r8, [sp]
	strd	r1, lr, [sp, #8]
	bl	tlsf_heap.fitting.merge_next.4
	b	.LBB67_39
.LBB67_35:
	movs	r0, #2
	add	sp, #36
	pop.w	{r4, r5, r6, r7, r8, r9, r10, r11, lr}
	b	tlsf_c.call_fault.CallFault.refusal
.LBB67_36:
	add.w	r6, r7, r8, lsl #3
	adds	r7, r1, #1
	ldr.w	r9, [r6, #4]
	adc	r6, lr, #0
	strd	r7, r6, [r4, #24]
	str	r3, [sp, #16]
	mov	r3, r12
	strd	r5, r8, [sp, #24]
	strd	r10, r9, [sp]
	strd	r1, lr, [sp, #8]
	bl	tlsf_heap.fitting.merge_before.4
	b	.LBB67_39
.LBB67_37:
	add	r0, r7
	and	r1, r1, #15
	strd	r2, r2, [r0, #16]
	lsrs	r0, r5, #4
.LBB67_38:
	movs	r2, #1
	ldr	r7, [r4, #96]
	lsl.w	r3, r2, r0
	add.w	r0, r4, r0, lsl #2
	orrs	r3, r7
	str	r3, [r4, #96]
	ldr	r6, [r0, #100]
	lsl.w	r1, r2, r1
	orrs	r1, r6
	str	r1, [r0, #100]
.LBB67_39:
	movs	r0, #1
	strb	r0, [r4, #1]
	movs	r0, #0
	add	sp, #36
	pop.w	{r4, r5, r6, r7, r8, r9, r10, r11, pc}
.Lfunc_end67:
	.size	tlsf_offsets_release, .Lfunc_end67-tlsf_offsets_release
	.cfi_endproc
	.section	.text.tlsf_offsets_resize,"ax",%progbits
	.globl	tlsf_offsets_resize
	.p2align	1
	.type	tlsf_offsets_resize,%function
	.code	16
	.thumb_func
tlsf_offsets_resize:
	.cfi_startproc
	push.w	{r4, r5, r6, r7, r8, r9, r10, r11, lr}
	.cfi_def_cfa_offset 36
	.cfi_offset lr, -4
	.cfi_offset r11, -8
	.cfi_offset r10, -12
	.cfi_offset r9, -16
	.cfi_offset r8, -20
	.cfi_offset r7, -24
	.cfi_offset r6, -28
	.cfi_offset r5, -32
	.cfi_offset r4, -36
	sub	sp, #52
	.cfi_def_cfa_offset 88
	mov	r10, r2
	ldrb	r2, [r0, #8]
	cmp	r2, #0
	ittt	ne
	ldrne.w	r8, [r0]
	ldrbne.w	r0, [r8, #1]
	cmpne	r0, #0
	beq.w	.LBB68_32
	ldrb.w	r0, [r8]
	cmp	r0, #0
	bne.w	.LBB68_33
	movs	r0, #0
	ldr.w	r6, [r8, #2752]
	strb.w	r0, [r8, #1]
	mov	r9, r3
	ldr	r4, [r1]
	ldr.w	r11, [r1, #8]
	ldrb.w	r0, [r8, #8]
	ldr	r2, [r1, #4]
	str	r2, [sp, #44]
	cmp	r0, #0
	ldr	r2, [r1, #12]
	str	r2, [sp, #48]
	str	r1, [sp, #32]
	beq.w	.LBB68_13
	cmp	r6, #0
	beq.w	.LBB68_45
	mov	r0, r10
	mov	r1, r9
	mov	r2, r6
	movs	r3, #0
	bl	__aeabi_uldivmod
	mov	r2, r1
	umull	r3, r1, r0, r6
	mov.w	r12, #4
	mla	r5, r2, r6, r1
	adds	r6, r0, #1
	adc	r7, r2, #0
	subs.w	r3, r10, r3
	ldr.w	r1, [r8, #16]
	sbc.w	r5, r9, r5
	orrs	r3, r5
	itt	eq
	moveq	r7, r2
	moveq	r6, r0
	cmp	r6, #4
	mov.w	r0, #4
	it	hi
	movhi	r0, r6
	cmp	r7, #0
	itte	eq
	moveq	r6, r12
	moveq	r6, r0
	movne.w	r6, #-1
	ldr.w	r10, [sp, #44]
	cmp	r4, r1
	bne.w	.LBB68_23
	ldr.w	r0, [r8, #48]
	mov	r1, r4
	cmp	r10, r0
	bhs.w	.LBB68_23
	mvn	r1, #7
	ldr.w	r0, [r8, #64]
	and.w	r1, r1, r10, lsr #3
	ldr	r2, [r0, r1]
	add	r0, r1
	and	r1, r10, #63
	ldr	r0, [r0, #4]
	rsb.w	r3, r1, #32
	lsrs	r2, r1
	subs	r1, #32
	lsl.w	r3, r0, r3
	orr.w	r2, r2, r3
	it	pl
	lsrpl.w	r2, r0, r1
	mov	r1, r4
	lsls	r0, r2, #31
	beq.w	.LBB68_23
	add.w	r0, r8, #40
	ldr.w	r12, [r0]
	ldr.w	r2, [r12, r10, lsl #3]
	lsls	r1, r2, #31
	mov	r1, r4
	bne.w	.LBB68_23
	add.w	r5, r12, r10, lsl #3
	ldr	r7, [sp, #48]
	ldrd	r1, r3, [r5, #8]
	eors	r3, r7
	eor.w	r1, r1, r11
	orrs	r1, r3
	mov	r1, r4
	bne.w	.LBB68_23
	ldr	r3, [r5, #4]
	lsr.w	r9, r2, #2
	strd	r11, r4, [sp, #36]
	lsl.w	r11, r10, #3
	cmp.w	r6, r2, lsr #2
	bls.w	.LBB68_24
	lsls	r1, r2, #30
	bmi	.LBB68_12
	add.w	r5, r9, r10
	ldr.w	r1, [r12, r5, lsl #3]
	lsls	r4, r1, #31
	bne.w	.LBB68_34
.LBB68_12:
	movs	r1, #0
	mov.w	r12, #0
	add.w	r7, r9, r1, lsr #2
	cmp	r7, r6
	bhs.w	.LBB68_35
	b	.LBB68_39
.LBB68_13:
	cmp	r6, #0
	strd	r11, r4, [sp, #36]
	beq.w	.LBB68_45
	mov	r0, r10
	mov	r1, r9
	mov	r2, r6
	movs	r3, #0
	bl	__aeabi_uldivmod
	mov	r2, r1
	umull	r11, r1, r0, r6
	mov.w	lr, #4
	mla	r12, r2, r6, r1
	adds	r6, r0, #1
	adc	r3, r2, #0
	subs.w	r5, r10, r11
	ldr.w	r1, [r8, #16]
	sbc.w	r7, r9, r12
	orrs	r7, r5
	itt	eq
	moveq	r3, r2
	moveq	r6, r0
	cmp	r6, #4
	mov.w	r0, #4
	it	hi
	movhi	r0, r6
	cmp	r3, #0
	itte	eq
	moveq	r6, lr
	moveq	r6, r0
	movne.w	r6, #-1
	ldr	r4, [sp, #40]
	ldr.w	r10, [sp, #44]
	ldr.w	r12, [sp, #36]
	cmp	r4, r1
	bne	.LBB68_23
	ldr.w	r0, [r8, #48]
	mov	r1, r4
	cmp	r10, r0
	bhs	.LBB68_23
	mvn	r1, #7
	ldr.w	r0, [r8, #64]
	and.w	r1, r1, r10, lsr #3
	ldr	r2, [r0, r1]
	add	r0, r1
	and	r1, r10, #63
	ldr	r0, [r0, #4]
	rsb.w	r3, r1, #32
	lsrs	r2, r1
	subs	r1, #32
	lsl.w	r3, r0, r3
	orr.w	r2, r2, r3
	it	pl
	lsrpl.w	r2, r0, r1
	mov	r1, r4
	lsls	r0, r2, #31
	beq	.LBB68_23
	add.w	r0, r8, #40
	ldr.w	lr, [r0]
	ldr.w	r2, [lr, r10, lsl #3]
	lsls	r1, r2, #31
	mov	r1, r4
	bne	.LBB68_23
	add.w	r5, lr, r10, lsl #3
	ldr	r7, [sp, #48]
	ldrd	r1, r3, [r5, #8]
	eors	r3, r7
	eor.w	r1, r1, r12
	orrs	r1, r3
	mov	r1, r4
	bne	.LBB68_23
	ldr	r3, [r5, #4]
	lsl.w	r9, r10, #3
	lsr.w	r11, r2, #2
	cmp.w	r6, r2, lsr #2
	bls	.LBB68_28
	lsls	r1, r2, #30
	bmi	.LBB68_22
	add.w	r5, r11, r10
	ldr.w	r1, [lr, r5, lsl #3]
	lsls	r7, r1, #31
	bne.w	.LBB68_38
.LBB68_22:
	movs	r1, #0
	mov.w	r12, #0
	add.w	r7, r11, r1, lsr #2
	cmp	r7, r6
	blo.w	.LBB68_39
	b	.LBB68_40
.LBB68_23:
	mov	r0, r4
	bl	tlsf_heap.refusal.Refusal.of_name
	movs	r1, #1
	strb.w	r1, [r8, #1]
	uxtb	r1, r0
	movs	r0, #3
	cmp	r1, #3
	it	eq
	moveq	r0, #4
	add	sp, #52
	pop.w	{r4, r5, r6, r7, r8, r9, r10, r11, pc}
.LBB68_24:
	ldrd	r7, r1, [r8, #24]
	and.w	r4, r7, r1
	adds	r4, #1
	beq.w	.LBB68_44
	movs	r4, #0
	strd	r4, r4, [r5, #16]
	adds	r5, r6, #4
	cmp	r9, r5
	mov	r5, r9
	blo	.LBB68_27
	strd	r7, r1, [sp, #8]
	mov	r1, r10
	str	r6, [sp]
	mov	r4, r0
	bl	tlsf_heap.refitting.split_off.5
	mov	r0, r4
	mov	r5, r6
.LBB68_27:
	ldrd	r3, r1, [r8, #24]
	ldr.w	r2, [r8, #32]
	adds	r7, r3, #1
	sub.w	r3, r5, r9
	adc	r1, r1, #0
	add	r2, r3
	str.w	r2, [r8, #32]
	strd	r7, r1, [r8, #24]
	ldr	r7, [sp, #32]
	b	.LBB68_37
.LBB68_28:
	ldrd	r4, r1, [r8, #24]
	and.w	r7, r4, r1
	adds	r7, #1
	beq.w	.LBB68_44
	movs	r7, #0
	str.w	r9, [sp, #28]
	strd	r7, r7, [r5, #16]
	adds	r7, r6, #4
	mov	r5, r11
	cmp	r11, r7
	blo	.LBB68_31
	strd	r4, r1, [sp, #8]
	mov	r1, r10
	str	r6, [sp]
	mov	r4, r0
	bl	tlsf_heap.refitting.split_off.4
	mov	r0, r4
	mov	r5, r6
.LBB68_31:
	ldrd	r3, r1, [r8, #24]
	ldr.w	r2, [r8, #32]
	adds	r7, r3, #1
	sub.w	r3, r5, r11
	adc	r1, r1, #0
	add	r2, r3
	str.w	r2, [r8, #32]
	strd	r7, r1, [r8, #24]
	ldr.w	r9, [sp, #40]
	ldrd	r7, r6, [sp, #32]
	b	.LBB68_42
.LBB68_32:
	movs	r0, #0
	add	sp, #52
	pop.w	{r4, r5, r6, r7, r8, r9, r10, r11, lr}
	b	tlsf_c.call_fault.CallFault.refusal
.LBB68_33:
	movs	r0, #2
	add	sp, #52
	pop.w	{r4, r5, r6, r7, r8, r9, r10, r11, lr}
	b	tlsf_c.call_fault.CallFault.refusal
.LBB68_34:
	add.w	r7, r12, r5, lsl #3
	ldr.w	r12, [r7, #4]
	add.w	r7, r9, r1, lsr #2
	cmp	r7, r6
	blo	.LBB68_39
.LBB68_35:
	ldrd	r5, r7, [r8, #24]
	and.w	r4, r5, r7
	adds	r4, #1
	beq.w	.LBB68_44
	strd	r1, r12, [sp]
	mov	r1, r10
	strd	r5, r7, [sp, #16]
	mov	r4, r0
	str	r6, [sp, #8]
	bl	tlsf_heap.refitting.recut.5
	ldr.w	r1, [r8, #40]
	movs	r2, #0
	sub.w	r0, r0, r9
	add	r1, r11
	strd	r2, r2, [r1, #16]
	ldrd	r1, r2, [r8, #32]
	add	r0, r1
	str.w	r0, [r8, #32]
	cmp	r2, r0
	it	lo
	strlo.w	r0, [r8, #36]
	ldrd	r0, r1, [r8, #24]
	ldr	r7, [sp, #32]
	adds	r0, #1
	adc	r1, r1, #0
	strd	r0, r1, [r8, #24]
	mov	r0, r4
.LBB68_37:
	ldr	r0, [r0]
	ldrd	r6, r9, [sp, #36]
	add	r0, r11
	b	.LBB68_43
.LBB68_38:
	add.w	r7, lr, r5, lsl #3
	ldr.w	r12, [r7, #4]
	add.w	r7, r11, r1, lsr #2
	cmp	r7, r6
	bhs	.LBB68_40
.LBB68_39:
	movs	r0, #1
	strb.w	r0, [r8, #1]
	movs	r0, #10
	add	sp, #52
	pop.w	{r4, r5, r6, r7, r8, r9, r10, r11, pc}
.LBB68_40:
	ldrd	r5, r4, [r8, #24]
	and.w	r7, r5, r4
	adds	r7, #1
	beq	.LBB68_44
	strd	r1, r12, [sp]
	mov	r1, r10
	strd	r5, r4, [sp, #16]
	mov	r4, r0
	str	r6, [sp, #8]
	bl	tlsf_heap.refitting.recut.4
	ldr.w	r1, [r8, #40]
	movs	r2, #0
	sub.w	r0, r0, r11
	str.w	r9, [sp, #28]
	add	r1, r9
	strd	r2, r2, [r1, #16]
	ldrd	r1, r2, [r8, #32]
	add	r0, r1
	str.w	r0, [r8, #32]
	cmp	r2, r0
	it	lo
	strlo.w	r0, [r8, #36]
	ldrd	r0, r1, [r8, #24]
	ldr.w	r9, [sp, #40]
	adds	r0, #1
	ldrd	r7, r6, [sp, #32]
	adc	r1, r1, #0
	strd	r0, r1, [r8, #24]
	mov	r0, r4
.LBB68_42:
	ldr	r0, [r0]
	ldr	r1, [sp, #28]
	add	r0, r1
.LBB68_43:
	ldr	r0, [r0]
	movs	r2, #1
	ldr.w	r1, [r8, #2752]
	strb.w	r2, [r8, #1]
	lsrs	r0, r0, #2
	ldr	r5, [sp, #48]
	umull	r2, r3, r1, r10
	str	r5, [r7, #12]
	str	r6, [r7, #8]
	str.w	r10, [r7, #4]
	umull	r0, r1, r0, r1
	str.w	r9, [r7]
	str	r3, [r7, #20]
	str	r2, [r7, #16]
	str	r0, [r7, #24]
	movs	r0, #0
	str	r1, [r7, #28]
	add	sp, #52
	pop.w	{r4, r5, r6, r7, r8, r9, r10, r11, pc}
.LBB68_44:
	movs	r0, #1
	strb.w	r0, [r8, #1]
	movs	r0, #2
	add	sp, #52
	pop.w	{r4, r5, r6, r7, r8, r9, r10, r11, pc}
.LBB68_45:
	.inst.n	0xdefe
.Lfunc_end68:
	.size	tlsf_offsets_resize, .Lfunc_end68-tlsf_offsets_resize
	.cfi_endproc
	.section	.text.tlsf_open,"ax",%progbits
	.globl	tlsf_open
	.p2align	1
	.type	tlsf_open,%function
	.code	16
	.thumb_func
tlsf_open:
	.cfi_startproc
	push.w	{r4, r5, r6, r7, r8, r9, r10, r11, lr}
	.cfi_def_cfa_offset 36
	.cfi_offset lr, -4
	.cfi_offset r11, -8
	.cfi_offset r10, -12
	.cfi_offset r9, -16
	.cfi_offset r8, -20
	.cfi_offset r7, -24
	.cfi_offset r6, -28
	.cfi_offset r5, -32
	.cfi_offset r4, -36
	sub	sp, #36
	.cfi_def_cfa_offset 72
	ldrb	r7, [r0, #8]
	cbz	r7, .LBB69_2
	movs	r0, #33
	add	sp, #36
	pop.w	{r4, r5, r6, r7, r8, r9, r10, r11, pc}
.LBB69_2:
	subs	r7, r1, #6
	cmn.w	r7, #2
	bhs	.LBB69_4
	movs	r0, #34
	add	sp, #36
	pop.w	{r4, r5, r6, r7, r8, r9, r10, r11, pc}
.LBB69_4:
	movs	r7, #3
	cmp	r1, #4
	movt	r7, #65280
	bne	.LBB69_10
	mvn	r6, #1048576
	add.w	r7, r7, #15728640
	add	r6, r3
	cmp	r6, r7
	blo	.LBB69_11
	strd	r0, r2, [sp, #8]
	add	r0, sp, #16
	mov	r10, r1
	lsls	r1, r3, #3
	movs	r2, #8
	mov	r7, r3
	bl	tlsf_memory_alloc
	ldr	r0, [sp, #16]
	lsls	r0, r0, #31
	beq.w	.LBB69_22
	add.w	r0, r7, #63
	ldr	r4, [sp, #24]
	movs	r6, #0
	movs	r2, #8
	lsr.w	r11, r0, #6
	add	r0, sp, #16
	lsl.w	r1, r11, #3
	strd	r6, r6, [r4]
	strd	r6, r6, [r4, #8]
	strd	r6, r6, [r4, #16]
	strd	r6, r6, [r4, #24]
	bl	tlsf_memory_alloc
	ldr	r0, [sp, #16]
	lsls	r0, r0, #31
	beq.w	.LBB69_19
	ldr	r5, [sp, #24]
	mov.w	r0, #-1
	adds.w	r1, r0, #20
	mov.w	r2, #8
	str	r6, [r5]
	str	r6, [r4, #8]
	str	r1, [r4]
	ldr	r1, [r5]
	str	r6, [r5, #4]
	orr	r1, r1, #1
	str	r6, [r4, #12]
	str	r1, [r5]
	sbc	r1, r0, #0
	strd	r0, r0, [r4, #16]
	add	r0, sp, #16
	str	r1, [r4, #4]
	movw	r1, #2760
	bl	tlsf_memory_alloc
	ldr	r0, [sp, #16]
	lsls	r0, r0, #31
	beq.w	.LBB69_20
	ldr	r6, [sp, #24]
	movs	r0, #0
	movs	r1, #1
	str	r0, [r6, #8]
	str	r0, [r6, #12]
	str	r0, [r6, #16]
	str	r0, [r6, #20]
	ldr	r0, [sp, #12]
	strb	r1, [r6]
	str	r0, [r6, #24]
	b	.LBB69_16
.LBB69_10:
	mvn	r6, #16777216
	add	r6, r3
	cmp	r6, r7
	bhs	.LBB69_12
.LBB69_11:
	movs	r0, #5
	add	sp, #36
	pop.w	{r4, r5, r6, r7, r8, r9, r10, r11, pc}
.LBB69_12:
	strd	r0, r2, [sp, #8]
	add	r0, sp, #16
	mov	r10, r1
	lsls	r1, r3, #3
	movs	r2, #8
	mov	r7, r3
	bl	tlsf_memory_alloc
	ldr	r0, [sp, #16]
	lsls	r0, r0, #31
	beq.w	.LBB69_22
	add.w	r0, r7, #63
	ldr	r4, [sp, #24]
	movs	r6, #0
	movs	r2, #8
	lsr.w	r11, r0, #6
	add	r0, sp, #16
	lsl.w	r1, r11, #3
	strd	r6, r6, [r4]
	strd	r6, r6, [r4, #8]
	strd	r6, r6, [r4, #16]
	strd	r6, r6, [r4, #24]
	bl	tlsf_memory_alloc
	ldr	r0, [sp, #16]
	lsls	r0, r0, #31
	beq.w	.LBB69_19
	ldr	r5, [sp, #24]
	mov.w	r0, #-1
	adds.w	r1, r0, #20
	mov.w	r2, #8
	str	r6, [r5]
	str	r6, [r4, #8]
	str	r1, [r4]
	ldr	r1, [r5]
	str	r6, [r5, #4]
	orr	r1, r1, #1
	str	r6, [r4, #12]
	str	r1, [r5]
	sbc	r1, r0, #0
	strd	r0, r0, [r4, #16]
	add	r0, sp, #16
	str	r1, [r4, #4]
	movw	r1, #2760
	bl	tlsf_memory_alloc
	ldr	r0, [sp, #16]
	lsls	r0, r0, #31
	beq.w	.LBB69_20
	ldr	r6, [sp, #24]
	movs	r0, #0
	movs	r1, #1
	str	r0, [r6, #20]
	str	r0, [r6, #12]
	str	r0, [r6, #8]
	ldr	r0, [sp, #12]
	str	r1, [r6, #16]
	str	r0, [r6, #24]
	strb	r1, [r6]
.LBB69_16:
	movs	r1, #4
	movs	r0, #1
	str.w	r11, [r6, #88]
	mov	r11, r6
	str	r1, [r6, #56]
	mov	r2, r6
	str	r1, [r6, #96]
	movs	r1, #16
	str	r1, [r2, #108]!
	mov.w	r8, #0
	str	r0, [r6, #80]
	movs	r1, #0
	str	r0, [r6, #32]
	str	r0, [r11, #104]!
	add.w	r0, r6, #112
	str	r5, [r6, #72]
	mov	r5, r6
	str	r2, [sp, #4]
	movs	r2, #80
	str.w	r8, [r6, #92]
	str.w	r8, [r6, #84]
	str.w	r8, [r6, #68]
	str	r7, [r6, #64]
	str.w	r8, [r6, #60]
	str.w	r8, [r6, #36]
	str.w	r8, [r6, #100]
	str.w	r8, [r6, #76]
	str.w	r8, [r6, #52]
	str.w	r8, [r6, #44]
	str.w	r8, [r6, #40]
	str	r4, [r5, #48]!
	bl	tlsf_memory_set
	mov.w	r4, #-1
	mov	r9, r6
	str	r4, [r9, #192]!
	movs	r1, #255
	add.w	r0, r9, #20
	mov.w	r2, #2544
	str.w	r4, [r9, #4]
	str.w	r4, [r9, #8]
	str.w	r4, [r9, #12]
	str.w	r8, [r9, #16]
	bl	tlsf_memory_set
	mov	r0, r5
	mov	r1, r7
	bl	tlsf_words.words.Words.lengthen
	mov	r0, r11
	movs	r1, #0
	movs	r2, #88
	str.w	r4, [r9, #16]
	bl	tlsf_memory_set
	ldr	r0, [r6, #56]
	cmp.w	r10, #4
	ldr	r2, [r5]
	add.w	r1, r4, r0, lsl #2
	add.w	r1, r1, #4
	str	r1, [r2]
	strd	r8, r8, [r2, #8]
	ldr	r1, [r6, #72]
	str	r4, [r2, #4]
	ldr	r2, [r1]
	orr	r2, r2, #1
	str	r2, [r1]
	bne	.LBB69_23
	orr	r1, r0, #16
	clz	r1, r1
	rsb.w	r1, r1, #27
	lsr.w	r3, r0, r1
	add.w	r7, r3, r1, lsl #4
	ldr	r1, [sp, #8]
	ldr.w	r0, [r9, r7, lsl #2]
	str.w	r8, [r9, r7, lsl #2]
	ldr	r2, [r5]
	cmp.w	r0, #-1
	bgt	.LBB69_24
	and	r0, r3, #15
	strd	r4, r4, [r2, #16]
	lsrs	r2, r7, #4
	b	.LBB69_26
.LBB69_19:
	mov	r0, r4
	b	.LBB69_21
.LBB69_20:
	mov	r0, r4
	bl	tlsf_memory_dealloc
	mov	r0, r5
.LBB69_21:
	bl	tlsf_memory_dealloc
.LBB69_22:
	movs	r0, #6
	add	sp, #36
	pop.w	{r4, r5, r6, r7, r8, r9, r10, r11, pc}
.LBB69_23:
	orr	r1, r0, #32
	clz	r1, r1
	rsb.w	r1, r1, #26
	lsr.w	r3, r0, r1
	add.w	r7, r3, r1, lsl #5
	ldr	r1, [sp, #8]
	ldr.w	r0, [r9, r7, lsl #2]
	str.w	r8, [r9, r7, lsl #2]
	ldr	r2, [r5]
	cmp.w	r0, #-1
	ble	.LBB69_25
.LBB69_24:
	adds	r3, r4, r0
	add.w	r0, r2, r0, lsl #3
	adc	r7, r4, #0
	adds	r3, #1
	sbc	r7, r7, #0
	strd	r3, r7, [r2, #16]
	movs	r2, #0
	str	r2, [r0, #20]
	b	.LBB69_27
.LBB69_25:
	strd	r4, r4, [r2, #16]
	and	r0, r3, #31
	lsrs	r2, r7, #5
.LBB69_26:
	ldr	r4, [sp, #4]
	movs	r7, #1
	lsl.w	r0, r7, r0
	ldr.w	r5, [r11]
	ldr.w	r3, [r4, r2, lsl #2]
	orrs	r0, r3
	str.w	r0, [r4, r2, lsl #2]
	lsl.w	r0, r7, r2
	orrs	r0, r5
	str.w	r0, [r11]
.LBB69_27:
	ldr	r2, [sp, #12]
	movs	r0, #0
	ldr	r3, [r6, #48]
	str	r2, [r1, #24]
	movs	r2, #1
	strb	r0, [r1, #28]
	str	r3, [r1, #16]
	strb	r2, [r1, #8]
	strd	r6, r0, [r1]
	add	sp, #36
	pop.w	{r4, r5, r6, r7, r8, r9, r10, r11, pc}
.Lfunc_end69:
	.size	tlsf_open, .Lfunc_end69-tlsf_open
	.cfi_endproc
	.section	.text.tlsf_place,"ax",%progbits
	.globl	tlsf_place
	.p2align	1
	.type	tlsf_place,%function
	.code	16
	.thumb_func
tlsf_place:
	.cfi_startproc
	push	{r4, r5, r6, r7, lr}
	.cfi_def_cfa_offset 20
	.cfi_offset lr, -4
	.cfi_offset r7, -8
	.cfi_offset r6, -12
	.cfi_offset r5, -16
	.cfi_offset r4, -20
	ldrb.w	r12, [r0, #8]
	cmp.w	r12, #0
	ittt	ne
	ldrne	r4, [r0]
	ldrbne	r0, [r4]
	cmpne	r0, #0
	bne	.LBB70_2
	movs	r0, #0
	pop.w	{r4, r5, r6, r7, lr}
	b	tlsf_c.call_fault.CallFault.refusal
.LBB70_2:
	ldr.w	lr, [r4, #56]
	movs	r5, #0
	ldr.w	r12, [r4, #24]
	ldrb	r0, [r4, #16]
	strb	r5, [r4]
	cbz	r0, .LBB70_5
	cmp	r1, lr
	bhs	.LBB70_9
	mvn	r7, #7
	ldr	r0, [r4, #72]
	and.w	r7, r7, r1, lsr #3
	ldr	r6, [r0, r7]
	add	r0, r7
	and	r7, r1, #63
	ldr	r0, [r0, #4]
	rsb.w	r5, r7, #32
	lsrs	r6, r7
	subs	r7, #32
	lsl.w	r5, r0, r5
	orr.w	r6, r6, r5
	it	pl
	lsrpl.w	r6, r0, r7
	lsls	r0, r6, #31
	bne	.LBB70_7
	b	.LBB70_9
.LBB70_5:
	cmp	r1, lr
	bhs	.LBB70_9
	mvn	r5, #7
	ldr	r0, [r4, #72]
	and.w	r5, r5, r1, lsr #3
	ldr.w	lr, [r0, r5]
	add	r0, r5
	and	r5, r1, #63
	ldr	r0, [r0, #4]
	rsb.w	r6, r5, #32
	lsl.w	r7, r0, r6
	lsr.w	r6, lr, r5
	orrs	r7, r6
	subs.w	r6, r5, #32
	it	pl
	lsrpl.w	r7, r0, r6
	lsls	r0, r7, #31
	beq	.LBB70_9
.LBB70_7:
	ldr.w	lr, [r4, #48]
	ldrb.w	r0, [lr, r1, lsl #3]
	lsls	r0, r0, #31
	bne	.LBB70_9
	add.w	lr, lr, r1, lsl #3
	movs	r0, #1
	add.w	r7, lr, #8
	ldm	r7, {r5, r6, r7}
	strb	r0, [r4]
	movs	r0, #0
	str	r6, [r2, #12]
	str	r5, [r2, #8]
	str	r1, [r2, #4]
	str.w	r12, [r2]
	str	r7, [r3]
	pop	{r4, r5, r6, r7, pc}
.LBB70_9:
	movs	r0, #1
	strb	r0, [r4]
	movs	r0, #4
	pop	{r4, r5, r6, r7, pc}
.Lfunc_end70:
	.size	tlsf_place, .Lfunc_end70-tlsf_place
	.cfi_endproc
	.section	.text.tlsf_pools_allocate,"ax",%progbits
	.globl	tlsf_pools_allocate
	.p2align	1
	.type	tlsf_pools_allocate,%function
	.code	16
	.thumb_func
tlsf_pools_allocate:
	.cfi_startproc
	push.w	{r4, r5, r6, r7, r8, r9, r10, r11, lr}
	.cfi_def_cfa_offset 36
	.cfi_offset lr, -4
	.cfi_offset r11, -8
	.cfi_offset r10, -12
	.cfi_offset r9, -16
	.cfi_offset r8, -20
	.cfi_offset r7, -24
	.cfi_offset r6, -28
	.cfi_offset r5, -32
	.cfi_offset r4, -36
	sub	sp, #36
	.cfi_def_cfa_offset 72
	str	r2, [sp, #24]
	ldrb	r2, [r0, #8]
	cmp	r2, #0
	ittt	ne
	ldrne	r3, [r0]
	ldrbne	r0, [r3, #1]
	cmpne	r0, #0
	beq.w	.LBB71_28
	ldrb	r0, [r3]
	cmp	r0, #1
	bne.w	.LBB71_34
	ldrd	r9, r11, [r3, #32]
	movs	r2, #0
	ldr.w	r12, [r3, #24]
	ldrb	r0, [r3, #8]
	str	r3, [sp, #32]
	strb	r2, [r3, #1]
	cbz	r0, .LBB71_10
	orrs.w	r0, r9, r11
	beq	.LBB71_23
	movs	r5, #0
	mov.w	r8, #0
	b	.LBB71_6
.LBB71_5:
	adds	r5, #1
	adc	r8, r8, #0
	subs.w	r0, r5, r9
	sbcs.w	r0, r8, r11
	bhs	.LBB71_23
.LBB71_6:
	movw	r0, #2792
	mla	r10, r5, r0, r12
	ldr.w	r4, [r10, #2744]
	ldr.w	lr, [r10, #2748]
	orrs.w	r2, r4, lr
	beq	.LBB71_5
	ldr.w	r6, [r10, #2736]
	mov	r2, r4
	mov	r7, lr
	adds	r3, r6, #4
.LBB71_8:
	ldr	r0, [r3], #8
	cmp	r0, r1
	bhs	.LBB71_17
	subs	r2, #1
	sbc	r7, r7, #0
	orrs.w	r0, r2, r7
	bne	.LBB71_8
	b	.LBB71_5
.LBB71_10:
	orrs.w	r0, r9, r11
	beq	.LBB71_23
	movs	r5, #0
	mov.w	r8, #0
	b	.LBB71_13
.LBB71_12:
	adds	r5, #1
	adc	r8, r8, #0
	subs.w	r0, r5, r9
	sbcs.w	r0, r8, r11
	bhs	.LBB71_23
.LBB71_13:
	movw	r0, #2792
	mla	r0, r5, r0, r12
	str	r0, [sp, #28]
	ldr.w	lr, [r0, #2744]
	ldr.w	r2, [r0, #2748]
	orrs.w	r3, lr, r2
	beq	.LBB71_12
	ldr	r0, [sp, #28]
	mov	r7, lr
	mov	r4, r2
	ldr.w	r6, [r0, #2736]
	adds	r3, r6, #4
.LBB71_15:
	ldr	r10, [r3], #8
	cmp	r10, r1
	bhs	.LBB71_20
	subs	r7, #1
	sbc	r4, r4, #0
	orrs.w	r0, r7, r4
	bne	.LBB71_15
	b	.LBB71_12
.LBB71_17:
	movs	r5, #0
.LBB71_18:
	add.w	r0, r6, r5, lsl #1
	ldr	r0, [r0, #4]
	cmp	r0, r1
	bhs	.LBB71_24
	subs	r4, #1
	add.w	r5, r5, #4
	sbc	lr, lr, #0
	orrs.w	r0, r4, lr
	bne	.LBB71_18
	b	.LBB71_23
.LBB71_20:
	movs	r5, #0
.LBB71_21:
	add.w	r0, r6, r5, lsl #1
	ldr	r0, [r0, #4]
	cmp	r0, r1
	bhs	.LBB71_29
	subs.w	lr, lr, #1
	add.w	r5, r5, #4
	sbc	r2, r2, #0
	orrs.w	r0, lr, r2
	bne	.LBB71_21
.LBB71_23:
	ldr	r1, [sp, #32]
	movs	r0, #1
	strb	r0, [r1, #1]
	movs	r0, #5
	add	sp, #36
	pop.w	{r4, r5, r6, r7, r8, r9, r10, r11, pc}
.LBB71_24:
	ldr.w	r0, [r10, #2768]
	ldr.w	r2, [r6, r5, lsl #1]
	ldr	r0, [r0, r5]
	cmp	r0, r2
	bhs	.LBB71_33
	ldr.w	r0, [r10, #2760]
	cmp.w	r0, #16777216
	bhi.w	.LBB71_43
	orr	r3, r0, #32
	subs	r2, r0, #1
	clz	r3, r3
	add.w	r12, r10, #84
	rsb.w	r3, r3, #26
	lsr.w	r6, r2, r3
	add.w	r2, r6, r3, lsl #5
	adds	r2, #1
	movs	r3, #0
	subs	r2, #1
	and	r6, r6, #31
	sbc	r3, r3, #0
	lsrs	r7, r2, #5
	orr.w	r7, r7, r3, lsl #27
	ldr.w	r4, [r12, r7, lsl #2]
	lsr.w	r6, r4, r6
	bics	r6, r6, #1
	beq	.LBB71_35
	rbit	r7, r6
	clz	r7, r7
	adds	r7, r7, r2
	adc	r2, r3, #0
	lsrs	r3, r7, #5
	orr.w	r6, r3, r2, lsl #27
	b	.LBB71_37
.LBB71_28:
	movs	r0, #0
	add	sp, #36
	pop.w	{r4, r5, r6, r7, r8, r9, r10, r11, lr}
	b	tlsf_c.call_fault.CallFault.refusal
.LBB71_29:
	ldr.w	lr, [sp, #28]
	ldr.w	r2, [r6, r5, lsl #1]
	ldr.w	r0, [lr, #2768]
	ldr	r0, [r0, r5]
	cmp	r0, r2
	bhs	.LBB71_33
	ldr.w	r0, [lr, #2760]
	cmp.w	r0, #1048576
	bhi.w	.LBB71_43
	orr	r3, r0, #16
	subs	r2, r0, #1
	clz	r3, r3
	add.w	r12, lr, #84
	rsb.w	r3, r3, #27
	lsr.w	r6, r2, r3
	add.w	r2, r6, r3, lsl #4
	adds	r2, #1
	movs	r3, #0
	subs	r2, #1
	and	r6, r6, #15
	sbc	r3, r3, #0
	lsrs	r7, r2, #4
	orr.w	r7, r7, r3, lsl #28
	ldr.w	r4, [r12, r7, lsl #2]
	lsr.w	r6, r4, r6
	bics	r6, r6, #1
	beq	.LBB71_40
	rbit	r7, r6
	clz	r7, r7
	adds	r7, r7, r2
	adc	r2, r3, #0
	lsrs	r3, r7, #4
	orr.w	r6, r3, r2, lsl #28
	b	.LBB71_42
.LBB71_33:
	ldr	r1, [sp, #32]
	movs	r0, #1
	strb	r0, [r1, #1]
	movs	r0, #38
	add	sp, #36
	pop.w	{r4, r5, r6, r7, r8, r9, r10, r11, pc}
.LBB71_34:
	movs	r0, #2
	add	sp, #36
	pop.w	{r4, r5, r6, r7, r8, r9, r10, r11, lr}
	b	tlsf_c.call_fault.CallFault.refusal
.LBB71_35:
	ldr.w	r2, [r10, #80]
	adds	r3, r7, #1
	lsrs	r2, r3
	lsls	r2, r3
	beq	.LBB71_43
	rbit	r2, r2
	clz	r2, r2
	ldr.w	r3, [r12, r2, lsl #2]
	rbit	r3, r3
	clz	r3, r3
	add.w	r7, r3, r2, lsl #5
	lsrs	r6, r7, #5
.LBB71_37:
	ldrd	r3, r11, [r10, #8]
	mvns	r2, r3
	orn	r2, r2, r11
	cbz	r2, .LBB71_43
	add.w	r9, r10, #168
	str	r3, [sp, #28]
	ldr.w	r3, [r10, #24]
	ldr.w	r8, [r9, r7, lsl #2]
	add.w	r2, r3, r8, lsl #3
	lsl.w	lr, r8, #3
	ldr	r2, [r2, #16]
	adds	r4, r2, #1
	beq	.LBB71_46
	add.w	r3, r3, r2, lsl #3
	mov.w	r4, #-1
	ldr	r6, [r3, #20]
	orrs	r6, r4
	str	r6, [r3, #20]
	str.w	r2, [r9, r7, lsl #2]
	b	.LBB71_48
.LBB71_40:
	ldr.w	r2, [lr, #80]
	adds	r3, r7, #1
	lsrs	r2, r3
	lsls	r2, r3
	beq	.LBB71_43
	rbit	r2, r2
	clz	r2, r2
	ldr.w	r3, [r12, r2, lsl #2]
	rbit	r3, r3
	clz	r3, r3
	add.w	r7, r3, r2, lsl #4
	lsrs	r6, r7, #4
.LBB71_42:
	ldrd	r9, r11, [lr, #8]
	mvn.w	r2, r9
	orn	r2, r2, r11
	cbnz	r2, .LBB71_44
.LBB71_43:
	ldr	r1, [sp, #32]
	movs	r0, #1
	strb	r0, [r1, #1]
	movs	r0, #2
	add	sp, #36
	pop.w	{r4, r5, r6, r7, r8, r9, r10, r11, pc}
.LBB71_44:
	add.w	r12, lr, #168
	ldr.w	r3, [lr, #24]
	ldr.w	r8, [r12, r7, lsl #2]
	add.w	r2, r3, r8, lsl #3
	lsl.w	r10, r8, #3
	ldr	r2, [r2, #16]
	adds	r4, r2, #1
	beq.w	.LBB71_52
	add.w	r3, r3, r2, lsl #3
	add.w	r4, lr, #84
	str	r4, [sp, #16]
	mov.w	r4, #-1
	ldr	r6, [r3, #20]
	orrs	r6, r4
	mov	r4, r12
	str	r6, [r3, #20]
	str.w	r2, [r12, r7, lsl #2]
	b	.LBB71_54
.LBB71_46:
	mov.w	r2, #-1
	str.w	r2, [r9, r7, lsl #2]
	and	r7, r7, #31
	movs	r2, #1
	ldr.w	r3, [r12, r6, lsl #2]
	lsl.w	r7, r2, r7
	bics	r3, r7
	str.w	r3, [r12, r6, lsl #2]
	bne	.LBB71_48
	ldr.w	r3, [r10, #80]
	lsls	r2, r6
	bic.w	r2, r3, r2
	str.w	r2, [r10, #80]
.LBB71_48:
	ldr.w	r3, [r10, #24]
	ldr.w	r9, [sp, #28]
	add.w	r12, r3, lr
	ldr.w	r7, [r3, lr]
	ldr.w	r2, [r12, #4]
	sub.w	r6, r7, r0, lsl #2
	cmp	r6, #15
	bhi	.LBB71_50
	subs	r3, r7, #1
	mov.w	r0, #0
	sbc	r2, r2, #0
	strd	r1, r0, [r12, #16]
	strd	r9, r11, [r12, #8]
	lsrs	r0, r3, #2
	strd	r3, r2, [r12]
	b	.LBB71_60
.LBB71_50:
	lsrs	r4, r6, #2
	str.w	lr, [sp, #12]
	str	r4, [sp, #8]
	subs	r4, r7, r6
	add.w	r7, r8, r0
	sbc	r2, r2, #0
	str.w	r4, [r12]
	movs	r4, #0
	str.w	r1, [r12, #16]
	str.w	r9, [r12, #8]
	str.w	r6, [r3, r7, lsl #3]
	str.w	r2, [r12, #4]
	add.w	r2, r3, r7, lsl #3
	str.w	r4, [r12, #20]
	mvn	r3, #7
	str.w	r11, [r12, #12]
	mov.w	r12, #1
	strd	r8, r9, [r2, #4]
	and.w	r3, r3, r7, lsr #3
	str.w	r11, [r2, #12]
	and	r2, r7, #63
	str.w	r8, [sp, #20]
	subs.w	r8, r2, #32
	lsl.w	r4, r12, r2
	str.w	r11, [sp, #16]
	it	pl
	movpl	r4, #0
	ldr.w	lr, [r10, #48]
	rsb.w	r2, r2, #32
	ldr.w	r9, [lr, r3]
	lsr.w	r2, r12, r2
	orr.w	r9, r9, r4
	add.w	r4, lr, r3
	str.w	r9, [lr, r3]
	ldr.w	r11, [r4, #4]
	ldr.w	lr, [sp, #8]
	it	pl
	lslpl.w	r2, r12, r8
	orr.w	r2, r2, r11
	str	r2, [r4, #4]
	lsls	r2, r6, #30
	itttt	pl
	ldrpl.w	r2, [r10, #24]
	addpl.w	r3, lr, r7
	addpl.w	r2, r2, r3, lsl #3
	strpl	r7, [r2, #4]
	orr	r2, lr, #32
	lsl.w	r12, r7, #3
	clz	r2, r2
	rsb.w	r2, r2, #26
	lsr.w	r3, lr, r2
	add.w	r6, r3, r2, lsl #5
	add.w	r2, r10, #168
	mov.w	lr, #-1
	ldr.w	r4, [r2, r6, lsl #2]
	str.w	r7, [r2, r6, lsl #2]
	ldr.w	r2, [r10, #24]
	cmp.w	r4, #-1
	ble.w	.LBB71_58
	add.w	r3, r2, r12
	add.w	r2, r2, r4, lsl #3
	strd	r4, lr, [r3, #16]
	str	r7, [r2, #20]
	b	.LBB71_59
.LBB71_52:
	mov.w	r2, #-1
	add.w	r4, lr, #84
	str.w	r2, [r12, r7, lsl #2]
	and	r7, r7, #15
	movs	r2, #1
	ldr.w	r3, [r4, r6, lsl #2]
	lsl.w	r7, r2, r7
	str	r4, [sp, #16]
	bics	r3, r7
	str.w	r3, [r4, r6, lsl #2]
	mov	r4, r12
	bne	.LBB71_54
	ldr.w	r3, [lr, #80]
	lsls	r2, r6
	bic.w	r2, r3, r2
	str.w	r2, [lr, #80]
.LBB71_54:
	ldr.w	r3, [lr, #24]
	add.w	r12, r3, r10
	ldr.w	r7, [r3, r10]
	ldr.w	r2, [r12, #4]
	sub.w	r6, r7, r0, lsl #2
	cmp	r6, #15
	bhi	.LBB71_56
	subs	r3, r7, #1
	mov.w	r0, #0
	sbc	r2, r2, #0
	strd	r1, r0, [r12, #16]
	strd	r9, r11, [r12, #8]
	lsrs	r0, r3, #2
	strd	r3, r2, [r12]
	b	.LBB71_65
.LBB71_56:
	strd	r4, r10, [sp, #8]
	lsrs	r4, r6, #2
	str	r4, [sp, #4]
	subs	r4, r7, r6
	add.w	r7, r8, r0
	sbc	r2, r2, #0
	str.w	r4, [r12]
	movs	r4, #0
	str.w	r1, [r12, #16]
	and	r10, r7, #63
	str.w	r9, [r12, #8]
	str.w	r6, [r3, r7, lsl #3]
	str.w	r2, [r12, #4]
	add.w	r2, r3, r7, lsl #3
	adds	r2, #4
	str.w	r4, [r12, #20]
	str.w	r11, [r12, #12]
	mvn	r3, #7
	stm.w	r2, {r8, r9, r11}
	movs	r2, #1
	lsl.w	r4, r2, r10
	str.w	r8, [sp, #20]
	subs.w	r8, r10, #32
	it	pl
	movpl	r4, #0
	ldr.w	r2, [lr, #48]
	and.w	r3, r3, r7, lsr #3
	ldr.w	lr, [r2, r3]
	orr.w	lr, lr, r4
	add.w	r4, r2, r3
	str.w	lr, [r2, r3]
	rsb.w	r2, r10, #32
	mov.w	r3, #1
	ldr.w	r12, [r4, #4]
	lsr.w	r2, r3, r2
	ldr.w	lr, [sp, #28]
	it	pl
	lslpl.w	r2, r3, r8
	orr.w	r2, r2, r12
	str	r2, [r4, #4]
	ldr	r4, [sp, #4]
	lsls	r2, r6, #30
	itttt	pl
	ldrpl.w	r2, [lr, #24]
	addpl	r3, r4, r7
	addpl.w	r2, r2, r3, lsl #3
	strpl	r7, [r2, #4]
	lsl.w	r12, r7, #3
	orr	r2, r4, #16
	mov.w	r8, #-1
	clz	r2, r2
	rsb.w	r2, r2, #27
	lsr.w	r3, r4, r2
	ldr	r4, [sp, #8]
	add.w	r6, r3, r2, lsl #4
	ldr.w	r2, [r4, r6, lsl #2]
	str.w	r7, [r4, r6, lsl #2]
	ldr.w	r4, [lr, #24]
	cmp.w	r2, #-1
	ble	.LBB71_63
	add.w	r3, r4, r12
	strd	r2, r8, [r3, #16]
	add.w	r2, r4, r2, lsl #3
	str	r7, [r2, #20]
	b	.LBB71_64
.LBB71_58:
	add	r2, r12
	mov.w	r7, #-1
	mov.w	r12, #1
	strd	r7, lr, [r2, #16]
	and	r2, r3, #31
	lsrs	r3, r6, #5
	add.w	r6, r10, #84
	lsl.w	r2, r12, r2
	ldr.w	r4, [r10, #80]
	ldr.w	r7, [r6, r3, lsl #2]
	orrs	r2, r7
	str.w	r2, [r6, r3, lsl #2]
	lsl.w	r2, r12, r3
	orrs	r2, r4
	str.w	r2, [r10, #80]
.LBB71_59:
	ldr.w	r9, [sp, #28]
	ldr.w	r8, [sp, #20]
	ldrd	lr, r11, [sp, #12]
.LBB71_60:
	ldrd	r2, r3, [r10, #16]
	add	r0, r2
	str.w	r0, [r10, #16]
	cmp	r3, r0
	it	lo
	strlo.w	r0, [r10, #20]
	ldrd	r0, r2, [r10, #8]
	ldr.w	r6, [r10]
	adds	r0, #1
	adc	r2, r2, #0
	strd	r0, r2, [r10, #8]
	adds	r2, r1, #1
	mov.w	r0, #0
	adc	r3, r0, #0
	cmp	r1, #0
	itt	ne
	movne	r2, r1
	movne	r3, r0
	adds.w	r0, r2, #31
	adc	r1, r3, #0
	lsrs	r0, r0, #3
	orr.w	r0, r0, r1, lsl #29
	subs	r1, r0, #3
	beq	.LBB71_62
	ldr.w	r0, [r10, #24]
	lsls	r2, r1, #3
	movs	r1, #0
	add	r0, lr
	adds	r0, #24
	bl	tlsf_memory_set
.LBB71_62:
	ldr.w	r0, [r10, #2768]
	b	.LBB71_68
.LBB71_63:
	add.w	r2, r4, r12
	mov.w	r7, #-1
	mov.w	r12, #1
	strd	r7, r8, [r2, #16]
	and	r2, r3, #15
	lsrs	r3, r6, #4
	ldr	r6, [sp, #16]
	lsl.w	r2, r12, r2
	ldr.w	r4, [lr, #80]
	ldr.w	r7, [r6, r3, lsl #2]
	orrs	r2, r7
	str.w	r2, [r6, r3, lsl #2]
	lsl.w	r2, r12, r3
	orrs	r2, r4
	str.w	r2, [lr, #80]
.LBB71_64:
	ldr.w	r8, [sp, #20]
	ldr.w	r10, [sp, #12]
.LBB71_65:
	ldrd	r2, r3, [lr, #16]
	add	r0, r2
	str.w	r0, [lr, #16]
	cmp	r3, r0
	it	lo
	strlo.w	r0, [lr, #20]
	ldrd	r0, r2, [lr, #8]
	ldr.w	r6, [lr]
	adds	r0, #1
	adc	r2, r2, #0
	strd	r0, r2, [lr, #8]
	adds	r2, r1, #1
	mov.w	r0, #0
	adc	r3, r0, #0
	cmp	r1, #0
	itt	ne
	movne	r2, r1
	movne	r3, r0
	adds.w	r0, r2, #31
	adc	r1, r3, #0
	lsrs	r0, r0, #3
	orr.w	r0, r0, r1, lsl #29
	subs	r1, r0, #3
	beq	.LBB71_67
	ldr.w	r0, [lr, #24]
	lsls	r2, r1, #3
	movs	r1, #0
	add	r0, r10
	adds	r0, #24
	bl	tlsf_memory_set
	ldr.w	lr, [sp, #28]
.LBB71_67:
	ldr.w	r0, [lr, #2768]
.LBB71_68:
	ldr	r1, [r0, r5]
	adds	r1, #1
	str	r1, [r0, r5]
	movs	r0, #1
	ldr	r1, [sp, #32]
	strb	r0, [r1, #1]
	ldr	r0, [sp, #24]
	str.w	r11, [r0, #12]
	str.w	r9, [r0, #8]
	str.w	r8, [r0, #4]
	str	r6, [r0]
	movs	r0, #0
	add	sp, #36
	pop.w	{r4, r5, r6, r7, r8, r9, r10, r11, pc}
.Lfunc_end71:
	.size	tlsf_pools_allocate, .Lfunc_end71-tlsf_pools_allocate
	.cfi_endproc
	.section	.text.tlsf_pools_check,"ax",%progbits
	.globl	tlsf_pools_check
	.p2align	1
	.type	tlsf_pools_check,%function
	.code	16
	.thumb_func
tlsf_pools_check:
	.cfi_startproc
	push.w	{r4, r5, r6, r7, r8, r9, r10, lr}
	.cfi_def_cfa_offset 32
	.cfi_offset lr, -4
	.cfi_offset r10, -8
	.cfi_offset r9, -12
	.cfi_offset r8, -16
	.cfi_offset r7, -20
	.cfi_offset r6, -24
	.cfi_offset r5, -28
	.cfi_offset r4, -32
	mov	r4, r2
	ldrb	r2, [r0, #8]
	cmp	r2, #0
	ittt	ne
	ldrne	r7, [r0]
	ldrbne	r0, [r7, #1]
	cmpne	r0, #0
	bne	.LBB72_2
	movs	r0, #0
	pop.w	{r4, r5, r6, r7, r8, r9, r10, lr}
	b	tlsf_c.call_fault.CallFault.refusal
.LBB72_2:
	ldrb	r0, [r7]
	cmp	r0, #1
	bne.w	.LBB72_22
	ldrd	r8, r9, [sp, #32]
	mov	r5, r3
	ldrd	r2, r0, [r7, #32]
	movs	r3, #0
	ldrb	r6, [r7, #8]
	strb	r3, [r7, #1]
	cbz	r6, .LBB72_12
	subs	r2, r1, r2
	sbcs.w	r0, r3, r0
	bhs	.LBB72_21
	movw	r0, #2792
	ldr	r2, [r7, #24]
	mla	r0, r1, r0, r2
	ldr	r6, [r0, #32]
	subs	r1, r6, #4
	cmp	r4, r1
	bhi	.LBB72_21
	mvn	r2, #7
	ldr	r1, [r0, #48]
	and.w	r2, r2, r4, lsr #3
	ldr.w	r12, [r1, r2]
	add	r1, r2
	and	r2, r4, #63
	ldr	r1, [r1, #4]
	rsb.w	r3, r2, #32
	lsl.w	lr, r1, r3
	lsr.w	r3, r12, r2
	orr.w	r3, r3, lr
	subs	r2, #32
	it	pl
	lsrpl.w	r3, r1, r2
	lsls	r1, r3, #31
	beq	.LBB72_21
	cmp	r5, #0
	beq	.LBB72_25
	add.w	r10, r0, #24
.LBB72_9:
	mov	r0, r10
	mov	r1, r4
	bl	tlsf_heap.check.examine
	uxtb	r0, r0
	cmp	r0, #1
	bne	.LBB72_23
	cmp	r1, r6
	beq	.LBB72_24
	subs	r5, #1
	mov	r4, r1
	bne	.LBB72_9
	b	.LBB72_20
.LBB72_12:
	subs	r2, r1, r2
	sbcs.w	r0, r3, r0
	bhs	.LBB72_21
	movw	r0, #2792
	ldr	r2, [r7, #24]
	mla	r0, r1, r0, r2
	ldr	r6, [r0, #32]
	subs	r1, r6, #4
	cmp	r4, r1
	bhi	.LBB72_21
	mvn	r2, #7
	ldr	r1, [r0, #48]
	and.w	r2, r2, r4, lsr #3
	ldr.w	r12, [r1, r2]
	add	r1, r2
	and	r2, r4, #63
	ldr	r1, [r1, #4]
	rsb.w	r3, r2, #32
	lsl.w	lr, r1, r3
	lsr.w	r3, r12, r2
	orr.w	r3, r3, lr
	subs	r2, #32
	it	pl
	lsrpl.w	r3, r1, r2
	lsls	r1, r3, #31
	beq	.LBB72_21
	cbz	r5, .LBB72_25
	add.w	r10, r0, #24
.LBB72_17:
	mov	r0, r10
	mov	r1, r4
	bl	tlsf_heap.check.examine
	uxtb	r0, r0
	cmp	r0, #1
	bne	.LBB72_23
	cmp	r1, r6
	beq	.LBB72_24
	subs	r5, #1
	mov	r4, r1
	bne	.LBB72_17
.LBB72_20:
	movs	r0, #0
	mov	r4, r1
	movs	r1, #1
	strb	r1, [r7, #1]
	str.w	r4, [r8]
	pop.w	{r4, r5, r6, r7, r8, r9, r10, pc}
.LBB72_21:
	movs	r0, #1
	strb	r0, [r7, #1]
	movs	r0, #4
	pop.w	{r4, r5, r6, r7, r8, r9, r10, pc}
.LBB72_22:
	movs	r0, #2
	pop.w	{r4, r5, r6, r7, r8, r9, r10, lr}
	b	tlsf_c.call_fault.CallFault.refusal
.LBB72_23:
	movs	r0, #36
	mov	r8, r9
	movs	r1, #1
	strb	r1, [r7, #1]
	str.w	r4, [r8]
	pop.w	{r4, r5, r6, r7, r8, r9, r10, pc}
.LBB72_24:
	movs	r4, #0
.LBB72_25:
	movs	r0, #0
	movs	r1, #1
	strb	r1, [r7, #1]
	str.w	r4, [r8]
	pop.w	{r4, r5, r6, r7, r8, r9, r10, pc}
.Lfunc_end72:
	.size	tlsf_pools_check, .Lfunc_end72-tlsf_pools_check
	.cfi_endproc
	.section	.text.tlsf_pools_close,"ax",%progbits
	.globl	tlsf_pools_close
	.p2align	1
	.type	tlsf_pools_close,%function
	.code	16
	.thumb_func
tlsf_pools_close:
	.cfi_startproc
	ldrb	r1, [r0, #8]
	cbz	r1, .LBB73_4
	ldr	r1, [r0]
	ldrb	r2, [r1, #1]
	cmp	r2, #1
	bne	.LBB73_4
	ldrb	r1, [r1]
	cmp	r1, #1
	itt	ne
	movne	r0, #40
	bxne	lr
.LBB73_3:
	push	{r7, lr}
	.cfi_def_cfa_offset 8
	.cfi_offset lr, -4
	.cfi_offset r7, -8
	bl	tlsf_c.arena_slot.ArenaSlot.close
	movs	r0, #0
	pop	{r7, pc}
.LBB73_4:
	movs	r0, #32
	bx	lr
.Lfunc_end73:
	.size	tlsf_pools_close, .Lfunc_end73-tlsf_pools_close
	.cfi_endproc
	.section	.text.tlsf_pools_counts,"ax",%progbits
	.globl	tlsf_pools_counts
	.p2align	1
	.type	tlsf_pools_counts,%function
	.code	16
	.thumb_func
tlsf_pools_counts:
	.cfi_startproc
	push.w	{r4, r5, r6, r7, r8, r9, r10, r11, lr}
	.cfi_def_cfa_offset 36
	.cfi_offset lr, -4
	.cfi_offset r11, -8
	.cfi_offset r10, -12
	.cfi_offset r9, -16
	.cfi_offset r8, -20
	.cfi_offset r7, -24
	.cfi_offset r6, -28
	.cfi_offset r5, -32
	.cfi_offset r4, -36
	sub	sp, #4
	.cfi_def_cfa_offset 40
	ldrb	r7, [r0, #8]
	cmp	r7, #0
	ittt	ne
	ldrne	r6, [r0]
	ldrbne	r0, [r6, #1]
	cmpne	r0, #0
	beq	.LBB74_14
	ldrb	r0, [r6]
	cmp	r0, #1
	bne	.LBB74_18
	ldrd	r10, lr, [r6, #32]
	movs	r7, #0
	ldr.w	r9, [r6, #24]
	ldrb	r0, [r6, #8]
	str	r6, [sp]
	strb	r7, [r6, #1]
	cbz	r0, .LBB74_7
	orrs.w	r0, r10, lr
	beq	.LBB74_11
	mov	r11, r3
	movs	r6, #0
	movw	r8, #2792
	movs	r4, #0
.LBB74_5:
	mla	r12, r6, r8, r9
	ldr.w	r0, [r12, #2744]
	ldr.w	r5, [r12, #2748]
	subs	r3, r1, r0
	sbcs.w	r3, r7, r5
	blo	.LBB74_12
	subs	r1, r1, r0
	sbcs	r7, r5
	adds	r6, #1
	adc	r4, r4, #0
	subs.w	r0, r6, r10
	sbcs.w	r0, r4, lr
	blo	.LBB74_5
	b	.LBB74_11
.LBB74_7:
	orrs.w	r0, r10, lr
	beq	.LBB74_11
	movs	r6, #0
	movw	r8, #2792
	movs	r4, #0
	mov.w	r11, #0
.LBB74_9:
	mla	r12, r6, r8, r9
	ldr.w	r0, [r12, #2744]
	ldr.w	r7, [r12, #2748]
	subs	r5, r1, r0
	sbcs.w	r5, r11, r7
	blo	.LBB74_15
	subs	r1, r1, r0
	sbc.w	r11, r11, r7
	adds	r6, #1
	adc	r4, r4, #0
	subs.w	r0, r6, r10
	sbcs.w	r0, r4, lr
	blo	.LBB74_9
.LBB74_11:
	ldr	r1, [sp]
	movs	r0, #1
	strb	r0, [r1, #1]
	movs	r0, #4
	add	sp, #4
	pop.w	{r4, r5, r6, r7, r8, r9, r10, r11, pc}
.LBB74_12:
	ldr.w	r0, [r12, #2776]
	ldr.w	r3, [r12, #2780]
	subs	r0, r1, r0
	sbcs.w	r0, r7, r3
	bhs	.LBB74_17
	ldr.w	r0, [r12, #2768]
	ldr.w	r0, [r0, r1, lsl #2]
	b	.LBB74_21
.LBB74_14:
	movs	r0, #0
	add	sp, #4
	pop.w	{r4, r5, r6, r7, r8, r9, r10, r11, lr}
	b	tlsf_c.call_fault.CallFault.refusal
.LBB74_15:
	ldr.w	r0, [r12, #2776]
	ldr.w	r7, [r12, #2780]
	subs	r0, r1, r0
	sbcs.w	r0, r11, r7
	bhs	.LBB74_19
	ldr.w	r0, [r12, #2768]
	ldr.w	r0, [r0, r1, lsl #2]
	b	.LBB74_20
.LBB74_17:
	movs	r0, #0
	b	.LBB74_21
.LBB74_18:
	movs	r0, #2
	add	sp, #4
	pop.w	{r4, r5, r6, r7, r8, r9, r10, r11, lr}
	b	tlsf_c.call_fault.CallFault.refusal
.LBB74_19:
	movs	r0, #0
.LBB74_20:
	mov	r11, r3
.LBB74_21:
	ldr.w	r3, [r12, #2736]
	movs	r7, #1
	ldr.w	r1, [r3, r1, lsl #3]
	ldr	r3, [sp]
	strb	r7, [r3, #1]
	str	r0, [r2]
	movs	r0, #0
	str.w	r1, [r11]
	add	sp, #4
	pop.w	{r4, r5, r6, r7, r8, r9, r10, r11, pc}
.Lfunc_end74:
	.size	tlsf_pools_counts, .Lfunc_end74-tlsf_pools_counts
	.cfi_endproc
	.section	.text.tlsf_pools_open,"ax",%progbits
	.globl	tlsf_pools_open
	.p2align	1
	.type	tlsf_pools_open,%function
	.code	16
	.thumb_func
tlsf_pools_open:
	.cfi_startproc
	push.w	{r4, r5, r6, r7, r8, r9, r10, r11, lr}
	.cfi_def_cfa_offset 36
	.cfi_offset lr, -4
	.cfi_offset r11, -8
	.cfi_offset r10, -12
	.cfi_offset r9, -16
	.cfi_offset r8, -20
	.cfi_offset r7, -24
	.cfi_offset r6, -28
	.cfi_offset r5, -32
	.cfi_offset r4, -36
	sub.w	sp, sp, #988
	.cfi_def_cfa_offset 1024
	movs	r7, #0
	cmp	r3, #0
	str	r7, [sp, #104]
	strd	r7, r7, [sp, #96]
	strd	r7, r7, [sp, #88]
	ldrb	r7, [r0, #8]
	it	eq
	addeq.w	r3, r3, #4096
	cbz	r7, .LBB75_2
	movs	r0, #33
	add.w	sp, sp, #988
	pop.w	{r4, r5, r6, r7, r8, r9, r10, r11, pc}
.LBB75_2:
	subs	r7, r1, #6
	cmn.w	r7, #2
	bhs	.LBB75_4
	movs	r0, #34
	add.w	sp, sp, #988
	pop.w	{r4, r5, r6, r7, r8, r9, r10, r11, pc}
.LBB75_4:
	cmn.w	r2, #8
	mov	r7, r0
	mov.w	r0, #5
	itt	ls
	ldrls.w	r8, [sp, #1024]
	cmpls.w	r8, #64
	bls	.LBB75_6
	add.w	sp, sp, #988
	pop.w	{r4, r5, r6, r7, r8, r9, r10, r11, pc}
.LBB75_6:
	add	r5, sp, #112
	movs	r4, #0
	str	r1, [sp, #84]
	movs	r1, #0
	str	r2, [sp, #76]
	mov	r0, r5
	mov.w	r2, #512
	str	r7, [sp, #68]
	strd	r4, r4, [sp, #624]
	mov	r7, r3
	strd	r4, r4, [sp, #632]
	str	r4, [sp, #640]
	bl	tlsf_memory_set
	cmp.w	r8, #0
	beq	.LBB75_9
	mov	r0, r7
	movs	r1, #0
	movs	r2, #0
.LBB75_8:
	add.w	r7, r0, r1, lsl #4
	lsls	r3, r1, #4
	ldr	r3, [r0, r3]
	ldr	r6, [r7, #8]
	ldr	r7, [r7, #12]
	str.w	r3, [r5, r1, lsl #3]
	add.w	r3, r5, r1, lsl #3
	cmp	r7, #0
	it	ne
	movne.w	r6, #-1
	adds	r1, #1
	str	r6, [r3, #4]
	adc	r2, r2, #0
	subs.w	r3, r1, r8
	sbcs	r3, r2, #0
	blo	.LBB75_8
.LBB75_9:
	ldr	r0, [sp, #84]
	add	r5, sp, #776
	strd	r4, r4, [sp, #680]
	strd	r4, r4, [sp, #688]
	cmp	r0, #4
	strd	r4, r4, [sp, #696]
	str	r4, [sp, #704]
	strd	r4, r4, [sp, #648]
	strd	r4, r4, [sp, #656]
	strd	r4, r4, [sp, #664]
	str	r4, [sp, #672]
	mov.w	r4, #0
	bne	.LBB75_15
	mov	r0, r5
	movs	r1, #0
	movs	r2, #88
	bl	tlsf_memory_set
	add	r1, sp, #112
	mov	r0, r5
	mov	r2, r8
	movs	r3, #0
	strd	r4, r4, [sp, #744]
	strd	r4, r4, [sp, #752]
	strd	r4, r4, [sp, #760]
	str	r4, [sp, #768]
	strh.w	r4, [sp, #772]
	strd	r4, r4, [sp, #712]
	strd	r4, r4, [sp, #720]
	strd	r4, r4, [sp, #728]
	str	r4, [sp, #736]
	bl	tlsf_pool.sizes.split.rising_split.4
	ldrb.w	r0, [sp, #776]
	cmp	r0, #1
	bne.w	.LBB75_128
	add.w	r1, r5, #8
	add	r5, sp, #864
	movs	r2, #80
	mov	r0, r5
	bl	tlsf_memory_cpy
	ldrd	r7, r10, [sp, #864]
	strd	r4, r4, [sp, #960]
	orrs.w	r0, r7, r10
	strd	r4, r4, [sp, #952]
	strd	r4, r4, [sp, #944]
	beq.w	.LBB75_97
	movw	r1, #25351
	movw	r0, #48260
	movt	r1, #2253
	movt	r0, #11
	subs	r1, r7, r1
	sbcs.w	r0, r10, r0
	bhs.w	.LBB75_20
	movw	r2, #2792
	umull	r1, r0, r7, r2
	mla	r0, r10, r2, r0
	mov.w	r2, #-1
	cmp	r0, #0
	add	r0, sp, #968
	it	ne
	movne	r1, r2
	movs	r2, #8
	bl	tlsf_memory_alloc
	ldr	r0, [sp, #968]
	lsls	r0, r0, #31
	beq.w	.LBB75_20
	movs	r0, #0
	ldr	r1, [sp, #976]
	movw	r3, #65513
	strd	r0, r0, [sp, #952]
	mov	r9, r0
	strd	r1, r0, [sp, #944]
	add.w	r0, r5, #8
	add	r5, sp, #112
	str	r1, [sp, #52]
	movt	r3, #127
	str	r0, [sp, #20]
	movs	r0, #0
	movs	r4, #0
	movs	r2, #0
	movs	r6, #0
	mov	r1, r8
	str	r7, [sp, #960]
	str.w	r10, [sp, #964]
	str	r0, [sp, #72]
	str	r0, [sp, #80]
	strd	r10, r7, [sp, #12]
	b	.LBB75_62
.LBB75_15:
	mov	r0, r5
	movs	r1, #0
	movs	r2, #88
	bl	tlsf_memory_set
	add	r1, sp, #112
	mov	r0, r5
	mov	r2, r8
	movs	r3, #0
	strd	r4, r4, [sp, #744]
	strd	r4, r4, [sp, #752]
	strd	r4, r4, [sp, #760]
	str	r4, [sp, #768]
	strh.w	r4, [sp, #772]
	strd	r4, r4, [sp, #712]
	strd	r4, r4, [sp, #720]
	strd	r4, r4, [sp, #728]
	str	r4, [sp, #736]
	bl	tlsf_pool.sizes.split.rising_split.5
	ldrb.w	r0, [sp, #776]
	cmp	r0, #1
	bne.w	.LBB75_128
	add.w	r1, r5, #8
	add	r5, sp, #864
	movs	r2, #80
	mov	r0, r5
	bl	tlsf_memory_cpy
	ldrd	r7, r6, [sp, #864]
	strd	r4, r4, [sp, #960]
	orrs.w	r0, r7, r6
	strd	r4, r4, [sp, #952]
	add	r0, sp, #984
	strd	r4, r4, [sp, #944]
	beq.w	.LBB75_99
	movw	r1, #25351
	movw	r0, #48260
	movt	r1, #2253
	movt	r0, #11
	subs	r1, r7, r1
	sbcs.w	r0, r6, r0
	bhs	.LBB75_20
	movw	r2, #2792
	umull	r1, r0, r7, r2
	mla	r0, r6, r2, r0
	mov.w	r2, #-1
	cmp	r0, #0
	add	r0, sp, #968
	it	ne
	movne	r1, r2
	movs	r2, #8
	bl	tlsf_memory_alloc
	ldr	r0, [sp, #968]
	lsls	r0, r0, #31
	beq	.LBB75_20
	movs	r0, #0
	ldr	r1, [sp, #976]
	strd	r0, r0, [sp, #952]
	mov	r11, r0
	strd	r1, r0, [sp, #944]
	add.w	r0, r5, #8
	str	r0, [sp, #20]
	movs	r0, #1
	movt	r0, #16
	str	r1, [sp, #48]
	movw	r1, #65513
	add.w	r0, r0, #15728640
	movt	r1, #127
	str	r0, [sp, #16]
	movs	r0, #0
	add.w	r3, r1, #125829120
	add	r5, sp, #112
	str	r0, [sp, #72]
	str	r0, [sp, #80]
	add	r0, sp, #4
	movs	r2, #0
	movs	r1, #0
	movs	r4, #0
	str	r7, [sp, #960]
	str	r6, [sp, #964]
	stm	r0!, {r3, r6, r7}
	b	.LBB75_22
.LBB75_20:
	movs	r4, #2
	b.w	.LBB75_128
.LBB75_21:
	ldr.w	r8, [sp, #60]
	add.w	r5, r5, r10, lsl #3
	ldr	r2, [sp, #44]
	subs.w	r8, r8, r10
	ldr	r1, [sp, #56]
	sbcs	r2, r7
	ldr	r7, [sp, #12]
	adds	r1, #1
	ldr	r6, [sp, #8]
	adc	r4, r4, #0
	subs	r0, r1, r7
	ldr	r3, [sp, #4]
	sbcs.w	r0, r4, r6
	ldr	r0, [sp, #32]
	str	r0, [sp, #72]
	bhs.w	.LBB75_100
.LBB75_22:
	mvns	r0, r1
	str	r1, [sp, #56]
	ldr	r1, [sp, #20]
	add	r0, r7
	str	r4, [sp, #40]
	str	r2, [sp, #44]
	ldr.w	r10, [r1, r0, lsl #3]
	add.w	r0, r1, r0, lsl #3
	movs	r1, #0
	ldr	r4, [r0, #4]
	subs.w	r0, r8, r10
	sbcs.w	r0, r2, r4
	itt	lo
	movlo	r4, r2
	movlo	r10, r8
	orrs.w	lr, r10, r4
	mov.w	r0, #0
	beq	.LBB75_32
.LBB75_23:
	add.w	r2, r5, r0, lsl #3
	ldr	r2, [r2, #4]
	cmp	r2, r3
	bhs.w	.LBB75_131
	adds	r0, #1
	adc	r1, r1, #0
	subs.w	r2, r0, r10
	sbcs.w	r2, r1, r4
	blo	.LBB75_23
	mov.w	r12, #0
	movs	r0, #0
	movs	r1, #0
	movs	r2, #0
	movs	r3, #0
.LBB75_26:
	ldr.w	r7, [r5, r2, lsl #3]
	adds	r0, r0, r7
	adc	r1, r1, #0
	adds	r2, #1
	adc	r3, r3, #0
	subs.w	r7, r2, r10
	sbcs.w	r7, r3, r4
	blo	.LBB75_26
	movs	r2, #0
	movs	r3, #0
	movs	r7, #0
	b	.LBB75_29
.LBB75_28:
	adds	r3, #1
	adc	r7, r7, #0
	subs.w	r6, r3, r10
	sbcs.w	r6, r7, r4
	bhs	.LBB75_31
.LBB75_29:
	ldr.w	r6, [r5, r3, lsl #3]
	cmp	r6, #0
	beq	.LBB75_28
	add.w	r6, r5, r3, lsl #3
	ldr	r6, [r6, #4]
	cmp	r6, r2
	it	hi
	movhi	r2, r6
	b	.LBB75_28
.LBB75_31:
	mov	r6, r12
	b	.LBB75_33
.LBB75_32:
	movs	r2, #0
	mov	r6, r11
.LBB75_33:
	adds	r3, r2, #1
	mov.w	r9, #4
	adc	r7, r6, #0
	cmp	r2, #0
	itt	ne
	movne	r3, r2
	movne	r7, r6
	adds.w	r2, r3, #31
	adc	r3, r7, #0
	lsrs	r2, r2, #3
	orr.w	r2, r2, r3, lsl #29
	subs	r3, r2, #1
	orr	r2, r2, #32
	clz	r2, r2
	rsb.w	r2, r2, #26
	lsrs	r3, r2
	adds	r3, #1
	add.w	r2, r3, r2, lsl #5
	lsrs	r7, r2, #5
	itttt	ne
	movne	r2, #16
	lslne	r2, r7
	subne	r7, #1
	andne	r3, r3, #31
	itt	ne
	lslne	r3, r7
	addne	r2, r3
	movs	r7, #0
	umull	r0, r3, r0, r2
	mla	r11, r1, r2, r3
	movs	r1, #4
	cmp	r0, #4
	it	hi
	movhi	r1, r0
	cmp.w	r11, #0
	ite	ne
	movne	r9, r0
	moveq	r9, r1
	ldr	r1, [sp, #16]
	subs	r0, r0, r1
	sbcs	r0, r11, #0
	mrs	r0, apsr
	it	lo
	movlo	r7, #1
	cmp	r7, #0
	it	ne
	movne	r7, r9
	msr	APSR_nzcvq, r0
	bhs.w	.LBB75_131
	cmp.w	r9, #16777216
	bhi.w	.LBB75_107
	str	r4, [sp, #64]
	add	r4, sp, #968
	lsl.w	r1, r9, #3
	movs	r2, #8
	mov	r0, r4
	str.w	lr, [sp, #52]
	bl	tlsf_memory_alloc
	ldr	r0, [sp, #968]
	lsls	r0, r0, #31
	beq.w	.LBB75_109
	add.w	r1, r9, #63
	mov	r0, r4
	mov	r4, r11
	ldr.w	r11, [sp, #976]
	str	r7, [sp, #28]
	lsrs	r7, r1, #6
	lsls	r1, r7, #3
	movs	r2, #8
	strd	r6, r6, [r11]
	strd	r6, r6, [r11, #8]
	strd	r6, r6, [r11, #16]
	strd	r6, r6, [r11, #24]
	bl	tlsf_memory_alloc
	ldr	r0, [sp, #968]
	lsls	r0, r0, #31
	beq.w	.LBB75_122
	ldr.w	lr, [sp, #976]
	mov	r3, r6
	str	r7, [sp, #32]
	mov	r12, r11
	ldrd	r1, r2, [sp, #960]
	str.w	r6, [lr]
	str.w	r6, [r11, #8]
	mov.w	r6, #-1
	adds.w	r0, r6, #20
	str.w	r0, [r11]
	ldr.w	r0, [lr]
	str.w	r3, [lr, #4]
	str.w	r3, [r11, #12]
	orr	r0, r0, #1
	ldr	r7, [sp, #72]
	ldr	r3, [sp, #80]
	str.w	r0, [lr]
	sbc	r0, r6, #0
	str.w	r0, [r11, #4]
	eor.w	r0, r2, r3
	strd	r6, r6, [r11, #16]
	eors	r1, r7
	mov	r11, r4
	orrs	r0, r1
	beq.w	.LBB75_58
.LBB75_38:
	ldr	r0, [sp, #52]
	movw	r2, #2792
	ldr	r1, [sp, #56]
	mov	r4, r7
	clz	r0, r0
	str	r3, [sp, #80]
	ldr	r3, [sp, #48]
	lsrs	r0, r0, #5
	str.w	r8, [sp, #60]
	str	r0, [sp, #52]
	mov.w	r8, #0
	ldr	r0, [sp, #76]
	add	r0, r1
	mul	r1, r7, r2
	mla	r7, r7, r2, r3
	movs	r2, #80
	str	r0, [r3, r1]
	movs	r1, #16
	ldr	r0, [sp, #32]
	str	r0, [r7, #64]
	movs	r0, #1
	str	r0, [r7, #56]
	str	r0, [r7, #8]
	str	r0, [r7, #80]
	add.w	r0, r7, #88
	str.w	r11, [r7, #44]
	mov.w	r11, #4
	str	r1, [r7, #84]
	movs	r1, #0
	str.w	r8, [r7, #68]
	str.w	r8, [r7, #60]
	str.w	r9, [r7, #40]
	str.w	r8, [r7, #36]
	str.w	r11, [r7, #32]
	str.w	r8, [r7, #12]
	str.w	r8, [r7, #76]
	str.w	r11, [r7, #72]
	str.w	r8, [r7, #52]
	str.w	lr, [r7, #48]
	str.w	r8, [r7, #28]
	str.w	r12, [r7, #24]
	str.w	r8, [r7, #20]
	str.w	r8, [r7, #16]
	bl	tlsf_memory_set
	add.w	r0, r7, #188
	movs	r1, #255
	mov.w	r2, #2544
	str.w	r6, [r7, #168]
	str.w	r6, [r7, #172]
	str.w	r6, [r7, #176]
	str.w	r6, [r7, #180]
	str.w	r8, [r7, #184]
	bl	tlsf_memory_set
	add	r0, sp, #984
	str.w	r11, [r7, #2760]
	str.w	r8, [r7, #2740]
	adds.w	r11, r4, #1
	str.w	r0, [r7, #2736]
	str.w	r8, [r7, #2744]
	str.w	r8, [r7, #2748]
	str.w	r8, [r7, #2752]
	str.w	r8, [r7, #2756]
	str.w	r8, [r7, #2772]
	str.w	r0, [r7, #2768]
	str.w	r8, [r7, #2764]
	str.w	r8, [r7, #2776]
	str.w	r8, [r7, #2780]
	str.w	r8, [r7, #2784]
	str.w	r8, [r7, #2788]
	ldr	r7, [sp, #80]
	ldr	r1, [sp, #52]
	adc	r7, r7, #0
	str	r7, [sp, #80]
	cmp	r1, #0
	str.w	r11, [sp, #32]
	strd	r11, r7, [sp, #952]
	bne	.LBB75_44
	ldr	r3, [sp, #64]
	mov.w	r9, #0
	cmp.w	r9, r3, lsr #28
	bne.w	.LBB75_111
	add.w	r8, sp, #968
	lsls	r0, r3, #3
	orrs.w	r4, r0, r10, lsr #29
	mov.w	r1, #-1
	mov	r0, r8
	mov.w	r2, #4
	it	eq
	lsleq.w	r1, r10, #3
	mov	r7, r3
	bl	tlsf_memory_alloc
	ldr	r0, [sp, #968]
	lsls	r0, r0, #31
	beq.w	.LBB75_113
	ldr	r0, [sp, #976]
	lsl.w	r2, r10, #3
	subs	r3, r0, r5
	sbc	r1, r9, #0
	subs	r3, r3, r2
	sbcs	r1, r4
	it	lo
	lsllo.w	r2, r10, #3
	mov	r1, r5
	mov	r11, r0
	bl	tlsf_memory_cpy
	lsls	r0, r7, #2
	mov.w	r1, #-1
	orrs.w	r0, r0, r10, lsr #30
	mov.w	r2, #4
	mov	r0, r8
	it	eq
	lsleq.w	r1, r10, #2
	bl	tlsf_memory_alloc
	ldr	r0, [sp, #968]
	lsls	r0, r0, #31
	beq.w	.LBB75_121
	ldr	r1, [sp, #976]
	subs.w	r8, r10, #1
	sbc	r6, r7, #0
	movs	r4, #0
	orrs.w	r0, r8, r6
	str	r1, [sp, #52]
	beq	.LBB75_45
	mvn	r0, #3
	add.w	r2, r0, r10, lsl #2
	mov	r0, r1
	movs	r1, #0
	bl	tlsf_memory_set
	ldr	r1, [sp, #52]
	mov	r12, r6
	ldr	r3, [sp, #64]
	b	.LBB75_46
.LBB75_44:
	movs	r1, #0
	str	r0, [sp, #52]
	str	r1, [sp, #24]
	mov	r11, r0
	movs	r4, #0
	mov.w	r9, #0
	b	.LBB75_51
.LBB75_45:
	mov	r3, r7
	mov.w	r8, #0
	mov.w	r12, #0
.LBB75_46:
	str.w	r4, [r1, r8, lsl #2]
	movs	r0, #0
	movs	r1, #0
	b	.LBB75_48
.LBB75_47:
	adds	r0, #1
	adc	r1, r1, #0
	subs.w	r2, r0, r10
	sbcs.w	r2, r1, r3
	bhs	.LBB75_50
.LBB75_48:
	ldr.w	r2, [r5, r0, lsl #3]
	cmp	r2, #0
	beq	.LBB75_47
	add.w	r2, r5, r0, lsl #3
	ldr	r2, [r2, #4]
	cmp	r2, r4
	it	hi
	movhi	r4, r2
	b	.LBB75_47
.LBB75_50:
	adds.w	r8, r8, #1
	adc	r0, r12, #0
	str	r0, [sp, #24]
.LBB75_51:
	adds	r0, r4, #1
	adc	r1, r9, #0
	cmp	r4, #0
	itt	ne
	movne	r0, r4
	movne	r1, r9
	str.w	r11, [sp, #36]
	adds	r0, #31
	adc	r1, r1, #0
	lsrs	r0, r0, #3
	orr.w	r0, r0, r1, lsl #29
	subs	r1, r0, #1
	orr	r0, r0, #32
	clz	r0, r0
	rsb.w	r2, r0, #26
	lsr.w	r0, r1, r2
	adds	r0, #1
	add.w	r9, r0, r2, lsl #5
	lsrs.w	r1, r9, #5
	itttt	ne
	movne	r2, #16
	lslne	r2, r1
	subne	r1, #1
	andne	r0, r0, #31
	itt	ne
	lslne	r0, r1
	addne.w	r9, r0, r2
	ldr	r2, [sp, #72]
	movw	r0, #2792
	ldr	r1, [sp, #48]
	mla	r4, r2, r0, r1
	ldr	r1, [sp, #28]
	ldrd	r6, r7, [r4, #8]
	add.w	r0, r4, #24
	bl	tlsf_words.words.Words.lengthen
	add.w	r0, r4, #80
	mov.w	r11, #-1
	movs	r1, #0
	movs	r2, #88
	str.w	r11, [r4, #184]
	bl	tlsf_memory_set
	ldr	r0, [r4, #24]
	subs	r2, r6, #1
	ldr	r1, [r4, #32]
	mov.w	r6, #0
	str	r2, [r0, #8]
	sbc	r2, r7, #0
	adds.w	r3, r11, r1, lsl #2
	adc	r7, r11, #0
	adds	r3, #4
	str	r3, [r0]
	sbc	r7, r7, #0
	ldr	r3, [r4, #48]
	str	r2, [r0, #12]
	ldr	r2, [r3]
	str	r7, [r0, #4]
	orr	r0, r2, #1
	str	r0, [r3]
	orr	r0, r1, #32
	clz	r0, r0
	rsb.w	r2, r0, #26
	lsr.w	r0, r1, r2
	add.w	r3, r0, r2, lsl #5
	add.w	r2, r4, r3, lsl #2
	ldr.w	r1, [r2, #168]
	str.w	r6, [r2, #168]
	ldr	r2, [r4, #24]
	cmp.w	r1, #-1
	ble	.LBB75_53
	adds.w	r0, r11, r1
	adc	r3, r11, #0
	adds	r0, #1
	sbc	r3, r3, #0
	strd	r0, r3, [r2, #16]
	add.w	r0, r2, r1, lsl #3
	str	r6, [r0, #20]
	b	.LBB75_54
.LBB75_53:
	lsrs	r1, r3, #5
	mov.w	r12, #1
	strd	r11, r11, [r2, #16]
	lsl.w	r2, r12, r1
	add.w	r1, r4, r1, lsl #2
	and	r0, r0, #31
	ldr	r3, [r4, #80]
	ldr	r7, [r1, #84]
	lsl.w	r0, r12, r0
	orrs	r2, r3
	str	r2, [r4, #80]
	orrs	r0, r7
	str	r0, [r1, #84]
.LBB75_54:
	ldr	r7, [sp, #64]
	str.w	r8, [r4, #2776]
	str.w	r9, [r4, #2760]
	ldr.w	r8, [r4, #2784]
	ldr.w	r9, [r4, #2788]
	ldr	r3, [sp, #24]
	ldr.w	r0, [r4, #2736]
	ldr.w	r2, [r4, #2768]
	ldr.w	r12, [r4, #2752]
	ldr.w	r1, [r4, #2756]
	str.w	r3, [r4, #2780]
	ldr	r3, [sp, #52]
	orrs.w	r1, r1, r12
	str.w	r3, [r4, #2768]
	ldr	r3, [sp, #36]
	str.w	r10, [r4, #2744]
	str.w	r6, [r4, #2772]
	str.w	r6, [r4, #2764]
	str.w	r6, [r4, #2740]
	str.w	r10, [r4, #2784]
	str.w	r7, [r4, #2788]
	str.w	r10, [r4, #2752]
	str.w	r7, [r4, #2756]
	str.w	r7, [r4, #2748]
	str.w	r3, [r4, #2736]
	beq	.LBB75_56
	mov	r4, r2
	bl	tlsf_memory_dealloc
	ldr	r7, [sp, #64]
	mov	r2, r4
.LBB75_56:
	ldr	r4, [sp, #40]
	mov.w	r11, #0
	orrs.w	r0, r8, r9
	beq.w	.LBB75_21
	mov	r0, r2
	bl	tlsf_memory_dealloc
	ldr	r7, [sp, #64]
	b	.LBB75_21
.LBB75_58:
	add	r0, sp, #944
	mov	r4, lr
	str.w	r12, [sp, #36]
	bl	std_alloc.vec.Vec.grow_amortized.cb831ce0f1fbfa3d
	cmp	r0, #0
	beq.w	.LBB75_130
	ldrd	r7, r3, [sp, #952]
	mov	lr, r4
	ldr.w	r12, [sp, #36]
	ldr	r0, [sp, #944]
	str	r0, [sp, #48]
	b	.LBB75_38
.LBB75_60:
	adds	r0, r6, r1
	adc	r3, r6, #0
	adds	r0, #1
	sbc	r3, r3, #0
	strd	r0, r3, [r2, #16]
	add.w	r0, r2, r1, lsl #3
	str	r4, [r0, #20]
.LBB75_61:
	mov	r3, r4
	ldr.w	r1, [r10, #2752]
	ldr.w	r2, [r10, #2756]
	str.w	r9, [r10, #2776]
	mov	r9, r3
	ldr.w	r0, [r10, #2736]
	orrs	r1, r2
	str.w	r3, [r10, #2772]
	str.w	r3, [r10, #2764]
	str.w	r3, [r10, #2740]
	ldr	r3, [sp, #28]
	str.w	r3, [r10, #2780]
	ldr	r3, [sp, #56]
	ldr.w	r4, [r10, #2768]
	ldr	r7, [sp, #24]
	str.w	r3, [r10, #2768]
	ldr	r3, [sp, #36]
	str.w	r7, [r10, #2760]
	ldr.w	r7, [r10, #2784]
	ldr.w	r6, [r10, #2788]
	str.w	r11, [r10, #2744]
	str.w	r11, [r10, #2784]
	str.w	r8, [r10, #2788]
	str.w	r11, [r10, #2752]
	str.w	r8, [r10, #2756]
	str.w	r8, [r10, #2748]
	str.w	r3, [r10, #2736]
	it	ne
	blne	tlsf_memory_dealloc
	orrs.w	r0, r7, r6
	ldrd	r10, r7, [sp, #12]
	ldr	r6, [sp, #44]
	itt	ne
	movne	r0, r4
	blne	tlsf_memory_dealloc
	ldr	r1, [sp, #60]
	movw	r3, #65513
	ldr	r4, [sp, #48]
	add.w	r5, r5, r11, lsl #3
	ldr	r2, [sp, #64]
	subs.w	r1, r1, r11
	sbc.w	r4, r4, r8
	movt	r3, #127
	adds	r2, #1
	adc	r6, r6, #0
	subs	r0, r2, r7
	sbcs.w	r0, r6, r10
	ldr	r0, [sp, #40]
	str	r0, [sp, #72]
	bhs.w	.LBB75_98
.LBB75_62:
	mvns	r0, r2
	str	r2, [sp, #64]
	ldr	r2, [sp, #20]
	add	r0, r7
	str	r6, [sp, #44]
	str	r4, [sp, #48]
	ldr.w	r11, [r2, r0, lsl #3]
	add.w	r0, r2, r0, lsl #3
	ldr.w	r8, [r0, #4]
	subs.w	r0, r1, r11
	sbcs.w	r0, r4, r8
	it	lo
	movlo	r8, r4
	str	r1, [sp, #60]
	it	lo
	movlo	r11, r1
	orrs.w	r12, r11, r8
	mov.w	r0, #0
	mov.w	r1, #0
	beq	.LBB75_71
.LBB75_63:
	add.w	r2, r5, r0, lsl #3
	ldr	r2, [r2, #4]
	cmp	r2, r3
	bhs.w	.LBB75_131
	adds	r0, #1
	adc	r1, r1, #0
	subs.w	r2, r0, r11
	sbcs.w	r2, r1, r8
	blo	.LBB75_63
	mov.w	r9, #0
	movs	r0, #0
	movs	r1, #0
	movs	r2, #0
	movs	r3, #0
.LBB75_66:
	ldr.w	r7, [r5, r2, lsl #3]
	adds	r0, r0, r7
	adc	r1, r1, #0
	adds	r2, #1
	adc	r3, r3, #0
	subs.w	r7, r2, r11
	sbcs.w	r7, r3, r8
	blo	.LBB75_66
	movs	r2, #0
	movs	r3, #0
	movs	r7, #0
	b	.LBB75_69
.LBB75_68:
	adds	r3, #1
	adc	r7, r7, #0
	subs.w	r6, r3, r11
	sbcs.w	r6, r7, r8
	bhs	.LBB75_72
.LBB75_69:
	ldr.w	r6, [r5, r3, lsl #3]
	cmp	r6, #0
	beq	.LBB75_68
	add.w	r6, r5, r3, lsl #3
	ldr	r6, [r6, #4]
	cmp	r6, r2
	it	hi
	movhi	r2, r6
	b	.LBB75_68
.LBB75_71:
	movs	r2, #0
.LBB75_72:
	adds	r3, r2, #1
	mov.w	r10, #4
	adc	r7, r9, #0
	cmp	r2, #0
	itt	ne
	movne	r3, r2
	movne	r7, r9
	adds.w	r2, r3, #31
	adc	r3, r7, #0
	add	r4, sp, #968
	lsrs	r2, r2, #3
	orr.w	r2, r2, r3, lsl #29
	subs	r3, r2, #1
	orr	r2, r2, #16
	clz	r2, r2
	rsb.w	r2, r2, #27
	lsrs	r3, r2
	adds	r3, #1
	add.w	r2, r3, r2, lsl #4
	lsrs	r7, r2, #4
	itttt	ne
	movne	r2, #8
	lslne	r2, r7
	subne	r7, #1
	andne	r3, r3, #15
	itt	ne
	lslne	r3, r7
	addne	r2, r3
	movs	r7, #0
	umull	r0, r3, r0, r2
	mla	r6, r1, r2, r3
	movs	r1, #4
	cmp	r0, #4
	it	hi
	movhi	r1, r0
	cmp	r6, #0
	ite	ne
	movne	r10, r0
	moveq	r10, r1
	movs	r1, #1
	movt	r1, #16
	subs	r0, r0, r1
	sbcs	r0, r6, #0
	mrs	r0, apsr
	it	lo
	movlo	r7, #1
	cmp	r7, #0
	it	ne
	movne	r7, r10
	msr	APSR_nzcvq, r0
	bhs.w	.LBB75_131
	cmp.w	r10, #1048576
	bhi.w	.LBB75_106
	lsl.w	r1, r10, #3
	mov	r0, r4
	movs	r2, #8
	str.w	r12, [sp, #56]
	bl	tlsf_memory_alloc
	ldr	r0, [sp, #968]
	lsls	r0, r0, #31
	beq.w	.LBB75_108
	add.w	r0, r10, #63
	str	r6, [sp, #40]
	ldr	r6, [sp, #976]
	movs	r2, #8
	lsrs	r0, r0, #6
	str	r0, [sp, #36]
	lsls	r1, r0, #3
	mov	r0, r4
	strd	r9, r9, [r6]
	strd	r9, r9, [r6, #8]
	strd	r9, r9, [r6, #16]
	strd	r9, r9, [r6, #24]
	bl	tlsf_memory_alloc
	ldr	r0, [sp, #968]
	lsls	r0, r0, #31
	beq.w	.LBB75_110
	ldr.w	lr, [sp, #976]
	str	r7, [sp, #32]
	mov	r7, r6
	ldrd	r1, r2, [sp, #960]
	str.w	r9, [lr]
	str.w	r9, [r6, #8]
	mov.w	r6, #-1
	adds.w	r0, r6, #20
	str	r0, [r7]
	ldr.w	r0, [lr]
	ldr.w	r12, [sp, #72]
	orr	r0, r0, #1
	ldr	r3, [sp, #80]
	str.w	r9, [lr, #4]
	eor.w	r1, r1, r12
	str.w	r9, [r7, #12]
	str.w	r0, [lr]
	sbc	r0, r6, #0
	str	r0, [r7, #4]
	eor.w	r0, r2, r3
	orrs	r0, r1
	strd	r6, r6, [r7, #16]
	beq.w	.LBB75_95
.LBB75_77:
	ldr	r0, [sp, #56]
	movw	r2, #2792
	ldr	r1, [sp, #64]
	mov.w	r9, #0
	clz	r0, r0
	str	r3, [sp, #80]
	ldr	r3, [sp, #52]
	mla	r4, r12, r2, r3
	lsrs	r0, r0, #5
	str	r0, [sp, #56]
	ldr	r0, [sp, #76]
	add	r0, r1
	mul	r1, r12, r2
	str.w	r10, [r4, #40]
	mov.w	r10, #4
	movs	r2, #80
	str	r7, [r4, #24]
	mov	r7, r12
	str.w	r9, [r4, #68]
	str.w	r9, [r4, #60]
	str	r0, [r3, r1]
	ldr	r0, [sp, #36]
	str	r0, [r4, #64]
	movs	r0, #1
	ldr	r1, [sp, #40]
	str	r1, [r4, #44]
	movs	r1, #16
	str	r0, [r4, #56]
	str	r0, [r4, #8]
	str	r0, [r4, #80]
	add.w	r0, r4, #88
	str	r1, [r4, #84]
	movs	r1, #0
	str.w	r9, [r4, #36]
	str.w	r10, [r4, #32]
	str.w	r9, [r4, #12]
	str.w	r9, [r4, #76]
	str.w	r10, [r4, #72]
	str.w	r9, [r4, #52]
	str.w	lr, [r4, #48]
	str.w	r9, [r4, #28]
	str.w	r9, [r4, #20]
	str.w	r9, [r4, #16]
	bl	tlsf_memory_set
	add.w	r0, r4, #188
	movs	r1, #255
	mov.w	r2, #2544
	str.w	r6, [r4, #168]
	str.w	r6, [r4, #172]
	str.w	r6, [r4, #176]
	str.w	r6, [r4, #180]
	str.w	r9, [r4, #184]
	bl	tlsf_memory_set
	ldr	r2, [sp, #80]
	adds	r0, r7, #1
	add	r1, sp, #984
	str.w	r9, [r4, #2740]
	adc	r2, r2, #0
	str.w	r1, [r4, #2736]
	str.w	r9, [r4, #2744]
	str.w	r9, [r4, #2748]
	str.w	r9, [r4, #2752]
	str.w	r9, [r4, #2756]
	str.w	r9, [r4, #2772]
	str.w	r1, [r4, #2768]
	str.w	r9, [r4, #2764]
	str.w	r10, [r4, #2760]
	str.w	r9, [r4, #2776]
	str.w	r9, [r4, #2780]
	str.w	r9, [r4, #2784]
	str.w	r9, [r4, #2788]
	str	r2, [sp, #80]
	strd	r0, r2, [sp, #952]
	ldr	r2, [sp, #56]
	str	r0, [sp, #40]
	cmp	r2, #0
	bne	.LBB75_83
	movs	r6, #0
	cmp.w	r6, r8, lsr #28
	bne.w	.LBB75_112
	add	r7, sp, #968
	lsl.w	r0, r8, #3
	orrs.w	r4, r0, r11, lsr #29
	mov.w	r1, #-1
	mov	r0, r7
	mov.w	r2, #4
	it	eq
	lsleq.w	r1, r11, #3
	bl	tlsf_memory_alloc
	ldr	r0, [sp, #968]
	lsls	r0, r0, #31
	beq.w	.LBB75_114
	ldr	r0, [sp, #976]
	lsl.w	r2, r11, #3
	subs	r3, r0, r5
	sbc	r1, r6, #0
	subs	r3, r3, r2
	sbcs	r1, r4
	it	lo
	lsllo.w	r2, r11, #3
	mov	r1, r5
	str	r0, [sp, #36]
	bl	tlsf_memory_cpy
	lsl.w	r0, r8, #2
	mov.w	r1, #-1
	orrs.w	r0, r0, r11, lsr #30
	mov.w	r2, #4
	mov	r0, r7
	it	eq
	lsleq.w	r1, r11, #2
	bl	tlsf_memory_alloc
	ldr	r0, [sp, #968]
	lsls	r0, r0, #31
	beq.w	.LBB75_116
	ldr	r1, [sp, #976]
	subs.w	r7, r11, #1
	sbc	r10, r8, #0
	movs	r4, #0
	orrs.w	r0, r7, r10
	str	r1, [sp, #56]
	beq	.LBB75_84
	mvn	r0, #3
	add.w	r2, r0, r11, lsl #2
	mov	r0, r1
	movs	r1, #0
	bl	tlsf_memory_set
	ldr	r1, [sp, #56]
	b	.LBB75_85
.LBB75_83:
	movs	r0, #0
	mov	r7, r6
	str	r0, [sp, #28]
	movs	r4, #0
	str	r1, [sp, #56]
	movs	r6, #0
	str	r1, [sp, #36]
	b	.LBB75_90
.LBB75_84:
	movs	r7, #0
	mov.w	r10, #0
.LBB75_85:
	str.w	r4, [r1, r7, lsl #2]
	movs	r0, #0
	movs	r1, #0
	b	.LBB75_87
.LBB75_86:
	adds	r0, #1
	adc	r1, r1, #0
	subs.w	r2, r0, r11
	sbcs.w	r2, r1, r8
	bhs	.LBB75_89
.LBB75_87:
	ldr.w	r2, [r5, r0, lsl #3]
	cmp	r2, #0
	beq	.LBB75_86
	add.w	r2, r5, r0, lsl #3
	ldr	r2, [r2, #4]
	cmp	r2, r4
	it	hi
	movhi	r4, r2
	b	.LBB75_86
.LBB75_89:
	adds.w	r9, r7, #1
	mov.w	r7, #-1
	adc	r0, r10, #0
	str	r0, [sp, #28]
.LBB75_90:
	adds	r0, r4, #1
	adc	r1, r6, #0
	cmp	r4, #0
	itt	ne
	movne	r0, r4
	movne	r1, r6
	adds	r0, #31
	adc	r1, r1, #0
	lsrs	r0, r0, #3
	orr.w	r0, r0, r1, lsl #29
	subs	r1, r0, #1
	orr	r0, r0, #16
	clz	r0, r0
	rsb.w	r2, r0, #27
	lsr.w	r0, r1, r2
	adds	r0, #1
	add.w	r2, r0, r2, lsl #4
	lsrs	r1, r2, #4
	beq	.LBB75_92
	movs	r2, #8
	and	r0, r0, #15
	lsls	r2, r1
	subs	r1, #1
	lsls	r0, r1
	add	r0, r2
	str	r0, [sp, #24]
	b	.LBB75_93
.LBB75_92:
	str	r2, [sp, #24]
.LBB75_93:
	ldr	r2, [sp, #72]
	movw	r0, #2792
	ldr	r1, [sp, #52]
	mla	r10, r2, r0, r1
	ldr	r1, [sp, #32]
	ldrd	r4, r6, [r10, #8]
	add.w	r0, r10, #24
	bl	tlsf_words.words.Words.lengthen
	add.w	r0, r10, #80
	movs	r1, #0
	movs	r2, #88
	str.w	r7, [r10, #184]
	bl	tlsf_memory_set
	ldr.w	r0, [r10, #24]
	subs	r2, r4, #1
	ldr.w	r1, [r10, #32]
	mov.w	r4, #0
	str	r2, [r0, #8]
	sbc	r2, r6, #0
	adds.w	r3, r7, r1, lsl #2
	mov.w	r6, #-1
	adc	r7, r6, #0
	adds	r3, #4
	str	r3, [r0]
	sbc	r7, r7, #0
	ldr.w	r3, [r10, #48]
	str	r2, [r0, #12]
	ldr	r2, [r3]
	str	r7, [r0, #4]
	orr	r0, r2, #1
	str	r0, [r3]
	orr	r0, r1, #16
	clz	r0, r0
	rsb.w	r2, r0, #27
	lsr.w	r0, r1, r2
	add.w	r3, r0, r2, lsl #4
	add.w	r2, r10, r3, lsl #2
	ldr.w	r1, [r2, #168]
	str.w	r4, [r2, #168]
	ldr.w	r2, [r10, #24]
	cmp.w	r1, #-1
	bgt.w	.LBB75_60
	strd	r6, r6, [r2, #16]
	lsrs	r1, r3, #4
	movs	r6, #1
	and	r0, r0, #15
	lsl.w	r2, r6, r1
	add.w	r1, r10, r1, lsl #2
	ldr.w	r3, [r10, #80]
	lsl.w	r0, r6, r0
	ldr	r7, [r1, #84]
	orrs	r2, r3
	str.w	r2, [r10, #80]
	orrs	r0, r7
	str	r0, [r1, #84]
	b	.LBB75_61
.LBB75_95:
	add	r0, sp, #944
	mov	r9, lr
	mov	r4, r7
	bl	std_alloc.vec.Vec.grow_amortized.8f83c87fc5454f35
	cmp	r0, #0
	beq.w	.LBB75_129
	ldrd	r12, r3, [sp, #952]
	mov	r7, r4
	ldr	r0, [sp, #944]
	mov	lr, r9
	str	r0, [sp, #52]
	b	.LBB75_77
.LBB75_97:
	add	r0, sp, #984
	str	r0, [sp, #944]
	movs	r0, #0
	strd	r0, r0, [sp, #952]
	strd	r0, r0, [sp, #960]
.LBB75_98:
	add	r0, sp, #744
	add	r1, sp, #944
	adds	r4, r0, #6
	movs	r2, #24
	mov	r0, r4
	bl	tlsf_memory_cpy
	add	r5, sp, #712
	mov	r1, r4
	adds	r0, r5, #4
	movs	r2, #24
	bl	tlsf_memory_cpy
	add.w	r12, sp, #680
	ldm	r5!, {r2, r3, r7}
	mov.w	r8, #0
	b	.LBB75_101
.LBB75_99:
	str	r0, [sp, #944]
	movs	r0, #0
	strd	r0, r0, [sp, #952]
	strd	r0, r0, [sp, #960]
.LBB75_100:
	add	r0, sp, #744
	add	r1, sp, #944
	adds	r4, r0, #6
	movs	r2, #24
	mov	r0, r4
	bl	tlsf_memory_cpy
	add	r5, sp, #712
	mov	r1, r4
	adds	r0, r5, #4
	movs	r2, #24
	bl	tlsf_memory_cpy
	add.w	r12, sp, #648
	ldm	r5!, {r2, r3, r7}
	mov.w	r8, #1
.LBB75_101:
	mov	r1, r12
	stm	r1!, {r2, r3, r7}
	ldm.w	r5, {r2, r3, r6, r7}
	stm	r1!, {r2, r3, r6, r7}
	mov	r3, r12
	add	r1, sp, #624
	ldm.w	r3, {r0, r4, r5, r6, r7}
	mov	r2, r1
	stm	r2!, {r0, r4, r5, r6, r7}
	add	r7, sp, #88
	ldrd	r9, r10, [r12, #20]
	mov	r0, r7
	ldm.w	r1, {r2, r3, r4, r5, r6}
	movw	r1, #2760
	stm	r0!, {r2, r3, r4, r5, r6}
	add	r0, sp, #864
	movs	r2, #8
	bl	tlsf_memory_alloc
	ldr	r0, [sp, #864]
	lsls	r0, r0, #31
	beq	.LBB75_103
	ldr	r4, [sp, #872]
	add	r1, sp, #88
	ldr	r0, [sp, #76]
	movs	r5, #0
	movs	r2, #20
	str	r0, [r4, #16]
	movw	r0, #257
	strh	r0, [r4]
	add.w	r0, r4, #20
	str	r5, [r4, #12]
	str.w	r8, [r4, #8]
	bl	tlsf_memory_cpy
	ldr	r1, [sp, #68]
	mov	r0, r5
	movs	r2, #1
	str.w	r10, [r4, #44]
	str.w	r9, [r4, #40]
	str.w	r5, [r1, #9]
	strb	r2, [r1, #8]
	str	r5, [r1, #4]
	str	r4, [r1]
	str	r5, [r1, #12]
	add.w	sp, sp, #988
	pop.w	{r4, r5, r6, r7, r8, r9, r10, r11, pc}
.LBB75_103:
	ldr	r1, [sp, #84]
	adds	r0, r7, #4
	cmp	r1, #4
	bne	.LBB75_105
	ldm.w	r0, {r1, r2, r3}
	add.w	r12, sp, #124
	ldr	r0, [r0, #12]
	stm.w	r12, {r0, r9, r10}
	add	r0, sp, #112
	stm	r0!, {r1, r2, r3}
	add	r0, sp, #112
	bl	std_alloc.vec.Vec.drop.01e19ae241269710
	movs	r0, #6
	add.w	sp, sp, #988
	pop.w	{r4, r5, r6, r7, r8, r9, r10, r11, pc}
.LBB75_105:
	ldm.w	r0, {r1, r2, r3}
	add.w	r12, sp, #788
	ldr	r0, [r0, #12]
	stm.w	r12, {r0, r9, r10}
	add	r0, sp, #776
	stm	r0!, {r1, r2, r3}
	add	r0, sp, #776
	bl	std_alloc.vec.Vec.drop.1d6c342d5cae5f6b
	movs	r0, #6
	add.w	sp, sp, #988
	pop.w	{r4, r5, r6, r7, r8, r9, r10, r11, pc}
.LBB75_106:
	movs	r4, #0
	ldr	r7, [sp, #80]
	b	.LBB75_118
.LBB75_107:
	movs	r4, #0
	ldr	r7, [sp, #80]
	b	.LBB75_124
.LBB75_108:
	movs	r4, #2
	ldr	r7, [sp, #80]
	b	.LBB75_118
.LBB75_109:
	movs	r4, #2
	ldr	r7, [sp, #80]
	b	.LBB75_124
.LBB75_110:
	ldr	r7, [sp, #80]
	b	.LBB75_117
.LBB75_111:
	movs	r4, #2
	str.w	r11, [sp, #72]
	b	.LBB75_124
.LBB75_112:
	movs	r4, #2
	b	.LBB75_115
.LBB75_113:
	movs	r4, #2
	str.w	r11, [sp, #72]
	ldr	r7, [sp, #80]
	b	.LBB75_124
.LBB75_114:
	movs	r4, #2
	ldr	r0, [sp, #40]
.LBB75_115:
	str	r0, [sp, #72]
	ldr	r7, [sp, #80]
	b	.LBB75_118
.LBB75_116:
	ldr	r0, [sp, #40]
	str	r0, [sp, #72]
	ldr	r7, [sp, #80]
	ldr	r6, [sp, #36]
.LBB75_117:
	mov	r0, r6
	bl	tlsf_memory_dealloc
	movs	r4, #2
.LBB75_118:
	ldr	r0, [sp, #944]
	str	r0, [sp, #60]
	ldr	r0, [sp, #960]
	str	r0, [sp, #56]
	ldr	r0, [sp, #964]
	str	r0, [sp, #52]
	ldr	r0, [sp, #72]
	orrs	r0, r7
	beq.w	.LBB75_127
	movs	r5, #0
	mov.w	r10, #0
	str	r7, [sp, #80]
.LBB75_120:
	ldr	r0, [sp, #60]
	movw	r1, #2792
	mla	r0, r5, r1, r0
	ldr	r1, [r0, #40]
	ldr	r2, [r0, #44]
	ldr.w	r3, [r0, #2788]
	orrs	r1, r2
	str	r3, [sp, #84]
	ldr.w	r1, [r0, #2768]
	ldr.w	r3, [r0, #2784]
	str	r1, [sp, #68]
	ldr.w	r1, [r0, #2736]
	ldr	r6, [r0, #48]
	ldr.w	r8, [r0, #64]
	str	r3, [sp, #76]
	ldr.w	r11, [r0, #2756]
	ldr.w	r9, [r0, #2752]
	ldr	r7, [r0, #68]
	str	r1, [sp, #64]
	itt	ne
	ldrne	r0, [r0, #24]
	blne	tlsf_memory_dealloc
	orrs.w	r0, r8, r7
	itt	ne
	movne	r0, r6
	blne	tlsf_memory_dealloc
	orrs.w	r0, r9, r11
	ldr	r7, [sp, #80]
	itt	ne
	ldrne	r0, [sp, #64]
	blne	tlsf_memory_dealloc
	ldr	r0, [sp, #84]
	ldr	r1, [sp, #76]
	orrs	r0, r1
	itt	ne
	ldrne	r0, [sp, #68]
	blne	tlsf_memory_dealloc
	adds	r5, #1
	ldr	r0, [sp, #72]
	adc	r10, r10, #0
	subs	r0, r5, r0
	sbcs.w	r0, r10, r7
	blo	.LBB75_120
	b	.LBB75_127
.LBB75_121:
	ldr	r0, [sp, #32]
	str	r0, [sp, #72]
.LBB75_122:
	ldr	r7, [sp, #80]
.LBB75_123:
	mov	r0, r11
	bl	tlsf_memory_dealloc
	movs	r4, #2
.LBB75_124:
	ldr	r0, [sp, #944]
	str	r0, [sp, #60]
	ldr	r0, [sp, #960]
	str	r0, [sp, #56]
	ldr	r0, [sp, #964]
	str	r0, [sp, #52]
	ldr	r0, [sp, #72]
	orrs	r0, r7
	beq	.LBB75_127
	movs	r5, #0
	mov.w	r10, #0
	str	r7, [sp, #80]
.LBB75_126:
	ldr	r0, [sp, #60]
	movw	r1, #2792
	mla	r0, r5, r1, r0
	ldr	r1, [r0, #40]
	ldr	r2, [r0, #44]
	ldr.w	r3, [r0, #2788]
	orrs	r1, r2
	str	r3, [sp, #84]
	ldr.w	r1, [r0, #2768]
	ldr.w	r3, [r0, #2784]
	str	r1, [sp, #68]
	ldr.w	r1, [r0, #2736]
	ldr	r6, [r0, #48]
	ldr.w	r8, [r0, #64]
	str	r3, [sp, #76]
	ldr.w	r11, [r0, #2756]
	ldr.w	r9, [r0, #2752]
	ldr	r7, [r0, #68]
	str	r1, [sp, #64]
	itt	ne
	ldrne	r0, [r0, #24]
	blne	tlsf_memory_dealloc
	orrs.w	r0, r8, r7
	itt	ne
	movne	r0, r6
	blne	tlsf_memory_dealloc
	orrs.w	r0, r9, r11
	ldr	r7, [sp, #80]
	itt	ne
	ldrne	r0, [sp, #64]
	blne	tlsf_memory_dealloc
	ldr	r0, [sp, #84]
	ldr	r1, [sp, #76]
	orrs	r0, r1
	itt	ne
	ldrne	r0, [sp, #68]
	blne	tlsf_memory_dealloc
	adds	r5, #1
	ldr	r0, [sp, #72]
	adc	r10, r10, #0
	subs	r0, r5, r0
	sbcs.w	r0, r10, r7
	blo	.LBB75_126
.LBB75_127:
	ldrd	r1, r0, [sp, #52]
	orrs	r0, r1
	itt	ne
	ldrne	r0, [sp, #60]
	blne	tlsf_memory_dealloc
.LBB75_128:
	movs	r0, #6
	cmp	r4, #0
	it	eq
	moveq	r0, #5
	add.w	sp, sp, #988
	pop.w	{r4, r5, r6, r7, r8, r9, r10, r11, pc}
.LBB75_129:
	mov	r0, r4
	bl	tlsf_memory_dealloc
	ldr	r7, [sp, #956]
	mov	r6, r9
	ldr	r0, [sp, #952]
	str	r0, [sp, #72]
	b	.LBB75_117
.LBB75_130:
	ldr	r0, [sp, #36]
	bl	tlsf_memory_dealloc
	ldr	r7, [sp, #956]
	mov	r11, r4
	ldr	r0, [sp, #952]
	str	r0, [sp, #72]
	b	.LBB75_123
.LBB75_131:
	.inst.n	0xdefe
.Lfunc_end75:
	.size	tlsf_pools_open, .Lfunc_end75-tlsf_pools_open
	.cfi_endproc
	.section	.text.tlsf_pools_part,"ax",%progbits
	.globl	tlsf_pools_part
	.p2align	1
	.type	tlsf_pools_part,%function
	.code	16
	.thumb_func
tlsf_pools_part:
	.cfi_startproc
	push	{r4, r5, r6, r7, lr}
	.cfi_def_cfa_offset 20
	.cfi_offset lr, -4
	.cfi_offset r7, -8
	.cfi_offset r6, -12
	.cfi_offset r5, -16
	.cfi_offset r4, -20
	sub	sp, #4
	.cfi_def_cfa_offset 24
	ldrb	r5, [r0, #8]
	ldr	r7, [r2]
	cmp	r5, #0
	ittt	ne
	ldrne	r0, [r0]
	ldrbne	r5, [r0, #1]
	cmpne	r5, #0
	beq	.LBB76_5
	ldrb	r5, [r0]
	cmp	r5, #1
	bne	.LBB76_6
	ldrd	r5, r4, [r0, #32]
	movs	r6, #0
	strb	r6, [r0, #1]
	subs	r5, r1, r5
	sbcs	r6, r4
	bhs	.LBB76_4
	movw	r7, #2792
	ldr	r5, [r0, #24]
	mul	r6, r1, r7
	mla	r1, r1, r7, r5
	ldr	r6, [r5, r6]
	ldr	r7, [r1, #24]
	movs	r1, #1
	strb	r1, [r0, #1]
	movs	r0, #0
	str	r6, [r3]
	str	r7, [r2]
	add	sp, #4
	pop	{r4, r5, r6, r7, pc}
.LBB76_4:
	movs	r1, #1
	strb	r1, [r0, #1]
	movs	r0, #4
	str	r7, [r2]
	add	sp, #4
	pop	{r4, r5, r6, r7, pc}
.LBB76_5:
	movs	r0, #0
	b	.LBB76_7
.LBB76_6:
	movs	r0, #2
.LBB76_7:
	mov	r5, r2
	bl	tlsf_c.call_fault.CallFault.refusal
	mov	r2, r5
	str	r7, [r2]
	add	sp, #4
	pop	{r4, r5, r6, r7, pc}
.Lfunc_end76:
	.size	tlsf_pools_part, .Lfunc_end76-tlsf_pools_part
	.cfi_endproc
	.section	.text.tlsf_pools_place,"ax",%progbits
	.globl	tlsf_pools_place
	.p2align	1
	.type	tlsf_pools_place,%function
	.code	16
	.thumb_func
tlsf_pools_place:
	.cfi_startproc
	push	{r4, r5, r6, r7, lr}
	.cfi_def_cfa_offset 20
	.cfi_offset lr, -4
	.cfi_offset r7, -8
	.cfi_offset r6, -12
	.cfi_offset r5, -16
	.cfi_offset r4, -20
	ldrb	r4, [r0, #8]
	cmp	r4, #0
	ittt	ne
	ldrne	r5, [r0]
	ldrbne	r4, [r5, #1]
	cmpne	r4, #0
	bne	.LBB77_2
	movs	r0, #0
	pop.w	{r4, r5, r6, r7, lr}
	b	tlsf_c.call_fault.CallFault.refusal
.LBB77_2:
	ldrb	r4, [r5]
	cmp	r4, #1
	bne	.LBB77_9
	ldrd	r4, r0, [r5, #32]
	mov.w	lr, #0
	ldr.w	r12, [sp, #20]
	subs	r4, r1, r4
	strb.w	lr, [r5, #1]
	sbcs.w	r0, lr, r0
	bhs	.LBB77_8
	movw	lr, #2792
	ldr	r0, [r5, #24]
	mul	r4, r1, lr
	ldrb	r6, [r5, #8]
	mla	r1, r1, lr, r0
	cmp	r6, #0
	ldr.w	lr, [r0, r4]
	ldr	r4, [r1, #32]
	cmp	r2, r4
	bhs	.LBB77_8
	mvn	r4, #7
	ldr	r0, [r1, #48]
	and.w	r4, r4, r2, lsr #3
	ldr	r6, [r0, r4]
	add	r0, r4
	and	r4, r2, #63
	ldr	r0, [r0, #4]
	rsb.w	r7, r4, #32
	lsrs	r6, r4
	subs	r4, #32
	lsl.w	r7, r0, r7
	orr.w	r6, r6, r7
	it	pl
	lsrpl.w	r6, r0, r4
	lsls	r0, r6, #31
	beq	.LBB77_8
	ldr	r1, [r1, #24]
	ldrb.w	r0, [r1, r2, lsl #3]
	lsls	r0, r0, #31
	bne	.LBB77_8
	add.w	r1, r1, r2, lsl #3
	movs	r0, #1
	ldrd	r4, r6, [r1, #8]
	ldr	r1, [r1, #16]
	strb	r0, [r5, #1]
	movs	r0, #0
	str	r6, [r3, #12]
	str	r4, [r3, #8]
	str	r2, [r3, #4]
	str.w	lr, [r3]
	str.w	r1, [r12]
	pop	{r4, r5, r6, r7, pc}
.LBB77_8:
	movs	r0, #1
	strb	r0, [r5, #1]
	movs	r0, #4
	pop	{r4, r5, r6, r7, pc}
.LBB77_9:
	movs	r0, #2
	pop.w	{r4, r5, r6, r7, lr}
	b	tlsf_c.call_fault.CallFault.refusal
.Lfunc_end77:
	.size	tlsf_pools_place, .Lfunc_end77-tlsf_pools_place
	.cfi_endproc
	.section	.text.tlsf_pools_read,"ax",%progbits
	.globl	tlsf_pools_read
	.p2align	1
	.type	tlsf_pools_read,%function
	.code	16
	.thumb_func
tlsf_pools_read:
	.cfi_startproc
	push.w	{r4, r5, r6, r7, r8, r9, r10, r11, lr}
	.cfi_def_cfa_offset 36
	.cfi_offset lr, -4
	.cfi_offset r11, -8
	.cfi_offset r10, -12
	.cfi_offset r9, -16
	.cfi_offset r8, -20
	.cfi_offset r7, -24
	.cfi_offset r6, -28
	.cfi_offset r5, -32
	.cfi_offset r4, -36
	sub	sp, #12
	.cfi_def_cfa_offset 48
	mov	r12, r3
	ldr	r3, [sp, #60]
	ldrb	r1, [r0, #8]
	cmp	r3, #0
	it	eq
	addeq.w	r3, r3, #4096
	cmp	r1, #0
	ittt	ne
	ldrne	r4, [r0]
	ldrbne	r0, [r4, #1]
	cmpne	r0, #0
	beq.w	.LBB78_22
	ldrb	r0, [r4]
	cmp	r0, #1
	bne.w	.LBB78_24
	mov	lr, r2
	ldrd	r10, r11, [sp, #48]
	ldr.w	r8, [sp, #64]
	movs	r6, #0
	ldr	r2, [sp, #56]
	ldr	r1, [r4, #16]
	ldr	r0, [r4, #24]
	ldrb	r5, [r4, #8]
	strb	r6, [r4, #1]
	cmp	r5, #0
	beq	.LBB78_12
	cmp	lr, r1
	blo.w	.LBB78_21
	ldrd	r6, r7, [r4, #32]
	sub.w	r5, lr, r1
	movs	r1, #0
	subs	r6, r5, r6
	sbcs	r1, r7
	bhs.w	.LBB78_21
	movw	r9, #2792
	mul	r1, r5, r9
	ldr	r1, [r0, r1]
	cmp	r1, lr
	bne.w	.LBB78_23
	mla	r0, r5, r9, r0
	ldr	r1, [r0, #32]
	cmp	r12, r1
	mov	r1, lr
	bhs.w	.LBB78_23
	mvn	r5, #7
	ldr	r1, [r0, #48]
	and.w	r5, r5, r12, lsr #3
	ldr	r6, [r1, r5]
	add	r1, r5
	and	r5, r12, #63
	ldr	r1, [r1, #4]
	rsb.w	r7, r5, #32
	lsrs	r6, r5
	subs	r5, #32
	lsl.w	r7, r1, r7
	orr.w	r6, r6, r7
	it	pl
	lsrpl.w	r6, r1, r5
	lsls	r1, r6, #31
	mov	r1, lr
	beq.w	.LBB78_23
	adds	r0, #24
	ldr	r5, [r0]
	ldrb.w	r1, [r5, r12, lsl #3]
	lsls	r1, r1, #31
	mov	r1, lr
	bne	.LBB78_23
	add.w	r5, r5, r12, lsl #3
	ldrd	r1, r6, [r5, #8]
	eor.w	r6, r6, r11
	eor.w	r1, r1, r10
	orrs	r1, r6
	mov	r1, lr
	bne	.LBB78_23
	ldr	r7, [r5, #16]
	adds.w	r6, r8, r2
	mov.w	r1, #0
	adc	r5, r1, #0
	subs	r7, r7, r6
	sbcs.w	r7, r1, r5
	blo	.LBB78_20
	strd	r8, r1, [sp]
	mov	r1, r12
	bl	tlsf_heap.region.Region.read.5
	b	.LBB78_26
.LBB78_12:
	cmp	lr, r1
	blo	.LBB78_21
	ldrd	r6, r7, [r4, #32]
	sub.w	r5, lr, r1
	movs	r1, #0
	subs	r6, r5, r6
	sbcs	r1, r7
	bhs	.LBB78_21
	movw	r9, #2792
	mul	r1, r5, r9
	ldr	r1, [r0, r1]
	cmp	r1, lr
	bne	.LBB78_23
	mla	r0, r5, r9, r0
	ldr	r1, [r0, #32]
	cmp	r12, r1
	mov	r1, lr
	bhs	.LBB78_23
	mvn	r5, #7
	ldr	r1, [r0, #48]
	and.w	r5, r5, r12, lsr #3
	ldr	r6, [r1, r5]
	add	r1, r5
	and	r5, r12, #63
	ldr	r1, [r1, #4]
	rsb.w	r7, r5, #32
	lsrs	r6, r5
	subs	r5, #32
	lsl.w	r7, r1, r7
	orr.w	r6, r6, r7
	it	pl
	lsrpl.w	r6, r1, r5
	lsls	r1, r6, #31
	mov	r1, lr
	beq	.LBB78_23
	adds	r0, #24
	ldr	r5, [r0]
	ldrb.w	r1, [r5, r12, lsl #3]
	lsls	r1, r1, #31
	mov	r1, lr
	bne	.LBB78_23
	add.w	r5, r5, r12, lsl #3
	ldrd	r1, r6, [r5, #8]
	eor.w	r6, r6, r11
	eor.w	r1, r1, r10
	orrs	r1, r6
	mov	r1, lr
	bne	.LBB78_23
	ldr	r7, [r5, #16]
	adds.w	r6, r8, r2
	mov.w	r1, #0
	adc	r5, r1, #0
	subs	r7, r7, r6
	sbcs.w	r7, r1, r5
	bhs	.LBB78_25
.LBB78_20:
	movs	r0, #1
	strb	r0, [r4, #1]
	movs	r0, #7
	add	sp, #12
	pop.w	{r4, r5, r6, r7, r8, r9, r10, r11, pc}
.LBB78_21:
	movs	r0, #1
	strb	r0, [r4, #1]
	movs	r0, #3
	add	sp, #12
	pop.w	{r4, r5, r6, r7, r8, r9, r10, r11, pc}
.LBB78_22:
	movs	r0, #0
	add	sp, #12
	pop.w	{r4, r5, r6, r7, r8, r9, r10, r11, lr}
	b	tlsf_c.call_fault.CallFault.refusal
.LBB78_23:
	mov	r0, lr
	bl	tlsf_heap.refusal.Refusal.of_name
	movs	r1, #1
	strb	r1, [r4, #1]
	uxtb	r1, r0
	movs	r0, #3
	cmp	r1, #3
	it	eq
	moveq	r0, #4
	add	sp, #12
	pop.w	{r4, r5, r6, r7, r8, r9, r10, r11, pc}
.LBB78_24:
	movs	r0, #2
	add	sp, #12
	pop.w	{r4, r5, r6, r7, r8, r9, r10, r11, lr}
	b	tlsf_c.call_fault.CallFault.refusal
.LBB78_25:
	strd	r8, r1, [sp]
	mov	r1, r12
	bl	tlsf_heap.region.Region.read.4
.LBB78_26:
	movs	r0, #1
	strb	r0, [r4, #1]
	movs	r0, #0
	add	sp, #12
	pop.w	{r4, r5, r6, r7, r8, r9, r10, r11, pc}
.Lfunc_end78:
	.size	tlsf_pools_read, .Lfunc_end78-tlsf_pools_read
	.cfi_endproc
	.section	.text.tlsf_pools_release,"ax",%progbits
	.globl	tlsf_pools_release
	.p2align	1
	.type	tlsf_pools_release,%function
	.code	16
	.thumb_func
tlsf_pools_release:
	.cfi_startproc
	push.w	{r4, r5, r6, r7, r8, r9, r10, r11, lr}
	.cfi_def_cfa_offset 36
	.cfi_offset lr, -4
	.cfi_offset r11, -8
	.cfi_offset r10, -12
	.cfi_offset r9, -16
	.cfi_offset r8, -20
	.cfi_offset r7, -24
	.cfi_offset r6, -28
	.cfi_offset r5, -32
	.cfi_offset r4, -36
	sub	sp, #36
	.cfi_def_cfa_offset 72
	ldrb	r1, [r0, #8]
	cmp	r1, #0
	ittt	ne
	ldrne	r4, [r0]
	ldrbne	r0, [r4, #1]
	cmpne	r0, #0
	beq.w	.LBB79_24
	ldrb	r0, [r4]
	cmp	r0, #1
	bne.w	.LBB79_27
	ldrd	lr, r9, [sp, #72]
	movs	r6, #0
	ldr	r1, [r4, #16]
	ldr	r0, [r4, #24]
	ldrb	r7, [r4, #8]
	strb	r6, [r4, #1]
	cmp	r7, #0
	beq	.LBB79_13
	cmp	r2, r1
	blo.w	.LBB79_23
	ldrd	r6, r5, [r4, #32]
	subs	r7, r2, r1
	movs	r1, #0
	subs	r6, r7, r6
	sbcs	r1, r5
	bhs.w	.LBB79_23
	movw	r12, #2792
	mul	r1, r7, r12
	ldr	r1, [r0, r1]
	cmp	r1, r2
	bne.w	.LBB79_26
	mla	r10, r7, r12, r0
	mov	r1, r2
	ldr.w	r0, [r10, #32]
	cmp	r3, r0
	bhs.w	.LBB79_26
	mvn	r1, #7
	ldr.w	r0, [r10, #48]
	and.w	r1, r1, r3, lsr #3
	ldr	r7, [r0, r1]
	add	r0, r1
	and	r1, r3, #63
	ldr	r0, [r0, #4]
	rsb.w	r6, r1, #32
	lsrs	r7, r1
	subs	r1, #32
	lsl.w	r6, r0, r6
	orr.w	r7, r7, r6
	it	pl
	lsrpl.w	r7, r0, r1
	mov	r1, r2
	lsls	r0, r7, #31
	beq.w	.LBB79_26
	add.w	r0, r10, #24
	ldr	r7, [r0]
	ldr.w	r12, [r7, r3, lsl #3]
	lsls.w	r1, r12, #31
	mov	r1, r2
	bne.w	.LBB79_26
	add.w	r8, r7, r3, lsl #3
	ldrd	r1, r5, [r8, #8]
	eor.w	r5, r5, r9
	eor.w	r1, r1, lr
	orrs	r1, r5
	mov	r1, r2
	bne.w	.LBB79_26
	ldrd	r1, r11, [r10, #8]
	and.w	r2, r1, r11
	adds	r2, #1
	beq.w	.LBB79_25
	ldr.w	r2, [r10, #16]
	lsr.w	r0, r12, #2
	ldr.w	r9, [r8, #4]
	ldr.w	r6, [r8, #16]
	sub.w	r2, r2, r12, lsr #2
	str.w	r2, [r10, #16]
	lsls.w	r2, r12, #30
	bmi.w	.LBB79_28
	adds	r5, r0, r3
	ldr.w	r2, [r7, r5, lsl #3]
	add.w	r5, r7, r5, lsl #3
	ldr	r5, [r5, #4]
	b	.LBB79_29
.LBB79_13:
	cmp	r2, r1
	blo	.LBB79_23
	ldrd	r6, r5, [r4, #32]
	subs	r7, r2, r1
	movs	r1, #0
	subs	r6, r7, r6
	sbcs	r1, r5
	bhs	.LBB79_23
	movw	r12, #2792
	mul	r1, r7, r12
	ldr	r1, [r0, r1]
	cmp	r1, r2
	bne	.LBB79_26
	mla	r10, r7, r12, r0
	mov	r1, r2
	ldr.w	r0, [r10, #32]
	cmp	r3, r0
	bhs	.LBB79_26
	mvn	r1, #7
	ldr.w	r0, [r10, #48]
	and.w	r1, r1, r3, lsr #3
	ldr	r7, [r0, r1]
	add	r0, r1
	and	r1, r3, #63
	ldr	r0, [r0, #4]
	rsb.w	r6, r1, #32
	lsrs	r7, r1
	subs	r1, #32
	lsl.w	r6, r0, r6
	orr.w	r7, r7, r6
	it	pl
	lsrpl.w	r7, r0, r1
	mov	r1, r2
	lsls	r0, r7, #31
	beq	.LBB79_26
	add.w	r0, r10, #24
	ldr	r7, [r0]
	ldr.w	r12, [r7, r3, lsl #3]
	lsls.w	r1, r12, #31
	mov	r1, r2
	bne	.LBB79_26
	add.w	r8, r7, r3, lsl #3
	ldrd	r1, r5, [r8, #8]
	eor.w	r5, r5, r9
	eor.w	r1, r1, lr
	orrs	r1, r5
	mov	r1, r2
	bne	.LBB79_26
	ldrd	r1, r11, [r10, #8]
	and.w	r2, r1, r11
	adds	r2, #1
	beq	.LBB79_25
	ldr.w	r2, [r10, #16]
	lsr.w	r0, r12, #2
	ldr.w	r9, [r8, #4]
	ldr.w	r6, [r8, #16]
	sub.w	r2, r2, r12, lsr #2
	str.w	r2, [r10, #16]
	lsls.w	r2, r12, #30
	bmi.w	.LBB79_34
	adds	r5, r0, r3
	ldr.w	r2, [r7, r5, lsl #3]
	add.w	r5, r7, r5, lsl #3
	ldr	r5, [r5, #4]
	b	.LBB79_35
.LBB79_23:
	movs	r0, #1
	strb	r0, [r4, #1]
	movs	r0, #3
	add	sp, #36
	pop.w	{r4, r5, r6, r7, r8, r9, r10, r11, pc}
.LBB79_24:
	movs	r0, #0
	add	sp, #36
	pop.w	{r4, r5, r6, r7, r8, r9, r10, r11, lr}
	b	tlsf_c.call_fault.CallFault.refusal
.LBB79_25:
	movs	r0, #1
	strb	r0, [r4, #1]
	movs	r0, #2
	add	sp, #36
	pop.w	{r4, r5, r6, r7, r8, r9, r10, r11, pc}
.LBB79_26:
	mov	r0, r2
	bl	tlsf_heap.refusal.Refusal.of_name
	movs	r1, #1
	strb	r1, [r4, #1]
	uxtb	r1, r0
	movs	r0, #3
	cmp	r1, #3
	it	eq
	moveq	r0, #4
	add	sp, #36
	pop.w	{r4, r5, r6, r7, r8, r9, r10, r11, pc}
.LBB79_27:
	movs	r0, #2
	add	sp, #36
	pop.w	{r4, r5, r6, r7, r8, r9, r10, r11, lr}
	b	tlsf_c.call_fault.CallFault.refusal
.LBB79_28:
	movs	r2, #0
	movs	r5, #0
.LBB79_29:
	str	r5, [sp, #32]
	cmp	r3, #0
	itt	ne
	ldrne.w	lr, [r7, r9, lsl #3]
	lslsne.w	r5, lr, #31
	bne.w	.LBB79_39
	lsls	r7, r2, #31
	bne	.LBB79_33
	str.w	r1, [r8, #8]
	orr	r1, r12, #1
	str.w	r1, [r8]
	lsl.w	lr, r3, #3
	str.w	r11, [r8, #12]
	ldr.w	r1, [r10, #8]
	str.w	r9, [r8, #4]
	ldr.w	r2, [r10, #12]
	adds	r1, #1
	adc	r2, r2, #0
	strd	r1, r2, [r10, #8]
	orr	r1, r0, #32
	clz	r1, r1
	rsb.w	r2, r1, #26
	lsr.w	r1, r0, r2
	add.w	r2, r1, r2, lsl #5
	add.w	r0, r10, r2, lsl #2
	ldr.w	r5, [r0, #168]
	str.w	r3, [r0, #168]
	ldr.w	r7, [r10, #24]
	cmp.w	r5, #-1
	ble.w	.LBB79_41
	mov.w	r1, #-1
	adds	r0, r1, r5
	adc	r1, r1, #0
	adds	r0, #1
	sbc	r1, r1, #0
	add.w	r2, r7, lr
	strd	r0, r1, [r2, #16]
	add.w	r0, r7, r5, lsl #3
	str	r3, [r0, #20]
	b	.LBB79_42
.LBB79_33:
	adds	r0, r1, #1
	adc	r7, r11, #0
	strd	r0, r7, [r10, #8]
	add.w	r0, r10, #24
	strd	r12, r9, [sp]
	strd	r1, r11, [sp, #8]
	str	r3, [sp, #16]
	ldr	r3, [sp, #32]
	bl	tlsf_heap.fitting.merge_next.5
	b	.LBB79_42
.LBB79_34:
	movs	r2, #0
	movs	r5, #0
.LBB79_35:
	str	r5, [sp, #32]
	cmp	r3, #0
	itt	ne
	ldrne.w	lr, [r7, r9, lsl #3]
	lslsne.w	r5, lr, #31
	bne.w	.LBB79_46
	lsls	r7, r2, #31
	bne	.LBB79_40
	str.w	r1, [r8, #8]
	orr	r1, r12, #1
	str.w	r1, [r8]
	lsl.w	lr, r3, #3
	str.w	r11, [r8, #12]
	ldr.w	r1, [r10, #8]
	str.w	r9, [r8, #4]
	ldr.w	r2, [r10, #12]
	adds	r1, #1
	adc	r2, r2, #0
	strd	r1, r2, [r10, #8]
	orr	r1, r0, #16
	clz	r1, r1
	rsb.w	r2, r1, #27
	lsr.w	r1, r0, r2
	add.w	r2, r1, r2, lsl #4
	add.w	r0, r10, r2, lsl #2
	ldr.w	r5, [r0, #168]
	str.w	r3, [r0, #168]
	ldr.w	r7, [r10, #24]
	cmp.w	r5, #-1
	ble	.LBB79_47
	mov.w	r1, #-1
	adds	r0, r1, r5
	adc	r1, r1, #0
	adds	r0, #1
	sbc	r1, r1, #0
	add.w	r2, r7, lr
	strd	r0, r1, [r2, #16]
	add.w	r0, r7, r5, lsl #3
	str	r3, [r0, #20]
	b	.LBB79_48
.LBB79_39:
	add.w	r0, r7, r9, lsl #3
	adds	r5, r1, #1
	adc	r7, r11, #0
	ldr	r0, [r0, #4]
	strd	r5, r7, [r10, #8]
	strd	r12, r9, [sp, #24]
	strd	lr, r0, [sp]
	add.w	r0, r10, #24
	strd	r1, r11, [sp, #8]
	str	r3, [sp, #16]
	ldr	r3, [sp, #32]
	bl	tlsf_heap.fitting.merge_before.5
	b	.LBB79_42
.LBB79_40:
	adds	r0, r1, #1
	adc	r7, r11, #0
	strd	r0, r7, [r10, #8]
	add.w	r0, r10, #24
	strd	r12, r9, [sp]
	strd	r1, r11, [sp, #8]
	str	r3, [sp, #16]
	ldr	r3, [sp, #32]
	bl	tlsf_heap.fitting.merge_next.4
	b	.LBB79_48
.LBB79_41:
	add.w	r0, r7, lr
	mov.w	r3, #-1
	and	r1, r1, #31
	strd	r3, r3, [r0, #16]
	lsrs	r0, r2, #5
	movs	r2, #1
	ldr.w	r7, [r10, #80]
	lsl.w	r3, r2, r0
	add.w	r0, r10, r0, lsl #2
	lsl.w	r1, r2, r1
	orrs	r3, r7
	ldr	r5, [r0, #84]
	str.w	r3, [r10, #80]
	orrs	r1, r5
	str	r1, [r0, #84]
.LBB79_42:
	ldr.w	r2, [r10, #2744]
	ldr.w	r3, [r10, #2748]
	orrs.w	r0, r2, r3
	beq	.LBB79_53
	ldr.w	r1, [r10, #2736]
	ldr.w	r0, [r10, #2768]
	adds	r7, r1, #4
	movs	r1, #0
.LBB79_44:
	ldr.w	r5, [r7, r1, lsl #3]
	cmp	r5, r6
	bhs	.LBB79_52
	subs	r2, #1
	add.w	r1, r1, #1
	sbc	r3, r3, #0
	orrs.w	r5, r2, r3
	bne	.LBB79_44
	b	.LBB79_53
.LBB79_46:
	add.w	r0, r7, r9, lsl #3
	adds	r5, r1, #1
	adc	r7, r11, #0
	ldr	r0, [r0, #4]
	strd	r5, r7, [r10, #8]
	strd	r12, r9, [sp, #24]
	strd	lr, r0, [sp]
	add.w	r0, r10, #24
	strd	r1, r11, [sp, #8]
	str	r3, [sp, #16]
	ldr	r3, [sp, #32]
	bl	tlsf_heap.fitting.merge_before.4
	b	.LBB79_48
.LBB79_47:
	add.w	r0, r7, lr
	mov.w	r3, #-1
	and	r1, r1, #15
	strd	r3, r3, [r0, #16]
	lsrs	r0, r2, #4
	movs	r2, #1
	ldr.w	r7, [r10, #80]
	lsl.w	r3, r2, r0
	add.w	r0, r10, r0, lsl #2
	lsl.w	r1, r2, r1
	orrs	r3, r7
	ldr	r5, [r0, #84]
	str.w	r3, [r10, #80]
	orrs	r1, r5
	str	r1, [r0, #84]
.LBB79_48:
	ldr.w	r2, [r10, #2744]
	ldr.w	r3, [r10, #2748]
	orrs.w	r0, r2, r3
	beq	.LBB79_53
	ldr.w	r1, [r10, #2736]
	ldr.w	r0, [r10, #2768]
	adds	r7, r1, #4
	movs	r1, #0
.LBB79_50:
	ldr.w	r5, [r7, r1, lsl #3]
	cmp	r5, r6
	bhs	.LBB79_52
	subs	r2, #1
	add.w	r1, r1, #1
	sbc	r3, r3, #0
	orrs.w	r5, r2, r3
	bne	.LBB79_50
	b	.LBB79_53
.LBB79_52:
	ldr.w	r2, [r0, r1, lsl #2]
	subs	r2, #1
	str.w	r2, [r0, r1, lsl #2]
.LBB79_53:
	movs	r0, #1
	strb	r0, [r4, #1]
	movs	r0, #0
	add	sp, #36
	pop.w	{r4, r5, r6, r7, r8, r9, r10, r11, pc}
.Lfunc_end79:
	.size	tlsf_pools_release, .Lfunc_end79-tlsf_pools_release
	.cfi_endproc
	.section	.text.tlsf_pools_report,"ax",%progbits
	.globl	tlsf_pools_report
	.p2align	1
	.type	tlsf_pools_report,%function
	.code	16
	.thumb_func
tlsf_pools_report:
	.cfi_startproc
	push.w	{r4, r5, r6, r7, r8, r9, r10, r11, lr}
	.cfi_def_cfa_offset 36
	.cfi_offset lr, -4
	.cfi_offset r11, -8
	.cfi_offset r10, -12
	.cfi_offset r9, -16
	.cfi_offset r8, -20
	.cfi_offset r7, -24
	.cfi_offset r6, -28
	.cfi_offset r5, -32
	.cfi_offset r4, -36
	sub	sp, #28
	.cfi_def_cfa_offset 64
	ldrb	r3, [r0, #8]
	cmp	r3, #0
	itttt	ne
	ldrne	r0, [r0]
	strne	r0, [sp, #12]
	ldrbne	r0, [r0, #1]
	cmpne	r0, #0
	beq.w	.LBB80_22
	ldr	r0, [sp, #12]
	ldrb	r0, [r0]
	cmp	r0, #1
	bne.w	.LBB80_29
	ldr	r5, [sp, #12]
	movs	r7, #0
	ldrd	r3, r0, [r5, #32]
	ldrb	r6, [r5, #8]
	strb	r7, [r5, #1]
	cmp	r6, #0
	beq	.LBB80_12
	subs	r3, r1, r3
	sbcs.w	r0, r7, r0
	bhs.w	.LBB80_21
	ldr	r3, [sp, #12]
	movw	r0, #2792
	ldr	r3, [r3, #24]
	mla	r1, r1, r0, r3
	ldrd	r4, r12, [r1, #8]
	ldr	r0, [r1, #32]
	cmp	r0, #0
	beq.w	.LBB80_23
	ldr	r1, [r1, #24]
	mov.w	r8, #0
	movs	r3, #0
	mov	r9, r4
	mov	r11, r12
	mov.w	r10, #0
	mov.w	lr, #0
	str	r4, [sp, #4]
	str	r7, [sp, #24]
	strd	r7, r7, [sp, #16]
	b	.LBB80_7
.LBB80_6:
	ldr	r7, [r6, #16]
	add	r10, r4
	ldr	r5, [sp, #16]
	add.w	lr, lr, #1
	add	r5, r7
	str	r5, [sp, #16]
	add	r3, r4
	cmp	r3, r0
	bhs	.LBB80_9
.LBB80_7:
	ldr.w	r5, [r1, r3, lsl #3]
	add.w	r6, r1, r3, lsl #3
	lsrs	r4, r5, #2
	lsls	r5, r5, #31
	beq	.LBB80_6
	ldrd	r6, r5, [r6, #8]
	cmp	r4, r8
	it	hi
	movhi	r8, r4
	subs.w	r7, r6, r9
	sbcs.w	r7, r5, r11
	itt	lo
	movlo	r11, r5
	movlo	r9, r6
	ldr	r7, [sp, #20]
	add	r7, r4
	str	r7, [sp, #20]
	ldr	r5, [sp, #24]
	adds	r5, #1
	str	r5, [sp, #24]
	add	r3, r4
	cmp	r3, r0
	blo	.LBB80_7
.LBB80_9:
	cmp.w	r8, #0
	beq.w	.LBB80_24
	orr	r0, r8, #32
	ldr	r5, [sp, #20]
	clz	r0, r0
	rsb.w	r0, r0, #26
	lsr.w	r1, r8, r0
	add.w	r0, r1, r0, lsl #5
	lsrs	r3, r0, #5
	itttt	ne
	movne	r0, #16
	lslne	r0, r3
	subne	r3, #1
	andne	r1, r1, #31
	itt	ne
	lslne	r1, r3
	addne	r0, r1
	mvn	r1, #23
	add.w	r0, r1, r0, lsl #3
	str	r0, [sp, #8]
	cmp	r5, #0
	beq.w	.LBB80_25
.LBB80_11:
	mov.w	r0, #1000
	mov	r4, r2
	umull	r0, r1, r8, r0
	mov	r2, r5
	movs	r3, #0
	mov	r6, lr
	mov	r5, r12
	bl	__aeabi_uldivmod
	rsb.w	r1, r0, #1000
	mov	r12, r5
	mov	lr, r6
	mov	r2, r4
	b	.LBB80_26
.LBB80_12:
	subs	r3, r1, r3
	sbcs.w	r0, r7, r0
	bhs	.LBB80_21
	ldr	r3, [sp, #12]
	movw	r0, #2792
	ldr	r3, [r3, #24]
	mla	r1, r1, r0, r3
	ldrd	r6, r7, [r1, #8]
	ldr	r0, [r1, #32]
	cmp	r0, #0
	beq.w	.LBB80_28
	ldr	r1, [r1, #24]
	mov.w	r8, #0
	str	r6, [sp, #4]
	movs	r3, #0
	mov	r11, r6
	str	r7, [sp, #8]
	mov	r9, r7
	movs	r7, #0
	movs	r5, #0
	mov.w	r10, #0
	mov.w	lr, #0
	str	r7, [sp, #24]
	str	r7, [sp, #16]
	b	.LBB80_16
.LBB80_15:
	ldr	r6, [r4, #16]
	add.w	lr, lr, #1
	ldr	r4, [sp, #16]
	add	r10, r6
	add	r4, r7
	str	r4, [sp, #16]
	add	r3, r7
	cmp	r3, r0
	bhs	.LBB80_18
.LBB80_16:
	ldr.w	r6, [r1, r3, lsl #3]
	add.w	r4, r1, r3, lsl #3
	lsrs	r7, r6, #2
	lsls	r6, r6, #31
	beq	.LBB80_15
	ldrd	r6, r4, [r4, #8]
	cmp	r7, r8
	it	hi
	movhi	r8, r7
	mov	r12, r5
	subs.w	r5, r6, r11
	sbcs.w	r5, r4, r9
	itt	lo
	movlo	r9, r4
	movlo	r11, r6
	ldr	r4, [sp, #24]
	add.w	r5, r7, r12
	adds	r4, #1
	str	r4, [sp, #24]
	add	r3, r7
	cmp	r3, r0
	blo	.LBB80_16
.LBB80_18:
	cmp.w	r8, #0
	beq	.LBB80_30
	orr	r0, r8, #16
	clz	r0, r0
	rsb.w	r0, r0, #27
	lsr.w	r1, r8, r0
	add.w	r0, r1, r0, lsl #4
	lsrs	r3, r0, #4
	itttt	ne
	movne	r0, #8
	lslne	r0, r3
	subne	r3, #1
	andne	r1, r1, #15
	itt	ne
	lslne	r1, r3
	addne	r0, r1
	mvn	r1, #23
	add.w	r12, r1, r0, lsl #3
	cmp	r5, #0
	beq	.LBB80_31
.LBB80_20:
	mov.w	r0, #1000
	mov	r4, r2
	umull	r0, r1, r8, r0
	mov	r2, r5
	movs	r3, #0
	str	r5, [sp, #20]
	mov	r6, lr
	mov	r5, r12
	bl	__aeabi_uldivmod
	rsb.w	r1, r0, #1000
	mov	r12, r5
	mov	lr, r6
	mov	r2, r4
	b	.LBB80_32
.LBB80_21:
	ldr	r1, [sp, #12]
	movs	r0, #1
	strb	r0, [r1, #1]
	movs	r0, #4
	add	sp, #28
	pop.w	{r4, r5, r6, r7, r8, r9, r10, r11, pc}
.LBB80_22:
	movs	r0, #0
	add	sp, #28
	pop.w	{r4, r5, r6, r7, r8, r9, r10, r11, lr}
	b	tlsf_c.call_fault.CallFault.refusal
.LBB80_23:
	movs	r0, #0
	mov.w	lr, #0
	str	r0, [sp, #8]
	mov.w	r10, #0
	movs	r5, #0
	strd	r0, r0, [sp, #20]
	mov.w	r8, #0
	mov	r9, r4
	mov	r11, r12
	movs	r1, #0
	b	.LBB80_27
.LBB80_24:
	movs	r0, #0
	str	r0, [sp, #8]
	ldr	r5, [sp, #20]
	cmp	r5, #0
	bne.w	.LBB80_11
.LBB80_25:
	movs	r0, #0
	movs	r1, #0
	str	r0, [sp, #20]
.LBB80_26:
	ldr	r5, [sp, #16]
	ldr	r4, [sp, #4]
.LBB80_27:
	subs.w	r0, r4, r9
	rsb	r3, r5, r10, lsl #3
	sbc.w	r7, r12, r11
	ldr.w	r12, [sp, #8]
	b	.LBB80_34
.LBB80_28:
	movs	r0, #0
	mov.w	r12, #0
	mov.w	lr, #0
	movs	r4, #0
	mov.w	r10, #0
	strd	r0, r0, [sp, #20]
	mov.w	r8, #0
	mov	r11, r6
	mov	r9, r7
	movs	r1, #0
	b	.LBB80_33
.LBB80_29:
	movs	r0, #2
	add	sp, #28
	pop.w	{r4, r5, r6, r7, r8, r9, r10, r11, lr}
	b	tlsf_c.call_fault.CallFault.refusal
.LBB80_30:
	mov.w	r12, #0
	cmp	r5, #0
	bne	.LBB80_20
.LBB80_31:
	movs	r0, #0
	movs	r1, #0
	str	r0, [sp, #20]
.LBB80_32:
	ldr	r4, [sp, #16]
	ldrd	r6, r7, [sp, #4]
.LBB80_33:
	subs.w	r0, r6, r11
	rsb	r3, r10, r4, lsl #3
	mov	r5, r10
	sbc.w	r7, r7, r9
	mov	r10, r4
.LBB80_34:
	ldr	r4, [sp, #12]
	movs	r6, #1
	strb	r6, [r4, #1]
	str	r1, [r2, #28]
	ldr	r1, [sp, #20]
	str	r0, [r2, #40]
	movs	r0, #0
	str	r1, [r2, #16]
	ldr	r1, [sp, #24]
	str	r7, [r2, #44]
	str	r0, [r2, #36]
	str	r3, [r2, #32]
	str.w	r12, [r2, #24]
	str.w	r8, [r2, #20]
	str	r1, [r2, #12]
	str	r5, [r2, #8]
	str.w	r10, [r2, #4]
	str.w	lr, [r2]
	add	sp, #28
	pop.w	{r4, r5, r6, r7, r8, r9, r10, r11, pc}
.Lfunc_end80:
	.size	tlsf_pools_report, .Lfunc_end80-tlsf_pools_report
	.cfi_endproc
	.section	.text.tlsf_pools_row,"ax",%progbits
	.globl	tlsf_pools_row
	.p2align	1
	.type	tlsf_pools_row,%function
	.code	16
	.thumb_func
tlsf_pools_row:
	.cfi_startproc
	push.w	{r4, r5, r6, r7, r8, r9, r10, r11, lr}
	.cfi_def_cfa_offset 36
	.cfi_offset lr, -4
	.cfi_offset r11, -8
	.cfi_offset r10, -12
	.cfi_offset r9, -16
	.cfi_offset r8, -20
	.cfi_offset r7, -24
	.cfi_offset r6, -28
	.cfi_offset r5, -32
	.cfi_offset r4, -36
	sub	sp, #4
	.cfi_def_cfa_offset 40
	ldrb	r3, [r0, #8]
	cmp	r3, #0
	ittt	ne
	ldrne.w	r10, [r0]
	ldrbne.w	r0, [r10, #1]
	cmpne	r0, #0
	beq.w	.LBB81_25
	ldrb.w	r0, [r10]
	cmp	r0, #1
	bne.w	.LBB81_26
	ldrd	r9, r12, [r10, #32]
	ldr.w	lr, [r10, #24]
	ldrb.w	r0, [r10, #8]
	str	r2, [sp]
	movs	r2, #0
	strb.w	r2, [r10, #1]
	cbz	r0, .LBB81_10
	orrs.w	r0, r9, r12
	beq	.LBB81_23
	movs	r3, #0
	mov.w	r11, #0
	b	.LBB81_6
.LBB81_5:
	adds	r3, #1
	adc	r11, r11, #0
	subs.w	r0, r3, r9
	sbcs.w	r0, r11, r12
	bhs	.LBB81_23
.LBB81_6:
	movw	r0, #2792
	mla	r0, r3, r0, lr
	ldr.w	r7, [r0, #2744]
	ldr.w	r8, [r0, #2748]
	orrs.w	r4, r7, r8
	beq	.LBB81_5
	ldr.w	r4, [r0, #2736]
	movs	r0, #4
	mov	r5, r7
	mov	r6, r8
.LBB81_8:
	ldr	r2, [r4, r0]
	cmp	r2, r1
	bhs	.LBB81_17
	subs	r5, #1
	add.w	r0, r0, #8
	sbc	r6, r6, #0
	orrs.w	r2, r5, r6
	bne	.LBB81_8
	b	.LBB81_5
.LBB81_10:
	orrs.w	r0, r9, r12
	beq	.LBB81_23
	movs	r3, #0
	mov.w	r11, #0
	b	.LBB81_13
.LBB81_12:
	adds	r3, #1
	adc	r11, r11, #0
	subs.w	r0, r3, r9
	sbcs.w	r0, r11, r12
	bhs	.LBB81_23
.LBB81_13:
	movw	r0, #2792
	mla	r0, r3, r0, lr
	ldr.w	r7, [r0, #2744]
	ldr.w	r8, [r0, #2748]
	orrs.w	r2, r7, r8
	beq	.LBB81_12
	ldr.w	r4, [r0, #2736]
	movs	r0, #4
	mov	r5, r7
	mov	r6, r8
.LBB81_15:
	ldr	r2, [r4, r0]
	cmp	r2, r1
	bhs	.LBB81_20
	subs	r5, #1
	add.w	r0, r0, #8
	sbc	r6, r6, #0
	orrs.w	r2, r5, r6
	bne	.LBB81_15
	b	.LBB81_12
.LBB81_17:
	movs	r3, #0
.LBB81_18:
	add.w	r0, r4, r3, lsl #3
	ldr	r0, [r0, #4]
	cmp	r0, r1
	bhs	.LBB81_24
	subs	r7, #1
	add.w	r3, r3, #1
	sbc	r8, r8, #0
	orrs.w	r0, r7, r8
	bne	.LBB81_18
	b	.LBB81_23
.LBB81_20:
	movs	r3, #0
.LBB81_21:
	add.w	r0, r4, r3, lsl #3
	ldr	r0, [r0, #4]
	cmp	r0, r1
	bhs	.LBB81_24
	subs	r7, #1
	add.w	r3, r3, #1
	sbc	r8, r8, #0
	orrs.w	r0, r7, r8
	bne	.LBB81_21
.LBB81_23:
	movs	r0, #1
	strb.w	r0, [r10, #1]
	movs	r0, #5
	add	sp, #4
	pop.w	{r4, r5, r6, r7, r8, r9, r10, r11, pc}
.LBB81_24:
	add.w	r0, r4, r3, lsl #3
	movs	r1, #1
	ldr	r0, [r0, #4]
	strb.w	r1, [r10, #1]
	ldr	r1, [sp]
	str	r0, [r1]
	movs	r0, #0
	add	sp, #4
	pop.w	{r4, r5, r6, r7, r8, r9, r10, r11, pc}
.LBB81_25:
	movs	r0, #0
	add	sp, #4
	pop.w	{r4, r5, r6, r7, r8, r9, r10, r11, lr}
	b	tlsf_c.call_fault.CallFault.refusal
.LBB81_26:
	movs	r0, #2
	add	sp, #4
	pop.w	{r4, r5, r6, r7, r8, r9, r10, r11, lr}
	b	tlsf_c.call_fault.CallFault.refusal
.Lfunc_end81:
	.size	tlsf_pools_row, .Lfunc_end81-tlsf_pools_row
	.cfi_endproc
	.section	.text.tlsf_pools_words,"ax",%progbits
	.globl	tlsf_pools_words
	.p2align	1
	.type	tlsf_pools_words,%function
	.code	16
	.thumb_func
tlsf_pools_words:
	.cfi_startproc
	push.w	{r4, r5, r6, r7, r8, r9, lr}
	.cfi_def_cfa_offset 28
	.cfi_offset lr, -4
	.cfi_offset r9, -8
	.cfi_offset r8, -12
	.cfi_offset r7, -16
	.cfi_offset r6, -20
	.cfi_offset r5, -24
	.cfi_offset r4, -28
	sub.w	sp, sp, #604
	.cfi_def_cfa_offset 632
	cmp	r1, #0
	sub.w	r7, r0, #6
	it	eq
	addeq.w	r1, r1, #4096
	cmn.w	r7, #2
	bhs	.LBB82_2
	movs	r0, #34
	add.w	sp, sp, #604
	pop.w	{r4, r5, r6, r7, r8, r9, pc}
.LBB82_2:
	cmp	r2, #64
	bhi	.LBB82_10
	mov	r9, r0
	mov	r7, r1
	mov	r5, r2
	mov	r0, sp
	movs	r1, #0
	movs	r2, #88
	mov	r8, r3
	bl	tlsf_memory_set
	add	r4, sp, #88
	movs	r1, #0
	mov.w	r2, #512
	mov	r0, r4
	bl	tlsf_memory_set
	mov	r2, r5
	cbz	r5, .LBB82_6
	mov	r0, r7
	movs	r1, #0
	movs	r3, #0
.LBB82_5:
	add.w	r5, r0, r1, lsl #4
	lsls	r7, r1, #4
	ldr	r7, [r0, r7]
	ldr	r6, [r5, #8]
	ldr	r5, [r5, #12]
	str.w	r7, [r4, r1, lsl #3]
	add.w	r7, r4, r1, lsl #3
	cmp	r5, #0
	it	ne
	movne.w	r6, #-1
	adds	r1, #1
	str	r6, [r7, #4]
	adc	r3, r3, #0
	subs	r7, r1, r2
	sbcs	r7, r3, #0
	blo	.LBB82_5
.LBB82_6:
	add	r1, sp, #88
	mov	r0, sp
	movs	r3, #0
	cmp.w	r9, #4
	bne	.LBB82_9
	bl	tlsf_pool.sizes.split.rising_split.4
	ldrb.w	r0, [sp]
	cbz	r0, .LBB82_10
.LBB82_8:
	ldr	r0, [sp, #632]
	ldrd	r2, r1, [sp, #80]
	ldr	r3, [sp, #8]
	strd	r2, r1, [r8]
	str	r3, [r0]
	movs	r0, #0
	add.w	sp, sp, #604
	pop.w	{r4, r5, r6, r7, r8, r9, pc}
.LBB82_9:
	bl	tlsf_pool.sizes.split.rising_split.5
	ldrb.w	r0, [sp]
	cmp	r0, #0
	bne	.LBB82_8
.LBB82_10:
	movs	r0, #5
	add.w	sp, sp, #604
	pop.w	{r4, r5, r6, r7, r8, r9, pc}
.Lfunc_end82:
	.size	tlsf_pools_words, .Lfunc_end82-tlsf_pools_words
	.cfi_endproc
	.section	.text.tlsf_post_close,"ax",%progbits
	.globl	tlsf_post_close
	.p2align	1
	.type	tlsf_post_close,%function
	.code	16
	.thumb_func
tlsf_post_close:
	.cfi_startproc
	ldrb	r1, [r0, #8]
	cbz	r1, .LBB83_4
	ldr	r1, [r0]
	ldrb	r2, [r1, #1]
	cmp	r2, #1
	bne	.LBB83_4
	ldrb	r2, [r1]
	cmp	r2, #0
	itt	ne
	movne	r0, #40
	bxne	lr
.LBB83_3:
	push	{r4, r5, r6, r7, lr}
	.cfi_def_cfa_offset 20
	.cfi_offset lr, -4
	.cfi_offset r7, -8
	.cfi_offset r6, -12
	.cfi_offset r5, -16
	.cfi_offset r4, -20
	sub	sp, #100
	.cfi_def_cfa_offset 120
	movs	r6, #0
	movs	r2, #40
	strb	r6, [r1, #1]
	ldr	r4, [r0]
	str	r6, [r0, #4]
	str	r6, [r0, #8]
	str	r6, [r0, #12]
	mov	r1, r4
	str	r6, [r0]
	add.w	r0, sp, #2
	adds	r5, r0, #6
	ldrh	r7, [r1], #8
	mov	r0, r5
	bl	tlsf_memory_cpy
	mov	r0, r4
	bl	tlsf_memory_dealloc
	add	r4, sp, #48
	mov	r1, r5
	add.w	r0, r4, #8
	movs	r2, #40
	strd	r6, r6, [sp, #48]
	strh.w	r7, [sp, #48]
	bl	tlsf_memory_cpy
	mov	r0, r4
	bl	tlsf_c.tlsf_c.any_end.AnyEnd.Destruct.drop
	mov	r0, r6
	add	sp, #100
	pop	{r4, r5, r6, r7, pc}
.LBB83_4:
	movs	r0, #32
	bx	lr
.Lfunc_end83:
	.size	tlsf_post_close, .Lfunc_end83-tlsf_post_close
	.cfi_endproc
	.section	.text.tlsf_poster_close,"ax",%progbits
	.globl	tlsf_poster_close
	.p2align	1
	.type	tlsf_poster_close,%function
	.code	16
	.thumb_func
tlsf_poster_close:
	.cfi_startproc
	ldrb	r1, [r0, #8]
	cbz	r1, .LBB84_4
	ldr	r1, [r0]
	ldrb	r2, [r1, #1]
	cmp	r2, #1
	bne	.LBB84_4
	ldrb	r2, [r1]
	cmp	r2, #3
	itt	ne
	movne	r0, #40
	bxne	lr
.LBB84_3:
	push	{r4, r5, r6, r7, lr}
	.cfi_def_cfa_offset 20
	.cfi_offset lr, -4
	.cfi_offset r7, -8
	.cfi_offset r6, -12
	.cfi_offset r5, -16
	.cfi_offset r4, -20
	sub	sp, #100
	.cfi_def_cfa_offset 120
	movs	r6, #0
	movs	r2, #40
	strb	r6, [r1, #1]
	ldr	r4, [r0]
	str	r6, [r0, #4]
	str	r6, [r0, #8]
	str	r6, [r0, #12]
	mov	r1, r4
	str	r6, [r0]
	add.w	r0, sp, #2
	adds	r5, r0, #6
	ldrh	r7, [r1], #8
	mov	r0, r5
	bl	tlsf_memory_cpy
	mov	r0, r4
	bl	tlsf_memory_dealloc
	add	r4, sp, #48
	mov	r1, r5
	add.w	r0, r4, #8
	movs	r2, #40
	strd	r6, r6, [sp, #48]
	strh.w	r7, [sp, #48]
	bl	tlsf_memory_cpy
	mov	r0, r4
	bl	tlsf_c.tlsf_c.any_end.AnyEnd.Destruct.drop
	mov	r0, r6
	add	sp, #100
	pop	{r4, r5, r6, r7, pc}
.LBB84_4:
	movs	r0, #32
	bx	lr
.Lfunc_end84:
	.size	tlsf_poster_close, .Lfunc_end84-tlsf_poster_close
	.cfi_endproc
	.section	.text.tlsf_poster_open,"ax",%progbits
	.globl	tlsf_poster_open
	.p2align	1
	.type	tlsf_poster_open,%function
	.code	16
	.thumb_func
tlsf_poster_open:
	.cfi_startproc
	push	{r4, r5, r7, lr}
	.cfi_def_cfa_offset 16
	.cfi_offset lr, -4
	.cfi_offset r7, -8
	.cfi_offset r5, -12
	.cfi_offset r4, -16
	ldrb	r2, [r0, #8]
	cmp	r2, #0
	ittt	ne
	ldrne	r2, [r0]
	ldrbne	r0, [r2, #1]
	cmpne	r0, #0
	bne	.LBB85_2
	movs	r0, #0
	pop.w	{r4, r5, r7, lr}
	b	tlsf_c.call_fault.CallFault.refusal
.LBB85_2:
	ldrb	r3, [r2]
	ldrb	r0, [r1, #8]
	cmp	r0, #1
	bne	.LBB85_4
	movs	r0, #40
	cmp	r3, #2
	it	eq
	moveq	r0, #33
	pop	{r4, r5, r7, pc}
.LBB85_4:
	cmp	r3, #2
	bne	.LBB85_8
	ldrd	lr, r12, [r2, #32]
	movs	r0, #0
	strb	r0, [r2, #1]
	orrs.w	r3, lr, r12
	beq	.LBB85_7
	subs.w	r3, lr, #1
	ldr	r5, [r2, #24]
	sbc	r4, r12, #0
	strd	r3, r4, [r2, #32]
	ldr.w	r3, [r5, r3, lsl #3]
	movs	r5, #1
	strb	r5, [r2, #1]
	str.w	r0, [r1, #9]
	strb	r5, [r1, #8]
	str	r0, [r1, #4]
	str	r3, [r1]
	str	r0, [r1, #12]
	pop	{r4, r5, r7, pc}
.LBB85_7:
	movs	r0, #1
	strb	r0, [r2, #1]
	movs	r0, #35
	pop	{r4, r5, r7, pc}
.LBB85_8:
	movs	r0, #2
	pop.w	{r4, r5, r7, lr}
	b	tlsf_c.call_fault.CallFault.refusal
.Lfunc_end85:
	.size	tlsf_poster_open, .Lfunc_end85-tlsf_poster_open
	.cfi_endproc
	.section	.text.tlsf_put,"ax",%progbits
	.globl	tlsf_put
	.p2align	1
	.type	tlsf_put,%function
	.code	16
	.thumb_func
tlsf_put:
	.cfi_startproc
	ldrb	r1, [r0, #8]
	cmp	r1, #0
	ittt	ne
	ldrne	r0, [r0]
	ldrbne	r1, [r0, #1]
	cmpne	r1, #0
	bne	.LBB86_2
	movs	r0, #0
	b	tlsf_c.call_fault.CallFault.refusal
.LBB86_2:
	ldrb	r1, [r0]
	cmp	r1, #0
	bne.w	.LBB86_13
	push.w	{r4, r5, r6, r7, r8, r9, r10, lr}
	.cfi_def_cfa_offset 32
	.cfi_offset lr, -4
	.cfi_offset r10, -8
	.cfi_offset r9, -12
	.cfi_offset r8, -16
	.cfi_offset r7, -20
	.cfi_offset r6, -24
	.cfi_offset r5, -28
	.cfi_offset r4, -32
	ldrd	lr, r12, [sp, #32]
	movs	r4, #0
	ldrd	r5, r9, [r0, #24]
	ldrd	r7, r6, [r0, #32]
	ldrd	r1, r10, [r0, #40]
	strb	r4, [r0, #1]
	subs	r4, r1, r7
	sbcs.w	r4, r10, r6
	bhs	.LBB86_5
	lsl.w	r4, r9, #1
	rsbs	r7, r7, r5, lsl #1
	orr.w	r4, r4, r5, lsr #31
	sbcs	r4, r6
	adds	r7, r7, r1
	adc.w	r6, r4, r10
	eor.w	r4, r5, r7
	eor.w	r6, r6, r9
	orrs	r4, r6
	beq	.LBB86_6
	b	.LBB86_8
.LBB86_5:
	subs	r7, r1, r7
	sbc.w	r6, r10, r6
	eor.w	r4, r5, r7
	eor.w	r6, r6, r9
	orrs	r4, r6
	bne	.LBB86_8
.LBB86_6:
	ldr	r1, [r0, #8]
	ldrexd	r6, r7, [r1]
	clrex
	dmb	ish
	strd	r6, r7, [r0, #32]
	ldrd	r1, r10, [r0, #40]
	ldrd	r5, r9, [r0, #24]
	subs	r4, r1, r6
	sbcs.w	r4, r10, r7
	bhs	.LBB86_11
	lsl.w	r4, r9, #1
	rsbs	r6, r6, r5, lsl #1
	orr.w	r4, r4, r5, lsr #31
	sbcs	r4, r7
	adds.w	r8, r6, r1
	adc.w	r6, r4, r10
	eor.w	r4, r5, r8
	eor.w	r6, r6, r9
	orrs	r4, r6
	beq	.LBB86_12
.LBB86_8:
	subs	r6, r1, r5
	ldr	r4, [r0, #16]
	sbcs.w	r7, r10, r9
	it	lo
	movlo	r6, r1
	add.w	r6, r6, r6, lsl #1
	movs	r7, #0
	str.w	r7, [r4, r6, lsl #3]
	add.w	r4, r4, r6, lsl #3
	str	r3, [r4, #12]
	mov.w	r3, #-1
	str	r2, [r4, #8]
	lsl.w	r2, r9, #1
	orr.w	r2, r2, r5, lsr #31
	adds.w	r3, r3, r5, lsl #1
	sbc	r2, r2, #0
	subs	r3, r1, r3
	str.w	r12, [r4, #20]
	sbcs.w	r2, r10, r2
	str.w	lr, [r4, #16]
	str	r7, [r4, #4]
	it	lo
	movlo	r7, #1
	ldr	r3, [r0, #8]
	adds	r1, #1
	adc	r2, r10, #0
	cmp	r7, #0
	add.w	r3, r3, #128
	itt	eq
	moveq	r2, r7
	moveq	r1, r7
	dmb	ish
.LBB86_9:
	ldrexd	r7, r6, [r3]
	strexd	r7, r1, r2, [r3]
	cmp	r7, #0
	bne	.LBB86_9
	dmb	ish
	strd	r1, r2, [r0, #40]
	movs	r1, #1
	strb	r1, [r0, #1]
	movs	r0, #0
	pop.w	{r4, r5, r6, r7, r8, r9, r10, pc}
.LBB86_11:
	subs.w	r8, r1, r6
	sbc.w	r6, r10, r7
	eor.w	r4, r5, r8
	eor.w	r6, r6, r9
	orrs	r4, r6
	bne	.LBB86_8
.LBB86_12:
	movs	r1, #1
	strb	r1, [r0, #1]
	movs	r0, #8
	pop.w	{r4, r5, r6, r7, r8, r9, r10, pc}
.LBB86_13:
	movs	r0, #2
	b	tlsf_c.call_fault.CallFault.refusal
.Lfunc_end86:
	.size	tlsf_put, .Lfunc_end86-tlsf_put
	.cfi_endproc
	.section	.text.tlsf_put_all,"ax",%progbits
	.globl	tlsf_put_all
	.p2align	1
	.type	tlsf_put_all,%function
	.code	16
	.thumb_func
tlsf_put_all:
	.cfi_startproc
	push.w	{r4, r5, r6, r7, r8, r9, r10, r11, lr}
	.cfi_def_cfa_offset 36
	.cfi_offset lr, -4
	.cfi_offset r11, -8
	.cfi_offset r10, -12
	.cfi_offset r9, -16
	.cfi_offset r8, -20
	.cfi_offset r7, -24
	.cfi_offset r6, -28
	.cfi_offset r5, -32
	.cfi_offset r4, -36
	sub.w	sp, sp, #828
	.cfi_def_cfa_offset 864
	mov	r4, r2
	ldr	r5, [r3]
	ldrb	r2, [r0, #8]
	cmp	r1, #0
	it	eq
	addeq.w	r1, r1, #4096
	str	r1, [sp, #16]
	cmp	r2, #0
	ittt	ne
	ldrne	r6, [r0]
	ldrbne	r0, [r6, #1]
	cmpne	r0, #0
	beq.w	.LBB87_27
	ldrb	r0, [r6]
	cmp	r0, #0
	bne.w	.LBB87_28
	mov.w	r10, #0
	cmp	r4, #0
	strb.w	r10, [r6, #1]
	beq.w	.LBB87_25
	add.w	r11, sp, #56
	movs	r5, #0
	movs	r7, #0
	str	r3, [sp, #4]
	str	r4, [sp, #12]
	str	r6, [sp, #36]
.LBB87_4:
	mov	r0, r11
	movs	r1, #0
	mov.w	r2, #768
	movs	r6, #0
	bl	tlsf_memory_set
	subs.w	r9, r4, r5
	str	r7, [sp, #40]
	sbc.w	r0, r6, r7
	str	r6, [sp, #48]
	cmp.w	r9, #32
	mov.w	r1, #32
	it	hs
	movhs	r9, r1
	cmp	r0, #0
	it	ne
	movne	r9, r1
	ldr	r0, [sp, #16]
	movs	r1, #0
	movs	r2, #0
	add.w	r0, r0, r5, lsl #4
	str	r5, [sp, #44]
	str.w	r9, [sp, #52]
.LBB87_5:
	lsls	r3, r1, #4
	add.w	r5, r0, r1, lsl #4
	add.w	r4, r1, r1, lsl #1
	ldr	r3, [r0, r3]
	adds	r1, #1
	str.w	r10, [r11, r4, lsl #3]
	add.w	r4, r11, r4, lsl #3
	adc	r2, r2, #0
	ldr	r7, [r5, #8]
	ldr	r6, [r5, #4]
	ldr	r5, [r5, #12]
	strd	r10, r3, [r4, #4]
	subs.w	r3, r1, r9
	sbcs	r3, r2, #0
	strd	r6, r7, [r4, #12]
	str	r5, [r4, #20]
	blo	.LBB87_5
	ldr	r6, [sp, #36]
	add.w	r8, r6, #32
	ldrd	lr, r5, [r6, #24]
	ldr	r4, [r6, #44]
	ldm.w	r8, {r0, r1, r8}
	subs.w	r2, r8, r0
	sbcs.w	r2, r4, r1
	bhs	.LBB87_8
	lsls	r2, r5, #1
	rsbs	r0, r0, lr, lsl #1
	orr.w	r2, r2, lr, lsr #31
	sbc.w	r1, r2, r1
	adds.w	r0, r0, r8
	adcs	r1, r4
	b	.LBB87_9
.LBB87_8:
	subs.w	r0, r8, r0
	sbc.w	r1, r4, r1
.LBB87_9:
	subs.w	r0, lr, r0
	sbc.w	r1, r5, r1
	subs.w	r0, r0, r9
	sbcs	r0, r1, #0
	bhs	.LBB87_14
	ldr	r0, [r6, #8]
	ldrexd	r1, r0, [r0]
	clrex
	dmb	ish
	strd	r1, r0, [r6, #32]
	ldrd	r8, r4, [r6, #40]
	ldrd	lr, r5, [r6, #24]
	subs.w	r2, r8, r1
	sbcs.w	r2, r4, r0
	bhs	.LBB87_12
	lsls	r2, r5, #1
	rsbs	r1, r1, lr, lsl #1
	orr.w	r2, r2, lr, lsr #31
	sbc.w	r0, r2, r0
	adds.w	r1, r1, r8
	adcs	r0, r4
	b	.LBB87_13
.LBB87_12:
	subs.w	r1, r8, r1
	sbc.w	r0, r4, r0
.LBB87_13:
	subs.w	r2, lr, r1
	sbc.w	r0, r5, r0
	subs.w	r1, r2, r9
	sbcs	r1, r0, #0
	it	hs
	movhs	r2, r9
	mov.w	r1, #0
	str	r2, [sp, #52]
	it	lo
	movlo	r1, #1
	cmp	r1, #0
	it	ne
	movne	r1, r0
	str	r1, [sp, #48]
.LBB87_14:
	ldrd	r1, r0, [sp, #48]
	orrs	r0, r1
	beq	.LBB87_22
	subs.w	r0, r8, lr
	mov	r1, r5
	sbcs.w	r0, r4, r5
	mov	r0, lr
	itt	lo
	movlo	r1, #0
	movlo	r0, #0
	subs.w	r2, r8, r0
	ldr	r7, [sp, #52]
	sbc.w	r1, r4, r1
	subs.w	r12, lr, r2
	str	r0, [sp, #8]
	sbc.w	r0, r5, r1
	subs.w	r3, r12, r7
	ldr	r3, [sp, #48]
	eor.w	r1, r1, r5
	str	r0, [sp, #20]
	eor.w	r2, r2, lr
	sbcs.w	r3, r0, r3
	str.w	r12, [sp, #24]
	it	lo
	movlo	r7, r12
	str	r5, [sp, #28]
	ldr	r5, [r6, #8]
	add.w	r12, r7, r7, lsl #1
	ldr	r3, [r6, #16]
	orrs	r1, r2
	str.w	lr, [sp, #32]
	beq	.LBB87_17
	ldr	r0, [sp, #8]
	add.w	r1, r8, r8, lsl #1
	lsl.w	r2, r12, #3
	str	r3, [sp, #8]
	mov	r6, r12
	sub.w	r0, r0, r0, lsl #2
	add.w	r0, r3, r0, lsl #3
	add.w	r0, r0, r1, lsl #3
	mov	r1, r11
	bl	tlsf_memory_cpy
	mov	r12, r6
	ldr	r3, [sp, #8]
	ldr	r6, [sp, #36]
.LBB87_17:
	ldr	r0, [sp, #52]
	ldr	r1, [sp, #24]
	subs	r0, r1, r0
	ldr	r1, [sp, #20]
	ldr	r0, [sp, #48]
	sbcs.w	r0, r1, r0
	bhs	.LBB87_19
	ldr	r0, [sp, #52]
	add.w	r1, r11, r12, lsl #3
	subs	r0, r0, r7
	mov	r7, r3
	add.w	r0, r0, r0, lsl #1
	lsls	r2, r0, #3
	mov	r0, r3
	bl	tlsf_memory_cpy
	ldr	r6, [sp, #36]
	mov	r3, r7
.LBB87_19:
	ldr	r0, [sp, #28]
	ldr	r1, [sp, #32]
	ldr	r7, [sp, #52]
	lsls	r0, r0, #1
	str	r3, [r6, #16]
	orr.w	r0, r0, r1, lsr #31
	rsbs	r1, r8, r1, lsl #1
	sbcs	r0, r4
	rsbs	r2, r1, #0
	sbc.w	r3, r10, r0
	subs	r1, r7, r1
	ldr	r1, [sp, #48]
	str.w	r10, [r6, #20]
	sbcs.w	r0, r1, r0
	str.w	r10, [r6, #12]
	str	r5, [r6, #8]
	itt	lo
	movlo	r3, r4
	movlo	r2, r8
	adds.w	r8, r2, r7
	add.w	r0, r5, #128
	adc.w	r4, r3, r1
	dmb	ish
.LBB87_20:
	ldrexd	r1, r2, [r0]
	strexd	r1, r8, r4, [r0]
	cmp	r1, #0
	bne	.LBB87_20
	dmb	ish
.LBB87_22:
	ldr	r5, [sp, #44]
	ldr	r0, [sp, #52]
	ldr	r7, [sp, #40]
	ldr	r1, [sp, #48]
	adds	r5, r5, r0
	strd	r8, r4, [r6, #40]
	ldr	r4, [sp, #12]
	adcs	r7, r1
	subs.w	r0, r0, r9
	sbcs	r0, r1, #0
	blo	.LBB87_24
	subs	r0, r5, r4
	sbcs	r0, r7, #0
	blo.w	.LBB87_4
.LBB87_24:
	ldr	r3, [sp, #4]
	b	.LBB87_26
.LBB87_25:
	movs	r5, #0
.LBB87_26:
	movs	r0, #1
	strb	r0, [r6, #1]
	movs	r0, #0
	str	r5, [r3]
	add.w	sp, sp, #828
	pop.w	{r4, r5, r6, r7, r8, r9, r10, r11, pc}
.LBB87_27:
	movs	r0, #0
	b	.LBB87_29
.LBB87_28:
	movs	r0, #2
.LBB87_29:
	mov	r4, r3
	bl	tlsf_c.call_fault.CallFault.refusal
	mov	r3, r4
	str	r5, [r3]
	add.w	sp, sp, #828
	pop.w	{r4, r5, r6, r7, r8, r9, r10, r11, pc}
.Lfunc_end87:
	.size	tlsf_put_all, .Lfunc_end87-tlsf_put_all
	.cfi_endproc
	.section	.text.tlsf_queue_close,"ax",%progbits
	.globl	tlsf_queue_close
	.p2align	1
	.type	tlsf_queue_close,%function
	.code	16
	.thumb_func
tlsf_queue_close:
	.cfi_startproc
	ldrb	r1, [r0, #8]
	cbz	r1, .LBB88_4
	ldr	r1, [r0]
	ldrb	r2, [r1, #1]
	cmp	r2, #1
	bne	.LBB88_4
	ldrb	r2, [r1]
	cmp	r2, #2
	itt	ne
	movne	r0, #40
	bxne	lr
.LBB88_3:
	push	{r4, r5, r6, r7, lr}
	.cfi_def_cfa_offset 20
	.cfi_offset lr, -4
	.cfi_offset r7, -8
	.cfi_offset r6, -12
	.cfi_offset r5, -16
	.cfi_offset r4, -20
	sub	sp, #100
	.cfi_def_cfa_offset 120
	movs	r6, #0
	movs	r2, #40
	strb	r6, [r1, #1]
	ldr	r4, [r0]
	str	r6, [r0, #4]
	str	r6, [r0, #8]
	str	r6, [r0, #12]
	mov	r1, r4
	str	r6, [r0]
	add.w	r0, sp, #2
	adds	r5, r0, #6
	ldrh	r7, [r1], #8
	mov	r0, r5
	bl	tlsf_memory_cpy
	mov	r0, r4
	bl	tlsf_memory_dealloc
	add	r4, sp, #48
	mov	r1, r5
	add.w	r0, r4, #8
	movs	r2, #40
	strd	r6, r6, [sp, #48]
	strh.w	r7, [sp, #48]
	bl	tlsf_memory_cpy
	mov	r0, r4
	bl	tlsf_c.tlsf_c.any_end.AnyEnd.Destruct.drop
	mov	r0, r6
	add	sp, #100
	pop	{r4, r5, r6, r7, pc}
.LBB88_4:
	movs	r0, #32
	bx	lr
.Lfunc_end88:
	.size	tlsf_queue_close, .Lfunc_end88-tlsf_queue_close
	.cfi_endproc
	.section	.text.tlsf_queue_drain,"ax",%progbits
	.globl	tlsf_queue_drain
	.p2align	1
	.type	tlsf_queue_drain,%function
	.code	16
	.thumb_func
tlsf_queue_drain:
	.cfi_startproc
	push.w	{r4, r5, r6, r7, r8, r9, r10, r11, lr}
	.cfi_def_cfa_offset 36
	.cfi_offset lr, -4
	.cfi_offset r11, -8
	.cfi_offset r10, -12
	.cfi_offset r9, -16
	.cfi_offset r8, -20
	.cfi_offset r7, -24
	.cfi_offset r6, -28
	.cfi_offset r5, -32
	.cfi_offset r4, -36
	sub	sp, #44
	.cfi_def_cfa_offset 80
	mov	r6, r0
	ldrb	r0, [r0, #8]
	cmp	r0, #0
	beq	.LBB89_11
	ldr	r0, [r6]
	ldrb	r0, [r0]
	cmp	r0, #1
	bne	.LBB89_11
	ldrb	r0, [r1, #8]
	cmp	r0, #0
	ittt	ne
	ldrne.w	r9, [r1]
	ldrbne.w	r0, [r9, #1]
	cmpne	r0, #0
	beq	.LBB89_11
	ldrb.w	r0, [r9]
	cmp	r0, #2
	bne	.LBB89_12
	movs	r7, #0
	mov	r8, r3
	mov	r4, r2
	strb.w	r7, [r9, #1]
	cbz	r2, .LBB89_10
	add.w	r10, r9, #8
	add.w	r11, sp, #8
	movs	r5, #0
.LBB89_6:
	mov	r0, r11
	mov	r1, r10
	strd	r7, r7, [sp, #32]
	strd	r7, r7, [sp, #24]
	strd	r7, r7, [sp, #16]
	strd	r7, r7, [sp, #8]
	bl	tlsf_c.queue_end.take_once
	ldrb.w	r0, [sp, #8]
	cbnz	r0, .LBB89_9
	ldrd	r1, r0, [sp, #24]
	ldrd	r2, r3, [sp, #32]
	str	r0, [sp]
	mov	r0, r6
	bl	tlsf_c.heap_calls.release_named
	adds	r5, #1
	cmp	r4, r5
	bne	.LBB89_6
	mov	r7, r4
	b	.LBB89_10
.LBB89_9:
	mov	r7, r5
.LBB89_10:
	movs	r0, #1
	str.w	r7, [r8]
	strb.w	r0, [r9, #1]
	movs	r0, #0
	add	sp, #44
	pop.w	{r4, r5, r6, r7, r8, r9, r10, r11, pc}
.LBB89_11:
	movs	r0, #0
	add	sp, #44
	pop.w	{r4, r5, r6, r7, r8, r9, r10, r11, lr}
	b	tlsf_c.call_fault.CallFault.refusal
.LBB89_12:
	movs	r0, #2
	add	sp, #44
	pop.w	{r4, r5, r6, r7, r8, r9, r10, r11, lr}
	b	tlsf_c.call_fault.CallFault.refusal
.Lfunc_end89:
	.size	tlsf_queue_drain, .Lfunc_end89-tlsf_queue_drain
	.cfi_endproc
	.section	.text.tlsf_queue_open,"ax",%progbits
	.globl	tlsf_queue_open
	.p2align	1
	.type	tlsf_queue_open,%function
	.code	16
	.thumb_func
tlsf_queue_open:
	.cfi_startproc
	push.w	{r4, r5, r6, r7, r8, r9, r10, r11, lr}
	.cfi_def_cfa_offset 36
	.cfi_offset lr, -4
	.cfi_offset r11, -8
	.cfi_offset r10, -12
	.cfi_offset r9, -16
	.cfi_offset r8, -20
	.cfi_offset r7, -24
	.cfi_offset r6, -28
	.cfi_offset r5, -32
	.cfi_offset r4, -36
	sub	sp, #252
	.cfi_def_cfa_offset 288
	ldrb	r3, [r0, #8]
	str	r2, [sp, #44]
	movs	r2, #0
	str	r2, [sp, #68]
	strd	r2, r2, [sp, #60]
	strd	r2, r2, [sp, #52]
	str	r2, [sp, #48]
	cbz	r3, .LBB90_2
	movs	r0, #33
	add	sp, #252
	pop.w	{r4, r5, r6, r7, r8, r9, r10, r11, pc}
.LBB90_2:
	ldr	r7, [sp, #44]
	rsb.w	r3, r1, #1024
	rsb.w	r7, r7, #1024
	orrs	r3, r7
	cmp.w	r2, r3, lsr #10
	bne.w	.LBB90_13
	str	r0, [sp, #36]
	add	r0, sp, #200
	mov	r4, r1
	lsls	r1, r1, #4
	movs	r2, #8
	bl	tlsf_memory_alloc
	ldr	r0, [sp, #200]
	lsls	r0, r0, #31
	beq.w	.LBB90_53
	ldr	r5, [sp, #44]
	movs	r7, #0
	ldr.w	r9, [sp, #208]
	movs	r2, #8
	adds.w	r10, r5, #48
	strd	r4, r7, [sp, #88]
	adc	r0, r7, #0
	str	r0, [sp, #28]
	lsl.w	r8, r10, #3
	add	r0, sp, #200
	mov	r1, r8
	strd	r7, r7, [sp, #80]
	strd	r9, r7, [sp, #72]
	bl	tlsf_memory_alloc
	clz	r0, r5
	movs	r2, #1
	rsbs	r1, r0, #0
	lsr.w	r11, r2, r0
	rsb.w	r0, r0, #32
	it	pl
	lslpl.w	r11, r2, r1
	lsl.w	r5, r2, r0
	it	pl
	movpl	r5, #0
	ldr	r0, [sp, #200]
	lsls	r0, r0, #31
	beq.w	.LBB90_52
	add.w	r9, r4, #1
	ldr	r4, [sp, #208]
	sub.w	r2, r8, #8
	movs	r1, #0
	str.w	r9, [sp, #20]
	mov	r0, r4
	bl	tlsf_memory_set
	add.w	r0, r4, r8
	str.w	r8, [sp, #24]
	strd	r7, r7, [r0, #-8]
	movs	r0, #0
.LBB90_6:
	add.w	r1, r4, r7, lsl #3
	strd	r7, r0, [r1, #384]
	adds	r7, #1
	ldr	r1, [sp, #44]
	adc	r0, r0, #0
	subs	r1, r7, r1
	sbcs	r1, r0, #0
	blo	.LBB90_6
	ldr	r0, [sp, #44]
	movs	r6, #0
	str	r4, [sp, #32]
	add	r4, sp, #152
	movs	r2, #8
	strd	r6, r6, [sp, #128]
	lsls	r1, r0, #5
	mov	r0, r4
	strd	r6, r6, [sp, #120]
	strd	r6, r6, [sp, #112]
	bl	tlsf_memory_alloc
	ldr	r0, [sp, #152]
	lsls	r0, r0, #31
	beq.w	.LBB90_36
	add	r0, sp, #4
	ldr	r1, [sp, #160]
	stm.w	r0, {r5, r9, r11}
	add	r0, sp, #248
	movs	r7, #0
	str.w	r10, [sp, #16]
	movs	r5, #0
	strd	r6, r0, [sp, #220]
	mov.w	r8, #0
	ldr	r0, [sp, #44]
	mov.w	r10, #0
	str	r0, [sp, #216]
	strd	r6, r6, [sp, #208]
	str	r6, [sp, #228]
	str	r1, [sp, #40]
	strd	r1, r6, [sp, #200]
	b	.LBB90_10
.LBB90_9:
	ldr	r1, [sp, #40]
	lsls	r0, r7, #5
	movs	r2, #24
	str	r6, [r1, r0]
	add.w	r0, r1, r7, lsl #5
	mov	r1, r4
	str	r6, [r0, #4]
	adds	r0, #8
	bl	tlsf_memory_cpy
	adds	r7, #1
	ldr	r0, [sp, #44]
	adc	r5, r5, #0
	adds.w	r8, r8, #1
	adc	r10, r10, #0
	subs.w	r0, r8, r0
	sbcs	r0, r10, #0
	strd	r7, r5, [sp, #208]
	bhs	.LBB90_14
.LBB90_10:
	add	r1, sp, #112
	mov	r0, r4
	mov	r12, r7
	mov	r11, r5
	mov	r9, r4
	mov	lr, r6
	ldm.w	r1, {r2, r3, r4, r5, r6, r7}
	stm	r0!, {r2, r3, r4, r5, r6, r7}
	mov	r4, r9
	mov	r5, r11
	ldrd	r0, r1, [sp, #216]
	mov	r7, r12
	mov	r6, lr
	eor.w	r1, r1, r11
	eor.w	r0, r0, r12
	orrs	r0, r1
	bne	.LBB90_9
	add	r0, sp, #200
	bl	std_alloc.vec.Vec.grow_amortized.94730218a1e37034
	cmp	r0, #0
	beq.w	.LBB90_54
	ldrd	r7, r5, [sp, #208]
	add	r4, sp, #152
	ldr	r0, [sp, #200]
	str	r0, [sp, #40]
	b	.LBB90_9
.LBB90_13:
	movs	r0, #5
	add	sp, #252
	pop.w	{r4, r5, r6, r7, r8, r9, r10, r11, pc}
.LBB90_14:
	ldr	r1, [sp, #24]
	add	r0, sp, #200
	movs	r2, #8
	ldr.w	r10, [sp, #200]
	ldrd	r9, r6, [sp, #216]
	bl	tlsf_memory_alloc
	ldr	r0, [sp, #200]
	ldr.w	r8, [sp, #16]
	lsls	r0, r0, #31
	beq.w	.LBB90_30
	ldr	r4, [sp, #208]
	lsls	r0, r5, #5
	orr.w	r0, r0, r7, lsr #27
	cmp	r0, #0
	bmi.w	.LBB90_29
	add	r0, sp, #200
	mov.w	r1, #-1
	mov.w	r2, #8
	it	eq
	lsleq	r1, r7, #5
	bl	tlsf_memory_alloc
	ldr	r0, [sp, #200]
	lsls	r0, r0, #31
	beq.w	.LBB90_29
	str	r6, [sp, #24]
	movs	r0, #0
	ldr.w	r12, [sp, #208]
	movs	r1, #0
	ldrd	lr, r6, [sp, #28]
	str.w	r9, [sp, #40]
.LBB90_18:
	ldr.w	r2, [r6, r0, lsl #3]
	add.w	r3, r6, r0, lsl #3
	str.w	r2, [r4, r0, lsl #3]
	add.w	r2, r4, r0, lsl #3
	adds	r0, #1
	ldr	r3, [r3, #4]
	adc	r1, r1, #0
	str	r3, [r2, #4]
	subs.w	r2, r0, r8
	sbcs.w	r2, r1, lr
	blo	.LBB90_18
	str	r4, [sp]
	mov	r4, r12
	orrs.w	r0, r7, r5
	beq	.LBB90_22
	mov	r6, r7
	mov	r8, r5
.LBB90_21:
	subs	r6, #1
	add.w	r11, sp, #200
	mov.w	r2, #24
	sbc	r8, r8, #0
	add.w	r1, r10, r6, lsl #5
	mov	r0, r11
	ldrb	r9, [r1], #8
	bl	tlsf_memory_cpy
	lsls	r0, r6, #5
	movs	r1, #0
	str.w	r9, [r4, r0]
	add.w	r0, r4, r6, lsl #5
	movs	r2, #24
	str	r1, [r0, #4]
	adds	r0, #8
	mov	r1, r11
	bl	tlsf_memory_cpy
	orrs.w	r0, r6, r8
	bne	.LBB90_21
.LBB90_22:
	ldr	r0, [sp, #40]
	mov	r9, r4
	ldr	r1, [sp, #24]
	orrs	r0, r1
	itt	ne
	movne	r0, r10
	blne	tlsf_memory_dealloc
	ldr	r0, [sp, #32]
	bl	tlsf_memory_dealloc
	ldr	r2, [sp, #20]
	ldr	r6, [sp]
.LBB90_23:
	subs	r2, #1
	ldrexd	r0, r1, [r6]
	clrex
	dmb	ish
	bne	.LBB90_23
	ldr	r0, [sp, #44]
	ldr	r4, [sp, #28]
.LBB90_25:
	subs	r0, #1
	ldrexd	r1, r2, [r6]
	clrex
	dmb	ish
	bne	.LBB90_25
	add	r0, sp, #200
	movs	r1, #88
	movs	r2, #8
	bl	tlsf_memory_alloc
	ldr	r0, [sp, #200]
	lsls	r0, r0, #31
	beq.w	.LBB90_44
	ldr.w	r8, [sp, #208]
	add	r3, sp, #72
	ldr	r0, [sp, #4]
	ldr	r1, [sp, #44]
	str.w	r0, [r8, #80]
	movs	r0, #0
	str.w	r1, [r8, #72]
	ldr	r1, [sp, #16]
	str.w	r0, [r8, #76]
	str.w	r1, [r8, #48]
	str.w	r1, [r8, #24]
	movs	r1, #1
	str.w	r0, [r8, #4]
	str.w	r0, [r8, #60]
	str.w	r0, [r8, #44]
	str.w	r0, [r8, #20]
	str.w	r0, [r8, #12]
	ldr	r0, [sp, #12]
	str.w	r7, [r8, #64]
	str.w	r7, [r8, #32]
	str.w	r1, [r8]
	str.w	r9, [r8, #56]
	str.w	r6, [r8, #40]
	str.w	r9, [r8, #16]
	str.w	r6, [r8, #8]
	str.w	r0, [r8, #84]
	str.w	r5, [r8, #68]
	str.w	r4, [r8, #52]
	str.w	r5, [r8, #36]
	str.w	r4, [r8, #28]
	ldrexd	r0, r1, [r6]
	clrex
	dmb	ish
	mov	r0, r8
	movs	r1, #1
	ldr	r2, [sp, #8]
	bl	tlsf_post.mailboxes.send_out
	uxtb	r0, r0
	cmp	r0, #0
	beq.w	.LBB90_58
	mov	r0, r8
	bl	std_alloc.arc.Arc.drop.f29941b0e8355977
	add	r0, sp, #72
	bl	std_alloc.vec.Vec.drop.05316b64237a7125
	movs	r0, #6
	add	sp, #252
	pop.w	{r4, r5, r6, r7, r8, r9, r10, r11, pc}
.LBB90_29:
	mov	r0, r4
	bl	tlsf_memory_dealloc
.LBB90_30:
	ldr	r0, [sp, #32]
.LBB90_31:
	orrs.w	r1, r7, r5
	beq	.LBB90_34
	subs	r7, #1
	sbc	r5, r5, #0
	lsls	r1, r7, #5
	ldrb.w	r1, [r10, r1]
	cmp	r1, #0
	beq	.LBB90_31
.LBB90_33:
	.inst.n	0xdefe
.LBB90_34:
	orrs.w	r1, r6, r9
	beq	.LBB90_37
	mov	r0, r10
	bl	tlsf_memory_dealloc
.LBB90_36:
	ldr	r0, [sp, #32]
.LBB90_37:
	bl	tlsf_memory_dealloc
	ldr.w	r9, [sp, #72]
	ldrd	r11, r4, [sp, #80]
	ldr.w	r10, [sp, #92]
	ldr	r0, [sp, #88]
	str	r0, [sp, #44]
	orrs.w	r0, r11, r4
	beq	.LBB90_51
	movs	r7, #0
	mov.w	r8, #0
	b	.LBB90_40
.LBB90_39:
	adds	r7, #1
	adc	r8, r8, #0
	subs.w	r0, r7, r11
	sbcs.w	r0, r8, r4
	bhs	.LBB90_51
.LBB90_40:
	lsls	r0, r7, #4
	ldr.w	r0, [r9, r0]
	dmb	ish
.LBB90_41:
	ldrexd	r2, r1, [r0]
	subs	r3, r2, #1
	sbc	r6, r1, #0
	strexd	r5, r3, r6, [r0]
	cmp	r5, #0
	bne	.LBB90_41
	eor	r2, r2, #1
	dmb	ish
	orrs	r1, r2
	bne	.LBB90_39
	ldr	r5, [r0, #40]
	ldr	r6, [r0, #56]
	bl	tlsf_memory_dealloc
	mov	r0, r5
	bl	tlsf_memory_dealloc
	mov	r0, r6
	bl	tlsf_memory_dealloc
	b	.LBB90_39
.LBB90_44:
	mov	r0, r6
	bl	tlsf_memory_dealloc
	mov	r0, r9
	bl	tlsf_memory_dealloc
	ldr.w	r9, [sp, #72]
	ldrd	r11, r4, [sp, #80]
	ldr.w	r10, [sp, #92]
	ldr	r0, [sp, #88]
	str	r0, [sp, #44]
	orrs.w	r0, r11, r4
	beq	.LBB90_51
	movs	r7, #0
	mov.w	r8, #0
	b	.LBB90_47
.LBB90_46:
	adds	r7, #1
	adc	r8, r8, #0
	subs.w	r0, r7, r11
	sbcs.w	r0, r8, r4
	bhs	.LBB90_51
.LBB90_47:
	lsls	r0, r7, #4
	ldr.w	r0, [r9, r0]
	dmb	ish
.LBB90_48:
	ldrexd	r2, r1, [r0]
	subs	r3, r2, #1
	sbc	r6, r1, #0
	strexd	r5, r3, r6, [r0]
	cmp	r5, #0
	bne	.LBB90_48
	eor	r2, r2, #1
	dmb	ish
	orrs	r1, r2
	bne	.LBB90_46
	ldr	r5, [r0, #40]
	ldr	r6, [r0, #56]
	bl	tlsf_memory_dealloc
	mov	r0, r5
	bl	tlsf_memory_dealloc
	mov	r0, r6
	bl	tlsf_memory_dealloc
	b	.LBB90_46
.LBB90_51:
	ldr	r0, [sp, #44]
	orrs.w	r0, r0, r10
	beq	.LBB90_53
.LBB90_52:
	mov	r0, r9
	bl	tlsf_memory_dealloc
.LBB90_53:
	movs	r0, #6
	add	sp, #252
	pop.w	{r4, r5, r6, r7, r8, r9, r10, r11, pc}
.LBB90_54:
	ldr	r0, [sp, #200]
	ldrd	r1, r3, [sp, #208]
	ldrd	r2, r7, [sp, #216]
.LBB90_55:
	orrs.w	r6, r1, r3
	beq	.LBB90_57
	subs	r1, #1
	sbc	r3, r3, #0
	lsls	r6, r1, #5
	ldrb	r6, [r0, r6]
	cmp	r6, #0
	beq	.LBB90_55
	b	.LBB90_33
.LBB90_57:
	orrs.w	r1, r2, r7
	it	ne
	blne	tlsf_memory_dealloc
	b	.LBB90_36
.LBB90_58:
	add	r0, sp, #112
	movs	r1, #0
	movs	r2, #40
	ldr.w	r9, [sp, #72]
	ldrd	r4, r11, [sp, #80]
	movs	r6, #0
	ldrd	r5, r10, [sp, #88]
	bl	tlsf_memory_set
	add	r0, sp, #72
	movs	r1, #0
	movs	r2, #40
	bl	tlsf_memory_set
	mov	r12, r4
	orrs.w	r0, r4, r11
	beq.w	.LBB90_72
	cmp.w	r11, #268435456
	str	r5, [sp, #24]
	str.w	r12, [sp, #40]
	bhs	.LBB90_65
	lsl.w	r0, r11, #3
	mov.w	r1, #-1
	orrs.w	r0, r0, r12, lsr #29
	mov.w	r2, #8
	add	r0, sp, #200
	it	eq
	lsleq.w	r1, r12, #3
	bl	tlsf_memory_alloc
	ldr	r0, [sp, #200]
	ldr.w	r12, [sp, #40]
	lsls	r0, r0, #31
	beq	.LBB90_65
	ldr	r4, [sp, #208]
	add	r0, sp, #200
	mov	r6, r11
	movs	r5, #0
	movs	r1, #0
	movs	r7, #0
	mov	r11, r12
	str.w	r10, [sp, #20]
	str	r6, [sp, #16]
	strd	r9, r4, [sp, #28]
.LBB90_62:
	str	r1, [sp, #44]
	movs	r2, #8
	ldr	r1, [sp, #44]
	lsls	r1, r1, #4
	ldr.w	r4, [r9, r1]
	ldr	r1, [sp, #44]
	add.w	r1, r9, r1, lsl #4
	ldr.w	r10, [r1, #8]
	movs	r1, #48
	bl	tlsf_memory_alloc
	ldr	r1, [sp, #44]
	subs.w	r11, r11, #1
	sbc	r6, r6, #0
	ldr	r0, [sp, #200]
	adds.w	r9, r1, #1
	adc	r2, r7, #0
	lsls	r0, r0, #31
	beq.w	.LBB90_76
	ldr	r0, [sp, #208]
	movw	r3, #259
	mov	r7, r2
	str	r4, [r0, #8]
	ldr	r4, [sp, #32]
	str	r5, [r0, #20]
	str.w	r10, [r0, #16]
	str	r5, [r0, #24]
	str	r5, [r0, #12]
	strh	r3, [r0]
	str	r5, [r0, #28]
	str	r5, [r0, #32]
	str	r5, [r0, #36]
	str	r5, [r0, #40]
	str	r5, [r0, #44]
	str.w	r0, [r4, r1, lsl #3]
	add.w	r0, r4, r1, lsl #3
	mov	r1, r9
	str	r5, [r0, #4]
	orrs.w	r0, r11, r6
	ldr.w	r9, [sp, #28]
	add	r0, sp, #200
	bne	.LBB90_62
	ldrd	r11, r10, [sp, #16]
	movs	r6, #0
	ldr	r5, [sp, #24]
	ldr.w	r12, [sp, #40]
	b	.LBB90_73
.LBB90_65:
	movs	r6, #0
	movs	r5, #0
	b	.LBB90_67
.LBB90_66:
	adds	r6, #1
	adc	r5, r5, #0
	subs.w	r0, r6, r12
	sbcs.w	r0, r5, r11
	bhs	.LBB90_71
.LBB90_67:
	lsls	r0, r6, #4
	ldr.w	r0, [r9, r0]
	dmb	ish
.LBB90_68:
	ldrexd	r2, r1, [r0]
	subs	r3, r2, #1
	sbc	r7, r1, #0
	strexd	r4, r3, r7, [r0]
	cmp	r4, #0
	bne	.LBB90_68
	eor	r2, r2, #1
	dmb	ish
	orrs	r1, r2
	bne	.LBB90_66
	ldr	r4, [r0, #40]
	ldr	r7, [r0, #56]
	bl	tlsf_memory_dealloc
	mov	r0, r4
	bl	tlsf_memory_dealloc
	mov	r0, r7
	bl	tlsf_memory_dealloc
	ldr.w	r12, [sp, #40]
	b	.LBB90_66
.LBB90_71:
	ldr	r0, [sp, #24]
	orrs.w	r0, r0, r10
	bne.w	.LBB90_84
	b	.LBB90_85
.LBB90_72:
	add	r4, sp, #248
.LBB90_73:
	add	r0, sp, #88
	str	r6, [sp, #108]
	stm.w	r0, {r5, r10, r12}
	add	r0, sp, #72
	mov	r5, r12
	strd	r6, r6, [sp, #80]
	strd	r9, r6, [sp, #72]
	strd	r11, r6, [sp, #100]
	bl	std_alloc.vec.deque.VecDeque.drop.ca3d8856d46a41b8
	add	r0, sp, #200
	movs	r1, #48
	movs	r2, #8
	bl	tlsf_memory_alloc
	ldr	r0, [sp, #200]
	lsls	r0, r0, #31
	beq	.LBB90_75
	ldr	r1, [sp, #208]
	mov.w	r2, #258
	ldr	r3, [sp, #36]
	movs	r0, #0
	strh	r2, [r1]
	movs	r2, #1
	str	r5, [r1, #40]
	str	r5, [r1, #32]
	str	r0, [r1, #28]
	str	r4, [r1, #24]
	str	r0, [r1, #20]
	str	r0, [r1, #16]
	str	r0, [r1, #12]
	str.w	r8, [r1, #8]
	str.w	r11, [r1, #44]
	str.w	r11, [r1, #36]
	str.w	r0, [r3, #9]
	strb	r2, [r3, #8]
	str	r0, [r3, #4]
	str	r1, [r3]
	str	r0, [r3, #12]
	add	sp, #252
	pop.w	{r4, r5, r6, r7, r8, r9, r10, r11, pc}
.LBB90_75:
	mov	r0, r8
	bl	std_alloc.arc.Arc.drop.c4a047e811255370
	movs	r0, #0
	strd	r5, r11, [sp, #64]
	strd	r4, r0, [sp, #48]
	add	r0, sp, #48
	strd	r5, r11, [sp, #56]
	bl	std_alloc.vec.Vec.drop.7ac45d8413b9ad54
	movs	r0, #6
	add	sp, #252
	pop.w	{r4, r5, r6, r7, r8, r9, r10, r11, pc}
.LBB90_76:
	str	r7, [sp, #36]
	mov	r10, r2
	dmb	ish
.LBB90_77:
	ldrexd	r1, r0, [r4]
	subs	r2, r1, #1
	sbc	r3, r0, #0
	strexd	r5, r2, r3, [r4]
	cmp	r5, #0
	bne	.LBB90_77
	eor	r1, r1, #1
	dmb	ish
	orrs	r0, r1
	bne	.LBB90_80
	mov	r0, r4
	ldr	r7, [r4, #40]
	ldr	r5, [r4, #56]
	bl	tlsf_memory_dealloc
	mov	r0, r7
	bl	tlsf_memory_dealloc
	mov	r0, r5
	bl	tlsf_memory_dealloc
.LBB90_80:
	ldr	r0, [sp, #24]
	movs	r1, #0
	str	r0, [sp, #128]
	ldr	r0, [sp, #28]
	str	r0, [sp, #112]
	ldr	r0, [sp, #20]
	str	r0, [sp, #132]
	add	r0, sp, #112
	strd	r1, r1, [sp, #144]
	str.w	r9, [sp, #136]
	strd	r1, r11, [sp, #116]
	str.w	r10, [sp, #140]
	str	r6, [sp, #124]
	bl	std_alloc.vec.deque.VecDeque.drop.ca3d8856d46a41b8
	ldr	r0, [sp, #36]
	ldr	r1, [sp, #44]
	orrs	r0, r1
	beq	.LBB90_83
	add	r0, sp, #200
	ldr.w	r10, [sp, #36]
	adds	r0, #8
	str	r0, [sp, #40]
	add	r0, sp, #152
	ldr	r7, [sp, #44]
	add.w	r9, r0, #6
	movs	r5, #0
	movs	r6, #0
.LBB90_82:
	ldr	r0, [sp, #32]
	movs	r2, #40
	ldr.w	r4, [r0, r5, lsl #3]
	mov	r0, r9
	mov	r1, r4
	ldrh	r11, [r1], #8
	bl	tlsf_memory_cpy
	mov	r0, r4
	bl	tlsf_memory_dealloc
	movs	r0, #0
	mov	r1, r9
	strd	r0, r0, [sp, #200]
	movs	r2, #40
	ldr	r0, [sp, #40]
	strh.w	r11, [sp, #200]
	bl	tlsf_memory_cpy
	add	r0, sp, #200
	bl	tlsf_c.tlsf_c.any_end.AnyEnd.Destruct.drop
	adds	r5, #1
	adc	r6, r6, #0
	subs	r0, r5, r7
	sbcs.w	r0, r6, r10
	blo	.LBB90_82
.LBB90_83:
	ldr.w	r9, [sp, #32]
.LBB90_84:
	mov	r0, r9
	bl	tlsf_memory_dealloc
.LBB90_85:
	dmb	ish
.LBB90_86:
	ldrexd	r1, r0, [r8]
	subs	r2, r1, #1
	sbc	r3, r0, #0
	strexd	r7, r2, r3, [r8]
	cmp	r7, #0
	bne	.LBB90_86
	eor	r1, r1, #1
	dmb	ish
	orrs	r0, r1
	bne.w	.LBB90_53
	mov	r0, r8
	ldr.w	r4, [r8, #40]
	ldr.w	r6, [r8, #56]
	bl	tlsf_memory_dealloc
	mov	r0, r4
	bl	tlsf_memory_dealloc
	mov	r0, r6
	bl	tlsf_memory_dealloc
	movs	r0, #6
	add	sp, #252
	pop.w	{r4, r5, r6, r7, r8, r9, r10, r11, pc}
.Lfunc_end90:
	.size	tlsf_queue_open, .Lfunc_end90-tlsf_queue_open
	.cfi_endproc
	.section	.text.tlsf_queue_post,"ax",%progbits
	.globl	tlsf_queue_post
	.p2align	1
	.type	tlsf_queue_post,%function
	.code	16
	.thumb_func
tlsf_queue_post:
	.cfi_startproc
	push.w	{r4, r5, r6, r7, r8, r9, r10, r11, lr}
	.cfi_def_cfa_offset 36
	.cfi_offset lr, -4
	.cfi_offset r11, -8
	.cfi_offset r10, -12
	.cfi_offset r9, -16
	.cfi_offset r8, -20
	.cfi_offset r7, -24
	.cfi_offset r6, -28
	.cfi_offset r5, -32
	.cfi_offset r4, -36
	sub	sp, #12
	.cfi_def_cfa_offset 48
	ldrb	r1, [r0, #8]
	cmp	r1, #0
	ittt	ne
	ldrne	r1, [r0]
	ldrbne	r0, [r1, #1]
	cmpne	r0, #0
	beq.w	.LBB91_17
	ldrb	r0, [r1]
	cmp	r0, #3
	bne.w	.LBB91_18
	ldr	r0, [r1, #8]
	movs	r7, #0
	ldrd	r8, r9, [sp, #48]
	strb	r7, [r1, #1]
	ldr	r7, [r0, #8]
	ldr.w	r11, [r1, #16]
	adds	r7, #128
	ldrexd	lr, r12, [r7]
	clrex
	dmb	ish
	ldrd	r5, r6, [r0, #80]
	ldr	r4, [r0, #8]
	subs	r7, r5, #1
	lsr.w	r5, r12, #30
	and.w	r7, r7, lr
	sbc	r10, r6, #0
	cmp	r5, #2
	add.w	r4, r4, r7, lsl #3
	add.w	r4, r4, #384
	ldrexd	r4, r6, [r4]
	clrex
	dmb	ish
	bhi	.LBB91_12
	eor.w	r5, r4, lr
	eor.w	r4, r6, r12
	orrs	r4, r5
	bne	.LBB91_12
	strd	r11, r3, [sp]
	and.w	r5, r10, r12
	str	r2, [sp, #8]
	adds	r6, r7, #1
	ldrd	r2, r4, [r0, #72]
	adc	r3, r5, #0
	subs	r2, r6, r2
	sbcs.w	r2, r3, r4
	bhs	.LBB91_6
	adds.w	r10, lr, #1
	adc	r11, r12, #0
	b	.LBB91_7
.LBB91_6:
	ldrd	r2, r3, [r0, #80]
	subs.w	r4, lr, r7
	sbc.w	r5, r12, r5
	adds.w	r10, r4, r2
	adc.w	r11, r5, r3
.LBB91_7:
	ldr	r2, [r0, #8]
	add.w	r6, r2, #128
	ldrexd	r2, r3, [r6]
	eor.w	r3, r3, r12
	eor.w	r2, r2, lr
	orrs	r2, r3
	bne	.LBB91_11
	lsls	r5, r7, #3
	dmb	ish
.LBB91_9:
	strexd	r2, r10, r11, [r6]
	cbz	r2, .LBB91_13
	ldrexd	r2, r3, [r6]
	eor.w	r2, r2, lr
	eor.w	r3, r3, r12
	orrs	r2, r3
	beq	.LBB91_9
.LBB91_11:
	clrex
	dmb	ish
.LBB91_12:
	ldr	r0, [r1, #8]
	ldr	r2, [r0, #8]
	adds	r2, #128
	ldrexd	r2, r3, [r2]
	clrex
	dmb	ish
	ldr	r7, [r0, #8]
	add.w	r7, r7, #256
	ldrexd	r7, r6, [r7]
	clrex
	dmb	ish
	ldrd	r0, r5, [r0, #80]
	subs	r0, r2, r0
	sbcs.w	r2, r3, r5
	eor.w	r0, r0, r7
	eor.w	r2, r2, r6
	mrs	r3, apsr
	orrs	r0, r2
	mov.w	r2, #37
	mov.w	r0, #37
	it	eq
	moveq	r0, #8
	msr	APSR_nzcvq, r3
	mov.w	r3, #1
	strb	r3, [r1, #1]
	it	lo
	movlo	r0, r2
	add	sp, #12
	pop.w	{r4, r5, r6, r7, r8, r9, r10, r11, pc}
.LBB91_13:
	dmb	ish
	lsls	r3, r7, #5
	movs	r6, #1
	ldr	r2, [r0, #16]
	ldrb	r4, [r2, r3]
	str	r6, [r2, r3]
	add.w	r2, r2, r7, lsl #5
	movs	r3, #0
	ldr	r6, [sp, #4]
	str	r6, [r2, #20]
	ldr	r6, [sp, #8]
	str	r3, [r2, #4]
	str	r3, [r2, #12]
	ldr	r3, [sp]
	str.w	r9, [r2, #28]
	str.w	r8, [r2, #24]
	str	r6, [r2, #16]
	str	r3, [r2, #8]
	cbnz	r4, .LBB91_19
	ldr	r3, [r0, #8]
	adds.w	r0, lr, #1
	adc	r2, r12, #0
	add	r3, r5
	dmb	ish
	add.w	r3, r3, #384
.LBB91_15:
	ldrexd	r7, r6, [r3]
	strexd	r7, r0, r2, [r3]
	cmp	r7, #0
	bne	.LBB91_15
	dmb	ish
	movs	r0, #1
	strb	r0, [r1, #1]
	movs	r0, #0
	add	sp, #12
	pop.w	{r4, r5, r6, r7, r8, r9, r10, r11, pc}
.LBB91_17:
	movs	r0, #0
	add	sp, #12
	pop.w	{r4, r5, r6, r7, r8, r9, r10, r11, lr}
	b	tlsf_c.call_fault.CallFault.refusal
.LBB91_18:
	movs	r0, #2
	add	sp, #12
	pop.w	{r4, r5, r6, r7, r8, r9, r10, r11, lr}
	b	tlsf_c.call_fault.CallFault.refusal
.LBB91_19:
	.inst.n	0xdefe
.Lfunc_end91:
	.size	tlsf_queue_post, .Lfunc_end91-tlsf_queue_post
	.cfi_endproc
	.section	.text.tlsf_queue_take,"ax",%progbits
	.globl	tlsf_queue_take
	.p2align	2
	.type	tlsf_queue_take,%function
	.code	16
	.thumb_func
tlsf_queue_take:
	.cfi_startproc
	push	{r4, r5, r7, lr}
	.cfi_def_cfa_offset 16
	.cfi_offset lr, -4
	.cfi_offset r7, -8
	.cfi_offset r5, -12
	.cfi_offset r4, -16
	sub	sp, #32
	.cfi_def_cfa_offset 48
	mov	r4, r1
	ldrb	r1, [r0, #8]
	cmp	r1, #0
	ittt	ne
	ldrne	r5, [r0]
	ldrbne	r0, [r5, #1]
	cmpne	r0, #0
	beq	.LBB92_5
	ldrb	r0, [r5]
	cmp	r0, #2
	bne	.LBB92_6
	movs	r0, #0
	add.w	r1, r5, #8
	strb	r0, [r5, #1]
	strd	r0, r0, [sp, #24]
	strd	r0, r0, [sp, #16]
	strd	r0, r0, [sp, #8]
	strd	r0, r0, [sp]
	mov	r0, sp
	bl	tlsf_c.queue_end.take_once
	ldrb.w	r0, [sp]
	cbz	r0, .LBB92_4
	ldr	r0, .LCPI92_0
	ldrb.w	r1, [sp, #1]
.LPC92_0:
	add	r0, pc
	ldr.w	r0, [r0, r1, lsl #2]
	movs	r1, #1
	strb	r1, [r5, #1]
	add	sp, #32
	pop	{r4, r5, r7, pc}
.LBB92_4:
	add	r3, sp, #16
	ldm	r3, {r0, r1, r2, r3}
	str	r0, [r4]
	movs	r0, #0
	str	r3, [r4, #12]
	str	r2, [r4, #8]
	str	r1, [r4, #4]
	movs	r1, #1
	strb	r1, [r5, #1]
	add	sp, #32
	pop	{r4, r5, r7, pc}
.LBB92_5:
	movs	r0, #0
	add	sp, #32
	pop.w	{r4, r5, r7, lr}
	b	tlsf_c.call_fault.CallFault.refusal
.LBB92_6:
	movs	r0, #2
	add	sp, #32
	pop.w	{r4, r5, r7, lr}
	b	tlsf_c.call_fault.CallFault.refusal
	.p2align	2
.LCPI92_0:
	.long	.Lswitch.table.tlsf_queue_take-(.LPC92_0+4)
.Lfunc_end92:
	.size	tlsf_queue_take, .Lfunc_end92-tlsf_queue_take
	.cfi_endproc
	.section	.text.tlsf_read,"ax",%progbits
	.globl	tlsf_read
	.p2align	2
	.type	tlsf_read,%function
	.code	16
	.thumb_func
tlsf_read:
	.cfi_startproc
	push.w	{r4, r5, r6, r7, r8, r9, lr}
	.cfi_def_cfa_offset 28
	.cfi_offset lr, -4
	.cfi_offset r9, -8
	.cfi_offset r8, -12
	.cfi_offset r7, -16
	.cfi_offset r6, -20
	.cfi_offset r5, -24
	.cfi_offset r4, -28
	sub	sp, #12
	.cfi_def_cfa_offset 40
	mov	r12, r3
	ldr	r3, [sp, #52]
	ldrb	r1, [r0, #8]
	cmp	r3, #0
	it	eq
	addeq.w	r3, r3, #4096
	cmp	r1, #0
	beq	.LBB93_11
	ldr	r5, [r0]
	ldrb	r0, [r5]
	cmp	r0, #1
	bne	.LBB93_11
	mov	r4, r2
	ldrd	r8, r9, [sp, #40]
	ldr.w	lr, [sp, #56]
	movs	r7, #0
	ldr	r2, [sp, #48]
	ldr	r1, [r5, #24]
	ldrb	r0, [r5, #16]
	strb	r7, [r5]
	cmp	r0, #0
	beq	.LBB93_12
	cmp	r1, r4
	bne.w	.LBB93_19
	ldr	r0, [r5, #56]
	mov	r1, r4
	cmp	r12, r0
	bhs.w	.LBB93_19
	mvn	r1, #7
	ldr	r0, [r5, #72]
	and.w	r1, r1, r12, lsr #3
	ldr	r6, [r0, r1]
	add	r0, r1
	and	r1, r12, #63
	ldr	r0, [r0, #4]
	rsb.w	r7, r1, #32
	lsrs	r6, r1
	subs	r1, #32
	lsl.w	r7, r0, r7
	orr.w	r6, r6, r7
	it	pl
	lsrpl.w	r6, r0, r1
	mov	r1, r4
	lsls	r0, r6, #31
	beq	.LBB93_19
	add.w	r0, r5, #48
	ldr	r7, [r0]
	ldrb.w	r1, [r7, r12, lsl #3]
	lsls	r1, r1, #31
	mov	r1, r4
	bne	.LBB93_19
	add.w	r7, r7, r12, lsl #3
	ldrd	r1, r6, [r7, #8]
	eor.w	r6, r6, r9
	eor.w	r1, r1, r8
	orrs	r1, r6
	mov	r1, r4
	bne	.LBB93_19
	ldr	r1, [r7, #16]
	adds.w	r6, lr, r2
	mov.w	r4, #0
	adc	r7, r4, #0
	subs	r1, r1, r6
	sbcs.w	r1, r4, r7
	blo	.LBB93_18
	mov	r1, r12
	strd	lr, r4, [sp]
	bl	tlsf_heap.region.Region.read.5
	movs	r6, #0
	lsls	r0, r6, #31
	bne	.LBB93_21
.LBB93_10:
	movs	r0, #0
	movs	r1, #1
	strb	r1, [r5]
	add	sp, #12
	pop.w	{r4, r5, r6, r7, r8, r9, pc}
.LBB93_11:
	movs	r0, #32
	add	sp, #12
	pop.w	{r4, r5, r6, r7, r8, r9, pc}
.LBB93_12:
	cmp	r1, r4
	bne	.LBB93_19
	ldr	r0, [r5, #56]
	mov	r1, r4
	cmp	r12, r0
	bhs	.LBB93_19
	mvn	r1, #7
	ldr	r0, [r5, #72]
	and.w	r1, r1, r12, lsr #3
	ldr	r7, [r0, r1]
	add	r0, r1
	and	r1, r12, #63
	ldr	r0, [r0, #4]
	rsb.w	r6, r1, #32
	lsrs	r7, r1
	subs	r1, #32
	lsl.w	r6, r0, r6
	orr.w	r6, r6, r7
	it	pl
	lsrpl.w	r6, r0, r1
	mov	r1, r4
	lsls	r0, r6, #31
	beq	.LBB93_19
	add.w	r0, r5, #48
	ldr	r7, [r0]
	ldrb.w	r1, [r7, r12, lsl #3]
	lsls	r1, r1, #31
	mov	r1, r4
	bne	.LBB93_19
	add.w	r7, r7, r12, lsl #3
	ldrd	r1, r6, [r7, #8]
	eor.w	r6, r6, r9
	eor.w	r1, r1, r8
	orrs	r1, r6
	mov	r1, r4
	bne	.LBB93_19
	ldr	r1, [r7, #16]
	adds.w	r4, lr, r2
	mov.w	r6, #0
	adc	r7, r6, #0
	subs	r1, r1, r4
	sbcs.w	r1, r6, r7
	bhs	.LBB93_20
.LBB93_18:
	movs	r4, #4
	movs	r6, #1
	lsls	r0, r6, #31
	beq	.LBB93_10
	b	.LBB93_21
.LBB93_19:
	mov	r0, r4
	bl	tlsf_heap.refusal.Refusal.of_name
	mov	r4, r0
	movs	r6, #1
	lsls	r0, r6, #31
	beq	.LBB93_10
	b	.LBB93_21
.LBB93_20:
	mov	r1, r12
	strd	lr, r6, [sp]
	bl	tlsf_heap.region.Region.read.4
	movs	r4, #0
	lsls	r0, r6, #31
	beq	.LBB93_10
.LBB93_21:
	ldr	r0, .LCPI93_0
	uxtb	r1, r4
.LPC93_0:
	add	r0, pc
	ldr.w	r0, [r0, r1, lsl #2]
	movs	r1, #1
	strb	r1, [r5]
	add	sp, #12
	pop.w	{r4, r5, r6, r7, r8, r9, pc}
	.p2align	2
.LCPI93_0:
	.long	.Lswitch.table.tlsf_write-(.LPC93_0+4)
.Lfunc_end93:
	.size	tlsf_read, .Lfunc_end93-tlsf_read
	.cfi_endproc
	.section	.text.tlsf_reallocate,"ax",%progbits
	.globl	tlsf_reallocate
	.p2align	2
	.type	tlsf_reallocate,%function
	.code	16
	.thumb_func
tlsf_reallocate:
	.cfi_startproc
	ldrb	r3, [r0, #8]
	cmp	r3, #0
	itt	eq
	moveq	r0, #32
	bxeq	lr
.LBB94_1:
	push.w	{r4, r5, r6, r7, r8, r9, r10, r11, lr}
	.cfi_def_cfa_offset 36
	.cfi_offset lr, -4
	.cfi_offset r11, -8
	.cfi_offset r10, -12
	.cfi_offset r9, -16
	.cfi_offset r8, -20
	.cfi_offset r7, -24
	.cfi_offset r6, -28
	.cfi_offset r5, -32
	.cfi_offset r4, -36
	sub	sp, #116
	.cfi_def_cfa_offset 152
	ldr.w	r8, [r0]
	ldrb.w	r3, [r8]
	cmp	r3, #1
	bne	.LBB94_12
	movs	r7, #0
	mov	lr, r8
	strb.w	r7, [r8]
	ldr	r3, [lr, #24]!
	ldr.w	r10, [r1]
	ldr	r6, [r1, #4]
	ldrb.w	r7, [r8, #16]
	ldr	r5, [r1, #8]
	str	r5, [sp, #72]
	cmp	r7, #0
	ldr	r5, [r1, #12]
	str	r5, [sp, #76]
	beq	.LBB94_13
	cmp	r10, r3
	bne.w	.LBB94_26
	ldr.w	r3, [r8, #56]
	cmp	r6, r3
	mov	r3, r10
	bhs.w	.LBB94_26
	mvn	r7, #7
	ldr.w	r3, [r8, #72]
	and.w	r7, r7, r6, lsr #3
	ldr	r5, [r3, r7]
	add	r3, r7
	and	r7, r6, #63
	ldr	r3, [r3, #4]
	rsb.w	r4, r7, #32
	lsrs	r5, r7
	subs	r7, #32
	lsl.w	r4, r3, r4
	orr.w	r5, r5, r4
	it	pl
	lsrpl.w	r5, r3, r7
	lsls	r3, r5, #31
	mov	r3, r10
	beq.w	.LBB94_26
	add.w	r3, r8, #48
	ldr.w	r11, [r3]
	ldr.w	r9, [r11, r6, lsl #3]
	lsls.w	r3, r9, #31
	mov	r3, r10
	bne.w	.LBB94_26
	add.w	r5, r11, r6, lsl #3
	ldr	r7, [sp, #76]
	ldrd	r3, r4, [r5, #8]
	eors	r4, r7
	ldr	r7, [sp, #72]
	eors	r3, r7
	orrs	r3, r4
	mov	r3, r10
	bne.w	.LBB94_26
	ldr	r3, [r5, #4]
	adds	r4, r2, #1
	str	r3, [sp, #60]
	lsl.w	r3, r6, #3
	str	r3, [sp, #56]
	mov.w	r3, #0
	str	r6, [sp, #68]
	adc	r6, r3, #0
	cmp	r2, #0
	itt	ne
	movne	r4, r2
	movne	r6, r3
	adds.w	r3, r4, #31
	adc	r6, r6, #0
	lsrs	r3, r3, #3
	orr.w	r7, r3, r6, lsl #29
	lsr.w	r6, r9, #2
	cmp.w	r7, r9, lsr #2
	bls.w	.LBB94_27
	lsls.w	r3, r9, #30
	str.w	lr, [sp, #48]
	bmi	.LBB94_11
	ldr	r3, [sp, #68]
	mov	r4, r6
	add	r3, r6
	ldr.w	r5, [r11, r3, lsl #3]
	lsls	r6, r5, #31
	mov	r6, r4
	bne.w	.LBB94_45
.LBB94_11:
	movs	r5, #0
	mov.w	r12, #0
	b	.LBB94_46
.LBB94_12:
	movs	r0, #32
	add	sp, #116
	pop.w	{r4, r5, r6, r7, r8, r9, r10, r11, pc}
.LBB94_13:
	cmp	r10, r3
	bne.w	.LBB94_26
	ldr.w	r3, [r8, #56]
	cmp	r6, r3
	mov	r3, r10
	bhs.w	.LBB94_26
	mvn	r7, #7
	ldr.w	r3, [r8, #72]
	and.w	r7, r7, r6, lsr #3
	ldr	r5, [r3, r7]
	add	r3, r7
	and	r7, r6, #63
	ldr	r3, [r3, #4]
	rsb.w	r4, r7, #32
	lsrs	r5, r7
	subs	r7, #32
	lsl.w	r4, r3, r4
	orr.w	r5, r5, r4
	it	pl
	lsrpl.w	r5, r3, r7
	lsls	r3, r5, #31
	mov	r3, r10
	beq.w	.LBB94_26
	add.w	r11, r8, #48
	ldr.w	r12, [r11]
	ldr.w	r9, [r12, r6, lsl #3]
	lsls.w	r3, r9, #31
	mov	r3, r10
	bne	.LBB94_26
	add.w	r4, r12, r6, lsl #3
	ldr	r7, [sp, #76]
	ldrd	r3, r5, [r4, #8]
	eors	r5, r7
	ldr	r7, [sp, #72]
	eors	r3, r7
	orrs	r3, r5
	mov	r3, r10
	bne	.LBB94_26
	ldr	r3, [r4, #4]
	adds	r5, r2, #1
	str	r3, [sp, #56]
	lsl.w	r3, r6, #3
	str	r3, [sp, #44]
	mov.w	r3, #0
	adc	r7, r3, #0
	cmp	r2, #0
	itt	ne
	movne	r5, r2
	movne	r7, r3
	adds.w	r3, r5, #31
	adc	r7, r7, #0
	lsrs	r3, r3, #3
	orr.w	r7, r3, r7, lsl #29
	lsr.w	r3, r9, #2
	cmp.w	r7, r9, lsr #2
	str	r3, [sp, #68]
	str	r7, [sp, #60]
	bls.w	.LBB94_36
	lsls.w	r3, r9, #30
	str.w	lr, [sp, #48]
	bmi	.LBB94_21
	ldr	r3, [sp, #68]
	adds	r5, r3, r6
	ldr.w	r3, [r12, r5, lsl #3]
	lsls	r7, r3, #31
	ldr	r7, [sp, #60]
	bne.w	.LBB94_65
.LBB94_21:
	movs	r3, #0
	mov.w	lr, #0
	ldr	r4, [sp, #68]
	add.w	r4, r4, r3, lsr #2
	cmp	r4, r7
	bhs.w	.LBB94_66
.LBB94_22:
	ldr	r3, [sp, #72]
	mov.w	r4, #-1
	str	r3, [sp, #88]
	ldr	r3, [sp, #76]
	ldrd	r5, r9, [r8, #32]
	str	r3, [sp, #92]
	subs	r3, r4, #2
	sbc	r4, r4, #0
	subs	r3, r3, r5
	sbcs.w	r3, r4, r9
	strd	r10, r6, [sp, #80]
	blo.w	.LBB94_73
	cmp.w	r7, #1048576
	bhi.w	.LBB94_49
	orr	r4, r7, #16
	subs	r3, r7, #1
	clz	r4, r4
	str	r5, [sp, #76]
	rsb.w	r4, r4, #27
	movs	r5, #0
	lsrs	r3, r4
	add.w	r4, r3, r4, lsl #4
	adds	r4, #1
	and	r3, r3, #15
	subs	r7, r4, #1
	sbc	r4, r5, #0
	lsrs	r5, r7, #4
	orr.w	r10, r5, r4, lsl #28
	add.w	r5, r8, #108
	ldr.w	r5, [r5, r10, lsl #2]
	lsr.w	r3, r5, r3
	bics	r3, r3, #1
	beq.w	.LBB94_88
	rbit	r3, r3
	clz	r3, r3
	adds	r5, r7, r3
	adc	r3, r4, #0
	lsrs	r4, r5, #4
	orr.w	r3, r4, r3, lsl #28
	b	.LBB94_90
.LBB94_26:
	mov	r0, r10
	mov	r1, r3
	bl	tlsf_heap.refusal.Refusal.of_name
	movs	r1, #1
	strb.w	r1, [r8]
	uxtb	r1, r0
	movs	r0, #3
	cmp	r1, #3
	it	eq
	moveq	r0, #4
	add	sp, #116
	pop.w	{r4, r5, r6, r7, r8, r9, r10, r11, pc}
.LBB94_27:
	ldrd	r12, r4, [r8, #32]
	and.w	r3, r12, r4
	adds	r3, #1
	beq.w	.LBB94_73
	ldr.w	r11, [r5, #16]
	movs	r3, #0
	strd	r2, r3, [r5, #16]
	cmp	r2, r11
	bls	.LBB94_33
	str	r6, [sp, #48]
	ands	r6, r11, #7
	str	r0, [sp, #64]
	str	r4, [sp, #44]
	beq	.LBB94_31
	ldr	r3, .LCPI94_4
	str	r2, [sp, #40]
.LPC94_2:
	add	r3, pc
	str	r3, [sp, #52]
	ldr	r3, [sp, #56]
	str.w	r12, [sp, #56]
	add.w	r5, r3, r11
	add.w	r3, r8, #48
	adds	r5, #24
	ldr	r4, [r3]
	bic	r5, r5, #7
	add.w	lr, r4, r5
	str.w	lr, [sp, #36]
	ldr.w	r12, [r4, r5]
	ldr.w	r3, [lr, #4]
	strd	r12, r3, [sp, #80]
	add	r3, sp, #80
	adds	r0, r3, r6
	ldr	r3, [sp, #52]
	str	r1, [sp, #52]
	add.w	r12, r3, r6
	rsb.w	r3, r6, #8
	mov	r1, r12
	mov	r2, r3
	bl	tlsf_memory_cpy
	ldrd	r3, r12, [sp, #80]
	str	r3, [r4, r5]
	ldr	r3, [sp, #36]
	ldr	r0, [sp, #64]
	ldr	r2, [sp, #40]
	str.w	r12, [r3, #4]
	ldr	r1, [sp, #52]
	ldr.w	r12, [sp, #56]
	ldr	r4, [sp, #44]
.LBB94_31:
	lsls	r5, r2, #29
	lsr.w	r3, r2, #3
	lsr.w	r5, r11, #3
	mov.w	lr, #1
	it	ne
	addne.w	r3, lr, r2, lsr #3
	cmp	r6, #0
	it	ne
	addne.w	r5, lr, r11, lsr #3
	ldr	r6, [sp, #48]
	cmp	r3, r5
	beq	.LBB94_33
	subs	r3, r3, r5
	mov	r6, r7
	add.w	r7, r8, #48
	mov	r4, r12
	lsl.w	r12, r3, #3
	ldr	r3, [sp, #68]
	ldr.w	lr, [r7]
	mov	r11, r2
	add	r3, r5
	mov	r5, r1
	movs	r1, #0
	mov	r2, r12
	add.w	r3, lr, r3, lsl #3
	mov	r7, r6
	add.w	r0, r3, #24
	ldr	r6, [sp, #48]
	bl	tlsf_memory_set
	mov	r12, r4
	ldr	r4, [sp, #44]
	ldr	r0, [sp, #64]
	mov	r2, r11
	mov	r1, r5
.LBB94_33:
	adds	r3, r7, #4
	mov	r11, r6
	cmp	r6, r3
	mov	r3, r6
	blo	.LBB94_35
	mov	r5, r1
	ldr	r1, [sp, #68]
	ldr	r3, [sp, #60]
	mov	r6, r0
	add.w	r0, r8, #48
	strd	r12, r4, [sp, #8]
	mov	r4, r2
	mov	r2, r9
	str	r7, [sp]
	bl	tlsf_heap.refitting.split_off.5
	mov	r0, r6
	mov	r2, r4
	mov	r1, r5
	mov	r3, r7
.LBB94_35:
	ldrd	r7, r6, [r8, #32]
	sub.w	r3, r3, r11
	ldr.w	r5, [r8, #40]
	adds	r7, #1
	adc	r6, r6, #0
	add	r3, r5
	str.w	r3, [r8, #40]
	strd	r7, r6, [r8, #32]
	b	.LBB94_57
.LBB94_36:
	ldrd	r5, lr, [r8, #32]
	and.w	r3, r5, lr
	adds	r3, #1
	beq.w	.LBB94_73
	ldr.w	r11, [r4, #16]
	movs	r3, #0
	strd	r2, r3, [r4, #16]
	cmp	r2, r11
	bls	.LBB94_42
	ands	r7, r11, #7
	str	r0, [sp, #64]
	beq	.LBB94_40
	ldr	r3, .LCPI94_5
	str	r2, [sp, #40]
.LPC94_0:
	add	r3, pc
	str	r3, [sp, #52]
	ldr	r3, [sp, #44]
	str.w	lr, [sp, #44]
	add.w	r12, r3, r11
	add.w	r3, r8, #48
	ldr	r3, [r3]
	str	r3, [sp, #48]
	add.w	r3, r12, #24
	bic	r4, r3, #7
	ldr	r3, [sp, #48]
	ldr.w	r12, [r3, r4]
	add	r3, r4
	str	r3, [sp, #36]
	ldr	r3, [r3, #4]
	strd	r12, r3, [sp, #80]
	add	r3, sp, #80
	adds	r0, r3, r7
	ldr	r3, [sp, #52]
	str	r1, [sp, #52]
	add.w	r12, r3, r7
	rsb.w	r3, r7, #8
	mov	r1, r12
	mov	r2, r3
	bl	tlsf_memory_cpy
	ldr	r3, [sp, #80]
	str	r3, [sp, #32]
	ldr	r3, [sp, #84]
	str	r3, [sp, #28]
	ldr	r3, [sp, #48]
	ldr.w	r12, [sp, #32]
	ldr	r0, [sp, #64]
	str.w	r12, [r3, r4]
	ldrd	r2, lr, [sp, #40]
	ldr	r1, [sp, #52]
	ldr	r3, [sp, #36]
	ldr	r4, [sp, #28]
	str	r4, [r3, #4]
.LBB94_40:
	lsls	r4, r2, #29
	lsr.w	r3, r2, #3
	mov.w	r12, #1
	it	ne
	addne.w	r3, r12, r2, lsr #3
	lsr.w	r4, r11, #3
	cmp	r7, #0
	it	ne
	addne.w	r4, r12, r11, lsr #3
	cmp	r3, r4
	beq	.LBB94_42
	subs	r3, r3, r4
	add.w	r7, r8, #48
	str	r5, [sp, #52]
	mov	r5, lr
	lsl.w	r12, r3, #3
	adds	r3, r6, r4
	ldr.w	lr, [r7]
	mov	r4, r1
	mov	r11, r2
	movs	r1, #0
	add.w	r3, lr, r3, lsl #3
	mov	r2, r12
	add.w	r0, r3, #24
	bl	tlsf_memory_set
	mov	lr, r5
	ldr	r5, [sp, #52]
	ldr	r0, [sp, #64]
	mov	r2, r11
	mov	r1, r4
.LBB94_42:
	ldr	r7, [sp, #60]
	ldr	r4, [sp, #68]
	adds	r3, r7, #4
	cmp	r4, r3
	mov	r3, r4
	blo	.LBB94_44
	ldr	r3, [sp, #56]
	mov	r11, r0
	add.w	r0, r8, #48
	strd	r5, lr, [sp, #8]
	mov	r5, r1
	mov	r4, r2
	mov	r1, r6
	mov	r2, r9
	str	r7, [sp]
	bl	tlsf_heap.refitting.split_off.4
	mov	r0, r11
	mov	r2, r4
	mov	r1, r5
	mov	r3, r7
.LBB94_44:
	mov	r4, r6
	ldr	r6, [sp, #68]
	ldrd	r5, r12, [r8, #32]
	ldr.w	r7, [r8, #40]
	subs	r3, r3, r6
	adds	r5, #1
	mov	r6, r4
	add	r3, r7
	adc	r7, r12, #0
	str.w	r3, [r8, #40]
	clz	r3, r2
	strd	r5, r7, [r8, #32]
	b	.LBB94_58
.LBB94_45:
	add.w	r3, r11, r3, lsl #3
	ldr.w	r12, [r3, #4]
.LBB94_46:
	ldr	r4, [sp, #68]
	add.w	r3, r6, r5, lsr #2
	mov.w	lr, #-1
	cmp	r3, r7
	bhs	.LBB94_50
	ldr	r3, [sp, #72]
	str	r3, [sp, #88]
	ldr	r3, [sp, #76]
	ldrd	r6, r5, [r8, #32]
	str	r3, [sp, #92]
	subs.w	r3, lr, #2
	str	r7, [sp, #60]
	sbc	r7, lr, #0
	subs	r3, r3, r6
	strd	r10, r4, [sp, #80]
	sbcs.w	r3, r7, r5
	blo.w	.LBB94_73
	ldr	r7, [sp, #60]
	cmp.w	r7, #16777216
	bls.w	.LBB94_74
.LBB94_49:
	ldrd	r1, r3, [r8, #8]
	movs	r0, #1
	cmp	r2, r3
	strb.w	r0, [r8]
	it	hi
	movhi	r3, r2
	adds	r1, #1
	it	hs
	movhs.w	r1, #-1
	strd	r1, r3, [r8, #8]
	add	sp, #116
	pop.w	{r4, r5, r6, r7, r8, r9, r10, r11, pc}
.LBB94_50:
	ldrd	r4, r3, [r8, #32]
	eor.w	r11, r3, lr
	str	r6, [sp, #48]
	eor.w	r6, r4, lr
	orrs.w	r6, r6, r11
	beq.w	.LBB94_73
	strd	r4, r3, [sp, #16]
	mov	r11, r2
	str	r1, [sp, #52]
	mov	r2, r9
	ldr	r1, [sp, #68]
	ldr	r3, [sp, #60]
	str	r0, [sp, #64]
	add.w	r0, r8, #48
	strd	r5, r12, [sp]
	str	r7, [sp, #8]
	mov	r9, r0
	bl	tlsf_heap.refitting.recut.5
	ldr.w	r3, [r9]
	mov	r5, r0
	ldr	r4, [sp, #56]
	mov	r2, r11
	ldr	r1, [sp, #52]
	movs	r6, #0
	add	r3, r4
	ldr	r0, [sp, #64]
	ldr	r7, [r3, #16]
	strd	r2, r6, [r3, #16]
	cmp	r11, r7
	bls	.LBB94_56
	str	r5, [sp, #60]
	ands	r5, r7, #7
	beq	.LBB94_54
	adds	r0, r4, r7
	ldr	r1, .LCPI94_6
	adds	r0, #24
	ldr.w	r4, [r9]
	bic	r6, r0, #7
.LPC94_3:
	add	r1, pc
	adds	r2, r4, r6
	str	r2, [sp, #56]
	ldr	r0, [r4, r6]
	add	r1, r5
	ldr	r2, [r2, #4]
	strd	r0, r2, [sp, #80]
	add	r0, sp, #80
	add	r0, r5
	rsb.w	r2, r5, #8
	bl	tlsf_memory_cpy
	ldrd	r3, r12, [sp, #80]
	mov	r2, r11
	str	r3, [r4, r6]
	ldr	r3, [sp, #56]
	ldr	r0, [sp, #64]
	ldr	r1, [sp, #52]
	str.w	r12, [r3, #4]
.LBB94_54:
	lsls	r4, r2, #29
	lsr.w	r3, r2, #3
	lsr.w	r4, r7, #3
	mov.w	r6, #1
	it	ne
	addne.w	r3, r6, r2, lsr #3
	cmp	r5, #0
	it	ne
	addne.w	r4, r6, r7, lsr #3
	ldr	r5, [sp, #60]
	cmp	r3, r4
	beq	.LBB94_56
	subs	r0, r3, r4
	ldr.w	r1, [r9]
	lsls	r2, r0, #3
	ldr	r0, [sp, #68]
	add	r0, r4
	add.w	r0, r1, r0, lsl #3
	movs	r1, #0
	adds	r0, #24
	bl	tlsf_memory_set
	ldr	r0, [sp, #64]
	mov	r2, r11
	ldr	r1, [sp, #52]
.LBB94_56:
	ldr	r6, [sp, #48]
	ldrd	r3, r7, [r8, #40]
	subs	r6, r5, r6
	add	r3, r6
	str.w	r3, [r8, #40]
	cmp	r7, r3
	it	lo
	strlo.w	r3, [r8, #44]
	ldrd	r3, r7, [r8, #32]
	adds	r3, #1
	adc	r7, r7, #0
	strd	r3, r7, [r8, #32]
.LBB94_57:
	clz	r3, r2
	ldr	r6, [sp, #68]
.LBB94_58:
	lsrs	r3, r3, #5
.LBB94_59:
	add	r2, r3
	movs	r7, #1
	subs	r2, #1
	strb.w	r7, [r8]
	lsls	r2, r2, #28
	bpl	.LBB94_61
	ldrb	r2, [r0, #28]
	cmp	r2, #0
	itt	eq
	moveq	r2, #1
	strbeq	r2, [r0, #28]
.LBB94_61:
	ldr	r0, [sp, #72]
	str	r0, [r1, #8]
	ldr	r0, [sp, #76]
	str	r0, [r1, #12]
	movs	r0, #0
	str	r6, [r1, #4]
	str.w	r10, [r1]
	add	sp, #116
	pop.w	{r4, r5, r6, r7, r8, r9, r10, r11, pc}
	.p2align	2
.LCPI94_4:
	.long	.Lstatic.0-(.LPC94_2+4)
	.p2align	2
.LCPI94_5:
	.long	.Lstatic.0-(.LPC94_0+4)
	.p2align	2
.LCPI94_6:
	.long	.Lstatic.0-(.LPC94_3+4)
	.p2align	1
.LBB94_65:
	add.w	r7, r12, r5, lsl #3
	ldr.w	lr, [r7, #4]
	ldr	r7, [sp, #60]
	ldr	r4, [sp, #68]
	add.w	r4, r4, r3, lsr #2
	cmp	r4, r7
	blo.w	.LBB94_22
.LBB94_66:
	ldrd	r4, r5, [r8, #32]
	and.w	r7, r4, r5
	adds	r7, #1
	ldr	r7, [sp, #60]
	beq	.LBB94_73
	strd	r3, lr, [sp]
	ldr	r3, [sp, #56]
	str	r0, [sp, #64]
	mov	r0, r11
	str	r1, [sp, #52]
	mov	r1, r6
	str	r2, [sp, #40]
	mov	r2, r9
	strd	r4, r5, [sp, #16]
	str	r7, [sp, #8]
	bl	tlsf_heap.refitting.recut.4
	ldr.w	r3, [r11]
	mov	r5, r0
	ldr	r4, [sp, #44]
	movs	r7, #0
	ldr	r2, [sp, #40]
	add	r3, r4
	ldr	r1, [sp, #52]
	ldr	r0, [sp, #64]
	ldr.w	r11, [r3, #16]
	strd	r2, r7, [r3, #16]
	cmp	r2, r11
	bls	.LBB94_72
	ands	r9, r11, #7
	beq	.LBB94_70
	add.w	r2, r8, #48
	add.w	r0, r4, r11
	ldr	r1, .LCPI94_7
	adds	r0, #24
	ldr	r4, [r2]
	bic	r7, r0, #7
.LPC94_1:
	add	r1, pc
	adds	r2, r4, r7
	str	r2, [sp, #60]
	ldr	r0, [r4, r7]
	add	r1, r9
	ldr	r2, [r2, #4]
	strd	r0, r2, [sp, #80]
	add	r0, sp, #80
	add	r0, r9
	rsb.w	r2, r9, #8
	bl	tlsf_memory_cpy
	ldrd	r3, r12, [sp, #80]
	str	r3, [r4, r7]
	ldr	r3, [sp, #60]
	ldr	r0, [sp, #64]
	ldr	r2, [sp, #40]
	ldr	r1, [sp, #52]
	str.w	r12, [r3, #4]
.LBB94_70:
	lsls	r4, r2, #29
	lsr.w	r3, r2, #3
	mov.w	r7, #1
	it	ne
	addne.w	r3, r7, r2, lsr #3
	lsr.w	r4, r11, #3
	cmp.w	r9, #0
	it	ne
	addne.w	r4, r7, r11, lsr #3
	cmp	r3, r4
	beq	.LBB94_72
	add.w	r1, r8, #48
	subs	r0, r3, r4
	lsls	r2, r0, #3
	ldr	r1, [r1]
	adds	r0, r6, r4
	add.w	r0, r1, r0, lsl #3
	movs	r1, #0
	adds	r0, #24
	bl	tlsf_memory_set
	ldr	r0, [sp, #64]
	ldr	r2, [sp, #40]
	ldr	r1, [sp, #52]
.LBB94_72:
	mov	r4, r6
	ldr	r6, [sp, #68]
	ldrd	r3, r7, [r8, #40]
	subs	r5, r5, r6
	mov	r6, r4
	add	r3, r5
	str.w	r3, [r8, #40]
	cmp	r7, r3
	it	lo
	strlo.w	r3, [r8, #44]
	ldrd	r3, r7, [r8, #32]
	adds	r3, #1
	adc	r7, r7, #0
	strd	r3, r7, [r8, #32]
	clz	r3, r2
	b	.LBB94_58
.LBB94_73:
	movs	r0, #1
	strb.w	r0, [r8]
	movs	r0, #2
	add	sp, #116
	pop.w	{r4, r5, r6, r7, r8, r9, r10, r11, pc}
.LBB94_74:
	subs	r3, r7, #1
	orr	r7, r7, #32
	clz	r7, r7
	str	r6, [sp, #72]
	rsb.w	r7, r7, #26
	add.w	r10, r8, #108
	lsr.w	r6, r3, r7
	add.w	r3, r6, r7, lsl #5
	adds	r3, #1
	movs	r7, #0
	subs	r3, #1
	and	r6, r6, #31
	sbc	r9, r7, #0
	lsrs	r7, r3, #5
	orr.w	r7, r7, r9, lsl #27
	ldr.w	r4, [r10, r7, lsl #2]
	lsr.w	r6, r4, r6
	bics	r12, r6, #1
	beq	.LBB94_76
	rbit	r7, r12
	clz	r7, r7
	adds	r7, r7, r3
	adc	r3, r9, #0
	lsrs	r6, r7, #5
	orr.w	r12, r6, r3, lsl #27
	b	.LBB94_78
.LBB94_76:
	ldr.w	r3, [r8, #104]
	mvn	r6, #1
	lsl.w	r7, r6, r7
	ands	r3, r7
	beq.w	.LBB94_49
	rbit	r3, r3
	clz	r3, r3
	ldr.w	r7, [r10, r3, lsl #2]
	rbit	r7, r7
	clz	r7, r7
	add.w	r7, r7, r3, lsl #5
	lsr.w	r12, r7, #5
.LBB94_78:
	add.w	r9, r8, #192
	str	r5, [sp, #36]
	ldr.w	r6, [r9, r7, lsl #2]
	str	r6, [sp, #76]
	add.w	r3, r11, r6, lsl #3
	lsls	r4, r6, #3
	ldr	r3, [r3, #16]
	adds	r6, r3, #1
	beq	.LBB94_80
	add.w	r6, r11, r3, lsl #3
	mov.w	r5, #-1
	str	r5, [r6, #20]
	str.w	r3, [r9, r7, lsl #2]
	add.w	r3, r8, #48
	ldr.w	r11, [r3]
	b	.LBB94_82
.LBB94_80:
	mov.w	r3, #-1
	str.w	r3, [r9, r7, lsl #2]
	and	r7, r7, #31
	movs	r3, #1
	ldr.w	r6, [r10, r12, lsl #2]
	lsl.w	r7, r3, r7
	bics.w	r7, r6, r7
	str.w	r7, [r10, r12, lsl #2]
	bne	.LBB94_82
	ldr.w	r7, [r8, #104]
	lsl.w	r3, r3, r12
	bic.w	r3, r7, r3
	str.w	r3, [r8, #104]
.LBB94_82:
	add.w	r5, r11, r4
	ldr.w	r3, [r11, r4]
	ldr	r7, [sp, #60]
	ldr.w	r12, [r5, #4]
	str	r4, [sp, #44]
	sub.w	r9, r3, r7, lsl #2
	cmp.w	r9, #15
	bhi	.LBB94_84
	subs	r3, #1
	mov.w	lr, #0
	sbc	r6, r12, #0
	ldr	r4, [sp, #72]
	ldr.w	r9, [sp, #36]
	strd	r3, r6, [r5]
	lsrs	r3, r3, #2
	str	r4, [r5, #8]
	strd	r9, r2, [r5, #12]
	str.w	lr, [r5, #20]
	ldr	r4, [sp, #44]
	b	.LBB94_101
.LBB94_84:
	lsr.w	r4, r9, #2
	subs.w	r3, r3, r9
	str	r4, [sp, #52]
	ldr	r4, [sp, #76]
	ldr	r6, [sp, #72]
	add.w	r10, r4, r7
	str	r3, [r5]
	mov.w	r3, #0
	str	r2, [r5, #16]
	str	r6, [r5, #8]
	mov.w	r7, #1
	str.w	r9, [r11, r10, lsl #3]
	str	r3, [r5, #20]
	sbc	r3, r12, #0
	str	r3, [r5, #4]
	add.w	r3, r11, r10, lsl #3
	ldr.w	r12, [sp, #36]
	adds	r3, #4
	str.w	r12, [r5, #12]
	stm.w	r3, {r4, r6, r12}
	and	r3, r10, #63
	lsl.w	r5, r7, r3
	subs.w	r7, r3, #32
	str	r7, [sp, #40]
	movw	r7, #65528
	it	pl
	movpl	r5, #0
	ldr.w	r12, [r8, #72]
	movt	r7, #8191
	and.w	r6, r7, r10, lsr #3
	rsb.w	r3, r3, #32
	ldr	r7, [sp, #40]
	ldr.w	r11, [r12, r6]
	orr.w	r11, r11, r5
	add.w	r5, r12, r6
	str.w	r11, [r12, r6]
	mov.w	r12, #1
	lsr.w	r3, r12, r3
	ldr	r4, [r5, #4]
	ldr	r6, [sp, #52]
	it	pl
	lslpl.w	r3, r12, r7
	orrs	r3, r4
	str	r3, [r5, #4]
	lsls.w	r3, r9, #30
	bmi	.LBB94_86
	add.w	r3, r8, #48
	add.w	r7, r6, r10
	ldr	r3, [r3]
	add.w	r3, r3, r7, lsl #3
	str.w	r10, [r3, #4]
.LBB94_86:
	orr	r3, r6, #32
	add.w	r4, r8, #192
	clz	r3, r3
	lsl.w	r11, r10, #3
	rsb.w	r3, r3, #26
	lsr.w	r12, r6, r3
	add.w	r5, r12, r3, lsl #5
	add.w	r6, r8, #48
	ldr.w	r3, [r4, r5, lsl #2]
	str.w	r10, [r4, r5, lsl #2]
	ldr	r7, [r6]
	cmp.w	r3, #-1
	ldr	r4, [sp, #44]
	ble.w	.LBB94_99
	add.w	r5, r7, r11
	mov.w	r6, #-1
	strd	r3, r6, [r5, #16]
	add.w	r3, r7, r3, lsl #3
	str.w	r10, [r3, #20]
	b	.LBB94_100
.LBB94_88:
	ldr.w	r3, [r8, #104]
	mvn	r4, #1
	lsl.w	r4, r4, r10
	ands	r3, r4
	beq.w	.LBB94_49
	rbit	r3, r3
	add.w	r7, r8, #108
	clz	r3, r3
	ldr.w	r4, [r7, r3, lsl #2]
	rbit	r4, r4
	clz	r4, r4
	add.w	r5, r4, r3, lsl #4
	lsrs	r3, r5, #4
.LBB94_90:
	add.w	lr, r8, #192
	str	r3, [sp, #68]
	ldr.w	r4, [lr, r5, lsl #2]
	str	r4, [sp, #72]
	add.w	r3, r12, r4, lsl #3
	lsl.w	r10, r4, #3
	ldr	r7, [r3, #16]
	adds	r3, r7, #1
	beq	.LBB94_92
	add.w	r3, r12, r7, lsl #3
	mov.w	r4, #-1
	str	r4, [r3, #20]
	str.w	r7, [lr, r5, lsl #2]
	ldr.w	r12, [r11]
	b	.LBB94_94
.LBB94_92:
	mov.w	r3, #-1
	add.w	r4, r8, #108
	str.w	r3, [lr, r5, lsl #2]
	and	r5, r5, #15
	mov.w	lr, #1
	ldr	r3, [sp, #68]
	lsl.w	r5, lr, r5
	ldr.w	r7, [r4, r3, lsl #2]
	bics.w	r5, r7, r5
	str.w	r5, [r4, r3, lsl #2]
	bne	.LBB94_94
	ldr.w	r5, [r8, #104]
	lsl.w	r3, lr, r3
	bic.w	r3, r5, r3
	str.w	r3, [r8, #104]
.LBB94_94:
	ldr	r3, [sp, #60]
	ldr.w	r5, [r12, r10]
	str.w	r10, [sp, #56]
	add	r10, r12
	str.w	r9, [sp, #68]
	sub.w	r4, r5, r3, lsl #2
	ldr.w	r11, [r10, #4]
	cmp	r4, #15
	bhi	.LBB94_97
	subs	r7, r5, #1
	mov.w	r3, #0
	sbc	r5, r11, #0
	strd	r2, r3, [r10, #16]
	lsrs	r3, r7, #2
	add.w	r11, r8, #48
	strd	r7, r5, [r10]
	ldr	r5, [sp, #76]
	strd	r5, r9, [r10, #8]
	ldr	r7, [sp, #60]
	b	.LBB94_109
	.p2align	2
.LCPI94_7:
	.long	.Lstatic.0-(.LPC94_1+4)
	.p2align	1
.LBB94_97:
	ldr.w	lr, [sp, #72]
	lsrs	r7, r4, #2
	subs	r5, r5, r4
	str	r7, [sp, #52]
	ldr	r7, [sp, #76]
	str.w	r5, [r10]
	mov	r5, r9
	add.w	r9, lr, r3
	str.w	r7, [r10, #8]
	mov.w	r7, #0
	str.w	r2, [r10, #16]
	str.w	r4, [r12, r9, lsl #3]
	str.w	r7, [r10, #20]
	sbc	r7, r11, #0
	str.w	r7, [r10, #4]
	add.w	r7, r12, r9, lsl #3
	ldr	r3, [sp, #76]
	and	r11, r9, #63
	str.w	r5, [r10, #12]
	str.w	lr, [r7, #4]
	strd	r3, r5, [r7, #8]
	subs.w	r7, r11, #32
	mov.w	r3, #1
	str	r7, [sp, #40]
	movw	r7, #65528
	lsl.w	r3, r3, r11
	movt	r7, #8191
	ldr.w	lr, [sp, #52]
	it	pl
	movpl	r3, #0
	and.w	r5, r7, r9, lsr #3
	ldr.w	r7, [r8, #72]
	ldr.w	r12, [r7, r5]
	orr.w	r12, r12, r3
	add.w	r3, r7, r5
	str.w	r12, [r7, r5]
	rsb.w	r7, r11, #32
	mov.w	r12, #1
	ldr.w	r10, [r3, #4]
	lsr.w	r7, r12, r7
	ldr	r5, [sp, #40]
	it	pl
	lslpl.w	r7, r12, r5
	orr.w	r7, r7, r10
	str	r7, [r3, #4]
	lsls	r3, r4, #30
	add.w	r11, r8, #48
	itttt	pl
	ldrpl.w	r3, [r11]
	addpl.w	r7, lr, r9
	addpl.w	r3, r3, r7, lsl #3
	strpl.w	r9, [r3, #4]
	lsl.w	r12, r9, #3
	orr	r3, lr, #16
	add.w	r7, r8, #192
	clz	r3, r3
	mov.w	r5, #-1
	rsb.w	r3, r3, #27
	lsr.w	r10, lr, r3
	add.w	r4, r10, r3, lsl #4
	ldr.w	r3, [r7, r4, lsl #2]
	str.w	r9, [r7, r4, lsl #2]
	ldr.w	r7, [r11]
	cmp.w	r3, #-1
	ble.w	.LBB94_107
	add.w	r5, r7, r12
	mov.w	r4, #-1
	strd	r3, r4, [r5, #16]
	add.w	r3, r7, r3, lsl #3
	str.w	r9, [r3, #20]
	b	.LBB94_108
.LBB94_99:
	add.w	r3, r7, r11
	lsrs	r7, r5, #5
	strd	lr, lr, [r3, #16]
	add.w	lr, r8, #108
	and	r3, r12, #31
	mov.w	r12, #1
	ldr.w	r6, [lr, r7, lsl #2]
	lsl.w	r3, r12, r3
	ldr.w	r5, [r8, #104]
	orrs	r3, r6
	str.w	r3, [lr, r7, lsl #2]
	lsl.w	r3, r12, r7
	orrs	r3, r5
	str.w	r3, [r8, #104]
.LBB94_100:
	ldr	r7, [sp, #60]
	ldr.w	r9, [sp, #36]
	mov	r3, r7
.LBB94_101:
	str	r0, [sp, #64]
	str	r1, [sp, #52]
	ldrd	r0, r1, [r8, #40]
	str	r2, [sp, #40]
	add	r0, r3
	str.w	r0, [r8, #40]
	cmp	r1, r0
	ldr	r6, [sp, #68]
	ldr	r5, [sp, #56]
	it	lo
	strlo.w	r0, [r8, #44]
	ldrd	r0, r1, [r8, #32]
	ldr.w	r10, [r8, #24]
	adds	r0, #1
	adc	r1, r1, #0
	strd	r0, r1, [r8, #32]
	subs	r1, r7, #3
	add.w	r7, r8, #48
	beq	.LBB94_103
	ldr	r0, [r7]
	lsls	r2, r1, #3
	movs	r1, #0
	add	r0, r4
	adds	r0, #24
	bl	tlsf_memory_set
	ldr	r4, [sp, #44]
.LBB94_103:
	ldr	r0, [r7]
	mov.w	r12, #0
	adds	r1, r0, r5
	adds	r2, r0, r4
	ldr	r1, [r1, #16]
	ldr	r2, [r2, #16]
	cmp	r2, r1
	it	lo
	movlo	r1, r2
	lsrs	r4, r1, #3
	and	r11, r1, #7
	ldr	r1, [sp, #76]
	adds	r5, r1, #3
	adc	r1, r12, #0
	adds	r2, r6, #3
	adc	r3, r12, #0
	cmp.w	r11, #0
	beq	.LBB94_105
	adds	r6, r4, r2
	ldr.w	r7, [r0, r6, lsl #3]
	add.w	r6, r0, r6, lsl #3
	ldr	r6, [r6, #4]
	strd	r5, r1, [sp]
	strd	r4, r12, [sp, #8]
	strd	r7, r6, [sp, #96]
	bl	tlsf_words.cells.copy_run
	add.w	r0, r8, #48
	add	r4, r5
	mov	r2, r11
	ldr	r6, [r0]
	add.w	r5, r6, r4, lsl #3
	ldr.w	r0, [r6, r4, lsl #3]
	ldr	r1, [r5, #4]
	strd	r0, r1, [sp, #104]
	add	r0, sp, #104
	add	r1, sp, #96
	bl	tlsf_memory_cpy
	ldrd	r0, r1, [sp, #104]
	str.w	r0, [r6, r4, lsl #3]
	str	r1, [r5, #4]
	b	.LBB94_106
.LBB94_105:
	strd	r5, r1, [sp]
	strd	r4, r12, [sp, #8]
	bl	tlsf_words.cells.copy_run
.LBB94_106:
	ldr	r0, [sp, #48]
	add	r1, sp, #80
	bl	tlsf_heap.heap.Heap.release_live.5
	ldr	r2, [sp, #40]
	ldr	r6, [sp, #76]
	clz	r0, r2
	str.w	r9, [sp, #76]
	lsrs	r3, r0, #5
	b	.LBB94_115
.LBB94_107:
	add.w	r3, r7, r12
	add.w	lr, r8, #108
	lsrs	r7, r4, #4
	mov.w	r12, #1
	strd	r5, r5, [r3, #16]
	and	r3, r10, #15
	ldr.w	r5, [lr, r7, lsl #2]
	lsl.w	r3, r12, r3
	ldr.w	r4, [r8, #104]
	orrs	r3, r5
	str.w	r3, [lr, r7, lsl #2]
	lsl.w	r3, r12, r7
	orrs	r3, r4
	str.w	r3, [r8, #104]
.LBB94_108:
	ldr	r7, [sp, #60]
	mov	r3, r7
.LBB94_109:
	str	r0, [sp, #64]
	str	r1, [sp, #52]
	ldrd	r0, r1, [r8, #40]
	str	r2, [sp, #40]
	add	r0, r3
	str.w	r0, [r8, #40]
	cmp	r1, r0
	ldr	r4, [sp, #44]
	it	lo
	strlo.w	r0, [r8, #44]
	ldrd	r0, r1, [r8, #32]
	ldr.w	r10, [r8, #24]
	adds	r0, #1
	ldr	r5, [sp, #56]
	adc	r1, r1, #0
	strd	r0, r1, [r8, #32]
	subs	r1, r7, #3
	beq	.LBB94_111
	ldr.w	r0, [r11]
	lsls	r2, r1, #3
	movs	r1, #0
	add	r0, r5
	adds	r0, #24
	bl	tlsf_memory_set
.LBB94_111:
	ldr.w	r0, [r11]
	mov.w	r12, #0
	adds	r1, r0, r4
	adds	r2, r0, r5
	ldr	r1, [r1, #16]
	ldr	r2, [r2, #16]
	cmp	r2, r1
	it	lo
	movlo	r1, r2
	lsrs	r4, r1, #3
	and	r9, r1, #7
	ldr	r1, [sp, #72]
	adds	r5, r1, #3
	adc	lr, r12, #0
	adds	r2, r6, #3
	adc	r3, r12, #0
	cmp.w	r9, #0
	beq	.LBB94_113
	adds	r7, r4, r2
	ldr.w	r1, [r0, r7, lsl #3]
	add.w	r7, r0, r7, lsl #3
	ldr	r7, [r7, #4]
	strd	r5, lr, [sp]
	strd	r4, r12, [sp, #8]
	strd	r1, r7, [sp, #96]
	bl	tlsf_words.cells.copy_run
	ldr.w	r7, [r11]
	add	r4, r5
	mov	r2, r9
	add.w	r5, r7, r4, lsl #3
	ldr.w	r0, [r7, r4, lsl #3]
	ldr	r1, [r5, #4]
	strd	r0, r1, [sp, #104]
	add	r0, sp, #104
	add	r1, sp, #96
	bl	tlsf_memory_cpy
	ldrd	r0, r1, [sp, #104]
	str.w	r0, [r7, r4, lsl #3]
	str	r1, [r5, #4]
	b	.LBB94_114
.LBB94_113:
	strd	r5, lr, [sp]
	strd	r4, r12, [sp, #8]
	bl	tlsf_words.cells.copy_run
.LBB94_114:
	ldr	r0, [sp, #48]
	add	r1, sp, #80
	bl	tlsf_heap.heap.Heap.release_live.4
	ldr	r2, [sp, #40]
	clz	r0, r2
	lsrs	r3, r0, #5
	ldrd	r6, r0, [sp, #72]
	str	r0, [sp, #72]
	ldr	r0, [sp, #68]
	str	r0, [sp, #76]
.LBB94_115:
	ldr	r1, [sp, #52]
	ldr	r0, [sp, #64]
	b	.LBB94_59
.Lfunc_end94:
	.size	tlsf_reallocate, .Lfunc_end94-tlsf_reallocate
	.cfi_endproc
	.section	.text.tlsf_release,"ax",%progbits
	.globl	tlsf_release
	.p2align	1
	.type	tlsf_release,%function
	.code	16
	.thumb_func
tlsf_release:
	.cfi_startproc
	mov	r1, r2
	ldrd	r2, r12, [sp]
	str	r3, [sp]
	mov	r3, r12
	b	tlsf_c.heap_calls.release_named
.Lfunc_end95:
	.size	tlsf_release, .Lfunc_end95-tlsf_release
	.cfi_endproc
	.section	.text.tlsf_release_all,"ax",%progbits
	.globl	tlsf_release_all
	.p2align	1
	.type	tlsf_release_all,%function
	.code	16
	.thumb_func
tlsf_release_all:
	.cfi_startproc
	push.w	{r4, r5, r6, r7, r8, r9, r10, r11, lr}
	.cfi_def_cfa_offset 36
	.cfi_offset lr, -4
	.cfi_offset r11, -8
	.cfi_offset r10, -12
	.cfi_offset r9, -16
	.cfi_offset r8, -20
	.cfi_offset r7, -24
	.cfi_offset r6, -28
	.cfi_offset r5, -32
	.cfi_offset r4, -36
	sub	sp, #44
	.cfi_def_cfa_offset 80
	ldrb	r3, [r0, #8]
	cmp	r1, #0
	it	eq
	addeq.w	r1, r1, #4096
	cmp	r3, #0
	ittt	ne
	ldrne.w	r11, [r0]
	ldrbne.w	r0, [r11]
	cmpne	r0, #0
	bne	.LBB96_2
	movs	r0, #0
	add	sp, #44
	pop.w	{r4, r5, r6, r7, r8, r9, r10, r11, lr}
	b	tlsf_c.call_fault.CallFault.refusal
.LBB96_2:
	ldrb.w	r0, [r11, #16]
	movs	r3, #0
	strb.w	r3, [r11]
	cbz	r0, .LBB96_5
	cmp	r2, #0
	beq.w	.LBB96_43
	movs	r7, #0
	mov.w	r8, #0
	b	.LBB96_10
.LBB96_5:
	cmp	r2, #0
	beq.w	.LBB96_43
	movs	r7, #0
	mov.w	r8, #0
	b	.LBB96_28
.LBB96_7:
	adds	r0, r5, #1
	adc	r3, lr, #0
	strd	r0, r3, [r11, #32]
	add.w	r0, r11, #48
	strd	r4, r9, [sp]
	mov	r4, r2
	strd	r5, lr, [sp, #8]
	mov	r2, r6
	str.w	r12, [sp, #16]
	mov	r5, r1
	ldr	r3, [sp, #36]
	bl	tlsf_heap.fitting.merge_next.5
.LBB96_8:
	mov	r1, r5
	mov	r2, r4
.LBB96_9:
	adds	r7, #1
	adc	r8, r8, #0
	subs	r0, r7, r2
	sbcs	r0, r8, #0
	bhs.w	.LBB96_43
.LBB96_10:
	lsls	r3, r7, #4
	ldr.w	r0, [r11, #24]
	ldr	r3, [r1, r3]
	cmp	r3, r0
	bne	.LBB96_9
	add.w	r3, r1, r7, lsl #4
	ldr.w	r6, [r11, #56]
	ldr.w	r12, [r3, #4]
	cmp	r12, r6
	bhs	.LBB96_9
	movw	r0, #65528
	ldr.w	r6, [r11, #72]
	movt	r0, #8191
	and.w	r5, r0, r12, lsr #3
	ldr	r4, [r6, r5]
	add	r6, r5
	and	r5, r12, #63
	ldr	r6, [r6, #4]
	rsb.w	r0, r5, #32
	lsrs	r4, r5
	subs	r5, #32
	lsl.w	r0, r6, r0
	orr.w	r0, r0, r4
	it	pl
	lsrpl.w	r0, r6, r5
	lsls	r0, r0, #31
	beq	.LBB96_9
	add.w	r0, r11, #48
	ldr.w	r9, [r0]
	ldr.w	r4, [r9, r12, lsl #3]
	lsls	r0, r4, #31
	bne	.LBB96_9
	add.w	r10, r9, r12, lsl #3
	ldr	r0, [r3, #8]
	ldrd	r6, r5, [r10, #8]
	ldr	r3, [r3, #12]
	eors	r0, r6
	eors	r3, r5
	orrs	r0, r3
	bne	.LBB96_9
	ldrd	r5, lr, [r11, #32]
	mov.w	r3, #-1
	eor.w	r0, lr, r3
	eors	r3, r5
	orrs	r0, r3
	beq	.LBB96_9
	ldr.w	r0, [r11, #40]
	lsls	r3, r4, #30
	ldr.w	r6, [r10, #4]
	sub.w	r0, r0, r4, lsr #2
	str.w	r0, [r11, #40]
	lsr.w	r0, r4, #2
	str	r0, [sp, #32]
	bmi	.LBB96_18
	add.w	r3, r0, r12
	ldr.w	r0, [r9, r3, lsl #3]
	add.w	r3, r9, r3, lsl #3
	str	r0, [sp, #40]
	ldr	r0, [r3, #4]
	b	.LBB96_19
.LBB96_18:
	movs	r0, #0
	str	r0, [sp, #40]
.LBB96_19:
	str	r0, [sp, #36]
	cmp.w	r12, #0
	itt	ne
	ldrne.w	r3, [r9, r6, lsl #3]
	lslsne.w	r0, r3, #31
	bne	.LBB96_23
	mov	r9, r6
	ldr	r6, [sp, #40]
	lsls	r0, r6, #31
	bne.w	.LBB96_7
	lsl.w	r0, r12, #3
	str.w	r5, [r10, #8]
	str	r0, [sp, #40]
	orr	r0, r4, #1
	str.w	r0, [r10]
	str.w	lr, [r10, #12]
	ldr.w	r0, [r11, #32]
	str.w	r9, [r10, #4]
	ldr.w	r3, [r11, #36]
	adds	r0, #1
	ldr	r6, [sp, #32]
	adc	r3, r3, #0
	strd	r0, r3, [r11, #32]
	orr	r0, r6, #32
	clz	r0, r0
	rsb.w	r3, r0, #26
	lsr.w	r0, r6, r3
	add.w	r3, r0, r3, lsl #5
	add.w	r6, r11, #192
	ldr.w	r5, [r6, r3, lsl #2]
	str.w	r12, [r6, r3, lsl #2]
	ldr.w	r4, [r11, #48]
	cmp.w	r5, #-1
	ble	.LBB96_24
	ldr	r6, [sp, #40]
	mov.w	r3, #-1
	adds	r0, r3, r5
	adc	r3, r3, #0
	adds	r0, #1
	sbc	r3, r3, #0
	add	r6, r4
	strd	r0, r3, [r6, #16]
	add.w	r0, r4, r5, lsl #3
	str.w	r12, [r0, #20]
	b	.LBB96_9
.LBB96_23:
	add.w	r0, r9, r6, lsl #3
	adds.w	r10, r5, #1
	ldr.w	r9, [r0, #4]
	adc	r0, lr, #0
	strd	r10, r0, [r11, #32]
	add.w	r0, r11, #48
	strd	r4, r6, [sp, #24]
	mov	r4, r2
	strd	r5, lr, [sp, #8]
	mov	r5, r1
	strd	r3, r9, [sp]
	str.w	r12, [sp, #16]
	ldrd	r3, r2, [sp, #36]
	bl	tlsf_heap.fitting.merge_before.5
	b	.LBB96_8
.LBB96_24:
	ldr	r6, [sp, #40]
	mov.w	r5, #-1
	lsrs	r3, r3, #5
	and	r0, r0, #31
	add	r6, r4
	add.w	r4, r11, #108
	mov.w	r12, #1
	strd	r5, r5, [r6, #16]
	lsl.w	r0, r12, r0
	ldr.w	r6, [r4, r3, lsl #2]
	ldr.w	r5, [r11, #104]
	orrs	r0, r6
	str.w	r0, [r4, r3, lsl #2]
	lsl.w	r0, r12, r3
	orrs	r0, r5
	str.w	r0, [r11, #104]
	b	.LBB96_9
.LBB96_25:
	adds	r0, r4, #1
	adc	r3, lr, #0
	strd	r0, r3, [r11, #32]
	add.w	r0, r11, #48
	strd	r5, r9, [sp]
	mov	r5, r1
	strd	r4, lr, [sp, #8]
	mov	r4, r2
	str.w	r12, [sp, #16]
	mov	r2, r6
	ldr	r3, [sp, #36]
	bl	tlsf_heap.fitting.merge_next.4
.LBB96_26:
	mov	r1, r5
	mov	r2, r4
.LBB96_27:
	adds	r7, #1
	adc	r8, r8, #0
	subs	r0, r7, r2
	sbcs	r0, r8, #0
	bhs.w	.LBB96_43
.LBB96_28:
	lsls	r3, r7, #4
	ldr.w	r0, [r11, #24]
	ldr	r3, [r1, r3]
	cmp	r3, r0
	bne	.LBB96_27
	add.w	r3, r1, r7, lsl #4
	ldr.w	r5, [r11, #56]
	ldr.w	r12, [r3, #4]
	cmp	r12, r5
	bhs	.LBB96_27
	movw	r0, #65528
	ldr.w	r5, [r11, #72]
	movt	r0, #8191
	and.w	r4, r0, r12, lsr #3
	ldr	r0, [r5, r4]
	add	r5, r4
	and	r4, r12, #63
	ldr	r5, [r5, #4]
	rsb.w	r6, r4, #32
	lsrs	r0, r4
	lsl.w	r6, r5, r6
	orrs	r0, r6
	subs.w	r6, r4, #32
	it	pl
	lsrpl.w	r0, r5, r6
	lsls	r0, r0, #31
	beq	.LBB96_27
	add.w	r0, r11, #48
	ldr.w	r9, [r0]
	ldr.w	r5, [r9, r12, lsl #3]
	lsls	r0, r5, #31
	bne	.LBB96_27
	add.w	r10, r9, r12, lsl #3
	ldr	r0, [r3, #8]
	ldrd	r6, r4, [r10, #8]
	ldr	r3, [r3, #12]
	eors	r0, r6
	eors	r3, r4
	orrs	r0, r3
	bne	.LBB96_27
	ldrd	r4, lr, [r11, #32]
	mov.w	r3, #-1
	eor.w	r0, lr, r3
	eors	r3, r4
	orrs	r0, r3
	beq	.LBB96_27
	ldr.w	r0, [r11, #40]
	lsls	r3, r5, #30
	ldr.w	r6, [r10, #4]
	sub.w	r0, r0, r5, lsr #2
	str.w	r0, [r11, #40]
	lsr.w	r0, r5, #2
	str	r0, [sp, #32]
	bmi	.LBB96_36
	add.w	r3, r0, r12
	ldr.w	r0, [r9, r3, lsl #3]
	add.w	r3, r9, r3, lsl #3
	str	r0, [sp, #40]
	ldr	r0, [r3, #4]
	b	.LBB96_37
.LBB96_36:
	movs	r0, #0
	str	r0, [sp, #40]
.LBB96_37:
	str	r0, [sp, #36]
	cmp.w	r12, #0
	itt	ne
	ldrne.w	r3, [r9, r6, lsl #3]
	lslsne.w	r0, r3, #31
	bne	.LBB96_41
	mov	r9, r6
	ldr	r6, [sp, #40]
	lsls	r0, r6, #31
	bne.w	.LBB96_25
	lsl.w	r0, r12, #3
	str.w	r4, [r10, #8]
	str	r0, [sp, #40]
	orr	r0, r5, #1
	str.w	r0, [r10]
	str.w	lr, [r10, #12]
	ldr.w	r0, [r11, #32]
	str.w	r9, [r10, #4]
	ldr.w	r3, [r11, #36]
	adds	r0, #1
	ldr	r6, [sp, #32]
	adc	r3, r3, #0
	strd	r0, r3, [r11, #32]
	orr	r0, r6, #16
	clz	r0, r0
	rsb.w	r3, r0, #27
	lsr.w	r0, r6, r3
	add.w	r3, r0, r3, lsl #4
	add.w	r6, r11, #192
	ldr.w	r5, [r6, r3, lsl #2]
	str.w	r12, [r6, r3, lsl #2]
	ldr.w	r4, [r11, #48]
	cmp.w	r5, #-1
	ble	.LBB96_42
	ldr	r6, [sp, #40]
	mov.w	r3, #-1
	adds	r0, r3, r5
	adc	r3, r3, #0
	adds	r0, #1
	sbc	r3, r3, #0
	add	r6, r4
	strd	r0, r3, [r6, #16]
	add.w	r0, r4, r5, lsl #3
	str.w	r12, [r0, #20]
	b	.LBB96_27
.LBB96_41:
	add.w	r0, r9, r6, lsl #3
	adds.w	r10, r4, #1
	ldr.w	r9, [r0, #4]
	adc	r0, lr, #0
	strd	r10, r0, [r11, #32]
	add.w	r0, r11, #48
	strd	r5, r6, [sp, #24]
	mov	r5, r1
	strd	r4, lr, [sp, #8]
	mov	r4, r2
	strd	r3, r9, [sp]
	str.w	r12, [sp, #16]
	ldrd	r3, r2, [sp, #36]
	bl	tlsf_heap.fitting.merge_before.4
	b	.LBB96_26
.LBB96_42:
	ldr	r6, [sp, #40]
	mov.w	r5, #-1
	lsrs	r3, r3, #4
	and	r0, r0, #15
	add	r6, r4
	add.w	r4, r11, #108
	mov.w	r12, #1
	strd	r5, r5, [r6, #16]
	lsl.w	r0, r12, r0
	ldr.w	r6, [r4, r3, lsl #2]
	ldr.w	r5, [r11, #104]
	orrs	r0, r6
	str.w	r0, [r4, r3, lsl #2]
	lsl.w	r0, r12, r3
	orrs	r0, r5
	str.w	r0, [r11, #104]
	b	.LBB96_27
.LBB96_43:
	movs	r0, #1
	strb.w	r0, [r11]
	movs	r0, #0
	add	sp, #44
	pop.w	{r4, r5, r6, r7, r8, r9, r10, r11, pc}
.Lfunc_end96:
	.size	tlsf_release_all, .Lfunc_end96-tlsf_release_all
	.cfi_endproc
	.section	.text.tlsf_release_place,"ax",%progbits
	.globl	tlsf_release_place
	.p2align	1
	.type	tlsf_release_place,%function
	.code	16
	.thumb_func
tlsf_release_place:
	.cfi_startproc
	push.w	{r4, r5, r6, r7, r8, r9, r10, r11, lr}
	.cfi_def_cfa_offset 36
	.cfi_offset lr, -4
	.cfi_offset r11, -8
	.cfi_offset r10, -12
	.cfi_offset r9, -16
	.cfi_offset r8, -20
	.cfi_offset r7, -24
	.cfi_offset r6, -28
	.cfi_offset r5, -32
	.cfi_offset r4, -36
	sub	sp, #36
	.cfi_def_cfa_offset 72
	ldrb	r2, [r0, #8]
	cmp	r2, #0
	ittt	ne
	ldrne	r4, [r0]
	ldrbne	r0, [r4]
	cmpne	r0, #0
	bne	.LBB97_2
	movs	r0, #0
	add	sp, #36
	pop.w	{r4, r5, r6, r7, r8, r9, r10, r11, lr}
	b	tlsf_c.call_fault.CallFault.refusal
.LBB97_2:
	movs	r0, #0
	ldr	r2, [r4, #56]
	strb	r0, [r4]
	add.w	r0, r4, #48
	ldrb	r3, [r4, #16]
	cbz	r3, .LBB97_9
	cmp	r1, r2
	bhs	.LBB97_16
	mvn	r3, #7
	ldr	r2, [r4, #72]
	and.w	r3, r3, r1, lsr #3
	ldr	r7, [r2, r3]
	add	r2, r3
	and	r3, r1, #63
	ldr	r2, [r2, #4]
	rsb.w	r6, r3, #32
	lsrs	r7, r3
	subs	r3, #32
	lsl.w	r6, r2, r6
	orr.w	r7, r7, r6
	it	pl
	lsrpl.w	r7, r2, r3
	lsls	r2, r7, #31
	beq	.LBB97_16
	ldr	r6, [r0]
	ldr.w	lr, [r6, r1, lsl #3]
	lsls.w	r2, lr, #31
	bne	.LBB97_16
	ldrd	r5, r12, [r4, #32]
	and.w	r2, r5, r12
	adds	r2, #1
	beq	.LBB97_15
	add.w	r11, r6, r1, lsl #3
	ldr	r2, [r4, #40]
	lsr.w	r8, lr, #2
	ldr.w	r9, [r11, #4]
	sub.w	r2, r2, lr, lsr #2
	str	r2, [r4, #40]
	lsls.w	r2, lr, #30
	bmi	.LBB97_17
	add.w	r3, r8, r1
	ldr.w	r2, [r6, r3, lsl #3]
	add.w	r3, r6, r3, lsl #3
	ldr	r3, [r3, #4]
	b	.LBB97_18
.LBB97_9:
	cmp	r1, r2
	bhs	.LBB97_16
	mvn	r3, #7
	ldr	r2, [r4, #72]
	and.w	r3, r3, r1, lsr #3
	ldr	r7, [r2, r3]
	add	r2, r3
	and	r3, r1, #63
	ldr	r2, [r2, #4]
	rsb.w	r6, r3, #32
	lsrs	r7, r3
	subs	r3, #32
	lsl.w	r6, r2, r6
	orr.w	r7, r7, r6
	it	pl
	lsrpl.w	r7, r2, r3
	lsls	r2, r7, #31
	beq	.LBB97_16
	ldr	r6, [r0]
	ldr.w	lr, [r6, r1, lsl #3]
	lsls.w	r2, lr, #31
	bne	.LBB97_16
	ldrd	r5, r12, [r4, #32]
	and.w	r2, r5, r12
	adds	r2, #1
	beq	.LBB97_15
	add.w	r11, r6, r1, lsl #3
	ldr	r2, [r4, #40]
	lsr.w	r8, lr, #2
	ldr.w	r9, [r11, #4]
	sub.w	r2, r2, lr, lsr #2
	str	r2, [r4, #40]
	lsls.w	r2, lr, #30
	bmi	.LBB97_23
	add.w	r3, r8, r1
	ldr.w	r2, [r6, r3, lsl #3]
	add.w	r3, r6, r3, lsl #3
	ldr	r3, [r3, #4]
	b	.LBB97_24
.LBB97_15:
	movs	r0, #2
	movs	r1, #1
	strb	r1, [r4]
	add	sp, #36
	pop.w	{r4, r5, r6, r7, r8, r9, r10, r11, pc}
.LBB97_16:
	ldr	r0, [r4, #24]
	mov	r1, r0
	bl	tlsf_heap.refusal.Refusal.of_name
	uxtb	r1, r0
	movs	r0, #3
	cmp	r1, #3
	it	eq
	moveq	r0, #4
	movs	r1, #1
	strb	r1, [r4]
	add	sp, #36
	pop.w	{r4, r5, r6, r7, r8, r9, r10, r11, pc}
.LBB97_17:
	movs	r2, #0
	movs	r3, #0
.LBB97_18:
	cmp	r1, #0
	itt	ne
	ldrne.w	r10, [r6, r9, lsl #3]
	lslsne.w	r7, r10, #31
	bne.w	.LBB97_28
	lsls	r6, r2, #31
	bne	.LBB97_22
	orr	r3, lr, #1
	str.w	r5, [r11, #8]
	str.w	r3, [r11]
	mov.w	r2, #-1
	str.w	r12, [r11, #12]
	lsls	r0, r1, #3
	ldr	r3, [r4, #32]
	str.w	r9, [r11, #4]
	ldr	r7, [r4, #36]
	adds	r3, #1
	adc	r7, r7, #0
	strd	r3, r7, [r4, #32]
	orr	r3, r8, #32
	clz	r3, r3
	rsb.w	r7, r3, #26
	lsr.w	r3, r8, r7
	add.w	r5, r3, r7, lsl #5
	add.w	r7, r4, r5, lsl #2
	ldr.w	r6, [r7, #192]
	str.w	r1, [r7, #192]
	ldr	r7, [r4, #48]
	cmp.w	r6, #-1
	bgt	.LBB97_27
	add	r0, r7
	movs	r1, #1
	strd	r2, r2, [r0, #16]
	lsrs	r0, r5, #5
	ldr	r7, [r4, #104]
	lsl.w	r2, r1, r0
	add.w	r0, r4, r0, lsl #2
	orrs	r2, r7
	str	r2, [r4, #104]
	ldr	r6, [r0, #108]
	and	r2, r3, #31
	b	.LBB97_32
.LBB97_22:
	adds	r6, r5, #1
	adc	r7, r12, #0
	strd	r6, r7, [r4, #32]
	strd	lr, r9, [sp]
	strd	r5, r12, [sp, #8]
	str	r1, [sp, #16]
	bl	tlsf_heap.fitting.merge_next.5
	b	.LBB97_33
.LBB97_23:
	movs	r2, #0
	movs	r3, #0
.LBB97_24:
	cmp	r1, #0
	itt	ne
	ldrne.w	r10, [r6, r9, lsl #3]
	lslsne.w	r7, r10, #31
	bne	.LBB97_30
	lsls	r6, r2, #31
	bne	.LBB97_29
	orr	r3, lr, #1
	str.w	r5, [r11, #8]
	str.w	r3, [r11]
	mov.w	r2, #-1
	str.w	r12, [r11, #12]
	lsls	r0, r1, #3
	ldr	r3, [r4, #32]
	str.w	r9, [r11, #4]
	ldr	r7, [r4, #36]
	adds	r3, #1
	adc	r7, r7, #0
	strd	r3, r7, [r4, #32]
	orr	r3, r8, #16
	clz	r3, r3
	rsb.w	r7, r3, #27
	lsr.w	r3, r8, r7
	add.w	r5, r3, r7, lsl #4
	add.w	r7, r4, r5, lsl #2
	ldr.w	r6, [r7, #192]
	str.w	r1, [r7, #192]
	ldr	r7, [r4, #48]
	cmp.w	r6, #-1
	ble	.LBB97_31
.LBB97_27:
	adds	r3, r2, r6
	add	r0, r7
	adc	r2, r2, #0
	adds	r3, #1
	sbc	r2, r2, #0
	strd	r3, r2, [r0, #16]
	add.w	r0, r7, r6, lsl #3
	str	r1, [r0, #20]
	b	.LBB97_33
.LBB97_28:
	add.w	r6, r6, r9, lsl #3
	adds	r7, r5, #1
	ldr.w	r8, [r6, #4]
	adc	r6, r12, #0
	strd	r7, r6, [r4, #32]
	strd	lr, r9, [sp, #24]
	strd	r10, r8, [sp]
	strd	r5, r12, [sp, #8]
	str	r1, [sp, #16]
	bl	tlsf_heap.fitting.merge_before.5
	b	.LBB97_33
.LBB97_29:
	adds	r6, r5, #1
	adc	r7, r12, #0
	strd	r6, r7, [r4, #32]
	strd	lr, r9, [sp]
	strd	r5, r12, [sp, #8]
	str	r1, [sp, #16]
	bl	tlsf_heap.fitting.merge_next.4
	b	.LBB97_33
.LBB97_30:
	add.w	r6, r6, r9, lsl #3
	adds	r7, r5, #1
	ldr.w	r8, [r6, #4]
	adc	r6, r12, #0
	strd	r7, r6, [r4, #32]
	strd	lr, r9, [sp, #24]
	strd	r10, r8, [sp]
	strd	r5, r12, [sp, #8]
	str	r1, [sp, #16]
	bl	tlsf_heap.fitting.merge_before.4
	b	.LBB97_33
.LBB97_31:
	add	r0, r7
	movs	r1, #1
	strd	r2, r2, [r0, #16]
	lsrs	r0, r5, #4
	lsl.w	r2, r1, r0
	ldr	r7, [r4, #104]
	add.w	r0, r4, r0, lsl #2
	orrs	r2, r7
	str	r2, [r4, #104]
	ldr	r6, [r0, #108]
	and	r2, r3, #15
.LBB97_32:
	lsls	r1, r2
	orrs	r1, r6
	str	r1, [r0, #108]
.LBB97_33:
	movs	r0, #0
	movs	r1, #1
	strb	r1, [r4]
	add	sp, #36
	pop.w	{r4, r5, r6, r7, r8, r9, r10, r11, pc}
.Lfunc_end97:
	.size	tlsf_release_place, .Lfunc_end97-tlsf_release_place
	.cfi_endproc
	.section	.text.tlsf_report,"ax",%progbits
	.globl	tlsf_report
	.p2align	1
	.type	tlsf_report,%function
	.code	16
	.thumb_func
tlsf_report:
	.cfi_startproc
	ldrb	r2, [r0, #8]
	cmp	r2, #0
	itt	eq
	moveq	r0, #32
	bxeq	lr
.LBB98_1:
	push.w	{r4, r5, r6, r7, r8, r9, r10, r11, lr}
	.cfi_def_cfa_offset 36
	.cfi_offset lr, -4
	.cfi_offset r11, -8
	.cfi_offset r10, -12
	.cfi_offset r9, -16
	.cfi_offset r8, -20
	.cfi_offset r7, -24
	.cfi_offset r6, -28
	.cfi_offset r5, -32
	.cfi_offset r4, -36
	sub	sp, #36
	.cfi_def_cfa_offset 72
	ldr.w	r11, [r0]
	ldrb.w	r0, [r11]
	cmp	r0, #1
	bne	.LBB98_11
	str	r1, [sp, #20]
	movs	r3, #0
	ldrd	r4, r0, [r11, #32]
	ldr.w	r1, [r11, #56]
	ldrb.w	r2, [r11, #16]
	strb.w	r3, [r11]
	cmp	r2, #0
	strd	r0, r11, [sp, #12]
	beq	.LBB98_12
	cmp	r1, #0
	beq.w	.LBB98_23
	ldr.w	r2, [r11, #48]
	mov.w	r8, #0
	str	r0, [sp, #28]
	movs	r0, #0
	mov	r9, r4
	mov.w	r10, #0
	movs	r5, #0
	mov.w	lr, #0
	str	r4, [sp, #8]
	str	r0, [sp, #32]
	b	.LBB98_6
.LBB98_5:
	ldr	r6, [r4, #16]
	add	r5, r7
	add.w	lr, lr, #1
	add	r0, r6
	add	r3, r7
	cmp	r3, r1
	bhs	.LBB98_8
.LBB98_6:
	ldr.w	r6, [r2, r3, lsl #3]
	add.w	r4, r2, r3, lsl #3
	lsrs	r7, r6, #2
	lsls	r6, r6, #31
	beq	.LBB98_5
	mov	r11, r10
	mov	r10, lr
	mov	lr, r5
	ldrd	r6, r5, [r4, #8]
	cmp	r7, r8
	it	hi
	movhi	r8, r7
	mov	r12, r8
	subs.w	r4, r6, r9
	mov	r8, r9
	ldr.w	r9, [sp, #28]
	sbcs.w	r4, r5, r9
	it	lo
	movlo	r9, r5
	str.w	r9, [sp, #28]
	mov	r9, r8
	it	lo
	movlo	r9, r6
	ldr	r6, [sp, #32]
	mov	r5, lr
	mov	lr, r10
	adds	r6, #1
	mov	r8, r12
	add.w	r10, r7, r11
	str	r6, [sp, #32]
	add	r3, r7
	cmp	r3, r1
	blo	.LBB98_6
.LBB98_8:
	cmp.w	r8, #0
	str.w	lr, [sp, #24]
	beq.w	.LBB98_24
	mov	r7, r0
	orr	r0, r8, #32
	clz	r0, r0
	mov	r6, r5
	rsb.w	r0, r0, #26
	lsr.w	r2, r8, r0
	add.w	r0, r2, r0, lsl #5
	lsrs	r3, r0, #5
	beq	.LBB98_21
	movs	r0, #16
	and	r2, r2, #31
	b	.LBB98_20
.LBB98_11:
	movs	r0, #32
	add	sp, #36
	pop.w	{r4, r5, r6, r7, r8, r9, r10, r11, pc}
.LBB98_12:
	cmp	r1, #0
	beq	.LBB98_23
	ldr.w	lr, [r11, #48]
	movs	r2, #0
	str	r0, [sp, #28]
	movs	r0, #0
	mov.w	r8, #0
	mov	r9, r4
	mov.w	r10, #0
	movs	r5, #0
	str	r4, [sp, #8]
	str	r0, [sp, #32]
	str	r2, [sp, #24]
	b	.LBB98_15
.LBB98_14:
	ldr	r6, [r4, #16]
	add	r5, r7
	ldr	r2, [sp, #24]
	add	r0, r6
	adds	r2, #1
	str	r2, [sp, #24]
	add	r3, r7
	cmp	r3, r1
	bhs	.LBB98_17
.LBB98_15:
	ldr.w	r6, [lr, r3, lsl #3]
	add.w	r4, lr, r3, lsl #3
	lsrs	r7, r6, #2
	lsls	r6, r6, #31
	beq	.LBB98_14
	ldrd	r6, r4, [r4, #8]
	cmp	r7, r8
	it	hi
	movhi	r8, r7
	ldr	r2, [sp, #28]
	mov	r11, r0
	mov	r0, r5
	subs.w	r5, r6, r9
	add	r10, r7
	sbcs.w	r5, r4, r2
	it	lo
	movlo	r2, r4
	str	r2, [sp, #28]
	it	lo
	movlo	r9, r6
	ldr	r2, [sp, #32]
	mov	r5, r0
	mov	r0, r11
	adds	r2, #1
	str	r2, [sp, #32]
	add	r3, r7
	cmp	r3, r1
	blo	.LBB98_15
.LBB98_17:
	cmp.w	r8, #0
	beq	.LBB98_24
	mov	r7, r0
	orr	r0, r8, #16
	clz	r0, r0
	mov	r6, r5
	rsb.w	r0, r0, #27
	lsr.w	r2, r8, r0
	add.w	r0, r2, r0, lsl #4
	lsrs	r3, r0, #4
	beq	.LBB98_21
	movs	r0, #8
	and	r2, r2, #15
.LBB98_20:
	lsls	r0, r3
	subs	r3, #1
	lsls	r2, r3
	add	r0, r2
.LBB98_21:
	mvn	r1, #23
	add.w	r11, r1, r0, lsl #3
	mov	r0, r7
	cmp.w	r10, #0
	beq	.LBB98_25
.LBB98_22:
	mov	r7, r0
	mov.w	r0, #1000
	umull	r0, r1, r8, r0
	mov	r2, r10
	movs	r3, #0
	str.w	r11, [sp, #4]
	bl	__aeabi_uldivmod
	add.w	lr, sp, #20
	ldr	r5, [sp, #32]
	ldrd	r11, r4, [sp, #4]
	rsb.w	r12, r0, #1000
	ldm.w	lr, {r1, r2, lr}
	b	.LBB98_26
.LBB98_23:
	movs	r6, #0
	movs	r7, #0
	mov	r9, r4
	mov	lr, r0
	movs	r2, #0
	movs	r5, #0
	mov.w	r10, #0
	mov.w	r8, #0
	mov.w	r11, #0
	mov.w	r12, #0
	ldr	r1, [sp, #20]
	b	.LBB98_26
.LBB98_24:
	mov	r6, r5
	mov.w	r11, #0
	cmp.w	r10, #0
	bne	.LBB98_22
.LBB98_25:
	mov.w	r10, #0
	mov.w	r12, #0
	ldr	r1, [sp, #20]
	mov	r7, r0
	ldr	r4, [sp, #8]
	ldr	r5, [sp, #32]
	ldrd	r2, lr, [sp, #24]
.LBB98_26:
	str	r2, [r1]
	subs.w	r0, r4, r9
	ldr	r2, [sp, #12]
	rsb	r3, r7, r6, lsl #3
	str	r0, [r1, #40]
	mov.w	r0, #0
	sbc.w	r2, r2, lr
	str	r2, [r1, #44]
	ldr	r2, [sp, #16]
	str	r0, [r1, #36]
	str	r3, [r1, #32]
	str.w	r12, [r1, #28]
	str.w	r11, [r1, #24]
	str.w	r8, [r1, #20]
	str.w	r10, [r1, #16]
	str	r5, [r1, #12]
	str	r7, [r1, #8]
	str	r6, [r1, #4]
	movs	r1, #1
	strb	r1, [r2]
	add	sp, #36
	pop.w	{r4, r5, r6, r7, r8, r9, r10, r11, pc}
.Lfunc_end98:
	.size	tlsf_report, .Lfunc_end98-tlsf_report
	.cfi_endproc
	.section	.text.tlsf_reset,"ax",%progbits
	.globl	tlsf_reset
	.p2align	1
	.type	tlsf_reset,%function
	.code	16
	.thumb_func
tlsf_reset:
	.cfi_startproc
	ldrb	r1, [r0, #8]
	cmp	r1, #0
	itt	eq
	moveq	r0, #32
	bxeq	lr
.LBB99_1:
	push.w	{r4, r5, r6, r7, r8, r9, lr}
	.cfi_def_cfa_offset 28
	.cfi_offset lr, -4
	.cfi_offset r9, -8
	.cfi_offset r8, -12
	.cfi_offset r7, -16
	.cfi_offset r6, -20
	.cfi_offset r5, -24
	.cfi_offset r4, -28
	sub	sp, #4
	.cfi_def_cfa_offset 32
	ldr	r5, [r0]
	ldrb	r0, [r5]
	cmp	r0, #1
	bne	.LBB99_8
	movs	r0, #0
	ldrd	r4, r7, [r5, #32]
	strb	r0, [r5]
	mov.w	r6, #-1
	ldrb	r0, [r5, #16]
	cmp	r0, #0
	beq	.LBB99_9
	eor.w	r0, r4, r6
	eor.w	r1, r7, r6
	orrs	r0, r1
	beq.w	.LBB99_14
	ldrd	r1, r0, [r5, #80]
	orrs	r0, r1
	beq	.LBB99_6
	ldr	r0, [r5, #72]
	lsls	r2, r1, #3
	movs	r1, #0
	bl	tlsf_memory_set
.LBB99_6:
	add.w	r8, r5, #192
	movs	r1, #255
	movw	r2, #2564
	mov	r0, r8
	bl	tlsf_memory_set
	add.w	r0, r5, #104
	movs	r1, #0
	movs	r2, #88
	mov.w	r9, #0
	bl	tlsf_memory_set
	ldr	r1, [r5, #56]
	ldr	r0, [r5, #48]
	adds.w	r2, r6, r1, lsl #2
	adc	r3, r6, #0
	adds	r2, #4
	str	r4, [r0, #8]
	sbc	r3, r3, #0
	str	r2, [r0]
	str	r7, [r0, #12]
	ldr	r2, [r5, #72]
	ldr	r7, [r2]
	str	r3, [r0, #4]
	orr	r0, r7, #1
	str	r0, [r2]
	orr	r0, r1, #32
	clz	r0, r0
	rsb.w	r2, r0, #26
	lsr.w	r0, r1, r2
	add.w	r3, r0, r2, lsl #5
	ldr.w	r2, [r8, r3, lsl #2]
	str.w	r9, [r8, r3, lsl #2]
	ldr	r1, [r5, #48]
	cmp.w	r2, #-1
	bgt	.LBB99_13
	strd	r6, r6, [r1, #16]
	lsrs	r1, r3, #5
	movs	r2, #1
	ldr	r7, [r5, #104]
	lsl.w	r3, r2, r1
	add.w	r1, r5, r1, lsl #2
	orrs	r3, r7
	str	r3, [r5, #104]
	ldr	r6, [r1, #108]
	and	r0, r0, #31
	b	.LBB99_16
.LBB99_8:
	movs	r0, #32
	add	sp, #4
	pop.w	{r4, r5, r6, r7, r8, r9, pc}
.LBB99_9:
	eor.w	r0, r4, r6
	eor.w	r1, r7, r6
	orrs	r0, r1
	beq	.LBB99_14
	ldrd	r1, r0, [r5, #80]
	orrs	r0, r1
	beq	.LBB99_12
	ldr	r0, [r5, #72]
	lsls	r2, r1, #3
	movs	r1, #0
	bl	tlsf_memory_set
.LBB99_12:
	add.w	r8, r5, #192
	movs	r1, #255
	movw	r2, #2564
	mov	r0, r8
	bl	tlsf_memory_set
	add.w	r0, r5, #104
	movs	r1, #0
	movs	r2, #88
	mov.w	r9, #0
	bl	tlsf_memory_set
	ldr	r1, [r5, #56]
	ldr	r0, [r5, #48]
	adds.w	r2, r6, r1, lsl #2
	adc	r3, r6, #0
	adds	r2, #4
	str	r4, [r0, #8]
	sbc	r3, r3, #0
	str	r2, [r0]
	str	r7, [r0, #12]
	ldr	r2, [r5, #72]
	ldr	r7, [r2]
	str	r3, [r0, #4]
	orr	r0, r7, #1
	str	r0, [r2]
	orr	r0, r1, #16
	clz	r0, r0
	rsb.w	r2, r0, #27
	lsr.w	r0, r1, r2
	add.w	r3, r0, r2, lsl #4
	ldr.w	r2, [r8, r3, lsl #2]
	str.w	r9, [r8, r3, lsl #2]
	ldr	r1, [r5, #48]
	cmp.w	r2, #-1
	ble	.LBB99_15
.LBB99_13:
	adds	r0, r6, r2
	adc	r3, r6, #0
	adds	r0, #1
	sbc	r3, r3, #0
	strd	r0, r3, [r1, #16]
	add.w	r0, r1, r2, lsl #3
	str.w	r9, [r0, #20]
	b	.LBB99_17
.LBB99_14:
	movs	r0, #2
	movs	r1, #1
	strb	r1, [r5]
	add	sp, #4
	pop.w	{r4, r5, r6, r7, r8, r9, pc}
.LBB99_15:
	strd	r6, r6, [r1, #16]
	lsrs	r1, r3, #4
	movs	r2, #1
	ldr	r7, [r5, #104]
	lsl.w	r3, r2, r1
	add.w	r1, r5, r1, lsl #2
	and	r0, r0, #15
	orrs	r3, r7
	ldr	r6, [r1, #108]
	str	r3, [r5, #104]
.LBB99_16:
	lsl.w	r0, r2, r0
	orrs	r0, r6
	str	r0, [r1, #108]
.LBB99_17:
	ldrd	r1, r2, [r5, #32]
	movs	r0, #0
	str	r0, [r5, #40]
	adds	r1, #1
	adc	r2, r2, #0
	strd	r1, r2, [r5, #32]
	movs	r1, #1
	strb	r1, [r5]
	add	sp, #4
	pop.w	{r4, r5, r6, r7, r8, r9, pc}
.Lfunc_end99:
	.size	tlsf_reset, .Lfunc_end99-tlsf_reset
	.cfi_endproc
	.section	.text.tlsf_resize,"ax",%progbits
	.globl	tlsf_resize
	.p2align	2
	.type	tlsf_resize,%function
	.code	16
	.thumb_func
tlsf_resize:
	.cfi_startproc
	push.w	{r4, r5, r6, r7, r8, r9, r10, r11, lr}
	.cfi_def_cfa_offset 36
	.cfi_offset lr, -4
	.cfi_offset r11, -8
	.cfi_offset r10, -12
	.cfi_offset r9, -16
	.cfi_offset r8, -20
	.cfi_offset r7, -24
	.cfi_offset r6, -28
	.cfi_offset r5, -32
	.cfi_offset r4, -36
	sub	sp, #68
	.cfi_def_cfa_offset 104
	mov	r8, r0
	ldrb	r0, [r0, #8]
	cmp	r0, #0
	ittt	ne
	ldrne.w	r5, [r8]
	ldrbne	r0, [r5]
	cmpne	r0, #0
	bne	.LBB100_2
	movs	r0, #0
	add	sp, #68
	pop.w	{r4, r5, r6, r7, r8, r9, r10, r11, lr}
	b	tlsf_c.call_fault.CallFault.refusal
.LBB100_2:
	ldr.w	r10, [sp, #112]
	movs	r0, #0
	ldrd	r12, lr, [sp, #104]
	adds.w	r6, r10, #1
	strb	r0, [r5]
	adc	r4, r0, #0
	cmp.w	r10, #0
	ldr	r1, [r5, #24]
	ldrb	r7, [r5, #16]
	itt	ne
	movne	r6, r10
	movne	r4, r0
	adds.w	r0, r6, #31
	adc	r4, r4, #0
	cmp	r7, #0
	lsr.w	r0, r0, #3
	orr.w	r0, r0, r4, lsl #29
	str	r0, [sp, #52]
	beq	.LBB100_12
	cmp	r1, r2
	bne.w	.LBB100_21
	ldr	r0, [r5, #56]
	mov	r1, r2
	cmp	r3, r0
	bhs.w	.LBB100_21
	mvn	r1, #7
	ldr	r0, [r5, #72]
	and.w	r1, r1, r3, lsr #3
	ldr	r4, [r0, r1]
	add	r0, r1
	and	r1, r3, #63
	ldr	r0, [r0, #4]
	rsb.w	r6, r1, #32
	lsrs	r4, r1
	subs	r1, #32
	lsl.w	r6, r0, r6
	orr.w	r4, r4, r6
	it	pl
	lsrpl.w	r4, r0, r1
	mov	r1, r2
	lsls	r0, r4, #31
	beq	.LBB100_21
	add.w	r9, r5, #48
	mov	r1, r2
	ldr.w	r7, [r9]
	ldr.w	r6, [r7, r3, lsl #3]
	lsls	r0, r6, #31
	bne	.LBB100_21
	add.w	r0, r7, r3, lsl #3
	ldrd	r1, r4, [r0, #8]
	eor.w	r4, r4, lr
	eor.w	r1, r1, r12
	orrs	r1, r4
	mov	r1, r2
	bne	.LBB100_21
	ldr	r4, [sp, #52]
	lsl.w	lr, r3, #3
	ldr.w	r12, [r0, #4]
	lsr.w	r11, r6, #2
	cmp.w	r4, r6, lsr #2
	bls	.LBB100_22
	lsls	r0, r6, #30
	bmi	.LBB100_11
	add.w	r1, r11, r3
	ldr.w	r0, [r7, r1, lsl #3]
	lsls	r2, r0, #31
	bne.w	.LBB100_42
.LBB100_11:
	movs	r0, #0
	movs	r1, #0
	add.w	r2, r11, r0, lsr #2
	cmp	r2, r4
	bhs.w	.LBB100_43
	b	.LBB100_51
.LBB100_12:
	cmp	r1, r2
	bne	.LBB100_21
	ldr	r0, [r5, #56]
	mov	r1, r2
	cmp	r3, r0
	bhs	.LBB100_21
	mvn	r1, #7
	ldr	r0, [r5, #72]
	and.w	r1, r1, r3, lsr #3
	ldr	r4, [r0, r1]
	add	r0, r1
	and	r1, r3, #63
	ldr	r0, [r0, #4]
	rsb.w	r6, r1, #32
	lsrs	r4, r1
	subs	r1, #32
	lsl.w	r6, r0, r6
	orr.w	r4, r4, r6
	it	pl
	lsrpl.w	r4, r0, r1
	mov	r1, r2
	lsls	r0, r4, #31
	beq	.LBB100_21
	add.w	r0, r5, #48
	mov	r1, r2
	ldr	r6, [r0]
	ldr.w	r9, [r6, r3, lsl #3]
	lsls.w	r0, r9, #31
	bne	.LBB100_21
	add.w	r7, r6, r3, lsl #3
	ldrd	r0, r1, [r7, #8]
	eor.w	r1, r1, lr
	eor.w	r0, r0, r12
	orrs	r0, r1
	mov	r1, r2
	bne	.LBB100_21
	ldr	r4, [sp, #52]
	lsl.w	lr, r3, #3
	ldr.w	r12, [r7, #4]
	lsr.w	r11, r9, #2
	cmp.w	r4, r9, lsr #2
	bls.w	.LBB100_30
	lsls.w	r0, r9, #30
	bmi	.LBB100_20
	add.w	r1, r11, r3
	ldr.w	r0, [r6, r1, lsl #3]
	lsls	r2, r0, #31
	bne.w	.LBB100_50
.LBB100_20:
	movs	r0, #0
	movs	r1, #0
	add.w	r2, r11, r0, lsr #2
	cmp	r2, r4
	blo.w	.LBB100_51
	b	.LBB100_52
.LBB100_21:
	mov	r0, r2
	bl	tlsf_heap.refusal.Refusal.of_name
	movs	r1, #1
	strb	r1, [r5]
	uxtb	r1, r0
	movs	r0, #3
	cmp	r1, #3
	it	eq
	moveq	r0, #4
	add	sp, #68
	pop.w	{r4, r5, r6, r7, r8, r9, r10, r11, pc}
.LBB100_22:
	ldrd	r2, r7, [r5, #32]
	and.w	r1, r2, r7
	adds	r1, #1
	beq.w	.LBB100_60
	ldr.w	r9, [r0, #16]
	movs	r1, #0
	strd	r10, r1, [r0, #16]
	cmp	r10, r9
	bls	.LBB100_28
	ands	r0, r9, #7
	str	r2, [sp, #40]
	str	r0, [sp, #44]
	beq	.LBB100_26
	add.w	r2, r5, #48
	add.w	r0, lr, r9
	ldr	r1, .LCPI100_2
	adds	r0, #24
	ldr	r2, [r2]
	bic	r4, r0, #7
	str	r2, [sp, #32]
.LPC100_2:
	add	r1, pc
	adds	r0, r2, r4
	str	r0, [sp, #28]
	ldr.w	lr, [r2, r4]
	ldr	r2, [r0, #4]
	add	r0, sp, #56
	strd	lr, r2, [sp, #56]
	ldr	r2, [sp, #44]
	str	r3, [sp, #48]
	add	r0, r2
	add	r1, r2
	rsb.w	r2, r2, #8
	str.w	r12, [sp, #36]
	bl	tlsf_memory_cpy
	ldrd	r2, r12, [sp, #32]
	ldrd	r0, r1, [sp, #56]
	ldr	r3, [sp, #48]
	str	r0, [r2, r4]
	ldr	r4, [sp, #52]
	ldr	r0, [sp, #28]
	str	r1, [r0, #4]
.LBB100_26:
	lsr.w	r0, r10, #3
	lsls.w	r1, r10, #29
	mov.w	lr, #1
	it	ne
	addne.w	r0, lr, r10, lsr #3
	ldr	r2, [sp, #44]
	lsr.w	r1, r9, #3
	cmp	r2, #0
	it	ne
	addne.w	r1, lr, r9, lsr #3
	ldr	r2, [sp, #40]
	cmp	r0, r1
	beq	.LBB100_28
	add.w	r2, r5, #48
	subs	r0, r0, r1
	mov	r9, r3
	ldr	r4, [r2]
	lsls	r2, r0, #3
	adds	r0, r3, r1
	movs	r1, #0
	add.w	r0, r4, r0, lsl #3
	mov	r4, r12
	adds	r0, #24
	bl	tlsf_memory_set
	mov	r12, r4
	ldr	r2, [sp, #40]
	ldr	r4, [sp, #52]
	mov	r3, r9
.LBB100_28:
	adds	r0, r4, #4
	cmp	r11, r0
	mov	r0, r11
	blo	.LBB100_39
	add.w	r0, r5, #48
	strd	r2, r7, [sp, #8]
	mov	r1, r3
	mov	r2, r6
	mov	r3, r12
	str	r4, [sp]
	bl	tlsf_heap.refitting.split_off.5
	b	.LBB100_38
.LBB100_30:
	ldrd	r6, r2, [r5, #32]
	and.w	r0, r6, r2
	adds	r0, #1
	beq.w	.LBB100_60
	ldr	r4, [r7, #16]
	movs	r0, #0
	strd	r10, r0, [r7, #16]
	cmp	r10, r4
	bls	.LBB100_36
	ands	r7, r4, #7
	str	r2, [sp, #44]
	beq	.LBB100_34
	ldr	r0, .LCPI100_0
	add.w	r2, r5, #48
.LPC100_0:
	add	r0, pc
	str	r0, [sp, #48]
	add.w	r0, lr, r4
	ldr	r1, [r2]
	adds	r0, #24
	str	r1, [sp, #32]
	bic	r0, r0, #7
	str	r0, [sp, #36]
	ldr.w	lr, [r1, r0]
	add	r0, r1
	str	r0, [sp, #28]
	ldr	r2, [r0, #4]
	add	r0, sp, #56
	ldr	r1, [sp, #48]
	add	r0, r7
	str	r3, [sp, #48]
	strd	lr, r2, [sp, #56]
	add	r1, r7
	rsb.w	r2, r7, #8
	str.w	r12, [sp, #40]
	bl	tlsf_memory_cpy
	add.w	r12, sp, #32
	ldrd	lr, r1, [sp, #56]
	ldr	r3, [sp, #48]
	ldm.w	r12, {r0, r2, r12}
	str.w	lr, [r0, r2]
	ldr	r0, [sp, #28]
	str	r1, [r0, #4]
.LBB100_34:
	lsls.w	r1, r10, #29
	mov.w	r2, #1
	lsr.w	r0, r10, #3
	lsr.w	r1, r4, #3
	it	ne
	addne.w	r0, r2, r10, lsr #3
	cmp	r7, #0
	it	ne
	addne.w	r1, r2, r4, lsr #3
	ldr	r2, [sp, #44]
	cmp	r0, r1
	beq	.LBB100_36
	add.w	r2, r5, #48
	subs	r0, r0, r1
	mov	r4, r3
	ldr	r7, [r2]
	lsls	r2, r0, #3
	adds	r0, r3, r1
	movs	r1, #0
	add.w	r0, r7, r0, lsl #3
	mov	r7, r12
	adds	r0, #24
	bl	tlsf_memory_set
	ldr	r2, [sp, #44]
	mov	r12, r7
	mov	r3, r4
.LBB100_36:
	ldr	r4, [sp, #52]
	adds	r0, r4, #4
	cmp	r11, r0
	mov	r0, r11
	blo	.LBB100_39
	add.w	r0, r5, #48
	strd	r6, r2, [sp, #8]
	mov	r1, r3
	mov	r2, r9
	mov	r3, r12
	str	r4, [sp]
	bl	tlsf_heap.refitting.split_off.4
.LBB100_38:
	mov	r0, r4
.LBB100_39:
	ldr	r1, [r5, #32]
	sub.w	r0, r0, r11
	ldr	r3, [r5, #40]
	ldr	r2, [r5, #36]
	adds	r1, #1
	add	r0, r3
	str	r1, [r5, #32]
	adc	r2, r2, #0
	str	r2, [r5, #36]
	str	r0, [r5, #40]
	movs	r0, #1
	strb	r0, [r5]
	lsls	r0, r4, #31
	beq	.LBB100_41
.LBB100_40:
	ldrb.w	r0, [r8, #28]
	cmp	r0, #0
	itt	eq
	moveq	r0, #1
	strbeq.w	r0, [r8, #28]
.LBB100_41:
	movs	r0, #0
	add	sp, #68
	pop.w	{r4, r5, r6, r7, r8, r9, r10, r11, pc}
.LBB100_42:
	add.w	r1, r7, r1, lsl #3
	ldr	r1, [r1, #4]
	add.w	r2, r11, r0, lsr #2
	cmp	r2, r4
	blo	.LBB100_51
.LBB100_43:
	ldrd	r2, r7, [r5, #32]
	and.w	r4, r2, r7
	adds	r4, #1
	ldr	r4, [sp, #52]
	beq.w	.LBB100_60
	stm.w	sp, {r0, r1, r4}
	mov	r0, r9
	mov	r1, r3
	strd	r2, r7, [sp, #16]
	mov	r2, r6
	str	r3, [sp, #48]
	mov	r3, r12
	mov	r6, lr
	bl	tlsf_heap.refitting.recut.5
	mov	r7, r0
	ldr.w	r0, [r9]
	mov	r2, r6
	movs	r1, #0
	add	r0, r6
	ldr	r6, [r0, #16]
	strd	r10, r1, [r0, #16]
	cmp	r10, r6
	bls	.LBB100_49
	ands	r9, r6, #7
	beq	.LBB100_47
	adds	r0, r2, r6
	add.w	r2, r5, #48
	ldr	r1, .LCPI100_3
	adds	r0, #24
	ldr	r4, [r2]
	str	r7, [sp, #44]
	bic	r7, r0, #7
	adds	r2, r4, r7
	str	r2, [sp, #40]
	ldr	r0, [r4, r7]
.LPC100_3:
	add	r1, pc
	ldr	r2, [r2, #4]
	add	r1, r9
	strd	r0, r2, [sp, #56]
	add	r0, sp, #56
	add	r0, r9
	rsb.w	r2, r9, #8
	bl	tlsf_memory_cpy
	ldrd	r0, r1, [sp, #56]
	str	r0, [r4, r7]
	ldrd	r0, r7, [sp, #40]
	ldr	r4, [sp, #52]
	str	r1, [r0, #4]
.LBB100_47:
	lsls.w	r1, r10, #29
	mov.w	r2, #1
	lsr.w	r0, r10, #3
	lsr.w	r1, r6, #3
	it	ne
	addne.w	r0, r2, r10, lsr #3
	cmp.w	r9, #0
	it	ne
	addne.w	r1, r2, r6, lsr #3
	add.w	r2, r5, #48
	cmp	r0, r1
	beq	.LBB100_49
	subs	r0, r0, r1
	ldr	r3, [r2]
	lsls	r2, r0, #3
	ldr	r0, [sp, #48]
	add	r0, r1
	movs	r1, #0
	add.w	r0, r3, r0, lsl #3
	adds	r0, #24
	bl	tlsf_memory_set
.LBB100_49:
	ldrd	r0, r1, [r5, #40]
	sub.w	r2, r7, r11
	add	r0, r2
	str	r0, [r5, #40]
	cmp	r1, r0
	it	lo
	strlo	r0, [r5, #44]
	ldrd	r0, r1, [r5, #32]
	b	.LBB100_59
.LBB100_50:
	add.w	r1, r6, r1, lsl #3
	ldr	r1, [r1, #4]
	add.w	r2, r11, r0, lsr #2
	cmp	r2, r4
	bhs	.LBB100_52
.LBB100_51:
	movs	r0, #1
	strb	r0, [r5]
	movs	r0, #10
	add	sp, #68
	pop.w	{r4, r5, r6, r7, r8, r9, r10, r11, pc}
.LBB100_52:
	ldrd	r2, r7, [r5, #32]
	and.w	r6, r2, r7
	adds	r6, #1
	beq	.LBB100_60
	stm.w	sp, {r0, r1, r4}
	add.w	r4, r5, #48
	mov	r1, r3
	strd	r2, r7, [sp, #16]
	mov	r0, r4
	str	r3, [sp, #48]
	mov	r2, r9
	mov	r3, r12
	mov	r6, lr
	bl	tlsf_heap.refitting.recut.4
	mov	r2, r6
	mov	r6, r0
	ldr	r0, [r4]
	movs	r1, #0
	add	r0, r2
	ldr	r4, [r0, #16]
	strd	r10, r1, [r0, #16]
	cmp	r10, r4
	bls	.LBB100_58
	ands	r9, r4, #7
	beq	.LBB100_56
	adds	r0, r2, r4
	add.w	r2, r5, #48
	ldr	r1, .LCPI100_1
	adds	r0, #24
	ldr	r7, [r2]
	str	r6, [sp, #44]
	bic	r6, r0, #7
	adds	r2, r7, r6
	str	r2, [sp, #40]
	ldr	r0, [r7, r6]
.LPC100_1:
	add	r1, pc
	ldr	r2, [r2, #4]
	add	r1, r9
	strd	r0, r2, [sp, #56]
	add	r0, sp, #56
	add	r0, r9
	rsb.w	r2, r9, #8
	bl	tlsf_memory_cpy
	ldrd	r0, r1, [sp, #56]
	str	r0, [r7, r6]
	ldrd	r0, r6, [sp, #40]
	str	r1, [r0, #4]
.LBB100_56:
	lsls.w	r1, r10, #29
	lsr.w	r0, r10, #3
	mov.w	r2, #1
	it	ne
	addne.w	r0, r2, r10, lsr #3
	lsrs	r1, r4, #3
	cmp.w	r9, #0
	it	ne
	addne.w	r1, r2, r4, lsr #3
	cmp	r0, r1
	beq	.LBB100_58
	add.w	r2, r5, #48
	subs	r0, r0, r1
	ldr	r3, [r2]
	lsls	r2, r0, #3
	ldr	r0, [sp, #48]
	add	r0, r1
	movs	r1, #0
	add.w	r0, r3, r0, lsl #3
	adds	r0, #24
	bl	tlsf_memory_set
.LBB100_58:
	ldrd	r0, r1, [r5, #40]
	sub.w	r2, r6, r11
	add	r0, r2
	str	r0, [r5, #40]
	cmp	r1, r0
	it	lo
	strlo	r0, [r5, #44]
	ldrd	r0, r1, [r5, #32]
	ldr	r4, [sp, #52]
.LBB100_59:
	adds	r0, #1
	adc	r1, r1, #0
	strd	r0, r1, [r5, #32]
	movs	r0, #1
	strb	r0, [r5]
	lsls	r0, r4, #31
	beq.w	.LBB100_41
	b	.LBB100_40
.LBB100_60:
	movs	r0, #1
	strb	r0, [r5]
	movs	r0, #2
	add	sp, #68
	pop.w	{r4, r5, r6, r7, r8, r9, r10, r11, pc}
	.p2align	2
.LCPI100_0:
	.long	.Lstatic.0-(.LPC100_0+4)
.LCPI100_1:
	.long	.Lstatic.0-(.LPC100_1+4)
.LCPI100_2:
	.long	.Lstatic.0-(.LPC100_2+4)
.LCPI100_3:
	.long	.Lstatic.0-(.LPC100_3+4)
.Lfunc_end100:
	.size	tlsf_resize, .Lfunc_end100-tlsf_resize
	.cfi_endproc
	.section	.text.tlsf_resize_place,"ax",%progbits
	.globl	tlsf_resize_place
	.p2align	1
	.type	tlsf_resize_place,%function
	.code	16
	.thumb_func
tlsf_resize_place:
	.cfi_startproc
	push.w	{r4, r5, r6, r7, r8, r9, r10, r11, lr}
	.cfi_def_cfa_offset 36
	.cfi_offset lr, -4
	.cfi_offset r11, -8
	.cfi_offset r10, -12
	.cfi_offset r9, -16
	.cfi_offset r8, -20
	.cfi_offset r7, -24
	.cfi_offset r6, -28
	.cfi_offset r5, -32
	.cfi_offset r4, -36
	sub	sp, #84
	.cfi_def_cfa_offset 120
	ldrb	r7, [r0, #8]
	cmp	r7, #0
	ittt	ne
	ldrne	r4, [r0]
	ldrbne	r0, [r4]
	cmpne	r0, #0
	bne	.LBB101_2
	movs	r0, #0
	add	sp, #84
	pop.w	{r4, r5, r6, r7, r8, r9, r10, r11, lr}
	b	tlsf_c.call_fault.CallFault.refusal
.LBB101_2:
	movs	r7, #0
	ldr	r0, [r4, #56]
	strb	r7, [r4]
	add.w	r12, r4, #48
	ldrb	r7, [r4, #16]
	add.w	r9, r4, #24
	cmp	r7, #0
	beq	.LBB101_10
	cmp	r1, r0
	bhs.w	.LBB101_17
	mvn	r7, #7
	ldr	r0, [r4, #72]
	and.w	r7, r7, r1, lsr #3
	ldr	r6, [r0, r7]
	add	r0, r7
	and	r7, r1, #63
	ldr	r0, [r0, #4]
	rsb.w	r5, r7, #32
	lsrs	r6, r7
	subs	r7, #32
	lsl.w	r5, r0, r5
	orr.w	r6, r6, r5
	it	pl
	lsrpl.w	r6, r0, r7
	lsls	r0, r6, #31
	beq.w	.LBB101_17
	ldr.w	lr, [r12]
	ldr.w	r5, [lr, r1, lsl #3]
	lsls	r7, r5, #31
	bne.w	.LBB101_17
	add.w	r10, lr, r1, lsl #3
	movs	r6, #0
	lsr.w	r11, r5, #2
	ldr.w	r0, [r10, #4]
	str	r0, [sp, #36]
	lsls	r0, r1, #3
	str	r0, [sp, #40]
	adds	r0, r2, #1
	adc	r7, r6, #0
	cmp	r2, #0
	it	ne
	movne	r0, r2
	ldr.w	r8, [r10, #16]
	it	ne
	movne	r7, r6
	adds	r0, #31
	adc	r7, r7, #0
	cmp	r2, r8
	lsr.w	r0, r0, #3
	it	lo
	movlo	r8, r2
	orr.w	r0, r0, r7, lsl #29
	str	r0, [sp, #44]
	cmp.w	r0, r5, lsr #2
	bls	.LBB101_18
	ldrd	r7, r10, [r10, #8]
	lsls	r6, r5, #30
	ldr.w	r0, [r9]
	str	r0, [sp, #32]
	bmi	.LBB101_9
	add.w	r6, r11, r1
	ldr.w	r9, [lr, r6, lsl #3]
	lsls.w	r0, r9, #31
	bne.w	.LBB101_26
.LBB101_9:
	mov.w	r9, #0
	mov.w	r12, #0
	b	.LBB101_27
.LBB101_10:
	cmp	r1, r0
	bhs	.LBB101_17
	mvn	r7, #7
	ldr	r0, [r4, #72]
	and.w	r7, r7, r1, lsr #3
	ldr	r6, [r0, r7]
	add	r0, r7
	and	r7, r1, #63
	ldr	r0, [r0, #4]
	rsb.w	r5, r7, #32
	lsrs	r6, r7
	subs	r7, #32
	lsl.w	r5, r0, r5
	orr.w	r6, r6, r5
	it	pl
	lsrpl.w	r6, r0, r7
	lsls	r0, r6, #31
	beq	.LBB101_17
	ldr.w	lr, [r12]
	ldr.w	r5, [lr, r1, lsl #3]
	lsls	r7, r5, #31
	bne	.LBB101_17
	add.w	r6, lr, r1, lsl #3
	adds	r7, r2, #1
	mov.w	r12, #0
	lsr.w	r11, r5, #2
	ldr	r0, [r6, #4]
	str	r0, [sp, #36]
	lsl.w	r0, r1, #3
	str	r0, [sp, #40]
	adc	r0, r12, #0
	cmp	r2, #0
	it	ne
	movne	r7, r2
	ldr.w	r10, [r6, #16]
	it	ne
	movne	r0, r12
	adds	r7, #31
	adc	r0, r0, #0
	cmp	r2, r10
	lsr.w	r7, r7, #3
	it	lo
	movlo	r10, r2
	orr.w	r0, r7, r0, lsl #29
	str	r0, [sp, #44]
	cmp.w	r0, r5, lsr #2
	bls	.LBB101_22
	ldrd	r12, r7, [r6, #8]
	lsls	r6, r5, #30
	ldr.w	r0, [r9]
	str	r0, [sp, #32]
	bmi	.LBB101_16
	add.w	r6, r11, r1
	ldr.w	r9, [lr, r6, lsl #3]
	lsls.w	r0, r9, #31
	bne.w	.LBB101_34
.LBB101_16:
	mov.w	r9, #0
	mov.w	r8, #0
	b	.LBB101_35
.LBB101_17:
	movs	r0, #1
	strb	r0, [r4]
	movs	r0, #4
	add	sp, #84
	pop.w	{r4, r5, r6, r7, r8, r9, r10, r11, pc}
.LBB101_18:
	ldrd	r12, r6, [r4, #32]
	mov.w	r0, #-1
	eor.w	r7, r6, r0
	eor.w	r0, r0, r12
	orrs	r0, r7
	beq.w	.LBB101_44
	movs	r0, #0
	add.w	r9, r4, #48
	strd	r8, r0, [r10, #16]
	mov	r7, r11
	ldr.w	r8, [sp, #44]
	add.w	r0, r8, #4
	cmp	r11, r0
	blo	.LBB101_21
	strd	r12, r6, [sp, #8]
	mov	r6, r2
	str.w	r8, [sp]
	mov	r2, r5
	mov	r5, r3
	ldr	r3, [sp, #36]
	mov	r0, r9
	mov	r7, r1
	bl	tlsf_heap.refitting.split_off.5
	mov	r1, r7
	mov	r2, r6
	mov	r3, r5
	mov	r7, r8
.LBB101_21:
	ldrd	r0, r6, [r4, #32]
	sub.w	r7, r7, r11
	ldr	r5, [r4, #40]
	add.w	r12, r4, #32
	adds	r0, #1
	add	r7, r5
	adc	r6, r6, #0
	stm.w	r12, {r0, r6, r7}
	ldr	r7, [sp, #40]
	ldr.w	r0, [r9]
	b	.LBB101_42
.LBB101_22:
	ldrd	r0, r12, [r4, #32]
	and.w	r7, r0, r12
	adds	r7, #1
	beq.w	.LBB101_44
	movs	r7, #0
	add.w	r8, r4, #48
	strd	r10, r7, [r6, #16]
	ldr	r6, [sp, #44]
	adds	r7, r6, #4
	cmp	r11, r7
	mov	r7, r11
	blo	.LBB101_25
	strd	r0, r12, [sp, #8]
	mov	r9, r2
	str	r6, [sp]
	mov	r2, r5
	mov	r5, r3
	ldr	r3, [sp, #36]
	mov	r0, r8
	mov	r7, r1
	bl	tlsf_heap.refitting.split_off.4
	mov	r1, r7
	mov	r2, r9
	mov	r3, r5
	mov	r7, r6
.LBB101_25:
	ldrd	r0, r6, [r4, #32]
	sub.w	r7, r7, r11
	ldr	r5, [r4, #40]
	add.w	r12, r4, #32
	adds	r0, #1
	add	r7, r5
	adc	r6, r6, #0
	stm.w	r12, {r0, r6, r7}
	ldr	r7, [sp, #40]
	b	.LBB101_41
.LBB101_26:
	add.w	r0, lr, r6, lsl #3
	ldr.w	r12, [r0, #4]
.LBB101_27:
	ldr	r6, [sp, #44]
	add.w	r0, r11, r9, lsr #2
	cmp	r0, r6
	bhs	.LBB101_32
	ldr	r0, [sp, #32]
	mov.w	r5, #-1
	ldrd	r12, r11, [r4, #32]
	str	r0, [sp, #48]
	subs	r0, r5, #2
	sbc	r5, r5, #0
	subs.w	r0, r0, r12
	sbcs.w	r0, r5, r11
	strd	r1, r7, [sp, #52]
	str.w	r10, [sp, #60]
	blo.w	.LBB101_44
	ldr.w	r10, [sp, #44]
	cmp.w	r10, #16777216
	bhi.w	.LBB101_38
	orr	r5, r10, #32
	sub.w	r0, r10, #1
	clz	r5, r5
	movs	r6, #0
	rsb.w	r5, r5, #26
	add.w	r9, r4, #108
	lsrs	r0, r5
	add.w	r5, r0, r5, lsl #5
	adds	r5, #1
	and	r0, r0, #31
	subs	r7, r5, #1
	sbc	r5, r6, #0
	lsrs	r6, r7, #5
	orr.w	r8, r6, r5, lsl #27
	ldr.w	r6, [r9, r8, lsl #2]
	lsr.w	r0, r6, r0
	bics	r0, r0, #1
	beq.w	.LBB101_47
	rbit	r0, r0
	clz	r0, r0
	adds	r6, r7, r0
	adc	r0, r5, #0
	lsrs	r5, r6, #5
	orr.w	r0, r5, r0, lsl #27
	b	.LBB101_49
.LBB101_32:
	ldrd	r0, r6, [r4, #32]
	mov.w	r7, #-1
	eor.w	lr, r6, r7
	eors	r7, r0
	orrs.w	r7, r7, lr
	beq.w	.LBB101_44
	str	r2, [sp, #32]
	mov	r10, r3
	strd	r0, r6, [sp, #16]
	mov	r2, r5
	strd	r9, r12, [sp]
	add.w	r9, r4, #48
	ldr	r0, [sp, #44]
	mov	r6, r1
	str	r0, [sp, #8]
	mov	r0, r9
	ldr	r3, [sp, #36]
	bl	tlsf_heap.refitting.recut.5
	ldr	r1, [r4, #48]
	movs	r2, #0
	ldr	r7, [sp, #40]
	sub.w	r0, r0, r11
	mov	r3, r10
	add	r1, r7
	strd	r8, r2, [r1, #16]
	ldrd	r1, r2, [r4, #40]
	add	r0, r1
	str	r0, [r4, #40]
	cmp	r2, r0
	it	lo
	strlo	r0, [r4, #44]
	ldrd	r0, r1, [r4, #32]
	ldr	r2, [sp, #32]
	adds	r0, #1
	adc	r1, r1, #0
	strd	r0, r1, [r4, #32]
	mov	r1, r6
	ldr.w	r0, [r9]
	b	.LBB101_42
.LBB101_34:
	add.w	r0, lr, r6, lsl #3
	ldr.w	r8, [r0, #4]
.LBB101_35:
	ldr	r6, [sp, #44]
	add.w	r0, r11, r9, lsr #2
	cmp	r0, r6
	bhs	.LBB101_39
	ldr	r0, [sp, #32]
	ldrd	r9, r11, [r4, #32]
	str	r7, [sp, #60]
	mov.w	r7, #-1
	str	r0, [sp, #48]
	subs	r0, r7, #2
	sbc	r7, r7, #0
	subs.w	r0, r0, r9
	sbcs.w	r0, r7, r11
	strd	r1, r12, [sp, #52]
	blo	.LBB101_44
	ldr.w	r10, [sp, #44]
	cmp.w	r10, #1048576
	bls	.LBB101_45
.LBB101_38:
	ldrd	r1, r3, [r4, #8]
	movs	r0, #1
	cmp	r2, r3
	strb	r0, [r4]
	it	hi
	movhi	r3, r2
	adds	r1, #1
	it	hs
	movhs.w	r1, #-1
	strd	r1, r3, [r4, #8]
	add	sp, #84
	pop.w	{r4, r5, r6, r7, r8, r9, r10, r11, pc}
.LBB101_39:
	ldrd	r0, r6, [r4, #32]
	and.w	r7, r0, r6
	adds	r7, #1
	beq	.LBB101_44
	strd	r3, r2, [sp, #28]
	mov	r2, r5
	strd	r0, r6, [sp, #16]
	mov	r6, r1
	strd	r9, r8, [sp]
	add.w	r8, r4, #48
	ldr	r0, [sp, #44]
	str	r0, [sp, #8]
	mov	r0, r8
	ldr	r3, [sp, #36]
	bl	tlsf_heap.refitting.recut.4
	ldr	r1, [r4, #48]
	movs	r2, #0
	ldr	r7, [sp, #40]
	sub.w	r0, r0, r11
	add	r1, r7
	strd	r10, r2, [r1, #16]
	ldrd	r1, r2, [r4, #40]
	add	r0, r1
	str	r0, [r4, #40]
	cmp	r2, r0
	it	lo
	strlo	r0, [r4, #44]
	ldrd	r0, r1, [r4, #32]
	ldr	r3, [sp, #28]
	adds	r0, #1
	ldr	r2, [sp, #32]
	adc	r1, r1, #0
	strd	r0, r1, [r4, #32]
	mov	r1, r6
.LBB101_41:
	ldr.w	r0, [r8]
.LBB101_42:
	add	r0, r7
	movs	r7, #0
	strd	r2, r7, [r0, #16]
.LBB101_43:
	movs	r0, #1
	strb	r0, [r4]
	movs	r0, #0
	str	r1, [r3]
	add	sp, #84
	pop.w	{r4, r5, r6, r7, r8, r9, r10, r11, pc}
.LBB101_44:
	movs	r0, #1
	strb	r0, [r4]
	movs	r0, #2
	add	sp, #84
	pop.w	{r4, r5, r6, r7, r8, r9, r10, r11, pc}
.LBB101_45:
	orr	r7, r10, #16
	sub.w	r0, r10, #1
	clz	r7, r7
	movs	r6, #0
	rsb.w	r7, r7, #27
	lsrs	r0, r7
	add.w	r7, r0, r7, lsl #4
	adds	r7, #1
	and	r0, r0, #15
	subs	r7, #1
	sbc	r5, r6, #0
	lsrs	r6, r7, #4
	orr.w	r8, r6, r5, lsl #28
	add.w	r6, r4, #108
	ldr.w	r6, [r6, r8, lsl #2]
	lsr.w	r0, r6, r0
	bics	r12, r0, #1
	beq.w	.LBB101_57
	rbit	r0, r12
	clz	r0, r0
	adds	r6, r7, r0
	adc	r0, r5, #0
	lsrs	r7, r6, #4
	orr.w	r0, r7, r0, lsl #28
	b	.LBB101_59
.LBB101_47:
	ldr	r0, [r4, #104]
	mvn	r5, #1
	lsl.w	r5, r5, r8
	ands.w	r7, r0, r5
	beq.w	.LBB101_38
	rbit	r0, r7
	clz	r0, r0
	ldr.w	r5, [r9, r0, lsl #2]
	rbit	r5, r5
	clz	r5, r5
	add.w	r6, r5, r0, lsl #5
	lsrs	r0, r6, #5
.LBB101_49:
	add.w	r9, r4, #192
	str	r0, [sp, #28]
	add.w	r8, r4, #48
	ldr.w	r7, [r9, r6, lsl #2]
	str	r7, [sp, #32]
	add.w	r0, lr, r7, lsl #3
	ldr	r5, [r0, #16]
	lsls	r0, r7, #3
	str	r0, [sp, #36]
	adds	r0, r5, #1
	beq	.LBB101_51
	add.w	r0, lr, r5, lsl #3
	mov.w	r7, #-1
	str	r7, [r0, #20]
	str.w	r5, [r9, r6, lsl #2]
	ldr.w	lr, [r8]
	b	.LBB101_53
.LBB101_51:
	ldr.w	r8, [sp, #28]
	mov.w	r0, #-1
	add.w	r7, r4, #108
	str.w	r0, [r9, r6, lsl #2]
	and	r5, r6, #31
	ldr.w	r0, [r7, r8, lsl #2]
	movs	r6, #1
	lsl.w	r5, r6, r5
	bics	r0, r5
	str.w	r0, [r7, r8, lsl #2]
	bne	.LBB101_53
	ldr	r0, [r4, #104]
	lsl.w	r5, r6, r8
	bics	r0, r5
	str	r0, [r4, #104]
.LBB101_53:
	ldr	r0, [sp, #36]
	add.w	r6, lr, r0
	ldr.w	r7, [lr, r0]
	ldr.w	r8, [r6, #4]
	sub.w	r9, r7, r10, lsl #2
	cmp.w	r9, #15
	bhi	.LBB101_55
	subs	r7, #1
	mov.w	r0, #0
	sbc	r5, r8, #0
	strd	r12, r11, [r6, #8]
	strd	r2, r0, [r6, #16]
	add.w	r9, r4, #48
	strd	r7, r5, [r6]
	lsrs	r7, r7, #2
	ldr.w	lr, [sp, #40]
	b	.LBB101_69
.LBB101_55:
	lsr.w	r0, r9, #2
	str	r2, [r6, #16]
	str	r0, [sp, #28]
	subs.w	r2, r7, r9
	ldr	r0, [sp, #32]
	mov.w	r7, #0
	str.w	r12, [r6, #8]
	add	r10, r0
	str	r2, [r6]
	str.w	r9, [lr, r10, lsl #3]
	str	r7, [r6, #20]
	sbc	r7, r8, #0
	str	r7, [r6, #4]
	add.w	r7, lr, r10, lsl #3
	str.w	r11, [r6, #12]
	strd	r0, r12, [r7, #4]
	movw	r0, #65528
	str.w	r11, [r7, #12]
	and	r7, r10, #63
	mov.w	r12, #1
	movt	r0, #8191
	lsl.w	r5, r12, r7
	subs.w	lr, r7, #32
	it	pl
	movpl	r5, #0
	and.w	r6, r0, r10, lsr #3
	ldr	r0, [r4, #72]
	ldr	r2, [r0, r6]
	orr.w	r2, r2, r5
	add.w	r5, r0, r6
	str	r2, [r0, r6]
	rsb.w	r0, r7, #32
	ldr.w	r8, [r5, #4]
	lsr.w	r0, r12, r0
	it	pl
	lslpl.w	r0, r12, lr
	ldr	r7, [sp, #28]
	orr.w	r0, r0, r8
	str	r0, [r5, #4]
	lsls.w	r0, r9, #30
	add.w	r9, r4, #48
	itttt	pl
	ldrpl.w	r0, [r9]
	addpl.w	r2, r7, r10
	addpl.w	r0, r0, r2, lsl #3
	strpl.w	r10, [r0, #4]
	lsl.w	r12, r10, #3
	orr	r0, r7, #32
	add.w	r2, r4, #192
	clz	r0, r0
	ldr.w	lr, [sp, #40]
	rsb.w	r0, r0, #26
	lsrs	r7, r0
	add.w	r6, r7, r0, lsl #5
	ldr.w	r0, [r2, r6, lsl #2]
	str.w	r10, [r2, r6, lsl #2]
	ldr.w	r5, [r9]
	cmp.w	r0, #-1
	ble.w	.LBB101_67
	add.w	r2, r5, r12
	mov.w	r7, #-1
	strd	r0, r7, [r2, #16]
	add.w	r0, r5, r0, lsl #3
	str.w	r10, [r0, #20]
	b	.LBB101_68
.LBB101_57:
	mvn	r7, #1
	ldr	r0, [r4, #104]
	lsl.w	r7, r7, r8
	ands	r7, r0
	beq.w	.LBB101_38
	rbit	r0, r7
	add.w	r7, r4, #108
	clz	r0, r0
	ldr.w	r7, [r7, r0, lsl #2]
	rbit	r7, r7
	clz	r7, r7
	add.w	r6, r7, r0, lsl #4
	lsrs	r0, r6, #4
.LBB101_59:
	add.w	r12, r4, #192
	str	r0, [sp, #32]
	ldr.w	r7, [r12, r6, lsl #2]
	str	r7, [sp, #36]
	add.w	r0, lr, r7, lsl #3
	lsl.w	r8, r7, #3
	ldr	r5, [r0, #16]
	adds	r0, r5, #1
	beq	.LBB101_61
	add.w	r0, lr, r5, lsl #3
	mov.w	r7, #-1
	str	r7, [r0, #20]
	add.w	r0, r4, #48
	str.w	r5, [r12, r6, lsl #2]
	ldr.w	lr, [r0]
	b	.LBB101_63
.LBB101_61:
	mov.w	r0, #-1
	ldr	r7, [sp, #32]
	str.w	r0, [r12, r6, lsl #2]
	add.w	r12, r4, #108
	and	r5, r6, #15
	ldr.w	r0, [r12, r7, lsl #2]
	movs	r6, #1
	lsl.w	r5, r6, r5
	bics	r0, r5
	str.w	r0, [r12, r7, lsl #2]
	bne	.LBB101_63
	ldr	r0, [r4, #104]
	lsl.w	r7, r6, r7
	bics	r0, r7
	str	r0, [r4, #104]
.LBB101_63:
	add.w	r7, lr, r8
	ldr.w	r6, [lr, r8]
	str.w	r8, [sp, #32]
	ldr.w	r12, [r7, #4]
	sub.w	r8, r6, r10, lsl #2
	cmp.w	r8, #15
	bhi	.LBB101_65
	add.w	lr, sp, #32
	subs	r6, #1
	strd	r9, r11, [r7, #8]
	sbc	r5, r12, #0
	ldm.w	lr, {r8, r11, lr}
	movs	r0, #0
	add.w	r9, r4, #48
	strd	r6, r5, [r7]
	strd	r2, r0, [r7, #16]
	lsrs	r7, r6, #2
	b	.LBB101_75
.LBB101_65:
	lsr.w	r0, r8, #2
	str	r2, [r7, #16]
	str	r0, [sp, #28]
	subs.w	r2, r6, r8
	ldr	r0, [sp, #36]
	mov.w	r6, #0
	str.w	r9, [r7, #8]
	add	r10, r0
	str	r2, [r7]
	str.w	r8, [lr, r10, lsl #3]
	str	r6, [r7, #20]
	sbc	r6, r12, #0
	str.w	r11, [r7, #12]
	mov.w	r12, #1
	str	r6, [r7, #4]
	add.w	r7, lr, r10, lsl #3
	adds	r2, r7, #4
	and	r7, r10, #63
	stm.w	r2, {r0, r9, r11}
	movw	r0, #65528
	movt	r0, #8191
	lsl.w	r5, r12, r7
	subs.w	lr, r7, #32
	it	pl
	movpl	r5, #0
	and.w	r6, r0, r10, lsr #3
	ldr	r0, [r4, #72]
	ldr	r2, [r0, r6]
	orr.w	r2, r2, r5
	add.w	r5, r0, r6
	str	r2, [r0, r6]
	rsb.w	r0, r7, #32
	ldr.w	r9, [r5, #4]
	lsr.w	r0, r12, r0
	it	pl
	lslpl.w	r0, r12, lr
	ldr	r7, [sp, #28]
	orr.w	r0, r0, r9
	str	r0, [r5, #4]
	lsls.w	r0, r8, #30
	add.w	r9, r4, #48
	itttt	pl
	ldrpl.w	r0, [r9]
	addpl.w	r2, r7, r10
	addpl.w	r0, r0, r2, lsl #3
	strpl.w	r10, [r0, #4]
	lsl.w	r12, r10, #3
	orr	r0, r7, #16
	add.w	r2, r4, #192
	clz	r0, r0
	ldr.w	lr, [sp, #40]
	rsb.w	r0, r0, #27
	ldr.w	r8, [sp, #32]
	lsrs	r7, r0
	add.w	r6, r7, r0, lsl #4
	ldr.w	r0, [r2, r6, lsl #2]
	str.w	r10, [r2, r6, lsl #2]
	ldr.w	r5, [r9]
	cmp.w	r0, #-1
	ble.w	.LBB101_73
	add.w	r2, r5, r12
	mov.w	r7, #-1
	strd	r0, r7, [r2, #16]
	add.w	r0, r5, r0, lsl #3
	str.w	r10, [r0, #20]
	b	.LBB101_74
.LBB101_67:
	add.w	r0, r5, r12
	mov.w	r2, #-1
	mov.w	r12, #1
	strd	r2, r2, [r0, #16]
	lsrs	r2, r6, #5
	add.w	r6, r4, #108
	and	r0, r7, #31
	ldr	r5, [r4, #104]
	ldr.w	r7, [r6, r2, lsl #2]
	lsl.w	r0, r12, r0
	orrs	r0, r7
	str.w	r0, [r6, r2, lsl #2]
	lsl.w	r0, r12, r2
	orrs	r0, r5
	str	r0, [r4, #104]
.LBB101_68:
	ldr	r7, [sp, #44]
.LBB101_69:
	ldrd	r0, r2, [r4, #40]
	mov	r11, r3
	ldr.w	r10, [sp, #32]
	mov.w	r12, #0
	add	r0, r7
	str	r0, [r4, #40]
	cmp	r2, r0
	it	lo
	strlo	r0, [r4, #44]
	ldrd	r2, r3, [r4, #32]
	ldr	r0, [r4, #48]
	ldr	r7, [sp, #36]
	adds	r2, #1
	str	r2, [r4, #32]
	add.w	r2, r0, lr
	add	r7, r0
	adc	r3, r3, #0
	ldr	r2, [r2, #16]
	ldr	r7, [r7, #16]
	str	r3, [r4, #36]
	cmp	r7, r2
	it	lo
	movlo	r2, r7
	adds.w	r7, r10, #3
	lsr.w	r6, r2, #3
	and	r8, r2, #7
	adc	lr, r12, #0
	adds	r2, r1, #3
	adc	r3, r12, #0
	cmp.w	r8, #0
	beq	.LBB101_71
	adds	r1, r6, r2
	ldr.w	r5, [r0, r1, lsl #3]
	add.w	r1, r0, r1, lsl #3
	ldr	r1, [r1, #4]
	strd	r5, r1, [sp, #64]
	strd	r7, lr, [sp]
	strd	r6, r12, [sp, #8]
	bl	tlsf_words.cells.copy_run
	ldr.w	r5, [r9]
	add	r6, r7
	mov	r2, r8
	add.w	r7, r5, r6, lsl #3
	ldr.w	r0, [r5, r6, lsl #3]
	ldr	r1, [r7, #4]
	strd	r0, r1, [sp, #72]
	add	r0, sp, #72
	add	r1, sp, #64
	bl	tlsf_memory_cpy
	ldrd	r0, r1, [sp, #72]
	str.w	r0, [r5, r6, lsl #3]
	str	r1, [r7, #4]
	b	.LBB101_72
.LBB101_71:
	strd	r7, lr, [sp]
	strd	r6, r12, [sp, #8]
	bl	tlsf_words.cells.copy_run
.LBB101_72:
	add	r1, sp, #48
	add.w	r0, r4, #24
	bl	tlsf_heap.heap.Heap.release_live.5
	mov	r1, r10
	mov	r3, r11
	b	.LBB101_43
.LBB101_73:
	add.w	r0, r5, r12
	mov.w	r2, #-1
	add.w	r12, r4, #108
	strd	r2, r2, [r0, #16]
	lsrs	r2, r6, #4
	and	r0, r7, #15
	ldr.w	r7, [r12, r2, lsl #2]
	movs	r6, #1
	lsl.w	r0, r6, r0
	ldr	r5, [r4, #104]
	orrs	r0, r7
	str.w	r0, [r12, r2, lsl #2]
	lsl.w	r0, r6, r2
	orrs	r0, r5
	str	r0, [r4, #104]
.LBB101_74:
	ldr	r7, [sp, #44]
	ldr.w	r11, [sp, #36]
.LBB101_75:
	ldrd	r0, r2, [r4, #40]
	mov	r10, r3
	mov.w	r12, #0
	add	r0, r7
	str	r0, [r4, #40]
	cmp	r2, r0
	it	lo
	strlo	r0, [r4, #44]
	ldrd	r2, r3, [r4, #32]
	ldr	r0, [r4, #48]
	adds	r2, #1
	str	r2, [r4, #32]
	add.w	r2, r0, lr
	add.w	r7, r0, r8
	adc	r3, r3, #0
	ldr	r2, [r2, #16]
	ldr	r7, [r7, #16]
	str	r3, [r4, #36]
	cmp	r7, r2
	it	lo
	movlo	r2, r7
	adds.w	r7, r11, #3
	lsr.w	r6, r2, #3
	and	r8, r2, #7
	adc	lr, r12, #0
	adds	r2, r1, #3
	adc	r3, r12, #0
	cmp.w	r8, #0
	beq	.LBB101_77
	adds	r1, r6, r2
	ldr.w	r5, [r0, r1, lsl #3]
	add.w	r1, r0, r1, lsl #3
	ldr	r1, [r1, #4]
	strd	r5, r1, [sp, #64]
	strd	r7, lr, [sp]
	strd	r6, r12, [sp, #8]
	bl	tlsf_words.cells.copy_run
	ldr.w	r5, [r9]
	add	r6, r7
	mov	r2, r8
	add.w	r7, r5, r6, lsl #3
	ldr.w	r0, [r5, r6, lsl #3]
	ldr	r1, [r7, #4]
	strd	r0, r1, [sp, #72]
	add	r0, sp, #72
	add	r1, sp, #64
	bl	tlsf_memory_cpy
	ldrd	r0, r1, [sp, #72]
	str.w	r0, [r5, r6, lsl #3]
	str	r1, [r7, #4]
	b	.LBB101_78
.LBB101_77:
	strd	r7, lr, [sp]
	strd	r6, r12, [sp, #8]
	bl	tlsf_words.cells.copy_run
.LBB101_78:
	add	r1, sp, #48
	add.w	r0, r4, #24
	bl	tlsf_heap.heap.Heap.release_live.4
	mov	r1, r11
	mov	r3, r10
	b	.LBB101_43
.Lfunc_end101:
	.size	tlsf_resize_place, .Lfunc_end101-tlsf_resize_place
	.cfi_endproc
	.section	.text.tlsf_take,"ax",%progbits
	.globl	tlsf_take
	.p2align	1
	.type	tlsf_take,%function
	.code	16
	.thumb_func
tlsf_take:
	.cfi_startproc
	push.w	{r4, r5, r6, r7, r8, lr}
	.cfi_def_cfa_offset 24
	.cfi_offset lr, -4
	.cfi_offset r8, -8
	.cfi_offset r7, -12
	.cfi_offset r6, -16
	.cfi_offset r5, -20
	.cfi_offset r4, -24
	ldrb	r2, [r0, #8]
	cmp	r2, #0
	ittt	ne
	ldrne.w	lr, [r0]
	ldrbne.w	r0, [lr, #1]
	cmpne	r0, #0
	bne	.LBB102_2
	movs	r0, #0
	pop.w	{r4, r5, r6, r7, r8, lr}
	b	tlsf_c.call_fault.CallFault.refusal
.LBB102_2:
	ldrb.w	r0, [lr]
	cmp	r0, #1
	bne.w	.LBB102_13
	ldrd	r0, r12, [lr, #32]
	movs	r4, #0
	ldrd	r2, r3, [lr, #40]
	strb.w	r4, [lr, #1]
	subs	r4, r2, r0
	sbcs.w	r4, r3, r12
	bhs	.LBB102_5
	ldrd	r4, r5, [lr, #24]
	subs	r2, r2, r0
	lsl.w	r5, r5, #1
	sbc.w	r3, r3, r12
	orr.w	r5, r5, r4, lsr #31
	adds.w	r2, r2, r4, lsl #1
	adcs	r3, r5
	orrs	r2, r3
	bne	.LBB102_8
	b	.LBB102_6
.LBB102_5:
	subs	r2, r2, r0
	sbc.w	r3, r3, r12
	orrs	r2, r3
	bne	.LBB102_8
.LBB102_6:
	ldr.w	r0, [lr, #8]
	adds	r0, #128
	ldrexd	r2, r3, [r0]
	clrex
	dmb	ish
	strd	r2, r3, [lr, #40]
	ldrd	r0, r12, [lr, #32]
	subs	r4, r2, r0
	sbcs.w	r4, r3, r12
	bhs	.LBB102_11
	ldrd	r4, r5, [lr, #24]
	subs	r2, r2, r0
	lsl.w	r5, r5, #1
	sbc.w	r3, r3, r12
	orr.w	r5, r5, r4, lsr #31
	adds.w	r2, r2, r4, lsl #1
	adcs	r3, r5
	orrs	r2, r3
	beq	.LBB102_12
.LBB102_8:
	ldrd	r2, r5, [lr, #24]
	ldr.w	r3, [lr, #8]
	subs	r6, r0, r2
	ldr.w	r4, [lr, #16]
	sbcs.w	r7, r12, r5
	lsl.w	r5, r5, #1
	it	lo
	movlo	r6, r0
	orr.w	r5, r5, r2, lsr #31
	mov.w	r7, #-1
	adds.w	r2, r7, r2, lsl #1
	add.w	r6, r6, r6, lsl #1
	sbc	r5, r5, #0
	subs	r2, r0, r2
	mov.w	r7, #0
	sbcs.w	r2, r12, r5
	it	lo
	movlo	r7, #1
	adds	r0, #1
	add.w	r6, r4, r6, lsl #3
	adc	r2, r12, #0
	cmp	r7, #0
	it	eq
	moveq	r2, r7
	ldr.w	r12, [r6, #8]
	ldr.w	r8, [r6, #12]
	ldr	r5, [r6, #16]
	ldr	r6, [r6, #20]
	it	eq
	moveq	r0, r7
	dmb	ish
.LBB102_9:
	ldrexd	r7, r4, [r3]
	strexd	r4, r0, r2, [r3]
	cmp	r4, #0
	bne	.LBB102_9
	dmb	ish
	strd	r0, r2, [lr, #32]
	movs	r0, #0
	str	r6, [r1, #12]
	str	r5, [r1, #8]
	str.w	r8, [r1, #4]
	str.w	r12, [r1]
	movs	r1, #1
	strb.w	r1, [lr, #1]
	pop.w	{r4, r5, r6, r7, r8, pc}
.LBB102_11:
	subs	r2, r2, r0
	sbc.w	r3, r3, r12
	orrs	r2, r3
	bne	.LBB102_8
.LBB102_12:
	movs	r0, #35
	movs	r1, #1
	strb.w	r1, [lr, #1]
	pop.w	{r4, r5, r6, r7, r8, pc}
.LBB102_13:
	movs	r0, #2
	pop.w	{r4, r5, r6, r7, r8, lr}
	b	tlsf_c.call_fault.CallFault.refusal
.Lfunc_end102:
	.size	tlsf_take, .Lfunc_end102-tlsf_take
	.cfi_endproc
	.section	.text.tlsf_take_all,"ax",%progbits
	.globl	tlsf_take_all
	.p2align	1
	.type	tlsf_take_all,%function
	.code	16
	.thumb_func
tlsf_take_all:
	.cfi_startproc
	push.w	{r4, r5, r6, r7, r8, r9, r10, r11, lr}
	.cfi_def_cfa_offset 36
	.cfi_offset lr, -4
	.cfi_offset r11, -8
	.cfi_offset r10, -12
	.cfi_offset r9, -16
	.cfi_offset r8, -20
	.cfi_offset r7, -24
	.cfi_offset r6, -28
	.cfi_offset r5, -32
	.cfi_offset r4, -36
	sub.w	sp, sp, #780
	.cfi_def_cfa_offset 816
	mov	r9, r1
	ldr.w	r8, [r3]
	ldrb	r1, [r0, #8]
	cmp.w	r9, #0
	it	eq
	addeq.w	r9, r9, #4096
	cmp	r1, #0
	ittt	ne
	ldrne.w	r10, [r0]
	ldrbne.w	r0, [r10, #1]
	cmpne	r0, #0
	beq.w	.LBB103_20
	ldrb.w	r0, [r10]
	cmp	r0, #1
	bne.w	.LBB103_26
	str	r3, [sp, #4]
	movs	r7, #0
	ldrd	lr, r12, [r10, #32]
	cmp	r2, #32
	ldrd	r4, r3, [r10, #40]
	mov	r11, r2
	strb.w	r7, [r10, #1]
	it	hs
	movhs.w	r11, #32
	subs.w	r7, r4, lr
	sbcs.w	r7, r3, r12
	bhs	.LBB103_8
	ldrd	r7, r6, [r10, #24]
	subs.w	r1, r4, lr
	lsl.w	r6, r6, #1
	sbc.w	r0, r3, r12
	orr.w	r6, r6, r7, lsr #31
	adds.w	r7, r1, r7, lsl #1
	adcs	r6, r0
	add.w	r5, r10, #8
	subs.w	r0, r7, r11
	sbcs	r0, r6, #0
	blo	.LBB103_9
.LBB103_4:
	movs	r7, #0
	subs.w	r0, r11, #21
	sbcs	r0, r7, #0
	bhs.w	.LBB103_16
.LBB103_5:
	subs.w	r0, r11, #2
	sbcs	r0, r7, #0
	blo	.LBB103_11
	add.w	r8, sp, #8
	movs	r1, #0
	mov.w	r2, #480
	movs	r6, #0
	mov	r0, r8
	bl	tlsf_memory_set
	mov	r0, r5
	mov	r1, r8
	mov	r2, r11
	mov	r3, r7
	bl	tlsf_post.take_end.TakeEnd.take_slice
	movs	r0, #0
.LBB103_7:
	add.w	r1, r6, r6, lsl #1
	lsls	r2, r6, #4
	add.w	r1, r8, r1, lsl #3
	ldrd	r3, r5, [r1, #8]
	str.w	r3, [r9, r2]
	add.w	r2, r9, r6, lsl #4
	adds	r6, #1
	ldrd	r4, r1, [r1, #16]
	adc	r0, r0, #0
	str	r4, [r2, #8]
	str	r1, [r2, #12]
	subs.w	r1, r6, r11
	sbcs.w	r1, r0, r7
	str	r5, [r2, #4]
	blo	.LBB103_7
	b	.LBB103_18
.LBB103_8:
	subs.w	r7, r4, lr
	sbc.w	r6, r3, r12
	add.w	r5, r10, #8
	subs.w	r0, r7, r11
	sbcs	r0, r6, #0
	bhs	.LBB103_4
.LBB103_9:
	ldr.w	r0, [r10, #8]
	adds	r0, #128
	ldrexd	r4, r3, [r0]
	clrex
	dmb	ish
	strd	r4, r3, [r10, #40]
	ldrd	lr, r12, [r10, #32]
	subs.w	r0, r4, lr
	sbcs.w	r0, r3, r12
	bhs	.LBB103_14
	ldrd	r0, r1, [r10, #24]
	subs.w	r6, r4, lr
	lsl.w	r1, r1, #1
	sbc.w	r5, r3, r12
	orr.w	r1, r1, r0, lsr #31
	adds.w	r7, r6, r0, lsl #1
	adc.w	r6, r5, r1
	add.w	r5, r10, #8
	b	.LBB103_15
.LBB103_11:
	eor	r0, r11, #1
	orrs	r0, r7
	bne	.LBB103_21
	subs.w	r0, r4, lr
	sbcs.w	r0, r3, r12
	bhs	.LBB103_23
	ldrd	r0, r1, [r10, #24]
	subs.w	r2, r4, lr
	lsl.w	r1, r1, #1
	sbc.w	r3, r3, r12
	orr.w	r1, r1, r0, lsr #31
	adds.w	r2, r2, r0, lsl #1
	adcs	r3, r1
	orrs.w	r0, r2, r3
	bne.w	.LBB103_30
	b	.LBB103_24
.LBB103_14:
	subs.w	r7, r4, lr
	sbc.w	r6, r3, r12
.LBB103_15:
	subs.w	r0, r7, r11
	sbcs	r0, r6, #0
	it	lo
	movlo	r11, r7
	mov.w	r7, #0
	it	lo
	movlo	r7, #1
	cmp	r7, #0
	it	ne
	movne	r7, r6
	subs.w	r0, r11, #21
	sbcs	r0, r7, #0
	blo.w	.LBB103_5
.LBB103_16:
	add.w	r8, sp, #8
	movs	r1, #0
	mov.w	r2, #768
	movs	r6, #0
	mov	r0, r8
	bl	tlsf_memory_set
	mov	r0, r5
	mov	r1, r8
	mov	r2, r11
	mov	r3, r7
	bl	tlsf_post.take_end.TakeEnd.take_slice
	movs	r0, #0
.LBB103_17:
	add.w	r1, r6, r6, lsl #1
	lsls	r2, r6, #4
	add.w	r1, r8, r1, lsl #3
	add.w	r5, r1, #8
	ldr	r1, [r1, #20]
	ldm	r5, {r3, r4, r5}
	str.w	r3, [r9, r2]
	add.w	r2, r9, r6, lsl #4
	adds	r6, #1
	adc	r0, r0, #0
	str	r1, [r2, #12]
	subs.w	r1, r6, r11
	str	r5, [r2, #8]
	sbcs.w	r1, r0, r7
	str	r4, [r2, #4]
	blo	.LBB103_17
.LBB103_18:
	movs	r0, #1
	strb.w	r0, [r10, #1]
.LBB103_19:
	movs	r0, #0
	mov	r8, r11
	ldr	r1, [sp, #4]
	str.w	r8, [r1]
	add.w	sp, sp, #780
	pop.w	{r4, r5, r6, r7, r8, r9, r10, r11, pc}
.LBB103_20:
	movs	r0, #0
	b	.LBB103_27
.LBB103_21:
	movs	r0, #1
	cmp	r2, #0
	strb.w	r0, [r10, #1]
	beq	.LBB103_19
	movs	r0, #35
	ldr	r1, [sp, #4]
	str.w	r8, [r1]
	add.w	sp, sp, #780
	pop.w	{r4, r5, r6, r7, r8, r9, r10, r11, pc}
.LBB103_23:
	subs.w	r2, r4, lr
	sbc.w	r3, r3, r12
	orrs.w	r0, r2, r3
	bne	.LBB103_30
.LBB103_24:
	ldr.w	r0, [r10, #8]
	adds	r0, #128
	ldrexd	r2, r3, [r0]
	clrex
	dmb	ish
	strd	r2, r3, [r10, #40]
	ldrd	lr, r12, [r10, #32]
	subs.w	r0, r2, lr
	sbcs.w	r0, r3, r12
	bhs	.LBB103_28
	ldrd	r0, r1, [r10, #24]
	subs.w	r2, r2, lr
	lsl.w	r1, r1, #1
	sbc.w	r3, r3, r12
	orr.w	r1, r1, r0, lsr #31
	adds.w	r2, r2, r0, lsl #1
	adcs	r3, r1
	b	.LBB103_29
.LBB103_26:
	movs	r0, #2
.LBB103_27:
	mov	r4, r3
	bl	tlsf_c.call_fault.CallFault.refusal
	mov	r1, r4
	str.w	r8, [r1]
	add.w	sp, sp, #780
	pop.w	{r4, r5, r6, r7, r8, r9, r10, r11, pc}
.LBB103_28:
	subs.w	r2, r2, lr
	sbc.w	r3, r3, r12
.LBB103_29:
	orrs.w	r0, r2, r3
	beq	.LBB103_18
.LBB103_30:
	ldrd	r0, r1, [r10, #24]
	ldr.w	r2, [r10, #8]
	subs.w	r4, lr, r0
	ldr.w	r3, [r10, #16]
	sbcs.w	r5, r12, r1
	lsl.w	r1, r1, #1
	it	lo
	movlo	r4, lr
	orr.w	r1, r1, r0, lsr #31
	mov.w	r5, #-1
	adds.w	r0, r5, r0, lsl #1
	add.w	r7, r4, r4, lsl #1
	sbc	r1, r1, #0
	subs.w	r0, lr, r0
	mov.w	r5, #0
	sbcs.w	r0, r12, r1
	it	lo
	movlo	r5, #1
	adds.w	r0, lr, #1
	add.w	r4, r3, r7, lsl #3
	adc	r1, r12, #0
	cmp	r5, #0
	it	eq
	moveq	r1, r5
	ldr.w	r12, [r4, #8]
	ldr	r7, [r4, #12]
	ldr	r6, [r4, #16]
	ldr	r4, [r4, #20]
	it	eq
	moveq	r0, r5
	dmb	ish
.LBB103_31:
	ldrexd	r5, r3, [r2]
	strexd	r3, r0, r1, [r2]
	cmp	r3, #0
	bne	.LBB103_31
	dmb	ish
	strd	r0, r1, [r10, #32]
	str.w	r4, [r9, #12]
	str.w	r6, [r9, #8]
	str.w	r7, [r9, #4]
	str.w	r12, [r9]
	b	.LBB103_18
.Lfunc_end103:
	.size	tlsf_take_all, .Lfunc_end103-tlsf_take_all
	.cfi_endproc
	.section	.text.tlsf_take_close,"ax",%progbits
	.globl	tlsf_take_close
	.p2align	1
	.type	tlsf_take_close,%function
	.code	16
	.thumb_func
tlsf_take_close:
	.cfi_startproc
	ldrb	r1, [r0, #8]
	cbz	r1, .LBB104_4
	ldr	r1, [r0]
	ldrb	r2, [r1, #1]
	cmp	r2, #1
	bne	.LBB104_4
	ldrb	r2, [r1]
	cmp	r2, #1
	itt	ne
	movne	r0, #40
	bxne	lr
.LBB104_3:
	push	{r4, r5, r6, r7, lr}
	.cfi_def_cfa_offset 20
	.cfi_offset lr, -4
	.cfi_offset r7, -8
	.cfi_offset r6, -12
	.cfi_offset r5, -16
	.cfi_offset r4, -20
	sub	sp, #100
	.cfi_def_cfa_offset 120
	movs	r6, #0
	movs	r2, #40
	strb	r6, [r1, #1]
	ldr	r4, [r0]
	str	r6, [r0, #4]
	str	r6, [r0, #8]
	str	r6, [r0, #12]
	mov	r1, r4
	str	r6, [r0]
	add.w	r0, sp, #2
	adds	r5, r0, #6
	ldrh	r7, [r1], #8
	mov	r0, r5
	bl	tlsf_memory_cpy
	mov	r0, r4
	bl	tlsf_memory_dealloc
	add	r4, sp, #48
	mov	r1, r5
	add.w	r0, r4, #8
	movs	r2, #40
	strd	r6, r6, [sp, #48]
	strh.w	r7, [sp, #48]
	bl	tlsf_memory_cpy
	mov	r0, r4
	bl	tlsf_c.tlsf_c.any_end.AnyEnd.Destruct.drop
	mov	r0, r6
	add	sp, #100
	pop	{r4, r5, r6, r7, pc}
.LBB104_4:
	movs	r0, #32
	bx	lr
.Lfunc_end104:
	.size	tlsf_take_close, .Lfunc_end104-tlsf_take_close
	.cfi_endproc
	.section	.text.tlsf_words,"ax",%progbits
	.globl	tlsf_words
	.p2align	1
	.type	tlsf_words,%function
	.code	16
	.thumb_func
tlsf_words:
	.cfi_startproc
	push	{r4, r5, r7, lr}
	.cfi_def_cfa_offset 16
	.cfi_offset lr, -4
	.cfi_offset r7, -8
	.cfi_offset r5, -12
	.cfi_offset r4, -16
	bic	r5, r0, #1
	cmp	r5, #4
	bne	.LBB105_6
	cbz	r1, .LBB105_7
	movw	r5, #65512
	cmp	r0, #4
	movt	r5, #127
	bne	.LBB105_9
	cmp	r2, r5
	bhi.w	.LBB105_22
	cmp	r2, #9
	bhs	.LBB105_12
	lsr.w	lr, r1, #30
	lsls	r2, r1, #2
	b	.LBB105_18
.LBB105_6:
	movs	r0, #34
	pop	{r4, r5, r7, pc}
.LBB105_7:
	movs	r1, #4
.LBB105_8:
	movs	r0, #0
	str	r1, [r3]
	pop	{r4, r5, r7, pc}
.LBB105_9:
	add.w	r0, r5, #125829120
	cmp	r2, r0
	bhi.w	.LBB105_22
	cmp	r2, #9
	bhs	.LBB105_14
	lsr.w	lr, r1, #30
	lsls	r2, r1, #2
	b	.LBB105_21
.LBB105_12:
	add.w	r0, r2, #31
	movs	r2, #3
	mov.w	r12, #0
	add.w	r2, r2, r0, lsr #3
	umull	r5, r4, r2, r1
	subs	r2, r5, r2
	sbcs	r5, r4, #0
	adc	r4, r12, #0
	teq.w	r4, #1
	itt	ne
	movne	r5, #0
	movne	r2, #0
	adds	r2, #1
	mov.w	r4, #16
	adc	lr, r5, #0
	mov.w	r5, #-1
	add.w	r5, r5, r0, lsr #3
	orr.w	r0, r4, r0, lsr #3
	clz	r0, r0
	rsb.w	r0, r0, #27
	lsr.w	r4, r5, r0
	add.w	r12, r4, #1
	add.w	r5, r0, r12, lsr #4
	cbz	r5, .LBB105_16
	movs	r0, #8
	subs	r4, r5, #1
	lsls	r0, r5
	and	r5, r12, #15
	lsls	r5, r4
	add	r0, r5
	subs	r0, #1
	b	.LBB105_17
.LBB105_14:
	add.w	r0, r2, #31
	movs	r2, #3
	mov.w	r12, #0
	add.w	r2, r2, r0, lsr #3
	umull	r5, r4, r2, r1
	subs	r2, r5, r2
	sbcs	r5, r4, #0
	adc	r4, r12, #0
	teq.w	r4, #1
	itt	ne
	movne	r5, #0
	movne	r2, #0
	adds	r2, #1
	mov.w	r4, #32
	adc	lr, r5, #0
	mov.w	r5, #-1
	add.w	r5, r5, r0, lsr #3
	orr.w	r0, r4, r0, lsr #3
	clz	r0, r0
	rsb.w	r0, r0, #26
	lsr.w	r4, r5, r0
	add.w	r12, r4, #1
	add.w	r5, r0, r12, lsr #5
	cbz	r5, .LBB105_19
	movs	r0, #16
	subs	r4, r5, #1
	lsls	r0, r5
	and	r5, r12, #31
	lsls	r5, r4
	add	r0, r5
	subs	r0, #1
	b	.LBB105_20
.LBB105_16:
	add.w	r0, r4, r0, lsl #4
.LBB105_17:
	umlal	r2, lr, r0, r1
.LBB105_18:
	cmp	r2, #4
	mov.w	r0, #4
	it	hi
	movhi	r0, r2
	movs	r1, #4
	cmp.w	lr, #0
	ite	ne
	movne	r1, r2
	moveq	r1, r0
	movs	r0, #0
	rsbs.w	r2, r2, #1048576
	sbcs.w	r0, r0, lr
	bhs.w	.LBB105_8
	b	.LBB105_22
.LBB105_19:
	add.w	r0, r4, r0, lsl #5
.LBB105_20:
	umlal	r2, lr, r0, r1
.LBB105_21:
	movs	r0, #4
	cmp	r2, #4
	it	hi
	movhi	r0, r2
	movs	r1, #4
	cmp.w	lr, #0
	ite	ne
	movne	r1, r2
	moveq	r1, r0
	movs	r0, #1
	movt	r0, #16
	add.w	r0, r0, #15728640
	subs	r0, r2, r0
	sbcs	r0, lr, #0
	blo.w	.LBB105_8
.LBB105_22:
	movs	r0, #5
	pop	{r4, r5, r7, pc}
.Lfunc_end105:
	.size	tlsf_words, .Lfunc_end105-tlsf_words
	.cfi_endproc
	.section	.text.tlsf_offsets_report,"ax",%progbits
	.globl	tlsf_offsets_report
	.p2align	1
	.type	tlsf_offsets_report,%function
	.code	16
	.thumb_func
tlsf_offsets_report:
	.cfi_startproc
	ldrb	r2, [r0, #8]
	cmp	r2, #0
	ittt	ne
	ldrne.w	r12, [r0]
	ldrbne.w	r0, [r12, #1]
	cmpne	r0, #0
	bne	.LBB106_2
	movs	r0, #0
	b	tlsf_c.call_fault.CallFault.refusal
.LBB106_2:
	ldrb.w	r0, [r12]
	cmp	r0, #0
	bne	.LBB106_16
	push.w	{r4, r5, r6, r7, r8, r9, lr}
	.cfi_def_cfa_offset 28
	.cfi_offset lr, -4
	.cfi_offset r9, -8
	.cfi_offset r8, -12
	.cfi_offset r7, -16
	.cfi_offset r6, -20
	.cfi_offset r5, -24
	.cfi_offset r4, -28
	ldr.w	lr, [r12, #48]
	movs	r2, #0
	ldrb.w	r0, [r12, #8]
	strb.w	r2, [r12, #1]
	cbz	r0, .LBB106_9
	cmp.w	lr, #0
	beq	.LBB106_14
	ldr.w	r5, [r12, #40]
	movs	r6, #0
	mov.w	r9, #0
	movs	r0, #0
	movs	r4, #0
	b	.LBB106_7
.LBB106_6:
	add	r0, r7
	adds	r4, #1
	add	r6, r7
	cmp	r6, lr
	bhs	.LBB106_15
.LBB106_7:
	ldr.w	r3, [r5, r6, lsl #3]
	lsrs	r7, r3, #2
	lsls	r3, r3, #31
	beq	.LBB106_6
	cmp	r7, r2
	it	hi
	movhi	r2, r7
	add	r9, r7
	add	r6, r7
	cmp	r6, lr
	blo	.LBB106_7
	b	.LBB106_15
.LBB106_9:
	cmp.w	lr, #0
	beq	.LBB106_14
	ldr.w	r8, [r12, #40]
	movs	r6, #0
	mov.w	r9, #0
	movs	r0, #0
	movs	r4, #0
	b	.LBB106_12
.LBB106_11:
	add	r0, r7
	adds	r4, #1
	add	r6, r7
	cmp	r6, lr
	bhs	.LBB106_15
.LBB106_12:
	ldr.w	r5, [r8, r6, lsl #3]
	lsrs	r7, r5, #2
	lsls	r5, r5, #31
	beq	.LBB106_11
	cmp	r7, r2
	it	hi
	movhi	r2, r7
	add	r9, r7
	add	r6, r7
	cmp	r6, lr
	blo	.LBB106_12
	b	.LBB106_15
.LBB106_14:
	movs	r0, #0
	mov.w	r9, #0
	movs	r4, #0
.LBB106_15:
	ldr.w	r3, [r12, #2752]
	movs	r5, #1
	strb.w	r5, [r12, #1]
	str	r4, [r1]
	movs	r4, #0
	umull	r0, r7, r3, r0
	str	r4, [r1, #4]
	umull	r2, r6, r3, r2
	str	r0, [r1, #8]
	movs	r0, #0
	umull	r3, r5, r3, r9
	str	r7, [r1, #12]
	str	r6, [r1, #28]
	str	r2, [r1, #24]
	str	r5, [r1, #20]
	str	r3, [r1, #16]
	pop.w	{r4, r5, r6, r7, r8, r9, pc}
.LBB106_16:
	movs	r0, #2
	b	tlsf_c.call_fault.CallFault.refusal
.Lfunc_end106:
	.size	tlsf_offsets_report, .Lfunc_end106-tlsf_offsets_report
	.cfi_endproc
	.section	.text.tlsf_write,"ax",%progbits
	.globl	tlsf_write
	.p2align	2
	.type	tlsf_write,%function
	.code	16
	.thumb_func
tlsf_write:
	.cfi_startproc
	push.w	{r4, r5, r6, r7, r8, r9, lr}
	.cfi_def_cfa_offset 28
	.cfi_offset lr, -4
	.cfi_offset r9, -8
	.cfi_offset r8, -12
	.cfi_offset r7, -16
	.cfi_offset r6, -20
	.cfi_offset r5, -24
	.cfi_offset r4, -28
	sub	sp, #12
	.cfi_def_cfa_offset 40
	mov	r12, r3
	ldr	r3, [sp, #52]
	ldrb	r1, [r0, #8]
	cmp	r3, #0
	it	eq
	addeq.w	r3, r3, #4096
	cmp	r1, #0
	beq	.LBB107_11
	ldr	r5, [r0]
	ldrb	r0, [r5]
	cmp	r0, #1
	bne	.LBB107_11
	mov	r4, r2
	ldrd	r8, r9, [sp, #40]
	ldr.w	lr, [sp, #56]
	movs	r7, #0
	ldr	r2, [sp, #48]
	ldr	r1, [r5, #24]
	ldrb	r0, [r5, #16]
	strb	r7, [r5]
	cmp	r0, #0
	beq	.LBB107_12
	cmp	r1, r4
	bne.w	.LBB107_19
	ldr	r0, [r5, #56]
	mov	r1, r4
	cmp	r12, r0
	bhs.w	.LBB107_19
	mvn	r1, #7
	ldr	r0, [r5, #72]
	and.w	r1, r1, r12, lsr #3
	ldr	r6, [r0, r1]
	add	r0, r1
	and	r1, r12, #63
	ldr	r0, [r0, #4]
	rsb.w	r7, r1, #32
	lsrs	r6, r1
	subs	r1, #32
	lsl.w	r7, r0, r7
	orr.w	r6, r6, r7
	it	pl
	lsrpl.w	r6, r0, r1
	mov	r1, r4
	lsls	r0, r6, #31
	beq	.LBB107_19
	add.w	r0, r5, #48
	ldr	r7, [r0]
	ldrb.w	r1, [r7, r12, lsl #3]
	lsls	r1, r1, #31
	mov	r1, r4
	bne	.LBB107_19
	add.w	r7, r7, r12, lsl #3
	ldrd	r1, r6, [r7, #8]
	eor.w	r6, r6, r9
	eor.w	r1, r1, r8
	orrs	r1, r6
	mov	r1, r4
	bne	.LBB107_19
	ldr	r1, [r7, #16]
	adds.w	r6, lr, r2
	mov.w	r4, #0
	adc	r7, r4, #0
	subs	r1, r1, r6
	sbcs.w	r1, r4, r7
	blo	.LBB107_18
	mov	r1, r12
	strd	lr, r4, [sp]
	bl	tlsf_heap.region.Region.write.5
	movs	r6, #0
	lsls	r0, r6, #31
	bne	.LBB107_21
.LBB107_10:
	movs	r0, #0
	movs	r1, #1
	strb	r1, [r5]
	add	sp, #12
	pop.w	{r4, r5, r6, r7, r8, r9, pc}
.LBB107_11:
	movs	r0, #32
	add	sp, #12
	pop.w	{r4, r5, r6, r7, r8, r9, pc}
.LBB107_12:
	cmp	r1, r4
	bne	.LBB107_19
	ldr	r0, [r5, #56]
	mov	r1, r4
	cmp	r12, r0
	bhs	.LBB107_19
	mvn	r1, #7
	ldr	r0, [r5, #72]
	and.w	r1, r1, r12, lsr #3
	ldr	r7, [r0, r1]
	add	r0, r1
	and	r1, r12, #63
	ldr	r0, [r0, #4]
	rsb.w	r6, r1, #32
	lsrs	r7, r1
	subs	r1, #32
	lsl.w	r6, r0, r6
	orr.w	r6, r6, r7
	it	pl
	lsrpl.w	r6, r0, r1
	mov	r1, r4
	lsls	r0, r6, #31
	beq	.LBB107_19
	add.w	r0, r5, #48
	ldr	r7, [r0]
	ldrb.w	r1, [r7, r12, lsl #3]
	lsls	r1, r1, #31
	mov	r1, r4
	bne	.LBB107_19
	add.w	r7, r7, r12, lsl #3
	ldrd	r1, r6, [r7, #8]
	eor.w	r6, r6, r9
	eor.w	r1, r1, r8
	orrs	r1, r6
	mov	r1, r4
	bne	.LBB107_19
	ldr	r1, [r7, #16]
	adds.w	r4, lr, r2
	mov.w	r6, #0
	adc	r7, r6, #0
	subs	r1, r1, r4
	sbcs.w	r1, r6, r7
	bhs	.LBB107_20
.LBB107_18:
	movs	r4, #4
	movs	r6, #1
	lsls	r0, r6, #31
	beq	.LBB107_10
	b	.LBB107_21
.LBB107_19:
	mov	r0, r4
	bl	tlsf_heap.refusal.Refusal.of_name
	mov	r4, r0
	movs	r6, #1
	lsls	r0, r6, #31
	beq	.LBB107_10
	b	.LBB107_21
.LBB107_20:
	mov	r1, r12
	strd	lr, r6, [sp]
	bl	tlsf_heap.region.Region.write.4
	movs	r4, #0
	lsls	r0, r6, #31
	beq	.LBB107_10
.LBB107_21:
	ldr	r0, .LCPI107_0
	uxtb	r1, r4
.LPC107_0:
	add	r0, pc
	ldr.w	r0, [r0, r1, lsl #2]
	movs	r1, #1
	strb	r1, [r5]
	add	sp, #12
	pop.w	{r4, r5, r6, r7, r8, r9, pc}
	.p2align	2
.LCPI107_0:
	.long	.Lswitch.table.tlsf_write-(.LPC107_0+4)
.Lfunc_end107:
	.size	tlsf_write, .Lfunc_end107-tlsf_write
	.cfi_endproc
	.section	.text.tlsf_pools_write,"ax",%progbits
	.globl	tlsf_pools_write
	.p2align	1
	.type	tlsf_pools_write,%function
	.code	16
	.thumb_func
tlsf_pools_write:
	.cfi_startproc
	push.w	{r4, r5, r6, r7, r8, r9, r10, r11, lr}
	.cfi_def_cfa_offset 36
	.cfi_offset lr, -4
	.cfi_offset r11, -8
	.cfi_offset r10, -12
	.cfi_offset r9, -16
	.cfi_offset r8, -20
	.cfi_offset r7, -24
	.cfi_offset r6, -28
	.cfi_offset r5, -32
	.cfi_offset r4, -36
	sub	sp, #12
	.cfi_def_cfa_offset 48
	mov	r12, r3
	ldr	r3, [sp, #60]
	ldrb	r1, [r0, #8]
	cmp	r3, #0
	it	eq
	addeq.w	r3, r3, #4096
	cmp	r1, #0
	ittt	ne
	ldrne	r4, [r0]
	ldrbne	r0, [r4, #1]
	cmpne	r0, #0
	beq.w	.LBB108_22
	ldrb	r0, [r4]
	cmp	r0, #1
	bne.w	.LBB108_24
	mov	lr, r2
	ldrd	r10, r11, [sp, #48]
	ldr.w	r8, [sp, #64]
	movs	r6, #0
	ldr	r2, [sp, #56]
	ldr	r1, [r4, #16]
	ldr	r0, [r4, #24]
	ldrb	r5, [r4, #8]
	strb	r6, [r4, #1]
	cmp	r5, #0
	beq	.LBB108_12
	cmp	lr, r1
	blo.w	.LBB108_21
	ldrd	r6, r7, [r4, #32]
	sub.w	r5, lr, r1
	movs	r1, #0
	subs	r6, r5, r6
	sbcs	r1, r7
	bhs.w	.LBB108_21
	movw	r9, #2792
	mul	r1, r5, r9
	ldr	r1, [r0, r1]
	cmp	r1, lr
	bne.w	.LBB108_23
	mla	r0, r5, r9, r0
	ldr	r1, [r0, #32]
	cmp	r12, r1
	mov	r1, lr
	bhs.w	.LBB108_23
	mvn	r5, #7
	ldr	r1, [r0, #48]
	and.w	r5, r5, r12, lsr #3
	ldr	r6, [r1, r5]
	add	r1, r5
	and	r5, r12, #63
	ldr	r1, [r1, #4]
	rsb.w	r7, r5, #32
	lsrs	r6, r5
	subs	r5, #32
	lsl.w	r7, r1, r7
	orr.w	r6, r6, r7
	it	pl
	lsrpl.w	r6, r1, r5
	lsls	r1, r6, #31
	mov	r1, lr
	beq.w	.LBB108_23
	adds	r0, #24
	ldr	r5, [r0]
	ldrb.w	r1, [r5, r12, lsl #3]
	lsls	r1, r1, #31
	mov	r1, lr
	bne	.LBB108_23
	add.w	r5, r5, r12, lsl #3
	ldrd	r1, r6, [r5, #8]
	eor.w	r6, r6, r11
	eor.w	r1, r1, r10
	orrs	r1, r6
	mov	r1, lr
	bne	.LBB108_23
	ldr	r7, [r5, #16]
	adds.w	r6, r8, r2
	mov.w	r1, #0
	adc	r5, r1, #0
	subs	r7, r7, r6
	sbcs.w	r7, r1, r5
	blo	.LBB108_20
	strd	r8, r1, [sp]
	mov	r1, r12
	bl	tlsf_heap.region.Region.write.5
	b	.LBB108_26
.LBB108_12:
	cmp	lr, r1
	blo	.LBB108_21
	ldrd	r6, r7, [r4, #32]
	sub.w	r5, lr, r1
	movs	r1, #0
	subs	r6, r5, r6
	sbcs	r1, r7
	bhs	.LBB108_21
	movw	r9, #2792
	mul	r1, r5, r9
	ldr	r1, [r0, r1]
	cmp	r1, lr
	bne	.LBB108_23
	mla	r0, r5, r9, r0
	ldr	r1, [r0, #32]
	cmp	r12, r1
	mov	r1, lr
	bhs	.LBB108_23
	mvn	r5, #7
	ldr	r1, [r0, #48]
	and.w	r5, r5, r12, lsr #3
	ldr	r6, [r1, r5]
	add	r1, r5
	and	r5, r12, #63
	ldr	r1, [r1, #4]
	rsb.w	r7, r5, #32
	lsrs	r6, r5
	subs	r5, #32
	lsl.w	r7, r1, r7
	orr.w	r6, r6, r7
	it	pl
	lsrpl.w	r6, r1, r5
	lsls	r1, r6, #31
	mov	r1, lr
	beq	.LBB108_23
	adds	r0, #24
	ldr	r5, [r0]
	ldrb.w	r1, [r5, r12, lsl #3]
	lsls	r1, r1, #31
	mov	r1, lr
	bne	.LBB108_23
	add.w	r5, r5, r12, lsl #3
	ldrd	r1, r6, [r5, #8]
	eor.w	r6, r6, r11
	eor.w	r1, r1, r10
	orrs	r1, r6
	mov	r1, lr
	bne	.LBB108_23
	ldr	r7, [r5, #16]
	adds.w	r6, r8, r2
	mov.w	r1, #0
	adc	r5, r1, #0
	subs	r7, r7, r6
	sbcs.w	r7, r1, r5
	bhs	.LBB108_25
.LBB108_20:
	movs	r0, #1
	strb	r0, [r4, #1]
	movs	r0, #7
	add	sp, #12
	pop.w	{r4, r5, r6, r7, r8, r9, r10, r11, pc}
.LBB108_21:
	movs	r0, #1
	strb	r0, [r4, #1]
	movs	r0, #3
	add	sp, #12
	pop.w	{r4, r5, r6, r7, r8, r9, r10, r11, pc}
.LBB108_22:
	movs	r0, #0
	add	sp, #12
	pop.w	{r4, r5, r6, r7, r8, r9, r10, r11, lr}
	b	tlsf_c.call_fault.CallFault.refusal
.LBB108_23:
	mov	r0, lr
	bl	tlsf_heap.refusal.Refusal.of_name
	movs	r1, #1
	strb	r1, [r4, #1]
	uxtb	r1, r0
	movs	r0, #3
	cmp	r1, #3
	it	eq
	moveq	r0, #4
	add	sp, #12
	pop.w	{r4, r5, r6, r7, r8, r9, r10, r11, pc}
.LBB108_24:
	movs	r0, #2
	add	sp, #12
	pop.w	{r4, r5, r6, r7, r8, r9, r10, r11, lr}
	b	tlsf_c.call_fault.CallFault.refusal
.LBB108_25:
	strd	r8, r1, [sp]
	mov	r1, r12
	bl	tlsf_heap.region.Region.write.4
.LBB108_26:
	movs	r0, #1
	strb	r0, [r4, #1]
	movs	r0, #0
	add	sp, #12
	pop.w	{r4, r5, r6, r7, r8, r9, r10, r11, pc}
.Lfunc_end108:
	.size	tlsf_pools_write, .Lfunc_end108-tlsf_pools_write
	.cfi_endproc
	.type	.Lstatic.0,%object
	.section	.rodata.cst8,"aM",%progbits,8
.Lstatic.0:
	.zero	8
	.size	.Lstatic.0, 8
	.type	.Lswitch.table.tlsf_queue_take,%object
	.section	.rodata..Lswitch.table.tlsf_queue_take,"a",%progbits
	.p2align	2, 0x0
.Lswitch.table.tlsf_queue_take:
	.long	32
	.long	36
	.long	40
	.long	5
	.long	6
	.long	33
	.long	34
	.long	8
	.long	35
	.long	37
	.long	38
	.size	.Lswitch.table.tlsf_queue_take, 44
	.type	.Lswitch.table.tlsf_write,%object
	.section	.rodata..Lswitch.table.tlsf_write,"a",%progbits
	.p2align	2, 0x0
.Lswitch.table.tlsf_write:
	.long	1
	.long	2
	.long	3
	.long	4
	.long	7
	.size	.Lswitch.table.tlsf_write, 20
	.ident	"rattle logic=dac8208d650f15bf3e2dc313a14fa4c783a3acf887bdfab66e1714b038d9e11b"
	.section	".note.GNU-stack","",%progbits
/* The calls in C: c/pointers.c. */
	.syntax	unified
	.eabi_attribute	24, 1
	.eabi_attribute	25, 1
	.section	.text.tlsf_rounded,"ax",%progbits
	.globl	tlsf_rounded
	.p2align	1
	.type	tlsf_rounded,%function
	.code	16
	.thumb_func
tlsf_rounded:
	.cfi_sections .debug_frame
	.cfi_startproc
	cmn.w	r0, #16
	itt	hi
	movhi.w	r0, #-1
	bxhi	lr
.Lp_BB0_1:
	adds	r1, r0, #7
	mov	r2, r0
	bic	r0, r1, #7
	cmp	r2, #0
	it	eq
	orreq	r0, r0, #8
	bx	lr
.Lp_func_end0:
	.size	tlsf_rounded, .Lp_func_end0-tlsf_rounded
	.cfi_endproc
	.section	.text.tlsf_place_of,"ax",%progbits
	.globl	tlsf_place_of
	.p2align	1
	.type	tlsf_place_of,%function
	.code	16
	.thumb_func
tlsf_place_of:
	.cfi_startproc
	ldr	r0, [r0, #16]
	movs	r2, #0
	subs	r0, r1, r0
	sub.w	r1, r0, #24
	mov.w	r0, #-1
	cmp.w	r2, r1, lsl #29
	it	eq
	lsreq	r0, r1, #3
	bx	lr
.Lp_func_end1:
	.size	tlsf_place_of, .Lp_func_end1-tlsf_place_of
	.cfi_endproc
	.section	.text.tlsf_near,"ax",%progbits
	.globl	tlsf_near
	.p2align	1
	.type	tlsf_near,%function
	.code	16
	.thumb_func
tlsf_near:
	.cfi_startproc
	rsbs	r1, r0, #0
	and	r1, r1, #63
	add	r0, r1
	bx	lr
.Lp_func_end2:
	.size	tlsf_near, .Lp_func_end2-tlsf_near
	.cfi_endproc
	.section	.text.tlsf_base,"ax",%progbits
	.globl	tlsf_base
	.p2align	1
	.type	tlsf_base,%function
	.code	16
	.thumb_func
tlsf_base:
	.cfi_startproc
	ldrb	r1, [r0, #8]
	cmp	r1, #1
	ite	eq
	ldreq	r0, [r0, #16]
	movne	r0, #0
	bx	lr
.Lp_func_end3:
	.size	tlsf_base, .Lp_func_end3-tlsf_base
	.cfi_endproc
	.section	.text.tlsf_at,"ax",%progbits
	.globl	tlsf_at
	.p2align	1
	.type	tlsf_at,%function
	.code	16
	.thumb_func
tlsf_at:
	.cfi_startproc
	add.w	r1, r0, r3, lsl #3
	cmp	r0, #0
	it	ne
	addne.w	r0, r1, #24
	bx	lr
.Lp_func_end4:
	.size	tlsf_at, .Lp_func_end4-tlsf_at
	.cfi_endproc
	.section	.text.tlsf_block_size,"ax",%progbits
	.globl	tlsf_block_size
	.p2align	1
	.type	tlsf_block_size,%function
	.code	16
	.thumb_func
tlsf_block_size:
	.cfi_startproc
	cmp	r0, #0
	ite	ne
	ldrne	r0, [r0, #-8]
	moveq	r0, #0
	bx	lr
.Lp_func_end5:
	.size	tlsf_block_size, .Lp_func_end5-tlsf_block_size
	.cfi_endproc
	.section	.text.tlsf_aligned_alloc,"ax",%progbits
	.globl	tlsf_aligned_alloc
	.p2align	1
	.type	tlsf_aligned_alloc,%function
	.code	16
	.thumb_func
tlsf_aligned_alloc:
	.cfi_startproc
	push	{r4, r5, r7, lr}
	.cfi_def_cfa_offset 16
	.cfi_offset lr, -4
	.cfi_offset r7, -8
	.cfi_offset r5, -12
	.cfi_offset r4, -16
	sub	sp, #24
	.cfi_def_cfa_offset 40
	mov	r5, r0
	subs	r0, r1, #1
	mov	r3, r1
	eors	r1, r0
	cmp	r1, r0
	bls	.Lp_BB6_5
	cmp.w	r3, #134217728
	it	ls
	cmpls.w	r2, #134217728
	bhi	.Lp_BB6_11
	ldrb	r1, [r5, #29]
	cmp	r1, #9
	bhs	.Lp_BB6_12
	movw	r4, #65528
	adds	r1, r2, #7
	movt	r4, #8191
	cmp	r2, #0
	and.w	r4, r4, r1
	it	eq
	orreq	r4, r4, #8
	cmp	r3, #8
	bhi	.Lp_BB6_7
	add	r0, sp, #8
	mov	r1, r5
	mov	r2, r4
	bl	tlsf_allocate_place
	b	.Lp_BB6_8
.Lp_BB6_5:
	movs	r0, #5
.Lp_BB6_6:
	str	r0, [sp, #12]
	movs	r0, #0
	str	r0, [sp, #8]
	b	.Lp_BB6_8
.Lp_BB6_7:
	ldr	r1, [r5, #16]
	lsrs	r3, r3, #3
	mov	r2, r4
	ands	r0, r1
	mov	r1, r5
	lsrs	r0, r0, #3
	str	r0, [sp]
	add	r0, sp, #8
	bl	tlsf_allocate_aligned
.Lp_BB6_8:
	ldr	r0, [sp, #12]
	cbz	r0, .Lp_BB6_10
	movs	r0, #0
	add	sp, #24
	pop	{r4, r5, r7, pc}
.Lp_BB6_10:
	ldr	r0, [sp, #8]
	ldr	r1, [r5, #16]
	add.w	r0, r1, r0, lsl #3
	adds	r0, #24
	add	sp, #24
	pop	{r4, r5, r7, pc}
.Lp_BB6_11:
	mov	r0, r5
	bl	tlsf_too_long
	b	.Lp_BB6_6
.Lp_BB6_12:
	add	r0, sp, #8
	mov	r1, r5
	bl	tlsf_mixed_place
	b	.Lp_BB6_8
.Lp_func_end6:
	.size	tlsf_aligned_alloc, .Lp_func_end6-tlsf_aligned_alloc
	.cfi_endproc
	.section	.text.tlsf_malloc,"ax",%progbits
	.globl	tlsf_malloc
	.p2align	1
	.type	tlsf_malloc,%function
	.code	16
	.thumb_func
tlsf_malloc:
	.cfi_startproc
	push	{r4, lr}
	.cfi_def_cfa_offset 8
	.cfi_offset lr, -4
	.cfi_offset r4, -8
	sub	sp, #16
	.cfi_def_cfa_offset 24
	mov	r4, r0
	ldrb	r0, [r0, #29]
	cmp	r0, #9
	bhs	.Lp_BB7_5
	cmp.w	r1, #134217728
	bhi	.Lp_BB7_3
	movw	r2, #65528
	adds	r0, r1, #7
	movt	r2, #8191
	cmp	r1, #0
	and.w	r2, r2, r0
	mov	r0, sp
	mov	r1, r4
	it	eq
	orreq	r2, r2, #8
	bl	tlsf_allocate_place
	ldr	r0, [sp, #4]
	cbz	r0, .Lp_BB7_4
.Lp_BB7_3:
	movs	r0, #0
	add	sp, #16
	pop	{r4, pc}
.Lp_BB7_4:
	ldr	r0, [sp]
	ldr	r1, [r4, #16]
	add.w	r0, r1, r0, lsl #3
	adds	r0, #24
	add	sp, #16
	pop	{r4, pc}
.Lp_BB7_5:
	mov	r0, r4
	add	sp, #16
	pop.w	{r4, lr}
	b	tlsf_malloc_mixed
.Lp_func_end7:
	.size	tlsf_malloc, .Lp_func_end7-tlsf_malloc
	.cfi_endproc
	.section	.text.unlikely.tlsf_malloc_mixed,"ax",%progbits
	.p2align	1
	.type	tlsf_malloc_mixed,%function
	.code	16
	.thumb_func
tlsf_malloc_mixed:
	.cfi_startproc
	b	tlsf_malloc_own
.Lp_func_end8:
	.size	tlsf_malloc_mixed, .Lp_func_end8-tlsf_malloc_mixed
	.cfi_endproc
	.section	.text.tlsf_words_for,"ax",%progbits
	.globl	tlsf_words_for
	.p2align	1
	.type	tlsf_words_for,%function
	.code	16
	.thumb_func
tlsf_words_for:
	.cfi_startproc
	push	{r4, lr}
	.cfi_def_cfa_offset 8
	.cfi_offset lr, -4
	.cfi_offset r4, -8
	cmp	r3, #16
	ldr.w	r12, [sp, #8]
	it	ls
	movls	r3, #16
	mov.w	lr, #134217728
	cmp.w	r3, #134217728
	movw	r4, #65528
	it	hs
	movhs	r3, lr
	cmp.w	r2, #134217728
	it	lo
	movlo	lr, r2
	movt	r4, #8191
	add.w	lr, lr, #7
	cmp	r2, #0
	and.w	r4, r4, lr
	it	eq
	orreq	r4, r4, #8
	adds	r2, r3, r4
	adds	r2, #32
	mov	r3, r12
	pop.w	{r4, lr}
	b	tlsf_words
.Lp_func_end9:
	.size	tlsf_words_for, .Lp_func_end9-tlsf_words_for
	.cfi_endproc
	.section	.text.tlsf_calloc,"ax",%progbits
	.globl	tlsf_calloc
	.p2align	1
	.type	tlsf_calloc,%function
	.code	16
	.thumb_func
tlsf_calloc:
	.cfi_startproc
	push	{r4, r5, r6, lr}
	.cfi_def_cfa_offset 16
	.cfi_offset lr, -4
	.cfi_offset r6, -8
	.cfi_offset r5, -12
	.cfi_offset r4, -16
	sub	sp, #16
	.cfi_def_cfa_offset 32
	mov	r4, r0
	movs	r0, #0
	mov	r5, r2
	mov	r6, r1
	strd	r0, r0, [sp, #8]
	strd	r0, r0, [sp]
	cbz	r2, .Lp_BB10_2
	mov.w	r0, #134217728
	mov	r1, r5
	bl	__aeabi_uidiv
	cmp	r6, r0
	bhi	.Lp_BB10_7
.Lp_BB10_2:
	muls	r5, r6, r5
	ldrb	r0, [r4, #29]
	cmp	r0, #9
	bhs	.Lp_BB10_9
	cmn.w	r5, #16
	bls	.Lp_BB10_5
	mov.w	r1, #-1
	b	.Lp_BB10_6
.Lp_BB10_5:
	adds	r0, r5, #7
	cmp	r5, #0
	bic	r1, r0, #7
	it	eq
	orreq	r1, r1, #8
.Lp_BB10_6:
	mov	r2, sp
	mov	r0, r4
	bl	tlsf_allocate
	cbz	r0, .Lp_BB10_8
.Lp_BB10_7:
	movs	r0, #0
	add	sp, #16
	pop	{r4, r5, r6, pc}
.Lp_BB10_8:
	ldr	r0, [sp, #4]
	ldr	r1, [r4, #16]
	add.w	r0, r1, r0, lsl #3
	adds	r0, #24
	add	sp, #16
	pop	{r4, r5, r6, pc}
.Lp_BB10_9:
	mov	r0, r4
	mov	r1, r5
	bl	tlsf_malloc_mixed
	cmp	r0, #0
	beq	.Lp_BB10_7
	movs	r1, #0
	mov	r2, r5
	add	sp, #16
	pop.w	{r4, r5, r6, lr}
	b	memset
.Lp_func_end10:
	.size	tlsf_calloc, .Lp_func_end10-tlsf_calloc
	.cfi_endproc
	.section	.text.tlsf_free,"ax",%progbits
	.globl	tlsf_free
	.p2align	1
	.type	tlsf_free,%function
	.code	16
	.thumb_func
tlsf_free:
	.cfi_startproc
	cmp	r1, #0
	itt	eq
	moveq	r0, #0
	bxeq	lr
.Lp_BB11_1:
	ldr	r2, [r0, #16]
	movs	r3, #0
	subs	r1, r1, r2
	sub.w	r2, r1, #24
	mov.w	r1, #-1
	cmp.w	r3, r2, lsl #29
	it	eq
	lsreq	r1, r2, #3
	b	tlsf_release_place
.Lp_func_end11:
	.size	tlsf_free, .Lp_func_end11-tlsf_free
	.cfi_endproc
	.section	.text.tlsf_usable_size,"ax",%progbits
	.globl	tlsf_usable_size
	.p2align	1
	.type	tlsf_usable_size,%function
	.code	16
	.thumb_func
tlsf_usable_size:
	.cfi_startproc
	push	{r4, lr}
	.cfi_def_cfa_offset 8
	.cfi_offset lr, -4
	.cfi_offset r4, -8
	sub	sp, #24
	.cfi_def_cfa_offset 32
	ldr	r2, [r0, #16]
	movs	r4, #0
	strd	r4, r4, [sp, #16]
	add	r3, sp, #4
	subs	r1, r1, r2
	strd	r4, r4, [sp, #8]
	sub.w	r2, r1, #24
	mov.w	r1, #-1
	str	r4, [sp, #4]
	cmp.w	r4, r2, lsl #29
	it	eq
	lsreq	r1, r2, #3
	add	r2, sp, #8
	bl	tlsf_place
	ldr	r1, [sp, #4]
	cmp	r0, #0
	it	ne
	movne	r1, r4
	mov	r0, r1
	add	sp, #24
	pop	{r4, pc}
.Lp_func_end12:
	.size	tlsf_usable_size, .Lp_func_end12-tlsf_usable_size
	.cfi_endproc
	.section	.text.tlsf_name_at,"ax",%progbits
	.globl	tlsf_name_at
	.p2align	1
	.type	tlsf_name_at,%function
	.code	16
	.thumb_func
tlsf_name_at:
	.cfi_startproc
	push	{r4, lr}
	.cfi_def_cfa_offset 8
	.cfi_offset lr, -4
	.cfi_offset r4, -8
	sub	sp, #24
	.cfi_def_cfa_offset 32
	ldr	r3, [r0, #16]
	mov	r4, r2
	movs	r2, #0
	subs	r1, r1, r3
	strd	r2, r2, [sp, #16]
	sub.w	r3, r1, #24
	mov.w	r1, #-1
	strd	r2, r2, [sp, #8]
	str	r2, [sp, #4]
	cmp.w	r2, r3, lsl #29
	it	eq
	lsreq	r1, r3, #3
	add	r2, sp, #8
	add	r3, sp, #4
	bl	tlsf_place
	cbz	r0, .Lp_BB13_2
	add	sp, #24
	pop	{r4, pc}
.Lp_BB13_2:
	add.w	r12, sp, #8
	ldm.w	r12, {r1, r2, r3, r12}
	stm.w	r4, {r1, r2, r3, r12}
	add	sp, #24
	pop	{r4, pc}
.Lp_func_end13:
	.size	tlsf_name_at, .Lp_func_end13-tlsf_name_at
	.cfi_endproc
	.section	.text.tlsf_realloc,"ax",%progbits
	.globl	tlsf_realloc
	.p2align	1
	.type	tlsf_realloc,%function
	.code	16
	.thumb_func
tlsf_realloc:
	.cfi_startproc
	push	{r4, r5, r7, lr}
	.cfi_def_cfa_offset 16
	.cfi_offset lr, -4
	.cfi_offset r7, -8
	.cfi_offset r5, -12
	.cfi_offset r4, -16
	sub	sp, #16
	.cfi_def_cfa_offset 32
	cbz	r1, .Lp_BB14_6
	cbz	r2, .Lp_BB14_10
	cmp.w	r2, #134217728
	bhi	.Lp_BB14_9
	ldrb	r3, [r0, #29]
	cmp	r3, #9
	bhs	.Lp_BB14_15
	ldr	r3, [r0, #16]
	movs	r4, #0
	adds	r2, #7
	mov	r5, r0
	subs	r1, r1, r3
	sub.w	r3, r1, #24
	mov.w	r1, #-1
	cmp.w	r4, r3, lsl #29
	it	eq
	lsreq	r1, r3, #3
	movw	r3, #65528
	str	r1, [sp]
	movt	r3, #8191
	ands	r2, r3
	mov	r3, sp
	bl	tlsf_resize_place
	cbnz	r0, .Lp_BB14_13
	ldr	r0, [sp]
	ldr	r1, [r5, #16]
	b	.Lp_BB14_12
.Lp_BB14_6:
	ldrb	r1, [r0, #29]
	cmp	r1, #9
	bhs	.Lp_BB14_14
	cmp.w	r2, #134217728
	bhi	.Lp_BB14_9
	movw	r3, #65528
	adds	r1, r2, #7
	movt	r3, #8191
	cmp	r2, #0
	and.w	r3, r3, r1
	mov	r2, sp
	mov	r1, r0
	it	eq
	orreq	r3, r3, #8
	mov	r0, r2
	mov	r2, r3
	mov	r4, r1
	bl	tlsf_allocate_place
	ldr	r0, [sp, #4]
	cbz	r0, .Lp_BB14_11
.Lp_BB14_9:
	movs	r4, #0
	b	.Lp_BB14_13
.Lp_BB14_10:
	ldr	r2, [r0, #16]
	movs	r4, #0
	subs	r1, r1, r2
	sub.w	r2, r1, #24
	mov.w	r1, #-1
	cmp.w	r4, r2, lsl #29
	it	eq
	lsreq	r1, r2, #3
	bl	tlsf_release_place
	b	.Lp_BB14_13
.Lp_BB14_11:
	ldr	r0, [sp]
	ldr	r1, [r4, #16]
.Lp_BB14_12:
	add.w	r0, r1, r0, lsl #3
	add.w	r4, r0, #24
.Lp_BB14_13:
	mov	r0, r4
	add	sp, #16
	pop	{r4, r5, r7, pc}
.Lp_BB14_14:
	mov	r1, r2
	add	sp, #16
	pop.w	{r4, r5, r7, lr}
	b	tlsf_malloc_mixed
.Lp_BB14_15:
	add	sp, #16
	pop.w	{r4, r5, r7, lr}
	b	tlsf_realloc_mixed
.Lp_func_end14:
	.size	tlsf_realloc, .Lp_func_end14-tlsf_realloc
	.cfi_endproc
	.section	.text.unlikely.tlsf_realloc_mixed,"ax",%progbits
	.p2align	1
	.type	tlsf_realloc_mixed,%function
	.code	16
	.thumb_func
tlsf_realloc_mixed:
	.cfi_startproc
	push.w	{r4, r5, r6, r7, r8, r9, r10, lr}
	.cfi_def_cfa_offset 32
	.cfi_offset lr, -4
	.cfi_offset r10, -8
	.cfi_offset r9, -12
	.cfi_offset r8, -16
	.cfi_offset r7, -20
	.cfi_offset r6, -24
	.cfi_offset r5, -28
	.cfi_offset r4, -32
	sub	sp, #48
	.cfi_def_cfa_offset 80
	mov	r9, r2
	mov	r8, r1
	mov	r4, r0
	mov	r0, sp
	movs	r1, #0
	movs	r2, #24
	movs	r5, #0
	bl	memset
	ldr	r0, [r4, #16]
	mov.w	r7, #-1
	ldrb	r1, [r4, #29]
	sub.w	r0, r8, r0
	subs	r0, #24
	cmp.w	r5, r0, lsl #29
	it	eq
	lsreq	r7, r0, #3
	cmp	r1, #0
	it	eq
	moveq	r1, #8
	add.w	r2, r9, r1
	rsbs	r0, r1, #0
	adds	r2, #23
	cmp	r1, #8
	and.w	r0, r0, r2
	sub.w	r6, r0, #24
	bne	.Lp_BB15_4
.Lp_BB15_1:
	add	r3, sp, #24
	mov	r0, r4
	mov	r1, r7
	mov	r2, r6
	str	r7, [sp, #24]
.Lp_BB15_2:
	bl	tlsf_resize_place
	cmp	r0, #0
	beq	.Lp_BB15_11
.Lp_BB15_3:
	movs	r7, #0
	b	.Lp_BB15_12
.Lp_BB15_4:
	mov	r2, sp
	mov	r0, r4
	mov	r1, r7
	bl	tlsf_block_at
	cmp	r0, #0
	bne	.Lp_BB15_1
	ldr	r0, [sp, #8]
	cmp	r0, #0
	beq	.Lp_BB15_1
	add	r0, sp, #24
	movs	r1, #0
	movs	r2, #24
	ldr.w	r10, [sp, #4]
	bl	memset
	mvn	r0, #23
	mov	r5, r6
	add.w	r0, r0, r10, lsl #3
	cmp	r0, r6
	it	lo
	movlo	r5, r0
	cmp	r0, r9
	it	lo
	movlo	r5, r6
	movs	r0, #3
	add.w	r6, r0, r5, lsr #3
	cmp	r10, r6
	bhs	.Lp_BB15_13
	ldr	r0, [sp]
	add	r2, sp, #24
	add.w	r1, r0, r10
	mov	r0, r4
	bl	tlsf_block_at
	ldr	r1, [sp, #32]
	orrs	r0, r1
	bne	.Lp_BB15_9
	ldr	r0, [sp, #4]
	ldr	r1, [sp, #28]
	add	r0, r1
	cmp	r0, r6
	bhs	.Lp_BB15_13
.Lp_BB15_9:
	mov	r0, r4
	mov	r1, r9
	bl	tlsf_malloc
	cmp	r0, #0
	beq	.Lp_BB15_3
	mov	r7, r0
	ldr	r0, [sp, #12]
	mov	r1, r8
	cmp	r0, r9
	it	lo
	movlo	r9, r0
	mov	r0, r7
	mov	r2, r9
	bl	memcpy
	ldr	r1, [sp]
	mov	r0, r4
	bl	tlsf_release_place
	b	.Lp_BB15_12
.Lp_BB15_11:
	ldr	r0, [sp, #24]
	ldr	r1, [r4, #16]
	add.w	r0, r1, r0, lsl #3
	add.w	r7, r0, #24
.Lp_BB15_12:
	mov	r0, r7
	add	sp, #48
	pop.w	{r4, r5, r6, r7, r8, r9, r10, pc}
.Lp_BB15_13:
	str	r7, [sp, #24]
	add	r3, sp, #24
	mov	r0, r4
	mov	r1, r7
	mov	r2, r5
	b	.Lp_BB15_2
.Lp_func_end15:
	.size	tlsf_realloc_mixed, .Lp_func_end15-tlsf_realloc_mixed
	.cfi_endproc
	.section	.text.tlsf_aligned_realloc,"ax",%progbits
	.globl	tlsf_aligned_realloc
	.p2align	1
	.type	tlsf_aligned_realloc,%function
	.code	16
	.thumb_func
tlsf_aligned_realloc:
	.cfi_startproc
	push.w	{r4, r5, r6, r7, r8, r9, r10, r11, lr}
	.cfi_def_cfa_offset 36
	.cfi_offset lr, -4
	.cfi_offset r11, -8
	.cfi_offset r10, -12
	.cfi_offset r9, -16
	.cfi_offset r8, -20
	.cfi_offset r7, -24
	.cfi_offset r6, -28
	.cfi_offset r5, -32
	.cfi_offset r4, -36
	sub	sp, #52
	.cfi_def_cfa_offset 88
	cbz	r1, .Lp_BB16_4
	cbz	r2, .Lp_BB16_3
	subs	r7, r2, #1
	tst	r2, r7
	beq	.Lp_BB16_5
.Lp_BB16_3:
	movs	r0, #0
	add	sp, #52
	pop.w	{r4, r5, r6, r7, r8, r9, r10, r11, pc}
.Lp_BB16_4:
	mov	r1, r2
	mov	r2, r3
	add	sp, #52
	pop.w	{r4, r5, r6, r7, r8, r9, r10, r11, lr}
	b	tlsf_aligned_alloc
.Lp_BB16_5:
	cbz	r3, .Lp_BB16_10
	cmp.w	r3, #134217728
	bhi	.Lp_BB16_3
	ldrb	r5, [r0, #29]
	cmp	r5, #0
	it	eq
	moveq	r5, #8
	ands.w	r4, r7, r1
	bne	.Lp_BB16_11
	cmp	r2, r5
	bhi	.Lp_BB16_11
	mov	r2, r3
	add	sp, #52
	pop.w	{r4, r5, r6, r7, r8, r9, r10, r11, lr}
	b	tlsf_realloc
.Lp_BB16_10:
	ldr	r2, [r0, #16]
	movs	r4, #0
	subs	r1, r1, r2
	sub.w	r2, r1, #24
	mov.w	r1, #-1
	cmp.w	r4, r2, lsl #29
	it	eq
	lsreq	r1, r2, #3
	bl	tlsf_release_place
	mov	r0, r4
	add	sp, #52
	pop.w	{r4, r5, r6, r7, r8, r9, r10, r11, pc}
.Lp_BB16_11:
	mov	r9, r2
	ldr	r2, [r0, #16]
	mov	r8, r1
	movs	r7, #0
	subs	r1, r1, r2
	mov.w	r6, #-1
	subs	r1, #24
	strd	r7, r7, [sp, #16]
	strd	r7, r7, [sp, #8]
	mov	r2, sp
	strd	r7, r7, [sp]
	cmp.w	r7, r1, lsl #29
	it	eq
	lsreq	r6, r1, #3
	mov	r1, r6
	mov	r10, r0
	mov	r11, r3
	bl	tlsf_block_at
	add.w	r1, r11, r5
	rsbs	r3, r5, #0
	adds	r1, #23
	and.w	r1, r1, r3
	sub.w	r7, r1, #24
	cbnz	r0, .Lp_BB16_16
	ldr	r0, [sp, #8]
	cbz	r0, .Lp_BB16_16
	ldr	r3, [sp, #4]
	mvn	r0, #23
	mov	r5, r7
	mov	r2, r11
	mov	r1, r9
	add.w	r0, r0, r3, lsl #3
	cmp	r0, r7
	it	lo
	movlo	r5, r0
	cmp	r0, r11
	mov	r0, r10
	it	lo
	movlo	r5, r7
	cbz	r4, .Lp_BB16_19
.Lp_BB16_14:
	bl	tlsf_aligned_alloc
	cmp	r0, #0
	beq	.Lp_BB16_3
	ldr	r1, [sp, #12]
	mov	r2, r11
	mov	r6, r0
	cmp	r1, r11
	it	lo
	movlo	r2, r1
	mov	r1, r8
	bl	memcpy
	ldr	r1, [sp]
	mov	r0, r10
	bl	tlsf_release_place
	mov	r0, r6
	add	sp, #52
	pop.w	{r4, r5, r6, r7, r8, r9, r10, r11, pc}
.Lp_BB16_16:
	add	r3, sp, #24
	mov	r0, r10
	mov	r1, r6
	mov	r2, r7
	str	r6, [sp, #24]
.Lp_BB16_17:
	bl	tlsf_resize_place
	cmp	r0, #0
	bne.w	.Lp_BB16_3
	ldr	r0, [sp, #24]
	ldr.w	r1, [r10, #16]
	add.w	r0, r1, r0, lsl #3
	adds	r0, #24
	add	sp, #52
	pop.w	{r4, r5, r6, r7, r8, r9, r10, r11, pc}
.Lp_BB16_19:
	movs	r1, #0
	strd	r1, r1, [sp, #40]
	strd	r1, r1, [sp, #32]
	strd	r1, r1, [sp, #24]
	movs	r1, #3
	add.w	r4, r1, r5, lsr #3
	cmp	r3, r4
	bhs	.Lp_BB16_22
	ldr	r1, [sp]
	add	r2, sp, #24
	add	r1, r3
	bl	tlsf_block_at
	ldr	r1, [sp, #32]
	orrs	r0, r1
	bne	.Lp_BB16_23
	ldr	r0, [sp, #4]
	mov	r2, r11
	ldr	r1, [sp, #28]
	add	r0, r1
	mov	r1, r9
	cmp	r0, r4
	mov	r0, r10
	blo	.Lp_BB16_14
.Lp_BB16_22:
	str	r6, [sp, #24]
	add	r3, sp, #24
	mov	r1, r6
	mov	r2, r5
	b	.Lp_BB16_17
.Lp_BB16_23:
	mov	r0, r10
	mov	r2, r11
	mov	r1, r9
	b	.Lp_BB16_14
.Lp_func_end16:
	.size	tlsf_aligned_realloc, .Lp_func_end16-tlsf_aligned_realloc
	.cfi_endproc
	.section	.text.tlsf_allocate_at,"ax",%progbits
	.globl	tlsf_allocate_at
	.p2align	1
	.type	tlsf_allocate_at,%function
	.code	16
	.thumb_func
tlsf_allocate_at:
	.cfi_startproc
	push.w	{r4, r5, r6, r7, r8, r9, r10, r11, lr}
	.cfi_def_cfa_offset 36
	.cfi_offset lr, -4
	.cfi_offset r11, -8
	.cfi_offset r10, -12
	.cfi_offset r9, -16
	.cfi_offset r8, -20
	.cfi_offset r7, -24
	.cfi_offset r6, -28
	.cfi_offset r5, -32
	.cfi_offset r4, -36
	sub	sp, #28
	.cfi_def_cfa_offset 64
	mov	r4, r0
	subs	r0, r2, #1
	mov	r5, r1
	eor.w	r1, r2, r0
	mov	r9, r3
	cmp	r1, r0
	bls	.Lp_BB17_5
	cmp.w	r5, #134217728
	itt	ls
	movls	r3, r2
	cmpls.w	r2, #134217728
	bhi	.Lp_BB17_12
	ldrb	r1, [r4, #29]
	cmp	r1, #9
	bhs	.Lp_BB17_13
	movw	r2, #65528
	adds	r1, r5, #7
	movt	r2, #8191
	cmp	r5, #0
	and.w	r2, r2, r1
	it	eq
	orreq	r2, r2, #8
	cmp	r3, #8
	bhi	.Lp_BB17_6
	add	r0, sp, #8
	mov	r1, r4
	bl	tlsf_allocate_place
	b	.Lp_BB17_7
.Lp_BB17_5:
	movs	r0, #0
	movs	r1, #5
	strd	r0, r0, [sp, #16]
	strd	r0, r1, [sp, #8]
	b	.Lp_BB17_7
.Lp_BB17_6:
	ldr	r1, [r4, #16]
	lsrs	r3, r3, #3
	ands	r0, r1
	mov	r1, r4
	lsrs	r0, r0, #3
	str	r0, [sp]
	add	r0, sp, #8
	bl	tlsf_allocate_aligned
.Lp_BB17_7:
	ldr	r0, [sp, #12]
	cbz	r0, .Lp_BB17_9
	add	sp, #28
	pop.w	{r4, r5, r6, r7, r8, r9, r10, r11, pc}
.Lp_BB17_9:
	ldr	r6, [sp, #8]
	lsls.w	r1, r9, #31
	ldrd	r7, r3, [sp, #64]
	ldrd	r8, r10, [sp, #16]
	ldr.w	r11, [r4, #24]
	mov	r1, r6
	bne	.Lp_BB17_11
	ldrb	r1, [r4, #29]
	cmp	r5, #1
	mov	r9, r3
	ldr	r3, [r4, #16]
	it	ls
	movls	r5, #1
	cmp	r1, #0
	it	eq
	moveq	r1, #8
	adds	r2, r5, r1
	adds	r2, #23
	rsbs	r1, r1, #0
	ands	r1, r2
	mov	r5, r0
	sub.w	r2, r1, #24
	add.w	r1, r3, r6, lsl #3
	adds	r1, #24
	mov	r0, r1
	movs	r1, #0
	bl	memset
	ldr	r1, [sp, #8]
	mov	r3, r9
	mov	r0, r5
.Lp_BB17_11:
	ldr	r2, [r4, #16]
	str.w	r8, [r7, #8]
	add.w	r1, r2, r1, lsl #3
	strd	r11, r6, [r7]
	adds	r1, #24
	str.w	r10, [r7, #12]
	str	r1, [r3]
	add	sp, #28
	pop.w	{r4, r5, r6, r7, r8, r9, r10, r11, pc}
.Lp_BB17_12:
	mov	r0, r4
	bl	tlsf_too_long
	movs	r1, #0
	strd	r1, r1, [sp, #16]
	strd	r1, r0, [sp, #8]
	b	.Lp_BB17_7
.Lp_BB17_13:
	add	r0, sp, #8
	mov	r1, r4
	mov	r2, r5
	bl	tlsf_mixed_place
	b	.Lp_BB17_7
.Lp_func_end17:
	.size	tlsf_allocate_at, .Lp_func_end17-tlsf_allocate_at
	.cfi_endproc
	.section	.text.tlsf_payload,"ax",%progbits
	.globl	tlsf_payload
	.p2align	1
	.type	tlsf_payload,%function
	.code	16
	.thumb_func
tlsf_payload:
	.cfi_startproc
	push	{r4, r5, r7, lr}
	.cfi_def_cfa_offset 16
	.cfi_offset lr, -4
	.cfi_offset r7, -8
	.cfi_offset r5, -12
	.cfi_offset r4, -16
	sub	sp, #24
	.cfi_def_cfa_offset 40
	add	r1, sp, #16
	mov	r4, r3
	add	r3, sp, #20
	ldrd	r12, lr, [sp, #40]
	movs	r5, #0
	strd	r3, r1, [sp, #8]
	mov	r3, r4
	strd	r5, r5, [sp, #16]
	strd	r12, lr, [sp]
	bl	tlsf_locate
	cbnz	r0, .Lp_BB18_2
	ldr	r0, [sp, #48]
	cmp	r0, #0
	itt	ne
	ldrne	r1, [sp, #16]
	strne	r1, [r0]
	ldr	r0, [sp, #20]
	add.w	r0, r0, r4, lsl #3
	add.w	r5, r0, #24
.Lp_BB18_2:
	mov	r0, r5
	add	sp, #24
	pop	{r4, r5, r7, pc}
.Lp_func_end18:
	.size	tlsf_payload, .Lp_func_end18-tlsf_payload
	.cfi_endproc
	.section	.text.tlsf_pools_name_at,"ax",%progbits
	.globl	tlsf_pools_name_at
	.p2align	1
	.type	tlsf_pools_name_at,%function
	.code	16
	.thumb_func
tlsf_pools_name_at:
	.cfi_startproc
	push.w	{r4, r5, r6, r7, r8, r9, r10, r11, lr}
	.cfi_def_cfa_offset 36
	.cfi_offset lr, -4
	.cfi_offset r11, -8
	.cfi_offset r10, -12
	.cfi_offset r9, -16
	.cfi_offset r8, -20
	.cfi_offset r7, -24
	.cfi_offset r6, -28
	.cfi_offset r5, -32
	.cfi_offset r4, -36
	sub	sp, #20
	.cfi_def_cfa_offset 56
	mov	r7, r2
	add	r2, sp, #12
	add	r3, sp, #16
	mov.w	r11, #0
	mov	r6, r1
	movs	r1, #0
	mov	r5, r0
	str.w	r11, [sp, #16]
	strd	r11, r11, [sp, #8]
	bl	tlsf_pools_part
	mov.w	r8, #0
	movs	r4, #0
	cbnz	r0, .Lp_BB19_4
	add.w	r9, sp, #12
	add.w	r10, sp, #16
	str	r7, [sp, #4]
	movs	r7, #0
.Lp_BB19_2:
	cmp	r7, #0
	ldr	r0, [sp, #12]
	ittt	ne
	subne.w	r1, r6, r8
	subne	r2, r6, r0
	cmpne	r2, r1
	itt	ls
	movls	r8, r0
	movls	r4, r7
	adds	r7, #1
	mov	r0, r5
	mov	r2, r9
	mov	r3, r10
	mov	r1, r7
	bl	tlsf_pools_part
	cmp	r0, #0
	beq	.Lp_BB19_2
	ldr	r7, [sp, #4]
.Lp_BB19_4:
	add	r0, sp, #8
	str	r0, [sp]
	sub.w	r0, r6, r8
	mov.w	r2, #-1
	subs	r0, #24
	mov	r1, r4
	mov	r3, r7
	cmp.w	r11, r0, lsl #29
	it	eq
	lsreq	r2, r0, #3
	mov	r0, r5
	bl	tlsf_pools_place
	add	sp, #20
	pop.w	{r4, r5, r6, r7, r8, r9, r10, r11, pc}
.Lp_func_end19:
	.size	tlsf_pools_name_at, .Lp_func_end19-tlsf_pools_name_at
	.cfi_endproc
	.section	.text.tlsf_pools_usable_size,"ax",%progbits
	.globl	tlsf_pools_usable_size
	.p2align	1
	.type	tlsf_pools_usable_size,%function
	.code	16
	.thumb_func
tlsf_pools_usable_size:
	.cfi_startproc
	push.w	{r4, r5, r6, r7, r8, r9, r10, r11, lr}
	.cfi_def_cfa_offset 36
	.cfi_offset lr, -4
	.cfi_offset r11, -8
	.cfi_offset r10, -12
	.cfi_offset r9, -16
	.cfi_offset r8, -20
	.cfi_offset r7, -24
	.cfi_offset r6, -28
	.cfi_offset r5, -32
	.cfi_offset r4, -36
	sub	sp, #36
	.cfi_def_cfa_offset 72
	add	r2, sp, #28
	add	r3, sp, #32
	mov.w	r10, #0
	mov	r5, r1
	movs	r1, #0
	mov	r4, r0
	str.w	r10, [sp, #20]
	strd	r10, r10, [sp, #12]
	strd	r10, r10, [sp, #4]
	strd	r10, r10, [sp, #28]
	bl	tlsf_pools_part
	movs	r7, #0
	mov.w	r11, #0
	cbnz	r0, .Lp_BB20_3
	add.w	r8, sp, #28
	add.w	r9, sp, #32
	movs	r6, #0
.Lp_BB20_2:
	cmp	r6, #0
	ldr	r0, [sp, #28]
	ittt	ne
	subne	r1, r5, r7
	subne	r2, r5, r0
	cmpne	r2, r1
	itt	ls
	movls	r7, r0
	movls	r11, r6
	adds	r6, #1
	mov	r0, r4
	mov	r2, r8
	mov	r3, r9
	mov	r1, r6
	bl	tlsf_pools_part
	cmp	r0, #0
	beq	.Lp_BB20_2
.Lp_BB20_3:
	add	r0, sp, #4
	str	r0, [sp]
	subs	r0, r5, r7
	mov.w	r2, #-1
	subs	r0, #24
	add	r3, sp, #8
	mov	r1, r11
	cmp.w	r10, r0, lsl #29
	it	eq
	lsreq	r2, r0, #3
	mov	r0, r4
	bl	tlsf_pools_place
	ldr	r1, [sp, #4]
	cmp	r0, #0
	it	ne
	movne	r1, r10
	mov	r0, r1
	add	sp, #36
	pop.w	{r4, r5, r6, r7, r8, r9, r10, r11, pc}
.Lp_func_end20:
	.size	tlsf_pools_usable_size, .Lp_func_end20-tlsf_pools_usable_size
	.cfi_endproc
	.section	.text.tlsf_pools_free,"ax",%progbits
	.globl	tlsf_pools_free
	.p2align	1
	.type	tlsf_pools_free,%function
	.code	16
	.thumb_func
tlsf_pools_free:
	.cfi_startproc
	push	{r4, lr}
	.cfi_def_cfa_offset 8
	.cfi_offset lr, -4
	.cfi_offset r4, -8
	sub	sp, #24
	.cfi_def_cfa_offset 32
	mov	r3, r0
	movs	r0, #0
	strd	r0, r0, [sp, #16]
	strd	r0, r0, [sp, #8]
	cbz	r1, .Lp_BB21_2
	add	r2, sp, #8
	mov	r0, r3
	mov	r4, r3
	bl	tlsf_pools_name_at
	cbz	r0, .Lp_BB21_3
.Lp_BB21_2:
	add	sp, #24
	pop	{r4, pc}
.Lp_BB21_3:
	ldrd	r2, r3, [sp, #8]
	ldrd	r0, r1, [sp, #16]
	strd	r0, r1, [sp]
	mov	r0, r4
	bl	tlsf_pools_release
	add	sp, #24
	pop	{r4, pc}
.Lp_func_end21:
	.size	tlsf_pools_free, .Lp_func_end21-tlsf_pools_free
	.cfi_endproc
	.section	.text.tlsf_pools_malloc,"ax",%progbits
	.globl	tlsf_pools_malloc
	.p2align	1
	.type	tlsf_pools_malloc,%function
	.code	16
	.thumb_func
tlsf_pools_malloc:
	.cfi_startproc
	push	{r4, r5, r7, lr}
	.cfi_def_cfa_offset 16
	.cfi_offset lr, -4
	.cfi_offset r7, -8
	.cfi_offset r5, -12
	.cfi_offset r4, -16
	sub	sp, #32
	.cfi_def_cfa_offset 48
	add	r2, sp, #4
	movs	r5, #0
	mov	r4, r0
	str	r5, [sp, #4]
	bl	tlsf_pools_row
	cbnz	r0, .Lp_BB22_7
	ldr	r1, [sp, #4]
	add	r2, sp, #16
	mov	r0, r4
	strd	r5, r5, [sp, #24]
	strd	r5, r5, [sp, #16]
	strd	r5, r5, [sp, #8]
	bl	tlsf_pools_allocate
	cbnz	r0, .Lp_BB22_7
	add	r2, sp, #8
	add	r3, sp, #12
	mov	r0, r4
	movs	r1, #0
	movs	r5, #0
	bl	tlsf_pools_part
	cbnz	r0, .Lp_BB22_7
	ldrd	r0, r1, [sp, #12]
	cmp	r1, r0
	beq	.Lp_BB22_6
	subs	r1, r1, r0
	add	r2, sp, #8
	add	r3, sp, #12
	mov	r0, r4
	bl	tlsf_pools_part
	cbz	r0, .Lp_BB22_6
	movs	r5, #0
	b	.Lp_BB22_7
.Lp_BB22_6:
	ldr	r0, [sp, #20]
	ldr	r1, [sp, #8]
	add.w	r0, r1, r0, lsl #3
	add.w	r5, r0, #24
.Lp_BB22_7:
	mov	r0, r5
	add	sp, #32
	pop	{r4, r5, r7, pc}
.Lp_func_end22:
	.size	tlsf_pools_malloc, .Lp_func_end22-tlsf_pools_malloc
	.cfi_endproc
	.section	.text.tlsf_pools_realloc,"ax",%progbits
	.globl	tlsf_pools_realloc
	.p2align	1
	.type	tlsf_pools_realloc,%function
	.code	16
	.thumb_func
tlsf_pools_realloc:
	.cfi_startproc
	push.w	{r4, r5, r6, r7, r8, r9, r10, r11, lr}
	.cfi_def_cfa_offset 36
	.cfi_offset lr, -4
	.cfi_offset r11, -8
	.cfi_offset r10, -12
	.cfi_offset r9, -16
	.cfi_offset r8, -20
	.cfi_offset r7, -24
	.cfi_offset r6, -28
	.cfi_offset r5, -32
	.cfi_offset r4, -36
	sub	sp, #68
	.cfi_def_cfa_offset 104
	mov	r10, r0
	movs	r0, #0
	mov	r4, r2
	cmp	r1, #0
	strd	r0, r0, [sp, #32]
	strd	r0, r0, [sp, #24]
	strd	r0, r0, [sp, #16]
	beq.w	.Lp_BB23_14
	mov	r5, r1
	cmp	r4, #0
	beq.w	.Lp_BB23_15
	add	r2, sp, #44
	add	r3, sp, #48
	mov.w	r9, #0
	mov	r0, r10
	movs	r1, #0
	strd	r9, r9, [sp, #44]
	bl	tlsf_pools_part
	mov.w	r8, #0
	movs	r7, #0
	cbnz	r0, .Lp_BB23_6
	str	r4, [sp, #12]
	add.w	r11, sp, #44
	add	r4, sp, #48
	movs	r6, #0
.Lp_BB23_4:
	cmp	r6, #0
	ldr	r0, [sp, #44]
	ittt	ne
	subne.w	r1, r5, r8
	subne	r2, r5, r0
	cmpne	r2, r1
	itt	ls
	movls	r8, r0
	movls	r7, r6
	adds	r6, #1
	mov	r0, r10
	mov	r2, r11
	mov	r3, r4
	mov	r1, r6
	bl	tlsf_pools_part
	cmp	r0, #0
	beq	.Lp_BB23_4
	ldr	r4, [sp, #12]
.Lp_BB23_6:
	add	r0, sp, #20
	str	r0, [sp]
	sub.w	r0, r5, r8
	mov.w	r2, #-1
	subs	r0, #24
	add	r3, sp, #24
	mov	r1, r7
	cmp.w	r9, r0, lsl #29
	it	eq
	lsreq	r2, r0, #3
	mov	r0, r10
	bl	tlsf_pools_place
	cmp	r0, #0
	bne	.Lp_BB23_18
	add	r2, sp, #16
	mov	r0, r10
	mov	r1, r4
	bl	tlsf_pools_row
	cmp	r0, #0
	bne	.Lp_BB23_17
	ldrd	r1, r0, [sp, #16]
	cmp	r4, r0
	it	ls
	cmpls	r0, r1
	bls	.Lp_BB23_19
	movs	r0, #0
	add	r2, sp, #48
	strd	r0, r0, [sp, #56]
	strd	r0, r0, [sp, #48]
	strd	r0, r0, [sp, #40]
	mov	r0, r10
	bl	tlsf_pools_allocate
	cmp	r0, #0
	bne	.Lp_BB23_17
	add	r2, sp, #40
	add	r3, sp, #44
	mov	r0, r10
	movs	r1, #0
	bl	tlsf_pools_part
	cbnz	r0, .Lp_BB23_17
	ldrd	r0, r1, [sp, #44]
	cmp	r1, r0
	beq	.Lp_BB23_13
	subs	r1, r1, r0
	add	r2, sp, #40
	add	r3, sp, #44
	mov	r0, r10
	bl	tlsf_pools_part
	cbnz	r0, .Lp_BB23_17
.Lp_BB23_13:
	ldr	r0, [sp, #52]
	ldr	r2, [sp, #40]
	ldr	r1, [sp, #20]
	add.w	r0, r2, r0, lsl #3
	add.w	r9, r0, #24
	cmp	r1, r4
	it	lo
	movlo	r4, r1
	mov	r1, r5
	mov	r0, r9
	mov	r2, r4
	bl	memcpy
	ldrd	r2, r3, [sp, #24]
	ldrd	r0, r1, [sp, #32]
	strd	r0, r1, [sp]
	mov	r0, r10
	bl	tlsf_pools_release
	b	.Lp_BB23_18
.Lp_BB23_14:
	mov	r0, r10
	mov	r1, r4
	add	sp, #68
	pop.w	{r4, r5, r6, r7, r8, r9, r10, r11, lr}
	b	tlsf_pools_malloc
.Lp_BB23_15:
	add	r2, sp, #48
	strd	r0, r0, [sp, #56]
	strd	r0, r0, [sp, #48]
	mov	r0, r10
	mov	r1, r5
	bl	tlsf_pools_name_at
	cbnz	r0, .Lp_BB23_17
	ldrd	r2, r3, [sp, #48]
	ldrd	r0, r1, [sp, #56]
	strd	r0, r1, [sp]
	mov	r0, r10
	bl	tlsf_pools_release
.Lp_BB23_17:
	mov.w	r9, #0
.Lp_BB23_18:
	mov	r0, r9
	add	sp, #68
	pop.w	{r4, r5, r6, r7, r8, r9, r10, r11, pc}
.Lp_BB23_19:
	mov	r9, r5
	b	.Lp_BB23_18
.Lp_func_end23:
	.size	tlsf_pools_realloc, .Lp_func_end23-tlsf_pools_realloc
	.cfi_endproc
	.section	.text.tlsf_text_of,"ax",%progbits
	.globl	tlsf_text_of
	.p2align	2
	.type	tlsf_text_of,%function
	.code	16
	.thumb_func
tlsf_text_of:
	.cfi_startproc
	cmp	r0, #40
	bhi	.Lp_BB24_2
	ldr	r1, .Lp_CPI24_1
.Lp_PC24_1:
	add	r1, pc
	ldr.w	r0, [r1, r0, lsl #2]
	bx	lr
.Lp_BB24_2:
	ldr	r0, .Lp_CPI24_0
.Lp_PC24_0:
	add	r0, pc
	bx	lr
	.p2align	2
.Lp_CPI24_0:
	.long	.L.str.20-(.Lp_PC24_0+4)
.Lp_CPI24_1:
	.long	.Lp_switch.table.tlsf_text_of-(.Lp_PC24_1+4)
.Lp_func_end24:
	.size	tlsf_text_of, .Lp_func_end24-tlsf_text_of
	.cfi_endproc
	.section	.text.unlikely.tlsf_too_long,"ax",%progbits
	.p2align	1
	.type	tlsf_too_long,%function
	.code	16
	.thumb_func
tlsf_too_long:
	.cfi_startproc
	push	{r4, r5, r7, lr}
	.cfi_def_cfa_offset 16
	.cfi_offset lr, -4
	.cfi_offset r7, -8
	.cfi_offset r5, -12
	.cfi_offset r4, -16
	sub	sp, #24
	.cfi_def_cfa_offset 40
	mov	r5, sp
	mov	r4, r0
	mov	r0, r5
	movs	r1, #0
	movs	r2, #24
	bl	memset
	mov	r0, r4
	mov.w	r1, #-1
	mov	r2, r5
	bl	tlsf_block_at
	cmp	r0, #32
	it	ne
	movne	r0, #1
	add	sp, #24
	pop	{r4, r5, r7, pc}
.Lp_func_end25:
	.size	tlsf_too_long, .Lp_func_end25-tlsf_too_long
	.cfi_endproc
	.section	.text.unlikely.tlsf_mixed_place,"ax",%progbits
	.p2align	1
	.type	tlsf_mixed_place,%function
	.code	16
	.thumb_func
tlsf_mixed_place:
	.cfi_startproc
	push.w	{r4, r5, r6, r7, r8, r9, lr}
	.cfi_def_cfa_offset 28
	.cfi_offset lr, -4
	.cfi_offset r9, -8
	.cfi_offset r8, -12
	.cfi_offset r7, -16
	.cfi_offset r6, -20
	.cfi_offset r5, -24
	.cfi_offset r4, -28
	sub	sp, #28
	.cfi_def_cfa_offset 56
	ldrb	r4, [r1, #29]
	cmp	r2, #1
	it	ls
	movls	r2, #1
	mov	r8, r0
	cmp	r4, #0
	it	eq
	moveq	r4, #8
	adds	r0, r2, r4
	mov	r5, r1
	adds	r0, #23
	rsbs	r1, r4, #0
	ands	r0, r1
	cmp	r3, r4
	sub.w	r6, r0, #24
	bls	.Lp_BB26_3
	ldr	r0, [r5, #16]
	subs	r1, r3, #1
	lsrs	r3, r3, #3
	ands	r0, r1
.Lp_BB26_2:
	lsrs	r0, r0, #3
	str	r0, [sp]
	mov	r0, r8
	mov	r1, r5
	mov	r2, r6
	bl	tlsf_allocate_aligned
	b	.Lp_BB26_5
.Lp_BB26_3:
	add	r7, sp, #8
	mov	r1, r5
	mov	r2, r6
	mov	r0, r7
	bl	tlsf_allocate_place
	ldr	r0, [sp, #12]
	cbz	r0, .Lp_BB26_6
.Lp_BB26_4:
	ldm.w	r7, {r0, r1, r2, r3}
	stm.w	r8, {r0, r1, r2, r3}
.Lp_BB26_5:
	add	sp, #28
	pop.w	{r4, r5, r6, r7, r8, r9, pc}
.Lp_BB26_6:
	ldr	r1, [sp, #8]
	sub.w	r9, r4, #1
	ldr	r0, [r5, #16]
	add.w	r0, r0, r1, lsl #3
	adds	r0, #24
	tst.w	r9, r0
	beq	.Lp_BB26_4
	mov	r0, r5
	bl	tlsf_release_place
	ldr	r0, [r5, #16]
	lsrs	r3, r4, #3
	and.w	r0, r0, r9
	b	.Lp_BB26_2
.Lp_func_end26:
	.size	tlsf_mixed_place, .Lp_func_end26-tlsf_mixed_place
	.cfi_endproc
	.section	.text.unlikely.tlsf_malloc_own,"ax",%progbits
	.p2align	1
	.type	tlsf_malloc_own,%function
	.code	16
	.thumb_func
tlsf_malloc_own:
	.cfi_startproc
	cmp.w	r1, #134217728
	itt	hi
	movhi	r0, #0
	bxhi	lr
.Lp_BB27_1:
	push	{r4, lr}
	.cfi_def_cfa_offset 8
	.cfi_offset lr, -4
	.cfi_offset r4, -8
	sub	sp, #16
	.cfi_def_cfa_offset 24
	mov	r4, r0
	mov	r2, r1
	mov	r0, sp
	mov	r1, r4
	movs	r3, #1
	bl	tlsf_mixed_place
	ldr	r0, [sp, #4]
	cbz	r0, .Lp_BB27_3
	movs	r0, #0
	b	.Lp_BB27_4
.Lp_BB27_3:
	ldr	r0, [sp]
	ldr	r1, [r4, #16]
	add.w	r0, r1, r0, lsl #3
	adds	r0, #24
.Lp_BB27_4:
	add	sp, #16
	pop	{r4, pc}
.Lp_func_end27:
	.size	tlsf_malloc_own, .Lp_func_end27-tlsf_malloc_own
	.cfi_endproc
	.type	.L.str,%object
	.section	.rodata.str1.1,"aMS",%progbits,1
.L.str:
	.asciz	"done"
	.size	.L.str, 5
	.type	.L.str.1,%object
.L.str.1:
	.asciz	"no free block fits"
	.size	.L.str.1, 19
	.type	.L.str.2,%object
.L.str.2:
	.asciz	"the ticks or the numbers are used up"
	.size	.L.str.2, 37
	.type	.L.str.3,%object
.L.str.3:
	.asciz	"a name of another heap"
	.size	.L.str.3, 23
	.type	.L.str.4,%object
.L.str.4:
	.asciz	"no live block has that name or address"
	.size	.L.str.4, 39
	.type	.L.str.5,%object
.L.str.5:
	.asciz	"a size out of range"
	.size	.L.str.5, 20
	.type	.L.str.6,%object
.L.str.6:
	.asciz	"no memory"
	.size	.L.str.6, 10
	.type	.L.str.7,%object
.L.str.7:
	.asciz	"bytes past the end of the payload"
	.size	.L.str.7, 34
	.type	.L.str.8,%object
.L.str.8:
	.asciz	"the lane or queue is full"
	.size	.L.str.8, 26
	.type	.L.str.9,%object
.L.str.9:
	.asciz	"no room where the block stands"
	.size	.L.str.9, 31
	.type	.L.str.10,%object
.L.str.10:
	.asciz	"a line was not written"
	.size	.L.str.10, 23
	.type	.L.str.11,%object
.L.str.11:
	.asciz	"the handle is closed"
	.size	.L.str.11, 21
	.type	.L.str.12,%object
.L.str.12:
	.asciz	"the handle is open already"
	.size	.L.str.12, 27
	.type	.L.str.13,%object
.L.str.13:
	.asciz	"a level is 4 or 5"
	.size	.L.str.13, 18
	.type	.L.str.14,%object
.L.str.14:
	.asciz	"the lane or queue is empty"
	.size	.L.str.14, 27
	.type	.L.str.15,%object
.L.str.15:
	.asciz	"a header is damaged"
	.size	.L.str.15, 20
	.type	.L.str.16,%object
.L.str.16:
	.asciz	"another thread is in the way: try again"
	.size	.L.str.16, 40
	.type	.L.str.17,%object
.L.str.17:
	.asciz	"all blocks of that row are held"
	.size	.L.str.17, 32
	.type	.L.str.18,%object
.L.str.18:
	.asciz	"memory that is null, or past the end of the address space"
	.size	.L.str.18, 58
	.type	.L.str.19,%object
.L.str.19:
	.asciz	"the handle holds something of another kind"
	.size	.L.str.19, 43
	.type	.L.str.20,%object
.L.str.20:
	.asciz	"no answer of this library"
	.size	.L.str.20, 26
	.type	.Lp_switch.table.tlsf_text_of,%object
	.section	.data.rel.ro..Lswitch.table.tlsf_text_of,"aw",%progbits
	.p2align	2, 0x0
.Lp_switch.table.tlsf_text_of:
	.long	.L.str
	.long	.L.str.1
	.long	.L.str.2
	.long	.L.str.3
	.long	.L.str.4
	.long	.L.str.5
	.long	.L.str.6
	.long	.L.str.7
	.long	.L.str.8
	.long	.L.str.20
	.long	.L.str.9
	.long	.L.str.20
	.long	.L.str.20
	.long	.L.str.20
	.long	.L.str.20
	.long	.L.str.20
	.long	.L.str.20
	.long	.L.str.10
	.long	.L.str.20
	.long	.L.str.20
	.long	.L.str.20
	.long	.L.str.20
	.long	.L.str.20
	.long	.L.str.20
	.long	.L.str.20
	.long	.L.str.20
	.long	.L.str.20
	.long	.L.str.20
	.long	.L.str.20
	.long	.L.str.20
	.long	.L.str.20
	.long	.L.str.20
	.long	.L.str.11
	.long	.L.str.12
	.long	.L.str.13
	.long	.L.str.14
	.long	.L.str.15
	.long	.L.str.16
	.long	.L.str.17
	.long	.L.str.18
	.long	.L.str.19
	.size	.Lp_switch.table.tlsf_text_of, 164
	.ident	"clang version 22.1.8"
	.section	".note.GNU-stack","",%progbits
#endif
/* c/memory.c */
#ifdef TLSF_ONLY_CALLS
#elif defined(TLSF_NO_TLS)
	.syntax	unified
	.eabi_attribute	24, 1
	.eabi_attribute	25, 1
	.section	.text.tlsf_memory_alloc,"ax",%progbits
	.hidden	tlsf_memory_alloc
	.globl	tlsf_memory_alloc
	.p2align	2
	.type	tlsf_memory_alloc,%function
	.code	16
	.thumb_func
tlsf_memory_alloc:
	.cfi_sections .debug_frame
	.cfi_startproc
	push.w	{r4, r5, r6, r7, r8, r9, lr}
	.cfi_def_cfa_offset 28
	.cfi_offset lr, -4
	.cfi_offset r9, -8
	.cfi_offset r8, -12
	.cfi_offset r7, -16
	.cfi_offset r6, -20
	.cfi_offset r5, -24
	.cfi_offset r4, -28
	sub	sp, #4
	.cfi_def_cfa_offset 32
	cmp	r2, #8
	mov.w	r5, #0
	mov.w	r2, #0
	bhi	.Lm_BB0_10
	ldr	r2, .Lm_CPI0_0
.Lm_PC0_0:
	add	r2, pc
	ldr	r3, [r2]
	cbz	r3, .Lm_BB0_3
	ldr	r2, .Lm_CPI0_1
.Lm_PC0_1:
	add	r2, pc
	ldr	r7, [r2]
	subs	r6, r7, #1
	str	r6, [r2]
	cbz	r7, .Lm_BB0_9
.Lm_BB0_3:
	ldr	r6, .Lm_CPI0_2
.Lm_PC0_2:
	add	r6, pc
	ldr	r7, [r6]
	cbz	r7, .Lm_BB0_6
	mov	r8, r0
	ldr	r0, .Lm_CPI0_3
	mov	r4, r1
.Lm_PC0_3:
	add	r0, pc
	ldr	r2, [r0]
	adds	r0, r1, r2
	add.w	r9, r0, #7
	mov	r1, r2
	mov	r0, r9
	bl	__aeabi_uidivmod
	cmp.w	r4, #268435456
	bls	.Lm_BB0_7
	movs	r2, #0
	mov	r0, r8
	b	.Lm_BB0_10
.Lm_BB0_6:
	movs	r2, #0
	b	.Lm_BB0_10
.Lm_BB0_7:
	ldr	r2, .Lm_CPI0_4
	add.w	r0, r4, #8
.Lm_PC0_4:
	add	r2, pc
	ldr	r3, [r2]
	movs	r2, #0
	sub.w	r12, r3, r7
	cmp	r0, r12
	mov	r0, r8
	bhi	.Lm_BB0_10
	add.w	r4, r7, #8
	sub.w	r1, r9, r1
	strd	r2, r2, [r7]
	cmp	r1, r12
	mov	r2, r4
	it	lo
	addlo	r3, r7, r1
	str	r3, [r6]
	b	.Lm_BB0_10
.Lm_BB0_9:
	movs	r2, #0
	movw	r7, #2776
	cmp	r1, r7
	itt	ls
	strdls	r2, r2, [r3]
	addls.w	r2, r3, #8
.Lm_BB0_10:
	ldr	r1, .Lm_CPI0_5
	mov	r3, r2
	cmp	r2, #0
.Lm_PC0_5:
	add	r1, pc
	itt	ne
	movne	r3, #1
	movne	r1, r2
	strd	r3, r5, [r0]
	strd	r1, r5, [r0, #8]
	add	sp, #4
	pop.w	{r4, r5, r6, r7, r8, r9, pc}
	.p2align	2
.Lm_CPI0_0:
	.long	near_room-(.Lm_PC0_0+4)
.Lm_CPI0_1:
	.long	pieces_first-(.Lm_PC0_1+4)
.Lm_CPI0_2:
	.long	lent-(.Lm_PC0_2+4)
.Lm_CPI0_3:
	.long	lent_step-(.Lm_PC0_3+4)
.Lm_CPI0_4:
	.long	lent_end-(.Lm_PC0_4+4)
.Lm_CPI0_5:
	.long	tlsf_memory_alloc.nothing-(.Lm_PC0_5+4)
.Lm_func_end0:
	.size	tlsf_memory_alloc, .Lm_func_end0-tlsf_memory_alloc
	.cfi_endproc
	.section	.text.tlsf_memory_dealloc,"ax",%progbits
	.hidden	tlsf_memory_dealloc
	.globl	tlsf_memory_dealloc
	.p2align	1
	.type	tlsf_memory_dealloc,%function
	.code	16
	.thumb_func
tlsf_memory_dealloc:
	.cfi_startproc
	bx	lr
.Lm_func_end1:
	.size	tlsf_memory_dealloc, .Lm_func_end1-tlsf_memory_dealloc
	.cfi_endproc
	.section	.text.tlsf_memory_realloc,"ax",%progbits
	.hidden	tlsf_memory_realloc
	.globl	tlsf_memory_realloc
	.p2align	2
	.type	tlsf_memory_realloc,%function
	.code	16
	.thumb_func
tlsf_memory_realloc:
	.cfi_startproc
	push.w	{r4, r5, r6, r7, r8, r9, r10, lr}
	.cfi_def_cfa_offset 32
	.cfi_offset lr, -4
	.cfi_offset r10, -8
	.cfi_offset r9, -12
	.cfi_offset r8, -16
	.cfi_offset r7, -20
	.cfi_offset r6, -24
	.cfi_offset r5, -28
	.cfi_offset r4, -32
	ldr	r7, [sp, #32]
	cmp	r7, #8
	bhi	.Lm_BB2_8
	ldr	r4, .Lm_CPI2_0
.Lm_PC2_0:
	add	r4, pc
	ldr	r6, [r4]
	cbz	r6, .Lm_BB2_3
	ldr	r4, .Lm_CPI2_1
.Lm_PC2_1:
	add	r4, pc
	ldr	r7, [r4]
	subs	r5, r7, #1
	str	r5, [r4]
	cbz	r7, .Lm_BB2_7
.Lm_BB2_3:
	ldr	r4, .Lm_CPI2_3
.Lm_PC2_3:
	add	r4, pc
	ldr	r6, [r4]
	cbz	r6, .Lm_BB2_8
	mov	r10, r4
	ldr	r4, .Lm_CPI2_4
	mov	r9, r1
	mov	r5, r3
.Lm_PC2_4:
	add	r4, pc
	ldr	r4, [r4]
	adds	r7, r3, r4
	add.w	r8, r7, #7
	mov	r7, r0
	mov	r1, r4
	mov	r4, r2
	mov	r0, r8
	bl	__aeabi_uidivmod
	mov	r0, r7
	cmp.w	r5, #268435456
	bhi	.Lm_BB2_8
	mov	r2, r4
	ldr	r4, .Lm_CPI2_5
	add.w	r3, r5, #8
.Lm_PC2_5:
	add	r4, pc
	ldr	r4, [r4]
	sub.w	lr, r4, r6
	cmp	r3, lr
	bhi	.Lm_BB2_8
	mov	r12, r1
	mov	r1, r9
	sub.w	r3, r8, r12
	cmp	r3, lr
	it	lo
	addlo	r4, r6, r3
	str.w	r4, [r10]
	b	.Lm_BB2_9
.Lm_BB2_7:
	movw	r7, #2776
	cmp	r3, r7
	bls	.Lm_BB2_9
.Lm_BB2_8:
	ldr	r1, .Lm_CPI2_2
	movs	r2, #0
	strd	r2, r2, [r0]
.Lm_PC2_2:
	add	r1, pc
	strd	r1, r2, [r0, #8]
	pop.w	{r4, r5, r6, r7, r8, r9, r10, pc}
.Lm_BB2_9:
	add.w	r3, r6, #8
	movs	r7, #0
	movs	r5, #1
	strd	r3, r7, [r0, #8]
	strd	r5, r7, [r0]
	mov	r0, r3
	strd	r7, r7, [r6]
	bl	memcpy
	pop.w	{r4, r5, r6, r7, r8, r9, r10, pc}
	.p2align	2
.Lm_CPI2_0:
	.long	near_room-(.Lm_PC2_0+4)
.Lm_CPI2_1:
	.long	pieces_first-(.Lm_PC2_1+4)
.Lm_CPI2_2:
	.long	tlsf_memory_alloc.nothing-(.Lm_PC2_2+4)
.Lm_CPI2_3:
	.long	lent-(.Lm_PC2_3+4)
.Lm_CPI2_4:
	.long	lent_step-(.Lm_PC2_4+4)
.Lm_CPI2_5:
	.long	lent_end-(.Lm_PC2_5+4)
.Lm_func_end2:
	.size	tlsf_memory_realloc, .Lm_func_end2-tlsf_memory_realloc
	.cfi_endproc
	.section	.text.tlsf_memory_set,"ax",%progbits
	.hidden	tlsf_memory_set
	.weak	tlsf_memory_set
	.p2align	1
	.type	tlsf_memory_set,%function
	.code	16
	.thumb_func
tlsf_memory_set:
	.cfi_startproc
	cmp	r1, #0
	bne.w	.Lm_BB3_13
	cmp.w	r2, #512
	it	hi
	bhi	memset
.Lm_BB3_2:
	add.w	r1, r0, #16
	cmp.w	r2, #256
	bls.w	.Lm_BB3_4
	add	r2, r0
	movs	r3, #0
	str	r3, [r0, #12]
	str	r3, [r0, #8]
	str	r3, [r0, #4]
	str	r3, [r0]
	str	r3, [r2, #-4]
	str	r3, [r2, #-16]
	str	r3, [r2, #-12]
	str	r3, [r2, #-8]
	str	r3, [r1, #12]
	str	r3, [r1]
	str	r3, [r1, #4]
	str	r3, [r1, #8]
	str	r3, [r2, #-20]
	str	r3, [r2, #-32]
	str	r3, [r2, #-28]
	str	r3, [r2, #-24]
	str	r3, [r1, #28]
	str	r3, [r1, #16]
	str	r3, [r1, #20]
	str	r3, [r1, #24]
	str	r3, [r2, #-36]
	str	r3, [r2, #-48]
	str	r3, [r2, #-44]
	str	r3, [r2, #-40]
	str	r3, [r1, #44]
	str	r3, [r1, #32]
	str	r3, [r1, #36]
	str	r3, [r1, #40]
	str	r3, [r2, #-52]
	str	r3, [r2, #-64]
	str	r3, [r2, #-60]
	str	r3, [r2, #-56]
	str	r3, [r1, #60]
	str	r3, [r1, #48]
	str	r3, [r1, #52]
	str	r3, [r1, #56]
	str	r3, [r2, #-68]
	str	r3, [r2, #-80]
	str	r3, [r2, #-76]
	str	r3, [r2, #-72]
	str	r3, [r1, #76]
	str	r3, [r1, #64]
	str	r3, [r1, #68]
	str	r3, [r1, #72]
	str	r3, [r2, #-84]
	str	r3, [r2, #-96]
	str	r3, [r2, #-92]
	str	r3, [r2, #-88]
	str	r3, [r1, #92]
	str	r3, [r1, #80]
	str	r3, [r1, #84]
	str	r3, [r1, #88]
	str	r3, [r2, #-100]
	str	r3, [r2, #-112]
	str	r3, [r2, #-108]
	str	r3, [r2, #-104]
	str	r3, [r1, #108]
	str	r3, [r1, #96]
	str	r3, [r1, #100]
	str	r3, [r1, #104]
	str	r3, [r2, #-116]
	str	r3, [r2, #-128]
	str	r3, [r2, #-124]
	str	r3, [r2, #-120]
	str	r3, [r1, #124]
	str	r3, [r1, #112]
	str	r3, [r1, #116]
	str	r3, [r1, #120]
	str	r3, [r2, #-132]
	str	r3, [r2, #-144]
	str	r3, [r2, #-140]
	str	r3, [r2, #-136]
	str.w	r3, [r1, #140]
	str.w	r3, [r1, #128]
	str.w	r3, [r1, #132]
	str.w	r3, [r1, #136]
	str	r3, [r2, #-148]
	str	r3, [r2, #-160]
	str	r3, [r2, #-156]
	str	r3, [r2, #-152]
	str.w	r3, [r1, #156]
	str.w	r3, [r1, #144]
	str.w	r3, [r1, #148]
	str.w	r3, [r1, #152]
	str	r3, [r2, #-164]
	str	r3, [r2, #-176]
	str	r3, [r2, #-172]
	str	r3, [r2, #-168]
	str.w	r3, [r1, #172]
	str.w	r3, [r1, #160]
	str.w	r3, [r1, #164]
	str.w	r3, [r1, #168]
	str	r3, [r2, #-180]
	str	r3, [r2, #-192]
	str	r3, [r2, #-188]
	str	r3, [r2, #-184]
	str.w	r3, [r1, #188]
	str.w	r3, [r1, #176]
	str.w	r3, [r1, #180]
	str.w	r3, [r1, #184]
	str	r3, [r2, #-196]
	str	r3, [r2, #-208]
	str	r3, [r2, #-204]
	str	r3, [r2, #-200]
	str.w	r3, [r1, #204]
	str.w	r3, [r1, #192]
	str.w	r3, [r1, #196]
	str.w	r3, [r1, #200]
	str	r3, [r2, #-212]
	str	r3, [r2, #-224]
	str	r3, [r2, #-220]
	str	r3, [r2, #-216]
	str.w	r3, [r1, #220]
	str.w	r3, [r1, #208]
	str.w	r3, [r1, #212]
	str.w	r3, [r1, #216]
	str	r3, [r2, #-228]
	str	r3, [r2, #-240]
	str	r3, [r2, #-236]
	str	r3, [r2, #-232]
	str.w	r3, [r1, #236]
	str.w	r3, [r1, #224]
	str.w	r3, [r1, #228]
	str.w	r3, [r1, #232]
	mvn	r1, #255
	str	r3, [r2, r1]
	str	r3, [r2, #-248]
	str	r3, [r2, #-244]
	str	r3, [r2, #-252]
	bx	lr
.Lm_BB3_4:
	cmp	r2, #129
	blo	.Lm_BB3_6
	add	r2, r0
	movs	r3, #0
	str	r3, [r0, #12]
	str	r3, [r0, #8]
	str	r3, [r0, #4]
	str	r3, [r0]
	str	r3, [r2, #-4]
	str	r3, [r2, #-16]
	str	r3, [r2, #-12]
	str	r3, [r2, #-8]
	str	r3, [r1, #12]
	str	r3, [r1]
	str	r3, [r1, #4]
	str	r3, [r1, #8]
	str	r3, [r2, #-20]
	str	r3, [r2, #-32]
	str	r3, [r2, #-28]
	str	r3, [r2, #-24]
	str	r3, [r1, #28]
	str	r3, [r1, #16]
	str	r3, [r1, #20]
	str	r3, [r1, #24]
	str	r3, [r2, #-36]
	str	r3, [r2, #-48]
	str	r3, [r2, #-44]
	str	r3, [r2, #-40]
	str	r3, [r1, #44]
	str	r3, [r1, #32]
	str	r3, [r1, #36]
	str	r3, [r1, #40]
	str	r3, [r2, #-52]
	str	r3, [r2, #-64]
	str	r3, [r2, #-60]
	str	r3, [r2, #-56]
	str	r3, [r1, #60]
	str	r3, [r1, #48]
	str	r3, [r1, #52]
	str	r3, [r1, #56]
	str	r3, [r2, #-68]
	str	r3, [r2, #-80]
	str	r3, [r2, #-76]
	str	r3, [r2, #-72]
	str	r3, [r1, #76]
	str	r3, [r1, #64]
	str	r3, [r1, #68]
	str	r3, [r1, #72]
	str	r3, [r2, #-84]
	str	r3, [r2, #-96]
	str	r3, [r2, #-92]
	str	r3, [r2, #-88]
	str	r3, [r1, #92]
	str	r3, [r1, #80]
	str	r3, [r1, #84]
	str	r3, [r1, #88]
	str	r3, [r2, #-100]
	str	r3, [r2, #-112]
	str	r3, [r2, #-108]
	str	r3, [r2, #-104]
	str	r3, [r1, #108]
	str	r3, [r1, #96]
	str	r3, [r1, #100]
	str	r3, [r1, #104]
	str	r3, [r2, #-120]
	str	r3, [r2, #-116]
	str	r3, [r2, #-128]
	str	r3, [r2, #-124]
	bx	lr
.Lm_BB3_6:
	cmp	r2, #65
	blo	.Lm_BB3_8
	add	r2, r0
	movs	r3, #0
	str	r3, [r0, #12]
	str	r3, [r0, #8]
	str	r3, [r0, #4]
	str	r3, [r0]
	str	r3, [r2, #-4]
	str	r3, [r2, #-16]
	str	r3, [r2, #-12]
	str	r3, [r2, #-8]
	str	r3, [r1, #12]
	str	r3, [r1]
	str	r3, [r1, #4]
	str	r3, [r1, #8]
	str	r3, [r2, #-20]
	str	r3, [r2, #-32]
	str	r3, [r2, #-28]
	str	r3, [r2, #-24]
	str	r3, [r1, #28]
	str	r3, [r1, #16]
	str	r3, [r1, #20]
	str	r3, [r1, #24]
	str	r3, [r2, #-36]
	str	r3, [r2, #-48]
	str	r3, [r2, #-44]
	str	r3, [r2, #-40]
	str	r3, [r1, #44]
	str	r3, [r1, #32]
	str	r3, [r1, #36]
	str	r3, [r1, #40]
	str	r3, [r2, #-56]
	str	r3, [r2, #-52]
	str	r3, [r2, #-64]
	str	r3, [r2, #-60]
	bx	lr
.Lm_BB3_8:
	cmp	r2, #33
	blo	.Lm_BB3_10
	add	r2, r0
	movs	r3, #0
	str	r3, [r0, #12]
	str	r3, [r0, #8]
	str	r3, [r0, #4]
	str	r3, [r0]
	str	r3, [r2, #-4]
	str	r3, [r2, #-16]
	str	r3, [r2, #-12]
	str	r3, [r2, #-8]
	str	r3, [r1, #12]
	str	r3, [r1]
	str	r3, [r1, #4]
	str	r3, [r1, #8]
	str	r3, [r2, #-24]
	str	r3, [r2, #-20]
	str	r3, [r2, #-32]
	str	r3, [r2, #-28]
	bx	lr
.Lm_BB3_10:
	movs	r1, #0
	cmp	r2, #17
	blo	.Lm_BB3_12
	add	r2, r0
	str	r1, [r0, #12]
	str	r1, [r0, #8]
	str	r1, [r0, #4]
	str	r1, [r0]
	str	r1, [r2, #-8]
	str	r1, [r2, #-4]
	str	r1, [r2, #-16]
	str	r1, [r2, #-12]
	bx	lr
.Lm_BB3_12:
	cmp	r2, #7
	bhi	.Lm_BB3_14
.Lm_BB3_13:
	b	memset
.Lm_BB3_14:
	add	r2, r0
	str	r1, [r0, #4]
	str	r1, [r0]
	str	r1, [r2, #-4]
	str	r1, [r2, #-8]
	bx	lr
.Lm_func_end3:
	.size	tlsf_memory_set, .Lm_func_end3-tlsf_memory_set
	.cfi_endproc
	.section	.text.tlsf_memory_cpy,"ax",%progbits
	.hidden	tlsf_memory_cpy
	.weak	tlsf_memory_cpy
	.p2align	1
	.type	tlsf_memory_cpy,%function
	.code	16
	.thumb_func
tlsf_memory_cpy:
	.cfi_startproc
	b	memcpy
.Lm_func_end4:
	.size	tlsf_memory_cpy, .Lm_func_end4-tlsf_memory_cpy
	.cfi_endproc
	.section	.text.tlsf_memory_move,"ax",%progbits
	.hidden	tlsf_memory_move
	.weak	tlsf_memory_move
	.p2align	1
	.type	tlsf_memory_move,%function
	.code	16
	.thumb_func
tlsf_memory_move:
	.cfi_startproc
	b	memmove
.Lm_func_end5:
	.size	tlsf_memory_move, .Lm_func_end5-tlsf_memory_move
	.cfi_endproc
	.section	.text.tlsf_bytes,"ax",%progbits
	.globl	tlsf_bytes
	.p2align	1
	.type	tlsf_bytes,%function
	.code	16
	.thumb_func
tlsf_bytes:
	.cfi_startproc
	mov	r2, r0
	movs	r0, #0
	cmp	r1, #4
	blo	.Lm_BB6_3
	cmp	r2, #5
	mov.w	r3, #0
	it	eq
	moveq.w	r3, #16777216
	cmp	r2, #4
	it	eq
	moveq.w	r3, #1048576
	cmp	r1, r3
	it	hi
	bxhi	lr
.Lm_BB6_2:
	add.w	r0, r1, #63
	movs	r2, #16
	add.w	r0, r2, r0, lsr #3
	bic	r0, r0, #15
	add.w	r0, r0, r1, lsl #3
	addw	r0, r0, #2791
	orr	r0, r0, #15
.Lm_BB6_3:
	bx	lr
.Lm_func_end6:
	.size	tlsf_bytes, .Lm_func_end6-tlsf_bytes
	.cfi_endproc
	.section	.text.tlsf_near_bytes,"ax",%progbits
	.globl	tlsf_near_bytes
	.p2align	1
	.type	tlsf_near_bytes,%function
	.code	16
	.thumb_func
tlsf_near_bytes:
	.cfi_startproc
	mov	r2, r0
	movs	r0, #0
	cmp	r1, #4
	blo	.Lm_BB7_3
	cmp	r2, #5
	mov.w	r3, #0
	it	eq
	moveq.w	r3, #16777216
	cmp	r2, #4
	it	eq
	moveq.w	r3, #1048576
	cmp	r1, r3
	it	hi
	bxhi	lr
.Lm_BB7_2:
	add.w	r0, r1, #63
	mvn	r2, #7
	and.w	r0, r2, r0, lsr #3
	movs	r2, #23
	add.w	r1, r2, r1, lsl #3
	bic	r1, r1, #15
	add	r0, r1
	adds	r0, #23
.Lm_BB7_3:
	bx	lr
.Lm_func_end7:
	.size	tlsf_near_bytes, .Lm_func_end7-tlsf_near_bytes
	.cfi_endproc
	.section	.text.tlsf_open_in,"ax",%progbits
	.globl	tlsf_open_in
	.p2align	2
	.type	tlsf_open_in,%function
	.code	16
	.thumb_func
tlsf_open_in:
	.cfi_startproc
	push.w	{r4, r5, r6, r7, r8, r9, r10, r11, lr}
	.cfi_def_cfa_offset 36
	.cfi_offset lr, -4
	.cfi_offset r11, -8
	.cfi_offset r10, -12
	.cfi_offset r9, -16
	.cfi_offset r8, -20
	.cfi_offset r7, -24
	.cfi_offset r6, -28
	.cfi_offset r5, -32
	.cfi_offset r4, -36
	sub	sp, #12
	.cfi_def_cfa_offset 48
	ldrb.w	r10, [r0, #29]
	mov	r8, r3
	mov	r4, r0
	strd	r2, r1, [sp, #4]
	cmp.w	r10, #0
	beq	.Lm_BB8_4
	sub.w	r0, r10, #65
	cmn.w	r0, #57
	blo	.Lm_BB8_3
	cmp.w	r10, #16
	mov	r3, r10
	add.w	r0, r10, #127
	it	ls
	movls	r3, #16
	tst.w	r0, r10
	beq	.Lm_BB8_5
.Lm_BB8_3:
	movs	r0, #0
	b	.Lm_BB8_6
.Lm_BB8_4:
	movs	r3, #16
.Lm_BB8_5:
	mvn	r0, #31
	mov	r1, r3
	sub.w	r0, r0, r8
	bl	__aeabi_uidivmod
	mov	r0, r1
.Lm_BB8_6:
	ldr.w	r9, [sp, #48]
	mvn.w	r1, r8
	mov.w	r11, #0
	cmp.w	r8, #0
	str	r4, [sp]
	beq	.Lm_BB8_13
	cmp	r9, r1
	bhi	.Lm_BB8_13
	movs	r6, #0
	cmp	r9, r0
	blo	.Lm_BB8_14
	ldr	r2, [sp, #8]
	mov.w	lr, #0
	sub.w	r3, r9, r0
	cmp	r2, #5
	it	eq
	moveq.w	lr, #16777216
	cmp	r2, #4
	it	eq
	moveq.w	lr, #1048576
	cmp.w	r3, #2832
	blo	.Lm_BB8_14
	movw	r6, #43136
	cmp.w	r3, #268435456
	movt	r6, #65535
	movw	r5, #49405
	it	hs
	movhs.w	r3, #268435456
	add.w	r6, r6, r3, lsl #3
	movt	r5, #64527
	movs	r4, #87
	umull	r6, r5, r6, r5
	movs	r6, #71
	add.w	r6, r6, r5, lsr #6
	lsrs	r5, r5, #6
	add.w	r4, r4, r5, lsl #3
	movs	r5, #16
.Lm_BB8_11:
	add.w	r7, r5, r6, lsr #3
	bic	r12, r4, #15
	bic	r7, r7, #15
	subs	r4, #8
	add	r7, r12
	subs	r6, #1
	add.w	r7, r7, #2768
	cmp	r7, r3
	bhi	.Lm_BB8_11
	sub.w	r3, r6, #62
	cmp	r3, lr
	it	lo
	movlo	lr, r3
	mov	r6, lr
	b	.Lm_BB8_14
.Lm_BB8_13:
	movs	r6, #0
.Lm_BB8_14:
	ldr	r4, .Lm_CPI8_0
	cmp	r9, r1
	ldr	r3, .Lm_CPI8_1
	mov.w	r2, #16
.Lm_PC8_0:
	add	r4, pc
	ldr	r5, .Lm_CPI8_2
	ldr	r7, .Lm_CPI8_3
.Lm_PC8_1:
	add	r3, pc
	str	r2, [r4]
	it	ls
	movls.w	r11, #1
	cmp.w	r8, #0
	mov	r1, r8
	it	ne
	movne	r1, #1
	cmp	r0, r9
	and.w	r4, r1, r11
.Lm_PC8_2:
	add	r5, pc
.Lm_PC8_3:
	add	r7, pc
	it	hs
	movhs	r0, r9
	cmp	r4, #0
	mov	r1, r3
	it	ne
	addne.w	r1, r8, r9
	str	r1, [r5]
	it	ne
	addne.w	r3, r8, r0
	cmp.w	r10, #0
	str	r3, [r7]
	beq	.Lm_BB8_17
	ldr	r5, [sp]
	sub.w	r0, r10, #65
	movs	r3, #0
	cmn.w	r0, #57
	blo	.Lm_BB8_18
	add.w	r0, r10, #127
	tst.w	r0, r10
	it	eq
	moveq	r3, r6
	b	.Lm_BB8_18
.Lm_BB8_17:
	mov	r3, r6
	ldr	r5, [sp]
.Lm_BB8_18:
	ldrd	r2, r1, [sp, #4]
	mov	r0, r5
	bl	tlsf_open
	cbz	r0, .Lm_BB8_20
	subs	r2, r0, #5
	movs	r1, #0
	clz	r2, r2
	str	r1, [r7]
	mvns	r1, r4
	lsrs	r2, r2, #5
	tst	r1, r2
	it	ne
	movne	r0, #39
	add	sp, #12
	pop.w	{r4, r5, r6, r7, r8, r9, r10, r11, pc}
.Lm_BB8_20:
	ldrb	r1, [r5, #29]
	tst.w	r1, #247
	itt	ne
	movne	r1, #1
	strbne	r1, [r5, #28]
	movs	r1, #0
	str	r1, [r7]
	add	sp, #12
	pop.w	{r4, r5, r6, r7, r8, r9, r10, r11, pc}
	.p2align	2
.Lm_CPI8_0:
	.long	lent_step-(.Lm_PC8_0+4)
.Lm_CPI8_1:
	.long	begin_behind.nothing-(.Lm_PC8_1+4)
.Lm_CPI8_2:
	.long	lent_end-(.Lm_PC8_2+4)
.Lm_CPI8_3:
	.long	lent-(.Lm_PC8_3+4)
.Lm_func_end8:
	.size	tlsf_open_in, .Lm_func_end8-tlsf_open_in
	.cfi_endproc
	.section	.text.tlsf_open_near,"ax",%progbits
	.globl	tlsf_open_near
	.p2align	2
	.type	tlsf_open_near,%function
	.code	16
	.thumb_func
tlsf_open_near:
	.cfi_startproc
	push	{r4, r5, r6, lr}
	.cfi_def_cfa_offset 16
	.cfi_offset lr, -4
	.cfi_offset r6, -8
	.cfi_offset r5, -12
	.cfi_offset r4, -16
	ldr	r4, .Lm_CPI9_0
	movs	r5, #2
	ldr	r6, .Lm_CPI9_1
.Lm_PC9_0:
	add	r4, pc
.Lm_PC9_1:
	add	r6, pc
	str	r5, [r4]
	rsbs	r5, r0, #0
	and	r5, r5, #63
	adds	r4, r0, r5
	add.w	r0, r4, #32
	str	r0, [r6]
	ldrb	r0, [r4, #29]
	cbz	r0, .Lm_BB9_3
	sub.w	r5, r0, #65
	mov.w	r12, #0
	cmn.w	r5, #57
	blo	.Lm_BB9_4
	add.w	r5, r0, #127
	tst	r5, r0
	it	eq
	moveq	r12, r3
	b	.Lm_BB9_4
.Lm_BB9_3:
	mov	r12, r3
.Lm_BB9_4:
	mov	r0, r4
	mov	r3, r12
	bl	tlsf_open
	cbnz	r0, .Lm_BB9_6
	ldrb	r1, [r4, #29]
	tst.w	r1, #247
	itt	ne
	movne	r1, #1
	strbne	r1, [r4, #28]
.Lm_BB9_6:
	movs	r1, #0
	str	r1, [r6]
	pop	{r4, r5, r6, pc}
	.p2align	2
.Lm_CPI9_0:
	.long	pieces_first-(.Lm_PC9_0+4)
.Lm_CPI9_1:
	.long	near_room-(.Lm_PC9_1+4)
.Lm_func_end9:
	.size	tlsf_open_near, .Lm_func_end9-tlsf_open_near
	.cfi_endproc
	.section	.text.tlsf_open_near_in,"ax",%progbits
	.globl	tlsf_open_near_in
	.p2align	2
	.type	tlsf_open_near_in,%function
	.code	16
	.thumb_func
tlsf_open_near_in:
	.cfi_startproc
	push.w	{r4, r5, r6, r7, r8, r9, r10, r11, lr}
	.cfi_def_cfa_offset 36
	.cfi_offset lr, -4
	.cfi_offset r11, -8
	.cfi_offset r10, -12
	.cfi_offset r9, -16
	.cfi_offset r8, -20
	.cfi_offset r7, -24
	.cfi_offset r6, -28
	.cfi_offset r5, -32
	.cfi_offset r4, -36
	sub	sp, #20
	.cfi_def_cfa_offset 56
	strd	r2, r1, [sp, #12]
	mov	r8, r3
	ldr	r3, .Lm_CPI10_0
	movs	r7, #2
	ldr	r1, .Lm_CPI10_1
.Lm_PC10_0:
	add	r3, pc
.Lm_PC10_1:
	add	r1, pc
	str	r7, [r3]
	rsbs	r3, r0, #0
	and	r3, r3, #63
	mov	r7, r1
	adds	r4, r0, r3
	add.w	r0, r4, #32
	str	r0, [r1]
	ldrb.w	r10, [r4, #29]
	cmp.w	r10, #0
	beq	.Lm_BB10_4
	sub.w	r0, r10, #65
	cmn.w	r0, #57
	blo	.Lm_BB10_3
	cmp.w	r10, #16
	mov	r3, r10
	add.w	r0, r10, #127
	it	ls
	movls	r3, #16
	tst.w	r0, r10
	beq	.Lm_BB10_5
.Lm_BB10_3:
	movs	r1, #0
	b	.Lm_BB10_6
.Lm_BB10_4:
	movs	r3, #16
.Lm_BB10_5:
	mvn	r0, #31
	mov	r1, r3
	sub.w	r0, r0, r8
	bl	__aeabi_uidivmod
.Lm_BB10_6:
	ldr.w	r9, [sp, #56]
	mvn.w	r12, r8
	mov.w	r11, #0
	cmp.w	r8, #0
	str	r4, [sp, #8]
	beq	.Lm_BB10_13
	cmp	r9, r12
	bhi	.Lm_BB10_13
	mov.w	lr, #0
	cmp	r9, r1
	blo	.Lm_BB10_14
	ldr	r0, [sp, #16]
	movs	r4, #0
	sub.w	r3, r9, r1
	cmp	r0, #5
	it	eq
	moveq.w	r4, #16777216
	cmp	r0, #4
	it	eq
	moveq.w	r4, #1048576
	cmp	r3, #64
	blo	.Lm_BB10_14
	str	r7, [sp, #4]
	mvn	r7, #191
	cmp.w	r3, #268435456
	movw	r6, #49405
	it	hs
	movhs.w	r3, #268435456
	add.w	r7, r7, r3, lsl #3
	movt	r6, #64527
	movs	r5, #87
	umull	r7, r6, r7, r6
	movs	r7, #71
	add.w	r7, r7, r6, lsr #6
	lsrs	r6, r6, #6
	add.w	r6, r5, r6, lsl #3
	mvn	r5, #7
.Lm_BB10_11:
	and.w	r0, r5, r7, lsr #3
	bic	r2, r6, #15
	add	r0, r2
	subs	r6, #8
	subs	r7, #1
	adds	r0, #8
	cmp	r0, r3
	bhi	.Lm_BB10_11
	sub.w	r0, r7, #62
	cmp	r0, r4
	it	lo
	movlo	r4, r0
	ldr	r7, [sp, #4]
	mov	lr, r4
	b	.Lm_BB10_14
.Lm_BB10_13:
	mov.w	lr, #0
.Lm_BB10_14:
	ldr	r0, .Lm_CPI10_2
	movs	r2, #16
	ldr	r3, .Lm_CPI10_3
	cmp	r9, r12
.Lm_PC10_2:
	add	r0, pc
	ldr	r5, .Lm_CPI10_4
	ldr	r4, .Lm_CPI10_5
.Lm_PC10_3:
	add	r3, pc
	str	r2, [r0]
	it	ls
	movls.w	r11, #1
	cmp.w	r8, #0
	mov	r0, r8
	it	ne
	movne	r0, #1
	cmp	r1, r9
	and.w	r6, r0, r11
.Lm_PC10_4:
	add	r5, pc
.Lm_PC10_5:
	add	r4, pc
	it	hs
	movhs	r1, r9
	cmp	r6, #0
	mov	r0, r3
	it	ne
	addne.w	r0, r8, r9
	str	r0, [r5]
	it	ne
	addne.w	r3, r8, r1
	cmp.w	r10, #0
	str	r3, [r4]
	beq	.Lm_BB10_17
	ldr	r5, [sp, #8]
	sub.w	r0, r10, #65
	movs	r3, #0
	cmn.w	r0, #57
	blo	.Lm_BB10_18
	add.w	r0, r10, #127
	tst.w	r0, r10
	it	eq
	moveq	r3, lr
	b	.Lm_BB10_18
.Lm_BB10_17:
	mov	r3, lr
	ldr	r5, [sp, #8]
.Lm_BB10_18:
	ldrd	r2, r1, [sp, #12]
	mov	r0, r5
	bl	tlsf_open
	cbz	r0, .Lm_BB10_20
	subs	r2, r0, #5
	movs	r1, #0
	clz	r2, r2
	str	r1, [r4]
	mvns	r1, r6
	lsrs	r2, r2, #5
	tst	r1, r2
	it	ne
	movne	r0, #39
	b	.Lm_BB10_21
.Lm_BB10_20:
	ldrb	r1, [r5, #29]
	tst.w	r1, #247
	itt	ne
	movne	r1, #1
	strbne	r1, [r5, #28]
	movs	r1, #0
	str	r1, [r4]
.Lm_BB10_21:
	movs	r1, #0
	str	r1, [r7]
	add	sp, #20
	pop.w	{r4, r5, r6, r7, r8, r9, r10, r11, pc}
	.p2align	2
.Lm_CPI10_0:
	.long	pieces_first-(.Lm_PC10_0+4)
.Lm_CPI10_1:
	.long	near_room-(.Lm_PC10_1+4)
.Lm_CPI10_2:
	.long	lent_step-(.Lm_PC10_2+4)
.Lm_CPI10_3:
	.long	begin_behind.nothing-(.Lm_PC10_3+4)
.Lm_CPI10_4:
	.long	lent_end-(.Lm_PC10_4+4)
.Lm_CPI10_5:
	.long	lent-(.Lm_PC10_5+4)
.Lm_func_end10:
	.size	tlsf_open_near_in, .Lm_func_end10-tlsf_open_near_in
	.cfi_endproc
	.section	.text.tlsf_open_32,"ax",%progbits
	.globl	tlsf_open_32
	.p2align	1
	.type	tlsf_open_32,%function
	.code	16
	.thumb_func
tlsf_open_32:
	.cfi_startproc
	push	{r4, r5, r7, lr}
	.cfi_def_cfa_offset 16
	.cfi_offset lr, -4
	.cfi_offset r7, -8
	.cfi_offset r5, -12
	.cfi_offset r4, -16
	mov	r5, r0
	ldrb	r0, [r0, #29]
	cbz	r0, .Lm_BB11_3
	mov	r12, r3
	sub.w	lr, r0, #65
	movs	r3, #0
	cmn.w	lr, #57
	blo	.Lm_BB11_3
	add.w	r4, r0, #127
	tst	r4, r0
	it	eq
	moveq	r3, r12
.Lm_BB11_3:
	mov	r0, r5
	bl	tlsf_open
	cmp	r0, #0
	it	ne
	popne	{r4, r5, r7, pc}
.Lm_BB11_4:
	ldrb	r1, [r5, #29]
	tst.w	r1, #247
	itt	ne
	movne	r1, #1
	strbne	r1, [r5, #28]
	pop	{r4, r5, r7, pc}
.Lm_func_end11:
	.size	tlsf_open_32, .Lm_func_end11-tlsf_open_32
	.cfi_endproc
	.section	.text.tlsf_open_in_32,"ax",%progbits
	.globl	tlsf_open_in_32
	.p2align	1
	.type	tlsf_open_in_32,%function
	.code	16
	.thumb_func
tlsf_open_in_32:
	.cfi_startproc
	ldr.w	r12, [sp]
	str.w	r12, [sp]
	b	tlsf_open_in
.Lm_func_end12:
	.size	tlsf_open_in_32, .Lm_func_end12-tlsf_open_in_32
	.cfi_endproc
	.section	.text.tlsf_open_near_2880,"ax",%progbits
	.globl	tlsf_open_near_2880
	.p2align	2
	.type	tlsf_open_near_2880,%function
	.code	16
	.thumb_func
tlsf_open_near_2880:
	.cfi_startproc
	push	{r4, r5, r6, lr}
	.cfi_def_cfa_offset 16
	.cfi_offset lr, -4
	.cfi_offset r6, -8
	.cfi_offset r5, -12
	.cfi_offset r4, -16
	ldr	r4, .Lm_CPI13_0
	movs	r5, #2
	ldr	r6, .Lm_CPI13_1
.Lm_PC13_0:
	add	r4, pc
.Lm_PC13_1:
	add	r6, pc
	str	r5, [r4]
	rsbs	r5, r0, #0
	and	r5, r5, #63
	adds	r4, r0, r5
	add.w	r0, r4, #32
	str	r0, [r6]
	ldrb	r0, [r4, #29]
	cbz	r0, .Lm_BB13_3
	sub.w	r5, r0, #65
	mov.w	r12, #0
	cmn.w	r5, #57
	blo	.Lm_BB13_4
	add.w	r5, r0, #127
	tst	r5, r0
	it	eq
	moveq	r12, r3
	b	.Lm_BB13_4
.Lm_BB13_3:
	mov	r12, r3
.Lm_BB13_4:
	mov	r0, r4
	mov	r3, r12
	bl	tlsf_open
	cbnz	r0, .Lm_BB13_6
	ldrb	r1, [r4, #29]
	tst.w	r1, #247
	itt	ne
	movne	r1, #1
	strbne	r1, [r4, #28]
.Lm_BB13_6:
	movs	r1, #0
	str	r1, [r6]
	pop	{r4, r5, r6, pc}
	.p2align	2
.Lm_CPI13_0:
	.long	pieces_first-(.Lm_PC13_0+4)
.Lm_CPI13_1:
	.long	near_room-(.Lm_PC13_1+4)
.Lm_func_end13:
	.size	tlsf_open_near_2880, .Lm_func_end13-tlsf_open_near_2880
	.cfi_endproc
	.section	.text.tlsf_open_near_in_2880,"ax",%progbits
	.globl	tlsf_open_near_in_2880
	.p2align	1
	.type	tlsf_open_near_in_2880,%function
	.code	16
	.thumb_func
tlsf_open_near_in_2880:
	.cfi_startproc
	ldr.w	r12, [sp]
	str.w	r12, [sp]
	b	tlsf_open_near_in
.Lm_func_end14:
	.size	tlsf_open_near_in_2880, .Lm_func_end14-tlsf_open_near_in_2880
	.cfi_endproc
	.section	.text.tlsf_lane_bytes,"ax",%progbits
	.globl	tlsf_lane_bytes
	.p2align	1
	.type	tlsf_lane_bytes,%function
	.code	16
	.thumb_func
tlsf_lane_bytes:
	.cfi_startproc
	add.w	r1, r0, r0, lsl #1
	movs	r2, #135
	subw	r0, r0, #1025
	add.w	r1, r2, r1, lsl #3
	movw	r2, #65408
	movt	r2, #1
	ands	r1, r2
	addw	r1, r1, #895
	cmn.w	r0, #1024
	it	lo
	movlo	r1, #0
	mov	r0, r1
	bx	lr
.Lm_func_end15:
	.size	tlsf_lane_bytes, .Lm_func_end15-tlsf_lane_bytes
	.cfi_endproc
	.section	.text.tlsf_lane_open_in,"ax",%progbits
	.globl	tlsf_lane_open_in
	.p2align	2
	.type	tlsf_lane_open_in,%function
	.code	16
	.thumb_func
tlsf_lane_open_in:
	.cfi_startproc
	push.w	{r4, r5, r6, r7, r8, r9, r10, lr}
	.cfi_def_cfa_offset 32
	.cfi_offset lr, -4
	.cfi_offset r10, -8
	.cfi_offset r9, -12
	.cfi_offset r8, -16
	.cfi_offset r7, -20
	.cfi_offset r6, -24
	.cfi_offset r5, -28
	.cfi_offset r4, -32
	ldr.w	r12, [sp, #32]
	mov	r10, r1
	cmp.w	r2, #1024
	bhi	.Lm_BB16_2
	rsbs	r6, r3, #0
	add.w	r5, r2, r2, lsl #1
	and	lr, r6, #127
	movs	r6, #135
	add.w	r5, r6, r5, lsl #3
	movw	r6, #65408
	movt	r6, #1
	ands	r5, r6
	sub.w	r4, r12, lr
	add.w	r5, r5, #768
	cmp	r4, r5
	it	lo
	movlo	r2, #0
	cmp	r12, lr
	it	lo
	movlo	r2, #0
	mvns	r4, r3
	cmp	r12, r4
	it	hi
	movhi	r2, #0
	cmp	r3, #0
	it	eq
	moveq	r2, r3
	b	.Lm_BB16_3
.Lm_BB16_2:
	rsbs	r6, r3, #0
	mvns	r4, r3
	and	lr, r6, #127
.Lm_BB16_3:
	ldr	r7, .Lm_CPI16_0
	cmp	lr, r12
	it	hs
	movhs	lr, r12
	cmp	r12, r4
.Lm_PC16_0:
	add	r7, pc
	mov.w	r9, #0
	it	ls
	movls.w	r9, #1
	cmp	r3, #0
	mov	r5, r3
	mov	r6, r7
	it	ne
	movne	r5, #1
	tst.w	r5, r9
	it	ne
	addne.w	r6, r3, r12
	ldr	r1, .Lm_CPI16_1
	ldr	r4, .Lm_CPI16_2
	mov.w	r8, #0
.Lm_PC16_1:
	add	r1, pc
.Lm_PC16_2:
	add	r4, pc
	str	r6, [r1]
	ldr	r1, .Lm_CPI16_3
	it	ne
	addne.w	r7, r3, lr
	movs	r3, #128
	str	r7, [r4]
.Lm_PC16_3:
	add	r1, pc
	str	r3, [r1]
	mov	r1, r10
	bl	tlsf_lane_open
	cmp	r0, #5
	mov	r1, r0
	it	eq
	moveq	r1, #39
	tst.w	r5, r9
	str.w	r8, [r4]
	it	eq
	moveq	r0, r1
	pop.w	{r4, r5, r6, r7, r8, r9, r10, pc}
	.p2align	2
.Lm_CPI16_0:
	.long	begin_behind.nothing-(.Lm_PC16_0+4)
.Lm_CPI16_1:
	.long	lent_end-(.Lm_PC16_1+4)
.Lm_CPI16_2:
	.long	lent-(.Lm_PC16_2+4)
.Lm_CPI16_3:
	.long	lent_step-(.Lm_PC16_3+4)
.Lm_func_end16:
	.size	tlsf_lane_open_in, .Lm_func_end16-tlsf_lane_open_in
	.cfi_endproc
	.section	.text.tlsf_queue_bytes,"ax",%progbits
	.globl	tlsf_queue_bytes
	.p2align	1
	.type	tlsf_queue_bytes,%function
	.code	16
	.thumb_func
tlsf_queue_bytes:
	.cfi_startproc
	rsb.w	r2, r0, #1024
	rsb.w	r3, r1, #1024
	orrs	r3, r2
	movs	r2, #0
	cmp.w	r2, r3, lsr #10
	bne	.Lm_BB17_2
	movw	r2, #519
	mov.w	r12, #135
	add.w	r3, r12, r1, lsl #5
	add.w	r1, r2, r1, lsl #3
	add.w	r2, r12, r0, lsl #4
	bic	r3, r3, #103
	bic	r2, r2, #119
	bic	r1, r1, #127
	add.w	r2, r2, r0, lsl #7
	add.w	r0, r12, r0, lsl #3
	bic	r0, r0, #127
	add	r1, r3
	add	r0, r2
	add.w	r0, r0, r1, lsl #1
	addw	r2, r0, #383
.Lm_BB17_2:
	mov	r0, r2
	bx	lr
.Lm_func_end17:
	.size	tlsf_queue_bytes, .Lm_func_end17-tlsf_queue_bytes
	.cfi_endproc
	.section	.text.tlsf_queue_open_in,"ax",%progbits
	.globl	tlsf_queue_open_in
	.p2align	2
	.type	tlsf_queue_open_in,%function
	.code	16
	.thumb_func
tlsf_queue_open_in:
	.cfi_startproc
	push.w	{r4, r5, r6, r7, r8, r9, r10, lr}
	.cfi_def_cfa_offset 32
	.cfi_offset lr, -4
	.cfi_offset r10, -8
	.cfi_offset r9, -12
	.cfi_offset r8, -16
	.cfi_offset r7, -20
	.cfi_offset r6, -24
	.cfi_offset r5, -28
	.cfi_offset r4, -32
	ldr.w	r12, [sp, #32]
	cmp.w	r1, #1024
	mov	r10, r0
	it	ls
	cmpls.w	r2, #1024
	bls	.Lm_BB18_2
	rsbs	r6, r3, #0
	mvns	r4, r3
	and	lr, r6, #127
	b	.Lm_BB18_3
.Lm_BB18_2:
	movw	r4, #65408
	mov.w	lr, #135
	add.w	r5, lr, r2, lsl #5
	movt	r4, #1
	ands	r5, r4
	movw	r4, #519
	add.w	r4, r4, r2, lsl #3
	movw	r6, #65408
	and	r4, r4, #32640
	add	r5, r4
	add.w	r4, lr, r1, lsl #4
	ands	r4, r6
	add.w	r6, lr, r1, lsl #3
	add.w	r4, r4, r1, lsl #7
	and	r6, r6, #32640
	add	r6, r4
	add.w	r6, r6, r5, lsl #1
	add.w	r4, r6, #256
	rsbs	r6, r3, #0
	and	lr, r6, #127
	sub.w	r5, r12, lr
	cmp	r5, r4
	it	lo
	movlo	r2, #0
	cmp	r12, lr
	it	lo
	movlo	r2, #0
	mvns	r4, r3
	cmp	r12, r4
	it	hi
	movhi	r2, #0
	cmp	r3, #0
	it	eq
	moveq	r2, r3
.Lm_BB18_3:
	ldr	r7, .Lm_CPI18_0
	cmp	lr, r12
	it	hs
	movhs	lr, r12
	cmp	r12, r4
.Lm_PC18_0:
	add	r7, pc
	mov.w	r9, #0
	it	ls
	movls.w	r9, #1
	cmp	r3, #0
	mov	r5, r3
	mov	r6, r7
	it	ne
	movne	r5, #1
	tst.w	r5, r9
	it	ne
	addne.w	r6, r3, r12
	ldr	r0, .Lm_CPI18_1
	ldr	r4, .Lm_CPI18_2
	mov.w	r8, #0
.Lm_PC18_1:
	add	r0, pc
.Lm_PC18_2:
	add	r4, pc
	str	r6, [r0]
	ldr	r0, .Lm_CPI18_3
	it	ne
	addne.w	r7, r3, lr
	movs	r3, #128
	str	r7, [r4]
.Lm_PC18_3:
	add	r0, pc
	str	r3, [r0]
	mov	r0, r10
	bl	tlsf_queue_open
	cmp	r0, #5
	mov	r1, r0
	it	eq
	moveq	r1, #39
	tst.w	r5, r9
	str.w	r8, [r4]
	it	eq
	moveq	r0, r1
	pop.w	{r4, r5, r6, r7, r8, r9, r10, pc}
	.p2align	2
.Lm_CPI18_0:
	.long	begin_behind.nothing-(.Lm_PC18_0+4)
.Lm_CPI18_1:
	.long	lent_end-(.Lm_PC18_1+4)
.Lm_CPI18_2:
	.long	lent-(.Lm_PC18_2+4)
.Lm_CPI18_3:
	.long	lent_step-(.Lm_PC18_3+4)
.Lm_func_end18:
	.size	tlsf_queue_open_in, .Lm_func_end18-tlsf_queue_open_in
	.cfi_endproc
	.section	.text.tlsf_offsets_bytes,"ax",%progbits
	.globl	tlsf_offsets_bytes
	.p2align	1
	.type	tlsf_offsets_bytes,%function
	.code	16
	.thumb_func
tlsf_offsets_bytes:
	.cfi_startproc
	mov	r2, r0
	movs	r0, #0
	cmp	r1, #4
	blo	.Lm_BB19_3
	cmp	r2, #5
	mov.w	r3, #0
	it	eq
	moveq.w	r3, #16777216
	cmp	r2, #4
	it	eq
	moveq.w	r3, #1048576
	cmp	r1, r3
	it	hi
	bxhi	lr
.Lm_BB19_2:
	movs	r0, #23
	movw	r2, #65520
	add.w	r0, r0, r1, lsl #3
	adds	r1, #63
	movt	r2, #255
	add.w	r3, r2, #520093696
	ands	r0, r3
	movs	r3, #16
	add.w	r1, r3, r1, lsr #3
	ands	r1, r2
	add	r0, r1
	addw	r0, r0, #2783
.Lm_BB19_3:
	bx	lr
.Lm_func_end19:
	.size	tlsf_offsets_bytes, .Lm_func_end19-tlsf_offsets_bytes
	.cfi_endproc
	.section	.text.tlsf_offsets_open_in,"ax",%progbits
	.globl	tlsf_offsets_open_in
	.p2align	2
	.type	tlsf_offsets_open_in,%function
	.code	16
	.thumb_func
tlsf_offsets_open_in:
	.cfi_startproc
	push.w	{r4, r5, r6, r7, r8, r9, r10, r11, lr}
	.cfi_def_cfa_offset 36
	.cfi_offset lr, -4
	.cfi_offset r11, -8
	.cfi_offset r10, -12
	.cfi_offset r9, -16
	.cfi_offset r8, -20
	.cfi_offset r7, -24
	.cfi_offset r6, -28
	.cfi_offset r5, -32
	.cfi_offset r4, -36
	sub	sp, #12
	.cfi_def_cfa_offset 48
	ldr.w	r9, [sp, #56]
	movs	r5, #0
	ldrd	r12, lr, [sp, #48]
	cmp	r1, #5
	str	r3, [sp, #8]
	it	eq
	moveq.w	r5, #16777216
	cmp	r1, #4
	mov	r11, r2
	it	eq
	moveq.w	r5, #1048576
	cmp	r12, r5
	bls	.Lm_BB20_2
	rsb.w	r5, lr, #0
	mvn.w	r7, lr
	and	r10, r5, #15
	b	.Lm_BB20_3
.Lm_BB20_2:
	movs	r5, #23
	movw	r6, #65520
	movt	r6, #255
	add.w	r5, r5, r12, lsl #3
	add.w	r7, r6, #520093696
	add.w	r8, r12, #63
	ands	r5, r7
	movs	r7, #16
	add.w	r7, r7, r8, lsr #3
	ands	r6, r7
	add	r5, r6
	add.w	r6, r5, #2768
	rsb.w	r5, lr, #0
	and	r10, r5, #15
	sub.w	r7, r9, r10
	cmp	r7, r6
	it	lo
	movlo.w	r12, #0
	cmp	r9, r10
	it	lo
	movlo.w	r12, #0
	mvn.w	r7, lr
	cmp	r9, r7
	it	hi
	movhi.w	r12, #0
	cmp.w	lr, #0
	it	eq
	moveq	r12, lr
.Lm_BB20_3:
	ldr	r4, .Lm_CPI20_0
	cmp	r10, r9
	it	hs
	movhs	r10, r9
	cmp	r9, r7
.Lm_PC20_0:
	add	r4, pc
	mov.w	r7, #0
	it	ls
	movls	r7, #1
	cmp.w	lr, #0
	mov	r5, lr
	mov	r6, r4
	it	ne
	movne	r5, #1
	tst	r5, r7
	it	ne
	addne.w	r6, lr, r9
	ldr	r3, .Lm_CPI20_1
	ldr	r2, .Lm_CPI20_2
	mov.w	r8, #0
.Lm_PC20_1:
	add	r3, pc
.Lm_PC20_2:
	add	r2, pc
	str	r6, [r3]
	mov.w	r6, #16
	ldr	r3, .Lm_CPI20_3
	it	ne
	addne.w	r4, lr, r10
	str	r4, [r2]
	mov	r4, r2
.Lm_PC20_3:
	add	r3, pc
	mov	r2, r11
	str.w	r12, [sp]
	str	r6, [r3]
	ldr	r3, [sp, #8]
	bl	tlsf_offsets_open
	cmp	r0, #5
	mov	r1, r0
	it	eq
	moveq	r1, #39
	tst	r5, r7
	str.w	r8, [r4]
	it	eq
	moveq	r0, r1
	add	sp, #12
	pop.w	{r4, r5, r6, r7, r8, r9, r10, r11, pc}
	.p2align	2
.Lm_CPI20_0:
	.long	begin_behind.nothing-(.Lm_PC20_0+4)
.Lm_CPI20_1:
	.long	lent_end-(.Lm_PC20_1+4)
.Lm_CPI20_2:
	.long	lent-(.Lm_PC20_2+4)
.Lm_CPI20_3:
	.long	lent_step-(.Lm_PC20_3+4)
.Lm_func_end20:
	.size	tlsf_offsets_open_in, .Lm_func_end20-tlsf_offsets_open_in
	.cfi_endproc
	.section	.text.tlsf_pools_bytes,"ax",%progbits
	.globl	tlsf_pools_bytes
	.p2align	1
	.type	tlsf_pools_bytes,%function
	.code	16
	.thumb_func
tlsf_pools_bytes:
	.cfi_startproc
	push	{r4, r5, r7, lr}
	.cfi_def_cfa_offset 16
	.cfi_offset lr, -4
	.cfi_offset r7, -8
	.cfi_offset r5, -12
	.cfi_offset r4, -16
	sub	sp, #16
	.cfi_def_cfa_offset 32
	mov	r4, r2
	add	r2, sp, #4
	add	r3, sp, #8
	movs	r5, #0
	str	r2, [sp]
	mov	r2, r4
	str	r5, [sp, #12]
	strd	r5, r5, [sp, #4]
	bl	tlsf_pools_words
	cbnz	r0, .Lm_BB21_2
	ldrd	r0, r1, [sp, #4]
	movw	r2, #2792
	add.w	r5, r4, r4, lsl #1
	mvn	r3, #7
	and.w	r3, r3, r1, lsr #3
	muls	r2, r0, r2
	add.w	r0, r0, r0, lsl #2
	lsls	r5, r5, #2
	add.w	r1, r5, r1, lsl #3
	add.w	r0, r1, r0, lsl #4
	add	r0, r3
	add.w	r1, r2, #23
	bic	r1, r1, #15
	add	r0, r1
	addw	r5, r0, #2783
.Lm_BB21_2:
	mov	r0, r5
	add	sp, #16
	pop	{r4, r5, r7, pc}
.Lm_func_end21:
	.size	tlsf_pools_bytes, .Lm_func_end21-tlsf_pools_bytes
	.cfi_endproc
	.section	.text.tlsf_pools_open_in,"ax",%progbits
	.globl	tlsf_pools_open_in
	.p2align	2
	.type	tlsf_pools_open_in,%function
	.code	16
	.thumb_func
tlsf_pools_open_in:
	.cfi_startproc
	push.w	{r4, r5, r6, r7, r8, r9, r10, r11, lr}
	.cfi_def_cfa_offset 36
	.cfi_offset lr, -4
	.cfi_offset r11, -8
	.cfi_offset r10, -12
	.cfi_offset r9, -16
	.cfi_offset r8, -20
	.cfi_offset r7, -24
	.cfi_offset r6, -28
	.cfi_offset r5, -32
	.cfi_offset r4, -36
	sub	sp, #4
	.cfi_def_cfa_offset 40
	ldr	r5, .Lm_CPI22_0
	movs	r7, #16
	ldrd	lr, r12, [sp, #44]
	mov.w	r10, #0
.Lm_PC22_0:
	add	r5, pc
	ldr	r4, .Lm_CPI22_1
	mov	r11, r3
	mov.w	r8, #0
	str	r7, [r5]
	rsb.w	r7, lr, #0
	and	r5, r7, #15
.Lm_PC22_1:
	add	r4, pc
	cmp	r5, r12
	it	hs
	movhs	r5, r12
	cmp.w	lr, #0
	mov	r9, lr
	it	ne
	movne.w	r9, #1
	mvn.w	r7, lr
	cmp	r12, r7
	mov	r6, r4
	it	ls
	movls.w	r10, #1
	tst.w	r9, r10
	it	ne
	addne.w	r6, lr, r12
	ldr	r3, .Lm_CPI22_2
	ldr	r7, .Lm_CPI22_3
.Lm_PC22_2:
	add	r3, pc
.Lm_PC22_3:
	add	r7, pc
	str	r6, [r3]
	it	ne
	addne.w	r4, lr, r5
	ldr	r3, [sp, #40]
	str	r3, [sp]
	mov	r3, r11
	str	r4, [r7]
	bl	tlsf_pools_open
	cmp	r0, #6
	it	eq
	moveq	r0, #5
	cmp	r0, #5
	mov	r1, r0
	it	eq
	moveq	r1, #39
	tst.w	r9, r10
	str.w	r8, [r7]
	it	eq
	moveq	r0, r1
	add	sp, #4
	pop.w	{r4, r5, r6, r7, r8, r9, r10, r11, pc}
	.p2align	2
.Lm_CPI22_0:
	.long	lent_step-(.Lm_PC22_0+4)
.Lm_CPI22_1:
	.long	begin_behind.nothing-(.Lm_PC22_1+4)
.Lm_CPI22_2:
	.long	lent_end-(.Lm_PC22_2+4)
.Lm_CPI22_3:
	.long	lent-(.Lm_PC22_3+4)
.Lm_func_end22:
	.size	tlsf_pools_open_in, .Lm_func_end22-tlsf_pools_open_in
	.cfi_endproc
	.section	.text.tlsf_next_number,"ax",%progbits
	.globl	tlsf_next_number
	.p2align	2
	.type	tlsf_next_number,%function
	.code	16
	.thumb_func
tlsf_next_number:
	.cfi_startproc
	push	{r4, r5, r6, lr}
	.cfi_def_cfa_offset 16
	.cfi_offset lr, -4
	.cfi_offset r6, -8
	.cfi_offset r5, -12
	.cfi_offset r4, -16
	ldr	r6, .Lm_CPI23_0
.Lm_PC23_0:
	add	r6, pc
.Lm_BB23_1:
	ldrexd	r1, r3, [r6]
	adds	r2, r1, #1
	adc	r4, r3, #0
	strexd	r5, r2, r4, [r6]
	cmp	r5, #0
	bne	.Lm_BB23_1
	lsls	r2, r3, #3
	mov.w	r3, #-2147483648
	orr.w	r2, r2, r1, lsr #29
	adds.w	r1, r3, r1, lsl #3
	adcs	r2, r2, #0
	itee	ne
	movne	r0, #2
	streq	r1, [r0]
	moveq	r0, #0
	pop	{r4, r5, r6, pc}
	.p2align	2
.Lm_CPI23_0:
	.long	tlsf_next_number.calls-(.Lm_PC23_0+4)
.Lm_func_end23:
	.size	tlsf_next_number, .Lm_func_end23-tlsf_next_number
	.cfi_endproc
	.type	tlsf_memory_alloc.nothing,%object
	.section	.bss.tlsf_memory_alloc.nothing,"aw",%nobits
	.p2align	3, 0x0
tlsf_memory_alloc.nothing:
	.long	0
	.long	0
	.size	tlsf_memory_alloc.nothing, 8
	.type	near_room,%object
	.section	.bss.near_room,"aw",%nobits
	.p2align	2, 0x0
near_room:
	.long	0
	.size	near_room, 4
	.type	pieces_first,%object
	.section	.bss.pieces_first,"aw",%nobits
	.p2align	2, 0x0
pieces_first:
	.long	0
	.size	pieces_first, 4
	.type	lent,%object
	.section	.bss.lent,"aw",%nobits
	.p2align	2, 0x0
lent:
	.long	0
	.size	lent, 4
	.type	tlsf_next_number.calls,%object
	.section	.bss.tlsf_next_number.calls,"aw",%nobits
	.p2align	3, 0x0
tlsf_next_number.calls:
	.long	0
	.long	0
	.size	tlsf_next_number.calls, 8
	.type	lent_step,%object
	.section	.bss.lent_step,"aw",%nobits
	.p2align	2, 0x0
lent_step:
	.long	0
	.size	lent_step, 4
	.type	lent_end,%object
	.section	.bss.lent_end,"aw",%nobits
	.p2align	2, 0x0
lent_end:
	.long	0
	.size	lent_end, 4
	.type	begin_behind.nothing,%object
	.section	.bss.begin_behind.nothing,"aw",%nobits
begin_behind.nothing:
	.byte	0
	.size	begin_behind.nothing, 1
	.ident	"clang version 22.1.8"
	.section	".note.GNU-stack","",%progbits
#elif defined(TLSF_NO_MALLOC)
	.syntax	unified
	.eabi_attribute	24, 1
	.eabi_attribute	25, 1
	.section	.text.tlsf_memory_alloc,"ax",%progbits
	.hidden	tlsf_memory_alloc
	.globl	tlsf_memory_alloc
	.p2align	2
	.type	tlsf_memory_alloc,%function
	.code	16
	.thumb_func
tlsf_memory_alloc:
	.cfi_sections .debug_frame
	.cfi_startproc
	push.w	{r4, r5, r6, r7, r8, r9, r10, lr}
	.cfi_def_cfa_offset 32
	.cfi_offset lr, -4
	.cfi_offset r10, -8
	.cfi_offset r9, -12
	.cfi_offset r8, -16
	.cfi_offset r7, -20
	.cfi_offset r6, -24
	.cfi_offset r5, -28
	.cfi_offset r4, -32
	mov	r4, r0
	mov.w	r9, #0
	movs	r0, #0
	cmp	r2, #8
	bhi	.Lm_BB0_9
	ldr	r0, .Lm_CPI0_0
	mov	r5, r1
.Lm_PC0_0:
	add	r0, pc
	bl	__tls_get_addr
	ldr	r6, [r0]
	cbz	r6, .Lm_BB0_3
	ldr	r0, .Lm_CPI0_1
.Lm_PC0_1:
	add	r0, pc
	bl	__tls_get_addr
	ldr	r1, [r0]
	subs	r2, r1, #1
	str	r2, [r0]
	cbz	r1, .Lm_BB0_8
.Lm_BB0_3:
	ldr	r0, .Lm_CPI0_2
.Lm_PC0_2:
	add	r0, pc
	bl	__tls_get_addr
	ldr	r7, [r0]
	cbz	r7, .Lm_BB0_5
	mov	r6, r0
	ldr	r0, .Lm_CPI0_3
.Lm_PC0_3:
	add	r0, pc
	bl	__tls_get_addr
	ldr	r1, [r0]
	adds	r0, r5, r1
	add.w	r10, r0, #7
	mov	r0, r10
	bl	__aeabi_uidivmod
	cmp.w	r5, #268435456
	bls	.Lm_BB0_6
.Lm_BB0_5:
	movs	r0, #0
	b	.Lm_BB0_9
.Lm_BB0_6:
	ldr	r0, .Lm_CPI0_4
	mov	r8, r1
.Lm_PC0_4:
	add	r0, pc
	bl	__tls_get_addr
	ldr	r1, [r0]
	add.w	r3, r5, #8
	movs	r0, #0
	subs	r2, r1, r7
	cmp	r3, r2
	bhi	.Lm_BB0_9
	add.w	r5, r7, #8
	sub.w	r3, r10, r8
	strd	r0, r0, [r7]
	cmp	r3, r2
	mov	r0, r5
	it	lo
	addlo	r1, r7, r3
	str	r1, [r6]
	b	.Lm_BB0_9
.Lm_BB0_8:
	movs	r0, #0
	movw	r1, #2776
	cmp	r5, r1
	itt	ls
	strdls	r0, r0, [r6]
	addls.w	r0, r6, #8
.Lm_BB0_9:
	ldr	r1, .Lm_CPI0_5
	mov	r2, r0
	cmp	r0, #0
.Lm_PC0_5:
	add	r1, pc
	itt	ne
	movne	r2, #1
	movne	r1, r0
	strd	r2, r9, [r4]
	strd	r1, r9, [r4, #8]
	pop.w	{r4, r5, r6, r7, r8, r9, r10, pc}
	.p2align	2
.Lm_CPI0_0:
.Lm_tmp0:
	.long	near_room(TLSGD)-(.Lm_PC0_0+4-.Lm_tmp0)
.Lm_CPI0_1:
.Lm_tmp1:
	.long	pieces_first(TLSGD)-(.Lm_PC0_1+4-.Lm_tmp1)
.Lm_CPI0_2:
.Lm_tmp2:
	.long	lent(TLSGD)-(.Lm_PC0_2+4-.Lm_tmp2)
.Lm_CPI0_3:
.Lm_tmp3:
	.long	lent_step(TLSGD)-(.Lm_PC0_3+4-.Lm_tmp3)
.Lm_CPI0_4:
.Lm_tmp4:
	.long	lent_end(TLSGD)-(.Lm_PC0_4+4-.Lm_tmp4)
.Lm_CPI0_5:
	.long	tlsf_memory_alloc.nothing-(.Lm_PC0_5+4)
.Lm_func_end0:
	.size	tlsf_memory_alloc, .Lm_func_end0-tlsf_memory_alloc
	.cfi_endproc
	.section	.text.tlsf_memory_dealloc,"ax",%progbits
	.hidden	tlsf_memory_dealloc
	.globl	tlsf_memory_dealloc
	.p2align	1
	.type	tlsf_memory_dealloc,%function
	.code	16
	.thumb_func
tlsf_memory_dealloc:
	.cfi_startproc
	bx	lr
.Lm_func_end1:
	.size	tlsf_memory_dealloc, .Lm_func_end1-tlsf_memory_dealloc
	.cfi_endproc
	.section	.text.tlsf_memory_realloc,"ax",%progbits
	.hidden	tlsf_memory_realloc
	.globl	tlsf_memory_realloc
	.p2align	2
	.type	tlsf_memory_realloc,%function
	.code	16
	.thumb_func
tlsf_memory_realloc:
	.cfi_startproc
	push.w	{r4, r5, r6, r7, r8, r9, r10, r11, lr}
	.cfi_def_cfa_offset 36
	.cfi_offset lr, -4
	.cfi_offset r11, -8
	.cfi_offset r10, -12
	.cfi_offset r9, -16
	.cfi_offset r8, -20
	.cfi_offset r7, -24
	.cfi_offset r6, -28
	.cfi_offset r5, -32
	.cfi_offset r4, -36
	sub	sp, #4
	.cfi_def_cfa_offset 40
	mov	r4, r0
	ldr	r0, [sp, #40]
	cmp	r0, #8
	bhi	.Lm_BB2_8
	ldr	r0, .Lm_CPI2_0
	mov	r7, r3
	mov	r8, r2
	mov	r9, r1
.Lm_PC2_0:
	add	r0, pc
	bl	__tls_get_addr
	ldr	r6, [r0]
	cbz	r6, .Lm_BB2_3
	ldr	r0, .Lm_CPI2_1
.Lm_PC2_1:
	add	r0, pc
	bl	__tls_get_addr
	ldr	r1, [r0]
	subs	r2, r1, #1
	str	r2, [r0]
	cbz	r1, .Lm_BB2_7
.Lm_BB2_3:
	ldr	r0, .Lm_CPI2_2
.Lm_PC2_2:
	add	r0, pc
	bl	__tls_get_addr
	ldr	r6, [r0]
	cbz	r6, .Lm_BB2_8
	mov	r5, r0
	ldr	r0, .Lm_CPI2_3
.Lm_PC2_3:
	add	r0, pc
	bl	__tls_get_addr
	ldr	r1, [r0]
	adds	r0, r7, r1
	add.w	r11, r0, #7
	mov	r0, r11
	bl	__aeabi_uidivmod
	cmp.w	r7, #268435456
	bhi	.Lm_BB2_8
	ldr	r0, .Lm_CPI2_4
	mov	r10, r1
.Lm_PC2_4:
	add	r0, pc
	bl	__tls_get_addr
	ldr	r0, [r0]
	add.w	r2, r7, #8
	subs	r1, r0, r6
	cmp	r2, r1
	bhi	.Lm_BB2_8
	sub.w	r2, r11, r10
	cmp	r2, r1
	it	lo
	addlo	r0, r6, r2
	str	r0, [r5]
	b	.Lm_BB2_9
.Lm_BB2_7:
	movw	r0, #2776
	cmp	r7, r0
	bls	.Lm_BB2_9
.Lm_BB2_8:
	ldr	r0, .Lm_CPI2_5
	movs	r1, #0
	strd	r1, r1, [r4]
.Lm_PC2_5:
	add	r0, pc
	strd	r0, r1, [r4, #8]
	add	sp, #4
	pop.w	{r4, r5, r6, r7, r8, r9, r10, r11, pc}
.Lm_BB2_9:
	movs	r1, #0
	movs	r2, #1
	add.w	r0, r6, #8
	strd	r2, r1, [r4]
	strd	r1, r1, [r6]
	mov	r2, r8
	strd	r0, r1, [r4, #8]
	mov	r1, r9
	bl	memcpy
	add	sp, #4
	pop.w	{r4, r5, r6, r7, r8, r9, r10, r11, pc}
	.p2align	2
.Lm_CPI2_0:
.Lm_tmp5:
	.long	near_room(TLSGD)-(.Lm_PC2_0+4-.Lm_tmp5)
.Lm_CPI2_1:
.Lm_tmp6:
	.long	pieces_first(TLSGD)-(.Lm_PC2_1+4-.Lm_tmp6)
.Lm_CPI2_2:
.Lm_tmp7:
	.long	lent(TLSGD)-(.Lm_PC2_2+4-.Lm_tmp7)
.Lm_CPI2_3:
.Lm_tmp8:
	.long	lent_step(TLSGD)-(.Lm_PC2_3+4-.Lm_tmp8)
.Lm_CPI2_4:
.Lm_tmp9:
	.long	lent_end(TLSGD)-(.Lm_PC2_4+4-.Lm_tmp9)
.Lm_CPI2_5:
	.long	tlsf_memory_alloc.nothing-(.Lm_PC2_5+4)
.Lm_func_end2:
	.size	tlsf_memory_realloc, .Lm_func_end2-tlsf_memory_realloc
	.cfi_endproc
	.section	.text.tlsf_memory_set,"ax",%progbits
	.hidden	tlsf_memory_set
	.weak	tlsf_memory_set
	.p2align	1
	.type	tlsf_memory_set,%function
	.code	16
	.thumb_func
tlsf_memory_set:
	.cfi_startproc
	cmp	r1, #0
	bne.w	.Lm_BB3_13
	cmp.w	r2, #512
	it	hi
	bhi	memset
.Lm_BB3_2:
	add.w	r1, r0, #16
	cmp.w	r2, #256
	bls.w	.Lm_BB3_4
	add	r2, r0
	movs	r3, #0
	str	r3, [r0, #12]
	str	r3, [r0, #8]
	str	r3, [r0, #4]
	str	r3, [r0]
	str	r3, [r2, #-4]
	str	r3, [r2, #-16]
	str	r3, [r2, #-12]
	str	r3, [r2, #-8]
	str	r3, [r1, #12]
	str	r3, [r1]
	str	r3, [r1, #4]
	str	r3, [r1, #8]
	str	r3, [r2, #-20]
	str	r3, [r2, #-32]
	str	r3, [r2, #-28]
	str	r3, [r2, #-24]
	str	r3, [r1, #28]
	str	r3, [r1, #16]
	str	r3, [r1, #20]
	str	r3, [r1, #24]
	str	r3, [r2, #-36]
	str	r3, [r2, #-48]
	str	r3, [r2, #-44]
	str	r3, [r2, #-40]
	str	r3, [r1, #44]
	str	r3, [r1, #32]
	str	r3, [r1, #36]
	str	r3, [r1, #40]
	str	r3, [r2, #-52]
	str	r3, [r2, #-64]
	str	r3, [r2, #-60]
	str	r3, [r2, #-56]
	str	r3, [r1, #60]
	str	r3, [r1, #48]
	str	r3, [r1, #52]
	str	r3, [r1, #56]
	str	r3, [r2, #-68]
	str	r3, [r2, #-80]
	str	r3, [r2, #-76]
	str	r3, [r2, #-72]
	str	r3, [r1, #76]
	str	r3, [r1, #64]
	str	r3, [r1, #68]
	str	r3, [r1, #72]
	str	r3, [r2, #-84]
	str	r3, [r2, #-96]
	str	r3, [r2, #-92]
	str	r3, [r2, #-88]
	str	r3, [r1, #92]
	str	r3, [r1, #80]
	str	r3, [r1, #84]
	str	r3, [r1, #88]
	str	r3, [r2, #-100]
	str	r3, [r2, #-112]
	str	r3, [r2, #-108]
	str	r3, [r2, #-104]
	str	r3, [r1, #108]
	str	r3, [r1, #96]
	str	r3, [r1, #100]
	str	r3, [r1, #104]
	str	r3, [r2, #-116]
	str	r3, [r2, #-128]
	str	r3, [r2, #-124]
	str	r3, [r2, #-120]
	str	r3, [r1, #124]
	str	r3, [r1, #112]
	str	r3, [r1, #116]
	str	r3, [r1, #120]
	str	r3, [r2, #-132]
	str	r3, [r2, #-144]
	str	r3, [r2, #-140]
	str	r3, [r2, #-136]
	str.w	r3, [r1, #140]
	str.w	r3, [r1, #128]
	str.w	r3, [r1, #132]
	str.w	r3, [r1, #136]
	str	r3, [r2, #-148]
	str	r3, [r2, #-160]
	str	r3, [r2, #-156]
	str	r3, [r2, #-152]
	str.w	r3, [r1, #156]
	str.w	r3, [r1, #144]
	str.w	r3, [r1, #148]
	str.w	r3, [r1, #152]
	str	r3, [r2, #-164]
	str	r3, [r2, #-176]
	str	r3, [r2, #-172]
	str	r3, [r2, #-168]
	str.w	r3, [r1, #172]
	str.w	r3, [r1, #160]
	str.w	r3, [r1, #164]
	str.w	r3, [r1, #168]
	str	r3, [r2, #-180]
	str	r3, [r2, #-192]
	str	r3, [r2, #-188]
	str	r3, [r2, #-184]
	str.w	r3, [r1, #188]
	str.w	r3, [r1, #176]
	str.w	r3, [r1, #180]
	str.w	r3, [r1, #184]
	str	r3, [r2, #-196]
	str	r3, [r2, #-208]
	str	r3, [r2, #-204]
	str	r3, [r2, #-200]
	str.w	r3, [r1, #204]
	str.w	r3, [r1, #192]
	str.w	r3, [r1, #196]
	str.w	r3, [r1, #200]
	str	r3, [r2, #-212]
	str	r3, [r2, #-224]
	str	r3, [r2, #-220]
	str	r3, [r2, #-216]
	str.w	r3, [r1, #220]
	str.w	r3, [r1, #208]
	str.w	r3, [r1, #212]
	str.w	r3, [r1, #216]
	str	r3, [r2, #-228]
	str	r3, [r2, #-240]
	str	r3, [r2, #-236]
	str	r3, [r2, #-232]
	str.w	r3, [r1, #236]
	str.w	r3, [r1, #224]
	str.w	r3, [r1, #228]
	str.w	r3, [r1, #232]
	mvn	r1, #255
	str	r3, [r2, r1]
	str	r3, [r2, #-248]
	str	r3, [r2, #-244]
	str	r3, [r2, #-252]
	bx	lr
.Lm_BB3_4:
	cmp	r2, #129
	blo	.Lm_BB3_6
	add	r2, r0
	movs	r3, #0
	str	r3, [r0, #12]
	str	r3, [r0, #8]
	str	r3, [r0, #4]
	str	r3, [r0]
	str	r3, [r2, #-4]
	str	r3, [r2, #-16]
	str	r3, [r2, #-12]
	str	r3, [r2, #-8]
	str	r3, [r1, #12]
	str	r3, [r1]
	str	r3, [r1, #4]
	str	r3, [r1, #8]
	str	r3, [r2, #-20]
	str	r3, [r2, #-32]
	str	r3, [r2, #-28]
	str	r3, [r2, #-24]
	str	r3, [r1, #28]
	str	r3, [r1, #16]
	str	r3, [r1, #20]
	str	r3, [r1, #24]
	str	r3, [r2, #-36]
	str	r3, [r2, #-48]
	str	r3, [r2, #-44]
	str	r3, [r2, #-40]
	str	r3, [r1, #44]
	str	r3, [r1, #32]
	str	r3, [r1, #36]
	str	r3, [r1, #40]
	str	r3, [r2, #-52]
	str	r3, [r2, #-64]
	str	r3, [r2, #-60]
	str	r3, [r2, #-56]
	str	r3, [r1, #60]
	str	r3, [r1, #48]
	str	r3, [r1, #52]
	str	r3, [r1, #56]
	str	r3, [r2, #-68]
	str	r3, [r2, #-80]
	str	r3, [r2, #-76]
	str	r3, [r2, #-72]
	str	r3, [r1, #76]
	str	r3, [r1, #64]
	str	r3, [r1, #68]
	str	r3, [r1, #72]
	str	r3, [r2, #-84]
	str	r3, [r2, #-96]
	str	r3, [r2, #-92]
	str	r3, [r2, #-88]
	str	r3, [r1, #92]
	str	r3, [r1, #80]
	str	r3, [r1, #84]
	str	r3, [r1, #88]
	str	r3, [r2, #-100]
	str	r3, [r2, #-112]
	str	r3, [r2, #-108]
	str	r3, [r2, #-104]
	str	r3, [r1, #108]
	str	r3, [r1, #96]
	str	r3, [r1, #100]
	str	r3, [r1, #104]
	str	r3, [r2, #-120]
	str	r3, [r2, #-116]
	str	r3, [r2, #-128]
	str	r3, [r2, #-124]
	bx	lr
.Lm_BB3_6:
	cmp	r2, #65
	blo	.Lm_BB3_8
	add	r2, r0
	movs	r3, #0
	str	r3, [r0, #12]
	str	r3, [r0, #8]
	str	r3, [r0, #4]
	str	r3, [r0]
	str	r3, [r2, #-4]
	str	r3, [r2, #-16]
	str	r3, [r2, #-12]
	str	r3, [r2, #-8]
	str	r3, [r1, #12]
	str	r3, [r1]
	str	r3, [r1, #4]
	str	r3, [r1, #8]
	str	r3, [r2, #-20]
	str	r3, [r2, #-32]
	str	r3, [r2, #-28]
	str	r3, [r2, #-24]
	str	r3, [r1, #28]
	str	r3, [r1, #16]
	str	r3, [r1, #20]
	str	r3, [r1, #24]
	str	r3, [r2, #-36]
	str	r3, [r2, #-48]
	str	r3, [r2, #-44]
	str	r3, [r2, #-40]
	str	r3, [r1, #44]
	str	r3, [r1, #32]
	str	r3, [r1, #36]
	str	r3, [r1, #40]
	str	r3, [r2, #-56]
	str	r3, [r2, #-52]
	str	r3, [r2, #-64]
	str	r3, [r2, #-60]
	bx	lr
.Lm_BB3_8:
	cmp	r2, #33
	blo	.Lm_BB3_10
	add	r2, r0
	movs	r3, #0
	str	r3, [r0, #12]
	str	r3, [r0, #8]
	str	r3, [r0, #4]
	str	r3, [r0]
	str	r3, [r2, #-4]
	str	r3, [r2, #-16]
	str	r3, [r2, #-12]
	str	r3, [r2, #-8]
	str	r3, [r1, #12]
	str	r3, [r1]
	str	r3, [r1, #4]
	str	r3, [r1, #8]
	str	r3, [r2, #-24]
	str	r3, [r2, #-20]
	str	r3, [r2, #-32]
	str	r3, [r2, #-28]
	bx	lr
.Lm_BB3_10:
	movs	r1, #0
	cmp	r2, #17
	blo	.Lm_BB3_12
	add	r2, r0
	str	r1, [r0, #12]
	str	r1, [r0, #8]
	str	r1, [r0, #4]
	str	r1, [r0]
	str	r1, [r2, #-8]
	str	r1, [r2, #-4]
	str	r1, [r2, #-16]
	str	r1, [r2, #-12]
	bx	lr
.Lm_BB3_12:
	cmp	r2, #7
	bhi	.Lm_BB3_14
.Lm_BB3_13:
	b	memset
.Lm_BB3_14:
	add	r2, r0
	str	r1, [r0, #4]
	str	r1, [r0]
	str	r1, [r2, #-4]
	str	r1, [r2, #-8]
	bx	lr
.Lm_func_end3:
	.size	tlsf_memory_set, .Lm_func_end3-tlsf_memory_set
	.cfi_endproc
	.section	.text.tlsf_memory_cpy,"ax",%progbits
	.hidden	tlsf_memory_cpy
	.weak	tlsf_memory_cpy
	.p2align	1
	.type	tlsf_memory_cpy,%function
	.code	16
	.thumb_func
tlsf_memory_cpy:
	.cfi_startproc
	b	memcpy
.Lm_func_end4:
	.size	tlsf_memory_cpy, .Lm_func_end4-tlsf_memory_cpy
	.cfi_endproc
	.section	.text.tlsf_memory_move,"ax",%progbits
	.hidden	tlsf_memory_move
	.weak	tlsf_memory_move
	.p2align	1
	.type	tlsf_memory_move,%function
	.code	16
	.thumb_func
tlsf_memory_move:
	.cfi_startproc
	b	memmove
.Lm_func_end5:
	.size	tlsf_memory_move, .Lm_func_end5-tlsf_memory_move
	.cfi_endproc
	.section	.text.tlsf_bytes,"ax",%progbits
	.globl	tlsf_bytes
	.p2align	1
	.type	tlsf_bytes,%function
	.code	16
	.thumb_func
tlsf_bytes:
	.cfi_startproc
	mov	r2, r0
	movs	r0, #0
	cmp	r1, #4
	blo	.Lm_BB6_3
	cmp	r2, #5
	mov.w	r3, #0
	it	eq
	moveq.w	r3, #16777216
	cmp	r2, #4
	it	eq
	moveq.w	r3, #1048576
	cmp	r1, r3
	it	hi
	bxhi	lr
.Lm_BB6_2:
	add.w	r0, r1, #63
	movs	r2, #16
	add.w	r0, r2, r0, lsr #3
	bic	r0, r0, #15
	add.w	r0, r0, r1, lsl #3
	addw	r0, r0, #2791
	orr	r0, r0, #15
.Lm_BB6_3:
	bx	lr
.Lm_func_end6:
	.size	tlsf_bytes, .Lm_func_end6-tlsf_bytes
	.cfi_endproc
	.section	.text.tlsf_near_bytes,"ax",%progbits
	.globl	tlsf_near_bytes
	.p2align	1
	.type	tlsf_near_bytes,%function
	.code	16
	.thumb_func
tlsf_near_bytes:
	.cfi_startproc
	mov	r2, r0
	movs	r0, #0
	cmp	r1, #4
	blo	.Lm_BB7_3
	cmp	r2, #5
	mov.w	r3, #0
	it	eq
	moveq.w	r3, #16777216
	cmp	r2, #4
	it	eq
	moveq.w	r3, #1048576
	cmp	r1, r3
	it	hi
	bxhi	lr
.Lm_BB7_2:
	add.w	r0, r1, #63
	mvn	r2, #7
	and.w	r0, r2, r0, lsr #3
	movs	r2, #23
	add.w	r1, r2, r1, lsl #3
	bic	r1, r1, #15
	add	r0, r1
	adds	r0, #23
.Lm_BB7_3:
	bx	lr
.Lm_func_end7:
	.size	tlsf_near_bytes, .Lm_func_end7-tlsf_near_bytes
	.cfi_endproc
	.section	.text.tlsf_open_in,"ax",%progbits
	.globl	tlsf_open_in
	.p2align	2
	.type	tlsf_open_in,%function
	.code	16
	.thumb_func
tlsf_open_in:
	.cfi_startproc
	push.w	{r4, r5, r6, r7, r8, r9, r10, r11, lr}
	.cfi_def_cfa_offset 36
	.cfi_offset lr, -4
	.cfi_offset r11, -8
	.cfi_offset r10, -12
	.cfi_offset r9, -16
	.cfi_offset r8, -20
	.cfi_offset r7, -24
	.cfi_offset r6, -28
	.cfi_offset r5, -32
	.cfi_offset r4, -36
	sub	sp, #12
	.cfi_def_cfa_offset 48
	ldrb.w	r10, [r0, #29]
	mov	r9, r3
	mov	r7, r0
	strd	r2, r1, [sp, #4]
	cmp.w	r10, #0
	beq	.Lm_BB8_4
	sub.w	r0, r10, #65
	cmn.w	r0, #57
	blo	.Lm_BB8_3
	cmp.w	r10, #16
	mov	r1, r10
	add.w	r0, r10, #127
	it	ls
	movls	r1, #16
	tst.w	r0, r10
	beq	.Lm_BB8_5
.Lm_BB8_3:
	movs	r5, #0
	b	.Lm_BB8_6
.Lm_BB8_4:
	movs	r1, #16
.Lm_BB8_5:
	mvn	r0, #31
	sub.w	r0, r0, r9
	bl	__aeabi_uidivmod
	mov	r5, r1
.Lm_BB8_6:
	ldr.w	r11, [sp, #48]
	mvn.w	r6, r9
	mov.w	r8, #0
	cmp.w	r9, #0
	beq	.Lm_BB8_13
	cmp	r11, r6
	bhi	.Lm_BB8_13
	movs	r2, #0
	cmp	r11, r5
	blo	.Lm_BB8_14
	ldr	r1, [sp, #8]
	movs	r0, #0
	cmp	r1, #5
	it	eq
	moveq.w	r0, #16777216
	cmp	r1, #4
	sub.w	r1, r11, r5
	it	eq
	moveq.w	r0, #1048576
	cmp.w	r1, #2832
	blo	.Lm_BB8_14
	movw	r2, #43136
	cmp.w	r1, #268435456
	movt	r2, #65535
	movw	r3, #49405
	it	hs
	movhs.w	r1, #268435456
	add.w	r2, r2, r1, lsl #3
	movt	r3, #64527
	mov	lr, r6
	umull	r2, r3, r2, r3
	movs	r6, #87
	movs	r2, #71
	mov	r12, r7
	add.w	r2, r2, r3, lsr #6
	lsrs	r3, r3, #6
	add.w	r3, r6, r3, lsl #3
	movs	r6, #16
.Lm_BB8_11:
	add.w	r4, r6, r2, lsr #3
	bic	r7, r3, #15
	bic	r4, r4, #15
	subs	r3, #8
	add	r7, r4
	subs	r2, #1
	add.w	r7, r7, #2768
	cmp	r7, r1
	bhi	.Lm_BB8_11
	sub.w	r1, r2, #62
	mov	r7, r12
	cmp	r1, r0
	it	lo
	movlo	r0, r1
	mov	r2, r0
	mov	r6, lr
	b	.Lm_BB8_14
.Lm_BB8_13:
	movs	r2, #0
.Lm_BB8_14:
	ldr	r0, .Lm_CPI8_0
	str	r2, [sp]
.Lm_PC8_0:
	add	r0, pc
	bl	__tls_get_addr
	ldr	r1, .Lm_CPI8_1
	movs	r2, #16
	ldr	r4, .Lm_CPI8_4
	cmp	r11, r6
	str	r2, [r0]
.Lm_PC8_1:
	add	r1, pc
	mov	r0, r9
	it	ls
	movls.w	r8, #1
	cmp.w	r9, #0
	it	ne
	movne	r0, #1
	and.w	r6, r0, r8
	mov	r0, r1
	cmp	r5, r11
.Lm_PC8_4:
	add	r4, pc
	it	hs
	movhs	r5, r11
	bl	__tls_get_addr
	mov	r1, r4
	cmp	r6, #0
	it	ne
	addne.w	r1, r9, r11
	str	r1, [r0]
	ldr	r0, .Lm_CPI8_3
	it	ne
	addne.w	r4, r9, r5
.Lm_PC8_3:
	add	r0, pc
	bl	__tls_get_addr
	mov	r5, r0
	cmp.w	r10, #0
	str	r4, [r0]
	beq	.Lm_BB8_17
	sub.w	r0, r10, #65
	movs	r3, #0
	cmn.w	r0, #57
	blo	.Lm_BB8_18
	add.w	r0, r10, #127
	tst.w	r0, r10
	ldr	r0, [sp]
	it	eq
	moveq	r3, r0
	b	.Lm_BB8_18
.Lm_BB8_17:
	ldr	r3, [sp]
.Lm_BB8_18:
	ldrd	r2, r1, [sp, #4]
	mov	r0, r7
	bl	tlsf_open
	cbz	r0, .Lm_BB8_20
	subs	r2, r0, #5
	movs	r1, #0
	clz	r2, r2
	str	r1, [r5]
	mvns	r1, r6
	lsrs	r2, r2, #5
	tst	r1, r2
	it	ne
	movne	r0, #39
	add	sp, #12
	pop.w	{r4, r5, r6, r7, r8, r9, r10, r11, pc}
.Lm_BB8_20:
	ldrb	r1, [r7, #29]
	tst.w	r1, #247
	itt	ne
	movne	r1, #1
	strbne	r1, [r7, #28]
	movs	r1, #0
	str	r1, [r5]
	add	sp, #12
	pop.w	{r4, r5, r6, r7, r8, r9, r10, r11, pc}
	.p2align	2
.Lm_CPI8_0:
.Lm_tmp10:
	.long	lent_step(TLSGD)-(.Lm_PC8_0+4-.Lm_tmp10)
.Lm_CPI8_1:
.Lm_tmp11:
	.long	lent_end(TLSGD)-(.Lm_PC8_1+4-.Lm_tmp11)
.Lm_CPI8_3:
.Lm_tmp12:
	.long	lent(TLSGD)-(.Lm_PC8_3+4-.Lm_tmp12)
.Lm_CPI8_4:
	.long	begin_behind.nothing-(.Lm_PC8_4+4)
.Lm_func_end8:
	.size	tlsf_open_in, .Lm_func_end8-tlsf_open_in
	.cfi_endproc
	.section	.text.tlsf_open_near,"ax",%progbits
	.globl	tlsf_open_near
	.p2align	2
	.type	tlsf_open_near,%function
	.code	16
	.thumb_func
tlsf_open_near:
	.cfi_startproc
	push.w	{r4, r5, r6, r7, r8, r9, lr}
	.cfi_def_cfa_offset 28
	.cfi_offset lr, -4
	.cfi_offset r9, -8
	.cfi_offset r8, -12
	.cfi_offset r7, -16
	.cfi_offset r6, -20
	.cfi_offset r5, -24
	.cfi_offset r4, -28
	sub	sp, #4
	.cfi_def_cfa_offset 32
	mov	r4, r0
	ldr	r0, .Lm_CPI9_0
	mov	r8, r3
	mov	r9, r2
.Lm_PC9_0:
	add	r0, pc
	mov	r7, r1
	bl	__tls_get_addr
	ldr	r1, .Lm_CPI9_1
	movs	r2, #2
	str	r2, [r0]
	rsbs	r0, r4, #0
.Lm_PC9_1:
	add	r1, pc
	and	r0, r0, #63
	add	r4, r0
	mov	r0, r1
	add.w	r5, r4, #32
	bl	__tls_get_addr
	str	r5, [r0]
	mov	r6, r0
	ldrb	r0, [r4, #29]
	cbz	r0, .Lm_BB9_3
	sub.w	r1, r0, #65
	movs	r3, #0
	cmn.w	r1, #57
	blo	.Lm_BB9_4
	add.w	r1, r0, #127
	tst	r1, r0
	it	eq
	moveq	r3, r8
	b	.Lm_BB9_4
.Lm_BB9_3:
	mov	r3, r8
.Lm_BB9_4:
	mov	r0, r4
	mov	r1, r7
	mov	r2, r9
	bl	tlsf_open
	cbnz	r0, .Lm_BB9_6
	ldrb	r1, [r4, #29]
	tst.w	r1, #247
	itt	ne
	movne	r1, #1
	strbne	r1, [r4, #28]
.Lm_BB9_6:
	movs	r1, #0
	str	r1, [r6]
	add	sp, #4
	pop.w	{r4, r5, r6, r7, r8, r9, pc}
	.p2align	2
.Lm_CPI9_0:
.Lm_tmp13:
	.long	pieces_first(TLSGD)-(.Lm_PC9_0+4-.Lm_tmp13)
.Lm_CPI9_1:
.Lm_tmp14:
	.long	near_room(TLSGD)-(.Lm_PC9_1+4-.Lm_tmp14)
.Lm_func_end9:
	.size	tlsf_open_near, .Lm_func_end9-tlsf_open_near
	.cfi_endproc
	.section	.text.tlsf_open_near_in,"ax",%progbits
	.globl	tlsf_open_near_in
	.p2align	2
	.type	tlsf_open_near_in,%function
	.code	16
	.thumb_func
tlsf_open_near_in:
	.cfi_startproc
	push.w	{r4, r5, r6, r7, r8, r9, r10, r11, lr}
	.cfi_def_cfa_offset 36
	.cfi_offset lr, -4
	.cfi_offset r11, -8
	.cfi_offset r10, -12
	.cfi_offset r9, -16
	.cfi_offset r8, -20
	.cfi_offset r7, -24
	.cfi_offset r6, -28
	.cfi_offset r5, -32
	.cfi_offset r4, -36
	sub	sp, #20
	.cfi_def_cfa_offset 56
	mov	r4, r0
	ldr	r0, .Lm_CPI10_0
	mov	r10, r3
	str	r2, [sp, #8]
.Lm_PC10_0:
	add	r0, pc
	str	r1, [sp, #16]
	bl	__tls_get_addr
	ldr	r1, .Lm_CPI10_1
	movs	r2, #2
	str	r2, [r0]
	rsbs	r0, r4, #0
.Lm_PC10_1:
	add	r1, pc
	and	r0, r0, #63
	adds	r5, r4, r0
	mov	r0, r1
	add.w	r4, r5, #32
	bl	__tls_get_addr
	str	r4, [r0]
	ldrb.w	r11, [r5, #29]
	str	r0, [sp, #4]
	cmp.w	r11, #0
	beq	.Lm_BB10_4
	sub.w	r0, r11, #65
	cmn.w	r0, #57
	blo	.Lm_BB10_3
	cmp.w	r11, #16
	mov	r1, r11
	add.w	r0, r11, #127
	it	ls
	movls	r1, #16
	tst.w	r0, r11
	beq	.Lm_BB10_5
.Lm_BB10_3:
	movs	r4, #0
	b	.Lm_BB10_6
.Lm_BB10_4:
	movs	r1, #16
.Lm_BB10_5:
	mvn	r0, #31
	sub.w	r0, r0, r10
	bl	__aeabi_uidivmod
	mov	r4, r1
.Lm_BB10_6:
	ldr.w	r8, [sp, #56]
	mvn.w	r7, r10
	mov.w	r9, #0
	cmp.w	r10, #0
	str	r5, [sp, #12]
	beq	.Lm_BB10_13
	cmp	r8, r7
	bhi	.Lm_BB10_13
	movs	r6, #0
	cmp	r8, r4
	blo	.Lm_BB10_14
	ldr	r1, [sp, #16]
	movs	r0, #0
	cmp	r1, #5
	it	eq
	moveq.w	r0, #16777216
	cmp	r1, #4
	sub.w	r1, r8, r4
	it	eq
	moveq.w	r0, #1048576
	cmp	r1, #64
	blo	.Lm_BB10_14
	mvn	r2, #191
	cmp.w	r1, #268435456
	movw	r3, #49405
	it	hs
	movhs.w	r1, #268435456
	add.w	r2, r2, r1, lsl #3
	movt	r3, #64527
	mov	lr, r7
	movs	r7, #87
	umull	r2, r3, r2, r3
	movs	r2, #71
	add.w	r2, r2, r3, lsr #6
	lsrs	r3, r3, #6
	add.w	r3, r7, r3, lsl #3
	mvn	r7, #7
.Lm_BB10_11:
	and.w	r5, r7, r2, lsr #3
	bic	r6, r3, #15
	add	r6, r5
	subs	r3, #8
	subs	r2, #1
	adds	r6, #8
	cmp	r6, r1
	bhi	.Lm_BB10_11
	sub.w	r1, r2, #62
	mov	r7, lr
	cmp	r1, r0
	it	lo
	movlo	r0, r1
	mov	r6, r0
	b	.Lm_BB10_14
.Lm_BB10_13:
	movs	r6, #0
.Lm_BB10_14:
	ldr	r0, .Lm_CPI10_2
.Lm_PC10_2:
	add	r0, pc
	bl	__tls_get_addr
	ldr	r1, .Lm_CPI10_3
	movs	r2, #16
	ldr	r5, .Lm_CPI10_6
	cmp	r8, r7
	str	r2, [r0]
.Lm_PC10_3:
	add	r1, pc
	mov	r0, r10
	it	ls
	movls.w	r9, #1
	cmp.w	r10, #0
	it	ne
	movne	r0, #1
	and.w	r7, r0, r9
	mov	r0, r1
	cmp	r4, r8
.Lm_PC10_6:
	add	r5, pc
	it	hs
	movhs	r4, r8
	bl	__tls_get_addr
	mov	r1, r5
	cmp	r7, #0
	it	ne
	addne.w	r1, r10, r8
	str	r1, [r0]
	ldr	r0, .Lm_CPI10_5
	it	ne
	addne.w	r5, r10, r4
.Lm_PC10_5:
	add	r0, pc
	bl	__tls_get_addr
	mov	r4, r0
	cmp.w	r11, #0
	str	r5, [r0]
	beq	.Lm_BB10_17
	ldr	r5, [sp, #12]
	sub.w	r0, r11, #65
	movs	r3, #0
	cmn.w	r0, #57
	blo	.Lm_BB10_18
	add.w	r0, r11, #127
	tst.w	r0, r11
	it	eq
	moveq	r3, r6
	b	.Lm_BB10_18
.Lm_BB10_17:
	mov	r3, r6
	ldr	r5, [sp, #12]
.Lm_BB10_18:
	ldr	r1, [sp, #16]
	mov	r0, r5
	ldr	r2, [sp, #8]
	bl	tlsf_open
	cbz	r0, .Lm_BB10_20
	subs	r2, r0, #5
	movs	r1, #0
	clz	r2, r2
	str	r1, [r4]
	mvns	r1, r7
	lsrs	r2, r2, #5
	tst	r1, r2
	it	ne
	movne	r0, #39
	b	.Lm_BB10_21
.Lm_BB10_20:
	ldrb	r1, [r5, #29]
	tst.w	r1, #247
	itt	ne
	movne	r1, #1
	strbne	r1, [r5, #28]
	movs	r1, #0
	str	r1, [r4]
.Lm_BB10_21:
	ldr	r2, [sp, #4]
	movs	r1, #0
	str	r1, [r2]
	add	sp, #20
	pop.w	{r4, r5, r6, r7, r8, r9, r10, r11, pc}
	.p2align	2
.Lm_CPI10_0:
.Lm_tmp15:
	.long	pieces_first(TLSGD)-(.Lm_PC10_0+4-.Lm_tmp15)
.Lm_CPI10_1:
.Lm_tmp16:
	.long	near_room(TLSGD)-(.Lm_PC10_1+4-.Lm_tmp16)
.Lm_CPI10_2:
.Lm_tmp17:
	.long	lent_step(TLSGD)-(.Lm_PC10_2+4-.Lm_tmp17)
.Lm_CPI10_3:
.Lm_tmp18:
	.long	lent_end(TLSGD)-(.Lm_PC10_3+4-.Lm_tmp18)
.Lm_CPI10_5:
.Lm_tmp19:
	.long	lent(TLSGD)-(.Lm_PC10_5+4-.Lm_tmp19)
.Lm_CPI10_6:
	.long	begin_behind.nothing-(.Lm_PC10_6+4)
.Lm_func_end10:
	.size	tlsf_open_near_in, .Lm_func_end10-tlsf_open_near_in
	.cfi_endproc
	.section	.text.tlsf_open_32,"ax",%progbits
	.globl	tlsf_open_32
	.p2align	1
	.type	tlsf_open_32,%function
	.code	16
	.thumb_func
tlsf_open_32:
	.cfi_startproc
	push	{r4, r5, r7, lr}
	.cfi_def_cfa_offset 16
	.cfi_offset lr, -4
	.cfi_offset r7, -8
	.cfi_offset r5, -12
	.cfi_offset r4, -16
	mov	r5, r0
	ldrb	r0, [r0, #29]
	cbz	r0, .Lm_BB11_3
	mov	r12, r3
	sub.w	lr, r0, #65
	movs	r3, #0
	cmn.w	lr, #57
	blo	.Lm_BB11_3
	add.w	r4, r0, #127
	tst	r4, r0
	it	eq
	moveq	r3, r12
.Lm_BB11_3:
	mov	r0, r5
	bl	tlsf_open
	cmp	r0, #0
	it	ne
	popne	{r4, r5, r7, pc}
.Lm_BB11_4:
	ldrb	r1, [r5, #29]
	tst.w	r1, #247
	itt	ne
	movne	r1, #1
	strbne	r1, [r5, #28]
	pop	{r4, r5, r7, pc}
.Lm_func_end11:
	.size	tlsf_open_32, .Lm_func_end11-tlsf_open_32
	.cfi_endproc
	.section	.text.tlsf_open_in_32,"ax",%progbits
	.globl	tlsf_open_in_32
	.p2align	1
	.type	tlsf_open_in_32,%function
	.code	16
	.thumb_func
tlsf_open_in_32:
	.cfi_startproc
	ldr.w	r12, [sp]
	str.w	r12, [sp]
	b	tlsf_open_in
.Lm_func_end12:
	.size	tlsf_open_in_32, .Lm_func_end12-tlsf_open_in_32
	.cfi_endproc
	.section	.text.tlsf_open_near_2880,"ax",%progbits
	.globl	tlsf_open_near_2880
	.p2align	2
	.type	tlsf_open_near_2880,%function
	.code	16
	.thumb_func
tlsf_open_near_2880:
	.cfi_startproc
	push.w	{r4, r5, r6, r7, r8, r9, lr}
	.cfi_def_cfa_offset 28
	.cfi_offset lr, -4
	.cfi_offset r9, -8
	.cfi_offset r8, -12
	.cfi_offset r7, -16
	.cfi_offset r6, -20
	.cfi_offset r5, -24
	.cfi_offset r4, -28
	sub	sp, #4
	.cfi_def_cfa_offset 32
	mov	r4, r0
	ldr	r0, .Lm_CPI13_0
	mov	r8, r3
	mov	r9, r2
.Lm_PC13_0:
	add	r0, pc
	mov	r7, r1
	bl	__tls_get_addr
	ldr	r1, .Lm_CPI13_1
	movs	r2, #2
	str	r2, [r0]
	rsbs	r0, r4, #0
.Lm_PC13_1:
	add	r1, pc
	and	r0, r0, #63
	add	r4, r0
	mov	r0, r1
	add.w	r5, r4, #32
	bl	__tls_get_addr
	str	r5, [r0]
	mov	r6, r0
	ldrb	r0, [r4, #29]
	cbz	r0, .Lm_BB13_3
	sub.w	r1, r0, #65
	movs	r3, #0
	cmn.w	r1, #57
	blo	.Lm_BB13_4
	add.w	r1, r0, #127
	tst	r1, r0
	it	eq
	moveq	r3, r8
	b	.Lm_BB13_4
.Lm_BB13_3:
	mov	r3, r8
.Lm_BB13_4:
	mov	r0, r4
	mov	r1, r7
	mov	r2, r9
	bl	tlsf_open
	cbnz	r0, .Lm_BB13_6
	ldrb	r1, [r4, #29]
	tst.w	r1, #247
	itt	ne
	movne	r1, #1
	strbne	r1, [r4, #28]
.Lm_BB13_6:
	movs	r1, #0
	str	r1, [r6]
	add	sp, #4
	pop.w	{r4, r5, r6, r7, r8, r9, pc}
	.p2align	2
.Lm_CPI13_0:
.Lm_tmp20:
	.long	pieces_first(TLSGD)-(.Lm_PC13_0+4-.Lm_tmp20)
.Lm_CPI13_1:
.Lm_tmp21:
	.long	near_room(TLSGD)-(.Lm_PC13_1+4-.Lm_tmp21)
.Lm_func_end13:
	.size	tlsf_open_near_2880, .Lm_func_end13-tlsf_open_near_2880
	.cfi_endproc
	.section	.text.tlsf_open_near_in_2880,"ax",%progbits
	.globl	tlsf_open_near_in_2880
	.p2align	1
	.type	tlsf_open_near_in_2880,%function
	.code	16
	.thumb_func
tlsf_open_near_in_2880:
	.cfi_startproc
	ldr.w	r12, [sp]
	str.w	r12, [sp]
	b	tlsf_open_near_in
.Lm_func_end14:
	.size	tlsf_open_near_in_2880, .Lm_func_end14-tlsf_open_near_in_2880
	.cfi_endproc
	.section	.text.tlsf_lane_bytes,"ax",%progbits
	.globl	tlsf_lane_bytes
	.p2align	1
	.type	tlsf_lane_bytes,%function
	.code	16
	.thumb_func
tlsf_lane_bytes:
	.cfi_startproc
	add.w	r1, r0, r0, lsl #1
	movs	r2, #135
	subw	r0, r0, #1025
	add.w	r1, r2, r1, lsl #3
	movw	r2, #65408
	movt	r2, #1
	ands	r1, r2
	addw	r1, r1, #895
	cmn.w	r0, #1024
	it	lo
	movlo	r1, #0
	mov	r0, r1
	bx	lr
.Lm_func_end15:
	.size	tlsf_lane_bytes, .Lm_func_end15-tlsf_lane_bytes
	.cfi_endproc
	.section	.text.tlsf_lane_open_in,"ax",%progbits
	.globl	tlsf_lane_open_in
	.p2align	2
	.type	tlsf_lane_open_in,%function
	.code	16
	.thumb_func
tlsf_lane_open_in:
	.cfi_startproc
	push.w	{r4, r5, r6, r7, r8, r9, r10, r11, lr}
	.cfi_def_cfa_offset 36
	.cfi_offset lr, -4
	.cfi_offset r11, -8
	.cfi_offset r10, -12
	.cfi_offset r9, -16
	.cfi_offset r8, -20
	.cfi_offset r7, -24
	.cfi_offset r6, -28
	.cfi_offset r5, -32
	.cfi_offset r4, -36
	sub	sp, #12
	.cfi_def_cfa_offset 48
	ldr.w	r10, [sp, #48]
	mov	r8, r3
	mov	r9, r2
	cmp.w	r2, #1024
	strd	r0, r1, [sp, #4]
	bhi	.Lm_BB16_2
	add.w	r1, r9, r9, lsl #1
	movs	r2, #135
	rsb.w	r0, r8, #0
	mvn.w	r5, r8
	add.w	r1, r2, r1, lsl #3
	movw	r2, #65408
	and	r11, r0, #127
	movt	r2, #1
	ands	r1, r2
	sub.w	r0, r10, r11
	add.w	r1, r1, #768
	cmp	r0, r1
	it	lo
	movlo.w	r9, #0
	cmp	r10, r11
	it	lo
	movlo.w	r9, #0
	cmp	r10, r5
	it	hi
	movhi.w	r9, #0
	cmp.w	r8, #0
	it	eq
	moveq	r9, r8
	b	.Lm_BB16_3
.Lm_BB16_2:
	rsb.w	r0, r8, #0
	mvn.w	r5, r8
	and	r11, r0, #127
.Lm_BB16_3:
	ldr	r0, .Lm_CPI16_0
.Lm_PC16_0:
	add	r0, pc
	bl	__tls_get_addr
	ldr	r1, .Lm_CPI16_1
	movs	r2, #128
	ldr	r6, .Lm_CPI16_3
	cmp	r11, r10
.Lm_PC16_1:
	add	r1, pc
	str	r2, [r0]
	it	hs
	movhs	r11, r10
	cmp	r10, r5
	mov.w	r5, #0
	mov	r0, r1
	mov	r7, r8
	it	ls
	movls	r5, #1
	cmp.w	r8, #0
.Lm_PC16_3:
	add	r6, pc
	it	ne
	movne	r7, #1
	bl	__tls_get_addr
	ldr	r1, .Lm_CPI16_2
	mov	r2, r6
	tst	r7, r5
	it	ne
	addne.w	r2, r8, r10
.Lm_PC16_2:
	add	r1, pc
	str	r2, [r0]
	it	ne
	addne.w	r6, r8, r11
	mov	r0, r1
	bl	__tls_get_addr
	mov	r4, r0
	str	r6, [r0]
	ldrd	r0, r1, [sp, #4]
	mov	r2, r9
	bl	tlsf_lane_open
	cmp	r0, #5
	mov	r1, r0
	mov.w	r2, #0
	it	eq
	moveq	r1, #39
	tst	r7, r5
	str	r2, [r4]
	it	eq
	moveq	r0, r1
	add	sp, #12
	pop.w	{r4, r5, r6, r7, r8, r9, r10, r11, pc}
	.p2align	2
.Lm_CPI16_0:
.Lm_tmp22:
	.long	lent_step(TLSGD)-(.Lm_PC16_0+4-.Lm_tmp22)
.Lm_CPI16_1:
.Lm_tmp23:
	.long	lent_end(TLSGD)-(.Lm_PC16_1+4-.Lm_tmp23)
.Lm_CPI16_2:
.Lm_tmp24:
	.long	lent(TLSGD)-(.Lm_PC16_2+4-.Lm_tmp24)
.Lm_CPI16_3:
	.long	begin_behind.nothing-(.Lm_PC16_3+4)
.Lm_func_end16:
	.size	tlsf_lane_open_in, .Lm_func_end16-tlsf_lane_open_in
	.cfi_endproc
	.section	.text.tlsf_queue_bytes,"ax",%progbits
	.globl	tlsf_queue_bytes
	.p2align	1
	.type	tlsf_queue_bytes,%function
	.code	16
	.thumb_func
tlsf_queue_bytes:
	.cfi_startproc
	rsb.w	r2, r0, #1024
	rsb.w	r3, r1, #1024
	orrs	r3, r2
	movs	r2, #0
	cmp.w	r2, r3, lsr #10
	bne	.Lm_BB17_2
	movw	r2, #519
	mov.w	r12, #135
	add.w	r3, r12, r1, lsl #5
	add.w	r1, r2, r1, lsl #3
	add.w	r2, r12, r0, lsl #4
	bic	r3, r3, #103
	bic	r2, r2, #119
	bic	r1, r1, #127
	add.w	r2, r2, r0, lsl #7
	add.w	r0, r12, r0, lsl #3
	bic	r0, r0, #127
	add	r1, r3
	add	r0, r2
	add.w	r0, r0, r1, lsl #1
	addw	r2, r0, #383
.Lm_BB17_2:
	mov	r0, r2
	bx	lr
.Lm_func_end17:
	.size	tlsf_queue_bytes, .Lm_func_end17-tlsf_queue_bytes
	.cfi_endproc
	.section	.text.tlsf_queue_open_in,"ax",%progbits
	.globl	tlsf_queue_open_in
	.p2align	2
	.type	tlsf_queue_open_in,%function
	.code	16
	.thumb_func
tlsf_queue_open_in:
	.cfi_startproc
	push.w	{r4, r5, r6, r7, r8, r9, r10, r11, lr}
	.cfi_def_cfa_offset 36
	.cfi_offset lr, -4
	.cfi_offset r11, -8
	.cfi_offset r10, -12
	.cfi_offset r9, -16
	.cfi_offset r8, -20
	.cfi_offset r7, -24
	.cfi_offset r6, -28
	.cfi_offset r5, -32
	.cfi_offset r4, -36
	sub	sp, #4
	.cfi_def_cfa_offset 40
	ldr.w	r9, [sp, #40]
	mov	r11, r3
	mov	r8, r2
	mov	r10, r1
	cmp.w	r1, #1024
	str	r0, [sp]
	it	ls
	cmpls.w	r8, #1024
	bls	.Lm_BB18_2
	rsb.w	r0, r11, #0
	mvn.w	r5, r11
	and	r6, r0, #127
	b	.Lm_BB18_3
.Lm_BB18_2:
	movw	r2, #65408
	movs	r0, #135
	add.w	r1, r0, r8, lsl #5
	movt	r2, #1
	ands	r1, r2
	movw	r2, #519
	add.w	r2, r2, r8, lsl #3
	movw	r3, #65408
	and	r2, r2, #32640
	mvn.w	r5, r11
	add	r1, r2
	add.w	r2, r0, r10, lsl #4
	ands	r2, r3
	add.w	r0, r0, r10, lsl #3
	add.w	r2, r2, r10, lsl #7
	and	r0, r0, #32640
	add	r0, r2
	add.w	r0, r0, r1, lsl #1
	rsb.w	r1, r11, #0
	and	r6, r1, #127
	add.w	r0, r0, #256
	sub.w	r1, r9, r6
	cmp	r1, r0
	it	lo
	movlo.w	r8, #0
	cmp	r9, r6
	it	lo
	movlo.w	r8, #0
	cmp	r9, r5
	it	hi
	movhi.w	r8, #0
	cmp.w	r11, #0
	it	eq
	moveq	r8, r11
.Lm_BB18_3:
	ldr	r0, .Lm_CPI18_0
.Lm_PC18_0:
	add	r0, pc
	bl	__tls_get_addr
	ldr	r1, .Lm_CPI18_1
	movs	r2, #128
	ldr	r4, .Lm_CPI18_3
	cmp	r6, r9
.Lm_PC18_1:
	add	r1, pc
	str	r2, [r0]
	it	hs
	movhs	r6, r9
	cmp	r9, r5
	mov.w	r5, #0
	mov	r0, r1
	mov	r7, r11
	it	ls
	movls	r5, #1
	cmp.w	r11, #0
.Lm_PC18_3:
	add	r4, pc
	it	ne
	movne	r7, #1
	bl	__tls_get_addr
	ldr	r1, .Lm_CPI18_2
	mov	r2, r4
	tst	r7, r5
	it	ne
	addne.w	r2, r11, r9
.Lm_PC18_2:
	add	r1, pc
	str	r2, [r0]
	it	ne
	addne.w	r4, r11, r6
	mov	r0, r1
	bl	__tls_get_addr
	mov	r6, r0
	str	r4, [r0]
	ldr	r0, [sp]
	mov	r1, r10
	mov	r2, r8
	bl	tlsf_queue_open
	cmp	r0, #5
	mov	r1, r0
	mov.w	r2, #0
	it	eq
	moveq	r1, #39
	tst	r7, r5
	str	r2, [r6]
	it	eq
	moveq	r0, r1
	add	sp, #4
	pop.w	{r4, r5, r6, r7, r8, r9, r10, r11, pc}
	.p2align	2
.Lm_CPI18_0:
.Lm_tmp25:
	.long	lent_step(TLSGD)-(.Lm_PC18_0+4-.Lm_tmp25)
.Lm_CPI18_1:
.Lm_tmp26:
	.long	lent_end(TLSGD)-(.Lm_PC18_1+4-.Lm_tmp26)
.Lm_CPI18_2:
.Lm_tmp27:
	.long	lent(TLSGD)-(.Lm_PC18_2+4-.Lm_tmp27)
.Lm_CPI18_3:
	.long	begin_behind.nothing-(.Lm_PC18_3+4)
.Lm_func_end18:
	.size	tlsf_queue_open_in, .Lm_func_end18-tlsf_queue_open_in
	.cfi_endproc
	.section	.text.tlsf_offsets_bytes,"ax",%progbits
	.globl	tlsf_offsets_bytes
	.p2align	1
	.type	tlsf_offsets_bytes,%function
	.code	16
	.thumb_func
tlsf_offsets_bytes:
	.cfi_startproc
	mov	r2, r0
	movs	r0, #0
	cmp	r1, #4
	blo	.Lm_BB19_3
	cmp	r2, #5
	mov.w	r3, #0
	it	eq
	moveq.w	r3, #16777216
	cmp	r2, #4
	it	eq
	moveq.w	r3, #1048576
	cmp	r1, r3
	it	hi
	bxhi	lr
.Lm_BB19_2:
	movs	r0, #23
	movw	r2, #65520
	add.w	r0, r0, r1, lsl #3
	adds	r1, #63
	movt	r2, #255
	add.w	r3, r2, #520093696
	ands	r0, r3
	movs	r3, #16
	add.w	r1, r3, r1, lsr #3
	ands	r1, r2
	add	r0, r1
	addw	r0, r0, #2783
.Lm_BB19_3:
	bx	lr
.Lm_func_end19:
	.size	tlsf_offsets_bytes, .Lm_func_end19-tlsf_offsets_bytes
	.cfi_endproc
	.section	.text.tlsf_offsets_open_in,"ax",%progbits
	.globl	tlsf_offsets_open_in
	.p2align	2
	.type	tlsf_offsets_open_in,%function
	.code	16
	.thumb_func
tlsf_offsets_open_in:
	.cfi_startproc
	push.w	{r4, r5, r6, r7, r8, r9, r10, r11, lr}
	.cfi_def_cfa_offset 36
	.cfi_offset lr, -4
	.cfi_offset r11, -8
	.cfi_offset r10, -12
	.cfi_offset r9, -16
	.cfi_offset r8, -20
	.cfi_offset r7, -24
	.cfi_offset r6, -28
	.cfi_offset r5, -32
	.cfi_offset r4, -36
	sub	sp, #20
	.cfi_def_cfa_offset 56
	ldr	r4, [sp, #64]
	cmp	r1, #5
	ldrd	r11, r10, [sp, #56]
	mov	r9, r1
	str	r0, [sp, #8]
	mov.w	r0, #0
	strd	r2, r3, [sp, #12]
	it	eq
	moveq.w	r0, #16777216
	cmp	r1, #4
	it	eq
	moveq.w	r0, #1048576
	cmp	r11, r0
	bls	.Lm_BB20_2
	rsb.w	r0, r10, #0
	mvn.w	r8, r10
	and	r7, r0, #15
	b	.Lm_BB20_3
.Lm_BB20_2:
	movs	r0, #23
	movw	r1, #65520
	movt	r1, #255
	add.w	r0, r0, r11, lsl #3
	add.w	r2, r1, #520093696
	movs	r3, #16
	ands	r0, r2
	add.w	r2, r11, #63
	mvn.w	r8, r10
	add.w	r2, r3, r2, lsr #3
	ands	r1, r2
	add	r0, r1
	rsb.w	r1, r10, #0
	and	r7, r1, #15
	add.w	r0, r0, #2768
	subs	r1, r4, r7
	cmp	r1, r0
	it	lo
	movlo.w	r11, #0
	cmp	r4, r7
	it	lo
	movlo.w	r11, #0
	cmp	r4, r8
	it	hi
	movhi.w	r11, #0
	cmp.w	r10, #0
	it	eq
	moveq	r11, r10
.Lm_BB20_3:
	ldr	r0, .Lm_CPI20_0
.Lm_PC20_0:
	add	r0, pc
	bl	__tls_get_addr
	ldr	r1, .Lm_CPI20_1
	movs	r2, #16
	ldr	r5, .Lm_CPI20_3
	cmp	r7, r4
.Lm_PC20_1:
	add	r1, pc
	str	r2, [r0]
	it	hs
	movhs	r7, r4
	cmp	r4, r8
	mov.w	r6, #0
	mov	r8, r4
	mov	r0, r1
	mov	r4, r10
	it	ls
	movls	r6, #1
	cmp.w	r10, #0
.Lm_PC20_3:
	add	r5, pc
	it	ne
	movne	r4, #1
	bl	__tls_get_addr
	ldr	r1, .Lm_CPI20_2
	mov	r2, r5
	tst	r4, r6
	it	ne
	addne.w	r2, r10, r8
.Lm_PC20_2:
	add	r1, pc
	str	r2, [r0]
	it	ne
	addne.w	r5, r10, r7
	mov	r0, r1
	bl	__tls_get_addr
	mov	r7, r0
	str	r5, [r0]
	ldr	r0, [sp, #8]
	mov	r1, r9
	ldrd	r2, r3, [sp, #12]
	str.w	r11, [sp]
	bl	tlsf_offsets_open
	cmp	r0, #5
	mov	r1, r0
	mov.w	r2, #0
	it	eq
	moveq	r1, #39
	tst	r4, r6
	str	r2, [r7]
	it	eq
	moveq	r0, r1
	add	sp, #20
	pop.w	{r4, r5, r6, r7, r8, r9, r10, r11, pc}
	.p2align	2
.Lm_CPI20_0:
.Lm_tmp28:
	.long	lent_step(TLSGD)-(.Lm_PC20_0+4-.Lm_tmp28)
.Lm_CPI20_1:
.Lm_tmp29:
	.long	lent_end(TLSGD)-(.Lm_PC20_1+4-.Lm_tmp29)
.Lm_CPI20_2:
.Lm_tmp30:
	.long	lent(TLSGD)-(.Lm_PC20_2+4-.Lm_tmp30)
.Lm_CPI20_3:
	.long	begin_behind.nothing-(.Lm_PC20_3+4)
.Lm_func_end20:
	.size	tlsf_offsets_open_in, .Lm_func_end20-tlsf_offsets_open_in
	.cfi_endproc
	.section	.text.tlsf_pools_bytes,"ax",%progbits
	.globl	tlsf_pools_bytes
	.p2align	1
	.type	tlsf_pools_bytes,%function
	.code	16
	.thumb_func
tlsf_pools_bytes:
	.cfi_startproc
	push	{r4, r5, r7, lr}
	.cfi_def_cfa_offset 16
	.cfi_offset lr, -4
	.cfi_offset r7, -8
	.cfi_offset r5, -12
	.cfi_offset r4, -16
	sub	sp, #16
	.cfi_def_cfa_offset 32
	mov	r4, r2
	add	r2, sp, #4
	add	r3, sp, #8
	movs	r5, #0
	str	r2, [sp]
	mov	r2, r4
	str	r5, [sp, #12]
	strd	r5, r5, [sp, #4]
	bl	tlsf_pools_words
	cbnz	r0, .Lm_BB21_2
	ldrd	r0, r1, [sp, #4]
	movw	r2, #2792
	add.w	r5, r4, r4, lsl #1
	mvn	r3, #7
	and.w	r3, r3, r1, lsr #3
	muls	r2, r0, r2
	add.w	r0, r0, r0, lsl #2
	lsls	r5, r5, #2
	add.w	r1, r5, r1, lsl #3
	add.w	r0, r1, r0, lsl #4
	add	r0, r3
	add.w	r1, r2, #23
	bic	r1, r1, #15
	add	r0, r1
	addw	r5, r0, #2783
.Lm_BB21_2:
	mov	r0, r5
	add	sp, #16
	pop	{r4, r5, r7, pc}
.Lm_func_end21:
	.size	tlsf_pools_bytes, .Lm_func_end21-tlsf_pools_bytes
	.cfi_endproc
	.section	.text.tlsf_pools_open_in,"ax",%progbits
	.globl	tlsf_pools_open_in
	.p2align	2
	.type	tlsf_pools_open_in,%function
	.code	16
	.thumb_func
tlsf_pools_open_in:
	.cfi_startproc
	push.w	{r4, r5, r6, r7, r8, r9, r10, r11, lr}
	.cfi_def_cfa_offset 36
	.cfi_offset lr, -4
	.cfi_offset r11, -8
	.cfi_offset r10, -12
	.cfi_offset r9, -16
	.cfi_offset r8, -20
	.cfi_offset r7, -24
	.cfi_offset r6, -28
	.cfi_offset r5, -32
	.cfi_offset r4, -36
	sub	sp, #12
	.cfi_def_cfa_offset 48
	mov	r10, r0
	ldr	r0, .Lm_CPI22_0
	strd	r2, r3, [sp, #4]
	mov	r11, r1
.Lm_PC22_0:
	add	r0, pc
	bl	__tls_get_addr
	ldrd	r4, r8, [sp, #52]
	movs	r2, #16
	ldr	r7, .Lm_CPI22_3
	movs	r6, #0
	ldr	r1, .Lm_CPI22_1
	str	r2, [r0]
	rsbs	r0, r4, #0
	and	r9, r0, #15
.Lm_PC22_1:
	add	r1, pc
	cmp	r9, r8
	it	hs
	movhs	r9, r8
	cmp	r4, #0
	mov	r5, r4
	mvn.w	r0, r4
	it	ne
	movne	r5, #1
	cmp	r8, r0
	mov	r0, r1
.Lm_PC22_3:
	add	r7, pc
	it	ls
	movls	r6, #1
	bl	__tls_get_addr
	ldr	r1, .Lm_CPI22_2
	mov	r2, r7
	tst	r5, r6
	it	ne
	addne.w	r2, r4, r8
.Lm_PC22_2:
	add	r1, pc
	str	r2, [r0]
	ldr.w	r8, [sp, #48]
	it	ne
	addne.w	r7, r4, r9
	mov	r0, r1
	bl	__tls_get_addr
	ldrd	r2, r3, [sp, #4]
	mov	r4, r0
	str	r7, [r0]
	mov	r0, r10
	mov	r1, r11
	str.w	r8, [sp]
	bl	tlsf_pools_open
	cmp	r0, #6
	it	eq
	moveq	r0, #5
	cmp	r0, #5
	mov	r1, r0
	mov.w	r2, #0
	it	eq
	moveq	r1, #39
	tst	r5, r6
	str	r2, [r4]
	it	eq
	moveq	r0, r1
	add	sp, #12
	pop.w	{r4, r5, r6, r7, r8, r9, r10, r11, pc}
	.p2align	2
.Lm_CPI22_0:
.Lm_tmp31:
	.long	lent_step(TLSGD)-(.Lm_PC22_0+4-.Lm_tmp31)
.Lm_CPI22_1:
.Lm_tmp32:
	.long	lent_end(TLSGD)-(.Lm_PC22_1+4-.Lm_tmp32)
.Lm_CPI22_2:
.Lm_tmp33:
	.long	lent(TLSGD)-(.Lm_PC22_2+4-.Lm_tmp33)
.Lm_CPI22_3:
	.long	begin_behind.nothing-(.Lm_PC22_3+4)
.Lm_func_end22:
	.size	tlsf_pools_open_in, .Lm_func_end22-tlsf_pools_open_in
	.cfi_endproc
	.section	.text.tlsf_next_number,"ax",%progbits
	.globl	tlsf_next_number
	.p2align	2
	.type	tlsf_next_number,%function
	.code	16
	.thumb_func
tlsf_next_number:
	.cfi_startproc
	push	{r4, r5, r6, lr}
	.cfi_def_cfa_offset 16
	.cfi_offset lr, -4
	.cfi_offset r6, -8
	.cfi_offset r5, -12
	.cfi_offset r4, -16
	ldr	r6, .Lm_CPI23_0
.Lm_PC23_0:
	add	r6, pc
.Lm_BB23_1:
	ldrexd	r1, r3, [r6]
	adds	r2, r1, #1
	adc	r4, r3, #0
	strexd	r5, r2, r4, [r6]
	cmp	r5, #0
	bne	.Lm_BB23_1
	lsls	r2, r3, #3
	mov.w	r3, #-2147483648
	orr.w	r2, r2, r1, lsr #29
	adds.w	r1, r3, r1, lsl #3
	adcs	r2, r2, #0
	itee	ne
	movne	r0, #2
	streq	r1, [r0]
	moveq	r0, #0
	pop	{r4, r5, r6, pc}
	.p2align	2
.Lm_CPI23_0:
	.long	tlsf_next_number.calls-(.Lm_PC23_0+4)
.Lm_func_end23:
	.size	tlsf_next_number, .Lm_func_end23-tlsf_next_number
	.cfi_endproc
	.type	tlsf_memory_alloc.nothing,%object
	.section	.bss.tlsf_memory_alloc.nothing,"aw",%nobits
	.p2align	3, 0x0
tlsf_memory_alloc.nothing:
	.long	0
	.long	0
	.size	tlsf_memory_alloc.nothing, 8
	.type	near_room,%object
	.section	.tbss.near_room,"awT",%nobits
	.p2align	2, 0x0
near_room:
	.long	0
	.size	near_room, 4
	.type	pieces_first,%object
	.section	.tbss.pieces_first,"awT",%nobits
	.p2align	2, 0x0
pieces_first:
	.long	0
	.size	pieces_first, 4
	.type	lent,%object
	.section	.tbss.lent,"awT",%nobits
	.p2align	2, 0x0
lent:
	.long	0
	.size	lent, 4
	.type	tlsf_next_number.calls,%object
	.section	.bss.tlsf_next_number.calls,"aw",%nobits
	.p2align	3, 0x0
tlsf_next_number.calls:
	.long	0
	.long	0
	.size	tlsf_next_number.calls, 8
	.type	lent_step,%object
	.section	.tbss.lent_step,"awT",%nobits
	.p2align	2, 0x0
lent_step:
	.long	0
	.size	lent_step, 4
	.type	lent_end,%object
	.section	.tbss.lent_end,"awT",%nobits
	.p2align	2, 0x0
lent_end:
	.long	0
	.size	lent_end, 4
	.type	begin_behind.nothing,%object
	.section	.bss.begin_behind.nothing,"aw",%nobits
begin_behind.nothing:
	.byte	0
	.size	begin_behind.nothing, 1
	.ident	"clang version 22.1.8"
	.section	".note.GNU-stack","",%progbits
#else
	.syntax	unified
	.eabi_attribute	24, 1
	.eabi_attribute	25, 1
	.section	.text.tlsf_memory_alloc,"ax",%progbits
	.hidden	tlsf_memory_alloc
	.globl	tlsf_memory_alloc
	.p2align	2
	.type	tlsf_memory_alloc,%function
	.code	16
	.thumb_func
tlsf_memory_alloc:
	.cfi_sections .debug_frame
	.cfi_startproc
	push.w	{r4, r5, r6, r7, r8, r9, r10, lr}
	.cfi_def_cfa_offset 32
	.cfi_offset lr, -4
	.cfi_offset r10, -8
	.cfi_offset r9, -12
	.cfi_offset r8, -16
	.cfi_offset r7, -20
	.cfi_offset r6, -24
	.cfi_offset r5, -28
	.cfi_offset r4, -32
	mov	r5, r1
	mov	r4, r0
	mov.w	r9, #0
	movs	r1, #0
	cmp	r2, #8
	bhi	.Lm_BB0_12
	ldr	r0, .Lm_CPI0_0
.Lm_PC0_0:
	add	r0, pc
	bl	__tls_get_addr
	ldr	r6, [r0]
	cbz	r6, .Lm_BB0_3
	ldr	r0, .Lm_CPI0_1
.Lm_PC0_1:
	add	r0, pc
	bl	__tls_get_addr
	ldr	r1, [r0]
	subs	r2, r1, #1
	str	r2, [r0]
	cbz	r1, .Lm_BB0_9
.Lm_BB0_3:
	ldr	r0, .Lm_CPI0_2
.Lm_PC0_2:
	add	r0, pc
	bl	__tls_get_addr
	ldr	r7, [r0]
	cbz	r7, .Lm_BB0_7
	mov	r6, r0
	ldr	r0, .Lm_CPI0_3
.Lm_PC0_3:
	add	r0, pc
	bl	__tls_get_addr
	ldr	r1, [r0]
	adds	r0, r5, r1
	add.w	r10, r0, #7
	mov	r0, r10
	bl	__aeabi_uidivmod
	cmp.w	r5, #268435456
	bhi	.Lm_BB0_8
	ldr	r0, .Lm_CPI0_4
	mov	r8, r1
.Lm_PC0_4:
	add	r0, pc
	bl	__tls_get_addr
	ldr	r0, [r0]
	add.w	r3, r5, #8
	movs	r1, #0
	subs	r2, r0, r7
	cmp	r3, r2
	bhi	.Lm_BB0_12
	add.w	r5, r7, #8
	sub.w	r3, r10, r8
	strd	r1, r1, [r7]
	cmp	r3, r2
	it	lo
	addlo	r0, r7, r3
	str	r0, [r6]
	mov	r1, r5
	b	.Lm_BB0_12
.Lm_BB0_7:
	cmp.w	r5, #268435456
	bls	.Lm_BB0_10
.Lm_BB0_8:
	movs	r1, #0
	b	.Lm_BB0_12
.Lm_BB0_9:
	movs	r1, #0
	movw	r0, #2776
	cmp	r5, r0
	itt	ls
	strdls	r1, r1, [r6]
	addls.w	r1, r6, #8
	b	.Lm_BB0_12
.Lm_BB0_10:
	ldr	r0, .Lm_CPI0_5
.Lm_PC0_5:
	add	r0, pc
	bl	__tls_get_addr
	mov	r6, r0
	ldr	r0, [r0]
	add	r0, r5
	adds	r0, #135
	orr	r0, r0, #127
	bl	malloc
	movs	r1, #0
	cbz	r0, .Lm_BB0_12
	rsbs	r3, r0, #0
	ldr	r2, [r6]
	and	r3, r3, #127
	str	r1, [r6]
	add	r3, r0
	str	r0, [r3, r2]
	adds	r0, r3, r2
	str	r1, [r0, #4]
	add.w	r1, r0, #8
.Lm_BB0_12:
	ldr	r0, .Lm_CPI0_6
	mov	r2, r1
	cmp	r1, #0
.Lm_PC0_6:
	add	r0, pc
	itt	ne
	movne	r2, #1
	movne	r0, r1
	strd	r2, r9, [r4]
	strd	r0, r9, [r4, #8]
	pop.w	{r4, r5, r6, r7, r8, r9, r10, pc}
	.p2align	2
.Lm_CPI0_0:
.Lm_tmp0:
	.long	near_room(TLSGD)-(.Lm_PC0_0+4-.Lm_tmp0)
.Lm_CPI0_1:
.Lm_tmp1:
	.long	pieces_first(TLSGD)-(.Lm_PC0_1+4-.Lm_tmp1)
.Lm_CPI0_2:
.Lm_tmp2:
	.long	lent(TLSGD)-(.Lm_PC0_2+4-.Lm_tmp2)
.Lm_CPI0_3:
.Lm_tmp3:
	.long	lent_step(TLSGD)-(.Lm_PC0_3+4-.Lm_tmp3)
.Lm_CPI0_4:
.Lm_tmp4:
	.long	lent_end(TLSGD)-(.Lm_PC0_4+4-.Lm_tmp4)
.Lm_CPI0_5:
.Lm_tmp5:
	.long	front(TLSGD)-(.Lm_PC0_5+4-.Lm_tmp5)
.Lm_CPI0_6:
	.long	tlsf_memory_alloc.nothing-(.Lm_PC0_6+4)
.Lm_func_end0:
	.size	tlsf_memory_alloc, .Lm_func_end0-tlsf_memory_alloc
	.cfi_endproc
	.section	.text.tlsf_memory_dealloc,"ax",%progbits
	.hidden	tlsf_memory_dealloc
	.globl	tlsf_memory_dealloc
	.p2align	1
	.type	tlsf_memory_dealloc,%function
	.code	16
	.thumb_func
tlsf_memory_dealloc:
	.cfi_startproc
	ldrd	r0, r1, [r0, #-8]
	orrs	r1, r0
	it	eq
	bxeq	lr
	b	free
.Lm_func_end1:
	.size	tlsf_memory_dealloc, .Lm_func_end1-tlsf_memory_dealloc
	.cfi_endproc
	.section	.text.tlsf_memory_realloc,"ax",%progbits
	.hidden	tlsf_memory_realloc
	.globl	tlsf_memory_realloc
	.p2align	1
	.type	tlsf_memory_realloc,%function
	.code	16
	.thumb_func
tlsf_memory_realloc:
	.cfi_startproc
	push	{r4, r5, r6, lr}
	.cfi_def_cfa_offset 16
	.cfi_offset lr, -4
	.cfi_offset r6, -8
	.cfi_offset r5, -12
	.cfi_offset r4, -16
	mov	r5, r2
	ldr	r2, [sp, #16]
	mov	r4, r1
	mov	r1, r3
	mov	r6, r0
	bl	tlsf_memory_alloc
	ldrd	r0, r1, [r6]
	orrs	r0, r1
	beq	.Lm_BB2_2
	ldr	r0, [r6, #8]
	mov	r1, r4
	mov	r2, r5
	bl	memcpy
	ldrd	r0, r1, [r4, #-8]
	orrs	r1, r0
	it	ne
	blne	free
.Lm_BB2_2:
	pop	{r4, r5, r6, pc}
.Lm_func_end2:
	.size	tlsf_memory_realloc, .Lm_func_end2-tlsf_memory_realloc
	.cfi_endproc
	.section	.text.tlsf_memory_set,"ax",%progbits
	.hidden	tlsf_memory_set
	.weak	tlsf_memory_set
	.p2align	1
	.type	tlsf_memory_set,%function
	.code	16
	.thumb_func
tlsf_memory_set:
	.cfi_startproc
	cmp	r1, #0
	bne.w	.Lm_BB3_13
	cmp.w	r2, #512
	it	hi
	bhi	memset
.Lm_BB3_2:
	add.w	r1, r0, #16
	cmp.w	r2, #256
	bls.w	.Lm_BB3_4
	add	r2, r0
	movs	r3, #0
	str	r3, [r0, #12]
	str	r3, [r0, #8]
	str	r3, [r0, #4]
	str	r3, [r0]
	str	r3, [r2, #-4]
	str	r3, [r2, #-16]
	str	r3, [r2, #-12]
	str	r3, [r2, #-8]
	str	r3, [r1, #12]
	str	r3, [r1]
	str	r3, [r1, #4]
	str	r3, [r1, #8]
	str	r3, [r2, #-20]
	str	r3, [r2, #-32]
	str	r3, [r2, #-28]
	str	r3, [r2, #-24]
	str	r3, [r1, #28]
	str	r3, [r1, #16]
	str	r3, [r1, #20]
	str	r3, [r1, #24]
	str	r3, [r2, #-36]
	str	r3, [r2, #-48]
	str	r3, [r2, #-44]
	str	r3, [r2, #-40]
	str	r3, [r1, #44]
	str	r3, [r1, #32]
	str	r3, [r1, #36]
	str	r3, [r1, #40]
	str	r3, [r2, #-52]
	str	r3, [r2, #-64]
	str	r3, [r2, #-60]
	str	r3, [r2, #-56]
	str	r3, [r1, #60]
	str	r3, [r1, #48]
	str	r3, [r1, #52]
	str	r3, [r1, #56]
	str	r3, [r2, #-68]
	str	r3, [r2, #-80]
	str	r3, [r2, #-76]
	str	r3, [r2, #-72]
	str	r3, [r1, #76]
	str	r3, [r1, #64]
	str	r3, [r1, #68]
	str	r3, [r1, #72]
	str	r3, [r2, #-84]
	str	r3, [r2, #-96]
	str	r3, [r2, #-92]
	str	r3, [r2, #-88]
	str	r3, [r1, #92]
	str	r3, [r1, #80]
	str	r3, [r1, #84]
	str	r3, [r1, #88]
	str	r3, [r2, #-100]
	str	r3, [r2, #-112]
	str	r3, [r2, #-108]
	str	r3, [r2, #-104]
	str	r3, [r1, #108]
	str	r3, [r1, #96]
	str	r3, [r1, #100]
	str	r3, [r1, #104]
	str	r3, [r2, #-116]
	str	r3, [r2, #-128]
	str	r3, [r2, #-124]
	str	r3, [r2, #-120]
	str	r3, [r1, #124]
	str	r3, [r1, #112]
	str	r3, [r1, #116]
	str	r3, [r1, #120]
	str	r3, [r2, #-132]
	str	r3, [r2, #-144]
	str	r3, [r2, #-140]
	str	r3, [r2, #-136]
	str.w	r3, [r1, #140]
	str.w	r3, [r1, #128]
	str.w	r3, [r1, #132]
	str.w	r3, [r1, #136]
	str	r3, [r2, #-148]
	str	r3, [r2, #-160]
	str	r3, [r2, #-156]
	str	r3, [r2, #-152]
	str.w	r3, [r1, #156]
	str.w	r3, [r1, #144]
	str.w	r3, [r1, #148]
	str.w	r3, [r1, #152]
	str	r3, [r2, #-164]
	str	r3, [r2, #-176]
	str	r3, [r2, #-172]
	str	r3, [r2, #-168]
	str.w	r3, [r1, #172]
	str.w	r3, [r1, #160]
	str.w	r3, [r1, #164]
	str.w	r3, [r1, #168]
	str	r3, [r2, #-180]
	str	r3, [r2, #-192]
	str	r3, [r2, #-188]
	str	r3, [r2, #-184]
	str.w	r3, [r1, #188]
	str.w	r3, [r1, #176]
	str.w	r3, [r1, #180]
	str.w	r3, [r1, #184]
	str	r3, [r2, #-196]
	str	r3, [r2, #-208]
	str	r3, [r2, #-204]
	str	r3, [r2, #-200]
	str.w	r3, [r1, #204]
	str.w	r3, [r1, #192]
	str.w	r3, [r1, #196]
	str.w	r3, [r1, #200]
	str	r3, [r2, #-212]
	str	r3, [r2, #-224]
	str	r3, [r2, #-220]
	str	r3, [r2, #-216]
	str.w	r3, [r1, #220]
	str.w	r3, [r1, #208]
	str.w	r3, [r1, #212]
	str.w	r3, [r1, #216]
	str	r3, [r2, #-228]
	str	r3, [r2, #-240]
	str	r3, [r2, #-236]
	str	r3, [r2, #-232]
	str.w	r3, [r1, #236]
	str.w	r3, [r1, #224]
	str.w	r3, [r1, #228]
	str.w	r3, [r1, #232]
	mvn	r1, #255
	str	r3, [r2, r1]
	str	r3, [r2, #-248]
	str	r3, [r2, #-244]
	str	r3, [r2, #-252]
	bx	lr
.Lm_BB3_4:
	cmp	r2, #129
	blo	.Lm_BB3_6
	add	r2, r0
	movs	r3, #0
	str	r3, [r0, #12]
	str	r3, [r0, #8]
	str	r3, [r0, #4]
	str	r3, [r0]
	str	r3, [r2, #-4]
	str	r3, [r2, #-16]
	str	r3, [r2, #-12]
	str	r3, [r2, #-8]
	str	r3, [r1, #12]
	str	r3, [r1]
	str	r3, [r1, #4]
	str	r3, [r1, #8]
	str	r3, [r2, #-20]
	str	r3, [r2, #-32]
	str	r3, [r2, #-28]
	str	r3, [r2, #-24]
	str	r3, [r1, #28]
	str	r3, [r1, #16]
	str	r3, [r1, #20]
	str	r3, [r1, #24]
	str	r3, [r2, #-36]
	str	r3, [r2, #-48]
	str	r3, [r2, #-44]
	str	r3, [r2, #-40]
	str	r3, [r1, #44]
	str	r3, [r1, #32]
	str	r3, [r1, #36]
	str	r3, [r1, #40]
	str	r3, [r2, #-52]
	str	r3, [r2, #-64]
	str	r3, [r2, #-60]
	str	r3, [r2, #-56]
	str	r3, [r1, #60]
	str	r3, [r1, #48]
	str	r3, [r1, #52]
	str	r3, [r1, #56]
	str	r3, [r2, #-68]
	str	r3, [r2, #-80]
	str	r3, [r2, #-76]
	str	r3, [r2, #-72]
	str	r3, [r1, #76]
	str	r3, [r1, #64]
	str	r3, [r1, #68]
	str	r3, [r1, #72]
	str	r3, [r2, #-84]
	str	r3, [r2, #-96]
	str	r3, [r2, #-92]
	str	r3, [r2, #-88]
	str	r3, [r1, #92]
	str	r3, [r1, #80]
	str	r3, [r1, #84]
	str	r3, [r1, #88]
	str	r3, [r2, #-100]
	str	r3, [r2, #-112]
	str	r3, [r2, #-108]
	str	r3, [r2, #-104]
	str	r3, [r1, #108]
	str	r3, [r1, #96]
	str	r3, [r1, #100]
	str	r3, [r1, #104]
	str	r3, [r2, #-120]
	str	r3, [r2, #-116]
	str	r3, [r2, #-128]
	str	r3, [r2, #-124]
	bx	lr
.Lm_BB3_6:
	cmp	r2, #65
	blo	.Lm_BB3_8
	add	r2, r0
	movs	r3, #0
	str	r3, [r0, #12]
	str	r3, [r0, #8]
	str	r3, [r0, #4]
	str	r3, [r0]
	str	r3, [r2, #-4]
	str	r3, [r2, #-16]
	str	r3, [r2, #-12]
	str	r3, [r2, #-8]
	str	r3, [r1, #12]
	str	r3, [r1]
	str	r3, [r1, #4]
	str	r3, [r1, #8]
	str	r3, [r2, #-20]
	str	r3, [r2, #-32]
	str	r3, [r2, #-28]
	str	r3, [r2, #-24]
	str	r3, [r1, #28]
	str	r3, [r1, #16]
	str	r3, [r1, #20]
	str	r3, [r1, #24]
	str	r3, [r2, #-36]
	str	r3, [r2, #-48]
	str	r3, [r2, #-44]
	str	r3, [r2, #-40]
	str	r3, [r1, #44]
	str	r3, [r1, #32]
	str	r3, [r1, #36]
	str	r3, [r1, #40]
	str	r3, [r2, #-56]
	str	r3, [r2, #-52]
	str	r3, [r2, #-64]
	str	r3, [r2, #-60]
	bx	lr
.Lm_BB3_8:
	cmp	r2, #33
	blo	.Lm_BB3_10
	add	r2, r0
	movs	r3, #0
	str	r3, [r0, #12]
	str	r3, [r0, #8]
	str	r3, [r0, #4]
	str	r3, [r0]
	str	r3, [r2, #-4]
	str	r3, [r2, #-16]
	str	r3, [r2, #-12]
	str	r3, [r2, #-8]
	str	r3, [r1, #12]
	str	r3, [r1]
	str	r3, [r1, #4]
	str	r3, [r1, #8]
	str	r3, [r2, #-24]
	str	r3, [r2, #-20]
	str	r3, [r2, #-32]
	str	r3, [r2, #-28]
	bx	lr
.Lm_BB3_10:
	movs	r1, #0
	cmp	r2, #17
	blo	.Lm_BB3_12
	add	r2, r0
	str	r1, [r0, #12]
	str	r1, [r0, #8]
	str	r1, [r0, #4]
	str	r1, [r0]
	str	r1, [r2, #-8]
	str	r1, [r2, #-4]
	str	r1, [r2, #-16]
	str	r1, [r2, #-12]
	bx	lr
.Lm_BB3_12:
	cmp	r2, #7
	bhi	.Lm_BB3_14
.Lm_BB3_13:
	b	memset
.Lm_BB3_14:
	add	r2, r0
	str	r1, [r0, #4]
	str	r1, [r0]
	str	r1, [r2, #-4]
	str	r1, [r2, #-8]
	bx	lr
.Lm_func_end3:
	.size	tlsf_memory_set, .Lm_func_end3-tlsf_memory_set
	.cfi_endproc
	.section	.text.tlsf_memory_cpy,"ax",%progbits
	.hidden	tlsf_memory_cpy
	.weak	tlsf_memory_cpy
	.p2align	1
	.type	tlsf_memory_cpy,%function
	.code	16
	.thumb_func
tlsf_memory_cpy:
	.cfi_startproc
	b	memcpy
.Lm_func_end4:
	.size	tlsf_memory_cpy, .Lm_func_end4-tlsf_memory_cpy
	.cfi_endproc
	.section	.text.tlsf_memory_move,"ax",%progbits
	.hidden	tlsf_memory_move
	.weak	tlsf_memory_move
	.p2align	1
	.type	tlsf_memory_move,%function
	.code	16
	.thumb_func
tlsf_memory_move:
	.cfi_startproc
	b	memmove
.Lm_func_end5:
	.size	tlsf_memory_move, .Lm_func_end5-tlsf_memory_move
	.cfi_endproc
	.section	.text.tlsf_bytes,"ax",%progbits
	.globl	tlsf_bytes
	.p2align	1
	.type	tlsf_bytes,%function
	.code	16
	.thumb_func
tlsf_bytes:
	.cfi_startproc
	mov	r2, r0
	movs	r0, #0
	cmp	r1, #4
	blo	.Lm_BB6_3
	cmp	r2, #5
	mov.w	r3, #0
	it	eq
	moveq.w	r3, #16777216
	cmp	r2, #4
	it	eq
	moveq.w	r3, #1048576
	cmp	r1, r3
	it	hi
	bxhi	lr
.Lm_BB6_2:
	add.w	r0, r1, #63
	movs	r2, #16
	add.w	r0, r2, r0, lsr #3
	bic	r0, r0, #15
	add.w	r0, r0, r1, lsl #3
	addw	r0, r0, #2791
	orr	r0, r0, #15
.Lm_BB6_3:
	bx	lr
.Lm_func_end6:
	.size	tlsf_bytes, .Lm_func_end6-tlsf_bytes
	.cfi_endproc
	.section	.text.tlsf_near_bytes,"ax",%progbits
	.globl	tlsf_near_bytes
	.p2align	1
	.type	tlsf_near_bytes,%function
	.code	16
	.thumb_func
tlsf_near_bytes:
	.cfi_startproc
	mov	r2, r0
	movs	r0, #0
	cmp	r1, #4
	blo	.Lm_BB7_3
	cmp	r2, #5
	mov.w	r3, #0
	it	eq
	moveq.w	r3, #16777216
	cmp	r2, #4
	it	eq
	moveq.w	r3, #1048576
	cmp	r1, r3
	it	hi
	bxhi	lr
.Lm_BB7_2:
	add.w	r0, r1, #63
	mvn	r2, #7
	and.w	r0, r2, r0, lsr #3
	movs	r2, #23
	add.w	r1, r2, r1, lsl #3
	bic	r1, r1, #15
	add	r0, r1
	adds	r0, #23
.Lm_BB7_3:
	bx	lr
.Lm_func_end7:
	.size	tlsf_near_bytes, .Lm_func_end7-tlsf_near_bytes
	.cfi_endproc
	.section	.text.tlsf_open_in,"ax",%progbits
	.globl	tlsf_open_in
	.p2align	2
	.type	tlsf_open_in,%function
	.code	16
	.thumb_func
tlsf_open_in:
	.cfi_startproc
	push.w	{r4, r5, r6, r7, r8, r9, r10, r11, lr}
	.cfi_def_cfa_offset 36
	.cfi_offset lr, -4
	.cfi_offset r11, -8
	.cfi_offset r10, -12
	.cfi_offset r9, -16
	.cfi_offset r8, -20
	.cfi_offset r7, -24
	.cfi_offset r6, -28
	.cfi_offset r5, -32
	.cfi_offset r4, -36
	sub	sp, #12
	.cfi_def_cfa_offset 48
	ldrb.w	r10, [r0, #29]
	mov	r9, r3
	mov	r7, r0
	strd	r2, r1, [sp, #4]
	cmp.w	r10, #0
	beq	.Lm_BB8_4
	sub.w	r0, r10, #65
	cmn.w	r0, #57
	blo	.Lm_BB8_3
	cmp.w	r10, #16
	mov	r1, r10
	add.w	r0, r10, #127
	it	ls
	movls	r1, #16
	tst.w	r0, r10
	beq	.Lm_BB8_5
.Lm_BB8_3:
	movs	r5, #0
	b	.Lm_BB8_6
.Lm_BB8_4:
	movs	r1, #16
.Lm_BB8_5:
	mvn	r0, #31
	sub.w	r0, r0, r9
	bl	__aeabi_uidivmod
	mov	r5, r1
.Lm_BB8_6:
	ldr.w	r11, [sp, #48]
	mvn.w	r6, r9
	mov.w	r8, #0
	cmp.w	r9, #0
	beq	.Lm_BB8_13
	cmp	r11, r6
	bhi	.Lm_BB8_13
	movs	r2, #0
	cmp	r11, r5
	blo	.Lm_BB8_14
	ldr	r1, [sp, #8]
	movs	r0, #0
	cmp	r1, #5
	it	eq
	moveq.w	r0, #16777216
	cmp	r1, #4
	sub.w	r1, r11, r5
	it	eq
	moveq.w	r0, #1048576
	cmp.w	r1, #2832
	blo	.Lm_BB8_14
	movw	r2, #43136
	cmp.w	r1, #268435456
	movt	r2, #65535
	movw	r3, #49405
	it	hs
	movhs.w	r1, #268435456
	add.w	r2, r2, r1, lsl #3
	movt	r3, #64527
	mov	lr, r6
	umull	r2, r3, r2, r3
	movs	r6, #87
	movs	r2, #71
	mov	r12, r7
	add.w	r2, r2, r3, lsr #6
	lsrs	r3, r3, #6
	add.w	r3, r6, r3, lsl #3
	movs	r6, #16
.Lm_BB8_11:
	add.w	r4, r6, r2, lsr #3
	bic	r7, r3, #15
	bic	r4, r4, #15
	subs	r3, #8
	add	r7, r4
	subs	r2, #1
	add.w	r7, r7, #2768
	cmp	r7, r1
	bhi	.Lm_BB8_11
	sub.w	r1, r2, #62
	mov	r7, r12
	cmp	r1, r0
	it	lo
	movlo	r0, r1
	mov	r2, r0
	mov	r6, lr
	b	.Lm_BB8_14
.Lm_BB8_13:
	movs	r2, #0
.Lm_BB8_14:
	ldr	r0, .Lm_CPI8_0
	str	r2, [sp]
.Lm_PC8_0:
	add	r0, pc
	bl	__tls_get_addr
	ldr	r1, .Lm_CPI8_1
	movs	r2, #16
	ldr	r4, .Lm_CPI8_4
	cmp	r11, r6
	str	r2, [r0]
.Lm_PC8_1:
	add	r1, pc
	mov	r0, r9
	it	ls
	movls.w	r8, #1
	cmp.w	r9, #0
	it	ne
	movne	r0, #1
	and.w	r6, r0, r8
	mov	r0, r1
	cmp	r5, r11
.Lm_PC8_4:
	add	r4, pc
	it	hs
	movhs	r5, r11
	bl	__tls_get_addr
	mov	r1, r4
	cmp	r6, #0
	it	ne
	addne.w	r1, r9, r11
	str	r1, [r0]
	ldr	r0, .Lm_CPI8_3
	it	ne
	addne.w	r4, r9, r5
.Lm_PC8_3:
	add	r0, pc
	bl	__tls_get_addr
	mov	r5, r0
	cmp.w	r10, #0
	str	r4, [r0]
	beq	.Lm_BB8_17
	sub.w	r0, r10, #65
	movs	r3, #0
	cmn.w	r0, #57
	blo	.Lm_BB8_18
	add.w	r0, r10, #127
	tst.w	r0, r10
	ldr	r0, [sp]
	it	eq
	moveq	r3, r0
	b	.Lm_BB8_18
.Lm_BB8_17:
	ldr	r3, [sp]
.Lm_BB8_18:
	ldrd	r2, r1, [sp, #4]
	mov	r0, r7
	bl	tlsf_open
	cbz	r0, .Lm_BB8_20
	subs	r2, r0, #5
	movs	r1, #0
	clz	r2, r2
	str	r1, [r5]
	mvns	r1, r6
	lsrs	r2, r2, #5
	tst	r1, r2
	it	ne
	movne	r0, #39
	add	sp, #12
	pop.w	{r4, r5, r6, r7, r8, r9, r10, r11, pc}
.Lm_BB8_20:
	ldrb	r1, [r7, #29]
	tst.w	r1, #247
	itt	ne
	movne	r1, #1
	strbne	r1, [r7, #28]
	movs	r1, #0
	str	r1, [r5]
	add	sp, #12
	pop.w	{r4, r5, r6, r7, r8, r9, r10, r11, pc}
	.p2align	2
.Lm_CPI8_0:
.Lm_tmp6:
	.long	lent_step(TLSGD)-(.Lm_PC8_0+4-.Lm_tmp6)
.Lm_CPI8_1:
.Lm_tmp7:
	.long	lent_end(TLSGD)-(.Lm_PC8_1+4-.Lm_tmp7)
.Lm_CPI8_3:
.Lm_tmp8:
	.long	lent(TLSGD)-(.Lm_PC8_3+4-.Lm_tmp8)
.Lm_CPI8_4:
	.long	begin_behind.nothing-(.Lm_PC8_4+4)
.Lm_func_end8:
	.size	tlsf_open_in, .Lm_func_end8-tlsf_open_in
	.cfi_endproc
	.section	.text.tlsf_open_near,"ax",%progbits
	.globl	tlsf_open_near
	.p2align	2
	.type	tlsf_open_near,%function
	.code	16
	.thumb_func
tlsf_open_near:
	.cfi_startproc
	push.w	{r4, r5, r6, r7, r8, r9, r10, r11, lr}
	.cfi_def_cfa_offset 36
	.cfi_offset lr, -4
	.cfi_offset r11, -8
	.cfi_offset r10, -12
	.cfi_offset r9, -16
	.cfi_offset r8, -20
	.cfi_offset r7, -24
	.cfi_offset r6, -28
	.cfi_offset r5, -32
	.cfi_offset r4, -36
	sub	sp, #4
	.cfi_def_cfa_offset 40
	mov	r4, r0
	ldr	r0, .Lm_CPI9_0
	mov	r8, r3
	mov	r9, r2
.Lm_PC9_0:
	add	r0, pc
	mov	r10, r1
	bl	__tls_get_addr
	ldr	r1, .Lm_CPI9_1
	movs	r2, #2
	str	r2, [r0]
	rsbs	r0, r4, #0
.Lm_PC9_1:
	add	r1, pc
	and	r0, r0, #63
	add	r4, r0
	mov	r0, r1
	add.w	r5, r4, #32
	bl	__tls_get_addr
	str	r5, [r0]
	mov	r11, r0
	ldrb	r0, [r4, #29]
	lsls	r1, r0, #24
	beq	.Lm_BB9_3
	sub.w	r1, r0, #65
	uxtb	r1, r1
	cmp	r1, #199
	bhs	.Lm_BB9_4
	movs	r5, #0
	movs	r7, #0
	b	.Lm_BB9_7
.Lm_BB9_3:
	movs	r5, #0
	b	.Lm_BB9_6
.Lm_BB9_4:
	add.w	r1, r0, #127
	movs	r5, #0
	ands	r1, r0
	movs	r7, #0
	lsls	r1, r1, #24
	bne	.Lm_BB9_7
	uxtb	r0, r0
	cmp	r0, #64
	it	eq
	moveq	r5, #32
.Lm_BB9_6:
	mov	r7, r8
.Lm_BB9_7:
	ldr	r0, .Lm_CPI9_2
.Lm_PC9_2:
	add	r0, pc
	bl	__tls_get_addr
	mov	r6, r0
	str	r5, [r0]
	mov	r0, r4
	mov	r1, r10
	mov	r2, r9
	mov	r3, r7
	bl	tlsf_open
	cbnz	r0, .Lm_BB9_9
	ldrb	r1, [r4, #29]
	tst.w	r1, #247
	itt	ne
	movne	r1, #1
	strbne	r1, [r4, #28]
.Lm_BB9_9:
	movs	r1, #0
	str.w	r1, [r11]
	str	r1, [r6]
	add	sp, #4
	pop.w	{r4, r5, r6, r7, r8, r9, r10, r11, pc}
	.p2align	2
.Lm_CPI9_0:
.Lm_tmp9:
	.long	pieces_first(TLSGD)-(.Lm_PC9_0+4-.Lm_tmp9)
.Lm_CPI9_1:
.Lm_tmp10:
	.long	near_room(TLSGD)-(.Lm_PC9_1+4-.Lm_tmp10)
.Lm_CPI9_2:
.Lm_tmp11:
	.long	front(TLSGD)-(.Lm_PC9_2+4-.Lm_tmp11)
.Lm_func_end9:
	.size	tlsf_open_near, .Lm_func_end9-tlsf_open_near
	.cfi_endproc
	.section	.text.tlsf_open_near_in,"ax",%progbits
	.globl	tlsf_open_near_in
	.p2align	2
	.type	tlsf_open_near_in,%function
	.code	16
	.thumb_func
tlsf_open_near_in:
	.cfi_startproc
	push.w	{r4, r5, r6, r7, r8, r9, r10, r11, lr}
	.cfi_def_cfa_offset 36
	.cfi_offset lr, -4
	.cfi_offset r11, -8
	.cfi_offset r10, -12
	.cfi_offset r9, -16
	.cfi_offset r8, -20
	.cfi_offset r7, -24
	.cfi_offset r6, -28
	.cfi_offset r5, -32
	.cfi_offset r4, -36
	sub	sp, #20
	.cfi_def_cfa_offset 56
	mov	r4, r0
	ldr	r0, .Lm_CPI10_0
	mov	r10, r3
	str	r2, [sp, #8]
.Lm_PC10_0:
	add	r0, pc
	str	r1, [sp, #16]
	bl	__tls_get_addr
	ldr	r1, .Lm_CPI10_1
	movs	r2, #2
	str	r2, [r0]
	rsbs	r0, r4, #0
.Lm_PC10_1:
	add	r1, pc
	and	r0, r0, #63
	adds	r5, r4, r0
	mov	r0, r1
	add.w	r4, r5, #32
	bl	__tls_get_addr
	str	r4, [r0]
	ldrb.w	r11, [r5, #29]
	str	r0, [sp, #4]
	cmp.w	r11, #0
	beq	.Lm_BB10_4
	sub.w	r0, r11, #65
	cmn.w	r0, #57
	blo	.Lm_BB10_3
	cmp.w	r11, #16
	mov	r1, r11
	add.w	r0, r11, #127
	it	ls
	movls	r1, #16
	tst.w	r0, r11
	beq	.Lm_BB10_5
.Lm_BB10_3:
	movs	r4, #0
	b	.Lm_BB10_6
.Lm_BB10_4:
	movs	r1, #16
.Lm_BB10_5:
	mvn	r0, #31
	sub.w	r0, r0, r10
	bl	__aeabi_uidivmod
	mov	r4, r1
.Lm_BB10_6:
	ldr.w	r8, [sp, #56]
	mvn.w	r7, r10
	mov.w	r9, #0
	cmp.w	r10, #0
	str	r5, [sp, #12]
	beq	.Lm_BB10_13
	cmp	r8, r7
	bhi	.Lm_BB10_13
	movs	r6, #0
	cmp	r8, r4
	blo	.Lm_BB10_14
	ldr	r1, [sp, #16]
	movs	r0, #0
	cmp	r1, #5
	it	eq
	moveq.w	r0, #16777216
	cmp	r1, #4
	sub.w	r1, r8, r4
	it	eq
	moveq.w	r0, #1048576
	cmp	r1, #64
	blo	.Lm_BB10_14
	mvn	r2, #191
	cmp.w	r1, #268435456
	movw	r3, #49405
	it	hs
	movhs.w	r1, #268435456
	add.w	r2, r2, r1, lsl #3
	movt	r3, #64527
	mov	lr, r7
	movs	r7, #87
	umull	r2, r3, r2, r3
	movs	r2, #71
	add.w	r2, r2, r3, lsr #6
	lsrs	r3, r3, #6
	add.w	r3, r7, r3, lsl #3
	mvn	r7, #7
.Lm_BB10_11:
	and.w	r5, r7, r2, lsr #3
	bic	r6, r3, #15
	add	r6, r5
	subs	r3, #8
	subs	r2, #1
	adds	r6, #8
	cmp	r6, r1
	bhi	.Lm_BB10_11
	sub.w	r1, r2, #62
	mov	r7, lr
	cmp	r1, r0
	it	lo
	movlo	r0, r1
	mov	r6, r0
	b	.Lm_BB10_14
.Lm_BB10_13:
	movs	r6, #0
.Lm_BB10_14:
	ldr	r0, .Lm_CPI10_2
.Lm_PC10_2:
	add	r0, pc
	bl	__tls_get_addr
	ldr	r1, .Lm_CPI10_3
	movs	r2, #16
	ldr	r5, .Lm_CPI10_6
	cmp	r8, r7
	str	r2, [r0]
.Lm_PC10_3:
	add	r1, pc
	mov	r0, r10
	it	ls
	movls.w	r9, #1
	cmp.w	r10, #0
	it	ne
	movne	r0, #1
	and.w	r7, r0, r9
	mov	r0, r1
	cmp	r4, r8
.Lm_PC10_6:
	add	r5, pc
	it	hs
	movhs	r4, r8
	bl	__tls_get_addr
	mov	r1, r5
	cmp	r7, #0
	it	ne
	addne.w	r1, r10, r8
	str	r1, [r0]
	ldr	r0, .Lm_CPI10_5
	it	ne
	addne.w	r5, r10, r4
.Lm_PC10_5:
	add	r0, pc
	bl	__tls_get_addr
	mov	r4, r0
	cmp.w	r11, #0
	str	r5, [r0]
	beq	.Lm_BB10_17
	ldr	r5, [sp, #12]
	sub.w	r0, r11, #65
	movs	r3, #0
	cmn.w	r0, #57
	blo	.Lm_BB10_18
	add.w	r0, r11, #127
	tst.w	r0, r11
	it	eq
	moveq	r3, r6
	b	.Lm_BB10_18
.Lm_BB10_17:
	mov	r3, r6
	ldr	r5, [sp, #12]
.Lm_BB10_18:
	ldr	r1, [sp, #16]
	mov	r0, r5
	ldr	r2, [sp, #8]
	bl	tlsf_open
	cbz	r0, .Lm_BB10_20
	subs	r2, r0, #5
	movs	r1, #0
	clz	r2, r2
	str	r1, [r4]
	mvns	r1, r7
	lsrs	r2, r2, #5
	tst	r1, r2
	it	ne
	movne	r0, #39
	b	.Lm_BB10_21
.Lm_BB10_20:
	ldrb	r1, [r5, #29]
	tst.w	r1, #247
	itt	ne
	movne	r1, #1
	strbne	r1, [r5, #28]
	movs	r1, #0
	str	r1, [r4]
.Lm_BB10_21:
	ldr	r2, [sp, #4]
	movs	r1, #0
	str	r1, [r2]
	add	sp, #20
	pop.w	{r4, r5, r6, r7, r8, r9, r10, r11, pc}
	.p2align	2
.Lm_CPI10_0:
.Lm_tmp12:
	.long	pieces_first(TLSGD)-(.Lm_PC10_0+4-.Lm_tmp12)
.Lm_CPI10_1:
.Lm_tmp13:
	.long	near_room(TLSGD)-(.Lm_PC10_1+4-.Lm_tmp13)
.Lm_CPI10_2:
.Lm_tmp14:
	.long	lent_step(TLSGD)-(.Lm_PC10_2+4-.Lm_tmp14)
.Lm_CPI10_3:
.Lm_tmp15:
	.long	lent_end(TLSGD)-(.Lm_PC10_3+4-.Lm_tmp15)
.Lm_CPI10_5:
.Lm_tmp16:
	.long	lent(TLSGD)-(.Lm_PC10_5+4-.Lm_tmp16)
.Lm_CPI10_6:
	.long	begin_behind.nothing-(.Lm_PC10_6+4)
.Lm_func_end10:
	.size	tlsf_open_near_in, .Lm_func_end10-tlsf_open_near_in
	.cfi_endproc
	.section	.text.tlsf_open_32,"ax",%progbits
	.globl	tlsf_open_32
	.p2align	2
	.type	tlsf_open_32,%function
	.code	16
	.thumb_func
tlsf_open_32:
	.cfi_startproc
	push.w	{r4, r5, r6, r7, r8, r9, lr}
	.cfi_def_cfa_offset 28
	.cfi_offset lr, -4
	.cfi_offset r9, -8
	.cfi_offset r8, -12
	.cfi_offset r7, -16
	.cfi_offset r6, -20
	.cfi_offset r5, -24
	.cfi_offset r4, -28
	sub	sp, #4
	.cfi_def_cfa_offset 32
	mov	r4, r0
	ldrb	r0, [r0, #29]
	mov	r9, r1
	mov	r8, r2
	lsls	r1, r0, #24
	beq	.Lm_BB11_3
	sub.w	r1, r0, #65
	uxtb	r1, r1
	cmp	r1, #199
	bhs	.Lm_BB11_4
	movs	r6, #0
	movs	r5, #0
	b	.Lm_BB11_7
.Lm_BB11_3:
	movs	r6, #0
	b	.Lm_BB11_6
.Lm_BB11_4:
	add.w	r1, r0, #127
	movs	r6, #0
	ands	r1, r0
	movs	r5, #0
	lsls	r1, r1, #24
	bne	.Lm_BB11_7
	uxtb	r0, r0
	cmp	r0, #64
	it	eq
	moveq	r6, #32
.Lm_BB11_6:
	mov	r5, r3
.Lm_BB11_7:
	ldr	r0, .Lm_CPI11_0
.Lm_PC11_0:
	add	r0, pc
	bl	__tls_get_addr
	mov	r7, r0
	str	r6, [r0]
	mov	r0, r4
	mov	r1, r9
	mov	r2, r8
	mov	r3, r5
	bl	tlsf_open
	cbnz	r0, .Lm_BB11_9
	ldrb	r1, [r4, #29]
	tst.w	r1, #247
	itt	ne
	movne	r1, #1
	strbne	r1, [r4, #28]
.Lm_BB11_9:
	movs	r1, #0
	str	r1, [r7]
	add	sp, #4
	pop.w	{r4, r5, r6, r7, r8, r9, pc}
	.p2align	2
.Lm_CPI11_0:
.Lm_tmp17:
	.long	front(TLSGD)-(.Lm_PC11_0+4-.Lm_tmp17)
.Lm_func_end11:
	.size	tlsf_open_32, .Lm_func_end11-tlsf_open_32
	.cfi_endproc
	.section	.text.tlsf_open_in_32,"ax",%progbits
	.globl	tlsf_open_in_32
	.p2align	1
	.type	tlsf_open_in_32,%function
	.code	16
	.thumb_func
tlsf_open_in_32:
	.cfi_startproc
	ldr.w	r12, [sp]
	str.w	r12, [sp]
	b	tlsf_open_in
.Lm_func_end12:
	.size	tlsf_open_in_32, .Lm_func_end12-tlsf_open_in_32
	.cfi_endproc
	.section	.text.tlsf_open_near_2880,"ax",%progbits
	.globl	tlsf_open_near_2880
	.p2align	2
	.type	tlsf_open_near_2880,%function
	.code	16
	.thumb_func
tlsf_open_near_2880:
	.cfi_startproc
	push.w	{r4, r5, r6, r7, r8, r9, r10, r11, lr}
	.cfi_def_cfa_offset 36
	.cfi_offset lr, -4
	.cfi_offset r11, -8
	.cfi_offset r10, -12
	.cfi_offset r9, -16
	.cfi_offset r8, -20
	.cfi_offset r7, -24
	.cfi_offset r6, -28
	.cfi_offset r5, -32
	.cfi_offset r4, -36
	sub	sp, #4
	.cfi_def_cfa_offset 40
	mov	r4, r0
	ldr	r0, .Lm_CPI13_0
	mov	r8, r3
	mov	r9, r2
.Lm_PC13_0:
	add	r0, pc
	mov	r10, r1
	bl	__tls_get_addr
	ldr	r1, .Lm_CPI13_1
	movs	r2, #2
	str	r2, [r0]
	rsbs	r0, r4, #0
.Lm_PC13_1:
	add	r1, pc
	and	r0, r0, #63
	add	r4, r0
	mov	r0, r1
	add.w	r5, r4, #32
	bl	__tls_get_addr
	str	r5, [r0]
	mov	r11, r0
	ldrb	r0, [r4, #29]
	lsls	r1, r0, #24
	beq	.Lm_BB13_3
	sub.w	r1, r0, #65
	uxtb	r1, r1
	cmp	r1, #199
	bhs	.Lm_BB13_4
	movs	r5, #0
	movs	r7, #0
	b	.Lm_BB13_7
.Lm_BB13_3:
	movs	r5, #0
	b	.Lm_BB13_6
.Lm_BB13_4:
	add.w	r1, r0, #127
	movs	r5, #0
	ands	r1, r0
	movs	r7, #0
	lsls	r1, r1, #24
	bne	.Lm_BB13_7
	uxtb	r0, r0
	cmp	r0, #64
	it	eq
	moveq	r5, #32
.Lm_BB13_6:
	mov	r7, r8
.Lm_BB13_7:
	ldr	r0, .Lm_CPI13_2
.Lm_PC13_2:
	add	r0, pc
	bl	__tls_get_addr
	mov	r6, r0
	str	r5, [r0]
	mov	r0, r4
	mov	r1, r10
	mov	r2, r9
	mov	r3, r7
	bl	tlsf_open
	cbnz	r0, .Lm_BB13_9
	ldrb	r1, [r4, #29]
	tst.w	r1, #247
	itt	ne
	movne	r1, #1
	strbne	r1, [r4, #28]
.Lm_BB13_9:
	movs	r1, #0
	str.w	r1, [r11]
	str	r1, [r6]
	add	sp, #4
	pop.w	{r4, r5, r6, r7, r8, r9, r10, r11, pc}
	.p2align	2
.Lm_CPI13_0:
.Lm_tmp18:
	.long	pieces_first(TLSGD)-(.Lm_PC13_0+4-.Lm_tmp18)
.Lm_CPI13_1:
.Lm_tmp19:
	.long	near_room(TLSGD)-(.Lm_PC13_1+4-.Lm_tmp19)
.Lm_CPI13_2:
.Lm_tmp20:
	.long	front(TLSGD)-(.Lm_PC13_2+4-.Lm_tmp20)
.Lm_func_end13:
	.size	tlsf_open_near_2880, .Lm_func_end13-tlsf_open_near_2880
	.cfi_endproc
	.section	.text.tlsf_open_near_in_2880,"ax",%progbits
	.globl	tlsf_open_near_in_2880
	.p2align	1
	.type	tlsf_open_near_in_2880,%function
	.code	16
	.thumb_func
tlsf_open_near_in_2880:
	.cfi_startproc
	ldr.w	r12, [sp]
	str.w	r12, [sp]
	b	tlsf_open_near_in
.Lm_func_end14:
	.size	tlsf_open_near_in_2880, .Lm_func_end14-tlsf_open_near_in_2880
	.cfi_endproc
	.section	.text.tlsf_lane_bytes,"ax",%progbits
	.globl	tlsf_lane_bytes
	.p2align	1
	.type	tlsf_lane_bytes,%function
	.code	16
	.thumb_func
tlsf_lane_bytes:
	.cfi_startproc
	add.w	r1, r0, r0, lsl #1
	movs	r2, #135
	subw	r0, r0, #1025
	add.w	r1, r2, r1, lsl #3
	movw	r2, #65408
	movt	r2, #1
	ands	r1, r2
	addw	r1, r1, #895
	cmn.w	r0, #1024
	it	lo
	movlo	r1, #0
	mov	r0, r1
	bx	lr
.Lm_func_end15:
	.size	tlsf_lane_bytes, .Lm_func_end15-tlsf_lane_bytes
	.cfi_endproc
	.section	.text.tlsf_lane_open_in,"ax",%progbits
	.globl	tlsf_lane_open_in
	.p2align	2
	.type	tlsf_lane_open_in,%function
	.code	16
	.thumb_func
tlsf_lane_open_in:
	.cfi_startproc
	push.w	{r4, r5, r6, r7, r8, r9, r10, r11, lr}
	.cfi_def_cfa_offset 36
	.cfi_offset lr, -4
	.cfi_offset r11, -8
	.cfi_offset r10, -12
	.cfi_offset r9, -16
	.cfi_offset r8, -20
	.cfi_offset r7, -24
	.cfi_offset r6, -28
	.cfi_offset r5, -32
	.cfi_offset r4, -36
	sub	sp, #12
	.cfi_def_cfa_offset 48
	ldr.w	r10, [sp, #48]
	mov	r8, r3
	mov	r9, r2
	cmp.w	r2, #1024
	strd	r0, r1, [sp, #4]
	bhi	.Lm_BB16_2
	add.w	r1, r9, r9, lsl #1
	movs	r2, #135
	rsb.w	r0, r8, #0
	mvn.w	r5, r8
	add.w	r1, r2, r1, lsl #3
	movw	r2, #65408
	and	r11, r0, #127
	movt	r2, #1
	ands	r1, r2
	sub.w	r0, r10, r11
	add.w	r1, r1, #768
	cmp	r0, r1
	it	lo
	movlo.w	r9, #0
	cmp	r10, r11
	it	lo
	movlo.w	r9, #0
	cmp	r10, r5
	it	hi
	movhi.w	r9, #0
	cmp.w	r8, #0
	it	eq
	moveq	r9, r8
	b	.Lm_BB16_3
.Lm_BB16_2:
	rsb.w	r0, r8, #0
	mvn.w	r5, r8
	and	r11, r0, #127
.Lm_BB16_3:
	ldr	r0, .Lm_CPI16_0
.Lm_PC16_0:
	add	r0, pc
	bl	__tls_get_addr
	ldr	r1, .Lm_CPI16_1
	movs	r2, #128
	ldr	r6, .Lm_CPI16_3
	cmp	r11, r10
.Lm_PC16_1:
	add	r1, pc
	str	r2, [r0]
	it	hs
	movhs	r11, r10
	cmp	r10, r5
	mov.w	r5, #0
	mov	r0, r1
	mov	r7, r8
	it	ls
	movls	r5, #1
	cmp.w	r8, #0
.Lm_PC16_3:
	add	r6, pc
	it	ne
	movne	r7, #1
	bl	__tls_get_addr
	ldr	r1, .Lm_CPI16_2
	mov	r2, r6
	tst	r7, r5
	it	ne
	addne.w	r2, r8, r10
.Lm_PC16_2:
	add	r1, pc
	str	r2, [r0]
	it	ne
	addne.w	r6, r8, r11
	mov	r0, r1
	bl	__tls_get_addr
	mov	r4, r0
	str	r6, [r0]
	ldrd	r0, r1, [sp, #4]
	mov	r2, r9
	bl	tlsf_lane_open
	cmp	r0, #5
	mov	r1, r0
	mov.w	r2, #0
	it	eq
	moveq	r1, #39
	tst	r7, r5
	str	r2, [r4]
	it	eq
	moveq	r0, r1
	add	sp, #12
	pop.w	{r4, r5, r6, r7, r8, r9, r10, r11, pc}
	.p2align	2
.Lm_CPI16_0:
.Lm_tmp21:
	.long	lent_step(TLSGD)-(.Lm_PC16_0+4-.Lm_tmp21)
.Lm_CPI16_1:
.Lm_tmp22:
	.long	lent_end(TLSGD)-(.Lm_PC16_1+4-.Lm_tmp22)
.Lm_CPI16_2:
.Lm_tmp23:
	.long	lent(TLSGD)-(.Lm_PC16_2+4-.Lm_tmp23)
.Lm_CPI16_3:
	.long	begin_behind.nothing-(.Lm_PC16_3+4)
.Lm_func_end16:
	.size	tlsf_lane_open_in, .Lm_func_end16-tlsf_lane_open_in
	.cfi_endproc
	.section	.text.tlsf_queue_bytes,"ax",%progbits
	.globl	tlsf_queue_bytes
	.p2align	1
	.type	tlsf_queue_bytes,%function
	.code	16
	.thumb_func
tlsf_queue_bytes:
	.cfi_startproc
	rsb.w	r2, r0, #1024
	rsb.w	r3, r1, #1024
	orrs	r3, r2
	movs	r2, #0
	cmp.w	r2, r3, lsr #10
	bne	.Lm_BB17_2
	movw	r2, #519
	mov.w	r12, #135
	add.w	r3, r12, r1, lsl #5
	add.w	r1, r2, r1, lsl #3
	add.w	r2, r12, r0, lsl #4
	bic	r3, r3, #103
	bic	r2, r2, #119
	bic	r1, r1, #127
	add.w	r2, r2, r0, lsl #7
	add.w	r0, r12, r0, lsl #3
	bic	r0, r0, #127
	add	r1, r3
	add	r0, r2
	add.w	r0, r0, r1, lsl #1
	addw	r2, r0, #383
.Lm_BB17_2:
	mov	r0, r2
	bx	lr
.Lm_func_end17:
	.size	tlsf_queue_bytes, .Lm_func_end17-tlsf_queue_bytes
	.cfi_endproc
	.section	.text.tlsf_queue_open_in,"ax",%progbits
	.globl	tlsf_queue_open_in
	.p2align	2
	.type	tlsf_queue_open_in,%function
	.code	16
	.thumb_func
tlsf_queue_open_in:
	.cfi_startproc
	push.w	{r4, r5, r6, r7, r8, r9, r10, r11, lr}
	.cfi_def_cfa_offset 36
	.cfi_offset lr, -4
	.cfi_offset r11, -8
	.cfi_offset r10, -12
	.cfi_offset r9, -16
	.cfi_offset r8, -20
	.cfi_offset r7, -24
	.cfi_offset r6, -28
	.cfi_offset r5, -32
	.cfi_offset r4, -36
	sub	sp, #4
	.cfi_def_cfa_offset 40
	ldr.w	r9, [sp, #40]
	mov	r11, r3
	mov	r8, r2
	mov	r10, r1
	cmp.w	r1, #1024
	str	r0, [sp]
	it	ls
	cmpls.w	r8, #1024
	bls	.Lm_BB18_2
	rsb.w	r0, r11, #0
	mvn.w	r5, r11
	and	r6, r0, #127
	b	.Lm_BB18_3
.Lm_BB18_2:
	movw	r2, #65408
	movs	r0, #135
	add.w	r1, r0, r8, lsl #5
	movt	r2, #1
	ands	r1, r2
	movw	r2, #519
	add.w	r2, r2, r8, lsl #3
	movw	r3, #65408
	and	r2, r2, #32640
	mvn.w	r5, r11
	add	r1, r2
	add.w	r2, r0, r10, lsl #4
	ands	r2, r3
	add.w	r0, r0, r10, lsl #3
	add.w	r2, r2, r10, lsl #7
	and	r0, r0, #32640
	add	r0, r2
	add.w	r0, r0, r1, lsl #1
	rsb.w	r1, r11, #0
	and	r6, r1, #127
	add.w	r0, r0, #256
	sub.w	r1, r9, r6
	cmp	r1, r0
	it	lo
	movlo.w	r8, #0
	cmp	r9, r6
	it	lo
	movlo.w	r8, #0
	cmp	r9, r5
	it	hi
	movhi.w	r8, #0
	cmp.w	r11, #0
	it	eq
	moveq	r8, r11
.Lm_BB18_3:
	ldr	r0, .Lm_CPI18_0
.Lm_PC18_0:
	add	r0, pc
	bl	__tls_get_addr
	ldr	r1, .Lm_CPI18_1
	movs	r2, #128
	ldr	r4, .Lm_CPI18_3
	cmp	r6, r9
.Lm_PC18_1:
	add	r1, pc
	str	r2, [r0]
	it	hs
	movhs	r6, r9
	cmp	r9, r5
	mov.w	r5, #0
	mov	r0, r1
	mov	r7, r11
	it	ls
	movls	r5, #1
	cmp.w	r11, #0
.Lm_PC18_3:
	add	r4, pc
	it	ne
	movne	r7, #1
	bl	__tls_get_addr
	ldr	r1, .Lm_CPI18_2
	mov	r2, r4
	tst	r7, r5
	it	ne
	addne.w	r2, r11, r9
.Lm_PC18_2:
	add	r1, pc
	str	r2, [r0]
	it	ne
	addne.w	r4, r11, r6
	mov	r0, r1
	bl	__tls_get_addr
	mov	r6, r0
	str	r4, [r0]
	ldr	r0, [sp]
	mov	r1, r10
	mov	r2, r8
	bl	tlsf_queue_open
	cmp	r0, #5
	mov	r1, r0
	mov.w	r2, #0
	it	eq
	moveq	r1, #39
	tst	r7, r5
	str	r2, [r6]
	it	eq
	moveq	r0, r1
	add	sp, #4
	pop.w	{r4, r5, r6, r7, r8, r9, r10, r11, pc}
	.p2align	2
.Lm_CPI18_0:
.Lm_tmp24:
	.long	lent_step(TLSGD)-(.Lm_PC18_0+4-.Lm_tmp24)
.Lm_CPI18_1:
.Lm_tmp25:
	.long	lent_end(TLSGD)-(.Lm_PC18_1+4-.Lm_tmp25)
.Lm_CPI18_2:
.Lm_tmp26:
	.long	lent(TLSGD)-(.Lm_PC18_2+4-.Lm_tmp26)
.Lm_CPI18_3:
	.long	begin_behind.nothing-(.Lm_PC18_3+4)
.Lm_func_end18:
	.size	tlsf_queue_open_in, .Lm_func_end18-tlsf_queue_open_in
	.cfi_endproc
	.section	.text.tlsf_offsets_bytes,"ax",%progbits
	.globl	tlsf_offsets_bytes
	.p2align	1
	.type	tlsf_offsets_bytes,%function
	.code	16
	.thumb_func
tlsf_offsets_bytes:
	.cfi_startproc
	mov	r2, r0
	movs	r0, #0
	cmp	r1, #4
	blo	.Lm_BB19_3
	cmp	r2, #5
	mov.w	r3, #0
	it	eq
	moveq.w	r3, #16777216
	cmp	r2, #4
	it	eq
	moveq.w	r3, #1048576
	cmp	r1, r3
	it	hi
	bxhi	lr
.Lm_BB19_2:
	movs	r0, #23
	movw	r2, #65520
	add.w	r0, r0, r1, lsl #3
	adds	r1, #63
	movt	r2, #255
	add.w	r3, r2, #520093696
	ands	r0, r3
	movs	r3, #16
	add.w	r1, r3, r1, lsr #3
	ands	r1, r2
	add	r0, r1
	addw	r0, r0, #2783
.Lm_BB19_3:
	bx	lr
.Lm_func_end19:
	.size	tlsf_offsets_bytes, .Lm_func_end19-tlsf_offsets_bytes
	.cfi_endproc
	.section	.text.tlsf_offsets_open_in,"ax",%progbits
	.globl	tlsf_offsets_open_in
	.p2align	2
	.type	tlsf_offsets_open_in,%function
	.code	16
	.thumb_func
tlsf_offsets_open_in:
	.cfi_startproc
	push.w	{r4, r5, r6, r7, r8, r9, r10, r11, lr}
	.cfi_def_cfa_offset 36
	.cfi_offset lr, -4
	.cfi_offset r11, -8
	.cfi_offset r10, -12
	.cfi_offset r9, -16
	.cfi_offset r8, -20
	.cfi_offset r7, -24
	.cfi_offset r6, -28
	.cfi_offset r5, -32
	.cfi_offset r4, -36
	sub	sp, #20
	.cfi_def_cfa_offset 56
	ldr	r4, [sp, #64]
	cmp	r1, #5
	ldrd	r11, r10, [sp, #56]
	mov	r9, r1
	str	r0, [sp, #8]
	mov.w	r0, #0
	strd	r2, r3, [sp, #12]
	it	eq
	moveq.w	r0, #16777216
	cmp	r1, #4
	it	eq
	moveq.w	r0, #1048576
	cmp	r11, r0
	bls	.Lm_BB20_2
	rsb.w	r0, r10, #0
	mvn.w	r8, r10
	and	r7, r0, #15
	b	.Lm_BB20_3
.Lm_BB20_2:
	movs	r0, #23
	movw	r1, #65520
	movt	r1, #255
	add.w	r0, r0, r11, lsl #3
	add.w	r2, r1, #520093696
	movs	r3, #16
	ands	r0, r2
	add.w	r2, r11, #63
	mvn.w	r8, r10
	add.w	r2, r3, r2, lsr #3
	ands	r1, r2
	add	r0, r1
	rsb.w	r1, r10, #0
	and	r7, r1, #15
	add.w	r0, r0, #2768
	subs	r1, r4, r7
	cmp	r1, r0
	it	lo
	movlo.w	r11, #0
	cmp	r4, r7
	it	lo
	movlo.w	r11, #0
	cmp	r4, r8
	it	hi
	movhi.w	r11, #0
	cmp.w	r10, #0
	it	eq
	moveq	r11, r10
.Lm_BB20_3:
	ldr	r0, .Lm_CPI20_0
.Lm_PC20_0:
	add	r0, pc
	bl	__tls_get_addr
	ldr	r1, .Lm_CPI20_1
	movs	r2, #16
	ldr	r5, .Lm_CPI20_3
	cmp	r7, r4
.Lm_PC20_1:
	add	r1, pc
	str	r2, [r0]
	it	hs
	movhs	r7, r4
	cmp	r4, r8
	mov.w	r6, #0
	mov	r8, r4
	mov	r0, r1
	mov	r4, r10
	it	ls
	movls	r6, #1
	cmp.w	r10, #0
.Lm_PC20_3:
	add	r5, pc
	it	ne
	movne	r4, #1
	bl	__tls_get_addr
	ldr	r1, .Lm_CPI20_2
	mov	r2, r5
	tst	r4, r6
	it	ne
	addne.w	r2, r10, r8
.Lm_PC20_2:
	add	r1, pc
	str	r2, [r0]
	it	ne
	addne.w	r5, r10, r7
	mov	r0, r1
	bl	__tls_get_addr
	mov	r7, r0
	str	r5, [r0]
	ldr	r0, [sp, #8]
	mov	r1, r9
	ldrd	r2, r3, [sp, #12]
	str.w	r11, [sp]
	bl	tlsf_offsets_open
	cmp	r0, #5
	mov	r1, r0
	mov.w	r2, #0
	it	eq
	moveq	r1, #39
	tst	r4, r6
	str	r2, [r7]
	it	eq
	moveq	r0, r1
	add	sp, #20
	pop.w	{r4, r5, r6, r7, r8, r9, r10, r11, pc}
	.p2align	2
.Lm_CPI20_0:
.Lm_tmp27:
	.long	lent_step(TLSGD)-(.Lm_PC20_0+4-.Lm_tmp27)
.Lm_CPI20_1:
.Lm_tmp28:
	.long	lent_end(TLSGD)-(.Lm_PC20_1+4-.Lm_tmp28)
.Lm_CPI20_2:
.Lm_tmp29:
	.long	lent(TLSGD)-(.Lm_PC20_2+4-.Lm_tmp29)
.Lm_CPI20_3:
	.long	begin_behind.nothing-(.Lm_PC20_3+4)
.Lm_func_end20:
	.size	tlsf_offsets_open_in, .Lm_func_end20-tlsf_offsets_open_in
	.cfi_endproc
	.section	.text.tlsf_pools_bytes,"ax",%progbits
	.globl	tlsf_pools_bytes
	.p2align	1
	.type	tlsf_pools_bytes,%function
	.code	16
	.thumb_func
tlsf_pools_bytes:
	.cfi_startproc
	push	{r4, r5, r7, lr}
	.cfi_def_cfa_offset 16
	.cfi_offset lr, -4
	.cfi_offset r7, -8
	.cfi_offset r5, -12
	.cfi_offset r4, -16
	sub	sp, #16
	.cfi_def_cfa_offset 32
	mov	r4, r2
	add	r2, sp, #4
	add	r3, sp, #8
	movs	r5, #0
	str	r2, [sp]
	mov	r2, r4
	str	r5, [sp, #12]
	strd	r5, r5, [sp, #4]
	bl	tlsf_pools_words
	cbnz	r0, .Lm_BB21_2
	ldrd	r0, r1, [sp, #4]
	movw	r2, #2792
	add.w	r5, r4, r4, lsl #1
	mvn	r3, #7
	and.w	r3, r3, r1, lsr #3
	muls	r2, r0, r2
	add.w	r0, r0, r0, lsl #2
	lsls	r5, r5, #2
	add.w	r1, r5, r1, lsl #3
	add.w	r0, r1, r0, lsl #4
	add	r0, r3
	add.w	r1, r2, #23
	bic	r1, r1, #15
	add	r0, r1
	addw	r5, r0, #2783
.Lm_BB21_2:
	mov	r0, r5
	add	sp, #16
	pop	{r4, r5, r7, pc}
.Lm_func_end21:
	.size	tlsf_pools_bytes, .Lm_func_end21-tlsf_pools_bytes
	.cfi_endproc
	.section	.text.tlsf_pools_open_in,"ax",%progbits
	.globl	tlsf_pools_open_in
	.p2align	2
	.type	tlsf_pools_open_in,%function
	.code	16
	.thumb_func
tlsf_pools_open_in:
	.cfi_startproc
	push.w	{r4, r5, r6, r7, r8, r9, r10, r11, lr}
	.cfi_def_cfa_offset 36
	.cfi_offset lr, -4
	.cfi_offset r11, -8
	.cfi_offset r10, -12
	.cfi_offset r9, -16
	.cfi_offset r8, -20
	.cfi_offset r7, -24
	.cfi_offset r6, -28
	.cfi_offset r5, -32
	.cfi_offset r4, -36
	sub	sp, #12
	.cfi_def_cfa_offset 48
	mov	r10, r0
	ldr	r0, .Lm_CPI22_0
	strd	r2, r3, [sp, #4]
	mov	r11, r1
.Lm_PC22_0:
	add	r0, pc
	bl	__tls_get_addr
	ldrd	r4, r8, [sp, #52]
	movs	r2, #16
	ldr	r7, .Lm_CPI22_3
	movs	r6, #0
	ldr	r1, .Lm_CPI22_1
	str	r2, [r0]
	rsbs	r0, r4, #0
	and	r9, r0, #15
.Lm_PC22_1:
	add	r1, pc
	cmp	r9, r8
	it	hs
	movhs	r9, r8
	cmp	r4, #0
	mov	r5, r4
	mvn.w	r0, r4
	it	ne
	movne	r5, #1
	cmp	r8, r0
	mov	r0, r1
.Lm_PC22_3:
	add	r7, pc
	it	ls
	movls	r6, #1
	bl	__tls_get_addr
	ldr	r1, .Lm_CPI22_2
	mov	r2, r7
	tst	r5, r6
	it	ne
	addne.w	r2, r4, r8
.Lm_PC22_2:
	add	r1, pc
	str	r2, [r0]
	ldr.w	r8, [sp, #48]
	it	ne
	addne.w	r7, r4, r9
	mov	r0, r1
	bl	__tls_get_addr
	ldrd	r2, r3, [sp, #4]
	mov	r4, r0
	str	r7, [r0]
	mov	r0, r10
	mov	r1, r11
	str.w	r8, [sp]
	bl	tlsf_pools_open
	cmp	r0, #6
	it	eq
	moveq	r0, #5
	cmp	r0, #5
	mov	r1, r0
	mov.w	r2, #0
	it	eq
	moveq	r1, #39
	tst	r5, r6
	str	r2, [r4]
	it	eq
	moveq	r0, r1
	add	sp, #12
	pop.w	{r4, r5, r6, r7, r8, r9, r10, r11, pc}
	.p2align	2
.Lm_CPI22_0:
.Lm_tmp30:
	.long	lent_step(TLSGD)-(.Lm_PC22_0+4-.Lm_tmp30)
.Lm_CPI22_1:
.Lm_tmp31:
	.long	lent_end(TLSGD)-(.Lm_PC22_1+4-.Lm_tmp31)
.Lm_CPI22_2:
.Lm_tmp32:
	.long	lent(TLSGD)-(.Lm_PC22_2+4-.Lm_tmp32)
.Lm_CPI22_3:
	.long	begin_behind.nothing-(.Lm_PC22_3+4)
.Lm_func_end22:
	.size	tlsf_pools_open_in, .Lm_func_end22-tlsf_pools_open_in
	.cfi_endproc
	.section	.text.tlsf_next_number,"ax",%progbits
	.globl	tlsf_next_number
	.p2align	2
	.type	tlsf_next_number,%function
	.code	16
	.thumb_func
tlsf_next_number:
	.cfi_startproc
	push	{r4, r5, r6, lr}
	.cfi_def_cfa_offset 16
	.cfi_offset lr, -4
	.cfi_offset r6, -8
	.cfi_offset r5, -12
	.cfi_offset r4, -16
	ldr	r6, .Lm_CPI23_0
.Lm_PC23_0:
	add	r6, pc
.Lm_BB23_1:
	ldrexd	r1, r3, [r6]
	adds	r2, r1, #1
	adc	r4, r3, #0
	strexd	r5, r2, r4, [r6]
	cmp	r5, #0
	bne	.Lm_BB23_1
	lsls	r2, r3, #3
	mov.w	r3, #-2147483648
	orr.w	r2, r2, r1, lsr #29
	adds.w	r1, r3, r1, lsl #3
	adcs	r2, r2, #0
	itee	ne
	movne	r0, #2
	streq	r1, [r0]
	moveq	r0, #0
	pop	{r4, r5, r6, pc}
	.p2align	2
.Lm_CPI23_0:
	.long	tlsf_next_number.calls-(.Lm_PC23_0+4)
.Lm_func_end23:
	.size	tlsf_next_number, .Lm_func_end23-tlsf_next_number
	.cfi_endproc
	.type	tlsf_memory_alloc.nothing,%object
	.section	.bss.tlsf_memory_alloc.nothing,"aw",%nobits
	.p2align	3, 0x0
tlsf_memory_alloc.nothing:
	.long	0
	.long	0
	.size	tlsf_memory_alloc.nothing, 8
	.type	near_room,%object
	.section	.tbss.near_room,"awT",%nobits
	.p2align	2, 0x0
near_room:
	.long	0
	.size	near_room, 4
	.type	pieces_first,%object
	.section	.tbss.pieces_first,"awT",%nobits
	.p2align	2, 0x0
pieces_first:
	.long	0
	.size	pieces_first, 4
	.type	lent,%object
	.section	.tbss.lent,"awT",%nobits
	.p2align	2, 0x0
lent:
	.long	0
	.size	lent, 4
	.type	tlsf_next_number.calls,%object
	.section	.bss.tlsf_next_number.calls,"aw",%nobits
	.p2align	3, 0x0
tlsf_next_number.calls:
	.long	0
	.long	0
	.size	tlsf_next_number.calls, 8
	.type	lent_step,%object
	.section	.tbss.lent_step,"awT",%nobits
	.p2align	2, 0x0
lent_step:
	.long	0
	.size	lent_step, 4
	.type	lent_end,%object
	.section	.tbss.lent_end,"awT",%nobits
	.p2align	2, 0x0
lent_end:
	.long	0
	.size	lent_end, 4
	.type	front,%object
	.section	.tbss.front,"awT",%nobits
	.p2align	2, 0x0
front:
	.long	0
	.size	front, 4
	.type	begin_behind.nothing,%object
	.section	.bss.begin_behind.nothing,"aw",%nobits
begin_behind.nothing:
	.byte	0
	.size	begin_behind.nothing, 1
	.ident	"clang version 22.1.8"
	.section	".note.GNU-stack","",%progbits
#endif
