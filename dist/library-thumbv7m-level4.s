#ifndef TLSF_ONLY_MEMORY
/* The calls in Rattle. */
	.syntax	unified
	.eabi_attribute	24, 1
	.eabi_attribute	25, 1
	.section	.text.unlikely.tlsf_c.call_fault.CallFault.refusal,"ax",%progbits
	.p2align	2
	.type	tlsf_c.call_fault.CallFault.refusal,%function
	.code	16
	.thumb_func
tlsf_c.call_fault.CallFault.refusal:
	.cfi_sections .debug_frame
	.cfi_startproc
	movs	r1, #32
	orr.w	r0, r1, r0, lsl #2
	uxtb	r0, r0
	bx	lr
.Lfunc_end0:
	.size	tlsf_c.call_fault.CallFault.refusal, .Lfunc_end0-tlsf_c.call_fault.CallFault.refusal
	.cfi_endproc
	.section	.text.tlsf_heap.heap.Heap.resize_live.4,"ax",%progbits
	.p2align	2
	.type	tlsf_heap.heap.Heap.resize_live.4,%function
	.code	16
	.thumb_func
tlsf_heap.heap.Heap.resize_live.4:
	.cfi_startproc
	push.w	{r4, r5, r6, r7, r8, r9, lr}
	.cfi_def_cfa_offset 28
	.cfi_offset lr, -4
	.cfi_offset r9, -8
	.cfi_offset r8, -12
	.cfi_offset r7, -16
	.cfi_offset r6, -20
	.cfi_offset r5, -24
	.cfi_offset r4, -28
	sub	sp, #28
	.cfi_def_cfa_offset 56
	mov	r5, r0
	ldr	r1, [r1, #4]
	ldr	r7, [r0, #24]!
	add.w	r6, r7, r1, lsl #3
	ldr.w	r4, [r7, r1, lsl #3]
	ldr	r3, [r6, #4]
	cmp.w	r2, r4, lsr #2
	lsr.w	r8, r4, #2
	bls	.LBB1_4
	lsls	r6, r4, #30
	bmi	.LBB1_3
	add.w	r12, r8, r1
	ldr.w	r9, [r7, r12, lsl #3]
	lsls.w	r6, r9, #31
	bne	.LBB1_8
.LBB1_3:
	mov.w	r9, #0
	mov.w	r12, #0
	b	.LBB1_9
.LBB1_4:
	ldrd	lr, r12, [r5, #8]
	and.w	r7, lr, r12
	adds	r7, #1
	beq	.LBB1_14
	movs	r7, #0
	strd	r7, r7, [r6, #16]
	adds	r6, r2, #4
	cmp	r8, r6
	mov	r6, r8
	blo	.LBB1_7
	mov	r6, r2
	mov	r2, r4
	strd	lr, r12, [sp, #8]
	str	r6, [sp]
	bl	tlsf_heap.refitting.split_off.4
.LBB1_7:
	ldrd	r1, r3, [r5, #8]
	ldr	r2, [r5, #16]
	sub.w	r0, r6, r8
	adds	r1, #1
	add	r0, r2
	adc	r2, r3, #0
	strd	r1, r2, [r5, #8]
	str	r0, [r5, #16]
	b	.LBB1_13
.LBB1_8:
	add.w	r7, r7, r12, lsl #3
	ldr.w	r12, [r7, #4]
.LBB1_9:
	add.w	r7, r8, r9, lsr #2
	cmp	r7, r2
	bhs	.LBB1_11
	movs	r0, #1
	movs	r1, #5
	add	sp, #28
	pop.w	{r4, r5, r6, r7, r8, r9, pc}
.LBB1_11:
	ldrd	r7, lr, [r5, #8]
	and.w	r6, r7, lr
	adds	r6, #1
	beq	.LBB1_14
	strd	r7, lr, [sp, #16]
	mov	r7, r2
	mov	r2, r4
	lsls	r6, r1, #3
	strd	r9, r12, [sp]
	str	r7, [sp, #8]
	bl	tlsf_heap.refitting.recut.4
	ldr	r1, [r5, #24]
	movs	r2, #0
	add	r1, r6
	strd	r2, r2, [r1, #16]
	ldrd	r1, r2, [r5, #16]
	sub.w	r0, r0, r8
	add	r0, r1
	cmp	r2, r0
	str	r0, [r5, #16]
	it	lo
	strlo	r0, [r5, #20]
	ldrd	r0, r1, [r5, #8]
	adds	r0, #1
	adc	r1, r1, #0
	strd	r0, r1, [r5, #8]
.LBB1_13:
	movs	r1, #0
	movs	r0, #0
	add	sp, #28
	pop.w	{r4, r5, r6, r7, r8, r9, pc}
.LBB1_14:
	movs	r1, #1
	movs	r0, #1
	add	sp, #28
	pop.w	{r4, r5, r6, r7, r8, r9, pc}
.Lfunc_end1:
	.size	tlsf_heap.heap.Heap.resize_live.4, .Lfunc_end1-tlsf_heap.heap.Heap.resize_live.4
	.cfi_endproc
	.section	.text.tlsf_heap.refitting.split_off.4,"ax",%progbits
	.p2align	2
	.type	tlsf_heap.refitting.split_off.4,%function
	.code	16
	.thumb_func
tlsf_heap.refitting.split_off.4:
	.cfi_startproc
	push.w	{r4, r5, r6, r7, r8, r9, r10, r11, lr}
	.cfi_def_cfa_offset 36
	.cfi_offset lr, -4
	.cfi_offset r11, -8
	.cfi_offset r10, -12
	.cfi_offset r9, -16
	.cfi_offset r8, -20
	.cfi_offset r7, -24
	.cfi_offset r6, -28
	.cfi_offset r5, -32
	.cfi_offset r4, -36
	sub	sp, #28
	.cfi_def_cfa_offset 64
	ldrd	r9, r8, [sp, #72]
	ldr.w	r12, [sp, #64]
	ldr	r7, [r0]
	lsls	r6, r2, #30
	bmi	.LBB2_2
	add.w	r4, r1, r2, lsr #2
	ldr.w	r6, [r7, r4, lsl #3]
	lsls	r5, r6, #31
	bne	.LBB2_7
.LBB2_2:
	orr	r4, r2, #1
	lsrs	r2, r2, #2
	sub.w	r6, r4, r12, lsl #2
	str	r2, [sp, #24]
	subs	r2, r4, r6
	sbc	r3, r3, #0
	add.w	r4, r7, r1, lsl #3
	str.w	r2, [r7, r1, lsl #3]
	str	r3, [r4, #4]
	ldr	r3, [r0]
	add.w	lr, r12, r1
	add.w	r4, r3, lr, lsl #3
	str.w	r6, [r3, lr, lsl #3]
	strd	r1, r9, [r4, #4]
	str.w	r8, [r4, #12]
	ldr	r3, [r0, #24]
	mvn	r4, #7
	and	r7, lr, #63
	and.w	r4, r4, lr, lsr #3
	mov.w	r11, #1
	rsb.w	r12, r7, #32
	adds	r5, r3, r4
	ldr.w	r8, [r3, r4]
	subs.w	r10, r7, #32
	lsr.w	r2, r11, r12
	lsl.w	r7, r11, r7
	ldr.w	r9, [r5, #4]
	ldr.w	r12, [sp, #24]
	it	pl
	lslpl.w	r2, r11, r10
	it	pl
	movpl	r7, #0
	orr.w	r7, r7, r8
	orr.w	r2, r2, r9
	str	r7, [r3, r4]
	lsls	r3, r6, #30
	str	r2, [r5, #4]
	bmi	.LBB2_4
	ldr	r2, [r0]
	add	r1, r12
	add.w	r1, r2, r1, lsl #3
	str.w	lr, [r1, #4]
.LBB2_4:
	ldr	r1, [sp, #64]
	lsl.w	r3, lr, #3
	sub.w	r1, r12, r1
	orr	r2, r1, #16
	clz	r2, r2
	rsb.w	r2, r2, #27
	lsrs	r1, r2
	add.w	r7, r1, r2, lsl #4
	add.w	r2, r0, r7, lsl #2
	ldr.w	r5, [r2, #144]
	mov.w	r6, #-1
	cmp.w	r5, #-1
	str.w	lr, [r2, #144]
	ble	.LBB2_6
	ldr	r0, [r0]
	adds	r1, r0, r3
	add.w	r0, r0, r5, lsl #3
	strd	r5, r6, [r1, #16]
	str.w	lr, [r0, #20]
	add	sp, #28
	pop.w	{r4, r5, r6, r7, r8, r9, r10, r11, pc}
.LBB2_6:
	ldr	r2, [r0]
	movs	r5, #1
	add	r2, r3
	strd	r6, r6, [r2, #16]
	lsrs	r2, r7, #4
	ldr	r3, [r0, #56]
	add.w	r7, r0, r2, lsl #2
	lsl.w	r2, r5, r2
	orrs	r2, r3
	ldr	r6, [r7, #60]
	str	r2, [r0, #56]
	and	r0, r1, #15
	lsl.w	r0, r5, r0
	orrs	r0, r6
	str	r0, [r7, #60]
	add	sp, #28
	pop.w	{r4, r5, r6, r7, r8, r9, r10, r11, pc}
.LBB2_7:
	add.w	r7, r7, r4, lsl #3
	ldr	r7, [r7, #4]
	strd	r9, r8, [sp, #16]
	stm.w	sp, {r6, r7, r12}
	bl	tlsf_heap.refitting.recut.4
	add	sp, #28
	pop.w	{r4, r5, r6, r7, r8, r9, r10, r11, pc}
.Lfunc_end2:
	.size	tlsf_heap.refitting.split_off.4, .Lfunc_end2-tlsf_heap.refitting.split_off.4
	.cfi_endproc
	.section	.text.tlsf_heap.refitting.recut.4,"ax",%progbits
	.p2align	2
	.type	tlsf_heap.refitting.recut.4,%function
	.code	16
	.thumb_func
tlsf_heap.refitting.recut.4:
	.cfi_startproc
	push.w	{r4, r5, r6, r7, r8, r9, r10, r11, lr}
	.cfi_def_cfa_offset 36
	.cfi_offset lr, -4
	.cfi_offset r11, -8
	.cfi_offset r10, -12
	.cfi_offset r9, -16
	.cfi_offset r8, -20
	.cfi_offset r7, -24
	.cfi_offset r6, -28
	.cfi_offset r5, -32
	.cfi_offset r4, -36
	sub	sp, #12
	.cfi_def_cfa_offset 48
	ldr.w	r11, [sp, #48]
	mov	r4, r2
	lsr.w	r7, r11, #2
	mov	r6, r1
	ldr.w	r8, [sp, #56]
	movw	r10, #65528
	add.w	r2, r1, r2, lsr #2
	mov	r1, r7
	mov	r5, r3
	mov	r9, r0
	movt	r10, #8191
	bl	tlsf_heap.region.Region.remove.4
	adds.w	r4, r4, r11
	add.w	r1, r8, #4
	adc	r11, r5, #0
	lsrs	r0, r4, #2
	cmp.w	r1, r4, lsr #2
	add.w	r3, r6, r4, lsr #2
	str	r0, [sp, #8]
	str	r3, [sp, #4]
	bls	.LBB3_4
	subs	r3, r3, r7
	ldr.w	r7, [r9, #24]
	and.w	r5, r10, r3, lsr #3
	add.w	lr, r7, r5
	mvn	r1, #1
	mov.w	r12, #31
	ldr.w	r8, [r7, r5]
	ldr.w	r10, [lr, #4]
	tst.w	r3, #32
	it	ne
	movne.w	r1, #-1
	and	r2, r3, #31
	bic.w	r3, r12, r3
	mvn	r0, #-2147483648
	lsl.w	r1, r1, r2
	lsr.w	r0, r0, r3
	mov.w	r3, #-1
	orr.w	r1, r1, r0
	it	ne
	mvnne	r3, #1
	lsl.w	r2, r3, r2
	orrs	r0, r2
	and.w	r1, r1, r8
	and.w	r0, r0, r10
	str	r1, [r7, r5]
	lsls	r1, r4, #30
	str.w	r0, [lr, #4]
	bmi	.LBB3_3
	ldr.w	r0, [r9]
	ldr	r1, [sp, #4]
	add.w	r0, r0, r1, lsl #3
	str	r6, [r0, #4]
.LBB3_3:
	ldr.w	r1, [r9]
	subs	r0, r4, #1
	sbc	r2, r11, #0
	add.w	r3, r1, r6, lsl #3
	ldr.w	r8, [sp, #8]
	str.w	r0, [r1, r6, lsl #3]
	str	r2, [r3, #4]
	b	.LBB3_9
.LBB3_4:
	sub.w	lr, r4, r8, lsl #2
	ldr.w	r5, [r9]
	subs.w	r2, r4, lr
	sbc	r4, r11, #0
	add.w	r0, r5, r6, lsl #3
	str.w	r2, [r5, r6, lsl #3]
	str	r4, [r0, #4]
	ldr.w	r0, [r9]
	ldrd	r1, r12, [sp, #64]
	add.w	r2, r8, r6
	add.w	r5, r0, r2, lsl #3
	str.w	lr, [r0, r2, lsl #3]
	strd	r6, r1, [r5, #4]
	str.w	r12, [r5, #12]
	subs	r0, r3, r7
	ldr.w	r1, [r9, #24]
	and.w	r7, r10, r0, lsr #3
	adds	r6, r1, r7
	mvn	r5, #1
	movs	r4, #31
	ldr.w	r12, [r1, r7]
	ldr.w	r11, [r6, #4]
	tst.w	r0, #32
	it	ne
	movne.w	r5, #-1
	and	r3, r0, #31
	bic.w	r0, r4, r0
	mvn	r4, #-2147483648
	lsl.w	r5, r5, r3
	lsr.w	r0, r4, r0
	orr.w	r4, r5, r0
	mov.w	r5, #-1
	it	ne
	mvnne	r5, #1
	lsl.w	r3, r5, r3
	orrs	r0, r3
	and.w	r0, r0, r11
	and.w	r3, r12, r4
	str	r3, [r1, r7]
	str	r0, [r6, #4]
	ldr.w	r0, [r9, #24]
	and	r5, r2, #63
	and.w	r1, r10, r2, lsr #3
	movs	r7, #1
	rsb.w	r6, r5, #32
	adds	r3, r0, r1
	ldr.w	r12, [r0, r1]
	subs.w	r4, r5, #32
	lsr.w	r6, r7, r6
	ldr.w	r10, [r3, #4]
	it	pl
	lslpl.w	r6, r7, r4
	lsl.w	r4, r7, r5
	it	pl
	movpl	r4, #0
	orr.w	r7, r12, r4
	orr.w	r5, r10, r6
	str	r7, [r0, r1]
	lsls.w	r0, lr, #30
	str	r5, [r3, #4]
	bmi	.LBB3_6
	ldr.w	r0, [r9]
	ldr	r1, [sp, #4]
	add.w	r0, r0, r1, lsl #3
	str	r2, [r0, #4]
.LBB3_6:
	ldr	r0, [sp, #8]
	lsls	r1, r2, #3
	sub.w	r0, r0, r8
	orr	r3, r0, #16
	clz	r3, r3
	rsb.w	r3, r3, #27
	lsrs	r0, r3
	add.w	r3, r0, r3, lsl #4
	add.w	r5, r9, r3, lsl #2
	ldr.w	r6, [r5, #144]
	mov.w	r7, #-1
	cmp.w	r6, #-1
	str.w	r2, [r5, #144]
	ble	.LBB3_8
	ldr.w	r0, [r9]
	add	r1, r0
	add.w	r0, r0, r6, lsl #3
	strd	r6, r7, [r1, #16]
	str	r2, [r0, #20]
	b	.LBB3_9
.LBB3_8:
	ldr.w	r2, [r9]
	movs	r6, #1
	add	r1, r2
	strd	r7, r7, [r1, #16]
	lsrs	r1, r3, #4
	add.w	r3, r9, r1, lsl #2
	ldr.w	r2, [r9, #56]
	ldr	r7, [r3, #60]
	and	r0, r0, #15
	lsl.w	r1, r6, r1
	lsl.w	r0, r6, r0
	orrs	r1, r2
	orrs	r0, r7
	str.w	r1, [r9, #56]
	str	r0, [r3, #60]
.LBB3_9:
	mov	r0, r8
	add	sp, #12
	pop.w	{r4, r5, r6, r7, r8, r9, r10, r11, pc}
.Lfunc_end3:
	.size	tlsf_heap.refitting.recut.4, .Lfunc_end3-tlsf_heap.refitting.recut.4
	.cfi_endproc
	.section	.text.tlsf_heap.region.Region.remove.4,"ax",%progbits
	.p2align	2
	.type	tlsf_heap.region.Region.remove.4,%function
	.code	16
	.thumb_func
tlsf_heap.region.Region.remove.4:
	.cfi_startproc
	push	{r4, lr}
	.cfi_def_cfa_offset 8
	.cfi_offset lr, -4
	.cfi_offset r4, -8
	ldr	r3, [r0]
	add.w	r2, r3, r2, lsl #3
	ldrd	r12, r2, [r2, #16]
	cmp	r2, #0
	bmi	.LBB4_3
	add.w	r0, r3, r2, lsl #3
	ldr.w	lr, [r0, #20]
	adds.w	r1, r12, #1
	beq	.LBB4_5
	strd	r12, lr, [r0, #16]
	add.w	r0, r3, r12, lsl #3
	bic	r1, r2, #-2147483648
	str	r1, [r0, #20]
	pop	{r4, pc}
.LBB4_3:
	orr	r2, r1, #16
	clz	r2, r2
	rsb.w	r2, r2, #27
	lsr.w	lr, r1, r2
	adds.w	r1, r12, #1
	add.w	r2, lr, r2, lsl #4
	beq	.LBB4_6
	add.w	r1, r3, r12, lsl #3
	mov.w	r3, #-1
	add.w	r0, r0, r2, lsl #2
	str	r3, [r1, #20]
	str.w	r12, [r0, #144]
	pop	{r4, pc}
.LBB4_5:
	mov.w	r1, #-1
	strd	r1, lr, [r0, #16]
	pop	{r4, pc}
.LBB4_6:
	add.w	r1, r0, r2, lsl #2
	mov.w	r3, #-1
	lsrs	r4, r2, #4
	str.w	r3, [r1, #144]
	add.w	r3, r0, r4, lsl #2
	ldr	r1, [r3, #60]
	and	r2, lr, #15
	mov.w	r12, #1
	lsl.w	r2, r12, r2
	bics	r1, r2
	str	r1, [r3, #60]
	it	ne
	popne	{r4, pc}
.LBB4_7:
	ldr	r1, [r0, #56]
	lsl.w	r2, r12, r4
	bics	r1, r2
	str	r1, [r0, #56]
	pop	{r4, pc}
.Lfunc_end4:
	.size	tlsf_heap.region.Region.remove.4, .Lfunc_end4-tlsf_heap.region.Region.remove.4
	.cfi_endproc
	.section	.text.tlsf_heap.heap.Heap.release_live.4,"ax",%progbits
	.p2align	2
	.type	tlsf_heap.heap.Heap.release_live.4,%function
	.code	16
	.thumb_func
tlsf_heap.heap.Heap.release_live.4:
	.cfi_startproc
	push.w	{r4, r5, r6, r7, r8, r9, r10, lr}
	.cfi_def_cfa_offset 32
	.cfi_offset lr, -4
	.cfi_offset r10, -8
	.cfi_offset r9, -12
	.cfi_offset r8, -16
	.cfi_offset r7, -20
	.cfi_offset r6, -24
	.cfi_offset r5, -28
	.cfi_offset r4, -32
	sub	sp, #32
	.cfi_def_cfa_offset 64
	mov	r12, r0
	ldr	r1, [r1, #4]
	ldr	r7, [r0, #24]!
	add.w	r6, r7, r1, lsl #3
	ldr.w	r4, [r7, r1, lsl #3]
	ldr	r2, [r0, #-8]
	ldr.w	lr, [r6, #4]
	lsr.w	r8, r4, #2
	sub.w	r2, r2, r4, lsr #2
	lsls	r3, r4, #30
	str	r2, [r0, #-8]
	bmi	.LBB5_2
	add.w	r2, r8, r1
	add.w	r3, r7, r2, lsl #3
	ldr.w	r2, [r7, r2, lsl #3]
	ldr	r3, [r3, #4]
	b	.LBB5_3
.LBB5_2:
	movs	r2, #0
	movs	r3, #0
.LBB5_3:
	cmp	r1, #0
	itt	ne
	ldrne.w	r9, [r7, lr, lsl #3]
	lslsne.w	r5, r9, #31
	bne	.LBB5_8
	ldrd	r5, r9, [r12, #8]
	lsls	r7, r2, #31
	bne	.LBB5_7
	orr	r2, r4, #1
	strd	r2, lr, [r6]
	strd	r5, r9, [r6, #8]
	ldrd	r7, r2, [r12, #8]
	lsls	r3, r1, #3
	adds	r7, #1
	adc	r2, r2, #0
	strd	r7, r2, [r12, #8]
	orr	r2, r8, #16
	clz	r2, r2
	rsb.w	r7, r2, #27
	lsr.w	r2, r8, r7
	add.w	r7, r2, r7, lsl #4
	add.w	r4, r12, r7, lsl #2
	ldr.w	r5, [r4, #168]
	mov.w	r6, #-1
	cmp.w	r5, #-1
	str.w	r1, [r4, #168]
	ble	.LBB5_9
	ldr	r0, [r0]
	adds	r2, r0, r3
	add.w	r0, r0, r5, lsl #3
	strd	r5, r6, [r2, #16]
	str	r1, [r0, #20]
	add	sp, #32
	pop.w	{r4, r5, r6, r7, r8, r9, r10, pc}
.LBB5_7:
	adds	r6, r5, #1
	adc	r7, r9, #0
	strd	r6, r7, [r12, #8]
	strd	r4, lr, [sp]
	strd	r5, r9, [sp, #8]
	str	r1, [sp, #16]
	bl	tlsf_heap.fitting.merge_next.4
	add	sp, #32
	pop.w	{r4, r5, r6, r7, r8, r9, r10, pc}
.LBB5_8:
	add.w	r5, r7, lr, lsl #3
	ldrd	r6, r7, [r12, #8]
	ldr.w	r8, [r5, #4]
	adds.w	r10, r6, #1
	adc	r5, r7, #0
	strd	r10, r5, [r12, #8]
	strd	r4, lr, [sp, #24]
	strd	r9, r8, [sp]
	strd	r6, r7, [sp, #8]
	str	r1, [sp, #16]
	bl	tlsf_heap.fitting.merge_before.4
	add	sp, #32
	pop.w	{r4, r5, r6, r7, r8, r9, r10, pc}
.LBB5_9:
	ldr.w	r0, [r12, #24]
	add	r0, r3
	strd	r6, r6, [r0, #16]
	lsrs	r0, r7, #4
	ldr.w	r1, [r12, #80]
	movs	r6, #1
	add.w	r3, r12, r0, lsl #2
	lsl.w	r0, r6, r0
	orrs	r0, r1
	ldr	r7, [r3, #84]
	str.w	r0, [r12, #80]
	and	r0, r2, #15
	lsl.w	r0, r6, r0
	orrs	r0, r7
	str	r0, [r3, #84]
	add	sp, #32
	pop.w	{r4, r5, r6, r7, r8, r9, r10, pc}
.Lfunc_end5:
	.size	tlsf_heap.heap.Heap.release_live.4, .Lfunc_end5-tlsf_heap.heap.Heap.release_live.4
	.cfi_endproc
	.section	.text.tlsf_heap.fitting.merge_before.4,"ax",%progbits
	.p2align	2
	.type	tlsf_heap.fitting.merge_before.4,%function
	.code	16
	.thumb_func
tlsf_heap.fitting.merge_before.4:
	.cfi_startproc
	push.w	{r4, r5, r6, r7, r8, r9, r10, r11, lr}
	.cfi_def_cfa_offset 36
	.cfi_offset lr, -4
	.cfi_offset r11, -8
	.cfi_offset r10, -12
	.cfi_offset r9, -16
	.cfi_offset r8, -20
	.cfi_offset r7, -24
	.cfi_offset r6, -28
	.cfi_offset r5, -32
	.cfi_offset r4, -36
	sub	sp, #20
	.cfi_def_cfa_offset 56
	ldr	r1, [sp, #68]
	ldr	r4, [sp, #80]
	str	r1, [sp, #16]
	add	r7, sp, #56
	ldm	r7, {r5, r6, r7}
	ldr.w	r11, [sp, #72]
	lsls	r1, r2, #31
	bne	.LBB6_3
	orr	r2, r4, #1
	adds	r2, r2, r5
	adc	r3, r6, #0
	subs	r6, r2, #1
	ldr	r2, [r0]
	sub.w	r4, r11, r5, lsr #2
	add.w	r2, r2, r4, lsl #3
	ldr	r2, [r2, #20]
	movw	r10, #65528
	movt	r10, #8191
	lsr.w	r1, r5, #2
	sbc	r3, r3, #0
	cmp	r2, #0
	lsl.w	r8, r4, #3
	str	r3, [sp, #12]
	bmi	.LBB6_4
	lsr.w	r9, r6, #2
	b	.LBB6_8
.LBB6_3:
	ldr	r1, [sp, #84]
	str.w	r11, [sp, #72]
	str	r7, [sp, #64]
	str	r5, [sp, #56]
	strd	r4, r1, [sp, #80]
	ldr	r1, [sp, #16]
	str	r1, [sp, #68]
	str	r6, [sp, #60]
	add	sp, #20
	pop.w	{r4, r5, r6, r7, r8, r9, r10, r11, lr}
	b	tlsf_heap.fitting.merge_both.4
.LBB6_4:
	orr	r2, r1, #16
	clz	r2, r2
	rsb.w	r2, r2, #27
	lsr.w	r3, r1, r2
	add.w	r2, r3, r2, lsl #4
	movs	r3, #16
	orr.w	r3, r3, r6, lsr #2
	clz	r3, r3
	lsr.w	r9, r6, #2
	rsb.w	r3, r3, #27
	lsr.w	r5, r9, r3
	add.w	r3, r5, r3, lsl #4
	cmp	r2, r3
	bne	.LBB6_8
	ldr	r1, [r0, #24]
	and.w	r2, r10, r11, lsr #3
	add.w	r10, r1, r2
	ldr	r3, [r1, r2]
	ldr.w	r5, [r10, #4]
	str	r3, [sp, #4]
	str	r5, [sp, #8]
	movs	r5, #31
	bic.w	r5, r5, r11
	mvn	r12, #-2147483648
	lsr.w	r12, r12, r5
	mvn	r5, #1
	tst.w	r11, #32
	it	ne
	movne.w	r5, #-1
	and	r11, r11, #31
	lsl.w	r5, r5, r11
	orr.w	r3, r5, r12
	mov.w	lr, #-1
	str	r3, [sp]
	it	ne
	mvnne	lr, #1
	lsl.w	r5, lr, r11
	ldr	r3, [sp, #8]
	orr.w	r5, r5, r12
	and.w	r12, r3, r5
	ldrd	r5, r3, [sp]
	str.w	r12, [r10, #4]
	ands	r3, r5
	str	r3, [r1, r2]
	ldr	r1, [r0]
	add.w	r2, r1, r8
	str.w	r6, [r1, r8]
	ldr	r1, [sp, #12]
	strd	r1, r7, [r2, #4]
	lsls	r1, r6, #30
	ldr	r1, [sp, #16]
	str	r1, [r2, #12]
	bmi	.LBB6_7
	ldr	r0, [r0]
	add.w	r1, r9, r4
	add.w	r0, r0, r1, lsl #3
	str	r4, [r0, #4]
.LBB6_7:
	add	sp, #20
	pop.w	{r4, r5, r6, r7, r8, r9, r10, r11, pc}
.LBB6_8:
	mov	r2, r4
	mov	r5, r0
	bl	tlsf_heap.region.Region.remove.4
	ldr	r0, [r5, #24]
	and.w	r1, r10, r11, lsr #3
	ldr	r3, [r0, r1]
	mov	r10, r6
	movs	r6, #31
	bic.w	r6, r6, r11
	mov	r12, r4
	mvn	r4, #-2147483648
	adds	r2, r0, r1
	str	r3, [sp, #4]
	str	r7, [sp, #8]
	lsr.w	r6, r4, r6
	mvn	r4, #1
	mov.w	r7, #-1
	ldr.w	lr, [r2, #4]
	tst.w	r11, #32
	it	ne
	movne.w	r4, #-1
	and	r3, r11, #31
	it	ne
	mvnne	r7, #1
	lsls	r4, r3
	lsl.w	r3, r7, r3
	ldr	r7, [sp, #4]
	orrs	r4, r6
	orrs	r3, r6
	and.w	r3, r3, lr
	ands	r7, r4
	str	r7, [r0, r1]
	str	r3, [r2, #4]
	ldr	r0, [r5]
	add.w	r1, r0, r8
	str.w	r10, [r0, r8]
	ldr	r0, [sp, #12]
	str	r0, [r1, #4]
	ldr	r0, [sp, #8]
	str	r0, [r1, #8]
	lsls.w	r0, r10, #30
	ldr	r0, [sp, #16]
	str	r0, [r1, #12]
	bmi	.LBB6_10
	ldr	r0, [r5]
	add.w	r1, r9, r12
	add.w	r0, r0, r1, lsl #3
	str.w	r12, [r0, #4]
.LBB6_10:
	orr	r0, r9, #16
	clz	r0, r0
	rsb.w	r1, r0, #27
	lsr.w	r0, r9, r1
	add.w	r1, r0, r1, lsl #4
	add.w	r7, r5, r1, lsl #2
	ldr.w	r3, [r7, #144]
	mov.w	r2, #-1
	cmp.w	r3, #-1
	str.w	r12, [r7, #144]
	ble	.LBB6_12
	ldr	r0, [r5]
	add.w	r1, r0, r8
	add.w	r0, r0, r3, lsl #3
	strd	r3, r2, [r1, #16]
	str.w	r12, [r0, #20]
	add	sp, #20
	pop.w	{r4, r5, r6, r7, r8, r9, r10, r11, pc}
.LBB6_12:
	ldr	r3, [r5]
	lsrs	r1, r1, #4
	add	r3, r8
	strd	r2, r2, [r3, #16]
	add.w	r3, r5, r1, lsl #2
	ldr	r2, [r5, #56]
	ldr	r7, [r3, #60]
	movs	r6, #1
	and	r0, r0, #15
	lsl.w	r1, r6, r1
	lsl.w	r0, r6, r0
	orrs	r1, r2
	orrs	r0, r7
	str	r1, [r5, #56]
	str	r0, [r3, #60]
	add	sp, #20
	pop.w	{r4, r5, r6, r7, r8, r9, r10, r11, pc}
.Lfunc_end6:
	.size	tlsf_heap.fitting.merge_before.4, .Lfunc_end6-tlsf_heap.fitting.merge_before.4
	.cfi_endproc
	.section	.text.tlsf_heap.fitting.merge_both.4,"ax",%progbits
	.p2align	2
	.type	tlsf_heap.fitting.merge_both.4,%function
	.code	16
	.thumb_func
tlsf_heap.fitting.merge_both.4:
	.cfi_startproc
	push.w	{r4, r5, r6, r7, r8, r9, r10, r11, lr}
	.cfi_def_cfa_offset 36
	.cfi_offset lr, -4
	.cfi_offset r11, -8
	.cfi_offset r10, -12
	.cfi_offset r9, -16
	.cfi_offset r8, -20
	.cfi_offset r7, -24
	.cfi_offset r6, -28
	.cfi_offset r5, -32
	.cfi_offset r4, -36
	sub	sp, #4
	.cfi_def_cfa_offset 40
	ldr.w	r8, [sp, #64]
	ldr	r7, [sp, #56]
	mov	r6, r2
	ldrd	r11, r10, [sp, #40]
	lsrs	r1, r2, #2
	add.w	r2, r7, r8, lsr #2
	mov	r4, r0
	bl	tlsf_heap.region.Region.remove.4
	sub.w	r5, r7, r11, lsr #2
	lsr.w	r1, r11, #2
	mov	r0, r4
	mov	r2, r5
	bl	tlsf_heap.region.Region.remove.4
	add.w	r0, r8, r6
	adds.w	r0, r0, r11
	adc	r1, r10, #0
	subs.w	r12, r0, #1
	ldr	r2, [r4, #24]
	mvn	r10, #7
	sbc	r9, r1, #0
	and.w	r1, r10, r7, lsr #3
	mov.w	lr, #31
	mvn	r0, #1
	ldr.w	r11, [r2, r1]
	bic.w	r3, lr, r7
	mvn	r8, #-2147483648
	tst.w	r7, #32
	it	ne
	movne.w	r0, #-1
	and	r7, r7, #31
	lsr.w	r3, r8, r3
	lsl.w	r0, r0, r7
	orr.w	r0, r0, r3
	and.w	r0, r0, r11
	str	r0, [r2, r1]
	add.w	r0, r2, r1
	mov.w	r1, #-1
	it	ne
	mvnne	r1, #1
	lsls	r1, r7
	ldr	r2, [r0, #4]
	orrs	r1, r3
	ands	r1, r2
	add.w	r11, r5, r12, lsr #2
	str	r1, [r0, #4]
	sub.w	r1, r11, r6, lsr #2
	ldr	r3, [r4, #24]
	mvn	r0, #1
	and.w	r6, r10, r1, lsr #3
	bic.w	r7, lr, r1
	ldr	r2, [r3, r6]
	tst.w	r1, #32
	it	ne
	movne.w	r0, #-1
	and	r1, r1, #31
	lsr.w	r7, r8, r7
	lsl.w	r0, r0, r1
	orr.w	r0, r0, r7
	and.w	r0, r0, r2
	mov.w	r2, #-1
	str	r0, [r3, r6]
	add.w	r0, r3, r6
	it	ne
	mvnne	r2, #1
	lsl.w	r1, r2, r1
	ldr	r2, [r0, #4]
	orrs	r1, r7
	ands	r1, r2
	str	r1, [r0, #4]
	ldr	r0, [r4]
	ldr	r2, [sp, #48]
	add.w	r1, r0, r5, lsl #3
	str	r2, [r1, #8]
	ldr	r2, [sp, #52]
	str.w	r12, [r0, r5, lsl #3]
	lsls.w	r0, r12, #30
	lsr.w	r0, r12, #2
	str.w	r9, [r1, #4]
	str	r2, [r1, #12]
	bmi	.LBB7_2
	ldr	r1, [r4]
	add.w	r1, r1, r11, lsl #3
	str	r5, [r1, #4]
.LBB7_2:
	orr	r2, r0, #16
	clz	r2, r2
	rsb.w	r2, r2, #27
	lsrs	r0, r2
	add.w	r2, r0, r2, lsl #4
	add.w	r6, r4, r2, lsl #2
	ldr.w	r7, [r6, #144]
	lsls	r1, r5, #3
	mov.w	r3, #-1
	cmp.w	r7, #-1
	str.w	r5, [r6, #144]
	ble	.LBB7_4
	ldr	r0, [r4]
	add	r1, r0
	add.w	r0, r0, r7, lsl #3
	strd	r7, r3, [r1, #16]
	str	r5, [r0, #20]
	add	sp, #4
	pop.w	{r4, r5, r6, r7, r8, r9, r10, r11, pc}
.LBB7_4:
	ldr	r7, [r4]
	movs	r6, #1
	add	r1, r7
	strd	r3, r3, [r1, #16]
	lsrs	r1, r2, #4
	add.w	r3, r4, r1, lsl #2
	ldr	r2, [r4, #56]
	ldr	r7, [r3, #60]
	and	r0, r0, #15
	lsl.w	r1, r6, r1
	lsl.w	r0, r6, r0
	orrs	r1, r2
	orrs	r0, r7
	str	r1, [r4, #56]
	str	r0, [r3, #60]
	add	sp, #4
	pop.w	{r4, r5, r6, r7, r8, r9, r10, r11, pc}
.Lfunc_end7:
	.size	tlsf_heap.fitting.merge_both.4, .Lfunc_end7-tlsf_heap.fitting.merge_both.4
	.cfi_endproc
	.section	.text.tlsf_heap.fitting.merge_next.4,"ax",%progbits
	.p2align	2
	.type	tlsf_heap.fitting.merge_next.4,%function
	.code	16
	.thumb_func
tlsf_heap.fitting.merge_next.4:
	.cfi_startproc
	push.w	{r4, r5, r6, r7, r8, r9, r10, r11, lr}
	.cfi_def_cfa_offset 36
	.cfi_offset lr, -4
	.cfi_offset r11, -8
	.cfi_offset r10, -12
	.cfi_offset r9, -16
	.cfi_offset r8, -20
	.cfi_offset r7, -24
	.cfi_offset r6, -28
	.cfi_offset r5, -32
	.cfi_offset r4, -36
	sub	sp, #4
	.cfi_def_cfa_offset 40
	ldr.w	r11, [sp, #56]
	ldrd	r7, r10, [sp, #40]
	mov	r5, r2
	ldrd	r9, r8, [sp, #48]
	lsrs	r1, r2, #2
	add.w	r2, r11, r7, lsr #2
	mov	r4, r0
	bl	tlsf_heap.region.Region.remove.4
	adds	r1, r5, r7
	add.w	lr, r11, r1, lsr #2
	sub.w	r7, lr, r5, lsr #2
	mov.w	r0, #31
	ldr	r3, [r4, #24]
	mvn	r5, #7
	bic.w	r0, r0, r7
	mvn	r6, #-2147483648
	and.w	r5, r5, r7, lsr #3
	lsr.w	r0, r6, r0
	mvn	r6, #1
	adc	r12, r10, #0
	ldr	r2, [r3, r5]
	tst.w	r7, #32
	it	ne
	movne.w	r6, #-1
	and	r7, r7, #31
	lsl.w	r6, r6, r7
	orr.w	r6, r6, r0
	and.w	r2, r2, r6
	str	r2, [r3, r5]
	add.w	r2, r3, r5
	mov.w	r3, #-1
	it	ne
	mvnne	r3, #1
	lsls	r3, r7
	ldr	r5, [r2, #4]
	orrs	r0, r3
	ands	r0, r5
	str	r0, [r2, #4]
	ldr	r0, [r4]
	add.w	r2, r0, r11, lsl #3
	strd	r12, r9, [r2, #4]
	str.w	r8, [r2, #12]
	str.w	r1, [r0, r11, lsl #3]
	lsls	r0, r1, #30
	lsr.w	r2, r1, #2
	bmi	.LBB8_2
	ldr	r0, [r4]
	add.w	r0, r0, lr, lsl #3
	str.w	r11, [r0, #4]
.LBB8_2:
	orr	r0, r2, #16
	clz	r0, r0
	rsb.w	r3, r0, #27
	lsr.w	r0, r2, r3
	add.w	r2, r0, r3, lsl #4
	add.w	r6, r4, r2, lsl #2
	ldr.w	r7, [r6, #144]
	lsl.w	r1, r11, #3
	mov.w	r3, #-1
	cmp.w	r7, #-1
	str.w	r11, [r6, #144]
	ble	.LBB8_4
	ldr	r0, [r4]
	add	r1, r0
	add.w	r0, r0, r7, lsl #3
	strd	r7, r3, [r1, #16]
	str.w	r11, [r0, #20]
	add	sp, #4
	pop.w	{r4, r5, r6, r7, r8, r9, r10, r11, pc}
.LBB8_4:
	ldr	r7, [r4]
	movs	r6, #1
	add	r1, r7
	strd	r3, r3, [r1, #16]
	lsrs	r1, r2, #4
	add.w	r3, r4, r1, lsl #2
	ldr	r2, [r4, #56]
	ldr	r7, [r3, #60]
	and	r0, r0, #15
	lsl.w	r1, r6, r1
	lsl.w	r0, r6, r0
	orrs	r1, r2
	orrs	r0, r7
	str	r1, [r4, #56]
	str	r0, [r3, #60]
	add	sp, #4
	pop.w	{r4, r5, r6, r7, r8, r9, r10, r11, pc}
.Lfunc_end8:
	.size	tlsf_heap.fitting.merge_next.4, .Lfunc_end8-tlsf_heap.fitting.merge_next.4
	.cfi_endproc
	.section	.text.tlsf_heap.check.examine,"ax",%progbits
	.p2align	2
	.type	tlsf_heap.check.examine,%function
	.code	16
	.thumb_func
tlsf_heap.check.examine:
	.cfi_startproc
	push.w	{r4, r5, r6, r7, r8, r9, r10, r11, lr}
	.cfi_def_cfa_offset 36
	.cfi_offset lr, -4
	.cfi_offset r11, -8
	.cfi_offset r10, -12
	.cfi_offset r9, -16
	.cfi_offset r8, -20
	.cfi_offset r7, -24
	.cfi_offset r6, -28
	.cfi_offset r5, -32
	.cfi_offset r4, -36
	ldr	r7, [r0, #8]
	subs	r4, r7, #4
	cmp	r1, r4
	bhi.w	.LBB9_27
	ldr.w	r9, [r0, #24]
	mvn	r2, #7
	and.w	r2, r2, r1, lsr #3
	add.w	r6, r9, r2
	ldr	r6, [r6, #4]
	ldr.w	r2, [r9, r2]
	and	r5, r1, #63
	rsb.w	r3, r5, #32
	lsrs	r2, r5
	lsl.w	r3, r6, r3
	orrs	r2, r3
	subs.w	r3, r5, #32
	it	pl
	lsrpl.w	r2, r6, r3
	lsls	r2, r2, #31
	beq.w	.LBB9_27
	ldr.w	lr, [r0]
	movs	r2, #0
	ldr.w	r6, [lr, r1, lsl #3]
	cmp	r6, #16
	blo	.LBB9_17
	add.w	r12, r1, r6, lsr #2
	cmp	r12, r7
	mov.w	r0, #0
	bhi.w	.LBB9_24
	sub.w	r2, r12, r7
	clz	r2, r2
	and	r0, r6, #2
	lsrs	r2, r2, #5
	teq.w	r2, r0, lsr #1
	bne.w	.LBB9_27
	add.w	r10, lr, r1, lsl #3
	ldr.w	r0, [r10, #4]
	movw	r8, #65528
	movt	r8, #8191
	cbz	r1, .LBB9_9
	cmp	r4, r0
	blo.w	.LBB9_27
	and.w	r2, r8, r0, lsr #3
	add.w	r3, r9, r2
	ldr.w	r2, [r9, r2]
	ldr	r3, [r3, #4]
	and	r5, r0, #63
	lsr.w	r11, r2, r5
	rsb.w	r2, r5, #32
	lsl.w	r2, r3, r2
	orr.w	r2, r2, r11
	subs	r5, #32
	it	pl
	lsrpl.w	r2, r3, r5
	lsls	r2, r2, #31
	beq.w	.LBB9_27
	ldr.w	r2, [lr, r0, lsl #3]
	add.w	r0, r0, r2, lsr #2
	cmp	r0, r1
	beq	.LBB9_10
	b	.LBB9_27
.LBB9_9:
	adds	r0, #1
	bne.w	.LBB9_27
.LBB9_10:
	cmp	r12, r7
	and	r7, r6, #1
	bhs	.LBB9_15
	cmp	r12, r4
	bhi	.LBB9_27
	and.w	r0, r8, r12, lsr #3
	add.w	r2, r9, r0
	ldr	r2, [r2, #4]
	ldr.w	r0, [r9, r0]
	and	r3, r12, #63
	rsb.w	r5, r3, #32
	lsrs	r0, r3
	lsl.w	r5, r2, r5
	orrs	r0, r5
	subs	r3, #32
	it	pl
	lsrpl.w	r0, r2, r3
	lsls	r0, r0, #31
	beq	.LBB9_27
	add.w	r0, lr, r12, lsl #3
	ldr	r0, [r0, #4]
	movs	r2, #0
	cmp	r1, r0
	bne	.LBB9_17
	ldr.w	r0, [lr, r12, lsl #3]
	ands	r0, r7
	mov.w	r0, #0
	bne	.LBB9_24
.LBB9_15:
	ldrd	r2, r0, [r10, #16]
	cbnz	r7, .LBB9_18
	lsrs	r1, r6, #2
	mvn	r7, #23
	lsrs	r3, r1, #29
	adds.w	r1, r7, r1, lsl #3
	sbc	r3, r3, #0
	subs	r1, r1, r2
	sbcs.w	r0, r3, r0
	bhs	.LBB9_23
	b	.LBB9_27
.LBB9_17:
	movs	r0, #0
	mov	r1, r2
	pop.w	{r4, r5, r6, r7, r8, r9, r10, r11, pc}
.LBB9_18:
	adds	r3, r2, #1
	beq	.LBB9_22
	cmp	r4, r2
	blo	.LBB9_27
	and.w	r3, r8, r2, lsr #3
	add.w	r5, r9, r3
	ldr	r5, [r5, #4]
	ldr.w	r3, [r9, r3]
	and	r6, r2, #63
	rsb.w	r7, r6, #32
	lsrs	r3, r6
	lsl.w	r7, r5, r7
	orrs	r3, r7
	subs	r6, #32
	it	pl
	lsrpl.w	r3, r5, r6
	lsls	r3, r3, #31
	itt	ne
	ldrbne.w	r3, [lr, r2, lsl #3]
	lslsne.w	r3, r3, #31
	beq	.LBB9_27
	add.w	r2, lr, r2, lsl #3
	ldr	r2, [r2, #20]
	cmp	r1, r2
	bne	.LBB9_27
.LBB9_22:
	adds	r2, r0, #1
	bne	.LBB9_25
.LBB9_23:
	movs	r0, #1
	mov	r2, r12
.LBB9_24:
	mov	r1, r2
	pop.w	{r4, r5, r6, r7, r8, r9, r10, r11, pc}
.LBB9_25:
	cmp	r4, r0
	blo	.LBB9_27
	and.w	r2, r8, r0, lsr #3
	add.w	r3, r9, r2
	ldr	r3, [r3, #4]
	ldr.w	r2, [r9, r2]
	and	r4, r0, #63
	rsb.w	r5, r4, #32
	lsrs	r2, r4
	lsl.w	r5, r3, r5
	orrs	r2, r5
	subs	r4, #32
	it	pl
	lsrpl.w	r2, r3, r4
	lsls	r2, r2, #31
	itt	ne
	ldrbne.w	r2, [lr, r0, lsl #3]
	lslsne.w	r2, r2, #31
	bne	.LBB9_28
.LBB9_27:
	movs	r1, #0
	movs	r0, #0
	pop.w	{r4, r5, r6, r7, r8, r9, r10, r11, pc}
.LBB9_28:
	add.w	r0, lr, r0, lsl #3
	ldr	r0, [r0, #16]
	cmp	r1, r0
	beq	.LBB9_23
	b	.LBB9_27
.Lfunc_end9:
	.size	tlsf_heap.check.examine, .Lfunc_end9-tlsf_heap.check.examine
	.cfi_endproc
	.section	.text.tlsf_heap.around.check_around,"ax",%progbits
	.p2align	2
	.type	tlsf_heap.around.check_around,%function
	.code	16
	.thumb_func
tlsf_heap.around.check_around:
	.cfi_startproc
	push.w	{r4, r5, r6, r7, r8, lr}
	.cfi_def_cfa_offset 24
	.cfi_offset lr, -4
	.cfi_offset r8, -8
	.cfi_offset r7, -12
	.cfi_offset r6, -16
	.cfi_offset r5, -20
	.cfi_offset r4, -24
	ldr	r7, [r1, #8]
	mov	r4, r2
	subs	r2, r7, #4
	cmp	r4, r2
	bhi	.LBB10_7
	ldr	r2, [r1, #24]
	mvn	r3, #7
	and.w	r3, r3, r4, lsr #3
	adds	r6, r2, r3
	ldr	r6, [r6, #4]
	ldr	r2, [r2, r3]
	and	r3, r4, #63
	rsb.w	r5, r3, #32
	lsrs	r2, r3
	lsl.w	r5, r6, r5
	orrs	r2, r5
	subs	r3, #32
	it	pl
	lsrpl.w	r2, r6, r3
	lsls	r2, r2, #31
	beq	.LBB10_7
	mov	r8, r0
	mov	r6, r1
	mov	r0, r1
	mov	r1, r4
	bl	tlsf_heap.check.examine
	uxtb	r0, r0
	cmp	r0, #1
	bne	.LBB10_8
	mov	r5, r1
	cbz	r4, .LBB10_5
	ldr	r1, [r6]
	mov	r0, r6
	add.w	r1, r1, r4, lsl #3
	ldr	r4, [r1, #4]
	mov	r1, r4
	bl	tlsf_heap.check.examine
	uxtb	r0, r0
	cmp	r0, #1
	bne	.LBB10_8
.LBB10_5:
	cmp	r5, r7
	bne	.LBB10_9
	movs	r2, #0
	movs	r1, #1
	movs	r4, #0
	b	.LBB10_10
.LBB10_7:
	movs	r1, #0
	movs	r2, #0
	movs	r4, #0
	b	.LBB10_11
.LBB10_8:
	movs	r1, #1
	movs	r2, #1
	b	.LBB10_10
.LBB10_9:
	mov	r0, r6
	mov	r1, r5
	bl	tlsf_heap.check.examine
	uxtb	r0, r0
	subs	r2, r0, #1
	it	ne
	movne	r2, #1
	movs	r1, #1
	mov	r4, r5
.LBB10_10:
	mov	r0, r8
.LBB10_11:
	str	r1, [r0]
	str	r2, [r0, #4]
	str	r4, [r0, #8]
	pop.w	{r4, r5, r6, r7, r8, pc}
.Lfunc_end10:
	.size	tlsf_heap.around.check_around, .Lfunc_end10-tlsf_heap.around.check_around
	.cfi_endproc
	.section	.text.tlsf_post.take_end.TakeEnd.take_slice,"ax",%progbits
	.p2align	2
	.type	tlsf_post.take_end.TakeEnd.take_slice,%function
	.code	16
	.thumb_func
tlsf_post.take_end.TakeEnd.take_slice:
	.cfi_startproc
	push.w	{r4, r5, r6, r7, r8, r9, r10, r11, lr}
	.cfi_def_cfa_offset 36
	.cfi_offset lr, -4
	.cfi_offset r11, -8
	.cfi_offset r10, -12
	.cfi_offset r9, -16
	.cfi_offset r8, -20
	.cfi_offset r7, -24
	.cfi_offset r6, -28
	.cfi_offset r5, -32
	.cfi_offset r4, -36
	sub	sp, #52
	.cfi_def_cfa_offset 88
	mov	r11, r0
	ldrd	r8, r5, [r0, #24]
	ldr	r0, [r0, #32]
	mov	r9, r2
	ldr.w	r2, [r11, #36]
	mov	r10, r3
	subs.w	r3, r0, r8
	sbcs.w	r3, r2, r5
	mov	r6, r1
	bhs	.LBB11_2
	ldrd	r1, r3, [r11, #16]
	subs.w	r0, r0, r8
	lsl.w	r3, r3, #1
	orr.w	r3, r3, r1, lsr #31
	sbcs	r2, r5
	adds.w	r0, r0, r1, lsl #1
	adc.w	r1, r2, r3
	b	.LBB11_3
.LBB11_2:
	subs.w	r0, r0, r8
	sbc.w	r1, r2, r5
.LBB11_3:
	subs.w	r0, r0, r9
	sbcs.w	r0, r1, r10
	bhs	.LBB11_8
	ldr.w	r0, [r11]
	adds	r0, #128
	movs	r1, #5
	bl	__atomic_load_8
	ldrd	r8, r5, [r11, #24]
	strd	r0, r1, [r11, #32]
	subs.w	r2, r0, r8
	sbcs.w	r2, r1, r5
	bhs	.LBB11_6
	ldrd	r2, r3, [r11, #16]
	subs.w	r0, r0, r8
	lsl.w	r3, r3, #1
	orr.w	r3, r3, r2, lsr #31
	sbcs	r1, r5
	adds.w	r0, r0, r2, lsl #1
	adcs	r1, r3
	b	.LBB11_7
.LBB11_6:
	subs.w	r0, r0, r8
	sbcs	r1, r5
.LBB11_7:
	subs.w	r2, r0, r9
	sbcs.w	r2, r1, r10
	itt	lo
	movlo	r10, r1
	movlo	r9, r0
.LBB11_8:
	orrs.w	r0, r9, r10
	beq.w	.LBB11_28
	ldrd	r4, r7, [r11, #16]
	mov	r2, r10
	subs.w	r10, r8, r4
	sbcs.w	r0, r5, r7
	str	r5, [sp, #36]
	it	lo
	movlo	r0, r5
	str.w	r8, [sp, #40]
	it	lo
	movlo	r10, r8
	subs.w	r12, r4, r10
	sbc.w	lr, r7, r0
	subs.w	r1, r12, r9
	sbcs.w	r1, lr, r2
	mov	r8, r2
	mov	r5, r9
	itt	lo
	movlo	r8, lr
	movlo	r5, r12
	subs.w	r1, r9, r5
	str	r1, [sp, #24]
	eor.w	r0, r0, r7
	eor.w	r1, r4, r10
	sbc.w	r3, r2, r8
	orrs	r0, r1
	str.w	r9, [sp, #48]
	str	r2, [sp, #44]
	str	r7, [sp, #28]
	str	r4, [sp, #32]
	beq.w	.LBB11_18
	subs	r0, r5, #4
	sbcs	r0, r8, #0
	and	r4, r5, #3
	strd	lr, r12, [sp, #8]
	strd	r5, r3, [sp, #16]
	bhs	.LBB11_12
	movs	r7, #0
	b	.LBB11_15
.LBB11_12:
	str	r4, [sp, #4]
	bic	r4, r5, #3
	movs	r7, #0
	mov.w	r9, #0
	.p2align	2
.LBB11_13:
	add.w	r0, r7, r10
	ldr.w	r1, [r11, #8]
	add.w	r0, r0, r0, lsl #1
	add.w	r1, r1, r0, lsl #3
	add.w	r0, r7, r7, lsl #1
	add.w	r0, r6, r0, lsl #3
	movs	r2, #24
	bl	tlsf_memory_move
	orr	r0, r7, #1
	add.w	r1, r0, r10
	ldr.w	r2, [r11, #8]
	add.w	r1, r1, r1, lsl #1
	add.w	r0, r0, r0, lsl #1
	add.w	r1, r2, r1, lsl #3
	add.w	r0, r6, r0, lsl #3
	movs	r2, #24
	bl	tlsf_memory_move
	orr	r0, r7, #2
	add.w	r1, r0, r10
	ldr.w	r2, [r11, #8]
	add.w	r1, r1, r1, lsl #1
	add.w	r0, r0, r0, lsl #1
	add.w	r1, r2, r1, lsl #3
	add.w	r0, r6, r0, lsl #3
	movs	r2, #24
	bl	tlsf_memory_move
	orr	r0, r7, #3
	add.w	r1, r0, r10
	ldr.w	r2, [r11, #8]
	add.w	r1, r1, r1, lsl #1
	add.w	r0, r0, r0, lsl #1
	add.w	r1, r2, r1, lsl #3
	add.w	r0, r6, r0, lsl #3
	movs	r2, #24
	bl	tlsf_memory_move
	adds	r7, #4
	adc	r9, r9, #0
	eor.w	r0, r7, r4
	eor.w	r1, r9, r8
	orrs	r0, r1
	bne	.LBB11_13
	ldr	r4, [sp, #4]
	ldrd	r5, r3, [sp, #16]
	ldrd	lr, r12, [sp, #8]
	cmp	r4, #0
	beq	.LBB11_18
.LBB11_15:
	add.w	r0, r7, r10
	ldr.w	r1, [r11, #8]
	add.w	r0, r0, r0, lsl #1
	add.w	r1, r1, r0, lsl #3
	add.w	r0, r7, r7, lsl #1
	add.w	r0, r6, r0, lsl #3
	movs	r2, #24
	bl	tlsf_memory_move
	ldrd	lr, r12, [sp, #8]
	ldrd	r5, r3, [sp, #16]
	cmp	r4, #1
	beq	.LBB11_18
	adds	r0, r7, #1
	add.w	r1, r0, r10
	ldr.w	r2, [r11, #8]
	add.w	r1, r1, r1, lsl #1
	add.w	r0, r0, r0, lsl #1
	add.w	r1, r2, r1, lsl #3
	add.w	r0, r6, r0, lsl #3
	movs	r2, #24
	bl	tlsf_memory_move
	ldrd	lr, r12, [sp, #8]
	ldrd	r5, r3, [sp, #16]
	cmp	r4, #2
	beq	.LBB11_18
	adds	r0, r7, #2
	add.w	r1, r0, r10
	ldr.w	r2, [r11, #8]
	add.w	r1, r1, r1, lsl #1
	add.w	r0, r0, r0, lsl #1
	add.w	r1, r2, r1, lsl #3
	add.w	r0, r6, r0, lsl #3
	movs	r2, #24
	bl	tlsf_memory_move
	ldrd	lr, r12, [sp, #8]
	ldrd	r5, r3, [sp, #16]
.LBB11_18:
	ldr.w	r9, [sp, #48]
	ldr.w	r10, [sp, #44]
	subs.w	r0, r12, r9
	sbcs.w	r0, lr, r10
	bhs	.LBB11_27
	add.w	r0, r5, r5, lsl #1
	add.w	r6, r6, r0, lsl #3
	subs.w	r0, r5, r9
	mvn	r2, #3
	sbc.w	r1, r8, r10
	subs	r0, r2, r0
	mov.w	r0, #-1
	sbcs	r0, r1
	ldr	r0, [sp, #24]
	and	r8, r0, #3
	bhs	.LBB11_21
	movs	r7, #0
	b	.LBB11_24
.LBB11_21:
	bic	r9, r0, #3
	movs	r7, #0
	movs	r4, #0
	.p2align	2
.LBB11_22:
	ldr.w	r0, [r11, #8]
	add.w	r5, r7, r7, lsl #1
	add.w	r1, r0, r5, lsl #3
	add.w	r0, r6, r5, lsl #3
	movs	r2, #24
	mov	r10, r3
	bl	tlsf_memory_move
	ldr.w	r0, [r11, #8]
	orr	r2, r5, #3
	add.w	r1, r0, r2, lsl #3
	add.w	r0, r6, r2, lsl #3
	movs	r2, #24
	bl	tlsf_memory_move
	ldr.w	r0, [r11, #8]
	adds	r2, r5, #6
	add.w	r1, r0, r2, lsl #3
	add.w	r0, r6, r2, lsl #3
	movs	r2, #24
	bl	tlsf_memory_move
	ldr.w	r0, [r11, #8]
	add.w	r2, r5, #9
	add.w	r1, r0, r2, lsl #3
	add.w	r0, r6, r2, lsl #3
	movs	r2, #24
	bl	tlsf_memory_move
	adds	r7, #4
	adc	r4, r4, #0
	eor.w	r0, r7, r9
	eor.w	r1, r4, r10
	mov	r3, r10
	orrs	r0, r1
	bne	.LBB11_22
	ldrd	r10, r9, [sp, #44]
	cmp.w	r8, #0
	beq	.LBB11_27
.LBB11_24:
	ldr.w	r0, [r11, #8]
	add.w	r7, r7, r7, lsl #1
	add.w	r1, r0, r7, lsl #3
	add.w	r0, r6, r7, lsl #3
	movs	r2, #24
	bl	tlsf_memory_move
	cmp.w	r8, #1
	beq	.LBB11_27
	ldr.w	r0, [r11, #8]
	adds	r2, r7, #3
	add.w	r1, r0, r2, lsl #3
	add.w	r0, r6, r2, lsl #3
	movs	r2, #24
	bl	tlsf_memory_move
	cmp.w	r8, #2
	beq	.LBB11_27
	ldr.w	r0, [r11, #8]
	movs	r1, #48
	add.w	r2, r1, r7, lsl #3
	adds	r1, r0, r2
	adds	r0, r6, r2
	movs	r2, #24
	bl	tlsf_memory_move
.LBB11_27:
	ldr	r0, [sp, #28]
	ldr	r1, [sp, #32]
	ldr	r7, [sp, #40]
	lsls	r0, r0, #1
	ldr	r6, [sp, #36]
	orr.w	r0, r0, r1, lsr #31
	rsbs	r1, r7, r1, lsl #1
	sbcs	r0, r6
	rsbs	r2, r1, #0
	mov.w	r3, #0
	sbcs	r3, r0
	subs.w	r1, r9, r1
	sbcs.w	r0, r10, r0
	itt	lo
	movlo	r3, r6
	movlo	r2, r7
	adds.w	r8, r2, r9
	ldr.w	r0, [r11]
	adc.w	r5, r3, r10
	movs	r1, #5
	mov	r2, r8
	mov	r3, r5
	str	r1, [sp]
	bl	__atomic_store_8
.LBB11_28:
	mov	r0, r9
	mov	r1, r10
	strd	r8, r5, [r11, #24]
	add	sp, #52
	pop.w	{r4, r5, r6, r7, r8, r9, r10, r11, pc}
.Lfunc_end11:
	.size	tlsf_post.take_end.TakeEnd.take_slice, .Lfunc_end11-tlsf_post.take_end.TakeEnd.take_slice
	.cfi_endproc
	.section	.text.tlsf_c.heap_calls.release_named,"ax",%progbits
	.p2align	2
	.type	tlsf_c.heap_calls.release_named,%function
	.code	16
	.thumb_func
tlsf_c.heap_calls.release_named:
	.cfi_startproc
	push.w	{r4, r5, r6, r7, r8, r9, r10, r11, lr}
	.cfi_def_cfa_offset 36
	.cfi_offset lr, -4
	.cfi_offset r11, -8
	.cfi_offset r10, -12
	.cfi_offset r9, -16
	.cfi_offset r8, -20
	.cfi_offset r7, -24
	.cfi_offset r6, -28
	.cfi_offset r5, -32
	.cfi_offset r4, -36
	sub	sp, #36
	.cfi_def_cfa_offset 72
	ldrb	r7, [r0, #8]
	cmp	r7, #0
	beq.w	.LBB12_18
	ldr	r4, [r0]
	ldrb	r0, [r4]
	cmp	r0, #0
	beq.w	.LBB12_18
	ldr.w	r12, [r4, #24]
	ldr.w	lr, [sp, #72]
	movs	r0, #0
	cmp	r1, r12
	strb	r0, [r4]
	bne	.LBB12_11
	ldr	r0, [r4, #56]
	mov	r12, r1
	cmp	lr, r0
	bhs	.LBB12_11
	ldr	r0, [r4, #72]
	mvn	r7, #7
	and.w	r7, r7, lr, lsr #3
	adds	r6, r0, r7
	ldr	r6, [r6, #4]
	ldr	r0, [r0, r7]
	and	r7, lr, #63
	rsb.w	r5, r7, #32
	lsrs	r0, r7
	lsl.w	r5, r6, r5
	orrs	r0, r5
	subs	r7, #32
	it	pl
	lsrpl.w	r0, r6, r7
	lsls	r0, r0, #31
	mov	r12, r1
	beq	.LBB12_11
	add.w	r0, r4, #48
	ldr	r7, [r0]
	mov	r12, r1
	ldr.w	r9, [r7, lr, lsl #3]
	lsls.w	r6, r9, #31
	bne	.LBB12_11
	add.w	r11, r7, lr, lsl #3
	ldrd	r6, r5, [r11, #8]
	mov	r12, r1
	eors	r3, r5
	eors	r2, r6
	orrs	r2, r3
	bne	.LBB12_11
	ldrd	r1, r12, [r4, #32]
	and.w	r2, r1, r12
	adds	r2, #1
	beq	.LBB12_10
	ldr	r2, [r4, #40]
	ldr.w	r8, [r11, #4]
	lsr.w	r5, r9, #2
	sub.w	r2, r2, r9, lsr #2
	lsls.w	r3, r9, #30
	str	r2, [r4, #40]
	bmi	.LBB12_12
	add.w	r2, r5, lr
	add.w	r3, r7, r2, lsl #3
	ldr.w	r2, [r7, r2, lsl #3]
	ldr	r3, [r3, #4]
	b	.LBB12_13
.LBB12_10:
	movs	r0, #2
	b	.LBB12_22
.LBB12_11:
	mov	r0, r1
	mov	r1, r12
	bl	tlsf_heap.refusal.Refusal.of_name
	uxtb	r0, r0
	cmp	r0, #3
	mov.w	r0, #3
	it	eq
	moveq	r0, #4
	b	.LBB12_22
.LBB12_12:
	movs	r2, #0
	movs	r3, #0
.LBB12_13:
	cmp.w	lr, #0
	itt	ne
	ldrne.w	r10, [r7, r8, lsl #3]
	lslsne.w	r6, r10, #31
	bne	.LBB12_19
	lsls	r6, r2, #31
	bne	.LBB12_17
	orr	r2, r9, #1
	strd	r2, r8, [r11]
	strd	r1, r12, [r11, #8]
	ldrd	r3, r2, [r4, #32]
	mov.w	r1, #-1
	adds	r3, #1
	adc	r2, r2, #0
	strd	r3, r2, [r4, #32]
	orr	r2, r5, #16
	clz	r2, r2
	rsb.w	r3, r2, #27
	lsr.w	r2, r5, r3
	add.w	r6, r2, r3, lsl #4
	add.w	r5, r4, r6, lsl #2
	ldr.w	r7, [r5, #192]
	lsl.w	r3, lr, #3
	cmp.w	r7, #-1
	str.w	lr, [r5, #192]
	ble	.LBB12_20
	adds	r2, r1, r7
	ldr	r0, [r0]
	adc	r1, r1, #0
	adds	r2, #1
	sbc	r1, r1, #0
	add	r3, r0
	add.w	r0, r0, r7, lsl #3
	strd	r2, r1, [r3, #16]
	str.w	lr, [r0, #20]
	b	.LBB12_21
.LBB12_17:
	adds	r5, r1, #1
	adc	r6, r12, #0
	strd	r5, r6, [r4, #32]
	add	r5, sp, #8
	strd	r9, r8, [sp]
	stm.w	r5, {r1, r12, lr}
	bl	tlsf_heap.fitting.merge_next.4
	b	.LBB12_21
.LBB12_18:
	movs	r0, #0
	add	sp, #36
	pop.w	{r4, r5, r6, r7, r8, r9, r10, r11, lr}
	b	tlsf_c.call_fault.CallFault.refusal
.LBB12_19:
	add.w	r5, r7, r8, lsl #3
	ldr	r5, [r5, #4]
	adds	r6, r1, #1
	adc	r7, r12, #0
	strd	r6, r7, [r4, #32]
	strd	r10, r5, [sp]
	add	r5, sp, #8
	strd	r9, r8, [sp, #24]
	stm.w	r5, {r1, r12, lr}
	bl	tlsf_heap.fitting.merge_before.4
	b	.LBB12_21
.LBB12_20:
	ldr	r0, [r4, #48]
	add	r0, r3
	strd	r1, r1, [r0, #16]
	lsrs	r0, r6, #4
	ldr	r1, [r4, #104]
	movs	r6, #1
	add.w	r3, r4, r0, lsl #2
	lsl.w	r0, r6, r0
	orrs	r0, r1
	ldr	r7, [r3, #108]
	str	r0, [r4, #104]
	and	r0, r2, #15
	lsl.w	r0, r6, r0
	orrs	r0, r7
	str	r0, [r3, #108]
.LBB12_21:
	movs	r0, #0
.LBB12_22:
	movs	r1, #1
	strb	r1, [r4]
	add	sp, #36
	pop.w	{r4, r5, r6, r7, r8, r9, r10, r11, pc}
.Lfunc_end12:
	.size	tlsf_c.heap_calls.release_named, .Lfunc_end12-tlsf_c.heap_calls.release_named
	.cfi_endproc
	.section	.text.unlikely.tlsf_heap.refusal.Refusal.of_name,"ax",%progbits
	.p2align	2
	.type	tlsf_heap.refusal.Refusal.of_name,%function
	.code	16
	.thumb_func
tlsf_heap.refusal.Refusal.of_name:
	.cfi_startproc
	cmp	r0, r1
	mov.w	r0, #2
	it	eq
	moveq	r0, #3
	bx	lr
.Lfunc_end13:
	.size	tlsf_heap.refusal.Refusal.of_name, .Lfunc_end13-tlsf_heap.refusal.Refusal.of_name
	.cfi_endproc
	.section	.text.std_alloc.boxed.Box.new.91a8e04f462e8cea,"ax",%progbits
	.p2align	2
	.type	std_alloc.boxed.Box.new.91a8e04f462e8cea,%function
	.code	16
	.thumb_func
std_alloc.boxed.Box.new.91a8e04f462e8cea:
	.cfi_startproc
	push	{r4, r5, r6, r7, lr}
	.cfi_def_cfa_offset 20
	.cfi_offset lr, -4
	.cfi_offset r7, -8
	.cfi_offset r6, -12
	.cfi_offset r5, -16
	.cfi_offset r4, -20
	sub	sp, #60
	.cfi_def_cfa_offset 80
	ldrb	r6, [r1], #8
	mov	r4, r0
	ldrb	r7, [r1, #-7]
	mov	r0, sp
	movs	r2, #40
	bl	tlsf_memory_cpy
	add	r0, sp, #40
	movs	r1, #48
	movs	r2, #8
	bl	tlsf_memory_alloc
	ldr	r0, [sp, #40]
	lsls	r0, r0, #31
	beq	.LBB14_2
	ldr	r5, [sp, #48]
	mov	r1, sp
	add.w	r0, r5, #8
	movs	r2, #40
	strb	r6, [r5]
	strb	r7, [r5, #1]
	bl	tlsf_memory_cpy
	add.w	r0, r4, #16
	movs	r1, #0
	movs	r2, #40
	movs	r6, #0
	bl	tlsf_memory_set
	b	.LBB14_3
.LBB14_2:
	add.w	r0, r4, #16
	mov	r1, sp
	movs	r2, #40
	orr.w	r5, r6, r7, lsl #8
	bl	tlsf_memory_cpy
	movs	r6, #1
.LBB14_3:
	movs	r0, #0
	str	r0, [r4, #4]
	str	r6, [r4]
	str	r5, [r4, #8]
	str	r0, [r4, #12]
	add	sp, #60
	pop	{r4, r5, r6, r7, pc}
.Lfunc_end14:
	.size	std_alloc.boxed.Box.new.91a8e04f462e8cea, .Lfunc_end14-std_alloc.boxed.Box.new.91a8e04f462e8cea
	.cfi_endproc
	.section	.text.rtrb.producer.Producer.drop.9fca81e6602d26fc,"ax",%progbits
	.p2align	2
	.type	rtrb.producer.Producer.drop.9fca81e6602d26fc,%function
	.code	16
	.thumb_func
rtrb.producer.Producer.drop.9fca81e6602d26fc:
	.cfi_startproc
	push	{r4, r5, r6, r7, lr}
	.cfi_def_cfa_offset 20
	.cfi_offset lr, -4
	.cfi_offset r7, -8
	.cfi_offset r6, -12
	.cfi_offset r5, -16
	.cfi_offset r4, -20
	sub	sp, #4
	.cfi_def_cfa_offset 24
	ldr	r4, [r0]
	ldr	r5, [r0, #8]
	ldr	r6, [r0, #16]
	ldr	r7, [r0, #20]
	add.w	r0, r4, #256
	movs	r1, #5
	movs	r2, #1
	movs	r3, #0
	str	r1, [sp]
	bl	__atomic_exchange_8
	orrs	r0, r1
	beq	.LBB15_2
	mov	r0, r4
	mov	r1, r5
	mov	r2, r6
	mov	r3, r7
	add	sp, #4
	pop.w	{r4, r5, r6, r7, lr}
	b	rtrb.release.drop_slow.23d795680250cb0d
.LBB15_2:
	add	sp, #4
	pop	{r4, r5, r6, r7, pc}
.Lfunc_end15:
	.size	rtrb.producer.Producer.drop.9fca81e6602d26fc, .Lfunc_end15-rtrb.producer.Producer.drop.9fca81e6602d26fc
	.cfi_endproc
	.section	.text.rtrb.release.drop_slow.23d795680250cb0d,"ax",%progbits
	.p2align	2
	.type	rtrb.release.drop_slow.23d795680250cb0d,%function
	.code	16
	.thumb_func
rtrb.release.drop_slow.23d795680250cb0d:
	.cfi_startproc
	push.w	{r4, r5, r6, r7, r8, r9, r10, r11, lr}
	.cfi_def_cfa_offset 36
	.cfi_offset lr, -4
	.cfi_offset r11, -8
	.cfi_offset r10, -12
	.cfi_offset r9, -16
	.cfi_offset r8, -20
	.cfi_offset r7, -24
	.cfi_offset r6, -28
	.cfi_offset r5, -32
	.cfi_offset r4, -36
	sub	sp, #12
	.cfi_def_cfa_offset 48
	str	r1, [sp, #8]
	movs	r1, #5
	mov	r5, r3
	mov	r4, r2
	mov	r9, r0
	mov.w	r8, #5
	bl	__atomic_load_8
	mov	r6, r0
	mov	r7, r1
	add.w	r0, r9, #128
	movs	r1, #5
	bl	__atomic_load_8
	mov	r11, r0
	mov	r10, r1
	eor.w	r0, r7, r1
	eor.w	r1, r6, r11
	orrs	r0, r1
	beq	.LBB16_3
	lsls	r0, r5, #1
	mov.w	r1, #-1
	orr.w	r0, r0, r4, lsr #31
	adds.w	r5, r1, r4, lsl #1
	sbc	r4, r0, #0
	.p2align	2
.LBB16_2:
	subs	r0, r6, r5
	sbcs.w	r0, r7, r4
	mov.w	r0, #0
	it	lo
	movlo	r0, #1
	adds	r6, #1
	adc	r7, r7, #0
	cmp	r0, #0
	it	eq
	moveq	r7, r0
	it	eq
	moveq	r6, r0
	mov	r0, r9
	mov	r2, r6
	mov	r3, r7
	str.w	r8, [sp]
	bl	__atomic_store_8
	eor.w	r0, r7, r10
	eor.w	r1, r6, r11
	orrs	r0, r1
	bne	.LBB16_2
.LBB16_3:
	ldr	r0, [sp, #8]
	bl	tlsf_memory_dealloc
	mov	r0, r9
	add	sp, #12
	pop.w	{r4, r5, r6, r7, r8, r9, r10, r11, lr}
	b	tlsf_memory_dealloc
.Lfunc_end16:
	.size	rtrb.release.drop_slow.23d795680250cb0d, .Lfunc_end16-rtrb.release.drop_slow.23d795680250cb0d
	.cfi_endproc
	.section	.text.rtrb.consumer.Consumer.drop.9fca81e6602d26fc,"ax",%progbits
	.p2align	2
	.type	rtrb.consumer.Consumer.drop.9fca81e6602d26fc,%function
	.code	16
	.thumb_func
rtrb.consumer.Consumer.drop.9fca81e6602d26fc:
	.cfi_startproc
	push	{r4, r5, r6, r7, lr}
	.cfi_def_cfa_offset 20
	.cfi_offset lr, -4
	.cfi_offset r7, -8
	.cfi_offset r6, -12
	.cfi_offset r5, -16
	.cfi_offset r4, -20
	sub	sp, #4
	.cfi_def_cfa_offset 24
	ldr	r4, [r0]
	ldr	r5, [r0, #8]
	ldr	r6, [r0, #16]
	ldr	r7, [r0, #20]
	add.w	r0, r4, #256
	movs	r1, #5
	movs	r2, #1
	movs	r3, #0
	str	r1, [sp]
	bl	__atomic_exchange_8
	orrs	r0, r1
	beq	.LBB17_2
	mov	r0, r4
	mov	r1, r5
	mov	r2, r6
	mov	r3, r7
	add	sp, #4
	pop.w	{r4, r5, r6, r7, lr}
	b	rtrb.release.drop_slow.23d795680250cb0d
.LBB17_2:
	add	sp, #4
	pop	{r4, r5, r6, r7, pc}
.Lfunc_end17:
	.size	rtrb.consumer.Consumer.drop.9fca81e6602d26fc, .Lfunc_end17-rtrb.consumer.Consumer.drop.9fca81e6602d26fc
	.cfi_endproc
	.section	.text.std_alloc.vec.Vec.drop.7ac45d8413b9ad54,"ax",%progbits
	.p2align	2
	.type	std_alloc.vec.Vec.drop.7ac45d8413b9ad54,%function
	.code	16
	.thumb_func
std_alloc.vec.Vec.drop.7ac45d8413b9ad54:
	.cfi_startproc
	push.w	{r4, r5, r6, r7, r8, r9, r10, r11, lr}
	.cfi_def_cfa_offset 36
	.cfi_offset lr, -4
	.cfi_offset r11, -8
	.cfi_offset r10, -12
	.cfi_offset r9, -16
	.cfi_offset r8, -20
	.cfi_offset r7, -24
	.cfi_offset r6, -28
	.cfi_offset r5, -32
	.cfi_offset r4, -36
	sub	sp, #116
	.cfi_def_cfa_offset 152
	ldr	r6, [r0]
	ldr	r4, [r0, #8]
	ldr	r5, [r0, #12]
	ldr	r3, [r0, #16]
	ldr	r0, [r0, #20]
	str	r3, [sp, #8]
	str	r0, [sp, #4]
	orrs.w	r0, r4, r5
	beq	.LBB18_3
	add.w	r0, sp, #18
	add.w	r10, r0, #6
	add	r0, sp, #64
	adds	r0, #8
	mov.w	r8, #0
	mov.w	r9, #0
	str	r0, [sp, #12]
	.p2align	2
.LBB18_2:
	ldr.w	r7, [r6, r8, lsl #3]
	mov	r0, r10
	mov	r1, r7
	ldrh	r11, [r1], #8
	movs	r2, #40
	bl	tlsf_memory_cpy
	mov	r0, r7
	bl	tlsf_memory_dealloc
	movs	r0, #0
	strd	r0, r0, [sp, #64]
	ldr	r0, [sp, #12]
	mov	r1, r10
	movs	r2, #40
	strh.w	r11, [sp, #64]
	bl	tlsf_memory_cpy
	add	r0, sp, #64
	bl	tlsf_c.tlsf_c.any_end.AnyEnd.Destruct.drop
	adds.w	r8, r8, #1
	adc	r9, r9, #0
	subs.w	r0, r8, r4
	sbcs.w	r0, r9, r5
	blo	.LBB18_2
.LBB18_3:
	ldrd	r2, r0, [sp, #4]
	orrs	r0, r2
	beq	.LBB18_5
	mov	r0, r6
	add	sp, #116
	pop.w	{r4, r5, r6, r7, r8, r9, r10, r11, lr}
	b	tlsf_memory_dealloc
.LBB18_5:
	add	sp, #116
	pop.w	{r4, r5, r6, r7, r8, r9, r10, r11, pc}
.Lfunc_end18:
	.size	std_alloc.vec.Vec.drop.7ac45d8413b9ad54, .Lfunc_end18-std_alloc.vec.Vec.drop.7ac45d8413b9ad54
	.cfi_endproc
	.section	.text.std_alloc.arc.Arc.drop.c4a047e811255370,"ax",%progbits
	.p2align	2
	.type	std_alloc.arc.Arc.drop.c4a047e811255370,%function
	.code	16
	.thumb_func
std_alloc.arc.Arc.drop.c4a047e811255370:
	.cfi_startproc
	push	{r4, r5, r6, lr}
	.cfi_def_cfa_offset 16
	.cfi_offset lr, -4
	.cfi_offset r6, -8
	.cfi_offset r5, -12
	.cfi_offset r4, -16
	sub	sp, #8
	.cfi_def_cfa_offset 24
	movs	r1, #5
	movs	r2, #1
	movs	r3, #0
	mov	r4, r0
	str	r1, [sp]
	bl	__atomic_fetch_sub_8
	eor	r0, r0, #1
	orrs	r0, r1
	itt	ne
	addne	sp, #8
	popne	{r4, r5, r6, pc}
.LBB19_1:
	ldr	r5, [r4, #40]
	ldr	r6, [r4, #56]
	mov	r0, r4
	bl	tlsf_memory_dealloc
	mov	r0, r5
	bl	tlsf_memory_dealloc
	mov	r0, r6
	add	sp, #8
	pop.w	{r4, r5, r6, lr}
	b	tlsf_memory_dealloc
.Lfunc_end19:
	.size	std_alloc.arc.Arc.drop.c4a047e811255370, .Lfunc_end19-std_alloc.arc.Arc.drop.c4a047e811255370
	.cfi_endproc
	.section	.text.std_alloc.boxed.Box.drop.7d8ec8058c3633cd,"ax",%progbits
	.p2align	2
	.type	std_alloc.boxed.Box.drop.7d8ec8058c3633cd,%function
	.code	16
	.thumb_func
std_alloc.boxed.Box.drop.7d8ec8058c3633cd:
	.cfi_startproc
	push	{r4, r5, r6, r7, lr}
	.cfi_def_cfa_offset 20
	.cfi_offset lr, -4
	.cfi_offset r7, -8
	.cfi_offset r6, -12
	.cfi_offset r5, -16
	.cfi_offset r4, -20
	sub	sp, #92
	.cfi_def_cfa_offset 112
	mov	r1, r0
	ldrh	r6, [r1], #8
	mov	r7, sp
	mov	r4, r0
	mov	r0, r7
	movs	r2, #40
	bl	tlsf_memory_cpy
	mov	r0, r4
	bl	tlsf_memory_dealloc
	movs	r0, #0
	strd	r0, r0, [sp, #40]
	strh.w	r6, [sp, #40]
	add	r0, sp, #40
	ldm	r7!, {r2, r3, r4, r5, r6}
	add.w	r1, r0, #8
	stm	r1!, {r2, r3, r4, r5, r6}
	ldm.w	r7, {r2, r3, r4, r5, r6}
	stm	r1!, {r2, r3, r4, r5, r6}
	bl	tlsf_c.tlsf_c.any_end.AnyEnd.Destruct.drop
	add	sp, #92
	pop	{r4, r5, r6, r7, pc}
.Lfunc_end20:
	.size	std_alloc.boxed.Box.drop.7d8ec8058c3633cd, .Lfunc_end20-std_alloc.boxed.Box.drop.7d8ec8058c3633cd
	.cfi_endproc
	.section	.text.tlsf_c.tlsf_c.any_end.AnyEnd.Destruct.drop,"ax",%progbits
	.p2align	2
	.type	tlsf_c.tlsf_c.any_end.AnyEnd.Destruct.drop,%function
	.code	16
	.thumb_func
tlsf_c.tlsf_c.any_end.AnyEnd.Destruct.drop:
	.cfi_startproc
	push.w	{r4, r5, r6, r7, r8, r9, r10, r11, lr}
	.cfi_def_cfa_offset 36
	.cfi_offset lr, -4
	.cfi_offset r11, -8
	.cfi_offset r10, -12
	.cfi_offset r9, -16
	.cfi_offset r8, -20
	.cfi_offset r7, -24
	.cfi_offset r6, -28
	.cfi_offset r5, -32
	.cfi_offset r4, -36
	sub	sp, #116
	.cfi_def_cfa_offset 152
	ldrb	r1, [r0]
	ldr	r4, [r0, #8]
	ldr	r5, [r0, #16]
	ldr	r7, [r0, #24]
	ldr	r6, [r0, #28]
.LCPI21_0:
	tbb	[pc, r1]
.LJTI21_0:
	.byte	(.LBB21_2-(.LCPI21_0+4))/2
	.byte	(.LBB21_13-(.LCPI21_0+4))/2
	.byte	(.LBB21_3-(.LCPI21_0+4))/2
	.byte	(.LBB21_10-(.LCPI21_0+4))/2
	.p2align	1
.LBB21_2:
	add.w	r0, r4, #256
	movs	r1, #5
	movs	r2, #1
	movs	r3, #0
	str	r1, [sp]
	bl	__atomic_exchange_8
	orrs	r0, r1
	bne	.LBB21_14
	b	.LBB21_15
.LBB21_3:
	ldr	r6, [r0, #32]
	ldr	r5, [r0, #36]
	ldr	r1, [r0, #40]
	ldr	r0, [r0, #44]
	str	r1, [sp, #8]
	str	r0, [sp, #4]
	movs	r1, #5
	mov	r0, r4
	movs	r2, #1
	movs	r3, #0
	str	r1, [sp]
	bl	__atomic_fetch_sub_8
	eor	r0, r0, #1
	orrs	r0, r1
	bne	.LBB21_5
	ldr.w	r8, [r4, #40]
	ldr.w	r9, [r4, #56]
	mov	r0, r4
	bl	tlsf_memory_dealloc
	mov	r0, r8
	bl	tlsf_memory_dealloc
	mov	r0, r9
	bl	tlsf_memory_dealloc
.LBB21_5:
	orrs.w	r0, r6, r5
	beq	.LBB21_8
	add.w	r0, sp, #18
	add.w	r10, r0, #6
	add	r0, sp, #64
	adds	r0, #8
	mov.w	r8, #0
	mov.w	r9, #0
	str	r0, [sp, #12]
	.p2align	2
.LBB21_7:
	ldr.w	r4, [r7, r8, lsl #3]
	mov	r0, r10
	mov	r1, r4
	ldrh	r11, [r1], #8
	movs	r2, #40
	bl	tlsf_memory_cpy
	mov	r0, r4
	bl	tlsf_memory_dealloc
	movs	r0, #0
	strd	r0, r0, [sp, #64]
	ldr	r0, [sp, #12]
	mov	r1, r10
	movs	r2, #40
	strh.w	r11, [sp, #64]
	bl	tlsf_memory_cpy
	add	r0, sp, #64
	bl	tlsf_c.tlsf_c.any_end.AnyEnd.Destruct.drop
	adds.w	r8, r8, #1
	adc	r9, r9, #0
	subs.w	r0, r8, r6
	sbcs.w	r0, r9, r5
	blo	.LBB21_7
.LBB21_8:
	ldrd	r1, r0, [sp, #4]
	orrs	r0, r1
	beq	.LBB21_15
	mov	r0, r7
	b	.LBB21_12
.LBB21_10:
	movs	r1, #5
	mov	r0, r4
	movs	r2, #1
	movs	r3, #0
	str	r1, [sp]
	bl	__atomic_fetch_sub_8
	eor	r0, r0, #1
	orrs	r0, r1
	bne	.LBB21_15
	ldr	r5, [r4, #40]
	ldr	r6, [r4, #56]
	mov	r0, r4
	bl	tlsf_memory_dealloc
	mov	r0, r5
	bl	tlsf_memory_dealloc
	mov	r0, r6
.LBB21_12:
	add	sp, #116
	pop.w	{r4, r5, r6, r7, r8, r9, r10, r11, lr}
	b	tlsf_memory_dealloc
.LBB21_13:
	add.w	r0, r4, #256
	movs	r1, #5
	movs	r2, #1
	movs	r3, #0
	str	r1, [sp]
	bl	__atomic_exchange_8
	orrs	r0, r1
	beq	.LBB21_15
.LBB21_14:
	mov	r0, r4
	mov	r1, r5
	mov	r2, r7
	mov	r3, r6
	add	sp, #116
	pop.w	{r4, r5, r6, r7, r8, r9, r10, r11, lr}
	b	rtrb.release.drop_slow.23d795680250cb0d
.LBB21_15:
	add	sp, #116
	pop.w	{r4, r5, r6, r7, r8, r9, r10, r11, pc}
.Lfunc_end21:
	.size	tlsf_c.tlsf_c.any_end.AnyEnd.Destruct.drop, .Lfunc_end21-tlsf_c.tlsf_c.any_end.AnyEnd.Destruct.drop
	.cfi_endproc
	.section	.text.tlsf_c.arena_slot.ArenaSlot.close,"ax",%progbits
	.p2align	2
	.type	tlsf_c.arena_slot.ArenaSlot.close,%function
	.code	16
	.thumb_func
tlsf_c.arena_slot.ArenaSlot.close:
	.cfi_startproc
	ldrb	r1, [r0, #8]
	cmp	r1, #0
	beq	.LBB22_9
	ldr	r1, [r0]
	ldrb	r2, [r1, #1]
	cmp	r2, #1
	it	ne
	bxne	lr
.LBB22_2:
	push.w	{r4, r5, r6, r7, r8, r9, r10, r11, lr}
	.cfi_def_cfa_offset 36
	.cfi_offset lr, -4
	.cfi_offset r11, -8
	.cfi_offset r10, -12
	.cfi_offset r9, -16
	.cfi_offset r8, -20
	.cfi_offset r7, -24
	.cfi_offset r6, -28
	.cfi_offset r5, -32
	.cfi_offset r4, -36
	sub	sp, #60
	.cfi_def_cfa_offset 96
	movs	r2, #0
	strb	r2, [r1, #1]
	ldr	r6, [r0]
	str	r2, [r0, #4]
	str	r2, [r0, #8]
	str	r2, [r0, #12]
	str	r2, [r0]
	ldrb.w	r8, [r6]
	add.w	r1, r6, #16
	add	r0, sp, #8
	movs	r2, #24
	bl	tlsf_memory_cpy
	ldr	r0, [r6, #44]
	ldr	r4, [r6, #40]
	str	r0, [sp, #4]
	ldr	r5, [r6, #56]
	ldr	r7, [r6, #60]
	ldr.w	r9, [r6, #64]
	ldr.w	r10, [r6, #84]
	ldr.w	r11, [r6, #80]
	mov	r0, r6
	bl	tlsf_memory_dealloc
	cmp.w	r8, #0
	beq	.LBB22_4
	add	r3, sp, #16
	ldm	r3, {r0, r1, r3}
	add.w	r12, sp, #32
	stm.w	r12, {r0, r1, r3}
	ldr	r0, [sp, #4]
	ldr	r2, [sp, #28]
	str	r0, [sp, #52]
	add	r0, sp, #32
	strd	r2, r4, [sp, #44]
	bl	std_alloc.vec.Vec.drop.01e19ae241269710
	b	.LBB22_8
.LBB22_4:
	orrs.w	r0, r5, r7
	beq	.LBB22_6
	mov	r0, r4
	bl	tlsf_memory_dealloc
.LBB22_6:
	orrs.w	r0, r11, r10
	beq	.LBB22_8
	mov	r0, r9
	bl	tlsf_memory_dealloc
.LBB22_8:
	add	sp, #60
	pop.w	{r4, r5, r6, r7, r8, r9, r10, r11, lr}
.LBB22_9:
	bx	lr
.Lfunc_end22:
	.size	tlsf_c.arena_slot.ArenaSlot.close, .Lfunc_end22-tlsf_c.arena_slot.ArenaSlot.close
	.cfi_endproc
	.section	.text.std_alloc.vec.Vec.drop.01e19ae241269710,"ax",%progbits
	.p2align	2
	.type	std_alloc.vec.Vec.drop.01e19ae241269710,%function
	.code	16
	.thumb_func
std_alloc.vec.Vec.drop.01e19ae241269710:
	.cfi_startproc
	push.w	{r4, r5, r6, r7, r8, r9, r10, r11, lr}
	.cfi_def_cfa_offset 36
	.cfi_offset lr, -4
	.cfi_offset r11, -8
	.cfi_offset r10, -12
	.cfi_offset r9, -16
	.cfi_offset r8, -20
	.cfi_offset r7, -24
	.cfi_offset r6, -28
	.cfi_offset r5, -32
	.cfi_offset r4, -36
	sub	sp, #36
	.cfi_def_cfa_offset 72
	ldr	r1, [r0]
	ldr	r3, [r0, #12]
	str	r1, [sp, #20]
	ldr	r1, [r0, #8]
	ldr	r2, [r0, #16]
	ldr	r0, [r0, #20]
	str	r2, [sp, #8]
	str	r0, [sp, #4]
	orrs.w	r0, r1, r3
	strd	r3, r1, [sp, #12]
	beq	.LBB23_11
	mov.w	r9, #0
	mov.w	r11, #0
	b	.LBB23_3
	.p2align	2
.LBB23_2:
	ldr	r0, [sp, #16]
	adds.w	r9, r9, #1
	adc	r11, r11, #0
	subs.w	r0, r9, r0
	ldr	r0, [sp, #12]
	sbcs.w	r0, r11, r0
	bhs	.LBB23_11
.LBB23_3:
	ldr	r0, [sp, #20]
	mov.w	r1, #1320
	mla	r0, r9, r1, r0
	ldr.w	r3, [r0, #1264]
	ldr	r1, [r0, #40]
	str	r3, [sp, #24]
	ldr.w	r3, [r0, #1296]
	ldr	r2, [r0, #44]
	ldr	r4, [r0, #48]
	ldr	r6, [r0, #64]
	ldr	r7, [r0, #68]
	ldr.w	r8, [r0, #1284]
	ldr.w	r5, [r0, #1280]
	str	r3, [sp, #28]
	ldr.w	r3, [r0, #1316]
	ldr.w	r10, [r0, #1312]
	orrs	r1, r2
	str	r3, [sp, #32]
	beq	.LBB23_5
	ldr	r0, [r0, #24]
	bl	tlsf_memory_dealloc
.LBB23_5:
	orrs.w	r0, r6, r7
	beq	.LBB23_7
	mov	r0, r4
	bl	tlsf_memory_dealloc
.LBB23_7:
	orrs.w	r0, r5, r8
	beq	.LBB23_9
	ldr	r0, [sp, #24]
	bl	tlsf_memory_dealloc
.LBB23_9:
	ldr	r0, [sp, #32]
	orrs.w	r0, r0, r10
	beq	.LBB23_2
	ldr	r0, [sp, #28]
	bl	tlsf_memory_dealloc
	b	.LBB23_2
.LBB23_11:
	ldrd	r1, r0, [sp, #4]
	orrs	r0, r1
	beq	.LBB23_13
	ldr	r0, [sp, #20]
	add	sp, #36
	pop.w	{r4, r5, r6, r7, r8, r9, r10, r11, lr}
	b	tlsf_memory_dealloc
.LBB23_13:
	add	sp, #36
	pop.w	{r4, r5, r6, r7, r8, r9, r10, r11, pc}
.Lfunc_end23:
	.size	std_alloc.vec.Vec.drop.01e19ae241269710, .Lfunc_end23-std_alloc.vec.Vec.drop.01e19ae241269710
	.cfi_endproc
	.section	.text.unlikely.std_alloc.vec.Vec.grow_amortized.1345b5ed95b64201,"ax",%progbits
	.p2align	2
	.type	std_alloc.vec.Vec.grow_amortized.1345b5ed95b64201,%function
	.code	16
	.thumb_func
std_alloc.vec.Vec.grow_amortized.1345b5ed95b64201:
	.cfi_startproc
	push.w	{r4, r5, r6, r7, r8, r9, lr}
	.cfi_def_cfa_offset 28
	.cfi_offset lr, -4
	.cfi_offset r9, -8
	.cfi_offset r8, -12
	.cfi_offset r7, -16
	.cfi_offset r6, -20
	.cfi_offset r5, -24
	.cfi_offset r4, -28
	sub	sp, #28
	.cfi_def_cfa_offset 56
	ldrd	r6, r7, [r0, #8]
	mov	r1, r0
	adds	r0, r6, r2
	adcs.w	r0, r7, r3
	mov.w	r0, #0
	adc	r5, r0, #0
	cmp	r5, #1
	beq	.LBB24_7
	ldrd	r4, r12, [r1, #16]
	adds	r2, r2, r6
	adc.w	r9, r7, r3
	cmp	r2, #4
	mov.w	r5, #4
	mov.w	r3, #4
	it	hi
	movhi	r3, r2
	cmp.w	r9, #0
	ite	ne
	movne	r5, r2
	moveq	r5, r3
	lsl.w	r2, r12, #1
	orr.w	r3, r2, r4, lsr #31
	rsbs	r2, r5, r4, lsl #1
	sbcs.w	r2, r3, r9
	mov	r2, r5
	ite	hs
	lslhs	r2, r4, #1
	movlo	r3, r9
	cmp.w	r12, #1073741824
	itt	lo
	movlo	r5, r2
	movlo	r9, r3
	cmp.w	r0, r9, lsr #28
	bne	.LBB24_7
	orrs.w	r0, r4, r12
	beq	.LBB24_4
	lsls	r0, r7, #3
	orrs.w	r0, r0, r6, lsr #29
	lsl.w	r0, r9, #3
	mov	r8, r1
	ldr	r1, [r1]
	orr.w	r0, r0, r5, lsr #29
	mov.w	r2, #-1
	mov.w	r3, #-1
	it	eq
	lsleq	r2, r6, #3
	cmp	r0, #0
	mov.w	r7, #8
	add	r0, sp, #8
	it	eq
	lsleq	r3, r5, #3
	str	r7, [sp]
	bl	tlsf_memory_realloc
	b	.LBB24_5
.LBB24_4:
	lsls	r0, r3, #3
	mov	r8, r1
	orrs.w	r0, r0, r2, lsr #29
	mov.w	r1, #-1
	it	eq
	lsleq	r1, r2, #3
	add	r0, sp, #8
	movs	r2, #8
	bl	tlsf_memory_alloc
.LBB24_5:
	ldr	r0, [sp, #8]
	lsls	r0, r0, #31
	beq	.LBB24_8
	ldr	r0, [sp, #16]
	strd	r5, r9, [r8, #16]
	str.w	r0, [r8]
	movs	r0, #1
.LBB24_7:
	add	sp, #28
	pop.w	{r4, r5, r6, r7, r8, r9, pc}
.LBB24_8:
	movs	r0, #0
	add	sp, #28
	pop.w	{r4, r5, r6, r7, r8, r9, pc}
.Lfunc_end24:
	.size	std_alloc.vec.Vec.grow_amortized.1345b5ed95b64201, .Lfunc_end24-std_alloc.vec.Vec.grow_amortized.1345b5ed95b64201
	.cfi_endproc
	.section	.text.tlsf_heap.heap.Heap.begin.4,"ax",%progbits
	.p2align	2
	.type	tlsf_heap.heap.Heap.begin.4,%function
	.code	16
	.thumb_func
tlsf_heap.heap.Heap.begin.4:
	.cfi_startproc
	push.w	{r4, r5, r6, r7, r8, r9, r10, r11, lr}
	.cfi_def_cfa_offset 36
	.cfi_offset lr, -4
	.cfi_offset r11, -8
	.cfi_offset r10, -12
	.cfi_offset r9, -16
	.cfi_offset r8, -20
	.cfi_offset r7, -24
	.cfi_offset r6, -28
	.cfi_offset r5, -32
	.cfi_offset r4, -36
	sub	sp, #12
	.cfi_def_cfa_offset 48
	mov	r11, r1
	ldrd	r1, r2, [r0, #8]
	mov	r4, r0
	ldrd	r5, r0, [r0, #32]
	subs	r1, #1
	str	r1, [sp, #8]
	sbc	r1, r2, #0
	str	r1, [sp, #4]
	subs.w	r1, r5, r11
	sbcs	r1, r0, #0
	bhs	.LBB25_5
	ldrd	r3, r8, [r4, #40]
	subs.w	r10, r11, r5
	mov.w	r1, #0
	sbc.w	r6, r1, r0
	subs	r1, r3, r5
	sbc.w	r2, r8, r0
	subs.w	r1, r1, r10
	sbcs.w	r1, r2, r6
	blo.w	.LBB25_17
.LBB25_2:
	adds.w	r9, r5, r10
	adcs	r6, r0
	ldr	r7, [r4, #24]
	subs.w	r1, r5, r9
	sbcs	r0, r6
	bhs	.LBB25_4
	add.w	r0, r7, r5, lsl #3
	lsl.w	r2, r10, #3
	movs	r1, #0
	mov	r5, r3
	bl	tlsf_memory_set
	mov	r3, r5
.LBB25_4:
	mov	r5, r9
	str	r7, [r4, #24]
	strd	r9, r6, [r4, #32]
	strd	r3, r8, [r4, #40]
	b	.LBB25_6
.LBB25_5:
	subs.w	r1, r11, r5
	mov.w	r1, #0
	sbcs.w	r0, r1, r0
	itt	lo
	strdlo	r11, r1, [r4, #32]
	movlo	r5, r11
.LBB25_6:
	ldrd	r0, r1, [r4, #56]
	lsr.w	r6, r11, #6
	orrs	r0, r1
	itt	ne
	movne	r0, #0
	strdne	r0, r0, [r4, #56]
	lsls.w	r1, r11, #26
	mov.w	r0, #1
	it	ne
	addne.w	r6, r0, r11, lsr #6
	cmp.w	r11, #0
	beq	.LBB25_12
	ldrd	r8, r10, [r4, #64]
	subs.w	r0, r8, r6
	sbcs	r0, r10, #0
	blo	.LBB25_15
	movs	r0, #0
	movs	r1, #0
.LBB25_9:
	adds	r5, r0, r6
	adc	r7, r1, #0
	ldr.w	r9, [r4, #48]
	subs	r2, r0, r5
	sbcs	r1, r7
	bhs	.LBB25_11
	add.w	r0, r9, r0, lsl #3
	lsls	r2, r6, #3
	movs	r1, #0
	bl	tlsf_memory_set
.LBB25_11:
	add.w	r0, r4, #56
	stm.w	r0, {r5, r7, r8}
	ldr	r5, [r4, #32]
	str.w	r9, [r4, #48]
	str.w	r10, [r4, #68]
.LBB25_12:
	mov.w	r6, #-1
	add.w	r0, r4, #80
	movs	r1, #0
	movs	r2, #88
	mov.w	r8, #0
	str.w	r11, [r4, #72]
	str.w	r6, [r4, #184]
	bl	tlsf_memory_set
	orr	r0, r5, #16
	clz	r0, r0
	rsb.w	r1, r0, #27
	lsls	r0, r5, #2
	ldr	r2, [r4, #24]
	adds	r0, #3
	strd	r0, r6, [r2]
	ldr	r0, [sp, #8]
	str	r0, [r2, #8]
	ldr	r0, [sp, #4]
	str	r0, [r2, #12]
	ldr	r2, [r4, #48]
	lsr.w	r0, r5, r1
	ldr	r3, [r2]
	add.w	r1, r0, r1, lsl #4
	orr	r3, r3, #1
	str	r3, [r2]
	add.w	r3, r4, r1, lsl #2
	ldr.w	r2, [r3, #168]
	str.w	r8, [r3, #168]
	cmp.w	r2, #-1
	ble	.LBB25_14
	ldr	r0, [r4, #24]
	strd	r2, r6, [r0, #16]
	add.w	r0, r0, r2, lsl #3
	str.w	r8, [r0, #20]
	add	sp, #12
	pop.w	{r4, r5, r6, r7, r8, r9, r10, r11, pc}
.LBB25_14:
	ldr	r2, [r4, #24]
	lsrs	r1, r1, #4
	strd	r6, r6, [r2, #16]
	add.w	r3, r4, r1, lsl #2
	ldr	r2, [r4, #80]
	ldr	r7, [r3, #84]
	movs	r6, #1
	and	r0, r0, #15
	lsl.w	r1, r6, r1
	lsl.w	r0, r6, r0
	orrs	r1, r2
	orrs	r0, r7
	str	r1, [r4, #80]
	str	r0, [r3, #84]
	add	sp, #12
	pop.w	{r4, r5, r6, r7, r8, r9, r10, r11, pc}
.LBB25_15:
	add.w	r0, r4, #48
	mov	r2, r6
	movs	r3, #0
	bl	std_alloc.vec.Vec.grow_amortized.1345b5ed95b64201
	cbz	r0, .LBB25_19
	add.w	r10, r4, #56
	ldm.w	r10, {r0, r1, r8, r10}
	b	.LBB25_9
.LBB25_17:
	add.w	r0, r4, #24
	mov	r2, r10
	mov	r3, r6
	bl	std_alloc.vec.Vec.grow_amortized.1345b5ed95b64201
	cbz	r0, .LBB25_19
	ldrd	r5, r0, [r4, #32]
	ldrd	r3, r8, [r4, #40]
	b	.LBB25_2
.LBB25_19:
	.inst.n	0xdefe
.Lfunc_end25:
	.size	tlsf_heap.heap.Heap.begin.4, .Lfunc_end25-tlsf_heap.heap.Heap.begin.4
	.cfi_endproc
	.section	.text.tlsf_pool.sizes.split.rising_split.4,"ax",%progbits
	.p2align	2
	.type	tlsf_pool.sizes.split.rising_split.4,%function
	.code	16
	.thumb_func
tlsf_pool.sizes.split.rising_split.4:
	.cfi_startproc
	push.w	{r4, r5, r6, r7, r8, r9, r10, r11, lr}
	.cfi_def_cfa_offset 36
	.cfi_offset lr, -4
	.cfi_offset r11, -8
	.cfi_offset r10, -12
	.cfi_offset r9, -16
	.cfi_offset r8, -20
	.cfi_offset r7, -24
	.cfi_offset r6, -28
	.cfi_offset r5, -32
	.cfi_offset r4, -36
	subw	sp, sp, #1436
	.cfi_def_cfa_offset 1472
	str	r1, [sp, #28]
	subs	r1, r2, #2
	mov	r8, r3
	mov	r5, r2
	sbcs	r1, r3, #0
	blo	.LBB26_11
	mov.w	r12, #0
	movs	r1, #1
.LBB26_2:
	ldr	r2, [sp, #28]
	add.w	r3, r2, r1, lsl #3
	ldr	r2, [r3, #4]
	ldr	r3, [r3, #-4]
	cmp	r2, r3
	bls	.LBB26_13
	adds	r3, r1, #1
	adc	r7, r12, #0
	subs	r6, r3, r5
	sbcs.w	r7, r7, r8
	bhs	.LBB26_10
	ldr	r7, [sp, #28]
	add.w	r3, r7, r3, lsl #3
	ldr	r3, [r3, #4]
	cmp	r3, r2
	bls	.LBB26_13
	adds	r2, r1, #2
	adc	r7, r12, #0
	subs	r6, r2, r5
	sbcs.w	r7, r7, r8
	bhs	.LBB26_10
	ldr	r7, [sp, #28]
	add.w	r2, r7, r2, lsl #3
	ldr	r2, [r2, #4]
	cmp	r2, r3
	bls	.LBB26_13
	adds	r3, r1, #3
	adc	r7, r12, #0
	subs	r6, r3, r5
	sbcs.w	r7, r7, r8
	bhs	.LBB26_10
	ldr	r7, [sp, #28]
	add.w	r3, r7, r3, lsl #3
	ldr	r3, [r3, #4]
	cmp	r3, r2
	bls	.LBB26_13
	adds	r1, #4
	adc	r12, r12, #0
	subs	r2, r1, r5
	sbcs.w	r2, r12, r8
	blo	.LBB26_2
.LBB26_10:
	str	r0, [sp]
	add	r0, sp, #64
	movs	r1, #0
	movw	r2, #1300
	bl	tlsf_memory_set
	b	.LBB26_12
.LBB26_11:
	str	r0, [sp]
	add	r0, sp, #64
	movs	r1, #0
	movw	r2, #1300
	movs	r6, #0
	bl	tlsf_memory_set
	orrs.w	r0, r5, r8
	beq	.LBB26_14
.LBB26_12:
	add.w	r0, r5, r5, lsl #2
	lsls	r6, r0, #2
	add	r0, sp, #64
	movs	r1, #0
	mov	r2, r6
	movs	r3, #0
	str	r3, [sp, #4]
	bl	tlsf_memory_set
	b	.LBB26_15
.LBB26_13:
	movs	r1, #0
	movs	r2, #88
	addw	sp, sp, #1436
	pop.w	{r4, r5, r6, r7, r8, r9, r10, r11, lr}
	b	tlsf_memory_set
.LBB26_14:
	movs	r0, #1
	str	r0, [sp, #4]
.LBB26_15:
	add	r4, sp, #64
	movs	r1, #1
	str	r1, [r4, r6]
	addw	r1, sp, #1420
	adds	r0, r4, r6
	movs	r2, #0
	adds	r1, #5
	strd	r2, r2, [r0, #4]
	strd	r2, r2, [r0, #12]
	add.w	r0, sp, #1400
	str	r1, [sp, #44]
	addw	r1, sp, #1380
	adds	r7, r0, #4
	add.w	r10, r1, #4
	add.w	r6, r0, #8
	add.w	r0, r1, #8
	movs	r1, #0
	str	r0, [sp, #48]
	str.w	r8, [sp, #24]
	strd	r7, r5, [sp, #16]
	b	.LBB26_17
	.p2align	2
.LBB26_16:
	ldr	r2, [sp, #12]
	ldr	r3, [sp, #8]
	adds	r0, r2, #1
	adc	r1, r3, #0
	subs	r2, #7
	sbcs	r2, r3, #0
	mov	r2, r0
	bhs.w	.LBB26_30
.LBB26_17:
	strd	r1, r2, [sp, #8]
	ldr	r0, [sp, #4]
	cmp	r0, #0
	bne	.LBB26_16
	movs	r3, #0
	movs	r1, #0
	b	.LBB26_20
	.p2align	2
.LBB26_19:
	ldr	r7, [sp, #16]
	str.w	r8, [sp, #1404]
	ldrd	r12, r1, [r7]
	add.w	r0, sp, #1368
	ldrd	r2, r3, [r7, #8]
	stm	r0!, {r1, r2, r3}
	ldr	r0, [sp, #32]
	add	r4, sp, #64
	add.w	r0, r0, r0, lsl #2
	add.w	r5, r4, r0, lsl #2
	strd	r12, r1, [r5, #4]
	strd	r2, r3, [r5, #12]
	ldr	r5, [sp, #20]
	ldr	r3, [sp, #36]
	ldr.w	r8, [sp, #24]
	ldr	r1, [sp, #40]
	str.w	r9, [r4, r0, lsl #2]
	subs	r0, r3, r5
	sbcs.w	r0, r1, r8
	str.w	r12, [sp, #1364]
	bhs	.LBB26_16
.LBB26_20:
	adds	r2, r3, #1
	mov	r0, r1
	adc	r1, r1, #0
	strd	r2, r1, [sp, #36]
	add.w	r1, r2, r2, lsl #2
	add.w	r11, r4, r1, lsl #2
	subs	r1, r5, r3
	sbc.w	r0, r8, r0
	str	r1, [sp, #60]
	str	r0, [sp, #56]
	ldr	r0, [sp, #28]
	str	r3, [sp, #32]
	add.w	r0, r0, r3, lsl #3
	str	r0, [sp, #52]
	movs	r0, #0
	strd	r0, r0, [r7]
	strd	r0, r0, [r7, #8]
	mov.w	r9, #0
	mov.w	r8, #0
	movs	r4, #0
	movs	r7, #0
	b	.LBB26_24
	.p2align	2
.LBB26_21:
	movs	r0, #0
	cmp.w	r9, #0
	str.w	r0, [sp, #1396]
	str.w	r0, [sp, #1392]
	str.w	r0, [sp, #1388]
	str.w	r0, [sp, #1384]
	str.w	r0, [sp, #1380]
	beq	.LBB26_28
	mov.w	r9, #1
	mov	r0, r6
.LBB26_23:
	ldrd	r1, r2, [r0]
	ldr	r0, [r0, #8]
	strd	r1, r2, [r6]
	ldr	r1, [sp, #60]
	str	r0, [r6, #8]
	subs	r1, r4, r1
	ldr	r1, [sp, #56]
	sbcs.w	r1, r7, r1
	bhs	.LBB26_19
.LBB26_24:
	mov	r5, r4
	adds	r4, #1
	adc	r7, r7, #0
	ldr	r0, [sp, #52]
	mov	r2, r4
	mov	r3, r7
	bl	tlsf_pool.sizes.region.region_words.4
	lsls	r0, r0, #24
	beq	.LBB26_21
	add.w	r0, r5, r5, lsl #2
	ldrb.w	r2, [r11, r0, lsl #2]
	cmp	r2, #1
	bne	.LBB26_21
	add.w	r0, r11, r0, lsl #2
	ldr	r5, [r0, #16]
	ldrd	r2, r3, [r0, #4]
	ldr	r0, [r0, #12]
	str.w	r5, [sp, #1432]
	ldr	r5, [sp, #44]
	str.w	r0, [sp, #1428]
	uxtb	r0, r3
	str.w	r3, [sp, #1424]
	strb	r4, [r5, r0]
	adds	r0, r3, #1
	strb.w	r0, [sp, #1424]
	adds	r0, r2, r1
	add.w	r3, sp, #1424
	ldm	r3, {r1, r2, r3}
	stm.w	r10, {r0, r1, r2, r3}
	ldr.w	r1, [sp, #1384]
	cmp.w	r9, #0
	beq	.LBB26_29
	mov	r0, r6
	mov.w	r9, #1
	cmp	r1, r8
	ldr	r2, [sp, #48]
	itt	lo
	movlo	r0, r2
	movlo	r8, r1
	b	.LBB26_23
.LBB26_28:
	ldr	r0, [sp, #48]
	mov.w	r8, #0
	mov.w	r9, #0
	b	.LBB26_23
.LBB26_29:
	ldr	r0, [sp, #48]
	mov.w	r9, #1
	mov	r8, r1
	b	.LBB26_23
.LBB26_30:
	ldrb.w	r3, [sp, #64]
	movs	r0, #0
	cmp	r3, #1
	mov.w	r6, #0
	mov.w	r7, #0
	mov.w	r2, #0
	mov.w	r1, #0
	mov.w	r5, #0
	mov.w	r9, #0
	mov.w	r8, #0
	mov.w	lr, #0
	mov.w	r12, #0
	mov.w	r10, #0
	bne	.LBB26_32
	ldrb.w	r12, [sp, #80]
	ldrb.w	lr, [sp, #79]
	ldrb.w	r8, [sp, #78]
	ldrb.w	r9, [sp, #77]
	ldrb.w	r5, [sp, #76]
	ldrb.w	r1, [sp, #75]
	ldrb.w	r2, [sp, #74]
	ldrb.w	r7, [sp, #73]
	ldrb.w	r6, [sp, #72]
	ldr.w	r10, [sp, #68]
.LBB26_32:
	ldr	r4, [sp]
	str	r0, [r4, #4]
	str	r3, [r4]
	str	r0, [r4, #12]
	str	r6, [r4, #8]
	str	r0, [r4, #20]
	str	r7, [r4, #16]
	str	r0, [r4, #28]
	str	r2, [r4, #24]
	str	r0, [r4, #36]
	str	r1, [r4, #32]
	str	r0, [r4, #44]
	str	r5, [r4, #40]
	str	r0, [r4, #52]
	str.w	r9, [r4, #48]
	str	r0, [r4, #60]
	str.w	r8, [r4, #56]
	str	r0, [r4, #68]
	str.w	lr, [r4, #64]
	str	r0, [r4, #76]
	str.w	r12, [r4, #72]
	str	r0, [r4, #84]
	str.w	r10, [r4, #80]
	addw	sp, sp, #1436
	pop.w	{r4, r5, r6, r7, r8, r9, r10, r11, pc}
.Lfunc_end26:
	.size	tlsf_pool.sizes.split.rising_split.4, .Lfunc_end26-tlsf_pool.sizes.split.rising_split.4
	.cfi_endproc
	.section	.text.tlsf_pool.sizes.region.region_words.4,"ax",%progbits
	.p2align	2
	.type	tlsf_pool.sizes.region.region_words.4,%function
	.code	16
	.thumb_func
tlsf_pool.sizes.region.region_words.4:
	.cfi_startproc
	push.w	{r4, r5, r6, r7, r8, r9, r10, r11, lr}
	.cfi_def_cfa_offset 36
	.cfi_offset lr, -4
	.cfi_offset r11, -8
	.cfi_offset r10, -12
	.cfi_offset r9, -16
	.cfi_offset r8, -20
	.cfi_offset r7, -24
	.cfi_offset r6, -28
	.cfi_offset r5, -32
	.cfi_offset r4, -36
	orrs.w	r1, r2, r3
	mov.w	r12, #0
	beq	.LBB27_12
	movw	r7, #65513
	movs	r1, #0
	movt	r7, #127
	movs	r6, #0
.LBB27_2:
	add.w	r5, r0, r1, lsl #3
	ldr	r5, [r5, #4]
	cmp	r5, r7
	bhs	.LBB27_13
	orr	r5, r1, #1
	subs	r4, r5, r2
	sbcs.w	r4, r6, r3
	bhs	.LBB27_10
	add.w	r5, r0, r5, lsl #3
	ldr	r5, [r5, #4]
	cmp	r5, r7
	bhs	.LBB27_13
	orr	r5, r1, #2
	subs	r4, r5, r2
	sbcs.w	r4, r6, r3
	bhs	.LBB27_10
	add.w	r5, r0, r5, lsl #3
	ldr	r5, [r5, #4]
	cmp	r5, r7
	bhs	.LBB27_13
	orr	r5, r1, #3
	subs	r4, r5, r2
	sbcs.w	r4, r6, r3
	bhs	.LBB27_10
	add.w	r5, r0, r5, lsl #3
	ldr	r5, [r5, #4]
	cmp	r5, r7
	bhs	.LBB27_13
	adds	r1, #4
	adc	r6, r6, #0
	subs	r5, r1, r2
	sbcs.w	r5, r6, r3
	blo	.LBB27_2
.LBB27_10:
	subs	r1, r2, #4
	sbcs	r1, r3, #0
	and	r8, r2, #3
	bhs	.LBB27_14
	mov.w	lr, #0
	mov.w	r9, #0
	movs	r5, #0
	b	.LBB27_17
.LBB27_12:
	mov.w	lr, #0
	mov.w	r9, #0
	movs	r2, #0
	b	.LBB27_41
.LBB27_13:
	movs	r1, #0
	movs	r0, #0
	pop.w	{r4, r5, r6, r7, r8, r9, r10, r11, pc}
.LBB27_14:
	bic	r10, r2, #3
	mov.w	lr, #0
	mov.w	r9, #0
	movs	r5, #0
	movs	r6, #0
	.p2align	2
.LBB27_15:
	ldr.w	r7, [r0, r5, lsl #3]
	add.w	r1, r0, r5, lsl #3
	ldr	r4, [r1, #8]
	adds.w	r11, lr, r7
	ldr	r7, [r1, #16]
	adc	lr, r9, #0
	ldr.w	r9, [r1, #24]
	adds.w	r4, r4, r11
	adc	r1, lr, #0
	adds	r7, r7, r4
	adc	r1, r1, #0
	adds.w	lr, r7, r9
	adc	r9, r1, #0
	adds	r5, #4
	adc	r6, r6, #0
	eor.w	r1, r5, r10
	eor.w	r4, r6, r3
	orrs	r1, r4
	bne	.LBB27_15
	cmp.w	r8, #0
	beq	.LBB27_20
.LBB27_17:
	ldr.w	r1, [r0, r5, lsl #3]
	adds.w	lr, lr, r1
	adc	r9, r9, #0
	cmp.w	r8, #1
	beq	.LBB27_20
	add.w	r4, r0, r5, lsl #3
	ldr	r1, [r4, #8]
	adds.w	lr, lr, r1
	adc	r9, r9, #0
	cmp.w	r8, #2
	beq	.LBB27_20
	ldr	r1, [r4, #16]
	adds.w	lr, lr, r1
	adc	r9, r9, #0
.LBB27_20:
	subs	r1, r2, #4
	sbcs	r1, r3, #0
	bhs	.LBB27_22
	movs	r2, #0
	movs	r5, #0
	b	.LBB27_33
.LBB27_22:
	bic	r6, r2, #3
	movs	r2, #0
	movs	r5, #0
	movs	r7, #0
	b	.LBB27_24
	.p2align	2
.LBB27_23:
	adds	r5, #4
	adc	r7, r7, #0
	eor.w	r1, r5, r6
	eor.w	r4, r7, r3
	orrs	r1, r4
	beq	.LBB27_32
.LBB27_24:
	ldr.w	r1, [r0, r5, lsl #3]
	add.w	r4, r0, r5, lsl #3
	cbz	r1, .LBB27_26
	ldr	r1, [r4, #4]
	cmp	r1, r2
	it	hi
	movhi	r2, r1
.LBB27_26:
	ldr	r1, [r4, #8]
	cbz	r1, .LBB27_28
	ldr	r1, [r4, #12]
	cmp	r1, r2
	it	hi
	movhi	r2, r1
.LBB27_28:
	ldr	r1, [r4, #16]
	cbz	r1, .LBB27_30
	ldr	r1, [r4, #20]
	cmp	r1, r2
	it	hi
	movhi	r2, r1
.LBB27_30:
	ldr	r1, [r4, #24]
	cmp	r1, #0
	beq	.LBB27_23
	ldr	r1, [r4, #28]
	cmp	r1, r2
	it	hi
	movhi	r2, r1
	b	.LBB27_23
.LBB27_32:
	cmp.w	r8, #0
	beq	.LBB27_41
.LBB27_33:
	ldr.w	r1, [r0, r5, lsl #3]
	add.w	r0, r0, r5, lsl #3
	cbz	r1, .LBB27_35
	ldr	r1, [r0, #4]
	cmp	r1, r2
	it	hi
	movhi	r2, r1
.LBB27_35:
	cmp.w	r8, #1
	beq	.LBB27_41
	ldr	r1, [r0, #8]
	cbz	r1, .LBB27_38
	ldr	r1, [r0, #12]
	cmp	r1, r2
	it	hi
	movhi	r2, r1
.LBB27_38:
	cmp.w	r8, #2
	beq	.LBB27_41
	ldr	r1, [r0, #16]
	cbz	r1, .LBB27_41
	ldr	r0, [r0, #20]
	cmp	r0, r2
	it	hi
	movhi	r2, r0
.LBB27_41:
	adds	r0, r2, #1
	adc	r1, r12, #0
	cmp	r2, #0
	itt	ne
	movne	r0, r2
	movne	r1, r12
	adds	r0, #31
	adc	r1, r1, #0
	lsrs	r0, r0, #3
	orr.w	r0, r0, r1, lsl #29
	orr	r1, r0, #16
	clz	r1, r1
	rsb.w	r1, r1, #27
	subs	r0, #1
	lsrs	r0, r1
	adds	r2, r0, #1
	add.w	r0, r2, r1, lsl #4
	lsrs	r3, r0, #4
	beq	.LBB27_43
	movs	r0, #8
	and	r1, r2, #15
	subs	r2, r3, #1
	lsls	r0, r3
	lsls	r1, r2
	add	r0, r1
.LBB27_43:
	umull	r2, r1, lr, r0
	mla	r0, r9, r0, r1
	movs	r3, #4
	cmp	r2, #4
	mov.w	r1, #4
	it	hi
	movhi	r3, r2
	cmp	r0, #0
	ite	ne
	movne	r1, r2
	moveq	r1, r3
	movs	r3, #1
	movt	r3, #16
	subs	r2, r2, r3
	sbcs	r0, r0, #0
	mov.w	r0, #0
	it	lo
	movlo	r0, #1
	cmp	r0, #0
	it	eq
	moveq	r1, r0
	pop.w	{r4, r5, r6, r7, r8, r9, r10, r11, pc}
.Lfunc_end27:
	.size	tlsf_pool.sizes.region.region_words.4, .Lfunc_end27-tlsf_pool.sizes.region.region_words.4
	.cfi_endproc
	.section	.text.unlikely.std_alloc.vec.Vec.grow_amortized.8f83c87fc5454f35,"ax",%progbits
	.p2align	2
	.type	std_alloc.vec.Vec.grow_amortized.8f83c87fc5454f35,%function
	.code	16
	.thumb_func
std_alloc.vec.Vec.grow_amortized.8f83c87fc5454f35:
	.cfi_startproc
	push.w	{r4, r5, r6, r7, r8, r9, lr}
	.cfi_def_cfa_offset 28
	.cfi_offset lr, -4
	.cfi_offset r9, -8
	.cfi_offset r8, -12
	.cfi_offset r7, -16
	.cfi_offset r6, -20
	.cfi_offset r5, -24
	.cfi_offset r4, -28
	sub	sp, #28
	.cfi_def_cfa_offset 56
	ldrd	r2, r6, [r0, #8]
	movs	r1, #0
	adds.w	r9, r2, #1
	adcs	r8, r6, #0
	adc	r3, r1, #0
	cmp	r3, #1
	beq	.LBB28_8
	ldrd	r1, r5, [r0, #16]
	movw	r7, #6355
	lsls	r3, r5, #1
	orr.w	r3, r3, r1, lsr #31
	rsbs	r4, r9, r1, lsl #1
	sbcs.w	r4, r3, r8
	mov	r4, r9
	ite	hs
	lslhs	r4, r1, #1
	movlo	r3, r8
	cmp.w	r5, #1073741824
	movt	r7, #36144
	itt	lo
	movlo	r8, r3
	movlo	r9, r4
	subs.w	r7, r7, r9
	movw	r7, #54017
	movt	r7, #24
	sbcs.w	r7, r7, r8
	blo	.LBB28_7
	orrs	r1, r5
	beq	.LBB28_4
	mov.w	r7, #1320
	umull	r2, r1, r2, r7
	umull	r3, r5, r9, r7
	mla	r4, r6, r7, r1
	mov	r6, r0
	ldr	r1, [r0]
	mla	r0, r8, r7, r5
	cmp	r4, #0
	mov.w	r7, #-1
	it	ne
	movne	r2, r7
	cmp	r0, #0
	it	ne
	movne	r3, r7
	movs	r7, #8
	add	r0, sp, #8
	str	r7, [sp]
	bl	tlsf_memory_realloc
	b	.LBB28_5
.LBB28_4:
	mov	r6, r0
	mov.w	r0, #1320
	umull	r1, r2, r4, r0
	mla	r0, r3, r0, r2
	movs	r2, #8
	cmp	r0, #0
	add	r0, sp, #8
	it	ne
	movne.w	r1, #-1
	bl	tlsf_memory_alloc
.LBB28_5:
	ldr	r0, [sp, #8]
	lsls	r0, r0, #31
	beq	.LBB28_7
	ldr	r0, [sp, #16]
	movs	r1, #1
	str	r0, [r6]
	strd	r9, r8, [r6, #16]
	b	.LBB28_8
.LBB28_7:
	movs	r1, #0
.LBB28_8:
	mov	r0, r1
	add	sp, #28
	pop.w	{r4, r5, r6, r7, r8, r9, pc}
.Lfunc_end28:
	.size	std_alloc.vec.Vec.grow_amortized.8f83c87fc5454f35, .Lfunc_end28-std_alloc.vec.Vec.grow_amortized.8f83c87fc5454f35
	.cfi_endproc
	.section	.text.tlsf_heap.region.Region.read.4,"ax",%progbits
	.p2align	2
	.type	tlsf_heap.region.Region.read.4,%function
	.code	16
	.thumb_func
tlsf_heap.region.Region.read.4:
	.cfi_startproc
	push	{r4, r5, r6, lr}
	.cfi_def_cfa_offset 16
	.cfi_offset lr, -4
	.cfi_offset r6, -8
	.cfi_offset r5, -12
	.cfi_offset r4, -16
	sub	sp, #16
	.cfi_def_cfa_offset 32
	mov	lr, r2
	ldr	r4, [sp, #32]
	lsrs	r2, r1, #29
	adds.w	r1, lr, r1, lsl #3
	mov	r12, r3
	adc	r3, r2, #0
	adds.w	r2, r1, #24
	orr.w	r1, r4, lr
	adc	r3, r3, #0
	lsls	r1, r1, #29
	ldr	r1, [sp, #36]
	beq	.LBB29_3
	rsbs.w	r6, r4, #7
	mov.w	r6, #0
	sbcs	r6, r1
	blo	.LBB29_10
	strd	r4, r1, [sp, #8]
	str.w	r12, [sp]
	bl	tlsf_words.words.Words.read_few
	add	sp, #16
	pop	{r4, r5, r6, pc}
.LBB29_3:
	rsbs.w	r3, r4, #63
	mov.w	r3, #0
	sbcs	r3, r1
	ldr	r0, [r0]
	lsr.w	r3, r4, #3
	bic	r2, r2, #7
	orr.w	lr, r3, r1, lsl #29
	add	r0, r2
	blo	.LBB29_12
	lsls	r2, r4, #28
	bpl	.LBB29_6
	mvn	r2, #7
	add.w	r2, r2, lr, lsl #3
	adds	r3, r0, r2
	ldr	r3, [r3, #4]
	ldr	r5, [r0, r2]
	add.w	r6, r12, r2
	str.w	r5, [r12, r2]
	str	r3, [r6, #4]
.LBB29_6:
	lsls	r2, r4, #27
	bpl	.LBB29_8
	movs	r2, #32
	and.w	r2, r2, lr, lsl #3
	adds	r3, r0, r2
	ldr	r6, [r0, r2]
	ldr	r3, [r3, #4]
	add.w	r5, r12, r2
	str.w	r6, [r12, r2]
	adds	r2, #8
	str	r3, [r5, #4]
	adds	r3, r0, r2
	ldr	r3, [r3, #4]
	ldr	r6, [r0, r2]
	add.w	r5, r12, r2
	str.w	r6, [r12, r2]
	str	r3, [r5, #4]
.LBB29_8:
	subs.w	r2, r4, #25
	sbcs	r1, r1, #0
	blo	.LBB29_11
	ldrd	r2, r1, [r0]
	str.w	r1, [r12, #4]
	str.w	r2, [r12]
	ldrd	r2, r1, [r0, #8]
	str.w	r1, [r12, #12]
	str.w	r2, [r12, #8]
	ldrd	r2, r1, [r0, #16]
	str.w	r1, [r12, #20]
	str.w	r2, [r12, #16]
	ldr	r1, [r0, #28]
	ldr	r0, [r0, #24]
	str.w	r1, [r12, #28]
	str.w	r0, [r12, #24]
	add	sp, #16
	pop	{r4, r5, r6, pc}
.LBB29_10:
	strd	r4, r1, [sp, #8]
	str.w	r12, [sp]
	bl	tlsf_words.words.Words.read_run
.LBB29_11:
	add	sp, #16
	pop	{r4, r5, r6, pc}
.LBB29_12:
	lsrs	r3, r1, #3
	mov	r2, lr
	str.w	r12, [sp, #32]
	add	sp, #16
	pop.w	{r4, r5, r6, lr}
	b	tlsf_words.cells.unpack_many
.Lfunc_end29:
	.size	tlsf_heap.region.Region.read.4, .Lfunc_end29-tlsf_heap.region.Region.read.4
	.cfi_endproc
	.section	.text.tlsf_words.cells.unpack_many,"ax",%progbits
	.p2align	2
	.type	tlsf_words.cells.unpack_many,%function
	.code	16
	.thumb_func
tlsf_words.cells.unpack_many:
	.cfi_startproc
	push.w	{r4, r5, r6, r7, r8, lr}
	.cfi_def_cfa_offset 24
	.cfi_offset lr, -4
	.cfi_offset r8, -8
	.cfi_offset r7, -12
	.cfi_offset r6, -16
	.cfi_offset r5, -20
	.cfi_offset r4, -24
	sub	sp, #24
	.cfi_def_cfa_offset 48
	ldr.w	lr, [sp, #48]
	bic	r12, r2, #3
	lsls	r4, r2, #31
	add.w	r1, lr, r12, lsl #3
	add.w	r4, r0, r12, lsl #3
	beq	.LBB30_2
	movs	r5, #24
	and.w	r5, r5, r2, lsl #3
	subs	r5, #8
	adds	r6, r4, r5
	ldr.w	r8, [r6, #4]
	ldr	r7, [r4, r5]
	adds	r6, r1, r5
	str	r7, [r1, r5]
	str.w	r8, [r6, #4]
.LBB30_2:
	lsls	r2, r2, #30
	bpl	.LBB30_4
	ldrd	r5, r2, [r4]
	str	r2, [r1, #4]
	str	r5, [r1]
	ldr	r2, [r4, #12]
	ldr	r4, [r4, #8]
	str	r2, [r1, #12]
	str	r4, [r1, #8]
.LBB30_4:
	movs	r2, #0
	movs	r1, #0
	.p2align	2
.LBB30_5:
	add.w	r4, r0, r2, lsl #3
	ldr	r4, [r4, #4]
	ldr.w	r5, [r0, r2, lsl #3]
	add.w	r6, lr, r2, lsl #3
	str.w	r5, [lr, r2, lsl #3]
	str	r4, [r6, #4]
	orr	r4, r2, #1
	add.w	r5, r0, r4, lsl #3
	ldr.w	r6, [r0, r4, lsl #3]
	ldr	r5, [r5, #4]
	add.w	r7, lr, r4, lsl #3
	str.w	r6, [lr, r4, lsl #3]
	orr	r4, r2, #2
	str	r5, [r7, #4]
	add.w	r5, r0, r4, lsl #3
	ldr	r5, [r5, #4]
	ldr.w	r6, [r0, r4, lsl #3]
	add.w	r7, lr, r4, lsl #3
	str.w	r6, [lr, r4, lsl #3]
	str	r5, [r7, #4]
	orr	r4, r2, #3
	ldr.w	r6, [r0, r4, lsl #3]
	add.w	r5, r0, r4, lsl #3
	adds	r2, #4
	ldr	r5, [r5, #4]
	add.w	r7, lr, r4, lsl #3
	str.w	r6, [lr, r4, lsl #3]
	adc	r1, r1, #0
	subs.w	r4, r2, r12
	sbcs.w	r4, r1, r3
	str	r5, [r7, #4]
	blo	.LBB30_5
	add	sp, #24
	pop.w	{r4, r5, r6, r7, r8, pc}
.Lfunc_end30:
	.size	tlsf_words.cells.unpack_many, .Lfunc_end30-tlsf_words.cells.unpack_many
	.cfi_endproc
	.section	.text.tlsf_words.words.Words.read_few,"ax",%progbits
	.p2align	2
	.type	tlsf_words.words.Words.read_few,%function
	.code	16
	.thumb_func
tlsf_words.words.Words.read_few:
	.cfi_startproc
	push.w	{r4, r5, r6, r7, r8, r9, r10, r11, lr}
	.cfi_def_cfa_offset 36
	.cfi_offset lr, -4
	.cfi_offset r11, -8
	.cfi_offset r10, -12
	.cfi_offset r9, -16
	.cfi_offset r8, -20
	.cfi_offset r7, -24
	.cfi_offset r6, -28
	.cfi_offset r5, -32
	.cfi_offset r4, -36
	sub	sp, #12
	.cfi_def_cfa_offset 48
	mov	r10, r0
	ldrd	r7, r11, [sp, #56]
	and	r0, r2, #7
	rsb.w	r4, r0, #8
	mov.w	r9, #0
	subs	r1, r4, r7
	sbcs.w	r1, r9, r11
	ldr.w	r8, [sp, #48]
	mov	r6, r7
	lsr.w	r1, r2, #3
	it	lo
	movlo	r6, r4
	orrs.w	r2, r7, r11
	orr.w	r5, r1, r3, lsl #29
	beq	.LBB31_2
	ldr.w	r1, [r10]
	add.w	r2, r1, r5, lsl #3
	ldr.w	r1, [r1, r5, lsl #3]
	ldr	r2, [r2, #4]
	strd	r1, r2, [sp]
	mov	r1, sp
	add	r1, r0
	mov	r0, r8
	mov	r2, r6
	bl	tlsf_memory_cpy
.LBB31_2:
	subs	r0, r4, r7
	sbcs.w	r0, r9, r11
	bhs	.LBB31_4
	ldr.w	r0, [r10]
	subs	r2, r7, r6
	add.w	r0, r0, r5, lsl #3
	ldrd	r1, r3, [r0, #8]
	add.w	r0, r8, r6
	strd	r1, r3, [sp]
	mov	r1, sp
	bl	tlsf_memory_cpy
.LBB31_4:
	add	sp, #12
	pop.w	{r4, r5, r6, r7, r8, r9, r10, r11, pc}
.Lfunc_end31:
	.size	tlsf_words.words.Words.read_few, .Lfunc_end31-tlsf_words.words.Words.read_few
	.cfi_endproc
	.section	.text.tlsf_words.words.Words.read_run,"ax",%progbits
	.p2align	2
	.type	tlsf_words.words.Words.read_run,%function
	.code	16
	.thumb_func
tlsf_words.words.Words.read_run:
	.cfi_startproc
	push.w	{r4, r5, r6, r7, r8, r9, r10, r11, lr}
	.cfi_def_cfa_offset 36
	.cfi_offset lr, -4
	.cfi_offset r11, -8
	.cfi_offset r10, -12
	.cfi_offset r9, -16
	.cfi_offset r8, -20
	.cfi_offset r7, -24
	.cfi_offset r6, -28
	.cfi_offset r5, -32
	.cfi_offset r4, -36
	sub	sp, #12
	.cfi_def_cfa_offset 48
	ldrd	r5, r6, [sp, #56]
	rsbs	r4, r2, #0
	mov	r9, r0
	and	r0, r4, #7
	subs.w	r11, r5, r0
	ldr.w	lr, [sp, #48]
	sbc	r12, r6, #0
	adds	r1, r2, #7
	mov	r7, r11
	str	r0, [sp, #8]
	lsr.w	r0, r11, #3
	adc	r3, r3, #0
	bfi	r7, r4, #0, #3
	ands	r4, r2, #7
	lsr.w	r8, r1, #3
	beq	.LBB32_2
	ldr.w	r1, [r9]
	bic	r2, r2, #7
	str	r0, [sp, #4]
	mov	r0, r12
	add.w	r12, r1, r2
	ldr	r1, [r1, r2]
	ldr.w	r2, [r12, #4]
	mov	r12, r0
	mov	r10, lr
	mov	lr, r3
	mvn	r3, #31
	movs	r0, #32
	add.w	r3, r3, r4, lsl #3
	sub.w	r0, r0, r4, lsl #3
	lsls	r4, r4, #3
	lsl.w	r0, r2, r0
	lsrs	r1, r4
	orrs	r0, r1
	cmp	r3, #0
	it	pl
	lsrpl.w	r0, r2, r3
	lsr.w	r1, r2, r4
	it	pl
	movpl	r1, #0
	str.w	r0, [r10]
	ldr	r0, [sp, #4]
	mov	r3, lr
	mov	lr, r10
	str.w	r1, [r10, #4]
.LBB32_2:
	orr.w	r2, r0, r12, lsl #29
	eor.w	r0, r7, r5
	orrs	r0, r6
	orr.w	r10, r8, r3, lsl #29
	beq	.LBB32_4
	ldr.w	r1, [r9]
	subs	r0, r7, r5
	add.w	r7, r2, r10
	add.w	r6, r1, r7, lsl #3
	str.w	r12, [sp, #4]
	ldr.w	r12, [r6, #4]
	movs	r6, #64
	ldr.w	r1, [r1, r7, lsl #3]
	add.w	r4, lr, r5
	add.w	r6, r6, r0, lsl #3
	mov.w	r7, #-1
	movs	r3, #32
	str	r2, [sp]
	ldr	r2, [r4, #-4]
	lsl.w	r5, r7, r6
	add.w	r3, r3, r0, lsl #3
	ldr	r8, [r4, #-8]
	cmp	r3, #0
	itt	pl
	movpl	r5, #0
	lslpl	r7, r3
	bic.w	r2, r2, r7
	mvn	r7, #31
	sub.w	r0, r7, r0, lsl #3
	lsr.w	r0, r1, r0
	lsl.w	r7, r12, r6
	orr.w	r0, r0, r7
	ldr.w	r12, [sp, #4]
	it	pl
	lslpl.w	r0, r1, r3
	lsl.w	r1, r1, r6
	bic.w	r5, r8, r5
	it	pl
	movpl	r1, #0
	adds	r1, r1, r5
	adcs	r0, r2
	ldr	r2, [sp]
	str	r1, [r4, #-8]
	str	r0, [r4, #-4]
.LBB32_4:
	ldr	r0, [sp, #8]
	rsbs.w	r1, r11, #63
	add.w	r4, lr, r0
	ldr.w	r0, [r9]
	mov.w	r1, #0
	sbcs.w	r1, r1, r12
	add.w	r0, r0, r10, lsl #3
	blo	.LBB32_12
	lsls.w	r1, r11, #28
	bpl	.LBB32_7
	mvn	r1, #7
	add.w	r1, r1, r2, lsl #3
	adds	r3, r0, r1
	ldr	r3, [r3, #4]
	ldr	r7, [r0, r1]
	adds	r6, r4, r1
	str	r7, [r4, r1]
	str	r3, [r6, #4]
.LBB32_7:
	lsls.w	r1, r11, #27
	bpl	.LBB32_9
	movs	r1, #32
	and.w	r1, r1, r2, lsl #3
	adds	r2, r0, r1
	ldr	r3, [r0, r1]
	ldr	r2, [r2, #4]
	adds	r7, r4, r1
	str	r3, [r4, r1]
	adds	r1, #8
	str	r2, [r7, #4]
	adds	r2, r0, r1
	ldr	r2, [r2, #4]
	ldr	r3, [r0, r1]
	adds	r7, r4, r1
	str	r3, [r4, r1]
	str	r2, [r7, #4]
.LBB32_9:
	subs.w	r1, r11, #32
	sbcs	r1, r12, #0
	blo	.LBB32_11
	ldrd	r2, r1, [r0]
	str	r1, [r4, #4]
	str	r2, [r4]
	ldrd	r2, r1, [r0, #8]
	str	r1, [r4, #12]
	str	r2, [r4, #8]
	ldrd	r2, r1, [r0, #16]
	str	r1, [r4, #20]
	str	r2, [r4, #16]
	ldr	r1, [r0, #28]
	ldr	r0, [r0, #24]
	str	r1, [r4, #28]
	str	r0, [r4, #24]
.LBB32_11:
	add	sp, #12
	pop.w	{r4, r5, r6, r7, r8, r9, r10, r11, pc}
.LBB32_12:
	lsr.w	r3, r12, #3
	str	r4, [sp, #48]
	add	sp, #12
	pop.w	{r4, r5, r6, r7, r8, r9, r10, r11, lr}
	b	tlsf_words.cells.unpack_many
.Lfunc_end32:
	.size	tlsf_words.words.Words.read_run, .Lfunc_end32-tlsf_words.words.Words.read_run
	.cfi_endproc
	.section	.text.tlsf_heap.heap.Heap.report.4,"ax",%progbits
	.p2align	2
	.type	tlsf_heap.heap.Heap.report.4,%function
	.code	16
	.thumb_func
tlsf_heap.heap.Heap.report.4:
	.cfi_startproc
	push.w	{r4, r5, r6, r7, r8, r9, r10, r11, lr}
	.cfi_def_cfa_offset 36
	.cfi_offset lr, -4
	.cfi_offset r11, -8
	.cfi_offset r10, -12
	.cfi_offset r9, -16
	.cfi_offset r8, -20
	.cfi_offset r7, -24
	.cfi_offset r6, -28
	.cfi_offset r5, -32
	.cfi_offset r4, -36
	sub	sp, #28
	.cfi_def_cfa_offset 64
	str	r0, [sp, #12]
	ldr	r0, [r1, #32]
	ldrd	r4, r3, [r1, #8]
	cmp	r0, #0
	beq	.LBB33_11
	ldr	r1, [r1, #24]
	mov.w	r8, #0
	movs	r2, #0
	mov.w	r9, #0
	movs	r5, #0
	movs	r7, #0
	mov.w	lr, #0
	mov.w	r12, #0
	strd	r4, r3, [sp, #4]
	strd	r3, r4, [sp, #20]
	str	r1, [sp, #16]
	b	.LBB33_4
	.p2align	2
.LBB33_2:
	ldr	r6, [r6, #16]
	add.w	r12, r12, #1
	add	lr, r3
	add	r7, r6
.LBB33_3:
	add	r2, r3
	cmp	r2, r0
	bhs	.LBB33_6
.LBB33_4:
	ldr.w	r3, [r1, r2, lsl #3]
	add.w	r6, r1, r2, lsl #3
	lsls	r4, r3, #31
	lsr.w	r3, r3, #2
	beq	.LBB33_2
	ldr	r4, [r6, #12]
	ldr	r6, [r6, #8]
	cmp	r3, r8
	it	hi
	movhi	r8, r3
	ldr.w	r11, [sp, #24]
	adds	r5, #1
	add	r9, r3
	mov	r1, r0
	ldr	r0, [sp, #20]
	mov	r10, r8
	mov	r8, r9
	mov	r9, r12
	mov	r12, lr
	mov	lr, r5
	subs.w	r5, r6, r11
	sbcs.w	r5, r4, r0
	it	lo
	movlo	r0, r4
	str	r0, [sp, #20]
	mov	r0, r1
	ldr	r1, [sp, #16]
	mov	r5, lr
	mov	lr, r12
	mov	r12, r9
	mov	r9, r8
	mov	r8, r10
	it	lo
	movlo	r11, r6
	str.w	r11, [sp, #24]
	b	.LBB33_3
.LBB33_6:
	cmp.w	r8, #0
	beq	.LBB33_12
	orr	r0, r8, #16
	clz	r0, r0
	rsb.w	r0, r0, #27
	lsr.w	r1, r8, r0
	add.w	r0, r1, r0, lsl #4
	lsrs	r2, r0, #4
	beq	.LBB33_9
	movs	r0, #8
	lsls	r0, r2
	and	r1, r1, #15
	subs	r2, #1
	lsls	r1, r2
	add	r0, r1
.LBB33_9:
	mvn	r1, #23
	add.w	r10, r1, r0, lsl #3
	cmp.w	r9, #0
	beq	.LBB33_13
.LBB33_10:
	mov.w	r0, #1000
	umull	r0, r1, r8, r0
	mov	r2, r9
	movs	r3, #0
	mov	r4, lr
	mov	r6, r12
	bl	__aeabi_uldivmod
	mov	r12, r6
	mov	lr, r4
	rsb.w	r0, r0, #1000
	b	.LBB33_14
.LBB33_11:
	mov.w	r10, #0
	mov.w	r12, #0
	mov.w	lr, #0
	movs	r7, #0
	movs	r5, #0
	mov.w	r9, #0
	mov.w	r8, #0
	mov	r2, r4
	mov	r6, r3
	movs	r0, #0
	b	.LBB33_15
.LBB33_12:
	mov.w	r10, #0
	cmp.w	r9, #0
	bne	.LBB33_10
.LBB33_13:
	mov.w	r9, #0
	movs	r0, #0
.LBB33_14:
	ldrd	r4, r3, [sp, #4]
	ldrd	r6, r2, [sp, #20]
.LBB33_15:
	subs	r2, r4, r2
	sbcs	r3, r6
	ldr	r6, [sp, #12]
	rsb	r1, r7, lr, lsl #3
	str	r0, [r6, #28]
	movs	r0, #0
	str.w	r12, [r6]
	str.w	lr, [r6, #4]
	str	r7, [r6, #8]
	str	r5, [r6, #12]
	str.w	r9, [r6, #16]
	str.w	r8, [r6, #20]
	str.w	r10, [r6, #24]
	str	r1, [r6, #32]
	str	r0, [r6, #36]
	str	r2, [r6, #40]
	str	r3, [r6, #44]
	add	sp, #28
	pop.w	{r4, r5, r6, r7, r8, r9, r10, r11, pc}
.Lfunc_end33:
	.size	tlsf_heap.heap.Heap.report.4, .Lfunc_end33-tlsf_heap.heap.Heap.report.4
	.cfi_endproc
	.section	.text.tlsf_c.queue_end.take_once,"ax",%progbits
	.p2align	2
	.type	tlsf_c.queue_end.take_once,%function
	.code	16
	.thumb_func
tlsf_c.queue_end.take_once:
	.cfi_startproc
	push.w	{r4, r5, r6, r7, r8, r9, r10, r11, lr}
	.cfi_def_cfa_offset 36
	.cfi_offset lr, -4
	.cfi_offset r11, -8
	.cfi_offset r10, -12
	.cfi_offset r9, -16
	.cfi_offset r8, -20
	.cfi_offset r7, -24
	.cfi_offset r6, -28
	.cfi_offset r5, -32
	.cfi_offset r4, -36
	sub	sp, #148
	.cfi_def_cfa_offset 184
	ldr	r5, [r1]
	mov	r4, r0
	movs	r0, #0
	strd	r0, r0, [sp, #40]
	strd	r0, r0, [sp, #32]
	strd	r0, r0, [sp, #16]
	strd	r0, r0, [sp, #24]
	strd	r0, r0, [sp, #56]
	strd	r0, r0, [sp, #48]
	strd	r0, r0, [sp, #80]
	strd	r0, r0, [sp, #88]
	strd	r0, r0, [sp, #64]
	strd	r0, r0, [sp, #72]
	ldr	r0, [r5, #8]
	mov	r8, r1
	add.w	r0, r0, #256
	movs	r1, #5
	bl	__atomic_load_8
	mov	r9, r0
	mov	r11, r1
	ldrd	r0, r1, [r5, #80]
	ldr	r2, [r5, #8]
	subs	r0, #1
	and.w	r6, r0, r9
	add.w	r0, r2, r6, lsl #3
	sbc	r7, r1, #0
	add.w	r0, r0, #384
	movs	r1, #5
	bl	__atomic_load_8
	mov	r12, r0
	lsr.w	r3, r11, #30
	adds.w	r0, r9, #1
	adc	r2, r11, #0
	cmp	r3, #2
	bhi	.LBB34_8
	mov	r3, r1
	eor.w	r0, r0, r12
	eors	r1, r2
	orrs	r0, r1
	bne	.LBB34_8
	and.w	lr, r7, r11
	ldrd	r2, r7, [r5, #72]
	adds	r1, r6, #1
	adc	r0, lr, #0
	subs	r1, r1, r2
	mov.w	r1, #0
	sbcs	r0, r7
	strd	r1, r1, [sp, #112]
	strd	r1, r1, [sp, #120]
	strd	r1, r1, [sp, #128]
	strd	r1, r1, [sp, #96]
	str	r1, [sp, #104]
	str	r1, [sp, #108]
	blo	.LBB34_4
	ldrd	r1, r2, [r5, #80]
	subs.w	r0, r9, r6
	sbc.w	r3, r11, lr
	adds.w	r12, r0, r1
	adcs	r3, r2
.LBB34_4:
	ldr	r0, [r5, #8]
	add.w	r0, r0, #256
	movs	r7, #5
	add	r1, sp, #136
	mov	r2, r12
	strd	r9, r11, [sp, #136]
	str	r7, [sp]
	str	r7, [sp, #4]
	bl	__atomic_compare_exchange_8
	cmp	r0, #0
	beq	.LBB34_7
	ldr	r1, [r5, #16]
	lsls	r2, r6, #5
	lsls	r0, r6, #3
	ldrb	r3, [r1, r2]
	str	r0, [sp, #8]
	add.w	r0, r1, r6, lsl #5
	mov.w	r10, #0
	str	r3, [sp, #12]
	ldr.w	r8, [r0, #12]
	ldr	r3, [r0, #16]
	ldr.w	lr, [r0, #20]
	ldr.w	r12, [r0, #24]
	ldr	r7, [r0, #28]
	str.w	r10, [r0, #4]
	ldr	r6, [r0, #8]!
	str.w	r10, [r1, r2]
	add	r1, sp, #112
	movs	r2, #24
	str	r3, [sp, #96]
	strd	lr, r12, [sp, #100]
	str	r7, [sp, #108]
	bl	tlsf_memory_cpy
	ldrd	r0, r1, [r5, #80]
	ldr	r7, [r5, #8]
	adds.w	r2, r0, r9
	ldr	r0, [sp, #8]
	adc.w	r3, r1, r11
	add	r0, r7
	add.w	r0, r0, #384
	movs	r1, #5
	str	r1, [sp]
	bl	__atomic_store_8
	ldr	r0, [sp, #12]
	cmp	r0, #1
	bne	.LBB34_10
	add	r3, sp, #96
	ldr	r2, [sp, #108]
	ldm	r3, {r0, r1, r3}
	str	r2, [sp, #76]
	strd	r2, r0, [sp, #44]
	add	r2, sp, #32
	strd	r1, r3, [sp, #68]
	str	r1, [sp, #52]
	stm	r2!, {r0, r1, r3}
	add	r0, sp, #32
	movs	r2, #0
	movs	r1, #0
	b	.LBB34_9
.LBB34_7:
	movs	r0, #0
	strd	r0, r0, [sp, #80]
	strd	r0, r0, [sp, #88]
.LBB34_8:
	add	r3, sp, #80
	ldm	r3, {r0, r1, r2, r3}
	ldr.w	r7, [r8]
	add.w	r12, sp, #32
	stm.w	r12, {r0, r1, r2}
	ldr	r0, [r7, #8]
	str	r3, [sp, #44]
	add.w	r0, r0, #256
	movs	r1, #5
	bl	__atomic_load_8
	mov	r5, r0
	ldr	r0, [r7, #8]
	mov	r6, r1
	adds	r0, #128
	movs	r1, #5
	bl	__atomic_load_8
	eors	r1, r6
	eors	r0, r5
	orrs	r0, r1
	mov.w	r1, #9
	it	eq
	moveq	r1, #8
	movs	r6, #0
	add	r0, sp, #16
	movs	r2, #1
	mov.w	r8, #0
.LBB34_9:
	strb	r2, [r4]
	strb	r1, [r4, #1]
	ldr	r1, [r0]
	ldr	r2, [r0, #4]
	ldr	r3, [r0, #8]
	ldr	r0, [r0, #12]
	str	r6, [r4, #8]
	str.w	r8, [r4, #12]
	str	r1, [r4, #16]
	str	r2, [r4, #20]
	str	r3, [r4, #24]
	str	r0, [r4, #28]
	add	sp, #148
	pop.w	{r4, r5, r6, r7, r8, r9, r10, r11, pc}
.LBB34_10:
	.inst.n	0xdefe
.Lfunc_end34:
	.size	tlsf_c.queue_end.take_once, .Lfunc_end34-tlsf_c.queue_end.take_once
	.cfi_endproc
	.section	.text.unlikely.std_alloc.vec.Vec.grow_amortized.94730218a1e37034,"ax",%progbits
	.p2align	2
	.type	std_alloc.vec.Vec.grow_amortized.94730218a1e37034,%function
	.code	16
	.thumb_func
std_alloc.vec.Vec.grow_amortized.94730218a1e37034:
	.cfi_startproc
	push.w	{r4, r5, r6, r7, r8, r9, lr}
	.cfi_def_cfa_offset 28
	.cfi_offset lr, -4
	.cfi_offset r9, -8
	.cfi_offset r8, -12
	.cfi_offset r7, -16
	.cfi_offset r6, -20
	.cfi_offset r5, -24
	.cfi_offset r4, -28
	sub	sp, #28
	.cfi_def_cfa_offset 56
	ldrd	r6, r2, [r0, #8]
	mov	r1, r0
	and.w	r0, r6, r2
	adds	r0, #1
	mov.w	r0, #0
	beq	.LBB35_7
	ldrd	r3, r7, [r1, #16]
	cmp	r6, #3
	mov.w	r5, #3
	mov.w	r4, #3
	it	hi
	movhi	r4, r6
	cmp	r2, #0
	ite	ne
	movne	r5, r6
	moveq	r5, r4
	adds.w	r8, r5, #1
	lsl.w	r5, r7, #1
	adc	r9, r2, #0
	orr.w	r4, r5, r3, lsr #31
	rsbs	r5, r8, r3, lsl #1
	sbcs.w	r5, r4, r9
	mov	r5, r8
	ite	lo
	movlo	r4, r9
	lslhs	r5, r3, #1
	cmp.w	r7, #1073741824
	itt	lo
	movlo	r8, r5
	movlo	r9, r4
	cmp.w	r0, r9, lsr #26
	bne	.LBB35_7
	orrs.w	r0, r3, r7
	beq	.LBB35_4
	lsls	r0, r2, #5
	orrs.w	r0, r0, r6, lsr #27
	lsl.w	r0, r9, #5
	mov	r7, r1
	ldr	r1, [r1]
	orr.w	r0, r0, r8, lsr #27
	mov.w	r2, #-1
	mov.w	r3, #-1
	it	eq
	lsleq	r2, r6, #5
	cmp	r0, #0
	mov.w	r6, #8
	add	r0, sp, #8
	it	eq
	lsleq.w	r3, r8, #5
	str	r6, [sp]
	bl	tlsf_memory_realloc
	b	.LBB35_5
.LBB35_4:
	lsls	r0, r4, #5
	orrs.w	r0, r0, r5, lsr #27
	mov	r7, r1
	mov.w	r1, #-1
	add	r0, sp, #8
	mov.w	r2, #8
	it	eq
	lsleq	r1, r5, #5
	bl	tlsf_memory_alloc
.LBB35_5:
	ldr	r0, [sp, #8]
	lsls	r0, r0, #31
	beq	.LBB35_8
	ldr	r0, [sp, #16]
	strd	r8, r9, [r7, #16]
	str	r0, [r7]
	movs	r0, #1
.LBB35_7:
	add	sp, #28
	pop.w	{r4, r5, r6, r7, r8, r9, pc}
.LBB35_8:
	movs	r0, #0
	add	sp, #28
	pop.w	{r4, r5, r6, r7, r8, r9, pc}
.Lfunc_end35:
	.size	std_alloc.vec.Vec.grow_amortized.94730218a1e37034, .Lfunc_end35-std_alloc.vec.Vec.grow_amortized.94730218a1e37034
	.cfi_endproc
	.section	.text.tlsf_post.mailboxes.send_out,"ax",%progbits
	.p2align	2
	.type	tlsf_post.mailboxes.send_out,%function
	.code	16
	.thumb_func
tlsf_post.mailboxes.send_out:
	.cfi_startproc
	cmp	r1, r2
	itt	hs
	movhs	r0, #0
	bxhs	lr
.LBB36_1:
	push.w	{r4, r5, r6, r7, r8, r9, r10, r11, lr}
	.cfi_def_cfa_offset 36
	.cfi_offset lr, -4
	.cfi_offset r11, -8
	.cfi_offset r10, -12
	.cfi_offset r9, -16
	.cfi_offset r8, -20
	.cfi_offset r7, -24
	.cfi_offset r6, -28
	.cfi_offset r5, -32
	.cfi_offset r4, -36
	sub	sp, #28
	.cfi_def_cfa_offset 64
	mov	r9, r3
	mov	r10, r2
	mov	r11, r1
	mov	r1, r0
	movs	r5, #5
	mvn	r6, #1
	mvn	r8, #-2147483648
	add	r7, sp, #16
	str	r0, [sp, #12]
.LBB36_2:
	ldr	r4, [r1]
	.p2align	2
.LBB36_3:
	mov	r0, r4
	movs	r1, #5
	bl	__atomic_load_8
	subs	r2, r6, r0
	sbcs.w	r2, r8, r1
	blo	.LBB36_7
	adds	r2, r0, #1
	adc	r3, r1, #0
	strd	r0, r1, [sp, #16]
	mov	r0, r4
	mov	r1, r7
	str	r5, [sp]
	str	r5, [sp, #4]
	bl	__atomic_compare_exchange_8
	cmp	r0, #0
	beq	.LBB36_3
	ldr	r0, [r4, #8]
	movs	r1, #5
	bl	__atomic_load_8
	ldrd	r1, r12, [r9, #8]
	ldr.w	r0, [r9]
	lsls	r3, r1, #4
	add.w	r2, r0, r1, lsl #4
	str	r4, [r0, r3]
	movs	r0, #0
	adds	r1, #1
	str	r0, [r2, #4]
	str.w	r11, [r2, #8]
	str	r0, [r2, #12]
	adc	r2, r12, #0
	add.w	r11, r11, #1
	strd	r1, r2, [r9, #8]
	ldr	r1, [sp, #12]
	cmp	r11, r10
	bne	.LBB36_2
	add	sp, #28
	pop.w	{r4, r5, r6, r7, r8, r9, r10, r11, pc}
.LBB36_7:
	movs	r0, #1
	add	sp, #28
	pop.w	{r4, r5, r6, r7, r8, r9, r10, r11, pc}
.Lfunc_end36:
	.size	tlsf_post.mailboxes.send_out, .Lfunc_end36-tlsf_post.mailboxes.send_out
	.cfi_endproc
	.section	.text.std_alloc.arc.Arc.drop.f29941b0e8355977,"ax",%progbits
	.p2align	2
	.type	std_alloc.arc.Arc.drop.f29941b0e8355977,%function
	.code	16
	.thumb_func
std_alloc.arc.Arc.drop.f29941b0e8355977:
	.cfi_startproc
	push	{r4, r5, r6, lr}
	.cfi_def_cfa_offset 16
	.cfi_offset lr, -4
	.cfi_offset r6, -8
	.cfi_offset r5, -12
	.cfi_offset r4, -16
	sub	sp, #8
	.cfi_def_cfa_offset 24
	movs	r1, #5
	movs	r2, #1
	movs	r3, #0
	mov	r4, r0
	str	r1, [sp]
	bl	__atomic_fetch_sub_8
	eor	r0, r0, #1
	orrs	r0, r1
	itt	ne
	addne	sp, #8
	popne	{r4, r5, r6, pc}
.LBB37_1:
	ldr	r5, [r4, #40]
	ldr	r6, [r4, #56]
	mov	r0, r4
	bl	tlsf_memory_dealloc
	mov	r0, r5
	bl	tlsf_memory_dealloc
	mov	r0, r6
	add	sp, #8
	pop.w	{r4, r5, r6, lr}
	b	tlsf_memory_dealloc
.Lfunc_end37:
	.size	std_alloc.arc.Arc.drop.f29941b0e8355977, .Lfunc_end37-std_alloc.arc.Arc.drop.f29941b0e8355977
	.cfi_endproc
	.section	.text.std_alloc.vec.deque.VecDeque.drop.ca3d8856d46a41b8,"ax",%progbits
	.p2align	2
	.type	std_alloc.vec.deque.VecDeque.drop.ca3d8856d46a41b8,%function
	.code	16
	.thumb_func
std_alloc.vec.deque.VecDeque.drop.ca3d8856d46a41b8:
	.cfi_startproc
	push.w	{r4, r5, r6, r7, r8, r9, r10, r11, lr}
	.cfi_def_cfa_offset 36
	.cfi_offset lr, -4
	.cfi_offset r11, -8
	.cfi_offset r10, -12
	.cfi_offset r9, -16
	.cfi_offset r8, -20
	.cfi_offset r7, -24
	.cfi_offset r6, -28
	.cfi_offset r5, -32
	.cfi_offset r4, -36
	sub	sp, #28
	.cfi_def_cfa_offset 64
	ldr	r1, [r0, #8]
	ldr	r2, [r0, #12]
	ldr	r3, [r0, #20]
	ldr.w	r10, [r0]
	ldr.w	r11, [r0, #16]
	str	r3, [sp, #12]
	orrs.w	r3, r1, r2
	beq	.LBB38_11
	ldr	r7, [r0, #32]
	ldr	r3, [r0, #36]
	ldr.w	r8, [r0, #24]
	ldr.w	r9, [r0, #28]
	subs	r0, r1, r7
	str.w	r11, [sp, #8]
	sbc.w	r1, r2, r3
	adds.w	r11, r8, r0
	str	r7, [sp, #20]
	adc.w	r7, r9, r1
	subs.w	r0, r8, r11
	sbcs.w	r0, r9, r7
	str	r3, [sp, #24]
	bhs	.LBB38_6
	movs	r6, #5
	str.w	r10, [sp, #16]
	b	.LBB38_4
	.p2align	2
.LBB38_3:
	adds.w	r8, r8, #1
	adc	r9, r9, #0
	subs.w	r0, r8, r11
	sbcs.w	r0, r9, r7
	bhs	.LBB38_6
.LBB38_4:
	lsl.w	r0, r8, #4
	ldr.w	r5, [r10, r0]
	mov	r0, r5
	movs	r2, #1
	movs	r3, #0
	str	r6, [sp]
	bl	__atomic_fetch_sub_8
	eor	r0, r0, #1
	orrs	r0, r1
	bne	.LBB38_3
	mov	r4, r6
	ldr	r6, [r5, #40]
	mov	r10, r7
	ldr	r7, [r5, #56]
	mov	r0, r5
	bl	tlsf_memory_dealloc
	mov	r0, r6
	mov	r6, r4
	bl	tlsf_memory_dealloc
	mov	r0, r7
	mov	r7, r10
	ldr.w	r10, [sp, #16]
	bl	tlsf_memory_dealloc
	b	.LBB38_3
.LBB38_6:
	ldrd	r1, r0, [sp, #20]
	ldr.w	r11, [sp, #8]
	orrs	r0, r1
	beq	.LBB38_11
	movs	r4, #0
	mov.w	r8, #5
	movs	r7, #0
	b	.LBB38_9
	.p2align	2
.LBB38_8:
	ldr	r0, [sp, #20]
	adds	r4, #1
	adc	r7, r7, #0
	subs	r0, r4, r0
	ldr	r0, [sp, #24]
	sbcs.w	r0, r7, r0
	bhs	.LBB38_11
.LBB38_9:
	lsls	r0, r4, #4
	ldr.w	r5, [r10, r0]
	mov	r0, r5
	movs	r2, #1
	movs	r3, #0
	str.w	r8, [sp]
	bl	__atomic_fetch_sub_8
	eor	r0, r0, #1
	orrs	r0, r1
	bne	.LBB38_8
	ldr	r6, [r5, #40]
	ldr.w	r9, [r5, #56]
	mov	r0, r5
	bl	tlsf_memory_dealloc
	mov	r0, r6
	bl	tlsf_memory_dealloc
	mov	r0, r9
	bl	tlsf_memory_dealloc
	b	.LBB38_8
.LBB38_11:
	ldr	r0, [sp, #12]
	orrs.w	r0, r0, r11
	beq	.LBB38_13
	mov	r0, r10
	add	sp, #28
	pop.w	{r4, r5, r6, r7, r8, r9, r10, r11, lr}
	b	tlsf_memory_dealloc
.LBB38_13:
	add	sp, #28
	pop.w	{r4, r5, r6, r7, r8, r9, r10, r11, pc}
.Lfunc_end38:
	.size	std_alloc.vec.deque.VecDeque.drop.ca3d8856d46a41b8, .Lfunc_end38-std_alloc.vec.deque.VecDeque.drop.ca3d8856d46a41b8
	.cfi_endproc
	.section	.text.tlsf_heap.heap.Heap.copy.4,"ax",%progbits
	.p2align	2
	.type	tlsf_heap.heap.Heap.copy.4,%function
	.code	16
	.thumb_func
tlsf_heap.heap.Heap.copy.4:
	.cfi_startproc
	push.w	{r4, r5, r6, r7, r8, lr}
	.cfi_def_cfa_offset 24
	.cfi_offset lr, -4
	.cfi_offset r8, -8
	.cfi_offset r7, -12
	.cfi_offset r6, -16
	.cfi_offset r5, -20
	.cfi_offset r4, -24
	sub	sp, #32
	.cfi_def_cfa_offset 56
	ldr	r1, [r1, #4]
	ldr	r7, [r2, #4]
	adds	r2, r1, #3
	mov.w	r12, #0
	mov	r4, r3
	adc	r3, r12, #0
	adds	r7, #3
	adc	lr, r12, #0
	ands	r8, r4, #7
	lsr.w	r4, r4, #3
	beq	.LBB39_2
	ldr	r1, [r0, #24]
	adds	r5, r2, r4
	add.w	r6, r1, r5, lsl #3
	ldr.w	r5, [r1, r5, lsl #3]
	ldr	r6, [r6, #4]
	strd	r7, lr, [sp]
	strd	r5, r6, [sp, #16]
	mov	r5, r0
	mov	r0, r1
	str	r4, [sp, #8]
	str.w	r12, [sp, #12]
	bl	tlsf_words.cells.copy_run
	ldr	r5, [r5, #24]
	add	r4, r7
	add.w	r6, r5, r4, lsl #3
	ldr.w	r0, [r5, r4, lsl #3]
	ldr	r1, [r6, #4]
	mov	r2, r8
	strd	r0, r1, [sp, #24]
	add	r0, sp, #24
	add	r1, sp, #16
	bl	tlsf_memory_cpy
	ldrd	r0, r1, [sp, #24]
	str.w	r0, [r5, r4, lsl #3]
	str	r1, [r6, #4]
	add	sp, #32
	pop.w	{r4, r5, r6, r7, r8, pc}
.LBB39_2:
	ldr	r0, [r0, #24]
	strd	r7, lr, [sp]
	strd	r4, r12, [sp, #8]
	bl	tlsf_words.cells.copy_run
	add	sp, #32
	pop.w	{r4, r5, r6, r7, r8, pc}
.Lfunc_end39:
	.size	tlsf_heap.heap.Heap.copy.4, .Lfunc_end39-tlsf_heap.heap.Heap.copy.4
	.cfi_endproc
	.section	.text.tlsf_words.cells.copy_run,"ax",%progbits
	.p2align	2
	.type	tlsf_words.cells.copy_run,%function
	.code	16
	.thumb_func
tlsf_words.cells.copy_run:
	.cfi_startproc
	push.w	{r4, r5, r6, r7, r8, lr}
	.cfi_def_cfa_offset 24
	.cfi_offset lr, -4
	.cfi_offset r8, -8
	.cfi_offset r7, -12
	.cfi_offset r6, -16
	.cfi_offset r5, -20
	.cfi_offset r4, -24
	add.w	lr, sp, #24
	ldm.w	lr, {r6, r7, lr}
	mov	r1, r2
	ldr.w	r12, [sp, #36]
	lsls	r2, r7, #3
	lsl.w	r8, r6, #3
	lsls	r4, r3, #3
	orr.w	r2, r2, r6, lsr #29
	orr.w	r4, r4, r1, lsr #29
	subs.w	r5, r8, r1, lsl #3
	sbcs	r2, r4
	lsl.w	r4, r12, #3
	orr.w	r4, r4, lr, lsr #29
	subs.w	r5, r5, lr, lsl #3
	sbcs	r2, r4
	bhs	.LBB40_2
.LBB40_1:
	pop.w	{r4, r5, r6, r7, r8, pc}
.LBB40_2:
	adds.w	r2, lr, r1
	adc.w	r5, r12, r3
	subs	r2, r6, r2
	sbcs.w	r2, r7, r5
	lsl.w	r2, lr, #3
	bhs	.LBB40_8
	adds.w	r5, lr, r6
	adc.w	r6, r12, r7
	subs	r5, r1, r5
	sbcs	r3, r6
	blo	.LBB40_1
	add.w	r1, r0, r1, lsl #3
	add	r0, r8
	subs	r3, r0, r1
	mov.w	r5, #0
	sbc	r5, r5, #0
	subs	r3, r3, r2
	sbcs.w	r3, r5, r4
	bhs	.LBB40_11
	cmp.w	lr, #1
	mov.w	r3, #1
	mov.w	r2, #1
	it	hi
	movhi	r3, lr
	cmp.w	r12, #0
	ite	ne
	movne	r2, lr
	moveq	r2, r3
	subs.w	r3, lr, #4
	sbcs	r3, r12, #0
	and	r12, r2, #3
	blo	.LBB40_10
	movw	r3, #65532
	movt	r3, #8191
	and.w	lr, r2, r3
	movs	r3, #0
	movs	r2, #0
	.p2align	2
.LBB40_7:
	add.w	r5, r1, r3, lsl #3
	ldr.w	r6, [r1, r3, lsl #3]
	ldr	r5, [r5, #4]
	add.w	r4, r0, r3, lsl #3
	str.w	r6, [r0, r3, lsl #3]
	str	r5, [r4, #4]
	orr	r4, r3, #1
	add.w	r6, r1, r4, lsl #3
	ldr.w	r7, [r1, r4, lsl #3]
	ldr	r6, [r6, #4]
	add.w	r5, r0, r4, lsl #3
	str.w	r7, [r0, r4, lsl #3]
	orr	r4, r3, #2
	str	r6, [r5, #4]
	add.w	r6, r1, r4, lsl #3
	ldr.w	r7, [r1, r4, lsl #3]
	ldr	r6, [r6, #4]
	add.w	r5, r0, r4, lsl #3
	str.w	r7, [r0, r4, lsl #3]
	str	r6, [r5, #4]
	orr	r4, r3, #3
	ldr.w	r7, [r1, r4, lsl #3]
	add.w	r6, r1, r4, lsl #3
	adds	r3, #4
	add.w	r5, r0, r4, lsl #3
	ldr	r6, [r6, #4]
	str.w	r7, [r0, r4, lsl #3]
	adc	r2, r2, #0
	eor.w	r4, r3, lr
	orrs	r4, r2
	str	r6, [r5, #4]
	bne	.LBB40_7
	b	.LBB40_14
.LBB40_8:
	lsls	r1, r1, #3
	mov	r3, r0
	add.w	r0, r0, r6, lsl #3
	add	r1, r3
	subs	r3, r0, r1
	mov.w	r5, #0
	sbc	r5, r5, #0
	subs	r3, r3, r2
	sbcs.w	r3, r5, r4
	bhs	.LBB40_11
	cmp.w	lr, #1
	mov.w	r3, #1
	mov.w	r2, #1
	it	hi
	movhi	r3, lr
	cmp.w	r12, #0
	ite	ne
	movne	r2, lr
	moveq	r2, r3
	subs.w	r3, lr, #4
	sbcs	r3, r12, #0
	and	r12, r2, #3
	bhs	.LBB40_12
.LBB40_10:
	movs	r3, #0
	b	.LBB40_15
.LBB40_11:
	pop.w	{r4, r5, r6, r7, r8, lr}
	b	tlsf_memory_move
.LBB40_12:
	movw	r3, #65532
	movt	r3, #8191
	and.w	lr, r2, r3
	movs	r3, #0
	movs	r2, #0
	.p2align	2
.LBB40_13:
	add.w	r5, r1, r3, lsl #3
	ldr.w	r6, [r1, r3, lsl #3]
	ldr	r5, [r5, #4]
	add.w	r4, r0, r3, lsl #3
	str.w	r6, [r0, r3, lsl #3]
	str	r5, [r4, #4]
	orr	r4, r3, #1
	add.w	r6, r1, r4, lsl #3
	ldr.w	r7, [r1, r4, lsl #3]
	ldr	r6, [r6, #4]
	add.w	r5, r0, r4, lsl #3
	str.w	r7, [r0, r4, lsl #3]
	orr	r4, r3, #2
	str	r6, [r5, #4]
	add.w	r6, r1, r4, lsl #3
	ldr.w	r7, [r1, r4, lsl #3]
	ldr	r6, [r6, #4]
	add.w	r5, r0, r4, lsl #3
	str.w	r7, [r0, r4, lsl #3]
	str	r6, [r5, #4]
	orr	r4, r3, #3
	ldr.w	r7, [r1, r4, lsl #3]
	add.w	r6, r1, r4, lsl #3
	adds	r3, #4
	add.w	r5, r0, r4, lsl #3
	ldr	r6, [r6, #4]
	str.w	r7, [r0, r4, lsl #3]
	adc	r2, r2, #0
	eor.w	r4, r3, lr
	orrs	r4, r2
	str	r6, [r5, #4]
	bne	.LBB40_13
.LBB40_14:
	cmp.w	r12, #0
	beq.w	.LBB40_1
.LBB40_15:
	add.w	r7, r1, r3, lsl #3
	ldr.w	r6, [r1, r3, lsl #3]
	ldr	r7, [r7, #4]
	add.w	r2, r0, r3, lsl #3
	cmp.w	r12, #1
	str.w	r6, [r0, r3, lsl #3]
	str	r7, [r2, #4]
	beq.w	.LBB40_1
	adds	r2, r3, #1
	add.w	r6, r1, r2, lsl #3
	ldr.w	r5, [r1, r2, lsl #3]
	ldr	r6, [r6, #4]
	add.w	r7, r0, r2, lsl #3
	cmp.w	r12, #2
	str.w	r5, [r0, r2, lsl #3]
	str	r6, [r7, #4]
	it	eq
	popeq.w	{r4, r5, r6, r7, r8, pc}
.LBB40_17:
	adds	r2, r3, #2
	add.w	r7, r1, r2, lsl #3
	ldr.w	r1, [r1, r2, lsl #3]
	ldr	r7, [r7, #4]
	add.w	r3, r0, r2, lsl #3
	str.w	r1, [r0, r2, lsl #3]
	str	r7, [r3, #4]
	pop.w	{r4, r5, r6, r7, r8, pc}
.Lfunc_end40:
	.size	tlsf_words.cells.copy_run, .Lfunc_end40-tlsf_words.cells.copy_run
	.cfi_endproc
	.section	.text.tlsf_c.lane_calls.take_name,"ax",%progbits
	.p2align	2
	.type	tlsf_c.lane_calls.take_name,%function
	.code	16
	.thumb_func
tlsf_c.lane_calls.take_name:
	.cfi_startproc
	push.w	{r4, r5, r6, r7, r8, r9, r10, r11, lr}
	.cfi_def_cfa_offset 36
	.cfi_offset lr, -4
	.cfi_offset r11, -8
	.cfi_offset r10, -12
	.cfi_offset r9, -16
	.cfi_offset r8, -20
	.cfi_offset r7, -24
	.cfi_offset r6, -28
	.cfi_offset r5, -32
	.cfi_offset r4, -36
	sub	sp, #12
	.cfi_def_cfa_offset 48
	mov	r4, r0
	ldrd	r2, lr, [r0, #24]
	ldr	r0, [r0, #32]
	ldr	r7, [r4, #36]
	subs	r6, r0, r2
	sbcs.w	r6, r7, lr
	mov	r5, r1
	bhs	.LBB41_2
	ldrd	r1, r6, [r4, #16]
	subs	r0, r0, r2
	lsl.w	r6, r6, #1
	orr.w	r6, r6, r1, lsr #31
	sbc.w	r7, r7, lr
	adds.w	r0, r0, r1, lsl #1
	adc.w	r1, r7, r6
	orrs	r0, r1
	bne	.LBB41_5
	b	.LBB41_3
.LBB41_2:
	subs	r0, r0, r2
	sbc.w	r1, r7, lr
	orrs	r0, r1
	bne	.LBB41_5
.LBB41_3:
	ldr	r0, [r4]
	adds	r0, #128
	movs	r1, #5
	bl	__atomic_load_8
	ldrd	r2, lr, [r4, #24]
	strd	r0, r1, [r4, #32]
	subs	r7, r0, r2
	sbcs.w	r7, r1, lr
	bhs	.LBB41_7
	ldrd	r7, r6, [r4, #16]
	subs	r0, r0, r2
	lsl.w	r6, r6, #1
	orr.w	r6, r6, r7, lsr #31
	sbc.w	r1, r1, lr
	adds.w	r0, r0, r7, lsl #1
	adcs	r1, r6
	orrs	r0, r1
	beq	.LBB41_8
.LBB41_5:
	ldrd	r1, r8, [r4, #16]
	mov.w	r6, #-1
	lsl.w	r7, r8, #1
	orr.w	r7, r7, r1, lsr #31
	adds.w	r6, r6, r1, lsl #1
	sbc	r7, r7, #0
	subs	r6, r2, r6
	sbcs.w	r7, lr, r7
	mov.w	r3, #0
	ldr	r0, [r4]
	ldr.w	r12, [r4, #8]
	it	lo
	movlo	r3, #1
	adds	r6, r2, #1
	adc	r7, lr, #0
	cmp	r3, #0
	itt	eq
	moveq	r6, r3
	moveq	r7, r3
	subs	r1, r2, r1
	sbcs.w	r3, lr, r8
	it	lo
	movlo	r1, r2
	add.w	r1, r1, r1, lsl #1
	add.w	r1, r12, r1, lsl #3
	ldr	r2, [r1, #16]
	ldr.w	r9, [r1, #8]
	str	r2, [sp, #8]
	ldr.w	r10, [r1, #12]
	ldr.w	r8, [r1, #20]
	movs	r1, #5
	mov	r2, r6
	mov	r3, r7
	mov.w	r11, #0
	str	r1, [sp]
	bl	__atomic_store_8
	ldr	r0, [sp, #8]
	strd	r6, r7, [r4, #24]
	str.w	r9, [r5]
	str.w	r10, [r5, #4]
	str.w	r8, [r5, #12]
	str	r0, [r5, #8]
.LBB41_6:
	mov	r0, r11
	add	sp, #12
	pop.w	{r4, r5, r6, r7, r8, r9, r10, r11, pc}
.LBB41_7:
	subs	r0, r0, r2
	sbc.w	r1, r1, lr
	orrs	r0, r1
	bne	.LBB41_5
.LBB41_8:
	mov.w	r11, #35
	b	.LBB41_6
.Lfunc_end41:
	.size	tlsf_c.lane_calls.take_name, .Lfunc_end41-tlsf_c.lane_calls.take_name
	.cfi_endproc
	.section	.text.tlsf_heap.region.Region.write.4,"ax",%progbits
	.p2align	2
	.type	tlsf_heap.region.Region.write.4,%function
	.code	16
	.thumb_func
tlsf_heap.region.Region.write.4:
	.cfi_startproc
	push	{r4, r5, r6, lr}
	.cfi_def_cfa_offset 16
	.cfi_offset lr, -4
	.cfi_offset r6, -8
	.cfi_offset r5, -12
	.cfi_offset r4, -16
	sub	sp, #16
	.cfi_def_cfa_offset 32
	mov	lr, r2
	ldr	r4, [sp, #32]
	lsrs	r2, r1, #29
	adds.w	r1, lr, r1, lsl #3
	mov	r12, r3
	adc	r3, r2, #0
	adds.w	r2, r1, #24
	orr.w	r1, r4, lr
	adc	r3, r3, #0
	lsls	r1, r1, #29
	ldr	r1, [sp, #36]
	beq	.LBB42_3
	rsbs.w	r6, r4, #7
	mov.w	r6, #0
	sbcs	r6, r1
	blo	.LBB42_10
	strd	r4, r1, [sp, #8]
	str.w	r12, [sp]
	bl	tlsf_words.words.Words.write_few
	add	sp, #16
	pop	{r4, r5, r6, pc}
.LBB42_3:
	rsbs.w	r3, r4, #63
	mov.w	r3, #0
	sbcs	r3, r1
	ldr	r0, [r0]
	lsr.w	r3, r4, #3
	bic	r2, r2, #7
	orr.w	lr, r3, r1, lsl #29
	add	r0, r2
	blo	.LBB42_12
	lsls	r2, r4, #28
	bpl	.LBB42_6
	mvn	r2, #7
	add.w	r2, r2, lr, lsl #3
	add.w	r3, r12, r2
	ldr	r3, [r3, #4]
	ldr.w	r5, [r12, r2]
	adds	r6, r0, r2
	str	r5, [r0, r2]
	str	r3, [r6, #4]
.LBB42_6:
	lsls	r2, r4, #27
	bpl	.LBB42_8
	movs	r2, #32
	and.w	r2, r2, lr, lsl #3
	add.w	r3, r12, r2
	ldr.w	r6, [r12, r2]
	ldr	r3, [r3, #4]
	adds	r5, r0, r2
	str	r6, [r0, r2]
	adds	r2, #8
	str	r3, [r5, #4]
	add.w	r3, r12, r2
	ldr	r3, [r3, #4]
	ldr.w	r6, [r12, r2]
	adds	r5, r0, r2
	str	r6, [r0, r2]
	str	r3, [r5, #4]
.LBB42_8:
	subs.w	r2, r4, #25
	sbcs	r1, r1, #0
	blo	.LBB42_11
	ldr.w	r1, [r12, #4]
	ldr.w	r2, [r12]
	strd	r2, r1, [r0]
	ldr.w	r1, [r12, #12]
	ldr.w	r2, [r12, #8]
	strd	r2, r1, [r0, #8]
	ldr.w	r1, [r12, #20]
	ldr.w	r2, [r12, #16]
	strd	r2, r1, [r0, #16]
	ldr.w	r1, [r12, #28]
	ldr.w	r2, [r12, #24]
	strd	r2, r1, [r0, #24]
	add	sp, #16
	pop	{r4, r5, r6, pc}
.LBB42_10:
	strd	r4, r1, [sp, #8]
	str.w	r12, [sp]
	bl	tlsf_words.words.Words.write_run
.LBB42_11:
	add	sp, #16
	pop	{r4, r5, r6, pc}
.LBB42_12:
	lsrs	r3, r1, #3
	mov	r2, lr
	str.w	r12, [sp, #32]
	add	sp, #16
	pop.w	{r4, r5, r6, lr}
	b	tlsf_words.cells.pack_many
.Lfunc_end42:
	.size	tlsf_heap.region.Region.write.4, .Lfunc_end42-tlsf_heap.region.Region.write.4
	.cfi_endproc
	.section	.text.tlsf_words.cells.pack_many,"ax",%progbits
	.p2align	2
	.type	tlsf_words.cells.pack_many,%function
	.code	16
	.thumb_func
tlsf_words.cells.pack_many:
	.cfi_startproc
	push.w	{r4, r5, r6, r7, r8, lr}
	.cfi_def_cfa_offset 24
	.cfi_offset lr, -4
	.cfi_offset r8, -8
	.cfi_offset r7, -12
	.cfi_offset r6, -16
	.cfi_offset r5, -20
	.cfi_offset r4, -24
	ldr.w	lr, [sp, #24]
	bic	r12, r2, #3
	lsls	r4, r2, #31
	add.w	r1, r0, r12, lsl #3
	add.w	r4, lr, r12, lsl #3
	beq	.LBB43_2
	movs	r5, #24
	and.w	r5, r5, r2, lsl #3
	subs	r5, #8
	adds	r6, r4, r5
	ldr.w	r8, [r6, #4]
	ldr	r7, [r4, r5]
	adds	r6, r1, r5
	str	r7, [r1, r5]
	str.w	r8, [r6, #4]
.LBB43_2:
	lsls	r2, r2, #30
	bpl	.LBB43_4
	ldr	r2, [r4, #4]
	ldr	r5, [r4]
	strd	r5, r2, [r1]
	ldr	r2, [r4, #12]
	ldr	r4, [r4, #8]
	strd	r4, r2, [r1, #8]
.LBB43_4:
	movs	r2, #0
	movs	r1, #0
	.p2align	2
.LBB43_5:
	add.w	r4, lr, r2, lsl #3
	ldr	r4, [r4, #4]
	ldr.w	r5, [lr, r2, lsl #3]
	add.w	r6, r0, r2, lsl #3
	str.w	r5, [r0, r2, lsl #3]
	str	r4, [r6, #4]
	orr	r4, r2, #1
	add.w	r5, lr, r4, lsl #3
	ldr.w	r6, [lr, r4, lsl #3]
	ldr	r5, [r5, #4]
	add.w	r7, r0, r4, lsl #3
	str.w	r6, [r0, r4, lsl #3]
	orr	r4, r2, #2
	str	r5, [r7, #4]
	add.w	r5, lr, r4, lsl #3
	ldr	r5, [r5, #4]
	ldr.w	r6, [lr, r4, lsl #3]
	add.w	r7, r0, r4, lsl #3
	str.w	r6, [r0, r4, lsl #3]
	str	r5, [r7, #4]
	orr	r4, r2, #3
	ldr.w	r6, [lr, r4, lsl #3]
	add.w	r5, lr, r4, lsl #3
	adds	r2, #4
	ldr	r5, [r5, #4]
	add.w	r7, r0, r4, lsl #3
	str.w	r6, [r0, r4, lsl #3]
	adc	r1, r1, #0
	subs.w	r4, r2, r12
	sbcs.w	r4, r1, r3
	str	r5, [r7, #4]
	blo	.LBB43_5
	pop.w	{r4, r5, r6, r7, r8, pc}
.Lfunc_end43:
	.size	tlsf_words.cells.pack_many, .Lfunc_end43-tlsf_words.cells.pack_many
	.cfi_endproc
	.section	.text.tlsf_words.words.Words.write_few,"ax",%progbits
	.p2align	2
	.type	tlsf_words.words.Words.write_few,%function
	.code	16
	.thumb_func
tlsf_words.words.Words.write_few:
	.cfi_startproc
	push.w	{r4, r5, r6, r7, r8, r9, r10, r11, lr}
	.cfi_def_cfa_offset 36
	.cfi_offset lr, -4
	.cfi_offset r11, -8
	.cfi_offset r10, -12
	.cfi_offset r9, -16
	.cfi_offset r8, -20
	.cfi_offset r7, -24
	.cfi_offset r6, -28
	.cfi_offset r5, -32
	.cfi_offset r4, -36
	sub	sp, #20
	.cfi_def_cfa_offset 56
	ldrd	r5, r4, [sp, #64]
	and	lr, r2, #7
	rsb.w	r10, lr, #8
	movs	r7, #0
	subs.w	r6, r10, r5
	sbcs.w	r6, r7, r4
	mov	r11, r0
	ldr	r1, [sp, #56]
	mov	r6, r5
	lsr.w	r0, r2, #3
	it	lo
	movlo	r6, r10
	orrs.w	r2, r5, r4
	orr.w	r9, r0, r3, lsl #29
	beq	.LBB44_2
	ldr.w	r8, [r11]
	add.w	r0, r8, r9, lsl #3
	ldr.w	r3, [r8, r9, lsl #3]
	ldr	r2, [r0, #4]
	str	r0, [sp, #4]
	strd	r3, r2, [sp, #8]
	add	r2, sp, #8
	add.w	r0, r2, lr
	mov	r2, r6
	bl	tlsf_memory_cpy
	ldrd	r0, r2, [sp, #8]
	ldr	r1, [sp, #56]
	str.w	r0, [r8, r9, lsl #3]
	ldr	r0, [sp, #4]
	str	r2, [r0, #4]
.LBB44_2:
	subs.w	r0, r10, r5
	sbcs.w	r0, r7, r4
	bhs	.LBB44_4
	ldr.w	r0, [r11]
	subs	r2, r5, r6
	add.w	r4, r0, r9, lsl #3
	ldrd	r0, r3, [r4, #8]
	add	r1, r6
	strd	r0, r3, [sp, #8]
	add	r0, sp, #8
	bl	tlsf_memory_cpy
	ldrd	r0, r1, [sp, #8]
	strd	r0, r1, [r4, #8]
.LBB44_4:
	add	sp, #20
	pop.w	{r4, r5, r6, r7, r8, r9, r10, r11, pc}
.Lfunc_end44:
	.size	tlsf_words.words.Words.write_few, .Lfunc_end44-tlsf_words.words.Words.write_few
	.cfi_endproc
	.section	.text.tlsf_words.words.Words.write_run,"ax",%progbits
	.p2align	2
	.type	tlsf_words.words.Words.write_run,%function
	.code	16
	.thumb_func
tlsf_words.words.Words.write_run:
	.cfi_startproc
	push.w	{r4, r5, r6, r7, r8, r9, r10, r11, lr}
	.cfi_def_cfa_offset 36
	.cfi_offset lr, -4
	.cfi_offset r11, -8
	.cfi_offset r10, -12
	.cfi_offset r9, -16
	.cfi_offset r8, -20
	.cfi_offset r7, -24
	.cfi_offset r6, -28
	.cfi_offset r5, -32
	.cfi_offset r4, -36
	sub	sp, #52
	.cfi_def_cfa_offset 88
	ldrd	r7, r6, [sp, #96]
	rsbs	r5, r2, #0
	and	r1, r5, #7
	subs.w	r8, r7, r1
	ldr.w	r11, [sp, #88]
	strd	r7, r1, [sp, #44]
	sbc	lr, r6, #0
	adds	r7, r2, #7
	mov	r10, r8
	mov.w	r4, #-1
	lsr.w	r12, r8, #3
	adc	r1, r3, #0
	bfi	r10, r5, #0, #3
	ands	r9, r2, #7
	lsr.w	r7, r7, #3
	beq	.LBB45_2
	ldr	r3, [r0]
	bic	r2, r2, #7
	str	r3, [sp, #16]
	str.w	r8, [sp, #36]
	add.w	r8, r3, r2
	ldr	r3, [r3, r2]
	mov.w	r5, #-1
	str	r3, [sp, #12]
	ldr.w	r3, [r8, #4]
	str	r3, [sp, #8]
	ldr.w	r3, [r11, #4]
	str.w	lr, [sp, #40]
	ldr.w	lr, [r11]
	str	r3, [sp, #4]
	strd	r11, r0, [sp, #28]
	lsl.w	r11, r9, #3
	str	r6, [sp, #24]
	mov	r6, r1
	mov	r1, r12
	mov.w	r12, #32
	lsl.w	r0, r4, r11
	sub.w	r4, r12, r9, lsl #3
	str	r7, [sp, #20]
	mov.w	r7, #-1
	mvn	r3, #31
	lsrs	r7, r4
	add.w	r3, r3, r9, lsl #3
	orrs	r7, r0
	cmp	r3, #0
	it	pl
	movpl	r0, #0
	it	pl
	lslpl.w	r7, r5, r3
	ldr	r5, [sp, #8]
	lsr.w	r4, lr, r4
	bic.w	r12, r5, r7
	ldr	r5, [sp, #12]
	bic.w	r9, r5, r0
	ldr	r0, [sp, #4]
	lsl.w	r7, r0, r11
	orr.w	r4, r4, r7
	it	pl
	lslpl.w	r4, lr, r3
	lsl.w	r3, lr, r11
	ldrd	r11, r0, [sp, #28]
	ldr.w	lr, [sp, #40]
	it	pl
	movpl	r3, #0
	adds.w	r7, r3, r9
	ldr	r5, [sp, #16]
	adc.w	r3, r4, r12
	mov	r12, r1
	mov	r1, r6
	ldr	r6, [sp, #24]
	str	r7, [r5, r2]
	ldr	r7, [sp, #20]
	str.w	r3, [r8, #4]
	ldr.w	r8, [sp, #36]
	mov.w	r4, #-1
.LBB45_2:
	ldr	r5, [sp, #44]
	orr.w	r2, r12, lr, lsl #29
	eor.w	r3, r5, r10
	orrs	r3, r6
	orr.w	r12, r7, r1, lsl #29
	beq	.LBB45_4
	sub.w	r3, r5, r10
	add.w	r1, r11, r5
	movs	r5, #64
	ldr	r7, [r1, #-8]
	ldr	r1, [r1, #-4]
	mov	r10, r4
	sub.w	r4, r5, r3, lsl #3
	rsb.w	r5, r4, #32
	lsrs	r7, r4
	lsl.w	r5, r1, r5
	orrs	r5, r7
	movs	r7, #32
	lsls	r6, r3, #3
	sub.w	r7, r7, r3, lsl #3
	lsr.w	r9, r1, r4
	mvn	r4, #31
	cmp	r7, #0
	it	pl
	lsrpl.w	r5, r1, r7
	it	pl
	movpl.w	r9, #0
	add.w	r3, r4, r3, lsl #3
	ldr	r4, [r0]
	lsl.w	r6, r10, r6
	lsr.w	r7, r10, r7
	orrs	r7, r6
	add.w	r1, r2, r12
	cmp	r3, #0
	it	pl
	lslpl.w	r7, r10, r3
	ldr.w	r3, [r4, r1, lsl #3]
	it	pl
	movpl	r6, #0
	bics	r5, r6
	ands	r3, r6
	add	r3, r5
	str.w	r3, [r4, r1, lsl #3]
	add.w	r4, r4, r1, lsl #3
	ldr	r3, [r4, #4]
	bic.w	r1, r9, r7
	ands	r3, r7
	add	r1, r3
	str	r1, [r4, #4]
.LBB45_4:
	ldr	r1, [sp, #48]
	ldr	r0, [r0]
	add.w	r5, r11, r1
	rsbs.w	r1, r8, #63
	mov.w	r1, #0
	sbcs.w	r1, r1, lr
	add.w	r0, r0, r12, lsl #3
	blo	.LBB45_12
	lsls.w	r1, r8, #28
	bpl	.LBB45_7
	mvn	r1, #7
	add.w	r1, r1, r2, lsl #3
	adds	r3, r5, r1
	ldr	r3, [r3, #4]
	ldr	r7, [r5, r1]
	adds	r6, r0, r1
	str	r7, [r0, r1]
	str	r3, [r6, #4]
.LBB45_7:
	lsls.w	r1, r8, #27
	bpl	.LBB45_9
	movs	r1, #32
	and.w	r1, r1, r2, lsl #3
	adds	r2, r5, r1
	ldr	r3, [r5, r1]
	ldr	r2, [r2, #4]
	adds	r7, r0, r1
	str	r3, [r0, r1]
	adds	r1, #8
	str	r2, [r7, #4]
	adds	r2, r5, r1
	ldr	r2, [r2, #4]
	ldr	r3, [r5, r1]
	adds	r7, r0, r1
	str	r3, [r0, r1]
	str	r2, [r7, #4]
.LBB45_9:
	subs.w	r1, r8, #32
	sbcs	r1, lr, #0
	blo	.LBB45_11
	ldr	r1, [r5, #4]
	ldr	r2, [r5]
	strd	r2, r1, [r0]
	ldr	r1, [r5, #12]
	ldr	r2, [r5, #8]
	strd	r2, r1, [r0, #8]
	ldr	r1, [r5, #20]
	ldr	r2, [r5, #16]
	strd	r2, r1, [r0, #16]
	ldr	r1, [r5, #28]
	ldr	r2, [r5, #24]
	strd	r2, r1, [r0, #24]
.LBB45_11:
	add	sp, #52
	pop.w	{r4, r5, r6, r7, r8, r9, r10, r11, pc}
.LBB45_12:
	lsr.w	r3, lr, #3
	str	r5, [sp, #88]
	add	sp, #52
	pop.w	{r4, r5, r6, r7, r8, r9, r10, r11, lr}
	b	tlsf_words.cells.pack_many
.Lfunc_end45:
	.size	tlsf_words.words.Words.write_run, .Lfunc_end45-tlsf_words.words.Words.write_run
	.cfi_endproc
	.section	.text.tlsf_allocate,"ax",%progbits
	.globl	tlsf_allocate
	.p2align	2
	.type	tlsf_allocate,%function
	.code	16
	.thumb_func
tlsf_allocate:
	.cfi_startproc
	push.w	{r4, r5, r6, r7, r8, r9, r10, r11, lr}
	.cfi_def_cfa_offset 36
	.cfi_offset lr, -4
	.cfi_offset r11, -8
	.cfi_offset r10, -12
	.cfi_offset r9, -16
	.cfi_offset r8, -20
	.cfi_offset r7, -24
	.cfi_offset r6, -28
	.cfi_offset r5, -32
	.cfi_offset r4, -36
	sub	sp, #20
	.cfi_def_cfa_offset 56
	ldrb	r3, [r0, #8]
	cmp	r3, #0
	beq.w	.LBB46_12
	ldr.w	r10, [r0]
	ldrb.w	r3, [r10]
	cmp	r3, #0
	beq.w	.LBB46_12
	movs	r7, #0
	adds	r3, r1, #1
	adc	r6, r7, #0
	cmp	r1, #0
	itt	ne
	movne	r3, r1
	movne	r6, r7
	adds	r3, #31
	adc	r6, r6, #0
	lsrs	r3, r3, #3
	orr.w	r9, r3, r6, lsl #29
	cmp.w	r9, #1048576
	strb.w	r7, [r10]
	bls	.LBB46_4
.LBB46_3:
	ldrd	r0, r2, [r10, #8]
	adds	r0, #1
	it	hs
	movhs.w	r0, #-1
	cmp	r1, r2
	it	hi
	movhi	r2, r1
	strd	r0, r2, [r10, #8]
	movs	r0, #1
	b	.LBB46_28
.LBB46_4:
	orr	r3, r9, #16
	clz	r3, r3
	rsb.w	r3, r3, #27
	sub.w	r6, r9, #1
	lsr.w	r4, r6, r3
	add.w	r3, r4, r3, lsl #4
	adds	r3, #1
	subs	r6, r3, #1
	sbc	r5, r7, #0
	lsrs	r3, r6, #4
	orr.w	r7, r3, r5, lsl #28
	add.w	r11, r10, #108
	ldr.w	r3, [r11, r7, lsl #2]
	and	r4, r4, #15
	lsrs	r3, r4
	bics	r3, r3, #1
	beq	.LBB46_6
	rbit	r3, r3
	clz	r3, r3
	adds	r7, r6, r3
	adc	r3, r5, #0
	lsrs	r6, r7, #4
	orr.w	r8, r6, r3, lsl #28
	b	.LBB46_8
.LBB46_6:
	ldr.w	r3, [r10, #104]
	mvn	r6, #1
	lsl.w	r7, r6, r7
	ands	r3, r7
	beq	.LBB46_3
	rbit	r3, r3
	clz	r3, r3
	ldr.w	r7, [r11, r3, lsl #2]
	rbit	r7, r7
	clz	r7, r7
	add.w	r7, r7, r3, lsl #4
	lsr.w	r8, r7, #4
.LBB46_8:
	ldrd	r3, r6, [r10, #32]
	str	r3, [sp, #12]
	mvns	r3, r3
	orn	r3, r3, r6
	str	r6, [sp, #16]
	cbnz	r3, .LBB46_10
	movs	r0, #2
	b	.LBB46_28
.LBB46_10:
	add.w	r12, r10, #192
	ldr.w	r3, [r12, r7, lsl #2]
	ldr.w	r6, [r10, #48]
	lsl.w	lr, r3, #3
	add.w	r4, r6, r3, lsl #3
	ldr	r5, [r4, #16]
	str	r3, [sp, #8]
	adds	r4, r5, #1
	beq	.LBB46_13
	add.w	r4, r6, r5, lsl #3
	ldr	r6, [r4, #20]
	mov.w	r3, #-1
	orrs	r6, r3
	str	r6, [r4, #20]
	str.w	r5, [r12, r7, lsl #2]
	ldr.w	r6, [r10, #48]
	b	.LBB46_15
.LBB46_12:
	movs	r0, #0
	add	sp, #20
	pop.w	{r4, r5, r6, r7, r8, r9, r10, r11, lr}
	b	tlsf_c.call_fault.CallFault.refusal
.LBB46_13:
	mov.w	r4, #-1
	str.w	r4, [r12, r7, lsl #2]
	ldr.w	r4, [r11, r8, lsl #2]
	and	r7, r7, #15
	movs	r5, #1
	lsl.w	r7, r5, r7
	bics	r4, r7
	str.w	r4, [r11, r8, lsl #2]
	bne	.LBB46_15
	ldr.w	r4, [r10, #104]
	lsl.w	r5, r5, r8
	bics	r4, r5
	str.w	r4, [r10, #104]
.LBB46_15:
	ldr.w	r11, [r6, lr]
	add.w	r5, r6, lr
	ldr	r4, [r5, #4]
	sub.w	r8, r11, r9, lsl #2
	cmp.w	r8, #15
	str.w	lr, [sp, #4]
	bhi	.LBB46_17
	ldr	r3, [sp, #12]
	subs.w	r6, r11, #1
	str	r3, [r5, #8]
	ldr	r3, [sp, #16]
	sbc	r4, r4, #0
	movs	r7, #0
	strd	r6, r4, [r5]
	strd	r3, r1, [r5, #12]
	str	r7, [r5, #20]
	lsrs	r1, r6, #2
	b	.LBB46_23
.LBB46_17:
	str	r2, [sp]
	ldrd	r12, r2, [sp, #8]
	ldr.w	lr, [sp, #16]
	add.w	r7, r12, r9
	subs.w	r3, r11, r8
	mov.w	r11, #0
	sbc	r4, r4, #0
	strd	r1, r11, [r5, #16]
	add.w	r1, r6, r7, lsl #3
	strd	r3, r4, [r5]
	strd	r2, lr, [r5, #8]
	str.w	r8, [r6, r7, lsl #3]
	strd	r12, r2, [r1, #4]
	str.w	lr, [r1, #12]
	ldr.w	r1, [r10, #72]
	mvn	r3, #7
	and.w	r3, r3, r7, lsr #3
	ldr	r4, [r1, r3]
	and	r5, r7, #63
	movs	r6, #1
	lsl.w	r11, r6, r5
	subs.w	r2, r5, #32
	it	pl
	movpl.w	r11, #0
	orr.w	r4, r4, r11
	str	r4, [r1, r3]
	add	r1, r3
	ldr	r3, [r1, #4]
	rsb.w	r4, r5, #32
	lsr.w	r4, r6, r4
	it	pl
	lslpl.w	r4, r6, r2
	orrs	r3, r4
	str	r3, [r1, #4]
	lsls.w	r1, r8, #30
	lsr.w	r1, r8, #2
	bmi	.LBB46_19
	ldr.w	r3, [r10, #48]
	adds	r4, r1, r7
	add.w	r3, r3, r4, lsl #3
	str	r7, [r3, #4]
.LBB46_19:
	orr	r3, r1, #16
	clz	r3, r3
	rsb.w	r3, r3, #27
	lsr.w	r8, r1, r3
	add.w	r5, r8, r3, lsl #4
	add.w	r2, r10, #192
	ldr.w	r6, [r2, r5, lsl #2]
	str.w	r7, [r2, r5, lsl #2]
	ldr	r2, [sp]
	lsls	r1, r7, #3
	cmp.w	r6, #-1
	add.w	r11, r10, #108
	mov.w	r4, #-1
	ble	.LBB46_21
	ldr.w	r3, [r10, #48]
	add	r1, r3
	strd	r6, r4, [r1, #16]
	add.w	r1, r3, r6, lsl #3
	str	r7, [r1, #20]
	b	.LBB46_22
.LBB46_21:
	ldr.w	r3, [r10, #48]
	add	r1, r3
	mov.w	r3, #-1
	strd	r3, r4, [r1, #16]
	lsrs	r1, r5, #4
	ldr.w	r3, [r10, #104]
	movs	r5, #1
	lsl.w	r6, r5, r1
	orrs	r3, r6
	ldr.w	r7, [r11, r1, lsl #2]
	str.w	r3, [r10, #104]
	and	r3, r8, #15
	lsl.w	r3, r5, r3
	orrs	r3, r7
	str.w	r3, [r11, r1, lsl #2]
.LBB46_22:
	mov	r1, r9
.LBB46_23:
	ldrd	r3, r4, [r10, #40]
	add	r1, r3
	cmp	r4, r1
	str.w	r1, [r10, #40]
	it	lo
	strlo.w	r1, [r10, #44]
	ldrd	r3, r4, [r10, #32]
	ldr.w	r1, [r10, #24]
	adds	r3, #1
	adc	r4, r4, #0
	lsls.w	r5, r9, #31
	strd	r3, r4, [r10, #32]
	beq	.LBB46_25
	ldrb	r3, [r0, #28]
	cmp	r3, #0
	itt	eq
	moveq	r3, #1
	strbeq	r3, [r0, #28]
.LBB46_25:
	ldr	r0, [sp, #8]
	str	r1, [r2]
	str	r0, [r2, #4]
	ldr	r0, [sp, #12]
	subs.w	r1, r9, #3
	str	r0, [r2, #8]
	ldr	r0, [sp, #16]
	str	r0, [r2, #12]
	beq	.LBB46_27
	ldr.w	r0, [r10, #48]
	ldr	r2, [sp, #4]
	movs	r4, #0
	add	r0, r2
	adds	r0, #24
	lsls	r2, r1, #3
	movs	r1, #0
	bl	tlsf_memory_set
	mov	r0, r4
	b	.LBB46_28
.LBB46_27:
	movs	r0, #0
.LBB46_28:
	movs	r1, #1
	strb.w	r1, [r10]
	add	sp, #20
	pop.w	{r4, r5, r6, r7, r8, r9, r10, r11, pc}
.Lfunc_end46:
	.size	tlsf_allocate, .Lfunc_end46-tlsf_allocate
	.cfi_endproc
	.section	.text.tlsf_allocate_aligned,"ax",%progbits
	.globl	tlsf_allocate_aligned
	.p2align	2
	.type	tlsf_allocate_aligned,%function
	.code	16
	.thumb_func
tlsf_allocate_aligned:
	.cfi_startproc
	push.w	{r4, r5, r6, r7, r8, r9, r10, r11, lr}
	.cfi_def_cfa_offset 36
	.cfi_offset lr, -4
	.cfi_offset r11, -8
	.cfi_offset r10, -12
	.cfi_offset r9, -16
	.cfi_offset r8, -20
	.cfi_offset r7, -24
	.cfi_offset r6, -28
	.cfi_offset r5, -32
	.cfi_offset r4, -36
	sub	sp, #52
	.cfi_def_cfa_offset 88
	ldrb	r7, [r1, #8]
	cmp	r7, #0
	beq	.LBB47_7
	ldr	r5, [r1]
	ldrb	r1, [r5]
	cmp	r1, #0
	beq	.LBB47_7
	mov.w	r6, #-1
	ldrd	r7, r8, [r5, #32]
	subs	r1, r6, #4
	sbc	r6, r6, #0
	subs	r1, r1, r7
	mov.w	r1, #0
	sbcs.w	r6, r6, r8
	strb	r1, [r5]
	bhs	.LBB47_4
	movs	r1, #1
	movs	r4, #0
	mov.w	r10, #2
	strb	r1, [r5]
	b	.LBB47_8
.LBB47_4:
	cmp	r3, #1
	mov.w	lr, #1
	it	hi
	movhi	lr, r3
	cmp.w	r3, #1048576
	mov.w	r10, #1
	bhi	.LBB47_6
	adds	r6, r2, #1
	mov.w	r3, #0
	adc	r4, r3, #0
	cmp	r2, #0
	itt	ne
	movne	r6, r2
	movne	r4, r3
	adds	r6, #31
	adc	r4, r4, #0
	lsrs	r6, r6, #3
	orr.w	r1, r6, r4, lsl #29
	add.w	r6, lr, r1
	adds	r6, #4
	cmp.w	r6, #1048576
	bls	.LBB47_10
.LBB47_6:
	ldrd	r1, r3, [r5, #8]
	movs	r4, #0
	adds	r1, #1
	it	hs
	movhs.w	r1, #-1
	cmp	r2, r3
	it	hi
	movhi	r3, r2
	strd	r1, r3, [r5, #8]
	strb.w	r10, [r5]
	b	.LBB47_8
.LBB47_7:
	mov	r5, r0
	movs	r0, #0
	movs	r4, #0
	bl	tlsf_c.call_fault.CallFault.refusal
	mov	r10, r0
	mov	r0, r5
.LBB47_8:
	movs	r7, #0
	mov.w	r8, #0
.LBB47_9:
	strd	r4, r10, [r0]
	strd	r7, r8, [r0, #8]
	add	sp, #52
	pop.w	{r4, r5, r6, r7, r8, r9, r10, r11, pc}
.LBB47_10:
	str	r1, [sp, #12]
	ldr	r1, [r5, #44]
	str	r1, [sp, #8]
	mov	r1, r6
	orr	r6, r6, #16
	clz	r6, r6
	rsb.w	r6, r6, #27
	subs	r4, r1, #1
	str	r1, [sp, #28]
	lsr.w	r1, r4, r6
	add.w	r6, r1, r6, lsl #4
	adds	r6, #1
	subs	r4, r6, #1
	sbc	r3, r3, #0
	lsrs	r6, r4, #4
	orr.w	r9, r6, r3, lsl #28
	add.w	r6, r5, #108
	ldr.w	r6, [r6, r9, lsl #2]
	and	r1, r1, #15
	lsr.w	r1, r6, r1
	bics	r12, r1, #1
	beq	.LBB47_12
	rbit	r1, r12
	clz	r1, r1
	adds	r4, r4, r1
	adc	r1, r3, #0
	lsrs	r3, r4, #4
	orr.w	r12, r3, r1, lsl #28
	b	.LBB47_14
.LBB47_12:
	ldr	r1, [r5, #104]
	mvn	r3, #1
	lsl.w	r3, r3, r9
	ands	r3, r1
	beq	.LBB47_6
	rbit	r1, r3
	clz	r1, r1
	add.w	r3, r5, #108
	ldr.w	r3, [r3, r1, lsl #2]
	rbit	r3, r3
	clz	r3, r3
	add.w	r4, r3, r1, lsl #4
	lsr.w	r12, r4, #4
.LBB47_14:
	add.w	r11, r5, #192
	ldr.w	r3, [r11, r4, lsl #2]
	ldr.w	r9, [r5, #48]
	add.w	r6, r9, r3, lsl #3
	ldr	r6, [r6, #16]
	adds	r1, r6, #1
	lsl.w	r1, r3, #3
	strd	r3, r1, [sp, #20]
	beq	.LBB47_16
	add.w	r12, r9, r6, lsl #3
	mov.w	r3, #-1
	str.w	r3, [r12, #20]
	str.w	r6, [r11, r4, lsl #2]
	add.w	r3, r5, #48
	ldr.w	r9, [r3]
	b	.LBB47_19
.LBB47_16:
	mov.w	r1, #-1
	str.w	r1, [r11, r4, lsl #2]
	add.w	r6, r5, #108
	ldr.w	r1, [r6, r12, lsl #2]
	and	r4, r4, #15
	mov.w	r11, #1
	lsl.w	r4, r11, r4
	bics	r1, r4
	str.w	r1, [r6, r12, lsl #2]
	bne	.LBB47_18
	ldr	r1, [r5, #104]
	movs	r3, #1
	lsl.w	r6, r3, r12
	bics	r1, r6
	str	r1, [r5, #104]
.LBB47_18:
	ldr	r1, [sp, #24]
.LBB47_19:
	ldr.w	r12, [r9, r1]
	ldr	r6, [sp, #28]
	add.w	r4, r9, r1
	ldr	r3, [r4, #4]
	sub.w	r11, r12, r6, lsl #2
	cmp.w	r11, #15
	bhi	.LBB47_21
	subs.w	r1, r12, #1
	mov.w	r6, #0
	ldr.w	r11, [sp, #24]
	sbc	r3, r3, #0
	stm.w	r4, {r1, r3, r7, r8}
	strd	r6, r6, [r4, #16]
	lsrs	r6, r1, #2
	b	.LBB47_27
.LBB47_21:
	str	r3, [sp, #16]
	ldr	r3, [sp, #20]
	strd	r7, r8, [r4, #8]
	adds	r1, r3, r6
	subs.w	r6, r12, r11
	str	r6, [sp, #4]
	ldr	r6, [sp, #16]
	str	r1, [sp, #16]
	sbc	r12, r6, #0
	ldr	r6, [sp, #4]
	strd	r6, r12, [r4]
	movs	r6, #0
	strd	r6, r6, [r4, #16]
	add.w	r6, r9, r1, lsl #3
	add.w	r12, r6, #4
	str.w	r11, [r9, r1, lsl #3]
	stm.w	r12, {r3, r7, r8}
	ldr	r3, [r5, #72]
	mvn	r6, #7
	and	r4, r1, #63
	and.w	r6, r6, r1, lsr #3
	subs.w	r1, r4, #32
	ldr.w	r12, [r3, r6]
	str	r1, [sp, #4]
	mov.w	r1, #1
	lsl.w	r9, r1, r4
	it	pl
	movpl.w	r9, #0
	orr.w	r1, r12, r9
	str	r1, [r3, r6]
	add.w	r1, r3, r6
	ldr	r3, [r1, #4]
	rsb.w	r6, r4, #32
	mov.w	r12, #1
	lsr.w	r6, r12, r6
	ldr	r4, [sp, #4]
	it	pl
	lslpl.w	r6, r12, r4
	orrs	r3, r6
	str	r3, [r1, #4]
	lsls.w	r1, r11, #30
	lsr.w	r3, r11, #2
	bmi	.LBB47_23
	add.w	r1, r5, #48
	ldr	r4, [sp, #16]
	ldr	r1, [r1]
	adds	r6, r3, r4
	add.w	r1, r1, r6, lsl #3
	str	r4, [r1, #4]
.LBB47_23:
	orr	r1, r3, #16
	clz	r1, r1
	rsb.w	r1, r1, #27
	lsr.w	r12, r3, r1
	add.w	r4, r12, r1, lsl #4
	add.w	r1, r5, #192
	ldr.w	r3, [r1, r4, lsl #2]
	ldr	r6, [sp, #16]
	ldr.w	r11, [sp, #24]
	lsl.w	r9, r6, #3
	cmp.w	r3, #-1
	str.w	r6, [r1, r4, lsl #2]
	ble	.LBB47_25
	add.w	r1, r5, #48
	ldr	r1, [r1]
	mov.w	r4, #-1
	add.w	r6, r1, r9
	strd	r3, r4, [r6, #16]
	add.w	r1, r1, r3, lsl #3
	ldr	r3, [sp, #16]
	str	r3, [r1, #20]
	b	.LBB47_26
.LBB47_25:
	ldr	r1, [r5, #48]
	mov.w	r3, #-1
	add	r1, r9
	strd	r3, r3, [r1, #16]
	lsrs	r1, r4, #4
	ldr	r3, [r5, #104]
	mov.w	r9, #1
	lsl.w	r6, r9, r1
	add.w	r11, r5, #108
	orrs	r3, r6
	ldr.w	r4, [r11, r1, lsl #2]
	str	r3, [r5, #104]
	and	r3, r12, #15
	lsl.w	r3, r9, r3
	orrs	r3, r4
	str.w	r3, [r11, r1, lsl #2]
	ldr.w	r11, [sp, #24]
.LBB47_26:
	ldr	r6, [sp, #28]
.LBB47_27:
	ldrd	r1, r4, [r5, #40]
	ldr	r3, [sp, #88]
	add	r6, r1
	cmp	r4, r6
	str	r6, [r5, #40]
	ldr	r4, [sp, #20]
	it	lo
	strlo	r6, [r5, #44]
	str	r0, [sp, #28]
	udiv	r0, r3, lr
	str	r2, [sp, #16]
	mls	r0, r0, lr, r3
	add.w	r12, r5, #24
	add	r0, r4
	adds	r0, #3
	udiv	r1, r0, lr
	mls	r2, r1, lr, r0
	ldrd	r1, r3, [r5, #32]
	ldr	r0, [r5, #24]
	adds	r1, #1
	adc	r3, r3, #0
	strd	r1, r3, [r5, #32]
	cbz	r2, .LBB47_33
	add.w	r1, lr, lr, lsl #2
	subs	r1, r1, r2
	subs	r1, #4
	udiv	r2, r1, lr
	mls	r1, r2, lr, r1
	add.w	r11, r1, #4
	add	r1, sp, #32
	stm.w	r1, {r0, r4, r7, r8}
	add	r1, sp, #32
	mov	r0, r12
	mov	r2, r11
	bl	tlsf_heap.heap.Heap.resize_live.4
	lsls	r0, r0, #24
	bne	.LBB47_34
	ldr	r0, [r5, #56]
	add	r4, r11
	cmp	r4, r0
	ldr	r0, [sp, #28]
	bhs	.LBB47_32
	ldr	r1, [r5, #72]
	mvn	r2, #7
	and.w	r2, r2, r4, lsr #3
	adds	r3, r1, r2
	ldr	r3, [r3, #4]
	ldr	r1, [r1, r2]
	and	r2, r4, #63
	rsb.w	r7, r2, #32
	lsrs	r1, r2
	lsl.w	r7, r3, r7
	orrs	r1, r7
	subs	r2, #32
	it	pl
	lsrpl.w	r1, r3, r2
	lsls	r1, r1, #31
	beq	.LBB47_32
	add.w	r7, r5, #48
	ldr	r1, [r7]
	ldr.w	r6, [r1, r4, lsl #3]
	lsls	r2, r6, #31
	bne	.LBB47_42
.LBB47_32:
	movs	r1, #3
	b	.LBB47_35
.LBB47_33:
	add	r1, sp, #32
	ldr	r2, [sp, #12]
	stm.w	r1, {r0, r4, r7, r8}
	add	r1, sp, #32
	mov	r0, r12
	bl	tlsf_heap.heap.Heap.resize_live.4
	lsls	r0, r0, #24
	beq.w	.LBB47_55
.LBB47_34:
	ldr	r0, [sp, #28]
	ldr	r2, [sp, #16]
	lsls	r3, r1, #24
	beq.w	.LBB47_6
.LBB47_35:
	movs	r2, #1
	uxtb	r1, r1
	strb	r2, [r5]
	subs	r1, #1
	movs	r4, #0
	mov.w	r10, #2
	movs	r7, #0
	mov.w	r8, #0
.LCPI47_0:
	tbb	[pc, r1]
.LJTI47_0:
	.byte	(.LBB47_37-(.LCPI47_0+4))/2
	.byte	(.LBB47_38-(.LCPI47_0+4))/2
	.byte	(.LBB47_40-(.LCPI47_0+4))/2
	.byte	(.LBB47_41-(.LCPI47_0+4))/2
	.byte	(.LBB47_39-(.LCPI47_0+4))/2
	.p2align	1
.LBB47_37:
	b	.LBB47_9
.LBB47_38:
	mov.w	r10, #3
	b	.LBB47_9
.LBB47_39:
	mov.w	r10, #10
	b	.LBB47_9
.LBB47_40:
	mov.w	r10, #4
	b	.LBB47_9
.LBB47_41:
	mov.w	r10, #7
	b	.LBB47_9
.LBB47_42:
	ldr	r2, [sp, #12]
	cmp.w	r2, r6, lsr #2
	bls	.LBB47_44
	movs	r1, #5
	b	.LBB47_35
.LBB47_44:
	ldrd	r2, r3, [r5, #32]
	mov.w	r12, #-1
	eor.w	r3, r3, r12
	eor.w	r2, r2, r12
	orrs	r2, r3
	beq	.LBB47_47
	add.w	r0, r1, r4, lsl #3
	ldr.w	r9, [r0, #4]
	lsrs	r1, r6, #2
	mov	r0, r7
	mov	r2, r4
	lsl.w	r11, r4, #3
	mov	r10, r4
	mov	r4, r7
	bl	tlsf_heap.region.Region.remove.4
	ldr	r0, [sp, #12]
	ldrd	r7, r8, [r5, #32]
	sub.w	r1, r6, r0, lsl #2
	cmp	r1, #15
	bhi	.LBB47_48
	ldr	r1, [r4]
	subs	r0, r6, #1
	add.w	r3, r1, r11
	sbc	r2, r9, #0
	str.w	r0, [r1, r11]
	movs	r1, #0
	add.w	r12, r3, #4
	stm.w	r12, {r2, r7, r8}
	strd	r1, r1, [r3, #16]
	lsrs	r2, r0, #2
	mov	r4, r10
	add.w	r0, r5, #24
	b	.LBB47_54
.LBB47_47:
	movs	r1, #1
	b	.LBB47_35
.LBB47_48:
	subs	r3, r6, r1
	ldr	r6, [r5, #48]
	add.w	r12, r10, r0
	add.w	r2, r6, r11
	str.w	r3, [r6, r11]
	mov.w	r3, #0
	sbc	r4, r9, #0
	adds	r0, r2, #4
	strd	r3, r3, [r2, #16]
	add.w	r2, r6, r12, lsl #3
	movw	lr, #65528
	stm.w	r0, {r4, r7, r8}
	str.w	r1, [r6, r12, lsl #3]
	strd	r10, r7, [r2, #4]
	str.w	r8, [r2, #12]
	movt	lr, #8191
	ldr	r2, [r5, #72]
	and.w	r3, lr, r12, lsr #3
	and	r4, r12, #63
	mov.w	lr, #1
	ldr.w	r9, [r2, r3]
	lsl.w	r6, lr, r4
	str.w	r11, [sp, #24]
	subs.w	r0, r4, #32
	it	pl
	movpl	r6, #0
	orr.w	r6, r6, r9
	str	r6, [r2, r3]
	add	r2, r3
	ldr	r3, [r2, #4]
	rsb.w	r4, r4, #32
	lsr.w	r4, lr, r4
	it	pl
	lslpl.w	r4, lr, r0
	orrs	r3, r4
	mov	r11, r10
	str	r3, [r2, #4]
	lsls	r2, r1, #30
	lsr.w	r1, r1, #2
	add.w	lr, r5, #48
	bmi	.LBB47_50
	ldr.w	r2, [lr]
	add.w	r3, r1, r12
	add.w	r2, r2, r3, lsl #3
	str.w	r12, [r2, #4]
.LBB47_50:
	orr	r2, r1, #16
	clz	r2, r2
	rsb.w	r2, r2, #27
	lsrs	r1, r2
	add.w	r2, r1, r2, lsl #4
	add.w	r6, r5, #192
	ldr.w	r3, [r6, r2, lsl #2]
	lsl.w	r4, r12, #3
	cmp.w	r3, #-1
	str.w	r12, [r6, r2, lsl #2]
	mov.w	r6, #-1
	add.w	r0, r5, #24
	ble	.LBB47_52
	ldr.w	r1, [lr]
	adds	r2, r1, r4
	add.w	r1, r1, r3, lsl #3
	strd	r3, r6, [r2, #16]
	str.w	r12, [r1, #20]
	b	.LBB47_53
.LBB47_52:
	ldr	r3, [r5, #48]
	add.w	r12, r5, #108
	add	r3, r4
	strd	r6, r6, [r3, #16]
	lsrs	r6, r2, #4
	ldr	r2, [r5, #104]
	ldr.w	r3, [r12, r6, lsl #2]
	mov.w	lr, #1
	and	r1, r1, #15
	lsl.w	r4, lr, r6
	lsl.w	r1, lr, r1
	orrs	r2, r4
	orrs	r1, r3
	str	r2, [r5, #104]
	str.w	r1, [r12, r6, lsl #2]
.LBB47_53:
	mov	r4, r11
	ldr	r2, [sp, #12]
	ldr.w	r11, [sp, #24]
.LBB47_54:
	ldrd	r3, r1, [r5, #40]
	add	r2, r3
	cmp	r1, r2
	str	r2, [r5, #40]
	it	lo
	strlo	r2, [r5, #44]
	adds	r2, r7, #1
	adc	r1, r8, #0
	strd	r2, r1, [r5, #32]
	add	r1, sp, #32
	bl	tlsf_heap.heap.Heap.release_live.4
.LBB47_55:
	ldr	r0, [r5, #40]
	ldr	r2, [sp, #8]
	ldr	r1, [r5, #48]
	cmp	r0, r2
	it	hi
	movhi	r2, r0
	ldr	r0, [sp, #16]
	add	r1, r11
	mov.w	r10, #0
	str	r2, [r5, #44]
	strd	r0, r10, [r1, #16]
	movs	r0, #1
	strb	r0, [r5]
	ldr	r0, [sp, #28]
	b	.LBB47_9
.Lfunc_end47:
	.size	tlsf_allocate_aligned, .Lfunc_end47-tlsf_allocate_aligned
	.cfi_endproc
	.section	.text.tlsf_allocate_payload,"ax",%progbits
	.globl	tlsf_allocate_payload
	.p2align	2
	.type	tlsf_allocate_payload,%function
	.code	16
	.thumb_func
tlsf_allocate_payload:
	.cfi_startproc
	ldrb	r2, [r0, #8]
	cmp	r2, #0
	itt	eq
	moveq	r0, #0
	bxeq	lr
.LBB48_1:
	push.w	{r4, r5, r6, r7, r8, r9, r10, r11, lr}
	.cfi_def_cfa_offset 36
	.cfi_offset lr, -4
	.cfi_offset r11, -8
	.cfi_offset r10, -12
	.cfi_offset r9, -16
	.cfi_offset r8, -20
	.cfi_offset r7, -24
	.cfi_offset r6, -28
	.cfi_offset r5, -32
	.cfi_offset r4, -36
	sub	sp, #12
	.cfi_def_cfa_offset 48
	ldr	r2, [r0]
	ldrb	r0, [r2]
	cmp	r0, #1
	mov.w	r0, #0
	bne	.LBB48_11
	cmp.w	r1, #134217728
	bhi	.LBB48_11
	movw	r3, #65520
	movt	r3, #8191
	adds	r0, r1, #7
	movw	r7, #65504
	ands	r0, r3
	movt	r7, #127
	add.w	r1, r0, #8
	movs	r3, #0
	cmp	r0, r7
	strb	r3, [r2]
	bls	.LBB48_5
.LBB48_4:
	ldrd	r0, r3, [r2, #8]
	adds	r0, #1
	it	hs
	movhs.w	r0, #-1
	cmp	r1, r3
	it	hi
	movhi	r3, r1
	strd	r0, r3, [r2, #8]
	b	.LBB48_10
.LBB48_5:
	adds	r0, #39
	lsr.w	r8, r0, #3
	orr	r0, r8, #16
	clz	r0, r0
	rsb.w	r0, r0, #27
	sub.w	r7, r8, #1
	lsr.w	r5, r7, r0
	add.w	r0, r5, r0, lsl #4
	adds	r0, #1
	subs	r7, r0, #1
	sbc	r3, r3, #0
	lsrs	r0, r7, #4
	orr.w	r6, r0, r3, lsl #28
	add.w	lr, r2, #108
	ldr.w	r0, [lr, r6, lsl #2]
	and	r5, r5, #15
	lsrs	r0, r5
	bics	r0, r0, #1
	beq	.LBB48_7
	rbit	r0, r0
	clz	r0, r0
	adds	r5, r7, r0
	adc	r0, r3, #0
	lsrs	r3, r5, #4
	orr.w	r12, r3, r0, lsl #28
	b	.LBB48_9
.LBB48_7:
	ldr	r0, [r2, #104]
	mvn	r3, #1
	lsls	r3, r6
	ands	r0, r3
	beq	.LBB48_4
	rbit	r0, r0
	clz	r0, r0
	ldr.w	r3, [lr, r0, lsl #2]
	rbit	r3, r3
	clz	r3, r3
	add.w	r5, r3, r0, lsl #4
	lsr.w	r12, r5, #4
.LBB48_9:
	ldrd	r11, r10, [r2, #32]
	mvn.w	r0, r11
	orn	r0, r0, r10
	cbnz	r0, .LBB48_12
.LBB48_10:
	movs	r0, #1
	strb	r0, [r2]
	movs	r0, #0
.LBB48_11:
	add	sp, #12
	pop.w	{r4, r5, r6, r7, r8, r9, r10, r11, pc}
.LBB48_12:
	add.w	r9, r2, #192
	ldr.w	r7, [r9, r5, lsl #2]
	ldr	r3, [r2, #48]
	lsls	r6, r7, #3
	add.w	r0, r3, r7, lsl #3
	ldr	r0, [r0, #16]
	adds	r4, r0, #1
	beq	.LBB48_14
	add.w	r3, r3, r0, lsl #3
	ldr	r4, [r3, #20]
	mov	r12, r7
	mov.w	r7, #-1
	orrs	r4, r7
	str	r4, [r3, #20]
	str.w	r0, [r9, r5, lsl #2]
	ldr	r3, [r2, #48]
	mov	r7, r12
	b	.LBB48_16
.LBB48_14:
	mov.w	r0, #-1
	str.w	r0, [r9, r5, lsl #2]
	ldr.w	r4, [lr, r12, lsl #2]
	and	r5, r5, #15
	movs	r0, #1
	lsl.w	r5, r0, r5
	bics.w	r5, r4, r5
	str.w	r5, [lr, r12, lsl #2]
	bne	.LBB48_16
	ldr	r5, [r2, #104]
	lsl.w	r0, r0, r12
	bic.w	r0, r5, r0
	str	r0, [r2, #104]
.LBB48_16:
	ldr.w	lr, [r3, r6]
	add.w	r9, r3, r6
	ldr.w	r12, [r9, #4]
	mov	r0, r8
	sub.w	r8, lr, r8, lsl #2
	cmp.w	r8, #15
	str	r6, [sp, #8]
	bhi	.LBB48_18
	subs.w	r0, lr, #1
	sbc	r3, r12, #0
	movs	r5, #0
	ldr	r6, [sp, #8]
	stm.w	r9, {r0, r3, r11}
	strd	r10, r1, [r9, #12]
	str.w	r5, [r9, #20]
	lsrs	r3, r0, #2
	b	.LBB48_24
.LBB48_18:
	lsr.w	r4, r8, #2
	strd	r4, r0, [sp]
	subs.w	r4, lr, r8
	add.w	r5, r7, r0
	sbc	r0, r12, #0
	mov.w	r12, #0
	strd	r4, r0, [r9]
	strd	r1, r12, [r9, #16]
	add.w	r0, r3, r5, lsl #3
	movw	r1, #65520
	strd	r11, r10, [r9, #8]
	str.w	r8, [r3, r5, lsl #3]
	strd	r7, r11, [r0, #4]
	str.w	r10, [r0, #12]
	movt	r1, #8191
	ldr	r0, [r2, #72]
	adds	r1, #8
	and.w	r1, r1, r5, lsr #3
	adds	r3, r0, r1
	and	r4, r5, #63
	ldr.w	lr, [r3, #4]
	mov.w	r9, #1
	rsb.w	r6, r4, #32
	ldr.w	r12, [r0, r1]
	subs.w	r7, r4, #32
	lsr.w	r6, r9, r6
	it	pl
	lslpl.w	r6, r9, r7
	lsl.w	r4, r9, r4
	orr.w	r7, lr, r6
	it	pl
	movpl	r4, #0
	orr.w	r6, r12, r4
	str	r7, [r3, #4]
	ldr	r3, [sp]
	str	r6, [r0, r1]
	lsls.w	r0, r8, #30
	bmi	.LBB48_20
	ldr	r0, [r2, #48]
	adds	r1, r3, r5
	add.w	r0, r0, r1, lsl #3
	str	r5, [r0, #4]
.LBB48_20:
	orr	r0, r3, #16
	clz	r0, r0
	rsb.w	r0, r0, #27
	lsr.w	r1, r3, r0
	add.w	r3, r1, r0, lsl #4
	add.w	r6, r2, #192
	ldr.w	r0, [r6, r3, lsl #2]
	str.w	r5, [r6, r3, lsl #2]
	ldr	r6, [sp, #8]
	lsls	r7, r5, #3
	cmp.w	r0, #-1
	add.w	lr, r2, #108
	mov.w	r4, #-1
	ble	.LBB48_22
	ldr	r1, [r2, #48]
	adds	r3, r1, r7
	strd	r0, r4, [r3, #16]
	add.w	r0, r1, r0, lsl #3
	str	r5, [r0, #20]
	b	.LBB48_23
.LBB48_22:
	ldr	r0, [r2, #48]
	mov.w	r12, #1
	add	r0, r7
	mov.w	r7, #-1
	strd	r7, r4, [r0, #16]
	lsrs	r0, r3, #4
	ldr	r3, [r2, #104]
	ldr.w	r7, [lr, r0, lsl #2]
	and	r1, r1, #15
	lsl.w	r5, r12, r0
	lsl.w	r1, r12, r1
	orrs	r3, r5
	orrs	r1, r7
	str	r3, [r2, #104]
	str.w	r1, [lr, r0, lsl #2]
.LBB48_23:
	ldr	r3, [sp, #4]
.LBB48_24:
	ldrd	r0, r1, [r2, #40]
	add	r0, r3
	cmp	r1, r0
	str	r0, [r2, #40]
	it	lo
	strlo	r0, [r2, #44]
	ldrd	r0, r1, [r2, #32]
	adds	r0, #1
	adc	r1, r1, #0
	strd	r0, r1, [r2, #32]
	movs	r0, #1
	strb	r0, [r2]
	add.w	r0, r6, #24
	add	sp, #12
	pop.w	{r4, r5, r6, r7, r8, r9, r10, r11, pc}
.Lfunc_end48:
	.size	tlsf_allocate_payload, .Lfunc_end48-tlsf_allocate_payload
	.cfi_endproc
	.section	.text.tlsf_allocate_place,"ax",%progbits
	.globl	tlsf_allocate_place
	.p2align	2
	.type	tlsf_allocate_place,%function
	.code	16
	.thumb_func
tlsf_allocate_place:
	.cfi_startproc
	push.w	{r4, r5, r6, r7, r8, r9, r10, r11, lr}
	.cfi_def_cfa_offset 36
	.cfi_offset lr, -4
	.cfi_offset r11, -8
	.cfi_offset r10, -12
	.cfi_offset r9, -16
	.cfi_offset r8, -20
	.cfi_offset r7, -24
	.cfi_offset r6, -28
	.cfi_offset r5, -32
	.cfi_offset r4, -36
	sub	sp, #4
	.cfi_def_cfa_offset 40
	ldrb	r3, [r1, #8]
	cbz	r3, .LBB49_4
	ldr	r1, [r1]
	ldrb	r3, [r1]
	cmp	r3, #1
	mov.w	r3, #0
	bne	.LBB49_5
	adds	r7, r2, #1
	adc	r6, r3, #0
	cmp	r2, #0
	itt	ne
	movne	r7, r2
	movne	r6, r3
	adds	r7, #31
	adc	r6, r6, #0
	lsrs	r7, r7, #3
	orr.w	lr, r7, r6, lsl #29
	cmp.w	lr, #1048576
	strb	r3, [r1]
	bls	.LBB49_6
.LBB49_3:
	ldrd	r3, r7, [r1, #8]
	adds	r3, #1
	it	hs
	movhs.w	r3, #-1
	cmp	r2, r7
	it	hi
	movhi	r7, r2
	strd	r3, r7, [r1, #8]
	movs	r3, #0
	movs	r2, #1
	b	.LBB49_12
.LBB49_4:
	movs	r3, #0
.LBB49_5:
	movs	r2, #32
	mov.w	r12, #0
	movs	r4, #0
	b	.LBB49_26
.LBB49_6:
	orr	r3, lr, #16
	clz	r3, r3
	rsb.w	r3, r3, #27
	sub.w	r7, lr, #1
	lsr.w	r5, r7, r3
	add.w	r3, r5, r3, lsl #4
	adds	r3, #1
	subs	r3, #1
	mov.w	r7, #0
	sbc	r7, r7, #0
	lsrs	r6, r3, #4
	orr.w	r6, r6, r7, lsl #28
	add.w	r12, r1, #108
	ldr.w	r4, [r12, r6, lsl #2]
	and	r5, r5, #15
	lsr.w	r5, r4, r5
	bics	r5, r5, #1
	beq	.LBB49_8
	rbit	r6, r5
	clz	r6, r6
	adds.w	r11, r3, r6
	adc	r3, r7, #0
	lsr.w	r7, r11, #4
	orr.w	r9, r7, r3, lsl #28
	b	.LBB49_10
.LBB49_8:
	ldr	r3, [r1, #104]
	mvn	r7, #1
	lsls	r7, r6
	ands	r3, r7
	beq	.LBB49_3
	rbit	r3, r3
	clz	r3, r3
	ldr.w	r7, [r12, r3, lsl #2]
	rbit	r7, r7
	clz	r7, r7
	add.w	r11, r7, r3, lsl #4
	lsr.w	r9, r11, #4
.LBB49_10:
	ldrd	r12, r4, [r1, #32]
	mvn.w	r3, r12
	orn	r3, r3, r4
	cbnz	r3, .LBB49_13
	movs	r3, #0
	movs	r2, #2
.LBB49_12:
	mov.w	r12, #0
	movs	r4, #0
	b	.LBB49_25
.LBB49_13:
	add.w	r5, r1, #192
	ldr.w	r3, [r5, r11, lsl #2]
	ldr.w	r10, [r1, #48]
	lsl.w	r8, r3, #3
	add.w	r6, r10, r3, lsl #3
	ldr	r6, [r6, #16]
	adds	r7, r6, #1
	beq	.LBB49_15
	add.w	r9, r10, r6, lsl #3
	ldr.w	r7, [r9, #20]
	mov	r10, r5
	mov.w	r5, #-1
	orrs	r7, r5
	str.w	r7, [r9, #20]
	str.w	r6, [r10, r11, lsl #2]
	ldr.w	r10, [r1, #48]
	b	.LBB49_17
.LBB49_15:
	mov.w	r6, #-1
	str.w	r6, [r5, r11, lsl #2]
	add.w	r5, r1, #108
	ldr.w	r6, [r5, r9, lsl #2]
	and	r7, r11, #15
	mov.w	r11, #1
	lsl.w	r7, r11, r7
	bics	r6, r7
	str.w	r6, [r5, r9, lsl #2]
	bne	.LBB49_17
	ldr	r6, [r1, #104]
	lsl.w	r5, r11, r9
	bic.w	r5, r6, r5
	str	r5, [r1, #104]
.LBB49_17:
	ldr.w	r9, [r10, r8]
	add.w	r6, r10, r8
	ldr.w	r8, [r6, #4]
	sub.w	r5, r9, lr, lsl #2
	cmp	r5, #15
	bhi	.LBB49_19
	subs.w	r7, r9, #1
	sbc	r5, r8, #0
	mov.w	lr, #0
	strd	r7, r5, [r6]
	strd	r12, r4, [r6, #8]
	strd	r2, lr, [r6, #16]
	lsr.w	lr, r7, #2
	b	.LBB49_24
.LBB49_19:
	add.w	r11, r3, lr
	subs.w	r7, r9, r5
	mov.w	r9, #0
	strd	r4, r2, [r6, #12]
	add.w	r2, r10, r11, lsl #3
	sbc	r8, r8, #0
	stm.w	r6, {r7, r8, r12}
	str.w	r9, [r6, #20]
	str.w	r5, [r10, r11, lsl #3]
	strd	r3, r12, [r2, #4]
	str	r4, [r2, #12]
	ldr.w	r8, [r1, #72]
	mvn	r6, #7
	and	r7, r11, #63
	and.w	r6, r6, r11, lsr #3
	subs.w	r2, r7, #32
	ldr.w	r10, [r8, r6]
	str	r2, [sp]
	mov.w	r2, #1
	lsl.w	r9, r2, r7
	it	pl
	movpl.w	r9, #0
	orr.w	r2, r10, r9
	str.w	r2, [r8, r6]
	add.w	r2, r8, r6
	ldr.w	r8, [r2, #4]
	rsb.w	r7, r7, #32
	mov.w	r9, #1
	lsr.w	r7, r9, r7
	ldr	r6, [sp]
	it	pl
	lslpl.w	r7, r9, r6
	orr.w	r6, r8, r7
	str	r6, [r2, #4]
	lsls	r2, r5, #30
	lsr.w	r2, r5, #2
	bmi	.LBB49_21
	ldr	r5, [r1, #48]
	add.w	r6, r2, r11
	add.w	r5, r5, r6, lsl #3
	str.w	r11, [r5, #4]
.LBB49_21:
	orr	r5, r2, #16
	clz	r5, r5
	rsb.w	r5, r5, #27
	lsr.w	r10, r2, r5
	add.w	r5, r10, r5, lsl #4
	add.w	r2, r1, #192
	ldr.w	r6, [r2, r5, lsl #2]
	lsl.w	r7, r11, #3
	cmp.w	r6, #-1
	add.w	r8, r1, #108
	mov.w	r9, #-1
	str.w	r11, [r2, r5, lsl #2]
	ble	.LBB49_23
	ldr	r2, [r1, #48]
	adds	r5, r2, r7
	add.w	r2, r2, r6, lsl #3
	strd	r6, r9, [r5, #16]
	str.w	r11, [r2, #20]
	b	.LBB49_24
.LBB49_23:
	ldr	r6, [r1, #48]
	lsrs	r5, r5, #4
	add	r6, r7
	mov.w	r7, #-1
	strd	r7, r9, [r6, #16]
	ldr	r6, [r1, #104]
	mov	r11, r8
	ldr.w	r9, [r8, r5, lsl #2]
	mov.w	r8, #1
	and	r2, r10, #15
	lsl.w	r7, r8, r5
	lsl.w	r2, r8, r2
	orrs	r6, r7
	orr.w	r2, r2, r9
	str	r6, [r1, #104]
	str.w	r2, [r11, r5, lsl #2]
.LBB49_24:
	ldrd	r2, r5, [r1, #40]
	add	r2, lr
	cmp	r5, r2
	str	r2, [r1, #40]
	it	lo
	strlo	r2, [r1, #44]
	ldrd	r2, r7, [r1, #32]
	adds	r2, #1
	adc	r7, r7, #0
	strd	r2, r7, [r1, #32]
	movs	r2, #0
.LBB49_25:
	movs	r7, #1
	strb	r7, [r1]
.LBB49_26:
	strd	r3, r2, [r0]
	strd	r12, r4, [r0, #8]
	add	sp, #4
	pop.w	{r4, r5, r6, r7, r8, r9, r10, r11, pc}
.Lfunc_end49:
	.size	tlsf_allocate_place, .Lfunc_end49-tlsf_allocate_place
	.cfi_endproc
	.section	.text.tlsf_block_at,"ax",%progbits
	.globl	tlsf_block_at
	.p2align	2
	.type	tlsf_block_at,%function
	.code	16
	.thumb_func
tlsf_block_at:
	.cfi_startproc
	ldrb	r3, [r0, #8]
	cmp	r3, #0
	beq	.LBB50_9
	ldr	r0, [r0]
	ldrb	r3, [r0]
	cbz	r3, .LBB50_9
	push	{r4, r5, r6, lr}
	.cfi_def_cfa_offset 16
	.cfi_offset lr, -4
	.cfi_offset r6, -8
	.cfi_offset r5, -12
	.cfi_offset r4, -16
	ldr	r3, [r0, #56]
	movs	r5, #0
	cmp	r1, r3
	strb	r5, [r0]
	bhs	.LBB50_6
	ldr	r3, [r0, #72]
	mvn	r5, #7
	and.w	r5, r5, r1, lsr #3
	adds	r4, r3, r5
	ldr	r3, [r3, r5]
	ldr	r4, [r4, #4]
	and	r5, r1, #63
	lsr.w	r12, r3, r5
	rsb.w	r3, r5, #32
	lsl.w	r3, r4, r3
	orr.w	r3, r3, r12
	subs	r5, #32
	it	pl
	lsrpl.w	r3, r4, r5
	lsls	r3, r3, #31
	beq	.LBB50_6
	ldr	r3, [r0, #48]
	add.w	r4, r3, r1, lsl #3
	ldr.w	r3, [r3, r1, lsl #3]
	ldrd	r12, lr, [r4, #8]
	lsls	r5, r3, #31
	lsr.w	r3, r3, #2
	bne	.LBB50_7
	ldr	r5, [r4, #16]
	movs	r4, #1
	b	.LBB50_8
.LBB50_6:
	movs	r1, #1
	strb	r1, [r0]
	movs	r0, #4
	pop	{r4, r5, r6, pc}
.LBB50_7:
	movs	r4, #0
	movs	r5, #0
.LBB50_8:
	movs	r6, #1
	strb	r6, [r0]
	movs	r0, #0
	str	r1, [r2]
	str	r3, [r2, #4]
	str	r4, [r2, #8]
	str	r5, [r2, #12]
	str.w	lr, [r2, #20]
	str.w	r12, [r2, #16]
	pop	{r4, r5, r6, pc}
.LBB50_9:
	movs	r0, #0
	b	tlsf_c.call_fault.CallFault.refusal
.Lfunc_end50:
	.size	tlsf_block_at, .Lfunc_end50-tlsf_block_at
	.cfi_endproc
	.section	.text.tlsf_check,"ax",%progbits
	.globl	tlsf_check
	.p2align	2
	.type	tlsf_check,%function
	.code	16
	.thumb_func
tlsf_check:
	.cfi_startproc
	push.w	{r4, r5, r6, r7, r8, r9, r10, lr}
	.cfi_def_cfa_offset 32
	.cfi_offset lr, -4
	.cfi_offset r10, -8
	.cfi_offset r9, -12
	.cfi_offset r8, -16
	.cfi_offset r7, -20
	.cfi_offset r6, -24
	.cfi_offset r5, -28
	.cfi_offset r4, -32
	mov	r10, r3
	ldrb	r3, [r0, #8]
	cbz	r3, .LBB51_10
	ldr	r7, [r0]
	ldrb	r0, [r7]
	cmp	r0, #1
	bne	.LBB51_10
	ldr	r6, [r7, #56]
	mov	r5, r2
	subs	r2, r6, #4
	movs	r0, #0
	cmp	r1, r2
	strb	r0, [r7]
	bhi	.LBB51_11
	ldr	r0, [r7, #72]
	mvn	r2, #7
	and.w	r2, r2, r1, lsr #3
	adds	r3, r0, r2
	ldr	r3, [r3, #4]
	ldr	r0, [r0, r2]
	and	r2, r1, #63
	rsb.w	r4, r2, #32
	lsrs	r0, r2
	lsl.w	r4, r3, r4
	orrs	r0, r4
	subs	r2, #32
	it	pl
	lsrpl.w	r0, r3, r2
	lsls	r0, r0, #31
	beq	.LBB51_11
	cbz	r5, .LBB51_14
	ldr.w	r9, [sp, #32]
	add.w	r8, r7, #48
	.p2align	2
.LBB51_6:
	mov	r0, r8
	mov	r4, r1
	bl	tlsf_heap.check.examine
	uxtb	r0, r0
	cmp	r0, #1
	bne	.LBB51_12
	mov	r2, r1
	cmp	r1, r6
	beq	.LBB51_13
	subs	r5, #1
	mov	r1, r2
	bne	.LBB51_6
	movs	r0, #0
	mov	r1, r2
	b	.LBB51_15
.LBB51_10:
	movs	r0, #32
	pop.w	{r4, r5, r6, r7, r8, r9, r10, pc}
.LBB51_11:
	movs	r0, #1
	strb	r0, [r7]
	movs	r0, #4
	pop.w	{r4, r5, r6, r7, r8, r9, r10, pc}
.LBB51_12:
	movs	r0, #36
	mov	r10, r9
	mov	r1, r4
	b	.LBB51_15
.LBB51_13:
	movs	r1, #0
.LBB51_14:
	movs	r0, #0
.LBB51_15:
	movs	r2, #1
	strb	r2, [r7]
	str.w	r1, [r10]
	pop.w	{r4, r5, r6, r7, r8, r9, r10, pc}
.Lfunc_end51:
	.size	tlsf_check, .Lfunc_end51-tlsf_check
	.cfi_endproc
	.section	.text.tlsf_check_around,"ax",%progbits
	.globl	tlsf_check_around
	.p2align	2
	.type	tlsf_check_around,%function
	.code	16
	.thumb_func
tlsf_check_around:
	.cfi_startproc
	ldrb	r3, [r0, #8]
	cmp	r3, #0
	itt	eq
	moveq	r0, #32
	bxeq	lr
.LBB52_1:
	push	{r4, r5, r7, lr}
	.cfi_def_cfa_offset 16
	.cfi_offset lr, -4
	.cfi_offset r7, -8
	.cfi_offset r5, -12
	.cfi_offset r4, -16
	sub	sp, #16
	.cfi_def_cfa_offset 32
	ldr	r5, [r0]
	ldrb	r0, [r5]
	cmp	r0, #1
	bne	.LBB52_4
	movs	r0, #0
	add.w	r3, r5, #48
	mov	r4, r2
	strb	r0, [r5]
	add	r0, sp, #4
	mov	r2, r1
	mov	r1, r3
	bl	tlsf_heap.around.check_around
	ldrb.w	r2, [sp, #4]
	ldrb.w	r1, [sp, #8]
	ldr	r0, [sp, #12]
	movs	r3, #1
	strb	r3, [r5]
	cbz	r2, .LBB52_5
	cmp	r1, #0
	itte	ne
	strne	r0, [r4]
	movne	r0, #36
	moveq	r0, #0
	add	sp, #16
	pop	{r4, r5, r7, pc}
.LBB52_4:
	movs	r0, #32
	add	sp, #16
	pop	{r4, r5, r7, pc}
.LBB52_5:
	movs	r0, #4
	add	sp, #16
	pop	{r4, r5, r7, pc}
.Lfunc_end52:
	.size	tlsf_check_around, .Lfunc_end52-tlsf_check_around
	.cfi_endproc
	.section	.text.tlsf_check_request,"ax",%progbits
	.globl	tlsf_check_request
	.p2align	2
	.type	tlsf_check_request,%function
	.code	16
	.thumb_func
tlsf_check_request:
	.cfi_startproc
	ldrb	r3, [r0, #8]
	cmp	r3, #0
	itt	eq
	moveq	r0, #32
	bxeq	lr
.LBB53_1:
	push	{r4, r5, r6, lr}
	.cfi_def_cfa_offset 16
	.cfi_offset lr, -4
	.cfi_offset r6, -8
	.cfi_offset r5, -12
	.cfi_offset r4, -16
	sub	sp, #16
	.cfi_def_cfa_offset 32
	ldr	r5, [r0]
	ldrb	r0, [r5]
	cbz	r0, .LBB53_5
	mov	r0, r1
	movs	r3, #0
	adds	r6, r0, #1
	adc	r4, r3, #0
	cmp	r0, #0
	itt	ne
	movne	r6, r0
	movne	r4, r3
	adds.w	r0, r6, #31
	adc	r6, r4, #0
	lsrs	r0, r0, #3
	mov	r1, r5
	orr.w	lr, r0, r6, lsl #29
	cmp.w	lr, #1048576
	strb	r3, [r1], #48
	bhi	.LBB53_16
	orr	r0, lr, #16
	clz	r0, r0
	rsb.w	r0, r0, #27
	sub.w	r6, lr, #1
	lsrs	r6, r0
	add.w	r0, r6, r0, lsl #4
	adds	r0, #1
	subs	r4, r0, #1
	sbc	r0, r3, #0
	lsrs	r3, r4, #4
	orr.w	r3, r3, r0, lsl #28
	add.w	r12, r5, #108
	ldr.w	r0, [r12, r3, lsl #2]
	and	r6, r6, #15
	lsrs	r0, r6
	bics	r0, r0, #1
	beq	.LBB53_6
	rbit	r0, r0
	clz	r0, r0
	adds	r3, r0, r4
	b	.LBB53_8
.LBB53_5:
	movs	r0, #32
	add	sp, #16
	pop	{r4, r5, r6, pc}
.LBB53_6:
	ldr	r0, [r5, #104]
	mvn	r4, #1
	lsl.w	r3, r4, r3
	ands	r3, r0
	beq	.LBB53_16
	rbit	r0, r3
	clz	r0, r0
	ldr.w	r3, [r12, r0, lsl #2]
	rbit	r3, r3
	clz	r3, r3
	add.w	r3, r3, r0, lsl #4
.LBB53_8:
	add.w	r0, r5, r3, lsl #2
	ldr.w	r4, [r0, #192]
	adds	r0, r4, #1
	beq	.LBB53_16
	ldr	r0, [r5, #56]
	subs	r0, #4
	cmp	r4, r0
	bhi	.LBB53_17
	ldr	r0, [r5, #72]
	mvn	r3, #7
	and.w	r3, r3, r4, lsr #3
	adds	r6, r0, r3
	ldr	r0, [r0, r3]
	ldr	r6, [r6, #4]
	and	r3, r4, #63
	lsr.w	r12, r0, r3
	rsb.w	r0, r3, #32
	lsl.w	r0, r6, r0
	orr.w	r0, r0, r12
	subs	r3, #32
	it	pl
	lsrpl.w	r0, r6, r3
	lsls	r0, r0, #31
	beq	.LBB53_17
	ldr	r0, [r1]
	ldr.w	r3, [r0, r4, lsl #3]
	lsls	r0, r3, #31
	beq	.LBB53_17
	lsrs	r0, r3, #2
	cmp	r0, lr
	blo	.LBB53_17
	add	r0, sp, #4
	mov	r6, r2
	mov	r2, r4
	bl	tlsf_heap.around.check_around
	ldrb.w	r0, [sp, #4]
	mov	r2, r6
	cmp	r0, #1
	bne	.LBB53_17
	ldrb.w	r0, [sp, #8]
	ldr	r4, [sp, #12]
	movs	r1, #1
	strb	r1, [r5]
	cbnz	r0, .LBB53_18
	movs	r0, #0
	add	sp, #16
	pop	{r4, r5, r6, pc}
.LBB53_16:
	movs	r0, #1
	strb	r0, [r5]
	add	sp, #16
	pop	{r4, r5, r6, pc}
.LBB53_17:
	movs	r0, #1
	strb	r0, [r5]
.LBB53_18:
	str	r4, [r2]
	movs	r0, #36
	add	sp, #16
	pop	{r4, r5, r6, pc}
.Lfunc_end53:
	.size	tlsf_check_request, .Lfunc_end53-tlsf_check_request
	.cfi_endproc
	.section	.text.tlsf_close,"ax",%progbits
	.globl	tlsf_close
	.p2align	2
	.type	tlsf_close,%function
	.code	16
	.thumb_func
tlsf_close:
	.cfi_startproc
	ldrb	r1, [r0, #8]
	cmp	r1, #0
	itt	eq
	moveq	r0, #32
	bxeq	lr
.LBB54_1:
	push.w	{r4, r5, r6, r7, r8, r9, lr}
	.cfi_def_cfa_offset 28
	.cfi_offset lr, -4
	.cfi_offset r9, -8
	.cfi_offset r8, -12
	.cfi_offset r7, -16
	.cfi_offset r6, -20
	.cfi_offset r5, -24
	.cfi_offset r4, -28
	sub	sp, #4
	.cfi_def_cfa_offset 32
	ldr	r1, [r0]
	ldrb	r2, [r1]
	cmp	r2, #1
	bne	.LBB54_7
	movs	r2, #0
	strb	r2, [r0, #8]
	strb	r2, [r1]
	ldr	r1, [r0]
	str	r2, [r0]
	str	r2, [r0, #4]
	ldr.w	r9, [r1, #48]
	ldr	r4, [r1, #64]
	ldr	r5, [r1, #68]
	ldr.w	r8, [r1, #72]
	ldr	r6, [r1, #92]
	ldr	r7, [r1, #88]
	mov	r0, r1
	bl	tlsf_memory_dealloc
	orrs.w	r0, r4, r5
	beq	.LBB54_4
	mov	r0, r9
	bl	tlsf_memory_dealloc
.LBB54_4:
	orrs.w	r0, r7, r6
	beq	.LBB54_6
	mov	r0, r8
	bl	tlsf_memory_dealloc
.LBB54_6:
	movs	r0, #0
	add	sp, #4
	pop.w	{r4, r5, r6, r7, r8, r9, pc}
.LBB54_7:
	movs	r0, #32
	add	sp, #4
	pop.w	{r4, r5, r6, r7, r8, r9, pc}
.Lfunc_end54:
	.size	tlsf_close, .Lfunc_end54-tlsf_close
	.cfi_endproc
	.section	.text.tlsf_counts,"ax",%progbits
	.globl	tlsf_counts
	.p2align	2
	.type	tlsf_counts,%function
	.code	16
	.thumb_func
tlsf_counts:
	.cfi_startproc
	ldrb	r2, [r0, #8]
	cbz	r2, .LBB55_3
	ldr	r0, [r0]
	ldrb	r2, [r0]
	cbz	r2, .LBB55_3
	ldrd	r2, r3, [r0, #40]
	ldr.w	r12, [r0, #12]
	ldr	r0, [r0, #8]
	str	r2, [r1]
	str	r0, [r1, #8]
	movs	r0, #0
	str	r3, [r1, #4]
	str.w	r12, [r1, #12]
	bx	lr
.LBB55_3:
	movs	r0, #0
	b	tlsf_c.call_fault.CallFault.refusal
.Lfunc_end55:
	.size	tlsf_counts, .Lfunc_end55-tlsf_counts
	.cfi_endproc
	.section	.text.tlsf_drain,"ax",%progbits
	.globl	tlsf_drain
	.p2align	2
	.type	tlsf_drain,%function
	.code	16
	.thumb_func
tlsf_drain:
	.cfi_startproc
	push.w	{r4, r5, r6, r7, r8, r9, r10, r11, lr}
	.cfi_def_cfa_offset 36
	.cfi_offset lr, -4
	.cfi_offset r11, -8
	.cfi_offset r10, -12
	.cfi_offset r9, -16
	.cfi_offset r8, -20
	.cfi_offset r7, -24
	.cfi_offset r6, -28
	.cfi_offset r5, -32
	.cfi_offset r4, -36
	sub.w	sp, sp, #796
	.cfi_def_cfa_offset 832
	mov	r5, r0
	ldrb	r0, [r0, #8]
	cmp	r0, #0
	beq	.LBB56_13
	ldr	r0, [r5]
	ldrb	r0, [r0]
	cmp	r0, #1
	bne	.LBB56_13
	ldrb	r0, [r1, #8]
	cmp	r0, #0
	beq	.LBB56_13
	ldr	r4, [r1]
	ldrb	r0, [r4, #1]
	cmp	r0, #0
	beq	.LBB56_13
	ldrb	r0, [r4]
	cmp	r0, #1
	bne	.LBB56_15
	add.w	r10, sp, #24
	mov	r11, r2
	movs	r7, #0
	mov	r0, r10
	movs	r1, #0
	mov.w	r2, #768
	str	r3, [sp, #8]
	strb	r7, [r4, #1]
	bl	tlsf_memory_set
	cmp.w	r11, #0
	str	r4, [sp, #4]
	beq	.LBB56_12
	add.w	r0, r4, #8
	movs	r7, #0
	str	r0, [sp, #12]
	.p2align	2
.LBB56_7:
	str	r7, [sp, #20]
	cmp.w	r11, #32
	str.w	r11, [sp, #16]
	it	hs
	movhs.w	r11, #32
	ldr	r0, [sp, #12]
	mov	r1, r10
	mov	r2, r11
	movs	r3, #0
	bl	tlsf_post.take_end.TakeEnd.take_slice
	mov	r4, r0
	mov	r6, r1
	orrs	r0, r1
	beq	.LBB56_10
	mov.w	r9, #0
	mov.w	r8, #0
	.p2align	2
.LBB56_9:
	add.w	r0, r9, r9, lsl #1
	add.w	r0, r10, r0, lsl #3
	ldrd	r1, r7, [r0, #8]
	ldrd	r2, r3, [r0, #16]
	mov	r0, r5
	str	r7, [sp]
	bl	tlsf_c.heap_calls.release_named
	adds.w	r9, r9, #1
	adc	r8, r8, #0
	subs.w	r0, r9, r4
	sbcs.w	r0, r8, r6
	blo	.LBB56_9
.LBB56_10:
	ldr	r7, [sp, #20]
	subs.w	r0, r4, r11
	sbcs	r0, r6, #0
	add	r7, r4
	blo	.LBB56_12
	ldr.w	r11, [sp, #16]
	subs.w	r11, r11, r4
	bne	.LBB56_7
.LBB56_12:
	ldr	r0, [sp, #8]
	ldr	r2, [sp, #4]
	movs	r1, #1
	str	r7, [r0]
	movs	r0, #0
	strb	r1, [r2, #1]
	add.w	sp, sp, #796
	pop.w	{r4, r5, r6, r7, r8, r9, r10, r11, pc}
.LBB56_13:
	movs	r0, #0
.LBB56_14:
	add.w	sp, sp, #796
	pop.w	{r4, r5, r6, r7, r8, r9, r10, r11, lr}
	b	tlsf_c.call_fault.CallFault.refusal
.LBB56_15:
	movs	r0, #2
	b	.LBB56_14
.Lfunc_end56:
	.size	tlsf_drain, .Lfunc_end56-tlsf_drain
	.cfi_endproc
	.section	.text.tlsf_lane_open,"ax",%progbits
	.globl	tlsf_lane_open
	.p2align	2
	.type	tlsf_lane_open,%function
	.code	16
	.thumb_func
tlsf_lane_open:
	.cfi_startproc
	push.w	{r4, r5, r6, r7, r8, r9, r10, r11, lr}
	.cfi_def_cfa_offset 36
	.cfi_offset lr, -4
	.cfi_offset r11, -8
	.cfi_offset r10, -12
	.cfi_offset r9, -16
	.cfi_offset r8, -20
	.cfi_offset r7, -24
	.cfi_offset r6, -28
	.cfi_offset r5, -32
	.cfi_offset r4, -36
	sub	sp, #236
	.cfi_def_cfa_offset 272
	mov	r4, r2
	mov	r5, r1
	mov	r6, r0
	add	r0, sp, #176
	movs	r1, #0
	movs	r2, #56
	bl	tlsf_memory_set
	add	r0, sp, #128
	movs	r1, #0
	movs	r2, #48
	bl	tlsf_memory_set
	add.w	r8, sp, #48
	mov	r0, r8
	movs	r1, #0
	movs	r2, #40
	bl	tlsf_memory_set
	add	r7, sp, #8
	mov	r0, r7
	movs	r1, #0
	movs	r2, #40
	bl	tlsf_memory_set
	ldrb	r0, [r6, #8]
	cbnz	r0, .LBB57_2
	ldrb	r0, [r5, #8]
	cbz	r0, .LBB57_3
.LBB57_2:
	movs	r0, #33
	add	sp, #236
	pop.w	{r4, r5, r6, r7, r8, r9, r10, r11, pc}
.LBB57_3:
	subw	r0, r4, #1025
	cmn.w	r0, #1024
	bhs	.LBB57_5
	movs	r0, #5
	add	sp, #236
	pop.w	{r4, r5, r6, r7, r8, r9, r10, r11, pc}
.LBB57_5:
	add	r0, sp, #88
	mov.w	r1, #384
	movs	r2, #8
	bl	tlsf_memory_alloc
	ldr	r0, [sp, #88]
	lsls	r0, r0, #31
	beq.w	.LBB57_20
	add.w	r0, r4, r4, lsl #1
	ldr.w	r10, [sp, #96]
	lsls	r1, r0, #3
	add	r0, sp, #88
	movs	r2, #8
	bl	tlsf_memory_alloc
	ldr	r0, [sp, #88]
	lsls	r0, r0, #31
	beq	.LBB57_12
	ldr.w	r9, [sp, #96]
	mov.w	r11, #0
	add	r0, sp, #88
	movs	r1, #48
	movs	r2, #8
	strd	r11, r11, [r10]
	strd	r11, r11, [r10, #128]
	strd	r11, r11, [r10, #256]
	bl	tlsf_memory_alloc
	ldr	r0, [sp, #88]
	lsls	r0, r0, #31
	beq	.LBB57_13
	mov	r1, r9
	ldr.w	r9, [sp, #96]
	mov.w	r0, #256
	strh.w	r0, [r9]
	str.w	r4, [r9, #24]
	movw	r0, #257
	strd	r4, r11, [sp, #152]
	add	r4, sp, #176
	str.w	r1, [r9, #16]
	strh.w	r0, [sp, #128]
	strd	r1, r11, [sp, #144]
	add	r1, sp, #128
	mov	r0, r4
	str.w	r10, [r9, #8]
	str.w	r11, [r9, #12]
	str.w	r11, [r9, #20]
	str.w	r11, [r9, #28]
	str.w	r11, [r9, #32]
	str.w	r11, [r9, #36]
	str.w	r11, [r9, #40]
	str.w	r11, [r9, #44]
	strd	r10, r11, [sp, #136]
	strd	r11, r11, [sp, #160]
	strd	r11, r11, [sp, #168]
	bl	std_alloc.boxed.Box.new.91a8e04f462e8cea
	ldrb.w	r0, [sp, #176]
	cmp	r0, #0
	beq	.LBB57_15
	ldrb.w	r6, [sp, #184]
	add	r3, sp, #192
	ldr	r1, [sp, #204]
	ldm	r3, {r0, r2, r3}
	add.w	r10, r4, #32
.LCPI57_0:
	tbb	[pc, r6]
.LJTI57_0:
	.byte	(.LBB57_11-(.LCPI57_0+4))/2
	.byte	(.LBB57_18-(.LCPI57_0+4))/2
	.byte	(.LBB57_16-(.LCPI57_0+4))/2
	.byte	(.LBB57_17-(.LCPI57_0+4))/2
	.p2align	1
.LBB57_11:
	add.w	r12, sp, #48
	stm.w	r12, {r0, r2, r3}
	str	r1, [sp, #60]
	ldm.w	r10, {r1, r2, r3, r5, r6, r7}
	add.w	r0, r8, #16
	stm	r0!, {r1, r2, r3, r5, r6, r7}
	mov	r0, r8
	bl	rtrb.producer.Producer.drop.9fca81e6602d26fc
	b	.LBB57_19
.LBB57_12:
	mov	r0, r10
	bl	tlsf_memory_dealloc
	b	.LBB57_20
.LBB57_13:
	add	r0, sp, #88
	add.w	r5, r10, #256
	strd	r10, r11, [sp, #88]
	strd	r9, r11, [sp, #96]
	strd	r4, r11, [sp, #104]
	strd	r11, r11, [sp, #112]
	strd	r11, r11, [sp, #120]
	bl	rtrb.producer.Producer.drop.9fca81e6602d26fc
	movs	r1, #5
	mov	r0, r5
	movs	r2, #1
	movs	r3, #0
	str	r1, [sp]
	bl	__atomic_exchange_8
	orrs	r0, r1
	beq	.LBB57_20
	mov	r0, r10
	mov	r1, r9
	mov	r2, r4
	movs	r3, #0
	bl	rtrb.release.drop_slow.23d795680250cb0d
	b	.LBB57_20
.LBB57_15:
	ldr	r1, [sp, #184]
	movs	r0, #0
	movs	r2, #1
	str.w	r9, [r6]
	str	r0, [r6, #4]
	strb	r2, [r6, #8]
	str.w	r0, [r6, #9]
	str	r0, [r6, #12]
	str	r1, [r5]
	str	r0, [r5, #4]
	strb	r2, [r5, #8]
	str.w	r0, [r5, #9]
	str	r0, [r5, #12]
	add	sp, #236
	pop.w	{r4, r5, r6, r7, r8, r9, r10, r11, pc}
.LBB57_16:
	bl	std_alloc.arc.Arc.drop.c4a047e811255370
	mov	r0, r10
	bl	std_alloc.vec.Vec.drop.7ac45d8413b9ad54
	b	.LBB57_19
.LBB57_17:
	bl	std_alloc.arc.Arc.drop.c4a047e811255370
	b	.LBB57_19
.LBB57_18:
	add.w	r12, sp, #8
	stm.w	r12, {r0, r2, r3}
	str	r1, [sp, #20]
	ldm.w	r10, {r1, r2, r3, r4, r5, r6}
	add.w	r0, r7, #16
	stm	r0!, {r1, r2, r3, r4, r5, r6}
	mov	r0, r7
	bl	rtrb.consumer.Consumer.drop.9fca81e6602d26fc
.LBB57_19:
	mov	r0, r9
	bl	std_alloc.boxed.Box.drop.7d8ec8058c3633cd
.LBB57_20:
	movs	r0, #6
	add	sp, #236
	pop.w	{r4, r5, r6, r7, r8, r9, r10, r11, pc}
.Lfunc_end57:
	.size	tlsf_lane_open, .Lfunc_end57-tlsf_lane_open
	.cfi_endproc
	.section	.text.tlsf_locate,"ax",%progbits
	.globl	tlsf_locate
	.p2align	2
	.type	tlsf_locate,%function
	.code	16
	.thumb_func
tlsf_locate:
	.cfi_startproc
	push.w	{r4, r5, r6, r7, r8, r9, lr}
	.cfi_def_cfa_offset 28
	.cfi_offset lr, -4
	.cfi_offset r9, -8
	.cfi_offset r8, -12
	.cfi_offset r7, -16
	.cfi_offset r6, -20
	.cfi_offset r5, -24
	.cfi_offset r4, -28
	sub	sp, #4
	.cfi_def_cfa_offset 32
	ldr.w	r8, [sp, #40]
	ldrb	r1, [r0, #8]
	ldr.w	r9, [r8]
	cmp	r1, #0
	beq	.LBB58_9
	ldr	r6, [r0]
	ldrb	r0, [r6]
	cmp	r0, #0
	beq	.LBB58_9
	ldr	r1, [r6, #24]
	movs	r0, #0
	cmp	r1, r2
	strb	r0, [r6]
	bne	.LBB58_8
	ldr	r0, [r6, #56]
	mov	r1, r2
	cmp	r3, r0
	bhs	.LBB58_8
	ldr	r0, [r6, #72]
	mvn	r1, #7
	and.w	r1, r1, r3, lsr #3
	adds	r5, r0, r1
	ldr	r5, [r5, #4]
	ldr	r0, [r0, r1]
	and	r1, r3, #63
	rsb.w	r4, r1, #32
	lsrs	r0, r1
	lsl.w	r4, r5, r4
	orrs	r0, r4
	subs	r1, #32
	it	pl
	lsrpl.w	r0, r5, r1
	lsls	r0, r0, #31
	mov	r1, r2
	beq	.LBB58_8
	ldr	r5, [r6, #48]
	mov	r1, r2
	ldrb.w	r0, [r5, r3, lsl #3]
	lsls	r0, r0, #31
	bne	.LBB58_8
	add.w	r0, r5, r3, lsl #3
	ldr	r1, [sp, #36]
	ldrd	r3, r4, [r0, #8]
	ldr	r7, [sp, #32]
	eors	r1, r4
	eors	r3, r7
	orrs	r1, r3
	mov	r1, r2
	bne	.LBB58_8
	ldr	r1, [sp, #44]
	ldr	r0, [r0, #16]
	movs	r2, #1
	strb	r2, [r6]
	str	r0, [r1]
	movs	r0, #0
	mov	r9, r5
	b	.LBB58_10
.LBB58_8:
	mov	r0, r2
	bl	tlsf_heap.refusal.Refusal.of_name
	uxtb	r0, r0
	movs	r1, #1
	cmp	r0, #3
	mov.w	r0, #3
	strb	r1, [r6]
	it	eq
	moveq	r0, #4
	b	.LBB58_10
.LBB58_9:
	movs	r0, #0
	bl	tlsf_c.call_fault.CallFault.refusal
.LBB58_10:
	str.w	r9, [r8]
	add	sp, #4
	pop.w	{r4, r5, r6, r7, r8, r9, pc}
.Lfunc_end58:
	.size	tlsf_locate, .Lfunc_end58-tlsf_locate
	.cfi_endproc
	.section	.text.tlsf_offsets_allocate,"ax",%progbits
	.globl	tlsf_offsets_allocate
	.p2align	2
	.type	tlsf_offsets_allocate,%function
	.code	16
	.thumb_func
tlsf_offsets_allocate:
	.cfi_startproc
	push.w	{r4, r5, r6, r7, r8, r9, r10, r11, lr}
	.cfi_def_cfa_offset 36
	.cfi_offset lr, -4
	.cfi_offset r11, -8
	.cfi_offset r10, -12
	.cfi_offset r9, -16
	.cfi_offset r8, -20
	.cfi_offset r7, -24
	.cfi_offset r6, -28
	.cfi_offset r5, -32
	.cfi_offset r4, -36
	sub	sp, #12
	.cfi_def_cfa_offset 48
	ldrb	r1, [r0, #8]
	cmp	r1, #0
	beq.w	.LBB59_14
	ldr	r7, [r0]
	ldrb	r0, [r7, #1]
	cmp	r0, #0
	beq.w	.LBB59_14
	ldrb	r0, [r7]
	cmp	r0, #0
	bne.w	.LBB59_23
	ldr.w	r6, [r7, #1280]
	ldr.w	r8, [sp, #48]
	movs	r0, #0
	cmp	r6, #0
	strb	r0, [r7, #1]
	beq.w	.LBB59_27
	mov	r4, r3
	mov	r5, r2
	mov	r0, r2
	mov	r1, r3
	mov	r2, r6
	movs	r3, #0
	mov.w	r9, #0
	bl	__aeabi_uldivmod
	umull	r2, r3, r0, r6
	mla	r3, r1, r6, r3
	subs	r2, r5, r2
	sbc.w	r3, r4, r3
	orrs	r3, r2
	adds	r2, r0, #1
	adc	r6, r1, #0
	cmp	r3, #0
	itt	eq
	moveq	r6, r1
	moveq	r2, r0
	cmp	r2, #4
	mov.w	r1, #4
	it	hi
	movhi	r1, r2
	cmp	r6, #0
	mov.w	r0, #4
	itte	eq
	moveq	r2, r0
	moveq	r2, r1
	movne.w	r2, #-1
	cmp.w	r2, #1048576
	bls	.LBB59_6
.LBB59_5:
	movs	r0, #1
	strb	r0, [r7, #1]
	add	sp, #12
	pop.w	{r4, r5, r6, r7, r8, r9, r10, r11, pc}
.LBB59_6:
	orr	r0, r2, #16
	clz	r0, r0
	rsb.w	r0, r0, #27
	subs	r1, r2, #1
	lsr.w	r6, r1, r0
	add.w	r0, r6, r0, lsl #4
	adds	r0, #1
	subs	r0, #1
	sbc	r1, r9, #0
	lsrs	r3, r0, #4
	orr.w	r3, r3, r1, lsl #28
	add.w	r12, r7, #100
	ldr.w	r5, [r12, r3, lsl #2]
	and	r6, r6, #15
	lsr.w	r6, r5, r6
	bics	r6, r6, #1
	beq	.LBB59_8
	rbit	r3, r6
	clz	r3, r3
	adds	r4, r0, r3
	adc	r0, r1, #0
	lsrs	r1, r4, #4
	orr.w	r5, r1, r0, lsl #28
	b	.LBB59_10
.LBB59_8:
	ldr	r0, [r7, #96]
	mvn	r1, #1
	lsls	r1, r3
	ands	r0, r1
	beq	.LBB59_5
	rbit	r0, r0
	clz	r0, r0
	ldr.w	r1, [r12, r0, lsl #2]
	rbit	r1, r1
	clz	r1, r1
	add.w	r4, r1, r0, lsl #4
	lsrs	r5, r4, #4
.LBB59_10:
	ldrd	r9, r10, [r7, #24]
	mvn.w	r0, r9
	orn	r0, r0, r10
	cbnz	r0, .LBB59_12
	movs	r0, #1
	strb	r0, [r7, #1]
	movs	r0, #2
	add	sp, #12
	pop.w	{r4, r5, r6, r7, r8, r9, r10, r11, pc}
.LBB59_12:
	add.w	lr, r7, #184
	ldr.w	r11, [lr, r4, lsl #2]
	ldr	r0, [r7, #40]
	lsl.w	r3, r11, #3
	add.w	r6, r0, r11, lsl #3
	ldr	r6, [r6, #16]
	adds	r1, r6, #1
	beq	.LBB59_15
	add.w	r0, r0, r6, lsl #3
	ldr	r1, [r0, #20]
	mov.w	r5, #-1
	orrs	r1, r5
	str	r1, [r0, #20]
	str.w	r6, [lr, r4, lsl #2]
	ldr	r0, [r7, #40]
	b	.LBB59_17
.LBB59_14:
	movs	r0, #0
	b	.LBB59_24
.LBB59_15:
	mov.w	r1, #-1
	str.w	r1, [lr, r4, lsl #2]
	ldr.w	r1, [r12, r5, lsl #2]
	and	r4, r4, #15
	movs	r6, #1
	lsl.w	r4, r6, r4
	bics	r1, r4
	str.w	r1, [r12, r5, lsl #2]
	bne	.LBB59_17
	ldr	r1, [r7, #96]
	lsls	r6, r5
	bics	r1, r6
	str	r1, [r7, #96]
.LBB59_17:
	ldr.w	lr, [r0, r3]
	adds	r6, r0, r3
	ldr.w	r12, [r6, #4]
	sub.w	r5, lr, r2, lsl #2
	cmp	r5, #15
	str	r3, [sp, #8]
	bhi	.LBB59_19
	subs.w	r0, lr, #1
	mov.w	r2, #0
	sbc	r1, r12, #0
	stm.w	r6, {r0, r1, r9, r10}
	strd	r2, r2, [r6, #16]
	lsrs	r2, r0, #2
	b	.LBB59_26
.LBB59_19:
	add.w	r4, r11, r2
	subs.w	r1, lr, r5
	sbc	r3, r12, #0
	mov.w	r12, #0
	stm.w	r6, {r1, r3, r9, r10, r12}
	add.w	r1, r0, r4, lsl #3
	str.w	r12, [r6, #20]
	str.w	r5, [r0, r4, lsl #3]
	strd	r11, r9, [r1, #4]
	str.w	r10, [r1, #12]
	ldr	r0, [r7, #64]
	mvn	r1, #7
	and	r6, r4, #63
	and.w	r1, r1, r4, lsr #3
	subs.w	r3, r6, #32
	ldr.w	lr, [r0, r1]
	str	r3, [sp, #4]
	mov.w	r3, #1
	lsl.w	r12, r3, r6
	it	pl
	movpl.w	r12, #0
	orr.w	r3, lr, r12
	str	r3, [r0, r1]
	add	r0, r1
	ldr	r1, [r0, #4]
	rsb.w	r3, r6, #32
	mov.w	r12, #1
	lsr.w	r3, r12, r3
	ldr	r6, [sp, #4]
	it	pl
	lslpl.w	r3, r12, r6
	orrs	r1, r3
	str	r1, [r0, #4]
	lsls	r0, r5, #30
	lsr.w	r0, r5, #2
	bmi	.LBB59_21
	ldr	r1, [r7, #40]
	adds	r3, r0, r4
	add.w	r1, r1, r3, lsl #3
	str	r4, [r1, #4]
.LBB59_21:
	orr	r1, r0, #16
	clz	r1, r1
	rsb.w	r1, r1, #27
	lsr.w	r12, r0, r1
	add.w	r6, r12, r1, lsl #4
	add.w	r1, r7, #184
	ldr.w	r5, [r1, r6, lsl #2]
	lsls	r0, r4, #3
	cmp.w	r5, #-1
	mov.w	r3, #-1
	str.w	r4, [r1, r6, lsl #2]
	ble	.LBB59_25
	ldr	r1, [r7, #40]
	add	r0, r1
	strd	r5, r3, [r0, #16]
	add.w	r0, r1, r5, lsl #3
	str	r4, [r0, #20]
	b	.LBB59_26
.LBB59_23:
	movs	r0, #2
.LBB59_24:
	add	sp, #12
	pop.w	{r4, r5, r6, r7, r8, r9, r10, r11, lr}
	b	tlsf_c.call_fault.CallFault.refusal
.LBB59_25:
	ldr	r1, [r7, #40]
	add.w	r4, r7, #100
	add	r0, r1
	mov.w	r1, #-1
	strd	r1, r3, [r0, #16]
	lsrs	r0, r6, #4
	ldr	r1, [r7, #96]
	movs	r6, #1
	lsl.w	r5, r6, r0
	orrs	r1, r5
	ldr.w	r3, [r4, r0, lsl #2]
	str	r1, [r7, #96]
	and	r1, r12, #15
	lsl.w	r1, r6, r1
	orrs	r1, r3
	str.w	r1, [r4, r0, lsl #2]
.LBB59_26:
	ldrd	r0, r1, [r7, #32]
	movs	r4, #1
	add	r0, r2
	cmp	r1, r0
	str	r0, [r7, #32]
	it	lo
	strlo	r0, [r7, #36]
	ldrd	r0, r2, [r7, #24]
	ldr	r3, [r7, #40]
	adds	r0, #1
	ldr	r6, [sp, #8]
	adc	r2, r2, #0
	strd	r0, r2, [r7, #24]
	adds	r2, r3, r6
	movs	r0, #0
	ldr	r1, [r7, #16]
	strd	r0, r0, [r2, #24]
	ldr	r2, [r7, #40]
	ldr.w	r3, [r7, #1280]
	ldr	r2, [r2, r6]
	umull	r6, r5, r3, r11
	lsrs	r2, r2, #2
	umull	r2, r3, r2, r3
	strb	r4, [r7, #1]
	str.w	r1, [r8]
	str.w	r11, [r8, #4]
	str.w	r10, [r8, #12]
	str.w	r9, [r8, #8]
	str.w	r5, [r8, #20]
	str.w	r6, [r8, #16]
	str.w	r3, [r8, #28]
	str.w	r2, [r8, #24]
	add	sp, #12
	pop.w	{r4, r5, r6, r7, r8, r9, r10, r11, pc}
.LBB59_27:
	.inst.n	0xdefe
.Lfunc_end59:
	.size	tlsf_offsets_allocate, .Lfunc_end59-tlsf_offsets_allocate
	.cfi_endproc
	.section	.text.tlsf_offsets_close,"ax",%progbits
	.globl	tlsf_offsets_close
	.p2align	2
	.type	tlsf_offsets_close,%function
	.code	16
	.thumb_func
tlsf_offsets_close:
	.cfi_startproc
	ldrb	r1, [r0, #8]
	cbz	r1, .LBB60_4
	ldr	r1, [r0]
	ldrb	r2, [r1, #1]
	cmp	r2, #1
	bne	.LBB60_4
	ldrb	r1, [r1]
	cmp	r1, #0
	itt	ne
	movne	r0, #40
	bxne	lr
.LBB60_3:
	push	{r7, lr}
	.cfi_def_cfa_offset 8
	.cfi_offset lr, -4
	.cfi_offset r7, -8
	bl	tlsf_c.arena_slot.ArenaSlot.close
	movs	r0, #0
	pop	{r7, pc}
.LBB60_4:
	movs	r0, #32
	bx	lr
.Lfunc_end60:
	.size	tlsf_offsets_close, .Lfunc_end60-tlsf_offsets_close
	.cfi_endproc
	.section	.text.tlsf_offsets_open,"ax",%progbits
	.globl	tlsf_offsets_open
	.p2align	2
	.type	tlsf_offsets_open,%function
	.code	16
	.thumb_func
tlsf_offsets_open:
	.cfi_startproc
	push.w	{r4, r5, r6, r7, r8, r9, r10, r11, lr}
	.cfi_def_cfa_offset 36
	.cfi_offset lr, -4
	.cfi_offset r11, -8
	.cfi_offset r10, -12
	.cfi_offset r9, -16
	.cfi_offset r8, -20
	.cfi_offset r7, -24
	.cfi_offset r6, -28
	.cfi_offset r5, -32
	.cfi_offset r4, -36
	sub	sp, #36
	.cfi_def_cfa_offset 72
	ldrb	r6, [r0, #8]
	subs	r7, r1, #5
	it	ne
	movne	r7, r1
	cbz	r6, .LBB61_2
	movs	r0, #33
	add	sp, #36
	pop.w	{r4, r5, r6, r7, r8, r9, r10, r11, pc}
.LBB61_2:
	subs	r1, r7, #6
	cmn.w	r1, #2
	bhs	.LBB61_4
	movs	r0, #34
	add	sp, #36
	pop.w	{r4, r5, r6, r7, r8, r9, r10, r11, pc}
.LBB61_4:
	mov	r1, r0
	cmp	r3, #0
	mov.w	r0, #5
	beq.w	.LBB61_10
	ldr	r4, [sp, #72]
	mvn	r7, #1048576
	movs	r6, #3
	add	r7, r4
	movt	r6, #65520
	cmp	r7, r6
	blo.w	.LBB61_10
	mov	r11, r2
	strd	r3, r1, [sp, #8]
	lsls	r1, r4, #3
	add	r0, sp, #16
	movs	r2, #8
	bl	tlsf_memory_alloc
	ldr	r0, [sp, #16]
	lsls	r0, r0, #31
	beq.w	.LBB61_14
	add.w	r0, r4, #63
	ldr	r5, [sp, #24]
	lsr.w	r8, r0, #6
	movs	r7, #0
	lsl.w	r1, r8, #3
	add	r0, sp, #16
	movs	r2, #8
	strd	r7, r7, [r5]
	strd	r7, r7, [r5, #8]
	strd	r7, r7, [r5, #16]
	strd	r7, r7, [r5, #24]
	bl	tlsf_memory_alloc
	ldr	r0, [sp, #16]
	lsls	r0, r0, #31
	beq.w	.LBB61_11
	ldr	r6, [sp, #24]
	movs	r0, #19
	strd	r7, r7, [r6]
	mov.w	r1, #-1
	stm.w	r5, {r0, r1, r7}
	str	r7, [r5, #12]
	ldr	r0, [r6]
	mov	r7, r1
	orr	r0, r0, #1
	str	r0, [r6]
	strd	r1, r1, [r5, #16]
	add	r0, sp, #16
	mov.w	r1, #1288
	movs	r2, #8
	bl	tlsf_memory_alloc
	ldr	r0, [sp, #16]
	lsls	r0, r0, #31
	beq	.LBB61_12
	ldr.w	r9, [sp, #24]
	mov.w	r0, #256
	strh.w	r0, [r9]
	mov	r0, r9
	str	r11, [r0, #16]!
	str	r0, [sp, #4]
	movs	r0, #4
	str.w	r0, [r9, #48]
	str.w	r0, [r9, #88]
	movs	r0, #16
	mov.w	r10, #0
	mov.w	r11, #1
	str.w	r0, [r9, #100]
	add.w	r0, r9, #104
	movs	r1, #0
	movs	r2, #80
	str.w	r10, [r9, #12]
	str.w	r10, [r9, #8]
	str.w	r11, [r9, #24]
	str.w	r10, [r9, #28]
	str.w	r10, [r9, #36]
	str.w	r10, [r9, #32]
	str.w	r5, [r9, #40]
	str.w	r10, [r9, #44]
	str.w	r10, [r9, #52]
	str.w	r10, [r9, #60]
	str.w	r4, [r9, #56]
	str.w	r6, [r9, #64]
	str.w	r10, [r9, #68]
	str.w	r10, [r9, #76]
	str.w	r11, [r9, #72]
	str.w	r10, [r9, #84]
	str.w	r8, [r9, #80]
	str.w	r10, [r9, #92]
	str.w	r11, [r9, #96]
	bl	tlsf_memory_set
	add.w	r0, r9, #204
	movs	r1, #255
	mov.w	r2, #1072
	str.w	r7, [r9, #184]
	str.w	r7, [r9, #188]
	str.w	r7, [r9, #192]
	str.w	r7, [r9, #196]
	str.w	r10, [r9, #200]
	bl	tlsf_memory_set
	ldr	r0, [sp, #8]
	mov	r1, r4
	str.w	r0, [r9, #1280]
	ldr	r0, [sp, #4]
	bl	tlsf_heap.heap.Heap.begin.4
	ldr	r1, [sp, #12]
	mov	r0, r10
	str.w	r9, [r1]
	str.w	r10, [r1, #4]
	strb.w	r11, [r1, #8]
	str.w	r10, [r1, #9]
	str.w	r10, [r1, #12]
.LBB61_10:
	add	sp, #36
	pop.w	{r4, r5, r6, r7, r8, r9, r10, r11, pc}
.LBB61_11:
	mov	r0, r5
	b	.LBB61_13
.LBB61_12:
	mov	r0, r5
	bl	tlsf_memory_dealloc
	mov	r0, r6
.LBB61_13:
	bl	tlsf_memory_dealloc
.LBB61_14:
	movs	r0, #6
	add	sp, #36
	pop.w	{r4, r5, r6, r7, r8, r9, r10, r11, pc}
.Lfunc_end61:
	.size	tlsf_offsets_open, .Lfunc_end61-tlsf_offsets_open
	.cfi_endproc
	.section	.text.tlsf_offsets_release,"ax",%progbits
	.globl	tlsf_offsets_release
	.p2align	2
	.type	tlsf_offsets_release,%function
	.code	16
	.thumb_func
tlsf_offsets_release:
	.cfi_startproc
	push.w	{r4, r5, r6, r7, r8, r9, r10, r11, lr}
	.cfi_def_cfa_offset 36
	.cfi_offset lr, -4
	.cfi_offset r11, -8
	.cfi_offset r10, -12
	.cfi_offset r9, -16
	.cfi_offset r8, -20
	.cfi_offset r7, -24
	.cfi_offset r6, -28
	.cfi_offset r5, -32
	.cfi_offset r4, -36
	sub	sp, #36
	.cfi_def_cfa_offset 72
	ldrb	r1, [r0, #8]
	cmp	r1, #0
	beq.w	.LBB62_19
	ldr	r4, [r0]
	ldrb	r0, [r4, #1]
	cmp	r0, #0
	beq.w	.LBB62_19
	ldrb	r0, [r4]
	cmp	r0, #0
	bne.w	.LBB62_23
	ldr	r1, [r4, #16]
	ldrd	r8, lr, [sp, #72]
	movs	r0, #0
	cmp	r1, r2
	strb	r0, [r4, #1]
	bne	.LBB62_12
	ldr	r0, [r4, #48]
	mov	r1, r2
	cmp	r3, r0
	bhs	.LBB62_12
	ldr	r0, [r4, #64]
	mvn	r1, #7
	and.w	r1, r1, r3, lsr #3
	adds	r7, r0, r1
	ldr	r7, [r7, #4]
	ldr	r0, [r0, r1]
	and	r1, r3, #63
	rsb.w	r6, r1, #32
	lsrs	r0, r1
	lsl.w	r6, r7, r6
	orrs	r0, r6
	subs	r1, #32
	it	pl
	lsrpl.w	r0, r7, r1
	lsls	r0, r0, #31
	mov	r1, r2
	beq	.LBB62_12
	add.w	r0, r4, #40
	ldr	r7, [r0]
	ldr.w	r12, [r7, r3, lsl #3]
	lsls.w	r1, r12, #31
	mov	r1, r2
	bne	.LBB62_12
	add.w	r6, r7, r3, lsl #3
	ldrd	r1, r5, [r6, #8]
	eor.w	r5, r5, lr
	eor.w	r1, r1, r8
	orrs	r1, r5
	mov	r1, r2
	bne	.LBB62_12
	ldrd	r5, r11, [r4, #24]
	and.w	r2, r5, r11
	adds	r2, #1
	beq	.LBB62_11
	ldr	r2, [r4, #32]
	ldr.w	r8, [r6, #4]
	lsr.w	r9, r12, #2
	sub.w	r2, r2, r12, lsr #2
	lsls.w	r1, r12, #30
	str	r2, [r4, #32]
	bmi	.LBB62_13
	add.w	r1, r9, r3
	add.w	lr, r7, r1, lsl #3
	ldr.w	r2, [r7, r1, lsl #3]
	ldr.w	lr, [lr, #4]
	b	.LBB62_14
.LBB62_11:
	movs	r0, #1
	strb	r0, [r4, #1]
	movs	r0, #2
	add	sp, #36
	pop.w	{r4, r5, r6, r7, r8, r9, r10, r11, pc}
.LBB62_12:
	mov	r0, r2
	bl	tlsf_heap.refusal.Refusal.of_name
	uxtb	r0, r0
	movs	r1, #1
	cmp	r0, #3
	mov.w	r0, #3
	strb	r1, [r4, #1]
	it	eq
	moveq	r0, #4
	add	sp, #36
	pop.w	{r4, r5, r6, r7, r8, r9, r10, r11, pc}
.LBB62_13:
	movs	r2, #0
	mov.w	lr, #0
.LBB62_14:
	cmp	r3, #0
	itt	ne
	ldrne.w	r10, [r7, r8, lsl #3]
	lslsne.w	r1, r10, #31
	bne	.LBB62_20
	lsls	r1, r2, #31
	bne	.LBB62_18
	orr	r1, r12, #1
	strd	r1, r8, [r6]
	strd	r5, r11, [r6, #8]
	ldrd	r7, r2, [r4, #24]
	mov.w	r12, #-1
	adds	r7, #1
	adc	r2, r2, #0
	strd	r7, r2, [r4, #24]
	orr	r2, r9, #16
	clz	r2, r2
	rsb.w	r7, r2, #27
	lsr.w	r2, r9, r7
	add.w	r5, r2, r7, lsl #4
	add.w	r1, r4, r5, lsl #2
	ldr.w	r6, [r1, #184]
	lsls	r7, r3, #3
	cmp.w	r6, #-1
	str.w	r3, [r1, #184]
	ble	.LBB62_21
	adds.w	r1, r12, r6
	ldr	r0, [r0]
	adc	r2, r12, #0
	adds	r1, #1
	sbc	r2, r2, #0
	add	r7, r0
	add.w	r0, r0, r6, lsl #3
	strd	r1, r2, [r7, #16]
	str	r3, [r0, #20]
	b	.LBB62_22
.LBB62_18:
	adds	r1, r5, #1
	adc	r6, r11, #0
	strd	r1, r6, [r4, #24]
	mov	r1, r3
	mov	r3, lr
	strd	r12, r8, [sp]
	strd	r5, r11, [sp, #8]
	str	r1, [sp, #16]
	bl	tlsf_heap.fitting.merge_next.4
	b	.LBB62_22
.LBB62_19:
	movs	r0, #0
	b	.LBB62_24
.LBB62_20:
	add.w	r1, r7, r8, lsl #3
	ldr	r1, [r1, #4]
	adds	r6, r5, #1
	adc	r7, r11, #0
	strd	r6, r7, [r4, #24]
	strd	r10, r1, [sp]
	mov	r1, r3
	mov	r3, lr
	strd	r12, r8, [sp, #24]
	strd	r5, r11, [sp, #8]
	str	r1, [sp, #16]
	bl	tlsf_heap.fitting.merge_before.4
	b	.LBB62_22
.LBB62_21:
	ldr	r0, [r4, #40]
	movs	r6, #1
	add	r0, r7
	strd	r12, r12, [r0, #16]
	lsrs	r0, r5, #4
	ldr	r1, [r4, #96]
	add.w	r3, r4, r0, lsl #2
	lsl.w	r0, r6, r0
	orrs	r0, r1
	ldr	r7, [r3, #100]
	str	r0, [r4, #96]
	and	r0, r2, #15
	lsl.w	r0, r6, r0
	orrs	r0, r7
	str	r0, [r3, #100]
.LBB62_22:
	movs	r0, #1
	strb	r0, [r4, #1]
	movs	r0, #0
	add	sp, #36
	pop.w	{r4, r5, r6, r7, r8, r9, r10, r11, pc}
.LBB62_23:
	movs	r0, #2
.LBB62_24:
	add	sp, #36
	pop.w	{r4, r5, r6, r7, r8, r9, r10, r11, lr}
	b	tlsf_c.call_fault.CallFault.refusal
.Lfunc_end62:
	.size	tlsf_offsets_release, .Lfunc_end62-tlsf_offsets_release
	.cfi_endproc
	.section	.text.tlsf_offsets_resize,"ax",%progbits
	.globl	tlsf_offsets_resize
	.p2align	2
	.type	tlsf_offsets_resize,%function
	.code	16
	.thumb_func
tlsf_offsets_resize:
	.cfi_startproc
	push.w	{r4, r5, r6, r7, r8, r9, r10, r11, lr}
	.cfi_def_cfa_offset 36
	.cfi_offset lr, -4
	.cfi_offset r11, -8
	.cfi_offset r10, -12
	.cfi_offset r9, -16
	.cfi_offset r8, -20
	.cfi_offset r7, -24
	.cfi_offset r6, -28
	.cfi_offset r5, -32
	.cfi_offset r4, -36
	sub	sp, #36
	.cfi_def_cfa_offset 72
	mov	r7, r3
	ldrb	r3, [r0, #8]
	cmp	r3, #0
	beq.w	.LBB63_18
	ldr	r6, [r0]
	ldrb	r0, [r6, #1]
	cmp	r0, #0
	beq.w	.LBB63_18
	ldrb	r0, [r6]
	cmp	r0, #0
	bne.w	.LBB63_26
	ldr.w	r4, [r6, #1280]
	movs	r0, #0
	cmp	r4, #0
	strb	r0, [r6, #1]
	beq.w	.LBB63_28
	ldr	r0, [r1, #12]
	mov	r5, r2
	mov	r9, r1
	ldr.w	r8, [r1]
	ldr.w	r10, [r1, #4]
	ldr.w	r11, [r1, #8]
	str	r0, [sp, #32]
	mov	r0, r2
	mov	r1, r7
	mov	r2, r4
	movs	r3, #0
	bl	__aeabi_uldivmod
	umull	r2, r3, r0, r4
	mla	r3, r1, r4, r3
	subs	r2, r5, r2
	sbc.w	r3, r7, r3
	adds	r4, r0, #1
	orr.w	r2, r2, r3
	adc	r3, r1, #0
	cmp	r2, #0
	itt	eq
	moveq	r3, r1
	moveq	r4, r0
	movs	r1, #4
	cmp	r4, #4
	it	hi
	movhi	r1, r4
	movs	r0, #4
	cmp	r3, #0
	itt	eq
	moveq	r4, r0
	moveq	r4, r1
	ldr	r1, [r6, #16]
	it	ne
	movne.w	r4, #-1
	cmp	r8, r1
	bne	.LBB63_17
	ldr	r0, [r6, #48]
	mov	r1, r8
	cmp	r10, r0
	bhs	.LBB63_17
	ldr	r0, [r6, #64]
	mvn	r1, #7
	and.w	r1, r1, r10, lsr #3
	adds	r2, r0, r1
	ldr	r2, [r2, #4]
	ldr	r0, [r0, r1]
	and	r1, r10, #63
	rsb.w	r3, r1, #32
	lsrs	r0, r1
	lsl.w	r3, r2, r3
	orrs	r0, r3
	subs	r1, #32
	it	pl
	lsrpl.w	r0, r2, r1
	lsls	r0, r0, #31
	mov	r1, r8
	beq	.LBB63_17
	add.w	r0, r6, #40
	ldr.w	lr, [r0]
	ldr.w	r2, [lr, r10, lsl #3]
	lsls	r1, r2, #31
	mov	r1, r8
	bne	.LBB63_17
	add.w	r7, lr, r10, lsl #3
	ldrd	r1, r3, [r7, #8]
	ldr	r5, [sp, #32]
	eor.w	r1, r1, r11
	eors	r3, r5
	orrs	r1, r3
	mov	r1, r8
	bne	.LBB63_17
	ldr	r3, [r7, #4]
	str.w	r11, [sp, #28]
	lsl.w	r1, r10, #3
	cmp.w	r4, r2, lsr #2
	lsr.w	r11, r2, #2
	str	r1, [sp, #24]
	bls	.LBB63_13
	lsls	r1, r2, #30
	bmi	.LBB63_12
	add.w	r12, r11, r10
	ldr.w	r1, [lr, r12, lsl #3]
	lsls	r7, r1, #31
	bne	.LBB63_19
.LBB63_12:
	movs	r1, #0
	mov.w	r12, #0
	b	.LBB63_20
.LBB63_13:
	ldrd	r12, r5, [r6, #24]
	and.w	r1, r12, r5
	adds	r1, #1
	beq.w	.LBB63_25
	movs	r1, #0
	strd	r1, r1, [r7, #16]
	adds	r1, r4, #4
	cmp	r11, r1
	mov	r7, r11
	blo	.LBB63_16
	mov	r1, r10
	strd	r12, r5, [sp, #8]
	str	r4, [sp]
	bl	tlsf_heap.refitting.split_off.4
	mov	r7, r4
.LBB63_16:
	ldrd	r1, r3, [r6, #24]
	ldr	r2, [r6, #32]
	sub.w	r0, r7, r11
	adds	r1, #1
	add	r0, r2
	adc	r2, r3, #0
	ldrd	r3, r5, [sp, #24]
	strd	r1, r2, [r6, #24]
	str	r0, [r6, #32]
	b	.LBB63_24
.LBB63_17:
	mov	r0, r8
	bl	tlsf_heap.refusal.Refusal.of_name
	uxtb	r0, r0
	movs	r1, #1
	cmp	r0, #3
	mov.w	r0, #3
	strb	r1, [r6, #1]
	it	eq
	moveq	r0, #4
	add	sp, #36
	pop.w	{r4, r5, r6, r7, r8, r9, r10, r11, pc}
.LBB63_18:
	movs	r0, #0
	b	.LBB63_27
.LBB63_19:
	add.w	r7, lr, r12, lsl #3
	ldr.w	r12, [r7, #4]
.LBB63_20:
	add.w	r7, r11, r1, lsr #2
	cmp	r7, r4
	bhs	.LBB63_22
	movs	r0, #1
	strb	r0, [r6, #1]
	movs	r0, #10
	add	sp, #36
	pop.w	{r4, r5, r6, r7, r8, r9, r10, r11, pc}
.LBB63_22:
	ldrd	lr, r7, [r6, #24]
	and.w	r5, lr, r7
	adds	r5, #1
	beq	.LBB63_25
	strd	r1, r12, [sp]
	mov	r1, r10
	strd	lr, r7, [sp, #16]
	str	r4, [sp, #8]
	bl	tlsf_heap.refitting.recut.4
	ldr	r1, [r6, #40]
	ldr	r3, [sp, #24]
	movs	r2, #0
	add	r1, r3
	strd	r2, r2, [r1, #16]
	ldrd	r1, r2, [r6, #32]
	sub.w	r0, r0, r11
	add	r0, r1
	cmp	r2, r0
	str	r0, [r6, #32]
	it	lo
	strlo	r0, [r6, #36]
	ldrd	r0, r1, [r6, #24]
	ldr	r5, [sp, #28]
	adds	r0, #1
	adc	r1, r1, #0
	strd	r0, r1, [r6, #24]
.LBB63_24:
	ldr	r0, [r6, #40]
	ldr.w	r1, [r6, #1280]
	ldr	r0, [r0, r3]
	movs	r7, #1
	lsrs	r0, r0, #2
	strb	r7, [r6, #1]
	ldr	r7, [sp, #32]
	umull	r2, r3, r1, r10
	umull	r0, r1, r0, r1
	str.w	r8, [r9]
	str.w	r10, [r9, #4]
	str.w	r7, [r9, #12]
	str.w	r5, [r9, #8]
	str.w	r3, [r9, #20]
	str.w	r2, [r9, #16]
	str.w	r1, [r9, #28]
	str.w	r0, [r9, #24]
	movs	r0, #0
	add	sp, #36
	pop.w	{r4, r5, r6, r7, r8, r9, r10, r11, pc}
.LBB63_25:
	movs	r0, #1
	strb	r0, [r6, #1]
	movs	r0, #2
	add	sp, #36
	pop.w	{r4, r5, r6, r7, r8, r9, r10, r11, pc}
.LBB63_26:
	movs	r0, #2
.LBB63_27:
	add	sp, #36
	pop.w	{r4, r5, r6, r7, r8, r9, r10, r11, lr}
	b	tlsf_c.call_fault.CallFault.refusal
.LBB63_28:
	.inst.n	0xdefe
.Lfunc_end63:
	.size	tlsf_offsets_resize, .Lfunc_end63-tlsf_offsets_resize
	.cfi_endproc
	.section	.text.tlsf_open,"ax",%progbits
	.globl	tlsf_open
	.p2align	2
	.type	tlsf_open,%function
	.code	16
	.thumb_func
tlsf_open:
	.cfi_startproc
	push.w	{r4, r5, r6, r7, r8, r9, r10, r11, lr}
	.cfi_def_cfa_offset 36
	.cfi_offset lr, -4
	.cfi_offset r11, -8
	.cfi_offset r10, -12
	.cfi_offset r9, -16
	.cfi_offset r8, -20
	.cfi_offset r7, -24
	.cfi_offset r6, -28
	.cfi_offset r5, -32
	.cfi_offset r4, -36
	sub	sp, #28
	.cfi_def_cfa_offset 64
	ldrb	r6, [r0, #8]
	subs	r7, r1, #5
	it	ne
	movne	r7, r1
	cbz	r6, .LBB64_2
	movs	r0, #33
	add	sp, #28
	pop.w	{r4, r5, r6, r7, r8, r9, r10, r11, pc}
.LBB64_2:
	subs	r1, r7, #6
	cmn.w	r1, #2
	bhs	.LBB64_4
	movs	r0, #34
	add	sp, #28
	pop.w	{r4, r5, r6, r7, r8, r9, r10, r11, pc}
.LBB64_4:
	mvn	r1, #1048576
	movs	r7, #3
	add	r1, r3
	movt	r7, #65520
	cmp	r1, r7
	bhs	.LBB64_6
	movs	r0, #5
	add	sp, #28
	pop.w	{r4, r5, r6, r7, r8, r9, r10, r11, pc}
.LBB64_6:
	mov	r10, r2
	str	r0, [sp, #4]
	lsls	r1, r3, #3
	add	r0, sp, #8
	movs	r2, #8
	mov	r6, r3
	bl	tlsf_memory_alloc
	ldr	r0, [sp, #8]
	lsls	r0, r0, #31
	beq.w	.LBB64_13
	add.w	r0, r6, #63
	ldr	r4, [sp, #16]
	lsr.w	r11, r0, #6
	movs	r7, #0
	lsl.w	r1, r11, #3
	add	r0, sp, #8
	movs	r2, #8
	strd	r7, r7, [r4]
	strd	r7, r7, [r4, #8]
	strd	r7, r7, [r4, #16]
	strd	r7, r7, [r4, #24]
	bl	tlsf_memory_alloc
	ldr	r0, [sp, #8]
	lsls	r0, r0, #31
	beq.w	.LBB64_10
	ldr	r5, [sp, #16]
	movs	r0, #19
	strd	r7, r7, [r5]
	mov.w	r1, #-1
	stm.w	r4, {r0, r1, r7}
	str	r7, [r4, #12]
	ldr	r0, [r5]
	mov	r7, r1
	orr	r0, r0, #1
	str	r0, [r5]
	strd	r1, r1, [r4, #16]
	add	r0, sp, #8
	mov.w	r1, #1288
	movs	r2, #8
	bl	tlsf_memory_alloc
	ldr	r0, [sp, #8]
	lsls	r0, r0, #31
	beq	.LBB64_11
	ldr.w	r8, [sp, #16]
	movs	r1, #1
	mov	r0, r8
	str	r10, [r0, #24]!
	str	r0, [sp]
	movs	r0, #4
	str.w	r0, [r8, #56]
	str.w	r0, [r8, #96]
	movs	r0, #16
	strb.w	r1, [r8]
	mov.w	r9, #0
	str.w	r1, [r8, #32]
	str.w	r5, [r8, #72]
	str.w	r1, [r8, #80]
	str.w	r1, [r8, #104]
	mov	r5, r1
	str.w	r0, [r8, #108]
	add.w	r0, r8, #112
	movs	r1, #0
	movs	r2, #80
	str.w	r9, [r8, #8]
	str.w	r9, [r8, #12]
	str.w	r9, [r8, #16]
	str.w	r9, [r8, #20]
	str.w	r9, [r8, #36]
	str.w	r9, [r8, #40]
	str.w	r9, [r8, #44]
	str.w	r4, [r8, #48]
	str.w	r9, [r8, #52]
	str.w	r9, [r8, #60]
	str.w	r9, [r8, #68]
	str.w	r6, [r8, #64]
	str.w	r9, [r8, #76]
	str.w	r9, [r8, #84]
	str.w	r9, [r8, #92]
	str.w	r11, [r8, #88]
	str.w	r9, [r8, #100]
	bl	tlsf_memory_set
	add.w	r0, r8, #212
	movs	r1, #255
	mov.w	r2, #1072
	str.w	r7, [r8, #192]
	str.w	r7, [r8, #196]
	str.w	r7, [r8, #200]
	str.w	r7, [r8, #204]
	str.w	r9, [r8, #208]
	bl	tlsf_memory_set
	ldr	r0, [sp]
	mov	r1, r6
	bl	tlsf_heap.heap.Heap.begin.4
	ldr.w	r1, [r8, #48]
	ldr	r2, [sp, #4]
	mov	r0, r9
	str	r1, [r2, #16]
	str.w	r10, [r2, #24]
	strb.w	r9, [r2, #28]
	strd	r8, r0, [r2]
	strb	r5, [r2, #8]
	add	sp, #28
	pop.w	{r4, r5, r6, r7, r8, r9, r10, r11, pc}
.LBB64_10:
	mov	r0, r4
	b	.LBB64_12
.LBB64_11:
	mov	r0, r4
	bl	tlsf_memory_dealloc
	mov	r0, r5
.LBB64_12:
	bl	tlsf_memory_dealloc
.LBB64_13:
	movs	r0, #6
	add	sp, #28
	pop.w	{r4, r5, r6, r7, r8, r9, r10, r11, pc}
.Lfunc_end64:
	.size	tlsf_open, .Lfunc_end64-tlsf_open
	.cfi_endproc
	.section	.text.tlsf_place,"ax",%progbits
	.globl	tlsf_place
	.p2align	2
	.type	tlsf_place,%function
	.code	16
	.thumb_func
tlsf_place:
	.cfi_startproc
	push	{r4, r5, r6, lr}
	.cfi_def_cfa_offset 16
	.cfi_offset lr, -4
	.cfi_offset r6, -8
	.cfi_offset r5, -12
	.cfi_offset r4, -16
	ldrb.w	r12, [r0, #8]
	cmp.w	r12, #0
	beq	.LBB65_7
	ldr.w	lr, [r0]
	ldrb.w	r0, [lr]
	cmp	r0, #0
	beq	.LBB65_7
	ldr.w	r0, [lr, #56]
	mov.w	r12, #0
	cmp	r1, r0
	strb.w	r12, [lr]
	bhs	.LBB65_6
	ldr.w	r12, [lr, #72]
	mvn	r0, #7
	and.w	r0, r0, r1, lsr #3
	add.w	r4, r12, r0
	ldr	r4, [r4, #4]
	ldr.w	r12, [r12, r0]
	and	r0, r1, #63
	rsb.w	r5, r0, #32
	lsr.w	r12, r12, r0
	lsl.w	r5, r4, r5
	orr.w	r5, r5, r12
	subs	r0, #32
	it	pl
	lsrpl.w	r5, r4, r0
	lsls	r0, r5, #31
	beq	.LBB65_6
	ldr.w	r12, [lr, #48]
	ldrb.w	r0, [r12, r1, lsl #3]
	lsls	r0, r0, #31
	bne	.LBB65_6
	add.w	r5, r12, r1, lsl #3
	ldrd	r12, r0, [r5, #8]
	ldr.w	r6, [lr, #24]
	ldr	r5, [r5, #16]
	movs	r4, #1
	strb.w	r4, [lr]
	str	r0, [r2, #12]
	movs	r0, #0
	str	r6, [r2]
	str	r1, [r2, #4]
	str.w	r12, [r2, #8]
	str	r5, [r3]
	pop	{r4, r5, r6, pc}
.LBB65_6:
	movs	r0, #1
	strb.w	r0, [lr]
	movs	r0, #4
	pop	{r4, r5, r6, pc}
.LBB65_7:
	movs	r0, #0
	pop.w	{r4, r5, r6, lr}
	b	tlsf_c.call_fault.CallFault.refusal
.Lfunc_end65:
	.size	tlsf_place, .Lfunc_end65-tlsf_place
	.cfi_endproc
	.section	.text.tlsf_pools_allocate,"ax",%progbits
	.globl	tlsf_pools_allocate
	.p2align	2
	.type	tlsf_pools_allocate,%function
	.code	16
	.thumb_func
tlsf_pools_allocate:
	.cfi_startproc
	push.w	{r4, r5, r6, r7, r8, r9, r10, r11, lr}
	.cfi_def_cfa_offset 36
	.cfi_offset lr, -4
	.cfi_offset r11, -8
	.cfi_offset r10, -12
	.cfi_offset r9, -16
	.cfi_offset r8, -20
	.cfi_offset r7, -24
	.cfi_offset r6, -28
	.cfi_offset r5, -32
	.cfi_offset r4, -36
	sub	sp, #36
	.cfi_def_cfa_offset 72
	ldrb	r3, [r0, #8]
	str	r2, [sp, #24]
	cmp	r3, #0
	beq.w	.LBB66_26
	ldr	r3, [r0]
	ldrb	r0, [r3, #1]
	cmp	r0, #0
	beq	.LBB66_26
	ldrb	r0, [r3]
	cmp	r0, #1
	bne.w	.LBB66_35
	ldrd	r9, r8, [r3, #32]
	movs	r0, #0
	orrs.w	r2, r9, r8
	str	r3, [sp, #28]
	strb	r0, [r3, #1]
	beq	.LBB66_25
	ldr	r0, [sp, #28]
	movs	r5, #0
	ldr.w	r12, [r0, #24]
	movs	r4, #0
	b	.LBB66_6
	.p2align	2
.LBB66_5:
	adds	r5, #1
	adc	r4, r4, #0
	subs.w	r0, r5, r9
	sbcs.w	r0, r4, r8
	bhs	.LBB66_25
.LBB66_6:
	mov.w	r0, #1320
	mla	r0, r5, r0, r12
	ldr.w	lr, [r0, #1272]
	ldr.w	r2, [r0, #1276]
	str	r0, [sp, #32]
	orrs.w	r0, lr, r2
	beq	.LBB66_5
	ldr	r0, [sp, #32]
	mov	r3, lr
	ldr.w	r10, [r0, #1264]
	mov	r7, r2
	add.w	r6, r10, #28
.LBB66_8:
	ldr	r11, [r6, #-24]
	cmp	r11, r1
	bhs	.LBB66_16
	eor	r0, r3, #1
	orrs	r0, r7
	beq	.LBB66_5
	ldr	r0, [r6, #-16]
	cmp	r0, r1
	bhs	.LBB66_16
	eor	r0, r3, #2
	orrs	r0, r7
	beq	.LBB66_5
	ldr	r0, [r6, #-8]
	cmp	r0, r1
	bhs	.LBB66_16
	eor	r0, r3, #3
	orrs	r0, r7
	beq	.LBB66_5
	ldr	r0, [r6], #32
	cmp	r0, r1
	bhs	.LBB66_16
	subs	r3, #4
	sbc	r7, r7, #0
	orrs.w	r0, r3, r7
	bne	.LBB66_8
	b	.LBB66_5
.LBB66_16:
	movs	r6, #0
.LBB66_17:
	add.w	r3, r10, r6, lsl #3
	ldr	r0, [r3, #4]
	cmp	r0, r1
	bhs	.LBB66_30
	eor	r0, lr, #1
	orrs	r0, r2
	beq	.LBB66_25
	ldr	r0, [r3, #12]
	cmp	r0, r1
	bhs	.LBB66_27
	eor	r0, lr, #2
	orrs	r0, r2
	beq	.LBB66_25
	ldr	r0, [r3, #20]
	cmp	r0, r1
	bhs	.LBB66_28
	eor	r0, lr, #3
	orrs	r0, r2
	beq	.LBB66_25
	ldr	r0, [r3, #28]
	cmp	r0, r1
	bhs	.LBB66_29
	subs.w	lr, lr, #4
	sbc	r2, r2, #0
	orrs.w	r0, lr, r2
	add.w	r6, r6, #4
	bne	.LBB66_17
.LBB66_25:
	ldr	r1, [sp, #28]
	movs	r0, #1
	strb	r0, [r1, #1]
	movs	r0, #5
	add	sp, #36
	pop.w	{r4, r5, r6, r7, r8, r9, r10, r11, pc}
.LBB66_26:
	movs	r0, #0
	b	.LBB66_36
.LBB66_27:
	adds	r6, #1
	b	.LBB66_30
.LBB66_28:
	adds	r6, #2
	b	.LBB66_30
.LBB66_29:
	adds	r6, #3
.LBB66_30:
	ldr.w	r12, [sp, #32]
	ldr.w	r2, [r10, r6, lsl #3]
	ldr.w	r0, [r12, #1296]
	ldr.w	r0, [r0, r6, lsl #2]
	cmp	r0, r2
	bhs	.LBB66_34
	ldr.w	r0, [r12, #1288]
	cmp.w	r0, #1048576
	bhi	.LBB66_40
	orr	r2, r0, #16
	clz	r2, r2
	rsb.w	r2, r2, #27
	subs	r3, r0, #1
	lsr.w	r5, r3, r2
	add.w	r2, r5, r2, lsl #4
	adds	r2, #1
	subs	r2, #1
	mov.w	r3, #0
	sbc	r3, r3, #0
	lsrs	r7, r2, #4
	orr.w	r7, r7, r3, lsl #28
	add.w	lr, r12, #84
	ldr.w	r4, [lr, r7, lsl #2]
	and	r5, r5, #15
	lsr.w	r5, r4, r5
	bics	r5, r5, #1
	beq	.LBB66_37
	rbit	r7, r5
	clz	r7, r7
	adds	r2, r2, r7
	adc	r3, r3, #0
	lsrs	r7, r2, #4
	orr.w	r5, r7, r3, lsl #28
	b	.LBB66_39
.LBB66_34:
	ldr	r1, [sp, #28]
	movs	r0, #1
	strb	r0, [r1, #1]
	movs	r0, #38
	add	sp, #36
	pop.w	{r4, r5, r6, r7, r8, r9, r10, r11, pc}
.LBB66_35:
	movs	r0, #2
.LBB66_36:
	add	sp, #36
	pop.w	{r4, r5, r6, r7, r8, r9, r10, r11, lr}
	b	tlsf_c.call_fault.CallFault.refusal
.LBB66_37:
	ldr.w	r2, [r12, #80]
	adds	r3, r7, #1
	lsrs	r2, r3
	lsls	r2, r3
	beq	.LBB66_40
	rbit	r2, r2
	clz	r2, r2
	ldr.w	r3, [lr, r2, lsl #2]
	rbit	r3, r3
	clz	r3, r3
	add.w	r2, r3, r2, lsl #4
	lsrs	r5, r2, #4
.LBB66_39:
	ldrd	r9, r10, [r12, #8]
	mvn.w	r3, r9
	orn	r3, r3, r10
	cbnz	r3, .LBB66_41
.LBB66_40:
	ldr	r1, [sp, #28]
	movs	r0, #1
	strb	r0, [r1, #1]
	movs	r0, #2
	add	sp, #36
	pop.w	{r4, r5, r6, r7, r8, r9, r10, r11, pc}
.LBB66_41:
	add.w	r8, r12, #168
	ldr.w	r11, [r8, r2, lsl #2]
	ldr.w	r3, [r12, #24]
	add.w	r4, r3, r11, lsl #3
	ldr	r4, [r4, #16]
	adds	r7, r4, #1
	lsl.w	r7, r11, #3
	strd	lr, r7, [sp, #16]
	beq	.LBB66_43
	add.w	r3, r3, r4, lsl #3
	ldr	r7, [r3, #20]
	mov.w	r5, #-1
	orrs	r7, r5
	str	r7, [r3, #20]
	mov	r7, r8
	str.w	r4, [r8, r2, lsl #2]
	b	.LBB66_45
.LBB66_43:
	mov.w	r3, #-1
	str.w	r3, [r8, r2, lsl #2]
	ldr.w	r3, [lr, r5, lsl #2]
	and	r7, r2, #15
	movs	r2, #1
	lsl.w	r7, r2, r7
	bics	r3, r7
	mov	r7, r8
	str.w	r3, [lr, r5, lsl #2]
	bne	.LBB66_45
	ldr.w	r3, [r12, #80]
	lsls	r2, r5
	bic.w	r2, r3, r2
	str.w	r2, [r12, #80]
.LBB66_45:
	ldr.w	r4, [r12, #24]
	ldr	r2, [sp, #20]
	mov	r8, r12
	ldr	r3, [r4, r2]
	add.w	lr, r4, r2
	ldr.w	r12, [lr, #4]
	sub.w	r2, r3, r0, lsl #2
	cmp	r2, #15
	bhi	.LBB66_47
	subs	r0, r3, #1
	mov.w	r3, #0
	sbc	r2, r12, #0
	stm.w	lr, {r0, r2, r9, r10}
	strd	r1, r3, [lr, #16]
	lsrs	r0, r0, #2
	mov	lr, r8
	b	.LBB66_53
.LBB66_47:
	mov	r5, r11
	add	r11, r0
	subs	r3, r3, r2
	str	r7, [sp, #4]
	sbc	r7, r12, #0
	mov.w	r12, #0
	stm.w	lr, {r3, r7, r9, r10}
	add.w	r3, r4, r11, lsl #3
	strd	r1, r12, [lr, #16]
	str.w	r2, [r4, r11, lsl #3]
	str	r5, [r3, #4]
	strd	r9, r10, [r3, #8]
	ldr.w	r3, [r8, #48]
	mvn	r7, #7
	and.w	r7, r7, r11, lsr #3
	ldr.w	r12, [r3, r7]
	and	r4, r11, #63
	mov.w	lr, #1
	str	r5, [sp, #8]
	str.w	r9, [sp, #12]
	subs.w	r5, r4, #32
	lsl.w	r9, lr, r4
	str	r5, [sp]
	it	pl
	movpl.w	r9, #0
	orr.w	r5, r12, r9
	str	r5, [r3, r7]
	add	r3, r7
	ldr	r7, [r3, #4]
	rsb.w	r5, r4, #32
	lsr.w	r5, lr, r5
	ldr	r4, [sp]
	it	pl
	lslpl.w	r5, lr, r4
	orrs	r7, r5
	str	r7, [r3, #4]
	lsls	r3, r2, #30
	lsr.w	r2, r2, #2
	mov	lr, r8
	bmi	.LBB66_49
	ldr.w	r3, [lr, #24]
	add.w	r7, r2, r11
	add.w	r3, r3, r7, lsl #3
	str.w	r11, [r3, #4]
.LBB66_49:
	orr	r3, r2, #16
	clz	r3, r3
	rsb.w	r3, r3, #27
	lsr.w	r12, r2, r3
	ldr	r5, [sp, #4]
	add.w	r4, r12, r3, lsl #4
	ldr.w	r3, [r5, r4, lsl #2]
	lsl.w	r2, r11, #3
	cmp.w	r3, #-1
	str.w	r11, [r5, r4, lsl #2]
	mov.w	r5, #-1
	ble	.LBB66_51
	ldr.w	r7, [lr, #24]
	add	r2, r7
	strd	r3, r5, [r2, #16]
	add.w	r2, r7, r3, lsl #3
	str.w	r11, [r2, #20]
	b	.LBB66_52
.LBB66_51:
	ldr.w	r3, [lr, #24]
	mov.w	r8, #1
	add	r2, r3
	mov.w	r3, #-1
	strd	r3, r5, [r2, #16]
	lsrs	r2, r4, #4
	ldr.w	r3, [lr, #80]
	ldr	r5, [sp, #16]
	lsl.w	r4, r8, r2
	orrs	r3, r4
	ldr.w	r7, [r5, r2, lsl #2]
	str.w	r3, [lr, #80]
	and	r3, r12, #15
	lsl.w	r3, r8, r3
	orrs	r3, r7
	str.w	r3, [r5, r2, lsl #2]
.LBB66_52:
	ldrd	r11, r9, [sp, #8]
.LBB66_53:
	ldrd	r2, r3, [lr, #16]
	movs	r7, #0
	add	r0, r2
	cmp	r3, r0
	str.w	r0, [lr, #16]
	it	lo
	strlo.w	r0, [lr, #20]
	ldrd	r0, r2, [lr, #8]
	adds	r0, #1
	adc	r2, r2, #0
	adds	r3, r1, #1
	adc	r5, r7, #0
	cmp	r1, #0
	itt	ne
	movne	r3, r1
	movne	r5, r7
	adds.w	r1, r3, #31
	adc	r3, r5, #0
	lsrs	r1, r1, #3
	ldr.w	r4, [lr]
	orr.w	r1, r1, r3, lsl #29
	subs	r1, #3
	strd	r0, r2, [lr, #8]
	beq	.LBB66_55
	ldr.w	r0, [lr, #24]
	ldr	r2, [sp, #20]
	add	r0, r2
	adds	r0, #24
	lsls	r2, r1, #3
	movs	r1, #0
	bl	tlsf_memory_set
	ldr.w	lr, [sp, #32]
.LBB66_55:
	ldr.w	r0, [lr, #1296]
	ldr.w	r1, [r0, r6, lsl #2]
	adds	r1, #1
	str.w	r1, [r0, r6, lsl #2]
	ldr	r1, [sp, #28]
	movs	r0, #1
	strb	r0, [r1, #1]
	ldr	r0, [sp, #24]
	str	r4, [r0]
	str.w	r11, [r0, #4]
	str.w	r10, [r0, #12]
	str.w	r9, [r0, #8]
	movs	r0, #0
	add	sp, #36
	pop.w	{r4, r5, r6, r7, r8, r9, r10, r11, pc}
.Lfunc_end66:
	.size	tlsf_pools_allocate, .Lfunc_end66-tlsf_pools_allocate
	.cfi_endproc
	.section	.text.tlsf_pools_check,"ax",%progbits
	.globl	tlsf_pools_check
	.p2align	2
	.type	tlsf_pools_check,%function
	.code	16
	.thumb_func
tlsf_pools_check:
	.cfi_startproc
	push.w	{r4, r5, r6, r7, r8, r9, r10, lr}
	.cfi_def_cfa_offset 32
	.cfi_offset lr, -4
	.cfi_offset r10, -8
	.cfi_offset r9, -12
	.cfi_offset r8, -16
	.cfi_offset r7, -20
	.cfi_offset r6, -24
	.cfi_offset r5, -28
	.cfi_offset r4, -32
	mov	r5, r3
	ldrb	r3, [r0, #8]
	cmp	r3, #0
	beq	.LBB67_13
	ldr	r7, [r0]
	ldrb	r0, [r7, #1]
	cmp	r0, #0
	beq	.LBB67_13
	ldrb	r0, [r7]
	cmp	r0, #1
	bne	.LBB67_14
	mov	r4, r2
	ldrd	r0, r2, [r7, #32]
	ldrd	r8, r9, [sp, #32]
	movs	r3, #0
	subs	r0, r1, r0
	sbcs.w	r0, r3, r2
	strb	r3, [r7, #1]
	bhs	.LBB67_12
	ldr	r0, [r7, #24]
	mov.w	r2, #1320
	mla	r0, r1, r2, r0
	ldr	r6, [r0, #32]
	subs	r1, r6, #4
	cmp	r4, r1
	bhi	.LBB67_12
	ldr	r1, [r0, #48]
	mvn	r2, #7
	and.w	r2, r2, r4, lsr #3
	adds	r3, r1, r2
	ldr	r1, [r1, r2]
	ldr	r3, [r3, #4]
	and	r2, r4, #63
	lsr.w	r12, r1, r2
	rsb.w	r1, r2, #32
	lsl.w	r1, r3, r1
	orr.w	r1, r1, r12
	subs	r2, #32
	it	pl
	lsrpl.w	r1, r3, r2
	lsls	r1, r1, #31
	beq	.LBB67_12
	cbz	r5, .LBB67_17
	add.w	r10, r0, #24
	.p2align	2
.LBB67_8:
	mov	r0, r10
	mov	r1, r4
	bl	tlsf_heap.check.examine
	uxtb	r0, r0
	cmp	r0, #1
	bne	.LBB67_15
	cmp	r1, r6
	beq	.LBB67_16
	subs	r5, #1
	mov	r4, r1
	bne	.LBB67_8
	movs	r0, #0
	mov	r4, r1
	b	.LBB67_18
.LBB67_12:
	movs	r0, #1
	strb	r0, [r7, #1]
	movs	r0, #4
	pop.w	{r4, r5, r6, r7, r8, r9, r10, pc}
.LBB67_13:
	movs	r0, #0
	pop.w	{r4, r5, r6, r7, r8, r9, r10, lr}
	b	tlsf_c.call_fault.CallFault.refusal
.LBB67_14:
	movs	r0, #2
	pop.w	{r4, r5, r6, r7, r8, r9, r10, lr}
	b	tlsf_c.call_fault.CallFault.refusal
.LBB67_15:
	movs	r0, #36
	mov	r8, r9
	b	.LBB67_18
.LBB67_16:
	movs	r4, #0
.LBB67_17:
	movs	r0, #0
.LBB67_18:
	movs	r1, #1
	strb	r1, [r7, #1]
	str.w	r4, [r8]
	pop.w	{r4, r5, r6, r7, r8, r9, r10, pc}
.Lfunc_end67:
	.size	tlsf_pools_check, .Lfunc_end67-tlsf_pools_check
	.cfi_endproc
	.section	.text.tlsf_pools_close,"ax",%progbits
	.globl	tlsf_pools_close
	.p2align	2
	.type	tlsf_pools_close,%function
	.code	16
	.thumb_func
tlsf_pools_close:
	.cfi_startproc
	ldrb	r1, [r0, #8]
	cbz	r1, .LBB68_4
	ldr	r1, [r0]
	ldrb	r2, [r1, #1]
	cmp	r2, #1
	bne	.LBB68_4
	ldrb	r1, [r1]
	cmp	r1, #1
	itt	ne
	movne	r0, #40
	bxne	lr
.LBB68_3:
	push	{r7, lr}
	.cfi_def_cfa_offset 8
	.cfi_offset lr, -4
	.cfi_offset r7, -8
	bl	tlsf_c.arena_slot.ArenaSlot.close
	movs	r0, #0
	pop	{r7, pc}
.LBB68_4:
	movs	r0, #32
	bx	lr
.Lfunc_end68:
	.size	tlsf_pools_close, .Lfunc_end68-tlsf_pools_close
	.cfi_endproc
	.section	.text.tlsf_pools_counts,"ax",%progbits
	.globl	tlsf_pools_counts
	.p2align	2
	.type	tlsf_pools_counts,%function
	.code	16
	.thumb_func
tlsf_pools_counts:
	.cfi_startproc
	push.w	{r4, r5, r6, r7, r8, r9, r10, r11, lr}
	.cfi_def_cfa_offset 36
	.cfi_offset lr, -4
	.cfi_offset r11, -8
	.cfi_offset r10, -12
	.cfi_offset r9, -16
	.cfi_offset r8, -20
	.cfi_offset r7, -24
	.cfi_offset r6, -28
	.cfi_offset r5, -32
	.cfi_offset r4, -36
	sub	sp, #8
	.cfi_def_cfa_offset 44
	ldrb	r7, [r0, #8]
	cmp	r7, #0
	beq.w	.LBB69_18
	ldr	r7, [r0]
	ldrb	r0, [r7, #1]
	cmp	r0, #0
	beq.w	.LBB69_18
	ldrb	r0, [r7]
	cmp	r0, #1
	bne.w	.LBB69_19
	ldrd	lr, r10, [r7, #32]
	strd	r2, r3, [sp]
	movs	r0, #0
	orrs.w	r4, lr, r10
	mov	r2, r7
	strb	r0, [r7, #1]
	beq	.LBB69_13
	ldr.w	r9, [r2, #24]
	mov.w	r8, #1320
	movs	r7, #0
	mov.w	r11, #0
.LBB69_5:
	mla	r6, r7, r8, r9
	ldr.w	r4, [r6, #1272]
	ldr.w	r5, [r6, #1276]
	subs.w	r12, r1, r4
	sbcs.w	r3, r0, r5
	blo	.LBB69_14
	subs	r1, r1, r4
	orr	r4, r7, #1
	sbcs	r0, r5
	subs.w	r3, r4, lr
	sbcs.w	r3, r11, r10
	bhs	.LBB69_13
	mla	r6, r4, r8, r9
	ldr.w	r4, [r6, #1272]
	ldr.w	r5, [r6, #1276]
	subs	r3, r1, r4
	sbcs.w	r3, r0, r5
	blo	.LBB69_14
	subs	r1, r1, r4
	orr	r4, r7, #2
	sbcs	r0, r5
	subs.w	r3, r4, lr
	sbcs.w	r3, r11, r10
	bhs	.LBB69_13
	mla	r6, r4, r8, r9
	ldr.w	r4, [r6, #1272]
	ldr.w	r5, [r6, #1276]
	subs	r3, r1, r4
	sbcs.w	r3, r0, r5
	blo	.LBB69_14
	subs	r1, r1, r4
	orr	r4, r7, #3
	sbcs	r0, r5
	subs.w	r3, r4, lr
	sbcs.w	r3, r11, r10
	bhs	.LBB69_13
	mla	r6, r4, r8, r9
	ldr.w	r4, [r6, #1272]
	ldr.w	r5, [r6, #1276]
	subs	r3, r1, r4
	sbcs.w	r3, r0, r5
	blo	.LBB69_14
	subs	r1, r1, r4
	sbcs	r0, r5
	adds	r7, #4
	adc	r11, r11, #0
	subs.w	r3, r7, lr
	sbcs.w	r3, r11, r10
	blo	.LBB69_5
.LBB69_13:
	movs	r0, #1
	strb	r0, [r2, #1]
	movs	r0, #4
	add	sp, #8
	pop.w	{r4, r5, r6, r7, r8, r9, r10, r11, pc}
.LBB69_14:
	ldr.w	r3, [r6, #1304]
	ldr.w	r7, [r6, #1308]
	ldrd	r4, r5, [sp]
	subs	r3, r1, r3
	sbcs	r0, r7
	bhs	.LBB69_16
	ldr.w	r0, [r6, #1296]
	ldr.w	r0, [r0, r1, lsl #2]
	b	.LBB69_17
.LBB69_16:
	movs	r0, #0
.LBB69_17:
	ldr.w	r3, [r6, #1264]
	ldr.w	r1, [r3, r1, lsl #3]
	movs	r3, #1
	strb	r3, [r2, #1]
	str	r0, [r4]
	str	r1, [r5]
	movs	r0, #0
	add	sp, #8
	pop.w	{r4, r5, r6, r7, r8, r9, r10, r11, pc}
.LBB69_18:
	movs	r0, #0
	b	.LBB69_20
.LBB69_19:
	movs	r0, #2
.LBB69_20:
	add	sp, #8
	pop.w	{r4, r5, r6, r7, r8, r9, r10, r11, lr}
	b	tlsf_c.call_fault.CallFault.refusal
.Lfunc_end69:
	.size	tlsf_pools_counts, .Lfunc_end69-tlsf_pools_counts
	.cfi_endproc
	.section	.text.tlsf_pools_open,"ax",%progbits
	.globl	tlsf_pools_open
	.p2align	2
	.type	tlsf_pools_open,%function
	.code	16
	.thumb_func
tlsf_pools_open:
	.cfi_startproc
	push.w	{r4, r5, r6, r7, r8, r9, r10, r11, lr}
	.cfi_def_cfa_offset 36
	.cfi_offset lr, -4
	.cfi_offset r11, -8
	.cfi_offset r10, -12
	.cfi_offset r9, -16
	.cfi_offset r8, -20
	.cfi_offset r7, -24
	.cfi_offset r6, -28
	.cfi_offset r5, -32
	.cfi_offset r4, -36
	sub.w	sp, sp, #804
	.cfi_def_cfa_offset 840
	subs	r7, r1, #5
	it	ne
	movne	r7, r1
	ldrb	r1, [r0, #8]
	cmp	r3, #0
	it	eq
	addeq.w	r3, r3, #4096
	cbz	r1, .LBB70_2
	movs	r0, #33
	add.w	sp, sp, #804
	pop.w	{r4, r5, r6, r7, r8, r9, r10, r11, pc}
.LBB70_2:
	subs	r1, r7, #6
	cmn.w	r1, #2
	bhs	.LBB70_4
	movs	r0, #34
	add.w	sp, sp, #804
	pop.w	{r4, r5, r6, r7, r8, r9, r10, r11, pc}
.LBB70_4:
	mov	r1, r0
	cmn.w	r2, #8
	mov.w	r0, #5
	bhi.w	.LBB70_66
	ldr.w	r9, [sp, #840]
	cmp.w	r9, #64
	bhi.w	.LBB70_66
	add	r4, sp, #80
	str	r2, [sp, #60]
	str	r1, [sp, #44]
	mov	r0, r4
	movs	r1, #0
	mov.w	r2, #512
	mov	r5, r3
	bl	tlsf_memory_set
	cmp.w	r9, #0
	beq.w	.LBB70_15
	mov	r0, r5
	cmp.w	r9, #4
	and	r12, r9, #3
	bhs	.LBB70_9
	movs	r2, #0
	b	.LBB70_12
.LBB70_9:
	and	lr, r9, #124
	movs	r2, #0
	mov.w	r8, #-1
	movs	r6, #0
	.p2align	2
.LBB70_10:
	add.w	r1, r0, r2, lsl #4
	ldr	r3, [r1, #12]
	lsls	r5, r2, #4
	ldr	r1, [r1, #8]
	ldr	r5, [r0, r5]
	cmp	r3, #0
	it	ne
	movne	r1, r8
	add.w	r3, r4, r2, lsl #3
	str	r1, [r3, #4]
	orr	r1, r2, #1
	str.w	r5, [r4, r2, lsl #3]
	lsls	r3, r1, #4
	add.w	r5, r0, r1, lsl #4
	ldr	r3, [r0, r3]
	ldr	r7, [r5, #12]
	ldr	r5, [r5, #8]
	cmp	r7, #0
	it	ne
	movne	r5, r8
	add.w	r7, r4, r1, lsl #3
	str.w	r3, [r4, r1, lsl #3]
	orr	r1, r2, #2
	str	r5, [r7, #4]
	lsls	r3, r1, #4
	add.w	r5, r0, r1, lsl #4
	ldr	r3, [r0, r3]
	ldr	r7, [r5, #12]
	ldr	r5, [r5, #8]
	cmp	r7, #0
	it	ne
	movne	r5, r8
	add.w	r7, r4, r1, lsl #3
	str.w	r3, [r4, r1, lsl #3]
	orr	r1, r2, #3
	str	r5, [r7, #4]
	add.w	r5, r0, r1, lsl #4
	ldr	r7, [r5, #12]
	lsls	r3, r1, #4
	ldr	r3, [r0, r3]
	ldr	r5, [r5, #8]
	cmp	r7, #0
	it	ne
	movne	r5, r8
	adds	r2, #4
	add.w	r7, r4, r1, lsl #3
	str.w	r3, [r4, r1, lsl #3]
	adc	r6, r6, #0
	eor.w	r1, r2, lr
	orrs	r1, r6
	str	r5, [r7, #4]
	bne	.LBB70_10
	cmp.w	r12, #0
	beq	.LBB70_15
.LBB70_12:
	add.w	r3, r0, r2, lsl #4
	ldr	r7, [r3, #12]
	lsls	r1, r2, #4
	ldr	r1, [r0, r1]
	ldr	r6, [r3, #8]
	cmp	r7, #0
	mov.w	r3, #-1
	it	ne
	movne	r6, r3
	add.w	r7, r4, r2, lsl #3
	cmp.w	r12, #1
	str.w	r1, [r4, r2, lsl #3]
	str	r6, [r7, #4]
	beq	.LBB70_15
	adds	r1, r2, #1
	add.w	r6, r0, r1, lsl #4
	ldr	r5, [r6, #12]
	lsls	r7, r1, #4
	ldr	r7, [r0, r7]
	ldr	r6, [r6, #8]
	cmp	r5, #0
	it	eq
	moveq	r3, r6
	add.w	r6, r4, r1, lsl #3
	cmp.w	r12, #2
	str.w	r7, [r4, r1, lsl #3]
	str	r3, [r6, #4]
	beq	.LBB70_15
	adds	r1, r2, #2
	lsls	r2, r1, #4
	add.w	r3, r0, r1, lsl #4
	ldr	r0, [r0, r2]
	ldr	r2, [r3, #12]
	ldr	r3, [r3, #8]
	cmp	r2, #0
	add.w	r2, r4, r1, lsl #3
	it	ne
	movne.w	r3, #-1
	str.w	r0, [r4, r1, lsl #3]
	str	r3, [r2, #4]
.LBB70_15:
	add	r4, sp, #592
	mov	r0, r4
	movs	r1, #0
	movs	r2, #88
	bl	tlsf_memory_set
	add	r1, sp, #80
	mov	r0, r4
	mov	r2, r9
	movs	r3, #0
	bl	tlsf_pool.sizes.split.rising_split.4
	ldrb.w	r0, [sp, #592]
	cmp	r0, #1
	bne.w	.LBB70_88
	add.w	r1, r4, #8
	add	r4, sp, #680
	mov	r0, r4
	movs	r2, #80
	bl	tlsf_memory_cpy
	ldrd	r8, r10, [sp, #680]
	add	r5, sp, #800
	orrs.w	r0, r8, r10
	beq.w	.LBB70_63
	movw	r0, #6355
	movt	r0, #36144
	subs.w	r0, r0, r8
	movw	r0, #54017
	movt	r0, #24
	sbcs.w	r0, r0, r10
	blo.w	.LBB70_89
	mov.w	r2, #1320
	umull	r1, r0, r8, r2
	mla	r0, r10, r2, r0
	movs	r2, #8
	cmp	r0, #0
	mov.w	r0, #-1
	it	ne
	movne	r1, r0
	add	r0, sp, #784
	bl	tlsf_memory_alloc
	ldr	r0, [sp, #784]
	lsls	r0, r0, #31
	beq.w	.LBB70_89
	ldr	r1, [sp, #792]
	add.w	r0, r4, #8
	movs	r2, #0
	str	r0, [sp, #12]
	add	r6, sp, #80
	add.w	r11, sp, #784
	movs	r0, #0
	movs	r7, #0
	movs	r4, #0
	movs	r5, #0
	str	r1, [sp, #40]
	strd	r1, r2, [sp, #760]
	strd	r2, r2, [sp, #768]
	strd	r8, r10, [sp, #776]
	str	r0, [sp, #76]
	str	r0, [sp, #68]
	strd	r10, r8, [sp, #4]
	b	.LBB70_21
.LBB70_20:
	ldr	r6, [sp, #52]
	subs.w	r9, r9, r7
	add.w	r6, r6, r7, lsl #3
	ldr	r7, [sp, #36]
	ldr	r0, [sp, #72]
	ldr.w	r10, [sp, #4]
	sbcs	r7, r0
	adds	r4, #1
	adc	r5, r5, #0
	subs.w	r0, r4, r8
	sbcs.w	r0, r5, r10
	ldr	r0, [sp, #24]
	str	r0, [sp, #76]
	bhs.w	.LBB70_68
.LBB70_21:
	mvns	r0, r4
	ldr	r2, [sp, #12]
	add	r0, r8
	add.w	r1, r2, r0, lsl #3
	ldr.w	r2, [r2, r0, lsl #3]
	ldr	r3, [r1, #4]
	subs.w	r0, r9, r2
	sbcs.w	r0, r7, r3
	mov	r0, r6
	itt	lo
	movlo	r3, r7
	movlo	r2, r9
	str	r6, [sp, #52]
	str	r2, [sp, #64]
	str	r3, [sp, #72]
	bl	tlsf_pool.sizes.region.region_words.4
	uxtb	r0, r0
	cmp	r0, #1
	bne.w	.LBB70_91
	mvn	r0, #1048576
	mov	r6, r1
	add	r0, r1
	movs	r1, #3
	movt	r1, #65520
	cmp	r0, r1
	mov.w	r0, #0
	it	lo
	movlo	r0, #1
	str	r0, [sp, #20]
	blo.w	.LBB70_73
	lsls	r1, r6, #3
	mov	r0, r11
	movs	r2, #8
	bl	tlsf_memory_alloc
	ldr	r0, [sp, #784]
	lsls	r0, r0, #31
	beq.w	.LBB70_73
	add.w	r0, r6, #63
	strd	r5, r7, [sp, #32]
	ldr.w	r8, [sp, #792]
	lsrs	r7, r0, #6
	movs	r5, #0
	lsls	r1, r7, #3
	mov	r0, r11
	movs	r2, #8
	str	r4, [sp, #48]
	strd	r5, r5, [r8]
	strd	r5, r5, [r8, #8]
	strd	r5, r5, [r8, #16]
	strd	r5, r5, [r8, #24]
	bl	tlsf_memory_alloc
	ldr	r0, [sp, #784]
	lsls	r0, r0, #31
	beq.w	.LBB70_72
	ldr	r4, [sp, #792]
	movs	r0, #19
	mov.w	r11, #-1
	strd	r5, r5, [r4]
	str.w	r0, [r8]
	strd	r11, r5, [r8, #4]
	str.w	r5, [r8, #12]
	ldr	r0, [r4]
	str	r6, [sp, #56]
	orr	r0, r0, #1
	str	r0, [r4]
	ldrd	r0, r1, [sp, #776]
	ldr	r3, [sp, #76]
	ldr	r6, [sp, #68]
	eors	r0, r3
	eors	r1, r6
	orrs	r0, r1
	strd	r11, r11, [r8, #16]
	beq.w	.LBB70_61
.LBB70_26:
	ldr	r0, [sp, #60]
	ldr	r1, [sp, #48]
	mov.w	r2, #1320
	add	r0, r1
	mul	r1, r3, r2
	mov	r5, r3
	ldr	r3, [sp, #40]
	str.w	r9, [sp, #28]
	mla	r9, r5, r2, r3
	str	r0, [r3, r1]
	movs	r0, #1
	ldr	r1, [sp, #56]
	str.w	r0, [r9, #8]
	movs	r2, #4
	str.w	r0, [r9, #56]
	str.w	r0, [r9, #80]
	movs	r0, #16
	mov.w	r10, #0
	str.w	r2, [r9, #32]
	str.w	r1, [r9, #40]
	str.w	r4, [r9, #48]
	str.w	r2, [r9, #72]
	mov	r4, r2
	str.w	r0, [r9, #84]
	add.w	r0, r9, #88
	movs	r1, #0
	movs	r2, #80
	str.w	r10, [r9, #12]
	str.w	r10, [r9, #16]
	str.w	r10, [r9, #20]
	str.w	r8, [r9, #24]
	str.w	r10, [r9, #28]
	str.w	r10, [r9, #36]
	str.w	r10, [r9, #44]
	str.w	r10, [r9, #52]
	str.w	r10, [r9, #60]
	str.w	r10, [r9, #68]
	str.w	r7, [r9, #64]
	str.w	r10, [r9, #76]
	bl	tlsf_memory_set
	add.w	r0, r9, #188
	movs	r1, #255
	mov.w	r2, #1072
	str.w	r11, [r9, #168]
	str.w	r11, [r9, #172]
	str.w	r11, [r9, #176]
	str.w	r11, [r9, #180]
	str.w	r10, [r9, #184]
	bl	tlsf_memory_set
	add.w	r8, sp, #800
	adds	r0, r5, #1
	str.w	r8, [r9, #1264]
	str.w	r10, [r9, #1268]
	str.w	r10, [r9, #1272]
	str.w	r10, [r9, #1276]
	str.w	r10, [r9, #1280]
	str.w	r10, [r9, #1284]
	str.w	r4, [r9, #1288]
	str.w	r10, [r9, #1292]
	str.w	r8, [r9, #1296]
	str.w	r10, [r9, #1300]
	str.w	r10, [r9, #1304]
	str.w	r10, [r9, #1308]
	str.w	r10, [r9, #1312]
	str.w	r10, [r9, #1316]
	mov	r9, r0
	ldr	r0, [sp, #64]
	ldr	r2, [sp, #72]
	adc	r6, r6, #0
	orrs	r0, r2
	str	r6, [sp, #772]
	str.w	r9, [sp, #768]
	str	r6, [sp, #68]
	str.w	r9, [sp, #24]
	beq	.LBB70_32
	mov.w	r11, #0
	cmp.w	r11, r2, lsr #28
	bne.w	.LBB70_69
	ldr	r4, [sp, #64]
	lsls	r0, r2, #3
	add	r6, sp, #784
	mov	r7, r2
	orrs.w	r5, r0, r4, lsr #29
	mov.w	r1, #-1
	mov	r0, r6
	mov.w	r2, #4
	it	eq
	lsleq	r1, r4, #3
	bl	tlsf_memory_alloc
	ldr	r0, [sp, #784]
	lsls	r0, r0, #31
	beq.w	.LBB70_70
	ldr.w	r8, [sp, #792]
	ldr	r1, [sp, #52]
	lsls	r2, r4, #3
	subs.w	r0, r8, r1
	sbc	r3, r11, #0
	subs	r0, r0, r2
	sbcs.w	r0, r3, r5
	mov	r0, r8
	it	lo
	lsllo	r2, r4, #3
	bl	tlsf_memory_cpy
	lsls	r0, r7, #2
	orrs.w	r0, r0, r4, lsr #30
	mov.w	r1, #-1
	mov	r0, r6
	mov.w	r2, #4
	it	eq
	lsleq	r1, r4, #2
	bl	tlsf_memory_alloc
	ldr	r0, [sp, #784]
	lsls	r0, r0, #31
	beq.w	.LBB70_71
	subs.w	r9, r4, #1
	ldr.w	r10, [sp, #792]
	sbc	r6, r7, #0
	orrs.w	r0, r9, r6
	mov.w	r7, #0
	beq	.LBB70_33
	mvn	r0, #3
	add.w	r2, r0, r4, lsl #2
	mov	r0, r10
	movs	r1, #0
	bl	tlsf_memory_set
	b	.LBB70_34
.LBB70_32:
	movs	r0, #0
	ldr	r3, [sp, #56]
	strd	r0, r8, [sp, #16]
	movs	r7, #0
	mov.w	r11, #0
	b	.LBB70_55
.LBB70_33:
	mov.w	r9, #0
	movs	r6, #0
.LBB70_34:
	subs	r0, r4, #4
	ldr	r0, [sp, #72]
	ldrd	r5, r3, [sp, #52]
	and	r12, r4, #3
	sbcs	r0, r0, #0
	mov.w	r1, #0
	str.w	r7, [r10, r9, lsl #2]
	blo	.LBB70_46
	ldr	r0, [sp, #72]
	mov	lr, r6
	bic	r2, r4, #3
	bic	r3, r0, #-268435456
	movs	r7, #0
	movs	r0, #0
	b	.LBB70_37
	.p2align	2
.LBB70_36:
	adds	r1, #4
	adc	r0, r0, #0
	eor.w	r6, r1, r2
	eor.w	r4, r0, r3
	orrs	r6, r4
	beq	.LBB70_45
.LBB70_37:
	ldr.w	r4, [r5, r1, lsl #3]
	cmp	r4, #0
	add.w	r4, r5, r1, lsl #3
	beq	.LBB70_39
	ldr	r6, [r4, #4]
	cmp	r6, r7
	it	hi
	movhi	r7, r6
.LBB70_39:
	ldr	r6, [r4, #8]
	cbz	r6, .LBB70_41
	ldr	r6, [r4, #12]
	cmp	r6, r7
	it	hi
	movhi	r7, r6
.LBB70_41:
	ldr	r6, [r4, #16]
	cbz	r6, .LBB70_43
	ldr	r6, [r4, #20]
	cmp	r6, r7
	it	hi
	movhi	r7, r6
.LBB70_43:
	ldr	r6, [r4, #24]
	cmp	r6, #0
	beq	.LBB70_36
	ldr	r6, [r4, #28]
	cmp	r6, r7
	it	hi
	movhi	r7, r6
	b	.LBB70_36
.LBB70_45:
	ldr	r3, [sp, #56]
	cmp.w	r12, #0
	mov	r6, lr
	beq	.LBB70_54
.LBB70_46:
	ldr.w	r0, [r5, r1, lsl #3]
	cmp	r0, #0
	add.w	r0, r5, r1, lsl #3
	beq	.LBB70_48
	ldr	r1, [r0, #4]
	cmp	r1, r7
	it	hi
	movhi	r7, r1
.LBB70_48:
	cmp.w	r12, #1
	beq	.LBB70_54
	ldr	r1, [r0, #8]
	cbz	r1, .LBB70_51
	ldr	r1, [r0, #12]
	cmp	r1, r7
	it	hi
	movhi	r7, r1
.LBB70_51:
	cmp.w	r12, #2
	beq	.LBB70_54
	ldr	r1, [r0, #16]
	cbz	r1, .LBB70_54
	ldr	r0, [r0, #20]
	cmp	r0, r7
	it	hi
	movhi	r7, r0
.LBB70_54:
	str.w	r10, [sp, #20]
	adds.w	r10, r9, #1
	ldr	r2, [sp, #72]
	adc	r0, r6, #0
	str	r0, [sp, #16]
.LBB70_55:
	adds	r0, r7, #1
	adc	r1, r11, #0
	cmp	r7, #0
	itt	ne
	movne	r0, r7
	movne	r1, r11
	adds	r0, #31
	adc	r1, r1, #0
	lsrs	r0, r0, #3
	orr.w	r0, r0, r1, lsl #29
	orr	r1, r0, #16
	clz	r1, r1
	rsb.w	r1, r1, #27
	subs	r0, #1
	lsrs	r0, r1
	adds	r0, #1
	add.w	r4, r0, r1, lsl #4
	movs	r5, #0
	mov	r7, r2
	lsrs	r1, r4, #4
	beq	.LBB70_57
	movs	r2, #8
	lsls	r2, r1
	and	r0, r0, #15
	subs	r1, #1
	lsls	r0, r1
	adds	r4, r0, r2
.LBB70_57:
	ldr	r0, [sp, #76]
	ldr	r2, [sp, #40]
	mov.w	r1, #1320
	mla	r9, r0, r1, r2
	mov	r1, r3
	mov	r0, r9
	bl	tlsf_heap.heap.Heap.begin.4
	ldr	r3, [sp, #20]
	ldr.w	r12, [r9, #1280]
	ldr.w	r1, [r9, #1284]
	ldr.w	r0, [r9, #1264]
	ldr.w	r6, [r9, #1296]
	ldr.w	lr, [r9, #1316]
	ldr.w	r11, [r9, #1312]
	mov	r2, r7
	str.w	r7, [r9, #1276]
	ldr	r7, [sp, #64]
	str.w	r3, [r9, #1296]
	ldr	r3, [sp, #16]
	orrs.w	r1, r1, r12
	str.w	r8, [r9, #1264]
	str.w	r5, [r9, #1268]
	str.w	r7, [r9, #1272]
	str.w	r7, [r9, #1280]
	str.w	r2, [r9, #1284]
	str.w	r4, [r9, #1288]
	str.w	r5, [r9, #1292]
	str.w	r5, [r9, #1300]
	str.w	r3, [r9, #1308]
	str.w	r10, [r9, #1304]
	str.w	r7, [r9, #1312]
	str.w	r2, [r9, #1316]
	beq	.LBB70_59
	mov	r4, lr
	bl	tlsf_memory_dealloc
	mov	lr, r4
.LBB70_59:
	ldr.w	r9, [sp, #28]
	ldr.w	r8, [sp, #8]
	ldr	r4, [sp, #48]
	ldr	r5, [sp, #32]
	orrs.w	r0, r11, lr
	add.w	r11, sp, #784
	beq.w	.LBB70_20
	mov	r0, r6
	bl	tlsf_memory_dealloc
	b	.LBB70_20
.LBB70_61:
	add	r0, sp, #760
	bl	std_alloc.vec.Vec.grow_amortized.8f83c87fc5454f35
	cmp	r0, #0
	beq.w	.LBB70_90
	ldr	r0, [sp, #760]
	ldrd	r3, r6, [sp, #768]
	str	r0, [sp, #40]
	b	.LBB70_26
.LBB70_63:
	mov.w	r8, #0
	mov.w	r9, #0
	movs	r6, #0
	movs	r7, #0
	movs	r4, #0
.LBB70_64:
	add	r0, sp, #592
	mov.w	r1, #1288
	movs	r2, #8
	bl	tlsf_memory_alloc
	ldr	r0, [sp, #592]
	lsls	r0, r0, #31
	beq	.LBB70_67
	ldr	r2, [sp, #600]
	ldr	r1, [sp, #60]
	movw	r0, #257
	str	r1, [r2, #16]
	ldr	r1, [sp, #44]
	strh	r0, [r2]
	movs	r0, #0
	str	r0, [r2, #12]
	str	r0, [r2, #8]
	str	r0, [r2, #20]
	str	r5, [r2, #24]
	str	r4, [r2, #28]
	str	r6, [r2, #32]
	str	r7, [r2, #36]
	str.w	r9, [r2, #40]
	str.w	r8, [r2, #44]
	str	r2, [r1]
	movs	r2, #1
	str	r0, [r1, #4]
	strb	r2, [r1, #8]
	str.w	r0, [r1, #9]
	str	r0, [r1, #12]
.LBB70_66:
	add.w	sp, sp, #804
	pop.w	{r4, r5, r6, r7, r8, r9, r10, r11, pc}
.LBB70_67:
	add	r0, sp, #88
	stm.w	r0, {r6, r7, r9}
	add	r0, sp, #80
	strd	r5, r4, [sp, #80]
	str.w	r8, [sp, #100]
	bl	std_alloc.vec.Vec.drop.01e19ae241269710
	b	.LBB70_89
.LBB70_68:
	add.w	r9, sp, #768
	ldrd	r5, r4, [sp, #760]
	ldm.w	r9, {r6, r7, r9}
	ldr.w	r8, [sp, #780]
	b	.LBB70_64
.LBB70_69:
	str.w	r9, [sp, #76]
	b	.LBB70_74
.LBB70_70:
	str.w	r9, [sp, #76]
	b	.LBB70_73
.LBB70_71:
	str.w	r9, [sp, #76]
.LBB70_72:
	mov	r0, r8
	bl	tlsf_memory_dealloc
	movs	r0, #0
	str	r0, [sp, #20]
.LBB70_73:
	ldr	r6, [sp, #68]
.LBB70_74:
	ldr	r0, [sp, #760]
	str	r0, [sp, #56]
	ldr	r0, [sp, #776]
	str	r0, [sp, #52]
	ldr	r0, [sp, #780]
	str	r0, [sp, #48]
	ldr	r0, [sp, #76]
	orrs	r0, r6
	beq	.LBB70_85
	movs	r4, #0
	mov.w	r10, #0
	str	r6, [sp, #68]
	b	.LBB70_77
.LBB70_76:
	ldr	r0, [sp, #76]
	adds	r4, #1
	ldr	r6, [sp, #68]
	adc	r10, r10, #0
	subs	r0, r4, r0
	sbcs.w	r0, r10, r6
	bhs	.LBB70_85
.LBB70_77:
	ldr	r0, [sp, #56]
	mov.w	r1, #1320
	mla	r0, r4, r1, r0
	ldr.w	r3, [r0, #1264]
	ldr	r1, [r0, #40]
	str	r3, [sp, #60]
	ldr.w	r3, [r0, #1296]
	ldr	r2, [r0, #44]
	ldr	r5, [r0, #48]
	ldr	r6, [r0, #64]
	ldr	r7, [r0, #68]
	ldr.w	r11, [r0, #1284]
	ldr.w	r9, [r0, #1280]
	str	r3, [sp, #64]
	ldr.w	r3, [r0, #1316]
	ldr.w	r8, [r0, #1312]
	orrs	r1, r2
	str	r3, [sp, #72]
	beq	.LBB70_79
	ldr	r0, [r0, #24]
	bl	tlsf_memory_dealloc
.LBB70_79:
	orrs.w	r0, r6, r7
	beq	.LBB70_81
	mov	r0, r5
	bl	tlsf_memory_dealloc
.LBB70_81:
	orrs.w	r0, r9, r11
	beq	.LBB70_83
	ldr	r0, [sp, #60]
	bl	tlsf_memory_dealloc
.LBB70_83:
	ldr	r0, [sp, #72]
	orrs.w	r0, r0, r8
	beq	.LBB70_76
	ldr	r0, [sp, #64]
	bl	tlsf_memory_dealloc
	b	.LBB70_76
.LBB70_85:
	ldrd	r1, r0, [sp, #48]
	orrs	r0, r1
	beq	.LBB70_87
	ldr	r0, [sp, #56]
	bl	tlsf_memory_dealloc
.LBB70_87:
	ldr	r0, [sp, #20]
	cbz	r0, .LBB70_89
.LBB70_88:
	movs	r0, #5
	add.w	sp, sp, #804
	pop.w	{r4, r5, r6, r7, r8, r9, r10, r11, pc}
.LBB70_89:
	movs	r0, #6
	add.w	sp, sp, #804
	pop.w	{r4, r5, r6, r7, r8, r9, r10, r11, pc}
.LBB70_90:
	mov	r0, r8
	bl	tlsf_memory_dealloc
	ldr	r0, [sp, #768]
	mov	r8, r4
	str	r0, [sp, #76]
	ldr	r0, [sp, #772]
	str	r0, [sp, #68]
	b	.LBB70_72
.LBB70_91:
	.inst.n	0xdefe
.Lfunc_end70:
	.size	tlsf_pools_open, .Lfunc_end70-tlsf_pools_open
	.cfi_endproc
	.section	.text.tlsf_pools_part,"ax",%progbits
	.globl	tlsf_pools_part
	.p2align	2
	.type	tlsf_pools_part,%function
	.code	16
	.thumb_func
tlsf_pools_part:
	.cfi_startproc
	push	{r4, r5, r6, r7, lr}
	.cfi_def_cfa_offset 20
	.cfi_offset lr, -4
	.cfi_offset r7, -8
	.cfi_offset r6, -12
	.cfi_offset r5, -16
	.cfi_offset r4, -20
	sub	sp, #4
	.cfi_def_cfa_offset 24
	ldrb	r5, [r0, #8]
	ldr	r7, [r2]
	cbz	r5, .LBB71_6
	ldr	r0, [r0]
	ldrb	r5, [r0, #1]
	cbz	r5, .LBB71_6
	ldrb	r5, [r0]
	cmp	r5, #1
	bne	.LBB71_7
	ldrd	r5, r4, [r0, #32]
	movs	r6, #0
	subs	r5, r1, r5
	sbcs.w	r5, r6, r4
	strb	r6, [r0, #1]
	bhs	.LBB71_5
	ldr	r7, [r0, #24]
	mov.w	r6, #1320
	mul	r5, r1, r6
	mla	r1, r1, r6, r7
	ldr	r6, [r7, r5]
	ldr	r7, [r1, #24]
	movs	r1, #1
	strb	r1, [r0, #1]
	str	r6, [r3]
	movs	r0, #0
	b	.LBB71_9
.LBB71_5:
	movs	r1, #1
	strb	r1, [r0, #1]
	movs	r0, #4
	b	.LBB71_9
.LBB71_6:
	movs	r0, #0
	b	.LBB71_8
.LBB71_7:
	movs	r0, #2
.LBB71_8:
	mov	r5, r2
	bl	tlsf_c.call_fault.CallFault.refusal
	mov	r2, r5
.LBB71_9:
	str	r7, [r2]
	add	sp, #4
	pop	{r4, r5, r6, r7, pc}
.Lfunc_end71:
	.size	tlsf_pools_part, .Lfunc_end71-tlsf_pools_part
	.cfi_endproc
	.section	.text.tlsf_pools_place,"ax",%progbits
	.globl	tlsf_pools_place
	.p2align	2
	.type	tlsf_pools_place,%function
	.code	16
	.thumb_func
tlsf_pools_place:
	.cfi_startproc
	push.w	{r4, r5, r6, r7, r8, r9, lr}
	.cfi_def_cfa_offset 28
	.cfi_offset lr, -4
	.cfi_offset r9, -8
	.cfi_offset r8, -12
	.cfi_offset r7, -16
	.cfi_offset r6, -20
	.cfi_offset r5, -24
	.cfi_offset r4, -28
	ldrb	r5, [r0, #8]
	cmp	r5, #0
	beq	.LBB72_9
	ldr	r0, [r0]
	ldrb	r5, [r0, #1]
	cmp	r5, #0
	beq	.LBB72_9
	ldrb	r5, [r0]
	cmp	r5, #1
	bne	.LBB72_10
	ldrd	r5, r4, [r0, #32]
	ldr.w	r12, [sp, #28]
	mov.w	lr, #0
	subs	r5, r1, r5
	sbcs.w	r4, lr, r4
	strb.w	lr, [r0, #1]
	bhs	.LBB72_8
	ldr.w	lr, [r0, #24]
	mov.w	r8, #1320
	mla	r5, r1, r8, lr
	ldr	r6, [r5, #32]
	cmp	r2, r6
	bhs	.LBB72_8
	ldr	r6, [r5, #48]
	mvn	r7, #7
	and.w	r7, r7, r2, lsr #3
	adds	r4, r6, r7
	ldr	r6, [r6, r7]
	ldr	r4, [r4, #4]
	and	r7, r2, #63
	lsr.w	r9, r6, r7
	rsb.w	r6, r7, #32
	lsl.w	r6, r4, r6
	orr.w	r6, r6, r9
	subs	r7, #32
	it	pl
	lsrpl.w	r6, r4, r7
	lsls	r4, r6, #31
	beq	.LBB72_8
	ldr	r5, [r5, #24]
	ldrb.w	r4, [r5, r2, lsl #3]
	lsls	r4, r4, #31
	bne	.LBB72_8
	mul	r1, r1, r8
	add.w	r7, r5, r2, lsl #3
	ldr.w	r1, [lr, r1]
	ldrd	r6, r5, [r7, #8]
	ldr	r7, [r7, #16]
	movs	r4, #1
	strb	r4, [r0, #1]
	movs	r0, #0
	str	r1, [r3]
	str	r2, [r3, #4]
	str	r5, [r3, #12]
	str	r6, [r3, #8]
	str.w	r7, [r12]
	pop.w	{r4, r5, r6, r7, r8, r9, pc}
.LBB72_8:
	movs	r1, #1
	strb	r1, [r0, #1]
	movs	r0, #4
	pop.w	{r4, r5, r6, r7, r8, r9, pc}
.LBB72_9:
	movs	r0, #0
	pop.w	{r4, r5, r6, r7, r8, r9, lr}
	b	tlsf_c.call_fault.CallFault.refusal
.LBB72_10:
	movs	r0, #2
	pop.w	{r4, r5, r6, r7, r8, r9, lr}
	b	tlsf_c.call_fault.CallFault.refusal
.Lfunc_end72:
	.size	tlsf_pools_place, .Lfunc_end72-tlsf_pools_place
	.cfi_endproc
	.section	.text.tlsf_pools_read,"ax",%progbits
	.globl	tlsf_pools_read
	.p2align	2
	.type	tlsf_pools_read,%function
	.code	16
	.thumb_func
tlsf_pools_read:
	.cfi_startproc
	push.w	{r4, r5, r6, r7, r8, r9, r10, r11, lr}
	.cfi_def_cfa_offset 36
	.cfi_offset lr, -4
	.cfi_offset r11, -8
	.cfi_offset r10, -12
	.cfi_offset r9, -16
	.cfi_offset r8, -20
	.cfi_offset r7, -24
	.cfi_offset r6, -28
	.cfi_offset r5, -32
	.cfi_offset r4, -36
	sub	sp, #12
	.cfi_def_cfa_offset 48
	ldr.w	r12, [sp, #60]
	ldrb	r1, [r0, #8]
	cmp.w	r12, #0
	it	eq
	addeq.w	r12, r12, #4096
	cmp	r1, #0
	beq	.LBB73_13
	ldr	r4, [r0]
	ldrb	r0, [r4, #1]
	cmp	r0, #0
	beq	.LBB73_13
	ldrb	r0, [r4]
	cmp	r0, #1
	bne	.LBB73_16
	add.w	lr, sp, #48
	ldr	r0, [r4, #16]
	ldr.w	r8, [sp, #64]
	ldm.w	lr, {r10, r11, lr}
	movs	r1, #0
	cmp	r2, r0
	strb	r1, [r4, #1]
	blo	.LBB73_12
	ldrd	r5, r6, [r4, #32]
	subs	r0, r2, r0
	subs	r5, r0, r5
	sbcs	r1, r6
	bhs	.LBB73_12
	ldr	r5, [r4, #24]
	mov.w	r9, #1320
	mul	r1, r0, r9
	ldr	r1, [r5, r1]
	cmp	r1, r2
	bne	.LBB73_15
	mla	r0, r0, r9, r5
	ldr	r1, [r0, #32]
	cmp	r3, r1
	mov	r1, r2
	bhs	.LBB73_15
	ldr	r1, [r0, #48]
	mvn	r5, #7
	and.w	r5, r5, r3, lsr #3
	adds	r6, r1, r5
	ldr	r6, [r6, #4]
	ldr	r1, [r1, r5]
	and	r5, r3, #63
	rsb.w	r7, r5, #32
	lsrs	r1, r5
	lsl.w	r7, r6, r7
	orrs	r1, r7
	subs	r5, #32
	it	pl
	lsrpl.w	r1, r6, r5
	lsls	r1, r1, #31
	mov	r1, r2
	beq	.LBB73_15
	adds	r0, #24
	ldr	r5, [r0]
	ldrb.w	r1, [r5, r3, lsl #3]
	lsls	r1, r1, #31
	mov	r1, r2
	bne	.LBB73_15
	add.w	r5, r5, r3, lsl #3
	ldrd	r1, r6, [r5, #8]
	eor.w	r6, r6, r11
	eor.w	r1, r1, r10
	orrs	r1, r6
	mov	r1, r2
	bne	.LBB73_15
	ldr	r2, [r5, #16]
	adds.w	r5, r8, lr
	mov.w	r1, #0
	adc	r6, r1, #0
	subs	r2, r2, r5
	sbcs.w	r2, r1, r6
	bhs	.LBB73_14
	movs	r0, #1
	strb	r0, [r4, #1]
	movs	r0, #7
	add	sp, #12
	pop.w	{r4, r5, r6, r7, r8, r9, r10, r11, pc}
.LBB73_12:
	movs	r0, #1
	strb	r0, [r4, #1]
	movs	r0, #3
	add	sp, #12
	pop.w	{r4, r5, r6, r7, r8, r9, r10, r11, pc}
.LBB73_13:
	movs	r0, #0
	b	.LBB73_17
.LBB73_14:
	mov	r5, r1
	mov	r1, r3
	mov	r2, lr
	mov	r3, r12
	strd	r8, r5, [sp]
	bl	tlsf_heap.region.Region.read.4
	movs	r1, #1
	mov	r0, r5
	strb	r1, [r4, #1]
	add	sp, #12
	pop.w	{r4, r5, r6, r7, r8, r9, r10, r11, pc}
.LBB73_15:
	mov	r0, r2
	bl	tlsf_heap.refusal.Refusal.of_name
	uxtb	r0, r0
	movs	r1, #1
	cmp	r0, #3
	mov.w	r0, #3
	strb	r1, [r4, #1]
	it	eq
	moveq	r0, #4
	add	sp, #12
	pop.w	{r4, r5, r6, r7, r8, r9, r10, r11, pc}
.LBB73_16:
	movs	r0, #2
.LBB73_17:
	add	sp, #12
	pop.w	{r4, r5, r6, r7, r8, r9, r10, r11, lr}
	b	tlsf_c.call_fault.CallFault.refusal
.Lfunc_end73:
	.size	tlsf_pools_read, .Lfunc_end73-tlsf_pools_read
	.cfi_endproc
	.section	.text.tlsf_pools_release,"ax",%progbits
	.globl	tlsf_pools_release
	.p2align	2
	.type	tlsf_pools_release,%function
	.code	16
	.thumb_func
tlsf_pools_release:
	.cfi_startproc
	push.w	{r4, r5, r6, r7, r8, r9, r10, r11, lr}
	.cfi_def_cfa_offset 36
	.cfi_offset lr, -4
	.cfi_offset r11, -8
	.cfi_offset r10, -12
	.cfi_offset r9, -16
	.cfi_offset r8, -20
	.cfi_offset r7, -24
	.cfi_offset r6, -28
	.cfi_offset r5, -32
	.cfi_offset r4, -36
	sub	sp, #36
	.cfi_def_cfa_offset 72
	ldrb	r1, [r0, #8]
	cmp	r1, #0
	beq	.LBB74_14
	ldr	r4, [r0]
	ldrb	r0, [r4, #1]
	cmp	r0, #0
	beq	.LBB74_14
	ldrb	r0, [r4]
	cmp	r0, #1
	bne	.LBB74_17
	ldr	r0, [r4, #16]
	ldrd	r7, r8, [sp, #72]
	movs	r1, #0
	cmp	r2, r0
	strb	r1, [r4, #1]
	blo	.LBB74_13
	ldrd	r6, r5, [r4, #32]
	subs	r0, r2, r0
	subs	r6, r0, r6
	sbcs	r1, r5
	bhs	.LBB74_13
	ldr	r6, [r4, #24]
	mov.w	r12, #1320
	mul	r1, r0, r12
	ldr	r1, [r6, r1]
	cmp	r1, r2
	bne	.LBB74_16
	mla	r9, r0, r12, r6
	mov	r1, r2
	ldr.w	r0, [r9, #32]
	cmp	r3, r0
	bhs	.LBB74_16
	ldr.w	r0, [r9, #48]
	mvn	r1, #7
	and.w	r1, r1, r3, lsr #3
	adds	r6, r0, r1
	ldr	r6, [r6, #4]
	ldr	r0, [r0, r1]
	and	r1, r3, #63
	rsb.w	r5, r1, #32
	lsrs	r0, r1
	lsl.w	r5, r6, r5
	orrs	r0, r5
	subs	r1, #32
	it	pl
	lsrpl.w	r0, r6, r1
	lsls	r0, r0, #31
	mov	r1, r2
	beq	.LBB74_16
	add.w	r0, r9, #24
	ldr	r6, [r0]
	ldr.w	lr, [r6, r3, lsl #3]
	lsls.w	r1, lr, #31
	mov	r1, r2
	bne	.LBB74_16
	add.w	r10, r6, r3, lsl #3
	ldrd	r1, r5, [r10, #8]
	eor.w	r5, r5, r8
	eors	r1, r7
	orrs	r1, r5
	mov	r1, r2
	bne	.LBB74_16
	ldrd	r7, r1, [r9, #8]
	and.w	r2, r7, r1
	adds	r2, #1
	beq	.LBB74_15
	ldr.w	r2, [r9, #16]
	ldr.w	r11, [r10, #4]
	ldr.w	r8, [r10, #16]
	lsr.w	r0, lr, #2
	sub.w	r2, r2, lr, lsr #2
	lsls.w	r5, lr, #30
	str.w	r2, [r9, #16]
	bmi	.LBB74_19
	adds	r2, r0, r3
	add.w	r5, r6, r2, lsl #3
	ldr.w	r2, [r6, r2, lsl #3]
	ldr	r5, [r5, #4]
	b	.LBB74_20
.LBB74_13:
	movs	r0, #1
	strb	r0, [r4, #1]
	movs	r0, #3
	add	sp, #36
	pop.w	{r4, r5, r6, r7, r8, r9, r10, r11, pc}
.LBB74_14:
	movs	r0, #0
	b	.LBB74_18
.LBB74_15:
	movs	r0, #1
	strb	r0, [r4, #1]
	movs	r0, #2
	add	sp, #36
	pop.w	{r4, r5, r6, r7, r8, r9, r10, r11, pc}
.LBB74_16:
	mov	r0, r2
	bl	tlsf_heap.refusal.Refusal.of_name
	uxtb	r0, r0
	movs	r1, #1
	cmp	r0, #3
	mov.w	r0, #3
	strb	r1, [r4, #1]
	it	eq
	moveq	r0, #4
	add	sp, #36
	pop.w	{r4, r5, r6, r7, r8, r9, r10, r11, pc}
.LBB74_17:
	movs	r0, #2
.LBB74_18:
	add	sp, #36
	pop.w	{r4, r5, r6, r7, r8, r9, r10, r11, lr}
	b	tlsf_c.call_fault.CallFault.refusal
.LBB74_19:
	movs	r2, #0
	movs	r5, #0
.LBB74_20:
	str	r5, [sp, #32]
	cmp	r3, #0
	itt	ne
	ldrne.w	r12, [r6, r11, lsl #3]
	lslsne.w	r5, r12, #31
	bne	.LBB74_25
	lsls	r6, r2, #31
	bne	.LBB74_24
	orr	r2, lr, #1
	strd	r2, r11, [r10]
	strd	r7, r1, [r10, #8]
	ldrd	r7, r2, [r9, #8]
	mov.w	r1, #-1
	adds	r7, #1
	adc	r2, r2, #0
	strd	r7, r2, [r9, #8]
	orr	r2, r0, #16
	clz	r2, r2
	rsb.w	r7, r2, #27
	lsr.w	r2, r0, r7
	add.w	r5, r2, r7, lsl #4
	add.w	r0, r9, r5, lsl #2
	ldr.w	r6, [r0, #168]
	lsls	r7, r3, #3
	cmp.w	r6, #-1
	str.w	r3, [r0, #168]
	ble	.LBB74_26
	add.w	r2, r9, #24
	adds	r0, r1, r6
	ldr	r2, [r2]
	adc	r1, r1, #0
	adds	r0, #1
	sbc	r1, r1, #0
	add	r7, r2
	strd	r0, r1, [r7, #16]
	add.w	r0, r2, r6, lsl #3
	str	r3, [r0, #20]
	b	.LBB74_27
.LBB74_24:
	adds	r0, r7, #1
	adc	r6, r1, #0
	strd	r0, r6, [r9, #8]
	strd	lr, r11, [sp]
	strd	r7, r1, [sp, #8]
	mov	r1, r3
	ldr	r3, [sp, #32]
	add.w	r0, r9, #24
	str	r1, [sp, #16]
	bl	tlsf_heap.fitting.merge_next.4
	b	.LBB74_27
.LBB74_25:
	add.w	r0, r6, r11, lsl #3
	ldr	r0, [r0, #4]
	adds	r5, r7, #1
	adc	r6, r1, #0
	strd	r5, r6, [r9, #8]
	strd	lr, r11, [sp, #24]
	strd	r12, r0, [sp]
	strd	r7, r1, [sp, #8]
	mov	r1, r3
	ldr	r3, [sp, #32]
	add.w	r0, r9, #24
	str	r1, [sp, #16]
	bl	tlsf_heap.fitting.merge_before.4
	b	.LBB74_27
.LBB74_26:
	ldr.w	r0, [r9, #24]
	movs	r6, #1
	add	r0, r7
	strd	r1, r1, [r0, #16]
	lsrs	r0, r5, #4
	ldr.w	r1, [r9, #80]
	add.w	r3, r9, r0, lsl #2
	lsl.w	r0, r6, r0
	orrs	r0, r1
	ldr	r7, [r3, #84]
	str.w	r0, [r9, #80]
	and	r0, r2, #15
	lsl.w	r0, r6, r0
	orrs	r0, r7
	str	r0, [r3, #84]
.LBB74_27:
	ldr.w	r2, [r9, #1272]
	ldr.w	r3, [r9, #1276]
	orrs.w	r0, r2, r3
	beq	.LBB74_41
	ldr.w	r0, [r9, #1296]
	ldr.w	r7, [r9, #1264]
	movs	r1, #0
.LBB74_29:
	add.w	r6, r7, r1, lsl #3
	ldr	r5, [r6, #4]
	cmp	r5, r8
	bhs	.LBB74_40
	eor	r5, r2, #1
	orrs	r5, r3
	beq	.LBB74_41
	ldr	r5, [r6, #12]
	cmp	r5, r8
	bhs	.LBB74_37
	eor	r5, r2, #2
	orrs	r5, r3
	beq	.LBB74_41
	ldr	r5, [r6, #20]
	cmp	r5, r8
	bhs	.LBB74_38
	eor	r5, r2, #3
	orrs	r5, r3
	beq	.LBB74_41
	ldr	r6, [r6, #28]
	cmp	r6, r8
	bhs	.LBB74_39
	subs	r2, #4
	sbc	r3, r3, #0
	orrs.w	r6, r2, r3
	add.w	r1, r1, #4
	bne	.LBB74_29
	b	.LBB74_41
.LBB74_37:
	adds	r1, #1
	b	.LBB74_40
.LBB74_38:
	adds	r1, #2
	b	.LBB74_40
.LBB74_39:
	adds	r1, #3
.LBB74_40:
	ldr.w	r2, [r0, r1, lsl #2]
	subs	r2, #1
	str.w	r2, [r0, r1, lsl #2]
.LBB74_41:
	movs	r0, #1
	strb	r0, [r4, #1]
	movs	r0, #0
	add	sp, #36
	pop.w	{r4, r5, r6, r7, r8, r9, r10, r11, pc}
.Lfunc_end74:
	.size	tlsf_pools_release, .Lfunc_end74-tlsf_pools_release
	.cfi_endproc
	.section	.text.tlsf_pools_report,"ax",%progbits
	.globl	tlsf_pools_report
	.p2align	2
	.type	tlsf_pools_report,%function
	.code	16
	.thumb_func
tlsf_pools_report:
	.cfi_startproc
	push.w	{r4, r5, r6, r7, r8, r9, r10, r11, lr}
	.cfi_def_cfa_offset 36
	.cfi_offset lr, -4
	.cfi_offset r11, -8
	.cfi_offset r10, -12
	.cfi_offset r9, -16
	.cfi_offset r8, -20
	.cfi_offset r7, -24
	.cfi_offset r6, -28
	.cfi_offset r5, -32
	.cfi_offset r4, -36
	sub	sp, #60
	.cfi_def_cfa_offset 96
	ldrb	r3, [r0, #8]
	cmp	r3, #0
	beq	.LBB75_7
	ldr	r7, [r0]
	ldrb	r0, [r7, #1]
	cmp	r0, #0
	beq	.LBB75_7
	ldrb	r0, [r7]
	cmp	r0, #1
	bne	.LBB75_8
	mov	r4, r2
	ldrd	r0, r2, [r7, #32]
	movs	r5, #0
	subs	r0, r1, r0
	sbcs.w	r0, r5, r2
	strb	r5, [r7, #1]
	bhs	.LBB75_5
	ldr	r0, [r7, #24]
	mov.w	r2, #1320
	add.w	r8, sp, #8
	mla	r6, r1, r2, r0
	mov	r0, r8
	movs	r1, #0
	movs	r2, #48
	bl	tlsf_memory_set
	mov	r0, r8
	mov	r1, r6
	bl	tlsf_heap.heap.Heap.report.4
	ldr	r0, [sp, #8]
	add.w	lr, sp, #12
	str	r0, [sp]
	ldr	r0, [sp, #48]
	mov.w	r10, #1
	str	r0, [sp, #4]
	ldr	r0, [sp]
	ldm.w	lr, {r1, r2, r3, r6, r12, lr}
	ldrd	r8, r9, [sp, #36]
	ldr.w	r11, [sp, #52]
	strb.w	r10, [r7, #1]
	str	r0, [r4]
	ldr	r0, [sp, #4]
	str	r1, [r4, #4]
	str	r2, [r4, #8]
	str	r3, [r4, #12]
	str	r6, [r4, #16]
	str.w	r12, [r4, #20]
	str.w	lr, [r4, #24]
	str.w	r8, [r4, #28]
	str.w	r9, [r4, #32]
	str	r5, [r4, #36]
	str.w	r11, [r4, #44]
	str	r0, [r4, #40]
	b	.LBB75_6
.LBB75_5:
	movs	r0, #1
	movs	r5, #4
	strb	r0, [r7, #1]
.LBB75_6:
	mov	r0, r5
	add	sp, #60
	pop.w	{r4, r5, r6, r7, r8, r9, r10, r11, pc}
.LBB75_7:
	movs	r0, #0
	b	.LBB75_9
.LBB75_8:
	movs	r0, #2
.LBB75_9:
	add	sp, #60
	pop.w	{r4, r5, r6, r7, r8, r9, r10, r11, lr}
	b	tlsf_c.call_fault.CallFault.refusal
.Lfunc_end75:
	.size	tlsf_pools_report, .Lfunc_end75-tlsf_pools_report
	.cfi_endproc
	.section	.text.tlsf_pools_row,"ax",%progbits
	.globl	tlsf_pools_row
	.p2align	2
	.type	tlsf_pools_row,%function
	.code	16
	.thumb_func
tlsf_pools_row:
	.cfi_startproc
	ldrb	r3, [r0, #8]
	cmp	r3, #0
	beq.w	.LBB76_26
	ldr.w	r12, [r0]
	ldrb.w	r0, [r12, #1]
	cmp	r0, #0
	beq.w	.LBB76_26
	ldrb.w	r0, [r12]
	cmp	r0, #1
	bne.w	.LBB76_31
	push.w	{r4, r5, r6, r7, r8, r9, r10, r11, lr}
	.cfi_def_cfa_offset 36
	.cfi_offset lr, -4
	.cfi_offset r11, -8
	.cfi_offset r10, -12
	.cfi_offset r9, -16
	.cfi_offset r8, -20
	.cfi_offset r7, -24
	.cfi_offset r6, -28
	.cfi_offset r5, -32
	.cfi_offset r4, -36
	sub	sp, #4
	.cfi_def_cfa_offset 40
	ldrd	r10, r11, [r12, #32]
	str	r2, [sp]
	movs	r0, #0
	orrs.w	r2, r10, r11
	strb.w	r0, [r12, #1]
	beq	.LBB76_25
	ldr.w	r9, [r12, #24]
	movs	r7, #0
	movs	r6, #0
	b	.LBB76_6
	.p2align	2
.LBB76_5:
	adds	r7, #1
	adc	r6, r6, #0
	subs.w	r0, r7, r10
	sbcs.w	r0, r6, r11
	bhs	.LBB76_25
.LBB76_6:
	mov.w	r0, #1320
	mla	r0, r7, r0, r9
	ldr.w	r5, [r0, #1272]
	ldr.w	r8, [r0, #1276]
	orrs.w	r3, r5, r8
	beq	.LBB76_5
	ldr.w	lr, [r0, #1264]
	mov	r0, r5
	add.w	r4, lr, #28
	mov	r3, r8
.LBB76_8:
	ldr	r2, [r4, #-24]
	cmp	r2, r1
	bhs	.LBB76_16
	eor	r2, r0, #1
	orrs	r2, r3
	beq	.LBB76_5
	ldr	r2, [r4, #-16]
	cmp	r2, r1
	bhs	.LBB76_16
	eor	r2, r0, #2
	orrs	r2, r3
	beq	.LBB76_5
	ldr	r2, [r4, #-8]
	cmp	r2, r1
	bhs	.LBB76_16
	eor	r2, r0, #3
	orrs	r2, r3
	beq	.LBB76_5
	ldr	r2, [r4], #32
	cmp	r2, r1
	bhs	.LBB76_16
	subs	r0, #4
	sbc	r3, r3, #0
	orrs.w	r2, r0, r3
	bne	.LBB76_8
	b	.LBB76_5
.LBB76_16:
	movs	r4, #0
.LBB76_17:
	add.w	r0, lr, r4, lsl #3
	ldr	r2, [r0, #4]
	cmp	r2, r1
	bhs	.LBB76_30
	eor	r2, r5, #1
	orrs.w	r2, r2, r8
	beq	.LBB76_25
	ldr	r2, [r0, #12]
	cmp	r2, r1
	bhs	.LBB76_27
	eor	r2, r5, #2
	orrs.w	r2, r2, r8
	beq	.LBB76_25
	ldr	r2, [r0, #20]
	cmp	r2, r1
	bhs	.LBB76_28
	eor	r2, r5, #3
	orrs.w	r2, r2, r8
	beq	.LBB76_25
	ldr	r0, [r0, #28]
	cmp	r0, r1
	bhs	.LBB76_29
	subs	r5, #4
	sbc	r8, r8, #0
	orrs.w	r0, r5, r8
	add.w	r4, r4, #4
	bne	.LBB76_17
.LBB76_25:
	movs	r0, #1
	strb.w	r0, [r12, #1]
	movs	r0, #5
	add	sp, #4
	pop.w	{r4, r5, r6, r7, r8, r9, r10, r11, pc}
.LBB76_26:
	movs	r0, #0
	b	tlsf_c.call_fault.CallFault.refusal
.LBB76_27:
	adds	r4, #1
	b	.LBB76_30
.LBB76_28:
	adds	r4, #2
	b	.LBB76_30
.LBB76_29:
	adds	r4, #3
.LBB76_30:
	add.w	r0, lr, r4, lsl #3
	movs	r1, #1
	ldr	r0, [r0, #4]
	strb.w	r1, [r12, #1]
	ldr	r1, [sp]
	str	r0, [r1]
	movs	r0, #0
	add	sp, #4
	pop.w	{r4, r5, r6, r7, r8, r9, r10, r11, pc}
.LBB76_31:
	movs	r0, #2
	b	tlsf_c.call_fault.CallFault.refusal
.Lfunc_end76:
	.size	tlsf_pools_row, .Lfunc_end76-tlsf_pools_row
	.cfi_endproc
	.section	.text.tlsf_pools_words,"ax",%progbits
	.globl	tlsf_pools_words
	.p2align	2
	.type	tlsf_pools_words,%function
	.code	16
	.thumb_func
tlsf_pools_words:
	.cfi_startproc
	push.w	{r4, r5, r6, r7, r8, r9, r10, lr}
	.cfi_def_cfa_offset 32
	.cfi_offset lr, -4
	.cfi_offset r10, -8
	.cfi_offset r9, -12
	.cfi_offset r8, -16
	.cfi_offset r7, -20
	.cfi_offset r6, -24
	.cfi_offset r5, -28
	.cfi_offset r4, -32
	sub.w	sp, sp, #600
	.cfi_def_cfa_offset 632
	cmp	r1, #0
	it	eq
	addeq.w	r1, r1, #4096
	subs	r7, r0, #6
	cmp	r0, #5
	it	eq
	mvneq	r7, #5
	cmn.w	r7, #2
	bhs	.LBB77_2
	movs	r0, #34
	add.w	sp, sp, #600
	pop.w	{r4, r5, r6, r7, r8, r9, r10, pc}
.LBB77_2:
	cmp	r2, #64
	bhi.w	.LBB77_14
	mov	r0, sp
	mov	r5, r1
	movs	r1, #0
	mov	r6, r2
	movs	r2, #88
	mov	r8, r3
	bl	tlsf_memory_set
	add.w	r10, sp, #88
	mov	r0, r10
	movs	r1, #0
	mov.w	r2, #512
	bl	tlsf_memory_set
	mov	r2, r6
	cmp	r6, #0
	beq.w	.LBB77_12
	mov	r0, r5
	cmp	r2, #4
	and	r12, r2, #3
	bhs	.LBB77_6
	movs	r3, #0
	b	.LBB77_9
.LBB77_6:
	and	lr, r2, #124
	movs	r3, #0
	mov.w	r9, #-1
	movs	r7, #0
	.p2align	2
.LBB77_7:
	lsls	r1, r3, #4
	add.w	r5, r0, r3, lsl #4
	ldr	r1, [r0, r1]
	ldr	r6, [r5, #12]
	ldr	r5, [r5, #8]
	cmp	r6, #0
	it	ne
	movne	r5, r9
	add.w	r6, r10, r3, lsl #3
	str.w	r1, [r10, r3, lsl #3]
	orr	r1, r3, #1
	str	r5, [r6, #4]
	lsls	r5, r1, #4
	add.w	r6, r0, r1, lsl #4
	ldr	r5, [r0, r5]
	ldr	r4, [r6, #12]
	ldr	r6, [r6, #8]
	cmp	r4, #0
	it	ne
	movne	r6, r9
	add.w	r4, r10, r1, lsl #3
	str.w	r5, [r10, r1, lsl #3]
	orr	r1, r3, #2
	str	r6, [r4, #4]
	lsls	r4, r1, #4
	add.w	r5, r0, r1, lsl #4
	ldr	r4, [r0, r4]
	ldr	r6, [r5, #12]
	ldr	r5, [r5, #8]
	cmp	r6, #0
	it	ne
	movne	r5, r9
	add.w	r6, r10, r1, lsl #3
	str.w	r4, [r10, r1, lsl #3]
	orr	r1, r3, #3
	str	r5, [r6, #4]
	add.w	r5, r0, r1, lsl #4
	ldr	r6, [r5, #12]
	lsls	r4, r1, #4
	ldr	r4, [r0, r4]
	ldr	r5, [r5, #8]
	cmp	r6, #0
	it	ne
	movne	r5, r9
	adds	r3, #4
	add.w	r6, r10, r1, lsl #3
	str.w	r4, [r10, r1, lsl #3]
	adc	r7, r7, #0
	eor.w	r1, r3, lr
	orrs	r1, r7
	str	r5, [r6, #4]
	bne	.LBB77_7
	cmp.w	r12, #0
	beq	.LBB77_12
.LBB77_9:
	add.w	r7, r0, r3, lsl #4
	ldr	r6, [r7, #12]
	lsls	r1, r3, #4
	ldr	r1, [r0, r1]
	ldr	r5, [r7, #8]
	cmp	r6, #0
	mov.w	r7, #-1
	it	ne
	movne	r5, r7
	add.w	r6, r10, r3, lsl #3
	cmp.w	r12, #1
	str.w	r1, [r10, r3, lsl #3]
	str	r5, [r6, #4]
	beq	.LBB77_12
	adds	r1, r3, #1
	add.w	r5, r0, r1, lsl #4
	ldr	r4, [r5, #12]
	lsls	r6, r1, #4
	ldr	r6, [r0, r6]
	ldr	r5, [r5, #8]
	cmp	r4, #0
	it	eq
	moveq	r7, r5
	add.w	r5, r10, r1, lsl #3
	cmp.w	r12, #2
	str.w	r6, [r10, r1, lsl #3]
	str	r7, [r5, #4]
	beq	.LBB77_12
	adds	r1, r3, #2
	lsls	r3, r1, #4
	add.w	r7, r0, r1, lsl #4
	ldr	r0, [r0, r3]
	ldr	r3, [r7, #12]
	ldr	r7, [r7, #8]
	cmp	r3, #0
	add.w	r3, r10, r1, lsl #3
	it	ne
	movne.w	r7, #-1
	str.w	r0, [r10, r1, lsl #3]
	str	r7, [r3, #4]
.LBB77_12:
	mov	r0, sp
	add	r1, sp, #88
	movs	r3, #0
	bl	tlsf_pool.sizes.split.rising_split.4
	ldrb.w	r0, [sp]
	cbz	r0, .LBB77_14
	ldr	r0, [sp, #632]
	ldrd	r2, r1, [sp, #80]
	ldr	r3, [sp, #8]
	strd	r2, r1, [r8]
	str	r3, [r0]
	movs	r0, #0
	add.w	sp, sp, #600
	pop.w	{r4, r5, r6, r7, r8, r9, r10, pc}
.LBB77_14:
	movs	r0, #5
	add.w	sp, sp, #600
	pop.w	{r4, r5, r6, r7, r8, r9, r10, pc}
.Lfunc_end77:
	.size	tlsf_pools_words, .Lfunc_end77-tlsf_pools_words
	.cfi_endproc
	.section	.text.tlsf_post_close,"ax",%progbits
	.globl	tlsf_post_close
	.p2align	2
	.type	tlsf_post_close,%function
	.code	16
	.thumb_func
tlsf_post_close:
	.cfi_startproc
	ldrb	r1, [r0, #8]
	cbz	r1, .LBB78_4
	ldr	r1, [r0]
	ldrb	r2, [r1, #1]
	cmp	r2, #1
	bne	.LBB78_4
	ldrb	r2, [r1]
	cmp	r2, #0
	itt	ne
	movne	r0, #40
	bxne	lr
.LBB78_3:
	push	{r4, r5, r6, r7, lr}
	.cfi_def_cfa_offset 20
	.cfi_offset lr, -4
	.cfi_offset r7, -8
	.cfi_offset r6, -12
	.cfi_offset r5, -16
	.cfi_offset r4, -20
	sub	sp, #100
	.cfi_def_cfa_offset 120
	movs	r6, #0
	strb	r6, [r1, #1]
	ldr	r4, [r0]
	str	r6, [r0, #4]
	str	r6, [r0, #8]
	str	r6, [r0, #12]
	str	r6, [r0]
	mov	r1, r4
	add.w	r0, sp, #2
	ldrh	r7, [r1], #8
	adds	r5, r0, #6
	mov	r0, r5
	movs	r2, #40
	bl	tlsf_memory_cpy
	mov	r0, r4
	bl	tlsf_memory_dealloc
	add	r4, sp, #48
	add.w	r0, r4, #8
	mov	r1, r5
	movs	r2, #40
	strd	r6, r6, [sp, #48]
	strh.w	r7, [sp, #48]
	bl	tlsf_memory_cpy
	mov	r0, r4
	bl	tlsf_c.tlsf_c.any_end.AnyEnd.Destruct.drop
	mov	r0, r6
	add	sp, #100
	pop	{r4, r5, r6, r7, pc}
.LBB78_4:
	movs	r0, #32
	bx	lr
.Lfunc_end78:
	.size	tlsf_post_close, .Lfunc_end78-tlsf_post_close
	.cfi_endproc
	.section	.text.tlsf_poster_close,"ax",%progbits
	.globl	tlsf_poster_close
	.p2align	2
	.type	tlsf_poster_close,%function
	.code	16
	.thumb_func
tlsf_poster_close:
	.cfi_startproc
	ldrb	r1, [r0, #8]
	cbz	r1, .LBB79_4
	ldr	r1, [r0]
	ldrb	r2, [r1, #1]
	cmp	r2, #1
	bne	.LBB79_4
	ldrb	r2, [r1]
	cmp	r2, #3
	itt	ne
	movne	r0, #40
	bxne	lr
.LBB79_3:
	push	{r4, r5, r6, r7, lr}
	.cfi_def_cfa_offset 20
	.cfi_offset lr, -4
	.cfi_offset r7, -8
	.cfi_offset r6, -12
	.cfi_offset r5, -16
	.cfi_offset r4, -20
	sub	sp, #100
	.cfi_def_cfa_offset 120
	movs	r6, #0
	strb	r6, [r1, #1]
	ldr	r4, [r0]
	str	r6, [r0, #4]
	str	r6, [r0, #8]
	str	r6, [r0, #12]
	str	r6, [r0]
	mov	r1, r4
	add.w	r0, sp, #2
	ldrh	r7, [r1], #8
	adds	r5, r0, #6
	mov	r0, r5
	movs	r2, #40
	bl	tlsf_memory_cpy
	mov	r0, r4
	bl	tlsf_memory_dealloc
	add	r4, sp, #48
	add.w	r0, r4, #8
	mov	r1, r5
	movs	r2, #40
	strd	r6, r6, [sp, #48]
	strh.w	r7, [sp, #48]
	bl	tlsf_memory_cpy
	mov	r0, r4
	bl	tlsf_c.tlsf_c.any_end.AnyEnd.Destruct.drop
	mov	r0, r6
	add	sp, #100
	pop	{r4, r5, r6, r7, pc}
.LBB79_4:
	movs	r0, #32
	bx	lr
.Lfunc_end79:
	.size	tlsf_poster_close, .Lfunc_end79-tlsf_poster_close
	.cfi_endproc
	.section	.text.tlsf_poster_open,"ax",%progbits
	.globl	tlsf_poster_open
	.p2align	2
	.type	tlsf_poster_open,%function
	.code	16
	.thumb_func
tlsf_poster_open:
	.cfi_startproc
	push	{r7, lr}
	.cfi_def_cfa_offset 8
	.cfi_offset lr, -4
	.cfi_offset r7, -8
	ldrb	r2, [r0, #8]
	cbz	r2, .LBB80_8
	ldr	r2, [r0]
	ldrb	r0, [r2, #1]
	cbz	r0, .LBB80_8
	ldrb	r3, [r1, #8]
	ldrb	r0, [r2]
	cmp	r3, #1
	bne	.LBB80_4
	cmp	r0, #2
	mov.w	r0, #40
	it	eq
	moveq	r0, #33
	pop	{r7, pc}
.LBB80_4:
	cmp	r0, #2
	bne	.LBB80_9
	ldrd	lr, r12, [r2, #32]
	movs	r0, #0
	orrs.w	r3, lr, r12
	strb	r0, [r2, #1]
	beq	.LBB80_7
	subs.w	r3, lr, #1
	sbc	r12, r12, #0
	ldr.w	lr, [r2, #24]
	strd	r3, r12, [r2, #32]
	ldr.w	r3, [lr, r3, lsl #3]
	mov.w	r12, #1
	strb.w	r12, [r2, #1]
	str	r3, [r1]
	str	r0, [r1, #4]
	strb.w	r12, [r1, #8]
	str.w	r0, [r1, #9]
	str	r0, [r1, #12]
	pop	{r7, pc}
.LBB80_7:
	movs	r0, #1
	strb	r0, [r2, #1]
	movs	r0, #35
	pop	{r7, pc}
.LBB80_8:
	movs	r0, #0
	pop.w	{r7, lr}
	b	tlsf_c.call_fault.CallFault.refusal
.LBB80_9:
	movs	r0, #2
	pop.w	{r7, lr}
	b	tlsf_c.call_fault.CallFault.refusal
.Lfunc_end80:
	.size	tlsf_poster_open, .Lfunc_end80-tlsf_poster_open
	.cfi_endproc
	.section	.text.tlsf_put,"ax",%progbits
	.globl	tlsf_put
	.p2align	2
	.type	tlsf_put,%function
	.code	16
	.thumb_func
tlsf_put:
	.cfi_startproc
	push.w	{r4, r5, r6, r7, r8, r9, r10, r11, lr}
	.cfi_def_cfa_offset 36
	.cfi_offset lr, -4
	.cfi_offset r11, -8
	.cfi_offset r10, -12
	.cfi_offset r9, -16
	.cfi_offset r8, -20
	.cfi_offset r7, -24
	.cfi_offset r6, -28
	.cfi_offset r5, -32
	.cfi_offset r4, -36
	sub	sp, #4
	.cfi_def_cfa_offset 40
	ldrb	r1, [r0, #8]
	cmp	r1, #0
	beq.w	.LBB81_14
	ldr	r5, [r0]
	ldrb	r0, [r5, #1]
	cmp	r0, #0
	beq.w	.LBB81_14
	ldrb	r0, [r5]
	cmp	r0, #0
	bne.w	.LBB81_15
	add.w	r6, r5, #32
	mov	r8, r3
	ldm	r6, {r0, r1, r3, r6}
	mov	r9, r2
	ldrd	lr, r11, [sp, #40]
	ldrd	r2, r12, [r5, #24]
	subs	r4, r3, r0
	mov.w	r7, #0
	sbcs.w	r4, r6, r1
	strb	r7, [r5, #1]
	bhs	.LBB81_5
	lsl.w	r7, r12, #1
	orr.w	r7, r7, r2, lsr #31
	rsbs	r0, r0, r2, lsl #1
	sbc.w	r1, r7, r1
	adds	r0, r0, r3
	adcs	r1, r6
	b	.LBB81_6
.LBB81_5:
	subs	r0, r3, r0
	sbc.w	r1, r6, r1
.LBB81_6:
	eors	r0, r2
	eor.w	r1, r1, r12
	orrs	r0, r1
	bne	.LBB81_12
	ldr	r0, [r5, #8]
	movs	r1, #5
	mov	r4, lr
	bl	__atomic_load_8
	ldrd	r3, r6, [r5, #40]
	ldrd	r2, r12, [r5, #24]
	subs	r7, r3, r0
	sbcs.w	r7, r6, r1
	strd	r0, r1, [r5, #32]
	bhs	.LBB81_9
	lsl.w	r7, r12, #1
	orr.w	r7, r7, r2, lsr #31
	rsbs	r0, r0, r2, lsl #1
	sbc.w	r1, r7, r1
	adds	r0, r0, r3
	adcs	r1, r6
	b	.LBB81_10
.LBB81_9:
	subs	r0, r3, r0
	sbc.w	r1, r6, r1
.LBB81_10:
	eors	r0, r2
	eor.w	r1, r1, r12
	orrs	r0, r1
	mov	lr, r4
	bne	.LBB81_12
	movs	r0, #1
	mov.w	r10, #8
	b	.LBB81_13
.LBB81_12:
	lsl.w	r0, r12, #1
	mov.w	r1, #-1
	orr.w	r0, r0, r2, lsr #31
	adds.w	r1, r1, r2, lsl #1
	sbc	r0, r0, #0
	subs	r1, r3, r1
	sbcs.w	r0, r6, r0
	mov.w	r0, #0
	it	lo
	movlo	r0, #1
	adds	r7, r3, #1
	adc	r4, r6, #0
	cmp	r0, #0
	itt	eq
	moveq	r7, r0
	moveq	r4, r0
	subs	r0, r3, r2
	ldr	r1, [r5, #16]
	sbcs.w	r2, r6, r12
	it	lo
	movlo	r0, r3
	add.w	r0, r0, r0, lsl #1
	mov.w	r10, #0
	add.w	r2, r1, r0, lsl #3
	str.w	r10, [r1, r0, lsl #3]
	str.w	r10, [r2, #4]
	str.w	r9, [r2, #8]
	str.w	r8, [r2, #12]
	str.w	r11, [r2, #20]
	str.w	lr, [r2, #16]
	ldr	r0, [r5, #8]
	adds	r0, #128
	movs	r1, #5
	mov	r2, r7
	mov	r3, r4
	str	r1, [sp]
	bl	__atomic_store_8
	movs	r0, #1
	strd	r7, r4, [r5, #40]
.LBB81_13:
	strb	r0, [r5, #1]
	mov	r0, r10
	add	sp, #4
	pop.w	{r4, r5, r6, r7, r8, r9, r10, r11, pc}
.LBB81_14:
	movs	r0, #0
	b	.LBB81_16
.LBB81_15:
	movs	r0, #2
.LBB81_16:
	add	sp, #4
	pop.w	{r4, r5, r6, r7, r8, r9, r10, r11, lr}
	b	tlsf_c.call_fault.CallFault.refusal
.Lfunc_end81:
	.size	tlsf_put, .Lfunc_end81-tlsf_put
	.cfi_endproc
	.section	.text.tlsf_put_all,"ax",%progbits
	.globl	tlsf_put_all
	.p2align	2
	.type	tlsf_put_all,%function
	.code	16
	.thumb_func
tlsf_put_all:
	.cfi_startproc
	push.w	{r4, r5, r6, r7, r8, r9, r10, r11, lr}
	.cfi_def_cfa_offset 36
	.cfi_offset lr, -4
	.cfi_offset r11, -8
	.cfi_offset r10, -12
	.cfi_offset r9, -16
	.cfi_offset r8, -20
	.cfi_offset r7, -24
	.cfi_offset r6, -28
	.cfi_offset r5, -32
	.cfi_offset r4, -36
	sub.w	sp, sp, #828
	.cfi_def_cfa_offset 864
	ldrb	r7, [r0, #8]
	ldr	r6, [r3]
	cmp	r1, #0
	it	eq
	addeq.w	r1, r1, #4096
	cmp	r7, #0
	str	r1, [sp, #20]
	beq.w	.LBB82_32
	ldr	r5, [r0]
	ldrb	r0, [r5, #1]
	cmp	r0, #0
	beq.w	.LBB82_32
	ldrb	r0, [r5]
	cmp	r0, #0
	bne.w	.LBB82_33
	mov.w	r9, #0
	cmp	r2, #0
	strb.w	r9, [r5, #1]
	beq.w	.LBB82_29
	add.w	r11, sp, #56
	movs	r6, #0
	movs	r1, #0
	str	r3, [sp, #4]
	str	r5, [sp, #36]
	str	r2, [sp, #16]
	.p2align	2
.LBB82_5:
	ldr	r0, [sp, #20]
	subs	r5, r2, r6
	add.w	r8, r0, r6, lsl #4
	mov.w	r0, #0
	mov.w	r10, #32
	str	r6, [sp, #48]
	str	r1, [sp, #44]
	sbc.w	r6, r0, r1
	cmp	r5, #32
	it	lo
	movlo	r10, r5
	movs	r0, #32
	cmp	r6, #0
	it	ne
	movne	r10, r0
	mov	r0, r11
	movs	r1, #0
	mov.w	r2, #768
	bl	tlsf_memory_set
	cmp.w	r10, #1
	mov	r2, r10
	it	ls
	movls	r2, #1
	subs	r1, r5, #4
	sbcs	r1, r6, #0
	and	r12, r2, #3
	mov.w	r1, #0
	blo	.LBB82_9
	and	lr, r2, #60
	movs	r3, #0
	.p2align	2
.LBB82_7:
	add.w	r5, r8, r1, lsl #4
	lsls	r6, r1, #4
	ldr	r0, [r5, #4]
	ldr	r7, [r5, #8]
	add.w	r2, r1, r1, lsl #1
	ldr.w	r6, [r8, r6]
	ldr	r5, [r5, #12]
	add.w	r4, r11, r2, lsl #3
	strd	r0, r7, [r4, #12]
	orr	r0, r1, #1
	str.w	r9, [r11, r2, lsl #3]
	strd	r9, r6, [r4, #4]
	str	r5, [r4, #20]
	lsls	r2, r0, #4
	add.w	r4, r8, r0, lsl #4
	ldr.w	r2, [r8, r2]
	ldr	r5, [r4, #4]
	ldr	r6, [r4, #8]
	ldr	r4, [r4, #12]
	add.w	r0, r0, r0, lsl #1
	add.w	r7, r11, r0, lsl #3
	str.w	r9, [r11, r0, lsl #3]
	orr	r0, r1, #2
	strd	r9, r2, [r7, #4]
	str	r4, [r7, #20]
	lsls	r2, r0, #4
	add.w	r4, r8, r0, lsl #4
	strd	r5, r6, [r7, #12]
	ldr.w	r2, [r8, r2]
	ldr	r5, [r4, #4]
	ldr	r6, [r4, #8]
	ldr	r4, [r4, #12]
	add.w	r0, r0, r0, lsl #1
	add.w	r7, r11, r0, lsl #3
	str.w	r9, [r11, r0, lsl #3]
	orr	r0, r1, #3
	strd	r9, r2, [r7, #4]
	str	r4, [r7, #20]
	lsls	r2, r0, #4
	add.w	r4, r8, r0, lsl #4
	add.w	r0, r0, r0, lsl #1
	adds	r1, #4
	strd	r5, r6, [r7, #12]
	ldr.w	r2, [r8, r2]
	ldr	r5, [r4, #4]
	ldr	r6, [r4, #8]
	ldr	r4, [r4, #12]
	add.w	r7, r11, r0, lsl #3
	str.w	r9, [r11, r0, lsl #3]
	adc	r3, r3, #0
	eor.w	r0, r1, lr
	orrs	r0, r3
	strd	r9, r2, [r7, #4]
	strd	r5, r6, [r7, #12]
	str	r4, [r7, #20]
	bne	.LBB82_7
	cmp.w	r12, #0
	beq	.LBB82_12
.LBB82_9:
	lsls	r0, r1, #4
	add.w	r2, r8, r1, lsl #4
	ldr.w	r0, [r8, r0]
	ldr	r3, [r2, #4]
	ldr	r7, [r2, #8]
	ldr	r2, [r2, #12]
	add.w	r6, r1, r1, lsl #1
	add.w	r5, r11, r6, lsl #3
	cmp.w	r12, #1
	str.w	r9, [r11, r6, lsl #3]
	strd	r9, r0, [r5, #4]
	strd	r3, r7, [r5, #12]
	str	r2, [r5, #20]
	beq	.LBB82_12
	adds	r0, r1, #1
	lsls	r2, r0, #4
	add.w	r3, r8, r0, lsl #4
	ldr.w	r2, [r8, r2]
	ldr	r7, [r3, #4]
	ldr	r6, [r3, #8]
	ldr	r3, [r3, #12]
	add.w	r0, r0, r0, lsl #1
	add.w	r5, r11, r0, lsl #3
	cmp.w	r12, #2
	str.w	r9, [r11, r0, lsl #3]
	strd	r9, r2, [r5, #4]
	strd	r7, r6, [r5, #12]
	str	r3, [r5, #20]
	beq	.LBB82_12
	adds	r0, r1, #2
	lsls	r1, r0, #4
	add.w	r2, r8, r0, lsl #4
	ldr.w	r1, [r8, r1]
	ldr	r3, [r2, #4]
	ldr	r7, [r2, #8]
	ldr	r2, [r2, #12]
	add.w	r0, r0, r0, lsl #1
	add.w	r6, r11, r0, lsl #3
	str.w	r9, [r11, r0, lsl #3]
	strd	r9, r1, [r6, #4]
	strd	r3, r7, [r6, #12]
	str	r2, [r6, #20]
.LBB82_12:
	ldr	r5, [sp, #36]
	add.w	r8, r5, #32
	ldm.w	r8, {r0, r1, r8}
	ldr	r7, [r5, #44]
	ldrd	r6, r12, [r5, #24]
	subs.w	r2, r8, r0
	sbcs.w	r2, r7, r1
	bhs	.LBB82_14
	lsl.w	r2, r12, #1
	orr.w	r2, r2, r6, lsr #31
	rsbs	r0, r0, r6, lsl #1
	sbc.w	r1, r2, r1
	adds.w	r0, r0, r8
	adcs	r1, r7
	b	.LBB82_15
	.p2align	2
.LBB82_14:
	subs.w	r0, r8, r0
	sbc.w	r1, r7, r1
.LBB82_15:
	subs	r0, r6, r0
	sbc.w	r1, r12, r1
	subs.w	r0, r0, r10
	mov.w	r4, #0
	sbcs	r0, r1, #0
	str.w	r10, [sp, #52]
	bhs	.LBB82_20
	ldr	r0, [r5, #8]
	movs	r1, #5
	bl	__atomic_load_8
	ldrd	r8, r7, [r5, #40]
	ldrd	r6, r12, [r5, #24]
	subs.w	r2, r8, r0
	sbcs.w	r2, r7, r1
	strd	r0, r1, [r5, #32]
	bhs	.LBB82_18
	lsl.w	r2, r12, #1
	orr.w	r2, r2, r6, lsr #31
	rsbs	r0, r0, r6, lsl #1
	sbc.w	r1, r2, r1
	adds.w	r0, r0, r8
	adcs	r1, r7
	b	.LBB82_19
	.p2align	2
.LBB82_18:
	subs.w	r0, r8, r0
	sbc.w	r1, r7, r1
.LBB82_19:
	ldr	r2, [sp, #52]
	subs.w	r10, r6, r0
	sbc.w	r0, r12, r1
	subs.w	r1, r10, r2
	mov.w	r4, #0
	sbcs	r1, r0, #0
	it	hs
	movhs	r10, r2
	it	lo
	movlo	r4, #1
	cmp	r4, #0
	it	ne
	movne	r4, r0
.LBB82_20:
	orrs.w	r0, r10, r4
	beq	.LBB82_26
	subs.w	r0, r8, r6
	sbcs.w	r0, r7, r12
	mov	r1, r12
	mov	r0, r6
	itt	lo
	movlo	r1, #0
	movlo	r0, #0
	subs.w	r2, r8, r0
	str.w	r8, [sp, #32]
	sbc.w	r1, r7, r1
	subs.w	r8, r6, r2
	sbc.w	lr, r12, r1
	subs.w	r3, r8, r10
	str	r7, [sp, #28]
	sbcs.w	r3, lr, r4
	mov	r7, r10
	it	lo
	movlo	r7, r8
	ldr	r3, [r5, #8]
	eor.w	r1, r1, r12
	eors	r2, r6
	str	r3, [sp, #24]
	orrs	r1, r2
	ldr	r3, [r5, #16]
	add.w	r1, r7, r7, lsl #1
	str	r4, [sp, #40]
	beq	.LBB82_23
	lsls	r2, r1, #3
	str	r1, [sp, #8]
	ldr	r1, [sp, #32]
	sub.w	r0, r0, r0, lsl #2
	add.w	r1, r1, r1, lsl #1
	add.w	r0, r3, r0, lsl #3
	add.w	r0, r0, r1, lsl #3
	mov	r1, r11
	mov	r4, r12
	mov	r5, r3
	str.w	lr, [sp, #12]
	bl	tlsf_memory_cpy
	ldrd	r1, lr, [sp, #8]
	mov	r12, r4
	ldr	r4, [sp, #40]
	mov	r3, r5
.LBB82_23:
	subs.w	r0, r8, r10
	sbcs.w	r0, lr, r4
	bhs	.LBB82_25
	sub.w	r0, r10, r7
	add.w	r0, r0, r0, lsl #1
	add.w	r1, r11, r1, lsl #3
	lsls	r2, r0, #3
	mov	r0, r3
	mov	r4, r12
	mov	r5, r3
	bl	tlsf_memory_cpy
	mov	r12, r4
	ldr	r4, [sp, #40]
	mov	r3, r5
.LBB82_25:
	ldr	r7, [sp, #32]
	lsl.w	r0, r12, #1
	orr.w	r0, r0, r6, lsr #31
	rsbs	r1, r7, r6, lsl #1
	ldr	r6, [sp, #28]
	ldr	r5, [sp, #36]
	sbcs	r0, r6
	rsbs	r2, r1, #0
	ldr.w	lr, [sp, #24]
	str	r3, [r5, #16]
	sbc.w	r3, r9, r0
	subs.w	r1, r10, r1
	sbcs.w	r0, r4, r0
	str.w	lr, [r5, #8]
	str.w	r9, [r5, #12]
	str.w	r9, [r5, #20]
	itt	lo
	movlo	r3, r6
	movlo	r2, r7
	adds.w	r8, r2, r10
	adc.w	r7, r3, r4
	add.w	r0, lr, #128
	mov	r2, r8
	mov	r3, r7
	movs	r1, #5
	str	r1, [sp]
	bl	__atomic_store_8
	ldr	r4, [sp, #40]
.LBB82_26:
	ldr	r6, [sp, #48]
	ldr	r1, [sp, #44]
	ldr	r0, [sp, #52]
	adds.w	r6, r6, r10
	adcs	r1, r4
	subs.w	r0, r10, r0
	ldr	r2, [sp, #16]
	sbcs	r0, r4, #0
	strd	r8, r7, [r5, #40]
	blo	.LBB82_28
	subs	r0, r6, r2
	sbcs	r0, r1, #0
	blo.w	.LBB82_5
.LBB82_28:
	ldr	r3, [sp, #4]
	b	.LBB82_30
.LBB82_29:
	movs	r6, #0
.LBB82_30:
	movs	r0, #1
	strb	r0, [r5, #1]
	movs	r0, #0
.LBB82_31:
	str	r6, [r3]
	add.w	sp, sp, #828
	pop.w	{r4, r5, r6, r7, r8, r9, r10, r11, pc}
.LBB82_32:
	movs	r0, #0
	b	.LBB82_34
.LBB82_33:
	movs	r0, #2
.LBB82_34:
	mov	r4, r3
	bl	tlsf_c.call_fault.CallFault.refusal
	mov	r3, r4
	b	.LBB82_31
.Lfunc_end82:
	.size	tlsf_put_all, .Lfunc_end82-tlsf_put_all
	.cfi_endproc
	.section	.text.tlsf_queue_close,"ax",%progbits
	.globl	tlsf_queue_close
	.p2align	2
	.type	tlsf_queue_close,%function
	.code	16
	.thumb_func
tlsf_queue_close:
	.cfi_startproc
	ldrb	r1, [r0, #8]
	cbz	r1, .LBB83_4
	ldr	r1, [r0]
	ldrb	r2, [r1, #1]
	cmp	r2, #1
	bne	.LBB83_4
	ldrb	r2, [r1]
	cmp	r2, #2
	itt	ne
	movne	r0, #40
	bxne	lr
.LBB83_3:
	push	{r4, r5, r6, r7, lr}
	.cfi_def_cfa_offset 20
	.cfi_offset lr, -4
	.cfi_offset r7, -8
	.cfi_offset r6, -12
	.cfi_offset r5, -16
	.cfi_offset r4, -20
	sub	sp, #100
	.cfi_def_cfa_offset 120
	movs	r6, #0
	strb	r6, [r1, #1]
	ldr	r4, [r0]
	str	r6, [r0, #4]
	str	r6, [r0, #8]
	str	r6, [r0, #12]
	str	r6, [r0]
	mov	r1, r4
	add.w	r0, sp, #2
	ldrh	r7, [r1], #8
	adds	r5, r0, #6
	mov	r0, r5
	movs	r2, #40
	bl	tlsf_memory_cpy
	mov	r0, r4
	bl	tlsf_memory_dealloc
	add	r4, sp, #48
	add.w	r0, r4, #8
	mov	r1, r5
	movs	r2, #40
	strd	r6, r6, [sp, #48]
	strh.w	r7, [sp, #48]
	bl	tlsf_memory_cpy
	mov	r0, r4
	bl	tlsf_c.tlsf_c.any_end.AnyEnd.Destruct.drop
	mov	r0, r6
	add	sp, #100
	pop	{r4, r5, r6, r7, pc}
.LBB83_4:
	movs	r0, #32
	bx	lr
.Lfunc_end83:
	.size	tlsf_queue_close, .Lfunc_end83-tlsf_queue_close
	.cfi_endproc
	.section	.text.tlsf_queue_drain,"ax",%progbits
	.globl	tlsf_queue_drain
	.p2align	2
	.type	tlsf_queue_drain,%function
	.code	16
	.thumb_func
tlsf_queue_drain:
	.cfi_startproc
	push.w	{r4, r5, r6, r7, r8, r9, r10, r11, lr}
	.cfi_def_cfa_offset 36
	.cfi_offset lr, -4
	.cfi_offset r11, -8
	.cfi_offset r10, -12
	.cfi_offset r9, -16
	.cfi_offset r8, -20
	.cfi_offset r7, -24
	.cfi_offset r6, -28
	.cfi_offset r5, -32
	.cfi_offset r4, -36
	sub	sp, #44
	.cfi_def_cfa_offset 80
	mov	r5, r0
	ldrb	r0, [r0, #8]
	cmp	r0, #0
	beq	.LBB84_13
	ldr	r0, [r5]
	ldrb	r0, [r0]
	cmp	r0, #1
	bne	.LBB84_13
	ldrb	r0, [r1, #8]
	cbz	r0, .LBB84_13
	ldr.w	r9, [r1]
	ldrb.w	r0, [r9, #1]
	cbz	r0, .LBB84_13
	ldrb.w	r0, [r9]
	cmp	r0, #2
	bne	.LBB84_15
	mov	r8, r2
	movs	r7, #0
	strb.w	r7, [r9, #1]
	cbz	r2, .LBB84_11
	add.w	r10, r9, #8
	add.w	r11, sp, #8
	movs	r6, #0
	str	r3, [sp, #4]
	.p2align	2
.LBB84_7:
	mov	r0, r11
	mov	r1, r10
	strd	r7, r7, [sp, #32]
	strd	r7, r7, [sp, #24]
	strd	r7, r7, [sp, #16]
	strd	r7, r7, [sp, #8]
	bl	tlsf_c.queue_end.take_once
	ldrb.w	r0, [sp, #8]
	cbnz	r0, .LBB84_10
	ldrd	r1, r4, [sp, #24]
	ldrd	r2, r3, [sp, #32]
	mov	r0, r5
	str	r4, [sp]
	bl	tlsf_c.heap_calls.release_named
	adds	r6, #1
	cmp	r8, r6
	bne	.LBB84_7
	mov	r6, r8
.LBB84_10:
	ldr	r3, [sp, #4]
	b	.LBB84_12
.LBB84_11:
	movs	r6, #0
.LBB84_12:
	movs	r1, #1
	str	r6, [r3]
	movs	r0, #0
	strb.w	r1, [r9, #1]
	add	sp, #44
	pop.w	{r4, r5, r6, r7, r8, r9, r10, r11, pc}
.LBB84_13:
	movs	r0, #0
.LBB84_14:
	add	sp, #44
	pop.w	{r4, r5, r6, r7, r8, r9, r10, r11, lr}
	b	tlsf_c.call_fault.CallFault.refusal
.LBB84_15:
	movs	r0, #2
	b	.LBB84_14
.Lfunc_end84:
	.size	tlsf_queue_drain, .Lfunc_end84-tlsf_queue_drain
	.cfi_endproc
	.section	.text.tlsf_queue_open,"ax",%progbits
	.globl	tlsf_queue_open
	.p2align	2
	.type	tlsf_queue_open,%function
	.code	16
	.thumb_func
tlsf_queue_open:
	.cfi_startproc
	push.w	{r4, r5, r6, r7, r8, r9, r10, r11, lr}
	.cfi_def_cfa_offset 36
	.cfi_offset lr, -4
	.cfi_offset r11, -8
	.cfi_offset r10, -12
	.cfi_offset r9, -16
	.cfi_offset r8, -20
	.cfi_offset r7, -24
	.cfi_offset r6, -28
	.cfi_offset r5, -32
	.cfi_offset r4, -36
	sub	sp, #284
	.cfi_def_cfa_offset 320
	ldrb	r3, [r0, #8]
	mov	r10, r2
	movs	r2, #0
	strd	r2, r2, [sp, #88]
	strd	r2, r2, [sp, #80]
	str	r2, [sp, #76]
	str	r2, [sp, #72]
	cbz	r3, .LBB85_2
	movs	r0, #33
	add	sp, #284
	pop.w	{r4, r5, r6, r7, r8, r9, r10, r11, pc}
.LBB85_2:
	rsb.w	r3, r1, #1024
	rsb.w	r7, r10, #1024
	orrs	r3, r7
	cmp.w	r2, r3, lsr #10
	bne	.LBB85_7
	str	r0, [sp, #60]
	movs	r5, #0
	mov	r9, r1
	lsls	r1, r1, #4
	add	r0, sp, #232
	movs	r2, #8
	strd	r5, r5, [sp, #96]
	bl	tlsf_memory_alloc
	ldr	r0, [sp, #232]
	lsls	r0, r0, #31
	beq.w	.LBB85_68
	ldr	r0, [sp, #240]
	movs	r6, #1
	strd	r0, r5, [sp, #104]
	clz	r0, r10
	rsb.w	r1, r0, #32
	lsr.w	r11, r6, r0
	rsbs	r0, r0, #0
	lsl.w	r4, r6, r1
	strd	r5, r5, [sp, #112]
	strd	r9, r5, [sp, #120]
	it	pl
	lslpl.w	r11, r6, r0
	it	pl
	movpl	r4, #0
	adds.w	r8, r10, #48
	lsl.w	r7, r8, #3
	add	r0, sp, #232
	mov	r1, r7
	mov.w	r2, #8
	adc	r5, r5, #0
	bl	tlsf_memory_alloc
	ldr	r0, [sp, #232]
	lsls	r0, r0, #31
	beq.w	.LBB85_60
	strd	r4, r5, [sp, #32]
	ldr	r4, [sp, #240]
	sub.w	r2, r7, #8
	mov	r0, r4
	movs	r1, #0
	movs	r5, #0
	bl	tlsf_memory_set
	adds	r0, r4, r7
	cmp.w	r10, #1
	strd	r5, r5, [r0, #-8]
	it	hi
	movhi	r6, r10
	cmp.w	r10, #4
	and	r0, r6, #3
	str.w	r8, [sp, #40]
	bhs	.LBB85_8
	movs	r1, #0
	b	.LBB85_11
.LBB85_7:
	movs	r0, #5
	add	sp, #284
	pop.w	{r4, r5, r6, r7, r8, r9, r10, r11, pc}
.LBB85_8:
	mov	r12, r7
	bic	r2, r6, #3
	movs	r5, #0
	movs	r1, #0
	.p2align	2
.LBB85_9:
	add.w	r3, r4, r5, lsl #3
	strd	r5, r1, [r3, #384]
	orr	r3, r5, #1
	add.w	r7, r4, r3, lsl #3
	strd	r3, r1, [r7, #384]
	orr	r3, r5, #2
	add.w	r7, r4, r3, lsl #3
	strd	r3, r1, [r7, #384]
	orr	r3, r5, #3
	add.w	r7, r4, r3, lsl #3
	adds	r5, #4
	strd	r3, r1, [r7, #384]
	adc	r1, r1, #0
	eor.w	r3, r5, r2
	orrs	r3, r1
	bne	.LBB85_9
	mov	r7, r12
	cbz	r0, .LBB85_14
.LBB85_11:
	add.w	r2, r4, r5, lsl #3
	cmp	r0, #1
	strd	r5, r1, [r2, #384]
	beq	.LBB85_14
	adds	r2, r5, #1
	adc	r3, r1, #0
	mov	r6, r7
	add.w	r7, r4, r2, lsl #3
	cmp	r0, #2
	strd	r2, r3, [r7, #384]
	mov	r7, r6
	beq	.LBB85_14
	adds	r0, r5, #2
	adc	r1, r1, #0
	add.w	r2, r4, r0, lsl #3
	strd	r0, r1, [r2, #384]
.LBB85_14:
	add.w	r8, sp, #184
	movs	r5, #0
	lsl.w	r1, r10, #5
	mov	r0, r8
	movs	r2, #8
	str	r4, [sp, #52]
	strd	r5, r5, [sp, #160]
	strd	r5, r5, [sp, #152]
	strd	r5, r5, [sp, #144]
	bl	tlsf_memory_alloc
	ldr	r0, [sp, #184]
	lsls	r0, r0, #31
	beq.w	.LBB85_57
	ldr	r1, [sp, #192]
	add.w	r0, r9, #1
	str	r0, [sp, #24]
	strd	r10, r1, [sp, #64]
	strd	r10, r5, [sp, #248]
	add	r0, sp, #280
	mov.w	r12, #0
	mov.w	lr, #0
	mov.w	r9, #0
	mov.w	r10, #0
	str	r7, [sp, #56]
	str.w	r11, [sp, #28]
	strd	r1, r5, [sp, #232]
	strd	r5, r5, [sp, #240]
	strd	r0, r5, [sp, #256]
	b	.LBB85_18
.LBB85_16:
	ldr	r0, [sp, #232]
	ldrd	r6, r7, [sp, #240]
	add.w	r8, sp, #184
	str	r0, [sp, #68]
	.p2align	2
.LBB85_17:
	ldr	r1, [sp, #68]
	lsls	r4, r6, #5
	add.w	r0, r1, r6, lsl #5
	str	r5, [r1, r4]
	str	r5, [r0, #4]
	adds	r0, #8
	mov	r1, r8
	movs	r2, #24
	bl	tlsf_memory_cpy
	adds.w	r12, r6, #1
	ldr	r0, [sp, #64]
	adc	lr, r7, #0
	adds.w	r9, r9, #1
	adc	r10, r10, #0
	subs.w	r0, r9, r0
	sbcs	r0, r10, #0
	str.w	lr, [sp, #244]
	str.w	r12, [sp, #240]
	bhs	.LBB85_29
.LBB85_18:
	add	r1, sp, #144
	mov	r11, r5
	ldm.w	r1, {r2, r3, r4, r5, r6, r7}
	mov	r0, r8
	stm	r0!, {r2, r3, r4, r5, r6, r7}
	ldrd	r1, r0, [sp, #248]
	mov	r5, r11
	eor.w	r0, r0, lr
	eor.w	r1, r1, r12
	orrs	r0, r1
	mov	r6, r12
	mov	r7, lr
	bne	.LBB85_17
	add	r0, sp, #232
	bl	std_alloc.vec.Vec.grow_amortized.94730218a1e37034
	cmp	r0, #0
	bne	.LBB85_16
	ldr	r0, [sp, #232]
	ldrd	r1, r3, [sp, #240]
	ldrd	r2, r7, [sp, #248]
.LBB85_21:
	orrs.w	r6, r1, r3
	beq.w	.LBB85_56
	subs	r6, r1, #1
	lsl.w	r5, r6, #5
	ldrb	r4, [r0, r5]
	sbc	r5, r3, #0
	cmp	r4, #0
	bne.w	.LBB85_53
	orrs	r6, r5
	beq.w	.LBB85_56
	subs	r6, r1, #2
	lsl.w	r5, r6, #5
	ldrb	r4, [r0, r5]
	sbc	r5, r3, #0
	cmp	r4, #0
	bne.w	.LBB85_53
	orrs	r6, r5
	beq.w	.LBB85_56
	subs	r6, r1, #3
	lsl.w	r5, r6, #5
	ldrb	r4, [r0, r5]
	sbc	r5, r3, #0
	cmp	r4, #0
	bne.w	.LBB85_53
	orrs	r6, r5
	beq.w	.LBB85_56
	subs	r1, #4
	lsl.w	r6, r1, #5
	ldrb	r6, [r0, r6]
	sbc	r3, r3, #0
	cmp	r6, #0
	beq	.LBB85_21
	b	.LBB85_53
.LBB85_29:
	ldr	r1, [sp, #56]
	ldr	r5, [sp, #232]
	ldrd	r10, r11, [sp, #248]
	add	r0, sp, #232
	movs	r2, #8
	strd	lr, r12, [sp, #44]
	bl	tlsf_memory_alloc
	ldr	r0, [sp, #232]
	ldr.w	r8, [sp, #52]
	lsls	r0, r0, #31
	beq.w	.LBB85_44
	ldr	r0, [sp, #44]
	ldr	r2, [sp, #48]
	lsls	r0, r0, #5
	ldr.w	r9, [sp, #240]
	orr.w	r0, r0, r2, lsr #27
	cmp	r0, #0
	bmi.w	.LBB85_43
	mov.w	r1, #-1
	it	eq
	lsleq	r1, r2, #5
	add	r0, sp, #232
	movs	r2, #8
	bl	tlsf_memory_alloc
	ldr	r0, [sp, #232]
	lsls	r0, r0, #31
	beq.w	.LBB85_43
	ldr	r0, [sp, #240]
	ldr	r1, [sp, #40]
	str	r0, [sp, #20]
	ldr	r0, [sp, #64]
	ldr.w	lr, [sp, #36]
	and	r0, r0, #3
	str	r0, [sp, #4]
	movs	r0, #0
	bic	r1, r1, #3
	movs	r3, #0
	str	r7, [sp, #16]
	strd	r11, r10, [sp, #8]
	str	r5, [sp, #68]
	str	r1, [sp, #56]
.LBB85_33:
	add.w	r1, r8, r0, lsl #3
	ldr.w	r11, [r1, #4]
	ldr.w	r1, [r8, r0, lsl #3]
	add.w	r10, r9, r0, lsl #3
	str.w	r1, [r9, r0, lsl #3]
	orr	r5, r0, #1
	orr	r1, r0, #2
	orr	r7, r0, #3
	adds	r0, #4
	ldr	r2, [sp, #56]
	adc	r3, r3, #0
	eors	r2, r0
	eor.w	r12, r3, lr
	orrs.w	r2, r2, r12
	str.w	r11, [r10, #4]
	add.w	r2, r8, r5, lsl #3
	ldr.w	r12, [r8, r5, lsl #3]
	ldr	r2, [r2, #4]
	str.w	r12, [r9, r5, lsl #3]
	add.w	r5, r9, r5, lsl #3
	str	r2, [r5, #4]
	add.w	r2, r8, r1, lsl #3
	ldr.w	r5, [r8, r1, lsl #3]
	ldr	r2, [r2, #4]
	str.w	r5, [r9, r1, lsl #3]
	add.w	r1, r9, r1, lsl #3
	str	r2, [r1, #4]
	add.w	r1, r8, r7, lsl #3
	ldr	r1, [r1, #4]
	ldr.w	r2, [r8, r7, lsl #3]
	add.w	r5, r9, r7, lsl #3
	str.w	r2, [r9, r7, lsl #3]
	str	r1, [r5, #4]
	bne	.LBB85_33
	ldr	r5, [sp, #4]
	cbz	r5, .LBB85_38
	add.w	r1, r8, r0, lsl #3
	ldr	r1, [r1, #4]
	ldr.w	r2, [r8, r0, lsl #3]
	add.w	r3, r9, r0, lsl #3
	cmp	r5, #1
	str.w	r2, [r9, r0, lsl #3]
	str	r1, [r3, #4]
	beq	.LBB85_38
	adds	r1, r0, #1
	add.w	r2, r8, r1, lsl #3
	ldr	r2, [r2, #4]
	ldr.w	r3, [r8, r1, lsl #3]
	add.w	r7, r9, r1, lsl #3
	cmp	r5, #2
	str.w	r3, [r9, r1, lsl #3]
	str	r2, [r7, #4]
	beq	.LBB85_38
	adds	r0, #2
	add.w	r1, r8, r0, lsl #3
	ldr	r1, [r1, #4]
	ldr.w	r2, [r8, r0, lsl #3]
	add.w	r3, r9, r0, lsl #3
	str.w	r2, [r9, r0, lsl #3]
	str	r1, [r3, #4]
.LBB85_38:
	ldrd	r1, r0, [sp, #44]
	orrs	r0, r1
	beq.w	.LBB85_72
	ldr	r1, [sp, #48]
	ldr.w	r11, [sp, #44]
	ldr	r7, [sp, #16]
	ands	r10, r1, #3
	beq.w	.LBB85_70
	ldr	r0, [sp, #68]
	ldr	r7, [sp, #20]
	add.w	r1, r0, r6, lsl #5
	ldrb	r11, [r1], #8
	add	r0, sp, #232
	movs	r2, #24
	add.w	r5, r7, r6, lsl #5
	bl	tlsf_memory_cpy
	movs	r0, #0
	str.w	r11, [r7, r4]
	ldr	r7, [sp, #16]
	str	r0, [r5, #4]
	add.w	r0, r5, #8
	add	r1, sp, #232
	movs	r2, #24
	bl	tlsf_memory_cpy
	cmp.w	r10, #1
	mov	r1, r6
	mov	r11, r7
	beq.w	.LBB85_70
	subs	r0, r6, #1
	sbc	r1, r7, #0
	str	r1, [sp, #56]
	ldr	r1, [sp, #68]
	ldr.w	r11, [sp, #20]
	add.w	r1, r1, r0, lsl #5
	ldrb	r7, [r1], #8
	lsls	r5, r0, #5
	str	r0, [sp, #4]
	add.w	r4, r11, r0, lsl #5
	add	r0, sp, #232
	movs	r2, #24
	bl	tlsf_memory_cpy
	movs	r0, #0
	str	r0, [r4, #4]
	add.w	r0, r4, #8
	add	r1, sp, #232
	movs	r2, #24
	str.w	r7, [r11, r5]
	bl	tlsf_memory_cpy
	cmp.w	r10, #2
	bne.w	.LBB85_69
	ldr	r7, [sp, #16]
	ldr	r1, [sp, #4]
	ldr.w	r11, [sp, #56]
	b	.LBB85_70
.LBB85_43:
	mov	r0, r9
	bl	tlsf_memory_dealloc
.LBB85_44:
	ldrd	r7, r3, [sp, #44]
	.p2align	2
.LBB85_45:
	orrs.w	r0, r3, r7
	beq	.LBB85_54
	subs	r0, r3, #1
	lsl.w	r1, r0, #5
	ldrb	r2, [r5, r1]
	sbc	r1, r7, #0
	cbnz	r2, .LBB85_53
	orrs	r0, r1
	beq	.LBB85_54
	subs	r0, r3, #2
	lsl.w	r1, r0, #5
	ldrb	r2, [r5, r1]
	sbc	r1, r7, #0
	cbnz	r2, .LBB85_53
	orrs	r0, r1
	beq	.LBB85_54
	subs	r0, r3, #3
	lsl.w	r1, r0, #5
	ldrb	r2, [r5, r1]
	sbc	r1, r7, #0
	cbnz	r2, .LBB85_53
	orrs	r0, r1
	beq	.LBB85_54
	subs	r3, #4
	lsl.w	r0, r3, #5
	ldrb	r0, [r5, r0]
	sbc	r7, r7, #0
	cmp	r0, #0
	beq	.LBB85_45
.LBB85_53:
	.inst.n	0xdefe
.LBB85_54:
	orrs.w	r0, r11, r10
	beq	.LBB85_58
	mov	r0, r5
	bl	tlsf_memory_dealloc
	b	.LBB85_58
.LBB85_56:
	orrs.w	r1, r2, r7
	it	ne
	blne	tlsf_memory_dealloc
.LBB85_57:
	ldr.w	r8, [sp, #52]
.LBB85_58:
	mov	r0, r8
.LBB85_59:
	bl	tlsf_memory_dealloc
.LBB85_60:
	ldr	r0, [sp, #120]
	ldrd	r4, r10, [sp, #112]
	str	r0, [sp, #64]
	ldr	r0, [sp, #124]
	ldr	r7, [sp, #104]
	str	r0, [sp, #60]
	orrs.w	r0, r4, r10
	beq	.LBB85_65
	mov.w	r9, #0
	movs	r6, #5
	mov.w	r11, #0
	str	r7, [sp, #68]
	b	.LBB85_63
	.p2align	2
.LBB85_62:
	adds.w	r9, r9, #1
	adc	r11, r11, #0
	subs.w	r0, r9, r4
	sbcs.w	r0, r11, r10
	bhs	.LBB85_65
.LBB85_63:
	lsl.w	r0, r9, #4
	ldr	r5, [r7, r0]
	mov	r0, r5
	movs	r2, #1
	movs	r3, #0
	str	r6, [sp]
	bl	__atomic_fetch_sub_8
	eor	r0, r0, #1
	orrs	r0, r1
	bne	.LBB85_62
	mov	r8, r6
	ldr	r6, [r5, #40]
	ldr	r7, [r5, #56]
	mov	r0, r5
	bl	tlsf_memory_dealloc
	mov	r0, r6
	mov	r6, r8
	bl	tlsf_memory_dealloc
	mov	r0, r7
	ldr	r7, [sp, #68]
	bl	tlsf_memory_dealloc
	b	.LBB85_62
.LBB85_65:
	ldrd	r1, r0, [sp, #60]
	orrs	r0, r1
	beq	.LBB85_68
	mov	r0, r7
.LBB85_67:
	bl	tlsf_memory_dealloc
.LBB85_68:
	movs	r0, #6
	add	sp, #284
	pop.w	{r4, r5, r6, r7, r8, r9, r10, r11, pc}
.LBB85_69:
	ldr.w	r10, [sp, #16]
	subs	r4, r6, #2
	sbc	r0, r10, #0
	str	r0, [sp, #56]
	lsls	r0, r4, #5
	str	r0, [sp, #4]
	ldr	r0, [sp, #68]
	movs	r2, #24
	add.w	r1, r0, r4, lsl #5
	ldrb	r5, [r1], #8
	add	r0, sp, #232
	add.w	r7, r11, r4, lsl #5
	bl	tlsf_memory_cpy
	ldr	r0, [sp, #4]
	add	r1, sp, #232
	str.w	r5, [r11, r0]
	movs	r0, #0
	str	r0, [r7, #4]
	add.w	r0, r7, #8
	movs	r2, #24
	bl	tlsf_memory_cpy
	ldr.w	r11, [sp, #56]
	mov	r1, r4
	mov	r7, r10
.LBB85_70:
	subs	r0, r6, #3
	sbcs	r0, r7, #0
	ldr	r0, [sp, #68]
	ldr	r4, [sp, #20]
	blo	.LBB85_72
.LBB85_71:
	mvn	r2, #31
	add.w	r6, r2, r1, lsl #5
	mov	r10, r1
	adds	r1, r0, r6
	ldrb	r7, [r1], #8
	add	r0, sp, #232
	movs	r2, #24
	str.w	r11, [sp, #56]
	adds	r5, r4, r6
	mov	r11, r0
	bl	tlsf_memory_cpy
	movs	r0, #0
	str	r0, [r5, #4]
	add.w	r0, r5, #8
	mov	r1, r11
	movs	r2, #24
	str	r7, [r4, r6]
	bl	tlsf_memory_cpy
	mvn	r0, #63
	add.w	r5, r0, r10, lsl #5
	ldr	r0, [sp, #68]
	movs	r2, #24
	adds	r1, r0, r5
	ldrb	r6, [r1], #8
	mov	r0, r11
	ldr.w	r11, [sp, #56]
	adds	r7, r4, r5
	bl	tlsf_memory_cpy
	movs	r0, #0
	str	r0, [r7, #4]
	add.w	r0, r7, #8
	add	r1, sp, #232
	movs	r2, #24
	str	r6, [r4, r5]
	bl	tlsf_memory_cpy
	mvn	r0, #95
	add.w	r5, r0, r10, lsl #5
	ldr	r0, [sp, #68]
	movs	r2, #24
	adds	r1, r0, r5
	ldrb	r6, [r1], #8
	add	r0, sp, #232
	adds	r7, r4, r5
	bl	tlsf_memory_cpy
	movs	r0, #0
	str	r0, [r7, #4]
	add.w	r0, r7, #8
	add	r1, sp, #232
	movs	r2, #24
	str	r6, [r4, r5]
	bl	tlsf_memory_cpy
	ldr	r0, [sp, #68]
	subs.w	r10, r10, #4
	add.w	r1, r0, r10, lsl #5
	ldrb	r6, [r1], #8
	add	r0, sp, #232
	mov.w	r2, #24
	sbc	r11, r11, #0
	lsl.w	r5, r10, #5
	add.w	r7, r4, r10, lsl #5
	bl	tlsf_memory_cpy
	movs	r0, #0
	str	r0, [r7, #4]
	add.w	r0, r7, #8
	add	r1, sp, #232
	movs	r2, #24
	str	r6, [r4, r5]
	bl	tlsf_memory_cpy
	orrs.w	r0, r10, r11
	ldr	r0, [sp, #68]
	mov	r1, r10
	bne	.LBB85_71
.LBB85_72:
	ldrd	r1, r0, [sp, #8]
	ldr	r5, [sp, #64]
	orrs	r0, r1
	beq	.LBB85_74
	ldr	r0, [sp, #68]
	bl	tlsf_memory_dealloc
.LBB85_74:
	mov	r0, r8
	bl	tlsf_memory_dealloc
	ldr.w	r10, [sp, #24]
	ldr.w	r8, [sp, #28]
	ldr	r6, [sp, #20]
	mov	r4, r10
.LBB85_75:
	mov	r0, r9
	movs	r1, #5
	bl	__atomic_load_8
	subs	r4, #1
	bne	.LBB85_75
	ldr	r7, [sp, #40]
	mov	r4, r5
.LBB85_77:
	mov	r0, r9
	movs	r1, #5
	bl	__atomic_load_8
	subs	r4, #1
	bne	.LBB85_77
	add	r0, sp, #232
	movs	r1, #88
	movs	r2, #8
	bl	tlsf_memory_alloc
	ldr	r0, [sp, #232]
	lsls	r0, r0, #31
	beq	.LBB85_81
	ldr	r0, [sp, #240]
	movs	r2, #1
	str	r2, [r0]
	ldr	r2, [sp, #36]
	ldr	r3, [sp, #48]
	str	r2, [r0, #28]
	ldr	r4, [sp, #44]
	str	r2, [r0, #52]
	ldr	r2, [sp, #32]
	movs	r1, #0
	str	r1, [r0, #4]
	str.w	r9, [r0, #8]
	str	r1, [r0, #12]
	str	r6, [r0, #16]
	str	r1, [r0, #20]
	str	r7, [r0, #24]
	str	r3, [r0, #32]
	str	r4, [r0, #36]
	str.w	r9, [r0, #40]
	str	r1, [r0, #44]
	str	r7, [r0, #48]
	str	r6, [r0, #56]
	str	r1, [r0, #60]
	str	r3, [r0, #64]
	str	r4, [r0, #68]
	str	r1, [r0, #76]
	str	r5, [r0, #72]
	str	r2, [r0, #80]
	str.w	r8, [r0, #84]
	strd	r0, r1, [sp, #96]
	mov	r0, r9
	movs	r1, #5
	bl	__atomic_load_8
	add	r0, sp, #96
	add	r3, sp, #104
	movs	r1, #1
	mov	r2, r10
	bl	tlsf_post.mailboxes.send_out
	uxtb	r0, r0
	cbz	r0, .LBB85_82
	ldr	r0, [sp, #96]
	bl	std_alloc.arc.Arc.drop.f29941b0e8355977
	b	.LBB85_60
.LBB85_81:
	mov	r0, r9
	bl	tlsf_memory_dealloc
	mov	r0, r6
	b	.LBB85_59
.LBB85_82:
	ldr	r0, [sp, #104]
	ldrd	r10, r8, [sp, #96]
	str	r0, [sp, #68]
	ldrd	r11, r9, [sp, #112]
	ldrd	r6, r4, [sp, #120]
	add	r0, sp, #144
	movs	r1, #0
	movs	r2, #40
	movs	r7, #0
	bl	tlsf_memory_set
	add	r0, sp, #104
	movs	r1, #0
	movs	r2, #40
	bl	tlsf_memory_set
	orrs.w	r0, r11, r9
	beq.w	.LBB85_94
	cmp.w	r9, #268435456
	strd	r6, r4, [sp, #48]
	str.w	r9, [sp, #64]
	bhs	.LBB85_89
	lsl.w	r0, r9, #3
	orrs.w	r0, r0, r11, lsr #29
	mov.w	r1, #-1
	add	r0, sp, #232
	mov.w	r2, #8
	it	eq
	lsleq.w	r1, r11, #3
	bl	tlsf_memory_alloc
	ldr	r0, [sp, #232]
	lsls	r0, r0, #31
	beq	.LBB85_89
	ldr	r5, [sp, #240]
	str.w	r8, [sp, #36]
	str.w	r10, [sp, #44]
	mov	r8, r11
	add	r0, sp, #232
	mov.w	r10, #0
	movs	r6, #0
	str.w	r11, [sp, #40]
	str	r5, [sp, #56]
.LBB85_86:
	ldr	r2, [sp, #68]
	adds.w	r11, r10, #1
	lsl.w	r3, r10, #4
	add.w	r1, r2, r10, lsl #4
	adc	r4, r6, #0
	subs.w	r8, r8, #1
	ldr	r7, [r2, r3]
	ldr	r5, [r1, #8]
	mov.w	r1, #48
	mov.w	r2, #8
	sbc	r9, r9, #0
	bl	tlsf_memory_alloc
	ldr	r0, [sp, #232]
	lsls	r0, r0, #31
	beq.w	.LBB85_98
	ldr	r0, [sp, #240]
	movw	r1, #259
	str	r5, [r0, #16]
	ldr	r5, [sp, #56]
	movs	r2, #0
	strh	r1, [r0]
	str	r7, [r0, #8]
	str	r2, [r0, #12]
	str	r2, [r0, #20]
	str	r2, [r0, #24]
	str	r2, [r0, #28]
	str	r2, [r0, #32]
	str	r2, [r0, #36]
	str	r2, [r0, #40]
	str	r2, [r0, #44]
	str.w	r0, [r5, r10, lsl #3]
	orrs.w	r0, r8, r9
	add.w	r1, r5, r10, lsl #3
	mov	r10, r11
	mov	r6, r4
	add	r0, sp, #232
	str	r2, [r1, #4]
	bne	.LBB85_86
	ldr.w	r9, [sp, #64]
	ldr	r4, [sp, #52]
	ldrd	r10, r6, [sp, #44]
	ldrd	r8, r11, [sp, #36]
	movs	r7, #0
	b	.LBB85_95
.LBB85_89:
	movs	r5, #0
	mov.w	r8, #5
	movs	r4, #0
	b	.LBB85_91
.LBB85_90:
	adds	r5, #1
	adc	r4, r4, #0
	subs.w	r0, r5, r11
	sbcs.w	r0, r4, r9
	bhs	.LBB85_93
.LBB85_91:
	ldr	r1, [sp, #68]
	lsls	r0, r5, #4
	ldr	r6, [r1, r0]
	mov	r0, r6
	movs	r2, #1
	movs	r3, #0
	str.w	r8, [sp]
	bl	__atomic_fetch_sub_8
	eor	r0, r0, #1
	orrs	r0, r1
	bne	.LBB85_90
	ldr	r7, [r6, #40]
	ldr.w	r9, [r6, #56]
	mov	r0, r6
	bl	tlsf_memory_dealloc
	mov	r0, r7
	bl	tlsf_memory_dealloc
	mov	r0, r9
	ldr.w	r9, [sp, #64]
	bl	tlsf_memory_dealloc
	b	.LBB85_90
.LBB85_93:
	ldrd	r1, r0, [sp, #48]
	orrs	r0, r1
	bne.w	.LBB85_106
	b	.LBB85_107
.LBB85_94:
	add	r5, sp, #280
.LBB85_95:
	ldr	r0, [sp, #68]
	strd	r7, r7, [sp, #112]
	strd	r0, r7, [sp, #104]
	add	r0, sp, #104
	strd	r6, r4, [sp, #120]
	strd	r11, r9, [sp, #128]
	strd	r7, r7, [sp, #136]
	bl	std_alloc.vec.deque.VecDeque.drop.ca3d8856d46a41b8
	add	r0, sp, #232
	movs	r1, #48
	movs	r2, #8
	bl	tlsf_memory_alloc
	ldr	r0, [sp, #232]
	lsls	r0, r0, #31
	beq	.LBB85_97
	ldr	r1, [sp, #240]
	mov.w	r0, #258
	ldr	r2, [sp, #60]
	strh	r0, [r1]
	movs	r0, #0
	str.w	r10, [r1, #8]
	str.w	r8, [r1, #12]
	str	r0, [r1, #20]
	str	r0, [r1, #16]
	str	r5, [r1, #24]
	str	r0, [r1, #28]
	str.w	r11, [r1, #32]
	str.w	r9, [r1, #36]
	str.w	r11, [r1, #40]
	str.w	r9, [r1, #44]
	str	r1, [r2]
	movs	r1, #1
	str	r0, [r2, #4]
	strb	r1, [r2, #8]
	str.w	r0, [r2, #9]
	str	r0, [r2, #12]
	add	sp, #284
	pop.w	{r4, r5, r6, r7, r8, r9, r10, r11, pc}
.LBB85_97:
	mov	r0, r10
	bl	std_alloc.arc.Arc.drop.c4a047e811255370
	movs	r0, #0
	strd	r0, r11, [sp, #76]
	add	r0, sp, #72
	str	r5, [sp, #72]
	str.w	r9, [sp, #92]
	strd	r9, r11, [sp, #84]
	bl	std_alloc.vec.Vec.drop.7ac45d8413b9ad54
	b	.LBB85_68
.LBB85_98:
	str.w	r10, [sp, #60]
	str	r6, [sp, #64]
	movs	r0, #5
	str	r0, [sp]
	mov	r0, r7
	movs	r2, #1
	movs	r3, #0
	mov	r10, r11
	movs	r5, #0
	bl	__atomic_fetch_sub_8
	eor	r0, r0, #1
	orrs	r0, r1
	bne	.LBB85_100
	ldr.w	r11, [r7, #40]
	ldr	r6, [r7, #56]
	mov	r0, r7
	bl	tlsf_memory_dealloc
	mov	r0, r11
	bl	tlsf_memory_dealloc
	mov	r0, r6
	bl	tlsf_memory_dealloc
.LBB85_100:
	ldr	r0, [sp, #68]
	add	r1, sp, #144
	stm.w	r1, {r0, r5, r8, r9}
	ldr	r0, [sp, #48]
	str	r5, [sp, #180]
	str	r0, [sp, #160]
	ldr	r0, [sp, #52]
	strd	r4, r5, [sp, #172]
	strd	r0, r10, [sp, #164]
	add	r0, sp, #144
	bl	std_alloc.vec.deque.VecDeque.drop.ca3d8856d46a41b8
	ldrd	r10, r0, [sp, #60]
	orrs.w	r0, r0, r10
	beq	.LBB85_104
	add	r0, sp, #184
	add.w	r9, sp, #232
	add.w	r11, r0, #6
	add.w	r0, r9, #8
	ldr.w	r8, [sp, #56]
	ldr.w	r9, [sp, #64]
	movs	r7, #0
	movs	r6, #0
	str	r0, [sp, #68]
.LBB85_102:
	ldr.w	r4, [r8, r7, lsl #3]
	mov	r0, r11
	mov	r1, r4
	ldrh	r5, [r1], #8
	movs	r2, #40
	bl	tlsf_memory_cpy
	mov	r0, r4
	bl	tlsf_memory_dealloc
	movs	r0, #0
	strd	r0, r0, [sp, #232]
	ldr	r0, [sp, #68]
	mov	r1, r11
	movs	r2, #40
	strh.w	r5, [sp, #232]
	bl	tlsf_memory_cpy
	add	r0, sp, #232
	bl	tlsf_c.tlsf_c.any_end.AnyEnd.Destruct.drop
	adds	r7, #1
	adc	r6, r6, #0
	subs.w	r0, r7, r10
	sbcs.w	r0, r6, r9
	blo	.LBB85_102
	str.w	r8, [sp, #68]
	b	.LBB85_105
.LBB85_104:
	ldr	r0, [sp, #56]
	str	r0, [sp, #68]
.LBB85_105:
	ldr.w	r10, [sp, #44]
.LBB85_106:
	ldr	r0, [sp, #68]
	bl	tlsf_memory_dealloc
.LBB85_107:
	movs	r1, #5
	mov	r0, r10
	movs	r2, #1
	movs	r3, #0
	str	r1, [sp]
	bl	__atomic_fetch_sub_8
	eor	r0, r0, #1
	orrs	r0, r1
	bne.w	.LBB85_68
	ldr.w	r4, [r10, #40]
	ldr.w	r5, [r10, #56]
	mov	r0, r10
	bl	tlsf_memory_dealloc
	mov	r0, r4
	bl	tlsf_memory_dealloc
	mov	r0, r5
	b	.LBB85_67
.Lfunc_end85:
	.size	tlsf_queue_open, .Lfunc_end85-tlsf_queue_open
	.cfi_endproc
	.section	.text.tlsf_queue_post,"ax",%progbits
	.globl	tlsf_queue_post
	.p2align	2
	.type	tlsf_queue_post,%function
	.code	16
	.thumb_func
tlsf_queue_post:
	.cfi_startproc
	push.w	{r4, r5, r6, r7, r8, r9, r10, r11, lr}
	.cfi_def_cfa_offset 36
	.cfi_offset lr, -4
	.cfi_offset r11, -8
	.cfi_offset r10, -12
	.cfi_offset r9, -16
	.cfi_offset r8, -20
	.cfi_offset r7, -24
	.cfi_offset r6, -28
	.cfi_offset r5, -32
	.cfi_offset r4, -36
	sub	sp, #36
	.cfi_def_cfa_offset 72
	ldrb	r1, [r0, #8]
	cmp	r1, #0
	beq.w	.LBB86_12
	ldr	r7, [r0]
	ldrb	r0, [r7, #1]
	cmp	r0, #0
	beq.w	.LBB86_12
	ldrb	r0, [r7]
	cmp	r0, #3
	bne.w	.LBB86_13
	str	r2, [sp, #20]
	ldr	r0, [sp, #76]
	ldr	r5, [r7, #8]
	str	r0, [sp, #12]
	ldr	r0, [sp, #72]
	movs	r1, #5
	str	r0, [sp, #16]
	movs	r0, #0
	strb	r0, [r7, #1]
	ldr	r0, [r7, #16]
	mov	r9, r3
	str	r0, [sp, #8]
	ldr	r0, [r5, #8]
	adds	r0, #128
	bl	__atomic_load_8
	mov	r10, r0
	mov	r6, r1
	ldrd	r0, r1, [r5, #80]
	ldr	r2, [r5, #8]
	subs	r0, #1
	and.w	r11, r0, r10
	add.w	r0, r2, r11, lsl #3
	sbc	r8, r1, #0
	add.w	r0, r0, #384
	movs	r1, #5
	bl	__atomic_load_8
	lsrs	r2, r6, #30
	cmp	r2, #2
	bhi	.LBB86_11
	eor.w	r0, r0, r10
	eors	r1, r6
	orrs	r0, r1
	bne	.LBB86_11
	ldrd	r2, r3, [r5, #72]
	and.w	r0, r8, r6
	adds.w	r1, r11, #1
	adc	r4, r0, #0
	subs	r1, r1, r2
	sbcs.w	r1, r4, r3
	bhs	.LBB86_7
	adds.w	r2, r10, #1
	adc	r3, r6, #0
	b	.LBB86_8
.LBB86_7:
	ldrd	r2, r3, [r5, #80]
	subs.w	r1, r10, r11
	sbc.w	r0, r6, r0
	adds	r2, r2, r1
	adcs	r3, r0
.LBB86_8:
	ldr	r0, [r5, #8]
	adds	r0, #128
	movs	r4, #5
	add	r1, sp, #24
	strd	r10, r6, [sp, #24]
	str	r4, [sp]
	str	r4, [sp, #4]
	bl	__atomic_compare_exchange_8
	cbz	r0, .LBB86_11
	ldr	r0, [r5, #16]
	lsl.w	r1, r11, #5
	movs	r4, #1
	add.w	r2, r0, r11, lsl #5
	ldrb	r3, [r0, r1]
	str	r4, [r0, r1]
	movs	r0, #0
	str	r0, [r2, #4]
	str	r0, [r2, #12]
	ldr	r0, [sp, #20]
	ldr	r1, [sp, #8]
	str	r0, [r2, #16]
	ldr	r0, [sp, #12]
	cmp	r3, #0
	str	r0, [r2, #28]
	ldr	r0, [sp, #16]
	str	r1, [r2, #8]
	str.w	r9, [r2, #20]
	str	r0, [r2, #24]
	bne	.LBB86_15
	ldr	r1, [r5, #8]
	lsl.w	r0, r11, #3
	adds.w	r2, r10, #1
	add	r0, r1
	adc	r3, r6, #0
	add.w	r0, r0, #384
	movs	r1, #5
	str	r1, [sp]
	bl	__atomic_store_8
	strb	r4, [r7, #1]
	movs	r0, #0
	add	sp, #36
	pop.w	{r4, r5, r6, r7, r8, r9, r10, r11, pc}
.LBB86_11:
	ldr	r6, [r7, #8]
	movs	r1, #5
	ldr	r0, [r6, #8]
	adds	r0, #128
	bl	__atomic_load_8
	mov	r4, r0
	ldr	r0, [r6, #8]
	mov	r5, r1
	add.w	r0, r0, #256
	movs	r1, #5
	bl	__atomic_load_8
	ldrd	r2, r3, [r6, #80]
	subs	r2, r4, r2
	sbcs.w	r3, r5, r3
	eor.w	r0, r0, r2
	eor.w	r1, r1, r3
	mrs	r6, apsr
	orrs	r0, r1
	mov.w	r0, #37
	it	eq
	moveq	r0, #8
	movs	r2, #1
	movs	r1, #37
	strb	r2, [r7, #1]
	msr	apsr_nzcvq, r6
	it	lo
	movlo	r0, r1
	add	sp, #36
	pop.w	{r4, r5, r6, r7, r8, r9, r10, r11, pc}
.LBB86_12:
	movs	r0, #0
	b	.LBB86_14
.LBB86_13:
	movs	r0, #2
.LBB86_14:
	add	sp, #36
	pop.w	{r4, r5, r6, r7, r8, r9, r10, r11, lr}
	b	tlsf_c.call_fault.CallFault.refusal
.LBB86_15:
	.inst.n	0xdefe
.Lfunc_end86:
	.size	tlsf_queue_post, .Lfunc_end86-tlsf_queue_post
	.cfi_endproc
	.section	.text.tlsf_queue_take,"ax",%progbits
	.globl	tlsf_queue_take
	.p2align	2
	.type	tlsf_queue_take,%function
	.code	16
	.thumb_func
tlsf_queue_take:
	.cfi_startproc
	push	{r4, r5, r7, lr}
	.cfi_def_cfa_offset 16
	.cfi_offset lr, -4
	.cfi_offset r7, -8
	.cfi_offset r5, -12
	.cfi_offset r4, -16
	sub	sp, #32
	.cfi_def_cfa_offset 48
	ldrb	r2, [r0, #8]
	cbz	r2, .LBB87_7
	ldr	r5, [r0]
	ldrb	r0, [r5, #1]
	cbz	r0, .LBB87_7
	ldrb	r0, [r5]
	cmp	r0, #2
	bne	.LBB87_8
	movs	r0, #0
	mov	r4, r1
	add.w	r1, r5, #8
	strb	r0, [r5, #1]
	strd	r0, r0, [sp, #24]
	strd	r0, r0, [sp, #16]
	strd	r0, r0, [sp, #8]
	strd	r0, r0, [sp]
	mov	r0, sp
	bl	tlsf_c.queue_end.take_once
	ldrb.w	r0, [sp]
	cbz	r0, .LBB87_5
	ldrb.w	r0, [sp, #1]
	movw	r1, :lower16:.Lswitch.table.tlsf_queue_take
	movt	r1, :upper16:.Lswitch.table.tlsf_queue_take
	ldr.w	r0, [r1, r0, lsl #2]
	b	.LBB87_6
.LBB87_5:
	add	r3, sp, #16
	ldm	r3, {r0, r1, r2, r3}
	str	r1, [r4, #4]
	str	r0, [r4]
	str	r3, [r4, #12]
	str	r2, [r4, #8]
	movs	r0, #0
.LBB87_6:
	movs	r1, #1
	strb	r1, [r5, #1]
	add	sp, #32
	pop	{r4, r5, r7, pc}
.LBB87_7:
	movs	r0, #0
	b	.LBB87_9
.LBB87_8:
	movs	r0, #2
.LBB87_9:
	add	sp, #32
	pop.w	{r4, r5, r7, lr}
	b	tlsf_c.call_fault.CallFault.refusal
.Lfunc_end87:
	.size	tlsf_queue_take, .Lfunc_end87-tlsf_queue_take
	.cfi_endproc
	.section	.text.tlsf_read,"ax",%progbits
	.globl	tlsf_read
	.p2align	2
	.type	tlsf_read,%function
	.code	16
	.thumb_func
tlsf_read:
	.cfi_startproc
	push	{r4, r5, r6, r7, lr}
	.cfi_def_cfa_offset 20
	.cfi_offset lr, -4
	.cfi_offset r7, -8
	.cfi_offset r6, -12
	.cfi_offset r5, -16
	.cfi_offset r4, -20
	sub	sp, #12
	.cfi_def_cfa_offset 32
	ldr.w	r12, [sp, #44]
	ldrb	r1, [r0, #8]
	cmp.w	r12, #0
	it	eq
	addeq.w	r12, r12, #4096
	cmp	r1, #0
	beq	.LBB88_9
	ldr	r4, [r0]
	ldrb	r0, [r4]
	cmp	r0, #1
	bne	.LBB88_9
	ldr	r1, [r4, #24]
	movs	r0, #0
	cmp	r1, r2
	strb	r0, [r4]
	bne	.LBB88_11
	ldr	r0, [r4, #56]
	mov	r1, r2
	cmp	r3, r0
	bhs	.LBB88_11
	ldr	r0, [r4, #72]
	mvn	r1, #7
	and.w	r1, r1, r3, lsr #3
	adds	r5, r0, r1
	ldr	r0, [r0, r1]
	ldr	r5, [r5, #4]
	and	r1, r3, #63
	lsr.w	lr, r0, r1
	rsb.w	r0, r1, #32
	lsl.w	r0, r5, r0
	orr.w	r0, r0, lr
	subs	r1, #32
	it	pl
	lsrpl.w	r0, r5, r1
	lsls	r0, r0, #31
	mov	r1, r2
	beq	.LBB88_11
	add.w	r0, r4, #48
	ldr	r5, [r0]
	ldrb.w	r1, [r5, r3, lsl #3]
	lsls	r1, r1, #31
	mov	r1, r2
	bne	.LBB88_11
	add.w	r5, r5, r3, lsl #3
	ldr.w	lr, [sp, #36]
	ldrd	r1, r6, [r5, #8]
	ldr	r7, [sp, #32]
	eor.w	r6, r6, lr
	eors	r1, r7
	orrs	r1, r6
	mov	r1, r2
	bne	.LBB88_11
	ldr.w	lr, [sp, #48]
	ldr	r2, [sp, #40]
	ldr	r1, [r5, #16]
	adds.w	r6, lr, r2
	mov.w	r5, #0
	adc	r7, r5, #0
	subs	r1, r1, r6
	sbcs.w	r1, r5, r7
	bhs	.LBB88_10
	movs	r0, #7
	b	.LBB88_12
.LBB88_9:
	movs	r0, #32
	add	sp, #12
	pop	{r4, r5, r6, r7, pc}
.LBB88_10:
	mov	r1, r3
	mov	r3, r12
	strd	lr, r5, [sp]
	bl	tlsf_heap.region.Region.read.4
	mov	r0, r5
	b	.LBB88_12
.LBB88_11:
	mov	r0, r2
	bl	tlsf_heap.refusal.Refusal.of_name
	uxtb	r0, r0
	cmp	r0, #2
	mov.w	r0, #4
	it	eq
	moveq	r0, #3
.LBB88_12:
	movs	r1, #1
	strb	r1, [r4]
	add	sp, #12
	pop	{r4, r5, r6, r7, pc}
.Lfunc_end88:
	.size	tlsf_read, .Lfunc_end88-tlsf_read
	.cfi_endproc
	.section	.text.tlsf_reallocate,"ax",%progbits
	.globl	tlsf_reallocate
	.p2align	2
	.type	tlsf_reallocate,%function
	.code	16
	.thumb_func
tlsf_reallocate:
	.cfi_startproc
	ldrb	r3, [r0, #8]
	cmp	r3, #0
	itt	eq
	moveq	r0, #32
	bxeq	lr
.LBB89_1:
	push.w	{r4, r5, r6, r7, r8, r9, r10, r11, lr}
	.cfi_def_cfa_offset 36
	.cfi_offset lr, -4
	.cfi_offset r11, -8
	.cfi_offset r10, -12
	.cfi_offset r9, -16
	.cfi_offset r8, -20
	.cfi_offset r7, -24
	.cfi_offset r6, -28
	.cfi_offset r5, -32
	.cfi_offset r4, -36
	sub	sp, #124
	.cfi_def_cfa_offset 160
	ldr.w	r10, [r0]
	ldrb.w	r3, [r10]
	cmp	r3, #1
	bne	.LBB89_11
	movs	r3, #0
	strb.w	r3, [r10]
	mov	lr, r10
	ldr.w	r11, [r1]
	ldr	r3, [lr, #24]!
	cmp	r11, r3
	bne.w	.LBB89_21
	ldr.w	r9, [r1, #4]
	ldr.w	r3, [r10, #56]
	cmp	r9, r3
	mov	r3, r11
	bhs.w	.LBB89_21
	ldr.w	r3, [r10, #72]
	mvn	r5, #7
	and.w	r5, r5, r9, lsr #3
	adds	r4, r3, r5
	ldr	r4, [r4, #4]
	ldr	r3, [r3, r5]
	and	r5, r9, #63
	rsb.w	r6, r5, #32
	lsrs	r3, r5
	lsl.w	r6, r4, r6
	orrs	r3, r6
	subs.w	r6, r5, #32
	it	pl
	lsrpl.w	r3, r4, r6
	lsls	r3, r3, #31
	mov	r3, r11
	beq.w	.LBB89_21
	add.w	r3, r10, #48
	ldr.w	r12, [r3]
	ldr.w	r8, [r12, r9, lsl #3]
	lsls.w	r3, r8, #31
	mov	r3, r11
	bne.w	.LBB89_21
	add.w	r4, r12, r9, lsl #3
	ldr	r5, [r1, #12]
	ldrd	r3, r6, [r4, #8]
	ldr	r7, [r1, #8]
	eors	r6, r5
	eors	r3, r7
	orrs	r3, r6
	mov	r3, r11
	str	r7, [sp, #84]
	bne.w	.LBB89_21
	lsl.w	r3, r9, #3
	str	r3, [sp, #68]
	ldr	r3, [r4, #4]
	movs	r6, #0
	str	r3, [sp, #72]
	adds	r3, r2, #1
	adc	r7, r6, #0
	cmp	r2, #0
	itt	ne
	movne	r3, r2
	movne	r7, r6
	adds	r3, #31
	adc	r7, r7, #0
	lsrs	r3, r3, #3
	orr.w	r6, r3, r7, lsl #29
	cmp.w	r6, r8, lsr #2
	lsr.w	r7, r8, #2
	str	r5, [sp, #80]
	bls	.LBB89_12
	lsls.w	r3, r8, #30
	str.w	lr, [sp, #76]
	bmi	.LBB89_10
	add.w	r3, r7, r9
	ldr.w	r4, [r12, r3, lsl #3]
	mov	r5, r7
	lsls	r7, r4, #31
	mov	r7, r5
	bne.w	.LBB89_22
.LBB89_10:
	movs	r4, #0
	mov.w	lr, #0
	b	.LBB89_23
.LBB89_11:
	movs	r0, #32
	add	sp, #124
	pop.w	{r4, r5, r6, r7, r8, r9, r10, r11, pc}
.LBB89_12:
	str	r6, [sp, #64]
	ldrd	lr, r6, [r10, #32]
	str	r7, [sp, #76]
	and.w	r3, lr, r6
	adds	r3, #1
	beq.w	.LBB89_34
	ldr	r7, [r4, #16]
	movs	r3, #0
	cmp	r2, r7
	strd	r2, r3, [r4, #16]
	bls	.LBB89_18
	ands	r4, r7, #7
	str	r0, [sp, #60]
	beq	.LBB89_16
	ldr	r3, [sp, #68]
	strd	r6, lr, [sp, #44]
	add	r3, r7
	add.w	r12, r3, #24
	movw	r3, :lower16:.Lstatic.0
	movt	r3, :upper16:.Lstatic.0
	add	r3, r4
	str	r3, [sp, #56]
	rsb.w	r3, r4, #8
	str	r3, [sp, #40]
	add.w	r3, r10, #48
	ldr	r3, [r3]
	bic	r6, r12, #7
	adds	r5, r3, r6
	str	r4, [sp, #68]
	strd	r5, r3, [sp, #28]
	ldr	r3, [r3, r6]
	ldr.w	lr, [r5, #4]
	str	r6, [sp, #36]
	ldr	r6, [sp, #68]
	strd	r3, lr, [sp, #104]
	add	r3, sp, #104
	str	r1, [sp, #52]
	ldr	r1, [sp, #56]
	str	r2, [sp, #56]
	ldr	r2, [sp, #40]
	adds	r0, r3, r6
	bl	tlsf_memory_cpy
	ldrd	r3, r12, [sp, #104]
	ldrd	r5, r4, [sp, #32]
	ldrd	r6, lr, [sp, #44]
	ldr	r0, [sp, #60]
	ldrd	r1, r2, [sp, #52]
	str	r3, [r5, r4]
	ldr	r3, [sp, #28]
	ldr	r4, [sp, #68]
	str.w	r12, [r3, #4]
.LBB89_16:
	lsrs	r3, r7, #3
	cmp	r4, #0
	mov.w	r12, #1
	it	ne
	addne.w	r3, r12, r7, lsr #3
	lsrs	r4, r2, #3
	lsls	r7, r2, #29
	it	ne
	addne.w	r4, r12, r2, lsr #3
	cmp	r4, r3
	beq	.LBB89_18
	add.w	r5, r10, #48
	subs	r7, r4, r3
	ldr	r4, [r5]
	add	r3, r9
	add.w	r3, r4, r3, lsl #3
	lsl.w	r12, r7, #3
	add.w	r0, r3, #24
	mov	r4, r1
	movs	r1, #0
	mov	r7, r2
	mov	r2, r12
	mov	r5, lr
	bl	tlsf_memory_set
	ldr	r0, [sp, #60]
	mov	lr, r5
	mov	r2, r7
	mov	r1, r4
.LBB89_18:
	ldr	r5, [sp, #64]
	ldr	r7, [sp, #76]
	adds	r3, r5, #4
	cmp	r7, r3
	mov	r3, r7
	blo	.LBB89_20
	ldr	r3, [sp, #72]
	strd	lr, r6, [sp, #8]
	mov	r7, r0
	add.w	r0, r10, #48
	mov	r6, r1
	mov	r1, r9
	mov	r4, r2
	mov	r2, r8
	str	r5, [sp]
	bl	tlsf_heap.refitting.split_off.4
	mov	r0, r7
	ldr	r7, [sp, #76]
	mov	r2, r4
	mov	r1, r6
	mov	r3, r5
.LBB89_20:
	subs	r3, r3, r7
	ldrd	r7, r5, [r10, #32]
	ldr.w	r6, [r10, #40]
	adds	r7, #1
	add	r3, r6
	adc	r6, r5, #0
	strd	r7, r6, [r10, #32]
	str.w	r3, [r10, #40]
	b	.LBB89_54
.LBB89_21:
	mov	r0, r11
	mov	r1, r3
	bl	tlsf_heap.refusal.Refusal.of_name
	uxtb	r0, r0
	movs	r1, #1
	cmp	r0, #3
	mov.w	r0, #3
	strb.w	r1, [r10]
	it	eq
	moveq	r0, #4
	add	sp, #124
	pop.w	{r4, r5, r6, r7, r8, r9, r10, r11, pc}
.LBB89_22:
	add.w	r3, r12, r3, lsl #3
	ldr.w	lr, [r3, #4]
.LBB89_23:
	add.w	r3, r7, r4, lsr #2
	cmp	r3, r6
	mov.w	r5, #-1
	bhs	.LBB89_27
	ldr	r3, [sp, #84]
	str.w	r11, [sp, #88]
	str	r3, [sp, #96]
	ldr	r3, [sp, #80]
	ldrd	r11, lr, [r10, #32]
	str	r3, [sp, #100]
	subs	r3, r5, #2
	sbc	r7, r5, #0
	subs.w	r3, r3, r11
	sbcs.w	r3, r7, lr
	str.w	r9, [sp, #92]
	blo.w	.LBB89_34
	cmp.w	r6, #1048576
	bls.w	.LBB89_35
.LBB89_26:
	ldrd	r0, r1, [r10, #8]
	adds	r0, #1
	it	hs
	movhs.w	r0, #-1
	cmp	r2, r1
	it	hi
	movhi	r1, r2
	strd	r0, r1, [r10, #8]
	movs	r0, #1
	strb.w	r0, [r10]
	add	sp, #124
	pop.w	{r4, r5, r6, r7, r8, r9, r10, r11, pc}
.LBB89_27:
	ldrd	r3, r12, [r10, #32]
	str	r7, [sp, #76]
	mov	r7, r5
	mov	r5, r6
	eor.w	r6, r12, r7
	eors	r7, r3
	orrs	r6, r7
	beq	.LBB89_34
	strd	r3, r12, [sp, #16]
	strd	r4, lr, [sp]
	add.w	r4, r10, #48
	ldr	r3, [sp, #72]
	str	r1, [sp, #52]
	str	r0, [sp, #60]
	mov	r0, r4
	mov	r1, r9
	str	r2, [sp, #56]
	mov	r2, r8
	str	r5, [sp, #8]
	bl	tlsf_heap.refitting.recut.4
	ldr	r1, [r4]
	ldr	r7, [sp, #68]
	ldr	r2, [sp, #56]
	add	r1, r7
	ldr	r5, [r1, #16]
	mov	r8, r0
	ldr	r0, [sp, #60]
	movs	r3, #0
	cmp	r2, r5
	strd	r2, r3, [r1, #16]
	bls	.LBB89_33
	ands	r6, r5, #7
	beq	.LBB89_31
	adds	r0, r7, r5
	add.w	r3, r10, #48
	adds	r0, #24
	ldr	r4, [r3]
	bic	r7, r0, #7
	movw	r1, :lower16:.Lstatic.0
	adds	r0, r4, r7
	movt	r1, :upper16:.Lstatic.0
	str	r0, [sp, #72]
	ldr.w	r12, [r4, r7]
	ldr	r3, [r0, #4]
	add	r0, sp, #104
	add	r1, r6
	rsb.w	r2, r6, #8
	add	r0, r6
	strd	r12, r3, [sp, #104]
	bl	tlsf_memory_cpy
	ldrd	r1, r3, [sp, #104]
	ldrd	r2, r0, [sp, #56]
	str	r1, [r4, r7]
	ldr	r1, [sp, #72]
	add.w	r4, r10, #48
	str	r3, [r1, #4]
.LBB89_31:
	lsrs	r1, r5, #3
	cmp	r6, #0
	mov.w	r7, #1
	it	ne
	addne.w	r1, r7, r5, lsr #3
	lsrs	r3, r2, #3
	lsls	r6, r2, #29
	it	ne
	addne.w	r3, r7, r2, lsr #3
	cmp	r3, r1
	beq	.LBB89_33
	ldr	r0, [r4]
	subs	r2, r3, r1
	add	r1, r9
	add.w	r0, r0, r1, lsl #3
	adds	r0, #24
	lsls	r2, r2, #3
	movs	r1, #0
	bl	tlsf_memory_set
	ldrd	r2, r0, [sp, #56]
.LBB89_33:
	ldr	r3, [sp, #76]
	ldrd	r1, r7, [r10, #40]
	sub.w	r3, r8, r3
	add	r3, r1
	cmp	r7, r3
	str.w	r3, [r10, #40]
	ldr	r1, [sp, #52]
	it	lo
	strlo.w	r3, [r10, #44]
	ldrd	r3, r7, [r10, #32]
	adds	r3, #1
	adc	r7, r7, #0
	strd	r3, r7, [r10, #32]
	b	.LBB89_54
.LBB89_34:
	movs	r0, #1
	strb.w	r0, [r10]
	movs	r0, #2
	add	sp, #124
	pop.w	{r4, r5, r6, r7, r8, r9, r10, r11, pc}
.LBB89_35:
	orr	r3, r6, #16
	clz	r3, r3
	rsb.w	r3, r3, #27
	subs	r7, r6, #1
	lsrs	r7, r3
	add.w	r3, r7, r3, lsl #4
	adds	r3, #1
	str	r6, [sp, #64]
	subs	r3, #1
	mov.w	r6, #0
	sbc	r6, r6, #0
	lsrs	r5, r3, #4
	orr.w	r5, r5, r6, lsl #28
	add.w	r8, r10, #108
	ldr.w	r4, [r8, r5, lsl #2]
	and	r7, r7, #15
	lsr.w	r7, r4, r7
	bics	r4, r7, #1
	beq	.LBB89_37
	rbit	r7, r4
	clz	r7, r7
	adds	r5, r3, r7
	adc	r3, r6, #0
	lsrs	r7, r5, #4
	orr.w	r6, r7, r3, lsl #28
	b	.LBB89_39
.LBB89_37:
	ldr.w	r3, [r10, #104]
	mvn	r7, #1
	lsls	r7, r5
	ands	r3, r7
	beq.w	.LBB89_26
	rbit	r3, r3
	clz	r3, r3
	ldr.w	r7, [r8, r3, lsl #2]
	rbit	r7, r7
	clz	r7, r7
	add.w	r5, r7, r3, lsl #4
	lsrs	r6, r5, #4
.LBB89_39:
	add.w	r8, r10, #192
	ldr.w	r9, [r8, r5, lsl #2]
	add.w	r3, r12, r9, lsl #3
	ldr	r3, [r3, #16]
	lsl.w	r7, r9, #3
	adds	r4, r3, #1
	beq	.LBB89_41
	mov	r4, r7
	add.w	r7, r12, r3, lsl #3
	mov.w	r6, #-1
	str	r6, [r7, #20]
	str.w	r3, [r8, r5, lsl #2]
	add.w	r3, r10, #48
	ldr.w	r12, [r3]
	mov	r7, r4
	b	.LBB89_43
.LBB89_41:
	mov.w	r3, #-1
	str.w	r3, [r8, r5, lsl #2]
	add.w	r3, r10, #108
	ldr.w	r4, [r3, r6, lsl #2]
	and	r5, r5, #15
	mov.w	r8, #1
	lsl.w	r5, r8, r5
	bics	r4, r5
	str.w	r4, [r3, r6, lsl #2]
	bne	.LBB89_43
	ldr.w	r4, [r10, #104]
	lsl.w	r3, r8, r6
	bic.w	r3, r4, r3
	str.w	r3, [r10, #104]
.LBB89_43:
	add.w	r4, r12, r7
	str	r7, [sp, #72]
	ldr.w	r8, [r12, r7]
	ldr	r7, [sp, #64]
	ldr	r3, [r4, #4]
	sub.w	r5, r8, r7, lsl #2
	cmp	r5, #15
	strd	lr, r11, [sp, #80]
	bhi	.LBB89_45
	subs.w	r7, r8, #1
	sbc	r3, r3, #0
	movs	r6, #0
	strd	r7, r3, [r4]
	strd	r11, lr, [r4, #8]
	strd	r2, r6, [r4, #16]
	lsrs	r3, r7, #2
	b	.LBB89_51
.LBB89_45:
	add.w	r6, r9, r7
	subs.w	r7, r8, r5
	sbc	r3, r3, #0
	mov.w	r8, #0
	strd	r7, r3, [r4]
	add.w	r3, r12, r6, lsl #3
	strd	r11, lr, [r4, #8]
	strd	r2, r8, [r4, #16]
	str.w	r5, [r12, r6, lsl #3]
	strd	r9, r11, [r3, #4]
	str.w	lr, [r3, #12]
	movw	r7, #65528
	ldr.w	r3, [r10, #72]
	movt	r7, #8191
	and.w	r7, r7, r6, lsr #3
	ldr.w	r12, [r3, r7]
	and	r4, r6, #63
	mov.w	r8, #1
	mov	r11, r6
	subs.w	r6, r4, #32
	lsl.w	lr, r8, r4
	str	r6, [sp, #56]
	it	pl
	movpl.w	lr, #0
	orr.w	r6, r12, lr
	str	r6, [r3, r7]
	add	r3, r7
	ldr	r7, [r3, #4]
	rsb.w	r6, r4, #32
	lsr.w	r6, r8, r6
	ldr	r4, [sp, #56]
	it	pl
	lslpl.w	r6, r8, r4
	orrs	r7, r6
	str	r7, [r3, #4]
	lsls	r3, r5, #30
	lsr.w	r3, r5, #2
	bmi	.LBB89_47
	add.w	r7, r10, #48
	ldr	r7, [r7]
	add.w	r6, r3, r11
	add.w	r7, r7, r6, lsl #3
	str.w	r11, [r7, #4]
.LBB89_47:
	orr	r7, r3, #16
	clz	r7, r7
	rsb.w	r7, r7, #27
	lsr.w	r12, r3, r7
	add.w	r5, r12, r7, lsl #4
	add.w	r7, r10, #192
	ldr.w	r4, [r7, r5, lsl #2]
	lsl.w	r3, r11, #3
	cmp.w	r4, #-1
	add.w	r6, r10, #108
	str.w	r11, [r7, r5, lsl #2]
	ble	.LBB89_49
	add.w	r7, r10, #48
	ldr	r7, [r7]
	mov.w	r6, #-1
	add	r3, r7
	strd	r4, r6, [r3, #16]
	add.w	r3, r7, r4, lsl #3
	str.w	r11, [r3, #20]
	b	.LBB89_50
.LBB89_49:
	ldr.w	r7, [r10, #48]
	mov.w	lr, #1
	add	r3, r7
	mov.w	r7, #-1
	strd	r7, r7, [r3, #16]
	lsrs	r3, r5, #4
	ldr.w	r7, [r10, #104]
	lsl.w	r4, lr, r3
	orrs	r7, r4
	ldr.w	r5, [r6, r3, lsl #2]
	str.w	r7, [r10, #104]
	and	r7, r12, #15
	lsl.w	r7, lr, r7
	orrs	r7, r5
	str.w	r7, [r6, r3, lsl #2]
.LBB89_50:
	ldr	r3, [sp, #64]
	ldr.w	lr, [sp, #80]
.LBB89_51:
	ldrd	r7, r6, [r10, #40]
	mov	r4, r0
	add	r3, r7
	cmp	r6, r3
	str.w	r3, [r10, #40]
	it	lo
	strlo.w	r3, [r10, #44]
	mov	r8, r1
	ldrd	r0, r1, [r10, #32]
	str	r2, [sp, #56]
	adds	r0, #1
	adc	r2, r1, #0
	ldr	r1, [sp, #64]
	ldr.w	r11, [r10, #24]
	ldr	r6, [sp, #72]
	subs	r1, #3
	add.w	r5, r10, #48
	strd	r0, r2, [r10, #32]
	beq	.LBB89_53
	ldr	r0, [r5]
	lsls	r2, r1, #3
	add	r0, r6
	adds	r0, #24
	movs	r1, #0
	bl	tlsf_memory_set
	ldr.w	lr, [sp, #80]
.LBB89_53:
	ldr	r1, [sp, #84]
	ldr	r0, [r5]
	str	r1, [sp, #112]
	ldr	r1, [sp, #68]
	strd	r11, r9, [sp, #104]
	add	r1, r0
	add	r0, r6
	ldr	r3, [r1, #16]
	ldr	r0, [r0, #16]
	str.w	lr, [sp, #116]
	cmp	r0, r3
	it	lo
	movlo	r3, r0
	ldr	r6, [sp, #76]
	add	r5, sp, #88
	add	r2, sp, #104
	mov	r0, r6
	mov	r1, r5
	bl	tlsf_heap.heap.Heap.copy.4
	mov	r0, r6
	mov	r1, r5
	bl	tlsf_heap.heap.Heap.release_live.4
	ldr	r2, [sp, #56]
	mov	r1, r8
	mov	r0, r4
.LBB89_54:
	cmp	r2, #0
	it	eq
	addeq	r2, #1
	subs	r2, #1
	movs	r3, #1
	lsls	r2, r2, #28
	strb.w	r3, [r10]
	bpl	.LBB89_56
	ldrb	r2, [r0, #28]
	cmp	r2, #0
	itt	eq
	moveq	r2, #1
	strbeq	r2, [r0, #28]
.LBB89_56:
	ldr	r0, [sp, #84]
	str.w	r11, [r1]
	str	r0, [r1, #8]
	ldr	r0, [sp, #80]
	str.w	r9, [r1, #4]
	str	r0, [r1, #12]
	movs	r0, #0
	add	sp, #124
	pop.w	{r4, r5, r6, r7, r8, r9, r10, r11, pc}
.Lfunc_end89:
	.size	tlsf_reallocate, .Lfunc_end89-tlsf_reallocate
	.cfi_endproc
	.section	.text.tlsf_release,"ax",%progbits
	.globl	tlsf_release
	.p2align	2
	.type	tlsf_release,%function
	.code	16
	.thumb_func
tlsf_release:
	.cfi_startproc
	mov	r12, r3
	mov	r1, r2
	ldrd	r2, r3, [sp]
	str.w	r12, [sp]
	b	tlsf_c.heap_calls.release_named
.Lfunc_end90:
	.size	tlsf_release, .Lfunc_end90-tlsf_release
	.cfi_endproc
	.section	.text.tlsf_release_all,"ax",%progbits
	.globl	tlsf_release_all
	.p2align	2
	.type	tlsf_release_all,%function
	.code	16
	.thumb_func
tlsf_release_all:
	.cfi_startproc
	push.w	{r4, r5, r6, r7, r8, r9, r10, r11, lr}
	.cfi_def_cfa_offset 36
	.cfi_offset lr, -4
	.cfi_offset r11, -8
	.cfi_offset r10, -12
	.cfi_offset r9, -16
	.cfi_offset r8, -20
	.cfi_offset r7, -24
	.cfi_offset r6, -28
	.cfi_offset r5, -32
	.cfi_offset r4, -36
	sub	sp, #52
	.cfi_def_cfa_offset 88
	ldrb	r3, [r0, #8]
	cmp	r1, #0
	it	eq
	addeq.w	r1, r1, #4096
	cmp	r3, #0
	beq.w	.LBB91_23
	ldr.w	r8, [r0]
	ldrb.w	r0, [r8]
	cmp	r0, #0
	beq.w	.LBB91_23
	movs	r0, #0
	cmp	r2, #0
	strb.w	r0, [r8]
	beq.w	.LBB91_22
	movs	r7, #0
	mov.w	r9, #0
	b	.LBB91_7
.LBB91_4:
	adds	r3, r4, #1
	adc	r5, lr, #0
	strd	r3, r5, [r8, #32]
	strd	r0, r11, [sp]
	strd	r4, lr, [sp, #8]
	ldr	r3, [sp, #40]
	add.w	r0, r8, #48
	mov	r4, r2
	mov	r2, r6
	str.w	r12, [sp, #16]
	mov	r5, r1
	bl	tlsf_heap.fitting.merge_next.4
.LBB91_5:
	mov	r2, r4
	mov	r1, r5
	.p2align	2
.LBB91_6:
	adds	r7, #1
	adc	r9, r9, #0
	subs	r0, r7, r2
	sbcs	r0, r9, #0
	bhs.w	.LBB91_22
.LBB91_7:
	lsls	r0, r7, #4
	ldr	r0, [r1, r0]
	ldr.w	r3, [r8, #24]
	cmp	r0, r3
	bne	.LBB91_6
	add.w	r3, r1, r7, lsl #4
	ldr.w	r12, [r3, #4]
	ldr.w	r0, [r8, #56]
	cmp	r12, r0
	bhs	.LBB91_6
	ldr.w	r0, [r8, #72]
	mvn	r6, #7
	and.w	r4, r6, r12, lsr #3
	adds	r6, r0, r4
	ldr	r6, [r6, #4]
	ldr	r0, [r0, r4]
	and	r4, r12, #63
	rsb.w	r5, r4, #32
	lsrs	r0, r4
	lsl.w	r5, r6, r5
	orrs	r0, r5
	subs.w	r5, r4, #32
	it	pl
	lsrpl.w	r0, r6, r5
	lsls	r0, r0, #31
	beq	.LBB91_6
	add.w	r0, r8, #48
	ldr.w	r11, [r0]
	ldr.w	r0, [r11, r12, lsl #3]
	lsls	r6, r0, #31
	bne	.LBB91_6
	add.w	r10, r11, r12, lsl #3
	ldr	r6, [r3, #12]
	ldrd	r5, r4, [r10, #8]
	ldr	r3, [r3, #8]
	eors	r6, r4
	eors	r3, r5
	orrs	r3, r6
	bne	.LBB91_6
	ldrd	r4, lr, [r8, #32]
	mov.w	r5, #-1
	eor.w	r3, lr, r5
	eors	r5, r4
	orrs	r3, r5
	beq	.LBB91_6
	ldr.w	r3, [r10, #4]
	lsrs	r6, r0, #2
	str	r3, [sp, #44]
	ldr.w	r3, [r8, #40]
	lsls	r5, r0, #30
	sub.w	r3, r3, r0, lsr #2
	str.w	r3, [r8, #40]
	str	r6, [sp, #36]
	bmi	.LBB91_15
	add.w	r3, r6, r12
	add.w	r5, r11, r3, lsl #3
	ldr.w	r3, [r11, r3, lsl #3]
	str	r3, [sp, #48]
	ldr	r3, [r5, #4]
	b	.LBB91_16
.LBB91_15:
	movs	r3, #0
	str	r3, [sp, #48]
.LBB91_16:
	str	r3, [sp, #40]
	ldr	r6, [sp, #44]
	cmp.w	r12, #0
	itt	ne
	ldrne.w	r3, [r11, r6, lsl #3]
	lslsne.w	r5, r3, #31
	bne	.LBB91_20
	mov	r11, r6
	ldr	r6, [sp, #48]
	lsls	r3, r6, #31
	bne.w	.LBB91_4
	orr	r0, r0, #1
	strd	r0, r11, [r10]
	strd	r4, lr, [r10, #8]
	ldrd	r3, r0, [r8, #32]
	ldr	r6, [sp, #36]
	adds	r3, #1
	adc	r0, r0, #0
	strd	r3, r0, [r8, #32]
	orr	r0, r6, #16
	clz	r0, r0
	rsb.w	r3, r0, #27
	lsr.w	r0, r6, r3
	add.w	r4, r0, r3, lsl #4
	add.w	r5, r8, #192
	ldr.w	r3, [r5, r4, lsl #2]
	lsl.w	r6, r12, #3
	cmp.w	r3, #-1
	str.w	r12, [r5, r4, lsl #2]
	ble	.LBB91_21
	mov.w	r5, #-1
	add.w	r4, r8, #48
	adds	r0, r5, r3
	ldr	r4, [r4]
	adc	r5, r5, #0
	adds	r0, #1
	sbc	r5, r5, #0
	add	r6, r4
	strd	r0, r5, [r6, #16]
	add.w	r0, r4, r3, lsl #3
	str.w	r12, [r0, #20]
	b	.LBB91_6
.LBB91_20:
	add.w	r5, r11, r6, lsl #3
	ldr.w	r10, [r5, #4]
	adds.w	r11, r4, #1
	adc	r5, lr, #0
	strd	r11, r5, [r8, #32]
	strd	r0, r6, [sp, #24]
	strd	r3, r10, [sp]
	strd	r4, lr, [sp, #8]
	mov	r4, r2
	ldr	r2, [sp, #48]
	ldr	r3, [sp, #40]
	add.w	r0, r8, #48
	str.w	r12, [sp, #16]
	mov	r5, r1
	bl	tlsf_heap.fitting.merge_before.4
	b	.LBB91_5
.LBB91_21:
	ldr.w	r3, [r8, #48]
	add.w	r12, r8, #108
	add	r3, r6
	mov.w	r6, #-1
	strd	r6, r6, [r3, #16]
	lsrs	r3, r4, #4
	ldr.w	r6, [r8, #104]
	ldr.w	r5, [r12, r3, lsl #2]
	mov.w	lr, #1
	and	r0, r0, #15
	lsl.w	r4, lr, r3
	lsl.w	r0, lr, r0
	orrs	r6, r4
	orrs	r0, r5
	str.w	r6, [r8, #104]
	str.w	r0, [r12, r3, lsl #2]
	b	.LBB91_6
.LBB91_22:
	movs	r1, #1
	movs	r0, #0
	strb.w	r1, [r8]
	add	sp, #52
	pop.w	{r4, r5, r6, r7, r8, r9, r10, r11, pc}
.LBB91_23:
	movs	r0, #0
	add	sp, #52
	pop.w	{r4, r5, r6, r7, r8, r9, r10, r11, lr}
	b	tlsf_c.call_fault.CallFault.refusal
.Lfunc_end91:
	.size	tlsf_release_all, .Lfunc_end91-tlsf_release_all
	.cfi_endproc
	.section	.text.tlsf_release_place,"ax",%progbits
	.globl	tlsf_release_place
	.p2align	2
	.type	tlsf_release_place,%function
	.code	16
	.thumb_func
tlsf_release_place:
	.cfi_startproc
	push.w	{r4, r5, r6, r7, r8, r9, r10, r11, lr}
	.cfi_def_cfa_offset 36
	.cfi_offset lr, -4
	.cfi_offset r11, -8
	.cfi_offset r10, -12
	.cfi_offset r9, -16
	.cfi_offset r8, -20
	.cfi_offset r7, -24
	.cfi_offset r6, -28
	.cfi_offset r5, -32
	.cfi_offset r4, -36
	sub	sp, #36
	.cfi_def_cfa_offset 72
	ldrb	r2, [r0, #8]
	cmp	r2, #0
	beq.w	.LBB92_16
	ldr	r4, [r0]
	ldrb	r0, [r4]
	cmp	r0, #0
	beq.w	.LBB92_16
	ldr	r0, [r4, #56]
	movs	r2, #0
	cmp	r1, r0
	strb	r2, [r4]
	bhs.w	.LBB92_15
	ldr	r0, [r4, #72]
	mvn	r2, #7
	and.w	r2, r2, r1, lsr #3
	adds	r3, r0, r2
	ldr	r3, [r3, #4]
	ldr	r0, [r0, r2]
	and	r2, r1, #63
	rsb.w	r7, r2, #32
	lsrs	r0, r2
	lsl.w	r7, r3, r7
	orrs	r0, r7
	subs	r2, #32
	it	pl
	lsrpl.w	r0, r3, r2
	lsls	r0, r0, #31
	beq	.LBB92_15
	add.w	r0, r4, #48
	ldr	r7, [r0]
	ldr.w	r5, [r7, r1, lsl #3]
	lsls	r2, r5, #31
	bne	.LBB92_15
	ldrd	lr, r12, [r4, #32]
	and.w	r2, lr, r12
	adds	r2, #1
	beq	.LBB92_8
	add.w	r11, r7, r1, lsl #3
	ldr	r2, [r4, #40]
	ldr.w	r9, [r11, #4]
	lsr.w	r8, r5, #2
	sub.w	r2, r2, r5, lsr #2
	lsls	r3, r5, #30
	str	r2, [r4, #40]
	bmi	.LBB92_9
	add.w	r2, r8, r1
	add.w	r3, r7, r2, lsl #3
	ldr.w	r2, [r7, r2, lsl #3]
	ldr	r3, [r3, #4]
	b	.LBB92_10
.LBB92_8:
	movs	r0, #2
	b	.LBB92_20
.LBB92_9:
	movs	r2, #0
	movs	r3, #0
.LBB92_10:
	cmp	r1, #0
	itt	ne
	ldrne.w	r10, [r7, r9, lsl #3]
	lslsne.w	r6, r10, #31
	bne	.LBB92_17
	lsls	r6, r2, #31
	bne	.LBB92_14
	orr	r2, r5, #1
	stm.w	r11, {r2, r9, lr}
	str.w	r12, [r11, #12]
	ldrd	r7, r3, [r4, #32]
	mov.w	r12, #-1
	adds	r7, #1
	adc	r3, r3, #0
	strd	r7, r3, [r4, #32]
	orr	r3, r8, #16
	clz	r3, r3
	rsb.w	r7, r3, #27
	lsr.w	r3, r8, r7
	add.w	r5, r3, r7, lsl #4
	add.w	r2, r4, r5, lsl #2
	ldr.w	r6, [r2, #192]
	lsls	r7, r1, #3
	cmp.w	r6, #-1
	str.w	r1, [r2, #192]
	ble	.LBB92_18
	adds.w	r2, r12, r6
	ldr	r0, [r0]
	adc	r3, r12, #0
	adds	r2, #1
	sbc	r3, r3, #0
	add	r7, r0
	add.w	r0, r0, r6, lsl #3
	strd	r2, r3, [r7, #16]
	str	r1, [r0, #20]
	b	.LBB92_19
.LBB92_14:
	adds.w	r6, lr, #1
	adc	r7, r12, #0
	strd	r6, r7, [r4, #32]
	stm.w	sp, {r5, r9, lr}
	strd	r12, r1, [sp, #12]
	bl	tlsf_heap.fitting.merge_next.4
	b	.LBB92_19
.LBB92_15:
	ldr	r0, [r4, #24]
	mov	r1, r0
	bl	tlsf_heap.refusal.Refusal.of_name
	uxtb	r0, r0
	cmp	r0, #3
	mov.w	r0, #3
	it	eq
	moveq	r0, #4
	b	.LBB92_20
.LBB92_16:
	movs	r0, #0
	add	sp, #36
	pop.w	{r4, r5, r6, r7, r8, r9, r10, r11, lr}
	b	tlsf_c.call_fault.CallFault.refusal
.LBB92_17:
	add.w	r6, r7, r9, lsl #3
	ldr.w	r8, [r6, #4]
	adds.w	r7, lr, #1
	adc	r6, r12, #0
	strd	r7, r6, [r4, #32]
	strd	r5, r9, [sp, #24]
	strd	r10, r8, [sp]
	strd	lr, r12, [sp, #8]
	str	r1, [sp, #16]
	bl	tlsf_heap.fitting.merge_before.4
	b	.LBB92_19
.LBB92_18:
	ldr	r0, [r4, #48]
	movs	r6, #1
	add	r0, r7
	strd	r12, r12, [r0, #16]
	lsrs	r0, r5, #4
	ldr	r1, [r4, #104]
	add.w	r2, r4, r0, lsl #2
	lsl.w	r0, r6, r0
	orrs	r0, r1
	ldr	r7, [r2, #108]
	str	r0, [r4, #104]
	and	r0, r3, #15
	lsl.w	r0, r6, r0
	orrs	r0, r7
	str	r0, [r2, #108]
.LBB92_19:
	movs	r0, #0
.LBB92_20:
	movs	r1, #1
	strb	r1, [r4]
	add	sp, #36
	pop.w	{r4, r5, r6, r7, r8, r9, r10, r11, pc}
.Lfunc_end92:
	.size	tlsf_release_place, .Lfunc_end92-tlsf_release_place
	.cfi_endproc
	.section	.text.tlsf_report,"ax",%progbits
	.globl	tlsf_report
	.p2align	2
	.type	tlsf_report,%function
	.code	16
	.thumb_func
tlsf_report:
	.cfi_startproc
	ldrb	r2, [r0, #8]
	cmp	r2, #0
	itt	eq
	moveq	r0, #32
	bxeq	lr
.LBB93_1:
	push.w	{r4, r5, r6, r7, r8, r9, r10, r11, lr}
	.cfi_def_cfa_offset 36
	.cfi_offset lr, -4
	.cfi_offset r11, -8
	.cfi_offset r10, -12
	.cfi_offset r9, -16
	.cfi_offset r8, -20
	.cfi_offset r7, -24
	.cfi_offset r6, -28
	.cfi_offset r5, -32
	.cfi_offset r4, -36
	sub	sp, #52
	.cfi_def_cfa_offset 88
	ldr	r5, [r0]
	ldrb	r0, [r5]
	cmp	r0, #1
	bne	.LBB93_3
	mov	r4, sp
	movs	r7, #0
	mov	r0, r4
	mov	r6, r1
	movs	r1, #0
	movs	r2, #48
	strb	r7, [r5]
	bl	tlsf_memory_set
	add.w	r1, r5, #24
	mov	r0, r4
	bl	tlsf_heap.heap.Heap.report.4
	mov	r0, r7
	ldm.w	sp, {r1, r2, r3, r7}
	add.w	lr, sp, #16
	ldm.w	lr, {r4, r12, lr}
	ldrd	r8, r9, [sp, #28]
	ldrd	r10, r11, [sp, #40]
	str	r1, [r6]
	movs	r1, #1
	str	r2, [r6, #4]
	str	r3, [r6, #8]
	str	r7, [r6, #12]
	str	r4, [r6, #16]
	str.w	r12, [r6, #20]
	str.w	lr, [r6, #24]
	str.w	r8, [r6, #28]
	str.w	r9, [r6, #32]
	str	r0, [r6, #36]
	str.w	r11, [r6, #44]
	str.w	r10, [r6, #40]
	strb	r1, [r5]
	add	sp, #52
	pop.w	{r4, r5, r6, r7, r8, r9, r10, r11, pc}
.LBB93_3:
	movs	r0, #32
	add	sp, #52
	pop.w	{r4, r5, r6, r7, r8, r9, r10, r11, pc}
.Lfunc_end93:
	.size	tlsf_report, .Lfunc_end93-tlsf_report
	.cfi_endproc
	.section	.text.tlsf_reset,"ax",%progbits
	.globl	tlsf_reset
	.p2align	2
	.type	tlsf_reset,%function
	.code	16
	.thumb_func
tlsf_reset:
	.cfi_startproc
	ldrb	r1, [r0, #8]
	cmp	r1, #0
	itt	eq
	moveq	r0, #32
	bxeq	lr
.LBB94_1:
	push.w	{r4, r5, r6, r7, r8, r9, r10, lr}
	.cfi_def_cfa_offset 32
	.cfi_offset lr, -4
	.cfi_offset r10, -8
	.cfi_offset r9, -12
	.cfi_offset r8, -16
	.cfi_offset r7, -20
	.cfi_offset r6, -24
	.cfi_offset r5, -28
	.cfi_offset r4, -32
	ldr	r6, [r0]
	ldrb	r0, [r6]
	cmp	r0, #1
	itt	ne
	movne	r0, #32
	popne.w	{r4, r5, r6, r7, r8, r9, r10, pc}
.LBB94_2:
	ldrd	r5, r7, [r6, #32]
	movs	r0, #0
	and.w	r1, r5, r7
	adds	r1, #1
	strb	r0, [r6]
	beq	.LBB94_7
	ldrd	r1, r0, [r6, #80]
	mov.w	r8, #-1
	orrs	r0, r1
	beq	.LBB94_5
	ldr	r0, [r6, #72]
	lsls	r2, r1, #3
	movs	r1, #0
	bl	tlsf_memory_set
.LBB94_5:
	add.w	r10, r6, #192
	mov	r0, r10
	movs	r1, #255
	movw	r2, #1092
	add.w	r9, r6, #104
	bl	tlsf_memory_set
	mov	r0, r9
	movs	r1, #0
	movs	r2, #88
	mov.w	r9, #0
	bl	tlsf_memory_set
	ldr	r0, [r6, #56]
	ldr	r1, [r6, #48]
	adds.w	r3, r8, r0, lsl #2
	adc	r4, r8, #0
	adds	r3, #4
	sbc	r4, r4, #0
	stm	r1!, {r3, r4, r5, r7}
	ldr	r1, [r6, #72]
	orr	r2, r0, #16
	clz	r2, r2
	ldr	r3, [r1]
	rsb.w	r2, r2, #27
	lsrs	r0, r2
	orr	r3, r3, #1
	add.w	r2, r0, r2, lsl #4
	str	r3, [r1]
	ldr.w	r1, [r10, r2, lsl #2]
	str.w	r9, [r10, r2, lsl #2]
	cmp.w	r1, #-1
	ble	.LBB94_8
	adds.w	r0, r8, r1
	adc	r2, r8, #0
	adds	r0, #1
	ldr	r3, [r6, #48]
	sbc	r2, r2, #0
	strd	r0, r2, [r3, #16]
	add.w	r0, r3, r1, lsl #3
	str.w	r9, [r0, #20]
	b	.LBB94_9
.LBB94_7:
	movs	r0, #2
	b	.LBB94_10
.LBB94_8:
	ldr	r1, [r6, #48]
	movs	r5, #1
	strd	r8, r8, [r1, #16]
	lsrs	r1, r2, #4
	add.w	r3, r6, r1, lsl #2
	ldr	r2, [r6, #104]
	ldr	r7, [r3, #108]
	and	r0, r0, #15
	lsl.w	r1, r5, r1
	lsl.w	r0, r5, r0
	orrs	r1, r2
	orrs	r0, r7
	str	r1, [r6, #104]
	str	r0, [r3, #108]
.LBB94_9:
	ldrd	r1, r2, [r6, #32]
	movs	r0, #0
	adds	r1, #1
	adc	r2, r2, #0
	str	r0, [r6, #40]
	strd	r1, r2, [r6, #32]
.LBB94_10:
	movs	r1, #1
	strb	r1, [r6]
	pop.w	{r4, r5, r6, r7, r8, r9, r10, pc}
.Lfunc_end94:
	.size	tlsf_reset, .Lfunc_end94-tlsf_reset
	.cfi_endproc
	.section	.text.tlsf_resize,"ax",%progbits
	.globl	tlsf_resize
	.p2align	2
	.type	tlsf_resize,%function
	.code	16
	.thumb_func
tlsf_resize:
	.cfi_startproc
	push.w	{r4, r5, r6, r7, r8, r9, r10, r11, lr}
	.cfi_def_cfa_offset 36
	.cfi_offset lr, -4
	.cfi_offset r11, -8
	.cfi_offset r10, -12
	.cfi_offset r9, -16
	.cfi_offset r8, -20
	.cfi_offset r7, -24
	.cfi_offset r6, -28
	.cfi_offset r5, -32
	.cfi_offset r4, -36
	sub	sp, #68
	.cfi_def_cfa_offset 104
	mov	r10, r0
	ldrb	r0, [r0, #8]
	cmp	r0, #0
	beq.w	.LBB95_21
	ldr.w	r5, [r10]
	ldrb	r0, [r5]
	cmp	r0, #0
	beq.w	.LBB95_21
	ldr.w	r9, [sp, #112]
	movs	r6, #0
	adds.w	r0, r9, #1
	adc	r7, r6, #0
	ldrd	r12, lr, [sp, #104]
	cmp.w	r9, #0
	itt	ne
	movne	r0, r9
	movne	r7, r6
	ldr	r1, [r5, #24]
	adds.w	r8, r0, #31
	adc	r0, r7, #0
	cmp	r1, r2
	strb	r6, [r5]
	bne.w	.LBB95_20
	ldr	r1, [r5, #56]
	cmp	r3, r1
	mov	r1, r2
	bhs.w	.LBB95_20
	ldr	r1, [r5, #72]
	mvn	r6, #7
	and.w	r6, r6, r3, lsr #3
	adds	r7, r1, r6
	ldr	r7, [r7, #4]
	ldr	r1, [r1, r6]
	and	r6, r3, #63
	rsb.w	r4, r6, #32
	lsrs	r1, r6
	lsl.w	r4, r7, r4
	orrs	r1, r4
	subs.w	r4, r6, #32
	it	pl
	lsrpl.w	r1, r7, r4
	lsls	r1, r1, #31
	mov	r1, r2
	beq.w	.LBB95_20
	add.w	r1, r5, #48
	ldr	r7, [r1]
	ldr.w	r6, [r7, r3, lsl #3]
	lsls	r1, r6, #31
	mov	r1, r2
	bne.w	.LBB95_20
	add.w	r11, r7, r3, lsl #3
	ldrd	r1, r4, [r11, #8]
	eor.w	r4, r4, lr
	eor.w	r1, r1, r12
	orrs	r1, r4
	mov	r1, r2
	bne.w	.LBB95_20
	lsr.w	r1, r8, #3
	orr.w	r8, r1, r0, lsl #29
	ldr.w	lr, [r11, #4]
	lsls	r4, r3, #3
	cmp.w	r8, r6, lsr #2
	lsr.w	r12, r6, #2
	bls	.LBB95_11
	lsls	r0, r6, #30
	bmi	.LBB95_10
	add.w	r1, r12, r3
	ldr.w	r0, [r7, r1, lsl #3]
	lsls	r2, r0, #31
	bne.w	.LBB95_22
.LBB95_10:
	movs	r0, #0
	movs	r1, #0
	b	.LBB95_23
.LBB95_11:
	mov	r1, r4
	ldrd	r2, r4, [r5, #32]
	and.w	r0, r2, r4
	adds	r0, #1
	beq.w	.LBB95_35
	str	r4, [sp, #48]
	ldr.w	r4, [r11, #16]
	movs	r0, #0
	cmp	r9, r4
	strd	r9, r0, [r11, #16]
	bls	.LBB95_17
	ands	r11, r4, #7
	str	r2, [sp, #40]
	beq	.LBB95_15
	adds	r0, r1, r4
	movw	r1, :lower16:.Lstatic.0
	movt	r1, :upper16:.Lstatic.0
	str.w	r12, [sp, #52]
	add.w	r12, r0, #24
	add.w	r0, r1, r11
	str	r0, [sp, #44]
	add.w	r0, r5, #48
	ldr	r0, [r0]
	bic	r7, r12, #7
	adds	r1, r0, r7
	mov	r12, r0
	str	r7, [sp, #32]
	ldr	r0, [r0, r7]
	mov	r7, r12
	ldr.w	r12, [r1, #4]
	str	r1, [sp, #28]
	strd	r0, r12, [sp, #56]
	add	r0, sp, #56
	ldr	r1, [sp, #44]
	rsb.w	r2, r11, #8
	add	r0, r11
	str	r3, [sp, #44]
	str.w	lr, [sp, #36]
	bl	tlsf_memory_cpy
	ldrd	r12, r0, [sp, #52]
	ldrd	r2, lr, [sp, #32]
	ldr	r3, [sp, #44]
	ldr	r1, [sp, #60]
	str	r0, [r7, r2]
	ldr	r0, [sp, #28]
	str	r1, [r0, #4]
.LBB95_15:
	lsrs	r0, r4, #3
	movs	r2, #1
	cmp.w	r11, #0
	lsr.w	r1, r9, #3
	it	ne
	addne.w	r0, r2, r4, lsr #3
	lsls.w	r7, r9, #29
	it	ne
	addne.w	r1, r2, r9, lsr #3
	ldr	r2, [sp, #40]
	cmp	r1, r0
	beq	.LBB95_17
	add.w	r2, r5, #48
	ldr	r2, [r2]
	subs	r1, r1, r0
	add	r0, r3
	add.w	r0, r2, r0, lsl #3
	adds	r0, #24
	lsls	r2, r1, #3
	movs	r1, #0
	mov	r4, r3
	mov	r7, r12
	mov	r9, lr
	bl	tlsf_memory_set
	ldr	r2, [sp, #40]
	mov	lr, r9
	mov	r12, r7
	mov	r3, r4
.LBB95_17:
	add.w	r0, r8, #4
	cmp	r12, r0
	mov	r0, r12
	blo	.LBB95_19
	ldr	r0, [sp, #48]
	mov	r1, r3
	strd	r2, r0, [sp, #8]
	add.w	r0, r5, #48
	mov	r2, r6
	mov	r3, lr
	str.w	r8, [sp]
	mov	r4, r12
	bl	tlsf_heap.refitting.split_off.4
	mov	r12, r4
	mov	r0, r8
.LBB95_19:
	ldrd	r1, r3, [r5, #32]
	ldr	r2, [r5, #40]
	sub.w	r0, r0, r12
	adds	r1, #1
	add	r0, r2
	adc	r2, r3, #0
	strd	r1, r2, [r5, #32]
	str	r0, [r5, #40]
	b	.LBB95_32
.LBB95_20:
	mov	r0, r2
	bl	tlsf_heap.refusal.Refusal.of_name
	uxtb	r0, r0
	movs	r1, #1
	cmp	r0, #3
	mov.w	r0, #3
	strb	r1, [r5]
	it	eq
	moveq	r0, #4
	add	sp, #68
	pop.w	{r4, r5, r6, r7, r8, r9, r10, r11, pc}
.LBB95_21:
	movs	r0, #0
	add	sp, #68
	pop.w	{r4, r5, r6, r7, r8, r9, r10, r11, lr}
	b	tlsf_c.call_fault.CallFault.refusal
.LBB95_22:
	add.w	r1, r7, r1, lsl #3
	ldr	r1, [r1, #4]
.LBB95_23:
	add.w	r2, r12, r0, lsr #2
	cmp	r2, r8
	bhs	.LBB95_25
	movs	r0, #1
	strb	r0, [r5]
	movs	r0, #10
	add	sp, #68
	pop.w	{r4, r5, r6, r7, r8, r9, r10, r11, pc}
.LBB95_25:
	ldrd	r2, r7, [r5, #32]
	mov	r11, r4
	and.w	r4, r2, r7
	adds	r4, #1
	beq	.LBB95_35
	add.w	r4, r5, #48
	strd	r2, r7, [sp, #16]
	strd	r0, r1, [sp]
	mov	r0, r4
	str	r3, [sp, #44]
	mov	r1, r3
	mov	r2, r6
	mov	r3, lr
	str.w	r8, [sp, #8]
	str.w	r12, [sp, #52]
	bl	tlsf_heap.refitting.recut.4
	ldr	r1, [r4]
	mov	r6, r0
	add.w	r0, r1, r11
	ldr	r4, [r0, #16]
	ldr	r2, [sp, #52]
	movs	r1, #0
	cmp	r9, r4
	strd	r9, r1, [r0, #16]
	bls	.LBB95_31
	ands	r7, r4, #7
	str	r6, [sp, #48]
	beq	.LBB95_29
	add.w	r0, r11, r4
	add.w	r3, r5, #48
	adds	r0, #24
	ldr	r6, [r3]
	bic	r11, r0, #7
	movw	r1, :lower16:.Lstatic.0
	add.w	r0, r6, r11
	movt	r1, :upper16:.Lstatic.0
	str	r0, [sp, #40]
	ldr.w	r12, [r6, r11]
	ldr	r3, [r0, #4]
	add	r0, sp, #56
	add	r1, r7
	rsb.w	r2, r7, #8
	add	r0, r7
	strd	r12, r3, [sp, #56]
	bl	tlsf_memory_cpy
	ldrd	r2, r0, [sp, #52]
	ldr	r1, [sp, #60]
	str.w	r0, [r6, r11]
	ldr	r0, [sp, #40]
	str	r1, [r0, #4]
.LBB95_29:
	lsrs	r0, r4, #3
	movs	r6, #1
	cmp	r7, #0
	lsr.w	r1, r9, #3
	it	ne
	addne.w	r0, r6, r4, lsr #3
	lsls.w	r3, r9, #29
	it	ne
	addne.w	r1, r6, r9, lsr #3
	ldr	r6, [sp, #48]
	cmp	r1, r0
	beq	.LBB95_31
	subs	r2, r1, r0
	add.w	r1, r5, #48
	ldr	r3, [r1]
	ldr	r1, [sp, #44]
	lsls	r2, r2, #3
	add	r0, r1
	add.w	r0, r3, r0, lsl #3
	adds	r0, #24
	movs	r1, #0
	bl	tlsf_memory_set
	ldr	r2, [sp, #52]
.LBB95_31:
	ldrd	r0, r1, [r5, #40]
	subs	r2, r6, r2
	add	r0, r2
	cmp	r1, r0
	str	r0, [r5, #40]
	it	lo
	strlo	r0, [r5, #44]
	ldrd	r0, r1, [r5, #32]
	adds	r0, #1
	adc	r1, r1, #0
	strd	r0, r1, [r5, #32]
.LBB95_32:
	movs	r0, #1
	lsls.w	r1, r8, #31
	strb	r0, [r5]
	beq	.LBB95_34
	ldrb.w	r0, [r10, #28]
	cmp	r0, #0
	itt	eq
	moveq	r0, #1
	strbeq.w	r0, [r10, #28]
.LBB95_34:
	movs	r0, #0
	add	sp, #68
	pop.w	{r4, r5, r6, r7, r8, r9, r10, r11, pc}
.LBB95_35:
	movs	r0, #1
	strb	r0, [r5]
	movs	r0, #2
	add	sp, #68
	pop.w	{r4, r5, r6, r7, r8, r9, r10, r11, pc}
.Lfunc_end95:
	.size	tlsf_resize, .Lfunc_end95-tlsf_resize
	.cfi_endproc
	.section	.text.tlsf_resize_place,"ax",%progbits
	.globl	tlsf_resize_place
	.p2align	2
	.type	tlsf_resize_place,%function
	.code	16
	.thumb_func
tlsf_resize_place:
	.cfi_startproc
	push.w	{r4, r5, r6, r7, r8, r9, r10, r11, lr}
	.cfi_def_cfa_offset 36
	.cfi_offset lr, -4
	.cfi_offset r11, -8
	.cfi_offset r10, -12
	.cfi_offset r9, -16
	.cfi_offset r8, -20
	.cfi_offset r7, -24
	.cfi_offset r6, -28
	.cfi_offset r5, -32
	.cfi_offset r4, -36
	sub	sp, #84
	.cfi_def_cfa_offset 120
	ldrb	r7, [r0, #8]
	cmp	r7, #0
	beq	.LBB96_10
	ldr	r4, [r0]
	ldrb	r0, [r4]
	cmp	r0, #0
	beq	.LBB96_10
	ldr	r0, [r4, #56]
	movs	r7, #0
	cmp	r1, r0
	strb	r7, [r4]
	bhs	.LBB96_9
	ldr	r0, [r4, #72]
	mvn	r7, #7
	and.w	r7, r7, r1, lsr #3
	adds	r6, r0, r7
	ldr	r6, [r6, #4]
	ldr	r0, [r0, r7]
	and	r7, r1, #63
	rsb.w	r5, r7, #32
	lsrs	r0, r7
	lsl.w	r5, r6, r5
	orrs	r0, r5
	subs	r7, #32
	it	pl
	lsrpl.w	r0, r6, r7
	lsls	r0, r0, #31
	beq	.LBB96_9
	add.w	r0, r4, #48
	ldr.w	r9, [r0]
	ldr.w	r5, [r9, r1, lsl #3]
	lsls	r0, r5, #31
	bne	.LBB96_9
	add.w	r0, r9, r1, lsl #3
	ldr.w	r10, [r0, #16]
	ldr	r7, [r0, #4]
	cmp	r2, r10
	str	r7, [sp, #40]
	it	lo
	movlo	r10, r2
	adds	r6, r2, #1
	mov.w	r12, #0
	adc	r7, r12, #0
	cmp	r2, #0
	itt	ne
	movne	r6, r2
	movne	r7, r12
	adds	r6, #31
	adc	r7, r7, #0
	lsrs	r6, r6, #3
	orr.w	r7, r6, r7, lsl #29
	lsl.w	r8, r1, #3
	cmp.w	r7, r5, lsr #2
	lsr.w	r11, r5, #2
	str	r7, [sp, #44]
	bls	.LBB96_11
	add.w	r6, r4, #24
	ldrd	lr, r0, [r0, #8]
	str.w	r8, [sp, #36]
	ldr.w	r8, [r6]
	str	r0, [sp, #32]
	lsls	r0, r5, #30
	bmi	.LBB96_8
	add.w	r6, r11, r1
	ldr.w	r0, [r9, r6, lsl #3]
	lsls	r7, r0, #31
	ldr	r7, [sp, #44]
	bne	.LBB96_15
.LBB96_8:
	movs	r0, #0
	b	.LBB96_16
.LBB96_9:
	movs	r0, #1
	strb	r0, [r4]
	movs	r0, #4
	add	sp, #84
	pop.w	{r4, r5, r6, r7, r8, r9, r10, r11, pc}
.LBB96_10:
	movs	r0, #0
	add	sp, #84
	pop.w	{r4, r5, r6, r7, r8, r9, r10, r11, lr}
	b	tlsf_c.call_fault.CallFault.refusal
.LBB96_11:
	ldrd	r7, r12, [r4, #32]
	and.w	r6, r7, r12
	adds	r6, #1
	beq.w	.LBB96_24
	movs	r6, #0
	strd	r10, r6, [r0, #16]
	ldr	r6, [sp, #44]
	adds	r0, r6, #4
	cmp	r11, r0
	mov	r0, r11
	blo	.LBB96_14
	strd	r7, r12, [sp, #8]
	mov	r9, r2
	mov	r2, r5
	mov	r5, r3
	ldr	r3, [sp, #40]
	add.w	r0, r4, #48
	mov	r7, r1
	str	r6, [sp]
	bl	tlsf_heap.refitting.split_off.4
	mov	r2, r9
	mov	r1, r7
	mov	r3, r5
	mov	r0, r6
.LBB96_14:
	ldrd	r7, r5, [r4, #32]
	ldr	r6, [r4, #40]
	sub.w	r0, r0, r11
	adds	r7, #1
	add	r0, r6
	adc	r6, r5, #0
	strd	r7, r6, [r4, #32]
	str	r0, [r4, #40]
	add.w	r6, r4, #48
	b	.LBB96_22
.LBB96_15:
	add.w	r7, r9, r6, lsl #3
	ldr.w	r12, [r7, #4]
	ldr	r7, [sp, #44]
.LBB96_16:
	add.w	r6, r11, r0, lsr #2
	cmp	r6, r7
	bhs	.LBB96_20
	mov.w	r11, #-1
	strd	r8, r1, [sp, #48]
	str.w	lr, [sp, #56]
	ldrd	lr, r8, [r4, #32]
	subs.w	r0, r11, #2
	sbc	r1, r11, #0
	subs.w	r0, r0, lr
	sbcs.w	r0, r1, r8
	ldr	r0, [sp, #32]
	str	r0, [sp, #60]
	blo	.LBB96_24
	cmp.w	r7, #1048576
	bls	.LBB96_25
.LBB96_19:
	ldrd	r0, r1, [r4, #8]
	adds	r0, #1
	it	hs
	movhs.w	r0, #-1
	cmp	r2, r1
	it	hi
	movhi	r1, r2
	strd	r0, r1, [r4, #8]
	movs	r0, #1
	strb	r0, [r4]
	add	sp, #84
	pop.w	{r4, r5, r6, r7, r8, r9, r10, r11, pc}
.LBB96_20:
	ldrd	r7, lr, [r4, #32]
	ldr.w	r8, [sp, #36]
	and.w	r6, r7, lr
	adds	r6, #1
	beq	.LBB96_24
	str	r2, [sp, #32]
	strd	r7, lr, [sp, #16]
	strd	r0, r12, [sp]
	mov	r9, r3
	add.w	r6, r4, #48
	mov	r2, r5
	ldrd	r3, r5, [sp, #40]
	mov	r0, r6
	mov	r7, r1
	str	r5, [sp, #8]
	bl	tlsf_heap.refitting.recut.4
	ldr	r1, [r4, #48]
	movs	r2, #0
	add	r1, r8
	strd	r10, r2, [r1, #16]
	ldrd	r1, r2, [r4, #40]
	sub.w	r0, r0, r11
	add	r0, r1
	cmp	r2, r0
	str	r0, [r4, #40]
	it	lo
	strlo	r0, [r4, #44]
	ldrd	r0, r1, [r4, #32]
	ldr	r2, [sp, #32]
	adds	r0, #1
	adc	r1, r1, #0
	strd	r0, r1, [r4, #32]
	mov	r3, r9
	mov	r1, r7
.LBB96_22:
	ldr	r0, [r6]
	movs	r7, #0
	add	r0, r8
	strd	r2, r7, [r0, #16]
.LBB96_23:
	movs	r0, #1
	strb	r0, [r4]
	str	r1, [r3]
	movs	r0, #0
	add	sp, #84
	pop.w	{r4, r5, r6, r7, r8, r9, r10, r11, pc}
.LBB96_24:
	movs	r0, #1
	strb	r0, [r4]
	movs	r0, #2
	add	sp, #84
	pop.w	{r4, r5, r6, r7, r8, r9, r10, r11, pc}
.LBB96_25:
	orr	r0, r7, #16
	clz	r0, r0
	rsb.w	r0, r0, #27
	subs	r1, r7, #1
	lsr.w	r7, r1, r0
	add.w	r0, r7, r0, lsl #4
	adds	r0, #1
	subs	r0, #1
	mov.w	r1, #0
	sbc	r5, r1, #0
	lsrs	r1, r0, #4
	orr.w	r1, r1, r5, lsl #28
	add.w	r10, r4, #108
	ldr.w	r6, [r10, r1, lsl #2]
	and	r7, r7, #15
	lsr.w	r7, r6, r7
	bics	r6, r7, #1
	beq	.LBB96_27
	rbit	r1, r6
	clz	r1, r1
	adds	r6, r0, r1
	adc	r0, r5, #0
	lsrs	r1, r6, #4
	ldr.w	r12, [sp, #44]
	orr.w	r0, r1, r0, lsl #28
	b	.LBB96_29
.LBB96_27:
	ldr	r0, [r4, #104]
	mvn	r7, #1
	lsl.w	r1, r7, r1
	ldr.w	r12, [sp, #44]
	ands	r0, r1
	beq.w	.LBB96_19
	rbit	r0, r0
	clz	r0, r0
	ldr.w	r1, [r10, r0, lsl #2]
	rbit	r1, r1
	clz	r1, r1
	add.w	r6, r1, r0, lsl #4
	lsrs	r0, r6, #4
.LBB96_29:
	add.w	r10, r4, #192
	ldr.w	r7, [r10, r6, lsl #2]
	add.w	r1, r9, r7, lsl #3
	ldr	r1, [r1, #16]
	str	r7, [sp, #32]
	adds	r5, r1, #1
	lsl.w	r7, r7, #3
	beq	.LBB96_31
	add.w	r0, r9, r1, lsl #3
	mov.w	r5, #-1
	str	r5, [r0, #20]
	str.w	r1, [r10, r6, lsl #2]
	add.w	r0, r4, #48
	ldr.w	r9, [r0]
	b	.LBB96_33
.LBB96_31:
	mov.w	r1, #-1
	str.w	r1, [r10, r6, lsl #2]
	add.w	r1, r4, #108
	ldr.w	r5, [r1, r0, lsl #2]
	and	r6, r6, #15
	mov.w	r10, #1
	lsl.w	r6, r10, r6
	bics	r5, r6
	str.w	r5, [r1, r0, lsl #2]
	bne	.LBB96_33
	ldr	r5, [r4, #104]
	lsl.w	r0, r10, r0
	bic.w	r0, r5, r0
	str	r0, [r4, #104]
.LBB96_33:
	ldr.w	r1, [r9, r7]
	add.w	r0, r9, r7
	ldr	r5, [r0, #4]
	sub.w	r10, r1, r12, lsl #2
	cmp.w	r10, #15
	str	r7, [sp, #40]
	bhi	.LBB96_35
	subs	r1, #1
	mov.w	r6, #0
	ldr.w	r10, [sp, #40]
	ldr.w	r12, [sp, #32]
	sbc	r5, r5, #0
	stm.w	r0, {r1, r5, lr}
	strd	r8, r2, [r0, #12]
	str	r6, [r0, #20]
	lsrs	r2, r1, #2
	add.w	r9, r4, #24
	b	.LBB96_41
.LBB96_35:
	ldr	r7, [sp, #32]
	subs.w	r1, r1, r10
	add.w	r6, r7, r12
	mov	r12, r7
	mov.w	r7, #0
	sbc	r5, r5, #0
	stm.w	r0, {r1, r5, lr}
	strd	r8, r2, [r0, #12]
	str	r7, [r0, #20]
	add.w	r0, r9, r6, lsl #3
	str.w	r10, [r9, r6, lsl #3]
	strd	r12, lr, [r0, #4]
	str.w	r8, [r0, #12]
	movw	r1, #65528
	ldr	r0, [r4, #72]
	movt	r1, #8191
	and	r5, r6, #63
	and.w	r1, r1, r6, lsr #3
	subs.w	r7, r5, #32
	ldr	r2, [r0, r1]
	str	r7, [sp, #28]
	mov.w	r7, #1
	lsl.w	r9, r7, r5
	it	pl
	movpl.w	r9, #0
	orr.w	r2, r2, r9
	str	r2, [r0, r1]
	add	r0, r1
	ldr	r1, [r0, #4]
	rsb.w	r2, r5, #32
	lsr.w	r2, r7, r2
	ldr	r5, [sp, #28]
	it	pl
	lslpl.w	r2, r7, r5
	orrs	r1, r2
	str	r1, [r0, #4]
	lsls.w	r0, r10, #30
	lsr.w	r0, r10, #2
	bmi	.LBB96_37
	add.w	r1, r4, #48
	ldr	r1, [r1]
	adds	r2, r0, r6
	add.w	r1, r1, r2, lsl #3
	str	r6, [r1, #4]
.LBB96_37:
	orr	r1, r0, #16
	clz	r1, r1
	rsb.w	r1, r1, #27
	lsrs	r0, r1
	add.w	r2, r0, r1, lsl #4
	add.w	r7, r4, #192
	ldr.w	r1, [r7, r2, lsl #2]
	ldr.w	r10, [sp, #40]
	lsls	r5, r6, #3
	cmp.w	r1, #-1
	add.w	r9, r4, #24
	str.w	r6, [r7, r2, lsl #2]
	ble	.LBB96_39
	add.w	r0, r4, #48
	ldr	r0, [r0]
	adds	r2, r0, r5
	mov.w	r5, #-1
	add.w	r0, r0, r1, lsl #3
	strd	r1, r5, [r2, #16]
	str	r6, [r0, #20]
	b	.LBB96_40
.LBB96_39:
	ldr	r1, [r4, #48]
	add.w	r6, r4, #108
	add	r1, r5
	strd	r11, r11, [r1, #16]
	lsrs	r1, r2, #4
	ldr	r2, [r4, #104]
	ldr.w	r5, [r6, r1, lsl #2]
	mov.w	r11, #1
	and	r0, r0, #15
	lsl.w	r7, r11, r1
	lsl.w	r0, r11, r0
	orrs	r2, r7
	orrs	r0, r5
	str	r2, [r4, #104]
	str.w	r0, [r6, r1, lsl #2]
.LBB96_40:
	ldr	r2, [sp, #44]
.LBB96_41:
	ldrd	r0, r1, [r4, #40]
	mov	r6, r3
	add	r0, r2
	cmp	r1, r0
	str	r0, [r4, #40]
	it	lo
	strlo	r0, [r4, #44]
	ldrd	r0, r1, [r4, #32]
	ldr	r2, [r4, #24]
	adds	r0, #1
	adc	r1, r1, #0
	strd	r0, r1, [r4, #32]
	ldr	r0, [r4, #48]
	ldr	r1, [sp, #36]
	add	r5, sp, #48
	add	r1, r0
	add	r0, r10
	ldr	r3, [r1, #16]
	ldr	r0, [r0, #16]
	strd	r2, r12, [sp, #64]
	str.w	r8, [sp, #76]
	str.w	lr, [sp, #72]
	cmp	r0, r3
	it	lo
	movlo	r3, r0
	add	r2, sp, #64
	mov	r0, r9
	mov	r1, r5
	mov	r7, r12
	bl	tlsf_heap.heap.Heap.copy.4
	mov	r0, r9
	mov	r1, r5
	bl	tlsf_heap.heap.Heap.release_live.4
	mov	r1, r7
	mov	r3, r6
	b	.LBB96_23
.Lfunc_end96:
	.size	tlsf_resize_place, .Lfunc_end96-tlsf_resize_place
	.cfi_endproc
	.section	.text.tlsf_take,"ax",%progbits
	.globl	tlsf_take
	.p2align	2
	.type	tlsf_take,%function
	.code	16
	.thumb_func
tlsf_take:
	.cfi_startproc
	push	{r4, lr}
	.cfi_def_cfa_offset 8
	.cfi_offset lr, -4
	.cfi_offset r4, -8
	ldrb	r2, [r0, #8]
	cbz	r2, .LBB97_4
	ldr	r4, [r0]
	ldrb	r0, [r4, #1]
	cbz	r0, .LBB97_4
	ldrb	r0, [r4]
	cmp	r0, #1
	bne	.LBB97_5
	add.w	r0, r4, #8
	movs	r2, #0
	strb	r2, [r4, #1]
	bl	tlsf_c.lane_calls.take_name
	movs	r1, #1
	strb	r1, [r4, #1]
	pop	{r4, pc}
.LBB97_4:
	movs	r0, #0
	pop.w	{r4, lr}
	b	tlsf_c.call_fault.CallFault.refusal
.LBB97_5:
	movs	r0, #2
	pop.w	{r4, lr}
	b	tlsf_c.call_fault.CallFault.refusal
.Lfunc_end97:
	.size	tlsf_take, .Lfunc_end97-tlsf_take
	.cfi_endproc
	.section	.text.tlsf_take_all,"ax",%progbits
	.globl	tlsf_take_all
	.p2align	2
	.type	tlsf_take_all,%function
	.code	16
	.thumb_func
tlsf_take_all:
	.cfi_startproc
	push.w	{r4, r5, r6, r7, r8, r9, r10, r11, lr}
	.cfi_def_cfa_offset 36
	.cfi_offset lr, -4
	.cfi_offset r11, -8
	.cfi_offset r10, -12
	.cfi_offset r9, -16
	.cfi_offset r8, -20
	.cfi_offset r7, -24
	.cfi_offset r6, -28
	.cfi_offset r5, -32
	.cfi_offset r4, -36
	sub.w	sp, sp, #788
	.cfi_def_cfa_offset 824
	mov	r10, r1
	cmp	r1, #0
	ldrb	r1, [r0, #8]
	ldr	r4, [r3]
	mov	r6, r3
	it	eq
	addeq.w	r10, r10, #4096
	cmp	r1, #0
	beq.w	.LBB98_34
	ldr.w	r8, [r0]
	ldrb.w	r0, [r8, #1]
	cmp	r0, #0
	beq.w	.LBB98_34
	ldrb.w	r0, [r8]
	cmp	r0, #1
	bne.w	.LBB98_37
	str	r4, [sp, #12]
	mov	r4, r2
	add.w	r3, r8, #32
	cmp	r2, #32
	it	hs
	movhs	r4, #32
	ldm	r3, {r0, r1, r3}
	mov	r11, r2
	ldr.w	r2, [r8, #44]
	subs	r5, r3, r0
	mov.w	r7, #0
	sbcs.w	r5, r2, r1
	strb.w	r7, [r8, #1]
	bhs	.LBB98_5
	ldrd	r7, r5, [r8, #24]
	subs	r0, r3, r0
	lsl.w	r5, r5, #1
	orr.w	r5, r5, r7, lsr #31
	sbc.w	r1, r2, r1
	adds.w	r0, r0, r7, lsl #1
	adcs	r1, r5
	b	.LBB98_6
.LBB98_5:
	subs	r0, r3, r0
	sbc.w	r1, r2, r1
.LBB98_6:
	subs	r0, r0, r4
	sbcs	r0, r1, #0
	add.w	r7, r8, #8
	bhs	.LBB98_9
	ldr.w	r0, [r8, #8]
	adds	r0, #128
	movs	r1, #5
	bl	__atomic_load_8
	ldrd	r2, r3, [r8, #32]
	strd	r0, r1, [r8, #40]
	subs	r7, r0, r2
	sbcs.w	r7, r1, r3
	bhs	.LBB98_10
	ldrd	r7, r5, [r8, #24]
	subs	r0, r0, r2
	lsl.w	r5, r5, #1
	orr.w	r5, r5, r7, lsr #31
	sbcs	r1, r3
	adds.w	r2, r0, r7, lsl #1
	adc.w	r0, r1, r5
	b	.LBB98_11
.LBB98_9:
	mov.w	r9, #0
	b	.LBB98_12
.LBB98_10:
	subs	r2, r0, r2
	sbc.w	r0, r1, r3
.LBB98_11:
	subs	r1, r2, r4
	mov.w	r9, #0
	sbcs	r1, r0, #0
	it	lo
	movlo	r4, r2
	it	lo
	movlo.w	r9, #1
	add.w	r7, r8, #8
	cmp.w	r9, #0
	it	ne
	movne	r9, r0
.LBB98_12:
	subs.w	r0, r4, #21
	sbcs	r0, r9, #0
	blo.w	.LBB98_20
	add.w	r11, sp, #16
	mov	r0, r11
	movs	r1, #0
	mov.w	r2, #768
	str	r6, [sp, #8]
	movs	r5, #0
	bl	tlsf_memory_set
	mov	r0, r7
	mov	r1, r11
	mov	r2, r4
	mov	r3, r9
	bl	tlsf_post.take_end.TakeEnd.take_slice
	and	r0, r4, #3
	bic	lr, r4, #3
	movs	r2, #0
	str	r0, [sp, #4]
	str	r4, [sp, #12]
	.p2align	2
.LBB98_14:
	add.w	r0, r5, r5, lsl #1
	add.w	r0, r11, r0, lsl #3
	ldrd	r3, r7, [r0, #8]
	ldrd	r1, r0, [r0, #16]
	add.w	r12, r10, r5, lsl #4
	str.w	r0, [r12, #12]
	orr	r0, r5, #1
	str.w	r1, [r12, #8]
	add.w	r1, r0, r0, lsl #1
	lsls	r4, r5, #4
	add.w	r1, r11, r1, lsl #3
	str.w	r3, [r10, r4]
	str.w	r7, [r12, #4]
	ldrd	r3, r7, [r1, #8]
	ldrd	r4, r1, [r1, #16]
	lsls	r6, r0, #4
	add.w	r0, r10, r0, lsl #4
	str.w	r3, [r10, r6]
	str	r7, [r0, #4]
	str	r4, [r0, #8]
	str	r1, [r0, #12]
	orr	r3, r5, #2
	orr	r0, r5, #3
	adds	r5, #4
	adc	r2, r2, #0
	eor.w	r1, r5, lr
	eor.w	r7, r2, r9
	orrs	r1, r7
	add.w	r1, r3, r3, lsl #1
	add.w	r1, r11, r1, lsl #3
	ldr	r7, [r1, #8]
	lsl.w	r6, r3, #4
	str.w	r7, [r10, r6]
	ldrd	r7, r6, [r1, #12]
	ldr	r1, [r1, #20]
	add.w	r3, r10, r3, lsl #4
	str	r1, [r3, #12]
	add.w	r1, r0, r0, lsl #1
	add.w	r1, r11, r1, lsl #3
	str	r7, [r3, #4]
	str	r6, [r3, #8]
	ldrd	r3, r7, [r1, #8]
	ldrd	r6, r1, [r1, #16]
	lsl.w	r4, r0, #4
	add.w	r0, r10, r0, lsl #4
	str.w	r3, [r10, r4]
	str	r7, [r0, #4]
	str	r1, [r0, #12]
	str	r6, [r0, #8]
	bne	.LBB98_14
	ldr	r4, [sp, #4]
	cbz	r4, .LBB98_19
	add.w	r0, r5, r5, lsl #1
	add.w	r0, r11, r0, lsl #3
	add.w	r3, r0, #8
	ldm	r3, {r1, r2, r3}
	ldr	r0, [r0, #20]
	lsls	r7, r5, #4
	add.w	r6, r10, r5, lsl #4
	cmp	r4, #1
	str.w	r1, [r10, r7]
	str	r2, [r6, #4]
	str	r0, [r6, #12]
	str	r3, [r6, #8]
	beq	.LBB98_19
	adds	r0, r5, #1
	add.w	r1, r0, r0, lsl #1
	add.w	r1, r11, r1, lsl #3
	add.w	r7, r1, #8
	ldm	r7, {r2, r3, r7}
	ldr	r1, [r1, #20]
	lsls	r6, r0, #4
	add.w	r0, r10, r0, lsl #4
	cmp	r4, #2
	str.w	r2, [r10, r6]
	str	r3, [r0, #4]
	str	r1, [r0, #12]
	str	r7, [r0, #8]
	beq	.LBB98_19
	adds	r0, r5, #2
	add.w	r1, r0, r0, lsl #1
	add.w	r1, r11, r1, lsl #3
	add.w	r7, r1, #8
	ldm	r7, {r2, r3, r7}
	ldr	r1, [r1, #20]
	lsls	r6, r0, #4
	add.w	r0, r10, r0, lsl #4
	str.w	r2, [r10, r6]
	str	r3, [r0, #4]
	str	r1, [r0, #12]
	str	r7, [r0, #8]
.LBB98_19:
	ldrd	r6, r4, [sp, #8]
	b	.LBB98_31
.LBB98_20:
	subs	r0, r4, #2
	sbcs	r0, r9, #0
	blo.w	.LBB98_29
	add.w	r11, sp, #16
	mov	r0, r11
	movs	r1, #0
	mov.w	r2, #480
	str	r6, [sp, #8]
	movs	r5, #0
	str	r4, [sp, #12]
	bl	tlsf_memory_set
	ldr	r2, [sp, #12]
	mov	r0, r7
	mov	r1, r11
	mov	r3, r9
	bl	tlsf_post.take_end.TakeEnd.take_slice
	ldr	r4, [sp, #12]
	subs	r0, r4, #4
	sbcs	r0, r9, #0
	and	r12, r4, #3
	blo	.LBB98_25
	and	lr, r4, #28
	movs	r5, #0
	movs	r2, #0
	.p2align	2
.LBB98_23:
	add.w	r3, r5, r5, lsl #1
	add.w	r3, r11, r3, lsl #3
	ldrd	r7, r6, [r3, #8]
	ldrd	r0, r3, [r3, #16]
	add.w	r4, r10, r5, lsl #4
	lsls	r1, r5, #4
	str	r0, [r4, #8]
	orr	r0, r5, #1
	str.w	r7, [r10, r1]
	add.w	r1, r0, r0, lsl #1
	add.w	r1, r11, r1, lsl #3
	str	r6, [r4, #4]
	add.w	r6, r1, #8
	ldr	r1, [r1, #20]
	lsls	r7, r0, #4
	add.w	r0, r10, r0, lsl #4
	str	r3, [r4, #12]
	ldm	r6, {r3, r4, r6}
	str	r4, [r0, #4]
	str	r6, [r0, #8]
	str	r1, [r0, #12]
	orr	r0, r5, #2
	add.w	r1, r0, r0, lsl #1
	add.w	r1, r11, r1, lsl #3
	add.w	r6, r1, #8
	ldr	r1, [r1, #20]
	str.w	r3, [r10, r7]
	lsls	r7, r0, #4
	add.w	r0, r10, r0, lsl #4
	ldm	r6, {r3, r4, r6}
	str	r4, [r0, #4]
	str	r6, [r0, #8]
	str	r1, [r0, #12]
	orr	r0, r5, #3
	add.w	r1, r0, r0, lsl #1
	add.w	r1, r11, r1, lsl #3
	add.w	r6, r1, #8
	ldr	r1, [r1, #20]
	str.w	r3, [r10, r7]
	lsls	r7, r0, #4
	add.w	r0, r10, r0, lsl #4
	adds	r5, #4
	ldm	r6, {r3, r4, r6}
	str	r1, [r0, #12]
	adc	r2, r2, #0
	eor.w	r1, r5, lr
	orrs	r1, r2
	str.w	r3, [r10, r7]
	str	r4, [r0, #4]
	str	r6, [r0, #8]
	bne	.LBB98_23
	ldr	r4, [sp, #12]
	cmp.w	r12, #0
	beq	.LBB98_28
.LBB98_25:
	add.w	r0, r5, r5, lsl #1
	add.w	r0, r11, r0, lsl #3
	add.w	r3, r0, #8
	ldm	r3, {r1, r2, r3}
	ldr	r0, [r0, #20]
	lsls	r7, r5, #4
	add.w	r6, r10, r5, lsl #4
	cmp.w	r12, #1
	str.w	r1, [r10, r7]
	str	r2, [r6, #4]
	str	r0, [r6, #12]
	str	r3, [r6, #8]
	beq	.LBB98_28
	adds	r0, r5, #1
	add.w	r1, r0, r0, lsl #1
	add.w	r1, r11, r1, lsl #3
	add.w	r7, r1, #8
	ldm	r7, {r2, r3, r7}
	ldr	r1, [r1, #20]
	lsls	r6, r0, #4
	add.w	r0, r10, r0, lsl #4
	cmp.w	r12, #2
	str.w	r2, [r10, r6]
	str	r3, [r0, #4]
	str	r1, [r0, #12]
	str	r7, [r0, #8]
	beq	.LBB98_28
	adds	r0, r5, #2
	add.w	r1, r0, r0, lsl #1
	add.w	r1, r11, r1, lsl #3
	add.w	r7, r1, #8
	ldm	r7, {r2, r3, r7}
	ldr	r1, [r1, #20]
	lsls	r6, r0, #4
	add.w	r0, r10, r0, lsl #4
	str.w	r2, [r10, r6]
	str	r3, [r0, #4]
	str	r1, [r0, #12]
	str	r7, [r0, #8]
.LBB98_28:
	ldr	r6, [sp, #8]
	b	.LBB98_31
.LBB98_29:
	eor	r0, r4, #1
	orrs.w	r0, r0, r9
	bne	.LBB98_35
	mov	r0, r7
	mov	r1, r10
	bl	tlsf_c.lane_calls.take_name
.LBB98_31:
	movs	r0, #1
	strb.w	r0, [r8, #1]
.LBB98_32:
	movs	r0, #0
.LBB98_33:
	str	r4, [r6]
	add.w	sp, sp, #788
	pop.w	{r4, r5, r6, r7, r8, r9, r10, r11, pc}
.LBB98_34:
	movs	r0, #0
	bl	tlsf_c.call_fault.CallFault.refusal
	b	.LBB98_33
.LBB98_35:
	movs	r0, #1
	cmp.w	r11, #0
	strb.w	r0, [r8, #1]
	beq	.LBB98_32
	ldr	r4, [sp, #12]
	movs	r0, #35
	b	.LBB98_33
.LBB98_37:
	movs	r0, #2
	bl	tlsf_c.call_fault.CallFault.refusal
	b	.LBB98_33
.Lfunc_end98:
	.size	tlsf_take_all, .Lfunc_end98-tlsf_take_all
	.cfi_endproc
	.section	.text.tlsf_take_close,"ax",%progbits
	.globl	tlsf_take_close
	.p2align	2
	.type	tlsf_take_close,%function
	.code	16
	.thumb_func
tlsf_take_close:
	.cfi_startproc
	ldrb	r1, [r0, #8]
	cbz	r1, .LBB99_4
	ldr	r1, [r0]
	ldrb	r2, [r1, #1]
	cmp	r2, #1
	bne	.LBB99_4
	ldrb	r2, [r1]
	cmp	r2, #1
	itt	ne
	movne	r0, #40
	bxne	lr
.LBB99_3:
	push	{r4, r5, r6, r7, lr}
	.cfi_def_cfa_offset 20
	.cfi_offset lr, -4
	.cfi_offset r7, -8
	.cfi_offset r6, -12
	.cfi_offset r5, -16
	.cfi_offset r4, -20
	sub	sp, #100
	.cfi_def_cfa_offset 120
	movs	r6, #0
	strb	r6, [r1, #1]
	ldr	r4, [r0]
	str	r6, [r0, #4]
	str	r6, [r0, #8]
	str	r6, [r0, #12]
	str	r6, [r0]
	mov	r1, r4
	add.w	r0, sp, #2
	ldrh	r7, [r1], #8
	adds	r5, r0, #6
	mov	r0, r5
	movs	r2, #40
	bl	tlsf_memory_cpy
	mov	r0, r4
	bl	tlsf_memory_dealloc
	add	r4, sp, #48
	add.w	r0, r4, #8
	mov	r1, r5
	movs	r2, #40
	strd	r6, r6, [sp, #48]
	strh.w	r7, [sp, #48]
	bl	tlsf_memory_cpy
	mov	r0, r4
	bl	tlsf_c.tlsf_c.any_end.AnyEnd.Destruct.drop
	mov	r0, r6
	add	sp, #100
	pop	{r4, r5, r6, r7, pc}
.LBB99_4:
	movs	r0, #32
	bx	lr
.Lfunc_end99:
	.size	tlsf_take_close, .Lfunc_end99-tlsf_take_close
	.cfi_endproc
	.section	.text.tlsf_words,"ax",%progbits
	.globl	tlsf_words
	.p2align	2
	.type	tlsf_words,%function
	.code	16
	.thumb_func
tlsf_words:
	.cfi_startproc
	subs.w	r12, r0, #5
	it	ne
	movne	r12, r0
	bic	r0, r12, #1
	cmp	r0, #4
	itt	ne
	movne	r0, #34
	bxne	lr
.LBB100_1:
	cmp	r1, #0
	beq	.LBB100_5
	movw	r0, #65512
	movt	r0, #127
	cmp	r2, r0
	bhi	.LBB100_9
	push.w	{r4, r5, r6, r7, r8, lr}
	.cfi_def_cfa_offset 24
	.cfi_offset lr, -4
	.cfi_offset r8, -8
	.cfi_offset r7, -12
	.cfi_offset r6, -16
	.cfi_offset r5, -20
	.cfi_offset r4, -24
	cmp	r2, #9
	blo	.LBB100_6
	add.w	r0, r2, #31
	movs	r4, #16
	orr.w	r4, r4, r0, lsr #3
	movs	r2, #3
	clz	r4, r4
	mov.w	r5, #-1
	add.w	r2, r2, r0, lsr #3
	rsb.w	r4, r4, #27
	add.w	r0, r5, r0, lsr #3
	lsrs	r0, r4
	adds	r0, #1
	umull	r12, lr, r2, r1
	add.w	r4, r0, r4, lsl #4
	lsrs	r6, r4, #4
	movs	r7, #8
	and	r0, r0, #15
	add.w	r5, r5, r4, lsr #4
	subs.w	r2, r12, r2
	lsl.w	r8, r7, r6
	lsl.w	r0, r0, r5
	sbcs	r5, lr, #0
	mov.w	r7, #0
	adc	r7, r7, #0
	teq.w	r7, #1
	itt	ne
	movne	r5, #0
	movne	r2, #0
	cmp	r6, #0
	it	ne
	addne.w	r4, r0, r8
	subs	r0, r4, #1
	umlal	r2, r5, r0, r1
	adds	r1, r2, #1
	adc	r0, r5, #0
	b	.LBB100_7
.LBB100_5:
	movs	r2, #4
	b	.LBB100_8
.LBB100_6:
	lsrs	r0, r1, #30
	lsls	r1, r1, #2
.LBB100_7:
	cmp	r1, #4
	mov.w	r7, #4
	mov.w	r2, #4
	it	hi
	movhi	r7, r1
	cmp	r0, #0
	ite	ne
	movne	r2, r1
	moveq	r2, r7
	rsbs.w	r1, r1, #1048576
	mov.w	r1, #0
	sbcs.w	r0, r1, r0
	pop.w	{r4, r5, r6, r7, r8, lr}
	blo	.LBB100_9
.LBB100_8:
	movs	r0, #0
	str	r2, [r3]
	bx	lr
.LBB100_9:
	movs	r0, #5
	bx	lr
.Lfunc_end100:
	.size	tlsf_words, .Lfunc_end100-tlsf_words
	.cfi_endproc
	.section	.text.tlsf_offsets_report,"ax",%progbits
	.globl	tlsf_offsets_report
	.p2align	2
	.type	tlsf_offsets_report,%function
	.code	16
	.thumb_func
tlsf_offsets_report:
	.cfi_startproc
	push.w	{r4, r5, r6, r7, r8, r9, lr}
	.cfi_def_cfa_offset 28
	.cfi_offset lr, -4
	.cfi_offset r9, -8
	.cfi_offset r8, -12
	.cfi_offset r7, -16
	.cfi_offset r6, -20
	.cfi_offset r5, -24
	.cfi_offset r4, -28
	sub	sp, #52
	.cfi_def_cfa_offset 80
	ldrb	r2, [r0, #8]
	cbz	r2, .LBB101_4
	ldr	r7, [r0]
	ldrb	r0, [r7, #1]
	cbz	r0, .LBB101_4
	ldrb	r0, [r7]
	cbnz	r0, .LBB101_5
	mov	r6, sp
	mov	r4, r1
	mov.w	r9, #0
	mov	r0, r6
	movs	r1, #0
	movs	r2, #48
	strb.w	r9, [r7, #1]
	add.w	r8, r7, #16
	bl	tlsf_memory_set
	mov	r0, r6
	mov	r1, r8
	bl	tlsf_heap.heap.Heap.report.4
	ldr.w	r0, [r7, #1280]
	ldrd	r2, r3, [sp, #16]
	ldr	r1, [sp, #4]
	umull	r12, lr, r3, r0
	ldr	r3, [sp]
	umull	r1, r6, r0, r1
	umull	r2, r5, r2, r0
	movs	r0, #1
	strb	r0, [r7, #1]
	str	r3, [r4]
	str.w	r9, [r4, #4]
	str	r6, [r4, #12]
	str	r1, [r4, #8]
	str	r5, [r4, #20]
	str	r2, [r4, #16]
	str.w	lr, [r4, #28]
	movs	r0, #0
	str.w	r12, [r4, #24]
	add	sp, #52
	pop.w	{r4, r5, r6, r7, r8, r9, pc}
.LBB101_4:
	movs	r0, #0
	b	.LBB101_6
.LBB101_5:
	movs	r0, #2
.LBB101_6:
	add	sp, #52
	pop.w	{r4, r5, r6, r7, r8, r9, lr}
	b	tlsf_c.call_fault.CallFault.refusal
.Lfunc_end101:
	.size	tlsf_offsets_report, .Lfunc_end101-tlsf_offsets_report
	.cfi_endproc
	.section	.text.tlsf_write,"ax",%progbits
	.globl	tlsf_write
	.p2align	2
	.type	tlsf_write,%function
	.code	16
	.thumb_func
tlsf_write:
	.cfi_startproc
	push	{r4, r5, r6, r7, lr}
	.cfi_def_cfa_offset 20
	.cfi_offset lr, -4
	.cfi_offset r7, -8
	.cfi_offset r6, -12
	.cfi_offset r5, -16
	.cfi_offset r4, -20
	sub	sp, #12
	.cfi_def_cfa_offset 32
	ldr.w	r12, [sp, #44]
	ldrb	r1, [r0, #8]
	cmp.w	r12, #0
	it	eq
	addeq.w	r12, r12, #4096
	cmp	r1, #0
	beq	.LBB102_9
	ldr	r4, [r0]
	ldrb	r0, [r4]
	cmp	r0, #1
	bne	.LBB102_9
	ldr	r1, [r4, #24]
	movs	r0, #0
	cmp	r1, r2
	strb	r0, [r4]
	bne	.LBB102_11
	ldr	r0, [r4, #56]
	mov	r1, r2
	cmp	r3, r0
	bhs	.LBB102_11
	ldr	r0, [r4, #72]
	mvn	r1, #7
	and.w	r1, r1, r3, lsr #3
	adds	r5, r0, r1
	ldr	r0, [r0, r1]
	ldr	r5, [r5, #4]
	and	r1, r3, #63
	lsr.w	lr, r0, r1
	rsb.w	r0, r1, #32
	lsl.w	r0, r5, r0
	orr.w	r0, r0, lr
	subs	r1, #32
	it	pl
	lsrpl.w	r0, r5, r1
	lsls	r0, r0, #31
	mov	r1, r2
	beq	.LBB102_11
	add.w	r0, r4, #48
	ldr	r5, [r0]
	ldrb.w	r1, [r5, r3, lsl #3]
	lsls	r1, r1, #31
	mov	r1, r2
	bne	.LBB102_11
	add.w	r5, r5, r3, lsl #3
	ldr.w	lr, [sp, #36]
	ldrd	r1, r6, [r5, #8]
	ldr	r7, [sp, #32]
	eor.w	r6, r6, lr
	eors	r1, r7
	orrs	r1, r6
	mov	r1, r2
	bne	.LBB102_11
	ldr.w	lr, [sp, #48]
	ldr	r2, [sp, #40]
	ldr	r1, [r5, #16]
	adds.w	r6, lr, r2
	mov.w	r5, #0
	adc	r7, r5, #0
	subs	r1, r1, r6
	sbcs.w	r1, r5, r7
	bhs	.LBB102_10
	movs	r0, #7
	b	.LBB102_12
.LBB102_9:
	movs	r0, #32
	add	sp, #12
	pop	{r4, r5, r6, r7, pc}
.LBB102_10:
	mov	r1, r3
	mov	r3, r12
	strd	lr, r5, [sp]
	bl	tlsf_heap.region.Region.write.4
	mov	r0, r5
	b	.LBB102_12
.LBB102_11:
	mov	r0, r2
	bl	tlsf_heap.refusal.Refusal.of_name
	uxtb	r0, r0
	cmp	r0, #2
	mov.w	r0, #4
	it	eq
	moveq	r0, #3
.LBB102_12:
	movs	r1, #1
	strb	r1, [r4]
	add	sp, #12
	pop	{r4, r5, r6, r7, pc}
.Lfunc_end102:
	.size	tlsf_write, .Lfunc_end102-tlsf_write
	.cfi_endproc
	.section	.text.tlsf_pools_write,"ax",%progbits
	.globl	tlsf_pools_write
	.p2align	2
	.type	tlsf_pools_write,%function
	.code	16
	.thumb_func
tlsf_pools_write:
	.cfi_startproc
	push.w	{r4, r5, r6, r7, r8, r9, r10, r11, lr}
	.cfi_def_cfa_offset 36
	.cfi_offset lr, -4
	.cfi_offset r11, -8
	.cfi_offset r10, -12
	.cfi_offset r9, -16
	.cfi_offset r8, -20
	.cfi_offset r7, -24
	.cfi_offset r6, -28
	.cfi_offset r5, -32
	.cfi_offset r4, -36
	sub	sp, #12
	.cfi_def_cfa_offset 48
	ldr.w	r12, [sp, #60]
	ldrb	r1, [r0, #8]
	cmp.w	r12, #0
	it	eq
	addeq.w	r12, r12, #4096
	cmp	r1, #0
	beq	.LBB103_13
	ldr	r4, [r0]
	ldrb	r0, [r4, #1]
	cmp	r0, #0
	beq	.LBB103_13
	ldrb	r0, [r4]
	cmp	r0, #1
	bne	.LBB103_16
	add.w	lr, sp, #48
	ldr	r0, [r4, #16]
	ldr.w	r8, [sp, #64]
	ldm.w	lr, {r10, r11, lr}
	movs	r1, #0
	cmp	r2, r0
	strb	r1, [r4, #1]
	blo	.LBB103_12
	ldrd	r5, r6, [r4, #32]
	subs	r0, r2, r0
	subs	r5, r0, r5
	sbcs	r1, r6
	bhs	.LBB103_12
	ldr	r5, [r4, #24]
	mov.w	r9, #1320
	mul	r1, r0, r9
	ldr	r1, [r5, r1]
	cmp	r1, r2
	bne	.LBB103_15
	mla	r0, r0, r9, r5
	ldr	r1, [r0, #32]
	cmp	r3, r1
	mov	r1, r2
	bhs	.LBB103_15
	ldr	r1, [r0, #48]
	mvn	r5, #7
	and.w	r5, r5, r3, lsr #3
	adds	r6, r1, r5
	ldr	r6, [r6, #4]
	ldr	r1, [r1, r5]
	and	r5, r3, #63
	rsb.w	r7, r5, #32
	lsrs	r1, r5
	lsl.w	r7, r6, r7
	orrs	r1, r7
	subs	r5, #32
	it	pl
	lsrpl.w	r1, r6, r5
	lsls	r1, r1, #31
	mov	r1, r2
	beq	.LBB103_15
	adds	r0, #24
	ldr	r5, [r0]
	ldrb.w	r1, [r5, r3, lsl #3]
	lsls	r1, r1, #31
	mov	r1, r2
	bne	.LBB103_15
	add.w	r5, r5, r3, lsl #3
	ldrd	r1, r6, [r5, #8]
	eor.w	r6, r6, r11
	eor.w	r1, r1, r10
	orrs	r1, r6
	mov	r1, r2
	bne	.LBB103_15
	ldr	r2, [r5, #16]
	adds.w	r5, r8, lr
	mov.w	r1, #0
	adc	r6, r1, #0
	subs	r2, r2, r5
	sbcs.w	r2, r1, r6
	bhs	.LBB103_14
	movs	r0, #1
	strb	r0, [r4, #1]
	movs	r0, #7
	add	sp, #12
	pop.w	{r4, r5, r6, r7, r8, r9, r10, r11, pc}
.LBB103_12:
	movs	r0, #1
	strb	r0, [r4, #1]
	movs	r0, #3
	add	sp, #12
	pop.w	{r4, r5, r6, r7, r8, r9, r10, r11, pc}
.LBB103_13:
	movs	r0, #0
	b	.LBB103_17
.LBB103_14:
	mov	r5, r1
	mov	r1, r3
	mov	r2, lr
	mov	r3, r12
	strd	r8, r5, [sp]
	bl	tlsf_heap.region.Region.write.4
	movs	r1, #1
	mov	r0, r5
	strb	r1, [r4, #1]
	add	sp, #12
	pop.w	{r4, r5, r6, r7, r8, r9, r10, r11, pc}
.LBB103_15:
	mov	r0, r2
	bl	tlsf_heap.refusal.Refusal.of_name
	uxtb	r0, r0
	movs	r1, #1
	cmp	r0, #3
	mov.w	r0, #3
	strb	r1, [r4, #1]
	it	eq
	moveq	r0, #4
	add	sp, #12
	pop.w	{r4, r5, r6, r7, r8, r9, r10, r11, pc}
.LBB103_16:
	movs	r0, #2
.LBB103_17:
	add	sp, #12
	pop.w	{r4, r5, r6, r7, r8, r9, r10, r11, lr}
	b	tlsf_c.call_fault.CallFault.refusal
.Lfunc_end103:
	.size	tlsf_pools_write, .Lfunc_end103-tlsf_pools_write
	.cfi_endproc
	.type	.Lstatic.0,%object
	.section	.rodata.cst8,"aM",%progbits,8
.Lstatic.0:
	.zero	8
	.size	.Lstatic.0, 8
	.type	.Lswitch.table.tlsf_queue_take,%object
	.section	.rodata..Lswitch.table.tlsf_queue_take,"a",%progbits
	.p2align	2, 0x0
.Lswitch.table.tlsf_queue_take:
	.long	32
	.long	36
	.long	40
	.long	5
	.long	6
	.long	33
	.long	34
	.long	8
	.long	35
	.long	37
	.long	38
	.size	.Lswitch.table.tlsf_queue_take, 44
	.ident	"rattle logic=dac8208d650f15bf3e2dc313a14fa4c783a3acf887bdfab66e1714b038d9e11b"
	.section	".note.GNU-stack","",%progbits
/* The calls in C: c/pointers.c. */
	.syntax	unified
	.eabi_attribute	24, 1
	.eabi_attribute	25, 1
	.section	.text.tlsf_rounded,"ax",%progbits
	.globl	tlsf_rounded
	.p2align	1
	.type	tlsf_rounded,%function
	.code	16
	.thumb_func
tlsf_rounded:
	.cfi_sections .debug_frame
	.cfi_startproc
	cmn.w	r0, #16
	itt	hi
	movhi.w	r0, #-1
	bxhi	lr
.Lp_BB0_1:
	mov	r1, r0
	adds	r0, #7
	bic	r0, r0, #7
	cmp	r1, #0
	it	eq
	orreq	r0, r0, #8
	bx	lr
.Lp_func_end0:
	.size	tlsf_rounded, .Lp_func_end0-tlsf_rounded
	.cfi_endproc
	.section	.text.tlsf_place_of,"ax",%progbits
	.globl	tlsf_place_of
	.p2align	1
	.type	tlsf_place_of,%function
	.code	16
	.thumb_func
tlsf_place_of:
	.cfi_startproc
	ldr	r0, [r0, #16]
	subs	r0, r1, r0
	sub.w	r1, r0, #24
	movs	r0, #0
	cmp.w	r0, r1, lsl #29
	mov.w	r0, #-1
	it	eq
	lsreq	r0, r1, #3
	bx	lr
.Lp_func_end1:
	.size	tlsf_place_of, .Lp_func_end1-tlsf_place_of
	.cfi_endproc
	.section	.text.tlsf_near,"ax",%progbits
	.globl	tlsf_near
	.p2align	1
	.type	tlsf_near,%function
	.code	16
	.thumb_func
tlsf_near:
	.cfi_startproc
	rsbs	r1, r0, #0
	and	r1, r1, #63
	add	r0, r1
	bx	lr
.Lp_func_end2:
	.size	tlsf_near, .Lp_func_end2-tlsf_near
	.cfi_endproc
	.section	.text.tlsf_base,"ax",%progbits
	.globl	tlsf_base
	.p2align	1
	.type	tlsf_base,%function
	.code	16
	.thumb_func
tlsf_base:
	.cfi_startproc
	ldrb	r1, [r0, #8]
	cmp	r1, #1
	ite	eq
	ldreq	r0, [r0, #16]
	movne	r0, #0
	bx	lr
.Lp_func_end3:
	.size	tlsf_base, .Lp_func_end3-tlsf_base
	.cfi_endproc
	.section	.text.tlsf_at,"ax",%progbits
	.globl	tlsf_at
	.p2align	1
	.type	tlsf_at,%function
	.code	16
	.thumb_func
tlsf_at:
	.cfi_startproc
	add.w	r1, r0, r3, lsl #3
	cmp	r0, #0
	it	ne
	addne.w	r0, r1, #24
	bx	lr
.Lp_func_end4:
	.size	tlsf_at, .Lp_func_end4-tlsf_at
	.cfi_endproc
	.section	.text.tlsf_block_size,"ax",%progbits
	.globl	tlsf_block_size
	.p2align	1
	.type	tlsf_block_size,%function
	.code	16
	.thumb_func
tlsf_block_size:
	.cfi_startproc
	cmp	r0, #0
	ite	ne
	ldrne	r0, [r0, #-8]
	moveq	r0, #0
	bx	lr
.Lp_func_end5:
	.size	tlsf_block_size, .Lp_func_end5-tlsf_block_size
	.cfi_endproc
	.section	.text.tlsf_aligned_alloc,"ax",%progbits
	.globl	tlsf_aligned_alloc
	.p2align	1
	.type	tlsf_aligned_alloc,%function
	.code	16
	.thumb_func
tlsf_aligned_alloc:
	.cfi_startproc
	push	{r4, r5, r7, lr}
	.cfi_def_cfa_offset 16
	.cfi_offset lr, -4
	.cfi_offset r7, -8
	.cfi_offset r5, -12
	.cfi_offset r4, -16
	sub	sp, #24
	.cfi_def_cfa_offset 40
	mov	r3, r1
	subs	r1, #1
	eor.w	r5, r3, r1
	cmp	r5, r1
	mov	r5, r0
	bls	.Lp_BB6_6
	cmp.w	r3, #134217728
	bhi	.Lp_BB6_12
	cmp.w	r2, #134217728
	bhi	.Lp_BB6_12
	ldrb	r0, [r5, #29]
	cmp	r0, #9
	bhs	.Lp_BB6_13
	movw	r4, #65528
	adds	r0, r2, #7
	movt	r4, #8191
	ands	r4, r0
	cmp	r2, #0
	it	eq
	orreq	r4, r4, #8
	cmp	r3, #8
	bhi	.Lp_BB6_7
	add	r0, sp, #8
	mov	r1, r5
	mov	r2, r4
	bl	tlsf_allocate_place
	b	.Lp_BB6_8
.Lp_BB6_6:
	movs	r0, #0
	str	r0, [sp, #8]
	movs	r0, #5
	str	r0, [sp, #12]
	b	.Lp_BB6_8
.Lp_BB6_7:
	ldr	r0, [r5, #16]
	lsrs	r3, r3, #3
	ands	r0, r1
	lsr.w	r12, r0, #3
	add	r0, sp, #8
	mov	r1, r5
	mov	r2, r4
	str.w	r12, [sp]
	bl	tlsf_allocate_aligned
.Lp_BB6_8:
	ldr	r0, [sp, #12]
	cbz	r0, .Lp_BB6_10
	movs	r0, #0
	b	.Lp_BB6_11
.Lp_BB6_10:
	ldr	r0, [sp, #8]
	ldr	r1, [r5, #16]
	add.w	r0, r1, r0, lsl #3
	adds	r0, #24
.Lp_BB6_11:
	add	sp, #24
	pop	{r4, r5, r7, pc}
.Lp_BB6_12:
	mov	r0, r5
	bl	tlsf_too_long
	movs	r1, #0
	strd	r1, r0, [sp, #8]
	b	.Lp_BB6_8
.Lp_BB6_13:
	add	r0, sp, #8
	mov	r1, r5
	bl	tlsf_mixed_place
	b	.Lp_BB6_8
.Lp_func_end6:
	.size	tlsf_aligned_alloc, .Lp_func_end6-tlsf_aligned_alloc
	.cfi_endproc
	.section	.text.tlsf_malloc,"ax",%progbits
	.globl	tlsf_malloc
	.p2align	1
	.type	tlsf_malloc,%function
	.code	16
	.thumb_func
tlsf_malloc:
	.cfi_startproc
	push	{r4, lr}
	.cfi_def_cfa_offset 8
	.cfi_offset lr, -4
	.cfi_offset r4, -8
	sub	sp, #16
	.cfi_def_cfa_offset 24
	mov	r4, r0
	ldrb	r0, [r0, #29]
	cmp	r0, #9
	bhs	.Lp_BB7_6
	cmp.w	r1, #134217728
	bhi	.Lp_BB7_3
	movw	r2, #65528
	adds	r0, r1, #7
	movt	r2, #8191
	ands	r2, r0
	cmp	r1, #0
	mov	r0, sp
	mov	r1, r4
	it	eq
	orreq	r2, r2, #8
	bl	tlsf_allocate_place
	ldr	r0, [sp, #4]
	cbz	r0, .Lp_BB7_5
.Lp_BB7_3:
	movs	r0, #0
.Lp_BB7_4:
	add	sp, #16
	pop	{r4, pc}
.Lp_BB7_5:
	ldr	r0, [sp]
	ldr	r1, [r4, #16]
	add.w	r0, r1, r0, lsl #3
	adds	r0, #24
	b	.Lp_BB7_4
.Lp_BB7_6:
	mov	r0, r4
	add	sp, #16
	pop.w	{r4, lr}
	b	tlsf_malloc_mixed
.Lp_func_end7:
	.size	tlsf_malloc, .Lp_func_end7-tlsf_malloc
	.cfi_endproc
	.section	.text.unlikely.tlsf_malloc_mixed,"ax",%progbits
	.p2align	1
	.type	tlsf_malloc_mixed,%function
	.code	16
	.thumb_func
tlsf_malloc_mixed:
	.cfi_startproc
	b	tlsf_malloc_own
.Lp_func_end8:
	.size	tlsf_malloc_mixed, .Lp_func_end8-tlsf_malloc_mixed
	.cfi_endproc
	.section	.text.tlsf_words_for,"ax",%progbits
	.globl	tlsf_words_for
	.p2align	1
	.type	tlsf_words_for,%function
	.code	16
	.thumb_func
tlsf_words_for:
	.cfi_startproc
	push	{r4, lr}
	.cfi_def_cfa_offset 8
	.cfi_offset lr, -4
	.cfi_offset r4, -8
	cmp	r3, #16
	ldr.w	r12, [sp, #8]
	it	ls
	movls	r3, #16
	cmp.w	r3, #134217728
	mov.w	lr, #134217728
	it	hs
	movhs	r3, lr
	cmp.w	r2, #134217728
	it	lo
	movlo	lr, r2
	movw	r4, #65528
	add.w	lr, lr, #7
	movt	r4, #8191
	and.w	r4, r4, lr
	cmp	r2, #0
	it	eq
	orreq	r4, r4, #8
	adds	r2, r3, r4
	adds	r2, #32
	mov	r3, r12
	pop.w	{r4, lr}
	b	tlsf_words
.Lp_func_end9:
	.size	tlsf_words_for, .Lp_func_end9-tlsf_words_for
	.cfi_endproc
	.section	.text.tlsf_calloc,"ax",%progbits
	.globl	tlsf_calloc
	.p2align	1
	.type	tlsf_calloc,%function
	.code	16
	.thumb_func
tlsf_calloc:
	.cfi_startproc
	push	{r4, r5, r7, lr}
	.cfi_def_cfa_offset 16
	.cfi_offset lr, -4
	.cfi_offset r7, -8
	.cfi_offset r5, -12
	.cfi_offset r4, -16
	sub	sp, #16
	.cfi_def_cfa_offset 32
	mov	r4, r0
	movs	r0, #0
	str	r0, [sp, #12]
	strd	r0, r0, [sp, #4]
	str	r0, [sp]
	cbz	r2, .Lp_BB10_2
	mov.w	r0, #134217728
	udiv	r0, r0, r2
	cmp	r1, r0
	bhi	.Lp_BB10_9
.Lp_BB10_2:
	ldrb	r0, [r4, #29]
	mul	r5, r2, r1
	cmp	r0, #9
	bhs	.Lp_BB10_5
	cmn.w	r5, #16
	bls	.Lp_BB10_7
	mov.w	r1, #-1
	b	.Lp_BB10_8
.Lp_BB10_5:
	mov	r0, r4
	mov	r1, r5
	bl	tlsf_malloc
	cbz	r0, .Lp_BB10_9
	movs	r1, #0
	mov	r2, r5
	add	sp, #16
	pop.w	{r4, r5, r7, lr}
	b	memset
.Lp_BB10_7:
	adds	r0, r5, #7
	bic	r1, r0, #7
	cmp	r5, #0
	it	eq
	orreq	r1, r1, #8
.Lp_BB10_8:
	mov	r2, sp
	mov	r0, r4
	bl	tlsf_allocate
	cbz	r0, .Lp_BB10_11
.Lp_BB10_9:
	movs	r0, #0
.Lp_BB10_10:
	add	sp, #16
	pop	{r4, r5, r7, pc}
.Lp_BB10_11:
	ldr	r0, [sp, #4]
	ldr	r1, [r4, #16]
	add.w	r0, r1, r0, lsl #3
	adds	r0, #24
	b	.Lp_BB10_10
.Lp_func_end10:
	.size	tlsf_calloc, .Lp_func_end10-tlsf_calloc
	.cfi_endproc
	.section	.text.tlsf_free,"ax",%progbits
	.globl	tlsf_free
	.p2align	1
	.type	tlsf_free,%function
	.code	16
	.thumb_func
tlsf_free:
	.cfi_startproc
	cbz	r1, .Lp_BB11_2
	ldr	r2, [r0, #16]
	subs	r1, r1, r2
	sub.w	r2, r1, #24
	movs	r1, #0
	cmp.w	r1, r2, lsl #29
	mov.w	r1, #-1
	it	eq
	lsreq	r1, r2, #3
	b	tlsf_release_place
.Lp_BB11_2:
	movs	r0, #0
	bx	lr
.Lp_func_end11:
	.size	tlsf_free, .Lp_func_end11-tlsf_free
	.cfi_endproc
	.section	.text.tlsf_usable_size,"ax",%progbits
	.globl	tlsf_usable_size
	.p2align	1
	.type	tlsf_usable_size,%function
	.code	16
	.thumb_func
tlsf_usable_size:
	.cfi_startproc
	push	{r4, lr}
	.cfi_def_cfa_offset 8
	.cfi_offset lr, -4
	.cfi_offset r4, -8
	sub	sp, #24
	.cfi_def_cfa_offset 32
	ldr	r2, [r0, #16]
	movs	r4, #0
	subs	r1, r1, r2
	sub.w	r2, r1, #24
	mov.w	r1, #-1
	strd	r4, r4, [sp, #16]
	strd	r4, r4, [sp, #8]
	str	r4, [sp, #4]
	cmp.w	r4, r2, lsl #29
	it	eq
	lsreq	r1, r2, #3
	add	r2, sp, #8
	add	r3, sp, #4
	bl	tlsf_place
	ldr	r1, [sp, #4]
	cmp	r0, #0
	it	ne
	movne	r1, r4
	mov	r0, r1
	add	sp, #24
	pop	{r4, pc}
.Lp_func_end12:
	.size	tlsf_usable_size, .Lp_func_end12-tlsf_usable_size
	.cfi_endproc
	.section	.text.tlsf_name_at,"ax",%progbits
	.globl	tlsf_name_at
	.p2align	1
	.type	tlsf_name_at,%function
	.code	16
	.thumb_func
tlsf_name_at:
	.cfi_startproc
	push	{r4, r5, r6, lr}
	.cfi_def_cfa_offset 16
	.cfi_offset lr, -4
	.cfi_offset r6, -8
	.cfi_offset r5, -12
	.cfi_offset r4, -16
	sub	sp, #24
	.cfi_def_cfa_offset 40
	ldr	r3, [r0, #16]
	mov	r6, r2
	subs	r1, r1, r3
	movs	r2, #0
	sub.w	r3, r1, #24
	mov.w	r1, #-1
	add	r5, sp, #8
	strd	r2, r2, [sp, #16]
	strd	r2, r2, [sp, #8]
	str	r2, [sp, #4]
	cmp.w	r2, r3, lsl #29
	it	eq
	lsreq	r1, r3, #3
	add	r3, sp, #4
	mov	r2, r5
	bl	tlsf_place
	cbnz	r0, .Lp_BB13_2
	ldm.w	r5, {r1, r2, r3, r4}
	stm	r6!, {r1, r2, r3, r4}
.Lp_BB13_2:
	add	sp, #24
	pop	{r4, r5, r6, pc}
.Lp_func_end13:
	.size	tlsf_name_at, .Lp_func_end13-tlsf_name_at
	.cfi_endproc
	.section	.text.tlsf_realloc,"ax",%progbits
	.globl	tlsf_realloc
	.p2align	1
	.type	tlsf_realloc,%function
	.code	16
	.thumb_func
tlsf_realloc:
	.cfi_startproc
	push	{r4, r5, r7, lr}
	.cfi_def_cfa_offset 16
	.cfi_offset lr, -4
	.cfi_offset r7, -8
	.cfi_offset r5, -12
	.cfi_offset r4, -16
	sub	sp, #8
	.cfi_def_cfa_offset 24
	mov	r4, r0
	cbz	r1, .Lp_BB14_4
	cbz	r2, .Lp_BB14_5
	cmp.w	r2, #134217728
	bls	.Lp_BB14_6
	movs	r5, #0
	b	.Lp_BB14_9
.Lp_BB14_4:
	mov	r0, r4
	mov	r1, r2
	add	sp, #8
	pop.w	{r4, r5, r7, lr}
	b	tlsf_malloc
.Lp_BB14_5:
	ldr	r0, [r4, #16]
	movs	r5, #0
	subs	r0, r1, r0
	subs	r0, #24
	mov.w	r1, #-1
	cmp.w	r5, r0, lsl #29
	it	eq
	lsreq	r1, r0, #3
	mov	r0, r4
	bl	tlsf_release_place
	b	.Lp_BB14_9
.Lp_BB14_6:
	ldrb	r0, [r4, #29]
	cmp	r0, #9
	bhs	.Lp_BB14_10
	ldr	r0, [r4, #16]
	movs	r5, #0
	subs	r0, r1, r0
	subs	r0, #24
	mov.w	r1, #-1
	cmp.w	r5, r0, lsl #29
	it	eq
	lsreq	r1, r0, #3
	adds	r0, r2, #7
	movw	r2, #65528
	movt	r2, #8191
	ands	r2, r0
	add	r3, sp, #4
	mov	r0, r4
	str	r1, [sp, #4]
	bl	tlsf_resize_place
	cbnz	r0, .Lp_BB14_9
	ldr	r0, [r4, #16]
	ldr	r1, [sp, #4]
	add.w	r0, r0, r1, lsl #3
	add.w	r5, r0, #24
.Lp_BB14_9:
	mov	r0, r5
	add	sp, #8
	pop	{r4, r5, r7, pc}
.Lp_BB14_10:
	mov	r0, r4
	add	sp, #8
	pop.w	{r4, r5, r7, lr}
	b	tlsf_realloc_mixed
.Lp_func_end14:
	.size	tlsf_realloc, .Lp_func_end14-tlsf_realloc
	.cfi_endproc
	.section	.text.unlikely.tlsf_realloc_mixed,"ax",%progbits
	.p2align	1
	.type	tlsf_realloc_mixed,%function
	.code	16
	.thumb_func
tlsf_realloc_mixed:
	.cfi_startproc
	push.w	{r4, r5, r6, r7, r8, r9, r10, lr}
	.cfi_def_cfa_offset 32
	.cfi_offset lr, -4
	.cfi_offset r10, -8
	.cfi_offset r9, -12
	.cfi_offset r8, -16
	.cfi_offset r7, -20
	.cfi_offset r6, -24
	.cfi_offset r5, -28
	.cfi_offset r4, -32
	sub	sp, #48
	.cfi_def_cfa_offset 80
	mov	r9, r2
	mov	r8, r1
	mov	r4, r0
	mov	r0, sp
	movs	r1, #0
	movs	r2, #24
	movs	r5, #0
	bl	memset
	ldr	r0, [r4, #16]
	ldrb	r1, [r4, #29]
	sub.w	r0, r8, r0
	subs	r0, #24
	cmp.w	r5, r0, lsl #29
	mov.w	r7, #-1
	it	eq
	lsreq	r7, r0, #3
	cmp	r1, #0
	it	eq
	moveq	r1, #8
	add.w	r0, r9, r1
	adds	r0, #23
	rsbs	r2, r1, #0
	ands	r0, r2
	cmp	r1, #8
	sub.w	r6, r0, #24
	bne	.Lp_BB15_4
.Lp_BB15_1:
	add	r3, sp, #24
	mov	r0, r4
	mov	r1, r7
	mov	r2, r6
	str	r7, [sp, #24]
.Lp_BB15_2:
	bl	tlsf_resize_place
	cmp	r0, #0
	beq	.Lp_BB15_11
.Lp_BB15_3:
	movs	r7, #0
	b	.Lp_BB15_12
.Lp_BB15_4:
	mov	r2, sp
	mov	r0, r4
	mov	r1, r7
	bl	tlsf_block_at
	cmp	r0, #0
	bne	.Lp_BB15_1
	ldr	r0, [sp, #8]
	cmp	r0, #0
	beq	.Lp_BB15_1
	ldr.w	r10, [sp, #4]
	mvn	r0, #23
	add.w	r0, r0, r10, lsl #3
	cmp	r0, r6
	mov	r5, r6
	it	lo
	movlo	r5, r0
	cmp	r0, r9
	mov.w	r0, #3
	it	lo
	movlo	r5, r6
	add.w	r6, r0, r5, lsr #3
	add	r0, sp, #24
	movs	r1, #0
	movs	r2, #24
	bl	memset
	cmp	r10, r6
	bhs	.Lp_BB15_13
	ldr	r0, [sp]
	add	r2, sp, #24
	add.w	r1, r0, r10
	mov	r0, r4
	bl	tlsf_block_at
	ldr	r1, [sp, #32]
	orrs	r0, r1
	bne	.Lp_BB15_9
	ldr	r0, [sp, #4]
	ldr	r1, [sp, #28]
	add	r0, r1
	cmp	r0, r6
	bhs	.Lp_BB15_13
.Lp_BB15_9:
	mov	r0, r4
	mov	r1, r9
	bl	tlsf_malloc
	cmp	r0, #0
	beq	.Lp_BB15_3
	mov	r7, r0
	ldr	r0, [sp, #12]
	mov	r1, r8
	cmp	r0, r9
	it	lo
	movlo	r9, r0
	mov	r0, r7
	mov	r2, r9
	bl	memcpy
	ldr	r1, [sp]
	mov	r0, r4
	bl	tlsf_release_place
	b	.Lp_BB15_12
.Lp_BB15_11:
	ldr	r0, [r4, #16]
	ldr	r1, [sp, #24]
	add.w	r0, r0, r1, lsl #3
	add.w	r7, r0, #24
.Lp_BB15_12:
	mov	r0, r7
	add	sp, #48
	pop.w	{r4, r5, r6, r7, r8, r9, r10, pc}
.Lp_BB15_13:
	str	r7, [sp, #24]
	add	r3, sp, #24
	mov	r0, r4
	mov	r1, r7
	mov	r2, r5
	b	.Lp_BB15_2
.Lp_func_end15:
	.size	tlsf_realloc_mixed, .Lp_func_end15-tlsf_realloc_mixed
	.cfi_endproc
	.section	.text.tlsf_aligned_realloc,"ax",%progbits
	.globl	tlsf_aligned_realloc
	.p2align	1
	.type	tlsf_aligned_realloc,%function
	.code	16
	.thumb_func
tlsf_aligned_realloc:
	.cfi_startproc
	push.w	{r4, r5, r6, r7, r8, r9, r10, r11, lr}
	.cfi_def_cfa_offset 36
	.cfi_offset lr, -4
	.cfi_offset r11, -8
	.cfi_offset r10, -12
	.cfi_offset r9, -16
	.cfi_offset r8, -20
	.cfi_offset r7, -24
	.cfi_offset r6, -28
	.cfi_offset r5, -32
	.cfi_offset r4, -36
	sub	sp, #52
	.cfi_def_cfa_offset 88
	mov	r5, r3
	mov	r7, r2
	mov	r4, r0
	cbz	r1, .Lp_BB16_5
	cbz	r7, .Lp_BB16_3
	subs	r0, r7, #1
	tst	r7, r0
	beq	.Lp_BB16_6
.Lp_BB16_3:
	movs	r7, #0
.Lp_BB16_4:
	mov	r0, r7
	add	sp, #52
	pop.w	{r4, r5, r6, r7, r8, r9, r10, r11, pc}
.Lp_BB16_5:
	mov	r0, r4
	mov	r1, r7
	mov	r2, r5
	add	sp, #52
	pop.w	{r4, r5, r6, r7, r8, r9, r10, r11, lr}
	b	tlsf_aligned_alloc
.Lp_BB16_6:
	mov	r6, r1
	cbz	r5, .Lp_BB16_11
	cmp.w	r5, #134217728
	bhi	.Lp_BB16_3
	ldrb.w	r10, [r4, #29]
	cmp.w	r10, #0
	it	eq
	moveq.w	r10, #8
	ands.w	r11, r0, r6
	bne	.Lp_BB16_13
	cmp	r7, r10
	bhi	.Lp_BB16_13
	mov	r0, r4
	mov	r1, r6
	mov	r2, r5
	add	sp, #52
	pop.w	{r4, r5, r6, r7, r8, r9, r10, r11, lr}
	b	tlsf_realloc
.Lp_BB16_11:
	ldr	r0, [r4, #16]
	movs	r7, #0
	subs	r0, r6, r0
	subs	r0, #24
	mov.w	r1, #-1
	cmp.w	r7, r0, lsl #29
	it	eq
	lsreq	r1, r0, #3
.Lp_BB16_12:
	mov	r0, r4
	bl	tlsf_release_place
	b	.Lp_BB16_4
.Lp_BB16_13:
	mov	r9, sp
	mov	r0, r9
	movs	r1, #0
	movs	r2, #24
	mov.w	r8, #0
	bl	memset
	ldr	r0, [r4, #16]
	rsb.w	r1, r10, #0
	subs	r0, r6, r0
	subs	r0, #24
	cmp.w	r8, r0, lsl #29
	mov.w	r8, #-1
	it	eq
	lsreq.w	r8, r0, #3
	add.w	r0, r5, r10
	adds	r0, #23
	ands	r0, r1
	sub.w	r10, r0, #24
	mov	r0, r4
	mov	r1, r8
	mov	r2, r9
	bl	tlsf_block_at
	cbnz	r0, .Lp_BB16_18
	ldr	r0, [sp, #8]
	cbz	r0, .Lp_BB16_18
	ldr	r1, [sp, #4]
	mvn	r0, #23
	add.w	r0, r0, r1, lsl #3
	cmp	r0, r10
	mov	r9, r10
	it	lo
	movlo	r9, r0
	cmp	r0, r5
	it	lo
	movlo	r9, r10
	cmp.w	r11, #0
	beq	.Lp_BB16_21
.Lp_BB16_16:
	mov	r0, r4
	mov	r1, r7
	mov	r2, r5
	bl	tlsf_aligned_alloc
	cmp	r0, #0
	beq	.Lp_BB16_3
	mov	r7, r0
	ldr	r0, [sp, #12]
	mov	r1, r6
	cmp	r0, r5
	it	lo
	movlo	r5, r0
	mov	r0, r7
	mov	r2, r5
	bl	memcpy
	ldr	r1, [sp]
	b	.Lp_BB16_12
.Lp_BB16_18:
	add	r3, sp, #24
	mov	r0, r4
	mov	r1, r8
	mov	r2, r10
	str.w	r8, [sp, #24]
.Lp_BB16_19:
	bl	tlsf_resize_place
	cmp	r0, #0
	bne.w	.Lp_BB16_3
	ldr	r0, [r4, #16]
	ldr	r1, [sp, #24]
	add.w	r0, r0, r1, lsl #3
	add.w	r7, r0, #24
	b	.Lp_BB16_4
.Lp_BB16_21:
	movs	r0, #3
	add.w	r10, r0, r9, lsr #3
	add	r0, sp, #24
	mov	r11, r1
	movs	r1, #0
	movs	r2, #24
	bl	memset
	cmp	r11, r10
	bhs	.Lp_BB16_24
	ldr	r0, [sp]
	add	r2, sp, #24
	add.w	r1, r0, r11
	mov	r0, r4
	bl	tlsf_block_at
	ldr	r1, [sp, #32]
	orrs	r0, r1
	bne	.Lp_BB16_16
	ldr	r0, [sp, #4]
	ldr	r1, [sp, #28]
	add	r0, r1
	cmp	r0, r10
	blo	.Lp_BB16_16
.Lp_BB16_24:
	str.w	r8, [sp, #24]
	add	r3, sp, #24
	mov	r0, r4
	mov	r1, r8
	mov	r2, r9
	b	.Lp_BB16_19
.Lp_func_end16:
	.size	tlsf_aligned_realloc, .Lp_func_end16-tlsf_aligned_realloc
	.cfi_endproc
	.section	.text.tlsf_allocate_at,"ax",%progbits
	.globl	tlsf_allocate_at
	.p2align	1
	.type	tlsf_allocate_at,%function
	.code	16
	.thumb_func
tlsf_allocate_at:
	.cfi_startproc
	push.w	{r4, r5, r6, r7, r8, r9, r10, r11, lr}
	.cfi_def_cfa_offset 36
	.cfi_offset lr, -4
	.cfi_offset r11, -8
	.cfi_offset r10, -12
	.cfi_offset r9, -16
	.cfi_offset r8, -20
	.cfi_offset r7, -24
	.cfi_offset r6, -28
	.cfi_offset r5, -32
	.cfi_offset r4, -36
	sub	sp, #28
	.cfi_def_cfa_offset 64
	mov	r5, r1
	subs	r1, r2, #1
	mov	r6, r3
	mov	r3, r2
	eors	r2, r1
	cmp	r2, r1
	mov	r4, r0
	bls	.Lp_BB17_6
	cmp.w	r5, #134217728
	bhi	.Lp_BB17_13
	cmp.w	r3, #134217728
	bhi	.Lp_BB17_13
	ldrb	r0, [r4, #29]
	cmp	r0, #9
	bhs	.Lp_BB17_14
	movw	r2, #65528
	adds	r0, r5, #7
	movt	r2, #8191
	ands	r2, r0
	cmp	r5, #0
	it	eq
	orreq	r2, r2, #8
	cmp	r3, #8
	bhi	.Lp_BB17_7
	add	r0, sp, #8
	mov	r1, r4
	bl	tlsf_allocate_place
	b	.Lp_BB17_8
.Lp_BB17_6:
	movs	r0, #0
	movs	r1, #5
	str	r0, [sp, #8]
	str	r0, [sp, #20]
	strd	r1, r0, [sp, #12]
	b	.Lp_BB17_8
.Lp_BB17_7:
	ldr	r0, [r4, #16]
	lsrs	r3, r3, #3
	ands	r0, r1
	lsrs	r7, r0, #3
	add	r0, sp, #8
	mov	r1, r4
	str	r7, [sp]
	bl	tlsf_allocate_aligned
.Lp_BB17_8:
	ldr	r7, [sp, #12]
	cbnz	r7, .Lp_BB17_12
	mov	r0, r6
	ldr.w	r8, [sp, #8]
	ldr	r2, [sp, #68]
	ldr	r6, [sp, #64]
	ldr.w	r11, [r4, #24]
	ldrd	r9, r10, [sp, #16]
	lsls	r0, r0, #31
	mov	r0, r8
	bne	.Lp_BB17_11
	ldrb	r1, [r4, #29]
	ldr	r0, [r4, #16]
	cmp	r1, #0
	it	eq
	moveq	r1, #8
	cmp	r5, #1
	it	ls
	movls	r5, #1
	adds	r2, r5, r1
	adds	r2, #23
	rsbs	r1, r1, #0
	add.w	r0, r0, r8, lsl #3
	ands	r1, r2
	adds	r0, #24
	sub.w	r2, r1, #24
	movs	r1, #0
	bl	memset
	ldr	r2, [sp, #68]
	ldr	r0, [sp, #8]
.Lp_BB17_11:
	ldr	r1, [r4, #16]
	strd	r11, r8, [r6]
	add.w	r0, r1, r0, lsl #3
	adds	r0, #24
	str.w	r9, [r6, #8]
	str.w	r10, [r6, #12]
	str	r0, [r2]
.Lp_BB17_12:
	mov	r0, r7
	add	sp, #28
	pop.w	{r4, r5, r6, r7, r8, r9, r10, r11, pc}
.Lp_BB17_13:
	mov	r0, r4
	bl	tlsf_too_long
	movs	r1, #0
	strd	r1, r0, [sp, #8]
	strd	r1, r1, [sp, #16]
	b	.Lp_BB17_8
.Lp_BB17_14:
	add	r0, sp, #8
	mov	r1, r4
	mov	r2, r5
	bl	tlsf_mixed_place
	b	.Lp_BB17_8
.Lp_func_end17:
	.size	tlsf_allocate_at, .Lp_func_end17-tlsf_allocate_at
	.cfi_endproc
	.section	.text.tlsf_payload,"ax",%progbits
	.globl	tlsf_payload
	.p2align	1
	.type	tlsf_payload,%function
	.code	16
	.thumb_func
tlsf_payload:
	.cfi_startproc
	push	{r4, r5, r7, lr}
	.cfi_def_cfa_offset 16
	.cfi_offset lr, -4
	.cfi_offset r7, -8
	.cfi_offset r5, -12
	.cfi_offset r4, -16
	sub	sp, #24
	.cfi_def_cfa_offset 40
	mov	r4, r3
	ldrd	lr, r12, [sp, #40]
	add	r3, sp, #16
	add	r1, sp, #20
	movs	r5, #0
	strd	r1, r3, [sp, #8]
	mov	r3, r4
	strd	r5, r5, [sp, #16]
	str.w	lr, [sp]
	str.w	r12, [sp, #4]
	bl	tlsf_locate
	cbnz	r0, .Lp_BB18_4
	ldr	r0, [sp, #48]
	cbz	r0, .Lp_BB18_3
	ldr	r1, [sp, #16]
	str	r1, [r0]
.Lp_BB18_3:
	ldr	r0, [sp, #20]
	add.w	r0, r0, r4, lsl #3
	add.w	r5, r0, #24
.Lp_BB18_4:
	mov	r0, r5
	add	sp, #24
	pop	{r4, r5, r7, pc}
.Lp_func_end18:
	.size	tlsf_payload, .Lp_func_end18-tlsf_payload
	.cfi_endproc
	.section	.text.tlsf_pools_name_at,"ax",%progbits
	.globl	tlsf_pools_name_at
	.p2align	1
	.type	tlsf_pools_name_at,%function
	.code	16
	.thumb_func
tlsf_pools_name_at:
	.cfi_startproc
	push.w	{r4, r5, r6, r7, r8, r9, r10, r11, lr}
	.cfi_def_cfa_offset 36
	.cfi_offset lr, -4
	.cfi_offset r11, -8
	.cfi_offset r10, -12
	.cfi_offset r9, -16
	.cfi_offset r8, -20
	.cfi_offset r7, -24
	.cfi_offset r6, -28
	.cfi_offset r5, -32
	.cfi_offset r4, -36
	sub	sp, #20
	.cfi_def_cfa_offset 56
	mov	r7, r2
	mov	r6, r1
	mov.w	r11, #0
	add	r2, sp, #12
	add	r3, sp, #16
	movs	r1, #0
	mov	r5, r0
	str.w	r11, [sp, #16]
	strd	r11, r11, [sp, #8]
	bl	tlsf_pools_part
	mov.w	r8, #0
	mov.w	r4, #0
	cbnz	r0, .Lp_BB19_7
	str	r7, [sp, #4]
	add.w	r9, sp, #12
	add.w	r10, sp, #16
	movs	r7, #0
	.p2align	2
.Lp_BB19_2:
	ldr	r0, [sp, #12]
	cbz	r7, .Lp_BB19_4
	subs	r1, r6, r0
	sub.w	r2, r6, r8
	cmp	r1, r2
	bhi	.Lp_BB19_5
.Lp_BB19_4:
	mov	r8, r0
	mov	r4, r7
.Lp_BB19_5:
	adds	r7, #1
	mov	r0, r5
	mov	r1, r7
	mov	r2, r9
	mov	r3, r10
	bl	tlsf_pools_part
	cmp	r0, #0
	beq	.Lp_BB19_2
	ldr	r7, [sp, #4]
.Lp_BB19_7:
	sub.w	r0, r6, r8
	subs	r0, #24
	mov.w	r2, #-1
	cmp.w	r11, r0, lsl #29
	it	eq
	lsreq	r2, r0, #3
	add	r6, sp, #8
	mov	r0, r5
	mov	r1, r4
	mov	r3, r7
	str	r6, [sp]
	bl	tlsf_pools_place
	add	sp, #20
	pop.w	{r4, r5, r6, r7, r8, r9, r10, r11, pc}
.Lp_func_end19:
	.size	tlsf_pools_name_at, .Lp_func_end19-tlsf_pools_name_at
	.cfi_endproc
	.section	.text.tlsf_pools_usable_size,"ax",%progbits
	.globl	tlsf_pools_usable_size
	.p2align	1
	.type	tlsf_pools_usable_size,%function
	.code	16
	.thumb_func
tlsf_pools_usable_size:
	.cfi_startproc
	push.w	{r4, r5, r6, r7, r8, r9, r10, r11, lr}
	.cfi_def_cfa_offset 36
	.cfi_offset lr, -4
	.cfi_offset r11, -8
	.cfi_offset r10, -12
	.cfi_offset r9, -16
	.cfi_offset r8, -20
	.cfi_offset r7, -24
	.cfi_offset r6, -28
	.cfi_offset r5, -32
	.cfi_offset r4, -36
	sub	sp, #36
	.cfi_def_cfa_offset 72
	mov	r5, r1
	mov.w	r10, #0
	add	r2, sp, #28
	add	r3, sp, #32
	movs	r1, #0
	mov	r4, r0
	str.w	r10, [sp, #20]
	strd	r10, r10, [sp, #12]
	strd	r10, r10, [sp, #4]
	strd	r10, r10, [sp, #28]
	bl	tlsf_pools_part
	mov.w	r7, #0
	mov.w	r11, #0
	cbnz	r0, .Lp_BB20_6
	add.w	r8, sp, #28
	add.w	r9, sp, #32
	movs	r6, #0
	.p2align	2
.Lp_BB20_2:
	ldr	r0, [sp, #28]
	cbz	r6, .Lp_BB20_4
	subs	r1, r5, r0
	subs	r2, r5, r7
	cmp	r1, r2
	bhi	.Lp_BB20_5
.Lp_BB20_4:
	mov	r7, r0
	mov	r11, r6
.Lp_BB20_5:
	adds	r6, #1
	mov	r0, r4
	mov	r1, r6
	mov	r2, r8
	mov	r3, r9
	bl	tlsf_pools_part
	cmp	r0, #0
	beq	.Lp_BB20_2
.Lp_BB20_6:
	subs	r0, r5, r7
	subs	r0, #24
	mov.w	r2, #-1
	cmp.w	r10, r0, lsl #29
	it	eq
	lsreq	r2, r0, #3
	add	r7, sp, #4
	add	r3, sp, #8
	mov	r0, r4
	mov	r1, r11
	str	r7, [sp]
	bl	tlsf_pools_place
	ldr	r1, [sp, #4]
	cmp	r0, #0
	it	ne
	movne	r1, r10
	mov	r0, r1
	add	sp, #36
	pop.w	{r4, r5, r6, r7, r8, r9, r10, r11, pc}
.Lp_func_end20:
	.size	tlsf_pools_usable_size, .Lp_func_end20-tlsf_pools_usable_size
	.cfi_endproc
	.section	.text.tlsf_pools_free,"ax",%progbits
	.globl	tlsf_pools_free
	.p2align	1
	.type	tlsf_pools_free,%function
	.code	16
	.thumb_func
tlsf_pools_free:
	.cfi_startproc
	push	{r4, lr}
	.cfi_def_cfa_offset 8
	.cfi_offset lr, -4
	.cfi_offset r4, -8
	sub	sp, #24
	.cfi_def_cfa_offset 32
	mov	r4, r0
	movs	r0, #0
	str	r0, [sp, #20]
	strd	r0, r0, [sp, #12]
	str	r0, [sp, #8]
	cbz	r1, .Lp_BB21_3
	add	r2, sp, #8
	mov	r0, r4
	bl	tlsf_pools_name_at
	cbnz	r0, .Lp_BB21_3
	add.w	r12, sp, #8
	ldm.w	r12, {r2, r3, r12}
	ldr	r1, [sp, #20]
	mov	r0, r4
	strd	r12, r1, [sp]
	bl	tlsf_pools_release
.Lp_BB21_3:
	add	sp, #24
	pop	{r4, pc}
.Lp_func_end21:
	.size	tlsf_pools_free, .Lp_func_end21-tlsf_pools_free
	.cfi_endproc
	.section	.text.tlsf_pools_malloc,"ax",%progbits
	.globl	tlsf_pools_malloc
	.p2align	1
	.type	tlsf_pools_malloc,%function
	.code	16
	.thumb_func
tlsf_pools_malloc:
	.cfi_startproc
	push	{r4, r5, r7, lr}
	.cfi_def_cfa_offset 16
	.cfi_offset lr, -4
	.cfi_offset r7, -8
	.cfi_offset r5, -12
	.cfi_offset r4, -16
	sub	sp, #32
	.cfi_def_cfa_offset 48
	movs	r5, #0
	add	r2, sp, #4
	mov	r4, r0
	str	r5, [sp, #4]
	bl	tlsf_pools_row
	cbnz	r0, .Lp_BB22_7
	ldr	r1, [sp, #4]
	add	r2, sp, #16
	mov	r0, r4
	strd	r5, r5, [sp, #24]
	strd	r5, r5, [sp, #16]
	strd	r5, r5, [sp, #8]
	bl	tlsf_pools_allocate
	cbnz	r0, .Lp_BB22_7
	add	r2, sp, #8
	add	r3, sp, #12
	mov	r0, r4
	movs	r1, #0
	movs	r5, #0
	bl	tlsf_pools_part
	cbnz	r0, .Lp_BB22_7
	ldrd	r1, r0, [sp, #12]
	cmp	r0, r1
	beq	.Lp_BB22_6
	subs	r1, r0, r1
	add	r2, sp, #8
	add	r3, sp, #12
	mov	r0, r4
	bl	tlsf_pools_part
	cbz	r0, .Lp_BB22_6
	movs	r5, #0
	b	.Lp_BB22_7
.Lp_BB22_6:
	ldr	r0, [sp, #8]
	ldr	r1, [sp, #20]
	add.w	r0, r0, r1, lsl #3
	add.w	r5, r0, #24
.Lp_BB22_7:
	mov	r0, r5
	add	sp, #32
	pop	{r4, r5, r7, pc}
.Lp_func_end22:
	.size	tlsf_pools_malloc, .Lp_func_end22-tlsf_pools_malloc
	.cfi_endproc
	.section	.text.tlsf_pools_realloc,"ax",%progbits
	.globl	tlsf_pools_realloc
	.p2align	1
	.type	tlsf_pools_realloc,%function
	.code	16
	.thumb_func
tlsf_pools_realloc:
	.cfi_startproc
	push.w	{r4, r5, r6, r7, r8, r9, r10, r11, lr}
	.cfi_def_cfa_offset 36
	.cfi_offset lr, -4
	.cfi_offset r11, -8
	.cfi_offset r10, -12
	.cfi_offset r9, -16
	.cfi_offset r8, -20
	.cfi_offset r7, -24
	.cfi_offset r6, -28
	.cfi_offset r5, -32
	.cfi_offset r4, -36
	sub	sp, #68
	.cfi_def_cfa_offset 104
	mov	r4, r2
	mov	r10, r0
	movs	r0, #0
	cmp	r1, #0
	str	r0, [sp, #36]
	strd	r0, r0, [sp, #28]
	strd	r0, r0, [sp, #20]
	str	r0, [sp, #16]
	beq.w	.Lp_BB23_17
	mov	r5, r1
	cmp	r4, #0
	beq.w	.Lp_BB23_18
	mov.w	r9, #0
	add	r2, sp, #44
	add	r3, sp, #48
	mov	r0, r10
	movs	r1, #0
	strd	r9, r9, [sp, #44]
	bl	tlsf_pools_part
	mov.w	r8, #0
	mov.w	r7, #0
	cbnz	r0, .Lp_BB23_9
	str	r4, [sp, #12]
	add.w	r11, sp, #44
	add	r4, sp, #48
	movs	r6, #0
	.p2align	2
.Lp_BB23_4:
	ldr	r0, [sp, #44]
	cbz	r6, .Lp_BB23_6
	subs	r1, r5, r0
	sub.w	r2, r5, r8
	cmp	r1, r2
	bhi	.Lp_BB23_7
.Lp_BB23_6:
	mov	r8, r0
	mov	r7, r6
.Lp_BB23_7:
	adds	r6, #1
	mov	r0, r10
	mov	r1, r6
	mov	r2, r11
	mov	r3, r4
	bl	tlsf_pools_part
	cmp	r0, #0
	beq	.Lp_BB23_4
	ldr	r4, [sp, #12]
.Lp_BB23_9:
	sub.w	r0, r5, r8
	subs	r0, #24
	mov.w	r2, #-1
	cmp.w	r9, r0, lsl #29
	it	eq
	lsreq	r2, r0, #3
	add	r6, sp, #20
	add	r3, sp, #24
	mov	r0, r10
	mov	r1, r7
	str	r6, [sp]
	bl	tlsf_pools_place
	cmp	r0, #0
	bne	.Lp_BB23_20
	add	r2, sp, #16
	mov	r0, r10
	mov	r1, r4
	bl	tlsf_pools_row
	cmp	r0, #0
	bne	.Lp_BB23_19
	ldrd	r1, r0, [sp, #16]
	cmp	r4, r0
	it	ls
	cmpls	r0, r1
	bls	.Lp_BB23_21
	movs	r0, #0
	strd	r0, r0, [sp, #56]
	strd	r0, r0, [sp, #48]
	strd	r0, r0, [sp, #40]
	add	r2, sp, #48
	mov	r0, r10
	bl	tlsf_pools_allocate
	cbnz	r0, .Lp_BB23_19
	add	r2, sp, #40
	add	r3, sp, #44
	mov	r0, r10
	movs	r1, #0
	bl	tlsf_pools_part
	cbnz	r0, .Lp_BB23_19
	ldrd	r1, r0, [sp, #44]
	cmp	r0, r1
	beq	.Lp_BB23_16
	subs	r1, r0, r1
	add	r2, sp, #40
	add	r3, sp, #44
	mov	r0, r10
	bl	tlsf_pools_part
	cbnz	r0, .Lp_BB23_19
.Lp_BB23_16:
	ldr	r0, [sp, #40]
	ldr	r1, [sp, #52]
	add.w	r0, r0, r1, lsl #3
	ldr	r1, [sp, #20]
	add.w	r9, r0, #24
	cmp	r1, r4
	it	lo
	movlo	r4, r1
	mov	r0, r9
	mov	r1, r5
	mov	r2, r4
	bl	memcpy
	ldrd	r2, r3, [sp, #24]
	ldrd	r1, r7, [sp, #32]
	mov	r0, r10
	strd	r1, r7, [sp]
	bl	tlsf_pools_release
	b	.Lp_BB23_20
.Lp_BB23_17:
	mov	r0, r10
	mov	r1, r4
	add	sp, #68
	pop.w	{r4, r5, r6, r7, r8, r9, r10, r11, lr}
	b	tlsf_pools_malloc
.Lp_BB23_18:
	mov	r0, r10
	mov	r1, r5
	bl	tlsf_pools_free
.Lp_BB23_19:
	mov.w	r9, #0
.Lp_BB23_20:
	mov	r0, r9
	add	sp, #68
	pop.w	{r4, r5, r6, r7, r8, r9, r10, r11, pc}
.Lp_BB23_21:
	mov	r9, r5
	b	.Lp_BB23_20
.Lp_func_end23:
	.size	tlsf_pools_realloc, .Lp_func_end23-tlsf_pools_realloc
	.cfi_endproc
	.section	.text.tlsf_text_of,"ax",%progbits
	.globl	tlsf_text_of
	.p2align	1
	.type	tlsf_text_of,%function
	.code	16
	.thumb_func
tlsf_text_of:
	.cfi_startproc
	cmp	r0, #40
	ittt	hi
	movwhi	r0, :lower16:.L.str.20
	movthi	r0, :upper16:.L.str.20
	bxhi	lr
.Lp_BB24_1:
	movw	r1, :lower16:.Lp_switch.table.tlsf_text_of
	movt	r1, :upper16:.Lp_switch.table.tlsf_text_of
	ldr.w	r0, [r1, r0, lsl #2]
	bx	lr
.Lp_func_end24:
	.size	tlsf_text_of, .Lp_func_end24-tlsf_text_of
	.cfi_endproc
	.section	.text.unlikely.tlsf_too_long,"ax",%progbits
	.p2align	1
	.type	tlsf_too_long,%function
	.code	16
	.thumb_func
tlsf_too_long:
	.cfi_startproc
	push	{r4, r5, r7, lr}
	.cfi_def_cfa_offset 16
	.cfi_offset lr, -4
	.cfi_offset r7, -8
	.cfi_offset r5, -12
	.cfi_offset r4, -16
	sub	sp, #24
	.cfi_def_cfa_offset 40
	mov	r5, sp
	mov	r4, r0
	mov	r0, r5
	movs	r1, #0
	movs	r2, #24
	bl	memset
	mov	r0, r4
	mov.w	r1, #-1
	mov	r2, r5
	bl	tlsf_block_at
	cmp	r0, #32
	it	ne
	movne	r0, #1
	add	sp, #24
	pop	{r4, r5, r7, pc}
.Lp_func_end25:
	.size	tlsf_too_long, .Lp_func_end25-tlsf_too_long
	.cfi_endproc
	.section	.text.unlikely.tlsf_mixed_place,"ax",%progbits
	.p2align	1
	.type	tlsf_mixed_place,%function
	.code	16
	.thumb_func
tlsf_mixed_place:
	.cfi_startproc
	push.w	{r4, r5, r6, r7, r8, r9, lr}
	.cfi_def_cfa_offset 28
	.cfi_offset lr, -4
	.cfi_offset r9, -8
	.cfi_offset r8, -12
	.cfi_offset r7, -16
	.cfi_offset r6, -20
	.cfi_offset r5, -24
	.cfi_offset r4, -28
	sub	sp, #28
	.cfi_def_cfa_offset 56
	ldrb	r5, [r1, #29]
	mov	r8, r0
	cmp	r5, #0
	it	eq
	moveq	r5, #8
	cmp	r2, #1
	it	ls
	movls	r2, #1
	adds	r0, r2, r5
	mov	r4, r1
	adds	r0, #23
	rsbs	r1, r5, #0
	ands	r0, r1
	cmp	r3, r5
	sub.w	r6, r0, #24
	bls	.Lp_BB26_3
	ldr	r0, [r4, #16]
	subs	r1, r3, #1
	ands	r0, r1
	lsrs	r7, r3, #3
	lsrs	r5, r0, #3
	mov	r0, r8
	mov	r1, r4
	mov	r2, r6
	mov	r3, r7
	str	r5, [sp]
.Lp_BB26_2:
	bl	tlsf_allocate_aligned
	b	.Lp_BB26_5
.Lp_BB26_3:
	add	r7, sp, #8
	mov	r0, r7
	mov	r1, r4
	mov	r2, r6
	bl	tlsf_allocate_place
	ldr	r0, [sp, #12]
	cbz	r0, .Lp_BB26_6
.Lp_BB26_4:
	ldm.w	r7, {r0, r1, r2, r3}
	stm.w	r8, {r0, r1, r2, r3}
.Lp_BB26_5:
	add	sp, #28
	pop.w	{r4, r5, r6, r7, r8, r9, pc}
.Lp_BB26_6:
	ldr	r0, [r4, #16]
	ldr	r1, [sp, #8]
	sub.w	r9, r5, #1
	add.w	r0, r0, r1, lsl #3
	adds	r0, #24
	tst.w	r9, r0
	beq	.Lp_BB26_4
	mov	r0, r4
	bl	tlsf_release_place
	ldr	r0, [r4, #16]
	lsrs	r3, r5, #3
	and.w	r0, r0, r9
	lsrs	r7, r0, #3
	mov	r0, r8
	mov	r1, r4
	mov	r2, r6
	str	r7, [sp]
	b	.Lp_BB26_2
.Lp_func_end26:
	.size	tlsf_mixed_place, .Lp_func_end26-tlsf_mixed_place
	.cfi_endproc
	.section	.text.unlikely.tlsf_malloc_own,"ax",%progbits
	.p2align	1
	.type	tlsf_malloc_own,%function
	.code	16
	.thumb_func
tlsf_malloc_own:
	.cfi_startproc
	cmp.w	r1, #134217728
	itt	hi
	movhi	r0, #0
	bxhi	lr
.Lp_BB27_1:
	push	{r4, lr}
	.cfi_def_cfa_offset 8
	.cfi_offset lr, -4
	.cfi_offset r4, -8
	sub	sp, #16
	.cfi_def_cfa_offset 24
	mov	r4, r0
	mov	r2, r1
	mov	r0, sp
	mov	r1, r4
	movs	r3, #1
	bl	tlsf_mixed_place
	ldr	r0, [sp, #4]
	cbz	r0, .Lp_BB27_3
	movs	r0, #0
	b	.Lp_BB27_4
.Lp_BB27_3:
	ldr	r0, [sp]
	ldr	r1, [r4, #16]
	add.w	r0, r1, r0, lsl #3
	adds	r0, #24
.Lp_BB27_4:
	add	sp, #16
	pop	{r4, pc}
.Lp_func_end27:
	.size	tlsf_malloc_own, .Lp_func_end27-tlsf_malloc_own
	.cfi_endproc
	.type	.L.str,%object
	.section	.rodata.str1.1,"aMS",%progbits,1
.L.str:
	.asciz	"done"
	.size	.L.str, 5
	.type	.L.str.1,%object
.L.str.1:
	.asciz	"no free block fits"
	.size	.L.str.1, 19
	.type	.L.str.2,%object
.L.str.2:
	.asciz	"the ticks or the numbers are used up"
	.size	.L.str.2, 37
	.type	.L.str.3,%object
.L.str.3:
	.asciz	"a name of another heap"
	.size	.L.str.3, 23
	.type	.L.str.4,%object
.L.str.4:
	.asciz	"no live block has that name or address"
	.size	.L.str.4, 39
	.type	.L.str.5,%object
.L.str.5:
	.asciz	"a size out of range"
	.size	.L.str.5, 20
	.type	.L.str.6,%object
.L.str.6:
	.asciz	"no memory"
	.size	.L.str.6, 10
	.type	.L.str.7,%object
.L.str.7:
	.asciz	"bytes past the end of the payload"
	.size	.L.str.7, 34
	.type	.L.str.8,%object
.L.str.8:
	.asciz	"the lane or queue is full"
	.size	.L.str.8, 26
	.type	.L.str.9,%object
.L.str.9:
	.asciz	"no room where the block stands"
	.size	.L.str.9, 31
	.type	.L.str.10,%object
.L.str.10:
	.asciz	"a line was not written"
	.size	.L.str.10, 23
	.type	.L.str.11,%object
.L.str.11:
	.asciz	"the handle is closed"
	.size	.L.str.11, 21
	.type	.L.str.12,%object
.L.str.12:
	.asciz	"the handle is open already"
	.size	.L.str.12, 27
	.type	.L.str.13,%object
.L.str.13:
	.asciz	"a level is 4 or 5"
	.size	.L.str.13, 18
	.type	.L.str.14,%object
.L.str.14:
	.asciz	"the lane or queue is empty"
	.size	.L.str.14, 27
	.type	.L.str.15,%object
.L.str.15:
	.asciz	"a header is damaged"
	.size	.L.str.15, 20
	.type	.L.str.16,%object
.L.str.16:
	.asciz	"another thread is in the way: try again"
	.size	.L.str.16, 40
	.type	.L.str.17,%object
.L.str.17:
	.asciz	"all blocks of that row are held"
	.size	.L.str.17, 32
	.type	.L.str.18,%object
.L.str.18:
	.asciz	"memory that is null, or past the end of the address space"
	.size	.L.str.18, 58
	.type	.L.str.19,%object
.L.str.19:
	.asciz	"the handle holds something of another kind"
	.size	.L.str.19, 43
	.type	.L.str.20,%object
.L.str.20:
	.asciz	"no answer of this library"
	.size	.L.str.20, 26
	.type	.Lp_switch.table.tlsf_text_of,%object
	.section	.rodata..Lswitch.table.tlsf_text_of,"a",%progbits
	.p2align	2, 0x0
.Lp_switch.table.tlsf_text_of:
	.long	.L.str
	.long	.L.str.1
	.long	.L.str.2
	.long	.L.str.3
	.long	.L.str.4
	.long	.L.str.5
	.long	.L.str.6
	.long	.L.str.7
	.long	.L.str.8
	.long	.L.str.20
	.long	.L.str.9
	.long	.L.str.20
	.long	.L.str.20
	.long	.L.str.20
	.long	.L.str.20
	.long	.L.str.20
	.long	.L.str.20
	.long	.L.str.10
	.long	.L.str.20
	.long	.L.str.20
	.long	.L.str.20
	.long	.L.str.20
	.long	.L.str.20
	.long	.L.str.20
	.long	.L.str.20
	.long	.L.str.20
	.long	.L.str.20
	.long	.L.str.20
	.long	.L.str.20
	.long	.L.str.20
	.long	.L.str.20
	.long	.L.str.20
	.long	.L.str.11
	.long	.L.str.12
	.long	.L.str.13
	.long	.L.str.14
	.long	.L.str.15
	.long	.L.str.16
	.long	.L.str.17
	.long	.L.str.18
	.long	.L.str.19
	.size	.Lp_switch.table.tlsf_text_of, 164
	.ident	"clang version 22.1.8"
	.section	".note.GNU-stack","",%progbits
/* What lanes, queues and tlsf_next_number call: c/atomics64.c. */
	.syntax	unified
	.eabi_attribute	24, 1
	.eabi_attribute	25, 1
	.section	.text.__atomic_load_8,"ax",%progbits
	.weak	__atomic_load_8
	.p2align	1
	.type	__atomic_load_8,%function
	.code	16
	.thumb_func
__atomic_load_8:
	.cfi_sections .debug_frame
	.cfi_startproc
	mrs	r2, primask
	cpsid i
	ldm	r0, {r0, r1}
	msr	primask, r2
	bx	lr
.La_func_end0:
	.size	__atomic_load_8, .La_func_end0-__atomic_load_8
	.cfi_endproc
	.section	.text.__atomic_store_8,"ax",%progbits
	.weak	__atomic_store_8
	.p2align	1
	.type	__atomic_store_8,%function
	.code	16
	.thumb_func
__atomic_store_8:
	.cfi_startproc
	mrs	r1, primask
	cpsid i
	strd	r2, r3, [r0]
	msr	primask, r1
	bx	lr
.La_func_end1:
	.size	__atomic_store_8, .La_func_end1-__atomic_store_8
	.cfi_endproc
	.section	.text.__atomic_exchange_8,"ax",%progbits
	.weak	__atomic_exchange_8
	.p2align	1
	.type	__atomic_exchange_8,%function
	.code	16
	.thumb_func
__atomic_exchange_8:
	.cfi_startproc
	push	{r7, lr}
	.cfi_def_cfa_offset 8
	.cfi_offset lr, -4
	.cfi_offset r7, -8
	mrs	lr, primask
	cpsid i
	ldrd	r12, r1, [r0]
	strd	r2, r3, [r0]
	msr	primask, lr
	mov	r0, r12
	pop	{r7, pc}
.La_func_end2:
	.size	__atomic_exchange_8, .La_func_end2-__atomic_exchange_8
	.cfi_endproc
	.section	.text.__atomic_fetch_add_8,"ax",%progbits
	.weak	__atomic_fetch_add_8
	.p2align	1
	.type	__atomic_fetch_add_8,%function
	.code	16
	.thumb_func
__atomic_fetch_add_8:
	.cfi_startproc
	push	{r7, lr}
	.cfi_def_cfa_offset 8
	.cfi_offset lr, -4
	.cfi_offset r7, -8
	mrs	lr, primask
	cpsid i
	ldrd	r12, r1, [r0]
	adds.w	r2, r2, r12
	adcs	r3, r1
	strd	r2, r3, [r0]
	msr	primask, lr
	mov	r0, r12
	pop	{r7, pc}
.La_func_end3:
	.size	__atomic_fetch_add_8, .La_func_end3-__atomic_fetch_add_8
	.cfi_endproc
	.section	.text.__atomic_fetch_sub_8,"ax",%progbits
	.weak	__atomic_fetch_sub_8
	.p2align	1
	.type	__atomic_fetch_sub_8,%function
	.code	16
	.thumb_func
__atomic_fetch_sub_8:
	.cfi_startproc
	ldr.w	r12, [sp]
	rsbs	r2, r2, #0
	mov.w	r1, #0
	sbc.w	r3, r1, r3
	str.w	r12, [sp]
	b	__atomic_fetch_add_8
.La_func_end4:
	.size	__atomic_fetch_sub_8, .La_func_end4-__atomic_fetch_sub_8
	.cfi_endproc
	.section	.text.__atomic_compare_exchange_8,"ax",%progbits
	.weak	__atomic_compare_exchange_8
	.p2align	1
	.type	__atomic_compare_exchange_8,%function
	.code	16
	.thumb_func
__atomic_compare_exchange_8:
	.cfi_startproc
	push	{r4, r5, r6, lr}
	.cfi_def_cfa_offset 16
	.cfi_offset lr, -4
	.cfi_offset r6, -8
	.cfi_offset r5, -12
	.cfi_offset r4, -16
	mov	r12, r0
	ldrd	r0, r6, [r1]
	mrs	lr, primask
	cpsid i
	ldrd	r4, r5, [r12]
	eors	r6, r5
	eors	r0, r4
	orrs	r0, r6
	clz	r0, r0
	lsr.w	r0, r0, #5
	bne	.La_BB5_2
	strd	r2, r3, [r12]
	msr	primask, lr
	pop	{r4, r5, r6, pc}
.La_BB5_2:
	msr	primask, lr
	strd	r4, r5, [r1]
	pop	{r4, r5, r6, pc}
.La_func_end5:
	.size	__atomic_compare_exchange_8, .La_func_end5-__atomic_compare_exchange_8
	.cfi_endproc
	.ident	"clang version 22.1.8"
	.section	".note.GNU-stack","",%progbits
#endif
/* c/memory.c */
#ifndef TLSF_ONLY_CALLS
	.syntax	unified
	.eabi_attribute	24, 1
	.eabi_attribute	25, 1
	.section	.text.tlsf_memory_alloc,"ax",%progbits
	.hidden	tlsf_memory_alloc
	.globl	tlsf_memory_alloc
	.p2align	1
	.type	tlsf_memory_alloc,%function
	.code	16
	.thumb_func
tlsf_memory_alloc:
	.cfi_sections .debug_frame
	.cfi_startproc
	push	{r4, r5, r6, lr}
	.cfi_def_cfa_offset 16
	.cfi_offset lr, -4
	.cfi_offset r6, -8
	.cfi_offset r5, -12
	.cfi_offset r4, -16
	mov.w	lr, #0
	cmp	r2, #8
	mov.w	r2, #0
	bhi	.Lm_BB0_9
	movw	r2, :lower16:near_room
	movt	r2, :upper16:near_room
	ldr	r3, [r2]
	cbz	r3, .Lm_BB0_3
	movw	r2, :lower16:pieces_first
	movt	r2, :upper16:pieces_first
	ldr	r5, [r2]
	subs	r4, r5, #1
	str	r4, [r2]
	cbz	r5, .Lm_BB0_8
.Lm_BB0_3:
	movw	r12, :lower16:lent
	movt	r12, :upper16:lent
	ldr.w	r3, [r12]
	cbz	r3, .Lm_BB0_5
	cmp.w	r1, #268435456
	bls	.Lm_BB0_6
.Lm_BB0_5:
	movs	r2, #0
	b	.Lm_BB0_9
.Lm_BB0_6:
	movw	r2, :lower16:lent_end
	movt	r2, :upper16:lent_end
	ldr	r4, [r2]
	add.w	r2, r1, #8
	subs	r5, r4, r3
	cmp	r2, r5
	mov.w	r2, #0
	bhi	.Lm_BB0_9
	movw	r6, :lower16:lent_step
	movt	r6, :upper16:lent_step
	ldr	r6, [r6]
	strd	r2, r2, [r3]
	add	r1, r6
	adds	r1, #7
	udiv	r1, r1, r6
	add.w	r2, r3, #8
	muls	r1, r6, r1
	cmp	r1, r5
	it	lo
	addlo	r4, r3, r1
	str.w	r4, [r12]
	b	.Lm_BB0_9
.Lm_BB0_8:
	movw	r2, #2776
	cmp	r1, r2
	mov.w	r2, #0
	itt	ls
	strdls	r2, r2, [r3]
	addls.w	r2, r3, #8
.Lm_BB0_9:
	movw	r3, :lower16:tlsf_memory_alloc.nothing
	mov	r1, r2
	movt	r3, :upper16:tlsf_memory_alloc.nothing
	cmp	r2, #0
	it	ne
	movne	r1, #1
	it	ne
	movne	r3, r2
	strd	r1, lr, [r0]
	strd	r3, lr, [r0, #8]
	pop	{r4, r5, r6, pc}
.Lm_func_end0:
	.size	tlsf_memory_alloc, .Lm_func_end0-tlsf_memory_alloc
	.cfi_endproc
	.section	.text.tlsf_memory_dealloc,"ax",%progbits
	.hidden	tlsf_memory_dealloc
	.globl	tlsf_memory_dealloc
	.p2align	1
	.type	tlsf_memory_dealloc,%function
	.code	16
	.thumb_func
tlsf_memory_dealloc:
	.cfi_startproc
	bx	lr
.Lm_func_end1:
	.size	tlsf_memory_dealloc, .Lm_func_end1-tlsf_memory_dealloc
	.cfi_endproc
	.section	.text.tlsf_memory_realloc,"ax",%progbits
	.hidden	tlsf_memory_realloc
	.globl	tlsf_memory_realloc
	.p2align	1
	.type	tlsf_memory_realloc,%function
	.code	16
	.thumb_func
tlsf_memory_realloc:
	.cfi_startproc
	push	{r4, r5, r6, lr}
	.cfi_def_cfa_offset 16
	.cfi_offset lr, -4
	.cfi_offset r6, -8
	.cfi_offset r5, -12
	.cfi_offset r4, -16
	mov	r4, r2
	ldr	r2, [sp, #16]
	mov	r5, r1
	mov	r1, r3
	mov	r6, r0
	bl	tlsf_memory_alloc
	ldrd	r0, r1, [r6]
	orrs	r0, r1
	it	eq
	popeq	{r4, r5, r6, pc}
.Lm_BB2_1:
	ldr	r0, [r6, #8]
	mov	r1, r5
	mov	r2, r4
	bl	memcpy
	pop	{r4, r5, r6, pc}
.Lm_func_end2:
	.size	tlsf_memory_realloc, .Lm_func_end2-tlsf_memory_realloc
	.cfi_endproc
	.section	.text.tlsf_memory_set,"ax",%progbits
	.hidden	tlsf_memory_set
	.weak	tlsf_memory_set
	.p2align	1
	.type	tlsf_memory_set,%function
	.code	16
	.thumb_func
tlsf_memory_set:
	.cfi_startproc
	cmp	r1, #0
	bne.w	.Lm_BB3_18
	cmp.w	r2, #512
	bhi.w	.Lm_BB3_18
	cmp.w	r2, #256
	bls	.Lm_BB3_6
	sub.w	r1, r2, #16
	mvn	r2, #15
	mov.w	r12, #0
	.p2align	2
.Lm_BB3_4:
	adds	r2, #16
	adds	r3, r2, r0
	str.w	r12, [r2, r0]
	str.w	r12, [r3, #12]
	str.w	r12, [r3, #8]
	str.w	r12, [r3, #4]
	adds	r3, r0, r1
	str.w	r12, [r0, r1]
	cmp	r2, #240
	sub.w	r1, r1, #16
	str.w	r12, [r3, #8]
	str.w	r12, [r3, #12]
	str.w	r12, [r3, #4]
	blo	.Lm_BB3_4
.Lm_BB3_5:
	bx	lr
.Lm_BB3_6:
	cmp	r2, #129
	blo	.Lm_BB3_9
	sub.w	r1, r2, #16
	mvn	r2, #15
	mov.w	r12, #0
	.p2align	2
.Lm_BB3_8:
	adds	r2, #16
	adds	r3, r2, r0
	str.w	r12, [r2, r0]
	str.w	r12, [r3, #12]
	str.w	r12, [r3, #8]
	str.w	r12, [r3, #4]
	adds	r3, r0, r1
	str.w	r12, [r0, r1]
	cmp	r2, #112
	sub.w	r1, r1, #16
	str.w	r12, [r3, #8]
	str.w	r12, [r3, #12]
	str.w	r12, [r3, #4]
	blo	.Lm_BB3_8
	b	.Lm_BB3_5
.Lm_BB3_9:
	cmp	r2, #65
	blo	.Lm_BB3_12
	sub.w	r1, r2, #16
	mvn	r2, #15
	mov.w	r12, #0
	.p2align	2
.Lm_BB3_11:
	adds	r2, #16
	adds	r3, r2, r0
	str.w	r12, [r2, r0]
	str.w	r12, [r3, #12]
	str.w	r12, [r3, #8]
	str.w	r12, [r3, #4]
	adds	r3, r0, r1
	str.w	r12, [r0, r1]
	cmp	r2, #48
	sub.w	r1, r1, #16
	str.w	r12, [r3, #8]
	str.w	r12, [r3, #12]
	str.w	r12, [r3, #4]
	blo	.Lm_BB3_11
	b	.Lm_BB3_5
.Lm_BB3_12:
	cmp	r2, #33
	blo	.Lm_BB3_14
	adds	r1, r0, r2
	movs	r2, #0
	str	r2, [r0, #12]
	str	r2, [r0, #8]
	str	r2, [r0, #4]
	str	r2, [r0]
	str	r2, [r1, #-4]
	str	r2, [r1, #-16]
	str	r2, [r1, #-12]
	str	r2, [r1, #-8]
	str	r2, [r0, #28]
	str	r2, [r0, #16]
	str	r2, [r0, #20]
	str	r2, [r0, #24]
	str	r2, [r1, #-24]
	str	r2, [r1, #-20]
	str	r2, [r1, #-32]
	str	r2, [r1, #-28]
	bx	lr
.Lm_BB3_14:
	cmp	r2, #17
	blo	.Lm_BB3_16
	adds	r1, r0, r2
	movs	r2, #0
	str	r2, [r0, #12]
	str	r2, [r0, #8]
	str	r2, [r0, #4]
	str	r2, [r0]
	str	r2, [r1, #-8]
	str	r2, [r1, #-4]
	str	r2, [r1, #-16]
	str	r2, [r1, #-12]
	bx	lr
.Lm_BB3_16:
	movs	r1, #0
	cmp	r2, #7
	it	ls
	bls	memset
.Lm_BB3_17:
	add	r2, r0
	str	r1, [r0, #4]
	str	r1, [r0]
	str	r1, [r2, #-4]
	str	r1, [r2, #-8]
	bx	lr
.Lm_BB3_18:
	b	memset
.Lm_func_end3:
	.size	tlsf_memory_set, .Lm_func_end3-tlsf_memory_set
	.cfi_endproc
	.section	.text.tlsf_memory_cpy,"ax",%progbits
	.hidden	tlsf_memory_cpy
	.weak	tlsf_memory_cpy
	.p2align	1
	.type	tlsf_memory_cpy,%function
	.code	16
	.thumb_func
tlsf_memory_cpy:
	.cfi_startproc
	b	memcpy
.Lm_func_end4:
	.size	tlsf_memory_cpy, .Lm_func_end4-tlsf_memory_cpy
	.cfi_endproc
	.section	.text.tlsf_memory_move,"ax",%progbits
	.hidden	tlsf_memory_move
	.weak	tlsf_memory_move
	.p2align	1
	.type	tlsf_memory_move,%function
	.code	16
	.thumb_func
tlsf_memory_move:
	.cfi_startproc
	b	memmove
.Lm_func_end5:
	.size	tlsf_memory_move, .Lm_func_end5-tlsf_memory_move
	.cfi_endproc
	.section	.text.tlsf_bytes,"ax",%progbits
	.globl	tlsf_bytes
	.p2align	1
	.type	tlsf_bytes,%function
	.code	16
	.thumb_func
tlsf_bytes:
	.cfi_startproc
	mov	r2, r0
	cmp	r1, #4
	mov.w	r0, #0
	blo	.Lm_BB6_3
	cmp	r2, #4
	mov.w	r2, #0
	it	eq
	moveq.w	r2, #1048576
	cmp	r1, r2
	it	hi
	bxhi	lr
.Lm_BB6_2:
	add.w	r0, r1, #63
	movs	r2, #16
	add.w	r0, r2, r0, lsr #3
	bic	r0, r0, #15
	add.w	r0, r0, r1, lsl #3
	addw	r0, r0, #1319
	orr	r0, r0, #15
.Lm_BB6_3:
	bx	lr
.Lm_func_end6:
	.size	tlsf_bytes, .Lm_func_end6-tlsf_bytes
	.cfi_endproc
	.section	.text.heap_bytes,"ax",%progbits
	.p2align	1
	.type	heap_bytes,%function
	.code	16
	.thumb_func
heap_bytes:
	.cfi_startproc
	movs	r1, #23
	add.w	r1, r1, r0, lsl #3
	adds	r0, #63
	movs	r2, #16
	add.w	r0, r2, r0, lsr #3
	bic	r1, r1, #15
	bic	r0, r0, #15
	add	r0, r1
	add.w	r0, r0, #1296
	bx	lr
.Lm_func_end7:
	.size	heap_bytes, .Lm_func_end7-heap_bytes
	.cfi_endproc
	.section	.text.tlsf_near_bytes,"ax",%progbits
	.globl	tlsf_near_bytes
	.p2align	1
	.type	tlsf_near_bytes,%function
	.code	16
	.thumb_func
tlsf_near_bytes:
	.cfi_startproc
	mov	r2, r0
	cmp	r1, #4
	mov.w	r0, #0
	blo	.Lm_BB8_3
	cmp	r2, #4
	mov.w	r2, #0
	it	eq
	moveq.w	r2, #1048576
	cmp	r1, r2
	it	hi
	bxhi	lr
.Lm_BB8_2:
	movs	r0, #23
	add.w	r0, r0, r1, lsl #3
	adds	r1, #63
	mvn	r2, #7
	bic	r0, r0, #15
	and.w	r1, r2, r1, lsr #3
	add	r0, r1
	adds	r0, #23
.Lm_BB8_3:
	bx	lr
.Lm_func_end8:
	.size	tlsf_near_bytes, .Lm_func_end8-tlsf_near_bytes
	.cfi_endproc
	.section	.text.near_bytes,"ax",%progbits
	.p2align	1
	.type	near_bytes,%function
	.code	16
	.thumb_func
near_bytes:
	.cfi_startproc
	movs	r1, #23
	add.w	r1, r1, r0, lsl #3
	adds	r0, #63
	mvn	r2, #7
	bic	r1, r1, #15
	and.w	r0, r2, r0, lsr #3
	add	r0, r1
	adds	r0, #8
	bx	lr
.Lm_func_end9:
	.size	near_bytes, .Lm_func_end9-near_bytes
	.cfi_endproc
	.section	.text.tlsf_open_in,"ax",%progbits
	.globl	tlsf_open_in
	.p2align	1
	.type	tlsf_open_in,%function
	.code	16
	.thumb_func
tlsf_open_in:
	.cfi_startproc
	push	{r7, lr}
	.cfi_def_cfa_offset 8
	.cfi_offset lr, -4
	.cfi_offset r7, -8
	sub	sp, #8
	.cfi_def_cfa_offset 16
	ldr.w	r12, [sp, #16]
	movw	lr, :lower16:heap_bytes
	movt	lr, :upper16:heap_bytes
	strd	r12, lr, [sp]
	bl	open_in
	add	sp, #8
	pop	{r7, pc}
.Lm_func_end10:
	.size	tlsf_open_in, .Lm_func_end10-tlsf_open_in
	.cfi_endproc
	.section	.text.open_in,"ax",%progbits
	.p2align	1
	.type	open_in,%function
	.code	16
	.thumb_func
open_in:
	.cfi_startproc
	push.w	{r4, r5, r6, r7, r8, r9, r10, r11, lr}
	.cfi_def_cfa_offset 36
	.cfi_offset lr, -4
	.cfi_offset r11, -8
	.cfi_offset r10, -12
	.cfi_offset r9, -16
	.cfi_offset r8, -20
	.cfi_offset r7, -24
	.cfi_offset r6, -28
	.cfi_offset r5, -32
	.cfi_offset r4, -36
	sub	sp, #12
	.cfi_def_cfa_offset 48
	ldrb	r5, [r0, #29]
	cbz	r5, .Lm_BB11_4
	sub.w	r7, r5, #65
	cmn.w	r7, #57
	blo	.Lm_BB11_3
	add.w	r6, r5, #127
	cmp	r5, #16
	mov	r7, r5
	it	ls
	movls	r7, #16
	tst	r6, r5
	beq	.Lm_BB11_5
.Lm_BB11_3:
	mov.w	r9, #0
	b	.Lm_BB11_6
.Lm_BB11_4:
	movs	r7, #16
.Lm_BB11_5:
	mvn	r6, #31
	subs	r6, r6, r3
	udiv	r5, r6, r7
	mls	r9, r5, r7, r6
.Lm_BB11_6:
	ldr	r7, [sp, #48]
	mvns	r4, r3
	cmp	r3, #0
	mov.w	r10, #0
	beq	.Lm_BB11_15
	cmp	r7, r4
	bhi	.Lm_BB11_15
	cmp	r7, r9
	mov.w	r5, #0
	blo	.Lm_BB11_16
	ldr.w	r8, [sp, #52]
	strd	r0, r2, [sp, #4]
	movs	r0, #4
	mov	r11, r3
	mov	r6, r1
	sub.w	r10, r7, r9
	blx	r8
	cmp	r10, r0
	bhs	.Lm_BB11_11
	ldrd	r0, r2, [sp, #4]
	movs	r5, #0
	b	.Lm_BB11_14
.Lm_BB11_11:
	movs	r0, #0
	cmp.w	r10, #268435456
	it	hs
	movhs.w	r10, #268435456
	blx	r8
	sub.w	r0, r10, r0
	movw	r1, #49405
	lsls	r0, r0, #3
	movt	r1, #64527
	umull	r0, r1, r0, r1
	movs	r0, #9
	add.w	r5, r0, r1, lsr #6
	.p2align	2
.Lm_BB11_12:
	subs	r5, #1
	mov	r0, r5
	blx	r8
	cmp	r0, r10
	bhi	.Lm_BB11_12
	cmp.w	r5, #1048576
	it	hs
	movhs.w	r5, #1048576
	cmp	r6, #4
	it	ne
	movne	r5, #0
	ldrd	r0, r2, [sp, #4]
.Lm_BB11_14:
	mov	r1, r6
	ldr	r7, [sp, #48]
	mov.w	r10, #0
	mov	r3, r11
	b	.Lm_BB11_16
.Lm_BB11_15:
	movs	r5, #0
.Lm_BB11_16:
	cmp	r3, #0
	mov	r11, r3
	it	ne
	movne.w	r11, #1
	cmp	r7, r4
	movw	r4, :lower16:begin_behind.nothing
	mov.w	r8, #0
	movt	r4, :upper16:begin_behind.nothing
	it	ls
	movls.w	r8, #1
	cmp	r9, r7
	it	hs
	movhs	r9, r7
	mov	r6, r4
	tst.w	r11, r8
	it	ne
	addne.w	r6, r3, r9
	movw	r9, :lower16:lent
	movt	r9, :upper16:lent
	str.w	r6, [r9]
	movw	r6, :lower16:lent_end
	it	ne
	addne	r4, r3, r7
	movt	r6, :upper16:lent_end
	movw	r3, :lower16:lent_step
	str	r4, [r6]
	movt	r3, :upper16:lent_step
	movs	r6, #16
	str	r6, [r3]
	mov	r3, r5
	bl	open_noted
	cmp	r0, #5
	mov	r1, r0
	it	eq
	moveq	r1, #39
	tst.w	r11, r8
	it	eq
	moveq	r0, r1
	str.w	r10, [r9]
	add	sp, #12
	pop.w	{r4, r5, r6, r7, r8, r9, r10, r11, pc}
.Lm_func_end11:
	.size	open_in, .Lm_func_end11-open_in
	.cfi_endproc
	.section	.text.tlsf_open_near,"ax",%progbits
	.globl	tlsf_open_near
	.p2align	1
	.type	tlsf_open_near,%function
	.code	16
	.thumb_func
tlsf_open_near:
	.cfi_startproc
	push	{r4, r5, r6, lr}
	.cfi_def_cfa_offset 16
	.cfi_offset lr, -4
	.cfi_offset r6, -8
	.cfi_offset r5, -12
	.cfi_offset r4, -16
	rsb.w	r12, r0, #0
	and	r12, r12, #63
	add	r0, r12
	movw	r6, :lower16:near_room
	movw	r4, :lower16:pieces_first
	add.w	r12, r0, #32
	movt	r6, :upper16:near_room
	movt	r4, :upper16:pieces_first
	movs	r5, #2
	str.w	r12, [r6]
	str	r5, [r4]
	bl	open_noted
	movs	r1, #0
	str	r1, [r6]
	pop	{r4, r5, r6, pc}
.Lm_func_end12:
	.size	tlsf_open_near, .Lm_func_end12-tlsf_open_near
	.cfi_endproc
	.section	.text.tlsf_open_near_in,"ax",%progbits
	.globl	tlsf_open_near_in
	.p2align	1
	.type	tlsf_open_near_in,%function
	.code	16
	.thumb_func
tlsf_open_near_in:
	.cfi_startproc
	push	{r4, r5, r6, lr}
	.cfi_def_cfa_offset 16
	.cfi_offset lr, -4
	.cfi_offset r6, -8
	.cfi_offset r5, -12
	.cfi_offset r4, -16
	sub	sp, #8
	.cfi_def_cfa_offset 24
	rsb.w	lr, r0, #0
	movw	r4, :lower16:pieces_first
	and	lr, lr, #63
	movt	r4, :upper16:pieces_first
	movs	r5, #2
	ldr.w	r12, [sp, #24]
	add	r0, lr
	movw	r6, :lower16:near_room
	str	r5, [r4]
	movw	r5, :lower16:near_bytes
	add.w	lr, r0, #32
	movt	r6, :upper16:near_room
	movt	r5, :upper16:near_bytes
	str.w	lr, [r6]
	strd	r12, r5, [sp]
	bl	open_in
	movs	r1, #0
	str	r1, [r6]
	add	sp, #8
	pop	{r4, r5, r6, pc}
.Lm_func_end13:
	.size	tlsf_open_near_in, .Lm_func_end13-tlsf_open_near_in
	.cfi_endproc
	.section	.text.tlsf_open_32,"ax",%progbits
	.globl	tlsf_open_32
	.p2align	1
	.type	tlsf_open_32,%function
	.code	16
	.thumb_func
tlsf_open_32:
	.cfi_startproc
	b	open_noted
.Lm_func_end14:
	.size	tlsf_open_32, .Lm_func_end14-tlsf_open_32
	.cfi_endproc
	.section	.text.tlsf_open_in_32,"ax",%progbits
	.globl	tlsf_open_in_32
	.p2align	1
	.type	tlsf_open_in_32,%function
	.code	16
	.thumb_func
tlsf_open_in_32:
	.cfi_startproc
	push	{r7, lr}
	.cfi_def_cfa_offset 8
	.cfi_offset lr, -4
	.cfi_offset r7, -8
	sub	sp, #8
	.cfi_def_cfa_offset 16
	ldr.w	r12, [sp, #16]
	movw	lr, :lower16:heap_bytes
	movt	lr, :upper16:heap_bytes
	strd	r12, lr, [sp]
	bl	open_in
	add	sp, #8
	pop	{r7, pc}
.Lm_func_end15:
	.size	tlsf_open_in_32, .Lm_func_end15-tlsf_open_in_32
	.cfi_endproc
	.section	.text.tlsf_open_near_2880,"ax",%progbits
	.globl	tlsf_open_near_2880
	.p2align	1
	.type	tlsf_open_near_2880,%function
	.code	16
	.thumb_func
tlsf_open_near_2880:
	.cfi_startproc
	push	{r4, r5, r6, lr}
	.cfi_def_cfa_offset 16
	.cfi_offset lr, -4
	.cfi_offset r6, -8
	.cfi_offset r5, -12
	.cfi_offset r4, -16
	rsb.w	r12, r0, #0
	and	r12, r12, #63
	add	r0, r12
	movw	r6, :lower16:near_room
	movw	r4, :lower16:pieces_first
	add.w	r12, r0, #32
	movt	r6, :upper16:near_room
	movt	r4, :upper16:pieces_first
	movs	r5, #2
	str.w	r12, [r6]
	str	r5, [r4]
	bl	open_noted
	movs	r1, #0
	str	r1, [r6]
	pop	{r4, r5, r6, pc}
.Lm_func_end16:
	.size	tlsf_open_near_2880, .Lm_func_end16-tlsf_open_near_2880
	.cfi_endproc
	.section	.text.tlsf_open_near_in_2880,"ax",%progbits
	.globl	tlsf_open_near_in_2880
	.p2align	1
	.type	tlsf_open_near_in_2880,%function
	.code	16
	.thumb_func
tlsf_open_near_in_2880:
	.cfi_startproc
	push	{r4, r5, r6, lr}
	.cfi_def_cfa_offset 16
	.cfi_offset lr, -4
	.cfi_offset r6, -8
	.cfi_offset r5, -12
	.cfi_offset r4, -16
	sub	sp, #8
	.cfi_def_cfa_offset 24
	rsb.w	lr, r0, #0
	movw	r4, :lower16:pieces_first
	and	lr, lr, #63
	movt	r4, :upper16:pieces_first
	movs	r5, #2
	ldr.w	r12, [sp, #24]
	add	r0, lr
	movw	r6, :lower16:near_room
	str	r5, [r4]
	movw	r5, :lower16:near_bytes
	add.w	lr, r0, #32
	movt	r6, :upper16:near_room
	movt	r5, :upper16:near_bytes
	str.w	lr, [r6]
	strd	r12, r5, [sp]
	bl	open_in
	movs	r1, #0
	str	r1, [r6]
	add	sp, #8
	pop	{r4, r5, r6, pc}
.Lm_func_end17:
	.size	tlsf_open_near_in_2880, .Lm_func_end17-tlsf_open_near_in_2880
	.cfi_endproc
	.section	.text.tlsf_lane_bytes,"ax",%progbits
	.globl	tlsf_lane_bytes
	.p2align	1
	.type	tlsf_lane_bytes,%function
	.code	16
	.thumb_func
tlsf_lane_bytes:
	.cfi_startproc
	subw	r1, r0, #1025
	add.w	r0, r0, r0, lsl #1
	movs	r2, #135
	add.w	r0, r2, r0, lsl #3
	movw	r2, #65408
	movt	r2, #1
	ands	r0, r2
	addw	r0, r0, #895
	cmn.w	r1, #1024
	it	lo
	movlo	r0, #0
	bx	lr
.Lm_func_end18:
	.size	tlsf_lane_bytes, .Lm_func_end18-tlsf_lane_bytes
	.cfi_endproc
	.section	.text.tlsf_lane_open_in,"ax",%progbits
	.globl	tlsf_lane_open_in
	.p2align	1
	.type	tlsf_lane_open_in,%function
	.code	16
	.thumb_func
tlsf_lane_open_in:
	.cfi_startproc
	push.w	{r4, r5, r6, r7, r8, r9, lr}
	.cfi_def_cfa_offset 28
	.cfi_offset lr, -4
	.cfi_offset r9, -8
	.cfi_offset r8, -12
	.cfi_offset r7, -16
	.cfi_offset r6, -20
	.cfi_offset r5, -24
	.cfi_offset r4, -28
	sub	sp, #4
	.cfi_def_cfa_offset 32
	ldr.w	r12, [sp, #32]
	cmp.w	r2, #1024
	bhi	.Lm_BB19_2
	add.w	r5, r2, r2, lsl #1
	movs	r4, #135
	add.w	r5, r4, r5, lsl #3
	movw	r4, #65408
	movt	r4, #1
	ands	r5, r4
	rsbs	r4, r3, #0
	and	lr, r4, #127
	add.w	r5, r5, #768
	sub.w	r6, r12, lr
	cmp	r6, r5
	it	lo
	movlo	r2, #0
	mvns	r4, r3
	cmp	r12, lr
	it	lo
	movlo	r2, #0
	cmp	r12, r4
	it	hi
	movhi	r2, #0
	cmp	r3, #0
	it	eq
	moveq	r2, r3
	b	.Lm_BB19_3
.Lm_BB19_2:
	rsbs	r5, r3, #0
	and	lr, r5, #127
	mvns	r4, r3
.Lm_BB19_3:
	cmp	r3, #0
	mov	r5, r3
	movw	r7, :lower16:begin_behind.nothing
	it	ne
	movne	r5, #1
	cmp	r12, r4
	mov.w	r6, #0
	movt	r7, :upper16:begin_behind.nothing
	movw	r9, :lower16:lent
	it	ls
	movls	r6, #1
	cmp	lr, r12
	mov	r4, r7
	movt	r9, :upper16:lent
	it	hs
	movhs	lr, r12
	tst	r5, r6
	it	ne
	addne.w	r4, r3, lr
	str.w	r4, [r9]
	it	ne
	addne.w	r7, r3, r12
	movw	r3, :lower16:lent_end
	movt	r3, :upper16:lent_end
	str	r7, [r3]
	movw	r3, :lower16:lent_step
	movt	r3, :upper16:lent_step
	movs	r7, #128
	mov.w	r8, #0
	str	r7, [r3]
	bl	tlsf_lane_open
	cmp	r0, #5
	mov	r1, r0
	it	eq
	moveq	r1, #39
	tst	r5, r6
	it	eq
	moveq	r0, r1
	str.w	r8, [r9]
	add	sp, #4
	pop.w	{r4, r5, r6, r7, r8, r9, pc}
.Lm_func_end19:
	.size	tlsf_lane_open_in, .Lm_func_end19-tlsf_lane_open_in
	.cfi_endproc
	.section	.text.tlsf_queue_bytes,"ax",%progbits
	.globl	tlsf_queue_bytes
	.p2align	1
	.type	tlsf_queue_bytes,%function
	.code	16
	.thumb_func
tlsf_queue_bytes:
	.cfi_startproc
	rsb.w	r2, r0, #1024
	rsb.w	r3, r1, #1024
	orrs	r3, r2
	movs	r2, #0
	cmp.w	r2, r3, lsr #10
	bne	.Lm_BB20_2
	mov.w	r12, #135
	movw	r2, #519
	add.w	r2, r2, r1, lsl #3
	add.w	r1, r12, r1, lsl #5
	add.w	r3, r12, r0, lsl #4
	bic	r2, r2, #127
	bic	r1, r1, #103
	bic	r3, r3, #119
	add	r1, r2
	add.w	r2, r12, r0, lsl #3
	bic	r2, r2, #127
	add.w	r0, r3, r0, lsl #7
	add	r0, r2
	add.w	r0, r0, r1, lsl #1
	addw	r2, r0, #383
.Lm_BB20_2:
	mov	r0, r2
	bx	lr
.Lm_func_end20:
	.size	tlsf_queue_bytes, .Lm_func_end20-tlsf_queue_bytes
	.cfi_endproc
	.section	.text.tlsf_queue_open_in,"ax",%progbits
	.globl	tlsf_queue_open_in
	.p2align	1
	.type	tlsf_queue_open_in,%function
	.code	16
	.thumb_func
tlsf_queue_open_in:
	.cfi_startproc
	push.w	{r4, r5, r6, r7, r8, r9, lr}
	.cfi_def_cfa_offset 28
	.cfi_offset lr, -4
	.cfi_offset r9, -8
	.cfi_offset r8, -12
	.cfi_offset r7, -16
	.cfi_offset r6, -20
	.cfi_offset r5, -24
	.cfi_offset r4, -28
	sub	sp, #4
	.cfi_def_cfa_offset 32
	ldr.w	r12, [sp, #32]
	cmp.w	r1, #1024
	it	ls
	cmpls.w	r2, #1024
	bls	.Lm_BB21_2
	rsbs	r5, r3, #0
	and	lr, r5, #127
	mvns	r4, r3
	b	.Lm_BB21_3
.Lm_BB21_2:
	mov.w	lr, #135
	add.w	r4, lr, r1, lsl #4
	movw	r5, #65408
	ands	r4, r5
	movw	r5, #519
	movw	r7, #65408
	add.w	r5, r5, r2, lsl #3
	add.w	r6, lr, r2, lsl #5
	movt	r7, #1
	and	r5, r5, #32640
	ands	r6, r7
	add.w	r7, lr, r1, lsl #3
	add	r5, r6
	and	r7, r7, #32640
	add.w	r6, r4, r1, lsl #7
	add	r7, r6
	add.w	r7, r7, r5, lsl #1
	add.w	r5, r7, #256
	rsbs	r7, r3, #0
	and	lr, r7, #127
	sub.w	r6, r12, lr
	cmp	r6, r5
	it	lo
	movlo	r2, #0
	mvns	r4, r3
	cmp	r12, lr
	it	lo
	movlo	r2, #0
	cmp	r12, r4
	it	hi
	movhi	r2, #0
	cmp	r3, #0
	it	eq
	moveq	r2, r3
.Lm_BB21_3:
	cmp	r3, #0
	mov	r5, r3
	movw	r7, :lower16:begin_behind.nothing
	it	ne
	movne	r5, #1
	cmp	r12, r4
	mov.w	r6, #0
	movt	r7, :upper16:begin_behind.nothing
	movw	r9, :lower16:lent
	it	ls
	movls	r6, #1
	cmp	lr, r12
	mov	r4, r7
	movt	r9, :upper16:lent
	it	hs
	movhs	lr, r12
	tst	r5, r6
	it	ne
	addne.w	r4, r3, lr
	str.w	r4, [r9]
	it	ne
	addne.w	r7, r3, r12
	movw	r3, :lower16:lent_end
	movt	r3, :upper16:lent_end
	str	r7, [r3]
	movw	r3, :lower16:lent_step
	movt	r3, :upper16:lent_step
	movs	r7, #128
	mov.w	r8, #0
	str	r7, [r3]
	bl	tlsf_queue_open
	cmp	r0, #5
	mov	r1, r0
	it	eq
	moveq	r1, #39
	tst	r5, r6
	it	eq
	moveq	r0, r1
	str.w	r8, [r9]
	add	sp, #4
	pop.w	{r4, r5, r6, r7, r8, r9, pc}
.Lm_func_end21:
	.size	tlsf_queue_open_in, .Lm_func_end21-tlsf_queue_open_in
	.cfi_endproc
	.section	.text.tlsf_offsets_bytes,"ax",%progbits
	.globl	tlsf_offsets_bytes
	.p2align	1
	.type	tlsf_offsets_bytes,%function
	.code	16
	.thumb_func
tlsf_offsets_bytes:
	.cfi_startproc
	mov	r2, r0
	cmp	r1, #4
	mov.w	r0, #0
	blo	.Lm_BB22_3
	cmp	r2, #4
	mov.w	r2, #0
	it	eq
	moveq.w	r2, #1048576
	cmp	r1, r2
	it	hi
	bxhi	lr
.Lm_BB22_2:
	movw	r2, #65520
	movs	r0, #23
	movt	r2, #15
	add.w	r0, r0, r1, lsl #3
	add.w	r3, r2, #32505856
	ands	r0, r3
	adds	r1, #63
	movs	r3, #16
	add.w	r1, r3, r1, lsr #3
	ands	r1, r2
	add	r0, r1
	addw	r0, r0, #1311
.Lm_BB22_3:
	bx	lr
.Lm_func_end22:
	.size	tlsf_offsets_bytes, .Lm_func_end22-tlsf_offsets_bytes
	.cfi_endproc
	.section	.text.tlsf_offsets_open_in,"ax",%progbits
	.globl	tlsf_offsets_open_in
	.p2align	1
	.type	tlsf_offsets_open_in,%function
	.code	16
	.thumb_func
tlsf_offsets_open_in:
	.cfi_startproc
	push.w	{r4, r5, r6, r7, r8, r9, r10, lr}
	.cfi_def_cfa_offset 32
	.cfi_offset lr, -4
	.cfi_offset r10, -8
	.cfi_offset r9, -12
	.cfi_offset r8, -16
	.cfi_offset r7, -20
	.cfi_offset r6, -24
	.cfi_offset r5, -28
	.cfi_offset r4, -32
	sub	sp, #8
	.cfi_def_cfa_offset 40
	ldr.w	r12, [sp, #40]
	ldr.w	lr, [sp, #48]
	cmp	r1, #4
	mov.w	r4, #0
	ldr.w	r9, [sp, #44]
	it	eq
	moveq.w	r4, #1048576
	cmp	r12, r4
	bls	.Lm_BB23_2
	rsb.w	r5, r9, #0
	and	r5, r5, #15
	mvn.w	r6, r9
	b	.Lm_BB23_3
.Lm_BB23_2:
	movw	r6, #65520
	movs	r5, #23
	movt	r6, #15
	add.w	r5, r5, r12, lsl #3
	add.w	r7, r6, #32505856
	ands	r5, r7
	add.w	r8, r12, #63
	movs	r7, #16
	add.w	r7, r7, r8, lsr #3
	ands	r6, r7
	add	r5, r6
	add.w	r8, r5, #1296
	rsb.w	r5, r9, #0
	and	r5, r5, #15
	sub.w	r7, lr, r5
	cmp	r7, r8
	it	lo
	movlo.w	r12, #0
	mvn.w	r6, r9
	cmp	lr, r5
	it	lo
	movlo.w	r12, #0
	cmp	lr, r6
	it	hi
	movhi.w	r12, #0
	cmp.w	r9, #0
	it	eq
	moveq	r12, r9
.Lm_BB23_3:
	cmp.w	r9, #0
	mov	r10, r9
	movw	r4, :lower16:begin_behind.nothing
	it	ne
	movne.w	r10, #1
	cmp	lr, r6
	mov.w	r6, #0
	movt	r4, :upper16:begin_behind.nothing
	it	ls
	movls	r6, #1
	cmp	r5, lr
	it	hs
	movhs	r5, lr
	mov	r7, r4
	tst.w	r10, r6
	it	ne
	addne.w	r7, r9, r5
	movw	r5, :lower16:lent
	movt	r5, :upper16:lent
	str	r7, [r5]
	movw	r7, :lower16:lent_end
	movt	r7, :upper16:lent_end
	it	ne
	addne.w	r4, r9, lr
	str	r4, [r7]
	movw	r7, :lower16:lent_step
	movt	r7, :upper16:lent_step
	movs	r4, #16
	mov.w	r8, #0
	str	r4, [r7]
	str.w	r12, [sp]
	bl	tlsf_offsets_open
	cmp	r0, #5
	mov	r1, r0
	it	eq
	moveq	r1, #39
	tst.w	r10, r6
	it	eq
	moveq	r0, r1
	str.w	r8, [r5]
	add	sp, #8
	pop.w	{r4, r5, r6, r7, r8, r9, r10, pc}
.Lm_func_end23:
	.size	tlsf_offsets_open_in, .Lm_func_end23-tlsf_offsets_open_in
	.cfi_endproc
	.section	.text.tlsf_pools_bytes,"ax",%progbits
	.globl	tlsf_pools_bytes
	.p2align	1
	.type	tlsf_pools_bytes,%function
	.code	16
	.thumb_func
tlsf_pools_bytes:
	.cfi_startproc
	push	{r4, r5, r7, lr}
	.cfi_def_cfa_offset 16
	.cfi_offset lr, -4
	.cfi_offset r7, -8
	.cfi_offset r5, -12
	.cfi_offset r4, -16
	sub	sp, #16
	.cfi_def_cfa_offset 32
	movs	r5, #0
	add.w	r12, sp, #4
	add	r3, sp, #8
	mov	r4, r2
	str	r5, [sp, #12]
	strd	r5, r5, [sp, #4]
	str.w	r12, [sp]
	bl	tlsf_pools_words
	cbnz	r0, .Lm_BB24_2
	ldrd	r1, r0, [sp, #4]
	add.w	r5, r4, r4, lsl #1
	mov.w	r2, #1320
	mvn	r3, #7
	lsls	r5, r5, #2
	muls	r2, r1, r2
	and.w	r3, r3, r0, lsr #3
	add.w	r1, r1, r1, lsl #2
	add.w	r0, r5, r0, lsl #3
	adds	r2, #23
	add.w	r0, r0, r1, lsl #4
	bic	r2, r2, #15
	add	r0, r3
	add	r0, r2
	addw	r5, r0, #1311
.Lm_BB24_2:
	mov	r0, r5
	add	sp, #16
	pop	{r4, r5, r7, pc}
.Lm_func_end24:
	.size	tlsf_pools_bytes, .Lm_func_end24-tlsf_pools_bytes
	.cfi_endproc
	.section	.text.tlsf_pools_open_in,"ax",%progbits
	.globl	tlsf_pools_open_in
	.p2align	1
	.type	tlsf_pools_open_in,%function
	.code	16
	.thumb_func
tlsf_pools_open_in:
	.cfi_startproc
	push.w	{r4, r5, r6, r7, r8, r9, r10, r11, lr}
	.cfi_def_cfa_offset 36
	.cfi_offset lr, -4
	.cfi_offset r11, -8
	.cfi_offset r10, -12
	.cfi_offset r9, -16
	.cfi_offset r8, -20
	.cfi_offset r7, -24
	.cfi_offset r6, -28
	.cfi_offset r5, -32
	.cfi_offset r4, -36
	sub	sp, #4
	.cfi_def_cfa_offset 40
	ldrd	r12, r10, [sp, #40]
	ldr.w	lr, [sp, #48]
	rsb.w	r7, r10, #0
	and	r6, r7, #15
	cmp.w	r10, #0
	mov	r11, r10
	mvn.w	r7, r10
	movw	r4, :lower16:begin_behind.nothing
	it	ne
	movne.w	r11, #1
	cmp	lr, r7
	mov.w	r7, #0
	movt	r4, :upper16:begin_behind.nothing
	it	ls
	movls	r7, #1
	cmp	r6, lr
	it	hs
	movhs	r6, lr
	mov	r5, r4
	tst.w	r11, r7
	it	ne
	addne.w	r5, r10, r6
	movw	r9, :lower16:lent
	movw	r6, :lower16:lent_end
	movt	r9, :upper16:lent
	movt	r6, :upper16:lent_end
	str.w	r5, [r9]
	it	ne
	addne.w	r4, r10, lr
	str	r4, [r6]
	movw	r6, :lower16:lent_step
	movt	r6, :upper16:lent_step
	movs	r5, #16
	mov.w	r8, #0
	str	r5, [r6]
	str.w	r12, [sp]
	bl	tlsf_pools_open
	cmp	r0, #6
	it	eq
	moveq	r0, #5
	cmp	r0, #5
	mov	r1, r0
	it	eq
	moveq	r1, #39
	tst.w	r11, r7
	it	eq
	moveq	r0, r1
	str.w	r8, [r9]
	add	sp, #4
	pop.w	{r4, r5, r6, r7, r8, r9, r10, r11, pc}
.Lm_func_end25:
	.size	tlsf_pools_open_in, .Lm_func_end25-tlsf_pools_open_in
	.cfi_endproc
	.section	.text.tlsf_next_number,"ax",%progbits
	.globl	tlsf_next_number
	.p2align	1
	.type	tlsf_next_number,%function
	.code	16
	.thumb_func
tlsf_next_number:
	.cfi_startproc
	push	{r4, lr}
	.cfi_def_cfa_offset 8
	.cfi_offset lr, -4
	.cfi_offset r4, -8
	sub	sp, #8
	.cfi_def_cfa_offset 16
	mov	r4, r0
	movw	r0, :lower16:tlsf_next_number.calls
	movs	r1, #0
	movt	r0, :upper16:tlsf_next_number.calls
	movs	r2, #1
	movs	r3, #0
	str	r1, [sp]
	bl	__atomic_fetch_add_8
	lsls	r1, r1, #3
	mov.w	r2, #-2147483648
	orr.w	r1, r1, r0, lsr #29
	adds.w	r0, r2, r0, lsl #3
	adcs	r1, r1, #0
	itte	eq
	streq	r0, [r4]
	moveq	r0, #0
	movne	r0, #2
	add	sp, #8
	pop	{r4, pc}
.Lm_func_end26:
	.size	tlsf_next_number, .Lm_func_end26-tlsf_next_number
	.cfi_endproc
	.section	.text.open_noted,"ax",%progbits
	.p2align	1
	.type	open_noted,%function
	.code	16
	.thumb_func
open_noted:
	.cfi_startproc
	push	{r4, r5, r6, lr}
	.cfi_def_cfa_offset 16
	.cfi_offset lr, -4
	.cfi_offset r6, -8
	.cfi_offset r5, -12
	.cfi_offset r4, -16
	mov	r6, r0
	ldrb	r0, [r0, #29]
	cbz	r0, .Lm_BB27_3
	sub.w	r4, r0, #65
	cmn.w	r4, #57
	mov.w	r4, #0
	blo	.Lm_BB27_4
	add.w	r5, r0, #127
	tst	r5, r0
	it	eq
	moveq	r4, r3
	b	.Lm_BB27_4
.Lm_BB27_3:
	mov	r4, r3
.Lm_BB27_4:
	mov	r0, r6
	mov	r3, r4
	bl	tlsf_open
	cbz	r0, .Lm_BB27_6
	pop	{r4, r5, r6, pc}
.Lm_BB27_6:
	ldrb	r1, [r6, #29]
	tst.w	r1, #247
	itt	ne
	movne	r1, #1
	strbne	r1, [r6, #28]
	pop	{r4, r5, r6, pc}
.Lm_func_end27:
	.size	open_noted, .Lm_func_end27-open_noted
	.cfi_endproc
	.type	tlsf_memory_alloc.nothing,%object
	.section	.bss.tlsf_memory_alloc.nothing,"aw",%nobits
	.p2align	3, 0x0
tlsf_memory_alloc.nothing:
	.long	0
	.long	0
	.size	tlsf_memory_alloc.nothing, 8
	.type	near_room,%object
	.section	.bss.near_room,"aw",%nobits
	.p2align	2, 0x0
near_room:
	.long	0
	.size	near_room, 4
	.type	pieces_first,%object
	.section	.bss.pieces_first,"aw",%nobits
	.p2align	2, 0x0
pieces_first:
	.long	0
	.size	pieces_first, 4
	.type	lent,%object
	.section	.bss.lent,"aw",%nobits
	.p2align	2, 0x0
lent:
	.long	0
	.size	lent, 4
	.type	tlsf_next_number.calls,%object
	.section	.bss.tlsf_next_number.calls,"aw",%nobits
	.p2align	3, 0x0
tlsf_next_number.calls:
	.long	0
	.long	0
	.size	tlsf_next_number.calls, 8
	.type	lent_step,%object
	.section	.bss.lent_step,"aw",%nobits
	.p2align	2, 0x0
lent_step:
	.long	0
	.size	lent_step, 4
	.type	lent_end,%object
	.section	.bss.lent_end,"aw",%nobits
	.p2align	2, 0x0
lent_end:
	.long	0
	.size	lent_end, 4
	.type	begin_behind.nothing,%object
	.section	.bss.begin_behind.nothing,"aw",%nobits
begin_behind.nothing:
	.byte	0
	.size	begin_behind.nothing, 1
	.ident	"clang version 22.1.8"
	.section	".note.GNU-stack","",%progbits
#endif
