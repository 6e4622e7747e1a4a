#ifndef TLSF_ONLY_MEMORY
/* The calls in Rattle. */
	.syntax	unified
	.eabi_attribute	24, 1
	.eabi_attribute	25, 1
	.section	.text.unlikely.tlsf_c.call_fault.CallFault.refusal,"ax",%progbits
	.p2align	2
	.type	tlsf_c.call_fault.CallFault.refusal,%function
	.code	16
	.thumb_func
tlsf_c.call_fault.CallFault.refusal:
	.cfi_sections .debug_frame
	.cfi_startproc
	movs	r1, #32
	orr.w	r0, r1, r0, lsl #2
	uxtb	r0, r0
	bx	lr
.Lfunc_end0:
	.size	tlsf_c.call_fault.CallFault.refusal, .Lfunc_end0-tlsf_c.call_fault.CallFault.refusal
	.cfi_endproc
	.section	.text.tlsf_heap.heap.Heap.resize_live.4,"ax",%progbits
	.p2align	2
	.type	tlsf_heap.heap.Heap.resize_live.4,%function
	.code	16
	.thumb_func
tlsf_heap.heap.Heap.resize_live.4:
	.cfi_startproc
	push.w	{r4, r5, r6, r7, r8, r9, lr}
	.cfi_def_cfa_offset 28
	.cfi_offset lr, -4
	.cfi_offset r9, -8
	.cfi_offset r8, -12
	.cfi_offset r7, -16
	.cfi_offset r6, -20
	.cfi_offset r5, -24
	.cfi_offset r4, -28
	sub	sp, #28
	.cfi_def_cfa_offset 56
	mov	r5, r0
	ldr	r1, [r1, #4]
	ldr	r7, [r0, #24]!
	add.w	r6, r7, r1, lsl #3
	ldr.w	r4, [r7, r1, lsl #3]
	ldr	r3, [r6, #4]
	cmp.w	r2, r4, lsr #2
	lsr.w	r8, r4, #2
	bls	.LBB1_4
	lsls	r6, r4, #30
	bmi	.LBB1_3
	add.w	r12, r8, r1
	ldr.w	r9, [r7, r12, lsl #3]
	lsls.w	r6, r9, #31
	bne	.LBB1_8
.LBB1_3:
	mov.w	r9, #0
	mov.w	r12, #0
	b	.LBB1_9
.LBB1_4:
	ldrd	lr, r12, [r5, #8]
	and.w	r7, lr, r12
	adds	r7, #1
	beq	.LBB1_14
	movs	r7, #0
	strd	r7, r7, [r6, #16]
	adds	r6, r2, #4
	cmp	r8, r6
	mov	r6, r8
	blo	.LBB1_7
	mov	r6, r2
	mov	r2, r4
	strd	lr, r12, [sp, #8]
	str	r6, [sp]
	bl	tlsf_heap.refitting.split_off.4
.LBB1_7:
	ldrd	r1, r3, [r5, #8]
	ldr	r2, [r5, #16]
	sub.w	r0, r6, r8
	adds	r1, #1
	add	r0, r2
	adc	r2, r3, #0
	strd	r1, r2, [r5, #8]
	str	r0, [r5, #16]
	b	.LBB1_13
.LBB1_8:
	add.w	r7, r7, r12, lsl #3
	ldr.w	r12, [r7, #4]
.LBB1_9:
	add.w	r7, r8, r9, lsr #2
	cmp	r7, r2
	bhs	.LBB1_11
	movs	r0, #1
	movs	r1, #5
	add	sp, #28
	pop.w	{r4, r5, r6, r7, r8, r9, pc}
.LBB1_11:
	ldrd	r7, lr, [r5, #8]
	and.w	r6, r7, lr
	adds	r6, #1
	beq	.LBB1_14
	strd	r7, lr, [sp, #16]
	mov	r7, r2
	mov	r2, r4
	lsls	r6, r1, #3
	strd	r9, r12, [sp]
	str	r7, [sp, #8]
	bl	tlsf_heap.refitting.recut.4
	ldr	r1, [r5, #24]
	movs	r2, #0
	add	r1, r6
	strd	r2, r2, [r1, #16]
	ldrd	r1, r2, [r5, #16]
	sub.w	r0, r0, r8
	add	r0, r1
	cmp	r2, r0
	str	r0, [r5, #16]
	it	lo
	strlo	r0, [r5, #20]
	ldrd	r0, r1, [r5, #8]
	adds	r0, #1
	adc	r1, r1, #0
	strd	r0, r1, [r5, #8]
.LBB1_13:
	movs	r1, #0
	movs	r0, #0
	add	sp, #28
	pop.w	{r4, r5, r6, r7, r8, r9, pc}
.LBB1_14:
	movs	r1, #1
	movs	r0, #1
	add	sp, #28
	pop.w	{r4, r5, r6, r7, r8, r9, pc}
.Lfunc_end1:
	.size	tlsf_heap.heap.Heap.resize_live.4, .Lfunc_end1-tlsf_heap.heap.Heap.resize_live.4
	.cfi_endproc
	.section	.text.tlsf_heap.refitting.split_off.4,"ax",%progbits
	.p2align	2
	.type	tlsf_heap.refitting.split_off.4,%function
	.code	16
	.thumb_func
tlsf_heap.refitting.split_off.4:
	.cfi_startproc
	push.w	{r4, r5, r6, r7, r8, r9, r10, r11, lr}
	.cfi_def_cfa_offset 36
	.cfi_offset lr, -4
	.cfi_offset r11, -8
	.cfi_offset r10, -12
	.cfi_offset r9, -16
	.cfi_offset r8, -20
	.cfi_offset r7, -24
	.cfi_offset r6, -28
	.cfi_offset r5, -32
	.cfi_offset r4, -36
	sub	sp, #28
	.cfi_def_cfa_offset 64
	ldrd	r9, r8, [sp, #72]
	ldr.w	r12, [sp, #64]
	ldr	r7, [r0]
	lsls	r6, r2, #30
	bmi	.LBB2_2
	add.w	r4, r1, r2, lsr #2
	ldr.w	r6, [r7, r4, lsl #3]
	lsls	r5, r6, #31
	bne	.LBB2_7
.LBB2_2:
	orr	r4, r2, #1
	lsrs	r2, r2, #2
	sub.w	r6, r4, r12, lsl #2
	str	r2, [sp, #24]
	subs	r2, r4, r6
	sbc	r3, r3, #0
	add.w	r4, r7, r1, lsl #3
	str.w	r2, [r7, r1, lsl #3]
	str	r3, [r4, #4]
	ldr	r3, [r0]
	add.w	lr, r12, r1
	add.w	r4, r3, lr, lsl #3
	str.w	r6, [r3, lr, lsl #3]
	strd	r1, r9, [r4, #4]
	str.w	r8, [r4, #12]
	ldr	r3, [r0, #24]
	mvn	r4, #7
	and	r7, lr, #63
	and.w	r4, r4, lr, lsr #3
	mov.w	r11, #1
	rsb.w	r12, r7, #32
	adds	r5, r3, r4
	ldr.w	r8, [r3, r4]
	subs.w	r10, r7, #32
	lsr.w	r2, r11, r12
	lsl.w	r7, r11, r7
	ldr.w	r9, [r5, #4]
	ldr.w	r12, [sp, #24]
	it	pl
	lslpl.w	r2, r11, r10
	it	pl
	movpl	r7, #0
	orr.w	r7, r7, r8
	orr.w	r2, r2, r9
	str	r7, [r3, r4]
	lsls	r3, r6, #30
	str	r2, [r5, #4]
	bmi	.LBB2_4
	ldr	r2, [r0]
	add	r1, r12
	add.w	r1, r2, r1, lsl #3
	str.w	lr, [r1, #4]
.LBB2_4:
	ldr	r1, [sp, #64]
	lsl.w	r3, lr, #3
	sub.w	r1, r12, r1
	orr	r2, r1, #16
	clz	r2, r2
	rsb.w	r2, r2, #27
	lsrs	r1, r2
	add.w	r7, r1, r2, lsl #4
	add.w	r2, r0, r7, lsl #2
	ldr.w	r5, [r2, #144]
	mov.w	r6, #-1
	cmp.w	r5, #-1
	str.w	lr, [r2, #144]
	ble	.LBB2_6
	ldr	r0, [r0]
	adds	r1, r0, r3
	add.w	r0, r0, r5, lsl #3
	strd	r5, r6, [r1, #16]
	str.w	lr, [r0, #20]
	add	sp, #28
	pop.w	{r4, r5, r6, r7, r8, r9, r10, r11, pc}
.LBB2_6:
	ldr	r2, [r0]
	movs	r5, #1
	add	r2, r3
	strd	r6, r6, [r2, #16]
	lsrs	r2, r7, #4
	ldr	r3, [r0, #56]
	add.w	r7, r0, r2, lsl #2
	lsl.w	r2, r5, r2
	orrs	r2, r3
	ldr	r6, [r7, #60]
	str	r2, [r0, #56]
	and	r0, r1, #15
	lsl.w	r0, r5, r0
	orrs	r0, r6
	str	r0, [r7, #60]
	add	sp, #28
	pop.w	{r4, r5, r6, r7, r8, r9, r10, r11, pc}
.LBB2_7:
	add.w	r7, r7, r4, lsl #3
	ldr	r7, [r7, #4]
	strd	r9, r8, [sp, #16]
	stm.w	sp, {r6, r7, r12}
	bl	tlsf_heap.refitting.recut.4
	add	sp, #28
	pop.w	{r4, r5, r6, r7, r8, r9, r10, r11, pc}
.Lfunc_end2:
	.size	tlsf_heap.refitting.split_off.4, .Lfunc_end2-tlsf_heap.refitting.split_off.4
	.cfi_endproc
	.section	.text.tlsf_heap.refitting.recut.4,"ax",%progbits
	.p2align	2
	.type	tlsf_heap.refitting.recut.4,%function
	.code	16
	.thumb_func
tlsf_heap.refitting.recut.4:
	.cfi_startproc
	push.w	{r4, r5, r6, r7, r8, r9, r10, r11, lr}
	.cfi_def_cfa_offset 36
	.cfi_offset lr, -4
	.cfi_offset r11, -8
	.cfi_offset r10, -12
	.cfi_offset r9, -16
	.cfi_offset r8, -20
	.cfi_offset r7, -24
	.cfi_offset r6, -28
	.cfi_offset r5, -32
	.cfi_offset r4, -36
	sub	sp, #12
	.cfi_def_cfa_offset 48
	ldr.w	r11, [sp, #48]
	mov	r4, r2
	lsr.w	r7, r11, #2
	mov	r6, r1
	ldr.w	r8, [sp, #56]
	movw	r10, #65528
	add.w	r2, r1, r2, lsr #2
	mov	r1, r7
	mov	r5, r3
	mov	r9, r0
	movt	r10, #8191
	bl	tlsf_heap.region.Region.remove.4
	adds.w	r4, r4, r11
	add.w	r1, r8, #4
	adc	r11, r5, #0
	lsrs	r0, r4, #2
	cmp.w	r1, r4, lsr #2
	add.w	r3, r6, r4, lsr #2
	str	r0, [sp, #8]
	str	r3, [sp, #4]
	bls	.LBB3_4
	subs	r3, r3, r7
	ldr.w	r7, [r9, #24]
	and.w	r5, r10, r3, lsr #3
	add.w	lr, r7, r5
	mvn	r1, #1
	mov.w	r12, #31
	ldr.w	r8, [r7, r5]
	ldr.w	r10, [lr, #4]
	tst.w	r3, #32
	it	ne
	movne.w	r1, #-1
	and	r2, r3, #31
	bic.w	r3, r12, r3
	mvn	r0, #-2147483648
	lsl.w	r1, r1, r2
	lsr.w	r0, r0, r3
	mov.w	r3, #-1
	orr.w	r1, r1, r0
	it	ne
	mvnne	r3, #1
	lsl.w	r2, r3, r2
	orrs	r0, r2
	and.w	r1, r1, r8
	and.w	r0, r0, r10
	str	r1, [r7, r5]
	lsls	r1, r4, #30
	str.w	r0, [lr, #4]
	bmi	.LBB3_3
	ldr.w	r0, [r9]
	ldr	r1, [sp, #4]
	add.w	r0, r0, r1, lsl #3
	str	r6, [r0, #4]
.LBB3_3:
	ldr.w	r1, [r9]
	subs	r0, r4, #1
	sbc	r2, r11, #0
	add.w	r3, r1, r6, lsl #3
	ldr.w	r8, [sp, #8]
	str.w	r0, [r1, r6, lsl #3]
	str	r2, [r3, #4]
	b	.LBB3_9
.LBB3_4:
	sub.w	lr, r4, r8, lsl #2
	ldr.w	r5, [r9]
	subs.w	r2, r4, lr
	sbc	r4, r11, #0
	add.w	r0, r5, r6, lsl #3
	str.w	r2, [r5, r6, lsl #3]
	str	r4, [r0, #4]
	ldr.w	r0, [r9]
	ldrd	r1, r12, [sp, #64]
	add.w	r2, r8, r6
	add.w	r5, r0, r2, lsl #3
	str.w	lr, [r0, r2, lsl #3]
	strd	r6, r1, [r5, #4]
	str.w	r12, [r5, #12]
	subs	r0, r3, r7
	ldr.w	r1, [r9, #24]
	and.w	r7, r10, r0, lsr #3
	adds	r6, r1, r7
	mvn	r5, #1
	movs	r4, #31
	ldr.w	r12, [r1, r7]
	ldr.w	r11, [r6, #4]
	tst.w	r0, #32
	it	ne
	movne.w	r5, #-1
	and	r3, r0, #31
	bic.w	r0, r4, r0
	mvn	r4, #-2147483648
	lsl.w	r5, r5, r3
	lsr.w	r0, r4, r0
	orr.w	r4, r5, r0
	mov.w	r5, #-1
	it	ne
	mvnne	r5, #1
	lsl.w	r3, r5, r3
	orrs	r0, r3
	and.w	r0, r0, r11
	and.w	r3, r12, r4
	str	r3, [r1, r7]
	str	r0, [r6, #4]
	ldr.w	r0, [r9, #24]
	and	r5, r2, #63
	and.w	r1, r10, r2, lsr #3
	movs	r7, #1
	rsb.w	r6, r5, #32
	adds	r3, r0, r1
	ldr.w	r12, [r0, r1]
	subs.w	r4, r5, #32
	lsr.w	r6, r7, r6
	ldr.w	r10, [r3, #4]
	it	pl
	lslpl.w	r6, r7, r4
	lsl.w	r4, r7, r5
	it	pl
	movpl	r4, #0
	orr.w	r7, r12, r4
	orr.w	r5, r10, r6
	str	r7, [r0, r1]
	lsls.w	r0, lr, #30
	str	r5, [r3, #4]
	bmi	.LBB3_6
	ldr.w	r0, [r9]
	ldr	r1, [sp, #4]
	add.w	r0, r0, r1, lsl #3
	str	r2, [r0, #4]
.LBB3_6:
	ldr	r0, [sp, #8]
	lsls	r1, r2, #3
	sub.w	r0, r0, r8
	orr	r3, r0, #16
	clz	r3, r3
	rsb.w	r3, r3, #27
	lsrs	r0, r3
	add.w	r3, r0, r3, lsl #4
	add.w	r5, r9, r3, lsl #2
	ldr.w	r6, [r5, #144]
	mov.w	r7, #-1
	cmp.w	r6, #-1
	str.w	r2, [r5, #144]
	ble	.LBB3_8
	ldr.w	r0, [r9]
	add	r1, r0
	add.w	r0, r0, r6, lsl #3
	strd	r6, r7, [r1, #16]
	str	r2, [r0, #20]
	b	.LBB3_9
.LBB3_8:
	ldr.w	r2, [r9]
	movs	r6, #1
	add	r1, r2
	strd	r7, r7, [r1, #16]
	lsrs	r1, r3, #4
	add.w	r3, r9, r1, lsl #2
	ldr.w	r2, [r9, #56]
	ldr	r7, [r3, #60]
	and	r0, r0, #15
	lsl.w	r1, r6, r1
	lsl.w	r0, r6, r0
	orrs	r1, r2
	orrs	r0, r7
	str.w	r1, [r9, #56]
	str	r0, [r3, #60]
.LBB3_9:
	mov	r0, r8
	add	sp, #12
	pop.w	{r4, r5, r6, r7, r8, r9, r10, r11, pc}
.Lfunc_end3:
	.size	tlsf_heap.refitting.recut.4, .Lfunc_end3-tlsf_heap.refitting.recut.4
	.cfi_endproc
	.section	.text.tlsf_heap.region.Region.remove.4,"ax",%progbits
	.p2align	2
	.type	tlsf_heap.region.Region.remove.4,%function
	.code	16
	.thumb_func
tlsf_heap.region.Region.remove.4:
	.cfi_startproc
	push	{r4, lr}
	.cfi_def_cfa_offset 8
	.cfi_offset lr, -4
	.cfi_offset r4, -8
	ldr	r3, [r0]
	add.w	r2, r3, r2, lsl #3
	ldrd	r12, r2, [r2, #16]
	cmp	r2, #0
	bmi	.LBB4_3
	add.w	r0, r3, r2, lsl #3
	ldr.w	lr, [r0, #20]
	adds.w	r1, r12, #1
	beq	.LBB4_5
	strd	r12, lr, [r0, #16]
	add.w	r0, r3, r12, lsl #3
	bic	r1, r2, #-2147483648
	str	r1, [r0, #20]
	pop	{r4, pc}
.LBB4_3:
	orr	r2, r1, #16
	clz	r2, r2
	rsb.w	r2, r2, #27
	lsr.w	lr, r1, r2
	adds.w	r1, r12, #1
	add.w	r2, lr, r2, lsl #4
	beq	.LBB4_6
	add.w	r1, r3, r12, lsl #3
	mov.w	r3, #-1
	add.w	r0, r0, r2, lsl #2
	str	r3, [r1, #20]
	str.w	r12, [r0, #144]
	pop	{r4, pc}
.LBB4_5:
	mov.w	r1, #-1
	strd	r1, lr, [r0, #16]
	pop	{r4, pc}
.LBB4_6:
	add.w	r1, r0, r2, lsl #2
	mov.w	r3, #-1
	lsrs	r4, r2, #4
	str.w	r3, [r1, #144]
	add.w	r3, r0, r4, lsl #2
	ldr	r1, [r3, #60]
	and	r2, lr, #15
	mov.w	r12, #1
	lsl.w	r2, r12, r2
	bics	r1, r2
	str	r1, [r3, #60]
	it	ne
	popne	{r4, pc}
.LBB4_7:
	ldr	r1, [r0, #56]
	lsl.w	r2, r12, r4
	bics	r1, r2
	str	r1, [r0, #56]
	pop	{r4, pc}
.Lfunc_end4:
	.size	tlsf_heap.region.Region.remove.4, .Lfunc_end4-tlsf_heap.region.Region.remove.4
	.cfi_endproc
	.section	.text.tlsf_heap.heap.Heap.release_live.4,"ax",%progbits
	.p2align	2
	.type	tlsf_heap.heap.Heap.release_live.4,%function
	.code	16
	.thumb_func
tlsf_heap.heap.Heap.release_live.4:
	.cfi_startproc
	push.w	{r4, r5, r6, r7, r8, r9, r10, lr}
	.cfi_def_cfa_offset 32
	.cfi_offset lr, -4
	.cfi_offset r10, -8
	.cfi_offset r9, -12
	.cfi_offset r8, -16
	.cfi_offset r7, -20
	.cfi_offset r6, -24
	.cfi_offset r5, -28
	.cfi_offset r4, -32
	sub	sp, #32
	.cfi_def_cfa_offset 64
	mov	r12, r0
	ldr	r1, [r1, #4]
	ldr	r7, [r0, #24]!
	add.w	r6, r7, r1, lsl #3
	ldr.w	r4, [r7, r1, lsl #3]
	ldr	r2, [r0, #-8]
	ldr.w	lr, [r6, #4]
	lsr.w	r8, r4, #2
	sub.w	r2, r2, r4, lsr #2
	lsls	r3, r4, #30
	str	r2, [r0, #-8]
	bmi	.LBB5_2
	add.w	r2, r8, r1
	add.w	r3, r7, r2, lsl #3
	ldr.w	r2, [r7, r2, lsl #3]
	ldr	r3, [r3, #4]
	b	.LBB5_3
.LBB5_2:
	movs	r2, #0
	movs	r3, #0
.LBB5_3:
	cmp	r1, #0
	itt	ne
	ldrne.w	r9, [r7, lr, lsl #3]
	lslsne.w	r5, r9, #31
	bne	.LBB5_8
	ldrd	r5, r9, [r12, #8]
	lsls	r7, r2, #31
	bne	.LBB5_7
	orr	r2, r4, #1
	strd	r2, lr, [r6]
	strd	r5, r9, [r6, #8]
	ldrd	r7, r2, [r12, #8]
	lsls	r3, r1, #3
	adds	r7, #1
	adc	r2, r2, #0
	strd	r7, r2, [r12, #8]
	orr	r2, r8, #16
	clz	r2, r2
	rsb.w	r7, r2, #27
	lsr.w	r2, r8, r7
	add.w	r7, r2, r7, lsl #4
	add.w	r4, r12, r7, lsl #2
	ldr.w	r5, [r4, #168]
	mov.w	r6, #-1
	cmp.w	r5, #-1
	str.w	r1, [r4, #168]
	ble	.LBB5_9
	ldr	r0, [r0]
	adds	r2, r0, r3
	add.w	r0, r0, r5, lsl #3
	strd	r5, r6, [r2, #16]
	str	r1, [r0, #20]
	add	sp, #32
	pop.w	{r4, r5, r6, r7, r8, r9, r10, pc}
.LBB5_7:
	adds	r6, r5, #1
	adc	r7, r9, #0
	strd	r6, r7, [r12, #8]
	strd	r4, lr, [sp]
	strd	r5, r9, [sp, #8]
	str	r1, [sp, #16]
	bl	tlsf_heap.fitting.merge_next.4
	add	sp, #32
	pop.w	{r4, r5, r6, r7, r8, r9, r10, pc}
.LBB5_8:
	add.w	r5, r7, lr, lsl #3
	ldrd	r6, r7, [r12, #8]
	ldr.w	r8, [r5, #4]
	adds.w	r10, r6, #1
	adc	r5, r7, #0
	strd	r10, r5, [r12, #8]
	strd	r4, lr, [sp, #24]
	strd	r9, r8, [sp]
	strd	r6, r7, [sp, #8]
	str	r1, [sp, #16]
	bl	tlsf_heap.fitting.merge_before.4
	add	sp, #32
	pop.w	{r4, r5, r6, r7, r8, r9, r10, pc}
.LBB5_9:
	ldr.w	r0, [r12, #24]
	add	r0, r3
	strd	r6, r6, [r0, #16]
	lsrs	r0, r7, #4
	ldr.w	r1, [r12, #80]
	movs	r6, #1
	add.w	r3, r12, r0, lsl #2
	lsl.w	r0, r6, r0
	orrs	r0, r1
	ldr	r7, [r3, #84]
	str.w	r0, [r12, #80]
	and	r0, r2, #15
	lsl.w	r0, r6, r0
	orrs	r0, r7
	str	r0, [r3, #84]
	add	sp, #32
	pop.w	{r4, r5, r6, r7, r8, r9, r10, pc}
.Lfunc_end5:
	.size	tlsf_heap.heap.Heap.release_live.4, .Lfunc_end5-tlsf_heap.heap.Heap.release_live.4
	.cfi_endproc
	.section	.text.tlsf_heap.fitting.merge_before.4,"ax",%progbits
	.p2align	2
	.type	tlsf_heap.fitting.merge_before.4,%function
	.code	16
	.thumb_func
tlsf_heap.fitting.merge_before.4:
	.cfi_startproc
	push.w	{r4, r5, r6, r7, r8, r9, r10, r11, lr}
	.cfi_def_cfa_offset 36
	.cfi_offset lr, -4
	.cfi_offset r11, -8
	.cfi_offset r10, -12
	.cfi_offset r9, -16
	.cfi_offset r8, -20
	.cfi_offset r7, -24
	.cfi_offset r6, -28
	.cfi_offset r5, -32
	.cfi_offset r4, -36
	sub	sp, #20
	.cfi_def_cfa_offset 56
	ldr	r1, [sp, #68]
	ldr	r4, [sp, #80]
	str	r1, [sp, #16]
	add	r7, sp, #56
	ldm	r7, {r5, r6, r7}
	ldr.w	r11, [sp, #72]
	lsls	r1, r2, #31
	bne	.LBB6_3
	orr	r2, r4, #1
	adds	r2, r2, r5
	adc	r3, r6, #0
	subs	r6, r2, #1
	ldr	r2, [r0]
	sub.w	r4, r11, r5, lsr #2
	add.w	r2, r2, r4, lsl #3
	ldr	r2, [r2, #20]
	movw	r10, #65528
	movt	r10, #8191
	lsr.w	r1, r5, #2
	sbc	r3, r3, #0
	cmp	r2, #0
	lsl.w	r8, r4, #3
	str	r3, [sp, #12]
	bmi	.LBB6_4
	lsr.w	r9, r6, #2
	b	.LBB6_8
.LBB6_3:
	ldr	r1, [sp, #84]
	str.w	r11, [sp, #72]
	str	r7, [sp, #64]
	str	r5, [sp, #56]
	strd	r4, r1, [sp, #80]
	ldr	r1, [sp, #16]
	str	r1, [sp, #68]
	str	r6, [sp, #60]
	add	sp, #20
	pop.w	{r4, r5, r6, r7, r8, r9, r10, r11, lr}
	b	tlsf_heap.fitting.merge_both.4
.LBB6_4:
	orr	r2, r1, #16
	clz	r2, r2
	rsb.w	r2, r2, #27
	lsr.w	r3, r1, r2
	add.w	r2, r3, r2, lsl #4
	movs	r3, #16
	orr.w	r3, r3, r6, lsr #2
	clz	r3, r3
	lsr.w	r9, r6, #2
	rsb.w	r3, r3, #27
	lsr.w	r5, r9, r3
	add.w	r3, r5, r3, lsl #4
	cmp	r2, r3
	bne	.LBB6_8
	ldr	r1, [r0, #24]
	and.w	r2, r10, r11, lsr #3
	add.w	r10, r1, r2
	ldr	r3, [r1, r2]
	ldr.w	r5, [r10, #4]
	str	r3, [sp, #4]
	str	r5, [sp, #8]
	movs	r5, #31
	bic.w	r5, r5, r11
	mvn	r12, #-2147483648
	lsr.w	r12, r12, r5
	mvn	r5, #1
	tst.w	r11, #32
	it	ne
	movne.w	r5, #-1
	and	r11, r11, #31
	lsl.w	r5, r5, r11
	orr.w	r3, r5, r12
	mov.w	lr, #-1
	str	r3, [sp]
	it	ne
	mvnne	lr, #1
	lsl.w	r5, lr, r11
	ldr	r3, [sp, #8]
	orr.w	r5, r5, r12
	and.w	r12, r3, r5
	ldrd	r5, r3, [sp]
	str.w	r12, [r10, #4]
	ands	r3, r5
	str	r3, [r1, r2]
	ldr	r1, [r0]
	add.w	r2, r1, r8
	str.w	r6, [r1, r8]
	ldr	r1, [sp, #12]
	strd	r1, r7, [r2, #4]
	lsls	r1, r6, #30
	ldr	r1, [sp, #16]
	str	r1, [r2, #12]
	bmi	.LBB6_7
	ldr	r0, [r0]
	add.w	r1, r9, r4
	add.w	r0, r0, r1, lsl #3
	str	r4, [r0, #4]
.LBB6_7:
	add	sp, #20
	pop.w	{r4, r5, r6, r7, r8, r9, r10, r11, pc}
.LBB6_8:
	mov	r2, r4
	mov	r5, r0
	bl	tlsf_heap.region.Region.remove.4
	ldr	r0, [r5, #24]
	and.w	r1, r10, r11, lsr #3
	ldr	r3, [r0, r1]
	mov	r10, r6
	movs	r6, #31
	bic.w	r6, r6, r11
	mov	r12, r4
	mvn	r4, #-2147483648
	adds	r2, r0, r1
	str	r3, [sp, #4]
	str	r7, [sp, #8]
	lsr.w	r6, r4, r6
	mvn	r4, #1
	mov.w	r7, #-1
	ldr.w	lr, [r2, #4]
	tst.w	r11, #32
	it	ne
	movne.w	r4, #-1
	and	r3, r11, #31
	it	ne
	mvnne	r7, #1
	lsls	r4, r3
	lsl.w	r3, r7, r3
	ldr	r7, [sp, #4]
	orrs	r4, r6
	orrs	r3, r6
	and.w	r3, r3, lr
	ands	r7, r4
	str	r7, [r0, r1]
	str	r3, [r2, #4]
	ldr	r0, [r5]
	add.w	r1, r0, r8
	str.w	r10, [r0, r8]
	ldr	r0, [sp, #12]
	str	r0, [r1, #4]
	ldr	r0, [sp, #8]
	str	r0, [r1, #8]
	lsls.w	r0, r10, #30
	ldr	r0, [sp, #16]
	str	r0, [r1, #12]
	bmi	.LBB6_10
	ldr	r0, [r5]
	add.w	r1, r9, r12
	add.w	r0, r0, r1, lsl #3
	str.w	r12, [r0, #4]
.LBB6_10:
	orr	r0, r9, #16
	clz	r0, r0
	rsb.w	r1, r0, #27
	lsr.w	r0, r9, r1
	add.w	r1, r0, r1, lsl #4
	add.w	r7, r5, r1, lsl #2
	ldr.w	r3, [r7, #144]
	mov.w	r2, #-1
	cmp.w	r3, #-1
	str.w	r12, [r7, #144]
	ble	.LBB6_12
	ldr	r0, [r5]
	add.w	r1, r0, r8
	add.w	r0, r0, r3, lsl #3
	strd	r3, r2, [r1, #16]
	str.w	r12, [r0, #20]
	add	sp, #20
	pop.w	{r4, r5, r6, r7, r8, r9, r10, r11, pc}
.LBB6_12:
	ldr	r3, [r5]
	lsrs	r1, r1, #4
	add	r3, r8
	strd	r2, r2, [r3, #16]
	add.w	r3, r5, r1, lsl #2
	ldr	r2, [r5, #56]
	ldr	r7, [r3, #60]
	movs	r6, #1
	and	r0, r0, #15
	lsl.w	r1, r6, r1
	lsl.w	r0, r6, r0
	orrs	r1, r2
	orrs	r0, r7
	str	r1, [r5, #56]
	str	r0, [r3, #60]
	add	sp, #20
	pop.w	{r4, r5, r6, r7, r8, r9, r10, r11, pc}
.Lfunc_end6:
	.size	tlsf_heap.fitting.merge_before.4, .Lfunc_end6-tlsf_heap.fitting.merge_before.4
	.cfi_endproc
	.section	.text.tlsf_heap.fitting.merge_both.4,"ax",%progbits
	.p2align	2
	.type	tlsf_heap.fitting.merge_both.4,%function
	.code	16
	.thumb_func
tlsf_heap.fitting.merge_both.4:
	.cfi_startproc
	push.w	{r4, r5, r6, r7, r8, r9, r10, r11, lr}
	.cfi_def_cfa_offset 36
	.cfi_offset lr, -4
	.cfi_offset r11, -8
	.cfi_offset r10, -12
	.cfi_offset r9, -16
	.cfi_offset r8, -20
	.cfi_offset r7, -24
	.cfi_offset r6, -28
	.cfi_offset r5, -32
	.cfi_offset r4, -36
	sub	sp, #4
	.cfi_def_cfa_offset 40
	ldr.w	r8, [sp, #64]
	ldr	r7, [sp, #56]
	mov	r6, r2
	ldrd	r11, r10, [sp, #40]
	lsrs	r1, r2, #2
	add.w	r2, r7, r8, lsr #2
	mov	r4, r0
	bl	tlsf_heap.region.Region.remove.4
	sub.w	r5, r7, r11, lsr #2
	lsr.w	r1, r11, #2
	mov	r0, r4
	mov	r2, r5
	bl	tlsf_heap.region.Region.remove.4
	add.w	r0, r8, r6
	adds.w	r0, r0, r11
	adc	r1, r10, #0
	subs.w	r12, r0, #1
	ldr	r2, [r4, #24]
	mvn	r10, #7
	sbc	r9, r1, #0
	and.w	r1, r10, r7, lsr #3
	mov.w	lr, #31
	mvn	r0, #1
	ldr.w	r11, [r2, r1]
	bic.w	r3, lr, r7
	mvn	r8, #-2147483648
	tst.w	r7, #32
	it	ne
	movne.w	r0, #-1
	and	r7, r7, #31
	lsr.w	r3, r8, r3
	lsl.w	r0, r0, r7
	orr.w	r0, r0, r3
	and.w	r0, r0, r11
	str	r0, [r2, r1]
	add.w	r0, r2, r1
	mov.w	r1, #-1
	it	ne
	mvnne	r1, #1
	lsls	r1, r7
	ldr	r2, [r0, #4]
	orrs	r1, r3
	ands	r1, r2
	add.w	r11, r5, r12, lsr #2
	str	r1, [r0, #4]
	sub.w	r1, r11, r6, lsr #2
	ldr	r3, [r4, #24]
	mvn	r0, #1
	and.w	r6, r10, r1, lsr #3
	bic.w	r7, lr, r1
	ldr	r2, [r3, r6]
	tst.w	r1, #32
	it	ne
	movne.w	r0, #-1
	and	r1, r1, #31
	lsr.w	r7, r8, r7
	lsl.w	r0, r0, r1
	orr.w	r0, r0, r7
	and.w	r0, r0, r2
	mov.w	r2, #-1
	str	r0, [r3, r6]
	add.w	r0, r3, r6
	it	ne
	mvnne	r2, #1
	lsl.w	r1, r2, r1
	ldr	r2, [r0, #4]
	orrs	r1, r7
	ands	r1, r2
	str	r1, [r0, #4]
	ldr	r0, [r4]
	ldr	r2, [sp, #48]
	add.w	r1, r0, r5, lsl #3
	str	r2, [r1, #8]
	ldr	r2, [sp, #52]
	str.w	r12, [r0, r5, lsl #3]
	lsls.w	r0, r12, #30
	lsr.w	r0, r12, #2
	str.w	r9, [r1, #4]
	str	r2, [r1, #12]
	bmi	.LBB7_2
	ldr	r1, [r4]
	add.w	r1, r1, r11, lsl #3
	str	r5, [r1, #4]
.LBB7_2:
	orr	r2, r0, #16
	clz	r2, r2
	rsb.w	r2, r2, #27
	lsrs	r0, r2
	add.w	r2, r0, r2, lsl #4
	add.w	r6, r4, r2, lsl #2
	ldr.w	r7, [r6, #144]
	lsls	r1, r5, #3
	mov.w	r3, #-1
	cmp.w	r7, #-1
	str.w	r5, [r6, #144]
	ble	.LBB7_4
	ldr	r0, [r4]
	add	r1, r0
	add.w	r0, r0, r7, lsl #3
	strd	r7, r3, [r1, #16]
	str	r5, [r0, #20]
	add	sp, #4
	pop.w	{r4, r5, r6, r7, r8, r9, r10, r11, pc}
.LBB7_4:
	ldr	r7, [r4]
	movs	r6, #1
	add	r1, r7
	strd	r3, r3, [r1, #16]
	lsrs	r1, r2, #4
	add.w	r3, r4, r1, lsl #2
	ldr	r2, [r4, #56]
	ldr	r7, [r3, #60]
	and	r0, r0, #15
	lsl.w	r1, r6, r1
	lsl.w	r0, r6, r0
	orrs	r1, r2
	orrs	r0, r7
	str	r1, [r4, #56]
	str	r0, [r3, #60]
	add	sp, #4
	pop.w	{r4, r5, r6, r7, r8, r9, r10, r11, pc}
.Lfunc_end7:
	.size	tlsf_heap.fitting.merge_both.4, .Lfunc_end7-tlsf_heap.fitting.merge_both.4
	.cfi_endproc
	.section	.text.tlsf_heap.fitting.merge_next.4,"ax",%progbits
	.p2align	2
	.type	tlsf_heap.fitting.merge_next.4,%function
	.code	16
	.thumb_func
tlsf_heap.fitting.merge_next.4:
	.cfi_startproc
	push.w	{r4, r5, r6, r7, r8, r9, r10, r11, lr}
	.cfi_def_cfa_offset 36
	.cfi_offset lr, -4
	.cfi_offset r11, -8
	.cfi_offset r10, -12
	.cfi_offset r9, -16
	.cfi_offset r8, -20
	.cfi_offset r7, -24
	.cfi_offset r6, -28
	.cfi_offset r5, -32
	.cfi_offset r4, -36
	sub	sp, #4
	.cfi_def_cfa_offset 40
	ldr.w	r11, [sp, #56]
	ldrd	r7, r10, [sp, #40]
	mov	r5, r2
	ldrd	r9, r8, [sp, #48]
	lsrs	r1, r2, #2
	add.w	r2, r11, r7, lsr #2
	mov	r4, r0
	bl	tlsf_heap.region.Region.remove.4
	adds	r1, r5, r7
	add.w	lr, r11, r1, lsr #2
	sub.w	r7, lr, r5, lsr #2
	mov.w	r0, #31
	ldr	r3, [r4, #24]
	mvn	r5, #7
	bic.w	r0, r0, r7
	mvn	r6, #-2147483648
	and.w	r5, r5, r7, lsr #3
	lsr.w	r0, r6, r0
	mvn	r6, #1
	adc	r12, r10, #0
	ldr	r2, [r3, r5]
	tst.w	r7, #32
	it	ne
	movne.w	r6, #-1
	and	r7, r7, #31
	lsl.w	r6, r6, r7
	orr.w	r6, r6, r0
	and.w	r2, r2, r6
	str	r2, [r3, r5]
	add.w	r2, r3, r5
	mov.w	r3, #-1
	it	ne
	mvnne	r3, #1
	lsls	r3, r7
	ldr	r5, [r2, #4]
	orrs	r0, r3
	ands	r0, r5
	str	r0, [r2, #4]
	ldr	r0, [r4]
	add.w	r2, r0, r11, lsl #3
	strd	r12, r9, [r2, #4]
	str.w	r8, [r2, #12]
	str.w	r1, [r0, r11, lsl #3]
	lsls	r0, r1, #30
	lsr.w	r2, r1, #2
	bmi	.LBB8_2
	ldr	r0, [r4]
	add.w	r0, r0, lr, lsl #3
	str.w	r11, [r0, #4]
.LBB8_2:
	orr	r0, r2, #16
	clz	r0, r0
	rsb.w	r3, r0, #27
	lsr.w	r0, r2, r3
	add.w	r2, r0, r3, lsl #4
	add.w	r6, r4, r2, lsl #2
	ldr.w	r7, [r6, #144]
	lsl.w	r1, r11, #3
	mov.w	r3, #-1
	cmp.w	r7, #-1
	str.w	r11, [r6, #144]
	ble	.LBB8_4
	ldr	r0, [r4]
	add	r1, r0
	add.w	r0, r0, r7, lsl #3
	strd	r7, r3, [r1, #16]
	str.w	r11, [r0, #20]
	add	sp, #4
	pop.w	{r4, r5, r6, r7, r8, r9, r10, r11, pc}
.LBB8_4:
	ldr	r7, [r4]
	movs	r6, #1
	add	r1, r7
	strd	r3, r3, [r1, #16]
	lsrs	r1, r2, #4
	add.w	r3, r4, r1, lsl #2
	ldr	r2, [r4, #56]
	ldr	r7, [r3, #60]
	and	r0, r0, #15
	lsl.w	r1, r6, r1
	lsl.w	r0, r6, r0
	orrs	r1, r2
	orrs	r0, r7
	str	r1, [r4, #56]
	str	r0, [r3, #60]
	add	sp, #4
	pop.w	{r4, r5, r6, r7, r8, r9, r10, r11, pc}
.Lfunc_end8:
	.size	tlsf_heap.fitting.merge_next.4, .Lfunc_end8-tlsf_heap.fitting.merge_next.4
	.cfi_endproc
	.section	.text.tlsf_heap.heap.Heap.resize_live.5,"ax",%progbits
	.p2align	2
	.type	tlsf_heap.heap.Heap.resize_live.5,%function
	.code	16
	.thumb_func
tlsf_heap.heap.Heap.resize_live.5:
	.cfi_startproc
	push.w	{r4, r5, r6, r7, r8, r9, lr}
	.cfi_def_cfa_offset 28
	.cfi_offset lr, -4
	.cfi_offset r9, -8
	.cfi_offset r8, -12
	.cfi_offset r7, -16
	.cfi_offset r6, -20
	.cfi_offset r5, -24
	.cfi_offset r4, -28
	sub	sp, #28
	.cfi_def_cfa_offset 56
	mov	r5, r0
	ldr	r1, [r1, #4]
	ldr	r7, [r0, #24]!
	add.w	r6, r7, r1, lsl #3
	ldr.w	r4, [r7, r1, lsl #3]
	ldr	r3, [r6, #4]
	cmp.w	r2, r4, lsr #2
	lsr.w	r8, r4, #2
	bls	.LBB9_4
	lsls	r6, r4, #30
	bmi	.LBB9_3
	add.w	r12, r8, r1
	ldr.w	r9, [r7, r12, lsl #3]
	lsls.w	r6, r9, #31
	bne	.LBB9_8
.LBB9_3:
	mov.w	r9, #0
	mov.w	r12, #0
	b	.LBB9_9
.LBB9_4:
	ldrd	lr, r12, [r5, #8]
	and.w	r7, lr, r12
	adds	r7, #1
	beq	.LBB9_14
	movs	r7, #0
	strd	r7, r7, [r6, #16]
	adds	r6, r2, #4
	cmp	r8, r6
	mov	r6, r8
	blo	.LBB9_7
	mov	r6, r2
	mov	r2, r4
	strd	lr, r12, [sp, #8]
	str	r6, [sp]
	bl	tlsf_heap.refitting.split_off.5
.LBB9_7:
	ldrd	r1, r3, [r5, #8]
	ldr	r2, [r5, #16]
	sub.w	r0, r6, r8
	adds	r1, #1
	add	r0, r2
	adc	r2, r3, #0
	strd	r1, r2, [r5, #8]
	str	r0, [r5, #16]
	b	.LBB9_13
.LBB9_8:
	add.w	r7, r7, r12, lsl #3
	ldr.w	r12, [r7, #4]
.LBB9_9:
	add.w	r7, r8, r9, lsr #2
	cmp	r7, r2
	bhs	.LBB9_11
	movs	r0, #1
	movs	r1, #5
	add	sp, #28
	pop.w	{r4, r5, r6, r7, r8, r9, pc}
.LBB9_11:
	ldrd	r7, lr, [r5, #8]
	and.w	r6, r7, lr
	adds	r6, #1
	beq	.LBB9_14
	strd	r7, lr, [sp, #16]
	mov	r7, r2
	mov	r2, r4
	lsls	r6, r1, #3
	strd	r9, r12, [sp]
	str	r7, [sp, #8]
	bl	tlsf_heap.refitting.recut.5
	ldr	r1, [r5, #24]
	movs	r2, #0
	add	r1, r6
	strd	r2, r2, [r1, #16]
	ldrd	r1, r2, [r5, #16]
	sub.w	r0, r0, r8
	add	r0, r1
	cmp	r2, r0
	str	r0, [r5, #16]
	it	lo
	strlo	r0, [r5, #20]
	ldrd	r0, r1, [r5, #8]
	adds	r0, #1
	adc	r1, r1, #0
	strd	r0, r1, [r5, #8]
.LBB9_13:
	movs	r1, #0
	movs	r0, #0
	add	sp, #28
	pop.w	{r4, r5, r6, r7, r8, r9, pc}
.LBB9_14:
	movs	r1, #1
	movs	r0, #1
	add	sp, #28
	pop.w	{r4, r5, r6, r7, r8, r9, pc}
.Lfunc_end9:
	.size	tlsf_heap.heap.Heap.resize_live.5, .Lfunc_end9-tlsf_heap.heap.Heap.resize_live.5
	.cfi_endproc
	.section	.text.tlsf_heap.refitting.split_off.5,"ax",%progbits
	.p2align	2
	.type	tlsf_heap.refitting.split_off.5,%function
	.code	16
	.thumb_func
tlsf_heap.refitting.split_off.5:
	.cfi_startproc
	push.w	{r4, r5, r6, r7, r8, r9, r10, r11, lr}
	.cfi_def_cfa_offset 36
	.cfi_offset lr, -4
	.cfi_offset r11, -8
	.cfi_offset r10, -12
	.cfi_offset r9, -16
	.cfi_offset r8, -20
	.cfi_offset r7, -24
	.cfi_offset r6, -28
	.cfi_offset r5, -32
	.cfi_offset r4, -36
	sub	sp, #28
	.cfi_def_cfa_offset 64
	ldrd	r9, r8, [sp, #72]
	ldr.w	r12, [sp, #64]
	ldr	r7, [r0]
	lsls	r6, r2, #30
	bmi	.LBB10_2
	add.w	r4, r1, r2, lsr #2
	ldr.w	r6, [r7, r4, lsl #3]
	lsls	r5, r6, #31
	bne	.LBB10_7
.LBB10_2:
	orr	r4, r2, #1
	lsrs	r2, r2, #2
	sub.w	r6, r4, r12, lsl #2
	str	r2, [sp, #24]
	subs	r2, r4, r6
	sbc	r3, r3, #0
	add.w	r4, r7, r1, lsl #3
	str.w	r2, [r7, r1, lsl #3]
	str	r3, [r4, #4]
	ldr	r3, [r0]
	add.w	lr, r12, r1
	add.w	r4, r3, lr, lsl #3
	str.w	r6, [r3, lr, lsl #3]
	strd	r1, r9, [r4, #4]
	str.w	r8, [r4, #12]
	ldr	r3, [r0, #24]
	mvn	r4, #7
	and	r7, lr, #63
	and.w	r4, r4, lr, lsr #3
	mov.w	r11, #1
	rsb.w	r12, r7, #32
	adds	r5, r3, r4
	ldr.w	r8, [r3, r4]
	subs.w	r10, r7, #32
	lsr.w	r2, r11, r12
	lsl.w	r7, r11, r7
	ldr.w	r9, [r5, #4]
	ldr.w	r12, [sp, #24]
	it	pl
	lslpl.w	r2, r11, r10
	it	pl
	movpl	r7, #0
	orr.w	r7, r7, r8
	orr.w	r2, r2, r9
	str	r7, [r3, r4]
	lsls	r3, r6, #30
	str	r2, [r5, #4]
	bmi	.LBB10_4
	ldr	r2, [r0]
	add	r1, r12
	add.w	r1, r2, r1, lsl #3
	str.w	lr, [r1, #4]
.LBB10_4:
	ldr	r1, [sp, #64]
	lsl.w	r3, lr, #3
	sub.w	r1, r12, r1
	orr	r2, r1, #32
	clz	r2, r2
	rsb.w	r2, r2, #26
	lsrs	r1, r2
	add.w	r7, r1, r2, lsl #5
	add.w	r2, r0, r7, lsl #2
	ldr.w	r5, [r2, #144]
	mov.w	r6, #-1
	cmp.w	r5, #-1
	str.w	lr, [r2, #144]
	ble	.LBB10_6
	ldr	r0, [r0]
	adds	r1, r0, r3
	add.w	r0, r0, r5, lsl #3
	strd	r5, r6, [r1, #16]
	str.w	lr, [r0, #20]
	add	sp, #28
	pop.w	{r4, r5, r6, r7, r8, r9, r10, r11, pc}
.LBB10_6:
	ldr	r2, [r0]
	movs	r5, #1
	add	r2, r3
	strd	r6, r6, [r2, #16]
	lsrs	r2, r7, #5
	ldr	r3, [r0, #56]
	add.w	r7, r0, r2, lsl #2
	lsl.w	r2, r5, r2
	orrs	r2, r3
	ldr	r6, [r7, #60]
	str	r2, [r0, #56]
	and	r0, r1, #31
	lsl.w	r0, r5, r0
	orrs	r0, r6
	str	r0, [r7, #60]
	add	sp, #28
	pop.w	{r4, r5, r6, r7, r8, r9, r10, r11, pc}
.LBB10_7:
	add.w	r7, r7, r4, lsl #3
	ldr	r7, [r7, #4]
	strd	r9, r8, [sp, #16]
	stm.w	sp, {r6, r7, r12}
	bl	tlsf_heap.refitting.recut.5
	add	sp, #28
	pop.w	{r4, r5, r6, r7, r8, r9, r10, r11, pc}
.Lfunc_end10:
	.size	tlsf_heap.refitting.split_off.5, .Lfunc_end10-tlsf_heap.refitting.split_off.5
	.cfi_endproc
	.section	.text.tlsf_heap.refitting.recut.5,"ax",%progbits
	.p2align	2
	.type	tlsf_heap.refitting.recut.5,%function
	.code	16
	.thumb_func
tlsf_heap.refitting.recut.5:
	.cfi_startproc
	push.w	{r4, r5, r6, r7, r8, r9, r10, r11, lr}
	.cfi_def_cfa_offset 36
	.cfi_offset lr, -4
	.cfi_offset r11, -8
	.cfi_offset r10, -12
	.cfi_offset r9, -16
	.cfi_offset r8, -20
	.cfi_offset r7, -24
	.cfi_offset r6, -28
	.cfi_offset r5, -32
	.cfi_offset r4, -36
	sub	sp, #12
	.cfi_def_cfa_offset 48
	ldr.w	r11, [sp, #48]
	mov	r4, r2
	lsr.w	r7, r11, #2
	mov	r6, r1
	ldr.w	r8, [sp, #56]
	movw	r10, #65528
	add.w	r2, r1, r2, lsr #2
	mov	r1, r7
	mov	r5, r3
	mov	r9, r0
	movt	r10, #8191
	bl	tlsf_heap.region.Region.remove.5
	adds.w	r4, r4, r11
	add.w	r1, r8, #4
	adc	r11, r5, #0
	lsrs	r0, r4, #2
	cmp.w	r1, r4, lsr #2
	add.w	r3, r6, r4, lsr #2
	str	r0, [sp, #8]
	str	r3, [sp, #4]
	bls	.LBB11_4
	subs	r3, r3, r7
	ldr.w	r7, [r9, #24]
	and.w	r5, r10, r3, lsr #3
	add.w	lr, r7, r5
	mvn	r1, #1
	mov.w	r12, #31
	ldr.w	r8, [r7, r5]
	ldr.w	r10, [lr, #4]
	tst.w	r3, #32
	it	ne
	movne.w	r1, #-1
	and	r2, r3, #31
	bic.w	r3, r12, r3
	mvn	r0, #-2147483648
	lsl.w	r1, r1, r2
	lsr.w	r0, r0, r3
	mov.w	r3, #-1
	orr.w	r1, r1, r0
	it	ne
	mvnne	r3, #1
	lsl.w	r2, r3, r2
	orrs	r0, r2
	and.w	r1, r1, r8
	and.w	r0, r0, r10
	str	r1, [r7, r5]
	lsls	r1, r4, #30
	str.w	r0, [lr, #4]
	bmi	.LBB11_3
	ldr.w	r0, [r9]
	ldr	r1, [sp, #4]
	add.w	r0, r0, r1, lsl #3
	str	r6, [r0, #4]
.LBB11_3:
	ldr.w	r1, [r9]
	subs	r0, r4, #1
	sbc	r2, r11, #0
	add.w	r3, r1, r6, lsl #3
	ldr.w	r8, [sp, #8]
	str.w	r0, [r1, r6, lsl #3]
	str	r2, [r3, #4]
	b	.LBB11_9
.LBB11_4:
	sub.w	lr, r4, r8, lsl #2
	ldr.w	r5, [r9]
	subs.w	r2, r4, lr
	sbc	r4, r11, #0
	add.w	r0, r5, r6, lsl #3
	str.w	r2, [r5, r6, lsl #3]
	str	r4, [r0, #4]
	ldr.w	r0, [r9]
	ldrd	r1, r12, [sp, #64]
	add.w	r2, r8, r6
	add.w	r5, r0, r2, lsl #3
	str.w	lr, [r0, r2, lsl #3]
	strd	r6, r1, [r5, #4]
	str.w	r12, [r5, #12]
	subs	r0, r3, r7
	ldr.w	r1, [r9, #24]
	and.w	r7, r10, r0, lsr #3
	adds	r6, r1, r7
	mvn	r5, #1
	movs	r4, #31
	ldr.w	r12, [r1, r7]
	ldr.w	r11, [r6, #4]
	tst.w	r0, #32
	it	ne
	movne.w	r5, #-1
	and	r3, r0, #31
	bic.w	r0, r4, r0
	mvn	r4, #-2147483648
	lsl.w	r5, r5, r3
	lsr.w	r0, r4, r0
	orr.w	r4, r5, r0
	mov.w	r5, #-1
	it	ne
	mvnne	r5, #1
	lsl.w	r3, r5, r3
	orrs	r0, r3
	and.w	r0, r0, r11
	and.w	r3, r12, r4
	str	r3, [r1, r7]
	str	r0, [r6, #4]
	ldr.w	r0, [r9, #24]
	and	r5, r2, #63
	and.w	r1, r10, r2, lsr #3
	movs	r7, #1
	rsb.w	r6, r5, #32
	adds	r3, r0, r1
	ldr.w	r12, [r0, r1]
	subs.w	r4, r5, #32
	lsr.w	r6, r7, r6
	ldr.w	r10, [r3, #4]
	it	pl
	lslpl.w	r6, r7, r4
	lsl.w	r4, r7, r5
	it	pl
	movpl	r4, #0
	orr.w	r7, r12, r4
	orr.w	r5, r10, r6
	str	r7, [r0, r1]
	lsls.w	r0, lr, #30
	str	r5, [r3, #4]
	bmi	.LBB11_6
	ldr.w	r0, [r9]
	ldr	r1, [sp, #4]
	add.w	r0, r0, r1, lsl #3
	str	r2, [r0, #4]
.LBB11_6:
	ldr	r0, [sp, #8]
	lsls	r1, r2, #3
	sub.w	r0, r0, r8
	orr	r3, r0, #32
	clz	r3, r3
	rsb.w	r3, r3, #26
	lsrs	r0, r3
	add.w	r3, r0, r3, lsl #5
	add.w	r5, r9, r3, lsl #2
	ldr.w	r6, [r5, #144]
	mov.w	r7, #-1
	cmp.w	r6, #-1
	str.w	r2, [r5, #144]
	ble	.LBB11_8
	ldr.w	r0, [r9]
	add	r1, r0
	add.w	r0, r0, r6, lsl #3
	strd	r6, r7, [r1, #16]
	str	r2, [r0, #20]
	b	.LBB11_9
.LBB11_8:
	ldr.w	r2, [r9]
	movs	r6, #1
	add	r1, r2
	strd	r7, r7, [r1, #16]
	lsrs	r1, r3, #5
	add.w	r3, r9, r1, lsl #2
	ldr.w	r2, [r9, #56]
	ldr	r7, [r3, #60]
	and	r0, r0, #31
	lsl.w	r1, r6, r1
	lsl.w	r0, r6, r0
	orrs	r1, r2
	orrs	r0, r7
	str.w	r1, [r9, #56]
	str	r0, [r3, #60]
.LBB11_9:
	mov	r0, r8
	add	sp, #12
	pop.w	{r4, r5, r6, r7, r8, r9, r10, r11, pc}
.Lfunc_end11:
	.size	tlsf_heap.refitting.recut.5, .Lfunc_end11-tlsf_heap.refitting.recut.5
	.cfi_endproc
	.section	.text.tlsf_heap.region.Region.remove.5,"ax",%progbits
	.p2align	2
	.type	tlsf_heap.region.Region.remove.5,%function
	.code	16
	.thumb_func
tlsf_heap.region.Region.remove.5:
	.cfi_startproc
	push	{r4, lr}
	.cfi_def_cfa_offset 8
	.cfi_offset lr, -4
	.cfi_offset r4, -8
	ldr	r3, [r0]
	add.w	r2, r3, r2, lsl #3
	ldrd	r12, r2, [r2, #16]
	cmp	r2, #0
	bmi	.LBB12_3
	add.w	r0, r3, r2, lsl #3
	ldr.w	lr, [r0, #20]
	adds.w	r1, r12, #1
	beq	.LBB12_5
	strd	r12, lr, [r0, #16]
	add.w	r0, r3, r12, lsl #3
	bic	r1, r2, #-2147483648
	str	r1, [r0, #20]
	pop	{r4, pc}
.LBB12_3:
	orr	r2, r1, #32
	clz	r2, r2
	rsb.w	r2, r2, #26
	lsr.w	lr, r1, r2
	adds.w	r1, r12, #1
	add.w	r2, lr, r2, lsl #5
	beq	.LBB12_6
	add.w	r1, r3, r12, lsl #3
	mov.w	r3, #-1
	add.w	r0, r0, r2, lsl #2
	str	r3, [r1, #20]
	str.w	r12, [r0, #144]
	pop	{r4, pc}
.LBB12_5:
	mov.w	r1, #-1
	strd	r1, lr, [r0, #16]
	pop	{r4, pc}
.LBB12_6:
	add.w	r1, r0, r2, lsl #2
	mov.w	r3, #-1
	lsrs	r4, r2, #5
	str.w	r3, [r1, #144]
	add.w	r3, r0, r4, lsl #2
	ldr	r1, [r3, #60]
	and	r2, lr, #31
	mov.w	r12, #1
	lsl.w	r2, r12, r2
	bics	r1, r2
	str	r1, [r3, #60]
	it	ne
	popne	{r4, pc}
.LBB12_7:
	ldr	r1, [r0, #56]
	lsl.w	r2, r12, r4
	bics	r1, r2
	str	r1, [r0, #56]
	pop	{r4, pc}
.Lfunc_end12:
	.size	tlsf_heap.region.Region.remove.5, .Lfunc_end12-tlsf_heap.region.Region.remove.5
	.cfi_endproc
	.section	.text.tlsf_heap.heap.Heap.release_live.5,"ax",%progbits
	.p2align	2
	.type	tlsf_heap.heap.Heap.release_live.5,%function
	.code	16
	.thumb_func
tlsf_heap.heap.Heap.release_live.5:
	.cfi_startproc
	push.w	{r4, r5, r6, r7, r8, r9, r10, lr}
	.cfi_def_cfa_offset 32
	.cfi_offset lr, -4
	.cfi_offset r10, -8
	.cfi_offset r9, -12
	.cfi_offset r8, -16
	.cfi_offset r7, -20
	.cfi_offset r6, -24
	.cfi_offset r5, -28
	.cfi_offset r4, -32
	sub	sp, #32
	.cfi_def_cfa_offset 64
	mov	r12, r0
	ldr	r1, [r1, #4]
	ldr	r7, [r0, #24]!
	add.w	r6, r7, r1, lsl #3
	ldr.w	r4, [r7, r1, lsl #3]
	ldr	r2, [r0, #-8]
	ldr.w	lr, [r6, #4]
	lsr.w	r8, r4, #2
	sub.w	r2, r2, r4, lsr #2
	lsls	r3, r4, #30
	str	r2, [r0, #-8]
	bmi	.LBB13_2
	add.w	r2, r8, r1
	add.w	r3, r7, r2, lsl #3
	ldr.w	r2, [r7, r2, lsl #3]
	ldr	r3, [r3, #4]
	b	.LBB13_3
.LBB13_2:
	movs	r2, #0
	movs	r3, #0
.LBB13_3:
	cmp	r1, #0
	itt	ne
	ldrne.w	r9, [r7, lr, lsl #3]
	lslsne.w	r5, r9, #31
	bne	.LBB13_8
	ldrd	r5, r9, [r12, #8]
	lsls	r7, r2, #31
	bne	.LBB13_7
	orr	r2, r4, #1
	strd	r2, lr, [r6]
	strd	r5, r9, [r6, #8]
	ldrd	r7, r2, [r12, #8]
	lsls	r3, r1, #3
	adds	r7, #1
	adc	r2, r2, #0
	strd	r7, r2, [r12, #8]
	orr	r2, r8, #32
	clz	r2, r2
	rsb.w	r7, r2, #26
	lsr.w	r2, r8, r7
	add.w	r7, r2, r7, lsl #5
	add.w	r4, r12, r7, lsl #2
	ldr.w	r5, [r4, #168]
	mov.w	r6, #-1
	cmp.w	r5, #-1
	str.w	r1, [r4, #168]
	ble	.LBB13_9
	ldr	r0, [r0]
	adds	r2, r0, r3
	add.w	r0, r0, r5, lsl #3
	strd	r5, r6, [r2, #16]
	str	r1, [r0, #20]
	add	sp, #32
	pop.w	{r4, r5, r6, r7, r8, r9, r10, pc}
.LBB13_7:
	adds	r6, r5, #1
	adc	r7, r9, #0
	strd	r6, r7, [r12, #8]
	strd	r4, lr, [sp]
	strd	r5, r9, [sp, #8]
	str	r1, [sp, #16]
	bl	tlsf_heap.fitting.merge_next.5
	add	sp, #32
	pop.w	{r4, r5, r6, r7, r8, r9, r10, pc}
.LBB13_8:
	add.w	r5, r7, lr, lsl #3
	ldrd	r6, r7, [r12, #8]
	ldr.w	r8, [r5, #4]
	adds.w	r10, r6, #1
	adc	r5, r7, #0
	strd	r10, r5, [r12, #8]
	strd	r4, lr, [sp, #24]
	strd	r9, r8, [sp]
	strd	r6, r7, [sp, #8]
	str	r1, [sp, #16]
	bl	tlsf_heap.fitting.merge_before.5
	add	sp, #32
	pop.w	{r4, r5, r6, r7, r8, r9, r10, pc}
.LBB13_9:
	ldr.w	r0, [r12, #24]
	add	r0, r3
	strd	r6, r6, [r0, #16]
	lsrs	r0, r7, #5
	ldr.w	r1, [r12, #80]
	movs	r6, #1
	add.w	r3, r12, r0, lsl #2
	lsl.w	r0, r6, r0
	orrs	r0, r1
	ldr	r7, [r3, #84]
	str.w	r0, [r12, #80]
	and	r0, r2, #31
	lsl.w	r0, r6, r0
	orrs	r0, r7
	str	r0, [r3, #84]
	add	sp, #32
	pop.w	{r4, r5, r6, r7, r8, r9, r10, pc}
.Lfunc_end13:
	.size	tlsf_heap.heap.Heap.release_live.5, .Lfunc_end13-tlsf_heap.heap.Heap.release_live.5
	.cfi_endproc
	.section	.text.tlsf_heap.fitting.merge_before.5,"ax",%progbits
	.p2align	2
	.type	tlsf_heap.fitting.merge_before.5,%function
	.code	16
	.thumb_func
tlsf_heap.fitting.merge_before.5:
	.cfi_startproc
	push.w	{r4, r5, r6, r7, r8, r9, r10, r11, lr}
	.cfi_def_cfa_offset 36
	.cfi_offset lr, -4
	.cfi_offset r11, -8
	.cfi_offset r10, -12
	.cfi_offset r9, -16
	.cfi_offset r8, -20
	.cfi_offset r7, -24
	.cfi_offset r6, -28
	.cfi_offset r5, -32
	.cfi_offset r4, -36
	sub	sp, #20
	.cfi_def_cfa_offset 56
	ldr	r1, [sp, #68]
	ldr	r4, [sp, #80]
	str	r1, [sp, #16]
	add	r7, sp, #56
	ldm	r7, {r5, r6, r7}
	ldr.w	r11, [sp, #72]
	lsls	r1, r2, #31
	bne	.LBB14_3
	orr	r2, r4, #1
	adds	r2, r2, r5
	adc	r3, r6, #0
	subs	r6, r2, #1
	ldr	r2, [r0]
	sub.w	r4, r11, r5, lsr #2
	add.w	r2, r2, r4, lsl #3
	ldr	r2, [r2, #20]
	movw	r10, #65528
	movt	r10, #8191
	lsr.w	r1, r5, #2
	sbc	r3, r3, #0
	cmp	r2, #0
	lsl.w	r8, r4, #3
	str	r3, [sp, #12]
	bmi	.LBB14_4
	lsr.w	r9, r6, #2
	b	.LBB14_8
.LBB14_3:
	ldr	r1, [sp, #84]
	str.w	r11, [sp, #72]
	str	r7, [sp, #64]
	str	r5, [sp, #56]
	strd	r4, r1, [sp, #80]
	ldr	r1, [sp, #16]
	str	r1, [sp, #68]
	str	r6, [sp, #60]
	add	sp, #20
	pop.w	{r4, r5, r6, r7, r8, r9, r10, r11, lr}
	b	tlsf_heap.fitting.merge_both.5
.LBB14_4:
	orr	r2, r1, #32
	clz	r2, r2
	rsb.w	r2, r2, #26
	lsr.w	r3, r1, r2
	add.w	r2, r3, r2, lsl #5
	movs	r3, #32
	orr.w	r3, r3, r6, lsr #2
	clz	r3, r3
	lsr.w	r9, r6, #2
	rsb.w	r3, r3, #26
	lsr.w	r5, r9, r3
	add.w	r3, r5, r3, lsl #5
	cmp	r2, r3
	bne	.LBB14_8
	ldr	r1, [r0, #24]
	and.w	r2, r10, r11, lsr #3
	add.w	r10, r1, r2
	ldr	r3, [r1, r2]
	ldr.w	r5, [r10, #4]
	str	r3, [sp, #4]
	str	r5, [sp, #8]
	movs	r5, #31
	bic.w	r5, r5, r11
	mvn	r12, #-2147483648
	lsr.w	r12, r12, r5
	mvn	r5, #1
	tst.w	r11, #32
	it	ne
	movne.w	r5, #-1
	and	r11, r11, #31
	lsl.w	r5, r5, r11
	orr.w	r3, r5, r12
	mov.w	lr, #-1
	str	r3, [sp]
	it	ne
	mvnne	lr, #1
	lsl.w	r5, lr, r11
	ldr	r3, [sp, #8]
	orr.w	r5, r5, r12
	and.w	r12, r3, r5
	ldrd	r5, r3, [sp]
	str.w	r12, [r10, #4]
	ands	r3, r5
	str	r3, [r1, r2]
	ldr	r1, [r0]
	add.w	r2, r1, r8
	str.w	r6, [r1, r8]
	ldr	r1, [sp, #12]
	strd	r1, r7, [r2, #4]
	lsls	r1, r6, #30
	ldr	r1, [sp, #16]
	str	r1, [r2, #12]
	bmi	.LBB14_7
	ldr	r0, [r0]
	add.w	r1, r9, r4
	add.w	r0, r0, r1, lsl #3
	str	r4, [r0, #4]
.LBB14_7:
	add	sp, #20
	pop.w	{r4, r5, r6, r7, r8, r9, r10, r11, pc}
.LBB14_8:
	mov	r2, r4
	mov	r5, r0
	bl	tlsf_heap.region.Region.remove.5
	ldr	r0, [r5, #24]
	and.w	r1, r10, r11, lsr #3
	ldr	r3, [r0, r1]
	mov	r10, r6
	movs	r6, #31
	bic.w	r6, r6, r11
	mov	r12, r4
	mvn	r4, #-2147483648
	adds	r2, r0, r1
	str	r3, [sp, #4]
	str	r7, [sp, #8]
	lsr.w	r6, r4, r6
	mvn	r4, #1
	mov.w	r7, #-1
	ldr.w	lr, [r2, #4]
	tst.w	r11, #32
	it	ne
	movne.w	r4, #-1
	and	r3, r11, #31
	it	ne
	mvnne	r7, #1
	lsls	r4, r3
	lsl.w	r3, r7, r3
	ldr	r7, [sp, #4]
	orrs	r4, r6
	orrs	r3, r6
	and.w	r3, r3, lr
	ands	r7, r4
	str	r7, [r0, r1]
	str	r3, [r2, #4]
	ldr	r0, [r5]
	add.w	r1, r0, r8
	str.w	r10, [r0, r8]
	ldr	r0, [sp, #12]
	str	r0, [r1, #4]
	ldr	r0, [sp, #8]
	str	r0, [r1, #8]
	lsls.w	r0, r10, #30
	ldr	r0, [sp, #16]
	str	r0, [r1, #12]
	bmi	.LBB14_10
	ldr	r0, [r5]
	add.w	r1, r9, r12
	add.w	r0, r0, r1, lsl #3
	str.w	r12, [r0, #4]
.LBB14_10:
	orr	r0, r9, #32
	clz	r0, r0
	rsb.w	r1, r0, #26
	lsr.w	r0, r9, r1
	add.w	r1, r0, r1, lsl #5
	add.w	r7, r5, r1, lsl #2
	ldr.w	r3, [r7, #144]
	mov.w	r2, #-1
	cmp.w	r3, #-1
	str.w	r12, [r7, #144]
	ble	.LBB14_12
	ldr	r0, [r5]
	add.w	r1, r0, r8
	add.w	r0, r0, r3, lsl #3
	strd	r3, r2, [r1, #16]
	str.w	r12, [r0, #20]
	add	sp, #20
	pop.w	{r4, r5, r6, r7, r8, r9, r10, r11, pc}
.LBB14_12:
	ldr	r3, [r5]
	lsrs	r1, r1, #5
	add	r3, r8
	strd	r2, r2, [r3, #16]
	add.w	r3, r5, r1, lsl #2
	ldr	r2, [r5, #56]
	ldr	r7, [r3, #60]
	movs	r6, #1
	and	r0, r0, #31
	lsl.w	r1, r6, r1
	lsl.w	r0, r6, r0
	orrs	r1, r2
	orrs	r0, r7
	str	r1, [r5, #56]
	str	r0, [r3, #60]
	add	sp, #20
	pop.w	{r4, r5, r6, r7, r8, r9, r10, r11, pc}
.Lfunc_end14:
	.size	tlsf_heap.fitting.merge_before.5, .Lfunc_end14-tlsf_heap.fitting.merge_before.5
	.cfi_endproc
	.section	.text.tlsf_heap.fitting.merge_both.5,"ax",%progbits
	.p2align	2
	.type	tlsf_heap.fitting.merge_both.5,%function
	.code	16
	.thumb_func
tlsf_heap.fitting.merge_both.5:
	.cfi_startproc
	push.w	{r4, r5, r6, r7, r8, r9, r10, r11, lr}
	.cfi_def_cfa_offset 36
	.cfi_offset lr, -4
	.cfi_offset r11, -8
	.cfi_offset r10, -12
	.cfi_offset r9, -16
	.cfi_offset r8, -20
	.cfi_offset r7, -24
	.cfi_offset r6, -28
	.cfi_offset r5, -32
	.cfi_offset r4, -36
	sub	sp, #4
	.cfi_def_cfa_offset 40
	ldr.w	r8, [sp, #64]
	ldr	r7, [sp, #56]
	mov	r6, r2
	ldrd	r11, r10, [sp, #40]
	lsrs	r1, r2, #2
	add.w	r2, r7, r8, lsr #2
	mov	r4, r0
	bl	tlsf_heap.region.Region.remove.5
	sub.w	r5, r7, r11, lsr #2
	lsr.w	r1, r11, #2
	mov	r0, r4
	mov	r2, r5
	bl	tlsf_heap.region.Region.remove.5
	add.w	r0, r8, r6
	adds.w	r0, r0, r11
	adc	r1, r10, #0
	subs.w	r12, r0, #1
	ldr	r2, [r4, #24]
	mvn	r10, #7
	sbc	r9, r1, #0
	and.w	r1, r10, r7, lsr #3
	mov.w	lr, #31
	mvn	r0, #1
	ldr.w	r11, [r2, r1]
	bic.w	r3, lr, r7
	mvn	r8, #-2147483648
	tst.w	r7, #32
	it	ne
	movne.w	r0, #-1
	and	r7, r7, #31
	lsr.w	r3, r8, r3
	lsl.w	r0, r0, r7
	orr.w	r0, r0, r3
	and.w	r0, r0, r11
	str	r0, [r2, r1]
	add.w	r0, r2, r1
	mov.w	r1, #-1
	it	ne
	mvnne	r1, #1
	lsls	r1, r7
	ldr	r2, [r0, #4]
	orrs	r1, r3
	ands	r1, r2
	add.w	r11, r5, r12, lsr #2
	str	r1, [r0, #4]
	sub.w	r1, r11, r6, lsr #2
	ldr	r3, [r4, #24]
	mvn	r0, #1
	and.w	r6, r10, r1, lsr #3
	bic.w	r7, lr, r1
	ldr	r2, [r3, r6]
	tst.w	r1, #32
	it	ne
	movne.w	r0, #-1
	and	r1, r1, #31
	lsr.w	r7, r8, r7
	lsl.w	r0, r0, r1
	orr.w	r0, r0, r7
	and.w	r0, r0, r2
	mov.w	r2, #-1
	str	r0, [r3, r6]
	add.w	r0, r3, r6
	it	ne
	mvnne	r2, #1
	lsl.w	r1, r2, r1
	ldr	r2, [r0, #4]
	orrs	r1, r7
	ands	r1, r2
	str	r1, [r0, #4]
	ldr	r0, [r4]
	ldr	r2, [sp, #48]
	add.w	r1, r0, r5, lsl #3
	str	r2, [r1, #8]
	ldr	r2, [sp, #52]
	str.w	r12, [r0, r5, lsl #3]
	lsls.w	r0, r12, #30
	lsr.w	r0, r12, #2
	str.w	r9, [r1, #4]
	str	r2, [r1, #12]
	bmi	.LBB15_2
	ldr	r1, [r4]
	add.w	r1, r1, r11, lsl #3
	str	r5, [r1, #4]
.LBB15_2:
	orr	r2, r0, #32
	clz	r2, r2
	rsb.w	r2, r2, #26
	lsrs	r0, r2
	add.w	r2, r0, r2, lsl #5
	add.w	r6, r4, r2, lsl #2
	ldr.w	r7, [r6, #144]
	lsls	r1, r5, #3
	mov.w	r3, #-1
	cmp.w	r7, #-1
	str.w	r5, [r6, #144]
	ble	.LBB15_4
	ldr	r0, [r4]
	add	r1, r0
	add.w	r0, r0, r7, lsl #3
	strd	r7, r3, [r1, #16]
	str	r5, [r0, #20]
	add	sp, #4
	pop.w	{r4, r5, r6, r7, r8, r9, r10, r11, pc}
.LBB15_4:
	ldr	r7, [r4]
	movs	r6, #1
	add	r1, r7
	strd	r3, r3, [r1, #16]
	lsrs	r1, r2, #5
	add.w	r3, r4, r1, lsl #2
	ldr	r2, [r4, #56]
	ldr	r7, [r3, #60]
	and	r0, r0, #31
	lsl.w	r1, r6, r1
	lsl.w	r0, r6, r0
	orrs	r1, r2
	orrs	r0, r7
	str	r1, [r4, #56]
	str	r0, [r3, #60]
	add	sp, #4
	pop.w	{r4, r5, r6, r7, r8, r9, r10, r11, pc}
.Lfunc_end15:
	.size	tlsf_heap.fitting.merge_both.5, .Lfunc_end15-tlsf_heap.fitting.merge_both.5
	.cfi_endproc
	.section	.text.tlsf_heap.fitting.merge_next.5,"ax",%progbits
	.p2align	2
	.type	tlsf_heap.fitting.merge_next.5,%function
	.code	16
	.thumb_func
tlsf_heap.fitting.merge_next.5:
	.cfi_startproc
	push.w	{r4, r5, r6, r7, r8, r9, r10, r11, lr}
	.cfi_def_cfa_offset 36
	.cfi_offset lr, -4
	.cfi_offset r11, -8
	.cfi_offset r10, -12
	.cfi_offset r9, -16
	.cfi_offset r8, -20
	.cfi_offset r7, -24
	.cfi_offset r6, -28
	.cfi_offset r5, -32
	.cfi_offset r4, -36
	sub	sp, #4
	.cfi_def_cfa_offset 40
	ldr.w	r11, [sp, #56]
	ldrd	r7, r10, [sp, #40]
	mov	r5, r2
	ldrd	r9, r8, [sp, #48]
	lsrs	r1, r2, #2
	add.w	r2, r11, r7, lsr #2
	mov	r4, r0
	bl	tlsf_heap.region.Region.remove.5
	adds	r1, r5, r7
	add.w	lr, r11, r1, lsr #2
	sub.w	r7, lr, r5, lsr #2
	mov.w	r0, #31
	ldr	r3, [r4, #24]
	mvn	r5, #7
	bic.w	r0, r0, r7
	mvn	r6, #-2147483648
	and.w	r5, r5, r7, lsr #3
	lsr.w	r0, r6, r0
	mvn	r6, #1
	adc	r12, r10, #0
	ldr	r2, [r3, r5]
	tst.w	r7, #32
	it	ne
	movne.w	r6, #-1
	and	r7, r7, #31
	lsl.w	r6, r6, r7
	orr.w	r6, r6, r0
	and.w	r2, r2, r6
	str	r2, [r3, r5]
	add.w	r2, r3, r5
	mov.w	r3, #-1
	it	ne
	mvnne	r3, #1
	lsls	r3, r7
	ldr	r5, [r2, #4]
	orrs	r0, r3
	ands	r0, r5
	str	r0, [r2, #4]
	ldr	r0, [r4]
	add.w	r2, r0, r11, lsl #3
	strd	r12, r9, [r2, #4]
	str.w	r8, [r2, #12]
	str.w	r1, [r0, r11, lsl #3]
	lsls	r0, r1, #30
	lsr.w	r2, r1, #2
	bmi	.LBB16_2
	ldr	r0, [r4]
	add.w	r0, r0, lr, lsl #3
	str.w	r11, [r0, #4]
.LBB16_2:
	orr	r0, r2, #32
	clz	r0, r0
	rsb.w	r3, r0, #26
	lsr.w	r0, r2, r3
	add.w	r2, r0, r3, lsl #5
	add.w	r6, r4, r2, lsl #2
	ldr.w	r7, [r6, #144]
	lsl.w	r1, r11, #3
	mov.w	r3, #-1
	cmp.w	r7, #-1
	str.w	r11, [r6, #144]
	ble	.LBB16_4
	ldr	r0, [r4]
	add	r1, r0
	add.w	r0, r0, r7, lsl #3
	strd	r7, r3, [r1, #16]
	str.w	r11, [r0, #20]
	add	sp, #4
	pop.w	{r4, r5, r6, r7, r8, r9, r10, r11, pc}
.LBB16_4:
	ldr	r7, [r4]
	movs	r6, #1
	add	r1, r7
	strd	r3, r3, [r1, #16]
	lsrs	r1, r2, #5
	add.w	r3, r4, r1, lsl #2
	ldr	r2, [r4, #56]
	ldr	r7, [r3, #60]
	and	r0, r0, #31
	lsl.w	r1, r6, r1
	lsl.w	r0, r6, r0
	orrs	r1, r2
	orrs	r0, r7
	str	r1, [r4, #56]
	str	r0, [r3, #60]
	add	sp, #4
	pop.w	{r4, r5, r6, r7, r8, r9, r10, r11, pc}
.Lfunc_end16:
	.size	tlsf_heap.fitting.merge_next.5, .Lfunc_end16-tlsf_heap.fitting.merge_next.5
	.cfi_endproc
	.section	.text.tlsf_c.any_heap.AnyHeap.block_at,"ax",%progbits
	.p2align	2
	.type	tlsf_c.any_heap.AnyHeap.block_at,%function
	.code	16
	.thumb_func
tlsf_c.any_heap.AnyHeap.block_at:
	.cfi_startproc
	push	{r4, r5, r6, lr}
	.cfi_def_cfa_offset 16
	.cfi_offset lr, -4
	.cfi_offset r6, -8
	.cfi_offset r5, -12
	.cfi_offset r4, -16
	ldrb	r5, [r1, #8]
	ldr	r3, [r1, #48]
	cmp	r5, #0
	cmp	r2, r3
	bhs	.LBB17_4
	ldr	r3, [r1, #64]
	mvn	r5, #7
	and.w	r5, r5, r2, lsr #3
	adds	r4, r3, r5
	ldr	r3, [r3, r5]
	ldr	r4, [r4, #4]
	and	r5, r2, #63
	lsr.w	r12, r3, r5
	rsb.w	r3, r5, #32
	lsl.w	r3, r4, r3
	orr.w	r3, r3, r12
	subs	r5, #32
	it	pl
	lsrpl.w	r3, r4, r5
	lsls	r3, r3, #31
	beq	.LBB17_4
	ldr	r1, [r1, #40]
	add.w	r3, r1, r2, lsl #3
	ldr.w	r5, [r1, r2, lsl #3]
	ldrd	lr, r1, [r3, #8]
	lsls	r4, r5, #31
	lsr.w	r12, r5, #2
	bne	.LBB17_7
	ldr	r5, [r3, #16]
	movs	r3, #1
	movs	r4, #1
	b	.LBB17_6
.LBB17_4:
	movs	r3, #0
	movs	r2, #0
	mov.w	r12, #0
	movs	r4, #0
	mov.w	lr, #0
	movs	r1, #0
.LBB17_5:
	movs	r5, #0
.LBB17_6:
	movs	r6, #0
	str	r6, [r0, #4]
	str	r3, [r0]
	str	r2, [r0, #8]
	str.w	r12, [r0, #12]
	str	r6, [r0, #20]
	str	r4, [r0, #16]
	str.w	lr, [r0, #24]
	str	r1, [r0, #28]
	str	r5, [r0, #32]
	str	r6, [r0, #36]
	pop	{r4, r5, r6, pc}
.LBB17_7:
	movs	r4, #0
	movs	r3, #1
	b	.LBB17_5
.Lfunc_end17:
	.size	tlsf_c.any_heap.AnyHeap.block_at, .Lfunc_end17-tlsf_c.any_heap.AnyHeap.block_at
	.cfi_endproc
	.section	.text.tlsf_heap.check.examine,"ax",%progbits
	.p2align	2
	.type	tlsf_heap.check.examine,%function
	.code	16
	.thumb_func
tlsf_heap.check.examine:
	.cfi_startproc
	push.w	{r4, r5, r6, r7, r8, r9, r10, r11, lr}
	.cfi_def_cfa_offset 36
	.cfi_offset lr, -4
	.cfi_offset r11, -8
	.cfi_offset r10, -12
	.cfi_offset r9, -16
	.cfi_offset r8, -20
	.cfi_offset r7, -24
	.cfi_offset r6, -28
	.cfi_offset r5, -32
	.cfi_offset r4, -36
	ldr	r7, [r0, #8]
	subs	r4, r7, #4
	cmp	r1, r4
	bhi.w	.LBB18_27
	ldr.w	r9, [r0, #24]
	mvn	r2, #7
	and.w	r2, r2, r1, lsr #3
	add.w	r6, r9, r2
	ldr	r6, [r6, #4]
	ldr.w	r2, [r9, r2]
	and	r5, r1, #63
	rsb.w	r3, r5, #32
	lsrs	r2, r5
	lsl.w	r3, r6, r3
	orrs	r2, r3
	subs.w	r3, r5, #32
	it	pl
	lsrpl.w	r2, r6, r3
	lsls	r2, r2, #31
	beq.w	.LBB18_27
	ldr.w	lr, [r0]
	movs	r2, #0
	ldr.w	r6, [lr, r1, lsl #3]
	cmp	r6, #16
	blo	.LBB18_17
	add.w	r12, r1, r6, lsr #2
	cmp	r12, r7
	mov.w	r0, #0
	bhi.w	.LBB18_24
	sub.w	r2, r12, r7
	clz	r2, r2
	and	r0, r6, #2
	lsrs	r2, r2, #5
	teq.w	r2, r0, lsr #1
	bne.w	.LBB18_27
	add.w	r10, lr, r1, lsl #3
	ldr.w	r0, [r10, #4]
	movw	r8, #65528
	movt	r8, #8191
	cbz	r1, .LBB18_9
	cmp	r4, r0
	blo.w	.LBB18_27
	and.w	r2, r8, r0, lsr #3
	add.w	r3, r9, r2
	ldr.w	r2, [r9, r2]
	ldr	r3, [r3, #4]
	and	r5, r0, #63
	lsr.w	r11, r2, r5
	rsb.w	r2, r5, #32
	lsl.w	r2, r3, r2
	orr.w	r2, r2, r11
	subs	r5, #32
	it	pl
	lsrpl.w	r2, r3, r5
	lsls	r2, r2, #31
	beq.w	.LBB18_27
	ldr.w	r2, [lr, r0, lsl #3]
	add.w	r0, r0, r2, lsr #2
	cmp	r0, r1
	beq	.LBB18_10
	b	.LBB18_27
.LBB18_9:
	adds	r0, #1
	bne.w	.LBB18_27
.LBB18_10:
	cmp	r12, r7
	and	r7, r6, #1
	bhs	.LBB18_15
	cmp	r12, r4
	bhi	.LBB18_27
	and.w	r0, r8, r12, lsr #3
	add.w	r2, r9, r0
	ldr	r2, [r2, #4]
	ldr.w	r0, [r9, r0]
	and	r3, r12, #63
	rsb.w	r5, r3, #32
	lsrs	r0, r3
	lsl.w	r5, r2, r5
	orrs	r0, r5
	subs	r3, #32
	it	pl
	lsrpl.w	r0, r2, r3
	lsls	r0, r0, #31
	beq	.LBB18_27
	add.w	r0, lr, r12, lsl #3
	ldr	r0, [r0, #4]
	movs	r2, #0
	cmp	r1, r0
	bne	.LBB18_17
	ldr.w	r0, [lr, r12, lsl #3]
	ands	r0, r7
	mov.w	r0, #0
	bne	.LBB18_24
.LBB18_15:
	ldrd	r2, r0, [r10, #16]
	cbnz	r7, .LBB18_18
	lsrs	r1, r6, #2
	mvn	r7, #23
	lsrs	r3, r1, #29
	adds.w	r1, r7, r1, lsl #3
	sbc	r3, r3, #0
	subs	r1, r1, r2
	sbcs.w	r0, r3, r0
	bhs	.LBB18_23
	b	.LBB18_27
.LBB18_17:
	movs	r0, #0
	mov	r1, r2
	pop.w	{r4, r5, r6, r7, r8, r9, r10, r11, pc}
.LBB18_18:
	adds	r3, r2, #1
	beq	.LBB18_22
	cmp	r4, r2
	blo	.LBB18_27
	and.w	r3, r8, r2, lsr #3
	add.w	r5, r9, r3
	ldr	r5, [r5, #4]
	ldr.w	r3, [r9, r3]
	and	r6, r2, #63
	rsb.w	r7, r6, #32
	lsrs	r3, r6
	lsl.w	r7, r5, r7
	orrs	r3, r7
	subs	r6, #32
	it	pl
	lsrpl.w	r3, r5, r6
	lsls	r3, r3, #31
	itt	ne
	ldrbne.w	r3, [lr, r2, lsl #3]
	lslsne.w	r3, r3, #31
	beq	.LBB18_27
	add.w	r2, lr, r2, lsl #3
	ldr	r2, [r2, #20]
	cmp	r1, r2
	bne	.LBB18_27
.LBB18_22:
	adds	r2, r0, #1
	bne	.LBB18_25
.LBB18_23:
	movs	r0, #1
	mov	r2, r12
.LBB18_24:
	mov	r1, r2
	pop.w	{r4, r5, r6, r7, r8, r9, r10, r11, pc}
.LBB18_25:
	cmp	r4, r0
	blo	.LBB18_27
	and.w	r2, r8, r0, lsr #3
	add.w	r3, r9, r2
	ldr	r3, [r3, #4]
	ldr.w	r2, [r9, r2]
	and	r4, r0, #63
	rsb.w	r5, r4, #32
	lsrs	r2, r4
	lsl.w	r5, r3, r5
	orrs	r2, r5
	subs	r4, #32
	it	pl
	lsrpl.w	r2, r3, r4
	lsls	r2, r2, #31
	itt	ne
	ldrbne.w	r2, [lr, r0, lsl #3]
	lslsne.w	r2, r2, #31
	bne	.LBB18_28
.LBB18_27:
	movs	r1, #0
	movs	r0, #0
	pop.w	{r4, r5, r6, r7, r8, r9, r10, r11, pc}
.LBB18_28:
	add.w	r0, lr, r0, lsl #3
	ldr	r0, [r0, #16]
	cmp	r1, r0
	beq	.LBB18_23
	b	.LBB18_27
.Lfunc_end18:
	.size	tlsf_heap.check.examine, .Lfunc_end18-tlsf_heap.check.examine
	.cfi_endproc
	.section	.text.tlsf_heap.around.check_around,"ax",%progbits
	.p2align	2
	.type	tlsf_heap.around.check_around,%function
	.code	16
	.thumb_func
tlsf_heap.around.check_around:
	.cfi_startproc
	push.w	{r4, r5, r6, r7, r8, lr}
	.cfi_def_cfa_offset 24
	.cfi_offset lr, -4
	.cfi_offset r8, -8
	.cfi_offset r7, -12
	.cfi_offset r6, -16
	.cfi_offset r5, -20
	.cfi_offset r4, -24
	ldr	r7, [r1, #8]
	mov	r4, r2
	subs	r2, r7, #4
	cmp	r4, r2
	bhi	.LBB19_7
	ldr	r2, [r1, #24]
	mvn	r3, #7
	and.w	r3, r3, r4, lsr #3
	adds	r6, r2, r3
	ldr	r6, [r6, #4]
	ldr	r2, [r2, r3]
	and	r3, r4, #63
	rsb.w	r5, r3, #32
	lsrs	r2, r3
	lsl.w	r5, r6, r5
	orrs	r2, r5
	subs	r3, #32
	it	pl
	lsrpl.w	r2, r6, r3
	lsls	r2, r2, #31
	beq	.LBB19_7
	mov	r8, r0
	mov	r6, r1
	mov	r0, r1
	mov	r1, r4
	bl	tlsf_heap.check.examine
	uxtb	r0, r0
	cmp	r0, #1
	bne	.LBB19_8
	mov	r5, r1
	cbz	r4, .LBB19_5
	ldr	r1, [r6]
	mov	r0, r6
	add.w	r1, r1, r4, lsl #3
	ldr	r4, [r1, #4]
	mov	r1, r4
	bl	tlsf_heap.check.examine
	uxtb	r0, r0
	cmp	r0, #1
	bne	.LBB19_8
.LBB19_5:
	cmp	r5, r7
	bne	.LBB19_9
	movs	r2, #0
	movs	r1, #1
	movs	r4, #0
	b	.LBB19_10
.LBB19_7:
	movs	r1, #0
	movs	r2, #0
	movs	r4, #0
	b	.LBB19_11
.LBB19_8:
	movs	r1, #1
	movs	r2, #1
	b	.LBB19_10
.LBB19_9:
	mov	r0, r6
	mov	r1, r5
	bl	tlsf_heap.check.examine
	uxtb	r0, r0
	subs	r2, r0, #1
	it	ne
	movne	r2, #1
	movs	r1, #1
	mov	r4, r5
.LBB19_10:
	mov	r0, r8
.LBB19_11:
	str	r1, [r0]
	str	r2, [r0, #4]
	str	r4, [r0, #8]
	pop.w	{r4, r5, r6, r7, r8, pc}
.Lfunc_end19:
	.size	tlsf_heap.around.check_around, .Lfunc_end19-tlsf_heap.around.check_around
	.cfi_endproc
	.section	.text.tlsf_post.take_end.TakeEnd.take_slice,"ax",%progbits
	.p2align	2
	.type	tlsf_post.take_end.TakeEnd.take_slice,%function
	.code	16
	.thumb_func
tlsf_post.take_end.TakeEnd.take_slice:
	.cfi_startproc
	push.w	{r4, r5, r6, r7, r8, r9, r10, r11, lr}
	.cfi_def_cfa_offset 36
	.cfi_offset lr, -4
	.cfi_offset r11, -8
	.cfi_offset r10, -12
	.cfi_offset r9, -16
	.cfi_offset r8, -20
	.cfi_offset r7, -24
	.cfi_offset r6, -28
	.cfi_offset r5, -32
	.cfi_offset r4, -36
	sub	sp, #52
	.cfi_def_cfa_offset 88
	mov	r11, r0
	ldrd	r8, r5, [r0, #24]
	ldr	r0, [r0, #32]
	mov	r9, r2
	ldr.w	r2, [r11, #36]
	mov	r10, r3
	subs.w	r3, r0, r8
	sbcs.w	r3, r2, r5
	mov	r6, r1
	bhs	.LBB20_2
	ldrd	r1, r3, [r11, #16]
	subs.w	r0, r0, r8
	lsl.w	r3, r3, #1
	orr.w	r3, r3, r1, lsr #31
	sbcs	r2, r5
	adds.w	r0, r0, r1, lsl #1
	adc.w	r1, r2, r3
	b	.LBB20_3
.LBB20_2:
	subs.w	r0, r0, r8
	sbc.w	r1, r2, r5
.LBB20_3:
	subs.w	r0, r0, r9
	sbcs.w	r0, r1, r10
	bhs	.LBB20_8
	ldr.w	r0, [r11]
	adds	r0, #128
	movs	r1, #5
	bl	__atomic_load_8
	ldrd	r8, r5, [r11, #24]
	strd	r0, r1, [r11, #32]
	subs.w	r2, r0, r8
	sbcs.w	r2, r1, r5
	bhs	.LBB20_6
	ldrd	r2, r3, [r11, #16]
	subs.w	r0, r0, r8
	lsl.w	r3, r3, #1
	orr.w	r3, r3, r2, lsr #31
	sbcs	r1, r5
	adds.w	r0, r0, r2, lsl #1
	adcs	r1, r3
	b	.LBB20_7
.LBB20_6:
	subs.w	r0, r0, r8
	sbcs	r1, r5
.LBB20_7:
	subs.w	r2, r0, r9
	sbcs.w	r2, r1, r10
	itt	lo
	movlo	r10, r1
	movlo	r9, r0
.LBB20_8:
	orrs.w	r0, r9, r10
	beq.w	.LBB20_28
	ldrd	r4, r7, [r11, #16]
	mov	r2, r10
	subs.w	r10, r8, r4
	sbcs.w	r0, r5, r7
	str	r5, [sp, #36]
	it	lo
	movlo	r0, r5
	str.w	r8, [sp, #40]
	it	lo
	movlo	r10, r8
	subs.w	r12, r4, r10
	sbc.w	lr, r7, r0
	subs.w	r1, r12, r9
	sbcs.w	r1, lr, r2
	mov	r8, r2
	mov	r5, r9
	itt	lo
	movlo	r8, lr
	movlo	r5, r12
	subs.w	r1, r9, r5
	str	r1, [sp, #24]
	eor.w	r0, r0, r7
	eor.w	r1, r4, r10
	sbc.w	r3, r2, r8
	orrs	r0, r1
	str.w	r9, [sp, #48]
	str	r2, [sp, #44]
	str	r7, [sp, #28]
	str	r4, [sp, #32]
	beq.w	.LBB20_18
	subs	r0, r5, #4
	sbcs	r0, r8, #0
	and	r4, r5, #3
	strd	lr, r12, [sp, #8]
	strd	r5, r3, [sp, #16]
	bhs	.LBB20_12
	movs	r7, #0
	b	.LBB20_15
.LBB20_12:
	str	r4, [sp, #4]
	bic	r4, r5, #3
	movs	r7, #0
	mov.w	r9, #0
	.p2align	2
.LBB20_13:
	add.w	r0, r7, r10
	ldr.w	r1, [r11, #8]
	add.w	r0, r0, r0, lsl #1
	add.w	r1, r1, r0, lsl #3
	add.w	r0, r7, r7, lsl #1
	add.w	r0, r6, r0, lsl #3
	movs	r2, #24
	bl	tlsf_memory_move
	orr	r0, r7, #1
	add.w	r1, r0, r10
	ldr.w	r2, [r11, #8]
	add.w	r1, r1, r1, lsl #1
	add.w	r0, r0, r0, lsl #1
	add.w	r1, r2, r1, lsl #3
	add.w	r0, r6, r0, lsl #3
	movs	r2, #24
	bl	tlsf_memory_move
	orr	r0, r7, #2
	add.w	r1, r0, r10
	ldr.w	r2, [r11, #8]
	add.w	r1, r1, r1, lsl #1
	add.w	r0, r0, r0, lsl #1
	add.w	r1, r2, r1, lsl #3
	add.w	r0, r6, r0, lsl #3
	movs	r2, #24
	bl	tlsf_memory_move
	orr	r0, r7, #3
	add.w	r1, r0, r10
	ldr.w	r2, [r11, #8]
	add.w	r1, r1, r1, lsl #1
	add.w	r0, r0, r0, lsl #1
	add.w	r1, r2, r1, lsl #3
	add.w	r0, r6, r0, lsl #3
	movs	r2, #24
	bl	tlsf_memory_move
	adds	r7, #4
	adc	r9, r9, #0
	eor.w	r0, r7, r4
	eor.w	r1, r9, r8
	orrs	r0, r1
	bne	.LBB20_13
	ldr	r4, [sp, #4]
	ldrd	r5, r3, [sp, #16]
	ldrd	lr, r12, [sp, #8]
	cmp	r4, #0
	beq	.LBB20_18
.LBB20_15:
	add.w	r0, r7, r10
	ldr.w	r1, [r11, #8]
	add.w	r0, r0, r0, lsl #1
	add.w	r1, r1, r0, lsl #3
	add.w	r0, r7, r7, lsl #1
	add.w	r0, r6, r0, lsl #3
	movs	r2, #24
	bl	tlsf_memory_move
	ldrd	lr, r12, [sp, #8]
	ldrd	r5, r3, [sp, #16]
	cmp	r4, #1
	beq	.LBB20_18
	adds	r0, r7, #1
	add.w	r1, r0, r10
	ldr.w	r2, [r11, #8]
	add.w	r1, r1, r1, lsl #1
	add.w	r0, r0, r0, lsl #1
	add.w	r1, r2, r1, lsl #3
	add.w	r0, r6, r0, lsl #3
	movs	r2, #24
	bl	tlsf_memory_move
	ldrd	lr, r12, [sp, #8]
	ldrd	r5, r3, [sp, #16]
	cmp	r4, #2
	beq	.LBB20_18
	adds	r0, r7, #2
	add.w	r1, r0, r10
	ldr.w	r2, [r11, #8]
	add.w	r1, r1, r1, lsl #1
	add.w	r0, r0, r0, lsl #1
	add.w	r1, r2, r1, lsl #3
	add.w	r0, r6, r0, lsl #3
	movs	r2, #24
	bl	tlsf_memory_move
	ldrd	lr, r12, [sp, #8]
	ldrd	r5, r3, [sp, #16]
.LBB20_18:
	ldr.w	r9, [sp, #48]
	ldr.w	r10, [sp, #44]
	subs.w	r0, r12, r9
	sbcs.w	r0, lr, r10
	bhs	.LBB20_27
	add.w	r0, r5, r5, lsl #1
	add.w	r6, r6, r0, lsl #3
	subs.w	r0, r5, r9
	mvn	r2, #3
	sbc.w	r1, r8, r10
	subs	r0, r2, r0
	mov.w	r0, #-1
	sbcs	r0, r1
	ldr	r0, [sp, #24]
	and	r8, r0, #3
	bhs	.LBB20_21
	movs	r7, #0
	b	.LBB20_24
.LBB20_21:
	bic	r9, r0, #3
	movs	r7, #0
	movs	r4, #0
	.p2align	2
.LBB20_22:
	ldr.w	r0, [r11, #8]
	add.w	r5, r7, r7, lsl #1
	add.w	r1, r0, r5, lsl #3
	add.w	r0, r6, r5, lsl #3
	movs	r2, #24
	mov	r10, r3
	bl	tlsf_memory_move
	ldr.w	r0, [r11, #8]
	orr	r2, r5, #3
	add.w	r1, r0, r2, lsl #3
	add.w	r0, r6, r2, lsl #3
	movs	r2, #24
	bl	tlsf_memory_move
	ldr.w	r0, [r11, #8]
	adds	r2, r5, #6
	add.w	r1, r0, r2, lsl #3
	add.w	r0, r6, r2, lsl #3
	movs	r2, #24
	bl	tlsf_memory_move
	ldr.w	r0, [r11, #8]
	add.w	r2, r5, #9
	add.w	r1, r0, r2, lsl #3
	add.w	r0, r6, r2, lsl #3
	movs	r2, #24
	bl	tlsf_memory_move
	adds	r7, #4
	adc	r4, r4, #0
	eor.w	r0, r7, r9
	eor.w	r1, r4, r10
	mov	r3, r10
	orrs	r0, r1
	bne	.LBB20_22
	ldrd	r10, r9, [sp, #44]
	cmp.w	r8, #0
	beq	.LBB20_27
.LBB20_24:
	ldr.w	r0, [r11, #8]
	add.w	r7, r7, r7, lsl #1
	add.w	r1, r0, r7, lsl #3
	add.w	r0, r6, r7, lsl #3
	movs	r2, #24
	bl	tlsf_memory_move
	cmp.w	r8, #1
	beq	.LBB20_27
	ldr.w	r0, [r11, #8]
	adds	r2, r7, #3
	add.w	r1, r0, r2, lsl #3
	add.w	r0, r6, r2, lsl #3
	movs	r2, #24
	bl	tlsf_memory_move
	cmp.w	r8, #2
	beq	.LBB20_27
	ldr.w	r0, [r11, #8]
	movs	r1, #48
	add.w	r2, r1, r7, lsl #3
	adds	r1, r0, r2
	adds	r0, r6, r2
	movs	r2, #24
	bl	tlsf_memory_move
.LBB20_27:
	ldr	r0, [sp, #28]
	ldr	r1, [sp, #32]
	ldr	r7, [sp, #40]
	lsls	r0, r0, #1
	ldr	r6, [sp, #36]
	orr.w	r0, r0, r1, lsr #31
	rsbs	r1, r7, r1, lsl #1
	sbcs	r0, r6
	rsbs	r2, r1, #0
	mov.w	r3, #0
	sbcs	r3, r0
	subs.w	r1, r9, r1
	sbcs.w	r0, r10, r0
	itt	lo
	movlo	r3, r6
	movlo	r2, r7
	adds.w	r8, r2, r9
	ldr.w	r0, [r11]
	adc.w	r5, r3, r10
	movs	r1, #5
	mov	r2, r8
	mov	r3, r5
	str	r1, [sp]
	bl	__atomic_store_8
.LBB20_28:
	mov	r0, r9
	mov	r1, r10
	strd	r8, r5, [r11, #24]
	add	sp, #52
	pop.w	{r4, r5, r6, r7, r8, r9, r10, r11, pc}
.Lfunc_end20:
	.size	tlsf_post.take_end.TakeEnd.take_slice, .Lfunc_end20-tlsf_post.take_end.TakeEnd.take_slice
	.cfi_endproc
	.section	.text.tlsf_c.heap_calls.release_named,"ax",%progbits
	.p2align	2
	.type	tlsf_c.heap_calls.release_named,%function
	.code	16
	.thumb_func
tlsf_c.heap_calls.release_named:
	.cfi_startproc
	push.w	{r4, r5, r6, r7, r8, r9, r10, r11, lr}
	.cfi_def_cfa_offset 36
	.cfi_offset lr, -4
	.cfi_offset r11, -8
	.cfi_offset r10, -12
	.cfi_offset r9, -16
	.cfi_offset r8, -20
	.cfi_offset r7, -24
	.cfi_offset r6, -28
	.cfi_offset r5, -32
	.cfi_offset r4, -36
	sub	sp, #36
	.cfi_def_cfa_offset 72
	ldrb	r7, [r0, #8]
	cmp	r7, #0
	beq.w	.LBB21_26
	ldr	r4, [r0]
	ldrb	r0, [r4]
	cmp	r0, #0
	beq.w	.LBB21_26
	ldrb	r5, [r4, #16]
	ldr.w	lr, [sp, #72]
	ldr.w	r12, [r4, #24]
	movs	r0, #0
	cmp	r5, #0
	strb	r0, [r4]
	beq	.LBB21_11
	cmp	r1, r12
	bne.w	.LBB21_20
	ldr	r0, [r4, #56]
	mov	r12, r1
	cmp	lr, r0
	bhs.w	.LBB21_20
	ldr	r0, [r4, #72]
	mvn	r7, #7
	and.w	r7, r7, lr, lsr #3
	adds	r6, r0, r7
	ldr	r6, [r6, #4]
	ldr	r0, [r0, r7]
	and	r7, lr, #63
	rsb.w	r5, r7, #32
	lsrs	r0, r7
	lsl.w	r5, r6, r5
	orrs	r0, r5
	subs	r7, #32
	it	pl
	lsrpl.w	r0, r6, r7
	lsls	r0, r0, #31
	mov	r12, r1
	beq	.LBB21_20
	add.w	r0, r4, #48
	ldr	r7, [r0]
	mov	r12, r1
	ldr.w	r9, [r7, lr, lsl #3]
	lsls.w	r6, r9, #31
	bne	.LBB21_20
	add.w	r11, r7, lr, lsl #3
	ldrd	r6, r5, [r11, #8]
	mov	r12, r1
	eors	r3, r5
	eors	r2, r6
	orrs	r2, r3
	bne	.LBB21_20
	ldrd	r1, r12, [r4, #32]
	and.w	r2, r1, r12
	adds	r2, #1
	beq	.LBB21_19
	ldr	r2, [r4, #40]
	ldr.w	r8, [r11, #4]
	lsr.w	r5, r9, #2
	sub.w	r2, r2, r9, lsr #2
	lsls.w	r3, r9, #30
	str	r2, [r4, #40]
	bmi	.LBB21_21
	add.w	r2, r5, lr
	add.w	r3, r7, r2, lsl #3
	ldr.w	r2, [r7, r2, lsl #3]
	ldr	r3, [r3, #4]
	b	.LBB21_22
.LBB21_11:
	cmp	r1, r12
	bne	.LBB21_20
	ldr	r0, [r4, #56]
	mov	r12, r1
	cmp	lr, r0
	bhs	.LBB21_20
	ldr	r0, [r4, #72]
	mvn	r7, #7
	and.w	r7, r7, lr, lsr #3
	adds	r6, r0, r7
	ldr	r6, [r6, #4]
	ldr	r0, [r0, r7]
	and	r7, lr, #63
	rsb.w	r5, r7, #32
	lsrs	r0, r7
	lsl.w	r5, r6, r5
	orrs	r0, r5
	subs	r7, #32
	it	pl
	lsrpl.w	r0, r6, r7
	lsls	r0, r0, #31
	mov	r12, r1
	beq	.LBB21_20
	add.w	r0, r4, #48
	ldr	r7, [r0]
	mov	r12, r1
	ldr.w	r9, [r7, lr, lsl #3]
	lsls.w	r6, r9, #31
	bne	.LBB21_20
	add.w	r11, r7, lr, lsl #3
	ldrd	r6, r5, [r11, #8]
	mov	r12, r1
	eors	r3, r5
	eors	r2, r6
	orrs	r2, r3
	bne	.LBB21_20
	ldrd	r1, r12, [r4, #32]
	and.w	r2, r1, r12
	adds	r2, #1
	beq	.LBB21_19
	ldr	r2, [r4, #40]
	ldr.w	r8, [r11, #4]
	lsr.w	r5, r9, #2
	sub.w	r2, r2, r9, lsr #2
	lsls.w	r3, r9, #30
	str	r2, [r4, #40]
	bmi	.LBB21_28
	add.w	r2, r5, lr
	add.w	r3, r7, r2, lsl #3
	ldr.w	r2, [r7, r2, lsl #3]
	ldr	r3, [r3, #4]
	b	.LBB21_29
.LBB21_19:
	movs	r0, #2
	b	.LBB21_39
.LBB21_20:
	mov	r0, r1
	mov	r1, r12
	bl	tlsf_heap.refusal.Refusal.of_name
	uxtb	r0, r0
	cmp	r0, #3
	mov.w	r0, #3
	it	eq
	moveq	r0, #4
	b	.LBB21_39
.LBB21_21:
	movs	r2, #0
	movs	r3, #0
.LBB21_22:
	cmp.w	lr, #0
	itt	ne
	ldrne.w	r10, [r7, r8, lsl #3]
	lslsne.w	r6, r10, #31
	bne.w	.LBB21_33
	lsls	r6, r2, #31
	bne	.LBB21_27
	orr	r2, r9, #1
	strd	r2, r8, [r11]
	strd	r1, r12, [r11, #8]
	ldrd	r3, r2, [r4, #32]
	mov.w	r1, #-1
	adds	r3, #1
	adc	r2, r2, #0
	strd	r3, r2, [r4, #32]
	orr	r2, r5, #32
	clz	r2, r2
	rsb.w	r3, r2, #26
	lsr.w	r2, r5, r3
	add.w	r6, r2, r3, lsl #5
	add.w	r5, r4, r6, lsl #2
	ldr.w	r7, [r5, #192]
	lsl.w	r3, lr, #3
	cmp.w	r7, #-1
	str.w	lr, [r5, #192]
	bgt	.LBB21_32
	ldr	r0, [r4, #48]
	add	r0, r3
	strd	r1, r1, [r0, #16]
	lsrs	r0, r6, #5
	ldr	r1, [r4, #104]
	movs	r6, #1
	add.w	r3, r4, r0, lsl #2
	lsl.w	r0, r6, r0
	ldr	r7, [r3, #108]
	orrs	r0, r1
	str	r0, [r4, #104]
	and	r0, r2, #31
	b	.LBB21_37
.LBB21_26:
	movs	r0, #0
	add	sp, #36
	pop.w	{r4, r5, r6, r7, r8, r9, r10, r11, lr}
	b	tlsf_c.call_fault.CallFault.refusal
.LBB21_27:
	adds	r5, r1, #1
	adc	r6, r12, #0
	strd	r5, r6, [r4, #32]
	add	r5, sp, #8
	strd	r9, r8, [sp]
	stm.w	r5, {r1, r12, lr}
	bl	tlsf_heap.fitting.merge_next.5
	b	.LBB21_38
.LBB21_28:
	movs	r2, #0
	movs	r3, #0
.LBB21_29:
	cmp.w	lr, #0
	itt	ne
	ldrne.w	r10, [r7, r8, lsl #3]
	lslsne.w	r6, r10, #31
	bne	.LBB21_35
	lsls	r6, r2, #31
	bne	.LBB21_34
	orr	r2, r9, #1
	strd	r2, r8, [r11]
	strd	r1, r12, [r11, #8]
	ldrd	r3, r2, [r4, #32]
	mov.w	r1, #-1
	adds	r3, #1
	adc	r2, r2, #0
	strd	r3, r2, [r4, #32]
	orr	r2, r5, #16
	clz	r2, r2
	rsb.w	r3, r2, #27
	lsr.w	r2, r5, r3
	add.w	r6, r2, r3, lsl #4
	add.w	r5, r4, r6, lsl #2
	ldr.w	r7, [r5, #192]
	lsl.w	r3, lr, #3
	cmp.w	r7, #-1
	str.w	lr, [r5, #192]
	ble	.LBB21_36
.LBB21_32:
	adds	r2, r1, r7
	ldr	r0, [r0]
	adc	r1, r1, #0
	adds	r2, #1
	sbc	r1, r1, #0
	add	r3, r0
	add.w	r0, r0, r7, lsl #3
	strd	r2, r1, [r3, #16]
	str.w	lr, [r0, #20]
	b	.LBB21_38
.LBB21_33:
	add.w	r5, r7, r8, lsl #3
	ldr	r5, [r5, #4]
	adds	r6, r1, #1
	adc	r7, r12, #0
	strd	r6, r7, [r4, #32]
	strd	r10, r5, [sp]
	add	r5, sp, #8
	strd	r9, r8, [sp, #24]
	stm.w	r5, {r1, r12, lr}
	bl	tlsf_heap.fitting.merge_before.5
	b	.LBB21_38
.LBB21_34:
	adds	r5, r1, #1
	adc	r6, r12, #0
	strd	r5, r6, [r4, #32]
	add	r5, sp, #8
	strd	r9, r8, [sp]
	stm.w	r5, {r1, r12, lr}
	bl	tlsf_heap.fitting.merge_next.4
	b	.LBB21_38
.LBB21_35:
	add.w	r5, r7, r8, lsl #3
	ldr	r5, [r5, #4]
	adds	r6, r1, #1
	adc	r7, r12, #0
	strd	r6, r7, [r4, #32]
	strd	r10, r5, [sp]
	add	r5, sp, #8
	strd	r9, r8, [sp, #24]
	stm.w	r5, {r1, r12, lr}
	bl	tlsf_heap.fitting.merge_before.4
	b	.LBB21_38
.LBB21_36:
	ldr	r0, [r4, #48]
	add	r0, r3
	strd	r1, r1, [r0, #16]
	lsrs	r0, r6, #4
	ldr	r1, [r4, #104]
	movs	r6, #1
	add.w	r3, r4, r0, lsl #2
	lsl.w	r0, r6, r0
	ldr	r7, [r3, #108]
	orrs	r0, r1
	str	r0, [r4, #104]
	and	r0, r2, #15
.LBB21_37:
	lsl.w	r0, r6, r0
	orrs	r0, r7
	str	r0, [r3, #108]
.LBB21_38:
	movs	r0, #0
.LBB21_39:
	movs	r1, #1
	strb	r1, [r4]
	add	sp, #36
	pop.w	{r4, r5, r6, r7, r8, r9, r10, r11, pc}
.Lfunc_end21:
	.size	tlsf_c.heap_calls.release_named, .Lfunc_end21-tlsf_c.heap_calls.release_named
	.cfi_endproc
	.section	.text.unlikely.tlsf_heap.refusal.Refusal.of_name,"ax",%progbits
	.p2align	2
	.type	tlsf_heap.refusal.Refusal.of_name,%function
	.code	16
	.thumb_func
tlsf_heap.refusal.Refusal.of_name:
	.cfi_startproc
	cmp	r0, r1
	mov.w	r0, #2
	it	eq
	moveq	r0, #3
	bx	lr
.Lfunc_end22:
	.size	tlsf_heap.refusal.Refusal.of_name, .Lfunc_end22-tlsf_heap.refusal.Refusal.of_name
	.cfi_endproc
	.section	.text.std_alloc.boxed.Box.new.91a8e04f462e8cea,"ax",%progbits
	.p2align	2
	.type	std_alloc.boxed.Box.new.91a8e04f462e8cea,%function
	.code	16
	.thumb_func
std_alloc.boxed.Box.new.91a8e04f462e8cea:
	.cfi_startproc
	push	{r4, r5, r6, r7, lr}
	.cfi_def_cfa_offset 20
	.cfi_offset lr, -4
	.cfi_offset r7, -8
	.cfi_offset r6, -12
	.cfi_offset r5, -16
	.cfi_offset r4, -20
	sub	sp, #60
	.cfi_def_cfa_offset 80
	ldrb	r6, [r1], #8
	mov	r4, r0
	ldrb	r7, [r1, #-7]
	mov	r0, sp
	movs	r2, #40
	bl	tlsf_memory_cpy
	add	r0, sp, #40
	movs	r1, #48
	movs	r2, #8
	bl	tlsf_memory_alloc
	ldr	r0, [sp, #40]
	lsls	r0, r0, #31
	beq	.LBB23_2
	ldr	r5, [sp, #48]
	mov	r1, sp
	add.w	r0, r5, #8
	movs	r2, #40
	strb	r6, [r5]
	strb	r7, [r5, #1]
	bl	tlsf_memory_cpy
	add.w	r0, r4, #16
	movs	r1, #0
	movs	r2, #40
	movs	r6, #0
	bl	tlsf_memory_set
	b	.LBB23_3
.LBB23_2:
	add.w	r0, r4, #16
	mov	r1, sp
	movs	r2, #40
	orr.w	r5, r6, r7, lsl #8
	bl	tlsf_memory_cpy
	movs	r6, #1
.LBB23_3:
	movs	r0, #0
	str	r0, [r4, #4]
	str	r6, [r4]
	str	r5, [r4, #8]
	str	r0, [r4, #12]
	add	sp, #60
	pop	{r4, r5, r6, r7, pc}
.Lfunc_end23:
	.size	std_alloc.boxed.Box.new.91a8e04f462e8cea, .Lfunc_end23-std_alloc.boxed.Box.new.91a8e04f462e8cea
	.cfi_endproc
	.section	.text.rtrb.producer.Producer.drop.9fca81e6602d26fc,"ax",%progbits
	.p2align	2
	.type	rtrb.producer.Producer.drop.9fca81e6602d26fc,%function
	.code	16
	.thumb_func
rtrb.producer.Producer.drop.9fca81e6602d26fc:
	.cfi_startproc
	push	{r4, r5, r6, r7, lr}
	.cfi_def_cfa_offset 20
	.cfi_offset lr, -4
	.cfi_offset r7, -8
	.cfi_offset r6, -12
	.cfi_offset r5, -16
	.cfi_offset r4, -20
	sub	sp, #4
	.cfi_def_cfa_offset 24
	ldr	r4, [r0]
	ldr	r5, [r0, #8]
	ldr	r6, [r0, #16]
	ldr	r7, [r0, #20]
	add.w	r0, r4, #256
	movs	r1, #5
	movs	r2, #1
	movs	r3, #0
	str	r1, [sp]
	bl	__atomic_exchange_8
	orrs	r0, r1
	beq	.LBB24_2
	mov	r0, r4
	mov	r1, r5
	mov	r2, r6
	mov	r3, r7
	add	sp, #4
	pop.w	{r4, r5, r6, r7, lr}
	b	rtrb.release.drop_slow.23d795680250cb0d
.LBB24_2:
	add	sp, #4
	pop	{r4, r5, r6, r7, pc}
.Lfunc_end24:
	.size	rtrb.producer.Producer.drop.9fca81e6602d26fc, .Lfunc_end24-rtrb.producer.Producer.drop.9fca81e6602d26fc
	.cfi_endproc
	.section	.text.rtrb.release.drop_slow.23d795680250cb0d,"ax",%progbits
	.p2align	2
	.type	rtrb.release.drop_slow.23d795680250cb0d,%function
	.code	16
	.thumb_func
rtrb.release.drop_slow.23d795680250cb0d:
	.cfi_startproc
	push.w	{r4, r5, r6, r7, r8, r9, r10, r11, lr}
	.cfi_def_cfa_offset 36
	.cfi_offset lr, -4
	.cfi_offset r11, -8
	.cfi_offset r10, -12
	.cfi_offset r9, -16
	.cfi_offset r8, -20
	.cfi_offset r7, -24
	.cfi_offset r6, -28
	.cfi_offset r5, -32
	.cfi_offset r4, -36
	sub	sp, #12
	.cfi_def_cfa_offset 48
	str	r1, [sp, #8]
	movs	r1, #5
	mov	r5, r3
	mov	r4, r2
	mov	r9, r0
	mov.w	r8, #5
	bl	__atomic_load_8
	mov	r6, r0
	mov	r7, r1
	add.w	r0, r9, #128
	movs	r1, #5
	bl	__atomic_load_8
	mov	r11, r0
	mov	r10, r1
	eor.w	r0, r7, r1
	eor.w	r1, r6, r11
	orrs	r0, r1
	beq	.LBB25_3
	lsls	r0, r5, #1
	mov.w	r1, #-1
	orr.w	r0, r0, r4, lsr #31
	adds.w	r5, r1, r4, lsl #1
	sbc	r4, r0, #0
	.p2align	2
.LBB25_2:
	subs	r0, r6, r5
	sbcs.w	r0, r7, r4
	mov.w	r0, #0
	it	lo
	movlo	r0, #1
	adds	r6, #1
	adc	r7, r7, #0
	cmp	r0, #0
	it	eq
	moveq	r7, r0
	it	eq
	moveq	r6, r0
	mov	r0, r9
	mov	r2, r6
	mov	r3, r7
	str.w	r8, [sp]
	bl	__atomic_store_8
	eor.w	r0, r7, r10
	eor.w	r1, r6, r11
	orrs	r0, r1
	bne	.LBB25_2
.LBB25_3:
	ldr	r0, [sp, #8]
	bl	tlsf_memory_dealloc
	mov	r0, r9
	add	sp, #12
	pop.w	{r4, r5, r6, r7, r8, r9, r10, r11, lr}
	b	tlsf_memory_dealloc
.Lfunc_end25:
	.size	rtrb.release.drop_slow.23d795680250cb0d, .Lfunc_end25-rtrb.release.drop_slow.23d795680250cb0d
	.cfi_endproc
	.section	.text.rtrb.consumer.Consumer.drop.9fca81e6602d26fc,"ax",%progbits
	.p2align	2
	.type	rtrb.consumer.Consumer.drop.9fca81e6602d26fc,%function
	.code	16
	.thumb_func
rtrb.consumer.Consumer.drop.9fca81e6602d26fc:
	.cfi_startproc
	push	{r4, r5, r6, r7, lr}
	.cfi_def_cfa_offset 20
	.cfi_offset lr, -4
	.cfi_offset r7, -8
	.cfi_offset r6, -12
	.cfi_offset r5, -16
	.cfi_offset r4, -20
	sub	sp, #4
	.cfi_def_cfa_offset 24
	ldr	r4, [r0]
	ldr	r5, [r0, #8]
	ldr	r6, [r0, #16]
	ldr	r7, [r0, #20]
	add.w	r0, r4, #256
	movs	r1, #5
	movs	r2, #1
	movs	r3, #0
	str	r1, [sp]
	bl	__atomic_exchange_8
	orrs	r0, r1
	beq	.LBB26_2
	mov	r0, r4
	mov	r1, r5
	mov	r2, r6
	mov	r3, r7
	add	sp, #4
	pop.w	{r4, r5, r6, r7, lr}
	b	rtrb.release.drop_slow.23d795680250cb0d
.LBB26_2:
	add	sp, #4
	pop	{r4, r5, r6, r7, pc}
.Lfunc_end26:
	.size	rtrb.consumer.Consumer.drop.9fca81e6602d26fc, .Lfunc_end26-rtrb.consumer.Consumer.drop.9fca81e6602d26fc
	.cfi_endproc
	.section	.text.std_alloc.vec.Vec.drop.7ac45d8413b9ad54,"ax",%progbits
	.p2align	2
	.type	std_alloc.vec.Vec.drop.7ac45d8413b9ad54,%function
	.code	16
	.thumb_func
std_alloc.vec.Vec.drop.7ac45d8413b9ad54:
	.cfi_startproc
	push.w	{r4, r5, r6, r7, r8, r9, r10, r11, lr}
	.cfi_def_cfa_offset 36
	.cfi_offset lr, -4
	.cfi_offset r11, -8
	.cfi_offset r10, -12
	.cfi_offset r9, -16
	.cfi_offset r8, -20
	.cfi_offset r7, -24
	.cfi_offset r6, -28
	.cfi_offset r5, -32
	.cfi_offset r4, -36
	sub	sp, #116
	.cfi_def_cfa_offset 152
	ldr	r6, [r0]
	ldr	r4, [r0, #8]
	ldr	r5, [r0, #12]
	ldr	r3, [r0, #16]
	ldr	r0, [r0, #20]
	str	r3, [sp, #8]
	str	r0, [sp, #4]
	orrs.w	r0, r4, r5
	beq	.LBB27_3
	add.w	r0, sp, #18
	add.w	r10, r0, #6
	add	r0, sp, #64
	adds	r0, #8
	mov.w	r8, #0
	mov.w	r9, #0
	str	r0, [sp, #12]
	.p2align	2
.LBB27_2:
	ldr.w	r7, [r6, r8, lsl #3]
	mov	r0, r10
	mov	r1, r7
	ldrh	r11, [r1], #8
	movs	r2, #40
	bl	tlsf_memory_cpy
	mov	r0, r7
	bl	tlsf_memory_dealloc
	movs	r0, #0
	strd	r0, r0, [sp, #64]
	ldr	r0, [sp, #12]
	mov	r1, r10
	movs	r2, #40
	strh.w	r11, [sp, #64]
	bl	tlsf_memory_cpy
	add	r0, sp, #64
	bl	tlsf_c.tlsf_c.any_end.AnyEnd.Destruct.drop
	adds.w	r8, r8, #1
	adc	r9, r9, #0
	subs.w	r0, r8, r4
	sbcs.w	r0, r9, r5
	blo	.LBB27_2
.LBB27_3:
	ldrd	r2, r0, [sp, #4]
	orrs	r0, r2
	beq	.LBB27_5
	mov	r0, r6
	add	sp, #116
	pop.w	{r4, r5, r6, r7, r8, r9, r10, r11, lr}
	b	tlsf_memory_dealloc
.LBB27_5:
	add	sp, #116
	pop.w	{r4, r5, r6, r7, r8, r9, r10, r11, pc}
.Lfunc_end27:
	.size	std_alloc.vec.Vec.drop.7ac45d8413b9ad54, .Lfunc_end27-std_alloc.vec.Vec.drop.7ac45d8413b9ad54
	.cfi_endproc
	.section	.text.std_alloc.arc.Arc.drop.c4a047e811255370,"ax",%progbits
	.p2align	2
	.type	std_alloc.arc.Arc.drop.c4a047e811255370,%function
	.code	16
	.thumb_func
std_alloc.arc.Arc.drop.c4a047e811255370:
	.cfi_startproc
	push	{r4, r5, r6, lr}
	.cfi_def_cfa_offset 16
	.cfi_offset lr, -4
	.cfi_offset r6, -8
	.cfi_offset r5, -12
	.cfi_offset r4, -16
	sub	sp, #8
	.cfi_def_cfa_offset 24
	movs	r1, #5
	movs	r2, #1
	movs	r3, #0
	mov	r4, r0
	str	r1, [sp]
	bl	__atomic_fetch_sub_8
	eor	r0, r0, #1
	orrs	r0, r1
	itt	ne
	addne	sp, #8
	popne	{r4, r5, r6, pc}
.LBB28_1:
	ldr	r5, [r4, #40]
	ldr	r6, [r4, #56]
	mov	r0, r4
	bl	tlsf_memory_dealloc
	mov	r0, r5
	bl	tlsf_memory_dealloc
	mov	r0, r6
	add	sp, #8
	pop.w	{r4, r5, r6, lr}
	b	tlsf_memory_dealloc
.Lfunc_end28:
	.size	std_alloc.arc.Arc.drop.c4a047e811255370, .Lfunc_end28-std_alloc.arc.Arc.drop.c4a047e811255370
	.cfi_endproc
	.section	.text.std_alloc.boxed.Box.drop.7d8ec8058c3633cd,"ax",%progbits
	.p2align	2
	.type	std_alloc.boxed.Box.drop.7d8ec8058c3633cd,%function
	.code	16
	.thumb_func
std_alloc.boxed.Box.drop.7d8ec8058c3633cd:
	.cfi_startproc
	push	{r4, r5, r6, r7, lr}
	.cfi_def_cfa_offset 20
	.cfi_offset lr, -4
	.cfi_offset r7, -8
	.cfi_offset r6, -12
	.cfi_offset r5, -16
	.cfi_offset r4, -20
	sub	sp, #92
	.cfi_def_cfa_offset 112
	mov	r1, r0
	ldrh	r6, [r1], #8
	mov	r7, sp
	mov	r4, r0
	mov	r0, r7
	movs	r2, #40
	bl	tlsf_memory_cpy
	mov	r0, r4
	bl	tlsf_memory_dealloc
	movs	r0, #0
	strd	r0, r0, [sp, #40]
	strh.w	r6, [sp, #40]
	add	r0, sp, #40
	ldm	r7!, {r2, r3, r4, r5, r6}
	add.w	r1, r0, #8
	stm	r1!, {r2, r3, r4, r5, r6}
	ldm.w	r7, {r2, r3, r4, r5, r6}
	stm	r1!, {r2, r3, r4, r5, r6}
	bl	tlsf_c.tlsf_c.any_end.AnyEnd.Destruct.drop
	add	sp, #92
	pop	{r4, r5, r6, r7, pc}
.Lfunc_end29:
	.size	std_alloc.boxed.Box.drop.7d8ec8058c3633cd, .Lfunc_end29-std_alloc.boxed.Box.drop.7d8ec8058c3633cd
	.cfi_endproc
	.section	.text.tlsf_c.tlsf_c.any_end.AnyEnd.Destruct.drop,"ax",%progbits
	.p2align	2
	.type	tlsf_c.tlsf_c.any_end.AnyEnd.Destruct.drop,%function
	.code	16
	.thumb_func
tlsf_c.tlsf_c.any_end.AnyEnd.Destruct.drop:
	.cfi_startproc
	push.w	{r4, r5, r6, r7, r8, r9, r10, r11, lr}
	.cfi_def_cfa_offset 36
	.cfi_offset lr, -4
	.cfi_offset r11, -8
	.cfi_offset r10, -12
	.cfi_offset r9, -16
	.cfi_offset r8, -20
	.cfi_offset r7, -24
	.cfi_offset r6, -28
	.cfi_offset r5, -32
	.cfi_offset r4, -36
	sub	sp, #116
	.cfi_def_cfa_offset 152
	ldrb	r1, [r0]
	ldr	r4, [r0, #8]
	ldr	r5, [r0, #16]
	ldr	r7, [r0, #24]
	ldr	r6, [r0, #28]
.LCPI30_0:
	tbb	[pc, r1]
.LJTI30_0:
	.byte	(.LBB30_2-(.LCPI30_0+4))/2
	.byte	(.LBB30_13-(.LCPI30_0+4))/2
	.byte	(.LBB30_3-(.LCPI30_0+4))/2
	.byte	(.LBB30_10-(.LCPI30_0+4))/2
	.p2align	1
.LBB30_2:
	add.w	r0, r4, #256
	movs	r1, #5
	movs	r2, #1
	movs	r3, #0
	str	r1, [sp]
	bl	__atomic_exchange_8
	orrs	r0, r1
	bne	.LBB30_14
	b	.LBB30_15
.LBB30_3:
	ldr	r6, [r0, #32]
	ldr	r5, [r0, #36]
	ldr	r1, [r0, #40]
	ldr	r0, [r0, #44]
	str	r1, [sp, #8]
	str	r0, [sp, #4]
	movs	r1, #5
	mov	r0, r4
	movs	r2, #1
	movs	r3, #0
	str	r1, [sp]
	bl	__atomic_fetch_sub_8
	eor	r0, r0, #1
	orrs	r0, r1
	bne	.LBB30_5
	ldr.w	r8, [r4, #40]
	ldr.w	r9, [r4, #56]
	mov	r0, r4
	bl	tlsf_memory_dealloc
	mov	r0, r8
	bl	tlsf_memory_dealloc
	mov	r0, r9
	bl	tlsf_memory_dealloc
.LBB30_5:
	orrs.w	r0, r6, r5
	beq	.LBB30_8
	add.w	r0, sp, #18
	add.w	r10, r0, #6
	add	r0, sp, #64
	adds	r0, #8
	mov.w	r8, #0
	mov.w	r9, #0
	str	r0, [sp, #12]
	.p2align	2
.LBB30_7:
	ldr.w	r4, [r7, r8, lsl #3]
	mov	r0, r10
	mov	r1, r4
	ldrh	r11, [r1], #8
	movs	r2, #40
	bl	tlsf_memory_cpy
	mov	r0, r4
	bl	tlsf_memory_dealloc
	movs	r0, #0
	strd	r0, r0, [sp, #64]
	ldr	r0, [sp, #12]
	mov	r1, r10
	movs	r2, #40
	strh.w	r11, [sp, #64]
	bl	tlsf_memory_cpy
	add	r0, sp, #64
	bl	tlsf_c.tlsf_c.any_end.AnyEnd.Destruct.drop
	adds.w	r8, r8, #1
	adc	r9, r9, #0
	subs.w	r0, r8, r6
	sbcs.w	r0, r9, r5
	blo	.LBB30_7
.LBB30_8:
	ldrd	r1, r0, [sp, #4]
	orrs	r0, r1
	beq	.LBB30_15
	mov	r0, r7
	b	.LBB30_12
.LBB30_10:
	movs	r1, #5
	mov	r0, r4
	movs	r2, #1
	movs	r3, #0
	str	r1, [sp]
	bl	__atomic_fetch_sub_8
	eor	r0, r0, #1
	orrs	r0, r1
	bne	.LBB30_15
	ldr	r5, [r4, #40]
	ldr	r6, [r4, #56]
	mov	r0, r4
	bl	tlsf_memory_dealloc
	mov	r0, r5
	bl	tlsf_memory_dealloc
	mov	r0, r6
.LBB30_12:
	add	sp, #116
	pop.w	{r4, r5, r6, r7, r8, r9, r10, r11, lr}
	b	tlsf_memory_dealloc
.LBB30_13:
	add.w	r0, r4, #256
	movs	r1, #5
	movs	r2, #1
	movs	r3, #0
	str	r1, [sp]
	bl	__atomic_exchange_8
	orrs	r0, r1
	beq	.LBB30_15
.LBB30_14:
	mov	r0, r4
	mov	r1, r5
	mov	r2, r7
	mov	r3, r6
	add	sp, #116
	pop.w	{r4, r5, r6, r7, r8, r9, r10, r11, lr}
	b	rtrb.release.drop_slow.23d795680250cb0d
.LBB30_15:
	add	sp, #116
	pop.w	{r4, r5, r6, r7, r8, r9, r10, r11, pc}
.Lfunc_end30:
	.size	tlsf_c.tlsf_c.any_end.AnyEnd.Destruct.drop, .Lfunc_end30-tlsf_c.tlsf_c.any_end.AnyEnd.Destruct.drop
	.cfi_endproc
	.section	.text.tlsf_c.arena_slot.ArenaSlot.close,"ax",%progbits
	.p2align	2
	.type	tlsf_c.arena_slot.ArenaSlot.close,%function
	.code	16
	.thumb_func
tlsf_c.arena_slot.ArenaSlot.close:
	.cfi_startproc
	ldrb	r1, [r0, #8]
	cmp	r1, #0
	beq	.LBB31_11
	ldr	r1, [r0]
	ldrb	r2, [r1, #1]
	cmp	r2, #1
	it	ne
	bxne	lr
.LBB31_2:
	push.w	{r4, r5, r6, r7, r8, r9, r10, r11, lr}
	.cfi_def_cfa_offset 36
	.cfi_offset lr, -4
	.cfi_offset r11, -8
	.cfi_offset r10, -12
	.cfi_offset r9, -16
	.cfi_offset r8, -20
	.cfi_offset r7, -24
	.cfi_offset r6, -28
	.cfi_offset r5, -32
	.cfi_offset r4, -36
	sub	sp, #60
	.cfi_def_cfa_offset 96
	movs	r2, #0
	strb	r2, [r1, #1]
	ldr	r7, [r0]
	str	r2, [r0, #4]
	str	r2, [r0, #8]
	str	r2, [r0, #12]
	str	r2, [r0]
	ldrb.w	r10, [r7]
	ldrb	r4, [r7, #8]
	add.w	r1, r7, #16
	add	r0, sp, #8
	movs	r2, #24
	bl	tlsf_memory_cpy
	ldr	r0, [r7, #40]
	ldr.w	r8, [r7, #56]
	str	r0, [sp, #4]
	ldr	r0, [r7, #44]
	ldr.w	r9, [r7, #60]
	str	r0, [sp]
	ldr.w	r11, [r7, #64]
	ldr	r5, [r7, #84]
	ldr	r6, [r7, #80]
	mov	r0, r7
	bl	tlsf_memory_dealloc
	cmp.w	r10, #0
	beq	.LBB31_5
	add	r0, sp, #8
	add.w	r0, r0, #8
	cbz	r4, .LBB31_9
	ldrd	r1, r2, [r0]
	ldr	r3, [r0, #12]
	ldr	r0, [r0, #8]
	strd	r1, r2, [sp, #32]
	strd	r0, r3, [sp, #40]
	ldr	r0, [sp, #4]
	str	r0, [sp, #48]
	ldr	r0, [sp]
	str	r0, [sp, #52]
	add	r0, sp, #32
	bl	std_alloc.vec.Vec.drop.1d6c342d5cae5f6b
	b	.LBB31_10
.LBB31_5:
	cmp	r4, #0
	orrs.w	r0, r8, r9
	beq	.LBB31_7
	ldr	r0, [sp, #4]
	bl	tlsf_memory_dealloc
.LBB31_7:
	orrs.w	r0, r6, r5
	beq	.LBB31_10
	mov	r0, r11
	bl	tlsf_memory_dealloc
	b	.LBB31_10
.LBB31_9:
	ldrd	r1, r2, [r0]
	ldr	r3, [r0, #12]
	ldr	r0, [r0, #8]
	strd	r1, r2, [sp, #32]
	strd	r0, r3, [sp, #40]
	ldr	r0, [sp, #4]
	str	r0, [sp, #48]
	ldr	r0, [sp]
	str	r0, [sp, #52]
	add	r0, sp, #32
	bl	std_alloc.vec.Vec.drop.01e19ae241269710
.LBB31_10:
	add	sp, #60
	pop.w	{r4, r5, r6, r7, r8, r9, r10, r11, lr}
.LBB31_11:
	bx	lr
.Lfunc_end31:
	.size	tlsf_c.arena_slot.ArenaSlot.close, .Lfunc_end31-tlsf_c.arena_slot.ArenaSlot.close
	.cfi_endproc
	.section	.text.std_alloc.vec.Vec.drop.01e19ae241269710,"ax",%progbits
	.p2align	2
	.type	std_alloc.vec.Vec.drop.01e19ae241269710,%function
	.code	16
	.thumb_func
std_alloc.vec.Vec.drop.01e19ae241269710:
	.cfi_startproc
	push.w	{r4, r5, r6, r7, r8, r9, r10, r11, lr}
	.cfi_def_cfa_offset 36
	.cfi_offset lr, -4
	.cfi_offset r11, -8
	.cfi_offset r10, -12
	.cfi_offset r9, -16
	.cfi_offset r8, -20
	.cfi_offset r7, -24
	.cfi_offset r6, -28
	.cfi_offset r5, -32
	.cfi_offset r4, -36
	sub	sp, #36
	.cfi_def_cfa_offset 72
	ldr	r1, [r0]
	ldr	r3, [r0, #12]
	str	r1, [sp, #20]
	ldr	r1, [r0, #8]
	ldr	r2, [r0, #16]
	ldr	r0, [r0, #20]
	str	r2, [sp, #8]
	str	r0, [sp, #4]
	orrs.w	r0, r1, r3
	strd	r3, r1, [sp, #12]
	beq	.LBB32_11
	mov.w	r9, #0
	mov.w	r11, #0
	b	.LBB32_3
	.p2align	2
.LBB32_2:
	ldr	r0, [sp, #16]
	adds.w	r9, r9, #1
	adc	r11, r11, #0
	subs.w	r0, r9, r0
	ldr	r0, [sp, #12]
	sbcs.w	r0, r11, r0
	bhs	.LBB32_11
.LBB32_3:
	ldr	r0, [sp, #20]
	movw	r1, #2792
	mla	r0, r9, r1, r0
	ldr.w	r3, [r0, #2736]
	ldr	r1, [r0, #40]
	str	r3, [sp, #24]
	ldr.w	r3, [r0, #2768]
	ldr	r2, [r0, #44]
	ldr	r4, [r0, #48]
	ldr	r6, [r0, #64]
	ldr	r7, [r0, #68]
	ldr.w	r8, [r0, #2756]
	ldr.w	r5, [r0, #2752]
	str	r3, [sp, #28]
	ldr.w	r3, [r0, #2788]
	ldr.w	r10, [r0, #2784]
	orrs	r1, r2
	str	r3, [sp, #32]
	beq	.LBB32_5
	ldr	r0, [r0, #24]
	bl	tlsf_memory_dealloc
.LBB32_5:
	orrs.w	r0, r6, r7
	beq	.LBB32_7
	mov	r0, r4
	bl	tlsf_memory_dealloc
.LBB32_7:
	orrs.w	r0, r5, r8
	beq	.LBB32_9
	ldr	r0, [sp, #24]
	bl	tlsf_memory_dealloc
.LBB32_9:
	ldr	r0, [sp, #32]
	orrs.w	r0, r0, r10
	beq	.LBB32_2
	ldr	r0, [sp, #28]
	bl	tlsf_memory_dealloc
	b	.LBB32_2
.LBB32_11:
	ldrd	r1, r0, [sp, #4]
	orrs	r0, r1
	beq	.LBB32_13
	ldr	r0, [sp, #20]
	add	sp, #36
	pop.w	{r4, r5, r6, r7, r8, r9, r10, r11, lr}
	b	tlsf_memory_dealloc
.LBB32_13:
	add	sp, #36
	pop.w	{r4, r5, r6, r7, r8, r9, r10, r11, pc}
.Lfunc_end32:
	.size	std_alloc.vec.Vec.drop.01e19ae241269710, .Lfunc_end32-std_alloc.vec.Vec.drop.01e19ae241269710
	.cfi_endproc
	.section	.text.std_alloc.vec.Vec.drop.1d6c342d5cae5f6b,"ax",%progbits
	.p2align	2
	.type	std_alloc.vec.Vec.drop.1d6c342d5cae5f6b,%function
	.code	16
	.thumb_func
std_alloc.vec.Vec.drop.1d6c342d5cae5f6b:
	.cfi_startproc
	push.w	{r4, r5, r6, r7, r8, r9, r10, r11, lr}
	.cfi_def_cfa_offset 36
	.cfi_offset lr, -4
	.cfi_offset r11, -8
	.cfi_offset r10, -12
	.cfi_offset r9, -16
	.cfi_offset r8, -20
	.cfi_offset r7, -24
	.cfi_offset r6, -28
	.cfi_offset r5, -32
	.cfi_offset r4, -36
	sub	sp, #36
	.cfi_def_cfa_offset 72
	ldr	r1, [r0]
	ldr	r3, [r0, #12]
	str	r1, [sp, #20]
	ldr	r1, [r0, #8]
	ldr	r2, [r0, #16]
	ldr	r0, [r0, #20]
	str	r2, [sp, #8]
	str	r0, [sp, #4]
	orrs.w	r0, r1, r3
	strd	r3, r1, [sp, #12]
	beq	.LBB33_11
	mov.w	r9, #0
	mov.w	r11, #0
	b	.LBB33_3
	.p2align	2
.LBB33_2:
	ldr	r0, [sp, #16]
	adds.w	r9, r9, #1
	adc	r11, r11, #0
	subs.w	r0, r9, r0
	ldr	r0, [sp, #12]
	sbcs.w	r0, r11, r0
	bhs	.LBB33_11
.LBB33_3:
	ldr	r0, [sp, #20]
	movw	r1, #2792
	mla	r0, r9, r1, r0
	ldr.w	r3, [r0, #2736]
	ldr	r1, [r0, #40]
	str	r3, [sp, #24]
	ldr.w	r3, [r0, #2768]
	ldr	r2, [r0, #44]
	ldr	r4, [r0, #48]
	ldr	r6, [r0, #64]
	ldr	r7, [r0, #68]
	ldr.w	r8, [r0, #2756]
	ldr.w	r5, [r0, #2752]
	str	r3, [sp, #28]
	ldr.w	r3, [r0, #2788]
	ldr.w	r10, [r0, #2784]
	orrs	r1, r2
	str	r3, [sp, #32]
	beq	.LBB33_5
	ldr	r0, [r0, #24]
	bl	tlsf_memory_dealloc
.LBB33_5:
	orrs.w	r0, r6, r7
	beq	.LBB33_7
	mov	r0, r4
	bl	tlsf_memory_dealloc
.LBB33_7:
	orrs.w	r0, r5, r8
	beq	.LBB33_9
	ldr	r0, [sp, #24]
	bl	tlsf_memory_dealloc
.LBB33_9:
	ldr	r0, [sp, #32]
	orrs.w	r0, r0, r10
	beq	.LBB33_2
	ldr	r0, [sp, #28]
	bl	tlsf_memory_dealloc
	b	.LBB33_2
.LBB33_11:
	ldrd	r1, r0, [sp, #4]
	orrs	r0, r1
	beq	.LBB33_13
	ldr	r0, [sp, #20]
	add	sp, #36
	pop.w	{r4, r5, r6, r7, r8, r9, r10, r11, lr}
	b	tlsf_memory_dealloc
.LBB33_13:
	add	sp, #36
	pop.w	{r4, r5, r6, r7, r8, r9, r10, r11, pc}
.Lfunc_end33:
	.size	std_alloc.vec.Vec.drop.1d6c342d5cae5f6b, .Lfunc_end33-std_alloc.vec.Vec.drop.1d6c342d5cae5f6b
	.cfi_endproc
	.section	.text.unlikely.std_alloc.vec.Vec.grow_amortized.1345b5ed95b64201,"ax",%progbits
	.p2align	2
	.type	std_alloc.vec.Vec.grow_amortized.1345b5ed95b64201,%function
	.code	16
	.thumb_func
std_alloc.vec.Vec.grow_amortized.1345b5ed95b64201:
	.cfi_startproc
	push.w	{r4, r5, r6, r7, r8, r9, lr}
	.cfi_def_cfa_offset 28
	.cfi_offset lr, -4
	.cfi_offset r9, -8
	.cfi_offset r8, -12
	.cfi_offset r7, -16
	.cfi_offset r6, -20
	.cfi_offset r5, -24
	.cfi_offset r4, -28
	sub	sp, #28
	.cfi_def_cfa_offset 56
	ldrd	r6, r7, [r0, #8]
	mov	r1, r0
	adds	r0, r6, r2
	adcs.w	r0, r7, r3
	mov.w	r0, #0
	adc	r5, r0, #0
	cmp	r5, #1
	beq	.LBB34_7
	ldrd	r4, r12, [r1, #16]
	adds	r2, r2, r6
	adc.w	r9, r7, r3
	cmp	r2, #4
	mov.w	r5, #4
	mov.w	r3, #4
	it	hi
	movhi	r3, r2
	cmp.w	r9, #0
	ite	ne
	movne	r5, r2
	moveq	r5, r3
	lsl.w	r2, r12, #1
	orr.w	r3, r2, r4, lsr #31
	rsbs	r2, r5, r4, lsl #1
	sbcs.w	r2, r3, r9
	mov	r2, r5
	ite	hs
	lslhs	r2, r4, #1
	movlo	r3, r9
	cmp.w	r12, #1073741824
	itt	lo
	movlo	r5, r2
	movlo	r9, r3
	cmp.w	r0, r9, lsr #28
	bne	.LBB34_7
	orrs.w	r0, r4, r12
	beq	.LBB34_4
	lsls	r0, r7, #3
	orrs.w	r0, r0, r6, lsr #29
	lsl.w	r0, r9, #3
	mov	r8, r1
	ldr	r1, [r1]
	orr.w	r0, r0, r5, lsr #29
	mov.w	r2, #-1
	mov.w	r3, #-1
	it	eq
	lsleq	r2, r6, #3
	cmp	r0, #0
	mov.w	r7, #8
	add	r0, sp, #8
	it	eq
	lsleq	r3, r5, #3
	str	r7, [sp]
	bl	tlsf_memory_realloc
	b	.LBB34_5
.LBB34_4:
	lsls	r0, r3, #3
	mov	r8, r1
	orrs.w	r0, r0, r2, lsr #29
	mov.w	r1, #-1
	it	eq
	lsleq	r1, r2, #3
	add	r0, sp, #8
	movs	r2, #8
	bl	tlsf_memory_alloc
.LBB34_5:
	ldr	r0, [sp, #8]
	lsls	r0, r0, #31
	beq	.LBB34_8
	ldr	r0, [sp, #16]
	strd	r5, r9, [r8, #16]
	str.w	r0, [r8]
	movs	r0, #1
.LBB34_7:
	add	sp, #28
	pop.w	{r4, r5, r6, r7, r8, r9, pc}
.LBB34_8:
	movs	r0, #0
	add	sp, #28
	pop.w	{r4, r5, r6, r7, r8, r9, pc}
.Lfunc_end34:
	.size	std_alloc.vec.Vec.grow_amortized.1345b5ed95b64201, .Lfunc_end34-std_alloc.vec.Vec.grow_amortized.1345b5ed95b64201
	.cfi_endproc
	.section	.text.tlsf_heap.heap.Heap.begin.4,"ax",%progbits
	.p2align	2
	.type	tlsf_heap.heap.Heap.begin.4,%function
	.code	16
	.thumb_func
tlsf_heap.heap.Heap.begin.4:
	.cfi_startproc
	push.w	{r4, r5, r6, r7, r8, r9, lr}
	.cfi_def_cfa_offset 28
	.cfi_offset lr, -4
	.cfi_offset r9, -8
	.cfi_offset r8, -12
	.cfi_offset r7, -16
	.cfi_offset r6, -20
	.cfi_offset r5, -24
	.cfi_offset r4, -28
	sub	sp, #4
	.cfi_def_cfa_offset 32
	mov	r4, r0
	ldr	r2, [r0, #12]
	ldr	r0, [r0, #8]
	add.w	r5, r4, #24
	subs	r7, r0, #1
	mov	r0, r5
	mov.w	r9, #-1
	mov.w	r8, #0
	sbc	r6, r2, #0
	bl	tlsf_words.words.Words.lengthen
	add.w	r0, r4, #80
	movs	r1, #0
	movs	r2, #88
	str.w	r9, [r4, #184]
	bl	tlsf_memory_set
	ldr	r0, [r4, #32]
	ldr	r1, [r4, #24]
	lsls	r3, r0, #2
	adds	r3, #3
	strd	r3, r9, [r1]
	strd	r7, r6, [r1, #8]
	orr	r2, r0, #16
	ldr	r3, [r4, #48]
	clz	r2, r2
	rsb.w	r2, r2, #27
	ldr	r7, [r3]
	lsrs	r0, r2
	add.w	r1, r0, r2, lsl #4
	orr	r2, r7, #1
	str	r2, [r3]
	add.w	r3, r4, r1, lsl #2
	ldr.w	r2, [r3, #168]
	str.w	r8, [r3, #168]
	cmp.w	r2, #-1
	ble	.LBB35_2
	ldr	r0, [r5]
	strd	r2, r9, [r0, #16]
	add.w	r0, r0, r2, lsl #3
	str.w	r8, [r0, #20]
	add	sp, #4
	pop.w	{r4, r5, r6, r7, r8, r9, pc}
.LBB35_2:
	ldr	r2, [r4, #24]
	lsrs	r1, r1, #4
	strd	r9, r9, [r2, #16]
	add.w	r3, r4, r1, lsl #2
	ldr	r2, [r4, #80]
	ldr	r7, [r3, #84]
	movs	r6, #1
	and	r0, r0, #15
	lsl.w	r1, r6, r1
	lsl.w	r0, r6, r0
	orrs	r1, r2
	orrs	r0, r7
	str	r1, [r4, #80]
	str	r0, [r3, #84]
	add	sp, #4
	pop.w	{r4, r5, r6, r7, r8, r9, pc}
.Lfunc_end35:
	.size	tlsf_heap.heap.Heap.begin.4, .Lfunc_end35-tlsf_heap.heap.Heap.begin.4
	.cfi_endproc
	.section	.text.tlsf_words.words.Words.lengthen,"ax",%progbits
	.p2align	2
	.type	tlsf_words.words.Words.lengthen,%function
	.code	16
	.thumb_func
tlsf_words.words.Words.lengthen:
	.cfi_startproc
	push.w	{r4, r5, r6, r7, r8, r9, r10, r11, lr}
	.cfi_def_cfa_offset 36
	.cfi_offset lr, -4
	.cfi_offset r11, -8
	.cfi_offset r10, -12
	.cfi_offset r9, -16
	.cfi_offset r8, -20
	.cfi_offset r7, -24
	.cfi_offset r6, -28
	.cfi_offset r5, -32
	.cfi_offset r4, -36
	sub	sp, #4
	.cfi_def_cfa_offset 40
	mov	r4, r0
	ldr	r2, [r0, #12]
	ldr	r0, [r0, #8]
	mov	r5, r1
	subs	r1, r0, r1
	sbcs	r1, r2, #0
	bhs	.LBB36_5
	ldrd	r8, r9, [r4, #16]
	subs.w	r10, r5, r0
	mov.w	r1, #0
	sbc.w	r7, r1, r2
	subs.w	r1, r8, r0
	sbc.w	r3, r9, r2
	subs.w	r1, r1, r10
	sbcs.w	r1, r3, r7
	blo	.LBB36_15
.LBB36_2:
	adds.w	r6, r0, r10
	adcs	r7, r2
	ldr.w	r11, [r4]
	subs	r1, r0, r6
	sbcs.w	r1, r2, r7
	bhs	.LBB36_4
	add.w	r0, r11, r0, lsl #3
	lsl.w	r2, r10, #3
	movs	r1, #0
	bl	tlsf_memory_set
.LBB36_4:
	add.w	r0, r4, #8
	str.w	r11, [r4]
	stm.w	r0, {r6, r7, r8, r9}
	b	.LBB36_6
.LBB36_5:
	subs	r0, r5, r0
	mov.w	r0, #0
	sbcs.w	r1, r0, r2
	it	lo
	strdlo	r5, r0, [r4, #8]
.LBB36_6:
	ldrd	r0, r1, [r4, #32]
	lsrs	r6, r5, #6
	orrs	r0, r1
	itt	ne
	movne	r0, #0
	strdne	r0, r0, [r4, #32]
	lsls	r1, r5, #26
	mov.w	r0, #1
	it	ne
	addne.w	r6, r0, r5, lsr #6
	cbz	r5, .LBB36_12
	ldrd	r9, r8, [r4, #40]
	subs.w	r0, r9, r6
	sbcs	r0, r8, #0
	blo	.LBB36_13
	movs	r0, #0
	movs	r1, #0
.LBB36_9:
	adds	r7, r0, r6
	adc	r10, r1, #0
	ldr.w	r11, [r4, #24]
	subs	r2, r0, r7
	sbcs.w	r1, r1, r10
	bhs	.LBB36_11
	add.w	r0, r11, r0, lsl #3
	lsls	r2, r6, #3
	movs	r1, #0
	bl	tlsf_memory_set
.LBB36_11:
	str.w	r11, [r4, #24]
	strd	r7, r10, [r4, #32]
	strd	r9, r8, [r4, #40]
.LBB36_12:
	str	r5, [r4, #48]
	add	sp, #4
	pop.w	{r4, r5, r6, r7, r8, r9, r10, r11, pc}
.LBB36_13:
	add.w	r0, r4, #24
	mov	r2, r6
	movs	r3, #0
	bl	std_alloc.vec.Vec.grow_amortized.1345b5ed95b64201
	cbz	r0, .LBB36_17
	add.w	r9, r4, #32
	ldm.w	r9, {r0, r1, r9}
	ldr.w	r8, [r4, #44]
	b	.LBB36_9
.LBB36_15:
	mov	r0, r4
	mov	r2, r10
	mov	r3, r7
	bl	std_alloc.vec.Vec.grow_amortized.1345b5ed95b64201
	cbz	r0, .LBB36_17
	add.w	r9, r4, #8
	ldm.w	r9, {r0, r2, r8, r9}
	b	.LBB36_2
.LBB36_17:
	.inst.n	0xdefe
.Lfunc_end36:
	.size	tlsf_words.words.Words.lengthen, .Lfunc_end36-tlsf_words.words.Words.lengthen
	.cfi_endproc
	.section	.text.tlsf_heap.heap.Heap.begin.5,"ax",%progbits
	.p2align	2
	.type	tlsf_heap.heap.Heap.begin.5,%function
	.code	16
	.thumb_func
tlsf_heap.heap.Heap.begin.5:
	.cfi_startproc
	push.w	{r4, r5, r6, r7, r8, r9, lr}
	.cfi_def_cfa_offset 28
	.cfi_offset lr, -4
	.cfi_offset r9, -8
	.cfi_offset r8, -12
	.cfi_offset r7, -16
	.cfi_offset r6, -20
	.cfi_offset r5, -24
	.cfi_offset r4, -28
	sub	sp, #4
	.cfi_def_cfa_offset 32
	mov	r4, r0
	ldr	r2, [r0, #12]
	ldr	r0, [r0, #8]
	add.w	r5, r4, #24
	subs	r7, r0, #1
	mov	r0, r5
	mov.w	r9, #-1
	mov.w	r8, #0
	sbc	r6, r2, #0
	bl	tlsf_words.words.Words.lengthen
	add.w	r0, r4, #80
	movs	r1, #0
	movs	r2, #88
	str.w	r9, [r4, #184]
	bl	tlsf_memory_set
	ldr	r0, [r4, #32]
	ldr	r1, [r4, #24]
	lsls	r3, r0, #2
	adds	r3, #3
	strd	r3, r9, [r1]
	strd	r7, r6, [r1, #8]
	orr	r2, r0, #32
	ldr	r3, [r4, #48]
	clz	r2, r2
	rsb.w	r2, r2, #26
	ldr	r7, [r3]
	lsrs	r0, r2
	add.w	r1, r0, r2, lsl #5
	orr	r2, r7, #1
	str	r2, [r3]
	add.w	r3, r4, r1, lsl #2
	ldr.w	r2, [r3, #168]
	str.w	r8, [r3, #168]
	cmp.w	r2, #-1
	ble	.LBB37_2
	ldr	r0, [r5]
	strd	r2, r9, [r0, #16]
	add.w	r0, r0, r2, lsl #3
	str.w	r8, [r0, #20]
	add	sp, #4
	pop.w	{r4, r5, r6, r7, r8, r9, pc}
.LBB37_2:
	ldr	r2, [r4, #24]
	lsrs	r1, r1, #5
	strd	r9, r9, [r2, #16]
	add.w	r3, r4, r1, lsl #2
	ldr	r2, [r4, #80]
	ldr	r7, [r3, #84]
	movs	r6, #1
	and	r0, r0, #31
	lsl.w	r1, r6, r1
	lsl.w	r0, r6, r0
	orrs	r1, r2
	orrs	r0, r7
	str	r1, [r4, #80]
	str	r0, [r3, #84]
	add	sp, #4
	pop.w	{r4, r5, r6, r7, r8, r9, pc}
.Lfunc_end37:
	.size	tlsf_heap.heap.Heap.begin.5, .Lfunc_end37-tlsf_heap.heap.Heap.begin.5
	.cfi_endproc
	.section	.text.tlsf_pool.sizes.split.rising_split.4,"ax",%progbits
	.p2align	2
	.type	tlsf_pool.sizes.split.rising_split.4,%function
	.code	16
	.thumb_func
tlsf_pool.sizes.split.rising_split.4:
	.cfi_startproc
	push.w	{r4, r5, r6, r7, r8, r9, r10, r11, lr}
	.cfi_def_cfa_offset 36
	.cfi_offset lr, -4
	.cfi_offset r11, -8
	.cfi_offset r10, -12
	.cfi_offset r9, -16
	.cfi_offset r8, -20
	.cfi_offset r7, -24
	.cfi_offset r6, -28
	.cfi_offset r5, -32
	.cfi_offset r4, -36
	subw	sp, sp, #1436
	.cfi_def_cfa_offset 1472
	str	r1, [sp, #28]
	subs	r1, r2, #2
	mov	r8, r3
	mov	r5, r2
	sbcs	r1, r3, #0
	blo	.LBB38_11
	mov.w	r12, #0
	movs	r1, #1
.LBB38_2:
	ldr	r2, [sp, #28]
	add.w	r3, r2, r1, lsl #3
	ldr	r2, [r3, #4]
	ldr	r3, [r3, #-4]
	cmp	r2, r3
	bls	.LBB38_13
	adds	r3, r1, #1
	adc	r7, r12, #0
	subs	r6, r3, r5
	sbcs.w	r7, r7, r8
	bhs	.LBB38_10
	ldr	r7, [sp, #28]
	add.w	r3, r7, r3, lsl #3
	ldr	r3, [r3, #4]
	cmp	r3, r2
	bls	.LBB38_13
	adds	r2, r1, #2
	adc	r7, r12, #0
	subs	r6, r2, r5
	sbcs.w	r7, r7, r8
	bhs	.LBB38_10
	ldr	r7, [sp, #28]
	add.w	r2, r7, r2, lsl #3
	ldr	r2, [r2, #4]
	cmp	r2, r3
	bls	.LBB38_13
	adds	r3, r1, #3
	adc	r7, r12, #0
	subs	r6, r3, r5
	sbcs.w	r7, r7, r8
	bhs	.LBB38_10
	ldr	r7, [sp, #28]
	add.w	r3, r7, r3, lsl #3
	ldr	r3, [r3, #4]
	cmp	r3, r2
	bls	.LBB38_13
	adds	r1, #4
	adc	r12, r12, #0
	subs	r2, r1, r5
	sbcs.w	r2, r12, r8
	blo	.LBB38_2
.LBB38_10:
	str	r0, [sp]
	add	r0, sp, #64
	movs	r1, #0
	movw	r2, #1300
	bl	tlsf_memory_set
	b	.LBB38_12
.LBB38_11:
	str	r0, [sp]
	add	r0, sp, #64
	movs	r1, #0
	movw	r2, #1300
	movs	r6, #0
	bl	tlsf_memory_set
	orrs.w	r0, r5, r8
	beq	.LBB38_14
.LBB38_12:
	add.w	r0, r5, r5, lsl #2
	lsls	r6, r0, #2
	add	r0, sp, #64
	movs	r1, #0
	mov	r2, r6
	movs	r3, #0
	str	r3, [sp, #4]
	bl	tlsf_memory_set
	b	.LBB38_15
.LBB38_13:
	movs	r1, #0
	movs	r2, #88
	addw	sp, sp, #1436
	pop.w	{r4, r5, r6, r7, r8, r9, r10, r11, lr}
	b	tlsf_memory_set
.LBB38_14:
	movs	r0, #1
	str	r0, [sp, #4]
.LBB38_15:
	add	r4, sp, #64
	movs	r1, #1
	str	r1, [r4, r6]
	addw	r1, sp, #1420
	adds	r0, r4, r6
	movs	r2, #0
	adds	r1, #5
	strd	r2, r2, [r0, #4]
	strd	r2, r2, [r0, #12]
	add.w	r0, sp, #1400
	str	r1, [sp, #44]
	addw	r1, sp, #1380
	adds	r7, r0, #4
	add.w	r10, r1, #4
	add.w	r6, r0, #8
	add.w	r0, r1, #8
	movs	r1, #0
	str	r0, [sp, #48]
	str.w	r8, [sp, #24]
	strd	r7, r5, [sp, #16]
	b	.LBB38_17
	.p2align	2
.LBB38_16:
	ldr	r2, [sp, #12]
	ldr	r3, [sp, #8]
	adds	r0, r2, #1
	adc	r1, r3, #0
	subs	r2, #7
	sbcs	r2, r3, #0
	mov	r2, r0
	bhs.w	.LBB38_30
.LBB38_17:
	strd	r1, r2, [sp, #8]
	ldr	r0, [sp, #4]
	cmp	r0, #0
	bne	.LBB38_16
	movs	r3, #0
	movs	r1, #0
	b	.LBB38_20
	.p2align	2
.LBB38_19:
	ldr	r7, [sp, #16]
	str.w	r8, [sp, #1404]
	ldrd	r12, r1, [r7]
	add.w	r0, sp, #1368
	ldrd	r2, r3, [r7, #8]
	stm	r0!, {r1, r2, r3}
	ldr	r0, [sp, #32]
	add	r4, sp, #64
	add.w	r0, r0, r0, lsl #2
	add.w	r5, r4, r0, lsl #2
	strd	r12, r1, [r5, #4]
	strd	r2, r3, [r5, #12]
	ldr	r5, [sp, #20]
	ldr	r3, [sp, #36]
	ldr.w	r8, [sp, #24]
	ldr	r1, [sp, #40]
	str.w	r9, [r4, r0, lsl #2]
	subs	r0, r3, r5
	sbcs.w	r0, r1, r8
	str.w	r12, [sp, #1364]
	bhs	.LBB38_16
.LBB38_20:
	adds	r2, r3, #1
	mov	r0, r1
	adc	r1, r1, #0
	strd	r2, r1, [sp, #36]
	add.w	r1, r2, r2, lsl #2
	add.w	r11, r4, r1, lsl #2
	subs	r1, r5, r3
	sbc.w	r0, r8, r0
	str	r1, [sp, #60]
	str	r0, [sp, #56]
	ldr	r0, [sp, #28]
	str	r3, [sp, #32]
	add.w	r0, r0, r3, lsl #3
	str	r0, [sp, #52]
	movs	r0, #0
	strd	r0, r0, [r7]
	strd	r0, r0, [r7, #8]
	mov.w	r9, #0
	mov.w	r8, #0
	movs	r4, #0
	movs	r7, #0
	b	.LBB38_24
	.p2align	2
.LBB38_21:
	movs	r0, #0
	cmp.w	r9, #0
	str.w	r0, [sp, #1396]
	str.w	r0, [sp, #1392]
	str.w	r0, [sp, #1388]
	str.w	r0, [sp, #1384]
	str.w	r0, [sp, #1380]
	beq	.LBB38_28
	mov.w	r9, #1
	mov	r0, r6
.LBB38_23:
	ldrd	r1, r2, [r0]
	ldr	r0, [r0, #8]
	strd	r1, r2, [r6]
	ldr	r1, [sp, #60]
	str	r0, [r6, #8]
	subs	r1, r4, r1
	ldr	r1, [sp, #56]
	sbcs.w	r1, r7, r1
	bhs	.LBB38_19
.LBB38_24:
	mov	r5, r4
	adds	r4, #1
	adc	r7, r7, #0
	ldr	r0, [sp, #52]
	mov	r2, r4
	mov	r3, r7
	bl	tlsf_pool.sizes.region.region_words.4
	lsls	r0, r0, #31
	beq	.LBB38_21
	add.w	r0, r5, r5, lsl #2
	ldrb.w	r2, [r11, r0, lsl #2]
	cmp	r2, #1
	bne	.LBB38_21
	add.w	r0, r11, r0, lsl #2
	ldr	r5, [r0, #16]
	ldrd	r2, r3, [r0, #4]
	ldr	r0, [r0, #12]
	str.w	r5, [sp, #1432]
	ldr	r5, [sp, #44]
	str.w	r0, [sp, #1428]
	uxtb	r0, r3
	str.w	r3, [sp, #1424]
	strb	r4, [r5, r0]
	adds	r0, r3, #1
	strb.w	r0, [sp, #1424]
	adds	r0, r2, r1
	add.w	r3, sp, #1424
	ldm	r3, {r1, r2, r3}
	stm.w	r10, {r0, r1, r2, r3}
	ldr.w	r1, [sp, #1384]
	cmp.w	r9, #0
	beq	.LBB38_29
	mov	r0, r6
	mov.w	r9, #1
	cmp	r1, r8
	ldr	r2, [sp, #48]
	itt	lo
	movlo	r0, r2
	movlo	r8, r1
	b	.LBB38_23
.LBB38_28:
	ldr	r0, [sp, #48]
	mov.w	r8, #0
	mov.w	r9, #0
	b	.LBB38_23
.LBB38_29:
	ldr	r0, [sp, #48]
	mov.w	r9, #1
	mov	r8, r1
	b	.LBB38_23
.LBB38_30:
	ldrb.w	r3, [sp, #64]
	movs	r0, #0
	cmp	r3, #1
	mov.w	r6, #0
	mov.w	r7, #0
	mov.w	r2, #0
	mov.w	r1, #0
	mov.w	r5, #0
	mov.w	r9, #0
	mov.w	r8, #0
	mov.w	lr, #0
	mov.w	r12, #0
	mov.w	r10, #0
	bne	.LBB38_32
	ldrb.w	r12, [sp, #80]
	ldrb.w	lr, [sp, #79]
	ldrb.w	r8, [sp, #78]
	ldrb.w	r9, [sp, #77]
	ldrb.w	r5, [sp, #76]
	ldrb.w	r1, [sp, #75]
	ldrb.w	r2, [sp, #74]
	ldrb.w	r7, [sp, #73]
	ldrb.w	r6, [sp, #72]
	ldr.w	r10, [sp, #68]
.LBB38_32:
	ldr	r4, [sp]
	str	r0, [r4, #4]
	str	r3, [r4]
	str	r0, [r4, #12]
	str	r6, [r4, #8]
	str	r0, [r4, #20]
	str	r7, [r4, #16]
	str	r0, [r4, #28]
	str	r2, [r4, #24]
	str	r0, [r4, #36]
	str	r1, [r4, #32]
	str	r0, [r4, #44]
	str	r5, [r4, #40]
	str	r0, [r4, #52]
	str.w	r9, [r4, #48]
	str	r0, [r4, #60]
	str.w	r8, [r4, #56]
	str	r0, [r4, #68]
	str.w	lr, [r4, #64]
	str	r0, [r4, #76]
	str.w	r12, [r4, #72]
	str	r0, [r4, #84]
	str.w	r10, [r4, #80]
	addw	sp, sp, #1436
	pop.w	{r4, r5, r6, r7, r8, r9, r10, r11, pc}
.Lfunc_end38:
	.size	tlsf_pool.sizes.split.rising_split.4, .Lfunc_end38-tlsf_pool.sizes.split.rising_split.4
	.cfi_endproc
	.section	.text.tlsf_pool.sizes.region.region_words.4,"ax",%progbits
	.p2align	2
	.type	tlsf_pool.sizes.region.region_words.4,%function
	.code	16
	.thumb_func
tlsf_pool.sizes.region.region_words.4:
	.cfi_startproc
	push.w	{r4, r5, r6, r7, r8, r9, r10, r11, lr}
	.cfi_def_cfa_offset 36
	.cfi_offset lr, -4
	.cfi_offset r11, -8
	.cfi_offset r10, -12
	.cfi_offset r9, -16
	.cfi_offset r8, -20
	.cfi_offset r7, -24
	.cfi_offset r6, -28
	.cfi_offset r5, -32
	.cfi_offset r4, -36
	orrs.w	r1, r2, r3
	mov.w	r12, #0
	beq	.LBB39_12
	movw	r7, #65513
	movs	r1, #0
	movt	r7, #127
	movs	r6, #0
.LBB39_2:
	add.w	r5, r0, r1, lsl #3
	ldr	r5, [r5, #4]
	cmp	r5, r7
	bhs	.LBB39_13
	orr	r5, r1, #1
	subs	r4, r5, r2
	sbcs.w	r4, r6, r3
	bhs	.LBB39_10
	add.w	r5, r0, r5, lsl #3
	ldr	r5, [r5, #4]
	cmp	r5, r7
	bhs	.LBB39_13
	orr	r5, r1, #2
	subs	r4, r5, r2
	sbcs.w	r4, r6, r3
	bhs	.LBB39_10
	add.w	r5, r0, r5, lsl #3
	ldr	r5, [r5, #4]
	cmp	r5, r7
	bhs	.LBB39_13
	orr	r5, r1, #3
	subs	r4, r5, r2
	sbcs.w	r4, r6, r3
	bhs	.LBB39_10
	add.w	r5, r0, r5, lsl #3
	ldr	r5, [r5, #4]
	cmp	r5, r7
	bhs	.LBB39_13
	adds	r1, #4
	adc	r6, r6, #0
	subs	r5, r1, r2
	sbcs.w	r5, r6, r3
	blo	.LBB39_2
.LBB39_10:
	subs	r1, r2, #4
	sbcs	r1, r3, #0
	and	r8, r2, #3
	bhs	.LBB39_14
	mov.w	lr, #0
	mov.w	r9, #0
	movs	r5, #0
	b	.LBB39_17
.LBB39_12:
	mov.w	lr, #0
	mov.w	r9, #0
	movs	r2, #0
	b	.LBB39_41
.LBB39_13:
	movs	r1, #0
	movs	r0, #0
	pop.w	{r4, r5, r6, r7, r8, r9, r10, r11, pc}
.LBB39_14:
	bic	r10, r2, #3
	mov.w	lr, #0
	mov.w	r9, #0
	movs	r5, #0
	movs	r6, #0
	.p2align	2
.LBB39_15:
	ldr.w	r7, [r0, r5, lsl #3]
	add.w	r1, r0, r5, lsl #3
	ldr	r4, [r1, #8]
	adds.w	r11, lr, r7
	ldr	r7, [r1, #16]
	adc	lr, r9, #0
	ldr.w	r9, [r1, #24]
	adds.w	r4, r4, r11
	adc	r1, lr, #0
	adds	r7, r7, r4
	adc	r1, r1, #0
	adds.w	lr, r7, r9
	adc	r9, r1, #0
	adds	r5, #4
	adc	r6, r6, #0
	eor.w	r1, r5, r10
	eor.w	r4, r6, r3
	orrs	r1, r4
	bne	.LBB39_15
	cmp.w	r8, #0
	beq	.LBB39_20
.LBB39_17:
	ldr.w	r1, [r0, r5, lsl #3]
	adds.w	lr, lr, r1
	adc	r9, r9, #0
	cmp.w	r8, #1
	beq	.LBB39_20
	add.w	r4, r0, r5, lsl #3
	ldr	r1, [r4, #8]
	adds.w	lr, lr, r1
	adc	r9, r9, #0
	cmp.w	r8, #2
	beq	.LBB39_20
	ldr	r1, [r4, #16]
	adds.w	lr, lr, r1
	adc	r9, r9, #0
.LBB39_20:
	subs	r1, r2, #4
	sbcs	r1, r3, #0
	bhs	.LBB39_22
	movs	r2, #0
	movs	r5, #0
	b	.LBB39_33
.LBB39_22:
	bic	r6, r2, #3
	movs	r2, #0
	movs	r5, #0
	movs	r7, #0
	b	.LBB39_24
	.p2align	2
.LBB39_23:
	adds	r5, #4
	adc	r7, r7, #0
	eor.w	r1, r5, r6
	eor.w	r4, r7, r3
	orrs	r1, r4
	beq	.LBB39_32
.LBB39_24:
	ldr.w	r1, [r0, r5, lsl #3]
	add.w	r4, r0, r5, lsl #3
	cbz	r1, .LBB39_26
	ldr	r1, [r4, #4]
	cmp	r1, r2
	it	hi
	movhi	r2, r1
.LBB39_26:
	ldr	r1, [r4, #8]
	cbz	r1, .LBB39_28
	ldr	r1, [r4, #12]
	cmp	r1, r2
	it	hi
	movhi	r2, r1
.LBB39_28:
	ldr	r1, [r4, #16]
	cbz	r1, .LBB39_30
	ldr	r1, [r4, #20]
	cmp	r1, r2
	it	hi
	movhi	r2, r1
.LBB39_30:
	ldr	r1, [r4, #24]
	cmp	r1, #0
	beq	.LBB39_23
	ldr	r1, [r4, #28]
	cmp	r1, r2
	it	hi
	movhi	r2, r1
	b	.LBB39_23
.LBB39_32:
	cmp.w	r8, #0
	beq	.LBB39_41
.LBB39_33:
	ldr.w	r1, [r0, r5, lsl #3]
	add.w	r0, r0, r5, lsl #3
	cbz	r1, .LBB39_35
	ldr	r1, [r0, #4]
	cmp	r1, r2
	it	hi
	movhi	r2, r1
.LBB39_35:
	cmp.w	r8, #1
	beq	.LBB39_41
	ldr	r1, [r0, #8]
	cbz	r1, .LBB39_38
	ldr	r1, [r0, #12]
	cmp	r1, r2
	it	hi
	movhi	r2, r1
.LBB39_38:
	cmp.w	r8, #2
	beq	.LBB39_41
	ldr	r1, [r0, #16]
	cbz	r1, .LBB39_41
	ldr	r0, [r0, #20]
	cmp	r0, r2
	it	hi
	movhi	r2, r0
.LBB39_41:
	adds	r0, r2, #1
	adc	r1, r12, #0
	cmp	r2, #0
	itt	ne
	movne	r0, r2
	movne	r1, r12
	adds	r0, #31
	adc	r1, r1, #0
	lsrs	r0, r0, #3
	orr.w	r0, r0, r1, lsl #29
	orr	r1, r0, #16
	clz	r1, r1
	rsb.w	r1, r1, #27
	subs	r0, #1
	lsrs	r0, r1
	adds	r2, r0, #1
	add.w	r0, r2, r1, lsl #4
	lsrs	r3, r0, #4
	beq	.LBB39_43
	movs	r0, #8
	and	r1, r2, #15
	subs	r2, r3, #1
	lsls	r0, r3
	lsls	r1, r2
	add	r0, r1
.LBB39_43:
	umull	r2, r1, lr, r0
	mla	r0, r9, r0, r1
	movs	r3, #4
	cmp	r2, #4
	mov.w	r1, #4
	it	hi
	movhi	r3, r2
	cmp	r0, #0
	ite	ne
	movne	r1, r2
	moveq	r1, r3
	movs	r3, #1
	movt	r3, #16
	subs	r2, r2, r3
	sbcs	r0, r0, #0
	mov.w	r0, #0
	it	lo
	movlo	r0, #1
	cmp	r0, #0
	it	eq
	moveq	r1, r0
	pop.w	{r4, r5, r6, r7, r8, r9, r10, r11, pc}
.Lfunc_end39:
	.size	tlsf_pool.sizes.region.region_words.4, .Lfunc_end39-tlsf_pool.sizes.region.region_words.4
	.cfi_endproc
	.section	.text.unlikely.std_alloc.vec.Vec.grow_amortized.8f83c87fc5454f35,"ax",%progbits
	.p2align	2
	.type	std_alloc.vec.Vec.grow_amortized.8f83c87fc5454f35,%function
	.code	16
	.thumb_func
std_alloc.vec.Vec.grow_amortized.8f83c87fc5454f35:
	.cfi_startproc
	push.w	{r4, r5, r6, r7, r8, r9, lr}
	.cfi_def_cfa_offset 28
	.cfi_offset lr, -4
	.cfi_offset r9, -8
	.cfi_offset r8, -12
	.cfi_offset r7, -16
	.cfi_offset r6, -20
	.cfi_offset r5, -24
	.cfi_offset r4, -28
	sub	sp, #28
	.cfi_def_cfa_offset 56
	ldrd	r2, r6, [r0, #8]
	movs	r1, #0
	adds.w	r9, r2, #1
	adcs	r8, r6, #0
	adc	r3, r1, #0
	cmp	r3, #1
	beq	.LBB40_8
	ldrd	r1, r5, [r0, #16]
	movw	r7, #25350
	lsls	r3, r5, #1
	orr.w	r3, r3, r1, lsr #31
	rsbs	r4, r9, r1, lsl #1
	sbcs.w	r4, r3, r8
	mov	r4, r9
	ite	hs
	lslhs	r4, r1, #1
	movlo	r3, r8
	cmp.w	r5, #1073741824
	movt	r7, #2253
	itt	lo
	movlo	r8, r3
	movlo	r9, r4
	subs.w	r7, r7, r9
	movw	r7, #48260
	movt	r7, #11
	sbcs.w	r7, r7, r8
	blo	.LBB40_7
	orrs	r1, r5
	beq	.LBB40_4
	movw	r7, #2792
	umull	r2, r1, r2, r7
	umull	r3, r5, r9, r7
	mla	r4, r6, r7, r1
	mov	r6, r0
	ldr	r1, [r0]
	mla	r0, r8, r7, r5
	cmp	r4, #0
	mov.w	r7, #-1
	it	ne
	movne	r2, r7
	cmp	r0, #0
	it	ne
	movne	r3, r7
	movs	r7, #8
	add	r0, sp, #8
	str	r7, [sp]
	bl	tlsf_memory_realloc
	b	.LBB40_5
.LBB40_4:
	mov	r6, r0
	movw	r0, #2792
	umull	r1, r2, r4, r0
	mla	r0, r3, r0, r2
	movs	r2, #8
	cmp	r0, #0
	add	r0, sp, #8
	it	ne
	movne.w	r1, #-1
	bl	tlsf_memory_alloc
.LBB40_5:
	ldr	r0, [sp, #8]
	lsls	r0, r0, #31
	beq	.LBB40_7
	ldr	r0, [sp, #16]
	movs	r1, #1
	str	r0, [r6]
	strd	r9, r8, [r6, #16]
	b	.LBB40_8
.LBB40_7:
	movs	r1, #0
.LBB40_8:
	mov	r0, r1
	add	sp, #28
	pop.w	{r4, r5, r6, r7, r8, r9, pc}
.Lfunc_end40:
	.size	std_alloc.vec.Vec.grow_amortized.8f83c87fc5454f35, .Lfunc_end40-std_alloc.vec.Vec.grow_amortized.8f83c87fc5454f35
	.cfi_endproc
	.section	.text.tlsf_pool.sizes.split.rising_split.5,"ax",%progbits
	.p2align	2
	.type	tlsf_pool.sizes.split.rising_split.5,%function
	.code	16
	.thumb_func
tlsf_pool.sizes.split.rising_split.5:
	.cfi_startproc
	push.w	{r4, r5, r6, r7, r8, r9, r10, r11, lr}
	.cfi_def_cfa_offset 36
	.cfi_offset lr, -4
	.cfi_offset r11, -8
	.cfi_offset r10, -12
	.cfi_offset r9, -16
	.cfi_offset r8, -20
	.cfi_offset r7, -24
	.cfi_offset r6, -28
	.cfi_offset r5, -32
	.cfi_offset r4, -36
	subw	sp, sp, #1436
	.cfi_def_cfa_offset 1472
	str	r1, [sp, #28]
	subs	r1, r2, #2
	mov	r8, r3
	mov	r5, r2
	sbcs	r1, r3, #0
	blo	.LBB41_11
	mov.w	r12, #0
	movs	r1, #1
.LBB41_2:
	ldr	r2, [sp, #28]
	add.w	r3, r2, r1, lsl #3
	ldr	r2, [r3, #4]
	ldr	r3, [r3, #-4]
	cmp	r2, r3
	bls	.LBB41_13
	adds	r3, r1, #1
	adc	r7, r12, #0
	subs	r6, r3, r5
	sbcs.w	r7, r7, r8
	bhs	.LBB41_10
	ldr	r7, [sp, #28]
	add.w	r3, r7, r3, lsl #3
	ldr	r3, [r3, #4]
	cmp	r3, r2
	bls	.LBB41_13
	adds	r2, r1, #2
	adc	r7, r12, #0
	subs	r6, r2, r5
	sbcs.w	r7, r7, r8
	bhs	.LBB41_10
	ldr	r7, [sp, #28]
	add.w	r2, r7, r2, lsl #3
	ldr	r2, [r2, #4]
	cmp	r2, r3
	bls	.LBB41_13
	adds	r3, r1, #3
	adc	r7, r12, #0
	subs	r6, r3, r5
	sbcs.w	r7, r7, r8
	bhs	.LBB41_10
	ldr	r7, [sp, #28]
	add.w	r3, r7, r3, lsl #3
	ldr	r3, [r3, #4]
	cmp	r3, r2
	bls	.LBB41_13
	adds	r1, #4
	adc	r12, r12, #0
	subs	r2, r1, r5
	sbcs.w	r2, r12, r8
	blo	.LBB41_2
.LBB41_10:
	str	r0, [sp]
	add	r0, sp, #64
	movs	r1, #0
	movw	r2, #1300
	bl	tlsf_memory_set
	b	.LBB41_12
.LBB41_11:
	str	r0, [sp]
	add	r0, sp, #64
	movs	r1, #0
	movw	r2, #1300
	movs	r6, #0
	bl	tlsf_memory_set
	orrs.w	r0, r5, r8
	beq	.LBB41_14
.LBB41_12:
	add.w	r0, r5, r5, lsl #2
	lsls	r6, r0, #2
	add	r0, sp, #64
	movs	r1, #0
	mov	r2, r6
	movs	r3, #0
	str	r3, [sp, #4]
	bl	tlsf_memory_set
	b	.LBB41_15
.LBB41_13:
	movs	r1, #0
	movs	r2, #88
	addw	sp, sp, #1436
	pop.w	{r4, r5, r6, r7, r8, r9, r10, r11, lr}
	b	tlsf_memory_set
.LBB41_14:
	movs	r0, #1
	str	r0, [sp, #4]
.LBB41_15:
	add	r4, sp, #64
	movs	r1, #1
	str	r1, [r4, r6]
	addw	r1, sp, #1420
	adds	r0, r4, r6
	movs	r2, #0
	adds	r1, #5
	strd	r2, r2, [r0, #4]
	strd	r2, r2, [r0, #12]
	add.w	r0, sp, #1400
	str	r1, [sp, #44]
	addw	r1, sp, #1380
	adds	r7, r0, #4
	add.w	r10, r1, #4
	add.w	r6, r0, #8
	add.w	r0, r1, #8
	movs	r1, #0
	str	r0, [sp, #48]
	str.w	r8, [sp, #24]
	strd	r7, r5, [sp, #16]
	b	.LBB41_17
	.p2align	2
.LBB41_16:
	ldr	r2, [sp, #12]
	ldr	r3, [sp, #8]
	adds	r0, r2, #1
	adc	r1, r3, #0
	subs	r2, #7
	sbcs	r2, r3, #0
	mov	r2, r0
	bhs.w	.LBB41_30
.LBB41_17:
	strd	r1, r2, [sp, #8]
	ldr	r0, [sp, #4]
	cmp	r0, #0
	bne	.LBB41_16
	movs	r3, #0
	movs	r1, #0
	b	.LBB41_20
	.p2align	2
.LBB41_19:
	ldr	r7, [sp, #16]
	str.w	r8, [sp, #1404]
	ldrd	r12, r1, [r7]
	add.w	r0, sp, #1368
	ldrd	r2, r3, [r7, #8]
	stm	r0!, {r1, r2, r3}
	ldr	r0, [sp, #32]
	add	r4, sp, #64
	add.w	r0, r0, r0, lsl #2
	add.w	r5, r4, r0, lsl #2
	strd	r12, r1, [r5, #4]
	strd	r2, r3, [r5, #12]
	ldr	r5, [sp, #20]
	ldr	r3, [sp, #36]
	ldr.w	r8, [sp, #24]
	ldr	r1, [sp, #40]
	str.w	r9, [r4, r0, lsl #2]
	subs	r0, r3, r5
	sbcs.w	r0, r1, r8
	str.w	r12, [sp, #1364]
	bhs	.LBB41_16
.LBB41_20:
	adds	r2, r3, #1
	mov	r0, r1
	adc	r1, r1, #0
	strd	r2, r1, [sp, #36]
	add.w	r1, r2, r2, lsl #2
	add.w	r11, r4, r1, lsl #2
	subs	r1, r5, r3
	sbc.w	r0, r8, r0
	str	r1, [sp, #60]
	str	r0, [sp, #56]
	ldr	r0, [sp, #28]
	str	r3, [sp, #32]
	add.w	r0, r0, r3, lsl #3
	str	r0, [sp, #52]
	movs	r0, #0
	strd	r0, r0, [r7]
	strd	r0, r0, [r7, #8]
	mov.w	r9, #0
	mov.w	r8, #0
	movs	r4, #0
	movs	r7, #0
	b	.LBB41_24
	.p2align	2
.LBB41_21:
	movs	r0, #0
	cmp.w	r9, #0
	str.w	r0, [sp, #1396]
	str.w	r0, [sp, #1392]
	str.w	r0, [sp, #1388]
	str.w	r0, [sp, #1384]
	str.w	r0, [sp, #1380]
	beq	.LBB41_28
	mov.w	r9, #1
	mov	r0, r6
.LBB41_23:
	ldrd	r1, r2, [r0]
	ldr	r0, [r0, #8]
	strd	r1, r2, [r6]
	ldr	r1, [sp, #60]
	str	r0, [r6, #8]
	subs	r1, r4, r1
	ldr	r1, [sp, #56]
	sbcs.w	r1, r7, r1
	bhs	.LBB41_19
.LBB41_24:
	mov	r5, r4
	adds	r4, #1
	adc	r7, r7, #0
	ldr	r0, [sp, #52]
	mov	r2, r4
	mov	r3, r7
	bl	tlsf_pool.sizes.region.region_words.5
	lsls	r0, r0, #31
	beq	.LBB41_21
	add.w	r0, r5, r5, lsl #2
	ldrb.w	r2, [r11, r0, lsl #2]
	cmp	r2, #1
	bne	.LBB41_21
	add.w	r0, r11, r0, lsl #2
	ldr	r5, [r0, #16]
	ldrd	r2, r3, [r0, #4]
	ldr	r0, [r0, #12]
	str.w	r5, [sp, #1432]
	ldr	r5, [sp, #44]
	str.w	r0, [sp, #1428]
	uxtb	r0, r3
	str.w	r3, [sp, #1424]
	strb	r4, [r5, r0]
	adds	r0, r3, #1
	strb.w	r0, [sp, #1424]
	adds	r0, r2, r1
	add.w	r3, sp, #1424
	ldm	r3, {r1, r2, r3}
	stm.w	r10, {r0, r1, r2, r3}
	ldr.w	r1, [sp, #1384]
	cmp.w	r9, #0
	beq	.LBB41_29
	mov	r0, r6
	mov.w	r9, #1
	cmp	r1, r8
	ldr	r2, [sp, #48]
	itt	lo
	movlo	r0, r2
	movlo	r8, r1
	b	.LBB41_23
.LBB41_28:
	ldr	r0, [sp, #48]
	mov.w	r8, #0
	mov.w	r9, #0
	b	.LBB41_23
.LBB41_29:
	ldr	r0, [sp, #48]
	mov.w	r9, #1
	mov	r8, r1
	b	.LBB41_23
.LBB41_30:
	ldrb.w	r3, [sp, #64]
	movs	r0, #0
	cmp	r3, #1
	mov.w	r6, #0
	mov.w	r7, #0
	mov.w	r2, #0
	mov.w	r1, #0
	mov.w	r5, #0
	mov.w	r9, #0
	mov.w	r8, #0
	mov.w	lr, #0
	mov.w	r12, #0
	mov.w	r10, #0
	bne	.LBB41_32
	ldrb.w	r12, [sp, #80]
	ldrb.w	lr, [sp, #79]
	ldrb.w	r8, [sp, #78]
	ldrb.w	r9, [sp, #77]
	ldrb.w	r5, [sp, #76]
	ldrb.w	r1, [sp, #75]
	ldrb.w	r2, [sp, #74]
	ldrb.w	r7, [sp, #73]
	ldrb.w	r6, [sp, #72]
	ldr.w	r10, [sp, #68]
.LBB41_32:
	ldr	r4, [sp]
	str	r0, [r4, #4]
	str	r3, [r4]
	str	r0, [r4, #12]
	str	r6, [r4, #8]
	str	r0, [r4, #20]
	str	r7, [r4, #16]
	str	r0, [r4, #28]
	str	r2, [r4, #24]
	str	r0, [r4, #36]
	str	r1, [r4, #32]
	str	r0, [r4, #44]
	str	r5, [r4, #40]
	str	r0, [r4, #52]
	str.w	r9, [r4, #48]
	str	r0, [r4, #60]
	str.w	r8, [r4, #56]
	str	r0, [r4, #68]
	str.w	lr, [r4, #64]
	str	r0, [r4, #76]
	str.w	r12, [r4, #72]
	str	r0, [r4, #84]
	str.w	r10, [r4, #80]
	addw	sp, sp, #1436
	pop.w	{r4, r5, r6, r7, r8, r9, r10, r11, pc}
.Lfunc_end41:
	.size	tlsf_pool.sizes.split.rising_split.5, .Lfunc_end41-tlsf_pool.sizes.split.rising_split.5
	.cfi_endproc
	.section	.text.tlsf_pool.sizes.region.region_words.5,"ax",%progbits
	.p2align	2
	.type	tlsf_pool.sizes.region.region_words.5,%function
	.code	16
	.thumb_func
tlsf_pool.sizes.region.region_words.5:
	.cfi_startproc
	push.w	{r4, r5, r6, r7, r8, r9, r10, r11, lr}
	.cfi_def_cfa_offset 36
	.cfi_offset lr, -4
	.cfi_offset r11, -8
	.cfi_offset r10, -12
	.cfi_offset r9, -16
	.cfi_offset r8, -20
	.cfi_offset r7, -24
	.cfi_offset r6, -28
	.cfi_offset r5, -32
	.cfi_offset r4, -36
	orrs.w	r1, r2, r3
	mov.w	r12, #0
	beq	.LBB42_12
	movw	r7, #65513
	movs	r1, #0
	movt	r7, #2047
	movs	r6, #0
.LBB42_2:
	add.w	r5, r0, r1, lsl #3
	ldr	r5, [r5, #4]
	cmp	r5, r7
	bhs	.LBB42_13
	orr	r5, r1, #1
	subs	r4, r5, r2
	sbcs.w	r4, r6, r3
	bhs	.LBB42_10
	add.w	r5, r0, r5, lsl #3
	ldr	r5, [r5, #4]
	cmp	r5, r7
	bhs	.LBB42_13
	orr	r5, r1, #2
	subs	r4, r5, r2
	sbcs.w	r4, r6, r3
	bhs	.LBB42_10
	add.w	r5, r0, r5, lsl #3
	ldr	r5, [r5, #4]
	cmp	r5, r7
	bhs	.LBB42_13
	orr	r5, r1, #3
	subs	r4, r5, r2
	sbcs.w	r4, r6, r3
	bhs	.LBB42_10
	add.w	r5, r0, r5, lsl #3
	ldr	r5, [r5, #4]
	cmp	r5, r7
	bhs	.LBB42_13
	adds	r1, #4
	adc	r6, r6, #0
	subs	r5, r1, r2
	sbcs.w	r5, r6, r3
	blo	.LBB42_2
.LBB42_10:
	subs	r1, r2, #4
	sbcs	r1, r3, #0
	and	r8, r2, #3
	bhs	.LBB42_14
	mov.w	lr, #0
	mov.w	r9, #0
	movs	r5, #0
	b	.LBB42_17
.LBB42_12:
	mov.w	lr, #0
	mov.w	r9, #0
	movs	r2, #0
	b	.LBB42_41
.LBB42_13:
	movs	r1, #0
	movs	r0, #0
	pop.w	{r4, r5, r6, r7, r8, r9, r10, r11, pc}
.LBB42_14:
	bic	r10, r2, #3
	mov.w	lr, #0
	mov.w	r9, #0
	movs	r5, #0
	movs	r6, #0
	.p2align	2
.LBB42_15:
	ldr.w	r7, [r0, r5, lsl #3]
	add.w	r1, r0, r5, lsl #3
	ldr	r4, [r1, #8]
	adds.w	r11, lr, r7
	ldr	r7, [r1, #16]
	adc	lr, r9, #0
	ldr.w	r9, [r1, #24]
	adds.w	r4, r4, r11
	adc	r1, lr, #0
	adds	r7, r7, r4
	adc	r1, r1, #0
	adds.w	lr, r7, r9
	adc	r9, r1, #0
	adds	r5, #4
	adc	r6, r6, #0
	eor.w	r1, r5, r10
	eor.w	r4, r6, r3
	orrs	r1, r4
	bne	.LBB42_15
	cmp.w	r8, #0
	beq	.LBB42_20
.LBB42_17:
	ldr.w	r1, [r0, r5, lsl #3]
	adds.w	lr, lr, r1
	adc	r9, r9, #0
	cmp.w	r8, #1
	beq	.LBB42_20
	add.w	r4, r0, r5, lsl #3
	ldr	r1, [r4, #8]
	adds.w	lr, lr, r1
	adc	r9, r9, #0
	cmp.w	r8, #2
	beq	.LBB42_20
	ldr	r1, [r4, #16]
	adds.w	lr, lr, r1
	adc	r9, r9, #0
.LBB42_20:
	subs	r1, r2, #4
	sbcs	r1, r3, #0
	bhs	.LBB42_22
	movs	r2, #0
	movs	r5, #0
	b	.LBB42_33
.LBB42_22:
	bic	r6, r2, #3
	movs	r2, #0
	movs	r5, #0
	movs	r7, #0
	b	.LBB42_24
	.p2align	2
.LBB42_23:
	adds	r5, #4
	adc	r7, r7, #0
	eor.w	r1, r5, r6
	eor.w	r4, r7, r3
	orrs	r1, r4
	beq	.LBB42_32
.LBB42_24:
	ldr.w	r1, [r0, r5, lsl #3]
	add.w	r4, r0, r5, lsl #3
	cbz	r1, .LBB42_26
	ldr	r1, [r4, #4]
	cmp	r1, r2
	it	hi
	movhi	r2, r1
.LBB42_26:
	ldr	r1, [r4, #8]
	cbz	r1, .LBB42_28
	ldr	r1, [r4, #12]
	cmp	r1, r2
	it	hi
	movhi	r2, r1
.LBB42_28:
	ldr	r1, [r4, #16]
	cbz	r1, .LBB42_30
	ldr	r1, [r4, #20]
	cmp	r1, r2
	it	hi
	movhi	r2, r1
.LBB42_30:
	ldr	r1, [r4, #24]
	cmp	r1, #0
	beq	.LBB42_23
	ldr	r1, [r4, #28]
	cmp	r1, r2
	it	hi
	movhi	r2, r1
	b	.LBB42_23
.LBB42_32:
	cmp.w	r8, #0
	beq	.LBB42_41
.LBB42_33:
	ldr.w	r1, [r0, r5, lsl #3]
	add.w	r0, r0, r5, lsl #3
	cbz	r1, .LBB42_35
	ldr	r1, [r0, #4]
	cmp	r1, r2
	it	hi
	movhi	r2, r1
.LBB42_35:
	cmp.w	r8, #1
	beq	.LBB42_41
	ldr	r1, [r0, #8]
	cbz	r1, .LBB42_38
	ldr	r1, [r0, #12]
	cmp	r1, r2
	it	hi
	movhi	r2, r1
.LBB42_38:
	cmp.w	r8, #2
	beq	.LBB42_41
	ldr	r1, [r0, #16]
	cbz	r1, .LBB42_41
	ldr	r0, [r0, #20]
	cmp	r0, r2
	it	hi
	movhi	r2, r0
.LBB42_41:
	adds	r0, r2, #1
	adc	r1, r12, #0
	cmp	r2, #0
	itt	ne
	movne	r0, r2
	movne	r1, r12
	adds	r0, #31
	adc	r1, r1, #0
	lsrs	r0, r0, #3
	orr.w	r0, r0, r1, lsl #29
	orr	r1, r0, #32
	clz	r1, r1
	rsb.w	r1, r1, #26
	subs	r0, #1
	lsrs	r0, r1
	adds	r2, r0, #1
	add.w	r0, r2, r1, lsl #5
	lsrs	r3, r0, #5
	beq	.LBB42_43
	movs	r0, #16
	and	r1, r2, #31
	subs	r2, r3, #1
	lsls	r0, r3
	lsls	r1, r2
	add	r0, r1
.LBB42_43:
	umull	r2, r1, lr, r0
	mla	r0, r9, r0, r1
	movs	r3, #4
	cmp	r2, #4
	mov.w	r1, #4
	it	hi
	movhi	r3, r2
	cmp	r0, #0
	ite	ne
	movne	r1, r2
	moveq	r1, r3
	movs	r3, #1
	movt	r3, #256
	subs	r2, r2, r3
	sbcs	r0, r0, #0
	mov.w	r0, #0
	it	lo
	movlo	r0, #1
	cmp	r0, #0
	it	eq
	moveq	r1, r0
	pop.w	{r4, r5, r6, r7, r8, r9, r10, r11, pc}
.Lfunc_end42:
	.size	tlsf_pool.sizes.region.region_words.5, .Lfunc_end42-tlsf_pool.sizes.region.region_words.5
	.cfi_endproc
	.section	.text.unlikely.std_alloc.vec.Vec.grow_amortized.cb831ce0f1fbfa3d,"ax",%progbits
	.p2align	2
	.type	std_alloc.vec.Vec.grow_amortized.cb831ce0f1fbfa3d,%function
	.code	16
	.thumb_func
std_alloc.vec.Vec.grow_amortized.cb831ce0f1fbfa3d:
	.cfi_startproc
	push.w	{r4, r5, r6, r7, r8, r9, lr}
	.cfi_def_cfa_offset 28
	.cfi_offset lr, -4
	.cfi_offset r9, -8
	.cfi_offset r8, -12
	.cfi_offset r7, -16
	.cfi_offset r6, -20
	.cfi_offset r5, -24
	.cfi_offset r4, -28
	sub	sp, #28
	.cfi_def_cfa_offset 56
	ldrd	r2, r6, [r0, #8]
	movs	r1, #0
	adds.w	r9, r2, #1
	adcs	r8, r6, #0
	adc	r3, r1, #0
	cmp	r3, #1
	beq	.LBB43_8
	ldrd	r1, r5, [r0, #16]
	movw	r7, #25350
	lsls	r3, r5, #1
	orr.w	r3, r3, r1, lsr #31
	rsbs	r4, r9, r1, lsl #1
	sbcs.w	r4, r3, r8
	mov	r4, r9
	ite	hs
	lslhs	r4, r1, #1
	movlo	r3, r8
	cmp.w	r5, #1073741824
	movt	r7, #2253
	itt	lo
	movlo	r8, r3
	movlo	r9, r4
	subs.w	r7, r7, r9
	movw	r7, #48260
	movt	r7, #11
	sbcs.w	r7, r7, r8
	blo	.LBB43_7
	orrs	r1, r5
	beq	.LBB43_4
	movw	r7, #2792
	umull	r2, r1, r2, r7
	umull	r3, r5, r9, r7
	mla	r4, r6, r7, r1
	mov	r6, r0
	ldr	r1, [r0]
	mla	r0, r8, r7, r5
	cmp	r4, #0
	mov.w	r7, #-1
	it	ne
	movne	r2, r7
	cmp	r0, #0
	it	ne
	movne	r3, r7
	movs	r7, #8
	add	r0, sp, #8
	str	r7, [sp]
	bl	tlsf_memory_realloc
	b	.LBB43_5
.LBB43_4:
	mov	r6, r0
	movw	r0, #2792
	umull	r1, r2, r4, r0
	mla	r0, r3, r0, r2
	movs	r2, #8
	cmp	r0, #0
	add	r0, sp, #8
	it	ne
	movne.w	r1, #-1
	bl	tlsf_memory_alloc
.LBB43_5:
	ldr	r0, [sp, #8]
	lsls	r0, r0, #31
	beq	.LBB43_7
	ldr	r0, [sp, #16]
	movs	r1, #1
	str	r0, [r6]
	strd	r9, r8, [r6, #16]
	b	.LBB43_8
.LBB43_7:
	movs	r1, #0
.LBB43_8:
	mov	r0, r1
	add	sp, #28
	pop.w	{r4, r5, r6, r7, r8, r9, pc}
.Lfunc_end43:
	.size	std_alloc.vec.Vec.grow_amortized.cb831ce0f1fbfa3d, .Lfunc_end43-std_alloc.vec.Vec.grow_amortized.cb831ce0f1fbfa3d
	.cfi_endproc
	.section	.text.tlsf_heap.region.Region.read.4,"ax",%progbits
	.p2align	2
	.type	tlsf_heap.region.Region.read.4,%function
	.code	16
	.thumb_func
tlsf_heap.region.Region.read.4:
	.cfi_startproc
	push	{r4, r5, r6, lr}
	.cfi_def_cfa_offset 16
	.cfi_offset lr, -4
	.cfi_offset r6, -8
	.cfi_offset r5, -12
	.cfi_offset r4, -16
	sub	sp, #16
	.cfi_def_cfa_offset 32
	mov	lr, r2
	ldr	r4, [sp, #32]
	lsrs	r2, r1, #29
	adds.w	r1, lr, r1, lsl #3
	mov	r12, r3
	adc	r3, r2, #0
	adds.w	r2, r1, #24
	orr.w	r1, r4, lr
	adc	r3, r3, #0
	lsls	r1, r1, #29
	ldr	r1, [sp, #36]
	beq	.LBB44_3
	rsbs.w	r6, r4, #7
	mov.w	r6, #0
	sbcs	r6, r1
	blo	.LBB44_10
	strd	r4, r1, [sp, #8]
	str.w	r12, [sp]
	bl	tlsf_words.words.Words.read_few
	add	sp, #16
	pop	{r4, r5, r6, pc}
.LBB44_3:
	rsbs.w	r3, r4, #63
	mov.w	r3, #0
	sbcs	r3, r1
	ldr	r0, [r0]
	lsr.w	r3, r4, #3
	bic	r2, r2, #7
	orr.w	lr, r3, r1, lsl #29
	add	r0, r2
	blo	.LBB44_12
	lsls	r2, r4, #28
	bpl	.LBB44_6
	mvn	r2, #7
	add.w	r2, r2, lr, lsl #3
	adds	r3, r0, r2
	ldr	r3, [r3, #4]
	ldr	r5, [r0, r2]
	add.w	r6, r12, r2
	str.w	r5, [r12, r2]
	str	r3, [r6, #4]
.LBB44_6:
	lsls	r2, r4, #27
	bpl	.LBB44_8
	movs	r2, #32
	and.w	r2, r2, lr, lsl #3
	adds	r3, r0, r2
	ldr	r6, [r0, r2]
	ldr	r3, [r3, #4]
	add.w	r5, r12, r2
	str.w	r6, [r12, r2]
	adds	r2, #8
	str	r3, [r5, #4]
	adds	r3, r0, r2
	ldr	r3, [r3, #4]
	ldr	r6, [r0, r2]
	add.w	r5, r12, r2
	str.w	r6, [r12, r2]
	str	r3, [r5, #4]
.LBB44_8:
	subs.w	r2, r4, #25
	sbcs	r1, r1, #0
	blo	.LBB44_11
	ldrd	r2, r1, [r0]
	str.w	r1, [r12, #4]
	str.w	r2, [r12]
	ldrd	r2, r1, [r0, #8]
	str.w	r1, [r12, #12]
	str.w	r2, [r12, #8]
	ldrd	r2, r1, [r0, #16]
	str.w	r1, [r12, #20]
	str.w	r2, [r12, #16]
	ldr	r1, [r0, #28]
	ldr	r0, [r0, #24]
	str.w	r1, [r12, #28]
	str.w	r0, [r12, #24]
	add	sp, #16
	pop	{r4, r5, r6, pc}
.LBB44_10:
	strd	r4, r1, [sp, #8]
	str.w	r12, [sp]
	bl	tlsf_words.words.Words.read_run
.LBB44_11:
	add	sp, #16
	pop	{r4, r5, r6, pc}
.LBB44_12:
	lsrs	r3, r1, #3
	mov	r2, lr
	str.w	r12, [sp, #32]
	add	sp, #16
	pop.w	{r4, r5, r6, lr}
	b	tlsf_words.cells.unpack_many
.Lfunc_end44:
	.size	tlsf_heap.region.Region.read.4, .Lfunc_end44-tlsf_heap.region.Region.read.4
	.cfi_endproc
	.section	.text.tlsf_words.cells.unpack_many,"ax",%progbits
	.p2align	2
	.type	tlsf_words.cells.unpack_many,%function
	.code	16
	.thumb_func
tlsf_words.cells.unpack_many:
	.cfi_startproc
	push.w	{r4, r5, r6, r7, r8, lr}
	.cfi_def_cfa_offset 24
	.cfi_offset lr, -4
	.cfi_offset r8, -8
	.cfi_offset r7, -12
	.cfi_offset r6, -16
	.cfi_offset r5, -20
	.cfi_offset r4, -24
	sub	sp, #24
	.cfi_def_cfa_offset 48
	ldr.w	lr, [sp, #48]
	bic	r12, r2, #3
	lsls	r4, r2, #31
	add.w	r1, lr, r12, lsl #3
	add.w	r4, r0, r12, lsl #3
	beq	.LBB45_2
	movs	r5, #24
	and.w	r5, r5, r2, lsl #3
	subs	r5, #8
	adds	r6, r4, r5
	ldr.w	r8, [r6, #4]
	ldr	r7, [r4, r5]
	adds	r6, r1, r5
	str	r7, [r1, r5]
	str.w	r8, [r6, #4]
.LBB45_2:
	lsls	r2, r2, #30
	bpl	.LBB45_4
	ldrd	r5, r2, [r4]
	str	r2, [r1, #4]
	str	r5, [r1]
	ldr	r2, [r4, #12]
	ldr	r4, [r4, #8]
	str	r2, [r1, #12]
	str	r4, [r1, #8]
.LBB45_4:
	movs	r2, #0
	movs	r1, #0
	.p2align	2
.LBB45_5:
	add.w	r4, r0, r2, lsl #3
	ldr	r4, [r4, #4]
	ldr.w	r5, [r0, r2, lsl #3]
	add.w	r6, lr, r2, lsl #3
	str.w	r5, [lr, r2, lsl #3]
	str	r4, [r6, #4]
	orr	r4, r2, #1
	add.w	r5, r0, r4, lsl #3
	ldr.w	r6, [r0, r4, lsl #3]
	ldr	r5, [r5, #4]
	add.w	r7, lr, r4, lsl #3
	str.w	r6, [lr, r4, lsl #3]
	orr	r4, r2, #2
	str	r5, [r7, #4]
	add.w	r5, r0, r4, lsl #3
	ldr	r5, [r5, #4]
	ldr.w	r6, [r0, r4, lsl #3]
	add.w	r7, lr, r4, lsl #3
	str.w	r6, [lr, r4, lsl #3]
	str	r5, [r7, #4]
	orr	r4, r2, #3
	ldr.w	r6, [r0, r4, lsl #3]
	add.w	r5, r0, r4, lsl #3
	adds	r2, #4
	ldr	r5, [r5, #4]
	add.w	r7, lr, r4, lsl #3
	str.w	r6, [lr, r4, lsl #3]
	adc	r1, r1, #0
	subs.w	r4, r2, r12
	sbcs.w	r4, r1, r3
	str	r5, [r7, #4]
	blo	.LBB45_5
	add	sp, #24
	pop.w	{r4, r5, r6, r7, r8, pc}
.Lfunc_end45:
	.size	tlsf_words.cells.unpack_many, .Lfunc_end45-tlsf_words.cells.unpack_many
	.cfi_endproc
	.section	.text.tlsf_words.words.Words.read_few,"ax",%progbits
	.p2align	2
	.type	tlsf_words.words.Words.read_few,%function
	.code	16
	.thumb_func
tlsf_words.words.Words.read_few:
	.cfi_startproc
	push.w	{r4, r5, r6, r7, r8, r9, r10, r11, lr}
	.cfi_def_cfa_offset 36
	.cfi_offset lr, -4
	.cfi_offset r11, -8
	.cfi_offset r10, -12
	.cfi_offset r9, -16
	.cfi_offset r8, -20
	.cfi_offset r7, -24
	.cfi_offset r6, -28
	.cfi_offset r5, -32
	.cfi_offset r4, -36
	sub	sp, #12
	.cfi_def_cfa_offset 48
	mov	r10, r0
	ldrd	r7, r11, [sp, #56]
	and	r0, r2, #7
	rsb.w	r4, r0, #8
	mov.w	r9, #0
	subs	r1, r4, r7
	sbcs.w	r1, r9, r11
	ldr.w	r8, [sp, #48]
	mov	r6, r7
	lsr.w	r1, r2, #3
	it	lo
	movlo	r6, r4
	orrs.w	r2, r7, r11
	orr.w	r5, r1, r3, lsl #29
	beq	.LBB46_2
	ldr.w	r1, [r10]
	add.w	r2, r1, r5, lsl #3
	ldr.w	r1, [r1, r5, lsl #3]
	ldr	r2, [r2, #4]
	strd	r1, r2, [sp]
	mov	r1, sp
	add	r1, r0
	mov	r0, r8
	mov	r2, r6
	bl	tlsf_memory_cpy
.LBB46_2:
	subs	r0, r4, r7
	sbcs.w	r0, r9, r11
	bhs	.LBB46_4
	ldr.w	r0, [r10]
	subs	r2, r7, r6
	add.w	r0, r0, r5, lsl #3
	ldrd	r1, r3, [r0, #8]
	add.w	r0, r8, r6
	strd	r1, r3, [sp]
	mov	r1, sp
	bl	tlsf_memory_cpy
.LBB46_4:
	add	sp, #12
	pop.w	{r4, r5, r6, r7, r8, r9, r10, r11, pc}
.Lfunc_end46:
	.size	tlsf_words.words.Words.read_few, .Lfunc_end46-tlsf_words.words.Words.read_few
	.cfi_endproc
	.section	.text.tlsf_words.words.Words.read_run,"ax",%progbits
	.p2align	2
	.type	tlsf_words.words.Words.read_run,%function
	.code	16
	.thumb_func
tlsf_words.words.Words.read_run:
	.cfi_startproc
	push.w	{r4, r5, r6, r7, r8, r9, r10, r11, lr}
	.cfi_def_cfa_offset 36
	.cfi_offset lr, -4
	.cfi_offset r11, -8
	.cfi_offset r10, -12
	.cfi_offset r9, -16
	.cfi_offset r8, -20
	.cfi_offset r7, -24
	.cfi_offset r6, -28
	.cfi_offset r5, -32
	.cfi_offset r4, -36
	sub	sp, #12
	.cfi_def_cfa_offset 48
	ldrd	r5, r6, [sp, #56]
	rsbs	r4, r2, #0
	mov	r9, r0
	and	r0, r4, #7
	subs.w	r11, r5, r0
	ldr.w	lr, [sp, #48]
	sbc	r12, r6, #0
	adds	r1, r2, #7
	mov	r7, r11
	str	r0, [sp, #8]
	lsr.w	r0, r11, #3
	adc	r3, r3, #0
	bfi	r7, r4, #0, #3
	ands	r4, r2, #7
	lsr.w	r8, r1, #3
	beq	.LBB47_2
	ldr.w	r1, [r9]
	bic	r2, r2, #7
	str	r0, [sp, #4]
	mov	r0, r12
	add.w	r12, r1, r2
	ldr	r1, [r1, r2]
	ldr.w	r2, [r12, #4]
	mov	r12, r0
	mov	r10, lr
	mov	lr, r3
	mvn	r3, #31
	movs	r0, #32
	add.w	r3, r3, r4, lsl #3
	sub.w	r0, r0, r4, lsl #3
	lsls	r4, r4, #3
	lsl.w	r0, r2, r0
	lsrs	r1, r4
	orrs	r0, r1
	cmp	r3, #0
	it	pl
	lsrpl.w	r0, r2, r3
	lsr.w	r1, r2, r4
	it	pl
	movpl	r1, #0
	str.w	r0, [r10]
	ldr	r0, [sp, #4]
	mov	r3, lr
	mov	lr, r10
	str.w	r1, [r10, #4]
.LBB47_2:
	orr.w	r2, r0, r12, lsl #29
	eor.w	r0, r7, r5
	orrs	r0, r6
	orr.w	r10, r8, r3, lsl #29
	beq	.LBB47_4
	ldr.w	r1, [r9]
	subs	r0, r7, r5
	add.w	r7, r2, r10
	add.w	r6, r1, r7, lsl #3
	str.w	r12, [sp, #4]
	ldr.w	r12, [r6, #4]
	movs	r6, #64
	ldr.w	r1, [r1, r7, lsl #3]
	add.w	r4, lr, r5
	add.w	r6, r6, r0, lsl #3
	mov.w	r7, #-1
	movs	r3, #32
	str	r2, [sp]
	ldr	r2, [r4, #-4]
	lsl.w	r5, r7, r6
	add.w	r3, r3, r0, lsl #3
	ldr	r8, [r4, #-8]
	cmp	r3, #0
	itt	pl
	movpl	r5, #0
	lslpl	r7, r3
	bic.w	r2, r2, r7
	mvn	r7, #31
	sub.w	r0, r7, r0, lsl #3
	lsr.w	r0, r1, r0
	lsl.w	r7, r12, r6
	orr.w	r0, r0, r7
	ldr.w	r12, [sp, #4]
	it	pl
	lslpl.w	r0, r1, r3
	lsl.w	r1, r1, r6
	bic.w	r5, r8, r5
	it	pl
	movpl	r1, #0
	adds	r1, r1, r5
	adcs	r0, r2
	ldr	r2, [sp]
	str	r1, [r4, #-8]
	str	r0, [r4, #-4]
.LBB47_4:
	ldr	r0, [sp, #8]
	rsbs.w	r1, r11, #63
	add.w	r4, lr, r0
	ldr.w	r0, [r9]
	mov.w	r1, #0
	sbcs.w	r1, r1, r12
	add.w	r0, r0, r10, lsl #3
	blo	.LBB47_12
	lsls.w	r1, r11, #28
	bpl	.LBB47_7
	mvn	r1, #7
	add.w	r1, r1, r2, lsl #3
	adds	r3, r0, r1
	ldr	r3, [r3, #4]
	ldr	r7, [r0, r1]
	adds	r6, r4, r1
	str	r7, [r4, r1]
	str	r3, [r6, #4]
.LBB47_7:
	lsls.w	r1, r11, #27
	bpl	.LBB47_9
	movs	r1, #32
	and.w	r1, r1, r2, lsl #3
	adds	r2, r0, r1
	ldr	r3, [r0, r1]
	ldr	r2, [r2, #4]
	adds	r7, r4, r1
	str	r3, [r4, r1]
	adds	r1, #8
	str	r2, [r7, #4]
	adds	r2, r0, r1
	ldr	r2, [r2, #4]
	ldr	r3, [r0, r1]
	adds	r7, r4, r1
	str	r3, [r4, r1]
	str	r2, [r7, #4]
.LBB47_9:
	subs.w	r1, r11, #32
	sbcs	r1, r12, #0
	blo	.LBB47_11
	ldrd	r2, r1, [r0]
	str	r1, [r4, #4]
	str	r2, [r4]
	ldrd	r2, r1, [r0, #8]
	str	r1, [r4, #12]
	str	r2, [r4, #8]
	ldrd	r2, r1, [r0, #16]
	str	r1, [r4, #20]
	str	r2, [r4, #16]
	ldr	r1, [r0, #28]
	ldr	r0, [r0, #24]
	str	r1, [r4, #28]
	str	r0, [r4, #24]
.LBB47_11:
	add	sp, #12
	pop.w	{r4, r5, r6, r7, r8, r9, r10, r11, pc}
.LBB47_12:
	lsr.w	r3, r12, #3
	str	r4, [sp, #48]
	add	sp, #12
	pop.w	{r4, r5, r6, r7, r8, r9, r10, r11, lr}
	b	tlsf_words.cells.unpack_many
.Lfunc_end47:
	.size	tlsf_words.words.Words.read_run, .Lfunc_end47-tlsf_words.words.Words.read_run
	.cfi_endproc
	.section	.text.tlsf_heap.region.Region.read.5,"ax",%progbits
	.p2align	2
	.type	tlsf_heap.region.Region.read.5,%function
	.code	16
	.thumb_func
tlsf_heap.region.Region.read.5:
	.cfi_startproc
	push	{r4, r5, r6, lr}
	.cfi_def_cfa_offset 16
	.cfi_offset lr, -4
	.cfi_offset r6, -8
	.cfi_offset r5, -12
	.cfi_offset r4, -16
	sub	sp, #16
	.cfi_def_cfa_offset 32
	mov	lr, r2
	ldr	r4, [sp, #32]
	lsrs	r2, r1, #29
	adds.w	r1, lr, r1, lsl #3
	mov	r12, r3
	adc	r3, r2, #0
	adds.w	r2, r1, #24
	orr.w	r1, r4, lr
	adc	r3, r3, #0
	lsls	r1, r1, #29
	ldr	r1, [sp, #36]
	beq	.LBB48_3
	rsbs.w	r6, r4, #7
	mov.w	r6, #0
	sbcs	r6, r1
	blo	.LBB48_10
	strd	r4, r1, [sp, #8]
	str.w	r12, [sp]
	bl	tlsf_words.words.Words.read_few
	add	sp, #16
	pop	{r4, r5, r6, pc}
.LBB48_3:
	rsbs.w	r3, r4, #63
	mov.w	r3, #0
	sbcs	r3, r1
	ldr	r0, [r0]
	lsr.w	r3, r4, #3
	bic	r2, r2, #7
	orr.w	lr, r3, r1, lsl #29
	add	r0, r2
	blo	.LBB48_12
	lsls	r2, r4, #28
	bpl	.LBB48_6
	mvn	r2, #7
	add.w	r2, r2, lr, lsl #3
	adds	r3, r0, r2
	ldr	r3, [r3, #4]
	ldr	r5, [r0, r2]
	add.w	r6, r12, r2
	str.w	r5, [r12, r2]
	str	r3, [r6, #4]
.LBB48_6:
	lsls	r2, r4, #27
	bpl	.LBB48_8
	movs	r2, #32
	and.w	r2, r2, lr, lsl #3
	adds	r3, r0, r2
	ldr	r6, [r0, r2]
	ldr	r3, [r3, #4]
	add.w	r5, r12, r2
	str.w	r6, [r12, r2]
	adds	r2, #8
	str	r3, [r5, #4]
	adds	r3, r0, r2
	ldr	r3, [r3, #4]
	ldr	r6, [r0, r2]
	add.w	r5, r12, r2
	str.w	r6, [r12, r2]
	str	r3, [r5, #4]
.LBB48_8:
	subs.w	r2, r4, #25
	sbcs	r1, r1, #0
	blo	.LBB48_11
	ldrd	r2, r1, [r0]
	str.w	r1, [r12, #4]
	str.w	r2, [r12]
	ldrd	r2, r1, [r0, #8]
	str.w	r1, [r12, #12]
	str.w	r2, [r12, #8]
	ldrd	r2, r1, [r0, #16]
	str.w	r1, [r12, #20]
	str.w	r2, [r12, #16]
	ldr	r1, [r0, #28]
	ldr	r0, [r0, #24]
	str.w	r1, [r12, #28]
	str.w	r0, [r12, #24]
	add	sp, #16
	pop	{r4, r5, r6, pc}
.LBB48_10:
	strd	r4, r1, [sp, #8]
	str.w	r12, [sp]
	bl	tlsf_words.words.Words.read_run
.LBB48_11:
	add	sp, #16
	pop	{r4, r5, r6, pc}
.LBB48_12:
	lsrs	r3, r1, #3
	mov	r2, lr
	str.w	r12, [sp, #32]
	add	sp, #16
	pop.w	{r4, r5, r6, lr}
	b	tlsf_words.cells.unpack_many
.Lfunc_end48:
	.size	tlsf_heap.region.Region.read.5, .Lfunc_end48-tlsf_heap.region.Region.read.5
	.cfi_endproc
	.section	.text.tlsf_heap.heap.Heap.report.4,"ax",%progbits
	.p2align	2
	.type	tlsf_heap.heap.Heap.report.4,%function
	.code	16
	.thumb_func
tlsf_heap.heap.Heap.report.4:
	.cfi_startproc
	push.w	{r4, r5, r6, r7, r8, r9, r10, r11, lr}
	.cfi_def_cfa_offset 36
	.cfi_offset lr, -4
	.cfi_offset r11, -8
	.cfi_offset r10, -12
	.cfi_offset r9, -16
	.cfi_offset r8, -20
	.cfi_offset r7, -24
	.cfi_offset r6, -28
	.cfi_offset r5, -32
	.cfi_offset r4, -36
	sub	sp, #28
	.cfi_def_cfa_offset 64
	str	r0, [sp, #12]
	ldr	r0, [r1, #32]
	ldrd	r4, r3, [r1, #8]
	cmp	r0, #0
	beq	.LBB49_11
	ldr	r1, [r1, #24]
	mov.w	r8, #0
	movs	r2, #0
	mov.w	r9, #0
	movs	r5, #0
	movs	r7, #0
	mov.w	lr, #0
	mov.w	r12, #0
	strd	r4, r3, [sp, #4]
	strd	r3, r4, [sp, #20]
	str	r1, [sp, #16]
	b	.LBB49_4
	.p2align	2
.LBB49_2:
	ldr	r6, [r6, #16]
	add.w	r12, r12, #1
	add	lr, r3
	add	r7, r6
.LBB49_3:
	add	r2, r3
	cmp	r2, r0
	bhs	.LBB49_6
.LBB49_4:
	ldr.w	r3, [r1, r2, lsl #3]
	add.w	r6, r1, r2, lsl #3
	lsls	r4, r3, #31
	lsr.w	r3, r3, #2
	beq	.LBB49_2
	ldr	r4, [r6, #12]
	ldr	r6, [r6, #8]
	cmp	r3, r8
	it	hi
	movhi	r8, r3
	ldr.w	r11, [sp, #24]
	adds	r5, #1
	add	r9, r3
	mov	r1, r0
	ldr	r0, [sp, #20]
	mov	r10, r8
	mov	r8, r9
	mov	r9, r12
	mov	r12, lr
	mov	lr, r5
	subs.w	r5, r6, r11
	sbcs.w	r5, r4, r0
	it	lo
	movlo	r0, r4
	str	r0, [sp, #20]
	mov	r0, r1
	ldr	r1, [sp, #16]
	mov	r5, lr
	mov	lr, r12
	mov	r12, r9
	mov	r9, r8
	mov	r8, r10
	it	lo
	movlo	r11, r6
	str.w	r11, [sp, #24]
	b	.LBB49_3
.LBB49_6:
	cmp.w	r8, #0
	beq	.LBB49_12
	orr	r0, r8, #16
	clz	r0, r0
	rsb.w	r0, r0, #27
	lsr.w	r1, r8, r0
	add.w	r0, r1, r0, lsl #4
	lsrs	r2, r0, #4
	beq	.LBB49_9
	movs	r0, #8
	lsls	r0, r2
	and	r1, r1, #15
	subs	r2, #1
	lsls	r1, r2
	add	r0, r1
.LBB49_9:
	mvn	r1, #23
	add.w	r10, r1, r0, lsl #3
	cmp.w	r9, #0
	beq	.LBB49_13
.LBB49_10:
	mov.w	r0, #1000
	umull	r0, r1, r8, r0
	mov	r2, r9
	movs	r3, #0
	mov	r4, lr
	mov	r6, r12
	bl	__aeabi_uldivmod
	mov	r12, r6
	mov	lr, r4
	rsb.w	r0, r0, #1000
	b	.LBB49_14
.LBB49_11:
	mov.w	r10, #0
	mov.w	r12, #0
	mov.w	lr, #0
	movs	r7, #0
	movs	r5, #0
	mov.w	r9, #0
	mov.w	r8, #0
	mov	r2, r4
	mov	r6, r3
	movs	r0, #0
	b	.LBB49_15
.LBB49_12:
	mov.w	r10, #0
	cmp.w	r9, #0
	bne	.LBB49_10
.LBB49_13:
	mov.w	r9, #0
	movs	r0, #0
.LBB49_14:
	ldrd	r4, r3, [sp, #4]
	ldrd	r6, r2, [sp, #20]
.LBB49_15:
	subs	r2, r4, r2
	sbcs	r3, r6
	ldr	r6, [sp, #12]
	rsb	r1, r7, lr, lsl #3
	str	r0, [r6, #28]
	movs	r0, #0
	str.w	r12, [r6]
	str.w	lr, [r6, #4]
	str	r7, [r6, #8]
	str	r5, [r6, #12]
	str.w	r9, [r6, #16]
	str.w	r8, [r6, #20]
	str.w	r10, [r6, #24]
	str	r1, [r6, #32]
	str	r0, [r6, #36]
	str	r2, [r6, #40]
	str	r3, [r6, #44]
	add	sp, #28
	pop.w	{r4, r5, r6, r7, r8, r9, r10, r11, pc}
.Lfunc_end49:
	.size	tlsf_heap.heap.Heap.report.4, .Lfunc_end49-tlsf_heap.heap.Heap.report.4
	.cfi_endproc
	.section	.text.tlsf_heap.heap.Heap.report.5,"ax",%progbits
	.p2align	2
	.type	tlsf_heap.heap.Heap.report.5,%function
	.code	16
	.thumb_func
tlsf_heap.heap.Heap.report.5:
	.cfi_startproc
	push.w	{r4, r5, r6, r7, r8, r9, r10, r11, lr}
	.cfi_def_cfa_offset 36
	.cfi_offset lr, -4
	.cfi_offset r11, -8
	.cfi_offset r10, -12
	.cfi_offset r9, -16
	.cfi_offset r8, -20
	.cfi_offset r7, -24
	.cfi_offset r6, -28
	.cfi_offset r5, -32
	.cfi_offset r4, -36
	sub	sp, #28
	.cfi_def_cfa_offset 64
	str	r0, [sp, #12]
	ldr	r0, [r1, #32]
	ldrd	r4, r3, [r1, #8]
	cmp	r0, #0
	beq	.LBB50_11
	ldr	r1, [r1, #24]
	mov.w	r8, #0
	movs	r2, #0
	mov.w	r9, #0
	movs	r5, #0
	movs	r7, #0
	mov.w	lr, #0
	mov.w	r12, #0
	strd	r4, r3, [sp, #4]
	strd	r3, r4, [sp, #20]
	str	r1, [sp, #16]
	b	.LBB50_4
	.p2align	2
.LBB50_2:
	ldr	r6, [r6, #16]
	add.w	r12, r12, #1
	add	lr, r3
	add	r7, r6
.LBB50_3:
	add	r2, r3
	cmp	r2, r0
	bhs	.LBB50_6
.LBB50_4:
	ldr.w	r3, [r1, r2, lsl #3]
	add.w	r6, r1, r2, lsl #3
	lsls	r4, r3, #31
	lsr.w	r3, r3, #2
	beq	.LBB50_2
	ldr	r4, [r6, #12]
	ldr	r6, [r6, #8]
	cmp	r3, r8
	it	hi
	movhi	r8, r3
	ldr.w	r11, [sp, #24]
	adds	r5, #1
	add	r9, r3
	mov	r1, r0
	ldr	r0, [sp, #20]
	mov	r10, r8
	mov	r8, r9
	mov	r9, r12
	mov	r12, lr
	mov	lr, r5
	subs.w	r5, r6, r11
	sbcs.w	r5, r4, r0
	it	lo
	movlo	r0, r4
	str	r0, [sp, #20]
	mov	r0, r1
	ldr	r1, [sp, #16]
	mov	r5, lr
	mov	lr, r12
	mov	r12, r9
	mov	r9, r8
	mov	r8, r10
	it	lo
	movlo	r11, r6
	str.w	r11, [sp, #24]
	b	.LBB50_3
.LBB50_6:
	cmp.w	r8, #0
	beq	.LBB50_12
	orr	r0, r8, #32
	clz	r0, r0
	rsb.w	r0, r0, #26
	lsr.w	r1, r8, r0
	add.w	r0, r1, r0, lsl #5
	lsrs	r2, r0, #5
	beq	.LBB50_9
	movs	r0, #16
	lsls	r0, r2
	and	r1, r1, #31
	subs	r2, #1
	lsls	r1, r2
	add	r0, r1
.LBB50_9:
	mvn	r1, #23
	add.w	r10, r1, r0, lsl #3
	cmp.w	r9, #0
	beq	.LBB50_13
.LBB50_10:
	mov.w	r0, #1000
	umull	r0, r1, r8, r0
	mov	r2, r9
	movs	r3, #0
	mov	r4, lr
	mov	r6, r12
	bl	__aeabi_uldivmod
	mov	r12, r6
	mov	lr, r4
	rsb.w	r0, r0, #1000
	b	.LBB50_14
.LBB50_11:
	mov.w	r10, #0
	mov.w	r12, #0
	mov.w	lr, #0
	movs	r7, #0
	movs	r5, #0
	mov.w	r9, #0
	mov.w	r8, #0
	mov	r2, r4
	mov	r6, r3
	movs	r0, #0
	b	.LBB50_15
.LBB50_12:
	mov.w	r10, #0
	cmp.w	r9, #0
	bne	.LBB50_10
.LBB50_13:
	mov.w	r9, #0
	movs	r0, #0
.LBB50_14:
	ldrd	r4, r3, [sp, #4]
	ldrd	r6, r2, [sp, #20]
.LBB50_15:
	subs	r2, r4, r2
	sbcs	r3, r6
	ldr	r6, [sp, #12]
	rsb	r1, r7, lr, lsl #3
	str	r0, [r6, #28]
	movs	r0, #0
	str.w	r12, [r6]
	str.w	lr, [r6, #4]
	str	r7, [r6, #8]
	str	r5, [r6, #12]
	str.w	r9, [r6, #16]
	str.w	r8, [r6, #20]
	str.w	r10, [r6, #24]
	str	r1, [r6, #32]
	str	r0, [r6, #36]
	str	r2, [r6, #40]
	str	r3, [r6, #44]
	add	sp, #28
	pop.w	{r4, r5, r6, r7, r8, r9, r10, r11, pc}
.Lfunc_end50:
	.size	tlsf_heap.heap.Heap.report.5, .Lfunc_end50-tlsf_heap.heap.Heap.report.5
	.cfi_endproc
	.section	.text.tlsf_c.queue_end.take_once,"ax",%progbits
	.p2align	2
	.type	tlsf_c.queue_end.take_once,%function
	.code	16
	.thumb_func
tlsf_c.queue_end.take_once:
	.cfi_startproc
	push.w	{r4, r5, r6, r7, r8, r9, r10, r11, lr}
	.cfi_def_cfa_offset 36
	.cfi_offset lr, -4
	.cfi_offset r11, -8
	.cfi_offset r10, -12
	.cfi_offset r9, -16
	.cfi_offset r8, -20
	.cfi_offset r7, -24
	.cfi_offset r6, -28
	.cfi_offset r5, -32
	.cfi_offset r4, -36
	sub	sp, #148
	.cfi_def_cfa_offset 184
	ldr	r5, [r1]
	mov	r4, r0
	movs	r0, #0
	strd	r0, r0, [sp, #40]
	strd	r0, r0, [sp, #32]
	strd	r0, r0, [sp, #16]
	strd	r0, r0, [sp, #24]
	strd	r0, r0, [sp, #56]
	strd	r0, r0, [sp, #48]
	strd	r0, r0, [sp, #80]
	strd	r0, r0, [sp, #88]
	strd	r0, r0, [sp, #64]
	strd	r0, r0, [sp, #72]
	ldr	r0, [r5, #8]
	mov	r8, r1
	add.w	r0, r0, #256
	movs	r1, #5
	bl	__atomic_load_8
	mov	r9, r0
	mov	r11, r1
	ldrd	r0, r1, [r5, #80]
	ldr	r2, [r5, #8]
	subs	r0, #1
	and.w	r6, r0, r9
	add.w	r0, r2, r6, lsl #3
	sbc	r7, r1, #0
	add.w	r0, r0, #384
	movs	r1, #5
	bl	__atomic_load_8
	mov	r12, r0
	lsr.w	r3, r11, #30
	adds.w	r0, r9, #1
	adc	r2, r11, #0
	cmp	r3, #2
	bhi	.LBB51_8
	mov	r3, r1
	eor.w	r0, r0, r12
	eors	r1, r2
	orrs	r0, r1
	bne	.LBB51_8
	and.w	lr, r7, r11
	ldrd	r2, r7, [r5, #72]
	adds	r1, r6, #1
	adc	r0, lr, #0
	subs	r1, r1, r2
	mov.w	r1, #0
	sbcs	r0, r7
	strd	r1, r1, [sp, #112]
	strd	r1, r1, [sp, #120]
	strd	r1, r1, [sp, #128]
	strd	r1, r1, [sp, #96]
	str	r1, [sp, #104]
	str	r1, [sp, #108]
	blo	.LBB51_4
	ldrd	r1, r2, [r5, #80]
	subs.w	r0, r9, r6
	sbc.w	r3, r11, lr
	adds.w	r12, r0, r1
	adcs	r3, r2
.LBB51_4:
	ldr	r0, [r5, #8]
	add.w	r0, r0, #256
	movs	r7, #5
	add	r1, sp, #136
	mov	r2, r12
	strd	r9, r11, [sp, #136]
	str	r7, [sp]
	str	r7, [sp, #4]
	bl	__atomic_compare_exchange_8
	cmp	r0, #0
	beq	.LBB51_7
	ldr	r1, [r5, #16]
	lsls	r2, r6, #5
	lsls	r0, r6, #3
	ldrb	r3, [r1, r2]
	str	r0, [sp, #8]
	add.w	r0, r1, r6, lsl #5
	mov.w	r10, #0
	str	r3, [sp, #12]
	ldr.w	r8, [r0, #12]
	ldr	r3, [r0, #16]
	ldr.w	lr, [r0, #20]
	ldr.w	r12, [r0, #24]
	ldr	r7, [r0, #28]
	str.w	r10, [r0, #4]
	ldr	r6, [r0, #8]!
	str.w	r10, [r1, r2]
	add	r1, sp, #112
	movs	r2, #24
	str	r3, [sp, #96]
	strd	lr, r12, [sp, #100]
	str	r7, [sp, #108]
	bl	tlsf_memory_cpy
	ldrd	r0, r1, [r5, #80]
	ldr	r7, [r5, #8]
	adds.w	r2, r0, r9
	ldr	r0, [sp, #8]
	adc.w	r3, r1, r11
	add	r0, r7
	add.w	r0, r0, #384
	movs	r1, #5
	str	r1, [sp]
	bl	__atomic_store_8
	ldr	r0, [sp, #12]
	cmp	r0, #1
	bne	.LBB51_10
	add	r3, sp, #96
	ldr	r2, [sp, #108]
	ldm	r3, {r0, r1, r3}
	str	r2, [sp, #76]
	strd	r2, r0, [sp, #44]
	add	r2, sp, #32
	strd	r1, r3, [sp, #68]
	str	r1, [sp, #52]
	stm	r2!, {r0, r1, r3}
	add	r0, sp, #32
	movs	r2, #0
	movs	r1, #0
	b	.LBB51_9
.LBB51_7:
	movs	r0, #0
	strd	r0, r0, [sp, #80]
	strd	r0, r0, [sp, #88]
.LBB51_8:
	add	r3, sp, #80
	ldm	r3, {r0, r1, r2, r3}
	ldr.w	r7, [r8]
	add.w	r12, sp, #32
	stm.w	r12, {r0, r1, r2}
	ldr	r0, [r7, #8]
	str	r3, [sp, #44]
	add.w	r0, r0, #256
	movs	r1, #5
	bl	__atomic_load_8
	mov	r5, r0
	ldr	r0, [r7, #8]
	mov	r6, r1
	adds	r0, #128
	movs	r1, #5
	bl	__atomic_load_8
	eors	r1, r6
	eors	r0, r5
	orrs	r0, r1
	mov.w	r1, #9
	it	eq
	moveq	r1, #8
	movs	r6, #0
	add	r0, sp, #16
	movs	r2, #1
	mov.w	r8, #0
.LBB51_9:
	strb	r2, [r4]
	strb	r1, [r4, #1]
	ldr	r1, [r0]
	ldr	r2, [r0, #4]
	ldr	r3, [r0, #8]
	ldr	r0, [r0, #12]
	str	r6, [r4, #8]
	str.w	r8, [r4, #12]
	str	r1, [r4, #16]
	str	r2, [r4, #20]
	str	r3, [r4, #24]
	str	r0, [r4, #28]
	add	sp, #148
	pop.w	{r4, r5, r6, r7, r8, r9, r10, r11, pc}
.LBB51_10:
	.inst.n	0xdefe
.Lfunc_end51:
	.size	tlsf_c.queue_end.take_once, .Lfunc_end51-tlsf_c.queue_end.take_once
	.cfi_endproc
	.section	.text.unlikely.std_alloc.vec.Vec.grow_amortized.94730218a1e37034,"ax",%progbits
	.p2align	2
	.type	std_alloc.vec.Vec.grow_amortized.94730218a1e37034,%function
	.code	16
	.thumb_func
std_alloc.vec.Vec.grow_amortized.94730218a1e37034:
	.cfi_startproc
	push.w	{r4, r5, r6, r7, r8, r9, lr}
	.cfi_def_cfa_offset 28
	.cfi_offset lr, -4
	.cfi_offset r9, -8
	.cfi_offset r8, -12
	.cfi_offset r7, -16
	.cfi_offset r6, -20
	.cfi_offset r5, -24
	.cfi_offset r4, -28
	sub	sp, #28
	.cfi_def_cfa_offset 56
	ldrd	r6, r2, [r0, #8]
	mov	r1, r0
	and.w	r0, r6, r2
	adds	r0, #1
	mov.w	r0, #0
	beq	.LBB52_7
	ldrd	r3, r7, [r1, #16]
	cmp	r6, #3
	mov.w	r5, #3
	mov.w	r4, #3
	it	hi
	movhi	r4, r6
	cmp	r2, #0
	ite	ne
	movne	r5, r6
	moveq	r5, r4
	adds.w	r8, r5, #1
	lsl.w	r5, r7, #1
	adc	r9, r2, #0
	orr.w	r4, r5, r3, lsr #31
	rsbs	r5, r8, r3, lsl #1
	sbcs.w	r5, r4, r9
	mov	r5, r8
	ite	lo
	movlo	r4, r9
	lslhs	r5, r3, #1
	cmp.w	r7, #1073741824
	itt	lo
	movlo	r8, r5
	movlo	r9, r4
	cmp.w	r0, r9, lsr #26
	bne	.LBB52_7
	orrs.w	r0, r3, r7
	beq	.LBB52_4
	lsls	r0, r2, #5
	orrs.w	r0, r0, r6, lsr #27
	lsl.w	r0, r9, #5
	mov	r7, r1
	ldr	r1, [r1]
	orr.w	r0, r0, r8, lsr #27
	mov.w	r2, #-1
	mov.w	r3, #-1
	it	eq
	lsleq	r2, r6, #5
	cmp	r0, #0
	mov.w	r6, #8
	add	r0, sp, #8
	it	eq
	lsleq.w	r3, r8, #5
	str	r6, [sp]
	bl	tlsf_memory_realloc
	b	.LBB52_5
.LBB52_4:
	lsls	r0, r4, #5
	orrs.w	r0, r0, r5, lsr #27
	mov	r7, r1
	mov.w	r1, #-1
	add	r0, sp, #8
	mov.w	r2, #8
	it	eq
	lsleq	r1, r5, #5
	bl	tlsf_memory_alloc
.LBB52_5:
	ldr	r0, [sp, #8]
	lsls	r0, r0, #31
	beq	.LBB52_8
	ldr	r0, [sp, #16]
	strd	r8, r9, [r7, #16]
	str	r0, [r7]
	movs	r0, #1
.LBB52_7:
	add	sp, #28
	pop.w	{r4, r5, r6, r7, r8, r9, pc}
.LBB52_8:
	movs	r0, #0
	add	sp, #28
	pop.w	{r4, r5, r6, r7, r8, r9, pc}
.Lfunc_end52:
	.size	std_alloc.vec.Vec.grow_amortized.94730218a1e37034, .Lfunc_end52-std_alloc.vec.Vec.grow_amortized.94730218a1e37034
	.cfi_endproc
	.section	.text.tlsf_post.mailboxes.send_out,"ax",%progbits
	.p2align	2
	.type	tlsf_post.mailboxes.send_out,%function
	.code	16
	.thumb_func
tlsf_post.mailboxes.send_out:
	.cfi_startproc
	cmp	r1, r2
	itt	hs
	movhs	r0, #0
	bxhs	lr
.LBB53_1:
	push.w	{r4, r5, r6, r7, r8, r9, r10, r11, lr}
	.cfi_def_cfa_offset 36
	.cfi_offset lr, -4
	.cfi_offset r11, -8
	.cfi_offset r10, -12
	.cfi_offset r9, -16
	.cfi_offset r8, -20
	.cfi_offset r7, -24
	.cfi_offset r6, -28
	.cfi_offset r5, -32
	.cfi_offset r4, -36
	sub	sp, #28
	.cfi_def_cfa_offset 64
	mov	r9, r3
	mov	r10, r2
	mov	r11, r1
	mov	r1, r0
	movs	r5, #5
	mvn	r6, #1
	mvn	r8, #-2147483648
	add	r7, sp, #16
	str	r0, [sp, #12]
.LBB53_2:
	ldr	r4, [r1]
	.p2align	2
.LBB53_3:
	mov	r0, r4
	movs	r1, #5
	bl	__atomic_load_8
	subs	r2, r6, r0
	sbcs.w	r2, r8, r1
	blo	.LBB53_7
	adds	r2, r0, #1
	adc	r3, r1, #0
	strd	r0, r1, [sp, #16]
	mov	r0, r4
	mov	r1, r7
	str	r5, [sp]
	str	r5, [sp, #4]
	bl	__atomic_compare_exchange_8
	cmp	r0, #0
	beq	.LBB53_3
	ldr	r0, [r4, #8]
	movs	r1, #5
	bl	__atomic_load_8
	ldrd	r1, r12, [r9, #8]
	ldr.w	r0, [r9]
	lsls	r3, r1, #4
	add.w	r2, r0, r1, lsl #4
	str	r4, [r0, r3]
	movs	r0, #0
	adds	r1, #1
	str	r0, [r2, #4]
	str.w	r11, [r2, #8]
	str	r0, [r2, #12]
	adc	r2, r12, #0
	add.w	r11, r11, #1
	strd	r1, r2, [r9, #8]
	ldr	r1, [sp, #12]
	cmp	r11, r10
	bne	.LBB53_2
	add	sp, #28
	pop.w	{r4, r5, r6, r7, r8, r9, r10, r11, pc}
.LBB53_7:
	movs	r0, #1
	add	sp, #28
	pop.w	{r4, r5, r6, r7, r8, r9, r10, r11, pc}
.Lfunc_end53:
	.size	tlsf_post.mailboxes.send_out, .Lfunc_end53-tlsf_post.mailboxes.send_out
	.cfi_endproc
	.section	.text.std_alloc.arc.Arc.drop.f29941b0e8355977,"ax",%progbits
	.p2align	2
	.type	std_alloc.arc.Arc.drop.f29941b0e8355977,%function
	.code	16
	.thumb_func
std_alloc.arc.Arc.drop.f29941b0e8355977:
	.cfi_startproc
	push	{r4, r5, r6, lr}
	.cfi_def_cfa_offset 16
	.cfi_offset lr, -4
	.cfi_offset r6, -8
	.cfi_offset r5, -12
	.cfi_offset r4, -16
	sub	sp, #8
	.cfi_def_cfa_offset 24
	movs	r1, #5
	movs	r2, #1
	movs	r3, #0
	mov	r4, r0
	str	r1, [sp]
	bl	__atomic_fetch_sub_8
	eor	r0, r0, #1
	orrs	r0, r1
	itt	ne
	addne	sp, #8
	popne	{r4, r5, r6, pc}
.LBB54_1:
	ldr	r5, [r4, #40]
	ldr	r6, [r4, #56]
	mov	r0, r4
	bl	tlsf_memory_dealloc
	mov	r0, r5
	bl	tlsf_memory_dealloc
	mov	r0, r6
	add	sp, #8
	pop.w	{r4, r5, r6, lr}
	b	tlsf_memory_dealloc
.Lfunc_end54:
	.size	std_alloc.arc.Arc.drop.f29941b0e8355977, .Lfunc_end54-std_alloc.arc.Arc.drop.f29941b0e8355977
	.cfi_endproc
	.section	.text.std_alloc.vec.deque.VecDeque.drop.ca3d8856d46a41b8,"ax",%progbits
	.p2align	2
	.type	std_alloc.vec.deque.VecDeque.drop.ca3d8856d46a41b8,%function
	.code	16
	.thumb_func
std_alloc.vec.deque.VecDeque.drop.ca3d8856d46a41b8:
	.cfi_startproc
	push.w	{r4, r5, r6, r7, r8, r9, r10, r11, lr}
	.cfi_def_cfa_offset 36
	.cfi_offset lr, -4
	.cfi_offset r11, -8
	.cfi_offset r10, -12
	.cfi_offset r9, -16
	.cfi_offset r8, -20
	.cfi_offset r7, -24
	.cfi_offset r6, -28
	.cfi_offset r5, -32
	.cfi_offset r4, -36
	sub	sp, #28
	.cfi_def_cfa_offset 64
	ldr	r1, [r0, #8]
	ldr	r2, [r0, #12]
	ldr	r3, [r0, #20]
	ldr.w	r10, [r0]
	ldr.w	r11, [r0, #16]
	str	r3, [sp, #12]
	orrs.w	r3, r1, r2
	beq	.LBB55_11
	ldr	r7, [r0, #32]
	ldr	r3, [r0, #36]
	ldr.w	r8, [r0, #24]
	ldr.w	r9, [r0, #28]
	subs	r0, r1, r7
	str.w	r11, [sp, #8]
	sbc.w	r1, r2, r3
	adds.w	r11, r8, r0
	str	r7, [sp, #20]
	adc.w	r7, r9, r1
	subs.w	r0, r8, r11
	sbcs.w	r0, r9, r7
	str	r3, [sp, #24]
	bhs	.LBB55_6
	movs	r6, #5
	str.w	r10, [sp, #16]
	b	.LBB55_4
	.p2align	2
.LBB55_3:
	adds.w	r8, r8, #1
	adc	r9, r9, #0
	subs.w	r0, r8, r11
	sbcs.w	r0, r9, r7
	bhs	.LBB55_6
.LBB55_4:
	lsl.w	r0, r8, #4
	ldr.w	r5, [r10, r0]
	mov	r0, r5
	movs	r2, #1
	movs	r3, #0
	str	r6, [sp]
	bl	__atomic_fetch_sub_8
	eor	r0, r0, #1
	orrs	r0, r1
	bne	.LBB55_3
	mov	r4, r6
	ldr	r6, [r5, #40]
	mov	r10, r7
	ldr	r7, [r5, #56]
	mov	r0, r5
	bl	tlsf_memory_dealloc
	mov	r0, r6
	mov	r6, r4
	bl	tlsf_memory_dealloc
	mov	r0, r7
	mov	r7, r10
	ldr.w	r10, [sp, #16]
	bl	tlsf_memory_dealloc
	b	.LBB55_3
.LBB55_6:
	ldrd	r1, r0, [sp, #20]
	ldr.w	r11, [sp, #8]
	orrs	r0, r1
	beq	.LBB55_11
	movs	r4, #0
	mov.w	r8, #5
	movs	r7, #0
	b	.LBB55_9
	.p2align	2
.LBB55_8:
	ldr	r0, [sp, #20]
	adds	r4, #1
	adc	r7, r7, #0
	subs	r0, r4, r0
	ldr	r0, [sp, #24]
	sbcs.w	r0, r7, r0
	bhs	.LBB55_11
.LBB55_9:
	lsls	r0, r4, #4
	ldr.w	r5, [r10, r0]
	mov	r0, r5
	movs	r2, #1
	movs	r3, #0
	str.w	r8, [sp]
	bl	__atomic_fetch_sub_8
	eor	r0, r0, #1
	orrs	r0, r1
	bne	.LBB55_8
	ldr	r6, [r5, #40]
	ldr.w	r9, [r5, #56]
	mov	r0, r5
	bl	tlsf_memory_dealloc
	mov	r0, r6
	bl	tlsf_memory_dealloc
	mov	r0, r9
	bl	tlsf_memory_dealloc
	b	.LBB55_8
.LBB55_11:
	ldr	r0, [sp, #12]
	orrs.w	r0, r0, r11
	beq	.LBB55_13
	mov	r0, r10
	add	sp, #28
	pop.w	{r4, r5, r6, r7, r8, r9, r10, r11, lr}
	b	tlsf_memory_dealloc
.LBB55_13:
	add	sp, #28
	pop.w	{r4, r5, r6, r7, r8, r9, r10, r11, pc}
.Lfunc_end55:
	.size	std_alloc.vec.deque.VecDeque.drop.ca3d8856d46a41b8, .Lfunc_end55-std_alloc.vec.deque.VecDeque.drop.ca3d8856d46a41b8
	.cfi_endproc
	.section	.text.tlsf_words.words.Words.copy_payload,"ax",%progbits
	.p2align	2
	.type	tlsf_words.words.Words.copy_payload,%function
	.code	16
	.thumb_func
tlsf_words.words.Words.copy_payload:
	.cfi_startproc
	push.w	{r4, r5, r6, r7, r8, lr}
	.cfi_def_cfa_offset 24
	.cfi_offset lr, -4
	.cfi_offset r8, -8
	.cfi_offset r7, -12
	.cfi_offset r6, -16
	.cfi_offset r5, -20
	.cfi_offset r4, -24
	sub	sp, #32
	.cfi_def_cfa_offset 56
	mov	r5, r2
	adds	r2, r1, #3
	mov.w	r12, #0
	mov	r4, r3
	adc	r3, r12, #0
	adds	r6, r5, #3
	adc	lr, r12, #0
	ands	r8, r4, #7
	lsr.w	r4, r4, #3
	beq	.LBB56_2
	ldr	r1, [r0]
	adds	r7, r4, r2
	add.w	r5, r1, r7, lsl #3
	ldr.w	r7, [r1, r7, lsl #3]
	ldr	r5, [r5, #4]
	strd	r6, lr, [sp]
	strd	r7, r5, [sp, #16]
	mov	r5, r0
	mov	r0, r1
	str	r4, [sp, #8]
	str.w	r12, [sp, #12]
	bl	tlsf_words.cells.copy_run
	ldr	r5, [r5]
	add	r4, r6
	add.w	r6, r5, r4, lsl #3
	ldr.w	r0, [r5, r4, lsl #3]
	ldr	r1, [r6, #4]
	mov	r2, r8
	strd	r0, r1, [sp, #24]
	add	r0, sp, #24
	add	r1, sp, #16
	bl	tlsf_memory_cpy
	ldrd	r0, r1, [sp, #24]
	str.w	r0, [r5, r4, lsl #3]
	str	r1, [r6, #4]
	add	sp, #32
	pop.w	{r4, r5, r6, r7, r8, pc}
.LBB56_2:
	ldr	r0, [r0]
	strd	r6, lr, [sp]
	strd	r4, r12, [sp, #8]
	bl	tlsf_words.cells.copy_run
	add	sp, #32
	pop.w	{r4, r5, r6, r7, r8, pc}
.Lfunc_end56:
	.size	tlsf_words.words.Words.copy_payload, .Lfunc_end56-tlsf_words.words.Words.copy_payload
	.cfi_endproc
	.section	.text.tlsf_words.cells.copy_run,"ax",%progbits
	.p2align	2
	.type	tlsf_words.cells.copy_run,%function
	.code	16
	.thumb_func
tlsf_words.cells.copy_run:
	.cfi_startproc
	push.w	{r4, r5, r6, r7, r8, lr}
	.cfi_def_cfa_offset 24
	.cfi_offset lr, -4
	.cfi_offset r8, -8
	.cfi_offset r7, -12
	.cfi_offset r6, -16
	.cfi_offset r5, -20
	.cfi_offset r4, -24
	add.w	lr, sp, #24
	ldm.w	lr, {r6, r7, lr}
	mov	r1, r2
	ldr.w	r12, [sp, #36]
	lsls	r2, r7, #3
	lsl.w	r8, r6, #3
	lsls	r4, r3, #3
	orr.w	r2, r2, r6, lsr #29
	orr.w	r4, r4, r1, lsr #29
	subs.w	r5, r8, r1, lsl #3
	sbcs	r2, r4
	lsl.w	r4, r12, #3
	orr.w	r4, r4, lr, lsr #29
	subs.w	r5, r5, lr, lsl #3
	sbcs	r2, r4
	bhs	.LBB57_2
.LBB57_1:
	pop.w	{r4, r5, r6, r7, r8, pc}
.LBB57_2:
	adds.w	r2, lr, r1
	adc.w	r5, r12, r3
	subs	r2, r6, r2
	sbcs.w	r2, r7, r5
	lsl.w	r2, lr, #3
	bhs	.LBB57_8
	adds.w	r5, lr, r6
	adc.w	r6, r12, r7
	subs	r5, r1, r5
	sbcs	r3, r6
	blo	.LBB57_1
	add.w	r1, r0, r1, lsl #3
	add	r0, r8
	subs	r3, r0, r1
	mov.w	r5, #0
	sbc	r5, r5, #0
	subs	r3, r3, r2
	sbcs.w	r3, r5, r4
	bhs	.LBB57_11
	cmp.w	lr, #1
	mov.w	r3, #1
	mov.w	r2, #1
	it	hi
	movhi	r3, lr
	cmp.w	r12, #0
	ite	ne
	movne	r2, lr
	moveq	r2, r3
	subs.w	r3, lr, #4
	sbcs	r3, r12, #0
	and	r12, r2, #3
	blo	.LBB57_10
	movw	r3, #65532
	movt	r3, #8191
	and.w	lr, r2, r3
	movs	r3, #0
	movs	r2, #0
	.p2align	2
.LBB57_7:
	add.w	r5, r1, r3, lsl #3
	ldr.w	r6, [r1, r3, lsl #3]
	ldr	r5, [r5, #4]
	add.w	r4, r0, r3, lsl #3
	str.w	r6, [r0, r3, lsl #3]
	str	r5, [r4, #4]
	orr	r4, r3, #1
	add.w	r6, r1, r4, lsl #3
	ldr.w	r7, [r1, r4, lsl #3]
	ldr	r6, [r6, #4]
	add.w	r5, r0, r4, lsl #3
	str.w	r7, [r0, r4, lsl #3]
	orr	r4, r3, #2
	str	r6, [r5, #4]
	add.w	r6, r1, r4, lsl #3
	ldr.w	r7, [r1, r4, lsl #3]
	ldr	r6, [r6, #4]
	add.w	r5, r0, r4, lsl #3
	str.w	r7, [r0, r4, lsl #3]
	str	r6, [r5, #4]
	orr	r4, r3, #3
	ldr.w	r7, [r1, r4, lsl #3]
	add.w	r6, r1, r4, lsl #3
	adds	r3, #4
	add.w	r5, r0, r4, lsl #3
	ldr	r6, [r6, #4]
	str.w	r7, [r0, r4, lsl #3]
	adc	r2, r2, #0
	eor.w	r4, r3, lr
	orrs	r4, r2
	str	r6, [r5, #4]
	bne	.LBB57_7
	b	.LBB57_14
.LBB57_8:
	lsls	r1, r1, #3
	mov	r3, r0
	add.w	r0, r0, r6, lsl #3
	add	r1, r3
	subs	r3, r0, r1
	mov.w	r5, #0
	sbc	r5, r5, #0
	subs	r3, r3, r2
	sbcs.w	r3, r5, r4
	bhs	.LBB57_11
	cmp.w	lr, #1
	mov.w	r3, #1
	mov.w	r2, #1
	it	hi
	movhi	r3, lr
	cmp.w	r12, #0
	ite	ne
	movne	r2, lr
	moveq	r2, r3
	subs.w	r3, lr, #4
	sbcs	r3, r12, #0
	and	r12, r2, #3
	bhs	.LBB57_12
.LBB57_10:
	movs	r3, #0
	b	.LBB57_15
.LBB57_11:
	pop.w	{r4, r5, r6, r7, r8, lr}
	b	tlsf_memory_move
.LBB57_12:
	movw	r3, #65532
	movt	r3, #8191
	and.w	lr, r2, r3
	movs	r3, #0
	movs	r2, #0
	.p2align	2
.LBB57_13:
	add.w	r5, r1, r3, lsl #3
	ldr.w	r6, [r1, r3, lsl #3]
	ldr	r5, [r5, #4]
	add.w	r4, r0, r3, lsl #3
	str.w	r6, [r0, r3, lsl #3]
	str	r5, [r4, #4]
	orr	r4, r3, #1
	add.w	r6, r1, r4, lsl #3
	ldr.w	r7, [r1, r4, lsl #3]
	ldr	r6, [r6, #4]
	add.w	r5, r0, r4, lsl #3
	str.w	r7, [r0, r4, lsl #3]
	orr	r4, r3, #2
	str	r6, [r5, #4]
	add.w	r6, r1, r4, lsl #3
	ldr.w	r7, [r1, r4, lsl #3]
	ldr	r6, [r6, #4]
	add.w	r5, r0, r4, lsl #3
	str.w	r7, [r0, r4, lsl #3]
	str	r6, [r5, #4]
	orr	r4, r3, #3
	ldr.w	r7, [r1, r4, lsl #3]
	add.w	r6, r1, r4, lsl #3
	adds	r3, #4
	add.w	r5, r0, r4, lsl #3
	ldr	r6, [r6, #4]
	str.w	r7, [r0, r4, lsl #3]
	adc	r2, r2, #0
	eor.w	r4, r3, lr
	orrs	r4, r2
	str	r6, [r5, #4]
	bne	.LBB57_13
.LBB57_14:
	cmp.w	r12, #0
	beq.w	.LBB57_1
.LBB57_15:
	add.w	r7, r1, r3, lsl #3
	ldr.w	r6, [r1, r3, lsl #3]
	ldr	r7, [r7, #4]
	add.w	r2, r0, r3, lsl #3
	cmp.w	r12, #1
	str.w	r6, [r0, r3, lsl #3]
	str	r7, [r2, #4]
	beq.w	.LBB57_1
	adds	r2, r3, #1
	add.w	r6, r1, r2, lsl #3
	ldr.w	r5, [r1, r2, lsl #3]
	ldr	r6, [r6, #4]
	add.w	r7, r0, r2, lsl #3
	cmp.w	r12, #2
	str.w	r5, [r0, r2, lsl #3]
	str	r6, [r7, #4]
	it	eq
	popeq.w	{r4, r5, r6, r7, r8, pc}
.LBB57_17:
	adds	r2, r3, #2
	add.w	r7, r1, r2, lsl #3
	ldr.w	r1, [r1, r2, lsl #3]
	ldr	r7, [r7, #4]
	add.w	r3, r0, r2, lsl #3
	str.w	r1, [r0, r2, lsl #3]
	str	r7, [r3, #4]
	pop.w	{r4, r5, r6, r7, r8, pc}
.Lfunc_end57:
	.size	tlsf_words.cells.copy_run, .Lfunc_end57-tlsf_words.cells.copy_run
	.cfi_endproc
	.section	.text.tlsf_c.lane_calls.take_name,"ax",%progbits
	.p2align	2
	.type	tlsf_c.lane_calls.take_name,%function
	.code	16
	.thumb_func
tlsf_c.lane_calls.take_name:
	.cfi_startproc
	push.w	{r4, r5, r6, r7, r8, r9, r10, r11, lr}
	.cfi_def_cfa_offset 36
	.cfi_offset lr, -4
	.cfi_offset r11, -8
	.cfi_offset r10, -12
	.cfi_offset r9, -16
	.cfi_offset r8, -20
	.cfi_offset r7, -24
	.cfi_offset r6, -28
	.cfi_offset r5, -32
	.cfi_offset r4, -36
	sub	sp, #12
	.cfi_def_cfa_offset 48
	mov	r4, r0
	ldrd	r2, lr, [r0, #24]
	ldr	r0, [r0, #32]
	ldr	r7, [r4, #36]
	subs	r6, r0, r2
	sbcs.w	r6, r7, lr
	mov	r5, r1
	bhs	.LBB58_2
	ldrd	r1, r6, [r4, #16]
	subs	r0, r0, r2
	lsl.w	r6, r6, #1
	orr.w	r6, r6, r1, lsr #31
	sbc.w	r7, r7, lr
	adds.w	r0, r0, r1, lsl #1
	adc.w	r1, r7, r6
	orrs	r0, r1
	bne	.LBB58_5
	b	.LBB58_3
.LBB58_2:
	subs	r0, r0, r2
	sbc.w	r1, r7, lr
	orrs	r0, r1
	bne	.LBB58_5
.LBB58_3:
	ldr	r0, [r4]
	adds	r0, #128
	movs	r1, #5
	bl	__atomic_load_8
	ldrd	r2, lr, [r4, #24]
	strd	r0, r1, [r4, #32]
	subs	r7, r0, r2
	sbcs.w	r7, r1, lr
	bhs	.LBB58_7
	ldrd	r7, r6, [r4, #16]
	subs	r0, r0, r2
	lsl.w	r6, r6, #1
	orr.w	r6, r6, r7, lsr #31
	sbc.w	r1, r1, lr
	adds.w	r0, r0, r7, lsl #1
	adcs	r1, r6
	orrs	r0, r1
	beq	.LBB58_8
.LBB58_5:
	ldrd	r1, r8, [r4, #16]
	mov.w	r6, #-1
	lsl.w	r7, r8, #1
	orr.w	r7, r7, r1, lsr #31
	adds.w	r6, r6, r1, lsl #1
	sbc	r7, r7, #0
	subs	r6, r2, r6
	sbcs.w	r7, lr, r7
	mov.w	r3, #0
	ldr	r0, [r4]
	ldr.w	r12, [r4, #8]
	it	lo
	movlo	r3, #1
	adds	r6, r2, #1
	adc	r7, lr, #0
	cmp	r3, #0
	itt	eq
	moveq	r6, r3
	moveq	r7, r3
	subs	r1, r2, r1
	sbcs.w	r3, lr, r8
	it	lo
	movlo	r1, r2
	add.w	r1, r1, r1, lsl #1
	add.w	r1, r12, r1, lsl #3
	ldr	r2, [r1, #16]
	ldr.w	r9, [r1, #8]
	str	r2, [sp, #8]
	ldr.w	r10, [r1, #12]
	ldr.w	r8, [r1, #20]
	movs	r1, #5
	mov	r2, r6
	mov	r3, r7
	mov.w	r11, #0
	str	r1, [sp]
	bl	__atomic_store_8
	ldr	r0, [sp, #8]
	strd	r6, r7, [r4, #24]
	str.w	r9, [r5]
	str.w	r10, [r5, #4]
	str.w	r8, [r5, #12]
	str	r0, [r5, #8]
.LBB58_6:
	mov	r0, r11
	add	sp, #12
	pop.w	{r4, r5, r6, r7, r8, r9, r10, r11, pc}
.LBB58_7:
	subs	r0, r0, r2
	sbc.w	r1, r1, lr
	orrs	r0, r1
	bne	.LBB58_5
.LBB58_8:
	mov.w	r11, #35
	b	.LBB58_6
.Lfunc_end58:
	.size	tlsf_c.lane_calls.take_name, .Lfunc_end58-tlsf_c.lane_calls.take_name
	.cfi_endproc
	.section	.text.tlsf_heap.region.Region.write.4,"ax",%progbits
	.p2align	2
	.type	tlsf_heap.region.Region.write.4,%function
	.code	16
	.thumb_func
tlsf_heap.region.Region.write.4:
	.cfi_startproc
	push	{r4, r5, r6, lr}
	.cfi_def_cfa_offset 16
	.cfi_offset lr, -4
	.cfi_offset r6, -8
	.cfi_offset r5, -12
	.cfi_offset r4, -16
	sub	sp, #16
	.cfi_def_cfa_offset 32
	mov	lr, r2
	ldr	r4, [sp, #32]
	lsrs	r2, r1, #29
	adds.w	r1, lr, r1, lsl #3
	mov	r12, r3
	adc	r3, r2, #0
	adds.w	r2, r1, #24
	orr.w	r1, r4, lr
	adc	r3, r3, #0
	lsls	r1, r1, #29
	ldr	r1, [sp, #36]
	beq	.LBB59_3
	rsbs.w	r6, r4, #7
	mov.w	r6, #0
	sbcs	r6, r1
	blo	.LBB59_10
	strd	r4, r1, [sp, #8]
	str.w	r12, [sp]
	bl	tlsf_words.words.Words.write_few
	add	sp, #16
	pop	{r4, r5, r6, pc}
.LBB59_3:
	rsbs.w	r3, r4, #63
	mov.w	r3, #0
	sbcs	r3, r1
	ldr	r0, [r0]
	lsr.w	r3, r4, #3
	bic	r2, r2, #7
	orr.w	lr, r3, r1, lsl #29
	add	r0, r2
	blo	.LBB59_12
	lsls	r2, r4, #28
	bpl	.LBB59_6
	mvn	r2, #7
	add.w	r2, r2, lr, lsl #3
	add.w	r3, r12, r2
	ldr	r3, [r3, #4]
	ldr.w	r5, [r12, r2]
	adds	r6, r0, r2
	str	r5, [r0, r2]
	str	r3, [r6, #4]
.LBB59_6:
	lsls	r2, r4, #27
	bpl	.LBB59_8
	movs	r2, #32
	and.w	r2, r2, lr, lsl #3
	add.w	r3, r12, r2
	ldr.w	r6, [r12, r2]
	ldr	r3, [r3, #4]
	adds	r5, r0, r2
	str	r6, [r0, r2]
	adds	r2, #8
	str	r3, [r5, #4]
	add.w	r3, r12, r2
	ldr	r3, [r3, #4]
	ldr.w	r6, [r12, r2]
	adds	r5, r0, r2
	str	r6, [r0, r2]
	str	r3, [r5, #4]
.LBB59_8:
	subs.w	r2, r4, #25
	sbcs	r1, r1, #0
	blo	.LBB59_11
	ldr.w	r1, [r12, #4]
	ldr.w	r2, [r12]
	strd	r2, r1, [r0]
	ldr.w	r1, [r12, #12]
	ldr.w	r2, [r12, #8]
	strd	r2, r1, [r0, #8]
	ldr.w	r1, [r12, #20]
	ldr.w	r2, [r12, #16]
	strd	r2, r1, [r0, #16]
	ldr.w	r1, [r12, #28]
	ldr.w	r2, [r12, #24]
	strd	r2, r1, [r0, #24]
	add	sp, #16
	pop	{r4, r5, r6, pc}
.LBB59_10:
	strd	r4, r1, [sp, #8]
	str.w	r12, [sp]
	bl	tlsf_words.words.Words.write_run
.LBB59_11:
	add	sp, #16
	pop	{r4, r5, r6, pc}
.LBB59_12:
	lsrs	r3, r1, #3
	mov	r2, lr
	str.w	r12, [sp, #32]
	add	sp, #16
	pop.w	{r4, r5, r6, lr}
	b	tlsf_words.cells.pack_many
.Lfunc_end59:
	.size	tlsf_heap.region.Region.write.4, .Lfunc_end59-tlsf_heap.region.Region.write.4
	.cfi_endproc
	.section	.text.tlsf_words.cells.pack_many,"ax",%progbits
	.p2align	2
	.type	tlsf_words.cells.pack_many,%function
	.code	16
	.thumb_func
tlsf_words.cells.pack_many:
	.cfi_startproc
	push.w	{r4, r5, r6, r7, r8, lr}
	.cfi_def_cfa_offset 24
	.cfi_offset lr, -4
	.cfi_offset r8, -8
	.cfi_offset r7, -12
	.cfi_offset r6, -16
	.cfi_offset r5, -20
	.cfi_offset r4, -24
	ldr.w	lr, [sp, #24]
	bic	r12, r2, #3
	lsls	r4, r2, #31
	add.w	r1, r0, r12, lsl #3
	add.w	r4, lr, r12, lsl #3
	beq	.LBB60_2
	movs	r5, #24
	and.w	r5, r5, r2, lsl #3
	subs	r5, #8
	adds	r6, r4, r5
	ldr.w	r8, [r6, #4]
	ldr	r7, [r4, r5]
	adds	r6, r1, r5
	str	r7, [r1, r5]
	str.w	r8, [r6, #4]
.LBB60_2:
	lsls	r2, r2, #30
	bpl	.LBB60_4
	ldr	r2, [r4, #4]
	ldr	r5, [r4]
	strd	r5, r2, [r1]
	ldr	r2, [r4, #12]
	ldr	r4, [r4, #8]
	strd	r4, r2, [r1, #8]
.LBB60_4:
	movs	r2, #0
	movs	r1, #0
	.p2align	2
.LBB60_5:
	add.w	r4, lr, r2, lsl #3
	ldr	r4, [r4, #4]
	ldr.w	r5, [lr, r2, lsl #3]
	add.w	r6, r0, r2, lsl #3
	str.w	r5, [r0, r2, lsl #3]
	str	r4, [r6, #4]
	orr	r4, r2, #1
	add.w	r5, lr, r4, lsl #3
	ldr.w	r6, [lr, r4, lsl #3]
	ldr	r5, [r5, #4]
	add.w	r7, r0, r4, lsl #3
	str.w	r6, [r0, r4, lsl #3]
	orr	r4, r2, #2
	str	r5, [r7, #4]
	add.w	r5, lr, r4, lsl #3
	ldr	r5, [r5, #4]
	ldr.w	r6, [lr, r4, lsl #3]
	add.w	r7, r0, r4, lsl #3
	str.w	r6, [r0, r4, lsl #3]
	str	r5, [r7, #4]
	orr	r4, r2, #3
	ldr.w	r6, [lr, r4, lsl #3]
	add.w	r5, lr, r4, lsl #3
	adds	r2, #4
	ldr	r5, [r5, #4]
	add.w	r7, r0, r4, lsl #3
	str.w	r6, [r0, r4, lsl #3]
	adc	r1, r1, #0
	subs.w	r4, r2, r12
	sbcs.w	r4, r1, r3
	str	r5, [r7, #4]
	blo	.LBB60_5
	pop.w	{r4, r5, r6, r7, r8, pc}
.Lfunc_end60:
	.size	tlsf_words.cells.pack_many, .Lfunc_end60-tlsf_words.cells.pack_many
	.cfi_endproc
	.section	.text.tlsf_words.words.Words.write_few,"ax",%progbits
	.p2align	2
	.type	tlsf_words.words.Words.write_few,%function
	.code	16
	.thumb_func
tlsf_words.words.Words.write_few:
	.cfi_startproc
	push.w	{r4, r5, r6, r7, r8, r9, r10, r11, lr}
	.cfi_def_cfa_offset 36
	.cfi_offset lr, -4
	.cfi_offset r11, -8
	.cfi_offset r10, -12
	.cfi_offset r9, -16
	.cfi_offset r8, -20
	.cfi_offset r7, -24
	.cfi_offset r6, -28
	.cfi_offset r5, -32
	.cfi_offset r4, -36
	sub	sp, #20
	.cfi_def_cfa_offset 56
	ldrd	r5, r4, [sp, #64]
	and	lr, r2, #7
	rsb.w	r10, lr, #8
	movs	r7, #0
	subs.w	r6, r10, r5
	sbcs.w	r6, r7, r4
	mov	r11, r0
	ldr	r1, [sp, #56]
	mov	r6, r5
	lsr.w	r0, r2, #3
	it	lo
	movlo	r6, r10
	orrs.w	r2, r5, r4
	orr.w	r9, r0, r3, lsl #29
	beq	.LBB61_2
	ldr.w	r8, [r11]
	add.w	r0, r8, r9, lsl #3
	ldr.w	r3, [r8, r9, lsl #3]
	ldr	r2, [r0, #4]
	str	r0, [sp, #4]
	strd	r3, r2, [sp, #8]
	add	r2, sp, #8
	add.w	r0, r2, lr
	mov	r2, r6
	bl	tlsf_memory_cpy
	ldrd	r0, r2, [sp, #8]
	ldr	r1, [sp, #56]
	str.w	r0, [r8, r9, lsl #3]
	ldr	r0, [sp, #4]
	str	r2, [r0, #4]
.LBB61_2:
	subs.w	r0, r10, r5
	sbcs.w	r0, r7, r4
	bhs	.LBB61_4
	ldr.w	r0, [r11]
	subs	r2, r5, r6
	add.w	r4, r0, r9, lsl #3
	ldrd	r0, r3, [r4, #8]
	add	r1, r6
	strd	r0, r3, [sp, #8]
	add	r0, sp, #8
	bl	tlsf_memory_cpy
	ldrd	r0, r1, [sp, #8]
	strd	r0, r1, [r4, #8]
.LBB61_4:
	add	sp, #20
	pop.w	{r4, r5, r6, r7, r8, r9, r10, r11, pc}
.Lfunc_end61:
	.size	tlsf_words.words.Words.write_few, .Lfunc_end61-tlsf_words.words.Words.write_few
	.cfi_endproc
	.section	.text.tlsf_words.words.Words.write_run,"ax",%progbits
	.p2align	2
	.type	tlsf_words.words.Words.write_run,%function
	.code	16
	.thumb_func
tlsf_words.words.Words.write_run:
	.cfi_startproc
	push.w	{r4, r5, r6, r7, r8, r9, r10, r11, lr}
	.cfi_def_cfa_offset 36
	.cfi_offset lr, -4
	.cfi_offset r11, -8
	.cfi_offset r10, -12
	.cfi_offset r9, -16
	.cfi_offset r8, -20
	.cfi_offset r7, -24
	.cfi_offset r6, -28
	.cfi_offset r5, -32
	.cfi_offset r4, -36
	sub	sp, #52
	.cfi_def_cfa_offset 88
	ldrd	r7, r6, [sp, #96]
	rsbs	r5, r2, #0
	and	r1, r5, #7
	subs.w	r8, r7, r1
	ldr.w	r11, [sp, #88]
	strd	r7, r1, [sp, #44]
	sbc	lr, r6, #0
	adds	r7, r2, #7
	mov	r10, r8
	mov.w	r4, #-1
	lsr.w	r12, r8, #3
	adc	r1, r3, #0
	bfi	r10, r5, #0, #3
	ands	r9, r2, #7
	lsr.w	r7, r7, #3
	beq	.LBB62_2
	ldr	r3, [r0]
	bic	r2, r2, #7
	str	r3, [sp, #16]
	str.w	r8, [sp, #36]
	add.w	r8, r3, r2
	ldr	r3, [r3, r2]
	mov.w	r5, #-1
	str	r3, [sp, #12]
	ldr.w	r3, [r8, #4]
	str	r3, [sp, #8]
	ldr.w	r3, [r11, #4]
	str.w	lr, [sp, #40]
	ldr.w	lr, [r11]
	str	r3, [sp, #4]
	strd	r11, r0, [sp, #28]
	lsl.w	r11, r9, #3
	str	r6, [sp, #24]
	mov	r6, r1
	mov	r1, r12
	mov.w	r12, #32
	lsl.w	r0, r4, r11
	sub.w	r4, r12, r9, lsl #3
	str	r7, [sp, #20]
	mov.w	r7, #-1
	mvn	r3, #31
	lsrs	r7, r4
	add.w	r3, r3, r9, lsl #3
	orrs	r7, r0
	cmp	r3, #0
	it	pl
	movpl	r0, #0
	it	pl
	lslpl.w	r7, r5, r3
	ldr	r5, [sp, #8]
	lsr.w	r4, lr, r4
	bic.w	r12, r5, r7
	ldr	r5, [sp, #12]
	bic.w	r9, r5, r0
	ldr	r0, [sp, #4]
	lsl.w	r7, r0, r11
	orr.w	r4, r4, r7
	it	pl
	lslpl.w	r4, lr, r3
	lsl.w	r3, lr, r11
	ldrd	r11, r0, [sp, #28]
	ldr.w	lr, [sp, #40]
	it	pl
	movpl	r3, #0
	adds.w	r7, r3, r9
	ldr	r5, [sp, #16]
	adc.w	r3, r4, r12
	mov	r12, r1
	mov	r1, r6
	ldr	r6, [sp, #24]
	str	r7, [r5, r2]
	ldr	r7, [sp, #20]
	str.w	r3, [r8, #4]
	ldr.w	r8, [sp, #36]
	mov.w	r4, #-1
.LBB62_2:
	ldr	r5, [sp, #44]
	orr.w	r2, r12, lr, lsl #29
	eor.w	r3, r5, r10
	orrs	r3, r6
	orr.w	r12, r7, r1, lsl #29
	beq	.LBB62_4
	sub.w	r3, r5, r10
	add.w	r1, r11, r5
	movs	r5, #64
	ldr	r7, [r1, #-8]
	ldr	r1, [r1, #-4]
	mov	r10, r4
	sub.w	r4, r5, r3, lsl #3
	rsb.w	r5, r4, #32
	lsrs	r7, r4
	lsl.w	r5, r1, r5
	orrs	r5, r7
	movs	r7, #32
	lsls	r6, r3, #3
	sub.w	r7, r7, r3, lsl #3
	lsr.w	r9, r1, r4
	mvn	r4, #31
	cmp	r7, #0
	it	pl
	lsrpl.w	r5, r1, r7
	it	pl
	movpl.w	r9, #0
	add.w	r3, r4, r3, lsl #3
	ldr	r4, [r0]
	lsl.w	r6, r10, r6
	lsr.w	r7, r10, r7
	orrs	r7, r6
	add.w	r1, r2, r12
	cmp	r3, #0
	it	pl
	lslpl.w	r7, r10, r3
	ldr.w	r3, [r4, r1, lsl #3]
	it	pl
	movpl	r6, #0
	bics	r5, r6
	ands	r3, r6
	add	r3, r5
	str.w	r3, [r4, r1, lsl #3]
	add.w	r4, r4, r1, lsl #3
	ldr	r3, [r4, #4]
	bic.w	r1, r9, r7
	ands	r3, r7
	add	r1, r3
	str	r1, [r4, #4]
.LBB62_4:
	ldr	r1, [sp, #48]
	ldr	r0, [r0]
	add.w	r5, r11, r1
	rsbs.w	r1, r8, #63
	mov.w	r1, #0
	sbcs.w	r1, r1, lr
	add.w	r0, r0, r12, lsl #3
	blo	.LBB62_12
	lsls.w	r1, r8, #28
	bpl	.LBB62_7
	mvn	r1, #7
	add.w	r1, r1, r2, lsl #3
	adds	r3, r5, r1
	ldr	r3, [r3, #4]
	ldr	r7, [r5, r1]
	adds	r6, r0, r1
	str	r7, [r0, r1]
	str	r3, [r6, #4]
.LBB62_7:
	lsls.w	r1, r8, #27
	bpl	.LBB62_9
	movs	r1, #32
	and.w	r1, r1, r2, lsl #3
	adds	r2, r5, r1
	ldr	r3, [r5, r1]
	ldr	r2, [r2, #4]
	adds	r7, r0, r1
	str	r3, [r0, r1]
	adds	r1, #8
	str	r2, [r7, #4]
	adds	r2, r5, r1
	ldr	r2, [r2, #4]
	ldr	r3, [r5, r1]
	adds	r7, r0, r1
	str	r3, [r0, r1]
	str	r2, [r7, #4]
.LBB62_9:
	subs.w	r1, r8, #32
	sbcs	r1, lr, #0
	blo	.LBB62_11
	ldr	r1, [r5, #4]
	ldr	r2, [r5]
	strd	r2, r1, [r0]
	ldr	r1, [r5, #12]
	ldr	r2, [r5, #8]
	strd	r2, r1, [r0, #8]
	ldr	r1, [r5, #20]
	ldr	r2, [r5, #16]
	strd	r2, r1, [r0, #16]
	ldr	r1, [r5, #28]
	ldr	r2, [r5, #24]
	strd	r2, r1, [r0, #24]
.LBB62_11:
	add	sp, #52
	pop.w	{r4, r5, r6, r7, r8, r9, r10, r11, pc}
.LBB62_12:
	lsr.w	r3, lr, #3
	str	r5, [sp, #88]
	add	sp, #52
	pop.w	{r4, r5, r6, r7, r8, r9, r10, r11, lr}
	b	tlsf_words.cells.pack_many
.Lfunc_end62:
	.size	tlsf_words.words.Words.write_run, .Lfunc_end62-tlsf_words.words.Words.write_run
	.cfi_endproc
	.section	.text.tlsf_heap.region.Region.write.5,"ax",%progbits
	.p2align	2
	.type	tlsf_heap.region.Region.write.5,%function
	.code	16
	.thumb_func
tlsf_heap.region.Region.write.5:
	.cfi_startproc
	push	{r4, r5, r6, lr}
	.cfi_def_cfa_offset 16
	.cfi_offset lr, -4
	.cfi_offset r6, -8
	.cfi_offset r5, -12
	.cfi_offset r4, -16
	sub	sp, #16
	.cfi_def_cfa_offset 32
	mov	lr, r2
	ldr	r4, [sp, #32]
	lsrs	r2, r1, #29
	adds.w	r1, lr, r1, lsl #3
	mov	r12, r3
	adc	r3, r2, #0
	adds.w	r2, r1, #24
	orr.w	r1, r4, lr
	adc	r3, r3, #0
	lsls	r1, r1, #29
	ldr	r1, [sp, #36]
	beq	.LBB63_3
	rsbs.w	r6, r4, #7
	mov.w	r6, #0
	sbcs	r6, r1
	blo	.LBB63_10
	strd	r4, r1, [sp, #8]
	str.w	r12, [sp]
	bl	tlsf_words.words.Words.write_few
	add	sp, #16
	pop	{r4, r5, r6, pc}
.LBB63_3:
	rsbs.w	r3, r4, #63
	mov.w	r3, #0
	sbcs	r3, r1
	ldr	r0, [r0]
	lsr.w	r3, r4, #3
	bic	r2, r2, #7
	orr.w	lr, r3, r1, lsl #29
	add	r0, r2
	blo	.LBB63_12
	lsls	r2, r4, #28
	bpl	.LBB63_6
	mvn	r2, #7
	add.w	r2, r2, lr, lsl #3
	add.w	r3, r12, r2
	ldr	r3, [r3, #4]
	ldr.w	r5, [r12, r2]
	adds	r6, r0, r2
	str	r5, [r0, r2]
	str	r3, [r6, #4]
.LBB63_6:
	lsls	r2, r4, #27
	bpl	.LBB63_8
	movs	r2, #32
	and.w	r2, r2, lr, lsl #3
	add.w	r3, r12, r2
	ldr.w	r6, [r12, r2]
	ldr	r3, [r3, #4]
	adds	r5, r0, r2
	str	r6, [r0, r2]
	adds	r2, #8
	str	r3, [r5, #4]
	add.w	r3, r12, r2
	ldr	r3, [r3, #4]
	ldr.w	r6, [r12, r2]
	adds	r5, r0, r2
	str	r6, [r0, r2]
	str	r3, [r5, #4]
.LBB63_8:
	subs.w	r2, r4, #25
	sbcs	r1, r1, #0
	blo	.LBB63_11
	ldr.w	r1, [r12, #4]
	ldr.w	r2, [r12]
	strd	r2, r1, [r0]
	ldr.w	r1, [r12, #12]
	ldr.w	r2, [r12, #8]
	strd	r2, r1, [r0, #8]
	ldr.w	r1, [r12, #20]
	ldr.w	r2, [r12, #16]
	strd	r2, r1, [r0, #16]
	ldr.w	r1, [r12, #28]
	ldr.w	r2, [r12, #24]
	strd	r2, r1, [r0, #24]
	add	sp, #16
	pop	{r4, r5, r6, pc}
.LBB63_10:
	strd	r4, r1, [sp, #8]
	str.w	r12, [sp]
	bl	tlsf_words.words.Words.write_run
.LBB63_11:
	add	sp, #16
	pop	{r4, r5, r6, pc}
.LBB63_12:
	lsrs	r3, r1, #3
	mov	r2, lr
	str.w	r12, [sp, #32]
	add	sp, #16
	pop.w	{r4, r5, r6, lr}
	b	tlsf_words.cells.pack_many
.Lfunc_end63:
	.size	tlsf_heap.region.Region.write.5, .Lfunc_end63-tlsf_heap.region.Region.write.5
	.cfi_endproc
	.section	.text.tlsf_allocate,"ax",%progbits
	.globl	tlsf_allocate
	.p2align	2
	.type	tlsf_allocate,%function
	.code	16
	.thumb_func
tlsf_allocate:
	.cfi_startproc
	push.w	{r4, r5, r6, r7, r8, r9, r10, r11, lr}
	.cfi_def_cfa_offset 36
	.cfi_offset lr, -4
	.cfi_offset r11, -8
	.cfi_offset r10, -12
	.cfi_offset r9, -16
	.cfi_offset r8, -20
	.cfi_offset r7, -24
	.cfi_offset r6, -28
	.cfi_offset r5, -32
	.cfi_offset r4, -36
	sub	sp, #20
	.cfi_def_cfa_offset 56
	ldrb	r3, [r0, #8]
	cmp	r3, #0
	beq.w	.LBB64_10
	ldr.w	r9, [r0]
	ldrb.w	r3, [r9]
	cmp	r3, #0
	beq	.LBB64_10
	movs	r3, #0
	adds	r6, r1, #1
	adc	r5, r3, #0
	cmp	r1, #0
	strb.w	r3, [r9]
	ldrb.w	r7, [r9, #16]
	itt	ne
	movne	r6, r1
	movne	r5, r3
	adds.w	r3, r6, #31
	adc	r6, r5, #0
	lsrs	r3, r3, #3
	orr.w	r11, r3, r6, lsl #29
	cbz	r7, .LBB64_6
	cmp.w	r11, #16777216
	bhi	.LBB64_7
	orr	r3, r11, #32
	clz	r3, r3
	rsb.w	r3, r3, #26
	sub.w	r7, r11, #1
	lsr.w	r4, r7, r3
	add.w	r3, r4, r3, lsl #5
	adds	r3, #1
	subs	r7, r3, #1
	mov.w	r3, #0
	sbc	r6, r3, #0
	lsrs	r3, r7, #5
	orr.w	r5, r3, r6, lsl #27
	add.w	r8, r9, #108
	ldr.w	r3, [r8, r5, lsl #2]
	and	r4, r4, #31
	lsrs	r3, r4
	bics	r3, r3, #1
	beq	.LBB64_11
	rbit	r3, r3
	clz	r3, r3
	adds	r7, r7, r3
	adc	r3, r6, #0
	lsrs	r6, r7, #5
	str	r2, [sp, #8]
	orr.w	r12, r6, r3, lsl #27
	b	.LBB64_13
.LBB64_6:
	cmp.w	r11, #1048576
	bls	.LBB64_8
.LBB64_7:
	ldrd	r0, r2, [r9, #8]
	adds	r0, #1
	it	hs
	movhs.w	r0, #-1
	cmp	r1, r2
	it	hi
	movhi	r2, r1
	strd	r0, r2, [r9, #8]
	movs	r0, #1
	b	.LBB64_20
.LBB64_8:
	orr	r3, r11, #16
	clz	r3, r3
	rsb.w	r3, r3, #27
	sub.w	r7, r11, #1
	lsrs	r7, r3
	add.w	r3, r7, r3, lsl #4
	adds	r3, #1
	subs.w	r12, r3, #1
	mov.w	r6, #0
	sbc	r6, r6, #0
	lsr.w	r5, r12, #4
	orr.w	r5, r5, r6, lsl #28
	add.w	r8, r9, #108
	ldr.w	r3, [r8, r5, lsl #2]
	and	r7, r7, #15
	lsrs	r3, r7
	bics	r7, r3, #1
	beq	.LBB64_16
	rbit	r3, r7
	clz	r3, r3
	adds.w	r7, r12, r3
	adc	r3, r6, #0
	lsrs	r6, r7, #4
	orr.w	r12, r6, r3, lsl #28
	b	.LBB64_18
.LBB64_10:
	movs	r0, #0
	add	sp, #20
	pop.w	{r4, r5, r6, r7, r8, r9, r10, r11, lr}
	b	tlsf_c.call_fault.CallFault.refusal
.LBB64_11:
	ldr.w	r3, [r9, #104]
	mvn	r7, #1
	lsls	r7, r5
	ands	r3, r7
	beq	.LBB64_7
	rbit	r3, r3
	clz	r3, r3
	ldr.w	r7, [r8, r3, lsl #2]
	str	r2, [sp, #8]
	rbit	r7, r7
	clz	r7, r7
	add.w	r7, r7, r3, lsl #5
	lsr.w	r12, r7, #5
.LBB64_13:
	ldrd	lr, r2, [r9, #32]
	mvn.w	r3, lr
	orn	r3, r3, r2
	str	r2, [sp, #16]
	cbz	r3, .LBB64_19
	add.w	r10, r9, #192
	ldr.w	r4, [r10, r7, lsl #2]
	ldr.w	r6, [r9, #48]
	str	r4, [sp, #4]
	add.w	r5, r6, r4, lsl #3
	ldr	r5, [r5, #16]
	lsls	r4, r4, #3
	adds	r3, r5, #1
	beq	.LBB64_23
	add.w	r3, r6, r5, lsl #3
	ldr	r6, [r3, #20]
	mov.w	r2, #-1
	orrs	r6, r2
	str	r6, [r3, #20]
	str.w	r5, [r10, r7, lsl #2]
	ldr.w	r6, [r9, #48]
	b	.LBB64_25
.LBB64_16:
	ldr.w	r3, [r9, #104]
	mvn	r7, #1
	lsls	r7, r5
	ands	r3, r7
	beq.w	.LBB64_7
	rbit	r3, r3
	clz	r3, r3
	ldr.w	r7, [r8, r3, lsl #2]
	rbit	r7, r7
	clz	r7, r7
	add.w	r7, r7, r3, lsl #4
	lsr.w	r12, r7, #4
.LBB64_18:
	ldrd	r6, r4, [r9, #32]
	mvns	r3, r6
	orn	r3, r3, r4
	cbnz	r3, .LBB64_21
.LBB64_19:
	movs	r0, #2
.LBB64_20:
	movs	r1, #1
	strb.w	r1, [r9]
	add	sp, #20
	pop.w	{r4, r5, r6, r7, r8, r9, r10, r11, pc}
.LBB64_21:
	add.w	r10, r9, #192
	str	r6, [sp, #4]
	str	r4, [sp, #16]
	ldr.w	r4, [r10, r7, lsl #2]
	ldr.w	r6, [r9, #48]
	lsl.w	lr, r4, #3
	add.w	r5, r6, r4, lsl #3
	ldr	r5, [r5, #16]
	str	r4, [sp, #8]
	adds	r3, r5, #1
	beq.w	.LBB64_31
	add.w	r3, r6, r5, lsl #3
	ldr	r6, [r3, #20]
	mov.w	r4, #-1
	orrs	r6, r4
	str	r6, [r3, #20]
	str.w	r5, [r10, r7, lsl #2]
	ldr.w	r6, [r9, #48]
	b	.LBB64_33
.LBB64_23:
	mov.w	r3, #-1
	str.w	r3, [r10, r7, lsl #2]
	ldr.w	r3, [r8, r12, lsl #2]
	and	r7, r7, #31
	movs	r5, #1
	lsl.w	r7, r5, r7
	bics	r3, r7
	str.w	r3, [r8, r12, lsl #2]
	bne	.LBB64_25
	ldr.w	r3, [r9, #104]
	lsl.w	r7, r5, r12
	bics	r3, r7
	str.w	r3, [r9, #104]
.LBB64_25:
	ldr.w	r10, [r6, r4]
	adds	r5, r6, r4
	ldr.w	r12, [r5, #4]
	sub.w	r8, r10, r11, lsl #2
	cmp.w	r8, #15
	str	r4, [sp, #12]
	bhi	.LBB64_27
	ldr	r2, [sp, #16]
	subs.w	r3, r10, #1
	mov.w	r6, #0
	ldr.w	r8, [sp, #12]
	sbc	r7, r12, #0
	stm.w	r5, {r3, r7, lr}
	strd	r2, r1, [r5, #12]
	str	r6, [r5, #20]
	lsrs	r1, r3, #2
	b	.LBB64_41
.LBB64_27:
	ldr	r2, [sp, #4]
	subs.w	r10, r10, r8
	mov	r3, lr
	ldr.w	lr, [sp, #16]
	add.w	r7, r2, r11
	sbc	r4, r12, #0
	mov.w	r12, #0
	strd	r1, r12, [r5, #16]
	add.w	r1, r6, r7, lsl #3
	strd	r10, r4, [r5]
	strd	r3, lr, [r5, #8]
	str	r2, [r1, #4]
	mov	r2, lr
	str.w	r8, [r6, r7, lsl #3]
	strd	r3, r2, [r1, #8]
	mov	lr, r3
	ldr.w	r1, [r9, #72]
	mvn	r3, #7
	and.w	r3, r3, r7, lsr #3
	and	r5, r7, #63
	mov.w	r10, #1
	ldr	r6, [r1, r3]
	lsl.w	r4, r10, r5
	subs.w	r12, r5, #32
	it	pl
	movpl	r4, #0
	orr.w	r4, r4, r6
	str	r4, [r1, r3]
	add	r1, r3
	ldr	r3, [r1, #4]
	rsb.w	r4, r5, #32
	lsr.w	r4, r10, r4
	it	pl
	lslpl.w	r4, r10, r12
	orrs	r3, r4
	str	r3, [r1, #4]
	lsls.w	r1, r8, #30
	lsr.w	r1, r8, #2
	bmi	.LBB64_29
	ldr.w	r3, [r9, #48]
	adds	r6, r1, r7
	add.w	r3, r3, r6, lsl #3
	str	r7, [r3, #4]
.LBB64_29:
	orr	r3, r1, #32
	clz	r3, r3
	rsb.w	r3, r3, #26
	lsr.w	r12, r1, r3
	add.w	r6, r12, r3, lsl #5
	add.w	r3, r9, #192
	ldr.w	r5, [r3, r6, lsl #2]
	ldr.w	r8, [sp, #12]
	lsls	r1, r7, #3
	cmp.w	r5, #-1
	mov.w	r4, #-1
	str.w	r7, [r3, r6, lsl #2]
	ble.w	.LBB64_39
	ldr.w	r3, [r9, #48]
	add	r1, r3
	strd	r5, r4, [r1, #16]
	add.w	r1, r3, r5, lsl #3
	str	r7, [r1, #20]
	b	.LBB64_40
.LBB64_31:
	mov.w	r3, #-1
	str.w	r3, [r10, r7, lsl #2]
	ldr.w	r3, [r8, r12, lsl #2]
	and	r7, r7, #15
	movs	r5, #1
	lsl.w	r7, r5, r7
	bics	r3, r7
	str.w	r3, [r8, r12, lsl #2]
	bne	.LBB64_33
	ldr.w	r3, [r9, #104]
	lsl.w	r7, r5, r12
	bics	r3, r7
	str.w	r3, [r9, #104]
.LBB64_33:
	ldr.w	r7, [r6, lr]
	add.w	r5, r6, lr
	ldr.w	r10, [r5, #4]
	sub.w	r8, r7, r11, lsl #2
	cmp.w	r8, #15
	str.w	lr, [sp, #12]
	bhi	.LBB64_35
	subs	r3, r7, #1
	sbc	r7, r10, #0
	strd	r3, r7, [r5]
	ldr.w	lr, [sp, #4]
	ldr	r7, [sp, #16]
	movs	r6, #0
	ldr.w	r8, [sp, #12]
	str.w	lr, [r5, #8]
	strd	r7, r1, [r5, #12]
	str	r6, [r5, #20]
	lsrs	r1, r3, #2
	b	.LBB64_48
.LBB64_35:
	subs.w	r3, r7, r8
	ldr	r4, [sp, #8]
	sbc	r7, r10, #0
	strd	r3, r7, [r5]
	ldr	r3, [sp, #16]
	add.w	r12, r4, r11
	ldr.w	lr, [sp, #4]
	mov.w	r10, #0
	strd	r3, r1, [r5, #12]
	add.w	r1, r6, r12, lsl #3
	str.w	lr, [r5, #8]
	str.w	r10, [r5, #20]
	str.w	r8, [r6, r12, lsl #3]
	strd	r4, lr, [r1, #4]
	str	r3, [r1, #12]
	ldr.w	r1, [r9, #72]
	mvn	r3, #7
	and.w	r3, r3, r12, lsr #3
	ldr	r5, [r1, r3]
	and	r6, r12, #63
	movs	r7, #1
	lsl.w	r10, r7, r6
	subs.w	r4, r6, #32
	it	pl
	movpl.w	r10, #0
	orr.w	r5, r5, r10
	str	r5, [r1, r3]
	add	r1, r3
	ldr	r3, [r1, #4]
	rsb.w	r5, r6, #32
	lsr.w	r5, r7, r5
	it	pl
	lslpl.w	r5, r7, r4
	orrs	r3, r5
	str	r3, [r1, #4]
	lsls.w	r1, r8, #30
	lsr.w	r1, r8, #2
	bmi	.LBB64_37
	ldr.w	r3, [r9, #48]
	add.w	r5, r1, r12
	add.w	r3, r3, r5, lsl #3
	str.w	r12, [r3, #4]
.LBB64_37:
	orr	r3, r1, #16
	clz	r3, r3
	rsb.w	r3, r3, #27
	lsrs	r1, r3
	add.w	r6, r1, r3, lsl #4
	add.w	r3, r9, #192
	ldr.w	r5, [r3, r6, lsl #2]
	ldr.w	r8, [sp, #12]
	lsl.w	r7, r12, #3
	cmp.w	r5, #-1
	mov.w	r4, #-1
	str.w	r12, [r3, r6, lsl #2]
	ble	.LBB64_46
	ldr.w	r1, [r9, #48]
	adds	r3, r1, r7
	add.w	r1, r1, r5, lsl #3
	strd	r5, r4, [r3, #16]
	str.w	r12, [r1, #20]
	b	.LBB64_47
.LBB64_39:
	ldr.w	r3, [r9, #48]
	movs	r5, #1
	add	r1, r3
	mov.w	r3, #-1
	strd	r3, r4, [r1, #16]
	lsrs	r1, r6, #5
	ldr.w	r3, [r9, #104]
	lsl.w	r6, r5, r1
	add.w	r7, r9, #108
	orrs	r3, r6
	ldr.w	r4, [r7, r1, lsl #2]
	str.w	r3, [r9, #104]
	and	r3, r12, #31
	lsl.w	r3, r5, r3
	orrs	r3, r4
	str.w	r3, [r7, r1, lsl #2]
.LBB64_40:
	mov	r1, r11
.LBB64_41:
	ldrd	r3, r7, [r9, #40]
	add	r1, r3
	cmp	r7, r1
	str.w	r1, [r9, #40]
	it	lo
	strlo.w	r1, [r9, #44]
	ldrd	r3, r7, [r9, #32]
	ldr.w	r1, [r9, #24]
	adds	r3, #1
	adc	r7, r7, #0
	lsls.w	r6, r11, #31
	strd	r3, r7, [r9, #32]
	beq	.LBB64_43
	ldrb	r3, [r0, #28]
	cmp	r3, #0
	itt	eq
	moveq	r3, #1
	strbeq	r3, [r0, #28]
.LBB64_43:
	ldr	r0, [sp, #8]
	ldr	r2, [sp, #16]
	str	r1, [r0]
	ldr	r1, [sp, #4]
	str.w	lr, [r0, #8]
	str	r1, [r0, #4]
	subs.w	r1, r11, #3
	str	r2, [r0, #12]
	beq	.LBB64_45
.LBB64_44:
	ldr.w	r0, [r9, #48]
	lsls	r2, r1, #3
	add	r0, r8
	adds	r0, #24
	movs	r1, #0
	bl	tlsf_memory_set
.LBB64_45:
	movs	r0, #1
	strb.w	r0, [r9]
	movs	r0, #0
	add	sp, #20
	pop.w	{r4, r5, r6, r7, r8, r9, r10, r11, pc}
.LBB64_46:
	ldr.w	r3, [r9, #48]
	mov.w	r12, #1
	add	r3, r7
	mov.w	r7, #-1
	strd	r7, r4, [r3, #16]
	lsrs	r3, r6, #4
	add.w	r4, r9, #108
	ldr.w	r7, [r9, #104]
	ldr.w	r6, [r4, r3, lsl #2]
	and	r1, r1, #15
	lsl.w	r5, r12, r3
	lsl.w	r1, r12, r1
	orrs	r5, r7
	orrs	r1, r6
	str.w	r5, [r9, #104]
	str.w	r1, [r4, r3, lsl #2]
.LBB64_47:
	mov	r1, r11
.LBB64_48:
	ldrd	r3, r7, [r9, #40]
	add	r1, r3
	cmp	r7, r1
	str.w	r1, [r9, #40]
	it	lo
	strlo.w	r1, [r9, #44]
	ldrd	r3, r7, [r9, #32]
	ldr.w	r1, [r9, #24]
	adds	r3, #1
	adc	r7, r7, #0
	lsls.w	r6, r11, #31
	strd	r3, r7, [r9, #32]
	beq	.LBB64_50
	ldrb	r3, [r0, #28]
	cmp	r3, #0
	itt	eq
	moveq	r3, #1
	strbeq	r3, [r0, #28]
.LBB64_50:
	ldr	r0, [sp, #8]
	str	r1, [r2]
	str	r0, [r2, #4]
	ldr	r0, [sp, #16]
	subs.w	r1, r11, #3
	str.w	lr, [r2, #8]
	str	r0, [r2, #12]
	bne	.LBB64_44
	b	.LBB64_45
.Lfunc_end64:
	.size	tlsf_allocate, .Lfunc_end64-tlsf_allocate
	.cfi_endproc
	.section	.text.tlsf_allocate_aligned,"ax",%progbits
	.globl	tlsf_allocate_aligned
	.p2align	2
	.type	tlsf_allocate_aligned,%function
	.code	16
	.thumb_func
tlsf_allocate_aligned:
	.cfi_startproc
	push.w	{r4, r5, r6, r7, r8, r9, r10, r11, lr}
	.cfi_def_cfa_offset 36
	.cfi_offset lr, -4
	.cfi_offset r11, -8
	.cfi_offset r10, -12
	.cfi_offset r9, -16
	.cfi_offset r8, -20
	.cfi_offset r7, -24
	.cfi_offset r6, -28
	.cfi_offset r5, -32
	.cfi_offset r4, -36
	sub	sp, #52
	.cfi_def_cfa_offset 88
	ldrb	r7, [r1, #8]
	cmp	r7, #0
	beq.w	.LBB65_14
	ldr.w	r8, [r1]
	ldrb.w	r1, [r8]
	cmp	r1, #0
	beq.w	.LBB65_14
	mov.w	r7, #-1
	ldrb.w	r5, [r8, #16]
	movs	r1, #0
	ldrd	r4, r9, [r8, #32]
	subs	r6, r7, #4
	strb.w	r1, [r8]
	sbc	r1, r7, #0
	cmp	r5, #0
	beq	.LBB65_8
	subs	r6, r6, r4
	sbcs.w	r1, r1, r9
	blo	.LBB65_9
	cmp	r3, #1
	mov	lr, r3
	it	ls
	movls.w	lr, #1
	cmp.w	r3, #16777216
	bhi.w	.LBB65_65
	adds	r6, r2, #1
	mov.w	r3, #0
	adc	r5, r3, #0
	cmp	r2, #0
	itt	ne
	movne	r6, r2
	movne	r5, r3
	adds	r6, #31
	adc	r5, r5, #0
	lsrs	r6, r6, #3
	orr.w	r1, r6, r5, lsl #29
	add.w	r6, lr, r1
	add.w	r10, r6, #4
	cmp.w	r10, #16777216
	bhi.w	.LBB65_65
	orr	r6, r10, #32
	clz	r6, r6
	rsb.w	r6, r6, #26
	sub.w	r5, r10, #1
	lsr.w	r7, r5, r6
	add.w	r6, r7, r6, lsl #5
	adds	r6, #1
	subs	r5, r6, #1
	sbc	r6, r3, #0
	lsrs	r3, r5, #5
	str	r1, [sp, #12]
	orr.w	r3, r3, r6, lsl #27
	add.w	r1, r8, #108
	ldr.w	r1, [r1, r3, lsl #2]
	and	r7, r7, #31
	ldr.w	r11, [r8, #44]
	lsrs	r1, r7
	bics	r12, r1, #1
	str.w	r9, [sp, #28]
	beq	.LBB65_15
	rbit	r1, r12
	clz	r1, r1
	adds	r3, r5, r1
	adc	r1, r6, #0
	lsrs	r7, r3, #5
	str.w	r11, [sp, #8]
	str.w	r10, [sp, #24]
	orr.w	r9, r7, r1, lsl #27
	b	.LBB65_17
.LBB65_8:
	subs	r6, r6, r4
	sbcs.w	r1, r1, r9
	bhs	.LBB65_10
.LBB65_9:
	movs	r1, #1
	strb.w	r1, [r8]
	movs	r5, #0
	movs	r1, #2
	b	.LBB65_66
.LBB65_10:
	cmp	r3, #1
	mov	lr, r3
	it	ls
	movls.w	lr, #1
	cmp.w	r3, #1048576
	bhi.w	.LBB65_65
	adds	r6, r2, #1
	mov.w	r3, #0
	adc	r5, r3, #0
	cmp	r2, #0
	itt	ne
	movne	r6, r2
	movne	r5, r3
	adds	r6, #31
	adc	r5, r5, #0
	lsrs	r6, r6, #3
	orr.w	r10, r6, r5, lsl #29
	add.w	r6, lr, r10
	adds	r7, r6, #4
	cmp.w	r7, #1048576
	bhi.w	.LBB65_65
	orr	r6, r7, #16
	clz	r6, r6
	rsb.w	r6, r6, #27
	subs	r5, r7, #1
	lsr.w	r1, r5, r6
	add.w	r6, r1, r6, lsl #4
	adds	r6, #1
	subs	r5, r6, #1
	sbc	r6, r3, #0
	lsrs	r3, r5, #4
	str.w	r9, [sp, #28]
	orr.w	r9, r3, r6, lsl #28
	add.w	r3, r8, #108
	ldr.w	r3, [r3, r9, lsl #2]
	and	r1, r1, #15
	str	r4, [sp, #16]
	ldr.w	r4, [r8, #44]
	lsr.w	r1, r3, r1
	bics	r12, r1, #1
	beq.w	.LBB65_27
	rbit	r1, r12
	clz	r1, r1
	adds	r3, r5, r1
	adc	r1, r6, #0
	lsrs	r6, r3, #4
	str	r4, [sp, #4]
	str	r7, [sp, #24]
	orr.w	r7, r6, r1, lsl #28
	b	.LBB65_29
.LBB65_14:
	mov	r4, r0
	movs	r0, #0
	movs	r5, #0
	bl	tlsf_c.call_fault.CallFault.refusal
	mov	r1, r0
	mov	r0, r4
	b	.LBB65_66
.LBB65_15:
	ldr.w	r1, [r8, #104]
	mvn	r7, #1
	lsl.w	r3, r7, r3
	ands	r3, r1
	beq.w	.LBB65_65
	rbit	r1, r3
	clz	r1, r1
	add.w	r3, r8, #108
	ldr.w	r3, [r3, r1, lsl #2]
	str.w	r11, [sp, #8]
	rbit	r3, r3
	clz	r3, r3
	add.w	r3, r3, r1, lsl #5
	lsr.w	r9, r3, #5
	str.w	r10, [sp, #24]
.LBB65_17:
	add.w	r7, r8, #192
	ldr.w	r5, [r7, r3, lsl #2]
	ldr.w	r11, [r8, #48]
	add.w	r10, r8, #48
	add.w	r1, r11, r5, lsl #3
	ldr	r6, [r1, #16]
	lsl.w	r12, r5, #3
	adds	r1, r6, #1
	beq	.LBB65_19
	add.w	r1, r11, r6, lsl #3
	mov.w	r7, #-1
	str	r7, [r1, #20]
	add.w	r1, r8, #192
	str.w	r6, [r1, r3, lsl #2]
	ldr.w	r11, [r10]
	b	.LBB65_21
.LBB65_19:
	mov.w	r1, #-1
	str.w	r1, [r7, r3, lsl #2]
	add.w	r6, r8, #108
	ldr.w	r1, [r6, r9, lsl #2]
	and	r7, r3, #31
	movs	r3, #1
	lsl.w	r7, r3, r7
	bics	r1, r7
	str.w	r1, [r6, r9, lsl #2]
	bne	.LBB65_21
	ldr.w	r1, [r8, #104]
	lsl.w	r3, r3, r9
	bics	r1, r3
	str.w	r1, [r8, #104]
.LBB65_21:
	ldr.w	r3, [r11, r12]
	ldr	r1, [sp, #24]
	add.w	r10, r11, r12
	ldr.w	r6, [r10, #4]
	sub.w	r9, r3, r1, lsl #2
	cmp.w	r9, #15
	bhi	.LBB65_23
	subs	r1, r3, #1
	sbc	r3, r6, #0
	mov	r6, r4
	str.w	r4, [r10, #8]
	ldr	r4, [sp, #28]
	movs	r7, #0
	strd	r1, r3, [r10]
	strd	r4, r7, [r10, #12]
	str.w	r7, [r10, #20]
	lsrs	r3, r1, #2
	mov.w	r10, #-1
	b	.LBB65_41
.LBB65_23:
	str.w	r12, [sp, #20]
	add.w	r12, r5, r1
	subs.w	r1, r3, r9
	ldr	r7, [sp, #28]
	sbc	r3, r6, #0
	movs	r6, #0
	stm.w	r10, {r1, r3, r4}
	add.w	r1, r11, r12, lsl #3
	strd	r7, r6, [r10, #12]
	str.w	r6, [r10, #20]
	str.w	r9, [r11, r12, lsl #3]
	str	r5, [r1, #4]
	strd	r4, r7, [r1, #8]
	ldr.w	r1, [r8, #72]
	mvn	r3, #7
	and.w	r3, r3, r12, lsr #3
	str	r4, [sp, #16]
	ldr	r4, [r1, r3]
	and	r7, r12, #63
	mov.w	r11, #1
	subs.w	r6, r7, #32
	lsl.w	r10, r11, r7
	str	r6, [sp, #4]
	it	pl
	movpl.w	r10, #0
	orr.w	r6, r4, r10
	str	r6, [r1, r3]
	add	r1, r3
	ldr	r3, [r1, #4]
	rsb.w	r6, r7, #32
	lsr.w	r6, r11, r6
	ldr	r7, [sp, #4]
	it	pl
	lslpl.w	r6, r11, r7
	orrs	r3, r6
	str	r3, [r1, #4]
	lsls.w	r1, r9, #30
	lsr.w	r6, r9, #2
	bmi	.LBB65_25
	add.w	r1, r8, #48
	ldr	r1, [r1]
	add.w	r3, r6, r12
	add.w	r1, r1, r3, lsl #3
	str.w	r12, [r1, #4]
.LBB65_25:
	orr	r1, r6, #32
	clz	r1, r1
	rsb.w	r1, r1, #26
	lsr.w	r9, r6, r1
	add.w	r6, r9, r1, lsl #5
	add.w	r1, r8, #192
	ldr.w	r3, [r1, r6, lsl #2]
	lsl.w	r10, r12, #3
	cmp.w	r3, #-1
	str.w	r12, [r1, r6, lsl #2]
	ble.w	.LBB65_39
	add.w	r1, r8, #48
	ldr	r1, [r1]
	mov.w	r7, #-1
	add.w	r6, r1, r10
	strd	r3, r7, [r6, #16]
	ldr	r6, [sp, #16]
	ldr	r4, [sp, #28]
	add.w	r1, r1, r3, lsl #3
	mov.w	r10, #-1
	str.w	r12, [r1, #20]
	b	.LBB65_40
.LBB65_27:
	ldr.w	r1, [r8, #104]
	mvn	r3, #1
	lsl.w	r3, r3, r9
	ands	r3, r1
	beq.w	.LBB65_65
	rbit	r1, r3
	clz	r1, r1
	add.w	r3, r8, #108
	ldr.w	r3, [r3, r1, lsl #2]
	str	r7, [sp, #24]
	rbit	r3, r3
	clz	r3, r3
	add.w	r3, r3, r1, lsl #4
	lsrs	r7, r3, #4
	str	r4, [sp, #4]
.LBB65_29:
	add.w	r12, r8, #192
	ldr.w	r5, [r12, r3, lsl #2]
	ldr.w	r11, [r8, #48]
	add.w	r9, r8, #48
	add.w	r1, r11, r5, lsl #3
	ldr	r6, [r1, #16]
	lsls	r4, r5, #3
	adds	r1, r6, #1
	str.w	r10, [sp, #12]
	beq	.LBB65_31
	mov	r7, r12
	add.w	r12, r11, r6, lsl #3
	mov.w	r1, #-1
	str.w	r1, [r12, #20]
	str.w	r6, [r7, r3, lsl #2]
	ldr.w	r11, [r9]
	b	.LBB65_33
.LBB65_31:
	mov.w	r1, #-1
	str.w	r1, [r12, r3, lsl #2]
	add.w	r12, r8, #108
	ldr.w	r1, [r12, r7, lsl #2]
	and	r6, r3, #15
	movs	r3, #1
	lsl.w	r6, r3, r6
	bics	r1, r6
	str.w	r1, [r12, r7, lsl #2]
	bne	.LBB65_33
	ldr.w	r1, [r8, #104]
	lsls	r3, r7
	bics	r1, r3
	str.w	r1, [r8, #104]
.LBB65_33:
	ldr.w	r12, [r11, r4]
	ldr	r1, [sp, #24]
	add.w	r10, r11, r4
	ldr.w	r6, [r10, #4]
	sub.w	r3, r12, r1, lsl #2
	cmp	r3, #15
	str	r4, [sp, #8]
	bhi	.LBB65_35
	subs.w	r1, r12, #1
	sbc	r3, r6, #0
	ldr	r6, [sp, #16]
	ldr	r4, [sp, #28]
	mov.w	r12, #0
	strd	r1, r3, [r10]
	str.w	r6, [r10, #8]
	strd	r4, r12, [r10, #12]
	str.w	r12, [r10, #20]
	lsrs	r3, r1, #2
	b	.LBB65_54
.LBB65_35:
	add.w	r9, r5, r1
	subs.w	r1, r12, r3
	sbc	r6, r6, #0
	strd	r1, r6, [r10]
	ldr	r4, [sp, #16]
	ldr	r6, [sp, #28]
	mov.w	r12, #0
	add.w	r1, r11, r9, lsl #3
	str.w	r4, [r10, #8]
	strd	r6, r12, [r10, #12]
	str.w	r12, [r10, #20]
	str.w	r3, [r11, r9, lsl #3]
	strd	r5, r4, [r1, #4]
	str	r6, [r1, #12]
	ldr.w	r10, [r8, #72]
	mvn	r6, #7
	and.w	r12, r6, r9, lsr #3
	ldr.w	r6, [r10, r12]
	and	r1, r9, #63
	movs	r7, #1
	lsl.w	r11, r7, r1
	subs.w	r4, r1, #32
	it	pl
	movpl.w	r11, #0
	orr.w	r6, r6, r11
	str.w	r6, [r10, r12]
	add.w	r6, r10, r12
	rsb.w	r1, r1, #32
	ldr.w	r12, [r6, #4]
	lsr.w	r1, r7, r1
	it	pl
	lslpl.w	r1, r7, r4
	orr.w	r1, r1, r12
	str	r1, [r6, #4]
	lsls	r1, r3, #30
	lsr.w	r3, r3, #2
	add.w	r4, r8, #48
	bmi	.LBB65_37
	ldr	r1, [r4]
	add.w	r6, r3, r9
	add.w	r1, r1, r6, lsl #3
	str.w	r9, [r1, #4]
.LBB65_37:
	orr	r1, r3, #16
	clz	r1, r1
	rsb.w	r1, r1, #27
	lsr.w	r12, r3, r1
	add.w	r6, r12, r1, lsl #4
	add.w	r1, r8, #192
	ldr.w	r3, [r1, r6, lsl #2]
	lsl.w	r10, r9, #3
	cmp.w	r3, #-1
	str.w	r9, [r1, r6, lsl #2]
	ble.w	.LBB65_52
	ldr	r1, [r4]
	mov.w	r6, #-1
	add.w	r12, r1, r10
	add.w	r1, r1, r3, lsl #3
	strd	r3, r6, [r12, #16]
	str.w	r9, [r1, #20]
	b	.LBB65_53
.LBB65_39:
	ldr.w	r1, [r8, #48]
	mov.w	r12, #1
	add	r1, r10
	mov.w	r10, #-1
	strd	r10, r10, [r1, #16]
	lsrs	r1, r6, #5
	ldr.w	r3, [r8, #104]
	lsl.w	r6, r12, r1
	add.w	r11, r8, #108
	orrs	r3, r6
	ldr.w	r7, [r11, r1, lsl #2]
	str.w	r3, [r8, #104]
	and	r3, r9, #31
	lsl.w	r3, r12, r3
	orrs	r3, r7
	ldr	r6, [sp, #16]
	ldr	r4, [sp, #28]
	str.w	r3, [r11, r1, lsl #2]
.LBB65_40:
	ldrd	r12, r3, [sp, #20]
.LBB65_41:
	ldrd	r1, r7, [r8, #40]
	add	r3, r1
	ldr	r1, [sp, #88]
	cmp	r7, r3
	str.w	r3, [r8, #40]
	it	lo
	strlo.w	r3, [r8, #44]
	strd	r2, r0, [sp, #20]
	udiv	r0, r1, lr
	ldr.w	r7, [r8, #24]
	mls	r0, r0, lr, r1
	add	r0, r5
	adds	r0, #3
	udiv	r1, r0, lr
	mls	r2, r1, lr, r0
	ldrd	r1, r3, [r8, #32]
	add.w	r0, r8, #24
	adds	r1, #1
	adc	r3, r3, #0
	cmp	r2, #0
	strd	r1, r3, [r8, #32]
	beq	.LBB65_50
	add.w	r1, lr, lr, lsl #2
	subs	r1, r1, r2
	subs	r1, #4
	udiv	r2, r1, lr
	strd	r7, r5, [sp, #32]
	mls	r1, r2, lr, r1
	strd	r6, r4, [sp, #40]
	add.w	r11, r1, #4
	add	r1, sp, #32
	mov	r2, r11
	bl	tlsf_heap.heap.Heap.resize_live.5
	lsls	r0, r0, #24
	bne.w	.LBB65_61
	ldr.w	r0, [r8, #56]
	add	r5, r11
	cmp	r5, r0
	ldr	r0, [sp, #24]
	bhs.w	.LBB65_59
	ldr.w	r1, [r8, #72]
	mvn	r2, #7
	and.w	r2, r2, r5, lsr #3
	adds	r3, r1, r2
	ldr	r3, [r3, #4]
	ldr	r1, [r1, r2]
	and	r2, r5, #63
	rsb.w	r7, r2, #32
	lsrs	r1, r2
	lsl.w	r7, r3, r7
	orrs	r1, r7
	subs	r2, #32
	it	pl
	lsrpl.w	r1, r3, r2
	lsls	r1, r1, #31
	beq.w	.LBB65_59
	add.w	r7, r8, #48
	ldr	r1, [r7]
	ldr.w	r9, [r1, r5, lsl #3]
	lsls.w	r2, r9, #31
	beq.w	.LBB65_59
	ldr	r4, [sp, #12]
	cmp.w	r4, r9, lsr #2
	bhi.w	.LBB65_72
	ldrd	r2, r3, [r8, #32]
	eor.w	r3, r3, r10
	eor.w	r2, r2, r10
	orrs	r2, r3
	beq.w	.LBB65_76
	add.w	r0, r1, r5, lsl #3
	ldr	r0, [r0, #4]
	lsr.w	r1, r9, #2
	str	r0, [sp, #28]
	mov	r0, r7
	mov	r2, r5
	lsl.w	r11, r5, #3
	bl	tlsf_heap.region.Region.remove.5
	ldrd	r6, r0, [r8, #32]
	sub.w	r1, r9, r4, lsl #2
	cmp	r1, #15
	mov	r10, r11
	bhi.w	.LBB65_77
	add.w	r1, r8, #48
	ldr	r1, [r1]
	ldr	r2, [sp, #28]
	subs.w	r7, r9, #1
	sbc	r2, r2, #0
	add.w	r3, r1, r11
	str.w	r7, [r1, r11]
	movs	r1, #0
	strd	r2, r6, [r3, #4]
	strd	r0, r1, [r3, #12]
	str	r1, [r3, #20]
	lsrs	r2, r7, #2
	mov	r4, r0
	b	.LBB65_87
.LBB65_50:
	ldr	r2, [sp, #12]
	add	r1, sp, #32
	mov	r10, r12
	strd	r7, r5, [sp, #32]
	strd	r6, r4, [sp, #40]
	bl	tlsf_heap.heap.Heap.resize_live.5
	lsls	r0, r0, #24
	bne.w	.LBB65_61
.LBB65_51:
	ldr.w	r0, [r8, #40]
	ldr	r2, [sp, #8]
	ldr.w	r1, [r8, #48]
	cmp	r0, r2
	it	hi
	movhi	r2, r0
	str.w	r2, [r8, #44]
	add.w	r2, r1, r10
	b	.LBB65_92
.LBB65_52:
	ldr.w	r1, [r8, #48]
	mov.w	r7, #-1
	add	r1, r10
	strd	r7, r7, [r1, #16]
	lsrs	r1, r6, #4
	ldr.w	r3, [r8, #104]
	mov.w	r9, #1
	lsl.w	r6, r9, r1
	add.w	r4, r8, #108
	orrs	r3, r6
	ldr.w	r10, [r4, r1, lsl #2]
	str.w	r3, [r8, #104]
	and	r3, r12, #15
	lsl.w	r3, r9, r3
	orr.w	r3, r3, r10
	str.w	r3, [r4, r1, lsl #2]
.LBB65_53:
	ldr	r6, [sp, #16]
	ldrd	r3, r4, [sp, #24]
.LBB65_54:
	ldrd	r1, r7, [r8, #40]
	add.w	r10, r8, #24
	add	r3, r1
	ldr	r1, [sp, #88]
	cmp	r7, r3
	str.w	r3, [r8, #40]
	it	lo
	strlo.w	r3, [r8, #44]
	strd	r2, r0, [sp, #20]
	udiv	r0, r1, lr
	ldr	r2, [sp, #12]
	mls	r0, r0, lr, r1
	add	r0, r5
	adds	r0, #3
	udiv	r1, r0, lr
	mls	r7, r1, lr, r0
	ldrd	r1, r3, [r8, #32]
	ldr.w	r0, [r8, #24]
	adds	r1, #1
	adc	r3, r3, #0
	strd	r1, r3, [r8, #32]
	cbz	r7, .LBB65_60
	add.w	r1, lr, lr, lsl #2
	subs	r1, r1, r7
	subs	r1, #4
	udiv	r2, r1, lr
	str	r4, [sp, #44]
	mls	r1, r2, lr, r1
	add.w	r11, r1, #4
	add	r1, sp, #32
	stm	r1!, {r0, r5, r6}
	add	r1, sp, #32
	mov	r0, r10
	mov	r2, r11
	bl	tlsf_heap.heap.Heap.resize_live.4
	lsls	r0, r0, #24
	bne	.LBB65_61
	ldr.w	r0, [r8, #56]
	add	r5, r11
	cmp	r5, r0
	ldr	r0, [sp, #24]
	bhs	.LBB65_59
	ldr.w	r1, [r8, #72]
	mvn	r2, #7
	and.w	r2, r2, r5, lsr #3
	adds	r3, r1, r2
	ldr	r3, [r3, #4]
	ldr	r1, [r1, r2]
	and	r2, r5, #63
	rsb.w	r7, r2, #32
	lsrs	r1, r2
	lsl.w	r7, r3, r7
	orrs	r1, r7
	subs	r2, #32
	it	pl
	lsrpl.w	r1, r3, r2
	lsls	r1, r1, #31
	beq	.LBB65_59
	add.w	r4, r8, #48
	ldr	r1, [r4]
	ldr.w	r9, [r1, r5, lsl #3]
	lsls.w	r2, r9, #31
	bne	.LBB65_71
.LBB65_59:
	movs	r1, #3
	b	.LBB65_62
.LBB65_60:
	add	r1, sp, #32
	stm	r1!, {r0, r5, r6}
	add	r1, sp, #32
	mov	r0, r10
	str	r4, [sp, #44]
	bl	tlsf_heap.heap.Heap.resize_live.4
	lsls	r0, r0, #24
	beq.w	.LBB65_91
.LBB65_61:
	ldrd	r2, r0, [sp, #20]
	lsls	r3, r1, #24
	beq	.LBB65_65
.LBB65_62:
	movs	r2, #1
	strb.w	r2, [r8]
	uxtb	r2, r1
	subs	r2, #1
	movs	r5, #0
	movs	r1, #2
	movs	r6, #0
	movs	r4, #0
.LCPI65_0:
	tbb	[pc, r2]
.LJTI65_0:
	.byte	(.LBB65_67-(.LCPI65_0+4))/2
	.byte	(.LBB65_64-(.LCPI65_0+4))/2
	.byte	(.LBB65_69-(.LCPI65_0+4))/2
	.byte	(.LBB65_70-(.LCPI65_0+4))/2
	.byte	(.LBB65_68-(.LCPI65_0+4))/2
	.p2align	1
.LBB65_64:
	movs	r1, #3
	b	.LBB65_67
.LBB65_65:
	ldrd	r1, r3, [r8, #8]
	movs	r5, #0
	adds	r1, #1
	it	hs
	movhs.w	r1, #-1
	cmp	r2, r3
	it	hi
	movhi	r3, r2
	strd	r1, r3, [r8, #8]
	movs	r1, #1
	strb.w	r1, [r8]
.LBB65_66:
	movs	r6, #0
	movs	r4, #0
.LBB65_67:
	strd	r5, r1, [r0]
	strd	r6, r4, [r0, #8]
	add	sp, #52
	pop.w	{r4, r5, r6, r7, r8, r9, r10, r11, pc}
.LBB65_68:
	movs	r1, #10
	b	.LBB65_67
.LBB65_69:
	movs	r1, #4
	b	.LBB65_67
.LBB65_70:
	movs	r1, #7
	b	.LBB65_67
.LBB65_71:
	ldr	r2, [sp, #12]
	cmp.w	r2, r9, lsr #2
	bls	.LBB65_73
.LBB65_72:
	movs	r1, #5
	b	.LBB65_62
.LBB65_73:
	ldrd	r2, r3, [r8, #32]
	mov.w	r7, #-1
	eors	r3, r7
	eors	r2, r7
	orrs	r2, r3
	beq	.LBB65_76
	add.w	r0, r1, r5, lsl #3
	ldr	r6, [r0, #4]
	lsr.w	r1, r9, #2
	mov	r0, r4
	mov	r2, r5
	lsls	r7, r5, #3
	bl	tlsf_heap.region.Region.remove.4
	ldr	r2, [sp, #12]
	mov	r3, r4
	ldrd	r4, r12, [r8, #32]
	sub.w	r1, r9, r2, lsl #2
	cmp	r1, #15
	str	r7, [sp, #8]
	bhi	.LBB65_81
	ldr	r1, [r3]
	subs.w	r0, r9, #1
	add.w	r3, r1, r7
	sbc	r2, r6, #0
	str	r0, [r1, r7]
	movs	r1, #0
	add.w	lr, r3, #4
	stm.w	lr, {r2, r4, r12}
	strd	r1, r1, [r3, #16]
	lsrs	r2, r0, #2
	mov	r6, r4
	mov	r4, r12
	b	.LBB65_90
.LBB65_76:
	movs	r1, #1
	b	.LBB65_62
.LBB65_77:
	ldr.w	r7, [r8, #48]
	ldr	r2, [sp, #28]
	subs.w	r3, r9, r1
	add.w	r12, r5, r4
	sbc	r4, r2, #0
	add.w	r2, r7, r11
	str.w	r3, [r7, r11]
	movs	r3, #0
	strd	r4, r6, [r2, #4]
	strd	r0, r3, [r2, #12]
	str	r3, [r2, #20]
	add.w	r2, r7, r12, lsl #3
	movw	lr, #65528
	str.w	r1, [r7, r12, lsl #3]
	str	r5, [r2, #4]
	str	r6, [r2, #8]
	str	r0, [r2, #12]
	movt	lr, #8191
	ldr.w	r2, [r8, #72]
	str	r6, [sp, #16]
	and.w	r3, lr, r12, lsr #3
	and	r6, r12, #63
	mov.w	lr, #1
	ldr.w	r9, [r2, r3]
	lsl.w	r7, lr, r6
	mov	r4, r0
	subs.w	r0, r6, #32
	it	pl
	movpl	r7, #0
	orr.w	r7, r7, r9
	str	r7, [r2, r3]
	add	r2, r3
	ldr	r3, [r2, #4]
	rsb.w	r6, r6, #32
	lsr.w	r6, lr, r6
	it	pl
	lslpl.w	r6, lr, r0
	orrs	r3, r6
	str	r3, [r2, #4]
	lsls	r2, r1, #30
	lsr.w	r1, r1, #2
	add.w	r7, r8, #48
	bmi	.LBB65_79
	ldr	r2, [r7]
	add.w	r3, r1, r12
	add.w	r2, r2, r3, lsl #3
	str.w	r12, [r2, #4]
.LBB65_79:
	orr	r2, r1, #32
	clz	r2, r2
	rsb.w	r2, r2, #26
	lsrs	r1, r2
	add.w	r2, r1, r2, lsl #5
	add.w	r0, r8, #192
	ldr.w	r3, [r0, r2, lsl #2]
	lsl.w	r6, r12, #3
	cmp.w	r3, #-1
	str.w	r12, [r0, r2, lsl #2]
	ble	.LBB65_85
	ldr	r1, [r7]
	mov.w	r7, #-1
	adds	r2, r1, r6
	add.w	r1, r1, r3, lsl #3
	strd	r3, r7, [r2, #16]
	str.w	r12, [r1, #20]
	b	.LBB65_86
.LBB65_81:
	add.w	r11, r5, r2
	mov	r2, r6
	ldr.w	r6, [r8, #48]
	subs.w	lr, r9, r1
	add.w	r3, r6, r7
	sbc	r2, r2, #0
	str.w	lr, [r6, r7]
	adds	r7, r3, #4
	mov.w	lr, #0
	stm.w	r7, {r2, r4, r12, lr}
	add.w	r2, r6, r11, lsl #3
	movw	r0, #65528
	str.w	lr, [r3, #20]
	str.w	r1, [r6, r11, lsl #3]
	str	r5, [r2, #4]
	str	r4, [r2, #8]
	str.w	r12, [r2, #12]
	movt	r0, #8191
	ldr.w	r2, [r8, #72]
	and.w	r3, r0, r11, lsr #3
	and	r6, r11, #63
	mov.w	r9, #1
	str	r4, [sp, #16]
	mov	r4, r12
	ldr.w	r12, [r2, r3]
	lsl.w	r0, r9, r6
	subs.w	lr, r6, #32
	it	pl
	movpl	r0, #0
	orr.w	r0, r0, r12
	str	r0, [r2, r3]
	add.w	r0, r2, r3
	ldr	r2, [r0, #4]
	rsb.w	r3, r6, #32
	lsr.w	r3, r9, r3
	it	pl
	lslpl.w	r3, r9, lr
	orrs	r2, r3
	str	r2, [r0, #4]
	lsls	r0, r1, #30
	lsr.w	r1, r1, #2
	bmi	.LBB65_83
	add.w	r0, r8, #48
	ldr	r0, [r0]
	add.w	r2, r1, r11
	add.w	r0, r0, r2, lsl #3
	str.w	r11, [r0, #4]
.LBB65_83:
	orr	r0, r1, #16
	clz	r0, r0
	rsb.w	r0, r0, #27
	lsrs	r1, r0
	add.w	r2, r1, r0, lsl #4
	add.w	r0, r8, #192
	ldr.w	r3, [r0, r2, lsl #2]
	lsl.w	r6, r11, #3
	cmp.w	r3, #-1
	str.w	r11, [r0, r2, lsl #2]
	ble	.LBB65_88
	add.w	r0, r8, #48
	ldr	r0, [r0]
	mov.w	r2, #-1
	adds	r1, r0, r6
	add.w	r0, r0, r3, lsl #3
	strd	r3, r2, [r1, #16]
	str.w	r11, [r0, #20]
	b	.LBB65_89
.LBB65_85:
	ldr.w	r0, [r8, #48]
	mov.w	r3, #-1
	add	r0, r6
	strd	r3, r3, [r0, #16]
	lsrs	r0, r2, #5
	add.w	r12, r8, #108
	ldr.w	r2, [r8, #104]
	ldr.w	r3, [r12, r0, lsl #2]
	movs	r7, #1
	and	r1, r1, #31
	lsl.w	r6, r7, r0
	lsl.w	r1, r7, r1
	orrs	r2, r6
	orrs	r1, r3
	str.w	r2, [r8, #104]
	str.w	r1, [r12, r0, lsl #2]
.LBB65_86:
	ldrd	r2, r6, [sp, #12]
.LBB65_87:
	ldrd	r0, r1, [r8, #40]
	add	r2, r0
	cmp	r1, r2
	str.w	r2, [r8, #40]
	it	lo
	strlo.w	r2, [r8, #44]
	adds	r2, r6, #1
	adc	r1, r4, #0
	add.w	r0, r8, #24
	strd	r2, r1, [r8, #32]
	add	r1, sp, #32
	bl	tlsf_heap.heap.Heap.release_live.5
	b	.LBB65_51
.LBB65_88:
	ldr.w	r0, [r8, #48]
	mov.w	r3, #-1
	add	r0, r6
	strd	r3, r3, [r0, #16]
	lsrs	r0, r2, #4
	add.w	lr, r8, #108
	ldr.w	r2, [r8, #104]
	ldr.w	r3, [lr, r0, lsl #2]
	mov.w	r12, #1
	and	r1, r1, #15
	lsl.w	r6, r12, r0
	lsl.w	r1, r12, r1
	orrs	r2, r6
	orrs	r1, r3
	str.w	r2, [r8, #104]
	str.w	r1, [lr, r0, lsl #2]
.LBB65_89:
	ldrd	r2, r6, [sp, #12]
.LBB65_90:
	ldrd	r0, r1, [r8, #40]
	add	r0, r2
	cmp	r1, r0
	str.w	r0, [r8, #40]
	it	lo
	strlo.w	r0, [r8, #44]
	adds	r0, r6, #1
	adc	r1, r4, #0
	strd	r0, r1, [r8, #32]
	add	r1, sp, #32
	mov	r0, r10
	bl	tlsf_heap.heap.Heap.release_live.4
.LBB65_91:
	ldr.w	r0, [r8, #40]
	ldr	r2, [sp, #4]
	ldr.w	r1, [r8, #48]
	cmp	r0, r2
	it	hi
	movhi	r2, r0
	ldr	r0, [sp, #8]
	str.w	r2, [r8, #44]
	adds	r2, r1, r0
.LBB65_92:
	ldrd	r3, r0, [sp, #20]
	movs	r1, #0
	strd	r3, r1, [r2, #16]
	movs	r2, #1
	strb.w	r2, [r8]
	b	.LBB65_67
.Lfunc_end65:
	.size	tlsf_allocate_aligned, .Lfunc_end65-tlsf_allocate_aligned
	.cfi_endproc
	.section	.text.tlsf_allocate_payload,"ax",%progbits
	.globl	tlsf_allocate_payload
	.p2align	2
	.type	tlsf_allocate_payload,%function
	.code	16
	.thumb_func
tlsf_allocate_payload:
	.cfi_startproc
	ldrb	r2, [r0, #8]
	cmp	r2, #0
	itt	eq
	moveq	r0, #0
	bxeq	lr
.LBB66_1:
	push.w	{r4, r5, r6, r7, r8, r9, r10, r11, lr}
	.cfi_def_cfa_offset 36
	.cfi_offset lr, -4
	.cfi_offset r11, -8
	.cfi_offset r10, -12
	.cfi_offset r9, -16
	.cfi_offset r8, -20
	.cfi_offset r7, -24
	.cfi_offset r6, -28
	.cfi_offset r5, -32
	.cfi_offset r4, -36
	sub	sp, #16
	.cfi_def_cfa_offset 52
	ldr	r2, [r0]
	ldrb	r0, [r2]
	cmp	r0, #1
	mov.w	r0, #0
	bne	.LBB66_10
	cmp.w	r1, #134217728
	bhi	.LBB66_10
	movw	r3, #65528
	movt	r3, #8191
	adds	r0, r1, #7
	sub.w	r1, r3, #8
	ands	r1, r0
	movs	r0, #0
	strb	r0, [r2]
	ldrb	r0, [r2, #16]
	movw	r7, #65504
	add.w	r6, r1, #39
	movt	r7, #127
	add.w	r11, r1, #8
	lsr.w	r3, r6, #3
	cbz	r0, .LBB66_7
	add.w	r0, r7, #125829120
	cmp	r1, r0
	bhi	.LBB66_8
	orr	r0, r3, #32
	clz	r0, r0
	rsb.w	r0, r0, #26
	subs	r1, r3, #1
	lsr.w	r6, r1, r0
	add.w	r0, r6, r0, lsl #5
	adds	r0, #1
	subs	r1, r0, #1
	mov.w	r0, #0
	sbc	r4, r0, #0
	lsrs	r0, r1, #5
	orr.w	r7, r0, r4, lsl #27
	add.w	r8, r2, #108
	ldr.w	r0, [r8, r7, lsl #2]
	and	r6, r6, #31
	lsrs	r0, r6
	bics	r0, r0, #1
	beq	.LBB66_13
	rbit	r0, r0
	clz	r0, r0
	adds	r5, r1, r0
	adc	r0, r4, #0
	lsrs	r1, r5, #5
	orr.w	lr, r1, r0, lsl #27
	b	.LBB66_15
.LBB66_7:
	cmp	r1, r7
	bls	.LBB66_11
.LBB66_8:
	ldrd	r0, r1, [r2, #8]
	adds	r0, #1
	it	hs
	movhs.w	r0, #-1
	cmp	r11, r1
	it	hi
	movhi	r1, r11
	strd	r0, r1, [r2, #8]
.LBB66_9:
	movs	r0, #1
	strb	r0, [r2]
	movs	r0, #0
.LBB66_10:
	add	sp, #16
	pop.w	{r4, r5, r6, r7, r8, r9, r10, r11, pc}
.LBB66_11:
	orr	r0, r3, #16
	clz	r0, r0
	rsb.w	r0, r0, #27
	subs	r1, r3, #1
	lsr.w	r6, r1, r0
	add.w	r0, r6, r0, lsl #4
	adds	r0, #1
	subs	r1, r0, #1
	mov.w	r0, #0
	sbc	r4, r0, #0
	lsrs	r0, r1, #4
	orr.w	r7, r0, r4, lsl #28
	add.w	lr, r2, #108
	ldr.w	r0, [lr, r7, lsl #2]
	and	r6, r6, #15
	lsrs	r0, r6
	bics	r0, r0, #1
	beq	.LBB66_18
	rbit	r0, r0
	clz	r0, r0
	adds	r5, r1, r0
	adc	r0, r4, #0
	lsrs	r1, r5, #4
	orr.w	r12, r1, r0, lsl #28
	b	.LBB66_20
.LBB66_13:
	ldr	r0, [r2, #104]
	mvn	r1, #1
	lsls	r1, r7
	ands	r0, r1
	beq	.LBB66_8
	rbit	r0, r0
	clz	r0, r0
	ldr.w	r1, [r8, r0, lsl #2]
	rbit	r1, r1
	clz	r1, r1
	add.w	r5, r1, r0, lsl #5
	lsr.w	lr, r5, #5
.LBB66_15:
	ldrd	r7, r12, [r2, #32]
	mvns	r0, r7
	orn	r0, r0, r12
	cmp	r0, #0
	beq	.LBB66_9
	add.w	r10, r2, #192
	ldr.w	r6, [r10, r5, lsl #2]
	ldr	r1, [r2, #48]
	mov.w	r9, #-1
	add.w	r0, r1, r6, lsl #3
	ldr	r0, [r0, #16]
	str	r6, [sp, #4]
	adds	r4, r0, #1
	lsl.w	r6, r6, #3
	beq	.LBB66_23
	add.w	r1, r1, r0, lsl #3
	ldr	r4, [r1, #20]
	orr.w	r4, r4, r9
	str	r4, [r1, #20]
	str.w	r0, [r10, r5, lsl #2]
	ldr	r1, [r2, #48]
	b	.LBB66_25
.LBB66_18:
	ldr	r0, [r2, #104]
	mvn	r1, #1
	lsls	r1, r7
	ands	r0, r1
	beq	.LBB66_8
	rbit	r0, r0
	clz	r0, r0
	ldr.w	r1, [lr, r0, lsl #2]
	rbit	r1, r1
	clz	r1, r1
	add.w	r5, r1, r0, lsl #4
	lsr.w	r12, r5, #4
.LBB66_20:
	ldrd	r7, r10, [r2, #32]
	mvns	r0, r7
	orn	r0, r0, r10
	cmp	r0, #0
	beq.w	.LBB66_9
	add.w	r9, r2, #192
	ldr.w	r6, [r9, r5, lsl #2]
	ldr	r1, [r2, #48]
	mov.w	r8, #-1
	add.w	r0, r1, r6, lsl #3
	ldr	r4, [r0, #16]
	str	r6, [sp, #4]
	adds	r0, r4, #1
	lsl.w	r6, r6, #3
	beq.w	.LBB66_31
	add.w	r0, r1, r4, lsl #3
	ldr	r1, [r0, #20]
	orr.w	r1, r1, r8
	str	r1, [r0, #20]
	str.w	r4, [r9, r5, lsl #2]
	ldr	r1, [r2, #48]
	b	.LBB66_33
.LBB66_23:
	mov.w	r0, #-1
	str.w	r0, [r10, r5, lsl #2]
	ldr.w	r4, [r8, lr, lsl #2]
	and	r5, r5, #31
	movs	r0, #1
	lsl.w	r5, r0, r5
	bics	r4, r5
	str.w	r4, [r8, lr, lsl #2]
	bne	.LBB66_25
	ldr	r4, [r2, #104]
	lsl.w	r0, r0, lr
	bic.w	r0, r4, r0
	str	r0, [r2, #104]
.LBB66_25:
	ldr.w	r10, [r1, r6]
	add.w	r9, r1, r6
	ldr.w	lr, [r9, #4]
	sub.w	r8, r10, r3, lsl #2
	cmp.w	r8, #15
	str	r6, [sp, #12]
	bhi	.LBB66_27
	subs.w	r0, r10, #1
	mov.w	r5, #0
	ldr	r4, [sp, #12]
	sbc	r1, lr, #0
	stm.w	r9, {r0, r1, r7, r12}
	strd	r11, r5, [r9, #16]
	lsrs	r3, r0, #2
	b	.LBB66_41
.LBB66_27:
	ldr	r6, [sp, #4]
	lsr.w	r0, r8, #2
	subs.w	r4, r10, r8
	str	r0, [sp]
	add.w	r5, r6, r3
	sbc	r0, lr, #0
	strd	r4, r0, [r9]
	add.w	r0, r1, r5, lsl #3
	mov.w	lr, #0
	adds	r0, #4
	strd	r7, r12, [r9, #8]
	strd	r11, lr, [r9, #16]
	str.w	r8, [r1, r5, lsl #3]
	stm.w	r0, {r6, r7, r12}
	movw	r1, #65528
	ldr	r0, [r2, #72]
	movt	r1, #8191
	and.w	r1, r1, r5, lsr #3
	and	r4, r5, #63
	str	r3, [sp, #8]
	adds	r3, r0, r1
	mov.w	r10, #1
	rsb.w	r6, r4, #32
	ldr.w	r9, [r3, #4]
	lsr.w	r6, r10, r6
	ldr.w	lr, [r0, r1]
	subs.w	r7, r4, #32
	it	pl
	lslpl.w	r6, r10, r7
	lsl.w	r4, r10, r4
	orr.w	r6, r6, r9
	it	pl
	movpl	r4, #0
	orr.w	r7, lr, r4
	str	r6, [r3, #4]
	ldr	r3, [sp]
	str	r7, [r0, r1]
	lsls.w	r0, r8, #30
	bmi	.LBB66_29
	ldr	r0, [r2, #48]
	adds	r1, r3, r5
	add.w	r0, r0, r1, lsl #3
	str	r5, [r0, #4]
.LBB66_29:
	orr	r0, r3, #32
	clz	r0, r0
	rsb.w	r0, r0, #26
	lsr.w	r1, r3, r0
	add.w	r3, r1, r0, lsl #5
	add.w	r6, r2, #192
	ldr.w	r0, [r6, r3, lsl #2]
	ldr	r4, [sp, #12]
	lsls	r7, r5, #3
	cmp.w	r0, #-1
	str.w	r5, [r6, r3, lsl #2]
	add.w	lr, r2, #108
	mov.w	r6, #-1
	ble.w	.LBB66_39
	ldr	r1, [r2, #48]
	adds	r3, r1, r7
	strd	r0, r6, [r3, #16]
	add.w	r0, r1, r0, lsl #3
	str	r5, [r0, #20]
	b	.LBB66_40
.LBB66_31:
	mov.w	r0, #-1
	str.w	r0, [r9, r5, lsl #2]
	ldr.w	r4, [lr, r12, lsl #2]
	and	r5, r5, #15
	movs	r0, #1
	lsl.w	r5, r0, r5
	bics.w	r5, r4, r5
	str.w	r5, [lr, r12, lsl #2]
	bne	.LBB66_33
	ldr	r5, [r2, #104]
	lsl.w	r0, r0, r12
	bic.w	r0, r5, r0
	str	r0, [r2, #104]
.LBB66_33:
	ldr	r0, [r1, r6]
	add.w	r9, r1, r6
	ldr.w	lr, [r9, #4]
	sub.w	r8, r0, r3, lsl #2
	cmp.w	r8, #15
	str	r6, [sp, #12]
	bhi	.LBB66_35
	subs	r0, #1
	mov.w	r5, #0
	ldr	r4, [sp, #12]
	sbc	r1, lr, #0
	stm.w	r9, {r0, r1, r7, r10, r11}
	str.w	r5, [r9, #20]
	lsr.w	r12, r0, #2
	b	.LBB66_44
.LBB66_35:
	ldr	r6, [sp, #4]
	subs.w	r0, r0, r8
	add.w	r5, r6, r3
	sbc	r4, lr, #0
	mov.w	lr, #0
	stm.w	r9, {r0, r4, r7, r10, r11, lr}
	add.w	r0, r1, r5, lsl #3
	adds	r0, #4
	str.w	r8, [r1, r5, lsl #3]
	stm.w	r0, {r6, r7, r10}
	movw	r1, #65528
	ldr	r0, [r2, #72]
	movt	r1, #8191
	and.w	r1, r1, r5, lsr #3
	and	r4, r5, #63
	str	r3, [sp, #8]
	adds	r3, r0, r1
	ldr.w	lr, [r0, r1]
	mov.w	r10, #1
	rsb.w	r6, r4, #32
	ldr.w	r9, [r3, #4]
	subs.w	r7, r4, #32
	lsr.w	r6, r10, r6
	lsl.w	r4, r10, r4
	it	pl
	lslpl.w	r6, r10, r7
	it	pl
	movpl	r4, #0
	orr.w	r7, lr, r4
	lsr.w	r12, r8, #2
	orr.w	r6, r6, r9
	str	r7, [r0, r1]
	lsls.w	r0, r8, #30
	str	r6, [r3, #4]
	bmi	.LBB66_37
	ldr	r0, [r2, #48]
	add.w	r1, r12, r5
	add.w	r0, r0, r1, lsl #3
	str	r5, [r0, #4]
.LBB66_37:
	orr	r0, r12, #16
	clz	r0, r0
	rsb.w	r0, r0, #27
	lsr.w	r1, r12, r0
	add.w	r3, r1, r0, lsl #4
	add.w	r6, r2, #192
	ldr.w	r7, [r6, r3, lsl #2]
	ldr	r4, [sp, #12]
	lsls	r0, r5, #3
	cmp.w	r7, #-1
	str.w	r5, [r6, r3, lsl #2]
	add.w	r8, r2, #108
	mov.w	r6, #-1
	ble	.LBB66_42
	ldr	r1, [r2, #48]
	add	r0, r1
	strd	r7, r6, [r0, #16]
	add.w	r0, r1, r7, lsl #3
	str	r5, [r0, #20]
	b	.LBB66_43
.LBB66_39:
	ldr	r0, [r2, #48]
	mov.w	r12, #1
	add	r0, r7
	mov.w	r7, #-1
	strd	r7, r6, [r0, #16]
	lsrs	r0, r3, #5
	ldr	r3, [r2, #104]
	ldr.w	r7, [lr, r0, lsl #2]
	and	r1, r1, #31
	lsl.w	r5, r12, r0
	lsl.w	r1, r12, r1
	orrs	r3, r5
	orrs	r1, r7
	str	r3, [r2, #104]
	str.w	r1, [lr, r0, lsl #2]
.LBB66_40:
	ldr	r3, [sp, #8]
.LBB66_41:
	ldrd	r0, r1, [r2, #40]
	add	r0, r3
	b	.LBB66_45
.LBB66_42:
	ldr	r7, [r2, #48]
	mov.w	lr, #1
	add	r0, r7
	mov.w	r7, #-1
	strd	r7, r6, [r0, #16]
	lsrs	r0, r3, #4
	ldr	r3, [r2, #104]
	ldr.w	r7, [r8, r0, lsl #2]
	and	r1, r1, #15
	lsl.w	r5, lr, r0
	lsl.w	r1, lr, r1
	orrs	r3, r5
	orrs	r1, r7
	str	r3, [r2, #104]
	str.w	r1, [r8, r0, lsl #2]
.LBB66_43:
	ldr.w	r12, [sp, #8]
.LBB66_44:
	ldrd	r0, r1, [r2, #40]
	add	r0, r12
.LBB66_45:
	cmp	r1, r0
	str	r0, [r2, #40]
	it	lo
	strlo	r0, [r2, #44]
	ldrd	r0, r1, [r2, #32]
	adds	r0, #1
	adc	r1, r1, #0
	strd	r0, r1, [r2, #32]
	movs	r0, #1
	strb	r0, [r2]
	add.w	r0, r4, #24
	add	sp, #16
	pop.w	{r4, r5, r6, r7, r8, r9, r10, r11, pc}
.Lfunc_end66:
	.size	tlsf_allocate_payload, .Lfunc_end66-tlsf_allocate_payload
	.cfi_endproc
	.section	.text.tlsf_allocate_place,"ax",%progbits
	.globl	tlsf_allocate_place
	.p2align	2
	.type	tlsf_allocate_place,%function
	.code	16
	.thumb_func
tlsf_allocate_place:
	.cfi_startproc
	push.w	{r4, r5, r6, r7, r8, r9, r10, r11, lr}
	.cfi_def_cfa_offset 36
	.cfi_offset lr, -4
	.cfi_offset r11, -8
	.cfi_offset r10, -12
	.cfi_offset r9, -16
	.cfi_offset r8, -20
	.cfi_offset r7, -24
	.cfi_offset r6, -28
	.cfi_offset r5, -32
	.cfi_offset r4, -36
	sub	sp, #4
	.cfi_def_cfa_offset 40
	ldrb	r3, [r1, #8]
	cmp	r3, #0
	beq	.LBB67_6
	ldr	r1, [r1]
	ldrb	r3, [r1]
	cmp	r3, #1
	mov.w	r3, #0
	bne	.LBB67_7
	adds	r6, r2, #1
	adc	r5, r3, #0
	cmp	r2, #0
	strb	r3, [r1]
	ldrb	r7, [r1, #16]
	itt	ne
	movne	r6, r2
	movne	r5, r3
	adds.w	r3, r6, #31
	adc	r6, r5, #0
	lsrs	r3, r3, #3
	orr.w	r12, r3, r6, lsl #29
	cbz	r7, .LBB67_8
	cmp.w	r12, #16777216
	bhi	.LBB67_9
	orr	r3, r12, #32
	clz	r3, r3
	rsb.w	r3, r3, #26
	sub.w	r7, r12, #1
	lsr.w	r5, r7, r3
	add.w	r3, r5, r3, lsl #5
	adds	r3, #1
	subs	r3, #1
	mov.w	r7, #0
	sbc	r7, r7, #0
	lsrs	r6, r3, #5
	orr.w	r6, r6, r7, lsl #27
	add.w	lr, r1, #108
	ldr.w	r4, [lr, r6, lsl #2]
	and	r5, r5, #31
	lsr.w	r5, r4, r5
	bics	r5, r5, #1
	beq	.LBB67_12
	rbit	r6, r5
	clz	r6, r6
	adds.w	r11, r3, r6
	adc	r3, r7, #0
	lsr.w	r7, r11, #5
	orr.w	r9, r7, r3, lsl #27
	b	.LBB67_14
.LBB67_6:
	movs	r3, #0
.LBB67_7:
	movs	r2, #32
	mov.w	lr, #0
	movs	r4, #0
	b	.LBB67_43
.LBB67_8:
	cmp.w	r12, #1048576
	bls	.LBB67_10
.LBB67_9:
	ldrd	r3, r7, [r1, #8]
	adds	r3, #1
	it	hs
	movhs.w	r3, #-1
	cmp	r2, r7
	it	hi
	movhi	r7, r2
	strd	r3, r7, [r1, #8]
	movs	r3, #0
	movs	r2, #1
	b	.LBB67_21
.LBB67_10:
	orr	r3, r12, #16
	clz	r3, r3
	rsb.w	r3, r3, #27
	sub.w	r7, r12, #1
	lsr.w	r5, r7, r3
	add.w	r3, r5, r3, lsl #4
	adds	r3, #1
	subs	r3, #1
	mov.w	r7, #0
	sbc	r7, r7, #0
	lsrs	r6, r3, #4
	orr.w	r6, r6, r7, lsl #28
	add.w	lr, r1, #108
	ldr.w	r4, [lr, r6, lsl #2]
	and	r5, r5, #15
	lsr.w	r5, r4, r5
	bics	r5, r5, #1
	beq	.LBB67_17
	rbit	r6, r5
	clz	r6, r6
	adds.w	r11, r3, r6
	adc	r3, r7, #0
	lsr.w	r7, r11, #4
	orr.w	r9, r7, r3, lsl #28
	b	.LBB67_19
.LBB67_12:
	ldr	r3, [r1, #104]
	mvn	r7, #1
	lsls	r7, r6
	ands	r3, r7
	beq	.LBB67_9
	rbit	r3, r3
	clz	r3, r3
	ldr.w	r7, [lr, r3, lsl #2]
	rbit	r7, r7
	clz	r7, r7
	add.w	r11, r7, r3, lsl #5
	lsr.w	r9, r11, #5
.LBB67_14:
	ldrd	lr, r4, [r1, #32]
	mvn.w	r3, lr
	orn	r3, r3, r4
	cbz	r3, .LBB67_20
	add.w	r5, r1, #192
	ldr.w	r3, [r5, r11, lsl #2]
	ldr.w	r10, [r1, #48]
	lsl.w	r8, r3, #3
	add.w	r6, r10, r3, lsl #3
	ldr	r6, [r6, #16]
	adds	r7, r6, #1
	beq	.LBB67_24
	add.w	r9, r10, r6, lsl #3
	ldr.w	r7, [r9, #20]
	mov	r10, r5
	mov.w	r5, #-1
	orrs	r7, r5
	str.w	r7, [r9, #20]
	str.w	r6, [r10, r11, lsl #2]
	ldr.w	r10, [r1, #48]
	b	.LBB67_26
.LBB67_17:
	ldr	r3, [r1, #104]
	mvn	r7, #1
	lsls	r7, r6
	ands	r3, r7
	beq.w	.LBB67_9
	rbit	r3, r3
	clz	r3, r3
	ldr.w	r7, [lr, r3, lsl #2]
	rbit	r7, r7
	clz	r7, r7
	add.w	r11, r7, r3, lsl #4
	lsr.w	r9, r11, #4
.LBB67_19:
	ldrd	lr, r4, [r1, #32]
	mvn.w	r3, lr
	orn	r3, r3, r4
	cbnz	r3, .LBB67_22
.LBB67_20:
	movs	r3, #0
	movs	r2, #2
.LBB67_21:
	mov.w	lr, #0
	movs	r4, #0
	b	.LBB67_42
.LBB67_22:
	add.w	r5, r1, #192
	ldr.w	r3, [r5, r11, lsl #2]
	ldr.w	r10, [r1, #48]
	lsl.w	r8, r3, #3
	add.w	r6, r10, r3, lsl #3
	ldr	r6, [r6, #16]
	adds	r7, r6, #1
	beq.w	.LBB67_31
	add.w	r9, r10, r6, lsl #3
	ldr.w	r7, [r9, #20]
	mov	r10, r5
	mov.w	r5, #-1
	orrs	r7, r5
	str.w	r7, [r9, #20]
	str.w	r6, [r10, r11, lsl #2]
	ldr.w	r10, [r1, #48]
	b	.LBB67_33
.LBB67_24:
	mov.w	r6, #-1
	str.w	r6, [r5, r11, lsl #2]
	add.w	r5, r1, #108
	ldr.w	r6, [r5, r9, lsl #2]
	and	r7, r11, #31
	mov.w	r11, #1
	lsl.w	r7, r11, r7
	bics	r6, r7
	str.w	r6, [r5, r9, lsl #2]
	bne	.LBB67_26
	ldr	r6, [r1, #104]
	lsl.w	r5, r11, r9
	bic.w	r5, r6, r5
	str	r5, [r1, #104]
.LBB67_26:
	ldr.w	r9, [r10, r8]
	add.w	r6, r10, r8
	ldr.w	r8, [r6, #4]
	sub.w	r5, r9, r12, lsl #2
	cmp	r5, #15
	bls.w	.LBB67_34
	add.w	r11, r3, r12
	subs.w	r7, r9, r5
	mov.w	r9, #0
	strd	r4, r2, [r6, #12]
	add.w	r2, r10, r11, lsl #3
	sbc	r8, r8, #0
	stm.w	r6, {r7, r8, lr}
	str.w	r9, [r6, #20]
	str.w	r5, [r10, r11, lsl #3]
	strd	r3, lr, [r2, #4]
	str	r4, [r2, #12]
	ldr.w	r8, [r1, #72]
	mvn	r6, #7
	and	r7, r11, #63
	and.w	r6, r6, r11, lsr #3
	subs.w	r2, r7, #32
	ldr.w	r10, [r8, r6]
	str	r2, [sp]
	mov.w	r2, #1
	lsl.w	r9, r2, r7
	it	pl
	movpl.w	r9, #0
	orr.w	r2, r10, r9
	str.w	r2, [r8, r6]
	add.w	r2, r8, r6
	ldr.w	r8, [r2, #4]
	rsb.w	r7, r7, #32
	mov.w	r9, #1
	lsr.w	r7, r9, r7
	ldr	r6, [sp]
	it	pl
	lslpl.w	r7, r9, r6
	orr.w	r6, r8, r7
	str	r6, [r2, #4]
	lsls	r2, r5, #30
	lsr.w	r2, r5, #2
	bmi	.LBB67_29
	ldr	r5, [r1, #48]
	add.w	r6, r2, r11
	add.w	r5, r5, r6, lsl #3
	str.w	r11, [r5, #4]
.LBB67_29:
	orr	r5, r2, #32
	clz	r5, r5
	rsb.w	r5, r5, #26
	lsr.w	r10, r2, r5
	add.w	r5, r10, r5, lsl #5
	add.w	r2, r1, #192
	ldr.w	r6, [r2, r5, lsl #2]
	lsl.w	r7, r11, #3
	cmp.w	r6, #-1
	add.w	r8, r1, #108
	mov.w	r9, #-1
	str.w	r11, [r2, r5, lsl #2]
	bgt.w	.LBB67_38
	ldr	r6, [r1, #48]
	lsrs	r5, r5, #5
	add	r6, r7
	mov.w	r7, #-1
	strd	r7, r9, [r6, #16]
	ldr	r6, [r1, #104]
	mov	r11, r8
	ldr.w	r9, [r8, r5, lsl #2]
	mov.w	r8, #1
	lsl.w	r7, r8, r5
	orrs	r6, r7
	str	r6, [r1, #104]
	and	r2, r10, #31
	b	.LBB67_40
.LBB67_31:
	mov.w	r6, #-1
	str.w	r6, [r5, r11, lsl #2]
	add.w	r5, r1, #108
	ldr.w	r6, [r5, r9, lsl #2]
	and	r7, r11, #15
	mov.w	r11, #1
	lsl.w	r7, r11, r7
	bics	r6, r7
	str.w	r6, [r5, r9, lsl #2]
	bne	.LBB67_33
	ldr	r6, [r1, #104]
	lsl.w	r5, r11, r9
	bic.w	r5, r6, r5
	str	r5, [r1, #104]
.LBB67_33:
	ldr.w	r9, [r10, r8]
	add.w	r6, r10, r8
	ldr.w	r8, [r6, #4]
	sub.w	r5, r9, r12, lsl #2
	cmp	r5, #15
	bhi	.LBB67_35
.LBB67_34:
	subs.w	r7, r9, #1
	sbc	r5, r8, #0
	mov.w	r12, #0
	str	r7, [r6]
	str	r5, [r6, #4]
	str.w	lr, [r6, #8]
	str	r4, [r6, #12]
	str	r2, [r6, #16]
	str.w	r12, [r6, #20]
	lsr.w	r12, r7, #2
	b	.LBB67_41
.LBB67_35:
	add.w	r11, r3, r12
	subs.w	r7, r9, r5
	mov.w	r9, #0
	strd	r4, r2, [r6, #12]
	add.w	r2, r10, r11, lsl #3
	sbc	r8, r8, #0
	stm.w	r6, {r7, r8, lr}
	str.w	r9, [r6, #20]
	str.w	r5, [r10, r11, lsl #3]
	strd	r3, lr, [r2, #4]
	str	r4, [r2, #12]
	ldr.w	r8, [r1, #72]
	mvn	r6, #7
	and	r7, r11, #63
	and.w	r6, r6, r11, lsr #3
	subs.w	r2, r7, #32
	ldr.w	r10, [r8, r6]
	str	r2, [sp]
	mov.w	r2, #1
	lsl.w	r9, r2, r7
	it	pl
	movpl.w	r9, #0
	orr.w	r2, r10, r9
	str.w	r2, [r8, r6]
	add.w	r2, r8, r6
	ldr.w	r8, [r2, #4]
	rsb.w	r7, r7, #32
	mov.w	r9, #1
	lsr.w	r7, r9, r7
	ldr	r6, [sp]
	it	pl
	lslpl.w	r7, r9, r6
	orr.w	r6, r8, r7
	str	r6, [r2, #4]
	lsls	r2, r5, #30
	lsr.w	r2, r5, #2
	bmi	.LBB67_37
	ldr	r5, [r1, #48]
	add.w	r6, r2, r11
	add.w	r5, r5, r6, lsl #3
	str.w	r11, [r5, #4]
.LBB67_37:
	orr	r5, r2, #16
	clz	r5, r5
	rsb.w	r5, r5, #27
	lsr.w	r10, r2, r5
	add.w	r5, r10, r5, lsl #4
	add.w	r2, r1, #192
	ldr.w	r6, [r2, r5, lsl #2]
	lsl.w	r7, r11, #3
	cmp.w	r6, #-1
	add.w	r8, r1, #108
	mov.w	r9, #-1
	str.w	r11, [r2, r5, lsl #2]
	ble	.LBB67_39
.LBB67_38:
	ldr	r2, [r1, #48]
	adds	r5, r2, r7
	add.w	r2, r2, r6, lsl #3
	strd	r6, r9, [r5, #16]
	str.w	r11, [r2, #20]
	b	.LBB67_41
.LBB67_39:
	ldr	r6, [r1, #48]
	lsrs	r5, r5, #4
	add	r6, r7
	mov.w	r7, #-1
	strd	r7, r9, [r6, #16]
	ldr	r6, [r1, #104]
	mov	r11, r8
	ldr.w	r9, [r8, r5, lsl #2]
	mov.w	r8, #1
	lsl.w	r7, r8, r5
	orrs	r6, r7
	and	r2, r10, #15
	str	r6, [r1, #104]
.LBB67_40:
	lsl.w	r2, r8, r2
	orr.w	r2, r2, r9
	str.w	r2, [r11, r5, lsl #2]
.LBB67_41:
	ldrd	r2, r5, [r1, #40]
	add	r2, r12
	cmp	r5, r2
	str	r2, [r1, #40]
	it	lo
	strlo	r2, [r1, #44]
	ldrd	r2, r7, [r1, #32]
	adds	r2, #1
	adc	r7, r7, #0
	strd	r2, r7, [r1, #32]
	movs	r2, #0
.LBB67_42:
	movs	r7, #1
	strb	r7, [r1]
.LBB67_43:
	strd	r3, r2, [r0]
	strd	lr, r4, [r0, #8]
	add	sp, #4
	pop.w	{r4, r5, r6, r7, r8, r9, r10, r11, pc}
.Lfunc_end67:
	.size	tlsf_allocate_place, .Lfunc_end67-tlsf_allocate_place
	.cfi_endproc
	.section	.text.tlsf_block_at,"ax",%progbits
	.globl	tlsf_block_at
	.p2align	2
	.type	tlsf_block_at,%function
	.code	16
	.thumb_func
tlsf_block_at:
	.cfi_startproc
	push	{r4, r5, r6, lr}
	.cfi_def_cfa_offset 16
	.cfi_offset lr, -4
	.cfi_offset r6, -8
	.cfi_offset r5, -12
	.cfi_offset r4, -16
	sub	sp, #40
	.cfi_def_cfa_offset 56
	ldrb	r3, [r0, #8]
	cbz	r3, .LBB68_6
	ldr	r6, [r0]
	ldrb	r0, [r6]
	cbz	r0, .LBB68_6
	mov	r4, r2
	mov	r2, r1
	movs	r5, #0
	add.w	r1, r6, #8
	mov	r0, sp
	strb	r5, [r6]
	bl	tlsf_c.any_heap.AnyHeap.block_at
	ldrb.w	r0, [sp]
	movs	r1, #1
	cmp	r0, #1
	strb	r1, [r6]
	bne	.LBB68_4
	ldrb.w	r3, [sp, #16]
	ldrd	r12, r2, [sp, #24]
	subs	r3, #1
	ldrd	r6, r1, [sp, #8]
	clz	r3, r3
	ldr	r0, [sp, #32]
	lsr.w	r3, r3, #5
	it	ne
	movne	r0, r5
	str	r6, [r4]
	str	r1, [r4, #4]
	str	r3, [r4, #8]
	str	r0, [r4, #12]
	str	r2, [r4, #20]
	str.w	r12, [r4, #16]
	b	.LBB68_5
.LBB68_4:
	movs	r5, #4
.LBB68_5:
	mov	r0, r5
	add	sp, #40
	pop	{r4, r5, r6, pc}
.LBB68_6:
	movs	r0, #0
	add	sp, #40
	pop.w	{r4, r5, r6, lr}
	b	tlsf_c.call_fault.CallFault.refusal
.Lfunc_end68:
	.size	tlsf_block_at, .Lfunc_end68-tlsf_block_at
	.cfi_endproc
	.section	.text.tlsf_check,"ax",%progbits
	.globl	tlsf_check
	.p2align	2
	.type	tlsf_check,%function
	.code	16
	.thumb_func
tlsf_check:
	.cfi_startproc
	push.w	{r4, r5, r6, r7, r8, r9, r10, lr}
	.cfi_def_cfa_offset 32
	.cfi_offset lr, -4
	.cfi_offset r10, -8
	.cfi_offset r9, -12
	.cfi_offset r8, -16
	.cfi_offset r7, -20
	.cfi_offset r6, -24
	.cfi_offset r5, -28
	.cfi_offset r4, -32
	ldrb	r7, [r0, #8]
	cbz	r7, .LBB69_10
	ldr	r6, [r0]
	ldrb	r0, [r6]
	cmp	r0, #1
	bne	.LBB69_10
	movs	r0, #0
	strb	r0, [r6]
	ldrb	r0, [r6, #16]
	ldr	r7, [r6, #56]
	ldr.w	r8, [sp, #32]
	mov	r4, r2
	add.w	r10, r6, #48
	cmp	r0, #0
	sub.w	r0, r7, #4
	beq	.LBB69_11
	cmp	r1, r0
	bhi	.LBB69_19
	ldr	r0, [r6, #72]
	mvn	r2, #7
	and.w	r2, r2, r1, lsr #3
	adds	r5, r0, r2
	ldr	r0, [r0, r2]
	ldr	r5, [r5, #4]
	and	r2, r1, #63
	lsr.w	r12, r0, r2
	rsb.w	r0, r2, #32
	lsl.w	r0, r5, r0
	orr.w	r0, r0, r12
	subs	r2, #32
	it	pl
	lsrpl.w	r0, r5, r2
	lsls	r0, r0, #31
	beq	.LBB69_19
	cmp	r4, #0
	beq	.LBB69_20
	mov	r9, r3
	.p2align	2
.LBB69_7:
	mov	r0, r10
	mov	r5, r1
	bl	tlsf_heap.check.examine
	uxtb	r0, r0
	cmp	r0, #1
	bne	.LBB69_21
	mov	r2, r1
	cmp	r1, r7
	beq	.LBB69_22
	subs	r4, #1
	mov	r1, r2
	bne	.LBB69_7
	b	.LBB69_18
.LBB69_10:
	movs	r0, #32
	pop.w	{r4, r5, r6, r7, r8, r9, r10, pc}
.LBB69_11:
	cmp	r1, r0
	bhi	.LBB69_19
	ldr	r0, [r6, #72]
	mvn	r2, #7
	and.w	r2, r2, r1, lsr #3
	adds	r5, r0, r2
	ldr	r0, [r0, r2]
	ldr	r5, [r5, #4]
	and	r2, r1, #63
	lsr.w	r12, r0, r2
	rsb.w	r0, r2, #32
	lsl.w	r0, r5, r0
	orr.w	r0, r0, r12
	subs	r2, #32
	it	pl
	lsrpl.w	r0, r5, r2
	lsls	r0, r0, #31
	beq	.LBB69_19
	cbz	r4, .LBB69_20
	mov	r9, r3
	.p2align	2
.LBB69_15:
	mov	r0, r10
	mov	r5, r1
	bl	tlsf_heap.check.examine
	uxtb	r0, r0
	cmp	r0, #1
	bne	.LBB69_21
	mov	r2, r1
	cmp	r1, r7
	beq	.LBB69_22
	subs	r4, #1
	mov	r1, r2
	bne	.LBB69_15
.LBB69_18:
	movs	r0, #0
	mov	r1, r2
	b	.LBB69_23
.LBB69_19:
	movs	r0, #1
	strb	r0, [r6]
	movs	r0, #4
	pop.w	{r4, r5, r6, r7, r8, r9, r10, pc}
.LBB69_20:
	movs	r0, #0
	b	.LBB69_24
.LBB69_21:
	movs	r0, #36
	mov	r3, r8
	mov	r1, r5
	b	.LBB69_24
.LBB69_22:
	movs	r1, #0
	movs	r0, #0
.LBB69_23:
	mov	r3, r9
.LBB69_24:
	movs	r2, #1
	strb	r2, [r6]
	str	r1, [r3]
	pop.w	{r4, r5, r6, r7, r8, r9, r10, pc}
.Lfunc_end69:
	.size	tlsf_check, .Lfunc_end69-tlsf_check
	.cfi_endproc
	.section	.text.tlsf_check_around,"ax",%progbits
	.globl	tlsf_check_around
	.p2align	2
	.type	tlsf_check_around,%function
	.code	16
	.thumb_func
tlsf_check_around:
	.cfi_startproc
	ldrb	r3, [r0, #8]
	cmp	r3, #0
	itt	eq
	moveq	r0, #32
	bxeq	lr
.LBB70_1:
	push	{r4, r5, r7, lr}
	.cfi_def_cfa_offset 16
	.cfi_offset lr, -4
	.cfi_offset r7, -8
	.cfi_offset r5, -12
	.cfi_offset r4, -16
	sub	sp, #16
	.cfi_def_cfa_offset 32
	ldr	r4, [r0]
	ldrb	r0, [r4]
	cmp	r0, #1
	bne	.LBB70_4
	mov	r3, r1
	ldrb	r1, [r4, #16]
	movs	r0, #0
	mov	r5, r2
	strb	r0, [r4]
	cmp	r1, #0
	add.w	r1, r4, #48
	add	r0, sp, #4
	mov	r2, r3
	bl	tlsf_heap.around.check_around
	ldrb.w	r1, [sp, #4]
	ldrb.w	r0, [sp, #8]
	ldr	r2, [sp, #12]
	mov.w	r3, #1
	strb	r3, [r4]
	cbz	r1, .LBB70_5
	cmp	r0, #0
	itte	ne
	strne	r2, [r5]
	movne	r0, #36
	moveq	r0, #0
	add	sp, #16
	pop	{r4, r5, r7, pc}
.LBB70_4:
	movs	r0, #32
	add	sp, #16
	pop	{r4, r5, r7, pc}
.LBB70_5:
	movs	r0, #4
	add	sp, #16
	pop	{r4, r5, r7, pc}
.Lfunc_end70:
	.size	tlsf_check_around, .Lfunc_end70-tlsf_check_around
	.cfi_endproc
	.section	.text.tlsf_check_request,"ax",%progbits
	.globl	tlsf_check_request
	.p2align	2
	.type	tlsf_check_request,%function
	.code	16
	.thumb_func
tlsf_check_request:
	.cfi_startproc
	ldrb	r3, [r0, #8]
	cmp	r3, #0
	itt	eq
	moveq	r0, #32
	bxeq	lr
.LBB71_1:
	push	{r4, r5, r6, r7, lr}
	.cfi_def_cfa_offset 20
	.cfi_offset lr, -4
	.cfi_offset r7, -8
	.cfi_offset r6, -12
	.cfi_offset r5, -16
	.cfi_offset r4, -20
	sub	sp, #12
	.cfi_def_cfa_offset 32
	ldr	r5, [r0]
	ldrb	r0, [r5]
	cmp	r0, #1
	bne	.LBB71_6
	movs	r0, #0
	adds	r6, r1, #1
	adc	r4, r0, #0
	cmp	r1, #0
	strb	r0, [r5]
	ldrb	r3, [r5, #16]
	itt	ne
	movne	r6, r1
	movne	r4, r0
	adds.w	r0, r6, #31
	adc	r1, r4, #0
	lsrs	r0, r0, #3
	orr.w	r7, r0, r1, lsl #29
	add.w	r1, r5, #48
	cbz	r3, .LBB71_7
	cmp.w	r7, #16777216
	bhi.w	.LBB71_26
	orr	r3, r7, #32
	clz	r3, r3
	rsb.w	r3, r3, #26
	subs	r6, r7, #1
	lsr.w	r0, r6, r3
	add.w	r3, r0, r3, lsl #5
	adds	r3, #1
	subs	r6, r3, #1
	mov.w	r3, #0
	sbc	r3, r3, #0
	lsrs	r4, r6, #5
	orr.w	r4, r4, r3, lsl #27
	add.w	r12, r5, #108
	ldr.w	r3, [r12, r4, lsl #2]
	and	r0, r0, #31
	lsr.w	r0, r3, r0
	bics	r3, r0, #1
	beq	.LBB71_10
	rbit	r0, r3
	clz	r0, r0
	adds	r3, r0, r6
	b	.LBB71_12
.LBB71_6:
	movs	r0, #32
	add	sp, #12
	pop	{r4, r5, r6, r7, pc}
.LBB71_7:
	cmp.w	r7, #1048576
	bhi.w	.LBB71_26
	orr	r3, r7, #16
	clz	r3, r3
	rsb.w	r3, r3, #27
	subs	r6, r7, #1
	lsrs	r6, r3
	add.w	r3, r6, r3, lsl #4
	adds	r3, #1
	subs.w	lr, r3, #1
	mov.w	r4, #0
	sbc	r4, r4, #0
	lsr.w	r3, lr, #4
	orr.w	r4, r3, r4, lsl #28
	add.w	r12, r5, #108
	ldr.w	r3, [r12, r4, lsl #2]
	and	r6, r6, #15
	lsrs	r3, r6
	bics	r6, r3, #1
	beq	.LBB71_17
	rbit	r3, r6
	clz	r3, r3
	add	r3, lr
	b	.LBB71_19
.LBB71_10:
	ldr	r0, [r5, #104]
	mvn	r3, #1
	lsls	r3, r4
	ands.w	r6, r0, r3
	beq.w	.LBB71_26
	rbit	r0, r6
	clz	r0, r0
	ldr.w	r3, [r12, r0, lsl #2]
	rbit	r3, r3
	clz	r3, r3
	add.w	r3, r3, r0, lsl #5
.LBB71_12:
	add.w	r0, r5, r3, lsl #2
	ldr.w	r4, [r0, #192]
	adds	r0, r4, #1
	beq	.LBB71_26
	ldr	r0, [r5, #56]
	subs	r0, #4
	cmp	r4, r0
	bhi	.LBB71_27
	ldr	r0, [r5, #72]
	mvn	r3, #7
	and.w	r3, r3, r4, lsr #3
	adds	r6, r0, r3
	ldr	r0, [r0, r3]
	ldr	r6, [r6, #4]
	and	r3, r4, #63
	lsr.w	r12, r0, r3
	rsb.w	r0, r3, #32
	lsl.w	r0, r6, r0
	orr.w	r0, r0, r12
	subs	r3, #32
	it	pl
	lsrpl.w	r0, r6, r3
	lsls	r0, r0, #31
	beq	.LBB71_27
	ldr	r0, [r1]
	movs	r3, #1
	ldr.w	r6, [r0, r4, lsl #3]
	lsls	r0, r6, #31
	beq	.LBB71_28
	lsrs	r0, r6, #2
	cmp	r0, r7
	bhs	.LBB71_24
	b	.LBB71_28
.LBB71_17:
	ldr	r3, [r5, #104]
	mvn	r6, #1
	lsls	r6, r4
	ands	r6, r3
	beq	.LBB71_26
	rbit	r3, r6
	clz	r3, r3
	ldr.w	r6, [r12, r3, lsl #2]
	rbit	r6, r6
	clz	r6, r6
	add.w	r3, r6, r3, lsl #4
.LBB71_19:
	add.w	r3, r5, r3, lsl #2
	ldr.w	r4, [r3, #192]
	adds	r3, r4, #1
	beq	.LBB71_26
	ldr	r3, [r5, #56]
	subs	r3, #4
	cmp	r4, r3
	bhi	.LBB71_27
	ldr.w	r12, [r5, #72]
	mvn	r6, #7
	and.w	r6, r6, r4, lsr #3
	add.w	r3, r12, r6
	ldr.w	lr, [r3, #4]
	ldr.w	r12, [r12, r6]
	and	r6, r4, #63
	rsb.w	r3, r6, #32
	lsr.w	r12, r12, r6
	lsl.w	r3, lr, r3
	orr.w	r3, r3, r12
	subs	r6, #32
	it	pl
	lsrpl.w	r3, lr, r6
	lsls	r3, r3, #31
	beq	.LBB71_27
	ldr	r3, [r1]
	ldr.w	r6, [r3, r4, lsl #3]
	lsls	r3, r6, #31
	mov.w	r3, #1
	beq	.LBB71_28
	lsrs	r6, r6, #2
	cmp	r6, r7
	blo	.LBB71_28
.LBB71_24:
	mov	r6, r2
	mov	r0, sp
	mov	r2, r4
	bl	tlsf_heap.around.check_around
	ldrb.w	r0, [sp]
	cmp	r0, #1
	bne	.LBB71_29
	ldrb.w	r3, [sp, #4]
	ldr	r4, [sp, #8]
	b	.LBB71_30
.LBB71_26:
	movs	r0, #1
	strb	r0, [r5]
	add	sp, #12
	pop	{r4, r5, r6, r7, pc}
.LBB71_27:
	movs	r3, #1
.LBB71_28:
	movs	r0, #1
	cmp	r3, #0
	strb	r0, [r5]
	itee	eq
	moveq	r0, #0
	strne	r4, [r2]
	movne	r0, #36
	add	sp, #12
	pop	{r4, r5, r6, r7, pc}
.LBB71_29:
	movs	r3, #1
.LBB71_30:
	mov	r2, r6
	b	.LBB71_28
.Lfunc_end71:
	.size	tlsf_check_request, .Lfunc_end71-tlsf_check_request
	.cfi_endproc
	.section	.text.tlsf_close,"ax",%progbits
	.globl	tlsf_close
	.p2align	2
	.type	tlsf_close,%function
	.code	16
	.thumb_func
tlsf_close:
	.cfi_startproc
	ldrb	r1, [r0, #8]
	cmp	r1, #0
	itt	eq
	moveq	r0, #32
	bxeq	lr
.LBB72_1:
	push.w	{r4, r5, r6, r7, r8, r9, r10, lr}
	.cfi_def_cfa_offset 32
	.cfi_offset lr, -4
	.cfi_offset r10, -8
	.cfi_offset r9, -12
	.cfi_offset r8, -16
	.cfi_offset r7, -20
	.cfi_offset r6, -24
	.cfi_offset r5, -28
	.cfi_offset r4, -32
	ldr	r1, [r0]
	ldrb	r2, [r1]
	cmp	r2, #1
	itt	ne
	movne	r0, #32
	popne.w	{r4, r5, r6, r7, r8, r9, r10, pc}
.LBB72_2:
	movs	r2, #0
	strb	r2, [r0, #8]
	strb	r2, [r1]
	ldr	r1, [r0]
	str	r2, [r0]
	str	r2, [r0, #4]
	ldrb	r6, [r1, #16]
	ldr.w	r9, [r1, #48]
	ldr	r4, [r1, #68]
	ldr	r5, [r1, #64]
	ldr.w	r8, [r1, #72]
	ldr.w	r10, [r1, #92]
	ldr	r7, [r1, #88]
	mov	r0, r1
	bl	tlsf_memory_dealloc
	cmp	r6, #0
	orrs.w	r0, r5, r4
	beq	.LBB72_4
	mov	r0, r9
	bl	tlsf_memory_dealloc
.LBB72_4:
	orrs.w	r0, r7, r10
	beq	.LBB72_6
	mov	r0, r8
	bl	tlsf_memory_dealloc
.LBB72_6:
	movs	r0, #0
	pop.w	{r4, r5, r6, r7, r8, r9, r10, pc}
.Lfunc_end72:
	.size	tlsf_close, .Lfunc_end72-tlsf_close
	.cfi_endproc
	.section	.text.tlsf_counts,"ax",%progbits
	.globl	tlsf_counts
	.p2align	2
	.type	tlsf_counts,%function
	.code	16
	.thumb_func
tlsf_counts:
	.cfi_startproc
	ldrb	r2, [r0, #8]
	cbz	r2, .LBB73_3
	ldr	r0, [r0]
	ldrb	r2, [r0]
	cbz	r2, .LBB73_3
	ldrd	r2, r3, [r0, #40]
	ldr.w	r12, [r0, #12]
	ldr	r0, [r0, #8]
	str	r2, [r1]
	str	r0, [r1, #8]
	movs	r0, #0
	str	r3, [r1, #4]
	str.w	r12, [r1, #12]
	bx	lr
.LBB73_3:
	movs	r0, #0
	b	tlsf_c.call_fault.CallFault.refusal
.Lfunc_end73:
	.size	tlsf_counts, .Lfunc_end73-tlsf_counts
	.cfi_endproc
	.section	.text.tlsf_drain,"ax",%progbits
	.globl	tlsf_drain
	.p2align	2
	.type	tlsf_drain,%function
	.code	16
	.thumb_func
tlsf_drain:
	.cfi_startproc
	push.w	{r4, r5, r6, r7, r8, r9, r10, r11, lr}
	.cfi_def_cfa_offset 36
	.cfi_offset lr, -4
	.cfi_offset r11, -8
	.cfi_offset r10, -12
	.cfi_offset r9, -16
	.cfi_offset r8, -20
	.cfi_offset r7, -24
	.cfi_offset r6, -28
	.cfi_offset r5, -32
	.cfi_offset r4, -36
	sub.w	sp, sp, #796
	.cfi_def_cfa_offset 832
	mov	r5, r0
	ldrb	r0, [r0, #8]
	cmp	r0, #0
	beq	.LBB74_13
	ldr	r0, [r5]
	ldrb	r0, [r0]
	cmp	r0, #1
	bne	.LBB74_13
	ldrb	r0, [r1, #8]
	cmp	r0, #0
	beq	.LBB74_13
	ldr	r4, [r1]
	ldrb	r0, [r4, #1]
	cmp	r0, #0
	beq	.LBB74_13
	ldrb	r0, [r4]
	cmp	r0, #1
	bne	.LBB74_15
	add.w	r10, sp, #24
	mov	r11, r2
	movs	r7, #0
	mov	r0, r10
	movs	r1, #0
	mov.w	r2, #768
	str	r3, [sp, #8]
	strb	r7, [r4, #1]
	bl	tlsf_memory_set
	cmp.w	r11, #0
	str	r4, [sp, #4]
	beq	.LBB74_12
	add.w	r0, r4, #8
	movs	r7, #0
	str	r0, [sp, #12]
	.p2align	2
.LBB74_7:
	str	r7, [sp, #20]
	cmp.w	r11, #32
	str.w	r11, [sp, #16]
	it	hs
	movhs.w	r11, #32
	ldr	r0, [sp, #12]
	mov	r1, r10
	mov	r2, r11
	movs	r3, #0
	bl	tlsf_post.take_end.TakeEnd.take_slice
	mov	r4, r0
	mov	r6, r1
	orrs	r0, r1
	beq	.LBB74_10
	mov.w	r9, #0
	mov.w	r8, #0
	.p2align	2
.LBB74_9:
	add.w	r0, r9, r9, lsl #1
	add.w	r0, r10, r0, lsl #3
	ldrd	r1, r7, [r0, #8]
	ldrd	r2, r3, [r0, #16]
	mov	r0, r5
	str	r7, [sp]
	bl	tlsf_c.heap_calls.release_named
	adds.w	r9, r9, #1
	adc	r8, r8, #0
	subs.w	r0, r9, r4
	sbcs.w	r0, r8, r6
	blo	.LBB74_9
.LBB74_10:
	ldr	r7, [sp, #20]
	subs.w	r0, r4, r11
	sbcs	r0, r6, #0
	add	r7, r4
	blo	.LBB74_12
	ldr.w	r11, [sp, #16]
	subs.w	r11, r11, r4
	bne	.LBB74_7
.LBB74_12:
	ldr	r0, [sp, #8]
	ldr	r2, [sp, #4]
	movs	r1, #1
	str	r7, [r0]
	movs	r0, #0
	strb	r1, [r2, #1]
	add.w	sp, sp, #796
	pop.w	{r4, r5, r6, r7, r8, r9, r10, r11, pc}
.LBB74_13:
	movs	r0, #0
.LBB74_14:
	add.w	sp, sp, #796
	pop.w	{r4, r5, r6, r7, r8, r9, r10, r11, lr}
	b	tlsf_c.call_fault.CallFault.refusal
.LBB74_15:
	movs	r0, #2
	b	.LBB74_14
.Lfunc_end74:
	.size	tlsf_drain, .Lfunc_end74-tlsf_drain
	.cfi_endproc
	.section	.text.tlsf_lane_open,"ax",%progbits
	.globl	tlsf_lane_open
	.p2align	2
	.type	tlsf_lane_open,%function
	.code	16
	.thumb_func
tlsf_lane_open:
	.cfi_startproc
	push.w	{r4, r5, r6, r7, r8, r9, r10, r11, lr}
	.cfi_def_cfa_offset 36
	.cfi_offset lr, -4
	.cfi_offset r11, -8
	.cfi_offset r10, -12
	.cfi_offset r9, -16
	.cfi_offset r8, -20
	.cfi_offset r7, -24
	.cfi_offset r6, -28
	.cfi_offset r5, -32
	.cfi_offset r4, -36
	sub	sp, #236
	.cfi_def_cfa_offset 272
	mov	r4, r2
	mov	r5, r1
	mov	r6, r0
	add	r0, sp, #176
	movs	r1, #0
	movs	r2, #56
	bl	tlsf_memory_set
	add	r0, sp, #128
	movs	r1, #0
	movs	r2, #48
	bl	tlsf_memory_set
	add.w	r8, sp, #48
	mov	r0, r8
	movs	r1, #0
	movs	r2, #40
	bl	tlsf_memory_set
	add	r7, sp, #8
	mov	r0, r7
	movs	r1, #0
	movs	r2, #40
	bl	tlsf_memory_set
	ldrb	r0, [r6, #8]
	cbnz	r0, .LBB75_2
	ldrb	r0, [r5, #8]
	cbz	r0, .LBB75_3
.LBB75_2:
	movs	r0, #33
	add	sp, #236
	pop.w	{r4, r5, r6, r7, r8, r9, r10, r11, pc}
.LBB75_3:
	subw	r0, r4, #1025
	cmn.w	r0, #1024
	bhs	.LBB75_5
	movs	r0, #5
	add	sp, #236
	pop.w	{r4, r5, r6, r7, r8, r9, r10, r11, pc}
.LBB75_5:
	add	r0, sp, #88
	mov.w	r1, #384
	movs	r2, #8
	bl	tlsf_memory_alloc
	ldr	r0, [sp, #88]
	lsls	r0, r0, #31
	beq.w	.LBB75_20
	add.w	r0, r4, r4, lsl #1
	ldr.w	r10, [sp, #96]
	lsls	r1, r0, #3
	add	r0, sp, #88
	movs	r2, #8
	bl	tlsf_memory_alloc
	ldr	r0, [sp, #88]
	lsls	r0, r0, #31
	beq	.LBB75_12
	ldr.w	r9, [sp, #96]
	mov.w	r11, #0
	add	r0, sp, #88
	movs	r1, #48
	movs	r2, #8
	strd	r11, r11, [r10]
	strd	r11, r11, [r10, #128]
	strd	r11, r11, [r10, #256]
	bl	tlsf_memory_alloc
	ldr	r0, [sp, #88]
	lsls	r0, r0, #31
	beq	.LBB75_13
	mov	r1, r9
	ldr.w	r9, [sp, #96]
	mov.w	r0, #256
	strh.w	r0, [r9]
	str.w	r4, [r9, #24]
	movw	r0, #257
	strd	r4, r11, [sp, #152]
	add	r4, sp, #176
	str.w	r1, [r9, #16]
	strh.w	r0, [sp, #128]
	strd	r1, r11, [sp, #144]
	add	r1, sp, #128
	mov	r0, r4
	str.w	r10, [r9, #8]
	str.w	r11, [r9, #12]
	str.w	r11, [r9, #20]
	str.w	r11, [r9, #28]
	str.w	r11, [r9, #32]
	str.w	r11, [r9, #36]
	str.w	r11, [r9, #40]
	str.w	r11, [r9, #44]
	strd	r10, r11, [sp, #136]
	strd	r11, r11, [sp, #160]
	strd	r11, r11, [sp, #168]
	bl	std_alloc.boxed.Box.new.91a8e04f462e8cea
	ldrb.w	r0, [sp, #176]
	cmp	r0, #0
	beq	.LBB75_15
	ldrb.w	r6, [sp, #184]
	add	r3, sp, #192
	ldr	r1, [sp, #204]
	ldm	r3, {r0, r2, r3}
	add.w	r10, r4, #32
.LCPI75_0:
	tbb	[pc, r6]
.LJTI75_0:
	.byte	(.LBB75_11-(.LCPI75_0+4))/2
	.byte	(.LBB75_18-(.LCPI75_0+4))/2
	.byte	(.LBB75_16-(.LCPI75_0+4))/2
	.byte	(.LBB75_17-(.LCPI75_0+4))/2
	.p2align	1
.LBB75_11:
	add.w	r12, sp, #48
	stm.w	r12, {r0, r2, r3}
	str	r1, [sp, #60]
	ldm.w	r10, {r1, r2, r3, r5, r6, r7}
	add.w	r0, r8, #16
	stm	r0!, {r1, r2, r3, r5, r6, r7}
	mov	r0, r8
	bl	rtrb.producer.Producer.drop.9fca81e6602d26fc
	b	.LBB75_19
.LBB75_12:
	mov	r0, r10
	bl	tlsf_memory_dealloc
	b	.LBB75_20
.LBB75_13:
	add	r0, sp, #88
	add.w	r5, r10, #256
	strd	r10, r11, [sp, #88]
	strd	r9, r11, [sp, #96]
	strd	r4, r11, [sp, #104]
	strd	r11, r11, [sp, #112]
	strd	r11, r11, [sp, #120]
	bl	rtrb.producer.Producer.drop.9fca81e6602d26fc
	movs	r1, #5
	mov	r0, r5
	movs	r2, #1
	movs	r3, #0
	str	r1, [sp]
	bl	__atomic_exchange_8
	orrs	r0, r1
	beq	.LBB75_20
	mov	r0, r10
	mov	r1, r9
	mov	r2, r4
	movs	r3, #0
	bl	rtrb.release.drop_slow.23d795680250cb0d
	b	.LBB75_20
.LBB75_15:
	ldr	r1, [sp, #184]
	movs	r0, #0
	movs	r2, #1
	str.w	r9, [r6]
	str	r0, [r6, #4]
	strb	r2, [r6, #8]
	str.w	r0, [r6, #9]
	str	r0, [r6, #12]
	str	r1, [r5]
	str	r0, [r5, #4]
	strb	r2, [r5, #8]
	str.w	r0, [r5, #9]
	str	r0, [r5, #12]
	add	sp, #236
	pop.w	{r4, r5, r6, r7, r8, r9, r10, r11, pc}
.LBB75_16:
	bl	std_alloc.arc.Arc.drop.c4a047e811255370
	mov	r0, r10
	bl	std_alloc.vec.Vec.drop.7ac45d8413b9ad54
	b	.LBB75_19
.LBB75_17:
	bl	std_alloc.arc.Arc.drop.c4a047e811255370
	b	.LBB75_19
.LBB75_18:
	add.w	r12, sp, #8
	stm.w	r12, {r0, r2, r3}
	str	r1, [sp, #20]
	ldm.w	r10, {r1, r2, r3, r4, r5, r6}
	add.w	r0, r7, #16
	stm	r0!, {r1, r2, r3, r4, r5, r6}
	mov	r0, r7
	bl	rtrb.consumer.Consumer.drop.9fca81e6602d26fc
.LBB75_19:
	mov	r0, r9
	bl	std_alloc.boxed.Box.drop.7d8ec8058c3633cd
.LBB75_20:
	movs	r0, #6
	add	sp, #236
	pop.w	{r4, r5, r6, r7, r8, r9, r10, r11, pc}
.Lfunc_end75:
	.size	tlsf_lane_open, .Lfunc_end75-tlsf_lane_open
	.cfi_endproc
	.section	.text.tlsf_locate,"ax",%progbits
	.globl	tlsf_locate
	.p2align	2
	.type	tlsf_locate,%function
	.code	16
	.thumb_func
tlsf_locate:
	.cfi_startproc
	push.w	{r4, r5, r6, r7, r8, lr}
	.cfi_def_cfa_offset 24
	.cfi_offset lr, -4
	.cfi_offset r8, -8
	.cfi_offset r7, -12
	.cfi_offset r6, -16
	.cfi_offset r5, -20
	.cfi_offset r4, -24
	ldr.w	r8, [sp, #32]
	ldrb	r1, [r0, #8]
	ldr.w	r7, [r8]
	cmp	r1, #0
	beq	.LBB76_14
	ldr	r6, [r0]
	ldrb	r0, [r6]
	cmp	r0, #0
	beq	.LBB76_14
	ldrb	r0, [r6, #16]
	ldrd	r12, lr, [sp, #24]
	ldr	r1, [r6, #24]
	movs	r5, #0
	strb	r5, [r6]
	cbz	r0, .LBB76_6
	cmp	r1, r2
	bne	.LBB76_13
	ldr	r0, [r6, #56]
	mov	r1, r2
	cmp	r3, r0
	bhs	.LBB76_13
	ldr	r0, [r6, #72]
	mvn	r1, #7
	and.w	r1, r1, r3, lsr #3
	adds	r4, r0, r1
	ldr	r4, [r4, #4]
	ldr	r0, [r0, r1]
	and	r1, r3, #63
	rsb.w	r5, r1, #32
	lsrs	r0, r1
	lsl.w	r5, r4, r5
	orrs	r0, r5
	subs	r1, #32
	it	pl
	lsrpl.w	r0, r4, r1
	b	.LBB76_9
.LBB76_6:
	cmp	r1, r2
	bne	.LBB76_13
	ldr	r0, [r6, #56]
	mov	r1, r2
	cmp	r3, r0
	bhs	.LBB76_13
	ldr	r0, [r6, #72]
	mvn	r1, #7
	and.w	r1, r1, r3, lsr #3
	adds	r5, r0, r1
	ldr	r5, [r5, #4]
	ldr	r0, [r0, r1]
	and	r1, r3, #63
	rsb.w	r4, r1, #32
	lsrs	r0, r1
	lsl.w	r4, r5, r4
	orrs	r0, r4
	subs	r1, #32
	it	pl
	lsrpl.w	r0, r5, r1
.LBB76_9:
	lsls	r0, r0, #31
	mov	r1, r2
	beq	.LBB76_13
	ldr	r5, [r6, #48]
	mov	r1, r2
	ldrb.w	r0, [r5, r3, lsl #3]
	lsls	r0, r0, #31
	bne	.LBB76_13
	add.w	r3, r5, r3, lsl #3
	ldrd	r0, r1, [r3, #8]
	eor.w	r1, r1, lr
	eor.w	r0, r0, r12
	orrs	r0, r1
	mov	r1, r2
	bne	.LBB76_13
	ldr	r0, [sp, #36]
	ldr	r1, [r3, #16]
	movs	r2, #1
	strb	r2, [r6]
	str	r1, [r0]
	movs	r0, #0
	str.w	r5, [r8]
	pop.w	{r4, r5, r6, r7, r8, pc}
.LBB76_13:
	mov	r0, r2
	bl	tlsf_heap.refusal.Refusal.of_name
	uxtb	r0, r0
	movs	r1, #1
	cmp	r0, #3
	mov.w	r0, #3
	strb	r1, [r6]
	it	eq
	moveq	r0, #4
	str.w	r7, [r8]
	pop.w	{r4, r5, r6, r7, r8, pc}
.LBB76_14:
	movs	r0, #0
	bl	tlsf_c.call_fault.CallFault.refusal
	str.w	r7, [r8]
	pop.w	{r4, r5, r6, r7, r8, pc}
.Lfunc_end76:
	.size	tlsf_locate, .Lfunc_end76-tlsf_locate
	.cfi_endproc
	.section	.text.tlsf_offsets_allocate,"ax",%progbits
	.globl	tlsf_offsets_allocate
	.p2align	2
	.type	tlsf_offsets_allocate,%function
	.code	16
	.thumb_func
tlsf_offsets_allocate:
	.cfi_startproc
	push.w	{r4, r5, r6, r7, r8, r9, r10, r11, lr}
	.cfi_def_cfa_offset 36
	.cfi_offset lr, -4
	.cfi_offset r11, -8
	.cfi_offset r10, -12
	.cfi_offset r9, -16
	.cfi_offset r8, -20
	.cfi_offset r7, -24
	.cfi_offset r6, -28
	.cfi_offset r5, -32
	.cfi_offset r4, -36
	sub	sp, #12
	.cfi_def_cfa_offset 48
	ldrb	r1, [r0, #8]
	cmp	r1, #0
	beq.w	.LBB77_13
	ldr	r7, [r0]
	ldrb	r0, [r7, #1]
	cmp	r0, #0
	beq.w	.LBB77_13
	ldrb	r0, [r7]
	cmp	r0, #0
	bne.w	.LBB77_25
	ldrb	r1, [r7, #8]
	ldr.w	r8, [sp, #48]
	ldr.w	r6, [r7, #2752]
	mov	r4, r3
	mov	r5, r2
	movs	r0, #0
	cmp	r1, #0
	strb	r0, [r7, #1]
	beq	.LBB77_8
	cmp	r6, #0
	beq.w	.LBB77_50
	mov	r0, r5
	mov	r1, r4
	mov	r2, r6
	movs	r3, #0
	mov.w	r9, #0
	bl	__aeabi_uldivmod
	umull	r2, r3, r0, r6
	mla	r3, r1, r6, r3
	subs	r2, r5, r2
	sbc.w	r3, r4, r3
	orrs	r2, r3
	adds	r3, r0, #1
	adc	r6, r1, #0
	cmp	r2, #0
	itt	eq
	moveq	r6, r1
	moveq	r3, r0
	cmp	r3, #4
	mov.w	r1, #4
	it	hi
	movhi	r1, r3
	cmp	r6, #0
	mov.w	r0, #4
	itte	eq
	moveq	r3, r0
	moveq	r3, r1
	movne.w	r3, #-1
	cmp.w	r3, #16777216
	bhi	.LBB77_10
	orr	r0, r3, #32
	clz	r0, r0
	rsb.w	r0, r0, #26
	subs	r1, r3, #1
	lsr.w	r6, r1, r0
	add.w	r0, r6, r0, lsl #5
	adds	r0, #1
	subs	r0, #1
	sbc	r1, r9, #0
	lsrs	r2, r0, #5
	orr.w	r2, r2, r1, lsl #27
	add.w	lr, r7, #100
	ldr.w	r5, [lr, r2, lsl #2]
	and	r6, r6, #31
	lsr.w	r6, r5, r6
	bics	r6, r6, #1
	beq	.LBB77_14
	rbit	r2, r6
	clz	r2, r2
	adds	r2, r2, r0
	adc	r0, r1, #0
	lsrs	r1, r2, #5
	orr.w	r4, r1, r0, lsl #27
	b	.LBB77_16
.LBB77_8:
	cmp	r6, #0
	beq.w	.LBB77_50
	mov	r0, r5
	mov	r1, r4
	mov	r2, r6
	movs	r3, #0
	mov.w	r9, #0
	bl	__aeabi_uldivmod
	umull	r2, r3, r0, r6
	mla	r3, r1, r6, r3
	subs	r2, r5, r2
	sbc.w	r3, r4, r3
	orrs	r2, r3
	adds	r3, r0, #1
	adc	r6, r1, #0
	cmp	r2, #0
	itt	eq
	moveq	r6, r1
	moveq	r3, r0
	cmp	r3, #4
	mov.w	r1, #4
	it	hi
	movhi	r1, r3
	cmp	r6, #0
	mov.w	r0, #4
	itte	eq
	moveq	r3, r0
	moveq	r3, r1
	movne.w	r3, #-1
	cmp.w	r3, #1048576
	bls	.LBB77_11
.LBB77_10:
	movs	r0, #1
	strb	r0, [r7, #1]
	add	sp, #12
	pop.w	{r4, r5, r6, r7, r8, r9, r10, r11, pc}
.LBB77_11:
	orr	r0, r3, #16
	clz	r0, r0
	rsb.w	r0, r0, #27
	subs	r1, r3, #1
	lsr.w	r6, r1, r0
	add.w	r0, r6, r0, lsl #4
	adds	r0, #1
	subs	r0, #1
	sbc	r1, r9, #0
	lsrs	r2, r0, #4
	orr.w	r2, r2, r1, lsl #28
	add.w	lr, r7, #100
	ldr.w	r5, [lr, r2, lsl #2]
	and	r6, r6, #15
	lsr.w	r6, r5, r6
	bics	r6, r6, #1
	beq	.LBB77_19
	rbit	r2, r6
	clz	r2, r2
	adds	r2, r2, r0
	adc	r0, r1, #0
	lsrs	r1, r2, #4
	orr.w	r5, r1, r0, lsl #28
	b	.LBB77_21
.LBB77_13:
	movs	r0, #0
	b	.LBB77_26
.LBB77_14:
	ldr	r0, [r7, #96]
	mvn	r1, #1
	lsls	r1, r2
	ands	r0, r1
	beq	.LBB77_10
	rbit	r0, r0
	clz	r0, r0
	ldr.w	r1, [lr, r0, lsl #2]
	rbit	r1, r1
	clz	r1, r1
	add.w	r2, r1, r0, lsl #5
	lsrs	r4, r2, #5
.LBB77_16:
	ldrd	r12, r9, [r7, #24]
	mvn.w	r0, r12
	orn	r0, r0, r9
	cbz	r0, .LBB77_22
	add.w	r11, r7, #184
	ldr.w	r5, [r11, r2, lsl #2]
	ldr	r6, [r7, #40]
	mov.w	r10, #-1
	add.w	r0, r6, r5, lsl #3
	ldr	r0, [r0, #16]
	str	r5, [sp, #8]
	adds	r1, r0, #1
	lsl.w	r5, r5, #3
	beq	.LBB77_27
	add.w	r1, r6, r0, lsl #3
	ldr	r6, [r1, #20]
	orr.w	r6, r6, r10
	str	r6, [r1, #20]
	str.w	r0, [r11, r2, lsl #2]
	ldr	r6, [r7, #40]
	b	.LBB77_29
.LBB77_19:
	ldr	r0, [r7, #96]
	mvn	r1, #1
	lsls	r1, r2
	ands	r0, r1
	beq	.LBB77_10
	rbit	r0, r0
	clz	r0, r0
	ldr.w	r1, [lr, r0, lsl #2]
	rbit	r1, r1
	clz	r1, r1
	add.w	r2, r1, r0, lsl #4
	lsrs	r5, r2, #4
.LBB77_21:
	ldrd	r12, r9, [r7, #24]
	mvn.w	r0, r12
	orn	r0, r0, r9
	cbnz	r0, .LBB77_23
.LBB77_22:
	movs	r0, #1
	strb	r0, [r7, #1]
	movs	r0, #2
	add	sp, #12
	pop.w	{r4, r5, r6, r7, r8, r9, r10, r11, pc}
.LBB77_23:
	add.w	r11, r7, #184
	ldr.w	r10, [r11, r2, lsl #2]
	ldr	r6, [r7, #40]
	lsl.w	r4, r10, #3
	add.w	r0, r6, r10, lsl #3
	ldr	r0, [r0, #16]
	adds	r1, r0, #1
	beq.w	.LBB77_35
	add.w	r1, r6, r0, lsl #3
	ldr	r6, [r1, #20]
	mov.w	r5, #-1
	orrs	r6, r5
	str	r6, [r1, #20]
	str.w	r0, [r11, r2, lsl #2]
	ldr	r6, [r7, #40]
	b	.LBB77_37
.LBB77_25:
	movs	r0, #2
.LBB77_26:
	add	sp, #12
	pop.w	{r4, r5, r6, r7, r8, r9, r10, r11, lr}
	b	tlsf_c.call_fault.CallFault.refusal
.LBB77_27:
	mov.w	r0, #-1
	str.w	r0, [r11, r2, lsl #2]
	ldr.w	r1, [lr, r4, lsl #2]
	and	r2, r2, #31
	movs	r0, #1
	lsl.w	r2, r0, r2
	bics	r1, r2
	str.w	r1, [lr, r4, lsl #2]
	bne	.LBB77_29
	ldr	r1, [r7, #96]
	lsls	r0, r4
	bic.w	r0, r1, r0
	str	r0, [r7, #96]
.LBB77_29:
	ldr.w	lr, [r6, r5]
	adds	r0, r6, r5
	ldr.w	r11, [r0, #4]
	sub.w	r2, lr, r3, lsl #2
	cmp	r2, #15
	bhi	.LBB77_31
	subs.w	r1, lr, #1
	mov.w	r3, #0
	sbc	r2, r11, #0
	stm.w	r0, {r1, r2, r12}
	strd	r9, r3, [r0, #12]
	str	r3, [r0, #20]
	lsrs	r3, r1, #2
	b	.LBB77_45
.LBB77_31:
	str	r5, [sp]
	mov	r10, r9
	ldr.w	r9, [sp, #8]
	subs.w	r1, lr, r2
	add.w	r4, r9, r3
	mov.w	lr, #0
	sbc	r5, r11, #0
	stm.w	r0, {r1, r5, r12}
	strd	r10, lr, [r0, #12]
	str.w	lr, [r0, #20]
	add.w	r0, r6, r4, lsl #3
	str.w	r2, [r6, r4, lsl #3]
	str.w	r9, [r0, #4]
	strd	r12, r10, [r0, #8]
	ldr	r0, [r7, #64]
	mvn	r1, #7
	and.w	r1, r1, r4, lsr #3
	ldr	r6, [r0, r1]
	and	r5, r4, #63
	mov.w	r11, #1
	str.w	r12, [sp, #4]
	lsl.w	r12, r11, r5
	subs.w	lr, r5, #32
	it	pl
	movpl.w	r12, #0
	orr.w	r6, r6, r12
	str	r6, [r0, r1]
	add	r0, r1
	ldr	r1, [r0, #4]
	rsb.w	r6, r5, #32
	lsr.w	r6, r11, r6
	it	pl
	lslpl.w	r6, r11, lr
	orrs	r1, r6
	str	r1, [r0, #4]
	lsls	r0, r2, #30
	mov	r9, r10
	lsr.w	r0, r2, #2
	bmi	.LBB77_33
	ldr	r1, [r7, #40]
	adds	r2, r0, r4
	add.w	r1, r1, r2, lsl #3
	str	r4, [r1, #4]
.LBB77_33:
	orr	r1, r0, #32
	clz	r1, r1
	rsb.w	r1, r1, #26
	lsrs	r0, r1
	add.w	r2, r0, r1, lsl #5
	add.w	r5, r7, #184
	ldr.w	r6, [r5, r2, lsl #2]
	lsls	r1, r4, #3
	cmp.w	r6, #-1
	str.w	r4, [r5, r2, lsl #2]
	add.w	lr, r7, #100
	mov.w	r5, #-1
	ble.w	.LBB77_43
	ldr	r0, [r7, #40]
	add	r1, r0
	add.w	r0, r0, r6, lsl #3
	strd	r6, r5, [r1, #16]
	str	r4, [r0, #20]
	b	.LBB77_44
.LBB77_35:
	mov.w	r0, #-1
	str.w	r0, [r11, r2, lsl #2]
	ldr.w	r1, [lr, r5, lsl #2]
	and	r2, r2, #15
	movs	r0, #1
	lsl.w	r2, r0, r2
	bics	r1, r2
	str.w	r1, [lr, r5, lsl #2]
	bne	.LBB77_37
	ldr	r1, [r7, #96]
	lsls	r0, r5
	bic.w	r0, r1, r0
	str	r0, [r7, #96]
.LBB77_37:
	ldr.w	lr, [r6, r4]
	adds	r5, r6, r4
	ldr	r0, [r5, #4]
	sub.w	r2, lr, r3, lsl #2
	cmp	r2, #15
	bhi	.LBB77_39
	subs.w	r1, lr, #1
	sbc	r0, r0, #0
	movs	r2, #0
	strd	r1, r0, [r5]
	strd	r12, r9, [r5, #8]
	strd	r2, r2, [r5, #16]
	lsrs	r3, r1, #2
	b	.LBB77_48
.LBB77_39:
	subs.w	r1, lr, r2
	str	r4, [sp, #8]
	add.w	r4, r10, r3
	sbc	r0, r0, #0
	mov.w	lr, #0
	strd	r1, r0, [r5]
	add.w	r0, r6, r4, lsl #3
	strd	r12, r9, [r5, #8]
	strd	lr, lr, [r5, #16]
	str.w	r2, [r6, r4, lsl #3]
	strd	r10, r12, [r0, #4]
	str.w	r9, [r0, #12]
	ldr	r0, [r7, #64]
	mvn	r1, #7
	and	r5, r4, #63
	and.w	r1, r1, r4, lsr #3
	subs.w	r6, r5, #32
	ldr.w	lr, [r0, r1]
	str	r6, [sp, #4]
	mov.w	r6, #1
	lsl.w	r11, r6, r5
	it	pl
	movpl.w	r11, #0
	orr.w	r6, lr, r11
	str	r6, [r0, r1]
	add	r0, r1
	ldr	r1, [r0, #4]
	rsb.w	r5, r5, #32
	mov.w	lr, #1
	lsr.w	r5, lr, r5
	ldr	r6, [sp, #4]
	it	pl
	lslpl.w	r5, lr, r6
	orrs	r1, r5
	str	r1, [r0, #4]
	lsls	r0, r2, #30
	lsr.w	r2, r2, #2
	bmi	.LBB77_41
	ldr	r0, [r7, #40]
	adds	r1, r2, r4
	add.w	r0, r0, r1, lsl #3
	str	r4, [r0, #4]
.LBB77_41:
	orr	r0, r2, #16
	clz	r0, r0
	rsb.w	r0, r0, #27
	lsrs	r2, r0
	add.w	r0, r2, r0, lsl #4
	add.w	r5, r7, #184
	ldr.w	r6, [r5, r0, lsl #2]
	lsls	r1, r4, #3
	cmp.w	r6, #-1
	str.w	r4, [r5, r0, lsl #2]
	add.w	r11, r7, #100
	mov.w	r5, #-1
	ble	.LBB77_46
	ldr	r0, [r7, #40]
	add	r1, r0
	add.w	r0, r0, r6, lsl #3
	strd	r6, r5, [r1, #16]
	str	r4, [r0, #20]
	b	.LBB77_47
.LBB77_43:
	ldr	r6, [r7, #40]
	mov.w	r12, #1
	add	r1, r6
	mov.w	r6, #-1
	strd	r6, r5, [r1, #16]
	lsrs	r1, r2, #5
	ldr	r2, [r7, #96]
	ldr.w	r6, [lr, r1, lsl #2]
	and	r0, r0, #31
	lsl.w	r4, r12, r1
	lsl.w	r0, r12, r0
	orrs	r2, r4
	orrs	r0, r6
	str	r2, [r7, #96]
	str.w	r0, [lr, r1, lsl #2]
.LBB77_44:
	ldrd	r5, r12, [sp]
.LBB77_45:
	ldrd	r0, r1, [r7, #32]
	add	r0, r3
	cmp	r1, r0
	str	r0, [r7, #32]
	it	lo
	strlo	r0, [r7, #36]
	ldrd	r0, r1, [r7, #24]
	ldr	r2, [r7, #40]
	adds	r0, #1
	adc	r1, r1, #0
	strd	r0, r1, [r7, #24]
	adds	r0, r2, r5
	movs	r1, #0
	ldr	r3, [r7, #16]
	strd	r1, r1, [r0, #24]
	ldr	r0, [r7, #40]
	ldr.w	r10, [sp, #8]
	add	r0, r5
	b	.LBB77_49
.LBB77_46:
	ldr	r6, [r7, #40]
	lsrs	r0, r0, #4
	add	r1, r6
	mov.w	r6, #-1
	strd	r6, r5, [r1, #16]
	ldr	r1, [r7, #96]
	lsl.w	r4, lr, r0
	orrs	r1, r4
	ldr.w	r6, [r11, r0, lsl #2]
	str	r1, [r7, #96]
	and	r1, r2, #15
	lsl.w	r1, lr, r1
	orrs	r1, r6
	str.w	r1, [r11, r0, lsl #2]
.LBB77_47:
	ldr	r4, [sp, #8]
.LBB77_48:
	ldrd	r0, r1, [r7, #32]
	add	r0, r3
	cmp	r1, r0
	str	r0, [r7, #32]
	it	lo
	strlo	r0, [r7, #36]
	ldrd	r0, r1, [r7, #24]
	ldr	r2, [r7, #40]
	adds	r0, #1
	adc	r1, r1, #0
	strd	r0, r1, [r7, #24]
	adds	r0, r2, r4
	movs	r1, #0
	ldr	r3, [r7, #16]
	strd	r1, r1, [r0, #24]
	ldr	r0, [r7, #40]
	add	r0, r4
.LBB77_49:
	ldr	r0, [r0]
	ldr.w	r1, [r7, #2752]
	lsrs	r0, r0, #2
	umull	r2, r6, r1, r10
	umull	r0, r1, r0, r1
	movs	r5, #1
	strb	r5, [r7, #1]
	str.w	r3, [r8]
	str.w	r10, [r8, #4]
	str.w	r9, [r8, #12]
	str.w	r12, [r8, #8]
	str.w	r6, [r8, #20]
	str.w	r2, [r8, #16]
	str.w	r1, [r8, #28]
	str.w	r0, [r8, #24]
	movs	r0, #0
	add	sp, #12
	pop.w	{r4, r5, r6, r7, r8, r9, r10, r11, pc}
.LBB77_50:
	.inst.n	0xdefe
.Lfunc_end77:
	.size	tlsf_offsets_allocate, .Lfunc_end77-tlsf_offsets_allocate
	.cfi_endproc
	.section	.text.tlsf_offsets_close,"ax",%progbits
	.globl	tlsf_offsets_close
	.p2align	2
	.type	tlsf_offsets_close,%function
	.code	16
	.thumb_func
tlsf_offsets_close:
	.cfi_startproc
	ldrb	r1, [r0, #8]
	cbz	r1, .LBB78_4
	ldr	r1, [r0]
	ldrb	r2, [r1, #1]
	cmp	r2, #1
	bne	.LBB78_4
	ldrb	r1, [r1]
	cmp	r1, #0
	itt	ne
	movne	r0, #40
	bxne	lr
.LBB78_3:
	push	{r7, lr}
	.cfi_def_cfa_offset 8
	.cfi_offset lr, -4
	.cfi_offset r7, -8
	bl	tlsf_c.arena_slot.ArenaSlot.close
	movs	r0, #0
	pop	{r7, pc}
.LBB78_4:
	movs	r0, #32
	bx	lr
.Lfunc_end78:
	.size	tlsf_offsets_close, .Lfunc_end78-tlsf_offsets_close
	.cfi_endproc
	.section	.text.tlsf_offsets_open,"ax",%progbits
	.globl	tlsf_offsets_open
	.p2align	2
	.type	tlsf_offsets_open,%function
	.code	16
	.thumb_func
tlsf_offsets_open:
	.cfi_startproc
	push.w	{r4, r5, r6, r7, r8, r9, r10, r11, lr}
	.cfi_def_cfa_offset 36
	.cfi_offset lr, -4
	.cfi_offset r11, -8
	.cfi_offset r10, -12
	.cfi_offset r9, -16
	.cfi_offset r8, -20
	.cfi_offset r7, -24
	.cfi_offset r6, -28
	.cfi_offset r5, -32
	.cfi_offset r4, -36
	sub	sp, #28
	.cfi_def_cfa_offset 64
	ldrb	r7, [r0, #8]
	cbz	r7, .LBB79_2
	movs	r0, #33
	add	sp, #28
	pop.w	{r4, r5, r6, r7, r8, r9, r10, r11, pc}
.LBB79_2:
	subs	r7, r1, #6
	cmn.w	r7, #2
	bhs	.LBB79_4
	movs	r0, #34
	add	sp, #28
	pop.w	{r4, r5, r6, r7, r8, r9, r10, r11, pc}
.LBB79_4:
	ldr	r4, [sp, #64]
	cmp	r1, #4
	movw	r1, #3
	mov	r7, r0
	movt	r1, #65280
	bne.w	.LBB79_11
	cmp	r3, #0
	mov.w	r0, #5
	beq.w	.LBB79_18
	mvn	r6, #1048576
	add	r6, r4
	add.w	r1, r1, #15728640
	cmp	r6, r1
	blo.w	.LBB79_18
	mov	r11, r2
	lsls	r1, r4, #3
	add	r0, sp, #8
	movs	r2, #8
	strd	r7, r3, [sp]
	bl	tlsf_memory_alloc
	ldr	r0, [sp, #8]
	lsls	r0, r0, #31
	beq.w	.LBB79_22
	add.w	r0, r4, #63
	ldr	r5, [sp, #16]
	lsr.w	r8, r0, #6
	movs	r7, #0
	lsl.w	r1, r8, #3
	add	r0, sp, #8
	movs	r2, #8
	strd	r7, r7, [r5]
	strd	r7, r7, [r5, #8]
	strd	r7, r7, [r5, #16]
	strd	r7, r7, [r5, #24]
	bl	tlsf_memory_alloc
	ldr	r0, [sp, #8]
	lsls	r0, r0, #31
	beq.w	.LBB79_19
	ldr	r6, [sp, #16]
	movs	r0, #19
	mov.w	r10, #-1
	strd	r7, r7, [r6]
	strd	r0, r10, [r5]
	strd	r7, r7, [r5, #8]
	ldr	r0, [r6]
	movw	r1, #2760
	orr	r0, r0, #1
	str	r0, [r6]
	add	r0, sp, #8
	movs	r2, #8
	strd	r10, r10, [r5, #16]
	bl	tlsf_memory_alloc
	ldr	r0, [sp, #8]
	lsls	r0, r0, #31
	beq.w	.LBB79_20
	ldr	r7, [sp, #16]
	mov.w	r0, #256
	strh	r0, [r7]
	mov	r0, r7
	str	r11, [r0, #16]!
	mov	r11, r0
	movs	r0, #1
	str	r0, [r7, #24]
	movs	r1, #4
	str	r0, [r7, #72]
	str	r0, [r7, #96]
	movs	r0, #16
	mov.w	r9, #0
	str	r1, [r7, #48]
	str	r1, [r7, #88]
	str	r0, [r7, #100]
	add.w	r0, r7, #104
	movs	r1, #0
	movs	r2, #80
	str.w	r9, [r7, #12]
	str.w	r9, [r7, #8]
	str.w	r9, [r7, #28]
	str.w	r9, [r7, #32]
	str.w	r9, [r7, #36]
	str	r5, [r7, #40]
	str.w	r9, [r7, #44]
	str.w	r9, [r7, #52]
	str.w	r9, [r7, #60]
	str	r4, [r7, #56]
	str	r6, [r7, #64]
	str.w	r9, [r7, #68]
	str.w	r9, [r7, #76]
	str.w	r9, [r7, #84]
	str.w	r8, [r7, #80]
	str.w	r9, [r7, #92]
	bl	tlsf_memory_set
	add.w	r0, r7, #204
	movs	r1, #255
	mov.w	r2, #2544
	str.w	r10, [r7, #184]
	str.w	r10, [r7, #188]
	str.w	r10, [r7, #192]
	str.w	r10, [r7, #196]
	str.w	r9, [r7, #200]
	bl	tlsf_memory_set
	ldr	r0, [sp, #4]
	mov	r1, r4
	str.w	r0, [r7, #2752]
	mov	r0, r11
	bl	tlsf_heap.heap.Heap.begin.4
	b	.LBB79_17
.LBB79_11:
	cmp	r3, #0
	mov.w	r0, #5
	beq.w	.LBB79_18
	mvn	r6, #16777216
	add	r6, r4
	cmp	r6, r1
	blo.w	.LBB79_18
	mov	r11, r2
	lsls	r1, r4, #3
	add	r0, sp, #8
	movs	r2, #8
	strd	r7, r3, [sp]
	bl	tlsf_memory_alloc
	ldr	r0, [sp, #8]
	lsls	r0, r0, #31
	beq.w	.LBB79_22
	add.w	r0, r4, #63
	ldr	r5, [sp, #16]
	lsr.w	r8, r0, #6
	movs	r7, #0
	lsl.w	r1, r8, #3
	add	r0, sp, #8
	movs	r2, #8
	strd	r7, r7, [r5]
	strd	r7, r7, [r5, #8]
	strd	r7, r7, [r5, #16]
	strd	r7, r7, [r5, #24]
	bl	tlsf_memory_alloc
	ldr	r0, [sp, #8]
	lsls	r0, r0, #31
	beq	.LBB79_19
	ldr	r6, [sp, #16]
	movs	r0, #19
	mov.w	r10, #-1
	strd	r7, r7, [r6]
	strd	r0, r10, [r5]
	strd	r7, r7, [r5, #8]
	ldr	r0, [r6]
	movw	r1, #2760
	orr	r0, r0, #1
	str	r0, [r6]
	add	r0, sp, #8
	movs	r2, #8
	strd	r10, r10, [r5, #16]
	bl	tlsf_memory_alloc
	ldr	r0, [sp, #8]
	lsls	r0, r0, #31
	beq	.LBB79_20
	ldr	r7, [sp, #16]
	mov.w	r0, #256
	mov	r1, r7
	strh	r0, [r7]
	movs	r0, #1
	str	r11, [r1, #16]!
	str	r0, [r7, #8]
	mov	r11, r1
	str	r0, [r7, #24]
	movs	r1, #4
	str	r0, [r7, #72]
	str	r0, [r7, #96]
	movs	r0, #16
	mov.w	r9, #0
	str	r1, [r7, #48]
	str	r1, [r7, #88]
	str	r0, [r7, #100]
	add.w	r0, r7, #104
	movs	r1, #0
	movs	r2, #80
	str.w	r9, [r7, #12]
	str.w	r9, [r7, #28]
	str.w	r9, [r7, #32]
	str.w	r9, [r7, #36]
	str	r5, [r7, #40]
	str.w	r9, [r7, #44]
	str.w	r9, [r7, #52]
	str.w	r9, [r7, #60]
	str	r4, [r7, #56]
	str	r6, [r7, #64]
	str.w	r9, [r7, #68]
	str.w	r9, [r7, #76]
	str.w	r9, [r7, #84]
	str.w	r8, [r7, #80]
	str.w	r9, [r7, #92]
	bl	tlsf_memory_set
	add.w	r0, r7, #204
	movs	r1, #255
	mov.w	r2, #2544
	str.w	r10, [r7, #184]
	str.w	r10, [r7, #188]
	str.w	r10, [r7, #192]
	str.w	r10, [r7, #196]
	str.w	r9, [r7, #200]
	bl	tlsf_memory_set
	ldr	r0, [sp, #4]
	mov	r1, r4
	str.w	r0, [r7, #2752]
	mov	r0, r11
	bl	tlsf_heap.heap.Heap.begin.5
.LBB79_17:
	ldr	r1, [sp]
	movs	r0, #0
	movs	r2, #1
	str	r7, [r1]
	str	r0, [r1, #4]
	strb	r2, [r1, #8]
	str.w	r0, [r1, #9]
	str	r0, [r1, #12]
.LBB79_18:
	add	sp, #28
	pop.w	{r4, r5, r6, r7, r8, r9, r10, r11, pc}
.LBB79_19:
	mov	r0, r5
	b	.LBB79_21
.LBB79_20:
	mov	r0, r5
	bl	tlsf_memory_dealloc
	mov	r0, r6
.LBB79_21:
	bl	tlsf_memory_dealloc
.LBB79_22:
	movs	r0, #6
	add	sp, #28
	pop.w	{r4, r5, r6, r7, r8, r9, r10, r11, pc}
.Lfunc_end79:
	.size	tlsf_offsets_open, .Lfunc_end79-tlsf_offsets_open
	.cfi_endproc
	.section	.text.tlsf_offsets_release,"ax",%progbits
	.globl	tlsf_offsets_release
	.p2align	2
	.type	tlsf_offsets_release,%function
	.code	16
	.thumb_func
tlsf_offsets_release:
	.cfi_startproc
	push.w	{r4, r5, r6, r7, r8, r9, r10, r11, lr}
	.cfi_def_cfa_offset 36
	.cfi_offset lr, -4
	.cfi_offset r11, -8
	.cfi_offset r10, -12
	.cfi_offset r9, -16
	.cfi_offset r8, -20
	.cfi_offset r7, -24
	.cfi_offset r6, -28
	.cfi_offset r5, -32
	.cfi_offset r4, -36
	sub	sp, #36
	.cfi_def_cfa_offset 72
	ldrb	r1, [r0, #8]
	cmp	r1, #0
	beq.w	.LBB80_27
	ldr	r4, [r0]
	ldrb	r0, [r4, #1]
	cmp	r0, #0
	beq.w	.LBB80_27
	ldrb	r0, [r4]
	cmp	r0, #0
	bne.w	.LBB80_36
	ldrb	r5, [r4, #8]
	ldrd	r12, lr, [sp, #72]
	ldr	r1, [r4, #16]
	movs	r0, #0
	cmp	r5, #0
	strb	r0, [r4, #1]
	beq	.LBB80_12
	cmp	r1, r2
	bne.w	.LBB80_21
	ldr	r0, [r4, #48]
	mov	r1, r2
	cmp	r3, r0
	bhs.w	.LBB80_21
	ldr	r0, [r4, #64]
	mvn	r1, #7
	and.w	r1, r1, r3, lsr #3
	adds	r5, r0, r1
	ldr	r5, [r5, #4]
	ldr	r0, [r0, r1]
	and	r1, r3, #63
	rsb.w	r6, r1, #32
	lsrs	r0, r1
	lsl.w	r6, r5, r6
	orrs	r0, r6
	subs	r1, #32
	it	pl
	lsrpl.w	r0, r5, r1
	lsls	r0, r0, #31
	mov	r1, r2
	beq	.LBB80_21
	add.w	r0, r4, #40
	ldr	r7, [r0]
	ldr.w	r5, [r7, r3, lsl #3]
	lsls	r1, r5, #31
	mov	r1, r2
	bne	.LBB80_21
	add.w	r11, r7, r3, lsl #3
	ldrd	r1, r6, [r11, #8]
	eor.w	r6, r6, lr
	eor.w	r1, r1, r12
	orrs	r1, r6
	mov	r1, r2
	bne	.LBB80_21
	ldrd	r1, lr, [r4, #24]
	and.w	r2, r1, lr
	adds	r2, #1
	beq	.LBB80_20
	ldr	r2, [r4, #32]
	ldr.w	r8, [r11, #4]
	lsr.w	r9, r5, #2
	sub.w	r2, r2, r5, lsr #2
	lsls	r6, r5, #30
	str	r2, [r4, #32]
	bmi	.LBB80_22
	add.w	r2, r9, r3
	add.w	r6, r7, r2, lsl #3
	ldr.w	r2, [r7, r2, lsl #3]
	ldr.w	r12, [r6, #4]
	b	.LBB80_23
.LBB80_12:
	cmp	r1, r2
	bne	.LBB80_21
	ldr	r0, [r4, #48]
	mov	r1, r2
	cmp	r3, r0
	bhs	.LBB80_21
	ldr	r0, [r4, #64]
	mvn	r1, #7
	and.w	r1, r1, r3, lsr #3
	adds	r5, r0, r1
	ldr	r5, [r5, #4]
	ldr	r0, [r0, r1]
	and	r1, r3, #63
	rsb.w	r6, r1, #32
	lsrs	r0, r1
	lsl.w	r6, r5, r6
	orrs	r0, r6
	subs	r1, #32
	it	pl
	lsrpl.w	r0, r5, r1
	lsls	r0, r0, #31
	mov	r1, r2
	beq	.LBB80_21
	add.w	r0, r4, #40
	ldr	r7, [r0]
	ldr.w	r5, [r7, r3, lsl #3]
	lsls	r1, r5, #31
	mov	r1, r2
	bne	.LBB80_21
	add.w	r11, r7, r3, lsl #3
	ldrd	r1, r6, [r11, #8]
	eor.w	r6, r6, lr
	eor.w	r1, r1, r12
	orrs	r1, r6
	mov	r1, r2
	bne	.LBB80_21
	ldrd	r1, lr, [r4, #24]
	and.w	r2, r1, lr
	adds	r2, #1
	beq	.LBB80_20
	ldr	r2, [r4, #32]
	ldr.w	r8, [r11, #4]
	lsr.w	r9, r5, #2
	sub.w	r2, r2, r5, lsr #2
	lsls	r6, r5, #30
	str	r2, [r4, #32]
	bmi	.LBB80_29
	add.w	r2, r9, r3
	add.w	r6, r7, r2, lsl #3
	ldr.w	r2, [r7, r2, lsl #3]
	ldr.w	r12, [r6, #4]
	b	.LBB80_30
.LBB80_20:
	movs	r0, #1
	strb	r0, [r4, #1]
	movs	r0, #2
	add	sp, #36
	pop.w	{r4, r5, r6, r7, r8, r9, r10, r11, pc}
.LBB80_21:
	mov	r0, r2
	bl	tlsf_heap.refusal.Refusal.of_name
	uxtb	r0, r0
	movs	r1, #1
	cmp	r0, #3
	mov.w	r0, #3
	strb	r1, [r4, #1]
	it	eq
	moveq	r0, #4
	add	sp, #36
	pop.w	{r4, r5, r6, r7, r8, r9, r10, r11, pc}
.LBB80_22:
	movs	r2, #0
	mov.w	r12, #0
.LBB80_23:
	cmp	r3, #0
	itt	ne
	ldrne.w	r10, [r7, r8, lsl #3]
	lslsne.w	r6, r10, #31
	bne.w	.LBB80_34
	lsls	r6, r2, #31
	bne	.LBB80_28
	orr	r2, r5, #1
	strd	r2, r8, [r11]
	strd	r1, lr, [r11, #8]
	ldrd	r7, r2, [r4, #24]
	mov.w	r12, #-1
	adds	r7, #1
	adc	r2, r2, #0
	strd	r7, r2, [r4, #24]
	orr	r2, r9, #32
	clz	r2, r2
	rsb.w	r7, r2, #26
	lsr.w	r2, r9, r7
	add.w	r5, r2, r7, lsl #5
	add.w	r1, r4, r5, lsl #2
	ldr.w	r6, [r1, #184]
	lsls	r7, r3, #3
	cmp.w	r6, #-1
	str.w	r3, [r1, #184]
	bgt	.LBB80_33
	ldr	r0, [r4, #40]
	movs	r6, #1
	add	r0, r7
	strd	r12, r12, [r0, #16]
	lsrs	r0, r5, #5
	ldr	r1, [r4, #96]
	add.w	r3, r4, r0, lsl #2
	lsl.w	r0, r6, r0
	ldr	r7, [r3, #100]
	orrs	r0, r1
	str	r0, [r4, #96]
	and	r0, r2, #31
	b	.LBB80_40
.LBB80_27:
	movs	r0, #0
	b	.LBB80_37
.LBB80_28:
	adds	r6, r1, #1
	adc	r7, lr, #0
	strd	r6, r7, [r4, #24]
	strd	r1, lr, [sp, #8]
	mov	r1, r3
	mov	r3, r12
	strd	r5, r8, [sp]
	str	r1, [sp, #16]
	bl	tlsf_heap.fitting.merge_next.5
	b	.LBB80_41
.LBB80_29:
	movs	r2, #0
	mov.w	r12, #0
.LBB80_30:
	cmp	r3, #0
	itt	ne
	ldrne.w	r10, [r7, r8, lsl #3]
	lslsne.w	r6, r10, #31
	bne	.LBB80_38
	lsls	r6, r2, #31
	bne	.LBB80_35
	orr	r2, r5, #1
	strd	r2, r8, [r11]
	strd	r1, lr, [r11, #8]
	ldrd	r7, r2, [r4, #24]
	mov.w	r12, #-1
	adds	r7, #1
	adc	r2, r2, #0
	strd	r7, r2, [r4, #24]
	orr	r2, r9, #16
	clz	r2, r2
	rsb.w	r7, r2, #27
	lsr.w	r2, r9, r7
	add.w	r5, r2, r7, lsl #4
	add.w	r1, r4, r5, lsl #2
	ldr.w	r6, [r1, #184]
	lsls	r7, r3, #3
	cmp.w	r6, #-1
	str.w	r3, [r1, #184]
	ble	.LBB80_39
.LBB80_33:
	adds.w	r1, r12, r6
	ldr	r0, [r0]
	adc	r2, r12, #0
	adds	r1, #1
	sbc	r2, r2, #0
	add	r7, r0
	add.w	r0, r0, r6, lsl #3
	strd	r1, r2, [r7, #16]
	str	r3, [r0, #20]
	b	.LBB80_41
.LBB80_34:
	add.w	r6, r7, r8, lsl #3
	adds	r7, r1, #1
	ldr.w	r9, [r6, #4]
	adc	r6, lr, #0
	strd	r7, r6, [r4, #24]
	strd	r1, lr, [sp, #8]
	mov	r1, r3
	mov	r3, r12
	strd	r5, r8, [sp, #24]
	strd	r10, r9, [sp]
	str	r1, [sp, #16]
	bl	tlsf_heap.fitting.merge_before.5
	b	.LBB80_41
.LBB80_35:
	adds	r6, r1, #1
	adc	r7, lr, #0
	strd	r6, r7, [r4, #24]
	strd	r1, lr, [sp, #8]
	mov	r1, r3
	mov	r3, r12
	strd	r5, r8, [sp]
	str	r1, [sp, #16]
	bl	tlsf_heap.fitting.merge_next.4
	b	.LBB80_41
.LBB80_36:
	movs	r0, #2
.LBB80_37:
	add	sp, #36
	pop.w	{r4, r5, r6, r7, r8, r9, r10, r11, lr}
	b	tlsf_c.call_fault.CallFault.refusal
.LBB80_38:
	add.w	r6, r7, r8, lsl #3
	adds	r7, r1, #1
	ldr.w	r9, [r6, #4]
	adc	r6, lr, #0
	strd	r7, r6, [r4, #24]
	strd	r1, lr, [sp, #8]
	mov	r1, r3
	mov	r3, r12
	strd	r5, r8, [sp, #24]
	strd	r10, r9, [sp]
	str	r1, [sp, #16]
	bl	tlsf_heap.fitting.merge_before.4
	b	.LBB80_41
.LBB80_39:
	ldr	r0, [r4, #40]
	movs	r6, #1
	add	r0, r7
	strd	r12, r12, [r0, #16]
	lsrs	r0, r5, #4
	ldr	r1, [r4, #96]
	add.w	r3, r4, r0, lsl #2
	lsl.w	r0, r6, r0
	ldr	r7, [r3, #100]
	orrs	r0, r1
	str	r0, [r4, #96]
	and	r0, r2, #15
.LBB80_40:
	lsl.w	r0, r6, r0
	orrs	r0, r7
	str	r0, [r3, #100]
.LBB80_41:
	movs	r0, #1
	strb	r0, [r4, #1]
	movs	r0, #0
	add	sp, #36
	pop.w	{r4, r5, r6, r7, r8, r9, r10, r11, pc}
.Lfunc_end80:
	.size	tlsf_offsets_release, .Lfunc_end80-tlsf_offsets_release
	.cfi_endproc
	.section	.text.tlsf_offsets_resize,"ax",%progbits
	.globl	tlsf_offsets_resize
	.p2align	2
	.type	tlsf_offsets_resize,%function
	.code	16
	.thumb_func
tlsf_offsets_resize:
	.cfi_startproc
	push.w	{r4, r5, r6, r7, r8, r9, r10, r11, lr}
	.cfi_def_cfa_offset 36
	.cfi_offset lr, -4
	.cfi_offset r11, -8
	.cfi_offset r10, -12
	.cfi_offset r9, -16
	.cfi_offset r8, -20
	.cfi_offset r7, -24
	.cfi_offset r6, -28
	.cfi_offset r5, -32
	.cfi_offset r4, -36
	sub	sp, #36
	.cfi_def_cfa_offset 72
	mov	r7, r3
	ldrb	r3, [r0, #8]
	cmp	r3, #0
	beq.w	.LBB81_33
	ldr.w	r11, [r0]
	ldrb.w	r0, [r11, #1]
	cmp	r0, #0
	beq.w	.LBB81_33
	ldrb.w	r0, [r11]
	cmp	r0, #0
	bne.w	.LBB81_34
	movs	r0, #0
	strb.w	r0, [r11, #1]
	ldr	r0, [r1, #12]
	ldr.w	r8, [r1]
	str	r0, [sp, #32]
	ldrb.w	r0, [r11, #8]
	ldr.w	r9, [r1, #4]
	ldr	r4, [r1, #8]
	ldr.w	r6, [r11, #2752]
	mov	r5, r2
	mov	r10, r1
	cmp	r0, #0
	beq	.LBB81_14
	cmp	r6, #0
	beq.w	.LBB81_49
	mov	r0, r5
	mov	r1, r7
	mov	r2, r6
	movs	r3, #0
	bl	__aeabi_uldivmod
	umull	r2, r3, r0, r6
	mla	r3, r1, r6, r3
	subs	r2, r5, r2
	sbc.w	r3, r7, r3
	adds	r5, r0, #1
	orr.w	r2, r2, r3
	adc	r3, r1, #0
	cmp	r2, #0
	itt	eq
	moveq	r3, r1
	moveq	r5, r0
	movs	r1, #4
	cmp	r5, #4
	it	hi
	movhi	r1, r5
	movs	r0, #4
	cmp	r3, #0
	itt	eq
	moveq	r5, r0
	moveq	r5, r1
	ldr.w	r1, [r11, #16]
	it	ne
	movne.w	r5, #-1
	cmp	r8, r1
	bne.w	.LBB81_24
	ldr.w	r0, [r11, #48]
	mov	r1, r8
	cmp	r9, r0
	bhs.w	.LBB81_24
	ldr.w	r0, [r11, #64]
	mvn	r1, #7
	and.w	r1, r1, r9, lsr #3
	adds	r2, r0, r1
	ldr	r2, [r2, #4]
	ldr	r0, [r0, r1]
	and	r1, r9, #63
	rsb.w	r3, r1, #32
	lsrs	r0, r1
	lsl.w	r3, r2, r3
	orrs	r0, r3
	subs	r1, #32
	it	pl
	lsrpl.w	r0, r2, r1
	lsls	r0, r0, #31
	mov	r1, r8
	beq.w	.LBB81_24
	add.w	r0, r11, #40
	mov	r12, r4
	ldr	r4, [r0]
	ldr.w	r2, [r4, r9, lsl #3]
	lsls	r1, r2, #31
	mov	r1, r8
	bne.w	.LBB81_24
	add.w	r6, r4, r9, lsl #3
	ldrd	r1, r3, [r6, #8]
	ldr	r7, [sp, #32]
	eor.w	r1, r1, r12
	eors	r3, r7
	orrs	r1, r3
	mov	r1, r8
	bne.w	.LBB81_24
	ldr	r3, [r6, #4]
	lsl.w	lr, r9, #3
	cmp.w	r5, r2, lsr #2
	lsr.w	r1, r2, #2
	str.w	r12, [sp, #24]
	str	r1, [sp, #28]
	bls.w	.LBB81_25
	lsls	r1, r2, #30
	bmi	.LBB81_13
	ldr	r1, [sp, #28]
	add.w	r7, r1, r9
	ldr.w	r1, [r4, r7, lsl #3]
	lsls	r6, r1, #31
	bne.w	.LBB81_36
.LBB81_13:
	movs	r1, #0
	mov.w	r12, #0
	b	.LBB81_37
.LBB81_14:
	cmp	r6, #0
	beq.w	.LBB81_49
	mov	r0, r5
	mov	r1, r7
	mov	r2, r6
	movs	r3, #0
	bl	__aeabi_uldivmod
	umull	r2, r3, r0, r6
	mla	r3, r1, r6, r3
	subs	r2, r5, r2
	sbc.w	r3, r7, r3
	adds	r5, r0, #1
	orr.w	r2, r2, r3
	adc	r3, r1, #0
	cmp	r2, #0
	itt	eq
	moveq	r3, r1
	moveq	r5, r0
	movs	r1, #4
	cmp	r5, #4
	it	hi
	movhi	r1, r5
	movs	r0, #4
	cmp	r3, #0
	itt	eq
	moveq	r5, r0
	moveq	r5, r1
	ldr.w	r1, [r11, #16]
	it	ne
	movne.w	r5, #-1
	cmp	r8, r1
	bne	.LBB81_24
	ldr.w	r0, [r11, #48]
	mov	r1, r8
	cmp	r9, r0
	bhs	.LBB81_24
	ldr.w	r0, [r11, #64]
	mvn	r1, #7
	and.w	r1, r1, r9, lsr #3
	adds	r2, r0, r1
	ldr	r2, [r2, #4]
	ldr	r0, [r0, r1]
	and	r1, r9, #63
	rsb.w	r3, r1, #32
	lsrs	r0, r1
	lsl.w	r3, r2, r3
	orrs	r0, r3
	subs	r1, #32
	it	pl
	lsrpl.w	r0, r2, r1
	lsls	r0, r0, #31
	mov	r1, r8
	beq	.LBB81_24
	add.w	r0, r11, #40
	ldr.w	r12, [r0]
	ldr.w	r2, [r12, r9, lsl #3]
	lsls	r1, r2, #31
	mov	r1, r8
	bne	.LBB81_24
	add.w	r6, r12, r9, lsl #3
	ldrd	r1, r3, [r6, #8]
	ldr	r7, [sp, #32]
	eors	r1, r4
	eors	r3, r7
	orrs	r1, r3
	mov	r1, r8
	bne	.LBB81_24
	ldr	r3, [r6, #4]
	str	r4, [sp, #24]
	lsl.w	lr, r9, #3
	cmp.w	r5, r2, lsr #2
	lsr.w	r4, r2, #2
	bls	.LBB81_29
	lsls	r1, r2, #30
	bmi	.LBB81_23
	add.w	r7, r4, r9
	ldr.w	r1, [r12, r7, lsl #3]
	lsls	r6, r1, #31
	bne.w	.LBB81_41
.LBB81_23:
	movs	r1, #0
	mov.w	r12, #0
	b	.LBB81_42
.LBB81_24:
	mov	r0, r8
	bl	tlsf_heap.refusal.Refusal.of_name
	uxtb	r0, r0
	movs	r1, #1
	cmp	r0, #3
	mov.w	r0, #3
	strb.w	r1, [r11, #1]
	it	eq
	moveq	r0, #4
	add	sp, #36
	pop.w	{r4, r5, r6, r7, r8, r9, r10, r11, pc}
.LBB81_25:
	ldrd	r4, r1, [r11, #24]
	and.w	r7, r4, r1
	adds	r7, #1
	beq.w	.LBB81_48
	movs	r7, #0
	strd	r7, r7, [r6, #16]
	ldr	r6, [sp, #28]
	adds	r7, r5, #4
	cmp	r6, r7
	mov	r7, r6
	blo	.LBB81_28
	strd	r4, r1, [sp, #8]
	mov	r1, r9
	str	r5, [sp]
	mov	r4, r0
	mov	r6, lr
	bl	tlsf_heap.refitting.split_off.5
	mov	lr, r6
	mov	r0, r4
	mov	r7, r5
.LBB81_28:
	ldr	r1, [sp, #28]
	ldr.w	r2, [r11, #32]
	subs	r7, r7, r1
	ldrd	r1, r3, [r11, #24]
	add	r7, r2
	adds	r1, #1
	adc	r2, r3, #0
	add.w	r3, r11, #24
	ldr	r6, [sp, #24]
	stm	r3!, {r1, r2, r7}
	b	.LBB81_40
.LBB81_29:
	ldrd	r12, r1, [r11, #24]
	str.w	lr, [sp, #28]
	and.w	r7, r12, r1
	adds	r7, #1
	beq.w	.LBB81_48
	movs	r7, #0
	strd	r7, r7, [r6, #16]
	adds	r7, r5, #4
	mov	r6, r4
	cmp	r4, r7
	mov	r7, r4
	blo	.LBB81_32
	strd	r12, r1, [sp, #8]
	mov	r1, r9
	str	r5, [sp]
	mov	r7, r0
	bl	tlsf_heap.refitting.split_off.4
	mov	r6, r4
	mov	r0, r7
	mov	r7, r5
.LBB81_32:
	ldrd	r1, r3, [r11, #24]
	ldr.w	r2, [r11, #32]
	subs	r7, r7, r6
	adds	r1, #1
	add	r7, r2
	adc	r2, r3, #0
	add.w	r3, r11, #24
	stm	r3!, {r1, r2, r7}
	ldrd	r6, r3, [sp, #24]
	b	.LBB81_46
.LBB81_33:
	movs	r0, #0
	b	.LBB81_35
.LBB81_34:
	movs	r0, #2
.LBB81_35:
	add	sp, #36
	pop.w	{r4, r5, r6, r7, r8, r9, r10, r11, lr}
	b	tlsf_c.call_fault.CallFault.refusal
.LBB81_36:
	add.w	r7, r4, r7, lsl #3
	ldr.w	r12, [r7, #4]
.LBB81_37:
	ldr	r4, [sp, #28]
	add.w	r7, r4, r1, lsr #2
	cmp	r7, r5
	blo	.LBB81_43
	ldrd	r6, r4, [r11, #24]
	and.w	r7, r6, r4
	adds	r7, #1
	beq.w	.LBB81_48
	strd	r1, r12, [sp]
	mov	r1, r9
	strd	r6, r4, [sp, #16]
	mov	r4, r0
	str	r5, [sp, #8]
	mov	r5, lr
	bl	tlsf_heap.refitting.recut.5
	ldr.w	r1, [r11, #40]
	movs	r2, #0
	add	r1, r5
	strd	r2, r2, [r1, #16]
	ldr	r1, [sp, #28]
	mov	lr, r5
	subs	r0, r0, r1
	ldrd	r1, r2, [r11, #32]
	add	r0, r1
	cmp	r2, r0
	str.w	r0, [r11, #32]
	it	lo
	strlo.w	r0, [r11, #36]
	ldrd	r0, r1, [r11, #24]
	ldr	r6, [sp, #24]
	adds	r0, #1
	adc	r1, r1, #0
	strd	r0, r1, [r11, #24]
	mov	r0, r4
.LBB81_40:
	ldr	r0, [r0]
	add	r0, lr
	b	.LBB81_47
.LBB81_41:
	add.w	r7, r12, r7, lsl #3
	ldr.w	r12, [r7, #4]
.LBB81_42:
	add.w	r7, r4, r1, lsr #2
	cmp	r7, r5
	bhs	.LBB81_44
.LBB81_43:
	movs	r0, #1
	strb.w	r0, [r11, #1]
	movs	r0, #10
	add	sp, #36
	pop.w	{r4, r5, r6, r7, r8, r9, r10, r11, pc}
.LBB81_44:
	str	r4, [sp, #28]
	mov	r4, lr
	ldrd	r6, lr, [r11, #24]
	and.w	r7, r6, lr
	adds	r7, #1
	beq	.LBB81_48
	strd	r1, r12, [sp]
	mov	r1, r9
	strd	r6, lr, [sp, #16]
	mov	r7, r0
	str	r5, [sp, #8]
	bl	tlsf_heap.refitting.recut.4
	ldr.w	r1, [r11, #40]
	movs	r2, #0
	add	r1, r4
	strd	r2, r2, [r1, #16]
	ldr	r1, [sp, #28]
	mov	r3, r4
	subs	r0, r0, r1
	ldrd	r1, r2, [r11, #32]
	add	r0, r1
	cmp	r2, r0
	str.w	r0, [r11, #32]
	it	lo
	strlo.w	r0, [r11, #36]
	ldrd	r0, r1, [r11, #24]
	ldr	r6, [sp, #24]
	adds	r0, #1
	adc	r1, r1, #0
	strd	r0, r1, [r11, #24]
	mov	r0, r7
.LBB81_46:
	ldr	r0, [r0]
	add	r0, r3
.LBB81_47:
	ldr	r0, [r0]
	ldr.w	r1, [r11, #2752]
	movs	r7, #1
	lsrs	r0, r0, #2
	strb.w	r7, [r11, #1]
	ldr	r7, [sp, #32]
	umull	r2, r3, r1, r9
	umull	r0, r1, r0, r1
	str.w	r8, [r10]
	str.w	r9, [r10, #4]
	str.w	r7, [r10, #12]
	str.w	r6, [r10, #8]
	str.w	r3, [r10, #20]
	str.w	r2, [r10, #16]
	str.w	r1, [r10, #28]
	str.w	r0, [r10, #24]
	movs	r0, #0
	add	sp, #36
	pop.w	{r4, r5, r6, r7, r8, r9, r10, r11, pc}
.LBB81_48:
	movs	r0, #1
	strb.w	r0, [r11, #1]
	movs	r0, #2
	add	sp, #36
	pop.w	{r4, r5, r6, r7, r8, r9, r10, r11, pc}
.LBB81_49:
	.inst.n	0xdefe
.Lfunc_end81:
	.size	tlsf_offsets_resize, .Lfunc_end81-tlsf_offsets_resize
	.cfi_endproc
	.section	.text.tlsf_open,"ax",%progbits
	.globl	tlsf_open
	.p2align	2
	.type	tlsf_open,%function
	.code	16
	.thumb_func
tlsf_open:
	.cfi_startproc
	push.w	{r4, r5, r6, r7, r8, r9, r10, r11, lr}
	.cfi_def_cfa_offset 36
	.cfi_offset lr, -4
	.cfi_offset r11, -8
	.cfi_offset r10, -12
	.cfi_offset r9, -16
	.cfi_offset r8, -20
	.cfi_offset r7, -24
	.cfi_offset r6, -28
	.cfi_offset r5, -32
	.cfi_offset r4, -36
	sub	sp, #28
	.cfi_def_cfa_offset 64
	ldrb	r7, [r0, #8]
	cbz	r7, .LBB82_2
	movs	r0, #33
	add	sp, #28
	pop.w	{r4, r5, r6, r7, r8, r9, r10, r11, pc}
.LBB82_2:
	subs	r7, r1, #6
	cmn.w	r7, #2
	bhs	.LBB82_4
	movs	r0, #34
	add	sp, #28
	pop.w	{r4, r5, r6, r7, r8, r9, r10, r11, pc}
.LBB82_4:
	cmp	r1, #4
	movw	r1, #3
	movt	r1, #65280
	bne.w	.LBB82_10
	mvn	r7, #1048576
	add	r7, r3
	add.w	r1, r1, #15728640
	cmp	r7, r1
	blo.w	.LBB82_11
	mov	r10, r2
	str	r0, [sp, #4]
	lsls	r1, r3, #3
	add	r0, sp, #8
	movs	r2, #8
	mov	r9, r3
	bl	tlsf_memory_alloc
	ldr	r0, [sp, #8]
	lsls	r0, r0, #31
	beq.w	.LBB82_20
	add.w	r0, r9, #63
	ldr	r4, [sp, #16]
	lsr.w	r11, r0, #6
	movs	r6, #0
	lsl.w	r1, r11, #3
	add	r0, sp, #8
	movs	r2, #8
	strd	r6, r6, [r4]
	strd	r6, r6, [r4, #8]
	strd	r6, r6, [r4, #16]
	strd	r6, r6, [r4, #24]
	bl	tlsf_memory_alloc
	ldr	r0, [sp, #8]
	lsls	r0, r0, #31
	beq.w	.LBB82_17
	ldr	r5, [sp, #16]
	movs	r0, #19
	mov.w	r8, #-1
	strd	r6, r6, [r5]
	strd	r0, r8, [r4]
	strd	r6, r6, [r4, #8]
	ldr	r0, [r5]
	movw	r1, #2760
	orr	r0, r0, #1
	str	r0, [r5]
	add	r0, sp, #8
	movs	r2, #8
	strd	r8, r8, [r4, #16]
	bl	tlsf_memory_alloc
	ldr	r0, [sp, #8]
	lsls	r0, r0, #31
	beq.w	.LBB82_18
	ldr	r6, [sp, #16]
	movs	r0, #1
	mov	r1, r6
	str	r10, [r1, #24]!
	strb	r0, [r6]
	str	r1, [sp]
	str	r0, [r6, #32]
	movs	r1, #4
	str	r0, [r6, #80]
	str	r0, [r6, #104]
	movs	r0, #16
	movs	r7, #0
	str	r1, [r6, #56]
	str	r1, [r6, #96]
	str	r0, [r6, #108]
	add.w	r0, r6, #112
	movs	r1, #0
	movs	r2, #80
	str	r7, [r6, #8]
	str	r7, [r6, #12]
	str	r7, [r6, #16]
	str	r7, [r6, #20]
	str	r7, [r6, #36]
	str	r7, [r6, #40]
	str	r7, [r6, #44]
	str	r4, [r6, #48]
	str	r7, [r6, #52]
	str	r7, [r6, #60]
	str	r7, [r6, #68]
	str.w	r9, [r6, #64]
	str	r5, [r6, #72]
	str	r7, [r6, #76]
	str	r7, [r6, #84]
	str	r7, [r6, #92]
	str.w	r11, [r6, #88]
	str	r7, [r6, #100]
	bl	tlsf_memory_set
	add.w	r0, r6, #212
	movs	r1, #255
	mov.w	r2, #2544
	str.w	r8, [r6, #192]
	str.w	r8, [r6, #196]
	str.w	r8, [r6, #200]
	str.w	r8, [r6, #204]
	str.w	r7, [r6, #208]
	bl	tlsf_memory_set
	ldr	r0, [sp]
	mov	r1, r9
	bl	tlsf_heap.heap.Heap.begin.4
	b	.LBB82_16
.LBB82_10:
	mvn	r7, #16777216
	add	r7, r3
	cmp	r7, r1
	bhs	.LBB82_12
.LBB82_11:
	movs	r0, #5
	add	sp, #28
	pop.w	{r4, r5, r6, r7, r8, r9, r10, r11, pc}
.LBB82_12:
	mov	r10, r2
	str	r0, [sp, #4]
	lsls	r1, r3, #3
	add	r0, sp, #8
	movs	r2, #8
	mov	r7, r3
	bl	tlsf_memory_alloc
	ldr	r0, [sp, #8]
	lsls	r0, r0, #31
	beq.w	.LBB82_20
	add.w	r0, r7, #63
	ldr	r4, [sp, #16]
	lsr.w	r11, r0, #6
	movs	r6, #0
	lsl.w	r1, r11, #3
	add	r0, sp, #8
	movs	r2, #8
	strd	r6, r6, [r4]
	strd	r6, r6, [r4, #8]
	strd	r6, r6, [r4, #16]
	strd	r6, r6, [r4, #24]
	bl	tlsf_memory_alloc
	ldr	r0, [sp, #8]
	lsls	r0, r0, #31
	beq	.LBB82_17
	ldr	r5, [sp, #16]
	movs	r0, #19
	mov.w	r8, #-1
	strd	r6, r6, [r5]
	strd	r0, r8, [r4]
	strd	r6, r6, [r4, #8]
	ldr	r0, [r5]
	movw	r1, #2760
	orr	r0, r0, #1
	str	r0, [r5]
	add	r0, sp, #8
	movs	r2, #8
	strd	r8, r8, [r4, #16]
	bl	tlsf_memory_alloc
	ldr	r0, [sp, #8]
	lsls	r0, r0, #31
	beq	.LBB82_18
	ldr	r6, [sp, #16]
	movs	r0, #1
	mov	r1, r6
	str	r10, [r1, #24]!
	strb	r0, [r6]
	str	r0, [r6, #16]
	str	r1, [sp]
	str	r0, [r6, #32]
	movs	r1, #4
	str	r0, [r6, #80]
	str	r0, [r6, #104]
	movs	r0, #16
	mov.w	r9, #0
	str	r1, [r6, #56]
	str	r1, [r6, #96]
	str	r0, [r6, #108]
	add.w	r0, r6, #112
	movs	r1, #0
	movs	r2, #80
	str.w	r9, [r6, #12]
	str.w	r9, [r6, #8]
	str.w	r9, [r6, #20]
	str.w	r9, [r6, #36]
	str.w	r9, [r6, #40]
	str.w	r9, [r6, #44]
	str	r4, [r6, #48]
	str.w	r9, [r6, #52]
	str.w	r9, [r6, #60]
	str.w	r9, [r6, #68]
	str	r7, [r6, #64]
	str	r5, [r6, #72]
	str.w	r9, [r6, #76]
	str.w	r9, [r6, #84]
	str.w	r9, [r6, #92]
	str.w	r11, [r6, #88]
	str.w	r9, [r6, #100]
	bl	tlsf_memory_set
	add.w	r0, r6, #212
	movs	r1, #255
	mov.w	r2, #2544
	str.w	r8, [r6, #192]
	str.w	r8, [r6, #196]
	str.w	r8, [r6, #200]
	str.w	r8, [r6, #204]
	str.w	r9, [r6, #208]
	bl	tlsf_memory_set
	ldr	r0, [sp]
	mov	r1, r7
	bl	tlsf_heap.heap.Heap.begin.5
.LBB82_16:
	ldr	r0, [r6, #48]
	ldr	r1, [sp, #4]
	movs	r2, #1
	str	r0, [r1, #16]
	movs	r0, #0
	str.w	r10, [r1, #24]
	strb	r0, [r1, #28]
	strd	r6, r0, [r1]
	strb	r2, [r1, #8]
	add	sp, #28
	pop.w	{r4, r5, r6, r7, r8, r9, r10, r11, pc}
.LBB82_17:
	mov	r0, r4
	b	.LBB82_19
.LBB82_18:
	mov	r0, r4
	bl	tlsf_memory_dealloc
	mov	r0, r5
.LBB82_19:
	bl	tlsf_memory_dealloc
.LBB82_20:
	movs	r0, #6
	add	sp, #28
	pop.w	{r4, r5, r6, r7, r8, r9, r10, r11, pc}
.Lfunc_end82:
	.size	tlsf_open, .Lfunc_end82-tlsf_open
	.cfi_endproc
	.section	.text.tlsf_place,"ax",%progbits
	.globl	tlsf_place
	.p2align	2
	.type	tlsf_place,%function
	.code	16
	.thumb_func
tlsf_place:
	.cfi_startproc
	push.w	{r4, r5, r6, r7, r8, r9, lr}
	.cfi_def_cfa_offset 28
	.cfi_offset lr, -4
	.cfi_offset r9, -8
	.cfi_offset r8, -12
	.cfi_offset r7, -16
	.cfi_offset r6, -20
	.cfi_offset r5, -24
	.cfi_offset r4, -28
	sub	sp, #44
	.cfi_def_cfa_offset 72
	mov	r8, r3
	ldrb	r3, [r0, #8]
	cbz	r3, .LBB83_5
	ldr	r4, [r0]
	ldrb	r0, [r4]
	cbz	r0, .LBB83_5
	mov	r6, r1
	movs	r0, #0
	mov	r5, r2
	strb	r0, [r4]
	ldr.w	r9, [r4, #24]
	add.w	r1, r4, #8
	mov	r0, sp
	mov	r2, r6
	bl	tlsf_c.any_heap.AnyHeap.block_at
	ldrb.w	r0, [sp]
	ldrd	r3, r12, [sp, #24]
	ldr	r2, [sp, #32]
	movs	r1, #1
	cmp	r0, #1
	mov.w	r0, #4
	ldrb.w	r7, [sp, #16]
	strb	r1, [r4]
	it	eq
	cmpeq	r7, #1
	beq	.LBB83_4
	add	sp, #44
	pop.w	{r4, r5, r6, r7, r8, r9, pc}
.LBB83_4:
	movs	r0, #0
	str.w	r9, [r5]
	str	r6, [r5, #4]
	str	r3, [r5, #8]
	str.w	r12, [r5, #12]
	str.w	r2, [r8]
	add	sp, #44
	pop.w	{r4, r5, r6, r7, r8, r9, pc}
.LBB83_5:
	movs	r0, #0
	add	sp, #44
	pop.w	{r4, r5, r6, r7, r8, r9, lr}
	b	tlsf_c.call_fault.CallFault.refusal
.Lfunc_end83:
	.size	tlsf_place, .Lfunc_end83-tlsf_place
	.cfi_endproc
	.section	.text.tlsf_pools_allocate,"ax",%progbits
	.globl	tlsf_pools_allocate
	.p2align	2
	.type	tlsf_pools_allocate,%function
	.code	16
	.thumb_func
tlsf_pools_allocate:
	.cfi_startproc
	push.w	{r4, r5, r6, r7, r8, r9, r10, r11, lr}
	.cfi_def_cfa_offset 36
	.cfi_offset lr, -4
	.cfi_offset r11, -8
	.cfi_offset r10, -12
	.cfi_offset r9, -16
	.cfi_offset r8, -20
	.cfi_offset r7, -24
	.cfi_offset r6, -28
	.cfi_offset r5, -32
	.cfi_offset r4, -36
	sub	sp, #36
	.cfi_def_cfa_offset 72
	ldrb	r3, [r0, #8]
	str	r2, [sp, #24]
	cmp	r3, #0
	beq.w	.LBB84_49
	ldr	r2, [r0]
	ldrb	r0, [r2, #1]
	cmp	r0, #0
	beq.w	.LBB84_49
	ldrb	r0, [r2]
	cmp	r0, #1
	bne.w	.LBB84_50
	movs	r0, #0
	strb	r0, [r2, #1]
	ldrb	r0, [r2, #8]
	ldrd	r9, r8, [r2, #32]
	ldr.w	lr, [r2, #24]
	cmp	r0, #0
	orr.w	r0, r9, r8
	str	r2, [sp, #32]
	beq	.LBB84_17
	cmp	r0, #0
	beq.w	.LBB84_48
	movs	r5, #0
	movs	r3, #0
	b	.LBB84_7
	.p2align	2
.LBB84_6:
	adds	r5, #1
	adc	r3, r3, #0
	subs.w	r0, r5, r9
	sbcs.w	r0, r3, r8
	bhs.w	.LBB84_48
.LBB84_7:
	movw	r0, #2792
	mla	r10, r5, r0, lr
	ldr.w	r7, [r10, #2744]
	ldr.w	r12, [r10, #2748]
	orrs.w	r0, r7, r12
	beq	.LBB84_6
	ldr.w	r11, [r10, #2736]
	mov	r2, r7
	add.w	r6, r11, #28
	mov	r0, r12
.LBB84_9:
	ldr	r4, [r6, #-24]
	cmp	r4, r1
	bhs	.LBB84_30
	eor	r4, r2, #1
	orrs	r4, r0
	beq	.LBB84_6
	ldr	r4, [r6, #-16]
	cmp	r4, r1
	bhs	.LBB84_30
	eor	r4, r2, #2
	orrs	r4, r0
	beq	.LBB84_6
	ldr	r4, [r6, #-8]
	cmp	r4, r1
	bhs	.LBB84_30
	eor	r4, r2, #3
	orrs	r4, r0
	beq	.LBB84_6
	ldr	r4, [r6], #32
	cmp	r4, r1
	bhs	.LBB84_30
	subs	r2, #4
	sbc	r0, r0, #0
	orrs.w	r4, r2, r0
	bne	.LBB84_9
	b	.LBB84_6
.LBB84_17:
	cmp	r0, #0
	beq.w	.LBB84_48
	movs	r0, #0
	mov.w	r11, #0
	b	.LBB84_20
	.p2align	2
.LBB84_19:
	adds	r0, #1
	adc	r11, r11, #0
	subs.w	r2, r0, r9
	sbcs.w	r2, r11, r8
	bhs.w	.LBB84_48
.LBB84_20:
	movw	r2, #2792
	mla	r2, r0, r2, lr
	ldr.w	r6, [r2, #2744]
	str	r2, [sp, #28]
	ldr.w	r2, [r2, #2748]
	orrs.w	r3, r6, r2
	beq	.LBB84_19
	ldr	r3, [sp, #28]
	mov	r4, r6
	ldr.w	r12, [r3, #2736]
	mov	r7, r2
	add.w	r3, r12, #28
.LBB84_22:
	ldr	r10, [r3, #-24]
	cmp	r10, r1
	bhs	.LBB84_39
	eor	r5, r4, #1
	orrs	r5, r7
	beq	.LBB84_19
	ldr	r5, [r3, #-16]
	cmp	r5, r1
	bhs	.LBB84_39
	eor	r5, r4, #2
	orrs	r5, r7
	beq	.LBB84_19
	ldr	r5, [r3, #-8]
	cmp	r5, r1
	bhs	.LBB84_39
	eor	r5, r4, #3
	orrs	r5, r7
	beq	.LBB84_19
	ldr	r5, [r3], #32
	cmp	r5, r1
	bhs	.LBB84_39
	subs	r4, #4
	sbc	r7, r7, #0
	orrs.w	r5, r4, r7
	bne	.LBB84_22
	b	.LBB84_19
.LBB84_30:
	movs	r5, #0
.LBB84_31:
	add.w	r0, r11, r5, lsl #3
	ldr	r2, [r0, #4]
	cmp	r2, r1
	bhs	.LBB84_55
	eor	r2, r7, #1
	orrs.w	r2, r2, r12
	beq	.LBB84_48
	ldr	r2, [r0, #12]
	cmp	r2, r1
	bhs	.LBB84_52
	eor	r2, r7, #2
	orrs.w	r2, r2, r12
	beq	.LBB84_48
	ldr	r2, [r0, #20]
	cmp	r2, r1
	bhs	.LBB84_53
	eor	r2, r7, #3
	orrs.w	r2, r2, r12
	beq	.LBB84_48
	ldr	r0, [r0, #28]
	cmp	r0, r1
	bhs	.LBB84_54
	subs	r7, #4
	sbc	r12, r12, #0
	orrs.w	r0, r7, r12
	add.w	r5, r5, #4
	bne	.LBB84_31
	b	.LBB84_48
.LBB84_39:
	ldr	r4, [sp, #28]
	movs	r5, #0
.LBB84_40:
	add.w	r0, r12, r5, lsl #3
	ldr	r3, [r0, #4]
	cmp	r3, r1
	bhs	.LBB84_62
	eor	r3, r6, #1
	orrs	r3, r2
	beq	.LBB84_48
	ldr	r3, [r0, #12]
	cmp	r3, r1
	bhs	.LBB84_59
	eor	r3, r6, #2
	orrs	r3, r2
	beq	.LBB84_48
	ldr	r3, [r0, #20]
	cmp	r3, r1
	bhs	.LBB84_60
	eor	r3, r6, #3
	orrs	r3, r2
	beq	.LBB84_48
	ldr	r0, [r0, #28]
	cmp	r0, r1
	bhs	.LBB84_61
	subs	r6, #4
	sbc	r2, r2, #0
	orrs.w	r0, r6, r2
	add.w	r5, r5, #4
	bne	.LBB84_40
.LBB84_48:
	ldr	r1, [sp, #32]
	movs	r0, #1
	strb	r0, [r1, #1]
	movs	r0, #5
	add	sp, #36
	pop.w	{r4, r5, r6, r7, r8, r9, r10, r11, pc}
.LBB84_49:
	movs	r0, #0
	b	.LBB84_51
.LBB84_50:
	movs	r0, #2
.LBB84_51:
	add	sp, #36
	pop.w	{r4, r5, r6, r7, r8, r9, r10, r11, lr}
	b	tlsf_c.call_fault.CallFault.refusal
.LBB84_52:
	adds	r5, #1
	b	.LBB84_55
.LBB84_53:
	adds	r5, #2
	b	.LBB84_55
.LBB84_54:
	adds	r5, #3
.LBB84_55:
	ldr.w	r0, [r10, #2768]
	ldr.w	r2, [r11, r5, lsl #3]
	ldr.w	r0, [r0, r5, lsl #2]
	cmp	r0, r2
	bhs	.LBB84_66
	ldr.w	r11, [r10, #2760]
	cmp.w	r11, #16777216
	bhi.w	.LBB84_75
	orr	r2, r11, #32
	clz	r2, r2
	rsb.w	r2, r2, #26
	sub.w	r3, r11, #1
	lsr.w	r6, r3, r2
	add.w	r2, r6, r2, lsl #5
	adds	r2, #1
	subs	r2, #1
	mov.w	r3, #0
	sbc	r3, r3, #0
	lsrs	r7, r2, #5
	orr.w	r7, r7, r3, lsl #27
	add.w	r12, r10, #84
	ldr.w	r4, [r12, r7, lsl #2]
	and	r6, r6, #31
	lsr.w	r6, r4, r6
	bics	r6, r6, #1
	beq	.LBB84_67
	rbit	r7, r6
	clz	r7, r7
	adds	r2, r2, r7
	adc	r3, r3, #0
	lsrs	r7, r2, #5
	orr.w	r7, r7, r3, lsl #27
	b	.LBB84_69
.LBB84_59:
	adds	r5, #1
	b	.LBB84_62
.LBB84_60:
	adds	r5, #2
	b	.LBB84_62
.LBB84_61:
	adds	r5, #3
.LBB84_62:
	ldr.w	r0, [r4, #2768]
	ldr.w	r2, [r12, r5, lsl #3]
	ldr.w	r0, [r0, r5, lsl #2]
	cmp	r0, r2
	bhs	.LBB84_66
	ldr.w	r8, [r4, #2760]
	cmp.w	r8, #1048576
	bhi	.LBB84_75
	orr	r2, r8, #16
	clz	r2, r2
	rsb.w	r2, r2, #27
	sub.w	r3, r8, #1
	lsr.w	r6, r3, r2
	add.w	r2, r6, r2, lsl #4
	adds	r2, #1
	subs	r2, #1
	mov.w	r3, #0
	sbc	r3, r3, #0
	lsrs	r7, r2, #4
	orr.w	r7, r7, r3, lsl #28
	add.w	r11, r4, #84
	ldr.w	r0, [r11, r7, lsl #2]
	and	r6, r6, #15
	lsr.w	r6, r0, r6
	bics	r6, r6, #1
	beq	.LBB84_72
	rbit	r7, r6
	clz	r7, r7
	adds	r2, r2, r7
	adc	r3, r3, #0
	lsrs	r7, r2, #4
	orr.w	r12, r7, r3, lsl #28
	b	.LBB84_74
.LBB84_66:
	ldr	r1, [sp, #32]
	movs	r0, #1
	strb	r0, [r1, #1]
	movs	r0, #38
	add	sp, #36
	pop.w	{r4, r5, r6, r7, r8, r9, r10, r11, pc}
.LBB84_67:
	ldr.w	r2, [r10, #80]
	adds	r3, r7, #1
	lsrs	r2, r3
	lsls	r2, r3
	beq	.LBB84_75
	rbit	r2, r2
	clz	r2, r2
	ldr.w	r3, [r12, r2, lsl #2]
	rbit	r3, r3
	clz	r3, r3
	add.w	r2, r3, r2, lsl #5
	lsrs	r7, r2, #5
.LBB84_69:
	ldrd	r0, r8, [r10, #8]
	mvns	r3, r0
	orn	r3, r3, r8
	cbz	r3, .LBB84_75
	add.w	lr, r10, #168
	ldr.w	r9, [lr, r2, lsl #2]
	ldr.w	r3, [r10, #24]
	str	r0, [sp, #20]
	add.w	r6, r3, r9, lsl #3
	ldr	r4, [r6, #16]
	lsl.w	r0, r9, #3
	adds	r6, r4, #1
	beq	.LBB84_78
	add.w	r3, r3, r4, lsl #3
	ldr	r7, [r3, #20]
	mov.w	r6, #-1
	orrs	r7, r6
	str	r7, [r3, #20]
	str.w	r4, [lr, r2, lsl #2]
	b	.LBB84_80
.LBB84_72:
	ldr	r2, [r4, #80]
	adds	r3, r7, #1
	lsrs	r2, r3
	lsls	r2, r3
	beq	.LBB84_75
	rbit	r2, r2
	clz	r2, r2
	ldr.w	r3, [r11, r2, lsl #2]
	rbit	r3, r3
	clz	r3, r3
	add.w	r2, r3, r2, lsl #4
	lsr.w	r12, r2, #4
.LBB84_74:
	ldrd	r0, r7, [r4, #8]
	mvns	r3, r0
	orn	r3, r3, r7
	cbnz	r3, .LBB84_76
.LBB84_75:
	ldr	r1, [sp, #32]
	movs	r0, #1
	strb	r0, [r1, #1]
	movs	r0, #2
	add	sp, #36
	pop.w	{r4, r5, r6, r7, r8, r9, r10, r11, pc}
.LBB84_76:
	add.w	r10, r4, #168
	ldr.w	r9, [r10, r2, lsl #2]
	ldr	r3, [r4, #24]
	str	r0, [sp, #20]
	add.w	r6, r3, r9, lsl #3
	ldr	r0, [r6, #16]
	mov.w	lr, #-1
	adds	r6, r0, #1
	lsl.w	r6, r9, #3
	str	r7, [sp, #16]
	strd	r10, r6, [sp, #4]
	beq.w	.LBB84_86
	add.w	r3, r3, r0, lsl #3
	ldr	r7, [r3, #20]
	orr.w	r7, r7, lr
	str	r7, [r3, #20]
	str.w	r0, [r10, r2, lsl #2]
	b	.LBB84_88
.LBB84_78:
	mov.w	r3, #-1
	str.w	r3, [lr, r2, lsl #2]
	ldr.w	r3, [r12, r7, lsl #2]
	and	r6, r2, #31
	movs	r2, #1
	lsl.w	r6, r2, r6
	bics	r3, r6
	str.w	r3, [r12, r7, lsl #2]
	bne	.LBB84_80
	ldr.w	r3, [r10, #80]
	lsls	r2, r7
	bic.w	r2, r3, r2
	str.w	r2, [r10, #80]
.LBB84_80:
	ldr.w	r4, [r10, #24]
	str	r0, [sp, #28]
	ldr	r3, [r4, r0]
	add.w	lr, r4, r0
	ldr.w	r12, [lr, #4]
	sub.w	r2, r3, r11, lsl #2
	cmp	r2, #15
	bhi	.LBB84_82
	subs	r0, r3, #1
	sbc	r2, r12, #0
	strd	r0, r2, [lr]
	ldr	r2, [sp, #20]
	movs	r3, #0
	ldr.w	r12, [sp, #28]
	str.w	r2, [lr, #8]
	mov	r4, r8
	strd	r8, r1, [lr, #12]
	str.w	r3, [lr, #20]
	lsr.w	r11, r0, #2
	b	.LBB84_96
.LBB84_82:
	subs	r3, r3, r2
	mov	r7, r8
	add.w	r8, r9, r11
	sbc	r6, r12, #0
	ldr	r0, [sp, #20]
	mov.w	r12, #0
	strd	r3, r6, [lr]
	add.w	r3, r4, r8, lsl #3
	strd	r0, r7, [lr, #8]
	strd	r1, r12, [lr, #16]
	str.w	r2, [r4, r8, lsl #3]
	strd	r9, r0, [r3, #4]
	str	r7, [r3, #12]
	ldr.w	r3, [r10, #48]
	mvn	r6, #7
	and.w	r6, r6, r8, lsr #3
	ldr.w	r12, [r3, r6]
	and	r4, r8, #63
	movs	r0, #1
	str.w	r9, [sp, #12]
	lsl.w	r9, r0, r4
	str	r7, [sp, #16]
	subs.w	lr, r4, #32
	it	pl
	movpl.w	r9, #0
	orr.w	r7, r12, r9
	str	r7, [r3, r6]
	add	r3, r6
	ldr	r7, [r3, #4]
	rsb.w	r6, r4, #32
	lsr.w	r6, r0, r6
	it	pl
	lslpl.w	r6, r0, lr
	orrs	r7, r6
	str	r7, [r3, #4]
	lsls	r3, r2, #30
	lsr.w	r2, r2, #2
	bmi	.LBB84_84
	ldr.w	r3, [r10, #24]
	add.w	r7, r2, r8
	add.w	r3, r3, r7, lsl #3
	str.w	r8, [r3, #4]
.LBB84_84:
	orr	r3, r2, #32
	clz	r3, r3
	rsb.w	r3, r3, #26
	lsrs	r2, r3
	add.w	r4, r2, r3, lsl #5
	add.w	r0, r10, #168
	ldr.w	r3, [r0, r4, lsl #2]
	ldr.w	r12, [sp, #28]
	lsl.w	r6, r8, #3
	cmp.w	r3, #-1
	str.w	r8, [r0, r4, lsl #2]
	mov.w	r0, #-1
	ble.w	.LBB84_94
	ldr.w	r2, [r10, #24]
	adds	r7, r2, r6
	add.w	r2, r2, r3, lsl #3
	strd	r3, r0, [r7, #16]
	str.w	r8, [r2, #20]
	b	.LBB84_95
.LBB84_86:
	mov.w	r3, #-1
	str.w	r3, [r10, r2, lsl #2]
	ldr.w	r3, [r11, r12, lsl #2]
	and	r6, r2, #15
	movs	r2, #1
	lsl.w	r6, r2, r6
	bics	r3, r6
	str.w	r3, [r11, r12, lsl #2]
	bne	.LBB84_88
	ldr	r3, [r4, #80]
	lsl.w	r2, r2, r12
	bic.w	r2, r3, r2
	str	r2, [r4, #80]
.LBB84_88:
	ldr	r6, [r4, #24]
	ldr	r0, [sp, #8]
	mov	r10, r4
	ldr	r3, [r6, r0]
	add.w	lr, r6, r0
	ldr.w	r12, [lr, #4]
	sub.w	r2, r3, r8, lsl #2
	cmp	r2, #15
	bhi	.LBB84_90
	subs	r0, r3, #1
	sbc	r2, r12, #0
	strd	r0, r2, [lr]
	ldr	r2, [sp, #20]
	ldr	r4, [sp, #16]
	movs	r3, #0
	str.w	r2, [lr, #8]
	strd	r4, r1, [lr, #12]
	str.w	r3, [lr, #20]
	lsr.w	r8, r0, #2
	b	.LBB84_100
.LBB84_90:
	subs	r3, r3, r2
	str.w	r11, [sp]
	sbc	r0, r12, #0
	strd	r3, r0, [lr]
	ldr	r0, [sp, #16]
	add.w	r11, r9, r8
	ldr	r4, [sp, #20]
	add.w	r3, lr, #12
	mov.w	r12, #0
	stm.w	r3, {r0, r1, r12}
	add.w	r3, r6, r11, lsl #3
	str.w	r4, [lr, #8]
	str.w	r2, [r6, r11, lsl #3]
	strd	r9, r4, [r3, #4]
	str	r0, [r3, #12]
	ldr.w	r3, [r10, #48]
	mvn	r6, #7
	and.w	r6, r6, r11, lsr #3
	and	r4, r11, #63
	movs	r0, #1
	ldr.w	r12, [r3, r6]
	lsl.w	r7, r0, r4
	str.w	r9, [sp, #12]
	subs.w	lr, r4, #32
	it	pl
	movpl	r7, #0
	orr.w	r7, r7, r12
	str	r7, [r3, r6]
	add	r3, r6
	ldr	r7, [r3, #4]
	rsb.w	r6, r4, #32
	lsr.w	r6, r0, r6
	it	pl
	lslpl.w	r6, r0, lr
	orrs	r7, r6
	str	r7, [r3, #4]
	lsls	r3, r2, #30
	lsr.w	r2, r2, #2
	bmi	.LBB84_92
	ldr.w	r3, [r10, #24]
	add.w	r7, r2, r11
	add.w	r3, r3, r7, lsl #3
	str.w	r11, [r3, #4]
.LBB84_92:
	orr	r3, r2, #16
	clz	r3, r3
	rsb.w	r3, r3, #27
	lsrs	r2, r3
	ldr	r0, [sp, #4]
	add.w	r4, r2, r3, lsl #4
	ldr.w	r3, [r0, r4, lsl #2]
	lsl.w	r6, r11, #3
	cmp.w	r3, #-1
	str.w	r11, [r0, r4, lsl #2]
	ble	.LBB84_98
	ldr.w	r2, [r10, #24]
	mov.w	r0, #-1
	adds	r7, r2, r6
	add.w	r2, r2, r3, lsl #3
	strd	r3, r0, [r7, #16]
	str.w	r11, [r2, #20]
	b	.LBB84_99
.LBB84_94:
	ldr.w	r3, [r10, #24]
	mov.w	r7, #-1
	add	r3, r6
	strd	r7, r0, [r3, #16]
	lsrs	r3, r4, #5
	add.w	r0, r10, #84
	ldr.w	r7, [r10, #80]
	ldr.w	r6, [r0, r3, lsl #2]
	mov.w	r12, #1
	and	r2, r2, #31
	lsl.w	r4, r12, r3
	lsl.w	r2, r12, r2
	orrs	r7, r4
	ldr.w	r12, [sp, #28]
	orrs	r2, r6
	str.w	r7, [r10, #80]
	str.w	r2, [r0, r3, lsl #2]
.LBB84_95:
	ldrd	r9, r4, [sp, #12]
.LBB84_96:
	ldrd	r2, r3, [r10, #16]
	movs	r7, #0
	add.w	r0, r2, r11
	cmp	r3, r0
	str.w	r0, [r10, #16]
	it	lo
	strlo.w	r0, [r10, #20]
	ldrd	r0, r2, [r10, #8]
	adds	r0, #1
	adc	r2, r2, #0
	adds	r3, r1, #1
	adc	r6, r7, #0
	cmp	r1, #0
	itt	ne
	movne	r3, r1
	movne	r6, r7
	adds.w	r1, r3, #31
	adc	r3, r6, #0
	lsrs	r1, r1, #3
	ldr.w	r7, [r10]
	orr.w	r1, r1, r3, lsl #29
	subs	r1, #3
	strd	r0, r2, [r10, #8]
	beq	.LBB84_102
	ldr.w	r0, [r10, #24]
	lsls	r2, r1, #3
	add	r0, r12
	adds	r0, #24
	movs	r1, #0
	bl	tlsf_memory_set
	b	.LBB84_102
.LBB84_98:
	ldr.w	r3, [r10, #24]
	mov.w	r7, #-1
	add	r3, r6
	mov.w	r0, #-1
	strd	r7, r0, [r3, #16]
	ldr	r0, [sp]
	lsrs	r3, r4, #4
	ldr.w	r7, [r10, #80]
	ldr.w	r6, [r0, r3, lsl #2]
	mov.w	r12, #1
	and	r2, r2, #15
	lsl.w	r4, r12, r3
	lsl.w	r2, r12, r2
	orrs	r7, r4
	orrs	r2, r6
	str.w	r7, [r10, #80]
	str.w	r2, [r0, r3, lsl #2]
.LBB84_99:
	ldrd	r9, r4, [sp, #12]
.LBB84_100:
	ldrd	r2, r3, [r10, #16]
	movs	r7, #0
	add.w	r0, r2, r8
	cmp	r3, r0
	str.w	r0, [r10, #16]
	it	lo
	strlo.w	r0, [r10, #20]
	ldrd	r0, r2, [r10, #8]
	adds	r0, #1
	adc	r2, r2, #0
	adds	r3, r1, #1
	adc	r6, r7, #0
	cmp	r1, #0
	itt	ne
	movne	r3, r1
	movne	r6, r7
	adds.w	r1, r3, #31
	adc	r3, r6, #0
	lsrs	r1, r1, #3
	ldr.w	r7, [r10]
	orr.w	r1, r1, r3, lsl #29
	subs	r1, #3
	strd	r0, r2, [r10, #8]
	beq	.LBB84_102
	ldr.w	r0, [r10, #24]
	ldr	r2, [sp, #8]
	add	r0, r2
	adds	r0, #24
	lsls	r2, r1, #3
	movs	r1, #0
	bl	tlsf_memory_set
	ldr	r4, [sp, #16]
	ldr.w	r10, [sp, #28]
.LBB84_102:
	ldr.w	r0, [r10, #2768]
	ldr.w	r1, [r0, r5, lsl #2]
	adds	r1, #1
	str.w	r1, [r0, r5, lsl #2]
	ldr	r1, [sp, #32]
	movs	r0, #1
	strb	r0, [r1, #1]
	ldr	r0, [sp, #24]
	ldr	r1, [sp, #20]
	str	r7, [r0]
	str.w	r9, [r0, #4]
	str	r4, [r0, #12]
	str	r1, [r0, #8]
	movs	r0, #0
	add	sp, #36
	pop.w	{r4, r5, r6, r7, r8, r9, r10, r11, pc}
.Lfunc_end84:
	.size	tlsf_pools_allocate, .Lfunc_end84-tlsf_pools_allocate
	.cfi_endproc
	.section	.text.tlsf_pools_check,"ax",%progbits
	.globl	tlsf_pools_check
	.p2align	2
	.type	tlsf_pools_check,%function
	.code	16
	.thumb_func
tlsf_pools_check:
	.cfi_startproc
	push.w	{r4, r5, r6, r7, r8, r9, r10, lr}
	.cfi_def_cfa_offset 32
	.cfi_offset lr, -4
	.cfi_offset r10, -8
	.cfi_offset r9, -12
	.cfi_offset r8, -16
	.cfi_offset r7, -20
	.cfi_offset r6, -24
	.cfi_offset r5, -28
	.cfi_offset r4, -32
	mov	r5, r3
	ldrb	r3, [r0, #8]
	cmp	r3, #0
	beq.w	.LBB85_22
	ldr	r7, [r0]
	ldrb	r0, [r7, #1]
	cmp	r0, #0
	beq	.LBB85_22
	ldrb	r0, [r7]
	cmp	r0, #1
	bne.w	.LBB85_23
	ldrb	r6, [r7, #8]
	mov	r4, r2
	ldrd	r8, r9, [sp, #32]
	ldrd	r3, r2, [r7, #32]
	movs	r0, #0
	strb	r0, [r7, #1]
	cbz	r6, .LBB85_12
	subs	r3, r1, r3
	sbcs	r0, r2
	bhs	.LBB85_21
	ldr	r0, [r7, #24]
	movw	r2, #2792
	mla	r0, r1, r2, r0
	ldr	r6, [r0, #32]
	subs	r1, r6, #4
	cmp	r4, r1
	bhi	.LBB85_21
	ldr	r1, [r0, #48]
	mvn	r2, #7
	and.w	r2, r2, r4, lsr #3
	adds	r3, r1, r2
	ldr	r1, [r1, r2]
	ldr	r3, [r3, #4]
	and	r2, r4, #63
	lsr.w	r12, r1, r2
	rsb.w	r1, r2, #32
	lsl.w	r1, r3, r1
	orr.w	r1, r1, r12
	subs	r2, #32
	it	pl
	lsrpl.w	r1, r3, r2
	lsls	r1, r1, #31
	beq	.LBB85_21
	cmp	r5, #0
	beq	.LBB85_26
	add.w	r10, r0, #24
	.p2align	2
.LBB85_9:
	mov	r0, r10
	mov	r1, r4
	bl	tlsf_heap.check.examine
	uxtb	r0, r0
	cmp	r0, #1
	bne	.LBB85_24
	cmp	r1, r6
	beq	.LBB85_25
	subs	r5, #1
	mov	r4, r1
	bne	.LBB85_9
	b	.LBB85_20
.LBB85_12:
	subs	r3, r1, r3
	sbcs	r0, r2
	bhs	.LBB85_21
	ldr	r0, [r7, #24]
	movw	r2, #2792
	mla	r0, r1, r2, r0
	ldr	r6, [r0, #32]
	subs	r1, r6, #4
	cmp	r4, r1
	bhi	.LBB85_21
	ldr	r1, [r0, #48]
	mvn	r2, #7
	and.w	r2, r2, r4, lsr #3
	adds	r3, r1, r2
	ldr	r1, [r1, r2]
	ldr	r3, [r3, #4]
	and	r2, r4, #63
	lsr.w	r12, r1, r2
	rsb.w	r1, r2, #32
	lsl.w	r1, r3, r1
	orr.w	r1, r1, r12
	subs	r2, #32
	it	pl
	lsrpl.w	r1, r3, r2
	lsls	r1, r1, #31
	beq	.LBB85_21
	cbz	r5, .LBB85_26
	add.w	r10, r0, #24
	.p2align	2
.LBB85_17:
	mov	r0, r10
	mov	r1, r4
	bl	tlsf_heap.check.examine
	uxtb	r0, r0
	cmp	r0, #1
	bne	.LBB85_24
	cmp	r1, r6
	beq	.LBB85_25
	subs	r5, #1
	mov	r4, r1
	bne	.LBB85_17
.LBB85_20:
	movs	r0, #0
	mov	r4, r1
	b	.LBB85_27
.LBB85_21:
	movs	r0, #1
	strb	r0, [r7, #1]
	movs	r0, #4
	pop.w	{r4, r5, r6, r7, r8, r9, r10, pc}
.LBB85_22:
	movs	r0, #0
	pop.w	{r4, r5, r6, r7, r8, r9, r10, lr}
	b	tlsf_c.call_fault.CallFault.refusal
.LBB85_23:
	movs	r0, #2
	pop.w	{r4, r5, r6, r7, r8, r9, r10, lr}
	b	tlsf_c.call_fault.CallFault.refusal
.LBB85_24:
	movs	r0, #36
	mov	r8, r9
	b	.LBB85_27
.LBB85_25:
	movs	r4, #0
.LBB85_26:
	movs	r0, #0
.LBB85_27:
	movs	r1, #1
	strb	r1, [r7, #1]
	str.w	r4, [r8]
	pop.w	{r4, r5, r6, r7, r8, r9, r10, pc}
.Lfunc_end85:
	.size	tlsf_pools_check, .Lfunc_end85-tlsf_pools_check
	.cfi_endproc
	.section	.text.tlsf_pools_close,"ax",%progbits
	.globl	tlsf_pools_close
	.p2align	2
	.type	tlsf_pools_close,%function
	.code	16
	.thumb_func
tlsf_pools_close:
	.cfi_startproc
	ldrb	r1, [r0, #8]
	cbz	r1, .LBB86_4
	ldr	r1, [r0]
	ldrb	r2, [r1, #1]
	cmp	r2, #1
	bne	.LBB86_4
	ldrb	r1, [r1]
	cmp	r1, #1
	itt	ne
	movne	r0, #40
	bxne	lr
.LBB86_3:
	push	{r7, lr}
	.cfi_def_cfa_offset 8
	.cfi_offset lr, -4
	.cfi_offset r7, -8
	bl	tlsf_c.arena_slot.ArenaSlot.close
	movs	r0, #0
	pop	{r7, pc}
.LBB86_4:
	movs	r0, #32
	bx	lr
.Lfunc_end86:
	.size	tlsf_pools_close, .Lfunc_end86-tlsf_pools_close
	.cfi_endproc
	.section	.text.tlsf_pools_counts,"ax",%progbits
	.globl	tlsf_pools_counts
	.p2align	2
	.type	tlsf_pools_counts,%function
	.code	16
	.thumb_func
tlsf_pools_counts:
	.cfi_startproc
	push.w	{r4, r5, r6, r7, r8, r9, r10, r11, lr}
	.cfi_def_cfa_offset 36
	.cfi_offset lr, -4
	.cfi_offset r11, -8
	.cfi_offset r10, -12
	.cfi_offset r9, -16
	.cfi_offset r8, -20
	.cfi_offset r7, -24
	.cfi_offset r6, -28
	.cfi_offset r5, -32
	.cfi_offset r4, -36
	sub	sp, #8
	.cfi_def_cfa_offset 44
	ldrb	r7, [r0, #8]
	cmp	r7, #0
	beq.w	.LBB87_29
	ldr.w	r12, [r0]
	ldrb.w	r0, [r12, #1]
	cmp	r0, #0
	beq.w	.LBB87_29
	ldrb.w	r0, [r12]
	cmp	r0, #1
	bne.w	.LBB87_30
	ldrb.w	r4, [r12, #8]
	ldr.w	lr, [r12, #24]
	ldrd	r9, r10, [r12, #32]
	movs	r0, #0
	cmp	r4, #0
	strd	r2, r3, [sp]
	strb.w	r0, [r12, #1]
	beq	.LBB87_14
	orrs.w	r0, r9, r10
	beq.w	.LBB87_24
	movs	r6, #0
	movw	r8, #2792
	movs	r7, #0
	mov.w	r11, #0
.LBB87_6:
	mla	r5, r7, r8, lr
	ldr.w	r4, [r5, #2744]
	ldr.w	r0, [r5, #2748]
	subs	r2, r1, r4
	sbcs.w	r2, r6, r0
	blo.w	.LBB87_25
	subs	r1, r1, r4
	sbcs	r6, r0
	orr	r0, r7, #1
	subs.w	r2, r0, r9
	sbcs.w	r2, r11, r10
	bhs.w	.LBB87_24
	mla	r5, r0, r8, lr
	ldr.w	r0, [r5, #2744]
	ldr.w	r4, [r5, #2748]
	subs	r2, r1, r0
	sbcs.w	r2, r6, r4
	blo.w	.LBB87_25
	subs	r1, r1, r0
	orr	r0, r7, #2
	sbcs	r6, r4
	subs.w	r2, r0, r9
	sbcs.w	r2, r11, r10
	bhs	.LBB87_24
	mla	r5, r0, r8, lr
	ldr.w	r0, [r5, #2744]
	ldr.w	r4, [r5, #2748]
	subs	r2, r1, r0
	sbcs.w	r2, r6, r4
	blo	.LBB87_25
	subs	r1, r1, r0
	orr	r0, r7, #3
	sbcs	r6, r4
	subs.w	r2, r0, r9
	sbcs.w	r2, r11, r10
	bhs	.LBB87_24
	mla	r5, r0, r8, lr
	ldr.w	r0, [r5, #2744]
	ldr.w	r4, [r5, #2748]
	subs	r2, r1, r0
	sbcs.w	r2, r6, r4
	blo	.LBB87_25
	subs	r1, r1, r0
	sbcs	r6, r4
	adds	r7, #4
	adc	r11, r11, #0
	subs.w	r0, r7, r9
	sbcs.w	r0, r11, r10
	blo	.LBB87_6
	b	.LBB87_24
.LBB87_14:
	orrs.w	r0, r9, r10
	beq	.LBB87_24
	movs	r6, #0
	movw	r2, #2792
	movs	r7, #0
	mov.w	r11, #0
.LBB87_16:
	mla	r5, r7, r2, lr
	ldr.w	r4, [r5, #2744]
	ldr.w	r0, [r5, #2748]
	subs.w	r8, r1, r4
	sbcs.w	r3, r6, r0
	blo	.LBB87_25
	subs	r1, r1, r4
	sbcs	r6, r0
	orr	r0, r7, #1
	subs.w	r3, r0, r9
	sbcs.w	r3, r11, r10
	bhs	.LBB87_24
	mla	r5, r0, r2, lr
	ldr.w	r0, [r5, #2744]
	ldr.w	r4, [r5, #2748]
	subs	r3, r1, r0
	sbcs.w	r3, r6, r4
	blo	.LBB87_25
	subs	r1, r1, r0
	orr	r0, r7, #2
	sbcs	r6, r4
	subs.w	r3, r0, r9
	sbcs.w	r3, r11, r10
	bhs	.LBB87_24
	mla	r5, r0, r2, lr
	ldr.w	r0, [r5, #2744]
	ldr.w	r4, [r5, #2748]
	subs	r3, r1, r0
	sbcs.w	r3, r6, r4
	blo	.LBB87_25
	subs	r1, r1, r0
	orr	r0, r7, #3
	sbcs	r6, r4
	subs.w	r3, r0, r9
	sbcs.w	r3, r11, r10
	bhs	.LBB87_24
	mla	r5, r0, r2, lr
	ldr.w	r0, [r5, #2744]
	ldr.w	r4, [r5, #2748]
	subs	r3, r1, r0
	sbcs.w	r3, r6, r4
	blo	.LBB87_25
	subs	r1, r1, r0
	sbcs	r6, r4
	adds	r7, #4
	adc	r11, r11, #0
	subs.w	r0, r7, r9
	sbcs.w	r0, r11, r10
	blo	.LBB87_16
.LBB87_24:
	movs	r0, #1
	strb.w	r0, [r12, #1]
	movs	r0, #4
	add	sp, #8
	pop.w	{r4, r5, r6, r7, r8, r9, r10, r11, pc}
.LBB87_25:
	ldr.w	r0, [r5, #2776]
	ldr.w	r2, [r5, #2780]
	subs	r0, r1, r0
	sbcs.w	r0, r6, r2
	bhs	.LBB87_27
	ldr.w	r0, [r5, #2768]
	ldr.w	r0, [r0, r1, lsl #2]
	b	.LBB87_28
.LBB87_27:
	movs	r0, #0
.LBB87_28:
	ldr.w	r2, [r5, #2736]
	ldrd	r7, r3, [sp]
	ldr.w	r1, [r2, r1, lsl #3]
	movs	r2, #1
	strb.w	r2, [r12, #1]
	str	r0, [r7]
	str	r1, [r3]
	movs	r0, #0
	add	sp, #8
	pop.w	{r4, r5, r6, r7, r8, r9, r10, r11, pc}
.LBB87_29:
	movs	r0, #0
	b	.LBB87_31
.LBB87_30:
	movs	r0, #2
.LBB87_31:
	add	sp, #8
	pop.w	{r4, r5, r6, r7, r8, r9, r10, r11, lr}
	b	tlsf_c.call_fault.CallFault.refusal
.Lfunc_end87:
	.size	tlsf_pools_counts, .Lfunc_end87-tlsf_pools_counts
	.cfi_endproc
	.section	.text.tlsf_pools_open,"ax",%progbits
	.globl	tlsf_pools_open
	.p2align	2
	.type	tlsf_pools_open,%function
	.code	16
	.thumb_func
tlsf_pools_open:
	.cfi_startproc
	push.w	{r4, r5, r6, r7, r8, r9, r10, r11, lr}
	.cfi_def_cfa_offset 36
	.cfi_offset lr, -4
	.cfi_offset r11, -8
	.cfi_offset r10, -12
	.cfi_offset r9, -16
	.cfi_offset r8, -20
	.cfi_offset r7, -24
	.cfi_offset r6, -28
	.cfi_offset r5, -32
	.cfi_offset r4, -36
	sub.w	sp, sp, #964
	.cfi_def_cfa_offset 1000
	ldrb	r7, [r0, #8]
	cmp	r3, #0
	it	eq
	addeq.w	r3, r3, #4096
	cmp	r7, #0
	mov.w	r7, #0
	str	r7, [sp, #100]
	strd	r7, r7, [sp, #92]
	strd	r7, r7, [sp, #84]
	beq	.LBB88_2
	movs	r0, #33
	add.w	sp, sp, #964
	pop.w	{r4, r5, r6, r7, r8, r9, r10, r11, pc}
.LBB88_2:
	subs	r7, r1, #6
	cmn.w	r7, #2
	bhs	.LBB88_4
	movs	r0, #34
	add.w	sp, sp, #964
	pop.w	{r4, r5, r6, r7, r8, r9, r10, r11, pc}
.LBB88_4:
	mov	r7, r0
	cmn.w	r2, #8
	mov.w	r0, #5
	bhi.w	.LBB88_120
	ldr.w	r11, [sp, #1000]
	cmp.w	r11, #64
	bhi.w	.LBB88_120
	add	r4, sp, #104
	str	r2, [sp, #76]
	mov.w	r8, #0
	mov	r0, r4
	str	r1, [sp, #80]
	movs	r1, #0
	mov.w	r2, #512
	str	r7, [sp, #64]
	strd	r8, r8, [sp, #616]
	strd	r8, r8, [sp, #624]
	str.w	r8, [sp, #632]
	mov	r6, r3
	bl	tlsf_memory_set
	ldr.w	r12, [sp, #80]
	cmp.w	r11, #0
	beq.w	.LBB88_15
	mov	r1, r6
	cmp.w	r11, #4
	and	lr, r11, #3
	bhs	.LBB88_9
	movs	r3, #0
	b	.LBB88_12
.LBB88_9:
	and	r9, r11, #124
	movs	r3, #0
	mov.w	r10, #-1
	movs	r0, #0
	.p2align	2
.LBB88_10:
	lsls	r2, r3, #4
	add.w	r5, r1, r3, lsl #4
	ldr	r2, [r1, r2]
	ldr	r7, [r5, #12]
	ldr	r5, [r5, #8]
	cmp	r7, #0
	it	ne
	movne	r5, r10
	add.w	r7, r4, r3, lsl #3
	str.w	r2, [r4, r3, lsl #3]
	orr	r2, r3, #1
	str	r5, [r7, #4]
	lsls	r5, r2, #4
	add.w	r7, r1, r2, lsl #4
	ldr	r5, [r1, r5]
	ldr	r6, [r7, #12]
	ldr	r7, [r7, #8]
	cmp	r6, #0
	it	ne
	movne	r7, r10
	add.w	r6, r4, r2, lsl #3
	str.w	r5, [r4, r2, lsl #3]
	orr	r2, r3, #2
	str	r7, [r6, #4]
	lsls	r5, r2, #4
	add.w	r6, r1, r2, lsl #4
	ldr	r5, [r1, r5]
	ldr	r7, [r6, #12]
	ldr	r6, [r6, #8]
	cmp	r7, #0
	it	ne
	movne	r6, r10
	add.w	r7, r4, r2, lsl #3
	str.w	r5, [r4, r2, lsl #3]
	orr	r2, r3, #3
	str	r6, [r7, #4]
	add.w	r6, r1, r2, lsl #4
	ldr	r7, [r6, #12]
	lsls	r5, r2, #4
	ldr	r5, [r1, r5]
	ldr	r6, [r6, #8]
	cmp	r7, #0
	it	ne
	movne	r6, r10
	adds	r3, #4
	add.w	r7, r4, r2, lsl #3
	str.w	r5, [r4, r2, lsl #3]
	adc	r0, r0, #0
	eor.w	r2, r3, r9
	orrs	r2, r0
	str	r6, [r7, #4]
	bne	.LBB88_10
	cmp.w	lr, #0
	beq	.LBB88_15
.LBB88_12:
	lsls	r0, r3, #4
	add.w	r2, r1, r3, lsl #4
	ldr	r5, [r1, r0]
	ldr	r0, [r2, #12]
	ldr	r2, [r2, #8]
	cmp	r0, #0
	mov.w	r0, #-1
	it	ne
	movne	r2, r0
	add.w	r6, r4, r3, lsl #3
	cmp.w	lr, #1
	str.w	r5, [r4, r3, lsl #3]
	str	r2, [r6, #4]
	beq	.LBB88_15
	adds	r2, r3, #1
	add.w	r6, r1, r2, lsl #4
	ldr	r7, [r6, #12]
	lsls	r5, r2, #4
	ldr	r5, [r1, r5]
	ldr	r6, [r6, #8]
	cmp	r7, #0
	it	eq
	moveq	r0, r6
	add.w	r6, r4, r2, lsl #3
	cmp.w	lr, #2
	str.w	r5, [r4, r2, lsl #3]
	str	r0, [r6, #4]
	beq	.LBB88_15
	adds	r0, r3, #2
	lsls	r2, r0, #4
	add.w	r3, r1, r0, lsl #4
	ldr	r1, [r1, r2]
	ldr	r2, [r3, #12]
	ldr	r3, [r3, #8]
	cmp	r2, #0
	add.w	r2, r4, r0, lsl #3
	it	ne
	movne.w	r3, #-1
	str.w	r1, [r4, r0, lsl #3]
	str	r3, [r2, #4]
.LBB88_15:
	add	r5, sp, #752
	cmp.w	r12, #4
	mov	r0, r5
	mov.w	r1, #0
	mov.w	r2, #88
	mov.w	r4, #0
	strd	r8, r8, [sp, #664]
	strd	r8, r8, [sp, #672]
	strd	r8, r8, [sp, #680]
	str.w	r8, [sp, #688]
	strd	r8, r8, [sp, #636]
	strd	r8, r8, [sp, #644]
	strd	r8, r8, [sp, #652]
	str.w	r8, [sp, #660]
	bne	.LBB88_21
	bl	tlsf_memory_set
	add	r1, sp, #104
	mov	r0, r5
	mov	r2, r11
	movs	r3, #0
	strd	r4, r4, [sp, #720]
	strd	r4, r4, [sp, #728]
	strd	r4, r4, [sp, #736]
	str	r4, [sp, #744]
	strh.w	r4, [sp, #748]
	strd	r4, r4, [sp, #692]
	strd	r4, r4, [sp, #700]
	strd	r4, r4, [sp, #708]
	str	r4, [sp, #716]
	bl	tlsf_pool.sizes.split.rising_split.4
	ldrb.w	r0, [sp, #752]
	cmp	r0, #1
	bne.w	.LBB88_27
	add.w	r1, r5, #8
	add	r5, sp, #840
	mov	r0, r5
	movs	r2, #80
	bl	tlsf_memory_cpy
	ldrd	r8, r10, [sp, #840]
	strd	r4, r4, [sp, #936]
	orrs.w	r0, r8, r10
	strd	r4, r4, [sp, #928]
	str	r4, [sp, #924]
	str	r4, [sp, #920]
	beq.w	.LBB88_114
	movw	r0, #25351
	movt	r0, #2253
	subs.w	r0, r8, r0
	movw	r0, #48260
	movt	r0, #11
	sbcs.w	r0, r10, r0
	bhs.w	.LBB88_26
	movw	r2, #2792
	umull	r1, r0, r8, r2
	mla	r0, r10, r2, r0
	movs	r2, #8
	cmp	r0, #0
	mov.w	r0, #-1
	it	ne
	movne	r1, r0
	add	r0, sp, #944
	bl	tlsf_memory_alloc
	ldr	r0, [sp, #944]
	lsls	r0, r0, #31
	beq.w	.LBB88_26
	movs	r0, #3
	movt	r0, #65280
	ldr	r3, [sp, #952]
	movs	r1, #0
	add.w	r0, r0, #15728640
	add.w	r2, r5, #8
	mov	r5, r1
	add	r4, sp, #104
	str	r0, [sp, #8]
	add	r6, sp, #944
	movs	r0, #0
	movs	r7, #0
	mov.w	r9, #0
	str	r3, [sp, #36]
	strd	r3, r1, [sp, #920]
	strd	r1, r1, [sp, #928]
	strd	r8, r10, [sp, #936]
	str	r2, [sp, #12]
	strd	r0, r0, [sp, #68]
	strd	r10, r8, [sp]
	b	.LBB88_29
.LBB88_21:
	bl	tlsf_memory_set
	add	r1, sp, #104
	mov	r0, r5
	mov	r2, r11
	movs	r3, #0
	strd	r4, r4, [sp, #720]
	strd	r4, r4, [sp, #728]
	strd	r4, r4, [sp, #736]
	str	r4, [sp, #744]
	strh.w	r4, [sp, #748]
	strd	r4, r4, [sp, #692]
	strd	r4, r4, [sp, #700]
	strd	r4, r4, [sp, #708]
	str	r4, [sp, #716]
	bl	tlsf_pool.sizes.split.rising_split.5
	ldrb.w	r0, [sp, #752]
	cmp	r0, #1
	bne	.LBB88_27
	add.w	r1, r5, #8
	add	r5, sp, #840
	mov	r0, r5
	movs	r2, #80
	bl	tlsf_memory_cpy
	ldrd	r6, r8, [sp, #840]
	strd	r4, r4, [sp, #936]
	orrs.w	r0, r6, r8
	strd	r4, r4, [sp, #928]
	str	r4, [sp, #924]
	str	r4, [sp, #920]
	beq.w	.LBB88_116
	movw	r0, #25351
	movt	r0, #2253
	subs	r0, r6, r0
	movw	r0, #48260
	movt	r0, #11
	sbcs.w	r0, r8, r0
	bhs	.LBB88_26
	movw	r2, #2792
	umull	r1, r0, r6, r2
	mla	r0, r8, r2, r0
	movs	r2, #8
	cmp	r0, #0
	mov.w	r0, #-1
	it	ne
	movne	r1, r0
	add	r0, sp, #944
	bl	tlsf_memory_alloc
	ldr	r0, [sp, #944]
	lsls	r0, r0, #31
	beq	.LBB88_26
	ldr	r2, [sp, #952]
	movs	r0, #0
	strd	r2, r0, [sp, #920]
	str	r0, [sp, #932]
	mov	r4, r0
	str	r0, [sp, #928]
	add.w	r0, r5, #8
	str	r0, [sp, #12]
	add.w	r10, sp, #104
	movs	r0, #0
	mov.w	r9, #0
	movs	r5, #0
	movs	r1, #0
	movs	r7, #0
	str	r2, [sp, #40]
	strd	r6, r8, [sp, #936]
	str	r0, [sp, #72]
	strd	r8, r6, [sp, #4]
	b	.LBB88_72
.LBB88_26:
	movs	r4, #2
.LBB88_27:
	movs	r0, #6
	cmp	r4, #0
	it	eq
	moveq	r0, #5
	add.w	sp, sp, #964
	pop.w	{r4, r5, r6, r7, r8, r9, r10, r11, pc}
.LBB88_28:
	ldr	r4, [sp, #48]
	ldr	r0, [sp, #60]
	ldr	r7, [sp, #28]
	add.w	r4, r4, r0, lsl #3
	subs.w	r11, r11, r0
	ldr	r0, [sp, #52]
	ldr	r1, [sp, #44]
	sbcs	r7, r0
	adds	r1, #1
	ldr.w	r10, [sp]
	adc	r9, r9, #0
	subs.w	r0, r1, r8
	sbcs.w	r0, r9, r10
	ldr	r0, [sp, #24]
	str	r0, [sp, #72]
	bhs.w	.LBB88_115
.LBB88_29:
	mvns	r0, r1
	ldr	r2, [sp, #12]
	add	r0, r8
	str	r1, [sp, #44]
	add.w	r1, r2, r0, lsl #3
	ldr.w	r2, [r2, r0, lsl #3]
	ldr	r3, [r1, #4]
	subs.w	r0, r11, r2
	sbcs.w	r0, r7, r3
	mov	r0, r4
	str.w	r9, [sp, #32]
	itt	lo
	movlo	r3, r7
	movlo	r2, r11
	str	r4, [sp, #48]
	str	r2, [sp, #60]
	str	r3, [sp, #52]
	bl	tlsf_pool.sizes.region.region_words.4
	uxtb	r0, r0
	cmp	r0, #1
	bne.w	.LBB88_165
	mvn	r0, #1048576
	mov	r4, r1
	add	r0, r1
	ldr	r1, [sp, #8]
	cmp	r0, r1
	blo.w	.LBB88_127
	lsls	r1, r4, #3
	mov	r0, r6
	movs	r2, #8
	bl	tlsf_memory_alloc
	ldr	r0, [sp, #944]
	lsls	r0, r0, #31
	beq.w	.LBB88_128
	add.w	r0, r4, #63
	str	r7, [sp, #28]
	str.w	r11, [sp, #56]
	ldr.w	r11, [sp, #952]
	lsrs	r7, r0, #6
	lsls	r1, r7, #3
	mov	r0, r6
	movs	r2, #8
	strd	r5, r5, [r11]
	strd	r5, r5, [r11, #8]
	strd	r5, r5, [r11, #16]
	strd	r5, r5, [r11, #24]
	bl	tlsf_memory_alloc
	ldr	r0, [sp, #944]
	lsls	r0, r0, #31
	beq.w	.LBB88_129
	str	r4, [sp, #40]
	ldr	r4, [sp, #952]
	movs	r0, #19
	mov.w	r2, #-1
	strd	r5, r5, [r4]
	str.w	r0, [r11]
	strd	r2, r5, [r11, #4]
	str.w	r5, [r11, #12]
	ldr	r0, [r4]
	ldr.w	r9, [sp, #72]
	orr	r0, r0, #1
	str	r0, [r4]
	ldrd	r0, r1, [sp, #936]
	ldr	r6, [sp, #68]
	eor.w	r0, r0, r9
	eors	r1, r6
	mov	r5, r2
	orrs	r0, r1
	strd	r2, r2, [r11, #16]
	beq.w	.LBB88_69
.LBB88_34:
	ldr	r0, [sp, #76]
	ldr	r1, [sp, #44]
	ldr	r3, [sp, #36]
	movw	r2, #2792
	add	r0, r1
	mul	r1, r9, r2
	mla	r10, r9, r2, r3
	str	r0, [r3, r1]
	movs	r0, #1
	ldr	r1, [sp, #40]
	str.w	r0, [r10, #8]
	str.w	r0, [r10, #56]
	str.w	r0, [r10, #80]
	movs	r0, #16
	mov.w	r8, #0
	str.w	r11, [r10, #24]
	mov.w	r11, #4
	str.w	r1, [r10, #40]
	str.w	r0, [r10, #84]
	add.w	r0, r10, #88
	movs	r1, #0
	movs	r2, #80
	str.w	r8, [r10, #12]
	str.w	r8, [r10, #16]
	str.w	r8, [r10, #20]
	str.w	r8, [r10, #28]
	str.w	r8, [r10, #36]
	str.w	r11, [r10, #32]
	str.w	r8, [r10, #44]
	str.w	r4, [r10, #48]
	str.w	r8, [r10, #52]
	str.w	r8, [r10, #60]
	str.w	r8, [r10, #68]
	str.w	r7, [r10, #64]
	str.w	r11, [r10, #72]
	str.w	r8, [r10, #76]
	bl	tlsf_memory_set
	add.w	r0, r10, #188
	movs	r1, #255
	mov.w	r2, #2544
	str.w	r5, [r10, #168]
	str.w	r5, [r10, #172]
	str.w	r5, [r10, #176]
	str.w	r5, [r10, #180]
	str.w	r8, [r10, #184]
	bl	tlsf_memory_set
	add	r1, sp, #960
	str.w	r1, [r10, #2736]
	str.w	r8, [r10, #2740]
	str.w	r8, [r10, #2744]
	str.w	r8, [r10, #2748]
	str.w	r8, [r10, #2752]
	str.w	r8, [r10, #2756]
	str.w	r11, [r10, #2760]
	str.w	r8, [r10, #2764]
	str.w	r1, [r10, #2768]
	str.w	r8, [r10, #2772]
	str.w	r8, [r10, #2776]
	str.w	r8, [r10, #2780]
	str.w	r8, [r10, #2784]
	str.w	r8, [r10, #2788]
	ldr.w	r10, [sp, #52]
	ldr	r0, [sp, #60]
	adds.w	r9, r9, #1
	adc	r6, r6, #0
	orrs.w	r0, r0, r10
	str	r6, [sp, #932]
	str.w	r9, [sp, #928]
	str	r6, [sp, #68]
	str.w	r9, [sp, #24]
	beq	.LBB88_40
	movs	r5, #0
	cmp.w	r5, r10, lsr #28
	bne.w	.LBB88_125
	ldr	r5, [sp, #60]
	lsl.w	r0, r10, #3
	add	r7, sp, #944
	orrs.w	r4, r0, r5, lsr #29
	mov.w	r1, #-1
	mov	r0, r7
	mov.w	r2, #4
	mov.w	r8, #0
	it	eq
	lsleq	r1, r5, #3
	bl	tlsf_memory_alloc
	ldr	r0, [sp, #944]
	lsls	r0, r0, #31
	beq.w	.LBB88_125
	ldr.w	r11, [sp, #952]
	ldr	r1, [sp, #48]
	lsls	r2, r5, #3
	subs.w	r0, r11, r1
	sbc	r3, r8, #0
	subs	r0, r0, r2
	sbcs.w	r0, r3, r4
	mov	r0, r11
	it	lo
	lsllo	r2, r5, #3
	bl	tlsf_memory_cpy
	lsl.w	r0, r10, #2
	orrs.w	r0, r0, r5, lsr #30
	mov.w	r1, #-1
	mov	r0, r7
	mov.w	r2, #4
	it	eq
	lsleq	r1, r5, #2
	bl	tlsf_memory_alloc
	ldr	r0, [sp, #944]
	lsls	r0, r0, #31
	beq.w	.LBB88_147
	subs	r4, r5, #1
	ldr.w	r8, [sp, #952]
	sbc	r7, r10, #0
	orrs.w	r0, r4, r7
	mov.w	r9, #0
	beq	.LBB88_41
	mvn	r0, #3
	add.w	r2, r0, r5, lsl #2
	mov	r0, r8
	movs	r1, #0
	bl	tlsf_memory_set
	b	.LBB88_42
.LBB88_40:
	movs	r0, #0
	strd	r0, r1, [sp, #16]
	mov	r11, r1
	mov.w	r9, #0
	b	.LBB88_63
.LBB88_41:
	movs	r4, #0
	movs	r7, #0
.LBB88_42:
	ldr	r6, [sp, #48]
	subs	r0, r5, #4
	and	r12, r5, #3
	sbcs	r0, r10, #0
	mov.w	r1, #0
	str.w	r9, [r8, r4, lsl #2]
	blo	.LBB88_54
	mov	lr, r4
	bic	r2, r5, #3
	bic	r3, r10, #-268435456
	mov.w	r9, #0
	movs	r0, #0
	str	r7, [sp, #20]
	b	.LBB88_45
	.p2align	2
.LBB88_44:
	adds	r1, #4
	adc	r0, r0, #0
	eor.w	r7, r1, r2
	eor.w	r4, r0, r3
	orrs	r7, r4
	beq	.LBB88_53
.LBB88_45:
	ldr.w	r7, [r6, r1, lsl #3]
	cmp	r7, #0
	add.w	r7, r6, r1, lsl #3
	beq	.LBB88_47
	ldr	r4, [r7, #4]
	cmp	r4, r9
	it	hi
	movhi	r9, r4
.LBB88_47:
	ldr	r4, [r7, #8]
	cbz	r4, .LBB88_49
	ldr	r4, [r7, #12]
	cmp	r4, r9
	it	hi
	movhi	r9, r4
.LBB88_49:
	ldr	r4, [r7, #16]
	cbz	r4, .LBB88_51
	ldr	r4, [r7, #20]
	cmp	r4, r9
	it	hi
	movhi	r9, r4
.LBB88_51:
	ldr	r4, [r7, #24]
	cmp	r4, #0
	beq	.LBB88_44
	ldr	r7, [r7, #28]
	cmp	r7, r9
	it	hi
	movhi	r9, r7
	b	.LBB88_44
.LBB88_53:
	ldr	r7, [sp, #20]
	cmp.w	r12, #0
	mov	r4, lr
	beq	.LBB88_62
.LBB88_54:
	ldr.w	r0, [r6, r1, lsl #3]
	cmp	r0, #0
	add.w	r0, r6, r1, lsl #3
	beq	.LBB88_56
	ldr	r1, [r0, #4]
	cmp	r1, r9
	it	hi
	movhi	r9, r1
.LBB88_56:
	cmp.w	r12, #1
	beq	.LBB88_62
	ldr	r1, [r0, #8]
	cbz	r1, .LBB88_59
	ldr	r1, [r0, #12]
	cmp	r1, r9
	it	hi
	movhi	r9, r1
.LBB88_59:
	cmp.w	r12, #2
	beq	.LBB88_62
	ldr	r1, [r0, #16]
	cbz	r1, .LBB88_62
	ldr	r0, [r0, #20]
	cmp	r0, r9
	it	hi
	movhi	r9, r0
.LBB88_62:
	str.w	r8, [sp, #20]
	adds.w	r8, r4, #1
	adc	r0, r7, #0
	str	r0, [sp, #16]
.LBB88_63:
	movs	r5, #0
	adds.w	r0, r9, #1
	adc	r1, r5, #0
	cmp.w	r9, #0
	itt	ne
	movne	r0, r9
	movne	r1, r5
	adds	r0, #31
	adc	r1, r1, #0
	lsrs	r0, r0, #3
	orr.w	r0, r0, r1, lsl #29
	orr	r1, r0, #16
	clz	r1, r1
	rsb.w	r1, r1, #27
	subs	r0, #1
	lsrs	r0, r1
	adds	r0, #1
	add.w	r4, r0, r1, lsl #4
	lsrs	r1, r4, #4
	beq	.LBB88_65
	movs	r2, #8
	lsls	r2, r1
	and	r0, r0, #15
	subs	r1, #1
	lsls	r0, r1
	adds	r4, r0, r2
.LBB88_65:
	ldr	r0, [sp, #72]
	ldr	r2, [sp, #36]
	movw	r1, #2792
	mla	r9, r0, r1, r2
	ldr	r1, [sp, #40]
	mov	r0, r9
	bl	tlsf_heap.heap.Heap.begin.4
	str.w	r4, [r9, #2760]
	ldr	r4, [sp, #20]
	ldr.w	r12, [r9, #2752]
	ldr.w	r1, [r9, #2756]
	ldr.w	r0, [r9, #2736]
	ldr.w	r7, [r9, #2768]
	ldr.w	r2, [r9, #2788]
	ldr.w	r10, [r9, #2784]
	ldr	r3, [sp, #52]
	ldr	r6, [sp, #60]
	str.w	r4, [r9, #2768]
	ldr	r4, [sp, #16]
	orrs.w	r1, r1, r12
	str.w	r11, [r9, #2736]
	str.w	r5, [r9, #2740]
	str.w	r3, [r9, #2748]
	str.w	r6, [r9, #2744]
	str.w	r6, [r9, #2752]
	str.w	r3, [r9, #2756]
	str.w	r5, [r9, #2764]
	str.w	r5, [r9, #2772]
	str.w	r4, [r9, #2780]
	str.w	r8, [r9, #2776]
	str.w	r6, [r9, #2784]
	str.w	r3, [r9, #2788]
	beq	.LBB88_67
	mov	r4, r2
	bl	tlsf_memory_dealloc
	mov	r2, r4
.LBB88_67:
	ldr.w	r11, [sp, #56]
	ldr.w	r8, [sp, #4]
	ldr.w	r9, [sp, #32]
	orrs.w	r0, r10, r2
	add	r6, sp, #944
	beq.w	.LBB88_28
	mov	r0, r7
	bl	tlsf_memory_dealloc
	b	.LBB88_28
.LBB88_69:
	add	r0, sp, #920
	mov.w	r5, #-1
	bl	std_alloc.vec.Vec.grow_amortized.8f83c87fc5454f35
	cmp	r0, #0
	beq.w	.LBB88_164
	ldr	r0, [sp, #920]
	ldrd	r9, r6, [sp, #928]
	str	r0, [sp, #36]
	b	.LBB88_34
.LBB88_71:
	ldr	r1, [sp, #60]
	ldr.w	r11, [sp, #56]
	add.w	r10, r10, r1, lsl #3
	subs.w	r11, r11, r1
	ldr	r0, [sp, #52]
	ldr	r1, [sp, #48]
	sbcs	r5, r0
	adds	r1, #1
	ldr.w	r8, [sp, #4]
	adc	r7, r7, #0
	subs	r0, r1, r6
	sbcs.w	r0, r7, r8
	ldr	r0, [sp, #28]
	str	r0, [sp, #72]
	bhs.w	.LBB88_117
.LBB88_72:
	mvns	r0, r1
	ldr	r3, [sp, #12]
	add	r0, r6
	str	r1, [sp, #48]
	add.w	r1, r3, r0, lsl #3
	ldr.w	r2, [r3, r0, lsl #3]
	ldr	r3, [r1, #4]
	subs.w	r0, r11, r2
	sbcs.w	r0, r5, r3
	mov	r0, r10
	str	r7, [sp, #36]
	it	lo
	movlo	r3, r5
	str.w	r11, [sp, #56]
	it	lo
	movlo	r2, r11
	str	r2, [sp, #60]
	str	r3, [sp, #52]
	bl	tlsf_pool.sizes.region.region_words.5
	uxtb	r0, r0
	cmp	r0, #1
	bne.w	.LBB88_165
	mvn	r0, #16777216
	mov	r6, r1
	add	r0, r1
	movs	r1, #3
	movt	r1, #65280
	cmp	r0, r1
	add.w	r11, sp, #944
	blo.w	.LBB88_126
	lsls	r1, r6, #3
	mov	r0, r11
	movs	r2, #8
	bl	tlsf_memory_alloc
	ldr	r0, [sp, #944]
	lsls	r0, r0, #31
	beq.w	.LBB88_135
	add.w	r0, r6, #63
	str	r5, [sp, #24]
	ldr	r5, [sp, #952]
	lsrs	r7, r0, #6
	lsls	r1, r7, #3
	mov	r0, r11
	movs	r2, #8
	strd	r4, r4, [r5]
	strd	r4, r4, [r5, #8]
	strd	r4, r4, [r5, #16]
	strd	r4, r4, [r5, #24]
	bl	tlsf_memory_alloc
	ldr	r0, [sp, #944]
	lsls	r0, r0, #31
	beq.w	.LBB88_134
	str	r6, [sp, #44]
	ldr	r6, [sp, #952]
	movs	r0, #19
	mov.w	r11, #-1
	strd	r4, r4, [r6]
	str	r0, [r5]
	strd	r11, r4, [r5, #4]
	str	r4, [r5, #12]
	ldr	r0, [r6]
	ldr	r2, [sp, #72]
	orr	r0, r0, #1
	str	r0, [r6]
	ldrd	r0, r1, [sp, #936]
	str	r7, [sp, #68]
	eors	r0, r2
	eor.w	r1, r1, r9
	orrs	r0, r1
	mov	r7, r9
	mov	r9, r2
	str.w	r10, [sp, #32]
	strd	r11, r11, [r5, #16]
	beq.w	.LBB88_112
.LBB88_77:
	ldr	r0, [sp, #76]
	ldr	r1, [sp, #48]
	movw	r2, #2792
	ldr	r3, [sp, #40]
	add	r0, r1
	mul	r1, r9, r2
	mla	r10, r9, r2, r3
	str	r0, [r3, r1]
	ldr	r1, [sp, #44]
	movs	r0, #1
	str.w	r1, [r10, #40]
	ldr	r1, [sp, #68]
	str.w	r0, [r10, #8]
	str.w	r0, [r10, #56]
	str.w	r0, [r10, #80]
	movs	r0, #16
	mov.w	r8, #0
	movs	r4, #4
	str.w	r1, [r10, #64]
	str.w	r0, [r10, #84]
	add.w	r0, r10, #88
	movs	r1, #0
	movs	r2, #80
	str.w	r8, [r10, #12]
	str.w	r8, [r10, #16]
	str.w	r8, [r10, #20]
	str.w	r5, [r10, #24]
	str.w	r8, [r10, #28]
	str.w	r8, [r10, #36]
	str.w	r4, [r10, #32]
	str.w	r8, [r10, #44]
	str.w	r6, [r10, #48]
	str.w	r8, [r10, #52]
	str.w	r8, [r10, #60]
	str.w	r8, [r10, #68]
	str.w	r4, [r10, #72]
	str.w	r8, [r10, #76]
	bl	tlsf_memory_set
	add.w	r0, r10, #188
	movs	r1, #255
	mov.w	r2, #2544
	str.w	r11, [r10, #168]
	str.w	r11, [r10, #172]
	str.w	r11, [r10, #176]
	str.w	r11, [r10, #180]
	str.w	r8, [r10, #184]
	bl	tlsf_memory_set
	ldr	r6, [sp, #52]
	ldr	r0, [sp, #60]
	adds.w	r1, r9, #1
	add	r5, sp, #960
	adc	r9, r7, #0
	orrs	r0, r6
	str.w	r5, [r10, #2736]
	str.w	r8, [r10, #2740]
	str.w	r8, [r10, #2744]
	str.w	r8, [r10, #2748]
	str.w	r8, [r10, #2752]
	str.w	r8, [r10, #2756]
	str.w	r4, [r10, #2760]
	str.w	r8, [r10, #2764]
	str.w	r5, [r10, #2768]
	str.w	r8, [r10, #2772]
	str.w	r8, [r10, #2776]
	str.w	r8, [r10, #2780]
	str.w	r8, [r10, #2784]
	str.w	r8, [r10, #2788]
	str.w	r9, [sp, #932]
	str	r1, [sp, #928]
	str.w	r9, [sp, #68]
	str	r1, [sp, #28]
	beq	.LBB88_83
	mov.w	r11, #0
	ldr.w	r10, [sp, #32]
	cmp.w	r11, r6, lsr #28
	bne.w	.LBB88_130
	ldr	r7, [sp, #60]
	lsls	r0, r6, #3
	add.w	r8, sp, #944
	orrs.w	r4, r0, r7, lsr #29
	mov.w	r1, #-1
	mov	r0, r8
	mov.w	r2, #4
	it	eq
	lsleq	r1, r7, #3
	bl	tlsf_memory_alloc
	ldr	r0, [sp, #944]
	lsls	r0, r0, #31
	beq.w	.LBB88_131
	ldr	r5, [sp, #952]
	lsls	r2, r7, #3
	subs.w	r0, r5, r10
	sbc	r1, r11, #0
	subs	r0, r0, r2
	sbcs.w	r0, r1, r4
	mov	r0, r5
	mov	r1, r10
	it	lo
	lsllo	r2, r7, #3
	bl	tlsf_memory_cpy
	lsls	r0, r6, #2
	orrs.w	r0, r0, r7, lsr #30
	mov.w	r1, #-1
	mov	r0, r8
	mov.w	r2, #4
	it	eq
	lsleq	r1, r7, #2
	bl	tlsf_memory_alloc
	ldr	r0, [sp, #944]
	lsls	r0, r0, #31
	beq.w	.LBB88_132
	subs	r4, r7, #1
	ldr.w	r8, [sp, #952]
	sbc	r1, r6, #0
	orrs.w	r0, r4, r1
	mov.w	r9, #0
	beq	.LBB88_84
	mvn	r0, #3
	str	r1, [sp, #16]
	add.w	r2, r0, r7, lsl #2
	mov	r0, r8
	movs	r1, #0
	bl	tlsf_memory_set
	b	.LBB88_85
.LBB88_83:
	movs	r0, #0
	ldr.w	r10, [sp, #32]
	strd	r0, r5, [sp, #16]
	mov.w	r9, #0
	mov.w	r11, #0
	b	.LBB88_106
.LBB88_84:
	movs	r0, #0
	movs	r4, #0
	str	r0, [sp, #16]
.LBB88_85:
	subs	r0, r7, #4
	and	r12, r7, #3
	sbcs	r0, r6, #0
	mov.w	r1, #0
	str.w	r9, [r8, r4, lsl #2]
	blo	.LBB88_97
	mov	lr, r4
	bic	r2, r7, #3
	bic	r3, r6, #-268435456
	mov.w	r9, #0
	movs	r0, #0
	b	.LBB88_88
	.p2align	2
.LBB88_87:
	adds	r1, #4
	adc	r0, r0, #0
	eor.w	r7, r1, r2
	eor.w	r4, r0, r3
	orrs	r7, r4
	beq	.LBB88_96
.LBB88_88:
	ldr.w	r7, [r10, r1, lsl #3]
	cmp	r7, #0
	add.w	r7, r10, r1, lsl #3
	beq	.LBB88_90
	ldr	r4, [r7, #4]
	cmp	r4, r9
	it	hi
	movhi	r9, r4
.LBB88_90:
	ldr	r4, [r7, #8]
	cbz	r4, .LBB88_92
	ldr	r4, [r7, #12]
	cmp	r4, r9
	it	hi
	movhi	r9, r4
.LBB88_92:
	ldr	r4, [r7, #16]
	cbz	r4, .LBB88_94
	ldr	r4, [r7, #20]
	cmp	r4, r9
	it	hi
	movhi	r9, r4
.LBB88_94:
	ldr	r4, [r7, #24]
	cmp	r4, #0
	beq	.LBB88_87
	ldr	r7, [r7, #28]
	cmp	r7, r9
	it	hi
	movhi	r9, r7
	b	.LBB88_87
.LBB88_96:
	cmp.w	r12, #0
	mov	r4, lr
	beq	.LBB88_105
.LBB88_97:
	ldr.w	r0, [r10, r1, lsl #3]
	cmp	r0, #0
	add.w	r0, r10, r1, lsl #3
	beq	.LBB88_99
	ldr	r1, [r0, #4]
	cmp	r1, r9
	it	hi
	movhi	r9, r1
.LBB88_99:
	cmp.w	r12, #1
	beq	.LBB88_105
	ldr	r1, [r0, #8]
	cbz	r1, .LBB88_102
	ldr	r1, [r0, #12]
	cmp	r1, r9
	it	hi
	movhi	r9, r1
.LBB88_102:
	cmp.w	r12, #2
	beq	.LBB88_105
	ldr	r1, [r0, #16]
	cbz	r1, .LBB88_105
	ldr	r0, [r0, #20]
	cmp	r0, r9
	it	hi
	movhi	r9, r0
.LBB88_105:
	ldr	r0, [sp, #16]
	str.w	r8, [sp, #20]
	adds.w	r8, r4, #1
	adc	r0, r0, #0
	str	r0, [sp, #16]
.LBB88_106:
	adds.w	r0, r9, #1
	adc	r1, r11, #0
	cmp.w	r9, #0
	itt	ne
	movne	r0, r9
	movne	r1, r11
	adds	r0, #31
	adc	r1, r1, #0
	lsrs	r0, r0, #3
	orr.w	r0, r0, r1, lsl #29
	orr	r1, r0, #32
	clz	r1, r1
	rsb.w	r1, r1, #26
	subs	r0, #1
	lsrs	r0, r1
	adds	r0, #1
	add.w	r4, r0, r1, lsl #5
	mov.w	r11, #0
	lsrs	r1, r4, #5
	beq	.LBB88_108
	movs	r2, #16
	lsls	r2, r1
	and	r0, r0, #31
	subs	r1, #1
	lsls	r0, r1
	adds	r4, r0, r2
.LBB88_108:
	ldr	r0, [sp, #72]
	ldr	r2, [sp, #40]
	movw	r1, #2792
	mla	r9, r0, r1, r2
	ldr	r1, [sp, #44]
	mov	r0, r9
	bl	tlsf_heap.heap.Heap.begin.5
	str.w	r4, [r9, #2760]
	ldr	r4, [sp, #20]
	ldr.w	r12, [r9, #2752]
	ldr.w	r1, [r9, #2756]
	ldr.w	r0, [r9, #2736]
	ldr.w	r2, [r9, #2768]
	ldr.w	r6, [r9, #2788]
	ldr.w	r7, [r9, #2784]
	str.w	r5, [r9, #2736]
	ldr	r3, [sp, #52]
	ldr	r5, [sp, #60]
	str.w	r4, [r9, #2768]
	ldr	r4, [sp, #16]
	orrs.w	r1, r1, r12
	str.w	r11, [r9, #2740]
	str.w	r3, [r9, #2748]
	str.w	r5, [r9, #2744]
	str.w	r5, [r9, #2752]
	str.w	r3, [r9, #2756]
	str.w	r11, [r9, #2764]
	str.w	r11, [r9, #2772]
	str.w	r4, [r9, #2780]
	str.w	r8, [r9, #2776]
	str.w	r5, [r9, #2784]
	str.w	r3, [r9, #2788]
	beq	.LBB88_110
	mov	r4, r2
	bl	tlsf_memory_dealloc
	mov	r2, r4
.LBB88_110:
	orrs.w	r0, r7, r6
	ldr.w	r9, [sp, #68]
	ldr	r6, [sp, #8]
	ldr	r5, [sp, #24]
	ldr	r7, [sp, #36]
	mov.w	r4, #0
	beq.w	.LBB88_71
	mov	r0, r2
	bl	tlsf_memory_dealloc
	b	.LBB88_71
.LBB88_112:
	add	r0, sp, #920
	bl	std_alloc.vec.Vec.grow_amortized.cb831ce0f1fbfa3d
	cmp	r0, #0
	beq.w	.LBB88_163
	ldr	r0, [sp, #920]
	ldrd	r9, r7, [sp, #928]
	str	r0, [sp, #40]
	b	.LBB88_77
.LBB88_114:
	add	r0, sp, #960
	str	r0, [sp, #920]
	movs	r0, #0
	strd	r0, r0, [sp, #928]
	strd	r0, r0, [sp, #936]
.LBB88_115:
	add	r0, sp, #720
	adds	r4, r0, #6
	add	r1, sp, #920
	mov	r0, r4
	movs	r2, #24
	bl	tlsf_memory_cpy
	add	r5, sp, #692
	adds	r0, r5, #4
	mov	r1, r4
	movs	r2, #24
	bl	tlsf_memory_cpy
	add.w	r12, sp, #664
	ldm	r5!, {r2, r3, r7}
	mov	r1, r12
	stm	r1!, {r2, r3, r7}
	ldm.w	r5, {r2, r3, r6, r7}
	mov.w	r8, #0
	b	.LBB88_118
.LBB88_116:
	add	r0, sp, #960
	str	r0, [sp, #920]
	movs	r0, #0
	strd	r0, r0, [sp, #928]
	strd	r0, r0, [sp, #936]
.LBB88_117:
	add	r0, sp, #720
	adds	r4, r0, #6
	add	r1, sp, #920
	mov	r0, r4
	movs	r2, #24
	bl	tlsf_memory_cpy
	add	r5, sp, #692
	adds	r0, r5, #4
	mov	r1, r4
	movs	r2, #24
	bl	tlsf_memory_cpy
	add.w	r12, sp, #636
	ldm	r5!, {r2, r3, r7}
	mov	r1, r12
	stm	r1!, {r2, r3, r7}
	ldm.w	r5, {r2, r3, r6, r7}
	mov.w	r8, #1
.LBB88_118:
	stm	r1!, {r2, r3, r6, r7}
	mov	r3, r12
	add	r1, sp, #616
	ldm.w	r3, {r0, r4, r5, r6, r7}
	mov	r2, r1
	stm	r2!, {r0, r4, r5, r6, r7}
	ldrd	r10, r9, [r12, #20]
	add	r7, sp, #84
	ldm.w	r1, {r2, r3, r4, r5, r6}
	mov	r0, r7
	stm	r0!, {r2, r3, r4, r5, r6}
	add	r0, sp, #840
	movw	r1, #2760
	movs	r2, #8
	bl	tlsf_memory_alloc
	ldr	r0, [sp, #840]
	lsls	r0, r0, #31
	beq	.LBB88_121
	ldr	r4, [sp, #848]
	movw	r0, #257
	strh	r0, [r4]
	ldr	r0, [sp, #76]
	movs	r5, #0
	str	r0, [r4, #16]
	add.w	r0, r4, #20
	add	r1, sp, #84
	movs	r2, #20
	str	r5, [r4, #12]
	str.w	r8, [r4, #8]
	bl	tlsf_memory_cpy
	ldr	r1, [sp, #64]
	mov	r0, r5
	movs	r2, #1
	str.w	r10, [r4, #40]
	str.w	r9, [r4, #44]
	str	r4, [r1]
	str	r5, [r1, #4]
	strb	r2, [r1, #8]
	str.w	r5, [r1, #9]
	str	r5, [r1, #12]
.LBB88_120:
	add.w	sp, sp, #964
	pop.w	{r4, r5, r6, r7, r8, r9, r10, r11, pc}
.LBB88_121:
	ldr	r0, [sp, #80]
	cmp	r0, #4
	add.w	r0, r7, #4
	bne	.LBB88_123
	ldrd	r1, r2, [r0]
	ldr	r3, [r0, #12]
	ldr	r0, [r0, #8]
	strd	r1, r2, [sp, #104]
	add	r1, sp, #112
	stm.w	r1, {r0, r3, r10}
	add	r0, sp, #104
	str.w	r9, [sp, #124]
	bl	std_alloc.vec.Vec.drop.01e19ae241269710
	b	.LBB88_124
.LBB88_123:
	ldrd	r1, r2, [r0]
	ldr	r3, [r0, #12]
	ldr	r0, [r0, #8]
	strd	r1, r2, [sp, #752]
	add	r1, sp, #760
	stm.w	r1, {r0, r3, r10}
	add	r0, sp, #752
	str.w	r9, [sp, #772]
	bl	std_alloc.vec.Vec.drop.1d6c342d5cae5f6b
.LBB88_124:
	movs	r0, #6
	add.w	sp, sp, #964
	pop.w	{r4, r5, r6, r7, r8, r9, r10, r11, pc}
.LBB88_125:
	movs	r4, #2
	str.w	r9, [sp, #72]
	b	.LBB88_150
.LBB88_126:
	movs	r4, #0
	b	.LBB88_136
.LBB88_127:
	ldr	r6, [sp, #68]
	movs	r4, #0
	b	.LBB88_150
.LBB88_128:
	ldr	r6, [sp, #68]
	b	.LBB88_149
.LBB88_129:
	ldr	r6, [sp, #68]
	b	.LBB88_148
.LBB88_130:
	movs	r4, #2
	str	r1, [sp, #72]
	b	.LBB88_136
.LBB88_131:
	ldr	r0, [sp, #28]
	movs	r4, #2
	str	r0, [sp, #72]
	b	.LBB88_136
.LBB88_132:
	ldr	r0, [sp, #28]
.LBB88_133:
	str	r0, [sp, #72]
.LBB88_134:
	mov	r0, r5
	bl	tlsf_memory_dealloc
.LBB88_135:
	movs	r4, #2
.LBB88_136:
	ldr	r0, [sp, #920]
	str	r0, [sp, #56]
	ldr	r0, [sp, #936]
	str	r0, [sp, #52]
	ldr	r0, [sp, #940]
	str	r0, [sp, #48]
	ldr	r0, [sp, #72]
	orrs.w	r0, r0, r9
	beq.w	.LBB88_161
	movs	r5, #0
	mov.w	r10, #0
	str.w	r9, [sp, #68]
	b	.LBB88_139
.LBB88_138:
	ldr	r0, [sp, #72]
	adds	r5, #1
	adc	r10, r10, #0
	subs	r0, r5, r0
	sbcs.w	r0, r10, r9
	bhs.w	.LBB88_161
.LBB88_139:
	ldr	r0, [sp, #56]
	movw	r1, #2792
	mla	r0, r5, r1, r0
	ldr.w	r3, [r0, #2736]
	ldr	r1, [r0, #40]
	str	r3, [sp, #60]
	ldr.w	r3, [r0, #2768]
	ldr	r2, [r0, #44]
	str	r3, [sp, #64]
	ldr.w	r3, [r0, #2788]
	ldr	r6, [r0, #48]
	ldr	r7, [r0, #64]
	ldr.w	r9, [r0, #68]
	ldr.w	r11, [r0, #2756]
	ldr.w	r8, [r0, #2752]
	str	r3, [sp, #80]
	ldr.w	r3, [r0, #2784]
	orrs	r1, r2
	str	r3, [sp, #76]
	beq	.LBB88_141
	ldr	r0, [r0, #24]
	bl	tlsf_memory_dealloc
.LBB88_141:
	orrs.w	r0, r7, r9
	beq	.LBB88_143
	mov	r0, r6
	bl	tlsf_memory_dealloc
.LBB88_143:
	ldr.w	r9, [sp, #68]
	orrs.w	r0, r8, r11
	beq	.LBB88_145
	ldr	r0, [sp, #60]
	bl	tlsf_memory_dealloc
.LBB88_145:
	ldrd	r1, r0, [sp, #76]
	orrs	r0, r1
	beq	.LBB88_138
	ldr	r0, [sp, #64]
	bl	tlsf_memory_dealloc
	b	.LBB88_138
.LBB88_147:
	str.w	r9, [sp, #72]
.LBB88_148:
	mov	r0, r11
	bl	tlsf_memory_dealloc
.LBB88_149:
	movs	r4, #2
.LBB88_150:
	ldr	r0, [sp, #920]
	str	r0, [sp, #56]
	ldr	r0, [sp, #936]
	str	r0, [sp, #52]
	ldr	r0, [sp, #940]
	str	r0, [sp, #48]
	ldr	r0, [sp, #72]
	orrs	r0, r6
	beq	.LBB88_161
	movs	r5, #0
	mov.w	r10, #0
	str	r6, [sp, #68]
	b	.LBB88_153
.LBB88_152:
	ldr	r0, [sp, #72]
	adds	r5, #1
	adc	r10, r10, #0
	subs	r0, r5, r0
	sbcs.w	r0, r10, r6
	bhs	.LBB88_161
.LBB88_153:
	ldr	r0, [sp, #56]
	movw	r1, #2792
	mla	r0, r5, r1, r0
	ldr.w	r3, [r0, #2736]
	ldr	r1, [r0, #40]
	str	r3, [sp, #60]
	ldr.w	r3, [r0, #2768]
	ldr	r2, [r0, #44]
	str	r3, [sp, #64]
	ldr.w	r3, [r0, #2788]
	ldr	r6, [r0, #48]
	ldr	r7, [r0, #64]
	ldr.w	r9, [r0, #68]
	ldr.w	r11, [r0, #2756]
	ldr.w	r8, [r0, #2752]
	str	r3, [sp, #80]
	ldr.w	r3, [r0, #2784]
	orrs	r1, r2
	str	r3, [sp, #76]
	beq	.LBB88_155
	ldr	r0, [r0, #24]
	bl	tlsf_memory_dealloc
.LBB88_155:
	orrs.w	r0, r7, r9
	beq	.LBB88_157
	mov	r0, r6
	bl	tlsf_memory_dealloc
.LBB88_157:
	ldr	r6, [sp, #68]
	orrs.w	r0, r8, r11
	beq	.LBB88_159
	ldr	r0, [sp, #60]
	bl	tlsf_memory_dealloc
.LBB88_159:
	ldrd	r1, r0, [sp, #76]
	orrs	r0, r1
	beq	.LBB88_152
	ldr	r0, [sp, #64]
	bl	tlsf_memory_dealloc
	b	.LBB88_152
.LBB88_161:
	ldrd	r1, r0, [sp, #48]
	orrs	r0, r1
	beq.w	.LBB88_27
	ldr	r0, [sp, #56]
	bl	tlsf_memory_dealloc
	b.w	.LBB88_27
.LBB88_163:
	mov	r0, r5
	bl	tlsf_memory_dealloc
	ldr	r0, [sp, #928]
	ldr.w	r9, [sp, #932]
	mov	r5, r6
	b	.LBB88_133
.LBB88_164:
	mov	r0, r11
	bl	tlsf_memory_dealloc
	ldr	r0, [sp, #928]
	ldr	r6, [sp, #932]
	mov	r11, r4
	str	r0, [sp, #72]
	b	.LBB88_148
.LBB88_165:
	.inst.n	0xdefe
.Lfunc_end88:
	.size	tlsf_pools_open, .Lfunc_end88-tlsf_pools_open
	.cfi_endproc
	.section	.text.tlsf_pools_part,"ax",%progbits
	.globl	tlsf_pools_part
	.p2align	2
	.type	tlsf_pools_part,%function
	.code	16
	.thumb_func
tlsf_pools_part:
	.cfi_startproc
	push	{r4, r5, r6, r7, lr}
	.cfi_def_cfa_offset 20
	.cfi_offset lr, -4
	.cfi_offset r7, -8
	.cfi_offset r6, -12
	.cfi_offset r5, -16
	.cfi_offset r4, -20
	sub	sp, #4
	.cfi_def_cfa_offset 24
	ldrb	r5, [r0, #8]
	ldr	r7, [r2]
	cbz	r5, .LBB89_6
	ldr	r0, [r0]
	ldrb	r5, [r0, #1]
	cbz	r5, .LBB89_6
	ldrb	r5, [r0]
	cmp	r5, #1
	bne	.LBB89_7
	ldrd	r5, r4, [r0, #32]
	movs	r6, #0
	subs	r5, r1, r5
	sbcs.w	r5, r6, r4
	strb	r6, [r0, #1]
	bhs	.LBB89_5
	ldr	r7, [r0, #24]
	movw	r6, #2792
	mul	r5, r1, r6
	mla	r1, r1, r6, r7
	ldr	r6, [r7, r5]
	ldr	r7, [r1, #24]
	movs	r1, #1
	strb	r1, [r0, #1]
	str	r6, [r3]
	movs	r0, #0
	b	.LBB89_9
.LBB89_5:
	movs	r1, #1
	strb	r1, [r0, #1]
	movs	r0, #4
	b	.LBB89_9
.LBB89_6:
	movs	r0, #0
	b	.LBB89_8
.LBB89_7:
	movs	r0, #2
.LBB89_8:
	mov	r5, r2
	bl	tlsf_c.call_fault.CallFault.refusal
	mov	r2, r5
.LBB89_9:
	str	r7, [r2]
	add	sp, #4
	pop	{r4, r5, r6, r7, pc}
.Lfunc_end89:
	.size	tlsf_pools_part, .Lfunc_end89-tlsf_pools_part
	.cfi_endproc
	.section	.text.tlsf_pools_place,"ax",%progbits
	.globl	tlsf_pools_place
	.p2align	2
	.type	tlsf_pools_place,%function
	.code	16
	.thumb_func
tlsf_pools_place:
	.cfi_startproc
	push	{r4, r5, r6, r7, lr}
	.cfi_def_cfa_offset 20
	.cfi_offset lr, -4
	.cfi_offset r7, -8
	.cfi_offset r6, -12
	.cfi_offset r5, -16
	.cfi_offset r4, -20
	ldrb	r4, [r0, #8]
	cmp	r4, #0
	beq	.LBB90_9
	ldr	r5, [r0]
	ldrb	r4, [r5, #1]
	cmp	r4, #0
	beq	.LBB90_9
	ldrb	r4, [r5]
	cmp	r4, #1
	bne	.LBB90_10
	ldrd	r4, r0, [r5, #32]
	ldr.w	r12, [sp, #20]
	mov.w	lr, #0
	subs	r4, r1, r4
	sbcs.w	r0, lr, r0
	strb.w	lr, [r5, #1]
	bhs	.LBB90_8
	ldr	r0, [r5, #24]
	movw	lr, #2792
	mul	r4, r1, lr
	mla	r1, r1, lr, r0
	ldr.w	lr, [r0, r4]
	ldrb	r0, [r5, #8]
	ldr	r4, [r1, #32]
	cmp	r0, #0
	cmp	r2, r4
	bhs	.LBB90_8
	ldr	r0, [r1, #48]
	mvn	r4, #7
	and.w	r4, r4, r2, lsr #3
	adds	r6, r0, r4
	ldr	r6, [r6, #4]
	ldr	r0, [r0, r4]
	and	r4, r2, #63
	rsb.w	r7, r4, #32
	lsrs	r0, r4
	lsl.w	r7, r6, r7
	orrs	r0, r7
	subs	r4, #32
	it	pl
	lsrpl.w	r0, r6, r4
	lsls	r0, r0, #31
	beq	.LBB90_8
	ldr	r1, [r1, #24]
	ldrb.w	r0, [r1, r2, lsl #3]
	lsls	r0, r0, #31
	bne	.LBB90_8
	add.w	r1, r1, r2, lsl #3
	ldrd	r0, r4, [r1, #8]
	ldr	r1, [r1, #16]
	movs	r6, #1
	strb	r6, [r5, #1]
	str	r0, [r3, #8]
	movs	r0, #0
	str.w	lr, [r3]
	str	r2, [r3, #4]
	str	r4, [r3, #12]
	str.w	r1, [r12]
	pop	{r4, r5, r6, r7, pc}
.LBB90_8:
	movs	r0, #1
	strb	r0, [r5, #1]
	movs	r0, #4
	pop	{r4, r5, r6, r7, pc}
.LBB90_9:
	movs	r0, #0
	pop.w	{r4, r5, r6, r7, lr}
	b	tlsf_c.call_fault.CallFault.refusal
.LBB90_10:
	movs	r0, #2
	pop.w	{r4, r5, r6, r7, lr}
	b	tlsf_c.call_fault.CallFault.refusal
.Lfunc_end90:
	.size	tlsf_pools_place, .Lfunc_end90-tlsf_pools_place
	.cfi_endproc
	.section	.text.tlsf_pools_read,"ax",%progbits
	.globl	tlsf_pools_read
	.p2align	2
	.type	tlsf_pools_read,%function
	.code	16
	.thumb_func
tlsf_pools_read:
	.cfi_startproc
	push.w	{r4, r5, r6, r7, r8, r9, r10, r11, lr}
	.cfi_def_cfa_offset 36
	.cfi_offset lr, -4
	.cfi_offset r11, -8
	.cfi_offset r10, -12
	.cfi_offset r9, -16
	.cfi_offset r8, -20
	.cfi_offset r7, -24
	.cfi_offset r6, -28
	.cfi_offset r5, -32
	.cfi_offset r4, -36
	sub	sp, #12
	.cfi_def_cfa_offset 48
	mov	r12, r3
	ldr	r3, [sp, #60]
	ldrb	r1, [r0, #8]
	cmp	r3, #0
	it	eq
	addeq.w	r3, r3, #4096
	cmp	r1, #0
	beq.w	.LBB91_23
	ldr	r4, [r0]
	ldrb	r0, [r4, #1]
	cmp	r0, #0
	beq.w	.LBB91_23
	ldrb	r0, [r4]
	cmp	r0, #1
	bne.w	.LBB91_25
	ldrb	r1, [r4, #8]
	mov	lr, r2
	ldr.w	r8, [sp, #64]
	ldr	r2, [sp, #56]
	ldrd	r10, r11, [sp, #48]
	ldr	r0, [r4, #24]
	cmp	r1, #0
	ldr	r1, [r4, #16]
	mov.w	r5, #0
	strb	r5, [r4, #1]
	beq	.LBB91_13
	cmp	lr, r1
	blo.w	.LBB91_22
	ldrd	r6, r7, [r4, #32]
	sub.w	r5, lr, r1
	subs	r1, r5, r6
	mov.w	r1, #0
	sbcs	r1, r7
	bhs.w	.LBB91_22
	movw	r9, #2792
	mul	r1, r5, r9
	ldr	r1, [r0, r1]
	cmp	r1, lr
	bne.w	.LBB91_24
	mla	r0, r5, r9, r0
	ldr	r1, [r0, #32]
	cmp	r12, r1
	mov	r1, lr
	bhs.w	.LBB91_24
	ldr	r1, [r0, #48]
	mvn	r5, #7
	and.w	r5, r5, r12, lsr #3
	adds	r6, r1, r5
	ldr	r6, [r6, #4]
	ldr	r1, [r1, r5]
	and	r5, r12, #63
	rsb.w	r7, r5, #32
	lsrs	r1, r5
	lsl.w	r7, r6, r7
	orrs	r1, r7
	subs	r5, #32
	it	pl
	lsrpl.w	r1, r6, r5
	lsls	r1, r1, #31
	mov	r1, lr
	beq	.LBB91_24
	adds	r0, #24
	ldr	r5, [r0]
	ldrb.w	r1, [r5, r12, lsl #3]
	lsls	r1, r1, #31
	mov	r1, lr
	bne	.LBB91_24
	add.w	r5, r5, r12, lsl #3
	ldrd	r1, r6, [r5, #8]
	eor.w	r6, r6, r11
	eor.w	r1, r1, r10
	orrs	r1, r6
	mov	r1, lr
	bne	.LBB91_24
	ldr	r1, [r5, #16]
	adds.w	r6, r8, r2
	mov.w	r7, #0
	adc	r5, r7, #0
	subs	r1, r1, r6
	sbcs.w	r1, r7, r5
	blo	.LBB91_21
	mov	r1, r12
	strd	r8, r7, [sp]
	bl	tlsf_heap.region.Region.read.5
	b	.LBB91_28
.LBB91_13:
	cmp	lr, r1
	blo	.LBB91_22
	ldrd	r6, r7, [r4, #32]
	sub.w	r5, lr, r1
	subs	r1, r5, r6
	mov.w	r1, #0
	sbcs	r1, r7
	bhs	.LBB91_22
	movw	r9, #2792
	mul	r1, r5, r9
	ldr	r1, [r0, r1]
	cmp	r1, lr
	bne	.LBB91_24
	mla	r0, r5, r9, r0
	ldr	r1, [r0, #32]
	cmp	r12, r1
	mov	r1, lr
	bhs	.LBB91_24
	ldr	r1, [r0, #48]
	mvn	r5, #7
	and.w	r5, r5, r12, lsr #3
	adds	r6, r1, r5
	ldr	r6, [r6, #4]
	ldr	r1, [r1, r5]
	and	r5, r12, #63
	rsb.w	r7, r5, #32
	lsrs	r1, r5
	lsl.w	r7, r6, r7
	orrs	r1, r7
	subs	r5, #32
	it	pl
	lsrpl.w	r1, r6, r5
	lsls	r1, r1, #31
	mov	r1, lr
	beq	.LBB91_24
	adds	r0, #24
	ldr	r5, [r0]
	ldrb.w	r1, [r5, r12, lsl #3]
	lsls	r1, r1, #31
	mov	r1, lr
	bne	.LBB91_24
	add.w	r5, r5, r12, lsl #3
	ldrd	r1, r6, [r5, #8]
	eor.w	r6, r6, r11
	eor.w	r1, r1, r10
	orrs	r1, r6
	mov	r1, lr
	bne	.LBB91_24
	ldr	r1, [r5, #16]
	adds.w	r6, r8, r2
	mov.w	r7, #0
	adc	r5, r7, #0
	subs	r1, r1, r6
	sbcs.w	r1, r7, r5
	bhs	.LBB91_27
.LBB91_21:
	movs	r0, #1
	strb	r0, [r4, #1]
	movs	r0, #7
	add	sp, #12
	pop.w	{r4, r5, r6, r7, r8, r9, r10, r11, pc}
.LBB91_22:
	movs	r0, #1
	strb	r0, [r4, #1]
	movs	r0, #3
	add	sp, #12
	pop.w	{r4, r5, r6, r7, r8, r9, r10, r11, pc}
.LBB91_23:
	movs	r0, #0
	b	.LBB91_26
.LBB91_24:
	mov	r0, lr
	bl	tlsf_heap.refusal.Refusal.of_name
	uxtb	r0, r0
	movs	r1, #1
	cmp	r0, #3
	mov.w	r0, #3
	strb	r1, [r4, #1]
	it	eq
	moveq	r0, #4
	add	sp, #12
	pop.w	{r4, r5, r6, r7, r8, r9, r10, r11, pc}
.LBB91_25:
	movs	r0, #2
.LBB91_26:
	add	sp, #12
	pop.w	{r4, r5, r6, r7, r8, r9, r10, r11, lr}
	b	tlsf_c.call_fault.CallFault.refusal
.LBB91_27:
	mov	r1, r12
	strd	r8, r7, [sp]
	bl	tlsf_heap.region.Region.read.4
.LBB91_28:
	movs	r0, #1
	strb	r0, [r4, #1]
	movs	r0, #0
	add	sp, #12
	pop.w	{r4, r5, r6, r7, r8, r9, r10, r11, pc}
.Lfunc_end91:
	.size	tlsf_pools_read, .Lfunc_end91-tlsf_pools_read
	.cfi_endproc
	.section	.text.tlsf_pools_release,"ax",%progbits
	.globl	tlsf_pools_release
	.p2align	2
	.type	tlsf_pools_release,%function
	.code	16
	.thumb_func
tlsf_pools_release:
	.cfi_startproc
	push.w	{r4, r5, r6, r7, r8, r9, r10, r11, lr}
	.cfi_def_cfa_offset 36
	.cfi_offset lr, -4
	.cfi_offset r11, -8
	.cfi_offset r10, -12
	.cfi_offset r9, -16
	.cfi_offset r8, -20
	.cfi_offset r7, -24
	.cfi_offset r6, -28
	.cfi_offset r5, -32
	.cfi_offset r4, -36
	sub	sp, #36
	.cfi_def_cfa_offset 72
	ldrb	r1, [r0, #8]
	cmp	r1, #0
	beq.w	.LBB92_25
	ldr	r4, [r0]
	ldrb	r0, [r4, #1]
	cmp	r0, #0
	beq.w	.LBB92_25
	ldrb	r0, [r4]
	cmp	r0, #1
	bne.w	.LBB92_28
	ldrb	r1, [r4, #8]
	ldrd	lr, r9, [sp, #72]
	ldr	r0, [r4, #24]
	cmp	r1, #0
	ldr	r1, [r4, #16]
	mov.w	r7, #0
	strb	r7, [r4, #1]
	beq	.LBB92_14
	cmp	r2, r1
	blo.w	.LBB92_24
	ldrd	r6, r5, [r4, #32]
	subs	r7, r2, r1
	subs	r1, r7, r6
	mov.w	r1, #0
	sbcs	r1, r5
	bhs.w	.LBB92_24
	movw	r12, #2792
	mul	r1, r7, r12
	ldr	r1, [r0, r1]
	cmp	r1, r2
	bne.w	.LBB92_27
	mla	r8, r7, r12, r0
	mov	r1, r2
	ldr.w	r0, [r8, #32]
	cmp	r3, r0
	bhs.w	.LBB92_27
	ldr.w	r0, [r8, #48]
	mvn	r1, #7
	and.w	r1, r1, r3, lsr #3
	adds	r7, r0, r1
	ldr	r7, [r7, #4]
	ldr	r0, [r0, r1]
	and	r1, r3, #63
	rsb.w	r6, r1, #32
	lsrs	r0, r1
	lsl.w	r6, r7, r6
	orrs	r0, r6
	subs	r1, #32
	it	pl
	lsrpl.w	r0, r7, r1
	lsls	r0, r0, #31
	mov	r1, r2
	beq.w	.LBB92_27
	add.w	r0, r8, #24
	ldr	r7, [r0]
	ldr.w	r12, [r7, r3, lsl #3]
	lsls.w	r1, r12, #31
	mov	r1, r2
	bne.w	.LBB92_27
	add.w	r10, r7, r3, lsl #3
	ldrd	r1, r5, [r10, #8]
	eor.w	r5, r5, r9
	eor.w	r1, r1, lr
	orrs	r1, r5
	mov	r1, r2
	bne.w	.LBB92_27
	ldrd	r1, r11, [r8, #8]
	and.w	r2, r1, r11
	adds	r2, #1
	beq	.LBB92_26
	ldr.w	r2, [r8, #16]
	ldr.w	r9, [r10, #4]
	ldr.w	r5, [r10, #16]
	lsr.w	r0, r12, #2
	sub.w	r2, r2, r12, lsr #2
	lsls.w	r6, r12, #30
	str.w	r2, [r8, #16]
	bmi.w	.LBB92_30
	adds	r2, r0, r3
	add.w	r6, r7, r2, lsl #3
	ldr.w	r2, [r7, r2, lsl #3]
	ldr	r6, [r6, #4]
	b	.LBB92_31
.LBB92_14:
	cmp	r2, r1
	blo	.LBB92_24
	ldrd	r5, r6, [r4, #32]
	subs	r7, r2, r1
	subs	r1, r7, r5
	mov.w	r1, #0
	sbcs	r1, r6
	bhs	.LBB92_24
	movw	r12, #2792
	mul	r1, r7, r12
	ldr	r1, [r0, r1]
	cmp	r1, r2
	bne	.LBB92_27
	mla	r8, r7, r12, r0
	mov	r1, r2
	ldr.w	r0, [r8, #32]
	cmp	r3, r0
	bhs	.LBB92_27
	ldr.w	r0, [r8, #48]
	mvn	r1, #7
	and.w	r1, r1, r3, lsr #3
	adds	r7, r0, r1
	ldr	r7, [r7, #4]
	ldr	r0, [r0, r1]
	and	r1, r3, #63
	rsb.w	r6, r1, #32
	lsrs	r0, r1
	lsl.w	r6, r7, r6
	orrs	r0, r6
	subs	r1, #32
	it	pl
	lsrpl.w	r0, r7, r1
	lsls	r0, r0, #31
	mov	r1, r2
	beq	.LBB92_27
	add.w	r0, r8, #24
	ldr	r7, [r0]
	ldr.w	r12, [r7, r3, lsl #3]
	lsls.w	r1, r12, #31
	mov	r1, r2
	bne	.LBB92_27
	add.w	r10, r7, r3, lsl #3
	ldrd	r1, r5, [r10, #8]
	eor.w	r5, r5, r9
	eor.w	r1, r1, lr
	orrs	r1, r5
	mov	r1, r2
	bne	.LBB92_27
	ldrd	r1, r11, [r8, #8]
	and.w	r2, r1, r11
	adds	r2, #1
	beq	.LBB92_26
	ldr.w	r2, [r8, #16]
	ldr.w	r9, [r10, #4]
	ldr.w	r5, [r10, #16]
	lsr.w	r0, r12, #2
	sub.w	r2, r2, r12, lsr #2
	lsls.w	r6, r12, #30
	str.w	r2, [r8, #16]
	bmi	.LBB92_36
	adds	r2, r0, r3
	add.w	r6, r7, r2, lsl #3
	ldr.w	r2, [r7, r2, lsl #3]
	ldr	r6, [r6, #4]
	b	.LBB92_37
.LBB92_24:
	movs	r0, #1
	strb	r0, [r4, #1]
	movs	r0, #3
	add	sp, #36
	pop.w	{r4, r5, r6, r7, r8, r9, r10, r11, pc}
.LBB92_25:
	movs	r0, #0
	b	.LBB92_29
.LBB92_26:
	movs	r0, #1
	strb	r0, [r4, #1]
	movs	r0, #2
	add	sp, #36
	pop.w	{r4, r5, r6, r7, r8, r9, r10, r11, pc}
.LBB92_27:
	mov	r0, r2
	bl	tlsf_heap.refusal.Refusal.of_name
	uxtb	r0, r0
	movs	r1, #1
	cmp	r0, #3
	mov.w	r0, #3
	strb	r1, [r4, #1]
	it	eq
	moveq	r0, #4
	add	sp, #36
	pop.w	{r4, r5, r6, r7, r8, r9, r10, r11, pc}
.LBB92_28:
	movs	r0, #2
.LBB92_29:
	add	sp, #36
	pop.w	{r4, r5, r6, r7, r8, r9, r10, r11, lr}
	b	tlsf_c.call_fault.CallFault.refusal
.LBB92_30:
	movs	r2, #0
	movs	r6, #0
.LBB92_31:
	str	r6, [sp, #32]
	cmp	r3, #0
	itt	ne
	ldrne.w	lr, [r7, r9, lsl #3]
	lslsne.w	r6, lr, #31
	bne.w	.LBB92_41
	lsls	r7, r2, #31
	bne	.LBB92_35
	orr	r2, r12, #1
	strd	r2, r9, [r10]
	strd	r1, r11, [r10, #8]
	ldrd	r2, r1, [r8, #8]
	mov.w	r12, #-1
	adds	r2, #1
	adc	r1, r1, #0
	strd	r2, r1, [r8, #8]
	orr	r1, r0, #32
	clz	r1, r1
	rsb.w	r1, r1, #26
	lsr.w	r2, r0, r1
	add.w	r1, r2, r1, lsl #5
	add.w	r0, r8, r1, lsl #2
	ldr.w	r6, [r0, #168]
	lsls	r7, r3, #3
	cmp.w	r6, #-1
	str.w	r3, [r0, #168]
	ble.w	.LBB92_43
	add.w	r2, r8, #24
	adds.w	r0, r12, r6
	ldr	r2, [r2]
	adc	r1, r12, #0
	adds	r0, #1
	sbc	r1, r1, #0
	add	r7, r2
	strd	r0, r1, [r7, #16]
	add.w	r0, r2, r6, lsl #3
	str	r3, [r0, #20]
	b	.LBB92_44
.LBB92_35:
	adds	r0, r1, #1
	adc	r7, r11, #0
	strd	r0, r7, [r8, #8]
	strd	r12, r9, [sp]
	strd	r1, r11, [sp, #8]
	mov	r1, r3
	ldr	r3, [sp, #32]
	add.w	r0, r8, #24
	str	r1, [sp, #16]
	bl	tlsf_heap.fitting.merge_next.5
	b	.LBB92_44
.LBB92_36:
	movs	r2, #0
	movs	r6, #0
.LBB92_37:
	str	r6, [sp, #32]
	cmp	r3, #0
	itt	ne
	ldrne.w	lr, [r7, r9, lsl #3]
	lslsne.w	r6, lr, #31
	bne.w	.LBB92_54
	lsls	r7, r2, #31
	bne	.LBB92_42
	orr	r2, r12, #1
	strd	r2, r9, [r10]
	strd	r1, r11, [r10, #8]
	ldrd	r2, r1, [r8, #8]
	mov.w	r12, #-1
	adds	r2, #1
	adc	r1, r1, #0
	strd	r2, r1, [r8, #8]
	orr	r1, r0, #16
	clz	r1, r1
	rsb.w	r1, r1, #27
	lsr.w	r2, r0, r1
	add.w	r1, r2, r1, lsl #4
	add.w	r0, r8, r1, lsl #2
	ldr.w	r6, [r0, #168]
	lsls	r7, r3, #3
	cmp.w	r6, #-1
	str.w	r3, [r0, #168]
	ble.w	.LBB92_55
	add.w	r2, r8, #24
	adds.w	r0, r12, r6
	ldr	r2, [r2]
	adc	r1, r12, #0
	adds	r0, #1
	sbc	r1, r1, #0
	add	r7, r2
	strd	r0, r1, [r7, #16]
	add.w	r0, r2, r6, lsl #3
	str	r3, [r0, #20]
	b	.LBB92_56
.LBB92_41:
	add.w	r0, r7, r9, lsl #3
	ldr	r0, [r0, #4]
	adds	r6, r1, #1
	adc	r7, r11, #0
	strd	r6, r7, [r8, #8]
	strd	r12, r9, [sp, #24]
	strd	lr, r0, [sp]
	strd	r1, r11, [sp, #8]
	mov	r1, r3
	ldr	r3, [sp, #32]
	add.w	r0, r8, #24
	str	r1, [sp, #16]
	bl	tlsf_heap.fitting.merge_before.5
	b	.LBB92_44
.LBB92_42:
	adds	r0, r1, #1
	adc	r7, r11, #0
	strd	r0, r7, [r8, #8]
	strd	r12, r9, [sp]
	strd	r1, r11, [sp, #8]
	mov	r1, r3
	ldr	r3, [sp, #32]
	add.w	r0, r8, #24
	str	r1, [sp, #16]
	bl	tlsf_heap.fitting.merge_next.4
	b	.LBB92_56
.LBB92_43:
	ldr.w	r0, [r8, #24]
	movs	r6, #1
	add	r0, r7
	strd	r12, r12, [r0, #16]
	lsrs	r0, r1, #5
	ldr.w	r1, [r8, #80]
	add.w	r3, r8, r0, lsl #2
	lsl.w	r0, r6, r0
	orrs	r0, r1
	ldr	r7, [r3, #84]
	str.w	r0, [r8, #80]
	and	r0, r2, #31
	lsl.w	r0, r6, r0
	orrs	r0, r7
	str	r0, [r3, #84]
.LBB92_44:
	ldr.w	r2, [r8, #2744]
	ldr.w	r3, [r8, #2748]
	orrs.w	r0, r2, r3
	beq.w	.LBB92_70
	ldr.w	r12, [r8, #2768]
	ldr.w	r7, [r8, #2736]
	movs	r1, #0
.LBB92_46:
	add.w	r6, r7, r1, lsl #3
	ldr	r0, [r6, #4]
	cmp	r0, r5
	bhs.w	.LBB92_69
	eor	r0, r2, #1
	orrs	r0, r3
	beq.w	.LBB92_70
	ldr	r0, [r6, #12]
	cmp	r0, r5
	bhs	.LBB92_66
	eor	r0, r2, #2
	orrs	r0, r3
	beq	.LBB92_70
	ldr	r0, [r6, #20]
	cmp	r0, r5
	bhs	.LBB92_67
	eor	r0, r2, #3
	orrs	r0, r3
	beq	.LBB92_70
	ldr	r0, [r6, #28]
	cmp	r0, r5
	bhs	.LBB92_68
	subs	r2, #4
	sbc	r3, r3, #0
	orrs.w	r0, r2, r3
	add.w	r1, r1, #4
	bne	.LBB92_46
	b	.LBB92_70
.LBB92_54:
	add.w	r0, r7, r9, lsl #3
	ldr	r0, [r0, #4]
	adds	r6, r1, #1
	adc	r7, r11, #0
	strd	r6, r7, [r8, #8]
	strd	r12, r9, [sp, #24]
	strd	lr, r0, [sp]
	strd	r1, r11, [sp, #8]
	mov	r1, r3
	ldr	r3, [sp, #32]
	add.w	r0, r8, #24
	str	r1, [sp, #16]
	bl	tlsf_heap.fitting.merge_before.4
	b	.LBB92_56
.LBB92_55:
	ldr.w	r0, [r8, #24]
	movs	r6, #1
	add	r0, r7
	strd	r12, r12, [r0, #16]
	lsrs	r0, r1, #4
	ldr.w	r1, [r8, #80]
	add.w	r3, r8, r0, lsl #2
	lsl.w	r0, r6, r0
	orrs	r0, r1
	ldr	r7, [r3, #84]
	str.w	r0, [r8, #80]
	and	r0, r2, #15
	lsl.w	r0, r6, r0
	orrs	r0, r7
	str	r0, [r3, #84]
.LBB92_56:
	ldr.w	r2, [r8, #2744]
	ldr.w	r3, [r8, #2748]
	orrs.w	r0, r2, r3
	beq	.LBB92_70
	ldr.w	r12, [r8, #2768]
	ldr.w	r7, [r8, #2736]
	movs	r1, #0
.LBB92_58:
	add.w	r6, r7, r1, lsl #3
	ldr	r0, [r6, #4]
	cmp	r0, r5
	bhs	.LBB92_69
	eor	r0, r2, #1
	orrs	r0, r3
	beq	.LBB92_70
	ldr	r0, [r6, #12]
	cmp	r0, r5
	bhs	.LBB92_66
	eor	r0, r2, #2
	orrs	r0, r3
	beq	.LBB92_70
	ldr	r0, [r6, #20]
	cmp	r0, r5
	bhs	.LBB92_67
	eor	r0, r2, #3
	orrs	r0, r3
	beq	.LBB92_70
	ldr	r0, [r6, #28]
	cmp	r0, r5
	bhs	.LBB92_68
	subs	r2, #4
	sbc	r3, r3, #0
	orrs.w	r0, r2, r3
	add.w	r1, r1, #4
	bne	.LBB92_58
	b	.LBB92_70
.LBB92_66:
	adds	r1, #1
	b	.LBB92_69
.LBB92_67:
	adds	r1, #2
	b	.LBB92_69
.LBB92_68:
	adds	r1, #3
.LBB92_69:
	ldr.w	r0, [r12, r1, lsl #2]
	subs	r0, #1
	str.w	r0, [r12, r1, lsl #2]
.LBB92_70:
	movs	r0, #1
	strb	r0, [r4, #1]
	movs	r0, #0
	add	sp, #36
	pop.w	{r4, r5, r6, r7, r8, r9, r10, r11, pc}
.Lfunc_end92:
	.size	tlsf_pools_release, .Lfunc_end92-tlsf_pools_release
	.cfi_endproc
	.section	.text.tlsf_pools_report,"ax",%progbits
	.globl	tlsf_pools_report
	.p2align	2
	.type	tlsf_pools_report,%function
	.code	16
	.thumb_func
tlsf_pools_report:
	.cfi_startproc
	push.w	{r4, r5, r6, r7, r8, r9, r10, r11, lr}
	.cfi_def_cfa_offset 36
	.cfi_offset lr, -4
	.cfi_offset r11, -8
	.cfi_offset r10, -12
	.cfi_offset r9, -16
	.cfi_offset r8, -20
	.cfi_offset r7, -24
	.cfi_offset r6, -28
	.cfi_offset r5, -32
	.cfi_offset r4, -36
	sub	sp, #100
	.cfi_def_cfa_offset 136
	ldrb	r3, [r0, #8]
	cmp	r3, #0
	beq	.LBB93_10
	ldr	r7, [r0]
	ldrb	r0, [r7, #1]
	cmp	r0, #0
	beq	.LBB93_10
	ldrb	r0, [r7]
	cmp	r0, #1
	bne	.LBB93_11
	ldrb	r6, [r7, #8]
	mov	r4, r2
	ldrd	r3, r2, [r7, #32]
	movs	r0, #0
	strb	r0, [r7, #1]
	cbz	r6, .LBB93_6
	subs	r3, r1, r3
	sbcs	r0, r2
	bhs	.LBB93_9
	ldr	r0, [r7, #24]
	movw	r2, #2792
	add	r5, sp, #48
	mla	r6, r1, r2, r0
	mov	r0, r5
	movs	r1, #0
	movs	r2, #48
	bl	tlsf_memory_set
	mov	r0, r5
	mov	r1, r6
	bl	tlsf_heap.heap.Heap.report.5
	b	.LBB93_8
.LBB93_6:
	subs	r3, r1, r3
	sbcs	r0, r2
	bhs	.LBB93_9
	ldr	r0, [r7, #24]
	movw	r2, #2792
	mov	r5, sp
	mla	r6, r1, r2, r0
	mov	r0, r5
	movs	r1, #0
	movs	r2, #48
	bl	tlsf_memory_set
	mov	r0, r5
	mov	r1, r6
	bl	tlsf_heap.heap.Heap.report.4
.LBB93_8:
	ldm.w	r5, {r0, r1, r2, r3, r6, r12, lr}
	ldrd	r8, r9, [r5, #28]
	ldrd	r10, r11, [r5, #40]
	movs	r5, #1
	strb	r5, [r7, #1]
	str	r0, [r4]
	movs	r0, #0
	str	r1, [r4, #4]
	str	r2, [r4, #8]
	str	r3, [r4, #12]
	str	r6, [r4, #16]
	str.w	r12, [r4, #20]
	str.w	lr, [r4, #24]
	str.w	r8, [r4, #28]
	str.w	r9, [r4, #32]
	str	r0, [r4, #36]
	str.w	r11, [r4, #44]
	str.w	r10, [r4, #40]
	add	sp, #100
	pop.w	{r4, r5, r6, r7, r8, r9, r10, r11, pc}
.LBB93_9:
	movs	r0, #1
	strb	r0, [r7, #1]
	movs	r0, #4
	add	sp, #100
	pop.w	{r4, r5, r6, r7, r8, r9, r10, r11, pc}
.LBB93_10:
	movs	r0, #0
	b	.LBB93_12
.LBB93_11:
	movs	r0, #2
.LBB93_12:
	add	sp, #100
	pop.w	{r4, r5, r6, r7, r8, r9, r10, r11, lr}
	b	tlsf_c.call_fault.CallFault.refusal
.Lfunc_end93:
	.size	tlsf_pools_report, .Lfunc_end93-tlsf_pools_report
	.cfi_endproc
	.section	.text.tlsf_pools_row,"ax",%progbits
	.globl	tlsf_pools_row
	.p2align	2
	.type	tlsf_pools_row,%function
	.code	16
	.thumb_func
tlsf_pools_row:
	.cfi_startproc
	push.w	{r4, r5, r6, r7, r8, r9, r10, r11, lr}
	.cfi_def_cfa_offset 36
	.cfi_offset lr, -4
	.cfi_offset r11, -8
	.cfi_offset r10, -12
	.cfi_offset r9, -16
	.cfi_offset r8, -20
	.cfi_offset r7, -24
	.cfi_offset r6, -28
	.cfi_offset r5, -32
	.cfi_offset r4, -36
	sub	sp, #8
	.cfi_def_cfa_offset 44
	ldrb	r3, [r0, #8]
	cmp	r3, #0
	beq.w	.LBB94_49
	ldr.w	r11, [r0]
	ldrb.w	r0, [r11, #1]
	cmp	r0, #0
	beq.w	.LBB94_49
	ldrb.w	r0, [r11]
	cmp	r0, #1
	bne.w	.LBB94_54
	str	r2, [sp]
	ldrb.w	r2, [r11, #8]
	ldr.w	r3, [r11, #24]
	ldrd	lr, r9, [r11, #32]
	movs	r0, #0
	cmp	r2, #0
	str	r3, [sp, #4]
	strb.w	r0, [r11, #1]
	beq	.LBB94_17
	orrs.w	r0, lr, r9
	beq.w	.LBB94_48
	movs	r7, #0
	mov.w	r12, #0
	b	.LBB94_7
	.p2align	2
.LBB94_6:
	adds	r7, #1
	adc	r12, r12, #0
	subs.w	r0, r7, lr
	sbcs.w	r0, r12, r9
	bhs.w	.LBB94_48
.LBB94_7:
	ldr	r0, [sp, #4]
	movw	r2, #2792
	mla	r0, r7, r2, r0
	ldr.w	r5, [r0, #2744]
	ldr.w	r6, [r0, #2748]
	orrs.w	r2, r5, r6
	beq	.LBB94_6
	ldr.w	r10, [r0, #2736]
	mov	r0, r5
	add.w	r3, r10, #28
	mov	r2, r6
.LBB94_9:
	ldr	r8, [r3, #-24]
	cmp	r8, r1
	bhs	.LBB94_30
	eor	r4, r0, #1
	orrs	r4, r2
	beq	.LBB94_6
	ldr	r4, [r3, #-16]
	cmp	r4, r1
	bhs	.LBB94_30
	eor	r4, r0, #2
	orrs	r4, r2
	beq	.LBB94_6
	ldr	r4, [r3, #-8]
	cmp	r4, r1
	bhs	.LBB94_30
	eor	r4, r0, #3
	orrs	r4, r2
	beq	.LBB94_6
	ldr	r4, [r3], #32
	cmp	r4, r1
	bhs	.LBB94_30
	subs	r0, #4
	sbc	r2, r2, #0
	orrs.w	r4, r0, r2
	bne	.LBB94_9
	b	.LBB94_6
.LBB94_17:
	orrs.w	r0, lr, r9
	beq.w	.LBB94_48
	movs	r7, #0
	movw	r12, #2792
	movs	r4, #0
	b	.LBB94_20
	.p2align	2
.LBB94_19:
	adds	r7, #1
	adc	r4, r4, #0
	subs.w	r0, r7, lr
	sbcs.w	r0, r4, r9
	bhs	.LBB94_48
.LBB94_20:
	ldr	r0, [sp, #4]
	mla	r3, r7, r12, r0
	ldr.w	r0, [r3, #2744]
	ldr.w	r8, [r3, #2748]
	orrs.w	r5, r0, r8
	beq	.LBB94_19
	ldr.w	r10, [r3, #2736]
	mov	r5, r0
	add.w	r3, r10, #28
	mov	r6, r8
.LBB94_22:
	ldr	r2, [r3, #-24]
	cmp	r2, r1
	bhs	.LBB94_39
	eor	r2, r5, #1
	orrs	r2, r6
	beq	.LBB94_19
	ldr	r2, [r3, #-16]
	cmp	r2, r1
	bhs	.LBB94_39
	eor	r2, r5, #2
	orrs	r2, r6
	beq	.LBB94_19
	ldr	r2, [r3, #-8]
	cmp	r2, r1
	bhs	.LBB94_39
	eor	r2, r5, #3
	orrs	r2, r6
	beq	.LBB94_19
	ldr	r2, [r3], #32
	cmp	r2, r1
	bhs	.LBB94_39
	subs	r5, #4
	sbc	r6, r6, #0
	orrs.w	r2, r5, r6
	bne	.LBB94_22
	b	.LBB94_19
.LBB94_30:
	movs	r4, #0
.LBB94_31:
	add.w	r0, r10, r4, lsl #3
	ldr	r2, [r0, #4]
	cmp	r2, r1
	bhs	.LBB94_53
	eor	r2, r5, #1
	orrs	r2, r6
	beq	.LBB94_48
	ldr	r2, [r0, #12]
	cmp	r2, r1
	bhs	.LBB94_50
	eor	r2, r5, #2
	orrs	r2, r6
	beq	.LBB94_48
	ldr	r2, [r0, #20]
	cmp	r2, r1
	bhs	.LBB94_51
	eor	r2, r5, #3
	orrs	r2, r6
	beq	.LBB94_48
	ldr	r0, [r0, #28]
	cmp	r0, r1
	bhs	.LBB94_52
	subs	r5, #4
	sbc	r6, r6, #0
	orrs.w	r0, r5, r6
	add.w	r4, r4, #4
	bne	.LBB94_31
	b	.LBB94_48
.LBB94_39:
	movs	r4, #0
.LBB94_40:
	add.w	r2, r10, r4, lsl #3
	ldr	r3, [r2, #4]
	cmp	r3, r1
	bhs	.LBB94_53
	eor	r3, r0, #1
	orrs.w	r3, r3, r8
	beq	.LBB94_48
	ldr	r3, [r2, #12]
	cmp	r3, r1
	bhs	.LBB94_50
	eor	r3, r0, #2
	orrs.w	r3, r3, r8
	beq	.LBB94_48
	ldr	r3, [r2, #20]
	cmp	r3, r1
	bhs	.LBB94_51
	eor	r3, r0, #3
	orrs.w	r3, r3, r8
	beq	.LBB94_48
	ldr	r2, [r2, #28]
	cmp	r2, r1
	bhs	.LBB94_52
	subs	r0, #4
	sbc	r8, r8, #0
	orrs.w	r2, r0, r8
	add.w	r4, r4, #4
	bne	.LBB94_40
.LBB94_48:
	movs	r0, #1
	strb.w	r0, [r11, #1]
	movs	r0, #5
	add	sp, #8
	pop.w	{r4, r5, r6, r7, r8, r9, r10, r11, pc}
.LBB94_49:
	movs	r0, #0
	b	.LBB94_55
.LBB94_50:
	adds	r4, #1
	b	.LBB94_53
.LBB94_51:
	adds	r4, #2
	b	.LBB94_53
.LBB94_52:
	adds	r4, #3
.LBB94_53:
	add.w	r0, r10, r4, lsl #3
	movs	r1, #1
	ldr	r0, [r0, #4]
	strb.w	r1, [r11, #1]
	ldr	r1, [sp]
	str	r0, [r1]
	movs	r0, #0
	add	sp, #8
	pop.w	{r4, r5, r6, r7, r8, r9, r10, r11, pc}
.LBB94_54:
	movs	r0, #2
.LBB94_55:
	add	sp, #8
	pop.w	{r4, r5, r6, r7, r8, r9, r10, r11, lr}
	b	tlsf_c.call_fault.CallFault.refusal
.Lfunc_end94:
	.size	tlsf_pools_row, .Lfunc_end94-tlsf_pools_row
	.cfi_endproc
	.section	.text.tlsf_pools_words,"ax",%progbits
	.globl	tlsf_pools_words
	.p2align	2
	.type	tlsf_pools_words,%function
	.code	16
	.thumb_func
tlsf_pools_words:
	.cfi_startproc
	push.w	{r4, r5, r6, r7, r8, r9, r10, r11, lr}
	.cfi_def_cfa_offset 36
	.cfi_offset lr, -4
	.cfi_offset r11, -8
	.cfi_offset r10, -12
	.cfi_offset r9, -16
	.cfi_offset r8, -20
	.cfi_offset r7, -24
	.cfi_offset r6, -28
	.cfi_offset r5, -32
	.cfi_offset r4, -36
	sub.w	sp, sp, #604
	.cfi_def_cfa_offset 640
	cmp	r1, #0
	sub.w	r7, r0, #6
	it	eq
	addeq.w	r1, r1, #4096
	cmn.w	r7, #2
	bhs	.LBB95_2
	movs	r0, #34
	add.w	sp, sp, #604
	pop.w	{r4, r5, r6, r7, r8, r9, r10, r11, pc}
.LBB95_2:
	cmp	r2, #64
	bhi.w	.LBB95_17
	mov	r8, r3
	mov	r3, sp
	mov	r5, r0
	mov	r0, r3
	mov	r6, r1
	movs	r1, #0
	mov	r7, r2
	movs	r2, #88
	bl	tlsf_memory_set
	add.w	r11, sp, #92
	mov	r0, r11
	movs	r1, #0
	mov.w	r2, #512
	bl	tlsf_memory_set
	mov	r12, r5
	mov	r2, r7
	cmp	r7, #0
	beq.w	.LBB95_12
	mov	r1, r6
	cmp	r2, #4
	and	lr, r2, #3
	bhs	.LBB95_6
	movs	r5, #0
	b	.LBB95_9
.LBB95_6:
	and	r9, r2, #124
	movs	r5, #0
	mov.w	r10, #-1
	movs	r0, #0
	.p2align	2
.LBB95_7:
	lsls	r3, r5, #4
	add.w	r6, r1, r5, lsl #4
	ldr	r3, [r1, r3]
	ldr	r7, [r6, #12]
	ldr	r6, [r6, #8]
	cmp	r7, #0
	it	ne
	movne	r6, r10
	add.w	r7, r11, r5, lsl #3
	str.w	r3, [r11, r5, lsl #3]
	orr	r3, r5, #1
	str	r6, [r7, #4]
	lsls	r6, r3, #4
	add.w	r7, r1, r3, lsl #4
	ldr	r6, [r1, r6]
	ldr	r4, [r7, #12]
	ldr	r7, [r7, #8]
	cmp	r4, #0
	it	ne
	movne	r7, r10
	add.w	r4, r11, r3, lsl #3
	str.w	r6, [r11, r3, lsl #3]
	orr	r3, r5, #2
	str	r7, [r4, #4]
	lsls	r4, r3, #4
	add.w	r6, r1, r3, lsl #4
	ldr	r4, [r1, r4]
	ldr	r7, [r6, #12]
	ldr	r6, [r6, #8]
	cmp	r7, #0
	it	ne
	movne	r6, r10
	add.w	r7, r11, r3, lsl #3
	str.w	r4, [r11, r3, lsl #3]
	orr	r3, r5, #3
	str	r6, [r7, #4]
	add.w	r6, r1, r3, lsl #4
	ldr	r7, [r6, #12]
	lsls	r4, r3, #4
	ldr	r4, [r1, r4]
	ldr	r6, [r6, #8]
	cmp	r7, #0
	it	ne
	movne	r6, r10
	adds	r5, #4
	add.w	r7, r11, r3, lsl #3
	str.w	r4, [r11, r3, lsl #3]
	adc	r0, r0, #0
	eor.w	r3, r5, r9
	orrs	r3, r0
	str	r6, [r7, #4]
	bne	.LBB95_7
	cmp.w	lr, #0
	beq	.LBB95_12
.LBB95_9:
	lsls	r0, r5, #4
	add.w	r3, r1, r5, lsl #4
	ldr	r4, [r1, r0]
	ldr	r0, [r3, #12]
	ldr	r3, [r3, #8]
	cmp	r0, #0
	mov.w	r0, #-1
	it	ne
	movne	r3, r0
	add.w	r6, r11, r5, lsl #3
	cmp.w	lr, #1
	str.w	r4, [r11, r5, lsl #3]
	str	r3, [r6, #4]
	beq	.LBB95_12
	adds	r3, r5, #1
	add.w	r6, r1, r3, lsl #4
	ldr	r7, [r6, #12]
	lsls	r4, r3, #4
	ldr	r4, [r1, r4]
	ldr	r6, [r6, #8]
	cmp	r7, #0
	it	eq
	moveq	r0, r6
	add.w	r6, r11, r3, lsl #3
	cmp.w	lr, #2
	str.w	r4, [r11, r3, lsl #3]
	str	r0, [r6, #4]
	beq	.LBB95_12
	adds	r0, r5, #2
	lsls	r3, r0, #4
	add.w	r7, r1, r0, lsl #4
	ldr	r1, [r1, r3]
	ldr	r3, [r7, #12]
	ldr	r7, [r7, #8]
	cmp	r3, #0
	add.w	r3, r11, r0, lsl #3
	it	ne
	movne.w	r7, #-1
	str.w	r1, [r11, r0, lsl #3]
	str	r7, [r3, #4]
.LBB95_12:
	mov	r0, sp
	add	r1, sp, #92
	movs	r3, #0
	cmp.w	r12, #4
	bne	.LBB95_14
	bl	tlsf_pool.sizes.split.rising_split.4
	b	.LBB95_15
.LBB95_14:
	bl	tlsf_pool.sizes.split.rising_split.5
.LBB95_15:
	ldrb.w	r0, [sp]
	cbz	r0, .LBB95_17
	ldr	r0, [sp, #640]
	ldrd	r2, r1, [sp, #80]
	ldr	r3, [sp, #8]
	strd	r2, r1, [r8]
	str	r3, [r0]
	movs	r0, #0
	add.w	sp, sp, #604
	pop.w	{r4, r5, r6, r7, r8, r9, r10, r11, pc}
.LBB95_17:
	movs	r0, #5
	add.w	sp, sp, #604
	pop.w	{r4, r5, r6, r7, r8, r9, r10, r11, pc}
.Lfunc_end95:
	.size	tlsf_pools_words, .Lfunc_end95-tlsf_pools_words
	.cfi_endproc
	.section	.text.tlsf_post_close,"ax",%progbits
	.globl	tlsf_post_close
	.p2align	2
	.type	tlsf_post_close,%function
	.code	16
	.thumb_func
tlsf_post_close:
	.cfi_startproc
	ldrb	r1, [r0, #8]
	cbz	r1, .LBB96_4
	ldr	r1, [r0]
	ldrb	r2, [r1, #1]
	cmp	r2, #1
	bne	.LBB96_4
	ldrb	r2, [r1]
	cmp	r2, #0
	itt	ne
	movne	r0, #40
	bxne	lr
.LBB96_3:
	push	{r4, r5, r6, r7, lr}
	.cfi_def_cfa_offset 20
	.cfi_offset lr, -4
	.cfi_offset r7, -8
	.cfi_offset r6, -12
	.cfi_offset r5, -16
	.cfi_offset r4, -20
	sub	sp, #100
	.cfi_def_cfa_offset 120
	movs	r6, #0
	strb	r6, [r1, #1]
	ldr	r4, [r0]
	str	r6, [r0, #4]
	str	r6, [r0, #8]
	str	r6, [r0, #12]
	str	r6, [r0]
	mov	r1, r4
	add.w	r0, sp, #2
	ldrh	r7, [r1], #8
	adds	r5, r0, #6
	mov	r0, r5
	movs	r2, #40
	bl	tlsf_memory_cpy
	mov	r0, r4
	bl	tlsf_memory_dealloc
	add	r4, sp, #48
	add.w	r0, r4, #8
	mov	r1, r5
	movs	r2, #40
	strd	r6, r6, [sp, #48]
	strh.w	r7, [sp, #48]
	bl	tlsf_memory_cpy
	mov	r0, r4
	bl	tlsf_c.tlsf_c.any_end.AnyEnd.Destruct.drop
	mov	r0, r6
	add	sp, #100
	pop	{r4, r5, r6, r7, pc}
.LBB96_4:
	movs	r0, #32
	bx	lr
.Lfunc_end96:
	.size	tlsf_post_close, .Lfunc_end96-tlsf_post_close
	.cfi_endproc
	.section	.text.tlsf_poster_close,"ax",%progbits
	.globl	tlsf_poster_close
	.p2align	2
	.type	tlsf_poster_close,%function
	.code	16
	.thumb_func
tlsf_poster_close:
	.cfi_startproc
	ldrb	r1, [r0, #8]
	cbz	r1, .LBB97_4
	ldr	r1, [r0]
	ldrb	r2, [r1, #1]
	cmp	r2, #1
	bne	.LBB97_4
	ldrb	r2, [r1]
	cmp	r2, #3
	itt	ne
	movne	r0, #40
	bxne	lr
.LBB97_3:
	push	{r4, r5, r6, r7, lr}
	.cfi_def_cfa_offset 20
	.cfi_offset lr, -4
	.cfi_offset r7, -8
	.cfi_offset r6, -12
	.cfi_offset r5, -16
	.cfi_offset r4, -20
	sub	sp, #100
	.cfi_def_cfa_offset 120
	movs	r6, #0
	strb	r6, [r1, #1]
	ldr	r4, [r0]
	str	r6, [r0, #4]
	str	r6, [r0, #8]
	str	r6, [r0, #12]
	str	r6, [r0]
	mov	r1, r4
	add.w	r0, sp, #2
	ldrh	r7, [r1], #8
	adds	r5, r0, #6
	mov	r0, r5
	movs	r2, #40
	bl	tlsf_memory_cpy
	mov	r0, r4
	bl	tlsf_memory_dealloc
	add	r4, sp, #48
	add.w	r0, r4, #8
	mov	r1, r5
	movs	r2, #40
	strd	r6, r6, [sp, #48]
	strh.w	r7, [sp, #48]
	bl	tlsf_memory_cpy
	mov	r0, r4
	bl	tlsf_c.tlsf_c.any_end.AnyEnd.Destruct.drop
	mov	r0, r6
	add	sp, #100
	pop	{r4, r5, r6, r7, pc}
.LBB97_4:
	movs	r0, #32
	bx	lr
.Lfunc_end97:
	.size	tlsf_poster_close, .Lfunc_end97-tlsf_poster_close
	.cfi_endproc
	.section	.text.tlsf_poster_open,"ax",%progbits
	.globl	tlsf_poster_open
	.p2align	2
	.type	tlsf_poster_open,%function
	.code	16
	.thumb_func
tlsf_poster_open:
	.cfi_startproc
	push	{r7, lr}
	.cfi_def_cfa_offset 8
	.cfi_offset lr, -4
	.cfi_offset r7, -8
	ldrb	r2, [r0, #8]
	cbz	r2, .LBB98_8
	ldr	r2, [r0]
	ldrb	r0, [r2, #1]
	cbz	r0, .LBB98_8
	ldrb	r3, [r1, #8]
	ldrb	r0, [r2]
	cmp	r3, #1
	bne	.LBB98_4
	cmp	r0, #2
	mov.w	r0, #40
	it	eq
	moveq	r0, #33
	pop	{r7, pc}
.LBB98_4:
	cmp	r0, #2
	bne	.LBB98_9
	ldrd	lr, r12, [r2, #32]
	movs	r0, #0
	orrs.w	r3, lr, r12
	strb	r0, [r2, #1]
	beq	.LBB98_7
	subs.w	r3, lr, #1
	sbc	r12, r12, #0
	ldr.w	lr, [r2, #24]
	strd	r3, r12, [r2, #32]
	ldr.w	r3, [lr, r3, lsl #3]
	mov.w	r12, #1
	strb.w	r12, [r2, #1]
	str	r3, [r1]
	str	r0, [r1, #4]
	strb.w	r12, [r1, #8]
	str.w	r0, [r1, #9]
	str	r0, [r1, #12]
	pop	{r7, pc}
.LBB98_7:
	movs	r0, #1
	strb	r0, [r2, #1]
	movs	r0, #35
	pop	{r7, pc}
.LBB98_8:
	movs	r0, #0
	pop.w	{r7, lr}
	b	tlsf_c.call_fault.CallFault.refusal
.LBB98_9:
	movs	r0, #2
	pop.w	{r7, lr}
	b	tlsf_c.call_fault.CallFault.refusal
.Lfunc_end98:
	.size	tlsf_poster_open, .Lfunc_end98-tlsf_poster_open
	.cfi_endproc
	.section	.text.tlsf_put,"ax",%progbits
	.globl	tlsf_put
	.p2align	2
	.type	tlsf_put,%function
	.code	16
	.thumb_func
tlsf_put:
	.cfi_startproc
	push.w	{r4, r5, r6, r7, r8, r9, r10, r11, lr}
	.cfi_def_cfa_offset 36
	.cfi_offset lr, -4
	.cfi_offset r11, -8
	.cfi_offset r10, -12
	.cfi_offset r9, -16
	.cfi_offset r8, -20
	.cfi_offset r7, -24
	.cfi_offset r6, -28
	.cfi_offset r5, -32
	.cfi_offset r4, -36
	sub	sp, #4
	.cfi_def_cfa_offset 40
	ldrb	r1, [r0, #8]
	cmp	r1, #0
	beq.w	.LBB99_14
	ldr	r5, [r0]
	ldrb	r0, [r5, #1]
	cmp	r0, #0
	beq.w	.LBB99_14
	ldrb	r0, [r5]
	cmp	r0, #0
	bne.w	.LBB99_15
	add.w	r6, r5, #32
	mov	r8, r3
	ldm	r6, {r0, r1, r3, r6}
	mov	r9, r2
	ldrd	lr, r11, [sp, #40]
	ldrd	r2, r12, [r5, #24]
	subs	r4, r3, r0
	mov.w	r7, #0
	sbcs.w	r4, r6, r1
	strb	r7, [r5, #1]
	bhs	.LBB99_5
	lsl.w	r7, r12, #1
	orr.w	r7, r7, r2, lsr #31
	rsbs	r0, r0, r2, lsl #1
	sbc.w	r1, r7, r1
	adds	r0, r0, r3
	adcs	r1, r6
	b	.LBB99_6
.LBB99_5:
	subs	r0, r3, r0
	sbc.w	r1, r6, r1
.LBB99_6:
	eors	r0, r2
	eor.w	r1, r1, r12
	orrs	r0, r1
	bne	.LBB99_12
	ldr	r0, [r5, #8]
	movs	r1, #5
	mov	r4, lr
	bl	__atomic_load_8
	ldrd	r3, r6, [r5, #40]
	ldrd	r2, r12, [r5, #24]
	subs	r7, r3, r0
	sbcs.w	r7, r6, r1
	strd	r0, r1, [r5, #32]
	bhs	.LBB99_9
	lsl.w	r7, r12, #1
	orr.w	r7, r7, r2, lsr #31
	rsbs	r0, r0, r2, lsl #1
	sbc.w	r1, r7, r1
	adds	r0, r0, r3
	adcs	r1, r6
	b	.LBB99_10
.LBB99_9:
	subs	r0, r3, r0
	sbc.w	r1, r6, r1
.LBB99_10:
	eors	r0, r2
	eor.w	r1, r1, r12
	orrs	r0, r1
	mov	lr, r4
	bne	.LBB99_12
	movs	r0, #1
	mov.w	r10, #8
	b	.LBB99_13
.LBB99_12:
	lsl.w	r0, r12, #1
	mov.w	r1, #-1
	orr.w	r0, r0, r2, lsr #31
	adds.w	r1, r1, r2, lsl #1
	sbc	r0, r0, #0
	subs	r1, r3, r1
	sbcs.w	r0, r6, r0
	mov.w	r0, #0
	it	lo
	movlo	r0, #1
	adds	r7, r3, #1
	adc	r4, r6, #0
	cmp	r0, #0
	itt	eq
	moveq	r7, r0
	moveq	r4, r0
	subs	r0, r3, r2
	ldr	r1, [r5, #16]
	sbcs.w	r2, r6, r12
	it	lo
	movlo	r0, r3
	add.w	r0, r0, r0, lsl #1
	mov.w	r10, #0
	add.w	r2, r1, r0, lsl #3
	str.w	r10, [r1, r0, lsl #3]
	str.w	r10, [r2, #4]
	str.w	r9, [r2, #8]
	str.w	r8, [r2, #12]
	str.w	r11, [r2, #20]
	str.w	lr, [r2, #16]
	ldr	r0, [r5, #8]
	adds	r0, #128
	movs	r1, #5
	mov	r2, r7
	mov	r3, r4
	str	r1, [sp]
	bl	__atomic_store_8
	movs	r0, #1
	strd	r7, r4, [r5, #40]
.LBB99_13:
	strb	r0, [r5, #1]
	mov	r0, r10
	add	sp, #4
	pop.w	{r4, r5, r6, r7, r8, r9, r10, r11, pc}
.LBB99_14:
	movs	r0, #0
	b	.LBB99_16
.LBB99_15:
	movs	r0, #2
.LBB99_16:
	add	sp, #4
	pop.w	{r4, r5, r6, r7, r8, r9, r10, r11, lr}
	b	tlsf_c.call_fault.CallFault.refusal
.Lfunc_end99:
	.size	tlsf_put, .Lfunc_end99-tlsf_put
	.cfi_endproc
	.section	.text.tlsf_put_all,"ax",%progbits
	.globl	tlsf_put_all
	.p2align	2
	.type	tlsf_put_all,%function
	.code	16
	.thumb_func
tlsf_put_all:
	.cfi_startproc
	push.w	{r4, r5, r6, r7, r8, r9, r10, r11, lr}
	.cfi_def_cfa_offset 36
	.cfi_offset lr, -4
	.cfi_offset r11, -8
	.cfi_offset r10, -12
	.cfi_offset r9, -16
	.cfi_offset r8, -20
	.cfi_offset r7, -24
	.cfi_offset r6, -28
	.cfi_offset r5, -32
	.cfi_offset r4, -36
	sub.w	sp, sp, #828
	.cfi_def_cfa_offset 864
	ldrb	r7, [r0, #8]
	ldr	r6, [r3]
	cmp	r1, #0
	it	eq
	addeq.w	r1, r1, #4096
	cmp	r7, #0
	str	r1, [sp, #20]
	beq.w	.LBB100_32
	ldr	r5, [r0]
	ldrb	r0, [r5, #1]
	cmp	r0, #0
	beq.w	.LBB100_32
	ldrb	r0, [r5]
	cmp	r0, #0
	bne.w	.LBB100_33
	mov.w	r9, #0
	cmp	r2, #0
	strb.w	r9, [r5, #1]
	beq.w	.LBB100_29
	add.w	r11, sp, #56
	movs	r6, #0
	movs	r1, #0
	str	r3, [sp, #4]
	str	r5, [sp, #36]
	str	r2, [sp, #16]
	.p2align	2
.LBB100_5:
	ldr	r0, [sp, #20]
	subs	r5, r2, r6
	add.w	r8, r0, r6, lsl #4
	mov.w	r0, #0
	mov.w	r10, #32
	str	r6, [sp, #48]
	str	r1, [sp, #44]
	sbc.w	r6, r0, r1
	cmp	r5, #32
	it	lo
	movlo	r10, r5
	movs	r0, #32
	cmp	r6, #0
	it	ne
	movne	r10, r0
	mov	r0, r11
	movs	r1, #0
	mov.w	r2, #768
	bl	tlsf_memory_set
	cmp.w	r10, #1
	mov	r2, r10
	it	ls
	movls	r2, #1
	subs	r1, r5, #4
	sbcs	r1, r6, #0
	and	r12, r2, #3
	mov.w	r1, #0
	blo	.LBB100_9
	and	lr, r2, #60
	movs	r3, #0
	.p2align	2
.LBB100_7:
	add.w	r5, r8, r1, lsl #4
	lsls	r6, r1, #4
	ldr	r0, [r5, #4]
	ldr	r7, [r5, #8]
	add.w	r2, r1, r1, lsl #1
	ldr.w	r6, [r8, r6]
	ldr	r5, [r5, #12]
	add.w	r4, r11, r2, lsl #3
	strd	r0, r7, [r4, #12]
	orr	r0, r1, #1
	str.w	r9, [r11, r2, lsl #3]
	strd	r9, r6, [r4, #4]
	str	r5, [r4, #20]
	lsls	r2, r0, #4
	add.w	r4, r8, r0, lsl #4
	ldr.w	r2, [r8, r2]
	ldr	r5, [r4, #4]
	ldr	r6, [r4, #8]
	ldr	r4, [r4, #12]
	add.w	r0, r0, r0, lsl #1
	add.w	r7, r11, r0, lsl #3
	str.w	r9, [r11, r0, lsl #3]
	orr	r0, r1, #2
	strd	r9, r2, [r7, #4]
	str	r4, [r7, #20]
	lsls	r2, r0, #4
	add.w	r4, r8, r0, lsl #4
	strd	r5, r6, [r7, #12]
	ldr.w	r2, [r8, r2]
	ldr	r5, [r4, #4]
	ldr	r6, [r4, #8]
	ldr	r4, [r4, #12]
	add.w	r0, r0, r0, lsl #1
	add.w	r7, r11, r0, lsl #3
	str.w	r9, [r11, r0, lsl #3]
	orr	r0, r1, #3
	strd	r9, r2, [r7, #4]
	str	r4, [r7, #20]
	lsls	r2, r0, #4
	add.w	r4, r8, r0, lsl #4
	add.w	r0, r0, r0, lsl #1
	adds	r1, #4
	strd	r5, r6, [r7, #12]
	ldr.w	r2, [r8, r2]
	ldr	r5, [r4, #4]
	ldr	r6, [r4, #8]
	ldr	r4, [r4, #12]
	add.w	r7, r11, r0, lsl #3
	str.w	r9, [r11, r0, lsl #3]
	adc	r3, r3, #0
	eor.w	r0, r1, lr
	orrs	r0, r3
	strd	r9, r2, [r7, #4]
	strd	r5, r6, [r7, #12]
	str	r4, [r7, #20]
	bne	.LBB100_7
	cmp.w	r12, #0
	beq	.LBB100_12
.LBB100_9:
	lsls	r0, r1, #4
	add.w	r2, r8, r1, lsl #4
	ldr.w	r0, [r8, r0]
	ldr	r3, [r2, #4]
	ldr	r7, [r2, #8]
	ldr	r2, [r2, #12]
	add.w	r6, r1, r1, lsl #1
	add.w	r5, r11, r6, lsl #3
	cmp.w	r12, #1
	str.w	r9, [r11, r6, lsl #3]
	strd	r9, r0, [r5, #4]
	strd	r3, r7, [r5, #12]
	str	r2, [r5, #20]
	beq	.LBB100_12
	adds	r0, r1, #1
	lsls	r2, r0, #4
	add.w	r3, r8, r0, lsl #4
	ldr.w	r2, [r8, r2]
	ldr	r7, [r3, #4]
	ldr	r6, [r3, #8]
	ldr	r3, [r3, #12]
	add.w	r0, r0, r0, lsl #1
	add.w	r5, r11, r0, lsl #3
	cmp.w	r12, #2
	str.w	r9, [r11, r0, lsl #3]
	strd	r9, r2, [r5, #4]
	strd	r7, r6, [r5, #12]
	str	r3, [r5, #20]
	beq	.LBB100_12
	adds	r0, r1, #2
	lsls	r1, r0, #4
	add.w	r2, r8, r0, lsl #4
	ldr.w	r1, [r8, r1]
	ldr	r3, [r2, #4]
	ldr	r7, [r2, #8]
	ldr	r2, [r2, #12]
	add.w	r0, r0, r0, lsl #1
	add.w	r6, r11, r0, lsl #3
	str.w	r9, [r11, r0, lsl #3]
	strd	r9, r1, [r6, #4]
	strd	r3, r7, [r6, #12]
	str	r2, [r6, #20]
.LBB100_12:
	ldr	r5, [sp, #36]
	add.w	r8, r5, #32
	ldm.w	r8, {r0, r1, r8}
	ldr	r7, [r5, #44]
	ldrd	r6, r12, [r5, #24]
	subs.w	r2, r8, r0
	sbcs.w	r2, r7, r1
	bhs	.LBB100_14
	lsl.w	r2, r12, #1
	orr.w	r2, r2, r6, lsr #31
	rsbs	r0, r0, r6, lsl #1
	sbc.w	r1, r2, r1
	adds.w	r0, r0, r8
	adcs	r1, r7
	b	.LBB100_15
	.p2align	2
.LBB100_14:
	subs.w	r0, r8, r0
	sbc.w	r1, r7, r1
.LBB100_15:
	subs	r0, r6, r0
	sbc.w	r1, r12, r1
	subs.w	r0, r0, r10
	mov.w	r4, #0
	sbcs	r0, r1, #0
	str.w	r10, [sp, #52]
	bhs	.LBB100_20
	ldr	r0, [r5, #8]
	movs	r1, #5
	bl	__atomic_load_8
	ldrd	r8, r7, [r5, #40]
	ldrd	r6, r12, [r5, #24]
	subs.w	r2, r8, r0
	sbcs.w	r2, r7, r1
	strd	r0, r1, [r5, #32]
	bhs	.LBB100_18
	lsl.w	r2, r12, #1
	orr.w	r2, r2, r6, lsr #31
	rsbs	r0, r0, r6, lsl #1
	sbc.w	r1, r2, r1
	adds.w	r0, r0, r8
	adcs	r1, r7
	b	.LBB100_19
	.p2align	2
.LBB100_18:
	subs.w	r0, r8, r0
	sbc.w	r1, r7, r1
.LBB100_19:
	ldr	r2, [sp, #52]
	subs.w	r10, r6, r0
	sbc.w	r0, r12, r1
	subs.w	r1, r10, r2
	mov.w	r4, #0
	sbcs	r1, r0, #0
	it	hs
	movhs	r10, r2
	it	lo
	movlo	r4, #1
	cmp	r4, #0
	it	ne
	movne	r4, r0
.LBB100_20:
	orrs.w	r0, r10, r4
	beq	.LBB100_26
	subs.w	r0, r8, r6
	sbcs.w	r0, r7, r12
	mov	r1, r12
	mov	r0, r6
	itt	lo
	movlo	r1, #0
	movlo	r0, #0
	subs.w	r2, r8, r0
	str.w	r8, [sp, #32]
	sbc.w	r1, r7, r1
	subs.w	r8, r6, r2
	sbc.w	lr, r12, r1
	subs.w	r3, r8, r10
	str	r7, [sp, #28]
	sbcs.w	r3, lr, r4
	mov	r7, r10
	it	lo
	movlo	r7, r8
	ldr	r3, [r5, #8]
	eor.w	r1, r1, r12
	eors	r2, r6
	str	r3, [sp, #24]
	orrs	r1, r2
	ldr	r3, [r5, #16]
	add.w	r1, r7, r7, lsl #1
	str	r4, [sp, #40]
	beq	.LBB100_23
	lsls	r2, r1, #3
	str	r1, [sp, #8]
	ldr	r1, [sp, #32]
	sub.w	r0, r0, r0, lsl #2
	add.w	r1, r1, r1, lsl #1
	add.w	r0, r3, r0, lsl #3
	add.w	r0, r0, r1, lsl #3
	mov	r1, r11
	mov	r4, r12
	mov	r5, r3
	str.w	lr, [sp, #12]
	bl	tlsf_memory_cpy
	ldrd	r1, lr, [sp, #8]
	mov	r12, r4
	ldr	r4, [sp, #40]
	mov	r3, r5
.LBB100_23:
	subs.w	r0, r8, r10
	sbcs.w	r0, lr, r4
	bhs	.LBB100_25
	sub.w	r0, r10, r7
	add.w	r0, r0, r0, lsl #1
	add.w	r1, r11, r1, lsl #3
	lsls	r2, r0, #3
	mov	r0, r3
	mov	r4, r12
	mov	r5, r3
	bl	tlsf_memory_cpy
	mov	r12, r4
	ldr	r4, [sp, #40]
	mov	r3, r5
.LBB100_25:
	ldr	r7, [sp, #32]
	lsl.w	r0, r12, #1
	orr.w	r0, r0, r6, lsr #31
	rsbs	r1, r7, r6, lsl #1
	ldr	r6, [sp, #28]
	ldr	r5, [sp, #36]
	sbcs	r0, r6
	rsbs	r2, r1, #0
	ldr.w	lr, [sp, #24]
	str	r3, [r5, #16]
	sbc.w	r3, r9, r0
	subs.w	r1, r10, r1
	sbcs.w	r0, r4, r0
	str.w	lr, [r5, #8]
	str.w	r9, [r5, #12]
	str.w	r9, [r5, #20]
	itt	lo
	movlo	r3, r6
	movlo	r2, r7
	adds.w	r8, r2, r10
	adc.w	r7, r3, r4
	add.w	r0, lr, #128
	mov	r2, r8
	mov	r3, r7
	movs	r1, #5
	str	r1, [sp]
	bl	__atomic_store_8
	ldr	r4, [sp, #40]
.LBB100_26:
	ldr	r6, [sp, #48]
	ldr	r1, [sp, #44]
	ldr	r0, [sp, #52]
	adds.w	r6, r6, r10
	adcs	r1, r4
	subs.w	r0, r10, r0
	ldr	r2, [sp, #16]
	sbcs	r0, r4, #0
	strd	r8, r7, [r5, #40]
	blo	.LBB100_28
	subs	r0, r6, r2
	sbcs	r0, r1, #0
	blo.w	.LBB100_5
.LBB100_28:
	ldr	r3, [sp, #4]
	b	.LBB100_30
.LBB100_29:
	movs	r6, #0
.LBB100_30:
	movs	r0, #1
	strb	r0, [r5, #1]
	movs	r0, #0
.LBB100_31:
	str	r6, [r3]
	add.w	sp, sp, #828
	pop.w	{r4, r5, r6, r7, r8, r9, r10, r11, pc}
.LBB100_32:
	movs	r0, #0
	b	.LBB100_34
.LBB100_33:
	movs	r0, #2
.LBB100_34:
	mov	r4, r3
	bl	tlsf_c.call_fault.CallFault.refusal
	mov	r3, r4
	b	.LBB100_31
.Lfunc_end100:
	.size	tlsf_put_all, .Lfunc_end100-tlsf_put_all
	.cfi_endproc
	.section	.text.tlsf_queue_close,"ax",%progbits
	.globl	tlsf_queue_close
	.p2align	2
	.type	tlsf_queue_close,%function
	.code	16
	.thumb_func
tlsf_queue_close:
	.cfi_startproc
	ldrb	r1, [r0, #8]
	cbz	r1, .LBB101_4
	ldr	r1, [r0]
	ldrb	r2, [r1, #1]
	cmp	r2, #1
	bne	.LBB101_4
	ldrb	r2, [r1]
	cmp	r2, #2
	itt	ne
	movne	r0, #40
	bxne	lr
.LBB101_3:
	push	{r4, r5, r6, r7, lr}
	.cfi_def_cfa_offset 20
	.cfi_offset lr, -4
	.cfi_offset r7, -8
	.cfi_offset r6, -12
	.cfi_offset r5, -16
	.cfi_offset r4, -20
	sub	sp, #100
	.cfi_def_cfa_offset 120
	movs	r6, #0
	strb	r6, [r1, #1]
	ldr	r4, [r0]
	str	r6, [r0, #4]
	str	r6, [r0, #8]
	str	r6, [r0, #12]
	str	r6, [r0]
	mov	r1, r4
	add.w	r0, sp, #2
	ldrh	r7, [r1], #8
	adds	r5, r0, #6
	mov	r0, r5
	movs	r2, #40
	bl	tlsf_memory_cpy
	mov	r0, r4
	bl	tlsf_memory_dealloc
	add	r4, sp, #48
	add.w	r0, r4, #8
	mov	r1, r5
	movs	r2, #40
	strd	r6, r6, [sp, #48]
	strh.w	r7, [sp, #48]
	bl	tlsf_memory_cpy
	mov	r0, r4
	bl	tlsf_c.tlsf_c.any_end.AnyEnd.Destruct.drop
	mov	r0, r6
	add	sp, #100
	pop	{r4, r5, r6, r7, pc}
.LBB101_4:
	movs	r0, #32
	bx	lr
.Lfunc_end101:
	.size	tlsf_queue_close, .Lfunc_end101-tlsf_queue_close
	.cfi_endproc
	.section	.text.tlsf_queue_drain,"ax",%progbits
	.globl	tlsf_queue_drain
	.p2align	2
	.type	tlsf_queue_drain,%function
	.code	16
	.thumb_func
tlsf_queue_drain:
	.cfi_startproc
	push.w	{r4, r5, r6, r7, r8, r9, r10, r11, lr}
	.cfi_def_cfa_offset 36
	.cfi_offset lr, -4
	.cfi_offset r11, -8
	.cfi_offset r10, -12
	.cfi_offset r9, -16
	.cfi_offset r8, -20
	.cfi_offset r7, -24
	.cfi_offset r6, -28
	.cfi_offset r5, -32
	.cfi_offset r4, -36
	sub	sp, #44
	.cfi_def_cfa_offset 80
	mov	r5, r0
	ldrb	r0, [r0, #8]
	cmp	r0, #0
	beq	.LBB102_13
	ldr	r0, [r5]
	ldrb	r0, [r0]
	cmp	r0, #1
	bne	.LBB102_13
	ldrb	r0, [r1, #8]
	cbz	r0, .LBB102_13
	ldr.w	r9, [r1]
	ldrb.w	r0, [r9, #1]
	cbz	r0, .LBB102_13
	ldrb.w	r0, [r9]
	cmp	r0, #2
	bne	.LBB102_15
	mov	r8, r2
	movs	r7, #0
	strb.w	r7, [r9, #1]
	cbz	r2, .LBB102_11
	add.w	r10, r9, #8
	add.w	r11, sp, #8
	movs	r6, #0
	str	r3, [sp, #4]
	.p2align	2
.LBB102_7:
	mov	r0, r11
	mov	r1, r10
	strd	r7, r7, [sp, #32]
	strd	r7, r7, [sp, #24]
	strd	r7, r7, [sp, #16]
	strd	r7, r7, [sp, #8]
	bl	tlsf_c.queue_end.take_once
	ldrb.w	r0, [sp, #8]
	cbnz	r0, .LBB102_10
	ldrd	r1, r4, [sp, #24]
	ldrd	r2, r3, [sp, #32]
	mov	r0, r5
	str	r4, [sp]
	bl	tlsf_c.heap_calls.release_named
	adds	r6, #1
	cmp	r8, r6
	bne	.LBB102_7
	mov	r6, r8
.LBB102_10:
	ldr	r3, [sp, #4]
	b	.LBB102_12
.LBB102_11:
	movs	r6, #0
.LBB102_12:
	movs	r1, #1
	str	r6, [r3]
	movs	r0, #0
	strb.w	r1, [r9, #1]
	add	sp, #44
	pop.w	{r4, r5, r6, r7, r8, r9, r10, r11, pc}
.LBB102_13:
	movs	r0, #0
.LBB102_14:
	add	sp, #44
	pop.w	{r4, r5, r6, r7, r8, r9, r10, r11, lr}
	b	tlsf_c.call_fault.CallFault.refusal
.LBB102_15:
	movs	r0, #2
	b	.LBB102_14
.Lfunc_end102:
	.size	tlsf_queue_drain, .Lfunc_end102-tlsf_queue_drain
	.cfi_endproc
	.section	.text.tlsf_queue_open,"ax",%progbits
	.globl	tlsf_queue_open
	.p2align	2
	.type	tlsf_queue_open,%function
	.code	16
	.thumb_func
tlsf_queue_open:
	.cfi_startproc
	push.w	{r4, r5, r6, r7, r8, r9, r10, r11, lr}
	.cfi_def_cfa_offset 36
	.cfi_offset lr, -4
	.cfi_offset r11, -8
	.cfi_offset r10, -12
	.cfi_offset r9, -16
	.cfi_offset r8, -20
	.cfi_offset r7, -24
	.cfi_offset r6, -28
	.cfi_offset r5, -32
	.cfi_offset r4, -36
	sub	sp, #284
	.cfi_def_cfa_offset 320
	ldrb	r3, [r0, #8]
	mov	r10, r2
	movs	r2, #0
	strd	r2, r2, [sp, #88]
	strd	r2, r2, [sp, #80]
	str	r2, [sp, #76]
	str	r2, [sp, #72]
	cbz	r3, .LBB103_2
	movs	r0, #33
	add	sp, #284
	pop.w	{r4, r5, r6, r7, r8, r9, r10, r11, pc}
.LBB103_2:
	rsb.w	r3, r1, #1024
	rsb.w	r7, r10, #1024
	orrs	r3, r7
	cmp.w	r2, r3, lsr #10
	bne	.LBB103_7
	str	r0, [sp, #60]
	movs	r5, #0
	mov	r9, r1
	lsls	r1, r1, #4
	add	r0, sp, #232
	movs	r2, #8
	strd	r5, r5, [sp, #96]
	bl	tlsf_memory_alloc
	ldr	r0, [sp, #232]
	lsls	r0, r0, #31
	beq.w	.LBB103_68
	ldr	r0, [sp, #240]
	movs	r6, #1
	strd	r0, r5, [sp, #104]
	clz	r0, r10
	rsb.w	r1, r0, #32
	lsr.w	r11, r6, r0
	rsbs	r0, r0, #0
	lsl.w	r4, r6, r1
	strd	r5, r5, [sp, #112]
	strd	r9, r5, [sp, #120]
	it	pl
	lslpl.w	r11, r6, r0
	it	pl
	movpl	r4, #0
	adds.w	r8, r10, #48
	lsl.w	r7, r8, #3
	add	r0, sp, #232
	mov	r1, r7
	mov.w	r2, #8
	adc	r5, r5, #0
	bl	tlsf_memory_alloc
	ldr	r0, [sp, #232]
	lsls	r0, r0, #31
	beq.w	.LBB103_60
	strd	r4, r5, [sp, #32]
	ldr	r4, [sp, #240]
	sub.w	r2, r7, #8
	mov	r0, r4
	movs	r1, #0
	movs	r5, #0
	bl	tlsf_memory_set
	adds	r0, r4, r7
	cmp.w	r10, #1
	strd	r5, r5, [r0, #-8]
	it	hi
	movhi	r6, r10
	cmp.w	r10, #4
	and	r0, r6, #3
	str.w	r8, [sp, #40]
	bhs	.LBB103_8
	movs	r1, #0
	b	.LBB103_11
.LBB103_7:
	movs	r0, #5
	add	sp, #284
	pop.w	{r4, r5, r6, r7, r8, r9, r10, r11, pc}
.LBB103_8:
	mov	r12, r7
	bic	r2, r6, #3
	movs	r5, #0
	movs	r1, #0
	.p2align	2
.LBB103_9:
	add.w	r3, r4, r5, lsl #3
	strd	r5, r1, [r3, #384]
	orr	r3, r5, #1
	add.w	r7, r4, r3, lsl #3
	strd	r3, r1, [r7, #384]
	orr	r3, r5, #2
	add.w	r7, r4, r3, lsl #3
	strd	r3, r1, [r7, #384]
	orr	r3, r5, #3
	add.w	r7, r4, r3, lsl #3
	adds	r5, #4
	strd	r3, r1, [r7, #384]
	adc	r1, r1, #0
	eor.w	r3, r5, r2
	orrs	r3, r1
	bne	.LBB103_9
	mov	r7, r12
	cbz	r0, .LBB103_14
.LBB103_11:
	add.w	r2, r4, r5, lsl #3
	cmp	r0, #1
	strd	r5, r1, [r2, #384]
	beq	.LBB103_14
	adds	r2, r5, #1
	adc	r3, r1, #0
	mov	r6, r7
	add.w	r7, r4, r2, lsl #3
	cmp	r0, #2
	strd	r2, r3, [r7, #384]
	mov	r7, r6
	beq	.LBB103_14
	adds	r0, r5, #2
	adc	r1, r1, #0
	add.w	r2, r4, r0, lsl #3
	strd	r0, r1, [r2, #384]
.LBB103_14:
	add.w	r8, sp, #184
	movs	r5, #0
	lsl.w	r1, r10, #5
	mov	r0, r8
	movs	r2, #8
	str	r4, [sp, #52]
	strd	r5, r5, [sp, #160]
	strd	r5, r5, [sp, #152]
	strd	r5, r5, [sp, #144]
	bl	tlsf_memory_alloc
	ldr	r0, [sp, #184]
	lsls	r0, r0, #31
	beq.w	.LBB103_57
	ldr	r1, [sp, #192]
	add.w	r0, r9, #1
	str	r0, [sp, #24]
	strd	r10, r1, [sp, #64]
	strd	r10, r5, [sp, #248]
	add	r0, sp, #280
	mov.w	r12, #0
	mov.w	lr, #0
	mov.w	r9, #0
	mov.w	r10, #0
	str	r7, [sp, #56]
	str.w	r11, [sp, #28]
	strd	r1, r5, [sp, #232]
	strd	r5, r5, [sp, #240]
	strd	r0, r5, [sp, #256]
	b	.LBB103_18
.LBB103_16:
	ldr	r0, [sp, #232]
	ldrd	r6, r7, [sp, #240]
	add.w	r8, sp, #184
	str	r0, [sp, #68]
	.p2align	2
.LBB103_17:
	ldr	r1, [sp, #68]
	lsls	r4, r6, #5
	add.w	r0, r1, r6, lsl #5
	str	r5, [r1, r4]
	str	r5, [r0, #4]
	adds	r0, #8
	mov	r1, r8
	movs	r2, #24
	bl	tlsf_memory_cpy
	adds.w	r12, r6, #1
	ldr	r0, [sp, #64]
	adc	lr, r7, #0
	adds.w	r9, r9, #1
	adc	r10, r10, #0
	subs.w	r0, r9, r0
	sbcs	r0, r10, #0
	str.w	lr, [sp, #244]
	str.w	r12, [sp, #240]
	bhs	.LBB103_29
.LBB103_18:
	add	r1, sp, #144
	mov	r11, r5
	ldm.w	r1, {r2, r3, r4, r5, r6, r7}
	mov	r0, r8
	stm	r0!, {r2, r3, r4, r5, r6, r7}
	ldrd	r1, r0, [sp, #248]
	mov	r5, r11
	eor.w	r0, r0, lr
	eor.w	r1, r1, r12
	orrs	r0, r1
	mov	r6, r12
	mov	r7, lr
	bne	.LBB103_17
	add	r0, sp, #232
	bl	std_alloc.vec.Vec.grow_amortized.94730218a1e37034
	cmp	r0, #0
	bne	.LBB103_16
	ldr	r0, [sp, #232]
	ldrd	r1, r3, [sp, #240]
	ldrd	r2, r7, [sp, #248]
.LBB103_21:
	orrs.w	r6, r1, r3
	beq.w	.LBB103_56
	subs	r6, r1, #1
	lsl.w	r5, r6, #5
	ldrb	r4, [r0, r5]
	sbc	r5, r3, #0
	cmp	r4, #0
	bne.w	.LBB103_53
	orrs	r6, r5
	beq.w	.LBB103_56
	subs	r6, r1, #2
	lsl.w	r5, r6, #5
	ldrb	r4, [r0, r5]
	sbc	r5, r3, #0
	cmp	r4, #0
	bne.w	.LBB103_53
	orrs	r6, r5
	beq.w	.LBB103_56
	subs	r6, r1, #3
	lsl.w	r5, r6, #5
	ldrb	r4, [r0, r5]
	sbc	r5, r3, #0
	cmp	r4, #0
	bne.w	.LBB103_53
	orrs	r6, r5
	beq.w	.LBB103_56
	subs	r1, #4
	lsl.w	r6, r1, #5
	ldrb	r6, [r0, r6]
	sbc	r3, r3, #0
	cmp	r6, #0
	beq	.LBB103_21
	b	.LBB103_53
.LBB103_29:
	ldr	r1, [sp, #56]
	ldr	r5, [sp, #232]
	ldrd	r10, r11, [sp, #248]
	add	r0, sp, #232
	movs	r2, #8
	strd	lr, r12, [sp, #44]
	bl	tlsf_memory_alloc
	ldr	r0, [sp, #232]
	ldr.w	r8, [sp, #52]
	lsls	r0, r0, #31
	beq.w	.LBB103_44
	ldr	r0, [sp, #44]
	ldr	r2, [sp, #48]
	lsls	r0, r0, #5
	ldr.w	r9, [sp, #240]
	orr.w	r0, r0, r2, lsr #27
	cmp	r0, #0
	bmi.w	.LBB103_43
	mov.w	r1, #-1
	it	eq
	lsleq	r1, r2, #5
	add	r0, sp, #232
	movs	r2, #8
	bl	tlsf_memory_alloc
	ldr	r0, [sp, #232]
	lsls	r0, r0, #31
	beq.w	.LBB103_43
	ldr	r0, [sp, #240]
	ldr	r1, [sp, #40]
	str	r0, [sp, #20]
	ldr	r0, [sp, #64]
	ldr.w	lr, [sp, #36]
	and	r0, r0, #3
	str	r0, [sp, #4]
	movs	r0, #0
	bic	r1, r1, #3
	movs	r3, #0
	str	r7, [sp, #16]
	strd	r11, r10, [sp, #8]
	str	r5, [sp, #68]
	str	r1, [sp, #56]
.LBB103_33:
	add.w	r1, r8, r0, lsl #3
	ldr.w	r11, [r1, #4]
	ldr.w	r1, [r8, r0, lsl #3]
	add.w	r10, r9, r0, lsl #3
	str.w	r1, [r9, r0, lsl #3]
	orr	r5, r0, #1
	orr	r1, r0, #2
	orr	r7, r0, #3
	adds	r0, #4
	ldr	r2, [sp, #56]
	adc	r3, r3, #0
	eors	r2, r0
	eor.w	r12, r3, lr
	orrs.w	r2, r2, r12
	str.w	r11, [r10, #4]
	add.w	r2, r8, r5, lsl #3
	ldr.w	r12, [r8, r5, lsl #3]
	ldr	r2, [r2, #4]
	str.w	r12, [r9, r5, lsl #3]
	add.w	r5, r9, r5, lsl #3
	str	r2, [r5, #4]
	add.w	r2, r8, r1, lsl #3
	ldr.w	r5, [r8, r1, lsl #3]
	ldr	r2, [r2, #4]
	str.w	r5, [r9, r1, lsl #3]
	add.w	r1, r9, r1, lsl #3
	str	r2, [r1, #4]
	add.w	r1, r8, r7, lsl #3
	ldr	r1, [r1, #4]
	ldr.w	r2, [r8, r7, lsl #3]
	add.w	r5, r9, r7, lsl #3
	str.w	r2, [r9, r7, lsl #3]
	str	r1, [r5, #4]
	bne	.LBB103_33
	ldr	r5, [sp, #4]
	cbz	r5, .LBB103_38
	add.w	r1, r8, r0, lsl #3
	ldr	r1, [r1, #4]
	ldr.w	r2, [r8, r0, lsl #3]
	add.w	r3, r9, r0, lsl #3
	cmp	r5, #1
	str.w	r2, [r9, r0, lsl #3]
	str	r1, [r3, #4]
	beq	.LBB103_38
	adds	r1, r0, #1
	add.w	r2, r8, r1, lsl #3
	ldr	r2, [r2, #4]
	ldr.w	r3, [r8, r1, lsl #3]
	add.w	r7, r9, r1, lsl #3
	cmp	r5, #2
	str.w	r3, [r9, r1, lsl #3]
	str	r2, [r7, #4]
	beq	.LBB103_38
	adds	r0, #2
	add.w	r1, r8, r0, lsl #3
	ldr	r1, [r1, #4]
	ldr.w	r2, [r8, r0, lsl #3]
	add.w	r3, r9, r0, lsl #3
	str.w	r2, [r9, r0, lsl #3]
	str	r1, [r3, #4]
.LBB103_38:
	ldrd	r1, r0, [sp, #44]
	orrs	r0, r1
	beq.w	.LBB103_72
	ldr	r1, [sp, #48]
	ldr.w	r11, [sp, #44]
	ldr	r7, [sp, #16]
	ands	r10, r1, #3
	beq.w	.LBB103_70
	ldr	r0, [sp, #68]
	ldr	r7, [sp, #20]
	add.w	r1, r0, r6, lsl #5
	ldrb	r11, [r1], #8
	add	r0, sp, #232
	movs	r2, #24
	add.w	r5, r7, r6, lsl #5
	bl	tlsf_memory_cpy
	movs	r0, #0
	str.w	r11, [r7, r4]
	ldr	r7, [sp, #16]
	str	r0, [r5, #4]
	add.w	r0, r5, #8
	add	r1, sp, #232
	movs	r2, #24
	bl	tlsf_memory_cpy
	cmp.w	r10, #1
	mov	r1, r6
	mov	r11, r7
	beq.w	.LBB103_70
	subs	r0, r6, #1
	sbc	r1, r7, #0
	str	r1, [sp, #56]
	ldr	r1, [sp, #68]
	ldr.w	r11, [sp, #20]
	add.w	r1, r1, r0, lsl #5
	ldrb	r7, [r1], #8
	lsls	r5, r0, #5
	str	r0, [sp, #4]
	add.w	r4, r11, r0, lsl #5
	add	r0, sp, #232
	movs	r2, #24
	bl	tlsf_memory_cpy
	movs	r0, #0
	str	r0, [r4, #4]
	add.w	r0, r4, #8
	add	r1, sp, #232
	movs	r2, #24
	str.w	r7, [r11, r5]
	bl	tlsf_memory_cpy
	cmp.w	r10, #2
	bne.w	.LBB103_69
	ldr	r7, [sp, #16]
	ldr	r1, [sp, #4]
	ldr.w	r11, [sp, #56]
	b	.LBB103_70
.LBB103_43:
	mov	r0, r9
	bl	tlsf_memory_dealloc
.LBB103_44:
	ldrd	r7, r3, [sp, #44]
	.p2align	2
.LBB103_45:
	orrs.w	r0, r3, r7
	beq	.LBB103_54
	subs	r0, r3, #1
	lsl.w	r1, r0, #5
	ldrb	r2, [r5, r1]
	sbc	r1, r7, #0
	cbnz	r2, .LBB103_53
	orrs	r0, r1
	beq	.LBB103_54
	subs	r0, r3, #2
	lsl.w	r1, r0, #5
	ldrb	r2, [r5, r1]
	sbc	r1, r7, #0
	cbnz	r2, .LBB103_53
	orrs	r0, r1
	beq	.LBB103_54
	subs	r0, r3, #3
	lsl.w	r1, r0, #5
	ldrb	r2, [r5, r1]
	sbc	r1, r7, #0
	cbnz	r2, .LBB103_53
	orrs	r0, r1
	beq	.LBB103_54
	subs	r3, #4
	lsl.w	r0, r3, #5
	ldrb	r0, [r5, r0]
	sbc	r7, r7, #0
	cmp	r0, #0
	beq	.LBB103_45
.LBB103_53:
	.inst.n	0xdefe
.LBB103_54:
	orrs.w	r0, r11, r10
	beq	.LBB103_58
	mov	r0, r5
	bl	tlsf_memory_dealloc
	b	.LBB103_58
.LBB103_56:
	orrs.w	r1, r2, r7
	it	ne
	blne	tlsf_memory_dealloc
.LBB103_57:
	ldr.w	r8, [sp, #52]
.LBB103_58:
	mov	r0, r8
.LBB103_59:
	bl	tlsf_memory_dealloc
.LBB103_60:
	ldr	r0, [sp, #120]
	ldrd	r4, r10, [sp, #112]
	str	r0, [sp, #64]
	ldr	r0, [sp, #124]
	ldr	r7, [sp, #104]
	str	r0, [sp, #60]
	orrs.w	r0, r4, r10
	beq	.LBB103_65
	mov.w	r9, #0
	movs	r6, #5
	mov.w	r11, #0
	str	r7, [sp, #68]
	b	.LBB103_63
	.p2align	2
.LBB103_62:
	adds.w	r9, r9, #1
	adc	r11, r11, #0
	subs.w	r0, r9, r4
	sbcs.w	r0, r11, r10
	bhs	.LBB103_65
.LBB103_63:
	lsl.w	r0, r9, #4
	ldr	r5, [r7, r0]
	mov	r0, r5
	movs	r2, #1
	movs	r3, #0
	str	r6, [sp]
	bl	__atomic_fetch_sub_8
	eor	r0, r0, #1
	orrs	r0, r1
	bne	.LBB103_62
	mov	r8, r6
	ldr	r6, [r5, #40]
	ldr	r7, [r5, #56]
	mov	r0, r5
	bl	tlsf_memory_dealloc
	mov	r0, r6
	mov	r6, r8
	bl	tlsf_memory_dealloc
	mov	r0, r7
	ldr	r7, [sp, #68]
	bl	tlsf_memory_dealloc
	b	.LBB103_62
.LBB103_65:
	ldrd	r1, r0, [sp, #60]
	orrs	r0, r1
	beq	.LBB103_68
	mov	r0, r7
.LBB103_67:
	bl	tlsf_memory_dealloc
.LBB103_68:
	movs	r0, #6
	add	sp, #284
	pop.w	{r4, r5, r6, r7, r8, r9, r10, r11, pc}
.LBB103_69:
	ldr.w	r10, [sp, #16]
	subs	r4, r6, #2
	sbc	r0, r10, #0
	str	r0, [sp, #56]
	lsls	r0, r4, #5
	str	r0, [sp, #4]
	ldr	r0, [sp, #68]
	movs	r2, #24
	add.w	r1, r0, r4, lsl #5
	ldrb	r5, [r1], #8
	add	r0, sp, #232
	add.w	r7, r11, r4, lsl #5
	bl	tlsf_memory_cpy
	ldr	r0, [sp, #4]
	add	r1, sp, #232
	str.w	r5, [r11, r0]
	movs	r0, #0
	str	r0, [r7, #4]
	add.w	r0, r7, #8
	movs	r2, #24
	bl	tlsf_memory_cpy
	ldr.w	r11, [sp, #56]
	mov	r1, r4
	mov	r7, r10
.LBB103_70:
	subs	r0, r6, #3
	sbcs	r0, r7, #0
	ldr	r0, [sp, #68]
	ldr	r4, [sp, #20]
	blo	.LBB103_72
.LBB103_71:
	mvn	r2, #31
	add.w	r6, r2, r1, lsl #5
	mov	r10, r1
	adds	r1, r0, r6
	ldrb	r7, [r1], #8
	add	r0, sp, #232
	movs	r2, #24
	str.w	r11, [sp, #56]
	adds	r5, r4, r6
	mov	r11, r0
	bl	tlsf_memory_cpy
	movs	r0, #0
	str	r0, [r5, #4]
	add.w	r0, r5, #8
	mov	r1, r11
	movs	r2, #24
	str	r7, [r4, r6]
	bl	tlsf_memory_cpy
	mvn	r0, #63
	add.w	r5, r0, r10, lsl #5
	ldr	r0, [sp, #68]
	movs	r2, #24
	adds	r1, r0, r5
	ldrb	r6, [r1], #8
	mov	r0, r11
	ldr.w	r11, [sp, #56]
	adds	r7, r4, r5
	bl	tlsf_memory_cpy
	movs	r0, #0
	str	r0, [r7, #4]
	add.w	r0, r7, #8
	add	r1, sp, #232
	movs	r2, #24
	str	r6, [r4, r5]
	bl	tlsf_memory_cpy
	mvn	r0, #95
	add.w	r5, r0, r10, lsl #5
	ldr	r0, [sp, #68]
	movs	r2, #24
	adds	r1, r0, r5
	ldrb	r6, [r1], #8
	add	r0, sp, #232
	adds	r7, r4, r5
	bl	tlsf_memory_cpy
	movs	r0, #0
	str	r0, [r7, #4]
	add.w	r0, r7, #8
	add	r1, sp, #232
	movs	r2, #24
	str	r6, [r4, r5]
	bl	tlsf_memory_cpy
	ldr	r0, [sp, #68]
	subs.w	r10, r10, #4
	add.w	r1, r0, r10, lsl #5
	ldrb	r6, [r1], #8
	add	r0, sp, #232
	mov.w	r2, #24
	sbc	r11, r11, #0
	lsl.w	r5, r10, #5
	add.w	r7, r4, r10, lsl #5
	bl	tlsf_memory_cpy
	movs	r0, #0
	str	r0, [r7, #4]
	add.w	r0, r7, #8
	add	r1, sp, #232
	movs	r2, #24
	str	r6, [r4, r5]
	bl	tlsf_memory_cpy
	orrs.w	r0, r10, r11
	ldr	r0, [sp, #68]
	mov	r1, r10
	bne	.LBB103_71
.LBB103_72:
	ldrd	r1, r0, [sp, #8]
	ldr	r5, [sp, #64]
	orrs	r0, r1
	beq	.LBB103_74
	ldr	r0, [sp, #68]
	bl	tlsf_memory_dealloc
.LBB103_74:
	mov	r0, r8
	bl	tlsf_memory_dealloc
	ldr.w	r10, [sp, #24]
	ldr.w	r8, [sp, #28]
	ldr	r6, [sp, #20]
	mov	r4, r10
.LBB103_75:
	mov	r0, r9
	movs	r1, #5
	bl	__atomic_load_8
	subs	r4, #1
	bne	.LBB103_75
	ldr	r7, [sp, #40]
	mov	r4, r5
.LBB103_77:
	mov	r0, r9
	movs	r1, #5
	bl	__atomic_load_8
	subs	r4, #1
	bne	.LBB103_77
	add	r0, sp, #232
	movs	r1, #88
	movs	r2, #8
	bl	tlsf_memory_alloc
	ldr	r0, [sp, #232]
	lsls	r0, r0, #31
	beq	.LBB103_81
	ldr	r0, [sp, #240]
	movs	r2, #1
	str	r2, [r0]
	ldr	r2, [sp, #36]
	ldr	r3, [sp, #48]
	str	r2, [r0, #28]
	ldr	r4, [sp, #44]
	str	r2, [r0, #52]
	ldr	r2, [sp, #32]
	movs	r1, #0
	str	r1, [r0, #4]
	str.w	r9, [r0, #8]
	str	r1, [r0, #12]
	str	r6, [r0, #16]
	str	r1, [r0, #20]
	str	r7, [r0, #24]
	str	r3, [r0, #32]
	str	r4, [r0, #36]
	str.w	r9, [r0, #40]
	str	r1, [r0, #44]
	str	r7, [r0, #48]
	str	r6, [r0, #56]
	str	r1, [r0, #60]
	str	r3, [r0, #64]
	str	r4, [r0, #68]
	str	r1, [r0, #76]
	str	r5, [r0, #72]
	str	r2, [r0, #80]
	str.w	r8, [r0, #84]
	strd	r0, r1, [sp, #96]
	mov	r0, r9
	movs	r1, #5
	bl	__atomic_load_8
	add	r0, sp, #96
	add	r3, sp, #104
	movs	r1, #1
	mov	r2, r10
	bl	tlsf_post.mailboxes.send_out
	uxtb	r0, r0
	cbz	r0, .LBB103_82
	ldr	r0, [sp, #96]
	bl	std_alloc.arc.Arc.drop.f29941b0e8355977
	b	.LBB103_60
.LBB103_81:
	mov	r0, r9
	bl	tlsf_memory_dealloc
	mov	r0, r6
	b	.LBB103_59
.LBB103_82:
	ldr	r0, [sp, #104]
	ldrd	r10, r8, [sp, #96]
	str	r0, [sp, #68]
	ldrd	r11, r9, [sp, #112]
	ldrd	r6, r4, [sp, #120]
	add	r0, sp, #144
	movs	r1, #0
	movs	r2, #40
	movs	r7, #0
	bl	tlsf_memory_set
	add	r0, sp, #104
	movs	r1, #0
	movs	r2, #40
	bl	tlsf_memory_set
	orrs.w	r0, r11, r9
	beq.w	.LBB103_94
	cmp.w	r9, #268435456
	strd	r6, r4, [sp, #48]
	str.w	r9, [sp, #64]
	bhs	.LBB103_89
	lsl.w	r0, r9, #3
	orrs.w	r0, r0, r11, lsr #29
	mov.w	r1, #-1
	add	r0, sp, #232
	mov.w	r2, #8
	it	eq
	lsleq.w	r1, r11, #3
	bl	tlsf_memory_alloc
	ldr	r0, [sp, #232]
	lsls	r0, r0, #31
	beq	.LBB103_89
	ldr	r5, [sp, #240]
	str.w	r8, [sp, #36]
	str.w	r10, [sp, #44]
	mov	r8, r11
	add	r0, sp, #232
	mov.w	r10, #0
	movs	r6, #0
	str.w	r11, [sp, #40]
	str	r5, [sp, #56]
.LBB103_86:
	ldr	r2, [sp, #68]
	adds.w	r11, r10, #1
	lsl.w	r3, r10, #4
	add.w	r1, r2, r10, lsl #4
	adc	r4, r6, #0
	subs.w	r8, r8, #1
	ldr	r7, [r2, r3]
	ldr	r5, [r1, #8]
	mov.w	r1, #48
	mov.w	r2, #8
	sbc	r9, r9, #0
	bl	tlsf_memory_alloc
	ldr	r0, [sp, #232]
	lsls	r0, r0, #31
	beq.w	.LBB103_98
	ldr	r0, [sp, #240]
	movw	r1, #259
	str	r5, [r0, #16]
	ldr	r5, [sp, #56]
	movs	r2, #0
	strh	r1, [r0]
	str	r7, [r0, #8]
	str	r2, [r0, #12]
	str	r2, [r0, #20]
	str	r2, [r0, #24]
	str	r2, [r0, #28]
	str	r2, [r0, #32]
	str	r2, [r0, #36]
	str	r2, [r0, #40]
	str	r2, [r0, #44]
	str.w	r0, [r5, r10, lsl #3]
	orrs.w	r0, r8, r9
	add.w	r1, r5, r10, lsl #3
	mov	r10, r11
	mov	r6, r4
	add	r0, sp, #232
	str	r2, [r1, #4]
	bne	.LBB103_86
	ldr.w	r9, [sp, #64]
	ldr	r4, [sp, #52]
	ldrd	r10, r6, [sp, #44]
	ldrd	r8, r11, [sp, #36]
	movs	r7, #0
	b	.LBB103_95
.LBB103_89:
	movs	r5, #0
	mov.w	r8, #5
	movs	r4, #0
	b	.LBB103_91
.LBB103_90:
	adds	r5, #1
	adc	r4, r4, #0
	subs.w	r0, r5, r11
	sbcs.w	r0, r4, r9
	bhs	.LBB103_93
.LBB103_91:
	ldr	r1, [sp, #68]
	lsls	r0, r5, #4
	ldr	r6, [r1, r0]
	mov	r0, r6
	movs	r2, #1
	movs	r3, #0
	str.w	r8, [sp]
	bl	__atomic_fetch_sub_8
	eor	r0, r0, #1
	orrs	r0, r1
	bne	.LBB103_90
	ldr	r7, [r6, #40]
	ldr.w	r9, [r6, #56]
	mov	r0, r6
	bl	tlsf_memory_dealloc
	mov	r0, r7
	bl	tlsf_memory_dealloc
	mov	r0, r9
	ldr.w	r9, [sp, #64]
	bl	tlsf_memory_dealloc
	b	.LBB103_90
.LBB103_93:
	ldrd	r1, r0, [sp, #48]
	orrs	r0, r1
	bne.w	.LBB103_106
	b	.LBB103_107
.LBB103_94:
	add	r5, sp, #280
.LBB103_95:
	ldr	r0, [sp, #68]
	strd	r7, r7, [sp, #112]
	strd	r0, r7, [sp, #104]
	add	r0, sp, #104
	strd	r6, r4, [sp, #120]
	strd	r11, r9, [sp, #128]
	strd	r7, r7, [sp, #136]
	bl	std_alloc.vec.deque.VecDeque.drop.ca3d8856d46a41b8
	add	r0, sp, #232
	movs	r1, #48
	movs	r2, #8
	bl	tlsf_memory_alloc
	ldr	r0, [sp, #232]
	lsls	r0, r0, #31
	beq	.LBB103_97
	ldr	r1, [sp, #240]
	mov.w	r0, #258
	ldr	r2, [sp, #60]
	strh	r0, [r1]
	movs	r0, #0
	str.w	r10, [r1, #8]
	str.w	r8, [r1, #12]
	str	r0, [r1, #20]
	str	r0, [r1, #16]
	str	r5, [r1, #24]
	str	r0, [r1, #28]
	str.w	r11, [r1, #32]
	str.w	r9, [r1, #36]
	str.w	r11, [r1, #40]
	str.w	r9, [r1, #44]
	str	r1, [r2]
	movs	r1, #1
	str	r0, [r2, #4]
	strb	r1, [r2, #8]
	str.w	r0, [r2, #9]
	str	r0, [r2, #12]
	add	sp, #284
	pop.w	{r4, r5, r6, r7, r8, r9, r10, r11, pc}
.LBB103_97:
	mov	r0, r10
	bl	std_alloc.arc.Arc.drop.c4a047e811255370
	movs	r0, #0
	strd	r0, r11, [sp, #76]
	add	r0, sp, #72
	str	r5, [sp, #72]
	str.w	r9, [sp, #92]
	strd	r9, r11, [sp, #84]
	bl	std_alloc.vec.Vec.drop.7ac45d8413b9ad54
	b	.LBB103_68
.LBB103_98:
	str.w	r10, [sp, #60]
	str	r6, [sp, #64]
	movs	r0, #5
	str	r0, [sp]
	mov	r0, r7
	movs	r2, #1
	movs	r3, #0
	mov	r10, r11
	movs	r5, #0
	bl	__atomic_fetch_sub_8
	eor	r0, r0, #1
	orrs	r0, r1
	bne	.LBB103_100
	ldr.w	r11, [r7, #40]
	ldr	r6, [r7, #56]
	mov	r0, r7
	bl	tlsf_memory_dealloc
	mov	r0, r11
	bl	tlsf_memory_dealloc
	mov	r0, r6
	bl	tlsf_memory_dealloc
.LBB103_100:
	ldr	r0, [sp, #68]
	add	r1, sp, #144
	stm.w	r1, {r0, r5, r8, r9}
	ldr	r0, [sp, #48]
	str	r5, [sp, #180]
	str	r0, [sp, #160]
	ldr	r0, [sp, #52]
	strd	r4, r5, [sp, #172]
	strd	r0, r10, [sp, #164]
	add	r0, sp, #144
	bl	std_alloc.vec.deque.VecDeque.drop.ca3d8856d46a41b8
	ldrd	r10, r0, [sp, #60]
	orrs.w	r0, r0, r10
	beq	.LBB103_104
	add	r0, sp, #184
	add.w	r9, sp, #232
	add.w	r11, r0, #6
	add.w	r0, r9, #8
	ldr.w	r8, [sp, #56]
	ldr.w	r9, [sp, #64]
	movs	r7, #0
	movs	r6, #0
	str	r0, [sp, #68]
.LBB103_102:
	ldr.w	r4, [r8, r7, lsl #3]
	mov	r0, r11
	mov	r1, r4
	ldrh	r5, [r1], #8
	movs	r2, #40
	bl	tlsf_memory_cpy
	mov	r0, r4
	bl	tlsf_memory_dealloc
	movs	r0, #0
	strd	r0, r0, [sp, #232]
	ldr	r0, [sp, #68]
	mov	r1, r11
	movs	r2, #40
	strh.w	r5, [sp, #232]
	bl	tlsf_memory_cpy
	add	r0, sp, #232
	bl	tlsf_c.tlsf_c.any_end.AnyEnd.Destruct.drop
	adds	r7, #1
	adc	r6, r6, #0
	subs.w	r0, r7, r10
	sbcs.w	r0, r6, r9
	blo	.LBB103_102
	str.w	r8, [sp, #68]
	b	.LBB103_105
.LBB103_104:
	ldr	r0, [sp, #56]
	str	r0, [sp, #68]
.LBB103_105:
	ldr.w	r10, [sp, #44]
.LBB103_106:
	ldr	r0, [sp, #68]
	bl	tlsf_memory_dealloc
.LBB103_107:
	movs	r1, #5
	mov	r0, r10
	movs	r2, #1
	movs	r3, #0
	str	r1, [sp]
	bl	__atomic_fetch_sub_8
	eor	r0, r0, #1
	orrs	r0, r1
	bne.w	.LBB103_68
	ldr.w	r4, [r10, #40]
	ldr.w	r5, [r10, #56]
	mov	r0, r10
	bl	tlsf_memory_dealloc
	mov	r0, r4
	bl	tlsf_memory_dealloc
	mov	r0, r5
	b	.LBB103_67
.Lfunc_end103:
	.size	tlsf_queue_open, .Lfunc_end103-tlsf_queue_open
	.cfi_endproc
	.section	.text.tlsf_queue_post,"ax",%progbits
	.globl	tlsf_queue_post
	.p2align	2
	.type	tlsf_queue_post,%function
	.code	16
	.thumb_func
tlsf_queue_post:
	.cfi_startproc
	push.w	{r4, r5, r6, r7, r8, r9, r10, r11, lr}
	.cfi_def_cfa_offset 36
	.cfi_offset lr, -4
	.cfi_offset r11, -8
	.cfi_offset r10, -12
	.cfi_offset r9, -16
	.cfi_offset r8, -20
	.cfi_offset r7, -24
	.cfi_offset r6, -28
	.cfi_offset r5, -32
	.cfi_offset r4, -36
	sub	sp, #36
	.cfi_def_cfa_offset 72
	ldrb	r1, [r0, #8]
	cmp	r1, #0
	beq.w	.LBB104_12
	ldr	r7, [r0]
	ldrb	r0, [r7, #1]
	cmp	r0, #0
	beq.w	.LBB104_12
	ldrb	r0, [r7]
	cmp	r0, #3
	bne.w	.LBB104_13
	str	r2, [sp, #20]
	ldr	r0, [sp, #76]
	ldr	r5, [r7, #8]
	str	r0, [sp, #12]
	ldr	r0, [sp, #72]
	movs	r1, #5
	str	r0, [sp, #16]
	movs	r0, #0
	strb	r0, [r7, #1]
	ldr	r0, [r7, #16]
	mov	r9, r3
	str	r0, [sp, #8]
	ldr	r0, [r5, #8]
	adds	r0, #128
	bl	__atomic_load_8
	mov	r10, r0
	mov	r6, r1
	ldrd	r0, r1, [r5, #80]
	ldr	r2, [r5, #8]
	subs	r0, #1
	and.w	r11, r0, r10
	add.w	r0, r2, r11, lsl #3
	sbc	r8, r1, #0
	add.w	r0, r0, #384
	movs	r1, #5
	bl	__atomic_load_8
	lsrs	r2, r6, #30
	cmp	r2, #2
	bhi	.LBB104_11
	eor.w	r0, r0, r10
	eors	r1, r6
	orrs	r0, r1
	bne	.LBB104_11
	ldrd	r2, r3, [r5, #72]
	and.w	r0, r8, r6
	adds.w	r1, r11, #1
	adc	r4, r0, #0
	subs	r1, r1, r2
	sbcs.w	r1, r4, r3
	bhs	.LBB104_7
	adds.w	r2, r10, #1
	adc	r3, r6, #0
	b	.LBB104_8
.LBB104_7:
	ldrd	r2, r3, [r5, #80]
	subs.w	r1, r10, r11
	sbc.w	r0, r6, r0
	adds	r2, r2, r1
	adcs	r3, r0
.LBB104_8:
	ldr	r0, [r5, #8]
	adds	r0, #128
	movs	r4, #5
	add	r1, sp, #24
	strd	r10, r6, [sp, #24]
	str	r4, [sp]
	str	r4, [sp, #4]
	bl	__atomic_compare_exchange_8
	cbz	r0, .LBB104_11
	ldr	r0, [r5, #16]
	lsl.w	r1, r11, #5
	movs	r4, #1
	add.w	r2, r0, r11, lsl #5
	ldrb	r3, [r0, r1]
	str	r4, [r0, r1]
	movs	r0, #0
	str	r0, [r2, #4]
	str	r0, [r2, #12]
	ldr	r0, [sp, #20]
	ldr	r1, [sp, #8]
	str	r0, [r2, #16]
	ldr	r0, [sp, #12]
	cmp	r3, #0
	str	r0, [r2, #28]
	ldr	r0, [sp, #16]
	str	r1, [r2, #8]
	str.w	r9, [r2, #20]
	str	r0, [r2, #24]
	bne	.LBB104_15
	ldr	r1, [r5, #8]
	lsl.w	r0, r11, #3
	adds.w	r2, r10, #1
	add	r0, r1
	adc	r3, r6, #0
	add.w	r0, r0, #384
	movs	r1, #5
	str	r1, [sp]
	bl	__atomic_store_8
	strb	r4, [r7, #1]
	movs	r0, #0
	add	sp, #36
	pop.w	{r4, r5, r6, r7, r8, r9, r10, r11, pc}
.LBB104_11:
	ldr	r6, [r7, #8]
	movs	r1, #5
	ldr	r0, [r6, #8]
	adds	r0, #128
	bl	__atomic_load_8
	mov	r4, r0
	ldr	r0, [r6, #8]
	mov	r5, r1
	add.w	r0, r0, #256
	movs	r1, #5
	bl	__atomic_load_8
	ldrd	r2, r3, [r6, #80]
	subs	r2, r4, r2
	sbcs.w	r3, r5, r3
	eor.w	r0, r0, r2
	eor.w	r1, r1, r3
	mrs	r6, apsr
	orrs	r0, r1
	mov.w	r0, #37
	it	eq
	moveq	r0, #8
	movs	r2, #1
	movs	r1, #37
	strb	r2, [r7, #1]
	msr	apsr_nzcvq, r6
	it	lo
	movlo	r0, r1
	add	sp, #36
	pop.w	{r4, r5, r6, r7, r8, r9, r10, r11, pc}
.LBB104_12:
	movs	r0, #0
	b	.LBB104_14
.LBB104_13:
	movs	r0, #2
.LBB104_14:
	add	sp, #36
	pop.w	{r4, r5, r6, r7, r8, r9, r10, r11, lr}
	b	tlsf_c.call_fault.CallFault.refusal
.LBB104_15:
	.inst.n	0xdefe
.Lfunc_end104:
	.size	tlsf_queue_post, .Lfunc_end104-tlsf_queue_post
	.cfi_endproc
	.section	.text.tlsf_queue_take,"ax",%progbits
	.globl	tlsf_queue_take
	.p2align	2
	.type	tlsf_queue_take,%function
	.code	16
	.thumb_func
tlsf_queue_take:
	.cfi_startproc
	push	{r4, r5, r7, lr}
	.cfi_def_cfa_offset 16
	.cfi_offset lr, -4
	.cfi_offset r7, -8
	.cfi_offset r5, -12
	.cfi_offset r4, -16
	sub	sp, #32
	.cfi_def_cfa_offset 48
	ldrb	r2, [r0, #8]
	cbz	r2, .LBB105_7
	ldr	r5, [r0]
	ldrb	r0, [r5, #1]
	cbz	r0, .LBB105_7
	ldrb	r0, [r5]
	cmp	r0, #2
	bne	.LBB105_8
	movs	r0, #0
	mov	r4, r1
	add.w	r1, r5, #8
	strb	r0, [r5, #1]
	strd	r0, r0, [sp, #24]
	strd	r0, r0, [sp, #16]
	strd	r0, r0, [sp, #8]
	strd	r0, r0, [sp]
	mov	r0, sp
	bl	tlsf_c.queue_end.take_once
	ldrb.w	r0, [sp]
	cbz	r0, .LBB105_5
	ldrb.w	r0, [sp, #1]
	movw	r1, :lower16:.Lswitch.table.tlsf_queue_take
	movt	r1, :upper16:.Lswitch.table.tlsf_queue_take
	ldr.w	r0, [r1, r0, lsl #2]
	b	.LBB105_6
.LBB105_5:
	add	r3, sp, #16
	ldm	r3, {r0, r1, r2, r3}
	str	r1, [r4, #4]
	str	r0, [r4]
	str	r3, [r4, #12]
	str	r2, [r4, #8]
	movs	r0, #0
.LBB105_6:
	movs	r1, #1
	strb	r1, [r5, #1]
	add	sp, #32
	pop	{r4, r5, r7, pc}
.LBB105_7:
	movs	r0, #0
	b	.LBB105_9
.LBB105_8:
	movs	r0, #2
.LBB105_9:
	add	sp, #32
	pop.w	{r4, r5, r7, lr}
	b	tlsf_c.call_fault.CallFault.refusal
.Lfunc_end105:
	.size	tlsf_queue_take, .Lfunc_end105-tlsf_queue_take
	.cfi_endproc
	.section	.text.tlsf_read,"ax",%progbits
	.globl	tlsf_read
	.p2align	2
	.type	tlsf_read,%function
	.code	16
	.thumb_func
tlsf_read:
	.cfi_startproc
	push.w	{r4, r5, r6, r7, r8, r9, lr}
	.cfi_def_cfa_offset 28
	.cfi_offset lr, -4
	.cfi_offset r9, -8
	.cfi_offset r8, -12
	.cfi_offset r7, -16
	.cfi_offset r6, -20
	.cfi_offset r5, -24
	.cfi_offset r4, -28
	sub	sp, #12
	.cfi_def_cfa_offset 40
	mov	r12, r3
	ldr	r3, [sp, #52]
	ldrb	r1, [r0, #8]
	cmp	r3, #0
	it	eq
	addeq.w	r3, r3, #4096
	cmp	r1, #0
	beq	.LBB106_10
	ldr	r4, [r0]
	ldrb	r0, [r4]
	cmp	r0, #1
	bne	.LBB106_10
	ldrb	r0, [r4, #16]
	mov	lr, r2
	ldr.w	r8, [sp, #56]
	ldr	r2, [sp, #48]
	ldrd	r9, r7, [sp, #40]
	ldr	r1, [r4, #24]
	movs	r5, #0
	cmp	r0, #0
	strb	r5, [r4]
	beq	.LBB106_11
	cmp	r1, lr
	bne	.LBB106_18
	ldr	r0, [r4, #56]
	mov	r1, lr
	cmp	r12, r0
	bhs	.LBB106_18
	ldr	r0, [r4, #72]
	mvn	r1, #7
	and.w	r1, r1, r12, lsr #3
	adds	r5, r0, r1
	ldr	r5, [r5, #4]
	ldr	r0, [r0, r1]
	and	r1, r12, #63
	rsb.w	r6, r1, #32
	lsrs	r0, r1
	lsl.w	r6, r5, r6
	orrs	r0, r6
	subs	r1, #32
	it	pl
	lsrpl.w	r0, r5, r1
	lsls	r0, r0, #31
	mov	r1, lr
	beq	.LBB106_18
	add.w	r0, r4, #48
	ldr	r5, [r0]
	ldrb.w	r1, [r5, r12, lsl #3]
	lsls	r1, r1, #31
	mov	r1, lr
	bne	.LBB106_18
	add.w	r5, r5, r12, lsl #3
	ldrd	r1, r6, [r5, #8]
	eors	r6, r7
	eor.w	r1, r1, r9
	orrs	r1, r6
	mov	r1, lr
	bne	.LBB106_18
	ldr	r1, [r5, #16]
	adds.w	r7, r8, r2
	mov.w	r6, #0
	adc	r5, r6, #0
	subs	r1, r1, r7
	sbcs.w	r1, r6, r5
	blo	.LBB106_17
	mov	r1, r12
	strd	r8, r6, [sp]
	bl	tlsf_heap.region.Region.read.5
	b	.LBB106_22
.LBB106_10:
	movs	r0, #32
	add	sp, #12
	pop.w	{r4, r5, r6, r7, r8, r9, pc}
.LBB106_11:
	cmp	r1, lr
	bne	.LBB106_18
	ldr	r0, [r4, #56]
	mov	r1, lr
	cmp	r12, r0
	bhs	.LBB106_18
	ldr	r0, [r4, #72]
	mvn	r1, #7
	and.w	r1, r1, r12, lsr #3
	adds	r5, r0, r1
	ldr	r5, [r5, #4]
	ldr	r0, [r0, r1]
	and	r1, r12, #63
	rsb.w	r6, r1, #32
	lsrs	r0, r1
	lsl.w	r6, r5, r6
	orrs	r0, r6
	subs	r1, #32
	it	pl
	lsrpl.w	r0, r5, r1
	lsls	r0, r0, #31
	mov	r1, lr
	beq	.LBB106_18
	add.w	r0, r4, #48
	ldr	r5, [r0]
	ldrb.w	r1, [r5, r12, lsl #3]
	lsls	r1, r1, #31
	mov	r1, lr
	bne	.LBB106_18
	add.w	r5, r5, r12, lsl #3
	ldrd	r1, r6, [r5, #8]
	eors	r6, r7
	eor.w	r1, r1, r9
	orrs	r1, r6
	mov	r1, lr
	bne	.LBB106_18
	ldr	r1, [r5, #16]
	adds.w	r7, r8, r2
	mov.w	r6, #0
	adc	r5, r6, #0
	subs	r1, r1, r7
	sbcs.w	r1, r6, r5
	bhs	.LBB106_21
.LBB106_17:
	movs	r0, #4
	b	.LBB106_19
.LBB106_18:
	mov	r0, lr
	bl	tlsf_heap.refusal.Refusal.of_name
.LBB106_19:
	movs	r6, #1
	lsls	r1, r6, #31
	beq	.LBB106_23
.LBB106_20:
	movw	r1, :lower16:.Lswitch.table.tlsf_write
	uxtb	r0, r0
	movt	r1, :upper16:.Lswitch.table.tlsf_write
	ldr.w	r0, [r1, r0, lsl #2]
	b	.LBB106_24
.LBB106_21:
	mov	r1, r12
	strd	r8, r6, [sp]
	bl	tlsf_heap.region.Region.read.4
.LBB106_22:
	movs	r0, #0
	lsls	r1, r6, #31
	bne	.LBB106_20
.LBB106_23:
	movs	r0, #0
.LBB106_24:
	movs	r1, #1
	strb	r1, [r4]
	add	sp, #12
	pop.w	{r4, r5, r6, r7, r8, r9, pc}
.Lfunc_end106:
	.size	tlsf_read, .Lfunc_end106-tlsf_read
	.cfi_endproc
	.section	.text.tlsf_reallocate,"ax",%progbits
	.globl	tlsf_reallocate
	.p2align	2
	.type	tlsf_reallocate,%function
	.code	16
	.thumb_func
tlsf_reallocate:
	.cfi_startproc
	ldrb	r3, [r0, #8]
	cmp	r3, #0
	itt	eq
	moveq	r0, #32
	bxeq	lr
.LBB107_1:
	push.w	{r4, r5, r6, r7, r8, r9, r10, r11, lr}
	.cfi_def_cfa_offset 36
	.cfi_offset lr, -4
	.cfi_offset r11, -8
	.cfi_offset r10, -12
	.cfi_offset r9, -16
	.cfi_offset r8, -20
	.cfi_offset r7, -24
	.cfi_offset r6, -28
	.cfi_offset r5, -32
	.cfi_offset r4, -36
	sub	sp, #100
	.cfi_def_cfa_offset 136
	ldr.w	r8, [r0]
	ldrb.w	r3, [r8]
	cmp	r3, #1
	bne	.LBB107_12
	movs	r3, #0
	strb.w	r3, [r8]
	ldrb.w	r7, [r8, #16]
	mov	r4, r8
	ldr.w	r10, [r1]
	ldr.w	r12, [r1, #4]
	ldr	r6, [r1, #8]
	ldr.w	lr, [r1, #12]
	ldr	r3, [r4, #24]!
	cmp	r7, #0
	str	r4, [sp, #68]
	beq	.LBB107_13
	cmp	r10, r3
	bne.w	.LBB107_22
	ldr.w	r3, [r8, #56]
	cmp	r12, r3
	mov	r3, r10
	bhs.w	.LBB107_22
	ldr.w	r3, [r8, #72]
	mvn	r7, #7
	and.w	r7, r7, r12, lsr #3
	adds	r5, r3, r7
	ldr	r5, [r5, #4]
	ldr	r3, [r3, r7]
	and	r7, r12, #63
	rsb.w	r4, r7, #32
	lsrs	r3, r7
	lsl.w	r4, r5, r4
	orrs	r3, r4
	subs	r7, #32
	it	pl
	lsrpl.w	r3, r5, r7
	lsls	r3, r3, #31
	mov	r3, r10
	beq.w	.LBB107_22
	add.w	r3, r8, #48
	ldr.w	r11, [r3]
	ldr.w	r7, [r11, r12, lsl #3]
	lsls	r3, r7, #31
	mov	r3, r10
	bne.w	.LBB107_22
	add.w	r5, r11, r12, lsl #3
	ldrd	r3, r4, [r5, #8]
	eor.w	r4, r4, lr
	eors	r3, r6
	orrs	r3, r4
	mov	r3, r10
	bne.w	.LBB107_22
	lsl.w	r3, r12, #3
	str	r3, [sp, #56]
	ldr	r3, [r5, #4]
	movs	r4, #0
	str	r3, [sp, #60]
	adds	r3, r2, #1
	str	r6, [sp, #72]
	adc	r6, r4, #0
	cmp	r2, #0
	itt	ne
	movne	r3, r2
	movne	r6, r4
	adds	r3, #31
	adc	r6, r6, #0
	lsrs	r3, r3, #3
	orr.w	r4, r3, r6, lsl #29
	cmp.w	r4, r7, lsr #2
	lsr.w	r9, r7, #2
	str.w	r12, [sp, #76]
	bls.w	.LBB107_23
	lsls	r3, r7, #30
	bmi	.LBB107_11
	add.w	r3, r9, r12
	ldr.w	r5, [r11, r3, lsl #3]
	lsls	r6, r5, #31
	bne.w	.LBB107_42
.LBB107_11:
	movs	r5, #0
	mov.w	r12, #0
	b	.LBB107_43
.LBB107_12:
	movs	r0, #32
	add	sp, #100
	pop.w	{r4, r5, r6, r7, r8, r9, r10, r11, pc}
.LBB107_13:
	cmp	r10, r3
	bne	.LBB107_22
	ldr.w	r3, [r8, #56]
	cmp	r12, r3
	mov	r3, r10
	bhs	.LBB107_22
	ldr.w	r3, [r8, #72]
	mvn	r7, #7
	and.w	r7, r7, r12, lsr #3
	adds	r5, r3, r7
	ldr	r5, [r5, #4]
	ldr	r3, [r3, r7]
	and	r7, r12, #63
	rsb.w	r4, r7, #32
	lsrs	r3, r7
	lsl.w	r4, r5, r4
	orrs	r3, r4
	subs	r7, #32
	it	pl
	lsrpl.w	r3, r5, r7
	lsls	r3, r3, #31
	mov	r3, r10
	beq	.LBB107_22
	add.w	r3, r8, #48
	ldr	r7, [r3]
	ldr.w	r9, [r7, r12, lsl #3]
	lsls.w	r3, r9, #31
	mov	r3, r10
	bne	.LBB107_22
	add.w	r4, r7, r12, lsl #3
	ldrd	r3, r5, [r4, #8]
	eor.w	r5, r5, lr
	eors	r3, r6
	orrs	r3, r5
	mov	r3, r10
	bne	.LBB107_22
	lsl.w	r3, r12, #3
	str	r3, [sp, #40]
	ldr	r3, [r4, #4]
	movs	r5, #0
	str	r3, [sp, #44]
	adds	r3, r2, #1
	str	r7, [sp, #56]
	adc	r7, r5, #0
	cmp	r2, #0
	itt	ne
	movne	r3, r2
	movne	r7, r5
	adds	r3, #31
	adc	r7, r7, #0
	lsrs	r3, r3, #3
	orr.w	r11, r3, r7, lsl #29
	cmp.w	r11, r9, lsr #2
	lsr.w	r3, r9, #2
	str	r3, [sp, #60]
	str.w	r12, [sp, #76]
	bls.w	.LBB107_32
	lsls.w	r3, r9, #30
	bmi	.LBB107_21
	ldr	r3, [sp, #60]
	add.w	r5, r3, r12
	ldr	r3, [sp, #56]
	ldr.w	r3, [r3, r5, lsl #3]
	lsls	r4, r3, #31
	bne.w	.LBB107_59
.LBB107_21:
	movs	r3, #0
	mov.w	r12, #0
	b	.LBB107_60
.LBB107_22:
	mov	r0, r10
	mov	r1, r3
	bl	tlsf_heap.refusal.Refusal.of_name
	uxtb	r0, r0
	movs	r1, #1
	cmp	r0, #3
	mov.w	r0, #3
	strb.w	r1, [r8]
	it	eq
	moveq	r0, #4
	add	sp, #100
	pop.w	{r4, r5, r6, r7, r8, r9, r10, r11, pc}
.LBB107_23:
	str	r4, [sp, #44]
	ldrd	r4, r6, [r8, #32]
	and.w	r3, r4, r6
	adds	r3, #1
	beq.w	.LBB107_71
	ldr.w	r11, [r5, #16]
	movs	r3, #0
	cmp	r2, r11
	strd	r2, r3, [r5, #16]
	str	r0, [sp, #64]
	bls	.LBB107_29
	ands	r5, r11, #7
	str	r6, [sp, #40]
	str	r1, [sp, #52]
	beq	.LBB107_27
	movw	r6, :lower16:.Lstatic.0
	movt	r6, :upper16:.Lstatic.0
	ldr	r3, [sp, #56]
	add	r6, r5
	str	r6, [sp, #68]
	rsb.w	r6, r5, #8
	add	r3, r11
	str	r6, [sp, #36]
	add.w	r6, r8, #48
	adds	r3, #24
	str	r5, [sp, #56]
	ldr	r5, [r6]
	bic	r6, r3, #7
	str.w	lr, [sp, #48]
	str	r6, [sp, #32]
	adds	r3, r5, r6
	ldr.w	lr, [r5, r6]
	ldr	r6, [sp, #56]
	str	r3, [sp, #28]
	ldr.w	r12, [r3, #4]
	add	r3, sp, #80
	ldr	r1, [sp, #68]
	str	r2, [sp, #68]
	ldr	r2, [sp, #36]
	adds	r0, r3, r6
	strd	lr, r12, [sp, #80]
	bl	tlsf_memory_cpy
	ldrd	r3, r12, [sp, #80]
	ldr	r6, [sp, #32]
	ldrd	r0, r2, [sp, #64]
	ldrd	lr, r1, [sp, #48]
	str	r3, [r5, r6]
	ldr	r5, [sp, #56]
	ldr	r3, [sp, #28]
	str.w	r12, [r3, #4]
.LBB107_27:
	lsr.w	r3, r11, #3
	cmp	r5, #0
	mov.w	r12, #1
	it	ne
	addne.w	r3, r12, r11, lsr #3
	lsrs	r5, r2, #3
	lsls	r6, r2, #29
	it	ne
	addne.w	r5, r12, r2, lsr #3
	ldr	r6, [sp, #40]
	cmp	r5, r3
	beq	.LBB107_29
	sub.w	r12, r5, r3
	add.w	r5, r8, #48
	ldr	r6, [sp, #76]
	ldr	r5, [r5]
	add	r3, r6
	add.w	r3, r5, r3, lsl #3
	lsl.w	r12, r12, #3
	add.w	r0, r3, #24
	movs	r1, #0
	mov	r11, r2
	mov	r2, r12
	mov	r5, lr
	bl	tlsf_memory_set
	ldr	r6, [sp, #40]
	ldr	r0, [sp, #64]
	ldr	r1, [sp, #52]
	mov	lr, r5
	mov	r2, r11
.LBB107_29:
	ldr.w	r11, [sp, #44]
	add.w	r3, r11, #4
	cmp	r9, r3
	mov	r3, r9
	blo	.LBB107_31
	mov	r5, r1
	ldr	r1, [sp, #76]
	ldr	r3, [sp, #60]
	strd	r4, r6, [sp, #8]
	add.w	r0, r8, #48
	mov	r4, r2
	mov	r2, r7
	str.w	r11, [sp]
	mov	r6, lr
	bl	tlsf_heap.refitting.split_off.5
	ldr	r0, [sp, #64]
	mov	lr, r6
	mov	r2, r4
	mov	r1, r5
	mov	r3, r11
.LBB107_31:
	clz	r7, r2
	lsr.w	r11, r7, #5
	ldrd	r7, r5, [r8, #32]
	ldr.w	r6, [r8, #40]
	sub.w	r3, r3, r9
	adds	r7, #1
	add	r3, r6
	adc	r6, r5, #0
	strd	r7, r6, [r8, #32]
	b	.LBB107_41
.LBB107_32:
	ldrd	r12, r5, [r8, #32]
	str	r6, [sp, #72]
	and.w	r3, r12, r5
	adds	r3, #1
	beq.w	.LBB107_71
	ldr	r7, [r4, #16]
	movs	r3, #0
	cmp	r2, r7
	add.w	r6, r8, #48
	strd	r2, r3, [r4, #16]
	bls	.LBB107_38
	str	r5, [sp, #36]
	ands	r5, r7, #7
	str.w	r12, [sp, #56]
	str	r0, [sp, #64]
	str	r1, [sp, #52]
	beq	.LBB107_36
	ldr	r3, [sp, #40]
	ldr	r6, [r6]
	add	r3, r7
	add.w	r12, r3, #24
	movw	r3, :lower16:.Lstatic.0
	movt	r3, :upper16:.Lstatic.0
	add	r3, r5
	bic	r4, r12, #7
	str	r7, [sp, #40]
	str	r3, [sp, #68]
	rsb.w	r3, r5, #8
	adds	r7, r6, r4
	str.w	lr, [sp, #48]
	str	r3, [sp, #32]
	ldr	r3, [r6, r4]
	ldr.w	lr, [r7, #4]
	ldr	r1, [sp, #68]
	strd	r3, lr, [sp, #80]
	add	r3, sp, #80
	str	r2, [sp, #68]
	ldr	r2, [sp, #32]
	adds	r0, r3, r5
	bl	tlsf_memory_cpy
	ldrd	r3, r12, [sp, #80]
	ldrd	r0, r2, [sp, #64]
	ldrd	lr, r1, [sp, #48]
	str.w	r12, [r7, #4]
	ldr	r7, [sp, #40]
	str	r3, [r6, r4]
	add.w	r6, r8, #48
.LBB107_36:
	lsrs	r3, r7, #3
	cmp	r5, #0
	mov.w	r12, #1
	it	ne
	addne.w	r3, r12, r7, lsr #3
	lsrs	r4, r2, #3
	lsls	r5, r2, #29
	it	ne
	addne.w	r4, r12, r2, lsr #3
	ldr.w	r12, [sp, #56]
	ldr	r5, [sp, #36]
	cmp	r4, r3
	beq	.LBB107_38
	ldr	r7, [sp, #76]
	subs	r5, r4, r3
	ldr	r4, [r6]
	add	r3, r7
	add.w	r3, r4, r3, lsl #3
	lsl.w	r12, r5, #3
	add.w	r0, r3, #24
	movs	r1, #0
	mov	r4, r2
	mov	r2, r12
	mov	r6, lr
	bl	tlsf_memory_set
	ldr	r5, [sp, #36]
	ldr.w	r12, [sp, #56]
	ldr	r0, [sp, #64]
	ldr	r1, [sp, #52]
	mov	lr, r6
	mov	r2, r4
.LBB107_38:
	ldr	r6, [sp, #60]
	add.w	r3, r11, #4
	cmp	r6, r3
	mov	r3, r6
	blo	.LBB107_40
	strd	r12, r5, [sp, #8]
	mov	r5, r1
	ldr	r1, [sp, #76]
	ldr	r3, [sp, #44]
	mov	r7, r0
	add.w	r0, r8, #48
	mov	r4, r2
	mov	r2, r9
	str.w	r11, [sp]
	mov	r6, lr
	bl	tlsf_heap.refitting.split_off.4
	mov	lr, r6
	mov	r2, r4
	mov	r0, r7
	mov	r1, r5
	mov	r3, r11
.LBB107_40:
	ldr	r7, [sp, #60]
	clz	r5, r2
	subs	r3, r3, r7
	ldrd	r7, r4, [r8, #32]
	lsr.w	r11, r5, #5
	ldr.w	r5, [r8, #40]
	adds	r7, #1
	add	r3, r5
	adc	r5, r4, #0
	strd	r7, r5, [r8, #32]
.LBB107_41:
	str.w	r3, [r8, #40]
	b	.LBB107_55
.LBB107_42:
	add.w	r3, r11, r3, lsl #3
	ldr.w	r12, [r3, #4]
.LBB107_43:
	add.w	r3, r9, r5, lsr #2
	cmp	r3, r4
	mov.w	r6, #-1
	bhs	.LBB107_48
	ldr	r3, [sp, #72]
	mov	r7, r6
	ldrd	r5, r6, [r8, #32]
	strd	r3, lr, [sp, #88]
	subs	r3, r7, #2
	sbc	r7, r7, #0
	subs	r3, r3, r5
	ldr.w	r12, [sp, #76]
	sbcs.w	r3, r7, r6
	str.w	r10, [sp, #80]
	str	r5, [sp, #72]
	str.w	r12, [sp, #84]
	blo.w	.LBB107_71
	cmp.w	r4, #16777216
	bhi.w	.LBB107_63
	orr	r3, r4, #32
	clz	r3, r3
	rsb.w	r3, r3, #26
	subs	r7, r4, #1
	str	r6, [sp, #48]
	lsr.w	r6, r7, r3
	add.w	r3, r6, r3, lsl #5
	adds	r3, #1
	subs	r3, #1
	mov.w	r7, #0
	sbc	r7, r7, #0
	lsrs	r5, r3, #5
	orr.w	r5, r5, r7, lsl #27
	add.w	r10, r8, #108
	str	r4, [sp, #44]
	ldr.w	r4, [r10, r5, lsl #2]
	and	r6, r6, #31
	lsr.w	r6, r4, r6
	bics	lr, r6, #1
	beq.w	.LBB107_74
	rbit	r6, lr
	clz	r6, r6
	adds	r5, r3, r6
	adc	r3, r7, #0
	lsrs	r7, r5, #5
	orr.w	r7, r7, r3, lsl #27
	b	.LBB107_76
.LBB107_48:
	mov	r11, r4
	ldrd	r4, r3, [r8, #32]
	str.w	lr, [sp, #48]
	eor.w	lr, r3, r6
	eors	r6, r4
	orrs.w	r6, r6, lr
	beq.w	.LBB107_71
	strd	r4, r3, [sp, #16]
	add.w	r4, r8, #48
	str	r1, [sp, #52]
	ldr	r1, [sp, #76]
	ldr	r3, [sp, #60]
	str	r0, [sp, #64]
	mov	r0, r4
	str	r2, [sp, #68]
	mov	r2, r7
	strd	r5, r12, [sp]
	str.w	r11, [sp, #8]
	bl	tlsf_heap.refitting.recut.5
	ldr	r3, [r4]
	ldr	r4, [sp, #56]
	ldr	r2, [sp, #68]
	add	r3, r4
	ldr	r7, [r3, #16]
	ldr	r1, [sp, #52]
	mov	r5, r0
	ldr	r0, [sp, #64]
	movs	r6, #0
	cmp	r2, r7
	strd	r2, r6, [r3, #16]
	bls	.LBB107_54
	ands	r11, r7, #7
	str	r5, [sp, #60]
	beq	.LBB107_52
	adds	r0, r4, r7
	add.w	r3, r8, #48
	adds	r0, #24
	ldr	r6, [r3]
	bic	r4, r0, #7
	movw	r1, :lower16:.Lstatic.0
	adds	r5, r6, r4
	movt	r1, :upper16:.Lstatic.0
	ldr.w	r12, [r6, r4]
	ldr	r3, [r5, #4]
	add	r0, sp, #80
	add	r1, r11
	rsb.w	r2, r11, #8
	add	r0, r11
	strd	r12, r3, [sp, #80]
	bl	tlsf_memory_cpy
	ldrd	r0, r2, [sp, #64]
	ldr	r1, [sp, #52]
	ldrd	r3, r12, [sp, #80]
	str	r3, [r6, r4]
	str.w	r12, [r5, #4]
.LBB107_52:
	lsrs	r3, r7, #3
	movs	r6, #1
	cmp.w	r11, #0
	it	ne
	addne.w	r3, r6, r7, lsr #3
	lsrs	r7, r2, #3
	lsls	r4, r2, #29
	it	ne
	addne.w	r7, r6, r2, lsr #3
	ldr	r5, [sp, #60]
	cmp	r7, r3
	add.w	r6, r8, #48
	beq	.LBB107_54
	ldr	r2, [sp, #76]
	ldr	r0, [r6]
	add	r2, r3
	subs	r1, r7, r3
	add.w	r0, r0, r2, lsl #3
	adds	r0, #24
	lsls	r2, r1, #3
	movs	r1, #0
	bl	tlsf_memory_set
	ldrd	r0, r2, [sp, #64]
	ldr	r1, [sp, #52]
.LBB107_54:
	ldrd	r3, r7, [r8, #40]
	sub.w	r6, r5, r9
	add	r3, r6
	cmp	r7, r3
	str.w	r3, [r8, #40]
	ldr.w	lr, [sp, #48]
	it	lo
	strlo.w	r3, [r8, #44]
	ldrd	r7, r6, [r8, #32]
	clz	r3, r2
	lsr.w	r11, r3, #5
	adds	r3, r7, #1
	adc	r7, r6, #0
	strd	r3, r7, [r8, #32]
.LBB107_55:
	ldrd	r6, r5, [sp, #72]
.LBB107_56:
	add	r2, r11
	subs	r2, #1
	movs	r3, #1
	lsls	r2, r2, #28
	strb.w	r3, [r8]
	bpl	.LBB107_58
	ldrb	r2, [r0, #28]
	cmp	r2, #0
	itt	eq
	moveq	r2, #1
	strbeq	r2, [r0, #28]
.LBB107_58:
	str.w	r10, [r1]
	str	r5, [r1, #4]
	str	r6, [r1, #8]
	str.w	lr, [r1, #12]
	movs	r0, #0
	add	sp, #100
	pop.w	{r4, r5, r6, r7, r8, r9, r10, r11, pc}
.LBB107_59:
	ldr	r7, [sp, #56]
	add.w	r5, r7, r5, lsl #3
	ldr.w	r12, [r5, #4]
.LBB107_60:
	ldr	r4, [sp, #60]
	str.w	r11, [sp, #36]
	add.w	r5, r4, r3, lsr #2
	cmp	r5, r11
	bhs	.LBB107_64
	mov.w	r7, #-1
	strd	r6, lr, [sp, #88]
	ldrd	r5, r6, [r8, #32]
	subs	r3, r7, #2
	sbc	r7, r7, #0
	subs	r3, r3, r5
	ldr.w	r12, [sp, #76]
	sbcs.w	r3, r7, r6
	str.w	r10, [sp, #80]
	str	r5, [sp, #72]
	str.w	r12, [sp, #84]
	blo.w	.LBB107_71
	ldr	r7, [sp, #36]
	cmp.w	r7, #1048576
	bls.w	.LBB107_72
.LBB107_63:
	ldrd	r0, r1, [r8, #8]
	adds	r0, #1
	it	hs
	movhs.w	r0, #-1
	cmp	r2, r1
	it	hi
	movhi	r1, r2
	strd	r0, r1, [r8, #8]
	movs	r0, #1
	strb.w	r0, [r8]
	add	sp, #100
	pop.w	{r4, r5, r6, r7, r8, r9, r10, r11, pc}
.LBB107_64:
	ldrd	r4, r5, [r8, #32]
	and.w	r7, r4, r5
	adds	r7, #1
	ldr	r7, [sp, #36]
	beq.w	.LBB107_71
	strd	r4, r5, [sp, #16]
	strd	r3, r12, [sp]
	add.w	r4, r8, #48
	str	r1, [sp, #52]
	ldr	r1, [sp, #76]
	ldr	r3, [sp, #44]
	str	r0, [sp, #64]
	mov	r0, r4
	str	r2, [sp, #68]
	mov	r2, r9
	str.w	lr, [sp, #48]
	str	r7, [sp, #8]
	bl	tlsf_heap.refitting.recut.4
	ldr	r3, [r4]
	ldr	r5, [sp, #40]
	ldr	r2, [sp, #68]
	add	r3, r5
	ldr	r4, [r3, #16]
	ldr	r1, [sp, #52]
	mov	r9, r0
	ldr	r0, [sp, #64]
	movs	r7, #0
	cmp	r2, r4
	strd	r2, r7, [r3, #16]
	bls	.LBB107_70
	ands	r11, r4, #7
	beq	.LBB107_68
	adds	r0, r5, r4
	add.w	r3, r8, #48
	adds	r0, #24
	ldr	r7, [r3]
	bic	r5, r0, #7
	str.w	r9, [sp, #72]
	add.w	r9, r7, r5
	ldr	r0, [r7, r5]
	ldr.w	r3, [r9, #4]
	movw	r1, :lower16:.Lstatic.0
	movt	r1, :upper16:.Lstatic.0
	strd	r0, r3, [sp, #80]
	add	r0, sp, #80
	add	r1, r11
	rsb.w	r2, r11, #8
	add	r0, r11
	bl	tlsf_memory_cpy
	ldrd	r3, r12, [sp, #80]
	ldrd	r0, r2, [sp, #64]
	ldr	r1, [sp, #52]
	str.w	r12, [r9, #4]
	ldr.w	r9, [sp, #72]
	str	r3, [r7, r5]
.LBB107_68:
	lsrs	r3, r4, #3
	cmp.w	r11, #0
	mov.w	r7, #1
	it	ne
	addne.w	r3, r7, r4, lsr #3
	lsrs	r4, r2, #3
	lsls	r5, r2, #29
	it	ne
	addne.w	r4, r7, r2, lsr #3
	cmp	r4, r3
	beq	.LBB107_70
	add.w	r0, r8, #48
	ldr	r2, [sp, #76]
	ldr	r0, [r0]
	add	r2, r3
	subs	r1, r4, r3
	add.w	r0, r0, r2, lsl #3
	adds	r0, #24
	lsls	r2, r1, #3
	movs	r1, #0
	bl	tlsf_memory_set
	ldrd	r0, r2, [sp, #64]
	ldr	r1, [sp, #52]
.LBB107_70:
	ldr	r5, [sp, #60]
	ldrd	r3, r7, [r8, #40]
	sub.w	r5, r9, r5
	add	r3, r5
	cmp	r7, r3
	str.w	r3, [r8, #40]
	ldr.w	lr, [sp, #48]
	it	lo
	strlo.w	r3, [r8, #44]
	ldrd	r7, r5, [r8, #32]
	clz	r3, r2
	lsr.w	r11, r3, #5
	adds	r3, r7, #1
	adc	r7, r5, #0
	ldr	r5, [sp, #76]
	strd	r3, r7, [r8, #32]
	b	.LBB107_56
.LBB107_71:
	movs	r0, #1
	strb.w	r0, [r8]
	movs	r0, #2
	add	sp, #100
	pop.w	{r4, r5, r6, r7, r8, r9, r10, r11, pc}
.LBB107_72:
	orr	r3, r7, #16
	clz	r3, r3
	rsb.w	r3, r3, #27
	subs	r7, #1
	lsr.w	r4, r7, r3
	add.w	r3, r4, r3, lsl #4
	adds	r3, #1
	subs.w	lr, r3, #1
	mov.w	r3, #0
	sbc	r5, r3, #0
	lsr.w	r3, lr, #4
	orr.w	r3, r3, r5, lsl #28
	add.w	r11, r8, #108
	ldr.w	r7, [r11, r3, lsl #2]
	and	r4, r4, #15
	lsr.w	r4, r7, r4
	bics	r4, r4, #1
	str	r6, [sp, #48]
	beq.w	.LBB107_86
	rbit	r3, r4
	clz	r3, r3
	adds.w	r4, lr, r3
	adc	r3, r5, #0
	lsrs	r7, r4, #4
	orr.w	r9, r7, r3, lsl #28
	b	.LBB107_88
.LBB107_74:
	ldr.w	r3, [r8, #104]
	mvn	r7, #1
	lsls	r7, r5
	ands	r3, r7
	beq.w	.LBB107_63
	rbit	r3, r3
	clz	r3, r3
	ldr.w	r7, [r10, r3, lsl #2]
	rbit	r7, r7
	clz	r7, r7
	add.w	r5, r7, r3, lsl #5
	lsrs	r7, r5, #5
.LBB107_76:
	add.w	r6, r8, #192
	ldr.w	r9, [r6, r5, lsl #2]
	add.w	r3, r11, r9, lsl #3
	ldr	r3, [r3, #16]
	lsl.w	lr, r9, #3
	adds	r4, r3, #1
	beq	.LBB107_78
	add.w	r4, r11, r3, lsl #3
	mov	r7, r6
	mov.w	r6, #-1
	str	r6, [r4, #20]
	str.w	r3, [r7, r5, lsl #2]
	add.w	r3, r8, #48
	ldr.w	r11, [r3]
	b	.LBB107_80
.LBB107_78:
	mov.w	r3, #-1
	str.w	r3, [r6, r5, lsl #2]
	ldr.w	r4, [r10, r7, lsl #2]
	and	r5, r5, #31
	movs	r3, #1
	lsl.w	r5, r3, r5
	bics	r4, r5
	str.w	r4, [r10, r7, lsl #2]
	bne	.LBB107_80
	ldr.w	r4, [r8, #104]
	lsls	r3, r7
	bic.w	r3, r4, r3
	str.w	r3, [r8, #104]
.LBB107_80:
	ldr.w	r3, [r11, lr]
	ldr	r4, [sp, #44]
	add.w	r5, r11, lr
	ldr.w	r10, [r5, #4]
	sub.w	r7, r3, r4, lsl #2
	cmp	r7, #15
	str.w	r9, [sp, #60]
	bhi	.LBB107_82
	subs	r3, #1
	sbc	r7, r10, #0
	strd	r3, r7, [r5]
	ldr	r7, [sp, #72]
	movs	r6, #0
	str	r7, [r5, #8]
	ldr	r7, [sp, #48]
	str	r6, [r5, #20]
	strd	r7, r2, [r5, #12]
	lsrs	r3, r3, #2
	add.w	r11, r8, #48
	b	.LBB107_100
.LBB107_82:
	subs	r3, r3, r7
	sbc	r6, r10, #0
	str.w	lr, [sp, #40]
	add.w	lr, r9, r4
	strd	r3, r6, [r5]
	ldr	r4, [sp, #72]
	ldr	r6, [sp, #48]
	mov.w	r10, #0
	add.w	r3, r11, lr, lsl #3
	movw	r12, #65528
	str	r4, [r5, #8]
	strd	r6, r2, [r5, #12]
	str.w	r10, [r5, #20]
	str.w	r7, [r11, lr, lsl #3]
	strd	r9, r4, [r3, #4]
	str	r6, [r3, #12]
	movt	r12, #8191
	ldr.w	r3, [r8, #72]
	and.w	r4, r12, lr, lsr #3
	ldr	r5, [r3, r4]
	and	r6, lr, #63
	mov.w	r11, #1
	lsl.w	r12, r11, r6
	subs.w	r10, r6, #32
	it	pl
	movpl.w	r12, #0
	orr.w	r5, r5, r12
	str	r5, [r3, r4]
	add	r3, r4
	rsb.w	r6, r6, #32
	ldr	r5, [r3, #4]
	lsr.w	r6, r11, r6
	it	pl
	lslpl.w	r6, r11, r10
	orrs	r6, r5
	str	r6, [r3, #4]
	lsls	r3, r7, #30
	lsr.w	r3, r7, #2
	add.w	r11, r8, #48
	bmi	.LBB107_84
	ldr.w	r7, [r11]
	add.w	r6, r3, lr
	add.w	r7, r7, r6, lsl #3
	str.w	lr, [r7, #4]
.LBB107_84:
	orr	r7, r3, #32
	clz	r7, r7
	rsb.w	r7, r7, #26
	lsrs	r3, r7
	add.w	r4, r3, r7, lsl #5
	add.w	r6, r8, #192
	ldr.w	r5, [r6, r4, lsl #2]
	ldr.w	r12, [sp, #76]
	lsl.w	r7, lr, #3
	cmp.w	r5, #-1
	add.w	r9, r8, #108
	str.w	lr, [r6, r4, lsl #2]
	ble.w	.LBB107_98
	ldr.w	r3, [r11]
	mov.w	r6, #-1
	add	r7, r3
	add.w	r3, r3, r5, lsl #3
	strd	r5, r6, [r7, #16]
	str.w	lr, [r3, #20]
	b	.LBB107_99
.LBB107_86:
	ldr.w	r7, [r8, #104]
	mvn	r5, #1
	lsl.w	r3, r5, r3
	ands	r3, r7
	beq.w	.LBB107_63
	rbit	r3, r3
	clz	r3, r3
	ldr.w	r7, [r11, r3, lsl #2]
	rbit	r7, r7
	clz	r7, r7
	add.w	r4, r7, r3, lsl #4
	lsr.w	r9, r4, #4
.LBB107_88:
	add.w	r5, r8, #192
	ldr.w	r10, [r5, r4, lsl #2]
	ldr	r6, [sp, #56]
	lsl.w	lr, r10, #3
	add.w	r3, r6, r10, lsl #3
	ldr	r3, [r3, #16]
	adds	r7, r3, #1
	beq	.LBB107_90
	add.w	r6, r6, r3, lsl #3
	mov.w	r7, #-1
	str	r7, [r6, #20]
	str.w	r3, [r5, r4, lsl #2]
	add.w	r3, r8, #48
	ldr	r6, [r3]
	b	.LBB107_92
.LBB107_90:
	mov.w	r3, #-1
	str.w	r3, [r5, r4, lsl #2]
	ldr.w	r7, [r11, r9, lsl #2]
	and	r4, r4, #15
	movs	r3, #1
	lsl.w	r4, r3, r4
	bics.w	r4, r7, r4
	str.w	r4, [r11, r9, lsl #2]
	bne	.LBB107_92
	ldr.w	r4, [r8, #104]
	lsl.w	r3, r3, r9
	bic.w	r3, r4, r3
	str.w	r3, [r8, #104]
.LBB107_92:
	ldr	r7, [sp, #36]
	ldr.w	r5, [r6, lr]
	add.w	r4, r6, lr
	ldr	r3, [r4, #4]
	sub.w	r9, r5, r7, lsl #2
	cmp.w	r9, #15
	str.w	r10, [sp, #60]
	bhi	.LBB107_94
	subs	r7, r5, #1
	sbc	r3, r3, #0
	strd	r7, r3, [r4]
	ldr	r3, [sp, #72]
	movs	r5, #0
	str	r3, [r4, #8]
	ldr	r3, [sp, #48]
	str	r5, [r4, #20]
	strd	r3, r2, [r4, #12]
	lsrs	r3, r7, #2
	b	.LBB107_105
.LBB107_94:
	subs.w	r5, r5, r9
	sbc	r3, r3, #0
	str.w	lr, [sp, #56]
	add.w	lr, r10, r7
	strd	r5, r3, [r4]
	ldr	r5, [sp, #72]
	ldr	r7, [sp, #48]
	mov.w	r12, #0
	add.w	r3, r6, lr, lsl #3
	movw	r11, #65528
	str	r5, [r4, #8]
	strd	r7, r2, [r4, #12]
	str.w	r12, [r4, #20]
	str.w	r9, [r6, lr, lsl #3]
	strd	r10, r5, [r3, #4]
	str	r7, [r3, #12]
	movt	r11, #8191
	ldr.w	r12, [r8, #72]
	and.w	r5, r11, lr, lsr #3
	ldr.w	r3, [r12, r5]
	and	r4, lr, #63
	movs	r7, #1
	lsl.w	r11, r7, r4
	subs.w	r6, r4, #32
	it	pl
	movpl.w	r11, #0
	orr.w	r3, r3, r11
	str.w	r3, [r12, r5]
	add.w	r3, r12, r5
	ldr	r5, [r3, #4]
	rsb.w	r4, r4, #32
	lsr.w	r4, r7, r4
	it	pl
	lslpl.w	r4, r7, r6
	orrs	r5, r4
	str	r5, [r3, #4]
	lsls.w	r3, r9, #30
	lsr.w	r3, r9, #2
	add.w	r10, r8, #48
	bmi	.LBB107_96
	ldr.w	r7, [r10]
	add.w	r5, r3, lr
	add.w	r7, r7, r5, lsl #3
	str.w	lr, [r7, #4]
.LBB107_96:
	orr	r7, r3, #16
	clz	r7, r7
	rsb.w	r7, r7, #27
	lsr.w	r4, r3, r7
	add.w	r3, r4, r7, lsl #4
	add.w	r6, r8, #192
	ldr.w	r5, [r6, r3, lsl #2]
	ldr.w	r12, [sp, #76]
	lsl.w	r7, lr, #3
	cmp.w	r5, #-1
	str.w	lr, [r6, r3, lsl #2]
	mov.w	r6, #-1
	ble	.LBB107_103
	ldr.w	r3, [r10]
	mov.w	r4, #-1
	add	r7, r3
	add.w	r3, r3, r5, lsl #3
	strd	r5, r4, [r7, #16]
	str.w	lr, [r3, #20]
	b	.LBB107_104
.LBB107_98:
	ldr.w	r6, [r8, #48]
	mov.w	r12, #1
	add	r7, r6
	mov.w	r6, #-1
	strd	r6, r6, [r7, #16]
	lsrs	r7, r4, #5
	ldr.w	r6, [r8, #104]
	ldr.w	r5, [r9, r7, lsl #2]
	and	r3, r3, #31
	lsl.w	r4, r12, r7
	lsl.w	r3, r12, r3
	orrs	r6, r4
	ldr.w	r12, [sp, #76]
	orrs	r3, r5
	str.w	r6, [r8, #104]
	str.w	r3, [r9, r7, lsl #2]
.LBB107_99:
	ldr	r4, [sp, #44]
	ldr.w	lr, [sp, #40]
	mov	r3, r4
.LBB107_100:
	ldrd	r7, r6, [r8, #40]
	add	r3, r7
	cmp	r6, r3
	str.w	r3, [r8, #40]
	it	lo
	strlo.w	r3, [r8, #44]
	str	r0, [sp, #64]
	mov	r7, r1
	ldrd	r0, r1, [r8, #32]
	ldr.w	r10, [r8, #24]
	adds	r0, #1
	ldr	r6, [sp, #72]
	adc	r3, r1, #0
	subs	r1, r4, #3
	strd	r0, r3, [r8, #32]
	beq	.LBB107_102
	ldr.w	r0, [r11]
	lsls	r3, r1, #3
	add	r0, lr
	adds	r0, #24
	movs	r1, #0
	mov	r4, r2
	mov	r2, r3
	mov	r5, r12
	mov	r9, lr
	bl	tlsf_memory_set
	mov	lr, r9
	mov	r12, r5
	mov	r2, r4
.LBB107_102:
	ldr.w	r0, [r11]
	ldr	r3, [sp, #56]
	clz	r1, r2
	add	r3, r0
	add	r0, lr
	ldr	r3, [r3, #16]
	ldr	r5, [r0, #16]
	mov	r0, r11
	cmp	r5, r3
	it	lo
	movlo	r3, r5
	ldr	r4, [sp, #60]
	lsr.w	r11, r1, #5
	mov	r1, r12
	mov	r5, r2
	mov	r2, r4
	bl	tlsf_words.words.Words.copy_payload
	ldr	r0, [sp, #68]
	add	r1, sp, #80
	bl	tlsf_heap.heap.Heap.release_live.5
	mov	r2, r5
	mov	r5, r4
	mov	r1, r7
	b	.LBB107_108
.LBB107_103:
	ldr.w	r5, [r8, #48]
	lsrs	r3, r3, #4
	add	r7, r5
	strd	r6, r6, [r7, #16]
	ldr.w	r7, [r8, #104]
	add.w	r6, r8, #108
	mov.w	r12, #1
	ldr.w	lr, [r6, r3, lsl #2]
	lsl.w	r5, r12, r3
	and	r4, r4, #15
	orrs	r5, r7
	lsl.w	r7, r12, r4
	ldr.w	r12, [sp, #76]
	orr.w	r7, r7, lr
	str.w	r5, [r8, #104]
	str.w	r7, [r6, r3, lsl #2]
.LBB107_104:
	ldr	r3, [sp, #36]
	ldr.w	lr, [sp, #56]
.LBB107_105:
	ldrd	r7, r5, [r8, #40]
	add.w	r9, r8, #48
	add	r3, r7
	cmp	r5, r3
	str.w	r3, [r8, #40]
	it	lo
	strlo.w	r3, [r8, #44]
	str	r0, [sp, #64]
	str	r1, [sp, #52]
	ldrd	r0, r1, [r8, #32]
	ldr.w	r10, [r8, #24]
	adds	r0, #1
	adc	r3, r1, #0
	ldr	r1, [sp, #36]
	ldr	r6, [sp, #72]
	subs	r1, #3
	strd	r0, r3, [r8, #32]
	beq	.LBB107_107
	ldr.w	r0, [r9]
	lsls	r3, r1, #3
	add	r0, lr
	adds	r0, #24
	movs	r1, #0
	mov	r4, r2
	mov	r2, r3
	mov	r5, r12
	mov	r7, lr
	bl	tlsf_memory_set
	mov	lr, r7
	mov	r12, r5
	mov	r2, r4
.LBB107_107:
	ldr.w	r0, [r9]
	ldr	r3, [sp, #40]
	clz	r1, r2
	add	r3, r0
	add	r0, lr
	ldr	r3, [r3, #16]
	ldr	r0, [r0, #16]
	lsr.w	r11, r1, #5
	cmp	r0, r3
	it	lo
	movlo	r3, r0
	ldr	r4, [sp, #60]
	mov	r0, r9
	mov	r1, r12
	mov	r5, r2
	mov	r2, r4
	bl	tlsf_words.words.Words.copy_payload
	ldr	r0, [sp, #68]
	add	r1, sp, #80
	bl	tlsf_heap.heap.Heap.release_live.4
	ldr	r1, [sp, #52]
	mov	r2, r5
	mov	r5, r4
.LBB107_108:
	ldr	r0, [sp, #64]
	ldr.w	lr, [sp, #48]
	b	.LBB107_56
.Lfunc_end107:
	.size	tlsf_reallocate, .Lfunc_end107-tlsf_reallocate
	.cfi_endproc
	.section	.text.tlsf_release,"ax",%progbits
	.globl	tlsf_release
	.p2align	2
	.type	tlsf_release,%function
	.code	16
	.thumb_func
tlsf_release:
	.cfi_startproc
	mov	r12, r3
	mov	r1, r2
	ldrd	r2, r3, [sp]
	str.w	r12, [sp]
	b	tlsf_c.heap_calls.release_named
.Lfunc_end108:
	.size	tlsf_release, .Lfunc_end108-tlsf_release
	.cfi_endproc
	.section	.text.tlsf_release_all,"ax",%progbits
	.globl	tlsf_release_all
	.p2align	2
	.type	tlsf_release_all,%function
	.code	16
	.thumb_func
tlsf_release_all:
	.cfi_startproc
	push.w	{r4, r5, r6, r7, r8, r9, r10, r11, lr}
	.cfi_def_cfa_offset 36
	.cfi_offset lr, -4
	.cfi_offset r11, -8
	.cfi_offset r10, -12
	.cfi_offset r9, -16
	.cfi_offset r8, -20
	.cfi_offset r7, -24
	.cfi_offset r6, -28
	.cfi_offset r5, -32
	.cfi_offset r4, -36
	sub	sp, #52
	.cfi_def_cfa_offset 88
	ldrb	r3, [r0, #8]
	cmp	r1, #0
	it	eq
	addeq.w	r1, r1, #4096
	cbz	r3, .LBB109_7
	ldr.w	r9, [r0]
	ldrb.w	r0, [r9]
	cbz	r0, .LBB109_7
	ldrb.w	r0, [r9, #16]
	movs	r3, #0
	strb.w	r3, [r9]
	cbz	r0, .LBB109_5
	cmp	r2, #0
	beq.w	.LBB109_44
	movs	r4, #0
	mov.w	r10, #0
	b	.LBB109_11
.LBB109_5:
	cmp	r2, #0
	beq.w	.LBB109_44
	movs	r5, #0
	mov.w	r10, #0
	b	.LBB109_29
.LBB109_7:
	movs	r0, #0
	add	sp, #52
	pop.w	{r4, r5, r6, r7, r8, r9, r10, r11, lr}
	b	tlsf_c.call_fault.CallFault.refusal
.LBB109_8:
	adds	r3, r5, #1
	adc	r7, lr, #0
	strd	r3, r7, [r9, #32]
	strd	r0, r11, [sp]
	strd	r5, lr, [sp, #8]
	ldr	r3, [sp, #40]
	add.w	r0, r9, #48
	mov	r5, r2
	mov	r2, r6
	str.w	r12, [sp, #16]
	mov	r7, r1
	bl	tlsf_heap.fitting.merge_next.5
.LBB109_9:
	mov	r2, r5
	mov	r1, r7
	.p2align	2
.LBB109_10:
	adds	r4, #1
	adc	r10, r10, #0
	subs	r0, r4, r2
	sbcs	r0, r10, #0
	bhs.w	.LBB109_44
.LBB109_11:
	lsls	r0, r4, #4
	ldr	r0, [r1, r0]
	ldr.w	r3, [r9, #24]
	cmp	r0, r3
	bne	.LBB109_10
	add.w	r3, r1, r4, lsl #4
	ldr.w	r12, [r3, #4]
	ldr.w	r0, [r9, #56]
	cmp	r12, r0
	bhs	.LBB109_10
	movw	r7, #65528
	ldr.w	r0, [r9, #72]
	movt	r7, #8191
	and.w	r6, r7, r12, lsr #3
	adds	r5, r0, r6
	ldr	r5, [r5, #4]
	ldr	r0, [r0, r6]
	and	r6, r12, #63
	rsb.w	r7, r6, #32
	lsrs	r0, r6
	lsl.w	r7, r5, r7
	orrs	r0, r7
	subs.w	r7, r6, #32
	it	pl
	lsrpl.w	r0, r5, r7
	lsls	r0, r0, #31
	beq	.LBB109_10
	add.w	r0, r9, #48
	ldr.w	r11, [r0]
	ldr.w	r0, [r11, r12, lsl #3]
	lsls	r7, r0, #31
	bne	.LBB109_10
	add.w	r8, r11, r12, lsl #3
	ldr	r7, [r3, #12]
	ldrd	r6, r5, [r8, #8]
	ldr	r3, [r3, #8]
	eors	r7, r5
	eors	r3, r6
	orrs	r3, r7
	bne	.LBB109_10
	ldrd	r5, lr, [r9, #32]
	mov.w	r6, #-1
	eor.w	r3, lr, r6
	eors	r6, r5
	orrs	r3, r6
	beq	.LBB109_10
	ldr.w	r3, [r8, #4]
	lsrs	r6, r0, #2
	str	r3, [sp, #44]
	ldr.w	r3, [r9, #40]
	lsls	r7, r0, #30
	sub.w	r3, r3, r0, lsr #2
	str.w	r3, [r9, #40]
	str	r6, [sp, #36]
	bmi	.LBB109_19
	add.w	r3, r6, r12
	add.w	r7, r11, r3, lsl #3
	ldr.w	r3, [r11, r3, lsl #3]
	str	r3, [sp, #48]
	ldr	r3, [r7, #4]
	b	.LBB109_20
.LBB109_19:
	movs	r3, #0
	str	r3, [sp, #48]
.LBB109_20:
	str	r3, [sp, #40]
	ldr	r6, [sp, #44]
	cmp.w	r12, #0
	itt	ne
	ldrne.w	r3, [r11, r6, lsl #3]
	lslsne.w	r7, r3, #31
	bne	.LBB109_24
	mov	r11, r6
	ldr	r6, [sp, #48]
	lsls	r3, r6, #31
	bne.w	.LBB109_8
	orr	r0, r0, #1
	strd	r0, r11, [r8]
	strd	r5, lr, [r8, #8]
	ldrd	r3, r0, [r9, #32]
	ldr	r7, [sp, #36]
	adds	r3, #1
	adc	r0, r0, #0
	strd	r3, r0, [r9, #32]
	orr	r0, r7, #32
	clz	r0, r0
	rsb.w	r3, r0, #26
	lsr.w	r0, r7, r3
	add.w	r5, r0, r3, lsl #5
	add.w	r6, r9, #192
	ldr.w	r3, [r6, r5, lsl #2]
	lsl.w	r7, r12, #3
	cmp.w	r3, #-1
	str.w	r12, [r6, r5, lsl #2]
	ble	.LBB109_25
	mov.w	r6, #-1
	add.w	r5, r9, #48
	adds	r0, r6, r3
	ldr	r5, [r5]
	adc	r6, r6, #0
	adds	r0, #1
	sbc	r6, r6, #0
	add	r7, r5
	strd	r0, r6, [r7, #16]
	add.w	r0, r5, r3, lsl #3
	str.w	r12, [r0, #20]
	b	.LBB109_10
.LBB109_24:
	add.w	r7, r11, r6, lsl #3
	ldr.w	r8, [r7, #4]
	adds.w	r11, r5, #1
	adc	r7, lr, #0
	strd	r11, r7, [r9, #32]
	strd	r0, r6, [sp, #24]
	strd	r3, r8, [sp]
	strd	r5, lr, [sp, #8]
	mov	r5, r2
	ldr	r2, [sp, #48]
	ldr	r3, [sp, #40]
	add.w	r0, r9, #48
	str.w	r12, [sp, #16]
	mov	r7, r1
	bl	tlsf_heap.fitting.merge_before.5
	b	.LBB109_9
.LBB109_25:
	ldr.w	r3, [r9, #48]
	add.w	r12, r9, #108
	add	r3, r7
	mov.w	r7, #-1
	strd	r7, r7, [r3, #16]
	lsrs	r3, r5, #5
	ldr.w	r7, [r9, #104]
	ldr.w	r6, [r12, r3, lsl #2]
	mov.w	lr, #1
	and	r0, r0, #31
	lsl.w	r5, lr, r3
	lsl.w	r0, lr, r0
	orrs	r7, r5
	orrs	r0, r6
	str.w	r7, [r9, #104]
	str.w	r0, [r12, r3, lsl #2]
	b	.LBB109_10
.LBB109_26:
	adds	r3, r4, #1
	adc	r7, lr, #0
	strd	r3, r7, [r9, #32]
	strd	r0, r11, [sp]
	strd	r4, lr, [sp, #8]
	ldr	r3, [sp, #40]
	add.w	r0, r9, #48
	mov	r4, r2
	mov	r2, r6
	str.w	r12, [sp, #16]
	mov	r7, r1
	bl	tlsf_heap.fitting.merge_next.4
.LBB109_27:
	mov	r2, r4
	mov	r1, r7
	.p2align	2
.LBB109_28:
	adds	r5, #1
	adc	r10, r10, #0
	subs	r0, r5, r2
	sbcs	r0, r10, #0
	bhs.w	.LBB109_44
.LBB109_29:
	lsls	r0, r5, #4
	ldr	r0, [r1, r0]
	ldr.w	r3, [r9, #24]
	cmp	r0, r3
	bne	.LBB109_28
	add.w	r3, r1, r5, lsl #4
	ldr.w	r12, [r3, #4]
	ldr.w	r0, [r9, #56]
	cmp	r12, r0
	bhs	.LBB109_28
	movw	r7, #65528
	ldr.w	r0, [r9, #72]
	movt	r7, #8191
	and.w	r4, r7, r12, lsr #3
	adds	r7, r0, r4
	ldr	r7, [r7, #4]
	ldr	r0, [r0, r4]
	and	r4, r12, #63
	rsb.w	r6, r4, #32
	lsrs	r0, r4
	lsl.w	r6, r7, r6
	orrs	r0, r6
	subs.w	r6, r4, #32
	it	pl
	lsrpl.w	r0, r7, r6
	lsls	r0, r0, #31
	beq	.LBB109_28
	add.w	r0, r9, #48
	ldr.w	r11, [r0]
	ldr.w	r0, [r11, r12, lsl #3]
	lsls	r7, r0, #31
	bne	.LBB109_28
	add.w	r8, r11, r12, lsl #3
	ldr	r7, [r3, #12]
	ldrd	r6, r4, [r8, #8]
	ldr	r3, [r3, #8]
	eors	r7, r4
	eors	r3, r6
	orrs	r3, r7
	bne	.LBB109_28
	ldrd	r4, lr, [r9, #32]
	mov.w	r6, #-1
	eor.w	r3, lr, r6
	eors	r6, r4
	orrs	r3, r6
	beq	.LBB109_28
	ldr.w	r3, [r8, #4]
	lsrs	r6, r0, #2
	str	r3, [sp, #44]
	ldr.w	r3, [r9, #40]
	lsls	r7, r0, #30
	sub.w	r3, r3, r0, lsr #2
	str.w	r3, [r9, #40]
	str	r6, [sp, #36]
	bmi	.LBB109_37
	add.w	r3, r6, r12
	add.w	r7, r11, r3, lsl #3
	ldr.w	r3, [r11, r3, lsl #3]
	str	r3, [sp, #48]
	ldr	r3, [r7, #4]
	b	.LBB109_38
.LBB109_37:
	movs	r3, #0
	str	r3, [sp, #48]
.LBB109_38:
	str	r3, [sp, #40]
	ldr	r6, [sp, #44]
	cmp.w	r12, #0
	itt	ne
	ldrne.w	r3, [r11, r6, lsl #3]
	lslsne.w	r7, r3, #31
	bne	.LBB109_42
	mov	r11, r6
	ldr	r6, [sp, #48]
	lsls	r3, r6, #31
	bne.w	.LBB109_26
	orr	r0, r0, #1
	strd	r0, r11, [r8]
	strd	r4, lr, [r8, #8]
	ldrd	r3, r0, [r9, #32]
	ldr	r7, [sp, #36]
	adds	r3, #1
	adc	r0, r0, #0
	strd	r3, r0, [r9, #32]
	orr	r0, r7, #16
	clz	r0, r0
	rsb.w	r3, r0, #27
	lsr.w	r0, r7, r3
	add.w	r4, r0, r3, lsl #4
	add.w	r6, r9, #192
	ldr.w	r3, [r6, r4, lsl #2]
	lsl.w	r7, r12, #3
	cmp.w	r3, #-1
	str.w	r12, [r6, r4, lsl #2]
	ble	.LBB109_43
	mov.w	r6, #-1
	add.w	r4, r9, #48
	adds	r0, r6, r3
	ldr	r4, [r4]
	adc	r6, r6, #0
	adds	r0, #1
	sbc	r6, r6, #0
	add	r7, r4
	strd	r0, r6, [r7, #16]
	add.w	r0, r4, r3, lsl #3
	str.w	r12, [r0, #20]
	b	.LBB109_28
.LBB109_42:
	add.w	r7, r11, r6, lsl #3
	ldr.w	r8, [r7, #4]
	adds.w	r11, r4, #1
	adc	r7, lr, #0
	strd	r11, r7, [r9, #32]
	strd	r0, r6, [sp, #24]
	strd	r3, r8, [sp]
	strd	r4, lr, [sp, #8]
	mov	r4, r2
	ldr	r2, [sp, #48]
	ldr	r3, [sp, #40]
	add.w	r0, r9, #48
	str.w	r12, [sp, #16]
	mov	r7, r1
	bl	tlsf_heap.fitting.merge_before.4
	b	.LBB109_27
.LBB109_43:
	ldr.w	r3, [r9, #48]
	add.w	r12, r9, #108
	add	r3, r7
	mov.w	r7, #-1
	strd	r7, r7, [r3, #16]
	lsrs	r3, r4, #4
	ldr.w	r7, [r9, #104]
	ldr.w	r6, [r12, r3, lsl #2]
	mov.w	lr, #1
	and	r0, r0, #15
	lsl.w	r4, lr, r3
	lsl.w	r0, lr, r0
	orrs	r7, r4
	orrs	r0, r6
	str.w	r7, [r9, #104]
	str.w	r0, [r12, r3, lsl #2]
	b	.LBB109_28
.LBB109_44:
	movs	r1, #1
	movs	r0, #0
	strb.w	r1, [r9]
	add	sp, #52
	pop.w	{r4, r5, r6, r7, r8, r9, r10, r11, pc}
.Lfunc_end109:
	.size	tlsf_release_all, .Lfunc_end109-tlsf_release_all
	.cfi_endproc
	.section	.text.tlsf_release_place,"ax",%progbits
	.globl	tlsf_release_place
	.p2align	2
	.type	tlsf_release_place,%function
	.code	16
	.thumb_func
tlsf_release_place:
	.cfi_startproc
	push.w	{r4, r5, r6, r7, r8, r9, r10, r11, lr}
	.cfi_def_cfa_offset 36
	.cfi_offset lr, -4
	.cfi_offset r11, -8
	.cfi_offset r10, -12
	.cfi_offset r9, -16
	.cfi_offset r8, -20
	.cfi_offset r7, -24
	.cfi_offset r6, -28
	.cfi_offset r5, -32
	.cfi_offset r4, -36
	sub	sp, #36
	.cfi_def_cfa_offset 72
	ldrb	r2, [r0, #8]
	cmp	r2, #0
	beq.w	.LBB110_22
	ldr	r4, [r0]
	ldrb	r0, [r4]
	cmp	r0, #0
	beq.w	.LBB110_22
	movs	r0, #0
	strb	r0, [r4]
	ldrb	r0, [r4, #16]
	ldr	r2, [r4, #56]
	cmp	r0, #0
	add.w	r0, r4, #48
	beq	.LBB110_9
	cmp	r1, r2
	bhs	.LBB110_16
	ldr	r2, [r4, #72]
	mvn	r3, #7
	and.w	r3, r3, r1, lsr #3
	adds	r7, r2, r3
	ldr	r7, [r7, #4]
	ldr	r2, [r2, r3]
	and	r3, r1, #63
	rsb.w	r6, r3, #32
	lsrs	r2, r3
	lsl.w	r6, r7, r6
	orrs	r2, r6
	subs	r3, #32
	it	pl
	lsrpl.w	r2, r7, r3
	lsls	r2, r2, #31
	beq	.LBB110_16
	ldr	r7, [r0]
	ldr.w	r5, [r7, r1, lsl #3]
	lsls	r2, r5, #31
	bne	.LBB110_16
	ldrd	lr, r12, [r4, #32]
	and.w	r2, lr, r12
	adds	r2, #1
	beq	.LBB110_15
	add.w	r11, r7, r1, lsl #3
	ldr	r2, [r4, #40]
	ldr.w	r9, [r11, #4]
	lsr.w	r8, r5, #2
	sub.w	r2, r2, r5, lsr #2
	lsls	r3, r5, #30
	str	r2, [r4, #40]
	bmi	.LBB110_17
	add.w	r2, r8, r1
	add.w	r3, r7, r2, lsl #3
	ldr.w	r2, [r7, r2, lsl #3]
	ldr	r3, [r3, #4]
	b	.LBB110_18
.LBB110_9:
	cmp	r1, r2
	bhs	.LBB110_16
	ldr	r2, [r4, #72]
	mvn	r3, #7
	and.w	r3, r3, r1, lsr #3
	adds	r7, r2, r3
	ldr	r7, [r7, #4]
	ldr	r2, [r2, r3]
	and	r3, r1, #63
	rsb.w	r6, r3, #32
	lsrs	r2, r3
	lsl.w	r6, r7, r6
	orrs	r2, r6
	subs	r3, #32
	it	pl
	lsrpl.w	r2, r7, r3
	lsls	r2, r2, #31
	beq	.LBB110_16
	ldr	r7, [r0]
	ldr.w	r5, [r7, r1, lsl #3]
	lsls	r2, r5, #31
	bne	.LBB110_16
	ldrd	lr, r12, [r4, #32]
	and.w	r2, lr, r12
	adds	r2, #1
	beq	.LBB110_15
	add.w	r11, r7, r1, lsl #3
	ldr	r2, [r4, #40]
	ldr.w	r9, [r11, #4]
	lsr.w	r8, r5, #2
	sub.w	r2, r2, r5, lsr #2
	lsls	r3, r5, #30
	str	r2, [r4, #40]
	bmi	.LBB110_24
	add.w	r2, r8, r1
	add.w	r3, r7, r2, lsl #3
	ldr.w	r2, [r7, r2, lsl #3]
	ldr	r3, [r3, #4]
	b	.LBB110_25
.LBB110_15:
	movs	r0, #2
	b	.LBB110_35
.LBB110_16:
	ldr	r0, [r4, #24]
	mov	r1, r0
	bl	tlsf_heap.refusal.Refusal.of_name
	uxtb	r0, r0
	cmp	r0, #3
	mov.w	r0, #3
	it	eq
	moveq	r0, #4
	b	.LBB110_35
.LBB110_17:
	movs	r2, #0
	movs	r3, #0
.LBB110_18:
	cmp	r1, #0
	itt	ne
	ldrne.w	r10, [r7, r9, lsl #3]
	lslsne.w	r6, r10, #31
	bne.w	.LBB110_29
	lsls	r6, r2, #31
	bne	.LBB110_23
	orr	r2, r5, #1
	stm.w	r11, {r2, r9, lr}
	str.w	r12, [r11, #12]
	ldrd	r7, r3, [r4, #32]
	mov.w	r12, #-1
	adds	r7, #1
	adc	r3, r3, #0
	strd	r7, r3, [r4, #32]
	orr	r3, r8, #32
	clz	r3, r3
	rsb.w	r7, r3, #26
	lsr.w	r3, r8, r7
	add.w	r5, r3, r7, lsl #5
	add.w	r2, r4, r5, lsl #2
	ldr.w	r6, [r2, #192]
	lsls	r7, r1, #3
	cmp.w	r6, #-1
	str.w	r1, [r2, #192]
	bgt	.LBB110_28
	ldr	r0, [r4, #48]
	movs	r6, #1
	add	r0, r7
	strd	r12, r12, [r0, #16]
	lsrs	r0, r5, #5
	ldr	r1, [r4, #104]
	add.w	r2, r4, r0, lsl #2
	lsl.w	r0, r6, r0
	ldr	r7, [r2, #108]
	orrs	r0, r1
	str	r0, [r4, #104]
	and	r0, r3, #31
	b	.LBB110_33
.LBB110_22:
	movs	r0, #0
	add	sp, #36
	pop.w	{r4, r5, r6, r7, r8, r9, r10, r11, lr}
	b	tlsf_c.call_fault.CallFault.refusal
.LBB110_23:
	adds.w	r6, lr, #1
	adc	r7, r12, #0
	strd	r6, r7, [r4, #32]
	stm.w	sp, {r5, r9, lr}
	strd	r12, r1, [sp, #12]
	bl	tlsf_heap.fitting.merge_next.5
	b	.LBB110_34
.LBB110_24:
	movs	r2, #0
	movs	r3, #0
.LBB110_25:
	cmp	r1, #0
	itt	ne
	ldrne.w	r10, [r7, r9, lsl #3]
	lslsne.w	r6, r10, #31
	bne	.LBB110_31
	lsls	r6, r2, #31
	bne	.LBB110_30
	orr	r2, r5, #1
	stm.w	r11, {r2, r9, lr}
	str.w	r12, [r11, #12]
	ldrd	r7, r3, [r4, #32]
	mov.w	r12, #-1
	adds	r7, #1
	adc	r3, r3, #0
	strd	r7, r3, [r4, #32]
	orr	r3, r8, #16
	clz	r3, r3
	rsb.w	r7, r3, #27
	lsr.w	r3, r8, r7
	add.w	r5, r3, r7, lsl #4
	add.w	r2, r4, r5, lsl #2
	ldr.w	r6, [r2, #192]
	lsls	r7, r1, #3
	cmp.w	r6, #-1
	str.w	r1, [r2, #192]
	ble	.LBB110_32
.LBB110_28:
	adds.w	r2, r12, r6
	ldr	r0, [r0]
	adc	r3, r12, #0
	adds	r2, #1
	sbc	r3, r3, #0
	add	r7, r0
	add.w	r0, r0, r6, lsl #3
	strd	r2, r3, [r7, #16]
	str	r1, [r0, #20]
	b	.LBB110_34
.LBB110_29:
	add.w	r6, r7, r9, lsl #3
	ldr.w	r8, [r6, #4]
	adds.w	r7, lr, #1
	adc	r6, r12, #0
	strd	r7, r6, [r4, #32]
	strd	r5, r9, [sp, #24]
	strd	r10, r8, [sp]
	strd	lr, r12, [sp, #8]
	str	r1, [sp, #16]
	bl	tlsf_heap.fitting.merge_before.5
	b	.LBB110_34
.LBB110_30:
	adds.w	r6, lr, #1
	adc	r7, r12, #0
	strd	r6, r7, [r4, #32]
	stm.w	sp, {r5, r9, lr}
	strd	r12, r1, [sp, #12]
	bl	tlsf_heap.fitting.merge_next.4
	b	.LBB110_34
.LBB110_31:
	add.w	r6, r7, r9, lsl #3
	ldr.w	r8, [r6, #4]
	adds.w	r7, lr, #1
	adc	r6, r12, #0
	strd	r7, r6, [r4, #32]
	strd	r5, r9, [sp, #24]
	strd	r10, r8, [sp]
	strd	lr, r12, [sp, #8]
	str	r1, [sp, #16]
	bl	tlsf_heap.fitting.merge_before.4
	b	.LBB110_34
.LBB110_32:
	ldr	r0, [r4, #48]
	movs	r6, #1
	add	r0, r7
	strd	r12, r12, [r0, #16]
	lsrs	r0, r5, #4
	ldr	r1, [r4, #104]
	add.w	r2, r4, r0, lsl #2
	lsl.w	r0, r6, r0
	ldr	r7, [r2, #108]
	orrs	r0, r1
	str	r0, [r4, #104]
	and	r0, r3, #15
.LBB110_33:
	lsl.w	r0, r6, r0
	orrs	r0, r7
	str	r0, [r2, #108]
.LBB110_34:
	movs	r0, #0
.LBB110_35:
	movs	r1, #1
	strb	r1, [r4]
	add	sp, #36
	pop.w	{r4, r5, r6, r7, r8, r9, r10, r11, pc}
.Lfunc_end110:
	.size	tlsf_release_place, .Lfunc_end110-tlsf_release_place
	.cfi_endproc
	.section	.text.tlsf_report,"ax",%progbits
	.globl	tlsf_report
	.p2align	2
	.type	tlsf_report,%function
	.code	16
	.thumb_func
tlsf_report:
	.cfi_startproc
	ldrb	r2, [r0, #8]
	cmp	r2, #0
	itt	eq
	moveq	r0, #32
	bxeq	lr
.LBB111_1:
	push.w	{r4, r5, r6, r7, r8, r9, r10, lr}
	.cfi_def_cfa_offset 32
	.cfi_offset lr, -4
	.cfi_offset r10, -8
	.cfi_offset r9, -12
	.cfi_offset r8, -16
	.cfi_offset r7, -20
	.cfi_offset r6, -24
	.cfi_offset r5, -28
	.cfi_offset r4, -32
	sub	sp, #48
	.cfi_def_cfa_offset 80
	ldr	r4, [r0]
	ldrb	r0, [r4]
	cmp	r0, #1
	bne	.LBB111_4
	movs	r0, #0
	mov	r8, r1
	strb	r0, [r4]
	mov	r0, sp
	movs	r1, #0
	movs	r2, #48
	bl	tlsf_memory_set
	ldrb	r0, [r4, #16]
	add.w	r1, r4, #24
	cmp	r0, #0
	mov	r0, sp
	beq	.LBB111_5
	bl	tlsf_heap.heap.Heap.report.5
	b	.LBB111_6
.LBB111_4:
	movs	r0, #32
	add	sp, #48
	pop.w	{r4, r5, r6, r7, r8, r9, r10, pc}
.LBB111_5:
	bl	tlsf_heap.heap.Heap.report.4
.LBB111_6:
	ldm.w	sp, {r0, r1, r2, r3, r5, r6, r7, r12, lr}
	ldrd	r9, r10, [sp, #40]
	str.w	r0, [r8]
	str.w	r1, [r8, #4]
	movs	r0, #0
	movs	r1, #1
	str.w	r2, [r8, #8]
	str.w	r3, [r8, #12]
	str.w	r5, [r8, #16]
	str.w	r6, [r8, #20]
	str.w	r7, [r8, #24]
	str.w	r12, [r8, #28]
	str.w	lr, [r8, #32]
	str.w	r0, [r8, #36]
	str.w	r10, [r8, #44]
	str.w	r9, [r8, #40]
	strb	r1, [r4]
	add	sp, #48
	pop.w	{r4, r5, r6, r7, r8, r9, r10, pc}
.Lfunc_end111:
	.size	tlsf_report, .Lfunc_end111-tlsf_report
	.cfi_endproc
	.section	.text.tlsf_reset,"ax",%progbits
	.globl	tlsf_reset
	.p2align	2
	.type	tlsf_reset,%function
	.code	16
	.thumb_func
tlsf_reset:
	.cfi_startproc
	ldrb	r1, [r0, #8]
	cmp	r1, #0
	itt	eq
	moveq	r0, #32
	bxeq	lr
.LBB112_1:
	push.w	{r4, r5, r6, r7, r8, r9, r10, lr}
	.cfi_def_cfa_offset 32
	.cfi_offset lr, -4
	.cfi_offset r10, -8
	.cfi_offset r9, -12
	.cfi_offset r8, -16
	.cfi_offset r7, -20
	.cfi_offset r6, -24
	.cfi_offset r5, -28
	.cfi_offset r4, -32
	ldr	r6, [r0]
	ldrb	r0, [r6]
	cmp	r0, #1
	itt	ne
	movne	r0, #32
	popne.w	{r4, r5, r6, r7, r8, r9, r10, pc}
.LBB112_2:
	ldrb	r1, [r6, #16]
	ldrd	r4, r5, [r6, #32]
	mov.w	r10, #-1
	movs	r0, #0
	cmp	r1, #0
	strb	r0, [r6]
	eor.w	r0, r4, r10
	eor.w	r1, r5, r10
	beq	.LBB112_8
	orrs	r0, r1
	beq.w	.LBB112_13
	ldrd	r1, r0, [r6, #80]
	orrs	r0, r1
	beq	.LBB112_6
	ldr	r0, [r6, #72]
	lsls	r2, r1, #3
	movs	r1, #0
	bl	tlsf_memory_set
.LBB112_6:
	add.w	r9, r6, #192
	mov	r0, r9
	movs	r1, #255
	movw	r2, #2564
	add.w	r8, r6, #104
	bl	tlsf_memory_set
	mov	r0, r8
	movs	r1, #0
	movs	r2, #88
	mov.w	r8, #0
	bl	tlsf_memory_set
	ldr	r0, [r6, #56]
	ldr	r1, [r6, #48]
	adds.w	r3, r10, r0, lsl #2
	adc	r7, r10, #0
	adds	r3, #4
	sbc	r7, r7, #0
	strd	r3, r7, [r1]
	strd	r4, r5, [r1, #8]
	ldr	r1, [r6, #72]
	orr	r2, r0, #32
	clz	r2, r2
	ldr	r3, [r1]
	rsb.w	r2, r2, #26
	lsrs	r0, r2
	orr	r3, r3, #1
	add.w	r2, r0, r2, lsl #5
	str	r3, [r1]
	ldr.w	r1, [r9, r2, lsl #2]
	str.w	r8, [r9, r2, lsl #2]
	cmp.w	r1, #-1
	bgt	.LBB112_12
	ldr	r1, [r6, #48]
	movs	r5, #1
	strd	r10, r10, [r1, #16]
	lsrs	r1, r2, #5
	ldr	r2, [r6, #104]
	add.w	r3, r6, r1, lsl #2
	lsl.w	r1, r5, r1
	ldr	r7, [r3, #108]
	orrs	r1, r2
	str	r1, [r6, #104]
	and	r0, r0, #31
	b	.LBB112_15
.LBB112_8:
	orrs	r0, r1
	beq	.LBB112_13
	ldrd	r1, r0, [r6, #80]
	orrs	r0, r1
	beq	.LBB112_11
	ldr	r0, [r6, #72]
	lsls	r2, r1, #3
	movs	r1, #0
	bl	tlsf_memory_set
.LBB112_11:
	add.w	r9, r6, #192
	mov	r0, r9
	movs	r1, #255
	movw	r2, #2564
	add.w	r8, r6, #104
	bl	tlsf_memory_set
	mov	r0, r8
	movs	r1, #0
	movs	r2, #88
	mov.w	r8, #0
	bl	tlsf_memory_set
	ldr	r0, [r6, #56]
	ldr	r1, [r6, #48]
	adds.w	r3, r10, r0, lsl #2
	adc	r7, r10, #0
	adds	r3, #4
	sbc	r7, r7, #0
	strd	r3, r7, [r1]
	strd	r4, r5, [r1, #8]
	ldr	r1, [r6, #72]
	orr	r2, r0, #16
	clz	r2, r2
	ldr	r3, [r1]
	rsb.w	r2, r2, #27
	lsrs	r0, r2
	orr	r3, r3, #1
	add.w	r2, r0, r2, lsl #4
	str	r3, [r1]
	ldr.w	r1, [r9, r2, lsl #2]
	str.w	r8, [r9, r2, lsl #2]
	cmp.w	r1, #-1
	ble	.LBB112_14
.LBB112_12:
	adds.w	r0, r10, r1
	adc	r2, r10, #0
	adds	r0, #1
	ldr	r3, [r6, #48]
	sbc	r2, r2, #0
	strd	r0, r2, [r3, #16]
	add.w	r0, r3, r1, lsl #3
	str.w	r8, [r0, #20]
	b	.LBB112_16
.LBB112_13:
	movs	r0, #2
	b	.LBB112_17
.LBB112_14:
	ldr	r1, [r6, #48]
	movs	r5, #1
	strd	r10, r10, [r1, #16]
	lsrs	r1, r2, #4
	ldr	r2, [r6, #104]
	add.w	r3, r6, r1, lsl #2
	ldr	r7, [r3, #108]
	lsl.w	r1, r5, r1
	orrs	r1, r2
	and	r0, r0, #15
	str	r1, [r6, #104]
.LBB112_15:
	lsl.w	r0, r5, r0
	orrs	r0, r7
	str	r0, [r3, #108]
.LBB112_16:
	ldrd	r1, r2, [r6, #32]
	movs	r0, #0
	adds	r1, #1
	adc	r2, r2, #0
	str	r0, [r6, #40]
	strd	r1, r2, [r6, #32]
.LBB112_17:
	movs	r1, #1
	strb	r1, [r6]
	pop.w	{r4, r5, r6, r7, r8, r9, r10, pc}
.Lfunc_end112:
	.size	tlsf_reset, .Lfunc_end112-tlsf_reset
	.cfi_endproc
	.section	.text.tlsf_resize,"ax",%progbits
	.globl	tlsf_resize
	.p2align	2
	.type	tlsf_resize,%function
	.code	16
	.thumb_func
tlsf_resize:
	.cfi_startproc
	push.w	{r4, r5, r6, r7, r8, r9, r10, r11, lr}
	.cfi_def_cfa_offset 36
	.cfi_offset lr, -4
	.cfi_offset r11, -8
	.cfi_offset r10, -12
	.cfi_offset r9, -16
	.cfi_offset r8, -20
	.cfi_offset r7, -24
	.cfi_offset r6, -28
	.cfi_offset r5, -32
	.cfi_offset r4, -36
	sub	sp, #68
	.cfi_def_cfa_offset 104
	mov	r5, r0
	ldrb	r0, [r0, #8]
	cmp	r0, #0
	beq.w	.LBB113_41
	ldr.w	r8, [r5]
	ldrb.w	r0, [r8]
	cmp	r0, #0
	beq.w	.LBB113_41
	ldr.w	r10, [sp, #112]
	movs	r0, #0
	adds.w	r1, r10, #1
	adc	r6, r0, #0
	cmp.w	r10, #0
	ldrd	r12, lr, [sp, #104]
	strb.w	r0, [r8]
	ldrb.w	r7, [r8, #16]
	itt	ne
	movne	r1, r10
	movne	r6, r0
	adds.w	r0, r1, #31
	adc	r6, r6, #0
	lsrs	r0, r0, #3
	ldr.w	r1, [r8, #24]
	cmp	r7, #0
	orr.w	r11, r0, r6, lsl #29
	beq	.LBB113_12
	cmp	r1, r2
	bne.w	.LBB113_21
	ldr.w	r0, [r8, #56]
	mov	r1, r2
	cmp	r3, r0
	bhs.w	.LBB113_21
	ldr.w	r0, [r8, #72]
	mvn	r1, #7
	and.w	r1, r1, r3, lsr #3
	adds	r7, r0, r1
	ldr	r7, [r7, #4]
	ldr	r0, [r0, r1]
	and	r1, r3, #63
	rsb.w	r6, r1, #32
	lsrs	r0, r1
	lsl.w	r6, r7, r6
	orrs	r0, r6
	subs	r1, #32
	it	pl
	lsrpl.w	r0, r7, r1
	lsls	r0, r0, #31
	mov	r1, r2
	beq	.LBB113_21
	add.w	r6, r8, #48
	ldr	r7, [r6]
	mov	r1, r2
	ldr.w	r9, [r7, r3, lsl #3]
	lsls.w	r0, r9, #31
	bne	.LBB113_21
	add.w	r0, r7, r3, lsl #3
	ldrd	r1, r4, [r0, #8]
	str.w	r11, [sp, #52]
	eor.w	r4, r4, lr
	eor.w	r1, r1, r12
	orrs	r1, r4
	ldr	r4, [sp, #52]
	mov	r1, r2
	bne	.LBB113_21
	ldr.w	lr, [r0, #4]
	mov	r12, r6
	str	r5, [sp, #48]
	lsls	r5, r3, #3
	cmp.w	r4, r9, lsr #2
	lsr.w	r6, r9, #2
	bls	.LBB113_22
	lsls.w	r0, r9, #30
	bmi	.LBB113_11
	adds	r1, r6, r3
	ldr.w	r0, [r7, r1, lsl #3]
	lsls	r2, r0, #31
	bne.w	.LBB113_42
.LBB113_11:
	movs	r0, #0
	movs	r1, #0
	b	.LBB113_43
.LBB113_12:
	cmp	r1, r2
	bne	.LBB113_21
	ldr.w	r0, [r8, #56]
	mov	r1, r2
	cmp	r3, r0
	bhs	.LBB113_21
	ldr.w	r0, [r8, #72]
	mvn	r1, #7
	and.w	r1, r1, r3, lsr #3
	adds	r7, r0, r1
	ldr	r7, [r7, #4]
	ldr	r0, [r0, r1]
	and	r1, r3, #63
	rsb.w	r6, r1, #32
	lsrs	r0, r1
	lsl.w	r6, r7, r6
	orrs	r0, r6
	subs	r1, #32
	it	pl
	lsrpl.w	r0, r7, r1
	lsls	r0, r0, #31
	mov	r1, r2
	beq	.LBB113_21
	add.w	r4, r8, #48
	ldr	r6, [r4]
	mov	r1, r2
	ldr.w	r9, [r6, r3, lsl #3]
	lsls.w	r0, r9, #31
	bne	.LBB113_21
	add.w	r7, r6, r3, lsl #3
	ldrd	r0, r1, [r7, #8]
	eor.w	r1, r1, lr
	eor.w	r0, r0, r12
	orrs	r0, r1
	mov	r1, r2
	bne	.LBB113_21
	ldr.w	r12, [r7, #4]
	str	r5, [sp, #48]
	lsls	r5, r3, #3
	cmp.w	r11, r9, lsr #2
	lsr.w	lr, r9, #2
	bls.w	.LBB113_31
	lsls.w	r0, r9, #30
	bmi	.LBB113_20
	add.w	r1, lr, r3
	ldr.w	r0, [r6, r1, lsl #3]
	lsls	r2, r0, #31
	bne.w	.LBB113_51
.LBB113_20:
	movs	r0, #0
	movs	r1, #0
	b	.LBB113_52
.LBB113_21:
	mov	r0, r2
	bl	tlsf_heap.refusal.Refusal.of_name
	uxtb	r0, r0
	movs	r1, #1
	cmp	r0, #3
	mov.w	r0, #3
	strb.w	r1, [r8]
	it	eq
	moveq	r0, #4
	add	sp, #68
	pop.w	{r4, r5, r6, r7, r8, r9, r10, r11, pc}
.LBB113_22:
	ldrd	r2, r7, [r8, #32]
	and.w	r1, r2, r7
	adds	r1, #1
	beq.w	.LBB113_65
	ldr.w	r11, [r0, #16]
	movs	r1, #0
	cmp	r10, r11
	strd	r10, r1, [r0, #16]
	bls	.LBB113_28
	strd	r7, r2, [sp, #32]
	str	r6, [sp, #44]
	ands	r6, r11, #7
	beq	.LBB113_26
	add.w	r0, r5, r11
	add.w	r4, r8, #48
	adds	r0, #24
	ldr	r5, [r4]
	bic	r4, r0, #7
	adds	r7, r5, r4
	ldr	r0, [r5, r4]
	ldr.w	r12, [r7, #4]
	movw	r1, :lower16:.Lstatic.0
	movt	r1, :upper16:.Lstatic.0
	strd	r0, r12, [sp, #56]
	add	r0, sp, #56
	add	r1, r6
	rsb.w	r2, r6, #8
	add	r0, r6
	str	r3, [sp, #40]
	str.w	lr, [sp, #28]
	bl	tlsf_memory_cpy
	ldrd	r0, r1, [sp, #56]
	ldr.w	lr, [sp, #28]
	ldr	r3, [sp, #40]
	str	r0, [r5, r4]
	ldr	r4, [sp, #52]
	str	r1, [r7, #4]
.LBB113_26:
	lsr.w	r0, r11, #3
	cmp	r6, #0
	mov.w	r12, #1
	it	ne
	addne.w	r0, r12, r11, lsr #3
	lsr.w	r1, r10, #3
	lsls.w	r2, r10, #29
	it	ne
	addne.w	r1, r12, r10, lsr #3
	ldr	r6, [sp, #44]
	ldrd	r7, r2, [sp, #32]
	cmp	r1, r0
	beq	.LBB113_28
	add.w	r2, r8, #48
	ldr	r2, [r2]
	subs	r1, r1, r0
	add	r0, r3
	add.w	r0, r2, r0, lsl #3
	adds	r0, #24
	lsls	r2, r1, #3
	movs	r1, #0
	mov	r5, r3
	mov	r4, lr
	bl	tlsf_memory_set
	ldrd	r7, r2, [sp, #32]
	ldr	r6, [sp, #44]
	mov	lr, r4
	ldr	r4, [sp, #52]
	mov	r3, r5
.LBB113_28:
	adds	r0, r4, #4
	cmp	r6, r0
	mov	r0, r6
	blo	.LBB113_30
	strd	r2, r7, [sp, #8]
	add.w	r0, r8, #48
	mov	r1, r3
	mov	r2, r9
	mov	r3, lr
	str	r4, [sp]
	bl	tlsf_heap.refitting.split_off.5
	mov	r0, r4
.LBB113_30:
	subs	r0, r0, r6
	b	.LBB113_40
.LBB113_31:
	ldrd	r6, r2, [r8, #32]
	and.w	r0, r6, r2
	adds	r0, #1
	beq.w	.LBB113_65
	ldr	r4, [r7, #16]
	movs	r0, #0
	cmp	r10, r4
	strd	r10, r0, [r7, #16]
	bls	.LBB113_37
	ands	r7, r4, #7
	str	r2, [sp, #52]
	beq	.LBB113_35
	movw	r1, :lower16:.Lstatic.0
	movt	r1, :upper16:.Lstatic.0
	add	r1, r7
	adds	r0, r5, r4
	str	r1, [sp, #40]
	rsb.w	r2, r7, #8
	str	r7, [sp, #44]
	add.w	r7, r8, #48
	adds	r0, #24
	ldr	r1, [r7]
	bic	r7, r0, #7
	adds	r0, r1, r7
	str	r1, [sp, #32]
	str	r0, [sp, #28]
	ldr	r1, [r1, r7]
	str.w	r12, [sp, #36]
	ldr.w	r12, [r0, #4]
	ldr	r5, [sp, #44]
	strd	r1, r12, [sp, #56]
	add	r0, sp, #56
	ldr	r1, [sp, #40]
	add	r0, r5
	str	r3, [sp, #40]
	mov	r5, lr
	bl	tlsf_memory_cpy
	ldrd	r0, r1, [sp, #56]
	ldrd	r2, r12, [sp, #32]
	ldr	r3, [sp, #40]
	str	r0, [r2, r7]
	ldr	r7, [sp, #44]
	ldr	r0, [sp, #28]
	mov	lr, r5
	str	r1, [r0, #4]
.LBB113_35:
	lsrs	r0, r4, #3
	movs	r2, #1
	cmp	r7, #0
	lsr.w	r1, r10, #3
	it	ne
	addne.w	r0, r2, r4, lsr #3
	lsls.w	r7, r10, #29
	it	ne
	addne.w	r1, r2, r10, lsr #3
	ldr	r2, [sp, #52]
	cmp	r1, r0
	beq	.LBB113_37
	add.w	r2, r8, #48
	ldr	r2, [r2]
	subs	r1, r1, r0
	add	r0, r3
	add.w	r0, r2, r0, lsl #3
	adds	r0, #24
	lsls	r2, r1, #3
	movs	r1, #0
	mov	r4, r3
	mov	r7, r12
	mov	r5, lr
	bl	tlsf_memory_set
	ldr	r2, [sp, #52]
	mov	lr, r5
	mov	r12, r7
	mov	r3, r4
.LBB113_37:
	add.w	r0, r11, #4
	mov	r4, r11
	cmp	lr, r0
	mov	r0, lr
	blo	.LBB113_39
	strd	r6, r2, [sp, #8]
	add.w	r0, r8, #48
	mov	r1, r3
	mov	r2, r9
	mov	r3, r12
	str	r4, [sp]
	mov	r5, lr
	bl	tlsf_heap.refitting.split_off.4
	mov	lr, r5
	mov	r0, r4
.LBB113_39:
	sub.w	r0, r0, lr
.LBB113_40:
	ldr.w	r1, [r8, #32]
	ldr.w	r2, [r8, #40]
	ldr.w	r3, [r8, #36]
	adds	r1, #1
	add	r0, r2
	adc	r2, r3, #0
	str.w	r1, [r8, #32]
	str.w	r2, [r8, #36]
	str.w	r0, [r8, #40]
	b	.LBB113_62
.LBB113_41:
	movs	r0, #0
	add	sp, #68
	pop.w	{r4, r5, r6, r7, r8, r9, r10, r11, lr}
	b	tlsf_c.call_fault.CallFault.refusal
.LBB113_42:
	add.w	r1, r7, r1, lsl #3
	ldr	r1, [r1, #4]
.LBB113_43:
	add.w	r2, r6, r0, lsr #2
	cmp	r2, r4
	blo	.LBB113_53
	ldrd	r2, r7, [r8, #32]
	and.w	r4, r2, r7
	adds	r4, #1
	ldr	r4, [sp, #52]
	beq.w	.LBB113_65
	strd	r2, r7, [sp, #16]
	strd	r0, r1, [sp]
	mov	r0, r12
	str	r3, [sp, #40]
	mov	r1, r3
	mov	r2, r9
	mov	r3, lr
	mov	r7, r12
	str	r4, [sp, #8]
	str	r6, [sp, #44]
	bl	tlsf_heap.refitting.recut.5
	ldr	r1, [r7]
	mov	r11, r0
	adds	r0, r1, r5
	ldr	r6, [r0, #16]
	ldr.w	r12, [sp, #44]
	movs	r1, #0
	cmp	r10, r6
	strd	r10, r1, [r0, #16]
	bls	.LBB113_50
	ands	r9, r6, #7
	beq	.LBB113_48
	adds	r0, r5, r6
	add.w	r3, r8, #48
	adds	r0, #24
	ldr	r4, [r3]
	bic	r5, r0, #7
	adds	r7, r4, r5
	ldr	r0, [r4, r5]
	ldr	r3, [r7, #4]
	movw	r1, :lower16:.Lstatic.0
	movt	r1, :upper16:.Lstatic.0
	strd	r0, r3, [sp, #56]
	add	r0, sp, #56
	add	r1, r9
	rsb.w	r2, r9, #8
	add	r0, r9
	bl	tlsf_memory_cpy
	ldrd	r0, r1, [sp, #56]
	ldr.w	r12, [sp, #44]
	str	r0, [r4, r5]
	ldr	r4, [sp, #52]
	str	r1, [r7, #4]
.LBB113_48:
	lsrs	r0, r6, #3
	cmp.w	r9, #0
	mov.w	r2, #1
	it	ne
	addne.w	r0, r2, r6, lsr #3
	lsr.w	r1, r10, #3
	lsls.w	r3, r10, #29
	it	ne
	addne.w	r1, r2, r10, lsr #3
	cmp	r1, r0
	add.w	r3, r8, #48
	beq	.LBB113_50
	subs	r2, r1, r0
	ldr	r1, [sp, #40]
	ldr	r3, [r3]
	add	r0, r1
	add.w	r0, r3, r0, lsl #3
	adds	r0, #24
	lsls	r2, r2, #3
	movs	r1, #0
	bl	tlsf_memory_set
	ldr.w	r12, [sp, #44]
.LBB113_50:
	ldrd	r0, r1, [r8, #40]
	sub.w	r2, r11, r12
	add	r0, r2
	cmp	r1, r0
	str.w	r0, [r8, #40]
	it	lo
	strlo.w	r0, [r8, #44]
	ldrd	r0, r1, [r8, #32]
	b	.LBB113_61
.LBB113_51:
	add.w	r1, r6, r1, lsl #3
	ldr	r1, [r1, #4]
.LBB113_52:
	add.w	r2, lr, r0, lsr #2
	cmp	r2, r11
	bhs	.LBB113_54
.LBB113_53:
	movs	r0, #1
	strb.w	r0, [r8]
	movs	r0, #10
	add	sp, #68
	pop.w	{r4, r5, r6, r7, r8, r9, r10, r11, pc}
.LBB113_54:
	ldrd	r2, r7, [r8, #32]
	and.w	r6, r2, r7
	adds	r6, #1
	beq.w	.LBB113_65
	strd	r2, r7, [sp, #16]
	strd	r0, r1, [sp]
	mov	r0, r4
	str	r3, [sp, #40]
	mov	r1, r3
	mov	r2, r9
	mov	r3, r12
	str.w	r11, [sp, #52]
	str.w	r11, [sp, #8]
	mov	r11, lr
	bl	tlsf_heap.refitting.recut.4
	ldr	r1, [r4]
	mov	r2, r5
	mov	r5, r0
	adds	r0, r1, r2
	ldr	r4, [r0, #16]
	mov	r7, r11
	movs	r1, #0
	cmp	r10, r4
	strd	r10, r1, [r0, #16]
	bls	.LBB113_60
	ands	r6, r4, #7
	beq	.LBB113_58
	adds	r0, r2, r4
	add.w	r3, r8, #48
	adds	r0, #24
	str	r5, [sp, #44]
	ldr	r5, [r3]
	bic	r9, r0, #7
	add.w	r3, r5, r9
	str	r3, [sp, #36]
	ldr.w	r0, [r5, r9]
	ldr	r3, [r3, #4]
	movw	r1, :lower16:.Lstatic.0
	movt	r1, :upper16:.Lstatic.0
	strd	r0, r3, [sp, #56]
	add	r0, sp, #56
	add	r1, r6
	rsb.w	r2, r6, #8
	add	r0, r6
	bl	tlsf_memory_cpy
	ldrd	r0, r1, [sp, #56]
	mov	r7, r11
	str.w	r0, [r5, r9]
	ldr	r5, [sp, #44]
	ldr	r0, [sp, #36]
	str	r1, [r0, #4]
.LBB113_58:
	lsrs	r0, r4, #3
	cmp	r6, #0
	mov.w	r2, #1
	it	ne
	addne.w	r0, r2, r4, lsr #3
	lsr.w	r1, r10, #3
	lsls.w	r3, r10, #29
	it	ne
	addne.w	r1, r2, r10, lsr #3
	cmp	r1, r0
	beq	.LBB113_60
	subs	r2, r1, r0
	add.w	r1, r8, #48
	ldr	r3, [r1]
	ldr	r1, [sp, #40]
	lsls	r2, r2, #3
	add	r0, r1
	add.w	r0, r3, r0, lsl #3
	adds	r0, #24
	movs	r1, #0
	bl	tlsf_memory_set
	mov	r7, r11
.LBB113_60:
	ldrd	r0, r1, [r8, #40]
	subs	r2, r5, r7
	add	r0, r2
	cmp	r1, r0
	str.w	r0, [r8, #40]
	it	lo
	strlo.w	r0, [r8, #44]
	ldrd	r0, r1, [r8, #32]
	ldr	r4, [sp, #52]
.LBB113_61:
	adds	r0, #1
	adc	r1, r1, #0
	strd	r0, r1, [r8, #32]
.LBB113_62:
	ldr	r2, [sp, #48]
	movs	r0, #1
	lsls	r1, r4, #31
	strb.w	r0, [r8]
	beq	.LBB113_64
	ldrb	r0, [r2, #28]
	cmp	r0, #0
	itt	eq
	moveq	r0, #1
	strbeq	r0, [r2, #28]
.LBB113_64:
	movs	r0, #0
	add	sp, #68
	pop.w	{r4, r5, r6, r7, r8, r9, r10, r11, pc}
.LBB113_65:
	movs	r0, #1
	strb.w	r0, [r8]
	movs	r0, #2
	add	sp, #68
	pop.w	{r4, r5, r6, r7, r8, r9, r10, r11, pc}
.Lfunc_end113:
	.size	tlsf_resize, .Lfunc_end113-tlsf_resize
	.cfi_endproc
	.section	.text.tlsf_resize_place,"ax",%progbits
	.globl	tlsf_resize_place
	.p2align	2
	.type	tlsf_resize_place,%function
	.code	16
	.thumb_func
tlsf_resize_place:
	.cfi_startproc
	push.w	{r4, r5, r6, r7, r8, r9, r10, r11, lr}
	.cfi_def_cfa_offset 36
	.cfi_offset lr, -4
	.cfi_offset r11, -8
	.cfi_offset r10, -12
	.cfi_offset r9, -16
	.cfi_offset r8, -20
	.cfi_offset r7, -24
	.cfi_offset r6, -28
	.cfi_offset r5, -32
	.cfi_offset r4, -36
	sub	sp, #76
	.cfi_def_cfa_offset 112
	ldrb	r7, [r0, #8]
	cmp	r7, #0
	beq.w	.LBB114_18
	ldr	r4, [r0]
	ldrb	r0, [r4]
	cmp	r0, #0
	beq.w	.LBB114_18
	movs	r0, #0
	ldrb	r7, [r4, #16]
	strb	r0, [r4]
	ldr	r0, [r4, #56]
	add.w	r12, r4, #24
	cmp	r7, #0
	add.w	lr, r4, #48
	beq	.LBB114_10
	cmp	r1, r0
	bhs.w	.LBB114_17
	ldr	r0, [r4, #72]
	mvn	r7, #7
	and.w	r7, r7, r1, lsr #3
	adds	r6, r0, r7
	ldr	r6, [r6, #4]
	ldr	r0, [r0, r7]
	and	r7, r1, #63
	rsb.w	r5, r7, #32
	lsrs	r0, r7
	lsl.w	r5, r6, r5
	orrs	r0, r5
	subs	r7, #32
	it	pl
	lsrpl.w	r0, r6, r7
	lsls	r0, r0, #31
	beq.w	.LBB114_17
	ldr.w	lr, [lr]
	ldr.w	r6, [lr, r1, lsl #3]
	lsls	r7, r6, #31
	bne.w	.LBB114_17
	add.w	r9, lr, r1, lsl #3
	lsls	r0, r1, #3
	ldr.w	r8, [r9, #16]
	str	r0, [sp, #48]
	ldr.w	r0, [r9, #4]
	cmp	r2, r8
	str	r0, [sp, #44]
	it	lo
	movlo	r8, r2
	adds	r5, r2, #1
	mov.w	r0, #0
	adc	r7, r0, #0
	cmp	r2, #0
	itt	ne
	movne	r5, r2
	movne	r7, r0
	adds.w	r0, r5, #31
	adc	r7, r7, #0
	lsrs	r0, r0, #3
	orr.w	r0, r0, r7, lsl #29
	mov.w	r11, #-1
	cmp.w	r0, r6, lsr #2
	lsr.w	r10, r6, #2
	str	r0, [sp, #52]
	bls	.LBB114_19
	ldr.w	r0, [r9, #12]
	ldr.w	r9, [r9, #8]
	ldr.w	r7, [r12]
	lsls	r5, r6, #30
	str	r0, [sp, #40]
	bmi	.LBB114_9
	add.w	r5, r10, r1
	ldr.w	r11, [lr, r5, lsl #3]
	lsls.w	r0, r11, #31
	bne.w	.LBB114_27
.LBB114_9:
	mov.w	r11, #0
	mov.w	r12, #0
	b	.LBB114_28
.LBB114_10:
	cmp	r1, r0
	bhs	.LBB114_17
	ldr	r0, [r4, #72]
	mvn	r7, #7
	and.w	r7, r7, r1, lsr #3
	adds	r6, r0, r7
	ldr	r6, [r6, #4]
	ldr	r0, [r0, r7]
	and	r7, r1, #63
	rsb.w	r5, r7, #32
	lsrs	r0, r7
	lsl.w	r5, r6, r5
	orrs	r0, r5
	subs	r7, #32
	it	pl
	lsrpl.w	r0, r6, r7
	lsls	r0, r0, #31
	beq	.LBB114_17
	ldr.w	r9, [lr]
	ldr.w	r6, [r9, r1, lsl #3]
	lsls	r0, r6, #31
	bne	.LBB114_17
	lsls	r0, r1, #3
	str	r0, [sp, #52]
	add.w	r0, r9, r1, lsl #3
	ldr.w	r11, [r0, #16]
	ldr	r7, [r0, #4]
	cmp	r2, r11
	str	r7, [sp, #48]
	it	lo
	movlo	r11, r2
	adds	r5, r2, #1
	mov.w	r12, #0
	adc	r7, r12, #0
	cmp	r2, #0
	itt	ne
	movne	r5, r2
	movne	r7, r12
	adds	r5, #31
	adc	r7, r7, #0
	lsrs	r5, r5, #3
	orr.w	r7, r5, r7, lsl #29
	cmp.w	r7, r6, lsr #2
	lsr.w	r10, r6, #2
	bls	.LBB114_23
	ldrd	lr, r0, [r0, #8]
	str	r0, [sp, #40]
	add.w	r0, r4, #24
	ldr.w	r12, [r0]
	lsls	r0, r6, #30
	bmi	.LBB114_16
	add.w	r5, r10, r1
	ldr.w	r0, [r9, r5, lsl #3]
	mov	r8, r7
	lsls	r7, r0, #31
	mov	r7, r8
	bne.w	.LBB114_35
.LBB114_16:
	movs	r0, #0
	mov.w	r8, #0
	b	.LBB114_36
.LBB114_17:
	movs	r0, #1
	strb	r0, [r4]
	movs	r0, #4
	add	sp, #76
	pop.w	{r4, r5, r6, r7, r8, r9, r10, r11, pc}
.LBB114_18:
	movs	r0, #0
	add	sp, #76
	pop.w	{r4, r5, r6, r7, r8, r9, r10, r11, lr}
	b	tlsf_c.call_fault.CallFault.refusal
.LBB114_19:
	ldrd	r12, r5, [r4, #32]
	eor.w	r7, r5, r11
	eor.w	r0, r12, r11
	orrs	r0, r7
	beq.w	.LBB114_44
	movs	r0, #0
	strd	r8, r0, [r9, #16]
	ldr.w	r9, [sp, #52]
	mov	r7, r10
	add.w	r0, r9, #4
	cmp	r10, r0
	add.w	r8, r4, #48
	blo	.LBB114_22
	strd	r12, r5, [sp, #8]
	mov	r5, r2
	mov	r2, r6
	mov	r6, r3
	ldr	r3, [sp, #44]
	mov	r0, r8
	mov	r7, r1
	str.w	r9, [sp]
	bl	tlsf_heap.refitting.split_off.5
	mov	r2, r5
	mov	r1, r7
	mov	r3, r6
	mov	r7, r9
.LBB114_22:
	sub.w	r0, r7, r10
	ldrd	r7, r5, [r4, #32]
	ldr	r6, [r4, #40]
	adds	r7, #1
	add	r0, r6
	adc	r6, r5, #0
	strd	r7, r6, [r4, #32]
	ldr	r7, [sp, #48]
	str	r0, [r4, #40]
	b	.LBB114_42
.LBB114_23:
	ldrd	r5, r12, [r4, #32]
	mov	r8, r7
	and.w	r7, r5, r12
	adds	r7, #1
	beq.w	.LBB114_44
	movs	r7, #0
	strd	r11, r7, [r0, #16]
	add.w	r0, r8, #4
	mov	r7, r8
	cmp	r10, r0
	mov	r0, r10
	mov	r8, lr
	blo	.LBB114_26
	strd	r5, r12, [sp, #8]
	mov	r9, r2
	mov	r2, r6
	mov	r6, r3
	ldr	r3, [sp, #48]
	mov	r0, r8
	mov	r5, r7
	mov	r7, r1
	str	r5, [sp]
	bl	tlsf_heap.refitting.split_off.4
	mov	r2, r9
	mov	r1, r7
	mov	r3, r6
	mov	r0, r5
.LBB114_26:
	ldrd	r7, r5, [r4, #32]
	ldr	r6, [r4, #40]
	sub.w	r0, r0, r10
	adds	r7, #1
	add	r0, r6
	adc	r6, r5, #0
	strd	r7, r6, [r4, #32]
	ldr	r7, [sp, #52]
	str	r0, [r4, #40]
	b	.LBB114_42
.LBB114_27:
	add.w	r0, lr, r5, lsl #3
	ldr.w	r12, [r0, #4]
.LBB114_28:
	ldr	r5, [sp, #52]
	add.w	r0, r10, r11, lsr #2
	cmp	r0, r5
	bhs	.LBB114_33
	ldrd	r12, r10, [r4, #32]
	mov.w	r0, #-1
	subs	r5, r0, #2
	sbc	r6, r0, #0
	subs.w	r5, r5, r12
	ldr	r0, [sp, #40]
	sbcs.w	r5, r6, r10
	str	r7, [sp, #56]
	str.w	r9, [sp, #64]
	str	r1, [sp, #60]
	str	r0, [sp, #68]
	blo.w	.LBB114_44
	ldr.w	r11, [sp, #52]
	cmp.w	r11, #16777216
	bhi.w	.LBB114_39
	orr	r5, r11, #32
	clz	r5, r5
	rsb.w	r5, r5, #26
	sub.w	r6, r11, #1
	lsr.w	r0, r6, r5
	add.w	r5, r0, r5, lsl #5
	adds	r5, #1
	subs.w	r9, r5, #1
	mov.w	r5, #0
	sbc	r6, r5, #0
	lsr.w	r5, r9, #5
	orr.w	r5, r5, r6, lsl #27
	add.w	r7, r4, #108
	ldr.w	r7, [r7, r5, lsl #2]
	and	r0, r0, #31
	lsr.w	r0, r7, r0
	bics	r8, r0, #1
	beq.w	.LBB114_47
	rbit	r0, r8
	clz	r0, r0
	adds.w	r5, r9, r0
	adc	r0, r6, #0
	lsrs	r6, r5, #5
	orr.w	r0, r6, r0, lsl #27
	b	.LBB114_49
.LBB114_33:
	ldrd	r0, r5, [r4, #32]
	mov.w	r7, #-1
	eor.w	lr, r5, r7
	eors	r7, r0
	orrs.w	r7, r7, lr
	beq.w	.LBB114_44
	str	r2, [sp, #40]
	strd	r0, r5, [sp, #16]
	strd	r11, r12, [sp]
	mov	r9, r3
	ldr	r3, [sp, #44]
	ldr	r7, [sp, #52]
	add.w	r0, r4, #48
	mov	r2, r6
	mov	r11, r1
	str	r7, [sp, #8]
	bl	tlsf_heap.refitting.recut.5
	ldr	r1, [r4, #48]
	ldr	r7, [sp, #48]
	movs	r2, #0
	add	r1, r7
	strd	r8, r2, [r1, #16]
	ldrd	r1, r2, [r4, #40]
	sub.w	r0, r0, r10
	add	r0, r1
	cmp	r2, r0
	str	r0, [r4, #40]
	it	lo
	strlo	r0, [r4, #44]
	ldrd	r0, r1, [r4, #32]
	ldr	r2, [sp, #40]
	adds	r0, #1
	adc	r1, r1, #0
	strd	r0, r1, [r4, #32]
	mov	r3, r9
	mov	r1, r11
	add.w	r8, r4, #48
	b	.LBB114_42
.LBB114_35:
	add.w	r5, r9, r5, lsl #3
	ldr.w	r8, [r5, #4]
.LBB114_36:
	add.w	r5, r10, r0, lsr #2
	cmp	r5, r7
	str	r7, [sp, #44]
	bhs	.LBB114_40
	mov.w	r5, #-1
	str.w	r12, [sp, #56]
	ldrd	r12, r11, [r4, #32]
	subs	r0, r5, #2
	sbc	r7, r5, #0
	subs.w	r0, r0, r12
	sbcs.w	r0, r7, r11
	ldr	r0, [sp, #40]
	str.w	lr, [sp, #64]
	str	r1, [sp, #60]
	str	r0, [sp, #68]
	blo	.LBB114_44
	ldr	r7, [sp, #44]
	cmp.w	r7, #1048576
	bls	.LBB114_45
.LBB114_39:
	ldrd	r0, r1, [r4, #8]
	adds	r0, #1
	it	hs
	movhs.w	r0, #-1
	cmp	r2, r1
	it	hi
	movhi	r1, r2
	strd	r0, r1, [r4, #8]
	movs	r0, #1
	strb	r0, [r4]
	add	sp, #76
	pop.w	{r4, r5, r6, r7, r8, r9, r10, r11, pc}
.LBB114_40:
	ldrd	r5, r12, [r4, #32]
	and.w	r7, r5, r12
	adds	r7, #1
	beq	.LBB114_44
	str	r2, [sp, #40]
	strd	r5, r12, [sp, #16]
	strd	r0, r8, [sp]
	mov	r9, r3
	add.w	r8, r4, #48
	ldrd	r7, r3, [sp, #44]
	mov	r0, r8
	mov	r2, r6
	mov	r5, r1
	str	r7, [sp, #8]
	bl	tlsf_heap.refitting.recut.4
	ldr	r1, [r4, #48]
	ldr	r7, [sp, #52]
	movs	r2, #0
	add	r1, r7
	strd	r11, r2, [r1, #16]
	ldrd	r1, r2, [r4, #40]
	sub.w	r0, r0, r10
	add	r0, r1
	cmp	r2, r0
	str	r0, [r4, #40]
	it	lo
	strlo	r0, [r4, #44]
	ldrd	r0, r1, [r4, #32]
	ldr	r2, [sp, #40]
	adds	r0, #1
	adc	r1, r1, #0
	strd	r0, r1, [r4, #32]
	mov	r3, r9
	mov	r1, r5
.LBB114_42:
	ldr.w	r0, [r8]
	add	r0, r7
	movs	r7, #0
	strd	r2, r7, [r0, #16]
.LBB114_43:
	movs	r0, #1
	strb	r0, [r4]
	str	r1, [r3]
	movs	r0, #0
	add	sp, #76
	pop.w	{r4, r5, r6, r7, r8, r9, r10, r11, pc}
.LBB114_44:
	movs	r0, #1
	strb	r0, [r4]
	movs	r0, #2
	add	sp, #76
	pop.w	{r4, r5, r6, r7, r8, r9, r10, r11, pc}
.LBB114_45:
	orr	r0, r7, #16
	clz	r0, r0
	rsb.w	r0, r0, #27
	subs	r7, #1
	lsr.w	r6, r7, r0
	add.w	r0, r6, r0, lsl #4
	adds	r0, #1
	subs.w	lr, r0, #1
	mov.w	r7, #0
	sbc	r5, r7, #0
	lsr.w	r7, lr, #4
	orr.w	r7, r7, r5, lsl #28
	add.w	r8, r4, #108
	ldr.w	r0, [r8, r7, lsl #2]
	and	r6, r6, #15
	lsrs	r0, r6
	bics	r6, r0, #1
	beq.w	.LBB114_59
	rbit	r0, r6
	clz	r0, r0
	adds.w	r0, r0, lr
	adc	r7, r5, #0
	lsrs	r6, r0, #4
	orr.w	r8, r6, r7, lsl #28
	b	.LBB114_61
.LBB114_47:
	ldr	r0, [r4, #104]
	mvn	r6, #1
	lsl.w	r5, r6, r5
	ands	r5, r0
	beq.w	.LBB114_39
	rbit	r0, r5
	clz	r0, r0
	add.w	r5, r4, #108
	ldr.w	r5, [r5, r0, lsl #2]
	rbit	r5, r5
	clz	r5, r5
	add.w	r5, r5, r0, lsl #5
	lsrs	r0, r5, #5
.LBB114_49:
	add.w	r9, r4, #192
	ldr.w	r7, [r9, r5, lsl #2]
	str	r0, [sp, #36]
	add.w	r0, lr, r7, lsl #3
	ldr	r6, [r0, #16]
	add.w	r8, r4, #48
	adds	r0, r6, #1
	lsl.w	r0, r7, #3
	str	r7, [sp, #40]
	str	r0, [sp, #44]
	beq	.LBB114_51
	add.w	r0, lr, r6, lsl #3
	mov.w	r7, #-1
	str	r7, [r0, #20]
	str.w	r6, [r9, r5, lsl #2]
	ldr.w	lr, [r8]
	b	.LBB114_53
.LBB114_51:
	mov.w	r0, #-1
	ldr	r7, [sp, #36]
	str.w	r0, [r9, r5, lsl #2]
	add.w	r8, r4, #108
	ldr.w	r0, [r8, r7, lsl #2]
	and	r6, r5, #31
	movs	r5, #1
	lsl.w	r6, r5, r6
	bics	r0, r6
	str.w	r0, [r8, r7, lsl #2]
	bne	.LBB114_53
	ldr	r0, [r4, #104]
	lsls	r5, r7
	bics	r0, r5
	str	r0, [r4, #104]
.LBB114_53:
	ldr	r0, [sp, #44]
	ldr.w	r6, [lr, r0]
	add.w	r5, lr, r0
	ldr.w	r8, [r5, #4]
	sub.w	r7, r6, r11, lsl #2
	cmp	r7, #15
	bhi	.LBB114_55
	subs	r0, r6, #1
	sbc	r7, r8, #0
	movs	r6, #0
	stm.w	r5, {r0, r7, r12}
	strd	r10, r2, [r5, #12]
	str	r6, [r5, #20]
	lsrs	r7, r0, #2
	add.w	lr, r4, #48
	b	.LBB114_73
.LBB114_55:
	lsrs	r0, r7, #2
	str	r0, [sp, #36]
	ldr.w	r9, [sp, #40]
	subs	r6, r6, r7
	add	r11, r9
	sbc	r0, r8, #0
	mov.w	r8, #0
	strd	r6, r0, [r5]
	add.w	r0, lr, r11, lsl #3
	strd	r12, r10, [r5, #8]
	strd	r2, r8, [r5, #16]
	str.w	r7, [lr, r11, lsl #3]
	strd	r9, r12, [r0, #4]
	str.w	r10, [r0, #12]
	movw	r2, #65528
	ldr	r0, [r4, #72]
	movt	r2, #8191
	and.w	r2, r2, r11, lsr #3
	and	r5, r11, #63
	add.w	r9, r0, r2
	mov.w	r10, #1
	rsb.w	r6, r5, #32
	ldr.w	r12, [r0, r2]
	ldr.w	lr, [r9, #4]
	subs.w	r8, r5, #32
	lsr.w	r6, r10, r6
	lsl.w	r5, r10, r5
	it	pl
	lslpl.w	r6, r10, r8
	it	pl
	movpl	r5, #0
	orr.w	lr, lr, r6
	orr.w	r5, r5, r12
	ldr	r6, [sp, #36]
	str	r5, [r0, r2]
	lsls	r0, r7, #30
	str.w	lr, [r9, #4]
	add.w	lr, r4, #48
	bmi	.LBB114_57
	ldr.w	r0, [lr]
	add.w	r2, r6, r11
	add.w	r0, r0, r2, lsl #3
	str.w	r11, [r0, #4]
.LBB114_57:
	orr	r0, r6, #32
	clz	r0, r0
	rsb.w	r2, r0, #26
	lsr.w	r0, r6, r2
	add.w	r2, r0, r2, lsl #5
	add.w	r5, r4, #192
	ldr.w	r7, [r5, r2, lsl #2]
	lsl.w	r6, r11, #3
	cmp.w	r7, #-1
	str.w	r11, [r5, r2, lsl #2]
	mov.w	r5, #-1
	ble.w	.LBB114_71
	ldr.w	r0, [lr]
	adds	r2, r0, r6
	mov.w	r6, #-1
	add.w	r0, r0, r7, lsl #3
	strd	r7, r6, [r2, #16]
	str.w	r11, [r0, #20]
	b	.LBB114_72
.LBB114_59:
	ldr	r0, [r4, #104]
	mvn	r6, #1
	lsl.w	r7, r6, r7
	ands	r0, r7
	beq.w	.LBB114_39
	rbit	r0, r0
	clz	r0, r0
	ldr.w	r7, [r8, r0, lsl #2]
	rbit	r7, r7
	clz	r7, r7
	add.w	r0, r7, r0, lsl #4
	lsr.w	r8, r0, #4
.LBB114_61:
	add.w	r10, r4, #192
	ldr.w	r5, [r10, r0, lsl #2]
	add.w	lr, r4, #48
	add.w	r7, r9, r5, lsl #3
	ldr	r7, [r7, #16]
	str	r5, [sp, #48]
	adds	r6, r7, #1
	lsl.w	r6, r5, #3
	str	r6, [sp, #40]
	beq	.LBB114_63
	add.w	r6, r9, r7, lsl #3
	mov.w	r5, #-1
	str	r5, [r6, #20]
	str.w	r7, [r10, r0, lsl #2]
	ldr.w	r9, [lr]
	b	.LBB114_65
.LBB114_63:
	mov.w	r7, #-1
	str.w	r7, [r10, r0, lsl #2]
	add.w	r5, r4, #108
	ldr.w	r7, [r5, r8, lsl #2]
	and	r6, r0, #15
	movs	r0, #1
	lsl.w	r6, r0, r6
	bics	r7, r6
	str.w	r7, [r5, r8, lsl #2]
	bne	.LBB114_65
	ldr	r7, [r4, #104]
	lsl.w	r0, r0, r8
	bic.w	r0, r7, r0
	str	r0, [r4, #104]
.LBB114_65:
	ldr	r5, [sp, #40]
	ldr	r6, [sp, #44]
	ldr.w	r7, [r9, r5]
	add.w	r0, r9, r5
	ldr.w	r10, [r0, #4]
	sub.w	r8, r7, r6, lsl #2
	cmp.w	r8, #15
	bhi	.LBB114_67
	subs	r7, #1
	sbc	r6, r10, #0
	mov.w	lr, #0
	strd	r7, r6, [r0]
	strd	r12, r11, [r0, #8]
	strd	r2, lr, [r0, #16]
	lsrs	r7, r7, #2
	add.w	r8, r4, #48
	b	.LBB114_76
.LBB114_67:
	lsr.w	r5, r8, #2
	str	r5, [sp, #36]
	ldr	r5, [sp, #48]
	subs.w	r7, r7, r8
	add.w	lr, r5, r6
	mov.w	r6, #0
	sbc	r10, r10, #0
	stm.w	r0, {r7, r10, r12}
	strd	r11, r2, [r0, #12]
	str	r6, [r0, #20]
	add.w	r0, r9, lr, lsl #3
	str.w	r8, [r9, lr, lsl #3]
	strd	r5, r12, [r0, #4]
	str.w	r11, [r0, #12]
	movw	r2, #65528
	ldr	r0, [r4, #72]
	movt	r2, #8191
	and.w	r2, r2, lr, lsr #3
	ldr	r7, [r0, r2]
	add.w	r9, r0, r2
	str	r7, [sp, #32]
	ldr.w	r7, [r9, #4]
	and	r6, lr, #63
	mov.w	r11, #1
	rsb.w	r12, r6, #32
	str	r7, [sp, #28]
	subs.w	r10, r6, #32
	lsr.w	r5, r11, r12
	lsl.w	r6, r11, r6
	ldr.w	r12, [sp, #36]
	it	pl
	lslpl.w	r5, r11, r10
	it	pl
	movpl	r6, #0
	ldr	r7, [sp, #28]
	orrs	r7, r5
	ldr	r5, [sp, #32]
	str.w	r7, [r9, #4]
	orrs	r6, r5
	str	r6, [r0, r2]
	lsls.w	r0, r8, #30
	add.w	r8, r4, #48
	bmi	.LBB114_69
	ldr.w	r0, [r8]
	add.w	r2, r12, lr
	add.w	r0, r0, r2, lsl #3
	str.w	lr, [r0, #4]
.LBB114_69:
	orr	r0, r12, #16
	clz	r0, r0
	rsb.w	r2, r0, #27
	lsr.w	r0, r12, r2
	add.w	r2, r0, r2, lsl #4
	add.w	r5, r4, #192
	ldr.w	r7, [r5, r2, lsl #2]
	lsl.w	r6, lr, #3
	cmp.w	r7, #-1
	add.w	r9, r4, #108
	str.w	lr, [r5, r2, lsl #2]
	ble	.LBB114_74
	ldr.w	r0, [r8]
	adds	r2, r0, r6
	mov.w	r6, #-1
	add.w	r0, r0, r7, lsl #3
	strd	r7, r6, [r2, #16]
	str.w	lr, [r0, #20]
	b	.LBB114_75
.LBB114_71:
	ldr	r7, [r4, #48]
	lsrs	r2, r2, #5
	add	r7, r6
	strd	r5, r5, [r7, #16]
	add.w	r8, r4, #108
	ldr	r7, [r4, #104]
	ldr.w	r6, [r8, r2, lsl #2]
	mov.w	r12, #1
	and	r0, r0, #31
	lsl.w	r5, r12, r2
	lsl.w	r0, r12, r0
	orrs	r7, r5
	orrs	r0, r6
	str	r7, [r4, #104]
	str.w	r0, [r8, r2, lsl #2]
.LBB114_72:
	ldr	r7, [sp, #52]
.LBB114_73:
	ldrd	r0, r2, [r4, #40]
	ldr	r6, [sp, #40]
	add	r0, r7
	cmp	r2, r0
	str	r0, [r4, #40]
	it	lo
	strlo	r0, [r4, #44]
	ldrd	r0, r2, [r4, #32]
	ldr	r7, [r4, #48]
	adds	r0, #1
	adc	r2, r2, #0
	strd	r0, r2, [r4, #32]
	ldr	r0, [sp, #48]
	mov	r5, r3
	add	r0, r7
	ldr	r3, [r0, #16]
	ldr	r0, [sp, #44]
	mov	r2, r6
	add	r0, r7
	ldr	r0, [r0, #16]
	cmp	r0, r3
	it	lo
	movlo	r3, r0
	mov	r0, lr
	bl	tlsf_words.words.Words.copy_payload
	add	r1, sp, #56
	add.w	r0, r4, #24
	bl	tlsf_heap.heap.Heap.release_live.5
	mov	r1, r6
	mov	r3, r5
	b	.LBB114_43
.LBB114_74:
	ldr	r7, [r4, #48]
	lsrs	r2, r2, #4
	add	r7, r6
	mov.w	r6, #-1
	strd	r6, r6, [r7, #16]
	ldr	r7, [r4, #104]
	ldr.w	r6, [r9, r2, lsl #2]
	mov.w	r12, #1
	and	r0, r0, #15
	lsl.w	r5, r12, r2
	lsl.w	r0, r12, r0
	orrs	r7, r5
	orrs	r0, r6
	str	r7, [r4, #104]
	str.w	r0, [r9, r2, lsl #2]
.LBB114_75:
	ldrd	r5, r7, [sp, #40]
.LBB114_76:
	ldrd	r0, r2, [r4, #40]
	mov	r9, r3
	add	r0, r7
	cmp	r2, r0
	str	r0, [r4, #40]
	ldr	r3, [sp, #52]
	it	lo
	strlo	r0, [r4, #44]
	ldrd	r0, r2, [r4, #32]
	ldr	r7, [r4, #48]
	adds	r0, #1
	adc	r2, r2, #0
	strd	r0, r2, [r4, #32]
	adds	r0, r7, r3
	ldr	r3, [r0, #16]
	adds	r0, r7, r5
	ldr	r0, [r0, #16]
	cmp	r0, r3
	it	lo
	movlo	r3, r0
	ldr	r6, [sp, #48]
	mov	r0, r8
	mov	r2, r6
	bl	tlsf_words.words.Words.copy_payload
	add	r1, sp, #56
	add.w	r0, r4, #24
	bl	tlsf_heap.heap.Heap.release_live.4
	mov	r1, r6
	mov	r3, r9
	b	.LBB114_43
.Lfunc_end114:
	.size	tlsf_resize_place, .Lfunc_end114-tlsf_resize_place
	.cfi_endproc
	.section	.text.tlsf_take,"ax",%progbits
	.globl	tlsf_take
	.p2align	2
	.type	tlsf_take,%function
	.code	16
	.thumb_func
tlsf_take:
	.cfi_startproc
	push	{r4, lr}
	.cfi_def_cfa_offset 8
	.cfi_offset lr, -4
	.cfi_offset r4, -8
	ldrb	r2, [r0, #8]
	cbz	r2, .LBB115_4
	ldr	r4, [r0]
	ldrb	r0, [r4, #1]
	cbz	r0, .LBB115_4
	ldrb	r0, [r4]
	cmp	r0, #1
	bne	.LBB115_5
	add.w	r0, r4, #8
	movs	r2, #0
	strb	r2, [r4, #1]
	bl	tlsf_c.lane_calls.take_name
	movs	r1, #1
	strb	r1, [r4, #1]
	pop	{r4, pc}
.LBB115_4:
	movs	r0, #0
	pop.w	{r4, lr}
	b	tlsf_c.call_fault.CallFault.refusal
.LBB115_5:
	movs	r0, #2
	pop.w	{r4, lr}
	b	tlsf_c.call_fault.CallFault.refusal
.Lfunc_end115:
	.size	tlsf_take, .Lfunc_end115-tlsf_take
	.cfi_endproc
	.section	.text.tlsf_take_all,"ax",%progbits
	.globl	tlsf_take_all
	.p2align	2
	.type	tlsf_take_all,%function
	.code	16
	.thumb_func
tlsf_take_all:
	.cfi_startproc
	push.w	{r4, r5, r6, r7, r8, r9, r10, r11, lr}
	.cfi_def_cfa_offset 36
	.cfi_offset lr, -4
	.cfi_offset r11, -8
	.cfi_offset r10, -12
	.cfi_offset r9, -16
	.cfi_offset r8, -20
	.cfi_offset r7, -24
	.cfi_offset r6, -28
	.cfi_offset r5, -32
	.cfi_offset r4, -36
	sub.w	sp, sp, #788
	.cfi_def_cfa_offset 824
	mov	r10, r1
	cmp	r1, #0
	ldrb	r1, [r0, #8]
	ldr	r4, [r3]
	mov	r6, r3
	it	eq
	addeq.w	r10, r10, #4096
	cmp	r1, #0
	beq.w	.LBB116_34
	ldr.w	r8, [r0]
	ldrb.w	r0, [r8, #1]
	cmp	r0, #0
	beq.w	.LBB116_34
	ldrb.w	r0, [r8]
	cmp	r0, #1
	bne.w	.LBB116_37
	str	r4, [sp, #12]
	mov	r4, r2
	add.w	r3, r8, #32
	cmp	r2, #32
	it	hs
	movhs	r4, #32
	ldm	r3, {r0, r1, r3}
	mov	r11, r2
	ldr.w	r2, [r8, #44]
	subs	r5, r3, r0
	mov.w	r7, #0
	sbcs.w	r5, r2, r1
	strb.w	r7, [r8, #1]
	bhs	.LBB116_5
	ldrd	r7, r5, [r8, #24]
	subs	r0, r3, r0
	lsl.w	r5, r5, #1
	orr.w	r5, r5, r7, lsr #31
	sbc.w	r1, r2, r1
	adds.w	r0, r0, r7, lsl #1
	adcs	r1, r5
	b	.LBB116_6
.LBB116_5:
	subs	r0, r3, r0
	sbc.w	r1, r2, r1
.LBB116_6:
	subs	r0, r0, r4
	sbcs	r0, r1, #0
	add.w	r7, r8, #8
	bhs	.LBB116_9
	ldr.w	r0, [r8, #8]
	adds	r0, #128
	movs	r1, #5
	bl	__atomic_load_8
	ldrd	r2, r3, [r8, #32]
	strd	r0, r1, [r8, #40]
	subs	r7, r0, r2
	sbcs.w	r7, r1, r3
	bhs	.LBB116_10
	ldrd	r7, r5, [r8, #24]
	subs	r0, r0, r2
	lsl.w	r5, r5, #1
	orr.w	r5, r5, r7, lsr #31
	sbcs	r1, r3
	adds.w	r2, r0, r7, lsl #1
	adc.w	r0, r1, r5
	b	.LBB116_11
.LBB116_9:
	mov.w	r9, #0
	b	.LBB116_12
.LBB116_10:
	subs	r2, r0, r2
	sbc.w	r0, r1, r3
.LBB116_11:
	subs	r1, r2, r4
	mov.w	r9, #0
	sbcs	r1, r0, #0
	it	lo
	movlo	r4, r2
	it	lo
	movlo.w	r9, #1
	add.w	r7, r8, #8
	cmp.w	r9, #0
	it	ne
	movne	r9, r0
.LBB116_12:
	subs.w	r0, r4, #21
	sbcs	r0, r9, #0
	blo.w	.LBB116_20
	add.w	r11, sp, #16
	mov	r0, r11
	movs	r1, #0
	mov.w	r2, #768
	str	r6, [sp, #8]
	movs	r5, #0
	bl	tlsf_memory_set
	mov	r0, r7
	mov	r1, r11
	mov	r2, r4
	mov	r3, r9
	bl	tlsf_post.take_end.TakeEnd.take_slice
	and	r0, r4, #3
	bic	lr, r4, #3
	movs	r2, #0
	str	r0, [sp, #4]
	str	r4, [sp, #12]
	.p2align	2
.LBB116_14:
	add.w	r0, r5, r5, lsl #1
	add.w	r0, r11, r0, lsl #3
	ldrd	r3, r7, [r0, #8]
	ldrd	r1, r0, [r0, #16]
	add.w	r12, r10, r5, lsl #4
	str.w	r0, [r12, #12]
	orr	r0, r5, #1
	str.w	r1, [r12, #8]
	add.w	r1, r0, r0, lsl #1
	lsls	r4, r5, #4
	add.w	r1, r11, r1, lsl #3
	str.w	r3, [r10, r4]
	str.w	r7, [r12, #4]
	ldrd	r3, r7, [r1, #8]
	ldrd	r4, r1, [r1, #16]
	lsls	r6, r0, #4
	add.w	r0, r10, r0, lsl #4
	str.w	r3, [r10, r6]
	str	r7, [r0, #4]
	str	r4, [r0, #8]
	str	r1, [r0, #12]
	orr	r3, r5, #2
	orr	r0, r5, #3
	adds	r5, #4
	adc	r2, r2, #0
	eor.w	r1, r5, lr
	eor.w	r7, r2, r9
	orrs	r1, r7
	add.w	r1, r3, r3, lsl #1
	add.w	r1, r11, r1, lsl #3
	ldr	r7, [r1, #8]
	lsl.w	r6, r3, #4
	str.w	r7, [r10, r6]
	ldrd	r7, r6, [r1, #12]
	ldr	r1, [r1, #20]
	add.w	r3, r10, r3, lsl #4
	str	r1, [r3, #12]
	add.w	r1, r0, r0, lsl #1
	add.w	r1, r11, r1, lsl #3
	str	r7, [r3, #4]
	str	r6, [r3, #8]
	ldrd	r3, r7, [r1, #8]
	ldrd	r6, r1, [r1, #16]
	lsl.w	r4, r0, #4
	add.w	r0, r10, r0, lsl #4
	str.w	r3, [r10, r4]
	str	r7, [r0, #4]
	str	r1, [r0, #12]
	str	r6, [r0, #8]
	bne	.LBB116_14
	ldr	r4, [sp, #4]
	cbz	r4, .LBB116_19
	add.w	r0, r5, r5, lsl #1
	add.w	r0, r11, r0, lsl #3
	add.w	r3, r0, #8
	ldm	r3, {r1, r2, r3}
	ldr	r0, [r0, #20]
	lsls	r7, r5, #4
	add.w	r6, r10, r5, lsl #4
	cmp	r4, #1
	str.w	r1, [r10, r7]
	str	r2, [r6, #4]
	str	r0, [r6, #12]
	str	r3, [r6, #8]
	beq	.LBB116_19
	adds	r0, r5, #1
	add.w	r1, r0, r0, lsl #1
	add.w	r1, r11, r1, lsl #3
	add.w	r7, r1, #8
	ldm	r7, {r2, r3, r7}
	ldr	r1, [r1, #20]
	lsls	r6, r0, #4
	add.w	r0, r10, r0, lsl #4
	cmp	r4, #2
	str.w	r2, [r10, r6]
	str	r3, [r0, #4]
	str	r1, [r0, #12]
	str	r7, [r0, #8]
	beq	.LBB116_19
	adds	r0, r5, #2
	add.w	r1, r0, r0, lsl #1
	add.w	r1, r11, r1, lsl #3
	add.w	r7, r1, #8
	ldm	r7, {r2, r3, r7}
	ldr	r1, [r1, #20]
	lsls	r6, r0, #4
	add.w	r0, r10, r0, lsl #4
	str.w	r2, [r10, r6]
	str	r3, [r0, #4]
	str	r1, [r0, #12]
	str	r7, [r0, #8]
.LBB116_19:
	ldrd	r6, r4, [sp, #8]
	b	.LBB116_31
.LBB116_20:
	subs	r0, r4, #2
	sbcs	r0, r9, #0
	blo.w	.LBB116_29
	add.w	r11, sp, #16
	mov	r0, r11
	movs	r1, #0
	mov.w	r2, #480
	str	r6, [sp, #8]
	movs	r5, #0
	str	r4, [sp, #12]
	bl	tlsf_memory_set
	ldr	r2, [sp, #12]
	mov	r0, r7
	mov	r1, r11
	mov	r3, r9
	bl	tlsf_post.take_end.TakeEnd.take_slice
	ldr	r4, [sp, #12]
	subs	r0, r4, #4
	sbcs	r0, r9, #0
	and	r12, r4, #3
	blo	.LBB116_25
	and	lr, r4, #28
	movs	r5, #0
	movs	r2, #0
	.p2align	2
.LBB116_23:
	add.w	r3, r5, r5, lsl #1
	add.w	r3, r11, r3, lsl #3
	ldrd	r7, r6, [r3, #8]
	ldrd	r0, r3, [r3, #16]
	add.w	r4, r10, r5, lsl #4
	lsls	r1, r5, #4
	str	r0, [r4, #8]
	orr	r0, r5, #1
	str.w	r7, [r10, r1]
	add.w	r1, r0, r0, lsl #1
	add.w	r1, r11, r1, lsl #3
	str	r6, [r4, #4]
	add.w	r6, r1, #8
	ldr	r1, [r1, #20]
	lsls	r7, r0, #4
	add.w	r0, r10, r0, lsl #4
	str	r3, [r4, #12]
	ldm	r6, {r3, r4, r6}
	str	r4, [r0, #4]
	str	r6, [r0, #8]
	str	r1, [r0, #12]
	orr	r0, r5, #2
	add.w	r1, r0, r0, lsl #1
	add.w	r1, r11, r1, lsl #3
	add.w	r6, r1, #8
	ldr	r1, [r1, #20]
	str.w	r3, [r10, r7]
	lsls	r7, r0, #4
	add.w	r0, r10, r0, lsl #4
	ldm	r6, {r3, r4, r6}
	str	r4, [r0, #4]
	str	r6, [r0, #8]
	str	r1, [r0, #12]
	orr	r0, r5, #3
	add.w	r1, r0, r0, lsl #1
	add.w	r1, r11, r1, lsl #3
	add.w	r6, r1, #8
	ldr	r1, [r1, #20]
	str.w	r3, [r10, r7]
	lsls	r7, r0, #4
	add.w	r0, r10, r0, lsl #4
	adds	r5, #4
	ldm	r6, {r3, r4, r6}
	str	r1, [r0, #12]
	adc	r2, r2, #0
	eor.w	r1, r5, lr
	orrs	r1, r2
	str.w	r3, [r10, r7]
	str	r4, [r0, #4]
	str	r6, [r0, #8]
	bne	.LBB116_23
	ldr	r4, [sp, #12]
	cmp.w	r12, #0
	beq	.LBB116_28
.LBB116_25:
	add.w	r0, r5, r5, lsl #1
	add.w	r0, r11, r0, lsl #3
	add.w	r3, r0, #8
	ldm	r3, {r1, r2, r3}
	ldr	r0, [r0, #20]
	lsls	r7, r5, #4
	add.w	r6, r10, r5, lsl #4
	cmp.w	r12, #1
	str.w	r1, [r10, r7]
	str	r2, [r6, #4]
	str	r0, [r6, #12]
	str	r3, [r6, #8]
	beq	.LBB116_28
	adds	r0, r5, #1
	add.w	r1, r0, r0, lsl #1
	add.w	r1, r11, r1, lsl #3
	add.w	r7, r1, #8
	ldm	r7, {r2, r3, r7}
	ldr	r1, [r1, #20]
	lsls	r6, r0, #4
	add.w	r0, r10, r0, lsl #4
	cmp.w	r12, #2
	str.w	r2, [r10, r6]
	str	r3, [r0, #4]
	str	r1, [r0, #12]
	str	r7, [r0, #8]
	beq	.LBB116_28
	adds	r0, r5, #2
	add.w	r1, r0, r0, lsl #1
	add.w	r1, r11, r1, lsl #3
	add.w	r7, r1, #8
	ldm	r7, {r2, r3, r7}
	ldr	r1, [r1, #20]
	lsls	r6, r0, #4
	add.w	r0, r10, r0, lsl #4
	str.w	r2, [r10, r6]
	str	r3, [r0, #4]
	str	r1, [r0, #12]
	str	r7, [r0, #8]
.LBB116_28:
	ldr	r6, [sp, #8]
	b	.LBB116_31
.LBB116_29:
	eor	r0, r4, #1
	orrs.w	r0, r0, r9
	bne	.LBB116_35
	mov	r0, r7
	mov	r1, r10
	bl	tlsf_c.lane_calls.take_name
.LBB116_31:
	movs	r0, #1
	strb.w	r0, [r8, #1]
.LBB116_32:
	movs	r0, #0
.LBB116_33:
	str	r4, [r6]
	add.w	sp, sp, #788
	pop.w	{r4, r5, r6, r7, r8, r9, r10, r11, pc}
.LBB116_34:
	movs	r0, #0
	bl	tlsf_c.call_fault.CallFault.refusal
	b	.LBB116_33
.LBB116_35:
	movs	r0, #1
	cmp.w	r11, #0
	strb.w	r0, [r8, #1]
	beq	.LBB116_32
	ldr	r4, [sp, #12]
	movs	r0, #35
	b	.LBB116_33
.LBB116_37:
	movs	r0, #2
	bl	tlsf_c.call_fault.CallFault.refusal
	b	.LBB116_33
.Lfunc_end116:
	.size	tlsf_take_all, .Lfunc_end116-tlsf_take_all
	.cfi_endproc
	.section	.text.tlsf_take_close,"ax",%progbits
	.globl	tlsf_take_close
	.p2align	2
	.type	tlsf_take_close,%function
	.code	16
	.thumb_func
tlsf_take_close:
	.cfi_startproc
	ldrb	r1, [r0, #8]
	cbz	r1, .LBB117_4
	ldr	r1, [r0]
	ldrb	r2, [r1, #1]
	cmp	r2, #1
	bne	.LBB117_4
	ldrb	r2, [r1]
	cmp	r2, #1
	itt	ne
	movne	r0, #40
	bxne	lr
.LBB117_3:
	push	{r4, r5, r6, r7, lr}
	.cfi_def_cfa_offset 20
	.cfi_offset lr, -4
	.cfi_offset r7, -8
	.cfi_offset r6, -12
	.cfi_offset r5, -16
	.cfi_offset r4, -20
	sub	sp, #100
	.cfi_def_cfa_offset 120
	movs	r6, #0
	strb	r6, [r1, #1]
	ldr	r4, [r0]
	str	r6, [r0, #4]
	str	r6, [r0, #8]
	str	r6, [r0, #12]
	str	r6, [r0]
	mov	r1, r4
	add.w	r0, sp, #2
	ldrh	r7, [r1], #8
	adds	r5, r0, #6
	mov	r0, r5
	movs	r2, #40
	bl	tlsf_memory_cpy
	mov	r0, r4
	bl	tlsf_memory_dealloc
	add	r4, sp, #48
	add.w	r0, r4, #8
	mov	r1, r5
	movs	r2, #40
	strd	r6, r6, [sp, #48]
	strh.w	r7, [sp, #48]
	bl	tlsf_memory_cpy
	mov	r0, r4
	bl	tlsf_c.tlsf_c.any_end.AnyEnd.Destruct.drop
	mov	r0, r6
	add	sp, #100
	pop	{r4, r5, r6, r7, pc}
.LBB117_4:
	movs	r0, #32
	bx	lr
.Lfunc_end117:
	.size	tlsf_take_close, .Lfunc_end117-tlsf_take_close
	.cfi_endproc
	.section	.text.tlsf_words,"ax",%progbits
	.globl	tlsf_words
	.p2align	2
	.type	tlsf_words,%function
	.code	16
	.thumb_func
tlsf_words:
	.cfi_startproc
	push.w	{r4, r5, r6, r7, r8, r9, lr}
	.cfi_def_cfa_offset 28
	.cfi_offset lr, -4
	.cfi_offset r9, -8
	.cfi_offset r8, -12
	.cfi_offset r7, -16
	.cfi_offset r6, -20
	.cfi_offset r5, -24
	.cfi_offset r4, -28
	bic	r12, r0, #1
	cmp.w	r12, #4
	itt	ne
	movne	r0, #34
	popne.w	{r4, r5, r6, r7, r8, r9, pc}
.LBB118_1:
	cmp	r1, #0
	beq	.LBB118_6
	cmp	r0, #4
	movw	r0, #65512
	movt	r0, #127
	bne	.LBB118_8
	cmp	r2, r0
	bhi.w	.LBB118_15
	cmp	r2, #9
	blo	.LBB118_11
	add.w	r0, r2, #31
	movs	r4, #16
	orr.w	r4, r4, r0, lsr #3
	movs	r2, #3
	clz	r4, r4
	mov.w	r5, #-1
	add.w	r2, r2, r0, lsr #3
	rsb.w	r4, r4, #27
	add.w	r0, r5, r0, lsr #3
	lsrs	r0, r4
	adds	r0, #1
	umull	r12, lr, r2, r1
	add.w	r4, r0, r4, lsl #4
	lsrs	r6, r4, #4
	movs	r7, #8
	and	r0, r0, #15
	add.w	r5, r5, r4, lsr #4
	subs.w	r2, r12, r2
	lsl.w	r8, r7, r6
	lsl.w	r0, r0, r5
	sbcs	r5, lr, #0
	mov.w	r7, #0
	adc	r7, r7, #0
	teq.w	r7, #1
	itt	ne
	movne	r5, #0
	movne	r2, #0
	cmp	r6, #0
	it	ne
	addne.w	r4, r0, r8
	subs	r0, r4, #1
	umlal	r2, r5, r0, r1
	adds	r1, r2, #1
	adc	r2, r5, #0
	b	.LBB118_12
.LBB118_6:
	movs	r0, #4
.LBB118_7:
	str	r0, [r3]
	movs	r0, #0
	pop.w	{r4, r5, r6, r7, r8, r9, pc}
.LBB118_8:
	add.w	r0, r0, #125829120
	cmp	r2, r0
	bhi	.LBB118_15
	cmp	r2, #9
	blo	.LBB118_13
	add.w	r0, r2, #31
	movs	r5, #32
	orr.w	r5, r5, r0, lsr #3
	movs	r2, #3
	clz	r5, r5
	mov.w	r12, #-1
	add.w	r2, r2, r0, lsr #3
	rsb.w	r5, r5, #26
	add.w	r0, r12, r0, lsr #3
	lsrs	r0, r5
	adds	r0, #1
	umull	r8, lr, r2, r1
	add.w	r5, r0, r5, lsl #5
	lsrs	r4, r5, #5
	movs	r6, #16
	and	r0, r0, #31
	add.w	r7, r12, r5, lsr #5
	subs.w	r2, r8, r2
	lsl.w	r9, r6, r4
	lsl.w	r0, r0, r7
	sbcs	r7, lr, #0
	mov.w	r6, #0
	adc	r6, r6, #0
	teq.w	r6, #1
	itt	ne
	movne	r7, #0
	movne	r2, #0
	cmp	r4, #0
	it	ne
	addne.w	r5, r0, r9
	subs	r0, r5, #1
	umlal	r2, r7, r0, r1
	adds	r1, r2, #1
	adc	r2, r7, #0
	b	.LBB118_14
.LBB118_11:
	lsrs	r2, r1, #30
	lsls	r1, r1, #2
.LBB118_12:
	cmp	r1, #4
	mov.w	r7, #4
	mov.w	r0, #4
	it	hi
	movhi	r7, r1
	cmp	r2, #0
	ite	ne
	movne	r0, r1
	moveq	r0, r7
	rsbs.w	r1, r1, #1048576
	mov.w	r1, #0
	sbcs	r1, r2
	bhs	.LBB118_7
	b	.LBB118_15
.LBB118_13:
	lsrs	r2, r1, #30
	lsls	r1, r1, #2
.LBB118_14:
	movs	r7, #4
	cmp	r1, #4
	mov.w	r0, #4
	it	hi
	movhi	r7, r1
	cmp	r2, #0
	ite	ne
	movne	r0, r1
	moveq	r0, r7
	movs	r7, #1
	movt	r7, #16
	add.w	r7, r7, #15728640
	subs	r1, r1, r7
	sbcs	r1, r2, #0
	blo	.LBB118_7
.LBB118_15:
	movs	r0, #5
	pop.w	{r4, r5, r6, r7, r8, r9, pc}
.Lfunc_end118:
	.size	tlsf_words, .Lfunc_end118-tlsf_words
	.cfi_endproc
	.section	.text.tlsf_offsets_report,"ax",%progbits
	.globl	tlsf_offsets_report
	.p2align	2
	.type	tlsf_offsets_report,%function
	.code	16
	.thumb_func
tlsf_offsets_report:
	.cfi_startproc
	push	{r4, r5, r6, r7, lr}
	.cfi_def_cfa_offset 20
	.cfi_offset lr, -4
	.cfi_offset r7, -8
	.cfi_offset r6, -12
	.cfi_offset r5, -16
	.cfi_offset r4, -20
	sub	sp, #52
	.cfi_def_cfa_offset 72
	ldrb	r2, [r0, #8]
	cbz	r2, .LBB119_7
	ldr	r7, [r0]
	ldrb	r0, [r7, #1]
	cbz	r0, .LBB119_7
	ldrb	r0, [r7]
	cbnz	r0, .LBB119_8
	mov	r4, r1
	ldrb	r1, [r7, #8]
	movs	r0, #0
	mov	r6, sp
	strb	r0, [r7, #1]
	cmp	r1, #0
	add.w	r5, r7, #16
	mov	r0, r6
	mov.w	r1, #0
	mov.w	r2, #48
	beq	.LBB119_5
	bl	tlsf_memory_set
	mov	r0, r6
	mov	r1, r5
	bl	tlsf_heap.heap.Heap.report.5
	b	.LBB119_6
.LBB119_5:
	bl	tlsf_memory_set
	mov	r0, r6
	mov	r1, r5
	bl	tlsf_heap.heap.Heap.report.4
.LBB119_6:
	ldr.w	r0, [r7, #2752]
	ldr	r1, [sp, #4]
	ldr	r3, [sp, #16]
	ldr	r5, [sp, #20]
	ldr.w	r12, [sp]
	umull	lr, r2, r0, r1
	movs	r1, #1
	umull	r3, r6, r3, r0
	umull	r5, r0, r5, r0
	strb	r1, [r7, #1]
	movs	r1, #0
	str.w	r12, [r4]
	str	r1, [r4, #4]
	str	r2, [r4, #12]
	str.w	lr, [r4, #8]
	str	r6, [r4, #20]
	str	r3, [r4, #16]
	str	r0, [r4, #28]
	movs	r0, #0
	str	r5, [r4, #24]
	add	sp, #52
	pop	{r4, r5, r6, r7, pc}
.LBB119_7:
	movs	r0, #0
	b	.LBB119_9
.LBB119_8:
	movs	r0, #2
.LBB119_9:
	add	sp, #52
	pop.w	{r4, r5, r6, r7, lr}
	b	tlsf_c.call_fault.CallFault.refusal
.Lfunc_end119:
	.size	tlsf_offsets_report, .Lfunc_end119-tlsf_offsets_report
	.cfi_endproc
	.section	.text.tlsf_write,"ax",%progbits
	.globl	tlsf_write
	.p2align	2
	.type	tlsf_write,%function
	.code	16
	.thumb_func
tlsf_write:
	.cfi_startproc
	push.w	{r4, r5, r6, r7, r8, r9, lr}
	.cfi_def_cfa_offset 28
	.cfi_offset lr, -4
	.cfi_offset r9, -8
	.cfi_offset r8, -12
	.cfi_offset r7, -16
	.cfi_offset r6, -20
	.cfi_offset r5, -24
	.cfi_offset r4, -28
	sub	sp, #12
	.cfi_def_cfa_offset 40
	mov	r12, r3
	ldr	r3, [sp, #52]
	ldrb	r1, [r0, #8]
	cmp	r3, #0
	it	eq
	addeq.w	r3, r3, #4096
	cmp	r1, #0
	beq	.LBB120_10
	ldr	r4, [r0]
	ldrb	r0, [r4]
	cmp	r0, #1
	bne	.LBB120_10
	ldrb	r0, [r4, #16]
	mov	lr, r2
	ldr.w	r8, [sp, #56]
	ldr	r2, [sp, #48]
	ldrd	r9, r7, [sp, #40]
	ldr	r1, [r4, #24]
	movs	r5, #0
	cmp	r0, #0
	strb	r5, [r4]
	beq	.LBB120_11
	cmp	r1, lr
	bne	.LBB120_18
	ldr	r0, [r4, #56]
	mov	r1, lr
	cmp	r12, r0
	bhs	.LBB120_18
	ldr	r0, [r4, #72]
	mvn	r1, #7
	and.w	r1, r1, r12, lsr #3
	adds	r5, r0, r1
	ldr	r5, [r5, #4]
	ldr	r0, [r0, r1]
	and	r1, r12, #63
	rsb.w	r6, r1, #32
	lsrs	r0, r1
	lsl.w	r6, r5, r6
	orrs	r0, r6
	subs	r1, #32
	it	pl
	lsrpl.w	r0, r5, r1
	lsls	r0, r0, #31
	mov	r1, lr
	beq	.LBB120_18
	add.w	r0, r4, #48
	ldr	r5, [r0]
	ldrb.w	r1, [r5, r12, lsl #3]
	lsls	r1, r1, #31
	mov	r1, lr
	bne	.LBB120_18
	add.w	r5, r5, r12, lsl #3
	ldrd	r1, r6, [r5, #8]
	eors	r6, r7
	eor.w	r1, r1, r9
	orrs	r1, r6
	mov	r1, lr
	bne	.LBB120_18
	ldr	r1, [r5, #16]
	adds.w	r7, r8, r2
	mov.w	r6, #0
	adc	r5, r6, #0
	subs	r1, r1, r7
	sbcs.w	r1, r6, r5
	blo	.LBB120_17
	mov	r1, r12
	strd	r8, r6, [sp]
	bl	tlsf_heap.region.Region.write.5
	b	.LBB120_22
.LBB120_10:
	movs	r0, #32
	add	sp, #12
	pop.w	{r4, r5, r6, r7, r8, r9, pc}
.LBB120_11:
	cmp	r1, lr
	bne	.LBB120_18
	ldr	r0, [r4, #56]
	mov	r1, lr
	cmp	r12, r0
	bhs	.LBB120_18
	ldr	r0, [r4, #72]
	mvn	r1, #7
	and.w	r1, r1, r12, lsr #3
	adds	r5, r0, r1
	ldr	r5, [r5, #4]
	ldr	r0, [r0, r1]
	and	r1, r12, #63
	rsb.w	r6, r1, #32
	lsrs	r0, r1
	lsl.w	r6, r5, r6
	orrs	r0, r6
	subs	r1, #32
	it	pl
	lsrpl.w	r0, r5, r1
	lsls	r0, r0, #31
	mov	r1, lr
	beq	.LBB120_18
	add.w	r0, r4, #48
	ldr	r5, [r0]
	ldrb.w	r1, [r5, r12, lsl #3]
	lsls	r1, r1, #31
	mov	r1, lr
	bne	.LBB120_18
	add.w	r5, r5, r12, lsl #3
	ldrd	r1, r6, [r5, #8]
	eors	r6, r7
	eor.w	r1, r1, r9
	orrs	r1, r6
	mov	r1, lr
	bne	.LBB120_18
	ldr	r1, [r5, #16]
	adds.w	r7, r8, r2
	mov.w	r6, #0
	adc	r5, r6, #0
	subs	r1, r1, r7
	sbcs.w	r1, r6, r5
	bhs	.LBB120_21
.LBB120_17:
	movs	r0, #4
	b	.LBB120_19
.LBB120_18:
	mov	r0, lr
	bl	tlsf_heap.refusal.Refusal.of_name
.LBB120_19:
	movs	r6, #1
	lsls	r1, r6, #31
	beq	.LBB120_23
.LBB120_20:
	movw	r1, :lower16:.Lswitch.table.tlsf_write
	uxtb	r0, r0
	movt	r1, :upper16:.Lswitch.table.tlsf_write
	ldr.w	r0, [r1, r0, lsl #2]
	b	.LBB120_24
.LBB120_21:
	mov	r1, r12
	strd	r8, r6, [sp]
	bl	tlsf_heap.region.Region.write.4
.LBB120_22:
	movs	r0, #0
	lsls	r1, r6, #31
	bne	.LBB120_20
.LBB120_23:
	movs	r0, #0
.LBB120_24:
	movs	r1, #1
	strb	r1, [r4]
	add	sp, #12
	pop.w	{r4, r5, r6, r7, r8, r9, pc}
.Lfunc_end120:
	.size	tlsf_write, .Lfunc_end120-tlsf_write
	.cfi_endproc
	.section	.text.tlsf_pools_write,"ax",%progbits
	.globl	tlsf_pools_write
	.p2align	2
	.type	tlsf_pools_write,%function
	.code	16
	.thumb_func
tlsf_pools_write:
	.cfi_startproc
	push.w	{r4, r5, r6, r7, r8, r9, r10, r11, lr}
	.cfi_def_cfa_offset 36
	.cfi_offset lr, -4
	.cfi_offset r11, -8
	.cfi_offset r10, -12
	.cfi_offset r9, -16
	.cfi_offset r8, -20
	.cfi_offset r7, -24
	.cfi_offset r6, -28
	.cfi_offset r5, -32
	.cfi_offset r4, -36
	sub	sp, #12
	.cfi_def_cfa_offset 48
	mov	r12, r3
	ldr	r3, [sp, #60]
	ldrb	r1, [r0, #8]
	cmp	r3, #0
	it	eq
	addeq.w	r3, r3, #4096
	cmp	r1, #0
	beq.w	.LBB121_23
	ldr	r4, [r0]
	ldrb	r0, [r4, #1]
	cmp	r0, #0
	beq.w	.LBB121_23
	ldrb	r0, [r4]
	cmp	r0, #1
	bne.w	.LBB121_25
	ldrb	r1, [r4, #8]
	mov	lr, r2
	ldr.w	r8, [sp, #64]
	ldr	r2, [sp, #56]
	ldrd	r10, r11, [sp, #48]
	ldr	r0, [r4, #24]
	cmp	r1, #0
	ldr	r1, [r4, #16]
	mov.w	r5, #0
	strb	r5, [r4, #1]
	beq	.LBB121_13
	cmp	lr, r1
	blo.w	.LBB121_22
	ldrd	r6, r7, [r4, #32]
	sub.w	r5, lr, r1
	subs	r1, r5, r6
	mov.w	r1, #0
	sbcs	r1, r7
	bhs.w	.LBB121_22
	movw	r9, #2792
	mul	r1, r5, r9
	ldr	r1, [r0, r1]
	cmp	r1, lr
	bne.w	.LBB121_24
	mla	r0, r5, r9, r0
	ldr	r1, [r0, #32]
	cmp	r12, r1
	mov	r1, lr
	bhs.w	.LBB121_24
	ldr	r1, [r0, #48]
	mvn	r5, #7
	and.w	r5, r5, r12, lsr #3
	adds	r6, r1, r5
	ldr	r6, [r6, #4]
	ldr	r1, [r1, r5]
	and	r5, r12, #63
	rsb.w	r7, r5, #32
	lsrs	r1, r5
	lsl.w	r7, r6, r7
	orrs	r1, r7
	subs	r5, #32
	it	pl
	lsrpl.w	r1, r6, r5
	lsls	r1, r1, #31
	mov	r1, lr
	beq	.LBB121_24
	adds	r0, #24
	ldr	r5, [r0]
	ldrb.w	r1, [r5, r12, lsl #3]
	lsls	r1, r1, #31
	mov	r1, lr
	bne	.LBB121_24
	add.w	r5, r5, r12, lsl #3
	ldrd	r1, r6, [r5, #8]
	eor.w	r6, r6, r11
	eor.w	r1, r1, r10
	orrs	r1, r6
	mov	r1, lr
	bne	.LBB121_24
	ldr	r1, [r5, #16]
	adds.w	r6, r8, r2
	mov.w	r7, #0
	adc	r5, r7, #0
	subs	r1, r1, r6
	sbcs.w	r1, r7, r5
	blo	.LBB121_21
	mov	r1, r12
	strd	r8, r7, [sp]
	bl	tlsf_heap.region.Region.write.5
	b	.LBB121_28
.LBB121_13:
	cmp	lr, r1
	blo	.LBB121_22
	ldrd	r6, r7, [r4, #32]
	sub.w	r5, lr, r1
	subs	r1, r5, r6
	mov.w	r1, #0
	sbcs	r1, r7
	bhs	.LBB121_22
	movw	r9, #2792
	mul	r1, r5, r9
	ldr	r1, [r0, r1]
	cmp	r1, lr
	bne	.LBB121_24
	mla	r0, r5, r9, r0
	ldr	r1, [r0, #32]
	cmp	r12, r1
	mov	r1, lr
	bhs	.LBB121_24
	ldr	r1, [r0, #48]
	mvn	r5, #7
	and.w	r5, r5, r12, lsr #3
	adds	r6, r1, r5
	ldr	r6, [r6, #4]
	ldr	r1, [r1, r5]
	and	r5, r12, #63
	rsb.w	r7, r5, #32
	lsrs	r1, r5
	lsl.w	r7, r6, r7
	orrs	r1, r7
	subs	r5, #32
	it	pl
	lsrpl.w	r1, r6, r5
	lsls	r1, r1, #31
	mov	r1, lr
	beq	.LBB121_24
	adds	r0, #24
	ldr	r5, [r0]
	ldrb.w	r1, [r5, r12, lsl #3]
	lsls	r1, r1, #31
	mov	r1, lr
	bne	.LBB121_24
	add.w	r5, r5, r12, lsl #3
	ldrd	r1, r6, [r5, #8]
	eor.w	r6, r6, r11
	eor.w	r1, r1, r10
	orrs	r1, r6
	mov	r1, lr
	bne	.LBB121_24
	ldr	r1, [r5, #16]
	adds.w	r6, r8, r2
	mov.w	r7, #0
	adc	r5, r7, #0
	subs	r1, r1, r6
	sbcs.w	r1, r7, r5
	bhs	.LBB121_27
.LBB121_21:
	movs	r0, #1
	strb	r0, [r4, #1]
	movs	r0, #7
	add	sp, #12
	pop.w	{r4, r5, r6, r7, r8, r9, r10, r11, pc}
.LBB121_22:
	movs	r0, #1
	strb	r0, [r4, #1]
	movs	r0, #3
	add	sp, #12
	pop.w	{r4, r5, r6, r7, r8, r9, r10, r11, pc}
.LBB121_23:
	movs	r0, #0
	b	.LBB121_26
.LBB121_24:
	mov	r0, lr
	bl	tlsf_heap.refusal.Refusal.of_name
	uxtb	r0, r0
	movs	r1, #1
	cmp	r0, #3
	mov.w	r0, #3
	strb	r1, [r4, #1]
	it	eq
	moveq	r0, #4
	add	sp, #12
	pop.w	{r4, r5, r6, r7, r8, r9, r10, r11, pc}
.LBB121_25:
	movs	r0, #2
.LBB121_26:
	add	sp, #12
	pop.w	{r4, r5, r6, r7, r8, r9, r10, r11, lr}
	b	tlsf_c.call_fault.CallFault.refusal
.LBB121_27:
	mov	r1, r12
	strd	r8, r7, [sp]
	bl	tlsf_heap.region.Region.write.4
.LBB121_28:
	movs	r0, #1
	strb	r0, [r4, #1]
	movs	r0, #0
	add	sp, #12
	pop.w	{r4, r5, r6, r7, r8, r9, r10, r11, pc}
.Lfunc_end121:
	.size	tlsf_pools_write, .Lfunc_end121-tlsf_pools_write
	.cfi_endproc
	.type	.Lstatic.0,%object
	.section	.rodata.cst8,"aM",%progbits,8
.Lstatic.0:
	.zero	8
	.size	.Lstatic.0, 8
	.type	.Lswitch.table.tlsf_queue_take,%object
	.section	.rodata..Lswitch.table.tlsf_queue_take,"a",%progbits
	.p2align	2, 0x0
.Lswitch.table.tlsf_queue_take:
	.long	32
	.long	36
	.long	40
	.long	5
	.long	6
	.long	33
	.long	34
	.long	8
	.long	35
	.long	37
	.long	38
	.size	.Lswitch.table.tlsf_queue_take, 44
	.type	.Lswitch.table.tlsf_write,%object
	.section	.rodata..Lswitch.table.tlsf_write,"a",%progbits
	.p2align	2, 0x0
.Lswitch.table.tlsf_write:
	.long	1
	.long	2
	.long	3
	.long	4
	.long	7
	.size	.Lswitch.table.tlsf_write, 20
	.ident	"rattle logic=dac8208d650f15bf3e2dc313a14fa4c783a3acf887bdfab66e1714b038d9e11b"
	.section	".note.GNU-stack","",%progbits
/* The calls in C: c/pointers.c. */
	.syntax	unified
	.eabi_attribute	24, 1
	.eabi_attribute	25, 1
	.section	.text.tlsf_rounded,"ax",%progbits
	.globl	tlsf_rounded
	.p2align	1
	.type	tlsf_rounded,%function
	.code	16
	.thumb_func
tlsf_rounded:
	.cfi_sections .debug_frame
	.cfi_startproc
	cmn.w	r0, #16
	itt	hi
	movhi.w	r0, #-1
	bxhi	lr
.Lp_BB0_1:
	mov	r1, r0
	adds	r0, #7
	bic	r0, r0, #7
	cmp	r1, #0
	it	eq
	orreq	r0, r0, #8
	bx	lr
.Lp_func_end0:
	.size	tlsf_rounded, .Lp_func_end0-tlsf_rounded
	.cfi_endproc
	.section	.text.tlsf_place_of,"ax",%progbits
	.globl	tlsf_place_of
	.p2align	1
	.type	tlsf_place_of,%function
	.code	16
	.thumb_func
tlsf_place_of:
	.cfi_startproc
	ldr	r0, [r0, #16]
	subs	r0, r1, r0
	sub.w	r1, r0, #24
	movs	r0, #0
	cmp.w	r0, r1, lsl #29
	mov.w	r0, #-1
	it	eq
	lsreq	r0, r1, #3
	bx	lr
.Lp_func_end1:
	.size	tlsf_place_of, .Lp_func_end1-tlsf_place_of
	.cfi_endproc
	.section	.text.tlsf_near,"ax",%progbits
	.globl	tlsf_near
	.p2align	1
	.type	tlsf_near,%function
	.code	16
	.thumb_func
tlsf_near:
	.cfi_startproc
	rsbs	r1, r0, #0
	and	r1, r1, #63
	add	r0, r1
	bx	lr
.Lp_func_end2:
	.size	tlsf_near, .Lp_func_end2-tlsf_near
	.cfi_endproc
	.section	.text.tlsf_base,"ax",%progbits
	.globl	tlsf_base
	.p2align	1
	.type	tlsf_base,%function
	.code	16
	.thumb_func
tlsf_base:
	.cfi_startproc
	ldrb	r1, [r0, #8]
	cmp	r1, #1
	ite	eq
	ldreq	r0, [r0, #16]
	movne	r0, #0
	bx	lr
.Lp_func_end3:
	.size	tlsf_base, .Lp_func_end3-tlsf_base
	.cfi_endproc
	.section	.text.tlsf_at,"ax",%progbits
	.globl	tlsf_at
	.p2align	1
	.type	tlsf_at,%function
	.code	16
	.thumb_func
tlsf_at:
	.cfi_startproc
	add.w	r1, r0, r3, lsl #3
	cmp	r0, #0
	it	ne
	addne.w	r0, r1, #24
	bx	lr
.Lp_func_end4:
	.size	tlsf_at, .Lp_func_end4-tlsf_at
	.cfi_endproc
	.section	.text.tlsf_block_size,"ax",%progbits
	.globl	tlsf_block_size
	.p2align	1
	.type	tlsf_block_size,%function
	.code	16
	.thumb_func
tlsf_block_size:
	.cfi_startproc
	cmp	r0, #0
	ite	ne
	ldrne	r0, [r0, #-8]
	moveq	r0, #0
	bx	lr
.Lp_func_end5:
	.size	tlsf_block_size, .Lp_func_end5-tlsf_block_size
	.cfi_endproc
	.section	.text.tlsf_aligned_alloc,"ax",%progbits
	.globl	tlsf_aligned_alloc
	.p2align	1
	.type	tlsf_aligned_alloc,%function
	.code	16
	.thumb_func
tlsf_aligned_alloc:
	.cfi_startproc
	push	{r4, r5, r7, lr}
	.cfi_def_cfa_offset 16
	.cfi_offset lr, -4
	.cfi_offset r7, -8
	.cfi_offset r5, -12
	.cfi_offset r4, -16
	sub	sp, #24
	.cfi_def_cfa_offset 40
	mov	r3, r1
	subs	r1, #1
	eor.w	r5, r3, r1
	cmp	r5, r1
	mov	r5, r0
	bls	.Lp_BB6_6
	cmp.w	r3, #134217728
	bhi	.Lp_BB6_12
	cmp.w	r2, #134217728
	bhi	.Lp_BB6_12
	ldrb	r0, [r5, #29]
	cmp	r0, #9
	bhs	.Lp_BB6_13
	movw	r4, #65528
	adds	r0, r2, #7
	movt	r4, #8191
	ands	r4, r0
	cmp	r2, #0
	it	eq
	orreq	r4, r4, #8
	cmp	r3, #8
	bhi	.Lp_BB6_7
	add	r0, sp, #8
	mov	r1, r5
	mov	r2, r4
	bl	tlsf_allocate_place
	b	.Lp_BB6_8
.Lp_BB6_6:
	movs	r0, #0
	str	r0, [sp, #8]
	movs	r0, #5
	str	r0, [sp, #12]
	b	.Lp_BB6_8
.Lp_BB6_7:
	ldr	r0, [r5, #16]
	lsrs	r3, r3, #3
	ands	r0, r1
	lsr.w	r12, r0, #3
	add	r0, sp, #8
	mov	r1, r5
	mov	r2, r4
	str.w	r12, [sp]
	bl	tlsf_allocate_aligned
.Lp_BB6_8:
	ldr	r0, [sp, #12]
	cbz	r0, .Lp_BB6_10
	movs	r0, #0
	b	.Lp_BB6_11
.Lp_BB6_10:
	ldr	r0, [sp, #8]
	ldr	r1, [r5, #16]
	add.w	r0, r1, r0, lsl #3
	adds	r0, #24
.Lp_BB6_11:
	add	sp, #24
	pop	{r4, r5, r7, pc}
.Lp_BB6_12:
	mov	r0, r5
	bl	tlsf_too_long
	movs	r1, #0
	strd	r1, r0, [sp, #8]
	b	.Lp_BB6_8
.Lp_BB6_13:
	add	r0, sp, #8
	mov	r1, r5
	bl	tlsf_mixed_place
	b	.Lp_BB6_8
.Lp_func_end6:
	.size	tlsf_aligned_alloc, .Lp_func_end6-tlsf_aligned_alloc
	.cfi_endproc
	.section	.text.tlsf_malloc,"ax",%progbits
	.globl	tlsf_malloc
	.p2align	1
	.type	tlsf_malloc,%function
	.code	16
	.thumb_func
tlsf_malloc:
	.cfi_startproc
	push	{r4, lr}
	.cfi_def_cfa_offset 8
	.cfi_offset lr, -4
	.cfi_offset r4, -8
	sub	sp, #16
	.cfi_def_cfa_offset 24
	mov	r4, r0
	ldrb	r0, [r0, #29]
	cmp	r0, #9
	bhs	.Lp_BB7_6
	cmp.w	r1, #134217728
	bhi	.Lp_BB7_3
	movw	r2, #65528
	adds	r0, r1, #7
	movt	r2, #8191
	ands	r2, r0
	cmp	r1, #0
	mov	r0, sp
	mov	r1, r4
	it	eq
	orreq	r2, r2, #8
	bl	tlsf_allocate_place
	ldr	r0, [sp, #4]
	cbz	r0, .Lp_BB7_5
.Lp_BB7_3:
	movs	r0, #0
.Lp_BB7_4:
	add	sp, #16
	pop	{r4, pc}
.Lp_BB7_5:
	ldr	r0, [sp]
	ldr	r1, [r4, #16]
	add.w	r0, r1, r0, lsl #3
	adds	r0, #24
	b	.Lp_BB7_4
.Lp_BB7_6:
	mov	r0, r4
	add	sp, #16
	pop.w	{r4, lr}
	b	tlsf_malloc_mixed
.Lp_func_end7:
	.size	tlsf_malloc, .Lp_func_end7-tlsf_malloc
	.cfi_endproc
	.section	.text.unlikely.tlsf_malloc_mixed,"ax",%progbits
	.p2align	1
	.type	tlsf_malloc_mixed,%function
	.code	16
	.thumb_func
tlsf_malloc_mixed:
	.cfi_startproc
	b	tlsf_malloc_own
.Lp_func_end8:
	.size	tlsf_malloc_mixed, .Lp_func_end8-tlsf_malloc_mixed
	.cfi_endproc
	.section	.text.tlsf_words_for,"ax",%progbits
	.globl	tlsf_words_for
	.p2align	1
	.type	tlsf_words_for,%function
	.code	16
	.thumb_func
tlsf_words_for:
	.cfi_startproc
	push	{r4, lr}
	.cfi_def_cfa_offset 8
	.cfi_offset lr, -4
	.cfi_offset r4, -8
	cmp	r3, #16
	ldr.w	r12, [sp, #8]
	it	ls
	movls	r3, #16
	cmp.w	r3, #134217728
	mov.w	lr, #134217728
	it	hs
	movhs	r3, lr
	cmp.w	r2, #134217728
	it	lo
	movlo	lr, r2
	movw	r4, #65528
	add.w	lr, lr, #7
	movt	r4, #8191
	and.w	r4, r4, lr
	cmp	r2, #0
	it	eq
	orreq	r4, r4, #8
	adds	r2, r3, r4
	adds	r2, #32
	mov	r3, r12
	pop.w	{r4, lr}
	b	tlsf_words
.Lp_func_end9:
	.size	tlsf_words_for, .Lp_func_end9-tlsf_words_for
	.cfi_endproc
	.section	.text.tlsf_calloc,"ax",%progbits
	.globl	tlsf_calloc
	.p2align	1
	.type	tlsf_calloc,%function
	.code	16
	.thumb_func
tlsf_calloc:
	.cfi_startproc
	push	{r4, r5, r7, lr}
	.cfi_def_cfa_offset 16
	.cfi_offset lr, -4
	.cfi_offset r7, -8
	.cfi_offset r5, -12
	.cfi_offset r4, -16
	sub	sp, #16
	.cfi_def_cfa_offset 32
	mov	r4, r0
	movs	r0, #0
	str	r0, [sp, #12]
	strd	r0, r0, [sp, #4]
	str	r0, [sp]
	cbz	r2, .Lp_BB10_2
	mov.w	r0, #134217728
	udiv	r0, r0, r2
	cmp	r1, r0
	bhi	.Lp_BB10_9
.Lp_BB10_2:
	ldrb	r0, [r4, #29]
	mul	r5, r2, r1
	cmp	r0, #9
	bhs	.Lp_BB10_5
	cmn.w	r5, #16
	bls	.Lp_BB10_7
	mov.w	r1, #-1
	b	.Lp_BB10_8
.Lp_BB10_5:
	mov	r0, r4
	mov	r1, r5
	bl	tlsf_malloc
	cbz	r0, .Lp_BB10_9
	movs	r1, #0
	mov	r2, r5
	add	sp, #16
	pop.w	{r4, r5, r7, lr}
	b	memset
.Lp_BB10_7:
	adds	r0, r5, #7
	bic	r1, r0, #7
	cmp	r5, #0
	it	eq
	orreq	r1, r1, #8
.Lp_BB10_8:
	mov	r2, sp
	mov	r0, r4
	bl	tlsf_allocate
	cbz	r0, .Lp_BB10_11
.Lp_BB10_9:
	movs	r0, #0
.Lp_BB10_10:
	add	sp, #16
	pop	{r4, r5, r7, pc}
.Lp_BB10_11:
	ldr	r0, [sp, #4]
	ldr	r1, [r4, #16]
	add.w	r0, r1, r0, lsl #3
	adds	r0, #24
	b	.Lp_BB10_10
.Lp_func_end10:
	.size	tlsf_calloc, .Lp_func_end10-tlsf_calloc
	.cfi_endproc
	.section	.text.tlsf_free,"ax",%progbits
	.globl	tlsf_free
	.p2align	1
	.type	tlsf_free,%function
	.code	16
	.thumb_func
tlsf_free:
	.cfi_startproc
	cbz	r1, .Lp_BB11_2
	ldr	r2, [r0, #16]
	subs	r1, r1, r2
	sub.w	r2, r1, #24
	movs	r1, #0
	cmp.w	r1, r2, lsl #29
	mov.w	r1, #-1
	it	eq
	lsreq	r1, r2, #3
	b	tlsf_release_place
.Lp_BB11_2:
	movs	r0, #0
	bx	lr
.Lp_func_end11:
	.size	tlsf_free, .Lp_func_end11-tlsf_free
	.cfi_endproc
	.section	.text.tlsf_usable_size,"ax",%progbits
	.globl	tlsf_usable_size
	.p2align	1
	.type	tlsf_usable_size,%function
	.code	16
	.thumb_func
tlsf_usable_size:
	.cfi_startproc
	push	{r4, lr}
	.cfi_def_cfa_offset 8
	.cfi_offset lr, -4
	.cfi_offset r4, -8
	sub	sp, #24
	.cfi_def_cfa_offset 32
	ldr	r2, [r0, #16]
	movs	r4, #0
	subs	r1, r1, r2
	sub.w	r2, r1, #24
	mov.w	r1, #-1
	strd	r4, r4, [sp, #16]
	strd	r4, r4, [sp, #8]
	str	r4, [sp, #4]
	cmp.w	r4, r2, lsl #29
	it	eq
	lsreq	r1, r2, #3
	add	r2, sp, #8
	add	r3, sp, #4
	bl	tlsf_place
	ldr	r1, [sp, #4]
	cmp	r0, #0
	it	ne
	movne	r1, r4
	mov	r0, r1
	add	sp, #24
	pop	{r4, pc}
.Lp_func_end12:
	.size	tlsf_usable_size, .Lp_func_end12-tlsf_usable_size
	.cfi_endproc
	.section	.text.tlsf_name_at,"ax",%progbits
	.globl	tlsf_name_at
	.p2align	1
	.type	tlsf_name_at,%function
	.code	16
	.thumb_func
tlsf_name_at:
	.cfi_startproc
	push	{r4, r5, r6, lr}
	.cfi_def_cfa_offset 16
	.cfi_offset lr, -4
	.cfi_offset r6, -8
	.cfi_offset r5, -12
	.cfi_offset r4, -16
	sub	sp, #24
	.cfi_def_cfa_offset 40
	ldr	r3, [r0, #16]
	mov	r6, r2
	subs	r1, r1, r3
	movs	r2, #0
	sub.w	r3, r1, #24
	mov.w	r1, #-1
	add	r5, sp, #8
	strd	r2, r2, [sp, #16]
	strd	r2, r2, [sp, #8]
	str	r2, [sp, #4]
	cmp.w	r2, r3, lsl #29
	it	eq
	lsreq	r1, r3, #3
	add	r3, sp, #4
	mov	r2, r5
	bl	tlsf_place
	cbnz	r0, .Lp_BB13_2
	ldm.w	r5, {r1, r2, r3, r4}
	stm	r6!, {r1, r2, r3, r4}
.Lp_BB13_2:
	add	sp, #24
	pop	{r4, r5, r6, pc}
.Lp_func_end13:
	.size	tlsf_name_at, .Lp_func_end13-tlsf_name_at
	.cfi_endproc
	.section	.text.tlsf_realloc,"ax",%progbits
	.globl	tlsf_realloc
	.p2align	1
	.type	tlsf_realloc,%function
	.code	16
	.thumb_func
tlsf_realloc:
	.cfi_startproc
	push	{r4, r5, r7, lr}
	.cfi_def_cfa_offset 16
	.cfi_offset lr, -4
	.cfi_offset r7, -8
	.cfi_offset r5, -12
	.cfi_offset r4, -16
	sub	sp, #8
	.cfi_def_cfa_offset 24
	mov	r4, r0
	cbz	r1, .Lp_BB14_4
	cbz	r2, .Lp_BB14_5
	cmp.w	r2, #134217728
	bls	.Lp_BB14_6
	movs	r5, #0
	b	.Lp_BB14_9
.Lp_BB14_4:
	mov	r0, r4
	mov	r1, r2
	add	sp, #8
	pop.w	{r4, r5, r7, lr}
	b	tlsf_malloc
.Lp_BB14_5:
	ldr	r0, [r4, #16]
	movs	r5, #0
	subs	r0, r1, r0
	subs	r0, #24
	mov.w	r1, #-1
	cmp.w	r5, r0, lsl #29
	it	eq
	lsreq	r1, r0, #3
	mov	r0, r4
	bl	tlsf_release_place
	b	.Lp_BB14_9
.Lp_BB14_6:
	ldrb	r0, [r4, #29]
	cmp	r0, #9
	bhs	.Lp_BB14_10
	ldr	r0, [r4, #16]
	movs	r5, #0
	subs	r0, r1, r0
	subs	r0, #24
	mov.w	r1, #-1
	cmp.w	r5, r0, lsl #29
	it	eq
	lsreq	r1, r0, #3
	adds	r0, r2, #7
	movw	r2, #65528
	movt	r2, #8191
	ands	r2, r0
	add	r3, sp, #4
	mov	r0, r4
	str	r1, [sp, #4]
	bl	tlsf_resize_place
	cbnz	r0, .Lp_BB14_9
	ldr	r0, [r4, #16]
	ldr	r1, [sp, #4]
	add.w	r0, r0, r1, lsl #3
	add.w	r5, r0, #24
.Lp_BB14_9:
	mov	r0, r5
	add	sp, #8
	pop	{r4, r5, r7, pc}
.Lp_BB14_10:
	mov	r0, r4
	add	sp, #8
	pop.w	{r4, r5, r7, lr}
	b	tlsf_realloc_mixed
.Lp_func_end14:
	.size	tlsf_realloc, .Lp_func_end14-tlsf_realloc
	.cfi_endproc
	.section	.text.unlikely.tlsf_realloc_mixed,"ax",%progbits
	.p2align	1
	.type	tlsf_realloc_mixed,%function
	.code	16
	.thumb_func
tlsf_realloc_mixed:
	.cfi_startproc
	push.w	{r4, r5, r6, r7, r8, r9, r10, lr}
	.cfi_def_cfa_offset 32
	.cfi_offset lr, -4
	.cfi_offset r10, -8
	.cfi_offset r9, -12
	.cfi_offset r8, -16
	.cfi_offset r7, -20
	.cfi_offset r6, -24
	.cfi_offset r5, -28
	.cfi_offset r4, -32
	sub	sp, #48
	.cfi_def_cfa_offset 80
	mov	r9, r2
	mov	r8, r1
	mov	r4, r0
	mov	r0, sp
	movs	r1, #0
	movs	r2, #24
	movs	r5, #0
	bl	memset
	ldr	r0, [r4, #16]
	ldrb	r1, [r4, #29]
	sub.w	r0, r8, r0
	subs	r0, #24
	cmp.w	r5, r0, lsl #29
	mov.w	r7, #-1
	it	eq
	lsreq	r7, r0, #3
	cmp	r1, #0
	it	eq
	moveq	r1, #8
	add.w	r0, r9, r1
	adds	r0, #23
	rsbs	r2, r1, #0
	ands	r0, r2
	cmp	r1, #8
	sub.w	r6, r0, #24
	bne	.Lp_BB15_4
.Lp_BB15_1:
	add	r3, sp, #24
	mov	r0, r4
	mov	r1, r7
	mov	r2, r6
	str	r7, [sp, #24]
.Lp_BB15_2:
	bl	tlsf_resize_place
	cmp	r0, #0
	beq	.Lp_BB15_11
.Lp_BB15_3:
	movs	r7, #0
	b	.Lp_BB15_12
.Lp_BB15_4:
	mov	r2, sp
	mov	r0, r4
	mov	r1, r7
	bl	tlsf_block_at
	cmp	r0, #0
	bne	.Lp_BB15_1
	ldr	r0, [sp, #8]
	cmp	r0, #0
	beq	.Lp_BB15_1
	ldr.w	r10, [sp, #4]
	mvn	r0, #23
	add.w	r0, r0, r10, lsl #3
	cmp	r0, r6
	mov	r5, r6
	it	lo
	movlo	r5, r0
	cmp	r0, r9
	mov.w	r0, #3
	it	lo
	movlo	r5, r6
	add.w	r6, r0, r5, lsr #3
	add	r0, sp, #24
	movs	r1, #0
	movs	r2, #24
	bl	memset
	cmp	r10, r6
	bhs	.Lp_BB15_13
	ldr	r0, [sp]
	add	r2, sp, #24
	add.w	r1, r0, r10
	mov	r0, r4
	bl	tlsf_block_at
	ldr	r1, [sp, #32]
	orrs	r0, r1
	bne	.Lp_BB15_9
	ldr	r0, [sp, #4]
	ldr	r1, [sp, #28]
	add	r0, r1
	cmp	r0, r6
	bhs	.Lp_BB15_13
.Lp_BB15_9:
	mov	r0, r4
	mov	r1, r9
	bl	tlsf_malloc
	cmp	r0, #0
	beq	.Lp_BB15_3
	mov	r7, r0
	ldr	r0, [sp, #12]
	mov	r1, r8
	cmp	r0, r9
	it	lo
	movlo	r9, r0
	mov	r0, r7
	mov	r2, r9
	bl	memcpy
	ldr	r1, [sp]
	mov	r0, r4
	bl	tlsf_release_place
	b	.Lp_BB15_12
.Lp_BB15_11:
	ldr	r0, [r4, #16]
	ldr	r1, [sp, #24]
	add.w	r0, r0, r1, lsl #3
	add.w	r7, r0, #24
.Lp_BB15_12:
	mov	r0, r7
	add	sp, #48
	pop.w	{r4, r5, r6, r7, r8, r9, r10, pc}
.Lp_BB15_13:
	str	r7, [sp, #24]
	add	r3, sp, #24
	mov	r0, r4
	mov	r1, r7
	mov	r2, r5
	b	.Lp_BB15_2
.Lp_func_end15:
	.size	tlsf_realloc_mixed, .Lp_func_end15-tlsf_realloc_mixed
	.cfi_endproc
	.section	.text.tlsf_aligned_realloc,"ax",%progbits
	.globl	tlsf_aligned_realloc
	.p2align	1
	.type	tlsf_aligned_realloc,%function
	.code	16
	.thumb_func
tlsf_aligned_realloc:
	.cfi_startproc
	push.w	{r4, r5, r6, r7, r8, r9, r10, r11, lr}
	.cfi_def_cfa_offset 36
	.cfi_offset lr, -4
	.cfi_offset r11, -8
	.cfi_offset r10, -12
	.cfi_offset r9, -16
	.cfi_offset r8, -20
	.cfi_offset r7, -24
	.cfi_offset r6, -28
	.cfi_offset r5, -32
	.cfi_offset r4, -36
	sub	sp, #52
	.cfi_def_cfa_offset 88
	mov	r5, r3
	mov	r7, r2
	mov	r4, r0
	cbz	r1, .Lp_BB16_5
	cbz	r7, .Lp_BB16_3
	subs	r0, r7, #1
	tst	r7, r0
	beq	.Lp_BB16_6
.Lp_BB16_3:
	movs	r7, #0
.Lp_BB16_4:
	mov	r0, r7
	add	sp, #52
	pop.w	{r4, r5, r6, r7, r8, r9, r10, r11, pc}
.Lp_BB16_5:
	mov	r0, r4
	mov	r1, r7
	mov	r2, r5
	add	sp, #52
	pop.w	{r4, r5, r6, r7, r8, r9, r10, r11, lr}
	b	tlsf_aligned_alloc
.Lp_BB16_6:
	mov	r6, r1
	cbz	r5, .Lp_BB16_11
	cmp.w	r5, #134217728
	bhi	.Lp_BB16_3
	ldrb.w	r10, [r4, #29]
	cmp.w	r10, #0
	it	eq
	moveq.w	r10, #8
	ands.w	r11, r0, r6
	bne	.Lp_BB16_13
	cmp	r7, r10
	bhi	.Lp_BB16_13
	mov	r0, r4
	mov	r1, r6
	mov	r2, r5
	add	sp, #52
	pop.w	{r4, r5, r6, r7, r8, r9, r10, r11, lr}
	b	tlsf_realloc
.Lp_BB16_11:
	ldr	r0, [r4, #16]
	movs	r7, #0
	subs	r0, r6, r0
	subs	r0, #24
	mov.w	r1, #-1
	cmp.w	r7, r0, lsl #29
	it	eq
	lsreq	r1, r0, #3
.Lp_BB16_12:
	mov	r0, r4
	bl	tlsf_release_place
	b	.Lp_BB16_4
.Lp_BB16_13:
	mov	r9, sp
	mov	r0, r9
	movs	r1, #0
	movs	r2, #24
	mov.w	r8, #0
	bl	memset
	ldr	r0, [r4, #16]
	rsb.w	r1, r10, #0
	subs	r0, r6, r0
	subs	r0, #24
	cmp.w	r8, r0, lsl #29
	mov.w	r8, #-1
	it	eq
	lsreq.w	r8, r0, #3
	add.w	r0, r5, r10
	adds	r0, #23
	ands	r0, r1
	sub.w	r10, r0, #24
	mov	r0, r4
	mov	r1, r8
	mov	r2, r9
	bl	tlsf_block_at
	cbnz	r0, .Lp_BB16_18
	ldr	r0, [sp, #8]
	cbz	r0, .Lp_BB16_18
	ldr	r1, [sp, #4]
	mvn	r0, #23
	add.w	r0, r0, r1, lsl #3
	cmp	r0, r10
	mov	r9, r10
	it	lo
	movlo	r9, r0
	cmp	r0, r5
	it	lo
	movlo	r9, r10
	cmp.w	r11, #0
	beq	.Lp_BB16_21
.Lp_BB16_16:
	mov	r0, r4
	mov	r1, r7
	mov	r2, r5
	bl	tlsf_aligned_alloc
	cmp	r0, #0
	beq	.Lp_BB16_3
	mov	r7, r0
	ldr	r0, [sp, #12]
	mov	r1, r6
	cmp	r0, r5
	it	lo
	movlo	r5, r0
	mov	r0, r7
	mov	r2, r5
	bl	memcpy
	ldr	r1, [sp]
	b	.Lp_BB16_12
.Lp_BB16_18:
	add	r3, sp, #24
	mov	r0, r4
	mov	r1, r8
	mov	r2, r10
	str.w	r8, [sp, #24]
.Lp_BB16_19:
	bl	tlsf_resize_place
	cmp	r0, #0
	bne.w	.Lp_BB16_3
	ldr	r0, [r4, #16]
	ldr	r1, [sp, #24]
	add.w	r0, r0, r1, lsl #3
	add.w	r7, r0, #24
	b	.Lp_BB16_4
.Lp_BB16_21:
	movs	r0, #3
	add.w	r10, r0, r9, lsr #3
	add	r0, sp, #24
	mov	r11, r1
	movs	r1, #0
	movs	r2, #24
	bl	memset
	cmp	r11, r10
	bhs	.Lp_BB16_24
	ldr	r0, [sp]
	add	r2, sp, #24
	add.w	r1, r0, r11
	mov	r0, r4
	bl	tlsf_block_at
	ldr	r1, [sp, #32]
	orrs	r0, r1
	bne	.Lp_BB16_16
	ldr	r0, [sp, #4]
	ldr	r1, [sp, #28]
	add	r0, r1
	cmp	r0, r10
	blo	.Lp_BB16_16
.Lp_BB16_24:
	str.w	r8, [sp, #24]
	add	r3, sp, #24
	mov	r0, r4
	mov	r1, r8
	mov	r2, r9
	b	.Lp_BB16_19
.Lp_func_end16:
	.size	tlsf_aligned_realloc, .Lp_func_end16-tlsf_aligned_realloc
	.cfi_endproc
	.section	.text.tlsf_allocate_at,"ax",%progbits
	.globl	tlsf_allocate_at
	.p2align	1
	.type	tlsf_allocate_at,%function
	.code	16
	.thumb_func
tlsf_allocate_at:
	.cfi_startproc
	push.w	{r4, r5, r6, r7, r8, r9, r10, r11, lr}
	.cfi_def_cfa_offset 36
	.cfi_offset lr, -4
	.cfi_offset r11, -8
	.cfi_offset r10, -12
	.cfi_offset r9, -16
	.cfi_offset r8, -20
	.cfi_offset r7, -24
	.cfi_offset r6, -28
	.cfi_offset r5, -32
	.cfi_offset r4, -36
	sub	sp, #28
	.cfi_def_cfa_offset 64
	mov	r5, r1
	subs	r1, r2, #1
	mov	r6, r3
	mov	r3, r2
	eors	r2, r1
	cmp	r2, r1
	mov	r4, r0
	bls	.Lp_BB17_6
	cmp.w	r5, #134217728
	bhi	.Lp_BB17_13
	cmp.w	r3, #134217728
	bhi	.Lp_BB17_13
	ldrb	r0, [r4, #29]
	cmp	r0, #9
	bhs	.Lp_BB17_14
	movw	r2, #65528
	adds	r0, r5, #7
	movt	r2, #8191
	ands	r2, r0
	cmp	r5, #0
	it	eq
	orreq	r2, r2, #8
	cmp	r3, #8
	bhi	.Lp_BB17_7
	add	r0, sp, #8
	mov	r1, r4
	bl	tlsf_allocate_place
	b	.Lp_BB17_8
.Lp_BB17_6:
	movs	r0, #0
	movs	r1, #5
	str	r0, [sp, #8]
	str	r0, [sp, #20]
	strd	r1, r0, [sp, #12]
	b	.Lp_BB17_8
.Lp_BB17_7:
	ldr	r0, [r4, #16]
	lsrs	r3, r3, #3
	ands	r0, r1
	lsrs	r7, r0, #3
	add	r0, sp, #8
	mov	r1, r4
	str	r7, [sp]
	bl	tlsf_allocate_aligned
.Lp_BB17_8:
	ldr	r7, [sp, #12]
	cbnz	r7, .Lp_BB17_12
	mov	r0, r6
	ldr.w	r8, [sp, #8]
	ldr	r2, [sp, #68]
	ldr	r6, [sp, #64]
	ldr.w	r11, [r4, #24]
	ldrd	r9, r10, [sp, #16]
	lsls	r0, r0, #31
	mov	r0, r8
	bne	.Lp_BB17_11
	ldrb	r1, [r4, #29]
	ldr	r0, [r4, #16]
	cmp	r1, #0
	it	eq
	moveq	r1, #8
	cmp	r5, #1
	it	ls
	movls	r5, #1
	adds	r2, r5, r1
	adds	r2, #23
	rsbs	r1, r1, #0
	add.w	r0, r0, r8, lsl #3
	ands	r1, r2
	adds	r0, #24
	sub.w	r2, r1, #24
	movs	r1, #0
	bl	memset
	ldr	r2, [sp, #68]
	ldr	r0, [sp, #8]
.Lp_BB17_11:
	ldr	r1, [r4, #16]
	strd	r11, r8, [r6]
	add.w	r0, r1, r0, lsl #3
	adds	r0, #24
	str.w	r9, [r6, #8]
	str.w	r10, [r6, #12]
	str	r0, [r2]
.Lp_BB17_12:
	mov	r0, r7
	add	sp, #28
	pop.w	{r4, r5, r6, r7, r8, r9, r10, r11, pc}
.Lp_BB17_13:
	mov	r0, r4
	bl	tlsf_too_long
	movs	r1, #0
	strd	r1, r0, [sp, #8]
	strd	r1, r1, [sp, #16]
	b	.Lp_BB17_8
.Lp_BB17_14:
	add	r0, sp, #8
	mov	r1, r4
	mov	r2, r5
	bl	tlsf_mixed_place
	b	.Lp_BB17_8
.Lp_func_end17:
	.size	tlsf_allocate_at, .Lp_func_end17-tlsf_allocate_at
	.cfi_endproc
	.section	.text.tlsf_payload,"ax",%progbits
	.globl	tlsf_payload
	.p2align	1
	.type	tlsf_payload,%function
	.code	16
	.thumb_func
tlsf_payload:
	.cfi_startproc
	push	{r4, r5, r7, lr}
	.cfi_def_cfa_offset 16
	.cfi_offset lr, -4
	.cfi_offset r7, -8
	.cfi_offset r5, -12
	.cfi_offset r4, -16
	sub	sp, #24
	.cfi_def_cfa_offset 40
	mov	r4, r3
	ldrd	lr, r12, [sp, #40]
	add	r3, sp, #16
	add	r1, sp, #20
	movs	r5, #0
	strd	r1, r3, [sp, #8]
	mov	r3, r4
	strd	r5, r5, [sp, #16]
	str.w	lr, [sp]
	str.w	r12, [sp, #4]
	bl	tlsf_locate
	cbnz	r0, .Lp_BB18_4
	ldr	r0, [sp, #48]
	cbz	r0, .Lp_BB18_3
	ldr	r1, [sp, #16]
	str	r1, [r0]
.Lp_BB18_3:
	ldr	r0, [sp, #20]
	add.w	r0, r0, r4, lsl #3
	add.w	r5, r0, #24
.Lp_BB18_4:
	mov	r0, r5
	add	sp, #24
	pop	{r4, r5, r7, pc}
.Lp_func_end18:
	.size	tlsf_payload, .Lp_func_end18-tlsf_payload
	.cfi_endproc
	.section	.text.tlsf_pools_name_at,"ax",%progbits
	.globl	tlsf_pools_name_at
	.p2align	1
	.type	tlsf_pools_name_at,%function
	.code	16
	.thumb_func
tlsf_pools_name_at:
	.cfi_startproc
	push.w	{r4, r5, r6, r7, r8, r9, r10, r11, lr}
	.cfi_def_cfa_offset 36
	.cfi_offset lr, -4
	.cfi_offset r11, -8
	.cfi_offset r10, -12
	.cfi_offset r9, -16
	.cfi_offset r8, -20
	.cfi_offset r7, -24
	.cfi_offset r6, -28
	.cfi_offset r5, -32
	.cfi_offset r4, -36
	sub	sp, #20
	.cfi_def_cfa_offset 56
	mov	r7, r2
	mov	r6, r1
	mov.w	r11, #0
	add	r2, sp, #12
	add	r3, sp, #16
	movs	r1, #0
	mov	r5, r0
	str.w	r11, [sp, #16]
	strd	r11, r11, [sp, #8]
	bl	tlsf_pools_part
	mov.w	r8, #0
	mov.w	r4, #0
	cbnz	r0, .Lp_BB19_7
	str	r7, [sp, #4]
	add.w	r9, sp, #12
	add.w	r10, sp, #16
	movs	r7, #0
	.p2align	2
.Lp_BB19_2:
	ldr	r0, [sp, #12]
	cbz	r7, .Lp_BB19_4
	subs	r1, r6, r0
	sub.w	r2, r6, r8
	cmp	r1, r2
	bhi	.Lp_BB19_5
.Lp_BB19_4:
	mov	r8, r0
	mov	r4, r7
.Lp_BB19_5:
	adds	r7, #1
	mov	r0, r5
	mov	r1, r7
	mov	r2, r9
	mov	r3, r10
	bl	tlsf_pools_part
	cmp	r0, #0
	beq	.Lp_BB19_2
	ldr	r7, [sp, #4]
.Lp_BB19_7:
	sub.w	r0, r6, r8
	subs	r0, #24
	mov.w	r2, #-1
	cmp.w	r11, r0, lsl #29
	it	eq
	lsreq	r2, r0, #3
	add	r6, sp, #8
	mov	r0, r5
	mov	r1, r4
	mov	r3, r7
	str	r6, [sp]
	bl	tlsf_pools_place
	add	sp, #20
	pop.w	{r4, r5, r6, r7, r8, r9, r10, r11, pc}
.Lp_func_end19:
	.size	tlsf_pools_name_at, .Lp_func_end19-tlsf_pools_name_at
	.cfi_endproc
	.section	.text.tlsf_pools_usable_size,"ax",%progbits
	.globl	tlsf_pools_usable_size
	.p2align	1
	.type	tlsf_pools_usable_size,%function
	.code	16
	.thumb_func
tlsf_pools_usable_size:
	.cfi_startproc
	push.w	{r4, r5, r6, r7, r8, r9, r10, r11, lr}
	.cfi_def_cfa_offset 36
	.cfi_offset lr, -4
	.cfi_offset r11, -8
	.cfi_offset r10, -12
	.cfi_offset r9, -16
	.cfi_offset r8, -20
	.cfi_offset r7, -24
	.cfi_offset r6, -28
	.cfi_offset r5, -32
	.cfi_offset r4, -36
	sub	sp, #36
	.cfi_def_cfa_offset 72
	mov	r5, r1
	mov.w	r10, #0
	add	r2, sp, #28
	add	r3, sp, #32
	movs	r1, #0
	mov	r4, r0
	str.w	r10, [sp, #20]
	strd	r10, r10, [sp, #12]
	strd	r10, r10, [sp, #4]
	strd	r10, r10, [sp, #28]
	bl	tlsf_pools_part
	mov.w	r7, #0
	mov.w	r11, #0
	cbnz	r0, .Lp_BB20_6
	add.w	r8, sp, #28
	add.w	r9, sp, #32
	movs	r6, #0
	.p2align	2
.Lp_BB20_2:
	ldr	r0, [sp, #28]
	cbz	r6, .Lp_BB20_4
	subs	r1, r5, r0
	subs	r2, r5, r7
	cmp	r1, r2
	bhi	.Lp_BB20_5
.Lp_BB20_4:
	mov	r7, r0
	mov	r11, r6
.Lp_BB20_5:
	adds	r6, #1
	mov	r0, r4
	mov	r1, r6
	mov	r2, r8
	mov	r3, r9
	bl	tlsf_pools_part
	cmp	r0, #0
	beq	.Lp_BB20_2
.Lp_BB20_6:
	subs	r0, r5, r7
	subs	r0, #24
	mov.w	r2, #-1
	cmp.w	r10, r0, lsl #29
	it	eq
	lsreq	r2, r0, #3
	add	r7, sp, #4
	add	r3, sp, #8
	mov	r0, r4
	mov	r1, r11
	str	r7, [sp]
	bl	tlsf_pools_place
	ldr	r1, [sp, #4]
	cmp	r0, #0
	it	ne
	movne	r1, r10
	mov	r0, r1
	add	sp, #36
	pop.w	{r4, r5, r6, r7, r8, r9, r10, r11, pc}
.Lp_func_end20:
	.size	tlsf_pools_usable_size, .Lp_func_end20-tlsf_pools_usable_size
	.cfi_endproc
	.section	.text.tlsf_pools_free,"ax",%progbits
	.globl	tlsf_pools_free
	.p2align	1
	.type	tlsf_pools_free,%function
	.code	16
	.thumb_func
tlsf_pools_free:
	.cfi_startproc
	push	{r4, lr}
	.cfi_def_cfa_offset 8
	.cfi_offset lr, -4
	.cfi_offset r4, -8
	sub	sp, #24
	.cfi_def_cfa_offset 32
	mov	r4, r0
	movs	r0, #0
	str	r0, [sp, #20]
	strd	r0, r0, [sp, #12]
	str	r0, [sp, #8]
	cbz	r1, .Lp_BB21_3
	add	r2, sp, #8
	mov	r0, r4
	bl	tlsf_pools_name_at
	cbnz	r0, .Lp_BB21_3
	add.w	r12, sp, #8
	ldm.w	r12, {r2, r3, r12}
	ldr	r1, [sp, #20]
	mov	r0, r4
	strd	r12, r1, [sp]
	bl	tlsf_pools_release
.Lp_BB21_3:
	add	sp, #24
	pop	{r4, pc}
.Lp_func_end21:
	.size	tlsf_pools_free, .Lp_func_end21-tlsf_pools_free
	.cfi_endproc
	.section	.text.tlsf_pools_malloc,"ax",%progbits
	.globl	tlsf_pools_malloc
	.p2align	1
	.type	tlsf_pools_malloc,%function
	.code	16
	.thumb_func
tlsf_pools_malloc:
	.cfi_startproc
	push	{r4, r5, r7, lr}
	.cfi_def_cfa_offset 16
	.cfi_offset lr, -4
	.cfi_offset r7, -8
	.cfi_offset r5, -12
	.cfi_offset r4, -16
	sub	sp, #32
	.cfi_def_cfa_offset 48
	movs	r5, #0
	add	r2, sp, #4
	mov	r4, r0
	str	r5, [sp, #4]
	bl	tlsf_pools_row
	cbnz	r0, .Lp_BB22_7
	ldr	r1, [sp, #4]
	add	r2, sp, #16
	mov	r0, r4
	strd	r5, r5, [sp, #24]
	strd	r5, r5, [sp, #16]
	strd	r5, r5, [sp, #8]
	bl	tlsf_pools_allocate
	cbnz	r0, .Lp_BB22_7
	add	r2, sp, #8
	add	r3, sp, #12
	mov	r0, r4
	movs	r1, #0
	movs	r5, #0
	bl	tlsf_pools_part
	cbnz	r0, .Lp_BB22_7
	ldrd	r1, r0, [sp, #12]
	cmp	r0, r1
	beq	.Lp_BB22_6
	subs	r1, r0, r1
	add	r2, sp, #8
	add	r3, sp, #12
	mov	r0, r4
	bl	tlsf_pools_part
	cbz	r0, .Lp_BB22_6
	movs	r5, #0
	b	.Lp_BB22_7
.Lp_BB22_6:
	ldr	r0, [sp, #8]
	ldr	r1, [sp, #20]
	add.w	r0, r0, r1, lsl #3
	add.w	r5, r0, #24
.Lp_BB22_7:
	mov	r0, r5
	add	sp, #32
	pop	{r4, r5, r7, pc}
.Lp_func_end22:
	.size	tlsf_pools_malloc, .Lp_func_end22-tlsf_pools_malloc
	.cfi_endproc
	.section	.text.tlsf_pools_realloc,"ax",%progbits
	.globl	tlsf_pools_realloc
	.p2align	1
	.type	tlsf_pools_realloc,%function
	.code	16
	.thumb_func
tlsf_pools_realloc:
	.cfi_startproc
	push.w	{r4, r5, r6, r7, r8, r9, r10, r11, lr}
	.cfi_def_cfa_offset 36
	.cfi_offset lr, -4
	.cfi_offset r11, -8
	.cfi_offset r10, -12
	.cfi_offset r9, -16
	.cfi_offset r8, -20
	.cfi_offset r7, -24
	.cfi_offset r6, -28
	.cfi_offset r5, -32
	.cfi_offset r4, -36
	sub	sp, #68
	.cfi_def_cfa_offset 104
	mov	r4, r2
	mov	r10, r0
	movs	r0, #0
	cmp	r1, #0
	str	r0, [sp, #36]
	strd	r0, r0, [sp, #28]
	strd	r0, r0, [sp, #20]
	str	r0, [sp, #16]
	beq.w	.Lp_BB23_17
	mov	r5, r1
	cmp	r4, #0
	beq.w	.Lp_BB23_18
	mov.w	r9, #0
	add	r2, sp, #44
	add	r3, sp, #48
	mov	r0, r10
	movs	r1, #0
	strd	r9, r9, [sp, #44]
	bl	tlsf_pools_part
	mov.w	r8, #0
	mov.w	r7, #0
	cbnz	r0, .Lp_BB23_9
	str	r4, [sp, #12]
	add.w	r11, sp, #44
	add	r4, sp, #48
	movs	r6, #0
	.p2align	2
.Lp_BB23_4:
	ldr	r0, [sp, #44]
	cbz	r6, .Lp_BB23_6
	subs	r1, r5, r0
	sub.w	r2, r5, r8
	cmp	r1, r2
	bhi	.Lp_BB23_7
.Lp_BB23_6:
	mov	r8, r0
	mov	r7, r6
.Lp_BB23_7:
	adds	r6, #1
	mov	r0, r10
	mov	r1, r6
	mov	r2, r11
	mov	r3, r4
	bl	tlsf_pools_part
	cmp	r0, #0
	beq	.Lp_BB23_4
	ldr	r4, [sp, #12]
.Lp_BB23_9:
	sub.w	r0, r5, r8
	subs	r0, #24
	mov.w	r2, #-1
	cmp.w	r9, r0, lsl #29
	it	eq
	lsreq	r2, r0, #3
	add	r6, sp, #20
	add	r3, sp, #24
	mov	r0, r10
	mov	r1, r7
	str	r6, [sp]
	bl	tlsf_pools_place
	cmp	r0, #0
	bne	.Lp_BB23_20
	add	r2, sp, #16
	mov	r0, r10
	mov	r1, r4
	bl	tlsf_pools_row
	cmp	r0, #0
	bne	.Lp_BB23_19
	ldrd	r1, r0, [sp, #16]
	cmp	r4, r0
	it	ls
	cmpls	r0, r1
	bls	.Lp_BB23_21
	movs	r0, #0
	strd	r0, r0, [sp, #56]
	strd	r0, r0, [sp, #48]
	strd	r0, r0, [sp, #40]
	add	r2, sp, #48
	mov	r0, r10
	bl	tlsf_pools_allocate
	cbnz	r0, .Lp_BB23_19
	add	r2, sp, #40
	add	r3, sp, #44
	mov	r0, r10
	movs	r1, #0
	bl	tlsf_pools_part
	cbnz	r0, .Lp_BB23_19
	ldrd	r1, r0, [sp, #44]
	cmp	r0, r1
	beq	.Lp_BB23_16
	subs	r1, r0, r1
	add	r2, sp, #40
	add	r3, sp, #44
	mov	r0, r10
	bl	tlsf_pools_part
	cbnz	r0, .Lp_BB23_19
.Lp_BB23_16:
	ldr	r0, [sp, #40]
	ldr	r1, [sp, #52]
	add.w	r0, r0, r1, lsl #3
	ldr	r1, [sp, #20]
	add.w	r9, r0, #24
	cmp	r1, r4
	it	lo
	movlo	r4, r1
	mov	r0, r9
	mov	r1, r5
	mov	r2, r4
	bl	memcpy
	ldrd	r2, r3, [sp, #24]
	ldrd	r1, r7, [sp, #32]
	mov	r0, r10
	strd	r1, r7, [sp]
	bl	tlsf_pools_release
	b	.Lp_BB23_20
.Lp_BB23_17:
	mov	r0, r10
	mov	r1, r4
	add	sp, #68
	pop.w	{r4, r5, r6, r7, r8, r9, r10, r11, lr}
	b	tlsf_pools_malloc
.Lp_BB23_18:
	mov	r0, r10
	mov	r1, r5
	bl	tlsf_pools_free
.Lp_BB23_19:
	mov.w	r9, #0
.Lp_BB23_20:
	mov	r0, r9
	add	sp, #68
	pop.w	{r4, r5, r6, r7, r8, r9, r10, r11, pc}
.Lp_BB23_21:
	mov	r9, r5
	b	.Lp_BB23_20
.Lp_func_end23:
	.size	tlsf_pools_realloc, .Lp_func_end23-tlsf_pools_realloc
	.cfi_endproc
	.section	.text.tlsf_text_of,"ax",%progbits
	.globl	tlsf_text_of
	.p2align	1
	.type	tlsf_text_of,%function
	.code	16
	.thumb_func
tlsf_text_of:
	.cfi_startproc
	cmp	r0, #40
	ittt	hi
	movwhi	r0, :lower16:.L.str.20
	movthi	r0, :upper16:.L.str.20
	bxhi	lr
.Lp_BB24_1:
	movw	r1, :lower16:.Lp_switch.table.tlsf_text_of
	movt	r1, :upper16:.Lp_switch.table.tlsf_text_of
	ldr.w	r0, [r1, r0, lsl #2]
	bx	lr
.Lp_func_end24:
	.size	tlsf_text_of, .Lp_func_end24-tlsf_text_of
	.cfi_endproc
	.section	.text.unlikely.tlsf_too_long,"ax",%progbits
	.p2align	1
	.type	tlsf_too_long,%function
	.code	16
	.thumb_func
tlsf_too_long:
	.cfi_startproc
	push	{r4, r5, r7, lr}
	.cfi_def_cfa_offset 16
	.cfi_offset lr, -4
	.cfi_offset r7, -8
	.cfi_offset r5, -12
	.cfi_offset r4, -16
	sub	sp, #24
	.cfi_def_cfa_offset 40
	mov	r5, sp
	mov	r4, r0
	mov	r0, r5
	movs	r1, #0
	movs	r2, #24
	bl	memset
	mov	r0, r4
	mov.w	r1, #-1
	mov	r2, r5
	bl	tlsf_block_at
	cmp	r0, #32
	it	ne
	movne	r0, #1
	add	sp, #24
	pop	{r4, r5, r7, pc}
.Lp_func_end25:
	.size	tlsf_too_long, .Lp_func_end25-tlsf_too_long
	.cfi_endproc
	.section	.text.unlikely.tlsf_mixed_place,"ax",%progbits
	.p2align	1
	.type	tlsf_mixed_place,%function
	.code	16
	.thumb_func
tlsf_mixed_place:
	.cfi_startproc
	push.w	{r4, r5, r6, r7, r8, r9, lr}
	.cfi_def_cfa_offset 28
	.cfi_offset lr, -4
	.cfi_offset r9, -8
	.cfi_offset r8, -12
	.cfi_offset r7, -16
	.cfi_offset r6, -20
	.cfi_offset r5, -24
	.cfi_offset r4, -28
	sub	sp, #28
	.cfi_def_cfa_offset 56
	ldrb	r5, [r1, #29]
	mov	r8, r0
	cmp	r5, #0
	it	eq
	moveq	r5, #8
	cmp	r2, #1
	it	ls
	movls	r2, #1
	adds	r0, r2, r5
	mov	r4, r1
	adds	r0, #23
	rsbs	r1, r5, #0
	ands	r0, r1
	cmp	r3, r5
	sub.w	r6, r0, #24
	bls	.Lp_BB26_3
	ldr	r0, [r4, #16]
	subs	r1, r3, #1
	ands	r0, r1
	lsrs	r7, r3, #3
	lsrs	r5, r0, #3
	mov	r0, r8
	mov	r1, r4
	mov	r2, r6
	mov	r3, r7
	str	r5, [sp]
.Lp_BB26_2:
	bl	tlsf_allocate_aligned
	b	.Lp_BB26_5
.Lp_BB26_3:
	add	r7, sp, #8
	mov	r0, r7
	mov	r1, r4
	mov	r2, r6
	bl	tlsf_allocate_place
	ldr	r0, [sp, #12]
	cbz	r0, .Lp_BB26_6
.Lp_BB26_4:
	ldm.w	r7, {r0, r1, r2, r3}
	stm.w	r8, {r0, r1, r2, r3}
.Lp_BB26_5:
	add	sp, #28
	pop.w	{r4, r5, r6, r7, r8, r9, pc}
.Lp_BB26_6:
	ldr	r0, [r4, #16]
	ldr	r1, [sp, #8]
	sub.w	r9, r5, #1
	add.w	r0, r0, r1, lsl #3
	adds	r0, #24
	tst.w	r9, r0
	beq	.Lp_BB26_4
	mov	r0, r4
	bl	tlsf_release_place
	ldr	r0, [r4, #16]
	lsrs	r3, r5, #3
	and.w	r0, r0, r9
	lsrs	r7, r0, #3
	mov	r0, r8
	mov	r1, r4
	mov	r2, r6
	str	r7, [sp]
	b	.Lp_BB26_2
.Lp_func_end26:
	.size	tlsf_mixed_place, .Lp_func_end26-tlsf_mixed_place
	.cfi_endproc
	.section	.text.unlikely.tlsf_malloc_own,"ax",%progbits
	.p2align	1
	.type	tlsf_malloc_own,%function
	.code	16
	.thumb_func
tlsf_malloc_own:
	.cfi_startproc
	cmp.w	r1, #134217728
	itt	hi
	movhi	r0, #0
	bxhi	lr
.Lp_BB27_1:
	push	{r4, lr}
	.cfi_def_cfa_offset 8
	.cfi_offset lr, -4
	.cfi_offset r4, -8
	sub	sp, #16
	.cfi_def_cfa_offset 24
	mov	r4, r0
	mov	r2, r1
	mov	r0, sp
	mov	r1, r4
	movs	r3, #1
	bl	tlsf_mixed_place
	ldr	r0, [sp, #4]
	cbz	r0, .Lp_BB27_3
	movs	r0, #0
	b	.Lp_BB27_4
.Lp_BB27_3:
	ldr	r0, [sp]
	ldr	r1, [r4, #16]
	add.w	r0, r1, r0, lsl #3
	adds	r0, #24
.Lp_BB27_4:
	add	sp, #16
	pop	{r4, pc}
.Lp_func_end27:
	.size	tlsf_malloc_own, .Lp_func_end27-tlsf_malloc_own
	.cfi_endproc
	.type	.L.str,%object
	.section	.rodata.str1.1,"aMS",%progbits,1
.L.str:
	.asciz	"done"
	.size	.L.str, 5
	.type	.L.str.1,%object
.L.str.1:
	.asciz	"no free block fits"
	.size	.L.str.1, 19
	.type	.L.str.2,%object
.L.str.2:
	.asciz	"the ticks or the numbers are used up"
	.size	.L.str.2, 37
	.type	.L.str.3,%object
.L.str.3:
	.asciz	"a name of another heap"
	.size	.L.str.3, 23
	.type	.L.str.4,%object
.L.str.4:
	.asciz	"no live block has that name or address"
	.size	.L.str.4, 39
	.type	.L.str.5,%object
.L.str.5:
	.asciz	"a size out of range"
	.size	.L.str.5, 20
	.type	.L.str.6,%object
.L.str.6:
	.asciz	"no memory"
	.size	.L.str.6, 10
	.type	.L.str.7,%object
.L.str.7:
	.asciz	"bytes past the end of the payload"
	.size	.L.str.7, 34
	.type	.L.str.8,%object
.L.str.8:
	.asciz	"the lane or queue is full"
	.size	.L.str.8, 26
	.type	.L.str.9,%object
.L.str.9:
	.asciz	"no room where the block stands"
	.size	.L.str.9, 31
	.type	.L.str.10,%object
.L.str.10:
	.asciz	"a line was not written"
	.size	.L.str.10, 23
	.type	.L.str.11,%object
.L.str.11:
	.asciz	"the handle is closed"
	.size	.L.str.11, 21
	.type	.L.str.12,%object
.L.str.12:
	.asciz	"the handle is open already"
	.size	.L.str.12, 27
	.type	.L.str.13,%object
.L.str.13:
	.asciz	"a level is 4 or 5"
	.size	.L.str.13, 18
	.type	.L.str.14,%object
.L.str.14:
	.asciz	"the lane or queue is empty"
	.size	.L.str.14, 27
	.type	.L.str.15,%object
.L.str.15:
	.asciz	"a header is damaged"
	.size	.L.str.15, 20
	.type	.L.str.16,%object
.L.str.16:
	.asciz	"another thread is in the way: try again"
	.size	.L.str.16, 40
	.type	.L.str.17,%object
.L.str.17:
	.asciz	"all blocks of that row are held"
	.size	.L.str.17, 32
	.type	.L.str.18,%object
.L.str.18:
	.asciz	"memory that is null, or past the end of the address space"
	.size	.L.str.18, 58
	.type	.L.str.19,%object
.L.str.19:
	.asciz	"the handle holds something of another kind"
	.size	.L.str.19, 43
	.type	.L.str.20,%object
.L.str.20:
	.asciz	"no answer of this library"
	.size	.L.str.20, 26
	.type	.Lp_switch.table.tlsf_text_of,%object
	.section	.rodata..Lswitch.table.tlsf_text_of,"a",%progbits
	.p2align	2, 0x0
.Lp_switch.table.tlsf_text_of:
	.long	.L.str
	.long	.L.str.1
	.long	.L.str.2
	.long	.L.str.3
	.long	.L.str.4
	.long	.L.str.5
	.long	.L.str.6
	.long	.L.str.7
	.long	.L.str.8
	.long	.L.str.20
	.long	.L.str.9
	.long	.L.str.20
	.long	.L.str.20
	.long	.L.str.20
	.long	.L.str.20
	.long	.L.str.20
	.long	.L.str.20
	.long	.L.str.10
	.long	.L.str.20
	.long	.L.str.20
	.long	.L.str.20
	.long	.L.str.20
	.long	.L.str.20
	.long	.L.str.20
	.long	.L.str.20
	.long	.L.str.20
	.long	.L.str.20
	.long	.L.str.20
	.long	.L.str.20
	.long	.L.str.20
	.long	.L.str.20
	.long	.L.str.20
	.long	.L.str.11
	.long	.L.str.12
	.long	.L.str.13
	.long	.L.str.14
	.long	.L.str.15
	.long	.L.str.16
	.long	.L.str.17
	.long	.L.str.18
	.long	.L.str.19
	.size	.Lp_switch.table.tlsf_text_of, 164
	.ident	"clang version 22.1.8"
	.section	".note.GNU-stack","",%progbits
/* What lanes, queues and tlsf_next_number call: c/atomics64.c. */
	.syntax	unified
	.eabi_attribute	24, 1
	.eabi_attribute	25, 1
	.section	.text.__atomic_load_8,"ax",%progbits
	.weak	__atomic_load_8
	.p2align	1
	.type	__atomic_load_8,%function
	.code	16
	.thumb_func
__atomic_load_8:
	.cfi_sections .debug_frame
	.cfi_startproc
	mrs	r2, primask
	cpsid i
	ldm	r0, {r0, r1}
	msr	primask, r2
	bx	lr
.La_func_end0:
	.size	__atomic_load_8, .La_func_end0-__atomic_load_8
	.cfi_endproc
	.section	.text.__atomic_store_8,"ax",%progbits
	.weak	__atomic_store_8
	.p2align	1
	.type	__atomic_store_8,%function
	.code	16
	.thumb_func
__atomic_store_8:
	.cfi_startproc
	mrs	r1, primask
	cpsid i
	strd	r2, r3, [r0]
	msr	primask, r1
	bx	lr
.La_func_end1:
	.size	__atomic_store_8, .La_func_end1-__atomic_store_8
	.cfi_endproc
	.section	.text.__atomic_exchange_8,"ax",%progbits
	.weak	__atomic_exchange_8
	.p2align	1
	.type	__atomic_exchange_8,%function
	.code	16
	.thumb_func
__atomic_exchange_8:
	.cfi_startproc
	push	{r7, lr}
	.cfi_def_cfa_offset 8
	.cfi_offset lr, -4
	.cfi_offset r7, -8
	mrs	lr, primask
	cpsid i
	ldrd	r12, r1, [r0]
	strd	r2, r3, [r0]
	msr	primask, lr
	mov	r0, r12
	pop	{r7, pc}
.La_func_end2:
	.size	__atomic_exchange_8, .La_func_end2-__atomic_exchange_8
	.cfi_endproc
	.section	.text.__atomic_fetch_add_8,"ax",%progbits
	.weak	__atomic_fetch_add_8
	.p2align	1
	.type	__atomic_fetch_add_8,%function
	.code	16
	.thumb_func
__atomic_fetch_add_8:
	.cfi_startproc
	push	{r7, lr}
	.cfi_def_cfa_offset 8
	.cfi_offset lr, -4
	.cfi_offset r7, -8
	mrs	lr, primask
	cpsid i
	ldrd	r12, r1, [r0]
	adds.w	r2, r2, r12
	adcs	r3, r1
	strd	r2, r3, [r0]
	msr	primask, lr
	mov	r0, r12
	pop	{r7, pc}
.La_func_end3:
	.size	__atomic_fetch_add_8, .La_func_end3-__atomic_fetch_add_8
	.cfi_endproc
	.section	.text.__atomic_fetch_sub_8,"ax",%progbits
	.weak	__atomic_fetch_sub_8
	.p2align	1
	.type	__atomic_fetch_sub_8,%function
	.code	16
	.thumb_func
__atomic_fetch_sub_8:
	.cfi_startproc
	ldr.w	r12, [sp]
	rsbs	r2, r2, #0
	mov.w	r1, #0
	sbc.w	r3, r1, r3
	str.w	r12, [sp]
	b	__atomic_fetch_add_8
.La_func_end4:
	.size	__atomic_fetch_sub_8, .La_func_end4-__atomic_fetch_sub_8
	.cfi_endproc
	.section	.text.__atomic_compare_exchange_8,"ax",%progbits
	.weak	__atomic_compare_exchange_8
	.p2align	1
	.type	__atomic_compare_exchange_8,%function
	.code	16
	.thumb_func
__atomic_compare_exchange_8:
	.cfi_startproc
	push	{r4, r5, r6, lr}
	.cfi_def_cfa_offset 16
	.cfi_offset lr, -4
	.cfi_offset r6, -8
	.cfi_offset r5, -12
	.cfi_offset r4, -16
	mov	r12, r0
	ldrd	r0, r6, [r1]
	mrs	lr, primask
	cpsid i
	ldrd	r4, r5, [r12]
	eors	r6, r5
	eors	r0, r4
	orrs	r0, r6
	clz	r0, r0
	lsr.w	r0, r0, #5
	bne	.La_BB5_2
	strd	r2, r3, [r12]
	msr	primask, lr
	pop	{r4, r5, r6, pc}
.La_BB5_2:
	msr	primask, lr
	strd	r4, r5, [r1]
	pop	{r4, r5, r6, pc}
.La_func_end5:
	.size	__atomic_compare_exchange_8, .La_func_end5-__atomic_compare_exchange_8
	.cfi_endproc
	.ident	"clang version 22.1.8"
	.section	".note.GNU-stack","",%progbits
#endif
/* c/memory.c */
#ifndef TLSF_ONLY_CALLS
	.syntax	unified
	.eabi_attribute	24, 1
	.eabi_attribute	25, 1
	.section	.text.tlsf_memory_alloc,"ax",%progbits
	.hidden	tlsf_memory_alloc
	.globl	tlsf_memory_alloc
	.p2align	1
	.type	tlsf_memory_alloc,%function
	.code	16
	.thumb_func
tlsf_memory_alloc:
	.cfi_sections .debug_frame
	.cfi_startproc
	push	{r4, r5, r6, lr}
	.cfi_def_cfa_offset 16
	.cfi_offset lr, -4
	.cfi_offset r6, -8
	.cfi_offset r5, -12
	.cfi_offset r4, -16
	mov.w	lr, #0
	cmp	r2, #8
	mov.w	r2, #0
	bhi	.Lm_BB0_9
	movw	r2, :lower16:near_room
	movt	r2, :upper16:near_room
	ldr	r3, [r2]
	cbz	r3, .Lm_BB0_3
	movw	r2, :lower16:pieces_first
	movt	r2, :upper16:pieces_first
	ldr	r5, [r2]
	subs	r4, r5, #1
	str	r4, [r2]
	cbz	r5, .Lm_BB0_8
.Lm_BB0_3:
	movw	r12, :lower16:lent
	movt	r12, :upper16:lent
	ldr.w	r3, [r12]
	cbz	r3, .Lm_BB0_5
	cmp.w	r1, #268435456
	bls	.Lm_BB0_6
.Lm_BB0_5:
	movs	r2, #0
	b	.Lm_BB0_9
.Lm_BB0_6:
	movw	r2, :lower16:lent_end
	movt	r2, :upper16:lent_end
	ldr	r4, [r2]
	add.w	r2, r1, #8
	subs	r5, r4, r3
	cmp	r2, r5
	mov.w	r2, #0
	bhi	.Lm_BB0_9
	movw	r6, :lower16:lent_step
	movt	r6, :upper16:lent_step
	ldr	r6, [r6]
	strd	r2, r2, [r3]
	add	r1, r6
	adds	r1, #7
	udiv	r1, r1, r6
	add.w	r2, r3, #8
	muls	r1, r6, r1
	cmp	r1, r5
	it	lo
	addlo	r4, r3, r1
	str.w	r4, [r12]
	b	.Lm_BB0_9
.Lm_BB0_8:
	movw	r2, #2776
	cmp	r1, r2
	mov.w	r2, #0
	itt	ls
	strdls	r2, r2, [r3]
	addls.w	r2, r3, #8
.Lm_BB0_9:
	movw	r3, :lower16:tlsf_memory_alloc.nothing
	mov	r1, r2
	movt	r3, :upper16:tlsf_memory_alloc.nothing
	cmp	r2, #0
	it	ne
	movne	r1, #1
	it	ne
	movne	r3, r2
	strd	r1, lr, [r0]
	strd	r3, lr, [r0, #8]
	pop	{r4, r5, r6, pc}
.Lm_func_end0:
	.size	tlsf_memory_alloc, .Lm_func_end0-tlsf_memory_alloc
	.cfi_endproc
	.section	.text.tlsf_memory_dealloc,"ax",%progbits
	.hidden	tlsf_memory_dealloc
	.globl	tlsf_memory_dealloc
	.p2align	1
	.type	tlsf_memory_dealloc,%function
	.code	16
	.thumb_func
tlsf_memory_dealloc:
	.cfi_startproc
	bx	lr
.Lm_func_end1:
	.size	tlsf_memory_dealloc, .Lm_func_end1-tlsf_memory_dealloc
	.cfi_endproc
	.section	.text.tlsf_memory_realloc,"ax",%progbits
	.hidden	tlsf_memory_realloc
	.globl	tlsf_memory_realloc
	.p2align	1
	.type	tlsf_memory_realloc,%function
	.code	16
	.thumb_func
tlsf_memory_realloc:
	.cfi_startproc
	push	{r4, r5, r6, lr}
	.cfi_def_cfa_offset 16
	.cfi_offset lr, -4
	.cfi_offset r6, -8
	.cfi_offset r5, -12
	.cfi_offset r4, -16
	mov	r4, r2
	ldr	r2, [sp, #16]
	mov	r5, r1
	mov	r1, r3
	mov	r6, r0
	bl	tlsf_memory_alloc
	ldrd	r0, r1, [r6]
	orrs	r0, r1
	it	eq
	popeq	{r4, r5, r6, pc}
.Lm_BB2_1:
	ldr	r0, [r6, #8]
	mov	r1, r5
	mov	r2, r4
	bl	memcpy
	pop	{r4, r5, r6, pc}
.Lm_func_end2:
	.size	tlsf_memory_realloc, .Lm_func_end2-tlsf_memory_realloc
	.cfi_endproc
	.section	.text.tlsf_memory_set,"ax",%progbits
	.hidden	tlsf_memory_set
	.weak	tlsf_memory_set
	.p2align	1
	.type	tlsf_memory_set,%function
	.code	16
	.thumb_func
tlsf_memory_set:
	.cfi_startproc
	cmp	r1, #0
	bne.w	.Lm_BB3_18
	cmp.w	r2, #512
	bhi.w	.Lm_BB3_18
	cmp.w	r2, #256
	bls	.Lm_BB3_6
	sub.w	r1, r2, #16
	mvn	r2, #15
	mov.w	r12, #0
	.p2align	2
.Lm_BB3_4:
	adds	r2, #16
	adds	r3, r2, r0
	str.w	r12, [r2, r0]
	str.w	r12, [r3, #12]
	str.w	r12, [r3, #8]
	str.w	r12, [r3, #4]
	adds	r3, r0, r1
	str.w	r12, [r0, r1]
	cmp	r2, #240
	sub.w	r1, r1, #16
	str.w	r12, [r3, #8]
	str.w	r12, [r3, #12]
	str.w	r12, [r3, #4]
	blo	.Lm_BB3_4
.Lm_BB3_5:
	bx	lr
.Lm_BB3_6:
	cmp	r2, #129
	blo	.Lm_BB3_9
	sub.w	r1, r2, #16
	mvn	r2, #15
	mov.w	r12, #0
	.p2align	2
.Lm_BB3_8:
	adds	r2, #16
	adds	r3, r2, r0
	str.w	r12, [r2, r0]
	str.w	r12, [r3, #12]
	str.w	r12, [r3, #8]
	str.w	r12, [r3, #4]
	adds	r3, r0, r1
	str.w	r12, [r0, r1]
	cmp	r2, #112
	sub.w	r1, r1, #16
	str.w	r12, [r3, #8]
	str.w	r12, [r3, #12]
	str.w	r12, [r3, #4]
	blo	.Lm_BB3_8
	b	.Lm_BB3_5
.Lm_BB3_9:
	cmp	r2, #65
	blo	.Lm_BB3_12
	sub.w	r1, r2, #16
	mvn	r2, #15
	mov.w	r12, #0
	.p2align	2
.Lm_BB3_11:
	adds	r2, #16
	adds	r3, r2, r0
	str.w	r12, [r2, r0]
	str.w	r12, [r3, #12]
	str.w	r12, [r3, #8]
	str.w	r12, [r3, #4]
	adds	r3, r0, r1
	str.w	r12, [r0, r1]
	cmp	r2, #48
	sub.w	r1, r1, #16
	str.w	r12, [r3, #8]
	str.w	r12, [r3, #12]
	str.w	r12, [r3, #4]
	blo	.Lm_BB3_11
	b	.Lm_BB3_5
.Lm_BB3_12:
	cmp	r2, #33
	blo	.Lm_BB3_14
	adds	r1, r0, r2
	movs	r2, #0
	str	r2, [r0, #12]
	str	r2, [r0, #8]
	str	r2, [r0, #4]
	str	r2, [r0]
	str	r2, [r1, #-4]
	str	r2, [r1, #-16]
	str	r2, [r1, #-12]
	str	r2, [r1, #-8]
	str	r2, [r0, #28]
	str	r2, [r0, #16]
	str	r2, [r0, #20]
	str	r2, [r0, #24]
	str	r2, [r1, #-24]
	str	r2, [r1, #-20]
	str	r2, [r1, #-32]
	str	r2, [r1, #-28]
	bx	lr
.Lm_BB3_14:
	cmp	r2, #17
	blo	.Lm_BB3_16
	adds	r1, r0, r2
	movs	r2, #0
	str	r2, [r0, #12]
	str	r2, [r0, #8]
	str	r2, [r0, #4]
	str	r2, [r0]
	str	r2, [r1, #-8]
	str	r2, [r1, #-4]
	str	r2, [r1, #-16]
	str	r2, [r1, #-12]
	bx	lr
.Lm_BB3_16:
	movs	r1, #0
	cmp	r2, #7
	it	ls
	bls	memset
.Lm_BB3_17:
	add	r2, r0
	str	r1, [r0, #4]
	str	r1, [r0]
	str	r1, [r2, #-4]
	str	r1, [r2, #-8]
	bx	lr
.Lm_BB3_18:
	b	memset
.Lm_func_end3:
	.size	tlsf_memory_set, .Lm_func_end3-tlsf_memory_set
	.cfi_endproc
	.section	.text.tlsf_memory_cpy,"ax",%progbits
	.hidden	tlsf_memory_cpy
	.weak	tlsf_memory_cpy
	.p2align	1
	.type	tlsf_memory_cpy,%function
	.code	16
	.thumb_func
tlsf_memory_cpy:
	.cfi_startproc
	b	memcpy
.Lm_func_end4:
	.size	tlsf_memory_cpy, .Lm_func_end4-tlsf_memory_cpy
	.cfi_endproc
	.section	.text.tlsf_memory_move,"ax",%progbits
	.hidden	tlsf_memory_move
	.weak	tlsf_memory_move
	.p2align	1
	.type	tlsf_memory_move,%function
	.code	16
	.thumb_func
tlsf_memory_move:
	.cfi_startproc
	b	memmove
.Lm_func_end5:
	.size	tlsf_memory_move, .Lm_func_end5-tlsf_memory_move
	.cfi_endproc
	.section	.text.tlsf_bytes,"ax",%progbits
	.globl	tlsf_bytes
	.p2align	1
	.type	tlsf_bytes,%function
	.code	16
	.thumb_func
tlsf_bytes:
	.cfi_startproc
	mov	r2, r0
	cmp	r1, #4
	mov.w	r0, #0
	blo	.Lm_BB6_3
	cmp	r2, #5
	mov.w	r3, #0
	it	eq
	moveq.w	r3, #16777216
	cmp	r2, #4
	it	eq
	moveq.w	r3, #1048576
	cmp	r1, r3
	it	hi
	bxhi	lr
.Lm_BB6_2:
	add.w	r0, r1, #63
	movs	r2, #16
	add.w	r0, r2, r0, lsr #3
	bic	r0, r0, #15
	add.w	r0, r0, r1, lsl #3
	addw	r0, r0, #2791
	orr	r0, r0, #15
.Lm_BB6_3:
	bx	lr
.Lm_func_end6:
	.size	tlsf_bytes, .Lm_func_end6-tlsf_bytes
	.cfi_endproc
	.section	.text.heap_bytes,"ax",%progbits
	.p2align	1
	.type	heap_bytes,%function
	.code	16
	.thumb_func
heap_bytes:
	.cfi_startproc
	movs	r1, #23
	add.w	r1, r1, r0, lsl #3
	adds	r0, #63
	movs	r2, #16
	add.w	r0, r2, r0, lsr #3
	bic	r1, r1, #15
	bic	r0, r0, #15
	add	r0, r1
	add.w	r0, r0, #2768
	bx	lr
.Lm_func_end7:
	.size	heap_bytes, .Lm_func_end7-heap_bytes
	.cfi_endproc
	.section	.text.tlsf_near_bytes,"ax",%progbits
	.globl	tlsf_near_bytes
	.p2align	1
	.type	tlsf_near_bytes,%function
	.code	16
	.thumb_func
tlsf_near_bytes:
	.cfi_startproc
	mov	r2, r0
	cmp	r1, #4
	mov.w	r0, #0
	blo	.Lm_BB8_3
	cmp	r2, #5
	mov.w	r3, #0
	it	eq
	moveq.w	r3, #16777216
	cmp	r2, #4
	it	eq
	moveq.w	r3, #1048576
	cmp	r1, r3
	it	hi
	bxhi	lr
.Lm_BB8_2:
	movs	r0, #23
	add.w	r0, r0, r1, lsl #3
	adds	r1, #63
	mvn	r2, #7
	bic	r0, r0, #15
	and.w	r1, r2, r1, lsr #3
	add	r0, r1
	adds	r0, #23
.Lm_BB8_3:
	bx	lr
.Lm_func_end8:
	.size	tlsf_near_bytes, .Lm_func_end8-tlsf_near_bytes
	.cfi_endproc
	.section	.text.near_bytes,"ax",%progbits
	.p2align	1
	.type	near_bytes,%function
	.code	16
	.thumb_func
near_bytes:
	.cfi_startproc
	movs	r1, #23
	add.w	r1, r1, r0, lsl #3
	adds	r0, #63
	mvn	r2, #7
	bic	r1, r1, #15
	and.w	r0, r2, r0, lsr #3
	add	r0, r1
	adds	r0, #8
	bx	lr
.Lm_func_end9:
	.size	near_bytes, .Lm_func_end9-near_bytes
	.cfi_endproc
	.section	.text.tlsf_open_in,"ax",%progbits
	.globl	tlsf_open_in
	.p2align	1
	.type	tlsf_open_in,%function
	.code	16
	.thumb_func
tlsf_open_in:
	.cfi_startproc
	push	{r7, lr}
	.cfi_def_cfa_offset 8
	.cfi_offset lr, -4
	.cfi_offset r7, -8
	sub	sp, #8
	.cfi_def_cfa_offset 16
	ldr.w	r12, [sp, #16]
	movw	lr, :lower16:heap_bytes
	movt	lr, :upper16:heap_bytes
	strd	r12, lr, [sp]
	bl	open_in
	add	sp, #8
	pop	{r7, pc}
.Lm_func_end10:
	.size	tlsf_open_in, .Lm_func_end10-tlsf_open_in
	.cfi_endproc
	.section	.text.open_in,"ax",%progbits
	.p2align	1
	.type	open_in,%function
	.code	16
	.thumb_func
open_in:
	.cfi_startproc
	push.w	{r4, r5, r6, r7, r8, r9, r10, r11, lr}
	.cfi_def_cfa_offset 36
	.cfi_offset lr, -4
	.cfi_offset r11, -8
	.cfi_offset r10, -12
	.cfi_offset r9, -16
	.cfi_offset r8, -20
	.cfi_offset r7, -24
	.cfi_offset r6, -28
	.cfi_offset r5, -32
	.cfi_offset r4, -36
	sub	sp, #12
	.cfi_def_cfa_offset 48
	mov	lr, r3
	ldrb	r3, [r0, #29]
	mov	r12, r0
	cbz	r3, .Lm_BB11_4
	sub.w	r0, r3, #65
	cmn.w	r0, #57
	blo	.Lm_BB11_3
	add.w	r7, r3, #127
	cmp	r3, #16
	mov	r0, r3
	it	ls
	movls	r0, #16
	tst	r7, r3
	beq	.Lm_BB11_5
.Lm_BB11_3:
	mov.w	r9, #0
	b	.Lm_BB11_6
.Lm_BB11_4:
	movs	r0, #16
.Lm_BB11_5:
	mvn	r3, #31
	sub.w	r7, r3, lr
	udiv	r3, r7, r0
	mls	r9, r3, r0, r7
.Lm_BB11_6:
	ldr	r5, [sp, #48]
	mvn.w	r0, lr
	cmp.w	lr, #0
	beq	.Lm_BB11_13
	cmp	r5, r0
	bhi	.Lm_BB11_13
	cmp	r5, r9
	mov.w	r3, #0
	blo	.Lm_BB11_14
	mov.w	r8, #0
	ldr.w	r10, [sp, #52]
	cmp	r1, #5
	it	eq
	moveq.w	r8, #16777216
	cmp	r1, #4
	it	eq
	moveq.w	r8, #1048576
	str	r0, [sp, #4]
	movs	r0, #4
	sub.w	r11, r5, r9
	movs	r5, #0
	mov	r6, r12
	mov	r7, r2
	str	r1, [sp, #8]
	mov	r4, lr
	blx	r10
	mov	r3, r5
	ldr	r5, [sp, #48]
	ldr	r1, [sp, #8]
	cmp	r11, r0
	ldr	r0, [sp, #4]
	mov	lr, r4
	mov	r2, r7
	mov	r12, r6
	blo	.Lm_BB11_14
	movs	r0, #0
	cmp.w	r11, #268435456
	it	hs
	movhs.w	r11, #268435456
	blx	r10
	sub.w	r0, r11, r0
	movw	r1, #49405
	lsls	r0, r0, #3
	movt	r1, #64527
	umull	r0, r1, r0, r1
	movs	r0, #9
	add.w	r5, r0, r1, lsr #6
	.p2align	2
.Lm_BB11_11:
	subs	r5, #1
	mov	r0, r5
	blx	r10
	cmp	r0, r11
	bhi	.Lm_BB11_11
	cmp	r5, r8
	it	lo
	movlo	r8, r5
	ldr	r5, [sp, #48]
	ldrd	r0, r1, [sp, #4]
	mov	r3, r8
	mov	r12, r6
	mov	r2, r7
	mov	lr, r4
	b	.Lm_BB11_14
.Lm_BB11_13:
	movs	r3, #0
.Lm_BB11_14:
	cmp.w	lr, #0
	mov	r7, lr
	it	ne
	movne	r7, #1
	cmp	r5, r0
	movw	r0, :lower16:begin_behind.nothing
	mov.w	r6, #0
	movt	r0, :upper16:begin_behind.nothing
	movw	r8, :lower16:lent
	it	ls
	movls	r6, #1
	cmp	r9, r5
	mov	r4, r0
	movt	r8, :upper16:lent
	it	hs
	movhs	r9, r5
	tst	r7, r6
	it	ne
	addne.w	r4, lr, r9
	str.w	r4, [r8]
	it	ne
	addne.w	r0, lr, r5
	movw	r5, :lower16:lent_end
	movt	r5, :upper16:lent_end
	str	r0, [r5]
	movw	r0, :lower16:lent_step
	movt	r0, :upper16:lent_step
	movs	r5, #16
	str	r5, [r0]
	mov	r0, r12
	bl	open_noted
	mov	r1, r0
	cmp	r0, #5
	it	eq
	moveq	r1, #39
	tst	r7, r6
	it	eq
	moveq	r0, r1
	movs	r1, #0
	str.w	r1, [r8]
	add	sp, #12
	pop.w	{r4, r5, r6, r7, r8, r9, r10, r11, pc}
.Lm_func_end11:
	.size	open_in, .Lm_func_end11-open_in
	.cfi_endproc
	.section	.text.tlsf_open_near,"ax",%progbits
	.globl	tlsf_open_near
	.p2align	1
	.type	tlsf_open_near,%function
	.code	16
	.thumb_func
tlsf_open_near:
	.cfi_startproc
	push	{r4, r5, r6, lr}
	.cfi_def_cfa_offset 16
	.cfi_offset lr, -4
	.cfi_offset r6, -8
	.cfi_offset r5, -12
	.cfi_offset r4, -16
	rsb.w	r12, r0, #0
	and	r12, r12, #63
	add	r0, r12
	movw	r6, :lower16:near_room
	movw	r4, :lower16:pieces_first
	add.w	r12, r0, #32
	movt	r6, :upper16:near_room
	movt	r4, :upper16:pieces_first
	movs	r5, #2
	str.w	r12, [r6]
	str	r5, [r4]
	bl	open_noted
	movs	r1, #0
	str	r1, [r6]
	pop	{r4, r5, r6, pc}
.Lm_func_end12:
	.size	tlsf_open_near, .Lm_func_end12-tlsf_open_near
	.cfi_endproc
	.section	.text.tlsf_open_near_in,"ax",%progbits
	.globl	tlsf_open_near_in
	.p2align	1
	.type	tlsf_open_near_in,%function
	.code	16
	.thumb_func
tlsf_open_near_in:
	.cfi_startproc
	push	{r4, r5, r6, lr}
	.cfi_def_cfa_offset 16
	.cfi_offset lr, -4
	.cfi_offset r6, -8
	.cfi_offset r5, -12
	.cfi_offset r4, -16
	sub	sp, #8
	.cfi_def_cfa_offset 24
	rsb.w	lr, r0, #0
	movw	r4, :lower16:pieces_first
	and	lr, lr, #63
	movt	r4, :upper16:pieces_first
	movs	r5, #2
	ldr.w	r12, [sp, #24]
	add	r0, lr
	movw	r6, :lower16:near_room
	str	r5, [r4]
	movw	r5, :lower16:near_bytes
	add.w	lr, r0, #32
	movt	r6, :upper16:near_room
	movt	r5, :upper16:near_bytes
	str.w	lr, [r6]
	strd	r12, r5, [sp]
	bl	open_in
	movs	r1, #0
	str	r1, [r6]
	add	sp, #8
	pop	{r4, r5, r6, pc}
.Lm_func_end13:
	.size	tlsf_open_near_in, .Lm_func_end13-tlsf_open_near_in
	.cfi_endproc
	.section	.text.tlsf_open_32,"ax",%progbits
	.globl	tlsf_open_32
	.p2align	1
	.type	tlsf_open_32,%function
	.code	16
	.thumb_func
tlsf_open_32:
	.cfi_startproc
	b	open_noted
.Lm_func_end14:
	.size	tlsf_open_32, .Lm_func_end14-tlsf_open_32
	.cfi_endproc
	.section	.text.tlsf_open_in_32,"ax",%progbits
	.globl	tlsf_open_in_32
	.p2align	1
	.type	tlsf_open_in_32,%function
	.code	16
	.thumb_func
tlsf_open_in_32:
	.cfi_startproc
	push	{r7, lr}
	.cfi_def_cfa_offset 8
	.cfi_offset lr, -4
	.cfi_offset r7, -8
	sub	sp, #8
	.cfi_def_cfa_offset 16
	ldr.w	r12, [sp, #16]
	movw	lr, :lower16:heap_bytes
	movt	lr, :upper16:heap_bytes
	strd	r12, lr, [sp]
	bl	open_in
	add	sp, #8
	pop	{r7, pc}
.Lm_func_end15:
	.size	tlsf_open_in_32, .Lm_func_end15-tlsf_open_in_32
	.cfi_endproc
	.section	.text.tlsf_open_near_2880,"ax",%progbits
	.globl	tlsf_open_near_2880
	.p2align	1
	.type	tlsf_open_near_2880,%function
	.code	16
	.thumb_func
tlsf_open_near_2880:
	.cfi_startproc
	push	{r4, r5, r6, lr}
	.cfi_def_cfa_offset 16
	.cfi_offset lr, -4
	.cfi_offset r6, -8
	.cfi_offset r5, -12
	.cfi_offset r4, -16
	rsb.w	r12, r0, #0
	and	r12, r12, #63
	add	r0, r12
	movw	r6, :lower16:near_room
	movw	r4, :lower16:pieces_first
	add.w	r12, r0, #32
	movt	r6, :upper16:near_room
	movt	r4, :upper16:pieces_first
	movs	r5, #2
	str.w	r12, [r6]
	str	r5, [r4]
	bl	open_noted
	movs	r1, #0
	str	r1, [r6]
	pop	{r4, r5, r6, pc}
.Lm_func_end16:
	.size	tlsf_open_near_2880, .Lm_func_end16-tlsf_open_near_2880
	.cfi_endproc
	.section	.text.tlsf_open_near_in_2880,"ax",%progbits
	.globl	tlsf_open_near_in_2880
	.p2align	1
	.type	tlsf_open_near_in_2880,%function
	.code	16
	.thumb_func
tlsf_open_near_in_2880:
	.cfi_startproc
	push	{r4, r5, r6, lr}
	.cfi_def_cfa_offset 16
	.cfi_offset lr, -4
	.cfi_offset r6, -8
	.cfi_offset r5, -12
	.cfi_offset r4, -16
	sub	sp, #8
	.cfi_def_cfa_offset 24
	rsb.w	lr, r0, #0
	movw	r4, :lower16:pieces_first
	and	lr, lr, #63
	movt	r4, :upper16:pieces_first
	movs	r5, #2
	ldr.w	r12, [sp, #24]
	add	r0, lr
	movw	r6, :lower16:near_room
	str	r5, [r4]
	movw	r5, :lower16:near_bytes
	add.w	lr, r0, #32
	movt	r6, :upper16:near_room
	movt	r5, :upper16:near_bytes
	str.w	lr, [r6]
	strd	r12, r5, [sp]
	bl	open_in
	movs	r1, #0
	str	r1, [r6]
	add	sp, #8
	pop	{r4, r5, r6, pc}
.Lm_func_end17:
	.size	tlsf_open_near_in_2880, .Lm_func_end17-tlsf_open_near_in_2880
	.cfi_endproc
	.section	.text.tlsf_lane_bytes,"ax",%progbits
	.globl	tlsf_lane_bytes
	.p2align	1
	.type	tlsf_lane_bytes,%function
	.code	16
	.thumb_func
tlsf_lane_bytes:
	.cfi_startproc
	subw	r1, r0, #1025
	add.w	r0, r0, r0, lsl #1
	movs	r2, #135
	add.w	r0, r2, r0, lsl #3
	movw	r2, #65408
	movt	r2, #1
	ands	r0, r2
	addw	r0, r0, #895
	cmn.w	r1, #1024
	it	lo
	movlo	r0, #0
	bx	lr
.Lm_func_end18:
	.size	tlsf_lane_bytes, .Lm_func_end18-tlsf_lane_bytes
	.cfi_endproc
	.section	.text.tlsf_lane_open_in,"ax",%progbits
	.globl	tlsf_lane_open_in
	.p2align	1
	.type	tlsf_lane_open_in,%function
	.code	16
	.thumb_func
tlsf_lane_open_in:
	.cfi_startproc
	push.w	{r4, r5, r6, r7, r8, r9, lr}
	.cfi_def_cfa_offset 28
	.cfi_offset lr, -4
	.cfi_offset r9, -8
	.cfi_offset r8, -12
	.cfi_offset r7, -16
	.cfi_offset r6, -20
	.cfi_offset r5, -24
	.cfi_offset r4, -28
	sub	sp, #4
	.cfi_def_cfa_offset 32
	ldr.w	r12, [sp, #32]
	cmp.w	r2, #1024
	bhi	.Lm_BB19_2
	add.w	r5, r2, r2, lsl #1
	movs	r4, #135
	add.w	r5, r4, r5, lsl #3
	movw	r4, #65408
	movt	r4, #1
	ands	r5, r4
	rsbs	r4, r3, #0
	and	lr, r4, #127
	add.w	r5, r5, #768
	sub.w	r6, r12, lr
	cmp	r6, r5
	it	lo
	movlo	r2, #0
	mvns	r4, r3
	cmp	r12, lr
	it	lo
	movlo	r2, #0
	cmp	r12, r4
	it	hi
	movhi	r2, #0
	cmp	r3, #0
	it	eq
	moveq	r2, r3
	b	.Lm_BB19_3
.Lm_BB19_2:
	rsbs	r5, r3, #0
	and	lr, r5, #127
	mvns	r4, r3
.Lm_BB19_3:
	cmp	r3, #0
	mov	r5, r3
	movw	r7, :lower16:begin_behind.nothing
	it	ne
	movne	r5, #1
	cmp	r12, r4
	mov.w	r6, #0
	movt	r7, :upper16:begin_behind.nothing
	movw	r9, :lower16:lent
	it	ls
	movls	r6, #1
	cmp	lr, r12
	mov	r4, r7
	movt	r9, :upper16:lent
	it	hs
	movhs	lr, r12
	tst	r5, r6
	it	ne
	addne.w	r4, r3, lr
	str.w	r4, [r9]
	it	ne
	addne.w	r7, r3, r12
	movw	r3, :lower16:lent_end
	movt	r3, :upper16:lent_end
	str	r7, [r3]
	movw	r3, :lower16:lent_step
	movt	r3, :upper16:lent_step
	movs	r7, #128
	mov.w	r8, #0
	str	r7, [r3]
	bl	tlsf_lane_open
	cmp	r0, #5
	mov	r1, r0
	it	eq
	moveq	r1, #39
	tst	r5, r6
	it	eq
	moveq	r0, r1
	str.w	r8, [r9]
	add	sp, #4
	pop.w	{r4, r5, r6, r7, r8, r9, pc}
.Lm_func_end19:
	.size	tlsf_lane_open_in, .Lm_func_end19-tlsf_lane_open_in
	.cfi_endproc
	.section	.text.tlsf_queue_bytes,"ax",%progbits
	.globl	tlsf_queue_bytes
	.p2align	1
	.type	tlsf_queue_bytes,%function
	.code	16
	.thumb_func
tlsf_queue_bytes:
	.cfi_startproc
	rsb.w	r2, r0, #1024
	rsb.w	r3, r1, #1024
	orrs	r3, r2
	movs	r2, #0
	cmp.w	r2, r3, lsr #10
	bne	.Lm_BB20_2
	mov.w	r12, #135
	movw	r2, #519
	add.w	r2, r2, r1, lsl #3
	add.w	r1, r12, r1, lsl #5
	add.w	r3, r12, r0, lsl #4
	bic	r2, r2, #127
	bic	r1, r1, #103
	bic	r3, r3, #119
	add	r1, r2
	add.w	r2, r12, r0, lsl #3
	bic	r2, r2, #127
	add.w	r0, r3, r0, lsl #7
	add	r0, r2
	add.w	r0, r0, r1, lsl #1
	addw	r2, r0, #383
.Lm_BB20_2:
	mov	r0, r2
	bx	lr
.Lm_func_end20:
	.size	tlsf_queue_bytes, .Lm_func_end20-tlsf_queue_bytes
	.cfi_endproc
	.section	.text.tlsf_queue_open_in,"ax",%progbits
	.globl	tlsf_queue_open_in
	.p2align	1
	.type	tlsf_queue_open_in,%function
	.code	16
	.thumb_func
tlsf_queue_open_in:
	.cfi_startproc
	push.w	{r4, r5, r6, r7, r8, r9, lr}
	.cfi_def_cfa_offset 28
	.cfi_offset lr, -4
	.cfi_offset r9, -8
	.cfi_offset r8, -12
	.cfi_offset r7, -16
	.cfi_offset r6, -20
	.cfi_offset r5, -24
	.cfi_offset r4, -28
	sub	sp, #4
	.cfi_def_cfa_offset 32
	ldr.w	r12, [sp, #32]
	cmp.w	r1, #1024
	it	ls
	cmpls.w	r2, #1024
	bls	.Lm_BB21_2
	rsbs	r5, r3, #0
	and	lr, r5, #127
	mvns	r4, r3
	b	.Lm_BB21_3
.Lm_BB21_2:
	mov.w	lr, #135
	add.w	r4, lr, r1, lsl #4
	movw	r5, #65408
	ands	r4, r5
	movw	r5, #519
	movw	r7, #65408
	add.w	r5, r5, r2, lsl #3
	add.w	r6, lr, r2, lsl #5
	movt	r7, #1
	and	r5, r5, #32640
	ands	r6, r7
	add.w	r7, lr, r1, lsl #3
	add	r5, r6
	and	r7, r7, #32640
	add.w	r6, r4, r1, lsl #7
	add	r7, r6
	add.w	r7, r7, r5, lsl #1
	add.w	r5, r7, #256
	rsbs	r7, r3, #0
	and	lr, r7, #127
	sub.w	r6, r12, lr
	cmp	r6, r5
	it	lo
	movlo	r2, #0
	mvns	r4, r3
	cmp	r12, lr
	it	lo
	movlo	r2, #0
	cmp	r12, r4
	it	hi
	movhi	r2, #0
	cmp	r3, #0
	it	eq
	moveq	r2, r3
.Lm_BB21_3:
	cmp	r3, #0
	mov	r5, r3
	movw	r7, :lower16:begin_behind.nothing
	it	ne
	movne	r5, #1
	cmp	r12, r4
	mov.w	r6, #0
	movt	r7, :upper16:begin_behind.nothing
	movw	r9, :lower16:lent
	it	ls
	movls	r6, #1
	cmp	lr, r12
	mov	r4, r7
	movt	r9, :upper16:lent
	it	hs
	movhs	lr, r12
	tst	r5, r6
	it	ne
	addne.w	r4, r3, lr
	str.w	r4, [r9]
	it	ne
	addne.w	r7, r3, r12
	movw	r3, :lower16:lent_end
	movt	r3, :upper16:lent_end
	str	r7, [r3]
	movw	r3, :lower16:lent_step
	movt	r3, :upper16:lent_step
	movs	r7, #128
	mov.w	r8, #0
	str	r7, [r3]
	bl	tlsf_queue_open
	cmp	r0, #5
	mov	r1, r0
	it	eq
	moveq	r1, #39
	tst	r5, r6
	it	eq
	moveq	r0, r1
	str.w	r8, [r9]
	add	sp, #4
	pop.w	{r4, r5, r6, r7, r8, r9, pc}
.Lm_func_end21:
	.size	tlsf_queue_open_in, .Lm_func_end21-tlsf_queue_open_in
	.cfi_endproc
	.section	.text.tlsf_offsets_bytes,"ax",%progbits
	.globl	tlsf_offsets_bytes
	.p2align	1
	.type	tlsf_offsets_bytes,%function
	.code	16
	.thumb_func
tlsf_offsets_bytes:
	.cfi_startproc
	mov	r2, r0
	cmp	r1, #4
	mov.w	r0, #0
	blo	.Lm_BB22_3
	cmp	r2, #5
	mov.w	r3, #0
	it	eq
	moveq.w	r3, #16777216
	cmp	r2, #4
	it	eq
	moveq.w	r3, #1048576
	cmp	r1, r3
	it	hi
	bxhi	lr
.Lm_BB22_2:
	movw	r2, #65520
	movs	r0, #23
	movt	r2, #255
	add.w	r0, r0, r1, lsl #3
	add.w	r3, r2, #520093696
	ands	r0, r3
	adds	r1, #63
	movs	r3, #16
	add.w	r1, r3, r1, lsr #3
	ands	r1, r2
	add	r0, r1
	addw	r0, r0, #2783
.Lm_BB22_3:
	bx	lr
.Lm_func_end22:
	.size	tlsf_offsets_bytes, .Lm_func_end22-tlsf_offsets_bytes
	.cfi_endproc
	.section	.text.tlsf_offsets_open_in,"ax",%progbits
	.globl	tlsf_offsets_open_in
	.p2align	1
	.type	tlsf_offsets_open_in,%function
	.code	16
	.thumb_func
tlsf_offsets_open_in:
	.cfi_startproc
	push.w	{r4, r5, r6, r7, r8, r9, r10, lr}
	.cfi_def_cfa_offset 32
	.cfi_offset lr, -4
	.cfi_offset r10, -8
	.cfi_offset r9, -12
	.cfi_offset r8, -16
	.cfi_offset r7, -20
	.cfi_offset r6, -24
	.cfi_offset r5, -28
	.cfi_offset r4, -32
	sub	sp, #8
	.cfi_def_cfa_offset 40
	ldr.w	r12, [sp, #40]
	cmp	r1, #5
	mov.w	r4, #0
	ldr.w	lr, [sp, #48]
	it	eq
	moveq.w	r4, #16777216
	cmp	r1, #4
	ldr.w	r9, [sp, #44]
	it	eq
	moveq.w	r4, #1048576
	cmp	r12, r4
	bls	.Lm_BB23_2
	rsb.w	r5, r9, #0
	and	r5, r5, #15
	mvn.w	r6, r9
	b	.Lm_BB23_3
.Lm_BB23_2:
	movw	r6, #65520
	movs	r5, #23
	movt	r6, #255
	add.w	r5, r5, r12, lsl #3
	add.w	r7, r6, #520093696
	ands	r5, r7
	add.w	r8, r12, #63
	movs	r7, #16
	add.w	r7, r7, r8, lsr #3
	ands	r6, r7
	add	r5, r6
	add.w	r8, r5, #2768
	rsb.w	r5, r9, #0
	and	r5, r5, #15
	sub.w	r7, lr, r5
	cmp	r7, r8
	it	lo
	movlo.w	r12, #0
	mvn.w	r6, r9
	cmp	lr, r5
	it	lo
	movlo.w	r12, #0
	cmp	lr, r6
	it	hi
	movhi.w	r12, #0
	cmp.w	r9, #0
	it	eq
	moveq	r12, r9
.Lm_BB23_3:
	cmp.w	r9, #0
	mov	r10, r9
	movw	r4, :lower16:begin_behind.nothing
	it	ne
	movne.w	r10, #1
	cmp	lr, r6
	mov.w	r6, #0
	movt	r4, :upper16:begin_behind.nothing
	it	ls
	movls	r6, #1
	cmp	r5, lr
	it	hs
	movhs	r5, lr
	mov	r7, r4
	tst.w	r10, r6
	it	ne
	addne.w	r7, r9, r5
	movw	r5, :lower16:lent
	movt	r5, :upper16:lent
	str	r7, [r5]
	movw	r7, :lower16:lent_end
	movt	r7, :upper16:lent_end
	it	ne
	addne.w	r4, r9, lr
	str	r4, [r7]
	movw	r7, :lower16:lent_step
	movt	r7, :upper16:lent_step
	movs	r4, #16
	mov.w	r8, #0
	str	r4, [r7]
	str.w	r12, [sp]
	bl	tlsf_offsets_open
	cmp	r0, #5
	mov	r1, r0
	it	eq
	moveq	r1, #39
	tst.w	r10, r6
	it	eq
	moveq	r0, r1
	str.w	r8, [r5]
	add	sp, #8
	pop.w	{r4, r5, r6, r7, r8, r9, r10, pc}
.Lm_func_end23:
	.size	tlsf_offsets_open_in, .Lm_func_end23-tlsf_offsets_open_in
	.cfi_endproc
	.section	.text.tlsf_pools_bytes,"ax",%progbits
	.globl	tlsf_pools_bytes
	.p2align	1
	.type	tlsf_pools_bytes,%function
	.code	16
	.thumb_func
tlsf_pools_bytes:
	.cfi_startproc
	push	{r4, r5, r7, lr}
	.cfi_def_cfa_offset 16
	.cfi_offset lr, -4
	.cfi_offset r7, -8
	.cfi_offset r5, -12
	.cfi_offset r4, -16
	sub	sp, #16
	.cfi_def_cfa_offset 32
	movs	r5, #0
	add.w	r12, sp, #4
	add	r3, sp, #8
	mov	r4, r2
	str	r5, [sp, #12]
	strd	r5, r5, [sp, #4]
	str.w	r12, [sp]
	bl	tlsf_pools_words
	cbnz	r0, .Lm_BB24_2
	ldrd	r1, r0, [sp, #4]
	add.w	r5, r4, r4, lsl #1
	movw	r2, #2792
	mvn	r3, #7
	lsls	r5, r5, #2
	muls	r2, r1, r2
	and.w	r3, r3, r0, lsr #3
	add.w	r1, r1, r1, lsl #2
	add.w	r0, r5, r0, lsl #3
	adds	r2, #23
	add.w	r0, r0, r1, lsl #4
	bic	r2, r2, #15
	add	r0, r3
	add	r0, r2
	addw	r5, r0, #2783
.Lm_BB24_2:
	mov	r0, r5
	add	sp, #16
	pop	{r4, r5, r7, pc}
.Lm_func_end24:
	.size	tlsf_pools_bytes, .Lm_func_end24-tlsf_pools_bytes
	.cfi_endproc
	.section	.text.tlsf_pools_open_in,"ax",%progbits
	.globl	tlsf_pools_open_in
	.p2align	1
	.type	tlsf_pools_open_in,%function
	.code	16
	.thumb_func
tlsf_pools_open_in:
	.cfi_startproc
	push.w	{r4, r5, r6, r7, r8, r9, r10, r11, lr}
	.cfi_def_cfa_offset 36
	.cfi_offset lr, -4
	.cfi_offset r11, -8
	.cfi_offset r10, -12
	.cfi_offset r9, -16
	.cfi_offset r8, -20
	.cfi_offset r7, -24
	.cfi_offset r6, -28
	.cfi_offset r5, -32
	.cfi_offset r4, -36
	sub	sp, #4
	.cfi_def_cfa_offset 40
	ldrd	r12, r10, [sp, #40]
	ldr.w	lr, [sp, #48]
	rsb.w	r7, r10, #0
	and	r6, r7, #15
	cmp.w	r10, #0
	mov	r11, r10
	mvn.w	r7, r10
	movw	r4, :lower16:begin_behind.nothing
	it	ne
	movne.w	r11, #1
	cmp	lr, r7
	mov.w	r7, #0
	movt	r4, :upper16:begin_behind.nothing
	it	ls
	movls	r7, #1
	cmp	r6, lr
	it	hs
	movhs	r6, lr
	mov	r5, r4
	tst.w	r11, r7
	it	ne
	addne.w	r5, r10, r6
	movw	r9, :lower16:lent
	movw	r6, :lower16:lent_end
	movt	r9, :upper16:lent
	movt	r6, :upper16:lent_end
	str.w	r5, [r9]
	it	ne
	addne.w	r4, r10, lr
	str	r4, [r6]
	movw	r6, :lower16:lent_step
	movt	r6, :upper16:lent_step
	movs	r5, #16
	mov.w	r8, #0
	str	r5, [r6]
	str.w	r12, [sp]
	bl	tlsf_pools_open
	cmp	r0, #6
	it	eq
	moveq	r0, #5
	cmp	r0, #5
	mov	r1, r0
	it	eq
	moveq	r1, #39
	tst.w	r11, r7
	it	eq
	moveq	r0, r1
	str.w	r8, [r9]
	add	sp, #4
	pop.w	{r4, r5, r6, r7, r8, r9, r10, r11, pc}
.Lm_func_end25:
	.size	tlsf_pools_open_in, .Lm_func_end25-tlsf_pools_open_in
	.cfi_endproc
	.section	.text.tlsf_next_number,"ax",%progbits
	.globl	tlsf_next_number
	.p2align	1
	.type	tlsf_next_number,%function
	.code	16
	.thumb_func
tlsf_next_number:
	.cfi_startproc
	push	{r4, lr}
	.cfi_def_cfa_offset 8
	.cfi_offset lr, -4
	.cfi_offset r4, -8
	sub	sp, #8
	.cfi_def_cfa_offset 16
	mov	r4, r0
	movw	r0, :lower16:tlsf_next_number.calls
	movs	r1, #0
	movt	r0, :upper16:tlsf_next_number.calls
	movs	r2, #1
	movs	r3, #0
	str	r1, [sp]
	bl	__atomic_fetch_add_8
	lsls	r1, r1, #3
	mov.w	r2, #-2147483648
	orr.w	r1, r1, r0, lsr #29
	adds.w	r0, r2, r0, lsl #3
	adcs	r1, r1, #0
	itte	eq
	streq	r0, [r4]
	moveq	r0, #0
	movne	r0, #2
	add	sp, #8
	pop	{r4, pc}
.Lm_func_end26:
	.size	tlsf_next_number, .Lm_func_end26-tlsf_next_number
	.cfi_endproc
	.section	.text.open_noted,"ax",%progbits
	.p2align	1
	.type	open_noted,%function
	.code	16
	.thumb_func
open_noted:
	.cfi_startproc
	push	{r4, r5, r6, lr}
	.cfi_def_cfa_offset 16
	.cfi_offset lr, -4
	.cfi_offset r6, -8
	.cfi_offset r5, -12
	.cfi_offset r4, -16
	mov	r6, r0
	ldrb	r0, [r0, #29]
	cbz	r0, .Lm_BB27_3
	sub.w	r4, r0, #65
	cmn.w	r4, #57
	mov.w	r4, #0
	blo	.Lm_BB27_4
	add.w	r5, r0, #127
	tst	r5, r0
	it	eq
	moveq	r4, r3
	b	.Lm_BB27_4
.Lm_BB27_3:
	mov	r4, r3
.Lm_BB27_4:
	mov	r0, r6
	mov	r3, r4
	bl	tlsf_open
	cbz	r0, .Lm_BB27_6
	pop	{r4, r5, r6, pc}
.Lm_BB27_6:
	ldrb	r1, [r6, #29]
	tst.w	r1, #247
	itt	ne
	movne	r1, #1
	strbne	r1, [r6, #28]
	pop	{r4, r5, r6, pc}
.Lm_func_end27:
	.size	open_noted, .Lm_func_end27-open_noted
	.cfi_endproc
	.type	tlsf_memory_alloc.nothing,%object
	.section	.bss.tlsf_memory_alloc.nothing,"aw",%nobits
	.p2align	3, 0x0
tlsf_memory_alloc.nothing:
	.long	0
	.long	0
	.size	tlsf_memory_alloc.nothing, 8
	.type	near_room,%object
	.section	.bss.near_room,"aw",%nobits
	.p2align	2, 0x0
near_room:
	.long	0
	.size	near_room, 4
	.type	pieces_first,%object
	.section	.bss.pieces_first,"aw",%nobits
	.p2align	2, 0x0
pieces_first:
	.long	0
	.size	pieces_first, 4
	.type	lent,%object
	.section	.bss.lent,"aw",%nobits
	.p2align	2, 0x0
lent:
	.long	0
	.size	lent, 4
	.type	tlsf_next_number.calls,%object
	.section	.bss.tlsf_next_number.calls,"aw",%nobits
	.p2align	3, 0x0
tlsf_next_number.calls:
	.long	0
	.long	0
	.size	tlsf_next_number.calls, 8
	.type	lent_step,%object
	.section	.bss.lent_step,"aw",%nobits
	.p2align	2, 0x0
lent_step:
	.long	0
	.size	lent_step, 4
	.type	lent_end,%object
	.section	.bss.lent_end,"aw",%nobits
	.p2align	2, 0x0
lent_end:
	.long	0
	.size	lent_end, 4
	.type	begin_behind.nothing,%object
	.section	.bss.begin_behind.nothing,"aw",%nobits
begin_behind.nothing:
	.byte	0
	.size	begin_behind.nothing, 1
	.ident	"clang version 22.1.8"
	.section	".note.GNU-stack","",%progbits
#endif
