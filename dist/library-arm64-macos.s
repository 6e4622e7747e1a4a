#ifndef TLSF_ONLY_MEMORY
/* The calls in Rattle. */
	.section	__TEXT,__text,regular,pure_instructions
	.p2align	2
_tlsf_c.call_fault.CallFault.refusal:
	.cfi_startproc
	lsl	w8, w0, #2
	orr	w8, w8, #0x20
	and	w0, w8, #0xfc
	ret
	.cfi_endproc
	.p2align	2
_tlsf_heap.heap.Heap.resize_live.4:
	.cfi_startproc
	stp	x22, x21, [sp, #-48]!
	.cfi_def_cfa_offset 48
	stp	x20, x19, [sp, #16]
	stp	x29, x30, [sp, #32]
	add	x29, sp, #32
	.cfi_def_cfa w29, 16
	.cfi_offset w30, -8
	.cfi_offset w29, -16
	.cfi_offset w19, -24
	.cfi_offset w20, -32
	.cfi_offset w21, -40
	.cfi_offset w22, -48
	mov	x8, x0
	ldr	x10, [x8, #24]!
	ldr	w1, [x1, #4]
	lsl	x19, x1, #3
	add	x11, x10, x19
	ldr	x9, [x11]
	lsr	w20, w9, #2
	cmp	w2, w20
	b.ls	LBB1_6
	tbnz	w9, #1, LBB1_3
	add	w11, w20, w1
	ldr	x3, [x10, w11, uxtw #3]
	tbnz	w3, #0, LBB1_4
LBB1_3:
	mov	x3, #0
LBB1_4:
	add	w10, w20, w3, lsr #2
	cmp	w10, w2
	b.hs	LBB1_10
	mov	w0, #1
	mov	w1, #5
	b	LBB1_15
LBB1_6:
	ldr	x4, [x0, #8]
	cmn	x4, #1
	b.eq	LBB1_14
	str	xzr, [x11, #16]
	add	w11, w2, #4
	mov	x19, x20
	cmp	w20, w11
	b.lo	LBB1_9
	mov	x21, x0
	mov	x0, x8
	mov	x19, x2
	mov	x2, x9
	mov	x3, x19
	bl	_tlsf_heap.refitting.split_off.4
	mov	x0, x21
LBB1_9:
	mov	w1, #0
	ldr	w9, [x0, #16]
	sub	w10, w19, w20
	add	w9, w10, w9
	str	w9, [x0, #16]
	ldr	x9, [x0, #8]
	add	x9, x9, #1
	str	x9, [x0, #8]
	mov	w0, #0
	b	LBB1_15
LBB1_10:
	ldr	x5, [x0, #8]
	cmn	x5, #1
	b.eq	LBB1_14
	mov	x21, x0
	mov	x0, x8
	mov	x4, x2
	mov	x2, x9
	bl	_tlsf_heap.refitting.recut.4
	mov	x8, x21
	ldr	x9, [x21, #24]
	add	x9, x9, x19
	str	xzr, [x9, #16]
	ldp	w9, w10, [x21, #16]
	sub	w11, w0, w20
	add	w9, w9, w11
	str	w9, [x21, #16]
	cmp	w10, w9
	b.hs	LBB1_13
	str	w9, [x8, #20]
LBB1_13:
	mov	w1, #0
	mov	w0, #0
	ldr	x9, [x8, #8]
	add	x9, x9, #1
	str	x9, [x8, #8]
	b	LBB1_15
LBB1_14:
	mov	w1, #1
	mov	w0, #1
LBB1_15:
	.cfi_def_cfa wsp, 48
	ldp	x29, x30, [sp, #32]
	ldp	x20, x19, [sp, #16]
	ldp	x22, x21, [sp], #48
	.cfi_def_cfa_offset 0
	.cfi_restore w30
	.cfi_restore w29
	.cfi_restore w19
	.cfi_restore w20
	.cfi_restore w21
	.cfi_restore w22
	ret
	.cfi_endproc
	.p2align	2
_tlsf_heap.refitting.split_off.4:
	.cfi_startproc
	mov	x5, x4
	mov	x4, x3
	ldr	x9, [x0]
	tbnz	w2, #1, LBB2_2
	add	w8, w1, w2, lsr #2
	ldr	x3, [x9, w8, uxtw #3]
	tbnz	w3, #0, LBB2_7
LBB2_2:
	orr	x10, x2, #0x1
	add	w8, w4, w1
	sub	w11, w10, w4, lsl #2
	mov	w12, w1
	orr	x12, x11, x12, lsl #32
	sub	x13, x10, x11
	str	x13, [x9, w1, uxtw #3]
	ldr	x13, [x0]
	ubfiz	x9, x8, #3, #32
	add	x13, x13, x9
	stp	x12, x5, [x13]
	ldr	x12, [x0, #24]
	lsr	w13, w8, #3
	and	x13, x13, #0x1ffffff8
	ldr	x14, [x12, x13]
	lsr	w10, w10, #2
	mov	w15, #1
	lsl	x15, x15, x8
	orr	x14, x14, x15
	str	x14, [x12, x13]
	tbnz	w11, #1, LBB2_4
	add	w11, w10, w1
	ldr	x12, [x0]
	add	x11, x12, w11, uxtw #3
	str	w8, [x11, #4]
LBB2_4:
	sub	w10, w10, w4
	orr	w11, w10, #0x10
	clz	w11, w11
	mov	w12, #27
	sub	w11, w12, w11
	lsr	w10, w10, w11
	add	w11, w10, w11, lsl #4
	add	x13, x0, w11, uxtw #2
	ldr	w12, [x13, #144]
	str	w8, [x13, #144]
	ldr	x13, [x0]
	tbnz	w12, #31, LBB2_6
	orr	x10, x12, #0xffffffff00000000
	add	x9, x13, x9
	str	x10, [x9, #16]
	add	x9, x13, x12, lsl #3
	str	w8, [x9, #20]
	ret
LBB2_6:
	add	x8, x13, x9
	mov	x9, #-1
	str	x9, [x8, #16]
	lsr	x8, x11, #4
	ldr	w9, [x0, #56]
	add	x11, x0, x8, lsl #2
	ldr	w12, [x11, #60]
	mov	w13, #1
	lsl	w8, w13, w8
	orr	w8, w9, w8
	str	w8, [x0, #56]
	and	w8, w10, #0xf
	lsl	w8, w13, w8
	orr	w8, w12, w8
	str	w8, [x11, #60]
	ret
LBB2_7:
	b	_tlsf_heap.refitting.recut.4
	.cfi_endproc
	.p2align	2
_tlsf_heap.refitting.recut.4:
	.cfi_startproc
	lsr	w9, w3, #2
	add	w8, w1, w2, lsr #2
	ldr	x10, [x0]
	add	x8, x10, w8, uxtw #3
	ldr	x8, [x8, #16]
	tbnz	x8, #63, LBB3_3
	lsr	x11, x8, #29
	and	x11, x11, #0x3fffffff8
	add	x11, x10, x11
	ldr	x12, [x11, #16]
	cmn	w8, #1
	b.eq	LBB3_5
	bfxil	x12, x8, #0, #32
	str	x12, [x11, #16]
	add	x10, x10, w8, uxtw #3
	ubfx	x8, x8, #32, #31
	str	w8, [x10, #20]
	add	x12, x2, w3, uxtw
	lsr	w8, w12, #2
	add	w11, w4, #4
	add	w10, w8, w1
	cmp	w8, w11
	b.lo	LBB3_8
	b	LBB3_12
LBB3_3:
	orr	w11, w9, #0x10
	clz	w11, w11
	mov	w12, #27
	sub	w11, w12, w11
	lsr	w12, w9, w11
	add	w11, w12, w11, lsl #4
	cmn	w8, #1
	b.eq	LBB3_6
	ubfiz	x12, x8, #3, #32
	add	x10, x10, x12
	ldr	x12, [x10, #16]
	orr	x12, x12, #0xffffffff00000000
	str	x12, [x10, #16]
	add	x10, x0, x11, lsl #2
	str	w8, [x10, #144]
	add	x12, x2, w3, uxtw
	lsr	w8, w12, #2
	add	w11, w4, #4
	add	w10, w8, w1
	cmp	w8, w11
	b.lo	LBB3_8
	b	LBB3_12
LBB3_5:
	orr	x8, x12, #0xffffffff
	str	x8, [x11, #16]
	add	x12, x2, w3, uxtw
	lsr	w8, w12, #2
	add	w11, w4, #4
	add	w10, w8, w1
	cmp	w8, w11
	b.lo	LBB3_8
	b	LBB3_12
LBB3_6:
	add	x8, x0, x11, lsl #2
	mov	w10, #-1
	str	w10, [x8, #144]
	lsr	x8, x11, #2
	and	x8, x8, #0x1ffffffc
	add	x10, x0, x8
	ldr	w13, [x10, #60]
	and	w12, w12, #0xf
	mov	w8, #1
	lsl	w12, w8, w12
	bics	w12, w13, w12
	str	w12, [x10, #60]
	b.eq	LBB3_11
	add	x12, x2, w3, uxtw
	lsr	w8, w12, #2
	add	w11, w4, #4
	add	w10, w8, w1
	cmp	w8, w11
	b.hs	LBB3_12
LBB3_8:
	ldr	x11, [x0, #24]
	sub	w9, w10, w9
	neg	w13, w9
	lsr	w9, w9, #3
	and	x9, x9, #0x1ffffff8
	ldr	x14, [x11, x9]
	mov	x15, #-2
	ror	x13, x15, x13
	and	x13, x14, x13
	str	x13, [x11, x9]
	tbnz	w12, #1, LBB3_10
	ldr	x9, [x0]
	add	x10, x9, w10, uxtw #3
	mov	w9, w1
	str	w1, [x10, #4]
	sub	x10, x12, #1
	ldr	x11, [x0]
	str	x10, [x11, x9, lsl #3]
	mov	x0, x8
	ret
LBB3_10:
	mov	w9, w1
	sub	x10, x12, #1
	ldr	x11, [x0]
	str	x10, [x11, x9, lsl #3]
	mov	x0, x8
	ret
LBB3_11:
	lsr	x10, x11, #4
	ldr	w11, [x0, #56]
	lsl	w8, w8, w10
	bic	w8, w11, w8
	str	w8, [x0, #56]
	add	x12, x2, w3, uxtw
	lsr	w8, w12, #2
	add	w11, w4, #4
	add	w10, w8, w1
	cmp	w8, w11
	b.lo	LBB3_8
LBB3_12:
	add	w11, w4, w1
	sub	w13, w12, w4, lsl #2
	mov	w14, w1
	orr	x14, x13, x14, lsl #32
	sub	x12, x12, x13
	ldr	x15, [x0]
	str	x12, [x15, w1, uxtw #3]
	ldr	x15, [x0]
	ubfiz	x12, x11, #3, #32
	add	x15, x15, x12
	stp	x14, x5, [x15]
	ldr	x14, [x0, #24]
	sub	w9, w10, w9
	neg	w15, w9
	lsr	w9, w9, #3
	and	x9, x9, #0x1ffffff8
	ldr	x16, [x14, x9]
	mov	x17, #-2
	ror	x15, x17, x15
	and	x15, x16, x15
	str	x15, [x14, x9]
	ldr	x9, [x0, #24]
	lsr	w14, w11, #3
	and	x14, x14, #0x1ffffff8
	ldr	x15, [x9, x14]
	mov	w16, #1
	lsl	x16, x16, x11
	orr	x15, x15, x16
	str	x15, [x9, x14]
	tbnz	w13, #1, LBB3_14
	ldr	x9, [x0]
	add	x9, x9, w10, uxtw #3
	str	w11, [x9, #4]
LBB3_14:
	sub	w8, w8, w4
	orr	w9, w8, #0x10
	clz	w9, w9
	mov	w10, #27
	sub	w9, w10, w9
	lsr	w8, w8, w9
	add	w9, w8, w9, lsl #4
	add	x13, x0, w9, uxtw #2
	ldr	w10, [x13, #144]
	str	w11, [x13, #144]
	ldr	x13, [x0]
	tbnz	w10, #31, LBB3_16
	orr	x8, x10, #0xffffffff00000000
	add	x9, x13, x12
	str	x8, [x9, #16]
	add	x8, x13, x10, lsl #3
	str	w11, [x8, #20]
	mov	x8, x4
	mov	x0, x8
	ret
LBB3_16:
	add	x10, x13, x12
	mov	x11, #-1
	str	x11, [x10, #16]
	lsr	x9, x9, #4
	ldr	w10, [x0, #56]
	add	x11, x0, x9, lsl #2
	ldr	w12, [x11, #60]
	mov	w13, #1
	lsl	w9, w13, w9
	orr	w9, w10, w9
	str	w9, [x0, #56]
	and	w8, w8, #0xf
	lsl	w8, w13, w8
	orr	w8, w12, w8
	str	w8, [x11, #60]
	mov	x8, x4
	mov	x0, x8
	ret
	.cfi_endproc
	.p2align	2
_tlsf_heap.heap.Heap.release_live.4:
	.cfi_startproc
	ldr	w4, [x1, #4]
	mov	x8, x0
	ldr	x12, [x8, #24]!
	ubfiz	x9, x4, #3, #32
	add	x11, x12, x9
	ldr	x5, [x11]
	lsr	w10, w5, #2
	ldur	w13, [x8, #-8]
	sub	w13, w13, w10
	stur	w13, [x8, #-8]
	tbnz	w5, #1, LBB4_2
	add	w13, w10, w4
	ldr	x1, [x12, w13, uxtw #3]
	cbnz	w4, LBB4_3
	b	LBB4_4
LBB4_2:
	mov	x1, #0
	cbz	w4, LBB4_4
LBB4_3:
	lsr	x13, x5, #29
	and	x13, x13, #0x7fffffff8
	ldr	x2, [x12, x13]
	tbnz	w2, #0, LBB4_8
LBB4_4:
	ldr	x3, [x0, #8]
	tbnz	w1, #0, LBB4_7
	orr	x8, x5, #0x1
	stp	x8, x3, [x11]
	ldr	x8, [x0, #8]
	add	x8, x8, #1
	str	x8, [x0, #8]
	orr	w8, w10, #0x10
	clz	w8, w8
	mov	w11, #27
	sub	w11, w11, w8
	lsr	w8, w10, w11
	add	w10, w8, w11, lsl #4
	add	x12, x0, w10, uxtw #2
	ldr	w11, [x12, #168]
	str	w4, [x12, #168]
	ldr	x12, [x0, #24]
	tbnz	w11, #31, LBB4_9
	orr	x8, x11, #0xffffffff00000000
	add	x9, x12, x9
	str	x8, [x9, #16]
	add	x8, x12, x11, lsl #3
	str	w4, [x8, #20]
	ret
LBB4_7:
	add	x9, x3, #1
	str	x9, [x0, #8]
	mov	x0, x8
	mov	x2, x5
	b	_tlsf_heap.fitting.merge_next.4
LBB4_8:
	ldr	x3, [x0, #8]
	add	x9, x3, #1
	str	x9, [x0, #8]
	mov	x0, x8
	b	_tlsf_heap.fitting.merge_before.4
LBB4_9:
	add	x9, x12, x9
	mov	x11, #-1
	str	x11, [x9, #16]
	lsr	x9, x10, #4
	ldr	w10, [x0, #80]
	add	x11, x0, x9, lsl #2
	ldr	w12, [x11, #84]
	mov	w13, #1
	lsl	w9, w13, w9
	orr	w9, w10, w9
	str	w9, [x0, #80]
	and	w8, w8, #0xf
	lsl	w8, w13, w8
	orr	w8, w12, w8
	str	w8, [x11, #84]
	ret
	.cfi_endproc
	.p2align	2
_tlsf_heap.fitting.merge_before.4:
	.cfi_startproc
	tbnz	w1, #0, LBB5_4
	lsr	w14, w2, #2
	and	x8, x5, #0xfffffffe
	add	x11, x2, x8
	sub	w8, w4, w14
	ldr	x13, [x0]
	ubfiz	x9, x8, #3, #32
	add	x10, x13, x9
	ldr	x12, [x10, #16]
	lsr	w10, w11, #2
	tbnz	x12, #63, LBB5_5
	mov	w14, w12
	lsr	x15, x12, #29
	and	x15, x15, #0x3fffffff8
	add	x15, x13, x15
	ldr	x16, [x15, #16]
	mov	w17, #-1
	cmp	x14, x17
	b.ne	LBB5_8
	orr	x12, x16, #0xffffffff
	str	x12, [x15, #16]
	b	LBB5_13
LBB5_4:
	b	_tlsf_heap.fitting.merge_both.4
LBB5_5:
	orr	w15, w14, #0x10
	clz	w15, w15
	mov	w16, #27
	sub	w17, w16, w15
	lsr	w15, w14, w17
	add	w14, w15, w17, lsl #4
	orr	w17, w10, #0x10
	clz	w17, w17
	sub	w16, w16, w17
	lsr	w17, w10, w16
	add	w16, w17, w16, lsl #4
	cmp	w14, w16
	b.ne	LBB5_9
	ldr	x12, [x0, #24]
	lsr	w13, w4, #3
	and	x13, x13, #0x1ffffff8
	ldr	x14, [x12, x13]
	neg	w15, w4
	mov	x16, #-2
	ror	x15, x16, x15
	and	x14, x14, x15
	str	x14, [x12, x13]
	ldr	x12, [x0]
	add	x9, x12, x9
	stp	x11, x3, [x9]
	tbnz	w11, #1, LBB5_18
	add	w9, w10, w8
	ldr	x10, [x0]
	add	x9, x10, w9, uxtw #3
	str	w8, [x9, #4]
	ret
LBB5_8:
	and	x16, x16, #0xffffffff00000000
	orr	x16, x16, x14
	str	x16, [x15, #16]
	add	x13, x13, x14, lsl #3
	ubfx	x12, x12, #32, #31
	str	w12, [x13, #20]
	b	LBB5_13
LBB5_9:
	cmn	w12, #1
	b.eq	LBB5_11
	ubfiz	x15, x12, #3, #32
	add	x13, x13, x15
	ldr	x15, [x13, #16]
	orr	x15, x15, #0xffffffff00000000
	str	x15, [x13, #16]
	add	x13, x0, x14, lsl #2
	str	w12, [x13, #144]
	b	LBB5_13
LBB5_11:
	add	x12, x0, x14, lsl #2
	mov	w13, #-1
	str	w13, [x12, #144]
	lsr	x12, x14, #2
	and	x12, x12, #0x1ffffffc
	add	x13, x0, x12
	ldr	w16, [x13, #60]
	and	w15, w15, #0xf
	mov	w12, #1
	lsl	w15, w12, w15
	bics	w15, w16, w15
	str	w15, [x13, #60]
	b.ne	LBB5_13
	lsr	x13, x14, #4
	ldr	w14, [x0, #56]
	lsl	w12, w12, w13
	bic	w12, w14, w12
	str	w12, [x0, #56]
LBB5_13:
	ldr	x12, [x0, #24]
	lsr	w13, w4, #3
	and	x13, x13, #0x1ffffff8
	ldr	x14, [x12, x13]
	neg	w15, w4
	mov	x16, #-2
	ror	x15, x16, x15
	and	x14, x14, x15
	str	x14, [x12, x13]
	ldr	x12, [x0]
	add	x12, x12, x9
	stp	x11, x3, [x12]
	tbnz	w11, #1, LBB5_15
	add	w11, w10, w8
	ldr	x12, [x0]
	add	x11, x12, w11, uxtw #3
	str	w8, [x11, #4]
LBB5_15:
	orr	w11, w10, #0x10
	clz	w11, w11
	mov	w12, #27
	sub	w11, w12, w11
	lsr	w10, w10, w11
	add	w11, w10, w11, lsl #4
	add	x13, x0, w11, uxtw #2
	ldr	w12, [x13, #144]
	str	w8, [x13, #144]
	ldr	x13, [x0]
	tbnz	w12, #31, LBB5_17
	orr	x10, x12, #0xffffffff00000000
	add	x9, x13, x9
	str	x10, [x9, #16]
	add	x9, x13, x12, lsl #3
	str	w8, [x9, #20]
	ret
LBB5_17:
	add	x8, x13, x9
	mov	x9, #-1
	str	x9, [x8, #16]
	lsr	x8, x11, #4
	ldr	w9, [x0, #56]
	add	x11, x0, x8, lsl #2
	ldr	w12, [x11, #60]
	mov	w13, #1
	lsl	w8, w13, w8
	orr	w8, w9, w8
	str	w8, [x0, #56]
	and	w8, w10, #0xf
	lsl	w8, w13, w8
	orr	w8, w12, w8
	str	w8, [x11, #60]
LBB5_18:
	ret
	.cfi_endproc
	.p2align	2
_tlsf_heap.fitting.merge_both.4:
	.cfi_startproc
	lsr	w8, w1, #2
	add	w9, w4, w5, lsr #2
	ldr	x10, [x0]
	add	x9, x10, w9, uxtw #3
	ldr	x9, [x9, #16]
	tbnz	x9, #63, LBB6_3
	lsr	x11, x9, #29
	and	x11, x11, #0x3fffffff8
	add	x11, x10, x11
	ldr	x12, [x11, #16]
	cmn	w9, #1
	b.eq	LBB6_5
	bfxil	x12, x9, #0, #32
	str	x12, [x11, #16]
	add	x10, x10, w9, uxtw #3
	ubfx	x9, x9, #32, #31
	str	w9, [x10, #20]
	b	LBB6_8
LBB6_3:
	orr	w11, w8, #0x10
	clz	w11, w11
	mov	w12, #27
	sub	w11, w12, w11
	lsr	w12, w8, w11
	add	w11, w12, w11, lsl #4
	cmn	w9, #1
	b.eq	LBB6_6
	ubfiz	x12, x9, #3, #32
	add	x10, x10, x12
	ldr	x12, [x10, #16]
	orr	x12, x12, #0xffffffff00000000
	str	x12, [x10, #16]
	add	x10, x0, x11, lsl #2
	str	w9, [x10, #144]
	b	LBB6_8
LBB6_5:
	orr	x9, x12, #0xffffffff
	str	x9, [x11, #16]
	b	LBB6_8
LBB6_6:
	add	x9, x0, x11, lsl #2
	mov	w10, #-1
	str	w10, [x9, #144]
	lsr	x9, x11, #2
	and	x9, x9, #0x1ffffffc
	add	x10, x0, x9
	ldr	w13, [x10, #60]
	and	w12, w12, #0xf
	mov	w9, #1
	lsl	w12, w9, w12
	bics	w12, w13, w12
	str	w12, [x10, #60]
	b.ne	LBB6_8
	lsr	x10, x11, #4
	ldr	w11, [x0, #56]
	lsl	w9, w9, w10
	bic	w9, w11, w9
	str	w9, [x0, #56]
LBB6_8:
	lsr	w13, w2, #2
	sub	w9, w4, w13
	ldr	x12, [x0]
	ubfiz	x10, x9, #3, #32
	add	x11, x12, x10
	ldr	x11, [x11, #16]
	tbnz	x11, #63, LBB6_11
	lsr	x13, x11, #29
	and	x13, x13, #0x3fffffff8
	add	x13, x12, x13
	ldr	x14, [x13, #16]
	cmn	w11, #1
	b.eq	LBB6_13
	bfxil	x14, x11, #0, #32
	str	x14, [x13, #16]
	add	x12, x12, w11, uxtw #3
	ubfx	x11, x11, #32, #31
	str	w11, [x12, #20]
	b	LBB6_16
LBB6_11:
	orr	w14, w13, #0x10
	clz	w14, w14
	mov	w15, #27
	sub	w15, w15, w14
	lsr	w14, w13, w15
	add	w13, w14, w15, lsl #4
	cmn	w11, #1
	b.eq	LBB6_14
	ubfiz	x14, x11, #3, #32
	add	x12, x12, x14
	ldr	x14, [x12, #16]
	orr	x14, x14, #0xffffffff00000000
	str	x14, [x12, #16]
	add	x12, x0, x13, lsl #2
	str	w11, [x12, #144]
	b	LBB6_16
LBB6_13:
	orr	x11, x14, #0xffffffff
	str	x11, [x13, #16]
	b	LBB6_16
LBB6_14:
	add	x11, x0, x13, lsl #2
	mov	w12, #-1
	str	w12, [x11, #144]
	lsr	x11, x13, #2
	and	x11, x11, #0x1ffffffc
	add	x12, x0, x11
	ldr	w15, [x12, #60]
	and	w14, w14, #0xf
	mov	w11, #1
	lsl	w14, w11, w14
	bics	w14, w15, w14
	str	w14, [x12, #60]
	b.ne	LBB6_16
	lsr	x12, x13, #4
	ldr	w13, [x0, #56]
	lsl	w11, w11, w12
	bic	w11, w13, w11
	str	w11, [x0, #56]
LBB6_16:
	add	w11, w5, w1
	add	x11, x2, x11
	sub	x13, x11, #1
	lsr	w11, w13, #2
	ldr	x12, [x0, #24]
	lsr	w14, w4, #3
	and	x14, x14, #0x1ffffff8
	ldr	x15, [x12, x14]
	neg	w16, w4
	mov	x17, #-2
	ror	x16, x17, x16
	and	x15, x15, x16
	str	x15, [x12, x14]
	add	w12, w11, w9
	sub	w8, w12, w8
	ldr	x14, [x0, #24]
	lsr	w15, w8, #3
	and	x15, x15, #0x1ffffff8
	ldr	x16, [x14, x15]
	neg	w8, w8
	ror	x8, x17, x8
	and	x8, x16, x8
	str	x8, [x14, x15]
	ldr	x8, [x0]
	add	x8, x8, x10
	stp	x13, x3, [x8]
	tbnz	w13, #1, LBB6_18
	ldr	x8, [x0]
	add	x8, x8, w12, uxtw #3
	str	w9, [x8, #4]
LBB6_18:
	orr	w8, w11, #0x10
	clz	w8, w8
	mov	w12, #27
	sub	w12, w12, w8
	lsr	w8, w11, w12
	add	w11, w8, w12, lsl #4
	add	x13, x0, w11, uxtw #2
	ldr	w12, [x13, #144]
	str	w9, [x13, #144]
	ldr	x13, [x0]
	tbnz	w12, #31, LBB6_20
	orr	x8, x12, #0xffffffff00000000
	add	x10, x13, x10
	str	x8, [x10, #16]
	add	x8, x13, x12, lsl #3
	str	w9, [x8, #20]
	ret
LBB6_20:
	add	x9, x13, x10
	mov	x10, #-1
	str	x10, [x9, #16]
	lsr	x9, x11, #4
	ldr	w10, [x0, #56]
	add	x11, x0, x9, lsl #2
	ldr	w12, [x11, #60]
	mov	w13, #1
	lsl	w9, w13, w9
	orr	w9, w10, w9
	str	w9, [x0, #56]
	and	w8, w8, #0xf
	lsl	w8, w13, w8
	orr	w8, w12, w8
	str	w8, [x11, #60]
	ret
	.cfi_endproc
	.p2align	2
_tlsf_heap.fitting.merge_next.4:
	.cfi_startproc
	lsr	w8, w1, #2
	add	w9, w4, w2, lsr #2
	ldr	x10, [x0]
	add	x9, x10, w9, uxtw #3
	ldr	x9, [x9, #16]
	tbnz	x9, #63, LBB7_3
	lsr	x11, x9, #29
	and	x11, x11, #0x3fffffff8
	add	x11, x10, x11
	ldr	x12, [x11, #16]
	cmn	w9, #1
	b.eq	LBB7_5
	bfxil	x12, x9, #0, #32
	str	x12, [x11, #16]
	add	x10, x10, w9, uxtw #3
	ubfx	x9, x9, #32, #31
	str	w9, [x10, #20]
	b	LBB7_8
LBB7_3:
	orr	w11, w8, #0x10
	clz	w11, w11
	mov	w12, #27
	sub	w11, w12, w11
	lsr	w12, w8, w11
	add	w11, w12, w11, lsl #4
	cmn	w9, #1
	b.eq	LBB7_6
	ubfiz	x12, x9, #3, #32
	add	x10, x10, x12
	ldr	x12, [x10, #16]
	orr	x12, x12, #0xffffffff00000000
	str	x12, [x10, #16]
	add	x10, x0, x11, lsl #2
	str	w9, [x10, #144]
	b	LBB7_8
LBB7_5:
	orr	x9, x12, #0xffffffff
	str	x9, [x11, #16]
	b	LBB7_8
LBB7_6:
	add	x9, x0, x11, lsl #2
	mov	w10, #-1
	str	w10, [x9, #144]
	lsr	x9, x11, #2
	and	x9, x9, #0x1ffffffc
	add	x10, x0, x9
	ldr	w13, [x10, #60]
	and	w12, w12, #0xf
	mov	w9, #1
	lsl	w12, w9, w12
	bics	w12, w13, w12
	str	w12, [x10, #60]
	b.ne	LBB7_8
	lsr	x10, x11, #4
	ldr	w11, [x0, #56]
	lsl	w9, w9, w10
	bic	w9, w11, w9
	str	w9, [x0, #56]
LBB7_8:
	add	x12, x2, w1, uxtw
	lsr	w9, w12, #2
	add	w11, w9, w4
	sub	w8, w11, w8
	ldr	x10, [x0, #24]
	lsr	w13, w8, #3
	and	x13, x13, #0x1ffffff8
	ldr	x14, [x10, x13]
	neg	w8, w8
	mov	x15, #-2
	ror	x8, x15, x8
	and	x8, x14, x8
	str	x8, [x10, x13]
	ldr	x13, [x0]
	mov	w8, w4
	ubfiz	x10, x4, #3, #32
	add	x13, x13, x10
	stp	x12, x3, [x13]
	tbnz	w12, #1, LBB7_10
	ldr	x12, [x0]
	add	x11, x12, w11, uxtw #3
	str	w8, [x11, #4]
LBB7_10:
	orr	w11, w9, #0x10
	clz	w11, w11
	mov	w12, #27
	sub	w11, w12, w11
	lsr	w9, w9, w11
	add	w11, w9, w11, lsl #4
	add	x13, x0, w11, uxtw #2
	ldr	w12, [x13, #144]
	str	w4, [x13, #144]
	ldr	x13, [x0]
	tbnz	w12, #31, LBB7_12
	orr	x9, x12, #0xffffffff00000000
	add	x10, x13, x10
	str	x9, [x10, #16]
	add	x9, x13, x12, lsl #3
	str	w8, [x9, #20]
	ret
LBB7_12:
	add	x8, x13, x10
	mov	x10, #-1
	str	x10, [x8, #16]
	lsr	x8, x11, #4
	ldr	w10, [x0, #56]
	add	x11, x0, x8, lsl #2
	ldr	w12, [x11, #60]
	mov	w13, #1
	lsl	w8, w13, w8
	orr	w8, w10, w8
	str	w8, [x0, #56]
	and	w8, w9, #0xf
	lsl	w8, w13, w8
	orr	w8, w12, w8
	str	w8, [x11, #60]
	ret
	.cfi_endproc
	.p2align	2
_tlsf_heap.heap.Heap.resize_live.5:
	.cfi_startproc
	stp	x22, x21, [sp, #-48]!
	.cfi_def_cfa_offset 48
	stp	x20, x19, [sp, #16]
	stp	x29, x30, [sp, #32]
	add	x29, sp, #32
	.cfi_def_cfa w29, 16
	.cfi_offset w30, -8
	.cfi_offset w29, -16
	.cfi_offset w19, -24
	.cfi_offset w20, -32
	.cfi_offset w21, -40
	.cfi_offset w22, -48
	mov	x8, x0
	ldr	x10, [x8, #24]!
	ldr	w1, [x1, #4]
	lsl	x19, x1, #3
	add	x11, x10, x19
	ldr	x9, [x11]
	lsr	w20, w9, #2
	cmp	w2, w20
	b.ls	LBB8_6
	tbnz	w9, #1, LBB8_3
	add	w11, w20, w1
	ldr	x3, [x10, w11, uxtw #3]
	tbnz	w3, #0, LBB8_4
LBB8_3:
	mov	x3, #0
LBB8_4:
	add	w10, w20, w3, lsr #2
	cmp	w10, w2
	b.hs	LBB8_10
	mov	w0, #1
	mov	w1, #5
	b	LBB8_15
LBB8_6:
	ldr	x4, [x0, #8]
	cmn	x4, #1
	b.eq	LBB8_14
	str	xzr, [x11, #16]
	add	w11, w2, #4
	mov	x19, x20
	cmp	w20, w11
	b.lo	LBB8_9
	mov	x21, x0
	mov	x0, x8
	mov	x19, x2
	mov	x2, x9
	mov	x3, x19
	bl	_tlsf_heap.refitting.split_off.5
	mov	x0, x21
LBB8_9:
	mov	w1, #0
	ldr	w9, [x0, #16]
	sub	w10, w19, w20
	add	w9, w10, w9
	str	w9, [x0, #16]
	ldr	x9, [x0, #8]
	add	x9, x9, #1
	str	x9, [x0, #8]
	mov	w0, #0
	b	LBB8_15
LBB8_10:
	ldr	x5, [x0, #8]
	cmn	x5, #1
	b.eq	LBB8_14
	mov	x21, x0
	mov	x0, x8
	mov	x4, x2
	mov	x2, x9
	bl	_tlsf_heap.refitting.recut.5
	mov	x8, x21
	ldr	x9, [x21, #24]
	add	x9, x9, x19
	str	xzr, [x9, #16]
	ldp	w9, w10, [x21, #16]
	sub	w11, w0, w20
	add	w9, w9, w11
	str	w9, [x21, #16]
	cmp	w10, w9
	b.hs	LBB8_13
	str	w9, [x8, #20]
LBB8_13:
	mov	w1, #0
	mov	w0, #0
	ldr	x9, [x8, #8]
	add	x9, x9, #1
	str	x9, [x8, #8]
	b	LBB8_15
LBB8_14:
	mov	w1, #1
	mov	w0, #1
LBB8_15:
	.cfi_def_cfa wsp, 48
	ldp	x29, x30, [sp, #32]
	ldp	x20, x19, [sp, #16]
	ldp	x22, x21, [sp], #48
	.cfi_def_cfa_offset 0
	.cfi_restore w30
	.cfi_restore w29
	.cfi_restore w19
	.cfi_restore w20
	.cfi_restore w21
	.cfi_restore w22
	ret
	.cfi_endproc
	.p2align	2
_tlsf_heap.refitting.split_off.5:
	.cfi_startproc
	mov	x5, x4
	mov	x4, x3
	ldr	x9, [x0]
	tbnz	w2, #1, LBB9_2
	add	w8, w1, w2, lsr #2
	ldr	x3, [x9, w8, uxtw #3]
	tbnz	w3, #0, LBB9_7
LBB9_2:
	orr	x10, x2, #0x1
	add	w8, w4, w1
	sub	w11, w10, w4, lsl #2
	mov	w12, w1
	orr	x12, x11, x12, lsl #32
	sub	x13, x10, x11
	str	x13, [x9, w1, uxtw #3]
	ldr	x13, [x0]
	ubfiz	x9, x8, #3, #32
	add	x13, x13, x9
	stp	x12, x5, [x13]
	ldr	x12, [x0, #24]
	lsr	w13, w8, #3
	and	x13, x13, #0x1ffffff8
	ldr	x14, [x12, x13]
	lsr	w10, w10, #2
	mov	w15, #1
	lsl	x15, x15, x8
	orr	x14, x14, x15
	str	x14, [x12, x13]
	tbnz	w11, #1, LBB9_4
	add	w11, w10, w1
	ldr	x12, [x0]
	add	x11, x12, w11, uxtw #3
	str	w8, [x11, #4]
LBB9_4:
	sub	w10, w10, w4
	orr	w11, w10, #0x20
	clz	w11, w11
	mov	w12, #26
	sub	w11, w12, w11
	lsr	w10, w10, w11
	add	w11, w10, w11, lsl #5
	add	x13, x0, w11, uxtw #2
	ldr	w12, [x13, #144]
	str	w8, [x13, #144]
	ldr	x13, [x0]
	tbnz	w12, #31, LBB9_6
	orr	x10, x12, #0xffffffff00000000
	add	x9, x13, x9
	str	x10, [x9, #16]
	add	x9, x13, x12, lsl #3
	str	w8, [x9, #20]
	ret
LBB9_6:
	add	x8, x13, x9
	mov	x9, #-1
	str	x9, [x8, #16]
	lsr	x8, x11, #5
	ldr	w9, [x0, #56]
	add	x11, x0, x8, lsl #2
	ldr	w12, [x11, #60]
	mov	w13, #1
	lsl	w8, w13, w8
	orr	w8, w9, w8
	str	w8, [x0, #56]
	lsl	w8, w13, w10
	orr	w8, w12, w8
	str	w8, [x11, #60]
	ret
LBB9_7:
	b	_tlsf_heap.refitting.recut.5
	.cfi_endproc
	.p2align	2
_tlsf_heap.refitting.recut.5:
	.cfi_startproc
	lsr	w9, w3, #2
	add	w8, w1, w2, lsr #2
	ldr	x10, [x0]
	add	x8, x10, w8, uxtw #3
	ldr	x8, [x8, #16]
	tbnz	x8, #63, LBB10_3
	lsr	x11, x8, #29
	and	x11, x11, #0x3fffffff8
	add	x11, x10, x11
	ldr	x12, [x11, #16]
	cmn	w8, #1
	b.eq	LBB10_5
	bfxil	x12, x8, #0, #32
	str	x12, [x11, #16]
	add	x10, x10, w8, uxtw #3
	ubfx	x8, x8, #32, #31
	str	w8, [x10, #20]
	add	x12, x2, w3, uxtw
	lsr	w8, w12, #2
	add	w11, w4, #4
	add	w10, w8, w1
	cmp	w8, w11
	b.lo	LBB10_8
	b	LBB10_12
LBB10_3:
	orr	w11, w9, #0x20
	clz	w11, w11
	mov	w12, #26
	sub	w11, w12, w11
	lsr	w12, w9, w11
	add	w11, w12, w11, lsl #5
	cmn	w8, #1
	b.eq	LBB10_6
	ubfiz	x12, x8, #3, #32
	add	x10, x10, x12
	ldr	x12, [x10, #16]
	orr	x12, x12, #0xffffffff00000000
	str	x12, [x10, #16]
	add	x10, x0, x11, lsl #2
	str	w8, [x10, #144]
	add	x12, x2, w3, uxtw
	lsr	w8, w12, #2
	add	w11, w4, #4
	add	w10, w8, w1
	cmp	w8, w11
	b.lo	LBB10_8
	b	LBB10_12
LBB10_5:
	orr	x8, x12, #0xffffffff
	str	x8, [x11, #16]
	add	x12, x2, w3, uxtw
	lsr	w8, w12, #2
	add	w11, w4, #4
	add	w10, w8, w1
	cmp	w8, w11
	b.lo	LBB10_8
	b	LBB10_12
LBB10_6:
	add	x8, x0, x11, lsl #2
	mov	w10, #-1
	str	w10, [x8, #144]
	lsr	x8, x11, #3
	and	x8, x8, #0xffffffc
	add	x10, x0, x8
	ldr	w13, [x10, #60]
	mov	w8, #1
	lsl	w12, w8, w12
	bics	w12, w13, w12
	str	w12, [x10, #60]
	b.eq	LBB10_11
	add	x12, x2, w3, uxtw
	lsr	w8, w12, #2
	add	w11, w4, #4
	add	w10, w8, w1
	cmp	w8, w11
	b.hs	LBB10_12
LBB10_8:
	ldr	x11, [x0, #24]
	sub	w9, w10, w9
	neg	w13, w9
	lsr	w9, w9, #3
	and	x9, x9, #0x1ffffff8
	ldr	x14, [x11, x9]
	mov	x15, #-2
	ror	x13, x15, x13
	and	x13, x14, x13
	str	x13, [x11, x9]
	tbnz	w12, #1, LBB10_10
	ldr	x9, [x0]
	add	x10, x9, w10, uxtw #3
	mov	w9, w1
	str	w1, [x10, #4]
	sub	x10, x12, #1
	ldr	x11, [x0]
	str	x10, [x11, x9, lsl #3]
	mov	x0, x8
	ret
LBB10_10:
	mov	w9, w1
	sub	x10, x12, #1
	ldr	x11, [x0]
	str	x10, [x11, x9, lsl #3]
	mov	x0, x8
	ret
LBB10_11:
	lsr	x10, x11, #5
	ldr	w11, [x0, #56]
	lsl	w8, w8, w10
	bic	w8, w11, w8
	str	w8, [x0, #56]
	add	x12, x2, w3, uxtw
	lsr	w8, w12, #2
	add	w11, w4, #4
	add	w10, w8, w1
	cmp	w8, w11
	b.lo	LBB10_8
LBB10_12:
	add	w11, w4, w1
	sub	w13, w12, w4, lsl #2
	mov	w14, w1
	orr	x14, x13, x14, lsl #32
	sub	x12, x12, x13
	ldr	x15, [x0]
	str	x12, [x15, w1, uxtw #3]
	ldr	x15, [x0]
	ubfiz	x12, x11, #3, #32
	add	x15, x15, x12
	stp	x14, x5, [x15]
	ldr	x14, [x0, #24]
	sub	w9, w10, w9
	neg	w15, w9
	lsr	w9, w9, #3
	and	x9, x9, #0x1ffffff8
	ldr	x16, [x14, x9]
	mov	x17, #-2
	ror	x15, x17, x15
	and	x15, x16, x15
	str	x15, [x14, x9]
	ldr	x9, [x0, #24]
	lsr	w14, w11, #3
	and	x14, x14, #0x1ffffff8
	ldr	x15, [x9, x14]
	mov	w16, #1
	lsl	x16, x16, x11
	orr	x15, x15, x16
	str	x15, [x9, x14]
	tbnz	w13, #1, LBB10_14
	ldr	x9, [x0]
	add	x9, x9, w10, uxtw #3
	str	w11, [x9, #4]
LBB10_14:
	sub	w8, w8, w4
	orr	w9, w8, #0x20
	clz	w9, w9
	mov	w10, #26
	sub	w9, w10, w9
	lsr	w8, w8, w9
	add	w9, w8, w9, lsl #5
	add	x13, x0, w9, uxtw #2
	ldr	w10, [x13, #144]
	str	w11, [x13, #144]
	ldr	x13, [x0]
	tbnz	w10, #31, LBB10_16
	orr	x8, x10, #0xffffffff00000000
	add	x9, x13, x12
	str	x8, [x9, #16]
	add	x8, x13, x10, lsl #3
	str	w11, [x8, #20]
	mov	x8, x4
	mov	x0, x8
	ret
LBB10_16:
	add	x10, x13, x12
	mov	x11, #-1
	str	x11, [x10, #16]
	lsr	x9, x9, #5
	ldr	w10, [x0, #56]
	add	x11, x0, x9, lsl #2
	ldr	w12, [x11, #60]
	mov	w13, #1
	lsl	w9, w13, w9
	orr	w9, w10, w9
	str	w9, [x0, #56]
	lsl	w8, w13, w8
	orr	w8, w12, w8
	str	w8, [x11, #60]
	mov	x8, x4
	mov	x0, x8
	ret
	.cfi_endproc
	.p2align	2
_tlsf_heap.heap.Heap.release_live.5:
	.cfi_startproc
	ldr	w4, [x1, #4]
	mov	x8, x0
	ldr	x12, [x8, #24]!
	ubfiz	x9, x4, #3, #32
	add	x11, x12, x9
	ldr	x5, [x11]
	lsr	w10, w5, #2
	ldur	w13, [x8, #-8]
	sub	w13, w13, w10
	stur	w13, [x8, #-8]
	tbnz	w5, #1, LBB11_2
	add	w13, w10, w4
	ldr	x1, [x12, w13, uxtw #3]
	cbnz	w4, LBB11_3
	b	LBB11_4
LBB11_2:
	mov	x1, #0
	cbz	w4, LBB11_4
LBB11_3:
	lsr	x13, x5, #29
	and	x13, x13, #0x7fffffff8
	ldr	x2, [x12, x13]
	tbnz	w2, #0, LBB11_8
LBB11_4:
	ldr	x3, [x0, #8]
	tbnz	w1, #0, LBB11_7
	orr	x8, x5, #0x1
	stp	x8, x3, [x11]
	ldr	x8, [x0, #8]
	add	x8, x8, #1
	str	x8, [x0, #8]
	orr	w8, w10, #0x20
	clz	w8, w8
	mov	w11, #26
	sub	w11, w11, w8
	lsr	w8, w10, w11
	add	w10, w8, w11, lsl #5
	add	x12, x0, w10, uxtw #2
	ldr	w11, [x12, #168]
	str	w4, [x12, #168]
	ldr	x12, [x0, #24]
	tbnz	w11, #31, LBB11_9
	orr	x8, x11, #0xffffffff00000000
	add	x9, x12, x9
	str	x8, [x9, #16]
	add	x8, x12, x11, lsl #3
	str	w4, [x8, #20]
	ret
LBB11_7:
	add	x9, x3, #1
	str	x9, [x0, #8]
	mov	x0, x8
	mov	x2, x5
	b	_tlsf_heap.fitting.merge_next.5
LBB11_8:
	ldr	x3, [x0, #8]
	add	x9, x3, #1
	str	x9, [x0, #8]
	mov	x0, x8
	b	_tlsf_heap.fitting.merge_before.5
LBB11_9:
	add	x9, x12, x9
	mov	x11, #-1
	str	x11, [x9, #16]
	lsr	x9, x10, #5
	ldr	w10, [x0, #80]
	add	x11, x0, x9, lsl #2
	ldr	w12, [x11, #84]
	mov	w13, #1
	lsl	w9, w13, w9
	orr	w9, w10, w9
	str	w9, [x0, #80]
	lsl	w8, w13, w8
	orr	w8, w12, w8
	str	w8, [x11, #84]
	ret
	.cfi_endproc
	.p2align	2
_tlsf_heap.fitting.merge_before.5:
	.cfi_startproc
	tbnz	w1, #0, LBB12_4
	lsr	w14, w2, #2
	and	x8, x5, #0xfffffffe
	add	x11, x2, x8
	sub	w8, w4, w14
	ldr	x13, [x0]
	ubfiz	x9, x8, #3, #32
	add	x10, x13, x9
	ldr	x12, [x10, #16]
	lsr	w10, w11, #2
	tbnz	x12, #63, LBB12_5
	mov	w14, w12
	lsr	x15, x12, #29
	and	x15, x15, #0x3fffffff8
	add	x15, x13, x15
	ldr	x16, [x15, #16]
	mov	w17, #-1
	cmp	x14, x17
	b.ne	LBB12_8
	orr	x12, x16, #0xffffffff
	str	x12, [x15, #16]
	b	LBB12_13
LBB12_4:
	b	_tlsf_heap.fitting.merge_both.5
LBB12_5:
	orr	w15, w14, #0x20
	clz	w15, w15
	mov	w16, #26
	sub	w17, w16, w15
	lsr	w15, w14, w17
	add	w14, w15, w17, lsl #5
	orr	w17, w10, #0x20
	clz	w17, w17
	sub	w16, w16, w17
	lsr	w17, w10, w16
	add	w16, w17, w16, lsl #5
	cmp	w14, w16
	b.ne	LBB12_9
	ldr	x12, [x0, #24]
	lsr	w13, w4, #3
	and	x13, x13, #0x1ffffff8
	ldr	x14, [x12, x13]
	neg	w15, w4
	mov	x16, #-2
	ror	x15, x16, x15
	and	x14, x14, x15
	str	x14, [x12, x13]
	ldr	x12, [x0]
	add	x9, x12, x9
	stp	x11, x3, [x9]
	tbnz	w11, #1, LBB12_18
	add	w9, w10, w8
	ldr	x10, [x0]
	add	x9, x10, w9, uxtw #3
	str	w8, [x9, #4]
	ret
LBB12_8:
	and	x16, x16, #0xffffffff00000000
	orr	x16, x16, x14
	str	x16, [x15, #16]
	add	x13, x13, x14, lsl #3
	ubfx	x12, x12, #32, #31
	str	w12, [x13, #20]
	b	LBB12_13
LBB12_9:
	cmn	w12, #1
	b.eq	LBB12_11
	ubfiz	x15, x12, #3, #32
	add	x13, x13, x15
	ldr	x15, [x13, #16]
	orr	x15, x15, #0xffffffff00000000
	str	x15, [x13, #16]
	add	x13, x0, x14, lsl #2
	str	w12, [x13, #144]
	b	LBB12_13
LBB12_11:
	add	x12, x0, x14, lsl #2
	mov	w13, #-1
	str	w13, [x12, #144]
	lsr	x12, x14, #3
	and	x12, x12, #0xffffffc
	add	x13, x0, x12
	ldr	w16, [x13, #60]
	mov	w12, #1
	lsl	w15, w12, w15
	bics	w15, w16, w15
	str	w15, [x13, #60]
	b.ne	LBB12_13
	lsr	x13, x14, #5
	ldr	w14, [x0, #56]
	lsl	w12, w12, w13
	bic	w12, w14, w12
	str	w12, [x0, #56]
LBB12_13:
	ldr	x12, [x0, #24]
	lsr	w13, w4, #3
	and	x13, x13, #0x1ffffff8
	ldr	x14, [x12, x13]
	neg	w15, w4
	mov	x16, #-2
	ror	x15, x16, x15
	and	x14, x14, x15
	str	x14, [x12, x13]
	ldr	x12, [x0]
	add	x12, x12, x9
	stp	x11, x3, [x12]
	tbnz	w11, #1, LBB12_15
	add	w11, w10, w8
	ldr	x12, [x0]
	add	x11, x12, w11, uxtw #3
	str	w8, [x11, #4]
LBB12_15:
	orr	w11, w10, #0x20
	clz	w11, w11
	mov	w12, #26
	sub	w11, w12, w11
	lsr	w10, w10, w11
	add	w11, w10, w11, lsl #5
	add	x13, x0, w11, uxtw #2
	ldr	w12, [x13, #144]
	str	w8, [x13, #144]
	ldr	x13, [x0]
	tbnz	w12, #31, LBB12_17
	orr	x10, x12, #0xffffffff00000000
	add	x9, x13, x9
	str	x10, [x9, #16]
	add	x9, x13, x12, lsl #3
	str	w8, [x9, #20]
	ret
LBB12_17:
	add	x8, x13, x9
	mov	x9, #-1
	str	x9, [x8, #16]
	lsr	x8, x11, #5
	ldr	w9, [x0, #56]
	add	x11, x0, x8, lsl #2
	ldr	w12, [x11, #60]
	mov	w13, #1
	lsl	w8, w13, w8
	orr	w8, w9, w8
	str	w8, [x0, #56]
	lsl	w8, w13, w10
	orr	w8, w12, w8
	str	w8, [x11, #60]
LBB12_18:
	ret
	.cfi_endproc
	.p2align	2
_tlsf_heap.fitting.merge_both.5:
	.cfi_startproc
	lsr	w8, w1, #2
	add	w9, w4, w5, lsr #2
	ldr	x10, [x0]
	add	x9, x10, w9, uxtw #3
	ldr	x9, [x9, #16]
	tbnz	x9, #63, LBB13_3
	lsr	x11, x9, #29
	and	x11, x11, #0x3fffffff8
	add	x11, x10, x11
	ldr	x12, [x11, #16]
	cmn	w9, #1
	b.eq	LBB13_5
	bfxil	x12, x9, #0, #32
	str	x12, [x11, #16]
	add	x10, x10, w9, uxtw #3
	ubfx	x9, x9, #32, #31
	str	w9, [x10, #20]
	b	LBB13_8
LBB13_3:
	orr	w11, w8, #0x20
	clz	w11, w11
	mov	w12, #26
	sub	w11, w12, w11
	lsr	w12, w8, w11
	add	w11, w12, w11, lsl #5
	cmn	w9, #1
	b.eq	LBB13_6
	ubfiz	x12, x9, #3, #32
	add	x10, x10, x12
	ldr	x12, [x10, #16]
	orr	x12, x12, #0xffffffff00000000
	str	x12, [x10, #16]
	add	x10, x0, x11, lsl #2
	str	w9, [x10, #144]
	b	LBB13_8
LBB13_5:
	orr	x9, x12, #0xffffffff
	str	x9, [x11, #16]
	b	LBB13_8
LBB13_6:
	add	x9, x0, x11, lsl #2
	mov	w10, #-1
	str	w10, [x9, #144]
	lsr	x9, x11, #3
	and	x9, x9, #0xffffffc
	add	x10, x0, x9
	ldr	w13, [x10, #60]
	mov	w9, #1
	lsl	w12, w9, w12
	bics	w12, w13, w12
	str	w12, [x10, #60]
	b.ne	LBB13_8
	lsr	x10, x11, #5
	ldr	w11, [x0, #56]
	lsl	w9, w9, w10
	bic	w9, w11, w9
	str	w9, [x0, #56]
LBB13_8:
	lsr	w13, w2, #2
	sub	w9, w4, w13
	ldr	x12, [x0]
	ubfiz	x10, x9, #3, #32
	add	x11, x12, x10
	ldr	x11, [x11, #16]
	tbnz	x11, #63, LBB13_11
	lsr	x13, x11, #29
	and	x13, x13, #0x3fffffff8
	add	x13, x12, x13
	ldr	x14, [x13, #16]
	cmn	w11, #1
	b.eq	LBB13_13
	bfxil	x14, x11, #0, #32
	str	x14, [x13, #16]
	add	x12, x12, w11, uxtw #3
	ubfx	x11, x11, #32, #31
	str	w11, [x12, #20]
	b	LBB13_16
LBB13_11:
	orr	w14, w13, #0x20
	clz	w14, w14
	mov	w15, #26
	sub	w15, w15, w14
	lsr	w14, w13, w15
	add	w13, w14, w15, lsl #5
	cmn	w11, #1
	b.eq	LBB13_14
	ubfiz	x14, x11, #3, #32
	add	x12, x12, x14
	ldr	x14, [x12, #16]
	orr	x14, x14, #0xffffffff00000000
	str	x14, [x12, #16]
	add	x12, x0, x13, lsl #2
	str	w11, [x12, #144]
	b	LBB13_16
LBB13_13:
	orr	x11, x14, #0xffffffff
	str	x11, [x13, #16]
	b	LBB13_16
LBB13_14:
	add	x11, x0, x13, lsl #2
	mov	w12, #-1
	str	w12, [x11, #144]
	lsr	x11, x13, #3
	and	x11, x11, #0xffffffc
	add	x12, x0, x11
	ldr	w15, [x12, #60]
	mov	w11, #1
	lsl	w14, w11, w14
	bics	w14, w15, w14
	str	w14, [x12, #60]
	b.ne	LBB13_16
	lsr	x12, x13, #5
	ldr	w13, [x0, #56]
	lsl	w11, w11, w12
	bic	w11, w13, w11
	str	w11, [x0, #56]
LBB13_16:
	add	w11, w5, w1
	add	x11, x2, x11
	sub	x13, x11, #1
	lsr	w11, w13, #2
	ldr	x12, [x0, #24]
	lsr	w14, w4, #3
	and	x14, x14, #0x1ffffff8
	ldr	x15, [x12, x14]
	neg	w16, w4
	mov	x17, #-2
	ror	x16, x17, x16
	and	x15, x15, x16
	str	x15, [x12, x14]
	add	w12, w11, w9
	sub	w8, w12, w8
	ldr	x14, [x0, #24]
	lsr	w15, w8, #3
	and	x15, x15, #0x1ffffff8
	ldr	x16, [x14, x15]
	neg	w8, w8
	ror	x8, x17, x8
	and	x8, x16, x8
	str	x8, [x14, x15]
	ldr	x8, [x0]
	add	x8, x8, x10
	stp	x13, x3, [x8]
	tbnz	w13, #1, LBB13_18
	ldr	x8, [x0]
	add	x8, x8, w12, uxtw #3
	str	w9, [x8, #4]
LBB13_18:
	orr	w8, w11, #0x20
	clz	w8, w8
	mov	w12, #26
	sub	w12, w12, w8
	lsr	w8, w11, w12
	add	w11, w8, w12, lsl #5
	add	x13, x0, w11, uxtw #2
	ldr	w12, [x13, #144]
	str	w9, [x13, #144]
	ldr	x13, [x0]
	tbnz	w12, #31, LBB13_20
	orr	x8, x12, #0xffffffff00000000
	add	x10, x13, x10
	str	x8, [x10, #16]
	add	x8, x13, x12, lsl #3
	str	w9, [x8, #20]
	ret
LBB13_20:
	add	x9, x13, x10
	mov	x10, #-1
	str	x10, [x9, #16]
	lsr	x9, x11, #5
	ldr	w10, [x0, #56]
	add	x11, x0, x9, lsl #2
	ldr	w12, [x11, #60]
	mov	w13, #1
	lsl	w9, w13, w9
	orr	w9, w10, w9
	str	w9, [x0, #56]
	lsl	w8, w13, w8
	orr	w8, w12, w8
	str	w8, [x11, #60]
	ret
	.cfi_endproc
	.p2align	2
_tlsf_heap.fitting.merge_next.5:
	.cfi_startproc
	lsr	w8, w1, #2
	add	w9, w4, w2, lsr #2
	ldr	x10, [x0]
	add	x9, x10, w9, uxtw #3
	ldr	x9, [x9, #16]
	tbnz	x9, #63, LBB14_3
	lsr	x11, x9, #29
	and	x11, x11, #0x3fffffff8
	add	x11, x10, x11
	ldr	x12, [x11, #16]
	cmn	w9, #1
	b.eq	LBB14_5
	bfxil	x12, x9, #0, #32
	str	x12, [x11, #16]
	add	x10, x10, w9, uxtw #3
	ubfx	x9, x9, #32, #31
	str	w9, [x10, #20]
	b	LBB14_8
LBB14_3:
	orr	w11, w8, #0x20
	clz	w11, w11
	mov	w12, #26
	sub	w11, w12, w11
	lsr	w12, w8, w11
	add	w11, w12, w11, lsl #5
	cmn	w9, #1
	b.eq	LBB14_6
	ubfiz	x12, x9, #3, #32
	add	x10, x10, x12
	ldr	x12, [x10, #16]
	orr	x12, x12, #0xffffffff00000000
	str	x12, [x10, #16]
	add	x10, x0, x11, lsl #2
	str	w9, [x10, #144]
	b	LBB14_8
LBB14_5:
	orr	x9, x12, #0xffffffff
	str	x9, [x11, #16]
	b	LBB14_8
LBB14_6:
	add	x9, x0, x11, lsl #2
	mov	w10, #-1
	str	w10, [x9, #144]
	lsr	x9, x11, #3
	and	x9, x9, #0xffffffc
	add	x10, x0, x9
	ldr	w13, [x10, #60]
	mov	w9, #1
	lsl	w12, w9, w12
	bics	w12, w13, w12
	str	w12, [x10, #60]
	b.ne	LBB14_8
	lsr	x10, x11, #5
	ldr	w11, [x0, #56]
	lsl	w9, w9, w10
	bic	w9, w11, w9
	str	w9, [x0, #56]
LBB14_8:
	add	x12, x2, w1, uxtw
	lsr	w9, w12, #2
	add	w11, w9, w4
	sub	w8, w11, w8
	ldr	x10, [x0, #24]
	lsr	w13, w8, #3
	and	x13, x13, #0x1ffffff8
	ldr	x14, [x10, x13]
	neg	w8, w8
	mov	x15, #-2
	ror	x8, x15, x8
	and	x8, x14, x8
	str	x8, [x10, x13]
	ldr	x13, [x0]
	mov	w8, w4
	ubfiz	x10, x4, #3, #32
	add	x13, x13, x10
	stp	x12, x3, [x13]
	tbnz	w12, #1, LBB14_10
	ldr	x12, [x0]
	add	x11, x12, w11, uxtw #3
	str	w8, [x11, #4]
LBB14_10:
	orr	w11, w9, #0x20
	clz	w11, w11
	mov	w12, #26
	sub	w11, w12, w11
	lsr	w9, w9, w11
	add	w11, w9, w11, lsl #5
	add	x13, x0, w11, uxtw #2
	ldr	w12, [x13, #144]
	str	w4, [x13, #144]
	ldr	x13, [x0]
	tbnz	w12, #31, LBB14_12
	orr	x9, x12, #0xffffffff00000000
	add	x10, x13, x10
	str	x9, [x10, #16]
	add	x9, x13, x12, lsl #3
	str	w8, [x9, #20]
	ret
LBB14_12:
	add	x8, x13, x10
	mov	x10, #-1
	str	x10, [x8, #16]
	lsr	x8, x11, #5
	ldr	w10, [x0, #56]
	add	x11, x0, x8, lsl #2
	ldr	w12, [x11, #60]
	mov	w13, #1
	lsl	w8, w13, w8
	orr	w8, w10, w8
	str	w8, [x0, #56]
	lsl	w8, w13, w9
	orr	w8, w12, w8
	str	w8, [x11, #60]
	ret
	.cfi_endproc
	.p2align	2
_tlsf_heap.check.examine:
	.cfi_startproc
	ldr	w14, [x0, #8]
	sub	w9, w14, #4
	cmp	w1, w9
	b.hi	LBB15_26
	ldr	x8, [x0, #24]
	lsr	w10, w1, #3
	and	x10, x10, #0x1ffffff8
	ldr	x10, [x8, x10]
	lsr	x10, x10, x1
	tbz	w10, #0, LBB15_26
	ldr	x11, [x0]
	add	x12, x11, w1, uxtw #3
	ldr	x15, [x12]
	lsr	w13, w15, #2
	mov	x10, x1
	add	w1, w13, w1
	cmp	w15, #16
	ccmp	w1, w14, #2, hs
	b.hi	LBB15_26
	ubfx	x16, x15, #1, #1
	cmp	w1, w14
	cset	w17, eq
	eor	w16, w16, w17
	tbnz	w16, #0, LBB15_26
	lsr	x16, x15, #32
	cbz	w10, LBB15_8
	cmp	w9, w16
	b.lo	LBB15_26
	lsr	x17, x15, #35
	and	x17, x17, #0x1ffffff8
	ldr	x17, [x8, x17]
	lsr	x17, x17, x16
	tbz	w17, #0, LBB15_26
	ldr	x17, [x11, x16, lsl #3]
	add	w16, w16, w17, lsr #2
	cmp	w16, w10
	b.eq	LBB15_9
	b	LBB15_26
LBB15_8:
	mov	w17, #-1
	cmp	x16, x17
	b.ne	LBB15_26
LBB15_9:
	and	x15, x15, #0x1
	cmp	w1, w14
	b.hs	LBB15_13
	cmp	w1, w9
	b.hi	LBB15_26
	lsr	w14, w1, #3
	and	x14, x14, #0x1ffffff8
	ldr	x14, [x8, x14]
	lsr	x14, x14, x1
	tbz	w14, #0, LBB15_26
	ldr	x14, [x11, w1, uxtw #3]
	lsr	x16, x14, #32
	and	x14, x15, x14
	cmp	w10, w16
	ccmp	x14, #0, #0, eq
	b.ne	LBB15_26
LBB15_13:
	cbnz	x15, LBB15_15
	add	w8, w10, #2
	ldr	x8, [x11, w8, uxtw #3]
	ubfiz	x9, x13, #3, #32
	sub	x9, x9, #24
	cmp	x8, x9
	b.ls	LBB15_21
	b	LBB15_26
LBB15_15:
	ldr	x12, [x12, #16]
	cmn	w12, #1
	b.eq	LBB15_20
	cmp	w9, w12
	b.lo	LBB15_26
	lsr	x13, x12, #3
	and	x13, x13, #0x1ffffff8
	ldr	x13, [x8, x13]
	lsr	x13, x13, x12
	tbz	w13, #0, LBB15_26
	ubfiz	x13, x12, #3, #32
	add	x13, x11, x13
	ldrb	w14, [x13]
	tbz	w14, #0, LBB15_26
	ldr	w13, [x13, #20]
	cmp	w10, w13
	b.ne	LBB15_26
LBB15_20:
	lsr	x13, x12, #32
	mov	w14, #-1
	cmp	x13, x14
	b.ne	LBB15_22
LBB15_21:
	mov	w0, #1
	ret
LBB15_22:
	cmp	w9, w13
	b.lo	LBB15_26
	lsr	x9, x12, #35
	and	x9, x9, #0x1ffffff8
	ldr	x8, [x8, x9]
	lsr	x8, x8, x13
	tbz	w8, #0, LBB15_26
	add	x8, x11, x13, lsl #3
	ldr	x9, [x8]
	tbz	w9, #0, LBB15_26
	ldr	w8, [x8, #16]
	cmp	w10, w8
	b.eq	LBB15_21
LBB15_26:
	mov	w1, #0
	mov	w0, #0
	ret
	.cfi_endproc
	.p2align	2
_tlsf_post.take_end.TakeEnd.take_slice:
	.cfi_startproc
	ldp	x9, x8, [x0, #16]
	ldr	x10, [x0, #32]
	lsl	x11, x9, #1
	subs	x10, x10, x8
	csel	x11, x11, xzr, lo
	add	x10, x10, x11
	cmp	x10, x2
	b.hs	LBB16_2
	ldr	x8, [x0]
	add	x8, x8, #128
	; InlineAsm Start
	; InlineAsm End
	ldar	x10, [x8]
	; InlineAsm Start
	; InlineAsm End
	str	x10, [x0, #32]
	ldp	x9, x8, [x0, #16]
	lsl	x11, x9, #1
	subs	x10, x10, x8
	csel	x11, x11, xzr, lo
	add	x10, x10, x11
	cmp	x10, x2
	csel	x2, x10, x2, lo
LBB16_2:
	cbz	x2, LBB16_10
	cmp	x8, x9
	csel	x12, xzr, x9, lo
	sub	x11, x8, x12
	subs	x10, x9, x11
	cmp	x10, x2
	csel	x10, x10, x2, lo
	subs	x11, x9, x11
	b.eq	LBB16_6
	mov	w13, #24
	mul	x14, x8, x13
	msub	x12, x12, x13, x14
	mov	x13, x1
	mov	x14, x10
LBB16_5:
	ldr	x15, [x0, #8]
	add	x15, x15, x12
	ldr	q0, [x15]
	ldr	x15, [x15, #16]
	str	x15, [x13, #16]
	str	q0, [x13], #24
	add	x12, x12, #24
	subs	x14, x14, #1
	b.ne	LBB16_5
LBB16_6:
	cmp	x2, x11
	b.ls	LBB16_9
	mov	x11, #0
	mov	w13, #24
	sub	x12, x2, x10
	madd	x10, x10, x13, x1
LBB16_8:
	ldr	x13, [x0, #8]
	add	x13, x13, x11
	add	x14, x10, x11
	ldr	q0, [x13]
	ldr	x13, [x13, #16]
	str	x13, [x14, #16]
	str	q0, [x14]
	add	x11, x11, #24
	subs	x12, x12, #1
	b.ne	LBB16_8
LBB16_9:
	lsl	x9, x9, #1
	sub	x9, x9, x8
	cmp	x2, x9
	csneg	x8, x8, x9, lo
	add	x8, x8, x2
	ldr	x9, [x0]
	; InlineAsm Start
	; InlineAsm End
	stlr	x8, [x9]
	; InlineAsm Start
	; InlineAsm End
LBB16_10:
	str	x8, [x0, #24]
	mov	x0, x2
	ret
	.cfi_endproc
	.p2align	2
_tlsf_c.heap_calls.release_named:
	.cfi_startproc
	stp	x20, x19, [sp, #-32]!
	.cfi_def_cfa_offset 32
	stp	x29, x30, [sp, #16]
	add	x29, sp, #16
	.cfi_def_cfa w29, 16
	.cfi_offset w30, -8
	.cfi_offset w29, -16
	.cfi_offset w19, -24
	.cfi_offset w20, -32
	.cfi_remember_state
	ldrb	w8, [x0, #8]
	cbz	w8, LBB17_26
	ldr	x19, [x0]
	ldrb	w8, [x19]
	tbz	w8, #0, LBB17_26
	mov	x4, x3
	strb	wzr, [x19]
	ldrb	w9, [x19, #16]
	ldr	w8, [x19, #24]
	cmp	w1, w8
	cbz	w9, LBB17_11
	b.ne	LBB17_20
	ldr	w9, [x19, #56]
	mov	x8, x1
	cmp	w4, w9
	b.hs	LBB17_20
	ldr	x8, [x19, #72]
	lsr	w9, w4, #3
	and	x9, x9, #0x1ffffff8
	ldr	x8, [x8, x9]
	lsr	x9, x8, x4
	mov	x8, x1
	tbz	w9, #0, LBB17_20
	ldur	x11, [x19, #48]
	ubfiz	x9, x4, #3, #32
	add	x10, x11, x9
	ldr	x5, [x10]
	mov	x8, x1
	tbnz	w5, #0, LBB17_20
	ldr	x12, [x10, #8]
	mov	x8, x1
	cmp	x12, x2
	b.ne	LBB17_20
	ldr	x3, [x19, #32]
	cmn	x3, #1
	b.eq	LBB17_19
	lsr	w8, w5, #2
	ldr	w12, [x19, #40]
	sub	w12, w12, w8
	str	w12, [x19, #40]
	tbnz	w5, #1, LBB17_21
	add	w12, w8, w4
	ldr	x1, [x11, w12, uxtw #3]
	cbnz	w4, LBB17_22
	b	LBB17_23
LBB17_11:
	b.ne	LBB17_20
	ldr	w9, [x19, #56]
	mov	x8, x1
	cmp	w4, w9
	b.hs	LBB17_20
	ldr	x8, [x19, #72]
	lsr	w9, w4, #3
	and	x9, x9, #0x1ffffff8
	ldr	x8, [x8, x9]
	lsr	x9, x8, x4
	mov	x8, x1
	tbz	w9, #0, LBB17_20
	ldur	x11, [x19, #48]
	ubfiz	x9, x4, #3, #32
	add	x10, x11, x9
	ldr	x5, [x10]
	mov	x8, x1
	tbnz	w5, #0, LBB17_20
	ldr	x12, [x10, #8]
	mov	x8, x1
	cmp	x12, x2
	b.ne	LBB17_20
	ldr	x3, [x19, #32]
	cmn	x3, #1
	b.eq	LBB17_19
	lsr	w8, w5, #2
	ldr	w12, [x19, #40]
	sub	w12, w12, w8
	str	w12, [x19, #40]
	tbnz	w5, #1, LBB17_29
	add	w12, w8, w4
	ldr	x1, [x11, w12, uxtw #3]
	cbnz	w4, LBB17_30
	b	LBB17_31
LBB17_19:
	mov	w0, #2
	b	LBB17_38
LBB17_20:
	mov	x0, x1
	mov	x1, x8
	bl	_tlsf_heap.refusal.Refusal.of_name
	and	w8, w0, #0xff
	cmp	w8, #3
	mov	w8, #3
	cinc	w0, w8, eq
	b	LBB17_38
LBB17_21:
	mov	x1, #0
	cbz	w4, LBB17_23
LBB17_22:
	lsr	x12, x5, #29
	and	x12, x12, #0x7fffffff8
	ldr	x2, [x11, x12]
	tbnz	w2, #0, LBB17_28
LBB17_23:
	tbnz	w1, #0, LBB17_27
	orr	x11, x5, #0x1
	stp	x11, x3, [x10]
	ldr	x10, [x19, #32]
	add	x10, x10, #1
	str	x10, [x19, #32]
	orr	w10, w8, #0x20
	clz	w10, w10
	mov	w11, #26
	sub	w10, w11, w10
	lsr	w8, w8, w10
	add	w10, w8, w10, lsl #5
	add	x11, x19, w10, uxtw #2
	ldr	w12, [x11, #192]
	str	w4, [x11, #192]
	ldr	x11, [x19, #48]
	tbz	w12, #31, LBB17_33
	mov	w0, #0
	add	x9, x11, x9
	mov	x11, #-1
	str	x11, [x9, #16]
	lsr	x9, x10, #5
	ldr	w10, [x19, #104]
	add	x11, x19, x9, lsl #2
	mov	w12, #1
	lsl	w9, w12, w9
	orr	w9, w10, w9
	ldr	w10, [x11, #108]
	str	w9, [x19, #104]
	b	LBB17_37
LBB17_26:
	mov	w0, #0
	.cfi_def_cfa wsp, 32
	ldp	x29, x30, [sp, #16]
	ldp	x20, x19, [sp], #32
	.cfi_def_cfa_offset 0
	.cfi_restore w30
	.cfi_restore w29
	.cfi_restore w19
	.cfi_restore w20
	b	_tlsf_c.call_fault.CallFault.refusal
LBB17_27:
	.cfi_restore_state
	add	x8, x3, #1
	str	x8, [x19, #32]
	add	x0, x19, #48
	mov	x2, x5
	bl	_tlsf_heap.fitting.merge_next.5
	mov	w0, #0
	b	LBB17_38
LBB17_28:
	add	x8, x3, #1
	str	x8, [x19, #32]
	add	x0, x19, #48
	bl	_tlsf_heap.fitting.merge_before.5
	mov	w0, #0
	b	LBB17_38
LBB17_29:
	mov	x1, #0
	cbz	w4, LBB17_31
LBB17_30:
	lsr	x12, x5, #29
	and	x12, x12, #0x7fffffff8
	ldr	x2, [x11, x12]
	tbnz	w2, #0, LBB17_35
LBB17_31:
	tbnz	w1, #0, LBB17_34
	orr	x11, x5, #0x1
	stp	x11, x3, [x10]
	ldr	x10, [x19, #32]
	add	x10, x10, #1
	str	x10, [x19, #32]
	orr	w10, w8, #0x10
	clz	w10, w10
	mov	w11, #27
	sub	w10, w11, w10
	lsr	w8, w8, w10
	add	w10, w8, w10, lsl #4
	add	x11, x19, w10, uxtw #2
	ldr	w12, [x11, #192]
	str	w4, [x11, #192]
	ldr	x11, [x19, #48]
	tbnz	w12, #31, LBB17_36
LBB17_33:
	mov	w0, #0
	mov	w8, w4
	orr	x10, x12, #0xffffffff00000000
	add	x9, x11, x9
	str	x10, [x9, #16]
	add	x9, x11, x12, lsl #3
	str	w8, [x9, #20]
	b	LBB17_38
LBB17_34:
	add	x8, x3, #1
	str	x8, [x19, #32]
	add	x0, x19, #48
	mov	x2, x5
	bl	_tlsf_heap.fitting.merge_next.4
	mov	w0, #0
	b	LBB17_38
LBB17_35:
	add	x8, x3, #1
	str	x8, [x19, #32]
	add	x0, x19, #48
	bl	_tlsf_heap.fitting.merge_before.4
	mov	w0, #0
	b	LBB17_38
LBB17_36:
	mov	w0, #0
	add	x9, x11, x9
	mov	x11, #-1
	str	x11, [x9, #16]
	lsr	x9, x10, #4
	ldr	w10, [x19, #104]
	add	x11, x19, x9, lsl #2
	mov	w12, #1
	lsl	w9, w12, w9
	orr	w9, w10, w9
	ldr	w10, [x11, #108]
	str	w9, [x19, #104]
	and	w8, w8, #0xf
LBB17_37:
	lsl	w8, w12, w8
	orr	w8, w10, w8
	str	w8, [x11, #108]
LBB17_38:
	mov	w8, #1
	strb	w8, [x19]
	.cfi_def_cfa wsp, 32
	ldp	x29, x30, [sp, #16]
	ldp	x20, x19, [sp], #32
	.cfi_def_cfa_offset 0
	.cfi_restore w30
	.cfi_restore w29
	.cfi_restore w19
	.cfi_restore w20
	ret
	.cfi_endproc
	.p2align	2
_tlsf_heap.refusal.Refusal.of_name:
	.cfi_startproc
	cmp	w0, w1
	mov	w8, #2
	cinc	w0, w8, eq
	ret
	.cfi_endproc
	.p2align	2
_std_alloc.boxed.Box.new.91a8e04f462e8cea:
	.cfi_startproc
	sub	sp, sp, #96
	.cfi_def_cfa_offset 96
	stp	x22, x21, [sp, #48]
	stp	x20, x19, [sp, #64]
	stp	x29, x30, [sp, #80]
	add	x29, sp, #80
	.cfi_def_cfa w29, 16
	.cfi_offset w30, -8
	.cfi_offset w29, -16
	.cfi_offset w19, -24
	.cfi_offset w20, -32
	.cfi_offset w21, -40
	.cfi_offset w22, -48
	mov	x19, x0
	ldrb	w20, [x1]
	ldrb	w21, [x1, #1]
	ldur	q0, [x1, #8]
	ldur	q1, [x1, #24]
	stp	q0, q1, [sp]
	ldr	x8, [x1, #40]
	str	x8, [sp, #32]
	mov	w0, #48
	mov	w1, #8
	bl	_tlsf_memory_alloc
	tbz	w0, #0, LBB19_2
	mov	x8, #0
	strb	w20, [x1]
	strb	w21, [x1, #1]
	ldp	q0, q1, [sp]
	stur	q0, [x1, #8]
	stur	q1, [x1, #24]
	ldr	x9, [sp, #32]
	str	x9, [x1, #40]
	str	xzr, [x19, #48]
	movi.2d	v0, #0000000000000000
	stp	q0, q0, [x19, #16]
	b	LBB19_3
LBB19_2:
	orr	x1, x20, x21, lsl #8
	ldp	q0, q1, [sp]
	stp	q0, q1, [x19, #16]
	ldr	x8, [sp, #32]
	str	x8, [x19, #48]
	mov	w8, #1
LBB19_3:
	stp	x8, x1, [x19]
	.cfi_def_cfa wsp, 96
	ldp	x29, x30, [sp, #80]
	ldp	x20, x19, [sp, #64]
	ldp	x22, x21, [sp, #48]
	add	sp, sp, #96
	.cfi_def_cfa_offset 0
	.cfi_restore w30
	.cfi_restore w29
	.cfi_restore w19
	.cfi_restore w20
	.cfi_restore w21
	.cfi_restore w22
	ret
	.cfi_endproc
	.p2align	2
_rtrb.release.drop_slow.23d795680250cb0d:
	.cfi_startproc
	stp	x20, x19, [sp, #-32]!
	.cfi_def_cfa_offset 32
	stp	x29, x30, [sp, #16]
	add	x29, sp, #16
	.cfi_def_cfa w29, 16
	.cfi_offset w30, -8
	.cfi_offset w29, -16
	.cfi_offset w19, -24
	.cfi_offset w20, -32
	mov	x19, x0
	; InlineAsm Start
	; InlineAsm End
	ldar	x8, [x0]
	; InlineAsm Start
	; InlineAsm End
	add	x9, x0, #128
	; InlineAsm Start
	; InlineAsm End
	ldar	x9, [x9]
	; InlineAsm Start
	; InlineAsm End
	cmp	x8, x9
	b.eq	LBB20_3
	lsl	x10, x2, #1
	sub	x10, x10, #1
LBB20_2:
	cmp	x8, x10
	csinc	x8, xzr, x8, hs
	; InlineAsm Start
	; InlineAsm End
	stlr	x8, [x19]
	; InlineAsm Start
	; InlineAsm End
	cmp	x8, x9
	b.ne	LBB20_2
LBB20_3:
	mov	x0, x1
	bl	_tlsf_memory_dealloc
	mov	x0, x19
	.cfi_def_cfa wsp, 32
	ldp	x29, x30, [sp, #16]
	ldp	x20, x19, [sp], #32
	.cfi_def_cfa_offset 0
	.cfi_restore w30
	.cfi_restore w29
	.cfi_restore w19
	.cfi_restore w20
	b	_tlsf_memory_dealloc
	.cfi_endproc
	.p2align	2
_std_alloc.vec.Vec.drop.7ac45d8413b9ad54:
	.cfi_startproc
	sub	sp, sp, #176
	.cfi_def_cfa_offset 176
	stp	x26, x25, [sp, #96]
	stp	x24, x23, [sp, #112]
	stp	x22, x21, [sp, #128]
	stp	x20, x19, [sp, #144]
	stp	x29, x30, [sp, #160]
	add	x29, sp, #160
	.cfi_def_cfa w29, 16
	.cfi_offset w30, -8
	.cfi_offset w29, -16
	.cfi_offset w19, -24
	.cfi_offset w20, -32
	.cfi_offset w21, -40
	.cfi_offset w22, -48
	.cfi_offset w23, -56
	.cfi_offset w24, -64
	.cfi_offset w25, -72
	.cfi_offset w26, -80
	.cfi_remember_state
	ldp	x19, x21, [x0]
	ldr	x20, [x0, #16]
	cbz	x21, LBB21_3
	add	x22, sp, #2
	add	x23, sp, #48
	mov	x24, x19
LBB21_2:
	ldr	x0, [x24], #8
	ldrh	w25, [x0]
	ldur	q0, [x0, #8]
	stur	q0, [x22, #6]
	ldur	q0, [x0, #24]
	stur	q0, [x22, #22]
	ldr	x8, [x0, #40]
	stur	x8, [x22, #38]
	bl	_tlsf_memory_dealloc
	str	xzr, [sp, #48]
	strh	w25, [sp, #48]
	ldur	q0, [x22, #6]
	stur	q0, [x23, #8]
	ldur	q0, [x22, #22]
	stur	q0, [x23, #24]
	ldur	x8, [x22, #38]
	stur	x8, [x23, #40]
	add	x0, sp, #48
	bl	_tlsf_c.tlsf_c.any_end.AnyEnd.Destruct.drop
	subs	x21, x21, #1
	b.ne	LBB21_2
LBB21_3:
	cbz	x20, LBB21_5
	mov	x0, x19
	.cfi_def_cfa wsp, 176
	ldp	x29, x30, [sp, #160]
	ldp	x20, x19, [sp, #144]
	ldp	x22, x21, [sp, #128]
	ldp	x24, x23, [sp, #112]
	ldp	x26, x25, [sp, #96]
	add	sp, sp, #176
	.cfi_def_cfa_offset 0
	.cfi_restore w30
	.cfi_restore w29
	.cfi_restore w19
	.cfi_restore w20
	.cfi_restore w21
	.cfi_restore w22
	.cfi_restore w23
	.cfi_restore w24
	.cfi_restore w25
	.cfi_restore w26
	b	_tlsf_memory_dealloc
LBB21_5:
	.cfi_restore_state
	.cfi_def_cfa wsp, 176
	ldp	x29, x30, [sp, #160]
	ldp	x20, x19, [sp, #144]
	ldp	x22, x21, [sp, #128]
	ldp	x24, x23, [sp, #112]
	ldp	x26, x25, [sp, #96]
	add	sp, sp, #176
	.cfi_def_cfa_offset 0
	.cfi_restore w30
	.cfi_restore w29
	.cfi_restore w19
	.cfi_restore w20
	.cfi_restore w21
	.cfi_restore w22
	.cfi_restore w23
	.cfi_restore w24
	.cfi_restore w25
	.cfi_restore w26
	ret
	.cfi_endproc
	.p2align	2
_std_alloc.arc.Arc.drop.c4a047e811255370:
	.cfi_startproc
	; InlineAsm Start
	; InlineAsm End
	mov	x8, #-1
	ldaddal	x8, x8, [x0]
	; InlineAsm Start
	; InlineAsm End
	cmp	x8, #1
	b.ne	LBB22_2
	stp	x20, x19, [sp, #-32]!
	.cfi_def_cfa_offset 32
	stp	x29, x30, [sp, #16]
	add	x29, sp, #16
	.cfi_def_cfa w29, 16
	.cfi_offset w30, -8
	.cfi_offset w29, -16
	.cfi_offset w19, -24
	.cfi_offset w20, -32
	ldr	x19, [x0, #40]
	ldr	x20, [x0, #56]
	bl	_tlsf_memory_dealloc
	mov	x0, x19
	bl	_tlsf_memory_dealloc
	mov	x0, x20
	.cfi_def_cfa wsp, 32
	ldp	x29, x30, [sp, #16]
	ldp	x20, x19, [sp], #32
	.cfi_def_cfa_offset 0
	.cfi_restore w30
	.cfi_restore w29
	.cfi_restore w19
	.cfi_restore w20
	b	_tlsf_memory_dealloc
LBB22_2:
	ret
	.cfi_endproc
	.p2align	2
_std_alloc.boxed.Box.drop.7d8ec8058c3633cd:
	.cfi_startproc
	sub	sp, sp, #128
	.cfi_def_cfa_offset 128
	stp	x20, x19, [sp, #96]
	stp	x29, x30, [sp, #112]
	add	x29, sp, #112
	.cfi_def_cfa w29, 16
	.cfi_offset w30, -8
	.cfi_offset w29, -16
	.cfi_offset w19, -24
	.cfi_offset w20, -32
	ldrh	w19, [x0]
	ldur	q0, [x0, #8]
	ldur	q1, [x0, #24]
	stp	q0, q1, [sp]
	ldr	x8, [x0, #40]
	str	x8, [sp, #32]
	bl	_tlsf_memory_dealloc
	str	xzr, [sp, #48]
	strh	w19, [sp, #48]
	ldp	q0, q1, [sp]
	stur	q0, [sp, #56]
	stur	q1, [sp, #72]
	ldr	x8, [sp, #32]
	str	x8, [sp, #88]
	add	x0, sp, #48
	bl	_tlsf_c.tlsf_c.any_end.AnyEnd.Destruct.drop
	.cfi_def_cfa wsp, 128
	ldp	x29, x30, [sp, #112]
	ldp	x20, x19, [sp, #96]
	add	sp, sp, #128
	.cfi_def_cfa_offset 0
	.cfi_restore w30
	.cfi_restore w29
	.cfi_restore w19
	.cfi_restore w20
	ret
	.cfi_endproc
	.p2align	2
_tlsf_c.tlsf_c.any_end.AnyEnd.Destruct.drop:
	.cfi_startproc
	sub	sp, sp, #176
	.cfi_def_cfa_offset 176
	stp	x26, x25, [sp, #96]
	stp	x24, x23, [sp, #112]
	stp	x22, x21, [sp, #128]
	stp	x20, x19, [sp, #144]
	stp	x29, x30, [sp, #160]
	add	x29, sp, #160
	.cfi_def_cfa w29, 16
	.cfi_offset w30, -8
	.cfi_offset w29, -16
	.cfi_offset w19, -24
	.cfi_offset w20, -32
	.cfi_offset w21, -40
	.cfi_offset w22, -48
	.cfi_offset w23, -56
	.cfi_offset w24, -64
	.cfi_offset w25, -72
	.cfi_offset w26, -80
	.cfi_remember_state
	mov	x8, x0
	ldrb	w9, [x0]
	ldr	x0, [x0, #8]
	ldr	x19, [x8, #24]
	cmp	w9, #1
	b.gt	LBB24_3
	ldr	x1, [x8, #16]
	add	x8, x0, #256
	cbnz	w9, LBB24_11
	; InlineAsm Start
	; InlineAsm End
	mov	w9, #1
	swpal	x9, x8, [x8]
	; InlineAsm Start
	; InlineAsm End
	cbnz	x8, LBB24_12
	b	LBB24_16
LBB24_3:
	cmp	w9, #2
	b.ne	LBB24_13
	ldp	x23, x22, [x8, #32]
	; InlineAsm Start
	; InlineAsm End
	mov	x8, #-1
	ldaddal	x8, x8, [x0]
	; InlineAsm Start
	; InlineAsm End
	cmp	x8, #1
	b.ne	LBB24_6
	ldr	x20, [x0, #40]
	ldr	x21, [x0, #56]
	bl	_tlsf_memory_dealloc
	mov	x0, x20
	bl	_tlsf_memory_dealloc
	mov	x0, x21
	bl	_tlsf_memory_dealloc
LBB24_6:
	cbz	x23, LBB24_9
	add	x20, sp, #2
	add	x21, sp, #48
	mov	x24, x19
LBB24_8:
	ldr	x0, [x24], #8
	ldrh	w25, [x0]
	ldur	q0, [x0, #8]
	stur	q0, [x20, #6]
	ldur	q0, [x0, #24]
	stur	q0, [x20, #22]
	ldr	x8, [x0, #40]
	stur	x8, [x20, #38]
	bl	_tlsf_memory_dealloc
	str	xzr, [sp, #48]
	strh	w25, [sp, #48]
	ldur	q0, [x20, #6]
	stur	q0, [x21, #8]
	ldur	q0, [x20, #22]
	stur	q0, [x21, #24]
	ldur	x8, [x20, #38]
	stur	x8, [x21, #40]
	add	x0, sp, #48
	bl	_tlsf_c.tlsf_c.any_end.AnyEnd.Destruct.drop
	subs	x23, x23, #1
	b.ne	LBB24_8
LBB24_9:
	cbz	x22, LBB24_16
	mov	x0, x19
	.cfi_def_cfa wsp, 176
	b	LBB24_15
LBB24_11:
	.cfi_restore_state
	.cfi_remember_state
	; InlineAsm Start
	; InlineAsm End
	mov	w9, #1
	swpal	x9, x8, [x8]
	; InlineAsm Start
	; InlineAsm End
	cbz	x8, LBB24_16
LBB24_12:
	mov	x2, x19
	.cfi_def_cfa wsp, 176
	ldp	x29, x30, [sp, #160]
	ldp	x20, x19, [sp, #144]
	ldp	x22, x21, [sp, #128]
	ldp	x24, x23, [sp, #112]
	ldp	x26, x25, [sp, #96]
	add	sp, sp, #176
	.cfi_def_cfa_offset 0
	.cfi_restore w30
	.cfi_restore w29
	.cfi_restore w19
	.cfi_restore w20
	.cfi_restore w21
	.cfi_restore w22
	.cfi_restore w23
	.cfi_restore w24
	.cfi_restore w25
	.cfi_restore w26
	b	_rtrb.release.drop_slow.23d795680250cb0d
LBB24_13:
	.cfi_restore_state
	.cfi_remember_state
	; InlineAsm Start
	; InlineAsm End
	mov	x8, #-1
	ldaddal	x8, x8, [x0]
	; InlineAsm Start
	; InlineAsm End
	cmp	x8, #1
	b.ne	LBB24_16
	ldr	x19, [x0, #40]
	ldr	x20, [x0, #56]
	bl	_tlsf_memory_dealloc
	mov	x0, x19
	bl	_tlsf_memory_dealloc
	mov	x0, x20
	.cfi_def_cfa wsp, 176
LBB24_15:
	ldp	x29, x30, [sp, #160]
	ldp	x20, x19, [sp, #144]
	ldp	x22, x21, [sp, #128]
	ldp	x24, x23, [sp, #112]
	ldp	x26, x25, [sp, #96]
	add	sp, sp, #176
	.cfi_def_cfa_offset 0
	.cfi_restore w30
	.cfi_restore w29
	.cfi_restore w19
	.cfi_restore w20
	.cfi_restore w21
	.cfi_restore w22
	.cfi_restore w23
	.cfi_restore w24
	.cfi_restore w25
	.cfi_restore w26
	b	_tlsf_memory_dealloc
LBB24_16:
	.cfi_restore_state
	.cfi_def_cfa wsp, 176
	ldp	x29, x30, [sp, #160]
	ldp	x20, x19, [sp, #144]
	ldp	x22, x21, [sp, #128]
	ldp	x24, x23, [sp, #112]
	ldp	x26, x25, [sp, #96]
	add	sp, sp, #176
	.cfi_def_cfa_offset 0
	.cfi_restore w30
	.cfi_restore w29
	.cfi_restore w19
	.cfi_restore w20
	.cfi_restore w21
	.cfi_restore w22
	.cfi_restore w23
	.cfi_restore w24
	.cfi_restore w25
	.cfi_restore w26
	ret
	.cfi_endproc
	.p2align	2
_tlsf_c.arena_slot.ArenaSlot.close:
	.cfi_startproc
	ldrb	w8, [x0, #8]
	cbz	w8, LBB25_11
	ldr	x8, [x0]
	ldrb	w9, [x8, #1]
	cmp	w9, #1
	b.ne	LBB25_11
	sub	sp, sp, #128
	.cfi_def_cfa_offset 128
	stp	x24, x23, [sp, #64]
	stp	x22, x21, [sp, #80]
	stp	x20, x19, [sp, #96]
	stp	x29, x30, [sp, #112]
	add	x29, sp, #112
	.cfi_def_cfa w29, 16
	.cfi_offset w30, -8
	.cfi_offset w29, -16
	.cfi_offset w19, -24
	.cfi_offset w20, -32
	.cfi_offset w21, -40
	.cfi_offset w22, -48
	.cfi_offset w23, -56
	.cfi_offset w24, -64
	strb	wzr, [x8, #1]
	ldr	x8, [x0]
	stp	xzr, xzr, [x0]
	ldrb	w24, [x8]
	ldrb	w22, [x8, #8]
	ldr	q0, [x8, #16]
	str	q0, [sp]
	ldp	x9, x20, [x8, #32]
	str	x9, [sp, #16]
	ldp	x23, x19, [x8, #56]
	ldr	x21, [x8, #80]
	mov	x0, x8
	bl	_tlsf_memory_dealloc
	cbz	w24, LBB25_5
	mov	x8, sp
	orr	x8, x8, #0x8
	cbz	w22, LBB25_9
	ldr	q0, [x8]
	str	q0, [sp, #32]
	str	x20, [sp, #48]
	add	x0, sp, #32
	bl	_std_alloc.vec.Vec.drop.1d6c342d5cae5f6b
	b	LBB25_10
LBB25_5:
	cbz	x23, LBB25_7
	mov	x0, x20
	bl	_tlsf_memory_dealloc
LBB25_7:
	cbz	x21, LBB25_10
	mov	x0, x19
	bl	_tlsf_memory_dealloc
	b	LBB25_10
LBB25_9:
	ldr	q0, [x8]
	str	q0, [sp, #32]
	str	x20, [sp, #48]
	add	x0, sp, #32
	bl	_std_alloc.vec.Vec.drop.01e19ae241269710
LBB25_10:
	.cfi_def_cfa wsp, 128
	ldp	x29, x30, [sp, #112]
	ldp	x20, x19, [sp, #96]
	ldp	x22, x21, [sp, #80]
	ldp	x24, x23, [sp, #64]
	add	sp, sp, #128
	.cfi_def_cfa_offset 0
	.cfi_restore w30
	.cfi_restore w29
	.cfi_restore w19
	.cfi_restore w20
	.cfi_restore w21
	.cfi_restore w22
	.cfi_restore w23
	.cfi_restore w24
LBB25_11:
	ret
	.cfi_endproc
	.p2align	2
_std_alloc.vec.Vec.drop.01e19ae241269710:
	.cfi_startproc
	stp	x28, x27, [sp, #-96]!
	.cfi_def_cfa_offset 96
	stp	x26, x25, [sp, #16]
	stp	x24, x23, [sp, #32]
	stp	x22, x21, [sp, #48]
	stp	x20, x19, [sp, #64]
	stp	x29, x30, [sp, #80]
	add	x29, sp, #80
	.cfi_def_cfa w29, 16
	.cfi_offset w30, -8
	.cfi_offset w29, -16
	.cfi_offset w19, -24
	.cfi_offset w20, -32
	.cfi_offset w21, -40
	.cfi_offset w22, -48
	.cfi_offset w23, -56
	.cfi_offset w24, -64
	.cfi_offset w25, -72
	.cfi_offset w26, -80
	.cfi_offset w27, -88
	.cfi_offset w28, -96
	.cfi_remember_state
	ldp	x19, x24, [x0]
	ldr	x23, [x0, #16]
	cbz	x24, LBB26_11
	mov	x25, x19
	b	LBB26_3
LBB26_2:
	add	x25, x25, #2792
	subs	x24, x24, #1
	b.eq	LBB26_11
LBB26_3:
	ldp	x8, x22, [x25, #40]
	ldr	x28, [x25, #64]
	ldr	x21, [x25, #2736]
	ldr	x27, [x25, #2752]
	ldr	x20, [x25, #2768]
	ldr	x26, [x25, #2784]
	cbz	x8, LBB26_5
	ldr	x0, [x25, #24]
	bl	_tlsf_memory_dealloc
LBB26_5:
	cbz	x28, LBB26_7
	mov	x0, x22
	bl	_tlsf_memory_dealloc
LBB26_7:
	cbz	x27, LBB26_9
	mov	x0, x21
	bl	_tlsf_memory_dealloc
LBB26_9:
	cbz	x26, LBB26_2
	mov	x0, x20
	bl	_tlsf_memory_dealloc
	b	LBB26_2
LBB26_11:
	cbz	x23, LBB26_13
	mov	x0, x19
	.cfi_def_cfa wsp, 96
	ldp	x29, x30, [sp, #80]
	ldp	x20, x19, [sp, #64]
	ldp	x22, x21, [sp, #48]
	ldp	x24, x23, [sp, #32]
	ldp	x26, x25, [sp, #16]
	ldp	x28, x27, [sp], #96
	.cfi_def_cfa_offset 0
	.cfi_restore w30
	.cfi_restore w29
	.cfi_restore w19
	.cfi_restore w20
	.cfi_restore w21
	.cfi_restore w22
	.cfi_restore w23
	.cfi_restore w24
	.cfi_restore w25
	.cfi_restore w26
	.cfi_restore w27
	.cfi_restore w28
	b	_tlsf_memory_dealloc
LBB26_13:
	.cfi_restore_state
	.cfi_def_cfa wsp, 96
	ldp	x29, x30, [sp, #80]
	ldp	x20, x19, [sp, #64]
	ldp	x22, x21, [sp, #48]
	ldp	x24, x23, [sp, #32]
	ldp	x26, x25, [sp, #16]
	ldp	x28, x27, [sp], #96
	.cfi_def_cfa_offset 0
	.cfi_restore w30
	.cfi_restore w29
	.cfi_restore w19
	.cfi_restore w20
	.cfi_restore w21
	.cfi_restore w22
	.cfi_restore w23
	.cfi_restore w24
	.cfi_restore w25
	.cfi_restore w26
	.cfi_restore w27
	.cfi_restore w28
	ret
	.cfi_endproc
	.p2align	2
_std_alloc.vec.Vec.drop.1d6c342d5cae5f6b:
	.cfi_startproc
	stp	x28, x27, [sp, #-96]!
	.cfi_def_cfa_offset 96
	stp	x26, x25, [sp, #16]
	stp	x24, x23, [sp, #32]
	stp	x22, x21, [sp, #48]
	stp	x20, x19, [sp, #64]
	stp	x29, x30, [sp, #80]
	add	x29, sp, #80
	.cfi_def_cfa w29, 16
	.cfi_offset w30, -8
	.cfi_offset w29, -16
	.cfi_offset w19, -24
	.cfi_offset w20, -32
	.cfi_offset w21, -40
	.cfi_offset w22, -48
	.cfi_offset w23, -56
	.cfi_offset w24, -64
	.cfi_offset w25, -72
	.cfi_offset w26, -80
	.cfi_offset w27, -88
	.cfi_offset w28, -96
	.cfi_remember_state
	ldp	x19, x24, [x0]
	ldr	x23, [x0, #16]
	cbz	x24, LBB27_11
	mov	x25, x19
	b	LBB27_3
LBB27_2:
	add	x25, x25, #2792
	subs	x24, x24, #1
	b.eq	LBB27_11
LBB27_3:
	ldp	x8, x22, [x25, #40]
	ldr	x28, [x25, #64]
	ldr	x21, [x25, #2736]
	ldr	x27, [x25, #2752]
	ldr	x20, [x25, #2768]
	ldr	x26, [x25, #2784]
	cbz	x8, LBB27_5
	ldr	x0, [x25, #24]
	bl	_tlsf_memory_dealloc
LBB27_5:
	cbz	x28, LBB27_7
	mov	x0, x22
	bl	_tlsf_memory_dealloc
LBB27_7:
	cbz	x27, LBB27_9
	mov	x0, x21
	bl	_tlsf_memory_dealloc
LBB27_9:
	cbz	x26, LBB27_2
	mov	x0, x20
	bl	_tlsf_memory_dealloc
	b	LBB27_2
LBB27_11:
	cbz	x23, LBB27_13
	mov	x0, x19
	.cfi_def_cfa wsp, 96
	ldp	x29, x30, [sp, #80]
	ldp	x20, x19, [sp, #64]
	ldp	x22, x21, [sp, #48]
	ldp	x24, x23, [sp, #32]
	ldp	x26, x25, [sp, #16]
	ldp	x28, x27, [sp], #96
	.cfi_def_cfa_offset 0
	.cfi_restore w30
	.cfi_restore w29
	.cfi_restore w19
	.cfi_restore w20
	.cfi_restore w21
	.cfi_restore w22
	.cfi_restore w23
	.cfi_restore w24
	.cfi_restore w25
	.cfi_restore w26
	.cfi_restore w27
	.cfi_restore w28
	b	_tlsf_memory_dealloc
LBB27_13:
	.cfi_restore_state
	.cfi_def_cfa wsp, 96
	ldp	x29, x30, [sp, #80]
	ldp	x20, x19, [sp, #64]
	ldp	x22, x21, [sp, #48]
	ldp	x24, x23, [sp, #32]
	ldp	x26, x25, [sp, #16]
	ldp	x28, x27, [sp], #96
	.cfi_def_cfa_offset 0
	.cfi_restore w30
	.cfi_restore w29
	.cfi_restore w19
	.cfi_restore w20
	.cfi_restore w21
	.cfi_restore w22
	.cfi_restore w23
	.cfi_restore w24
	.cfi_restore w25
	.cfi_restore w26
	.cfi_restore w27
	.cfi_restore w28
	ret
	.cfi_endproc
	.p2align	2
_std_alloc.vec.Vec.grow_amortized.1345b5ed95b64201:
	.cfi_startproc
	ldr	x8, [x0, #8]
	cmn	x8, x1
	b.lo	LBB28_2
	mov	w0, #0
	ret
LBB28_2:
	stp	x20, x19, [sp, #-32]!
	.cfi_def_cfa_offset 32
	stp	x29, x30, [sp, #16]
	add	x29, sp, #16
	.cfi_def_cfa w29, 16
	.cfi_offset w30, -8
	.cfi_offset w29, -16
	.cfi_offset w19, -24
	.cfi_offset w20, -32
	ldr	x9, [x0, #16]
	add	x10, x8, x1
	mov	w11, #4
	cmp	x10, #4
	csel	x11, x10, x11, hi
	lsl	x10, x9, #1
	cmp	x11, x10
	csel	x10, x11, x10, hi
	lsr	x12, x9, #62
	cmp	x12, #0
	csel	x19, x10, x11, eq
	lsr	x11, x19, #60
	cbnz	x11, LBB28_7
	cbz	x9, LBB28_6
	mov	x20, x0
	ldr	x0, [x0]
	lsl	x1, x8, #3
	lsl	x2, x19, #3
	mov	w3, #8
	bl	_tlsf_memory_realloc
	tbz	w0, #0, LBB28_7
LBB28_5:
	str	x1, [x20]
	str	x19, [x20, #16]
	mov	w0, #1
	b	LBB28_8
LBB28_6:
	mov	x20, x0
	lsl	x0, x10, #3
	mov	w1, #8
	bl	_tlsf_memory_alloc
	tbnz	w0, #0, LBB28_5
LBB28_7:
	mov	w0, #0
LBB28_8:
	.cfi_def_cfa wsp, 32
	ldp	x29, x30, [sp, #16]
	ldp	x20, x19, [sp], #32
	.cfi_def_cfa_offset 0
	.cfi_restore w30
	.cfi_restore w29
	.cfi_restore w19
	.cfi_restore w20
	ret
	.cfi_endproc
	.p2align	2
_tlsf_words.words.Words.lengthen:
	.cfi_startproc
	stp	x24, x23, [sp, #-64]!
	.cfi_def_cfa_offset 64
	stp	x22, x21, [sp, #16]
	stp	x20, x19, [sp, #32]
	stp	x29, x30, [sp, #48]
	add	x29, sp, #48
	.cfi_def_cfa w29, 16
	.cfi_offset w30, -8
	.cfi_offset w29, -16
	.cfi_offset w19, -24
	.cfi_offset w20, -32
	.cfi_offset w21, -40
	.cfi_offset w22, -48
	.cfi_offset w23, -56
	.cfi_offset w24, -64
	.cfi_remember_state
	mov	x19, x1
	mov	x20, x0
	mov	w9, w1
	ldr	x8, [x0, #8]
	subs	x21, x9, x8
	b.ls	LBB29_5
	ldr	x22, [x20, #16]
	sub	x9, x22, x8
	cmp	x21, x9
	b.hi	LBB29_17
	ldr	x24, [x20]
	add	x23, x8, x21
	cmp	x8, x23
	b.hs	LBB29_4
LBB29_3:
	lsl	x1, x21, #3
	add	x0, x24, x8, lsl #3
	bl	_bzero
LBB29_4:
	stp	x24, x23, [x20]
	str	x22, [x20, #16]
	b	LBB29_7
LBB29_5:
	b.hs	LBB29_7
	str	x9, [x20, #8]
LBB29_7:
	ldr	x8, [x20, #32]
	cbz	x8, LBB29_9
	str	xzr, [x20, #32]
LBB29_9:
	lsr	w8, w19, #6
	tst	w19, #0x3f
	cinc	w21, w8, ne
	cbz	w19, LBB29_14
	ldr	x22, [x20, #40]
	cmp	x22, x21
	b.lo	LBB29_15
	mov	x8, #0
	ldr	x24, [x20, #24]
	add	x23, x8, x21
	cmp	x8, x23
	b.hs	LBB29_13
LBB29_12:
	lsl	x1, x21, #3
	add	x0, x24, x8, lsl #3
	bl	_bzero
LBB29_13:
	stp	x24, x23, [x20, #24]
	str	x22, [x20, #40]
LBB29_14:
	str	w19, [x20, #48]
	.cfi_def_cfa wsp, 64
	ldp	x29, x30, [sp, #48]
	ldp	x20, x19, [sp, #32]
	ldp	x22, x21, [sp, #16]
	ldp	x24, x23, [sp], #64
	.cfi_def_cfa_offset 0
	.cfi_restore w30
	.cfi_restore w29
	.cfi_restore w19
	.cfi_restore w20
	.cfi_restore w21
	.cfi_restore w22
	.cfi_restore w23
	.cfi_restore w24
	ret
LBB29_15:
	.cfi_restore_state
	add	x0, x20, #24
	mov	x1, x21
	bl	_std_alloc.vec.Vec.grow_amortized.1345b5ed95b64201
	cbz	w0, LBB29_19
	ldp	x8, x22, [x20, #32]
	ldr	x24, [x20, #24]
	add	x23, x8, x21
	cmp	x8, x23
	b.lo	LBB29_12
	b	LBB29_13
LBB29_17:
	mov	x0, x20
	mov	x1, x21
	bl	_std_alloc.vec.Vec.grow_amortized.1345b5ed95b64201
	cbz	w0, LBB29_19
	ldp	x8, x22, [x20, #8]
	ldr	x24, [x20]
	add	x23, x8, x21
	cmp	x8, x23
	b.lo	LBB29_3
	b	LBB29_4
LBB29_19:
	brk	#0x1
	.cfi_endproc
	.p2align	2
_tlsf_pool.sizes.split.rising_split.4:
	.cfi_startproc
	stp	x28, x27, [sp, #-96]!
	.cfi_def_cfa_offset 96
	stp	x26, x25, [sp, #16]
	stp	x24, x23, [sp, #32]
	stp	x22, x21, [sp, #48]
	stp	x20, x19, [sp, #64]
	stp	x29, x30, [sp, #80]
	add	x29, sp, #80
	.cfi_def_cfa w29, 16
	.cfi_offset w30, -8
	.cfi_offset w29, -16
	.cfi_offset w19, -24
	.cfi_offset w20, -32
	.cfi_offset w21, -40
	.cfi_offset w22, -48
	.cfi_offset w23, -56
	.cfi_offset w24, -64
	.cfi_offset w25, -72
	.cfi_offset w26, -80
	.cfi_offset w27, -88
	.cfi_offset w28, -96
	sub	sp, sp, #1456
	mov	x20, x2
	mov	x21, x1
	mov	x19, x0
	cmp	x2, #2
	b.lo	LBB30_5
	sub	x8, x20, #1
	add	x9, x21, #12
LBB30_2:
	ldr	w10, [x9]
	ldur	w11, [x9, #-8]
	cmp	w10, w11
	b.ls	LBB30_55
	add	x9, x9, #8
	subs	x8, x8, #1
	b.ne	LBB30_2
	add	x0, sp, #60
	mov	w1, #1300
	bl	_bzero
	b	LBB30_6
LBB30_5:
	add	x0, sp, #60
	mov	w1, #1300
	bl	_bzero
	cbz	x20, LBB30_56
LBB30_6:
	str	x19, [sp]
	sub	x23, x29, #176
	add	x8, x20, x20, lsl #2
	lsl	x22, x8, #2
	add	x19, sp, #60
	add	x0, sp, #60
	mov	x1, x22
	bl	_bzero
	mov	x10, #0
	add	x8, x19, x22
	mov	w9, #1
	str	w9, [x8]
	sub	x11, x29, #132
	stur	xzr, [x8, #12]
	sub	x9, x29, #112
	add	x9, x9, #5
	str	x9, [sp, #48]
	stur	xzr, [x8, #4]
	sub	x8, x29, #152
	add	x13, x11, #8
	add	x14, x8, #8
	mov	w15, #20
	mov	w16, #65513
	movk	w16, #127, lsl #16
	mov	w17, #27
	mov	w0, #8
	str	x20, [sp, #24]
	str	x21, [sp, #8]
	b	LBB30_8
LBB30_7:
	ldp	x21, x10, [sp, #8]
	add	x10, x10, #1
	cmp	x10, #8
	b.eq	LBB30_51
LBB30_8:
	str	x10, [sp, #16]
	mov	x8, #0
	add	x1, x21, #32
	mov	x3, x21
	add	x4, x21, #8
	add	x5, x21, #4
	b	LBB30_10
LBB30_9:
	stur	w25, [x29, #-128]
	sub	x11, x29, #132
	ldur	q0, [x11, #4]
	str	q0, [x23]
	add	x19, sp, #60
	ldp	x9, x8, [sp, #32]
	madd	x8, x8, x15, x19
	add	x5, x5, #8
	add	x4, x4, #8
	str	w22, [x8]
	stur	q0, [x8, #4]
	add	x3, x3, #8
	add	x1, x1, #8
	mov	x8, x9
	ldr	x20, [sp, #24]
	cmp	x9, x20
	b.eq	LBB30_7
LBB30_10:
	mov	w22, #0
	mov	w25, #0
	mov	x28, #0
	add	x10, x8, #1
	add	x9, x8, #1
	stp	x9, x8, [sp, #32]
	madd	x26, x10, x15, x19
	sub	x27, x20, x8
	stur	xzr, [x11, #12]
	stur	xzr, [x11, #4]
	mov	x30, #-1
	mov	w19, #1
	b	LBB30_13
LBB30_11:
	stp	xzr, xzr, [x23, #24]
	stur	wzr, [x29, #-136]
	cmp	w22, #0
	csel	w25, wzr, w25, eq
	csel	x8, x14, x13, eq
	cset	w22, ne
LBB30_12:
	ldr	x9, [x8]
	ldr	w8, [x8, #8]
	str	w8, [x13, #8]
	str	x9, [x13]
	add	x19, x19, #1
	sub	x30, x30, #1
	cmp	x28, x27
	b.eq	LBB30_9
LBB30_13:
	mov	x9, x28
	and	x8, x19, #0x7
	and	x10, x19, #0xfffffffffffffff8
	neg	x10, x10
	and	x12, x19, #0xfffffffffffffffe
	add	x28, x28, #1
	madd	x21, x9, x15, x26
	mov	x2, x5
	mov	x7, x19
LBB30_14:
	ldr	w11, [x2], #8
	cmp	w11, w16
	b.hs	LBB30_11
	subs	x7, x7, #1
	b.ne	LBB30_14
	cmp	x28, #2
	b.hs	LBB30_18
	mov	x24, #0
	mov	x2, #0
	b	LBB30_21
LBB30_18:
	mov	x7, #0
	mov	x20, #0
	and	x2, x28, #0xfffffffffffffffe
	mov	x24, x4
LBB30_19:
	ldur	w6, [x24, #-8]
	ldr	w11, [x24], #16
	add	x7, x7, x6
	add	x20, x20, x11
	subs	x12, x12, #2
	b.ne	LBB30_19
	add	x24, x20, x7
	cmp	x28, x2
	b.eq	LBB30_23
LBB30_21:
	add	x12, x2, x30
	add	x2, x3, x2, lsl #3
LBB30_22:
	ldr	w11, [x2], #8
	add	x24, x24, x11
	adds	x12, x12, #1
	b.lo	LBB30_22
LBB30_23:
	cmp	x9, #7
	b.hs	LBB30_25
	mov	w20, #0
	mov	x9, #0
	b	LBB30_45
LBB30_25:
	mov	x9, #0
	mov	w20, #0
	and	x12, x28, #0x7
	mov	x2, x1
	b	LBB30_27
LBB30_26:
	sub	x9, x9, #8
	mov	x2, x7
	cmp	x10, x9
	b.eq	LBB30_43
LBB30_27:
	ldur	w11, [x2, #-32]
	cbz	w11, LBB30_29
	ldur	w11, [x2, #-28]
	cmp	w11, w20
	csel	w20, w11, w20, hi
LBB30_29:
	ldur	w11, [x2, #-24]
	cbz	w11, LBB30_31
	ldur	w11, [x2, #-20]
	cmp	w11, w20
	csel	w20, w11, w20, hi
LBB30_31:
	ldur	w11, [x2, #-16]
	cbz	w11, LBB30_33
	ldur	w11, [x2, #-12]
	cmp	w11, w20
	csel	w20, w11, w20, hi
LBB30_33:
	ldur	w11, [x2, #-8]
	cbz	w11, LBB30_35
	ldur	w11, [x2, #-4]
	cmp	w11, w20
	csel	w20, w11, w20, hi
LBB30_35:
	mov	x7, x2
	ldr	w11, [x7], #64
	cbz	w11, LBB30_37
	ldr	w11, [x2, #4]
	cmp	w11, w20
	csel	w20, w11, w20, hi
LBB30_37:
	ldr	w11, [x2, #8]
	cbz	w11, LBB30_39
	ldr	w11, [x2, #12]
	cmp	w11, w20
	csel	w20, w11, w20, hi
LBB30_39:
	ldr	w11, [x2, #16]
	cbz	w11, LBB30_41
	ldr	w11, [x2, #20]
	cmp	w11, w20
	csel	w20, w11, w20, hi
LBB30_41:
	ldr	w11, [x2, #24]
	cbz	w11, LBB30_26
	ldr	w11, [x2, #28]
	cmp	w11, w20
	csel	w20, w11, w20, hi
	b	LBB30_26
LBB30_43:
	cbz	x12, LBB30_49
	neg	x9, x9
LBB30_45:
	lsl	x9, x9, #3
	b	LBB30_47
LBB30_46:
	add	x9, x9, #8
	subs	x8, x8, #1
	b.eq	LBB30_49
LBB30_47:
	ldr	w10, [x3, x9]
	cbz	w10, LBB30_46
	ldr	w10, [x5, x9]
	cmp	w10, w20
	csel	w20, w10, w20, hi
	b	LBB30_46
LBB30_49:
	mov	w8, w20
	cmp	w20, #0
	cinc	x8, x8, eq
	add	x8, x8, #31
	lsr	x8, x8, #3
	orr	w9, w8, #0x10
	clz	w9, w9
	sub	w9, w17, w9
	sub	w8, w8, #1
	lsr	w8, w8, w9
	add	w8, w8, #1
	add	w9, w8, w9, lsl #4
	lsr	w10, w9, #4
	lsl	w11, w0, w10
	and	w8, w8, #0xf
	sub	w12, w10, #1
	lsl	w8, w8, w12
	add	w8, w8, w11
	cmp	w10, #0
	csel	w8, w9, w8, eq
	mul	x8, x24, x8
	ldrb	w9, [x21]
	cmp	x8, #256, lsl #12
	ccmp	w9, #1, #0, ls
	b.ne	LBB30_11
	cmp	x8, #4
	mov	w9, #4
	csel	x8, x8, x9, hi
	ldur	q0, [x21, #4]
	str	q0, [x23, #64]
	ldurb	w9, [x29, #-108]
	ldr	x10, [sp, #48]
	strb	w28, [x10, x9]
	add	w9, w9, #1
	sturb	w9, [x29, #-108]
	ldur	w9, [x29, #-112]
	add	w8, w9, w8
	stur	w8, [x29, #-112]
	ldr	q0, [x23, #64]
	sub	x8, x29, #152
	stur	q0, [x8, #4]
	ldur	w8, [x29, #-148]
	cmp	w8, w25
	csel	w9, w8, w25, lo
	csel	x10, x14, x13, lo
	cmp	w22, #0
	csel	w25, w8, w9, eq
	csel	x8, x14, x10, eq
	mov	w9, #1
	csinc	w22, w9, wzr, ne
	b	LBB30_12
LBB30_51:
	ldrb	w10, [sp, #60]
	cmp	w10, #1
	b.ne	LBB30_53
	ldrb	w8, [sp, #76]
	ldp	s1, s0, [sp, #68]
	ushll.8h	v2, v0, #0
	ushll.8h	v0, v1, #0
	ldr	w9, [sp, #64]
	ushll.4s	v0, v0, #0
	ushll2.2d	v1, v0, #0
	movi.2d	v3, #0x000000000000ff
	and.16b	v1, v1, v3
	ushll.2d	v0, v0, #0
	and.16b	v0, v0, v3
	ushll.4s	v4, v2, #0
	ushll2.2d	v2, v4, #0
	and.16b	v2, v2, v3
	ushll.2d	v4, v4, #0
	and.16b	v3, v4, v3
	b	LBB30_54
LBB30_53:
	mov	x8, #0
	mov	x9, #0
	movi.2d	v0, #0000000000000000
	movi.2d	v1, #0000000000000000
	movi.2d	v3, #0000000000000000
	movi.2d	v2, #0000000000000000
LBB30_54:
	ldr	x19, [sp]
	b	LBB30_57
LBB30_55:
	str	xzr, [x19, #80]
	movi.2d	v0, #0000000000000000
	stp	q0, q0, [x19, #48]
	stp	q0, q0, [x19, #16]
	str	q0, [x19]
	b	LBB30_58
LBB30_56:
	mov	x8, #0
	mov	x9, #0
	movi.2d	v0, #0000000000000000
	mov	w10, #1
	movi.2d	v1, #0000000000000000
	movi.2d	v3, #0000000000000000
	movi.2d	v2, #0000000000000000
LBB30_57:
	mov	w10, w10
	str	x10, [x19]
	stur	q0, [x19, #8]
	stur	q1, [x19, #24]
	stur	q3, [x19, #40]
	stur	q2, [x19, #56]
	stp	x8, x9, [x19, #72]
LBB30_58:
	add	sp, sp, #1456
	.cfi_def_cfa wsp, 96
	ldp	x29, x30, [sp, #80]
	ldp	x20, x19, [sp, #64]
	ldp	x22, x21, [sp, #48]
	ldp	x24, x23, [sp, #32]
	ldp	x26, x25, [sp, #16]
	ldp	x28, x27, [sp], #96
	.cfi_def_cfa_offset 0
	.cfi_restore w30
	.cfi_restore w29
	.cfi_restore w19
	.cfi_restore w20
	.cfi_restore w21
	.cfi_restore w22
	.cfi_restore w23
	.cfi_restore w24
	.cfi_restore w25
	.cfi_restore w26
	.cfi_restore w27
	.cfi_restore w28
	ret
	.cfi_endproc
	.p2align	2
_std_alloc.vec.Vec.grow_amortized.8f83c87fc5454f35:
	.cfi_startproc
	ldr	x8, [x0, #8]
	cmn	x8, #1
	b.eq	LBB31_5
	stp	x20, x19, [sp, #-32]!
	.cfi_def_cfa_offset 32
	stp	x29, x30, [sp, #16]
	add	x29, sp, #16
	.cfi_def_cfa w29, 16
	.cfi_offset w30, -8
	.cfi_offset w29, -16
	.cfi_offset w19, -24
	.cfi_offset w20, -32
	.cfi_remember_state
	ldr	x10, [x0, #16]
	add	x9, x8, #1
	lsl	x11, x10, #1
	cmp	x9, x11
	csinc	x9, x11, x8, ls
	lsr	x11, x10, #62
	cmp	x11, #0
	csinc	x19, x9, x8, eq
	mov	x11, #25350
	movk	x11, #2253, lsl #16
	movk	x11, #48260, lsl #32
	movk	x11, #11, lsl #48
	cmp	x19, x11
	b.hi	LBB31_7
	cbz	x10, LBB31_6
	mov	x20, x0
	ldr	x0, [x0]
	mov	w9, #2792
	mul	x1, x8, x9
	mul	x2, x19, x9
	mov	w3, #8
	bl	_tlsf_memory_realloc
	tbz	w0, #0, LBB31_7
LBB31_4:
	str	x1, [x20]
	str	x19, [x20, #16]
	mov	w0, #1
	b	LBB31_8
LBB31_5:
	.cfi_def_cfa wsp, 0
	.cfi_same_value w30
	.cfi_same_value w29
	.cfi_same_value w19
	.cfi_same_value w20
	mov	w0, #0
	ret
LBB31_6:
	.cfi_restore_state
	mov	x20, x0
	mov	w8, #2792
	mul	x0, x9, x8
	mov	w1, #8
	bl	_tlsf_memory_alloc
	tbnz	w0, #0, LBB31_4
LBB31_7:
	mov	w0, #0
LBB31_8:
	.cfi_def_cfa wsp, 32
	ldp	x29, x30, [sp, #16]
	ldp	x20, x19, [sp], #32
	.cfi_def_cfa_offset 0
	.cfi_restore w30
	.cfi_restore w29
	.cfi_restore w19
	.cfi_restore w20
	ret
	.cfi_endproc
	.p2align	2
_tlsf_pool.sizes.split.rising_split.5:
	.cfi_startproc
	stp	x28, x27, [sp, #-96]!
	.cfi_def_cfa_offset 96
	stp	x26, x25, [sp, #16]
	stp	x24, x23, [sp, #32]
	stp	x22, x21, [sp, #48]
	stp	x20, x19, [sp, #64]
	stp	x29, x30, [sp, #80]
	add	x29, sp, #80
	.cfi_def_cfa w29, 16
	.cfi_offset w30, -8
	.cfi_offset w29, -16
	.cfi_offset w19, -24
	.cfi_offset w20, -32
	.cfi_offset w21, -40
	.cfi_offset w22, -48
	.cfi_offset w23, -56
	.cfi_offset w24, -64
	.cfi_offset w25, -72
	.cfi_offset w26, -80
	.cfi_offset w27, -88
	.cfi_offset w28, -96
	sub	sp, sp, #1456
	mov	x20, x2
	mov	x21, x1
	mov	x19, x0
	cmp	x2, #2
	b.lo	LBB32_5
	sub	x8, x20, #1
	add	x9, x21, #12
LBB32_2:
	ldr	w10, [x9]
	ldur	w11, [x9, #-8]
	cmp	w10, w11
	b.ls	LBB32_55
	add	x9, x9, #8
	subs	x8, x8, #1
	b.ne	LBB32_2
	add	x0, sp, #60
	mov	w1, #1300
	bl	_bzero
	b	LBB32_6
LBB32_5:
	add	x0, sp, #60
	mov	w1, #1300
	bl	_bzero
	cbz	x20, LBB32_56
LBB32_6:
	str	x19, [sp]
	sub	x23, x29, #176
	add	x8, x20, x20, lsl #2
	lsl	x22, x8, #2
	add	x19, sp, #60
	add	x0, sp, #60
	mov	x1, x22
	bl	_bzero
	mov	x10, #0
	add	x8, x19, x22
	mov	w9, #1
	str	w9, [x8]
	stur	xzr, [x8, #12]
	sub	x9, x29, #112
	add	x9, x9, #5
	str	x9, [sp, #48]
	sub	x9, x29, #132
	stur	xzr, [x8, #4]
	sub	x8, x29, #152
	add	x13, x9, #8
	add	x14, x8, #8
	mov	w15, #20
	mov	w16, #65513
	movk	w16, #2047, lsl #16
	mov	w0, #16
	mov	w1, #16777216
	str	x20, [sp, #24]
	str	x21, [sp, #8]
	b	LBB32_8
LBB32_7:
	ldp	x21, x10, [sp, #8]
	add	x10, x10, #1
	cmp	x10, #8
	b.eq	LBB32_51
LBB32_8:
	str	x10, [sp, #16]
	mov	x8, #0
	add	x22, x21, #32
	mov	x4, x21
	add	x5, x21, #8
	add	x6, x21, #4
	b	LBB32_10
LBB32_9:
	stur	w26, [x29, #-128]
	sub	x9, x29, #132
	ldur	q0, [x9, #4]
	str	q0, [x23]
	add	x19, sp, #60
	ldp	x10, x8, [sp, #32]
	madd	x8, x8, x15, x19
	add	x6, x6, #8
	add	x5, x5, #8
	str	w25, [x8]
	stur	q0, [x8, #4]
	add	x4, x4, #8
	add	x22, x22, #8
	mov	x8, x10
	ldr	x20, [sp, #24]
	cmp	x10, x20
	b.eq	LBB32_7
LBB32_10:
	mov	w25, #0
	mov	w26, #0
	mov	x30, #0
	add	x11, x8, #1
	add	x10, x8, #1
	stp	x10, x8, [sp, #32]
	madd	x27, x11, x15, x19
	sub	x28, x20, x8
	stur	xzr, [x9, #12]
	stur	xzr, [x9, #4]
	mov	x19, #-1
	mov	w21, #1
	b	LBB32_13
LBB32_11:
	stp	xzr, xzr, [x23, #24]
	stur	wzr, [x29, #-136]
	cmp	w25, #0
	csel	w26, wzr, w26, eq
	csel	x8, x14, x13, eq
	cset	w25, ne
LBB32_12:
	ldr	x9, [x8]
	ldr	w8, [x8, #8]
	str	w8, [x13, #8]
	str	x9, [x13]
	add	x21, x21, #1
	sub	x19, x19, #1
	cmp	x30, x28
	b.eq	LBB32_9
LBB32_13:
	mov	x9, x30
	and	x24, x21, #0x7
	and	x8, x21, #0xfffffffffffffff8
	neg	x20, x8
	and	x10, x21, #0xfffffffffffffffe
	add	x30, x30, #1
	madd	x8, x9, x15, x27
	mov	x12, x6
	mov	x2, x21
LBB32_14:
	ldr	w11, [x12], #8
	cmp	w11, w16
	b.hs	LBB32_11
	subs	x2, x2, #1
	b.ne	LBB32_14
	cmp	x30, #2
	b.hs	LBB32_18
	mov	x10, #0
	mov	x12, #0
	b	LBB32_21
LBB32_18:
	mov	x2, #0
	mov	x3, #0
	and	x12, x30, #0xfffffffffffffffe
	mov	x7, x5
LBB32_19:
	ldur	w11, [x7, #-8]
	ldr	w17, [x7], #16
	add	x2, x2, x11
	add	x3, x3, x17
	subs	x10, x10, #2
	b.ne	LBB32_19
	add	x10, x3, x2
	cmp	x30, x12
	b.eq	LBB32_23
LBB32_21:
	add	x2, x12, x19
	add	x12, x4, x12, lsl #3
LBB32_22:
	ldr	w11, [x12], #8
	add	x10, x10, x11
	adds	x2, x2, #1
	b.lo	LBB32_22
LBB32_23:
	cmp	x9, #7
	b.hs	LBB32_25
	mov	w9, #0
	mov	x12, #0
	b	LBB32_45
LBB32_25:
	mov	x12, #0
	mov	w9, #0
	and	x2, x30, #0x7
	mov	x3, x22
	b	LBB32_27
LBB32_26:
	sub	x12, x12, #8
	mov	x3, x7
	cmp	x20, x12
	b.eq	LBB32_43
LBB32_27:
	ldur	w11, [x3, #-32]
	cbz	w11, LBB32_29
	ldur	w11, [x3, #-28]
	cmp	w11, w9
	csel	w9, w11, w9, hi
LBB32_29:
	ldur	w11, [x3, #-24]
	cbz	w11, LBB32_31
	ldur	w11, [x3, #-20]
	cmp	w11, w9
	csel	w9, w11, w9, hi
LBB32_31:
	ldur	w11, [x3, #-16]
	cbz	w11, LBB32_33
	ldur	w11, [x3, #-12]
	cmp	w11, w9
	csel	w9, w11, w9, hi
LBB32_33:
	ldur	w11, [x3, #-8]
	cbz	w11, LBB32_35
	ldur	w11, [x3, #-4]
	cmp	w11, w9
	csel	w9, w11, w9, hi
LBB32_35:
	mov	x7, x3
	ldr	w11, [x7], #64
	cbz	w11, LBB32_37
	ldr	w11, [x3, #4]
	cmp	w11, w9
	csel	w9, w11, w9, hi
LBB32_37:
	ldr	w11, [x3, #8]
	cbz	w11, LBB32_39
	ldr	w11, [x3, #12]
	cmp	w11, w9
	csel	w9, w11, w9, hi
LBB32_39:
	ldr	w11, [x3, #16]
	cbz	w11, LBB32_41
	ldr	w11, [x3, #20]
	cmp	w11, w9
	csel	w9, w11, w9, hi
LBB32_41:
	ldr	w11, [x3, #24]
	cbz	w11, LBB32_26
	ldr	w11, [x3, #28]
	cmp	w11, w9
	csel	w9, w11, w9, hi
	b	LBB32_26
LBB32_43:
	cbz	x2, LBB32_49
	neg	x12, x12
LBB32_45:
	lsl	x12, x12, #3
	b	LBB32_47
LBB32_46:
	add	x12, x12, #8
	subs	x24, x24, #1
	b.eq	LBB32_49
LBB32_47:
	ldr	w11, [x4, x12]
	cbz	w11, LBB32_46
	ldr	w11, [x6, x12]
	cmp	w11, w9
	csel	w9, w11, w9, hi
	b	LBB32_46
LBB32_49:
	mov	w11, w9
	cmp	w9, #0
	cinc	x9, x11, eq
	add	x9, x9, #31
	lsr	x9, x9, #3
	orr	w11, w9, #0x20
	clz	w11, w11
	mov	w12, #26
	sub	w11, w12, w11
	sub	w9, w9, #1
	lsr	w9, w9, w11
	add	w9, w9, #1
	add	w11, w9, w11, lsl #5
	lsr	w12, w11, #5
	lsl	w17, w0, w12
	and	w9, w9, #0x1f
	sub	w2, w12, #1
	lsl	w9, w9, w2
	add	w9, w9, w17
	cmp	w12, #0
	csel	w9, w11, w9, eq
	mul	x9, x10, x9
	ldrb	w10, [x8]
	cmp	x9, x1
	ccmp	w10, #1, #0, ls
	b.ne	LBB32_11
	cmp	x9, #4
	mov	w10, #4
	csel	x9, x9, x10, hi
	ldur	q0, [x8, #4]
	str	q0, [x23, #64]
	ldurb	w8, [x29, #-108]
	ldr	x10, [sp, #48]
	strb	w30, [x10, x8]
	add	w8, w8, #1
	sturb	w8, [x29, #-108]
	ldur	w8, [x29, #-112]
	add	w8, w8, w9
	stur	w8, [x29, #-112]
	ldr	q0, [x23, #64]
	sub	x8, x29, #152
	stur	q0, [x8, #4]
	ldur	w8, [x29, #-148]
	cmp	w8, w26
	csel	w9, w8, w26, lo
	csel	x10, x14, x13, lo
	cmp	w25, #0
	csel	w26, w8, w9, eq
	csel	x8, x14, x10, eq
	mov	w9, #1
	csinc	w25, w9, wzr, ne
	b	LBB32_12
LBB32_51:
	ldrb	w10, [sp, #60]
	cmp	w10, #1
	b.ne	LBB32_53
	ldrb	w8, [sp, #76]
	ldp	s1, s0, [sp, #68]
	ushll.8h	v2, v0, #0
	ushll.8h	v0, v1, #0
	ldr	w9, [sp, #64]
	ushll.4s	v0, v0, #0
	ushll2.2d	v1, v0, #0
	movi.2d	v3, #0x000000000000ff
	and.16b	v1, v1, v3
	ushll.2d	v0, v0, #0
	and.16b	v0, v0, v3
	ushll.4s	v4, v2, #0
	ushll2.2d	v2, v4, #0
	and.16b	v2, v2, v3
	ushll.2d	v4, v4, #0
	and.16b	v3, v4, v3
	b	LBB32_54
LBB32_53:
	mov	x8, #0
	mov	x9, #0
	movi.2d	v0, #0000000000000000
	movi.2d	v1, #0000000000000000
	movi.2d	v3, #0000000000000000
	movi.2d	v2, #0000000000000000
LBB32_54:
	ldr	x19, [sp]
	b	LBB32_57
LBB32_55:
	str	xzr, [x19, #80]
	movi.2d	v0, #0000000000000000
	stp	q0, q0, [x19, #48]
	stp	q0, q0, [x19, #16]
	str	q0, [x19]
	b	LBB32_58
LBB32_56:
	mov	x8, #0
	mov	x9, #0
	movi.2d	v0, #0000000000000000
	mov	w10, #1
	movi.2d	v1, #0000000000000000
	movi.2d	v3, #0000000000000000
	movi.2d	v2, #0000000000000000
LBB32_57:
	mov	w10, w10
	str	x10, [x19]
	stur	q0, [x19, #8]
	stur	q1, [x19, #24]
	stur	q3, [x19, #40]
	stur	q2, [x19, #56]
	stp	x8, x9, [x19, #72]
LBB32_58:
	add	sp, sp, #1456
	.cfi_def_cfa wsp, 96
	ldp	x29, x30, [sp, #80]
	ldp	x20, x19, [sp, #64]
	ldp	x22, x21, [sp, #48]
	ldp	x24, x23, [sp, #32]
	ldp	x26, x25, [sp, #16]
	ldp	x28, x27, [sp], #96
	.cfi_def_cfa_offset 0
	.cfi_restore w30
	.cfi_restore w29
	.cfi_restore w19
	.cfi_restore w20
	.cfi_restore w21
	.cfi_restore w22
	.cfi_restore w23
	.cfi_restore w24
	.cfi_restore w25
	.cfi_restore w26
	.cfi_restore w27
	.cfi_restore w28
	ret
	.cfi_endproc
	.p2align	2
_std_alloc.vec.Vec.grow_amortized.cb831ce0f1fbfa3d:
	.cfi_startproc
	ldr	x8, [x0, #8]
	cmn	x8, #1
	b.eq	LBB33_5
	stp	x20, x19, [sp, #-32]!
	.cfi_def_cfa_offset 32
	stp	x29, x30, [sp, #16]
	add	x29, sp, #16
	.cfi_def_cfa w29, 16
	.cfi_offset w30, -8
	.cfi_offset w29, -16
	.cfi_offset w19, -24
	.cfi_offset w20, -32
	.cfi_remember_state
	ldr	x10, [x0, #16]
	add	x9, x8, #1
	lsl	x11, x10, #1
	cmp	x9, x11
	csinc	x9, x11, x8, ls
	lsr	x11, x10, #62
	cmp	x11, #0
	csinc	x19, x9, x8, eq
	mov	x11, #25350
	movk	x11, #2253, lsl #16
	movk	x11, #48260, lsl #32
	movk	x11, #11, lsl #48
	cmp	x19, x11
	b.hi	LBB33_7
	cbz	x10, LBB33_6
	mov	x20, x0
	ldr	x0, [x0]
	mov	w9, #2792
	mul	x1, x8, x9
	mul	x2, x19, x9
	mov	w3, #8
	bl	_tlsf_memory_realloc
	tbz	w0, #0, LBB33_7
LBB33_4:
	str	x1, [x20]
	str	x19, [x20, #16]
	mov	w0, #1
	b	LBB33_8
LBB33_5:
	.cfi_def_cfa wsp, 0
	.cfi_same_value w30
	.cfi_same_value w29
	.cfi_same_value w19
	.cfi_same_value w20
	mov	w0, #0
	ret
LBB33_6:
	.cfi_restore_state
	mov	x20, x0
	mov	w8, #2792
	mul	x0, x9, x8
	mov	w1, #8
	bl	_tlsf_memory_alloc
	tbnz	w0, #0, LBB33_4
LBB33_7:
	mov	w0, #0
LBB33_8:
	.cfi_def_cfa wsp, 32
	ldp	x29, x30, [sp, #16]
	ldp	x20, x19, [sp], #32
	.cfi_def_cfa_offset 0
	.cfi_restore w30
	.cfi_restore w29
	.cfi_restore w19
	.cfi_restore w20
	ret
	.cfi_endproc
	.p2align	2
_tlsf_heap.region.Region.read.4:
	.cfi_startproc
	ubfiz	x8, x1, #3, #32
	add	x8, x8, w2, uxtw
	add	x1, x8, #24
	orr	w8, w4, w2
	tst	x8, #0x7
	b.eq	LBB34_3
	mov	x2, x3
	mov	x3, x4
	cmp	x4, #7
	b.hi	LBB34_8
	b	_tlsf_words.words.Words.read_few
LBB34_3:
	ldr	x8, [x0]
	add	x0, x8, x1
	cmp	x4, #63
	b.hi	LBB34_9
	tbnz	w4, #3, LBB34_10
	tbnz	w4, #4, LBB34_11
LBB34_6:
	cmp	x4, #25
	b.hs	LBB34_12
LBB34_7:
	ret
LBB34_8:
	b	_tlsf_words.words.Words.read_run
LBB34_9:
	lsr	x1, x4, #3
	mov	x2, x3
	b	_tlsf_words.cells.unpack_many
LBB34_10:
	sub	x8, x4, #8
	ldr	x9, [x0, x8]
	str	x9, [x3, x8]
	tbz	w4, #4, LBB34_6
LBB34_11:
	and	x8, x4, #0x20
	ldr	x9, [x0, x8]
	str	x9, [x3, x8]
	orr	x8, x8, #0x8
	ldr	x9, [x0, x8]
	str	x9, [x3, x8]
	cmp	x4, #25
	b.lo	LBB34_7
LBB34_12:
	ldr	x8, [x0]
	str	x8, [x3]
	ldr	x8, [x0, #8]
	str	x8, [x3, #8]
	ldr	x8, [x0, #16]
	str	x8, [x3, #16]
	ldr	x8, [x0, #24]
	str	x8, [x3, #24]
	ret
	.cfi_endproc
	.p2align	2
_tlsf_words.cells.unpack_many:
	.cfi_startproc
	and	x8, x1, #0xfffffffffffffffc
	lsl	x10, x8, #3
	add	x9, x2, x10
	add	x10, x0, x10
	tbnz	w1, #0, LBB35_4
	tbnz	w1, #1, LBB35_5
LBB35_2:
	sub	x9, x2, x0
	cmp	x9, #64
	b.hs	LBB35_6
LBB35_3:
	mov	x9, #0
	b	LBB35_9
LBB35_4:
	ubfiz	x11, x1, #3, #2
	sub	x11, x11, #8
	ldr	x12, [x10, x11]
	str	x12, [x9, x11]
	tbz	w1, #1, LBB35_2
LBB35_5:
	ldr	x11, [x10]
	str	x11, [x9]
	ldr	x10, [x10, #8]
	str	x10, [x9, #8]
	sub	x9, x2, x0
	cmp	x9, #64
	b.lo	LBB35_3
LBB35_6:
	and	x9, x1, #0xfffffffffffffff8
	add	x10, x2, #32
	add	x11, x0, #32
	mov	x12, x9
LBB35_7:
	ldp	q0, q1, [x11, #-32]
	ldp	q2, q3, [x11], #64
	stp	q0, q1, [x10, #-32]
	stp	q2, q3, [x10], #64
	subs	x12, x12, #8
	b.ne	LBB35_7
	cmp	x8, x9
	b.eq	LBB35_11
LBB35_9:
	sub	x8, x9, x8
	lsl	x10, x9, #3
	add	x9, x0, x10
	add	x10, x2, x10
LBB35_10:
	ldr	x11, [x9], #8
	str	x11, [x10], #8
	adds	x8, x8, #1
	b.lo	LBB35_10
LBB35_11:
	ret
	.cfi_endproc
	.p2align	2
_tlsf_words.words.Words.read_few:
	.cfi_startproc
	sub	sp, sp, #80
	.cfi_def_cfa_offset 80
	stp	x24, x23, [sp, #16]
	stp	x22, x21, [sp, #32]
	stp	x20, x19, [sp, #48]
	stp	x29, x30, [sp, #64]
	add	x29, sp, #64
	.cfi_def_cfa w29, 16
	.cfi_offset w30, -8
	.cfi_offset w29, -16
	.cfi_offset w19, -24
	.cfi_offset w20, -32
	.cfi_offset w21, -40
	.cfi_offset w22, -48
	.cfi_offset w23, -56
	.cfi_offset w24, -64
	mov	x20, x3
	mov	x19, x2
	mov	x22, x0
	and	x8, x1, #0x7
	mov	w9, #8
	sub	x24, x9, x8
	cmp	x24, x3
	csel	x21, x24, x3, lo
	and	x23, x1, #0xffffffff8
	cbz	x3, LBB36_2
	ldr	x9, [x22]
	ldr	x9, [x9, x23]
	str	x9, [sp, #8]
	add	x9, sp, #8
	orr	x1, x9, x8
	mov	x0, x19
	mov	x2, x21
	bl	_tlsf_memory_cpy
LBB36_2:
	cmp	x20, x24
	b.ls	LBB36_4
	sub	x2, x20, x21
	ldr	x8, [x22]
	add	x8, x8, x23
	ldr	x8, [x8, #8]
	str	x8, [sp, #8]
	add	x0, x19, x21
	add	x1, sp, #8
	bl	_tlsf_memory_cpy
LBB36_4:
	.cfi_def_cfa wsp, 80
	ldp	x29, x30, [sp, #64]
	ldp	x20, x19, [sp, #48]
	ldp	x22, x21, [sp, #32]
	ldp	x24, x23, [sp, #16]
	add	sp, sp, #80
	.cfi_def_cfa_offset 0
	.cfi_restore w30
	.cfi_restore w29
	.cfi_restore w19
	.cfi_restore w20
	.cfi_restore w21
	.cfi_restore w22
	.cfi_restore w23
	.cfi_restore w24
	ret
	.cfi_endproc
	.p2align	2
_tlsf_words.words.Words.read_run:
	.cfi_startproc
	neg	w10, w1
	and	x9, x10, #0x7
	sub	x8, x3, x9
	sub	x11, x3, x9
	bfxil	x11, x10, #0, #3
	ands	x10, x1, #0x7
	b.eq	LBB37_2
	and	x12, x1, #0xffffffff8
	ldr	x13, [x0]
	ldr	x12, [x13, x12]
	lsl	x10, x10, #3
	lsr	x10, x12, x10
	str	x10, [x2]
LBB37_2:
	add	x10, x1, #7
	subs	x11, x11, x3
	b.eq	LBB37_4
	ldr	x12, [x0]
	and	x13, x8, #0xfffffffffffffff8
	add	x13, x10, x13
	and	x13, x13, #0xfffffffffffffff8
	ldr	x12, [x12, x13]
	add	x13, x2, x3
	ldur	x14, [x13, #-8]
	lsl	x11, x11, #3
	mov	x15, #-1
	lsl	x15, x15, x11
	bic	x14, x14, x15
	lsl	x11, x12, x11
	add	x11, x14, x11
	stur	x11, [x13, #-8]
LBB37_4:
	add	x2, x2, x9
	ldr	x9, [x0]
	and	x10, x10, #0x1ffffffff8
	add	x0, x9, x10
	cmp	x8, #63
	b.hi	LBB37_9
	tbnz	w8, #3, LBB37_10
	tbnz	w8, #4, LBB37_11
LBB37_7:
	cmp	x8, #32
	b.hs	LBB37_12
LBB37_8:
	ret
LBB37_9:
	lsr	x1, x8, #3
	b	_tlsf_words.cells.unpack_many
LBB37_10:
	and	x9, x8, #0x38
	sub	x9, x9, #8
	ldr	x10, [x0, x9]
	str	x10, [x2, x9]
	tbz	w8, #4, LBB37_7
LBB37_11:
	and	x9, x8, #0x20
	ldr	x10, [x0, x9]
	str	x10, [x2, x9]
	orr	x9, x9, #0x8
	ldr	x10, [x0, x9]
	str	x10, [x2, x9]
	cmp	x8, #32
	b.lo	LBB37_8
LBB37_12:
	ldr	x8, [x0]
	str	x8, [x2]
	ldr	x8, [x0, #8]
	str	x8, [x2, #8]
	ldr	x8, [x0, #16]
	str	x8, [x2, #16]
	ldr	x8, [x0, #24]
	str	x8, [x2, #24]
	ret
	.cfi_endproc
	.p2align	2
_tlsf_heap.region.Region.read.5:
	.cfi_startproc
	ubfiz	x8, x1, #3, #32
	add	x8, x8, w2, uxtw
	add	x1, x8, #24
	orr	w8, w4, w2
	tst	x8, #0x7
	b.eq	LBB38_3
	mov	x2, x3
	mov	x3, x4
	cmp	x4, #7
	b.hi	LBB38_8
	b	_tlsf_words.words.Words.read_few
LBB38_3:
	ldr	x8, [x0]
	add	x0, x8, x1
	cmp	x4, #63
	b.hi	LBB38_9
	tbnz	w4, #3, LBB38_10
	tbnz	w4, #4, LBB38_11
LBB38_6:
	cmp	x4, #25
	b.hs	LBB38_12
LBB38_7:
	ret
LBB38_8:
	b	_tlsf_words.words.Words.read_run
LBB38_9:
	lsr	x1, x4, #3
	mov	x2, x3
	b	_tlsf_words.cells.unpack_many
LBB38_10:
	sub	x8, x4, #8
	ldr	x9, [x0, x8]
	str	x9, [x3, x8]
	tbz	w4, #4, LBB38_6
LBB38_11:
	and	x8, x4, #0x20
	ldr	x9, [x0, x8]
	str	x9, [x3, x8]
	orr	x8, x8, #0x8
	ldr	x9, [x0, x8]
	str	x9, [x3, x8]
	cmp	x4, #25
	b.lo	LBB38_7
LBB38_12:
	ldr	x8, [x0]
	str	x8, [x3]
	ldr	x8, [x0, #8]
	str	x8, [x3, #8]
	ldr	x8, [x0, #16]
	str	x8, [x3, #16]
	ldr	x8, [x0, #24]
	str	x8, [x3, #24]
	ret
	.cfi_endproc
	.p2align	2
_tlsf_c.queue_end.take_once:
	.cfi_startproc
	sub	sp, sp, #128
	.cfi_def_cfa_offset 128
	.cfi_remember_state
	stp	xzr, xzr, [sp, #16]
	stp	xzr, xzr, [sp]
	ldr	x8, [x1]
	stp	xzr, xzr, [sp, #32]
	stp	xzr, xzr, [sp, #64]
	stp	xzr, xzr, [sp, #48]
	ldr	x9, [x8, #8]
	add	x9, x9, #256
	; InlineAsm Start
	; InlineAsm End
	ldar	x10, [x9]
	; InlineAsm Start
	; InlineAsm End
	ldr	x9, [x8, #80]
	sub	x9, x9, #1
	and	x9, x9, x10
	ldr	x12, [x8, #8]
	lsl	x11, x9, #3
	add	x12, x12, x11
	add	x12, x12, #384
	; InlineAsm Start
	; InlineAsm End
	ldar	x12, [x12]
	; InlineAsm Start
	; InlineAsm End
	add	x13, x10, #1
	lsr	x14, x10, #62
	cmp	x14, #2
	ccmp	x12, x13, #0, ls
	b.ne	LBB39_7
	stp	xzr, xzr, [sp, #112]
	str	xzr, [sp, #104]
	stp	xzr, xzr, [sp, #80]
	add	x13, x9, #1
	ldr	x14, [x8, #72]
	cmp	x13, x14
	b.lo	LBB39_3
	ldr	x12, [x8, #80]
	sub	x13, x10, x9
	add	x12, x13, x12
LBB39_3:
	ldr	x13, [x8, #8]
	add	x13, x13, #256
	; InlineAsm Start
	; InlineAsm End
	mov	x14, x10
	casal	x14, x12, [x13]
	; InlineAsm Start
	; InlineAsm End
	cmp	x14, x10
	b.ne	LBB39_6
	ldr	x12, [x8, #16]
	add	x12, x12, x9, lsl #5
	ldrb	w13, [x12]
	ldr	x9, [x12, #8]
	ldr	q0, [x12, #16]
	str	q0, [sp, #80]
	str	xzr, [x12]
	ldr	x14, [sp, #120]
	str	x14, [x12, #24]
	ldur	q0, [sp, #104]
	stur	q0, [x12, #8]
	ldr	x12, [x8, #80]
	add	x10, x12, x10
	ldr	x8, [x8, #8]
	add	x8, x8, x11
	add	x8, x8, #384
	; InlineAsm Start
	; InlineAsm End
	stlr	x10, [x8]
	; InlineAsm Start
	; InlineAsm End
	cmp	w13, #1
	b.ne	LBB39_9
	mov	w11, #0
	mov	w8, #0
	ldr	q0, [sp, #80]
	str	q0, [sp, #16]
	add	x10, sp, #16
	b	LBB39_8
LBB39_6:
	stp	xzr, xzr, [sp, #64]
LBB39_7:
	mov	x9, #0
	ldr	q0, [sp, #64]
	str	q0, [sp, #16]
	ldr	x8, [x1]
	ldr	x10, [x8, #8]
	add	x10, x10, #256
	; InlineAsm Start
	; InlineAsm End
	ldar	x10, [x10]
	; InlineAsm Start
	; InlineAsm End
	ldr	x8, [x8, #8]
	add	x8, x8, #128
	; InlineAsm Start
	; InlineAsm End
	ldar	x8, [x8]
	; InlineAsm Start
	; InlineAsm End
	cmp	x8, x10
	mov	w8, #8
	cinc	w8, w8, ne
	mov	x10, sp
	mov	w11, #1
LBB39_8:
	strb	w11, [x0]
	strb	w8, [x0, #1]
	str	x9, [x0, #8]
	ldr	q0, [x10]
	str	q0, [x0, #16]
	add	sp, sp, #128
	.cfi_def_cfa_offset 0
	ret
LBB39_9:
	.cfi_restore_state
	brk	#0x1
	.cfi_endproc
	.p2align	2
_std_alloc.vec.Vec.grow_amortized.94730218a1e37034:
	.cfi_startproc
	ldr	x8, [x0, #8]
	cmn	x8, #1
	b.eq	LBB40_5
	stp	x20, x19, [sp, #-32]!
	.cfi_def_cfa_offset 32
	stp	x29, x30, [sp, #16]
	add	x29, sp, #16
	.cfi_def_cfa w29, 16
	.cfi_offset w30, -8
	.cfi_offset w29, -16
	.cfi_offset w19, -24
	.cfi_offset w20, -32
	.cfi_remember_state
	ldr	x9, [x0, #16]
	mov	w10, #3
	cmp	x8, #3
	csel	x11, x8, x10, hi
	add	x10, x11, #1
	lsl	x12, x9, #1
	cmp	x10, x12
	csinc	x10, x12, x11, ls
	lsr	x12, x9, #62
	cmp	x12, #0
	csinc	x19, x10, x11, eq
	lsr	x11, x19, #58
	cbnz	x11, LBB40_7
	cbz	x9, LBB40_6
	mov	x20, x0
	ldr	x0, [x0]
	lsl	x1, x8, #5
	lsl	x2, x19, #5
	mov	w3, #8
	bl	_tlsf_memory_realloc
	tbz	w0, #0, LBB40_7
LBB40_4:
	str	x1, [x20]
	str	x19, [x20, #16]
	mov	w0, #1
	b	LBB40_8
LBB40_5:
	.cfi_def_cfa wsp, 0
	.cfi_same_value w30
	.cfi_same_value w29
	.cfi_same_value w19
	.cfi_same_value w20
	mov	w0, #0
	ret
LBB40_6:
	.cfi_restore_state
	mov	x20, x0
	lsl	x0, x10, #5
	mov	w1, #8
	bl	_tlsf_memory_alloc
	tbnz	w0, #0, LBB40_4
LBB40_7:
	mov	w0, #0
LBB40_8:
	.cfi_def_cfa wsp, 32
	ldp	x29, x30, [sp, #16]
	ldp	x20, x19, [sp], #32
	.cfi_def_cfa_offset 0
	.cfi_restore w30
	.cfi_restore w29
	.cfi_restore w19
	.cfi_restore w20
	ret
	.cfi_endproc
	.p2align	2
_tlsf_post.mailboxes.send_out:
	.cfi_startproc
	cmp	w1, w2
	b.hs	LBB41_5
	mov	x9, #9223372036854775806
LBB41_2:
	; InlineAsm Start
	; InlineAsm End
	ldar	x8, [x0]
	; InlineAsm Start
	; InlineAsm End
	cmp	x8, x9
	b.hi	LBB41_7
	add	x10, x8, #1
	; InlineAsm Start
	; InlineAsm End
	mov	x11, x8
	casal	x11, x10, [x0]
	; InlineAsm Start
	; InlineAsm End
	cmp	x11, x8
	b.ne	LBB41_2
	mov	w8, #0
	ldr	x10, [x0, #8]
	; InlineAsm Start
	; InlineAsm End
	ldar	xzr, [x10]
	; InlineAsm Start
	; InlineAsm End
	ldp	x11, x10, [x3]
	add	x11, x11, x10, lsl #4
	str	x0, [x11]
	stp	w1, wzr, [x11, #8]
	add	x10, x10, #1
	str	x10, [x3, #8]
	add	w1, w1, #1
	cmp	w1, w2
	b.ne	LBB41_2
	b	LBB41_6
LBB41_5:
	mov	w8, #0
LBB41_6:
	mov	x0, x8
	ret
LBB41_7:
	mov	w0, #1
	ret
	.cfi_endproc
	.p2align	2
_std_alloc.arc.Arc.drop.f29941b0e8355977:
	.cfi_startproc
	; InlineAsm Start
	; InlineAsm End
	mov	x8, #-1
	ldaddal	x8, x8, [x0]
	; InlineAsm Start
	; InlineAsm End
	cmp	x8, #1
	b.ne	LBB42_2
	stp	x20, x19, [sp, #-32]!
	.cfi_def_cfa_offset 32
	stp	x29, x30, [sp, #16]
	add	x29, sp, #16
	.cfi_def_cfa w29, 16
	.cfi_offset w30, -8
	.cfi_offset w29, -16
	.cfi_offset w19, -24
	.cfi_offset w20, -32
	ldr	x19, [x0, #40]
	ldr	x20, [x0, #56]
	bl	_tlsf_memory_dealloc
	mov	x0, x19
	bl	_tlsf_memory_dealloc
	mov	x0, x20
	.cfi_def_cfa wsp, 32
	ldp	x29, x30, [sp, #16]
	ldp	x20, x19, [sp], #32
	.cfi_def_cfa_offset 0
	.cfi_restore w30
	.cfi_restore w29
	.cfi_restore w19
	.cfi_restore w20
	b	_tlsf_memory_dealloc
LBB42_2:
	ret
	.cfi_endproc
	.p2align	2
_std_alloc.vec.Vec.drop.05316b64237a7125:
	.cfi_startproc
	stp	x26, x25, [sp, #-80]!
	.cfi_def_cfa_offset 80
	stp	x24, x23, [sp, #16]
	stp	x22, x21, [sp, #32]
	stp	x20, x19, [sp, #48]
	stp	x29, x30, [sp, #64]
	add	x29, sp, #64
	.cfi_def_cfa w29, 16
	.cfi_offset w30, -8
	.cfi_offset w29, -16
	.cfi_offset w19, -24
	.cfi_offset w20, -32
	.cfi_offset w21, -40
	.cfi_offset w22, -48
	.cfi_offset w23, -56
	.cfi_offset w24, -64
	.cfi_offset w25, -72
	.cfi_offset w26, -80
	.cfi_remember_state
	ldp	x19, x23, [x0]
	ldr	x22, [x0, #16]
	cbz	x23, LBB43_5
	mov	x24, #-1
	mov	x25, x19
	b	LBB43_3
LBB43_2:
	subs	x23, x23, #1
	b.eq	LBB43_5
LBB43_3:
	ldr	x0, [x25], #16
	; InlineAsm Start
	; InlineAsm End
	ldaddal	x24, x8, [x0]
	; InlineAsm Start
	; InlineAsm End
	cmp	x8, #1
	b.ne	LBB43_2
	ldr	x20, [x0, #40]
	ldr	x21, [x0, #56]
	bl	_tlsf_memory_dealloc
	mov	x0, x20
	bl	_tlsf_memory_dealloc
	mov	x0, x21
	bl	_tlsf_memory_dealloc
	b	LBB43_2
LBB43_5:
	cbz	x22, LBB43_7
	mov	x0, x19
	.cfi_def_cfa wsp, 80
	ldp	x29, x30, [sp, #64]
	ldp	x20, x19, [sp, #48]
	ldp	x22, x21, [sp, #32]
	ldp	x24, x23, [sp, #16]
	ldp	x26, x25, [sp], #80
	.cfi_def_cfa_offset 0
	.cfi_restore w30
	.cfi_restore w29
	.cfi_restore w19
	.cfi_restore w20
	.cfi_restore w21
	.cfi_restore w22
	.cfi_restore w23
	.cfi_restore w24
	.cfi_restore w25
	.cfi_restore w26
	b	_tlsf_memory_dealloc
LBB43_7:
	.cfi_restore_state
	.cfi_def_cfa wsp, 80
	ldp	x29, x30, [sp, #64]
	ldp	x20, x19, [sp, #48]
	ldp	x22, x21, [sp, #32]
	ldp	x24, x23, [sp, #16]
	ldp	x26, x25, [sp], #80
	.cfi_def_cfa_offset 0
	.cfi_restore w30
	.cfi_restore w29
	.cfi_restore w19
	.cfi_restore w20
	.cfi_restore w21
	.cfi_restore w22
	.cfi_restore w23
	.cfi_restore w24
	.cfi_restore w25
	.cfi_restore w26
	ret
	.cfi_endproc
	.p2align	2
_std_alloc.vec.deque.VecDeque.drop.ca3d8856d46a41b8:
	.cfi_startproc
	stp	x26, x25, [sp, #-80]!
	.cfi_def_cfa_offset 80
	stp	x24, x23, [sp, #16]
	stp	x22, x21, [sp, #32]
	stp	x20, x19, [sp, #48]
	stp	x29, x30, [sp, #64]
	add	x29, sp, #64
	.cfi_def_cfa w29, 16
	.cfi_offset w30, -8
	.cfi_offset w29, -16
	.cfi_offset w19, -24
	.cfi_offset w20, -32
	.cfi_offset w21, -40
	.cfi_offset w22, -48
	.cfi_offset w23, -56
	.cfi_offset w24, -64
	.cfi_offset w25, -72
	.cfi_offset w26, -80
	.cfi_remember_state
	ldp	x19, x8, [x0]
	ldr	x22, [x0, #16]
	cbz	x8, LBB44_11
	ldp	x9, x23, [x0, #24]
	sub	x24, x8, x23
	add	x8, x9, x24
	cmp	x9, x8
	b.hs	LBB44_6
	add	x25, x19, x9, lsl #4
	mov	x26, #-1
	b	LBB44_4
LBB44_3:
	subs	x24, x24, #1
	b.eq	LBB44_6
LBB44_4:
	ldr	x0, [x25], #16
	; InlineAsm Start
	; InlineAsm End
	ldaddal	x26, x8, [x0]
	; InlineAsm Start
	; InlineAsm End
	cmp	x8, #1
	b.ne	LBB44_3
	ldr	x20, [x0, #40]
	ldr	x21, [x0, #56]
	bl	_tlsf_memory_dealloc
	mov	x0, x20
	bl	_tlsf_memory_dealloc
	mov	x0, x21
	bl	_tlsf_memory_dealloc
	b	LBB44_3
LBB44_6:
	cbz	x23, LBB44_11
	mov	x24, #-1
	mov	x25, x19
	b	LBB44_9
LBB44_8:
	subs	x23, x23, #1
	b.eq	LBB44_11
LBB44_9:
	ldr	x0, [x25], #16
	; InlineAsm Start
	; InlineAsm End
	ldaddal	x24, x8, [x0]
	; InlineAsm Start
	; InlineAsm End
	cmp	x8, #1
	b.ne	LBB44_8
	ldr	x20, [x0, #40]
	ldr	x21, [x0, #56]
	bl	_tlsf_memory_dealloc
	mov	x0, x20
	bl	_tlsf_memory_dealloc
	mov	x0, x21
	bl	_tlsf_memory_dealloc
	b	LBB44_8
LBB44_11:
	cbz	x22, LBB44_13
	mov	x0, x19
	.cfi_def_cfa wsp, 80
	ldp	x29, x30, [sp, #64]
	ldp	x20, x19, [sp, #48]
	ldp	x22, x21, [sp, #32]
	ldp	x24, x23, [sp, #16]
	ldp	x26, x25, [sp], #80
	.cfi_def_cfa_offset 0
	.cfi_restore w30
	.cfi_restore w29
	.cfi_restore w19
	.cfi_restore w20
	.cfi_restore w21
	.cfi_restore w22
	.cfi_restore w23
	.cfi_restore w24
	.cfi_restore w25
	.cfi_restore w26
	b	_tlsf_memory_dealloc
LBB44_13:
	.cfi_restore_state
	.cfi_def_cfa wsp, 80
	ldp	x29, x30, [sp, #64]
	ldp	x20, x19, [sp, #48]
	ldp	x22, x21, [sp, #32]
	ldp	x24, x23, [sp, #16]
	ldp	x26, x25, [sp], #80
	.cfi_def_cfa_offset 0
	.cfi_restore w30
	.cfi_restore w29
	.cfi_restore w19
	.cfi_restore w20
	.cfi_restore w21
	.cfi_restore w22
	.cfi_restore w23
	.cfi_restore w24
	.cfi_restore w25
	.cfi_restore w26
	ret
	.cfi_endproc
	.p2align	2
_tlsf_words.cells.copy_run:
	.cfi_startproc
	mov	x8, x2
	lsl	x10, x2, #3
	lsl	x9, x1, #3
	lsl	x2, x3, #3
	sub	x11, x10, x9
	cmp	x2, x11
	b.ls	LBB45_2
LBB45_1:
	ret
LBB45_2:
	add	x11, x3, x1
	cmp	x11, x8
	b.ls	LBB45_4
	add	x8, x3, x8
	cmp	x8, x1
	b.hi	LBB45_1
LBB45_4:
	mov	x8, x0
	add	x0, x0, x10
	add	x1, x8, x9
	b	_tlsf_memory_move
	.cfi_endproc
	.p2align	2
_tlsf_heap.region.Region.write.4:
	.cfi_startproc
	ubfiz	x8, x1, #3, #32
	add	x8, x8, w2, uxtw
	add	x1, x8, #24
	orr	w8, w4, w2
	tst	x8, #0x7
	b.eq	LBB46_3
	mov	x2, x3
	mov	x3, x4
	cmp	x4, #7
	b.hi	LBB46_8
	b	_tlsf_words.words.Words.write_few
LBB46_3:
	ldr	x8, [x0]
	add	x0, x8, x1
	cmp	x4, #63
	b.hi	LBB46_9
	tbnz	w4, #3, LBB46_10
	tbnz	w4, #4, LBB46_11
LBB46_6:
	cmp	x4, #25
	b.hs	LBB46_12
LBB46_7:
	ret
LBB46_8:
	b	_tlsf_words.words.Words.write_run
LBB46_9:
	lsr	x1, x4, #3
	mov	x2, x3
	b	_tlsf_words.cells.pack_many
LBB46_10:
	sub	x8, x4, #8
	ldr	x9, [x3, x8]
	str	x9, [x0, x8]
	tbz	w4, #4, LBB46_6
LBB46_11:
	and	x8, x4, #0x20
	ldr	x9, [x3, x8]
	str	x9, [x0, x8]
	orr	x8, x8, #0x8
	ldr	x9, [x3, x8]
	str	x9, [x0, x8]
	cmp	x4, #25
	b.lo	LBB46_7
LBB46_12:
	ldr	x8, [x3]
	str	x8, [x0]
	ldr	x8, [x3, #8]
	str	x8, [x0, #8]
	ldr	x8, [x3, #16]
	str	x8, [x0, #16]
	ldr	x8, [x3, #24]
	str	x8, [x0, #24]
	ret
	.cfi_endproc
	.p2align	2
_tlsf_words.cells.pack_many:
	.cfi_startproc
	and	x8, x1, #0xfffffffffffffffc
	lsl	x10, x8, #3
	add	x9, x0, x10
	add	x10, x2, x10
	tbnz	w1, #0, LBB47_4
	tbnz	w1, #1, LBB47_5
LBB47_2:
	sub	x9, x0, x2
	cmp	x9, #64
	b.hs	LBB47_6
LBB47_3:
	mov	x9, #0
	b	LBB47_9
LBB47_4:
	ubfiz	x11, x1, #3, #2
	sub	x11, x11, #8
	ldr	x12, [x10, x11]
	str	x12, [x9, x11]
	tbz	w1, #1, LBB47_2
LBB47_5:
	ldr	x11, [x10]
	str	x11, [x9]
	ldr	x10, [x10, #8]
	str	x10, [x9, #8]
	sub	x9, x0, x2
	cmp	x9, #64
	b.lo	LBB47_3
LBB47_6:
	and	x9, x1, #0xfffffffffffffff8
	add	x10, x2, #32
	add	x11, x0, #32
	mov	x12, x9
LBB47_7:
	ldp	q0, q1, [x10, #-32]
	ldp	q2, q3, [x10], #64
	stp	q0, q1, [x11, #-32]
	stp	q2, q3, [x11], #64
	subs	x12, x12, #8
	b.ne	LBB47_7
	cmp	x8, x9
	b.eq	LBB47_11
LBB47_9:
	sub	x8, x9, x8
	lsl	x10, x9, #3
	add	x9, x0, x10
	add	x10, x2, x10
LBB47_10:
	ldr	x11, [x10], #8
	str	x11, [x9], #8
	adds	x8, x8, #1
	b.lo	LBB47_10
LBB47_11:
	ret
	.cfi_endproc
	.p2align	2
_tlsf_words.words.Words.write_few:
	.cfi_startproc
	sub	sp, sp, #96
	.cfi_def_cfa_offset 96
	stp	x26, x25, [sp, #16]
	stp	x24, x23, [sp, #32]
	stp	x22, x21, [sp, #48]
	stp	x20, x19, [sp, #64]
	stp	x29, x30, [sp, #80]
	add	x29, sp, #80
	.cfi_def_cfa w29, 16
	.cfi_offset w30, -8
	.cfi_offset w29, -16
	.cfi_offset w19, -24
	.cfi_offset w20, -32
	.cfi_offset w21, -40
	.cfi_offset w22, -48
	.cfi_offset w23, -56
	.cfi_offset w24, -64
	.cfi_offset w25, -72
	.cfi_offset w26, -80
	mov	x20, x3
	mov	x19, x2
	mov	x22, x0
	and	x8, x1, #0x7
	mov	w9, #8
	sub	x24, x9, x8
	cmp	x24, x3
	csel	x21, x24, x3, lo
	and	x23, x1, #0xffffffff8
	cbz	x3, LBB48_2
	ldr	x25, [x22]
	ldr	x9, [x25, x23]
	str	x9, [sp, #8]
	add	x9, sp, #8
	orr	x0, x9, x8
	mov	x1, x19
	mov	x2, x21
	bl	_tlsf_memory_cpy
	ldr	x8, [sp, #8]
	str	x8, [x25, x23]
LBB48_2:
	cmp	x20, x24
	b.ls	LBB48_4
	sub	x2, x20, x21
	ldr	x8, [x22]
	add	x20, x8, x23
	ldr	x8, [x20, #8]
	str	x8, [sp, #8]
	add	x0, sp, #8
	add	x1, x19, x21
	bl	_tlsf_memory_cpy
	ldr	x8, [sp, #8]
	str	x8, [x20, #8]
LBB48_4:
	.cfi_def_cfa wsp, 96
	ldp	x29, x30, [sp, #80]
	ldp	x20, x19, [sp, #64]
	ldp	x22, x21, [sp, #48]
	ldp	x24, x23, [sp, #32]
	ldp	x26, x25, [sp, #16]
	add	sp, sp, #96
	.cfi_def_cfa_offset 0
	.cfi_restore w30
	.cfi_restore w29
	.cfi_restore w19
	.cfi_restore w20
	.cfi_restore w21
	.cfi_restore w22
	.cfi_restore w23
	.cfi_restore w24
	.cfi_restore w25
	.cfi_restore w26
	ret
	.cfi_endproc
	.p2align	2
_tlsf_words.words.Words.write_run:
	.cfi_startproc
	neg	w10, w1
	and	x9, x10, #0x7
	sub	x8, x3, x9
	sub	x11, x3, x9
	bfxil	x11, x10, #0, #3
	ands	x10, x1, #0x7
	b.eq	LBB49_2
	and	x12, x1, #0xffffffff8
	ldr	x13, [x0]
	ldr	x14, [x13, x12]
	ldr	x15, [x2]
	lsl	x10, x10, #3
	mov	x16, #-1
	lsl	x16, x16, x10
	bic	x14, x14, x16
	lsl	x10, x15, x10
	add	x10, x10, x14
	str	x10, [x13, x12]
LBB49_2:
	add	x10, x1, #7
	subs	x11, x3, x11
	b.eq	LBB49_4
	add	x12, x2, x3
	ldur	x12, [x12, #-8]
	lsl	x11, x11, #3
	neg	x13, x11
	lsr	x12, x12, x13
	ldr	x13, [x0]
	and	x14, x8, #0xfffffffffffffff8
	add	x14, x10, x14
	and	x14, x14, #0xfffffffffffffff8
	ldr	x15, [x13, x14]
	mov	x16, #-1
	lsl	x11, x16, x11
	bic	x12, x12, x11
	and	x11, x15, x11
	orr	x11, x11, x12
	str	x11, [x13, x14]
LBB49_4:
	add	x2, x2, x9
	ldr	x9, [x0]
	and	x10, x10, #0x1ffffffff8
	add	x0, x9, x10
	cmp	x8, #63
	b.hi	LBB49_9
	tbnz	w8, #3, LBB49_10
	tbnz	w8, #4, LBB49_11
LBB49_7:
	cmp	x8, #32
	b.hs	LBB49_12
LBB49_8:
	ret
LBB49_9:
	lsr	x1, x8, #3
	b	_tlsf_words.cells.pack_many
LBB49_10:
	and	x9, x8, #0x38
	sub	x9, x9, #8
	ldr	x10, [x2, x9]
	str	x10, [x0, x9]
	tbz	w8, #4, LBB49_7
LBB49_11:
	and	x9, x8, #0x20
	ldr	x10, [x2, x9]
	str	x10, [x0, x9]
	orr	x9, x9, #0x8
	ldr	x10, [x2, x9]
	str	x10, [x0, x9]
	cmp	x8, #32
	b.lo	LBB49_8
LBB49_12:
	ldr	x8, [x2]
	str	x8, [x0]
	ldr	x8, [x2, #8]
	str	x8, [x0, #8]
	ldr	x8, [x2, #16]
	str	x8, [x0, #16]
	ldr	x8, [x2, #24]
	str	x8, [x0, #24]
	ret
	.cfi_endproc
	.p2align	2
_tlsf_heap.region.Region.write.5:
	.cfi_startproc
	ubfiz	x8, x1, #3, #32
	add	x8, x8, w2, uxtw
	add	x1, x8, #24
	orr	w8, w4, w2
	tst	x8, #0x7
	b.eq	LBB50_3
	mov	x2, x3
	mov	x3, x4
	cmp	x4, #7
	b.hi	LBB50_8
	b	_tlsf_words.words.Words.write_few
LBB50_3:
	ldr	x8, [x0]
	add	x0, x8, x1
	cmp	x4, #63
	b.hi	LBB50_9
	tbnz	w4, #3, LBB50_10
	tbnz	w4, #4, LBB50_11
LBB50_6:
	cmp	x4, #25
	b.hs	LBB50_12
LBB50_7:
	ret
LBB50_8:
	b	_tlsf_words.words.Words.write_run
LBB50_9:
	lsr	x1, x4, #3
	mov	x2, x3
	b	_tlsf_words.cells.pack_many
LBB50_10:
	sub	x8, x4, #8
	ldr	x9, [x3, x8]
	str	x9, [x0, x8]
	tbz	w4, #4, LBB50_6
LBB50_11:
	and	x8, x4, #0x20
	ldr	x9, [x3, x8]
	str	x9, [x0, x8]
	orr	x8, x8, #0x8
	ldr	x9, [x3, x8]
	str	x9, [x0, x8]
	cmp	x4, #25
	b.lo	LBB50_7
LBB50_12:
	ldr	x8, [x3]
	str	x8, [x0]
	ldr	x8, [x3, #8]
	str	x8, [x0, #8]
	ldr	x8, [x3, #16]
	str	x8, [x0, #16]
	ldr	x8, [x3, #24]
	str	x8, [x0, #24]
	ret
	.cfi_endproc
	.globl	_tlsf_allocate
	.p2align	2
_tlsf_allocate:
	.cfi_startproc
	stp	x20, x19, [sp, #-32]!
	.cfi_def_cfa_offset 32
	stp	x29, x30, [sp, #16]
	add	x29, sp, #16
	.cfi_def_cfa w29, 16
	.cfi_offset w30, -8
	.cfi_offset w29, -16
	.cfi_offset w19, -24
	.cfi_offset w20, -32
	.cfi_remember_state
	ldrb	w8, [x0, #8]
	cbz	w8, LBB51_10
	ldr	x19, [x0]
	ldrb	w8, [x19]
	tbz	w8, #0, LBB51_10
	mov	w8, #-1
	cmp	x1, x8
	csel	x9, x1, x8, lo
	strb	wzr, [x19]
	ldrb	w11, [x19, #16]
	cmp	x1, #0
	cinc	x8, x9, eq
	add	x10, x8, #31
	lsr	x8, x10, #3
	cbz	w11, LBB51_6
	mov	w11, #7
	movk	w11, #2048, lsl #16
	cmp	x10, x11
	b.hi	LBB51_7
	orr	w10, w8, #0x20
	clz	w10, w10
	mov	w11, #26
	sub	w10, w11, w10
	sub	w11, w8, #1
	lsr	w13, w11, w10
	add	w10, w13, w10, lsl #5
	add	w10, w10, #1
	sub	x10, x10, #1
	lsr	x11, x10, #5
	add	x12, x19, #108
	ldr	w14, [x12, x11, lsl #2]
	lsr	w13, w14, w13
	ands	w13, w13, #0xfffffffe
	b.eq	LBB51_11
	rbit	w11, w13
	clz	w11, w11
	add	x15, x10, x11
	ldr	x10, [x19, #32]
	cmn	x10, #1
	b.ne	LBB51_13
	b	LBB51_19
LBB51_6:
	mov	w11, #7
	movk	w11, #128, lsl #16
	cmp	x10, x11
	b.ls	LBB51_8
LBB51_7:
	ldp	w8, w10, [x19, #8]
	adds	w8, w8, #1
	csinv	w8, w8, wzr, lo
	cmp	w9, w10
	csel	w9, w9, w10, hi
	stp	w8, w9, [x19, #8]
	mov	w0, #1
	b	LBB51_52
LBB51_8:
	orr	w10, w8, #0x10
	clz	w10, w10
	mov	w11, #27
	sub	w10, w11, w10
	sub	w11, w8, #1
	lsr	w13, w11, w10
	add	w10, w13, w10, lsl #4
	add	w10, w10, #1
	sub	x10, x10, #1
	lsr	x11, x10, #4
	add	x12, x19, #108
	ldr	w14, [x12, x11, lsl #2]
	and	w13, w13, #0xf
	lsr	w13, w14, w13
	ands	w13, w13, #0xfffffffe
	b.eq	LBB51_15
	rbit	w11, w13
	clz	w11, w11
	add	x15, x10, x11
	ldr	x11, [x19, #32]
	cmn	x11, #1
	b.ne	LBB51_17
	b	LBB51_19
LBB51_10:
	mov	w0, #0
	.cfi_def_cfa wsp, 32
	ldp	x29, x30, [sp, #16]
	ldp	x20, x19, [sp], #32
	.cfi_def_cfa_offset 0
	.cfi_restore w30
	.cfi_restore w29
	.cfi_restore w19
	.cfi_restore w20
	b	_tlsf_c.call_fault.CallFault.refusal
LBB51_11:
	.cfi_restore_state
	ldr	w10, [x19, #104]
	mov	w13, #-2
	lsl	w11, w13, w11
	ands	w10, w10, w11
	b.eq	LBB51_7
	rbit	w10, w10
	clz	w10, w10
	ldr	w11, [x12, w10, uxtw #2]
	rbit	w11, w11
	clz	w11, w11
	add	w15, w11, w10, lsl #5
	ldr	x10, [x19, #32]
	cmn	x10, #1
	b.eq	LBB51_19
LBB51_13:
	ldr	x14, [x19, #48]
	add	x13, x19, #192
	ldr	w11, [x13, x15, lsl #2]
	ubfiz	x16, x11, #3, #32
	add	x17, x14, x16
	ldr	x17, [x17, #16]
	cmn	w17, #1
	b.eq	LBB51_20
	ubfiz	x1, x17, #3, #32
	add	x14, x14, x1
	ldr	x1, [x14, #16]
	orr	x1, x1, #0xffffffff00000000
	str	x1, [x14, #16]
	str	w17, [x13, x15, lsl #2]
	ldr	x14, [x19, #48]
	b	LBB51_22
LBB51_15:
	ldr	w10, [x19, #104]
	mov	w13, #-2
	lsl	w11, w13, w11
	ands	w10, w10, w11
	b.eq	LBB51_7
	rbit	w10, w10
	clz	w10, w10
	ldr	w11, [x12, w10, uxtw #2]
	rbit	w11, w11
	clz	w11, w11
	add	w15, w11, w10, lsl #4
	ldr	x11, [x19, #32]
	cmn	x11, #1
	b.eq	LBB51_19
LBB51_17:
	ldr	x14, [x19, #48]
	add	x13, x19, #192
	ldr	w10, [x13, x15, lsl #2]
	ubfiz	x16, x10, #3, #32
	add	x17, x14, x16
	ldr	x17, [x17, #16]
	cmn	w17, #1
	b.eq	LBB51_34
	ubfiz	x1, x17, #3, #32
	add	x14, x14, x1
	ldr	x1, [x14, #16]
	orr	x1, x1, #0xffffffff00000000
	str	x1, [x14, #16]
	str	w17, [x13, x15, lsl #2]
	ldr	x14, [x19, #48]
	b	LBB51_36
LBB51_19:
	mov	w0, #2
	b	LBB51_52
LBB51_20:
	str	w17, [x13, x15, lsl #2]
	lsr	x17, x15, #3
	and	x1, x17, #0x1ffffffffffffffc
	ldr	w3, [x12, x1]
	mov	w17, #1
	lsl	w4, w17, w15
	bics	w3, w3, w4
	str	w3, [x12, x1]
	b.ne	LBB51_22
	lsr	x15, x15, #5
	ldr	w1, [x19, #104]
	lsl	w15, w17, w15
	bic	w15, w1, w15
	str	w15, [x19, #104]
LBB51_22:
	add	x17, x14, x16
	ldr	x15, [x17]
	sub	w16, w15, w8, lsl #2
	cmp	w16, #15
	b.hi	LBB51_24
	sub	x12, x15, #1
	stp	x12, x10, [x17]
	str	x9, [x17, #16]
	lsr	w9, w12, #2
	ldp	w12, w13, [x19, #40]
	add	w9, w12, w9
	cmp	w13, w9
	str	w9, [x19, #40]
	b.lo	LBB51_28
	b	LBB51_29
LBB51_24:
	orr	x1, x16, x11, lsl #32
	sub	x15, x15, x16
	str	x15, [x14, x11, lsl #3]
	add	w15, w11, w8
	stp	x10, x9, [x17, #8]
	ubfiz	x9, x15, #3, #32
	add	x14, x14, x9
	stp	x1, x10, [x14]
	ldr	x17, [x19, #72]
	lsr	w14, w15, #3
	and	x1, x14, #0x1ffffff8
	ldr	x3, [x17, x1]
	lsr	w14, w16, #2
	mov	w4, #1
	lsl	x4, x4, x15
	orr	x3, x3, x4
	str	x3, [x17, x1]
	tbnz	w16, #1, LBB51_26
	add	w16, w14, w15
	ldr	x17, [x19, #48]
	add	x16, x17, w16, uxtw #3
	str	w15, [x16, #4]
LBB51_26:
	orr	w16, w14, #0x20
	clz	w16, w16
	mov	w17, #26
	sub	w16, w17, w16
	lsr	w14, w14, w16
	add	w16, w14, w16, lsl #5
	ldr	w17, [x13, w16, uxtw #2]
	str	w15, [x13, w16, uxtw #2]
	ldr	x13, [x19, #48]
	tbnz	w17, #31, LBB51_42
	orr	x12, x17, #0xffffffff00000000
	add	x9, x13, x9
	str	x12, [x9, #16]
	add	x9, x13, x17, lsl #3
	str	w15, [x9, #20]
	mov	x9, x8
	ldp	w12, w13, [x19, #40]
	add	w9, w12, w9
	cmp	w13, w9
	str	w9, [x19, #40]
	b.hs	LBB51_29
LBB51_28:
	str	w9, [x19, #44]
LBB51_29:
	ldr	x9, [x19, #32]
	add	x9, x9, #1
	str	x9, [x19, #32]
	ldr	w9, [x19, #24]
	tbz	w8, #0, LBB51_32
	ldrb	w12, [x0, #28]
	tbnz	w12, #0, LBB51_32
	mov	w12, #1
	strb	w12, [x0, #28]
LBB51_32:
	stp	w9, w11, [x2]
	str	x10, [x2, #8]
	subs	w8, w8, #3
	b.eq	LBB51_51
	mov	x10, x11
	b	LBB51_50
LBB51_34:
	str	w17, [x13, x15, lsl #2]
	lsr	x17, x15, #2
	and	x1, x17, #0x3ffffffffffffffc
	ldr	w3, [x12, x1]
	and	w4, w15, #0xf
	mov	w17, #1
	lsl	w4, w17, w4
	bics	w3, w3, w4
	str	w3, [x12, x1]
	b.ne	LBB51_36
	lsr	x15, x15, #4
	ldr	w1, [x19, #104]
	lsl	w15, w17, w15
	bic	w15, w1, w15
	str	w15, [x19, #104]
LBB51_36:
	add	x17, x14, x16
	ldr	x15, [x17]
	sub	w16, w15, w8, lsl #2
	cmp	w16, #15
	b.hi	LBB51_38
	sub	x12, x15, #1
	stp	x12, x11, [x17]
	str	x9, [x17, #16]
	lsr	w9, w12, #2
	ldp	w12, w13, [x19, #40]
	add	w9, w12, w9
	cmp	w13, w9
	str	w9, [x19, #40]
	b.lo	LBB51_45
	b	LBB51_46
LBB51_38:
	orr	x1, x16, x10, lsl #32
	sub	x15, x15, x16
	str	x15, [x14, x10, lsl #3]
	add	w15, w10, w8
	stp	x11, x9, [x17, #8]
	ubfiz	x9, x15, #3, #32
	add	x14, x14, x9
	stp	x1, x11, [x14]
	ldr	x17, [x19, #72]
	lsr	w14, w15, #3
	and	x1, x14, #0x1ffffff8
	ldr	x3, [x17, x1]
	lsr	w14, w16, #2
	mov	w4, #1
	lsl	x4, x4, x15
	orr	x3, x3, x4
	str	x3, [x17, x1]
	tbnz	w16, #1, LBB51_40
	add	w16, w14, w15
	ldr	x17, [x19, #48]
	add	x16, x17, w16, uxtw #3
	str	w15, [x16, #4]
LBB51_40:
	orr	w16, w14, #0x10
	clz	w16, w16
	mov	w17, #27
	sub	w16, w17, w16
	lsr	w14, w14, w16
	add	w16, w14, w16, lsl #4
	ldr	w17, [x13, w16, uxtw #2]
	str	w15, [x13, w16, uxtw #2]
	ldr	x13, [x19, #48]
	tbnz	w17, #31, LBB51_43
	orr	x12, x17, #0xffffffff00000000
	add	x9, x13, x9
	str	x12, [x9, #16]
	add	x9, x13, x17, lsl #3
	str	w15, [x9, #20]
	b	LBB51_44
LBB51_42:
	add	x9, x13, x9
	mov	x13, #-1
	str	x13, [x9, #16]
	lsr	x9, x16, #5
	ldr	w13, [x19, #104]
	ldr	w15, [x12, x9, lsl #2]
	mov	w16, #1
	lsl	w17, w16, w9
	orr	w13, w13, w17
	str	w13, [x19, #104]
	lsl	w13, w16, w14
	orr	w13, w15, w13
	str	w13, [x12, x9, lsl #2]
	mov	x9, x8
	ldp	w12, w13, [x19, #40]
	add	w9, w12, w9
	cmp	w13, w9
	str	w9, [x19, #40]
	b.hs	LBB51_29
	b	LBB51_28
LBB51_43:
	add	x9, x13, x9
	mov	x13, #-1
	str	x13, [x9, #16]
	lsr	x9, x16, #4
	ldr	w13, [x19, #104]
	ldr	w15, [x12, x9, lsl #2]
	mov	w16, #1
	lsl	w17, w16, w9
	orr	w13, w13, w17
	str	w13, [x19, #104]
	and	w13, w14, #0xf
	lsl	w13, w16, w13
	orr	w13, w15, w13
	str	w13, [x12, x9, lsl #2]
LBB51_44:
	mov	x9, x8
	ldp	w12, w13, [x19, #40]
	add	w9, w12, w9
	cmp	w13, w9
	str	w9, [x19, #40]
	b.hs	LBB51_46
LBB51_45:
	str	w9, [x19, #44]
LBB51_46:
	ldr	x9, [x19, #32]
	add	x9, x9, #1
	str	x9, [x19, #32]
	ldr	w9, [x19, #24]
	tbz	w8, #0, LBB51_49
	ldrb	w12, [x0, #28]
	tbnz	w12, #0, LBB51_49
	mov	w12, #1
	strb	w12, [x0, #28]
LBB51_49:
	stp	w9, w10, [x2]
	str	x11, [x2, #8]
	subs	w8, w8, #3
	b.eq	LBB51_51
LBB51_50:
	ldr	x9, [x19, #48]
	add	w10, w10, #3
	add	x0, x9, w10, uxtw #3
	ubfiz	x1, x8, #3, #32
	bl	_bzero
LBB51_51:
	mov	w0, #0
LBB51_52:
	mov	w8, #1
	strb	w8, [x19]
	.cfi_def_cfa wsp, 32
	ldp	x29, x30, [sp, #16]
	ldp	x20, x19, [sp], #32
	.cfi_def_cfa_offset 0
	.cfi_restore w30
	.cfi_restore w29
	.cfi_restore w19
	.cfi_restore w20
	ret
	.cfi_endproc
	.globl	_tlsf_allocate_aligned
	.p2align	2
_tlsf_allocate_aligned:
	.cfi_startproc
	sub	sp, sp, #96
	.cfi_def_cfa_offset 96
	stp	x26, x25, [sp, #16]
	stp	x24, x23, [sp, #32]
	stp	x22, x21, [sp, #48]
	stp	x20, x19, [sp, #64]
	stp	x29, x30, [sp, #80]
	add	x29, sp, #80
	.cfi_def_cfa w29, 16
	.cfi_offset w30, -8
	.cfi_offset w29, -16
	.cfi_offset w19, -24
	.cfi_offset w20, -32
	.cfi_offset w21, -40
	.cfi_offset w22, -48
	.cfi_offset w23, -56
	.cfi_offset w24, -64
	.cfi_offset w25, -72
	.cfi_offset w26, -80
	.cfi_remember_state
	ldrb	w8, [x0, #8]
	cbz	w8, LBB52_14
	ldr	x21, [x0]
	ldrb	w8, [x21]
	tbz	w8, #0, LBB52_14
	mov	w8, #-1
	cmp	x1, x8
	csel	x22, x1, x8, lo
	strb	wzr, [x21]
	ldrb	w9, [x21, #16]
	ldr	x8, [x21, #32]
	cmn	x8, #5
	cbz	w9, LBB52_8
	b.hi	LBB52_9
	cmp	w2, #1
	csinc	w9, w2, wzr, hi
	mov	w11, #16777216
	cmp	w2, w11
	b.hi	LBB52_67
	cmp	x1, #0
	cinc	x10, x22, eq
	add	x10, x10, #31
	lsr	x19, x10, #3
	add	w10, w9, w19
	add	w10, w10, #4
	cmp	w10, w11
	b.hi	LBB52_67
	ldr	w23, [x21, #44]
	orr	w11, w10, #0x20
	clz	w11, w11
	mov	w12, #26
	sub	w11, w12, w11
	sub	w12, w10, #1
	lsr	w13, w12, w11
	add	w11, w13, w11, lsl #5
	add	w11, w11, #1
	sub	x11, x11, #1
	lsr	x12, x11, #5
	add	x24, x21, #108
	ldr	w14, [x24, x12, lsl #2]
	lsr	w13, w14, w13
	ands	w13, w13, #0xfffffffe
	b.eq	LBB52_15
	rbit	w12, w13
	clz	w12, w12
	add	x12, x11, x12
	b	LBB52_17
LBB52_8:
	b.ls	LBB52_10
LBB52_9:
	mov	x1, #0
	mov	w8, #1
	strb	w8, [x21]
	mov	x0, #8589934592
	b	LBB52_68
LBB52_10:
	cmp	w2, #1
	csinc	w9, w2, wzr, hi
	cmp	w2, #256, lsl #12
	b.hi	LBB52_67
	cmp	x1, #0
	cinc	x10, x22, eq
	add	x10, x10, #31
	lsr	x19, x10, #3
	add	w10, w9, w19
	add	w10, w10, #4
	cmp	w10, #256, lsl #12
	b.hi	LBB52_67
	ldr	w23, [x21, #44]
	orr	w11, w10, #0x10
	clz	w11, w11
	mov	w12, #27
	sub	w11, w12, w11
	sub	w12, w10, #1
	lsr	w13, w12, w11
	add	w11, w13, w11, lsl #4
	add	w11, w11, #1
	sub	x11, x11, #1
	lsr	x12, x11, #4
	add	x24, x21, #108
	ldr	w14, [x24, x12, lsl #2]
	and	w13, w13, #0xf
	lsr	w13, w14, w13
	ands	w13, w13, #0xfffffffe
	b.eq	LBB52_27
	rbit	w12, w13
	clz	w12, w12
	add	x12, x11, x12
	b	LBB52_29
LBB52_14:
	mov	w0, #0
	bl	_tlsf_c.call_fault.CallFault.refusal
	mov	x1, #0
	lsl	x0, x0, #32
	b	LBB52_68
LBB52_15:
	ldr	w11, [x21, #104]
	mov	w13, #-2
	lsl	w12, w13, w12
	ands	w11, w11, w12
	b.eq	LBB52_67
	rbit	w11, w11
	clz	w11, w11
	ldr	w12, [x24, w11, uxtw #2]
	rbit	w12, w12
	clz	w12, w12
	add	w12, w12, w11, lsl #5
LBB52_17:
	ldr	x11, [x21, #48]
	add	x25, x21, #192
	ldr	w26, [x25, x12, lsl #2]
	ubfiz	x20, x26, #3, #32
	add	x13, x11, x20
	ldr	x13, [x13, #16]
	cmn	w13, #1
	b.eq	LBB52_19
	ubfiz	x14, x13, #3, #32
	add	x11, x11, x14
	ldr	x14, [x11, #16]
	orr	x14, x14, #0xffffffff00000000
	str	x14, [x11, #16]
	str	w13, [x25, x12, lsl #2]
	ldr	x11, [x21, #48]
	b	LBB52_21
LBB52_19:
	str	w13, [x25, x12, lsl #2]
	lsr	x13, x12, #3
	and	x14, x13, #0x1ffffffffffffffc
	ldr	w15, [x24, x14]
	mov	w13, #1
	lsl	w16, w13, w12
	bics	w15, w15, w16
	str	w15, [x24, x14]
	b.ne	LBB52_21
	lsr	x12, x12, #5
	ldr	w14, [x21, #104]
	lsl	w12, w13, w12
	bic	w12, w14, w12
	str	w12, [x21, #104]
LBB52_21:
	add	x13, x11, x20
	ldr	x12, [x13]
	sub	w14, w12, w10, lsl #2
	cmp	w14, #15
	b.hi	LBB52_23
	sub	x10, x12, #1
	stp	x10, x8, [x13]
	str	xzr, [x13, #16]
	lsr	w10, w10, #2
	b	LBB52_40
LBB52_23:
	orr	x15, x14, x26, lsl #32
	sub	x12, x12, x14
	str	x12, [x11, x26, lsl #3]
	add	w12, w26, w10
	stp	x8, xzr, [x13, #8]
	ubfiz	x13, x12, #3, #32
	add	x11, x11, x13
	stp	x15, x8, [x11]
	ldr	x15, [x21, #72]
	lsr	w11, w12, #3
	and	x16, x11, #0x1ffffff8
	ldr	x17, [x15, x16]
	lsr	w11, w14, #2
	mov	w0, #1
	lsl	x0, x0, x12
	orr	x17, x17, x0
	str	x17, [x15, x16]
	tbnz	w14, #1, LBB52_25
	add	w14, w11, w12
	ldr	x15, [x21, #48]
	add	x14, x15, w14, uxtw #3
	str	w12, [x14, #4]
LBB52_25:
	orr	w14, w11, #0x20
	clz	w14, w14
	mov	w15, #26
	sub	w14, w15, w14
	lsr	w11, w11, w14
	add	w14, w11, w14, lsl #5
	ldr	w15, [x25, w14, uxtw #2]
	str	w12, [x25, w14, uxtw #2]
	ldr	x16, [x21, #48]
	tbnz	w15, #31, LBB52_39
	orr	x11, x15, #0xffffffff00000000
	add	x13, x16, x13
	str	x11, [x13, #16]
	add	x11, x16, x15, lsl #3
	str	w12, [x11, #20]
	b	LBB52_40
LBB52_27:
	ldr	w11, [x21, #104]
	mov	w13, #-2
	lsl	w12, w13, w12
	ands	w11, w11, w12
	b.eq	LBB52_67
	rbit	w11, w11
	clz	w11, w11
	ldr	w12, [x24, w11, uxtw #2]
	rbit	w12, w12
	clz	w12, w12
	add	w12, w12, w11, lsl #4
LBB52_29:
	ldr	x11, [x21, #48]
	add	x25, x21, #192
	ldr	w26, [x25, x12, lsl #2]
	ubfiz	x20, x26, #3, #32
	add	x13, x11, x20
	ldr	x13, [x13, #16]
	cmn	w13, #1
	b.eq	LBB52_31
	ubfiz	x14, x13, #3, #32
	add	x11, x11, x14
	ldr	x14, [x11, #16]
	orr	x14, x14, #0xffffffff00000000
	str	x14, [x11, #16]
	str	w13, [x25, x12, lsl #2]
	ldr	x11, [x21, #48]
	b	LBB52_33
LBB52_31:
	str	w13, [x25, x12, lsl #2]
	lsr	x13, x12, #2
	and	x14, x13, #0x3ffffffffffffffc
	ldr	w15, [x24, x14]
	and	w16, w12, #0xf
	mov	w13, #1
	lsl	w16, w13, w16
	bics	w15, w15, w16
	str	w15, [x24, x14]
	b.ne	LBB52_33
	lsr	x12, x12, #4
	ldr	w14, [x21, #104]
	lsl	w12, w13, w12
	bic	w12, w14, w12
	str	w12, [x21, #104]
LBB52_33:
	add	x13, x11, x20
	ldr	x12, [x13]
	sub	w14, w12, w10, lsl #2
	cmp	w14, #15
	b.hi	LBB52_35
	sub	x10, x12, #1
	stp	x10, x8, [x13]
	str	xzr, [x13, #16]
	lsr	w10, w10, #2
	b	LBB52_56
LBB52_35:
	orr	x15, x14, x26, lsl #32
	sub	x12, x12, x14
	str	x12, [x11, x26, lsl #3]
	add	w12, w26, w10
	stp	x8, xzr, [x13, #8]
	ubfiz	x13, x12, #3, #32
	add	x11, x11, x13
	stp	x15, x8, [x11]
	ldr	x15, [x21, #72]
	lsr	w11, w12, #3
	and	x16, x11, #0x1ffffff8
	ldr	x17, [x15, x16]
	lsr	w11, w14, #2
	mov	w0, #1
	lsl	x0, x0, x12
	orr	x17, x17, x0
	str	x17, [x15, x16]
	tbnz	w14, #1, LBB52_37
	add	w14, w11, w12
	ldr	x15, [x21, #48]
	add	x14, x15, w14, uxtw #3
	str	w12, [x14, #4]
LBB52_37:
	orr	w14, w11, #0x10
	clz	w14, w14
	mov	w15, #27
	sub	w14, w15, w14
	lsr	w11, w11, w14
	add	w14, w11, w14, lsl #4
	ldr	w15, [x25, w14, uxtw #2]
	str	w12, [x25, w14, uxtw #2]
	ldr	x16, [x21, #48]
	tbnz	w15, #31, LBB52_55
	orr	x11, x15, #0xffffffff00000000
	add	x13, x16, x13
	str	x11, [x13, #16]
	add	x11, x16, x15, lsl #3
	str	w12, [x11, #20]
	b	LBB52_56
LBB52_39:
	add	x12, x16, x13
	mov	x13, #-1
	str	x13, [x12, #16]
	lsr	x12, x14, #5
	ldr	w13, [x21, #104]
	ldr	w14, [x24, x12, lsl #2]
	mov	w15, #1
	lsl	w16, w15, w12
	orr	w13, w13, w16
	str	w13, [x21, #104]
	lsl	w11, w15, w11
	orr	w11, w14, w11
	str	w11, [x24, x12, lsl #2]
LBB52_40:
	ldp	w11, w12, [x21, #40]
	add	w10, w11, w10
	cmp	w12, w10
	str	w10, [x21, #40]
	b.hs	LBB52_42
	str	w10, [x21, #44]
LBB52_42:
	ldr	x10, [x21, #32]
	add	x10, x10, #1
	str	x10, [x21, #32]
	ldr	w10, [x21, #24]
	udiv	w11, w3, w9
	msub	w11, w11, w9, w3
	add	w11, w26, w11
	add	w11, w11, #3
	udiv	w12, w11, w9
	msub	w11, w12, w9, w11
	cbz	w11, LBB52_52
	add	w12, w9, w9, lsl #2
	sub	w11, w12, w11
	sub	w11, w11, #4
	udiv	w12, w11, w9
	msub	w9, w12, w9, w11
	add	w20, w9, #4
	stp	w10, w26, [sp]
	str	x8, [sp, #8]
	add	x0, x21, #24
	mov	x1, sp
	mov	x2, x20
	bl	_tlsf_heap.heap.Heap.resize_live.5
	tst	w0, #0xff
	b.ne	LBB52_65
	ldr	w8, [x21, #56]
	add	w26, w20, w26
	cmp	w26, w8
	b.hs	LBB52_63
	ldr	x8, [x21, #72]
	lsr	w9, w26, #3
	and	x9, x9, #0x1ffffff8
	ldr	x8, [x8, x9]
	lsr	x8, x8, x26
	tbz	w8, #0, LBB52_63
	ldr	x8, [x21, #48]
	ubfiz	x20, x26, #3, #32
	add	x10, x8, x20
	ldr	x9, [x10]
	tbz	w9, #0, LBB52_63
	lsr	w11, w9, #2
	cmp	w11, w19
	b.lo	LBB52_73
	ldr	x12, [x21, #32]
	cmn	x12, #1
	b.eq	LBB52_78
	ldr	x10, [x10, #16]
	tbnz	x10, #63, LBB52_79
	lsr	x11, x10, #29
	and	x11, x11, #0x3fffffff8
	add	x11, x8, x11
	ldr	x12, [x11, #16]
	cmn	w10, #1
	b.eq	LBB52_81
	bfxil	x12, x10, #0, #32
	str	x12, [x11, #16]
	add	x8, x8, w10, uxtw #3
	ubfx	x10, x10, #32, #31
	str	w10, [x8, #20]
	b	LBB52_87
LBB52_52:
	stp	w10, w26, [sp]
	mov	x24, x8
	str	x8, [sp, #8]
	add	x0, x21, #24
	mov	x1, sp
	mov	x2, x19
	bl	_tlsf_heap.heap.Heap.resize_live.5
	tst	w0, #0xff
	b.ne	LBB52_65
LBB52_54:
	ldr	w8, [x21, #40]
	cmp	w8, w23
	csel	w8, w8, w23, hi
	str	w8, [x21, #44]
	ldr	x8, [x21, #48]
	add	x8, x8, x20
	b	LBB52_71
LBB52_55:
	add	x12, x16, x13
	mov	x13, #-1
	str	x13, [x12, #16]
	lsr	x12, x14, #4
	ldr	w13, [x21, #104]
	ldr	w14, [x24, x12, lsl #2]
	mov	w15, #1
	lsl	w16, w15, w12
	orr	w13, w13, w16
	str	w13, [x21, #104]
	and	w11, w11, #0xf
	lsl	w11, w15, w11
	orr	w11, w14, w11
	str	w11, [x24, x12, lsl #2]
LBB52_56:
	ldp	w11, w12, [x21, #40]
	add	w10, w11, w10
	cmp	w12, w10
	str	w10, [x21, #40]
	b.hs	LBB52_58
	str	w10, [x21, #44]
LBB52_58:
	ldr	x10, [x21, #32]
	add	x10, x10, #1
	str	x10, [x21, #32]
	ldr	w10, [x21, #24]
	udiv	w11, w3, w9
	msub	w11, w11, w9, w3
	add	w11, w26, w11
	add	w11, w11, #3
	udiv	w12, w11, w9
	msub	w11, w12, w9, w11
	cbz	w11, LBB52_64
	add	w12, w9, w9, lsl #2
	sub	w11, w12, w11
	sub	w11, w11, #4
	udiv	w12, w11, w9
	msub	w9, w12, w9, w11
	add	w20, w9, #4
	stp	w10, w26, [sp]
	str	x8, [sp, #8]
	add	x0, x21, #24
	mov	x1, sp
	mov	x2, x20
	bl	_tlsf_heap.heap.Heap.resize_live.4
	tst	w0, #0xff
	b.ne	LBB52_65
	ldr	w8, [x21, #56]
	add	w26, w20, w26
	cmp	w26, w8
	b.hs	LBB52_63
	ldr	x8, [x21, #72]
	lsr	w9, w26, #3
	and	x9, x9, #0x1ffffff8
	ldr	x8, [x8, x9]
	lsr	x8, x8, x26
	tbz	w8, #0, LBB52_63
	ldr	x8, [x21, #48]
	ubfiz	x20, x26, #3, #32
	add	x10, x8, x20
	ldr	x9, [x10]
	tbnz	w9, #0, LBB52_72
LBB52_63:
	mov	w1, #3
	b	LBB52_66
LBB52_64:
	stp	w10, w26, [sp]
	mov	x24, x8
	str	x8, [sp, #8]
	add	x0, x21, #24
	mov	x1, sp
	mov	x2, x19
	bl	_tlsf_heap.heap.Heap.resize_live.4
	tst	w0, #0xff
	b.eq	LBB52_69
LBB52_65:
	tst	w1, #0xff
	b.eq	LBB52_67
LBB52_66:
	mov	w9, #1
	strb	w9, [x21]
Lloh0:
	adrp	x9, l_switch.table.tlsf_allocate_aligned@PAGE
Lloh1:
	add	x9, x9, l_switch.table.tlsf_allocate_aligned@PAGEOFF
	add	x9, x9, w1, sxtb #3
	mov	x1, #0
	ldur	x0, [x9, #-8]
	b	LBB52_68
LBB52_67:
	mov	x1, #0
	ldp	w8, w9, [x21, #8]
	adds	w8, w8, #1
	csinv	w8, w8, wzr, lo
	cmp	w22, w9
	csel	w9, w22, w9, hi
	stp	w8, w9, [x21, #8]
	mov	w8, #1
	strb	w8, [x21]
	mov	x0, #4294967296
LBB52_68:
	.cfi_def_cfa wsp, 96
	ldp	x29, x30, [sp, #80]
	ldp	x20, x19, [sp, #64]
	ldp	x22, x21, [sp, #48]
	ldp	x24, x23, [sp, #32]
	ldp	x26, x25, [sp, #16]
	add	sp, sp, #96
	.cfi_def_cfa_offset 0
	.cfi_restore w30
	.cfi_restore w29
	.cfi_restore w19
	.cfi_restore w20
	.cfi_restore w21
	.cfi_restore w22
	.cfi_restore w23
	.cfi_restore w24
	.cfi_restore w25
	.cfi_restore w26
	ret
LBB52_69:
	.cfi_restore_state
LBB52_70:
	ldr	w8, [x21, #40]
	cmp	w8, w23
	csel	w8, w8, w23, hi
	str	w8, [x21, #44]
	ldr	x8, [x21, #48]
	add	x8, x8, x20
LBB52_71:
	mov	x1, x24
	str	x22, [x8, #16]
	mov	w8, #1
	strb	w8, [x21]
	mov	w0, w26
	b	LBB52_68
LBB52_72:
	lsr	w11, w9, #2
	cmp	w11, w19
	b.hs	LBB52_74
LBB52_73:
	mov	w1, #5
	b	LBB52_66
LBB52_74:
	ldr	x12, [x21, #32]
	cmn	x12, #1
	b.eq	LBB52_78
	ldr	x10, [x10, #16]
	tbnz	x10, #63, LBB52_82
	lsr	x11, x10, #29
	and	x11, x11, #0x3fffffff8
	add	x11, x8, x11
	ldr	x12, [x11, #16]
	cmn	w10, #1
	b.eq	LBB52_84
	bfxil	x12, x10, #0, #32
	str	x12, [x11, #16]
	add	x8, x8, w10, uxtw #3
	ubfx	x10, x10, #32, #31
	str	w10, [x8, #20]
	b	LBB52_99
LBB52_78:
	mov	w1, #1
	b	LBB52_66
LBB52_79:
	orr	w12, w11, #0x20
	clz	w12, w12
	mov	w13, #26
	sub	w13, w13, w12
	lsr	w12, w11, w13
	add	w11, w12, w13, lsl #5
	cmn	w10, #1
	b.eq	LBB52_85
	ubfiz	x12, x10, #3, #32
	add	x8, x8, x12
	ldr	x12, [x8, #16]
	orr	x12, x12, #0xffffffff00000000
	str	x12, [x8, #16]
	str	w10, [x25, x11, lsl #2]
	b	LBB52_87
LBB52_81:
	orr	x8, x12, #0xffffffff
	str	x8, [x11, #16]
	b	LBB52_87
LBB52_82:
	orr	w12, w11, #0x10
	clz	w12, w12
	mov	w13, #27
	sub	w13, w13, w12
	lsr	w12, w11, w13
	add	w11, w12, w13, lsl #4
	cmn	w10, #1
	b.eq	LBB52_97
	ubfiz	x12, x10, #3, #32
	add	x8, x8, x12
	ldr	x12, [x8, #16]
	orr	x12, x12, #0xffffffff00000000
	str	x12, [x8, #16]
	str	w10, [x25, x11, lsl #2]
	b	LBB52_99
LBB52_84:
	orr	x8, x12, #0xffffffff
	str	x8, [x11, #16]
	b	LBB52_99
LBB52_85:
	mov	w8, #-1
	str	w8, [x25, x11, lsl #2]
	lsr	x8, x11, #3
	and	x10, x8, #0xffffffc
	ldr	w13, [x24, x10]
	mov	w8, #1
	lsl	w12, w8, w12
	bics	w12, w13, w12
	str	w12, [x24, x10]
	b.ne	LBB52_87
	lsr	x10, x11, #5
	ldr	w11, [x21, #104]
	lsl	w8, w8, w10
	bic	w8, w11, w8
	str	w8, [x21, #104]
LBB52_87:
	ldr	x8, [x21, #32]
	sub	w11, w9, w19, lsl #2
	cmp	w11, #15
	b.hi	LBB52_89
	ldr	x10, [x21, #48]
	sub	x9, x9, #1
	add	x10, x10, x20
	stp	x9, x8, [x10]
	str	xzr, [x10, #16]
	lsr	w19, w9, #2
	b	LBB52_94
LBB52_89:
	orr	x12, x11, x26, lsl #32
	add	w10, w26, w19
	sub	x9, x9, x11
	ldr	x13, [x21, #48]
	str	x9, [x13, x26, lsl #3]
	add	x9, x13, x20
	stp	x8, xzr, [x9, #8]
	ubfiz	x9, x10, #3, #32
	add	x13, x13, x9
	stp	x12, x8, [x13]
	ldr	x13, [x21, #72]
	lsr	w12, w10, #3
	and	x14, x12, #0x1ffffff8
	ldr	x15, [x13, x14]
	lsr	w12, w11, #2
	mov	w16, #1
	lsl	x16, x16, x10
	orr	x15, x15, x16
	str	x15, [x13, x14]
	tbnz	w11, #1, LBB52_91
	add	w11, w12, w10
	ldr	x13, [x21, #48]
	add	x11, x13, w11, uxtw #3
	str	w10, [x11, #4]
LBB52_91:
	orr	w11, w12, #0x20
	clz	w11, w11
	mov	w13, #26
	sub	w13, w13, w11
	lsr	w11, w12, w13
	add	w12, w11, w13, lsl #5
	ldr	w13, [x25, w12, uxtw #2]
	str	w10, [x25, w12, uxtw #2]
	ldr	x14, [x21, #48]
	tbnz	w13, #31, LBB52_93
	orr	x11, x13, #0xffffffff00000000
	add	x9, x14, x9
	str	x11, [x9, #16]
	add	x9, x14, x13, lsl #3
	str	w10, [x9, #20]
	b	LBB52_94
LBB52_93:
	add	x9, x14, x9
	mov	x10, #-1
	str	x10, [x9, #16]
	lsr	x9, x12, #5
	ldr	w10, [x21, #104]
	ldr	w12, [x24, x9, lsl #2]
	mov	w13, #1
	lsl	w14, w13, w9
	orr	w10, w10, w14
	str	w10, [x21, #104]
	lsl	w10, w13, w11
	orr	w10, w12, w10
	str	w10, [x24, x9, lsl #2]
LBB52_94:
	ldp	w9, w10, [x21, #40]
	add	w9, w9, w19
	cmp	w10, w9
	str	w9, [x21, #40]
	b.hs	LBB52_96
	str	w9, [x21, #44]
LBB52_96:
	mov	x24, x8
	add	x8, x8, #1
	str	x8, [x21, #32]
	add	x0, x21, #24
	mov	x1, sp
	bl	_tlsf_heap.heap.Heap.release_live.5
	b	LBB52_54
LBB52_97:
	mov	w8, #-1
	str	w8, [x25, x11, lsl #2]
	lsr	x8, x11, #2
	and	x10, x8, #0x1ffffffc
	ldr	w13, [x24, x10]
	and	w12, w12, #0xf
	mov	w8, #1
	lsl	w12, w8, w12
	bics	w12, w13, w12
	str	w12, [x24, x10]
	b.ne	LBB52_99
	lsr	x10, x11, #4
	ldr	w11, [x21, #104]
	lsl	w8, w8, w10
	bic	w8, w11, w8
	str	w8, [x21, #104]
LBB52_99:
	ldr	x8, [x21, #32]
	sub	w11, w9, w19, lsl #2
	cmp	w11, #15
	b.hi	LBB52_101
	ldr	x10, [x21, #48]
	sub	x9, x9, #1
	add	x10, x10, x20
	stp	x9, x8, [x10]
	str	xzr, [x10, #16]
	lsr	w19, w9, #2
	b	LBB52_106
LBB52_101:
	orr	x12, x11, x26, lsl #32
	add	w10, w26, w19
	sub	x9, x9, x11
	ldr	x13, [x21, #48]
	str	x9, [x13, x26, lsl #3]
	add	x9, x13, x20
	stp	x8, xzr, [x9, #8]
	ubfiz	x9, x10, #3, #32
	add	x13, x13, x9
	stp	x12, x8, [x13]
	ldr	x13, [x21, #72]
	lsr	w12, w10, #3
	and	x14, x12, #0x1ffffff8
	ldr	x15, [x13, x14]
	lsr	w12, w11, #2
	mov	w16, #1
	lsl	x16, x16, x10
	orr	x15, x15, x16
	str	x15, [x13, x14]
	tbnz	w11, #1, LBB52_103
	add	w11, w12, w10
	ldr	x13, [x21, #48]
	add	x11, x13, w11, uxtw #3
	str	w10, [x11, #4]
LBB52_103:
	orr	w11, w12, #0x10
	clz	w11, w11
	mov	w13, #27
	sub	w13, w13, w11
	lsr	w11, w12, w13
	add	w12, w11, w13, lsl #4
	ldr	w13, [x25, w12, uxtw #2]
	str	w10, [x25, w12, uxtw #2]
	ldr	x14, [x21, #48]
	tbnz	w13, #31, LBB52_105
	orr	x11, x13, #0xffffffff00000000
	add	x9, x14, x9
	str	x11, [x9, #16]
	add	x9, x14, x13, lsl #3
	str	w10, [x9, #20]
	b	LBB52_106
LBB52_105:
	add	x9, x14, x9
	mov	x10, #-1
	str	x10, [x9, #16]
	lsr	x9, x12, #4
	ldr	w10, [x21, #104]
	ldr	w12, [x24, x9, lsl #2]
	mov	w13, #1
	lsl	w14, w13, w9
	orr	w10, w10, w14
	str	w10, [x21, #104]
	and	w10, w11, #0xf
	lsl	w10, w13, w10
	orr	w10, w12, w10
	str	w10, [x24, x9, lsl #2]
LBB52_106:
	ldp	w9, w10, [x21, #40]
	add	w9, w9, w19
	cmp	w10, w9
	str	w9, [x21, #40]
	b.hs	LBB52_108
	str	w9, [x21, #44]
LBB52_108:
	mov	x24, x8
	add	x8, x8, #1
	str	x8, [x21, #32]
	add	x0, x21, #24
	mov	x1, sp
	bl	_tlsf_heap.heap.Heap.release_live.4
	b	LBB52_70
	.loh AdrpAdd	Lloh0, Lloh1
	.cfi_endproc
	.globl	_tlsf_allocate_payload
	.p2align	2
_tlsf_allocate_payload:
	.cfi_startproc
	ldrb	w9, [x0, #8]
	cbz	w9, LBB53_8
	mov	x8, x0
	mov	x0, #0
	mov	w9, #134217728
	cmp	x1, x9
	b.hi	LBB53_9
	ldr	x8, [x8]
	ldrb	w9, [x8]
	tbz	w9, #0, LBB53_9
	add	w9, w1, #7
	and	w10, w9, #0x1ffffff0
	orr	w11, w10, #0x8
	strb	wzr, [x8]
	ldrb	w12, [x8, #16]
	add	w9, w10, #39
	lsr	w9, w9, #3
	cbz	w12, LBB53_10
	mov	w12, #134217696
	cmp	w10, w12
	b.hi	LBB53_11
	orr	w10, w9, #0x20
	clz	w10, w10
	mov	w12, #26
	sub	w10, w12, w10
	sub	w12, w9, #1
	lsr	w14, w12, w10
	add	w10, w14, w10, lsl #5
	add	w10, w10, #1
	sub	x10, x10, #1
	lsr	x13, x10, #5
	add	x12, x8, #108
	ldr	w15, [x12, x13, lsl #2]
	lsr	w14, w15, w14
	ands	w14, w14, #0xfffffffe
	b.eq	LBB53_14
	rbit	w13, w14
	clz	w13, w13
	add	x17, x10, x13
	ldr	x14, [x8, #32]
	cmn	x14, #1
	b.ne	LBB53_16
LBB53_7:
	mov	x0, #0
	mov	w9, #1
	strb	w9, [x8]
	ret
LBB53_8:
	mov	x0, #0
LBB53_9:
	ret
LBB53_10:
	mov	w12, #8388576
	cmp	w10, w12
	b.ls	LBB53_12
LBB53_11:
	ldp	w9, w10, [x8, #8]
	adds	w9, w9, #1
	csinv	w9, w9, wzr, lo
	cmp	w11, w10
	csel	w10, w11, w10, hi
	stp	w9, w10, [x8, #8]
	mov	x0, #0
	mov	w9, #1
	strb	w9, [x8]
	ret
LBB53_12:
	orr	w10, w9, #0x10
	clz	w10, w10
	mov	w12, #27
	sub	w10, w12, w10
	sub	w12, w9, #1
	lsr	w14, w12, w10
	add	w10, w14, w10, lsl #4
	add	w10, w10, #1
	sub	x10, x10, #1
	lsr	x13, x10, #4
	add	x12, x8, #108
	ldr	w15, [x12, x13, lsl #2]
	and	w14, w14, #0xf
	lsr	w14, w15, w14
	ands	w14, w14, #0xfffffffe
	b.eq	LBB53_18
	rbit	w13, w14
	clz	w13, w13
	add	x17, x10, x13
	ldr	x14, [x8, #32]
	cmn	x14, #1
	b.ne	LBB53_20
	b	LBB53_7
LBB53_14:
	ldr	w10, [x8, #104]
	mov	w14, #-2
	lsl	w13, w14, w13
	ands	w10, w10, w13
	b.eq	LBB53_11
	rbit	w10, w10
	clz	w10, w10
	ldr	w13, [x12, w10, uxtw #2]
	rbit	w13, w13
	clz	w13, w13
	add	w17, w13, w10, lsl #5
	ldr	x14, [x8, #32]
	cmn	x14, #1
	b.eq	LBB53_7
LBB53_16:
	ldr	x15, [x8, #48]
	add	x13, x8, #192
	ldr	w16, [x13, x17, lsl #2]
	lsl	x10, x16, #3
	add	x0, x15, x10
	ldr	x0, [x0, #16]
	cmn	w0, #1
	b.eq	LBB53_22
	ubfiz	x1, x0, #3, #32
	add	x15, x15, x1
	ldr	x1, [x15, #16]
	orr	x1, x1, #0xffffffff00000000
	str	x1, [x15, #16]
	str	w0, [x13, x17, lsl #2]
	ldr	x15, [x8, #48]
	b	LBB53_24
LBB53_18:
	ldr	w10, [x8, #104]
	mov	w14, #-2
	lsl	w13, w14, w13
	ands	w10, w10, w13
	b.eq	LBB53_11
	rbit	w10, w10
	clz	w10, w10
	ldr	w13, [x12, w10, uxtw #2]
	rbit	w13, w13
	clz	w13, w13
	add	w17, w13, w10, lsl #4
	ldr	x14, [x8, #32]
	cmn	x14, #1
	b.eq	LBB53_7
LBB53_20:
	ldr	x15, [x8, #48]
	add	x13, x8, #192
	ldr	w16, [x13, x17, lsl #2]
	lsl	x10, x16, #3
	add	x0, x15, x10
	ldr	x0, [x0, #16]
	cmn	w0, #1
	b.eq	LBB53_30
	ubfiz	x1, x0, #3, #32
	add	x15, x15, x1
	ldr	x1, [x15, #16]
	orr	x1, x1, #0xffffffff00000000
	str	x1, [x15, #16]
	str	w0, [x13, x17, lsl #2]
	ldr	x15, [x8, #48]
	b	LBB53_32
LBB53_22:
	str	w0, [x13, x17, lsl #2]
	lsr	x0, x17, #3
	and	x1, x0, #0x1ffffffffffffffc
	ldr	w2, [x12, x1]
	mov	w0, #1
	lsl	w3, w0, w17
	bics	w2, w2, w3
	str	w2, [x12, x1]
	b.ne	LBB53_24
	lsr	x17, x17, #5
	ldr	w1, [x8, #104]
	lsl	w17, w0, w17
	bic	w17, w1, w17
	str	w17, [x8, #104]
LBB53_24:
	add	x0, x15, x10
	ldr	x1, [x0]
	sub	w17, w1, w9, lsl #2
	cmp	w17, #15
	b.hi	LBB53_26
	sub	x9, x1, #1
	stp	x9, x14, [x0]
	str	x11, [x0, #16]
	lsr	w9, w9, #2
	b	LBB53_40
LBB53_26:
	orr	x2, x17, x16, lsl #32
	sub	x1, x1, x17
	str	x1, [x15, x16, lsl #3]
	add	w16, w16, w9
	stp	x14, x11, [x0, #8]
	ubfiz	x11, x16, #3, #32
	add	x15, x15, x11
	stp	x2, x14, [x15]
	ldr	x15, [x8, #72]
	lsr	w14, w16, #3
	and	x0, x14, #0x1ffffff8
	ldr	x1, [x15, x0]
	lsr	w14, w17, #2
	mov	w2, #1
	lsl	x2, x2, x16
	orr	x1, x1, x2
	str	x1, [x15, x0]
	tbnz	w17, #1, LBB53_28
	add	w15, w14, w16
	ldr	x17, [x8, #48]
	add	x15, x17, w15, uxtw #3
	str	w16, [x15, #4]
LBB53_28:
	orr	w15, w14, #0x20
	clz	w15, w15
	mov	w17, #26
	sub	w15, w17, w15
	lsr	w14, w14, w15
	add	w15, w14, w15, lsl #5
	ldr	w17, [x13, w15, uxtw #2]
	str	w16, [x13, w15, uxtw #2]
	ldr	x13, [x8, #48]
	tbz	w17, #31, LBB53_37
	add	x11, x13, x11
	mov	x13, #-1
	str	x13, [x11, #16]
	lsr	x11, x15, #5
	ldr	w13, [x8, #104]
	ldr	w15, [x12, x11, lsl #2]
	mov	w16, #1
	lsl	w17, w16, w11
	orr	w13, w13, w17
	str	w13, [x8, #104]
	lsl	w13, w16, w14
	b	LBB53_39
LBB53_30:
	str	w0, [x13, x17, lsl #2]
	lsr	x0, x17, #2
	and	x1, x0, #0x3ffffffffffffffc
	ldr	w2, [x12, x1]
	and	w3, w17, #0xf
	mov	w0, #1
	lsl	w3, w0, w3
	bics	w2, w2, w3
	str	w2, [x12, x1]
	b.ne	LBB53_32
	lsr	x17, x17, #4
	ldr	w1, [x8, #104]
	lsl	w17, w0, w17
	bic	w17, w1, w17
	str	w17, [x8, #104]
LBB53_32:
	add	x0, x15, x10
	ldr	x1, [x0]
	sub	w17, w1, w9, lsl #2
	cmp	w17, #15
	b.hi	LBB53_34
	sub	x9, x1, #1
	stp	x9, x14, [x0]
	str	x11, [x0, #16]
	lsr	w9, w9, #2
	b	LBB53_40
LBB53_34:
	orr	x2, x17, x16, lsl #32
	sub	x1, x1, x17
	str	x1, [x15, x16, lsl #3]
	add	w16, w16, w9
	stp	x14, x11, [x0, #8]
	ubfiz	x11, x16, #3, #32
	add	x15, x15, x11
	stp	x2, x14, [x15]
	ldr	x15, [x8, #72]
	lsr	w14, w16, #3
	and	x0, x14, #0x1ffffff8
	ldr	x1, [x15, x0]
	lsr	w14, w17, #2
	mov	w2, #1
	lsl	x2, x2, x16
	orr	x1, x1, x2
	str	x1, [x15, x0]
	tbnz	w17, #1, LBB53_36
	add	w15, w14, w16
	ldr	x17, [x8, #48]
	add	x15, x17, w15, uxtw #3
	str	w16, [x15, #4]
LBB53_36:
	orr	w15, w14, #0x10
	clz	w15, w15
	mov	w17, #27
	sub	w15, w17, w15
	lsr	w14, w14, w15
	add	w15, w14, w15, lsl #4
	ldr	w17, [x13, w15, uxtw #2]
	str	w16, [x13, w15, uxtw #2]
	ldr	x13, [x8, #48]
	tbnz	w17, #31, LBB53_38
LBB53_37:
	orr	x12, x17, #0xffffffff00000000
	add	x11, x13, x11
	str	x12, [x11, #16]
	add	x11, x13, x17, lsl #3
	str	w16, [x11, #20]
	b	LBB53_40
LBB53_38:
	add	x11, x13, x11
	mov	x13, #-1
	str	x13, [x11, #16]
	lsr	x11, x15, #4
	ldr	w13, [x8, #104]
	ldr	w15, [x12, x11, lsl #2]
	mov	w16, #1
	lsl	w17, w16, w11
	orr	w13, w13, w17
	str	w13, [x8, #104]
	and	w13, w14, #0xf
	lsl	w13, w16, w13
LBB53_39:
	orr	w13, w15, w13
	str	w13, [x12, x11, lsl #2]
LBB53_40:
	ldp	w11, w12, [x8, #40]
	add	w9, w11, w9
	cmp	w12, w9
	str	w9, [x8, #40]
	b.hs	LBB53_42
	str	w9, [x8, #44]
LBB53_42:
	ldr	x9, [x8, #32]
	add	x9, x9, #1
	str	x9, [x8, #32]
	mov	w9, #1
	strb	w9, [x8]
	add	x0, x10, #24
	ret
	.cfi_endproc
	.globl	_tlsf_allocate_place
	.p2align	2
_tlsf_allocate_place:
	.cfi_startproc
	ldrb	w8, [x0, #8]
	cbz	w8, LBB54_6
	ldr	x8, [x0]
	ldrb	w9, [x8]
	cmp	w9, #1
	b.ne	LBB54_6
	mov	w9, #-1
	cmp	x1, x9
	csel	x10, x1, x9, lo
	strb	wzr, [x8]
	ldrb	w12, [x8, #16]
	cmp	x1, #0
	cinc	x9, x10, eq
	add	x11, x9, #31
	lsr	x9, x11, #3
	cbz	w12, LBB54_7
	mov	w12, #7
	movk	w12, #2048, lsl #16
	cmp	x11, x12
	b.hi	LBB54_8
	orr	w11, w9, #0x20
	clz	w11, w11
	mov	w12, #26
	sub	w11, w12, w11
	sub	w12, w9, #1
	lsr	w14, w12, w11
	add	w11, w14, w11, lsl #5
	add	w11, w11, #1
	sub	x11, x11, #1
	lsr	x13, x11, #5
	add	x12, x8, #108
	ldr	w15, [x12, x13, lsl #2]
	lsr	w14, w15, w14
	ands	w14, w14, #0xfffffffe
	b.eq	LBB54_11
	rbit	w13, w14
	clz	w13, w13
	add	x15, x11, x13
	ldr	x1, [x8, #32]
	cmn	x1, #1
	b.ne	LBB54_13
	b	LBB54_19
LBB54_6:
	mov	x1, #0
	mov	x0, #137438953472
	ret
LBB54_7:
	mov	w12, #7
	movk	w12, #128, lsl #16
	cmp	x11, x12
	b.ls	LBB54_9
LBB54_8:
	mov	w11, #0
	mov	x1, #0
	ldp	w9, w12, [x8, #8]
	adds	w9, w9, #1
	csinv	w9, w9, wzr, lo
	cmp	w10, w12
	csel	w10, w10, w12, hi
	stp	w9, w10, [x8, #8]
	mov	x9, #4294967296
	mov	w10, #1
	strb	w10, [x8]
	mov	w8, w11
	orr	x0, x9, x8
	ret
LBB54_9:
	orr	w11, w9, #0x10
	clz	w11, w11
	mov	w12, #27
	sub	w11, w12, w11
	sub	w12, w9, #1
	lsr	w14, w12, w11
	add	w11, w14, w11, lsl #4
	add	w11, w11, #1
	sub	x11, x11, #1
	lsr	x13, x11, #4
	add	x12, x8, #108
	ldr	w15, [x12, x13, lsl #2]
	and	w14, w14, #0xf
	lsr	w14, w15, w14
	ands	w14, w14, #0xfffffffe
	b.eq	LBB54_15
	rbit	w13, w14
	clz	w13, w13
	add	x15, x11, x13
	ldr	x1, [x8, #32]
	cmn	x1, #1
	b.ne	LBB54_17
	b	LBB54_19
LBB54_11:
	ldr	w11, [x8, #104]
	mov	w14, #-2
	lsl	w13, w14, w13
	ands	w11, w11, w13
	b.eq	LBB54_8
	rbit	w11, w11
	clz	w11, w11
	ldr	w13, [x12, w11, uxtw #2]
	rbit	w13, w13
	clz	w13, w13
	add	w15, w13, w11, lsl #5
	ldr	x1, [x8, #32]
	cmn	x1, #1
	b.eq	LBB54_19
LBB54_13:
	ldr	x14, [x8, #48]
	add	x13, x8, #192
	ldr	w11, [x13, x15, lsl #2]
	ubfiz	x16, x11, #3, #32
	add	x17, x14, x16
	ldr	x17, [x17, #16]
	cmn	w17, #1
	b.eq	LBB54_20
	ubfiz	x0, x17, #3, #32
	add	x14, x14, x0
	ldr	x0, [x14, #16]
	orr	x0, x0, #0xffffffff00000000
	str	x0, [x14, #16]
	str	w17, [x13, x15, lsl #2]
	ldr	x14, [x8, #48]
	b	LBB54_22
LBB54_15:
	ldr	w11, [x8, #104]
	mov	w14, #-2
	lsl	w13, w14, w13
	ands	w11, w11, w13
	b.eq	LBB54_8
	rbit	w11, w11
	clz	w11, w11
	ldr	w13, [x12, w11, uxtw #2]
	rbit	w13, w13
	clz	w13, w13
	add	w15, w13, w11, lsl #4
	ldr	x1, [x8, #32]
	cmn	x1, #1
	b.eq	LBB54_19
LBB54_17:
	ldr	x14, [x8, #48]
	add	x13, x8, #192
	ldr	w11, [x13, x15, lsl #2]
	ubfiz	x16, x11, #3, #32
	add	x17, x14, x16
	ldr	x17, [x17, #16]
	cmn	w17, #1
	b.eq	LBB54_28
	ubfiz	x0, x17, #3, #32
	add	x14, x14, x0
	ldr	x0, [x14, #16]
	orr	x0, x0, #0xffffffff00000000
	str	x0, [x14, #16]
	str	w17, [x13, x15, lsl #2]
	ldr	x14, [x8, #48]
	b	LBB54_30
LBB54_19:
	mov	w11, #0
	mov	x1, #0
	mov	x9, #8589934592
	mov	w10, #1
	strb	w10, [x8]
	mov	w8, w11
	orr	x0, x9, x8
	ret
LBB54_20:
	str	w17, [x13, x15, lsl #2]
	lsr	x17, x15, #3
	and	x0, x17, #0x1ffffffffffffffc
	ldr	w2, [x12, x0]
	mov	w17, #1
	lsl	w3, w17, w15
	bics	w2, w2, w3
	str	w2, [x12, x0]
	b.ne	LBB54_22
	lsr	x15, x15, #5
	ldr	w0, [x8, #104]
	lsl	w15, w17, w15
	bic	w15, w0, w15
	str	w15, [x8, #104]
LBB54_22:
	add	x17, x14, x16
	ldr	x15, [x17]
	sub	w16, w15, w9, lsl #2
	cmp	w16, #15
	b.hi	LBB54_24
	sub	x9, x15, #1
	stp	x9, x1, [x17]
	str	x10, [x17, #16]
	lsr	w9, w9, #2
	b	LBB54_37
LBB54_24:
	orr	x0, x16, x11, lsl #32
	sub	x15, x15, x16
	str	x15, [x14, x11, lsl #3]
	add	w15, w11, w9
	stp	x1, x10, [x17, #8]
	ubfiz	x10, x15, #3, #32
	add	x14, x14, x10
	stp	x0, x1, [x14]
	ldr	x17, [x8, #72]
	lsr	w14, w15, #3
	and	x0, x14, #0x1ffffff8
	ldr	x2, [x17, x0]
	lsr	w14, w16, #2
	mov	w3, #1
	lsl	x3, x3, x15
	orr	x2, x2, x3
	str	x2, [x17, x0]
	tbnz	w16, #1, LBB54_26
	add	w16, w14, w15
	ldr	x17, [x8, #48]
	add	x16, x17, w16, uxtw #3
	str	w15, [x16, #4]
LBB54_26:
	orr	w16, w14, #0x20
	clz	w16, w16
	mov	w17, #26
	sub	w16, w17, w16
	lsr	w14, w14, w16
	add	w16, w14, w16, lsl #5
	ldr	w17, [x13, w16, uxtw #2]
	str	w15, [x13, w16, uxtw #2]
	ldr	x13, [x8, #48]
	tbnz	w17, #31, LBB54_36
	orr	x12, x17, #0xffffffff00000000
	add	x10, x13, x10
	str	x12, [x10, #16]
	add	x10, x13, x17, lsl #3
	str	w15, [x10, #20]
	b	LBB54_37
LBB54_28:
	str	w17, [x13, x15, lsl #2]
	lsr	x17, x15, #2
	and	x0, x17, #0x3ffffffffffffffc
	ldr	w2, [x12, x0]
	and	w3, w15, #0xf
	mov	w17, #1
	lsl	w3, w17, w3
	bics	w2, w2, w3
	str	w2, [x12, x0]
	b.ne	LBB54_30
	lsr	x15, x15, #4
	ldr	w0, [x8, #104]
	lsl	w15, w17, w15
	bic	w15, w0, w15
	str	w15, [x8, #104]
LBB54_30:
	add	x17, x14, x16
	ldr	x15, [x17]
	sub	w16, w15, w9, lsl #2
	cmp	w16, #15
	b.hi	LBB54_32
	sub	x9, x15, #1
	stp	x9, x1, [x17]
	str	x10, [x17, #16]
	lsr	w9, w9, #2
	b	LBB54_41
LBB54_32:
	orr	x0, x16, x11, lsl #32
	sub	x15, x15, x16
	str	x15, [x14, x11, lsl #3]
	add	w15, w11, w9
	stp	x1, x10, [x17, #8]
	ubfiz	x10, x15, #3, #32
	add	x14, x14, x10
	stp	x0, x1, [x14]
	ldr	x17, [x8, #72]
	lsr	w14, w15, #3
	and	x0, x14, #0x1ffffff8
	ldr	x2, [x17, x0]
	lsr	w14, w16, #2
	mov	w3, #1
	lsl	x3, x3, x15
	orr	x2, x2, x3
	str	x2, [x17, x0]
	tbnz	w16, #1, LBB54_34
	add	w16, w14, w15
	ldr	x17, [x8, #48]
	add	x16, x17, w16, uxtw #3
	str	w15, [x16, #4]
LBB54_34:
	orr	w16, w14, #0x10
	clz	w16, w16
	mov	w17, #27
	sub	w16, w17, w16
	lsr	w14, w14, w16
	add	w16, w14, w16, lsl #4
	ldr	w17, [x13, w16, uxtw #2]
	str	w15, [x13, w16, uxtw #2]
	ldr	x13, [x8, #48]
	tbnz	w17, #31, LBB54_40
	orr	x12, x17, #0xffffffff00000000
	add	x10, x13, x10
	str	x12, [x10, #16]
	add	x10, x13, x17, lsl #3
	str	w15, [x10, #20]
	b	LBB54_41
LBB54_36:
	add	x10, x13, x10
	mov	x13, #-1
	str	x13, [x10, #16]
	lsr	x10, x16, #5
	ldr	w13, [x8, #104]
	ldr	w15, [x12, x10, lsl #2]
	mov	w16, #1
	lsl	w17, w16, w10
	orr	w13, w13, w17
	str	w13, [x8, #104]
	lsl	w13, w16, w14
	orr	w13, w15, w13
	str	w13, [x12, x10, lsl #2]
LBB54_37:
	ldp	w10, w12, [x8, #40]
	add	w9, w10, w9
	cmp	w12, w9
	str	w9, [x8, #40]
	b.hs	LBB54_39
	str	w9, [x8, #44]
LBB54_39:
	mov	x9, #0
	ldr	x10, [x8, #32]
	add	x10, x10, #1
	str	x10, [x8, #32]
	mov	w10, #1
	strb	w10, [x8]
	mov	w8, w11
	orr	x0, x9, x8
	ret
LBB54_40:
	add	x10, x13, x10
	mov	x13, #-1
	str	x13, [x10, #16]
	lsr	x10, x16, #4
	ldr	w13, [x8, #104]
	ldr	w15, [x12, x10, lsl #2]
	mov	w16, #1
	lsl	w17, w16, w10
	orr	w13, w13, w17
	str	w13, [x8, #104]
	and	w13, w14, #0xf
	lsl	w13, w16, w13
	orr	w13, w15, w13
	str	w13, [x12, x10, lsl #2]
LBB54_41:
	ldp	w10, w12, [x8, #40]
	add	w9, w10, w9
	cmp	w12, w9
	str	w9, [x8, #40]
	b.hs	LBB54_43
	str	w9, [x8, #44]
LBB54_43:
	mov	x9, #0
	ldr	x10, [x8, #32]
	add	x10, x10, #1
	str	x10, [x8, #32]
	mov	w10, #1
	strb	w10, [x8]
	mov	w8, w11
	orr	x0, x9, x8
	ret
	.cfi_endproc
	.globl	_tlsf_block_at
	.p2align	2
_tlsf_block_at:
	.cfi_startproc
	ldrb	w8, [x0, #8]
	cbz	w8, LBB55_13
	ldr	x8, [x0]
	ldrb	w9, [x8]
	tbz	w9, #0, LBB55_13
	strb	wzr, [x8]
	ldrb	w10, [x8, #16]
	ldr	w9, [x8, #56]
	cmp	w1, w9
	cbz	w10, LBB55_7
	b.hs	LBB55_12
	ldr	x9, [x8, #72]
	lsr	w10, w1, #3
	and	x10, x10, #0x1ffffff8
	ldr	x9, [x9, x10]
	lsr	x9, x9, x1
	tbz	w9, #0, LBB55_12
	ldr	x9, [x8, #48]
	add	x11, x9, w1, uxtw #3
	ldp	x12, x9, [x11]
	lsr	w10, w12, #2
	tbnz	w12, #0, LBB55_10
LBB55_6:
	ldr	w12, [x11, #16]
	mov	w11, #1
	b	LBB55_11
LBB55_7:
	b.hs	LBB55_12
	ldr	x9, [x8, #72]
	lsr	w10, w1, #3
	and	x10, x10, #0x1ffffff8
	ldr	x9, [x9, x10]
	lsr	x9, x9, x1
	tbz	w9, #0, LBB55_12
	ldr	x9, [x8, #48]
	add	x11, x9, w1, uxtw #3
	ldp	x12, x9, [x11]
	lsr	w10, w12, #2
	tbz	w12, #0, LBB55_6
LBB55_10:
	mov	w11, #0
	mov	w12, #0
LBB55_11:
	mov	w0, #0
	mov	w13, #1
	strb	w13, [x8]
	stp	w1, w10, [x2]
	stp	w11, w12, [x2, #8]
	str	x9, [x2, #16]
	ret
LBB55_12:
	mov	w9, #1
	strb	w9, [x8]
	mov	w0, #4
	ret
LBB55_13:
	mov	w0, #0
	b	_tlsf_c.call_fault.CallFault.refusal
	.cfi_endproc
	.globl	_tlsf_check
	.p2align	2
_tlsf_check:
	.cfi_startproc
	ldrb	w8, [x0, #8]
	cbz	w8, LBB56_10
	stp	x24, x23, [sp, #-64]!
	.cfi_def_cfa_offset 64
	stp	x22, x21, [sp, #16]
	stp	x20, x19, [sp, #32]
	stp	x29, x30, [sp, #48]
	add	x29, sp, #48
	.cfi_def_cfa w29, 16
	.cfi_offset w30, -8
	.cfi_offset w29, -16
	.cfi_offset w19, -24
	.cfi_offset w20, -32
	.cfi_offset w21, -40
	.cfi_offset w22, -48
	.cfi_offset w23, -56
	.cfi_offset w24, -64
	.cfi_remember_state
	ldr	x20, [x0]
	ldrb	w8, [x20]
	cmp	w8, #1
	b.ne	LBB56_11
	mov	x19, x2
	strb	wzr, [x20]
	ldrb	w9, [x20, #16]
	ldr	w21, [x20, #56]
	sub	w8, w21, #4
	cmp	w1, w8
	cbz	w9, LBB56_12
	b.hi	LBB56_20
	ldr	x8, [x20, #72]
	lsr	w9, w1, #3
	and	x9, x9, #0x1ffffff8
	ldr	x8, [x8, x9]
	lsr	x8, x8, x1
	tbz	w8, #0, LBB56_20
	cbz	w19, LBB56_21
	mov	x23, x4
	mov	x22, x3
LBB56_7:
	add	x0, x20, #48
	mov	x24, x1
	bl	_tlsf_heap.check.examine
	and	w9, w0, #0xff
	cmp	w9, #1
	b.ne	LBB56_22
	mov	x8, x1
	cmp	w1, w21
	b.eq	LBB56_23
	mov	x1, x8
	subs	w19, w19, #1
	b.ne	LBB56_7
	b	LBB56_19
LBB56_10:
	.cfi_def_cfa wsp, 0
	.cfi_same_value w30
	.cfi_same_value w29
	.cfi_same_value w19
	.cfi_same_value w20
	.cfi_same_value w21
	.cfi_same_value w22
	.cfi_same_value w23
	.cfi_same_value w24
	mov	w0, #32
	ret
LBB56_11:
	.cfi_restore_state
	mov	w0, #32
	b	LBB56_26
LBB56_12:
	b.hi	LBB56_20
	ldr	x8, [x20, #72]
	lsr	w9, w1, #3
	and	x9, x9, #0x1ffffff8
	ldr	x8, [x8, x9]
	lsr	x8, x8, x1
	tbz	w8, #0, LBB56_20
	cbz	w19, LBB56_21
	mov	x23, x4
	mov	x22, x3
LBB56_16:
	add	x0, x20, #48
	mov	x24, x1
	bl	_tlsf_heap.check.examine
	and	w9, w0, #0xff
	cmp	w9, #1
	b.ne	LBB56_22
	mov	x8, x1
	cmp	w1, w21
	b.eq	LBB56_23
	mov	x1, x8
	subs	w19, w19, #1
	b.ne	LBB56_16
LBB56_19:
	mov	w0, #0
	mov	x1, x8
	b	LBB56_24
LBB56_20:
	mov	w8, #1
	strb	w8, [x20]
	mov	w0, #4
	b	LBB56_26
LBB56_21:
	mov	w0, #0
	b	LBB56_25
LBB56_22:
	mov	w0, #36
	mov	x3, x23
	mov	x1, x24
	b	LBB56_25
LBB56_23:
	mov	w1, #0
	mov	w0, #0
LBB56_24:
	mov	x3, x22
LBB56_25:
	mov	w8, #1
	strb	w8, [x20]
	str	w1, [x3]
LBB56_26:
	.cfi_def_cfa wsp, 64
	ldp	x29, x30, [sp, #48]
	ldp	x20, x19, [sp, #32]
	ldp	x22, x21, [sp, #16]
	ldp	x24, x23, [sp], #64
	.cfi_def_cfa_offset 0
	.cfi_restore w30
	.cfi_restore w29
	.cfi_restore w19
	.cfi_restore w20
	.cfi_restore w21
	.cfi_restore w22
	.cfi_restore w23
	.cfi_restore w24
	ret
	.cfi_endproc
	.globl	_tlsf_check_around
	.p2align	2
_tlsf_check_around:
	.cfi_startproc
	ldrb	w8, [x0, #8]
	cbz	w8, LBB57_5
	stp	x24, x23, [sp, #-64]!
	.cfi_def_cfa_offset 64
	stp	x22, x21, [sp, #16]
	stp	x20, x19, [sp, #32]
	stp	x29, x30, [sp, #48]
	add	x29, sp, #48
	.cfi_def_cfa w29, 16
	.cfi_offset w30, -8
	.cfi_offset w29, -16
	.cfi_offset w19, -24
	.cfi_offset w20, -32
	.cfi_offset w21, -40
	.cfi_offset w22, -48
	.cfi_offset w23, -56
	.cfi_offset w24, -64
	.cfi_remember_state
	ldr	x20, [x0]
	ldrb	w8, [x20]
	cmp	w8, #1
	b.ne	LBB57_6
	strb	wzr, [x20]
	ldrb	w9, [x20, #16]
	ldr	w21, [x20, #56]
	sub	w8, w21, #4
	cmp	w1, w8
	cbz	w9, LBB57_7
	b.hi	LBB57_14
	ldr	x8, [x20, #72]
	lsr	w9, w1, #3
	and	x9, x9, #0x1ffffff8
	ldr	x8, [x8, x9]
	lsr	x8, x8, x1
	tbnz	w8, #0, LBB57_9
	b	LBB57_14
LBB57_5:
	.cfi_def_cfa wsp, 0
	.cfi_same_value w30
	.cfi_same_value w29
	.cfi_same_value w19
	.cfi_same_value w20
	.cfi_same_value w21
	.cfi_same_value w22
	.cfi_same_value w23
	.cfi_same_value w24
	mov	w0, #32
	ret
LBB57_6:
	.cfi_restore_state
	.cfi_remember_state
	mov	w0, #32
	b	LBB57_18
LBB57_7:
	b.hi	LBB57_14
	ldr	x8, [x20, #72]
	lsr	w9, w1, #3
	and	x9, x9, #0x1ffffff8
	ldr	x8, [x8, x9]
	lsr	x8, x8, x1
	tbz	w8, #0, LBB57_14
LBB57_9:
	mov	x22, x2
	add	x0, x20, #48
	mov	x19, x1
	bl	_tlsf_heap.check.examine
	and	w8, w0, #0xff
	cmp	w8, #1
	b.ne	LBB57_15
	cbz	w19, LBB57_12
	ldur	x8, [x20, #48]
	add	x8, x8, w19, uxtw #3
	ldr	w19, [x8, #4]
	add	x0, x20, #48
	mov	x23, x1
	mov	x1, x19
	bl	_tlsf_heap.check.examine
	mov	x1, x23
	mov	x8, x22
	and	w9, w0, #0xff
	cmp	w9, #1
	b.ne	LBB57_16
LBB57_12:
	cmp	w1, w21
	b.ne	LBB57_19
	mov	w0, #0
	mov	w8, #1
	strb	w8, [x20]
	b	LBB57_18
LBB57_14:
	mov	w8, #1
	strb	w8, [x20]
	mov	w0, #4
	b	LBB57_18
LBB57_15:
	mov	x8, x22
LBB57_16:
	mov	w9, #1
	strb	w9, [x20]
LBB57_17:
	str	w19, [x8]
	mov	w0, #36
LBB57_18:
	.cfi_def_cfa wsp, 64
	ldp	x29, x30, [sp, #48]
	ldp	x20, x19, [sp, #32]
	ldp	x22, x21, [sp, #16]
	ldp	x24, x23, [sp], #64
	.cfi_def_cfa_offset 0
	.cfi_restore w30
	.cfi_restore w29
	.cfi_restore w19
	.cfi_restore w20
	.cfi_restore w21
	.cfi_restore w22
	.cfi_restore w23
	.cfi_restore w24
	ret
LBB57_19:
	.cfi_restore_state
	mov	x19, x1
	add	x0, x20, #48
	bl	_tlsf_heap.check.examine
	and	w8, w0, #0xff
	mov	w9, #1
	strb	w9, [x20]
	cmp	w8, #1
	mov	x8, x22
	b.ne	LBB57_17
	mov	w0, #0
	b	LBB57_18
	.cfi_endproc
	.globl	_tlsf_check_request
	.p2align	2
_tlsf_check_request:
	.cfi_startproc
	ldrb	w8, [x0, #8]
	cbz	w8, LBB58_7
	stp	x24, x23, [sp, #-64]!
	.cfi_def_cfa_offset 64
	stp	x22, x21, [sp, #16]
	stp	x20, x19, [sp, #32]
	stp	x29, x30, [sp, #48]
	add	x29, sp, #48
	.cfi_def_cfa w29, 16
	.cfi_offset w30, -8
	.cfi_offset w29, -16
	.cfi_offset w19, -24
	.cfi_offset w20, -32
	.cfi_offset w21, -40
	.cfi_offset w22, -48
	.cfi_offset w23, -56
	.cfi_offset w24, -64
	.cfi_remember_state
	ldr	x21, [x0]
	ldrb	w8, [x21]
	tbz	w8, #0, LBB58_8
	mov	w8, #-1
	cmp	x1, x8
	csel	x8, x1, x8, lo
	strb	wzr, [x21]
	ldrb	w10, [x21, #16]
	cmp	x1, #0
	cinc	x8, x8, eq
	add	x9, x8, #31
	lsr	x8, x9, #3
	cbz	w10, LBB58_9
	mov	w10, #7
	movk	w10, #2048, lsl #16
	cmp	x9, x10
	b.hi	LBB58_23
	orr	w9, w8, #0x20
	clz	w9, w9
	mov	w10, #26
	sub	w9, w10, w9
	sub	w10, w8, #1
	lsr	w12, w10, w9
	add	w9, w12, w9, lsl #5
	add	w9, w9, #1
	sub	x10, x9, #1
	lsr	x11, x10, #5
	add	x9, x21, #108
	ldr	w13, [x9, x11, lsl #2]
	lsr	w12, w13, w12
	ands	w12, w12, #0xfffffffe
	b.ne	LBB58_11
	ldr	w10, [x21, #104]
	mov	w12, #-2
	lsl	w11, w12, w11
	ands	w10, w10, w11
	b.eq	LBB58_23
	rbit	w10, w10
	clz	w10, w10
	ldr	w9, [x9, w10, uxtw #2]
	rbit	w9, w9
	clz	w9, w9
	add	w9, w9, w10, lsl #5
	add	x9, x21, x9, lsl #2
	ldr	w19, [x9, #192]
	cmn	w19, #1
	b.ne	LBB58_12
	b	LBB58_23
LBB58_7:
	.cfi_def_cfa wsp, 0
	.cfi_same_value w30
	.cfi_same_value w29
	.cfi_same_value w19
	.cfi_same_value w20
	.cfi_same_value w21
	.cfi_same_value w22
	.cfi_same_value w23
	.cfi_same_value w24
	mov	w0, #32
	ret
LBB58_8:
	.cfi_restore_state
	.cfi_remember_state
	mov	w0, #32
	b	LBB58_27
LBB58_9:
	mov	w10, #7
	movk	w10, #128, lsl #16
	cmp	x9, x10
	b.hi	LBB58_23
	orr	w9, w8, #0x10
	clz	w9, w9
	mov	w10, #27
	sub	w9, w10, w9
	sub	w10, w8, #1
	lsr	w12, w10, w9
	add	w9, w12, w9, lsl #4
	add	w9, w9, #1
	sub	x10, x9, #1
	lsr	x11, x10, #4
	add	x9, x21, #108
	ldr	w13, [x9, x11, lsl #2]
	and	w12, w12, #0xf
	lsr	w12, w13, w12
	ands	w12, w12, #0xfffffffe
	b.eq	LBB58_21
LBB58_11:
	rbit	w9, w12
	clz	w9, w9
	add	x9, x10, x9
	add	x9, x21, x9, lsl #2
	ldr	w19, [x9, #192]
	cmn	w19, #1
	b.eq	LBB58_23
LBB58_12:
	ldr	w22, [x21, #56]
	sub	w9, w22, #4
	cmp	w19, w9
	b.hi	LBB58_25
	ldr	x9, [x21, #72]
	lsr	w10, w19, #3
	and	x10, x10, #0x1ffffff8
	ldr	x9, [x9, x10]
	lsr	x9, x9, x19
	tbz	w9, #0, LBB58_25
	ldur	x9, [x21, #48]
	ldr	x24, [x9, w19, uxtw #3]
	tbz	w24, #0, LBB58_25
	lsr	w9, w24, #2
	cmp	w9, w8
	b.lo	LBB58_25
	mov	x23, x2
	add	x0, x21, #48
	mov	x1, x19
	bl	_tlsf_heap.check.examine
	and	w8, w0, #0xff
	cmp	w8, #1
	b.ne	LBB58_24
	mov	x20, x1
	cbz	w19, LBB58_19
	lsr	x19, x24, #32
	add	x0, x21, #48
	mov	x1, x19
	bl	_tlsf_heap.check.examine
	mov	x2, x23
	and	w8, w0, #0xff
	cmp	w8, #1
	b.ne	LBB58_25
LBB58_19:
	cmp	w20, w22
	b.ne	LBB58_28
	mov	w0, #0
	mov	w8, #1
	strb	w8, [x21]
	b	LBB58_27
LBB58_21:
	ldr	w10, [x21, #104]
	mov	w12, #-2
	lsl	w11, w12, w11
	ands	w10, w10, w11
	b.eq	LBB58_23
	rbit	w10, w10
	clz	w10, w10
	ldr	w9, [x9, w10, uxtw #2]
	rbit	w9, w9
	clz	w9, w9
	add	w9, w9, w10, lsl #4
	add	x9, x21, x9, lsl #2
	ldr	w19, [x9, #192]
	cmn	w19, #1
	b.ne	LBB58_12
LBB58_23:
	mov	w0, #1
	strb	w0, [x21]
	b	LBB58_27
LBB58_24:
	mov	x2, x23
LBB58_25:
	mov	w8, #1
	strb	w8, [x21]
LBB58_26:
	str	w19, [x2]
	mov	w0, #36
LBB58_27:
	.cfi_def_cfa wsp, 64
	ldp	x29, x30, [sp, #48]
	ldp	x20, x19, [sp, #32]
	ldp	x22, x21, [sp, #16]
	ldp	x24, x23, [sp], #64
	.cfi_def_cfa_offset 0
	.cfi_restore w30
	.cfi_restore w29
	.cfi_restore w19
	.cfi_restore w20
	.cfi_restore w21
	.cfi_restore w22
	.cfi_restore w23
	.cfi_restore w24
	ret
LBB58_28:
	.cfi_restore_state
	add	x0, x21, #48
	mov	x1, x20
	bl	_tlsf_heap.check.examine
	mov	x2, x23
	and	w8, w0, #0xff
	mov	w9, #1
	strb	w9, [x21]
	mov	x19, x20
	cmp	w8, #1
	b.ne	LBB58_26
	mov	w0, #0
	b	LBB58_27
	.cfi_endproc
	.globl	_tlsf_close
	.p2align	2
_tlsf_close:
	.cfi_startproc
	ldrb	w8, [x0, #8]
	cbz	w8, LBB59_8
	stp	x24, x23, [sp, #-64]!
	.cfi_def_cfa_offset 64
	stp	x22, x21, [sp, #16]
	stp	x20, x19, [sp, #32]
	stp	x29, x30, [sp, #48]
	add	x29, sp, #48
	.cfi_def_cfa w29, 16
	.cfi_offset w30, -8
	.cfi_offset w29, -16
	.cfi_offset w19, -24
	.cfi_offset w20, -32
	.cfi_offset w21, -40
	.cfi_offset w22, -48
	.cfi_offset w23, -56
	.cfi_offset w24, -64
	.cfi_remember_state
	ldr	x8, [x0]
	ldrb	w9, [x8]
	cmp	w9, #1
	b.ne	LBB59_9
	strb	wzr, [x0, #8]
	strb	wzr, [x8]
	ldr	x8, [x0]
	str	xzr, [x0]
	ldrb	w23, [x8, #16]
	ldr	x20, [x8, #48]
	ldp	x22, x19, [x8, #64]
	ldr	x21, [x8, #88]
	mov	x0, x8
	bl	_tlsf_memory_dealloc
	cbz	x22, LBB59_5
	mov	x0, x20
	bl	_tlsf_memory_dealloc
LBB59_5:
	cbz	x21, LBB59_7
	mov	x0, x19
	bl	_tlsf_memory_dealloc
LBB59_7:
	mov	w0, #0
	b	LBB59_10
LBB59_8:
	.cfi_def_cfa wsp, 0
	.cfi_same_value w30
	.cfi_same_value w29
	.cfi_same_value w19
	.cfi_same_value w20
	.cfi_same_value w21
	.cfi_same_value w22
	.cfi_same_value w23
	.cfi_same_value w24
	mov	w0, #32
	ret
LBB59_9:
	.cfi_restore_state
	mov	w0, #32
LBB59_10:
	.cfi_def_cfa wsp, 64
	ldp	x29, x30, [sp, #48]
	ldp	x20, x19, [sp, #32]
	ldp	x22, x21, [sp, #16]
	ldp	x24, x23, [sp], #64
	.cfi_def_cfa_offset 0
	.cfi_restore w30
	.cfi_restore w29
	.cfi_restore w19
	.cfi_restore w20
	.cfi_restore w21
	.cfi_restore w22
	.cfi_restore w23
	.cfi_restore w24
	ret
	.cfi_endproc
	.globl	_tlsf_counts
	.p2align	2
_tlsf_counts:
	.cfi_startproc
	ldrb	w8, [x0, #8]
	cbz	w8, LBB60_3
	ldr	x8, [x0]
	ldrb	w9, [x8]
	tbz	w9, #0, LBB60_3
	ldr	d0, [x8, #40]
	ldr	d1, [x8, #8]
	mov.d	v0[1], v1[0]
	str	q0, [x1]
	mov	w0, #0
	ret
LBB60_3:
	mov	w0, #0
	b	_tlsf_c.call_fault.CallFault.refusal
	.cfi_endproc
	.globl	_tlsf_drain
	.p2align	2
_tlsf_drain:
	.cfi_startproc
	stp	x28, x27, [sp, #-96]!
	.cfi_def_cfa_offset 96
	stp	x26, x25, [sp, #16]
	stp	x24, x23, [sp, #32]
	stp	x22, x21, [sp, #48]
	stp	x20, x19, [sp, #64]
	stp	x29, x30, [sp, #80]
	add	x29, sp, #80
	.cfi_def_cfa w29, 16
	.cfi_offset w30, -8
	.cfi_offset w29, -16
	.cfi_offset w19, -24
	.cfi_offset w20, -32
	.cfi_offset w21, -40
	.cfi_offset w22, -48
	.cfi_offset w23, -56
	.cfi_offset w24, -64
	.cfi_offset w25, -72
	.cfi_offset w26, -80
	.cfi_offset w27, -88
	.cfi_offset w28, -96
	.cfi_remember_state
	sub	sp, sp, #784
	ldrb	w8, [x0, #8]
	cbz	w8, LBB61_12
	mov	x21, x0
	ldr	x8, [x0]
	ldrb	w8, [x8]
	cmp	w8, #1
	b.ne	LBB61_12
	ldrb	w8, [x1, #8]
	cbz	w8, LBB61_12
	ldr	x24, [x1]
	ldrb	w8, [x24, #1]
	tbz	w8, #0, LBB61_12
	ldrb	w8, [x24]
	cmp	w8, #1
	b.ne	LBB61_14
	mov	x20, x2
	str	x3, [sp]
	strb	wzr, [x24, #1]
	add	x19, sp, #8
	add	x0, sp, #8
	mov	w1, #768
	bl	_bzero
	mov	w25, #0
	cbz	w20, LBB61_11
	add	x26, x19, #16
	mov	w27, #32
	b	LBB61_8
LBB61_7:
	add	w25, w25, w19
	sub	w20, w20, w19
	cmp	x19, x22
	ccmp	w20, #0, #4, hs
	b.eq	LBB61_11
LBB61_8:
	cmp	w20, #32
	csel	w22, w20, w27, lo
	add	x0, x24, #8
	add	x1, sp, #8
	mov	x2, x22
	bl	_tlsf_post.take_end.TakeEnd.take_slice
	mov	x19, x0
	cbz	x0, LBB61_7
	mov	x28, x26
	mov	x23, x19
LBB61_10:
	ldp	w1, w3, [x28, #-8]
	ldr	x2, [x28], #24
	mov	x0, x21
	bl	_tlsf_c.heap_calls.release_named
	subs	x23, x23, #1
	b.ne	LBB61_10
	b	LBB61_7
LBB61_11:
	ldr	x8, [sp]
	str	w25, [x8]
	mov	w8, #1
	strb	w8, [x24, #1]
	mov	w0, #0
	add	sp, sp, #784
	.cfi_def_cfa wsp, 96
	ldp	x29, x30, [sp, #80]
	ldp	x20, x19, [sp, #64]
	ldp	x22, x21, [sp, #48]
	ldp	x24, x23, [sp, #32]
	ldp	x26, x25, [sp, #16]
	ldp	x28, x27, [sp], #96
	.cfi_def_cfa_offset 0
	.cfi_restore w30
	.cfi_restore w29
	.cfi_restore w19
	.cfi_restore w20
	.cfi_restore w21
	.cfi_restore w22
	.cfi_restore w23
	.cfi_restore w24
	.cfi_restore w25
	.cfi_restore w26
	.cfi_restore w27
	.cfi_restore w28
	ret
LBB61_12:
	.cfi_restore_state
	.cfi_remember_state
	mov	w0, #0
LBB61_13:
	add	sp, sp, #784
	.cfi_def_cfa wsp, 96
	ldp	x29, x30, [sp, #80]
	ldp	x20, x19, [sp, #64]
	ldp	x22, x21, [sp, #48]
	ldp	x24, x23, [sp, #32]
	ldp	x26, x25, [sp, #16]
	ldp	x28, x27, [sp], #96
	.cfi_def_cfa_offset 0
	.cfi_restore w30
	.cfi_restore w29
	.cfi_restore w19
	.cfi_restore w20
	.cfi_restore w21
	.cfi_restore w22
	.cfi_restore w23
	.cfi_restore w24
	.cfi_restore w25
	.cfi_restore w26
	.cfi_restore w27
	.cfi_restore w28
	b	_tlsf_c.call_fault.CallFault.refusal
LBB61_14:
	.cfi_restore_state
	mov	w0, #2
	b	LBB61_13
	.cfi_endproc
	.globl	_tlsf_lane_open
	.p2align	2
_tlsf_lane_open:
	.cfi_startproc
	sub	sp, sp, #208
	.cfi_def_cfa_offset 208
	stp	x24, x23, [sp, #144]
	stp	x22, x21, [sp, #160]
	stp	x20, x19, [sp, #176]
	stp	x29, x30, [sp, #192]
	add	x29, sp, #192
	.cfi_def_cfa w29, 16
	.cfi_offset w30, -8
	.cfi_offset w29, -16
	.cfi_offset w19, -24
	.cfi_offset w20, -32
	.cfi_offset w21, -40
	.cfi_offset w22, -48
	.cfi_offset w23, -56
	.cfi_offset w24, -64
	.cfi_remember_state
	movi.2d	v0, #0000000000000000
	stp	q0, q0, [sp, #80]
	str	q0, [sp, #112]
	str	xzr, [sp, #128]
	stp	q0, q0, [sp, #32]
	str	q0, [sp, #64]
	stp	xzr, xzr, [sp, #16]
	str	xzr, [sp, #8]
	ldrb	w8, [x0, #8]
	tbnz	w8, #0, LBB62_2
	ldrb	w8, [x1, #8]
	tbz	w8, #0, LBB62_4
LBB62_2:
	mov	w0, #33
LBB62_3:
	.cfi_def_cfa wsp, 208
	ldp	x29, x30, [sp, #192]
	ldp	x20, x19, [sp, #176]
	ldp	x22, x21, [sp, #160]
	ldp	x24, x23, [sp, #144]
	add	sp, sp, #208
	.cfi_def_cfa_offset 0
	.cfi_restore w30
	.cfi_restore w29
	.cfi_restore w19
	.cfi_restore w20
	.cfi_restore w21
	.cfi_restore w22
	.cfi_restore w23
	.cfi_restore w24
	ret
LBB62_4:
	.cfi_restore_state
	sub	w8, w2, #1025
	cmn	w8, #1024
	b.hs	LBB62_6
	mov	w0, #5
	b	LBB62_3
LBB62_6:
	mov	x19, x2
	mov	x24, x0
	mov	x23, x1
	mov	w0, #384
	mov	w1, #8
	bl	_tlsf_memory_alloc
	tbz	w0, #0, LBB62_25
	mov	x20, x1
	mov	w21, w19
	add	x8, x21, x21, lsl #1
	lsl	x0, x8, #3
	mov	w1, #8
	bl	_tlsf_memory_alloc
	tbz	w0, #0, LBB62_13
	mov	x22, x1
	str	xzr, [x20]
	str	xzr, [x20, #128]
	str	xzr, [x20, #256]
	mov	w0, #48
	mov	w1, #8
	bl	_tlsf_memory_alloc
	tbz	w0, #0, LBB62_14
	mov	x19, x1
	mov	w8, #256
	strh	w8, [x1]
	stp	x20, x22, [x1, #8]
	stp	xzr, xzr, [x1, #32]
	str	x21, [x1, #24]
	mov	w8, #257
	strh	w8, [sp, #32]
	stp	x20, x22, [sp, #40]
	stp	xzr, xzr, [sp, #64]
	str	x21, [sp, #56]
	add	x0, sp, #80
	add	x1, sp, #32
	bl	_std_alloc.boxed.Box.new.91a8e04f462e8cea
	ldrb	w8, [sp, #80]
	cbz	w8, LBB62_18
	ldrb	w8, [sp, #88]
	ldr	x0, [sp, #96]
	ldr	x20, [sp, #112]
	cmp	w8, #1
	b.gt	LBB62_19
	ldr	x1, [sp, #104]
	cbnz	w8, LBB62_21
	add	x8, x0, #256
	; InlineAsm Start
	; InlineAsm End
	mov	w9, #1
	swpal	x9, x8, [x8]
	; InlineAsm Start
	; InlineAsm End
	cbnz	x8, LBB62_22
	b	LBB62_24
LBB62_13:
	mov	x0, x20
	bl	_tlsf_memory_dealloc
	b	LBB62_25
LBB62_14:
	; InlineAsm Start
	; InlineAsm End
	add	x19, x20, #256
	mov	w8, #1
	swpal	x8, x8, [x19]
	; InlineAsm Start
	; InlineAsm End
	cbz	x8, LBB62_16
	mov	x0, x20
	mov	x1, x22
	mov	x2, x21
	bl	_rtrb.release.drop_slow.23d795680250cb0d
LBB62_16:
	; InlineAsm Start
	; InlineAsm End
	mov	w8, #1
	swpal	x8, x8, [x19]
	; InlineAsm Start
	; InlineAsm End
	cbz	x8, LBB62_25
	mov	x0, x20
	mov	x1, x22
	mov	x2, x21
	bl	_rtrb.release.drop_slow.23d795680250cb0d
	b	LBB62_25
LBB62_18:
	mov	w0, #0
	ldr	x8, [sp, #88]
	str	x19, [x24]
	mov	w9, #1
	strb	w9, [x24, #8]
	stur	wzr, [x24, #9]
	str	wzr, [x24, #12]
	str	x8, [x23]
	strb	w9, [x23, #8]
	stur	wzr, [x23, #9]
	str	wzr, [x23, #12]
	b	LBB62_3
LBB62_19:
	cmp	w8, #2
	b.ne	LBB62_23
	bl	_std_alloc.arc.Arc.drop.c4a047e811255370
	str	x20, [sp, #8]
	ldur	q0, [sp, #120]
	stur	q0, [sp, #16]
	add	x0, sp, #8
	bl	_std_alloc.vec.Vec.drop.7ac45d8413b9ad54
	b	LBB62_24
LBB62_21:
	add	x8, x0, #256
	; InlineAsm Start
	; InlineAsm End
	mov	w9, #1
	swpal	x9, x8, [x8]
	; InlineAsm Start
	; InlineAsm End
	cbz	x8, LBB62_24
LBB62_22:
	mov	x2, x20
	bl	_rtrb.release.drop_slow.23d795680250cb0d
	b	LBB62_24
LBB62_23:
	bl	_std_alloc.arc.Arc.drop.c4a047e811255370
LBB62_24:
	mov	x0, x19
	bl	_std_alloc.boxed.Box.drop.7d8ec8058c3633cd
LBB62_25:
	mov	w0, #6
	b	LBB62_3
	.cfi_endproc
	.globl	_tlsf_locate
	.p2align	2
_tlsf_locate:
	.cfi_startproc
	stp	x20, x19, [sp, #-32]!
	.cfi_def_cfa_offset 32
	stp	x29, x30, [sp, #16]
	add	x29, sp, #16
	.cfi_def_cfa w29, 16
	.cfi_offset w30, -8
	.cfi_offset w29, -16
	.cfi_offset w19, -24
	.cfi_offset w20, -32
	.cfi_remember_state
	ldrb	w8, [x0, #8]
	cbz	w8, LBB63_10
	ldr	x19, [x0]
	ldrb	w8, [x19]
	tbz	w8, #0, LBB63_10
	lsr	x9, x1, #32
	strb	wzr, [x19]
	ldrb	w10, [x19, #16]
	ldr	w8, [x19, #24]
	cmp	w8, w1
	b.ne	LBB63_8
	ldr	w10, [x19, #56]
	mov	x8, x1
	cmp	w9, w10
	b.hs	LBB63_8
	ldr	x8, [x19, #72]
	lsr	x10, x1, #35
	and	x10, x10, #0x1ffffff8
	ldr	x8, [x8, x10]
	lsr	x10, x8, x9
	mov	x8, x1
	tbz	w10, #0, LBB63_8
	ldr	x10, [x19, #48]
	add	x9, x10, x9, lsl #3
	ldr	x11, [x9]
	mov	x8, x1
	tbnz	w11, #0, LBB63_8
	ldr	x11, [x9, #8]
	mov	x8, x1
	cmp	x11, x2
	b.ne	LBB63_8
	mov	w0, #0
	ldr	x8, [x9, #16]
	mov	w9, #1
	strb	w9, [x19]
	str	x10, [x3]
	str	w8, [x4]
	b	LBB63_9
LBB63_8:
	mov	x0, x1
	mov	x1, x8
	bl	_tlsf_heap.refusal.Refusal.of_name
	and	w8, w0, #0xff
	mov	w9, #1
	strb	w9, [x19]
	cmp	w8, #3
	mov	w8, #3
	cinc	w0, w8, eq
LBB63_9:
	.cfi_def_cfa wsp, 32
	ldp	x29, x30, [sp, #16]
	ldp	x20, x19, [sp], #32
	.cfi_def_cfa_offset 0
	.cfi_restore w30
	.cfi_restore w29
	.cfi_restore w19
	.cfi_restore w20
	ret
LBB63_10:
	.cfi_restore_state
	mov	w0, #0
	.cfi_def_cfa wsp, 32
	ldp	x29, x30, [sp, #16]
	ldp	x20, x19, [sp], #32
	.cfi_def_cfa_offset 0
	.cfi_restore w30
	.cfi_restore w29
	.cfi_restore w19
	.cfi_restore w20
	b	_tlsf_c.call_fault.CallFault.refusal
	.cfi_endproc
	.globl	_tlsf_offsets_allocate
	.p2align	2
_tlsf_offsets_allocate:
	.cfi_startproc
	ldrb	w8, [x0, #8]
	cbz	w8, LBB64_13
	ldr	x8, [x0]
	ldrb	w9, [x8, #1]
	tbz	w9, #0, LBB64_13
	ldrb	w9, [x8]
	cbnz	w9, LBB64_30
	strb	wzr, [x8, #1]
	ldrb	w10, [x8, #8]
	ldr	w9, [x8, #2752]
	cbz	w10, LBB64_8
	cbz	w9, LBB64_43
	udiv	x10, x1, x9
	msub	x9, x10, x9, x1
	cmp	x9, #0
	cinc	x9, x10, ne
	mov	w10, #4
	cmp	x9, #4
	csel	x10, x9, x10, hi
	mov	w11, #-1
	cmp	x10, x11
	csel	x11, x10, x11, lo
	mov	w10, #16777216
	cmp	x9, x10
	b.hi	LBB64_10
	orr	w9, w11, #0x20
	clz	w9, w9
	mov	w10, #26
	sub	w9, w10, w9
	sub	w10, w11, #1
	lsr	w12, w10, w9
	add	w9, w12, w9, lsl #5
	add	w9, w9, #1
	sub	x9, x9, #1
	lsr	x10, x9, #5
	add	x13, x8, #100
	ldr	w14, [x13, x10, lsl #2]
	lsr	w12, w14, w12
	ands	w12, w12, #0xfffffffe
	b.eq	LBB64_14
	rbit	w10, w12
	clz	w10, w10
	add	x16, x9, x10
	ldr	x9, [x8, #24]
	cmn	x9, #1
	b.ne	LBB64_16
	b	LBB64_22
LBB64_8:
	cbz	w9, LBB64_43
	udiv	x10, x1, x9
	msub	x9, x10, x9, x1
	cmp	x9, #0
	cinc	x9, x10, ne
	mov	w10, #4
	cmp	x9, #4
	csel	x10, x9, x10, hi
	mov	w11, #-1
	cmp	x10, x11
	csel	x11, x10, x11, lo
	cmp	x9, #256, lsl #12
	b.ls	LBB64_11
LBB64_10:
	mov	w0, #1
	strb	w0, [x8, #1]
	ret
LBB64_11:
	orr	w9, w11, #0x10
	clz	w9, w9
	mov	w10, #27
	sub	w9, w10, w9
	sub	w10, w11, #1
	lsr	w12, w10, w9
	add	w9, w12, w9, lsl #4
	add	w9, w9, #1
	sub	x9, x9, #1
	lsr	x10, x9, #4
	add	x13, x8, #100
	ldr	w14, [x13, x10, lsl #2]
	and	w12, w12, #0xf
	lsr	w12, w14, w12
	ands	w12, w12, #0xfffffffe
	b.eq	LBB64_18
	rbit	w10, w12
	clz	w10, w10
	add	x16, x9, x10
	ldr	x9, [x8, #24]
	cmn	x9, #1
	b.ne	LBB64_20
	b	LBB64_22
LBB64_13:
	mov	w0, #0
	b	_tlsf_c.call_fault.CallFault.refusal
LBB64_14:
	ldr	w9, [x8, #96]
	mov	w12, #-2
	lsl	w10, w12, w10
	ands	w9, w9, w10
	b.eq	LBB64_10
	rbit	w9, w9
	clz	w9, w9
	ldr	w10, [x13, w9, uxtw #2]
	rbit	w10, w10
	clz	w10, w10
	add	w16, w10, w9, lsl #5
	ldr	x9, [x8, #24]
	cmn	x9, #1
	b.eq	LBB64_22
LBB64_16:
	ldr	x15, [x8, #40]
	add	x14, x8, #184
	ldr	w10, [x14, x16, lsl #2]
	ubfiz	x12, x10, #3, #32
	add	x17, x15, x12
	ldr	x17, [x17, #16]
	cmn	w17, #1
	b.eq	LBB64_23
	ubfiz	x0, x17, #3, #32
	add	x15, x15, x0
	ldr	x0, [x15, #16]
	orr	x0, x0, #0xffffffff00000000
	str	x0, [x15, #16]
	str	w17, [x14, x16, lsl #2]
	ldr	x15, [x8, #40]
	b	LBB64_25
LBB64_18:
	ldr	w9, [x8, #96]
	mov	w12, #-2
	lsl	w10, w12, w10
	ands	w9, w9, w10
	b.eq	LBB64_10
	rbit	w9, w9
	clz	w9, w9
	ldr	w10, [x13, w9, uxtw #2]
	rbit	w10, w10
	clz	w10, w10
	add	w16, w10, w9, lsl #4
	ldr	x9, [x8, #24]
	cmn	x9, #1
	b.eq	LBB64_22
LBB64_20:
	ldr	x15, [x8, #40]
	add	x14, x8, #184
	ldr	w10, [x14, x16, lsl #2]
	ubfiz	x12, x10, #3, #32
	add	x17, x15, x12
	ldr	x17, [x17, #16]
	cmn	w17, #1
	b.eq	LBB64_31
	ubfiz	x0, x17, #3, #32
	add	x15, x15, x0
	ldr	x0, [x15, #16]
	orr	x0, x0, #0xffffffff00000000
	str	x0, [x15, #16]
	str	w17, [x14, x16, lsl #2]
	ldr	x15, [x8, #40]
	b	LBB64_33
LBB64_22:
	mov	w9, #1
	strb	w9, [x8, #1]
	mov	w0, #2
	ret
LBB64_23:
	str	w17, [x14, x16, lsl #2]
	lsr	x17, x16, #3
	and	x0, x17, #0x1ffffffffffffffc
	ldr	w1, [x13, x0]
	mov	w17, #1
	lsl	w3, w17, w16
	bics	w1, w1, w3
	str	w1, [x13, x0]
	b.ne	LBB64_25
	lsr	x16, x16, #5
	ldr	w0, [x8, #96]
	lsl	w16, w17, w16
	bic	w16, w0, w16
	str	w16, [x8, #96]
LBB64_25:
	add	x17, x15, x12
	ldr	x16, [x17]
	sub	w0, w16, w11, lsl #2
	cmp	w0, #15
	b.ls	LBB64_34
	orr	x1, x0, x10, lsl #32
	sub	x16, x16, x0
	str	x16, [x15, x10, lsl #3]
	add	w16, w10, w11
	stp	x9, xzr, [x17, #8]
	ubfiz	x17, x16, #3, #32
	add	x15, x15, x17
	stp	x1, x9, [x15]
	ldr	x1, [x8, #64]
	lsr	w15, w16, #3
	and	x3, x15, #0x1ffffff8
	ldr	x4, [x1, x3]
	lsr	w15, w0, #2
	mov	w5, #1
	lsl	x5, x5, x16
	orr	x4, x4, x5
	str	x4, [x1, x3]
	tbnz	w0, #1, LBB64_28
	add	w0, w15, w16
	ldr	x1, [x8, #40]
	add	x0, x1, w0, uxtw #3
	str	w16, [x0, #4]
LBB64_28:
	orr	w0, w15, #0x20
	clz	w0, w0
	mov	w1, #26
	sub	w0, w1, w0
	lsr	w15, w15, w0
	add	w0, w15, w0, lsl #5
	ldr	w1, [x14, w0, uxtw #2]
	str	w16, [x14, w0, uxtw #2]
	ldr	x14, [x8, #40]
	tbz	w1, #31, LBB64_38
	add	x14, x14, x17
	mov	x16, #-1
	str	x16, [x14, #16]
	lsr	x14, x0, #5
	ldr	w16, [x8, #96]
	ldr	w17, [x13, x14, lsl #2]
	mov	w0, #1
	lsl	w1, w0, w14
	orr	w16, w16, w1
	str	w16, [x8, #96]
	b	LBB64_42
LBB64_30:
	mov	w0, #2
	b	_tlsf_c.call_fault.CallFault.refusal
LBB64_31:
	str	w17, [x14, x16, lsl #2]
	lsr	x17, x16, #2
	and	x0, x17, #0x3ffffffffffffffc
	ldr	w1, [x13, x0]
	and	w3, w16, #0xf
	mov	w17, #1
	lsl	w3, w17, w3
	bics	w1, w1, w3
	str	w1, [x13, x0]
	b.ne	LBB64_33
	lsr	x16, x16, #4
	ldr	w0, [x8, #96]
	lsl	w16, w17, w16
	bic	w16, w0, w16
	str	w16, [x8, #96]
LBB64_33:
	add	x17, x15, x12
	ldr	x16, [x17]
	sub	w0, w16, w11, lsl #2
	cmp	w0, #15
	b.hi	LBB64_35
LBB64_34:
	sub	x11, x16, #1
	stp	x11, x9, [x17]
	str	xzr, [x17, #16]
	lsr	w11, w11, #2
	ldp	w13, w14, [x8, #32]
	add	w11, w13, w11
	cmp	w14, w11
	str	w11, [x8, #32]
	b.lo	LBB64_39
	b	LBB64_40
LBB64_35:
	orr	x1, x0, x10, lsl #32
	sub	x16, x16, x0
	str	x16, [x15, x10, lsl #3]
	add	w16, w10, w11
	stp	x9, xzr, [x17, #8]
	ubfiz	x17, x16, #3, #32
	add	x15, x15, x17
	stp	x1, x9, [x15]
	ldr	x1, [x8, #64]
	lsr	w15, w16, #3
	and	x3, x15, #0x1ffffff8
	ldr	x4, [x1, x3]
	lsr	w15, w0, #2
	mov	w5, #1
	lsl	x5, x5, x16
	orr	x4, x4, x5
	str	x4, [x1, x3]
	tbnz	w0, #1, LBB64_37
	add	w0, w15, w16
	ldr	x1, [x8, #40]
	add	x0, x1, w0, uxtw #3
	str	w16, [x0, #4]
LBB64_37:
	orr	w0, w15, #0x10
	clz	w0, w0
	mov	w1, #27
	sub	w0, w1, w0
	lsr	w15, w15, w0
	add	w0, w15, w0, lsl #4
	ldr	w1, [x14, w0, uxtw #2]
	str	w16, [x14, w0, uxtw #2]
	ldr	x14, [x8, #40]
	tbnz	w1, #31, LBB64_41
LBB64_38:
	orr	x13, x1, #0xffffffff00000000
	add	x15, x14, x17
	str	x13, [x15, #16]
	add	x13, x14, x1, lsl #3
	str	w16, [x13, #20]
	ldp	w13, w14, [x8, #32]
	add	w11, w13, w11
	cmp	w14, w11
	str	w11, [x8, #32]
	b.hs	LBB64_40
LBB64_39:
	str	w11, [x8, #36]
LBB64_40:
	ldr	x11, [x8, #24]
	add	x11, x11, #1
	str	x11, [x8, #24]
	ldr	w11, [x8, #16]
	ldr	x13, [x8, #40]
	add	w14, w10, #3
	str	xzr, [x13, w14, uxtw #3]
	ldr	x13, [x8, #40]
	add	x12, x13, x12
	mov	w0, #0
	ldr	x12, [x12]
	ldr	w13, [x8, #2752]
	umull	x14, w10, w13
	lsr	w12, w12, #2
	mov	w15, #1
	strb	w15, [x8, #1]
	umull	x8, w12, w13
	stp	w11, w10, [x2]
	stp	x9, x14, [x2, #8]
	str	x8, [x2, #24]
	ret
LBB64_41:
	add	x14, x14, x17
	mov	x16, #-1
	str	x16, [x14, #16]
	lsr	x14, x0, #4
	ldr	w16, [x8, #96]
	ldr	w17, [x13, x14, lsl #2]
	mov	w0, #1
	lsl	w1, w0, w14
	orr	w16, w16, w1
	str	w16, [x8, #96]
	and	w15, w15, #0xf
LBB64_42:
	lsl	w15, w0, w15
	orr	w15, w17, w15
	str	w15, [x13, x14, lsl #2]
	ldp	w13, w14, [x8, #32]
	add	w11, w13, w11
	cmp	w14, w11
	str	w11, [x8, #32]
	b.lo	LBB64_39
	b	LBB64_40
LBB64_43:
	brk	#0x1
	.cfi_endproc
	.globl	_tlsf_offsets_close
	.p2align	2
_tlsf_offsets_close:
	.cfi_startproc
	ldrb	w8, [x0, #8]
	cbz	w8, LBB65_4
	ldr	x8, [x0]
	ldrb	w9, [x8, #1]
	cmp	w9, #1
	b.ne	LBB65_4
	ldrb	w8, [x8]
	cbz	w8, LBB65_5
	mov	w0, #40
	ret
LBB65_4:
	mov	w0, #32
	ret
LBB65_5:
	stp	x29, x30, [sp, #-16]!
	.cfi_def_cfa_offset 16
	mov	x29, sp
	.cfi_def_cfa w29, 16
	.cfi_offset w30, -8
	.cfi_offset w29, -16
	bl	_tlsf_c.arena_slot.ArenaSlot.close
	mov	w0, #0
	.cfi_def_cfa wsp, 16
	ldp	x29, x30, [sp], #16
	.cfi_def_cfa_offset 0
	.cfi_restore w30
	.cfi_restore w29
	ret
	.cfi_endproc
	.section	__TEXT,__literal16,16byte_literals
	.p2align	4, 0x0
lCPI66_0:
	.quad	-4294967277
	.quad	0
lCPI66_1:
	.quad	1
	.quad	0
	.section	__TEXT,__literal8,8byte_literals
	.p2align	3, 0x0
lCPI66_2:
	.long	1
	.long	16
	.section	__TEXT,__text,regular,pure_instructions
	.globl	_tlsf_offsets_open
	.p2align	2
_tlsf_offsets_open:
	.cfi_startproc
	ldrb	w8, [x0, #8]
	tbz	w8, #0, LBB66_2
	mov	w0, #33
	ret
LBB66_2:
	sub	w8, w1, #6
	cmn	w8, #2
	b.hs	LBB66_4
	mov	w0, #34
	ret
LBB66_4:
	stp	x28, x27, [sp, #-96]!
	.cfi_def_cfa_offset 96
	stp	x26, x25, [sp, #16]
	stp	x24, x23, [sp, #32]
	stp	x22, x21, [sp, #48]
	stp	x20, x19, [sp, #64]
	stp	x29, x30, [sp, #80]
	add	x29, sp, #80
	.cfi_def_cfa w29, 16
	.cfi_offset w30, -8
	.cfi_offset w29, -16
	.cfi_offset w19, -24
	.cfi_offset w20, -32
	.cfi_offset w21, -40
	.cfi_offset w22, -48
	.cfi_offset w23, -56
	.cfi_offset w24, -64
	.cfi_offset w25, -72
	.cfi_offset w26, -80
	.cfi_offset w27, -88
	.cfi_offset w28, -96
	mov	x24, x0
	mov	w0, #5
	cmp	w1, #4
	b.ne	LBB66_11
	cbz	w3, LBB66_29
	sub	w8, w4, #256, lsl #12
	sub	w8, w8, #1
	mov	w9, #-1048573
	cmp	w8, w9
	b.lo	LBB66_29
	mov	x26, x3
	mov	x23, x2
	mov	x25, x1
	mov	x19, x4
	ubfiz	x0, x4, #3, #32
	mov	w1, #8
	bl	_tlsf_memory_alloc
	tbz	w0, #0, LBB66_20
	mov	x21, x1
	movi.2d	v0, #0000000000000000
	stp	q0, q0, [x1]
	add	w8, w19, #63
	lsr	w27, w8, #6
	ubfiz	x0, x27, #3, #32
	mov	w1, #8
	bl	_tlsf_memory_alloc
	tbz	w0, #0, LBB66_21
	mov	x22, x1
	str	xzr, [x1]
Lloh2:
	adrp	x8, lCPI66_0@PAGE
Lloh3:
	ldr	q0, [x8, lCPI66_0@PAGEOFF]
	str	q0, [x21]
	ldr	x8, [x1]
	orr	x8, x8, #0x1
	str	x8, [x1]
	mov	x8, #-1
	str	x8, [x21, #16]
	mov	w0, #2760
	mov	w1, #8
	bl	_tlsf_memory_alloc
	tbz	w0, #0, LBB66_22
	mov	x20, x1
	mov	x9, #0
	mov	w8, w19
	b	LBB66_17
LBB66_11:
	cbz	w3, LBB66_29
	mov	w8, #-16777217
	mov	w9, #-16777213
	add	w8, w4, w8
	cmp	w8, w9
	b.lo	LBB66_29
	mov	x26, x3
	mov	x23, x2
	mov	x25, x1
	mov	x19, x4
	ubfiz	x0, x4, #3, #32
	mov	w1, #8
	bl	_tlsf_memory_alloc
	tbz	w0, #0, LBB66_20
	mov	x21, x1
	movi.2d	v0, #0000000000000000
	stp	q0, q0, [x1]
	add	w8, w19, #63
	lsr	w27, w8, #6
	ubfiz	x0, x27, #3, #32
	mov	w1, #8
	bl	_tlsf_memory_alloc
	tbz	w0, #0, LBB66_21
	mov	x22, x1
	str	xzr, [x1]
Lloh4:
	adrp	x8, lCPI66_0@PAGE
Lloh5:
	ldr	q0, [x8, lCPI66_0@PAGEOFF]
	str	q0, [x21]
	ldr	x8, [x1]
	orr	x8, x8, #0x1
	str	x8, [x1]
	mov	x8, #-1
	str	x8, [x21, #16]
	mov	w0, #2760
	mov	w1, #8
	bl	_tlsf_memory_alloc
	tbz	w0, #0, LBB66_22
	mov	x20, x1
	mov	w8, w19
	mov	w9, #1
LBB66_17:
	mov	w10, #256
	strh	w10, [x20]
	str	x9, [x20, #8]
	mov	w28, w26
	stp	w23, wzr, [x20, #16]
Lloh6:
	adrp	x9, lCPI66_1@PAGE
Lloh7:
	ldr	q0, [x9, lCPI66_1@PAGEOFF]
	stur	q0, [x20, #24]
	mov	x23, x20
	str	x21, [x23, #40]!
	mov	w9, #4
	stp	x9, x8, [x20, #48]
	mov	w8, #1
	stp	x22, x8, [x20, #64]
	stp	x27, x9, [x20, #80]
Lloh8:
	adrp	x8, lCPI66_2@PAGE
Lloh9:
	ldr	d0, [x8, lCPI66_2@PAGEOFF]
	mov	x22, x20
	str	d0, [x22, #96]!
	add	x21, x20, #100
	movi.2d	v0, #0000000000000000
	stur	q0, [x20, #104]
	stur	q0, [x20, #120]
	stur	q0, [x20, #136]
	stur	q0, [x20, #152]
	stur	q0, [x20, #168]
	mov	x8, #-1
	mov	x26, x20
	str	x8, [x26, #184]!
	str	x8, [x20, #192]
	str	wzr, [x20, #200]
	add	x0, x20, #204
	mov	w1, #255
	mov	w2, #2544
	bl	_tlsf_memory_set
	str	wzr, [x20, #2748]
	str	x28, [x20, #2752]
	mov	x0, x23
	mov	x1, x19
	bl	_tlsf_words.words.Words.lengthen
	mov	w8, #-1
	str	w8, [x20, #200]
	movi.2d	v0, #0000000000000000
	str	q0, [x22]
	stp	q0, q0, [x20, #112]
	stp	q0, q0, [x20, #144]
	str	xzr, [x20, #176]
	ldr	x8, [x20, #48]
	lsl	x9, x8, #2
	orr	x9, x9, #0xffffffff00000003
	ldr	x10, [x23]
	stp	x9, xzr, [x10]
	ldr	x9, [x20, #64]
	ldr	x10, [x9]
	orr	x10, x10, #0x1
	str	x10, [x9]
	cmp	w25, #4
	b.ne	LBB66_24
	orr	w9, w8, #0x10
	clz	w9, w9
	mov	w10, #27
	sub	w9, w10, w9
	lsr	w8, w8, w9
	add	w9, w8, w9, lsl #4
	ldr	w10, [x26, w9, uxtw #2]
	str	wzr, [x26, w9, uxtw #2]
	ldr	x11, [x23]
	tbz	w10, #31, LBB66_25
	mov	x10, #-1
	str	x10, [x11, #16]
	lsr	x9, x9, #4
	ldr	w10, [x22]
	ldr	w11, [x21, x9, lsl #2]
	mov	w12, #1
	lsl	w13, w12, w9
	orr	w10, w10, w13
	str	w10, [x22]
	and	w8, w8, #0xf
	b	LBB66_27
LBB66_20:
	mov	w0, #6
	b	LBB66_29
LBB66_21:
	mov	x0, x21
	b	LBB66_23
LBB66_22:
	mov	x0, x21
	bl	_tlsf_memory_dealloc
	mov	x0, x22
LBB66_23:
	bl	_tlsf_memory_dealloc
	mov	w0, #6
	b	LBB66_29
LBB66_24:
	orr	w9, w8, #0x20
	clz	w9, w9
	mov	w10, #26
	sub	w9, w10, w9
	lsr	w8, w8, w9
	add	w9, w8, w9, lsl #5
	ldr	w10, [x26, w9, uxtw #2]
	str	wzr, [x26, w9, uxtw #2]
	ldr	x11, [x23]
	tbnz	w10, #31, LBB66_26
LBB66_25:
	orr	x8, x10, #0xffffffff00000000
	str	x8, [x11, #16]
	add	x8, x11, x10, lsl #3
	ldr	w9, [x8, #16]
	str	x9, [x8, #16]
	b	LBB66_28
LBB66_26:
	mov	x10, #-1
	str	x10, [x11, #16]
	lsr	x9, x9, #5
	ldr	w10, [x22]
	ldr	w11, [x21, x9, lsl #2]
	mov	w12, #1
	lsl	w13, w12, w9
	orr	w10, w10, w13
	str	w10, [x22]
LBB66_27:
	lsl	w8, w12, w8
	orr	w8, w11, w8
	str	w8, [x21, x9, lsl #2]
LBB66_28:
	mov	w0, #0
	str	x20, [x24]
	mov	w8, #1
	strb	w8, [x24, #8]
	stur	wzr, [x24, #9]
	str	wzr, [x24, #12]
LBB66_29:
	.cfi_def_cfa wsp, 96
	ldp	x29, x30, [sp, #80]
	ldp	x20, x19, [sp, #64]
	ldp	x22, x21, [sp, #48]
	ldp	x24, x23, [sp, #32]
	ldp	x26, x25, [sp, #16]
	ldp	x28, x27, [sp], #96
	.cfi_def_cfa_offset 0
	.cfi_restore w30
	.cfi_restore w29
	.cfi_restore w19
	.cfi_restore w20
	.cfi_restore w21
	.cfi_restore w22
	.cfi_restore w23
	.cfi_restore w24
	.cfi_restore w25
	.cfi_restore w26
	.cfi_restore w27
	.cfi_restore w28
	ret
	.loh AdrpLdr	Lloh2, Lloh3
	.loh AdrpLdr	Lloh4, Lloh5
	.loh AdrpLdr	Lloh8, Lloh9
	.loh AdrpLdr	Lloh6, Lloh7
	.cfi_endproc
	.globl	_tlsf_offsets_release
	.p2align	2
_tlsf_offsets_release:
	.cfi_startproc
	stp	x20, x19, [sp, #-32]!
	.cfi_def_cfa_offset 32
	stp	x29, x30, [sp, #16]
	add	x29, sp, #16
	.cfi_def_cfa w29, 16
	.cfi_offset w30, -8
	.cfi_offset w29, -16
	.cfi_offset w19, -24
	.cfi_offset w20, -32
	.cfi_remember_state
	ldrb	w8, [x0, #8]
	cbz	w8, LBB67_27
	ldr	x19, [x0]
	ldrb	w8, [x19, #1]
	tbz	w8, #0, LBB67_27
	ldrb	w8, [x19]
	cbnz	w8, LBB67_35
	lsr	x4, x1, #32
	strb	wzr, [x19, #1]
	ldrb	w9, [x19, #8]
	ldr	w8, [x19, #16]
	cmp	w8, w1
	cbz	w9, LBB67_12
	b.ne	LBB67_21
	ldr	w9, [x19, #48]
	mov	x8, x1
	cmp	w4, w9
	b.hs	LBB67_21
	ldr	x8, [x19, #64]
	lsr	x9, x1, #35
	and	x9, x9, #0x1ffffff8
	ldr	x8, [x8, x9]
	lsr	x9, x8, x4
	mov	x8, x1
	tbz	w9, #0, LBB67_21
	ldur	x11, [x19, #40]
	lsl	x9, x4, #3
	add	x10, x11, x9
	ldr	x5, [x10]
	mov	x8, x1
	tbnz	w5, #0, LBB67_21
	ldr	x12, [x10, #8]
	mov	x8, x1
	cmp	x12, x2
	b.ne	LBB67_21
	ldr	x3, [x19, #24]
	cmn	x3, #1
	b.eq	LBB67_20
	lsr	w8, w5, #2
	ldr	w12, [x19, #32]
	sub	w12, w12, w8
	str	w12, [x19, #32]
	tbnz	w5, #1, LBB67_22
	add	w12, w8, w4
	ldr	x1, [x11, w12, uxtw #3]
	cbnz	x4, LBB67_23
	b	LBB67_24
LBB67_12:
	b.ne	LBB67_21
	ldr	w9, [x19, #48]
	mov	x8, x1
	cmp	w4, w9
	b.hs	LBB67_21
	ldr	x8, [x19, #64]
	lsr	x9, x1, #35
	and	x9, x9, #0x1ffffff8
	ldr	x8, [x8, x9]
	lsr	x9, x8, x4
	mov	x8, x1
	tbz	w9, #0, LBB67_21
	ldur	x11, [x19, #40]
	lsl	x9, x4, #3
	add	x10, x11, x9
	ldr	x5, [x10]
	mov	x8, x1
	tbnz	w5, #0, LBB67_21
	ldr	x12, [x10, #8]
	mov	x8, x1
	cmp	x12, x2
	b.ne	LBB67_21
	ldr	x3, [x19, #24]
	cmn	x3, #1
	b.eq	LBB67_20
	lsr	w8, w5, #2
	ldr	w12, [x19, #32]
	sub	w12, w12, w8
	str	w12, [x19, #32]
	tbnz	w5, #1, LBB67_30
	add	w12, w8, w4
	ldr	x1, [x11, w12, uxtw #3]
	cbnz	x4, LBB67_31
	b	LBB67_32
LBB67_20:
	mov	w8, #1
	strb	w8, [x19, #1]
	mov	w0, #2
	b	LBB67_42
LBB67_21:
	mov	x0, x1
	mov	x1, x8
	bl	_tlsf_heap.refusal.Refusal.of_name
	and	w8, w0, #0xff
	mov	w9, #1
	strb	w9, [x19, #1]
	cmp	w8, #3
	mov	w8, #3
	cinc	w0, w8, eq
	b	LBB67_42
LBB67_22:
	mov	x1, #0
	cbz	x4, LBB67_24
LBB67_23:
	lsr	x12, x5, #29
	and	x12, x12, #0x7fffffff8
	ldr	x2, [x11, x12]
	tbnz	w2, #0, LBB67_29
LBB67_24:
	tbnz	w1, #0, LBB67_28
	orr	x11, x5, #0x1
	stp	x11, x3, [x10]
	ldr	x10, [x19, #24]
	add	x10, x10, #1
	str	x10, [x19, #24]
	orr	w10, w8, #0x20
	clz	w10, w10
	mov	w11, #26
	sub	w10, w11, w10
	lsr	w8, w8, w10
	add	w10, w8, w10, lsl #5
	add	x12, x19, w10, uxtw #2
	ldr	w11, [x12, #184]
	str	w4, [x12, #184]
	ldr	x12, [x19, #40]
	tbz	w11, #31, LBB67_34
	add	x9, x12, x9
	mov	x11, #-1
	str	x11, [x9, #16]
	lsr	x9, x10, #5
	ldr	w10, [x19, #96]
	add	x11, x19, x9, lsl #2
	ldr	w12, [x11, #100]
	mov	w13, #1
	lsl	w9, w13, w9
	orr	w9, w10, w9
	str	w9, [x19, #96]
	b	LBB67_40
LBB67_27:
	mov	w0, #0
	.cfi_def_cfa wsp, 32
	b	LBB67_36
LBB67_28:
	.cfi_restore_state
	.cfi_remember_state
	add	x8, x3, #1
	str	x8, [x19, #24]
	add	x0, x19, #40
	mov	x2, x5
	bl	_tlsf_heap.fitting.merge_next.5
	b	LBB67_41
LBB67_29:
	add	x8, x3, #1
	str	x8, [x19, #24]
	add	x0, x19, #40
	bl	_tlsf_heap.fitting.merge_before.5
	b	LBB67_41
LBB67_30:
	mov	x1, #0
	cbz	x4, LBB67_32
LBB67_31:
	lsr	x12, x5, #29
	and	x12, x12, #0x7fffffff8
	ldr	x2, [x11, x12]
	tbnz	w2, #0, LBB67_38
LBB67_32:
	tbnz	w1, #0, LBB67_37
	orr	x11, x5, #0x1
	stp	x11, x3, [x10]
	ldr	x10, [x19, #24]
	add	x10, x10, #1
	str	x10, [x19, #24]
	orr	w10, w8, #0x10
	clz	w10, w10
	mov	w11, #27
	sub	w10, w11, w10
	lsr	w8, w8, w10
	add	w10, w8, w10, lsl #4
	add	x12, x19, w10, uxtw #2
	ldr	w11, [x12, #184]
	str	w4, [x12, #184]
	ldr	x12, [x19, #40]
	tbnz	w11, #31, LBB67_39
LBB67_34:
	orr	x8, x11, #0xffffffff00000000
	add	x9, x12, x9
	str	x8, [x9, #16]
	add	x8, x12, x11, lsl #3
	str	w4, [x8, #20]
	b	LBB67_41
LBB67_35:
	mov	w0, #2
	.cfi_def_cfa wsp, 32
LBB67_36:
	ldp	x29, x30, [sp, #16]
	ldp	x20, x19, [sp], #32
	.cfi_def_cfa_offset 0
	.cfi_restore w30
	.cfi_restore w29
	.cfi_restore w19
	.cfi_restore w20
	b	_tlsf_c.call_fault.CallFault.refusal
LBB67_37:
	.cfi_restore_state
	add	x8, x3, #1
	str	x8, [x19, #24]
	add	x0, x19, #40
	mov	x2, x5
	bl	_tlsf_heap.fitting.merge_next.4
	b	LBB67_41
LBB67_38:
	add	x8, x3, #1
	str	x8, [x19, #24]
	add	x0, x19, #40
	bl	_tlsf_heap.fitting.merge_before.4
	b	LBB67_41
LBB67_39:
	add	x9, x12, x9
	mov	x11, #-1
	str	x11, [x9, #16]
	lsr	x9, x10, #4
	ldr	w10, [x19, #96]
	add	x11, x19, x9, lsl #2
	ldr	w12, [x11, #100]
	mov	w13, #1
	lsl	w9, w13, w9
	orr	w9, w10, w9
	str	w9, [x19, #96]
	and	w8, w8, #0xf
LBB67_40:
	lsl	w8, w13, w8
	orr	w8, w12, w8
	str	w8, [x11, #100]
LBB67_41:
	mov	w0, #0
	mov	w8, #1
	strb	w8, [x19, #1]
LBB67_42:
	.cfi_def_cfa wsp, 32
	ldp	x29, x30, [sp, #16]
	ldp	x20, x19, [sp], #32
	.cfi_def_cfa_offset 0
	.cfi_restore w30
	.cfi_restore w29
	.cfi_restore w19
	.cfi_restore w20
	ret
	.cfi_endproc
	.globl	_tlsf_offsets_resize
	.p2align	2
_tlsf_offsets_resize:
	.cfi_startproc
	stp	x26, x25, [sp, #-80]!
	.cfi_def_cfa_offset 80
	stp	x24, x23, [sp, #16]
	stp	x22, x21, [sp, #32]
	stp	x20, x19, [sp, #48]
	stp	x29, x30, [sp, #64]
	add	x29, sp, #64
	.cfi_def_cfa w29, 16
	.cfi_offset w30, -8
	.cfi_offset w29, -16
	.cfi_offset w19, -24
	.cfi_offset w20, -32
	.cfi_offset w21, -40
	.cfi_offset w22, -48
	.cfi_offset w23, -56
	.cfi_offset w24, -64
	.cfi_offset w25, -72
	.cfi_offset w26, -80
	.cfi_remember_state
	ldrb	w8, [x0, #8]
	cbz	w8, LBB68_38
	ldr	x22, [x0]
	ldrb	w8, [x22, #1]
	tbz	w8, #0, LBB68_38
	ldrb	w8, [x22]
	cbnz	w8, LBB68_47
	strb	wzr, [x22, #1]
	ldp	w19, w20, [x1]
	ldr	x23, [x1, #8]
	ldrb	w9, [x22, #8]
	ldr	w8, [x22, #2752]
	cbz	w9, LBB68_17
	cbz	w8, LBB68_49
	udiv	x9, x2, x8
	msub	x8, x9, x8, x2
	cmp	x8, #0
	cinc	x8, x9, ne
	mov	w9, #4
	cmp	x8, #4
	csel	x8, x8, x9, hi
	mov	w9, #-1
	cmp	x8, x9
	csel	x21, x8, x9, lo
	ldr	w8, [x22, #16]
	cmp	w19, w8
	b.ne	LBB68_29
	ldr	w9, [x22, #48]
	mov	x8, x19
	cmp	w20, w9
	b.hs	LBB68_29
	ldr	x8, [x22, #64]
	lsr	x9, x20, #3
	and	x9, x9, #0x1ffffff8
	ldr	x8, [x8, x9]
	lsr	x9, x8, x20
	mov	x8, x19
	tbz	w9, #0, LBB68_29
	ldur	x9, [x22, #40]
	lsl	x24, x20, #3
	add	x10, x9, x24
	ldr	x2, [x10]
	mov	x8, x19
	tbnz	w2, #0, LBB68_29
	ldr	x11, [x10, #8]
	mov	x8, x19
	cmp	x11, x23
	b.ne	LBB68_29
	lsr	w25, w2, #2
	cmp	w25, w21
	b.hs	LBB68_30
	tbnz	w2, #1, LBB68_13
	add	w8, w25, w20
	ldr	x3, [x9, w8, uxtw #3]
	tbnz	w3, #0, LBB68_14
LBB68_13:
	mov	x3, #0
LBB68_14:
	add	w8, w25, w3, lsr #2
	cmp	w8, w21
	b.lo	LBB68_28
	ldr	x5, [x22, #24]
	cmn	x5, #1
	b.eq	LBB68_45
	mov	x26, x1
	add	x0, x22, #40
	mov	x1, x20
	mov	x4, x21
	bl	_tlsf_heap.refitting.recut.5
	b	LBB68_41
LBB68_17:
	cbz	w8, LBB68_49
	udiv	x9, x2, x8
	msub	x8, x9, x8, x2
	cmp	x8, #0
	cinc	x8, x9, ne
	mov	w9, #4
	cmp	x8, #4
	csel	x8, x8, x9, hi
	mov	w9, #-1
	cmp	x8, x9
	csel	x21, x8, x9, lo
	ldr	w8, [x22, #16]
	cmp	w19, w8
	b.ne	LBB68_29
	ldr	w9, [x22, #48]
	mov	x8, x19
	cmp	w20, w9
	b.hs	LBB68_29
	ldr	x8, [x22, #64]
	lsr	x9, x20, #3
	and	x9, x9, #0x1ffffff8
	ldr	x8, [x8, x9]
	lsr	x9, x8, x20
	mov	x8, x19
	tbz	w9, #0, LBB68_29
	ldur	x9, [x22, #40]
	lsl	x24, x20, #3
	add	x10, x9, x24
	ldr	x2, [x10]
	mov	x8, x19
	tbnz	w2, #0, LBB68_29
	ldr	x11, [x10, #8]
	mov	x8, x19
	cmp	x11, x23
	b.ne	LBB68_29
	lsr	w25, w2, #2
	cmp	w25, w21
	b.hs	LBB68_33
	tbnz	w2, #1, LBB68_26
	add	w8, w25, w20
	ldr	x3, [x9, w8, uxtw #3]
	tbnz	w3, #0, LBB68_27
LBB68_26:
	mov	x3, #0
LBB68_27:
	add	w8, w25, w3, lsr #2
	cmp	w8, w21
	b.hs	LBB68_39
LBB68_28:
	mov	w8, #1
	strb	w8, [x22, #1]
	mov	w0, #10
	b	LBB68_46
LBB68_29:
	mov	x0, x19
	mov	x1, x8
	bl	_tlsf_heap.refusal.Refusal.of_name
	and	w8, w0, #0xff
	mov	w9, #1
	strb	w9, [x22, #1]
	cmp	w8, #3
	mov	w8, #3
	cinc	w0, w8, eq
	b	LBB68_46
LBB68_30:
	ldr	x4, [x22, #24]
	cmn	x4, #1
	b.eq	LBB68_45
	str	xzr, [x10, #16]
	add	w9, w21, #4
	mov	x8, x25
	cmp	w25, w9
	b.lo	LBB68_37
	add	x0, x22, #40
	mov	x26, x1
	mov	x1, x20
	mov	x3, x21
	bl	_tlsf_heap.refitting.split_off.5
	b	LBB68_36
LBB68_33:
	ldr	x4, [x22, #24]
	cmn	x4, #1
	b.eq	LBB68_45
	str	xzr, [x10, #16]
	add	w9, w21, #4
	mov	x8, x25
	cmp	w25, w9
	b.lo	LBB68_37
	add	x0, x22, #40
	mov	x26, x1
	mov	x1, x20
	mov	x3, x21
	bl	_tlsf_heap.refitting.split_off.4
LBB68_36:
	mov	x1, x26
	mov	x8, x21
LBB68_37:
	ldr	w9, [x22, #32]
	sub	w8, w8, w25
	add	w8, w8, w9
	str	w8, [x22, #32]
	ldr	x8, [x22, #24]
	add	x8, x8, #1
	str	x8, [x22, #24]
	b	LBB68_44
LBB68_38:
	mov	w0, #0
	.cfi_def_cfa wsp, 80
	b	LBB68_48
LBB68_39:
	.cfi_restore_state
	.cfi_remember_state
	ldr	x5, [x22, #24]
	cmn	x5, #1
	b.eq	LBB68_45
	mov	x26, x1
	add	x0, x22, #40
	mov	x1, x20
	mov	x4, x21
	bl	_tlsf_heap.refitting.recut.4
LBB68_41:
	ldr	x8, [x22, #40]
	add	x8, x8, x24
	str	xzr, [x8, #16]
	ldp	w8, w9, [x22, #32]
	sub	w10, w0, w25
	add	w8, w8, w10
	str	w8, [x22, #32]
	cmp	w9, w8
	b.hs	LBB68_43
	str	w8, [x22, #36]
LBB68_43:
	ldr	x8, [x22, #24]
	add	x8, x8, #1
	str	x8, [x22, #24]
	mov	x1, x26
LBB68_44:
	ldur	x8, [x22, #40]
	add	x8, x8, x24
	mov	w0, #0
	ldr	x8, [x8]
	ldr	w9, [x22, #2752]
	umull	x10, w20, w9
	lsr	w8, w8, #2
	mov	w11, #1
	strb	w11, [x22, #1]
	umull	x8, w8, w9
	stp	w19, w20, [x1]
	stp	x23, x10, [x1, #8]
	str	x8, [x1, #24]
	b	LBB68_46
LBB68_45:
	mov	w8, #1
	strb	w8, [x22, #1]
	mov	w0, #2
LBB68_46:
	.cfi_def_cfa wsp, 80
	ldp	x29, x30, [sp, #64]
	ldp	x20, x19, [sp, #48]
	ldp	x22, x21, [sp, #32]
	ldp	x24, x23, [sp, #16]
	ldp	x26, x25, [sp], #80
	.cfi_def_cfa_offset 0
	.cfi_restore w30
	.cfi_restore w29
	.cfi_restore w19
	.cfi_restore w20
	.cfi_restore w21
	.cfi_restore w22
	.cfi_restore w23
	.cfi_restore w24
	.cfi_restore w25
	.cfi_restore w26
	ret
LBB68_47:
	.cfi_restore_state
	.cfi_remember_state
	mov	w0, #2
	.cfi_def_cfa wsp, 80
LBB68_48:
	ldp	x29, x30, [sp, #64]
	ldp	x20, x19, [sp, #48]
	ldp	x22, x21, [sp, #32]
	ldp	x24, x23, [sp, #16]
	ldp	x26, x25, [sp], #80
	.cfi_def_cfa_offset 0
	.cfi_restore w30
	.cfi_restore w29
	.cfi_restore w19
	.cfi_restore w20
	.cfi_restore w21
	.cfi_restore w22
	.cfi_restore w23
	.cfi_restore w24
	.cfi_restore w25
	.cfi_restore w26
	b	_tlsf_c.call_fault.CallFault.refusal
LBB68_49:
	.cfi_restore_state
	brk	#0x1
	.cfi_endproc
	.section	__TEXT,__literal16,16byte_literals
	.p2align	4, 0x0
lCPI69_0:
	.quad	-4294967277
	.quad	0
lCPI69_1:
	.quad	0
	.quad	1
lCPI69_2:
	.quad	1
	.quad	0
	.section	__TEXT,__literal8,8byte_literals
	.p2align	3, 0x0
lCPI69_3:
	.long	1
	.long	16
	.section	__TEXT,__text,regular,pure_instructions
	.globl	_tlsf_open
	.p2align	2
_tlsf_open:
	.cfi_startproc
	stp	x28, x27, [sp, #-96]!
	.cfi_def_cfa_offset 96
	stp	x26, x25, [sp, #16]
	stp	x24, x23, [sp, #32]
	stp	x22, x21, [sp, #48]
	stp	x20, x19, [sp, #64]
	stp	x29, x30, [sp, #80]
	add	x29, sp, #80
	.cfi_def_cfa w29, 16
	.cfi_offset w30, -8
	.cfi_offset w29, -16
	.cfi_offset w19, -24
	.cfi_offset w20, -32
	.cfi_offset w21, -40
	.cfi_offset w22, -48
	.cfi_offset w23, -56
	.cfi_offset w24, -64
	.cfi_offset w25, -72
	.cfi_offset w26, -80
	.cfi_offset w27, -88
	.cfi_offset w28, -96
	ldrb	w8, [x0, #8]
	tbz	w8, #0, LBB69_2
	mov	w0, #33
	b	LBB69_28
LBB69_2:
	sub	w8, w1, #6
	cmn	w8, #2
	b.hs	LBB69_4
	mov	w0, #34
	b	LBB69_28
LBB69_4:
	cmp	w1, #4
	b.ne	LBB69_10
	sub	w8, w3, #256, lsl #12
	sub	w8, w8, #1
	mov	w9, #-1048573
	cmp	w8, w9
	b.lo	LBB69_11
	mov	x26, x1
	mov	x24, x2
	mov	x25, x0
	mov	x20, x3
	ubfiz	x0, x3, #3, #32
	mov	w1, #8
	bl	_tlsf_memory_alloc
	tbz	w0, #0, LBB69_19
	mov	x21, x1
	movi.2d	v0, #0000000000000000
	stp	q0, q0, [x1]
	add	w8, w20, #63
	lsr	w27, w8, #6
	ubfiz	x0, x27, #3, #32
	mov	w1, #8
	bl	_tlsf_memory_alloc
	tbz	w0, #0, LBB69_20
	mov	x22, x1
	str	xzr, [x1]
Lloh10:
	adrp	x8, lCPI69_0@PAGE
Lloh11:
	ldr	q0, [x8, lCPI69_0@PAGEOFF]
	str	q0, [x21]
	ldr	x8, [x1]
	orr	x8, x8, #0x1
	str	x8, [x1]
	mov	x8, #-1
	str	x8, [x21, #16]
	mov	w0, #2760
	mov	w1, #8
	bl	_tlsf_memory_alloc
	tbz	w0, #0, LBB69_21
	mov	x19, x1
	mov	w8, #1
	strb	w8, [x1]
	mov	w8, w20
	stp	xzr, xzr, [x1, #8]
	b	LBB69_16
LBB69_10:
	mov	w8, #-16777217
	mov	w9, #-16777213
	add	w8, w3, w8
	cmp	w8, w9
	b.hs	LBB69_12
LBB69_11:
	mov	w0, #5
	b	LBB69_28
LBB69_12:
	mov	x26, x1
	mov	x24, x2
	mov	x25, x0
	mov	x20, x3
	ubfiz	x0, x3, #3, #32
	mov	w1, #8
	bl	_tlsf_memory_alloc
	tbz	w0, #0, LBB69_19
	mov	x21, x1
	movi.2d	v0, #0000000000000000
	stp	q0, q0, [x1]
	add	w8, w20, #63
	lsr	w27, w8, #6
	ubfiz	x0, x27, #3, #32
	mov	w1, #8
	bl	_tlsf_memory_alloc
	tbz	w0, #0, LBB69_20
	mov	x22, x1
	str	xzr, [x1]
Lloh12:
	adrp	x8, lCPI69_0@PAGE
Lloh13:
	ldr	q0, [x8, lCPI69_0@PAGEOFF]
	str	q0, [x21]
	ldr	x8, [x1]
	orr	x8, x8, #0x1
	str	x8, [x1]
	mov	x8, #-1
	str	x8, [x21, #16]
	mov	w0, #2760
	mov	w1, #8
	bl	_tlsf_memory_alloc
	tbz	w0, #0, LBB69_21
	mov	x19, x1
	mov	w8, #1
	strb	w8, [x1]
Lloh14:
	adrp	x8, lCPI69_1@PAGE
Lloh15:
	ldr	q0, [x8, lCPI69_1@PAGEOFF]
	mov	w8, w20
	stur	q0, [x1, #8]
LBB69_16:
	str	w24, [x19, #24]
	mov	x23, x19
	str	x21, [x23, #48]!
	stur	wzr, [x23, #-20]
Lloh16:
	adrp	x9, lCPI69_2@PAGE
Lloh17:
	ldr	q0, [x9, lCPI69_2@PAGEOFF]
	stur	q0, [x23, #-16]
	mov	w9, #4
	stp	x9, x8, [x23, #8]
	mov	w8, #1
	stp	x22, x8, [x23, #24]
	stp	x27, x9, [x23, #40]
Lloh18:
	adrp	x8, lCPI69_3@PAGE
Lloh19:
	ldr	d0, [x8, lCPI69_3@PAGEOFF]
	mov	x22, x23
	str	d0, [x22, #56]!
	add	x21, x23, #60
	movi.2d	v0, #0000000000000000
	stp	q0, q0, [x23, #64]
	stp	q0, q0, [x23, #96]
	str	q0, [x23, #128]
	mov	x8, #-1
	mov	x27, x23
	str	x8, [x27, #144]!
	str	x8, [x23, #152]
	str	wzr, [x23, #160]
	add	x0, x23, #164
	mov	w1, #255
	mov	w2, #2544
	bl	_tlsf_memory_set
	str	wzr, [x23, #2708]
	mov	x0, x23
	mov	x1, x20
	bl	_tlsf_words.words.Words.lengthen
	mov	w8, #-1
	str	w8, [x23, #160]
	movi.2d	v0, #0000000000000000
	str	q0, [x22]
	stur	q0, [x23, #72]
	stur	q0, [x23, #88]
	stur	q0, [x23, #104]
	stur	q0, [x23, #120]
	str	xzr, [x23, #136]
	ldp	x9, x8, [x23]
	lsl	x10, x8, #2
	orr	x10, x10, #0xffffffff00000003
	stp	x10, xzr, [x9]
	ldr	x9, [x23, #24]
	ldr	x10, [x9]
	orr	x10, x10, #0x1
	str	x10, [x9]
	cmp	w26, #4
	b.ne	LBB69_23
	orr	w9, w8, #0x10
	clz	w9, w9
	mov	w10, #27
	sub	w9, w10, w9
	lsr	w8, w8, w9
	add	w9, w8, w9, lsl #4
	ldr	w10, [x27, w9, uxtw #2]
	str	wzr, [x27, w9, uxtw #2]
	ldr	x11, [x23]
	tbz	w10, #31, LBB69_24
	mov	x10, #-1
	str	x10, [x11, #16]
	lsr	x9, x9, #4
	ldr	w10, [x22]
	ldr	w11, [x21, x9, lsl #2]
	mov	w12, #1
	lsl	w13, w12, w9
	orr	w10, w10, w13
	str	w10, [x22]
	and	w8, w8, #0xf
	b	LBB69_26
LBB69_19:
	mov	w0, #6
	b	LBB69_28
LBB69_20:
	mov	x0, x21
	b	LBB69_22
LBB69_21:
	mov	x0, x21
	bl	_tlsf_memory_dealloc
	mov	x0, x22
LBB69_22:
	bl	_tlsf_memory_dealloc
	mov	w0, #6
	b	LBB69_28
LBB69_23:
	orr	w9, w8, #0x20
	clz	w9, w9
	mov	w10, #26
	sub	w9, w10, w9
	lsr	w8, w8, w9
	add	w9, w8, w9, lsl #5
	ldr	w10, [x27, w9, uxtw #2]
	str	wzr, [x27, w9, uxtw #2]
	ldr	x11, [x23]
	tbnz	w10, #31, LBB69_25
LBB69_24:
	orr	x8, x10, #0xffffffff00000000
	str	x8, [x11, #16]
	add	x8, x11, x10, lsl #3
	ldr	w9, [x8, #16]
	str	x9, [x8, #16]
	b	LBB69_27
LBB69_25:
	mov	x10, #-1
	str	x10, [x11, #16]
	lsr	x9, x9, #5
	ldr	w10, [x22]
	ldr	w11, [x21, x9, lsl #2]
	mov	w12, #1
	lsl	w13, w12, w9
	orr	w10, w10, w13
	str	w10, [x22]
LBB69_26:
	lsl	w8, w12, w8
	orr	w8, w11, w8
	str	w8, [x21, x9, lsl #2]
LBB69_27:
	mov	w0, #0
	ldr	x8, [x19, #48]
	str	x8, [x25, #16]
	str	w24, [x25, #24]
	strb	wzr, [x25, #28]
	str	x19, [x25]
	mov	w8, #1
	strb	w8, [x25, #8]
LBB69_28:
	.cfi_def_cfa wsp, 96
	ldp	x29, x30, [sp, #80]
	ldp	x20, x19, [sp, #64]
	ldp	x22, x21, [sp, #48]
	ldp	x24, x23, [sp, #32]
	ldp	x26, x25, [sp, #16]
	ldp	x28, x27, [sp], #96
	.cfi_def_cfa_offset 0
	.cfi_restore w30
	.cfi_restore w29
	.cfi_restore w19
	.cfi_restore w20
	.cfi_restore w21
	.cfi_restore w22
	.cfi_restore w23
	.cfi_restore w24
	.cfi_restore w25
	.cfi_restore w26
	.cfi_restore w27
	.cfi_restore w28
	ret
	.loh AdrpLdr	Lloh10, Lloh11
	.loh AdrpLdr	Lloh12, Lloh13
	.loh AdrpLdr	Lloh14, Lloh15
	.loh AdrpLdr	Lloh18, Lloh19
	.loh AdrpLdr	Lloh16, Lloh17
	.cfi_endproc
	.globl	_tlsf_place
	.p2align	2
_tlsf_place:
	.cfi_startproc
	ldrb	w8, [x0, #8]
	cbz	w8, LBB70_7
	ldr	x8, [x0]
	ldrb	w9, [x8]
	tbz	w9, #0, LBB70_7
	strb	wzr, [x8]
	ldr	w9, [x8, #24]
	ldrb	w11, [x8, #16]
	ldr	w10, [x8, #56]
	cmp	w1, w10
	b.hs	LBB70_6
	ldr	x10, [x8, #72]
	lsr	w11, w1, #3
	and	x11, x11, #0x1ffffff8
	ldr	x10, [x10, x11]
	lsr	x10, x10, x1
	tbz	w10, #0, LBB70_6
	ldr	x10, [x8, #48]
	add	x10, x10, w1, uxtw #3
	ldr	x11, [x10]
	tbnz	w11, #0, LBB70_6
	mov	w0, #0
	ldp	x11, x10, [x10, #8]
	mov	w12, #1
	strb	w12, [x8]
	stp	w9, w1, [x2]
	str	x11, [x2, #8]
	str	w10, [x3]
	ret
LBB70_6:
	mov	w9, #1
	strb	w9, [x8]
	mov	w0, #4
	ret
LBB70_7:
	mov	w0, #0
	b	_tlsf_c.call_fault.CallFault.refusal
	.cfi_endproc
	.globl	_tlsf_pools_allocate
	.p2align	2
_tlsf_pools_allocate:
	.cfi_startproc
	stp	x26, x25, [sp, #-80]!
	.cfi_def_cfa_offset 80
	stp	x24, x23, [sp, #16]
	stp	x22, x21, [sp, #32]
	stp	x20, x19, [sp, #48]
	stp	x29, x30, [sp, #64]
	add	x29, sp, #64
	.cfi_def_cfa w29, 16
	.cfi_offset w30, -8
	.cfi_offset w29, -16
	.cfi_offset w19, -24
	.cfi_offset w20, -32
	.cfi_offset w21, -40
	.cfi_offset w22, -48
	.cfi_offset w23, -56
	.cfi_offset w24, -64
	.cfi_offset w25, -72
	.cfi_offset w26, -80
	.cfi_remember_state
	ldrb	w8, [x0, #8]
	cbz	w8, LBB71_30
	ldr	x19, [x0]
	ldrb	w8, [x19, #1]
	tbz	w8, #0, LBB71_30
	ldrb	w8, [x19]
	cmp	w8, #1
	b.ne	LBB71_36
	strb	wzr, [x19, #1]
	mov	w8, #-1
	cmp	x1, x8
	csel	x8, x1, x8, lo
	ldrb	w11, [x19, #8]
	ldp	x9, x10, [x19, #24]
	cbz	w11, LBB71_11
	cbz	x10, LBB71_24
	mov	x12, #0
	mov	w13, #2792
	b	LBB71_7
LBB71_6:
	add	x12, x12, #1
	cmp	x12, x10
	b.eq	LBB71_24
LBB71_7:
	madd	x21, x12, x13, x9
	ldr	x11, [x21, #2744]
	cbz	x11, LBB71_6
	ldr	x14, [x21, #2736]
	add	x15, x14, #4
	mov	x16, x11
LBB71_9:
	ldr	w17, [x15], #8
	cmp	w17, w8
	b.hs	LBB71_18
	subs	x16, x16, #1
	b.ne	LBB71_9
	b	LBB71_6
LBB71_11:
	cbz	x10, LBB71_24
	mov	x12, #0
	mov	w13, #2792
	b	LBB71_14
LBB71_13:
	add	x12, x12, #1
	cmp	x12, x10
	b.eq	LBB71_24
LBB71_14:
	madd	x21, x12, x13, x9
	ldr	x11, [x21, #2744]
	cbz	x11, LBB71_13
	ldr	x14, [x21, #2736]
	add	x15, x14, #4
	mov	x16, x11
LBB71_16:
	ldr	w17, [x15], #8
	cmp	w17, w8
	b.hs	LBB71_21
	subs	x16, x16, #1
	b.ne	LBB71_16
	b	LBB71_13
LBB71_18:
	mov	x22, #0
	add	x9, x14, #4
	mov	x10, x9
LBB71_19:
	ldr	w12, [x10], #8
	cmp	w12, w8
	b.hs	LBB71_26
	add	x22, x22, #1
	mov	x9, x10
	cmp	x11, x22
	b.ne	LBB71_19
	b	LBB71_24
LBB71_21:
	mov	x22, #0
	add	x9, x14, #4
	mov	x10, x9
LBB71_22:
	ldr	w12, [x10], #8
	cmp	w12, w8
	b.hs	LBB71_31
	add	x22, x22, #1
	mov	x9, x10
	cmp	x11, x22
	b.ne	LBB71_22
LBB71_24:
	mov	w8, #1
	strb	w8, [x19, #1]
	mov	w0, #5
LBB71_25:
	.cfi_def_cfa wsp, 80
	ldp	x29, x30, [sp, #64]
	ldp	x20, x19, [sp, #48]
	ldp	x22, x21, [sp, #32]
	ldp	x24, x23, [sp, #16]
	ldp	x26, x25, [sp], #80
	.cfi_def_cfa_offset 0
	.cfi_restore w30
	.cfi_restore w29
	.cfi_restore w19
	.cfi_restore w20
	.cfi_restore w21
	.cfi_restore w22
	.cfi_restore w23
	.cfi_restore w24
	.cfi_restore w25
	.cfi_restore w26
	ret
LBB71_26:
	.cfi_restore_state
	.cfi_remember_state
	ldr	x10, [x21, #2768]
	ldr	w10, [x10, x22, lsl #2]
	ldur	w9, [x9, #-4]
	cmp	w10, w9
	b.hs	LBB71_35
	ldr	w9, [x21, #2760]
	mov	w10, #16777216
	cmp	w9, w10
	b.hi	LBB71_47
	orr	w10, w9, #0x20
	clz	w10, w10
	mov	w11, #26
	sub	w10, w11, w10
	sub	w11, w9, #1
	lsr	w13, w11, w10
	add	w10, w13, w10, lsl #5
	add	w10, w10, #1
	sub	x11, x10, #1
	lsr	x12, x11, #5
	add	x10, x21, #84
	ldr	w14, [x10, x12, lsl #2]
	lsr	w13, w14, w13
	ands	w13, w13, #0xfffffffe
	b.eq	LBB71_38
	rbit	w12, w13
	clz	w12, w12
	add	x13, x11, x12
	ldr	x20, [x21, #8]
	cmn	x20, #1
	b.ne	LBB71_40
	b	LBB71_47
LBB71_30:
	mov	w0, #0
	.cfi_def_cfa wsp, 80
	b	LBB71_37
LBB71_31:
	.cfi_restore_state
	.cfi_remember_state
	ldr	x10, [x21, #2768]
	ldr	w10, [x10, x22, lsl #2]
	ldur	w9, [x9, #-4]
	cmp	w10, w9
	b.hs	LBB71_35
	ldr	w9, [x21, #2760]
	cmp	w9, #256, lsl #12
	b.hi	LBB71_47
	orr	w10, w9, #0x10
	clz	w10, w10
	mov	w11, #27
	sub	w10, w11, w10
	sub	w11, w9, #1
	lsr	w13, w11, w10
	add	w10, w13, w10, lsl #4
	add	w10, w10, #1
	sub	x11, x10, #1
	lsr	x12, x11, #4
	add	x10, x21, #84
	ldr	w14, [x10, x12, lsl #2]
	and	w13, w13, #0xf
	lsr	w13, w14, w13
	ands	w13, w13, #0xfffffffe
	b.eq	LBB71_42
	rbit	w12, w13
	clz	w12, w12
	add	x13, x11, x12
	b	LBB71_44
LBB71_35:
	mov	w8, #1
	strb	w8, [x19, #1]
	mov	w0, #38
	b	LBB71_25
LBB71_36:
	mov	w0, #2
	.cfi_def_cfa wsp, 80
LBB71_37:
	ldp	x29, x30, [sp, #64]
	ldp	x20, x19, [sp, #48]
	ldp	x22, x21, [sp, #32]
	ldp	x24, x23, [sp, #16]
	ldp	x26, x25, [sp], #80
	.cfi_def_cfa_offset 0
	.cfi_restore w30
	.cfi_restore w29
	.cfi_restore w19
	.cfi_restore w20
	.cfi_restore w21
	.cfi_restore w22
	.cfi_restore w23
	.cfi_restore w24
	.cfi_restore w25
	.cfi_restore w26
	b	_tlsf_c.call_fault.CallFault.refusal
LBB71_38:
	.cfi_restore_state
	ldr	w11, [x21, #80]
	add	w12, w12, #1
	lsr	w11, w11, w12
	lsl	w11, w11, w12
	cbz	w11, LBB71_47
	rbit	w11, w11
	clz	w11, w11
	ldr	w12, [x10, w11, uxtw #2]
	rbit	w12, w12
	clz	w12, w12
	add	w13, w12, w11, lsl #5
	ldr	x20, [x21, #8]
	cmn	x20, #1
	b.eq	LBB71_47
LBB71_40:
	ldr	x12, [x21, #24]
	add	x11, x21, #168
	ldr	w23, [x11, x13, lsl #2]
	ubfiz	x14, x23, #3, #32
	add	x15, x12, x14
	ldr	x15, [x15, #16]
	cmn	w15, #1
	b.eq	LBB71_48
	ubfiz	x16, x15, #3, #32
	add	x12, x12, x16
	ldr	x16, [x12, #16]
	orr	x16, x16, #0xffffffff00000000
	str	x16, [x12, #16]
	str	w15, [x11, x13, lsl #2]
	ldr	x12, [x21, #24]
	b	LBB71_50
LBB71_42:
	ldr	w11, [x21, #80]
	add	w12, w12, #1
	lsr	w11, w11, w12
	lsl	w11, w11, w12
	cbz	w11, LBB71_47
	rbit	w11, w11
	clz	w11, w11
	ldr	w12, [x10, w11, uxtw #2]
	rbit	w12, w12
	clz	w12, w12
	add	w13, w12, w11, lsl #4
LBB71_44:
	ldr	x20, [x21, #8]
	cmn	x20, #1
	b.eq	LBB71_47
	ldr	x12, [x21, #24]
	add	x11, x21, #168
	ldr	w23, [x11, x13, lsl #2]
	ubfiz	x14, x23, #3, #32
	add	x15, x12, x14
	ldr	x15, [x15, #16]
	cmn	w15, #1
	b.eq	LBB71_56
	ubfiz	x16, x15, #3, #32
	add	x12, x12, x16
	ldr	x16, [x12, #16]
	orr	x16, x16, #0xffffffff00000000
	str	x16, [x12, #16]
	str	w15, [x11, x13, lsl #2]
	ldr	x12, [x21, #24]
	b	LBB71_58
LBB71_47:
	mov	w8, #1
	strb	w8, [x19, #1]
	mov	w0, #2
	b	LBB71_25
LBB71_48:
	str	w15, [x11, x13, lsl #2]
	lsr	x15, x13, #3
	and	x16, x15, #0x1ffffffffffffffc
	ldr	w17, [x10, x16]
	mov	w15, #1
	lsl	w0, w15, w13
	bics	w17, w17, w0
	str	w17, [x10, x16]
	b.ne	LBB71_50
	lsr	x13, x13, #5
	ldr	w16, [x21, #80]
	lsl	w13, w15, w13
	bic	w13, w16, w13
	str	w13, [x21, #80]
LBB71_50:
	add	x14, x12, x14
	ldr	x13, [x14]
	sub	w15, w13, w9, lsl #2
	cmp	w15, #15
	b.hi	LBB71_52
	sub	x9, x13, #1
	stp	x9, x20, [x14]
	str	x8, [x14, #16]
	lsr	w9, w9, #2
	b	LBB71_65
LBB71_52:
	orr	x16, x15, x23, lsl #32
	sub	x13, x13, x15
	str	x13, [x12, x23, lsl #3]
	add	w13, w23, w9
	stp	x20, x8, [x14, #8]
	ubfiz	x14, x13, #3, #32
	add	x12, x12, x14
	stp	x16, x20, [x12]
	ldr	x16, [x21, #48]
	lsr	w12, w13, #3
	and	x17, x12, #0x1ffffff8
	ldr	x0, [x16, x17]
	lsr	w12, w15, #2
	mov	w3, #1
	lsl	x3, x3, x13
	orr	x0, x0, x3
	str	x0, [x16, x17]
	tbnz	w15, #1, LBB71_54
	add	w15, w12, w13
	ldr	x16, [x21, #24]
	add	x15, x16, w15, uxtw #3
	str	w13, [x15, #4]
LBB71_54:
	orr	w15, w12, #0x20
	clz	w15, w15
	mov	w16, #26
	sub	w15, w16, w15
	lsr	w12, w12, w15
	add	w15, w12, w15, lsl #5
	ldr	w16, [x11, w15, uxtw #2]
	str	w13, [x11, w15, uxtw #2]
	ldr	x11, [x21, #24]
	tbnz	w16, #31, LBB71_64
	orr	x10, x16, #0xffffffff00000000
	add	x12, x11, x14
	str	x10, [x12, #16]
	add	x10, x11, x16, lsl #3
	str	w13, [x10, #20]
	b	LBB71_65
LBB71_56:
	str	w15, [x11, x13, lsl #2]
	lsr	x15, x13, #2
	and	x16, x15, #0x3ffffffffffffffc
	ldr	w17, [x10, x16]
	and	w0, w13, #0xf
	mov	w15, #1
	lsl	w0, w15, w0
	bics	w17, w17, w0
	str	w17, [x10, x16]
	b.ne	LBB71_58
	lsr	x13, x13, #4
	ldr	w16, [x21, #80]
	lsl	w13, w15, w13
	bic	w13, w16, w13
	str	w13, [x21, #80]
LBB71_58:
	add	x14, x12, x14
	ldr	x13, [x14]
	sub	w15, w13, w9, lsl #2
	cmp	w15, #15
	b.hi	LBB71_60
	sub	x9, x13, #1
	stp	x9, x20, [x14]
	str	x8, [x14, #16]
	lsr	w9, w9, #2
	b	LBB71_71
LBB71_60:
	orr	x16, x15, x23, lsl #32
	sub	x13, x13, x15
	str	x13, [x12, x23, lsl #3]
	add	w13, w23, w9
	stp	x20, x8, [x14, #8]
	ubfiz	x14, x13, #3, #32
	add	x12, x12, x14
	stp	x16, x20, [x12]
	ldr	x16, [x21, #48]
	lsr	w12, w13, #3
	and	x17, x12, #0x1ffffff8
	ldr	x0, [x16, x17]
	lsr	w12, w15, #2
	mov	w3, #1
	lsl	x3, x3, x13
	orr	x0, x0, x3
	str	x0, [x16, x17]
	tbnz	w15, #1, LBB71_62
	add	w15, w12, w13
	ldr	x16, [x21, #24]
	add	x15, x16, w15, uxtw #3
	str	w13, [x15, #4]
LBB71_62:
	orr	w15, w12, #0x10
	clz	w15, w15
	mov	w16, #27
	sub	w15, w16, w15
	lsr	w12, w12, w15
	add	w15, w12, w15, lsl #4
	ldr	w16, [x11, w15, uxtw #2]
	str	w13, [x11, w15, uxtw #2]
	ldr	x11, [x21, #24]
	tbnz	w16, #31, LBB71_70
	orr	x10, x16, #0xffffffff00000000
	add	x12, x11, x14
	str	x10, [x12, #16]
	add	x10, x11, x16, lsl #3
	str	w13, [x10, #20]
	b	LBB71_71
LBB71_64:
	add	x11, x11, x14
	mov	x13, #-1
	str	x13, [x11, #16]
	lsr	x11, x15, #5
	ldr	w13, [x21, #80]
	ldr	w14, [x10, x11, lsl #2]
	mov	w15, #1
	lsl	w16, w15, w11
	orr	w13, w13, w16
	str	w13, [x21, #80]
	lsl	w12, w15, w12
	orr	w12, w14, w12
	str	w12, [x10, x11, lsl #2]
LBB71_65:
	ldp	w10, w11, [x21, #16]
	add	w9, w10, w9
	cmp	w11, w9
	str	w9, [x21, #16]
	b.hs	LBB71_67
	str	w9, [x21, #20]
LBB71_67:
	ldr	x9, [x21, #8]
	add	x9, x9, #1
	str	x9, [x21, #8]
	ldr	w24, [x21]
	cmp	x1, #0
	cinc	x8, x8, eq
	add	x8, x8, #31
	mov	w9, #-3
	add	x8, x9, x8, lsr #3
	cbz	w8, LBB71_69
	ldr	x9, [x21, #24]
	add	w10, w23, #3
	add	x0, x9, w10, uxtw #3
	ubfiz	x1, x8, #3, #32
	mov	x25, x2
	bl	_bzero
	mov	x2, x25
LBB71_69:
	ldr	x8, [x21, #2768]
	ldr	w9, [x8, x22, lsl #2]
	add	w9, w9, #1
	str	w9, [x8, x22, lsl #2]
	b	LBB71_76
LBB71_70:
	add	x11, x11, x14
	mov	x13, #-1
	str	x13, [x11, #16]
	lsr	x11, x15, #4
	ldr	w13, [x21, #80]
	ldr	w14, [x10, x11, lsl #2]
	mov	w15, #1
	lsl	w16, w15, w11
	orr	w13, w13, w16
	str	w13, [x21, #80]
	and	w12, w12, #0xf
	lsl	w12, w15, w12
	orr	w12, w14, w12
	str	w12, [x10, x11, lsl #2]
LBB71_71:
	ldp	w10, w11, [x21, #16]
	add	w9, w10, w9
	cmp	w11, w9
	str	w9, [x21, #16]
	b.hs	LBB71_73
	str	w9, [x21, #20]
LBB71_73:
	ldr	x9, [x21, #8]
	add	x9, x9, #1
	str	x9, [x21, #8]
	ldr	w24, [x21]
	cmp	x1, #0
	cinc	x8, x8, eq
	add	x8, x8, #31
	mov	w9, #-3
	add	x8, x9, x8, lsr #3
	cbz	w8, LBB71_75
	ldr	x9, [x21, #24]
	add	w10, w23, #3
	add	x0, x9, w10, uxtw #3
	ubfiz	x1, x8, #3, #32
	mov	x25, x2
	bl	_bzero
	mov	x2, x25
LBB71_75:
	ldr	x8, [x21, #2768]
	ldr	w9, [x8, x22, lsl #2]
	add	w9, w9, #1
	str	w9, [x8, x22, lsl #2]
LBB71_76:
	mov	w0, #0
	mov	w8, #1
	strb	w8, [x19, #1]
	stp	w24, w23, [x2]
	str	x20, [x2, #8]
	b	LBB71_25
	.cfi_endproc
	.globl	_tlsf_pools_check
	.p2align	2
_tlsf_pools_check:
	.cfi_startproc
	stp	x26, x25, [sp, #-80]!
	.cfi_def_cfa_offset 80
	stp	x24, x23, [sp, #16]
	stp	x22, x21, [sp, #32]
	stp	x20, x19, [sp, #48]
	stp	x29, x30, [sp, #64]
	add	x29, sp, #64
	.cfi_def_cfa w29, 16
	.cfi_offset w30, -8
	.cfi_offset w29, -16
	.cfi_offset w19, -24
	.cfi_offset w20, -32
	.cfi_offset w21, -40
	.cfi_offset w22, -48
	.cfi_offset w23, -56
	.cfi_offset w24, -64
	.cfi_offset w25, -72
	.cfi_offset w26, -80
	.cfi_remember_state
	ldrb	w8, [x0, #8]
	cbz	w8, LBB72_23
	ldr	x21, [x0]
	ldrb	w8, [x21, #1]
	tbz	w8, #0, LBB72_23
	ldrb	w8, [x21]
	cmp	w8, #1
	b.ne	LBB72_24
	mov	x20, x3
	mov	x19, x2
	strb	wzr, [x21, #1]
	mov	w8, w1
	ldrb	w10, [x21, #8]
	ldr	x9, [x21, #32]
	cmp	x9, x8
	cbz	w10, LBB72_12
	b.ls	LBB72_21
	ldr	x9, [x21, #24]
	mov	w10, #2792
	umaddl	x22, w8, w10, x9
	ldr	w23, [x22, #32]
	sub	w8, w23, #4
	cmp	w19, w8
	b.hi	LBB72_21
	ldr	x8, [x22, #48]
	lsr	w9, w19, #3
	and	x9, x9, #0x1ffffff8
	ldr	x8, [x8, x9]
	lsr	x8, x8, x19
	tbz	w8, #0, LBB72_21
	cbz	w20, LBB72_26
	mov	x25, x5
	mov	x24, x4
LBB72_9:
	add	x0, x22, #24
	mov	x1, x19
	bl	_tlsf_heap.check.examine
	and	w8, w0, #0xff
	cmp	w8, #1
	b.ne	LBB72_27
	cmp	w1, w23
	b.eq	LBB72_28
	mov	x19, x1
	subs	w20, w20, #1
	b.ne	LBB72_9
	b	LBB72_20
LBB72_12:
	b.ls	LBB72_21
	ldr	x9, [x21, #24]
	mov	w10, #2792
	umaddl	x22, w8, w10, x9
	ldr	w23, [x22, #32]
	sub	w8, w23, #4
	cmp	w19, w8
	b.hi	LBB72_21
	ldr	x8, [x22, #48]
	lsr	w9, w19, #3
	and	x9, x9, #0x1ffffff8
	ldr	x8, [x8, x9]
	lsr	x8, x8, x19
	tbz	w8, #0, LBB72_21
	cbz	w20, LBB72_26
	mov	x25, x5
	mov	x24, x4
LBB72_17:
	add	x0, x22, #24
	mov	x1, x19
	bl	_tlsf_heap.check.examine
	and	w8, w0, #0xff
	cmp	w8, #1
	b.ne	LBB72_27
	cmp	w1, w23
	b.eq	LBB72_28
	mov	x19, x1
	subs	w20, w20, #1
	b.ne	LBB72_17
LBB72_20:
	mov	w0, #0
	mov	x19, x1
	b	LBB72_29
LBB72_21:
	mov	w8, #1
	strb	w8, [x21, #1]
	mov	w0, #4
LBB72_22:
	.cfi_def_cfa wsp, 80
	ldp	x29, x30, [sp, #64]
	ldp	x20, x19, [sp, #48]
	ldp	x22, x21, [sp, #32]
	ldp	x24, x23, [sp, #16]
	ldp	x26, x25, [sp], #80
	.cfi_def_cfa_offset 0
	.cfi_restore w30
	.cfi_restore w29
	.cfi_restore w19
	.cfi_restore w20
	.cfi_restore w21
	.cfi_restore w22
	.cfi_restore w23
	.cfi_restore w24
	.cfi_restore w25
	.cfi_restore w26
	ret
LBB72_23:
	.cfi_restore_state
	.cfi_remember_state
	mov	w0, #0
	.cfi_def_cfa wsp, 80
	b	LBB72_25
LBB72_24:
	.cfi_restore_state
	.cfi_remember_state
	mov	w0, #2
	.cfi_def_cfa wsp, 80
LBB72_25:
	ldp	x29, x30, [sp, #64]
	ldp	x20, x19, [sp, #48]
	ldp	x22, x21, [sp, #32]
	ldp	x24, x23, [sp, #16]
	ldp	x26, x25, [sp], #80
	.cfi_def_cfa_offset 0
	.cfi_restore w30
	.cfi_restore w29
	.cfi_restore w19
	.cfi_restore w20
	.cfi_restore w21
	.cfi_restore w22
	.cfi_restore w23
	.cfi_restore w24
	.cfi_restore w25
	.cfi_restore w26
	b	_tlsf_c.call_fault.CallFault.refusal
LBB72_26:
	.cfi_restore_state
	mov	w0, #0
	b	LBB72_30
LBB72_27:
	mov	w0, #36
	mov	x4, x25
	b	LBB72_30
LBB72_28:
	mov	w19, #0
	mov	w0, #0
LBB72_29:
	mov	x4, x24
LBB72_30:
	mov	w8, #1
	strb	w8, [x21, #1]
	str	w19, [x4]
	b	LBB72_22
	.cfi_endproc
	.globl	_tlsf_pools_close
	.p2align	2
_tlsf_pools_close:
	.cfi_startproc
	ldrb	w8, [x0, #8]
	cbz	w8, LBB73_4
	ldr	x8, [x0]
	ldrb	w9, [x8, #1]
	cmp	w9, #1
	b.ne	LBB73_4
	ldrb	w8, [x8]
	cmp	w8, #1
	b.ne	LBB73_5
	stp	x29, x30, [sp, #-16]!
	.cfi_def_cfa_offset 16
	mov	x29, sp
	.cfi_def_cfa w29, 16
	.cfi_offset w30, -8
	.cfi_offset w29, -16
	bl	_tlsf_c.arena_slot.ArenaSlot.close
	mov	w0, #0
	.cfi_def_cfa wsp, 16
	ldp	x29, x30, [sp], #16
	.cfi_def_cfa_offset 0
	.cfi_restore w30
	.cfi_restore w29
	ret
LBB73_4:
	mov	w0, #32
	ret
LBB73_5:
	mov	w0, #40
	ret
	.cfi_endproc
	.globl	_tlsf_pools_counts
	.p2align	2
_tlsf_pools_counts:
	.cfi_startproc
	ldrb	w8, [x0, #8]
	cbz	w8, LBB74_15
	ldr	x8, [x0]
	ldrb	w9, [x8, #1]
	tbz	w9, #0, LBB74_15
	ldrb	w9, [x8]
	cmp	w9, #1
	b.ne	LBB74_16
	strb	wzr, [x8, #1]
	mov	w10, w1
	ldrb	w12, [x8, #8]
	ldp	x9, x11, [x8, #24]
	cbz	w12, LBB74_7
	cbz	x11, LBB74_10
LBB74_5:
	ldr	x12, [x9, #2744]
	subs	x12, x10, x12
	b.lo	LBB74_11
	add	x9, x9, #2792
	mov	x10, x12
	subs	x11, x11, #1
	b.ne	LBB74_5
	b	LBB74_10
LBB74_7:
	cbz	x11, LBB74_10
LBB74_8:
	ldr	x12, [x9, #2744]
	subs	x12, x10, x12
	b.lo	LBB74_11
	add	x9, x9, #2792
	mov	x10, x12
	subs	x11, x11, #1
	b.ne	LBB74_8
LBB74_10:
	mov	w9, #1
	strb	w9, [x8, #1]
	mov	w0, #4
	ret
LBB74_11:
	ldr	x11, [x9, #2776]
	cmp	x10, x11
	b.hs	LBB74_13
	ldr	x11, [x9, #2768]
	ldr	w11, [x11, x10, lsl #2]
	b	LBB74_14
LBB74_13:
	mov	w11, #0
LBB74_14:
	mov	w0, #0
	ldr	x9, [x9, #2736]
	lsl	x10, x10, #3
	ldr	w9, [x9, x10]
	mov	w10, #1
	strb	w10, [x8, #1]
	str	w11, [x2]
	str	w9, [x3]
	ret
LBB74_15:
	mov	w0, #0
	b	_tlsf_c.call_fault.CallFault.refusal
LBB74_16:
	mov	w0, #2
	b	_tlsf_c.call_fault.CallFault.refusal
	.cfi_endproc
	.section	__TEXT,__literal16,16byte_literals
	.p2align	4, 0x0
lCPI75_0:
	.quad	-4294967277
	.quad	0
lCPI75_1:
	.quad	1
	.quad	0
	.section	__TEXT,__literal8,8byte_literals
	.p2align	3, 0x0
lCPI75_2:
	.long	1
	.long	16
	.section	__TEXT,__text,regular,pure_instructions
	.globl	_tlsf_pools_open
	.p2align	2
_tlsf_pools_open:
	.cfi_startproc
	stp	d9, d8, [sp, #-112]!
	.cfi_def_cfa_offset 112
	stp	x28, x27, [sp, #16]
	stp	x26, x25, [sp, #32]
	stp	x24, x23, [sp, #48]
	stp	x22, x21, [sp, #64]
	stp	x20, x19, [sp, #80]
	stp	x29, x30, [sp, #96]
	add	x29, sp, #96
	.cfi_def_cfa w29, 16
	.cfi_offset w30, -8
	.cfi_offset w29, -16
	.cfi_offset w19, -24
	.cfi_offset w20, -32
	.cfi_offset w21, -40
	.cfi_offset w22, -48
	.cfi_offset w23, -56
	.cfi_offset w24, -64
	.cfi_offset w25, -72
	.cfi_offset w26, -80
	.cfi_offset w27, -88
	.cfi_offset w28, -96
	.cfi_offset b8, -104
	.cfi_offset b9, -112
	.cfi_remember_state
	sub	sp, sp, #1072
	mov	w8, #4096
	cmp	x3, #0
	csel	x9, x8, xzr, eq
	stp	xzr, xzr, [sp, #144]
	str	wzr, [sp, #160]
	ldrb	w8, [x0, #8]
	tbz	w8, #0, LBB75_2
	mov	w8, #33
	b	LBB75_241
LBB75_2:
	sub	w8, w1, #6
	cmn	w8, #2
	b.hs	LBB75_4
	mov	w8, #34
	b	LBB75_241
LBB75_4:
	mov	w8, #5
	cmn	w2, #8
	b.hi	LBB75_241
	cmp	x4, #64
	b.hi	LBB75_241
	str	xzr, [sp, #696]
	str	xzr, [sp, #688]
	str	wzr, [sp, #704]
	movi.2d	v0, #0000000000000000
	stp	q0, q0, [sp, #176]
	stp	q0, q0, [sp, #208]
	stp	q0, q0, [sp, #240]
	stp	q0, q0, [sp, #272]
	stp	q0, q0, [sp, #304]
	stp	q0, q0, [sp, #336]
	stp	q0, q0, [sp, #368]
	stp	q0, q0, [sp, #400]
	stp	q0, q0, [sp, #432]
	stp	q0, q0, [sp, #464]
	stp	q0, q0, [sp, #496]
	stp	q0, q0, [sp, #528]
	stp	q0, q0, [sp, #560]
	stp	q0, q0, [sp, #592]
	stp	q0, q0, [sp, #624]
	stp	q0, q0, [sp, #656]
	cbz	x4, LBB75_13
	cmp	x4, #9
	b.hs	LBB75_9
	mov	x8, #0
	b	LBB75_11
LBB75_9:
	ands	x8, x4, #0x7
	mov	w10, #8
	csel	x8, x10, x8, eq
	sub	x8, x4, x8
	add	x10, x9, x3
	add	x10, x10, #72
	add	x11, sp, #176
	add	x11, x11, #32
	mov	x12, x8
LBB75_10:
	sub	x13, x10, #24
	sub	x14, x10, #56
	ldur	q0, [x10, #-72]
	ld1.s	{ v0 }[1], [x14]
	sub	x14, x10, #40
	ld1.s	{ v0 }[2], [x14]
	ld1.s	{ v0 }[3], [x13]
	ldp	q3, q2, [x10, #-64]
	sub	x13, x10, #16
	ldur	q4, [x10, #-32]
	ld1.d	{ v4 }[1], [x13]
	zip1.2d	v2, v3, v2
	uqxtn.2s	v1, v2
	uqxtn2.4s	v1, v4
	add	x13, x10, #40
	add	x14, x10, #24
	add	x15, x10, #8
	ldur	q2, [x10, #-8]
	ld1.s	{ v2 }[1], [x15]
	ld1.s	{ v2 }[2], [x14]
	ld1.s	{ v2 }[3], [x13]
	ldp	q5, q4, [x10]
	add	x13, x10, #48
	ldr	q6, [x10, #32]
	ld1.d	{ v6 }[1], [x13]
	zip1.2d	v4, v5, v4
	sub	x13, x11, #32
	st2.4s	{ v0, v1 }, [x13]
	uqxtn.2s	v3, v4
	uqxtn2.4s	v3, v6
	st2.4s	{ v2, v3 }, [x11]
	add	x10, x10, #128
	add	x11, x11, #64
	subs	x12, x12, #8
	b.ne	LBB75_10
LBB75_11:
	sub	x10, x4, x8
	add	x11, sp, #176
	add	x11, x11, x8, lsl #3
	orr	x11, x11, #0x4
	add	x8, x9, x8, lsl #4
	add	x8, x8, x3
	add	x8, x8, #8
	mov	w9, #-1
LBB75_12:
	ldur	w12, [x8, #-8]
	ldr	x13, [x8], #16
	cmp	x13, x9
	csel	x13, x13, x9, lo
	stp	w12, w13, [x11, #-4]
	add	x11, x11, #8
	subs	x10, x10, #1
	b.ne	LBB75_12
LBB75_13:
	str	w2, [sp, #140]
	str	x0, [sp, #128]
	add	x19, sp, #720
	str	xzr, [sp, #768]
	str	xzr, [sp, #752]
	str	xzr, [sp, #760]
	str	wzr, [sp, #776]
	str	xzr, [sp, #736]
	str	xzr, [sp, #720]
	str	xzr, [sp, #728]
	str	wzr, [sp, #744]
	str	w1, [sp, #124]
	movi.2d	v0, #0000000000000000
	cmp	w1, #4
	b.ne	LBB75_19
	stp	q0, q0, [sp, #848]
	stp	q0, q0, [sp, #880]
	str	q0, [sp, #912]
	str	xzr, [sp, #928]
	str	xzr, [sp, #832]
	str	xzr, [sp, #816]
	str	xzr, [sp, #824]
	stur	xzr, [x19, #118]
	str	xzr, [sp, #800]
	str	xzr, [sp, #784]
	str	xzr, [sp, #792]
	str	wzr, [sp, #808]
	add	x0, sp, #848
	add	x1, sp, #176
	mov	x28, x4
	mov	x2, x4
	bl	_tlsf_pool.sizes.split.rising_split.4
	mov	w8, #0
	ldrb	w9, [sp, #848]
	cmp	w9, #1
	b.ne	LBB75_240
	ldur	q0, [x19, #136]
	ldur	q1, [x19, #152]
	stp	q0, q1, [x29, #-224]
	ldur	q0, [x19, #168]
	ldur	q1, [x19, #184]
	stp	q0, q1, [x29, #-192]
	ldur	q0, [x19, #200]
	stur	q0, [x29, #-160]
	stp	xzr, xzr, [x29, #-144]
	stur	xzr, [x29, #-128]
	ldur	x26, [x29, #-224]
	cbz	x26, LBB75_198
	mov	x8, #25351
	movk	x8, #2253, lsl #16
	movk	x8, #48260, lsl #32
	movk	x8, #11, lsl #48
	cmp	x26, x8
	b.hs	LBB75_239
	mov	w8, #2792
	mul	x0, x26, x8
	mov	w1, #8
	bl	_tlsf_memory_alloc
	tbz	w0, #0, LBB75_239
	mov	x23, #0
	mov	x27, #0
	str	x1, [sp, #88]
	stp	x1, xzr, [x29, #-144]
	stur	x26, [x29, #-128]
	sub	x8, x29, #224
	orr	x8, x8, #0x8
	str	x8, [sp, #72]
	add	x20, sp, #176
	mov	w16, #27
	mov	w21, #4
Lloh20:
	adrp	x8, lCPI75_0@PAGE
Lloh21:
	ldr	q0, [x8, lCPI75_0@PAGEOFF]
	str	q0, [sp, #48]
Lloh22:
	adrp	x8, lCPI75_1@PAGE
Lloh23:
	ldr	q0, [x8, lCPI75_1@PAGEOFF]
	str	q0, [sp, #32]
Lloh24:
	adrp	x8, lCPI75_2@PAGE
Lloh25:
	ldr	d8, [x8, lCPI75_2@PAGEOFF]
	mov	w19, #65513
	movk	w19, #127, lsl #16
	str	x26, [sp, #16]
	b	LBB75_25
LBB75_19:
	stp	q0, q0, [sp, #848]
	stp	q0, q0, [sp, #880]
	str	q0, [sp, #912]
	str	xzr, [sp, #928]
	str	xzr, [sp, #832]
	str	xzr, [sp, #816]
	str	xzr, [sp, #824]
	stur	xzr, [x19, #118]
	str	xzr, [sp, #800]
	str	xzr, [sp, #784]
	str	xzr, [sp, #792]
	str	wzr, [sp, #808]
	add	x0, sp, #848
	add	x1, sp, #176
	mov	x28, x4
	mov	x2, x4
	bl	_tlsf_pool.sizes.split.rising_split.5
	mov	w8, #0
	ldrb	w9, [sp, #848]
	cmp	w9, #1
	b.ne	LBB75_240
	ldur	q0, [x19, #136]
	ldur	q1, [x19, #152]
	stp	q0, q1, [x29, #-224]
	ldur	q0, [x19, #168]
	ldur	q1, [x19, #184]
	stp	q0, q1, [x29, #-192]
	ldur	q0, [x19, #200]
	stur	q0, [x29, #-160]
	stp	xzr, xzr, [x29, #-144]
	stur	xzr, [x29, #-128]
	ldur	x26, [x29, #-224]
	cbz	x26, LBB75_200
	mov	x8, #25351
	movk	x8, #2253, lsl #16
	movk	x8, #48260, lsl #32
	movk	x8, #11, lsl #48
	cmp	x26, x8
	b.hs	LBB75_239
	mov	w8, #2792
	mul	x0, x26, x8
	mov	w1, #8
	bl	_tlsf_memory_alloc
	tbz	w0, #0, LBB75_239
	mov	x23, #0
	mov	x27, #0
	mov	w8, #1
	movk	w8, #16, lsl #16
	str	x1, [sp, #96]
	stp	x1, xzr, [x29, #-144]
	sub	x9, x29, #224
	stur	x26, [x29, #-128]
	orr	x9, x9, #0x8
	str	x9, [sp, #72]
	add	x20, sp, #176
	mov	w16, #26
	mov	w17, #16
	add	x8, x8, #3840, lsl #12
	str	x8, [sp, #48]
Lloh26:
	adrp	x8, lCPI75_0@PAGE
Lloh27:
	ldr	q0, [x8, lCPI75_0@PAGEOFF]
	str	q0, [sp, #32]
Lloh28:
	adrp	x8, lCPI75_1@PAGE
Lloh29:
	ldr	q0, [x8, lCPI75_1@PAGEOFF]
	str	q0, [sp, #16]
Lloh30:
	adrp	x8, lCPI75_2@PAGE
Lloh31:
	ldr	d8, [x8, lCPI75_2@PAGEOFF]
	mov	w19, #65513
	movk	w19, #2047, lsl #16
	str	x26, [sp, #8]
	b	LBB75_112
LBB75_24:
	add	x20, x20, x25, lsl #3
	ldr	x28, [sp, #112]
	sub	x28, x28, x25
	add	x27, x27, #1
	ldr	x23, [sp, #80]
	cmp	x27, x26
	mov	w16, #27
	mov	w21, #4
	b.eq	LBB75_199
LBB75_25:
	ldur	x8, [x29, #-224]
	mvn	x9, x27
	add	x8, x8, x9
	ldr	x9, [sp, #72]
	ldr	x8, [x9, x8, lsl #3]
	cmp	x28, x8
	csel	x25, x28, x8, lo
	str	x20, [sp, #104]
	cbz	x25, LBB75_31
	add	x8, x20, #4
	mov	x9, x25
LBB75_27:
	ldr	w10, [x8], #8
	cmp	w10, w19
	b.hs	LBB75_242
	subs	x9, x9, #1
	b.ne	LBB75_27
	mov	x8, #0
	subs	x9, x25, #1
	b.ne	LBB75_32
	mov	x10, #0
	ldr	x17, [sp, #104]
	b	LBB75_35
LBB75_31:
	mov	x8, #0
	mov	w9, #0
	b	LBB75_63
LBB75_32:
	mov	x11, #0
	and	x10, x25, #0xfffffffffffffffe
	ldr	x17, [sp, #104]
	add	x12, x17, #8
	and	x13, x25, #0xfffffffffffffffe
LBB75_33:
	ldur	w14, [x12, #-8]
	ldr	w15, [x12], #16
	add	x8, x8, x14
	add	x11, x11, x15
	subs	x13, x13, #2
	b.ne	LBB75_33
	add	x8, x11, x8
	cmp	x25, x10
	b.eq	LBB75_37
LBB75_35:
	sub	x11, x25, x10
	add	x10, x17, x10, lsl #3
LBB75_36:
	ldr	w12, [x10], #8
	add	x8, x8, x12
	subs	x11, x11, #1
	b.ne	LBB75_36
LBB75_37:
	and	x10, x25, #0x7
	cmp	x9, #7
	b.hs	LBB75_39
	mov	w9, #0
	mov	x11, #0
	b	LBB75_59
LBB75_39:
	mov	x11, #0
	mov	w9, #0
	and	x12, x25, #0xfffffffffffffff8
	neg	x12, x12
	add	x13, x17, #32
	b	LBB75_41
LBB75_40:
	sub	x11, x11, #8
	mov	x13, x14
	cmp	x12, x11
	b.eq	LBB75_57
LBB75_41:
	ldur	w14, [x13, #-32]
	cbz	w14, LBB75_43
	ldur	w14, [x13, #-28]
	cmp	w14, w9
	csel	w9, w14, w9, hi
LBB75_43:
	ldur	w14, [x13, #-24]
	cbz	w14, LBB75_45
	ldur	w14, [x13, #-20]
	cmp	w14, w9
	csel	w9, w14, w9, hi
LBB75_45:
	ldur	w14, [x13, #-16]
	cbz	w14, LBB75_47
	ldur	w14, [x13, #-12]
	cmp	w14, w9
	csel	w9, w14, w9, hi
LBB75_47:
	ldur	w14, [x13, #-8]
	cbz	w14, LBB75_49
	ldur	w14, [x13, #-4]
	cmp	w14, w9
	csel	w9, w14, w9, hi
LBB75_49:
	mov	x14, x13
	ldr	w15, [x14], #64
	cbz	w15, LBB75_51
	ldr	w15, [x13, #4]
	cmp	w15, w9
	csel	w9, w15, w9, hi
LBB75_51:
	ldr	w15, [x13, #8]
	cbz	w15, LBB75_53
	ldr	w15, [x13, #12]
	cmp	w15, w9
	csel	w9, w15, w9, hi
LBB75_53:
	ldr	w15, [x13, #16]
	cbz	w15, LBB75_55
	ldr	w15, [x13, #20]
	cmp	w15, w9
	csel	w9, w15, w9, hi
LBB75_55:
	ldr	w15, [x13, #24]
	cbz	w15, LBB75_40
	ldr	w13, [x13, #28]
	cmp	w13, w9
	csel	w9, w13, w9, hi
	b	LBB75_40
LBB75_57:
	cbz	x10, LBB75_63
	neg	x11, x11
LBB75_59:
	add	x11, x17, x11, lsl #3
	add	x11, x11, #4
	b	LBB75_61
LBB75_60:
	add	x11, x11, #8
	subs	x10, x10, #1
	b.eq	LBB75_63
LBB75_61:
	ldur	w12, [x11, #-4]
	cbz	w12, LBB75_60
	ldr	w12, [x11]
	cmp	w12, w9
	csel	w9, w12, w9, hi
	b	LBB75_60
LBB75_63:
	mov	w10, w9
	cmp	w9, #0
	cinc	x9, x10, eq
	add	x9, x9, #31
	lsr	x9, x9, #3
	orr	w10, w9, #0x10
	clz	w10, w10
	sub	w10, w16, w10
	sub	w9, w9, #1
	lsr	w9, w9, w10
	add	w9, w9, #1
	add	w10, w9, w10, lsl #4
	lsr	w11, w10, #4
	mov	w12, #8
	lsl	w12, w12, w11
	and	w9, w9, #0xf
	sub	w13, w11, #1
	lsl	w9, w9, w13
	add	w9, w9, w12
	cmp	w11, #0
	csel	w9, w10, w9, eq
	mul	x8, x8, x9
	cmp	x8, #4
	csel	x24, x8, x21, hi
	mov	w9, #1
	movk	w9, #16, lsl #16
	cmp	x8, x9
	csel	w20, w24, wzr, lo
	b.hs	LBB75_242
	str	x28, [sp, #112]
	lsl	x0, x24, #3
	mov	w1, #8
	bl	_tlsf_memory_alloc
	tbz	w0, #0, LBB75_224
	mov	x22, x1
	str	x27, [sp, #96]
	movi.2d	v0, #0000000000000000
	stp	q0, q0, [x1]
	add	x8, x24, #63
	lsr	x27, x8, #6
	lsl	x0, x27, #3
	mov	w1, #8
	bl	_tlsf_memory_alloc
	tbz	w0, #0, LBB75_210
	str	xzr, [x1]
	ldr	q0, [sp, #48]
	str	q0, [x22]
	ldr	x8, [x1]
	orr	x8, x8, #0x1
	str	x8, [x1]
	mov	x10, #-1
	str	x10, [x22, #16]
	ldur	x8, [x29, #-128]
	mov	x26, x23
	cmp	x8, x23
	b.eq	LBB75_109
LBB75_67:
	ldr	w8, [sp, #140]
	ldp	x9, x11, [sp, #88]
	add	w8, w8, w11
	mov	w11, #2792
	madd	x28, x26, x11, x9
	stp	w8, wzr, [x28]
	ldr	q0, [sp, #32]
	stur	q0, [x28, #8]
	stp	x22, x21, [x28, #24]
	stp	x24, x1, [x28, #40]
	mov	w8, #1
	stp	x8, x27, [x28, #56]
	str	x21, [x28, #72]
	str	d8, [x28, #80]
	movi.2d	v0, #0000000000000000
	stur	q0, [x28, #88]
	stur	q0, [x28, #104]
	stur	q0, [x28, #120]
	stur	q0, [x28, #136]
	stur	q0, [x28, #152]
	stp	x10, x10, [x28, #168]
	str	wzr, [x28, #184]
	add	x0, x28, #188
	mov	w1, #255
	mov	w2, #2544
	bl	_tlsf_memory_set
	str	wzr, [x28, #2732]
	sub	x22, x29, #120
	str	x22, [x28, #2736]
	add	x8, x28, #2744
	movi.2d	v0, #0000000000000000
	str	q0, [x8]
	str	x21, [x28, #2760]
	str	x22, [x28, #2768]
	add	x8, x28, #2776
	add	x21, x26, #1
	str	q0, [x8]
	stur	x21, [x29, #-136]
	str	x21, [sp, #80]
	cbz	x25, LBB75_73
	lsr	x8, x25, #60
	cbnz	x8, LBB75_207
	lsl	x22, x25, #3
	mov	x0, x22
	mov	w1, #4
	bl	_tlsf_memory_alloc
	tbz	w0, #0, LBB75_207
	mov	x28, x1
	mov	x0, x1
	ldr	x1, [sp, #104]
	mov	x2, x22
	bl	_tlsf_memory_cpy
	lsl	x24, x25, #2
	mov	x0, x24
	mov	w1, #4
	bl	_tlsf_memory_alloc
	tbz	w0, #0, LBB75_223
	mov	x22, x1
	subs	x26, x25, #1
	b.ne	LBB75_74
	mov	x9, #0
	b	LBB75_75
LBB75_73:
	mov	x24, #0
	mov	w8, #0
	sub	x28, x29, #120
	mov	w16, #27
	mov	x1, x20
	ldr	x20, [sp, #104]
	b	LBB75_102
LBB75_74:
	sub	x1, x24, #4
	mov	x0, x22
	bl	_bzero
	mov	x9, x26
LBB75_75:
	mov	w16, #27
	mov	x1, x20
	str	wzr, [x22, x9, lsl #2]
	and	x10, x25, #0x7
	cmp	x26, #7
	ldr	x20, [sp, #104]
	b.hs	LBB75_77
	mov	w8, #0
	mov	x11, #0
	b	LBB75_97
LBB75_77:
	mov	x11, #0
	mov	w8, #0
	and	x12, x25, #0xffffffffffffff8
	neg	x12, x12
	add	x13, x20, #32
	b	LBB75_79
LBB75_78:
	sub	x11, x11, #8
	mov	x13, x14
	cmp	x12, x11
	b.eq	LBB75_95
LBB75_79:
	ldur	w14, [x13, #-32]
	cbz	w14, LBB75_81
	ldur	w14, [x13, #-28]
	cmp	w14, w8
	csel	w8, w14, w8, hi
LBB75_81:
	ldur	w14, [x13, #-24]
	cbz	w14, LBB75_83
	ldur	w14, [x13, #-20]
	cmp	w14, w8
	csel	w8, w14, w8, hi
LBB75_83:
	ldur	w14, [x13, #-16]
	cbz	w14, LBB75_85
	ldur	w14, [x13, #-12]
	cmp	w14, w8
	csel	w8, w14, w8, hi
LBB75_85:
	ldur	w14, [x13, #-8]
	cbz	w14, LBB75_87
	ldur	w14, [x13, #-4]
	cmp	w14, w8
	csel	w8, w14, w8, hi
LBB75_87:
	mov	x14, x13
	ldr	w15, [x14], #64
	cbz	w15, LBB75_89
	ldr	w15, [x13, #4]
	cmp	w15, w8
	csel	w8, w15, w8, hi
LBB75_89:
	ldr	w15, [x13, #8]
	cbz	w15, LBB75_91
	ldr	w15, [x13, #12]
	cmp	w15, w8
	csel	w8, w15, w8, hi
LBB75_91:
	ldr	w15, [x13, #16]
	cbz	w15, LBB75_93
	ldr	w15, [x13, #20]
	cmp	w15, w8
	csel	w8, w15, w8, hi
LBB75_93:
	ldr	w15, [x13, #24]
	cbz	w15, LBB75_78
	ldr	w13, [x13, #28]
	cmp	w13, w8
	csel	w8, w13, w8, hi
	b	LBB75_78
LBB75_95:
	cbz	x10, LBB75_101
	neg	x11, x11
LBB75_97:
	add	x11, x20, x11, lsl #3
	add	x11, x11, #4
	b	LBB75_99
LBB75_98:
	add	x11, x11, #8
	subs	x10, x10, #1
	b.eq	LBB75_101
LBB75_99:
	ldur	w12, [x11, #-4]
	cbz	w12, LBB75_98
	ldr	w12, [x11]
	cmp	w12, w8
	csel	w8, w12, w8, hi
	b	LBB75_98
LBB75_101:
	add	x24, x9, #1
LBB75_102:
	mov	w9, w8
	cmp	w8, #0
	cinc	x8, x9, eq
	add	x8, x8, #31
	lsr	x8, x8, #3
	orr	w9, w8, #0x10
	clz	w9, w9
	sub	w9, w16, w9
	sub	w8, w8, #1
	lsr	w8, w8, w9
	add	w8, w8, #1
	add	w9, w8, w9, lsl #4
	lsr	w10, w9, #4
	mov	w11, #8
	lsl	w11, w11, w10
	and	w8, w8, #0xf
	sub	w12, w10, #1
	lsl	w8, w8, w12
	add	w8, w8, w11
	cmp	w10, #0
	csel	w27, w9, w8, eq
	mov	w21, #27
	ldr	x8, [sp, #88]
	mov	w9, #2792
	madd	x26, x23, x9, x8
	ldr	x8, [x26, #8]
	sub	x23, x8, #1
	add	x0, x26, #24
	bl	_tlsf_words.words.Words.lengthen
	mov	w8, #-1
	str	w8, [x26, #184]
	movi.2d	v0, #0000000000000000
	stp	q0, q0, [x26, #80]
	stp	q0, q0, [x26, #112]
	str	q0, [x26, #144]
	str	xzr, [x26, #160]
	ldp	x11, x10, [x26, #24]
	orr	w8, w10, #0x10
	clz	w8, w8
	sub	w9, w21, w8
	lsr	w8, w10, w9
	add	w9, w8, w9, lsl #4
	lsl	x10, x10, #2
	orr	x10, x10, #0xffffffff00000003
	stp	x10, x23, [x11]
	ldr	x10, [x26, #48]
	ldr	x11, [x10]
	orr	x11, x11, #0x1
	str	x11, [x10]
	add	x11, x26, w9, uxtw #2
	ldr	w10, [x11, #168]
	str	wzr, [x11, #168]
	ldr	x11, [x26, #24]
	tbnz	w10, #31, LBB75_104
	orr	x8, x10, #0xffffffff00000000
	str	x8, [x11, #16]
	add	x8, x11, x10, lsl #3
	ldr	w9, [x8, #16]
	str	x9, [x8, #16]
	b	LBB75_105
LBB75_104:
	mov	x10, #-1
	str	x10, [x11, #16]
	lsr	x9, x9, #4
	ldr	w10, [x26, #80]
	add	x11, x26, x9, lsl #2
	ldr	w12, [x11, #84]
	mov	w13, #1
	lsl	w9, w13, w9
	orr	w9, w10, w9
	str	w9, [x26, #80]
	and	w8, w8, #0xf
	lsl	w8, w13, w8
	orr	w8, w12, w8
	str	w8, [x11, #84]
LBB75_105:
	ldr	x0, [x26, #2736]
	ldr	x8, [x26, #2752]
	ldr	x21, [x26, #2768]
	ldr	x23, [x26, #2784]
	str	x28, [x26, #2736]
	str	x25, [x26, #2744]
	str	x25, [x26, #2752]
	str	w27, [x26, #2760]
	str	wzr, [x26, #2764]
	str	x22, [x26, #2768]
	str	x24, [x26, #2776]
	str	x25, [x26, #2784]
	cbz	x8, LBB75_107
	bl	_tlsf_memory_dealloc
LBB75_107:
	ldr	x26, [sp, #16]
	ldr	x27, [sp, #96]
	cbz	x23, LBB75_24
	mov	x0, x21
	bl	_tlsf_memory_dealloc
	b	LBB75_24
LBB75_109:
	mov	x28, x1
	sub	x0, x29, #144
	bl	_std_alloc.vec.Vec.grow_amortized.8f83c87fc5454f35
	cbz	w0, LBB75_235
	ldp	x8, x26, [x29, #-144]
	str	x8, [sp, #88]
	mov	x1, x28
	mov	x10, #-1
	b	LBB75_67
LBB75_111:
	add	x20, x20, x25, lsl #3
	ldr	x28, [sp, #112]
	sub	x28, x28, x25
	add	x27, x27, #1
	ldr	x23, [sp, #88]
	cmp	x27, x26
	mov	w16, #26
	mov	w17, #16
	b.eq	LBB75_201
LBB75_112:
	ldur	x8, [x29, #-224]
	mvn	x9, x27
	add	x8, x8, x9
	ldr	x9, [sp, #72]
	ldr	x8, [x9, x8, lsl #3]
	cmp	x28, x8
	csel	x25, x28, x8, lo
	cbz	x25, LBB75_118
	add	x8, x20, #4
	mov	x9, x25
LBB75_114:
	ldr	w10, [x8], #8
	cmp	w10, w19
	b.hs	LBB75_242
	subs	x9, x9, #1
	b.ne	LBB75_114
	mov	x8, #0
	subs	x9, x25, #1
	b.ne	LBB75_119
	mov	x10, #0
	b	LBB75_122
LBB75_118:
	mov	x8, #0
	mov	w9, #0
	b	LBB75_150
LBB75_119:
	mov	x11, #0
	and	x10, x25, #0xfffffffffffffffe
	add	x12, x20, #8
	and	x13, x25, #0xfffffffffffffffe
LBB75_120:
	ldur	w14, [x12, #-8]
	ldr	w15, [x12], #16
	add	x8, x8, x14
	add	x11, x11, x15
	subs	x13, x13, #2
	b.ne	LBB75_120
	add	x8, x11, x8
	cmp	x25, x10
	b.eq	LBB75_124
LBB75_122:
	sub	x11, x25, x10
	add	x10, x20, x10, lsl #3
LBB75_123:
	ldr	w12, [x10], #8
	add	x8, x8, x12
	subs	x11, x11, #1
	b.ne	LBB75_123
LBB75_124:
	and	x10, x25, #0x7
	cmp	x9, #7
	b.hs	LBB75_126
	mov	w9, #0
	mov	x11, #0
	b	LBB75_146
LBB75_126:
	mov	x11, #0
	mov	w9, #0
	and	x12, x25, #0xfffffffffffffff8
	neg	x12, x12
	add	x13, x20, #32
	b	LBB75_128
LBB75_127:
	sub	x11, x11, #8
	mov	x13, x14
	cmp	x12, x11
	b.eq	LBB75_144
LBB75_128:
	ldur	w14, [x13, #-32]
	cbz	w14, LBB75_130
	ldur	w14, [x13, #-28]
	cmp	w14, w9
	csel	w9, w14, w9, hi
LBB75_130:
	ldur	w14, [x13, #-24]
	cbz	w14, LBB75_132
	ldur	w14, [x13, #-20]
	cmp	w14, w9
	csel	w9, w14, w9, hi
LBB75_132:
	ldur	w14, [x13, #-16]
	cbz	w14, LBB75_134
	ldur	w14, [x13, #-12]
	cmp	w14, w9
	csel	w9, w14, w9, hi
LBB75_134:
	ldur	w14, [x13, #-8]
	cbz	w14, LBB75_136
	ldur	w14, [x13, #-4]
	cmp	w14, w9
	csel	w9, w14, w9, hi
LBB75_136:
	mov	x14, x13
	ldr	w15, [x14], #64
	cbz	w15, LBB75_138
	ldr	w15, [x13, #4]
	cmp	w15, w9
	csel	w9, w15, w9, hi
LBB75_138:
	ldr	w15, [x13, #8]
	cbz	w15, LBB75_140
	ldr	w15, [x13, #12]
	cmp	w15, w9
	csel	w9, w15, w9, hi
LBB75_140:
	ldr	w15, [x13, #16]
	cbz	w15, LBB75_142
	ldr	w15, [x13, #20]
	cmp	w15, w9
	csel	w9, w15, w9, hi
LBB75_142:
	ldr	w15, [x13, #24]
	cbz	w15, LBB75_127
	ldr	w13, [x13, #28]
	cmp	w13, w9
	csel	w9, w13, w9, hi
	b	LBB75_127
LBB75_144:
	cbz	x10, LBB75_150
	neg	x11, x11
LBB75_146:
	add	x11, x20, x11, lsl #3
	add	x11, x11, #4
	b	LBB75_148
LBB75_147:
	add	x11, x11, #8
	subs	x10, x10, #1
	b.eq	LBB75_150
LBB75_148:
	ldur	w12, [x11, #-4]
	cbz	w12, LBB75_147
	ldr	w12, [x11]
	cmp	w12, w9
	csel	w9, w12, w9, hi
	b	LBB75_147
LBB75_150:
	mov	w10, w9
	cmp	w9, #0
	cinc	x9, x10, eq
	add	x9, x9, #31
	lsr	x9, x9, #3
	orr	w10, w9, #0x20
	clz	w10, w10
	sub	w10, w16, w10
	sub	w9, w9, #1
	lsr	w9, w9, w10
	add	w9, w9, #1
	add	w10, w9, w10, lsl #5
	lsr	w11, w10, #5
	lsl	w12, w17, w11
	and	w9, w9, #0x1f
	sub	w13, w11, #1
	lsl	w9, w9, w13
	add	w9, w9, w12
	cmp	w11, #0
	csel	w9, w10, w9, eq
	mul	x8, x8, x9
	cmp	x8, #4
	mov	w9, #4
	csel	x24, x8, x9, hi
	ldr	x9, [sp, #48]
	cmp	x8, x9
	csel	w21, w24, wzr, lo
	b.hs	LBB75_242
	str	x28, [sp, #112]
	lsl	x0, x24, #3
	mov	w1, #8
	bl	_tlsf_memory_alloc
	tbz	w0, #0, LBB75_212
	mov	x22, x1
	str	x27, [sp, #104]
	movi.2d	v0, #0000000000000000
	stp	q0, q0, [x1]
	add	x8, x24, #63
	lsr	x27, x8, #6
	lsl	x0, x27, #3
	mov	w1, #8
	bl	_tlsf_memory_alloc
	tbz	w0, #0, LBB75_209
	str	xzr, [x1]
	ldr	q0, [sp, #32]
	str	q0, [x22]
	ldr	x8, [x1]
	orr	x8, x8, #0x1
	str	x8, [x1]
	mov	x10, #-1
	str	x10, [x22, #16]
	ldur	x8, [x29, #-128]
	mov	x26, x23
	cmp	x8, x23
	b.eq	LBB75_196
LBB75_154:
	str	w21, [sp, #80]
	ldr	w8, [sp, #140]
	ldp	x9, x11, [sp, #96]
	add	w8, w8, w11
	mov	w11, #2792
	madd	x28, x26, x11, x9
	stp	w8, wzr, [x28]
	ldr	q0, [sp, #16]
	stur	q0, [x28, #8]
	mov	w21, #4
	stp	x22, x21, [x28, #24]
	stp	x24, x1, [x28, #40]
	mov	w8, #1
	stp	x8, x27, [x28, #56]
	str	x21, [x28, #72]
	str	d8, [x28, #80]
	movi.2d	v0, #0000000000000000
	stur	q0, [x28, #88]
	stur	q0, [x28, #104]
	stur	q0, [x28, #120]
	stur	q0, [x28, #136]
	stur	q0, [x28, #152]
	stp	x10, x10, [x28, #168]
	str	wzr, [x28, #184]
	add	x0, x28, #188
	mov	w1, #255
	mov	w2, #2544
	bl	_tlsf_memory_set
	str	wzr, [x28, #2732]
	sub	x22, x29, #120
	str	x22, [x28, #2736]
	add	x8, x28, #2744
	movi.2d	v0, #0000000000000000
	str	q0, [x8]
	str	x21, [x28, #2760]
	str	x22, [x28, #2768]
	add	x8, x28, #2776
	add	x27, x26, #1
	str	q0, [x8]
	stur	x27, [x29, #-136]
	str	x27, [sp, #88]
	cbz	x25, LBB75_160
	lsr	x8, x25, #60
	mov	w21, #16
	cbnz	x8, LBB75_208
	lsl	x22, x25, #3
	mov	x0, x22
	mov	w1, #4
	bl	_tlsf_memory_alloc
	tbz	w0, #0, LBB75_208
	mov	x28, x1
	mov	x0, x1
	mov	x1, x20
	mov	x2, x22
	bl	_tlsf_memory_cpy
	lsl	x24, x25, #2
	mov	x0, x24
	mov	w1, #4
	bl	_tlsf_memory_alloc
	tbz	w0, #0, LBB75_211
	mov	x22, x1
	subs	x26, x25, #1
	b.ne	LBB75_161
	mov	x9, #0
	b	LBB75_162
LBB75_160:
	mov	x24, #0
	mov	w8, #0
	sub	x28, x29, #120
	mov	w16, #26
	mov	w21, #16
	b	LBB75_189
LBB75_161:
	sub	x1, x24, #4
	mov	x0, x22
	bl	_bzero
	mov	x9, x26
LBB75_162:
	mov	w16, #26
	str	wzr, [x22, x9, lsl #2]
	and	x10, x25, #0x7
	cmp	x26, #7
	b.hs	LBB75_164
	mov	w8, #0
	mov	x11, #0
	b	LBB75_184
LBB75_164:
	mov	x11, #0
	mov	w8, #0
	and	x12, x25, #0xffffffffffffff8
	neg	x12, x12
	add	x13, x20, #32
	b	LBB75_166
LBB75_165:
	sub	x11, x11, #8
	mov	x13, x14
	cmp	x12, x11
	b.eq	LBB75_182
LBB75_166:
	ldur	w14, [x13, #-32]
	cbz	w14, LBB75_168
	ldur	w14, [x13, #-28]
	cmp	w14, w8
	csel	w8, w14, w8, hi
LBB75_168:
	ldur	w14, [x13, #-24]
	cbz	w14, LBB75_170
	ldur	w14, [x13, #-20]
	cmp	w14, w8
	csel	w8, w14, w8, hi
LBB75_170:
	ldur	w14, [x13, #-16]
	cbz	w14, LBB75_172
	ldur	w14, [x13, #-12]
	cmp	w14, w8
	csel	w8, w14, w8, hi
LBB75_172:
	ldur	w14, [x13, #-8]
	cbz	w14, LBB75_174
	ldur	w14, [x13, #-4]
	cmp	w14, w8
	csel	w8, w14, w8, hi
LBB75_174:
	mov	x14, x13
	ldr	w15, [x14], #64
	cbz	w15, LBB75_176
	ldr	w15, [x13, #4]
	cmp	w15, w8
	csel	w8, w15, w8, hi
LBB75_176:
	ldr	w15, [x13, #8]
	cbz	w15, LBB75_178
	ldr	w15, [x13, #12]
	cmp	w15, w8
	csel	w8, w15, w8, hi
LBB75_178:
	ldr	w15, [x13, #16]
	cbz	w15, LBB75_180
	ldr	w15, [x13, #20]
	cmp	w15, w8
	csel	w8, w15, w8, hi
LBB75_180:
	ldr	w15, [x13, #24]
	cbz	w15, LBB75_165
	ldr	w13, [x13, #28]
	cmp	w13, w8
	csel	w8, w13, w8, hi
	b	LBB75_165
LBB75_182:
	cbz	x10, LBB75_188
	neg	x11, x11
LBB75_184:
	add	x11, x20, x11, lsl #3
	add	x11, x11, #4
	b	LBB75_186
LBB75_185:
	add	x11, x11, #8
	subs	x10, x10, #1
	b.eq	LBB75_188
LBB75_186:
	ldur	w12, [x11, #-4]
	cbz	w12, LBB75_185
	ldr	w12, [x11]
	cmp	w12, w8
	csel	w8, w12, w8, hi
	b	LBB75_185
LBB75_188:
	add	x24, x9, #1
LBB75_189:
	mov	w9, w8
	cmp	w8, #0
	cinc	x8, x9, eq
	add	x8, x8, #31
	lsr	x8, x8, #3
	orr	w9, w8, #0x20
	clz	w9, w9
	sub	w9, w16, w9
	sub	w8, w8, #1
	lsr	w8, w8, w9
	add	w8, w8, #1
	add	w9, w8, w9, lsl #5
	lsr	w10, w9, #5
	lsl	w11, w21, w10
	and	w8, w8, #0x1f
	sub	w12, w10, #1
	lsl	w8, w8, w12
	add	w8, w8, w11
	cmp	w10, #0
	csel	w27, w9, w8, eq
	mov	w21, #26
	ldr	x8, [sp, #96]
	mov	w9, #2792
	madd	x26, x23, x9, x8
	ldr	x8, [x26, #8]
	sub	x23, x8, #1
	add	x0, x26, #24
	ldr	w1, [sp, #80]
	bl	_tlsf_words.words.Words.lengthen
	mov	w8, #-1
	str	w8, [x26, #184]
	movi.2d	v0, #0000000000000000
	stp	q0, q0, [x26, #80]
	stp	q0, q0, [x26, #112]
	str	q0, [x26, #144]
	str	xzr, [x26, #160]
	ldp	x11, x10, [x26, #24]
	orr	w8, w10, #0x20
	clz	w8, w8
	sub	w9, w21, w8
	lsr	w8, w10, w9
	add	w9, w8, w9, lsl #5
	lsl	x10, x10, #2
	orr	x10, x10, #0xffffffff00000003
	stp	x10, x23, [x11]
	ldr	x10, [x26, #48]
	ldr	x11, [x10]
	orr	x11, x11, #0x1
	str	x11, [x10]
	add	x11, x26, w9, uxtw #2
	ldr	w10, [x11, #168]
	str	wzr, [x11, #168]
	ldr	x11, [x26, #24]
	tbnz	w10, #31, LBB75_191
	orr	x8, x10, #0xffffffff00000000
	str	x8, [x11, #16]
	add	x8, x11, x10, lsl #3
	ldr	w9, [x8, #16]
	str	x9, [x8, #16]
	b	LBB75_192
LBB75_191:
	mov	x10, #-1
	str	x10, [x11, #16]
	lsr	x9, x9, #5
	ldr	w10, [x26, #80]
	add	x11, x26, x9, lsl #2
	ldr	w12, [x11, #84]
	mov	w13, #1
	lsl	w9, w13, w9
	orr	w9, w10, w9
	str	w9, [x26, #80]
	lsl	w8, w13, w8
	orr	w8, w12, w8
	str	w8, [x11, #84]
LBB75_192:
	ldr	x0, [x26, #2736]
	ldr	x8, [x26, #2752]
	ldr	x21, [x26, #2768]
	ldr	x23, [x26, #2784]
	str	x28, [x26, #2736]
	str	x25, [x26, #2744]
	str	x25, [x26, #2752]
	str	w27, [x26, #2760]
	str	wzr, [x26, #2764]
	str	x22, [x26, #2768]
	str	x24, [x26, #2776]
	str	x25, [x26, #2784]
	cbz	x8, LBB75_194
	bl	_tlsf_memory_dealloc
LBB75_194:
	ldr	x26, [sp, #8]
	ldr	x27, [sp, #104]
	cbz	x23, LBB75_111
	mov	x0, x21
	bl	_tlsf_memory_dealloc
	b	LBB75_111
LBB75_196:
	mov	x28, x1
	sub	x0, x29, #144
	bl	_std_alloc.vec.Vec.grow_amortized.cb831ce0f1fbfa3d
	cbz	w0, LBB75_236
	ldp	x8, x26, [x29, #-144]
	str	x8, [sp, #96]
	mov	x1, x28
	mov	x10, #-1
	b	LBB75_154
LBB75_198:
	sub	x8, x29, #120
	stur	x8, [x29, #-144]
LBB75_199:
	mov	x19, #0
	ldur	q0, [x29, #-144]
	add	x9, sp, #720
	stur	q0, [x9, #102]
	ldur	x8, [x29, #-128]
	stur	q0, [x9, #68]
	stur	x8, [x9, #84]
	ldr	q0, [sp, #784]
	str	q0, [sp, #752]
	ldur	q0, [x9, #76]
	stur	q0, [x9, #44]
	add	x8, sp, #752
	b	LBB75_202
LBB75_200:
	sub	x8, x29, #120
	stur	x8, [x29, #-144]
LBB75_201:
	ldur	q0, [x29, #-144]
	add	x9, sp, #720
	stur	q0, [x9, #102]
	ldur	x8, [x29, #-128]
	stur	q0, [x9, #68]
	stur	x8, [x9, #84]
	ldr	q0, [sp, #784]
	str	q0, [sp, #720]
	ldur	q0, [x9, #76]
	stur	q0, [x9, #12]
	add	x8, sp, #720
	mov	w19, #1
LBB75_202:
	ldr	w9, [x8, #16]
	ldr	q0, [x8]
	ldur	x20, [x8, #20]
	str	q0, [sp, #144]
	str	w9, [sp, #160]
	mov	w0, #2760
	mov	w1, #8
	bl	_tlsf_memory_alloc
	tbz	w0, #0, LBB75_204
	mov	w8, #257
	strh	w8, [x1]
	str	x19, [x1, #8]
	ldr	w8, [sp, #140]
	str	w8, [x1, #16]
	ldr	q0, [sp, #144]
	stur	q0, [x1, #20]
	ldr	w8, [sp, #160]
	str	w8, [x1, #36]
	str	x20, [x1, #40]
	add	x0, x1, #48
	mov	x19, x1
	mov	w1, #2712
	bl	_bzero
	mov	w8, #0
	ldr	x9, [sp, #128]
	str	x19, [x9]
	mov	w10, #1
	strb	w10, [x9, #8]
	stur	wzr, [x9, #9]
	str	wzr, [x9, #12]
	b	LBB75_241
LBB75_204:
	add	x8, sp, #144
	orr	x8, x8, #0x4
	ldr	w9, [sp, #124]
	cmp	w9, #4
	b.ne	LBB75_206
	ldr	q0, [x8]
	str	q0, [sp, #176]
	str	x20, [sp, #192]
	add	x0, sp, #176
	bl	_std_alloc.vec.Vec.drop.01e19ae241269710
	mov	w8, #6
	b	LBB75_241
LBB75_206:
	ldr	q0, [x8]
	str	q0, [sp, #848]
	str	x20, [sp, #864]
	add	x0, sp, #848
	bl	_std_alloc.vec.Vec.drop.1d6c342d5cae5f6b
	mov	w8, #6
	b	LBB75_241
LBB75_207:
	mov	x23, x21
	ldur	x19, [x29, #-144]
	ldur	x25, [x29, #-128]
	cbnz	x21, LBB75_225
	b	LBB75_237
LBB75_208:
	mov	x23, x27
	ldur	x19, [x29, #-144]
	ldur	x25, [x29, #-128]
	cbnz	x27, LBB75_213
	b	LBB75_237
LBB75_209:
	mov	x0, x22
	bl	_tlsf_memory_dealloc
	ldur	x19, [x29, #-144]
	ldur	x25, [x29, #-128]
	cbnz	x23, LBB75_213
	b	LBB75_237
LBB75_210:
	mov	x0, x22
	bl	_tlsf_memory_dealloc
	ldur	x19, [x29, #-144]
	ldur	x25, [x29, #-128]
	cbnz	x23, LBB75_225
	b	LBB75_237
LBB75_211:
	mov	x0, x28
	bl	_tlsf_memory_dealloc
	mov	x23, x27
LBB75_212:
	ldur	x19, [x29, #-144]
	ldur	x25, [x29, #-128]
	cbz	x23, LBB75_237
LBB75_213:
	mov	x24, x19
	b	LBB75_215
LBB75_214:
	add	x24, x24, #2792
	subs	x23, x23, #1
	b.eq	LBB75_237
LBB75_215:
	ldp	x8, x22, [x24, #40]
	ldr	x28, [x24, #64]
	ldr	x21, [x24, #2736]
	ldr	x27, [x24, #2752]
	ldr	x20, [x24, #2768]
	ldr	x26, [x24, #2784]
	cbz	x8, LBB75_217
	ldr	x0, [x24, #24]
	bl	_tlsf_memory_dealloc
LBB75_217:
	cbz	x28, LBB75_219
	mov	x0, x22
	bl	_tlsf_memory_dealloc
LBB75_219:
	cbz	x27, LBB75_221
	mov	x0, x21
	bl	_tlsf_memory_dealloc
LBB75_221:
	cbz	x26, LBB75_214
	mov	x0, x20
	bl	_tlsf_memory_dealloc
	b	LBB75_214
LBB75_223:
	mov	x0, x28
	bl	_tlsf_memory_dealloc
	mov	x23, x21
LBB75_224:
	ldur	x19, [x29, #-144]
	ldur	x25, [x29, #-128]
	cbz	x23, LBB75_237
LBB75_225:
	mov	x24, x19
	b	LBB75_227
LBB75_226:
	add	x24, x24, #2792
	subs	x23, x23, #1
	b.eq	LBB75_237
LBB75_227:
	ldp	x8, x22, [x24, #40]
	ldr	x28, [x24, #64]
	ldr	x21, [x24, #2736]
	ldr	x27, [x24, #2752]
	ldr	x20, [x24, #2768]
	ldr	x26, [x24, #2784]
	cbz	x8, LBB75_229
	ldr	x0, [x24, #24]
	bl	_tlsf_memory_dealloc
LBB75_229:
	cbz	x28, LBB75_231
	mov	x0, x22
	bl	_tlsf_memory_dealloc
LBB75_231:
	cbz	x27, LBB75_233
	mov	x0, x21
	bl	_tlsf_memory_dealloc
LBB75_233:
	cbz	x26, LBB75_226
	mov	x0, x20
	bl	_tlsf_memory_dealloc
	b	LBB75_226
LBB75_235:
	mov	x0, x22
	bl	_tlsf_memory_dealloc
	mov	x0, x28
	bl	_tlsf_memory_dealloc
	ldp	x19, x23, [x29, #-144]
	ldur	x25, [x29, #-128]
	cbnz	x23, LBB75_225
	b	LBB75_237
LBB75_236:
	mov	x0, x22
	bl	_tlsf_memory_dealloc
	mov	x0, x28
	bl	_tlsf_memory_dealloc
	ldp	x19, x23, [x29, #-144]
	ldur	x25, [x29, #-128]
	cbnz	x23, LBB75_213
LBB75_237:
	cbz	x25, LBB75_239
	mov	x0, x19
	bl	_tlsf_memory_dealloc
LBB75_239:
	mov	w8, #2
LBB75_240:
	cmp	w8, #0
	mov	w8, #5
	cinc	w8, w8, ne
LBB75_241:
	mov	x0, x8
	add	sp, sp, #1072
	.cfi_def_cfa wsp, 112
	ldp	x29, x30, [sp, #96]
	ldp	x20, x19, [sp, #80]
	ldp	x22, x21, [sp, #64]
	ldp	x24, x23, [sp, #48]
	ldp	x26, x25, [sp, #32]
	ldp	x28, x27, [sp, #16]
	ldp	d9, d8, [sp], #112
	.cfi_def_cfa_offset 0
	.cfi_restore w30
	.cfi_restore w29
	.cfi_restore w19
	.cfi_restore w20
	.cfi_restore w21
	.cfi_restore w22
	.cfi_restore w23
	.cfi_restore w24
	.cfi_restore w25
	.cfi_restore w26
	.cfi_restore w27
	.cfi_restore w28
	.cfi_restore b8
	.cfi_restore b9
	ret
LBB75_242:
	.cfi_restore_state
	brk	#0x1
	.loh AdrpLdr	Lloh24, Lloh25
	.loh AdrpAdrp	Lloh22, Lloh24
	.loh AdrpLdr	Lloh22, Lloh23
	.loh AdrpAdrp	Lloh20, Lloh22
	.loh AdrpLdr	Lloh20, Lloh21
	.loh AdrpLdr	Lloh30, Lloh31
	.loh AdrpAdrp	Lloh28, Lloh30
	.loh AdrpLdr	Lloh28, Lloh29
	.loh AdrpAdrp	Lloh26, Lloh28
	.loh AdrpLdr	Lloh26, Lloh27
	.cfi_endproc
	.globl	_tlsf_pools_part
	.p2align	2
_tlsf_pools_part:
	.cfi_startproc
	ldrb	w8, [x0, #8]
	cbz	w8, LBB76_6
	ldr	x8, [x0]
	ldrb	w9, [x8, #1]
	tbz	w9, #0, LBB76_6
	ldrb	w9, [x8]
	cmp	w9, #1
	b.ne	LBB76_7
	strb	wzr, [x8, #1]
	mov	w9, w1
	ldr	x10, [x8, #32]
	cmp	x10, x9
	b.ls	LBB76_5
	mov	w0, #0
	ldr	x10, [x8, #24]
	mov	w11, #2792
	umaddl	x9, w9, w11, x10
	ldr	w10, [x9]
	ldr	x9, [x9, #24]
	mov	w11, #1
	strb	w11, [x8, #1]
	str	x9, [x2]
	str	w10, [x3]
	ret
LBB76_5:
	mov	w9, #1
	strb	w9, [x8, #1]
	mov	w0, #4
	ret
LBB76_6:
	mov	w0, #0
	b	_tlsf_c.call_fault.CallFault.refusal
LBB76_7:
	mov	w0, #2
	b	_tlsf_c.call_fault.CallFault.refusal
	.cfi_endproc
	.globl	_tlsf_pools_place
	.p2align	2
_tlsf_pools_place:
	.cfi_startproc
	ldrb	w8, [x0, #8]
	cbz	w8, LBB77_9
	ldr	x8, [x0]
	ldrb	w9, [x8, #1]
	tbz	w9, #0, LBB77_9
	ldrb	w9, [x8]
	cmp	w9, #1
	b.ne	LBB77_10
	strb	wzr, [x8, #1]
	mov	w9, w1
	ldr	x10, [x8, #32]
	cmp	x10, x9
	b.ls	LBB77_8
	ldr	x10, [x8, #24]
	mov	w11, #2792
	umaddl	x10, w9, w11, x10
	ldr	w9, [x10]
	ldrb	w12, [x8, #8]
	ldr	w11, [x10, #32]
	cmp	w2, w11
	b.hs	LBB77_8
	ldr	x11, [x10, #48]
	lsr	w12, w2, #3
	and	x12, x12, #0x1ffffff8
	ldr	x11, [x11, x12]
	lsr	x11, x11, x2
	tbz	w11, #0, LBB77_8
	ldr	x10, [x10, #24]
	add	x10, x10, w2, uxtw #3
	ldr	x11, [x10]
	tbnz	w11, #0, LBB77_8
	mov	w0, #0
	ldp	x11, x10, [x10, #8]
	mov	w12, #1
	strb	w12, [x8, #1]
	stp	w9, w2, [x3]
	str	x11, [x3, #8]
	str	w10, [x4]
	ret
LBB77_8:
	mov	w9, #1
	strb	w9, [x8, #1]
	mov	w0, #4
	ret
LBB77_9:
	mov	w0, #0
	b	_tlsf_c.call_fault.CallFault.refusal
LBB77_10:
	mov	w0, #2
	b	_tlsf_c.call_fault.CallFault.refusal
	.cfi_endproc
	.globl	_tlsf_pools_read
	.p2align	2
_tlsf_pools_read:
	.cfi_startproc
	stp	x20, x19, [sp, #-32]!
	.cfi_def_cfa_offset 32
	stp	x29, x30, [sp, #16]
	add	x29, sp, #16
	.cfi_def_cfa w29, 16
	.cfi_offset w30, -8
	.cfi_offset w29, -16
	.cfi_offset w19, -24
	.cfi_offset w20, -32
	.cfi_remember_state
	mov	w8, #4096
	ldrb	w9, [x0, #8]
	cmp	x4, #0
	csel	x10, x8, xzr, eq
	cbz	w9, LBB78_21
	ldr	x19, [x0]
	ldrb	w8, [x19, #1]
	tbz	w8, #0, LBB78_21
	ldrb	w8, [x19]
	cmp	w8, #1
	b.ne	LBB78_26
	lsr	x8, x1, #32
	strb	wzr, [x19, #1]
	ldrb	w12, [x19, #8]
	ldr	x11, [x19, #32]
	ldr	w13, [x19, #16]
	subs	w9, w1, w13
	csel	w9, wzr, w9, lo
	cmp	w13, w1
	ccmp	x11, x9, #0, ls
	cset	w11, hi
	cbz	w12, LBB78_12
	cbz	w11, LBB78_20
	ldr	x11, [x19, #24]
	mov	w12, #2792
	umaddl	x11, w9, w12, x11
	ldr	w9, [x11]
	cmp	w9, w1
	b.ne	LBB78_22
	ldr	w12, [x11, #32]
	mov	x9, x1
	cmp	w8, w12
	b.hs	LBB78_22
	ldr	x9, [x11, #48]
	lsr	x12, x1, #35
	and	x12, x12, #0x1ffffff8
	ldr	x9, [x9, x12]
	lsr	x12, x9, x8
	mov	x9, x1
	tbz	w12, #0, LBB78_22
	ldur	x9, [x11, #24]
	add	x12, x9, x8, lsl #3
	ldr	x13, [x12]
	mov	x9, x1
	tbnz	w13, #0, LBB78_22
	ldr	x13, [x12, #8]
	mov	x9, x1
	cmp	x13, x2
	b.ne	LBB78_22
	ldr	w9, [x12, #16]
	add	x12, x5, w3, uxtw
	cmp	x12, x9
	b.hi	LBB78_19
	add	x0, x11, #24
	mov	x2, x3
	add	x3, x4, x10
	mov	x1, x8
	mov	x4, x5
	bl	_tlsf_heap.region.Region.read.5
	b	LBB78_24
LBB78_12:
	cbz	w11, LBB78_20
	ldr	x11, [x19, #24]
	mov	w12, #2792
	umaddl	x11, w9, w12, x11
	ldr	w9, [x11]
	cmp	w9, w1
	b.ne	LBB78_22
	ldr	w12, [x11, #32]
	mov	x9, x1
	cmp	w8, w12
	b.hs	LBB78_22
	ldr	x9, [x11, #48]
	lsr	x12, x1, #35
	and	x12, x12, #0x1ffffff8
	ldr	x9, [x9, x12]
	lsr	x12, x9, x8
	mov	x9, x1
	tbz	w12, #0, LBB78_22
	ldur	x9, [x11, #24]
	add	x12, x9, x8, lsl #3
	ldr	x13, [x12]
	mov	x9, x1
	tbnz	w13, #0, LBB78_22
	ldr	x13, [x12, #8]
	mov	x9, x1
	cmp	x13, x2
	b.ne	LBB78_22
	ldr	w9, [x12, #16]
	add	x12, x5, w3, uxtw
	cmp	x12, x9
	b.ls	LBB78_23
LBB78_19:
	mov	w8, #1
	strb	w8, [x19, #1]
	mov	w0, #7
	b	LBB78_25
LBB78_20:
	mov	w8, #1
	strb	w8, [x19, #1]
	mov	w0, #3
	b	LBB78_25
LBB78_21:
	mov	w0, #0
	.cfi_def_cfa wsp, 32
	b	LBB78_27
LBB78_22:
	.cfi_restore_state
	.cfi_remember_state
	mov	x0, x1
	mov	x1, x9
	bl	_tlsf_heap.refusal.Refusal.of_name
	and	w8, w0, #0xff
	mov	w9, #1
	strb	w9, [x19, #1]
	cmp	w8, #3
	mov	w8, #3
	cinc	w0, w8, eq
	b	LBB78_25
LBB78_23:
	add	x0, x11, #24
	mov	x2, x3
	add	x3, x4, x10
	mov	x1, x8
	mov	x4, x5
	bl	_tlsf_heap.region.Region.read.4
LBB78_24:
	mov	w0, #0
	mov	w8, #1
	strb	w8, [x19, #1]
LBB78_25:
	.cfi_def_cfa wsp, 32
	ldp	x29, x30, [sp, #16]
	ldp	x20, x19, [sp], #32
	.cfi_def_cfa_offset 0
	.cfi_restore w30
	.cfi_restore w29
	.cfi_restore w19
	.cfi_restore w20
	ret
LBB78_26:
	.cfi_restore_state
	mov	w0, #2
	.cfi_def_cfa wsp, 32
LBB78_27:
	ldp	x29, x30, [sp, #16]
	ldp	x20, x19, [sp], #32
	.cfi_def_cfa_offset 0
	.cfi_restore w30
	.cfi_restore w29
	.cfi_restore w19
	.cfi_restore w20
	b	_tlsf_c.call_fault.CallFault.refusal
	.cfi_endproc
	.globl	_tlsf_pools_release
	.p2align	2
_tlsf_pools_release:
	.cfi_startproc
	stp	x22, x21, [sp, #-48]!
	.cfi_def_cfa_offset 48
	stp	x20, x19, [sp, #16]
	stp	x29, x30, [sp, #32]
	add	x29, sp, #32
	.cfi_def_cfa w29, 16
	.cfi_offset w30, -8
	.cfi_offset w29, -16
	.cfi_offset w19, -24
	.cfi_offset w20, -32
	.cfi_offset w21, -40
	.cfi_offset w22, -48
	.cfi_remember_state
	ldrb	w8, [x0, #8]
	cbz	w8, LBB79_24
	ldr	x19, [x0]
	ldrb	w8, [x19, #1]
	tbz	w8, #0, LBB79_24
	ldrb	w8, [x19]
	cmp	w8, #1
	b.ne	LBB79_31
	lsr	x4, x1, #32
	strb	wzr, [x19, #1]
	ldrb	w10, [x19, #8]
	ldr	x9, [x19, #32]
	ldr	w11, [x19, #16]
	subs	w8, w1, w11
	csel	w8, wzr, w8, lo
	cmp	w11, w1
	ccmp	x9, x8, #0, ls
	cset	w9, hi
	cbz	w10, LBB79_13
	cbz	w9, LBB79_22
	ldr	x9, [x19, #24]
	mov	w10, #2792
	umaddl	x20, w8, w10, x9
	ldr	w8, [x20]
	cmp	w8, w1
	b.ne	LBB79_25
	ldr	w9, [x20, #32]
	mov	x8, x1
	cmp	w4, w9
	b.hs	LBB79_25
	ldr	x8, [x20, #48]
	lsr	x9, x1, #35
	and	x9, x9, #0x1ffffff8
	ldr	x8, [x8, x9]
	lsr	x9, x8, x4
	mov	x8, x1
	tbz	w9, #0, LBB79_25
	ldur	x11, [x20, #24]
	lsl	x9, x4, #3
	add	x10, x11, x9
	ldr	x5, [x10]
	mov	x8, x1
	tbnz	w5, #0, LBB79_25
	ldr	x12, [x10, #8]
	mov	x8, x1
	cmp	x12, x2
	b.ne	LBB79_25
	ldr	x3, [x20, #8]
	cmn	x3, #1
	b.eq	LBB79_23
	ldr	w21, [x10, #16]
	lsr	w8, w5, #2
	ldr	w12, [x20, #16]
	sub	w12, w12, w8
	str	w12, [x20, #16]
	tbnz	w5, #1, LBB79_26
	add	w12, w8, w4
	ldr	x1, [x11, w12, uxtw #3]
	cbnz	x4, LBB79_27
	b	LBB79_28
LBB79_13:
	cbz	w9, LBB79_22
	ldr	x9, [x19, #24]
	mov	w10, #2792
	umaddl	x20, w8, w10, x9
	ldr	w8, [x20]
	cmp	w8, w1
	b.ne	LBB79_25
	ldr	w9, [x20, #32]
	mov	x8, x1
	cmp	w4, w9
	b.hs	LBB79_25
	ldr	x8, [x20, #48]
	lsr	x9, x1, #35
	and	x9, x9, #0x1ffffff8
	ldr	x8, [x8, x9]
	lsr	x9, x8, x4
	mov	x8, x1
	tbz	w9, #0, LBB79_25
	ldur	x11, [x20, #24]
	lsl	x9, x4, #3
	add	x10, x11, x9
	ldr	x5, [x10]
	mov	x8, x1
	tbnz	w5, #0, LBB79_25
	ldr	x12, [x10, #8]
	mov	x8, x1
	cmp	x12, x2
	b.ne	LBB79_25
	ldr	x3, [x20, #8]
	cmn	x3, #1
	b.eq	LBB79_23
	ldr	w21, [x10, #16]
	lsr	w8, w5, #2
	ldr	w12, [x20, #16]
	sub	w12, w12, w8
	str	w12, [x20, #16]
	tbnz	w5, #1, LBB79_35
	add	w12, w8, w4
	ldr	x1, [x11, w12, uxtw #3]
	cbnz	x4, LBB79_36
	b	LBB79_37
LBB79_22:
	mov	w8, #1
	strb	w8, [x19, #1]
	mov	w0, #3
	b	LBB79_53
LBB79_23:
	mov	w8, #1
	strb	w8, [x19, #1]
	mov	w0, #2
	b	LBB79_53
LBB79_24:
	mov	w0, #0
	.cfi_def_cfa wsp, 48
	b	LBB79_32
LBB79_25:
	.cfi_restore_state
	.cfi_remember_state
	mov	x0, x1
	mov	x1, x8
	bl	_tlsf_heap.refusal.Refusal.of_name
	and	w8, w0, #0xff
	mov	w9, #1
	strb	w9, [x19, #1]
	cmp	w8, #3
	mov	w8, #3
	cinc	w0, w8, eq
	b	LBB79_53
LBB79_26:
	mov	x1, #0
	cbz	x4, LBB79_28
LBB79_27:
	lsr	x12, x5, #29
	and	x12, x12, #0x7fffffff8
	ldr	x2, [x11, x12]
	tbnz	w2, #0, LBB79_34
LBB79_28:
	tbnz	w1, #0, LBB79_33
	orr	x11, x5, #0x1
	stp	x11, x3, [x10]
	ldr	x10, [x20, #8]
	add	x10, x10, #1
	str	x10, [x20, #8]
	orr	w10, w8, #0x20
	clz	w10, w10
	mov	w11, #26
	sub	w10, w11, w10
	lsr	w8, w8, w10
	add	w10, w8, w10, lsl #5
	add	x12, x20, w10, uxtw #2
	ldr	w11, [x12, #168]
	str	w4, [x12, #168]
	ldr	x12, [x20, #24]
	tbnz	w11, #31, LBB79_42
	orr	x8, x11, #0xffffffff00000000
	add	x9, x12, x9
	str	x8, [x9, #16]
	add	x8, x12, x11, lsl #3
	str	w4, [x8, #20]
	ldr	x10, [x20, #2744]
	cbnz	x10, LBB79_43
	b	LBB79_52
LBB79_31:
	mov	w0, #2
	.cfi_def_cfa wsp, 48
LBB79_32:
	ldp	x29, x30, [sp, #32]
	ldp	x20, x19, [sp, #16]
	ldp	x22, x21, [sp], #48
	.cfi_def_cfa_offset 0
	.cfi_restore w30
	.cfi_restore w29
	.cfi_restore w19
	.cfi_restore w20
	.cfi_restore w21
	.cfi_restore w22
	b	_tlsf_c.call_fault.CallFault.refusal
LBB79_33:
	.cfi_restore_state
	add	x8, x3, #1
	str	x8, [x20, #8]
	add	x0, x20, #24
	mov	x2, x5
	bl	_tlsf_heap.fitting.merge_next.5
	ldr	x10, [x20, #2744]
	cbnz	x10, LBB79_43
	b	LBB79_52
LBB79_34:
	add	x8, x3, #1
	str	x8, [x20, #8]
	add	x0, x20, #24
	bl	_tlsf_heap.fitting.merge_before.5
	ldr	x10, [x20, #2744]
	cbnz	x10, LBB79_43
	b	LBB79_52
LBB79_35:
	mov	x1, #0
	cbz	x4, LBB79_37
LBB79_36:
	lsr	x12, x5, #29
	and	x12, x12, #0x7fffffff8
	ldr	x2, [x11, x12]
	tbnz	w2, #0, LBB79_41
LBB79_37:
	tbnz	w1, #0, LBB79_40
	orr	x11, x5, #0x1
	stp	x11, x3, [x10]
	ldr	x10, [x20, #8]
	add	x10, x10, #1
	str	x10, [x20, #8]
	orr	w10, w8, #0x10
	clz	w10, w10
	mov	w11, #27
	sub	w10, w11, w10
	lsr	w8, w8, w10
	add	w10, w8, w10, lsl #4
	add	x12, x20, w10, uxtw #2
	ldr	w11, [x12, #168]
	str	w4, [x12, #168]
	ldr	x12, [x20, #24]
	tbnz	w11, #31, LBB79_46
	orr	x8, x11, #0xffffffff00000000
	add	x9, x12, x9
	str	x8, [x9, #16]
	add	x8, x12, x11, lsl #3
	str	w4, [x8, #20]
	b	LBB79_47
LBB79_40:
	add	x8, x3, #1
	str	x8, [x20, #8]
	add	x0, x20, #24
	mov	x2, x5
	bl	_tlsf_heap.fitting.merge_next.4
	b	LBB79_47
LBB79_41:
	add	x8, x3, #1
	str	x8, [x20, #8]
	add	x0, x20, #24
	bl	_tlsf_heap.fitting.merge_before.4
	b	LBB79_47
LBB79_42:
	add	x9, x12, x9
	mov	x11, #-1
	str	x11, [x9, #16]
	lsr	x9, x10, #5
	ldr	w10, [x20, #80]
	add	x11, x20, x9, lsl #2
	ldr	w12, [x11, #84]
	mov	w13, #1
	lsl	w9, w13, w9
	orr	w9, w10, w9
	str	w9, [x20, #80]
	lsl	w8, w13, w8
	orr	w8, w12, w8
	str	w8, [x11, #84]
	ldr	x10, [x20, #2744]
	cbz	x10, LBB79_52
LBB79_43:
	mov	x8, #0
	ldr	x9, [x20, #2768]
	ldr	x11, [x20, #2736]
	add	x11, x11, #4
LBB79_44:
	ldr	w12, [x11], #8
	cmp	w12, w21
	b.hs	LBB79_51
	add	x8, x8, #1
	cmp	x10, x8
	b.ne	LBB79_44
	b	LBB79_52
LBB79_46:
	add	x9, x12, x9
	mov	x11, #-1
	str	x11, [x9, #16]
	lsr	x9, x10, #4
	ldr	w10, [x20, #80]
	add	x11, x20, x9, lsl #2
	ldr	w12, [x11, #84]
	mov	w13, #1
	lsl	w9, w13, w9
	orr	w9, w10, w9
	str	w9, [x20, #80]
	and	w8, w8, #0xf
	lsl	w8, w13, w8
	orr	w8, w12, w8
	str	w8, [x11, #84]
LBB79_47:
	ldr	x10, [x20, #2744]
	cbz	x10, LBB79_52
	mov	x8, #0
	ldr	x9, [x20, #2768]
	ldr	x11, [x20, #2736]
	add	x11, x11, #4
LBB79_49:
	ldr	w12, [x11], #8
	cmp	w12, w21
	b.hs	LBB79_51
	add	x8, x8, #1
	cmp	x10, x8
	b.ne	LBB79_49
	b	LBB79_52
LBB79_51:
	ldr	w10, [x9, x8, lsl #2]
	sub	w10, w10, #1
	str	w10, [x9, x8, lsl #2]
LBB79_52:
	mov	w0, #0
	mov	w8, #1
	strb	w8, [x19, #1]
LBB79_53:
	.cfi_def_cfa wsp, 48
	ldp	x29, x30, [sp, #32]
	ldp	x20, x19, [sp, #16]
	ldp	x22, x21, [sp], #48
	.cfi_def_cfa_offset 0
	.cfi_restore w30
	.cfi_restore w29
	.cfi_restore w19
	.cfi_restore w20
	.cfi_restore w21
	.cfi_restore w22
	ret
	.cfi_endproc
	.globl	_tlsf_pools_report
	.p2align	2
_tlsf_pools_report:
	.cfi_startproc
	ldrb	w8, [x0, #8]
	cbz	w8, LBB80_24
	ldr	x8, [x0]
	ldrb	w9, [x8, #1]
	tbz	w9, #0, LBB80_24
	ldrb	w9, [x8]
	cmp	w9, #1
	b.ne	LBB80_28
	strb	wzr, [x8, #1]
	mov	w9, w1
	ldrb	w11, [x8, #8]
	ldr	x10, [x8, #32]
	cmp	x10, x9
	cbz	w11, LBB80_12
	b.ls	LBB80_22
	ldr	x10, [x8, #24]
	mov	w11, #2792
	umaddl	x17, w9, w11, x10
	ldr	x15, [x17, #8]
	ldr	w16, [x17, #32]
	cbz	w16, LBB80_23
	mov	w0, #0
	mov	w9, #0
	mov	w14, #0
	mov	w10, #0
	mov	w11, #0
	mov	w12, #0
	mov	w13, #0
	ldr	x1, [x17, #24]
	mov	x17, x15
	b	LBB80_8
LBB80_7:
	ldr	w4, [x4, #16]
	add	w13, w13, #1
	add	w12, w3, w12
	add	w11, w11, w4
	add	w0, w3, w0
	cmp	w0, w16
	b.hs	LBB80_10
LBB80_8:
	add	x4, x1, w0, uxtw #3
	ldr	x5, [x4]
	lsr	w3, w5, #2
	tbz	w5, #0, LBB80_7
	add	w10, w10, #1
	add	w14, w3, w14
	ldr	x4, [x4, #8]
	cmp	w3, w9
	csel	w9, w3, w9, hi
	cmp	x4, x17
	csel	x17, x4, x17, lo
	add	w0, w3, w0
	cmp	w0, w16
	b.lo	LBB80_8
LBB80_10:
	cbz	w9, LBB80_25
	orr	w16, w9, #0x20
	clz	w16, w16
	mov	w0, #26
	sub	w16, w0, w16
	lsr	w0, w9, w16
	add	w16, w0, w16, lsl #5
	lsr	w1, w16, #5
	mov	w3, #16
	lsl	w3, w3, w1
	and	w0, w0, #0x1f
	b	LBB80_20
LBB80_12:
	b.ls	LBB80_22
	ldr	x10, [x8, #24]
	mov	w11, #2792
	umaddl	x17, w9, w11, x10
	ldr	x15, [x17, #8]
	ldr	w16, [x17, #32]
	cbz	w16, LBB80_23
	mov	w0, #0
	mov	w9, #0
	mov	w14, #0
	mov	w10, #0
	mov	w11, #0
	mov	w12, #0
	mov	w13, #0
	ldr	x1, [x17, #24]
	mov	x17, x15
	b	LBB80_16
LBB80_15:
	ldr	w4, [x4, #16]
	add	w13, w13, #1
	add	w12, w3, w12
	add	w11, w11, w4
	add	w0, w3, w0
	cmp	w0, w16
	b.hs	LBB80_18
LBB80_16:
	add	x4, x1, w0, uxtw #3
	ldr	x5, [x4]
	lsr	w3, w5, #2
	tbz	w5, #0, LBB80_15
	add	w10, w10, #1
	add	w14, w3, w14
	ldr	x4, [x4, #8]
	cmp	w3, w9
	csel	w9, w3, w9, hi
	cmp	x4, x17
	csel	x17, x4, x17, lo
	add	w0, w3, w0
	cmp	w0, w16
	b.lo	LBB80_16
LBB80_18:
	cbz	w9, LBB80_25
	orr	w16, w9, #0x10
	clz	w16, w16
	mov	w0, #27
	sub	w16, w0, w16
	lsr	w0, w9, w16
	add	w16, w0, w16, lsl #4
	lsr	w1, w16, #4
	mov	w3, #8
	lsl	w3, w3, w1
	and	w0, w0, #0xf
LBB80_20:
	sub	w4, w1, #1
	lsl	w0, w0, w4
	add	w0, w0, w3
	cmp	w1, #0
	csel	w16, w16, w0, eq
	lsl	w16, w16, #3
	sub	w16, w16, #24
	cbz	w14, LBB80_26
LBB80_21:
	mov	w0, w14
	mov	w1, #1000
	umull	x3, w9, w1
	udiv	x0, x3, x0
	sub	w1, w1, w0
	b	LBB80_27
LBB80_22:
	mov	w9, #1
	strb	w9, [x8, #1]
	mov	w0, #4
	ret
LBB80_23:
	mov	w13, #0
	mov	w12, #0
	mov	w11, #0
	mov	w10, #0
	mov	w14, #0
	mov	w9, #0
	mov	w1, #0
	mov	x17, x15
	b	LBB80_27
LBB80_24:
	mov	w0, #0
	b	_tlsf_c.call_fault.CallFault.refusal
LBB80_25:
	mov	w16, #0
	cbnz	w14, LBB80_21
LBB80_26:
	mov	w1, #0
LBB80_27:
	lsl	w0, w12, #3
	sub	w3, w0, w11
	sub	x15, x15, x17
	mov	w0, #0
	mov	w17, #1
	strb	w17, [x8, #1]
	stp	w13, w12, [x2]
	stp	w11, w10, [x2, #8]
	stp	w14, w9, [x2, #16]
	stp	w16, w1, [x2, #24]
	stp	w3, wzr, [x2, #32]
	str	x15, [x2, #40]
	ret
LBB80_28:
	mov	w0, #2
	b	_tlsf_c.call_fault.CallFault.refusal
	.cfi_endproc
	.globl	_tlsf_pools_row
	.p2align	2
_tlsf_pools_row:
	.cfi_startproc
	ldrb	w8, [x0, #8]
	cbz	w8, LBB81_26
	ldr	x8, [x0]
	ldrb	w9, [x8, #1]
	tbz	w9, #0, LBB81_26
	ldrb	w9, [x8]
	cmp	w9, #1
	b.ne	LBB81_27
	strb	wzr, [x8, #1]
	mov	w9, #-1
	cmp	x1, x9
	csel	x9, x1, x9, lo
	ldrb	w10, [x8, #8]
	ldp	x11, x12, [x8, #24]
	cbz	w10, LBB81_11
	cbz	x12, LBB81_24
	mov	x14, #0
	mov	w15, #2792
	b	LBB81_7
LBB81_6:
	add	x14, x14, #1
	cmp	x14, x12
	b.eq	LBB81_24
LBB81_7:
	madd	x10, x14, x15, x11
	ldr	x13, [x10, #2744]
	cbz	x13, LBB81_6
	ldr	x10, [x10, #2736]
	mov	w16, #4
	mov	x17, x13
LBB81_9:
	ldr	w0, [x10, x16]
	cmp	w0, w9
	b.hs	LBB81_18
	add	x16, x16, #8
	subs	x17, x17, #1
	b.ne	LBB81_9
	b	LBB81_6
LBB81_11:
	cbz	x12, LBB81_24
	mov	x14, #0
	mov	w15, #2792
	b	LBB81_14
LBB81_13:
	add	x14, x14, #1
	cmp	x14, x12
	b.eq	LBB81_24
LBB81_14:
	madd	x10, x14, x15, x11
	ldr	x13, [x10, #2744]
	cbz	x13, LBB81_13
	ldr	x10, [x10, #2736]
	mov	w16, #4
	mov	x17, x13
LBB81_16:
	ldr	w0, [x10, x16]
	cmp	w0, w9
	b.hs	LBB81_21
	add	x16, x16, #8
	subs	x17, x17, #1
	b.ne	LBB81_16
	b	LBB81_13
LBB81_18:
	mov	x11, #0
	mov	w12, #4
LBB81_19:
	ldr	w14, [x10, x12]
	cmp	w14, w9
	b.hs	LBB81_25
	add	x11, x11, #1
	add	x12, x12, #8
	cmp	x13, x11
	b.ne	LBB81_19
	b	LBB81_24
LBB81_21:
	mov	x11, #0
	mov	w12, #4
LBB81_22:
	ldr	w14, [x10, x12]
	cmp	w14, w9
	b.hs	LBB81_25
	add	x11, x11, #1
	add	x12, x12, #8
	cmp	x13, x11
	b.ne	LBB81_22
LBB81_24:
	mov	w9, #1
	strb	w9, [x8, #1]
	mov	w0, #5
	ret
LBB81_25:
	mov	w0, #0
	add	x9, x10, x11, lsl #3
	ldr	w9, [x9, #4]
	mov	w10, #1
	strb	w10, [x8, #1]
	str	w9, [x2]
	ret
LBB81_26:
	mov	w0, #0
	b	_tlsf_c.call_fault.CallFault.refusal
LBB81_27:
	mov	w0, #2
	b	_tlsf_c.call_fault.CallFault.refusal
	.cfi_endproc
	.globl	_tlsf_pools_words
	.p2align	2
_tlsf_pools_words:
	.cfi_startproc
	mov	w8, #4096
	cmp	x1, #0
	csel	x8, x8, xzr, eq
	sub	w9, w0, #6
	cmn	w9, #2
	b.hs	LBB82_2
	mov	w0, #34
	ret
LBB82_2:
	cmp	x2, #64
	b.ls	LBB82_4
	mov	w0, #5
	ret
LBB82_4:
	stp	x28, x27, [sp, #-48]!
	.cfi_def_cfa_offset 48
	stp	x20, x19, [sp, #16]
	stp	x29, x30, [sp, #32]
	add	x29, sp, #32
	.cfi_def_cfa w29, 16
	.cfi_offset w30, -8
	.cfi_offset w29, -16
	.cfi_offset w19, -24
	.cfi_offset w20, -32
	.cfi_offset w27, -40
	.cfi_offset w28, -48
	sub	sp, sp, #608
	str	xzr, [sp, #80]
	movi.2d	v0, #0000000000000000
	stp	q0, q0, [sp, #48]
	stp	q0, q0, [sp, #16]
	str	q0, [sp]
	stp	q0, q0, [sp, #96]
	stp	q0, q0, [sp, #128]
	stp	q0, q0, [sp, #160]
	stp	q0, q0, [sp, #192]
	stp	q0, q0, [sp, #224]
	stp	q0, q0, [sp, #256]
	stp	q0, q0, [sp, #288]
	stp	q0, q0, [sp, #320]
	stp	q0, q0, [sp, #352]
	stp	q0, q0, [sp, #384]
	stp	q0, q0, [sp, #416]
	stp	q0, q0, [sp, #448]
	stp	q0, q0, [sp, #480]
	stp	q0, q0, [sp, #512]
	stp	q0, q0, [sp, #544]
	stp	q0, q0, [sp, #576]
	cbz	x2, LBB82_11
	cmp	x2, #9
	b.hs	LBB82_7
	mov	x9, #0
	b	LBB82_9
LBB82_7:
	ands	x9, x2, #0x7
	mov	w10, #8
	csel	x9, x10, x9, eq
	sub	x9, x2, x9
	add	x10, x8, x1
	add	x10, x10, #72
	add	x11, sp, #96
	add	x11, x11, #32
	mov	x12, x9
LBB82_8:
	sub	x13, x10, #24
	sub	x14, x10, #56
	ldur	q0, [x10, #-72]
	ld1.s	{ v0 }[1], [x14]
	sub	x14, x10, #40
	ld1.s	{ v0 }[2], [x14]
	ld1.s	{ v0 }[3], [x13]
	ldp	q3, q2, [x10, #-64]
	sub	x13, x10, #16
	ldur	q4, [x10, #-32]
	ld1.d	{ v4 }[1], [x13]
	zip1.2d	v2, v3, v2
	uqxtn.2s	v1, v2
	uqxtn2.4s	v1, v4
	add	x13, x10, #40
	add	x14, x10, #24
	add	x15, x10, #8
	ldur	q2, [x10, #-8]
	ld1.s	{ v2 }[1], [x15]
	ld1.s	{ v2 }[2], [x14]
	ld1.s	{ v2 }[3], [x13]
	ldp	q5, q4, [x10]
	add	x13, x10, #48
	ldr	q6, [x10, #32]
	ld1.d	{ v6 }[1], [x13]
	zip1.2d	v4, v5, v4
	sub	x13, x11, #32
	st2.4s	{ v0, v1 }, [x13]
	uqxtn.2s	v3, v4
	uqxtn2.4s	v3, v6
	st2.4s	{ v2, v3 }, [x11]
	add	x10, x10, #128
	add	x11, x11, #64
	subs	x12, x12, #8
	b.ne	LBB82_8
LBB82_9:
	sub	x10, x2, x9
	add	x11, sp, #96
	add	x11, x11, x9, lsl #3
	orr	x11, x11, #0x4
	add	x8, x8, x9, lsl #4
	add	x8, x8, x1
	add	x8, x8, #8
	mov	w9, #-1
LBB82_10:
	ldur	w12, [x8, #-8]
	ldr	x13, [x8], #16
	cmp	x13, x9
	csel	x13, x13, x9, lo
	stp	w12, w13, [x11, #-4]
	add	x11, x11, #8
	subs	x10, x10, #1
	b.ne	LBB82_10
LBB82_11:
	mov	x19, x3
	mov	x20, x4
	cmp	w0, #4
	b.ne	LBB82_14
	mov	x0, sp
	add	x1, sp, #96
	bl	_tlsf_pool.sizes.split.rising_split.4
	ldrb	w8, [sp]
	cbz	w8, LBB82_15
LBB82_13:
	mov	w0, #0
	ldr	x8, [sp, #8]
	ldr	x9, [sp, #80]
	str	x9, [x19]
	str	w8, [x20]
	b	LBB82_16
LBB82_14:
	mov	x0, sp
	add	x1, sp, #96
	bl	_tlsf_pool.sizes.split.rising_split.5
	ldrb	w8, [sp]
	cbnz	w8, LBB82_13
LBB82_15:
	mov	w0, #5
LBB82_16:
	add	sp, sp, #608
	.cfi_def_cfa wsp, 48
	ldp	x29, x30, [sp, #32]
	ldp	x20, x19, [sp, #16]
	ldp	x28, x27, [sp], #48
	.cfi_def_cfa_offset 0
	.cfi_restore w30
	.cfi_restore w29
	.cfi_restore w19
	.cfi_restore w20
	.cfi_restore w27
	.cfi_restore w28
	ret
	.cfi_endproc
	.globl	_tlsf_post_close
	.p2align	2
_tlsf_post_close:
	.cfi_startproc
	ldrb	w8, [x0, #8]
	cbz	w8, LBB83_4
	ldr	x8, [x0]
	ldrb	w9, [x8, #1]
	cmp	w9, #1
	b.ne	LBB83_4
	ldrb	w9, [x8]
	cbz	w9, LBB83_5
	mov	w0, #40
	ret
LBB83_4:
	mov	w0, #32
	ret
LBB83_5:
	sub	sp, sp, #128
	.cfi_def_cfa_offset 128
	stp	x20, x19, [sp, #96]
	stp	x29, x30, [sp, #112]
	add	x29, sp, #112
	.cfi_def_cfa w29, 16
	.cfi_offset w30, -8
	.cfi_offset w29, -16
	.cfi_offset w19, -24
	.cfi_offset w20, -32
	strb	wzr, [x8, #1]
	ldr	x8, [x0]
	stp	xzr, xzr, [x0]
	ldrh	w19, [x8]
	ldur	q0, [x8, #8]
	stur	q0, [sp, #8]
	ldur	q0, [x8, #24]
	stur	q0, [sp, #24]
	ldr	x9, [x8, #40]
	stur	x9, [sp, #40]
	mov	x0, x8
	bl	_tlsf_memory_dealloc
	str	xzr, [sp, #48]
	strh	w19, [sp, #48]
	ldur	q0, [sp, #8]
	stur	q0, [sp, #56]
	ldur	q0, [sp, #24]
	stur	q0, [sp, #72]
	ldur	x8, [sp, #40]
	str	x8, [sp, #88]
	add	x0, sp, #48
	bl	_tlsf_c.tlsf_c.any_end.AnyEnd.Destruct.drop
	mov	w0, #0
	.cfi_def_cfa wsp, 128
	ldp	x29, x30, [sp, #112]
	ldp	x20, x19, [sp, #96]
	add	sp, sp, #128
	.cfi_def_cfa_offset 0
	.cfi_restore w30
	.cfi_restore w29
	.cfi_restore w19
	.cfi_restore w20
	ret
	.cfi_endproc
	.globl	_tlsf_poster_close
	.p2align	2
_tlsf_poster_close:
	.cfi_startproc
	ldrb	w8, [x0, #8]
	cbz	w8, LBB84_4
	ldr	x8, [x0]
	ldrb	w9, [x8, #1]
	cmp	w9, #1
	b.ne	LBB84_4
	ldrb	w9, [x8]
	cmp	w9, #3
	b.ne	LBB84_5
	sub	sp, sp, #128
	.cfi_def_cfa_offset 128
	stp	x20, x19, [sp, #96]
	stp	x29, x30, [sp, #112]
	add	x29, sp, #112
	.cfi_def_cfa w29, 16
	.cfi_offset w30, -8
	.cfi_offset w29, -16
	.cfi_offset w19, -24
	.cfi_offset w20, -32
	strb	wzr, [x8, #1]
	ldr	x8, [x0]
	stp	xzr, xzr, [x0]
	ldrh	w19, [x8]
	ldur	q0, [x8, #8]
	stur	q0, [sp, #8]
	ldur	q0, [x8, #24]
	stur	q0, [sp, #24]
	ldr	x9, [x8, #40]
	stur	x9, [sp, #40]
	mov	x0, x8
	bl	_tlsf_memory_dealloc
	str	xzr, [sp, #48]
	strh	w19, [sp, #48]
	ldur	q0, [sp, #8]
	stur	q0, [sp, #56]
	ldur	q0, [sp, #24]
	stur	q0, [sp, #72]
	ldur	x8, [sp, #40]
	str	x8, [sp, #88]
	add	x0, sp, #48
	bl	_tlsf_c.tlsf_c.any_end.AnyEnd.Destruct.drop
	mov	w0, #0
	.cfi_def_cfa wsp, 128
	ldp	x29, x30, [sp, #112]
	ldp	x20, x19, [sp, #96]
	add	sp, sp, #128
	.cfi_def_cfa_offset 0
	.cfi_restore w30
	.cfi_restore w29
	.cfi_restore w19
	.cfi_restore w20
	ret
LBB84_4:
	mov	w0, #32
	ret
LBB84_5:
	mov	w0, #40
	ret
	.cfi_endproc
	.globl	_tlsf_poster_open
	.p2align	2
_tlsf_poster_open:
	.cfi_startproc
	ldrb	w8, [x0, #8]
	cbz	w8, LBB85_8
	ldr	x8, [x0]
	ldrb	w9, [x8, #1]
	tbz	w9, #0, LBB85_8
	ldrb	w10, [x1, #8]
	ldrb	w9, [x8]
	cmp	w10, #1
	b.ne	LBB85_4
	mov	w8, #40
	mov	w10, #33
	cmp	w9, #2
	csel	w0, w10, w8, eq
	ret
LBB85_4:
	cmp	w9, #2
	b.ne	LBB85_9
	strb	wzr, [x8, #1]
	ldr	x9, [x8, #32]
	cbz	x9, LBB85_7
	mov	w0, #0
	sub	x9, x9, #1
	str	x9, [x8, #32]
	ldr	x10, [x8, #24]
	ldr	x9, [x10, x9, lsl #3]
	mov	w10, #1
	strb	w10, [x8, #1]
	str	x9, [x1]
	strb	w10, [x1, #8]
	stur	wzr, [x1, #9]
	str	wzr, [x1, #12]
	ret
LBB85_7:
	mov	w9, #1
	strb	w9, [x8, #1]
	mov	w0, #35
	ret
LBB85_8:
	mov	w0, #0
	b	_tlsf_c.call_fault.CallFault.refusal
LBB85_9:
	mov	w0, #2
	b	_tlsf_c.call_fault.CallFault.refusal
	.cfi_endproc
	.globl	_tlsf_put
	.p2align	2
_tlsf_put:
	.cfi_startproc
	ldrb	w8, [x0, #8]
	cbz	w8, LBB86_7
	ldr	x8, [x0]
	ldrb	w9, [x8, #1]
	tbz	w9, #0, LBB86_7
	ldrb	w9, [x8]
	cbnz	w9, LBB86_8
	strb	wzr, [x8, #1]
	ldp	x9, x12, [x8, #24]
	ldr	x10, [x8, #40]
	lsl	x11, x9, #1
	cmp	x12, x10
	csel	x13, x11, xzr, hi
	add	x12, x12, x9
	sub	x12, x12, x10
	cmp	x12, x13
	b.ne	LBB86_6
	ldr	x9, [x8, #8]
	; InlineAsm Start
	; InlineAsm End
	ldar	x12, [x9]
	; InlineAsm Start
	; InlineAsm End
	str	x12, [x8, #32]
	ldr	x9, [x8, #24]
	ldr	x10, [x8, #40]
	lsl	x11, x9, #1
	cmp	x12, x10
	csel	x13, x11, xzr, hi
	add	x12, x9, x12
	sub	x12, x12, x10
	cmp	x12, x13
	b.ne	LBB86_6
	mov	w9, #1
	strb	w9, [x8, #1]
	mov	w0, #8
	ret
LBB86_6:
	mov	w0, #0
	sub	x11, x11, #1
	cmp	x10, x11
	csinc	x11, xzr, x10, hs
	cmp	x10, x9
	csel	x9, xzr, x9, lo
	sub	x9, x10, x9
	ldr	x10, [x8, #16]
	mov	w12, #24
	madd	x9, x9, x12, x10
	stp	xzr, x1, [x9]
	str	x2, [x9, #16]
	ldr	x9, [x8, #8]
	; InlineAsm Start
	; InlineAsm End
	stlur	x11, [x9, #128]
	; InlineAsm Start
	; InlineAsm End
	str	x11, [x8, #40]
	mov	w9, #1
	strb	w9, [x8, #1]
	ret
LBB86_7:
	mov	w0, #0
	b	_tlsf_c.call_fault.CallFault.refusal
LBB86_8:
	mov	w0, #2
	b	_tlsf_c.call_fault.CallFault.refusal
	.cfi_endproc
	.globl	_tlsf_put_all
	.p2align	2
_tlsf_put_all:
	.cfi_startproc
	stp	x28, x27, [sp, #-96]!
	.cfi_def_cfa_offset 96
	stp	x26, x25, [sp, #16]
	stp	x24, x23, [sp, #32]
	stp	x22, x21, [sp, #48]
	stp	x20, x19, [sp, #64]
	stp	x29, x30, [sp, #80]
	add	x29, sp, #80
	.cfi_def_cfa w29, 16
	.cfi_offset w30, -8
	.cfi_offset w29, -16
	.cfi_offset w19, -24
	.cfi_offset w20, -32
	.cfi_offset w21, -40
	.cfi_offset w22, -48
	.cfi_offset w23, -56
	.cfi_offset w24, -64
	.cfi_offset w25, -72
	.cfi_offset w26, -80
	.cfi_offset w27, -88
	.cfi_offset w28, -96
	.cfi_remember_state
	sub	sp, sp, #832
	mov	w8, #4096
	cmp	x1, #0
	csel	x8, x8, xzr, eq
	ldrb	w9, [x0, #8]
	cbz	w9, LBB87_23
	ldr	x23, [x0]
	ldrb	w9, [x23, #1]
	tbz	w9, #0, LBB87_23
	ldrb	w9, [x23]
	cbnz	w9, LBB87_24
	mov	x20, x2
	str	x3, [sp, #8]
	strb	wzr, [x23, #1]
	mov	x24, #0
	cbz	x2, LBB87_22
	add	x9, sp, #56
	add	x8, x8, x1
	add	x10, x8, #24
	add	x9, x9, #16
	stp	x9, x20, [sp, #32]
	add	x8, x8, #8
	stp	x10, x8, [sp, #16]
LBB87_5:
	lsl	x19, x24, #4
	sub	x8, x20, x24
	cmp	x8, #32
	mov	w9, #32
	csel	x21, x8, x9, lo
	add	x0, sp, #56
	mov	w1, #768
	bl	_bzero
	movi.2d	v1, #0000000000000000
	mov	x9, #0
	sub	x11, x21, #1
	mov	x8, #-6148914691236517206
	movk	x8, #43691
	umulh	x8, x11, x8
	lsr	x8, x8, #1
	add	x8, x8, x8, lsl #1
	sub	x8, x11, x8
	add	x10, x8, #1
	cmp	x10, #3
	csinc	x8, xzr, x8, eq
	cmp	x11, #2
	b.lo	LBB87_9
	mov	x9, #0
	sub	x11, x21, x8
	ldr	x12, [sp, #16]
	add	x12, x12, x19
	add	x13, sp, #56
	add	x13, x13, #32
LBB87_7:
	ldur	x14, [x12, #-16]
	ldur	d0, [x12, #-24]
	stp	d1, d0, [x13, #-32]
	stur	x14, [x13, #-16]
	ldr	x14, [x12]
	ldur	d0, [x12, #-8]
	stp	d1, d0, [x13, #-8]
	str	x14, [x13, #8]
	ldr	x14, [x12, #16]
	ldr	d0, [x12, #8]
	add	x9, x9, #3
	stp	d1, d0, [x13, #16]
	str	x14, [x13, #32]
	add	x13, x13, #72
	add	x12, x12, #48
	cmp	x11, x9
	b.ne	LBB87_7
	cmp	x10, #3
	b.eq	LBB87_11
LBB87_9:
	ldr	x10, [sp, #32]
	mov	w11, #24
	madd	x10, x9, x11, x10
	add	x9, x19, x9, lsl #4
	ldr	x11, [sp, #24]
	add	x9, x11, x9
LBB87_10:
	ldr	x11, [x9]
	stur	xzr, [x10, #-16]
	ldur	d0, [x9, #-8]
	stur	d0, [x10, #-8]
	str	x11, [x10], #24
	add	x9, x9, #16
	subs	x8, x8, #1
	b.ne	LBB87_10
LBB87_11:
	ldp	x27, x8, [x23, #24]
	ldr	x26, [x23, #40]
	lsl	x9, x27, #1
	cmp	x8, x26
	csneg	x9, xzr, x9, ls
	add	x8, x8, x27
	sub	x8, x8, x26
	add	x8, x8, x9
	cmp	x8, x21
	b.hs	LBB87_14
	ldr	x8, [x23, #8]
	; InlineAsm Start
	; InlineAsm End
	ldar	x8, [x8]
	; InlineAsm Start
	; InlineAsm End
	str	x8, [x23, #32]
	ldr	x27, [x23, #24]
	ldr	x26, [x23, #40]
	lsl	x9, x27, #1
	cmp	x8, x26
	csneg	x9, xzr, x9, ls
	add	x8, x27, x8
	sub	x8, x8, x26
	add	x8, x8, x9
	cmp	x8, x21
	csel	x19, x8, x21, lo
	cbz	x8, LBB87_21
	str	x21, [sp, #48]
	b	LBB87_15
LBB87_14:
	str	x21, [sp, #48]
	mov	x19, x21
LBB87_15:
	cmp	x26, x27
	csel	x8, xzr, x27, lo
	sub	x9, x26, x8
	subs	x10, x27, x9
	cmp	x10, x19
	csel	x20, x10, x19, lo
	add	x10, x20, x20, lsl #1
	lsl	x22, x10, #3
	ldp	x28, x21, [x23, #8]
	subs	x25, x27, x9
	b.eq	LBB87_17
	mov	x9, #-24
	madd	x8, x8, x9, x21
	mov	w9, #24
	madd	x0, x26, x9, x8
	add	x1, sp, #56
	mov	x2, x22
	bl	_tlsf_memory_cpy
LBB87_17:
	cmp	x19, x25
	b.ls	LBB87_19
	sub	x8, x19, x20
	add	x8, x8, x8, lsl #1
	lsl	x2, x8, #3
	add	x8, sp, #56
	add	x1, x8, x22
	mov	x0, x21
	bl	_tlsf_memory_cpy
LBB87_19:
	stp	x28, x21, [x23, #8]
	lsl	x8, x27, #1
	sub	x8, x8, x26
	cmp	x19, x8
	csneg	x8, x26, x8, lo
	add	x26, x8, x19
	; InlineAsm Start
	; InlineAsm End
	stlur	x26, [x28, #128]
	; InlineAsm Start
	; InlineAsm End
	ldp	x20, x21, [sp, #40]
	str	x26, [x23, #40]
	add	x24, x19, x24
	cmp	x19, x21
	b.lo	LBB87_22
LBB87_20:
	cmp	x24, x20
	b.lo	LBB87_5
	b	LBB87_22
LBB87_21:
	mov	x19, #0
	str	x26, [x23, #40]
	add	x24, x19, x24
	cmp	x19, x21
	b.hs	LBB87_20
LBB87_22:
	ldr	x8, [sp, #8]
	str	x24, [x8]
	mov	w8, #1
	strb	w8, [x23, #1]
	mov	w0, #0
	add	sp, sp, #832
	.cfi_def_cfa wsp, 96
	ldp	x29, x30, [sp, #80]
	ldp	x20, x19, [sp, #64]
	ldp	x22, x21, [sp, #48]
	ldp	x24, x23, [sp, #32]
	ldp	x26, x25, [sp, #16]
	ldp	x28, x27, [sp], #96
	.cfi_def_cfa_offset 0
	.cfi_restore w30
	.cfi_restore w29
	.cfi_restore w19
	.cfi_restore w20
	.cfi_restore w21
	.cfi_restore w22
	.cfi_restore w23
	.cfi_restore w24
	.cfi_restore w25
	.cfi_restore w26
	.cfi_restore w27
	.cfi_restore w28
	ret
LBB87_23:
	.cfi_restore_state
	mov	w0, #0
	b	LBB87_25
LBB87_24:
	mov	w0, #2
LBB87_25:
	add	sp, sp, #832
	.cfi_def_cfa wsp, 96
	ldp	x29, x30, [sp, #80]
	ldp	x20, x19, [sp, #64]
	ldp	x22, x21, [sp, #48]
	ldp	x24, x23, [sp, #32]
	ldp	x26, x25, [sp, #16]
	ldp	x28, x27, [sp], #96
	.cfi_def_cfa_offset 0
	.cfi_restore w30
	.cfi_restore w29
	.cfi_restore w19
	.cfi_restore w20
	.cfi_restore w21
	.cfi_restore w22
	.cfi_restore w23
	.cfi_restore w24
	.cfi_restore w25
	.cfi_restore w26
	.cfi_restore w27
	.cfi_restore w28
	b	_tlsf_c.call_fault.CallFault.refusal
	.cfi_endproc
	.globl	_tlsf_queue_close
	.p2align	2
_tlsf_queue_close:
	.cfi_startproc
	ldrb	w8, [x0, #8]
	cbz	w8, LBB88_4
	ldr	x8, [x0]
	ldrb	w9, [x8, #1]
	cmp	w9, #1
	b.ne	LBB88_4
	ldrb	w9, [x8]
	cmp	w9, #2
	b.ne	LBB88_5
	sub	sp, sp, #128
	.cfi_def_cfa_offset 128
	stp	x20, x19, [sp, #96]
	stp	x29, x30, [sp, #112]
	add	x29, sp, #112
	.cfi_def_cfa w29, 16
	.cfi_offset w30, -8
	.cfi_offset w29, -16
	.cfi_offset w19, -24
	.cfi_offset w20, -32
	strb	wzr, [x8, #1]
	ldr	x8, [x0]
	stp	xzr, xzr, [x0]
	ldrh	w19, [x8]
	ldur	q0, [x8, #8]
	stur	q0, [sp, #8]
	ldur	q0, [x8, #24]
	stur	q0, [sp, #24]
	ldr	x9, [x8, #40]
	stur	x9, [sp, #40]
	mov	x0, x8
	bl	_tlsf_memory_dealloc
	str	xzr, [sp, #48]
	strh	w19, [sp, #48]
	ldur	q0, [sp, #8]
	stur	q0, [sp, #56]
	ldur	q0, [sp, #24]
	stur	q0, [sp, #72]
	ldur	x8, [sp, #40]
	str	x8, [sp, #88]
	add	x0, sp, #48
	bl	_tlsf_c.tlsf_c.any_end.AnyEnd.Destruct.drop
	mov	w0, #0
	.cfi_def_cfa wsp, 128
	ldp	x29, x30, [sp, #112]
	ldp	x20, x19, [sp, #96]
	add	sp, sp, #128
	.cfi_def_cfa_offset 0
	.cfi_restore w30
	.cfi_restore w29
	.cfi_restore w19
	.cfi_restore w20
	ret
LBB88_4:
	mov	w0, #32
	ret
LBB88_5:
	mov	w0, #40
	ret
	.cfi_endproc
	.globl	_tlsf_queue_drain
	.p2align	2
_tlsf_queue_drain:
	.cfi_startproc
	sub	sp, sp, #96
	.cfi_def_cfa_offset 96
	stp	x24, x23, [sp, #32]
	stp	x22, x21, [sp, #48]
	stp	x20, x19, [sp, #64]
	stp	x29, x30, [sp, #80]
	add	x29, sp, #80
	.cfi_def_cfa w29, 16
	.cfi_offset w30, -8
	.cfi_offset w29, -16
	.cfi_offset w19, -24
	.cfi_offset w20, -32
	.cfi_offset w21, -40
	.cfi_offset w22, -48
	.cfi_offset w23, -56
	.cfi_offset w24, -64
	.cfi_remember_state
	ldrb	w8, [x0, #8]
	cbz	w8, LBB89_10
	mov	x21, x0
	ldr	x8, [x0]
	ldrb	w8, [x8]
	cmp	w8, #1
	b.ne	LBB89_10
	ldrb	w8, [x1, #8]
	cbz	w8, LBB89_10
	ldr	x22, [x1]
	ldrb	w8, [x22, #1]
	tbz	w8, #0, LBB89_10
	ldrb	w8, [x22]
	cmp	w8, #2
	b.ne	LBB89_12
	mov	x19, x3
	mov	x20, x2
	strb	wzr, [x22, #1]
	mov	w23, #0
	cbz	w2, LBB89_9
LBB89_6:
	movi.2d	v0, #0000000000000000
	stp	q0, q0, [sp]
	mov	x0, sp
	add	x1, x22, #8
	bl	_tlsf_c.queue_end.take_once
	ldrb	w8, [sp]
	cbnz	w8, LBB89_9
	ldp	w1, w3, [sp, #16]
	ldr	x2, [sp, #24]
	mov	x0, x21
	bl	_tlsf_c.heap_calls.release_named
	add	w23, w23, #1
	cmp	w20, w23
	b.ne	LBB89_6
	mov	x23, x20
LBB89_9:
	str	w23, [x19]
	mov	w8, #1
	strb	w8, [x22, #1]
	mov	w0, #0
	.cfi_def_cfa wsp, 96
	ldp	x29, x30, [sp, #80]
	ldp	x20, x19, [sp, #64]
	ldp	x22, x21, [sp, #48]
	ldp	x24, x23, [sp, #32]
	add	sp, sp, #96
	.cfi_def_cfa_offset 0
	.cfi_restore w30
	.cfi_restore w29
	.cfi_restore w19
	.cfi_restore w20
	.cfi_restore w21
	.cfi_restore w22
	.cfi_restore w23
	.cfi_restore w24
	ret
LBB89_10:
	.cfi_restore_state
	.cfi_remember_state
	mov	w0, #0
	.cfi_def_cfa wsp, 96
LBB89_11:
	ldp	x29, x30, [sp, #80]
	ldp	x20, x19, [sp, #64]
	ldp	x22, x21, [sp, #48]
	ldp	x24, x23, [sp, #32]
	add	sp, sp, #96
	.cfi_def_cfa_offset 0
	.cfi_restore w30
	.cfi_restore w29
	.cfi_restore w19
	.cfi_restore w20
	.cfi_restore w21
	.cfi_restore w22
	.cfi_restore w23
	.cfi_restore w24
	b	_tlsf_c.call_fault.CallFault.refusal
LBB89_12:
	.cfi_restore_state
	mov	w0, #2
	.cfi_def_cfa wsp, 96
	b	LBB89_11
	.cfi_endproc
	.section	__TEXT,__literal16,16byte_literals
	.p2align	4, 0x0
lCPI90_0:
	.quad	0
	.quad	1
	.section	__TEXT,__text,regular,pure_instructions
	.globl	_tlsf_queue_open
	.p2align	2
_tlsf_queue_open:
	.cfi_startproc
	sub	sp, sp, #400
	.cfi_def_cfa_offset 400
	stp	x28, x27, [sp, #304]
	stp	x26, x25, [sp, #320]
	stp	x24, x23, [sp, #336]
	stp	x22, x21, [sp, #352]
	stp	x20, x19, [sp, #368]
	stp	x29, x30, [sp, #384]
	add	x29, sp, #384
	.cfi_def_cfa w29, 16
	.cfi_offset w30, -8
	.cfi_offset w29, -16
	.cfi_offset w19, -24
	.cfi_offset w20, -32
	.cfi_offset w21, -40
	.cfi_offset w22, -48
	.cfi_offset w23, -56
	.cfi_offset w24, -64
	.cfi_offset w25, -72
	.cfi_offset w26, -80
	.cfi_offset w27, -88
	.cfi_offset w28, -96
	.cfi_remember_state
	stp	xzr, xzr, [sp, #24]
	str	xzr, [sp, #40]
	ldrb	w8, [x0, #8]
	tbz	w8, #0, LBB90_2
	mov	w0, #33
	b	LBB90_43
LBB90_2:
	mov	w8, #1024
	sub	w9, w8, w1
	sub	w8, w8, w2
	orr	w8, w8, w9
	cmp	w8, #1023
	b.hi	LBB90_13
	mov	x27, x2
	mov	x23, x0
	mov	x24, x1
	ubfiz	x0, x1, #4, #32
	mov	w1, #8
	bl	_tlsf_memory_alloc
	tbz	w0, #0, LBB90_42
	mov	x21, x1
	mov	w8, w24
	stp	x1, xzr, [sp, #80]
	str	x8, [sp, #96]
	mov	w26, w27
	add	x8, x26, #48
	lsl	x20, x8, #3
	mov	x0, x20
	mov	w1, #8
	bl	_tlsf_memory_alloc
	tbz	w0, #0, LBB90_40
	mov	x19, x1
	sub	x1, x20, #8
	mov	x0, x19
	bl	_bzero
	mov	x8, #0
	add	x9, x19, x20
	stur	xzr, [x9, #-8]
	cmp	w27, #8
	b.lo	LBB90_9
	and	x8, x26, #0x7ffffff8
Lloh32:
	adrp	x9, lCPI90_0@PAGE
Lloh33:
	ldr	q0, [x9, lCPI90_0@PAGEOFF]
	add	x9, x19, #432
	mov	w10, #2
	dup.2d	v1, x10
	mov	w10, #4
	dup.2d	v2, x10
	mov	w10, #6
	dup.2d	v3, x10
	mov	w10, #8
	dup.2d	v4, x10
	and	x10, x26, #0x7ffffff8
LBB90_7:
	add.2d	v5, v0, v1
	add.2d	v6, v0, v2
	add.2d	v7, v0, v3
	stp	q0, q5, [x9, #-48]
	stp	q6, q7, [x9, #-16]
	add.2d	v0, v0, v4
	add	x9, x9, #64
	subs	x10, x10, #8
	b.ne	LBB90_7
	cmp	x8, x26
	b.eq	LBB90_11
LBB90_9:
	add	x9, x19, #384
LBB90_10:
	str	x8, [x9, x8, lsl #3]
	add	x8, x8, #1
	cmp	x26, x8
	b.ne	LBB90_10
LBB90_11:
	stp	xzr, xzr, [sp, #128]
	lsl	x0, x26, #5
	str	xzr, [sp, #144]
	mov	w1, #8
	bl	_tlsf_memory_alloc
	tbz	w0, #0, LBB90_34
	mov	x21, #0
	clz	x8, x26
	mov	w9, #1
	neg	x8, x8
	add	x22, sp, #176
	lsl	x8, x9, x8
	str	x8, [sp, #16]
	stp	x1, xzr, [x29, #-152]
	sub	x8, x29, #104
	stp	x26, x8, [x29, #-136]
	mov	x25, x26
	b	LBB90_16
LBB90_13:
	mov	w0, #5
	b	LBB90_43
LBB90_14:
	ldp	x1, x28, [x29, #-152]
LBB90_15:
	add	x8, x1, x28, lsl #5
	str	xzr, [x8]
	ldr	q0, [x22]
	ldr	x9, [sp, #192]
	str	x9, [x8, #24]
	stur	q0, [x8, #8]
	add	x21, x28, #1
	stur	x21, [x29, #-144]
	subs	x25, x25, #1
	b.eq	LBB90_21
LBB90_16:
	ldr	q0, [sp, #128]
	str	q0, [x22]
	ldr	x8, [sp, #144]
	str	x8, [sp, #192]
	ldur	x8, [x29, #-136]
	mov	x28, x21
	cmp	x8, x21
	b.ne	LBB90_15
	sub	x0, x29, #152
	bl	_std_alloc.vec.Vec.grow_amortized.94730218a1e37034
	cbnz	w0, LBB90_14
	ldp	x0, x9, [x29, #-152]
	ldur	x8, [x29, #-136]
	lsl	x10, x9, #5
	sub	x10, x10, #32
	add	x9, x9, #1
LBB90_19:
	subs	x9, x9, #1
	b.eq	LBB90_68
	ldrb	w11, [x0, x10]
	sub	x10, x10, #32
	cbz	w11, LBB90_19
	b	LBB90_30
LBB90_21:
	ldur	x22, [x29, #-152]
	ldur	x25, [x29, #-136]
	mov	x0, x20
	mov	w1, #8
	bl	_tlsf_memory_alloc
	tbz	w0, #0, LBB90_27
	mov	x20, x1
	lsl	x0, x21, #5
	tbnz	x0, #63, LBB90_26
	mov	w1, #8
	bl	_tlsf_memory_alloc
	tbz	w0, #0, LBB90_26
	sub	x8, x20, x19
	cmp	x8, #64
	b.hs	LBB90_44
	mov	x8, #0
	b	LBB90_47
LBB90_26:
	mov	x0, x20
	bl	_tlsf_memory_dealloc
LBB90_27:
	lsl	x9, x28, #5
	add	x8, x28, #2
LBB90_28:
	subs	x8, x8, #1
	b.eq	LBB90_31
	ldrb	w10, [x22, x9]
	sub	x9, x9, #32
	cbz	w10, LBB90_28
LBB90_30:
	brk	#0x1
LBB90_31:
	cbz	x25, LBB90_34
	mov	x0, x22
LBB90_33:
	bl	_tlsf_memory_dealloc
LBB90_34:
	mov	x0, x19
	bl	_tlsf_memory_dealloc
	ldp	x21, x23, [sp, #80]
	ldr	x22, [sp, #96]
	cbz	x23, LBB90_39
	mov	x24, #-1
	mov	x25, x21
	b	LBB90_37
LBB90_36:
	subs	x23, x23, #1
	b.eq	LBB90_39
LBB90_37:
	ldr	x0, [x25], #16
	; InlineAsm Start
	; InlineAsm End
	ldaddal	x24, x8, [x0]
	; InlineAsm Start
	; InlineAsm End
	cmp	x8, #1
	b.ne	LBB90_36
	ldr	x19, [x0, #40]
	ldr	x20, [x0, #56]
	bl	_tlsf_memory_dealloc
	mov	x0, x19
	bl	_tlsf_memory_dealloc
	mov	x0, x20
	bl	_tlsf_memory_dealloc
	b	LBB90_36
LBB90_39:
	cbz	x22, LBB90_42
LBB90_40:
	mov	x0, x21
LBB90_41:
	bl	_tlsf_memory_dealloc
LBB90_42:
	mov	w0, #6
LBB90_43:
	.cfi_def_cfa wsp, 400
	ldp	x29, x30, [sp, #384]
	ldp	x20, x19, [sp, #368]
	ldp	x22, x21, [sp, #352]
	ldp	x24, x23, [sp, #336]
	ldp	x26, x25, [sp, #320]
	ldp	x28, x27, [sp, #304]
	add	sp, sp, #400
	.cfi_def_cfa_offset 0
	.cfi_restore w30
	.cfi_restore w29
	.cfi_restore w19
	.cfi_restore w20
	.cfi_restore w21
	.cfi_restore w22
	.cfi_restore w23
	.cfi_restore w24
	.cfi_restore w25
	.cfi_restore w26
	.cfi_restore w27
	.cfi_restore w28
	ret
LBB90_44:
	.cfi_restore_state
	add	x11, x26, #48
	and	x8, x11, #0xfffffff8
	add	x9, x19, #32
	add	x10, x20, #32
	add	x12, x26, #48
	and	x11, x11, #0xfffffff8
LBB90_45:
	ldp	q0, q1, [x9, #-32]
	ldp	q2, q3, [x9], #64
	stp	q0, q1, [x10, #-32]
	stp	q2, q3, [x10], #64
	subs	x11, x11, #8
	b.ne	LBB90_45
	cmp	x12, x8
	b.eq	LBB90_49
LBB90_47:
	sub	x9, x26, x8
	add	x9, x9, #48
	lsl	x10, x8, #3
	add	x8, x20, x10
	add	x10, x19, x10
LBB90_48:
	ldr	x11, [x10], #8
	str	x11, [x8], #8
	subs	x9, x9, #1
	b.ne	LBB90_48
LBB90_49:
	cbz	x21, LBB90_52
	lsl	x9, x28, #5
	add	x8, x1, x9
	add	x8, x8, #8
	add	x9, x22, x9
	add	x9, x9, #8
	mov	x10, x21
LBB90_51:
	ldurb	w11, [x9, #-8]
	ldr	x12, [x9, #16]
	ldr	q0, [x9], #-32
	stur	x11, [x8, #-8]
	str	q0, [x8]
	str	x12, [x8, #16]
	sub	x8, x8, #32
	sub	x10, x10, #1
	cbnz	x10, LBB90_51
LBB90_52:
	mov	x28, x1
	cbz	x25, LBB90_54
	mov	x0, x22
	bl	_tlsf_memory_dealloc
LBB90_54:
	mov	x0, x19
	bl	_tlsf_memory_dealloc
	mov	x8, x24
	add	w8, w8, #1
LBB90_55:
	; InlineAsm Start
	; InlineAsm End
	ldar	xzr, [x20]
	; InlineAsm Start
	; InlineAsm End
	subs	w8, w8, #1
	b.ne	LBB90_55
	add	x22, x26, #48
LBB90_57:
	; InlineAsm Start
	; InlineAsm End
	ldar	xzr, [x20]
	; InlineAsm Start
	; InlineAsm End
	subs	w27, w27, #1
	b.ne	LBB90_57
	mov	w0, #88
	mov	w1, #8
	bl	_tlsf_memory_alloc
	tbz	w0, #0, LBB90_61
	mov	x19, x1
	mov	w8, #1
	stp	x8, x20, [x1]
	stp	x28, x22, [x1, #16]
	stp	x21, x20, [x1, #32]
	stp	x22, x28, [x1, #48]
	stp	x21, x26, [x1, #64]
	ldr	x8, [sp, #16]
	str	x8, [x1, #80]
	; InlineAsm Start
	; InlineAsm End
	ldar	xzr, [x20]
	; InlineAsm Start
	; InlineAsm End
	add	w2, w24, #1
	add	x3, sp, #80
	mov	x0, x1
	mov	w1, #1
	bl	_tlsf_post.mailboxes.send_out
	tst	w0, #0xff
	b.eq	LBB90_69
	mov	x0, x19
	bl	_std_alloc.arc.Arc.drop.f29941b0e8355977
	add	x0, sp, #80
	bl	_std_alloc.vec.Vec.drop.05316b64237a7125
	b	LBB90_42
LBB90_61:
	mov	x0, x20
	bl	_tlsf_memory_dealloc
	mov	x0, x28
	bl	_tlsf_memory_dealloc
	ldp	x19, x23, [sp, #80]
	ldr	x22, [sp, #96]
	cbz	x23, LBB90_66
	mov	x24, #-1
	mov	x25, x19
	b	LBB90_64
LBB90_63:
	subs	x23, x23, #1
	b.eq	LBB90_66
LBB90_64:
	ldr	x0, [x25], #16
	; InlineAsm Start
	; InlineAsm End
	ldaddal	x24, x8, [x0]
	; InlineAsm Start
	; InlineAsm End
	cmp	x8, #1
	b.ne	LBB90_63
	ldr	x20, [x0, #40]
	ldr	x21, [x0, #56]
	bl	_tlsf_memory_dealloc
	mov	x0, x20
	bl	_tlsf_memory_dealloc
	mov	x0, x21
	bl	_tlsf_memory_dealloc
	b	LBB90_63
LBB90_66:
	cbz	x22, LBB90_42
	mov	x0, x19
	b	LBB90_41
LBB90_68:
	cbnz	x8, LBB90_33
	b	LBB90_34
LBB90_69:
	ldp	x21, x24, [sp, #80]
	ldr	x25, [sp, #96]
	movi.2d	v0, #0000000000000000
	stp	q0, q0, [sp, #128]
	str	xzr, [sp, #160]
	stp	q0, q0, [sp, #80]
	str	xzr, [sp, #112]
	cbz	x24, LBB90_81
	lsr	x8, x24, #60
	cbnz	x8, LBB90_76
	lsl	x0, x24, #3
	mov	w1, #8
	bl	_tlsf_memory_alloc
	tbz	w0, #0, LBB90_76
	mov	x20, x1
	stp	x25, x21, [sp, #8]
	mov	x26, #0
	add	x28, x21, #8
	mov	w25, #259
LBB90_73:
	add	x27, x26, #1
	ldur	x22, [x28, #-8]
	ldr	w21, [x28], #16
	mov	w0, #48
	mov	w1, #8
	bl	_tlsf_memory_alloc
	tbz	w0, #0, LBB90_85
	strh	w25, [x1]
	stp	x22, x21, [x1, #8]
	stp	xzr, xzr, [x1, #32]
	str	xzr, [x1, #24]
	str	x1, [x20, x26, lsl #3]
	mov	x26, x27
	cmp	x24, x27
	b.ne	LBB90_73
	ldp	x25, x21, [sp, #8]
	b	LBB90_82
LBB90_76:
	mov	x23, x21
	b	LBB90_78
LBB90_77:
	subs	x24, x24, #1
	b.eq	LBB90_80
LBB90_78:
	ldr	x0, [x23], #16
	; InlineAsm Start
	; InlineAsm End
	mov	x8, #-1
	ldaddal	x8, x8, [x0]
	; InlineAsm Start
	; InlineAsm End
	cmp	x8, #1
	b.ne	LBB90_77
	ldr	x20, [x0, #40]
	ldr	x22, [x0, #56]
	bl	_tlsf_memory_dealloc
	mov	x0, x20
	bl	_tlsf_memory_dealloc
	mov	x0, x22
	bl	_tlsf_memory_dealloc
	b	LBB90_77
LBB90_80:
	cbnz	x25, LBB90_91
	b	LBB90_92
LBB90_81:
	sub	x20, x29, #104
LBB90_82:
	stp	x21, xzr, [sp, #80]
	stp	x25, x24, [sp, #96]
	str	xzr, [sp, #112]
	add	x0, sp, #80
	bl	_std_alloc.vec.deque.VecDeque.drop.ca3d8856d46a41b8
	mov	w0, #48
	mov	w1, #8
	bl	_tlsf_memory_alloc
	tbz	w0, #0, LBB90_84
	mov	w0, #0
	mov	w8, #258
	strh	w8, [x1]
	stp	x19, xzr, [x1, #8]
	stp	x20, x24, [x1, #24]
	str	x24, [x1, #40]
	str	x1, [x23]
	mov	w8, #1
	strb	w8, [x23, #8]
	stur	wzr, [x23, #9]
	str	wzr, [x23, #12]
	b	LBB90_43
LBB90_84:
	mov	x0, x19
	bl	_std_alloc.arc.Arc.drop.c4a047e811255370
	stp	x20, x24, [sp, #24]
	str	x24, [sp, #40]
	add	x0, sp, #24
	bl	_std_alloc.vec.Vec.drop.7ac45d8413b9ad54
	b	LBB90_42
LBB90_85:
	; InlineAsm Start
	; InlineAsm End
	mov	x8, #-1
	ldaddal	x8, x8, [x22]
	; InlineAsm Start
	; InlineAsm End
	mvn	x9, x26
	add	x25, x9, x24
	cmp	x8, #1
	b.ne	LBB90_87
	ldr	x23, [x22, #40]
	ldr	x24, [x22, #56]
	mov	x0, x22
	bl	_tlsf_memory_dealloc
	mov	x0, x23
	bl	_tlsf_memory_dealloc
	mov	x0, x24
	bl	_tlsf_memory_dealloc
LBB90_87:
	ldp	x8, x9, [sp, #8]
	stp	x9, x25, [sp, #128]
	stp	x8, x27, [sp, #144]
	str	xzr, [sp, #160]
	add	x0, sp, #128
	bl	_std_alloc.vec.deque.VecDeque.drop.ca3d8856d46a41b8
	cbz	x26, LBB90_90
	mov	x21, #0
	add	x22, sp, #176
	sub	x23, x29, #152
LBB90_89:
	ldr	x0, [x20, x21, lsl #3]
	ldrh	w24, [x0]
	ldur	q0, [x0, #8]
	stur	q0, [x22, #6]
	ldur	q0, [x0, #24]
	stur	q0, [x22, #22]
	ldr	x8, [x0, #40]
	stur	x8, [x22, #38]
	bl	_tlsf_memory_dealloc
	stur	xzr, [x29, #-152]
	sturh	w24, [x29, #-152]
	ldur	q0, [x22, #6]
	stur	q0, [x23, #8]
	ldur	q0, [x22, #22]
	stur	q0, [x23, #24]
	ldur	x8, [x22, #38]
	stur	x8, [x23, #40]
	sub	x0, x29, #152
	bl	_tlsf_c.tlsf_c.any_end.AnyEnd.Destruct.drop
	add	x21, x21, #1
	cmp	x26, x21
	b.ne	LBB90_89
LBB90_90:
	mov	x21, x20
LBB90_91:
	mov	x0, x21
	bl	_tlsf_memory_dealloc
LBB90_92:
	; InlineAsm Start
	; InlineAsm End
	mov	x8, #-1
	ldaddal	x8, x8, [x19]
	; InlineAsm Start
	; InlineAsm End
	cmp	x8, #1
	b.ne	LBB90_42
	ldr	x20, [x19, #40]
	ldr	x21, [x19, #56]
	mov	x0, x19
	bl	_tlsf_memory_dealloc
	mov	x0, x20
	bl	_tlsf_memory_dealloc
	b	LBB90_40
	.loh AdrpLdr	Lloh32, Lloh33
	.cfi_endproc
	.globl	_tlsf_queue_post
	.p2align	2
_tlsf_queue_post:
	.cfi_startproc
	ldrb	w8, [x0, #8]
	cbz	w8, LBB91_11
	ldr	x8, [x0]
	ldrb	w9, [x8, #1]
	tbz	w9, #0, LBB91_11
	ldrb	w9, [x8]
	cmp	w9, #3
	b.ne	LBB91_12
	strb	wzr, [x8, #1]
	ldr	x9, [x8, #8]
	ldr	w12, [x8, #16]
	ldr	x10, [x9, #8]
	add	x10, x10, #128
	; InlineAsm Start
	; InlineAsm End
	ldar	x10, [x10]
	; InlineAsm Start
	; InlineAsm End
	ldr	x11, [x9, #80]
	sub	x11, x11, #1
	and	x13, x11, x10
	ldr	x14, [x9, #8]
	lsl	x11, x13, #3
	add	x14, x14, x11
	add	x14, x14, #384
	; InlineAsm Start
	; InlineAsm End
	ldar	x14, [x14]
	; InlineAsm Start
	; InlineAsm End
	lsr	x15, x10, #62
	cmp	x15, #2
	ccmp	x14, x10, #0, ls
	b.ne	LBB91_10
	add	x14, x13, #1
	ldr	x15, [x9, #72]
	cmp	x14, x15
	b.hs	LBB91_6
	add	x14, x10, #1
	b	LBB91_7
LBB91_6:
	ldr	x14, [x9, #80]
	sub	x15, x10, x13
	add	x14, x15, x14
LBB91_7:
	ldr	x15, [x9, #8]
	add	x15, x15, #128
	; InlineAsm Start
	; InlineAsm End
	mov	x16, x10
	casal	x16, x14, [x15]
	; InlineAsm Start
	; InlineAsm End
	cmp	x16, x10
	b.ne	LBB91_10
	ldr	x14, [x9, #16]
	add	x14, x14, x13, lsl #5
	ldrb	w15, [x14]
	mov	w13, #1
	str	x13, [x14]
	stp	w12, wzr, [x14, #8]
	stp	x1, x2, [x14, #16]
	cbnz	w15, LBB91_13
	mov	w0, #0
	add	x10, x10, #1
	ldr	x9, [x9, #8]
	add	x9, x9, x11
	add	x9, x9, #384
	; InlineAsm Start
	; InlineAsm End
	stlr	x10, [x9]
	; InlineAsm Start
	; InlineAsm End
	strb	w13, [x8, #1]
	ret
LBB91_10:
	ldr	x9, [x8, #8]
	ldr	x10, [x9, #8]
	add	x10, x10, #128
	; InlineAsm Start
	; InlineAsm End
	ldar	x10, [x10]
	; InlineAsm Start
	; InlineAsm End
	ldr	x11, [x9, #8]
	add	x11, x11, #256
	; InlineAsm Start
	; InlineAsm End
	ldar	x11, [x11]
	; InlineAsm Start
	; InlineAsm End
	ldr	x9, [x9, #80]
	subs	x9, x10, x9
	ccmp	x11, x9, #0, hs
	mov	w9, #1
	strb	w9, [x8, #1]
	mov	w8, #37
	mov	w9, #8
	csel	w0, w9, w8, eq
	ret
LBB91_11:
	mov	w0, #0
	b	_tlsf_c.call_fault.CallFault.refusal
LBB91_12:
	mov	w0, #2
	b	_tlsf_c.call_fault.CallFault.refusal
LBB91_13:
	brk	#0x1
	.cfi_endproc
	.globl	_tlsf_queue_take
	.p2align	2
_tlsf_queue_take:
	.cfi_startproc
	sub	sp, sp, #64
	.cfi_def_cfa_offset 64
	stp	x20, x19, [sp, #32]
	stp	x29, x30, [sp, #48]
	add	x29, sp, #48
	.cfi_def_cfa w29, 16
	.cfi_offset w30, -8
	.cfi_offset w29, -16
	.cfi_offset w19, -24
	.cfi_offset w20, -32
	.cfi_remember_state
	ldrb	w8, [x0, #8]
	cbz	w8, LBB92_7
	ldr	x20, [x0]
	ldrb	w8, [x20, #1]
	tbz	w8, #0, LBB92_7
	ldrb	w8, [x20]
	cmp	w8, #2
	b.ne	LBB92_8
	mov	x19, x1
	strb	wzr, [x20, #1]
	movi.2d	v0, #0000000000000000
	stp	q0, q0, [sp]
	mov	x0, sp
	add	x1, x20, #8
	bl	_tlsf_c.queue_end.take_once
	ldrb	w8, [sp]
	cbz	w8, LBB92_5
	ldrb	w8, [sp, #1]
Lloh34:
	adrp	x9, l_switch.table.tlsf_queue_take@PAGE
Lloh35:
	add	x9, x9, l_switch.table.tlsf_queue_take@PAGEOFF
	ldr	w0, [x9, x8, lsl #2]
	b	LBB92_6
LBB92_5:
	mov	w0, #0
	ldr	x8, [sp, #24]
	ldr	d0, [sp, #16]
	str	d0, [x19]
	str	x8, [x19, #8]
LBB92_6:
	mov	w8, #1
	strb	w8, [x20, #1]
	.cfi_def_cfa wsp, 64
	ldp	x29, x30, [sp, #48]
	ldp	x20, x19, [sp, #32]
	add	sp, sp, #64
	.cfi_def_cfa_offset 0
	.cfi_restore w30
	.cfi_restore w29
	.cfi_restore w19
	.cfi_restore w20
	ret
LBB92_7:
	.cfi_restore_state
	.cfi_remember_state
	mov	w0, #0
	.cfi_def_cfa wsp, 64
	b	LBB92_9
LBB92_8:
	.cfi_restore_state
	mov	w0, #2
	.cfi_def_cfa wsp, 64
LBB92_9:
	ldp	x29, x30, [sp, #48]
	ldp	x20, x19, [sp, #32]
	add	sp, sp, #64
	.cfi_def_cfa_offset 0
	.cfi_restore w30
	.cfi_restore w29
	.cfi_restore w19
	.cfi_restore w20
	b	_tlsf_c.call_fault.CallFault.refusal
	.loh AdrpAdd	Lloh34, Lloh35
	.cfi_endproc
	.globl	_tlsf_read
	.p2align	2
_tlsf_read:
	.cfi_startproc
	mov	w8, #4096
	ldrb	w9, [x0, #8]
	cmp	x4, #0
	csel	x10, x8, xzr, eq
	cbz	w9, LBB93_10
	stp	x20, x19, [sp, #-32]!
	.cfi_def_cfa_offset 32
	stp	x29, x30, [sp, #16]
	add	x29, sp, #16
	.cfi_def_cfa w29, 16
	.cfi_offset w30, -8
	.cfi_offset w29, -16
	.cfi_offset w19, -24
	.cfi_offset w20, -32
	.cfi_remember_state
	ldr	x19, [x0]
	ldrb	w8, [x19]
	cmp	w8, #1
	b.ne	LBB93_11
	lsr	x8, x1, #32
	strb	wzr, [x19]
	ldrb	w11, [x19, #16]
	ldr	w9, [x19, #24]
	cmp	w9, w1
	cbz	w11, LBB93_12
	b.ne	LBB93_20
	ldr	w11, [x19, #56]
	mov	x9, x1
	cmp	w8, w11
	b.hs	LBB93_20
	ldr	x9, [x19, #72]
	lsr	x11, x1, #35
	and	x11, x11, #0x1ffffff8
	ldr	x9, [x9, x11]
	lsr	x11, x9, x8
	mov	x9, x1
	tbz	w11, #0, LBB93_20
	ldur	x9, [x19, #48]
	add	x11, x9, x8, lsl #3
	ldr	x12, [x11]
	mov	x9, x1
	tbnz	w12, #0, LBB93_20
	ldr	x12, [x11, #8]
	mov	x9, x1
	cmp	x12, x2
	b.ne	LBB93_20
	ldr	w9, [x11, #16]
	add	x11, x5, w3, uxtw
	cmp	x11, x9
	b.hi	LBB93_18
	add	x0, x19, #48
	mov	x2, x3
	add	x3, x4, x10
	mov	x1, x8
	mov	x4, x5
	bl	_tlsf_heap.region.Region.read.5
	mov	w8, #0
	mov	w0, #0
	tbz	w8, #0, LBB93_21
	b	LBB93_19
LBB93_10:
	.cfi_def_cfa wsp, 0
	.cfi_same_value w30
	.cfi_same_value w29
	.cfi_same_value w19
	.cfi_same_value w20
	mov	w0, #32
	ret
LBB93_11:
	.cfi_restore_state
	.cfi_remember_state
	mov	w0, #32
	b	LBB93_23
LBB93_12:
	b.ne	LBB93_20
	ldr	w11, [x19, #56]
	mov	x9, x1
	cmp	w8, w11
	b.hs	LBB93_20
	ldr	x9, [x19, #72]
	lsr	x11, x1, #35
	and	x11, x11, #0x1ffffff8
	ldr	x9, [x9, x11]
	lsr	x11, x9, x8
	mov	x9, x1
	tbz	w11, #0, LBB93_20
	ldur	x9, [x19, #48]
	add	x11, x9, x8, lsl #3
	ldr	x12, [x11]
	mov	x9, x1
	tbnz	w12, #0, LBB93_20
	ldr	x12, [x11, #8]
	mov	x9, x1
	cmp	x12, x2
	b.ne	LBB93_20
	ldr	w9, [x11, #16]
	add	x11, x5, w3, uxtw
	cmp	x11, x9
	b.ls	LBB93_24
LBB93_18:
	mov	w0, #4
	mov	w8, #1
	tbz	w8, #0, LBB93_21
LBB93_19:
	and	x8, x0, #0xff
Lloh36:
	adrp	x9, l_switch.table.tlsf_write@PAGE
Lloh37:
	add	x9, x9, l_switch.table.tlsf_write@PAGEOFF
	ldr	w0, [x9, x8, lsl #2]
	b	LBB93_22
LBB93_20:
	mov	x0, x1
	mov	x1, x9
	bl	_tlsf_heap.refusal.Refusal.of_name
	mov	w8, #1
	tbnz	w8, #0, LBB93_19
LBB93_21:
	mov	w0, #0
LBB93_22:
	mov	w8, #1
	strb	w8, [x19]
LBB93_23:
	.cfi_def_cfa wsp, 32
	ldp	x29, x30, [sp, #16]
	ldp	x20, x19, [sp], #32
	.cfi_def_cfa_offset 0
	.cfi_restore w30
	.cfi_restore w29
	.cfi_restore w19
	.cfi_restore w20
	ret
LBB93_24:
	.cfi_restore_state
	add	x0, x19, #48
	mov	x2, x3
	add	x3, x4, x10
	mov	x1, x8
	mov	x4, x5
	bl	_tlsf_heap.region.Region.read.4
	mov	w8, #0
	mov	w0, #0
	tbz	w8, #0, LBB93_21
	b	LBB93_19
	.loh AdrpAdd	Lloh36, Lloh37
	.cfi_endproc
	.globl	_tlsf_reallocate
	.p2align	2
_tlsf_reallocate:
	.cfi_startproc
	ldrb	w8, [x0, #8]
	cbz	w8, LBB94_17
	sub	sp, sp, #176
	.cfi_def_cfa_offset 176
	stp	x28, x27, [sp, #80]
	stp	x26, x25, [sp, #96]
	stp	x24, x23, [sp, #112]
	stp	x22, x21, [sp, #128]
	stp	x20, x19, [sp, #144]
	stp	x29, x30, [sp, #160]
	add	x29, sp, #160
	.cfi_def_cfa w29, 16
	.cfi_offset w30, -8
	.cfi_offset w29, -16
	.cfi_offset w19, -24
	.cfi_offset w20, -32
	.cfi_offset w21, -40
	.cfi_offset w22, -48
	.cfi_offset w23, -56
	.cfi_offset w24, -64
	.cfi_offset w25, -72
	.cfi_offset w26, -80
	.cfi_offset w27, -88
	.cfi_offset w28, -96
	.cfi_remember_state
	ldr	x24, [x0]
	ldrb	w8, [x24]
	cmp	w8, #1
	b.ne	LBB94_18
	mov	w8, #-1
	cmp	x2, x8
	csel	x25, x2, x8, lo
	strb	wzr, [x24]
	ldp	w21, w19, [x1]
	ldr	x26, [x1, #8]
	ldrb	w9, [x24, #16]
	mov	x20, x24
	ldr	w8, [x20, #24]!
	cmp	w21, w8
	cbz	w9, LBB94_19
	b.ne	LBB94_32
	ldr	w9, [x24, #56]
	mov	x8, x21
	cmp	w19, w9
	b.hs	LBB94_32
	ldr	x8, [x24, #72]
	lsr	x9, x19, #3
	and	x9, x9, #0x1ffffff8
	ldr	x8, [x8, x9]
	lsr	x9, x8, x19
	mov	x8, x21
	tbz	w9, #0, LBB94_32
	ldur	x9, [x24, #48]
	lsl	x28, x19, #3
	add	x10, x9, x28
	ldr	x23, [x10]
	mov	x8, x21
	tbnz	w23, #0, LBB94_32
	ldr	x11, [x10, #8]
	mov	x8, x21
	cmp	x11, x26
	b.ne	LBB94_32
	cmp	x2, #0
	cinc	x8, x25, eq
	cset	w4, eq
	add	x8, x8, #31
	lsr	x22, x8, #3
	lsr	w27, w23, #2
	cmp	w27, w22
	b.hs	LBB94_33
	tbnz	w23, #1, LBB94_11
	add	w10, w27, w19
	ldr	x3, [x9, w10, uxtw #3]
	tbnz	w3, #0, LBB94_12
LBB94_11:
	mov	x3, #0
LBB94_12:
	add	w10, w27, w3, lsr #2
	cmp	w10, w22
	b.hs	LBB94_51
	stp	w21, w19, [sp, #48]
	str	x26, [sp, #56]
	ldr	x27, [x24, #32]
	cmn	x27, #3
	b.hi	LBB94_63
	mov	w10, #7
	movk	w10, #2048, lsl #16
	cmp	x8, x10
	b.hi	LBB94_31
	orr	w8, w22, #0x20
	clz	w8, w8
	mov	w10, #26
	sub	w8, w10, w8
	sub	w10, w22, #1
	lsr	w12, w10, w8
	add	w8, w12, w8, lsl #5
	add	w8, w8, #1
	sub	x10, x8, #1
	lsr	x11, x10, #5
	add	x8, x24, #108
	ldr	w13, [x8, x11, lsl #2]
	lsr	w12, w13, w12
	ands	w12, w12, #0xfffffffe
	b.eq	LBB94_66
	rbit	w11, w12
	clz	w11, w11
	add	x11, x10, x11
	b	LBB94_68
LBB94_17:
	.cfi_def_cfa wsp, 0
	.cfi_same_value w30
	.cfi_same_value w29
	.cfi_same_value w19
	.cfi_same_value w20
	.cfi_same_value w21
	.cfi_same_value w22
	.cfi_same_value w23
	.cfi_same_value w24
	.cfi_same_value w25
	.cfi_same_value w26
	.cfi_same_value w27
	.cfi_same_value w28
	mov	w0, #32
	ret
LBB94_18:
	.cfi_restore_state
	mov	w0, #32
	b	LBB94_114
LBB94_19:
	b.ne	LBB94_32
	ldr	w9, [x24, #56]
	mov	x8, x21
	cmp	w19, w9
	b.hs	LBB94_32
	ldr	x8, [x24, #72]
	lsr	x9, x19, #3
	and	x9, x9, #0x1ffffff8
	ldr	x8, [x8, x9]
	lsr	x9, x8, x19
	mov	x8, x21
	tbz	w9, #0, LBB94_32
	ldur	x9, [x24, #48]
	lsl	x28, x19, #3
	add	x10, x9, x28
	ldr	x23, [x10]
	mov	x8, x21
	tbnz	w23, #0, LBB94_32
	ldr	x11, [x10, #8]
	mov	x8, x21
	cmp	x11, x26
	b.ne	LBB94_32
	cmp	x2, #0
	cinc	x8, x25, eq
	cset	w4, eq
	add	x8, x8, #31
	lsr	x22, x8, #3
	lsr	w27, w23, #2
	cmp	w27, w22
	b.hs	LBB94_41
	tbnz	w23, #1, LBB94_27
	add	w10, w27, w19
	ldr	x3, [x9, w10, uxtw #3]
	tbnz	w3, #0, LBB94_28
LBB94_27:
	mov	x3, #0
LBB94_28:
	add	w10, w27, w3, lsr #2
	cmp	w10, w22
	b.hs	LBB94_53
	stp	w21, w19, [sp, #48]
	str	x26, [sp, #56]
	ldr	x27, [x24, #32]
	cmn	x27, #3
	b.hi	LBB94_63
	mov	w10, #7
	movk	w10, #128, lsl #16
	cmp	x8, x10
	b.ls	LBB94_64
LBB94_31:
	ldp	w8, w9, [x24, #8]
	adds	w8, w8, #1
	csinv	w8, w8, wzr, lo
	cmp	w25, w9
	csel	w9, w25, w9, hi
	stp	w8, w9, [x24, #8]
	mov	w0, #1
	strb	w0, [x24]
	b	LBB94_114
LBB94_32:
	mov	x0, x21
	mov	x1, x8
	bl	_tlsf_heap.refusal.Refusal.of_name
	and	w8, w0, #0xff
	mov	w9, #1
	strb	w9, [x24]
	cmp	w8, #3
	mov	w8, #3
	cinc	w0, w8, eq
	b	LBB94_114
LBB94_33:
	ldr	x20, [x24, #32]
	cmn	x20, #1
	b.eq	LBB94_63
	str	x26, [sp, #40]
	ldr	x26, [x10, #16]
	str	x25, [x10, #16]
	cmp	w25, w26
	b.ls	LBB94_39
	ands	w9, w26, #0x7
	str	x25, [sp, #16]
	b.eq	LBB94_37
	str	w9, [sp, #32]
	mov	w9, w26
	ldur	x12, [x24, #48]
	stp	x12, x1, [sp]
	add	x8, x28, x9
	add	x8, x8, #24
	and	x10, x9, #0x7
	and	x13, x8, #0x1ffffffff8
	str	x13, [sp, #24]
Lloh38:
	adrp	x11, l_static.0@PAGE
Lloh39:
	add	x11, x11, l_static.0@PAGEOFF
	mov	w8, #8
	sub	x2, x8, x10
	ldr	x8, [x12, x13]
	str	x8, [sp, #48]
	add	x8, sp, #48
	bfxil	x8, x9, #0, #3
	add	x1, x11, x10
	mov	x25, x0
	mov	x0, x8
	mov	x28, x4
	bl	_tlsf_memory_cpy
	ldr	w9, [sp, #32]
	mov	x4, x28
	mov	x0, x25
	ldp	x1, x25, [sp, #8]
	ldr	x8, [sp, #48]
	ldr	x10, [sp, #24]
	ldr	x11, [sp]
	str	x8, [x11, x10]
LBB94_37:
	lsr	w8, w26, #3
	cmp	w9, #0
	cinc	w8, w8, ne
	lsr	w9, w25, #3
	tst	w25, #0x7
	cinc	w9, w9, ne
	subs	w9, w9, w8
	b.eq	LBB94_39
	ldur	x10, [x24, #48]
	add	w8, w19, w8
	add	w8, w8, #3
	add	x8, x10, w8, uxtw #3
	ubfiz	x9, x9, #3, #32
	mov	x25, x0
	mov	x0, x8
	mov	x26, x1
	mov	x1, x9
	mov	x28, x4
	bl	_bzero
	mov	x4, x28
	mov	x0, x25
	ldr	x25, [sp, #16]
	mov	x1, x26
LBB94_39:
	add	w9, w22, #4
	mov	x8, x27
	cmp	w27, w9
	b.lo	LBB94_50
	mov	x26, x0
	add	x0, x24, #48
	mov	x28, x1
	mov	x1, x19
	mov	x2, x23
	mov	x3, x22
	mov	x23, x4
	mov	x4, x20
	bl	_tlsf_heap.refitting.split_off.5
	b	LBB94_49
LBB94_41:
	ldr	x20, [x24, #32]
	cmn	x20, #1
	b.eq	LBB94_63
	str	x26, [sp, #40]
	ldr	x26, [x10, #16]
	str	x25, [x10, #16]
	cmp	w25, w26
	b.ls	LBB94_47
	ands	w9, w26, #0x7
	b.eq	LBB94_45
	str	w9, [sp, #32]
	mov	w9, w26
	ldur	x12, [x24, #48]
	stp	x12, x1, [sp]
	add	x8, x28, x9
	add	x8, x8, #24
	and	x10, x9, #0x7
	and	x13, x8, #0x1ffffffff8
	stp	x25, x13, [sp, #16]
Lloh40:
	adrp	x11, l_static.0@PAGE
Lloh41:
	add	x11, x11, l_static.0@PAGEOFF
	mov	w8, #8
	sub	x2, x8, x10
	ldr	x8, [x12, x13]
	str	x8, [sp, #48]
	add	x8, sp, #48
	bfxil	x8, x9, #0, #3
	add	x1, x11, x10
	mov	x28, x0
	mov	x0, x8
	mov	x25, x4
	bl	_tlsf_memory_cpy
	ldr	w9, [sp, #32]
	mov	x4, x25
	mov	x0, x28
	ldp	x11, x1, [sp]
	ldr	x8, [sp, #48]
	ldp	x25, x10, [sp, #16]
	str	x8, [x11, x10]
LBB94_45:
	lsr	w8, w26, #3
	cmp	w9, #0
	cinc	w8, w8, ne
	lsr	w9, w25, #3
	tst	w25, #0x7
	cinc	w9, w9, ne
	subs	w9, w9, w8
	b.eq	LBB94_47
	ldur	x10, [x24, #48]
	add	w8, w19, w8
	add	w8, w8, #3
	add	x8, x10, w8, uxtw #3
	ubfiz	x9, x9, #3, #32
	str	x0, [sp, #32]
	mov	x0, x8
	mov	x28, x25
	mov	x25, x1
	mov	x1, x9
	mov	x26, x4
	bl	_bzero
	mov	x4, x26
	ldr	x0, [sp, #32]
	mov	x1, x25
	mov	x25, x28
LBB94_47:
	add	w9, w22, #4
	mov	x8, x27
	cmp	w27, w9
	b.lo	LBB94_50
	mov	x26, x0
	add	x0, x24, #48
	mov	x28, x1
	mov	x1, x19
	mov	x2, x23
	mov	x3, x22
	mov	x23, x4
	mov	x4, x20
	bl	_tlsf_heap.refitting.split_off.4
LBB94_49:
	mov	x4, x23
	mov	x0, x26
	mov	x1, x28
	mov	x8, x22
LBB94_50:
	ldr	w9, [x24, #40]
	sub	w8, w8, w27
	add	w8, w8, w9
	str	w8, [x24, #40]
	ldr	x8, [x24, #32]
	add	x8, x8, #1
	str	x8, [x24, #32]
	ldr	x26, [sp, #40]
	mov	w8, #1
	strb	w8, [x24]
	add	w8, w25, w4
	sub	w8, w8, #1
	tbnz	w8, #3, LBB94_111
	b	LBB94_113
LBB94_51:
	ldr	x5, [x24, #32]
	cmn	x5, #1
	b.eq	LBB94_63
	stp	x4, x0, [sp, #24]
	add	x0, x24, #48
	mov	x20, x1
	mov	x1, x19
	mov	x2, x23
	mov	x4, x22
	bl	_tlsf_heap.refitting.recut.5
	b	LBB94_55
LBB94_53:
	ldr	x5, [x24, #32]
	cmn	x5, #1
	b.eq	LBB94_63
	stp	x4, x0, [sp, #24]
	add	x0, x24, #48
	mov	x20, x1
	mov	x1, x19
	mov	x2, x23
	mov	x4, x22
	bl	_tlsf_heap.refitting.recut.4
LBB94_55:
	mov	x1, x20
	mov	x22, x0
	ldr	x0, [sp, #32]
	ldur	x8, [x24, #48]
	add	x8, x8, x28
	ldr	x23, [x8, #16]
	str	x25, [x8, #16]
	cmp	w25, w23
	b.ls	LBB94_60
	str	x26, [sp, #40]
	ands	w26, w23, #0x7
	b.eq	LBB94_58
	mov	w8, w23
	str	x25, [sp, #16]
	ldur	x25, [x24, #48]
	add	x9, x28, x8
	add	x9, x9, #24
	and	x10, x8, #0x7
	and	x28, x9, #0x1ffffffff8
Lloh42:
	adrp	x9, l_static.0@PAGE
Lloh43:
	add	x9, x9, l_static.0@PAGEOFF
	mov	w11, #8
	sub	x2, x11, x10
	ldr	x11, [x25, x28]
	str	x11, [sp, #48]
	add	x0, sp, #48
	bfxil	x0, x8, #0, #3
	add	x1, x9, x10
	bl	_tlsf_memory_cpy
	ldr	x0, [sp, #32]
	mov	x1, x20
	ldr	x8, [sp, #48]
	str	x8, [x25, x28]
	ldr	x25, [sp, #16]
LBB94_58:
	lsr	w8, w23, #3
	cmp	w26, #0
	cinc	w8, w8, ne
	lsr	w9, w25, #3
	tst	w25, #0x7
	cinc	w9, w9, ne
	subs	w9, w9, w8
	ldr	x26, [sp, #40]
	b.eq	LBB94_60
	ldur	x10, [x24, #48]
	add	w8, w19, w8
	add	w8, w8, #3
	add	x0, x10, w8, uxtw #3
	ubfiz	x1, x9, #3, #32
	bl	_bzero
	ldr	x0, [sp, #32]
	mov	x1, x20
LBB94_60:
	ldp	w8, w9, [x24, #40]
	sub	w10, w22, w27
	add	w8, w8, w10
	str	w8, [x24, #40]
	cmp	w9, w8
	ldr	x4, [sp, #24]
	b.hs	LBB94_62
	str	w8, [x24, #44]
LBB94_62:
	ldr	x8, [x24, #32]
	add	x8, x8, #1
	str	x8, [x24, #32]
	mov	w8, #1
	strb	w8, [x24]
	add	w8, w25, w4
	sub	w8, w8, #1
	tbnz	w8, #3, LBB94_111
	b	LBB94_113
LBB94_63:
	mov	w8, #1
	strb	w8, [x24]
	mov	w0, #2
	b	LBB94_114
LBB94_64:
	orr	w8, w22, #0x10
	clz	w8, w8
	mov	w10, #27
	sub	w8, w10, w8
	sub	w10, w22, #1
	lsr	w12, w10, w8
	add	w8, w12, w8, lsl #4
	add	w8, w8, #1
	sub	x10, x8, #1
	lsr	x11, x10, #4
	add	x8, x24, #108
	ldr	w13, [x8, x11, lsl #2]
	and	w12, w12, #0xf
	lsr	w12, w13, w12
	ands	w12, w12, #0xfffffffe
	b.eq	LBB94_78
	rbit	w11, w12
	clz	w11, w11
	add	x11, x10, x11
	b	LBB94_80
LBB94_66:
	ldr	w10, [x24, #104]
	mov	w12, #-2
	lsl	w11, w12, w11
	ands	w10, w10, w11
	b.eq	LBB94_31
	rbit	w10, w10
	clz	w10, w10
	ldr	w11, [x8, w10, uxtw #2]
	rbit	w11, w11
	clz	w11, w11
	add	w11, w11, w10, lsl #5
LBB94_68:
	add	x10, x24, #192
	ldr	w23, [x10, x11, lsl #2]
	ubfiz	x26, x23, #3, #32
	add	x12, x9, x26
	ldr	x12, [x12, #16]
	cmn	w12, #1
	b.eq	LBB94_70
	ubfiz	x13, x12, #3, #32
	add	x9, x9, x13
	ldr	x13, [x9, #16]
	orr	x13, x13, #0xffffffff00000000
	str	x13, [x9, #16]
	str	w12, [x10, x11, lsl #2]
	ldur	x9, [x24, #48]
	b	LBB94_72
LBB94_70:
	str	w12, [x10, x11, lsl #2]
	lsr	x12, x11, #3
	and	x13, x12, #0x1ffffffffffffffc
	ldr	w14, [x8, x13]
	mov	w12, #1
	lsl	w15, w12, w11
	bics	w14, w14, w15
	str	w14, [x8, x13]
	b.ne	LBB94_72
	lsr	x11, x11, #5
	ldr	w13, [x24, #104]
	lsl	w11, w12, w11
	bic	w11, w13, w11
	str	w11, [x24, #104]
LBB94_72:
	add	x12, x9, x26
	ldr	x11, [x12]
	sub	w13, w11, w22, lsl #2
	cmp	w13, #15
	b.hi	LBB94_74
	sub	x8, x11, #1
	stp	x8, x27, [x12]
	str	x25, [x12, #16]
	lsr	w8, w8, #2
	b	LBB94_92
LBB94_74:
	orr	x14, x13, x23, lsl #32
	sub	x11, x11, x13
	str	x11, [x9, x23, lsl #3]
	add	w11, w23, w22
	stp	x27, x25, [x12, #8]
	ubfiz	x12, x11, #3, #32
	add	x9, x9, x12
	stp	x14, x27, [x9]
	ldr	x14, [x24, #72]
	lsr	w9, w11, #3
	and	x15, x9, #0x1ffffff8
	ldr	x16, [x14, x15]
	lsr	w9, w13, #2
	mov	w17, #1
	lsl	x17, x17, x11
	orr	x16, x16, x17
	str	x16, [x14, x15]
	tbnz	w13, #1, LBB94_76
	add	w13, w9, w11
	ldur	x14, [x24, #48]
	add	x13, x14, w13, uxtw #3
	str	w11, [x13, #4]
LBB94_76:
	orr	w13, w9, #0x20
	clz	w13, w13
	mov	w14, #26
	sub	w13, w14, w13
	lsr	w9, w9, w13
	add	w13, w9, w13, lsl #5
	ldr	w14, [x10, w13, uxtw #2]
	str	w11, [x10, w13, uxtw #2]
	ldur	x10, [x24, #48]
	tbnz	w14, #31, LBB94_90
	orr	x8, x14, #0xffffffff00000000
	add	x9, x10, x12
	str	x8, [x9, #16]
	add	x8, x10, x14, lsl #3
	str	w11, [x8, #20]
	b	LBB94_91
LBB94_78:
	ldr	w10, [x24, #104]
	mov	w12, #-2
	lsl	w11, w12, w11
	ands	w10, w10, w11
	b.eq	LBB94_31
	rbit	w10, w10
	clz	w10, w10
	ldr	w11, [x8, w10, uxtw #2]
	rbit	w11, w11
	clz	w11, w11
	add	w11, w11, w10, lsl #4
LBB94_80:
	add	x10, x24, #192
	ldr	w23, [x10, x11, lsl #2]
	ubfiz	x26, x23, #3, #32
	add	x12, x9, x26
	ldr	x12, [x12, #16]
	cmn	w12, #1
	b.eq	LBB94_82
	ubfiz	x13, x12, #3, #32
	add	x9, x9, x13
	ldr	x13, [x9, #16]
	orr	x13, x13, #0xffffffff00000000
	str	x13, [x9, #16]
	str	w12, [x10, x11, lsl #2]
	ldur	x9, [x24, #48]
	b	LBB94_84
LBB94_82:
	str	w12, [x10, x11, lsl #2]
	lsr	x12, x11, #2
	and	x13, x12, #0x3ffffffffffffffc
	ldr	w14, [x8, x13]
	and	w15, w11, #0xf
	mov	w12, #1
	lsl	w15, w12, w15
	bics	w14, w14, w15
	str	w14, [x8, x13]
	b.ne	LBB94_84
	lsr	x11, x11, #4
	ldr	w13, [x24, #104]
	lsl	w11, w12, w11
	bic	w11, w13, w11
	str	w11, [x24, #104]
LBB94_84:
	add	x12, x9, x26
	ldr	x11, [x12]
	sub	w13, w11, w22, lsl #2
	cmp	w13, #15
	b.hi	LBB94_86
	sub	x8, x11, #1
	stp	x8, x27, [x12]
	str	x25, [x12, #16]
	lsr	w8, w8, #2
	b	LBB94_102
LBB94_86:
	orr	x14, x13, x23, lsl #32
	sub	x11, x11, x13
	str	x11, [x9, x23, lsl #3]
	add	w11, w23, w22
	stp	x27, x25, [x12, #8]
	ubfiz	x12, x11, #3, #32
	add	x9, x9, x12
	stp	x14, x27, [x9]
	ldr	x14, [x24, #72]
	lsr	w9, w11, #3
	and	x15, x9, #0x1ffffff8
	ldr	x16, [x14, x15]
	lsr	w9, w13, #2
	mov	w17, #1
	lsl	x17, x17, x11
	orr	x16, x16, x17
	str	x16, [x14, x15]
	tbnz	w13, #1, LBB94_88
	add	w13, w9, w11
	ldur	x14, [x24, #48]
	add	x13, x14, w13, uxtw #3
	str	w11, [x13, #4]
LBB94_88:
	orr	w13, w9, #0x10
	clz	w13, w13
	mov	w14, #27
	sub	w13, w14, w13
	lsr	w9, w9, w13
	add	w13, w9, w13, lsl #4
	ldr	w14, [x10, w13, uxtw #2]
	str	w11, [x10, w13, uxtw #2]
	ldur	x10, [x24, #48]
	tbnz	w14, #31, LBB94_100
	orr	x8, x14, #0xffffffff00000000
	add	x9, x10, x12
	str	x8, [x9, #16]
	add	x8, x10, x14, lsl #3
	str	w11, [x8, #20]
	b	LBB94_101
LBB94_90:
	add	x10, x10, x12
	mov	x11, #-1
	str	x11, [x10, #16]
	lsr	x10, x13, #5
	ldr	w11, [x24, #104]
	ldr	w12, [x8, x10, lsl #2]
	mov	w13, #1
	lsl	w14, w13, w10
	orr	w11, w11, w14
	str	w11, [x24, #104]
	lsl	w9, w13, w9
	orr	w9, w12, w9
	str	w9, [x8, x10, lsl #2]
LBB94_91:
	mov	x8, x22
LBB94_92:
	stp	x4, x0, [sp, #24]
	str	x1, [sp, #8]
	ldp	w9, w10, [x24, #40]
	add	w8, w9, w8
	cmp	w10, w8
	str	w8, [x24, #40]
	b.hs	LBB94_94
	str	w8, [x24, #44]
LBB94_94:
	ldr	x8, [x24, #32]
	add	x8, x8, #1
	str	x8, [x24, #32]
	ldr	w21, [x24, #24]
	subs	w8, w22, #3
	b.eq	LBB94_96
	ldur	x9, [x24, #48]
	add	w10, w23, #3
	add	x0, x9, w10, uxtw #3
	ubfiz	x1, x8, #3, #32
	bl	_bzero
LBB94_96:
	ldur	x0, [x24, #48]
	add	x8, x0, x28
	ldr	w8, [x8, #16]
	add	x9, x0, x26
	ldr	w9, [x9, #16]
	cmp	w9, w8
	csel	w8, w9, w8, lo
	add	x1, x19, #3
	add	x26, x23, #3
	lsr	x19, x8, #3
	ands	x22, x8, #0x7
	b.eq	LBB94_98
	add	x8, x19, x1
	ldr	x8, [x0, x8, lsl #3]
	str	x8, [sp, #64]
	add	x2, x23, #3
	mov	x3, x19
	bl	_tlsf_words.cells.copy_run
	add	x19, x19, x26
	mov	x26, x25
	ldur	x25, [x24, #48]
	ldr	x8, [x25, x19, lsl #3]
	str	x8, [sp, #72]
	add	x0, sp, #72
	add	x1, sp, #64
	mov	x2, x22
	bl	_tlsf_memory_cpy
	ldr	x8, [sp, #72]
	str	x8, [x25, x19, lsl #3]
	mov	x25, x26
	b	LBB94_99
LBB94_98:
	add	x2, x23, #3
	mov	x3, x19
	bl	_tlsf_words.cells.copy_run
LBB94_99:
	mov	x26, x27
	add	x1, sp, #48
	mov	x0, x20
	bl	_tlsf_heap.heap.Heap.release_live.5
	b	LBB94_110
LBB94_100:
	add	x10, x10, x12
	mov	x11, #-1
	str	x11, [x10, #16]
	lsr	x10, x13, #4
	ldr	w11, [x24, #104]
	ldr	w12, [x8, x10, lsl #2]
	mov	w13, #1
	lsl	w14, w13, w10
	orr	w11, w11, w14
	str	w11, [x24, #104]
	and	w9, w9, #0xf
	lsl	w9, w13, w9
	orr	w9, w12, w9
	str	w9, [x8, x10, lsl #2]
LBB94_101:
	mov	x8, x22
LBB94_102:
	stp	x4, x0, [sp, #24]
	str	x1, [sp, #8]
	ldp	w9, w10, [x24, #40]
	add	w8, w9, w8
	cmp	w10, w8
	str	w8, [x24, #40]
	b.hs	LBB94_104
	str	w8, [x24, #44]
LBB94_104:
	ldr	x8, [x24, #32]
	add	x8, x8, #1
	str	x8, [x24, #32]
	ldr	w21, [x24, #24]
	subs	w8, w22, #3
	b.eq	LBB94_106
	ldur	x9, [x24, #48]
	add	w10, w23, #3
	add	x0, x9, w10, uxtw #3
	ubfiz	x1, x8, #3, #32
	bl	_bzero
LBB94_106:
	ldur	x0, [x24, #48]
	add	x8, x0, x28
	ldr	w8, [x8, #16]
	add	x9, x0, x26
	ldr	w9, [x9, #16]
	cmp	w9, w8
	csel	w8, w9, w8, lo
	add	x1, x19, #3
	add	x26, x23, #3
	lsr	x19, x8, #3
	ands	x22, x8, #0x7
	b.eq	LBB94_108
	add	x8, x19, x1
	ldr	x8, [x0, x8, lsl #3]
	str	x8, [sp, #64]
	add	x2, x23, #3
	mov	x3, x19
	bl	_tlsf_words.cells.copy_run
	add	x19, x19, x26
	mov	x26, x25
	ldur	x25, [x24, #48]
	ldr	x8, [x25, x19, lsl #3]
	str	x8, [sp, #72]
	add	x0, sp, #72
	add	x1, sp, #64
	mov	x2, x22
	bl	_tlsf_memory_cpy
	ldr	x8, [sp, #72]
	str	x8, [x25, x19, lsl #3]
	mov	x25, x26
	b	LBB94_109
LBB94_108:
	add	x2, x23, #3
	mov	x3, x19
	bl	_tlsf_words.cells.copy_run
LBB94_109:
	mov	x26, x27
	add	x1, sp, #48
	mov	x0, x20
	bl	_tlsf_heap.heap.Heap.release_live.4
LBB94_110:
	mov	x19, x23
	ldr	x1, [sp, #8]
	ldp	x4, x0, [sp, #24]
	mov	w8, #1
	strb	w8, [x24]
	add	w8, w25, w4
	sub	w8, w8, #1
	tbz	w8, #3, LBB94_113
LBB94_111:
	ldrb	w8, [x0, #28]
	tbnz	w8, #0, LBB94_113
	mov	w8, #1
	strb	w8, [x0, #28]
LBB94_113:
	mov	w0, #0
	stp	w21, w19, [x1]
	str	x26, [x1, #8]
LBB94_114:
	.cfi_def_cfa wsp, 176
	ldp	x29, x30, [sp, #160]
	ldp	x20, x19, [sp, #144]
	ldp	x22, x21, [sp, #128]
	ldp	x24, x23, [sp, #112]
	ldp	x26, x25, [sp, #96]
	ldp	x28, x27, [sp, #80]
	add	sp, sp, #176
	.cfi_def_cfa_offset 0
	.cfi_restore w30
	.cfi_restore w29
	.cfi_restore w19
	.cfi_restore w20
	.cfi_restore w21
	.cfi_restore w22
	.cfi_restore w23
	.cfi_restore w24
	.cfi_restore w25
	.cfi_restore w26
	.cfi_restore w27
	.cfi_restore w28
	ret
	.loh AdrpAdd	Lloh38, Lloh39
	.loh AdrpAdd	Lloh40, Lloh41
	.loh AdrpAdd	Lloh42, Lloh43
	.cfi_endproc
	.globl	_tlsf_release
	.p2align	2
_tlsf_release:
	.cfi_startproc
	lsr	x3, x1, #32
	b	_tlsf_c.heap_calls.release_named
	.cfi_endproc
	.globl	_tlsf_release_all
	.p2align	2
_tlsf_release_all:
	.cfi_startproc
	stp	x26, x25, [sp, #-80]!
	.cfi_def_cfa_offset 80
	stp	x24, x23, [sp, #16]
	stp	x22, x21, [sp, #32]
	stp	x20, x19, [sp, #48]
	stp	x29, x30, [sp, #64]
	add	x29, sp, #64
	.cfi_def_cfa w29, 16
	.cfi_offset w30, -8
	.cfi_offset w29, -16
	.cfi_offset w19, -24
	.cfi_offset w20, -32
	.cfi_offset w21, -40
	.cfi_offset w22, -48
	.cfi_offset w23, -56
	.cfi_offset w24, -64
	.cfi_offset w25, -72
	.cfi_offset w26, -80
	.cfi_remember_state
	mov	w8, #4096
	cmp	x1, #0
	csel	x8, x8, xzr, eq
	ldrb	w9, [x0, #8]
	cbz	w9, LBB96_7
	ldr	x19, [x0]
	ldrb	w9, [x19]
	tbz	w9, #0, LBB96_7
	strb	wzr, [x19]
	ldrb	w9, [x19, #16]
	cbz	w9, LBB96_5
	cbz	x2, LBB96_44
	add	x20, x19, #192
	add	x21, x19, #108
	add	x8, x8, x1
	add	x22, x8, #8
	mov	w23, #26
	mov	x24, #-1
	mov	w25, #1
	b	LBB96_11
LBB96_5:
	cbz	x2, LBB96_44
	add	x20, x19, #192
	add	x21, x19, #108
	add	x8, x8, x1
	add	x22, x8, #8
	mov	w23, #27
	mov	x24, #-1
	mov	w25, #1
	b	LBB96_29
LBB96_7:
	mov	w0, #0
	.cfi_def_cfa wsp, 80
	ldp	x29, x30, [sp, #64]
	ldp	x20, x19, [sp, #48]
	ldp	x22, x21, [sp, #32]
	ldp	x24, x23, [sp, #16]
	ldp	x26, x25, [sp], #80
	.cfi_def_cfa_offset 0
	.cfi_restore w30
	.cfi_restore w29
	.cfi_restore w19
	.cfi_restore w20
	.cfi_restore w21
	.cfi_restore w22
	.cfi_restore w23
	.cfi_restore w24
	.cfi_restore w25
	.cfi_restore w26
	b	_tlsf_c.call_fault.CallFault.refusal
LBB96_8:
	.cfi_restore_state
	add	x8, x3, #1
	str	x8, [x19, #32]
	add	x0, x19, #48
	mov	x26, x2
	mov	x2, x5
	bl	_tlsf_heap.fitting.merge_next.5
LBB96_9:
	mov	x2, x26
LBB96_10:
	add	x22, x22, #16
	subs	x2, x2, #1
	b.eq	LBB96_44
LBB96_11:
	ldur	w8, [x22, #-8]
	ldr	w9, [x19, #24]
	cmp	w8, w9
	b.ne	LBB96_10
	ldur	w4, [x22, #-4]
	ldr	w8, [x19, #56]
	cmp	w4, w8
	b.hs	LBB96_10
	ldr	x8, [x19, #72]
	lsr	x9, x4, #3
	and	x9, x9, #0x1ffffff8
	ldr	x8, [x8, x9]
	lsr	x8, x8, x4
	tbz	w8, #0, LBB96_10
	ldur	x8, [x19, #48]
	lsl	x9, x4, #3
	add	x10, x8, x9
	ldr	x5, [x10]
	tbnz	w5, #0, LBB96_10
	ldr	x11, [x22]
	ldr	x12, [x10, #8]
	cmp	x12, x11
	b.ne	LBB96_10
	ldr	x3, [x19, #32]
	cmn	x3, #1
	b.eq	LBB96_10
	lsr	w11, w5, #2
	ldr	w12, [x19, #40]
	sub	w12, w12, w11
	str	w12, [x19, #40]
	tbnz	w5, #1, LBB96_19
	add	w12, w11, w4
	ldr	x1, [x8, w12, uxtw #3]
	cbnz	w4, LBB96_20
	b	LBB96_21
LBB96_19:
	mov	x1, #0
	cbz	w4, LBB96_21
LBB96_20:
	lsr	x12, x5, #29
	and	x12, x12, #0x7fffffff8
	ldr	x8, [x8, x12]
	tbnz	w8, #0, LBB96_24
LBB96_21:
	tbnz	w1, #0, LBB96_8
	orr	x8, x5, #0x1
	stp	x8, x3, [x10]
	ldr	x8, [x19, #32]
	add	x8, x8, #1
	str	x8, [x19, #32]
	orr	w8, w11, #0x20
	clz	w8, w8
	sub	w10, w23, w8
	lsr	w8, w11, w10
	add	w10, w8, w10, lsl #5
	ldr	w11, [x20, w10, uxtw #2]
	str	w4, [x20, w10, uxtw #2]
	ldr	x12, [x19, #48]
	tbnz	w11, #31, LBB96_25
	orr	x8, x11, #0xffffffff00000000
	add	x9, x12, x9
	str	x8, [x9, #16]
	add	x8, x12, x11, lsl #3
	str	w4, [x8, #20]
	b	LBB96_10
LBB96_24:
	add	x9, x3, #1
	str	x9, [x19, #32]
	add	x0, x19, #48
	mov	x26, x2
	mov	x2, x8
	bl	_tlsf_heap.fitting.merge_before.5
	b	LBB96_9
LBB96_25:
	add	x9, x12, x9
	str	x24, [x9, #16]
	lsr	x9, x10, #5
	ldr	w10, [x19, #104]
	ldr	w11, [x21, x9, lsl #2]
	lsl	w12, w25, w9
	orr	w10, w10, w12
	str	w10, [x19, #104]
	lsl	w8, w25, w8
	orr	w8, w11, w8
	str	w8, [x21, x9, lsl #2]
	b	LBB96_10
LBB96_26:
	add	x8, x3, #1
	str	x8, [x19, #32]
	add	x0, x19, #48
	mov	x26, x2
	mov	x2, x5
	bl	_tlsf_heap.fitting.merge_next.4
LBB96_27:
	mov	x2, x26
LBB96_28:
	add	x22, x22, #16
	subs	x2, x2, #1
	b.eq	LBB96_44
LBB96_29:
	ldur	w8, [x22, #-8]
	ldr	w9, [x19, #24]
	cmp	w8, w9
	b.ne	LBB96_28
	ldur	w4, [x22, #-4]
	ldr	w8, [x19, #56]
	cmp	w4, w8
	b.hs	LBB96_28
	ldr	x8, [x19, #72]
	lsr	x9, x4, #3
	and	x9, x9, #0x1ffffff8
	ldr	x8, [x8, x9]
	lsr	x8, x8, x4
	tbz	w8, #0, LBB96_28
	ldur	x8, [x19, #48]
	lsl	x9, x4, #3
	add	x10, x8, x9
	ldr	x5, [x10]
	tbnz	w5, #0, LBB96_28
	ldr	x11, [x22]
	ldr	x12, [x10, #8]
	cmp	x12, x11
	b.ne	LBB96_28
	ldr	x3, [x19, #32]
	cmn	x3, #1
	b.eq	LBB96_28
	lsr	w11, w5, #2
	ldr	w12, [x19, #40]
	sub	w12, w12, w11
	str	w12, [x19, #40]
	tbnz	w5, #1, LBB96_37
	add	w12, w11, w4
	ldr	x1, [x8, w12, uxtw #3]
	cbnz	w4, LBB96_38
	b	LBB96_39
LBB96_37:
	mov	x1, #0
	cbz	w4, LBB96_39
LBB96_38:
	lsr	x12, x5, #29
	and	x12, x12, #0x7fffffff8
	ldr	x8, [x8, x12]
	tbnz	w8, #0, LBB96_42
LBB96_39:
	tbnz	w1, #0, LBB96_26
	orr	x8, x5, #0x1
	stp	x8, x3, [x10]
	ldr	x8, [x19, #32]
	add	x8, x8, #1
	str	x8, [x19, #32]
	orr	w8, w11, #0x10
	clz	w8, w8
	sub	w10, w23, w8
	lsr	w8, w11, w10
	add	w10, w8, w10, lsl #4
	ldr	w11, [x20, w10, uxtw #2]
	str	w4, [x20, w10, uxtw #2]
	ldr	x12, [x19, #48]
	tbnz	w11, #31, LBB96_43
	orr	x8, x11, #0xffffffff00000000
	add	x9, x12, x9
	str	x8, [x9, #16]
	add	x8, x12, x11, lsl #3
	str	w4, [x8, #20]
	b	LBB96_28
LBB96_42:
	add	x9, x3, #1
	str	x9, [x19, #32]
	add	x0, x19, #48
	mov	x26, x2
	mov	x2, x8
	bl	_tlsf_heap.fitting.merge_before.4
	b	LBB96_27
LBB96_43:
	add	x9, x12, x9
	str	x24, [x9, #16]
	lsr	x9, x10, #4
	ldr	w10, [x19, #104]
	ldr	w11, [x21, x9, lsl #2]
	lsl	w12, w25, w9
	orr	w10, w10, w12
	str	w10, [x19, #104]
	and	w8, w8, #0xf
	lsl	w8, w25, w8
	orr	w8, w11, w8
	str	w8, [x21, x9, lsl #2]
	b	LBB96_28
LBB96_44:
	mov	w8, #1
	strb	w8, [x19]
	mov	w0, #0
	.cfi_def_cfa wsp, 80
	ldp	x29, x30, [sp, #64]
	ldp	x20, x19, [sp, #48]
	ldp	x22, x21, [sp, #32]
	ldp	x24, x23, [sp, #16]
	ldp	x26, x25, [sp], #80
	.cfi_def_cfa_offset 0
	.cfi_restore w30
	.cfi_restore w29
	.cfi_restore w19
	.cfi_restore w20
	.cfi_restore w21
	.cfi_restore w22
	.cfi_restore w23
	.cfi_restore w24
	.cfi_restore w25
	.cfi_restore w26
	ret
	.cfi_endproc
	.globl	_tlsf_release_place
	.p2align	2
_tlsf_release_place:
	.cfi_startproc
	stp	x20, x19, [sp, #-32]!
	.cfi_def_cfa_offset 32
	stp	x29, x30, [sp, #16]
	add	x29, sp, #16
	.cfi_def_cfa w29, 16
	.cfi_offset w30, -8
	.cfi_offset w29, -16
	.cfi_offset w19, -24
	.cfi_offset w20, -32
	.cfi_remember_state
	ldrb	w8, [x0, #8]
	cbz	w8, LBB97_22
	ldr	x19, [x0]
	ldrb	w8, [x19]
	tbz	w8, #0, LBB97_22
	mov	x4, x1
	strb	wzr, [x19]
	ldrb	w9, [x19, #16]
	ldr	w8, [x19, #56]
	cmp	w1, w8
	cbz	w9, LBB97_9
	b.hs	LBB97_16
	ldr	x8, [x19, #72]
	lsr	w9, w4, #3
	and	x9, x9, #0x1ffffff8
	ldr	x8, [x8, x9]
	lsr	x8, x8, x4
	tbz	w8, #0, LBB97_16
	ldur	x11, [x19, #48]
	ubfiz	x8, x4, #3, #32
	add	x9, x11, x8
	ldr	x5, [x9]
	tbnz	w5, #0, LBB97_16
	ldr	x3, [x19, #32]
	cmn	x3, #1
	b.eq	LBB97_15
	lsr	w10, w5, #2
	ldr	w12, [x19, #40]
	sub	w12, w12, w10
	str	w12, [x19, #40]
	tbnz	w5, #1, LBB97_17
	add	w12, w10, w4
	ldr	x1, [x11, w12, uxtw #3]
	cbnz	w4, LBB97_18
	b	LBB97_19
LBB97_9:
	b.hs	LBB97_16
	ldr	x8, [x19, #72]
	lsr	w9, w4, #3
	and	x9, x9, #0x1ffffff8
	ldr	x8, [x8, x9]
	lsr	x8, x8, x4
	tbz	w8, #0, LBB97_16
	ldur	x11, [x19, #48]
	ubfiz	x8, x4, #3, #32
	add	x9, x11, x8
	ldr	x5, [x9]
	tbnz	w5, #0, LBB97_16
	ldr	x3, [x19, #32]
	cmn	x3, #1
	b.eq	LBB97_15
	lsr	w10, w5, #2
	ldr	w12, [x19, #40]
	sub	w12, w12, w10
	str	w12, [x19, #40]
	tbnz	w5, #1, LBB97_25
	add	w12, w10, w4
	ldr	x1, [x11, w12, uxtw #3]
	cbnz	w4, LBB97_26
	b	LBB97_27
LBB97_15:
	mov	w0, #2
	b	LBB97_34
LBB97_16:
	ldr	w0, [x19, #24]
	mov	x1, x0
	bl	_tlsf_heap.refusal.Refusal.of_name
	and	w8, w0, #0xff
	cmp	w8, #3
	mov	w8, #3
	cinc	w0, w8, eq
	b	LBB97_34
LBB97_17:
	mov	x1, #0
	cbz	w4, LBB97_19
LBB97_18:
	lsr	x12, x5, #29
	and	x12, x12, #0x7fffffff8
	ldr	x2, [x11, x12]
	tbnz	w2, #0, LBB97_24
LBB97_19:
	tbnz	w1, #0, LBB97_23
	orr	x11, x5, #0x1
	stp	x11, x3, [x9]
	ldr	x9, [x19, #32]
	add	x9, x9, #1
	str	x9, [x19, #32]
	orr	w9, w10, #0x20
	clz	w9, w9
	mov	w11, #26
	sub	w11, w11, w9
	lsr	w9, w10, w11
	add	w10, w9, w11, lsl #5
	add	x11, x19, w10, uxtw #2
	ldr	w12, [x11, #192]
	str	w4, [x11, #192]
	ldr	x11, [x19, #48]
	tbz	w12, #31, LBB97_29
	mov	w0, #0
	add	x8, x11, x8
	mov	x11, #-1
	str	x11, [x8, #16]
	lsr	x8, x10, #5
	ldr	w10, [x19, #104]
	add	x11, x19, x8, lsl #2
	mov	w12, #1
	lsl	w8, w12, w8
	orr	w8, w10, w8
	ldr	w10, [x11, #108]
	str	w8, [x19, #104]
	lsl	w8, w12, w9
	b	LBB97_33
LBB97_22:
	mov	w0, #0
	.cfi_def_cfa wsp, 32
	ldp	x29, x30, [sp, #16]
	ldp	x20, x19, [sp], #32
	.cfi_def_cfa_offset 0
	.cfi_restore w30
	.cfi_restore w29
	.cfi_restore w19
	.cfi_restore w20
	b	_tlsf_c.call_fault.CallFault.refusal
LBB97_23:
	.cfi_restore_state
	add	x8, x3, #1
	str	x8, [x19, #32]
	add	x0, x19, #48
	mov	x2, x5
	bl	_tlsf_heap.fitting.merge_next.5
	mov	w0, #0
	b	LBB97_34
LBB97_24:
	add	x8, x3, #1
	str	x8, [x19, #32]
	add	x0, x19, #48
	bl	_tlsf_heap.fitting.merge_before.5
	mov	w0, #0
	b	LBB97_34
LBB97_25:
	mov	x1, #0
	cbz	w4, LBB97_27
LBB97_26:
	lsr	x12, x5, #29
	and	x12, x12, #0x7fffffff8
	ldr	x2, [x11, x12]
	tbnz	w2, #0, LBB97_31
LBB97_27:
	tbnz	w1, #0, LBB97_30
	orr	x11, x5, #0x1
	stp	x11, x3, [x9]
	ldr	x9, [x19, #32]
	add	x9, x9, #1
	str	x9, [x19, #32]
	orr	w9, w10, #0x10
	clz	w9, w9
	mov	w11, #27
	sub	w11, w11, w9
	lsr	w9, w10, w11
	add	w10, w9, w11, lsl #4
	add	x11, x19, w10, uxtw #2
	ldr	w12, [x11, #192]
	str	w4, [x11, #192]
	ldr	x11, [x19, #48]
	tbnz	w12, #31, LBB97_32
LBB97_29:
	mov	w0, #0
	mov	w9, w4
	orr	x10, x12, #0xffffffff00000000
	add	x8, x11, x8
	str	x10, [x8, #16]
	add	x8, x11, x12, lsl #3
	str	w9, [x8, #20]
	b	LBB97_34
LBB97_30:
	add	x8, x3, #1
	str	x8, [x19, #32]
	add	x0, x19, #48
	mov	x2, x5
	bl	_tlsf_heap.fitting.merge_next.4
	mov	w0, #0
	b	LBB97_34
LBB97_31:
	add	x8, x3, #1
	str	x8, [x19, #32]
	add	x0, x19, #48
	bl	_tlsf_heap.fitting.merge_before.4
	mov	w0, #0
	b	LBB97_34
LBB97_32:
	mov	w0, #0
	add	x8, x11, x8
	mov	x11, #-1
	str	x11, [x8, #16]
	lsr	x8, x10, #4
	ldr	w10, [x19, #104]
	add	x11, x19, x8, lsl #2
	mov	w12, #1
	lsl	w8, w12, w8
	orr	w8, w10, w8
	ldr	w10, [x11, #108]
	str	w8, [x19, #104]
	and	w8, w9, #0xf
	lsl	w8, w12, w8
LBB97_33:
	orr	w8, w10, w8
	str	w8, [x11, #108]
LBB97_34:
	mov	w8, #1
	strb	w8, [x19]
	.cfi_def_cfa wsp, 32
	ldp	x29, x30, [sp, #16]
	ldp	x20, x19, [sp], #32
	.cfi_def_cfa_offset 0
	.cfi_restore w30
	.cfi_restore w29
	.cfi_restore w19
	.cfi_restore w20
	ret
	.cfi_endproc
	.globl	_tlsf_report
	.p2align	2
_tlsf_report:
	.cfi_startproc
	ldrb	w8, [x0, #8]
	cbz	w8, LBB98_10
	ldr	x8, [x0]
	ldrb	w9, [x8]
	cmp	w9, #1
	b.ne	LBB98_10
	strb	wzr, [x8]
	ldrb	w10, [x8, #16]
	ldr	x9, [x8, #32]
	ldr	w17, [x8, #56]
	cbz	w10, LBB98_11
	cbz	w17, LBB98_20
	mov	w0, #0
	mov	w10, #0
	mov	w15, #0
	mov	w12, #0
	mov	w11, #0
	mov	w13, #0
	mov	w14, #0
	ldr	x2, [x8, #48]
	mov	x16, x9
	b	LBB98_6
LBB98_5:
	ldr	w4, [x4, #16]
	add	w14, w14, #1
	add	w13, w3, w13
	add	w11, w11, w4
	add	w0, w3, w0
	cmp	w0, w17
	b.hs	LBB98_8
LBB98_6:
	add	x4, x2, w0, uxtw #3
	ldr	x5, [x4]
	lsr	w3, w5, #2
	tbz	w5, #0, LBB98_5
	add	w12, w12, #1
	add	w15, w3, w15
	ldr	x4, [x4, #8]
	cmp	w3, w10
	csel	w10, w3, w10, hi
	cmp	x4, x16
	csel	x16, x4, x16, lo
	add	w0, w3, w0
	cmp	w0, w17
	b.lo	LBB98_6
LBB98_8:
	cbz	w10, LBB98_21
	orr	w17, w10, #0x20
	clz	w17, w17
	mov	w0, #26
	sub	w17, w0, w17
	lsr	w0, w10, w17
	add	w17, w0, w17, lsl #5
	lsr	w2, w17, #5
	mov	w3, #16
	lsl	w3, w3, w2
	and	w0, w0, #0x1f
	b	LBB98_18
LBB98_10:
	mov	w0, #32
	ret
LBB98_11:
	cbz	w17, LBB98_20
	mov	w0, #0
	mov	w10, #0
	mov	w15, #0
	mov	w12, #0
	mov	w11, #0
	mov	w13, #0
	mov	w14, #0
	ldr	x2, [x8, #48]
	mov	x16, x9
	b	LBB98_14
LBB98_13:
	ldr	w4, [x4, #16]
	add	w14, w14, #1
	add	w13, w3, w13
	add	w11, w11, w4
	add	w0, w3, w0
	cmp	w0, w17
	b.hs	LBB98_16
LBB98_14:
	add	x4, x2, w0, uxtw #3
	ldr	x5, [x4]
	lsr	w3, w5, #2
	tbz	w5, #0, LBB98_13
	add	w12, w12, #1
	add	w15, w3, w15
	ldr	x4, [x4, #8]
	cmp	w3, w10
	csel	w10, w3, w10, hi
	cmp	x4, x16
	csel	x16, x4, x16, lo
	add	w0, w3, w0
	cmp	w0, w17
	b.lo	LBB98_14
LBB98_16:
	cbz	w10, LBB98_21
	orr	w17, w10, #0x10
	clz	w17, w17
	mov	w0, #27
	sub	w17, w0, w17
	lsr	w0, w10, w17
	add	w17, w0, w17, lsl #4
	lsr	w2, w17, #4
	mov	w3, #8
	lsl	w3, w3, w2
	and	w0, w0, #0xf
LBB98_18:
	sub	w4, w2, #1
	lsl	w0, w0, w4
	add	w0, w0, w3
	cmp	w2, #0
	csel	w17, w17, w0, eq
	lsl	w17, w17, #3
	sub	w17, w17, #24
	cbz	w15, LBB98_22
LBB98_19:
	mov	w0, w15
	mov	w2, #1000
	umull	x3, w10, w2
	udiv	x0, x3, x0
	sub	w2, w2, w0
	b	LBB98_23
LBB98_20:
	mov	w13, #0
	mov	w11, #0
	mov	w14, #0
	mov	w12, #0
	mov	w15, #0
	mov	w10, #0
	mov	w2, #0
	mov	x16, x9
	b	LBB98_23
LBB98_21:
	mov	w17, #0
	cbnz	w15, LBB98_19
LBB98_22:
	mov	w2, #0
LBB98_23:
	mov	w0, #0
	lsl	w3, w13, #3
	sub	w3, w3, w11
	stp	w14, w13, [x1]
	sub	x9, x9, x16
	stp	w11, w12, [x1, #8]
	stp	w15, w10, [x1, #16]
	stp	w17, w2, [x1, #24]
	stp	w3, wzr, [x1, #32]
	str	x9, [x1, #40]
	mov	w9, #1
	strb	w9, [x8]
	ret
	.cfi_endproc
	.globl	_tlsf_reset
	.p2align	2
_tlsf_reset:
	.cfi_startproc
	ldrb	w8, [x0, #8]
	cbz	w8, LBB99_8
	stp	x22, x21, [sp, #-48]!
	.cfi_def_cfa_offset 48
	stp	x20, x19, [sp, #16]
	stp	x29, x30, [sp, #32]
	add	x29, sp, #32
	.cfi_def_cfa w29, 16
	.cfi_offset w30, -8
	.cfi_offset w29, -16
	.cfi_offset w19, -24
	.cfi_offset w20, -32
	.cfi_offset w21, -40
	.cfi_offset w22, -48
	.cfi_remember_state
	ldr	x19, [x0]
	ldrb	w8, [x19]
	cmp	w8, #1
	b.ne	LBB99_9
	strb	wzr, [x19]
	ldrb	w8, [x19, #16]
	ldr	x20, [x19, #32]
	cmn	x20, #1
	cbz	w8, LBB99_10
	b.eq	LBB99_15
	ldr	x8, [x19, #80]
	cbz	x8, LBB99_6
	ldr	x0, [x19, #72]
	lsl	x1, x8, #3
	bl	_bzero
LBB99_6:
	add	x21, x19, #192
	add	x0, x19, #192
	mov	w1, #255
	mov	w2, #2564
	bl	_tlsf_memory_set
	movi.2d	v0, #0000000000000000
	stur	q0, [x19, #104]
	stur	q0, [x19, #120]
	stur	q0, [x19, #136]
	stur	q0, [x19, #152]
	stur	q0, [x19, #168]
	str	xzr, [x19, #184]
	ldp	x11, x10, [x19, #48]
	orr	w8, w10, #0x20
	clz	w8, w8
	mov	w9, #26
	sub	w9, w9, w8
	lsr	w8, w10, w9
	add	w9, w8, w9, lsl #5
	lsl	x10, x10, #2
	orr	x10, x10, #0xffffffff00000003
	stp	x10, x20, [x11]
	ldr	x10, [x19, #72]
	ldr	x11, [x10]
	orr	x11, x11, #0x1
	str	x11, [x10]
	ldr	w10, [x21, w9, uxtw #2]
	str	wzr, [x21, w9, uxtw #2]
	ldr	x11, [x19, #48]
	tbz	w10, #31, LBB99_14
	mov	x10, #-1
	str	x10, [x11, #16]
	lsr	x9, x9, #5
	ldr	w10, [x19, #104]
	add	x11, x19, x9, lsl #2
	ldr	w12, [x11, #108]
	mov	w13, #1
	lsl	w9, w13, w9
	orr	w9, w10, w9
	str	w9, [x19, #104]
	b	LBB99_17
LBB99_8:
	.cfi_def_cfa wsp, 0
	.cfi_same_value w30
	.cfi_same_value w29
	.cfi_same_value w19
	.cfi_same_value w20
	.cfi_same_value w21
	.cfi_same_value w22
	mov	w0, #32
	ret
LBB99_9:
	.cfi_restore_state
	mov	w0, #32
	b	LBB99_20
LBB99_10:
	b.eq	LBB99_15
	ldr	x8, [x19, #80]
	cbz	x8, LBB99_13
	ldr	x0, [x19, #72]
	lsl	x1, x8, #3
	bl	_bzero
LBB99_13:
	add	x21, x19, #192
	add	x0, x19, #192
	mov	w1, #255
	mov	w2, #2564
	bl	_tlsf_memory_set
	movi.2d	v0, #0000000000000000
	stur	q0, [x19, #104]
	stur	q0, [x19, #120]
	stur	q0, [x19, #136]
	stur	q0, [x19, #152]
	stur	q0, [x19, #168]
	str	xzr, [x19, #184]
	ldp	x11, x10, [x19, #48]
	orr	w8, w10, #0x10
	clz	w8, w8
	mov	w9, #27
	sub	w9, w9, w8
	lsr	w8, w10, w9
	add	w9, w8, w9, lsl #4
	lsl	x10, x10, #2
	orr	x10, x10, #0xffffffff00000003
	stp	x10, x20, [x11]
	ldr	x10, [x19, #72]
	ldr	x11, [x10]
	orr	x11, x11, #0x1
	str	x11, [x10]
	ldr	w10, [x21, w9, uxtw #2]
	str	wzr, [x21, w9, uxtw #2]
	ldr	x11, [x19, #48]
	tbnz	w10, #31, LBB99_16
LBB99_14:
	orr	x8, x10, #0xffffffff00000000
	str	x8, [x11, #16]
	add	x8, x11, x10, lsl #3
	ldr	w9, [x8, #16]
	str	x9, [x8, #16]
	b	LBB99_18
LBB99_15:
	mov	w0, #2
	b	LBB99_19
LBB99_16:
	mov	x10, #-1
	str	x10, [x11, #16]
	lsr	x9, x9, #4
	ldr	w10, [x19, #104]
	add	x11, x19, x9, lsl #2
	ldr	w12, [x11, #108]
	mov	w13, #1
	lsl	w9, w13, w9
	orr	w9, w10, w9
	str	w9, [x19, #104]
	and	w8, w8, #0xf
LBB99_17:
	lsl	w8, w13, w8
	orr	w8, w12, w8
	str	w8, [x11, #108]
LBB99_18:
	mov	w0, #0
	str	wzr, [x19, #40]
	ldr	x8, [x19, #32]
	add	x8, x8, #1
	str	x8, [x19, #32]
LBB99_19:
	mov	w8, #1
	strb	w8, [x19]
LBB99_20:
	.cfi_def_cfa wsp, 48
	ldp	x29, x30, [sp, #32]
	ldp	x20, x19, [sp, #16]
	ldp	x22, x21, [sp], #48
	.cfi_def_cfa_offset 0
	.cfi_restore w30
	.cfi_restore w29
	.cfi_restore w19
	.cfi_restore w20
	.cfi_restore w21
	.cfi_restore w22
	ret
	.cfi_endproc
	.globl	_tlsf_resize
	.p2align	2
_tlsf_resize:
	.cfi_startproc
	sub	sp, sp, #128
	.cfi_def_cfa_offset 128
	stp	x28, x27, [sp, #32]
	stp	x26, x25, [sp, #48]
	stp	x24, x23, [sp, #64]
	stp	x22, x21, [sp, #80]
	stp	x20, x19, [sp, #96]
	stp	x29, x30, [sp, #112]
	add	x29, sp, #112
	.cfi_def_cfa w29, 16
	.cfi_offset w30, -8
	.cfi_offset w29, -16
	.cfi_offset w19, -24
	.cfi_offset w20, -32
	.cfi_offset w21, -40
	.cfi_offset w22, -48
	.cfi_offset w23, -56
	.cfi_offset w24, -64
	.cfi_offset w25, -72
	.cfi_offset w26, -80
	.cfi_offset w27, -88
	.cfi_offset w28, -96
	.cfi_remember_state
	ldrb	w8, [x0, #8]
	cbz	w8, LBB100_48
	mov	x19, x0
	ldr	x24, [x0]
	ldrb	w8, [x24]
	tbz	w8, #0, LBB100_48
	lsr	x21, x1, #32
	mov	w8, #-1
	cmp	x3, x8
	csel	x25, x3, x8, lo
	strb	wzr, [x24]
	ldrb	w9, [x24, #16]
	cmp	x3, #0
	cinc	x8, x25, eq
	add	x8, x8, #31
	lsr	x20, x8, #3
	ldr	w8, [x24, #24]
	cmp	w8, w1
	cbz	w9, LBB100_15
	b.ne	LBB100_26
	ldr	w9, [x24, #56]
	mov	x8, x1
	cmp	w21, w9
	b.hs	LBB100_26
	ldr	x8, [x24, #72]
	lsr	x9, x1, #35
	and	x9, x9, #0x1ffffff8
	ldr	x8, [x8, x9]
	lsr	x9, x8, x21
	mov	x8, x1
	tbz	w9, #0, LBB100_26
	ldur	x9, [x24, #48]
	lsl	x27, x21, #3
	add	x10, x9, x27
	ldr	x22, [x10]
	mov	x8, x1
	tbnz	w22, #0, LBB100_26
	ldr	x11, [x10, #8]
	mov	x8, x1
	cmp	x11, x2
	b.ne	LBB100_26
	lsr	w26, w22, #2
	cmp	w26, w20
	b.hs	LBB100_27
	tbnz	w22, #1, LBB100_11
	add	w8, w26, w21
	ldr	x3, [x9, w8, uxtw #3]
	tbnz	w3, #0, LBB100_12
LBB100_11:
	mov	x3, #0
LBB100_12:
	add	w8, w26, w3, lsr #2
	cmp	w8, w20
	b.lo	LBB100_25
	ldr	x5, [x24, #32]
	cmn	x5, #1
	b.eq	LBB100_59
	add	x0, x24, #48
	mov	x1, x21
	mov	x2, x22
	mov	x4, x20
	bl	_tlsf_heap.refitting.recut.5
	b	LBB100_52
LBB100_15:
	b.ne	LBB100_26
	ldr	w9, [x24, #56]
	mov	x8, x1
	cmp	w21, w9
	b.hs	LBB100_26
	ldr	x8, [x24, #72]
	lsr	x9, x1, #35
	and	x9, x9, #0x1ffffff8
	ldr	x8, [x8, x9]
	lsr	x9, x8, x21
	mov	x8, x1
	tbz	w9, #0, LBB100_26
	ldur	x9, [x24, #48]
	lsl	x27, x21, #3
	add	x10, x9, x27
	ldr	x22, [x10]
	mov	x8, x1
	tbnz	w22, #0, LBB100_26
	ldr	x11, [x10, #8]
	mov	x8, x1
	cmp	x11, x2
	b.ne	LBB100_26
	lsr	w26, w22, #2
	cmp	w26, w20
	b.hs	LBB100_35
	tbnz	w22, #1, LBB100_23
	add	w8, w26, w21
	ldr	x3, [x9, w8, uxtw #3]
	tbnz	w3, #0, LBB100_24
LBB100_23:
	mov	x3, #0
LBB100_24:
	add	w8, w26, w3, lsr #2
	cmp	w8, w20
	b.hs	LBB100_50
LBB100_25:
	mov	w8, #1
	strb	w8, [x24]
	mov	w0, #10
	b	LBB100_60
LBB100_26:
	mov	x0, x1
	mov	x1, x8
	bl	_tlsf_heap.refusal.Refusal.of_name
	and	w8, w0, #0xff
	mov	w9, #1
	strb	w9, [x24]
	cmp	w8, #3
	mov	w8, #3
	cinc	w0, w8, eq
	b	LBB100_60
LBB100_27:
	ldr	x23, [x24, #32]
	cmn	x23, #1
	b.eq	LBB100_59
	ldr	x28, [x10, #16]
	str	x25, [x10, #16]
	cmp	w25, w28
	b.ls	LBB100_33
	ands	w9, w28, #0x7
	b.eq	LBB100_31
	mov	w8, w28
	ldur	x12, [x24, #48]
	str	x12, [sp, #8]
	str	w9, [sp, #20]
	add	x9, x27, x8
	add	x9, x9, #24
	and	x10, x8, #0x7
	and	x27, x9, #0x1ffffffff8
Lloh44:
	adrp	x9, l_static.0@PAGE
Lloh45:
	add	x9, x9, l_static.0@PAGEOFF
	mov	w11, #8
	sub	x2, x11, x10
	ldr	x11, [x12, x27]
	str	x11, [sp, #24]
	add	x0, sp, #24
	bfxil	x0, x8, #0, #3
	add	x1, x9, x10
	bl	_tlsf_memory_cpy
	ldr	w9, [sp, #20]
	ldr	x8, [sp, #24]
	ldr	x10, [sp, #8]
	str	x8, [x10, x27]
LBB100_31:
	lsr	w8, w28, #3
	cmp	w9, #0
	cinc	w8, w8, ne
	lsr	w9, w25, #3
	tst	w25, #0x7
	cinc	w9, w9, ne
	subs	w9, w9, w8
	b.eq	LBB100_33
	ldur	x10, [x24, #48]
	add	w8, w21, w8
	add	w8, w8, #3
	add	x0, x10, w8, uxtw #3
	ubfiz	x1, x9, #3, #32
	bl	_bzero
LBB100_33:
	add	w9, w20, #4
	mov	x8, x26
	cmp	w26, w9
	b.lo	LBB100_44
	add	x0, x24, #48
	mov	x1, x21
	mov	x2, x22
	mov	x3, x20
	mov	x4, x23
	bl	_tlsf_heap.refitting.split_off.5
	b	LBB100_43
LBB100_35:
	ldr	x23, [x24, #32]
	cmn	x23, #1
	b.eq	LBB100_59
	ldr	x28, [x10, #16]
	str	x25, [x10, #16]
	cmp	w25, w28
	b.ls	LBB100_41
	ands	w9, w28, #0x7
	b.eq	LBB100_39
	mov	w8, w28
	ldur	x12, [x24, #48]
	str	x12, [sp, #8]
	str	w9, [sp, #20]
	add	x9, x27, x8
	add	x9, x9, #24
	and	x10, x8, #0x7
	and	x27, x9, #0x1ffffffff8
Lloh46:
	adrp	x9, l_static.0@PAGE
Lloh47:
	add	x9, x9, l_static.0@PAGEOFF
	mov	w11, #8
	sub	x2, x11, x10
	ldr	x11, [x12, x27]
	str	x11, [sp, #24]
	add	x0, sp, #24
	bfxil	x0, x8, #0, #3
	add	x1, x9, x10
	bl	_tlsf_memory_cpy
	ldr	w9, [sp, #20]
	ldr	x8, [sp, #24]
	ldr	x10, [sp, #8]
	str	x8, [x10, x27]
LBB100_39:
	lsr	w8, w28, #3
	cmp	w9, #0
	cinc	w8, w8, ne
	lsr	w9, w25, #3
	tst	w25, #0x7
	cinc	w9, w9, ne
	subs	w9, w9, w8
	b.eq	LBB100_41
	ldur	x10, [x24, #48]
	add	w8, w21, w8
	add	w8, w8, #3
	add	x0, x10, w8, uxtw #3
	ubfiz	x1, x9, #3, #32
	bl	_bzero
LBB100_41:
	add	w9, w20, #4
	mov	x8, x26
	cmp	w26, w9
	b.lo	LBB100_44
	add	x0, x24, #48
	mov	x1, x21
	mov	x2, x22
	mov	x3, x20
	mov	x4, x23
	bl	_tlsf_heap.refitting.split_off.4
LBB100_43:
	mov	x8, x20
LBB100_44:
	ldr	w9, [x24, #40]
	sub	w8, w8, w26
	add	w8, w8, w9
	str	w8, [x24, #40]
LBB100_45:
	ldr	x8, [x24, #32]
	add	x8, x8, #1
	str	x8, [x24, #32]
	mov	w8, #1
	strb	w8, [x24]
	tbz	w20, #0, LBB100_47
	ldrb	w8, [x19, #28]
	tbz	w8, #0, LBB100_49
LBB100_47:
	mov	w0, #0
	b	LBB100_60
LBB100_48:
	mov	w0, #0
	.cfi_def_cfa wsp, 128
	ldp	x29, x30, [sp, #112]
	ldp	x20, x19, [sp, #96]
	ldp	x22, x21, [sp, #80]
	ldp	x24, x23, [sp, #64]
	ldp	x26, x25, [sp, #48]
	ldp	x28, x27, [sp, #32]
	add	sp, sp, #128
	.cfi_def_cfa_offset 0
	.cfi_restore w30
	.cfi_restore w29
	.cfi_restore w19
	.cfi_restore w20
	.cfi_restore w21
	.cfi_restore w22
	.cfi_restore w23
	.cfi_restore w24
	.cfi_restore w25
	.cfi_restore w26
	.cfi_restore w27
	.cfi_restore w28
	b	_tlsf_c.call_fault.CallFault.refusal
LBB100_49:
	.cfi_restore_state
	mov	w0, #0
	mov	w8, #1
	strb	w8, [x19, #28]
	b	LBB100_60
LBB100_50:
	ldr	x5, [x24, #32]
	cmn	x5, #1
	b.eq	LBB100_59
	add	x0, x24, #48
	mov	x1, x21
	mov	x2, x22
	mov	x4, x20
	bl	_tlsf_heap.refitting.recut.4
LBB100_52:
	mov	x22, x0
	ldur	x8, [x24, #48]
	add	x8, x8, x27
	ldr	x23, [x8, #16]
	str	x25, [x8, #16]
	cmp	w25, w23
	b.ls	LBB100_57
	ands	w9, w23, #0x7
	b.eq	LBB100_55
	mov	w8, w23
	ldur	x28, [x24, #48]
	str	w9, [sp, #20]
	add	x9, x27, x8
	add	x9, x9, #24
	and	x10, x8, #0x7
	and	x27, x9, #0x1ffffffff8
Lloh48:
	adrp	x9, l_static.0@PAGE
Lloh49:
	add	x9, x9, l_static.0@PAGEOFF
	mov	w11, #8
	sub	x2, x11, x10
	ldr	x11, [x28, x27]
	str	x11, [sp, #24]
	add	x0, sp, #24
	bfxil	x0, x8, #0, #3
	add	x1, x9, x10
	bl	_tlsf_memory_cpy
	ldr	w9, [sp, #20]
	ldr	x8, [sp, #24]
	str	x8, [x28, x27]
LBB100_55:
	lsr	w8, w23, #3
	cmp	w9, #0
	cinc	w8, w8, ne
	lsr	w9, w25, #3
	tst	w25, #0x7
	cinc	w9, w9, ne
	subs	w9, w9, w8
	b.eq	LBB100_57
	ldur	x10, [x24, #48]
	add	w8, w21, w8
	add	w8, w8, #3
	add	x0, x10, w8, uxtw #3
	ubfiz	x1, x9, #3, #32
	bl	_bzero
LBB100_57:
	ldp	w8, w9, [x24, #40]
	sub	w10, w22, w26
	add	w8, w8, w10
	str	w8, [x24, #40]
	cmp	w9, w8
	b.hs	LBB100_45
	str	w8, [x24, #44]
	b	LBB100_45
LBB100_59:
	mov	w8, #1
	strb	w8, [x24]
	mov	w0, #2
LBB100_60:
	.cfi_def_cfa wsp, 128
	ldp	x29, x30, [sp, #112]
	ldp	x20, x19, [sp, #96]
	ldp	x22, x21, [sp, #80]
	ldp	x24, x23, [sp, #64]
	ldp	x26, x25, [sp, #48]
	ldp	x28, x27, [sp, #32]
	add	sp, sp, #128
	.cfi_def_cfa_offset 0
	.cfi_restore w30
	.cfi_restore w29
	.cfi_restore w19
	.cfi_restore w20
	.cfi_restore w21
	.cfi_restore w22
	.cfi_restore w23
	.cfi_restore w24
	.cfi_restore w25
	.cfi_restore w26
	.cfi_restore w27
	.cfi_restore w28
	ret
	.loh AdrpAdd	Lloh44, Lloh45
	.loh AdrpAdd	Lloh46, Lloh47
	.loh AdrpAdd	Lloh48, Lloh49
	.cfi_endproc
	.globl	_tlsf_resize_place
	.p2align	2
_tlsf_resize_place:
	.cfi_startproc
	sub	sp, sp, #112
	.cfi_def_cfa_offset 112
	stp	x26, x25, [sp, #32]
	stp	x24, x23, [sp, #48]
	stp	x22, x21, [sp, #64]
	stp	x20, x19, [sp, #80]
	stp	x29, x30, [sp, #96]
	add	x29, sp, #96
	.cfi_def_cfa w29, 16
	.cfi_offset w30, -8
	.cfi_offset w29, -16
	.cfi_offset w19, -24
	.cfi_offset w20, -32
	.cfi_offset w21, -40
	.cfi_offset w22, -48
	.cfi_offset w23, -56
	.cfi_offset w24, -64
	.cfi_offset w25, -72
	.cfi_offset w26, -80
	.cfi_remember_state
	ldrb	w8, [x0, #8]
	cbz	w8, LBB101_28
	ldr	x21, [x0]
	ldrb	w8, [x21]
	tbz	w8, #0, LBB101_28
	mov	w8, #-1
	cmp	x2, x8
	csel	x22, x2, x8, lo
	strb	wzr, [x21]
	ldrb	w9, [x21, #16]
	ldr	w8, [x21, #56]
	cmp	w1, w8
	cbz	w9, LBB101_15
	b.hs	LBB101_26
	ldr	x8, [x21, #72]
	lsr	w9, w1, #3
	and	x9, x9, #0x1ffffff8
	ldr	x8, [x8, x9]
	lsr	x8, x8, x1
	tbz	w8, #0, LBB101_26
	ldur	x10, [x21, #48]
	ubfiz	x23, x1, #3, #32
	add	x11, x10, x23
	ldr	x8, [x11]
	tbnz	w8, #0, LBB101_26
	ldr	w9, [x11, #16]
	cmp	w22, w9
	csel	w20, w22, w9, lo
	cmp	x2, #0
	cinc	x9, x22, eq
	add	x12, x9, #31
	lsr	x19, x12, #3
	lsr	w24, w8, #2
	cmp	w24, w19
	b.hs	LBB101_29
	tbnz	w8, #1, LBB101_9
	add	w9, w24, w1
	ldr	x9, [x10, w9, uxtw #3]
	tbnz	w9, #0, LBB101_10
LBB101_9:
	mov	x9, #0
LBB101_10:
	add	w13, w24, w9, lsr #2
	cmp	w13, w19
	b.hs	LBB101_37
	ldr	x8, [x11, #8]
	ldur	w9, [x21, #24]
	stp	w9, w1, [sp]
	str	x8, [sp, #8]
	ldr	x11, [x21, #32]
	cmn	x11, #3
	b.hi	LBB101_46
	mov	w8, #7
	movk	w8, #2048, lsl #16
	cmp	x12, x8
	b.hi	LBB101_25
	orr	w8, w19, #0x20
	clz	w8, w8
	mov	w9, #26
	sub	w8, w9, w8
	sub	w9, w19, #1
	lsr	w13, w9, w8
	add	w8, w13, w8, lsl #5
	add	w8, w8, #1
	sub	x8, x8, #1
	lsr	x12, x8, #5
	add	x9, x21, #108
	ldr	w14, [x9, x12, lsl #2]
	lsr	w13, w14, w13
	ands	w13, w13, #0xfffffffe
	b.eq	LBB101_49
	rbit	w12, w13
	clz	w12, w12
	add	x12, x8, x12
	b	LBB101_51
LBB101_15:
	b.hs	LBB101_26
	ldr	x8, [x21, #72]
	lsr	w9, w1, #3
	and	x9, x9, #0x1ffffff8
	ldr	x8, [x8, x9]
	lsr	x8, x8, x1
	tbz	w8, #0, LBB101_26
	ldur	x10, [x21, #48]
	ubfiz	x23, x1, #3, #32
	add	x11, x10, x23
	ldr	x8, [x11]
	tbnz	w8, #0, LBB101_26
	ldr	w9, [x11, #16]
	cmp	w22, w9
	csel	w20, w22, w9, lo
	cmp	x2, #0
	cinc	x9, x22, eq
	add	x12, x9, #31
	lsr	x19, x12, #3
	lsr	w24, w8, #2
	cmp	w24, w19
	b.hs	LBB101_32
	tbnz	w8, #1, LBB101_21
	add	w9, w24, w1
	ldr	x9, [x10, w9, uxtw #3]
	tbnz	w9, #0, LBB101_22
LBB101_21:
	mov	x9, #0
LBB101_22:
	add	w13, w24, w9, lsr #2
	cmp	w13, w19
	b.hs	LBB101_39
	ldr	x8, [x11, #8]
	ldur	w9, [x21, #24]
	stp	w9, w1, [sp]
	str	x8, [sp, #8]
	ldr	x11, [x21, #32]
	cmn	x11, #3
	b.hi	LBB101_46
	mov	w8, #7
	movk	w8, #128, lsl #16
	cmp	x12, x8
	b.ls	LBB101_47
LBB101_25:
	ldp	w8, w9, [x21, #8]
	adds	w8, w8, #1
	csinv	w8, w8, wzr, lo
	cmp	w22, w9
	csel	w9, w22, w9, hi
	stp	w8, w9, [x21, #8]
	mov	w0, #1
	strb	w0, [x21]
	b	LBB101_27
LBB101_26:
	mov	w8, #1
	strb	w8, [x21]
	mov	w0, #4
LBB101_27:
	.cfi_def_cfa wsp, 112
	ldp	x29, x30, [sp, #96]
	ldp	x20, x19, [sp, #80]
	ldp	x22, x21, [sp, #64]
	ldp	x24, x23, [sp, #48]
	ldp	x26, x25, [sp, #32]
	add	sp, sp, #112
	.cfi_def_cfa_offset 0
	.cfi_restore w30
	.cfi_restore w29
	.cfi_restore w19
	.cfi_restore w20
	.cfi_restore w21
	.cfi_restore w22
	.cfi_restore w23
	.cfi_restore w24
	.cfi_restore w25
	.cfi_restore w26
	ret
LBB101_28:
	.cfi_restore_state
	.cfi_remember_state
	mov	w0, #0
	.cfi_def_cfa wsp, 112
	ldp	x29, x30, [sp, #96]
	ldp	x20, x19, [sp, #80]
	ldp	x22, x21, [sp, #64]
	ldp	x24, x23, [sp, #48]
	ldp	x26, x25, [sp, #32]
	add	sp, sp, #112
	.cfi_def_cfa_offset 0
	.cfi_restore w30
	.cfi_restore w29
	.cfi_restore w19
	.cfi_restore w20
	.cfi_restore w21
	.cfi_restore w22
	.cfi_restore w23
	.cfi_restore w24
	.cfi_restore w25
	.cfi_restore w26
	b	_tlsf_c.call_fault.CallFault.refusal
LBB101_29:
	.cfi_restore_state
	ldr	x4, [x21, #32]
	cmn	x4, #1
	b.eq	LBB101_46
	str	x20, [x11, #16]
	add	w10, w19, #4
	mov	x9, x24
	cmp	w24, w10
	b.lo	LBB101_36
	add	x0, x21, #48
	mov	x20, x1
	mov	x2, x8
	mov	x25, x3
	mov	x3, x19
	bl	_tlsf_heap.refitting.split_off.5
	b	LBB101_35
LBB101_32:
	ldr	x4, [x21, #32]
	cmn	x4, #1
	b.eq	LBB101_46
	str	x20, [x11, #16]
	add	w10, w19, #4
	mov	x9, x24
	cmp	w24, w10
	b.lo	LBB101_36
	add	x0, x21, #48
	mov	x20, x1
	mov	x2, x8
	mov	x25, x3
	mov	x3, x19
	bl	_tlsf_heap.refitting.split_off.4
LBB101_35:
	mov	x1, x20
	mov	x3, x25
	mov	x9, x19
LBB101_36:
	ldr	w8, [x21, #40]
	sub	w9, w9, w24
	add	w8, w9, w8
	str	w8, [x21, #40]
	ldr	x8, [x21, #32]
	add	x8, x8, #1
	str	x8, [x21, #32]
	b	LBB101_44
LBB101_37:
	ldr	x5, [x21, #32]
	cmn	x5, #1
	b.eq	LBB101_46
	mov	x25, x3
	add	x0, x21, #48
	mov	x26, x1
	mov	x2, x8
	mov	x3, x9
	mov	x4, x19
	bl	_tlsf_heap.refitting.recut.5
	b	LBB101_41
LBB101_39:
	ldr	x5, [x21, #32]
	cmn	x5, #1
	b.eq	LBB101_46
	mov	x25, x3
	add	x0, x21, #48
	mov	x26, x1
	mov	x2, x8
	mov	x3, x9
	mov	x4, x19
	bl	_tlsf_heap.refitting.recut.4
LBB101_41:
	ldr	x8, [x21, #48]
	add	x8, x8, x23
	str	x20, [x8, #16]
	ldp	w8, w9, [x21, #40]
	sub	w10, w0, w24
	add	w8, w8, w10
	str	w8, [x21, #40]
	cmp	w9, w8
	b.hs	LBB101_43
	str	w8, [x21, #44]
LBB101_43:
	ldr	x8, [x21, #32]
	add	x8, x8, #1
	str	x8, [x21, #32]
	mov	x3, x25
	mov	x1, x26
LBB101_44:
	ldur	x8, [x21, #48]
	add	x8, x8, x23
	str	x22, [x8, #16]
LBB101_45:
	mov	w0, #0
	mov	w8, #1
	strb	w8, [x21]
	str	w1, [x3]
	b	LBB101_27
LBB101_46:
	mov	w8, #1
	strb	w8, [x21]
	mov	w0, #2
	b	LBB101_27
LBB101_47:
	orr	w8, w19, #0x10
	clz	w8, w8
	mov	w9, #27
	sub	w8, w9, w8
	sub	w9, w19, #1
	lsr	w13, w9, w8
	add	w8, w13, w8, lsl #4
	add	w8, w8, #1
	sub	x8, x8, #1
	lsr	x12, x8, #4
	add	x9, x21, #108
	ldr	w14, [x9, x12, lsl #2]
	and	w13, w13, #0xf
	lsr	w13, w14, w13
	ands	w13, w13, #0xfffffffe
	b.eq	LBB101_61
	rbit	w12, w13
	clz	w12, w12
	add	x12, x8, x12
	b	LBB101_63
LBB101_49:
	ldr	w8, [x21, #104]
	mov	w13, #-2
	lsl	w12, w13, w12
	ands	w8, w8, w12
	b.eq	LBB101_25
	rbit	w8, w8
	clz	w8, w8
	ldr	w12, [x9, w8, uxtw #2]
	rbit	w12, w12
	clz	w12, w12
	add	w12, w12, w8, lsl #5
LBB101_51:
	add	x13, x21, #192
	ldr	w24, [x13, x12, lsl #2]
	ubfiz	x8, x24, #3, #32
	add	x14, x10, x8
	ldr	x14, [x14, #16]
	cmn	w14, #1
	b.eq	LBB101_53
	ubfiz	x15, x14, #3, #32
	add	x10, x10, x15
	ldr	x15, [x10, #16]
	orr	x15, x15, #0xffffffff00000000
	str	x15, [x10, #16]
	str	w14, [x13, x12, lsl #2]
	ldur	x10, [x21, #48]
	b	LBB101_55
LBB101_53:
	str	w14, [x13, x12, lsl #2]
	lsr	x14, x12, #3
	and	x15, x14, #0x1ffffffffffffffc
	ldr	w16, [x9, x15]
	mov	w14, #1
	lsl	w17, w14, w12
	bics	w16, w16, w17
	str	w16, [x9, x15]
	b.ne	LBB101_55
	lsr	x12, x12, #5
	ldr	w15, [x21, #104]
	lsl	w12, w14, w12
	bic	w12, w15, w12
	str	w12, [x21, #104]
LBB101_55:
	mov	w12, w1
	add	x15, x10, x8
	ldr	x14, [x15]
	sub	w16, w14, w19, lsl #2
	cmp	w16, #15
	b.hi	LBB101_57
	sub	x9, x14, #1
	stp	x9, x11, [x15]
	str	x22, [x15, #16]
	lsr	w19, w9, #2
	b	LBB101_74
LBB101_57:
	orr	x17, x16, x24, lsl #32
	sub	x14, x14, x16
	str	x14, [x10, x24, lsl #3]
	add	w14, w24, w19
	stp	x11, x22, [x15, #8]
	ubfiz	x15, x14, #3, #32
	add	x10, x10, x15
	stp	x17, x11, [x10]
	ldr	x11, [x21, #72]
	lsr	w10, w14, #3
	and	x17, x10, #0x1ffffff8
	ldr	x0, [x11, x17]
	lsr	w10, w16, #2
	mov	w1, #1
	lsl	x1, x1, x14
	orr	x0, x0, x1
	str	x0, [x11, x17]
	tbnz	w16, #1, LBB101_59
	add	w11, w10, w14
	ldur	x16, [x21, #48]
	add	x11, x16, w11, uxtw #3
	str	w14, [x11, #4]
LBB101_59:
	orr	w11, w10, #0x20
	clz	w11, w11
	mov	w16, #26
	sub	w11, w16, w11
	lsr	w10, w10, w11
	add	w11, w10, w11, lsl #5
	ldr	w16, [x13, w11, uxtw #2]
	str	w14, [x13, w11, uxtw #2]
	ldur	x13, [x21, #48]
	tbnz	w16, #31, LBB101_73
	orr	x9, x16, #0xffffffff00000000
	add	x10, x13, x15
	str	x9, [x10, #16]
	add	x9, x13, x16, lsl #3
	str	w14, [x9, #20]
	b	LBB101_74
LBB101_61:
	ldr	w8, [x21, #104]
	mov	w13, #-2
	lsl	w12, w13, w12
	ands	w8, w8, w12
	b.eq	LBB101_25
	rbit	w8, w8
	clz	w8, w8
	ldr	w12, [x9, w8, uxtw #2]
	rbit	w12, w12
	clz	w12, w12
	add	w12, w12, w8, lsl #4
LBB101_63:
	add	x13, x21, #192
	ldr	w24, [x13, x12, lsl #2]
	ubfiz	x8, x24, #3, #32
	add	x14, x10, x8
	ldr	x14, [x14, #16]
	cmn	w14, #1
	b.eq	LBB101_65
	ubfiz	x15, x14, #3, #32
	add	x10, x10, x15
	ldr	x15, [x10, #16]
	orr	x15, x15, #0xffffffff00000000
	str	x15, [x10, #16]
	str	w14, [x13, x12, lsl #2]
	ldur	x10, [x21, #48]
	b	LBB101_67
LBB101_65:
	str	w14, [x13, x12, lsl #2]
	lsr	x14, x12, #2
	and	x15, x14, #0x3ffffffffffffffc
	ldr	w16, [x9, x15]
	and	w17, w12, #0xf
	mov	w14, #1
	lsl	w17, w14, w17
	bics	w16, w16, w17
	str	w16, [x9, x15]
	b.ne	LBB101_67
	lsr	x12, x12, #4
	ldr	w15, [x21, #104]
	lsl	w12, w14, w12
	bic	w12, w15, w12
	str	w12, [x21, #104]
LBB101_67:
	mov	w12, w1
	add	x15, x10, x8
	ldr	x14, [x15]
	sub	w16, w14, w19, lsl #2
	cmp	w16, #15
	b.hi	LBB101_69
	sub	x9, x14, #1
	stp	x9, x11, [x15]
	str	x22, [x15, #16]
	lsr	w19, w9, #2
	b	LBB101_81
LBB101_69:
	orr	x17, x16, x24, lsl #32
	sub	x14, x14, x16
	str	x14, [x10, x24, lsl #3]
	add	w14, w24, w19
	stp	x11, x22, [x15, #8]
	ubfiz	x15, x14, #3, #32
	add	x10, x10, x15
	stp	x17, x11, [x10]
	ldr	x11, [x21, #72]
	lsr	w10, w14, #3
	and	x17, x10, #0x1ffffff8
	ldr	x0, [x11, x17]
	lsr	w10, w16, #2
	mov	w1, #1
	lsl	x1, x1, x14
	orr	x0, x0, x1
	str	x0, [x11, x17]
	tbnz	w16, #1, LBB101_71
	add	w11, w10, w14
	ldur	x16, [x21, #48]
	add	x11, x16, w11, uxtw #3
	str	w14, [x11, #4]
LBB101_71:
	orr	w11, w10, #0x10
	clz	w11, w11
	mov	w16, #27
	sub	w11, w16, w11
	lsr	w10, w10, w11
	add	w11, w10, w11, lsl #4
	ldr	w16, [x13, w11, uxtw #2]
	str	w14, [x13, w11, uxtw #2]
	ldur	x13, [x21, #48]
	tbnz	w16, #31, LBB101_80
	orr	x9, x16, #0xffffffff00000000
	add	x10, x13, x15
	str	x9, [x10, #16]
	add	x9, x13, x16, lsl #3
	str	w14, [x9, #20]
	b	LBB101_81
LBB101_73:
	add	x13, x13, x15
	mov	x14, #-1
	str	x14, [x13, #16]
	lsr	x11, x11, #5
	ldr	w13, [x21, #104]
	ldr	w14, [x9, x11, lsl #2]
	mov	w15, #1
	lsl	w16, w15, w11
	orr	w13, w13, w16
	str	w13, [x21, #104]
	lsl	w10, w15, w10
	orr	w10, w14, w10
	str	w10, [x9, x11, lsl #2]
LBB101_74:
	ldp	w9, w10, [x21, #40]
	add	w9, w9, w19
	cmp	w10, w9
	str	w9, [x21, #40]
	b.hs	LBB101_76
	str	w9, [x21, #44]
LBB101_76:
	mov	x22, x3
	ldr	x9, [x21, #32]
	add	x9, x9, #1
	str	x9, [x21, #32]
	ldr	x0, [x21, #48]
	add	x9, x0, x23
	ldr	w9, [x9, #16]
	add	x8, x0, x8
	ldr	w8, [x8, #16]
	cmp	w8, w9
	csel	w8, w8, w9, lo
	add	x1, x12, #3
	add	x23, x24, #3
	lsr	x19, x8, #3
	ands	x20, x8, #0x7
	b.eq	LBB101_78
	add	x8, x19, x1
	ldr	x8, [x0, x8, lsl #3]
	str	x8, [sp, #16]
	add	x2, x24, #3
	mov	x3, x19
	bl	_tlsf_words.cells.copy_run
	add	x19, x19, x23
	ldur	x23, [x21, #48]
	ldr	x8, [x23, x19, lsl #3]
	str	x8, [sp, #24]
	add	x0, sp, #24
	add	x1, sp, #16
	mov	x2, x20
	bl	_tlsf_memory_cpy
	ldr	x8, [sp, #24]
	str	x8, [x23, x19, lsl #3]
	b	LBB101_79
LBB101_78:
	add	x2, x24, #3
	mov	x3, x19
	bl	_tlsf_words.cells.copy_run
LBB101_79:
	add	x0, x21, #24
	mov	x1, sp
	bl	_tlsf_heap.heap.Heap.release_live.5
	b	LBB101_87
LBB101_80:
	add	x13, x13, x15
	mov	x14, #-1
	str	x14, [x13, #16]
	lsr	x11, x11, #4
	ldr	w13, [x21, #104]
	ldr	w14, [x9, x11, lsl #2]
	mov	w15, #1
	lsl	w16, w15, w11
	orr	w13, w13, w16
	str	w13, [x21, #104]
	and	w10, w10, #0xf
	lsl	w10, w15, w10
	orr	w10, w14, w10
	str	w10, [x9, x11, lsl #2]
LBB101_81:
	ldp	w9, w10, [x21, #40]
	add	w9, w9, w19
	cmp	w10, w9
	str	w9, [x21, #40]
	b.hs	LBB101_83
	str	w9, [x21, #44]
LBB101_83:
	mov	x22, x3
	ldr	x9, [x21, #32]
	add	x9, x9, #1
	str	x9, [x21, #32]
	ldr	x0, [x21, #48]
	add	x9, x0, x23
	ldr	w9, [x9, #16]
	add	x8, x0, x8
	ldr	w8, [x8, #16]
	cmp	w8, w9
	csel	w8, w8, w9, lo
	add	x1, x12, #3
	add	x23, x24, #3
	lsr	x19, x8, #3
	ands	x20, x8, #0x7
	b.eq	LBB101_85
	add	x8, x19, x1
	ldr	x8, [x0, x8, lsl #3]
	str	x8, [sp, #16]
	add	x2, x24, #3
	mov	x3, x19
	bl	_tlsf_words.cells.copy_run
	add	x19, x19, x23
	ldur	x23, [x21, #48]
	ldr	x8, [x23, x19, lsl #3]
	str	x8, [sp, #24]
	add	x0, sp, #24
	add	x1, sp, #16
	mov	x2, x20
	bl	_tlsf_memory_cpy
	ldr	x8, [sp, #24]
	str	x8, [x23, x19, lsl #3]
	b	LBB101_86
LBB101_85:
	add	x2, x24, #3
	mov	x3, x19
	bl	_tlsf_words.cells.copy_run
LBB101_86:
	add	x0, x21, #24
	mov	x1, sp
	bl	_tlsf_heap.heap.Heap.release_live.4
LBB101_87:
	mov	x1, x24
	mov	x3, x22
	b	LBB101_45
	.cfi_endproc
	.globl	_tlsf_take
	.p2align	2
_tlsf_take:
	.cfi_startproc
	ldrb	w8, [x0, #8]
	cbz	w8, LBB102_7
	ldr	x8, [x0]
	ldrb	w9, [x8, #1]
	tbz	w9, #0, LBB102_7
	ldrb	w9, [x8]
	cmp	w9, #1
	b.ne	LBB102_8
	strb	wzr, [x8, #1]
	ldp	x9, x10, [x8, #24]
	ldr	x11, [x8, #40]
	lsl	x12, x9, #1
	subs	x11, x11, x10
	csneg	x12, xzr, x12, hs
	cmp	x11, x12
	b.ne	LBB102_6
	ldr	x9, [x8, #8]
	add	x9, x9, #128
	; InlineAsm Start
	; InlineAsm End
	ldar	x11, [x9]
	; InlineAsm Start
	; InlineAsm End
	str	x11, [x8, #40]
	ldp	x9, x10, [x8, #24]
	lsl	x12, x9, #1
	subs	x11, x11, x10
	csneg	x12, xzr, x12, hs
	cmp	x11, x12
	b.ne	LBB102_6
	mov	w0, #35
	mov	w9, #1
	strb	w9, [x8, #1]
	ret
LBB102_6:
	mov	w0, #0
	lsl	x11, x9, #1
	sub	x11, x11, #1
	cmp	x10, x11
	csinc	x11, xzr, x10, hs
	cmp	x10, x9
	csel	x9, xzr, x9, lo
	sub	x9, x10, x9
	ldp	x10, x12, [x8, #8]
	mov	w13, #24
	madd	x9, x9, x13, x12
	ldr	x12, [x9, #16]
	ldr	d0, [x9, #8]
	; InlineAsm Start
	; InlineAsm End
	stlr	x11, [x10]
	; InlineAsm Start
	; InlineAsm End
	str	x11, [x8, #32]
	str	d0, [x1]
	str	x12, [x1, #8]
	mov	w9, #1
	strb	w9, [x8, #1]
	ret
LBB102_7:
	mov	w0, #0
	b	_tlsf_c.call_fault.CallFault.refusal
LBB102_8:
	mov	w0, #2
	b	_tlsf_c.call_fault.CallFault.refusal
	.cfi_endproc
	.globl	_tlsf_take_all
	.p2align	2
_tlsf_take_all:
	.cfi_startproc
	stp	x28, x27, [sp, #-80]!
	.cfi_def_cfa_offset 80
	stp	x24, x23, [sp, #16]
	stp	x22, x21, [sp, #32]
	stp	x20, x19, [sp, #48]
	stp	x29, x30, [sp, #64]
	add	x29, sp, #64
	.cfi_def_cfa w29, 16
	.cfi_offset w30, -8
	.cfi_offset w29, -16
	.cfi_offset w19, -24
	.cfi_offset w20, -32
	.cfi_offset w21, -40
	.cfi_offset w22, -48
	.cfi_offset w23, -56
	.cfi_offset w24, -64
	.cfi_offset w27, -72
	.cfi_offset w28, -80
	.cfi_remember_state
	sub	sp, sp, #768
	mov	w8, #4096
	cmp	x1, #0
	csel	x23, x8, xzr, eq
	ldrb	w8, [x0, #8]
	cbz	w8, LBB103_18
	ldr	x22, [x0]
	ldrb	w8, [x22, #1]
	tbz	w8, #0, LBB103_18
	ldrb	w8, [x22]
	cmp	w8, #1
	b.ne	LBB103_21
	mov	x19, x3
	mov	x21, x1
	strb	wzr, [x22, #1]
	mov	w8, #32
	cmp	x2, #32
	csel	x20, x2, x8, lo
	ldp	x8, x9, [x22, #24]
	ldr	x10, [x22, #40]
	lsl	x11, x8, #1
	subs	x12, x10, x9
	csel	x11, x11, xzr, lo
	add	x11, x12, x11
	cmp	x11, x20
	b.hs	LBB103_5
	ldr	x8, [x22, #8]
	add	x8, x8, #128
	; InlineAsm Start
	; InlineAsm End
	ldar	x10, [x8]
	; InlineAsm Start
	; InlineAsm End
	str	x10, [x22, #40]
	ldp	x8, x9, [x22, #24]
	lsl	x11, x8, #1
	subs	x12, x10, x9
	csel	x11, x11, xzr, lo
	add	x11, x12, x11
	cmp	x11, x20
	csel	x20, x11, x20, lo
LBB103_5:
	cmp	x20, #21
	b.lo	LBB103_8
	mov	x24, sp
	mov	x0, sp
	mov	w1, #768
	bl	_bzero
	add	x0, x22, #8
	mov	x1, sp
	mov	x2, x20
	bl	_tlsf_post.take_end.TakeEnd.take_slice
	add	x8, x23, x21
	add	x8, x8, #8
	add	x9, x24, #16
	mov	x10, x20
LBB103_7:
	ldr	x11, [x9]
	ldur	d0, [x9, #-8]
	stur	d0, [x8, #-8]
	str	x11, [x8], #16
	add	x9, x9, #24
	subs	x10, x10, #1
	b.ne	LBB103_7
	b	LBB103_15
LBB103_8:
	cmp	x20, #2
	b.lo	LBB103_11
	movi.2d	v0, #0000000000000000
	stp	q0, q0, [sp, #448]
	stp	q0, q0, [sp, #416]
	stp	q0, q0, [sp, #384]
	stp	q0, q0, [sp, #352]
	stp	q0, q0, [sp, #320]
	stp	q0, q0, [sp, #288]
	stp	q0, q0, [sp, #256]
	stp	q0, q0, [sp, #224]
	stp	q0, q0, [sp, #192]
	stp	q0, q0, [sp, #160]
	stp	q0, q0, [sp, #128]
	stp	q0, q0, [sp, #96]
	stp	q0, q0, [sp, #64]
	stp	q0, q0, [sp, #32]
	mov	x8, sp
	add	x24, x8, #16
	stp	q0, q0, [sp]
	add	x0, x22, #8
	mov	x1, sp
	mov	x2, x20
	bl	_tlsf_post.take_end.TakeEnd.take_slice
	add	x8, x23, x21
	add	x8, x8, #8
	mov	x9, x20
LBB103_10:
	ldr	x10, [x24]
	ldur	d0, [x24, #-8]
	stur	d0, [x8, #-8]
	str	x10, [x8], #16
	add	x24, x24, #24
	subs	x9, x9, #1
	b.ne	LBB103_10
	b	LBB103_15
LBB103_11:
	cmp	x20, #1
	b.ne	LBB103_19
	lsl	x11, x8, #1
	subs	x10, x10, x9
	csneg	x11, xzr, x11, hs
	cmp	x10, x11
	b.ne	LBB103_14
	ldr	x8, [x22, #8]
	add	x8, x8, #128
	; InlineAsm Start
	; InlineAsm End
	ldar	x10, [x8]
	; InlineAsm Start
	; InlineAsm End
	str	x10, [x22, #40]
	ldp	x8, x9, [x22, #24]
	lsl	x11, x8, #1
	subs	x10, x10, x9
	csneg	x11, xzr, x11, hs
	cmp	x10, x11
	b.eq	LBB103_15
LBB103_14:
	lsl	x10, x8, #1
	sub	x10, x10, #1
	cmp	x9, x10
	csinc	x10, xzr, x9, hs
	cmp	x9, x8
	csel	x8, xzr, x8, lo
	sub	x8, x9, x8
	ldp	x9, x11, [x22, #8]
	mov	w12, #24
	madd	x8, x8, x12, x11
	ldr	x11, [x8, #16]
	ldr	d0, [x8, #8]
	; InlineAsm Start
	; InlineAsm End
	stlr	x10, [x9]
	; InlineAsm Start
	; InlineAsm End
	str	x10, [x22, #32]
	add	x8, x21, x23
	str	d0, [x8]
	str	x11, [x8, #8]
LBB103_15:
	mov	w8, #1
	strb	w8, [x22, #1]
LBB103_16:
	mov	w0, #0
	str	x20, [x19]
LBB103_17:
	add	sp, sp, #768
	.cfi_def_cfa wsp, 80
	ldp	x29, x30, [sp, #64]
	ldp	x20, x19, [sp, #48]
	ldp	x22, x21, [sp, #32]
	ldp	x24, x23, [sp, #16]
	ldp	x28, x27, [sp], #80
	.cfi_def_cfa_offset 0
	.cfi_restore w30
	.cfi_restore w29
	.cfi_restore w19
	.cfi_restore w20
	.cfi_restore w21
	.cfi_restore w22
	.cfi_restore w23
	.cfi_restore w24
	.cfi_restore w27
	.cfi_restore w28
	ret
LBB103_18:
	.cfi_restore_state
	mov	w0, #0
	b	LBB103_22
LBB103_19:
	mov	w8, #1
	strb	w8, [x22, #1]
	cbz	x2, LBB103_16
	mov	w0, #35
	b	LBB103_17
LBB103_21:
	mov	w0, #2
LBB103_22:
	add	sp, sp, #768
	.cfi_def_cfa wsp, 80
	ldp	x29, x30, [sp, #64]
	ldp	x20, x19, [sp, #48]
	ldp	x22, x21, [sp, #32]
	ldp	x24, x23, [sp, #16]
	ldp	x28, x27, [sp], #80
	.cfi_def_cfa_offset 0
	.cfi_restore w30
	.cfi_restore w29
	.cfi_restore w19
	.cfi_restore w20
	.cfi_restore w21
	.cfi_restore w22
	.cfi_restore w23
	.cfi_restore w24
	.cfi_restore w27
	.cfi_restore w28
	b	_tlsf_c.call_fault.CallFault.refusal
	.cfi_endproc
	.globl	_tlsf_take_close
	.p2align	2
_tlsf_take_close:
	.cfi_startproc
	ldrb	w8, [x0, #8]
	cbz	w8, LBB104_4
	ldr	x8, [x0]
	ldrb	w9, [x8, #1]
	cmp	w9, #1
	b.ne	LBB104_4
	ldrb	w9, [x8]
	cmp	w9, #1
	b.ne	LBB104_5
	sub	sp, sp, #128
	.cfi_def_cfa_offset 128
	stp	x20, x19, [sp, #96]
	stp	x29, x30, [sp, #112]
	add	x29, sp, #112
	.cfi_def_cfa w29, 16
	.cfi_offset w30, -8
	.cfi_offset w29, -16
	.cfi_offset w19, -24
	.cfi_offset w20, -32
	strb	wzr, [x8, #1]
	ldr	x8, [x0]
	stp	xzr, xzr, [x0]
	ldrh	w19, [x8]
	ldur	q0, [x8, #8]
	stur	q0, [sp, #8]
	ldur	q0, [x8, #24]
	stur	q0, [sp, #24]
	ldr	x9, [x8, #40]
	stur	x9, [sp, #40]
	mov	x0, x8
	bl	_tlsf_memory_dealloc
	str	xzr, [sp, #48]
	strh	w19, [sp, #48]
	ldur	q0, [sp, #8]
	stur	q0, [sp, #56]
	ldur	q0, [sp, #24]
	stur	q0, [sp, #72]
	ldur	x8, [sp, #40]
	str	x8, [sp, #88]
	add	x0, sp, #48
	bl	_tlsf_c.tlsf_c.any_end.AnyEnd.Destruct.drop
	mov	w0, #0
	.cfi_def_cfa wsp, 128
	ldp	x29, x30, [sp, #112]
	ldp	x20, x19, [sp, #96]
	add	sp, sp, #128
	.cfi_def_cfa_offset 0
	.cfi_restore w30
	.cfi_restore w29
	.cfi_restore w19
	.cfi_restore w20
	ret
LBB104_4:
	mov	w0, #32
	ret
LBB104_5:
	mov	w0, #40
	ret
	.cfi_endproc
	.globl	_tlsf_words
	.p2align	2
_tlsf_words:
	.cfi_startproc
	mov	w8, #-1
	cmp	x2, x8
	csel	x9, x2, x8, lo
	and	w8, w0, #0xfffffffe
	cmp	w8, #4
	b.ne	LBB105_5
	cbz	w1, LBB105_6
	cmp	w0, #4
	b.ne	LBB105_8
	mov	w8, #65512
	movk	w8, #127, lsl #16
	cmp	x2, x8
	b.ls	LBB105_10
	mov	w0, #5
	ret
LBB105_5:
	mov	w0, #34
	ret
LBB105_6:
	mov	w9, #4
LBB105_7:
	mov	w0, #0
	str	w9, [x3]
	ret
LBB105_8:
	mov	w8, #65512
	movk	w8, #2047, lsl #16
	cmp	x2, x8
	b.ls	LBB105_13
	mov	w0, #5
	ret
LBB105_10:
	mov	w8, w1
	cmp	x2, #9
	b.hs	LBB105_15
	lsl	x8, x8, #2
	mov	w9, #4
	cmp	x8, #4
	csel	x9, x8, x9, hi
	cmp	x8, #256, lsl #12
	b.ls	LBB105_21
LBB105_12:
	mov	w0, #5
	ret
LBB105_13:
	mov	w8, w1
	cmp	x2, #9
	b.hs	LBB105_17
	lsl	x8, x8, #2
	b	LBB105_24
LBB105_15:
	add	w9, w9, #31
	lsr	w9, w9, #3
	add	w14, w9, #3
	umull	x15, w8, w14
	orr	w10, w9, #0x10
	clz	w10, w10
	mov	w11, #27
	sub	w10, w11, w10
	sub	w9, w9, #1
	lsr	w12, w9, w10
	add	w13, w12, #1
	add	w11, w10, w13, lsr #4
	subs	x9, x15, x14
	csel	x9, xzr, x9, lo
	add	x9, x9, #1
	cbz	w11, LBB105_19
	and	w10, w13, #0xf
	sub	w12, w11, #1
	lsl	w10, w10, w12
	mov	w12, #8
	lsl	w11, w12, w11
	add	w10, w11, w10
	sub	w10, w10, #1
	b	LBB105_20
LBB105_17:
	add	w9, w9, #31
	lsr	w9, w9, #3
	add	w14, w9, #3
	umull	x15, w8, w14
	orr	w10, w9, #0x20
	clz	w10, w10
	mov	w11, #26
	sub	w10, w11, w10
	sub	w9, w9, #1
	lsr	w12, w9, w10
	add	w13, w12, #1
	add	w11, w10, w13, lsr #5
	subs	x9, x15, x14
	csel	x9, xzr, x9, lo
	add	x9, x9, #1
	cbz	w11, LBB105_22
	and	w10, w13, #0x1f
	sub	w12, w11, #1
	lsl	w10, w10, w12
	mov	w12, #16
	lsl	w11, w12, w11
	add	w10, w11, w10
	sub	w10, w10, #1
	b	LBB105_23
LBB105_19:
	add	w10, w12, w10, lsl #4
LBB105_20:
	umaddl	x8, w8, w10, x9
	mov	w9, #4
	cmp	x8, #4
	csel	x9, x8, x9, hi
	cmp	x8, #256, lsl #12
	b.hi	LBB105_12
LBB105_21:
	mov	w0, #0
	str	w9, [x3]
	ret
LBB105_22:
	add	w10, w12, w10, lsl #5
LBB105_23:
	umaddl	x8, w8, w10, x9
LBB105_24:
	mov	w9, #4
	cmp	x8, #4
	csel	x9, x8, x9, hi
	mov	w10, #16777216
	cmp	x8, x10
	b.ls	LBB105_7
	mov	w0, #5
	ret
	.cfi_endproc
	.globl	_tlsf_offsets_report
	.p2align	2
_tlsf_offsets_report:
	.cfi_startproc
	ldrb	w8, [x0, #8]
	cbz	w8, LBB106_12
	ldr	x8, [x0]
	ldrb	w9, [x8, #1]
	tbz	w9, #0, LBB106_12
	ldrb	w9, [x8]
	cbnz	w9, LBB106_13
	strb	wzr, [x8, #1]
	ldrb	w9, [x8, #8]
	ldr	w12, [x8, #48]
	cbz	w9, LBB106_7
	cbz	w12, LBB106_10
	mov	w14, #0
	mov	w9, #0
	mov	w10, #0
	mov	w11, #0
	mov	w13, #0
	ldr	x15, [x8, #40]
LBB106_6:
	ldr	x16, [x15, w14, uxtw #3]
	lsr	w17, w16, #2
	add	w0, w17, w11
	add	w2, w17, w10
	cmp	w17, w9
	csel	w3, w17, w9, hi
	tst	w16, #0x1
	cinc	w13, w13, eq
	csel	w11, w0, w11, eq
	csel	w10, w10, w2, eq
	csel	w9, w9, w3, eq
	add	w14, w17, w14
	cmp	w14, w12
	b.lo	LBB106_6
	b	LBB106_11
LBB106_7:
	cbz	w12, LBB106_10
	mov	w14, #0
	mov	w9, #0
	mov	w10, #0
	mov	w11, #0
	mov	w13, #0
	ldr	x15, [x8, #40]
LBB106_9:
	ldr	x16, [x15, w14, uxtw #3]
	lsr	w17, w16, #2
	add	w0, w17, w11
	add	w2, w17, w10
	cmp	w17, w9
	csel	w3, w17, w9, hi
	tst	w16, #0x1
	cinc	w13, w13, eq
	csel	w11, w0, w11, eq
	csel	w10, w10, w2, eq
	csel	w9, w9, w3, eq
	add	w14, w17, w14
	cmp	w14, w12
	b.lo	LBB106_9
	b	LBB106_11
LBB106_10:
	mov	w11, #0
	mov	w10, #0
	mov	w9, #0
	mov	w13, #0
LBB106_11:
	ldr	w12, [x8, #2752]
	umull	x11, w12, w11
	umull	x10, w12, w10
	mov	w14, #1
	strb	w14, [x8, #1]
	stp	w13, wzr, [x1]
	umull	x8, w12, w9
	stp	x11, x10, [x1, #8]
	str	x8, [x1, #24]
	mov	w0, #0
	ret
LBB106_12:
	mov	w0, #0
	b	_tlsf_c.call_fault.CallFault.refusal
LBB106_13:
	mov	w0, #2
	b	_tlsf_c.call_fault.CallFault.refusal
	.cfi_endproc
	.globl	_tlsf_write
	.p2align	2
_tlsf_write:
	.cfi_startproc
	mov	w8, #4096
	ldrb	w9, [x0, #8]
	cmp	x4, #0
	csel	x10, x8, xzr, eq
	cbz	w9, LBB107_10
	stp	x20, x19, [sp, #-32]!
	.cfi_def_cfa_offset 32
	stp	x29, x30, [sp, #16]
	add	x29, sp, #16
	.cfi_def_cfa w29, 16
	.cfi_offset w30, -8
	.cfi_offset w29, -16
	.cfi_offset w19, -24
	.cfi_offset w20, -32
	.cfi_remember_state
	ldr	x19, [x0]
	ldrb	w8, [x19]
	cmp	w8, #1
	b.ne	LBB107_11
	lsr	x8, x1, #32
	strb	wzr, [x19]
	ldrb	w11, [x19, #16]
	ldr	w9, [x19, #24]
	cmp	w9, w1
	cbz	w11, LBB107_12
	b.ne	LBB107_20
	ldr	w11, [x19, #56]
	mov	x9, x1
	cmp	w8, w11
	b.hs	LBB107_20
	ldr	x9, [x19, #72]
	lsr	x11, x1, #35
	and	x11, x11, #0x1ffffff8
	ldr	x9, [x9, x11]
	lsr	x11, x9, x8
	mov	x9, x1
	tbz	w11, #0, LBB107_20
	ldur	x9, [x19, #48]
	add	x11, x9, x8, lsl #3
	ldr	x12, [x11]
	mov	x9, x1
	tbnz	w12, #0, LBB107_20
	ldr	x12, [x11, #8]
	mov	x9, x1
	cmp	x12, x2
	b.ne	LBB107_20
	ldr	w9, [x11, #16]
	add	x11, x5, w3, uxtw
	cmp	x11, x9
	b.hi	LBB107_18
	add	x0, x19, #48
	mov	x2, x3
	add	x3, x4, x10
	mov	x1, x8
	mov	x4, x5
	bl	_tlsf_heap.region.Region.write.5
	mov	w8, #0
	mov	w0, #0
	tbz	w8, #0, LBB107_21
	b	LBB107_19
LBB107_10:
	.cfi_def_cfa wsp, 0
	.cfi_same_value w30
	.cfi_same_value w29
	.cfi_same_value w19
	.cfi_same_value w20
	mov	w0, #32
	ret
LBB107_11:
	.cfi_restore_state
	.cfi_remember_state
	mov	w0, #32
	b	LBB107_23
LBB107_12:
	b.ne	LBB107_20
	ldr	w11, [x19, #56]
	mov	x9, x1
	cmp	w8, w11
	b.hs	LBB107_20
	ldr	x9, [x19, #72]
	lsr	x11, x1, #35
	and	x11, x11, #0x1ffffff8
	ldr	x9, [x9, x11]
	lsr	x11, x9, x8
	mov	x9, x1
	tbz	w11, #0, LBB107_20
	ldur	x9, [x19, #48]
	add	x11, x9, x8, lsl #3
	ldr	x12, [x11]
	mov	x9, x1
	tbnz	w12, #0, LBB107_20
	ldr	x12, [x11, #8]
	mov	x9, x1
	cmp	x12, x2
	b.ne	LBB107_20
	ldr	w9, [x11, #16]
	add	x11, x5, w3, uxtw
	cmp	x11, x9
	b.ls	LBB107_24
LBB107_18:
	mov	w0, #4
	mov	w8, #1
	tbz	w8, #0, LBB107_21
LBB107_19:
	and	x8, x0, #0xff
Lloh50:
	adrp	x9, l_switch.table.tlsf_write@PAGE
Lloh51:
	add	x9, x9, l_switch.table.tlsf_write@PAGEOFF
	ldr	w0, [x9, x8, lsl #2]
	b	LBB107_22
LBB107_20:
	mov	x0, x1
	mov	x1, x9
	bl	_tlsf_heap.refusal.Refusal.of_name
	mov	w8, #1
	tbnz	w8, #0, LBB107_19
LBB107_21:
	mov	w0, #0
LBB107_22:
	mov	w8, #1
	strb	w8, [x19]
LBB107_23:
	.cfi_def_cfa wsp, 32
	ldp	x29, x30, [sp, #16]
	ldp	x20, x19, [sp], #32
	.cfi_def_cfa_offset 0
	.cfi_restore w30
	.cfi_restore w29
	.cfi_restore w19
	.cfi_restore w20
	ret
LBB107_24:
	.cfi_restore_state
	add	x0, x19, #48
	mov	x2, x3
	add	x3, x4, x10
	mov	x1, x8
	mov	x4, x5
	bl	_tlsf_heap.region.Region.write.4
	mov	w8, #0
	mov	w0, #0
	tbz	w8, #0, LBB107_21
	b	LBB107_19
	.loh AdrpAdd	Lloh50, Lloh51
	.cfi_endproc
	.globl	_tlsf_pools_write
	.p2align	2
_tlsf_pools_write:
	.cfi_startproc
	stp	x20, x19, [sp, #-32]!
	.cfi_def_cfa_offset 32
	stp	x29, x30, [sp, #16]
	add	x29, sp, #16
	.cfi_def_cfa w29, 16
	.cfi_offset w30, -8
	.cfi_offset w29, -16
	.cfi_offset w19, -24
	.cfi_offset w20, -32
	.cfi_remember_state
	mov	w8, #4096
	ldrb	w9, [x0, #8]
	cmp	x4, #0
	csel	x10, x8, xzr, eq
	cbz	w9, LBB108_21
	ldr	x19, [x0]
	ldrb	w8, [x19, #1]
	tbz	w8, #0, LBB108_21
	ldrb	w8, [x19]
	cmp	w8, #1
	b.ne	LBB108_26
	lsr	x8, x1, #32
	strb	wzr, [x19, #1]
	ldrb	w12, [x19, #8]
	ldr	x11, [x19, #32]
	ldr	w13, [x19, #16]
	subs	w9, w1, w13
	csel	w9, wzr, w9, lo
	cmp	w13, w1
	ccmp	x11, x9, #0, ls
	cset	w11, hi
	cbz	w12, LBB108_12
	cbz	w11, LBB108_20
	ldr	x11, [x19, #24]
	mov	w12, #2792
	umaddl	x11, w9, w12, x11
	ldr	w9, [x11]
	cmp	w9, w1
	b.ne	LBB108_22
	ldr	w12, [x11, #32]
	mov	x9, x1
	cmp	w8, w12
	b.hs	LBB108_22
	ldr	x9, [x11, #48]
	lsr	x12, x1, #35
	and	x12, x12, #0x1ffffff8
	ldr	x9, [x9, x12]
	lsr	x12, x9, x8
	mov	x9, x1
	tbz	w12, #0, LBB108_22
	ldur	x9, [x11, #24]
	add	x12, x9, x8, lsl #3
	ldr	x13, [x12]
	mov	x9, x1
	tbnz	w13, #0, LBB108_22
	ldr	x13, [x12, #8]
	mov	x9, x1
	cmp	x13, x2
	b.ne	LBB108_22
	ldr	w9, [x12, #16]
	add	x12, x5, w3, uxtw
	cmp	x12, x9
	b.hi	LBB108_19
	add	x0, x11, #24
	mov	x2, x3
	add	x3, x4, x10
	mov	x1, x8
	mov	x4, x5
	bl	_tlsf_heap.region.Region.write.5
	b	LBB108_24
LBB108_12:
	cbz	w11, LBB108_20
	ldr	x11, [x19, #24]
	mov	w12, #2792
	umaddl	x11, w9, w12, x11
	ldr	w9, [x11]
	cmp	w9, w1
	b.ne	LBB108_22
	ldr	w12, [x11, #32]
	mov	x9, x1
	cmp	w8, w12
	b.hs	LBB108_22
	ldr	x9, [x11, #48]
	lsr	x12, x1, #35
	and	x12, x12, #0x1ffffff8
	ldr	x9, [x9, x12]
	lsr	x12, x9, x8
	mov	x9, x1
	tbz	w12, #0, LBB108_22
	ldur	x9, [x11, #24]
	add	x12, x9, x8, lsl #3
	ldr	x13, [x12]
	mov	x9, x1
	tbnz	w13, #0, LBB108_22
	ldr	x13, [x12, #8]
	mov	x9, x1
	cmp	x13, x2
	b.ne	LBB108_22
	ldr	w9, [x12, #16]
	add	x12, x5, w3, uxtw
	cmp	x12, x9
	b.ls	LBB108_23
LBB108_19:
	mov	w8, #1
	strb	w8, [x19, #1]
	mov	w0, #7
	b	LBB108_25
LBB108_20:
	mov	w8, #1
	strb	w8, [x19, #1]
	mov	w0, #3
	b	LBB108_25
LBB108_21:
	mov	w0, #0
	.cfi_def_cfa wsp, 32
	b	LBB108_27
LBB108_22:
	.cfi_restore_state
	.cfi_remember_state
	mov	x0, x1
	mov	x1, x9
	bl	_tlsf_heap.refusal.Refusal.of_name
	and	w8, w0, #0xff
	mov	w9, #1
	strb	w9, [x19, #1]
	cmp	w8, #3
	mov	w8, #3
	cinc	w0, w8, eq
	b	LBB108_25
LBB108_23:
	add	x0, x11, #24
	mov	x2, x3
	add	x3, x4, x10
	mov	x1, x8
	mov	x4, x5
	bl	_tlsf_heap.region.Region.write.4
LBB108_24:
	mov	w0, #0
	mov	w8, #1
	strb	w8, [x19, #1]
LBB108_25:
	.cfi_def_cfa wsp, 32
	ldp	x29, x30, [sp, #16]
	ldp	x20, x19, [sp], #32
	.cfi_def_cfa_offset 0
	.cfi_restore w30
	.cfi_restore w29
	.cfi_restore w19
	.cfi_restore w20
	ret
LBB108_26:
	.cfi_restore_state
	mov	w0, #2
	.cfi_def_cfa wsp, 32
LBB108_27:
	ldp	x29, x30, [sp, #16]
	ldp	x20, x19, [sp], #32
	.cfi_def_cfa_offset 0
	.cfi_restore w30
	.cfi_restore w29
	.cfi_restore w19
	.cfi_restore w20
	b	_tlsf_c.call_fault.CallFault.refusal
	.cfi_endproc
	.section	__TEXT,__literal8,8byte_literals
l_static.0:
	.space	8
	.section	__TEXT,__const
	.p2align	3, 0x0
l_switch.table.tlsf_allocate_aligned:
	.quad	8589934592
	.quad	12884901888
	.quad	17179869184
	.quad	30064771072
	.quad	42949672960
	.p2align	2, 0x0
l_switch.table.tlsf_queue_take:
	.long	32
	.long	36
	.long	40
	.long	5
	.long	6
	.long	33
	.long	34
	.long	8
	.long	35
	.long	37
	.long	38
	.p2align	2, 0x0
l_switch.table.tlsf_write:
	.long	1
	.long	2
	.long	3
	.long	4
	.long	7
.subsections_via_symbols
/* The calls in C: c/pointers.c. */
	.section	__TEXT,__text,regular,pure_instructions
	.globl	_tlsf_rounded
	.p2align	2
_tlsf_rounded:
	.cfi_startproc
	mov	x8, #-1
	add	x9, x0, #7
	mov	w10, #8
	cmp	x0, #0
	csel	x10, x10, xzr, eq
	and	x9, x9, #0xfffffffffffffff8
	orr	x9, x9, x10
	cmn	x0, #16
	csel	x0, x8, x9, hi
	ret
	.cfi_endproc
	.globl	_tlsf_place_of
	.p2align	2
_tlsf_place_of:
	.cfi_startproc
	ldr	x8, [x0, #16]
	sub	x8, x1, x8
	sub	x8, x8, #24
	ror	x8, x8, #3
	mov	w9, #-1
	cmp	x8, x9
	csel	x0, x8, x9, lo
	ret
	.cfi_endproc
	.globl	_tlsf_near
	.p2align	2
_tlsf_near:
	.cfi_startproc
	neg	w8, w0
	and	x8, x8, #0x3f
	add	x0, x0, x8
	prfm	pstl1keep, [x0, #64]
	prfm	pstl1keep, [x0, #128]
	ret
	.cfi_endproc
	.globl	_tlsf_base
	.p2align	2
_tlsf_base:
	.cfi_startproc
	ldrb	w8, [x0, #8]
	cmp	w8, #1
	b.ne	Lp_BB3_2
	ldr	x0, [x0, #16]
	ret
Lp_BB3_2:
	mov	x0, #0
	ret
	.cfi_endproc
	.globl	_tlsf_at
	.p2align	2
_tlsf_at:
	.cfi_startproc
	lsr	x8, x1, #32
	add	x8, x0, x8, lsl #3
	add	x8, x8, #24
	cmp	x0, #0
	csel	x0, xzr, x8, eq
	ret
	.cfi_endproc
	.globl	_tlsf_block_size
	.p2align	2
_tlsf_block_size:
	.cfi_startproc
	; InlineAsm Start
	; InlineAsm End
	cbz	x0, Lp_BB5_2
	ldur	x0, [x0, #-8]
Lp_BB5_2:
	ret
	.cfi_endproc
	.globl	_tlsf_aligned_alloc
	.p2align	2
_tlsf_aligned_alloc:
	.cfi_startproc
	sub	x8, x1, #1
	eor	x9, x1, x8
	cmp	x9, x8
	b.ls	Lp_BB6_6
	stp	x20, x19, [sp, #-32]!
	.cfi_def_cfa_offset 32
	stp	x29, x30, [sp, #16]
	add	x29, sp, #16
	.cfi_def_cfa w29, 16
	.cfi_offset w30, -8
	.cfi_offset w29, -16
	.cfi_offset w19, -24
	.cfi_offset w20, -32
	.cfi_remember_state
	mov	w8, #134217728
	cmp	x1, x8
	b.hi	Lp_BB6_9
	mov	w8, #134217728
	cmp	x2, x8
	b.hi	Lp_BB6_9
	ldrb	w8, [x0, #29]
	cmp	w8, #9
	b.hs	Lp_BB6_10
	add	w9, w2, #7
	mov	w8, #8
	cmp	x2, #0
	csel	x8, x8, xzr, eq
	and	x9, x9, #0x1ffffff8
	cmp	x1, #8
	b.hi	Lp_BB6_7
	orr	x1, x9, x8
	mov	x19, x0
	bl	_tlsf_allocate_place
	lsr	x8, x0, #32
	cbz	x8, Lp_BB6_8
	b	Lp_BB6_11
Lp_BB6_6:
	.cfi_def_cfa wsp, 0
	.cfi_same_value w30
	.cfi_same_value w29
	.cfi_same_value w19
	.cfi_same_value w20
	mov	x0, #0
	ret
Lp_BB6_7:
	.cfi_restore_state
	lsr	x2, x1, #3
	ldr	w10, [x0, #16]
	sub	w11, w1, #1
	and	w10, w11, w10
	lsr	w3, w10, #3
	orr	x1, x9, x8
	mov	x19, x0
	bl	_tlsf_allocate_aligned
	lsr	x8, x0, #32
	cbnz	x8, Lp_BB6_11
Lp_BB6_8:
	ldr	x8, [x19, #16]
	add	x8, x8, x0, lsl #3
	add	x0, x8, #24
	b	Lp_BB6_12
Lp_BB6_9:
	bl	_tlsf_too_long
	b	Lp_BB6_11
Lp_BB6_10:
	mov	x19, x0
	mov	x8, x1
	mov	x1, x2
	mov	x2, x8
	bl	_tlsf_mixed_place
	lsr	x8, x0, #32
	cbz	x8, Lp_BB6_8
Lp_BB6_11:
	mov	x0, #0
Lp_BB6_12:
	.cfi_def_cfa wsp, 32
	ldp	x29, x30, [sp, #16]
	ldp	x20, x19, [sp], #32
	.cfi_def_cfa_offset 0
	.cfi_restore w30
	.cfi_restore w29
	.cfi_restore w19
	.cfi_restore w20
	ret
	.cfi_endproc
	.globl	_tlsf_malloc
	.p2align	2
_tlsf_malloc:
	.cfi_startproc
	ldrb	w8, [x0, #29]
	cmp	w8, #9
	b.hs	Lp_BB7_7
	mov	w8, #134217728
	cmp	x1, x8
	b.ls	Lp_BB7_3
	mov	x0, #0
	ret
Lp_BB7_3:
	stp	x20, x19, [sp, #-32]!
	.cfi_def_cfa_offset 32
	stp	x29, x30, [sp, #16]
	add	x29, sp, #16
	.cfi_def_cfa w29, 16
	.cfi_offset w30, -8
	.cfi_offset w29, -16
	.cfi_offset w19, -24
	.cfi_offset w20, -32
	add	w8, w1, #7
	mov	w9, #8
	cmp	x1, #0
	csel	x9, x9, xzr, eq
	and	x8, x8, #0x1ffffff8
	orr	x1, x8, x9
	mov	x19, x0
	bl	_tlsf_allocate_place
	lsr	x8, x0, #32
	cbnz	x8, Lp_BB7_5
	ldr	x8, [x19, #16]
	add	x8, x8, x0, lsl #3
	add	x0, x8, #24
	b	Lp_BB7_6
Lp_BB7_5:
	mov	x0, #0
Lp_BB7_6:
	.cfi_def_cfa wsp, 32
	ldp	x29, x30, [sp, #16]
	ldp	x20, x19, [sp], #32
	.cfi_def_cfa_offset 0
	.cfi_restore w30
	.cfi_restore w29
	.cfi_restore w19
	.cfi_restore w20
	ret
Lp_BB7_7:
	b	_tlsf_malloc_mixed
	.cfi_endproc
	.p2align	2
_tlsf_malloc_mixed:
	.cfi_startproc
	stp	x20, x19, [sp, #-32]!
	.cfi_def_cfa_offset 32
	stp	x29, x30, [sp, #16]
	add	x29, sp, #16
	.cfi_def_cfa w29, 16
	.cfi_offset w30, -8
	.cfi_offset w29, -16
	.cfi_offset w19, -24
	.cfi_offset w20, -32
	.cfi_remember_state
	ldrb	w8, [x0, #29]
	tst	w8, #0xfffffff7
	b.ne	Lp_BB8_6
	mov	x19, x0
	; InlineAsm Start
	; InlineAsm End
	bl	_tlsf_allocate_payload
	cbz	x0, Lp_BB8_4
	ldr	x8, [x19, #16]
	add	x1, x8, x0
	tst	x1, #0x7
	b.eq	Lp_BB8_5
	mov	x0, x19
	.cfi_def_cfa wsp, 32
	ldp	x29, x30, [sp, #16]
	ldp	x20, x19, [sp], #32
	.cfi_def_cfa_offset 0
	.cfi_restore w30
	.cfi_restore w29
	.cfi_restore w19
	.cfi_restore w20
	b	_tlsf_malloc_again
Lp_BB8_4:
	.cfi_restore_state
	.cfi_remember_state
	mov	x1, #0
Lp_BB8_5:
	mov	x0, x1
	.cfi_def_cfa wsp, 32
	ldp	x29, x30, [sp, #16]
	ldp	x20, x19, [sp], #32
	.cfi_def_cfa_offset 0
	.cfi_restore w30
	.cfi_restore w29
	.cfi_restore w19
	.cfi_restore w20
	ret
Lp_BB8_6:
	.cfi_restore_state
	.cfi_def_cfa wsp, 32
	ldp	x29, x30, [sp, #16]
	ldp	x20, x19, [sp], #32
	.cfi_def_cfa_offset 0
	.cfi_restore w30
	.cfi_restore w29
	.cfi_restore w19
	.cfi_restore w20
	b	_tlsf_malloc_own
	.cfi_endproc
	.globl	_tlsf_words_for
	.p2align	2
_tlsf_words_for:
	.cfi_startproc
	mov	w8, #16
	cmp	x3, #16
	csel	x8, x3, x8, hi
	mov	w9, #134217728
	cmp	x8, x9
	csel	x8, x8, x9, lo
	cmp	x2, x9
	csel	x9, x2, x9, lo
	add	w9, w9, #7
	mov	w10, #8
	cmp	x2, #0
	csel	x10, x10, xzr, eq
	and	x9, x9, #0x1ffffff8
	orr	x9, x9, x10
	add	x8, x8, x9
	add	x2, x8, #32
	mov	x3, x4
	b	_tlsf_words
	.cfi_endproc
	.globl	_tlsf_calloc
	.p2align	2
_tlsf_calloc:
	.cfi_startproc
	sub	sp, sp, #48
	.cfi_def_cfa_offset 48
	stp	x20, x19, [sp, #16]
	stp	x29, x30, [sp, #32]
	add	x29, sp, #32
	.cfi_def_cfa w29, 16
	.cfi_offset w30, -8
	.cfi_offset w29, -16
	.cfi_offset w19, -24
	.cfi_offset w20, -32
	.cfi_remember_state
	mov	x19, x0
	stp	xzr, xzr, [sp]
	cbz	x2, Lp_BB10_2
	mov	w8, #134217728
	udiv	x8, x8, x2
	cmp	x1, x8
	b.hi	Lp_BB10_4
Lp_BB10_2:
	mul	x20, x2, x1
	ldrb	w8, [x19, #29]
	cmp	w8, #9
	b.hs	Lp_BB10_8
	mov	x8, #-1
	add	x9, x20, #7
	mov	w10, #8
	cmp	x20, #0
	csel	x10, x10, xzr, eq
	and	x9, x9, #0xfffffffffffffff8
	orr	x9, x9, x10
	cmn	x20, #16
	csel	x1, x8, x9, hi
	mov	x2, sp
	mov	x0, x19
	bl	_tlsf_allocate
	cbz	w0, Lp_BB10_5
Lp_BB10_4:
	mov	x0, #0
	b	Lp_BB10_6
Lp_BB10_5:
	ldr	w8, [sp, #4]
	ldr	x9, [x19, #16]
	add	x8, x9, x8, lsl #3
	add	x0, x8, #24
Lp_BB10_6:
	.cfi_def_cfa wsp, 48
Lp_BB10_7:
	ldp	x29, x30, [sp, #32]
	ldp	x20, x19, [sp, #16]
	add	sp, sp, #48
	.cfi_def_cfa_offset 0
	.cfi_restore w30
	.cfi_restore w29
	.cfi_restore w19
	.cfi_restore w20
	ret
Lp_BB10_8:
	.cfi_restore_state
	mov	x0, x19
	mov	x1, x20
	bl	_tlsf_malloc_mixed
	cbz	x0, Lp_BB10_6
	mov	x19, x0
	mov	x1, x20
	bl	_bzero
	mov	x0, x19
	.cfi_def_cfa wsp, 48
	b	Lp_BB10_7
	.cfi_endproc
	.globl	_tlsf_free
	.p2align	2
_tlsf_free:
	.cfi_startproc
	cbz	x1, Lp_BB11_2
	prfum	pstl1keep, [x1, #-24]
	ldr	x8, [x0, #16]
	sub	x8, x1, x8
	sub	x8, x8, #24
	ror	x8, x8, #3
	mov	w9, #-1
	cmp	x8, x9
	csel	x1, x8, x9, lo
	b	_tlsf_release_place
Lp_BB11_2:
	mov	w0, #0
	ret
	.cfi_endproc
	.globl	_tlsf_usable_size
	.p2align	2
_tlsf_usable_size:
	.cfi_startproc
	sub	sp, sp, #48
	.cfi_def_cfa_offset 48
	stp	x29, x30, [sp, #32]
	add	x29, sp, #32
	.cfi_def_cfa w29, 16
	.cfi_offset w30, -8
	.cfi_offset w29, -16
	stp	xzr, xzr, [sp, #16]
	str	wzr, [sp, #12]
	ldr	x8, [x0, #16]
	sub	x8, x1, x8
	sub	x8, x8, #24
	ror	x8, x8, #3
	mov	w9, #-1
	cmp	x8, x9
	csel	x1, x8, x9, lo
	add	x2, sp, #16
	add	x3, sp, #12
	bl	_tlsf_place
	ldr	w8, [sp, #12]
	cmp	w0, #0
	csel	w0, w8, wzr, eq
	.cfi_def_cfa wsp, 48
	ldp	x29, x30, [sp, #32]
	add	sp, sp, #48
	.cfi_def_cfa_offset 0
	.cfi_restore w30
	.cfi_restore w29
	ret
	.cfi_endproc
	.globl	_tlsf_name_at
	.p2align	2
_tlsf_name_at:
	.cfi_startproc
	sub	sp, sp, #64
	.cfi_def_cfa_offset 64
	stp	x20, x19, [sp, #32]
	stp	x29, x30, [sp, #48]
	add	x29, sp, #48
	.cfi_def_cfa w29, 16
	.cfi_offset w30, -8
	.cfi_offset w29, -16
	.cfi_offset w19, -24
	.cfi_offset w20, -32
	mov	x19, x2
	stp	xzr, xzr, [sp, #16]
	str	wzr, [sp, #12]
	ldr	x8, [x0, #16]
	sub	x8, x1, x8
	sub	x8, x8, #24
	ror	x8, x8, #3
	mov	w9, #-1
	cmp	x8, x9
	csel	x1, x8, x9, lo
	add	x2, sp, #16
	add	x3, sp, #12
	bl	_tlsf_place
	cbnz	w0, Lp_BB13_2
	ldr	q0, [sp, #16]
	str	q0, [x19]
Lp_BB13_2:
	.cfi_def_cfa wsp, 64
	ldp	x29, x30, [sp, #48]
	ldp	x20, x19, [sp, #32]
	add	sp, sp, #64
	.cfi_def_cfa_offset 0
	.cfi_restore w30
	.cfi_restore w29
	.cfi_restore w19
	.cfi_restore w20
	ret
	.cfi_endproc
	.globl	_tlsf_realloc
	.p2align	2
_tlsf_realloc:
	.cfi_startproc
	sub	sp, sp, #48
	.cfi_def_cfa_offset 48
	stp	x20, x19, [sp, #16]
	stp	x29, x30, [sp, #32]
	add	x29, sp, #32
	.cfi_def_cfa w29, 16
	.cfi_offset w30, -8
	.cfi_offset w29, -16
	.cfi_offset w19, -24
	.cfi_offset w20, -32
	.cfi_remember_state
	cbz	x1, Lp_BB14_6
	cbz	x2, Lp_BB14_12
	mov	w8, #134217728
	cmp	x2, x8
	b.hi	Lp_BB14_11
	ldrb	w8, [x0, #29]
	cmp	w8, #9
	b.hs	Lp_BB14_15
	ldr	x8, [x0, #16]
	sub	x8, x1, x8
	sub	x8, x8, #24
	ror	x8, x8, #3
	mov	w9, #-1
	cmp	x8, x9
	csel	x1, x8, x9, lo
	add	w8, w2, #7
	str	w1, [sp, #12]
	and	x2, x8, #0x1ffffff8
	add	x3, sp, #12
	mov	x19, x0
	bl	_tlsf_resize_place
	cbnz	w0, Lp_BB14_11
	ldr	x8, [x19, #16]
	ldr	w9, [sp, #12]
	add	x8, x8, x9, lsl #3
	b	Lp_BB14_10
Lp_BB14_6:
	ldrb	w8, [x0, #29]
	cmp	w8, #9
	b.hs	Lp_BB14_14
	mov	w8, #134217728
	cmp	x2, x8
	b.hi	Lp_BB14_11
	add	w8, w2, #7
	mov	w9, #8
	cmp	x2, #0
	csel	x9, x9, xzr, eq
	and	x8, x8, #0x1ffffff8
	orr	x1, x8, x9
	mov	x19, x0
	bl	_tlsf_allocate_place
	lsr	x8, x0, #32
	cbnz	x8, Lp_BB14_11
	ldr	x8, [x19, #16]
	add	x8, x8, x0, lsl #3
Lp_BB14_10:
	add	x0, x8, #24
	b	Lp_BB14_13
Lp_BB14_11:
	mov	x0, #0
	b	Lp_BB14_13
Lp_BB14_12:
	prfum	pstl1keep, [x1, #-24]
	ldr	x8, [x0, #16]
	sub	x8, x1, x8
	sub	x8, x8, #24
	ror	x8, x8, #3
	mov	w9, #-1
	cmp	x8, x9
	csel	x1, x8, x9, lo
	bl	_tlsf_release_place
	mov	x0, #0
Lp_BB14_13:
	.cfi_def_cfa wsp, 48
	ldp	x29, x30, [sp, #32]
	ldp	x20, x19, [sp, #16]
	add	sp, sp, #48
	.cfi_def_cfa_offset 0
	.cfi_restore w30
	.cfi_restore w29
	.cfi_restore w19
	.cfi_restore w20
	ret
Lp_BB14_14:
	.cfi_restore_state
	.cfi_remember_state
	mov	x1, x2
	.cfi_def_cfa wsp, 48
	ldp	x29, x30, [sp, #32]
	ldp	x20, x19, [sp, #16]
	add	sp, sp, #48
	.cfi_def_cfa_offset 0
	.cfi_restore w30
	.cfi_restore w29
	.cfi_restore w19
	.cfi_restore w20
	b	_tlsf_malloc_mixed
Lp_BB14_15:
	.cfi_restore_state
	.cfi_def_cfa wsp, 48
	ldp	x29, x30, [sp, #32]
	ldp	x20, x19, [sp, #16]
	add	sp, sp, #48
	.cfi_def_cfa_offset 0
	.cfi_restore w30
	.cfi_restore w29
	.cfi_restore w19
	.cfi_restore w20
	b	_tlsf_realloc_mixed
	.cfi_endproc
	.p2align	2
_tlsf_realloc_mixed:
	.cfi_startproc
	sub	sp, sp, #112
	.cfi_def_cfa_offset 112
	stp	x24, x23, [sp, #48]
	stp	x22, x21, [sp, #64]
	stp	x20, x19, [sp, #80]
	stp	x29, x30, [sp, #96]
	add	x29, sp, #96
	.cfi_def_cfa w29, 16
	.cfi_offset w30, -8
	.cfi_offset w29, -16
	.cfi_offset w19, -24
	.cfi_offset w20, -32
	.cfi_offset w21, -40
	.cfi_offset w22, -48
	.cfi_offset w23, -56
	.cfi_offset w24, -64
	mov	x21, x2
	mov	x19, x0
	stp	xzr, xzr, [sp]
	ldr	x8, [x0, #16]
	sub	x8, x1, x8
	sub	x8, x8, #24
	ror	x8, x8, #3
	str	xzr, [sp, #16]
	mov	w9, #-1
	cmp	x8, x9
	csel	x20, x8, x9, lo
	ldrb	w8, [x0, #29]
	tst	w8, #0xfffffff7
	b.eq	Lp_BB15_8
	mov	x22, x1
	add	x9, x21, x8
	add	x9, x9, #23
	neg	x8, x8
	and	x8, x9, x8
	sub	x23, x8, #24
	mov	x2, sp
	mov	x0, x19
	mov	x1, x20
	bl	_tlsf_block_at
	ldr	w8, [sp, #8]
	cmp	w0, #0
	ccmp	w8, #0, #4, eq
	b.eq	Lp_BB15_7
	ldr	w8, [sp, #4]
	lsl	w9, w8, #3
	sub	w9, w9, #24
	cmp	x23, x9
	csel	x10, x23, x9, lo
	cmp	x21, x9
	csel	x23, x23, x10, hi
	lsr	x9, x23, #3
	add	x24, x9, #3
	stp	xzr, xzr, [sp, #24]
	str	xzr, [sp, #40]
	cmp	x24, x8
	b.ls	Lp_BB15_7
	ldr	w9, [sp]
	add	w1, w9, w8
	add	x2, sp, #24
	mov	x0, x19
	bl	_tlsf_block_at
	ldr	w8, [sp, #32]
	orr	w8, w0, w8
	cbnz	w8, Lp_BB15_5
	ldr	w8, [sp, #4]
	ldr	w9, [sp, #28]
	add	w8, w9, w8
	cmp	x24, x8
	b.ls	Lp_BB15_7
Lp_BB15_5:
	mov	x0, x19
	mov	x1, x21
	bl	_tlsf_malloc
	mov	x20, x0
	cbz	x0, Lp_BB15_12
	ldr	w8, [sp, #12]
	cmp	x21, x8
	csel	x2, x21, x8, lo
	mov	x0, x20
	mov	x1, x22
	bl	_memcpy
	ldr	w1, [sp]
	mov	x0, x19
	bl	_tlsf_release_place
	b	Lp_BB15_12
Lp_BB15_7:
	str	w20, [sp, #24]
	add	x3, sp, #24
	mov	x0, x19
	mov	x1, x20
	mov	x2, x23
	b	Lp_BB15_9
Lp_BB15_8:
	add	w8, w21, #7
	str	w20, [sp, #24]
	and	x2, x8, #0x1ffffff8
	add	x3, sp, #24
	mov	x0, x19
	mov	x1, x20
Lp_BB15_9:
	bl	_tlsf_resize_place
	cbz	w0, Lp_BB15_11
	mov	x20, #0
	b	Lp_BB15_12
Lp_BB15_11:
	ldr	x8, [x19, #16]
	ldr	w9, [sp, #24]
	add	x8, x8, x9, lsl #3
	add	x20, x8, #24
Lp_BB15_12:
	mov	x0, x20
	.cfi_def_cfa wsp, 112
	ldp	x29, x30, [sp, #96]
	ldp	x20, x19, [sp, #80]
	ldp	x22, x21, [sp, #64]
	ldp	x24, x23, [sp, #48]
	add	sp, sp, #112
	.cfi_def_cfa_offset 0
	.cfi_restore w30
	.cfi_restore w29
	.cfi_restore w19
	.cfi_restore w20
	.cfi_restore w21
	.cfi_restore w22
	.cfi_restore w23
	.cfi_restore w24
	ret
	.cfi_endproc
	.globl	_tlsf_aligned_realloc
	.p2align	2
_tlsf_aligned_realloc:
	.cfi_startproc
	sub	sp, sp, #128
	.cfi_def_cfa_offset 128
	stp	x26, x25, [sp, #48]
	stp	x24, x23, [sp, #64]
	stp	x22, x21, [sp, #80]
	stp	x20, x19, [sp, #96]
	stp	x29, x30, [sp, #112]
	add	x29, sp, #112
	.cfi_def_cfa w29, 16
	.cfi_offset w30, -8
	.cfi_offset w29, -16
	.cfi_offset w19, -24
	.cfi_offset w20, -32
	.cfi_offset w21, -40
	.cfi_offset w22, -48
	.cfi_offset w23, -56
	.cfi_offset w24, -64
	.cfi_offset w25, -72
	.cfi_offset w26, -80
	.cfi_remember_state
	cbz	x1, Lp_BB16_5
	cbz	x2, Lp_BB16_3
	sub	x9, x2, #1
	tst	x2, x9
	b.eq	Lp_BB16_6
Lp_BB16_3:
	mov	x0, #0
Lp_BB16_4:
	.cfi_def_cfa wsp, 128
	ldp	x29, x30, [sp, #112]
	ldp	x20, x19, [sp, #96]
	ldp	x22, x21, [sp, #80]
	ldp	x24, x23, [sp, #64]
	ldp	x26, x25, [sp, #48]
	add	sp, sp, #128
	.cfi_def_cfa_offset 0
	.cfi_restore w30
	.cfi_restore w29
	.cfi_restore w19
	.cfi_restore w20
	.cfi_restore w21
	.cfi_restore w22
	.cfi_restore w23
	.cfi_restore w24
	.cfi_restore w25
	.cfi_restore w26
	ret
Lp_BB16_5:
	.cfi_restore_state
	.cfi_remember_state
	mov	x1, x2
	mov	x2, x3
	.cfi_def_cfa wsp, 128
	ldp	x29, x30, [sp, #112]
	ldp	x20, x19, [sp, #96]
	ldp	x22, x21, [sp, #80]
	ldp	x24, x23, [sp, #64]
	ldp	x26, x25, [sp, #48]
	add	sp, sp, #128
	.cfi_def_cfa_offset 0
	.cfi_restore w30
	.cfi_restore w29
	.cfi_restore w19
	.cfi_restore w20
	.cfi_restore w21
	.cfi_restore w22
	.cfi_restore w23
	.cfi_restore w24
	.cfi_restore w25
	.cfi_restore w26
	b	_tlsf_aligned_alloc
Lp_BB16_6:
	.cfi_restore_state
	.cfi_remember_state
	cbz	x3, Lp_BB16_11
	mov	w8, #134217728
	cmp	x3, x8
	b.hi	Lp_BB16_3
	ldrb	w8, [x0, #29]
	mov	w10, #8
	cmp	w8, #0
	csel	w10, w10, w8, eq
	ands	x25, x9, x1
	b.ne	Lp_BB16_12
	cmp	x2, x10
	b.hi	Lp_BB16_12
	mov	x2, x3
	.cfi_def_cfa wsp, 128
	ldp	x29, x30, [sp, #112]
	ldp	x20, x19, [sp, #96]
	ldp	x22, x21, [sp, #80]
	ldp	x24, x23, [sp, #64]
	ldp	x26, x25, [sp, #48]
	add	sp, sp, #128
	.cfi_def_cfa_offset 0
	.cfi_restore w30
	.cfi_restore w29
	.cfi_restore w19
	.cfi_restore w20
	.cfi_restore w21
	.cfi_restore w22
	.cfi_restore w23
	.cfi_restore w24
	.cfi_restore w25
	.cfi_restore w26
	b	_tlsf_realloc
Lp_BB16_11:
	.cfi_restore_state
	prfum	pstl1keep, [x1, #-24]
	ldr	x8, [x0, #16]
	sub	x8, x1, x8
	sub	x8, x8, #24
	ror	x8, x8, #3
	mov	w9, #-1
	cmp	x8, x9
	csel	x1, x8, x9, lo
	bl	_tlsf_release_place
	b	Lp_BB16_3
Lp_BB16_12:
	stp	xzr, xzr, [sp]
	str	xzr, [sp, #16]
	ldr	x9, [x0, #16]
	sub	x9, x1, x9
	sub	x9, x9, #24
	ror	x9, x9, #3
	mov	w10, #-1
	cmp	x9, x10
	csel	x20, x9, x10, lo
	tst	w8, #0xfffffff7
	mov	x23, x3
	mov	x24, x2
	mov	x21, x1
	b.eq	Lp_BB16_14
	add	x9, x3, x8
	add	x9, x9, #23
	neg	x8, x8
	and	x8, x9, x8
	sub	x22, x8, #24
	b	Lp_BB16_15
Lp_BB16_14:
	add	w8, w3, #7
	and	x22, x8, #0x1ffffff8
Lp_BB16_15:
	mov	x2, sp
	mov	x19, x0
	mov	x1, x20
	bl	_tlsf_block_at
	cbnz	w0, Lp_BB16_20
	ldr	w8, [sp, #8]
	cbz	w8, Lp_BB16_20
	ldr	w8, [sp, #4]
	lsl	w9, w8, #3
	sub	w9, w9, #24
	cmp	x22, x9
	csel	x10, x22, x9, lo
	mov	x2, x23
	cmp	x23, x9
	csel	x22, x22, x10, hi
	mov	x0, x19
	mov	x1, x24
	cbz	x25, Lp_BB16_23
Lp_BB16_18:
	bl	_tlsf_aligned_alloc
	cbz	x0, Lp_BB16_4
	ldr	w8, [sp, #12]
	cmp	x23, x8
	csel	x2, x23, x8, lo
	mov	x20, x0
	mov	x1, x21
	bl	_memcpy
	ldr	w1, [sp]
	mov	x0, x19
	bl	_tlsf_release_place
	mov	x0, x20
	b	Lp_BB16_4
Lp_BB16_20:
	str	w20, [sp, #24]
	add	x3, sp, #24
	mov	x0, x19
Lp_BB16_21:
	mov	x1, x20
	mov	x2, x22
	bl	_tlsf_resize_place
	cbnz	w0, Lp_BB16_3
	ldr	x8, [x19, #16]
	ldr	w9, [sp, #24]
	add	x8, x8, x9, lsl #3
	add	x0, x8, #24
	b	Lp_BB16_4
Lp_BB16_23:
	lsr	x9, x22, #3
	add	x25, x9, #3
	stp	xzr, xzr, [sp, #24]
	str	xzr, [sp, #40]
	cmp	x25, x8
	b.ls	Lp_BB16_26
	ldr	w9, [sp]
	add	w1, w9, w8
	add	x2, sp, #24
	bl	_tlsf_block_at
	ldr	w8, [sp, #32]
	orr	w8, w0, w8
	cbnz	w8, Lp_BB16_27
	ldr	w8, [sp, #4]
	ldr	w9, [sp, #28]
	add	w8, w9, w8
	cmp	x25, x8
	mov	x0, x19
	mov	x2, x23
	mov	x1, x24
	b.hi	Lp_BB16_18
Lp_BB16_26:
	str	w20, [sp, #24]
	add	x3, sp, #24
	b	Lp_BB16_21
Lp_BB16_27:
	mov	x0, x19
	mov	x2, x23
	mov	x1, x24
	b	Lp_BB16_18
	.cfi_endproc
	.globl	_tlsf_allocate_at
	.p2align	2
_tlsf_allocate_at:
	.cfi_startproc
	stp	x26, x25, [sp, #-80]!
	.cfi_def_cfa_offset 80
	stp	x24, x23, [sp, #16]
	stp	x22, x21, [sp, #32]
	stp	x20, x19, [sp, #48]
	stp	x29, x30, [sp, #64]
	add	x29, sp, #64
	.cfi_def_cfa w29, 16
	.cfi_offset w30, -8
	.cfi_offset w29, -16
	.cfi_offset w19, -24
	.cfi_offset w20, -32
	.cfi_offset w21, -40
	.cfi_offset w22, -48
	.cfi_offset w23, -56
	.cfi_offset w24, -64
	.cfi_offset w25, -72
	.cfi_offset w26, -80
	.cfi_remember_state
	sub	x8, x2, #1
	eor	x9, x2, x8
	cmp	x9, x8
	b.ls	Lp_BB17_6
	mov	x21, x0
	mov	w8, #134217728
	cmp	x1, x8
	b.hi	Lp_BB17_15
	mov	w8, #134217728
	cmp	x2, x8
	b.hi	Lp_BB17_15
	mov	x19, x5
	mov	x20, x4
	mov	x22, x3
	ldrb	w8, [x21, #29]
	cmp	w8, #9
	b.hs	Lp_BB17_16
	add	w8, w1, #7
	mov	w9, #8
	mov	x23, x1
	cmp	x1, #0
	csel	x9, x9, xzr, eq
	and	x10, x8, #0x1ffffff8
	cmp	x2, #8
	b.hi	Lp_BB17_7
	orr	x1, x10, x9
	mov	x0, x21
	bl	_tlsf_allocate_place
	lsr	x8, x0, #32
	cbnz	x8, Lp_BB17_14
	b	Lp_BB17_8
Lp_BB17_6:
	mov	w8, #5
	b	Lp_BB17_14
Lp_BB17_7:
	lsr	x8, x2, #3
	ldr	w11, [x21, #16]
	sub	w12, w2, #1
	and	w11, w12, w11
	lsr	w3, w11, #3
	orr	x1, x10, x9
	mov	x0, x21
	mov	x2, x8
	bl	_tlsf_allocate_aligned
	lsr	x8, x0, #32
	cbnz	x8, Lp_BB17_14
Lp_BB17_8:
	ldr	w24, [x21, #24]
	tbnz	w22, #0, Lp_BB17_13
	ldr	x8, [x21, #16]
	add	x8, x8, x0, lsl #3
	ldrb	w9, [x21, #29]
	mov	x22, x1
	mov	x25, x0
	tst	w9, #0xfffffff7
	b.eq	Lp_BB17_11
	cmp	x23, #1
	csinc	x10, x23, xzr, hi
	add	x10, x10, x9
	add	x10, x10, #23
	neg	x9, x9
	and	x9, x10, x9
	sub	x1, x9, #24
	b	Lp_BB17_12
Lp_BB17_11:
	add	w9, w23, #7
	mov	w10, #8
	cmp	x23, #0
	csel	x10, x10, xzr, eq
	and	x9, x9, #0x1ffffff8
	orr	x1, x9, x10
Lp_BB17_12:
	add	x0, x8, #24
	bl	_bzero
	mov	x0, x25
	mov	x1, x22
Lp_BB17_13:
	mov	w8, #0
	stp	w24, w0, [x20]
	str	x1, [x20, #8]
	ldr	x9, [x21, #16]
	add	x9, x9, x0, lsl #3
	add	x9, x9, #24
	str	x9, [x19]
Lp_BB17_14:
	mov	x0, x8
	.cfi_def_cfa wsp, 80
	ldp	x29, x30, [sp, #64]
	ldp	x20, x19, [sp, #48]
	ldp	x22, x21, [sp, #32]
	ldp	x24, x23, [sp, #16]
	ldp	x26, x25, [sp], #80
	.cfi_def_cfa_offset 0
	.cfi_restore w30
	.cfi_restore w29
	.cfi_restore w19
	.cfi_restore w20
	.cfi_restore w21
	.cfi_restore w22
	.cfi_restore w23
	.cfi_restore w24
	.cfi_restore w25
	.cfi_restore w26
	ret
Lp_BB17_15:
	.cfi_restore_state
	.cfi_remember_state
	mov	x0, x21
	.cfi_def_cfa wsp, 80
	ldp	x29, x30, [sp, #64]
	ldp	x20, x19, [sp, #48]
	ldp	x22, x21, [sp, #32]
	ldp	x24, x23, [sp, #16]
	ldp	x26, x25, [sp], #80
	.cfi_def_cfa_offset 0
	.cfi_restore w30
	.cfi_restore w29
	.cfi_restore w19
	.cfi_restore w20
	.cfi_restore w21
	.cfi_restore w22
	.cfi_restore w23
	.cfi_restore w24
	.cfi_restore w25
	.cfi_restore w26
	b	_tlsf_too_long
Lp_BB17_16:
	.cfi_restore_state
	mov	x0, x21
	mov	x23, x1
	bl	_tlsf_mixed_place
	lsr	x8, x0, #32
	cbnz	x8, Lp_BB17_14
	b	Lp_BB17_8
	.cfi_endproc
	.globl	_tlsf_payload
	.p2align	2
_tlsf_payload:
	.cfi_startproc
	sub	sp, sp, #48
	.cfi_def_cfa_offset 48
	stp	x20, x19, [sp, #16]
	stp	x29, x30, [sp, #32]
	add	x29, sp, #32
	.cfi_def_cfa w29, 16
	.cfi_offset w30, -8
	.cfi_offset w29, -16
	.cfi_offset w19, -24
	.cfi_offset w20, -32
	mov	x19, x3
	mov	x20, x1
	str	xzr, [sp, #8]
	str	wzr, [sp, #4]
	add	x3, sp, #8
	add	x4, sp, #4
	bl	_tlsf_locate
	mov	x8, x0
	mov	x0, #0
	cbnz	w8, Lp_BB18_4
	lsr	x8, x20, #32
	cbz	x19, Lp_BB18_3
	ldr	w9, [sp, #4]
	str	w9, [x19]
Lp_BB18_3:
	ldr	x9, [sp, #8]
	add	x8, x9, x8, lsl #3
	add	x0, x8, #24
Lp_BB18_4:
	.cfi_def_cfa wsp, 48
	ldp	x29, x30, [sp, #32]
	ldp	x20, x19, [sp, #16]
	add	sp, sp, #48
	.cfi_def_cfa_offset 0
	.cfi_restore w30
	.cfi_restore w29
	.cfi_restore w19
	.cfi_restore w20
	ret
	.cfi_endproc
	.globl	_tlsf_pools_name_at
	.p2align	2
_tlsf_pools_name_at:
	.cfi_startproc
	sub	sp, sp, #96
	.cfi_def_cfa_offset 96
	stp	x24, x23, [sp, #32]
	stp	x22, x21, [sp, #48]
	stp	x20, x19, [sp, #64]
	stp	x29, x30, [sp, #80]
	add	x29, sp, #80
	.cfi_def_cfa w29, 16
	.cfi_offset w30, -8
	.cfi_offset w29, -16
	.cfi_offset w19, -24
	.cfi_offset w20, -32
	.cfi_offset w21, -40
	.cfi_offset w22, -48
	.cfi_offset w23, -56
	.cfi_offset w24, -64
	.cfi_remember_state
	mov	x19, x2
	mov	x21, x1
	mov	x20, x0
	str	wzr, [sp, #12]
	str	wzr, [sp, #28]
	str	xzr, [sp, #16]
	add	x2, sp, #16
	add	x3, sp, #28
	mov	w1, #0
	bl	_tlsf_pools_part
	mov	x24, #0
	mov	w22, #0
	cbz	w0, Lp_BB19_2
Lp_BB19_1:
	sub	x8, x21, x24
	sub	x8, x8, #24
	ror	x8, x8, #3
	mov	w9, #-1
	cmp	x8, x9
	csel	x2, x8, x9, lo
	add	x4, sp, #12
	mov	x0, x20
	mov	x1, x22
	mov	x3, x19
	bl	_tlsf_pools_place
	.cfi_def_cfa wsp, 96
	ldp	x29, x30, [sp, #80]
	ldp	x20, x19, [sp, #64]
	ldp	x22, x21, [sp, #48]
	ldp	x24, x23, [sp, #32]
	add	sp, sp, #96
	.cfi_def_cfa_offset 0
	.cfi_restore w30
	.cfi_restore w29
	.cfi_restore w19
	.cfi_restore w20
	.cfi_restore w21
	.cfi_restore w22
	.cfi_restore w23
	.cfi_restore w24
	ret
Lp_BB19_2:
	.cfi_restore_state
	mov	w23, #0
	b	Lp_BB19_5
Lp_BB19_3:
	mov	x24, x8
	mov	x22, x23
Lp_BB19_4:
	add	w23, w23, #1
	add	x2, sp, #16
	add	x3, sp, #28
	mov	x0, x20
	mov	x1, x23
	bl	_tlsf_pools_part
	cbnz	w0, Lp_BB19_1
Lp_BB19_5:
	ldr	x8, [sp, #16]
	cbz	w23, Lp_BB19_3
	sub	x9, x21, x8
	sub	x10, x21, x24
	cmp	x9, x10
	b.ls	Lp_BB19_3
	b	Lp_BB19_4
	.cfi_endproc
	.globl	_tlsf_pools_usable_size
	.p2align	2
_tlsf_pools_usable_size:
	.cfi_startproc
	sub	sp, sp, #112
	.cfi_def_cfa_offset 112
	stp	x24, x23, [sp, #48]
	stp	x22, x21, [sp, #64]
	stp	x20, x19, [sp, #80]
	stp	x29, x30, [sp, #96]
	add	x29, sp, #96
	.cfi_def_cfa w29, 16
	.cfi_offset w30, -8
	.cfi_offset w29, -16
	.cfi_offset w19, -24
	.cfi_offset w20, -32
	.cfi_offset w21, -40
	.cfi_offset w22, -48
	.cfi_offset w23, -56
	.cfi_offset w24, -64
	.cfi_remember_state
	mov	x20, x1
	mov	x19, x0
	stp	xzr, xzr, [sp, #16]
	str	wzr, [sp, #12]
	str	wzr, [sp, #44]
	str	xzr, [sp, #32]
	add	x2, sp, #32
	add	x3, sp, #44
	mov	w1, #0
	bl	_tlsf_pools_part
	mov	x23, #0
	mov	w21, #0
	cbz	w0, Lp_BB20_2
Lp_BB20_1:
	sub	x8, x20, x23
	sub	x8, x8, #24
	ror	x8, x8, #3
	mov	w9, #-1
	cmp	x8, x9
	csel	x2, x8, x9, lo
	add	x3, sp, #16
	add	x4, sp, #12
	mov	x0, x19
	mov	x1, x21
	bl	_tlsf_pools_place
	ldr	w8, [sp, #12]
	cmp	w0, #0
	csel	w0, w8, wzr, eq
	.cfi_def_cfa wsp, 112
	ldp	x29, x30, [sp, #96]
	ldp	x20, x19, [sp, #80]
	ldp	x22, x21, [sp, #64]
	ldp	x24, x23, [sp, #48]
	add	sp, sp, #112
	.cfi_def_cfa_offset 0
	.cfi_restore w30
	.cfi_restore w29
	.cfi_restore w19
	.cfi_restore w20
	.cfi_restore w21
	.cfi_restore w22
	.cfi_restore w23
	.cfi_restore w24
	ret
Lp_BB20_2:
	.cfi_restore_state
	mov	w22, #0
	b	Lp_BB20_5
Lp_BB20_3:
	mov	x23, x8
	mov	x21, x22
Lp_BB20_4:
	add	w22, w22, #1
	add	x2, sp, #32
	add	x3, sp, #44
	mov	x0, x19
	mov	x1, x22
	bl	_tlsf_pools_part
	cbnz	w0, Lp_BB20_1
Lp_BB20_5:
	ldr	x8, [sp, #32]
	cbz	w22, Lp_BB20_3
	sub	x9, x20, x8
	sub	x10, x20, x23
	cmp	x9, x10
	b.ls	Lp_BB20_3
	b	Lp_BB20_4
	.cfi_endproc
	.globl	_tlsf_pools_free
	.p2align	2
_tlsf_pools_free:
	.cfi_startproc
	sub	sp, sp, #112
	.cfi_def_cfa_offset 112
	stp	x24, x23, [sp, #48]
	stp	x22, x21, [sp, #64]
	stp	x20, x19, [sp, #80]
	stp	x29, x30, [sp, #96]
	add	x29, sp, #96
	.cfi_def_cfa w29, 16
	.cfi_offset w30, -8
	.cfi_offset w29, -16
	.cfi_offset w19, -24
	.cfi_offset w20, -32
	.cfi_offset w21, -40
	.cfi_offset w22, -48
	.cfi_offset w23, -56
	.cfi_offset w24, -64
	.cfi_remember_state
	stp	xzr, xzr, [sp, #8]
	cbz	x1, Lp_BB21_4
	mov	x20, x1
	mov	x19, x0
	str	wzr, [sp, #28]
	str	wzr, [sp, #44]
	str	xzr, [sp, #32]
	add	x2, sp, #32
	add	x3, sp, #44
	mov	w1, #0
	bl	_tlsf_pools_part
	mov	x23, #0
	mov	w21, #0
	cbz	w0, Lp_BB21_6
Lp_BB21_2:
	sub	x8, x20, x23
	sub	x8, x8, #24
	ror	x8, x8, #3
	mov	w9, #-1
	cmp	x8, x9
	csel	x2, x8, x9, lo
	add	x3, sp, #8
	add	x4, sp, #28
	mov	x0, x19
	mov	x1, x21
	bl	_tlsf_pools_place
	cbnz	w0, Lp_BB21_5
	ldp	x1, x2, [sp, #8]
	mov	x0, x19
	bl	_tlsf_pools_release
	b	Lp_BB21_5
Lp_BB21_4:
	mov	w0, #0
Lp_BB21_5:
	.cfi_def_cfa wsp, 112
	ldp	x29, x30, [sp, #96]
	ldp	x20, x19, [sp, #80]
	ldp	x22, x21, [sp, #64]
	ldp	x24, x23, [sp, #48]
	add	sp, sp, #112
	.cfi_def_cfa_offset 0
	.cfi_restore w30
	.cfi_restore w29
	.cfi_restore w19
	.cfi_restore w20
	.cfi_restore w21
	.cfi_restore w22
	.cfi_restore w23
	.cfi_restore w24
	ret
Lp_BB21_6:
	.cfi_restore_state
	mov	w22, #0
	b	Lp_BB21_9
Lp_BB21_7:
	mov	x23, x8
	mov	x21, x22
Lp_BB21_8:
	add	w22, w22, #1
	add	x2, sp, #32
	add	x3, sp, #44
	mov	x0, x19
	mov	x1, x22
	bl	_tlsf_pools_part
	cbnz	w0, Lp_BB21_2
Lp_BB21_9:
	ldr	x8, [sp, #32]
	cbz	w22, Lp_BB21_7
	sub	x9, x20, x8
	sub	x10, x20, x23
	cmp	x9, x10
	b.ls	Lp_BB21_7
	b	Lp_BB21_8
	.cfi_endproc
	.globl	_tlsf_pools_malloc
	.p2align	2
_tlsf_pools_malloc:
	.cfi_startproc
	sub	sp, sp, #80
	.cfi_def_cfa_offset 80
	stp	x20, x19, [sp, #48]
	stp	x29, x30, [sp, #64]
	add	x29, sp, #64
	.cfi_def_cfa w29, 16
	.cfi_offset w30, -8
	.cfi_offset w29, -16
	.cfi_offset w19, -24
	.cfi_offset w20, -32
	.cfi_remember_state
	mov	x19, x0
	str	wzr, [sp, #12]
	add	x2, sp, #12
	bl	_tlsf_pools_row
	cbnz	w0, Lp_BB22_3
	ldr	w1, [sp, #12]
	stp	xzr, xzr, [sp, #32]
	str	wzr, [sp, #28]
	str	xzr, [sp, #16]
	add	x2, sp, #32
	mov	x0, x19
	bl	_tlsf_pools_allocate
	cbnz	w0, Lp_BB22_3
	add	x2, sp, #16
	add	x3, sp, #28
	mov	x0, x19
	mov	w1, #0
	bl	_tlsf_pools_part
	cbz	w0, Lp_BB22_5
Lp_BB22_3:
	mov	x0, #0
Lp_BB22_4:
	.cfi_def_cfa wsp, 80
	ldp	x29, x30, [sp, #64]
	ldp	x20, x19, [sp, #48]
	add	sp, sp, #80
	.cfi_def_cfa_offset 0
	.cfi_restore w30
	.cfi_restore w29
	.cfi_restore w19
	.cfi_restore w20
	ret
Lp_BB22_5:
	.cfi_restore_state
	ldp	w9, w8, [sp, #28]
	subs	w1, w8, w9
	b.eq	Lp_BB22_7
	add	x2, sp, #16
	add	x3, sp, #28
	mov	x0, x19
	bl	_tlsf_pools_part
	cbnz	w0, Lp_BB22_3
Lp_BB22_7:
	ldr	x8, [sp, #16]
	ldr	w9, [sp, #36]
	add	x8, x8, x9, lsl #3
	add	x0, x8, #24
	b	Lp_BB22_4
	.cfi_endproc
	.globl	_tlsf_pools_realloc
	.p2align	2
_tlsf_pools_realloc:
	.cfi_startproc
	sub	sp, sp, #128
	.cfi_def_cfa_offset 128
	stp	x24, x23, [sp, #64]
	stp	x22, x21, [sp, #80]
	stp	x20, x19, [sp, #96]
	stp	x29, x30, [sp, #112]
	add	x29, sp, #112
	.cfi_def_cfa w29, 16
	.cfi_offset w30, -8
	.cfi_offset w29, -16
	.cfi_offset w19, -24
	.cfi_offset w20, -32
	.cfi_offset w21, -40
	.cfi_offset w22, -48
	.cfi_offset w23, -56
	.cfi_offset w24, -64
	.cfi_remember_state
	mov	x21, x2
	mov	x20, x0
	stp	xzr, xzr, [sp, #16]
	str	xzr, [sp, #8]
	cbz	x1, Lp_BB23_12
	mov	x19, x1
	cbz	x21, Lp_BB23_13
	str	wzr, [sp, #32]
	str	xzr, [sp, #48]
	add	x2, sp, #48
	add	x3, sp, #32
	mov	x0, x20
	mov	w1, #0
	bl	_tlsf_pools_part
	mov	x24, #0
	mov	w22, #0
	cbz	w0, Lp_BB23_16
Lp_BB23_3:
	sub	x8, x19, x24
	sub	x8, x8, #24
	ror	x8, x8, #3
	mov	w9, #-1
	cmp	x8, x9
	csel	x2, x8, x9, lo
	add	x3, sp, #16
	add	x4, sp, #12
	mov	x0, x20
	mov	x1, x22
	bl	_tlsf_pools_place
	cbnz	w0, Lp_BB23_14
	add	x2, sp, #8
	mov	x0, x20
	mov	x1, x21
	bl	_tlsf_pools_row
	cbnz	w0, Lp_BB23_14
	ldp	w1, w8, [sp, #8]
	cmp	x21, x8
	b.hi	Lp_BB23_7
	cmp	w8, w1
	b.ls	Lp_BB23_15
Lp_BB23_7:
	stp	xzr, xzr, [sp, #48]
	str	wzr, [sp, #44]
	str	xzr, [sp, #32]
	add	x2, sp, #48
	mov	x0, x20
	bl	_tlsf_pools_allocate
	cbnz	w0, Lp_BB23_14
	add	x2, sp, #32
	add	x3, sp, #44
	mov	x0, x20
	mov	w1, #0
	bl	_tlsf_pools_part
	cbnz	w0, Lp_BB23_14
	ldp	w9, w8, [sp, #44]
	subs	w1, w8, w9
	b.eq	Lp_BB23_11
	add	x2, sp, #32
	add	x3, sp, #44
	mov	x0, x20
	bl	_tlsf_pools_part
	cbnz	w0, Lp_BB23_14
Lp_BB23_11:
	ldr	x8, [sp, #32]
	ldr	w9, [sp, #52]
	add	x8, x8, x9, lsl #3
	add	x22, x8, #24
	ldr	w8, [sp, #12]
	cmp	x21, x8
	csel	x2, x21, x8, lo
	mov	x0, x22
	mov	x1, x19
	bl	_memcpy
	ldp	x1, x2, [sp, #16]
	mov	x0, x20
	bl	_tlsf_pools_release
	mov	x19, x22
	b	Lp_BB23_15
Lp_BB23_12:
	mov	x0, x20
	mov	x1, x21
	.cfi_def_cfa wsp, 128
	ldp	x29, x30, [sp, #112]
	ldp	x20, x19, [sp, #96]
	ldp	x22, x21, [sp, #80]
	ldp	x24, x23, [sp, #64]
	add	sp, sp, #128
	.cfi_def_cfa_offset 0
	.cfi_restore w30
	.cfi_restore w29
	.cfi_restore w19
	.cfi_restore w20
	.cfi_restore w21
	.cfi_restore w22
	.cfi_restore w23
	.cfi_restore w24
	b	_tlsf_pools_malloc
Lp_BB23_13:
	.cfi_restore_state
	.cfi_remember_state
	mov	x0, x20
	mov	x1, x19
	bl	_tlsf_pools_free
Lp_BB23_14:
	mov	x19, #0
Lp_BB23_15:
	mov	x0, x19
	.cfi_def_cfa wsp, 128
	ldp	x29, x30, [sp, #112]
	ldp	x20, x19, [sp, #96]
	ldp	x22, x21, [sp, #80]
	ldp	x24, x23, [sp, #64]
	add	sp, sp, #128
	.cfi_def_cfa_offset 0
	.cfi_restore w30
	.cfi_restore w29
	.cfi_restore w19
	.cfi_restore w20
	.cfi_restore w21
	.cfi_restore w22
	.cfi_restore w23
	.cfi_restore w24
	ret
Lp_BB23_16:
	.cfi_restore_state
	mov	w23, #0
	b	Lp_BB23_19
Lp_BB23_17:
	mov	x24, x8
	mov	x22, x23
Lp_BB23_18:
	add	w23, w23, #1
	add	x2, sp, #48
	add	x3, sp, #32
	mov	x0, x20
	mov	x1, x23
	bl	_tlsf_pools_part
	cbnz	w0, Lp_BB23_3
Lp_BB23_19:
	ldr	x8, [sp, #48]
	cbz	w23, Lp_BB23_17
	sub	x9, x19, x8
	sub	x10, x19, x24
	cmp	x9, x10
	b.ls	Lp_BB23_17
	b	Lp_BB23_18
	.cfi_endproc
	.globl	_tlsf_text_of
	.p2align	2
_tlsf_text_of:
	.cfi_startproc
	cmp	w0, #40
	b.hi	Lp_BB24_2
Lp_loh0:
	adrp	x8, l_switch.table.tlsf_text_of@PAGE
Lp_loh1:
	add	x8, x8, l_switch.table.tlsf_text_of@PAGEOFF
	ldr	x0, [x8, w0, uxtw #3]
	ret
Lp_BB24_2:
Lp_loh2:
	adrp	x0, l_.str.20@PAGE
Lp_loh3:
	add	x0, x0, l_.str.20@PAGEOFF
	ret
	.loh AdrpAdd	Lp_loh0, Lp_loh1
	.loh AdrpAdd	Lp_loh2, Lp_loh3
	.cfi_endproc
	.p2align	2
_tlsf_too_long:
	.cfi_startproc
	sub	sp, sp, #48
	.cfi_def_cfa_offset 48
	stp	x29, x30, [sp, #32]
	add	x29, sp, #32
	.cfi_def_cfa w29, 16
	.cfi_offset w30, -8
	.cfi_offset w29, -16
	stp	xzr, xzr, [sp, #8]
	str	xzr, [sp, #24]
	add	x2, sp, #8
	mov	w1, #-1
	bl	_tlsf_block_at
	cmp	w0, #32
	csinc	w0, w0, wzr, eq
	.cfi_def_cfa wsp, 48
	ldp	x29, x30, [sp, #32]
	add	sp, sp, #48
	.cfi_def_cfa_offset 0
	.cfi_restore w30
	.cfi_restore w29
	ret
	.cfi_endproc
	.p2align	2
_tlsf_mixed_place:
	.cfi_startproc
	stp	x22, x21, [sp, #-48]!
	.cfi_def_cfa_offset 48
	stp	x20, x19, [sp, #16]
	stp	x29, x30, [sp, #32]
	add	x29, sp, #32
	.cfi_def_cfa w29, 16
	.cfi_offset w30, -8
	.cfi_offset w29, -16
	.cfi_offset w19, -24
	.cfi_offset w20, -32
	.cfi_offset w21, -40
	.cfi_offset w22, -48
	mov	x19, x0
	ldrb	w8, [x0, #29]
	mov	w9, #8
	cmp	w8, #0
	csel	w21, w9, w8, eq
	cmp	x1, #1
	csinc	x9, x1, xzr, hi
	add	x9, x9, x8
	add	x9, x9, #23
	neg	x10, x8
	and	x9, x9, x10
	sub	x9, x9, #24
	add	w10, w1, #7
	mov	w11, #8
	cmp	x1, #0
	csel	x11, x11, xzr, eq
	and	x10, x10, #0x1ffffff8
	orr	x10, x10, x11
	tst	w8, #0xfffffff7
	csel	x20, x9, x10, ne
	cmp	x2, x21
	b.hi	Lp_BB26_4
	mov	x0, x19
	mov	x1, x20
	bl	_tlsf_allocate_place
	mov	x8, x0
	lsr	x9, x0, #32
	cbnz	x9, Lp_BB26_5
	ldr	x9, [x19, #16]
	add	x9, x9, x8, lsl #3
	add	x9, x9, #24
	sub	x10, x21, #1
	tst	x10, x9
	b.eq	Lp_BB26_5
	mov	x0, x19
	mov	x1, x8
	bl	_tlsf_release_place
	mov	x2, x21
Lp_BB26_4:
	lsr	x8, x2, #3
	ldr	w9, [x19, #16]
	sub	w10, w2, #1
	and	w9, w10, w9
	lsr	w3, w9, #3
	mov	x0, x19
	mov	x1, x20
	mov	x2, x8
	bl	_tlsf_allocate_aligned
	mov	x8, x0
Lp_BB26_5:
	mov	x0, x8
	.cfi_def_cfa wsp, 48
	ldp	x29, x30, [sp, #32]
	ldp	x20, x19, [sp, #16]
	ldp	x22, x21, [sp], #48
	.cfi_def_cfa_offset 0
	.cfi_restore w30
	.cfi_restore w29
	.cfi_restore w19
	.cfi_restore w20
	.cfi_restore w21
	.cfi_restore w22
	ret
	.cfi_endproc
	.p2align	2
_tlsf_malloc_own:
	.cfi_startproc
	mov	w8, #134217728
	cmp	x1, x8
	b.ls	Lp_BB27_2
	mov	x0, #0
	ret
Lp_BB27_2:
	stp	x20, x19, [sp, #-32]!
	.cfi_def_cfa_offset 32
	stp	x29, x30, [sp, #16]
	add	x29, sp, #16
	.cfi_def_cfa w29, 16
	.cfi_offset w30, -8
	.cfi_offset w29, -16
	.cfi_offset w19, -24
	.cfi_offset w20, -32
	mov	x19, x0
	mov	w2, #1
	bl	_tlsf_mixed_place
	lsr	x8, x0, #32
	cbnz	x8, Lp_BB27_4
	ldr	x8, [x19, #16]
	add	x8, x8, x0, lsl #3
	add	x0, x8, #24
	b	Lp_BB27_5
Lp_BB27_4:
	mov	x0, #0
Lp_BB27_5:
	.cfi_def_cfa wsp, 32
	ldp	x29, x30, [sp, #16]
	ldp	x20, x19, [sp], #32
	.cfi_def_cfa_offset 0
	.cfi_restore w30
	.cfi_restore w29
	.cfi_restore w19
	.cfi_restore w20
	ret
	.cfi_endproc
	.p2align	2
_tlsf_malloc_again:
	.cfi_startproc
	sub	sp, sp, #64
	.cfi_def_cfa_offset 64
	stp	x20, x19, [sp, #32]
	stp	x29, x30, [sp, #48]
	add	x29, sp, #48
	.cfi_def_cfa w29, 16
	.cfi_offset w30, -8
	.cfi_offset w29, -16
	.cfi_offset w19, -24
	.cfi_offset w20, -32
	mov	x19, x0
	stp	xzr, xzr, [sp, #8]
	str	xzr, [sp, #24]
	ldr	x8, [x0, #16]
	sub	x8, x1, x8
	sub	x8, x8, #24
	ror	x8, x8, #3
	mov	w9, #-1
	cmp	x8, x9
	csel	x1, x8, x9, lo
	add	x2, sp, #8
	bl	_tlsf_block_at
	cbnz	w0, Lp_BB28_3
	ldr	w1, [sp, #8]
	mov	x0, x19
	bl	_tlsf_release_place
	ldr	w1, [sp, #20]
	mov	x0, x19
	mov	w2, #1
	mov	w3, #0
	bl	_tlsf_allocate_aligned
	lsr	x8, x0, #32
	cbnz	x8, Lp_BB28_3
	ldr	x8, [x19, #16]
	add	x8, x8, x0, lsl #3
	add	x0, x8, #24
	b	Lp_BB28_4
Lp_BB28_3:
	mov	x0, #0
Lp_BB28_4:
	.cfi_def_cfa wsp, 64
	ldp	x29, x30, [sp, #48]
	ldp	x20, x19, [sp, #32]
	add	sp, sp, #64
	.cfi_def_cfa_offset 0
	.cfi_restore w30
	.cfi_restore w29
	.cfi_restore w19
	.cfi_restore w20
	ret
	.cfi_endproc
	.section	__TEXT,__cstring,cstring_literals
l_.str:
	.asciz	"done"
l_.str.1:
	.asciz	"no free block fits"
l_.str.2:
	.asciz	"the ticks or the numbers are used up"
l_.str.3:
	.asciz	"a name of another heap"
l_.str.4:
	.asciz	"no live block has that name or address"
l_.str.5:
	.asciz	"a size out of range"
l_.str.6:
	.asciz	"no memory"
l_.str.7:
	.asciz	"bytes past the end of the payload"
l_.str.8:
	.asciz	"the lane or queue is full"
l_.str.9:
	.asciz	"no room where the block stands"
l_.str.10:
	.asciz	"a line was not written"
l_.str.11:
	.asciz	"the handle is closed"
l_.str.12:
	.asciz	"the handle is open already"
l_.str.13:
	.asciz	"a level is 4 or 5"
l_.str.14:
	.asciz	"the lane or queue is empty"
l_.str.15:
	.asciz	"a header is damaged"
l_.str.16:
	.asciz	"another thread is in the way: try again"
l_.str.17:
	.asciz	"all blocks of that row are held"
l_.str.18:
	.asciz	"memory that is null, or past the end of the address space"
l_.str.19:
	.asciz	"the handle holds something of another kind"
l_.str.20:
	.asciz	"no answer of this library"
	.section	__DATA,__const
	.p2align	3, 0x0
l_switch.table.tlsf_text_of:
	.quad	l_.str
	.quad	l_.str.1
	.quad	l_.str.2
	.quad	l_.str.3
	.quad	l_.str.4
	.quad	l_.str.5
	.quad	l_.str.6
	.quad	l_.str.7
	.quad	l_.str.8
	.quad	l_.str.20
	.quad	l_.str.9
	.quad	l_.str.20
	.quad	l_.str.20
	.quad	l_.str.20
	.quad	l_.str.20
	.quad	l_.str.20
	.quad	l_.str.20
	.quad	l_.str.10
	.quad	l_.str.20
	.quad	l_.str.20
	.quad	l_.str.20
	.quad	l_.str.20
	.quad	l_.str.20
	.quad	l_.str.20
	.quad	l_.str.20
	.quad	l_.str.20
	.quad	l_.str.20
	.quad	l_.str.20
	.quad	l_.str.20
	.quad	l_.str.20
	.quad	l_.str.20
	.quad	l_.str.20
	.quad	l_.str.11
	.quad	l_.str.12
	.quad	l_.str.13
	.quad	l_.str.14
	.quad	l_.str.15
	.quad	l_.str.16
	.quad	l_.str.17
	.quad	l_.str.18
	.quad	l_.str.19
.subsections_via_symbols
#endif
/* c/memory.c */
#ifdef TLSF_ONLY_CALLS
#elif defined(TLSF_NO_TLS)
	.section	__TEXT,__text,regular,pure_instructions
	.private_extern	_tlsf_memory_alloc
	.globl	_tlsf_memory_alloc
	.p2align	2
_tlsf_memory_alloc:
	.cfi_startproc
	cmp	x1, #8
	b.hi	Lm_BB0_8
Lm_loh0:
	adrp	x8, _near_room@PAGE
Lm_loh1:
	ldr	x8, [x8, _near_room@PAGEOFF]
	cbz	x8, Lm_BB0_3
	adrp	x9, _pieces_first@PAGE
	ldr	w10, [x9, _pieces_first@PAGEOFF]
	sub	w11, w10, #1
	str	w11, [x9, _pieces_first@PAGEOFF]
	cbz	w10, Lm_BB0_7
Lm_BB0_3:
	adrp	x10, _lent@PAGE
	ldr	x9, [x10, _lent@PAGEOFF]
	cbz	x9, Lm_BB0_8
	mov	w8, #268435456
	cmp	x0, x8
	b.hi	Lm_BB0_8
	add	x8, x0, #8
Lm_loh2:
	adrp	x11, _lent_end@PAGE
Lm_loh3:
	ldr	x11, [x11, _lent_end@PAGEOFF]
	sub	x12, x11, x9
	cmp	x8, x12
	b.hi	Lm_BB0_8
	add	x8, x9, #8
Lm_loh4:
	adrp	x13, _lent_step@PAGE
Lm_loh5:
	ldr	x13, [x13, _lent_step@PAGEOFF]
	add	x14, x0, x13
	add	x14, x14, #7
	udiv	x14, x14, x13
	mul	x13, x14, x13
	add	x14, x9, x13
	cmp	x13, x12
	csel	x11, x14, x11, lo
	str	x11, [x10, _lent@PAGEOFF]
	str	xzr, [x9]
	b	Lm_BB0_9
Lm_BB0_7:
	cmp	x0, #2776
	b.ls	Lm_BB0_10
Lm_BB0_8:
	mov	x8, #0
Lm_BB0_9:
Lm_loh6:
	adrp	x9, _tlsf_memory_alloc.nothing@PAGE
Lm_loh7:
	add	x9, x9, _tlsf_memory_alloc.nothing@PAGEOFF
	cmp	x8, #0
	csel	x1, x8, x9, ne
	cset	w0, ne
	ret
Lm_BB0_10:
	str	xzr, [x8], #8
	b	Lm_BB0_9
	.loh AdrpLdr	Lm_loh0, Lm_loh1
	.loh AdrpLdr	Lm_loh2, Lm_loh3
	.loh AdrpLdr	Lm_loh4, Lm_loh5
	.loh AdrpAdd	Lm_loh6, Lm_loh7
	.cfi_endproc
	.private_extern	_tlsf_memory_dealloc
	.globl	_tlsf_memory_dealloc
	.p2align	2
_tlsf_memory_dealloc:
	.cfi_startproc
	ret
	.cfi_endproc
	.private_extern	_tlsf_memory_realloc
	.globl	_tlsf_memory_realloc
	.p2align	2
_tlsf_memory_realloc:
	.cfi_startproc
	cmp	x3, #8
	b.ls	Lm_BB2_3
Lm_BB2_1:
	mov	x0, #0
Lm_BB2_2:
Lm_loh8:
	adrp	x1, _tlsf_memory_alloc.nothing@PAGE
Lm_loh9:
	add	x1, x1, _tlsf_memory_alloc.nothing@PAGEOFF
	ret
Lm_BB2_3:
	mov	x8, x1
	mov	x1, x0
Lm_loh10:
	adrp	x9, _near_room@PAGE
Lm_loh11:
	ldr	x0, [x9, _near_room@PAGEOFF]
	cbz	x0, Lm_BB2_5
	adrp	x9, _pieces_first@PAGE
	ldr	w10, [x9, _pieces_first@PAGEOFF]
	sub	w11, w10, #1
	str	w11, [x9, _pieces_first@PAGEOFF]
	cbz	w10, Lm_BB2_9
Lm_BB2_5:
	adrp	x9, _lent@PAGE
	ldr	x0, [x9, _lent@PAGEOFF]
	cbz	x0, Lm_BB2_2
	mov	w10, #268435456
	cmp	x2, x10
	b.hi	Lm_BB2_1
	add	x12, x2, #8
Lm_loh12:
	adrp	x10, _lent_end@PAGE
Lm_loh13:
	ldr	x10, [x10, _lent_end@PAGEOFF]
	sub	x11, x10, x0
	cmp	x12, x11
	b.hi	Lm_BB2_1
Lm_loh14:
	adrp	x12, _lent_step@PAGE
Lm_loh15:
	ldr	x12, [x12, _lent_step@PAGEOFF]
	add	x13, x2, x12
	add	x13, x13, #7
	udiv	x13, x13, x12
	mul	x12, x13, x12
	add	x13, x0, x12
	cmp	x12, x11
	csel	x10, x13, x10, lo
	str	x10, [x9, _lent@PAGEOFF]
	b	Lm_BB2_10
Lm_BB2_9:
	cmp	x2, #2776
	b.hi	Lm_BB2_1
Lm_BB2_10:
	stp	x20, x19, [sp, #-32]!
	.cfi_def_cfa_offset 32
	stp	x29, x30, [sp, #16]
	add	x29, sp, #16
	.cfi_def_cfa w29, 16
	.cfi_offset w30, -8
	.cfi_offset w29, -16
	.cfi_offset w19, -24
	.cfi_offset w20, -32
	str	xzr, [x0], #8
	mov	x19, x0
	mov	x2, x8
	bl	_memcpy
	mov	w0, #1
	mov	x1, x19
	.cfi_def_cfa wsp, 32
	ldp	x29, x30, [sp, #16]
	ldp	x20, x19, [sp], #32
	.cfi_def_cfa_offset 0
	.cfi_restore w30
	.cfi_restore w29
	.cfi_restore w19
	.cfi_restore w20
	ret
	.loh AdrpAdd	Lm_loh8, Lm_loh9
	.loh AdrpLdr	Lm_loh10, Lm_loh11
	.loh AdrpLdr	Lm_loh12, Lm_loh13
	.loh AdrpLdr	Lm_loh14, Lm_loh15
	.cfi_endproc
	.private_extern	_tlsf_memory_set
	.globl	_tlsf_memory_set
	.weak_definition	_tlsf_memory_set
	.p2align	2
_tlsf_memory_set:
	.cfi_startproc
	cbnz	w1, Lm_BB3_15
	cmp	x2, #513
	b.hs	Lm_BB3_15
	cmp	x2, #257
	b.lo	Lm_BB3_4
	movi.2d	v0, #0000000000000000
	str	q0, [x0]
	add	x8, x0, x2
	stur	q0, [x8, #-16]
	str	q0, [x0, #16]
	stur	q0, [x8, #-32]
	str	q0, [x0, #32]
	stur	q0, [x8, #-48]
	str	q0, [x0, #48]
	stur	q0, [x8, #-64]
	str	q0, [x0, #64]
	stur	q0, [x8, #-80]
	str	q0, [x0, #80]
	stur	q0, [x8, #-96]
	str	q0, [x0, #96]
	stur	q0, [x8, #-112]
	str	q0, [x0, #112]
	stur	q0, [x8, #-128]
	str	q0, [x0, #128]
	stur	q0, [x8, #-144]
	str	q0, [x0, #144]
	stur	q0, [x8, #-160]
	str	q0, [x0, #160]
	stur	q0, [x8, #-176]
	str	q0, [x0, #176]
	stur	q0, [x8, #-192]
	str	q0, [x0, #192]
	stur	q0, [x8, #-208]
	str	q0, [x0, #208]
	stur	q0, [x8, #-224]
	str	q0, [x0, #224]
	stur	q0, [x8, #-240]
	str	q0, [x0, #240]
	stur	q0, [x8, #-256]
	ret
Lm_BB3_4:
	cmp	x2, #129
	b.lo	Lm_BB3_6
	movi.2d	v0, #0000000000000000
	str	q0, [x0]
	add	x8, x0, x2
	stur	q0, [x8, #-16]
	str	q0, [x0, #16]
	stur	q0, [x8, #-32]
	str	q0, [x0, #32]
	stur	q0, [x8, #-48]
	str	q0, [x0, #48]
	stur	q0, [x8, #-64]
	str	q0, [x0, #64]
	stur	q0, [x8, #-80]
	str	q0, [x0, #80]
	stur	q0, [x8, #-96]
	str	q0, [x0, #96]
	stur	q0, [x8, #-112]
	str	q0, [x0, #112]
	stur	q0, [x8, #-128]
	ret
Lm_BB3_6:
	cmp	x2, #65
	b.lo	Lm_BB3_8
	movi.2d	v0, #0000000000000000
	str	q0, [x0]
	add	x8, x0, x2
	stur	q0, [x8, #-16]
	str	q0, [x0, #16]
	stur	q0, [x8, #-32]
	str	q0, [x0, #32]
	stur	q0, [x8, #-48]
	str	q0, [x0, #48]
	stur	q0, [x8, #-64]
	ret
Lm_BB3_8:
	cmp	x2, #33
	b.lo	Lm_BB3_10
	movi.2d	v0, #0000000000000000
	str	q0, [x0]
	add	x8, x0, x2
	stur	q0, [x8, #-16]
	str	q0, [x0, #16]
	stur	q0, [x8, #-32]
	ret
Lm_BB3_10:
	cmp	x2, #17
	b.lo	Lm_BB3_12
	add	x8, x0, x2
	movi.2d	v0, #0000000000000000
	str	q0, [x0]
	stur	q0, [x8, #-16]
	ret
Lm_BB3_12:
	cmp	x2, #7
	b.hi	Lm_BB3_14
	mov	w1, #0
	b	_memset
Lm_BB3_14:
	str	xzr, [x0]
	add	x8, x0, x2
	stur	xzr, [x8, #-8]
	ret
Lm_BB3_15:
	b	_memset
	.cfi_endproc
	.private_extern	_tlsf_memory_cpy
	.globl	_tlsf_memory_cpy
	.weak_definition	_tlsf_memory_cpy
	.p2align	2
_tlsf_memory_cpy:
	.cfi_startproc
	b	_memcpy
	.cfi_endproc
	.private_extern	_tlsf_memory_move
	.globl	_tlsf_memory_move
	.weak_definition	_tlsf_memory_move
	.p2align	2
_tlsf_memory_move:
	.cfi_startproc
	b	_memmove
	.cfi_endproc
	.globl	_tlsf_bytes
	.p2align	2
_tlsf_bytes:
	.cfi_startproc
	cmp	w1, #4
	b.hs	Lm_BB6_2
	mov	x0, #0
	ret
Lm_BB6_2:
	mov	w8, w1
	cmp	w0, #5
	mov	w9, #16777216
	csel	x9, x9, xzr, eq
	cmp	w0, #4
	mov	w10, #1048576
	csel	x9, x10, x9, eq
	cmp	x9, x8
	b.hs	Lm_BB6_4
	mov	x0, #0
	ret
Lm_BB6_4:
	lsl	x9, x8, #3
	add	x9, x9, #23
	and	x9, x9, #0xffffffff0
	add	x8, x8, #63
	lsr	x8, x8, #3
	add	w8, w8, #16
	and	x8, x8, #0x7ffffff0
	add	x8, x9, x8
	add	x0, x8, #2783
	ret
	.cfi_endproc
	.globl	_tlsf_near_bytes
	.p2align	2
_tlsf_near_bytes:
	.cfi_startproc
	cmp	w1, #4
	b.hs	Lm_BB7_2
	mov	x0, #0
	ret
Lm_BB7_2:
	mov	w8, w1
	cmp	w0, #5
	mov	w9, #16777216
	csel	x9, x9, xzr, eq
	cmp	w0, #4
	mov	w10, #1048576
	csel	x9, x10, x9, eq
	lsl	x10, x8, #3
	add	x10, x10, #23
	and	x10, x10, #0xffffffff0
	add	x11, x8, #63
	lsr	x11, x11, #3
	and	x11, x11, #0x3ffffff8
	add	x10, x10, x11
	add	x10, x10, #23
	cmp	x9, x8
	csel	x0, xzr, x10, lo
	ret
	.cfi_endproc
	.globl	_tlsf_open_in
	.p2align	2
_tlsf_open_in:
	.cfi_startproc
	stp	x22, x21, [sp, #-48]!
	.cfi_def_cfa_offset 48
	stp	x20, x19, [sp, #16]
	stp	x29, x30, [sp, #32]
	add	x29, sp, #32
	.cfi_def_cfa w29, 16
	.cfi_offset w30, -8
	.cfi_offset w29, -16
	.cfi_offset w19, -24
	.cfi_offset w20, -32
	.cfi_offset w21, -40
	.cfi_offset w22, -48
	mov	x19, x0
	ldrb	w9, [x0, #29]
	cbz	w9, Lm_BB8_4
	sub	w8, w9, #65
	cmn	w8, #57
	b.lo	Lm_BB8_3
	add	w10, w9, #127
	mov	w8, #16
	cmp	x9, #16
	csel	x8, x9, x8, hi
	and	x10, x10, x9
	cbz	x10, Lm_BB8_5
Lm_BB8_3:
	mov	x10, #0
	b	Lm_BB8_6
Lm_BB8_4:
	mov	w8, #16
Lm_BB8_5:
	mov	x10, #-32
	sub	x10, x10, x3
	udiv	x11, x10, x8
	msub	x10, x11, x8, x10
Lm_BB8_6:
	mov	w8, #0
	mvn	x11, x3
	cbz	x3, Lm_BB8_14
	cmp	x4, x11
	b.hi	Lm_BB8_14
	subs	x12, x4, x10
	b.lo	Lm_BB8_14
	cmp	w1, #5
	mov	w8, #16777216
	csel	x8, x8, xzr, eq
	cmp	w1, #4
	mov	w13, #1048576
	csel	x8, x13, x8, eq
	cmp	x12, #2832
	b.hs	Lm_BB8_11
	mov	w8, #0
	b	Lm_BB8_14
Lm_BB8_11:
	mov	w13, #268435456
	cmp	x12, x13
	csel	x12, x12, x13, lo
	mov	w13, #-22400
	add	w13, w13, w12, lsl #3
	mov	x14, #1009
	movk	x14, #61503, lsl #16
	movk	x14, #16131, lsl #32
	movk	x14, #1008, lsl #48
	umulh	x14, x13, x14
	add	x13, x14, #71
	lsl	x14, x14, #3
	add	x14, x14, #87
Lm_BB8_12:
	and	x15, x14, #0xfffffffffffffff0
	lsr	x16, x13, #3
	add	x16, x16, #16
	and	x16, x16, #0x3ffffffffffffff0
	add	x15, x15, x16
	add	x15, x15, #2768
	sub	x13, x13, #1
	sub	x14, x14, #8
	cmp	x15, x12
	b.hi	Lm_BB8_12
	sub	x12, x13, #62
	cmp	x12, x8
	csel	x8, x12, x8, lo
Lm_BB8_14:
	cmp	x3, #0
	cset	w12, ne
	cmp	x4, x11
	cset	w11, ls
	cmp	x10, x4
	csel	x10, x10, x4, lo
	ands	w21, w12, w11
	add	x10, x3, x10
Lm_loh16:
	adrp	x11, _begin_behind.nothing@PAGE
Lm_loh17:
	add	x11, x11, _begin_behind.nothing@PAGEOFF
	csel	x10, x10, x11, ne
	adrp	x20, _lent@PAGE
	str	x10, [x20, _lent@PAGEOFF]
	add	x10, x3, x4
	csel	x10, x10, x11, ne
Lm_loh18:
	adrp	x11, _lent_end@PAGE
	str	x10, [x11, _lent_end@PAGEOFF]
	mov	w10, #16
Lm_loh19:
	adrp	x11, _lent_step@PAGE
	str	x10, [x11, _lent_step@PAGEOFF]
	cbz	w9, Lm_BB8_18
	sub	w10, w9, #65
	cmn	w10, #57
	b.lo	Lm_BB8_17
	add	w10, w9, #127
	tst	w10, w9
	b.eq	Lm_BB8_18
Lm_BB8_17:
	mov	w8, #0
Lm_BB8_18:
	mov	x0, x19
	mov	x3, x8
	bl	_tlsf_open
	cbz	w0, Lm_BB8_21
	str	xzr, [x20, _lent@PAGEOFF]
	cmp	w0, #5
	cset	w8, eq
	bic	w8, w8, w21
	tbz	w8, #0, Lm_BB8_24
	mov	w0, #39
	b	Lm_BB8_24
Lm_BB8_21:
	ldrb	w8, [x19, #29]
	tst	w8, #0xfffffff7
	b.eq	Lm_BB8_23
	mov	w8, #1
	strb	w8, [x19, #28]
Lm_BB8_23:
	str	xzr, [x20, _lent@PAGEOFF]
Lm_BB8_24:
	.cfi_def_cfa wsp, 48
	ldp	x29, x30, [sp, #32]
	ldp	x20, x19, [sp, #16]
	ldp	x22, x21, [sp], #48
	.cfi_def_cfa_offset 0
	.cfi_restore w30
	.cfi_restore w29
	.cfi_restore w19
	.cfi_restore w20
	.cfi_restore w21
	.cfi_restore w22
	ret
	.loh AdrpAdrp	Lm_loh18, Lm_loh19
	.loh AdrpAdd	Lm_loh16, Lm_loh17
	.cfi_endproc
	.globl	_tlsf_open_near
	.p2align	2
_tlsf_open_near:
	.cfi_startproc
	stp	x20, x19, [sp, #-32]!
	.cfi_def_cfa_offset 32
	stp	x29, x30, [sp, #16]
	add	x29, sp, #16
	.cfi_def_cfa w29, 16
	.cfi_offset w30, -8
	.cfi_offset w29, -16
	.cfi_offset w19, -24
	.cfi_offset w20, -32
	neg	w8, w0
	and	x8, x8, #0x3f
	add	x19, x0, x8
	add	x8, x19, #32
	adrp	x20, _near_room@PAGE
	str	x8, [x20, _near_room@PAGEOFF]
	mov	w8, #2
	adrp	x9, _pieces_first@PAGE
	str	w8, [x9, _pieces_first@PAGEOFF]
	ldrb	w8, [x19, #29]
	cbz	w8, Lm_BB9_4
	sub	w9, w8, #65
	cmn	w9, #57
	b.lo	Lm_BB9_3
	add	w9, w8, #127
	tst	w9, w8
	b.eq	Lm_BB9_4
Lm_BB9_3:
	mov	w3, #0
Lm_BB9_4:
	mov	x0, x19
	bl	_tlsf_open
	cbnz	w0, Lm_BB9_7
	ldrb	w8, [x19, #29]
	tst	w8, #0xfffffff7
	b.eq	Lm_BB9_7
	mov	w8, #1
	strb	w8, [x19, #28]
Lm_BB9_7:
	str	xzr, [x20, _near_room@PAGEOFF]
	.cfi_def_cfa wsp, 32
	ldp	x29, x30, [sp, #16]
	ldp	x20, x19, [sp], #32
	.cfi_def_cfa_offset 0
	.cfi_restore w30
	.cfi_restore w29
	.cfi_restore w19
	.cfi_restore w20
	ret
	.cfi_endproc
	.globl	_tlsf_open_near_in
	.p2align	2
_tlsf_open_near_in:
	.cfi_startproc
	stp	x22, x21, [sp, #-48]!
	.cfi_def_cfa_offset 48
	stp	x20, x19, [sp, #16]
	stp	x29, x30, [sp, #32]
	add	x29, sp, #32
	.cfi_def_cfa w29, 16
	.cfi_offset w30, -8
	.cfi_offset w29, -16
	.cfi_offset w19, -24
	.cfi_offset w20, -32
	.cfi_offset w21, -40
	.cfi_offset w22, -48
	neg	w8, w0
	and	x8, x8, #0x3f
	add	x19, x0, x8
	add	x8, x19, #32
	adrp	x20, _near_room@PAGE
	str	x8, [x20, _near_room@PAGEOFF]
	mov	w8, #2
	adrp	x9, _pieces_first@PAGE
	str	w8, [x9, _pieces_first@PAGEOFF]
	ldrb	w9, [x19, #29]
	cbz	w9, Lm_BB10_4
	sub	w8, w9, #65
	cmn	w8, #57
	b.lo	Lm_BB10_3
	add	w10, w9, #127
	mov	w8, #16
	cmp	x9, #16
	csel	x8, x9, x8, hi
	and	x10, x10, x9
	cbz	x10, Lm_BB10_5
Lm_BB10_3:
	mov	x10, #0
	b	Lm_BB10_6
Lm_BB10_4:
	mov	w8, #16
Lm_BB10_5:
	mov	x10, #-32
	sub	x10, x10, x3
	udiv	x11, x10, x8
	msub	x10, x11, x8, x10
Lm_BB10_6:
	mov	w8, #0
	mvn	x11, x3
	cbz	x3, Lm_BB10_14
	cmp	x4, x11
	b.hi	Lm_BB10_14
	subs	x12, x4, x10
	b.lo	Lm_BB10_14
	cmp	w1, #5
	mov	w8, #16777216
	csel	x8, x8, xzr, eq
	cmp	w1, #4
	mov	w13, #1048576
	csel	x8, x13, x8, eq
	cmp	x12, #64
	b.hs	Lm_BB10_11
	mov	w8, #0
	b	Lm_BB10_14
Lm_BB10_11:
	mov	w13, #268435456
	cmp	x12, x13
	csel	x12, x12, x13, lo
	lsl	w13, w12, #3
	sub	w13, w13, #192
	mov	x14, #1009
	movk	x14, #61503, lsl #16
	movk	x14, #16131, lsl #32
	movk	x14, #1008, lsl #48
	umulh	x14, x13, x14
	add	x13, x14, #71
	lsl	x14, x14, #3
	add	x14, x14, #87
Lm_BB10_12:
	and	x15, x14, #0xfffffffffffffff0
	lsr	x16, x13, #6
	add	x15, x15, x16, lsl #3
	add	x15, x15, #8
	sub	x13, x13, #1
	sub	x14, x14, #8
	cmp	x15, x12
	b.hi	Lm_BB10_12
	sub	x12, x13, #62
	cmp	x12, x8
	csel	x8, x12, x8, lo
Lm_BB10_14:
	cmp	x3, #0
	cset	w12, ne
	cmp	x4, x11
	cset	w11, ls
	cmp	x10, x4
	csel	x10, x10, x4, lo
	ands	w22, w12, w11
	add	x10, x3, x10
Lm_loh20:
	adrp	x11, _begin_behind.nothing@PAGE
Lm_loh21:
	add	x11, x11, _begin_behind.nothing@PAGEOFF
	csel	x10, x10, x11, ne
	adrp	x21, _lent@PAGE
	str	x10, [x21, _lent@PAGEOFF]
	add	x10, x3, x4
	csel	x10, x10, x11, ne
Lm_loh22:
	adrp	x11, _lent_end@PAGE
	str	x10, [x11, _lent_end@PAGEOFF]
	mov	w10, #16
Lm_loh23:
	adrp	x11, _lent_step@PAGE
	str	x10, [x11, _lent_step@PAGEOFF]
	cbz	w9, Lm_BB10_18
	sub	w10, w9, #65
	cmn	w10, #57
	b.lo	Lm_BB10_17
	add	w10, w9, #127
	tst	w10, w9
	b.eq	Lm_BB10_18
Lm_BB10_17:
	mov	w8, #0
Lm_BB10_18:
	mov	x0, x19
	mov	x3, x8
	bl	_tlsf_open
	cbz	w0, Lm_BB10_21
	str	xzr, [x21, _lent@PAGEOFF]
	cmp	w0, #5
	cset	w8, eq
	bic	w8, w8, w22
	tbz	w8, #0, Lm_BB10_24
	mov	w0, #39
	b	Lm_BB10_24
Lm_BB10_21:
	ldrb	w8, [x19, #29]
	tst	w8, #0xfffffff7
	b.eq	Lm_BB10_23
	mov	w8, #1
	strb	w8, [x19, #28]
Lm_BB10_23:
	str	xzr, [x21, _lent@PAGEOFF]
Lm_BB10_24:
	str	xzr, [x20, _near_room@PAGEOFF]
	.cfi_def_cfa wsp, 48
	ldp	x29, x30, [sp, #32]
	ldp	x20, x19, [sp, #16]
	ldp	x22, x21, [sp], #48
	.cfi_def_cfa_offset 0
	.cfi_restore w30
	.cfi_restore w29
	.cfi_restore w19
	.cfi_restore w20
	.cfi_restore w21
	.cfi_restore w22
	ret
	.loh AdrpAdrp	Lm_loh22, Lm_loh23
	.loh AdrpAdd	Lm_loh20, Lm_loh21
	.cfi_endproc
	.globl	_tlsf_open_32
	.p2align	2
_tlsf_open_32:
	.cfi_startproc
	stp	x20, x19, [sp, #-32]!
	.cfi_def_cfa_offset 32
	stp	x29, x30, [sp, #16]
	add	x29, sp, #16
	.cfi_def_cfa w29, 16
	.cfi_offset w30, -8
	.cfi_offset w29, -16
	.cfi_offset w19, -24
	.cfi_offset w20, -32
	mov	x19, x0
	ldrb	w8, [x0, #29]
	cbz	w8, Lm_BB11_4
	sub	w9, w8, #65
	cmn	w9, #57
	b.lo	Lm_BB11_3
	add	w9, w8, #127
	tst	w9, w8
	b.eq	Lm_BB11_4
Lm_BB11_3:
	mov	w3, #0
Lm_BB11_4:
	mov	x0, x19
	bl	_tlsf_open
	cbnz	w0, Lm_BB11_7
	ldrb	w8, [x19, #29]
	tst	w8, #0xfffffff7
	b.eq	Lm_BB11_7
	mov	w8, #1
	strb	w8, [x19, #28]
Lm_BB11_7:
	.cfi_def_cfa wsp, 32
	ldp	x29, x30, [sp, #16]
	ldp	x20, x19, [sp], #32
	.cfi_def_cfa_offset 0
	.cfi_restore w30
	.cfi_restore w29
	.cfi_restore w19
	.cfi_restore w20
	ret
	.cfi_endproc
	.globl	_tlsf_open_in_32
	.p2align	2
_tlsf_open_in_32:
	.cfi_startproc
	b	_tlsf_open_in
	.cfi_endproc
	.globl	_tlsf_open_near_2880
	.p2align	2
_tlsf_open_near_2880:
	.cfi_startproc
	stp	x20, x19, [sp, #-32]!
	.cfi_def_cfa_offset 32
	stp	x29, x30, [sp, #16]
	add	x29, sp, #16
	.cfi_def_cfa w29, 16
	.cfi_offset w30, -8
	.cfi_offset w29, -16
	.cfi_offset w19, -24
	.cfi_offset w20, -32
	neg	w8, w0
	and	x8, x8, #0x3f
	add	x19, x0, x8
	add	x8, x19, #32
	adrp	x20, _near_room@PAGE
	str	x8, [x20, _near_room@PAGEOFF]
	mov	w8, #2
	adrp	x9, _pieces_first@PAGE
	str	w8, [x9, _pieces_first@PAGEOFF]
	ldrb	w8, [x19, #29]
	cbz	w8, Lm_BB13_4
	sub	w9, w8, #65
	cmn	w9, #57
	b.lo	Lm_BB13_3
	add	w9, w8, #127
	tst	w9, w8
	b.eq	Lm_BB13_4
Lm_BB13_3:
	mov	w3, #0
Lm_BB13_4:
	mov	x0, x19
	bl	_tlsf_open
	cbnz	w0, Lm_BB13_7
	ldrb	w8, [x19, #29]
	tst	w8, #0xfffffff7
	b.eq	Lm_BB13_7
	mov	w8, #1
	strb	w8, [x19, #28]
Lm_BB13_7:
	str	xzr, [x20, _near_room@PAGEOFF]
	.cfi_def_cfa wsp, 32
	ldp	x29, x30, [sp, #16]
	ldp	x20, x19, [sp], #32
	.cfi_def_cfa_offset 0
	.cfi_restore w30
	.cfi_restore w29
	.cfi_restore w19
	.cfi_restore w20
	ret
	.cfi_endproc
	.globl	_tlsf_open_near_in_2880
	.p2align	2
_tlsf_open_near_in_2880:
	.cfi_startproc
	b	_tlsf_open_near_in
	.cfi_endproc
	.globl	_tlsf_lane_bytes
	.p2align	2
_tlsf_lane_bytes:
	.cfi_startproc
	sub	w8, w0, #1025
	mov	w9, #24
	mov	w10, #135
	madd	w9, w0, w9, w10
	and	w9, w9, #0x1ff80
	add	w9, w9, #895
	cmn	w8, #1024
	csel	w0, wzr, w9, lo
	ret
	.cfi_endproc
	.globl	_tlsf_lane_open_in
	.p2align	2
_tlsf_lane_open_in:
	.cfi_startproc
	cmp	w2, #1025
	b.hs	Lm_BB16_2
	mov	w8, #24
	mov	w9, #135
	madd	w8, w2, w8, w9
	and	w8, w8, #0x1ff80
	add	w10, w8, #768
	neg	w8, w3
	and	x8, x8, #0x7f
	mvn	x9, x3
	subs	x11, x4, x8
	ccmp	x4, x9, #2, hs
	ccmp	x3, #0, #4, ls
	ccmp	x11, x10, #0, ne
	csel	w2, wzr, w2, lo
	b	Lm_BB16_3
Lm_BB16_2:
	neg	w8, w3
	and	x8, x8, #0x7f
	mvn	x9, x3
Lm_BB16_3:
	stp	x20, x19, [sp, #-32]!
	.cfi_def_cfa_offset 32
	stp	x29, x30, [sp, #16]
	add	x29, sp, #16
	.cfi_def_cfa w29, 16
	.cfi_offset w30, -8
	.cfi_offset w29, -16
	.cfi_offset w19, -24
	.cfi_offset w20, -32
	cmp	x3, #0
	cset	w10, ne
	cmp	x4, x9
	cset	w9, ls
	cmp	x8, x4
	csel	x8, x8, x4, lo
Lm_loh24:
	adrp	x11, _begin_behind.nothing@PAGE
Lm_loh25:
	add	x11, x11, _begin_behind.nothing@PAGEOFF
	add	x8, x3, x8
	ands	w19, w10, w9
	csel	x8, x8, x11, ne
	adrp	x20, _lent@PAGE
	str	x8, [x20, _lent@PAGEOFF]
	add	x8, x3, x4
	csel	x8, x8, x11, ne
Lm_loh26:
	adrp	x9, _lent_end@PAGE
	str	x8, [x9, _lent_end@PAGEOFF]
	mov	w8, #128
Lm_loh27:
	adrp	x9, _lent_step@PAGE
	str	x8, [x9, _lent_step@PAGEOFF]
	bl	_tlsf_lane_open
	str	xzr, [x20, _lent@PAGEOFF]
	cmp	w0, #5
	cset	w8, ne
	orr	w8, w19, w8
	mov	w9, #39
	cmp	w8, #0
	csel	w0, w0, w9, ne
	.cfi_def_cfa wsp, 32
	ldp	x29, x30, [sp, #16]
	ldp	x20, x19, [sp], #32
	.cfi_def_cfa_offset 0
	.cfi_restore w30
	.cfi_restore w29
	.cfi_restore w19
	.cfi_restore w20
	ret
	.loh AdrpAdrp	Lm_loh26, Lm_loh27
	.loh AdrpAdd	Lm_loh24, Lm_loh25
	.cfi_endproc
	.globl	_tlsf_queue_bytes
	.p2align	2
_tlsf_queue_bytes:
	.cfi_startproc
	mov	w8, #1024
	sub	w9, w8, w0
	sub	w8, w8, w1
	orr	w8, w8, w9
	cmp	w8, #1023
	b.hi	Lm_BB17_2
	mov	w8, w0
	ubfiz	x9, x0, #4, #32
	add	x9, x9, #135
	and	x9, x9, #0xfffffff80
	ubfiz	x10, x1, #3, #32
	add	x10, x10, #519
	and	x10, x10, #0x7ffffff80
	ubfiz	x11, x1, #5, #32
	add	x11, x11, #135
	and	x11, x11, #0x1fffffff80
	add	x10, x10, x11
	ubfiz	x11, x0, #3, #32
	add	x11, x11, #135
	and	x11, x11, #0x7ffffff80
	add	x8, x9, x8, lsl #7
	add	x8, x8, x11
	add	x8, x8, x10, lsl #1
	add	x0, x8, #383
	ret
Lm_BB17_2:
	mov	x0, #0
	ret
	.cfi_endproc
	.globl	_tlsf_queue_open_in
	.p2align	2
_tlsf_queue_open_in:
	.cfi_startproc
	cmp	w1, #1024
	b.hi	Lm_BB18_3
	cmp	w2, #1025
	b.hs	Lm_BB18_3
	mov	w8, w1
	lsl	w9, w1, #4
	add	w9, w9, #135
	and	x9, x9, #0xff80
	lsl	w10, w2, #3
	add	w10, w10, #519
	and	x10, x10, #0x7f80
	lsl	w11, w2, #5
	add	w11, w11, #135
	and	x11, x11, #0x1ff80
	add	x10, x10, x11
	lsl	w11, w1, #3
	add	w11, w11, #135
	and	x11, x11, #0x7f80
	add	x8, x9, x8, lsl #7
	add	x8, x8, x11
	add	x8, x8, x10, lsl #1
	add	x10, x8, #256
	neg	w8, w3
	and	x8, x8, #0x7f
	mvn	x9, x3
	subs	x11, x4, x8
	ccmp	x4, x9, #2, hs
	ccmp	x3, #0, #4, ls
	ccmp	x11, x10, #0, ne
	csel	w2, wzr, w2, lo
	b	Lm_BB18_4
Lm_BB18_3:
	neg	w8, w3
	and	x8, x8, #0x7f
	mvn	x9, x3
Lm_BB18_4:
	stp	x20, x19, [sp, #-32]!
	.cfi_def_cfa_offset 32
	stp	x29, x30, [sp, #16]
	add	x29, sp, #16
	.cfi_def_cfa w29, 16
	.cfi_offset w30, -8
	.cfi_offset w29, -16
	.cfi_offset w19, -24
	.cfi_offset w20, -32
	cmp	x3, #0
	cset	w10, ne
	cmp	x4, x9
	cset	w9, ls
	cmp	x8, x4
	csel	x8, x8, x4, lo
Lm_loh28:
	adrp	x11, _begin_behind.nothing@PAGE
Lm_loh29:
	add	x11, x11, _begin_behind.nothing@PAGEOFF
	add	x8, x3, x8
	ands	w19, w10, w9
	csel	x8, x8, x11, ne
	adrp	x20, _lent@PAGE
	str	x8, [x20, _lent@PAGEOFF]
	add	x8, x3, x4
	csel	x8, x8, x11, ne
Lm_loh30:
	adrp	x9, _lent_end@PAGE
	str	x8, [x9, _lent_end@PAGEOFF]
	mov	w8, #128
Lm_loh31:
	adrp	x9, _lent_step@PAGE
	str	x8, [x9, _lent_step@PAGEOFF]
	bl	_tlsf_queue_open
	str	xzr, [x20, _lent@PAGEOFF]
	cmp	w0, #5
	cset	w8, ne
	orr	w8, w19, w8
	mov	w9, #39
	cmp	w8, #0
	csel	w0, w0, w9, ne
	.cfi_def_cfa wsp, 32
	ldp	x29, x30, [sp, #16]
	ldp	x20, x19, [sp], #32
	.cfi_def_cfa_offset 0
	.cfi_restore w30
	.cfi_restore w29
	.cfi_restore w19
	.cfi_restore w20
	ret
	.loh AdrpAdrp	Lm_loh30, Lm_loh31
	.loh AdrpAdd	Lm_loh28, Lm_loh29
	.cfi_endproc
	.globl	_tlsf_offsets_bytes
	.p2align	2
_tlsf_offsets_bytes:
	.cfi_startproc
	cmp	w1, #4
	b.hs	Lm_BB19_2
	mov	x0, #0
	ret
Lm_BB19_2:
	mov	w8, w1
	cmp	w0, #5
	mov	w9, #16777216
	csel	x9, x9, xzr, eq
	cmp	w0, #4
	mov	w10, #1048576
	csel	x9, x10, x9, eq
	cmp	x9, x8
	b.hs	Lm_BB19_4
	mov	x0, #0
	ret
Lm_BB19_4:
	lsl	w9, w8, #3
	add	w9, w9, #23
	and	x9, x9, #0x1ffffff0
	add	w8, w8, #63
	lsr	w8, w8, #3
	add	w8, w8, #16
	and	x8, x8, #0xfffff0
	add	x8, x9, x8
	add	x0, x8, #2783
	ret
	.cfi_endproc
	.globl	_tlsf_offsets_open_in
	.p2align	2
_tlsf_offsets_open_in:
	.cfi_startproc
	stp	x20, x19, [sp, #-32]!
	.cfi_def_cfa_offset 32
	stp	x29, x30, [sp, #16]
	add	x29, sp, #16
	.cfi_def_cfa w29, 16
	.cfi_offset w30, -8
	.cfi_offset w29, -16
	.cfi_offset w19, -24
	.cfi_offset w20, -32
	mov	w8, w4
	cmp	w1, #5
	mov	w9, #16777216
	csel	x9, x9, xzr, eq
	cmp	w1, #4
	mov	w10, #1048576
	csel	x9, x10, x9, eq
	lsl	w10, w8, #3
	add	w10, w10, #23
	and	x10, x10, #0x1ffffff0
	add	w11, w8, #63
	lsr	w11, w11, #3
	add	w11, w11, #16
	and	x11, x11, #0xfffff0
	add	x10, x10, x11
	add	x10, x10, #2768
	neg	w11, w5
	and	x11, x11, #0xf
	mvn	x12, x5
	subs	x13, x6, x11
	ccmp	x6, x12, #2, hs
	ccmp	x5, #0, #4, ls
	ccmp	x13, x10, #0, ne
	csel	w10, wzr, w4, lo
	neg	w13, w5
	and	x13, x13, #0xf
	cmp	x9, x8
	csel	x8, x11, x13, hs
	csinv	x9, x12, x5, lo
	csel	w4, w10, w4, hs
	cmp	x5, #0
	cset	w10, ne
	cmp	x6, x9
	cset	w9, ls
	cmp	x8, x6
	csel	x8, x8, x6, lo
Lm_loh32:
	adrp	x11, _begin_behind.nothing@PAGE
Lm_loh33:
	add	x11, x11, _begin_behind.nothing@PAGEOFF
	add	x8, x5, x8
	ands	w19, w10, w9
	csel	x8, x8, x11, ne
	adrp	x20, _lent@PAGE
	str	x8, [x20, _lent@PAGEOFF]
	add	x8, x5, x6
	csel	x8, x8, x11, ne
Lm_loh34:
	adrp	x9, _lent_end@PAGE
	str	x8, [x9, _lent_end@PAGEOFF]
	mov	w8, #16
Lm_loh35:
	adrp	x9, _lent_step@PAGE
	str	x8, [x9, _lent_step@PAGEOFF]
	bl	_tlsf_offsets_open
	str	xzr, [x20, _lent@PAGEOFF]
	cmp	w0, #5
	cset	w8, ne
	orr	w8, w19, w8
	mov	w9, #39
	cmp	w8, #0
	csel	w0, w0, w9, ne
	.cfi_def_cfa wsp, 32
	ldp	x29, x30, [sp, #16]
	ldp	x20, x19, [sp], #32
	.cfi_def_cfa_offset 0
	.cfi_restore w30
	.cfi_restore w29
	.cfi_restore w19
	.cfi_restore w20
	ret
	.loh AdrpAdrp	Lm_loh34, Lm_loh35
	.loh AdrpAdd	Lm_loh32, Lm_loh33
	.cfi_endproc
	.globl	_tlsf_pools_bytes
	.p2align	2
_tlsf_pools_bytes:
	.cfi_startproc
	sub	sp, sp, #48
	.cfi_def_cfa_offset 48
	stp	x20, x19, [sp, #16]
	stp	x29, x30, [sp, #32]
	add	x29, sp, #32
	.cfi_def_cfa w29, 16
	.cfi_offset w30, -8
	.cfi_offset w29, -16
	.cfi_offset w19, -24
	.cfi_offset w20, -32
	mov	x19, x2
	str	xzr, [sp, #8]
	str	wzr, [sp, #4]
	add	x3, sp, #8
	add	x4, sp, #4
	bl	_tlsf_pools_words
	mov	x8, x0
	mov	x0, #0
	cbnz	w8, Lm_BB21_2
	ldr	x8, [sp, #8]
	ldr	w9, [sp, #4]
	mov	w10, #2792
	umull	x10, w9, w10
	add	x10, x10, #23
	and	x10, x10, #0x1ffffffffff0
	lsr	x11, x8, #6
	mov	w12, #12
	mul	x12, x19, x12
	add	x8, x12, x8, lsl #3
	add	x8, x8, x11, lsl #3
	mov	w11, #80
	umaddl	x8, w9, w11, x8
	add	x8, x8, x10
	add	x0, x8, #2783
Lm_BB21_2:
	.cfi_def_cfa wsp, 48
	ldp	x29, x30, [sp, #32]
	ldp	x20, x19, [sp, #16]
	add	sp, sp, #48
	.cfi_def_cfa_offset 0
	.cfi_restore w30
	.cfi_restore w29
	.cfi_restore w19
	.cfi_restore w20
	ret
	.cfi_endproc
	.globl	_tlsf_pools_open_in
	.p2align	2
_tlsf_pools_open_in:
	.cfi_startproc
	stp	x20, x19, [sp, #-32]!
	.cfi_def_cfa_offset 32
	stp	x29, x30, [sp, #16]
	add	x29, sp, #16
	.cfi_def_cfa w29, 16
	.cfi_offset w30, -8
	.cfi_offset w29, -16
	.cfi_offset w19, -24
	.cfi_offset w20, -32
	neg	w8, w5
	and	x8, x8, #0xf
	cmp	x5, #0
	cset	w9, ne
	mvn	x10, x5
	cmp	x6, x10
	cset	w10, ls
	cmp	x8, x6
	csel	x8, x8, x6, lo
Lm_loh36:
	adrp	x11, _begin_behind.nothing@PAGE
Lm_loh37:
	add	x11, x11, _begin_behind.nothing@PAGEOFF
	add	x8, x5, x8
	ands	w19, w9, w10
	csel	x8, x8, x11, ne
	adrp	x20, _lent@PAGE
	str	x8, [x20, _lent@PAGEOFF]
	add	x8, x5, x6
	csel	x8, x8, x11, ne
Lm_loh38:
	adrp	x9, _lent_end@PAGE
	str	x8, [x9, _lent_end@PAGEOFF]
	mov	w8, #16
Lm_loh39:
	adrp	x9, _lent_step@PAGE
	str	x8, [x9, _lent_step@PAGEOFF]
	bl	_tlsf_pools_open
	mov	w8, #5
	cmp	w0, #6
	csel	w8, w8, w0, eq
	str	xzr, [x20, _lent@PAGEOFF]
	cmp	w8, #5
	cset	w9, ne
	orr	w9, w19, w9
	mov	w10, #39
	cmp	w9, #0
	csel	w0, w8, w10, ne
	.cfi_def_cfa wsp, 32
	ldp	x29, x30, [sp, #16]
	ldp	x20, x19, [sp], #32
	.cfi_def_cfa_offset 0
	.cfi_restore w30
	.cfi_restore w29
	.cfi_restore w19
	.cfi_restore w20
	ret
	.loh AdrpAdrp	Lm_loh38, Lm_loh39
	.loh AdrpAdd	Lm_loh36, Lm_loh37
	.cfi_endproc
	.globl	_tlsf_next_number
	.p2align	2
_tlsf_next_number:
	.cfi_startproc
Lm_loh40:
	adrp	x8, _tlsf_next_number.calls@PAGE
Lm_loh41:
	add	x8, x8, _tlsf_next_number.calls@PAGEOFF
	mov	w9, #1
	ldadd	x9, x8, [x8]
	lsl	x9, x8, #3
	cmp	x9, w9, sxtw
	b.ne	Lm_BB23_2
	mov	w10, #-2147483648
	add	x9, x9, x10
	str	w9, [x0]
	mov	w0, #0
	ret
Lm_BB23_2:
	mov	w0, #2
	ret
	.loh AdrpAdd	Lm_loh40, Lm_loh41
	.cfi_endproc
.zerofill __DATA,__bss,_tlsf_memory_alloc.nothing,8,3
.zerofill __DATA,__bss,_near_room,8,3
.zerofill __DATA,__bss,_pieces_first,4,2
.zerofill __DATA,__bss,_lent,8,3
.zerofill __DATA,__bss,_tlsf_next_number.calls,8,3
.zerofill __DATA,__bss,_lent_step,8,3
.zerofill __DATA,__bss,_lent_end,8,3
.zerofill __DATA,__bss,_begin_behind.nothing,1,0
.subsections_via_symbols
#elif defined(TLSF_NO_MALLOC)
	.section	__TEXT,__text,regular,pure_instructions
	.private_extern	_tlsf_memory_alloc
	.globl	_tlsf_memory_alloc
	.p2align	2
_tlsf_memory_alloc:
	.cfi_startproc
	cmp	x1, #8
	b.ls	Lm_BB0_2
	mov	x10, #0
	b	Lm_BB0_11
Lm_BB0_2:
	stp	x29, x30, [sp, #-16]!
	.cfi_def_cfa_offset 16
	mov	x29, sp
	.cfi_def_cfa w29, 16
	.cfi_offset w30, -8
	.cfi_offset w29, -16
	.cfi_remember_state
	mov	x8, x0
Lm_loh0:
	adrp	x0, _near_room@TLVPPAGE
Lm_loh1:
	ldr	x0, [x0, _near_room@TLVPPAGEOFF]
	ldr	x9, [x0]
	blr	x9
	ldr	x10, [x0]
	cbz	x10, Lm_BB0_4
Lm_loh2:
	adrp	x0, _pieces_first@TLVPPAGE
Lm_loh3:
	ldr	x0, [x0, _pieces_first@TLVPPAGEOFF]
	ldr	x9, [x0]
	blr	x9
	ldr	w9, [x0]
	sub	w11, w9, #1
	str	w11, [x0]
	cbz	w9, Lm_BB0_8
Lm_BB0_4:
Lm_loh4:
	adrp	x0, _lent@TLVPPAGE
Lm_loh5:
	ldr	x0, [x0, _lent@TLVPPAGEOFF]
	ldr	x9, [x0]
	blr	x9
	ldr	x11, [x0]
	cbz	x11, Lm_BB0_9
	mov	x9, x0
Lm_loh6:
	adrp	x0, _lent_step@TLVPPAGE
Lm_loh7:
	ldr	x0, [x0, _lent_step@TLVPPAGEOFF]
	ldr	x10, [x0]
	blr	x10
	mov	w10, #268435456
	cmp	x8, x10
	b.hi	Lm_BB0_9
	ldr	x12, [x0]
	add	x10, x8, #8
Lm_loh8:
	adrp	x0, _lent_end@TLVPPAGE
Lm_loh9:
	ldr	x0, [x0, _lent_end@TLVPPAGEOFF]
	ldr	x13, [x0]
	blr	x13
	ldr	x13, [x0]
	sub	x14, x13, x11
	cmp	x10, x14
	b.hi	Lm_BB0_9
	add	x10, x11, #8
	add	x8, x8, x12
	add	x8, x8, #7
	udiv	x8, x8, x12
	mul	x8, x8, x12
	add	x12, x11, x8
	cmp	x8, x14
	csel	x8, x12, x13, lo
	str	x8, [x9]
	str	xzr, [x11]
	b	Lm_BB0_10
Lm_BB0_8:
	cmp	x8, #2776
	b.ls	Lm_BB0_12
Lm_BB0_9:
	mov	x10, #0
Lm_BB0_10:
	.cfi_def_cfa wsp, 16
	ldp	x29, x30, [sp], #16
	.cfi_def_cfa_offset 0
	.cfi_restore w30
	.cfi_restore w29
Lm_BB0_11:
Lm_loh10:
	adrp	x8, _tlsf_memory_alloc.nothing@PAGE
Lm_loh11:
	add	x8, x8, _tlsf_memory_alloc.nothing@PAGEOFF
	cmp	x10, #0
	csel	x1, x10, x8, ne
	cset	w0, ne
	ret
Lm_BB0_12:
	.cfi_restore_state
	str	xzr, [x10], #8
	b	Lm_BB0_10
	.loh AdrpLdr	Lm_loh0, Lm_loh1
	.loh AdrpLdr	Lm_loh2, Lm_loh3
	.loh AdrpLdr	Lm_loh4, Lm_loh5
	.loh AdrpLdr	Lm_loh6, Lm_loh7
	.loh AdrpLdr	Lm_loh8, Lm_loh9
	.loh AdrpAdd	Lm_loh10, Lm_loh11
	.cfi_endproc
	.private_extern	_tlsf_memory_dealloc
	.globl	_tlsf_memory_dealloc
	.p2align	2
_tlsf_memory_dealloc:
	.cfi_startproc
	ret
	.cfi_endproc
	.private_extern	_tlsf_memory_realloc
	.globl	_tlsf_memory_realloc
	.p2align	2
_tlsf_memory_realloc:
	.cfi_startproc
	cmp	x3, #8
	b.ls	Lm_BB2_2
	mov	x0, #0
Lm_loh12:
	adrp	x1, _tlsf_memory_alloc.nothing@PAGE
Lm_loh13:
	add	x1, x1, _tlsf_memory_alloc.nothing@PAGEOFF
	ret
Lm_BB2_2:
	stp	x20, x19, [sp, #-32]!
	.cfi_def_cfa_offset 32
	stp	x29, x30, [sp, #16]
	add	x29, sp, #16
	.cfi_def_cfa w29, 16
	.cfi_offset w30, -8
	.cfi_offset w29, -16
	.cfi_offset w19, -24
	.cfi_offset w20, -32
	mov	x9, x1
	mov	x1, x0
Lm_loh14:
	adrp	x0, _near_room@TLVPPAGE
Lm_loh15:
	ldr	x0, [x0, _near_room@TLVPPAGEOFF]
	ldr	x8, [x0]
	blr	x8
	ldr	x8, [x0]
	cbz	x8, Lm_BB2_4
Lm_loh16:
	adrp	x0, _pieces_first@TLVPPAGE
Lm_loh17:
	ldr	x0, [x0, _pieces_first@TLVPPAGEOFF]
	ldr	x10, [x0]
	blr	x10
	ldr	w10, [x0]
	sub	w11, w10, #1
	str	w11, [x0]
	cbz	w10, Lm_BB2_8
Lm_BB2_4:
Lm_loh18:
	adrp	x0, _lent@TLVPPAGE
Lm_loh19:
	ldr	x0, [x0, _lent@TLVPPAGEOFF]
	ldr	x8, [x0]
	blr	x8
	ldr	x8, [x0]
	cbz	x8, Lm_BB2_9
	mov	x10, x0
Lm_loh20:
	adrp	x0, _lent_step@TLVPPAGE
Lm_loh21:
	ldr	x0, [x0, _lent_step@TLVPPAGEOFF]
	ldr	x11, [x0]
	blr	x11
	mov	w11, #268435456
	cmp	x2, x11
	b.hi	Lm_BB2_9
	ldr	x11, [x0]
	add	x14, x2, #8
Lm_loh22:
	adrp	x0, _lent_end@TLVPPAGE
Lm_loh23:
	ldr	x0, [x0, _lent_end@TLVPPAGEOFF]
	ldr	x12, [x0]
	blr	x12
	ldr	x12, [x0]
	sub	x13, x12, x8
	cmp	x14, x13
	b.hi	Lm_BB2_9
	add	x14, x2, x11
	add	x14, x14, #7
	udiv	x14, x14, x11
	mul	x11, x14, x11
	add	x14, x8, x11
	cmp	x11, x13
	csel	x11, x14, x12, lo
	str	x11, [x10]
	b	Lm_BB2_10
Lm_BB2_8:
	cmp	x2, #2776
	b.ls	Lm_BB2_10
Lm_BB2_9:
	mov	x0, #0
Lm_loh24:
	adrp	x1, _tlsf_memory_alloc.nothing@PAGE
Lm_loh25:
	add	x1, x1, _tlsf_memory_alloc.nothing@PAGEOFF
	b	Lm_BB2_11
Lm_BB2_10:
	str	xzr, [x8], #8
	mov	x0, x8
	mov	x19, x8
	mov	x2, x9
	bl	_memcpy
	mov	w0, #1
	mov	x1, x19
Lm_BB2_11:
	.cfi_def_cfa wsp, 32
	ldp	x29, x30, [sp, #16]
	ldp	x20, x19, [sp], #32
	.cfi_def_cfa_offset 0
	.cfi_restore w30
	.cfi_restore w29
	.cfi_restore w19
	.cfi_restore w20
	ret
	.loh AdrpAdd	Lm_loh12, Lm_loh13
	.loh AdrpLdr	Lm_loh14, Lm_loh15
	.loh AdrpLdr	Lm_loh16, Lm_loh17
	.loh AdrpLdr	Lm_loh18, Lm_loh19
	.loh AdrpLdr	Lm_loh20, Lm_loh21
	.loh AdrpLdr	Lm_loh22, Lm_loh23
	.loh AdrpAdd	Lm_loh24, Lm_loh25
	.cfi_endproc
	.private_extern	_tlsf_memory_set
	.globl	_tlsf_memory_set
	.weak_definition	_tlsf_memory_set
	.p2align	2
_tlsf_memory_set:
	.cfi_startproc
	cbnz	w1, Lm_BB3_15
	cmp	x2, #513
	b.hs	Lm_BB3_15
	cmp	x2, #257
	b.lo	Lm_BB3_4
	movi.2d	v0, #0000000000000000
	str	q0, [x0]
	add	x8, x0, x2
	stur	q0, [x8, #-16]
	str	q0, [x0, #16]
	stur	q0, [x8, #-32]
	str	q0, [x0, #32]
	stur	q0, [x8, #-48]
	str	q0, [x0, #48]
	stur	q0, [x8, #-64]
	str	q0, [x0, #64]
	stur	q0, [x8, #-80]
	str	q0, [x0, #80]
	stur	q0, [x8, #-96]
	str	q0, [x0, #96]
	stur	q0, [x8, #-112]
	str	q0, [x0, #112]
	stur	q0, [x8, #-128]
	str	q0, [x0, #128]
	stur	q0, [x8, #-144]
	str	q0, [x0, #144]
	stur	q0, [x8, #-160]
	str	q0, [x0, #160]
	stur	q0, [x8, #-176]
	str	q0, [x0, #176]
	stur	q0, [x8, #-192]
	str	q0, [x0, #192]
	stur	q0, [x8, #-208]
	str	q0, [x0, #208]
	stur	q0, [x8, #-224]
	str	q0, [x0, #224]
	stur	q0, [x8, #-240]
	str	q0, [x0, #240]
	stur	q0, [x8, #-256]
	ret
Lm_BB3_4:
	cmp	x2, #129
	b.lo	Lm_BB3_6
	movi.2d	v0, #0000000000000000
	str	q0, [x0]
	add	x8, x0, x2
	stur	q0, [x8, #-16]
	str	q0, [x0, #16]
	stur	q0, [x8, #-32]
	str	q0, [x0, #32]
	stur	q0, [x8, #-48]
	str	q0, [x0, #48]
	stur	q0, [x8, #-64]
	str	q0, [x0, #64]
	stur	q0, [x8, #-80]
	str	q0, [x0, #80]
	stur	q0, [x8, #-96]
	str	q0, [x0, #96]
	stur	q0, [x8, #-112]
	str	q0, [x0, #112]
	stur	q0, [x8, #-128]
	ret
Lm_BB3_6:
	cmp	x2, #65
	b.lo	Lm_BB3_8
	movi.2d	v0, #0000000000000000
	str	q0, [x0]
	add	x8, x0, x2
	stur	q0, [x8, #-16]
	str	q0, [x0, #16]
	stur	q0, [x8, #-32]
	str	q0, [x0, #32]
	stur	q0, [x8, #-48]
	str	q0, [x0, #48]
	stur	q0, [x8, #-64]
	ret
Lm_BB3_8:
	cmp	x2, #33
	b.lo	Lm_BB3_10
	movi.2d	v0, #0000000000000000
	str	q0, [x0]
	add	x8, x0, x2
	stur	q0, [x8, #-16]
	str	q0, [x0, #16]
	stur	q0, [x8, #-32]
	ret
Lm_BB3_10:
	cmp	x2, #17
	b.lo	Lm_BB3_12
	add	x8, x0, x2
	movi.2d	v0, #0000000000000000
	str	q0, [x0]
	stur	q0, [x8, #-16]
	ret
Lm_BB3_12:
	cmp	x2, #7
	b.hi	Lm_BB3_14
	mov	w1, #0
	b	_memset
Lm_BB3_14:
	str	xzr, [x0]
	add	x8, x0, x2
	stur	xzr, [x8, #-8]
	ret
Lm_BB3_15:
	b	_memset
	.cfi_endproc
	.private_extern	_tlsf_memory_cpy
	.globl	_tlsf_memory_cpy
	.weak_definition	_tlsf_memory_cpy
	.p2align	2
_tlsf_memory_cpy:
	.cfi_startproc
	b	_memcpy
	.cfi_endproc
	.private_extern	_tlsf_memory_move
	.globl	_tlsf_memory_move
	.weak_definition	_tlsf_memory_move
	.p2align	2
_tlsf_memory_move:
	.cfi_startproc
	b	_memmove
	.cfi_endproc
	.globl	_tlsf_bytes
	.p2align	2
_tlsf_bytes:
	.cfi_startproc
	cmp	w1, #4
	b.hs	Lm_BB6_2
	mov	x0, #0
	ret
Lm_BB6_2:
	mov	w8, w1
	cmp	w0, #5
	mov	w9, #16777216
	csel	x9, x9, xzr, eq
	cmp	w0, #4
	mov	w10, #1048576
	csel	x9, x10, x9, eq
	cmp	x9, x8
	b.hs	Lm_BB6_4
	mov	x0, #0
	ret
Lm_BB6_4:
	lsl	x9, x8, #3
	add	x9, x9, #23
	and	x9, x9, #0xffffffff0
	add	x8, x8, #63
	lsr	x8, x8, #3
	add	w8, w8, #16
	and	x8, x8, #0x7ffffff0
	add	x8, x9, x8
	add	x0, x8, #2783
	ret
	.cfi_endproc
	.globl	_tlsf_near_bytes
	.p2align	2
_tlsf_near_bytes:
	.cfi_startproc
	cmp	w1, #4
	b.hs	Lm_BB7_2
	mov	x0, #0
	ret
Lm_BB7_2:
	mov	w8, w1
	cmp	w0, #5
	mov	w9, #16777216
	csel	x9, x9, xzr, eq
	cmp	w0, #4
	mov	w10, #1048576
	csel	x9, x10, x9, eq
	lsl	x10, x8, #3
	add	x10, x10, #23
	and	x10, x10, #0xffffffff0
	add	x11, x8, #63
	lsr	x11, x11, #3
	and	x11, x11, #0x3ffffff8
	add	x10, x10, x11
	add	x10, x10, #23
	cmp	x9, x8
	csel	x0, xzr, x10, lo
	ret
	.cfi_endproc
	.globl	_tlsf_open_in
	.p2align	2
_tlsf_open_in:
	.cfi_startproc
	stp	x22, x21, [sp, #-48]!
	.cfi_def_cfa_offset 48
	stp	x20, x19, [sp, #16]
	stp	x29, x30, [sp, #32]
	add	x29, sp, #32
	.cfi_def_cfa w29, 16
	.cfi_offset w30, -8
	.cfi_offset w29, -16
	.cfi_offset w19, -24
	.cfi_offset w20, -32
	.cfi_offset w21, -40
	.cfi_offset w22, -48
	mov	x19, x0
	ldrb	w9, [x0, #29]
	cbz	w9, Lm_BB8_4
	sub	w8, w9, #65
	cmn	w8, #57
	b.lo	Lm_BB8_3
	add	w10, w9, #127
	mov	w8, #16
	cmp	x9, #16
	csel	x8, x9, x8, hi
	and	x10, x10, x9
	cbz	x10, Lm_BB8_5
Lm_BB8_3:
	mov	x10, #0
	b	Lm_BB8_6
Lm_BB8_4:
	mov	w8, #16
Lm_BB8_5:
	mov	x10, #-32
	sub	x10, x10, x3
	udiv	x11, x10, x8
	msub	x10, x11, x8, x10
Lm_BB8_6:
	mov	w8, #0
	mvn	x11, x3
	cbz	x3, Lm_BB8_14
	cmp	x4, x11
	b.hi	Lm_BB8_14
	subs	x12, x4, x10
	b.lo	Lm_BB8_14
	cmp	w1, #5
	mov	w8, #16777216
	csel	x8, x8, xzr, eq
	cmp	w1, #4
	mov	w13, #1048576
	csel	x8, x13, x8, eq
	cmp	x12, #2832
	b.hs	Lm_BB8_11
	mov	w8, #0
	b	Lm_BB8_14
Lm_BB8_11:
	mov	w13, #268435456
	cmp	x12, x13
	csel	x12, x12, x13, lo
	mov	w13, #-22400
	add	w13, w13, w12, lsl #3
	mov	x14, #1009
	movk	x14, #61503, lsl #16
	movk	x14, #16131, lsl #32
	movk	x14, #1008, lsl #48
	umulh	x14, x13, x14
	add	x13, x14, #71
	lsl	x14, x14, #3
	add	x14, x14, #87
Lm_BB8_12:
	and	x15, x14, #0xfffffffffffffff0
	lsr	x16, x13, #3
	add	x16, x16, #16
	and	x16, x16, #0x3ffffffffffffff0
	add	x15, x15, x16
	add	x15, x15, #2768
	sub	x13, x13, #1
	sub	x14, x14, #8
	cmp	x15, x12
	b.hi	Lm_BB8_12
	sub	x12, x13, #62
	cmp	x12, x8
	csel	x8, x12, x8, lo
Lm_BB8_14:
	cmp	x3, #0
	cset	w12, ne
	cmp	x4, x11
	cset	w11, ls
	cmp	x10, x4
	csel	x10, x10, x4, lo
Lm_loh26:
	adrp	x0, _lent@TLVPPAGE
Lm_loh27:
	ldr	x0, [x0, _lent@TLVPPAGEOFF]
	ldr	x13, [x0]
	blr	x13
	mov	x20, x0
	ands	w21, w12, w11
	add	x10, x3, x10
Lm_loh28:
	adrp	x11, _begin_behind.nothing@PAGE
Lm_loh29:
	add	x11, x11, _begin_behind.nothing@PAGEOFF
	csel	x10, x10, x11, ne
	str	x10, [x0]
	add	x10, x3, x4
	csel	x10, x10, x11, ne
Lm_loh30:
	adrp	x0, _lent_end@TLVPPAGE
Lm_loh31:
	ldr	x0, [x0, _lent_end@TLVPPAGEOFF]
	ldr	x11, [x0]
	blr	x11
	str	x10, [x0]
Lm_loh32:
	adrp	x0, _lent_step@TLVPPAGE
Lm_loh33:
	ldr	x0, [x0, _lent_step@TLVPPAGEOFF]
	ldr	x10, [x0]
	blr	x10
	mov	w10, #16
	str	x10, [x0]
	cbz	w9, Lm_BB8_18
	sub	w10, w9, #65
	cmn	w10, #57
	b.lo	Lm_BB8_17
	add	w10, w9, #127
	tst	w10, w9
	b.eq	Lm_BB8_18
Lm_BB8_17:
	mov	w8, #0
Lm_BB8_18:
	mov	x0, x19
	mov	x3, x8
	bl	_tlsf_open
	cbz	w0, Lm_BB8_21
	str	xzr, [x20]
	cmp	w0, #5
	cset	w8, eq
	bic	w8, w8, w21
	tbz	w8, #0, Lm_BB8_24
	mov	w0, #39
	b	Lm_BB8_24
Lm_BB8_21:
	ldrb	w8, [x19, #29]
	tst	w8, #0xfffffff7
	b.eq	Lm_BB8_23
	mov	w8, #1
	strb	w8, [x19, #28]
Lm_BB8_23:
	str	xzr, [x20]
Lm_BB8_24:
	.cfi_def_cfa wsp, 48
	ldp	x29, x30, [sp, #32]
	ldp	x20, x19, [sp, #16]
	ldp	x22, x21, [sp], #48
	.cfi_def_cfa_offset 0
	.cfi_restore w30
	.cfi_restore w29
	.cfi_restore w19
	.cfi_restore w20
	.cfi_restore w21
	.cfi_restore w22
	ret
	.loh AdrpLdr	Lm_loh32, Lm_loh33
	.loh AdrpLdr	Lm_loh30, Lm_loh31
	.loh AdrpAdd	Lm_loh28, Lm_loh29
	.loh AdrpLdr	Lm_loh26, Lm_loh27
	.cfi_endproc
	.globl	_tlsf_open_near
	.p2align	2
_tlsf_open_near:
	.cfi_startproc
	stp	x20, x19, [sp, #-32]!
	.cfi_def_cfa_offset 32
	stp	x29, x30, [sp, #16]
	add	x29, sp, #16
	.cfi_def_cfa w29, 16
	.cfi_offset w30, -8
	.cfi_offset w29, -16
	.cfi_offset w19, -24
	.cfi_offset w20, -32
	neg	w8, w0
	and	x8, x8, #0x3f
	add	x19, x0, x8
	add	x8, x19, #32
Lm_loh34:
	adrp	x0, _near_room@TLVPPAGE
Lm_loh35:
	ldr	x0, [x0, _near_room@TLVPPAGEOFF]
	ldr	x9, [x0]
	blr	x9
	mov	x20, x0
	str	x8, [x0]
Lm_loh36:
	adrp	x0, _pieces_first@TLVPPAGE
Lm_loh37:
	ldr	x0, [x0, _pieces_first@TLVPPAGEOFF]
	ldr	x8, [x0]
	blr	x8
	mov	w8, #2
	str	w8, [x0]
	ldrb	w8, [x19, #29]
	cbz	w8, Lm_BB9_4
	sub	w9, w8, #65
	cmn	w9, #57
	b.lo	Lm_BB9_3
	add	w9, w8, #127
	tst	w9, w8
	b.eq	Lm_BB9_4
Lm_BB9_3:
	mov	w3, #0
Lm_BB9_4:
	mov	x0, x19
	bl	_tlsf_open
	cbnz	w0, Lm_BB9_7
	ldrb	w8, [x19, #29]
	tst	w8, #0xfffffff7
	b.eq	Lm_BB9_7
	mov	w8, #1
	strb	w8, [x19, #28]
Lm_BB9_7:
	str	xzr, [x20]
	.cfi_def_cfa wsp, 32
	ldp	x29, x30, [sp, #16]
	ldp	x20, x19, [sp], #32
	.cfi_def_cfa_offset 0
	.cfi_restore w30
	.cfi_restore w29
	.cfi_restore w19
	.cfi_restore w20
	ret
	.loh AdrpLdr	Lm_loh36, Lm_loh37
	.loh AdrpLdr	Lm_loh34, Lm_loh35
	.cfi_endproc
	.globl	_tlsf_open_near_in
	.p2align	2
_tlsf_open_near_in:
	.cfi_startproc
	stp	x22, x21, [sp, #-48]!
	.cfi_def_cfa_offset 48
	stp	x20, x19, [sp, #16]
	stp	x29, x30, [sp, #32]
	add	x29, sp, #32
	.cfi_def_cfa w29, 16
	.cfi_offset w30, -8
	.cfi_offset w29, -16
	.cfi_offset w19, -24
	.cfi_offset w20, -32
	.cfi_offset w21, -40
	.cfi_offset w22, -48
	neg	w8, w0
	and	x8, x8, #0x3f
	add	x20, x0, x8
	add	x8, x20, #32
Lm_loh38:
	adrp	x0, _near_room@TLVPPAGE
Lm_loh39:
	ldr	x0, [x0, _near_room@TLVPPAGEOFF]
	ldr	x9, [x0]
	blr	x9
	mov	x19, x0
	str	x8, [x0]
Lm_loh40:
	adrp	x0, _pieces_first@TLVPPAGE
Lm_loh41:
	ldr	x0, [x0, _pieces_first@TLVPPAGEOFF]
	ldr	x8, [x0]
	blr	x8
	mov	w8, #2
	str	w8, [x0]
	ldrb	w9, [x20, #29]
	cbz	w9, Lm_BB10_4
	sub	w8, w9, #65
	cmn	w8, #57
	b.lo	Lm_BB10_3
	add	w10, w9, #127
	mov	w8, #16
	cmp	x9, #16
	csel	x8, x9, x8, hi
	and	x10, x10, x9
	cbz	x10, Lm_BB10_5
Lm_BB10_3:
	mov	x10, #0
	b	Lm_BB10_6
Lm_BB10_4:
	mov	w8, #16
Lm_BB10_5:
	mov	x10, #-32
	sub	x10, x10, x3
	udiv	x11, x10, x8
	msub	x10, x11, x8, x10
Lm_BB10_6:
	mov	w8, #0
	mvn	x11, x3
	cbz	x3, Lm_BB10_14
	cmp	x4, x11
	b.hi	Lm_BB10_14
	subs	x12, x4, x10
	b.lo	Lm_BB10_14
	cmp	w1, #5
	mov	w8, #16777216
	csel	x8, x8, xzr, eq
	cmp	w1, #4
	mov	w13, #1048576
	csel	x8, x13, x8, eq
	cmp	x12, #64
	b.hs	Lm_BB10_11
	mov	w8, #0
	b	Lm_BB10_14
Lm_BB10_11:
	mov	w13, #268435456
	cmp	x12, x13
	csel	x12, x12, x13, lo
	lsl	w13, w12, #3
	sub	w13, w13, #192
	mov	x14, #1009
	movk	x14, #61503, lsl #16
	movk	x14, #16131, lsl #32
	movk	x14, #1008, lsl #48
	umulh	x14, x13, x14
	add	x13, x14, #71
	lsl	x14, x14, #3
	add	x14, x14, #87
Lm_BB10_12:
	and	x15, x14, #0xfffffffffffffff0
	lsr	x16, x13, #6
	add	x15, x15, x16, lsl #3
	add	x15, x15, #8
	sub	x13, x13, #1
	sub	x14, x14, #8
	cmp	x15, x12
	b.hi	Lm_BB10_12
	sub	x12, x13, #62
	cmp	x12, x8
	csel	x8, x12, x8, lo
Lm_BB10_14:
	cmp	x3, #0
	cset	w12, ne
	cmp	x4, x11
	cset	w11, ls
	cmp	x10, x4
	csel	x10, x10, x4, lo
Lm_loh42:
	adrp	x0, _lent@TLVPPAGE
Lm_loh43:
	ldr	x0, [x0, _lent@TLVPPAGEOFF]
	ldr	x13, [x0]
	blr	x13
	mov	x21, x0
	ands	w22, w12, w11
	add	x10, x3, x10
Lm_loh44:
	adrp	x11, _begin_behind.nothing@PAGE
Lm_loh45:
	add	x11, x11, _begin_behind.nothing@PAGEOFF
	csel	x10, x10, x11, ne
	str	x10, [x0]
	add	x10, x3, x4
	csel	x10, x10, x11, ne
Lm_loh46:
	adrp	x0, _lent_end@TLVPPAGE
Lm_loh47:
	ldr	x0, [x0, _lent_end@TLVPPAGEOFF]
	ldr	x11, [x0]
	blr	x11
	str	x10, [x0]
Lm_loh48:
	adrp	x0, _lent_step@TLVPPAGE
Lm_loh49:
	ldr	x0, [x0, _lent_step@TLVPPAGEOFF]
	ldr	x10, [x0]
	blr	x10
	mov	w10, #16
	str	x10, [x0]
	cbz	w9, Lm_BB10_18
	sub	w10, w9, #65
	cmn	w10, #57
	b.lo	Lm_BB10_17
	add	w10, w9, #127
	tst	w10, w9
	b.eq	Lm_BB10_18
Lm_BB10_17:
	mov	w8, #0
Lm_BB10_18:
	mov	x0, x20
	mov	x3, x8
	bl	_tlsf_open
	cbz	w0, Lm_BB10_21
	str	xzr, [x21]
	cmp	w0, #5
	cset	w8, eq
	bic	w8, w8, w22
	tbz	w8, #0, Lm_BB10_24
	mov	w0, #39
	b	Lm_BB10_24
Lm_BB10_21:
	ldrb	w8, [x20, #29]
	tst	w8, #0xfffffff7
	b.eq	Lm_BB10_23
	mov	w8, #1
	strb	w8, [x20, #28]
Lm_BB10_23:
	str	xzr, [x21]
Lm_BB10_24:
	str	xzr, [x19]
	.cfi_def_cfa wsp, 48
	ldp	x29, x30, [sp, #32]
	ldp	x20, x19, [sp, #16]
	ldp	x22, x21, [sp], #48
	.cfi_def_cfa_offset 0
	.cfi_restore w30
	.cfi_restore w29
	.cfi_restore w19
	.cfi_restore w20
	.cfi_restore w21
	.cfi_restore w22
	ret
	.loh AdrpLdr	Lm_loh40, Lm_loh41
	.loh AdrpLdr	Lm_loh38, Lm_loh39
	.loh AdrpLdr	Lm_loh48, Lm_loh49
	.loh AdrpLdr	Lm_loh46, Lm_loh47
	.loh AdrpAdd	Lm_loh44, Lm_loh45
	.loh AdrpLdr	Lm_loh42, Lm_loh43
	.cfi_endproc
	.globl	_tlsf_open_32
	.p2align	2
_tlsf_open_32:
	.cfi_startproc
	stp	x20, x19, [sp, #-32]!
	.cfi_def_cfa_offset 32
	stp	x29, x30, [sp, #16]
	add	x29, sp, #16
	.cfi_def_cfa w29, 16
	.cfi_offset w30, -8
	.cfi_offset w29, -16
	.cfi_offset w19, -24
	.cfi_offset w20, -32
	mov	x19, x0
	ldrb	w8, [x0, #29]
	cbz	w8, Lm_BB11_4
	sub	w9, w8, #65
	cmn	w9, #57
	b.lo	Lm_BB11_3
	add	w9, w8, #127
	tst	w9, w8
	b.eq	Lm_BB11_4
Lm_BB11_3:
	mov	w3, #0
Lm_BB11_4:
	mov	x0, x19
	bl	_tlsf_open
	cbnz	w0, Lm_BB11_7
	ldrb	w8, [x19, #29]
	tst	w8, #0xfffffff7
	b.eq	Lm_BB11_7
	mov	w8, #1
	strb	w8, [x19, #28]
Lm_BB11_7:
	.cfi_def_cfa wsp, 32
	ldp	x29, x30, [sp, #16]
	ldp	x20, x19, [sp], #32
	.cfi_def_cfa_offset 0
	.cfi_restore w30
	.cfi_restore w29
	.cfi_restore w19
	.cfi_restore w20
	ret
	.cfi_endproc
	.globl	_tlsf_open_in_32
	.p2align	2
_tlsf_open_in_32:
	.cfi_startproc
	b	_tlsf_open_in
	.cfi_endproc
	.globl	_tlsf_open_near_2880
	.p2align	2
_tlsf_open_near_2880:
	.cfi_startproc
	stp	x20, x19, [sp, #-32]!
	.cfi_def_cfa_offset 32
	stp	x29, x30, [sp, #16]
	add	x29, sp, #16
	.cfi_def_cfa w29, 16
	.cfi_offset w30, -8
	.cfi_offset w29, -16
	.cfi_offset w19, -24
	.cfi_offset w20, -32
	neg	w8, w0
	and	x8, x8, #0x3f
	add	x19, x0, x8
	add	x8, x19, #32
Lm_loh50:
	adrp	x0, _near_room@TLVPPAGE
Lm_loh51:
	ldr	x0, [x0, _near_room@TLVPPAGEOFF]
	ldr	x9, [x0]
	blr	x9
	mov	x20, x0
	str	x8, [x0]
Lm_loh52:
	adrp	x0, _pieces_first@TLVPPAGE
Lm_loh53:
	ldr	x0, [x0, _pieces_first@TLVPPAGEOFF]
	ldr	x8, [x0]
	blr	x8
	mov	w8, #2
	str	w8, [x0]
	ldrb	w8, [x19, #29]
	cbz	w8, Lm_BB13_4
	sub	w9, w8, #65
	cmn	w9, #57
	b.lo	Lm_BB13_3
	add	w9, w8, #127
	tst	w9, w8
	b.eq	Lm_BB13_4
Lm_BB13_3:
	mov	w3, #0
Lm_BB13_4:
	mov	x0, x19
	bl	_tlsf_open
	cbnz	w0, Lm_BB13_7
	ldrb	w8, [x19, #29]
	tst	w8, #0xfffffff7
	b.eq	Lm_BB13_7
	mov	w8, #1
	strb	w8, [x19, #28]
Lm_BB13_7:
	str	xzr, [x20]
	.cfi_def_cfa wsp, 32
	ldp	x29, x30, [sp, #16]
	ldp	x20, x19, [sp], #32
	.cfi_def_cfa_offset 0
	.cfi_restore w30
	.cfi_restore w29
	.cfi_restore w19
	.cfi_restore w20
	ret
	.loh AdrpLdr	Lm_loh52, Lm_loh53
	.loh AdrpLdr	Lm_loh50, Lm_loh51
	.cfi_endproc
	.globl	_tlsf_open_near_in_2880
	.p2align	2
_tlsf_open_near_in_2880:
	.cfi_startproc
	b	_tlsf_open_near_in
	.cfi_endproc
	.globl	_tlsf_lane_bytes
	.p2align	2
_tlsf_lane_bytes:
	.cfi_startproc
	sub	w8, w0, #1025
	mov	w9, #24
	mov	w10, #135
	madd	w9, w0, w9, w10
	and	w9, w9, #0x1ff80
	add	w9, w9, #895
	cmn	w8, #1024
	csel	w0, wzr, w9, lo
	ret
	.cfi_endproc
	.globl	_tlsf_lane_open_in
	.p2align	2
_tlsf_lane_open_in:
	.cfi_startproc
	stp	x20, x19, [sp, #-32]!
	.cfi_def_cfa_offset 32
	stp	x29, x30, [sp, #16]
	add	x29, sp, #16
	.cfi_def_cfa w29, 16
	.cfi_offset w30, -8
	.cfi_offset w29, -16
	.cfi_offset w19, -24
	.cfi_offset w20, -32
	mov	x8, x0
	mov	w9, #24
	mov	w10, #135
	madd	w9, w2, w9, w10
	and	w9, w9, #0x1ff80
	add	w9, w9, #768
	neg	w10, w3
	and	x10, x10, #0x7f
	mvn	x11, x3
	subs	x12, x4, x10
	ccmp	x4, x11, #2, hs
	ccmp	x3, #0, #4, ls
	ccmp	x12, x9, #0, ne
	csel	w9, wzr, w2, lo
	neg	w12, w3
	and	x12, x12, #0x7f
	cmp	w2, #1025
	csel	w2, w9, w2, lo
	csinv	x9, x11, x3, hs
	csel	x10, x10, x12, lo
	cmp	x3, #0
	cset	w11, ne
	cmp	x4, x9
	cset	w9, ls
	cmp	x10, x4
	csel	x10, x10, x4, lo
	add	x10, x3, x10
Lm_loh54:
	adrp	x12, _begin_behind.nothing@PAGE
Lm_loh55:
	add	x12, x12, _begin_behind.nothing@PAGEOFF
Lm_loh56:
	adrp	x0, _lent@TLVPPAGE
Lm_loh57:
	ldr	x0, [x0, _lent@TLVPPAGEOFF]
	ldr	x13, [x0]
	blr	x13
	mov	x19, x0
	ands	w20, w11, w9
	csel	x9, x10, x12, ne
	str	x9, [x0]
	add	x9, x3, x4
	csel	x9, x9, x12, ne
Lm_loh58:
	adrp	x0, _lent_end@TLVPPAGE
Lm_loh59:
	ldr	x0, [x0, _lent_end@TLVPPAGEOFF]
	ldr	x10, [x0]
	blr	x10
	str	x9, [x0]
Lm_loh60:
	adrp	x0, _lent_step@TLVPPAGE
Lm_loh61:
	ldr	x0, [x0, _lent_step@TLVPPAGEOFF]
	ldr	x9, [x0]
	blr	x9
	mov	w9, #128
	str	x9, [x0]
	mov	x0, x8
	bl	_tlsf_lane_open
	str	xzr, [x19]
	cmp	w0, #5
	cset	w8, ne
	orr	w8, w20, w8
	mov	w9, #39
	cmp	w8, #0
	csel	w0, w0, w9, ne
	.cfi_def_cfa wsp, 32
	ldp	x29, x30, [sp, #16]
	ldp	x20, x19, [sp], #32
	.cfi_def_cfa_offset 0
	.cfi_restore w30
	.cfi_restore w29
	.cfi_restore w19
	.cfi_restore w20
	ret
	.loh AdrpLdr	Lm_loh60, Lm_loh61
	.loh AdrpLdr	Lm_loh58, Lm_loh59
	.loh AdrpLdr	Lm_loh56, Lm_loh57
	.loh AdrpAdd	Lm_loh54, Lm_loh55
	.cfi_endproc
	.globl	_tlsf_queue_bytes
	.p2align	2
_tlsf_queue_bytes:
	.cfi_startproc
	mov	w8, #1024
	sub	w9, w8, w0
	sub	w8, w8, w1
	orr	w8, w8, w9
	cmp	w8, #1023
	b.hi	Lm_BB17_2
	mov	w8, w0
	ubfiz	x9, x0, #4, #32
	add	x9, x9, #135
	and	x9, x9, #0xfffffff80
	ubfiz	x10, x1, #3, #32
	add	x10, x10, #519
	and	x10, x10, #0x7ffffff80
	ubfiz	x11, x1, #5, #32
	add	x11, x11, #135
	and	x11, x11, #0x1fffffff80
	add	x10, x10, x11
	ubfiz	x11, x0, #3, #32
	add	x11, x11, #135
	and	x11, x11, #0x7ffffff80
	add	x8, x9, x8, lsl #7
	add	x8, x8, x11
	add	x8, x8, x10, lsl #1
	add	x0, x8, #383
	ret
Lm_BB17_2:
	mov	x0, #0
	ret
	.cfi_endproc
	.globl	_tlsf_queue_open_in
	.p2align	2
_tlsf_queue_open_in:
	.cfi_startproc
	mov	x8, x0
	cmp	w1, #1024
	b.hi	Lm_BB18_3
	cmp	w2, #1025
	b.hs	Lm_BB18_3
	mov	w9, w1
	lsl	w10, w1, #4
	add	w10, w10, #135
	and	x10, x10, #0xff80
	lsl	w11, w2, #3
	add	w11, w11, #519
	and	x11, x11, #0x7f80
	lsl	w12, w2, #5
	add	w12, w12, #135
	and	x12, x12, #0x1ff80
	add	x11, x11, x12
	lsl	w12, w1, #3
	add	w12, w12, #135
	and	x12, x12, #0x7f80
	add	x9, x10, x9, lsl #7
	add	x9, x9, x12
	add	x9, x9, x11, lsl #1
	add	x11, x9, #256
	neg	w9, w3
	and	x9, x9, #0x7f
	mvn	x10, x3
	subs	x12, x4, x9
	ccmp	x4, x10, #2, hs
	ccmp	x3, #0, #4, ls
	ccmp	x12, x11, #0, ne
	csel	w2, wzr, w2, lo
	b	Lm_BB18_4
Lm_BB18_3:
	neg	w9, w3
	and	x9, x9, #0x7f
	mvn	x10, x3
Lm_BB18_4:
	stp	x20, x19, [sp, #-32]!
	.cfi_def_cfa_offset 32
	stp	x29, x30, [sp, #16]
	add	x29, sp, #16
	.cfi_def_cfa w29, 16
	.cfi_offset w30, -8
	.cfi_offset w29, -16
	.cfi_offset w19, -24
	.cfi_offset w20, -32
	cmp	x3, #0
	cset	w11, ne
	cmp	x4, x10
	cset	w10, ls
	cmp	x9, x4
	csel	x9, x9, x4, lo
	add	x9, x3, x9
Lm_loh62:
	adrp	x12, _begin_behind.nothing@PAGE
Lm_loh63:
	add	x12, x12, _begin_behind.nothing@PAGEOFF
Lm_loh64:
	adrp	x0, _lent@TLVPPAGE
Lm_loh65:
	ldr	x0, [x0, _lent@TLVPPAGEOFF]
	ldr	x13, [x0]
	blr	x13
	mov	x19, x0
	ands	w20, w11, w10
	csel	x9, x9, x12, ne
	str	x9, [x0]
	add	x9, x3, x4
	csel	x9, x9, x12, ne
Lm_loh66:
	adrp	x0, _lent_end@TLVPPAGE
Lm_loh67:
	ldr	x0, [x0, _lent_end@TLVPPAGEOFF]
	ldr	x10, [x0]
	blr	x10
	str	x9, [x0]
Lm_loh68:
	adrp	x0, _lent_step@TLVPPAGE
Lm_loh69:
	ldr	x0, [x0, _lent_step@TLVPPAGEOFF]
	ldr	x9, [x0]
	blr	x9
	mov	w9, #128
	str	x9, [x0]
	mov	x0, x8
	bl	_tlsf_queue_open
	str	xzr, [x19]
	cmp	w0, #5
	cset	w8, ne
	orr	w8, w20, w8
	mov	w9, #39
	cmp	w8, #0
	csel	w0, w0, w9, ne
	.cfi_def_cfa wsp, 32
	ldp	x29, x30, [sp, #16]
	ldp	x20, x19, [sp], #32
	.cfi_def_cfa_offset 0
	.cfi_restore w30
	.cfi_restore w29
	.cfi_restore w19
	.cfi_restore w20
	ret
	.loh AdrpLdr	Lm_loh68, Lm_loh69
	.loh AdrpLdr	Lm_loh66, Lm_loh67
	.loh AdrpLdr	Lm_loh64, Lm_loh65
	.loh AdrpAdd	Lm_loh62, Lm_loh63
	.cfi_endproc
	.globl	_tlsf_offsets_bytes
	.p2align	2
_tlsf_offsets_bytes:
	.cfi_startproc
	cmp	w1, #4
	b.hs	Lm_BB19_2
	mov	x0, #0
	ret
Lm_BB19_2:
	mov	w8, w1
	cmp	w0, #5
	mov	w9, #16777216
	csel	x9, x9, xzr, eq
	cmp	w0, #4
	mov	w10, #1048576
	csel	x9, x10, x9, eq
	cmp	x9, x8
	b.hs	Lm_BB19_4
	mov	x0, #0
	ret
Lm_BB19_4:
	lsl	w9, w8, #3
	add	w9, w9, #23
	and	x9, x9, #0x1ffffff0
	add	w8, w8, #63
	lsr	w8, w8, #3
	add	w8, w8, #16
	and	x8, x8, #0xfffff0
	add	x8, x9, x8
	add	x0, x8, #2783
	ret
	.cfi_endproc
	.globl	_tlsf_offsets_open_in
	.p2align	2
_tlsf_offsets_open_in:
	.cfi_startproc
	stp	x20, x19, [sp, #-32]!
	.cfi_def_cfa_offset 32
	stp	x29, x30, [sp, #16]
	add	x29, sp, #16
	.cfi_def_cfa w29, 16
	.cfi_offset w30, -8
	.cfi_offset w29, -16
	.cfi_offset w19, -24
	.cfi_offset w20, -32
	mov	x8, x0
	mov	w9, w4
	cmp	w1, #5
	mov	w10, #16777216
	csel	x10, x10, xzr, eq
	cmp	w1, #4
	mov	w11, #1048576
	csel	x10, x11, x10, eq
	lsl	w11, w9, #3
	add	w11, w11, #23
	and	x11, x11, #0x1ffffff0
	add	w12, w9, #63
	lsr	w12, w12, #3
	add	w12, w12, #16
	and	x12, x12, #0xfffff0
	add	x11, x11, x12
	add	x11, x11, #2768
	neg	w12, w5
	and	x12, x12, #0xf
	mvn	x13, x5
	subs	x14, x6, x12
	ccmp	x6, x13, #2, hs
	ccmp	x5, #0, #4, ls
	ccmp	x14, x11, #0, ne
	csel	w11, wzr, w4, lo
	neg	w14, w5
	and	x14, x14, #0xf
	cmp	x10, x9
	csel	x9, x12, x14, hs
	csinv	x10, x13, x5, lo
	csel	w4, w11, w4, hs
	cmp	x5, #0
	cset	w11, ne
	cmp	x6, x10
	cset	w10, ls
	cmp	x9, x6
	csel	x9, x9, x6, lo
	add	x9, x5, x9
Lm_loh70:
	adrp	x12, _begin_behind.nothing@PAGE
Lm_loh71:
	add	x12, x12, _begin_behind.nothing@PAGEOFF
Lm_loh72:
	adrp	x0, _lent@TLVPPAGE
Lm_loh73:
	ldr	x0, [x0, _lent@TLVPPAGEOFF]
	ldr	x13, [x0]
	blr	x13
	mov	x19, x0
	ands	w20, w11, w10
	csel	x9, x9, x12, ne
	str	x9, [x0]
	add	x9, x5, x6
	csel	x9, x9, x12, ne
Lm_loh74:
	adrp	x0, _lent_end@TLVPPAGE
Lm_loh75:
	ldr	x0, [x0, _lent_end@TLVPPAGEOFF]
	ldr	x10, [x0]
	blr	x10
	str	x9, [x0]
Lm_loh76:
	adrp	x0, _lent_step@TLVPPAGE
Lm_loh77:
	ldr	x0, [x0, _lent_step@TLVPPAGEOFF]
	ldr	x9, [x0]
	blr	x9
	mov	w9, #16
	str	x9, [x0]
	mov	x0, x8
	bl	_tlsf_offsets_open
	str	xzr, [x19]
	cmp	w0, #5
	cset	w8, ne
	orr	w8, w20, w8
	mov	w9, #39
	cmp	w8, #0
	csel	w0, w0, w9, ne
	.cfi_def_cfa wsp, 32
	ldp	x29, x30, [sp, #16]
	ldp	x20, x19, [sp], #32
	.cfi_def_cfa_offset 0
	.cfi_restore w30
	.cfi_restore w29
	.cfi_restore w19
	.cfi_restore w20
	ret
	.loh AdrpLdr	Lm_loh76, Lm_loh77
	.loh AdrpLdr	Lm_loh74, Lm_loh75
	.loh AdrpLdr	Lm_loh72, Lm_loh73
	.loh AdrpAdd	Lm_loh70, Lm_loh71
	.cfi_endproc
	.globl	_tlsf_pools_bytes
	.p2align	2
_tlsf_pools_bytes:
	.cfi_startproc
	sub	sp, sp, #48
	.cfi_def_cfa_offset 48
	stp	x20, x19, [sp, #16]
	stp	x29, x30, [sp, #32]
	add	x29, sp, #32
	.cfi_def_cfa w29, 16
	.cfi_offset w30, -8
	.cfi_offset w29, -16
	.cfi_offset w19, -24
	.cfi_offset w20, -32
	mov	x19, x2
	str	xzr, [sp, #8]
	str	wzr, [sp, #4]
	add	x3, sp, #8
	add	x4, sp, #4
	bl	_tlsf_pools_words
	mov	x8, x0
	mov	x0, #0
	cbnz	w8, Lm_BB21_2
	ldr	x8, [sp, #8]
	ldr	w9, [sp, #4]
	mov	w10, #2792
	umull	x10, w9, w10
	add	x10, x10, #23
	and	x10, x10, #0x1ffffffffff0
	lsr	x11, x8, #6
	mov	w12, #12
	mul	x12, x19, x12
	add	x8, x12, x8, lsl #3
	add	x8, x8, x11, lsl #3
	mov	w11, #80
	umaddl	x8, w9, w11, x8
	add	x8, x8, x10
	add	x0, x8, #2783
Lm_BB21_2:
	.cfi_def_cfa wsp, 48
	ldp	x29, x30, [sp, #32]
	ldp	x20, x19, [sp, #16]
	add	sp, sp, #48
	.cfi_def_cfa_offset 0
	.cfi_restore w30
	.cfi_restore w29
	.cfi_restore w19
	.cfi_restore w20
	ret
	.cfi_endproc
	.globl	_tlsf_pools_open_in
	.p2align	2
_tlsf_pools_open_in:
	.cfi_startproc
	stp	x20, x19, [sp, #-32]!
	.cfi_def_cfa_offset 32
	stp	x29, x30, [sp, #16]
	add	x29, sp, #16
	.cfi_def_cfa w29, 16
	.cfi_offset w30, -8
	.cfi_offset w29, -16
	.cfi_offset w19, -24
	.cfi_offset w20, -32
	mov	x8, x0
	neg	w9, w5
	and	x9, x9, #0xf
	cmp	x5, #0
	cset	w10, ne
	mvn	x11, x5
	cmp	x6, x11
	cset	w11, ls
	cmp	x9, x6
	csel	x9, x9, x6, lo
	add	x9, x5, x9
Lm_loh78:
	adrp	x12, _begin_behind.nothing@PAGE
Lm_loh79:
	add	x12, x12, _begin_behind.nothing@PAGEOFF
Lm_loh80:
	adrp	x0, _lent@TLVPPAGE
Lm_loh81:
	ldr	x0, [x0, _lent@TLVPPAGEOFF]
	ldr	x13, [x0]
	blr	x13
	mov	x19, x0
	ands	w20, w10, w11
	csel	x9, x9, x12, ne
	str	x9, [x0]
	add	x9, x5, x6
	csel	x9, x9, x12, ne
Lm_loh82:
	adrp	x0, _lent_end@TLVPPAGE
Lm_loh83:
	ldr	x0, [x0, _lent_end@TLVPPAGEOFF]
	ldr	x10, [x0]
	blr	x10
	str	x9, [x0]
Lm_loh84:
	adrp	x0, _lent_step@TLVPPAGE
Lm_loh85:
	ldr	x0, [x0, _lent_step@TLVPPAGEOFF]
	ldr	x9, [x0]
	blr	x9
	mov	w9, #16
	str	x9, [x0]
	mov	x0, x8
	bl	_tlsf_pools_open
	mov	w8, #5
	cmp	w0, #6
	csel	w8, w8, w0, eq
	str	xzr, [x19]
	cmp	w8, #5
	cset	w9, ne
	orr	w9, w20, w9
	mov	w10, #39
	cmp	w9, #0
	csel	w0, w8, w10, ne
	.cfi_def_cfa wsp, 32
	ldp	x29, x30, [sp, #16]
	ldp	x20, x19, [sp], #32
	.cfi_def_cfa_offset 0
	.cfi_restore w30
	.cfi_restore w29
	.cfi_restore w19
	.cfi_restore w20
	ret
	.loh AdrpLdr	Lm_loh84, Lm_loh85
	.loh AdrpLdr	Lm_loh82, Lm_loh83
	.loh AdrpLdr	Lm_loh80, Lm_loh81
	.loh AdrpAdd	Lm_loh78, Lm_loh79
	.cfi_endproc
	.globl	_tlsf_next_number
	.p2align	2
_tlsf_next_number:
	.cfi_startproc
Lm_loh86:
	adrp	x8, _tlsf_next_number.calls@PAGE
Lm_loh87:
	add	x8, x8, _tlsf_next_number.calls@PAGEOFF
	mov	w9, #1
	ldadd	x9, x8, [x8]
	lsl	x9, x8, #3
	cmp	x9, w9, sxtw
	b.ne	Lm_BB23_2
	mov	w10, #-2147483648
	add	x9, x9, x10
	str	w9, [x0]
	mov	w0, #0
	ret
Lm_BB23_2:
	mov	w0, #2
	ret
	.loh AdrpAdd	Lm_loh86, Lm_loh87
	.cfi_endproc
.zerofill __DATA,__bss,_tlsf_memory_alloc.nothing,8,3
.tbss _near_room$tlv$init, 8, 3
	.section	__DATA,__thread_vars,thread_local_variables
_near_room:
	.quad	__tlv_bootstrap
	.quad	0
	.quad	_near_room$tlv$init
.tbss _pieces_first$tlv$init, 4, 2
_pieces_first:
	.quad	__tlv_bootstrap
	.quad	0
	.quad	_pieces_first$tlv$init
.tbss _lent$tlv$init, 8, 3
_lent:
	.quad	__tlv_bootstrap
	.quad	0
	.quad	_lent$tlv$init
.zerofill __DATA,__bss,_tlsf_next_number.calls,8,3
.tbss _lent_step$tlv$init, 8, 3
_lent_step:
	.quad	__tlv_bootstrap
	.quad	0
	.quad	_lent_step$tlv$init
.tbss _lent_end$tlv$init, 8, 3
_lent_end:
	.quad	__tlv_bootstrap
	.quad	0
	.quad	_lent_end$tlv$init
.zerofill __DATA,__bss,_begin_behind.nothing,1,0
.subsections_via_symbols
#else
	.section	__TEXT,__text,regular,pure_instructions
	.private_extern	_tlsf_memory_alloc
	.globl	_tlsf_memory_alloc
	.p2align	2
_tlsf_memory_alloc:
	.cfi_startproc
	cmp	x1, #8
	b.ls	Lm_BB0_2
	mov	x10, #0
	b	Lm_BB0_14
Lm_BB0_2:
	stp	x20, x19, [sp, #-32]!
	.cfi_def_cfa_offset 32
	stp	x29, x30, [sp, #16]
	add	x29, sp, #16
	.cfi_def_cfa w29, 16
	.cfi_offset w30, -8
	.cfi_offset w29, -16
	.cfi_offset w19, -24
	.cfi_offset w20, -32
	.cfi_remember_state
	mov	x8, x0
Lm_loh0:
	adrp	x0, _near_room@TLVPPAGE
Lm_loh1:
	ldr	x0, [x0, _near_room@TLVPPAGEOFF]
	ldr	x9, [x0]
	blr	x9
	ldr	x10, [x0]
	cbz	x10, Lm_BB0_4
Lm_loh2:
	adrp	x0, _pieces_first@TLVPPAGE
Lm_loh3:
	ldr	x0, [x0, _pieces_first@TLVPPAGEOFF]
	ldr	x9, [x0]
	blr	x9
	ldr	w9, [x0]
	sub	w11, w9, #1
	str	w11, [x0]
	cbz	w9, Lm_BB0_11
Lm_BB0_4:
Lm_loh4:
	adrp	x0, _lent@TLVPPAGE
Lm_loh5:
	ldr	x0, [x0, _lent@TLVPPAGEOFF]
	ldr	x9, [x0]
	blr	x9
	ldr	x11, [x0]
	cbz	x11, Lm_BB0_8
	mov	x9, x0
Lm_loh6:
	adrp	x0, _lent_step@TLVPPAGE
Lm_loh7:
	ldr	x0, [x0, _lent_step@TLVPPAGEOFF]
	ldr	x10, [x0]
	blr	x10
	mov	w10, #268435456
	cmp	x8, x10
	b.hi	Lm_BB0_12
	ldr	x12, [x0]
	add	x10, x8, #8
Lm_loh8:
	adrp	x0, _lent_end@TLVPPAGE
Lm_loh9:
	ldr	x0, [x0, _lent_end@TLVPPAGEOFF]
	ldr	x13, [x0]
	blr	x13
	ldr	x13, [x0]
	sub	x14, x13, x11
	cmp	x10, x14
	b.hi	Lm_BB0_12
	add	x10, x11, #8
	add	x8, x8, x12
	add	x8, x8, #7
	udiv	x8, x8, x12
	mul	x8, x8, x12
	add	x12, x11, x8
	cmp	x8, x14
	csel	x8, x12, x13, lo
	str	x8, [x9]
	str	xzr, [x11]
	b	Lm_BB0_13
Lm_BB0_8:
	mov	w9, #268435456
	cmp	x8, x9
	b.hi	Lm_BB0_12
Lm_loh10:
	adrp	x0, _front@TLVPPAGE
Lm_loh11:
	ldr	x0, [x0, _front@TLVPPAGEOFF]
	ldr	x9, [x0]
	blr	x9
	mov	x19, x0
	ldr	x9, [x0]
	add	x8, x8, x9
	add	x8, x8, #135
	orr	x0, x8, #0x7f
	bl	_malloc
	cbz	x0, Lm_BB0_12
	neg	w8, w0
	and	x8, x8, #0x7f
	ldr	x9, [x19]
	add	x9, x0, x9
	add	x10, x9, x8
	str	x0, [x10], #8
	str	xzr, [x19]
	b	Lm_BB0_13
Lm_BB0_11:
	cmp	x8, #2776
	b.ls	Lm_BB0_15
Lm_BB0_12:
	mov	x10, #0
Lm_BB0_13:
	.cfi_def_cfa wsp, 32
	ldp	x29, x30, [sp, #16]
	ldp	x20, x19, [sp], #32
	.cfi_def_cfa_offset 0
	.cfi_restore w30
	.cfi_restore w29
	.cfi_restore w19
	.cfi_restore w20
Lm_BB0_14:
Lm_loh12:
	adrp	x8, _tlsf_memory_alloc.nothing@PAGE
Lm_loh13:
	add	x8, x8, _tlsf_memory_alloc.nothing@PAGEOFF
	cmp	x10, #0
	csel	x1, x10, x8, ne
	cset	w0, ne
	ret
Lm_BB0_15:
	.cfi_restore_state
	str	xzr, [x10], #8
	b	Lm_BB0_13
	.loh AdrpLdr	Lm_loh0, Lm_loh1
	.loh AdrpLdr	Lm_loh2, Lm_loh3
	.loh AdrpLdr	Lm_loh4, Lm_loh5
	.loh AdrpLdr	Lm_loh6, Lm_loh7
	.loh AdrpLdr	Lm_loh8, Lm_loh9
	.loh AdrpLdr	Lm_loh10, Lm_loh11
	.loh AdrpAdd	Lm_loh12, Lm_loh13
	.cfi_endproc
	.private_extern	_tlsf_memory_dealloc
	.globl	_tlsf_memory_dealloc
	.p2align	2
_tlsf_memory_dealloc:
	.cfi_startproc
	ldur	x0, [x0, #-8]
	cbz	x0, Lm_BB1_2
	b	_free
Lm_BB1_2:
	ret
	.cfi_endproc
	.private_extern	_tlsf_memory_realloc
	.globl	_tlsf_memory_realloc
	.p2align	2
_tlsf_memory_realloc:
	.cfi_startproc
	stp	x22, x21, [sp, #-48]!
	.cfi_def_cfa_offset 48
	stp	x20, x19, [sp, #16]
	stp	x29, x30, [sp, #32]
	add	x29, sp, #32
	.cfi_def_cfa w29, 16
	.cfi_offset w30, -8
	.cfi_offset w29, -16
	.cfi_offset w19, -24
	.cfi_offset w20, -32
	.cfi_offset w21, -40
	.cfi_offset w22, -48
	mov	x22, x1
	mov	x21, x0
	mov	x0, x2
	mov	x1, x3
	bl	_tlsf_memory_alloc
	mov	x19, x0
	mov	x20, x1
	cbz	x0, Lm_BB2_3
	mov	x0, x20
	mov	x1, x21
	mov	x2, x22
	bl	_memcpy
	ldur	x0, [x21, #-8]
	cbz	x0, Lm_BB2_3
	bl	_free
Lm_BB2_3:
	mov	x0, x19
	mov	x1, x20
	.cfi_def_cfa wsp, 48
	ldp	x29, x30, [sp, #32]
	ldp	x20, x19, [sp, #16]
	ldp	x22, x21, [sp], #48
	.cfi_def_cfa_offset 0
	.cfi_restore w30
	.cfi_restore w29
	.cfi_restore w19
	.cfi_restore w20
	.cfi_restore w21
	.cfi_restore w22
	ret
	.cfi_endproc
	.private_extern	_tlsf_memory_set
	.globl	_tlsf_memory_set
	.weak_definition	_tlsf_memory_set
	.p2align	2
_tlsf_memory_set:
	.cfi_startproc
	cbnz	w1, Lm_BB3_15
	cmp	x2, #513
	b.hs	Lm_BB3_15
	cmp	x2, #257
	b.lo	Lm_BB3_4
	movi.2d	v0, #0000000000000000
	str	q0, [x0]
	add	x8, x0, x2
	stur	q0, [x8, #-16]
	str	q0, [x0, #16]
	stur	q0, [x8, #-32]
	str	q0, [x0, #32]
	stur	q0, [x8, #-48]
	str	q0, [x0, #48]
	stur	q0, [x8, #-64]
	str	q0, [x0, #64]
	stur	q0, [x8, #-80]
	str	q0, [x0, #80]
	stur	q0, [x8, #-96]
	str	q0, [x0, #96]
	stur	q0, [x8, #-112]
	str	q0, [x0, #112]
	stur	q0, [x8, #-128]
	str	q0, [x0, #128]
	stur	q0, [x8, #-144]
	str	q0, [x0, #144]
	stur	q0, [x8, #-160]
	str	q0, [x0, #160]
	stur	q0, [x8, #-176]
	str	q0, [x0, #176]
	stur	q0, [x8, #-192]
	str	q0, [x0, #192]
	stur	q0, [x8, #-208]
	str	q0, [x0, #208]
	stur	q0, [x8, #-224]
	str	q0, [x0, #224]
	stur	q0, [x8, #-240]
	str	q0, [x0, #240]
	stur	q0, [x8, #-256]
	ret
Lm_BB3_4:
	cmp	x2, #129
	b.lo	Lm_BB3_6
	movi.2d	v0, #0000000000000000
	str	q0, [x0]
	add	x8, x0, x2
	stur	q0, [x8, #-16]
	str	q0, [x0, #16]
	stur	q0, [x8, #-32]
	str	q0, [x0, #32]
	stur	q0, [x8, #-48]
	str	q0, [x0, #48]
	stur	q0, [x8, #-64]
	str	q0, [x0, #64]
	stur	q0, [x8, #-80]
	str	q0, [x0, #80]
	stur	q0, [x8, #-96]
	str	q0, [x0, #96]
	stur	q0, [x8, #-112]
	str	q0, [x0, #112]
	stur	q0, [x8, #-128]
	ret
Lm_BB3_6:
	cmp	x2, #65
	b.lo	Lm_BB3_8
	movi.2d	v0, #0000000000000000
	str	q0, [x0]
	add	x8, x0, x2
	stur	q0, [x8, #-16]
	str	q0, [x0, #16]
	stur	q0, [x8, #-32]
	str	q0, [x0, #32]
	stur	q0, [x8, #-48]
	str	q0, [x0, #48]
	stur	q0, [x8, #-64]
	ret
Lm_BB3_8:
	cmp	x2, #33
	b.lo	Lm_BB3_10
	movi.2d	v0, #0000000000000000
	str	q0, [x0]
	add	x8, x0, x2
	stur	q0, [x8, #-16]
	str	q0, [x0, #16]
	stur	q0, [x8, #-32]
	ret
Lm_BB3_10:
	cmp	x2, #17
	b.lo	Lm_BB3_12
	add	x8, x0, x2
	movi.2d	v0, #0000000000000000
	str	q0, [x0]
	stur	q0, [x8, #-16]
	ret
Lm_BB3_12:
	cmp	x2, #7
	b.hi	Lm_BB3_14
	mov	w1, #0
	b	_memset
Lm_BB3_14:
	str	xzr, [x0]
	add	x8, x0, x2
	stur	xzr, [x8, #-8]
	ret
Lm_BB3_15:
	b	_memset
	.cfi_endproc
	.private_extern	_tlsf_memory_cpy
	.globl	_tlsf_memory_cpy
	.weak_definition	_tlsf_memory_cpy
	.p2align	2
_tlsf_memory_cpy:
	.cfi_startproc
	b	_memcpy
	.cfi_endproc
	.private_extern	_tlsf_memory_move
	.globl	_tlsf_memory_move
	.weak_definition	_tlsf_memory_move
	.p2align	2
_tlsf_memory_move:
	.cfi_startproc
	b	_memmove
	.cfi_endproc
	.globl	_tlsf_bytes
	.p2align	2
_tlsf_bytes:
	.cfi_startproc
	cmp	w1, #4
	b.hs	Lm_BB6_2
	mov	x0, #0
	ret
Lm_BB6_2:
	mov	w8, w1
	cmp	w0, #5
	mov	w9, #16777216
	csel	x9, x9, xzr, eq
	cmp	w0, #4
	mov	w10, #1048576
	csel	x9, x10, x9, eq
	cmp	x9, x8
	b.hs	Lm_BB6_4
	mov	x0, #0
	ret
Lm_BB6_4:
	lsl	x9, x8, #3
	add	x9, x9, #23
	and	x9, x9, #0xffffffff0
	add	x8, x8, #63
	lsr	x8, x8, #3
	add	w8, w8, #16
	and	x8, x8, #0x7ffffff0
	add	x8, x9, x8
	add	x0, x8, #2783
	ret
	.cfi_endproc
	.globl	_tlsf_near_bytes
	.p2align	2
_tlsf_near_bytes:
	.cfi_startproc
	cmp	w1, #4
	b.hs	Lm_BB7_2
	mov	x0, #0
	ret
Lm_BB7_2:
	mov	w8, w1
	cmp	w0, #5
	mov	w9, #16777216
	csel	x9, x9, xzr, eq
	cmp	w0, #4
	mov	w10, #1048576
	csel	x9, x10, x9, eq
	lsl	x10, x8, #3
	add	x10, x10, #23
	and	x10, x10, #0xffffffff0
	add	x11, x8, #63
	lsr	x11, x11, #3
	and	x11, x11, #0x3ffffff8
	add	x10, x10, x11
	add	x10, x10, #23
	cmp	x9, x8
	csel	x0, xzr, x10, lo
	ret
	.cfi_endproc
	.globl	_tlsf_open_in
	.p2align	2
_tlsf_open_in:
	.cfi_startproc
	stp	x22, x21, [sp, #-48]!
	.cfi_def_cfa_offset 48
	stp	x20, x19, [sp, #16]
	stp	x29, x30, [sp, #32]
	add	x29, sp, #32
	.cfi_def_cfa w29, 16
	.cfi_offset w30, -8
	.cfi_offset w29, -16
	.cfi_offset w19, -24
	.cfi_offset w20, -32
	.cfi_offset w21, -40
	.cfi_offset w22, -48
	mov	x19, x0
	ldrb	w9, [x0, #29]
	cbz	w9, Lm_BB8_4
	sub	w8, w9, #65
	cmn	w8, #57
	b.lo	Lm_BB8_3
	add	w10, w9, #127
	mov	w8, #16
	cmp	x9, #16
	csel	x8, x9, x8, hi
	and	x10, x10, x9
	cbz	x10, Lm_BB8_5
Lm_BB8_3:
	mov	x10, #0
	b	Lm_BB8_6
Lm_BB8_4:
	mov	w8, #16
Lm_BB8_5:
	mov	x10, #-32
	sub	x10, x10, x3
	udiv	x11, x10, x8
	msub	x10, x11, x8, x10
Lm_BB8_6:
	mov	w8, #0
	mvn	x11, x3
	cbz	x3, Lm_BB8_14
	cmp	x4, x11
	b.hi	Lm_BB8_14
	subs	x12, x4, x10
	b.lo	Lm_BB8_14
	cmp	w1, #5
	mov	w8, #16777216
	csel	x8, x8, xzr, eq
	cmp	w1, #4
	mov	w13, #1048576
	csel	x8, x13, x8, eq
	cmp	x12, #2832
	b.hs	Lm_BB8_11
	mov	w8, #0
	b	Lm_BB8_14
Lm_BB8_11:
	mov	w13, #268435456
	cmp	x12, x13
	csel	x12, x12, x13, lo
	mov	w13, #-22400
	add	w13, w13, w12, lsl #3
	mov	x14, #1009
	movk	x14, #61503, lsl #16
	movk	x14, #16131, lsl #32
	movk	x14, #1008, lsl #48
	umulh	x14, x13, x14
	add	x13, x14, #71
	lsl	x14, x14, #3
	add	x14, x14, #87
Lm_BB8_12:
	and	x15, x14, #0xfffffffffffffff0
	lsr	x16, x13, #3
	add	x16, x16, #16
	and	x16, x16, #0x3ffffffffffffff0
	add	x15, x15, x16
	add	x15, x15, #2768
	sub	x13, x13, #1
	sub	x14, x14, #8
	cmp	x15, x12
	b.hi	Lm_BB8_12
	sub	x12, x13, #62
	cmp	x12, x8
	csel	x8, x12, x8, lo
Lm_BB8_14:
	cmp	x3, #0
	cset	w12, ne
	cmp	x4, x11
	cset	w11, ls
	cmp	x10, x4
	csel	x10, x10, x4, lo
Lm_loh14:
	adrp	x0, _lent@TLVPPAGE
Lm_loh15:
	ldr	x0, [x0, _lent@TLVPPAGEOFF]
	ldr	x13, [x0]
	blr	x13
	mov	x20, x0
	ands	w21, w12, w11
	add	x10, x3, x10
Lm_loh16:
	adrp	x11, _begin_behind.nothing@PAGE
Lm_loh17:
	add	x11, x11, _begin_behind.nothing@PAGEOFF
	csel	x10, x10, x11, ne
	str	x10, [x0]
	add	x10, x3, x4
	csel	x10, x10, x11, ne
Lm_loh18:
	adrp	x0, _lent_end@TLVPPAGE
Lm_loh19:
	ldr	x0, [x0, _lent_end@TLVPPAGEOFF]
	ldr	x11, [x0]
	blr	x11
	str	x10, [x0]
Lm_loh20:
	adrp	x0, _lent_step@TLVPPAGE
Lm_loh21:
	ldr	x0, [x0, _lent_step@TLVPPAGEOFF]
	ldr	x10, [x0]
	blr	x10
	mov	w10, #16
	str	x10, [x0]
	cbz	w9, Lm_BB8_18
	sub	w10, w9, #65
	cmn	w10, #57
	b.lo	Lm_BB8_17
	add	w10, w9, #127
	tst	w10, w9
	b.eq	Lm_BB8_18
Lm_BB8_17:
	mov	w8, #0
Lm_BB8_18:
	mov	x0, x19
	mov	x3, x8
	bl	_tlsf_open
	cbz	w0, Lm_BB8_21
	str	xzr, [x20]
	cmp	w0, #5
	cset	w8, eq
	bic	w8, w8, w21
	tbz	w8, #0, Lm_BB8_24
	mov	w0, #39
	b	Lm_BB8_24
Lm_BB8_21:
	ldrb	w8, [x19, #29]
	tst	w8, #0xfffffff7
	b.eq	Lm_BB8_23
	mov	w8, #1
	strb	w8, [x19, #28]
Lm_BB8_23:
	str	xzr, [x20]
Lm_BB8_24:
	.cfi_def_cfa wsp, 48
	ldp	x29, x30, [sp, #32]
	ldp	x20, x19, [sp, #16]
	ldp	x22, x21, [sp], #48
	.cfi_def_cfa_offset 0
	.cfi_restore w30
	.cfi_restore w29
	.cfi_restore w19
	.cfi_restore w20
	.cfi_restore w21
	.cfi_restore w22
	ret
	.loh AdrpLdr	Lm_loh20, Lm_loh21
	.loh AdrpLdr	Lm_loh18, Lm_loh19
	.loh AdrpAdd	Lm_loh16, Lm_loh17
	.loh AdrpLdr	Lm_loh14, Lm_loh15
	.cfi_endproc
	.globl	_tlsf_open_near
	.p2align	2
_tlsf_open_near:
	.cfi_startproc
	stp	x22, x21, [sp, #-48]!
	.cfi_def_cfa_offset 48
	stp	x20, x19, [sp, #16]
	stp	x29, x30, [sp, #32]
	add	x29, sp, #32
	.cfi_def_cfa w29, 16
	.cfi_offset w30, -8
	.cfi_offset w29, -16
	.cfi_offset w19, -24
	.cfi_offset w20, -32
	.cfi_offset w21, -40
	.cfi_offset w22, -48
	neg	w8, w0
	and	x8, x8, #0x3f
	add	x19, x0, x8
	add	x8, x19, #32
Lm_loh22:
	adrp	x0, _near_room@TLVPPAGE
Lm_loh23:
	ldr	x0, [x0, _near_room@TLVPPAGEOFF]
	ldr	x9, [x0]
	blr	x9
	mov	x20, x0
	str	x8, [x0]
Lm_loh24:
	adrp	x0, _pieces_first@TLVPPAGE
Lm_loh25:
	ldr	x0, [x0, _pieces_first@TLVPPAGEOFF]
	ldr	x8, [x0]
	blr	x8
	mov	w8, #2
	str	w8, [x0]
	ldrb	w8, [x19, #29]
	sub	w9, w8, #65
	and	w9, w9, #0xff
	add	w10, w8, #127
	and	w10, w10, w8
	and	w11, w8, #0xff
	cmp	w11, #64
	mov	w11, #32
	csel	x11, x11, xzr, eq
	tst	w10, #0xff
	csel	x10, xzr, x11, ne
	csel	w11, wzr, w3, ne
	cmp	w9, #199
	csel	w9, wzr, w11, lo
	csel	x10, xzr, x10, lo
	tst	w8, #0xff
	csel	x8, xzr, x10, eq
	csel	w3, w3, w9, eq
Lm_loh26:
	adrp	x0, _front@TLVPPAGE
Lm_loh27:
	ldr	x0, [x0, _front@TLVPPAGEOFF]
	ldr	x9, [x0]
	blr	x9
	mov	x21, x0
	str	x8, [x0]
	mov	x0, x19
	bl	_tlsf_open
	cbnz	w0, Lm_BB9_3
	ldrb	w8, [x19, #29]
	tst	w8, #0xfffffff7
	b.eq	Lm_BB9_3
	mov	w8, #1
	strb	w8, [x19, #28]
Lm_BB9_3:
	str	xzr, [x21]
	str	xzr, [x20]
	.cfi_def_cfa wsp, 48
	ldp	x29, x30, [sp, #32]
	ldp	x20, x19, [sp, #16]
	ldp	x22, x21, [sp], #48
	.cfi_def_cfa_offset 0
	.cfi_restore w30
	.cfi_restore w29
	.cfi_restore w19
	.cfi_restore w20
	.cfi_restore w21
	.cfi_restore w22
	ret
	.loh AdrpLdr	Lm_loh26, Lm_loh27
	.loh AdrpLdr	Lm_loh24, Lm_loh25
	.loh AdrpLdr	Lm_loh22, Lm_loh23
	.cfi_endproc
	.globl	_tlsf_open_near_in
	.p2align	2
_tlsf_open_near_in:
	.cfi_startproc
	stp	x22, x21, [sp, #-48]!
	.cfi_def_cfa_offset 48
	stp	x20, x19, [sp, #16]
	stp	x29, x30, [sp, #32]
	add	x29, sp, #32
	.cfi_def_cfa w29, 16
	.cfi_offset w30, -8
	.cfi_offset w29, -16
	.cfi_offset w19, -24
	.cfi_offset w20, -32
	.cfi_offset w21, -40
	.cfi_offset w22, -48
	neg	w8, w0
	and	x8, x8, #0x3f
	add	x20, x0, x8
	add	x8, x20, #32
Lm_loh28:
	adrp	x0, _near_room@TLVPPAGE
Lm_loh29:
	ldr	x0, [x0, _near_room@TLVPPAGEOFF]
	ldr	x9, [x0]
	blr	x9
	mov	x19, x0
	str	x8, [x0]
Lm_loh30:
	adrp	x0, _pieces_first@TLVPPAGE
Lm_loh31:
	ldr	x0, [x0, _pieces_first@TLVPPAGEOFF]
	ldr	x8, [x0]
	blr	x8
	mov	w8, #2
	str	w8, [x0]
	ldrb	w9, [x20, #29]
	cbz	w9, Lm_BB10_4
	sub	w8, w9, #65
	cmn	w8, #57
	b.lo	Lm_BB10_3
	add	w10, w9, #127
	mov	w8, #16
	cmp	x9, #16
	csel	x8, x9, x8, hi
	and	x10, x10, x9
	cbz	x10, Lm_BB10_5
Lm_BB10_3:
	mov	x10, #0
	b	Lm_BB10_6
Lm_BB10_4:
	mov	w8, #16
Lm_BB10_5:
	mov	x10, #-32
	sub	x10, x10, x3
	udiv	x11, x10, x8
	msub	x10, x11, x8, x10
Lm_BB10_6:
	mov	w8, #0
	mvn	x11, x3
	cbz	x3, Lm_BB10_14
	cmp	x4, x11
	b.hi	Lm_BB10_14
	subs	x12, x4, x10
	b.lo	Lm_BB10_14
	cmp	w1, #5
	mov	w8, #16777216
	csel	x8, x8, xzr, eq
	cmp	w1, #4
	mov	w13, #1048576
	csel	x8, x13, x8, eq
	cmp	x12, #64
	b.hs	Lm_BB10_11
	mov	w8, #0
	b	Lm_BB10_14
Lm_BB10_11:
	mov	w13, #268435456
	cmp	x12, x13
	csel	x12, x12, x13, lo
	lsl	w13, w12, #3
	sub	w13, w13, #192
	mov	x14, #1009
	movk	x14, #61503, lsl #16
	movk	x14, #16131, lsl #32
	movk	x14, #1008, lsl #48
	umulh	x14, x13, x14
	add	x13, x14, #71
	lsl	x14, x14, #3
	add	x14, x14, #87
Lm_BB10_12:
	and	x15, x14, #0xfffffffffffffff0
	lsr	x16, x13, #6
	add	x15, x15, x16, lsl #3
	add	x15, x15, #8
	sub	x13, x13, #1
	sub	x14, x14, #8
	cmp	x15, x12
	b.hi	Lm_BB10_12
	sub	x12, x13, #62
	cmp	x12, x8
	csel	x8, x12, x8, lo
Lm_BB10_14:
	cmp	x3, #0
	cset	w12, ne
	cmp	x4, x11
	cset	w11, ls
	cmp	x10, x4
	csel	x10, x10, x4, lo
Lm_loh32:
	adrp	x0, _lent@TLVPPAGE
Lm_loh33:
	ldr	x0, [x0, _lent@TLVPPAGEOFF]
	ldr	x13, [x0]
	blr	x13
	mov	x21, x0
	ands	w22, w12, w11
	add	x10, x3, x10
Lm_loh34:
	adrp	x11, _begin_behind.nothing@PAGE
Lm_loh35:
	add	x11, x11, _begin_behind.nothing@PAGEOFF
	csel	x10, x10, x11, ne
	str	x10, [x0]
	add	x10, x3, x4
	csel	x10, x10, x11, ne
Lm_loh36:
	adrp	x0, _lent_end@TLVPPAGE
Lm_loh37:
	ldr	x0, [x0, _lent_end@TLVPPAGEOFF]
	ldr	x11, [x0]
	blr	x11
	str	x10, [x0]
Lm_loh38:
	adrp	x0, _lent_step@TLVPPAGE
Lm_loh39:
	ldr	x0, [x0, _lent_step@TLVPPAGEOFF]
	ldr	x10, [x0]
	blr	x10
	mov	w10, #16
	str	x10, [x0]
	cbz	w9, Lm_BB10_18
	sub	w10, w9, #65
	cmn	w10, #57
	b.lo	Lm_BB10_17
	add	w10, w9, #127
	tst	w10, w9
	b.eq	Lm_BB10_18
Lm_BB10_17:
	mov	w8, #0
Lm_BB10_18:
	mov	x0, x20
	mov	x3, x8
	bl	_tlsf_open
	cbz	w0, Lm_BB10_21
	str	xzr, [x21]
	cmp	w0, #5
	cset	w8, eq
	bic	w8, w8, w22
	tbz	w8, #0, Lm_BB10_24
	mov	w0, #39
	b	Lm_BB10_24
Lm_BB10_21:
	ldrb	w8, [x20, #29]
	tst	w8, #0xfffffff7
	b.eq	Lm_BB10_23
	mov	w8, #1
	strb	w8, [x20, #28]
Lm_BB10_23:
	str	xzr, [x21]
Lm_BB10_24:
	str	xzr, [x19]
	.cfi_def_cfa wsp, 48
	ldp	x29, x30, [sp, #32]
	ldp	x20, x19, [sp, #16]
	ldp	x22, x21, [sp], #48
	.cfi_def_cfa_offset 0
	.cfi_restore w30
	.cfi_restore w29
	.cfi_restore w19
	.cfi_restore w20
	.cfi_restore w21
	.cfi_restore w22
	ret
	.loh AdrpLdr	Lm_loh30, Lm_loh31
	.loh AdrpLdr	Lm_loh28, Lm_loh29
	.loh AdrpLdr	Lm_loh38, Lm_loh39
	.loh AdrpLdr	Lm_loh36, Lm_loh37
	.loh AdrpAdd	Lm_loh34, Lm_loh35
	.loh AdrpLdr	Lm_loh32, Lm_loh33
	.cfi_endproc
	.globl	_tlsf_open_32
	.p2align	2
_tlsf_open_32:
	.cfi_startproc
	stp	x20, x19, [sp, #-32]!
	.cfi_def_cfa_offset 32
	stp	x29, x30, [sp, #16]
	add	x29, sp, #16
	.cfi_def_cfa w29, 16
	.cfi_offset w30, -8
	.cfi_offset w29, -16
	.cfi_offset w19, -24
	.cfi_offset w20, -32
	mov	x19, x0
	ldrb	w8, [x0, #29]
	sub	w9, w8, #65
	and	w9, w9, #0xff
	add	w10, w8, #127
	and	w10, w10, w8
	and	w11, w8, #0xff
	cmp	w11, #64
	mov	w11, #32
	csel	x11, x11, xzr, eq
	tst	w10, #0xff
	csel	x10, xzr, x11, ne
	csel	w11, wzr, w3, ne
	cmp	w9, #199
	csel	w9, wzr, w11, lo
	csel	x10, xzr, x10, lo
	tst	w8, #0xff
	csel	x8, xzr, x10, eq
	csel	w3, w3, w9, eq
Lm_loh40:
	adrp	x0, _front@TLVPPAGE
Lm_loh41:
	ldr	x0, [x0, _front@TLVPPAGEOFF]
	ldr	x9, [x0]
	blr	x9
	mov	x20, x0
	str	x8, [x0]
	mov	x0, x19
	bl	_tlsf_open
	cbnz	w0, Lm_BB11_3
	ldrb	w8, [x19, #29]
	tst	w8, #0xfffffff7
	b.eq	Lm_BB11_3
	mov	w8, #1
	strb	w8, [x19, #28]
Lm_BB11_3:
	str	xzr, [x20]
	.cfi_def_cfa wsp, 32
	ldp	x29, x30, [sp, #16]
	ldp	x20, x19, [sp], #32
	.cfi_def_cfa_offset 0
	.cfi_restore w30
	.cfi_restore w29
	.cfi_restore w19
	.cfi_restore w20
	ret
	.loh AdrpLdr	Lm_loh40, Lm_loh41
	.cfi_endproc
	.globl	_tlsf_open_in_32
	.p2align	2
_tlsf_open_in_32:
	.cfi_startproc
	b	_tlsf_open_in
	.cfi_endproc
	.globl	_tlsf_open_near_2880
	.p2align	2
_tlsf_open_near_2880:
	.cfi_startproc
	stp	x22, x21, [sp, #-48]!
	.cfi_def_cfa_offset 48
	stp	x20, x19, [sp, #16]
	stp	x29, x30, [sp, #32]
	add	x29, sp, #32
	.cfi_def_cfa w29, 16
	.cfi_offset w30, -8
	.cfi_offset w29, -16
	.cfi_offset w19, -24
	.cfi_offset w20, -32
	.cfi_offset w21, -40
	.cfi_offset w22, -48
	neg	w8, w0
	and	x8, x8, #0x3f
	add	x19, x0, x8
	add	x8, x19, #32
Lm_loh42:
	adrp	x0, _near_room@TLVPPAGE
Lm_loh43:
	ldr	x0, [x0, _near_room@TLVPPAGEOFF]
	ldr	x9, [x0]
	blr	x9
	mov	x20, x0
	str	x8, [x0]
Lm_loh44:
	adrp	x0, _pieces_first@TLVPPAGE
Lm_loh45:
	ldr	x0, [x0, _pieces_first@TLVPPAGEOFF]
	ldr	x8, [x0]
	blr	x8
	mov	w8, #2
	str	w8, [x0]
	ldrb	w8, [x19, #29]
	sub	w9, w8, #65
	and	w9, w9, #0xff
	add	w10, w8, #127
	and	w10, w10, w8
	and	w11, w8, #0xff
	cmp	w11, #64
	mov	w11, #32
	csel	x11, x11, xzr, eq
	tst	w10, #0xff
	csel	x10, xzr, x11, ne
	csel	w11, wzr, w3, ne
	cmp	w9, #199
	csel	w9, wzr, w11, lo
	csel	x10, xzr, x10, lo
	tst	w8, #0xff
	csel	x8, xzr, x10, eq
	csel	w3, w3, w9, eq
Lm_loh46:
	adrp	x0, _front@TLVPPAGE
Lm_loh47:
	ldr	x0, [x0, _front@TLVPPAGEOFF]
	ldr	x9, [x0]
	blr	x9
	mov	x21, x0
	str	x8, [x0]
	mov	x0, x19
	bl	_tlsf_open
	cbnz	w0, Lm_BB13_3
	ldrb	w8, [x19, #29]
	tst	w8, #0xfffffff7
	b.eq	Lm_BB13_3
	mov	w8, #1
	strb	w8, [x19, #28]
Lm_BB13_3:
	str	xzr, [x21]
	str	xzr, [x20]
	.cfi_def_cfa wsp, 48
	ldp	x29, x30, [sp, #32]
	ldp	x20, x19, [sp, #16]
	ldp	x22, x21, [sp], #48
	.cfi_def_cfa_offset 0
	.cfi_restore w30
	.cfi_restore w29
	.cfi_restore w19
	.cfi_restore w20
	.cfi_restore w21
	.cfi_restore w22
	ret
	.loh AdrpLdr	Lm_loh46, Lm_loh47
	.loh AdrpLdr	Lm_loh44, Lm_loh45
	.loh AdrpLdr	Lm_loh42, Lm_loh43
	.cfi_endproc
	.globl	_tlsf_open_near_in_2880
	.p2align	2
_tlsf_open_near_in_2880:
	.cfi_startproc
	b	_tlsf_open_near_in
	.cfi_endproc
	.globl	_tlsf_lane_bytes
	.p2align	2
_tlsf_lane_bytes:
	.cfi_startproc
	sub	w8, w0, #1025
	mov	w9, #24
	mov	w10, #135
	madd	w9, w0, w9, w10
	and	w9, w9, #0x1ff80
	add	w9, w9, #895
	cmn	w8, #1024
	csel	w0, wzr, w9, lo
	ret
	.cfi_endproc
	.globl	_tlsf_lane_open_in
	.p2align	2
_tlsf_lane_open_in:
	.cfi_startproc
	stp	x20, x19, [sp, #-32]!
	.cfi_def_cfa_offset 32
	stp	x29, x30, [sp, #16]
	add	x29, sp, #16
	.cfi_def_cfa w29, 16
	.cfi_offset w30, -8
	.cfi_offset w29, -16
	.cfi_offset w19, -24
	.cfi_offset w20, -32
	mov	x8, x0
	mov	w9, #24
	mov	w10, #135
	madd	w9, w2, w9, w10
	and	w9, w9, #0x1ff80
	add	w9, w9, #768
	neg	w10, w3
	and	x10, x10, #0x7f
	mvn	x11, x3
	subs	x12, x4, x10
	ccmp	x4, x11, #2, hs
	ccmp	x3, #0, #4, ls
	ccmp	x12, x9, #0, ne
	csel	w9, wzr, w2, lo
	neg	w12, w3
	and	x12, x12, #0x7f
	cmp	w2, #1025
	csel	w2, w9, w2, lo
	csinv	x9, x11, x3, hs
	csel	x10, x10, x12, lo
	cmp	x3, #0
	cset	w11, ne
	cmp	x4, x9
	cset	w9, ls
	cmp	x10, x4
	csel	x10, x10, x4, lo
	add	x10, x3, x10
Lm_loh48:
	adrp	x12, _begin_behind.nothing@PAGE
Lm_loh49:
	add	x12, x12, _begin_behind.nothing@PAGEOFF
Lm_loh50:
	adrp	x0, _lent@TLVPPAGE
Lm_loh51:
	ldr	x0, [x0, _lent@TLVPPAGEOFF]
	ldr	x13, [x0]
	blr	x13
	mov	x19, x0
	ands	w20, w11, w9
	csel	x9, x10, x12, ne
	str	x9, [x0]
	add	x9, x3, x4
	csel	x9, x9, x12, ne
Lm_loh52:
	adrp	x0, _lent_end@TLVPPAGE
Lm_loh53:
	ldr	x0, [x0, _lent_end@TLVPPAGEOFF]
	ldr	x10, [x0]
	blr	x10
	str	x9, [x0]
Lm_loh54:
	adrp	x0, _lent_step@TLVPPAGE
Lm_loh55:
	ldr	x0, [x0, _lent_step@TLVPPAGEOFF]
	ldr	x9, [x0]
	blr	x9
	mov	w9, #128
	str	x9, [x0]
	mov	x0, x8
	bl	_tlsf_lane_open
	str	xzr, [x19]
	cmp	w0, #5
	cset	w8, ne
	orr	w8, w20, w8
	mov	w9, #39
	cmp	w8, #0
	csel	w0, w0, w9, ne
	.cfi_def_cfa wsp, 32
	ldp	x29, x30, [sp, #16]
	ldp	x20, x19, [sp], #32
	.cfi_def_cfa_offset 0
	.cfi_restore w30
	.cfi_restore w29
	.cfi_restore w19
	.cfi_restore w20
	ret
	.loh AdrpLdr	Lm_loh54, Lm_loh55
	.loh AdrpLdr	Lm_loh52, Lm_loh53
	.loh AdrpLdr	Lm_loh50, Lm_loh51
	.loh AdrpAdd	Lm_loh48, Lm_loh49
	.cfi_endproc
	.globl	_tlsf_queue_bytes
	.p2align	2
_tlsf_queue_bytes:
	.cfi_startproc
	mov	w8, #1024
	sub	w9, w8, w0
	sub	w8, w8, w1
	orr	w8, w8, w9
	cmp	w8, #1023
	b.hi	Lm_BB17_2
	mov	w8, w0
	ubfiz	x9, x0, #4, #32
	add	x9, x9, #135
	and	x9, x9, #0xfffffff80
	ubfiz	x10, x1, #3, #32
	add	x10, x10, #519
	and	x10, x10, #0x7ffffff80
	ubfiz	x11, x1, #5, #32
	add	x11, x11, #135
	and	x11, x11, #0x1fffffff80
	add	x10, x10, x11
	ubfiz	x11, x0, #3, #32
	add	x11, x11, #135
	and	x11, x11, #0x7ffffff80
	add	x8, x9, x8, lsl #7
	add	x8, x8, x11
	add	x8, x8, x10, lsl #1
	add	x0, x8, #383
	ret
Lm_BB17_2:
	mov	x0, #0
	ret
	.cfi_endproc
	.globl	_tlsf_queue_open_in
	.p2align	2
_tlsf_queue_open_in:
	.cfi_startproc
	mov	x8, x0
	cmp	w1, #1024
	b.hi	Lm_BB18_3
	cmp	w2, #1025
	b.hs	Lm_BB18_3
	mov	w9, w1
	lsl	w10, w1, #4
	add	w10, w10, #135
	and	x10, x10, #0xff80
	lsl	w11, w2, #3
	add	w11, w11, #519
	and	x11, x11, #0x7f80
	lsl	w12, w2, #5
	add	w12, w12, #135
	and	x12, x12, #0x1ff80
	add	x11, x11, x12
	lsl	w12, w1, #3
	add	w12, w12, #135
	and	x12, x12, #0x7f80
	add	x9, x10, x9, lsl #7
	add	x9, x9, x12
	add	x9, x9, x11, lsl #1
	add	x11, x9, #256
	neg	w9, w3
	and	x9, x9, #0x7f
	mvn	x10, x3
	subs	x12, x4, x9
	ccmp	x4, x10, #2, hs
	ccmp	x3, #0, #4, ls
	ccmp	x12, x11, #0, ne
	csel	w2, wzr, w2, lo
	b	Lm_BB18_4
Lm_BB18_3:
	neg	w9, w3
	and	x9, x9, #0x7f
	mvn	x10, x3
Lm_BB18_4:
	stp	x20, x19, [sp, #-32]!
	.cfi_def_cfa_offset 32
	stp	x29, x30, [sp, #16]
	add	x29, sp, #16
	.cfi_def_cfa w29, 16
	.cfi_offset w30, -8
	.cfi_offset w29, -16
	.cfi_offset w19, -24
	.cfi_offset w20, -32
	cmp	x3, #0
	cset	w11, ne
	cmp	x4, x10
	cset	w10, ls
	cmp	x9, x4
	csel	x9, x9, x4, lo
	add	x9, x3, x9
Lm_loh56:
	adrp	x12, _begin_behind.nothing@PAGE
Lm_loh57:
	add	x12, x12, _begin_behind.nothing@PAGEOFF
Lm_loh58:
	adrp	x0, _lent@TLVPPAGE
Lm_loh59:
	ldr	x0, [x0, _lent@TLVPPAGEOFF]
	ldr	x13, [x0]
	blr	x13
	mov	x19, x0
	ands	w20, w11, w10
	csel	x9, x9, x12, ne
	str	x9, [x0]
	add	x9, x3, x4
	csel	x9, x9, x12, ne
Lm_loh60:
	adrp	x0, _lent_end@TLVPPAGE
Lm_loh61:
	ldr	x0, [x0, _lent_end@TLVPPAGEOFF]
	ldr	x10, [x0]
	blr	x10
	str	x9, [x0]
Lm_loh62:
	adrp	x0, _lent_step@TLVPPAGE
Lm_loh63:
	ldr	x0, [x0, _lent_step@TLVPPAGEOFF]
	ldr	x9, [x0]
	blr	x9
	mov	w9, #128
	str	x9, [x0]
	mov	x0, x8
	bl	_tlsf_queue_open
	str	xzr, [x19]
	cmp	w0, #5
	cset	w8, ne
	orr	w8, w20, w8
	mov	w9, #39
	cmp	w8, #0
	csel	w0, w0, w9, ne
	.cfi_def_cfa wsp, 32
	ldp	x29, x30, [sp, #16]
	ldp	x20, x19, [sp], #32
	.cfi_def_cfa_offset 0
	.cfi_restore w30
	.cfi_restore w29
	.cfi_restore w19
	.cfi_restore w20
	ret
	.loh AdrpLdr	Lm_loh62, Lm_loh63
	.loh AdrpLdr	Lm_loh60, Lm_loh61
	.loh AdrpLdr	Lm_loh58, Lm_loh59
	.loh AdrpAdd	Lm_loh56, Lm_loh57
	.cfi_endproc
	.globl	_tlsf_offsets_bytes
	.p2align	2
_tlsf_offsets_bytes:
	.cfi_startproc
	cmp	w1, #4
	b.hs	Lm_BB19_2
	mov	x0, #0
	ret
Lm_BB19_2:
	mov	w8, w1
	cmp	w0, #5
	mov	w9, #16777216
	csel	x9, x9, xzr, eq
	cmp	w0, #4
	mov	w10, #1048576
	csel	x9, x10, x9, eq
	cmp	x9, x8
	b.hs	Lm_BB19_4
	mov	x0, #0
	ret
Lm_BB19_4:
	lsl	w9, w8, #3
	add	w9, w9, #23
	and	x9, x9, #0x1ffffff0
	add	w8, w8, #63
	lsr	w8, w8, #3
	add	w8, w8, #16
	and	x8, x8, #0xfffff0
	add	x8, x9, x8
	add	x0, x8, #2783
	ret
	.cfi_endproc
	.globl	_tlsf_offsets_open_in
	.p2align	2
_tlsf_offsets_open_in:
	.cfi_startproc
	stp	x20, x19, [sp, #-32]!
	.cfi_def_cfa_offset 32
	stp	x29, x30, [sp, #16]
	add	x29, sp, #16
	.cfi_def_cfa w29, 16
	.cfi_offset w30, -8
	.cfi_offset w29, -16
	.cfi_offset w19, -24
	.cfi_offset w20, -32
	mov	x8, x0
	mov	w9, w4
	cmp	w1, #5
	mov	w10, #16777216
	csel	x10, x10, xzr, eq
	cmp	w1, #4
	mov	w11, #1048576
	csel	x10, x11, x10, eq
	lsl	w11, w9, #3
	add	w11, w11, #23
	and	x11, x11, #0x1ffffff0
	add	w12, w9, #63
	lsr	w12, w12, #3
	add	w12, w12, #16
	and	x12, x12, #0xfffff0
	add	x11, x11, x12
	add	x11, x11, #2768
	neg	w12, w5
	and	x12, x12, #0xf
	mvn	x13, x5
	subs	x14, x6, x12
	ccmp	x6, x13, #2, hs
	ccmp	x5, #0, #4, ls
	ccmp	x14, x11, #0, ne
	csel	w11, wzr, w4, lo
	neg	w14, w5
	and	x14, x14, #0xf
	cmp	x10, x9
	csel	x9, x12, x14, hs
	csinv	x10, x13, x5, lo
	csel	w4, w11, w4, hs
	cmp	x5, #0
	cset	w11, ne
	cmp	x6, x10
	cset	w10, ls
	cmp	x9, x6
	csel	x9, x9, x6, lo
	add	x9, x5, x9
Lm_loh64:
	adrp	x12, _begin_behind.nothing@PAGE
Lm_loh65:
	add	x12, x12, _begin_behind.nothing@PAGEOFF
Lm_loh66:
	adrp	x0, _lent@TLVPPAGE
Lm_loh67:
	ldr	x0, [x0, _lent@TLVPPAGEOFF]
	ldr	x13, [x0]
	blr	x13
	mov	x19, x0
	ands	w20, w11, w10
	csel	x9, x9, x12, ne
	str	x9, [x0]
	add	x9, x5, x6
	csel	x9, x9, x12, ne
Lm_loh68:
	adrp	x0, _lent_end@TLVPPAGE
Lm_loh69:
	ldr	x0, [x0, _lent_end@TLVPPAGEOFF]
	ldr	x10, [x0]
	blr	x10
	str	x9, [x0]
Lm_loh70:
	adrp	x0, _lent_step@TLVPPAGE
Lm_loh71:
	ldr	x0, [x0, _lent_step@TLVPPAGEOFF]
	ldr	x9, [x0]
	blr	x9
	mov	w9, #16
	str	x9, [x0]
	mov	x0, x8
	bl	_tlsf_offsets_open
	str	xzr, [x19]
	cmp	w0, #5
	cset	w8, ne
	orr	w8, w20, w8
	mov	w9, #39
	cmp	w8, #0
	csel	w0, w0, w9, ne
	.cfi_def_cfa wsp, 32
	ldp	x29, x30, [sp, #16]
	ldp	x20, x19, [sp], #32
	.cfi_def_cfa_offset 0
	.cfi_restore w30
	.cfi_restore w29
	.cfi_restore w19
	.cfi_restore w20
	ret
	.loh AdrpLdr	Lm_loh70, Lm_loh71
	.loh AdrpLdr	Lm_loh68, Lm_loh69
	.loh AdrpLdr	Lm_loh66, Lm_loh67
	.loh AdrpAdd	Lm_loh64, Lm_loh65
	.cfi_endproc
	.globl	_tlsf_pools_bytes
	.p2align	2
_tlsf_pools_bytes:
	.cfi_startproc
	sub	sp, sp, #48
	.cfi_def_cfa_offset 48
	stp	x20, x19, [sp, #16]
	stp	x29, x30, [sp, #32]
	add	x29, sp, #32
	.cfi_def_cfa w29, 16
	.cfi_offset w30, -8
	.cfi_offset w29, -16
	.cfi_offset w19, -24
	.cfi_offset w20, -32
	mov	x19, x2
	str	xzr, [sp, #8]
	str	wzr, [sp, #4]
	add	x3, sp, #8
	add	x4, sp, #4
	bl	_tlsf_pools_words
	mov	x8, x0
	mov	x0, #0
	cbnz	w8, Lm_BB21_2
	ldr	x8, [sp, #8]
	ldr	w9, [sp, #4]
	mov	w10, #2792
	umull	x10, w9, w10
	add	x10, x10, #23
	and	x10, x10, #0x1ffffffffff0
	lsr	x11, x8, #6
	mov	w12, #12
	mul	x12, x19, x12
	add	x8, x12, x8, lsl #3
	add	x8, x8, x11, lsl #3
	mov	w11, #80
	umaddl	x8, w9, w11, x8
	add	x8, x8, x10
	add	x0, x8, #2783
Lm_BB21_2:
	.cfi_def_cfa wsp, 48
	ldp	x29, x30, [sp, #32]
	ldp	x20, x19, [sp, #16]
	add	sp, sp, #48
	.cfi_def_cfa_offset 0
	.cfi_restore w30
	.cfi_restore w29
	.cfi_restore w19
	.cfi_restore w20
	ret
	.cfi_endproc
	.globl	_tlsf_pools_open_in
	.p2align	2
_tlsf_pools_open_in:
	.cfi_startproc
	stp	x20, x19, [sp, #-32]!
	.cfi_def_cfa_offset 32
	stp	x29, x30, [sp, #16]
	add	x29, sp, #16
	.cfi_def_cfa w29, 16
	.cfi_offset w30, -8
	.cfi_offset w29, -16
	.cfi_offset w19, -24
	.cfi_offset w20, -32
	mov	x8, x0
	neg	w9, w5
	and	x9, x9, #0xf
	cmp	x5, #0
	cset	w10, ne
	mvn	x11, x5
	cmp	x6, x11
	cset	w11, ls
	cmp	x9, x6
	csel	x9, x9, x6, lo
	add	x9, x5, x9
Lm_loh72:
	adrp	x12, _begin_behind.nothing@PAGE
Lm_loh73:
	add	x12, x12, _begin_behind.nothing@PAGEOFF
Lm_loh74:
	adrp	x0, _lent@TLVPPAGE
Lm_loh75:
	ldr	x0, [x0, _lent@TLVPPAGEOFF]
	ldr	x13, [x0]
	blr	x13
	mov	x19, x0
	ands	w20, w10, w11
	csel	x9, x9, x12, ne
	str	x9, [x0]
	add	x9, x5, x6
	csel	x9, x9, x12, ne
Lm_loh76:
	adrp	x0, _lent_end@TLVPPAGE
Lm_loh77:
	ldr	x0, [x0, _lent_end@TLVPPAGEOFF]
	ldr	x10, [x0]
	blr	x10
	str	x9, [x0]
Lm_loh78:
	adrp	x0, _lent_step@TLVPPAGE
Lm_loh79:
	ldr	x0, [x0, _lent_step@TLVPPAGEOFF]
	ldr	x9, [x0]
	blr	x9
	mov	w9, #16
	str	x9, [x0]
	mov	x0, x8
	bl	_tlsf_pools_open
	mov	w8, #5
	cmp	w0, #6
	csel	w8, w8, w0, eq
	str	xzr, [x19]
	cmp	w8, #5
	cset	w9, ne
	orr	w9, w20, w9
	mov	w10, #39
	cmp	w9, #0
	csel	w0, w8, w10, ne
	.cfi_def_cfa wsp, 32
	ldp	x29, x30, [sp, #16]
	ldp	x20, x19, [sp], #32
	.cfi_def_cfa_offset 0
	.cfi_restore w30
	.cfi_restore w29
	.cfi_restore w19
	.cfi_restore w20
	ret
	.loh AdrpLdr	Lm_loh78, Lm_loh79
	.loh AdrpLdr	Lm_loh76, Lm_loh77
	.loh AdrpLdr	Lm_loh74, Lm_loh75
	.loh AdrpAdd	Lm_loh72, Lm_loh73
	.cfi_endproc
	.globl	_tlsf_next_number
	.p2align	2
_tlsf_next_number:
	.cfi_startproc
Lm_loh80:
	adrp	x8, _tlsf_next_number.calls@PAGE
Lm_loh81:
	add	x8, x8, _tlsf_next_number.calls@PAGEOFF
	mov	w9, #1
	ldadd	x9, x8, [x8]
	lsl	x9, x8, #3
	cmp	x9, w9, sxtw
	b.ne	Lm_BB23_2
	mov	w10, #-2147483648
	add	x9, x9, x10
	str	w9, [x0]
	mov	w0, #0
	ret
Lm_BB23_2:
	mov	w0, #2
	ret
	.loh AdrpAdd	Lm_loh80, Lm_loh81
	.cfi_endproc
.zerofill __DATA,__bss,_tlsf_memory_alloc.nothing,8,3
.tbss _near_room$tlv$init, 8, 3
	.section	__DATA,__thread_vars,thread_local_variables
_near_room:
	.quad	__tlv_bootstrap
	.quad	0
	.quad	_near_room$tlv$init
.tbss _pieces_first$tlv$init, 4, 2
_pieces_first:
	.quad	__tlv_bootstrap
	.quad	0
	.quad	_pieces_first$tlv$init
.tbss _lent$tlv$init, 8, 3
_lent:
	.quad	__tlv_bootstrap
	.quad	0
	.quad	_lent$tlv$init
.zerofill __DATA,__bss,_tlsf_next_number.calls,8,3
.tbss _lent_step$tlv$init, 8, 3
_lent_step:
	.quad	__tlv_bootstrap
	.quad	0
	.quad	_lent_step$tlv$init
.tbss _lent_end$tlv$init, 8, 3
_lent_end:
	.quad	__tlv_bootstrap
	.quad	0
	.quad	_lent_end$tlv$init
.tbss _front$tlv$init, 8, 3
_front:
	.quad	__tlv_bootstrap
	.quad	0
	.quad	_front$tlv$init
.zerofill __DATA,__bss,_begin_behind.nothing,1,0
.subsections_via_symbols
#endif
