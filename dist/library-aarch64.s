#ifndef TLSF_ONLY_MEMORY
/* The calls in Rattle. */
	.section	".text.unlikely.tlsf_c::call_fault::CallFault::refusal","ax",@progbits
	.p2align	2
	.type	"tlsf_c::call_fault::CallFault::refusal",@function
"tlsf_c::call_fault::CallFault::refusal":
	.cfi_startproc
	lsl	w8, w0, #2
	orr	w8, w8, #0x20
	and	w0, w8, #0xfc
	ret
.Lfunc_end0:
	.size	"tlsf_c::call_fault::CallFault::refusal", .Lfunc_end0-"tlsf_c::call_fault::CallFault::refusal"
	.cfi_endproc
	.section	".text.tlsf_heap::heap::Heap::resize_live::<=4>","ax",@progbits
	.p2align	2
	.type	"tlsf_heap::heap::Heap::resize_live::<=4>",@function
"tlsf_heap::heap::Heap::resize_live::<=4>":
	.cfi_startproc
	stp	x29, x30, [sp, #-48]!
	.cfi_def_cfa_offset 48
	str	x21, [sp, #16]
	stp	x20, x19, [sp, #32]
	mov	x29, sp
	.cfi_def_cfa w29, 48
	.cfi_offset w19, -8
	.cfi_offset w20, -16
	.cfi_offset w21, -32
	.cfi_offset w30, -40
	.cfi_offset w29, -48
	.cfi_remember_state
	ldr	w1, [x1, #4]
	mov	x8, x0
	ldr	x10, [x8, #24]!
	lsl	x19, x1, #3
	add	x11, x10, x19
	ldr	x9, [x11]
	lsr	w20, w9, #2
	cmp	w2, w20
	b.ls	.LBB1_6
	tbnz	w9, #1, .LBB1_3
	add	w11, w20, w1
	ldr	x3, [x10, w11, uxtw #3]
	tbnz	w3, #0, .LBB1_4
.LBB1_3:
	mov	x3, xzr
.LBB1_4:
	add	w10, w20, w3, lsr #2
	cmp	w10, w2
	b.hs	.LBB1_10
	mov	w0, #1
	mov	w1, #5
	.cfi_def_cfa wsp, 48
	ldp	x20, x19, [sp, #32]
	ldr	x21, [sp, #16]
	ldp	x29, x30, [sp], #48
	.cfi_def_cfa_offset 0
	.cfi_restore w19
	.cfi_restore w20
	.cfi_restore w21
	.cfi_restore w30
	.cfi_restore w29
	ret
.LBB1_6:
	.cfi_restore_state
	.cfi_remember_state
	ldr	x4, [x0, #8]
	cmn	x4, #1
	b.eq	.LBB1_14
	add	w10, w2, #4
	mov	w19, w20
	str	xzr, [x11, #16]
	cmp	w20, w10
	b.lo	.LBB1_9
	mov	w19, w2
	mov	x21, x0
	mov	x0, x8
	mov	x2, x9
	mov	w3, w19
	bl	"tlsf_heap::refitting::split_off::<=4>"
	mov	x0, x21
.LBB1_9:
	ldr	w9, [x0, #16]
	ldr	x11, [x0, #8]
	sub	w10, w19, w20
	mov	w1, wzr
	add	w9, w10, w9
	add	x10, x11, #1
	str	w9, [x0, #16]
	str	x10, [x0, #8]
	mov	w0, wzr
	.cfi_def_cfa wsp, 48
	ldp	x20, x19, [sp, #32]
	ldr	x21, [sp, #16]
	ldp	x29, x30, [sp], #48
	.cfi_def_cfa_offset 0
	.cfi_restore w19
	.cfi_restore w20
	.cfi_restore w21
	.cfi_restore w30
	.cfi_restore w29
	ret
.LBB1_10:
	.cfi_restore_state
	.cfi_remember_state
	ldr	x5, [x0, #8]
	cmn	x5, #1
	b.eq	.LBB1_14
	mov	x21, x0
	mov	x0, x8
	mov	w4, w2
	mov	x2, x9
	bl	"tlsf_heap::refitting::recut::<=4>"
	ldr	x9, [x21, #24]
	sub	w10, w0, w20
	mov	x8, x21
	add	x9, x9, x19
	str	xzr, [x9, #16]
	ldp	w9, w11, [x21, #16]
	add	w9, w9, w10
	cmp	w11, w9
	str	w9, [x21, #16]
	b.hs	.LBB1_13
	str	w9, [x8, #20]
.LBB1_13:
	ldr	x9, [x8, #8]
	mov	w1, wzr
	mov	w0, wzr
	add	x9, x9, #1
	str	x9, [x8, #8]
	.cfi_def_cfa wsp, 48
	ldp	x20, x19, [sp, #32]
	ldr	x21, [sp, #16]
	ldp	x29, x30, [sp], #48
	.cfi_def_cfa_offset 0
	.cfi_restore w19
	.cfi_restore w20
	.cfi_restore w21
	.cfi_restore w30
	.cfi_restore w29
	ret
.LBB1_14:
	.cfi_restore_state
	mov	w1, #1
	mov	w0, #1
	.cfi_def_cfa wsp, 48
	ldp	x20, x19, [sp, #32]
	ldr	x21, [sp, #16]
	ldp	x29, x30, [sp], #48
	.cfi_def_cfa_offset 0
	.cfi_restore w19
	.cfi_restore w20
	.cfi_restore w21
	.cfi_restore w30
	.cfi_restore w29
	ret
.Lfunc_end1:
	.size	"tlsf_heap::heap::Heap::resize_live::<=4>", .Lfunc_end1-"tlsf_heap::heap::Heap::resize_live::<=4>"
	.cfi_endproc
	.section	".text.tlsf_heap::refitting::split_off::<=4>","ax",@progbits
	.p2align	2
	.type	"tlsf_heap::refitting::split_off::<=4>",@function
"tlsf_heap::refitting::split_off::<=4>":
	.cfi_startproc
	ldr	x9, [x0]
	mov	x5, x4
	mov	w4, w3
	tbnz	w2, #1, .LBB2_2
	add	w8, w1, w2, lsr #2
	ldr	x3, [x9, w8, uxtw #3]
	tbnz	w3, #0, .LBB2_7
.LBB2_2:
	orr	x10, x2, #0x1
	add	w8, w4, w1
	mov	w14, #1
	sub	w11, w10, w4, lsl #2
	lsl	x14, x14, x8
	sub	x12, x10, x11
	str	x12, [x9, w1, uxtw #3]
	ubfiz	x9, x8, #3, #32
	mov	w12, w1
	ldr	x13, [x0]
	lsr	w10, w10, #2
	orr	x12, x11, x12, lsl #32
	add	x13, x13, x9
	stp	x12, x5, [x13]
	lsr	w12, w8, #3
	ldr	x13, [x0, #24]
	and	x12, x12, #0x1ffffff8
	ldr	x15, [x13, x12]
	orr	x14, x15, x14
	str	x14, [x13, x12]
	tbnz	w11, #1, .LBB2_4
	ldr	x11, [x0]
	add	w12, w10, w1
	add	x11, x11, w12, uxtw #3
	str	w8, [x11, #4]
.LBB2_4:
	sub	w10, w10, w4
	mov	w12, #27
	orr	w11, w10, #0x10
	clz	w11, w11
	sub	w11, w12, w11
	lsr	w10, w10, w11
	add	w12, w10, w11, lsl #4
	ldr	x11, [x0]
	add	x14, x0, w12, uxtw #2
	ldr	w13, [x14, #144]
	str	w8, [x14, #144]
	tbnz	w13, #31, .LBB2_6
	add	x9, x11, x9
	add	x11, x11, x13, lsl #3
	orr	x10, x13, #0xffffffff00000000
	str	x10, [x9, #16]
	str	w8, [x11, #20]
	ret
.LBB2_6:
	lsr	x8, x12, #4
	add	x9, x11, x9
	mov	x11, #-1
	str	x11, [x9, #16]
	mov	w11, #1
	and	w10, w10, #0xf
	add	x9, x0, x8, lsl #2
	ldr	w12, [x0, #56]
	lsl	w8, w11, w8
	lsl	w10, w11, w10
	ldr	w13, [x9, #60]
	orr	w8, w12, w8
	str	w8, [x0, #56]
	orr	w8, w13, w10
	str	w8, [x9, #60]
	ret
.LBB2_7:
	b	"tlsf_heap::refitting::recut::<=4>"
.Lfunc_end2:
	.size	"tlsf_heap::refitting::split_off::<=4>", .Lfunc_end2-"tlsf_heap::refitting::split_off::<=4>"
	.cfi_endproc
	.section	".text.tlsf_heap::refitting::recut::<=4>","ax",@progbits
	.p2align	2
	.type	"tlsf_heap::refitting::recut::<=4>",@function
"tlsf_heap::refitting::recut::<=4>":
	.cfi_startproc
	add	w8, w1, w2, lsr #2
	ldr	x10, [x0]
	lsr	w9, w3, #2
	add	x8, x10, w8, uxtw #3
	ldr	x8, [x8, #16]
	tbnz	x8, #63, .LBB3_3
	lsr	x11, x8, #29
	cmn	w8, #1
	and	x11, x11, #0x3fffffff8
	add	x11, x10, x11
	ldr	x12, [x11, #16]
	b.eq	.LBB3_5
	bfxil	x12, x8, #0, #32
	add	x10, x10, w8, uxtw #3
	ubfx	x8, x8, #32, #31
	str	x12, [x11, #16]
	str	w8, [x10, #20]
	add	x12, x2, w3, uxtw
	add	w10, w4, #4
	lsr	w8, w12, #2
	cmp	w8, w10
	add	w10, w8, w1
	b.lo	.LBB3_8
	b	.LBB3_12
.LBB3_3:
	orr	w11, w9, #0x10
	mov	w12, #27
	cmn	w8, #1
	clz	w11, w11
	sub	w11, w12, w11
	lsr	w12, w9, w11
	add	w11, w12, w11, lsl #4
	b.eq	.LBB3_6
	ubfiz	x12, x8, #3, #32
	add	x11, x0, x11, lsl #2
	add	x10, x10, x12
	ldr	x12, [x10, #16]
	orr	x12, x12, #0xffffffff00000000
	str	x12, [x10, #16]
	str	w8, [x11, #144]
	add	x12, x2, w3, uxtw
	add	w10, w4, #4
	lsr	w8, w12, #2
	cmp	w8, w10
	add	w10, w8, w1
	b.lo	.LBB3_8
	b	.LBB3_12
.LBB3_5:
	orr	x8, x12, #0xffffffff
	str	x8, [x11, #16]
	add	x12, x2, w3, uxtw
	add	w10, w4, #4
	lsr	w8, w12, #2
	cmp	w8, w10
	add	w10, w8, w1
	b.lo	.LBB3_8
	b	.LBB3_12
.LBB3_6:
	add	x8, x0, x11, lsl #2
	lsr	x10, x11, #2
	mov	w13, #-1
	and	w12, w12, #0xf
	str	w13, [x8, #144]
	and	x8, x10, #0x1ffffffc
	add	x10, x0, x8
	mov	w8, #1
	ldr	w13, [x10, #60]
	lsl	w12, w8, w12
	bics	w12, w13, w12
	str	w12, [x10, #60]
	b.eq	.LBB3_11
	add	x12, x2, w3, uxtw
	add	w10, w4, #4
	lsr	w8, w12, #2
	cmp	w8, w10
	add	w10, w8, w1
	b.hs	.LBB3_12
.LBB3_8:
	sub	w9, w10, w9
	ldr	x13, [x0, #24]
	mov	x14, #-2
	lsr	w11, w9, #3
	neg	w9, w9
	ror	x9, x14, x9
	and	x11, x11, #0x1ffffff8
	ldr	x15, [x13, x11]
	and	x9, x15, x9
	str	x9, [x13, x11]
	tbnz	w12, #1, .LBB3_10
	ldr	x9, [x0]
	add	x10, x9, w10, uxtw #3
	mov	w9, w1
	str	w1, [x10, #4]
	ldr	x10, [x0]
	mov	w0, w8
	sub	x11, x12, #1
	str	x11, [x10, x9, lsl #3]
	ret
.LBB3_10:
	mov	w9, w1
	ldr	x10, [x0]
	mov	w0, w8
	sub	x11, x12, #1
	str	x11, [x10, x9, lsl #3]
	ret
.LBB3_11:
	lsr	x10, x11, #4
	ldr	w11, [x0, #56]
	lsl	w8, w8, w10
	bic	w8, w11, w8
	str	w8, [x0, #56]
	add	x12, x2, w3, uxtw
	add	w10, w4, #4
	lsr	w8, w12, #2
	cmp	w8, w10
	add	w10, w8, w1
	b.lo	.LBB3_8
.LBB3_12:
	sub	w13, w12, w4, lsl #2
	ldr	x14, [x0]
	add	w11, w4, w1
	sub	w9, w10, w9
	mov	x16, #-2
	sub	x12, x12, x13
	str	x12, [x14, w1, uxtw #3]
	mov	w14, w1
	ubfiz	x12, x11, #3, #32
	ldr	x15, [x0]
	orr	x14, x13, x14, lsl #32
	add	x15, x15, x12
	stp	x14, x5, [x15]
	lsr	w14, w9, #3
	neg	w9, w9
	ldr	x15, [x0, #24]
	ror	x9, x16, x9
	and	x14, x14, #0x1ffffff8
	ldr	x17, [x15, x14]
	and	x9, x17, x9
	str	x9, [x15, x14]
	mov	w15, #1
	lsr	w9, w11, #3
	ldr	x14, [x0, #24]
	lsl	x15, x15, x11
	and	x9, x9, #0x1ffffff8
	ldr	x16, [x14, x9]
	orr	x15, x16, x15
	str	x15, [x14, x9]
	tbnz	w13, #1, .LBB3_14
	ldr	x9, [x0]
	add	x9, x9, w10, uxtw #3
	str	w11, [x9, #4]
.LBB3_14:
	sub	w8, w8, w4
	mov	w10, #27
	orr	w9, w8, #0x10
	clz	w9, w9
	sub	w9, w10, w9
	lsr	w8, w8, w9
	add	w10, w8, w9, lsl #4
	ldr	x9, [x0]
	add	x14, x0, w10, uxtw #2
	ldr	w13, [x14, #144]
	str	w11, [x14, #144]
	tbnz	w13, #31, .LBB3_16
	add	x10, x9, x12
	add	x9, x9, x13, lsl #3
	orr	x8, x13, #0xffffffff00000000
	str	x8, [x10, #16]
	str	w11, [x9, #20]
	mov	w8, w4
	mov	w0, w8
	ret
.LBB3_16:
	lsr	x10, x10, #4
	add	x9, x9, x12
	mov	x11, #-1
	str	x11, [x9, #16]
	mov	w11, #1
	and	w8, w8, #0xf
	add	x9, x0, x10, lsl #2
	ldr	w12, [x0, #56]
	lsl	w10, w11, w10
	lsl	w8, w11, w8
	ldr	w13, [x9, #60]
	orr	w10, w12, w10
	str	w10, [x0, #56]
	orr	w8, w13, w8
	str	w8, [x9, #60]
	mov	w8, w4
	mov	w0, w8
	ret
.Lfunc_end3:
	.size	"tlsf_heap::refitting::recut::<=4>", .Lfunc_end3-"tlsf_heap::refitting::recut::<=4>"
	.cfi_endproc
	.section	".text.tlsf_heap::heap::Heap::release_live::<=4>","ax",@progbits
	.p2align	2
	.type	"tlsf_heap::heap::Heap::release_live::<=4>",@function
"tlsf_heap::heap::Heap::release_live::<=4>":
	.cfi_startproc
	ldr	w4, [x1, #4]
	mov	x8, x0
	ldr	x12, [x0, #24]!
	ldur	w13, [x0, #-8]
	ubfiz	x9, x4, #3, #32
	add	x10, x12, x9
	ldr	x5, [x10]
	lsr	w11, w5, #2
	sub	w13, w13, w11
	stur	w13, [x0, #-8]
	tbnz	w5, #1, .LBB4_2
	add	w13, w11, w4
	ldr	x1, [x12, w13, uxtw #3]
	cbnz	w4, .LBB4_3
	b	.LBB4_4
.LBB4_2:
	mov	x1, xzr
	cbz	w4, .LBB4_4
.LBB4_3:
	lsr	x13, x5, #29
	and	x13, x13, #0x7fffffff8
	ldr	x2, [x12, x13]
	tbnz	w2, #0, .LBB4_8
.LBB4_4:
	ldr	x3, [x8, #8]
	tbnz	w1, #0, .LBB4_7
	orr	w12, w11, #0x10
	mov	w13, #27
	clz	w12, w12
	sub	w12, w13, w12
	orr	x13, x5, #0x1
	lsr	w11, w11, w12
	stp	x13, x3, [x10]
	ldr	x10, [x8, #8]
	add	w12, w11, w12, lsl #4
	add	x10, x10, #1
	add	x14, x8, w12, uxtw #2
	str	x10, [x8, #8]
	ldr	x10, [x8, #24]
	ldr	w13, [x14, #168]
	str	w4, [x14, #168]
	tbnz	w13, #31, .LBB4_9
	add	x9, x10, x9
	add	x10, x10, x13, lsl #3
	orr	x8, x13, #0xffffffff00000000
	str	x8, [x9, #16]
	str	w4, [x10, #20]
	ret
.LBB4_7:
	add	x9, x3, #1
	mov	x2, x5
	str	x9, [x8, #8]
	b	"tlsf_heap::fitting::merge_next::<=4>"
.LBB4_8:
	ldr	x3, [x8, #8]
	add	x9, x3, #1
	str	x9, [x8, #8]
	b	"tlsf_heap::fitting::merge_before::<=4>"
.LBB4_9:
	lsr	x12, x12, #4
	add	x9, x10, x9
	mov	x10, #-1
	str	x10, [x9, #16]
	mov	w10, #1
	and	w11, w11, #0xf
	add	x9, x8, x12, lsl #2
	ldr	w13, [x8, #80]
	lsl	w12, w10, w12
	lsl	w10, w10, w11
	ldr	w14, [x9, #84]
	orr	w11, w13, w12
	str	w11, [x8, #80]
	orr	w8, w14, w10
	str	w8, [x9, #84]
	ret
.Lfunc_end4:
	.size	"tlsf_heap::heap::Heap::release_live::<=4>", .Lfunc_end4-"tlsf_heap::heap::Heap::release_live::<=4>"
	.cfi_endproc
	.section	".text.tlsf_heap::fitting::merge_before::<=4>","ax",@progbits
	.p2align	2
	.type	"tlsf_heap::fitting::merge_before::<=4>",@function
"tlsf_heap::fitting::merge_before::<=4>":
	.cfi_startproc
	tbnz	w1, #0, .LBB5_4
	lsr	w14, w2, #2
	ldr	x13, [x0]
	and	x10, x5, #0xfffffffe
	add	x11, x2, x10
	sub	w8, w4, w14
	lsr	w10, w11, #2
	ubfiz	x9, x8, #3, #32
	add	x12, x13, x9
	ldr	x12, [x12, #16]
	tbnz	x12, #63, .LBB5_5
	lsr	x14, x12, #29
	mov	w15, w12
	mov	w17, #-1
	cmp	x15, x17
	and	x14, x14, #0x3fffffff8
	add	x14, x13, x14
	ldr	x16, [x14, #16]
	b.ne	.LBB5_8
	orr	x12, x16, #0xffffffff
	str	x12, [x14, #16]
	b	.LBB5_13
.LBB5_4:
	b	"tlsf_heap::fitting::merge_both::<=4>"
.LBB5_5:
	orr	w15, w14, #0x10
	orr	w16, w10, #0x10
	mov	w17, #27
	clz	w15, w15
	clz	w16, w16
	sub	w18, w17, w15
	sub	w16, w17, w16
	lsr	w15, w14, w18
	lsr	w17, w10, w16
	add	w14, w15, w18, lsl #4
	add	w16, w17, w16, lsl #4
	cmp	w14, w16
	b.ne	.LBB5_9
	lsr	w12, w4, #3
	ldr	x13, [x0, #24]
	neg	w14, w4
	mov	x15, #-2
	and	x12, x12, #0x1ffffff8
	ror	x14, x15, x14
	ldr	x15, [x13, x12]
	and	x14, x15, x14
	str	x14, [x13, x12]
	ldr	x12, [x0]
	add	x9, x12, x9
	stp	x11, x3, [x9]
	tbnz	w11, #1, .LBB5_18
	ldr	x9, [x0]
	add	w10, w10, w8
	add	x9, x9, w10, uxtw #3
	str	w8, [x9, #4]
	ret
.LBB5_8:
	and	x16, x16, #0xffffffff00000000
	add	x13, x13, x15, lsl #3
	ubfx	x12, x12, #32, #31
	orr	x15, x16, x15
	str	x15, [x14, #16]
	str	w12, [x13, #20]
	b	.LBB5_13
.LBB5_9:
	cmn	w12, #1
	b.eq	.LBB5_11
	ubfiz	x15, x12, #3, #32
	add	x14, x0, x14, lsl #2
	add	x13, x13, x15
	ldr	x15, [x13, #16]
	orr	x15, x15, #0xffffffff00000000
	str	x15, [x13, #16]
	str	w12, [x14, #144]
	b	.LBB5_13
.LBB5_11:
	add	x12, x0, x14, lsl #2
	lsr	x13, x14, #2
	mov	w16, #-1
	and	w15, w15, #0xf
	str	w16, [x12, #144]
	and	x12, x13, #0x1ffffffc
	add	x13, x0, x12
	mov	w12, #1
	ldr	w16, [x13, #60]
	lsl	w15, w12, w15
	bics	w15, w16, w15
	str	w15, [x13, #60]
	b.ne	.LBB5_13
	lsr	x13, x14, #4
	ldr	w14, [x0, #56]
	lsl	w12, w12, w13
	bic	w12, w14, w12
	str	w12, [x0, #56]
.LBB5_13:
	lsr	w12, w4, #3
	ldr	x13, [x0, #24]
	neg	w14, w4
	mov	x15, #-2
	and	x12, x12, #0x1ffffff8
	ror	x14, x15, x14
	ldr	x15, [x13, x12]
	and	x14, x15, x14
	str	x14, [x13, x12]
	ldr	x12, [x0]
	add	x12, x12, x9
	stp	x11, x3, [x12]
	tbnz	w11, #1, .LBB5_15
	ldr	x11, [x0]
	add	w12, w10, w8
	add	x11, x11, w12, uxtw #3
	str	w8, [x11, #4]
.LBB5_15:
	orr	w11, w10, #0x10
	mov	w12, #27
	clz	w11, w11
	sub	w11, w12, w11
	lsr	w10, w10, w11
	add	w12, w10, w11, lsl #4
	ldr	x11, [x0]
	add	x14, x0, w12, uxtw #2
	ldr	w13, [x14, #144]
	str	w8, [x14, #144]
	tbnz	w13, #31, .LBB5_17
	add	x9, x11, x9
	add	x11, x11, x13, lsl #3
	orr	x10, x13, #0xffffffff00000000
	str	x10, [x9, #16]
	str	w8, [x11, #20]
	ret
.LBB5_17:
	lsr	x8, x12, #4
	add	x9, x11, x9
	mov	x11, #-1
	str	x11, [x9, #16]
	mov	w11, #1
	and	w10, w10, #0xf
	add	x9, x0, x8, lsl #2
	ldr	w12, [x0, #56]
	lsl	w8, w11, w8
	lsl	w10, w11, w10
	ldr	w13, [x9, #60]
	orr	w8, w12, w8
	str	w8, [x0, #56]
	orr	w8, w13, w10
	str	w8, [x9, #60]
.LBB5_18:
	ret
.Lfunc_end5:
	.size	"tlsf_heap::fitting::merge_before::<=4>", .Lfunc_end5-"tlsf_heap::fitting::merge_before::<=4>"
	.cfi_endproc
	.section	".text.tlsf_heap::fitting::merge_both::<=4>","ax",@progbits
	.p2align	2
	.type	"tlsf_heap::fitting::merge_both::<=4>",@function
"tlsf_heap::fitting::merge_both::<=4>":
	.cfi_startproc
	add	w8, w4, w5, lsr #2
	ldr	x10, [x0]
	add	x8, x10, w8, uxtw #3
	ldr	x9, [x8, #16]
	lsr	w8, w1, #2
	tbnz	x9, #63, .LBB6_3
	lsr	x11, x9, #29
	cmn	w9, #1
	and	x11, x11, #0x3fffffff8
	add	x11, x10, x11
	ldr	x12, [x11, #16]
	b.eq	.LBB6_5
	bfxil	x12, x9, #0, #32
	add	x10, x10, w9, uxtw #3
	ubfx	x9, x9, #32, #31
	str	x12, [x11, #16]
	str	w9, [x10, #20]
	b	.LBB6_8
.LBB6_3:
	orr	w11, w8, #0x10
	mov	w12, #27
	cmn	w9, #1
	clz	w11, w11
	sub	w11, w12, w11
	lsr	w12, w8, w11
	add	w11, w12, w11, lsl #4
	b.eq	.LBB6_6
	ubfiz	x12, x9, #3, #32
	add	x11, x0, x11, lsl #2
	add	x10, x10, x12
	ldr	x12, [x10, #16]
	orr	x12, x12, #0xffffffff00000000
	str	x12, [x10, #16]
	str	w9, [x11, #144]
	b	.LBB6_8
.LBB6_5:
	orr	x9, x12, #0xffffffff
	str	x9, [x11, #16]
	b	.LBB6_8
.LBB6_6:
	add	x9, x0, x11, lsl #2
	lsr	x10, x11, #2
	mov	w13, #-1
	and	w12, w12, #0xf
	str	w13, [x9, #144]
	and	x9, x10, #0x1ffffffc
	add	x10, x0, x9
	mov	w9, #1
	ldr	w13, [x10, #60]
	lsl	w12, w9, w12
	bics	w12, w13, w12
	str	w12, [x10, #60]
	b.ne	.LBB6_8
	lsr	x10, x11, #4
	ldr	w11, [x0, #56]
	lsl	w9, w9, w10
	bic	w9, w11, w9
	str	w9, [x0, #56]
.LBB6_8:
	lsr	w13, w2, #2
	ldr	x12, [x0]
	sub	w9, w4, w13
	ubfiz	x10, x9, #3, #32
	add	x11, x12, x10
	ldr	x11, [x11, #16]
	tbnz	x11, #63, .LBB6_11
	lsr	x13, x11, #29
	cmn	w11, #1
	and	x13, x13, #0x3fffffff8
	add	x13, x12, x13
	ldr	x14, [x13, #16]
	b.eq	.LBB6_13
	bfxil	x14, x11, #0, #32
	add	x12, x12, w11, uxtw #3
	ubfx	x11, x11, #32, #31
	str	x14, [x13, #16]
	str	w11, [x12, #20]
	b	.LBB6_16
.LBB6_11:
	orr	w14, w13, #0x10
	mov	w15, #27
	cmn	w11, #1
	clz	w14, w14
	sub	w15, w15, w14
	lsr	w14, w13, w15
	add	w13, w14, w15, lsl #4
	b.eq	.LBB6_14
	ubfiz	x14, x11, #3, #32
	add	x13, x0, x13, lsl #2
	add	x12, x12, x14
	ldr	x14, [x12, #16]
	orr	x14, x14, #0xffffffff00000000
	str	x14, [x12, #16]
	str	w11, [x13, #144]
	b	.LBB6_16
.LBB6_13:
	orr	x11, x14, #0xffffffff
	str	x11, [x13, #16]
	b	.LBB6_16
.LBB6_14:
	add	x11, x0, x13, lsl #2
	lsr	x12, x13, #2
	mov	w15, #-1
	and	w14, w14, #0xf
	str	w15, [x11, #144]
	and	x11, x12, #0x1ffffffc
	add	x12, x0, x11
	mov	w11, #1
	ldr	w15, [x12, #60]
	lsl	w14, w11, w14
	bics	w14, w15, w14
	str	w14, [x12, #60]
	b.ne	.LBB6_16
	lsr	x12, x13, #4
	ldr	w13, [x0, #56]
	lsl	w11, w11, w12
	bic	w11, w13, w11
	str	w11, [x0, #56]
.LBB6_16:
	add	w11, w5, w1
	lsr	w12, w4, #3
	ldr	x14, [x0, #24]
	add	x11, x2, x11
	neg	w15, w4
	mov	x16, #-2
	sub	x13, x11, #1
	and	x17, x12, #0x1ffffff8
	ror	x15, x16, x15
	lsr	w11, w13, #2
	ldr	x18, [x14, x17]
	add	w12, w11, w9
	and	x15, x18, x15
	str	x15, [x14, x17]
	sub	w8, w12, w8
	ldr	x15, [x0, #24]
	lsr	w14, w8, #3
	neg	w8, w8
	ror	x8, x16, x8
	and	x14, x14, #0x1ffffff8
	ldr	x16, [x15, x14]
	and	x8, x16, x8
	str	x8, [x15, x14]
	ldr	x8, [x0]
	add	x8, x8, x10
	stp	x13, x3, [x8]
	tbnz	w13, #1, .LBB6_18
	ldr	x8, [x0]
	add	x8, x8, w12, uxtw #3
	str	w9, [x8, #4]
.LBB6_18:
	orr	w8, w11, #0x10
	mov	w12, #27
	clz	w8, w8
	sub	w12, w12, w8
	lsr	w8, w11, w12
	ldr	x11, [x0]
	add	w12, w8, w12, lsl #4
	add	x14, x0, w12, uxtw #2
	ldr	w13, [x14, #144]
	str	w9, [x14, #144]
	tbnz	w13, #31, .LBB6_20
	add	x10, x11, x10
	add	x11, x11, x13, lsl #3
	orr	x8, x13, #0xffffffff00000000
	str	x8, [x10, #16]
	str	w9, [x11, #20]
	ret
.LBB6_20:
	lsr	x9, x12, #4
	add	x10, x11, x10
	mov	x11, #-1
	str	x11, [x10, #16]
	mov	w11, #1
	and	w8, w8, #0xf
	add	x10, x0, x9, lsl #2
	ldr	w12, [x0, #56]
	lsl	w9, w11, w9
	lsl	w8, w11, w8
	ldr	w13, [x10, #60]
	orr	w9, w12, w9
	str	w9, [x0, #56]
	orr	w8, w13, w8
	str	w8, [x10, #60]
	ret
.Lfunc_end6:
	.size	"tlsf_heap::fitting::merge_both::<=4>", .Lfunc_end6-"tlsf_heap::fitting::merge_both::<=4>"
	.cfi_endproc
	.section	".text.tlsf_heap::fitting::merge_next::<=4>","ax",@progbits
	.p2align	2
	.type	"tlsf_heap::fitting::merge_next::<=4>",@function
"tlsf_heap::fitting::merge_next::<=4>":
	.cfi_startproc
	add	w8, w4, w2, lsr #2
	ldr	x10, [x0]
	add	x8, x10, w8, uxtw #3
	ldr	x9, [x8, #16]
	lsr	w8, w1, #2
	tbnz	x9, #63, .LBB7_3
	lsr	x11, x9, #29
	cmn	w9, #1
	and	x11, x11, #0x3fffffff8
	add	x11, x10, x11
	ldr	x12, [x11, #16]
	b.eq	.LBB7_5
	bfxil	x12, x9, #0, #32
	add	x10, x10, w9, uxtw #3
	ubfx	x9, x9, #32, #31
	str	x12, [x11, #16]
	str	w9, [x10, #20]
	b	.LBB7_8
.LBB7_3:
	orr	w11, w8, #0x10
	mov	w12, #27
	cmn	w9, #1
	clz	w11, w11
	sub	w11, w12, w11
	lsr	w12, w8, w11
	add	w11, w12, w11, lsl #4
	b.eq	.LBB7_6
	ubfiz	x12, x9, #3, #32
	add	x11, x0, x11, lsl #2
	add	x10, x10, x12
	ldr	x12, [x10, #16]
	orr	x12, x12, #0xffffffff00000000
	str	x12, [x10, #16]
	str	w9, [x11, #144]
	b	.LBB7_8
.LBB7_5:
	orr	x9, x12, #0xffffffff
	str	x9, [x11, #16]
	b	.LBB7_8
.LBB7_6:
	add	x9, x0, x11, lsl #2
	lsr	x10, x11, #2
	mov	w13, #-1
	and	w12, w12, #0xf
	str	w13, [x9, #144]
	and	x9, x10, #0x1ffffffc
	add	x10, x0, x9
	mov	w9, #1
	ldr	w13, [x10, #60]
	lsl	w12, w9, w12
	bics	w12, w13, w12
	str	w12, [x10, #60]
	b.ne	.LBB7_8
	lsr	x10, x11, #4
	ldr	w11, [x0, #56]
	lsl	w9, w9, w10
	bic	w9, w11, w9
	str	w9, [x0, #56]
.LBB7_8:
	add	x12, x2, w1, uxtw
	ldr	x13, [x0, #24]
	mov	x14, #-2
	lsr	w9, w12, #2
	add	w11, w9, w4
	sub	w8, w11, w8
	lsr	w10, w8, #3
	neg	w8, w8
	ror	x8, x14, x8
	and	x10, x10, #0x1ffffff8
	ldr	x14, [x13, x10]
	and	x8, x14, x8
	str	x8, [x13, x10]
	ubfiz	x8, x4, #3, #32
	ldr	x10, [x0]
	add	x13, x10, x8
	mov	w10, w4
	stp	x12, x3, [x13]
	tbnz	w12, #1, .LBB7_10
	ldr	x12, [x0]
	add	x11, x12, w11, uxtw #3
	str	w10, [x11, #4]
.LBB7_10:
	orr	w11, w9, #0x10
	mov	w12, #27
	clz	w11, w11
	sub	w11, w12, w11
	lsr	w9, w9, w11
	add	w12, w9, w11, lsl #4
	ldr	x11, [x0]
	add	x14, x0, w12, uxtw #2
	ldr	w13, [x14, #144]
	str	w4, [x14, #144]
	tbnz	w13, #31, .LBB7_12
	add	x8, x11, x8
	add	x11, x11, x13, lsl #3
	orr	x9, x13, #0xffffffff00000000
	str	x9, [x8, #16]
	str	w10, [x11, #20]
	ret
.LBB7_12:
	lsr	x10, x12, #4
	add	x8, x11, x8
	mov	x11, #-1
	str	x11, [x8, #16]
	mov	w11, #1
	and	w9, w9, #0xf
	add	x8, x0, x10, lsl #2
	ldr	w12, [x0, #56]
	lsl	w10, w11, w10
	lsl	w9, w11, w9
	ldr	w13, [x8, #60]
	orr	w10, w12, w10
	str	w10, [x0, #56]
	orr	w9, w13, w9
	str	w9, [x8, #60]
	ret
.Lfunc_end7:
	.size	"tlsf_heap::fitting::merge_next::<=4>", .Lfunc_end7-"tlsf_heap::fitting::merge_next::<=4>"
	.cfi_endproc
	.section	".text.tlsf_heap::heap::Heap::resize_live::<=5>","ax",@progbits
	.p2align	2
	.type	"tlsf_heap::heap::Heap::resize_live::<=5>",@function
"tlsf_heap::heap::Heap::resize_live::<=5>":
	.cfi_startproc
	stp	x29, x30, [sp, #-48]!
	.cfi_def_cfa_offset 48
	str	x21, [sp, #16]
	stp	x20, x19, [sp, #32]
	mov	x29, sp
	.cfi_def_cfa w29, 48
	.cfi_offset w19, -8
	.cfi_offset w20, -16
	.cfi_offset w21, -32
	.cfi_offset w30, -40
	.cfi_offset w29, -48
	.cfi_remember_state
	ldr	w1, [x1, #4]
	mov	x8, x0
	ldr	x10, [x8, #24]!
	lsl	x19, x1, #3
	add	x11, x10, x19
	ldr	x9, [x11]
	lsr	w20, w9, #2
	cmp	w2, w20
	b.ls	.LBB8_6
	tbnz	w9, #1, .LBB8_3
	add	w11, w20, w1
	ldr	x3, [x10, w11, uxtw #3]
	tbnz	w3, #0, .LBB8_4
.LBB8_3:
	mov	x3, xzr
.LBB8_4:
	add	w10, w20, w3, lsr #2
	cmp	w10, w2
	b.hs	.LBB8_10
	mov	w0, #1
	mov	w1, #5
	.cfi_def_cfa wsp, 48
	ldp	x20, x19, [sp, #32]
	ldr	x21, [sp, #16]
	ldp	x29, x30, [sp], #48
	.cfi_def_cfa_offset 0
	.cfi_restore w19
	.cfi_restore w20
	.cfi_restore w21
	.cfi_restore w30
	.cfi_restore w29
	ret
.LBB8_6:
	.cfi_restore_state
	.cfi_remember_state
	ldr	x4, [x0, #8]
	cmn	x4, #1
	b.eq	.LBB8_14
	add	w10, w2, #4
	mov	w19, w20
	str	xzr, [x11, #16]
	cmp	w20, w10
	b.lo	.LBB8_9
	mov	w19, w2
	mov	x21, x0
	mov	x0, x8
	mov	x2, x9
	mov	w3, w19
	bl	"tlsf_heap::refitting::split_off::<=5>"
	mov	x0, x21
.LBB8_9:
	ldr	w9, [x0, #16]
	ldr	x11, [x0, #8]
	sub	w10, w19, w20
	mov	w1, wzr
	add	w9, w10, w9
	add	x10, x11, #1
	str	w9, [x0, #16]
	str	x10, [x0, #8]
	mov	w0, wzr
	.cfi_def_cfa wsp, 48
	ldp	x20, x19, [sp, #32]
	ldr	x21, [sp, #16]
	ldp	x29, x30, [sp], #48
	.cfi_def_cfa_offset 0
	.cfi_restore w19
	.cfi_restore w20
	.cfi_restore w21
	.cfi_restore w30
	.cfi_restore w29
	ret
.LBB8_10:
	.cfi_restore_state
	.cfi_remember_state
	ldr	x5, [x0, #8]
	cmn	x5, #1
	b.eq	.LBB8_14
	mov	x21, x0
	mov	x0, x8
	mov	w4, w2
	mov	x2, x9
	bl	"tlsf_heap::refitting::recut::<=5>"
	ldr	x9, [x21, #24]
	sub	w10, w0, w20
	mov	x8, x21
	add	x9, x9, x19
	str	xzr, [x9, #16]
	ldp	w9, w11, [x21, #16]
	add	w9, w9, w10
	cmp	w11, w9
	str	w9, [x21, #16]
	b.hs	.LBB8_13
	str	w9, [x8, #20]
.LBB8_13:
	ldr	x9, [x8, #8]
	mov	w1, wzr
	mov	w0, wzr
	add	x9, x9, #1
	str	x9, [x8, #8]
	.cfi_def_cfa wsp, 48
	ldp	x20, x19, [sp, #32]
	ldr	x21, [sp, #16]
	ldp	x29, x30, [sp], #48
	.cfi_def_cfa_offset 0
	.cfi_restore w19
	.cfi_restore w20
	.cfi_restore w21
	.cfi_restore w30
	.cfi_restore w29
	ret
.LBB8_14:
	.cfi_restore_state
	mov	w1, #1
	mov	w0, #1
	.cfi_def_cfa wsp, 48
	ldp	x20, x19, [sp, #32]
	ldr	x21, [sp, #16]
	ldp	x29, x30, [sp], #48
	.cfi_def_cfa_offset 0
	.cfi_restore w19
	.cfi_restore w20
	.cfi_restore w21
	.cfi_restore w30
	.cfi_restore w29
	ret
.Lfunc_end8:
	.size	"tlsf_heap::heap::Heap::resize_live::<=5>", .Lfunc_end8-"tlsf_heap::heap::Heap::resize_live::<=5>"
	.cfi_endproc
	.section	".text.tlsf_heap::refitting::split_off::<=5>","ax",@progbits
	.p2align	2
	.type	"tlsf_heap::refitting::split_off::<=5>",@function
"tlsf_heap::refitting::split_off::<=5>":
	.cfi_startproc
	ldr	x9, [x0]
	mov	x5, x4
	mov	w4, w3
	tbnz	w2, #1, .LBB9_2
	add	w8, w1, w2, lsr #2
	ldr	x3, [x9, w8, uxtw #3]
	tbnz	w3, #0, .LBB9_7
.LBB9_2:
	orr	x10, x2, #0x1
	add	w8, w4, w1
	mov	w14, #1
	sub	w11, w10, w4, lsl #2
	lsl	x14, x14, x8
	sub	x12, x10, x11
	str	x12, [x9, w1, uxtw #3]
	ubfiz	x9, x8, #3, #32
	mov	w12, w1
	ldr	x13, [x0]
	lsr	w10, w10, #2
	orr	x12, x11, x12, lsl #32
	add	x13, x13, x9
	stp	x12, x5, [x13]
	lsr	w12, w8, #3
	ldr	x13, [x0, #24]
	and	x12, x12, #0x1ffffff8
	ldr	x15, [x13, x12]
	orr	x14, x15, x14
	str	x14, [x13, x12]
	tbnz	w11, #1, .LBB9_4
	ldr	x11, [x0]
	add	w12, w10, w1
	add	x11, x11, w12, uxtw #3
	str	w8, [x11, #4]
.LBB9_4:
	sub	w10, w10, w4
	mov	w12, #26
	orr	w11, w10, #0x20
	clz	w11, w11
	sub	w11, w12, w11
	lsr	w10, w10, w11
	add	w12, w10, w11, lsl #5
	ldr	x11, [x0]
	add	x14, x0, w12, uxtw #2
	ldr	w13, [x14, #144]
	str	w8, [x14, #144]
	tbnz	w13, #31, .LBB9_6
	add	x9, x11, x9
	add	x11, x11, x13, lsl #3
	orr	x10, x13, #0xffffffff00000000
	str	x10, [x9, #16]
	str	w8, [x11, #20]
	ret
.LBB9_6:
	lsr	x8, x12, #5
	add	x9, x11, x9
	mov	x11, #-1
	str	x11, [x9, #16]
	mov	w11, #1
	add	x9, x0, x8, lsl #2
	ldr	w12, [x0, #56]
	lsl	w8, w11, w8
	lsl	w10, w11, w10
	ldr	w13, [x9, #60]
	orr	w8, w12, w8
	str	w8, [x0, #56]
	orr	w8, w13, w10
	str	w8, [x9, #60]
	ret
.LBB9_7:
	b	"tlsf_heap::refitting::recut::<=5>"
.Lfunc_end9:
	.size	"tlsf_heap::refitting::split_off::<=5>", .Lfunc_end9-"tlsf_heap::refitting::split_off::<=5>"
	.cfi_endproc
	.section	".text.tlsf_heap::refitting::recut::<=5>","ax",@progbits
	.p2align	2
	.type	"tlsf_heap::refitting::recut::<=5>",@function
"tlsf_heap::refitting::recut::<=5>":
	.cfi_startproc
	add	w8, w1, w2, lsr #2
	ldr	x10, [x0]
	lsr	w9, w3, #2
	add	x8, x10, w8, uxtw #3
	ldr	x8, [x8, #16]
	tbnz	x8, #63, .LBB10_3
	lsr	x11, x8, #29
	cmn	w8, #1
	and	x11, x11, #0x3fffffff8
	add	x11, x10, x11
	ldr	x12, [x11, #16]
	b.eq	.LBB10_5
	bfxil	x12, x8, #0, #32
	add	x10, x10, w8, uxtw #3
	ubfx	x8, x8, #32, #31
	str	x12, [x11, #16]
	str	w8, [x10, #20]
	add	x12, x2, w3, uxtw
	add	w10, w4, #4
	lsr	w8, w12, #2
	cmp	w8, w10
	add	w10, w8, w1
	b.lo	.LBB10_8
	b	.LBB10_12
.LBB10_3:
	orr	w11, w9, #0x20
	mov	w12, #26
	cmn	w8, #1
	clz	w11, w11
	sub	w11, w12, w11
	lsr	w12, w9, w11
	add	w11, w12, w11, lsl #5
	b.eq	.LBB10_6
	ubfiz	x12, x8, #3, #32
	add	x11, x0, x11, lsl #2
	add	x10, x10, x12
	ldr	x12, [x10, #16]
	orr	x12, x12, #0xffffffff00000000
	str	x12, [x10, #16]
	str	w8, [x11, #144]
	add	x12, x2, w3, uxtw
	add	w10, w4, #4
	lsr	w8, w12, #2
	cmp	w8, w10
	add	w10, w8, w1
	b.lo	.LBB10_8
	b	.LBB10_12
.LBB10_5:
	orr	x8, x12, #0xffffffff
	str	x8, [x11, #16]
	add	x12, x2, w3, uxtw
	add	w10, w4, #4
	lsr	w8, w12, #2
	cmp	w8, w10
	add	w10, w8, w1
	b.lo	.LBB10_8
	b	.LBB10_12
.LBB10_6:
	lsr	x8, x11, #3
	add	x10, x0, x11, lsl #2
	mov	w13, #-1
	and	x8, x8, #0xffffffc
	str	w13, [x10, #144]
	add	x10, x0, x8
	mov	w8, #1
	ldr	w13, [x10, #60]
	lsl	w12, w8, w12
	bics	w12, w13, w12
	str	w12, [x10, #60]
	b.eq	.LBB10_11
	add	x12, x2, w3, uxtw
	add	w10, w4, #4
	lsr	w8, w12, #2
	cmp	w8, w10
	add	w10, w8, w1
	b.hs	.LBB10_12
.LBB10_8:
	sub	w9, w10, w9
	ldr	x13, [x0, #24]
	mov	x14, #-2
	lsr	w11, w9, #3
	neg	w9, w9
	ror	x9, x14, x9
	and	x11, x11, #0x1ffffff8
	ldr	x15, [x13, x11]
	and	x9, x15, x9
	str	x9, [x13, x11]
	tbnz	w12, #1, .LBB10_10
	ldr	x9, [x0]
	add	x10, x9, w10, uxtw #3
	mov	w9, w1
	str	w1, [x10, #4]
	ldr	x10, [x0]
	mov	w0, w8
	sub	x11, x12, #1
	str	x11, [x10, x9, lsl #3]
	ret
.LBB10_10:
	mov	w9, w1
	ldr	x10, [x0]
	mov	w0, w8
	sub	x11, x12, #1
	str	x11, [x10, x9, lsl #3]
	ret
.LBB10_11:
	lsr	x10, x11, #5
	ldr	w11, [x0, #56]
	lsl	w8, w8, w10
	bic	w8, w11, w8
	str	w8, [x0, #56]
	add	x12, x2, w3, uxtw
	add	w10, w4, #4
	lsr	w8, w12, #2
	cmp	w8, w10
	add	w10, w8, w1
	b.lo	.LBB10_8
.LBB10_12:
	sub	w13, w12, w4, lsl #2
	ldr	x14, [x0]
	add	w11, w4, w1
	sub	w9, w10, w9
	mov	x16, #-2
	sub	x12, x12, x13
	str	x12, [x14, w1, uxtw #3]
	mov	w14, w1
	ubfiz	x12, x11, #3, #32
	ldr	x15, [x0]
	orr	x14, x13, x14, lsl #32
	add	x15, x15, x12
	stp	x14, x5, [x15]
	lsr	w14, w9, #3
	neg	w9, w9
	ldr	x15, [x0, #24]
	ror	x9, x16, x9
	and	x14, x14, #0x1ffffff8
	ldr	x17, [x15, x14]
	and	x9, x17, x9
	str	x9, [x15, x14]
	mov	w15, #1
	lsr	w9, w11, #3
	ldr	x14, [x0, #24]
	lsl	x15, x15, x11
	and	x9, x9, #0x1ffffff8
	ldr	x16, [x14, x9]
	orr	x15, x16, x15
	str	x15, [x14, x9]
	tbnz	w13, #1, .LBB10_14
	ldr	x9, [x0]
	add	x9, x9, w10, uxtw #3
	str	w11, [x9, #4]
.LBB10_14:
	sub	w8, w8, w4
	mov	w10, #26
	orr	w9, w8, #0x20
	clz	w9, w9
	sub	w9, w10, w9
	lsr	w8, w8, w9
	add	w10, w8, w9, lsl #5
	ldr	x9, [x0]
	add	x14, x0, w10, uxtw #2
	ldr	w13, [x14, #144]
	str	w11, [x14, #144]
	tbnz	w13, #31, .LBB10_16
	add	x10, x9, x12
	add	x9, x9, x13, lsl #3
	orr	x8, x13, #0xffffffff00000000
	str	x8, [x10, #16]
	str	w11, [x9, #20]
	mov	w8, w4
	mov	w0, w8
	ret
.LBB10_16:
	lsr	x10, x10, #5
	add	x9, x9, x12
	mov	x11, #-1
	str	x11, [x9, #16]
	mov	w11, #1
	add	x9, x0, x10, lsl #2
	ldr	w12, [x0, #56]
	lsl	w10, w11, w10
	lsl	w8, w11, w8
	ldr	w13, [x9, #60]
	orr	w10, w12, w10
	str	w10, [x0, #56]
	orr	w8, w13, w8
	str	w8, [x9, #60]
	mov	w8, w4
	mov	w0, w8
	ret
.Lfunc_end10:
	.size	"tlsf_heap::refitting::recut::<=5>", .Lfunc_end10-"tlsf_heap::refitting::recut::<=5>"
	.cfi_endproc
	.section	".text.tlsf_heap::heap::Heap::release_live::<=5>","ax",@progbits
	.p2align	2
	.type	"tlsf_heap::heap::Heap::release_live::<=5>",@function
"tlsf_heap::heap::Heap::release_live::<=5>":
	.cfi_startproc
	ldr	w4, [x1, #4]
	mov	x8, x0
	ldr	x12, [x0, #24]!
	ldur	w13, [x0, #-8]
	ubfiz	x9, x4, #3, #32
	add	x10, x12, x9
	ldr	x5, [x10]
	lsr	w11, w5, #2
	sub	w13, w13, w11
	stur	w13, [x0, #-8]
	tbnz	w5, #1, .LBB11_2
	add	w13, w11, w4
	ldr	x1, [x12, w13, uxtw #3]
	cbnz	w4, .LBB11_3
	b	.LBB11_4
.LBB11_2:
	mov	x1, xzr
	cbz	w4, .LBB11_4
.LBB11_3:
	lsr	x13, x5, #29
	and	x13, x13, #0x7fffffff8
	ldr	x2, [x12, x13]
	tbnz	w2, #0, .LBB11_8
.LBB11_4:
	ldr	x3, [x8, #8]
	tbnz	w1, #0, .LBB11_7
	orr	w12, w11, #0x20
	mov	w13, #26
	clz	w12, w12
	sub	w12, w13, w12
	orr	x13, x5, #0x1
	lsr	w11, w11, w12
	stp	x13, x3, [x10]
	ldr	x10, [x8, #8]
	add	w12, w11, w12, lsl #5
	add	x10, x10, #1
	add	x14, x8, w12, uxtw #2
	str	x10, [x8, #8]
	ldr	x10, [x8, #24]
	ldr	w13, [x14, #168]
	str	w4, [x14, #168]
	tbnz	w13, #31, .LBB11_9
	add	x9, x10, x9
	add	x10, x10, x13, lsl #3
	orr	x8, x13, #0xffffffff00000000
	str	x8, [x9, #16]
	str	w4, [x10, #20]
	ret
.LBB11_7:
	add	x9, x3, #1
	mov	x2, x5
	str	x9, [x8, #8]
	b	"tlsf_heap::fitting::merge_next::<=5>"
.LBB11_8:
	ldr	x3, [x8, #8]
	add	x9, x3, #1
	str	x9, [x8, #8]
	b	"tlsf_heap::fitting::merge_before::<=5>"
.LBB11_9:
	lsr	x12, x12, #5
	add	x9, x10, x9
	mov	x10, #-1
	str	x10, [x9, #16]
	mov	w10, #1
	add	x9, x8, x12, lsl #2
	ldr	w13, [x8, #80]
	lsl	w12, w10, w12
	lsl	w10, w10, w11
	ldr	w14, [x9, #84]
	orr	w11, w13, w12
	str	w11, [x8, #80]
	orr	w8, w14, w10
	str	w8, [x9, #84]
	ret
.Lfunc_end11:
	.size	"tlsf_heap::heap::Heap::release_live::<=5>", .Lfunc_end11-"tlsf_heap::heap::Heap::release_live::<=5>"
	.cfi_endproc
	.section	".text.tlsf_heap::fitting::merge_before::<=5>","ax",@progbits
	.p2align	2
	.type	"tlsf_heap::fitting::merge_before::<=5>",@function
"tlsf_heap::fitting::merge_before::<=5>":
	.cfi_startproc
	tbnz	w1, #0, .LBB12_4
	lsr	w14, w2, #2
	ldr	x13, [x0]
	and	x10, x5, #0xfffffffe
	add	x11, x2, x10
	sub	w8, w4, w14
	lsr	w10, w11, #2
	ubfiz	x9, x8, #3, #32
	add	x12, x13, x9
	ldr	x12, [x12, #16]
	tbnz	x12, #63, .LBB12_5
	lsr	x14, x12, #29
	mov	w15, w12
	mov	w17, #-1
	cmp	x15, x17
	and	x14, x14, #0x3fffffff8
	add	x14, x13, x14
	ldr	x16, [x14, #16]
	b.ne	.LBB12_8
	orr	x12, x16, #0xffffffff
	str	x12, [x14, #16]
	b	.LBB12_13
.LBB12_4:
	b	"tlsf_heap::fitting::merge_both::<=5>"
.LBB12_5:
	orr	w15, w14, #0x20
	orr	w16, w10, #0x20
	mov	w17, #26
	clz	w15, w15
	clz	w16, w16
	sub	w18, w17, w15
	sub	w16, w17, w16
	lsr	w15, w14, w18
	lsr	w17, w10, w16
	add	w14, w15, w18, lsl #5
	add	w16, w17, w16, lsl #5
	cmp	w14, w16
	b.ne	.LBB12_9
	lsr	w12, w4, #3
	ldr	x13, [x0, #24]
	neg	w14, w4
	mov	x15, #-2
	and	x12, x12, #0x1ffffff8
	ror	x14, x15, x14
	ldr	x15, [x13, x12]
	and	x14, x15, x14
	str	x14, [x13, x12]
	ldr	x12, [x0]
	add	x9, x12, x9
	stp	x11, x3, [x9]
	tbnz	w11, #1, .LBB12_18
	ldr	x9, [x0]
	add	w10, w10, w8
	add	x9, x9, w10, uxtw #3
	str	w8, [x9, #4]
	ret
.LBB12_8:
	and	x16, x16, #0xffffffff00000000
	add	x13, x13, x15, lsl #3
	ubfx	x12, x12, #32, #31
	orr	x15, x16, x15
	str	x15, [x14, #16]
	str	w12, [x13, #20]
	b	.LBB12_13
.LBB12_9:
	cmn	w12, #1
	b.eq	.LBB12_11
	ubfiz	x15, x12, #3, #32
	add	x14, x0, x14, lsl #2
	add	x13, x13, x15
	ldr	x15, [x13, #16]
	orr	x15, x15, #0xffffffff00000000
	str	x15, [x13, #16]
	str	w12, [x14, #144]
	b	.LBB12_13
.LBB12_11:
	lsr	x12, x14, #3
	add	x13, x0, x14, lsl #2
	mov	w16, #-1
	and	x12, x12, #0xffffffc
	str	w16, [x13, #144]
	add	x13, x0, x12
	mov	w12, #1
	ldr	w16, [x13, #60]
	lsl	w15, w12, w15
	bics	w15, w16, w15
	str	w15, [x13, #60]
	b.ne	.LBB12_13
	lsr	x13, x14, #5
	ldr	w14, [x0, #56]
	lsl	w12, w12, w13
	bic	w12, w14, w12
	str	w12, [x0, #56]
.LBB12_13:
	lsr	w12, w4, #3
	ldr	x13, [x0, #24]
	neg	w14, w4
	mov	x15, #-2
	and	x12, x12, #0x1ffffff8
	ror	x14, x15, x14
	ldr	x15, [x13, x12]
	and	x14, x15, x14
	str	x14, [x13, x12]
	ldr	x12, [x0]
	add	x12, x12, x9
	stp	x11, x3, [x12]
	tbnz	w11, #1, .LBB12_15
	ldr	x11, [x0]
	add	w12, w10, w8
	add	x11, x11, w12, uxtw #3
	str	w8, [x11, #4]
.LBB12_15:
	orr	w11, w10, #0x20
	mov	w12, #26
	clz	w11, w11
	sub	w11, w12, w11
	lsr	w10, w10, w11
	add	w12, w10, w11, lsl #5
	ldr	x11, [x0]
	add	x14, x0, w12, uxtw #2
	ldr	w13, [x14, #144]
	str	w8, [x14, #144]
	tbnz	w13, #31, .LBB12_17
	add	x9, x11, x9
	add	x11, x11, x13, lsl #3
	orr	x10, x13, #0xffffffff00000000
	str	x10, [x9, #16]
	str	w8, [x11, #20]
	ret
.LBB12_17:
	lsr	x8, x12, #5
	add	x9, x11, x9
	mov	x11, #-1
	str	x11, [x9, #16]
	mov	w11, #1
	add	x9, x0, x8, lsl #2
	ldr	w12, [x0, #56]
	lsl	w8, w11, w8
	lsl	w10, w11, w10
	ldr	w13, [x9, #60]
	orr	w8, w12, w8
	str	w8, [x0, #56]
	orr	w8, w13, w10
	str	w8, [x9, #60]
.LBB12_18:
	ret
.Lfunc_end12:
	.size	"tlsf_heap::fitting::merge_before::<=5>", .Lfunc_end12-"tlsf_heap::fitting::merge_before::<=5>"
	.cfi_endproc
	.section	".text.tlsf_heap::fitting::merge_both::<=5>","ax",@progbits
	.p2align	2
	.type	"tlsf_heap::fitting::merge_both::<=5>",@function
"tlsf_heap::fitting::merge_both::<=5>":
	.cfi_startproc
	add	w8, w4, w5, lsr #2
	ldr	x10, [x0]
	add	x8, x10, w8, uxtw #3
	ldr	x9, [x8, #16]
	lsr	w8, w1, #2
	tbnz	x9, #63, .LBB13_3
	lsr	x11, x9, #29
	cmn	w9, #1
	and	x11, x11, #0x3fffffff8
	add	x11, x10, x11
	ldr	x12, [x11, #16]
	b.eq	.LBB13_5
	bfxil	x12, x9, #0, #32
	add	x10, x10, w9, uxtw #3
	ubfx	x9, x9, #32, #31
	str	x12, [x11, #16]
	str	w9, [x10, #20]
	b	.LBB13_8
.LBB13_3:
	orr	w11, w8, #0x20
	mov	w12, #26
	cmn	w9, #1
	clz	w11, w11
	sub	w11, w12, w11
	lsr	w12, w8, w11
	add	w11, w12, w11, lsl #5
	b.eq	.LBB13_6
	ubfiz	x12, x9, #3, #32
	add	x11, x0, x11, lsl #2
	add	x10, x10, x12
	ldr	x12, [x10, #16]
	orr	x12, x12, #0xffffffff00000000
	str	x12, [x10, #16]
	str	w9, [x11, #144]
	b	.LBB13_8
.LBB13_5:
	orr	x9, x12, #0xffffffff
	str	x9, [x11, #16]
	b	.LBB13_8
.LBB13_6:
	lsr	x9, x11, #3
	add	x10, x0, x11, lsl #2
	mov	w13, #-1
	and	x9, x9, #0xffffffc
	str	w13, [x10, #144]
	add	x10, x0, x9
	mov	w9, #1
	ldr	w13, [x10, #60]
	lsl	w12, w9, w12
	bics	w12, w13, w12
	str	w12, [x10, #60]
	b.ne	.LBB13_8
	lsr	x10, x11, #5
	ldr	w11, [x0, #56]
	lsl	w9, w9, w10
	bic	w9, w11, w9
	str	w9, [x0, #56]
.LBB13_8:
	lsr	w13, w2, #2
	ldr	x12, [x0]
	sub	w9, w4, w13
	ubfiz	x10, x9, #3, #32
	add	x11, x12, x10
	ldr	x11, [x11, #16]
	tbnz	x11, #63, .LBB13_11
	lsr	x13, x11, #29
	cmn	w11, #1
	and	x13, x13, #0x3fffffff8
	add	x13, x12, x13
	ldr	x14, [x13, #16]
	b.eq	.LBB13_13
	bfxil	x14, x11, #0, #32
	add	x12, x12, w11, uxtw #3
	ubfx	x11, x11, #32, #31
	str	x14, [x13, #16]
	str	w11, [x12, #20]
	b	.LBB13_16
.LBB13_11:
	orr	w14, w13, #0x20
	mov	w15, #26
	cmn	w11, #1
	clz	w14, w14
	sub	w15, w15, w14
	lsr	w14, w13, w15
	add	w13, w14, w15, lsl #5
	b.eq	.LBB13_14
	ubfiz	x14, x11, #3, #32
	add	x13, x0, x13, lsl #2
	add	x12, x12, x14
	ldr	x14, [x12, #16]
	orr	x14, x14, #0xffffffff00000000
	str	x14, [x12, #16]
	str	w11, [x13, #144]
	b	.LBB13_16
.LBB13_13:
	orr	x11, x14, #0xffffffff
	str	x11, [x13, #16]
	b	.LBB13_16
.LBB13_14:
	lsr	x11, x13, #3
	add	x12, x0, x13, lsl #2
	mov	w15, #-1
	and	x11, x11, #0xffffffc
	str	w15, [x12, #144]
	add	x12, x0, x11
	mov	w11, #1
	ldr	w15, [x12, #60]
	lsl	w14, w11, w14
	bics	w14, w15, w14
	str	w14, [x12, #60]
	b.ne	.LBB13_16
	lsr	x12, x13, #5
	ldr	w13, [x0, #56]
	lsl	w11, w11, w12
	bic	w11, w13, w11
	str	w11, [x0, #56]
.LBB13_16:
	add	w11, w5, w1
	lsr	w12, w4, #3
	ldr	x14, [x0, #24]
	add	x11, x2, x11
	neg	w15, w4
	mov	x16, #-2
	sub	x13, x11, #1
	and	x17, x12, #0x1ffffff8
	ror	x15, x16, x15
	lsr	w11, w13, #2
	ldr	x18, [x14, x17]
	add	w12, w11, w9
	and	x15, x18, x15
	str	x15, [x14, x17]
	sub	w8, w12, w8
	ldr	x15, [x0, #24]
	lsr	w14, w8, #3
	neg	w8, w8
	ror	x8, x16, x8
	and	x14, x14, #0x1ffffff8
	ldr	x16, [x15, x14]
	and	x8, x16, x8
	str	x8, [x15, x14]
	ldr	x8, [x0]
	add	x8, x8, x10
	stp	x13, x3, [x8]
	tbnz	w13, #1, .LBB13_18
	ldr	x8, [x0]
	add	x8, x8, w12, uxtw #3
	str	w9, [x8, #4]
.LBB13_18:
	orr	w8, w11, #0x20
	mov	w12, #26
	clz	w8, w8
	sub	w12, w12, w8
	lsr	w8, w11, w12
	ldr	x11, [x0]
	add	w12, w8, w12, lsl #5
	add	x14, x0, w12, uxtw #2
	ldr	w13, [x14, #144]
	str	w9, [x14, #144]
	tbnz	w13, #31, .LBB13_20
	add	x10, x11, x10
	add	x11, x11, x13, lsl #3
	orr	x8, x13, #0xffffffff00000000
	str	x8, [x10, #16]
	str	w9, [x11, #20]
	ret
.LBB13_20:
	lsr	x9, x12, #5
	add	x10, x11, x10
	mov	x11, #-1
	str	x11, [x10, #16]
	mov	w11, #1
	add	x10, x0, x9, lsl #2
	ldr	w12, [x0, #56]
	lsl	w9, w11, w9
	lsl	w8, w11, w8
	ldr	w13, [x10, #60]
	orr	w9, w12, w9
	str	w9, [x0, #56]
	orr	w8, w13, w8
	str	w8, [x10, #60]
	ret
.Lfunc_end13:
	.size	"tlsf_heap::fitting::merge_both::<=5>", .Lfunc_end13-"tlsf_heap::fitting::merge_both::<=5>"
	.cfi_endproc
	.section	".text.tlsf_heap::fitting::merge_next::<=5>","ax",@progbits
	.p2align	2
	.type	"tlsf_heap::fitting::merge_next::<=5>",@function
"tlsf_heap::fitting::merge_next::<=5>":
	.cfi_startproc
	add	w8, w4, w2, lsr #2
	ldr	x10, [x0]
	add	x8, x10, w8, uxtw #3
	ldr	x9, [x8, #16]
	lsr	w8, w1, #2
	tbnz	x9, #63, .LBB14_3
	lsr	x11, x9, #29
	cmn	w9, #1
	and	x11, x11, #0x3fffffff8
	add	x11, x10, x11
	ldr	x12, [x11, #16]
	b.eq	.LBB14_5
	bfxil	x12, x9, #0, #32
	add	x10, x10, w9, uxtw #3
	ubfx	x9, x9, #32, #31
	str	x12, [x11, #16]
	str	w9, [x10, #20]
	b	.LBB14_8
.LBB14_3:
	orr	w11, w8, #0x20
	mov	w12, #26
	cmn	w9, #1
	clz	w11, w11
	sub	w11, w12, w11
	lsr	w12, w8, w11
	add	w11, w12, w11, lsl #5
	b.eq	.LBB14_6
	ubfiz	x12, x9, #3, #32
	add	x11, x0, x11, lsl #2
	add	x10, x10, x12
	ldr	x12, [x10, #16]
	orr	x12, x12, #0xffffffff00000000
	str	x12, [x10, #16]
	str	w9, [x11, #144]
	b	.LBB14_8
.LBB14_5:
	orr	x9, x12, #0xffffffff
	str	x9, [x11, #16]
	b	.LBB14_8
.LBB14_6:
	lsr	x9, x11, #3
	add	x10, x0, x11, lsl #2
	mov	w13, #-1
	and	x9, x9, #0xffffffc
	str	w13, [x10, #144]
	add	x10, x0, x9
	mov	w9, #1
	ldr	w13, [x10, #60]
	lsl	w12, w9, w12
	bics	w12, w13, w12
	str	w12, [x10, #60]
	b.ne	.LBB14_8
	lsr	x10, x11, #5
	ldr	w11, [x0, #56]
	lsl	w9, w9, w10
	bic	w9, w11, w9
	str	w9, [x0, #56]
.LBB14_8:
	add	x12, x2, w1, uxtw
	ldr	x13, [x0, #24]
	mov	x14, #-2
	lsr	w9, w12, #2
	add	w11, w9, w4
	sub	w8, w11, w8
	lsr	w10, w8, #3
	neg	w8, w8
	ror	x8, x14, x8
	and	x10, x10, #0x1ffffff8
	ldr	x14, [x13, x10]
	and	x8, x14, x8
	str	x8, [x13, x10]
	ubfiz	x8, x4, #3, #32
	ldr	x10, [x0]
	add	x13, x10, x8
	mov	w10, w4
	stp	x12, x3, [x13]
	tbnz	w12, #1, .LBB14_10
	ldr	x12, [x0]
	add	x11, x12, w11, uxtw #3
	str	w10, [x11, #4]
.LBB14_10:
	orr	w11, w9, #0x20
	mov	w12, #26
	clz	w11, w11
	sub	w11, w12, w11
	lsr	w9, w9, w11
	add	w12, w9, w11, lsl #5
	ldr	x11, [x0]
	add	x14, x0, w12, uxtw #2
	ldr	w13, [x14, #144]
	str	w4, [x14, #144]
	tbnz	w13, #31, .LBB14_12
	add	x8, x11, x8
	add	x11, x11, x13, lsl #3
	orr	x9, x13, #0xffffffff00000000
	str	x9, [x8, #16]
	str	w10, [x11, #20]
	ret
.LBB14_12:
	lsr	x10, x12, #5
	add	x8, x11, x8
	mov	x11, #-1
	str	x11, [x8, #16]
	mov	w11, #1
	add	x8, x0, x10, lsl #2
	ldr	w12, [x0, #56]
	lsl	w10, w11, w10
	lsl	w9, w11, w9
	ldr	w13, [x8, #60]
	orr	w10, w12, w10
	str	w10, [x0, #56]
	orr	w9, w13, w9
	str	w9, [x8, #60]
	ret
.Lfunc_end14:
	.size	"tlsf_heap::fitting::merge_next::<=5>", .Lfunc_end14-"tlsf_heap::fitting::merge_next::<=5>"
	.cfi_endproc
	.section	".text.tlsf_heap::check::examine","ax",@progbits
	.p2align	2
	.type	"tlsf_heap::check::examine",@function
"tlsf_heap::check::examine":
	.cfi_startproc
	ldr	w14, [x0, #8]
	sub	w10, w14, #4
	cmp	w1, w10
	b.hi	.LBB15_29
	lsr	w8, w1, #3
	ldr	x11, [x0, #24]
	and	x8, x8, #0x1ffffff8
	ldr	x8, [x11, x8]
	lsr	x8, x8, x1
	tbz	w8, #0, .LBB15_29
	ldr	x9, [x0]
	mov	w2, wzr
	add	x12, x9, w1, uxtw #3
	ldr	x15, [x12]
	cmp	w15, #16
	b.lo	.LBB15_17
	lsr	w13, w15, #2
	mov	w0, w2
	add	w8, w13, w1
	cmp	w8, w14
	b.hi	.LBB15_30
	ubfx	x16, x15, #1, #1
	cset	w17, eq
	eor	w16, w16, w17
	tbnz	w16, #0, .LBB15_29
	lsr	x16, x15, #32
	cbz	w1, .LBB15_9
	cmp	w10, w16
	b.lo	.LBB15_29
	lsr	x17, x15, #35
	and	x17, x17, #0x1ffffff8
	ldr	x17, [x11, x17]
	lsr	x17, x17, x16
	tbz	w17, #0, .LBB15_29
	ldr	x17, [x9, x16, lsl #3]
	add	w16, w16, w17, lsr #2
	cmp	w16, w1
	b.eq	.LBB15_10
	b	.LBB15_29
.LBB15_9:
	mov	w17, #-1
	cmp	x16, x17
	b.ne	.LBB15_29
.LBB15_10:
	cmp	w8, w14
	and	x14, x15, #0x1
	b.hs	.LBB15_15
	cmp	w8, w10
	b.hi	.LBB15_29
	lsr	w15, w8, #3
	and	x15, x15, #0x1ffffff8
	ldr	x15, [x11, x15]
	lsr	x15, x15, x8
	tbz	w15, #0, .LBB15_29
	ldr	x15, [x9, w8, uxtw #3]
	mov	w2, wzr
	lsr	x16, x15, #32
	cmp	w1, w16
	b.ne	.LBB15_17
	and	x15, x14, x15
	mov	w0, w2
	cbnz	x15, .LBB15_30
.LBB15_15:
	cbnz	x14, .LBB15_18
	add	w10, w1, #2
	ubfiz	x11, x13, #3, #32
	ldr	x9, [x9, w10, uxtw #3]
	sub	x10, x11, #24
	cmp	x9, x10
	b.hi	.LBB15_29
	b	.LBB15_24
.LBB15_17:
	mov	w0, w2
	mov	w1, w2
	ret
.LBB15_18:
	ldr	x12, [x12, #16]
	cmn	w12, #1
	b.eq	.LBB15_23
	cmp	w10, w12
	b.lo	.LBB15_29
	lsr	x13, x12, #3
	and	x13, x13, #0x1ffffff8
	ldr	x13, [x11, x13]
	lsr	x13, x13, x12
	tbz	w13, #0, .LBB15_29
	ubfiz	x13, x12, #3, #32
	add	x13, x9, x13
	ldrb	w14, [x13]
	tbz	w14, #0, .LBB15_29
	ldr	w13, [x13, #20]
	cmp	w1, w13
	b.ne	.LBB15_29
.LBB15_23:
	lsr	x13, x12, #32
	mov	w14, #-1
	cmp	x13, x14
	b.ne	.LBB15_25
.LBB15_24:
	mov	w0, #1
	mov	w1, w8
	ret
.LBB15_25:
	cmp	w10, w13
	b.lo	.LBB15_29
	lsr	x10, x12, #35
	and	x10, x10, #0x1ffffff8
	ldr	x10, [x11, x10]
	lsr	x10, x10, x13
	tbz	w10, #0, .LBB15_29
	add	x9, x9, x13, lsl #3
	ldr	x10, [x9]
	tbz	w10, #0, .LBB15_29
	ldr	w9, [x9, #16]
	cmp	w1, w9
	b.eq	.LBB15_24
.LBB15_29:
	mov	w2, wzr
	mov	w0, wzr
.LBB15_30:
	mov	w1, w2
	ret
.Lfunc_end15:
	.size	"tlsf_heap::check::examine", .Lfunc_end15-"tlsf_heap::check::examine"
	.cfi_endproc
	.section	".text.tlsf_heap::around::check_taken","ax",@progbits
	.p2align	2
	.type	"tlsf_heap::around::check_taken",@function
"tlsf_heap::around::check_taken":
	.cfi_startproc
	stp	x29, x30, [sp, #-64]!
	.cfi_def_cfa_offset 64
	str	x23, [sp, #16]
	stp	x22, x21, [sp, #32]
	stp	x20, x19, [sp, #48]
	mov	x29, sp
	.cfi_def_cfa w29, 64
	.cfi_offset w19, -8
	.cfi_offset w20, -16
	.cfi_offset w21, -24
	.cfi_offset w22, -32
	.cfi_offset w23, -48
	.cfi_offset w30, -56
	.cfi_offset w29, -64
	.cfi_remember_state
	ldr	w21, [x0, #8]
	sub	w8, w21, #4
	cmp	w1, w8
	b.ls	.LBB16_3
	mov	w0, #1
.LBB16_2:
	.cfi_def_cfa wsp, 64
	ldp	x20, x19, [sp, #48]
	ldr	x23, [sp, #16]
	ldp	x22, x21, [sp, #32]
	ldp	x29, x30, [sp], #64
	.cfi_def_cfa_offset 0
	.cfi_restore w19
	.cfi_restore w20
	.cfi_restore w21
	.cfi_restore w22
	.cfi_restore w23
	.cfi_restore w30
	.cfi_restore w29
	ret
.LBB16_3:
	.cfi_restore_state
	.cfi_remember_state
	lsr	w8, w1, #3
	ldr	x9, [x0, #24]
	and	x8, x8, #0x1ffffff8
	ldr	x8, [x9, x8]
	lsr	x8, x8, x1
	tbz	w8, #0, .LBB16_11
	ldr	x9, [x0]
	mov	x8, x0
	mov	w0, #1
	ldr	x22, [x9, w1, uxtw #3]
	tbz	w22, #0, .LBB16_2
	lsr	w9, w22, #2
	cmp	w9, w2
	b.lo	.LBB16_2
	mov	x0, x8
	mov	x19, x8
	mov	x23, x1
	bl	"tlsf_heap::check::examine"
	and	w8, w0, #0xff
	cmp	w8, #1
	b.ne	.LBB16_12
	mov	w20, w1
	cbz	w23, .LBB16_9
	lsr	x8, x22, #32
	mov	x0, x19
	mov	w1, w8
	mov	x22, x1
	bl	"tlsf_heap::check::examine"
	and	w8, w0, #0xff
	cmp	w8, #1
	b.ne	.LBB16_14
.LBB16_9:
	cmp	w20, w21
	b.ne	.LBB16_13
	mov	w1, wzr
	mov	w0, wzr
	.cfi_def_cfa wsp, 64
	ldp	x20, x19, [sp, #48]
	ldr	x23, [sp, #16]
	ldp	x22, x21, [sp, #32]
	ldp	x29, x30, [sp], #64
	.cfi_def_cfa_offset 0
	.cfi_restore w19
	.cfi_restore w20
	.cfi_restore w21
	.cfi_restore w22
	.cfi_restore w23
	.cfi_restore w30
	.cfi_restore w29
	ret
.LBB16_11:
	.cfi_restore_state
	.cfi_remember_state
	mov	w0, #1
	.cfi_def_cfa wsp, 64
	ldp	x20, x19, [sp, #48]
	ldr	x23, [sp, #16]
	ldp	x22, x21, [sp, #32]
	ldp	x29, x30, [sp], #64
	.cfi_def_cfa_offset 0
	.cfi_restore w19
	.cfi_restore w20
	.cfi_restore w21
	.cfi_restore w22
	.cfi_restore w23
	.cfi_restore w30
	.cfi_restore w29
	ret
.LBB16_12:
	.cfi_restore_state
	.cfi_remember_state
	mov	w0, #1
	mov	x1, x23
	.cfi_def_cfa wsp, 64
	ldp	x20, x19, [sp, #48]
	ldr	x23, [sp, #16]
	ldp	x22, x21, [sp, #32]
	ldp	x29, x30, [sp], #64
	.cfi_def_cfa_offset 0
	.cfi_restore w19
	.cfi_restore w20
	.cfi_restore w21
	.cfi_restore w22
	.cfi_restore w23
	.cfi_restore w30
	.cfi_restore w29
	ret
.LBB16_13:
	.cfi_restore_state
	.cfi_remember_state
	mov	x0, x19
	mov	w1, w20
	bl	"tlsf_heap::check::examine"
	and	w8, w0, #0xff
	mov	w1, w20
	cmp	w8, #1
	cset	w0, ne
	.cfi_def_cfa wsp, 64
	ldp	x20, x19, [sp, #48]
	ldr	x23, [sp, #16]
	ldp	x22, x21, [sp, #32]
	ldp	x29, x30, [sp], #64
	.cfi_def_cfa_offset 0
	.cfi_restore w19
	.cfi_restore w20
	.cfi_restore w21
	.cfi_restore w22
	.cfi_restore w23
	.cfi_restore w30
	.cfi_restore w29
	ret
.LBB16_14:
	.cfi_restore_state
	mov	w0, #1
	mov	x1, x22
	.cfi_def_cfa wsp, 64
	ldp	x20, x19, [sp, #48]
	ldr	x23, [sp, #16]
	ldp	x22, x21, [sp, #32]
	ldp	x29, x30, [sp], #64
	.cfi_def_cfa_offset 0
	.cfi_restore w19
	.cfi_restore w20
	.cfi_restore w21
	.cfi_restore w22
	.cfi_restore w23
	.cfi_restore w30
	.cfi_restore w29
	ret
.Lfunc_end16:
	.size	"tlsf_heap::around::check_taken", .Lfunc_end16-"tlsf_heap::around::check_taken"
	.cfi_endproc
	.section	".text.tlsf_post::take_end::TakeEnd::take_slice","ax",@progbits
	.p2align	2
	.type	"tlsf_post::take_end::TakeEnd::take_slice",@function
"tlsf_post::take_end::TakeEnd::take_slice":
	.cfi_startproc
	ldp	x10, x9, [x0, #16]
	mov	x8, x0
	ldr	x11, [x0, #32]
	lsl	x12, x10, #1
	subs	x11, x11, x9
	csel	x12, x12, xzr, lo
	add	x11, x11, x12
	cmp	x11, x2
	b.hs	.LBB17_2
	ldr	x9, [x8]
	add	x9, x9, #128
	ldar	x11, [x9]
	ldp	x10, x9, [x8, #16]
	str	x11, [x8, #32]
	lsl	x12, x10, #1
	subs	x13, x11, x9
	csel	x12, x12, xzr, lo
	add	x12, x13, x12
	cmp	x12, x2
	csel	x2, x12, x2, lo
.LBB17_2:
	cbz	x2, .LBB17_10
	cmp	x9, x10
	csel	x13, xzr, x10, lo
	sub	x12, x9, x13
	subs	x11, x10, x12
	cmp	x11, x2
	csel	x11, x11, x2, lo
	subs	x12, x10, x12
	b.eq	.LBB17_6
	mov	w14, #24
	mul	x15, x9, x14
	msub	x13, x13, x14, x15
	mov	x14, x1
	mov	x15, x11
.LBB17_5:
	ldr	x16, [x8, #8]
	subs	x15, x15, #1
	add	x16, x16, x13
	add	x13, x13, #24
	ldr	x17, [x16, #16]
	ldr	q0, [x16]
	str	x17, [x14, #16]
	str	q0, [x14], #24
	b.ne	.LBB17_5
.LBB17_6:
	cmp	x2, x12
	b.ls	.LBB17_9
	mov	w13, #24
	mov	x12, xzr
	madd	x13, x11, x13, x1
	sub	x11, x2, x11
.LBB17_8:
	ldr	x14, [x8, #8]
	add	x16, x13, x12
	subs	x11, x11, #1
	add	x14, x14, x12
	add	x12, x12, #24
	ldr	x15, [x14, #16]
	ldr	q0, [x14]
	str	x15, [x16, #16]
	str	q0, [x16]
	b.ne	.LBB17_8
.LBB17_9:
	lsl	x10, x10, #1
	sub	x10, x10, x9
	cmp	x2, x10
	csneg	x9, x9, x10, lo
	ldr	x10, [x8]
	add	x9, x9, x2
	stlr	x9, [x10]
.LBB17_10:
	mov	x0, x2
	str	x9, [x8, #24]
	ret
.Lfunc_end17:
	.size	"tlsf_post::take_end::TakeEnd::take_slice", .Lfunc_end17-"tlsf_post::take_end::TakeEnd::take_slice"
	.cfi_endproc
	.section	".text.tlsf_c::heap_calls::release_named","ax",@progbits
	.p2align	2
	.type	"tlsf_c::heap_calls::release_named",@function
"tlsf_c::heap_calls::release_named":
	.cfi_startproc
	stp	x29, x30, [sp, #-32]!
	.cfi_def_cfa_offset 32
	str	x19, [sp, #16]
	mov	x29, sp
	.cfi_def_cfa w29, 32
	.cfi_offset w19, -16
	.cfi_offset w30, -24
	.cfi_offset w29, -32
	.cfi_remember_state
	ldrb	w8, [x0, #8]
	cbz	w8, .LBB18_26
	ldr	x19, [x0]
	ldrb	w8, [x19]
	tbz	w8, #0, .LBB18_26
	ldr	w8, [x19, #24]
	ldrb	w9, [x19, #16]
	mov	w4, w3
	strb	wzr, [x19]
	cmp	w1, w8
	cbz	w9, .LBB18_11
	b.ne	.LBB18_35
	ldr	w8, [x19, #56]
	cmp	w4, w8
	b.hs	.LBB18_20
	lsr	w8, w4, #3
	ldr	x9, [x19, #72]
	and	x8, x8, #0x1ffffff8
	ldr	x8, [x9, x8]
	lsr	x8, x8, x4
	tbz	w8, #0, .LBB18_20
	mov	w8, w4
	ldur	x10, [x19, #48]
	ubfiz	x8, x8, #3, #32
	add	x9, x10, x8
	ldr	x5, [x9]
	tbnz	w5, #0, .LBB18_20
	ldr	x11, [x9, #8]
	cmp	x11, x2
	b.ne	.LBB18_20
	ldr	x3, [x19, #32]
	cmn	x3, #1
	b.eq	.LBB18_19
	lsr	w11, w5, #2
	ldr	w12, [x19, #40]
	sub	w12, w12, w11
	str	w12, [x19, #40]
	tbnz	w5, #1, .LBB18_21
	add	w12, w11, w4
	ldr	x1, [x10, w12, uxtw #3]
	cbnz	w4, .LBB18_22
	b	.LBB18_23
.LBB18_11:
	b.ne	.LBB18_35
	ldr	w8, [x19, #56]
	cmp	w4, w8
	b.hs	.LBB18_20
	lsr	w8, w4, #3
	ldr	x9, [x19, #72]
	and	x8, x8, #0x1ffffff8
	ldr	x8, [x9, x8]
	lsr	x8, x8, x4
	tbz	w8, #0, .LBB18_20
	mov	w8, w4
	ldur	x10, [x19, #48]
	ubfiz	x8, x8, #3, #32
	add	x9, x10, x8
	ldr	x5, [x9]
	tbnz	w5, #0, .LBB18_20
	ldr	x11, [x9, #8]
	cmp	x11, x2
	b.ne	.LBB18_20
	ldr	x3, [x19, #32]
	cmn	x3, #1
	b.eq	.LBB18_19
	lsr	w11, w5, #2
	ldr	w12, [x19, #40]
	sub	w12, w12, w11
	str	w12, [x19, #40]
	tbnz	w5, #1, .LBB18_29
	add	w12, w11, w4
	ldr	x1, [x10, w12, uxtw #3]
	cbnz	w4, .LBB18_30
	b	.LBB18_31
.LBB18_19:
	mov	w0, #2
	mov	w8, #1
	strb	w8, [x19]
	.cfi_def_cfa wsp, 32
	ldr	x19, [sp, #16]
	ldp	x29, x30, [sp], #32
	.cfi_def_cfa_offset 0
	.cfi_restore w19
	.cfi_restore w30
	.cfi_restore w29
	ret
.LBB18_20:
	.cfi_restore_state
	.cfi_remember_state
	mov	w0, w1
	b	.LBB18_36
.LBB18_21:
	mov	x1, xzr
	cbz	w4, .LBB18_23
.LBB18_22:
	lsr	x12, x5, #29
	and	x12, x12, #0x7fffffff8
	ldr	x2, [x10, x12]
	tbnz	w2, #0, .LBB18_28
.LBB18_23:
	tbnz	w1, #0, .LBB18_27
	orr	w10, w11, #0x20
	mov	w12, #26
	orr	x13, x5, #0x1
	clz	w10, w10
	stp	x13, x3, [x9]
	sub	w12, w12, w10
	ldr	x9, [x19, #32]
	lsr	w10, w11, w12
	add	x9, x9, #1
	add	w11, w10, w12, lsl #5
	str	x9, [x19, #32]
	ldr	x9, [x19, #48]
	add	x13, x19, w11, uxtw #2
	ldr	w12, [x13, #192]
	str	w4, [x13, #192]
	tbz	w12, #31, .LBB18_33
	lsr	x11, x11, #5
	add	x8, x9, x8
	mov	x9, #-1
	str	x9, [x8, #16]
	mov	w9, #1
	mov	w0, wzr
	add	x8, x19, x11, lsl #2
	ldr	w12, [x19, #104]
	lsl	w11, w9, w11
	lsl	w9, w9, w10
	ldr	w13, [x8, #108]
	orr	w10, w12, w11
	str	w10, [x19, #104]
	orr	w9, w13, w9
	str	w9, [x8, #108]
	mov	w8, #1
	strb	w8, [x19]
	.cfi_def_cfa wsp, 32
	ldr	x19, [sp, #16]
	ldp	x29, x30, [sp], #32
	.cfi_def_cfa_offset 0
	.cfi_restore w19
	.cfi_restore w30
	.cfi_restore w29
	ret
.LBB18_26:
	.cfi_restore_state
	.cfi_remember_state
	mov	w0, wzr
	.cfi_def_cfa wsp, 32
	ldr	x19, [sp, #16]
	ldp	x29, x30, [sp], #32
	.cfi_def_cfa_offset 0
	.cfi_restore w19
	.cfi_restore w30
	.cfi_restore w29
	b	"tlsf_c::call_fault::CallFault::refusal"
.LBB18_27:
	.cfi_restore_state
	.cfi_remember_state
	add	x8, x3, #1
	add	x0, x19, #48
	mov	x2, x5
	str	x8, [x19, #32]
	bl	"tlsf_heap::fitting::merge_next::<=5>"
	mov	w0, wzr
	mov	w8, #1
	strb	w8, [x19]
	.cfi_def_cfa wsp, 32
	ldr	x19, [sp, #16]
	ldp	x29, x30, [sp], #32
	.cfi_def_cfa_offset 0
	.cfi_restore w19
	.cfi_restore w30
	.cfi_restore w29
	ret
.LBB18_28:
	.cfi_restore_state
	.cfi_remember_state
	add	x8, x3, #1
	add	x0, x19, #48
	str	x8, [x19, #32]
	bl	"tlsf_heap::fitting::merge_before::<=5>"
	mov	w0, wzr
	mov	w8, #1
	strb	w8, [x19]
	.cfi_def_cfa wsp, 32
	ldr	x19, [sp, #16]
	ldp	x29, x30, [sp], #32
	.cfi_def_cfa_offset 0
	.cfi_restore w19
	.cfi_restore w30
	.cfi_restore w29
	ret
.LBB18_29:
	.cfi_restore_state
	.cfi_remember_state
	mov	x1, xzr
	cbz	w4, .LBB18_31
.LBB18_30:
	lsr	x12, x5, #29
	and	x12, x12, #0x7fffffff8
	ldr	x2, [x10, x12]
	tbnz	w2, #0, .LBB18_37
.LBB18_31:
	tbnz	w1, #0, .LBB18_34
	orr	w10, w11, #0x10
	mov	w12, #27
	orr	x13, x5, #0x1
	clz	w10, w10
	stp	x13, x3, [x9]
	sub	w12, w12, w10
	ldr	x9, [x19, #32]
	lsr	w10, w11, w12
	add	x9, x9, #1
	add	w11, w10, w12, lsl #4
	str	x9, [x19, #32]
	ldr	x9, [x19, #48]
	add	x13, x19, w11, uxtw #2
	ldr	w12, [x13, #192]
	str	w4, [x13, #192]
	tbnz	w12, #31, .LBB18_38
.LBB18_33:
	add	x8, x9, x8
	add	x9, x9, x12, lsl #3
	mov	w0, wzr
	orr	x10, x12, #0xffffffff00000000
	mov	w11, w4
	str	x10, [x8, #16]
	str	w11, [x9, #20]
	mov	w8, #1
	strb	w8, [x19]
	.cfi_def_cfa wsp, 32
	ldr	x19, [sp, #16]
	ldp	x29, x30, [sp], #32
	.cfi_def_cfa_offset 0
	.cfi_restore w19
	.cfi_restore w30
	.cfi_restore w29
	ret
.LBB18_34:
	.cfi_restore_state
	.cfi_remember_state
	add	x8, x3, #1
	add	x0, x19, #48
	mov	x2, x5
	str	x8, [x19, #32]
	bl	"tlsf_heap::fitting::merge_next::<=4>"
	mov	w0, wzr
	mov	w8, #1
	strb	w8, [x19]
	.cfi_def_cfa wsp, 32
	ldr	x19, [sp, #16]
	ldp	x29, x30, [sp], #32
	.cfi_def_cfa_offset 0
	.cfi_restore w19
	.cfi_restore w30
	.cfi_restore w29
	ret
.LBB18_35:
	.cfi_restore_state
	.cfi_remember_state
	mov	w0, w1
	mov	w1, w8
.LBB18_36:
	bl	"tlsf_heap::refusal::Refusal::of_name"
	and	w8, w0, #0xff
	cmp	w8, #3
	mov	w8, #3
	cinc	w0, w8, eq
	mov	w8, #1
	strb	w8, [x19]
	.cfi_def_cfa wsp, 32
	ldr	x19, [sp, #16]
	ldp	x29, x30, [sp], #32
	.cfi_def_cfa_offset 0
	.cfi_restore w19
	.cfi_restore w30
	.cfi_restore w29
	ret
.LBB18_37:
	.cfi_restore_state
	.cfi_remember_state
	add	x8, x3, #1
	add	x0, x19, #48
	str	x8, [x19, #32]
	bl	"tlsf_heap::fitting::merge_before::<=4>"
	mov	w0, wzr
	mov	w8, #1
	strb	w8, [x19]
	.cfi_def_cfa wsp, 32
	ldr	x19, [sp, #16]
	ldp	x29, x30, [sp], #32
	.cfi_def_cfa_offset 0
	.cfi_restore w19
	.cfi_restore w30
	.cfi_restore w29
	ret
.LBB18_38:
	.cfi_restore_state
	lsr	x11, x11, #4
	add	x8, x9, x8
	mov	x9, #-1
	str	x9, [x8, #16]
	mov	w9, #1
	and	w10, w10, #0xf
	add	x8, x19, x11, lsl #2
	ldr	w12, [x19, #104]
	lsl	w11, w9, w11
	lsl	w9, w9, w10
	mov	w0, wzr
	ldr	w10, [x8, #108]
	orr	w11, w12, w11
	str	w11, [x19, #104]
	orr	w9, w10, w9
	str	w9, [x8, #108]
	mov	w8, #1
	strb	w8, [x19]
	.cfi_def_cfa wsp, 32
	ldr	x19, [sp, #16]
	ldp	x29, x30, [sp], #32
	.cfi_def_cfa_offset 0
	.cfi_restore w19
	.cfi_restore w30
	.cfi_restore w29
	ret
.Lfunc_end18:
	.size	"tlsf_c::heap_calls::release_named", .Lfunc_end18-"tlsf_c::heap_calls::release_named"
	.cfi_endproc
	.section	".text.unlikely.tlsf_heap::refusal::Refusal::of_name","ax",@progbits
	.p2align	2
	.type	"tlsf_heap::refusal::Refusal::of_name",@function
"tlsf_heap::refusal::Refusal::of_name":
	.cfi_startproc
	mov	w8, #2
	cmp	w0, w1
	cinc	w0, w8, eq
	ret
.Lfunc_end19:
	.size	"tlsf_heap::refusal::Refusal::of_name", .Lfunc_end19-"tlsf_heap::refusal::Refusal::of_name"
	.cfi_endproc
	.section	".text.std_alloc::boxed::Box::new::<#91a8e04f462e8cea>","ax",@progbits
	.p2align	2
	.type	"std_alloc::boxed::Box::new::<#91a8e04f462e8cea>",@function
"std_alloc::boxed::Box::new::<#91a8e04f462e8cea>":
	.cfi_startproc
	sub	sp, sp, #96
	.cfi_def_cfa_offset 96
	stp	x29, x30, [sp, #48]
	str	x21, [sp, #64]
	stp	x20, x19, [sp, #80]
	add	x29, sp, #48
	.cfi_def_cfa w29, 48
	.cfi_offset w19, -8
	.cfi_offset w20, -16
	.cfi_offset w21, -32
	.cfi_offset w30, -40
	.cfi_offset w29, -48
	.cfi_remember_state
	ldur	q0, [x1, #8]
	ldur	q1, [x1, #24]
	mov	x19, x0
	ldr	x8, [x1, #40]
	ldrb	w21, [x1]
	mov	w0, #48
	ldrb	w20, [x1, #1]
	mov	w1, #8
	stp	q0, q1, [sp]
	str	x8, [sp, #32]
	bl	tlsf_memory_alloc
	tbz	w0, #0, .LBB20_2
	movi	v2.2d, #0000000000000000
	ldp	q0, q1, [sp]
	ldr	x9, [sp, #32]
	strb	w21, [x1]
	strb	w20, [x1, #1]
	stur	q0, [x1, #8]
	stur	q1, [x1, #24]
	str	x9, [x1, #40]
	str	xzr, [x19, #48]
	stp	q2, q2, [x19, #16]
	stp	xzr, x1, [x19]
	.cfi_def_cfa wsp, 96
	ldp	x20, x19, [sp, #80]
	ldr	x21, [sp, #64]
	ldp	x29, x30, [sp, #48]
	add	sp, sp, #96
	.cfi_def_cfa_offset 0
	.cfi_restore w19
	.cfi_restore w20
	.cfi_restore w21
	.cfi_restore w30
	.cfi_restore w29
	ret
.LBB20_2:
	.cfi_restore_state
	ldp	q0, q1, [sp]
	orr	x1, x21, x20, lsl #8
	ldr	x8, [sp, #32]
	str	x8, [x19, #48]
	mov	w8, #1
	stp	q0, q1, [x19, #16]
	stp	x8, x1, [x19]
	.cfi_def_cfa wsp, 96
	ldp	x20, x19, [sp, #80]
	ldr	x21, [sp, #64]
	ldp	x29, x30, [sp, #48]
	add	sp, sp, #96
	.cfi_def_cfa_offset 0
	.cfi_restore w19
	.cfi_restore w20
	.cfi_restore w21
	.cfi_restore w30
	.cfi_restore w29
	ret
.Lfunc_end20:
	.size	"std_alloc::boxed::Box::new::<#91a8e04f462e8cea>", .Lfunc_end20-"std_alloc::boxed::Box::new::<#91a8e04f462e8cea>"
	.cfi_endproc
	.section	".text.rtrb::release::drop_slow::<#23d795680250cb0d>","ax",@progbits
	.p2align	2
	.type	"rtrb::release::drop_slow::<#23d795680250cb0d>",@function
"rtrb::release::drop_slow::<#23d795680250cb0d>":
	.cfi_startproc
	stp	x29, x30, [sp, #-32]!
	.cfi_def_cfa_offset 32
	str	x19, [sp, #16]
	mov	x29, sp
	.cfi_def_cfa w29, 32
	.cfi_offset w19, -16
	.cfi_offset w30, -24
	.cfi_offset w29, -32
	add	x9, x0, #128
	mov	x19, x0
	ldar	x8, [x0]
	mov	x0, x1
	ldar	x9, [x9]
	cmp	x8, x9
	b.eq	.LBB21_3
	lsl	x10, x2, #1
	sub	x10, x10, #1
.LBB21_2:
	cmp	x8, x10
	csinc	x8, xzr, x8, hs
	stlr	x8, [x19]
	cmp	x8, x9
	b.ne	.LBB21_2
.LBB21_3:
	bl	tlsf_memory_dealloc
	mov	x0, x19
	.cfi_def_cfa wsp, 32
	ldr	x19, [sp, #16]
	ldp	x29, x30, [sp], #32
	.cfi_def_cfa_offset 0
	.cfi_restore w19
	.cfi_restore w30
	.cfi_restore w29
	b	tlsf_memory_dealloc
.Lfunc_end21:
	.size	"rtrb::release::drop_slow::<#23d795680250cb0d>", .Lfunc_end21-"rtrb::release::drop_slow::<#23d795680250cb0d>"
	.cfi_endproc
	.section	".text.std_alloc::vec::Vec::drop::<#7ac45d8413b9ad54>","ax",@progbits
	.p2align	2
	.type	"std_alloc::vec::Vec::drop::<#7ac45d8413b9ad54>",@function
"std_alloc::vec::Vec::drop::<#7ac45d8413b9ad54>":
	.cfi_startproc
	sub	sp, sp, #176
	.cfi_def_cfa_offset 176
	stp	x29, x30, [sp, #96]
	str	x25, [sp, #112]
	stp	x24, x23, [sp, #128]
	stp	x22, x21, [sp, #144]
	stp	x20, x19, [sp, #160]
	add	x29, sp, #96
	.cfi_def_cfa w29, 80
	.cfi_offset w19, -8
	.cfi_offset w20, -16
	.cfi_offset w21, -24
	.cfi_offset w22, -32
	.cfi_offset w23, -40
	.cfi_offset w24, -48
	.cfi_offset w25, -64
	.cfi_offset w30, -72
	.cfi_offset w29, -80
	.cfi_remember_state
	ldp	x19, x20, [x0]
	ldr	x21, [x0, #16]
	cbz	x20, .LBB22_3
	add	x22, sp, #2
	add	x23, sp, #48
	mov	x24, x19
.LBB22_2:
	ldr	x0, [x24], #8
	ldur	q0, [x0, #8]
	ldur	q1, [x0, #24]
	ldr	x8, [x0, #40]
	ldrh	w25, [x0]
	stur	q0, [x22, #6]
	stur	q1, [x22, #22]
	stur	x8, [x22, #38]
	bl	tlsf_memory_dealloc
	ldur	q0, [x22, #6]
	ldur	q1, [x22, #22]
	add	x0, sp, #48
	ldur	x8, [x22, #38]
	str	xzr, [sp, #48]
	strh	w25, [sp, #48]
	stur	q0, [x23, #8]
	stur	q1, [x23, #24]
	stur	x8, [x23, #40]
	bl	"tlsf_c::tlsf_c++any_end++AnyEnd+Destruct::drop"
	subs	x20, x20, #1
	b.ne	.LBB22_2
.LBB22_3:
	cbz	x21, .LBB22_5
	mov	x0, x19
	.cfi_def_cfa wsp, 176
	ldp	x20, x19, [sp, #160]
	ldr	x25, [sp, #112]
	ldp	x22, x21, [sp, #144]
	ldp	x24, x23, [sp, #128]
	ldp	x29, x30, [sp, #96]
	add	sp, sp, #176
	.cfi_def_cfa_offset 0
	.cfi_restore w19
	.cfi_restore w20
	.cfi_restore w21
	.cfi_restore w22
	.cfi_restore w23
	.cfi_restore w24
	.cfi_restore w25
	.cfi_restore w30
	.cfi_restore w29
	b	tlsf_memory_dealloc
.LBB22_5:
	.cfi_restore_state
	.cfi_def_cfa wsp, 176
	ldp	x20, x19, [sp, #160]
	ldr	x25, [sp, #112]
	ldp	x22, x21, [sp, #144]
	ldp	x24, x23, [sp, #128]
	ldp	x29, x30, [sp, #96]
	add	sp, sp, #176
	.cfi_def_cfa_offset 0
	.cfi_restore w19
	.cfi_restore w20
	.cfi_restore w21
	.cfi_restore w22
	.cfi_restore w23
	.cfi_restore w24
	.cfi_restore w25
	.cfi_restore w30
	.cfi_restore w29
	ret
.Lfunc_end22:
	.size	"std_alloc::vec::Vec::drop::<#7ac45d8413b9ad54>", .Lfunc_end22-"std_alloc::vec::Vec::drop::<#7ac45d8413b9ad54>"
	.cfi_endproc
	.section	".text.std_alloc::arc::Arc::drop::<#c4a047e811255370>","ax",@progbits
	.p2align	2
	.type	"std_alloc::arc::Arc::drop::<#c4a047e811255370>",@function
"std_alloc::arc::Arc::drop::<#c4a047e811255370>":
	.cfi_startproc
	stp	x29, x30, [sp, #-32]!
	.cfi_def_cfa_offset 32
	stp	x20, x19, [sp, #16]
	mov	x29, sp
	.cfi_def_cfa w29, 32
	.cfi_offset w19, -8
	.cfi_offset w20, -16
	.cfi_offset w30, -24
	.cfi_offset w29, -32
	.cfi_remember_state
.LBB23_1:
	ldaxr	x8, [x0]
	subs	x8, x8, #1
	stlxr	w9, x8, [x0]
	cbnz	w9, .LBB23_1
	b.ne	.LBB23_4
	ldr	x19, [x0, #40]
	ldr	x20, [x0, #56]
	bl	tlsf_memory_dealloc
	mov	x0, x19
	bl	tlsf_memory_dealloc
	mov	x0, x20
	.cfi_def_cfa wsp, 32
	ldp	x20, x19, [sp, #16]
	ldp	x29, x30, [sp], #32
	.cfi_def_cfa_offset 0
	.cfi_restore w19
	.cfi_restore w20
	.cfi_restore w30
	.cfi_restore w29
	b	tlsf_memory_dealloc
.LBB23_4:
	.cfi_restore_state
	.cfi_def_cfa wsp, 32
	ldp	x20, x19, [sp, #16]
	ldp	x29, x30, [sp], #32
	.cfi_def_cfa_offset 0
	.cfi_restore w19
	.cfi_restore w20
	.cfi_restore w30
	.cfi_restore w29
	ret
.Lfunc_end23:
	.size	"std_alloc::arc::Arc::drop::<#c4a047e811255370>", .Lfunc_end23-"std_alloc::arc::Arc::drop::<#c4a047e811255370>"
	.cfi_endproc
	.section	".text.std_alloc::boxed::Box::drop::<#7d8ec8058c3633cd>","ax",@progbits
	.p2align	2
	.type	"std_alloc::boxed::Box::drop::<#7d8ec8058c3633cd>",@function
"std_alloc::boxed::Box::drop::<#7d8ec8058c3633cd>":
	.cfi_startproc
	sub	sp, sp, #128
	.cfi_def_cfa_offset 128
	stp	x29, x30, [sp, #96]
	str	x19, [sp, #112]
	add	x29, sp, #96
	.cfi_def_cfa w29, 32
	.cfi_offset w19, -16
	.cfi_offset w30, -24
	.cfi_offset w29, -32
	ldur	q0, [x0, #8]
	ldur	q1, [x0, #24]
	ldr	x8, [x0, #40]
	ldrh	w19, [x0]
	stp	q0, q1, [sp]
	str	x8, [sp, #32]
	bl	tlsf_memory_dealloc
	ldp	q0, q1, [sp]
	add	x0, sp, #48
	ldr	x8, [sp, #32]
	str	xzr, [sp, #48]
	strh	w19, [sp, #48]
	stur	q0, [sp, #56]
	stur	q1, [sp, #72]
	str	x8, [sp, #88]
	bl	"tlsf_c::tlsf_c++any_end++AnyEnd+Destruct::drop"
	.cfi_def_cfa wsp, 128
	ldp	x29, x30, [sp, #96]
	ldr	x19, [sp, #112]
	add	sp, sp, #128
	.cfi_def_cfa_offset 0
	.cfi_restore w19
	.cfi_restore w30
	.cfi_restore w29
	ret
.Lfunc_end24:
	.size	"std_alloc::boxed::Box::drop::<#7d8ec8058c3633cd>", .Lfunc_end24-"std_alloc::boxed::Box::drop::<#7d8ec8058c3633cd>"
	.cfi_endproc
	.section	".text.tlsf_c::tlsf_c++any_end++AnyEnd+Destruct::drop","ax",@progbits
	.p2align	2
	.type	"tlsf_c::tlsf_c++any_end++AnyEnd+Destruct::drop",@function
"tlsf_c::tlsf_c++any_end++AnyEnd+Destruct::drop":
	.cfi_startproc
	sub	sp, sp, #176
	.cfi_def_cfa_offset 176
	stp	x29, x30, [sp, #96]
	str	x25, [sp, #112]
	stp	x24, x23, [sp, #128]
	stp	x22, x21, [sp, #144]
	stp	x20, x19, [sp, #160]
	add	x29, sp, #96
	.cfi_def_cfa w29, 80
	.cfi_offset w19, -8
	.cfi_offset w20, -16
	.cfi_offset w21, -24
	.cfi_offset w22, -32
	.cfi_offset w23, -40
	.cfi_offset w24, -48
	.cfi_offset w25, -64
	.cfi_offset w30, -72
	.cfi_offset w29, -80
	.cfi_remember_state
	mov	x8, x0
	ldrb	w9, [x0]
	ldr	x0, [x0, #8]
	ldr	x19, [x8, #24]
	cmp	w9, #1
	b.gt	.LBB25_5
	ldr	x1, [x8, #16]
	cbnz	w9, .LBB25_15
	add	x9, x0, #256
.LBB25_3:
	ldaxr	x8, [x9]
	mov	w10, #1
	stlxr	w11, x10, [x9]
	cbnz	w11, .LBB25_3
	cbnz	x8, .LBB25_18
	b	.LBB25_24
.LBB25_5:
	cmp	w9, #2
	b.ne	.LBB25_19
	ldp	x22, x23, [x8, #32]
.LBB25_7:
	ldaxr	x8, [x0]
	subs	x8, x8, #1
	stlxr	w9, x8, [x0]
	cbnz	w9, .LBB25_7
	b.ne	.LBB25_10
	ldr	x20, [x0, #40]
	ldr	x21, [x0, #56]
	bl	tlsf_memory_dealloc
	mov	x0, x20
	bl	tlsf_memory_dealloc
	mov	x0, x21
	bl	tlsf_memory_dealloc
.LBB25_10:
	cbz	x22, .LBB25_13
	add	x20, sp, #2
	add	x21, sp, #48
	mov	x24, x19
.LBB25_12:
	ldr	x0, [x24], #8
	ldur	q0, [x0, #8]
	ldur	q1, [x0, #24]
	ldr	x8, [x0, #40]
	ldrh	w25, [x0]
	stur	q0, [x20, #6]
	stur	q1, [x20, #22]
	stur	x8, [x20, #38]
	bl	tlsf_memory_dealloc
	ldur	q0, [x20, #6]
	ldur	q1, [x20, #22]
	add	x0, sp, #48
	ldur	x8, [x20, #38]
	str	xzr, [sp, #48]
	strh	w25, [sp, #48]
	stur	q0, [x21, #8]
	stur	q1, [x21, #24]
	stur	x8, [x21, #40]
	bl	"tlsf_c::tlsf_c++any_end++AnyEnd+Destruct::drop"
	subs	x22, x22, #1
	b.ne	.LBB25_12
.LBB25_13:
	cbz	x23, .LBB25_24
	mov	x0, x19
	.cfi_def_cfa wsp, 176
	b	.LBB25_23
.LBB25_15:
	.cfi_restore_state
	.cfi_remember_state
	add	x9, x0, #256
.LBB25_16:
	ldaxr	x8, [x9]
	mov	w10, #1
	stlxr	w11, x10, [x9]
	cbnz	w11, .LBB25_16
	cbz	x8, .LBB25_24
.LBB25_18:
	mov	x2, x19
	.cfi_def_cfa wsp, 176
	ldp	x20, x19, [sp, #160]
	ldr	x25, [sp, #112]
	ldp	x22, x21, [sp, #144]
	ldp	x24, x23, [sp, #128]
	ldp	x29, x30, [sp, #96]
	add	sp, sp, #176
	.cfi_def_cfa_offset 0
	.cfi_restore w19
	.cfi_restore w20
	.cfi_restore w21
	.cfi_restore w22
	.cfi_restore w23
	.cfi_restore w24
	.cfi_restore w25
	.cfi_restore w30
	.cfi_restore w29
	b	"rtrb::release::drop_slow::<#23d795680250cb0d>"
.LBB25_19:
	.cfi_restore_state
	.cfi_remember_state
.LBB25_20:
	ldaxr	x8, [x0]
	subs	x8, x8, #1
	stlxr	w9, x8, [x0]
	cbnz	w9, .LBB25_20
	b.ne	.LBB25_24
	ldr	x19, [x0, #40]
	ldr	x20, [x0, #56]
	bl	tlsf_memory_dealloc
	mov	x0, x19
	bl	tlsf_memory_dealloc
	mov	x0, x20
	.cfi_def_cfa wsp, 176
.LBB25_23:
	ldp	x20, x19, [sp, #160]
	ldr	x25, [sp, #112]
	ldp	x22, x21, [sp, #144]
	ldp	x24, x23, [sp, #128]
	ldp	x29, x30, [sp, #96]
	add	sp, sp, #176
	.cfi_def_cfa_offset 0
	.cfi_restore w19
	.cfi_restore w20
	.cfi_restore w21
	.cfi_restore w22
	.cfi_restore w23
	.cfi_restore w24
	.cfi_restore w25
	.cfi_restore w30
	.cfi_restore w29
	b	tlsf_memory_dealloc
.LBB25_24:
	.cfi_restore_state
	.cfi_def_cfa wsp, 176
	ldp	x20, x19, [sp, #160]
	ldr	x25, [sp, #112]
	ldp	x22, x21, [sp, #144]
	ldp	x24, x23, [sp, #128]
	ldp	x29, x30, [sp, #96]
	add	sp, sp, #176
	.cfi_def_cfa_offset 0
	.cfi_restore w19
	.cfi_restore w20
	.cfi_restore w21
	.cfi_restore w22
	.cfi_restore w23
	.cfi_restore w24
	.cfi_restore w25
	.cfi_restore w30
	.cfi_restore w29
	ret
.Lfunc_end25:
	.size	"tlsf_c::tlsf_c++any_end++AnyEnd+Destruct::drop", .Lfunc_end25-"tlsf_c::tlsf_c++any_end++AnyEnd+Destruct::drop"
	.cfi_endproc
	.section	".text.tlsf_c::arena_slot::ArenaSlot::close","ax",@progbits
	.p2align	2
	.type	"tlsf_c::arena_slot::ArenaSlot::close",@function
"tlsf_c::arena_slot::ArenaSlot::close":
	.cfi_startproc
	ldrb	w8, [x0, #8]
	cbz	w8, .LBB26_11
	ldr	x8, [x0]
	ldrb	w9, [x8, #1]
	cmp	w9, #1
	b.ne	.LBB26_11
	sub	sp, sp, #128
	.cfi_def_cfa_offset 128
	stp	x29, x30, [sp, #64]
	stp	x24, x23, [sp, #80]
	stp	x22, x21, [sp, #96]
	stp	x20, x19, [sp, #112]
	add	x29, sp, #64
	.cfi_def_cfa w29, 64
	.cfi_offset w19, -8
	.cfi_offset w20, -16
	.cfi_offset w21, -24
	.cfi_offset w22, -32
	.cfi_offset w23, -40
	.cfi_offset w24, -48
	.cfi_offset w30, -56
	.cfi_offset w29, -64
	strb	wzr, [x8, #1]
	ldr	x8, [x0]
	stp	xzr, xzr, [x0]
	ldp	x9, x20, [x8, #32]
	ldr	q0, [x8, #16]
	ldp	x23, x19, [x8, #56]
	ldrb	w24, [x8]
	ldrb	w22, [x8, #8]
	ldr	x21, [x8, #80]
	mov	x0, x8
	str	q0, [sp]
	str	x9, [sp, #16]
	bl	tlsf_memory_dealloc
	cbz	w24, .LBB26_5
	mov	x8, sp
	orr	x8, x8, #0x8
	cbz	w22, .LBB26_9
	ldr	q0, [x8]
	add	x0, sp, #32
	str	x20, [sp, #48]
	str	q0, [sp, #32]
	bl	"std_alloc::vec::Vec::drop::<#1d6c342d5cae5f6b>"
	b	.LBB26_10
.LBB26_5:
	cbz	x23, .LBB26_7
	mov	x0, x20
	bl	tlsf_memory_dealloc
.LBB26_7:
	cbz	x21, .LBB26_10
	mov	x0, x19
	bl	tlsf_memory_dealloc
	b	.LBB26_10
.LBB26_9:
	ldr	q0, [x8]
	add	x0, sp, #32
	str	x20, [sp, #48]
	str	q0, [sp, #32]
	bl	"std_alloc::vec::Vec::drop::<#01e19ae241269710>"
.LBB26_10:
	.cfi_def_cfa wsp, 128
	ldp	x20, x19, [sp, #112]
	ldp	x22, x21, [sp, #96]
	ldp	x24, x23, [sp, #80]
	ldp	x29, x30, [sp, #64]
	add	sp, sp, #128
	.cfi_def_cfa_offset 0
	.cfi_restore w19
	.cfi_restore w20
	.cfi_restore w21
	.cfi_restore w22
	.cfi_restore w23
	.cfi_restore w24
	.cfi_restore w30
	.cfi_restore w29
.LBB26_11:
	ret
.Lfunc_end26:
	.size	"tlsf_c::arena_slot::ArenaSlot::close", .Lfunc_end26-"tlsf_c::arena_slot::ArenaSlot::close"
	.cfi_endproc
	.section	".text.std_alloc::vec::Vec::drop::<#01e19ae241269710>","ax",@progbits
	.p2align	2
	.type	"std_alloc::vec::Vec::drop::<#01e19ae241269710>",@function
"std_alloc::vec::Vec::drop::<#01e19ae241269710>":
	.cfi_startproc
	stp	x29, x30, [sp, #-96]!
	.cfi_def_cfa_offset 96
	stp	x28, x27, [sp, #16]
	stp	x26, x25, [sp, #32]
	stp	x24, x23, [sp, #48]
	stp	x22, x21, [sp, #64]
	stp	x20, x19, [sp, #80]
	mov	x29, sp
	.cfi_def_cfa w29, 96
	.cfi_offset w19, -8
	.cfi_offset w20, -16
	.cfi_offset w21, -24
	.cfi_offset w22, -32
	.cfi_offset w23, -40
	.cfi_offset w24, -48
	.cfi_offset w25, -56
	.cfi_offset w26, -64
	.cfi_offset w27, -72
	.cfi_offset w28, -80
	.cfi_offset w30, -88
	.cfi_offset w29, -96
	.cfi_remember_state
	ldp	x19, x23, [x0]
	ldr	x24, [x0, #16]
	cbz	x23, .LBB27_11
	mov	x25, x19
	b	.LBB27_3
.LBB27_2:
	subs	x23, x23, #1
	add	x25, x25, #2792
	b.eq	.LBB27_11
.LBB27_3:
	ldp	x8, x22, [x25, #40]
	ldr	x28, [x25, #64]
	ldr	x21, [x25, #2736]
	ldr	x27, [x25, #2752]
	ldr	x20, [x25, #2768]
	ldr	x26, [x25, #2784]
	cbz	x8, .LBB27_5
	ldr	x0, [x25, #24]
	bl	tlsf_memory_dealloc
.LBB27_5:
	cbz	x28, .LBB27_7
	mov	x0, x22
	bl	tlsf_memory_dealloc
.LBB27_7:
	cbz	x27, .LBB27_9
	mov	x0, x21
	bl	tlsf_memory_dealloc
.LBB27_9:
	cbz	x26, .LBB27_2
	mov	x0, x20
	bl	tlsf_memory_dealloc
	b	.LBB27_2
.LBB27_11:
	cbz	x24, .LBB27_13
	mov	x0, x19
	.cfi_def_cfa wsp, 96
	ldp	x20, x19, [sp, #80]
	ldp	x22, x21, [sp, #64]
	ldp	x24, x23, [sp, #48]
	ldp	x26, x25, [sp, #32]
	ldp	x28, x27, [sp, #16]
	ldp	x29, x30, [sp], #96
	.cfi_def_cfa_offset 0
	.cfi_restore w19
	.cfi_restore w20
	.cfi_restore w21
	.cfi_restore w22
	.cfi_restore w23
	.cfi_restore w24
	.cfi_restore w25
	.cfi_restore w26
	.cfi_restore w27
	.cfi_restore w28
	.cfi_restore w30
	.cfi_restore w29
	b	tlsf_memory_dealloc
.LBB27_13:
	.cfi_restore_state
	.cfi_def_cfa wsp, 96
	ldp	x20, x19, [sp, #80]
	ldp	x22, x21, [sp, #64]
	ldp	x24, x23, [sp, #48]
	ldp	x26, x25, [sp, #32]
	ldp	x28, x27, [sp, #16]
	ldp	x29, x30, [sp], #96
	.cfi_def_cfa_offset 0
	.cfi_restore w19
	.cfi_restore w20
	.cfi_restore w21
	.cfi_restore w22
	.cfi_restore w23
	.cfi_restore w24
	.cfi_restore w25
	.cfi_restore w26
	.cfi_restore w27
	.cfi_restore w28
	.cfi_restore w30
	.cfi_restore w29
	ret
.Lfunc_end27:
	.size	"std_alloc::vec::Vec::drop::<#01e19ae241269710>", .Lfunc_end27-"std_alloc::vec::Vec::drop::<#01e19ae241269710>"
	.cfi_endproc
	.section	".text.std_alloc::vec::Vec::drop::<#1d6c342d5cae5f6b>","ax",@progbits
	.p2align	2
	.type	"std_alloc::vec::Vec::drop::<#1d6c342d5cae5f6b>",@function
"std_alloc::vec::Vec::drop::<#1d6c342d5cae5f6b>":
	.cfi_startproc
	stp	x29, x30, [sp, #-96]!
	.cfi_def_cfa_offset 96
	stp	x28, x27, [sp, #16]
	stp	x26, x25, [sp, #32]
	stp	x24, x23, [sp, #48]
	stp	x22, x21, [sp, #64]
	stp	x20, x19, [sp, #80]
	mov	x29, sp
	.cfi_def_cfa w29, 96
	.cfi_offset w19, -8
	.cfi_offset w20, -16
	.cfi_offset w21, -24
	.cfi_offset w22, -32
	.cfi_offset w23, -40
	.cfi_offset w24, -48
	.cfi_offset w25, -56
	.cfi_offset w26, -64
	.cfi_offset w27, -72
	.cfi_offset w28, -80
	.cfi_offset w30, -88
	.cfi_offset w29, -96
	.cfi_remember_state
	ldp	x19, x23, [x0]
	ldr	x24, [x0, #16]
	cbz	x23, .LBB28_11
	mov	x25, x19
	b	.LBB28_3
.LBB28_2:
	subs	x23, x23, #1
	add	x25, x25, #2792
	b.eq	.LBB28_11
.LBB28_3:
	ldp	x8, x22, [x25, #40]
	ldr	x28, [x25, #64]
	ldr	x21, [x25, #2736]
	ldr	x27, [x25, #2752]
	ldr	x20, [x25, #2768]
	ldr	x26, [x25, #2784]
	cbz	x8, .LBB28_5
	ldr	x0, [x25, #24]
	bl	tlsf_memory_dealloc
.LBB28_5:
	cbz	x28, .LBB28_7
	mov	x0, x22
	bl	tlsf_memory_dealloc
.LBB28_7:
	cbz	x27, .LBB28_9
	mov	x0, x21
	bl	tlsf_memory_dealloc
.LBB28_9:
	cbz	x26, .LBB28_2
	mov	x0, x20
	bl	tlsf_memory_dealloc
	b	.LBB28_2
.LBB28_11:
	cbz	x24, .LBB28_13
	mov	x0, x19
	.cfi_def_cfa wsp, 96
	ldp	x20, x19, [sp, #80]
	ldp	x22, x21, [sp, #64]
	ldp	x24, x23, [sp, #48]
	ldp	x26, x25, [sp, #32]
	ldp	x28, x27, [sp, #16]
	ldp	x29, x30, [sp], #96
	.cfi_def_cfa_offset 0
	.cfi_restore w19
	.cfi_restore w20
	.cfi_restore w21
	.cfi_restore w22
	.cfi_restore w23
	.cfi_restore w24
	.cfi_restore w25
	.cfi_restore w26
	.cfi_restore w27
	.cfi_restore w28
	.cfi_restore w30
	.cfi_restore w29
	b	tlsf_memory_dealloc
.LBB28_13:
	.cfi_restore_state
	.cfi_def_cfa wsp, 96
	ldp	x20, x19, [sp, #80]
	ldp	x22, x21, [sp, #64]
	ldp	x24, x23, [sp, #48]
	ldp	x26, x25, [sp, #32]
	ldp	x28, x27, [sp, #16]
	ldp	x29, x30, [sp], #96
	.cfi_def_cfa_offset 0
	.cfi_restore w19
	.cfi_restore w20
	.cfi_restore w21
	.cfi_restore w22
	.cfi_restore w23
	.cfi_restore w24
	.cfi_restore w25
	.cfi_restore w26
	.cfi_restore w27
	.cfi_restore w28
	.cfi_restore w30
	.cfi_restore w29
	ret
.Lfunc_end28:
	.size	"std_alloc::vec::Vec::drop::<#1d6c342d5cae5f6b>", .Lfunc_end28-"std_alloc::vec::Vec::drop::<#1d6c342d5cae5f6b>"
	.cfi_endproc
	.section	".text.unlikely.std_alloc::vec::Vec::grow_amortized::<#1345b5ed95b64201>","ax",@progbits
	.p2align	2
	.type	"std_alloc::vec::Vec::grow_amortized::<#1345b5ed95b64201>",@function
"std_alloc::vec::Vec::grow_amortized::<#1345b5ed95b64201>":
	.cfi_startproc
	ldr	x8, [x0, #8]
	cmn	x8, x1
	b.lo	.LBB29_2
	mov	w0, wzr
	ret
.LBB29_2:
	stp	x29, x30, [sp, #-32]!
	.cfi_def_cfa_offset 32
	stp	x20, x19, [sp, #16]
	mov	x29, sp
	.cfi_def_cfa w29, 32
	.cfi_offset w19, -8
	.cfi_offset w20, -16
	.cfi_offset w30, -24
	.cfi_offset w29, -32
	.cfi_remember_state
	ldr	x9, [x0, #16]
	add	x10, x8, x1
	mov	w11, #4
	cmp	x10, #4
	lsl	x12, x9, #1
	csel	x11, x10, x11, hi
	lsr	x13, x9, #62
	cmp	x11, x12
	csel	x10, x11, x12, hi
	cmp	x13, #0
	csel	x19, x10, x11, eq
	lsr	x11, x19, #60
	cbnz	x11, .LBB29_7
	cbz	x9, .LBB29_6
	mov	x20, x0
	ldr	x0, [x0]
	lsl	x1, x8, #3
	lsl	x2, x19, #3
	mov	w3, #8
	bl	tlsf_memory_realloc
	tbz	w0, #0, .LBB29_7
.LBB29_5:
	mov	w0, #1
	str	x1, [x20]
	str	x19, [x20, #16]
	.cfi_def_cfa wsp, 32
	ldp	x20, x19, [sp, #16]
	ldp	x29, x30, [sp], #32
	.cfi_def_cfa_offset 0
	.cfi_restore w19
	.cfi_restore w20
	.cfi_restore w30
	.cfi_restore w29
	ret
.LBB29_6:
	.cfi_restore_state
	mov	x20, x0
	lsl	x0, x10, #3
	mov	w1, #8
	bl	tlsf_memory_alloc
	tbnz	w0, #0, .LBB29_5
.LBB29_7:
	mov	w0, wzr
	.cfi_def_cfa wsp, 32
	ldp	x20, x19, [sp, #16]
	ldp	x29, x30, [sp], #32
	.cfi_def_cfa_offset 0
	.cfi_restore w19
	.cfi_restore w20
	.cfi_restore w30
	.cfi_restore w29
	ret
.Lfunc_end29:
	.size	"std_alloc::vec::Vec::grow_amortized::<#1345b5ed95b64201>", .Lfunc_end29-"std_alloc::vec::Vec::grow_amortized::<#1345b5ed95b64201>"
	.cfi_endproc
	.section	".text.tlsf_words::words::Words::lengthen","ax",@progbits
	.p2align	2
	.type	"tlsf_words::words::Words::lengthen",@function
"tlsf_words::words::Words::lengthen":
	.cfi_startproc
	stp	x29, x30, [sp, #-64]!
	.cfi_def_cfa_offset 64
	stp	x24, x23, [sp, #16]
	stp	x22, x21, [sp, #32]
	stp	x20, x19, [sp, #48]
	mov	x29, sp
	.cfi_def_cfa w29, 64
	.cfi_offset w19, -8
	.cfi_offset w20, -16
	.cfi_offset w21, -24
	.cfi_offset w22, -32
	.cfi_offset w23, -40
	.cfi_offset w24, -48
	.cfi_offset w30, -56
	.cfi_offset w29, -64
	.cfi_remember_state
	ldr	x8, [x0, #8]
	mov	w9, w1
	mov	w19, w1
	mov	x20, x0
	subs	x21, x9, x8
	b.ls	.LBB30_5
	ldr	x22, [x20, #16]
	sub	x9, x22, x8
	cmp	x21, x9
	b.hi	.LBB30_17
	add	x23, x8, x21
	ldr	x24, [x20]
	cmp	x8, x23
	b.hs	.LBB30_4
.LBB30_3:
	add	x0, x24, x8, lsl #3
	lsl	x2, x21, #3
	mov	w1, wzr
	bl	tlsf_memory_set
.LBB30_4:
	stp	x24, x23, [x20]
	str	x22, [x20, #16]
	b	.LBB30_7
.LBB30_5:
	b.hs	.LBB30_7
	str	x9, [x20, #8]
.LBB30_7:
	ldr	x8, [x20, #32]
	cbz	x8, .LBB30_9
	str	xzr, [x20, #32]
.LBB30_9:
	lsr	w8, w19, #6
	tst	w19, #0x3f
	cinc	w21, w8, ne
	cbz	w19, .LBB30_14
	ldr	x22, [x20, #40]
	cmp	x22, x21
	b.lo	.LBB30_15
	mov	x8, xzr
	add	x23, xzr, x21
	ldr	x24, [x20, #24]
	cmp	xzr, x23
	b.hs	.LBB30_13
.LBB30_12:
	add	x0, x24, x8, lsl #3
	lsl	x2, x21, #3
	mov	w1, wzr
	bl	tlsf_memory_set
.LBB30_13:
	stp	x24, x23, [x20, #24]
	str	x22, [x20, #40]
.LBB30_14:
	str	w19, [x20, #48]
	.cfi_def_cfa wsp, 64
	ldp	x20, x19, [sp, #48]
	ldp	x22, x21, [sp, #32]
	ldp	x24, x23, [sp, #16]
	ldp	x29, x30, [sp], #64
	.cfi_def_cfa_offset 0
	.cfi_restore w19
	.cfi_restore w20
	.cfi_restore w21
	.cfi_restore w22
	.cfi_restore w23
	.cfi_restore w24
	.cfi_restore w30
	.cfi_restore w29
	ret
.LBB30_15:
	.cfi_restore_state
	add	x0, x20, #24
	mov	x1, x21
	bl	"std_alloc::vec::Vec::grow_amortized::<#1345b5ed95b64201>"
	cbz	w0, .LBB30_19
	ldp	x8, x22, [x20, #32]
	add	x23, x8, x21
	ldr	x24, [x20, #24]
	cmp	x8, x23
	b.lo	.LBB30_12
	b	.LBB30_13
.LBB30_17:
	mov	x0, x20
	mov	x1, x21
	bl	"std_alloc::vec::Vec::grow_amortized::<#1345b5ed95b64201>"
	cbz	w0, .LBB30_19
	ldp	x8, x22, [x20, #8]
	add	x23, x8, x21
	ldr	x24, [x20]
	cmp	x8, x23
	b.lo	.LBB30_3
	b	.LBB30_4
.LBB30_19:
	brk	#0x1
.Lfunc_end30:
	.size	"tlsf_words::words::Words::lengthen", .Lfunc_end30-"tlsf_words::words::Words::lengthen"
	.cfi_endproc
	.section	".text.tlsf_pool::sizes::split::rising_split::<=4>","ax",@progbits
	.p2align	2
	.type	"tlsf_pool::sizes::split::rising_split::<=4>",@function
"tlsf_pool::sizes::split::rising_split::<=4>":
	.cfi_startproc
	stp	x29, x30, [sp, #-96]!
	.cfi_def_cfa_offset 96
	str	x28, [sp, #16]
	stp	x26, x25, [sp, #32]
	stp	x24, x23, [sp, #48]
	stp	x22, x21, [sp, #64]
	stp	x20, x19, [sp, #80]
	mov	x29, sp
	.cfi_def_cfa w29, 96
	.cfi_offset w19, -8
	.cfi_offset w20, -16
	.cfi_offset w21, -24
	.cfi_offset w22, -32
	.cfi_offset w23, -40
	.cfi_offset w24, -48
	.cfi_offset w25, -56
	.cfi_offset w26, -64
	.cfi_offset w28, -80
	.cfi_offset w30, -88
	.cfi_offset w29, -96
	sub	sp, sp, #1392
	mov	x20, x2
	mov	x21, x1
	cmp	x2, #2
	mov	x19, x0
	str	xzr, [sp]
	b.lo	.LBB31_5
	sub	x8, x20, #1
	add	x9, x21, #12
.LBB31_2:
	ldr	w10, [x9]
	ldur	w11, [x9, #-8]
	cmp	w10, w11
	b.ls	.LBB31_44
	subs	x8, x8, #1
	add	x9, x9, #8
	b.ne	.LBB31_2
	add	x0, sp, #12
	mov	w1, wzr
	mov	w2, #1300
	bl	tlsf_memory_set
	b	.LBB31_6
.LBB31_5:
	add	x0, sp, #12
	mov	w1, wzr
	mov	w2, #1300
	bl	tlsf_memory_set
	cbz	x20, .LBB31_45
.LBB31_6:
	add	x8, x20, x20, lsl #2
	add	x0, sp, #12
	mov	w1, wzr
	sub	x23, x29, #80
	add	x24, sp, #12
	lsl	x22, x8, #2
	mov	x2, x22
	bl	tlsf_memory_set
	add	x11, x24, x22
	mov	w9, #1
	mov	x8, xzr
	str	w9, [x11]
	sub	x9, x29, #32
	add	x10, x9, #5
	stur	xzr, [x11, #12]
	stur	xzr, [x11, #4]
	b	.LBB31_8
.LBB31_7:
	add	x8, x8, #1
	cmp	x8, #8
	b.eq	.LBB31_41
.LBB31_8:
	mov	x15, xzr
	mov	x11, x21
	add	x12, x21, #8
	add	x13, x21, #4
	b	.LBB31_10
.LBB31_9:
	mov	w16, #20
	add	x17, sp, #12
	add	x13, x13, #8
	madd	x15, x15, x16, x17
	ldr	x16, [x23, #32]
	ldur	w17, [x29, #-40]
	cmp	x14, x20
	add	x12, x12, #8
	add	x11, x11, #8
	str	x16, [x23]
	stur	w17, [x29, #-72]
	stp	w3, w18, [x15]
	str	x16, [x15, #8]
	str	w17, [x15, #16]
	mov	x15, x14
	b.eq	.LBB31_7
.LBB31_10:
	add	x14, x15, #1
	mov	w17, #20
	add	x0, sp, #12
	madd	x17, x14, x17, x0
	mov	x16, xzr
	mov	w18, wzr
	mov	w3, wzr
	sub	x0, x20, x15
	mov	x1, #-1
	mov	w2, #1
	str	xzr, [x23, #32]
	stur	wzr, [x29, #-40]
	b	.LBB31_15
.LBB31_11:
	stur	wzr, [x29, #-56]
	str	xzr, [x23, #16]
	cbz	w3, .LBB31_20
	ldr	x3, [x23, #32]
	ldur	w4, [x29, #-40]
.LBB31_13:
	str	x3, [x23, #48]
	mov	w3, #1
	stur	w4, [x29, #-24]
.LBB31_14:
	ldr	x4, [x23, #48]
	ldur	w5, [x29, #-24]
	cmp	x16, x0
	add	x2, x2, #1
	sub	x1, x1, #1
	str	x4, [x23, #32]
	stur	w5, [x29, #-40]
	b.eq	.LBB31_9
.LBB31_15:
	mov	w4, #20
	and	x5, x2, #0xfffffffffffffffe
	mov	x6, x13
	madd	x4, x16, x4, x17
	add	x16, x16, #1
	mov	x7, x2
.LBB31_16:
	ldr	w22, [x6], #8
	mov	w24, #65513
	movk	w24, #127, lsl #16
	cmp	w22, w24
	b.hs	.LBB31_11
	subs	x7, x7, #1
	b.ne	.LBB31_16
	cmp	x16, #2
	b.hs	.LBB31_22
	mov	x5, xzr
	mov	x6, xzr
	b	.LBB31_25
.LBB31_20:
	mov	w4, wzr
.LBB31_21:
	ldr	x18, [x23, #16]
	ldur	w5, [x29, #-56]
	str	x18, [x23, #48]
	mov	w18, w4
	stur	w5, [x29, #-24]
	b	.LBB31_14
.LBB31_22:
	mov	x7, xzr
	mov	x22, xzr
	and	x6, x16, #0xfffffffffffffffe
	mov	x24, x12
.LBB31_23:
	ldur	w25, [x24, #-8]
	ldr	w26, [x24], #16
	subs	x5, x5, #2
	add	x7, x7, x25
	add	x22, x22, x26
	b.ne	.LBB31_23
	cmp	x16, x6
	add	x5, x22, x7
	b.eq	.LBB31_27
.LBB31_25:
	add	x7, x11, x6, lsl #3
	add	x6, x6, x1
.LBB31_26:
	ldr	w22, [x7], #8
	adds	x6, x6, #1
	add	x5, x5, x22
	b.lo	.LBB31_26
.LBB31_27:
	mov	x7, xzr
	mov	w6, wzr
	mov	x22, x2
	b	.LBB31_29
.LBB31_28:
	subs	x22, x22, #1
	add	x7, x7, #8
	b.eq	.LBB31_31
.LBB31_29:
	ldr	w24, [x11, x7]
	cbz	w24, .LBB31_28
	ldr	w24, [x13, x7]
	cmp	w24, w6
	csel	w6, w24, w6, hi
	b	.LBB31_28
.LBB31_31:
	mov	w7, w6
	cmp	w6, #0
	mov	w22, #27
	cinc	x6, x7, eq
	add	x6, x6, #31
	lsr	x6, x6, #3
	orr	w7, w6, #0x10
	sub	w6, w6, #1
	clz	w7, w7
	sub	w22, w22, w7
	lsr	w6, w6, w22
	add	w7, w6, #1
	add	w6, w7, w22, lsl #4
	lsr	w22, w6, #4
	cbz	w22, .LBB31_33
	mov	w6, #8
	and	w7, w7, #0xf
	sub	w24, w22, #1
	lsl	w6, w6, w22
	lsl	w7, w7, w24
	add	w6, w7, w6
.LBB31_33:
	mov	w6, w6
	mul	x6, x5, x6
	mov	w5, #4
	cmp	x6, #4
	csel	x5, x6, x5, hi
	cmp	x6, #256, lsl #12
	b.hi	.LBB31_11
	ldrb	w6, [x4], #4
	cmp	w6, #1
	b.ne	.LBB31_11
	ldr	q0, [x4]
	str	q0, [x23, #48]
	ldurb	w4, [x29, #-28]
	ldur	w6, [x29, #-32]
	strb	w16, [x10, x4]
	add	w4, w4, #1
	sturb	w4, [x29, #-28]
	ldur	x4, [x9, #4]
	ldur	w7, [x9, #12]
	str	x4, [x23, #16]
	add	w4, w6, w5
	stur	w7, [x29, #-56]
	cbz	w3, .LBB31_38
	cmp	w4, w18
	b.hs	.LBB31_39
	ldr	x18, [x23, #16]
	ldur	w3, [x29, #-56]
	str	x18, [x23, #64]
	mov	w18, w4
	stur	w3, [x29, #-8]
	b	.LBB31_40
.LBB31_38:
	mov	w3, #1
	b	.LBB31_21
.LBB31_39:
	ldr	x3, [x23, #32]
	ldur	w4, [x29, #-40]
	str	x3, [x23, #64]
	stur	w4, [x29, #-8]
.LBB31_40:
	ldr	x3, [x23, #64]
	ldur	w4, [x29, #-8]
	b	.LBB31_13
.LBB31_41:
	ldrb	w10, [sp, #12]
	cmp	w10, #1
	b.ne	.LBB31_43
	ldp	s0, s1, [sp, #20]
	movi	v2.2d, #0x000000000000ff
	ldrb	w8, [sp, #28]
	ldr	w9, [sp, #16]
	ushll	v0.8h, v0.8b, #0
	ushll	v1.8h, v1.8b, #0
	ushll	v0.4s, v0.4h, #0
	ushll	v1.4s, v1.4h, #0
	ushll2	v3.2d, v0.4s, #0
	ushll	v0.2d, v0.2s, #0
	ushll2	v4.2d, v1.4s, #0
	ushll	v5.2d, v1.2s, #0
	and	v1.16b, v3.16b, v2.16b
	and	v0.16b, v0.16b, v2.16b
	and	v3.16b, v4.16b, v2.16b
	and	v2.16b, v5.16b, v2.16b
	b	.LBB31_46
.LBB31_43:
	mov	x8, xzr
	movi	v0.2d, #0000000000000000
	movi	v1.2d, #0000000000000000
	movi	v2.2d, #0000000000000000
	movi	v3.2d, #0000000000000000
	mov	x9, xzr
	b	.LBB31_46
.LBB31_44:
	movi	v0.2d, #0000000000000000
	str	xzr, [x19, #80]
	stp	q0, q0, [x19, #16]
	stp	q0, q0, [x19, #48]
	str	q0, [x19]
	b	.LBB31_47
.LBB31_45:
	mov	x8, xzr
	mov	x9, xzr
	movi	v0.2d, #0000000000000000
	movi	v1.2d, #0000000000000000
	movi	v2.2d, #0000000000000000
	movi	v3.2d, #0000000000000000
	mov	w10, #1
.LBB31_46:
	mov	w10, w10
	stur	q0, [x19, #8]
	str	x10, [x19]
	stur	q1, [x19, #24]
	stur	q2, [x19, #40]
	stur	q3, [x19, #56]
	stp	x8, x9, [x19, #72]
.LBB31_47:
	add	sp, sp, #1392
	.cfi_def_cfa wsp, 96
	ldp	x20, x19, [sp, #80]
	ldr	x28, [sp, #16]
	ldp	x22, x21, [sp, #64]
	ldp	x24, x23, [sp, #48]
	ldp	x26, x25, [sp, #32]
	ldp	x29, x30, [sp], #96
	.cfi_def_cfa_offset 0
	.cfi_restore w19
	.cfi_restore w20
	.cfi_restore w21
	.cfi_restore w22
	.cfi_restore w23
	.cfi_restore w24
	.cfi_restore w25
	.cfi_restore w26
	.cfi_restore w28
	.cfi_restore w30
	.cfi_restore w29
	ret
.Lfunc_end31:
	.size	"tlsf_pool::sizes::split::rising_split::<=4>", .Lfunc_end31-"tlsf_pool::sizes::split::rising_split::<=4>"
	.cfi_endproc
	.section	".text.unlikely.std_alloc::vec::Vec::grow_amortized::<#8f83c87fc5454f35>","ax",@progbits
	.p2align	2
	.type	"std_alloc::vec::Vec::grow_amortized::<#8f83c87fc5454f35>",@function
"std_alloc::vec::Vec::grow_amortized::<#8f83c87fc5454f35>":
	.cfi_startproc
	ldr	x8, [x0, #8]
	cmn	x8, #1
	b.eq	.LBB32_5
	stp	x29, x30, [sp, #-32]!
	.cfi_def_cfa_offset 32
	stp	x20, x19, [sp, #16]
	mov	x29, sp
	.cfi_def_cfa w29, 32
	.cfi_offset w19, -8
	.cfi_offset w20, -16
	.cfi_offset w30, -24
	.cfi_offset w29, -32
	.cfi_remember_state
	ldr	x9, [x0, #16]
	add	x11, x8, #1
	lsl	x10, x9, #1
	lsr	x12, x9, #62
	cmp	x11, x10
	mov	x11, #25350
	movk	x11, #2253, lsl #16
	csinc	x10, x10, x8, ls
	cmp	x12, #0
	movk	x11, #48260, lsl #32
	csinc	x19, x10, x8, eq
	movk	x11, #11, lsl #48
	cmp	x19, x11
	b.hi	.LBB32_7
	cbz	x9, .LBB32_6
	mov	w9, #2792
	mov	x20, x0
	ldr	x0, [x0]
	mul	x1, x8, x9
	mov	w3, #8
	mul	x2, x19, x9
	bl	tlsf_memory_realloc
	tbz	w0, #0, .LBB32_7
.LBB32_4:
	mov	w0, #1
	str	x1, [x20]
	str	x19, [x20, #16]
	.cfi_def_cfa wsp, 32
	ldp	x20, x19, [sp, #16]
	ldp	x29, x30, [sp], #32
	.cfi_def_cfa_offset 0
	.cfi_restore w19
	.cfi_restore w20
	.cfi_restore w30
	.cfi_restore w29
	ret
.LBB32_5:
	mov	w0, wzr
	ret
.LBB32_6:
	.cfi_restore_state
	mov	w8, #2792
	mov	x20, x0
	mov	w1, #8
	mul	x0, x10, x8
	bl	tlsf_memory_alloc
	tbnz	w0, #0, .LBB32_4
.LBB32_7:
	mov	w0, wzr
	.cfi_def_cfa wsp, 32
	ldp	x20, x19, [sp, #16]
	ldp	x29, x30, [sp], #32
	.cfi_def_cfa_offset 0
	.cfi_restore w19
	.cfi_restore w20
	.cfi_restore w30
	.cfi_restore w29
	ret
.Lfunc_end32:
	.size	"std_alloc::vec::Vec::grow_amortized::<#8f83c87fc5454f35>", .Lfunc_end32-"std_alloc::vec::Vec::grow_amortized::<#8f83c87fc5454f35>"
	.cfi_endproc
	.section	".text.tlsf_pool::sizes::split::rising_split::<=5>","ax",@progbits
	.p2align	2
	.type	"tlsf_pool::sizes::split::rising_split::<=5>",@function
"tlsf_pool::sizes::split::rising_split::<=5>":
	.cfi_startproc
	stp	x29, x30, [sp, #-96]!
	.cfi_def_cfa_offset 96
	str	x28, [sp, #16]
	stp	x26, x25, [sp, #32]
	stp	x24, x23, [sp, #48]
	stp	x22, x21, [sp, #64]
	stp	x20, x19, [sp, #80]
	mov	x29, sp
	.cfi_def_cfa w29, 96
	.cfi_offset w19, -8
	.cfi_offset w20, -16
	.cfi_offset w21, -24
	.cfi_offset w22, -32
	.cfi_offset w23, -40
	.cfi_offset w24, -48
	.cfi_offset w25, -56
	.cfi_offset w26, -64
	.cfi_offset w28, -80
	.cfi_offset w30, -88
	.cfi_offset w29, -96
	sub	sp, sp, #1392
	mov	x20, x2
	mov	x21, x1
	cmp	x2, #2
	mov	x19, x0
	str	xzr, [sp]
	b.lo	.LBB33_5
	sub	x8, x20, #1
	add	x9, x21, #12
.LBB33_2:
	ldr	w10, [x9]
	ldur	w11, [x9, #-8]
	cmp	w10, w11
	b.ls	.LBB33_44
	subs	x8, x8, #1
	add	x9, x9, #8
	b.ne	.LBB33_2
	add	x0, sp, #12
	mov	w1, wzr
	mov	w2, #1300
	bl	tlsf_memory_set
	b	.LBB33_6
.LBB33_5:
	add	x0, sp, #12
	mov	w1, wzr
	mov	w2, #1300
	bl	tlsf_memory_set
	cbz	x20, .LBB33_45
.LBB33_6:
	add	x8, x20, x20, lsl #2
	add	x0, sp, #12
	mov	w1, wzr
	sub	x23, x29, #80
	add	x24, sp, #12
	lsl	x22, x8, #2
	mov	x2, x22
	bl	tlsf_memory_set
	add	x11, x24, x22
	mov	w9, #1
	mov	x8, xzr
	str	w9, [x11]
	sub	x9, x29, #32
	add	x10, x9, #5
	stur	xzr, [x11, #12]
	stur	xzr, [x11, #4]
	b	.LBB33_8
.LBB33_7:
	add	x8, x8, #1
	cmp	x8, #8
	b.eq	.LBB33_41
.LBB33_8:
	mov	x15, xzr
	mov	x11, x21
	add	x12, x21, #8
	add	x13, x21, #4
	b	.LBB33_10
.LBB33_9:
	mov	w16, #20
	add	x17, sp, #12
	add	x13, x13, #8
	madd	x15, x15, x16, x17
	ldr	x16, [x23, #32]
	ldur	w17, [x29, #-40]
	cmp	x14, x20
	add	x12, x12, #8
	add	x11, x11, #8
	str	x16, [x23]
	stur	w17, [x29, #-72]
	stp	w3, w18, [x15]
	str	x16, [x15, #8]
	str	w17, [x15, #16]
	mov	x15, x14
	b.eq	.LBB33_7
.LBB33_10:
	add	x14, x15, #1
	mov	w17, #20
	add	x0, sp, #12
	madd	x17, x14, x17, x0
	mov	x16, xzr
	mov	w18, wzr
	mov	w3, wzr
	sub	x0, x20, x15
	mov	x1, #-1
	mov	w2, #1
	str	xzr, [x23, #32]
	stur	wzr, [x29, #-40]
	b	.LBB33_15
.LBB33_11:
	stur	wzr, [x29, #-56]
	str	xzr, [x23, #16]
	cbz	w3, .LBB33_20
	ldr	x3, [x23, #32]
	ldur	w4, [x29, #-40]
.LBB33_13:
	str	x3, [x23, #48]
	mov	w3, #1
	stur	w4, [x29, #-24]
.LBB33_14:
	ldr	x4, [x23, #48]
	ldur	w5, [x29, #-24]
	cmp	x16, x0
	add	x2, x2, #1
	sub	x1, x1, #1
	str	x4, [x23, #32]
	stur	w5, [x29, #-40]
	b.eq	.LBB33_9
.LBB33_15:
	mov	w4, #20
	and	x5, x2, #0xfffffffffffffffe
	mov	x6, x13
	madd	x4, x16, x4, x17
	add	x16, x16, #1
	mov	x7, x2
.LBB33_16:
	ldr	w22, [x6], #8
	mov	w24, #65513
	movk	w24, #2047, lsl #16
	cmp	w22, w24
	b.hs	.LBB33_11
	subs	x7, x7, #1
	b.ne	.LBB33_16
	cmp	x16, #2
	b.hs	.LBB33_22
	mov	x5, xzr
	mov	x6, xzr
	b	.LBB33_25
.LBB33_20:
	mov	w4, wzr
.LBB33_21:
	ldr	x18, [x23, #16]
	ldur	w5, [x29, #-56]
	str	x18, [x23, #48]
	mov	w18, w4
	stur	w5, [x29, #-24]
	b	.LBB33_14
.LBB33_22:
	mov	x7, xzr
	mov	x22, xzr
	and	x6, x16, #0xfffffffffffffffe
	mov	x24, x12
.LBB33_23:
	ldur	w25, [x24, #-8]
	ldr	w26, [x24], #16
	subs	x5, x5, #2
	add	x7, x7, x25
	add	x22, x22, x26
	b.ne	.LBB33_23
	cmp	x16, x6
	add	x5, x22, x7
	b.eq	.LBB33_27
.LBB33_25:
	add	x7, x11, x6, lsl #3
	add	x6, x6, x1
.LBB33_26:
	ldr	w22, [x7], #8
	adds	x6, x6, #1
	add	x5, x5, x22
	b.lo	.LBB33_26
.LBB33_27:
	mov	x7, xzr
	mov	w6, wzr
	mov	x22, x2
	b	.LBB33_29
.LBB33_28:
	subs	x22, x22, #1
	add	x7, x7, #8
	b.eq	.LBB33_31
.LBB33_29:
	ldr	w24, [x11, x7]
	cbz	w24, .LBB33_28
	ldr	w24, [x13, x7]
	cmp	w24, w6
	csel	w6, w24, w6, hi
	b	.LBB33_28
.LBB33_31:
	mov	w7, w6
	cmp	w6, #0
	mov	w22, #26
	cinc	x6, x7, eq
	add	x6, x6, #31
	lsr	x6, x6, #3
	orr	w7, w6, #0x20
	sub	w6, w6, #1
	clz	w7, w7
	sub	w22, w22, w7
	lsr	w6, w6, w22
	add	w7, w6, #1
	add	w6, w7, w22, lsl #5
	lsr	w22, w6, #5
	cbz	w22, .LBB33_33
	mov	w6, #16
	and	w7, w7, #0x1f
	sub	w24, w22, #1
	lsl	w6, w6, w22
	lsl	w7, w7, w24
	add	w6, w7, w6
.LBB33_33:
	mov	w6, w6
	mov	w7, #16777216
	mul	x6, x5, x6
	mov	w5, #4
	cmp	x6, #4
	csel	x5, x6, x5, hi
	cmp	x6, x7
	b.hi	.LBB33_11
	ldrb	w6, [x4], #4
	cmp	w6, #1
	b.ne	.LBB33_11
	ldr	q0, [x4]
	str	q0, [x23, #48]
	ldurb	w4, [x29, #-28]
	ldur	w6, [x29, #-32]
	strb	w16, [x10, x4]
	add	w4, w4, #1
	sturb	w4, [x29, #-28]
	ldur	x4, [x9, #4]
	ldur	w7, [x9, #12]
	str	x4, [x23, #16]
	add	w4, w6, w5
	stur	w7, [x29, #-56]
	cbz	w3, .LBB33_38
	cmp	w4, w18
	b.hs	.LBB33_39
	ldr	x18, [x23, #16]
	ldur	w3, [x29, #-56]
	str	x18, [x23, #64]
	mov	w18, w4
	stur	w3, [x29, #-8]
	b	.LBB33_40
.LBB33_38:
	mov	w3, #1
	b	.LBB33_21
.LBB33_39:
	ldr	x3, [x23, #32]
	ldur	w4, [x29, #-40]
	str	x3, [x23, #64]
	stur	w4, [x29, #-8]
.LBB33_40:
	ldr	x3, [x23, #64]
	ldur	w4, [x29, #-8]
	b	.LBB33_13
.LBB33_41:
	ldrb	w10, [sp, #12]
	cmp	w10, #1
	b.ne	.LBB33_43
	ldp	s0, s1, [sp, #20]
	movi	v2.2d, #0x000000000000ff
	ldrb	w8, [sp, #28]
	ldr	w9, [sp, #16]
	ushll	v0.8h, v0.8b, #0
	ushll	v1.8h, v1.8b, #0
	ushll	v0.4s, v0.4h, #0
	ushll	v1.4s, v1.4h, #0
	ushll2	v3.2d, v0.4s, #0
	ushll	v0.2d, v0.2s, #0
	ushll2	v4.2d, v1.4s, #0
	ushll	v5.2d, v1.2s, #0
	and	v1.16b, v3.16b, v2.16b
	and	v0.16b, v0.16b, v2.16b
	and	v3.16b, v4.16b, v2.16b
	and	v2.16b, v5.16b, v2.16b
	b	.LBB33_46
.LBB33_43:
	mov	x8, xzr
	movi	v0.2d, #0000000000000000
	movi	v1.2d, #0000000000000000
	movi	v2.2d, #0000000000000000
	movi	v3.2d, #0000000000000000
	mov	x9, xzr
	b	.LBB33_46
.LBB33_44:
	movi	v0.2d, #0000000000000000
	str	xzr, [x19, #80]
	stp	q0, q0, [x19, #16]
	stp	q0, q0, [x19, #48]
	str	q0, [x19]
	b	.LBB33_47
.LBB33_45:
	mov	x8, xzr
	mov	x9, xzr
	movi	v0.2d, #0000000000000000
	movi	v1.2d, #0000000000000000
	movi	v2.2d, #0000000000000000
	movi	v3.2d, #0000000000000000
	mov	w10, #1
.LBB33_46:
	mov	w10, w10
	stur	q0, [x19, #8]
	str	x10, [x19]
	stur	q1, [x19, #24]
	stur	q2, [x19, #40]
	stur	q3, [x19, #56]
	stp	x8, x9, [x19, #72]
.LBB33_47:
	add	sp, sp, #1392
	.cfi_def_cfa wsp, 96
	ldp	x20, x19, [sp, #80]
	ldr	x28, [sp, #16]
	ldp	x22, x21, [sp, #64]
	ldp	x24, x23, [sp, #48]
	ldp	x26, x25, [sp, #32]
	ldp	x29, x30, [sp], #96
	.cfi_def_cfa_offset 0
	.cfi_restore w19
	.cfi_restore w20
	.cfi_restore w21
	.cfi_restore w22
	.cfi_restore w23
	.cfi_restore w24
	.cfi_restore w25
	.cfi_restore w26
	.cfi_restore w28
	.cfi_restore w30
	.cfi_restore w29
	ret
.Lfunc_end33:
	.size	"tlsf_pool::sizes::split::rising_split::<=5>", .Lfunc_end33-"tlsf_pool::sizes::split::rising_split::<=5>"
	.cfi_endproc
	.section	".text.unlikely.std_alloc::vec::Vec::grow_amortized::<#cb831ce0f1fbfa3d>","ax",@progbits
	.p2align	2
	.type	"std_alloc::vec::Vec::grow_amortized::<#cb831ce0f1fbfa3d>",@function
"std_alloc::vec::Vec::grow_amortized::<#cb831ce0f1fbfa3d>":
	.cfi_startproc
	ldr	x8, [x0, #8]
	cmn	x8, #1
	b.eq	.LBB34_5
	stp	x29, x30, [sp, #-32]!
	.cfi_def_cfa_offset 32
	stp	x20, x19, [sp, #16]
	mov	x29, sp
	.cfi_def_cfa w29, 32
	.cfi_offset w19, -8
	.cfi_offset w20, -16
	.cfi_offset w30, -24
	.cfi_offset w29, -32
	.cfi_remember_state
	ldr	x9, [x0, #16]
	add	x11, x8, #1
	lsl	x10, x9, #1
	lsr	x12, x9, #62
	cmp	x11, x10
	mov	x11, #25350
	movk	x11, #2253, lsl #16
	csinc	x10, x10, x8, ls
	cmp	x12, #0
	movk	x11, #48260, lsl #32
	csinc	x19, x10, x8, eq
	movk	x11, #11, lsl #48
	cmp	x19, x11
	b.hi	.LBB34_7
	cbz	x9, .LBB34_6
	mov	w9, #2792
	mov	x20, x0
	ldr	x0, [x0]
	mul	x1, x8, x9
	mov	w3, #8
	mul	x2, x19, x9
	bl	tlsf_memory_realloc
	tbz	w0, #0, .LBB34_7
.LBB34_4:
	mov	w0, #1
	str	x1, [x20]
	str	x19, [x20, #16]
	.cfi_def_cfa wsp, 32
	ldp	x20, x19, [sp, #16]
	ldp	x29, x30, [sp], #32
	.cfi_def_cfa_offset 0
	.cfi_restore w19
	.cfi_restore w20
	.cfi_restore w30
	.cfi_restore w29
	ret
.LBB34_5:
	mov	w0, wzr
	ret
.LBB34_6:
	.cfi_restore_state
	mov	w8, #2792
	mov	x20, x0
	mov	w1, #8
	mul	x0, x10, x8
	bl	tlsf_memory_alloc
	tbnz	w0, #0, .LBB34_4
.LBB34_7:
	mov	w0, wzr
	.cfi_def_cfa wsp, 32
	ldp	x20, x19, [sp, #16]
	ldp	x29, x30, [sp], #32
	.cfi_def_cfa_offset 0
	.cfi_restore w19
	.cfi_restore w20
	.cfi_restore w30
	.cfi_restore w29
	ret
.Lfunc_end34:
	.size	"std_alloc::vec::Vec::grow_amortized::<#cb831ce0f1fbfa3d>", .Lfunc_end34-"std_alloc::vec::Vec::grow_amortized::<#cb831ce0f1fbfa3d>"
	.cfi_endproc
	.section	".text.tlsf_heap::region::Region::read::<=4>","ax",@progbits
	.p2align	2
	.type	"tlsf_heap::region::Region::read::<=4>",@function
"tlsf_heap::region::Region::read::<=4>":
	.cfi_startproc
	ubfiz	x9, x1, #3, #32
	orr	w8, w4, w2
	tst	x8, #0x7
	add	x9, x9, w2, uxtw
	add	x1, x9, #24
	b.eq	.LBB35_3
	mov	x2, x3
	mov	x3, x4
	cmp	x4, #7
	b.hi	.LBB35_8
	b	"tlsf_words::words::Words::read_few"
.LBB35_3:
	ldr	x8, [x0]
	cmp	x4, #63
	add	x0, x8, x1
	b.hi	.LBB35_9
	tbnz	w4, #3, .LBB35_10
	tbnz	w4, #4, .LBB35_11
.LBB35_6:
	cmp	x4, #25
	b.hs	.LBB35_12
.LBB35_7:
	ret
.LBB35_8:
	b	"tlsf_words::words::Words::read_run"
.LBB35_9:
	lsr	x1, x4, #3
	mov	x2, x3
	b	"tlsf_words::cells::unpack_many"
.LBB35_10:
	sub	x8, x4, #8
	ldr	x9, [x0, x8]
	str	x9, [x3, x8]
	tbz	w4, #4, .LBB35_6
.LBB35_11:
	and	x8, x4, #0x20
	ldr	x9, [x0, x8]
	str	x9, [x3, x8]
	orr	x8, x8, #0x8
	ldr	x9, [x0, x8]
	str	x9, [x3, x8]
	cmp	x4, #25
	b.lo	.LBB35_7
.LBB35_12:
	ldr	x8, [x0]
	str	x8, [x3]
	ldr	x8, [x0, #8]
	str	x8, [x3, #8]
	ldr	x8, [x0, #16]
	str	x8, [x3, #16]
	ldr	x8, [x0, #24]
	str	x8, [x3, #24]
	ret
.Lfunc_end35:
	.size	"tlsf_heap::region::Region::read::<=4>", .Lfunc_end35-"tlsf_heap::region::Region::read::<=4>"
	.cfi_endproc
	.section	".text.tlsf_words::cells::unpack_many","ax",@progbits
	.p2align	2
	.type	"tlsf_words::cells::unpack_many",@function
"tlsf_words::cells::unpack_many":
	.cfi_startproc
	and	x8, x1, #0xfffffffffffffffc
	lsl	x10, x8, #3
	add	x9, x2, x10
	add	x10, x0, x10
	tbnz	w1, #0, .LBB36_3
	tbnz	w1, #1, .LBB36_4
.LBB36_2:
	sub	x9, x2, x0
	cmp	x9, #32
	b.lo	.LBB36_5
	b	.LBB36_6
.LBB36_3:
	ubfiz	x11, x1, #3, #2
	sub	x11, x11, #8
	ldr	x12, [x10, x11]
	str	x12, [x9, x11]
	tbz	w1, #1, .LBB36_2
.LBB36_4:
	ldr	x11, [x10]
	str	x11, [x9]
	ldr	x10, [x10, #8]
	str	x10, [x9, #8]
	sub	x9, x2, x0
	cmp	x9, #32
	b.hs	.LBB36_6
.LBB36_5:
	ldr	x9, [x0], #8
	subs	x8, x8, #1
	str	x9, [x2], #8
	b.ne	.LBB36_5
	b	.LBB36_8
.LBB36_6:
	add	x9, x0, #16
	add	x10, x2, #16
.LBB36_7:
	ldp	q0, q1, [x9, #-16]
	subs	x8, x8, #4
	add	x9, x9, #32
	stp	q0, q1, [x10, #-16]
	add	x10, x10, #32
	b.ne	.LBB36_7
.LBB36_8:
	ret
.Lfunc_end36:
	.size	"tlsf_words::cells::unpack_many", .Lfunc_end36-"tlsf_words::cells::unpack_many"
	.cfi_endproc
	.section	".text.tlsf_words::words::Words::read_few","ax",@progbits
	.p2align	2
	.type	"tlsf_words::words::Words::read_few",@function
"tlsf_words::words::Words::read_few":
	.cfi_startproc
	sub	sp, sp, #80
	.cfi_def_cfa_offset 80
	stp	x29, x30, [sp, #16]
	stp	x24, x23, [sp, #32]
	stp	x22, x21, [sp, #48]
	stp	x20, x19, [sp, #64]
	add	x29, sp, #16
	.cfi_def_cfa w29, 64
	.cfi_offset w19, -8
	.cfi_offset w20, -16
	.cfi_offset w21, -24
	.cfi_offset w22, -32
	.cfi_offset w23, -40
	.cfi_offset w24, -48
	.cfi_offset w30, -56
	.cfi_offset w29, -64
	and	x8, x1, #0x7
	mov	w9, #8
	mov	x20, x3
	sub	x24, x9, x8
	mov	x19, x2
	mov	x22, x0
	cmp	x24, x3
	and	x23, x1, #0xffffffff8
	csel	x21, x24, x3, lo
	cbz	x3, .LBB37_2
	ldr	x9, [x22]
	mov	x0, x19
	mov	x2, x21
	ldr	x9, [x9, x23]
	str	x9, [sp, #8]
	add	x9, sp, #8
	orr	x1, x9, x8
	bl	tlsf_memory_cpy
.LBB37_2:
	cmp	x20, x24
	b.ls	.LBB37_4
	ldr	x8, [x22]
	sub	x2, x20, x21
	add	x0, x19, x21
	add	x1, sp, #8
	add	x8, x8, x23
	ldr	x8, [x8, #8]
	str	x8, [sp, #8]
	bl	tlsf_memory_cpy
.LBB37_4:
	.cfi_def_cfa wsp, 80
	ldp	x20, x19, [sp, #64]
	ldp	x22, x21, [sp, #48]
	ldp	x24, x23, [sp, #32]
	ldp	x29, x30, [sp, #16]
	add	sp, sp, #80
	.cfi_def_cfa_offset 0
	.cfi_restore w19
	.cfi_restore w20
	.cfi_restore w21
	.cfi_restore w22
	.cfi_restore w23
	.cfi_restore w24
	.cfi_restore w30
	.cfi_restore w29
	ret
.Lfunc_end37:
	.size	"tlsf_words::words::Words::read_few", .Lfunc_end37-"tlsf_words::words::Words::read_few"
	.cfi_endproc
	.section	".text.tlsf_words::words::Words::read_run","ax",@progbits
	.p2align	2
	.type	"tlsf_words::words::Words::read_run",@function
"tlsf_words::words::Words::read_run":
	.cfi_startproc
	neg	w8, w1
	ands	x11, x1, #0x7
	and	x9, x8, #0x7
	sub	x10, x3, x9
	bfxil	x10, x8, #0, #3
	sub	x8, x3, x9
	b.eq	.LBB38_2
	ldr	x12, [x0]
	and	x13, x1, #0xffffffff8
	lsl	x11, x11, #3
	ldr	x12, [x12, x13]
	lsr	x11, x12, x11
	str	x11, [x2]
.LBB38_2:
	subs	x11, x10, x3
	add	x10, x1, #7
	b.eq	.LBB38_4
	and	x12, x8, #0xfffffffffffffff8
	ldr	x13, [x0]
	lsl	x11, x11, #3
	add	x12, x10, x12
	mov	x14, #-1
	and	x12, x12, #0xfffffffffffffff8
	lsl	x14, x14, x11
	ldr	x12, [x13, x12]
	add	x13, x2, x3
	ldur	x15, [x13, #-8]
	lsl	x11, x12, x11
	bic	x12, x15, x14
	add	x11, x12, x11
	stur	x11, [x13, #-8]
.LBB38_4:
	ldr	x11, [x0]
	and	x10, x10, #0x1ffffffff8
	cmp	x8, #63
	add	x2, x2, x9
	add	x0, x11, x10
	b.hi	.LBB38_9
	tbnz	w8, #3, .LBB38_10
	tbnz	w8, #4, .LBB38_11
.LBB38_7:
	cmp	x8, #32
	b.hs	.LBB38_12
.LBB38_8:
	ret
.LBB38_9:
	lsr	x1, x8, #3
	b	"tlsf_words::cells::unpack_many"
.LBB38_10:
	and	x9, x8, #0x38
	sub	x9, x9, #8
	ldr	x10, [x0, x9]
	str	x10, [x2, x9]
	tbz	w8, #4, .LBB38_7
.LBB38_11:
	and	x9, x8, #0x20
	ldr	x10, [x0, x9]
	str	x10, [x2, x9]
	orr	x9, x9, #0x8
	ldr	x10, [x0, x9]
	str	x10, [x2, x9]
	cmp	x8, #32
	b.lo	.LBB38_8
.LBB38_12:
	ldr	x8, [x0]
	str	x8, [x2]
	ldr	x8, [x0, #8]
	str	x8, [x2, #8]
	ldr	x8, [x0, #16]
	str	x8, [x2, #16]
	ldr	x8, [x0, #24]
	str	x8, [x2, #24]
	ret
.Lfunc_end38:
	.size	"tlsf_words::words::Words::read_run", .Lfunc_end38-"tlsf_words::words::Words::read_run"
	.cfi_endproc
	.section	".text.tlsf_heap::region::Region::read::<=5>","ax",@progbits
	.p2align	2
	.type	"tlsf_heap::region::Region::read::<=5>",@function
"tlsf_heap::region::Region::read::<=5>":
	.cfi_startproc
	ubfiz	x9, x1, #3, #32
	orr	w8, w4, w2
	tst	x8, #0x7
	add	x9, x9, w2, uxtw
	add	x1, x9, #24
	b.eq	.LBB39_3
	mov	x2, x3
	mov	x3, x4
	cmp	x4, #7
	b.hi	.LBB39_8
	b	"tlsf_words::words::Words::read_few"
.LBB39_3:
	ldr	x8, [x0]
	cmp	x4, #63
	add	x0, x8, x1
	b.hi	.LBB39_9
	tbnz	w4, #3, .LBB39_10
	tbnz	w4, #4, .LBB39_11
.LBB39_6:
	cmp	x4, #25
	b.hs	.LBB39_12
.LBB39_7:
	ret
.LBB39_8:
	b	"tlsf_words::words::Words::read_run"
.LBB39_9:
	lsr	x1, x4, #3
	mov	x2, x3
	b	"tlsf_words::cells::unpack_many"
.LBB39_10:
	sub	x8, x4, #8
	ldr	x9, [x0, x8]
	str	x9, [x3, x8]
	tbz	w4, #4, .LBB39_6
.LBB39_11:
	and	x8, x4, #0x20
	ldr	x9, [x0, x8]
	str	x9, [x3, x8]
	orr	x8, x8, #0x8
	ldr	x9, [x0, x8]
	str	x9, [x3, x8]
	cmp	x4, #25
	b.lo	.LBB39_7
.LBB39_12:
	ldr	x8, [x0]
	str	x8, [x3]
	ldr	x8, [x0, #8]
	str	x8, [x3, #8]
	ldr	x8, [x0, #16]
	str	x8, [x3, #16]
	ldr	x8, [x0, #24]
	str	x8, [x3, #24]
	ret
.Lfunc_end39:
	.size	"tlsf_heap::region::Region::read::<=5>", .Lfunc_end39-"tlsf_heap::region::Region::read::<=5>"
	.cfi_endproc
	.section	".text.tlsf_c::queue_end::take_once","ax",@progbits
	.p2align	2
	.type	"tlsf_c::queue_end::take_once",@function
"tlsf_c::queue_end::take_once":
	.cfi_startproc
	sub	sp, sp, #128
	.cfi_def_cfa_offset 128
	.cfi_remember_state
	ldr	x8, [x1]
	stp	xzr, xzr, [sp, #16]
	stp	xzr, xzr, [sp]
	ldr	x9, [x8, #8]
	stp	xzr, xzr, [sp, #32]
	stp	xzr, xzr, [sp, #64]
	stp	xzr, xzr, [sp, #48]
	add	x9, x9, #256
	ldar	x9, [x9]
	ldr	x10, [x8, #80]
	ldr	x12, [x8, #8]
	lsr	x13, x9, #62
	sub	x10, x10, #1
	and	x11, x10, x9
	cmp	x13, #2
	lsl	x10, x11, #3
	add	x12, x12, x10
	add	x12, x12, #384
	ldar	x12, [x12]
	b.hi	.LBB40_9
	add	x13, x9, #1
	cmp	x12, x13
	b.ne	.LBB40_9
	ldr	x13, [x8, #72]
	add	x14, x11, #1
	stp	xzr, xzr, [sp, #112]
	str	xzr, [sp, #104]
	cmp	x14, x13
	stp	xzr, xzr, [sp, #80]
	b.lo	.LBB40_4
	ldr	x12, [x8, #80]
	sub	x13, x9, x11
	add	x12, x13, x12
.LBB40_4:
	ldr	x13, [x8, #8]
	add	x13, x13, #256
.LBB40_5:
	ldaxr	x14, [x13]
	cmp	x14, x9
	b.ne	.LBB40_11
	stlxr	w14, x12, [x13]
	cbnz	w14, .LBB40_5
	ldr	x12, [x8, #16]
	ldur	q0, [sp, #104]
	ldr	x13, [sp, #120]
	add	x12, x12, x11, lsl #5
	ldr	x11, [x12, #8]
	ldr	q1, [x12, #16]
	stur	q0, [x12, #8]
	ldrb	w14, [x12]
	str	xzr, [x12]
	str	x13, [x12, #24]
	ldr	x12, [x8, #8]
	ldr	x8, [x8, #80]
	str	q1, [sp, #80]
	cmp	w14, #1
	add	x10, x12, x10
	add	x8, x8, x9
	add	x9, x10, #384
	stlr	x8, [x9]
	b.ne	.LBB40_12
	ldr	q0, [sp, #80]
	strh	wzr, [x0]
	str	x11, [x0, #8]
	str	q0, [sp, #16]
	str	q0, [x0, #16]
	add	sp, sp, #128
	.cfi_def_cfa_offset 0
	ret
.LBB40_9:
	.cfi_restore_state
	.cfi_remember_state
	ldr	q0, [sp, #64]
	str	q0, [sp, #16]
.LBB40_10:
	ldr	x8, [x1]
	ldr	x9, [x8, #8]
	add	x9, x9, #256
	ldar	x9, [x9]
	ldr	x8, [x8, #8]
	add	x8, x8, #128
	ldar	x8, [x8]
	str	xzr, [x0, #8]
	ldr	q0, [sp]
	cmp	x8, x9
	mov	w8, #1
	mov	w9, #8
	strb	w8, [x0]
	cinc	w8, w9, ne
	strb	w8, [x0, #1]
	str	q0, [x0, #16]
	add	sp, sp, #128
	.cfi_def_cfa_offset 0
	ret
.LBB40_11:
	.cfi_restore_state
	clrex
	stp	xzr, xzr, [sp, #16]
	b	.LBB40_10
.LBB40_12:
	brk	#0x1
.Lfunc_end40:
	.size	"tlsf_c::queue_end::take_once", .Lfunc_end40-"tlsf_c::queue_end::take_once"
	.cfi_endproc
	.section	".text.unlikely.std_alloc::vec::Vec::grow_amortized::<#94730218a1e37034>","ax",@progbits
	.p2align	2
	.type	"std_alloc::vec::Vec::grow_amortized::<#94730218a1e37034>",@function
"std_alloc::vec::Vec::grow_amortized::<#94730218a1e37034>":
	.cfi_startproc
	ldr	x8, [x0, #8]
	cmn	x8, #1
	b.eq	.LBB41_5
	stp	x29, x30, [sp, #-32]!
	.cfi_def_cfa_offset 32
	stp	x20, x19, [sp, #16]
	mov	x29, sp
	.cfi_def_cfa w29, 32
	.cfi_offset w19, -8
	.cfi_offset w20, -16
	.cfi_offset w30, -24
	.cfi_offset w29, -32
	.cfi_remember_state
	ldr	x9, [x0, #16]
	cmp	x8, #3
	mov	w10, #3
	csel	x11, x8, x10, hi
	lsl	x10, x9, #1
	add	x12, x11, #1
	lsr	x13, x9, #62
	cmp	x12, x10
	csinc	x10, x10, x11, ls
	cmp	x13, #0
	csinc	x19, x10, x11, eq
	lsr	x11, x19, #58
	cbnz	x11, .LBB41_7
	cbz	x9, .LBB41_6
	mov	x20, x0
	ldr	x0, [x0]
	lsl	x1, x8, #5
	lsl	x2, x19, #5
	mov	w3, #8
	bl	tlsf_memory_realloc
	tbz	w0, #0, .LBB41_7
.LBB41_4:
	mov	w0, #1
	str	x1, [x20]
	str	x19, [x20, #16]
	.cfi_def_cfa wsp, 32
	ldp	x20, x19, [sp, #16]
	ldp	x29, x30, [sp], #32
	.cfi_def_cfa_offset 0
	.cfi_restore w19
	.cfi_restore w20
	.cfi_restore w30
	.cfi_restore w29
	ret
.LBB41_5:
	mov	w0, wzr
	ret
.LBB41_6:
	.cfi_restore_state
	mov	x20, x0
	lsl	x0, x10, #5
	mov	w1, #8
	bl	tlsf_memory_alloc
	tbnz	w0, #0, .LBB41_4
.LBB41_7:
	mov	w0, wzr
	.cfi_def_cfa wsp, 32
	ldp	x20, x19, [sp, #16]
	ldp	x29, x30, [sp], #32
	.cfi_def_cfa_offset 0
	.cfi_restore w19
	.cfi_restore w20
	.cfi_restore w30
	.cfi_restore w29
	ret
.Lfunc_end41:
	.size	"std_alloc::vec::Vec::grow_amortized::<#94730218a1e37034>", .Lfunc_end41-"std_alloc::vec::Vec::grow_amortized::<#94730218a1e37034>"
	.cfi_endproc
	.section	".text.tlsf_post::mailboxes::send_out","ax",@progbits
	.p2align	2
	.type	"tlsf_post::mailboxes::send_out",@function
"tlsf_post::mailboxes::send_out":
	.cfi_startproc
	cmp	w1, w2
	b.hs	.LBB42_8
.LBB42_1:
	mov	x9, #9223372036854775806
	ldar	x8, [x0]
	cmp	x8, x9
	b.hi	.LBB42_7
.LBB42_2:
	add	x9, x8, #1
.LBB42_3:
	ldaxr	x10, [x0]
	cmp	x10, x8
	b.ne	.LBB42_6
	stlxr	w10, x9, [x0]
	cbnz	w10, .LBB42_3
	ldr	x8, [x0, #8]
	ldar	xzr, [x8]
	ldp	x9, x8, [x3]
	add	x9, x9, x8, lsl #4
	add	x8, x8, #1
	stp	w1, wzr, [x9, #8]
	add	w1, w1, #1
	cmp	w1, w2
	str	x0, [x9]
	str	x8, [x3, #8]
	b.ne	.LBB42_1
	b	.LBB42_8
.LBB42_6:
	clrex
	mov	x9, #9223372036854775806
	ldar	x8, [x0]
	cmp	x8, x9
	b.ls	.LBB42_2
.LBB42_7:
	mov	w0, #1
	ret
.LBB42_8:
	mov	w0, wzr
	ret
.Lfunc_end42:
	.size	"tlsf_post::mailboxes::send_out", .Lfunc_end42-"tlsf_post::mailboxes::send_out"
	.cfi_endproc
	.section	".text.std_alloc::arc::Arc::drop::<#f29941b0e8355977>","ax",@progbits
	.p2align	2
	.type	"std_alloc::arc::Arc::drop::<#f29941b0e8355977>",@function
"std_alloc::arc::Arc::drop::<#f29941b0e8355977>":
	.cfi_startproc
	stp	x29, x30, [sp, #-32]!
	.cfi_def_cfa_offset 32
	stp	x20, x19, [sp, #16]
	mov	x29, sp
	.cfi_def_cfa w29, 32
	.cfi_offset w19, -8
	.cfi_offset w20, -16
	.cfi_offset w30, -24
	.cfi_offset w29, -32
	.cfi_remember_state
.LBB43_1:
	ldaxr	x8, [x0]
	subs	x8, x8, #1
	stlxr	w9, x8, [x0]
	cbnz	w9, .LBB43_1
	b.ne	.LBB43_4
	ldr	x19, [x0, #40]
	ldr	x20, [x0, #56]
	bl	tlsf_memory_dealloc
	mov	x0, x19
	bl	tlsf_memory_dealloc
	mov	x0, x20
	.cfi_def_cfa wsp, 32
	ldp	x20, x19, [sp, #16]
	ldp	x29, x30, [sp], #32
	.cfi_def_cfa_offset 0
	.cfi_restore w19
	.cfi_restore w20
	.cfi_restore w30
	.cfi_restore w29
	b	tlsf_memory_dealloc
.LBB43_4:
	.cfi_restore_state
	.cfi_def_cfa wsp, 32
	ldp	x20, x19, [sp, #16]
	ldp	x29, x30, [sp], #32
	.cfi_def_cfa_offset 0
	.cfi_restore w19
	.cfi_restore w20
	.cfi_restore w30
	.cfi_restore w29
	ret
.Lfunc_end43:
	.size	"std_alloc::arc::Arc::drop::<#f29941b0e8355977>", .Lfunc_end43-"std_alloc::arc::Arc::drop::<#f29941b0e8355977>"
	.cfi_endproc
	.section	".text.std_alloc::vec::Vec::drop::<#05316b64237a7125>","ax",@progbits
	.p2align	2
	.type	"std_alloc::vec::Vec::drop::<#05316b64237a7125>",@function
"std_alloc::vec::Vec::drop::<#05316b64237a7125>":
	.cfi_startproc
	stp	x29, x30, [sp, #-64]!
	.cfi_def_cfa_offset 64
	stp	x24, x23, [sp, #16]
	stp	x22, x21, [sp, #32]
	stp	x20, x19, [sp, #48]
	mov	x29, sp
	.cfi_def_cfa w29, 64
	.cfi_offset w19, -8
	.cfi_offset w20, -16
	.cfi_offset w21, -24
	.cfi_offset w22, -32
	.cfi_offset w23, -40
	.cfi_offset w24, -48
	.cfi_offset w30, -56
	.cfi_offset w29, -64
	.cfi_remember_state
	ldp	x19, x22, [x0]
	ldr	x23, [x0, #16]
	cbz	x22, .LBB44_7
	mov	x24, xzr
	b	.LBB44_3
.LBB44_2:
	add	x24, x24, #1
	cmp	x24, x22
	b.eq	.LBB44_7
.LBB44_3:
	lsl	x8, x24, #4
	ldr	x0, [x19, x8]
.LBB44_4:
	ldaxr	x8, [x0]
	subs	x8, x8, #1
	stlxr	w9, x8, [x0]
	cbnz	w9, .LBB44_4
	b.ne	.LBB44_2
	ldr	x20, [x0, #40]
	ldr	x21, [x0, #56]
	bl	tlsf_memory_dealloc
	mov	x0, x20
	bl	tlsf_memory_dealloc
	mov	x0, x21
	bl	tlsf_memory_dealloc
	b	.LBB44_2
.LBB44_7:
	cbz	x23, .LBB44_9
	mov	x0, x19
	.cfi_def_cfa wsp, 64
	ldp	x20, x19, [sp, #48]
	ldp	x22, x21, [sp, #32]
	ldp	x24, x23, [sp, #16]
	ldp	x29, x30, [sp], #64
	.cfi_def_cfa_offset 0
	.cfi_restore w19
	.cfi_restore w20
	.cfi_restore w21
	.cfi_restore w22
	.cfi_restore w23
	.cfi_restore w24
	.cfi_restore w30
	.cfi_restore w29
	b	tlsf_memory_dealloc
.LBB44_9:
	.cfi_restore_state
	.cfi_def_cfa wsp, 64
	ldp	x20, x19, [sp, #48]
	ldp	x22, x21, [sp, #32]
	ldp	x24, x23, [sp, #16]
	ldp	x29, x30, [sp], #64
	.cfi_def_cfa_offset 0
	.cfi_restore w19
	.cfi_restore w20
	.cfi_restore w21
	.cfi_restore w22
	.cfi_restore w23
	.cfi_restore w24
	.cfi_restore w30
	.cfi_restore w29
	ret
.Lfunc_end44:
	.size	"std_alloc::vec::Vec::drop::<#05316b64237a7125>", .Lfunc_end44-"std_alloc::vec::Vec::drop::<#05316b64237a7125>"
	.cfi_endproc
	.section	".text.std_alloc::vec::deque::VecDeque::drop::<#ca3d8856d46a41b8>","ax",@progbits
	.p2align	2
	.type	"std_alloc::vec::deque::VecDeque::drop::<#ca3d8856d46a41b8>",@function
"std_alloc::vec::deque::VecDeque::drop::<#ca3d8856d46a41b8>":
	.cfi_startproc
	stp	x29, x30, [sp, #-80]!
	.cfi_def_cfa_offset 80
	str	x25, [sp, #16]
	stp	x24, x23, [sp, #32]
	stp	x22, x21, [sp, #48]
	stp	x20, x19, [sp, #64]
	mov	x29, sp
	.cfi_def_cfa w29, 80
	.cfi_offset w19, -8
	.cfi_offset w20, -16
	.cfi_offset w21, -24
	.cfi_offset w22, -32
	.cfi_offset w23, -40
	.cfi_offset w24, -48
	.cfi_offset w25, -64
	.cfi_offset w30, -72
	.cfi_offset w29, -80
	.cfi_remember_state
	ldp	x19, x8, [x0]
	ldr	x22, [x0, #16]
	cbz	x8, .LBB45_14
	ldp	x24, x23, [x0, #24]
	sub	x8, x8, x23
	add	x25, x24, x8
	cmp	x24, x25
	b.lo	.LBB45_10
.LBB45_2:
	cbz	x23, .LBB45_14
	mov	x24, xzr
	b	.LBB45_5
.LBB45_4:
	add	x24, x24, #1
	cmp	x24, x23
	b.eq	.LBB45_14
.LBB45_5:
	lsl	x8, x24, #4
	ldr	x0, [x19, x8]
.LBB45_6:
	ldaxr	x8, [x0]
	subs	x8, x8, #1
	stlxr	w9, x8, [x0]
	cbnz	w9, .LBB45_6
	b.ne	.LBB45_4
	ldr	x20, [x0, #40]
	ldr	x21, [x0, #56]
	bl	tlsf_memory_dealloc
	mov	x0, x20
	bl	tlsf_memory_dealloc
	mov	x0, x21
	bl	tlsf_memory_dealloc
	b	.LBB45_4
.LBB45_9:
	add	x24, x24, #1
	cmp	x24, x25
	b.eq	.LBB45_2
.LBB45_10:
	lsl	x8, x24, #4
	ldr	x0, [x19, x8]
.LBB45_11:
	ldaxr	x8, [x0]
	subs	x8, x8, #1
	stlxr	w9, x8, [x0]
	cbnz	w9, .LBB45_11
	b.ne	.LBB45_9
	ldr	x20, [x0, #40]
	ldr	x21, [x0, #56]
	bl	tlsf_memory_dealloc
	mov	x0, x20
	bl	tlsf_memory_dealloc
	mov	x0, x21
	bl	tlsf_memory_dealloc
	b	.LBB45_9
.LBB45_14:
	cbz	x22, .LBB45_16
	mov	x0, x19
	.cfi_def_cfa wsp, 80
	ldp	x20, x19, [sp, #64]
	ldr	x25, [sp, #16]
	ldp	x22, x21, [sp, #48]
	ldp	x24, x23, [sp, #32]
	ldp	x29, x30, [sp], #80
	.cfi_def_cfa_offset 0
	.cfi_restore w19
	.cfi_restore w20
	.cfi_restore w21
	.cfi_restore w22
	.cfi_restore w23
	.cfi_restore w24
	.cfi_restore w25
	.cfi_restore w30
	.cfi_restore w29
	b	tlsf_memory_dealloc
.LBB45_16:
	.cfi_restore_state
	.cfi_def_cfa wsp, 80
	ldp	x20, x19, [sp, #64]
	ldr	x25, [sp, #16]
	ldp	x22, x21, [sp, #48]
	ldp	x24, x23, [sp, #32]
	ldp	x29, x30, [sp], #80
	.cfi_def_cfa_offset 0
	.cfi_restore w19
	.cfi_restore w20
	.cfi_restore w21
	.cfi_restore w22
	.cfi_restore w23
	.cfi_restore w24
	.cfi_restore w25
	.cfi_restore w30
	.cfi_restore w29
	ret
.Lfunc_end45:
	.size	"std_alloc::vec::deque::VecDeque::drop::<#ca3d8856d46a41b8>", .Lfunc_end45-"std_alloc::vec::deque::VecDeque::drop::<#ca3d8856d46a41b8>"
	.cfi_endproc
	.section	".text.tlsf_words::cells::copy_run","ax",@progbits
	.p2align	2
	.type	"tlsf_words::cells::copy_run",@function
"tlsf_words::cells::copy_run":
	.cfi_startproc
	lsl	x10, x2, #3
	lsl	x9, x1, #3
	mov	x8, x2
	lsl	x2, x3, #3
	sub	x11, x10, x9
	cmp	x2, x11
	b.ls	.LBB46_2
.LBB46_1:
	ret
.LBB46_2:
	add	x11, x3, x1
	cmp	x11, x8
	b.ls	.LBB46_4
	add	x8, x3, x8
	cmp	x8, x1
	b.hi	.LBB46_1
.LBB46_4:
	mov	x8, x0
	add	x0, x0, x10
	add	x1, x8, x9
	b	tlsf_memory_move
.Lfunc_end46:
	.size	"tlsf_words::cells::copy_run", .Lfunc_end46-"tlsf_words::cells::copy_run"
	.cfi_endproc
	.section	".text.tlsf_heap::region::Region::write::<=4>","ax",@progbits
	.p2align	2
	.type	"tlsf_heap::region::Region::write::<=4>",@function
"tlsf_heap::region::Region::write::<=4>":
	.cfi_startproc
	ubfiz	x9, x1, #3, #32
	orr	w8, w4, w2
	tst	x8, #0x7
	add	x9, x9, w2, uxtw
	add	x1, x9, #24
	b.eq	.LBB47_3
	mov	x2, x3
	mov	x3, x4
	cmp	x4, #7
	b.hi	.LBB47_8
	b	"tlsf_words::words::Words::write_few"
.LBB47_3:
	ldr	x8, [x0]
	cmp	x4, #63
	add	x0, x8, x1
	b.hi	.LBB47_9
	tbnz	w4, #3, .LBB47_10
	tbnz	w4, #4, .LBB47_11
.LBB47_6:
	cmp	x4, #25
	b.hs	.LBB47_12
.LBB47_7:
	ret
.LBB47_8:
	b	"tlsf_words::words::Words::write_run"
.LBB47_9:
	lsr	x1, x4, #3
	mov	x2, x3
	b	"tlsf_words::cells::pack_many"
.LBB47_10:
	sub	x8, x4, #8
	ldr	x9, [x3, x8]
	str	x9, [x0, x8]
	tbz	w4, #4, .LBB47_6
.LBB47_11:
	and	x8, x4, #0x20
	ldr	x9, [x3, x8]
	str	x9, [x0, x8]
	orr	x8, x8, #0x8
	ldr	x9, [x3, x8]
	str	x9, [x0, x8]
	cmp	x4, #25
	b.lo	.LBB47_7
.LBB47_12:
	ldr	x8, [x3]
	str	x8, [x0]
	ldr	x8, [x3, #8]
	str	x8, [x0, #8]
	ldr	x8, [x3, #16]
	str	x8, [x0, #16]
	ldr	x8, [x3, #24]
	str	x8, [x0, #24]
	ret
.Lfunc_end47:
	.size	"tlsf_heap::region::Region::write::<=4>", .Lfunc_end47-"tlsf_heap::region::Region::write::<=4>"
	.cfi_endproc
	.section	".text.tlsf_words::cells::pack_many","ax",@progbits
	.p2align	2
	.type	"tlsf_words::cells::pack_many",@function
"tlsf_words::cells::pack_many":
	.cfi_startproc
	and	x8, x1, #0xfffffffffffffffc
	lsl	x10, x8, #3
	add	x9, x0, x10
	add	x10, x2, x10
	tbnz	w1, #0, .LBB48_3
	tbnz	w1, #1, .LBB48_4
.LBB48_2:
	sub	x9, x0, x2
	cmp	x9, #32
	b.lo	.LBB48_5
	b	.LBB48_6
.LBB48_3:
	ubfiz	x11, x1, #3, #2
	sub	x11, x11, #8
	ldr	x12, [x10, x11]
	str	x12, [x9, x11]
	tbz	w1, #1, .LBB48_2
.LBB48_4:
	ldr	x11, [x10]
	str	x11, [x9]
	ldr	x10, [x10, #8]
	str	x10, [x9, #8]
	sub	x9, x0, x2
	cmp	x9, #32
	b.hs	.LBB48_6
.LBB48_5:
	ldr	x9, [x2], #8
	subs	x8, x8, #1
	str	x9, [x0], #8
	b.ne	.LBB48_5
	b	.LBB48_8
.LBB48_6:
	add	x9, x0, #16
	add	x10, x2, #16
.LBB48_7:
	ldp	q0, q1, [x10, #-16]
	subs	x8, x8, #4
	add	x10, x10, #32
	stp	q0, q1, [x9, #-16]
	add	x9, x9, #32
	b.ne	.LBB48_7
.LBB48_8:
	ret
.Lfunc_end48:
	.size	"tlsf_words::cells::pack_many", .Lfunc_end48-"tlsf_words::cells::pack_many"
	.cfi_endproc
	.section	".text.tlsf_words::words::Words::write_few","ax",@progbits
	.p2align	2
	.type	"tlsf_words::words::Words::write_few",@function
"tlsf_words::words::Words::write_few":
	.cfi_startproc
	stp	x29, x30, [sp, #-80]!
	.cfi_def_cfa_offset 80
	str	x25, [sp, #16]
	stp	x24, x23, [sp, #32]
	stp	x22, x21, [sp, #48]
	stp	x20, x19, [sp, #64]
	mov	x29, sp
	.cfi_def_cfa w29, 80
	.cfi_offset w19, -8
	.cfi_offset w20, -16
	.cfi_offset w21, -24
	.cfi_offset w22, -32
	.cfi_offset w23, -40
	.cfi_offset w24, -48
	.cfi_offset w25, -64
	.cfi_offset w30, -72
	.cfi_offset w29, -80
	and	x8, x1, #0x7
	mov	w9, #8
	mov	x20, x3
	sub	x24, x9, x8
	mov	x19, x2
	mov	x22, x0
	cmp	x24, x3
	and	x23, x1, #0xffffffff8
	csel	x21, x24, x3, lo
	cbz	x3, .LBB49_2
	ldr	x25, [x22]
	mov	x1, x19
	mov	x2, x21
	ldr	x9, [x25, x23]
	str	x9, [x29, #24]
	add	x9, x29, #24
	orr	x0, x9, x8
	bl	tlsf_memory_cpy
	ldr	x8, [x29, #24]
	str	x8, [x25, x23]
.LBB49_2:
	cmp	x20, x24
	b.ls	.LBB49_4
	ldr	x8, [x22]
	sub	x2, x20, x21
	add	x0, x29, #24
	add	x1, x19, x21
	add	x22, x8, x23
	ldr	x8, [x22, #8]
	str	x8, [x29, #24]
	bl	tlsf_memory_cpy
	ldr	x8, [x29, #24]
	str	x8, [x22, #8]
.LBB49_4:
	.cfi_def_cfa wsp, 80
	ldp	x20, x19, [sp, #64]
	ldr	x25, [sp, #16]
	ldp	x22, x21, [sp, #48]
	ldp	x24, x23, [sp, #32]
	ldp	x29, x30, [sp], #80
	.cfi_def_cfa_offset 0
	.cfi_restore w19
	.cfi_restore w20
	.cfi_restore w21
	.cfi_restore w22
	.cfi_restore w23
	.cfi_restore w24
	.cfi_restore w25
	.cfi_restore w30
	.cfi_restore w29
	ret
.Lfunc_end49:
	.size	"tlsf_words::words::Words::write_few", .Lfunc_end49-"tlsf_words::words::Words::write_few"
	.cfi_endproc
	.section	".text.tlsf_words::words::Words::write_run","ax",@progbits
	.p2align	2
	.type	"tlsf_words::words::Words::write_run",@function
"tlsf_words::words::Words::write_run":
	.cfi_startproc
	neg	w8, w1
	ands	x11, x1, #0x7
	and	x9, x8, #0x7
	sub	x10, x3, x9
	bfxil	x10, x8, #0, #3
	sub	x8, x3, x9
	b.eq	.LBB50_2
	ldr	x12, [x0]
	lsl	x11, x11, #3
	and	x13, x1, #0xffffffff8
	ldr	x14, [x2]
	mov	x15, #-1
	ldr	x16, [x12, x13]
	lsl	x15, x15, x11
	lsl	x11, x14, x11
	bic	x14, x16, x15
	add	x11, x11, x14
	str	x11, [x12, x13]
.LBB50_2:
	subs	x11, x3, x10
	add	x10, x1, #7
	b.eq	.LBB50_4
	add	x12, x2, x3
	lsl	x11, x11, #3
	and	x13, x8, #0xfffffffffffffff8
	ldur	x12, [x12, #-8]
	ldr	x14, [x0]
	add	x13, x10, x13
	neg	x15, x11
	and	x13, x13, #0xfffffffffffffff8
	mov	x16, #-1
	lsr	x12, x12, x15
	ldr	x15, [x14, x13]
	lsl	x11, x16, x11
	bic	x12, x12, x11
	and	x11, x15, x11
	orr	x11, x11, x12
	str	x11, [x14, x13]
.LBB50_4:
	ldr	x11, [x0]
	and	x10, x10, #0x1ffffffff8
	cmp	x8, #63
	add	x2, x2, x9
	add	x0, x11, x10
	b.hi	.LBB50_9
	tbnz	w8, #3, .LBB50_10
	tbnz	w8, #4, .LBB50_11
.LBB50_7:
	cmp	x8, #32
	b.hs	.LBB50_12
.LBB50_8:
	ret
.LBB50_9:
	lsr	x1, x8, #3
	b	"tlsf_words::cells::pack_many"
.LBB50_10:
	and	x9, x8, #0x38
	sub	x9, x9, #8
	ldr	x10, [x2, x9]
	str	x10, [x0, x9]
	tbz	w8, #4, .LBB50_7
.LBB50_11:
	and	x9, x8, #0x20
	ldr	x10, [x2, x9]
	str	x10, [x0, x9]
	orr	x9, x9, #0x8
	ldr	x10, [x2, x9]
	str	x10, [x0, x9]
	cmp	x8, #32
	b.lo	.LBB50_8
.LBB50_12:
	ldr	x8, [x2]
	str	x8, [x0]
	ldr	x8, [x2, #8]
	str	x8, [x0, #8]
	ldr	x8, [x2, #16]
	str	x8, [x0, #16]
	ldr	x8, [x2, #24]
	str	x8, [x0, #24]
	ret
.Lfunc_end50:
	.size	"tlsf_words::words::Words::write_run", .Lfunc_end50-"tlsf_words::words::Words::write_run"
	.cfi_endproc
	.section	".text.tlsf_heap::region::Region::write::<=5>","ax",@progbits
	.p2align	2
	.type	"tlsf_heap::region::Region::write::<=5>",@function
"tlsf_heap::region::Region::write::<=5>":
	.cfi_startproc
	ubfiz	x9, x1, #3, #32
	orr	w8, w4, w2
	tst	x8, #0x7
	add	x9, x9, w2, uxtw
	add	x1, x9, #24
	b.eq	.LBB51_3
	mov	x2, x3
	mov	x3, x4
	cmp	x4, #7
	b.hi	.LBB51_8
	b	"tlsf_words::words::Words::write_few"
.LBB51_3:
	ldr	x8, [x0]
	cmp	x4, #63
	add	x0, x8, x1
	b.hi	.LBB51_9
	tbnz	w4, #3, .LBB51_10
	tbnz	w4, #4, .LBB51_11
.LBB51_6:
	cmp	x4, #25
	b.hs	.LBB51_12
.LBB51_7:
	ret
.LBB51_8:
	b	"tlsf_words::words::Words::write_run"
.LBB51_9:
	lsr	x1, x4, #3
	mov	x2, x3
	b	"tlsf_words::cells::pack_many"
.LBB51_10:
	sub	x8, x4, #8
	ldr	x9, [x3, x8]
	str	x9, [x0, x8]
	tbz	w4, #4, .LBB51_6
.LBB51_11:
	and	x8, x4, #0x20
	ldr	x9, [x3, x8]
	str	x9, [x0, x8]
	orr	x8, x8, #0x8
	ldr	x9, [x3, x8]
	str	x9, [x0, x8]
	cmp	x4, #25
	b.lo	.LBB51_7
.LBB51_12:
	ldr	x8, [x3]
	str	x8, [x0]
	ldr	x8, [x3, #8]
	str	x8, [x0, #8]
	ldr	x8, [x3, #16]
	str	x8, [x0, #16]
	ldr	x8, [x3, #24]
	str	x8, [x0, #24]
	ret
.Lfunc_end51:
	.size	"tlsf_heap::region::Region::write::<=5>", .Lfunc_end51-"tlsf_heap::region::Region::write::<=5>"
	.cfi_endproc
	.section	.text.tlsf_allocate,"ax",@progbits
	.globl	tlsf_allocate
	.p2align	2
	.type	tlsf_allocate,@function
tlsf_allocate:
	.cfi_startproc
	stp	x29, x30, [sp, #-32]!
	.cfi_def_cfa_offset 32
	str	x19, [sp, #16]
	mov	x29, sp
	.cfi_def_cfa w29, 32
	.cfi_offset w19, -16
	.cfi_offset w30, -24
	.cfi_offset w29, -32
	.cfi_remember_state
	ldrb	w8, [x0, #8]
	cbz	w8, .LBB52_14
	ldr	x19, [x0]
	ldrb	w8, [x19]
	tbz	w8, #0, .LBB52_14
	mov	w8, #-1
	ldrb	w11, [x19, #16]
	strb	wzr, [x19]
	cmp	x1, x8
	csel	x9, x1, x8, lo
	cmp	x1, #0
	cinc	x8, x9, eq
	add	x10, x8, #31
	lsr	x8, x10, #3
	cbz	w11, .LBB52_8
	mov	w11, #7
	movk	w11, #2048, lsl #16
	cmp	x10, x11
	b.hi	.LBB52_9
	orr	w10, w8, #0x20
	mov	w11, #26
	add	x12, x19, #108
	clz	w10, w10
	sub	w10, w11, w10
	sub	w11, w8, #1
	lsr	w13, w11, w10
	add	w10, w13, w10, lsl #5
	add	w10, w10, #1
	sub	x10, x10, #1
	lsr	x11, x10, #5
	ldr	w14, [x12, x11, lsl #2]
	lsr	w13, w14, w13
	ands	w13, w13, #0xfffffffe
	b.eq	.LBB52_15
	rbit	w11, w13
	clz	w11, w11
	add	x15, x10, x11
	ldr	x10, [x19, #32]
	cmn	x10, #1
	b.eq	.LBB52_17
.LBB52_6:
	add	x13, x19, #192
	ldr	x14, [x19, #48]
	ldr	w11, [x13, x15, lsl #2]
	ubfiz	x16, x11, #3, #32
	add	x17, x14, x16
	ldr	x17, [x17, #16]
	cmn	w17, #1
	b.eq	.LBB52_21
	ubfiz	x18, x17, #3, #32
	add	x14, x14, x18
	ldr	x18, [x14, #16]
	orr	x18, x18, #0xffffffff00000000
	str	x18, [x14, #16]
	str	w17, [x13, x15, lsl #2]
	ldr	x14, [x19, #48]
	b	.LBB52_23
.LBB52_8:
	mov	w11, #7
	movk	w11, #128, lsl #16
	cmp	x10, x11
	b.ls	.LBB52_10
.LBB52_9:
	ldp	w8, w10, [x19, #8]
	mov	w0, #1
	adds	w8, w8, #1
	csinv	w8, w8, wzr, lo
	cmp	w9, w10
	csel	w9, w9, w10, hi
	stp	w8, w9, [x19, #8]
	mov	w8, #1
	strb	w8, [x19]
	.cfi_def_cfa wsp, 32
	ldr	x19, [sp, #16]
	ldp	x29, x30, [sp], #32
	.cfi_def_cfa_offset 0
	.cfi_restore w19
	.cfi_restore w30
	.cfi_restore w29
	ret
.LBB52_10:
	.cfi_restore_state
	.cfi_remember_state
	orr	w10, w8, #0x10
	mov	w11, #27
	add	x12, x19, #108
	clz	w10, w10
	sub	w10, w11, w10
	sub	w11, w8, #1
	lsr	w13, w11, w10
	add	w10, w13, w10, lsl #4
	and	w13, w13, #0xf
	add	w10, w10, #1
	sub	x10, x10, #1
	lsr	x11, x10, #4
	ldr	w14, [x12, x11, lsl #2]
	lsr	w13, w14, w13
	ands	w13, w13, #0xfffffffe
	b.eq	.LBB52_18
	rbit	w11, w13
	clz	w11, w11
	add	x15, x10, x11
	ldr	x10, [x19, #32]
	cmn	x10, #1
	b.eq	.LBB52_20
.LBB52_12:
	add	x13, x19, #192
	ldr	x14, [x19, #48]
	ldr	w11, [x13, x15, lsl #2]
	ubfiz	x16, x11, #3, #32
	add	x17, x14, x16
	ldr	x17, [x17, #16]
	cmn	w17, #1
	b.eq	.LBB52_28
	ubfiz	x18, x17, #3, #32
	add	x14, x14, x18
	ldr	x18, [x14, #16]
	orr	x18, x18, #0xffffffff00000000
	str	x18, [x14, #16]
	str	w17, [x13, x15, lsl #2]
	ldr	x14, [x19, #48]
	b	.LBB52_30
.LBB52_14:
	mov	w0, wzr
	.cfi_def_cfa wsp, 32
	ldr	x19, [sp, #16]
	ldp	x29, x30, [sp], #32
	.cfi_def_cfa_offset 0
	.cfi_restore w19
	.cfi_restore w30
	.cfi_restore w29
	b	"tlsf_c::call_fault::CallFault::refusal"
.LBB52_15:
	.cfi_restore_state
	.cfi_remember_state
	mov	w10, #-2
	ldr	w13, [x19, #104]
	lsl	w10, w10, w11
	ands	w10, w13, w10
	b.eq	.LBB52_9
	rbit	w10, w10
	clz	w10, w10
	ldr	w11, [x12, w10, uxtw #2]
	rbit	w11, w11
	clz	w11, w11
	add	w15, w11, w10, lsl #5
	ldr	x10, [x19, #32]
	cmn	x10, #1
	b.ne	.LBB52_6
.LBB52_17:
	mov	w0, #2
	mov	w8, #1
	strb	w8, [x19]
	.cfi_def_cfa wsp, 32
	ldr	x19, [sp, #16]
	ldp	x29, x30, [sp], #32
	.cfi_def_cfa_offset 0
	.cfi_restore w19
	.cfi_restore w30
	.cfi_restore w29
	ret
.LBB52_18:
	.cfi_restore_state
	.cfi_remember_state
	mov	w10, #-2
	ldr	w13, [x19, #104]
	lsl	w10, w10, w11
	ands	w10, w13, w10
	b.eq	.LBB52_9
	rbit	w10, w10
	clz	w10, w10
	ldr	w11, [x12, w10, uxtw #2]
	rbit	w11, w11
	clz	w11, w11
	add	w15, w11, w10, lsl #4
	ldr	x10, [x19, #32]
	cmn	x10, #1
	b.ne	.LBB52_12
.LBB52_20:
	mov	w0, #2
	mov	w8, #1
	strb	w8, [x19]
	.cfi_def_cfa wsp, 32
	ldr	x19, [sp, #16]
	ldp	x29, x30, [sp], #32
	.cfi_def_cfa_offset 0
	.cfi_restore w19
	.cfi_restore w30
	.cfi_restore w29
	ret
.LBB52_21:
	.cfi_restore_state
	.cfi_remember_state
	lsr	x17, x15, #3
	mov	w18, #-1
	str	w18, [x13, x15, lsl #2]
	and	x18, x17, #0x1ffffffffffffffc
	mov	w17, #1
	ldr	w1, [x12, x18]
	lsl	w3, w17, w15
	bics	w1, w1, w3
	str	w1, [x12, x18]
	b.ne	.LBB52_23
	lsr	x15, x15, #5
	ldr	w18, [x19, #104]
	lsl	w15, w17, w15
	bic	w15, w18, w15
	str	w15, [x19, #104]
.LBB52_23:
	add	x18, x14, x16
	ldr	x16, [x18]
	sub	w17, w16, w8, lsl #2
	cmp	w17, #15
	b.ls	.LBB52_31
	add	w15, w11, w8
	sub	x16, x16, x17
	str	x16, [x14, x11, lsl #3]
	ubfiz	x16, x15, #3, #32
	orr	x1, x17, x11, lsl #32
	stp	x10, x9, [x18, #8]
	add	x9, x14, x16
	stp	x1, x10, [x9]
	lsr	w9, w15, #3
	ldr	x14, [x19, #72]
	and	x18, x9, #0x1ffffff8
	mov	w9, #1
	ldr	x1, [x14, x18]
	lsl	x3, x9, x15
	lsr	w9, w17, #2
	orr	x1, x1, x3
	str	x1, [x14, x18]
	tbnz	w17, #1, .LBB52_26
	ldr	x14, [x19, #48]
	add	w17, w9, w15
	add	x14, x14, w17, uxtw #3
	str	w15, [x14, #4]
.LBB52_26:
	orr	w14, w9, #0x20
	mov	w17, #26
	ldr	x18, [x19, #48]
	clz	w14, w14
	sub	w14, w17, w14
	lsr	w9, w9, w14
	add	w14, w9, w14, lsl #5
	ldr	w17, [x13, w14, uxtw #2]
	str	w15, [x13, w14, uxtw #2]
	tbz	w17, #31, .LBB52_35
	add	x13, x18, x16
	mov	x15, #-1
	lsr	x14, x14, #5
	mov	w16, #1
	str	x15, [x13, #16]
	b	.LBB52_44
.LBB52_28:
	lsr	x17, x15, #2
	mov	w18, #-1
	str	w18, [x13, x15, lsl #2]
	and	w1, w15, #0xf
	and	x18, x17, #0x3ffffffffffffffc
	mov	w17, #1
	ldr	w3, [x12, x18]
	lsl	w1, w17, w1
	bics	w1, w3, w1
	str	w1, [x12, x18]
	b.ne	.LBB52_30
	lsr	x15, x15, #4
	ldr	w18, [x19, #104]
	lsl	w15, w17, w15
	bic	w15, w18, w15
	str	w15, [x19, #104]
.LBB52_30:
	add	x18, x14, x16
	ldr	x16, [x18]
	sub	w17, w16, w8, lsl #2
	cmp	w17, #15
	b.hi	.LBB52_32
.LBB52_31:
	sub	x12, x16, #1
	str	x9, [x18, #16]
	stp	x12, x10, [x18]
	lsr	w12, w12, #2
	ldp	w9, w13, [x19, #40]
	add	w9, w9, w12
	cmp	w13, w9
	str	w9, [x19, #40]
	b.lo	.LBB52_36
	b	.LBB52_37
.LBB52_32:
	add	w15, w11, w8
	sub	x16, x16, x17
	str	x16, [x14, x11, lsl #3]
	ubfiz	x16, x15, #3, #32
	orr	x1, x17, x11, lsl #32
	stp	x10, x9, [x18, #8]
	add	x9, x14, x16
	stp	x1, x10, [x9]
	lsr	w9, w15, #3
	ldr	x14, [x19, #72]
	and	x18, x9, #0x1ffffff8
	mov	w9, #1
	ldr	x1, [x14, x18]
	lsl	x3, x9, x15
	lsr	w9, w17, #2
	orr	x1, x1, x3
	str	x1, [x14, x18]
	tbnz	w17, #1, .LBB52_34
	ldr	x14, [x19, #48]
	add	w17, w9, w15
	add	x14, x14, w17, uxtw #3
	str	w15, [x14, #4]
.LBB52_34:
	orr	w14, w9, #0x10
	mov	w17, #27
	ldr	x18, [x19, #48]
	clz	w14, w14
	sub	w14, w17, w14
	lsr	w9, w9, w14
	add	w14, w9, w14, lsl #4
	ldr	w17, [x13, w14, uxtw #2]
	str	w15, [x13, w14, uxtw #2]
	tbnz	w17, #31, .LBB52_43
.LBB52_35:
	add	x13, x18, x17, lsl #3
	orr	x9, x17, #0xffffffff00000000
	add	x12, x18, x16
	str	x9, [x12, #16]
	str	w15, [x13, #20]
	mov	w12, w8
	ldp	w9, w13, [x19, #40]
	add	w9, w9, w12
	cmp	w13, w9
	str	w9, [x19, #40]
	b.hs	.LBB52_37
.LBB52_36:
	str	w9, [x19, #44]
.LBB52_37:
	ldr	x9, [x19, #32]
	add	x12, x9, #1
	ldr	w9, [x19, #24]
	str	x12, [x19, #32]
	tbz	w8, #0, .LBB52_40
	ldrb	w12, [x0, #28]
	tbnz	w12, #0, .LBB52_40
	mov	w12, #1
	strb	w12, [x0, #28]
.LBB52_40:
	subs	w8, w8, #3
	stp	w9, w11, [x2]
	str	x10, [x2, #8]
	b.eq	.LBB52_42
	ldr	x9, [x19, #48]
	add	w10, w11, #3
	ubfiz	x2, x8, #3, #32
	mov	w1, wzr
	add	x0, x9, w10, uxtw #3
	bl	tlsf_memory_set
.LBB52_42:
	mov	w0, wzr
	mov	w8, #1
	strb	w8, [x19]
	.cfi_def_cfa wsp, 32
	ldr	x19, [sp, #16]
	ldp	x29, x30, [sp], #32
	.cfi_def_cfa_offset 0
	.cfi_restore w19
	.cfi_restore w30
	.cfi_restore w29
	ret
.LBB52_43:
	.cfi_restore_state
	add	x13, x18, x16
	mov	x15, #-1
	lsr	x14, x14, #4
	str	x15, [x13, #16]
	mov	w16, #1
	and	w9, w9, #0xf
.LBB52_44:
	ldr	w13, [x19, #104]
	lsl	w15, w16, w14
	lsl	w9, w16, w9
	ldr	w16, [x12, x14, lsl #2]
	orr	w13, w13, w15
	str	w13, [x19, #104]
	orr	w9, w16, w9
	str	w9, [x12, x14, lsl #2]
	mov	w12, w8
	ldp	w9, w13, [x19, #40]
	add	w9, w9, w12
	cmp	w13, w9
	str	w9, [x19, #40]
	b.hs	.LBB52_37
	b	.LBB52_36
.Lfunc_end52:
	.size	tlsf_allocate, .Lfunc_end52-tlsf_allocate
	.cfi_endproc
	.section	.text.tlsf_allocate_aligned,"ax",@progbits
	.globl	tlsf_allocate_aligned
	.p2align	2
	.type	tlsf_allocate_aligned,@function
tlsf_allocate_aligned:
	.cfi_startproc
	sub	sp, sp, #96
	.cfi_def_cfa_offset 96
	stp	x29, x30, [sp, #16]
	stp	x26, x25, [sp, #32]
	stp	x24, x23, [sp, #48]
	stp	x22, x21, [sp, #64]
	stp	x20, x19, [sp, #80]
	add	x29, sp, #16
	.cfi_def_cfa w29, 80
	.cfi_offset w19, -8
	.cfi_offset w20, -16
	.cfi_offset w21, -24
	.cfi_offset w22, -32
	.cfi_offset w23, -40
	.cfi_offset w24, -48
	.cfi_offset w25, -56
	.cfi_offset w26, -64
	.cfi_offset w30, -72
	.cfi_offset w29, -80
	.cfi_remember_state
	ldrb	w8, [x0, #8]
	cbz	w8, .LBB53_14
	ldr	x21, [x0]
	ldrb	w8, [x21]
	tbz	w8, #0, .LBB53_14
	mov	w9, #-1
	ldr	x8, [x21, #32]
	ldrb	w10, [x21, #16]
	cmp	x1, x9
	strb	wzr, [x21]
	csel	x22, x1, x9, lo
	cmn	x8, #5
	cbz	w10, .LBB53_8
	b.hi	.LBB53_9
	cmp	w2, #1
	mov	w11, #16777216
	csinc	w9, w2, wzr, hi
	cmp	w2, w11
	b.hi	.LBB53_67
	cmp	x1, #0
	cinc	x10, x22, eq
	add	x10, x10, #31
	lsr	x19, x10, #3
	add	w10, w9, w19
	add	w10, w10, #4
	cmp	w10, w11
	b.hi	.LBB53_67
	orr	w11, w10, #0x20
	mov	w12, #26
	add	x24, x21, #108
	clz	w11, w11
	ldr	w23, [x21, #44]
	sub	w11, w12, w11
	sub	w12, w10, #1
	lsr	w13, w12, w11
	add	w11, w13, w11, lsl #5
	add	w11, w11, #1
	sub	x11, x11, #1
	lsr	x12, x11, #5
	ldr	w14, [x24, x12, lsl #2]
	lsr	w13, w14, w13
	ands	w13, w13, #0xfffffffe
	b.eq	.LBB53_15
	rbit	w12, w13
	clz	w12, w12
	add	x12, x11, x12
	b	.LBB53_17
.LBB53_8:
	b.ls	.LBB53_10
.LBB53_9:
	mov	w8, #1
	mov	x1, xzr
	mov	x0, #8589934592
	b	.LBB53_68
.LBB53_10:
	cmp	w2, #1
	csinc	w9, w2, wzr, hi
	cmp	w2, #256, lsl #12
	b.hi	.LBB53_67
	cmp	x1, #0
	cinc	x10, x22, eq
	add	x10, x10, #31
	lsr	x19, x10, #3
	add	w10, w9, w19
	add	w10, w10, #4
	cmp	w10, #256, lsl #12
	b.hi	.LBB53_67
	orr	w11, w10, #0x10
	mov	w12, #27
	add	x24, x21, #108
	clz	w11, w11
	ldr	w23, [x21, #44]
	sub	w11, w12, w11
	sub	w12, w10, #1
	lsr	w13, w12, w11
	add	w11, w13, w11, lsl #4
	and	w13, w13, #0xf
	add	w11, w11, #1
	sub	x11, x11, #1
	lsr	x12, x11, #4
	ldr	w14, [x24, x12, lsl #2]
	lsr	w13, w14, w13
	ands	w13, w13, #0xfffffffe
	b.eq	.LBB53_27
	rbit	w12, w13
	clz	w12, w12
	add	x12, x11, x12
	b	.LBB53_29
.LBB53_14:
	mov	w0, wzr
	bl	"tlsf_c::call_fault::CallFault::refusal"
	mov	x1, xzr
	lsl	x0, x0, #32
	b	.LBB53_69
.LBB53_15:
	mov	w11, #-2
	ldr	w13, [x21, #104]
	lsl	w11, w11, w12
	ands	w11, w13, w11
	b.eq	.LBB53_67
	rbit	w11, w11
	clz	w11, w11
	ldr	w12, [x24, w11, uxtw #2]
	rbit	w12, w12
	clz	w12, w12
	add	w12, w12, w11, lsl #5
.LBB53_17:
	add	x25, x21, #192
	ldr	x11, [x21, #48]
	ldr	w26, [x25, x12, lsl #2]
	ubfiz	x20, x26, #3, #32
	add	x13, x11, x20
	ldr	x13, [x13, #16]
	cmn	w13, #1
	b.eq	.LBB53_19
	ubfiz	x14, x13, #3, #32
	add	x11, x11, x14
	ldr	x14, [x11, #16]
	orr	x14, x14, #0xffffffff00000000
	str	x14, [x11, #16]
	str	w13, [x25, x12, lsl #2]
	ldr	x11, [x21, #48]
	b	.LBB53_21
.LBB53_19:
	lsr	x13, x12, #3
	mov	w14, #-1
	str	w14, [x25, x12, lsl #2]
	and	x14, x13, #0x1ffffffffffffffc
	mov	w13, #1
	ldr	w15, [x24, x14]
	lsl	w16, w13, w12
	bics	w15, w15, w16
	str	w15, [x24, x14]
	b.ne	.LBB53_21
	lsr	x12, x12, #5
	ldr	w14, [x21, #104]
	lsl	w12, w13, w12
	bic	w12, w14, w12
	str	w12, [x21, #104]
.LBB53_21:
	add	x15, x11, x20
	ldr	x13, [x15]
	sub	w14, w13, w10, lsl #2
	cmp	w14, #15
	b.hi	.LBB53_23
	sub	x10, x13, #1
	str	xzr, [x15, #16]
	stp	x10, x8, [x15]
	lsr	w10, w10, #2
	b	.LBB53_40
.LBB53_23:
	add	w12, w26, w10
	sub	x13, x13, x14
	str	x13, [x11, x26, lsl #3]
	ubfiz	x13, x12, #3, #32
	orr	x16, x14, x26, lsl #32
	stp	x8, xzr, [x15, #8]
	add	x11, x11, x13
	stp	x16, x8, [x11]
	lsr	w11, w12, #3
	ldr	x15, [x21, #72]
	and	x16, x11, #0x1ffffff8
	mov	w11, #1
	ldr	x17, [x15, x16]
	lsl	x18, x11, x12
	lsr	w11, w14, #2
	orr	x17, x17, x18
	str	x17, [x15, x16]
	tbnz	w14, #1, .LBB53_25
	ldr	x14, [x21, #48]
	add	w15, w11, w12
	add	x14, x14, w15, uxtw #3
	str	w12, [x14, #4]
.LBB53_25:
	orr	w14, w11, #0x20
	mov	w15, #26
	ldr	x16, [x21, #48]
	clz	w14, w14
	sub	w14, w15, w14
	lsr	w11, w11, w14
	add	w14, w11, w14, lsl #5
	ldr	w15, [x25, w14, uxtw #2]
	str	w12, [x25, w14, uxtw #2]
	tbnz	w15, #31, .LBB53_39
	add	x14, x16, x15, lsl #3
	orr	x11, x15, #0xffffffff00000000
	add	x13, x16, x13
	str	x11, [x13, #16]
	str	w12, [x14, #20]
	b	.LBB53_40
.LBB53_27:
	mov	w11, #-2
	ldr	w13, [x21, #104]
	lsl	w11, w11, w12
	ands	w11, w13, w11
	b.eq	.LBB53_67
	rbit	w11, w11
	clz	w11, w11
	ldr	w12, [x24, w11, uxtw #2]
	rbit	w12, w12
	clz	w12, w12
	add	w12, w12, w11, lsl #4
.LBB53_29:
	add	x25, x21, #192
	ldr	x11, [x21, #48]
	ldr	w26, [x25, x12, lsl #2]
	ubfiz	x20, x26, #3, #32
	add	x13, x11, x20
	ldr	x13, [x13, #16]
	cmn	w13, #1
	b.eq	.LBB53_31
	ubfiz	x14, x13, #3, #32
	add	x11, x11, x14
	ldr	x14, [x11, #16]
	orr	x14, x14, #0xffffffff00000000
	str	x14, [x11, #16]
	str	w13, [x25, x12, lsl #2]
	ldr	x11, [x21, #48]
	b	.LBB53_33
.LBB53_31:
	lsr	x13, x12, #2
	mov	w14, #-1
	str	w14, [x25, x12, lsl #2]
	and	w15, w12, #0xf
	and	x14, x13, #0x3ffffffffffffffc
	mov	w13, #1
	ldr	w16, [x24, x14]
	lsl	w15, w13, w15
	bics	w15, w16, w15
	str	w15, [x24, x14]
	b.ne	.LBB53_33
	lsr	x12, x12, #4
	ldr	w14, [x21, #104]
	lsl	w12, w13, w12
	bic	w12, w14, w12
	str	w12, [x21, #104]
.LBB53_33:
	add	x15, x11, x20
	ldr	x13, [x15]
	sub	w14, w13, w10, lsl #2
	cmp	w14, #15
	b.hi	.LBB53_35
	sub	x10, x13, #1
	str	xzr, [x15, #16]
	stp	x10, x8, [x15]
	lsr	w10, w10, #2
	b	.LBB53_56
.LBB53_35:
	add	w12, w26, w10
	sub	x13, x13, x14
	str	x13, [x11, x26, lsl #3]
	ubfiz	x13, x12, #3, #32
	orr	x16, x14, x26, lsl #32
	stp	x8, xzr, [x15, #8]
	add	x11, x11, x13
	stp	x16, x8, [x11]
	lsr	w11, w12, #3
	ldr	x15, [x21, #72]
	and	x16, x11, #0x1ffffff8
	mov	w11, #1
	ldr	x17, [x15, x16]
	lsl	x18, x11, x12
	lsr	w11, w14, #2
	orr	x17, x17, x18
	str	x17, [x15, x16]
	tbnz	w14, #1, .LBB53_37
	ldr	x14, [x21, #48]
	add	w15, w11, w12
	add	x14, x14, w15, uxtw #3
	str	w12, [x14, #4]
.LBB53_37:
	orr	w14, w11, #0x10
	mov	w15, #27
	ldr	x16, [x21, #48]
	clz	w14, w14
	sub	w14, w15, w14
	lsr	w11, w11, w14
	add	w14, w11, w14, lsl #4
	ldr	w15, [x25, w14, uxtw #2]
	str	w12, [x25, w14, uxtw #2]
	tbnz	w15, #31, .LBB53_55
	add	x14, x16, x15, lsl #3
	orr	x11, x15, #0xffffffff00000000
	add	x13, x16, x13
	str	x11, [x13, #16]
	str	w12, [x14, #20]
	b	.LBB53_56
.LBB53_39:
	add	x12, x16, x13
	mov	x13, #-1
	lsr	x14, x14, #5
	mov	w15, #1
	str	x13, [x12, #16]
	ldr	w12, [x21, #104]
	lsl	w13, w15, w14
	lsl	w11, w15, w11
	ldr	w15, [x24, x14, lsl #2]
	orr	w12, w12, w13
	str	w12, [x21, #104]
	orr	w11, w15, w11
	str	w11, [x24, x14, lsl #2]
.LBB53_40:
	ldp	w11, w12, [x21, #40]
	add	w10, w11, w10
	cmp	w12, w10
	str	w10, [x21, #40]
	b.hs	.LBB53_42
	str	w10, [x21, #44]
.LBB53_42:
	udiv	w10, w3, w9
	ldr	x12, [x21, #32]
	add	x12, x12, #1
	str	x12, [x21, #32]
	msub	w10, w10, w9, w3
	add	w10, w26, w10
	add	w10, w10, #3
	udiv	w11, w10, w9
	msub	w11, w11, w9, w10
	ldr	w10, [x21, #24]
	cbz	w11, .LBB53_52
	add	w12, w9, w9, lsl #2
	add	x0, x21, #24
	mov	x1, sp
	stp	w10, w26, [sp]
	sub	w11, w12, w11
	str	x8, [sp, #8]
	sub	w11, w11, #4
	udiv	w12, w11, w9
	msub	w9, w12, w9, w11
	add	w20, w9, #4
	mov	w2, w20
	bl	"tlsf_heap::heap::Heap::resize_live::<=5>"
	tst	w0, #0xff
	b.ne	.LBB53_65
	ldr	w8, [x21, #56]
	add	w26, w20, w26
	cmp	w26, w8
	b.hs	.LBB53_63
	lsr	w8, w26, #3
	ldr	x9, [x21, #72]
	and	x8, x8, #0x1ffffff8
	ldr	x8, [x9, x8]
	lsr	x8, x8, x26
	tbz	w8, #0, .LBB53_63
	ldr	x8, [x21, #48]
	ubfiz	x20, x26, #3, #32
	add	x10, x8, x20
	ldr	x9, [x10]
	tbz	w9, #0, .LBB53_63
	lsr	w11, w9, #2
	cmp	w11, w19
	b.lo	.LBB53_74
	ldr	x12, [x21, #32]
	cmn	x12, #1
	b.eq	.LBB53_79
	ldr	x10, [x10, #16]
	tbnz	x10, #63, .LBB53_80
	lsr	x11, x10, #29
	cmn	w10, #1
	and	x11, x11, #0x3fffffff8
	add	x11, x8, x11
	ldr	x12, [x11, #16]
	b.eq	.LBB53_82
	bfxil	x12, x10, #0, #32
	add	x8, x8, w10, uxtw #3
	ubfx	x10, x10, #32, #31
	str	x12, [x11, #16]
	str	w10, [x8, #20]
	b	.LBB53_88
.LBB53_52:
	add	x0, x21, #24
	mov	x1, sp
	mov	w2, w19
	stp	w10, w26, [sp]
	mov	x24, x8
	str	x8, [sp, #8]
	bl	"tlsf_heap::heap::Heap::resize_live::<=5>"
	tst	w0, #0xff
	b.ne	.LBB53_65
.LBB53_54:
	ldr	w8, [x21, #40]
	ldr	x9, [x21, #48]
	b	.LBB53_72
.LBB53_55:
	add	x12, x16, x13
	mov	x13, #-1
	lsr	x14, x14, #4
	mov	w15, #1
	str	x13, [x12, #16]
	and	w11, w11, #0xf
	ldr	w12, [x21, #104]
	lsl	w13, w15, w14
	lsl	w11, w15, w11
	ldr	w15, [x24, x14, lsl #2]
	orr	w12, w12, w13
	str	w12, [x21, #104]
	orr	w11, w15, w11
	str	w11, [x24, x14, lsl #2]
.LBB53_56:
	ldp	w11, w12, [x21, #40]
	add	w10, w11, w10
	cmp	w12, w10
	str	w10, [x21, #40]
	b.hs	.LBB53_58
	str	w10, [x21, #44]
.LBB53_58:
	udiv	w10, w3, w9
	ldr	x12, [x21, #32]
	add	x12, x12, #1
	str	x12, [x21, #32]
	msub	w10, w10, w9, w3
	add	w10, w26, w10
	add	w10, w10, #3
	udiv	w11, w10, w9
	msub	w11, w11, w9, w10
	ldr	w10, [x21, #24]
	cbz	w11, .LBB53_64
	add	w12, w9, w9, lsl #2
	add	x0, x21, #24
	mov	x1, sp
	stp	w10, w26, [sp]
	sub	w11, w12, w11
	str	x8, [sp, #8]
	sub	w11, w11, #4
	udiv	w12, w11, w9
	msub	w9, w12, w9, w11
	add	w20, w9, #4
	mov	w2, w20
	bl	"tlsf_heap::heap::Heap::resize_live::<=4>"
	tst	w0, #0xff
	b.ne	.LBB53_65
	ldr	w8, [x21, #56]
	add	w26, w20, w26
	cmp	w26, w8
	b.hs	.LBB53_63
	lsr	w8, w26, #3
	ldr	x9, [x21, #72]
	and	x8, x8, #0x1ffffff8
	ldr	x8, [x9, x8]
	lsr	x8, x8, x26
	tbz	w8, #0, .LBB53_63
	ldr	x8, [x21, #48]
	ubfiz	x20, x26, #3, #32
	add	x10, x8, x20
	ldr	x9, [x10]
	tbnz	w9, #0, .LBB53_73
.LBB53_63:
	mov	w1, #3
	b	.LBB53_66
.LBB53_64:
	add	x0, x21, #24
	mov	x1, sp
	mov	w2, w19
	stp	w10, w26, [sp]
	mov	x24, x8
	str	x8, [sp, #8]
	bl	"tlsf_heap::heap::Heap::resize_live::<=4>"
	tst	w0, #0xff
	b.eq	.LBB53_70
.LBB53_65:
	tst	w1, #0xff
	b.eq	.LBB53_67
.LBB53_66:
	adrp	x9, .Lswitch.table.tlsf_allocate_aligned
	add	x9, x9, :lo12:.Lswitch.table.tlsf_allocate_aligned
	mov	w8, #1
	add	x9, x9, w1, sxtb #3
	strb	w8, [x21]
	mov	x1, xzr
	ldur	x0, [x9, #-8]
	b	.LBB53_69
.LBB53_67:
	ldp	w8, w9, [x21, #8]
	mov	x1, xzr
	mov	x0, #4294967296
	adds	w8, w8, #1
	csinv	w8, w8, wzr, lo
	cmp	w22, w9
	csel	w9, w22, w9, hi
	stp	w8, w9, [x21, #8]
	mov	w8, #1
.LBB53_68:
	strb	w8, [x21]
.LBB53_69:
	.cfi_def_cfa wsp, 96
	ldp	x20, x19, [sp, #80]
	ldp	x22, x21, [sp, #64]
	ldp	x24, x23, [sp, #48]
	ldp	x26, x25, [sp, #32]
	ldp	x29, x30, [sp, #16]
	add	sp, sp, #96
	.cfi_def_cfa_offset 0
	.cfi_restore w19
	.cfi_restore w20
	.cfi_restore w21
	.cfi_restore w22
	.cfi_restore w23
	.cfi_restore w24
	.cfi_restore w25
	.cfi_restore w26
	.cfi_restore w30
	.cfi_restore w29
	ret
.LBB53_70:
	.cfi_restore_state
.LBB53_71:
	ldr	w8, [x21, #40]
	ldr	x9, [x21, #48]
.LBB53_72:
	cmp	w8, w23
	add	x9, x9, x20
	csel	w8, w8, w23, hi
	str	w8, [x21, #44]
	str	x22, [x9, #16]
	mov	x1, x24
	mov	w8, #1
	mov	w0, w26
	b	.LBB53_68
.LBB53_73:
	lsr	w11, w9, #2
	cmp	w11, w19
	b.hs	.LBB53_75
.LBB53_74:
	mov	w1, #5
	b	.LBB53_66
.LBB53_75:
	ldr	x12, [x21, #32]
	cmn	x12, #1
	b.eq	.LBB53_79
	ldr	x10, [x10, #16]
	tbnz	x10, #63, .LBB53_83
	lsr	x11, x10, #29
	cmn	w10, #1
	and	x11, x11, #0x3fffffff8
	add	x11, x8, x11
	ldr	x12, [x11, #16]
	b.eq	.LBB53_85
	bfxil	x12, x10, #0, #32
	add	x8, x8, w10, uxtw #3
	ubfx	x10, x10, #32, #31
	str	x12, [x11, #16]
	str	w10, [x8, #20]
	b	.LBB53_100
.LBB53_79:
	mov	w1, #1
	b	.LBB53_66
.LBB53_80:
	orr	w12, w11, #0x20
	mov	w13, #26
	cmn	w10, #1
	clz	w12, w12
	sub	w13, w13, w12
	lsr	w12, w11, w13
	add	w11, w12, w13, lsl #5
	b.eq	.LBB53_86
	ubfiz	x12, x10, #3, #32
	add	x8, x8, x12
	ldr	x12, [x8, #16]
	orr	x12, x12, #0xffffffff00000000
	str	x12, [x8, #16]
	str	w10, [x25, x11, lsl #2]
	b	.LBB53_88
.LBB53_82:
	orr	x8, x12, #0xffffffff
	str	x8, [x11, #16]
	b	.LBB53_88
.LBB53_83:
	orr	w12, w11, #0x10
	mov	w13, #27
	cmn	w10, #1
	clz	w12, w12
	sub	w13, w13, w12
	lsr	w12, w11, w13
	add	w11, w12, w13, lsl #4
	b.eq	.LBB53_98
	ubfiz	x12, x10, #3, #32
	add	x8, x8, x12
	ldr	x12, [x8, #16]
	orr	x12, x12, #0xffffffff00000000
	str	x12, [x8, #16]
	str	w10, [x25, x11, lsl #2]
	b	.LBB53_100
.LBB53_85:
	orr	x8, x12, #0xffffffff
	str	x8, [x11, #16]
	b	.LBB53_100
.LBB53_86:
	lsr	x8, x11, #3
	str	w10, [x25, x11, lsl #2]
	and	x10, x8, #0xffffffc
	mov	w8, #1
	ldr	w13, [x24, x10]
	lsl	w12, w8, w12
	bics	w12, w13, w12
	str	w12, [x24, x10]
	b.ne	.LBB53_88
	lsr	x10, x11, #5
	ldr	w11, [x21, #104]
	lsl	w8, w8, w10
	bic	w8, w11, w8
	str	w8, [x21, #104]
.LBB53_88:
	sub	w11, w9, w19, lsl #2
	ldr	x8, [x21, #32]
	cmp	w11, #15
	b.hi	.LBB53_90
	ldr	x10, [x21, #48]
	sub	x9, x9, #1
	lsr	w19, w9, #2
	add	x10, x10, x20
	stp	x9, x8, [x10]
	str	xzr, [x10, #16]
	b	.LBB53_95
.LBB53_90:
	ldr	x12, [x21, #48]
	add	w10, w26, w19
	sub	x13, x9, x11
	ubfiz	x9, x10, #3, #32
	str	x13, [x12, x26, lsl #3]
	orr	x13, x11, x26, lsl #32
	add	x14, x12, x20
	add	x12, x12, x9
	stp	x8, xzr, [x14, #8]
	stp	x13, x8, [x12]
	lsr	w12, w10, #3
	ldr	x13, [x21, #72]
	and	x14, x12, #0x1ffffff8
	mov	w12, #1
	ldr	x15, [x13, x14]
	lsl	x16, x12, x10
	lsr	w12, w11, #2
	orr	x15, x15, x16
	str	x15, [x13, x14]
	tbnz	w11, #1, .LBB53_92
	ldr	x11, [x21, #48]
	add	w13, w12, w10
	add	x11, x11, w13, uxtw #3
	str	w10, [x11, #4]
.LBB53_92:
	orr	w11, w12, #0x20
	mov	w13, #26
	ldr	x14, [x21, #48]
	clz	w11, w11
	sub	w13, w13, w11
	lsr	w11, w12, w13
	add	w12, w11, w13, lsl #5
	ldr	w13, [x25, w12, uxtw #2]
	str	w10, [x25, w12, uxtw #2]
	tbnz	w13, #31, .LBB53_94
	add	x12, x14, x13, lsl #3
	orr	x11, x13, #0xffffffff00000000
	add	x9, x14, x9
	str	x11, [x9, #16]
	str	w10, [x12, #20]
	b	.LBB53_95
.LBB53_94:
	add	x9, x14, x9
	mov	x10, #-1
	lsr	x12, x12, #5
	mov	w13, #1
	str	x10, [x9, #16]
	ldr	w9, [x21, #104]
	lsl	w10, w13, w12
	lsl	w11, w13, w11
	ldr	w13, [x24, x12, lsl #2]
	orr	w9, w9, w10
	str	w9, [x21, #104]
	orr	w9, w13, w11
	str	w9, [x24, x12, lsl #2]
.LBB53_95:
	ldp	w9, w10, [x21, #40]
	add	w9, w9, w19
	cmp	w10, w9
	str	w9, [x21, #40]
	b.hs	.LBB53_97
	str	w9, [x21, #44]
.LBB53_97:
	mov	x24, x8
	add	x8, x8, #1
	add	x0, x21, #24
	mov	x1, sp
	str	x8, [x21, #32]
	bl	"tlsf_heap::heap::Heap::release_live::<=5>"
	b	.LBB53_54
.LBB53_98:
	lsr	x8, x11, #2
	str	w10, [x25, x11, lsl #2]
	and	w12, w12, #0xf
	and	x10, x8, #0x1ffffffc
	mov	w8, #1
	ldr	w13, [x24, x10]
	lsl	w12, w8, w12
	bics	w12, w13, w12
	str	w12, [x24, x10]
	b.ne	.LBB53_100
	lsr	x10, x11, #4
	ldr	w11, [x21, #104]
	lsl	w8, w8, w10
	bic	w8, w11, w8
	str	w8, [x21, #104]
.LBB53_100:
	sub	w11, w9, w19, lsl #2
	ldr	x8, [x21, #32]
	cmp	w11, #15
	b.hi	.LBB53_102
	ldr	x10, [x21, #48]
	sub	x9, x9, #1
	lsr	w19, w9, #2
	add	x10, x10, x20
	stp	x9, x8, [x10]
	str	xzr, [x10, #16]
	b	.LBB53_107
.LBB53_102:
	ldr	x12, [x21, #48]
	add	w10, w26, w19
	sub	x13, x9, x11
	ubfiz	x9, x10, #3, #32
	str	x13, [x12, x26, lsl #3]
	orr	x13, x11, x26, lsl #32
	add	x14, x12, x20
	add	x12, x12, x9
	stp	x8, xzr, [x14, #8]
	stp	x13, x8, [x12]
	lsr	w12, w10, #3
	ldr	x13, [x21, #72]
	and	x14, x12, #0x1ffffff8
	mov	w12, #1
	ldr	x15, [x13, x14]
	lsl	x16, x12, x10
	lsr	w12, w11, #2
	orr	x15, x15, x16
	str	x15, [x13, x14]
	tbnz	w11, #1, .LBB53_104
	ldr	x11, [x21, #48]
	add	w13, w12, w10
	add	x11, x11, w13, uxtw #3
	str	w10, [x11, #4]
.LBB53_104:
	orr	w11, w12, #0x10
	mov	w13, #27
	ldr	x14, [x21, #48]
	clz	w11, w11
	sub	w13, w13, w11
	lsr	w11, w12, w13
	add	w12, w11, w13, lsl #4
	ldr	w13, [x25, w12, uxtw #2]
	str	w10, [x25, w12, uxtw #2]
	tbnz	w13, #31, .LBB53_106
	add	x12, x14, x13, lsl #3
	orr	x11, x13, #0xffffffff00000000
	add	x9, x14, x9
	str	x11, [x9, #16]
	str	w10, [x12, #20]
	b	.LBB53_107
.LBB53_106:
	add	x9, x14, x9
	mov	x10, #-1
	lsr	x12, x12, #4
	mov	w13, #1
	str	x10, [x9, #16]
	and	w11, w11, #0xf
	ldr	w9, [x21, #104]
	lsl	w10, w13, w12
	lsl	w11, w13, w11
	ldr	w13, [x24, x12, lsl #2]
	orr	w9, w9, w10
	str	w9, [x21, #104]
	orr	w9, w13, w11
	str	w9, [x24, x12, lsl #2]
.LBB53_107:
	ldp	w9, w10, [x21, #40]
	add	w9, w9, w19
	cmp	w10, w9
	str	w9, [x21, #40]
	b.hs	.LBB53_109
	str	w9, [x21, #44]
.LBB53_109:
	mov	x24, x8
	add	x8, x8, #1
	add	x0, x21, #24
	mov	x1, sp
	str	x8, [x21, #32]
	bl	"tlsf_heap::heap::Heap::release_live::<=4>"
	b	.LBB53_71
.Lfunc_end53:
	.size	tlsf_allocate_aligned, .Lfunc_end53-tlsf_allocate_aligned
	.cfi_endproc
	.section	.text.tlsf_allocate_payload,"ax",@progbits
	.globl	tlsf_allocate_payload
	.p2align	2
	.type	tlsf_allocate_payload,@function
tlsf_allocate_payload:
	.cfi_startproc
	ldrb	w9, [x0, #8]
	cbz	w9, .LBB54_7
	mov	w9, #134217728
	mov	x8, x0
	mov	x0, xzr
	cmp	x1, x9
	b.hi	.LBB54_8
	ldr	x8, [x8]
	ldrb	w9, [x8]
	tbz	w9, #0, .LBB54_8
	add	w9, w1, #7
	ldrb	w12, [x8, #16]
	strb	wzr, [x8]
	and	w10, w9, #0x1ffffff0
	add	w9, w10, #39
	orr	w11, w10, #0x8
	lsr	w9, w9, #3
	cbz	w12, .LBB54_9
	mov	w12, #134217696
	cmp	w10, w12
	b.hi	.LBB54_10
	orr	w10, w9, #0x20
	mov	w12, #26
	clz	w10, w10
	sub	w10, w12, w10
	sub	w12, w9, #1
	lsr	w14, w12, w10
	add	x12, x8, #108
	add	w10, w14, w10, lsl #5
	add	w10, w10, #1
	sub	x10, x10, #1
	lsr	x13, x10, #5
	ldr	w15, [x12, x13, lsl #2]
	lsr	w14, w15, w14
	ands	w14, w14, #0xfffffffe
	b.eq	.LBB54_13
	rbit	w13, w14
	clz	w13, w13
	add	x17, x10, x13
	ldr	x14, [x8, #32]
	cmn	x14, #1
	b.ne	.LBB54_15
	b	.LBB54_21
.LBB54_7:
	mov	x0, xzr
.LBB54_8:
	ret
.LBB54_9:
	mov	w12, #8388576
	cmp	w10, w12
	b.ls	.LBB54_11
.LBB54_10:
	ldp	w9, w10, [x8, #8]
	adds	w9, w9, #1
	csinv	w9, w9, wzr, lo
	cmp	w11, w10
	csel	w10, w11, w10, hi
	stp	w9, w10, [x8, #8]
	mov	x0, xzr
	mov	w9, #1
	strb	w9, [x8]
	ret
.LBB54_11:
	orr	w10, w9, #0x10
	mov	w12, #27
	clz	w10, w10
	sub	w10, w12, w10
	sub	w12, w9, #1
	lsr	w14, w12, w10
	add	x12, x8, #108
	add	w10, w14, w10, lsl #4
	and	w14, w14, #0xf
	add	w10, w10, #1
	sub	x10, x10, #1
	lsr	x13, x10, #4
	ldr	w15, [x12, x13, lsl #2]
	lsr	w14, w15, w14
	ands	w14, w14, #0xfffffffe
	b.eq	.LBB54_17
	rbit	w13, w14
	clz	w13, w13
	add	x17, x10, x13
	ldr	x14, [x8, #32]
	cmn	x14, #1
	b.ne	.LBB54_19
	b	.LBB54_21
.LBB54_13:
	mov	w10, #-2
	ldr	w14, [x8, #104]
	lsl	w10, w10, w13
	ands	w10, w14, w10
	b.eq	.LBB54_10
	rbit	w10, w10
	clz	w10, w10
	ldr	w13, [x12, w10, uxtw #2]
	rbit	w13, w13
	clz	w13, w13
	add	w17, w13, w10, lsl #5
	ldr	x14, [x8, #32]
	cmn	x14, #1
	b.eq	.LBB54_21
.LBB54_15:
	add	x13, x8, #192
	ldr	x16, [x8, #48]
	ldr	w15, [x13, x17, lsl #2]
	lsl	x10, x15, #3
	add	x18, x16, x10
	ldr	x18, [x18, #16]
	cmn	w18, #1
	b.eq	.LBB54_22
	ubfiz	x0, x18, #3, #32
	add	x16, x16, x0
	ldr	x0, [x16, #16]
	orr	x0, x0, #0xffffffff00000000
	str	x0, [x16, #16]
	str	w18, [x13, x17, lsl #2]
	ldr	x16, [x8, #48]
	b	.LBB54_24
.LBB54_17:
	mov	w10, #-2
	ldr	w14, [x8, #104]
	lsl	w10, w10, w13
	ands	w10, w14, w10
	b.eq	.LBB54_10
	rbit	w10, w10
	clz	w10, w10
	ldr	w13, [x12, w10, uxtw #2]
	rbit	w13, w13
	clz	w13, w13
	add	w17, w13, w10, lsl #4
	ldr	x14, [x8, #32]
	cmn	x14, #1
	b.eq	.LBB54_21
.LBB54_19:
	add	x13, x8, #192
	ldr	x16, [x8, #48]
	ldr	w15, [x13, x17, lsl #2]
	lsl	x10, x15, #3
	add	x18, x16, x10
	ldr	x18, [x18, #16]
	cmn	w18, #1
	b.eq	.LBB54_30
	ubfiz	x0, x18, #3, #32
	add	x16, x16, x0
	ldr	x0, [x16, #16]
	orr	x0, x0, #0xffffffff00000000
	str	x0, [x16, #16]
	str	w18, [x13, x17, lsl #2]
	ldr	x16, [x8, #48]
	b	.LBB54_32
.LBB54_21:
	mov	x0, xzr
	mov	w9, #1
	strb	w9, [x8]
	ret
.LBB54_22:
	lsr	x18, x17, #3
	mov	w0, #-1
	str	w0, [x13, x17, lsl #2]
	and	x0, x18, #0x1ffffffffffffffc
	mov	w18, #1
	ldr	w1, [x12, x0]
	lsl	w2, w18, w17
	bics	w1, w1, w2
	str	w1, [x12, x0]
	b.ne	.LBB54_24
	lsr	x17, x17, #5
	ldr	w0, [x8, #104]
	lsl	w17, w18, w17
	bic	w17, w0, w17
	str	w17, [x8, #104]
.LBB54_24:
	add	x1, x16, x10
	ldr	x18, [x1]
	sub	w0, w18, w9, lsl #2
	cmp	w0, #15
	b.hi	.LBB54_26
	sub	x9, x18, #1
	str	x11, [x1, #16]
	lsr	w12, w9, #2
	stp	x9, x14, [x1]
	mov	w9, w12
	b	.LBB54_40
.LBB54_26:
	add	w17, w15, w9
	sub	x18, x18, x0
	str	x18, [x16, x15, lsl #3]
	ubfiz	x18, x17, #3, #32
	orr	x15, x0, x15, lsl #32
	stp	x14, x11, [x1, #8]
	add	x11, x16, x18
	stp	x15, x14, [x11]
	lsr	w11, w17, #3
	ldr	x14, [x8, #72]
	and	x15, x11, #0x1ffffff8
	mov	w11, #1
	ldr	x16, [x14, x15]
	lsl	x1, x11, x17
	lsr	w11, w0, #2
	orr	x16, x16, x1
	str	x16, [x14, x15]
	tbnz	w0, #1, .LBB54_28
	ldr	x14, [x8, #48]
	add	w15, w11, w17
	add	x14, x14, w15, uxtw #3
	str	w17, [x14, #4]
.LBB54_28:
	orr	w14, w11, #0x20
	mov	w15, #26
	ldr	x16, [x8, #48]
	clz	w14, w14
	sub	w14, w15, w14
	lsr	w11, w11, w14
	add	w14, w11, w14, lsl #5
	ldr	w15, [x13, w14, uxtw #2]
	str	w17, [x13, w14, uxtw #2]
	tbz	w15, #31, .LBB54_37
	add	x13, x16, x18
	mov	x15, #-1
	lsr	x14, x14, #5
	mov	w16, #1
	str	x15, [x13, #16]
	b	.LBB54_39
.LBB54_30:
	lsr	x18, x17, #2
	mov	w0, #-1
	str	w0, [x13, x17, lsl #2]
	and	w1, w17, #0xf
	and	x0, x18, #0x3ffffffffffffffc
	mov	w18, #1
	ldr	w2, [x12, x0]
	lsl	w1, w18, w1
	bics	w1, w2, w1
	str	w1, [x12, x0]
	b.ne	.LBB54_32
	lsr	x17, x17, #4
	ldr	w0, [x8, #104]
	lsl	w17, w18, w17
	bic	w17, w0, w17
	str	w17, [x8, #104]
.LBB54_32:
	add	x1, x16, x10
	ldr	x18, [x1]
	sub	w0, w18, w9, lsl #2
	cmp	w0, #15
	b.hi	.LBB54_34
	sub	x9, x18, #1
	str	x11, [x1, #16]
	stp	x9, x14, [x1]
	lsr	w9, w9, #2
	b	.LBB54_40
.LBB54_34:
	add	w17, w15, w9
	sub	x18, x18, x0
	str	x18, [x16, x15, lsl #3]
	ubfiz	x18, x17, #3, #32
	orr	x15, x0, x15, lsl #32
	stp	x14, x11, [x1, #8]
	add	x11, x16, x18
	stp	x15, x14, [x11]
	lsr	w11, w17, #3
	ldr	x14, [x8, #72]
	and	x15, x11, #0x1ffffff8
	mov	w11, #1
	ldr	x16, [x14, x15]
	lsl	x1, x11, x17
	lsr	w11, w0, #2
	orr	x16, x16, x1
	str	x16, [x14, x15]
	tbnz	w0, #1, .LBB54_36
	ldr	x14, [x8, #48]
	add	w15, w11, w17
	add	x14, x14, w15, uxtw #3
	str	w17, [x14, #4]
.LBB54_36:
	orr	w14, w11, #0x10
	mov	w15, #27
	ldr	x16, [x8, #48]
	clz	w14, w14
	sub	w14, w15, w14
	lsr	w11, w11, w14
	add	w14, w11, w14, lsl #4
	ldr	w15, [x13, w14, uxtw #2]
	str	w17, [x13, w14, uxtw #2]
	tbnz	w15, #31, .LBB54_38
.LBB54_37:
	add	x13, x16, x15, lsl #3
	orr	x11, x15, #0xffffffff00000000
	add	x12, x16, x18
	str	x11, [x12, #16]
	str	w17, [x13, #20]
	b	.LBB54_40
.LBB54_38:
	add	x13, x16, x18
	mov	x15, #-1
	lsr	x14, x14, #4
	str	x15, [x13, #16]
	mov	w16, #1
	and	w11, w11, #0xf
.LBB54_39:
	ldr	w13, [x8, #104]
	lsl	w15, w16, w14
	lsl	w11, w16, w11
	ldr	w16, [x12, x14, lsl #2]
	orr	w13, w13, w15
	str	w13, [x8, #104]
	orr	w11, w16, w11
	str	w11, [x12, x14, lsl #2]
.LBB54_40:
	ldp	w11, w12, [x8, #40]
	add	w9, w11, w9
	cmp	w12, w9
	str	w9, [x8, #40]
	b.hs	.LBB54_42
	str	w9, [x8, #44]
.LBB54_42:
	ldr	x9, [x8, #32]
	add	x0, x10, #24
	add	x9, x9, #1
	str	x9, [x8, #32]
	mov	w9, #1
	strb	w9, [x8]
	ret
.Lfunc_end54:
	.size	tlsf_allocate_payload, .Lfunc_end54-tlsf_allocate_payload
	.cfi_endproc
	.section	.text.tlsf_allocate_place,"ax",@progbits
	.globl	tlsf_allocate_place
	.p2align	2
	.type	tlsf_allocate_place,@function
tlsf_allocate_place:
	.cfi_startproc
	ldrb	w8, [x0, #8]
	cbz	w8, .LBB55_6
	ldr	x8, [x0]
	ldrb	w9, [x8]
	cmp	w9, #1
	b.ne	.LBB55_6
	mov	w9, #-1
	ldrb	w12, [x8, #16]
	strb	wzr, [x8]
	cmp	x1, x9
	csel	x10, x1, x9, lo
	cmp	x1, #0
	cinc	x9, x10, eq
	add	x11, x9, #31
	lsr	x9, x11, #3
	cbz	w12, .LBB55_7
	mov	w12, #7
	movk	w12, #2048, lsl #16
	cmp	x11, x12
	b.hi	.LBB55_8
	orr	w11, w9, #0x20
	mov	w12, #26
	clz	w11, w11
	sub	w11, w12, w11
	sub	w12, w9, #1
	lsr	w14, w12, w11
	add	x12, x8, #108
	add	w11, w14, w11, lsl #5
	add	w11, w11, #1
	sub	x11, x11, #1
	lsr	x13, x11, #5
	ldr	w15, [x12, x13, lsl #2]
	lsr	w14, w15, w14
	ands	w14, w14, #0xfffffffe
	b.eq	.LBB55_11
	rbit	w13, w14
	clz	w13, w13
	add	x15, x11, x13
	ldr	x1, [x8, #32]
	cmn	x1, #1
	b.ne	.LBB55_13
	b	.LBB55_19
.LBB55_6:
	mov	x1, xzr
	mov	x0, #137438953472
	ret
.LBB55_7:
	mov	w12, #7
	movk	w12, #128, lsl #16
	cmp	x11, x12
	b.ls	.LBB55_9
.LBB55_8:
	ldp	w9, w12, [x8, #8]
	mov	w11, wzr
	mov	x1, xzr
	adds	w9, w9, #1
	csinv	w9, w9, wzr, lo
	cmp	w10, w12
	csel	w10, w10, w12, hi
	stp	w9, w10, [x8, #8]
	mov	x9, #4294967296
	mov	w11, w11
	mov	w10, #1
	orr	x0, x9, x11
	strb	w10, [x8]
	ret
.LBB55_9:
	orr	w11, w9, #0x10
	mov	w12, #27
	clz	w11, w11
	sub	w11, w12, w11
	sub	w12, w9, #1
	lsr	w14, w12, w11
	add	x12, x8, #108
	add	w11, w14, w11, lsl #4
	and	w14, w14, #0xf
	add	w11, w11, #1
	sub	x11, x11, #1
	lsr	x13, x11, #4
	ldr	w15, [x12, x13, lsl #2]
	lsr	w14, w15, w14
	ands	w14, w14, #0xfffffffe
	b.eq	.LBB55_15
	rbit	w13, w14
	clz	w13, w13
	add	x15, x11, x13
	ldr	x1, [x8, #32]
	cmn	x1, #1
	b.ne	.LBB55_17
	b	.LBB55_19
.LBB55_11:
	mov	w11, #-2
	ldr	w14, [x8, #104]
	lsl	w11, w11, w13
	ands	w11, w14, w11
	b.eq	.LBB55_8
	rbit	w11, w11
	clz	w11, w11
	ldr	w13, [x12, w11, uxtw #2]
	rbit	w13, w13
	clz	w13, w13
	add	w15, w13, w11, lsl #5
	ldr	x1, [x8, #32]
	cmn	x1, #1
	b.eq	.LBB55_19
.LBB55_13:
	add	x13, x8, #192
	ldr	x14, [x8, #48]
	ldr	w11, [x13, x15, lsl #2]
	ubfiz	x16, x11, #3, #32
	add	x17, x14, x16
	ldr	x17, [x17, #16]
	cmn	w17, #1
	b.eq	.LBB55_20
	ubfiz	x18, x17, #3, #32
	add	x14, x14, x18
	ldr	x18, [x14, #16]
	orr	x18, x18, #0xffffffff00000000
	str	x18, [x14, #16]
	str	w17, [x13, x15, lsl #2]
	ldr	x14, [x8, #48]
	b	.LBB55_22
.LBB55_15:
	mov	w11, #-2
	ldr	w14, [x8, #104]
	lsl	w11, w11, w13
	ands	w11, w14, w11
	b.eq	.LBB55_8
	rbit	w11, w11
	clz	w11, w11
	ldr	w13, [x12, w11, uxtw #2]
	rbit	w13, w13
	clz	w13, w13
	add	w15, w13, w11, lsl #4
	ldr	x1, [x8, #32]
	cmn	x1, #1
	b.eq	.LBB55_19
.LBB55_17:
	add	x13, x8, #192
	ldr	x14, [x8, #48]
	ldr	w11, [x13, x15, lsl #2]
	ubfiz	x16, x11, #3, #32
	add	x17, x14, x16
	ldr	x17, [x17, #16]
	cmn	w17, #1
	b.eq	.LBB55_28
	ubfiz	x18, x17, #3, #32
	add	x14, x14, x18
	ldr	x18, [x14, #16]
	orr	x18, x18, #0xffffffff00000000
	str	x18, [x14, #16]
	str	w17, [x13, x15, lsl #2]
	ldr	x14, [x8, #48]
	b	.LBB55_30
.LBB55_19:
	mov	w11, wzr
	mov	x1, xzr
	mov	x9, #8589934592
	mov	w11, w11
	mov	w10, #1
	orr	x0, x9, x11
	strb	w10, [x8]
	ret
.LBB55_20:
	lsr	x17, x15, #3
	mov	w18, #-1
	str	w18, [x13, x15, lsl #2]
	and	x18, x17, #0x1ffffffffffffffc
	mov	w17, #1
	ldr	w0, [x12, x18]
	lsl	w2, w17, w15
	bics	w0, w0, w2
	str	w0, [x12, x18]
	b.ne	.LBB55_22
	lsr	x15, x15, #5
	ldr	w18, [x8, #104]
	lsl	w15, w17, w15
	bic	w15, w18, w15
	str	w15, [x8, #104]
.LBB55_22:
	add	x18, x14, x16
	ldr	x16, [x18]
	sub	w17, w16, w9, lsl #2
	cmp	w17, #15
	b.hi	.LBB55_24
	sub	x9, x16, #1
	str	x10, [x18, #16]
	lsr	w12, w9, #2
	stp	x9, x1, [x18]
	mov	w9, w12
	b	.LBB55_37
.LBB55_24:
	add	w15, w11, w9
	sub	x16, x16, x17
	str	x16, [x14, x11, lsl #3]
	ubfiz	x16, x15, #3, #32
	orr	x0, x17, x11, lsl #32
	stp	x1, x10, [x18, #8]
	add	x10, x14, x16
	stp	x0, x1, [x10]
	lsr	w10, w15, #3
	ldr	x14, [x8, #72]
	and	x18, x10, #0x1ffffff8
	mov	w10, #1
	ldr	x0, [x14, x18]
	lsl	x2, x10, x15
	lsr	w10, w17, #2
	orr	x0, x0, x2
	str	x0, [x14, x18]
	tbnz	w17, #1, .LBB55_26
	ldr	x14, [x8, #48]
	add	w17, w10, w15
	add	x14, x14, w17, uxtw #3
	str	w15, [x14, #4]
.LBB55_26:
	orr	w14, w10, #0x20
	mov	w17, #26
	ldr	x18, [x8, #48]
	clz	w14, w14
	sub	w14, w17, w14
	lsr	w10, w10, w14
	add	w14, w10, w14, lsl #5
	ldr	w17, [x13, w14, uxtw #2]
	str	w15, [x13, w14, uxtw #2]
	tbnz	w17, #31, .LBB55_36
	add	x13, x18, x17, lsl #3
	orr	x10, x17, #0xffffffff00000000
	add	x12, x18, x16
	str	x10, [x12, #16]
	str	w15, [x13, #20]
	b	.LBB55_37
.LBB55_28:
	lsr	x17, x15, #2
	mov	w18, #-1
	str	w18, [x13, x15, lsl #2]
	and	w0, w15, #0xf
	and	x18, x17, #0x3ffffffffffffffc
	mov	w17, #1
	ldr	w2, [x12, x18]
	lsl	w0, w17, w0
	bics	w0, w2, w0
	str	w0, [x12, x18]
	b.ne	.LBB55_30
	lsr	x15, x15, #4
	ldr	w18, [x8, #104]
	lsl	w15, w17, w15
	bic	w15, w18, w15
	str	w15, [x8, #104]
.LBB55_30:
	add	x18, x14, x16
	ldr	x16, [x18]
	sub	w17, w16, w9, lsl #2
	cmp	w17, #15
	b.hi	.LBB55_32
	sub	x9, x16, #1
	str	x10, [x18, #16]
	lsr	w12, w9, #2
	stp	x9, x1, [x18]
	mov	w9, w12
	b	.LBB55_41
.LBB55_32:
	add	w15, w11, w9
	sub	x16, x16, x17
	str	x16, [x14, x11, lsl #3]
	ubfiz	x16, x15, #3, #32
	orr	x0, x17, x11, lsl #32
	stp	x1, x10, [x18, #8]
	add	x10, x14, x16
	stp	x0, x1, [x10]
	lsr	w10, w15, #3
	ldr	x14, [x8, #72]
	and	x18, x10, #0x1ffffff8
	mov	w10, #1
	ldr	x0, [x14, x18]
	lsl	x2, x10, x15
	lsr	w10, w17, #2
	orr	x0, x0, x2
	str	x0, [x14, x18]
	tbnz	w17, #1, .LBB55_34
	ldr	x14, [x8, #48]
	add	w17, w10, w15
	add	x14, x14, w17, uxtw #3
	str	w15, [x14, #4]
.LBB55_34:
	orr	w14, w10, #0x10
	mov	w17, #27
	ldr	x18, [x8, #48]
	clz	w14, w14
	sub	w14, w17, w14
	lsr	w10, w10, w14
	add	w14, w10, w14, lsl #4
	ldr	w17, [x13, w14, uxtw #2]
	str	w15, [x13, w14, uxtw #2]
	tbnz	w17, #31, .LBB55_40
	add	x13, x18, x17, lsl #3
	orr	x10, x17, #0xffffffff00000000
	add	x12, x18, x16
	str	x10, [x12, #16]
	str	w15, [x13, #20]
	b	.LBB55_41
.LBB55_36:
	add	x13, x18, x16
	mov	x15, #-1
	lsr	x14, x14, #5
	mov	w16, #1
	str	x15, [x13, #16]
	ldr	w13, [x8, #104]
	lsl	w15, w16, w14
	lsl	w10, w16, w10
	ldr	w16, [x12, x14, lsl #2]
	orr	w13, w13, w15
	str	w13, [x8, #104]
	orr	w10, w16, w10
	str	w10, [x12, x14, lsl #2]
.LBB55_37:
	ldp	w10, w12, [x8, #40]
	add	w9, w10, w9
	cmp	w12, w9
	str	w9, [x8, #40]
	b.hs	.LBB55_39
	str	w9, [x8, #44]
.LBB55_39:
	ldr	x10, [x8, #32]
	mov	x9, xzr
	b	.LBB55_44
.LBB55_40:
	add	x13, x18, x16
	mov	x15, #-1
	lsr	x14, x14, #4
	mov	w16, #1
	str	x15, [x13, #16]
	and	w10, w10, #0xf
	ldr	w13, [x8, #104]
	lsl	w15, w16, w14
	lsl	w10, w16, w10
	ldr	w16, [x12, x14, lsl #2]
	orr	w13, w13, w15
	str	w13, [x8, #104]
	orr	w10, w16, w10
	str	w10, [x12, x14, lsl #2]
.LBB55_41:
	ldp	w10, w12, [x8, #40]
	add	w9, w10, w9
	cmp	w12, w9
	str	w9, [x8, #40]
	b.hs	.LBB55_43
	str	w9, [x8, #44]
.LBB55_43:
	ldr	x10, [x8, #32]
	mov	x9, xzr
.LBB55_44:
	add	x10, x10, #1
	str	x10, [x8, #32]
	mov	w11, w11
	mov	w10, #1
	orr	x0, x9, x11
	strb	w10, [x8]
	ret
.Lfunc_end55:
	.size	tlsf_allocate_place, .Lfunc_end55-tlsf_allocate_place
	.cfi_endproc
	.section	.text.tlsf_block_at,"ax",@progbits
	.globl	tlsf_block_at
	.p2align	2
	.type	tlsf_block_at,@function
tlsf_block_at:
	.cfi_startproc
	ldrb	w8, [x0, #8]
	cbz	w8, .LBB56_13
	ldr	x8, [x0]
	ldrb	w9, [x8]
	tbz	w9, #0, .LBB56_13
	ldr	w9, [x8, #56]
	ldrb	w10, [x8, #16]
	strb	wzr, [x8]
	cmp	w1, w9
	cbz	w10, .LBB56_7
	b.hs	.LBB56_12
	lsr	w9, w1, #3
	ldr	x10, [x8, #72]
	and	x9, x9, #0x1ffffff8
	ldr	x9, [x10, x9]
	lsr	x9, x9, x1
	tbz	w9, #0, .LBB56_12
	ldr	x9, [x8, #48]
	add	x11, x9, w1, uxtw #3
	ldp	x12, x9, [x11]
	lsr	w10, w12, #2
	tbnz	w12, #0, .LBB56_10
.LBB56_6:
	ldr	w12, [x11, #16]
	mov	w11, #1
	b	.LBB56_11
.LBB56_7:
	b.hs	.LBB56_12
	lsr	w9, w1, #3
	ldr	x10, [x8, #72]
	and	x9, x9, #0x1ffffff8
	ldr	x9, [x10, x9]
	lsr	x9, x9, x1
	tbz	w9, #0, .LBB56_12
	ldr	x9, [x8, #48]
	add	x11, x9, w1, uxtw #3
	ldp	x12, x9, [x11]
	lsr	w10, w12, #2
	tbz	w12, #0, .LBB56_6
.LBB56_10:
	mov	w11, wzr
	mov	w12, wzr
.LBB56_11:
	mov	w0, wzr
	mov	w13, #1
	strb	w13, [x8]
	stp	w1, w10, [x2]
	stp	w11, w12, [x2, #8]
	str	x9, [x2, #16]
	ret
.LBB56_12:
	mov	w9, #1
	mov	w0, #4
	strb	w9, [x8]
	ret
.LBB56_13:
	mov	w0, wzr
	b	"tlsf_c::call_fault::CallFault::refusal"
.Lfunc_end56:
	.size	tlsf_block_at, .Lfunc_end56-tlsf_block_at
	.cfi_endproc
	.section	.text.tlsf_check,"ax",@progbits
	.globl	tlsf_check
	.p2align	2
	.type	tlsf_check,@function
tlsf_check:
	.cfi_startproc
	ldrb	w8, [x0, #8]
	cbz	w8, .LBB57_9
	stp	x29, x30, [sp, #-64]!
	.cfi_def_cfa_offset 64
	stp	x24, x23, [sp, #16]
	stp	x22, x21, [sp, #32]
	stp	x20, x19, [sp, #48]
	mov	x29, sp
	.cfi_def_cfa w29, 64
	.cfi_offset w19, -8
	.cfi_offset w20, -16
	.cfi_offset w21, -24
	.cfi_offset w22, -32
	.cfi_offset w23, -40
	.cfi_offset w24, -48
	.cfi_offset w30, -56
	.cfi_offset w29, -64
	.cfi_remember_state
	ldr	x20, [x0]
	ldrb	w8, [x20]
	cmp	w8, #1
	b.ne	.LBB57_10
	ldr	w21, [x20, #56]
	ldrb	w9, [x20, #16]
	mov	w19, w2
	strb	wzr, [x20]
	sub	w8, w21, #4
	cmp	w1, w8
	cbz	w9, .LBB57_11
	b.hi	.LBB57_17
	lsr	w8, w1, #3
	ldr	x9, [x20, #72]
	and	x8, x8, #0x1ffffff8
	ldr	x8, [x9, x8]
	lsr	x8, x8, x1
	tbz	w8, #0, .LBB57_17
	mov	x23, x4
	mov	x22, x3
	mov	w8, w1
	cbz	w19, .LBB57_20
.LBB57_6:
	add	x0, x20, #48
	mov	x24, x1
	bl	"tlsf_heap::check::examine"
	and	w8, w0, #0xff
	cmp	w8, #1
	b.ne	.LBB57_18
	mov	w8, w1
	cmp	w1, w21
	b.eq	.LBB57_19
	subs	w19, w19, #1
	mov	w1, w8
	b.ne	.LBB57_6
	b	.LBB57_20
.LBB57_9:
	.cfi_def_cfa wsp, 0
	.cfi_same_value w19
	.cfi_same_value w20
	.cfi_same_value w21
	.cfi_same_value w22
	.cfi_same_value w23
	.cfi_same_value w24
	.cfi_same_value w30
	.cfi_same_value w29
	mov	w0, #32
	ret
.LBB57_10:
	.cfi_restore_state
	.cfi_remember_state
	mov	w0, #32
	.cfi_def_cfa wsp, 64
	ldp	x20, x19, [sp, #48]
	ldp	x22, x21, [sp, #32]
	ldp	x24, x23, [sp, #16]
	ldp	x29, x30, [sp], #64
	.cfi_def_cfa_offset 0
	.cfi_restore w19
	.cfi_restore w20
	.cfi_restore w21
	.cfi_restore w22
	.cfi_restore w23
	.cfi_restore w24
	.cfi_restore w30
	.cfi_restore w29
	ret
.LBB57_11:
	.cfi_restore_state
	.cfi_remember_state
	b.hi	.LBB57_17
	lsr	w8, w1, #3
	ldr	x9, [x20, #72]
	and	x8, x8, #0x1ffffff8
	ldr	x8, [x9, x8]
	lsr	x8, x8, x1
	tbz	w8, #0, .LBB57_17
	mov	x23, x4
	mov	x22, x3
	mov	w8, w1
	cbz	w19, .LBB57_20
.LBB57_14:
	add	x0, x20, #48
	mov	x24, x1
	bl	"tlsf_heap::check::examine"
	and	w8, w0, #0xff
	cmp	w8, #1
	b.ne	.LBB57_18
	mov	w8, w1
	cmp	w1, w21
	b.eq	.LBB57_19
	subs	w19, w19, #1
	mov	w1, w8
	b.ne	.LBB57_14
	b	.LBB57_20
.LBB57_17:
	mov	w8, #1
	mov	w0, #4
	strb	w8, [x20]
	.cfi_def_cfa wsp, 64
	ldp	x20, x19, [sp, #48]
	ldp	x22, x21, [sp, #32]
	ldp	x24, x23, [sp, #16]
	ldp	x29, x30, [sp], #64
	.cfi_def_cfa_offset 0
	.cfi_restore w19
	.cfi_restore w20
	.cfi_restore w21
	.cfi_restore w22
	.cfi_restore w23
	.cfi_restore w24
	.cfi_restore w30
	.cfi_restore w29
	ret
.LBB57_18:
	.cfi_restore_state
	.cfi_remember_state
	mov	w8, #1
	mov	w0, #36
	strb	w8, [x20]
	str	w24, [x23]
	.cfi_def_cfa wsp, 64
	ldp	x20, x19, [sp, #48]
	ldp	x22, x21, [sp, #32]
	ldp	x24, x23, [sp, #16]
	ldp	x29, x30, [sp], #64
	.cfi_def_cfa_offset 0
	.cfi_restore w19
	.cfi_restore w20
	.cfi_restore w21
	.cfi_restore w22
	.cfi_restore w23
	.cfi_restore w24
	.cfi_restore w30
	.cfi_restore w29
	ret
.LBB57_19:
	.cfi_restore_state
	mov	w8, wzr
.LBB57_20:
	mov	w9, #1
	mov	w0, wzr
	strb	w9, [x20]
	str	w8, [x22]
	.cfi_def_cfa wsp, 64
	ldp	x20, x19, [sp, #48]
	ldp	x22, x21, [sp, #32]
	ldp	x24, x23, [sp, #16]
	ldp	x29, x30, [sp], #64
	.cfi_def_cfa_offset 0
	.cfi_restore w19
	.cfi_restore w20
	.cfi_restore w21
	.cfi_restore w22
	.cfi_restore w23
	.cfi_restore w24
	.cfi_restore w30
	.cfi_restore w29
	ret
.Lfunc_end57:
	.size	tlsf_check, .Lfunc_end57-tlsf_check
	.cfi_endproc
	.section	.text.tlsf_check_around,"ax",@progbits
	.globl	tlsf_check_around
	.p2align	2
	.type	tlsf_check_around,@function
tlsf_check_around:
	.cfi_startproc
	ldrb	w8, [x0, #8]
	cbz	w8, .LBB58_9
	stp	x29, x30, [sp, #-64]!
	.cfi_def_cfa_offset 64
	str	x23, [sp, #16]
	stp	x22, x21, [sp, #32]
	stp	x20, x19, [sp, #48]
	mov	x29, sp
	.cfi_def_cfa w29, 64
	.cfi_offset w19, -8
	.cfi_offset w20, -16
	.cfi_offset w21, -24
	.cfi_offset w22, -32
	.cfi_offset w23, -48
	.cfi_offset w30, -56
	.cfi_offset w29, -64
	.cfi_remember_state
	ldr	x21, [x0]
	ldrb	w8, [x21]
	cmp	w8, #1
	b.ne	.LBB58_10
	ldr	w23, [x21, #56]
	ldrb	w9, [x21, #16]
	strb	wzr, [x21]
	sub	w8, w23, #4
	cmp	w1, w8
	b.hi	.LBB58_11
	lsr	w8, w1, #3
	ldr	x9, [x21, #72]
	and	x8, x8, #0x1ffffff8
	ldr	x8, [x9, x8]
	lsr	x8, x8, x1
	tbz	w8, #0, .LBB58_11
	add	x0, x21, #48
	mov	x22, x2
	mov	x20, x1
	bl	"tlsf_heap::check::examine"
	and	w8, w0, #0xff
	cmp	w8, #1
	b.ne	.LBB58_12
	mov	w19, w1
	cbz	w20, .LBB58_7
	ldur	x8, [x21, #48]
	add	x0, x21, #48
	add	x8, x8, w20, uxtw #3
	ldr	w20, [x8, #4]
	mov	w1, w20
	bl	"tlsf_heap::check::examine"
	and	w9, w0, #0xff
	mov	x8, x22
	cmp	w9, #1
	b.ne	.LBB58_13
.LBB58_7:
	cmp	w19, w23
	b.ne	.LBB58_15
	mov	w0, wzr
	mov	w8, #1
	strb	w8, [x21]
	.cfi_def_cfa wsp, 64
	ldp	x20, x19, [sp, #48]
	ldr	x23, [sp, #16]
	ldp	x22, x21, [sp, #32]
	ldp	x29, x30, [sp], #64
	.cfi_def_cfa_offset 0
	.cfi_restore w19
	.cfi_restore w20
	.cfi_restore w21
	.cfi_restore w22
	.cfi_restore w23
	.cfi_restore w30
	.cfi_restore w29
	ret
.LBB58_9:
	mov	w0, #32
	ret
.LBB58_10:
	.cfi_restore_state
	.cfi_remember_state
	mov	w0, #32
	.cfi_def_cfa wsp, 64
	ldp	x20, x19, [sp, #48]
	ldr	x23, [sp, #16]
	ldp	x22, x21, [sp, #32]
	ldp	x29, x30, [sp], #64
	.cfi_def_cfa_offset 0
	.cfi_restore w19
	.cfi_restore w20
	.cfi_restore w21
	.cfi_restore w22
	.cfi_restore w23
	.cfi_restore w30
	.cfi_restore w29
	ret
.LBB58_11:
	.cfi_restore_state
	.cfi_remember_state
	mov	w8, #1
	mov	w0, #4
	strb	w8, [x21]
	.cfi_def_cfa wsp, 64
	ldp	x20, x19, [sp, #48]
	ldr	x23, [sp, #16]
	ldp	x22, x21, [sp, #32]
	ldp	x29, x30, [sp], #64
	.cfi_def_cfa_offset 0
	.cfi_restore w19
	.cfi_restore w20
	.cfi_restore w21
	.cfi_restore w22
	.cfi_restore w23
	.cfi_restore w30
	.cfi_restore w29
	ret
.LBB58_12:
	.cfi_restore_state
	.cfi_remember_state
	mov	x8, x22
.LBB58_13:
	mov	w9, #1
	strb	w9, [x21]
.LBB58_14:
	str	w20, [x8]
	mov	w0, #36
	.cfi_def_cfa wsp, 64
	ldp	x20, x19, [sp, #48]
	ldr	x23, [sp, #16]
	ldp	x22, x21, [sp, #32]
	ldp	x29, x30, [sp], #64
	.cfi_def_cfa_offset 0
	.cfi_restore w19
	.cfi_restore w20
	.cfi_restore w21
	.cfi_restore w22
	.cfi_restore w23
	.cfi_restore w30
	.cfi_restore w29
	ret
.LBB58_15:
	.cfi_restore_state
	add	x0, x21, #48
	mov	w1, w19
	bl	"tlsf_heap::check::examine"
	and	w8, w0, #0xff
	mov	w20, w19
	mov	w9, #1
	cmp	w8, #1
	mov	x8, x22
	strb	w9, [x21]
	b.ne	.LBB58_14
	mov	w0, wzr
	.cfi_def_cfa wsp, 64
	ldp	x20, x19, [sp, #48]
	ldr	x23, [sp, #16]
	ldp	x22, x21, [sp, #32]
	ldp	x29, x30, [sp], #64
	.cfi_def_cfa_offset 0
	.cfi_restore w19
	.cfi_restore w20
	.cfi_restore w21
	.cfi_restore w22
	.cfi_restore w23
	.cfi_restore w30
	.cfi_restore w29
	ret
.Lfunc_end58:
	.size	tlsf_check_around, .Lfunc_end58-tlsf_check_around
	.cfi_endproc
	.section	.text.tlsf_check_request,"ax",@progbits
	.globl	tlsf_check_request
	.p2align	2
	.type	tlsf_check_request,@function
tlsf_check_request:
	.cfi_startproc
	ldrb	w8, [x0, #8]
	cbz	w8, .LBB59_7
	stp	x29, x30, [sp, #-32]!
	.cfi_def_cfa_offset 32
	stp	x20, x19, [sp, #16]
	mov	x29, sp
	.cfi_def_cfa w29, 32
	.cfi_offset w19, -8
	.cfi_offset w20, -16
	.cfi_offset w30, -24
	.cfi_offset w29, -32
	.cfi_remember_state
	ldr	x19, [x0]
	ldrb	w8, [x19]
	cmp	w8, #1
	b.ne	.LBB59_8
	mov	w8, #-1
	ldrb	w10, [x19, #16]
	strb	wzr, [x19]
	cmp	x1, x8
	csel	x8, x1, x8, lo
	cmp	x1, #0
	cinc	x8, x8, eq
	add	x9, x8, #31
	lsr	x8, x9, #3
	cbz	w10, .LBB59_9
	mov	w10, #7
	movk	w10, #2048, lsl #16
	cmp	x9, x10
	b.hi	.LBB59_17
	orr	w9, w8, #0x20
	mov	w10, #26
	clz	w9, w9
	sub	w9, w10, w9
	sub	w10, w8, #1
	lsr	w12, w10, w9
	add	w9, w12, w9, lsl #5
	add	w9, w9, #1
	sub	x10, x9, #1
	add	x9, x19, #108
	lsr	x11, x10, #5
	ldr	w13, [x9, x11, lsl #2]
	lsr	w12, w13, w12
	ands	w12, w12, #0xfffffffe
	b.ne	.LBB59_11
	mov	w10, #-2
	ldr	w12, [x19, #104]
	lsl	w10, w10, w11
	ands	w10, w12, w10
	b.eq	.LBB59_17
	rbit	w10, w10
	clz	w10, w10
	ldr	w9, [x9, w10, uxtw #2]
	rbit	w9, w9
	clz	w9, w9
	add	w9, w9, w10, lsl #5
	add	x9, x19, x9, lsl #2
	ldr	w1, [x9, #192]
	cmn	w1, #1
	b.ne	.LBB59_12
	b	.LBB59_17
.LBB59_7:
	.cfi_def_cfa wsp, 0
	.cfi_same_value w19
	.cfi_same_value w20
	.cfi_same_value w30
	.cfi_same_value w29
	mov	w0, #32
	ret
.LBB59_8:
	.cfi_restore_state
	.cfi_remember_state
	mov	w0, #32
	.cfi_def_cfa wsp, 32
	ldp	x20, x19, [sp, #16]
	ldp	x29, x30, [sp], #32
	.cfi_def_cfa_offset 0
	.cfi_restore w19
	.cfi_restore w20
	.cfi_restore w30
	.cfi_restore w29
	ret
.LBB59_9:
	.cfi_restore_state
	.cfi_remember_state
	mov	w10, #7
	movk	w10, #128, lsl #16
	cmp	x9, x10
	b.hi	.LBB59_17
	orr	w9, w8, #0x10
	mov	w10, #27
	clz	w9, w9
	sub	w9, w10, w9
	sub	w10, w8, #1
	lsr	w12, w10, w9
	add	w9, w12, w9, lsl #4
	and	w12, w12, #0xf
	add	w9, w9, #1
	sub	x10, x9, #1
	add	x9, x19, #108
	lsr	x11, x10, #4
	ldr	w13, [x9, x11, lsl #2]
	lsr	w12, w13, w12
	ands	w12, w12, #0xfffffffe
	b.eq	.LBB59_15
.LBB59_11:
	rbit	w9, w12
	clz	w9, w9
	add	x9, x10, x9
	add	x9, x19, x9, lsl #2
	ldr	w1, [x9, #192]
	cmn	w1, #1
	b.eq	.LBB59_17
.LBB59_12:
	mov	x20, x2
	add	x0, x19, #48
	mov	w2, w8
	bl	"tlsf_heap::around::check_taken"
	tst	w0, #0xff
	mov	w8, #1
	strb	w8, [x19]
	b.eq	.LBB59_14
	mov	w0, #36
	str	w1, [x20]
	.cfi_def_cfa wsp, 32
	ldp	x20, x19, [sp, #16]
	ldp	x29, x30, [sp], #32
	.cfi_def_cfa_offset 0
	.cfi_restore w19
	.cfi_restore w20
	.cfi_restore w30
	.cfi_restore w29
	ret
.LBB59_14:
	.cfi_restore_state
	.cfi_remember_state
	mov	w0, wzr
	.cfi_def_cfa wsp, 32
	ldp	x20, x19, [sp, #16]
	ldp	x29, x30, [sp], #32
	.cfi_def_cfa_offset 0
	.cfi_restore w19
	.cfi_restore w20
	.cfi_restore w30
	.cfi_restore w29
	ret
.LBB59_15:
	.cfi_restore_state
	mov	w10, #-2
	ldr	w12, [x19, #104]
	lsl	w10, w10, w11
	ands	w10, w12, w10
	b.eq	.LBB59_17
	rbit	w10, w10
	clz	w10, w10
	ldr	w9, [x9, w10, uxtw #2]
	rbit	w9, w9
	clz	w9, w9
	add	w9, w9, w10, lsl #4
	add	x9, x19, x9, lsl #2
	ldr	w1, [x9, #192]
	cmn	w1, #1
	b.ne	.LBB59_12
.LBB59_17:
	mov	w0, #1
	strb	w0, [x19]
	.cfi_def_cfa wsp, 32
	ldp	x20, x19, [sp, #16]
	ldp	x29, x30, [sp], #32
	.cfi_def_cfa_offset 0
	.cfi_restore w19
	.cfi_restore w20
	.cfi_restore w30
	.cfi_restore w29
	ret
.Lfunc_end59:
	.size	tlsf_check_request, .Lfunc_end59-tlsf_check_request
	.cfi_endproc
	.section	.text.tlsf_close,"ax",@progbits
	.globl	tlsf_close
	.p2align	2
	.type	tlsf_close,@function
tlsf_close:
	.cfi_startproc
	ldrb	w8, [x0, #8]
	cbz	w8, .LBB60_8
	stp	x29, x30, [sp, #-64]!
	.cfi_def_cfa_offset 64
	str	x23, [sp, #16]
	stp	x22, x21, [sp, #32]
	stp	x20, x19, [sp, #48]
	mov	x29, sp
	.cfi_def_cfa w29, 64
	.cfi_offset w19, -8
	.cfi_offset w20, -16
	.cfi_offset w21, -24
	.cfi_offset w22, -32
	.cfi_offset w23, -48
	.cfi_offset w30, -56
	.cfi_offset w29, -64
	.cfi_remember_state
	ldr	x8, [x0]
	ldrb	w9, [x8]
	cmp	w9, #1
	b.ne	.LBB60_9
	strb	wzr, [x0, #8]
	strb	wzr, [x8]
	ldr	x8, [x0]
	str	xzr, [x0]
	ldp	x22, x19, [x8, #64]
	ldrb	w23, [x8, #16]
	ldr	x20, [x8, #48]
	ldr	x21, [x8, #88]
	mov	x0, x8
	bl	tlsf_memory_dealloc
	cbz	x22, .LBB60_5
	mov	x0, x20
	bl	tlsf_memory_dealloc
.LBB60_5:
	cbz	x21, .LBB60_7
	mov	x0, x19
	bl	tlsf_memory_dealloc
.LBB60_7:
	mov	w0, wzr
	.cfi_def_cfa wsp, 64
	ldp	x20, x19, [sp, #48]
	ldr	x23, [sp, #16]
	ldp	x22, x21, [sp, #32]
	ldp	x29, x30, [sp], #64
	.cfi_def_cfa_offset 0
	.cfi_restore w19
	.cfi_restore w20
	.cfi_restore w21
	.cfi_restore w22
	.cfi_restore w23
	.cfi_restore w30
	.cfi_restore w29
	ret
.LBB60_8:
	mov	w0, #32
	ret
.LBB60_9:
	.cfi_restore_state
	mov	w0, #32
	.cfi_def_cfa wsp, 64
	ldp	x20, x19, [sp, #48]
	ldr	x23, [sp, #16]
	ldp	x22, x21, [sp, #32]
	ldp	x29, x30, [sp], #64
	.cfi_def_cfa_offset 0
	.cfi_restore w19
	.cfi_restore w20
	.cfi_restore w21
	.cfi_restore w22
	.cfi_restore w23
	.cfi_restore w30
	.cfi_restore w29
	ret
.Lfunc_end60:
	.size	tlsf_close, .Lfunc_end60-tlsf_close
	.cfi_endproc
	.section	.text.tlsf_counts,"ax",@progbits
	.globl	tlsf_counts
	.p2align	2
	.type	tlsf_counts,@function
tlsf_counts:
	.cfi_startproc
	ldrb	w8, [x0, #8]
	cbz	w8, .LBB61_3
	ldr	x8, [x0]
	ldrb	w9, [x8]
	tbz	w9, #0, .LBB61_3
	ldr	d0, [x8, #40]
	ldr	d1, [x8, #8]
	mov	w0, wzr
	mov	v0.d[1], v1.d[0]
	str	q0, [x1]
	ret
.LBB61_3:
	mov	w0, wzr
	b	"tlsf_c::call_fault::CallFault::refusal"
.Lfunc_end61:
	.size	tlsf_counts, .Lfunc_end61-tlsf_counts
	.cfi_endproc
	.section	.text.tlsf_drain,"ax",@progbits
	.globl	tlsf_drain
	.p2align	2
	.type	tlsf_drain,@function
tlsf_drain:
	.cfi_startproc
	stp	x29, x30, [sp, #-96]!
	.cfi_def_cfa_offset 96
	stp	x28, x27, [sp, #16]
	stp	x26, x25, [sp, #32]
	stp	x24, x23, [sp, #48]
	stp	x22, x21, [sp, #64]
	stp	x20, x19, [sp, #80]
	mov	x29, sp
	.cfi_def_cfa w29, 96
	.cfi_offset w19, -8
	.cfi_offset w20, -16
	.cfi_offset w21, -24
	.cfi_offset w22, -32
	.cfi_offset w23, -40
	.cfi_offset w24, -48
	.cfi_offset w25, -56
	.cfi_offset w26, -64
	.cfi_offset w27, -72
	.cfi_offset w28, -80
	.cfi_offset w30, -88
	.cfi_offset w29, -96
	.cfi_remember_state
	sub	sp, sp, #784
	ldrb	w8, [x0, #8]
	cbz	w8, .LBB62_13
	ldr	x8, [x0]
	mov	x21, x0
	ldrb	w8, [x8]
	cmp	w8, #1
	b.ne	.LBB62_13
	ldrb	w8, [x1, #8]
	cbz	w8, .LBB62_13
	ldr	x24, [x1]
	ldrb	w8, [x24, #1]
	tbz	w8, #0, .LBB62_13
	ldrb	w8, [x24]
	cmp	w8, #1
	b.ne	.LBB62_15
	mov	w20, w2
	add	x0, sp, #8
	mov	w1, wzr
	mov	w2, #768
	mov	x19, x3
	strb	wzr, [x24, #1]
	add	x22, sp, #8
	bl	tlsf_memory_set
	mov	w25, wzr
	cbz	w20, .LBB62_12
	add	x26, x22, #16
.LBB62_7:
	cmp	w20, #32
	mov	w8, #32
	add	x0, x24, #8
	csel	w22, w20, w8, lo
	add	x1, sp, #8
	mov	x2, x22
	bl	"tlsf_post::take_end::TakeEnd::take_slice"
	mov	x23, x0
	cbz	x0, .LBB62_10
	mov	x27, x26
	mov	x28, x23
.LBB62_9:
	ldp	w1, w3, [x27, #-8]
	ldr	x2, [x27], #24
	mov	x0, x21
	bl	"tlsf_c::heap_calls::release_named"
	subs	x28, x28, #1
	b.ne	.LBB62_9
.LBB62_10:
	cmp	x23, x22
	add	w25, w25, w23
	b.lo	.LBB62_12
	sub	w20, w20, w23
	cbnz	w20, .LBB62_7
.LBB62_12:
	mov	w8, #1
	str	w25, [x19]
	mov	w0, wzr
	strb	w8, [x24, #1]
	add	sp, sp, #784
	.cfi_def_cfa wsp, 96
	ldp	x20, x19, [sp, #80]
	ldp	x22, x21, [sp, #64]
	ldp	x24, x23, [sp, #48]
	ldp	x26, x25, [sp, #32]
	ldp	x28, x27, [sp, #16]
	ldp	x29, x30, [sp], #96
	.cfi_def_cfa_offset 0
	.cfi_restore w19
	.cfi_restore w20
	.cfi_restore w21
	.cfi_restore w22
	.cfi_restore w23
	.cfi_restore w24
	.cfi_restore w25
	.cfi_restore w26
	.cfi_restore w27
	.cfi_restore w28
	.cfi_restore w30
	.cfi_restore w29
	ret
.LBB62_13:
	.cfi_restore_state
	.cfi_remember_state
	mov	w0, wzr
.LBB62_14:
	add	sp, sp, #784
	.cfi_def_cfa wsp, 96
	ldp	x20, x19, [sp, #80]
	ldp	x22, x21, [sp, #64]
	ldp	x24, x23, [sp, #48]
	ldp	x26, x25, [sp, #32]
	ldp	x28, x27, [sp, #16]
	ldp	x29, x30, [sp], #96
	.cfi_def_cfa_offset 0
	.cfi_restore w19
	.cfi_restore w20
	.cfi_restore w21
	.cfi_restore w22
	.cfi_restore w23
	.cfi_restore w24
	.cfi_restore w25
	.cfi_restore w26
	.cfi_restore w27
	.cfi_restore w28
	.cfi_restore w30
	.cfi_restore w29
	b	"tlsf_c::call_fault::CallFault::refusal"
.LBB62_15:
	.cfi_restore_state
	mov	w0, #2
	b	.LBB62_14
.Lfunc_end62:
	.size	tlsf_drain, .Lfunc_end62-tlsf_drain
	.cfi_endproc
	.section	.text.tlsf_lane_open,"ax",@progbits
	.globl	tlsf_lane_open
	.p2align	2
	.type	tlsf_lane_open,@function
tlsf_lane_open:
	.cfi_startproc
	sub	sp, sp, #208
	.cfi_def_cfa_offset 208
	stp	x29, x30, [sp, #144]
	stp	x24, x23, [sp, #160]
	stp	x22, x21, [sp, #176]
	stp	x20, x19, [sp, #192]
	add	x29, sp, #144
	.cfi_def_cfa w29, 64
	.cfi_offset w19, -8
	.cfi_offset w20, -16
	.cfi_offset w21, -24
	.cfi_offset w22, -32
	.cfi_offset w23, -40
	.cfi_offset w24, -48
	.cfi_offset w30, -56
	.cfi_offset w29, -64
	.cfi_remember_state
	movi	v0.2d, #0000000000000000
	ldrb	w8, [x0, #8]
	stur	xzr, [x29, #-16]
	stp	xzr, xzr, [sp, #16]
	str	xzr, [sp, #8]
	stp	q0, q0, [x29, #-64]
	stur	q0, [x29, #-32]
	stp	q0, q0, [sp, #32]
	str	q0, [sp, #64]
	tbnz	w8, #0, .LBB63_2
	ldrb	w8, [x1, #8]
	tbz	w8, #0, .LBB63_3
.LBB63_2:
	mov	w0, #33
	.cfi_def_cfa wsp, 208
	ldp	x20, x19, [sp, #192]
	ldp	x22, x21, [sp, #176]
	ldp	x24, x23, [sp, #160]
	ldp	x29, x30, [sp, #144]
	add	sp, sp, #208
	.cfi_def_cfa_offset 0
	.cfi_restore w19
	.cfi_restore w20
	.cfi_restore w21
	.cfi_restore w22
	.cfi_restore w23
	.cfi_restore w24
	.cfi_restore w30
	.cfi_restore w29
	ret
.LBB63_3:
	.cfi_restore_state
	.cfi_remember_state
	sub	w8, w2, #1025
	cmn	w8, #1024
	b.hs	.LBB63_5
	mov	w0, #5
	.cfi_def_cfa wsp, 208
	ldp	x20, x19, [sp, #192]
	ldp	x22, x21, [sp, #176]
	ldp	x24, x23, [sp, #160]
	ldp	x29, x30, [sp, #144]
	add	sp, sp, #208
	.cfi_def_cfa_offset 0
	.cfi_restore w19
	.cfi_restore w20
	.cfi_restore w21
	.cfi_restore w22
	.cfi_restore w23
	.cfi_restore w24
	.cfi_restore w30
	.cfi_restore w29
	ret
.LBB63_5:
	.cfi_restore_state
	.cfi_remember_state
	mov	x24, x0
	mov	x23, x1
	mov	w0, #384
	mov	w1, #8
	mov	w19, w2
	bl	tlsf_memory_alloc
	tbz	w0, #0, .LBB63_32
	mov	w21, w19
	mov	x20, x1
	mov	w1, #8
	add	x8, x21, x21, lsl #1
	lsl	x0, x8, #3
	bl	tlsf_memory_alloc
	tbz	w0, #0, .LBB63_14
	mov	x22, x1
	mov	w0, #48
	mov	w1, #8
	str	xzr, [x20]
	str	xzr, [x20, #128]
	str	xzr, [x20, #256]
	bl	tlsf_memory_alloc
	tbz	w0, #0, .LBB63_15
	mov	w8, #256
	mov	x19, x1
	stp	x20, x22, [x1, #8]
	strh	w8, [x1]
	mov	w8, #257
	sub	x0, x29, #64
	stp	xzr, xzr, [x1, #32]
	str	x21, [x1, #24]
	add	x1, sp, #32
	strh	w8, [sp, #32]
	stp	x20, x22, [sp, #40]
	stp	xzr, xzr, [sp, #64]
	str	x21, [sp, #56]
	bl	"std_alloc::boxed::Box::new::<#91a8e04f462e8cea>"
	ldurb	w8, [x29, #-64]
	cbz	w8, .LBB63_23
	ldurb	w8, [x29, #-56]
	ldur	x0, [x29, #-48]
	ldur	x20, [x29, #-32]
	cmp	w8, #1
	b.gt	.LBB63_24
	ldur	x1, [x29, #-40]
	cbnz	w8, .LBB63_26
	add	x9, x0, #256
.LBB63_12:
	ldaxr	x8, [x9]
	mov	w10, #1
	stlxr	w11, x10, [x9]
	cbnz	w11, .LBB63_12
	cbnz	x8, .LBB63_29
	b	.LBB63_31
.LBB63_14:
	mov	x0, x20
	bl	tlsf_memory_dealloc
	b	.LBB63_32
.LBB63_15:
	add	x19, x20, #256
.LBB63_16:
	ldaxr	x8, [x19]
	mov	w9, #1
	stlxr	w10, x9, [x19]
	cbnz	w10, .LBB63_16
	cbz	x8, .LBB63_19
	mov	x0, x20
	mov	x1, x22
	mov	x2, x21
	bl	"rtrb::release::drop_slow::<#23d795680250cb0d>"
.LBB63_19:
.LBB63_20:
	ldaxr	x8, [x19]
	mov	w9, #1
	stlxr	w10, x9, [x19]
	cbnz	w10, .LBB63_20
	cbz	x8, .LBB63_32
	mov	x0, x20
	mov	x1, x22
	mov	x2, x21
	bl	"rtrb::release::drop_slow::<#23d795680250cb0d>"
	b	.LBB63_32
.LBB63_23:
	ldur	x9, [x29, #-56]
	mov	w8, #1
	mov	w0, wzr
	str	x19, [x24]
	strb	w8, [x24, #8]
	stur	wzr, [x24, #9]
	str	wzr, [x24, #12]
	str	x9, [x23]
	strb	w8, [x23, #8]
	stur	wzr, [x23, #9]
	str	wzr, [x23, #12]
	.cfi_def_cfa wsp, 208
	ldp	x20, x19, [sp, #192]
	ldp	x22, x21, [sp, #176]
	ldp	x24, x23, [sp, #160]
	ldp	x29, x30, [sp, #144]
	add	sp, sp, #208
	.cfi_def_cfa_offset 0
	.cfi_restore w19
	.cfi_restore w20
	.cfi_restore w21
	.cfi_restore w22
	.cfi_restore w23
	.cfi_restore w24
	.cfi_restore w30
	.cfi_restore w29
	ret
.LBB63_24:
	.cfi_restore_state
	cmp	w8, #2
	b.ne	.LBB63_30
	bl	"std_alloc::arc::Arc::drop::<#c4a047e811255370>"
	ldur	q0, [x29, #-24]
	add	x0, sp, #8
	str	x20, [sp, #8]
	stur	q0, [sp, #16]
	bl	"std_alloc::vec::Vec::drop::<#7ac45d8413b9ad54>"
	b	.LBB63_31
.LBB63_26:
	add	x9, x0, #256
.LBB63_27:
	ldaxr	x8, [x9]
	mov	w10, #1
	stlxr	w11, x10, [x9]
	cbnz	w11, .LBB63_27
	cbz	x8, .LBB63_31
.LBB63_29:
	mov	x2, x20
	bl	"rtrb::release::drop_slow::<#23d795680250cb0d>"
	b	.LBB63_31
.LBB63_30:
	bl	"std_alloc::arc::Arc::drop::<#c4a047e811255370>"
.LBB63_31:
	mov	x0, x19
	bl	"std_alloc::boxed::Box::drop::<#7d8ec8058c3633cd>"
.LBB63_32:
	mov	w0, #6
	.cfi_def_cfa wsp, 208
	ldp	x20, x19, [sp, #192]
	ldp	x22, x21, [sp, #176]
	ldp	x24, x23, [sp, #160]
	ldp	x29, x30, [sp, #144]
	add	sp, sp, #208
	.cfi_def_cfa_offset 0
	.cfi_restore w19
	.cfi_restore w20
	.cfi_restore w21
	.cfi_restore w22
	.cfi_restore w23
	.cfi_restore w24
	.cfi_restore w30
	.cfi_restore w29
	ret
.Lfunc_end63:
	.size	tlsf_lane_open, .Lfunc_end63-tlsf_lane_open
	.cfi_endproc
	.section	.text.tlsf_locate,"ax",@progbits
	.globl	tlsf_locate
	.p2align	2
	.type	tlsf_locate,@function
tlsf_locate:
	.cfi_startproc
	stp	x29, x30, [sp, #-32]!
	.cfi_def_cfa_offset 32
	str	x19, [sp, #16]
	mov	x29, sp
	.cfi_def_cfa w29, 32
	.cfi_offset w19, -16
	.cfi_offset w30, -24
	.cfi_offset w29, -32
	.cfi_remember_state
	ldrb	w8, [x0, #8]
	cbz	w8, .LBB64_10
	ldr	x19, [x0]
	ldrb	w8, [x19]
	tbz	w8, #0, .LBB64_10
	ldr	w8, [x19, #24]
	ldrb	w10, [x19, #16]
	lsr	x9, x1, #32
	strb	wzr, [x19]
	cmp	w8, w1
	b.ne	.LBB64_11
	ldr	w8, [x19, #56]
	cmp	w9, w8
	b.hs	.LBB64_9
	lsr	x8, x1, #35
	ldr	x10, [x19, #72]
	and	x8, x8, #0x1ffffff8
	ldr	x8, [x10, x8]
	lsr	x8, x8, x9
	tbz	w8, #0, .LBB64_9
	ldr	x8, [x19, #48]
	add	x9, x8, x9, lsl #3
	ldr	x10, [x9]
	tbnz	w10, #0, .LBB64_9
	ldr	x10, [x9, #8]
	cmp	x10, x2
	b.ne	.LBB64_9
	ldr	x9, [x9, #16]
	mov	w0, wzr
	mov	w10, #1
	strb	w10, [x19]
	str	x8, [x3]
	str	w9, [x4]
	.cfi_def_cfa wsp, 32
	ldr	x19, [sp, #16]
	ldp	x29, x30, [sp], #32
	.cfi_def_cfa_offset 0
	.cfi_restore w19
	.cfi_restore w30
	.cfi_restore w29
	ret
.LBB64_9:
	.cfi_restore_state
	.cfi_remember_state
	mov	w0, w1
	b	.LBB64_12
.LBB64_10:
	mov	w0, wzr
	.cfi_def_cfa wsp, 32
	ldr	x19, [sp, #16]
	ldp	x29, x30, [sp], #32
	.cfi_def_cfa_offset 0
	.cfi_restore w19
	.cfi_restore w30
	.cfi_restore w29
	b	"tlsf_c::call_fault::CallFault::refusal"
.LBB64_11:
	.cfi_restore_state
	mov	w0, w1
	mov	w1, w8
.LBB64_12:
	bl	"tlsf_heap::refusal::Refusal::of_name"
	and	w8, w0, #0xff
	mov	w9, #1
	cmp	w8, #3
	mov	w8, #3
	strb	w9, [x19]
	cinc	w0, w8, eq
	.cfi_def_cfa wsp, 32
	ldr	x19, [sp, #16]
	ldp	x29, x30, [sp], #32
	.cfi_def_cfa_offset 0
	.cfi_restore w19
	.cfi_restore w30
	.cfi_restore w29
	ret
.Lfunc_end64:
	.size	tlsf_locate, .Lfunc_end64-tlsf_locate
	.cfi_endproc
	.section	.text.tlsf_offsets_allocate,"ax",@progbits
	.globl	tlsf_offsets_allocate
	.p2align	2
	.type	tlsf_offsets_allocate,@function
tlsf_offsets_allocate:
	.cfi_startproc
	ldrb	w8, [x0, #8]
	cbz	w8, .LBB65_13
	ldr	x8, [x0]
	ldrb	w9, [x8, #1]
	tbz	w9, #0, .LBB65_13
	ldrb	w9, [x8]
	cbnz	w9, .LBB65_33
	ldrb	w10, [x8, #8]
	ldr	w9, [x8, #2752]
	strb	wzr, [x8, #1]
	cbz	w10, .LBB65_8
	cbz	w9, .LBB65_48
	udiv	x10, x1, x9
	mov	w11, #-1
	mov	w12, #16777216
	msub	x9, x10, x9, x1
	cmp	x9, #0
	cinc	x9, x10, ne
	mov	w10, #4
	cmp	x9, #4
	csel	x10, x9, x10, hi
	cmp	x10, x11
	csel	x10, x10, x11, lo
	cmp	x9, x12
	b.hi	.LBB65_10
	orr	w9, w10, #0x20
	mov	w11, #26
	add	x12, x8, #100
	clz	w9, w9
	sub	w9, w11, w9
	sub	w11, w10, #1
	lsr	w13, w11, w9
	add	w9, w13, w9, lsl #5
	add	w9, w9, #1
	sub	x9, x9, #1
	lsr	x11, x9, #5
	ldr	w14, [x12, x11, lsl #2]
	lsr	w13, w14, w13
	ands	w13, w13, #0xfffffffe
	b.eq	.LBB65_14
	rbit	w11, w13
	clz	w11, w11
	add	x15, x9, x11
	ldr	x9, [x8, #24]
	cmn	x9, #1
	b.ne	.LBB65_16
	b	.LBB65_22
.LBB65_8:
	cbz	w9, .LBB65_48
	udiv	x10, x1, x9
	mov	w11, #-1
	msub	x9, x10, x9, x1
	cmp	x9, #0
	cinc	x9, x10, ne
	mov	w10, #4
	cmp	x9, #4
	csel	x10, x9, x10, hi
	cmp	x10, x11
	csel	x11, x10, x11, lo
	cmp	x9, #256, lsl #12
	b.ls	.LBB65_11
.LBB65_10:
	mov	w0, #1
	strb	w0, [x8, #1]
	ret
.LBB65_11:
	orr	w9, w11, #0x10
	mov	w10, #27
	add	x12, x8, #100
	clz	w9, w9
	sub	w9, w10, w9
	sub	w10, w11, #1
	lsr	w13, w10, w9
	add	w9, w13, w9, lsl #4
	and	w13, w13, #0xf
	add	w9, w9, #1
	sub	x9, x9, #1
	lsr	x10, x9, #4
	ldr	w14, [x12, x10, lsl #2]
	lsr	w13, w14, w13
	ands	w13, w13, #0xfffffffe
	b.eq	.LBB65_18
	rbit	w10, w13
	clz	w10, w10
	add	x15, x9, x10
	ldr	x9, [x8, #24]
	cmn	x9, #1
	b.ne	.LBB65_20
	b	.LBB65_22
.LBB65_13:
	mov	w0, wzr
	b	"tlsf_c::call_fault::CallFault::refusal"
.LBB65_14:
	mov	w9, #-2
	ldr	w13, [x8, #96]
	lsl	w9, w9, w11
	ands	w9, w13, w9
	b.eq	.LBB65_10
	rbit	w9, w9
	clz	w9, w9
	ldr	w11, [x12, w9, uxtw #2]
	rbit	w11, w11
	clz	w11, w11
	add	w15, w11, w9, lsl #5
	ldr	x9, [x8, #24]
	cmn	x9, #1
	b.eq	.LBB65_22
.LBB65_16:
	add	x13, x8, #184
	ldr	x14, [x8, #40]
	ldr	w11, [x13, x15, lsl #2]
	ubfiz	x16, x11, #3, #32
	add	x17, x14, x16
	ldr	x17, [x17, #16]
	cmn	w17, #1
	b.eq	.LBB65_23
	ubfiz	x18, x17, #3, #32
	add	x14, x14, x18
	ldr	x18, [x14, #16]
	orr	x18, x18, #0xffffffff00000000
	str	x18, [x14, #16]
	str	w17, [x13, x15, lsl #2]
	ldr	x14, [x8, #40]
	b	.LBB65_25
.LBB65_18:
	mov	w9, #-2
	ldr	w13, [x8, #96]
	lsl	w9, w9, w10
	ands	w9, w13, w9
	b.eq	.LBB65_10
	rbit	w9, w9
	clz	w9, w9
	ldr	w10, [x12, w9, uxtw #2]
	rbit	w10, w10
	clz	w10, w10
	add	w15, w10, w9, lsl #4
	ldr	x9, [x8, #24]
	cmn	x9, #1
	b.eq	.LBB65_22
.LBB65_20:
	add	x13, x8, #184
	ldr	x14, [x8, #40]
	ldr	w10, [x13, x15, lsl #2]
	ubfiz	x16, x10, #3, #32
	add	x17, x14, x16
	ldr	x17, [x17, #16]
	cmn	w17, #1
	b.eq	.LBB65_34
	ubfiz	x18, x17, #3, #32
	add	x14, x14, x18
	ldr	x18, [x14, #16]
	orr	x18, x18, #0xffffffff00000000
	str	x18, [x14, #16]
	str	w17, [x13, x15, lsl #2]
	ldr	x14, [x8, #40]
	b	.LBB65_36
.LBB65_22:
	mov	w9, #1
	mov	w0, #2
	strb	w9, [x8, #1]
	ret
.LBB65_23:
	lsr	x17, x15, #3
	mov	w18, #-1
	str	w18, [x13, x15, lsl #2]
	and	x18, x17, #0x1ffffffffffffffc
	mov	w17, #1
	ldr	w0, [x12, x18]
	lsl	w1, w17, w15
	bics	w0, w0, w1
	str	w0, [x12, x18]
	b.ne	.LBB65_25
	lsr	x15, x15, #5
	ldr	w18, [x8, #96]
	lsl	w15, w17, w15
	bic	w15, w18, w15
	str	w15, [x8, #96]
.LBB65_25:
	add	x18, x14, x16
	ldr	x16, [x18]
	sub	w17, w16, w10, lsl #2
	cmp	w17, #15
	b.hi	.LBB65_27
	sub	x10, x16, #1
	str	xzr, [x18, #16]
	lsr	w12, w10, #2
	stp	x10, x9, [x18]
	mov	w10, w12
	ldp	w12, w13, [x8, #32]
	add	w10, w12, w10
	cmp	w13, w10
	str	w10, [x8, #32]
	b.lo	.LBB65_31
	b	.LBB65_32
.LBB65_27:
	add	w15, w11, w10
	sub	x16, x16, x17
	str	x16, [x14, x11, lsl #3]
	ubfiz	x16, x15, #3, #32
	orr	x0, x17, x11, lsl #32
	stp	x9, xzr, [x18, #8]
	add	x14, x14, x16
	stp	x0, x9, [x14]
	lsr	w14, w15, #3
	ldr	x18, [x8, #64]
	and	x0, x14, #0x1ffffff8
	mov	w14, #1
	ldr	x1, [x18, x0]
	lsl	x3, x14, x15
	lsr	w14, w17, #2
	orr	x1, x1, x3
	str	x1, [x18, x0]
	tbnz	w17, #1, .LBB65_29
	ldr	x17, [x8, #40]
	add	w18, w14, w15
	add	x17, x17, w18, uxtw #3
	str	w15, [x17, #4]
.LBB65_29:
	orr	w17, w14, #0x20
	mov	w18, #26
	ldr	x0, [x8, #40]
	clz	w17, w17
	sub	w17, w18, w17
	lsr	w14, w14, w17
	add	w17, w14, w17, lsl #5
	ldr	w18, [x13, w17, uxtw #2]
	str	w15, [x13, w17, uxtw #2]
	tbnz	w18, #31, .LBB65_42
	add	x14, x0, x18, lsl #3
	orr	x12, x18, #0xffffffff00000000
	add	x13, x0, x16
	str	x12, [x13, #16]
	str	w15, [x14, #20]
	ldp	w12, w13, [x8, #32]
	add	w10, w12, w10
	cmp	w13, w10
	str	w10, [x8, #32]
	b.hs	.LBB65_32
.LBB65_31:
	str	w10, [x8, #36]
.LBB65_32:
	ldr	x10, [x8, #24]
	ldr	x13, [x8, #40]
	add	w14, w11, #3
	ldr	w12, [x8, #16]
	add	x10, x10, #1
	str	x10, [x8, #24]
	str	xzr, [x13, w14, uxtw #3]
	ldr	x10, [x8, #40]
	ldr	w14, [x8, #2752]
	ldr	x10, [x10, x11, lsl #3]
	umull	x13, w14, w11
	lsr	w10, w10, #2
	umull	x14, w10, w14
	mov	w10, w11
	b	.LBB65_47
.LBB65_33:
	mov	w0, #2
	b	"tlsf_c::call_fault::CallFault::refusal"
.LBB65_34:
	lsr	x17, x15, #2
	mov	w18, #-1
	str	w18, [x13, x15, lsl #2]
	and	w0, w15, #0xf
	and	x18, x17, #0x3ffffffffffffffc
	mov	w17, #1
	ldr	w1, [x12, x18]
	lsl	w0, w17, w0
	bics	w0, w1, w0
	str	w0, [x12, x18]
	b.ne	.LBB65_36
	lsr	x15, x15, #4
	ldr	w18, [x8, #96]
	lsl	w15, w17, w15
	bic	w15, w18, w15
	str	w15, [x8, #96]
.LBB65_36:
	add	x18, x14, x16
	ldr	x16, [x18]
	sub	w17, w16, w11, lsl #2
	cmp	w17, #15
	b.hi	.LBB65_38
	sub	x11, x16, #1
	str	xzr, [x18, #16]
	lsr	w12, w11, #2
	stp	x11, x9, [x18]
	mov	w11, w12
	b	.LBB65_44
.LBB65_38:
	add	w15, w10, w11
	sub	x16, x16, x17
	str	x16, [x14, x10, lsl #3]
	ubfiz	x16, x15, #3, #32
	orr	x0, x17, x10, lsl #32
	stp	x9, xzr, [x18, #8]
	add	x14, x14, x16
	stp	x0, x9, [x14]
	lsr	w14, w15, #3
	ldr	x18, [x8, #64]
	and	x0, x14, #0x1ffffff8
	mov	w14, #1
	ldr	x1, [x18, x0]
	lsl	x3, x14, x15
	lsr	w14, w17, #2
	orr	x1, x1, x3
	str	x1, [x18, x0]
	tbnz	w17, #1, .LBB65_40
	ldr	x17, [x8, #40]
	add	w18, w14, w15
	add	x17, x17, w18, uxtw #3
	str	w15, [x17, #4]
.LBB65_40:
	orr	w17, w14, #0x10
	mov	w18, #27
	ldr	x0, [x8, #40]
	clz	w17, w17
	sub	w17, w18, w17
	lsr	w14, w14, w17
	add	w17, w14, w17, lsl #4
	ldr	w18, [x13, w17, uxtw #2]
	str	w15, [x13, w17, uxtw #2]
	tbnz	w18, #31, .LBB65_43
	add	x14, x0, x18, lsl #3
	orr	x12, x18, #0xffffffff00000000
	add	x13, x0, x16
	str	x12, [x13, #16]
	str	w15, [x14, #20]
	b	.LBB65_44
.LBB65_42:
	add	x13, x0, x16
	mov	x15, #-1
	lsr	x16, x17, #5
	mov	w17, #1
	str	x15, [x13, #16]
	ldr	w13, [x8, #96]
	lsl	w15, w17, w16
	lsl	w14, w17, w14
	ldr	w17, [x12, x16, lsl #2]
	orr	w13, w13, w15
	str	w13, [x8, #96]
	orr	w13, w17, w14
	str	w13, [x12, x16, lsl #2]
	ldp	w12, w13, [x8, #32]
	add	w10, w12, w10
	cmp	w13, w10
	str	w10, [x8, #32]
	b.lo	.LBB65_31
	b	.LBB65_32
.LBB65_43:
	add	x13, x0, x16
	mov	x15, #-1
	lsr	x16, x17, #4
	mov	w17, #1
	str	x15, [x13, #16]
	and	w14, w14, #0xf
	ldr	w13, [x8, #96]
	lsl	w15, w17, w16
	lsl	w14, w17, w14
	ldr	w17, [x12, x16, lsl #2]
	orr	w13, w13, w15
	str	w13, [x8, #96]
	orr	w13, w17, w14
	str	w13, [x12, x16, lsl #2]
.LBB65_44:
	ldp	w12, w13, [x8, #32]
	add	w11, w12, w11
	cmp	w13, w11
	str	w11, [x8, #32]
	b.hs	.LBB65_46
	str	w11, [x8, #36]
.LBB65_46:
	ldr	x11, [x8, #24]
	ldr	x13, [x8, #40]
	add	w14, w10, #3
	ldr	w12, [x8, #16]
	add	x11, x11, #1
	str	x11, [x8, #24]
	str	xzr, [x13, w14, uxtw #3]
	ldr	x11, [x8, #40]
	ldr	w14, [x8, #2752]
	ldr	x11, [x11, x10, lsl #3]
	umull	x13, w14, w10
	lsr	w11, w11, #2
	umull	x14, w11, w14
.LBB65_47:
	mov	w0, wzr
	mov	w11, #1
	strb	w11, [x8, #1]
	stp	w12, w10, [x2]
	stp	x9, x13, [x2, #8]
	str	x14, [x2, #24]
	ret
.LBB65_48:
	brk	#0x1
.Lfunc_end65:
	.size	tlsf_offsets_allocate, .Lfunc_end65-tlsf_offsets_allocate
	.cfi_endproc
	.section	.text.tlsf_offsets_close,"ax",@progbits
	.globl	tlsf_offsets_close
	.p2align	2
	.type	tlsf_offsets_close,@function
tlsf_offsets_close:
	.cfi_startproc
	ldrb	w8, [x0, #8]
	cbz	w8, .LBB66_4
	ldr	x8, [x0]
	ldrb	w9, [x8, #1]
	cmp	w9, #1
	b.ne	.LBB66_4
	ldrb	w8, [x8]
	cbz	w8, .LBB66_5
	mov	w0, #40
	ret
.LBB66_4:
	mov	w0, #32
	ret
.LBB66_5:
	stp	x29, x30, [sp, #-16]!
	.cfi_def_cfa_offset 16
	mov	x29, sp
	.cfi_def_cfa w29, 16
	.cfi_offset w30, -8
	.cfi_offset w29, -16
	bl	"tlsf_c::arena_slot::ArenaSlot::close"
	mov	w0, wzr
	.cfi_def_cfa wsp, 16
	ldp	x29, x30, [sp], #16
	.cfi_def_cfa_offset 0
	.cfi_restore w30
	.cfi_restore w29
	ret
.Lfunc_end66:
	.size	tlsf_offsets_close, .Lfunc_end66-tlsf_offsets_close
	.cfi_endproc
	.section	.rodata.cst16,"aM",@progbits,16
	.p2align	4, 0x0
.LCPI67_0:
	.xword	-4294967277
	.xword	0
.LCPI67_1:
	.xword	1
	.xword	0
	.section	.rodata.cst8,"aM",@progbits,8
	.p2align	3, 0x0
.LCPI67_2:
	.word	1
	.word	16
	.section	.text.tlsf_offsets_open,"ax",@progbits
	.globl	tlsf_offsets_open
	.p2align	2
	.type	tlsf_offsets_open,@function
tlsf_offsets_open:
	.cfi_startproc
	ldrb	w8, [x0, #8]
	tbz	w8, #0, .LBB67_2
	mov	w0, #33
	ret
.LBB67_2:
	sub	w8, w1, #6
	cmn	w8, #2
	b.hs	.LBB67_4
	mov	w0, #34
	ret
.LBB67_4:
	stp	x29, x30, [sp, #-96]!
	.cfi_def_cfa_offset 96
	stp	x28, x27, [sp, #16]
	stp	x26, x25, [sp, #32]
	stp	x24, x23, [sp, #48]
	stp	x22, x21, [sp, #64]
	stp	x20, x19, [sp, #80]
	mov	x29, sp
	.cfi_def_cfa w29, 96
	.cfi_offset w19, -8
	.cfi_offset w20, -16
	.cfi_offset w21, -24
	.cfi_offset w22, -32
	.cfi_offset w23, -40
	.cfi_offset w24, -48
	.cfi_offset w25, -56
	.cfi_offset w26, -64
	.cfi_offset w27, -72
	.cfi_offset w28, -80
	.cfi_offset w30, -88
	.cfi_offset w29, -96
	mov	x23, x0
	mov	w0, #5
	cmp	w1, #4
	b.ne	.LBB67_11
	cbz	w3, .LBB67_29
	sub	w8, w4, #256, lsl #12
	mov	w9, #-1048573
	sub	w8, w8, #1
	cmp	w8, w9
	b.lo	.LBB67_29
	ubfiz	x0, x4, #3, #32
	mov	w24, w1
	mov	w1, #8
	mov	w27, w2
	mov	w25, w3
	mov	x20, x4
	bl	tlsf_memory_alloc
	tbz	w0, #0, .LBB67_20
	movi	v0.2d, #0000000000000000
	add	w8, w20, #63
	mov	x21, x1
	lsr	w26, w8, #6
	ubfiz	x0, x26, #3, #32
	stp	q0, q0, [x1]
	mov	w1, #8
	bl	tlsf_memory_alloc
	tbz	w0, #0, .LBB67_21
	adrp	x8, .LCPI67_0
	str	xzr, [x1]
	mov	x22, x1
	ldr	q0, [x8, :lo12:.LCPI67_0]
	mov	x28, #-1
	mov	w0, #2760
	str	q0, [x21]
	ldr	x8, [x1]
	orr	x8, x8, #0x1
	str	x8, [x1]
	mov	w1, #8
	str	x28, [x21, #16]
	bl	tlsf_memory_alloc
	tbz	w0, #0, .LBB67_22
	adrp	x9, .LCPI67_1
	adrp	x10, .LCPI67_2
	mov	w8, #256
	ldr	q0, [x9, :lo12:.LCPI67_1]
	mov	w9, w20
	mov	x19, x1
	strh	w8, [x1]
	mov	w8, #4
	stur	q0, [x1, #24]
	ldr	d0, [x10, :lo12:.LCPI67_2]
	stp	x9, x22, [x1, #56]
	mov	w9, #1
	str	xzr, [x1, #8]
	stp	w27, wzr, [x1, #16]
	stp	x21, x8, [x1, #40]
	b	.LBB67_17
.LBB67_11:
	cbz	w3, .LBB67_29
	mov	w8, #-16777217
	mov	w9, #-16777213
	add	w8, w4, w8
	cmp	w8, w9
	b.lo	.LBB67_29
	mov	w8, w4
	mov	w24, w1
	mov	w1, #8
	ubfiz	x0, x8, #3, #32
	mov	w27, w2
	mov	w25, w3
	mov	x20, x4
	bl	tlsf_memory_alloc
	tbz	w0, #0, .LBB67_20
	movi	v0.2d, #0000000000000000
	add	w8, w20, #63
	mov	x21, x1
	lsr	w26, w8, #6
	ubfiz	x0, x26, #3, #32
	stp	q0, q0, [x1]
	mov	w1, #8
	bl	tlsf_memory_alloc
	tbz	w0, #0, .LBB67_21
	adrp	x8, .LCPI67_0
	str	xzr, [x1]
	mov	x22, x1
	ldr	q0, [x8, :lo12:.LCPI67_0]
	mov	x28, #-1
	mov	w0, #2760
	str	q0, [x21]
	ldr	x8, [x1]
	orr	x8, x8, #0x1
	str	x8, [x1]
	mov	w1, #8
	str	x28, [x21, #16]
	bl	tlsf_memory_alloc
	tbz	w0, #0, .LBB67_22
	mov	w8, #256
	adrp	x11, .LCPI67_2
	mov	w9, #1
	strh	w8, [x1]
	adrp	x8, .LCPI67_1
	mov	w10, w20
	ldr	q0, [x8, :lo12:.LCPI67_1]
	mov	w8, #4
	mov	x19, x1
	str	x9, [x1, #8]
	stur	q0, [x1, #24]
	ldr	d0, [x11, :lo12:.LCPI67_2]
	stp	w27, wzr, [x1, #16]
	stp	x21, x8, [x1, #40]
	stp	x10, x22, [x1, #56]
.LBB67_17:
	str	d0, [x19, #96]
	movi	v0.2d, #0000000000000000
	add	x0, x19, #204
	mov	w1, #255
	mov	w2, #2544
	stp	x9, x26, [x19, #72]
	str	x8, [x19, #88]
	mov	w21, w25
	stp	x28, x28, [x19, #184]
	stur	q0, [x19, #104]
	stur	q0, [x19, #120]
	stur	q0, [x19, #136]
	stur	q0, [x19, #152]
	stur	q0, [x19, #168]
	str	wzr, [x19, #200]
	bl	tlsf_memory_set
	add	x0, x19, #40
	mov	w1, w20
	str	wzr, [x19, #2748]
	str	x21, [x19, #2752]
	bl	"tlsf_words::words::Words::lengthen"
	mov	w8, #-1
	movi	v0.2d, #0000000000000000
	str	xzr, [x19, #176]
	str	w8, [x19, #200]
	ldp	x9, x8, [x19, #40]
	cmp	w24, #4
	lsl	x10, x8, #2
	stp	q0, q0, [x19, #96]
	stp	q0, q0, [x19, #128]
	orr	x10, x10, #0xffffffff00000003
	str	q0, [x19, #160]
	stp	x10, xzr, [x9]
	ldr	x9, [x19, #64]
	ldr	x10, [x9]
	orr	x10, x10, #0x1
	str	x10, [x9]
	add	x9, x19, #184
	b.ne	.LBB67_24
	orr	w10, w8, #0x10
	mov	w11, #27
	clz	w10, w10
	sub	w10, w11, w10
	lsr	w8, w8, w10
	add	w11, w8, w10, lsl #4
	ldur	x10, [x19, #40]
	ldr	w12, [x9, w11, uxtw #2]
	str	wzr, [x9, w11, uxtw #2]
	tbz	w12, #31, .LBB67_25
	lsr	x9, x11, #4
	mov	x11, #-1
	and	w8, w8, #0xf
	str	x11, [x10, #16]
	mov	w11, #1
	ldr	w12, [x19, #96]
	add	x10, x19, x9, lsl #2
	b	.LBB67_27
.LBB67_20:
	mov	w0, #6
	b	.LBB67_29
.LBB67_21:
	mov	x0, x21
	b	.LBB67_23
.LBB67_22:
	mov	x0, x21
	bl	tlsf_memory_dealloc
	mov	x0, x22
.LBB67_23:
	bl	tlsf_memory_dealloc
	mov	w0, #6
	b	.LBB67_29
.LBB67_24:
	orr	w10, w8, #0x20
	mov	w11, #26
	clz	w10, w10
	sub	w10, w11, w10
	lsr	w8, w8, w10
	add	w11, w8, w10, lsl #5
	ldur	x10, [x19, #40]
	ldr	w12, [x9, w11, uxtw #2]
	str	wzr, [x9, w11, uxtw #2]
	tbnz	w12, #31, .LBB67_26
.LBB67_25:
	orr	x8, x12, #0xffffffff00000000
	add	x9, x10, x12, lsl #3
	str	x8, [x10, #16]
	ldr	w8, [x9, #16]
	str	x8, [x9, #16]
	b	.LBB67_28
.LBB67_26:
	lsr	x9, x11, #5
	mov	x11, #-1
	str	x11, [x10, #16]
	mov	w11, #1
	add	x10, x19, x9, lsl #2
	ldr	w12, [x19, #96]
.LBB67_27:
	lsl	w9, w11, w9
	ldr	w13, [x10, #100]
	lsl	w8, w11, w8
	orr	w9, w12, w9
	str	w9, [x19, #96]
	orr	w8, w13, w8
	str	w8, [x10, #100]
.LBB67_28:
	mov	w0, wzr
	mov	w8, #1
	str	x19, [x23]
	strb	w8, [x23, #8]
	stur	wzr, [x23, #9]
	str	wzr, [x23, #12]
.LBB67_29:
	.cfi_def_cfa wsp, 96
	ldp	x20, x19, [sp, #80]
	ldp	x22, x21, [sp, #64]
	ldp	x24, x23, [sp, #48]
	ldp	x26, x25, [sp, #32]
	ldp	x28, x27, [sp, #16]
	ldp	x29, x30, [sp], #96
	.cfi_def_cfa_offset 0
	.cfi_restore w19
	.cfi_restore w20
	.cfi_restore w21
	.cfi_restore w22
	.cfi_restore w23
	.cfi_restore w24
	.cfi_restore w25
	.cfi_restore w26
	.cfi_restore w27
	.cfi_restore w28
	.cfi_restore w30
	.cfi_restore w29
	ret
.Lfunc_end67:
	.size	tlsf_offsets_open, .Lfunc_end67-tlsf_offsets_open
	.cfi_endproc
	.section	.text.tlsf_offsets_release,"ax",@progbits
	.globl	tlsf_offsets_release
	.p2align	2
	.type	tlsf_offsets_release,@function
tlsf_offsets_release:
	.cfi_startproc
	stp	x29, x30, [sp, #-32]!
	.cfi_def_cfa_offset 32
	str	x19, [sp, #16]
	mov	x29, sp
	.cfi_def_cfa w29, 32
	.cfi_offset w19, -16
	.cfi_offset w30, -24
	.cfi_offset w29, -32
	.cfi_remember_state
	ldrb	w8, [x0, #8]
	cbz	w8, .LBB68_27
	ldr	x19, [x0]
	ldrb	w8, [x19, #1]
	tbz	w8, #0, .LBB68_27
	ldrb	w8, [x19]
	cbnz	w8, .LBB68_35
	ldr	w8, [x19, #16]
	ldrb	w9, [x19, #8]
	lsr	x4, x1, #32
	strb	wzr, [x19, #1]
	cmp	w8, w1
	cbz	w9, .LBB68_12
	b.ne	.LBB68_37
	ldr	w8, [x19, #48]
	cmp	w4, w8
	b.hs	.LBB68_21
	lsr	x8, x1, #35
	ldr	x9, [x19, #64]
	and	x8, x8, #0x1ffffff8
	ldr	x8, [x9, x8]
	lsr	x8, x8, x4
	tbz	w8, #0, .LBB68_21
	ldur	x10, [x19, #40]
	lsl	x8, x4, #3
	add	x9, x10, x8
	ldr	x5, [x9]
	tbnz	w5, #0, .LBB68_21
	ldr	x11, [x9, #8]
	cmp	x11, x2
	b.ne	.LBB68_21
	ldr	x3, [x19, #24]
	cmn	x3, #1
	b.eq	.LBB68_20
	lsr	w11, w5, #2
	ldr	w12, [x19, #32]
	sub	w12, w12, w11
	str	w12, [x19, #32]
	tbnz	w5, #1, .LBB68_22
	add	w12, w11, w4
	ldr	x1, [x10, w12, uxtw #3]
	cbnz	x4, .LBB68_23
	b	.LBB68_24
.LBB68_12:
	b.ne	.LBB68_37
	ldr	w8, [x19, #48]
	cmp	w4, w8
	b.hs	.LBB68_21
	lsr	x8, x1, #35
	ldr	x9, [x19, #64]
	and	x8, x8, #0x1ffffff8
	ldr	x8, [x9, x8]
	lsr	x8, x8, x4
	tbz	w8, #0, .LBB68_21
	ldur	x10, [x19, #40]
	lsl	x8, x4, #3
	add	x9, x10, x8
	ldr	x5, [x9]
	tbnz	w5, #0, .LBB68_21
	ldr	x11, [x9, #8]
	cmp	x11, x2
	b.ne	.LBB68_21
	ldr	x3, [x19, #24]
	cmn	x3, #1
	b.eq	.LBB68_20
	lsr	w11, w5, #2
	ldr	w12, [x19, #32]
	sub	w12, w12, w11
	str	w12, [x19, #32]
	tbnz	w5, #1, .LBB68_30
	add	w12, w11, w4
	ldr	x1, [x10, w12, uxtw #3]
	cbnz	x4, .LBB68_31
	b	.LBB68_32
.LBB68_20:
	mov	w8, #1
	mov	w0, #2
	strb	w8, [x19, #1]
	.cfi_def_cfa wsp, 32
	ldr	x19, [sp, #16]
	ldp	x29, x30, [sp], #32
	.cfi_def_cfa_offset 0
	.cfi_restore w19
	.cfi_restore w30
	.cfi_restore w29
	ret
.LBB68_21:
	.cfi_restore_state
	.cfi_remember_state
	mov	w0, w1
	b	.LBB68_38
.LBB68_22:
	mov	x1, xzr
	cbz	x4, .LBB68_24
.LBB68_23:
	lsr	x12, x5, #29
	and	x12, x12, #0x7fffffff8
	ldr	x2, [x10, x12]
	tbnz	w2, #0, .LBB68_29
.LBB68_24:
	tbnz	w1, #0, .LBB68_28
	orr	w10, w11, #0x20
	mov	w12, #26
	orr	x13, x5, #0x1
	clz	w10, w10
	stp	x13, x3, [x9]
	sub	w12, w12, w10
	ldr	x9, [x19, #24]
	lsr	w10, w11, w12
	add	x9, x9, #1
	add	w11, w10, w12, lsl #5
	str	x9, [x19, #24]
	ldr	x9, [x19, #40]
	add	x13, x19, w11, uxtw #2
	ldr	w12, [x13, #184]
	str	w4, [x13, #184]
	tbz	w12, #31, .LBB68_34
	lsr	x11, x11, #5
	add	x8, x9, x8
	mov	x9, #-1
	str	x9, [x8, #16]
	mov	w9, #1
	add	x8, x19, x11, lsl #2
	ldr	w12, [x19, #96]
	b	.LBB68_41
.LBB68_27:
	mov	w0, wzr
	.cfi_def_cfa wsp, 32
	ldr	x19, [sp, #16]
	ldp	x29, x30, [sp], #32
	.cfi_def_cfa_offset 0
	.cfi_restore w19
	.cfi_restore w30
	.cfi_restore w29
	b	"tlsf_c::call_fault::CallFault::refusal"
.LBB68_28:
	.cfi_restore_state
	.cfi_remember_state
	add	x8, x3, #1
	add	x0, x19, #40
	mov	x2, x5
	str	x8, [x19, #24]
	bl	"tlsf_heap::fitting::merge_next::<=5>"
	mov	w8, #1
	mov	w0, wzr
	strb	w8, [x19, #1]
	.cfi_def_cfa wsp, 32
	ldr	x19, [sp, #16]
	ldp	x29, x30, [sp], #32
	.cfi_def_cfa_offset 0
	.cfi_restore w19
	.cfi_restore w30
	.cfi_restore w29
	ret
.LBB68_29:
	.cfi_restore_state
	.cfi_remember_state
	add	x8, x3, #1
	add	x0, x19, #40
	str	x8, [x19, #24]
	bl	"tlsf_heap::fitting::merge_before::<=5>"
	mov	w8, #1
	mov	w0, wzr
	strb	w8, [x19, #1]
	.cfi_def_cfa wsp, 32
	ldr	x19, [sp, #16]
	ldp	x29, x30, [sp], #32
	.cfi_def_cfa_offset 0
	.cfi_restore w19
	.cfi_restore w30
	.cfi_restore w29
	ret
.LBB68_30:
	.cfi_restore_state
	.cfi_remember_state
	mov	x1, xzr
	cbz	x4, .LBB68_32
.LBB68_31:
	lsr	x12, x5, #29
	and	x12, x12, #0x7fffffff8
	ldr	x2, [x10, x12]
	tbnz	w2, #0, .LBB68_39
.LBB68_32:
	tbnz	w1, #0, .LBB68_36
	orr	w10, w11, #0x10
	mov	w12, #27
	orr	x13, x5, #0x1
	clz	w10, w10
	stp	x13, x3, [x9]
	sub	w12, w12, w10
	ldr	x9, [x19, #24]
	lsr	w10, w11, w12
	add	x9, x9, #1
	add	w11, w10, w12, lsl #4
	str	x9, [x19, #24]
	ldr	x9, [x19, #40]
	add	x13, x19, w11, uxtw #2
	ldr	w12, [x13, #184]
	str	w4, [x13, #184]
	tbnz	w12, #31, .LBB68_40
.LBB68_34:
	add	x8, x9, x8
	add	x9, x9, x12, lsl #3
	orr	x10, x12, #0xffffffff00000000
	str	x10, [x8, #16]
	str	w4, [x9, #20]
	mov	w8, #1
	mov	w0, wzr
	strb	w8, [x19, #1]
	.cfi_def_cfa wsp, 32
	ldr	x19, [sp, #16]
	ldp	x29, x30, [sp], #32
	.cfi_def_cfa_offset 0
	.cfi_restore w19
	.cfi_restore w30
	.cfi_restore w29
	ret
.LBB68_35:
	.cfi_restore_state
	.cfi_remember_state
	mov	w0, #2
	.cfi_def_cfa wsp, 32
	ldr	x19, [sp, #16]
	ldp	x29, x30, [sp], #32
	.cfi_def_cfa_offset 0
	.cfi_restore w19
	.cfi_restore w30
	.cfi_restore w29
	b	"tlsf_c::call_fault::CallFault::refusal"
.LBB68_36:
	.cfi_restore_state
	.cfi_remember_state
	add	x8, x3, #1
	add	x0, x19, #40
	mov	x2, x5
	str	x8, [x19, #24]
	bl	"tlsf_heap::fitting::merge_next::<=4>"
	mov	w8, #1
	mov	w0, wzr
	strb	w8, [x19, #1]
	.cfi_def_cfa wsp, 32
	ldr	x19, [sp, #16]
	ldp	x29, x30, [sp], #32
	.cfi_def_cfa_offset 0
	.cfi_restore w19
	.cfi_restore w30
	.cfi_restore w29
	ret
.LBB68_37:
	.cfi_restore_state
	.cfi_remember_state
	mov	w0, w1
	mov	w1, w8
.LBB68_38:
	bl	"tlsf_heap::refusal::Refusal::of_name"
	and	w8, w0, #0xff
	mov	w9, #1
	cmp	w8, #3
	mov	w8, #3
	strb	w9, [x19, #1]
	cinc	w0, w8, eq
	.cfi_def_cfa wsp, 32
	ldr	x19, [sp, #16]
	ldp	x29, x30, [sp], #32
	.cfi_def_cfa_offset 0
	.cfi_restore w19
	.cfi_restore w30
	.cfi_restore w29
	ret
.LBB68_39:
	.cfi_restore_state
	.cfi_remember_state
	add	x8, x3, #1
	add	x0, x19, #40
	str	x8, [x19, #24]
	bl	"tlsf_heap::fitting::merge_before::<=4>"
	mov	w8, #1
	mov	w0, wzr
	strb	w8, [x19, #1]
	.cfi_def_cfa wsp, 32
	ldr	x19, [sp, #16]
	ldp	x29, x30, [sp], #32
	.cfi_def_cfa_offset 0
	.cfi_restore w19
	.cfi_restore w30
	.cfi_restore w29
	ret
.LBB68_40:
	.cfi_restore_state
	add	x8, x9, x8
	mov	x9, #-1
	lsr	x11, x11, #4
	str	x9, [x8, #16]
	mov	w9, #1
	and	w10, w10, #0xf
	ldr	w12, [x19, #96]
	add	x8, x19, x11, lsl #2
.LBB68_41:
	lsl	w11, w9, w11
	ldr	w13, [x8, #100]
	lsl	w9, w9, w10
	orr	w10, w12, w11
	str	w10, [x19, #96]
	orr	w9, w13, w9
	str	w9, [x8, #100]
	mov	w8, #1
	mov	w0, wzr
	strb	w8, [x19, #1]
	.cfi_def_cfa wsp, 32
	ldr	x19, [sp, #16]
	ldp	x29, x30, [sp], #32
	.cfi_def_cfa_offset 0
	.cfi_restore w19
	.cfi_restore w30
	.cfi_restore w29
	ret
.Lfunc_end68:
	.size	tlsf_offsets_release, .Lfunc_end68-tlsf_offsets_release
	.cfi_endproc
	.section	.text.tlsf_offsets_resize,"ax",@progbits
	.globl	tlsf_offsets_resize
	.p2align	2
	.type	tlsf_offsets_resize,@function
tlsf_offsets_resize:
	.cfi_startproc
	stp	x29, x30, [sp, #-80]!
	.cfi_def_cfa_offset 80
	stp	x26, x25, [sp, #16]
	stp	x24, x23, [sp, #32]
	stp	x22, x21, [sp, #48]
	stp	x20, x19, [sp, #64]
	mov	x29, sp
	.cfi_def_cfa w29, 80
	.cfi_offset w19, -8
	.cfi_offset w20, -16
	.cfi_offset w21, -24
	.cfi_offset w22, -32
	.cfi_offset w23, -40
	.cfi_offset w24, -48
	.cfi_offset w25, -56
	.cfi_offset w26, -64
	.cfi_offset w30, -72
	.cfi_offset w29, -80
	.cfi_remember_state
	ldrb	w8, [x0, #8]
	cbz	w8, .LBB69_38
	ldr	x22, [x0]
	ldrb	w8, [x22, #1]
	tbz	w8, #0, .LBB69_38
	ldrb	w8, [x22]
	cbnz	w8, .LBB69_47
	strb	wzr, [x22, #1]
	ldrb	w9, [x22, #8]
	ldr	w8, [x22, #2752]
	ldp	w19, w20, [x1]
	ldr	x23, [x1, #8]
	cbz	w9, .LBB69_17
	cbz	w8, .LBB69_50
	udiv	x9, x2, x8
	mov	w10, #-1
	msub	x8, x9, x8, x2
	cmp	x8, #0
	cinc	x8, x9, ne
	mov	w9, #4
	cmp	x8, #4
	csel	x9, x8, x9, hi
	ldr	w8, [x22, #16]
	cmp	x9, x10
	csel	x21, x9, x10, lo
	cmp	w19, w8
	b.ne	.LBB69_48
	ldr	w8, [x22, #48]
	cmp	w20, w8
	b.hs	.LBB69_32
	lsr	x8, x20, #3
	ldr	x9, [x22, #64]
	and	x8, x8, #0x1ffffff8
	ldr	x8, [x9, x8]
	lsr	x8, x8, x20
	tbz	w8, #0, .LBB69_32
	ldur	x9, [x22, #40]
	lsl	x25, x20, #3
	add	x8, x9, x25
	ldr	x2, [x8]
	tbnz	w2, #0, .LBB69_32
	ldr	x10, [x8, #8]
	cmp	x10, x23
	b.ne	.LBB69_32
	lsr	w24, w2, #2
	cmp	w24, w21
	b.hs	.LBB69_29
	tbnz	w2, #1, .LBB69_13
	add	w8, w24, w20
	ldr	x3, [x9, w8, uxtw #3]
	tbnz	w3, #0, .LBB69_14
.LBB69_13:
	mov	x3, xzr
.LBB69_14:
	add	w8, w24, w3, lsr #2
	cmp	w8, w21
	b.lo	.LBB69_28
	ldr	x5, [x22, #24]
	cmn	x5, #1
	b.eq	.LBB69_45
	mov	x26, x1
	add	x0, x22, #40
	mov	w1, w20
	mov	w4, w21
	bl	"tlsf_heap::refitting::recut::<=5>"
	b	.LBB69_41
.LBB69_17:
	cbz	w8, .LBB69_50
	udiv	x9, x2, x8
	mov	w10, #-1
	msub	x8, x9, x8, x2
	cmp	x8, #0
	cinc	x8, x9, ne
	mov	w9, #4
	cmp	x8, #4
	csel	x9, x8, x9, hi
	ldr	w8, [x22, #16]
	cmp	x9, x10
	csel	x21, x9, x10, lo
	cmp	w19, w8
	b.ne	.LBB69_48
	ldr	w8, [x22, #48]
	cmp	w20, w8
	b.hs	.LBB69_32
	lsr	x8, x20, #3
	ldr	x9, [x22, #64]
	and	x8, x8, #0x1ffffff8
	ldr	x8, [x9, x8]
	lsr	x8, x8, x20
	tbz	w8, #0, .LBB69_32
	ldur	x9, [x22, #40]
	lsl	x25, x20, #3
	add	x8, x9, x25
	ldr	x2, [x8]
	tbnz	w2, #0, .LBB69_32
	ldr	x10, [x8, #8]
	cmp	x10, x23
	b.ne	.LBB69_32
	lsr	w24, w2, #2
	cmp	w24, w21
	b.hs	.LBB69_33
	tbnz	w2, #1, .LBB69_26
	add	w8, w24, w20
	ldr	x3, [x9, w8, uxtw #3]
	tbnz	w3, #0, .LBB69_27
.LBB69_26:
	mov	x3, xzr
.LBB69_27:
	add	w8, w24, w3, lsr #2
	cmp	w8, w21
	b.hs	.LBB69_39
.LBB69_28:
	mov	w8, #1
	mov	w0, #10
	b	.LBB69_46
.LBB69_29:
	ldr	x4, [x22, #24]
	cmn	x4, #1
	b.eq	.LBB69_45
	add	w9, w21, #4
	str	xzr, [x8, #16]
	mov	w8, w24
	cmp	w24, w9
	b.lo	.LBB69_37
	add	x0, x22, #40
	mov	x25, x1
	mov	w1, w20
	mov	w3, w21
	bl	"tlsf_heap::refitting::split_off::<=5>"
	b	.LBB69_36
.LBB69_32:
	mov	w0, w19
	mov	w1, w19
	b	.LBB69_49
.LBB69_33:
	ldr	x4, [x22, #24]
	cmn	x4, #1
	b.eq	.LBB69_45
	add	w9, w21, #4
	str	xzr, [x8, #16]
	mov	w8, w24
	cmp	w24, w9
	b.lo	.LBB69_37
	add	x0, x22, #40
	mov	x25, x1
	mov	w1, w20
	mov	w3, w21
	bl	"tlsf_heap::refitting::split_off::<=4>"
.LBB69_36:
	mov	x1, x25
	mov	w8, w21
.LBB69_37:
	ldr	w9, [x22, #32]
	ldr	x10, [x22, #24]
	sub	w8, w8, w24
	add	w8, w8, w9
	add	x9, x10, #1
	str	w8, [x22, #32]
	str	x9, [x22, #24]
	b	.LBB69_44
.LBB69_38:
	mov	w0, wzr
	.cfi_def_cfa wsp, 80
	ldp	x20, x19, [sp, #64]
	ldp	x22, x21, [sp, #48]
	ldp	x24, x23, [sp, #32]
	ldp	x26, x25, [sp, #16]
	ldp	x29, x30, [sp], #80
	.cfi_def_cfa_offset 0
	.cfi_restore w19
	.cfi_restore w20
	.cfi_restore w21
	.cfi_restore w22
	.cfi_restore w23
	.cfi_restore w24
	.cfi_restore w25
	.cfi_restore w26
	.cfi_restore w30
	.cfi_restore w29
	b	"tlsf_c::call_fault::CallFault::refusal"
.LBB69_39:
	.cfi_restore_state
	.cfi_remember_state
	ldr	x5, [x22, #24]
	cmn	x5, #1
	b.eq	.LBB69_45
	mov	x26, x1
	add	x0, x22, #40
	mov	w1, w20
	mov	w4, w21
	bl	"tlsf_heap::refitting::recut::<=4>"
.LBB69_41:
	ldr	x8, [x22, #40]
	sub	w9, w0, w24
	add	x8, x8, x25
	str	xzr, [x8, #16]
	ldp	w8, w10, [x22, #32]
	add	w8, w8, w9
	cmp	w10, w8
	str	w8, [x22, #32]
	b.hs	.LBB69_43
	str	w8, [x22, #36]
.LBB69_43:
	ldr	x8, [x22, #24]
	mov	x1, x26
	add	x8, x8, #1
	str	x8, [x22, #24]
.LBB69_44:
	ldr	x8, [x22, #40]
	ldr	w9, [x22, #2752]
	mov	w0, wzr
	ldr	x8, [x8, x20, lsl #3]
	lsr	w10, w8, #2
	umull	x8, w9, w20
	umull	x9, w10, w9
	mov	w10, #1
	strb	w10, [x22, #1]
	stp	w19, w20, [x1]
	stp	x23, x8, [x1, #8]
	str	x9, [x1, #24]
	.cfi_def_cfa wsp, 80
	ldp	x20, x19, [sp, #64]
	ldp	x22, x21, [sp, #48]
	ldp	x24, x23, [sp, #32]
	ldp	x26, x25, [sp, #16]
	ldp	x29, x30, [sp], #80
	.cfi_def_cfa_offset 0
	.cfi_restore w19
	.cfi_restore w20
	.cfi_restore w21
	.cfi_restore w22
	.cfi_restore w23
	.cfi_restore w24
	.cfi_restore w25
	.cfi_restore w26
	.cfi_restore w30
	.cfi_restore w29
	ret
.LBB69_45:
	.cfi_restore_state
	.cfi_remember_state
	mov	w8, #1
	mov	w0, #2
.LBB69_46:
	strb	w8, [x22, #1]
	.cfi_def_cfa wsp, 80
	ldp	x20, x19, [sp, #64]
	ldp	x22, x21, [sp, #48]
	ldp	x24, x23, [sp, #32]
	ldp	x26, x25, [sp, #16]
	ldp	x29, x30, [sp], #80
	.cfi_def_cfa_offset 0
	.cfi_restore w19
	.cfi_restore w20
	.cfi_restore w21
	.cfi_restore w22
	.cfi_restore w23
	.cfi_restore w24
	.cfi_restore w25
	.cfi_restore w26
	.cfi_restore w30
	.cfi_restore w29
	ret
.LBB69_47:
	.cfi_restore_state
	.cfi_remember_state
	mov	w0, #2
	.cfi_def_cfa wsp, 80
	ldp	x20, x19, [sp, #64]
	ldp	x22, x21, [sp, #48]
	ldp	x24, x23, [sp, #32]
	ldp	x26, x25, [sp, #16]
	ldp	x29, x30, [sp], #80
	.cfi_def_cfa_offset 0
	.cfi_restore w19
	.cfi_restore w20
	.cfi_restore w21
	.cfi_restore w22
	.cfi_restore w23
	.cfi_restore w24
	.cfi_restore w25
	.cfi_restore w26
	.cfi_restore w30
	.cfi_restore w29
	b	"tlsf_c::call_fault::CallFault::refusal"
.LBB69_48:
	.cfi_restore_state
	.cfi_remember_state
	mov	w0, w19
	mov	w1, w8
.LBB69_49:
	bl	"tlsf_heap::refusal::Refusal::of_name"
	and	w8, w0, #0xff
	mov	w9, #1
	cmp	w8, #3
	mov	w8, #3
	strb	w9, [x22, #1]
	cinc	w0, w8, eq
	.cfi_def_cfa wsp, 80
	ldp	x20, x19, [sp, #64]
	ldp	x22, x21, [sp, #48]
	ldp	x24, x23, [sp, #32]
	ldp	x26, x25, [sp, #16]
	ldp	x29, x30, [sp], #80
	.cfi_def_cfa_offset 0
	.cfi_restore w19
	.cfi_restore w20
	.cfi_restore w21
	.cfi_restore w22
	.cfi_restore w23
	.cfi_restore w24
	.cfi_restore w25
	.cfi_restore w26
	.cfi_restore w30
	.cfi_restore w29
	ret
.LBB69_50:
	.cfi_restore_state
	brk	#0x1
.Lfunc_end69:
	.size	tlsf_offsets_resize, .Lfunc_end69-tlsf_offsets_resize
	.cfi_endproc
	.section	.rodata.cst16,"aM",@progbits,16
	.p2align	4, 0x0
.LCPI70_0:
	.xword	-4294967277
	.xword	0
.LCPI70_1:
	.xword	0
	.xword	1
.LCPI70_2:
	.xword	1
	.xword	0
	.section	.rodata.cst8,"aM",@progbits,8
	.p2align	3, 0x0
.LCPI70_3:
	.word	1
	.word	16
	.section	.text.tlsf_open,"ax",@progbits
	.globl	tlsf_open
	.p2align	2
	.type	tlsf_open,@function
tlsf_open:
	.cfi_startproc
	stp	x29, x30, [sp, #-96]!
	.cfi_def_cfa_offset 96
	str	x27, [sp, #16]
	stp	x26, x25, [sp, #32]
	stp	x24, x23, [sp, #48]
	stp	x22, x21, [sp, #64]
	stp	x20, x19, [sp, #80]
	mov	x29, sp
	.cfi_def_cfa w29, 96
	.cfi_offset w19, -8
	.cfi_offset w20, -16
	.cfi_offset w21, -24
	.cfi_offset w22, -32
	.cfi_offset w23, -40
	.cfi_offset w24, -48
	.cfi_offset w25, -56
	.cfi_offset w26, -64
	.cfi_offset w27, -80
	.cfi_offset w30, -88
	.cfi_offset w29, -96
	ldrb	w8, [x0, #8]
	tbz	w8, #0, .LBB70_2
	mov	w0, #33
	b	.LBB70_28
.LBB70_2:
	sub	w8, w1, #6
	cmn	w8, #2
	b.hs	.LBB70_4
	mov	w0, #34
	b	.LBB70_28
.LBB70_4:
	cmp	w1, #4
	b.ne	.LBB70_10
	sub	w8, w3, #256, lsl #12
	mov	w9, #-1048573
	sub	w8, w8, #1
	cmp	w8, w9
	b.lo	.LBB70_11
	mov	x24, x0
	ubfiz	x0, x3, #3, #32
	mov	w25, w1
	mov	w1, #8
	mov	w23, w2
	mov	x20, x3
	bl	tlsf_memory_alloc
	tbz	w0, #0, .LBB70_19
	movi	v0.2d, #0000000000000000
	add	w8, w20, #63
	mov	x21, x1
	lsr	w26, w8, #6
	ubfiz	x0, x26, #3, #32
	stp	q0, q0, [x1]
	mov	w1, #8
	bl	tlsf_memory_alloc
	tbz	w0, #0, .LBB70_20
	adrp	x8, .LCPI70_0
	str	xzr, [x1]
	mov	x22, x1
	ldr	q0, [x8, :lo12:.LCPI70_0]
	mov	x27, #-1
	mov	w0, #2760
	str	q0, [x21]
	ldr	x8, [x1]
	orr	x8, x8, #0x1
	str	x8, [x1]
	mov	w1, #8
	str	x27, [x21, #16]
	bl	tlsf_memory_alloc
	tbz	w0, #0, .LBB70_21
	adrp	x9, .LCPI70_2
	adrp	x11, .LCPI70_3
	mov	x19, x1
	ldr	q0, [x9, :lo12:.LCPI70_2]
	mov	w8, #1
	mov	w9, #4
	mov	w10, w20
	strb	w8, [x1]
	str	q0, [x1, #32]
	ldr	d0, [x11, :lo12:.LCPI70_3]
	stp	xzr, xzr, [x1, #8]
	str	d0, [x1, #104]
	movi	v0.2d, #0000000000000000
	stp	w23, wzr, [x1, #24]
	stp	x21, x9, [x1, #48]
	stp	x10, x22, [x1, #64]
	stp	x8, x26, [x1, #80]
	str	x9, [x1, #96]
	b	.LBB70_16
.LBB70_10:
	mov	w8, #-16777217
	mov	w9, #-16777213
	add	w8, w3, w8
	cmp	w8, w9
	b.hs	.LBB70_12
.LBB70_11:
	mov	w0, #5
	b	.LBB70_28
.LBB70_12:
	mov	w8, w3
	mov	x24, x0
	mov	w25, w1
	ubfiz	x0, x8, #3, #32
	mov	w1, #8
	mov	w23, w2
	mov	x20, x3
	bl	tlsf_memory_alloc
	tbz	w0, #0, .LBB70_19
	movi	v0.2d, #0000000000000000
	add	w8, w20, #63
	mov	x21, x1
	lsr	w26, w8, #6
	ubfiz	x0, x26, #3, #32
	stp	q0, q0, [x1]
	mov	w1, #8
	bl	tlsf_memory_alloc
	tbz	w0, #0, .LBB70_20
	adrp	x8, .LCPI70_0
	str	xzr, [x1]
	mov	x22, x1
	ldr	q0, [x8, :lo12:.LCPI70_0]
	mov	x27, #-1
	mov	w0, #2760
	str	q0, [x21]
	ldr	x8, [x1]
	orr	x8, x8, #0x1
	str	x8, [x1]
	mov	w1, #8
	str	x27, [x21, #16]
	bl	tlsf_memory_alloc
	tbz	w0, #0, .LBB70_21
	adrp	x8, .LCPI70_1
	adrp	x11, .LCPI70_3
	mov	w9, #1
	ldr	q0, [x8, :lo12:.LCPI70_1]
	adrp	x8, .LCPI70_2
	mov	w10, w20
	mov	x19, x1
	stp	w23, wzr, [x1, #24]
	stur	q0, [x1, #8]
	ldr	q0, [x8, :lo12:.LCPI70_2]
	mov	w8, #4
	strb	w9, [x1]
	str	q0, [x1, #32]
	ldr	d0, [x11, :lo12:.LCPI70_3]
	stp	x21, x8, [x1, #48]
	stp	x10, x22, [x1, #64]
	str	d0, [x1, #104]
	movi	v0.2d, #0000000000000000
	stp	x9, x26, [x1, #80]
	str	x8, [x1, #96]
.LBB70_16:
	add	x0, x19, #212
	mov	w1, #255
	mov	w2, #2544
	stp	q0, q0, [x19, #112]
	stp	q0, q0, [x19, #144]
	str	q0, [x19, #176]
	stp	x27, x27, [x19, #192]
	str	wzr, [x19, #208]
	bl	tlsf_memory_set
	add	x0, x19, #48
	mov	w1, w20
	str	wzr, [x19, #2756]
	bl	"tlsf_words::words::Words::lengthen"
	mov	w8, #-1
	movi	v0.2d, #0000000000000000
	str	xzr, [x19, #184]
	str	w8, [x19, #208]
	ldp	x9, x8, [x19, #48]
	cmp	w25, #4
	lsl	x10, x8, #2
	stur	q0, [x19, #104]
	stur	q0, [x19, #120]
	orr	x10, x10, #0xffffffff00000003
	stur	q0, [x19, #136]
	stur	q0, [x19, #152]
	stur	q0, [x19, #168]
	stp	x10, xzr, [x9]
	ldr	x9, [x19, #72]
	ldr	x10, [x9]
	orr	x10, x10, #0x1
	str	x10, [x9]
	add	x9, x19, #192
	b.ne	.LBB70_23
	orr	w10, w8, #0x10
	mov	w11, #27
	clz	w10, w10
	sub	w10, w11, w10
	lsr	w8, w8, w10
	add	w11, w8, w10, lsl #4
	ldur	x10, [x19, #48]
	ldr	w12, [x9, w11, uxtw #2]
	str	wzr, [x9, w11, uxtw #2]
	tbz	w12, #31, .LBB70_24
	lsr	x9, x11, #4
	mov	x11, #-1
	and	w8, w8, #0xf
	str	x11, [x10, #16]
	mov	w11, #1
	ldr	w12, [x19, #104]
	add	x10, x19, x9, lsl #2
	b	.LBB70_26
.LBB70_19:
	mov	w0, #6
	b	.LBB70_28
.LBB70_20:
	mov	x0, x21
	b	.LBB70_22
.LBB70_21:
	mov	x0, x21
	bl	tlsf_memory_dealloc
	mov	x0, x22
.LBB70_22:
	bl	tlsf_memory_dealloc
	mov	w0, #6
	b	.LBB70_28
.LBB70_23:
	orr	w10, w8, #0x20
	mov	w11, #26
	clz	w10, w10
	sub	w10, w11, w10
	lsr	w8, w8, w10
	add	w11, w8, w10, lsl #5
	ldur	x10, [x19, #48]
	ldr	w12, [x9, w11, uxtw #2]
	str	wzr, [x9, w11, uxtw #2]
	tbnz	w12, #31, .LBB70_25
.LBB70_24:
	orr	x8, x12, #0xffffffff00000000
	add	x9, x10, x12, lsl #3
	str	x8, [x10, #16]
	ldr	w8, [x9, #16]
	str	x8, [x9, #16]
	b	.LBB70_27
.LBB70_25:
	lsr	x9, x11, #5
	mov	x11, #-1
	str	x11, [x10, #16]
	mov	w11, #1
	add	x10, x19, x9, lsl #2
	ldr	w12, [x19, #104]
.LBB70_26:
	lsl	w9, w11, w9
	ldr	w13, [x10, #108]
	lsl	w8, w11, w8
	orr	w9, w12, w9
	str	w9, [x19, #104]
	orr	w8, w13, w8
	str	w8, [x10, #108]
.LBB70_27:
	ldr	x8, [x19, #48]
	mov	w0, wzr
	str	w23, [x24, #24]
	strb	wzr, [x24, #28]
	str	x8, [x24, #16]
	mov	w8, #1
	str	x19, [x24]
	strb	w8, [x24, #8]
.LBB70_28:
	.cfi_def_cfa wsp, 96
	ldp	x20, x19, [sp, #80]
	ldr	x27, [sp, #16]
	ldp	x22, x21, [sp, #64]
	ldp	x24, x23, [sp, #48]
	ldp	x26, x25, [sp, #32]
	ldp	x29, x30, [sp], #96
	.cfi_def_cfa_offset 0
	.cfi_restore w19
	.cfi_restore w20
	.cfi_restore w21
	.cfi_restore w22
	.cfi_restore w23
	.cfi_restore w24
	.cfi_restore w25
	.cfi_restore w26
	.cfi_restore w27
	.cfi_restore w30
	.cfi_restore w29
	ret
.Lfunc_end70:
	.size	tlsf_open, .Lfunc_end70-tlsf_open
	.cfi_endproc
	.section	.text.tlsf_place,"ax",@progbits
	.globl	tlsf_place
	.p2align	2
	.type	tlsf_place,@function
tlsf_place:
	.cfi_startproc
	ldrb	w8, [x0, #8]
	cbz	w8, .LBB71_7
	ldr	x8, [x0]
	ldrb	w9, [x8]
	tbz	w9, #0, .LBB71_7
	ldr	w10, [x8, #56]
	ldrb	w11, [x8, #16]
	ldr	w9, [x8, #24]
	strb	wzr, [x8]
	cmp	w1, w10
	b.hs	.LBB71_6
	lsr	w10, w1, #3
	ldr	x11, [x8, #72]
	and	x10, x10, #0x1ffffff8
	ldr	x10, [x11, x10]
	lsr	x10, x10, x1
	tbz	w10, #0, .LBB71_6
	ldr	x10, [x8, #48]
	add	x10, x10, w1, uxtw #3
	ldr	x11, [x10]
	tbnz	w11, #0, .LBB71_6
	ldp	x10, x12, [x10, #8]
	mov	w0, wzr
	mov	w11, #1
	strb	w11, [x8]
	stp	w9, w1, [x2]
	str	x10, [x2, #8]
	str	w12, [x3]
	ret
.LBB71_6:
	mov	w9, #1
	mov	w0, #4
	strb	w9, [x8]
	ret
.LBB71_7:
	mov	w0, wzr
	b	"tlsf_c::call_fault::CallFault::refusal"
.Lfunc_end71:
	.size	tlsf_place, .Lfunc_end71-tlsf_place
	.cfi_endproc
	.section	.text.tlsf_pools_allocate,"ax",@progbits
	.globl	tlsf_pools_allocate
	.p2align	2
	.type	tlsf_pools_allocate,@function
tlsf_pools_allocate:
	.cfi_startproc
	stp	x29, x30, [sp, #-80]!
	.cfi_def_cfa_offset 80
	str	x25, [sp, #16]
	stp	x24, x23, [sp, #32]
	stp	x22, x21, [sp, #48]
	stp	x20, x19, [sp, #64]
	mov	x29, sp
	.cfi_def_cfa w29, 80
	.cfi_offset w19, -8
	.cfi_offset w20, -16
	.cfi_offset w21, -24
	.cfi_offset w22, -32
	.cfi_offset w23, -40
	.cfi_offset w24, -48
	.cfi_offset w25, -64
	.cfi_offset w30, -72
	.cfi_offset w29, -80
	.cfi_remember_state
	ldrb	w8, [x0, #8]
	cbz	w8, .LBB72_30
	ldr	x19, [x0]
	ldrb	w8, [x19, #1]
	tbz	w8, #0, .LBB72_30
	ldrb	w8, [x19]
	cmp	w8, #1
	b.ne	.LBB72_36
	mov	w8, #-1
	ldp	x9, x10, [x19, #24]
	ldrb	w11, [x19, #8]
	cmp	x1, x8
	strb	wzr, [x19, #1]
	csel	x8, x1, x8, lo
	cbz	w11, .LBB72_11
	cbz	x10, .LBB72_24
	mov	x12, xzr
	b	.LBB72_7
.LBB72_6:
	add	x12, x12, #1
	cmp	x12, x10
	b.eq	.LBB72_24
.LBB72_7:
	mov	w11, #2792
	madd	x21, x12, x11, x9
	ldr	x11, [x21, #2744]
	cbz	x11, .LBB72_6
	ldr	x13, [x21, #2736]
	mov	x15, x11
	add	x14, x13, #4
.LBB72_9:
	ldr	w16, [x14], #8
	cmp	w16, w8
	b.hs	.LBB72_18
	subs	x15, x15, #1
	b.ne	.LBB72_9
	b	.LBB72_6
.LBB72_11:
	cbz	x10, .LBB72_24
	mov	x12, xzr
	b	.LBB72_14
.LBB72_13:
	add	x12, x12, #1
	cmp	x12, x10
	b.eq	.LBB72_24
.LBB72_14:
	mov	w11, #2792
	madd	x21, x12, x11, x9
	ldr	x11, [x21, #2744]
	cbz	x11, .LBB72_13
	ldr	x13, [x21, #2736]
	mov	x15, x11
	add	x14, x13, #4
.LBB72_16:
	ldr	w16, [x14], #8
	cmp	w16, w8
	b.hs	.LBB72_21
	subs	x15, x15, #1
	b.ne	.LBB72_16
	b	.LBB72_13
.LBB72_18:
	add	x9, x13, #4
	mov	x22, xzr
	mov	x10, x9
.LBB72_19:
	ldr	w12, [x10], #8
	cmp	w12, w8
	b.hs	.LBB72_26
	add	x22, x22, #1
	mov	x9, x10
	cmp	x11, x22
	b.ne	.LBB72_19
	b	.LBB72_24
.LBB72_21:
	add	x9, x13, #4
	mov	x22, xzr
	mov	x10, x9
.LBB72_22:
	ldr	w12, [x10], #8
	cmp	w12, w8
	b.hs	.LBB72_31
	add	x22, x22, #1
	mov	x9, x10
	cmp	x11, x22
	b.ne	.LBB72_22
.LBB72_24:
	mov	w8, #1
	mov	w0, #5
.LBB72_25:
	strb	w8, [x19, #1]
	.cfi_def_cfa wsp, 80
	ldp	x20, x19, [sp, #64]
	ldr	x25, [sp, #16]
	ldp	x22, x21, [sp, #48]
	ldp	x24, x23, [sp, #32]
	ldp	x29, x30, [sp], #80
	.cfi_def_cfa_offset 0
	.cfi_restore w19
	.cfi_restore w20
	.cfi_restore w21
	.cfi_restore w22
	.cfi_restore w23
	.cfi_restore w24
	.cfi_restore w25
	.cfi_restore w30
	.cfi_restore w29
	ret
.LBB72_26:
	.cfi_restore_state
	.cfi_remember_state
	ldr	x10, [x21, #2768]
	ldur	w9, [x9, #-4]
	ldr	w10, [x10, x22, lsl #2]
	cmp	w10, w9
	b.hs	.LBB72_35
	ldr	w9, [x21, #2760]
	mov	w10, #16777216
	cmp	w9, w10
	b.hi	.LBB72_46
	orr	w10, w9, #0x20
	mov	w11, #26
	clz	w10, w10
	sub	w10, w11, w10
	sub	w11, w9, #1
	lsr	w13, w11, w10
	add	w10, w13, w10, lsl #5
	add	w10, w10, #1
	sub	x11, x10, #1
	add	x10, x21, #84
	lsr	x12, x11, #5
	ldr	w14, [x10, x12, lsl #2]
	lsr	w13, w14, w13
	ands	w13, w13, #0xfffffffe
	b.eq	.LBB72_37
	rbit	w12, w13
	clz	w12, w12
	add	x13, x11, x12
	ldr	x20, [x21, #8]
	cmn	x20, #1
	b.ne	.LBB72_39
	b	.LBB72_46
.LBB72_30:
	mov	w0, wzr
	.cfi_def_cfa wsp, 80
	ldp	x20, x19, [sp, #64]
	ldr	x25, [sp, #16]
	ldp	x22, x21, [sp, #48]
	ldp	x24, x23, [sp, #32]
	ldp	x29, x30, [sp], #80
	.cfi_def_cfa_offset 0
	.cfi_restore w19
	.cfi_restore w20
	.cfi_restore w21
	.cfi_restore w22
	.cfi_restore w23
	.cfi_restore w24
	.cfi_restore w25
	.cfi_restore w30
	.cfi_restore w29
	b	"tlsf_c::call_fault::CallFault::refusal"
.LBB72_31:
	.cfi_restore_state
	.cfi_remember_state
	ldr	x10, [x21, #2768]
	ldur	w9, [x9, #-4]
	ldr	w10, [x10, x22, lsl #2]
	cmp	w10, w9
	b.hs	.LBB72_35
	ldr	w9, [x21, #2760]
	cmp	w9, #256, lsl #12
	b.hi	.LBB72_46
	orr	w10, w9, #0x10
	mov	w11, #27
	clz	w10, w10
	sub	w10, w11, w10
	sub	w11, w9, #1
	lsr	w13, w11, w10
	add	w10, w13, w10, lsl #4
	and	w13, w13, #0xf
	add	w10, w10, #1
	sub	x11, x10, #1
	add	x10, x21, #84
	lsr	x12, x11, #4
	ldr	w14, [x10, x12, lsl #2]
	lsr	w13, w14, w13
	ands	w13, w13, #0xfffffffe
	b.eq	.LBB72_41
	rbit	w12, w13
	clz	w12, w12
	add	x13, x11, x12
	b	.LBB72_43
.LBB72_35:
	mov	w8, #1
	mov	w0, #38
	b	.LBB72_25
.LBB72_36:
	mov	w0, #2
	.cfi_def_cfa wsp, 80
	ldp	x20, x19, [sp, #64]
	ldr	x25, [sp, #16]
	ldp	x22, x21, [sp, #48]
	ldp	x24, x23, [sp, #32]
	ldp	x29, x30, [sp], #80
	.cfi_def_cfa_offset 0
	.cfi_restore w19
	.cfi_restore w20
	.cfi_restore w21
	.cfi_restore w22
	.cfi_restore w23
	.cfi_restore w24
	.cfi_restore w25
	.cfi_restore w30
	.cfi_restore w29
	b	"tlsf_c::call_fault::CallFault::refusal"
.LBB72_37:
	.cfi_restore_state
	ldr	w11, [x21, #80]
	add	w12, w12, #1
	lsr	w11, w11, w12
	lsl	w11, w11, w12
	cbz	w11, .LBB72_46
	rbit	w11, w11
	clz	w11, w11
	ldr	w12, [x10, w11, uxtw #2]
	rbit	w12, w12
	clz	w12, w12
	add	w13, w12, w11, lsl #5
	ldr	x20, [x21, #8]
	cmn	x20, #1
	b.eq	.LBB72_46
.LBB72_39:
	add	x11, x21, #168
	ldr	x12, [x21, #24]
	ldr	w23, [x11, x13, lsl #2]
	ubfiz	x14, x23, #3, #32
	add	x15, x12, x14
	ldr	x15, [x15, #16]
	cmn	w15, #1
	b.eq	.LBB72_47
	ubfiz	x16, x15, #3, #32
	add	x12, x12, x16
	ldr	x16, [x12, #16]
	orr	x16, x16, #0xffffffff00000000
	str	x16, [x12, #16]
	str	w15, [x11, x13, lsl #2]
	ldr	x12, [x21, #24]
	b	.LBB72_49
.LBB72_41:
	ldr	w11, [x21, #80]
	add	w12, w12, #1
	lsr	w11, w11, w12
	lsl	w11, w11, w12
	cbz	w11, .LBB72_46
	rbit	w11, w11
	clz	w11, w11
	ldr	w12, [x10, w11, uxtw #2]
	rbit	w12, w12
	clz	w12, w12
	add	w13, w12, w11, lsl #4
.LBB72_43:
	ldr	x20, [x21, #8]
	cmn	x20, #1
	b.eq	.LBB72_46
	add	x11, x21, #168
	ldr	x12, [x21, #24]
	ldr	w23, [x11, x13, lsl #2]
	ubfiz	x14, x23, #3, #32
	add	x15, x12, x14
	ldr	x15, [x15, #16]
	cmn	w15, #1
	b.eq	.LBB72_55
	ubfiz	x16, x15, #3, #32
	add	x12, x12, x16
	ldr	x16, [x12, #16]
	orr	x16, x16, #0xffffffff00000000
	str	x16, [x12, #16]
	str	w15, [x11, x13, lsl #2]
	ldr	x12, [x21, #24]
	b	.LBB72_57
.LBB72_46:
	mov	w8, #1
	mov	w0, #2
	b	.LBB72_25
.LBB72_47:
	lsr	x15, x13, #3
	mov	w16, #-1
	str	w16, [x11, x13, lsl #2]
	and	x16, x15, #0x1ffffffffffffffc
	mov	w15, #1
	ldr	w17, [x10, x16]
	lsl	w18, w15, w13
	bics	w17, w17, w18
	str	w17, [x10, x16]
	b.ne	.LBB72_49
	lsr	x13, x13, #5
	ldr	w16, [x21, #80]
	lsl	w13, w15, w13
	bic	w13, w16, w13
	str	w13, [x21, #80]
.LBB72_49:
	add	x16, x12, x14
	ldr	x14, [x16]
	sub	w15, w14, w9, lsl #2
	cmp	w15, #15
	b.hi	.LBB72_51
	sub	x9, x14, #1
	str	x8, [x16, #16]
	stp	x9, x20, [x16]
	lsr	w9, w9, #2
	b	.LBB72_64
.LBB72_51:
	add	w13, w23, w9
	sub	x14, x14, x15
	str	x14, [x12, x23, lsl #3]
	ubfiz	x14, x13, #3, #32
	orr	x17, x15, x23, lsl #32
	stp	x20, x8, [x16, #8]
	add	x12, x12, x14
	stp	x17, x20, [x12]
	lsr	w12, w13, #3
	ldr	x16, [x21, #48]
	and	x17, x12, #0x1ffffff8
	mov	w12, #1
	ldr	x18, [x16, x17]
	lsl	x0, x12, x13
	lsr	w12, w15, #2
	orr	x18, x18, x0
	str	x18, [x16, x17]
	tbnz	w15, #1, .LBB72_53
	ldr	x15, [x21, #24]
	add	w16, w12, w13
	add	x15, x15, w16, uxtw #3
	str	w13, [x15, #4]
.LBB72_53:
	orr	w15, w12, #0x20
	mov	w16, #26
	ldr	x17, [x21, #24]
	clz	w15, w15
	sub	w15, w16, w15
	lsr	w12, w12, w15
	add	w15, w12, w15, lsl #5
	ldr	w16, [x11, w15, uxtw #2]
	str	w13, [x11, w15, uxtw #2]
	tbnz	w16, #31, .LBB72_63
	add	x12, x17, x16, lsl #3
	orr	x10, x16, #0xffffffff00000000
	add	x11, x17, x14
	str	x10, [x11, #16]
	str	w13, [x12, #20]
	b	.LBB72_64
.LBB72_55:
	lsr	x15, x13, #2
	mov	w16, #-1
	str	w16, [x11, x13, lsl #2]
	and	w17, w13, #0xf
	and	x16, x15, #0x3ffffffffffffffc
	mov	w15, #1
	ldr	w18, [x10, x16]
	lsl	w17, w15, w17
	bics	w17, w18, w17
	str	w17, [x10, x16]
	b.ne	.LBB72_57
	lsr	x13, x13, #4
	ldr	w16, [x21, #80]
	lsl	w13, w15, w13
	bic	w13, w16, w13
	str	w13, [x21, #80]
.LBB72_57:
	add	x16, x12, x14
	ldr	x14, [x16]
	sub	w15, w14, w9, lsl #2
	cmp	w15, #15
	b.hi	.LBB72_59
	sub	x9, x14, #1
	str	x8, [x16, #16]
	stp	x9, x20, [x16]
	lsr	w9, w9, #2
	b	.LBB72_70
.LBB72_59:
	add	w13, w23, w9
	sub	x14, x14, x15
	str	x14, [x12, x23, lsl #3]
	ubfiz	x14, x13, #3, #32
	orr	x17, x15, x23, lsl #32
	stp	x20, x8, [x16, #8]
	add	x12, x12, x14
	stp	x17, x20, [x12]
	lsr	w12, w13, #3
	ldr	x16, [x21, #48]
	and	x17, x12, #0x1ffffff8
	mov	w12, #1
	ldr	x18, [x16, x17]
	lsl	x0, x12, x13
	lsr	w12, w15, #2
	orr	x18, x18, x0
	str	x18, [x16, x17]
	tbnz	w15, #1, .LBB72_61
	ldr	x15, [x21, #24]
	add	w16, w12, w13
	add	x15, x15, w16, uxtw #3
	str	w13, [x15, #4]
.LBB72_61:
	orr	w15, w12, #0x10
	mov	w16, #27
	ldr	x17, [x21, #24]
	clz	w15, w15
	sub	w15, w16, w15
	lsr	w12, w12, w15
	add	w15, w12, w15, lsl #4
	ldr	w16, [x11, w15, uxtw #2]
	str	w13, [x11, w15, uxtw #2]
	tbnz	w16, #31, .LBB72_69
	add	x12, x17, x16, lsl #3
	orr	x10, x16, #0xffffffff00000000
	add	x11, x17, x14
	str	x10, [x11, #16]
	str	w13, [x12, #20]
	b	.LBB72_70
.LBB72_63:
	add	x11, x17, x14
	mov	x13, #-1
	lsr	x14, x15, #5
	mov	w15, #1
	str	x13, [x11, #16]
	ldr	w11, [x21, #80]
	lsl	w13, w15, w14
	lsl	w12, w15, w12
	ldr	w15, [x10, x14, lsl #2]
	orr	w11, w11, w13
	str	w11, [x21, #80]
	orr	w11, w15, w12
	str	w11, [x10, x14, lsl #2]
.LBB72_64:
	ldp	w10, w11, [x21, #16]
	add	w9, w10, w9
	cmp	w11, w9
	str	w9, [x21, #16]
	b.hs	.LBB72_66
	str	w9, [x21, #20]
.LBB72_66:
	cmp	x1, #0
	ldr	x9, [x21, #8]
	mov	w10, #-3
	cinc	x8, x8, eq
	ldr	w24, [x21]
	add	x8, x8, #31
	add	x9, x9, #1
	add	x8, x10, x8, lsr #3
	str	x9, [x21, #8]
	cbz	w8, .LBB72_68
	ldr	x9, [x21, #24]
	add	w10, w23, #3
	ubfiz	x8, x8, #3, #32
	mov	w1, wzr
	mov	x25, x2
	add	x0, x9, w10, uxtw #3
	mov	x2, x8
	bl	tlsf_memory_set
	mov	x2, x25
.LBB72_68:
	ldr	x8, [x21, #2768]
	b	.LBB72_75
.LBB72_69:
	add	x11, x17, x14
	mov	x13, #-1
	lsr	x14, x15, #4
	mov	w15, #1
	str	x13, [x11, #16]
	and	w12, w12, #0xf
	ldr	w11, [x21, #80]
	lsl	w13, w15, w14
	lsl	w12, w15, w12
	ldr	w15, [x10, x14, lsl #2]
	orr	w11, w11, w13
	str	w11, [x21, #80]
	orr	w11, w15, w12
	str	w11, [x10, x14, lsl #2]
.LBB72_70:
	ldp	w10, w11, [x21, #16]
	add	w9, w10, w9
	cmp	w11, w9
	str	w9, [x21, #16]
	b.hs	.LBB72_72
	str	w9, [x21, #20]
.LBB72_72:
	cmp	x1, #0
	ldr	x9, [x21, #8]
	mov	w10, #-3
	cinc	x8, x8, eq
	ldr	w24, [x21]
	add	x8, x8, #31
	add	x9, x9, #1
	add	x8, x10, x8, lsr #3
	str	x9, [x21, #8]
	cbz	w8, .LBB72_74
	ldr	x9, [x21, #24]
	add	w10, w23, #3
	ubfiz	x8, x8, #3, #32
	mov	w1, wzr
	mov	x25, x2
	add	x0, x9, w10, uxtw #3
	mov	x2, x8
	bl	tlsf_memory_set
	mov	x2, x25
.LBB72_74:
	ldr	x8, [x21, #2768]
.LBB72_75:
	ldr	w9, [x8, x22, lsl #2]
	add	w9, w9, #1
	str	w9, [x8, x22, lsl #2]
	mov	w8, #1
	mov	w0, wzr
	strb	w8, [x19, #1]
	stp	w24, w23, [x2]
	str	x20, [x2, #8]
	.cfi_def_cfa wsp, 80
	ldp	x20, x19, [sp, #64]
	ldr	x25, [sp, #16]
	ldp	x22, x21, [sp, #48]
	ldp	x24, x23, [sp, #32]
	ldp	x29, x30, [sp], #80
	.cfi_def_cfa_offset 0
	.cfi_restore w19
	.cfi_restore w20
	.cfi_restore w21
	.cfi_restore w22
	.cfi_restore w23
	.cfi_restore w24
	.cfi_restore w25
	.cfi_restore w30
	.cfi_restore w29
	ret
.Lfunc_end72:
	.size	tlsf_pools_allocate, .Lfunc_end72-tlsf_pools_allocate
	.cfi_endproc
	.section	.text.tlsf_pools_check,"ax",@progbits
	.globl	tlsf_pools_check
	.p2align	2
	.type	tlsf_pools_check,@function
tlsf_pools_check:
	.cfi_startproc
	stp	x29, x30, [sp, #-80]!
	.cfi_def_cfa_offset 80
	str	x25, [sp, #16]
	stp	x24, x23, [sp, #32]
	stp	x22, x21, [sp, #48]
	stp	x20, x19, [sp, #64]
	mov	x29, sp
	.cfi_def_cfa w29, 80
	.cfi_offset w19, -8
	.cfi_offset w20, -16
	.cfi_offset w21, -24
	.cfi_offset w22, -32
	.cfi_offset w23, -40
	.cfi_offset w24, -48
	.cfi_offset w25, -64
	.cfi_offset w30, -72
	.cfi_offset w29, -80
	.cfi_remember_state
	ldrb	w8, [x0, #8]
	cbz	w8, .LBB73_19
	ldr	x21, [x0]
	ldrb	w8, [x21, #1]
	tbz	w8, #0, .LBB73_19
	ldrb	w8, [x21]
	cmp	w8, #1
	b.ne	.LBB73_20
	ldr	x9, [x21, #32]
	ldrb	w10, [x21, #8]
	mov	w8, w1
	mov	w19, w3
	mov	w20, w2
	strb	wzr, [x21, #1]
	cmp	x9, x8
	cbz	w10, .LBB73_11
	b.ls	.LBB73_18
	mov	w9, #2792
	ldr	x10, [x21, #24]
	umaddl	x24, w8, w9, x10
	ldr	w25, [x24, #32]
	sub	w8, w25, #4
	cmp	w20, w8
	b.hi	.LBB73_18
	lsr	w8, w20, #3
	ldr	x9, [x24, #48]
	and	x8, x8, #0x1ffffff8
	ldr	x8, [x9, x8]
	lsr	x8, x8, x20
	tbz	w8, #0, .LBB73_18
	mov	x23, x5
	mov	x22, x4
	mov	w1, w20
	cbz	w19, .LBB73_23
.LBB73_8:
	add	x0, x24, #24
	mov	w1, w20
	bl	"tlsf_heap::check::examine"
	and	w8, w0, #0xff
	cmp	w8, #1
	b.ne	.LBB73_21
	cmp	w1, w25
	b.eq	.LBB73_22
	subs	w19, w19, #1
	mov	w20, w1
	b.ne	.LBB73_8
	b	.LBB73_23
.LBB73_11:
	b.ls	.LBB73_18
	mov	w9, #2792
	ldr	x10, [x21, #24]
	umaddl	x24, w8, w9, x10
	ldr	w25, [x24, #32]
	sub	w8, w25, #4
	cmp	w20, w8
	b.hi	.LBB73_18
	lsr	w8, w20, #3
	ldr	x9, [x24, #48]
	and	x8, x8, #0x1ffffff8
	ldr	x8, [x9, x8]
	lsr	x8, x8, x20
	tbz	w8, #0, .LBB73_18
	mov	x23, x5
	mov	x22, x4
	mov	w1, w20
	cbz	w19, .LBB73_23
.LBB73_15:
	add	x0, x24, #24
	mov	w1, w20
	bl	"tlsf_heap::check::examine"
	and	w8, w0, #0xff
	cmp	w8, #1
	b.ne	.LBB73_21
	cmp	w1, w25
	b.eq	.LBB73_22
	subs	w19, w19, #1
	mov	w20, w1
	b.ne	.LBB73_15
	b	.LBB73_23
.LBB73_18:
	mov	w8, #1
	mov	w0, #4
	strb	w8, [x21, #1]
	.cfi_def_cfa wsp, 80
	ldp	x20, x19, [sp, #64]
	ldr	x25, [sp, #16]
	ldp	x22, x21, [sp, #48]
	ldp	x24, x23, [sp, #32]
	ldp	x29, x30, [sp], #80
	.cfi_def_cfa_offset 0
	.cfi_restore w19
	.cfi_restore w20
	.cfi_restore w21
	.cfi_restore w22
	.cfi_restore w23
	.cfi_restore w24
	.cfi_restore w25
	.cfi_restore w30
	.cfi_restore w29
	ret
.LBB73_19:
	.cfi_restore_state
	.cfi_remember_state
	mov	w0, wzr
	.cfi_def_cfa wsp, 80
	ldp	x20, x19, [sp, #64]
	ldr	x25, [sp, #16]
	ldp	x22, x21, [sp, #48]
	ldp	x24, x23, [sp, #32]
	ldp	x29, x30, [sp], #80
	.cfi_def_cfa_offset 0
	.cfi_restore w19
	.cfi_restore w20
	.cfi_restore w21
	.cfi_restore w22
	.cfi_restore w23
	.cfi_restore w24
	.cfi_restore w25
	.cfi_restore w30
	.cfi_restore w29
	b	"tlsf_c::call_fault::CallFault::refusal"
.LBB73_20:
	.cfi_restore_state
	.cfi_remember_state
	mov	w0, #2
	.cfi_def_cfa wsp, 80
	ldp	x20, x19, [sp, #64]
	ldr	x25, [sp, #16]
	ldp	x22, x21, [sp, #48]
	ldp	x24, x23, [sp, #32]
	ldp	x29, x30, [sp], #80
	.cfi_def_cfa_offset 0
	.cfi_restore w19
	.cfi_restore w20
	.cfi_restore w21
	.cfi_restore w22
	.cfi_restore w23
	.cfi_restore w24
	.cfi_restore w25
	.cfi_restore w30
	.cfi_restore w29
	b	"tlsf_c::call_fault::CallFault::refusal"
.LBB73_21:
	.cfi_restore_state
	.cfi_remember_state
	mov	w8, #1
	mov	w0, #36
	strb	w8, [x21, #1]
	str	w20, [x23]
	.cfi_def_cfa wsp, 80
	ldp	x20, x19, [sp, #64]
	ldr	x25, [sp, #16]
	ldp	x22, x21, [sp, #48]
	ldp	x24, x23, [sp, #32]
	ldp	x29, x30, [sp], #80
	.cfi_def_cfa_offset 0
	.cfi_restore w19
	.cfi_restore w20
	.cfi_restore w21
	.cfi_restore w22
	.cfi_restore w23
	.cfi_restore w24
	.cfi_restore w25
	.cfi_restore w30
	.cfi_restore w29
	ret
.LBB73_22:
	.cfi_restore_state
	mov	w1, wzr
.LBB73_23:
	mov	w8, #1
	mov	w0, wzr
	strb	w8, [x21, #1]
	str	w1, [x22]
	.cfi_def_cfa wsp, 80
	ldp	x20, x19, [sp, #64]
	ldr	x25, [sp, #16]
	ldp	x22, x21, [sp, #48]
	ldp	x24, x23, [sp, #32]
	ldp	x29, x30, [sp], #80
	.cfi_def_cfa_offset 0
	.cfi_restore w19
	.cfi_restore w20
	.cfi_restore w21
	.cfi_restore w22
	.cfi_restore w23
	.cfi_restore w24
	.cfi_restore w25
	.cfi_restore w30
	.cfi_restore w29
	ret
.Lfunc_end73:
	.size	tlsf_pools_check, .Lfunc_end73-tlsf_pools_check
	.cfi_endproc
	.section	.text.tlsf_pools_close,"ax",@progbits
	.globl	tlsf_pools_close
	.p2align	2
	.type	tlsf_pools_close,@function
tlsf_pools_close:
	.cfi_startproc
	ldrb	w8, [x0, #8]
	cbz	w8, .LBB74_4
	ldr	x8, [x0]
	ldrb	w9, [x8, #1]
	cmp	w9, #1
	b.ne	.LBB74_4
	ldrb	w8, [x8]
	cmp	w8, #1
	b.ne	.LBB74_5
	stp	x29, x30, [sp, #-16]!
	.cfi_def_cfa_offset 16
	mov	x29, sp
	.cfi_def_cfa w29, 16
	.cfi_offset w30, -8
	.cfi_offset w29, -16
	bl	"tlsf_c::arena_slot::ArenaSlot::close"
	mov	w0, wzr
	.cfi_def_cfa wsp, 16
	ldp	x29, x30, [sp], #16
	.cfi_def_cfa_offset 0
	.cfi_restore w30
	.cfi_restore w29
	ret
.LBB74_4:
	mov	w0, #32
	ret
.LBB74_5:
	mov	w0, #40
	ret
.Lfunc_end74:
	.size	tlsf_pools_close, .Lfunc_end74-tlsf_pools_close
	.cfi_endproc
	.section	.text.tlsf_pools_counts,"ax",@progbits
	.globl	tlsf_pools_counts
	.p2align	2
	.type	tlsf_pools_counts,@function
tlsf_pools_counts:
	.cfi_startproc
	ldrb	w8, [x0, #8]
	cbz	w8, .LBB75_17
	ldr	x8, [x0]
	ldrb	w9, [x8, #1]
	tbz	w9, #0, .LBB75_17
	ldrb	w9, [x8]
	cmp	w9, #1
	b.ne	.LBB75_18
	ldp	x11, x10, [x8, #24]
	mov	w9, w1
	ldrb	w12, [x8, #8]
	strb	wzr, [x8, #1]
	cbz	w12, .LBB75_8
	cbz	x10, .LBB75_12
	add	x11, x11, #2776
.LBB75_6:
	ldur	x12, [x11, #-32]
	subs	x12, x9, x12
	b.lo	.LBB75_13
	subs	x10, x10, #1
	add	x11, x11, #2792
	mov	x9, x12
	b.ne	.LBB75_6
	b	.LBB75_12
.LBB75_8:
	cbz	x10, .LBB75_12
	add	x11, x11, #2776
.LBB75_10:
	ldur	x12, [x11, #-32]
	subs	x12, x9, x12
	b.lo	.LBB75_13
	subs	x10, x10, #1
	add	x11, x11, #2792
	mov	x9, x12
	b.ne	.LBB75_10
.LBB75_12:
	mov	w9, #1
	mov	w0, #4
	strb	w9, [x8, #1]
	ret
.LBB75_13:
	ldr	x10, [x11]
	cmp	x9, x10
	b.hs	.LBB75_15
	ldur	x10, [x11, #-8]
	ldr	w10, [x10, x9, lsl #2]
	b	.LBB75_16
.LBB75_15:
	mov	x10, xzr
.LBB75_16:
	ldur	x11, [x11, #-40]
	lsl	x9, x9, #3
	mov	w0, wzr
	ldr	w9, [x11, x9]
	orr	x9, x10, x9, lsl #32
	mov	w10, #1
	strb	w10, [x8, #1]
	lsr	x11, x9, #32
	str	w9, [x2]
	str	w11, [x3]
	ret
.LBB75_17:
	mov	w0, wzr
	b	"tlsf_c::call_fault::CallFault::refusal"
.LBB75_18:
	mov	w0, #2
	b	"tlsf_c::call_fault::CallFault::refusal"
.Lfunc_end75:
	.size	tlsf_pools_counts, .Lfunc_end75-tlsf_pools_counts
	.cfi_endproc
	.section	.rodata.cst16,"aM",@progbits,16
	.p2align	4, 0x0
.LCPI76_0:
	.xword	-4294967277
	.xword	0
.LCPI76_1:
	.xword	1
	.xword	0
	.section	.rodata.cst8,"aM",@progbits,8
	.p2align	3, 0x0
.LCPI76_2:
	.word	1
	.word	16
	.section	.text.tlsf_pools_open,"ax",@progbits
	.globl	tlsf_pools_open
	.p2align	2
	.type	tlsf_pools_open,@function
tlsf_pools_open:
	.cfi_startproc
	stp	x29, x30, [sp, #-96]!
	.cfi_def_cfa_offset 96
	stp	x28, x27, [sp, #16]
	stp	x26, x25, [sp, #32]
	stp	x24, x23, [sp, #48]
	stp	x22, x21, [sp, #64]
	stp	x20, x19, [sp, #80]
	mov	x29, sp
	.cfi_def_cfa w29, 96
	.cfi_offset w19, -8
	.cfi_offset w20, -16
	.cfi_offset w21, -24
	.cfi_offset w22, -32
	.cfi_offset w23, -40
	.cfi_offset w24, -48
	.cfi_offset w25, -56
	.cfi_offset w26, -64
	.cfi_offset w27, -72
	.cfi_offset w28, -80
	.cfi_offset w30, -88
	.cfi_offset w29, -96
	.cfi_remember_state
	sub	sp, sp, #1024
	ldrb	w8, [x0, #8]
	cmp	x3, #0
	mov	w9, #4096
	csel	x9, x9, xzr, eq
	stp	xzr, xzr, [sp, #80]
	str	wzr, [sp, #96]
	tbz	w8, #0, .LBB76_2
	mov	w8, #33
	b	.LBB76_161
.LBB76_2:
	sub	w8, w1, #6
	cmn	w8, #2
	b.hs	.LBB76_4
	mov	w8, #34
	b	.LBB76_161
.LBB76_4:
	cmn	w2, #8
	mov	w8, #5
	b.hi	.LBB76_161
	cmp	x4, #64
	b.hi	.LBB76_161
	movi	v0.2d, #0000000000000000
	str	xzr, [sp, #632]
	str	xzr, [sp, #624]
	str	wzr, [sp, #640]
	stp	q0, q0, [sp, #112]
	stp	q0, q0, [sp, #144]
	stp	q0, q0, [sp, #176]
	stp	q0, q0, [sp, #208]
	stp	q0, q0, [sp, #240]
	stp	q0, q0, [sp, #272]
	stp	q0, q0, [sp, #304]
	stp	q0, q0, [sp, #336]
	stp	q0, q0, [sp, #368]
	stp	q0, q0, [sp, #400]
	stp	q0, q0, [sp, #432]
	stp	q0, q0, [sp, #464]
	stp	q0, q0, [sp, #496]
	stp	q0, q0, [sp, #528]
	stp	q0, q0, [sp, #560]
	stp	q0, q0, [sp, #592]
	cbz	x4, .LBB76_13
	cmp	x4, #5
	b.hs	.LBB76_9
	mov	x8, xzr
	b	.LBB76_11
.LBB76_9:
	ands	x8, x4, #0x3
	mov	w10, #4
	add	x11, sp, #112
	csel	x8, x10, x8, eq
	add	x10, x9, x3
	sub	x8, x4, x8
	add	x10, x10, #8
	mov	x12, x8
.LBB76_10:
	ldur	q0, [x10, #-8]
	add	x13, x10, #8
	subs	x12, x12, #4
	ldp	q3, q2, [x10]
	ld1	{ v0.s }[1], [x13]
	add	x13, x10, #24
	zip1	v2.2d, v3.2d, v2.2d
	ldr	q3, [x10, #32]
	ld1	{ v0.s }[2], [x13]
	add	x13, x10, #40
	ld1	{ v0.s }[3], [x13]
	add	x13, x10, #48
	add	x10, x10, #64
	uqxtn	v1.2s, v2.2d
	ld1	{ v3.d }[1], [x13]
	uqxtn2	v1.4s, v3.2d
	st2	{ v0.4s, v1.4s }, [x11], #32
	b.ne	.LBB76_10
.LBB76_11:
	add	x10, sp, #112
	add	x9, x9, x8, lsl #4
	add	x10, x10, x8, lsl #3
	sub	x8, x4, x8
	add	x11, x9, x3
	orr	x9, x10, #0x4
	add	x10, x11, #8
.LBB76_12:
	ldr	x11, [x10]
	mov	w13, #-1
	ldur	w12, [x10, #-8]
	add	x10, x10, #16
	cmp	x11, x13
	csel	x11, x11, x13, lo
	subs	x8, x8, #1
	stp	w12, w11, [x9, #-4]
	add	x9, x9, #8
	b.ne	.LBB76_12
.LBB76_13:
	movi	v0.2d, #0000000000000000
	cmp	w1, #4
	add	x21, sp, #752
	str	w2, [sp, #76]
	str	x0, [sp, #64]
	str	xzr, [sp, #728]
	str	xzr, [sp, #720]
	str	wzr, [sp, #736]
	str	xzr, [sp, #696]
	str	xzr, [sp, #688]
	str	wzr, [sp, #704]
	str	xzr, [sp, #664]
	str	xzr, [sp, #656]
	str	w1, [sp, #60]
	str	wzr, [sp, #672]
	b.ne	.LBB76_19
	sub	x0, x29, #224
	add	x1, sp, #112
	mov	x2, x4
	stp	q0, q0, [x29, #-224]
	mov	x25, x4
	stp	q0, q0, [x29, #-192]
	stur	q0, [x29, #-160]
	stur	xzr, [x29, #-144]
	stp	xzr, xzr, [x29, #-248]
	stur	xzr, [x21, #38]
	str	xzr, [sp, #760]
	str	xzr, [sp, #752]
	str	wzr, [sp, #768]
	bl	"tlsf_pool::sizes::split::rising_split::<=4>"
	ldurb	w8, [x29, #-224]
	cmp	w8, #1
	mov	w8, wzr
	b.ne	.LBB76_160
	ldur	q0, [x21, #56]
	ldur	q1, [x21, #72]
	ldur	q2, [x21, #88]
	stp	xzr, xzr, [x29, #-48]
	stp	q0, q1, [x29, #-128]
	ldur	q0, [x21, #104]
	ldur	q1, [x21, #120]
	ldur	x20, [x29, #-128]
	stur	xzr, [x29, #-32]
	stp	q2, q0, [x29, #-96]
	stur	q1, [x29, #-64]
	cbz	x20, .LBB76_116
	mov	x8, #25351
	movk	x8, #2253, lsl #16
	movk	x8, #48260, lsl #32
	movk	x8, #11, lsl #48
	cmp	x20, x8
	b.hs	.LBB76_159
	mov	w8, #2792
	mov	w1, #8
	mul	x0, x20, x8
	bl	tlsf_memory_alloc
	tbz	w0, #0, .LBB76_159
	sub	x8, x29, #128
	mov	x26, xzr
	mov	x27, xzr
	orr	x8, x8, #0x8
	add	x23, sp, #112
	str	x1, [sp, #40]
	stp	x1, xzr, [x29, #-48]
	stp	x20, x8, [sp]
	stur	x20, [x29, #-32]
	b	.LBB76_25
.LBB76_19:
	sub	x0, x29, #224
	add	x1, sp, #112
	mov	x2, x4
	stp	q0, q0, [x29, #-224]
	mov	x25, x4
	stp	q0, q0, [x29, #-192]
	stur	q0, [x29, #-160]
	stur	xzr, [x29, #-144]
	stp	xzr, xzr, [x29, #-248]
	stur	xzr, [x21, #38]
	str	xzr, [sp, #760]
	str	xzr, [sp, #752]
	str	wzr, [sp, #768]
	bl	"tlsf_pool::sizes::split::rising_split::<=5>"
	ldurb	w8, [x29, #-224]
	cmp	w8, #1
	mov	w8, wzr
	b.ne	.LBB76_160
	ldur	q0, [x21, #56]
	ldur	q1, [x21, #72]
	ldur	q2, [x21, #88]
	stp	xzr, xzr, [x29, #-48]
	stp	q0, q1, [x29, #-128]
	ldur	q0, [x21, #104]
	ldur	q1, [x21, #120]
	ldur	x20, [x29, #-128]
	stur	xzr, [x29, #-32]
	stp	q2, q0, [x29, #-96]
	stur	q1, [x29, #-64]
	cbz	x20, .LBB76_118
	mov	x8, #25351
	movk	x8, #2253, lsl #16
	movk	x8, #48260, lsl #32
	movk	x8, #11, lsl #48
	cmp	x20, x8
	b.hs	.LBB76_159
	mov	w8, #2792
	mov	w1, #8
	mul	x0, x20, x8
	bl	tlsf_memory_alloc
	tbz	w0, #0, .LBB76_159
	sub	x8, x29, #128
	mov	x21, x1
	mov	x26, xzr
	mov	x27, xzr
	orr	x8, x8, #0x8
	add	x23, sp, #112
	stp	x1, xzr, [x29, #-48]
	stp	x20, x8, [sp, #8]
	stur	x20, [x29, #-32]
	b	.LBB76_71
.LBB76_24:
	ldr	x25, [sp, #48]
	add	x27, x27, #1
	add	x23, x23, x19, lsl #3
	ldr	x26, [sp, #16]
	cmp	x27, x20
	sub	x25, x25, x19
	b.eq	.LBB76_130
.LBB76_25:
	ldur	x8, [x29, #-128]
	mvn	x9, x27
	add	x8, x8, x9
	ldr	x9, [sp, #8]
	ldr	x8, [x9, x8, lsl #3]
	cmp	x25, x8
	csel	x19, x25, x8, lo
	cbz	x19, .LBB76_31
	add	x8, x23, #4
	add	x9, x23, #4
	mov	x10, x19
.LBB76_27:
	ldr	w11, [x9], #8
	mov	w12, #65513
	movk	w12, #127, lsl #16
	cmp	w11, w12
	b.hs	.LBB76_162
	subs	x10, x10, #1
	b.ne	.LBB76_27
	cmp	x19, #1
	b.ne	.LBB76_59
	mov	x9, xzr
	mov	x10, xzr
	b	.LBB76_62
.LBB76_31:
	mov	x9, xzr
	mov	w10, wzr
.LBB76_32:
	mov	w8, w10
	cmp	w10, #0
	mov	w11, #27
	cinc	x8, x8, eq
	add	x8, x8, #31
	lsr	x8, x8, #3
	orr	w10, w8, #0x10
	sub	w8, w8, #1
	clz	w10, w10
	sub	w11, w11, w10
	lsr	w8, w8, w11
	add	w10, w8, #1
	add	w8, w10, w11, lsl #4
	lsr	w11, w8, #4
	cbz	w11, .LBB76_34
	mov	w8, #8
	and	w10, w10, #0xf
	sub	w12, w11, #1
	lsl	w8, w8, w11
	lsl	w10, w10, w12
	add	w8, w10, w8
.LBB76_34:
	mov	w8, w8
	mul	x8, x9, x8
	mov	w9, #4
	cmp	x8, #4
	csel	x24, x8, x9, hi
	mov	w9, #1
	movk	w9, #16, lsl #16
	cmp	x8, x9
	csel	w21, w24, wzr, lo
	b.hs	.LBB76_162
	lsl	x0, x24, #3
	mov	w1, #8
	str	x25, [sp, #48]
	bl	tlsf_memory_alloc
	tbz	w0, #0, .LBB76_144
	movi	v0.2d, #0000000000000000
	add	x8, x24, #63
	mov	x22, x1
	lsr	x28, x8, #6
	str	x23, [sp, #32]
	lsl	x0, x28, #3
	stp	q0, q0, [x1]
	mov	w1, #8
	bl	tlsf_memory_alloc
	tbz	w0, #0, .LBB76_128
	adrp	x8, .LCPI76_0
	str	xzr, [x1]
	ldur	x9, [x29, #-32]
	ldr	q0, [x8, :lo12:.LCPI76_0]
	str	w21, [sp, #24]
	mov	x25, x27
	cmp	x9, x26
	ldr	x9, [sp, #40]
	mov	x21, #-1
	str	q0, [x22]
	mov	x23, x26
	ldr	x8, [x1]
	orr	x8, x8, #0x1
	str	x8, [x1]
	str	x21, [x22, #16]
	b.eq	.LBB76_68
.LBB76_38:
	mov	w8, #2792
	str	x9, [sp, #40]
	mov	w20, #4
	madd	x27, x23, x8, x9
	ldr	w8, [sp, #76]
	adrp	x9, .LCPI76_1
	ldr	q0, [x9, :lo12:.LCPI76_1]
	mov	w2, #2544
	add	w8, w8, w25
	stp	w8, wzr, [x27]
	adrp	x8, .LCPI76_2
	add	x0, x27, #188
	stur	q0, [x27, #8]
	ldr	d0, [x8, :lo12:.LCPI76_2]
	mov	w8, #1
	stp	x24, x1, [x27, #40]
	mov	w1, #255
	str	d0, [x27, #80]
	movi	v0.2d, #0000000000000000
	stp	x22, x20, [x27, #24]
	stp	x8, x28, [x27, #56]
	str	x20, [x27, #72]
	stur	q0, [x27, #88]
	stur	q0, [x27, #104]
	stur	q0, [x27, #120]
	stur	q0, [x27, #136]
	stur	q0, [x27, #152]
	stp	x21, x21, [x27, #168]
	str	wzr, [x27, #184]
	bl	tlsf_memory_set
	movi	v0.2d, #0000000000000000
	add	x8, x27, #2744
	sub	x22, x29, #24
	add	x21, x23, #1
	str	wzr, [x27, #2732]
	str	x22, [x27, #2736]
	str	x20, [x27, #2760]
	str	q0, [x8]
	add	x8, x27, #2776
	str	x22, [x27, #2768]
	str	q0, [x8]
	stur	x21, [x29, #-40]
	str	x21, [sp, #16]
	cbz	x19, .LBB76_49
	lsr	x8, x19, #60
	cbnz	x8, .LBB76_125
	lsl	x22, x19, #3
	mov	w1, #4
	mov	x0, x22
	bl	tlsf_memory_alloc
	tbz	w0, #0, .LBB76_125
	ldr	x20, [sp, #32]
	mov	x23, x1
	mov	x0, x1
	mov	x2, x22
	mov	x1, x20
	bl	tlsf_memory_cpy
	lsl	x24, x19, #2
	mov	w1, #4
	mov	x0, x24
	bl	tlsf_memory_alloc
	tbz	w0, #0, .LBB76_143
	mov	x22, x1
	subs	x21, x19, #1
	b.eq	.LBB76_44
	sub	x2, x24, #4
	mov	x0, x22
	mov	w1, wzr
	bl	tlsf_memory_set
.LBB76_44:
	mov	x27, x25
	mov	w8, wzr
	add	x9, x20, #4
	mov	x10, x19
	str	wzr, [x22, x21, lsl #2]
	b	.LBB76_46
.LBB76_45:
	subs	x10, x10, #1
	add	x9, x9, #8
	b.eq	.LBB76_48
.LBB76_46:
	ldur	w11, [x9, #-4]
	cbz	w11, .LBB76_45
	ldr	w11, [x9]
	cmp	w11, w8
	csel	w8, w11, w8, hi
	b	.LBB76_45
.LBB76_48:
	add	x24, x21, #1
	b	.LBB76_50
.LBB76_49:
	mov	x24, xzr
	mov	w8, wzr
	sub	x23, x29, #24
	mov	x27, x25
.LBB76_50:
	mov	w9, w8
	cmp	w8, #0
	mov	w21, #27
	cinc	x8, x9, eq
	add	x8, x8, #31
	lsr	x8, x8, #3
	orr	w9, w8, #0x10
	sub	w8, w8, #1
	clz	w9, w9
	sub	w9, w21, w9
	lsr	w8, w8, w9
	add	w8, w8, #1
	add	w28, w8, w9, lsl #4
	lsr	w9, w28, #4
	cbz	w9, .LBB76_52
	mov	w10, #8
	and	w8, w8, #0xf
	sub	w11, w9, #1
	lsl	w9, w10, w9
	lsl	w8, w8, w11
	add	w28, w8, w9
.LBB76_52:
	mov	w8, #2792
	ldr	x9, [sp, #40]
	ldr	w1, [sp, #24]
	madd	x26, x26, x8, x9
	ldr	x8, [x26, #8]
	add	x0, x26, #24
	sub	x20, x8, #1
	bl	"tlsf_words::words::Words::lengthen"
	mov	w8, #-1
	movi	v0.2d, #0000000000000000
	str	xzr, [x26, #160]
	str	w8, [x26, #184]
	ldp	x9, x8, [x26, #24]
	lsl	x10, x8, #2
	orr	w11, w8, #0x10
	stp	q0, q0, [x26, #80]
	stp	q0, q0, [x26, #112]
	orr	x10, x10, #0xffffffff00000003
	str	q0, [x26, #144]
	stp	x10, x20, [x9]
	clz	w10, w11
	sub	w10, w21, w10
	ldr	x11, [x26, #48]
	lsr	w8, w8, w10
	add	w9, w8, w10, lsl #4
	ldr	x10, [x11]
	orr	x10, x10, #0x1
	add	x12, x26, w9, uxtw #2
	str	x10, [x11]
	ldr	w11, [x12, #168]
	ldr	x10, [x26, #24]
	str	wzr, [x12, #168]
	tbnz	w11, #31, .LBB76_54
	orr	x8, x11, #0xffffffff00000000
	add	x9, x10, x11, lsl #3
	str	x8, [x10, #16]
	ldr	w8, [x9, #16]
	str	x8, [x9, #16]
	b	.LBB76_55
.LBB76_54:
	lsr	x9, x9, #4
	mov	x11, #-1
	and	w8, w8, #0xf
	str	x11, [x10, #16]
	mov	w11, #1
	add	x10, x26, x9, lsl #2
	ldr	w12, [x26, #80]
	lsl	w9, w11, w9
	lsl	w8, w11, w8
	ldr	w13, [x10, #84]
	orr	w9, w12, w9
	str	w9, [x26, #80]
	orr	w8, w13, w8
	str	w8, [x10, #84]
.LBB76_55:
	ldr	x20, [sp]
	ldr	x0, [x26, #2736]
	ldr	x8, [x26, #2752]
	ldr	x21, [x26, #2768]
	str	x22, [x26, #2768]
	ldr	x22, [x26, #2784]
	str	x23, [x26, #2736]
	str	x19, [x26, #2744]
	str	x19, [x26, #2752]
	str	w28, [x26, #2760]
	str	wzr, [x26, #2764]
	str	x24, [x26, #2776]
	str	x19, [x26, #2784]
	cbz	x8, .LBB76_57
	bl	tlsf_memory_dealloc
.LBB76_57:
	ldr	x23, [sp, #32]
	cbz	x22, .LBB76_24
	mov	x0, x21
	bl	tlsf_memory_dealloc
	b	.LBB76_24
.LBB76_59:
	mov	x9, xzr
	mov	x11, xzr
	and	x10, x19, #0xfffffffffffffffe
	add	x12, x23, #8
	and	x13, x19, #0xfffffffffffffffe
.LBB76_60:
	ldur	w14, [x12, #-8]
	ldr	w15, [x12], #16
	subs	x13, x13, #2
	add	x9, x9, x14
	add	x11, x11, x15
	b.ne	.LBB76_60
	cmp	x19, x10
	add	x9, x11, x9
	b.eq	.LBB76_64
.LBB76_62:
	add	x11, x23, x10, lsl #3
	sub	x10, x19, x10
.LBB76_63:
	ldr	w12, [x11], #8
	subs	x10, x10, #1
	add	x9, x9, x12
	b.ne	.LBB76_63
.LBB76_64:
	mov	w10, wzr
	mov	x11, x19
	b	.LBB76_66
.LBB76_65:
	subs	x11, x11, #1
	add	x8, x8, #8
	b.eq	.LBB76_32
.LBB76_66:
	ldur	w12, [x8, #-4]
	cbz	w12, .LBB76_65
	ldr	w12, [x8]
	cmp	w12, w10
	csel	w10, w12, w10, hi
	b	.LBB76_65
.LBB76_68:
	sub	x0, x29, #48
	str	x1, [sp, #40]
	bl	"std_alloc::vec::Vec::grow_amortized::<#8f83c87fc5454f35>"
	cbz	w0, .LBB76_155
	ldp	x9, x23, [x29, #-48]
	ldr	x1, [sp, #40]
	b	.LBB76_38
.LBB76_70:
	ldr	x25, [sp, #48]
	add	x27, x27, #1
	add	x23, x23, x19, lsl #3
	ldr	x21, [sp, #32]
	cmp	x27, x20
	mov	x26, x24
	sub	x25, x25, x19
	b.eq	.LBB76_129
.LBB76_71:
	ldur	x8, [x29, #-128]
	mvn	x9, x27
	add	x8, x8, x9
	ldr	x9, [sp, #16]
	ldr	x8, [x9, x8, lsl #3]
	cmp	x25, x8
	csel	x19, x25, x8, lo
	cbz	x19, .LBB76_77
	add	x8, x23, #4
	add	x9, x23, #4
	mov	x10, x19
.LBB76_73:
	ldr	w11, [x9], #8
	mov	w12, #65513
	movk	w12, #2047, lsl #16
	cmp	w11, w12
	b.hs	.LBB76_162
	subs	x10, x10, #1
	b.ne	.LBB76_73
	cmp	x19, #1
	b.ne	.LBB76_105
	mov	x9, xzr
	mov	x10, xzr
	b	.LBB76_108
.LBB76_77:
	mov	x9, xzr
	mov	w10, wzr
.LBB76_78:
	mov	w8, w10
	cmp	w10, #0
	mov	w11, #26
	cinc	x8, x8, eq
	add	x8, x8, #31
	lsr	x8, x8, #3
	orr	w10, w8, #0x20
	sub	w8, w8, #1
	clz	w10, w10
	sub	w11, w11, w10
	lsr	w8, w8, w11
	add	w10, w8, #1
	add	w8, w10, w11, lsl #5
	lsr	w11, w8, #5
	cbz	w11, .LBB76_80
	mov	w8, #16
	and	w10, w10, #0x1f
	sub	w12, w11, #1
	lsl	w8, w8, w11
	lsl	w10, w10, w12
	add	w8, w10, w8
.LBB76_80:
	mov	w8, w8
	mov	w10, #1
	mul	x8, x9, x8
	movk	w10, #16, lsl #16
	mov	w9, #4
	add	x10, x10, #3840, lsl #12
	cmp	x8, #4
	csel	x24, x8, x9, hi
	cmp	x8, x10
	csel	w28, w24, wzr, lo
	b.hs	.LBB76_162
	lsl	x0, x24, #3
	mov	w1, #8
	str	x25, [sp, #48]
	bl	tlsf_memory_alloc
	tbz	w0, #0, .LBB76_132
	movi	v0.2d, #0000000000000000
	add	x8, x24, #63
	mov	w25, w28
	lsr	x28, x8, #6
	mov	x22, x1
	str	x23, [sp, #24]
	lsl	x0, x28, #3
	stp	q0, q0, [x1]
	mov	w1, #8
	bl	tlsf_memory_alloc
	tbz	w0, #0, .LBB76_127
	adrp	x8, .LCPI76_0
	str	xzr, [x1]
	ldur	x9, [x29, #-32]
	ldr	q0, [x8, :lo12:.LCPI76_0]
	str	x27, [sp, #40]
	mov	x27, #-1
	cmp	x9, x26
	mov	x23, x26
	str	q0, [x22]
	ldr	x8, [x1]
	orr	x8, x8, #0x1
	str	x8, [x1]
	str	x27, [x22, #16]
	b.eq	.LBB76_114
.LBB76_84:
	mov	w8, #2792
	str	x21, [sp, #32]
	ldr	x9, [sp, #40]
	madd	x21, x23, x8, x21
	ldr	w8, [sp, #76]
	mov	w20, #4
	mov	w2, #2544
	add	w8, w8, w9
	adrp	x9, .LCPI76_1
	ldr	q0, [x9, :lo12:.LCPI76_1]
	stp	w8, wzr, [x21]
	adrp	x8, .LCPI76_2
	add	x0, x21, #188
	stur	q0, [x21, #8]
	ldr	d0, [x8, :lo12:.LCPI76_2]
	mov	w8, #1
	stp	x24, x1, [x21, #40]
	mov	w1, #255
	str	d0, [x21, #80]
	movi	v0.2d, #0000000000000000
	stp	x22, x20, [x21, #24]
	stp	x8, x28, [x21, #56]
	str	x20, [x21, #72]
	stur	q0, [x21, #88]
	stur	q0, [x21, #104]
	stur	q0, [x21, #120]
	stur	q0, [x21, #136]
	stur	q0, [x21, #152]
	stp	x27, x27, [x21, #168]
	str	wzr, [x21, #184]
	bl	tlsf_memory_set
	movi	v0.2d, #0000000000000000
	add	x8, x21, #2744
	sub	x22, x29, #24
	add	x24, x23, #1
	str	wzr, [x21, #2732]
	str	x22, [x21, #2736]
	str	x20, [x21, #2760]
	str	q0, [x8]
	add	x8, x21, #2776
	str	x22, [x21, #2768]
	str	q0, [x8]
	stur	x24, [x29, #-40]
	cbz	x19, .LBB76_95
	lsr	x8, x19, #60
	cbnz	x8, .LBB76_126
	lsl	x22, x19, #3
	mov	w1, #4
	mov	x0, x22
	bl	tlsf_memory_alloc
	tbz	w0, #0, .LBB76_126
	ldr	x20, [sp, #24]
	mov	x23, x1
	mov	x0, x1
	mov	x2, x22
	mov	x21, x24
	mov	x1, x20
	bl	tlsf_memory_cpy
	lsl	x24, x19, #2
	mov	w1, #4
	mov	x0, x24
	bl	tlsf_memory_alloc
	tbz	w0, #0, .LBB76_131
	mov	x22, x1
	subs	x27, x19, #1
	b.eq	.LBB76_90
	sub	x2, x24, #4
	mov	x0, x22
	mov	w1, wzr
	bl	tlsf_memory_set
.LBB76_90:
	ldr	x12, [sp, #32]
	mov	w8, wzr
	add	x9, x20, #4
	mov	x10, x19
	mov	x24, x21
	str	wzr, [x22, x27, lsl #2]
	b	.LBB76_92
.LBB76_91:
	subs	x10, x10, #1
	add	x9, x9, #8
	b.eq	.LBB76_94
.LBB76_92:
	ldur	w11, [x9, #-4]
	cbz	w11, .LBB76_91
	ldr	w11, [x9]
	cmp	w11, w8
	csel	w8, w11, w8, hi
	b	.LBB76_91
.LBB76_94:
	add	x21, x27, #1
	b	.LBB76_96
.LBB76_95:
	ldr	x12, [sp, #32]
	mov	x21, xzr
	mov	w8, wzr
	sub	x23, x29, #24
.LBB76_96:
	mov	w9, w8
	cmp	w8, #0
	mov	w27, #26
	cinc	x8, x9, eq
	add	x8, x8, #31
	lsr	x8, x8, #3
	orr	w9, w8, #0x20
	sub	w8, w8, #1
	clz	w9, w9
	sub	w9, w27, w9
	lsr	w8, w8, w9
	add	w8, w8, #1
	add	w28, w8, w9, lsl #5
	lsr	w9, w28, #5
	cbz	w9, .LBB76_98
	mov	w10, #16
	and	w8, w8, #0x1f
	sub	w11, w9, #1
	lsl	w9, w10, w9
	lsl	w8, w8, w11
	add	w28, w8, w9
.LBB76_98:
	mov	w8, #2792
	mov	w1, w25
	madd	x26, x26, x8, x12
	ldr	x8, [x26, #8]
	add	x0, x26, #24
	sub	x20, x8, #1
	bl	"tlsf_words::words::Words::lengthen"
	mov	w8, #-1
	movi	v0.2d, #0000000000000000
	str	xzr, [x26, #160]
	str	w8, [x26, #184]
	ldp	x9, x8, [x26, #24]
	lsl	x10, x8, #2
	orr	w11, w8, #0x20
	stp	q0, q0, [x26, #80]
	stp	q0, q0, [x26, #112]
	orr	x10, x10, #0xffffffff00000003
	str	q0, [x26, #144]
	stp	x10, x20, [x9]
	clz	w10, w11
	sub	w10, w27, w10
	ldr	x11, [x26, #48]
	lsr	w8, w8, w10
	add	w9, w8, w10, lsl #5
	ldr	x10, [x11]
	orr	x10, x10, #0x1
	add	x12, x26, w9, uxtw #2
	str	x10, [x11]
	ldr	w11, [x12, #168]
	ldr	x10, [x26, #24]
	str	wzr, [x12, #168]
	tbnz	w11, #31, .LBB76_100
	orr	x8, x11, #0xffffffff00000000
	add	x9, x10, x11, lsl #3
	str	x8, [x10, #16]
	ldr	w8, [x9, #16]
	str	x8, [x9, #16]
	b	.LBB76_101
.LBB76_100:
	lsr	x9, x9, #5
	mov	x11, #-1
	str	x11, [x10, #16]
	mov	w11, #1
	add	x10, x26, x9, lsl #2
	ldr	w12, [x26, #80]
	lsl	w9, w11, w9
	lsl	w8, w11, w8
	ldr	w13, [x10, #84]
	orr	w9, w12, w9
	str	w9, [x26, #80]
	orr	w8, w13, w8
	str	w8, [x10, #84]
.LBB76_101:
	ldr	x20, [sp, #8]
	ldr	x27, [sp, #40]
	mov	x9, x21
	ldr	x0, [x26, #2736]
	ldr	x8, [x26, #2752]
	ldr	x21, [x26, #2768]
	str	x22, [x26, #2768]
	ldr	x22, [x26, #2784]
	str	x23, [x26, #2736]
	str	x19, [x26, #2744]
	str	x19, [x26, #2752]
	str	w28, [x26, #2760]
	str	wzr, [x26, #2764]
	str	x9, [x26, #2776]
	str	x19, [x26, #2784]
	cbz	x8, .LBB76_103
	bl	tlsf_memory_dealloc
.LBB76_103:
	ldr	x23, [sp, #24]
	cbz	x22, .LBB76_70
	mov	x0, x21
	bl	tlsf_memory_dealloc
	b	.LBB76_70
.LBB76_105:
	mov	x9, xzr
	mov	x11, xzr
	and	x10, x19, #0xfffffffffffffffe
	add	x12, x23, #8
	and	x13, x19, #0xfffffffffffffffe
.LBB76_106:
	ldur	w14, [x12, #-8]
	ldr	w15, [x12], #16
	subs	x13, x13, #2
	add	x9, x9, x14
	add	x11, x11, x15
	b.ne	.LBB76_106
	cmp	x19, x10
	add	x9, x11, x9
	b.eq	.LBB76_110
.LBB76_108:
	add	x11, x23, x10, lsl #3
	sub	x10, x19, x10
.LBB76_109:
	ldr	w12, [x11], #8
	subs	x10, x10, #1
	add	x9, x9, x12
	b.ne	.LBB76_109
.LBB76_110:
	mov	w10, wzr
	mov	x11, x19
	b	.LBB76_112
.LBB76_111:
	subs	x11, x11, #1
	add	x8, x8, #8
	b.eq	.LBB76_78
.LBB76_112:
	ldur	w12, [x8, #-4]
	cbz	w12, .LBB76_111
	ldr	w12, [x8]
	cmp	w12, w10
	csel	w10, w12, w10, hi
	b	.LBB76_111
.LBB76_114:
	sub	x0, x29, #48
	str	x1, [sp, #32]
	bl	"std_alloc::vec::Vec::grow_amortized::<#cb831ce0f1fbfa3d>"
	cbz	w0, .LBB76_156
	ldp	x21, x23, [x29, #-48]
	ldr	x1, [sp, #32]
	b	.LBB76_84
.LBB76_116:
	sub	x8, x29, #24
	mov	x19, xzr
	stur	x8, [x29, #-48]
.LBB76_117:
	ldur	q0, [x29, #-48]
	mov	x20, xzr
	stur	q0, [x21, #4]
	ldr	q0, [sp, #752]
	ldr	w8, [sp, #768]
	str	q0, [sp, #688]
	str	w8, [sp, #704]
	b	.LBB76_120
.LBB76_118:
	sub	x8, x29, #24
	mov	x19, xzr
	stur	x8, [x29, #-48]
.LBB76_119:
	ldur	q0, [x29, #-48]
	mov	w20, #1
	stur	q0, [x21, #4]
	ldr	q0, [sp, #752]
	ldr	w8, [sp, #768]
	str	q0, [sp, #656]
	str	w8, [sp, #672]
.LBB76_120:
	str	w8, [sp, #736]
	str	q0, [sp, #720]
	ldr	q0, [sp, #720]
	mov	w8, w8
	mov	w0, #2760
	mov	w1, #8
	str	q0, [sp, #80]
	str	w8, [sp, #96]
	bl	tlsf_memory_alloc
	tbz	w0, #0, .LBB76_122
	mov	w8, #257
	ldr	q0, [sp, #80]
	str	x20, [x1, #8]
	strh	w8, [x1]
	ldr	w8, [sp, #76]
	add	x0, x1, #48
	stur	q0, [x1, #20]
	mov	w2, #2712
	str	w8, [x1, #16]
	ldr	w8, [sp, #96]
	str	x19, [x1, #40]
	mov	x19, x1
	str	w8, [x1, #36]
	mov	w1, wzr
	bl	tlsf_memory_set
	ldr	x9, [sp, #64]
	mov	w8, wzr
	mov	w10, #1
	str	x19, [x9]
	strb	w10, [x9, #8]
	stur	wzr, [x9, #9]
	str	wzr, [x9, #12]
	b	.LBB76_161
.LBB76_122:
	ldr	w8, [sp, #60]
	add	x9, sp, #80
	cmp	w8, #4
	orr	x8, x9, #0x4
	b.ne	.LBB76_124
	ldr	q0, [x8]
	add	x0, sp, #112
	str	x19, [sp, #128]
	str	q0, [sp, #112]
	bl	"std_alloc::vec::Vec::drop::<#01e19ae241269710>"
	mov	w8, #6
	b	.LBB76_161
.LBB76_124:
	ldr	q0, [x8]
	sub	x0, x29, #224
	stur	x19, [x29, #-208]
	stur	q0, [x29, #-224]
	bl	"std_alloc::vec::Vec::drop::<#1d6c342d5cae5f6b>"
	mov	w8, #6
	b	.LBB76_161
.LBB76_125:
	mov	x26, x21
	ldur	x19, [x29, #-48]
	ldur	x23, [x29, #-32]
	cbnz	x21, .LBB76_145
	b	.LBB76_157
.LBB76_126:
	mov	x26, x24
	ldur	x19, [x29, #-48]
	ldur	x23, [x29, #-32]
	cbnz	x24, .LBB76_133
	b	.LBB76_157
.LBB76_127:
	mov	x0, x22
	bl	tlsf_memory_dealloc
	ldur	x19, [x29, #-48]
	ldur	x23, [x29, #-32]
	cbnz	x26, .LBB76_133
	b	.LBB76_157
.LBB76_128:
	mov	x0, x22
	bl	tlsf_memory_dealloc
	ldur	x19, [x29, #-48]
	ldur	x23, [x29, #-32]
	cbnz	x26, .LBB76_145
	b	.LBB76_157
.LBB76_129:
	ldur	x19, [x29, #-32]
	add	x21, sp, #752
	b	.LBB76_119
.LBB76_130:
	ldur	x19, [x29, #-32]
	add	x21, sp, #752
	b	.LBB76_117
.LBB76_131:
	mov	x0, x23
	bl	tlsf_memory_dealloc
	mov	x26, x21
.LBB76_132:
	ldur	x19, [x29, #-48]
	ldur	x23, [x29, #-32]
	cbz	x26, .LBB76_157
.LBB76_133:
	mov	x24, x19
	b	.LBB76_135
.LBB76_134:
	subs	x26, x26, #1
	add	x24, x24, #2792
	b.eq	.LBB76_157
.LBB76_135:
	ldp	x8, x22, [x24, #40]
	ldr	x28, [x24, #64]
	ldr	x21, [x24, #2736]
	ldr	x27, [x24, #2752]
	ldr	x20, [x24, #2768]
	ldr	x25, [x24, #2784]
	cbz	x8, .LBB76_137
	ldr	x0, [x24, #24]
	bl	tlsf_memory_dealloc
.LBB76_137:
	cbz	x28, .LBB76_139
	mov	x0, x22
	bl	tlsf_memory_dealloc
.LBB76_139:
	cbz	x27, .LBB76_141
	mov	x0, x21
	bl	tlsf_memory_dealloc
.LBB76_141:
	cbz	x25, .LBB76_134
	mov	x0, x20
	bl	tlsf_memory_dealloc
	b	.LBB76_134
.LBB76_143:
	mov	x0, x23
	bl	tlsf_memory_dealloc
	mov	x26, x21
.LBB76_144:
	ldur	x19, [x29, #-48]
	ldur	x23, [x29, #-32]
	cbz	x26, .LBB76_157
.LBB76_145:
	mov	x24, x19
	b	.LBB76_147
.LBB76_146:
	subs	x26, x26, #1
	add	x24, x24, #2792
	b.eq	.LBB76_157
.LBB76_147:
	ldp	x8, x22, [x24, #40]
	ldr	x28, [x24, #64]
	ldr	x21, [x24, #2736]
	ldr	x27, [x24, #2752]
	ldr	x20, [x24, #2768]
	ldr	x25, [x24, #2784]
	cbz	x8, .LBB76_149
	ldr	x0, [x24, #24]
	bl	tlsf_memory_dealloc
.LBB76_149:
	cbz	x28, .LBB76_151
	mov	x0, x22
	bl	tlsf_memory_dealloc
.LBB76_151:
	cbz	x27, .LBB76_153
	mov	x0, x21
	bl	tlsf_memory_dealloc
.LBB76_153:
	cbz	x25, .LBB76_146
	mov	x0, x20
	bl	tlsf_memory_dealloc
	b	.LBB76_146
.LBB76_155:
	mov	x0, x22
	bl	tlsf_memory_dealloc
	ldr	x0, [sp, #40]
	bl	tlsf_memory_dealloc
	ldp	x19, x26, [x29, #-48]
	ldur	x23, [x29, #-32]
	cbnz	x26, .LBB76_145
	b	.LBB76_157
.LBB76_156:
	mov	x0, x22
	bl	tlsf_memory_dealloc
	ldr	x0, [sp, #32]
	bl	tlsf_memory_dealloc
	ldp	x19, x26, [x29, #-48]
	ldur	x23, [x29, #-32]
	cbnz	x26, .LBB76_133
.LBB76_157:
	cbz	x23, .LBB76_159
	mov	x0, x19
	bl	tlsf_memory_dealloc
.LBB76_159:
	mov	w8, #2
.LBB76_160:
	cmp	w8, #0
	mov	w8, #5
	cinc	w8, w8, ne
.LBB76_161:
	mov	w0, w8
	add	sp, sp, #1024
	.cfi_def_cfa wsp, 96
	ldp	x20, x19, [sp, #80]
	ldp	x22, x21, [sp, #64]
	ldp	x24, x23, [sp, #48]
	ldp	x26, x25, [sp, #32]
	ldp	x28, x27, [sp, #16]
	ldp	x29, x30, [sp], #96
	.cfi_def_cfa_offset 0
	.cfi_restore w19
	.cfi_restore w20
	.cfi_restore w21
	.cfi_restore w22
	.cfi_restore w23
	.cfi_restore w24
	.cfi_restore w25
	.cfi_restore w26
	.cfi_restore w27
	.cfi_restore w28
	.cfi_restore w30
	.cfi_restore w29
	ret
.LBB76_162:
	.cfi_restore_state
	brk	#0x1
.Lfunc_end76:
	.size	tlsf_pools_open, .Lfunc_end76-tlsf_pools_open
	.cfi_endproc
	.section	.text.tlsf_pools_part,"ax",@progbits
	.globl	tlsf_pools_part
	.p2align	2
	.type	tlsf_pools_part,@function
tlsf_pools_part:
	.cfi_startproc
	ldrb	w8, [x0, #8]
	cbz	w8, .LBB77_7
	ldr	x8, [x0]
	ldrb	w9, [x8, #1]
	tbz	w9, #0, .LBB77_7
	ldrb	w9, [x8]
	cmp	w9, #1
	b.ne	.LBB77_8
	ldr	x10, [x8, #32]
	ldrb	w11, [x8, #8]
	mov	w9, w1
	strb	wzr, [x8, #1]
	cmp	x10, x9
	b.ls	.LBB77_6
	mov	w12, #2792
	ldr	x11, [x8, #24]
	mov	w0, wzr
	umull	x10, w9, w12
	umaddl	x9, w9, w12, x11
	add	x10, x11, x10
	mov	w11, #1
	ldr	x10, [x10, #24]
	ldr	w9, [x9]
	strb	w11, [x8, #1]
	str	x10, [x2]
	str	w9, [x3]
	ret
.LBB77_6:
	mov	w9, #1
	mov	w0, #4
	strb	w9, [x8, #1]
	ret
.LBB77_7:
	mov	w0, wzr
	b	"tlsf_c::call_fault::CallFault::refusal"
.LBB77_8:
	mov	w0, #2
	b	"tlsf_c::call_fault::CallFault::refusal"
.Lfunc_end77:
	.size	tlsf_pools_part, .Lfunc_end77-tlsf_pools_part
	.cfi_endproc
	.section	.text.tlsf_pools_place,"ax",@progbits
	.globl	tlsf_pools_place
	.p2align	2
	.type	tlsf_pools_place,@function
tlsf_pools_place:
	.cfi_startproc
	ldrb	w8, [x0, #8]
	cbz	w8, .LBB78_9
	ldr	x8, [x0]
	ldrb	w9, [x8, #1]
	tbz	w9, #0, .LBB78_9
	ldrb	w9, [x8]
	cmp	w9, #1
	b.ne	.LBB78_10
	ldr	x10, [x8, #32]
	ldrb	w11, [x8, #8]
	mov	w9, w1
	strb	wzr, [x8, #1]
	cmp	x10, x9
	b.ls	.LBB78_8
	mov	w10, #2792
	ldr	x11, [x8, #24]
	umaddl	x10, w9, w10, x11
	ldr	w9, [x10, #32]
	cmp	w2, w9
	b.hs	.LBB78_8
	lsr	w9, w2, #3
	ldr	x11, [x10, #48]
	and	x9, x9, #0x1ffffff8
	ldr	x9, [x11, x9]
	lsr	x9, x9, x2
	tbz	w9, #0, .LBB78_8
	ldr	x9, [x10, #24]
	add	x9, x9, w2, uxtw #3
	ldr	x11, [x9]
	tbnz	w11, #0, .LBB78_8
	ldp	x9, x12, [x9, #8]
	mov	w0, wzr
	ldr	w10, [x10]
	mov	w11, #1
	strb	w11, [x8, #1]
	stp	w10, w2, [x3]
	str	x9, [x3, #8]
	str	w12, [x4]
	ret
.LBB78_8:
	mov	w9, #1
	mov	w0, #4
	strb	w9, [x8, #1]
	ret
.LBB78_9:
	mov	w0, wzr
	b	"tlsf_c::call_fault::CallFault::refusal"
.LBB78_10:
	mov	w0, #2
	b	"tlsf_c::call_fault::CallFault::refusal"
.Lfunc_end78:
	.size	tlsf_pools_place, .Lfunc_end78-tlsf_pools_place
	.cfi_endproc
	.section	.text.tlsf_pools_read,"ax",@progbits
	.globl	tlsf_pools_read
	.p2align	2
	.type	tlsf_pools_read,@function
tlsf_pools_read:
	.cfi_startproc
	stp	x29, x30, [sp, #-32]!
	.cfi_def_cfa_offset 32
	str	x19, [sp, #16]
	mov	x29, sp
	.cfi_def_cfa w29, 32
	.cfi_offset w19, -16
	.cfi_offset w30, -24
	.cfi_offset w29, -32
	.cfi_remember_state
	ldrb	w8, [x0, #8]
	cmp	x4, #0
	mov	w9, #4096
	csel	x10, x9, xzr, eq
	cbz	w8, .LBB79_21
	ldr	x19, [x0]
	ldrb	w8, [x19, #1]
	tbz	w8, #0, .LBB79_21
	ldrb	w8, [x19]
	cmp	w8, #1
	b.ne	.LBB79_24
	ldr	w8, [x19, #16]
	ldr	x11, [x19, #32]
	ldrb	w12, [x19, #8]
	strb	wzr, [x19, #1]
	subs	w9, w1, w8
	csel	w9, wzr, w9, lo
	cmp	w8, w1
	lsr	x8, x1, #32
	ccmp	x11, x9, #0, ls
	cset	w11, hi
	cbz	w12, .LBB79_12
	cbz	w11, .LBB79_20
	mov	w11, #2792
	ldr	x12, [x19, #24]
	umaddl	x11, w9, w11, x12
	ldr	w9, [x11]
	cmp	w9, w1
	b.ne	.LBB79_25
	ldr	w9, [x11, #32]
	cmp	w8, w9
	b.hs	.LBB79_22
	lsr	x9, x1, #35
	ldr	x12, [x11, #48]
	and	x9, x9, #0x1ffffff8
	ldr	x9, [x12, x9]
	lsr	x9, x9, x8
	tbz	w9, #0, .LBB79_22
	ldur	x9, [x11, #24]
	add	x9, x9, x8, lsl #3
	ldr	x12, [x9]
	tbnz	w12, #0, .LBB79_22
	ldr	x12, [x9, #8]
	cmp	x12, x2
	b.ne	.LBB79_22
	ldr	w9, [x9, #16]
	add	x12, x5, w3, uxtw
	cmp	x12, x9
	b.hi	.LBB79_19
	add	x0, x11, #24
	mov	w2, w3
	add	x3, x4, x10
	mov	w1, w8
	mov	x4, x5
	bl	"tlsf_heap::region::Region::read::<=5>"
	mov	w8, #1
	mov	w0, wzr
	strb	w8, [x19, #1]
	.cfi_def_cfa wsp, 32
	ldr	x19, [sp, #16]
	ldp	x29, x30, [sp], #32
	.cfi_def_cfa_offset 0
	.cfi_restore w19
	.cfi_restore w30
	.cfi_restore w29
	ret
.LBB79_12:
	.cfi_restore_state
	.cfi_remember_state
	cbz	w11, .LBB79_20
	mov	w11, #2792
	ldr	x12, [x19, #24]
	umaddl	x11, w9, w11, x12
	ldr	w9, [x11]
	cmp	w9, w1
	b.ne	.LBB79_25
	ldr	w9, [x11, #32]
	cmp	w8, w9
	b.hs	.LBB79_22
	lsr	x9, x1, #35
	ldr	x12, [x11, #48]
	and	x9, x9, #0x1ffffff8
	ldr	x9, [x12, x9]
	lsr	x9, x9, x8
	tbz	w9, #0, .LBB79_22
	ldur	x9, [x11, #24]
	add	x9, x9, x8, lsl #3
	ldr	x12, [x9]
	tbnz	w12, #0, .LBB79_22
	ldr	x12, [x9, #8]
	cmp	x12, x2
	b.ne	.LBB79_22
	ldr	w9, [x9, #16]
	add	x12, x5, w3, uxtw
	cmp	x12, x9
	b.ls	.LBB79_23
.LBB79_19:
	mov	w8, #1
	mov	w0, #7
	strb	w8, [x19, #1]
	.cfi_def_cfa wsp, 32
	ldr	x19, [sp, #16]
	ldp	x29, x30, [sp], #32
	.cfi_def_cfa_offset 0
	.cfi_restore w19
	.cfi_restore w30
	.cfi_restore w29
	ret
.LBB79_20:
	.cfi_restore_state
	.cfi_remember_state
	mov	w8, #1
	mov	w0, #3
	strb	w8, [x19, #1]
	.cfi_def_cfa wsp, 32
	ldr	x19, [sp, #16]
	ldp	x29, x30, [sp], #32
	.cfi_def_cfa_offset 0
	.cfi_restore w19
	.cfi_restore w30
	.cfi_restore w29
	ret
.LBB79_21:
	.cfi_restore_state
	.cfi_remember_state
	mov	w0, wzr
	.cfi_def_cfa wsp, 32
	ldr	x19, [sp, #16]
	ldp	x29, x30, [sp], #32
	.cfi_def_cfa_offset 0
	.cfi_restore w19
	.cfi_restore w30
	.cfi_restore w29
	b	"tlsf_c::call_fault::CallFault::refusal"
.LBB79_22:
	.cfi_restore_state
	.cfi_remember_state
	mov	w0, w1
	b	.LBB79_26
.LBB79_23:
	add	x0, x11, #24
	mov	w2, w3
	add	x3, x4, x10
	mov	w1, w8
	mov	x4, x5
	bl	"tlsf_heap::region::Region::read::<=4>"
	mov	w8, #1
	mov	w0, wzr
	strb	w8, [x19, #1]
	.cfi_def_cfa wsp, 32
	ldr	x19, [sp, #16]
	ldp	x29, x30, [sp], #32
	.cfi_def_cfa_offset 0
	.cfi_restore w19
	.cfi_restore w30
	.cfi_restore w29
	ret
.LBB79_24:
	.cfi_restore_state
	.cfi_remember_state
	mov	w0, #2
	.cfi_def_cfa wsp, 32
	ldr	x19, [sp, #16]
	ldp	x29, x30, [sp], #32
	.cfi_def_cfa_offset 0
	.cfi_restore w19
	.cfi_restore w30
	.cfi_restore w29
	b	"tlsf_c::call_fault::CallFault::refusal"
.LBB79_25:
	.cfi_restore_state
	mov	w0, w1
	mov	w1, w9
.LBB79_26:
	bl	"tlsf_heap::refusal::Refusal::of_name"
	and	w8, w0, #0xff
	mov	w9, #1
	cmp	w8, #3
	mov	w8, #3
	strb	w9, [x19, #1]
	cinc	w0, w8, eq
	.cfi_def_cfa wsp, 32
	ldr	x19, [sp, #16]
	ldp	x29, x30, [sp], #32
	.cfi_def_cfa_offset 0
	.cfi_restore w19
	.cfi_restore w30
	.cfi_restore w29
	ret
.Lfunc_end79:
	.size	tlsf_pools_read, .Lfunc_end79-tlsf_pools_read
	.cfi_endproc
	.section	.text.tlsf_pools_release,"ax",@progbits
	.globl	tlsf_pools_release
	.p2align	2
	.type	tlsf_pools_release,@function
tlsf_pools_release:
	.cfi_startproc
	stp	x29, x30, [sp, #-48]!
	.cfi_def_cfa_offset 48
	str	x21, [sp, #16]
	stp	x20, x19, [sp, #32]
	mov	x29, sp
	.cfi_def_cfa w29, 48
	.cfi_offset w19, -8
	.cfi_offset w20, -16
	.cfi_offset w21, -32
	.cfi_offset w30, -40
	.cfi_offset w29, -48
	.cfi_remember_state
	ldrb	w8, [x0, #8]
	cbz	w8, .LBB80_24
	ldr	x19, [x0]
	ldrb	w8, [x19, #1]
	tbz	w8, #0, .LBB80_24
	ldrb	w8, [x19]
	cmp	w8, #1
	b.ne	.LBB80_31
	ldr	w9, [x19, #16]
	ldr	x10, [x19, #32]
	lsr	x4, x1, #32
	ldrb	w11, [x19, #8]
	strb	wzr, [x19, #1]
	subs	w8, w1, w9
	csel	w8, wzr, w8, lo
	cmp	w9, w1
	ccmp	x10, x8, #0, ls
	cset	w9, hi
	cbz	w11, .LBB80_13
	cbz	w9, .LBB80_22
	mov	w9, #2792
	ldr	x10, [x19, #24]
	umaddl	x20, w8, w9, x10
	ldr	w8, [x20]
	cmp	w8, w1
	b.ne	.LBB80_40
	ldr	w8, [x20, #32]
	cmp	w4, w8
	b.hs	.LBB80_25
	lsr	x8, x1, #35
	ldr	x9, [x20, #48]
	and	x8, x8, #0x1ffffff8
	ldr	x8, [x9, x8]
	lsr	x8, x8, x4
	tbz	w8, #0, .LBB80_25
	ldur	x10, [x20, #24]
	lsl	x8, x4, #3
	add	x9, x10, x8
	ldr	x5, [x9]
	tbnz	w5, #0, .LBB80_25
	ldr	x11, [x9, #8]
	cmp	x11, x2
	b.ne	.LBB80_25
	ldr	x3, [x20, #8]
	cmn	x3, #1
	b.eq	.LBB80_23
	lsr	w11, w5, #2
	ldr	w12, [x20, #16]
	ldr	w21, [x9, #16]
	sub	w12, w12, w11
	str	w12, [x20, #16]
	tbnz	w5, #1, .LBB80_26
	add	w12, w11, w4
	ldr	x1, [x10, w12, uxtw #3]
	cbnz	x4, .LBB80_27
	b	.LBB80_28
.LBB80_13:
	cbz	w9, .LBB80_22
	mov	w9, #2792
	ldr	x10, [x19, #24]
	umaddl	x20, w8, w9, x10
	ldr	w8, [x20]
	cmp	w8, w1
	b.ne	.LBB80_40
	ldr	w8, [x20, #32]
	cmp	w4, w8
	b.hs	.LBB80_25
	lsr	x8, x1, #35
	ldr	x9, [x20, #48]
	and	x8, x8, #0x1ffffff8
	ldr	x8, [x9, x8]
	lsr	x8, x8, x4
	tbz	w8, #0, .LBB80_25
	ldur	x10, [x20, #24]
	lsl	x8, x4, #3
	add	x9, x10, x8
	ldr	x5, [x9]
	tbnz	w5, #0, .LBB80_25
	ldr	x11, [x9, #8]
	cmp	x11, x2
	b.ne	.LBB80_25
	ldr	x3, [x20, #8]
	cmn	x3, #1
	b.eq	.LBB80_23
	lsr	w11, w5, #2
	ldr	w12, [x20, #16]
	ldr	w21, [x9, #16]
	sub	w12, w12, w11
	str	w12, [x20, #16]
	tbnz	w5, #1, .LBB80_34
	add	w12, w11, w4
	ldr	x1, [x10, w12, uxtw #3]
	cbnz	x4, .LBB80_35
	b	.LBB80_36
.LBB80_22:
	mov	w8, #1
	mov	w0, #3
	strb	w8, [x19, #1]
	.cfi_def_cfa wsp, 48
	ldp	x20, x19, [sp, #32]
	ldr	x21, [sp, #16]
	ldp	x29, x30, [sp], #48
	.cfi_def_cfa_offset 0
	.cfi_restore w19
	.cfi_restore w20
	.cfi_restore w21
	.cfi_restore w30
	.cfi_restore w29
	ret
.LBB80_23:
	.cfi_restore_state
	.cfi_remember_state
	mov	w8, #1
	mov	w0, #2
	strb	w8, [x19, #1]
	.cfi_def_cfa wsp, 48
	ldp	x20, x19, [sp, #32]
	ldr	x21, [sp, #16]
	ldp	x29, x30, [sp], #48
	.cfi_def_cfa_offset 0
	.cfi_restore w19
	.cfi_restore w20
	.cfi_restore w21
	.cfi_restore w30
	.cfi_restore w29
	ret
.LBB80_24:
	.cfi_restore_state
	.cfi_remember_state
	mov	w0, wzr
	.cfi_def_cfa wsp, 48
	ldp	x20, x19, [sp, #32]
	ldr	x21, [sp, #16]
	ldp	x29, x30, [sp], #48
	.cfi_def_cfa_offset 0
	.cfi_restore w19
	.cfi_restore w20
	.cfi_restore w21
	.cfi_restore w30
	.cfi_restore w29
	b	"tlsf_c::call_fault::CallFault::refusal"
.LBB80_25:
	.cfi_restore_state
	.cfi_remember_state
	mov	w0, w1
	b	.LBB80_41
.LBB80_26:
	mov	x1, xzr
	cbz	x4, .LBB80_28
.LBB80_27:
	lsr	x12, x5, #29
	and	x12, x12, #0x7fffffff8
	ldr	x2, [x10, x12]
	tbnz	w2, #0, .LBB80_33
.LBB80_28:
	tbnz	w1, #0, .LBB80_32
	orr	w10, w11, #0x20
	mov	w12, #26
	orr	x13, x5, #0x1
	clz	w10, w10
	stp	x13, x3, [x9]
	sub	w12, w12, w10
	ldr	x9, [x20, #8]
	lsr	w10, w11, w12
	add	x9, x9, #1
	add	w11, w10, w12, lsl #5
	str	x9, [x20, #8]
	ldr	x9, [x20, #24]
	add	x13, x20, w11, uxtw #2
	ldr	w12, [x13, #168]
	str	w4, [x13, #168]
	tbnz	w12, #31, .LBB80_43
	add	x8, x9, x8
	add	x9, x9, x12, lsl #3
	orr	x10, x12, #0xffffffff00000000
	str	x10, [x8, #16]
	str	w4, [x9, #20]
	ldr	x8, [x20, #2744]
	cbnz	x8, .LBB80_44
	b	.LBB80_53
.LBB80_31:
	mov	w0, #2
	.cfi_def_cfa wsp, 48
	ldp	x20, x19, [sp, #32]
	ldr	x21, [sp, #16]
	ldp	x29, x30, [sp], #48
	.cfi_def_cfa_offset 0
	.cfi_restore w19
	.cfi_restore w20
	.cfi_restore w21
	.cfi_restore w30
	.cfi_restore w29
	b	"tlsf_c::call_fault::CallFault::refusal"
.LBB80_32:
	.cfi_restore_state
	.cfi_remember_state
	add	x8, x3, #1
	add	x0, x20, #24
	mov	x2, x5
	str	x8, [x20, #8]
	bl	"tlsf_heap::fitting::merge_next::<=5>"
	ldr	x8, [x20, #2744]
	cbnz	x8, .LBB80_44
	b	.LBB80_53
.LBB80_33:
	add	x8, x3, #1
	add	x0, x20, #24
	str	x8, [x20, #8]
	bl	"tlsf_heap::fitting::merge_before::<=5>"
	ldr	x8, [x20, #2744]
	cbnz	x8, .LBB80_44
	b	.LBB80_53
.LBB80_34:
	mov	x1, xzr
	cbz	x4, .LBB80_36
.LBB80_35:
	lsr	x12, x5, #29
	and	x12, x12, #0x7fffffff8
	ldr	x2, [x10, x12]
	tbnz	w2, #0, .LBB80_42
.LBB80_36:
	tbnz	w1, #0, .LBB80_39
	orr	w10, w11, #0x10
	mov	w12, #27
	orr	x13, x5, #0x1
	clz	w10, w10
	stp	x13, x3, [x9]
	sub	w12, w12, w10
	ldr	x9, [x20, #8]
	lsr	w10, w11, w12
	add	x9, x9, #1
	add	w11, w10, w12, lsl #4
	str	x9, [x20, #8]
	ldr	x9, [x20, #24]
	add	x13, x20, w11, uxtw #2
	ldr	w12, [x13, #168]
	str	w4, [x13, #168]
	tbnz	w12, #31, .LBB80_47
	add	x8, x9, x8
	add	x9, x9, x12, lsl #3
	orr	x10, x12, #0xffffffff00000000
	str	x10, [x8, #16]
	str	w4, [x9, #20]
	b	.LBB80_48
.LBB80_39:
	add	x8, x3, #1
	add	x0, x20, #24
	mov	x2, x5
	str	x8, [x20, #8]
	bl	"tlsf_heap::fitting::merge_next::<=4>"
	b	.LBB80_48
.LBB80_40:
	mov	w0, w1
	mov	w1, w8
.LBB80_41:
	bl	"tlsf_heap::refusal::Refusal::of_name"
	and	w8, w0, #0xff
	mov	w9, #1
	cmp	w8, #3
	mov	w8, #3
	strb	w9, [x19, #1]
	cinc	w0, w8, eq
	.cfi_def_cfa wsp, 48
	ldp	x20, x19, [sp, #32]
	ldr	x21, [sp, #16]
	ldp	x29, x30, [sp], #48
	.cfi_def_cfa_offset 0
	.cfi_restore w19
	.cfi_restore w20
	.cfi_restore w21
	.cfi_restore w30
	.cfi_restore w29
	ret
.LBB80_42:
	.cfi_restore_state
	add	x8, x3, #1
	add	x0, x20, #24
	str	x8, [x20, #8]
	bl	"tlsf_heap::fitting::merge_before::<=4>"
	b	.LBB80_48
.LBB80_43:
	lsr	x11, x11, #5
	add	x8, x9, x8
	mov	x9, #-1
	str	x9, [x8, #16]
	mov	w9, #1
	add	x8, x20, x11, lsl #2
	ldr	w12, [x20, #80]
	lsl	w11, w9, w11
	lsl	w9, w9, w10
	ldr	w13, [x8, #84]
	orr	w10, w12, w11
	str	w10, [x20, #80]
	orr	w9, w13, w9
	str	w9, [x8, #84]
	ldr	x8, [x20, #2744]
	cbz	x8, .LBB80_53
.LBB80_44:
	ldr	x10, [x20, #2736]
	ldr	x9, [x20, #2768]
	add	x10, x10, #4
.LBB80_45:
	ldr	w11, [x10], #8
	cmp	w11, w21
	b.hs	.LBB80_52
	subs	x8, x8, #1
	add	x9, x9, #4
	b.ne	.LBB80_45
	b	.LBB80_53
.LBB80_47:
	lsr	x11, x11, #4
	add	x8, x9, x8
	mov	x9, #-1
	str	x9, [x8, #16]
	mov	w9, #1
	and	w10, w10, #0xf
	add	x8, x20, x11, lsl #2
	ldr	w12, [x20, #80]
	lsl	w11, w9, w11
	lsl	w9, w9, w10
	ldr	w13, [x8, #84]
	orr	w10, w12, w11
	str	w10, [x20, #80]
	orr	w9, w13, w9
	str	w9, [x8, #84]
.LBB80_48:
	ldr	x8, [x20, #2744]
	cbz	x8, .LBB80_53
	ldr	x10, [x20, #2736]
	ldr	x9, [x20, #2768]
	add	x10, x10, #4
.LBB80_50:
	ldr	w11, [x10], #8
	cmp	w11, w21
	b.hs	.LBB80_52
	subs	x8, x8, #1
	add	x9, x9, #4
	b.ne	.LBB80_50
	b	.LBB80_53
.LBB80_52:
	ldr	w8, [x9]
	sub	w8, w8, #1
	str	w8, [x9]
.LBB80_53:
	mov	w8, #1
	mov	w0, wzr
	strb	w8, [x19, #1]
	.cfi_def_cfa wsp, 48
	ldp	x20, x19, [sp, #32]
	ldr	x21, [sp, #16]
	ldp	x29, x30, [sp], #48
	.cfi_def_cfa_offset 0
	.cfi_restore w19
	.cfi_restore w20
	.cfi_restore w21
	.cfi_restore w30
	.cfi_restore w29
	ret
.Lfunc_end80:
	.size	tlsf_pools_release, .Lfunc_end80-tlsf_pools_release
	.cfi_endproc
	.section	.text.tlsf_pools_report,"ax",@progbits
	.globl	tlsf_pools_report
	.p2align	2
	.type	tlsf_pools_report,@function
tlsf_pools_report:
	.cfi_startproc
	ldrb	w8, [x0, #8]
	cbz	w8, .LBB81_27
	ldr	x8, [x0]
	ldrb	w9, [x8, #1]
	tbz	w9, #0, .LBB81_27
	ldrb	w9, [x8]
	cmp	w9, #1
	b.ne	.LBB81_31
	ldr	x10, [x8, #32]
	ldrb	w11, [x8, #8]
	mov	w9, w1
	strb	wzr, [x8, #1]
	cmp	x10, x9
	cbz	w11, .LBB81_13
	b.ls	.LBB81_25
	mov	w10, #2792
	ldr	x11, [x8, #24]
	umaddl	x17, w9, w10, x11
	ldr	w16, [x17, #32]
	ldr	x15, [x17, #8]
	cbz	w16, .LBB81_26
	ldr	x0, [x17, #24]
	mov	w18, wzr
	mov	w9, wzr
	mov	w14, wzr
	mov	w10, wzr
	mov	w11, wzr
	mov	w12, wzr
	mov	w13, wzr
	mov	x17, x15
	b	.LBB81_8
.LBB81_7:
	ldr	w3, [x3, #16]
	add	w13, w13, #1
	add	w12, w1, w12
	add	w11, w11, w3
	add	w18, w1, w18
	cmp	w18, w16
	b.hs	.LBB81_10
.LBB81_8:
	add	x3, x0, w18, uxtw #3
	ldr	x4, [x3]
	lsr	w1, w4, #2
	tbz	w4, #0, .LBB81_7
	ldr	x3, [x3, #8]
	cmp	w1, w9
	add	w10, w10, #1
	csel	w9, w1, w9, hi
	add	w14, w1, w14
	cmp	x3, x17
	csel	x17, x3, x17, lo
	add	w18, w1, w18
	cmp	w18, w16
	b.lo	.LBB81_8
.LBB81_10:
	cbz	w9, .LBB81_28
	orr	w16, w9, #0x20
	mov	w18, #26
	clz	w16, w16
	sub	w16, w18, w16
	lsr	w18, w9, w16
	add	w16, w18, w16, lsl #5
	lsr	w0, w16, #5
	cbz	w0, .LBB81_23
	mov	w16, #16
	and	w18, w18, #0x1f
	b	.LBB81_22
.LBB81_13:
	b.ls	.LBB81_25
	mov	w10, #2792
	ldr	x11, [x8, #24]
	umaddl	x17, w9, w10, x11
	ldr	w16, [x17, #32]
	ldr	x15, [x17, #8]
	cbz	w16, .LBB81_26
	ldr	x0, [x17, #24]
	mov	w18, wzr
	mov	w9, wzr
	mov	w14, wzr
	mov	w10, wzr
	mov	w11, wzr
	mov	w12, wzr
	mov	w13, wzr
	mov	x17, x15
	b	.LBB81_17
.LBB81_16:
	ldr	w3, [x3, #16]
	add	w13, w13, #1
	add	w12, w1, w12
	add	w11, w11, w3
	add	w18, w1, w18
	cmp	w18, w16
	b.hs	.LBB81_19
.LBB81_17:
	add	x3, x0, w18, uxtw #3
	ldr	x4, [x3]
	lsr	w1, w4, #2
	tbz	w4, #0, .LBB81_16
	ldr	x3, [x3, #8]
	cmp	w1, w9
	add	w10, w10, #1
	csel	w9, w1, w9, hi
	add	w14, w1, w14
	cmp	x3, x17
	csel	x17, x3, x17, lo
	add	w18, w1, w18
	cmp	w18, w16
	b.lo	.LBB81_17
.LBB81_19:
	cbz	w9, .LBB81_28
	orr	w16, w9, #0x10
	mov	w18, #27
	clz	w16, w16
	sub	w16, w18, w16
	lsr	w18, w9, w16
	add	w16, w18, w16, lsl #4
	lsr	w0, w16, #4
	cbz	w0, .LBB81_23
	mov	w16, #8
	and	w18, w18, #0xf
.LBB81_22:
	sub	w1, w0, #1
	lsl	w16, w16, w0
	lsl	w18, w18, w1
	add	w16, w18, w16
.LBB81_23:
	lsl	w16, w16, #3
	sub	w16, w16, #24
	cbz	w14, .LBB81_29
.LBB81_24:
	mov	w18, #1000
	mov	w1, w14
	umull	x0, w9, w18
	udiv	x0, x0, x1
	sub	w18, w18, w0
	b	.LBB81_30
.LBB81_25:
	mov	w9, #1
	mov	w0, #4
	strb	w9, [x8, #1]
	ret
.LBB81_26:
	mov	w13, wzr
	mov	w12, wzr
	mov	w11, wzr
	mov	w10, wzr
	mov	w14, wzr
	mov	w9, wzr
	mov	w18, wzr
	mov	x17, x15
	b	.LBB81_30
.LBB81_27:
	mov	w0, wzr
	b	"tlsf_c::call_fault::CallFault::refusal"
.LBB81_28:
	mov	w16, wzr
	cbnz	w14, .LBB81_24
.LBB81_29:
	mov	w18, wzr
.LBB81_30:
	lsl	w0, w12, #3
	sub	x15, x15, x17
	mov	w17, #1
	strb	w17, [x8, #1]
	sub	w1, w0, w11
	mov	w0, wzr
	stp	w13, w12, [x2]
	stp	w11, w10, [x2, #8]
	stp	w14, w9, [x2, #16]
	stp	w16, w18, [x2, #24]
	stp	w1, wzr, [x2, #32]
	str	x15, [x2, #40]
	ret
.LBB81_31:
	mov	w0, #2
	b	"tlsf_c::call_fault::CallFault::refusal"
.Lfunc_end81:
	.size	tlsf_pools_report, .Lfunc_end81-tlsf_pools_report
	.cfi_endproc
	.section	.text.tlsf_pools_row,"ax",@progbits
	.globl	tlsf_pools_row
	.p2align	2
	.type	tlsf_pools_row,@function
tlsf_pools_row:
	.cfi_startproc
	ldrb	w8, [x0, #8]
	cbz	w8, .LBB82_24
	ldr	x8, [x0]
	ldrb	w9, [x8, #1]
	tbz	w9, #0, .LBB82_24
	ldrb	w9, [x8]
	cmp	w9, #1
	b.ne	.LBB82_25
	mov	w9, #-1
	ldp	x10, x11, [x8, #24]
	ldrb	w12, [x8, #8]
	cmp	x1, x9
	strb	wzr, [x8, #1]
	csel	x9, x1, x9, lo
	cbz	w12, .LBB82_13
	cbz	x11, .LBB82_23
	mov	x14, xzr
	b	.LBB82_7
.LBB82_6:
	add	x14, x14, #1
	cmp	x14, x11
	b.eq	.LBB82_23
.LBB82_7:
	mov	w12, #2792
	madd	x12, x14, x12, x10
	ldr	x13, [x12, #2744]
	cbz	x13, .LBB82_6
	ldr	x12, [x12, #2736]
	mov	x16, x13
	add	x15, x12, #4
.LBB82_9:
	ldr	w17, [x15], #8
	cmp	w17, w9
	b.hs	.LBB82_12
	subs	x16, x16, #1
	b.ne	.LBB82_9
	b	.LBB82_6
.LBB82_11:
	subs	x13, x13, #1
	add	x12, x12, #8
	b.eq	.LBB82_23
.LBB82_12:
	ldr	w10, [x12, #4]
	cmp	w10, w9
	b.lo	.LBB82_11
	b	.LBB82_22
.LBB82_13:
	cbz	x11, .LBB82_23
	mov	x14, xzr
	b	.LBB82_16
.LBB82_15:
	add	x14, x14, #1
	cmp	x14, x11
	b.eq	.LBB82_23
.LBB82_16:
	mov	w12, #2792
	madd	x12, x14, x12, x10
	ldr	x13, [x12, #2744]
	cbz	x13, .LBB82_15
	ldr	x12, [x12, #2736]
	mov	x16, x13
	add	x15, x12, #4
.LBB82_18:
	ldr	w17, [x15], #8
	cmp	w17, w9
	b.hs	.LBB82_21
	subs	x16, x16, #1
	b.ne	.LBB82_18
	b	.LBB82_15
.LBB82_20:
	subs	x13, x13, #1
	add	x12, x12, #8
	b.eq	.LBB82_23
.LBB82_21:
	ldr	w10, [x12, #4]
	cmp	w10, w9
	b.lo	.LBB82_20
.LBB82_22:
	ldr	w9, [x12, #4]
	mov	w0, wzr
	mov	w10, #1
	strb	w10, [x8, #1]
	str	w9, [x2]
	ret
.LBB82_23:
	mov	w9, #1
	mov	w0, #5
	strb	w9, [x8, #1]
	ret
.LBB82_24:
	mov	w0, wzr
	b	"tlsf_c::call_fault::CallFault::refusal"
.LBB82_25:
	mov	w0, #2
	b	"tlsf_c::call_fault::CallFault::refusal"
.Lfunc_end82:
	.size	tlsf_pools_row, .Lfunc_end82-tlsf_pools_row
	.cfi_endproc
	.section	.text.tlsf_pools_words,"ax",@progbits
	.globl	tlsf_pools_words
	.p2align	2
	.type	tlsf_pools_words,@function
tlsf_pools_words:
	.cfi_startproc
	cmp	x1, #0
	mov	w8, #4096
	sub	w9, w0, #6
	csel	x8, x8, xzr, eq
	cmn	w9, #2
	b.hs	.LBB83_2
	mov	w0, #34
	ret
.LBB83_2:
	cmp	x2, #64
	b.ls	.LBB83_4
	mov	w0, #5
	ret
.LBB83_4:
	stp	x29, x30, [sp, #-48]!
	.cfi_def_cfa_offset 48
	str	x28, [sp, #16]
	stp	x20, x19, [sp, #32]
	mov	x29, sp
	.cfi_def_cfa w29, 48
	.cfi_offset w19, -8
	.cfi_offset w20, -16
	.cfi_offset w28, -32
	.cfi_offset w30, -40
	.cfi_offset w29, -48
	.cfi_remember_state
	sub	sp, sp, #608
	movi	v0.2d, #0000000000000000
	str	xzr, [sp, #80]
	stp	q0, q0, [sp, #16]
	stp	q0, q0, [sp, #48]
	str	q0, [sp]
	stp	q0, q0, [sp, #96]
	stp	q0, q0, [sp, #128]
	stp	q0, q0, [sp, #160]
	stp	q0, q0, [sp, #192]
	stp	q0, q0, [sp, #224]
	stp	q0, q0, [sp, #256]
	stp	q0, q0, [sp, #288]
	stp	q0, q0, [sp, #320]
	stp	q0, q0, [sp, #352]
	stp	q0, q0, [sp, #384]
	stp	q0, q0, [sp, #416]
	stp	q0, q0, [sp, #448]
	stp	q0, q0, [sp, #480]
	stp	q0, q0, [sp, #512]
	stp	q0, q0, [sp, #544]
	stp	q0, q0, [sp, #576]
	cbz	x2, .LBB83_11
	cmp	x2, #5
	b.hs	.LBB83_7
	mov	x9, xzr
	b	.LBB83_9
.LBB83_7:
	ands	x9, x2, #0x3
	mov	w10, #4
	add	x11, sp, #96
	csel	x9, x10, x9, eq
	add	x10, x8, x1
	sub	x9, x2, x9
	add	x10, x10, #8
	mov	x12, x9
.LBB83_8:
	ldur	q0, [x10, #-8]
	add	x13, x10, #8
	subs	x12, x12, #4
	ldp	q3, q2, [x10]
	ld1	{ v0.s }[1], [x13]
	add	x13, x10, #24
	zip1	v2.2d, v3.2d, v2.2d
	ldr	q3, [x10, #32]
	ld1	{ v0.s }[2], [x13]
	add	x13, x10, #40
	ld1	{ v0.s }[3], [x13]
	add	x13, x10, #48
	add	x10, x10, #64
	uqxtn	v1.2s, v2.2d
	ld1	{ v3.d }[1], [x13]
	uqxtn2	v1.4s, v3.2d
	st2	{ v0.4s, v1.4s }, [x11], #32
	b.ne	.LBB83_8
.LBB83_9:
	add	x10, sp, #96
	add	x8, x8, x9, lsl #4
	add	x10, x10, x9, lsl #3
	add	x11, x8, x1
	sub	x8, x2, x9
	orr	x9, x10, #0x4
	add	x10, x11, #8
.LBB83_10:
	ldr	x11, [x10]
	mov	w13, #-1
	ldur	w12, [x10, #-8]
	add	x10, x10, #16
	cmp	x11, x13
	csel	x11, x11, x13, lo
	subs	x8, x8, #1
	stp	w12, w11, [x9, #-4]
	add	x9, x9, #8
	b.ne	.LBB83_10
.LBB83_11:
	mov	x19, x3
	mov	x20, x4
	cmp	w0, #4
	b.ne	.LBB83_14
	mov	x0, sp
	add	x1, sp, #96
	bl	"tlsf_pool::sizes::split::rising_split::<=4>"
	ldrb	w8, [sp]
	cbz	w8, .LBB83_15
.LBB83_13:
	ldr	x8, [sp, #80]
	ldr	x9, [sp, #8]
	mov	w0, wzr
	str	x8, [x19]
	str	w9, [x20]
	add	sp, sp, #608
	.cfi_def_cfa wsp, 48
	ldp	x20, x19, [sp, #32]
	ldr	x28, [sp, #16]
	ldp	x29, x30, [sp], #48
	.cfi_def_cfa_offset 0
	.cfi_restore w19
	.cfi_restore w20
	.cfi_restore w28
	.cfi_restore w30
	.cfi_restore w29
	ret
.LBB83_14:
	.cfi_restore_state
	mov	x0, sp
	add	x1, sp, #96
	bl	"tlsf_pool::sizes::split::rising_split::<=5>"
	ldrb	w8, [sp]
	cbnz	w8, .LBB83_13
.LBB83_15:
	mov	w0, #5
	add	sp, sp, #608
	.cfi_def_cfa wsp, 48
	ldp	x20, x19, [sp, #32]
	ldr	x28, [sp, #16]
	ldp	x29, x30, [sp], #48
	.cfi_def_cfa_offset 0
	.cfi_restore w19
	.cfi_restore w20
	.cfi_restore w28
	.cfi_restore w30
	.cfi_restore w29
	ret
.Lfunc_end83:
	.size	tlsf_pools_words, .Lfunc_end83-tlsf_pools_words
	.cfi_endproc
	.section	.text.tlsf_post_close,"ax",@progbits
	.globl	tlsf_post_close
	.p2align	2
	.type	tlsf_post_close,@function
tlsf_post_close:
	.cfi_startproc
	ldrb	w8, [x0, #8]
	cbz	w8, .LBB84_4
	ldr	x8, [x0]
	ldrb	w9, [x8, #1]
	cmp	w9, #1
	b.ne	.LBB84_4
	ldrb	w9, [x8]
	cbz	w9, .LBB84_5
	mov	w0, #40
	ret
.LBB84_4:
	mov	w0, #32
	ret
.LBB84_5:
	sub	sp, sp, #128
	.cfi_def_cfa_offset 128
	stp	x29, x30, [sp, #96]
	str	x19, [sp, #112]
	add	x29, sp, #96
	.cfi_def_cfa w29, 32
	.cfi_offset w19, -16
	.cfi_offset w30, -24
	.cfi_offset w29, -32
	strb	wzr, [x8, #1]
	ldr	x8, [x0]
	stp	xzr, xzr, [x0]
	ldur	q0, [x8, #8]
	ldur	q1, [x8, #24]
	ldr	x9, [x8, #40]
	ldrh	w19, [x8]
	mov	x0, x8
	stur	q0, [sp, #8]
	stur	q1, [sp, #24]
	stur	x9, [sp, #40]
	bl	tlsf_memory_dealloc
	ldur	q0, [sp, #8]
	ldur	q1, [sp, #24]
	add	x0, sp, #48
	ldur	x8, [sp, #40]
	str	xzr, [sp, #48]
	strh	w19, [sp, #48]
	stur	q0, [sp, #56]
	stur	q1, [sp, #72]
	str	x8, [sp, #88]
	bl	"tlsf_c::tlsf_c++any_end++AnyEnd+Destruct::drop"
	mov	w0, wzr
	.cfi_def_cfa wsp, 128
	ldp	x29, x30, [sp, #96]
	ldr	x19, [sp, #112]
	add	sp, sp, #128
	.cfi_def_cfa_offset 0
	.cfi_restore w19
	.cfi_restore w30
	.cfi_restore w29
	ret
.Lfunc_end84:
	.size	tlsf_post_close, .Lfunc_end84-tlsf_post_close
	.cfi_endproc
	.section	.text.tlsf_poster_close,"ax",@progbits
	.globl	tlsf_poster_close
	.p2align	2
	.type	tlsf_poster_close,@function
tlsf_poster_close:
	.cfi_startproc
	ldrb	w8, [x0, #8]
	cbz	w8, .LBB85_4
	ldr	x8, [x0]
	ldrb	w9, [x8, #1]
	cmp	w9, #1
	b.ne	.LBB85_4
	ldrb	w9, [x8]
	cmp	w9, #3
	b.ne	.LBB85_5
	sub	sp, sp, #128
	.cfi_def_cfa_offset 128
	stp	x29, x30, [sp, #96]
	str	x19, [sp, #112]
	add	x29, sp, #96
	.cfi_def_cfa w29, 32
	.cfi_offset w19, -16
	.cfi_offset w30, -24
	.cfi_offset w29, -32
	strb	wzr, [x8, #1]
	ldr	x8, [x0]
	stp	xzr, xzr, [x0]
	ldur	q0, [x8, #8]
	ldur	q1, [x8, #24]
	ldr	x9, [x8, #40]
	ldrh	w19, [x8]
	mov	x0, x8
	stur	q0, [sp, #8]
	stur	q1, [sp, #24]
	stur	x9, [sp, #40]
	bl	tlsf_memory_dealloc
	ldur	q0, [sp, #8]
	ldur	q1, [sp, #24]
	add	x0, sp, #48
	ldur	x8, [sp, #40]
	str	xzr, [sp, #48]
	strh	w19, [sp, #48]
	stur	q0, [sp, #56]
	stur	q1, [sp, #72]
	str	x8, [sp, #88]
	bl	"tlsf_c::tlsf_c++any_end++AnyEnd+Destruct::drop"
	mov	w0, wzr
	.cfi_def_cfa wsp, 128
	ldp	x29, x30, [sp, #96]
	ldr	x19, [sp, #112]
	add	sp, sp, #128
	.cfi_def_cfa_offset 0
	.cfi_restore w19
	.cfi_restore w30
	.cfi_restore w29
	ret
.LBB85_4:
	mov	w0, #32
	ret
.LBB85_5:
	mov	w0, #40
	ret
.Lfunc_end85:
	.size	tlsf_poster_close, .Lfunc_end85-tlsf_poster_close
	.cfi_endproc
	.section	.text.tlsf_poster_open,"ax",@progbits
	.globl	tlsf_poster_open
	.p2align	2
	.type	tlsf_poster_open,@function
tlsf_poster_open:
	.cfi_startproc
	ldrb	w8, [x0, #8]
	cbz	w8, .LBB86_8
	ldr	x8, [x0]
	ldrb	w9, [x8, #1]
	tbz	w9, #0, .LBB86_8
	ldrb	w10, [x1, #8]
	ldrb	w9, [x8]
	cmp	w10, #1
	b.ne	.LBB86_4
	cmp	w9, #2
	mov	w8, #40
	mov	w9, #33
	csel	w0, w9, w8, eq
	ret
.LBB86_4:
	cmp	w9, #2
	b.ne	.LBB86_9
	ldr	x9, [x8, #32]
	strb	wzr, [x8, #1]
	cbz	x9, .LBB86_7
	sub	x9, x9, #1
	ldr	x10, [x8, #24]
	mov	w0, wzr
	str	x9, [x8, #32]
	mov	w11, #1
	ldr	x9, [x10, x9, lsl #3]
	strb	w11, [x8, #1]
	strb	w11, [x1, #8]
	stur	wzr, [x1, #9]
	str	x9, [x1]
	str	wzr, [x1, #12]
	ret
.LBB86_7:
	mov	w9, #1
	mov	w0, #35
	strb	w9, [x8, #1]
	ret
.LBB86_8:
	mov	w0, wzr
	b	"tlsf_c::call_fault::CallFault::refusal"
.LBB86_9:
	mov	w0, #2
	b	"tlsf_c::call_fault::CallFault::refusal"
.Lfunc_end86:
	.size	tlsf_poster_open, .Lfunc_end86-tlsf_poster_open
	.cfi_endproc
	.section	.text.tlsf_put,"ax",@progbits
	.globl	tlsf_put
	.p2align	2
	.type	tlsf_put,@function
tlsf_put:
	.cfi_startproc
	ldrb	w8, [x0, #8]
	cbz	w8, .LBB87_7
	ldr	x8, [x0]
	ldrb	w9, [x8, #1]
	tbz	w9, #0, .LBB87_7
	ldrb	w9, [x8]
	cbnz	w9, .LBB87_8
	ldp	x10, x12, [x8, #24]
	ldr	x9, [x8, #40]
	strb	wzr, [x8, #1]
	lsl	x11, x10, #1
	cmp	x12, x9
	add	x12, x12, x10
	sub	x12, x12, x9
	csel	x13, x11, xzr, hi
	cmp	x12, x13
	b.ne	.LBB87_6
	ldr	x9, [x8, #8]
	ldar	x12, [x9]
	ldr	x10, [x8, #24]
	ldr	x9, [x8, #40]
	str	x12, [x8, #32]
	lsl	x11, x10, #1
	cmp	x12, x9
	add	x13, x10, x12
	sub	x13, x13, x9
	csel	x14, x11, xzr, hi
	cmp	x13, x14
	b.ne	.LBB87_6
	mov	w9, #1
	mov	w0, #8
	strb	w9, [x8, #1]
	ret
.LBB87_6:
	sub	x11, x11, #1
	mov	w12, #24
	mov	w0, wzr
	cmp	x9, x11
	csinc	x11, xzr, x9, hs
	cmp	x9, x10
	csel	x10, xzr, x10, lo
	sub	x9, x9, x10
	ldr	x10, [x8, #16]
	madd	x9, x9, x12, x10
	stp	xzr, x1, [x9]
	str	x2, [x9, #16]
	ldr	x9, [x8, #8]
	add	x9, x9, #128
	stlr	x11, [x9]
	mov	w9, #1
	str	x11, [x8, #40]
	strb	w9, [x8, #1]
	ret
.LBB87_7:
	mov	w0, wzr
	b	"tlsf_c::call_fault::CallFault::refusal"
.LBB87_8:
	mov	w0, #2
	b	"tlsf_c::call_fault::CallFault::refusal"
.Lfunc_end87:
	.size	tlsf_put, .Lfunc_end87-tlsf_put
	.cfi_endproc
	.section	.text.tlsf_put_all,"ax",@progbits
	.globl	tlsf_put_all
	.p2align	2
	.type	tlsf_put_all,@function
tlsf_put_all:
	.cfi_startproc
	stp	x29, x30, [sp, #-96]!
	.cfi_def_cfa_offset 96
	stp	x28, x27, [sp, #16]
	stp	x26, x25, [sp, #32]
	stp	x24, x23, [sp, #48]
	stp	x22, x21, [sp, #64]
	stp	x20, x19, [sp, #80]
	mov	x29, sp
	.cfi_def_cfa w29, 96
	.cfi_offset w19, -8
	.cfi_offset w20, -16
	.cfi_offset w21, -24
	.cfi_offset w22, -32
	.cfi_offset w23, -40
	.cfi_offset w24, -48
	.cfi_offset w25, -56
	.cfi_offset w26, -64
	.cfi_offset w27, -72
	.cfi_offset w28, -80
	.cfi_offset w30, -88
	.cfi_offset w29, -96
	.cfi_remember_state
	sub	sp, sp, #816
	ldrb	w9, [x0, #8]
	cmp	x1, #0
	mov	w8, #4096
	csel	x8, x8, xzr, eq
	cbz	w9, .LBB88_18
	ldr	x23, [x0]
	ldrb	w9, [x23, #1]
	tbz	w9, #0, .LBB88_18
	ldrb	w9, [x23]
	cbnz	w9, .LBB88_19
	mov	x20, x2
	mov	x24, xzr
	str	x3, [sp]
	strb	wzr, [x23, #1]
	cbz	x2, .LBB88_17
	add	x9, sp, #40
	add	x8, x8, x1
	str	x20, [sp, #16]
	add	x9, x9, #16
	add	x8, x8, #8
	stp	x8, x9, [sp, #24]
.LBB88_5:
	sub	x8, x20, x24
	mov	w9, #32
	add	x0, sp, #40
	cmp	x8, #32
	mov	w1, wzr
	mov	w2, #768
	csel	x26, x8, x9, lo
	bl	tlsf_memory_set
	ldp	x8, x9, [sp, #24]
	mov	x10, x26
	add	x8, x8, x24, lsl #4
.LBB88_6:
	ldur	d0, [x8, #-8]
	ldr	x11, [x8], #16
	subs	x10, x10, #1
	stur	xzr, [x9, #-16]
	stur	d0, [x9, #-8]
	str	x11, [x9], #24
	b.ne	.LBB88_6
	ldp	x19, x8, [x23, #24]
	ldr	x28, [x23, #40]
	lsl	x9, x19, #1
	cmp	x8, x28
	add	x8, x8, x19
	sub	x8, x8, x28
	csneg	x9, xzr, x9, ls
	add	x8, x8, x9
	cmp	x8, x26
	b.hs	.LBB88_10
	ldr	x8, [x23, #8]
	ldar	x8, [x8]
	ldr	x19, [x23, #24]
	ldr	x28, [x23, #40]
	str	x8, [x23, #32]
	lsl	x9, x19, #1
	cmp	x8, x28
	add	x10, x19, x8
	sub	x10, x10, x28
	csneg	x9, xzr, x9, ls
	add	x9, x10, x9
	cmp	x9, x26
	csel	x27, x9, x26, lo
	cbnz	x9, .LBB88_11
	cmp	xzr, x26
	add	x24, xzr, x24
	str	x28, [x23, #40]
	b.hs	.LBB88_16
	b	.LBB88_17
.LBB88_10:
	mov	x27, x26
.LBB88_11:
	cmp	x28, x19
	ldp	x25, x21, [x23, #8]
	csel	x8, xzr, x19, lo
	sub	x9, x28, x8
	subs	x10, x19, x9
	cmp	x10, x27
	csel	x20, x10, x27, lo
	subs	x22, x19, x9
	add	x9, x20, x20, lsl #1
	lsl	x10, x9, #3
	b.eq	.LBB88_13
	mov	x9, #-24
	add	x1, sp, #40
	mov	x2, x10
	madd	x8, x8, x9, x21
	mov	w9, #24
	str	x26, [sp, #8]
	mov	x26, x10
	madd	x0, x28, x9, x8
	bl	tlsf_memory_cpy
	mov	x10, x26
	ldr	x26, [sp, #8]
.LBB88_13:
	cmp	x27, x22
	b.ls	.LBB88_15
	sub	x8, x27, x20
	mov	x0, x21
	add	x8, x8, x8, lsl #1
	lsl	x2, x8, #3
	add	x8, sp, #40
	add	x1, x8, x10
	bl	tlsf_memory_cpy
.LBB88_15:
	lsl	x8, x19, #1
	stp	x25, x21, [x23, #8]
	sub	x8, x8, x28
	cmp	x27, x8
	csneg	x8, x28, x8, lo
	add	x28, x8, x27
	add	x8, x25, #128
	stlr	x28, [x8]
	ldr	x20, [sp, #16]
	cmp	x27, x26
	add	x24, x27, x24
	str	x28, [x23, #40]
	b.lo	.LBB88_17
.LBB88_16:
	cmp	x24, x20
	b.lo	.LBB88_5
.LBB88_17:
	ldr	x8, [sp]
	mov	w0, wzr
	str	x24, [x8]
	mov	w8, #1
	strb	w8, [x23, #1]
	add	sp, sp, #816
	.cfi_def_cfa wsp, 96
	ldp	x20, x19, [sp, #80]
	ldp	x22, x21, [sp, #64]
	ldp	x24, x23, [sp, #48]
	ldp	x26, x25, [sp, #32]
	ldp	x28, x27, [sp, #16]
	ldp	x29, x30, [sp], #96
	.cfi_def_cfa_offset 0
	.cfi_restore w19
	.cfi_restore w20
	.cfi_restore w21
	.cfi_restore w22
	.cfi_restore w23
	.cfi_restore w24
	.cfi_restore w25
	.cfi_restore w26
	.cfi_restore w27
	.cfi_restore w28
	.cfi_restore w30
	.cfi_restore w29
	ret
.LBB88_18:
	.cfi_restore_state
	mov	w0, wzr
	b	.LBB88_20
.LBB88_19:
	mov	w0, #2
.LBB88_20:
	add	sp, sp, #816
	.cfi_def_cfa wsp, 96
	ldp	x20, x19, [sp, #80]
	ldp	x22, x21, [sp, #64]
	ldp	x24, x23, [sp, #48]
	ldp	x26, x25, [sp, #32]
	ldp	x28, x27, [sp, #16]
	ldp	x29, x30, [sp], #96
	.cfi_def_cfa_offset 0
	.cfi_restore w19
	.cfi_restore w20
	.cfi_restore w21
	.cfi_restore w22
	.cfi_restore w23
	.cfi_restore w24
	.cfi_restore w25
	.cfi_restore w26
	.cfi_restore w27
	.cfi_restore w28
	.cfi_restore w30
	.cfi_restore w29
	b	"tlsf_c::call_fault::CallFault::refusal"
.Lfunc_end88:
	.size	tlsf_put_all, .Lfunc_end88-tlsf_put_all
	.cfi_endproc
	.section	.text.tlsf_queue_close,"ax",@progbits
	.globl	tlsf_queue_close
	.p2align	2
	.type	tlsf_queue_close,@function
tlsf_queue_close:
	.cfi_startproc
	ldrb	w8, [x0, #8]
	cbz	w8, .LBB89_4
	ldr	x8, [x0]
	ldrb	w9, [x8, #1]
	cmp	w9, #1
	b.ne	.LBB89_4
	ldrb	w9, [x8]
	cmp	w9, #2
	b.ne	.LBB89_5
	sub	sp, sp, #128
	.cfi_def_cfa_offset 128
	stp	x29, x30, [sp, #96]
	str	x19, [sp, #112]
	add	x29, sp, #96
	.cfi_def_cfa w29, 32
	.cfi_offset w19, -16
	.cfi_offset w30, -24
	.cfi_offset w29, -32
	strb	wzr, [x8, #1]
	ldr	x8, [x0]
	stp	xzr, xzr, [x0]
	ldur	q0, [x8, #8]
	ldur	q1, [x8, #24]
	ldr	x9, [x8, #40]
	ldrh	w19, [x8]
	mov	x0, x8
	stur	q0, [sp, #8]
	stur	q1, [sp, #24]
	stur	x9, [sp, #40]
	bl	tlsf_memory_dealloc
	ldur	q0, [sp, #8]
	ldur	q1, [sp, #24]
	add	x0, sp, #48
	ldur	x8, [sp, #40]
	str	xzr, [sp, #48]
	strh	w19, [sp, #48]
	stur	q0, [sp, #56]
	stur	q1, [sp, #72]
	str	x8, [sp, #88]
	bl	"tlsf_c::tlsf_c++any_end++AnyEnd+Destruct::drop"
	mov	w0, wzr
	.cfi_def_cfa wsp, 128
	ldp	x29, x30, [sp, #96]
	ldr	x19, [sp, #112]
	add	sp, sp, #128
	.cfi_def_cfa_offset 0
	.cfi_restore w19
	.cfi_restore w30
	.cfi_restore w29
	ret
.LBB89_4:
	mov	w0, #32
	ret
.LBB89_5:
	mov	w0, #40
	ret
.Lfunc_end89:
	.size	tlsf_queue_close, .Lfunc_end89-tlsf_queue_close
	.cfi_endproc
	.section	.text.tlsf_queue_drain,"ax",@progbits
	.globl	tlsf_queue_drain
	.p2align	2
	.type	tlsf_queue_drain,@function
tlsf_queue_drain:
	.cfi_startproc
	sub	sp, sp, #96
	.cfi_def_cfa_offset 96
	stp	x29, x30, [sp, #32]
	str	x23, [sp, #48]
	stp	x22, x21, [sp, #64]
	stp	x20, x19, [sp, #80]
	add	x29, sp, #32
	.cfi_def_cfa w29, 64
	.cfi_offset w19, -8
	.cfi_offset w20, -16
	.cfi_offset w21, -24
	.cfi_offset w22, -32
	.cfi_offset w23, -48
	.cfi_offset w30, -56
	.cfi_offset w29, -64
	.cfi_remember_state
	ldrb	w8, [x0, #8]
	cbz	w8, .LBB90_10
	ldr	x8, [x0]
	mov	x21, x0
	ldrb	w8, [x8]
	cmp	w8, #1
	b.ne	.LBB90_10
	ldrb	w8, [x1, #8]
	cbz	w8, .LBB90_10
	ldr	x22, [x1]
	ldrb	w8, [x22, #1]
	tbz	w8, #0, .LBB90_10
	ldrb	w8, [x22]
	cmp	w8, #2
	b.ne	.LBB90_11
	mov	x19, x3
	mov	w20, w2
	mov	w23, wzr
	strb	wzr, [x22, #1]
	cbz	w2, .LBB90_9
.LBB90_6:
	movi	v0.2d, #0000000000000000
	mov	x0, sp
	add	x1, x22, #8
	stp	q0, q0, [sp]
	bl	"tlsf_c::queue_end::take_once"
	ldrb	w8, [sp]
	cbnz	w8, .LBB90_9
	ldp	w1, w3, [sp, #16]
	ldr	x2, [sp, #24]
	mov	x0, x21
	bl	"tlsf_c::heap_calls::release_named"
	add	w23, w23, #1
	cmp	w20, w23
	b.ne	.LBB90_6
	mov	w23, w20
.LBB90_9:
	mov	w8, #1
	str	w23, [x19]
	mov	w0, wzr
	strb	w8, [x22, #1]
	.cfi_def_cfa wsp, 96
	ldp	x20, x19, [sp, #80]
	ldr	x23, [sp, #48]
	ldp	x22, x21, [sp, #64]
	ldp	x29, x30, [sp, #32]
	add	sp, sp, #96
	.cfi_def_cfa_offset 0
	.cfi_restore w19
	.cfi_restore w20
	.cfi_restore w21
	.cfi_restore w22
	.cfi_restore w23
	.cfi_restore w30
	.cfi_restore w29
	ret
.LBB90_10:
	.cfi_restore_state
	.cfi_remember_state
	mov	w0, wzr
	.cfi_def_cfa wsp, 96
	ldp	x20, x19, [sp, #80]
	ldr	x23, [sp, #48]
	ldp	x22, x21, [sp, #64]
	ldp	x29, x30, [sp, #32]
	add	sp, sp, #96
	.cfi_def_cfa_offset 0
	.cfi_restore w19
	.cfi_restore w20
	.cfi_restore w21
	.cfi_restore w22
	.cfi_restore w23
	.cfi_restore w30
	.cfi_restore w29
	b	"tlsf_c::call_fault::CallFault::refusal"
.LBB90_11:
	.cfi_restore_state
	mov	w0, #2
	.cfi_def_cfa wsp, 96
	ldp	x20, x19, [sp, #80]
	ldr	x23, [sp, #48]
	ldp	x22, x21, [sp, #64]
	ldp	x29, x30, [sp, #32]
	add	sp, sp, #96
	.cfi_def_cfa_offset 0
	.cfi_restore w19
	.cfi_restore w20
	.cfi_restore w21
	.cfi_restore w22
	.cfi_restore w23
	.cfi_restore w30
	.cfi_restore w29
	b	"tlsf_c::call_fault::CallFault::refusal"
.Lfunc_end90:
	.size	tlsf_queue_drain, .Lfunc_end90-tlsf_queue_drain
	.cfi_endproc
	.section	.rodata.cst16,"aM",@progbits,16
	.p2align	4, 0x0
.LCPI91_0:
	.xword	0
	.xword	1
	.section	.text.tlsf_queue_open,"ax",@progbits
	.globl	tlsf_queue_open
	.p2align	2
	.type	tlsf_queue_open,@function
tlsf_queue_open:
	.cfi_startproc
	sub	sp, sp, #384
	.cfi_def_cfa_offset 384
	stp	x29, x30, [sp, #288]
	stp	x28, x27, [sp, #304]
	stp	x26, x25, [sp, #320]
	stp	x24, x23, [sp, #336]
	stp	x22, x21, [sp, #352]
	stp	x20, x19, [sp, #368]
	add	x29, sp, #288
	.cfi_def_cfa w29, 96
	.cfi_offset w19, -8
	.cfi_offset w20, -16
	.cfi_offset w21, -24
	.cfi_offset w22, -32
	.cfi_offset w23, -40
	.cfi_offset w24, -48
	.cfi_offset w25, -56
	.cfi_offset w26, -64
	.cfi_offset w27, -72
	.cfi_offset w28, -80
	.cfi_offset w30, -88
	.cfi_offset w29, -96
	.cfi_remember_state
	ldrb	w8, [x0, #8]
	stp	xzr, xzr, [sp, #8]
	str	xzr, [sp, #24]
	tbz	w8, #0, .LBB91_2
	mov	w0, #33
	b	.LBB91_42
.LBB91_2:
	mov	w8, #1024
	sub	w9, w8, w1
	sub	w8, w8, w2
	orr	w8, w8, w9
	cmp	w8, #1023
	b.hi	.LBB91_17
	mov	x23, x0
	ubfiz	x0, x1, #4, #32
	mov	x24, x1
	mov	w1, #8
	mov	w27, w2
	bl	tlsf_memory_alloc
	tbz	w0, #0, .LBB91_41
	mov	w26, w27
	mov	x21, x1
	stp	x1, xzr, [sp, #64]
	add	x9, x26, #48
	mov	w8, w24
	mov	w1, #8
	lsl	x20, x9, #3
	str	x8, [sp, #80]
	mov	x0, x20
	bl	tlsf_memory_alloc
	tbz	w0, #0, .LBB91_39
	mov	x19, x1
	sub	x2, x20, #8
	mov	x0, x1
	mov	w1, wzr
	bl	tlsf_memory_set
	mov	x8, xzr
	add	x9, x19, x20
	cmp	w27, #4
	stur	xzr, [x9, #-8]
	b.lo	.LBB91_9
	adrp	x8, .LCPI91_0
	add	x9, x19, #400
	and	x10, x26, #0x7ffffffc
	ldr	q0, [x8, :lo12:.LCPI91_0]
	and	x8, x26, #0x7ffffffc
.LBB91_7:
	mov	w11, #2
	subs	x10, x10, #4
	dup	v1.2d, x11
	mov	w11, #4
	dup	v2.2d, x11
	add	v1.2d, v0.2d, v1.2d
	stp	q0, q1, [x9, #-16]
	add	v0.2d, v0.2d, v2.2d
	add	x9, x9, #32
	b.ne	.LBB91_7
	cmp	x8, x26
	b.eq	.LBB91_11
.LBB91_9:
	add	x9, x19, #384
.LBB91_10:
	str	x8, [x9, x8, lsl #3]
	add	x8, x8, #1
	cmp	x26, x8
	b.ne	.LBB91_10
.LBB91_11:
	lsl	x0, x26, #5
	mov	w1, #8
	stp	xzr, xzr, [sp, #112]
	str	xzr, [sp, #128]
	bl	tlsf_memory_alloc
	tbz	w0, #0, .LBB91_31
	clz	x8, x26
	mov	w9, #1
	mov	x21, xzr
	neg	x8, x8
	sub	x22, x29, #128
	mov	x25, x26
	lsl	x8, x9, x8
	stp	x1, xzr, [x29, #-72]
	str	x8, [sp]
	sub	x8, x29, #24
	stp	x26, x8, [x29, #-56]
	b	.LBB91_14
.LBB91_13:
	add	x8, x1, x28, lsl #5
	add	x21, x28, #1
	subs	x25, x25, #1
	str	xzr, [x8]
	ldur	x9, [x29, #-112]
	ldr	q0, [x22]
	str	x9, [x8, #24]
	stur	q0, [x8, #8]
	stur	x21, [x29, #-64]
	b.eq	.LBB91_18
.LBB91_14:
	ldur	x8, [x29, #-56]
	ldr	q0, [sp, #112]
	mov	x28, x21
	ldr	x9, [sp, #128]
	cmp	x8, x21
	str	q0, [x22]
	stur	x9, [x29, #-112]
	b.ne	.LBB91_13
	sub	x0, x29, #72
	bl	"std_alloc::vec::Vec::grow_amortized::<#94730218a1e37034>"
	cbz	w0, .LBB91_69
	ldp	x1, x28, [x29, #-72]
	b	.LBB91_13
.LBB91_17:
	mov	w0, #5
	b	.LBB91_42
.LBB91_18:
	ldur	x22, [x29, #-72]
	ldur	x25, [x29, #-56]
	mov	x0, x20
	mov	w1, #8
	bl	tlsf_memory_alloc
	tbz	w0, #0, .LBB91_24
	lsl	x0, x21, #5
	mov	x20, x1
	tbnz	x0, #63, .LBB91_23
	mov	w1, #8
	bl	tlsf_memory_alloc
	tbz	w0, #0, .LBB91_23
	sub	x8, x20, x19
	cmp	x8, #32
	b.hs	.LBB91_43
	mov	x8, xzr
	b	.LBB91_46
.LBB91_23:
	mov	x0, x20
	bl	tlsf_memory_dealloc
.LBB91_24:
	lsl	x9, x28, #5
	add	x8, x28, #2
.LBB91_25:
	subs	x8, x8, #1
	b.eq	.LBB91_28
	ldrb	w10, [x22, x9]
	sub	x9, x9, #32
	cbz	w10, .LBB91_25
.LBB91_27:
	brk	#0x1
.LBB91_28:
	cbz	x25, .LBB91_31
	mov	x0, x22
.LBB91_30:
	bl	tlsf_memory_dealloc
.LBB91_31:
	mov	x0, x19
	bl	tlsf_memory_dealloc
	ldp	x21, x23, [sp, #64]
	ldr	x22, [sp, #80]
	cbz	x23, .LBB91_38
	mov	x24, xzr
	b	.LBB91_34
.LBB91_33:
	add	x24, x24, #1
	cmp	x24, x23
	b.eq	.LBB91_38
.LBB91_34:
	lsl	x8, x24, #4
	ldr	x0, [x21, x8]
.LBB91_35:
	ldaxr	x8, [x0]
	subs	x8, x8, #1
	stlxr	w9, x8, [x0]
	cbnz	w9, .LBB91_35
	b.ne	.LBB91_33
	ldr	x19, [x0, #40]
	ldr	x20, [x0, #56]
	bl	tlsf_memory_dealloc
	mov	x0, x19
	bl	tlsf_memory_dealloc
	mov	x0, x20
	bl	tlsf_memory_dealloc
	b	.LBB91_33
.LBB91_38:
	cbz	x22, .LBB91_41
.LBB91_39:
	mov	x0, x21
.LBB91_40:
	bl	tlsf_memory_dealloc
.LBB91_41:
	mov	w0, #6
.LBB91_42:
	.cfi_def_cfa wsp, 384
	ldp	x20, x19, [sp, #368]
	ldp	x22, x21, [sp, #352]
	ldp	x24, x23, [sp, #336]
	ldp	x26, x25, [sp, #320]
	ldp	x28, x27, [sp, #304]
	ldp	x29, x30, [sp, #288]
	add	sp, sp, #384
	.cfi_def_cfa_offset 0
	.cfi_restore w19
	.cfi_restore w20
	.cfi_restore w21
	.cfi_restore w22
	.cfi_restore w23
	.cfi_restore w24
	.cfi_restore w25
	.cfi_restore w26
	.cfi_restore w27
	.cfi_restore w28
	.cfi_restore w30
	.cfi_restore w29
	ret
.LBB91_43:
	.cfi_restore_state
	add	x11, x26, #48
	add	x9, x20, #16
	add	x10, x19, #16
	and	x8, x11, #0xfffffffc
	add	x12, x26, #48
	and	x11, x11, #0xfffffffc
.LBB91_44:
	ldp	q0, q1, [x10, #-16]
	subs	x11, x11, #4
	add	x10, x10, #32
	stp	q0, q1, [x9, #-16]
	add	x9, x9, #32
	b.ne	.LBB91_44
	cmp	x12, x8
	b.eq	.LBB91_48
.LBB91_46:
	lsl	x10, x8, #3
	sub	x8, x26, x8
	add	x8, x8, #48
	add	x9, x20, x10
	add	x10, x19, x10
.LBB91_47:
	ldr	x11, [x10], #8
	subs	x8, x8, #1
	str	x11, [x9], #8
	b.ne	.LBB91_47
.LBB91_48:
	cbz	x21, .LBB91_51
	lsl	x8, x28, #5
	add	x9, x1, x8
	add	x10, x22, x8
	add	x8, x9, #8
	add	x9, x10, #8
	mov	x10, x21
.LBB91_50:
	ldurb	w11, [x9, #-8]
	ldr	q0, [x9]
	sub	x10, x10, #1
	ldr	x12, [x9, #16]
	sub	x9, x9, #32
	stur	x11, [x8, #-8]
	str	q0, [x8]
	str	x12, [x8, #16]
	sub	x8, x8, #32
	cbnz	x10, .LBB91_50
.LBB91_51:
	mov	x28, x1
	cbz	x25, .LBB91_53
	mov	x0, x22
	bl	tlsf_memory_dealloc
.LBB91_53:
	mov	x0, x19
	bl	tlsf_memory_dealloc
	mov	x8, x24
	add	w8, w8, #1
.LBB91_54:
	subs	w8, w8, #1
	ldar	xzr, [x20]
	b.ne	.LBB91_54
	add	x22, x26, #48
.LBB91_56:
	subs	w27, w27, #1
	ldar	xzr, [x20]
	b.ne	.LBB91_56
	mov	w0, #88
	mov	w1, #8
	bl	tlsf_memory_alloc
	tbz	w0, #0, .LBB91_60
	mov	w8, #1
	stp	x28, x22, [x1, #16]
	mov	x19, x1
	stp	x8, x20, [x1]
	ldr	x8, [sp]
	add	w2, w24, #1
	stp	x21, x20, [x1, #32]
	add	x3, sp, #64
	mov	x0, x1
	stp	x22, x28, [x1, #48]
	stp	x21, x26, [x1, #64]
	str	x8, [x1, #80]
	mov	w1, #1
	ldar	xzr, [x20]
	bl	"tlsf_post::mailboxes::send_out"
	tst	w0, #0xff
	b.eq	.LBB91_73
	mov	x0, x19
	bl	"std_alloc::arc::Arc::drop::<#f29941b0e8355977>"
	add	x0, sp, #64
	bl	"std_alloc::vec::Vec::drop::<#05316b64237a7125>"
	b	.LBB91_41
.LBB91_60:
	mov	x0, x20
	bl	tlsf_memory_dealloc
	mov	x0, x28
	bl	tlsf_memory_dealloc
	ldp	x19, x22, [sp, #64]
	ldr	x23, [sp, #80]
	cbz	x22, .LBB91_67
	mov	x24, xzr
	b	.LBB91_63
.LBB91_62:
	add	x24, x24, #1
	cmp	x24, x22
	b.eq	.LBB91_67
.LBB91_63:
	lsl	x8, x24, #4
	ldr	x0, [x19, x8]
.LBB91_64:
	ldaxr	x8, [x0]
	subs	x8, x8, #1
	stlxr	w9, x8, [x0]
	cbnz	w9, .LBB91_64
	b.ne	.LBB91_62
	ldr	x20, [x0, #40]
	ldr	x21, [x0, #56]
	bl	tlsf_memory_dealloc
	mov	x0, x20
	bl	tlsf_memory_dealloc
	mov	x0, x21
	bl	tlsf_memory_dealloc
	b	.LBB91_62
.LBB91_67:
	cbz	x23, .LBB91_41
	mov	x0, x19
	b	.LBB91_40
.LBB91_69:
	ldp	x0, x9, [x29, #-72]
	ldur	x8, [x29, #-56]
	lsl	x10, x9, #5
	add	x9, x9, #1
	sub	x10, x10, #32
.LBB91_70:
	subs	x9, x9, #1
	b.eq	.LBB91_72
	ldrb	w11, [x0, x10]
	sub	x10, x10, #32
	cbz	w11, .LBB91_70
	b	.LBB91_27
.LBB91_72:
	cbnz	x8, .LBB91_30
	b	.LBB91_31
.LBB91_73:
	movi	v0.2d, #0000000000000000
	ldp	x21, x24, [sp, #64]
	ldr	x25, [sp, #80]
	str	xzr, [sp, #144]
	str	xzr, [sp, #96]
	stp	q0, q0, [sp, #64]
	stp	q0, q0, [sp, #112]
	cbz	x24, .LBB91_88
	lsr	x8, x24, #60
	cbnz	x8, .LBB91_80
	lsl	x0, x24, #3
	mov	w1, #8
	bl	tlsf_memory_alloc
	tbz	w0, #0, .LBB91_80
	mov	x20, x1
	mov	x26, xzr
	add	x28, x21, #8
	str	x25, [sp]
.LBB91_77:
	ldur	x22, [x28, #-8]
	ldr	w25, [x28], #16
	mov	w0, #48
	mov	w1, #8
	add	x27, x26, #1
	bl	tlsf_memory_alloc
	tbz	w0, #0, .LBB91_92
	mov	w8, #259
	stp	x22, x25, [x1, #8]
	cmp	x24, x27
	strh	w8, [x1]
	stp	xzr, xzr, [x1, #32]
	str	xzr, [x1, #24]
	str	x1, [x20, x26, lsl #3]
	mov	x26, x27
	b.ne	.LBB91_77
	ldr	x25, [sp]
	b	.LBB91_89
.LBB91_80:
	mov	x23, xzr
	b	.LBB91_82
.LBB91_81:
	add	x23, x23, #1
	cmp	x23, x24
	b.eq	.LBB91_86
.LBB91_82:
	lsl	x8, x23, #4
	ldr	x0, [x21, x8]
.LBB91_83:
	ldaxr	x8, [x0]
	subs	x8, x8, #1
	stlxr	w9, x8, [x0]
	cbnz	w9, .LBB91_83
	b.ne	.LBB91_81
	ldr	x20, [x0, #40]
	ldr	x22, [x0, #56]
	bl	tlsf_memory_dealloc
	mov	x0, x20
	bl	tlsf_memory_dealloc
	mov	x0, x22
	bl	tlsf_memory_dealloc
	b	.LBB91_81
.LBB91_86:
	cbz	x25, .LBB91_101
	mov	x0, x21
	b	.LBB91_100
.LBB91_88:
	sub	x20, x29, #24
.LBB91_89:
	add	x0, sp, #64
	stp	x21, xzr, [sp, #64]
	stp	x25, x24, [sp, #80]
	str	xzr, [sp, #96]
	bl	"std_alloc::vec::deque::VecDeque::drop::<#ca3d8856d46a41b8>"
	mov	w0, #48
	mov	w1, #8
	bl	tlsf_memory_alloc
	tbz	w0, #0, .LBB91_91
	mov	w8, #258
	mov	w0, wzr
	stp	x19, xzr, [x1, #8]
	strh	w8, [x1]
	mov	w8, #1
	stp	x20, x24, [x1, #24]
	str	x24, [x1, #40]
	str	x1, [x23]
	strb	w8, [x23, #8]
	stur	wzr, [x23, #9]
	str	wzr, [x23, #12]
	b	.LBB91_42
.LBB91_91:
	mov	x0, x19
	bl	"std_alloc::arc::Arc::drop::<#c4a047e811255370>"
	add	x0, sp, #8
	stp	x20, x24, [sp, #8]
	str	x24, [sp, #24]
	bl	"std_alloc::vec::Vec::drop::<#7ac45d8413b9ad54>"
	b	.LBB91_41
.LBB91_92:
	mvn	x8, x26
	add	x28, x8, x24
.LBB91_93:
	ldaxr	x8, [x22]
	subs	x8, x8, #1
	stlxr	w9, x8, [x22]
	cbnz	w9, .LBB91_93
	b.ne	.LBB91_96
	ldr	x23, [x22, #40]
	ldr	x24, [x22, #56]
	mov	x0, x22
	bl	tlsf_memory_dealloc
	mov	x0, x23
	bl	tlsf_memory_dealloc
	mov	x0, x24
	bl	tlsf_memory_dealloc
.LBB91_96:
	ldr	x8, [sp]
	add	x0, sp, #112
	stp	x21, x28, [sp, #112]
	str	xzr, [sp, #144]
	stp	x8, x27, [sp, #128]
	bl	"std_alloc::vec::deque::VecDeque::drop::<#ca3d8856d46a41b8>"
	cbz	x26, .LBB91_99
	mov	x21, xzr
	sub	x22, x29, #128
	sub	x23, x29, #72
.LBB91_98:
	ldr	x0, [x20, x21, lsl #3]
	ldur	q0, [x0, #8]
	ldur	q1, [x0, #24]
	ldr	x8, [x0, #40]
	ldrh	w24, [x0]
	stur	q0, [x22, #6]
	stur	q1, [x22, #22]
	stur	x8, [x22, #38]
	bl	tlsf_memory_dealloc
	ldur	q0, [x22, #6]
	ldur	q1, [x22, #22]
	sub	x0, x29, #72
	ldur	x8, [x22, #38]
	stur	xzr, [x29, #-72]
	sturh	w24, [x29, #-72]
	stur	q0, [x23, #8]
	stur	q1, [x23, #24]
	stur	x8, [x23, #40]
	bl	"tlsf_c::tlsf_c++any_end++AnyEnd+Destruct::drop"
	add	x21, x21, #1
	cmp	x26, x21
	b.ne	.LBB91_98
.LBB91_99:
	mov	x0, x20
.LBB91_100:
	bl	tlsf_memory_dealloc
.LBB91_101:
.LBB91_102:
	ldaxr	x8, [x19]
	sub	x9, x8, #1
	stlxr	w10, x9, [x19]
	cbnz	w10, .LBB91_102
	cmp	x8, #1
	b.ne	.LBB91_41
	ldr	x20, [x19, #40]
	ldr	x21, [x19, #56]
	mov	x0, x19
	bl	tlsf_memory_dealloc
	mov	x0, x20
	bl	tlsf_memory_dealloc
	b	.LBB91_39
.Lfunc_end91:
	.size	tlsf_queue_open, .Lfunc_end91-tlsf_queue_open
	.cfi_endproc
	.section	.text.tlsf_queue_post,"ax",@progbits
	.globl	tlsf_queue_post
	.p2align	2
	.type	tlsf_queue_post,@function
tlsf_queue_post:
	.cfi_startproc
	ldrb	w8, [x0, #8]
	cbz	w8, .LBB92_13
	ldr	x8, [x0]
	ldrb	w9, [x8, #1]
	tbz	w9, #0, .LBB92_13
	ldrb	w9, [x8]
	cmp	w9, #3
	b.ne	.LBB92_14
	ldr	x9, [x8, #8]
	strb	wzr, [x8, #1]
	ldr	w12, [x8, #16]
	ldr	x10, [x9, #8]
	add	x10, x10, #128
	ldar	x10, [x10]
	ldr	x11, [x9, #80]
	ldr	x14, [x9, #8]
	lsr	x15, x10, #62
	sub	x11, x11, #1
	and	x13, x11, x10
	cmp	x15, #2
	lsl	x11, x13, #3
	add	x14, x14, x11
	add	x14, x14, #384
	ldar	x14, [x14]
	ccmp	x14, x10, #0, ls
	b.eq	.LBB92_5
.LBB92_4:
	ldr	x9, [x8, #8]
	ldr	x10, [x9, #8]
	add	x10, x10, #128
	ldar	x10, [x10]
	ldr	x11, [x9, #8]
	add	x11, x11, #256
	ldar	x11, [x11]
	ldr	x9, [x9, #80]
	subs	x9, x10, x9
	mov	w10, #37
	ccmp	x11, x9, #0, hs
	mov	w11, #8
	mov	w9, #1
	csel	w0, w11, w10, eq
	strb	w9, [x8, #1]
	ret
.LBB92_5:
	ldr	x14, [x9, #72]
	add	x15, x13, #1
	cmp	x15, x14
	b.hs	.LBB92_7
	add	x14, x10, #1
	b	.LBB92_8
.LBB92_7:
	ldr	x14, [x9, #80]
	sub	x15, x10, x13
	add	x14, x15, x14
.LBB92_8:
	ldr	x15, [x9, #8]
	add	x15, x15, #128
.LBB92_9:
	ldaxr	x16, [x15]
	cmp	x16, x10
	b.ne	.LBB92_15
	stlxr	w16, x14, [x15]
	cbnz	w16, .LBB92_9
	ldr	x14, [x9, #16]
	add	x14, x14, x13, lsl #5
	mov	w13, #1
	ldrb	w15, [x14]
	str	x13, [x14]
	stp	w12, wzr, [x14, #8]
	stp	x1, x2, [x14, #16]
	cbnz	w15, .LBB92_16
	ldr	x9, [x9, #8]
	add	x10, x10, #1
	mov	w0, wzr
	add	x9, x9, x11
	add	x9, x9, #384
	stlr	x10, [x9]
	strb	w13, [x8, #1]
	ret
.LBB92_13:
	mov	w0, wzr
	b	"tlsf_c::call_fault::CallFault::refusal"
.LBB92_14:
	mov	w0, #2
	b	"tlsf_c::call_fault::CallFault::refusal"
.LBB92_15:
	clrex
	b	.LBB92_4
.LBB92_16:
	brk	#0x1
.Lfunc_end92:
	.size	tlsf_queue_post, .Lfunc_end92-tlsf_queue_post
	.cfi_endproc
	.section	.text.tlsf_queue_take,"ax",@progbits
	.globl	tlsf_queue_take
	.p2align	2
	.type	tlsf_queue_take,@function
tlsf_queue_take:
	.cfi_startproc
	sub	sp, sp, #64
	.cfi_def_cfa_offset 64
	stp	x29, x30, [sp, #32]
	stp	x20, x19, [sp, #48]
	add	x29, sp, #32
	.cfi_def_cfa w29, 32
	.cfi_offset w19, -8
	.cfi_offset w20, -16
	.cfi_offset w30, -24
	.cfi_offset w29, -32
	.cfi_remember_state
	ldrb	w8, [x0, #8]
	cbz	w8, .LBB93_6
	ldr	x20, [x0]
	ldrb	w8, [x20, #1]
	tbz	w8, #0, .LBB93_6
	ldrb	w8, [x20]
	cmp	w8, #2
	b.ne	.LBB93_7
	movi	v0.2d, #0000000000000000
	mov	x19, x1
	mov	x0, sp
	add	x1, x20, #8
	strb	wzr, [x20, #1]
	stp	q0, q0, [sp]
	bl	"tlsf_c::queue_end::take_once"
	ldrb	w8, [sp]
	cbz	w8, .LBB93_5
	ldrb	w8, [sp, #1]
	adrp	x9, .Lswitch.table.tlsf_queue_take
	add	x9, x9, :lo12:.Lswitch.table.tlsf_queue_take
	ldr	w0, [x9, x8, lsl #2]
	mov	w8, #1
	strb	w8, [x20, #1]
	.cfi_def_cfa wsp, 64
	ldp	x20, x19, [sp, #48]
	ldp	x29, x30, [sp, #32]
	add	sp, sp, #64
	.cfi_def_cfa_offset 0
	.cfi_restore w19
	.cfi_restore w20
	.cfi_restore w30
	.cfi_restore w29
	ret
.LBB93_5:
	.cfi_restore_state
	.cfi_remember_state
	ldr	d0, [sp, #16]
	ldr	x8, [sp, #24]
	mov	w0, wzr
	str	d0, [x19]
	str	x8, [x19, #8]
	mov	w8, #1
	strb	w8, [x20, #1]
	.cfi_def_cfa wsp, 64
	ldp	x20, x19, [sp, #48]
	ldp	x29, x30, [sp, #32]
	add	sp, sp, #64
	.cfi_def_cfa_offset 0
	.cfi_restore w19
	.cfi_restore w20
	.cfi_restore w30
	.cfi_restore w29
	ret
.LBB93_6:
	.cfi_restore_state
	.cfi_remember_state
	mov	w0, wzr
	.cfi_def_cfa wsp, 64
	ldp	x20, x19, [sp, #48]
	ldp	x29, x30, [sp, #32]
	add	sp, sp, #64
	.cfi_def_cfa_offset 0
	.cfi_restore w19
	.cfi_restore w20
	.cfi_restore w30
	.cfi_restore w29
	b	"tlsf_c::call_fault::CallFault::refusal"
.LBB93_7:
	.cfi_restore_state
	mov	w0, #2
	.cfi_def_cfa wsp, 64
	ldp	x20, x19, [sp, #48]
	ldp	x29, x30, [sp, #32]
	add	sp, sp, #64
	.cfi_def_cfa_offset 0
	.cfi_restore w19
	.cfi_restore w20
	.cfi_restore w30
	.cfi_restore w29
	b	"tlsf_c::call_fault::CallFault::refusal"
.Lfunc_end93:
	.size	tlsf_queue_take, .Lfunc_end93-tlsf_queue_take
	.cfi_endproc
	.section	.text.tlsf_read,"ax",@progbits
	.globl	tlsf_read
	.p2align	2
	.type	tlsf_read,@function
tlsf_read:
	.cfi_startproc
	ldrb	w8, [x0, #8]
	cmp	x4, #0
	mov	w9, #4096
	csel	x10, x9, xzr, eq
	cbz	w8, .LBB94_11
	stp	x29, x30, [sp, #-32]!
	.cfi_def_cfa_offset 32
	str	x19, [sp, #16]
	mov	x29, sp
	.cfi_def_cfa w29, 32
	.cfi_offset w19, -16
	.cfi_offset w30, -24
	.cfi_offset w29, -32
	.cfi_remember_state
	ldr	x19, [x0]
	ldrb	w8, [x19]
	cmp	w8, #1
	b.ne	.LBB94_12
	ldr	w9, [x19, #24]
	ldrb	w11, [x19, #16]
	lsr	x8, x1, #32
	strb	wzr, [x19]
	cmp	w9, w1
	cbz	w11, .LBB94_13
	b.ne	.LBB94_22
	ldr	w9, [x19, #56]
	cmp	w8, w9
	b.hs	.LBB94_20
	lsr	x9, x1, #35
	ldr	x11, [x19, #72]
	and	x9, x9, #0x1ffffff8
	ldr	x9, [x11, x9]
	lsr	x9, x9, x8
	tbz	w9, #0, .LBB94_20
	ldur	x9, [x19, #48]
	add	x9, x9, x8, lsl #3
	ldr	x11, [x9]
	tbnz	w11, #0, .LBB94_20
	ldr	x11, [x9, #8]
	cmp	x11, x2
	b.ne	.LBB94_20
	ldr	w9, [x9, #16]
	add	x11, x5, w3, uxtw
	cmp	x11, x9
	b.hi	.LBB94_19
	add	x0, x19, #48
	mov	w2, w3
	add	x3, x4, x10
	mov	w1, w8
	mov	x4, x5
	bl	"tlsf_heap::region::Region::read::<=5>"
	mov	w0, wzr
.LBB94_10:
	mov	w0, wzr
	mov	w8, #1
	strb	w8, [x19]
	.cfi_def_cfa wsp, 32
	ldr	x19, [sp, #16]
	ldp	x29, x30, [sp], #32
	.cfi_def_cfa_offset 0
	.cfi_restore w19
	.cfi_restore w30
	.cfi_restore w29
	ret
.LBB94_11:
	mov	w0, #32
	ret
.LBB94_12:
	.cfi_restore_state
	.cfi_remember_state
	mov	w0, #32
	.cfi_def_cfa wsp, 32
	ldr	x19, [sp, #16]
	ldp	x29, x30, [sp], #32
	.cfi_def_cfa_offset 0
	.cfi_restore w19
	.cfi_restore w30
	.cfi_restore w29
	ret
.LBB94_13:
	.cfi_restore_state
	b.ne	.LBB94_22
	ldr	w9, [x19, #56]
	cmp	w8, w9
	b.hs	.LBB94_20
	lsr	x9, x1, #35
	ldr	x11, [x19, #72]
	and	x9, x9, #0x1ffffff8
	ldr	x9, [x11, x9]
	lsr	x9, x9, x8
	tbz	w9, #0, .LBB94_20
	ldur	x9, [x19, #48]
	add	x9, x9, x8, lsl #3
	ldr	x11, [x9]
	tbnz	w11, #0, .LBB94_20
	ldr	x11, [x9, #8]
	cmp	x11, x2
	b.ne	.LBB94_20
	ldr	w9, [x9, #16]
	add	x11, x5, w3, uxtw
	cmp	x11, x9
	b.ls	.LBB94_21
.LBB94_19:
	mov	w0, #4
	mov	w8, #1
	tbz	w8, #0, .LBB94_10
	b	.LBB94_23
.LBB94_20:
	mov	w0, w1
	bl	"tlsf_heap::refusal::Refusal::of_name"
	mov	w8, #1
	tbz	w8, #0, .LBB94_10
	b	.LBB94_23
.LBB94_21:
	add	x0, x19, #48
	mov	w2, w3
	add	x3, x4, x10
	mov	w1, w8
	mov	x4, x5
	bl	"tlsf_heap::region::Region::read::<=4>"
	mov	w0, wzr
	b	.LBB94_10
.LBB94_22:
	mov	w0, w1
	mov	w1, w9
	bl	"tlsf_heap::refusal::Refusal::of_name"
	mov	w8, #1
	tbz	w8, #0, .LBB94_10
.LBB94_23:
	and	x8, x0, #0xff
	adrp	x9, .Lswitch.table.tlsf_write
	add	x9, x9, :lo12:.Lswitch.table.tlsf_write
	ldr	w0, [x9, x8, lsl #2]
	mov	w8, #1
	strb	w8, [x19]
	.cfi_def_cfa wsp, 32
	ldr	x19, [sp, #16]
	ldp	x29, x30, [sp], #32
	.cfi_def_cfa_offset 0
	.cfi_restore w19
	.cfi_restore w30
	.cfi_restore w29
	ret
.Lfunc_end94:
	.size	tlsf_read, .Lfunc_end94-tlsf_read
	.cfi_endproc
	.section	.text.tlsf_reallocate,"ax",@progbits
	.globl	tlsf_reallocate
	.p2align	2
	.type	tlsf_reallocate,@function
tlsf_reallocate:
	.cfi_startproc
	ldrb	w8, [x0, #8]
	cbz	w8, .LBB95_17
	sub	sp, sp, #176
	.cfi_def_cfa_offset 176
	stp	x29, x30, [sp, #80]
	stp	x28, x27, [sp, #96]
	stp	x26, x25, [sp, #112]
	stp	x24, x23, [sp, #128]
	stp	x22, x21, [sp, #144]
	stp	x20, x19, [sp, #160]
	add	x29, sp, #80
	.cfi_def_cfa w29, 96
	.cfi_offset w19, -8
	.cfi_offset w20, -16
	.cfi_offset w21, -24
	.cfi_offset w22, -32
	.cfi_offset w23, -40
	.cfi_offset w24, -48
	.cfi_offset w25, -56
	.cfi_offset w26, -64
	.cfi_offset w27, -72
	.cfi_offset w28, -80
	.cfi_offset w30, -88
	.cfi_offset w29, -96
	.cfi_remember_state
	ldr	x24, [x0]
	ldrb	w8, [x24]
	cmp	w8, #1
	b.ne	.LBB95_18
	strb	wzr, [x24]
	mov	x21, x24
	mov	w9, #-1
	ldp	w20, w19, [x1]
	ldr	w8, [x21, #24]!
	ldrb	w10, [x24, #16]
	cmp	x2, x9
	ldr	x26, [x1, #8]
	csel	x25, x2, x9, lo
	cmp	w20, w8
	cbz	w10, .LBB95_19
	b.ne	.LBB95_64
	ldr	w8, [x24, #56]
	cmp	w19, w8
	b.hs	.LBB95_40
	lsr	x8, x19, #3
	ldr	x9, [x24, #72]
	and	x8, x8, #0x1ffffff8
	ldr	x8, [x9, x8]
	lsr	x8, x8, x19
	tbz	w8, #0, .LBB95_40
	ldur	x8, [x24, #48]
	lsl	x28, x19, #3
	add	x10, x8, x28
	ldr	x23, [x10]
	tbnz	w23, #0, .LBB95_40
	ldr	x9, [x10, #8]
	cmp	x9, x26
	b.ne	.LBB95_40
	cmp	x2, #0
	lsr	w27, w23, #2
	cinc	x9, x25, eq
	cset	w14, eq
	add	x9, x9, #31
	lsr	x22, x9, #3
	cmp	w27, w22
	b.hs	.LBB95_32
	tbnz	w23, #1, .LBB95_11
	add	w10, w27, w19
	ldr	x3, [x8, w10, uxtw #3]
	tbnz	w3, #0, .LBB95_12
.LBB95_11:
	mov	x3, xzr
.LBB95_12:
	add	w10, w27, w3, lsr #2
	cmp	w10, w22
	b.hs	.LBB95_51
	stur	x26, [x29, #-24]
	ldr	x26, [x24, #32]
	stp	w20, w19, [x29, #-32]
	cmn	x26, #3
	b.hi	.LBB95_63
	mov	w10, #7
	movk	w10, #2048, lsl #16
	cmp	x9, x10
	b.hi	.LBB95_31
	orr	w9, w22, #0x20
	mov	w10, #26
	clz	w9, w9
	sub	w9, w10, w9
	sub	w10, w22, #1
	lsr	w12, w10, w9
	add	w9, w12, w9, lsl #5
	add	w9, w9, #1
	sub	x10, x9, #1
	add	x9, x24, #108
	lsr	x11, x10, #5
	ldr	w13, [x9, x11, lsl #2]
	lsr	w12, w13, w12
	ands	w12, w12, #0xfffffffe
	b.eq	.LBB95_68
	rbit	w11, w12
	clz	w11, w11
	add	x11, x10, x11
	b	.LBB95_70
.LBB95_17:
	.cfi_def_cfa wsp, 0
	.cfi_same_value w19
	.cfi_same_value w20
	.cfi_same_value w21
	.cfi_same_value w22
	.cfi_same_value w23
	.cfi_same_value w24
	.cfi_same_value w25
	.cfi_same_value w26
	.cfi_same_value w27
	.cfi_same_value w28
	.cfi_same_value w30
	.cfi_same_value w29
	mov	w0, #32
	ret
.LBB95_18:
	.cfi_restore_state
	mov	w0, #32
	b	.LBB95_116
.LBB95_19:
	b.ne	.LBB95_64
	ldr	w8, [x24, #56]
	cmp	w19, w8
	b.hs	.LBB95_40
	lsr	x8, x19, #3
	ldr	x9, [x24, #72]
	and	x8, x8, #0x1ffffff8
	ldr	x8, [x9, x8]
	lsr	x8, x8, x19
	tbz	w8, #0, .LBB95_40
	ldur	x8, [x24, #48]
	lsl	x28, x19, #3
	add	x10, x8, x28
	ldr	x23, [x10]
	tbnz	w23, #0, .LBB95_40
	ldr	x9, [x10, #8]
	cmp	x9, x26
	b.ne	.LBB95_40
	cmp	x2, #0
	lsr	w27, w23, #2
	cinc	x9, x25, eq
	cset	w14, eq
	add	x9, x9, #31
	lsr	x22, x9, #3
	cmp	w27, w22
	b.hs	.LBB95_41
	tbnz	w23, #1, .LBB95_27
	add	w10, w27, w19
	ldr	x3, [x8, w10, uxtw #3]
	tbnz	w3, #0, .LBB95_28
.LBB95_27:
	mov	x3, xzr
.LBB95_28:
	add	w10, w27, w3, lsr #2
	cmp	w10, w22
	b.hs	.LBB95_53
	stur	x26, [x29, #-24]
	ldr	x26, [x24, #32]
	stp	w20, w19, [x29, #-32]
	cmn	x26, #3
	b.hi	.LBB95_63
	mov	w10, #7
	movk	w10, #128, lsl #16
	cmp	x9, x10
	b.ls	.LBB95_66
.LBB95_31:
	ldp	w8, w9, [x24, #8]
	mov	w0, #1
	strb	w0, [x24]
	adds	w8, w8, #1
	csinv	w8, w8, wzr, lo
	cmp	w25, w9
	csel	w9, w25, w9, hi
	stp	w8, w9, [x24, #8]
	b	.LBB95_116
.LBB95_32:
	ldr	x21, [x24, #32]
	cmn	x21, #1
	b.eq	.LBB95_63
	str	x26, [sp, #40]
	ldr	x26, [x10, #16]
	str	x25, [x10, #16]
	cmp	w25, w26
	b.ls	.LBB95_38
	ands	w9, w26, #0x7
	b.eq	.LBB95_36
	str	w9, [sp, #32]
	mov	w9, w26
	ldur	x11, [x24, #48]
	add	x8, x28, x9
	adrp	x10, .Lstatic.0
	add	x10, x10, :lo12:.Lstatic.0
	add	x8, x8, #24
	stp	x11, x25, [sp]
	and	x12, x9, #0x7
	and	x8, x8, #0x1ffffffff8
	mov	w13, #8
	mov	x25, x0
	stp	x1, x8, [sp, #16]
	ldr	x11, [x11, x8]
	sub	x8, x29, #32
	bfxil	x8, x9, #0, #3
	sub	x2, x13, x12
	add	x1, x10, x12
	stur	x11, [x29, #-32]
	mov	x28, x14
	mov	x0, x8
	bl	tlsf_memory_cpy
	mov	x0, x25
	ldp	x25, x1, [sp, #8]
	ldr	w9, [sp, #32]
	ldr	x10, [sp, #24]
	mov	x14, x28
	ldr	x11, [sp]
	ldur	x8, [x29, #-32]
	str	x8, [x11, x10]
.LBB95_36:
	lsr	w8, w26, #3
	cmp	w9, #0
	lsr	w9, w25, #3
	cinc	w8, w8, ne
	tst	w25, #0x7
	cinc	w9, w9, ne
	subs	w9, w9, w8
	b.eq	.LBB95_38
	ldur	x10, [x24, #48]
	add	w8, w19, w8
	ubfiz	x2, x9, #3, #32
	add	w8, w8, #3
	str	x0, [sp, #32]
	mov	x28, x1
	add	x8, x10, w8, uxtw #3
	mov	w1, wzr
	mov	x26, x14
	mov	x0, x8
	bl	tlsf_memory_set
	ldr	x0, [sp, #32]
	mov	x14, x26
	mov	x1, x28
.LBB95_38:
	add	w8, w22, #4
	cmp	w27, w8
	mov	w8, w27
	b.lo	.LBB95_50
	mov	x26, x0
	add	x0, x24, #48
	mov	x28, x1
	mov	w1, w19
	mov	x2, x23
	mov	w3, w22
	mov	x4, x21
	mov	x21, x14
	bl	"tlsf_heap::refitting::split_off::<=5>"
	b	.LBB95_49
.LBB95_40:
	mov	w0, w20
	mov	w1, w20
	b	.LBB95_65
.LBB95_41:
	ldr	x21, [x24, #32]
	cmn	x21, #1
	b.eq	.LBB95_63
	str	x26, [sp, #40]
	ldr	x26, [x10, #16]
	str	x25, [x10, #16]
	cmp	w25, w26
	b.ls	.LBB95_47
	ands	w9, w26, #0x7
	b.eq	.LBB95_45
	str	w9, [sp, #32]
	mov	w9, w26
	ldur	x11, [x24, #48]
	add	x8, x28, x9
	adrp	x10, .Lstatic.0
	add	x10, x10, :lo12:.Lstatic.0
	add	x8, x8, #24
	stp	x11, x25, [sp]
	and	x12, x9, #0x7
	and	x8, x8, #0x1ffffffff8
	mov	w13, #8
	mov	x28, x0
	stp	x1, x8, [sp, #16]
	ldr	x11, [x11, x8]
	sub	x8, x29, #32
	bfxil	x8, x9, #0, #3
	sub	x2, x13, x12
	add	x1, x10, x12
	stur	x11, [x29, #-32]
	mov	x25, x14
	mov	x0, x8
	bl	tlsf_memory_cpy
	mov	x14, x25
	ldp	x1, x10, [sp, #16]
	ldp	x11, x25, [sp]
	mov	x0, x28
	ldr	w9, [sp, #32]
	ldur	x8, [x29, #-32]
	str	x8, [x11, x10]
.LBB95_45:
	lsr	w8, w26, #3
	cmp	w9, #0
	lsr	w9, w25, #3
	cinc	w8, w8, ne
	tst	w25, #0x7
	cinc	w9, w9, ne
	subs	w9, w9, w8
	b.eq	.LBB95_47
	ldur	x10, [x24, #48]
	add	w8, w19, w8
	ubfiz	x2, x9, #3, #32
	add	w8, w8, #3
	str	x0, [sp, #32]
	mov	x28, x1
	add	x8, x10, w8, uxtw #3
	mov	w1, wzr
	mov	x26, x14
	mov	x0, x8
	bl	tlsf_memory_set
	ldr	x0, [sp, #32]
	mov	x14, x26
	mov	x1, x28
.LBB95_47:
	add	w8, w22, #4
	cmp	w27, w8
	mov	w8, w27
	b.lo	.LBB95_50
	mov	x26, x0
	add	x0, x24, #48
	mov	x28, x1
	mov	w1, w19
	mov	x2, x23
	mov	w3, w22
	mov	x4, x21
	mov	x21, x14
	bl	"tlsf_heap::refitting::split_off::<=4>"
.LBB95_49:
	mov	x14, x21
	mov	x0, x26
	mov	x1, x28
	mov	w8, w22
.LBB95_50:
	ldr	w9, [x24, #40]
	ldr	x10, [x24, #32]
	sub	w8, w8, w27
	ldr	x26, [sp, #40]
	add	w8, w8, w9
	add	x9, x10, #1
	str	w8, [x24, #40]
	str	x9, [x24, #32]
	add	w8, w25, w14
	mov	w9, #1
	sub	w8, w8, #1
	strb	w9, [x24]
	tbnz	w8, #3, .LBB95_113
	b	.LBB95_115
.LBB95_51:
	ldr	x5, [x24, #32]
	cmn	x5, #1
	b.eq	.LBB95_63
	stp	x14, x0, [sp, #24]
	add	x0, x24, #48
	mov	x21, x1
	mov	w1, w19
	mov	x2, x23
	mov	w4, w22
	bl	"tlsf_heap::refitting::recut::<=5>"
	b	.LBB95_55
.LBB95_53:
	ldr	x5, [x24, #32]
	cmn	x5, #1
	b.eq	.LBB95_63
	stp	x14, x0, [sp, #24]
	add	x0, x24, #48
	mov	x21, x1
	mov	w1, w19
	mov	x2, x23
	mov	w4, w22
	bl	"tlsf_heap::refitting::recut::<=4>"
.LBB95_55:
	ldur	x8, [x24, #48]
	mov	w22, w0
	ldr	x0, [sp, #32]
	mov	x1, x21
	add	x8, x8, x28
	ldr	x23, [x8, #16]
	str	x25, [x8, #16]
	cmp	w25, w23
	b.ls	.LBB95_60
	str	x26, [sp, #40]
	ands	w26, w23, #0x7
	b.eq	.LBB95_58
	mov	w8, w23
	str	x25, [sp, #8]
	ldur	x25, [x24, #48]
	add	x9, x28, x8
	sub	x0, x29, #32
	and	x11, x8, #0x7
	add	x9, x9, #24
	mov	w12, #8
	bfxil	x0, x8, #0, #3
	and	x28, x9, #0x1ffffffff8
	adrp	x9, .Lstatic.0
	add	x9, x9, :lo12:.Lstatic.0
	ldr	x10, [x25, x28]
	sub	x2, x12, x11
	add	x1, x9, x11
	stur	x10, [x29, #-32]
	bl	tlsf_memory_cpy
	ldur	x8, [x29, #-32]
	ldr	x0, [sp, #32]
	mov	x1, x21
	str	x8, [x25, x28]
	ldr	x25, [sp, #8]
.LBB95_58:
	lsr	w8, w23, #3
	cmp	w26, #0
	lsr	w10, w25, #3
	ldr	x26, [sp, #40]
	cinc	w9, w8, ne
	tst	w25, #0x7
	cinc	w8, w10, ne
	subs	w8, w8, w9
	b.eq	.LBB95_60
	ldur	x10, [x24, #48]
	add	w9, w19, w9
	ubfiz	x2, x8, #3, #32
	add	w9, w9, #3
	mov	w1, wzr
	add	x0, x10, w9, uxtw #3
	bl	tlsf_memory_set
	ldr	x0, [sp, #32]
	mov	x1, x21
.LBB95_60:
	ldp	w8, w10, [x24, #40]
	sub	w9, w22, w27
	ldr	x14, [sp, #24]
	add	w8, w8, w9
	cmp	w10, w8
	str	w8, [x24, #40]
	b.hs	.LBB95_62
	str	w8, [x24, #44]
.LBB95_62:
	ldr	x8, [x24, #32]
	add	x8, x8, #1
	str	x8, [x24, #32]
	add	w8, w25, w14
	mov	w9, #1
	sub	w8, w8, #1
	strb	w9, [x24]
	tbnz	w8, #3, .LBB95_113
	b	.LBB95_115
.LBB95_63:
	mov	w8, #1
	mov	w0, #2
	strb	w8, [x24]
	b	.LBB95_116
.LBB95_64:
	mov	w0, w20
	mov	w1, w8
.LBB95_65:
	bl	"tlsf_heap::refusal::Refusal::of_name"
	and	w8, w0, #0xff
	mov	w9, #1
	cmp	w8, #3
	mov	w8, #3
	strb	w9, [x24]
	cinc	w0, w8, eq
	b	.LBB95_116
.LBB95_66:
	orr	w9, w22, #0x10
	mov	w10, #27
	clz	w9, w9
	sub	w9, w10, w9
	sub	w10, w22, #1
	lsr	w12, w10, w9
	add	w9, w12, w9, lsl #4
	and	w12, w12, #0xf
	add	w9, w9, #1
	sub	x10, x9, #1
	add	x9, x24, #108
	lsr	x11, x10, #4
	ldr	w13, [x9, x11, lsl #2]
	lsr	w12, w13, w12
	ands	w12, w12, #0xfffffffe
	b.eq	.LBB95_80
	rbit	w11, w12
	clz	w11, w11
	add	x11, x10, x11
	b	.LBB95_82
.LBB95_68:
	mov	w10, #-2
	ldr	w12, [x24, #104]
	lsl	w10, w10, w11
	ands	w10, w12, w10
	b.eq	.LBB95_31
	rbit	w10, w10
	clz	w10, w10
	ldr	w11, [x9, w10, uxtw #2]
	rbit	w11, w11
	clz	w11, w11
	add	w11, w11, w10, lsl #5
.LBB95_70:
	add	x10, x24, #192
	str	x14, [sp, #24]
	ldr	w27, [x10, x11, lsl #2]
	ubfiz	x23, x27, #3, #32
	add	x12, x8, x23
	ldr	x12, [x12, #16]
	cmn	w12, #1
	b.eq	.LBB95_72
	ubfiz	x13, x12, #3, #32
	add	x8, x8, x13
	ldr	x13, [x8, #16]
	orr	x13, x13, #0xffffffff00000000
	str	x13, [x8, #16]
	str	w12, [x10, x11, lsl #2]
	ldur	x8, [x24, #48]
	b	.LBB95_74
.LBB95_72:
	lsr	x12, x11, #3
	mov	w13, #-1
	str	w13, [x10, x11, lsl #2]
	and	x13, x12, #0x1ffffffffffffffc
	mov	w12, #1
	ldr	w14, [x9, x13]
	lsl	w15, w12, w11
	bics	w14, w14, w15
	str	w14, [x9, x13]
	b.ne	.LBB95_74
	lsr	x11, x11, #5
	ldr	w13, [x24, #104]
	lsl	w11, w12, w11
	bic	w11, w13, w11
	str	w11, [x24, #104]
.LBB95_74:
	add	x14, x8, x23
	ldr	x12, [x14]
	sub	w13, w12, w22, lsl #2
	cmp	w13, #15
	b.hi	.LBB95_76
	sub	x8, x12, #1
	str	x25, [x14, #16]
	stp	x8, x26, [x14]
	lsr	w8, w8, #2
	b	.LBB95_94
.LBB95_76:
	add	w11, w27, w22
	sub	x12, x12, x13
	str	x12, [x8, x27, lsl #3]
	ubfiz	x12, x11, #3, #32
	orr	x15, x13, x27, lsl #32
	stp	x26, x25, [x14, #8]
	add	x8, x8, x12
	stp	x15, x26, [x8]
	lsr	w8, w11, #3
	ldr	x14, [x24, #72]
	and	x15, x8, #0x1ffffff8
	mov	w8, #1
	ldr	x16, [x14, x15]
	lsl	x17, x8, x11
	lsr	w8, w13, #2
	orr	x16, x16, x17
	str	x16, [x14, x15]
	tbnz	w13, #1, .LBB95_78
	ldur	x13, [x24, #48]
	add	w14, w8, w11
	add	x13, x13, w14, uxtw #3
	str	w11, [x13, #4]
.LBB95_78:
	orr	w13, w8, #0x20
	mov	w14, #26
	ldur	x15, [x24, #48]
	clz	w13, w13
	sub	w13, w14, w13
	lsr	w8, w8, w13
	add	w13, w8, w13, lsl #5
	ldr	w14, [x10, w13, uxtw #2]
	str	w11, [x10, w13, uxtw #2]
	tbnz	w14, #31, .LBB95_92
	add	x10, x15, x14, lsl #3
	orr	x8, x14, #0xffffffff00000000
	add	x9, x15, x12
	str	x8, [x9, #16]
	str	w11, [x10, #20]
	b	.LBB95_93
.LBB95_80:
	mov	w10, #-2
	ldr	w12, [x24, #104]
	lsl	w10, w10, w11
	ands	w10, w12, w10
	b.eq	.LBB95_31
	rbit	w10, w10
	clz	w10, w10
	ldr	w11, [x9, w10, uxtw #2]
	rbit	w11, w11
	clz	w11, w11
	add	w11, w11, w10, lsl #4
.LBB95_82:
	add	x10, x24, #192
	str	x14, [sp, #24]
	ldr	w27, [x10, x11, lsl #2]
	ubfiz	x23, x27, #3, #32
	add	x12, x8, x23
	ldr	x12, [x12, #16]
	cmn	w12, #1
	b.eq	.LBB95_84
	ubfiz	x13, x12, #3, #32
	add	x8, x8, x13
	ldr	x13, [x8, #16]
	orr	x13, x13, #0xffffffff00000000
	str	x13, [x8, #16]
	str	w12, [x10, x11, lsl #2]
	ldur	x8, [x24, #48]
	b	.LBB95_86
.LBB95_84:
	lsr	x12, x11, #2
	mov	w13, #-1
	str	w13, [x10, x11, lsl #2]
	and	w14, w11, #0xf
	and	x13, x12, #0x3ffffffffffffffc
	mov	w12, #1
	ldr	w15, [x9, x13]
	lsl	w14, w12, w14
	bics	w14, w15, w14
	str	w14, [x9, x13]
	b.ne	.LBB95_86
	lsr	x11, x11, #4
	ldr	w13, [x24, #104]
	lsl	w11, w12, w11
	bic	w11, w13, w11
	str	w11, [x24, #104]
.LBB95_86:
	add	x14, x8, x23
	ldr	x12, [x14]
	sub	w13, w12, w22, lsl #2
	cmp	w13, #15
	b.hi	.LBB95_88
	sub	x8, x12, #1
	str	x25, [x14, #16]
	stp	x8, x26, [x14]
	lsr	w8, w8, #2
	b	.LBB95_104
.LBB95_88:
	add	w11, w27, w22
	sub	x12, x12, x13
	str	x12, [x8, x27, lsl #3]
	ubfiz	x12, x11, #3, #32
	orr	x15, x13, x27, lsl #32
	stp	x26, x25, [x14, #8]
	add	x8, x8, x12
	stp	x15, x26, [x8]
	lsr	w8, w11, #3
	ldr	x14, [x24, #72]
	and	x15, x8, #0x1ffffff8
	mov	w8, #1
	ldr	x16, [x14, x15]
	lsl	x17, x8, x11
	lsr	w8, w13, #2
	orr	x16, x16, x17
	str	x16, [x14, x15]
	tbnz	w13, #1, .LBB95_90
	ldur	x13, [x24, #48]
	add	w14, w8, w11
	add	x13, x13, w14, uxtw #3
	str	w11, [x13, #4]
.LBB95_90:
	orr	w13, w8, #0x10
	mov	w14, #27
	ldur	x15, [x24, #48]
	clz	w13, w13
	sub	w13, w14, w13
	lsr	w8, w8, w13
	add	w13, w8, w13, lsl #4
	ldr	w14, [x10, w13, uxtw #2]
	str	w11, [x10, w13, uxtw #2]
	tbnz	w14, #31, .LBB95_102
	add	x10, x15, x14, lsl #3
	orr	x8, x14, #0xffffffff00000000
	add	x9, x15, x12
	str	x8, [x9, #16]
	str	w11, [x10, #20]
	b	.LBB95_103
.LBB95_92:
	add	x10, x15, x12
	mov	x11, #-1
	lsr	x12, x13, #5
	mov	w13, #1
	str	x11, [x10, #16]
	ldr	w10, [x24, #104]
	lsl	w11, w13, w12
	lsl	w8, w13, w8
	ldr	w13, [x9, x12, lsl #2]
	orr	w10, w10, w11
	str	w10, [x24, #104]
	orr	w8, w13, w8
	str	w8, [x9, x12, lsl #2]
.LBB95_93:
	mov	w8, w22
.LBB95_94:
	ldp	w9, w10, [x24, #40]
	str	x0, [sp, #32]
	str	x1, [sp, #16]
	add	w8, w9, w8
	cmp	w10, w8
	str	w8, [x24, #40]
	b.hs	.LBB95_96
	str	w8, [x24, #44]
.LBB95_96:
	ldr	x8, [x24, #32]
	ldr	w20, [x24, #24]
	add	x9, x8, #1
	subs	w8, w22, #3
	str	x9, [x24, #32]
	b.eq	.LBB95_98
	ldur	x9, [x24, #48]
	add	w10, w27, #3
	ubfiz	x2, x8, #3, #32
	mov	w1, wzr
	add	x0, x9, w10, uxtw #3
	bl	tlsf_memory_set
.LBB95_98:
	ldur	x0, [x24, #48]
	add	x1, x19, #3
	add	x19, x27, #3
	add	x8, x0, x28
	add	x9, x0, x23
	ldr	w8, [x8, #16]
	ldr	w9, [x9, #16]
	cmp	w9, w8
	csel	w8, w9, w8, lo
	lsr	x22, x8, #3
	ands	x23, x8, #0x7
	b.eq	.LBB95_100
	add	x8, x22, x1
	add	x2, x27, #3
	mov	x3, x22
	ldr	x8, [x0, x8, lsl #3]
	stur	x8, [x29, #-16]
	bl	"tlsf_words::cells::copy_run"
	mov	x28, x26
	mov	x26, x25
	ldur	x25, [x24, #48]
	add	x19, x22, x19
	sub	x0, x29, #8
	sub	x1, x29, #16
	ldr	x8, [x25, x19, lsl #3]
	mov	x2, x23
	stur	x8, [x29, #-8]
	bl	tlsf_memory_cpy
	ldur	x8, [x29, #-8]
	str	x8, [x25, x19, lsl #3]
	mov	x25, x26
	mov	x26, x28
	b	.LBB95_101
.LBB95_100:
	add	x2, x27, #3
	mov	x3, x22
	bl	"tlsf_words::cells::copy_run"
.LBB95_101:
	sub	x1, x29, #32
	mov	x0, x21
	bl	"tlsf_heap::heap::Heap::release_live::<=5>"
	b	.LBB95_112
.LBB95_102:
	add	x10, x15, x12
	mov	x11, #-1
	lsr	x12, x13, #4
	mov	w13, #1
	str	x11, [x10, #16]
	and	w8, w8, #0xf
	ldr	w10, [x24, #104]
	lsl	w11, w13, w12
	lsl	w8, w13, w8
	ldr	w13, [x9, x12, lsl #2]
	orr	w10, w10, w11
	str	w10, [x24, #104]
	orr	w8, w13, w8
	str	w8, [x9, x12, lsl #2]
.LBB95_103:
	mov	w8, w22
.LBB95_104:
	ldp	w9, w10, [x24, #40]
	str	x0, [sp, #32]
	str	x1, [sp, #16]
	add	w8, w9, w8
	cmp	w10, w8
	str	w8, [x24, #40]
	b.hs	.LBB95_106
	str	w8, [x24, #44]
.LBB95_106:
	ldr	x8, [x24, #32]
	ldr	w20, [x24, #24]
	add	x9, x8, #1
	subs	w8, w22, #3
	str	x9, [x24, #32]
	b.eq	.LBB95_108
	ldur	x9, [x24, #48]
	add	w10, w27, #3
	ubfiz	x2, x8, #3, #32
	mov	w1, wzr
	add	x0, x9, w10, uxtw #3
	bl	tlsf_memory_set
.LBB95_108:
	ldur	x0, [x24, #48]
	add	x1, x19, #3
	add	x19, x27, #3
	add	x8, x0, x28
	add	x9, x0, x23
	ldr	w8, [x8, #16]
	ldr	w9, [x9, #16]
	cmp	w9, w8
	csel	w8, w9, w8, lo
	lsr	x22, x8, #3
	ands	x23, x8, #0x7
	b.eq	.LBB95_110
	add	x8, x22, x1
	add	x2, x27, #3
	mov	x3, x22
	ldr	x8, [x0, x8, lsl #3]
	stur	x8, [x29, #-16]
	bl	"tlsf_words::cells::copy_run"
	mov	x28, x26
	mov	x26, x25
	ldur	x25, [x24, #48]
	add	x19, x22, x19
	sub	x0, x29, #8
	sub	x1, x29, #16
	ldr	x8, [x25, x19, lsl #3]
	mov	x2, x23
	stur	x8, [x29, #-8]
	bl	tlsf_memory_cpy
	ldur	x8, [x29, #-8]
	str	x8, [x25, x19, lsl #3]
	mov	x25, x26
	mov	x26, x28
	b	.LBB95_111
.LBB95_110:
	add	x2, x27, #3
	mov	x3, x22
	bl	"tlsf_words::cells::copy_run"
.LBB95_111:
	sub	x1, x29, #32
	mov	x0, x21
	bl	"tlsf_heap::heap::Heap::release_live::<=4>"
.LBB95_112:
	ldp	x1, x14, [sp, #16]
	mov	w19, w27
	ldr	x0, [sp, #32]
	add	w8, w25, w14
	mov	w9, #1
	sub	w8, w8, #1
	strb	w9, [x24]
	tbz	w8, #3, .LBB95_115
.LBB95_113:
	ldrb	w8, [x0, #28]
	tbnz	w8, #0, .LBB95_115
	mov	w8, #1
	strb	w8, [x0, #28]
.LBB95_115:
	mov	w0, wzr
	stp	w20, w19, [x1]
	str	x26, [x1, #8]
.LBB95_116:
	.cfi_def_cfa wsp, 176
	ldp	x20, x19, [sp, #160]
	ldp	x22, x21, [sp, #144]
	ldp	x24, x23, [sp, #128]
	ldp	x26, x25, [sp, #112]
	ldp	x28, x27, [sp, #96]
	ldp	x29, x30, [sp, #80]
	add	sp, sp, #176
	.cfi_def_cfa_offset 0
	.cfi_restore w19
	.cfi_restore w20
	.cfi_restore w21
	.cfi_restore w22
	.cfi_restore w23
	.cfi_restore w24
	.cfi_restore w25
	.cfi_restore w26
	.cfi_restore w27
	.cfi_restore w28
	.cfi_restore w30
	.cfi_restore w29
	ret
.Lfunc_end95:
	.size	tlsf_reallocate, .Lfunc_end95-tlsf_reallocate
	.cfi_endproc
	.section	.text.tlsf_release,"ax",@progbits
	.globl	tlsf_release
	.p2align	2
	.type	tlsf_release,@function
tlsf_release:
	.cfi_startproc
	lsr	x3, x1, #32
	b	"tlsf_c::heap_calls::release_named"
.Lfunc_end96:
	.size	tlsf_release, .Lfunc_end96-tlsf_release
	.cfi_endproc
	.section	.text.tlsf_release_all,"ax",@progbits
	.globl	tlsf_release_all
	.p2align	2
	.type	tlsf_release_all,@function
tlsf_release_all:
	.cfi_startproc
	stp	x29, x30, [sp, #-64]!
	.cfi_def_cfa_offset 64
	str	x23, [sp, #16]
	stp	x22, x21, [sp, #32]
	stp	x20, x19, [sp, #48]
	mov	x29, sp
	.cfi_def_cfa w29, 64
	.cfi_offset w19, -8
	.cfi_offset w20, -16
	.cfi_offset w21, -24
	.cfi_offset w22, -32
	.cfi_offset w23, -48
	.cfi_offset w30, -56
	.cfi_offset w29, -64
	.cfi_remember_state
	ldrb	w9, [x0, #8]
	cmp	x1, #0
	mov	w8, #4096
	csel	x8, x8, xzr, eq
	cbz	w9, .LBB97_7
	ldr	x19, [x0]
	ldrb	w9, [x19]
	tbz	w9, #0, .LBB97_7
	ldrb	w9, [x19, #16]
	strb	wzr, [x19]
	cbz	w9, .LBB97_5
	cbz	x2, .LBB97_44
	add	x8, x8, x1
	add	x20, x19, #192
	add	x21, x19, #108
	add	x22, x8, #8
	b	.LBB97_11
.LBB97_5:
	cbz	x2, .LBB97_44
	add	x8, x8, x1
	add	x20, x19, #192
	add	x21, x19, #108
	add	x22, x8, #8
	b	.LBB97_29
.LBB97_7:
	mov	w0, wzr
	.cfi_def_cfa wsp, 64
	ldp	x20, x19, [sp, #48]
	ldr	x23, [sp, #16]
	ldp	x22, x21, [sp, #32]
	ldp	x29, x30, [sp], #64
	.cfi_def_cfa_offset 0
	.cfi_restore w19
	.cfi_restore w20
	.cfi_restore w21
	.cfi_restore w22
	.cfi_restore w23
	.cfi_restore w30
	.cfi_restore w29
	b	"tlsf_c::call_fault::CallFault::refusal"
.LBB97_8:
	.cfi_restore_state
	add	x8, x3, #1
	add	x0, x19, #48
	mov	x23, x2
	mov	x2, x5
	str	x8, [x19, #32]
	bl	"tlsf_heap::fitting::merge_next::<=5>"
.LBB97_9:
	mov	x2, x23
.LBB97_10:
	subs	x2, x2, #1
	add	x22, x22, #16
	b.eq	.LBB97_44
.LBB97_11:
	ldur	w8, [x22, #-8]
	ldr	w9, [x19, #24]
	cmp	w8, w9
	b.ne	.LBB97_10
	ldur	w4, [x22, #-4]
	ldr	w8, [x19, #56]
	cmp	w4, w8
	b.hs	.LBB97_10
	lsr	x8, x4, #3
	ldr	x9, [x19, #72]
	and	x8, x8, #0x1ffffff8
	ldr	x8, [x9, x8]
	lsr	x8, x8, x4
	tbz	w8, #0, .LBB97_10
	ldur	x8, [x19, #48]
	lsl	x9, x4, #3
	add	x10, x8, x9
	ldr	x5, [x10]
	tbnz	w5, #0, .LBB97_10
	ldr	x11, [x22]
	ldr	x12, [x10, #8]
	cmp	x12, x11
	b.ne	.LBB97_10
	ldr	x3, [x19, #32]
	cmn	x3, #1
	b.eq	.LBB97_10
	lsr	w11, w5, #2
	ldr	w12, [x19, #40]
	sub	w12, w12, w11
	str	w12, [x19, #40]
	tbnz	w5, #1, .LBB97_19
	add	w12, w11, w4
	ldr	x1, [x8, w12, uxtw #3]
	cbnz	w4, .LBB97_20
	b	.LBB97_21
.LBB97_19:
	mov	x1, xzr
	cbz	w4, .LBB97_21
.LBB97_20:
	lsr	x12, x5, #29
	and	x12, x12, #0x7fffffff8
	ldr	x8, [x8, x12]
	tbnz	w8, #0, .LBB97_24
.LBB97_21:
	tbnz	w1, #0, .LBB97_8
	orr	w8, w11, #0x20
	mov	w12, #26
	orr	x13, x5, #0x1
	clz	w8, w8
	stp	x13, x3, [x10]
	sub	w12, w12, w8
	lsr	w8, w11, w12
	ldr	x11, [x19, #32]
	add	w10, w8, w12, lsl #5
	add	x12, x11, #1
	str	x12, [x19, #32]
	ldr	x12, [x19, #48]
	ldr	w11, [x20, w10, uxtw #2]
	str	w4, [x20, w10, uxtw #2]
	tbnz	w11, #31, .LBB97_25
	add	x10, x12, x11, lsl #3
	orr	x8, x11, #0xffffffff00000000
	add	x9, x12, x9
	str	x8, [x9, #16]
	str	w4, [x10, #20]
	b	.LBB97_10
.LBB97_24:
	add	x9, x3, #1
	add	x0, x19, #48
	mov	x23, x2
	mov	x2, x8
	str	x9, [x19, #32]
	bl	"tlsf_heap::fitting::merge_before::<=5>"
	b	.LBB97_9
.LBB97_25:
	add	x9, x12, x9
	mov	x11, #-1
	lsr	x10, x10, #5
	mov	w12, #1
	str	x11, [x9, #16]
	ldr	w9, [x19, #104]
	lsl	w11, w12, w10
	lsl	w8, w12, w8
	ldr	w12, [x21, x10, lsl #2]
	orr	w9, w9, w11
	str	w9, [x19, #104]
	orr	w8, w12, w8
	str	w8, [x21, x10, lsl #2]
	b	.LBB97_10
.LBB97_26:
	add	x8, x3, #1
	add	x0, x19, #48
	mov	x23, x2
	mov	x2, x5
	str	x8, [x19, #32]
	bl	"tlsf_heap::fitting::merge_next::<=4>"
.LBB97_27:
	mov	x2, x23
.LBB97_28:
	subs	x2, x2, #1
	add	x22, x22, #16
	b.eq	.LBB97_44
.LBB97_29:
	ldur	w8, [x22, #-8]
	ldr	w9, [x19, #24]
	cmp	w8, w9
	b.ne	.LBB97_28
	ldur	w4, [x22, #-4]
	ldr	w8, [x19, #56]
	cmp	w4, w8
	b.hs	.LBB97_28
	lsr	x8, x4, #3
	ldr	x9, [x19, #72]
	and	x8, x8, #0x1ffffff8
	ldr	x8, [x9, x8]
	lsr	x8, x8, x4
	tbz	w8, #0, .LBB97_28
	ldur	x8, [x19, #48]
	lsl	x9, x4, #3
	add	x10, x8, x9
	ldr	x5, [x10]
	tbnz	w5, #0, .LBB97_28
	ldr	x11, [x22]
	ldr	x12, [x10, #8]
	cmp	x12, x11
	b.ne	.LBB97_28
	ldr	x3, [x19, #32]
	cmn	x3, #1
	b.eq	.LBB97_28
	lsr	w11, w5, #2
	ldr	w12, [x19, #40]
	sub	w12, w12, w11
	str	w12, [x19, #40]
	tbnz	w5, #1, .LBB97_37
	add	w12, w11, w4
	ldr	x1, [x8, w12, uxtw #3]
	cbnz	w4, .LBB97_38
	b	.LBB97_39
.LBB97_37:
	mov	x1, xzr
	cbz	w4, .LBB97_39
.LBB97_38:
	lsr	x12, x5, #29
	and	x12, x12, #0x7fffffff8
	ldr	x8, [x8, x12]
	tbnz	w8, #0, .LBB97_42
.LBB97_39:
	tbnz	w1, #0, .LBB97_26
	orr	w8, w11, #0x10
	mov	w12, #27
	orr	x13, x5, #0x1
	clz	w8, w8
	stp	x13, x3, [x10]
	sub	w12, w12, w8
	lsr	w8, w11, w12
	ldr	x11, [x19, #32]
	add	w10, w8, w12, lsl #4
	add	x12, x11, #1
	str	x12, [x19, #32]
	ldr	x12, [x19, #48]
	ldr	w11, [x20, w10, uxtw #2]
	str	w4, [x20, w10, uxtw #2]
	tbnz	w11, #31, .LBB97_43
	add	x10, x12, x11, lsl #3
	orr	x8, x11, #0xffffffff00000000
	add	x9, x12, x9
	str	x8, [x9, #16]
	str	w4, [x10, #20]
	b	.LBB97_28
.LBB97_42:
	add	x9, x3, #1
	add	x0, x19, #48
	mov	x23, x2
	mov	x2, x8
	str	x9, [x19, #32]
	bl	"tlsf_heap::fitting::merge_before::<=4>"
	b	.LBB97_27
.LBB97_43:
	add	x9, x12, x9
	mov	x11, #-1
	lsr	x10, x10, #4
	mov	w12, #1
	str	x11, [x9, #16]
	and	w8, w8, #0xf
	ldr	w9, [x19, #104]
	lsl	w11, w12, w10
	lsl	w8, w12, w8
	ldr	w12, [x21, x10, lsl #2]
	orr	w9, w9, w11
	str	w9, [x19, #104]
	orr	w8, w12, w8
	str	w8, [x21, x10, lsl #2]
	b	.LBB97_28
.LBB97_44:
	mov	w8, #1
	mov	w0, wzr
	strb	w8, [x19]
	.cfi_def_cfa wsp, 64
	ldp	x20, x19, [sp, #48]
	ldr	x23, [sp, #16]
	ldp	x22, x21, [sp, #32]
	ldp	x29, x30, [sp], #64
	.cfi_def_cfa_offset 0
	.cfi_restore w19
	.cfi_restore w20
	.cfi_restore w21
	.cfi_restore w22
	.cfi_restore w23
	.cfi_restore w30
	.cfi_restore w29
	ret
.Lfunc_end97:
	.size	tlsf_release_all, .Lfunc_end97-tlsf_release_all
	.cfi_endproc
	.section	.text.tlsf_release_place,"ax",@progbits
	.globl	tlsf_release_place
	.p2align	2
	.type	tlsf_release_place,@function
tlsf_release_place:
	.cfi_startproc
	stp	x29, x30, [sp, #-32]!
	.cfi_def_cfa_offset 32
	str	x19, [sp, #16]
	mov	x29, sp
	.cfi_def_cfa w29, 32
	.cfi_offset w19, -16
	.cfi_offset w30, -24
	.cfi_offset w29, -32
	.cfi_remember_state
	ldrb	w8, [x0, #8]
	cbz	w8, .LBB98_22
	ldr	x19, [x0]
	ldrb	w8, [x19]
	tbz	w8, #0, .LBB98_22
	ldr	w8, [x19, #56]
	ldrb	w9, [x19, #16]
	mov	w4, w1
	strb	wzr, [x19]
	cmp	w1, w8
	cbz	w9, .LBB98_9
	b.hs	.LBB98_16
	lsr	w8, w4, #3
	ldr	x9, [x19, #72]
	and	x8, x8, #0x1ffffff8
	ldr	x8, [x9, x8]
	lsr	x8, x8, x4
	tbz	w8, #0, .LBB98_16
	mov	w8, w4
	ldur	x11, [x19, #48]
	ubfiz	x8, x8, #3, #32
	add	x9, x11, x8
	ldr	x5, [x9]
	tbnz	w5, #0, .LBB98_16
	ldr	x3, [x19, #32]
	cmn	x3, #1
	b.eq	.LBB98_15
	lsr	w10, w5, #2
	ldr	w12, [x19, #40]
	sub	w12, w12, w10
	str	w12, [x19, #40]
	tbnz	w5, #1, .LBB98_17
	add	w12, w10, w4
	ldr	x1, [x11, w12, uxtw #3]
	cbnz	w4, .LBB98_18
	b	.LBB98_19
.LBB98_9:
	b.hs	.LBB98_16
	lsr	w8, w4, #3
	ldr	x9, [x19, #72]
	and	x8, x8, #0x1ffffff8
	ldr	x8, [x9, x8]
	lsr	x8, x8, x4
	tbz	w8, #0, .LBB98_16
	mov	w8, w4
	ldur	x11, [x19, #48]
	ubfiz	x8, x8, #3, #32
	add	x9, x11, x8
	ldr	x5, [x9]
	tbnz	w5, #0, .LBB98_16
	ldr	x3, [x19, #32]
	cmn	x3, #1
	b.eq	.LBB98_15
	lsr	w10, w5, #2
	ldr	w12, [x19, #40]
	sub	w12, w12, w10
	str	w12, [x19, #40]
	tbnz	w5, #1, .LBB98_25
	add	w12, w10, w4
	ldr	x1, [x11, w12, uxtw #3]
	cbnz	w4, .LBB98_26
	b	.LBB98_27
.LBB98_15:
	mov	w0, #2
	mov	w8, #1
	strb	w8, [x19]
	.cfi_def_cfa wsp, 32
	ldr	x19, [sp, #16]
	ldp	x29, x30, [sp], #32
	.cfi_def_cfa_offset 0
	.cfi_restore w19
	.cfi_restore w30
	.cfi_restore w29
	ret
.LBB98_16:
	.cfi_restore_state
	.cfi_remember_state
	ldr	w0, [x19, #24]
	mov	w1, w0
	bl	"tlsf_heap::refusal::Refusal::of_name"
	and	w8, w0, #0xff
	cmp	w8, #3
	mov	w8, #3
	cinc	w0, w8, eq
	mov	w8, #1
	strb	w8, [x19]
	.cfi_def_cfa wsp, 32
	ldr	x19, [sp, #16]
	ldp	x29, x30, [sp], #32
	.cfi_def_cfa_offset 0
	.cfi_restore w19
	.cfi_restore w30
	.cfi_restore w29
	ret
.LBB98_17:
	.cfi_restore_state
	.cfi_remember_state
	mov	x1, xzr
	cbz	w4, .LBB98_19
.LBB98_18:
	lsr	x12, x5, #29
	and	x12, x12, #0x7fffffff8
	ldr	x2, [x11, x12]
	tbnz	w2, #0, .LBB98_24
.LBB98_19:
	tbnz	w1, #0, .LBB98_23
	orr	w11, w10, #0x20
	mov	w12, #26
	clz	w11, w11
	sub	w11, w12, w11
	orr	x12, x5, #0x1
	lsr	w10, w10, w11
	stp	x12, x3, [x9]
	ldr	x9, [x19, #32]
	add	w11, w10, w11, lsl #5
	add	x9, x9, #1
	add	x13, x19, w11, uxtw #2
	str	x9, [x19, #32]
	ldr	x9, [x19, #48]
	ldr	w12, [x13, #192]
	str	w4, [x13, #192]
	tbz	w12, #31, .LBB98_29
	lsr	x11, x11, #5
	add	x8, x9, x8
	mov	x9, #-1
	str	x9, [x8, #16]
	mov	w9, #1
	mov	w0, wzr
	add	x8, x19, x11, lsl #2
	ldr	w12, [x19, #104]
	lsl	w11, w9, w11
	lsl	w9, w9, w10
	ldr	w13, [x8, #108]
	orr	w10, w12, w11
	str	w10, [x19, #104]
	orr	w9, w13, w9
	str	w9, [x8, #108]
	mov	w8, #1
	strb	w8, [x19]
	.cfi_def_cfa wsp, 32
	ldr	x19, [sp, #16]
	ldp	x29, x30, [sp], #32
	.cfi_def_cfa_offset 0
	.cfi_restore w19
	.cfi_restore w30
	.cfi_restore w29
	ret
.LBB98_22:
	.cfi_restore_state
	.cfi_remember_state
	mov	w0, wzr
	.cfi_def_cfa wsp, 32
	ldr	x19, [sp, #16]
	ldp	x29, x30, [sp], #32
	.cfi_def_cfa_offset 0
	.cfi_restore w19
	.cfi_restore w30
	.cfi_restore w29
	b	"tlsf_c::call_fault::CallFault::refusal"
.LBB98_23:
	.cfi_restore_state
	.cfi_remember_state
	add	x8, x3, #1
	add	x0, x19, #48
	mov	x2, x5
	str	x8, [x19, #32]
	bl	"tlsf_heap::fitting::merge_next::<=5>"
	mov	w0, wzr
	mov	w8, #1
	strb	w8, [x19]
	.cfi_def_cfa wsp, 32
	ldr	x19, [sp, #16]
	ldp	x29, x30, [sp], #32
	.cfi_def_cfa_offset 0
	.cfi_restore w19
	.cfi_restore w30
	.cfi_restore w29
	ret
.LBB98_24:
	.cfi_restore_state
	.cfi_remember_state
	add	x8, x3, #1
	add	x0, x19, #48
	str	x8, [x19, #32]
	bl	"tlsf_heap::fitting::merge_before::<=5>"
	mov	w0, wzr
	mov	w8, #1
	strb	w8, [x19]
	.cfi_def_cfa wsp, 32
	ldr	x19, [sp, #16]
	ldp	x29, x30, [sp], #32
	.cfi_def_cfa_offset 0
	.cfi_restore w19
	.cfi_restore w30
	.cfi_restore w29
	ret
.LBB98_25:
	.cfi_restore_state
	.cfi_remember_state
	mov	x1, xzr
	cbz	w4, .LBB98_27
.LBB98_26:
	lsr	x12, x5, #29
	and	x12, x12, #0x7fffffff8
	ldr	x2, [x11, x12]
	tbnz	w2, #0, .LBB98_31
.LBB98_27:
	tbnz	w1, #0, .LBB98_30
	orr	w11, w10, #0x10
	mov	w12, #27
	clz	w11, w11
	sub	w11, w12, w11
	orr	x12, x5, #0x1
	lsr	w10, w10, w11
	stp	x12, x3, [x9]
	ldr	x9, [x19, #32]
	add	w11, w10, w11, lsl #4
	add	x9, x9, #1
	add	x13, x19, w11, uxtw #2
	str	x9, [x19, #32]
	ldr	x9, [x19, #48]
	ldr	w12, [x13, #192]
	str	w4, [x13, #192]
	tbnz	w12, #31, .LBB98_32
.LBB98_29:
	add	x8, x9, x8
	add	x9, x9, x12, lsl #3
	orr	x10, x12, #0xffffffff00000000
	mov	w11, w4
	mov	w0, wzr
	str	x10, [x8, #16]
	str	w11, [x9, #20]
	mov	w8, #1
	strb	w8, [x19]
	.cfi_def_cfa wsp, 32
	ldr	x19, [sp, #16]
	ldp	x29, x30, [sp], #32
	.cfi_def_cfa_offset 0
	.cfi_restore w19
	.cfi_restore w30
	.cfi_restore w29
	ret
.LBB98_30:
	.cfi_restore_state
	.cfi_remember_state
	add	x8, x3, #1
	add	x0, x19, #48
	mov	x2, x5
	str	x8, [x19, #32]
	bl	"tlsf_heap::fitting::merge_next::<=4>"
	mov	w0, wzr
	mov	w8, #1
	strb	w8, [x19]
	.cfi_def_cfa wsp, 32
	ldr	x19, [sp, #16]
	ldp	x29, x30, [sp], #32
	.cfi_def_cfa_offset 0
	.cfi_restore w19
	.cfi_restore w30
	.cfi_restore w29
	ret
.LBB98_31:
	.cfi_restore_state
	.cfi_remember_state
	add	x8, x3, #1
	add	x0, x19, #48
	str	x8, [x19, #32]
	bl	"tlsf_heap::fitting::merge_before::<=4>"
	mov	w0, wzr
	mov	w8, #1
	strb	w8, [x19]
	.cfi_def_cfa wsp, 32
	ldr	x19, [sp, #16]
	ldp	x29, x30, [sp], #32
	.cfi_def_cfa_offset 0
	.cfi_restore w19
	.cfi_restore w30
	.cfi_restore w29
	ret
.LBB98_32:
	.cfi_restore_state
	lsr	x11, x11, #4
	add	x8, x9, x8
	mov	x9, #-1
	str	x9, [x8, #16]
	mov	w9, #1
	and	w10, w10, #0xf
	add	x8, x19, x11, lsl #2
	ldr	w12, [x19, #104]
	lsl	w11, w9, w11
	lsl	w9, w9, w10
	mov	w0, wzr
	ldr	w10, [x8, #108]
	orr	w11, w12, w11
	str	w11, [x19, #104]
	orr	w9, w10, w9
	str	w9, [x8, #108]
	mov	w8, #1
	strb	w8, [x19]
	.cfi_def_cfa wsp, 32
	ldr	x19, [sp, #16]
	ldp	x29, x30, [sp], #32
	.cfi_def_cfa_offset 0
	.cfi_restore w19
	.cfi_restore w30
	.cfi_restore w29
	ret
.Lfunc_end98:
	.size	tlsf_release_place, .Lfunc_end98-tlsf_release_place
	.cfi_endproc
	.section	.text.tlsf_report,"ax",@progbits
	.globl	tlsf_report
	.p2align	2
	.type	tlsf_report,@function
tlsf_report:
	.cfi_startproc
	ldrb	w8, [x0, #8]
	cbz	w8, .LBB99_11
	ldr	x8, [x0]
	ldrb	w9, [x8]
	cmp	w9, #1
	b.ne	.LBB99_11
	ldrb	w10, [x8, #16]
	ldr	x9, [x8, #32]
	ldr	w17, [x8, #56]
	strb	wzr, [x8]
	cbz	w10, .LBB99_12
	cbz	w17, .LBB99_23
	ldr	x0, [x8, #48]
	mov	w18, wzr
	mov	w10, wzr
	mov	w15, wzr
	mov	w11, wzr
	mov	w12, wzr
	mov	w13, wzr
	mov	w14, wzr
	mov	x16, x9
	b	.LBB99_6
.LBB99_5:
	ldr	w3, [x3, #16]
	add	w14, w14, #1
	add	w13, w2, w13
	add	w12, w12, w3
	add	w18, w2, w18
	cmp	w18, w17
	b.hs	.LBB99_8
.LBB99_6:
	add	x3, x0, w18, uxtw #3
	ldr	x4, [x3]
	lsr	w2, w4, #2
	tbz	w4, #0, .LBB99_5
	ldr	x3, [x3, #8]
	cmp	w2, w10
	add	w11, w11, #1
	csel	w10, w2, w10, hi
	add	w15, w2, w15
	cmp	x3, x16
	csel	x16, x3, x16, lo
	add	w18, w2, w18
	cmp	w18, w17
	b.lo	.LBB99_6
.LBB99_8:
	cbz	w10, .LBB99_24
	orr	w17, w10, #0x20
	mov	w18, #26
	clz	w17, w17
	sub	w17, w18, w17
	lsr	w18, w10, w17
	add	w17, w18, w17, lsl #5
	lsr	w0, w17, #5
	cbz	w0, .LBB99_21
	mov	w17, #16
	and	w18, w18, #0x1f
	b	.LBB99_20
.LBB99_11:
	mov	w0, #32
	ret
.LBB99_12:
	cbz	w17, .LBB99_23
	ldr	x0, [x8, #48]
	mov	w18, wzr
	mov	w10, wzr
	mov	w15, wzr
	mov	w11, wzr
	mov	w12, wzr
	mov	w13, wzr
	mov	w14, wzr
	mov	x16, x9
	b	.LBB99_15
.LBB99_14:
	ldr	w3, [x3, #16]
	add	w14, w14, #1
	add	w13, w2, w13
	add	w12, w12, w3
	add	w18, w2, w18
	cmp	w18, w17
	b.hs	.LBB99_17
.LBB99_15:
	add	x3, x0, w18, uxtw #3
	ldr	x4, [x3]
	lsr	w2, w4, #2
	tbz	w4, #0, .LBB99_14
	ldr	x3, [x3, #8]
	cmp	w2, w10
	add	w11, w11, #1
	csel	w10, w2, w10, hi
	add	w15, w2, w15
	cmp	x3, x16
	csel	x16, x3, x16, lo
	add	w18, w2, w18
	cmp	w18, w17
	b.lo	.LBB99_15
.LBB99_17:
	cbz	w10, .LBB99_24
	orr	w17, w10, #0x10
	mov	w18, #27
	clz	w17, w17
	sub	w17, w18, w17
	lsr	w18, w10, w17
	add	w17, w18, w17, lsl #4
	lsr	w0, w17, #4
	cbz	w0, .LBB99_21
	mov	w17, #8
	and	w18, w18, #0xf
.LBB99_20:
	sub	w2, w0, #1
	lsl	w17, w17, w0
	lsl	w18, w18, w2
	add	w17, w18, w17
.LBB99_21:
	lsl	w17, w17, #3
	sub	w17, w17, #24
	cbz	w15, .LBB99_25
.LBB99_22:
	mov	w18, #1000
	mov	w2, w15
	umull	x0, w10, w18
	udiv	x0, x0, x2
	sub	w18, w18, w0
	b	.LBB99_26
.LBB99_23:
	mov	w14, wzr
	mov	w13, wzr
	mov	w12, wzr
	mov	w11, wzr
	mov	w15, wzr
	mov	w10, wzr
	mov	w18, wzr
	mov	x16, x9
	b	.LBB99_26
.LBB99_24:
	mov	w17, wzr
	cbnz	w15, .LBB99_22
.LBB99_25:
	mov	w18, wzr
.LBB99_26:
	lsl	w0, w13, #3
	sub	x9, x9, x16
	stp	w14, w13, [x1]
	str	x9, [x1, #40]
	mov	w9, #1
	sub	w2, w0, w12
	mov	w0, wzr
	stp	w12, w11, [x1, #8]
	stp	w15, w10, [x1, #16]
	stp	w17, w18, [x1, #24]
	stp	w2, wzr, [x1, #32]
	strb	w9, [x8]
	ret
.Lfunc_end99:
	.size	tlsf_report, .Lfunc_end99-tlsf_report
	.cfi_endproc
	.section	.text.tlsf_reset,"ax",@progbits
	.globl	tlsf_reset
	.p2align	2
	.type	tlsf_reset,@function
tlsf_reset:
	.cfi_startproc
	ldrb	w8, [x0, #8]
	cbz	w8, .LBB100_8
	stp	x29, x30, [sp, #-48]!
	.cfi_def_cfa_offset 48
	str	x21, [sp, #16]
	stp	x20, x19, [sp, #32]
	mov	x29, sp
	.cfi_def_cfa w29, 48
	.cfi_offset w19, -8
	.cfi_offset w20, -16
	.cfi_offset w21, -32
	.cfi_offset w30, -40
	.cfi_offset w29, -48
	.cfi_remember_state
	ldr	x19, [x0]
	ldrb	w8, [x19]
	cmp	w8, #1
	b.ne	.LBB100_9
	ldr	x20, [x19, #32]
	ldrb	w8, [x19, #16]
	strb	wzr, [x19]
	cmn	x20, #1
	cbz	w8, .LBB100_10
	b.eq	.LBB100_15
	ldr	x8, [x19, #80]
	cbz	x8, .LBB100_6
	ldr	x0, [x19, #72]
	lsl	x2, x8, #3
	mov	w1, wzr
	bl	tlsf_memory_set
.LBB100_6:
	add	x0, x19, #192
	mov	w1, #255
	mov	w2, #2564
	add	x21, x19, #192
	bl	tlsf_memory_set
	ldp	x9, x8, [x19, #48]
	movi	v0.2d, #0000000000000000
	str	xzr, [x19, #184]
	lsl	x10, x8, #2
	stur	q0, [x19, #104]
	orr	x10, x10, #0xffffffff00000003
	stur	q0, [x19, #120]
	stur	q0, [x19, #136]
	stur	q0, [x19, #152]
	stur	q0, [x19, #168]
	stp	x10, x20, [x9]
	orr	w10, w8, #0x20
	clz	w9, w10
	mov	w10, #26
	ldr	x11, [x19, #72]
	sub	w9, w10, w9
	lsr	w8, w8, w9
	ldr	x10, [x11]
	add	w9, w8, w9, lsl #5
	orr	x10, x10, #0x1
	str	x10, [x11]
	ldr	w11, [x21, w9, uxtw #2]
	ldr	x10, [x19, #48]
	str	wzr, [x21, w9, uxtw #2]
	tbz	w11, #31, .LBB100_14
	lsr	x9, x9, #5
	mov	x11, #-1
	str	x11, [x10, #16]
	mov	w11, #1
	add	x10, x19, x9, lsl #2
	ldr	w12, [x19, #104]
	b	.LBB100_17
.LBB100_8:
	.cfi_def_cfa wsp, 0
	.cfi_same_value w19
	.cfi_same_value w20
	.cfi_same_value w21
	.cfi_same_value w30
	.cfi_same_value w29
	mov	w0, #32
	ret
.LBB100_9:
	.cfi_restore_state
	.cfi_remember_state
	mov	w0, #32
	.cfi_def_cfa wsp, 48
	ldp	x20, x19, [sp, #32]
	ldr	x21, [sp, #16]
	ldp	x29, x30, [sp], #48
	.cfi_def_cfa_offset 0
	.cfi_restore w19
	.cfi_restore w20
	.cfi_restore w21
	.cfi_restore w30
	.cfi_restore w29
	ret
.LBB100_10:
	.cfi_restore_state
	.cfi_remember_state
	b.eq	.LBB100_15
	ldr	x8, [x19, #80]
	cbz	x8, .LBB100_13
	ldr	x0, [x19, #72]
	lsl	x2, x8, #3
	mov	w1, wzr
	bl	tlsf_memory_set
.LBB100_13:
	add	x0, x19, #192
	mov	w1, #255
	mov	w2, #2564
	add	x21, x19, #192
	bl	tlsf_memory_set
	ldp	x9, x8, [x19, #48]
	movi	v0.2d, #0000000000000000
	str	xzr, [x19, #184]
	lsl	x10, x8, #2
	stur	q0, [x19, #104]
	orr	x10, x10, #0xffffffff00000003
	stur	q0, [x19, #120]
	stur	q0, [x19, #136]
	stur	q0, [x19, #152]
	stur	q0, [x19, #168]
	stp	x10, x20, [x9]
	orr	w10, w8, #0x10
	clz	w9, w10
	mov	w10, #27
	ldr	x11, [x19, #72]
	sub	w9, w10, w9
	lsr	w8, w8, w9
	ldr	x10, [x11]
	add	w9, w8, w9, lsl #4
	orr	x10, x10, #0x1
	str	x10, [x11]
	ldr	w11, [x21, w9, uxtw #2]
	ldr	x10, [x19, #48]
	str	wzr, [x21, w9, uxtw #2]
	tbnz	w11, #31, .LBB100_16
.LBB100_14:
	orr	x8, x11, #0xffffffff00000000
	add	x9, x10, x11, lsl #3
	str	x8, [x10, #16]
	ldr	w8, [x9, #16]
	str	x8, [x9, #16]
	b	.LBB100_18
.LBB100_15:
	mov	w0, #2
	mov	w8, #1
	strb	w8, [x19]
	.cfi_def_cfa wsp, 48
	ldp	x20, x19, [sp, #32]
	ldr	x21, [sp, #16]
	ldp	x29, x30, [sp], #48
	.cfi_def_cfa_offset 0
	.cfi_restore w19
	.cfi_restore w20
	.cfi_restore w21
	.cfi_restore w30
	.cfi_restore w29
	ret
.LBB100_16:
	.cfi_restore_state
	mov	x11, #-1
	lsr	x9, x9, #4
	and	w8, w8, #0xf
	str	x11, [x10, #16]
	mov	w11, #1
	ldr	w12, [x19, #104]
	add	x10, x19, x9, lsl #2
.LBB100_17:
	lsl	w9, w11, w9
	ldr	w13, [x10, #108]
	lsl	w8, w11, w8
	orr	w9, w12, w9
	str	w9, [x19, #104]
	orr	w8, w13, w8
	str	w8, [x10, #108]
.LBB100_18:
	ldr	x8, [x19, #32]
	mov	w0, wzr
	str	wzr, [x19, #40]
	add	x8, x8, #1
	str	x8, [x19, #32]
	mov	w8, #1
	strb	w8, [x19]
	.cfi_def_cfa wsp, 48
	ldp	x20, x19, [sp, #32]
	ldr	x21, [sp, #16]
	ldp	x29, x30, [sp], #48
	.cfi_def_cfa_offset 0
	.cfi_restore w19
	.cfi_restore w20
	.cfi_restore w21
	.cfi_restore w30
	.cfi_restore w29
	ret
.Lfunc_end100:
	.size	tlsf_reset, .Lfunc_end100-tlsf_reset
	.cfi_endproc
	.section	.text.tlsf_resize,"ax",@progbits
	.globl	tlsf_resize
	.p2align	2
	.type	tlsf_resize,@function
tlsf_resize:
	.cfi_startproc
	sub	sp, sp, #128
	.cfi_def_cfa_offset 128
	stp	x29, x30, [sp, #32]
	stp	x28, x27, [sp, #48]
	stp	x26, x25, [sp, #64]
	stp	x24, x23, [sp, #80]
	stp	x22, x21, [sp, #96]
	stp	x20, x19, [sp, #112]
	add	x29, sp, #32
	.cfi_def_cfa w29, 96
	.cfi_offset w19, -8
	.cfi_offset w20, -16
	.cfi_offset w21, -24
	.cfi_offset w22, -32
	.cfi_offset w23, -40
	.cfi_offset w24, -48
	.cfi_offset w25, -56
	.cfi_offset w26, -64
	.cfi_offset w27, -72
	.cfi_offset w28, -80
	.cfi_offset w30, -88
	.cfi_offset w29, -96
	.cfi_remember_state
	ldrb	w8, [x0, #8]
	cbz	w8, .LBB101_45
	ldr	x24, [x0]
	mov	x19, x0
	ldrb	w8, [x24]
	tbz	w8, #0, .LBB101_45
	mov	w8, #-1
	ldrb	w9, [x24, #16]
	lsr	x21, x1, #32
	cmp	x3, x8
	strb	wzr, [x24]
	csel	x25, x3, x8, lo
	cmp	x3, #0
	cinc	x8, x25, eq
	add	x8, x8, #31
	lsr	x20, x8, #3
	ldr	w8, [x24, #24]
	cmp	w8, w1
	cbz	w9, .LBB101_15
	b.ne	.LBB101_60
	ldr	w8, [x24, #56]
	cmp	w21, w8
	b.hs	.LBB101_34
	lsr	x8, x1, #35
	ldr	x9, [x24, #72]
	and	x8, x8, #0x1ffffff8
	ldr	x8, [x9, x8]
	lsr	x8, x8, x21
	tbz	w8, #0, .LBB101_34
	ldur	x9, [x24, #48]
	lsl	x27, x21, #3
	add	x8, x9, x27
	ldr	x22, [x8]
	tbnz	w22, #0, .LBB101_34
	ldr	x10, [x8, #8]
	cmp	x10, x2
	b.ne	.LBB101_34
	lsr	w26, w22, #2
	cmp	w26, w20
	b.hs	.LBB101_26
	tbnz	w22, #1, .LBB101_11
	add	w8, w26, w21
	ldr	x3, [x9, w8, uxtw #3]
	tbnz	w3, #0, .LBB101_12
.LBB101_11:
	mov	x3, xzr
.LBB101_12:
	add	w8, w26, w3, lsr #2
	cmp	w8, w20
	b.lo	.LBB101_25
	ldr	x5, [x24, #32]
	cmn	x5, #1
	b.eq	.LBB101_58
	add	x0, x24, #48
	mov	w1, w21
	mov	x2, x22
	mov	w4, w20
	bl	"tlsf_heap::refitting::recut::<=5>"
	b	.LBB101_48
.LBB101_15:
	b.ne	.LBB101_60
	ldr	w8, [x24, #56]
	cmp	w21, w8
	b.hs	.LBB101_34
	lsr	x8, x1, #35
	ldr	x9, [x24, #72]
	and	x8, x8, #0x1ffffff8
	ldr	x8, [x9, x8]
	lsr	x8, x8, x21
	tbz	w8, #0, .LBB101_34
	ldur	x9, [x24, #48]
	lsl	x27, x21, #3
	add	x8, x9, x27
	ldr	x22, [x8]
	tbnz	w22, #0, .LBB101_34
	ldr	x10, [x8, #8]
	cmp	x10, x2
	b.ne	.LBB101_34
	lsr	w26, w22, #2
	cmp	w26, w20
	b.hs	.LBB101_35
	tbnz	w22, #1, .LBB101_23
	add	w8, w26, w21
	ldr	x3, [x9, w8, uxtw #3]
	tbnz	w3, #0, .LBB101_24
.LBB101_23:
	mov	x3, xzr
.LBB101_24:
	add	w8, w26, w3, lsr #2
	cmp	w8, w20
	b.hs	.LBB101_46
.LBB101_25:
	mov	w8, #1
	mov	w0, #10
	strb	w8, [x24]
	b	.LBB101_62
.LBB101_26:
	ldr	x23, [x24, #32]
	cmn	x23, #1
	b.eq	.LBB101_58
	ldr	x28, [x8, #16]
	str	x25, [x8, #16]
	cmp	w25, w28
	b.ls	.LBB101_32
	ands	w9, w28, #0x7
	b.eq	.LBB101_30
	mov	w8, w28
	stur	w9, [x29, #-12]
	ldur	x10, [x24, #48]
	add	x9, x27, x8
	sub	x0, x29, #8
	and	x11, x8, #0x7
	add	x9, x9, #24
	str	x10, [sp, #8]
	mov	w12, #8
	and	x27, x9, #0x1ffffffff8
	adrp	x9, .Lstatic.0
	add	x9, x9, :lo12:.Lstatic.0
	ldr	x10, [x10, x27]
	bfxil	x0, x8, #0, #3
	sub	x2, x12, x11
	add	x1, x9, x11
	stur	x10, [x29, #-8]
	bl	tlsf_memory_cpy
	ldur	w9, [x29, #-12]
	ldr	x10, [sp, #8]
	ldur	x8, [x29, #-8]
	str	x8, [x10, x27]
.LBB101_30:
	lsr	w8, w28, #3
	cmp	w9, #0
	lsr	w10, w25, #3
	cinc	w9, w8, ne
	tst	w25, #0x7
	cinc	w8, w10, ne
	subs	w8, w8, w9
	b.eq	.LBB101_32
	ldur	x10, [x24, #48]
	add	w9, w21, w9
	ubfiz	x2, x8, #3, #32
	add	w9, w9, #3
	mov	w1, wzr
	add	x0, x10, w9, uxtw #3
	bl	tlsf_memory_set
.LBB101_32:
	add	w8, w20, #4
	cmp	w26, w8
	mov	w8, w26
	b.lo	.LBB101_44
	add	x0, x24, #48
	mov	w1, w21
	mov	x2, x22
	mov	w3, w20
	mov	x4, x23
	bl	"tlsf_heap::refitting::split_off::<=5>"
	b	.LBB101_43
.LBB101_34:
	mov	w0, w1
	b	.LBB101_61
.LBB101_35:
	ldr	x23, [x24, #32]
	cmn	x23, #1
	b.eq	.LBB101_58
	ldr	x28, [x8, #16]
	str	x25, [x8, #16]
	cmp	w25, w28
	b.ls	.LBB101_41
	ands	w9, w28, #0x7
	b.eq	.LBB101_39
	mov	w8, w28
	stur	w9, [x29, #-12]
	ldur	x10, [x24, #48]
	add	x9, x27, x8
	sub	x0, x29, #8
	and	x11, x8, #0x7
	add	x9, x9, #24
	str	x10, [sp, #8]
	mov	w12, #8
	and	x27, x9, #0x1ffffffff8
	adrp	x9, .Lstatic.0
	add	x9, x9, :lo12:.Lstatic.0
	ldr	x10, [x10, x27]
	bfxil	x0, x8, #0, #3
	sub	x2, x12, x11
	add	x1, x9, x11
	stur	x10, [x29, #-8]
	bl	tlsf_memory_cpy
	ldur	w9, [x29, #-12]
	ldr	x10, [sp, #8]
	ldur	x8, [x29, #-8]
	str	x8, [x10, x27]
.LBB101_39:
	lsr	w8, w28, #3
	cmp	w9, #0
	lsr	w10, w25, #3
	cinc	w9, w8, ne
	tst	w25, #0x7
	cinc	w8, w10, ne
	subs	w8, w8, w9
	b.eq	.LBB101_41
	ldur	x10, [x24, #48]
	add	w9, w21, w9
	ubfiz	x2, x8, #3, #32
	add	w9, w9, #3
	mov	w1, wzr
	add	x0, x10, w9, uxtw #3
	bl	tlsf_memory_set
.LBB101_41:
	add	w8, w20, #4
	cmp	w26, w8
	mov	w8, w26
	b.lo	.LBB101_44
	add	x0, x24, #48
	mov	w1, w21
	mov	x2, x22
	mov	w3, w20
	mov	x4, x23
	bl	"tlsf_heap::refitting::split_off::<=4>"
.LBB101_43:
	mov	w8, w20
.LBB101_44:
	ldr	w9, [x24, #40]
	ldr	x10, [x24, #32]
	sub	w8, w8, w26
	add	w8, w8, w9
	add	x9, x10, #1
	str	w8, [x24, #40]
	str	x9, [x24, #32]
	mov	w8, #1
	strb	w8, [x24]
	tbnz	w20, #0, .LBB101_56
	b	.LBB101_57
.LBB101_45:
	mov	w0, wzr
	.cfi_def_cfa wsp, 128
	ldp	x20, x19, [sp, #112]
	ldp	x22, x21, [sp, #96]
	ldp	x24, x23, [sp, #80]
	ldp	x26, x25, [sp, #64]
	ldp	x28, x27, [sp, #48]
	ldp	x29, x30, [sp, #32]
	add	sp, sp, #128
	.cfi_def_cfa_offset 0
	.cfi_restore w19
	.cfi_restore w20
	.cfi_restore w21
	.cfi_restore w22
	.cfi_restore w23
	.cfi_restore w24
	.cfi_restore w25
	.cfi_restore w26
	.cfi_restore w27
	.cfi_restore w28
	.cfi_restore w30
	.cfi_restore w29
	b	"tlsf_c::call_fault::CallFault::refusal"
.LBB101_46:
	.cfi_restore_state
	ldr	x5, [x24, #32]
	cmn	x5, #1
	b.eq	.LBB101_58
	add	x0, x24, #48
	mov	w1, w21
	mov	x2, x22
	mov	w4, w20
	bl	"tlsf_heap::refitting::recut::<=4>"
.LBB101_48:
	ldur	x8, [x24, #48]
	mov	w22, w0
	add	x8, x8, x27
	ldr	x23, [x8, #16]
	str	x25, [x8, #16]
	cmp	w25, w23
	b.ls	.LBB101_53
	ands	w9, w23, #0x7
	b.eq	.LBB101_51
	mov	w8, w23
	stur	w9, [x29, #-12]
	sub	x0, x29, #8
	add	x9, x27, x8
	ldur	x27, [x24, #48]
	and	x11, x8, #0x7
	add	x9, x9, #24
	mov	w12, #8
	bfxil	x0, x8, #0, #3
	and	x28, x9, #0x1ffffffff8
	adrp	x9, .Lstatic.0
	add	x9, x9, :lo12:.Lstatic.0
	ldr	x10, [x27, x28]
	sub	x2, x12, x11
	add	x1, x9, x11
	stur	x10, [x29, #-8]
	bl	tlsf_memory_cpy
	ldur	w9, [x29, #-12]
	ldur	x8, [x29, #-8]
	str	x8, [x27, x28]
.LBB101_51:
	lsr	w8, w23, #3
	cmp	w9, #0
	lsr	w10, w25, #3
	cinc	w9, w8, ne
	tst	w25, #0x7
	cinc	w8, w10, ne
	subs	w8, w8, w9
	b.eq	.LBB101_53
	ldur	x10, [x24, #48]
	add	w9, w21, w9
	ubfiz	x2, x8, #3, #32
	add	w9, w9, #3
	mov	w1, wzr
	add	x0, x10, w9, uxtw #3
	bl	tlsf_memory_set
.LBB101_53:
	ldp	w8, w10, [x24, #40]
	sub	w9, w22, w26
	add	w8, w8, w9
	cmp	w10, w8
	str	w8, [x24, #40]
	b.hs	.LBB101_55
	str	w8, [x24, #44]
.LBB101_55:
	ldr	x8, [x24, #32]
	add	x8, x8, #1
	str	x8, [x24, #32]
	mov	w8, #1
	strb	w8, [x24]
	tbz	w20, #0, .LBB101_57
.LBB101_56:
	ldrb	w8, [x19, #28]
	tbz	w8, #0, .LBB101_59
.LBB101_57:
	mov	w0, wzr
	b	.LBB101_62
.LBB101_58:
	mov	w8, #1
	mov	w0, #2
	strb	w8, [x24]
	b	.LBB101_62
.LBB101_59:
	mov	w8, #1
	mov	w0, wzr
	strb	w8, [x19, #28]
	b	.LBB101_62
.LBB101_60:
	mov	w0, w1
	mov	w1, w8
.LBB101_61:
	bl	"tlsf_heap::refusal::Refusal::of_name"
	and	w8, w0, #0xff
	mov	w9, #1
	cmp	w8, #3
	mov	w8, #3
	strb	w9, [x24]
	cinc	w0, w8, eq
.LBB101_62:
	.cfi_def_cfa wsp, 128
	ldp	x20, x19, [sp, #112]
	ldp	x22, x21, [sp, #96]
	ldp	x24, x23, [sp, #80]
	ldp	x26, x25, [sp, #64]
	ldp	x28, x27, [sp, #48]
	ldp	x29, x30, [sp, #32]
	add	sp, sp, #128
	.cfi_def_cfa_offset 0
	.cfi_restore w19
	.cfi_restore w20
	.cfi_restore w21
	.cfi_restore w22
	.cfi_restore w23
	.cfi_restore w24
	.cfi_restore w25
	.cfi_restore w26
	.cfi_restore w27
	.cfi_restore w28
	.cfi_restore w30
	.cfi_restore w29
	ret
.Lfunc_end101:
	.size	tlsf_resize, .Lfunc_end101-tlsf_resize
	.cfi_endproc
	.section	.text.tlsf_resize_place,"ax",@progbits
	.globl	tlsf_resize_place
	.p2align	2
	.type	tlsf_resize_place,@function
tlsf_resize_place:
	.cfi_startproc
	sub	sp, sp, #112
	.cfi_def_cfa_offset 112
	stp	x29, x30, [sp, #32]
	stp	x26, x25, [sp, #48]
	stp	x24, x23, [sp, #64]
	stp	x22, x21, [sp, #80]
	stp	x20, x19, [sp, #96]
	add	x29, sp, #32
	.cfi_def_cfa w29, 80
	.cfi_offset w19, -8
	.cfi_offset w20, -16
	.cfi_offset w21, -24
	.cfi_offset w22, -32
	.cfi_offset w23, -40
	.cfi_offset w24, -48
	.cfi_offset w25, -56
	.cfi_offset w26, -64
	.cfi_offset w30, -72
	.cfi_offset w29, -80
	.cfi_remember_state
	ldrb	w8, [x0, #8]
	cbz	w8, .LBB102_29
	ldr	x21, [x0]
	ldrb	w8, [x21]
	tbz	w8, #0, .LBB102_29
	mov	w9, #-1
	ldr	w8, [x21, #56]
	ldrb	w10, [x21, #16]
	cmp	x2, x9
	strb	wzr, [x21]
	csel	x22, x2, x9, lo
	cmp	w1, w8
	cbz	w10, .LBB102_15
	b.hs	.LBB102_26
	lsr	w8, w1, #3
	ldr	x9, [x21, #72]
	and	x8, x8, #0x1ffffff8
	ldr	x8, [x9, x8]
	lsr	x8, x8, x1
	tbz	w8, #0, .LBB102_26
	mov	w8, w1
	ldur	x10, [x21, #48]
	ubfiz	x23, x8, #3, #32
	add	x12, x10, x23
	ldr	x8, [x12]
	tbnz	w8, #0, .LBB102_26
	ldr	w9, [x12, #16]
	lsr	w24, w8, #2
	cmp	w22, w9
	csel	w20, w22, w9, lo
	cmp	x2, #0
	cinc	x9, x22, eq
	add	x13, x9, #31
	lsr	x19, x13, #3
	cmp	w24, w19
	b.hs	.LBB102_30
	tbnz	w8, #1, .LBB102_9
	add	w9, w24, w1
	ldr	x9, [x10, w9, uxtw #3]
	tbnz	w9, #0, .LBB102_10
.LBB102_9:
	mov	x9, xzr
.LBB102_10:
	add	w11, w24, w9, lsr #2
	cmp	w11, w19
	b.hs	.LBB102_38
	ldr	x11, [x21, #32]
	ldur	w8, [x21, #24]
	ldr	x9, [x12, #8]
	cmn	x11, #3
	stp	w8, w1, [sp]
	str	x9, [sp, #8]
	b.hi	.LBB102_47
	mov	w8, #7
	movk	w8, #2048, lsl #16
	cmp	x13, x8
	b.hi	.LBB102_25
	orr	w8, w19, #0x20
	mov	w9, #26
	clz	w8, w8
	sub	w8, w9, w8
	sub	w9, w19, #1
	lsr	w13, w9, w8
	add	x9, x21, #108
	add	w8, w13, w8, lsl #5
	add	w8, w8, #1
	sub	x8, x8, #1
	lsr	x12, x8, #5
	ldr	w14, [x9, x12, lsl #2]
	lsr	w13, w14, w13
	ands	w13, w13, #0xfffffffe
	b.eq	.LBB102_50
	rbit	w12, w13
	clz	w12, w12
	add	x12, x8, x12
	b	.LBB102_52
.LBB102_15:
	b.hs	.LBB102_26
	lsr	w8, w1, #3
	ldr	x9, [x21, #72]
	and	x8, x8, #0x1ffffff8
	ldr	x8, [x9, x8]
	lsr	x8, x8, x1
	tbz	w8, #0, .LBB102_26
	mov	w8, w1
	ldur	x10, [x21, #48]
	ubfiz	x23, x8, #3, #32
	add	x12, x10, x23
	ldr	x8, [x12]
	tbnz	w8, #0, .LBB102_26
	ldr	w9, [x12, #16]
	lsr	w24, w8, #2
	cmp	w22, w9
	csel	w20, w22, w9, lo
	cmp	x2, #0
	cinc	x9, x22, eq
	add	x13, x9, #31
	lsr	x19, x13, #3
	cmp	w24, w19
	b.hs	.LBB102_33
	tbnz	w8, #1, .LBB102_21
	add	w9, w24, w1
	ldr	x9, [x10, w9, uxtw #3]
	tbnz	w9, #0, .LBB102_22
.LBB102_21:
	mov	x9, xzr
.LBB102_22:
	add	w11, w24, w9, lsr #2
	cmp	w11, w19
	b.hs	.LBB102_40
	ldr	x11, [x21, #32]
	ldur	w8, [x21, #24]
	ldr	x9, [x12, #8]
	cmn	x11, #3
	stp	w8, w1, [sp]
	str	x9, [sp, #8]
	b.hi	.LBB102_47
	mov	w8, #7
	movk	w8, #128, lsl #16
	cmp	x13, x8
	b.ls	.LBB102_48
.LBB102_25:
	ldp	w8, w9, [x21, #8]
	mov	w0, #1
	strb	w0, [x21]
	adds	w8, w8, #1
	csinv	w8, w8, wzr, lo
	cmp	w22, w9
	csel	w9, w22, w9, hi
	stp	w8, w9, [x21, #8]
	b	.LBB102_28
.LBB102_26:
	mov	w8, #1
	mov	w0, #4
.LBB102_27:
	strb	w8, [x21]
.LBB102_28:
	.cfi_def_cfa wsp, 112
	ldp	x20, x19, [sp, #96]
	ldp	x22, x21, [sp, #80]
	ldp	x24, x23, [sp, #64]
	ldp	x26, x25, [sp, #48]
	ldp	x29, x30, [sp, #32]
	add	sp, sp, #112
	.cfi_def_cfa_offset 0
	.cfi_restore w19
	.cfi_restore w20
	.cfi_restore w21
	.cfi_restore w22
	.cfi_restore w23
	.cfi_restore w24
	.cfi_restore w25
	.cfi_restore w26
	.cfi_restore w30
	.cfi_restore w29
	ret
.LBB102_29:
	.cfi_restore_state
	.cfi_remember_state
	mov	w0, wzr
	.cfi_def_cfa wsp, 112
	ldp	x20, x19, [sp, #96]
	ldp	x22, x21, [sp, #80]
	ldp	x24, x23, [sp, #64]
	ldp	x26, x25, [sp, #48]
	ldp	x29, x30, [sp, #32]
	add	sp, sp, #112
	.cfi_def_cfa_offset 0
	.cfi_restore w19
	.cfi_restore w20
	.cfi_restore w21
	.cfi_restore w22
	.cfi_restore w23
	.cfi_restore w24
	.cfi_restore w25
	.cfi_restore w26
	.cfi_restore w30
	.cfi_restore w29
	b	"tlsf_c::call_fault::CallFault::refusal"
.LBB102_30:
	.cfi_restore_state
	ldr	x4, [x21, #32]
	cmn	x4, #1
	b.eq	.LBB102_47
	add	w9, w19, #4
	str	x20, [x12, #16]
	cmp	w24, w9
	mov	w9, w24
	b.lo	.LBB102_37
	add	x0, x21, #48
	mov	x2, x8
	mov	x25, x3
	mov	w3, w19
	mov	x20, x1
	bl	"tlsf_heap::refitting::split_off::<=5>"
	b	.LBB102_36
.LBB102_33:
	ldr	x4, [x21, #32]
	cmn	x4, #1
	b.eq	.LBB102_47
	add	w9, w19, #4
	str	x20, [x12, #16]
	cmp	w24, w9
	mov	w9, w24
	b.lo	.LBB102_37
	add	x0, x21, #48
	mov	x2, x8
	mov	x25, x3
	mov	w3, w19
	mov	x20, x1
	bl	"tlsf_heap::refitting::split_off::<=4>"
.LBB102_36:
	mov	x1, x20
	mov	x3, x25
	mov	w9, w19
.LBB102_37:
	ldr	w8, [x21, #40]
	ldr	x10, [x21, #32]
	sub	w9, w9, w24
	add	w8, w9, w8
	add	x9, x10, #1
	str	w8, [x21, #40]
	str	x9, [x21, #32]
	b	.LBB102_45
.LBB102_38:
	ldr	x5, [x21, #32]
	cmn	x5, #1
	b.eq	.LBB102_47
	mov	x25, x3
	add	x0, x21, #48
	mov	x2, x8
	mov	x3, x9
	mov	w4, w19
	mov	x26, x1
	bl	"tlsf_heap::refitting::recut::<=5>"
	b	.LBB102_42
.LBB102_40:
	ldr	x5, [x21, #32]
	cmn	x5, #1
	b.eq	.LBB102_47
	mov	x25, x3
	add	x0, x21, #48
	mov	x2, x8
	mov	x3, x9
	mov	w4, w19
	mov	x26, x1
	bl	"tlsf_heap::refitting::recut::<=4>"
.LBB102_42:
	ldr	x8, [x21, #48]
	sub	w9, w0, w24
	add	x8, x8, x23
	str	x20, [x8, #16]
	ldp	w8, w10, [x21, #40]
	add	w8, w8, w9
	cmp	w10, w8
	str	w8, [x21, #40]
	b.hs	.LBB102_44
	str	w8, [x21, #44]
.LBB102_44:
	ldr	x8, [x21, #32]
	mov	x3, x25
	mov	x1, x26
	add	x8, x8, #1
	str	x8, [x21, #32]
.LBB102_45:
	ldur	x8, [x21, #48]
	add	x8, x8, x23
	str	x22, [x8, #16]
.LBB102_46:
	mov	w8, #1
	mov	w0, wzr
	strb	w8, [x21]
	str	w1, [x3]
	b	.LBB102_28
.LBB102_47:
	mov	w8, #1
	mov	w0, #2
	b	.LBB102_27
.LBB102_48:
	orr	w8, w19, #0x10
	mov	w9, #27
	clz	w8, w8
	sub	w8, w9, w8
	sub	w9, w19, #1
	lsr	w13, w9, w8
	add	x9, x21, #108
	add	w8, w13, w8, lsl #4
	and	w13, w13, #0xf
	add	w8, w8, #1
	sub	x8, x8, #1
	lsr	x12, x8, #4
	ldr	w14, [x9, x12, lsl #2]
	lsr	w13, w14, w13
	ands	w13, w13, #0xfffffffe
	b.eq	.LBB102_62
	rbit	w12, w13
	clz	w12, w12
	add	x12, x8, x12
	b	.LBB102_64
.LBB102_50:
	mov	w8, #-2
	ldr	w13, [x21, #104]
	lsl	w8, w8, w12
	ands	w8, w13, w8
	b.eq	.LBB102_25
	rbit	w8, w8
	clz	w8, w8
	ldr	w12, [x9, w8, uxtw #2]
	rbit	w12, w12
	clz	w12, w12
	add	w12, w12, w8, lsl #5
.LBB102_52:
	add	x13, x21, #192
	ldr	w24, [x13, x12, lsl #2]
	ubfiz	x8, x24, #3, #32
	add	x14, x10, x8
	ldr	x14, [x14, #16]
	cmn	w14, #1
	b.eq	.LBB102_54
	ubfiz	x15, x14, #3, #32
	add	x10, x10, x15
	ldr	x15, [x10, #16]
	orr	x15, x15, #0xffffffff00000000
	str	x15, [x10, #16]
	str	w14, [x13, x12, lsl #2]
	ldur	x10, [x21, #48]
	b	.LBB102_56
.LBB102_54:
	lsr	x14, x12, #3
	mov	w15, #-1
	str	w15, [x13, x12, lsl #2]
	and	x15, x14, #0x1ffffffffffffffc
	mov	w14, #1
	ldr	w16, [x9, x15]
	lsl	w17, w14, w12
	bics	w16, w16, w17
	str	w16, [x9, x15]
	b.ne	.LBB102_56
	lsr	x12, x12, #5
	ldr	w15, [x21, #104]
	lsl	w12, w14, w12
	bic	w12, w15, w12
	str	w12, [x21, #104]
.LBB102_56:
	add	x17, x10, x8
	mov	w12, w1
	ldr	x15, [x17]
	sub	w16, w15, w19, lsl #2
	cmp	w16, #15
	b.hi	.LBB102_58
	sub	x9, x15, #1
	str	x22, [x17, #16]
	lsr	w19, w9, #2
	stp	x9, x11, [x17]
	b	.LBB102_75
.LBB102_58:
	add	w14, w24, w19
	sub	x15, x15, x16
	str	x15, [x10, x24, lsl #3]
	ubfiz	x15, x14, #3, #32
	orr	x18, x16, x24, lsl #32
	stp	x11, x22, [x17, #8]
	add	x10, x10, x15
	stp	x18, x11, [x10]
	lsr	w10, w14, #3
	ldr	x11, [x21, #72]
	and	x17, x10, #0x1ffffff8
	mov	w10, #1
	ldr	x18, [x11, x17]
	lsl	x0, x10, x14
	lsr	w10, w16, #2
	orr	x18, x18, x0
	str	x18, [x11, x17]
	tbnz	w16, #1, .LBB102_60
	ldur	x11, [x21, #48]
	add	w16, w10, w14
	add	x11, x11, w16, uxtw #3
	str	w14, [x11, #4]
.LBB102_60:
	orr	w11, w10, #0x20
	mov	w16, #26
	ldur	x17, [x21, #48]
	clz	w11, w11
	sub	w11, w16, w11
	lsr	w10, w10, w11
	add	w11, w10, w11, lsl #5
	ldr	w16, [x13, w11, uxtw #2]
	str	w14, [x13, w11, uxtw #2]
	tbnz	w16, #31, .LBB102_74
	add	x11, x17, x16, lsl #3
	orr	x9, x16, #0xffffffff00000000
	add	x10, x17, x15
	str	x9, [x10, #16]
	str	w14, [x11, #20]
	b	.LBB102_75
.LBB102_62:
	mov	w8, #-2
	ldr	w13, [x21, #104]
	lsl	w8, w8, w12
	ands	w8, w13, w8
	b.eq	.LBB102_25
	rbit	w8, w8
	clz	w8, w8
	ldr	w12, [x9, w8, uxtw #2]
	rbit	w12, w12
	clz	w12, w12
	add	w12, w12, w8, lsl #4
.LBB102_64:
	add	x13, x21, #192
	ldr	w24, [x13, x12, lsl #2]
	ubfiz	x8, x24, #3, #32
	add	x14, x10, x8
	ldr	x14, [x14, #16]
	cmn	w14, #1
	b.eq	.LBB102_66
	ubfiz	x15, x14, #3, #32
	add	x10, x10, x15
	ldr	x15, [x10, #16]
	orr	x15, x15, #0xffffffff00000000
	str	x15, [x10, #16]
	str	w14, [x13, x12, lsl #2]
	ldur	x10, [x21, #48]
	b	.LBB102_68
.LBB102_66:
	lsr	x14, x12, #2
	mov	w15, #-1
	str	w15, [x13, x12, lsl #2]
	and	w16, w12, #0xf
	and	x15, x14, #0x3ffffffffffffffc
	mov	w14, #1
	ldr	w17, [x9, x15]
	lsl	w16, w14, w16
	bics	w16, w17, w16
	str	w16, [x9, x15]
	b.ne	.LBB102_68
	lsr	x12, x12, #4
	ldr	w15, [x21, #104]
	lsl	w12, w14, w12
	bic	w12, w15, w12
	str	w12, [x21, #104]
.LBB102_68:
	add	x17, x10, x8
	mov	w12, w1
	ldr	x15, [x17]
	sub	w16, w15, w19, lsl #2
	cmp	w16, #15
	b.hi	.LBB102_70
	sub	x9, x15, #1
	str	x22, [x17, #16]
	lsr	w19, w9, #2
	stp	x9, x11, [x17]
	b	.LBB102_82
.LBB102_70:
	add	w14, w24, w19
	sub	x15, x15, x16
	str	x15, [x10, x24, lsl #3]
	ubfiz	x15, x14, #3, #32
	orr	x18, x16, x24, lsl #32
	stp	x11, x22, [x17, #8]
	add	x10, x10, x15
	stp	x18, x11, [x10]
	lsr	w10, w14, #3
	ldr	x11, [x21, #72]
	and	x17, x10, #0x1ffffff8
	mov	w10, #1
	ldr	x18, [x11, x17]
	lsl	x0, x10, x14
	lsr	w10, w16, #2
	orr	x18, x18, x0
	str	x18, [x11, x17]
	tbnz	w16, #1, .LBB102_72
	ldur	x11, [x21, #48]
	add	w16, w10, w14
	add	x11, x11, w16, uxtw #3
	str	w14, [x11, #4]
.LBB102_72:
	orr	w11, w10, #0x10
	mov	w16, #27
	ldur	x17, [x21, #48]
	clz	w11, w11
	sub	w11, w16, w11
	lsr	w10, w10, w11
	add	w11, w10, w11, lsl #4
	ldr	w16, [x13, w11, uxtw #2]
	str	w14, [x13, w11, uxtw #2]
	tbnz	w16, #31, .LBB102_81
	add	x11, x17, x16, lsl #3
	orr	x9, x16, #0xffffffff00000000
	add	x10, x17, x15
	str	x9, [x10, #16]
	str	w14, [x11, #20]
	b	.LBB102_82
.LBB102_74:
	add	x13, x17, x15
	mov	x14, #-1
	lsr	x11, x11, #5
	mov	w15, #1
	str	x14, [x13, #16]
	ldr	w13, [x21, #104]
	lsl	w14, w15, w11
	lsl	w10, w15, w10
	ldr	w15, [x9, x11, lsl #2]
	orr	w13, w13, w14
	str	w13, [x21, #104]
	orr	w10, w15, w10
	str	w10, [x9, x11, lsl #2]
.LBB102_75:
	ldp	w9, w10, [x21, #40]
	add	w9, w9, w19
	cmp	w10, w9
	str	w9, [x21, #40]
	b.hs	.LBB102_77
	str	w9, [x21, #44]
.LBB102_77:
	ldr	x9, [x21, #32]
	ldr	x0, [x21, #48]
	mov	x22, x3
	add	x1, x12, #3
	add	x9, x9, #1
	add	x8, x0, x8
	str	x9, [x21, #32]
	add	x9, x0, x23
	add	x23, x24, #3
	ldr	w9, [x9, #16]
	ldr	w8, [x8, #16]
	cmp	w8, w9
	csel	w8, w8, w9, lo
	lsr	x19, x8, #3
	ands	x20, x8, #0x7
	b.eq	.LBB102_79
	add	x8, x19, x1
	add	x2, x24, #3
	mov	x3, x19
	ldr	x8, [x0, x8, lsl #3]
	str	x8, [sp, #16]
	bl	"tlsf_words::cells::copy_run"
	ldur	x25, [x21, #48]
	add	x19, x19, x23
	sub	x0, x29, #8
	add	x1, sp, #16
	mov	x2, x20
	ldr	x8, [x25, x19, lsl #3]
	stur	x8, [x29, #-8]
	bl	tlsf_memory_cpy
	ldur	x8, [x29, #-8]
	str	x8, [x25, x19, lsl #3]
	b	.LBB102_80
.LBB102_79:
	add	x2, x24, #3
	mov	x3, x19
	bl	"tlsf_words::cells::copy_run"
.LBB102_80:
	add	x0, x21, #24
	mov	x1, sp
	bl	"tlsf_heap::heap::Heap::release_live::<=5>"
	b	.LBB102_88
.LBB102_81:
	add	x13, x17, x15
	mov	x14, #-1
	lsr	x11, x11, #4
	mov	w15, #1
	str	x14, [x13, #16]
	and	w10, w10, #0xf
	ldr	w13, [x21, #104]
	lsl	w14, w15, w11
	lsl	w10, w15, w10
	ldr	w15, [x9, x11, lsl #2]
	orr	w13, w13, w14
	str	w13, [x21, #104]
	orr	w10, w15, w10
	str	w10, [x9, x11, lsl #2]
.LBB102_82:
	ldp	w9, w10, [x21, #40]
	add	w9, w9, w19
	cmp	w10, w9
	str	w9, [x21, #40]
	b.hs	.LBB102_84
	str	w9, [x21, #44]
.LBB102_84:
	ldr	x9, [x21, #32]
	ldr	x0, [x21, #48]
	mov	x22, x3
	add	x1, x12, #3
	add	x9, x9, #1
	add	x8, x0, x8
	str	x9, [x21, #32]
	add	x9, x0, x23
	add	x23, x24, #3
	ldr	w9, [x9, #16]
	ldr	w8, [x8, #16]
	cmp	w8, w9
	csel	w8, w8, w9, lo
	lsr	x19, x8, #3
	ands	x20, x8, #0x7
	b.eq	.LBB102_86
	add	x8, x19, x1
	add	x2, x24, #3
	mov	x3, x19
	ldr	x8, [x0, x8, lsl #3]
	str	x8, [sp, #16]
	bl	"tlsf_words::cells::copy_run"
	ldur	x25, [x21, #48]
	add	x19, x19, x23
	sub	x0, x29, #8
	add	x1, sp, #16
	mov	x2, x20
	ldr	x8, [x25, x19, lsl #3]
	stur	x8, [x29, #-8]
	bl	tlsf_memory_cpy
	ldur	x8, [x29, #-8]
	str	x8, [x25, x19, lsl #3]
	b	.LBB102_87
.LBB102_86:
	add	x2, x24, #3
	mov	x3, x19
	bl	"tlsf_words::cells::copy_run"
.LBB102_87:
	add	x0, x21, #24
	mov	x1, sp
	bl	"tlsf_heap::heap::Heap::release_live::<=4>"
.LBB102_88:
	mov	w1, w24
	mov	x3, x22
	b	.LBB102_46
.Lfunc_end102:
	.size	tlsf_resize_place, .Lfunc_end102-tlsf_resize_place
	.cfi_endproc
	.section	.text.tlsf_take,"ax",@progbits
	.globl	tlsf_take
	.p2align	2
	.type	tlsf_take,@function
tlsf_take:
	.cfi_startproc
	ldrb	w8, [x0, #8]
	cbz	w8, .LBB103_7
	ldr	x8, [x0]
	ldrb	w9, [x8, #1]
	tbz	w9, #0, .LBB103_7
	ldrb	w9, [x8]
	cmp	w9, #1
	b.ne	.LBB103_8
	ldp	x10, x9, [x8, #24]
	ldr	x11, [x8, #40]
	strb	wzr, [x8, #1]
	lsl	x12, x10, #1
	subs	x11, x11, x9
	csneg	x12, xzr, x12, hs
	cmp	x11, x12
	b.ne	.LBB103_6
	ldr	x9, [x8, #8]
	add	x9, x9, #128
	ldar	x11, [x9]
	ldp	x10, x9, [x8, #24]
	str	x11, [x8, #40]
	lsl	x12, x10, #1
	subs	x13, x11, x9
	csneg	x12, xzr, x12, hs
	cmp	x13, x12
	b.ne	.LBB103_6
	mov	w0, #35
	mov	w9, #1
	strb	w9, [x8, #1]
	ret
.LBB103_6:
	lsl	x11, x10, #1
	mov	w12, #24
	mov	w0, wzr
	sub	x11, x11, #1
	cmp	x9, x11
	csinc	x11, xzr, x9, hs
	cmp	x9, x10
	csel	x10, xzr, x10, lo
	sub	x9, x9, x10
	ldr	x10, [x8, #16]
	madd	x9, x9, x12, x10
	ldr	x10, [x8, #8]
	ldr	x12, [x9, #16]
	ldr	d0, [x9, #8]
	stlr	x11, [x10]
	str	x11, [x8, #32]
	str	d0, [x1]
	str	x12, [x1, #8]
	mov	w9, #1
	strb	w9, [x8, #1]
	ret
.LBB103_7:
	mov	w0, wzr
	b	"tlsf_c::call_fault::CallFault::refusal"
.LBB103_8:
	mov	w0, #2
	b	"tlsf_c::call_fault::CallFault::refusal"
.Lfunc_end103:
	.size	tlsf_take, .Lfunc_end103-tlsf_take
	.cfi_endproc
	.section	.text.tlsf_take_all,"ax",@progbits
	.globl	tlsf_take_all
	.p2align	2
	.type	tlsf_take_all,@function
tlsf_take_all:
	.cfi_startproc
	stp	x29, x30, [sp, #-80]!
	.cfi_def_cfa_offset 80
	str	x28, [sp, #16]
	stp	x24, x23, [sp, #32]
	stp	x22, x21, [sp, #48]
	stp	x20, x19, [sp, #64]
	mov	x29, sp
	.cfi_def_cfa w29, 80
	.cfi_offset w19, -8
	.cfi_offset w20, -16
	.cfi_offset w21, -24
	.cfi_offset w22, -32
	.cfi_offset w23, -40
	.cfi_offset w24, -48
	.cfi_offset w28, -64
	.cfi_offset w30, -72
	.cfi_offset w29, -80
	.cfi_remember_state
	sub	sp, sp, #768
	ldrb	w8, [x0, #8]
	cmp	x1, #0
	mov	w9, #4096
	csel	x23, x9, xzr, eq
	cbz	w8, .LBB104_18
	ldr	x22, [x0]
	ldrb	w8, [x22, #1]
	tbz	w8, #0, .LBB104_18
	ldrb	w8, [x22]
	cmp	w8, #1
	b.ne	.LBB104_21
	ldp	x9, x8, [x22, #24]
	cmp	x2, #32
	ldr	x10, [x22, #40]
	mov	w11, #32
	mov	x19, x3
	csel	x20, x2, x11, lo
	mov	x21, x1
	strb	wzr, [x22, #1]
	lsl	x12, x9, #1
	subs	x11, x10, x8
	csel	x12, x12, xzr, lo
	add	x11, x11, x12
	cmp	x11, x20
	b.hs	.LBB104_5
	ldr	x8, [x22, #8]
	add	x8, x8, #128
	ldar	x10, [x8]
	ldp	x9, x8, [x22, #24]
	str	x10, [x22, #40]
	lsl	x11, x9, #1
	subs	x12, x10, x8
	csel	x11, x11, xzr, lo
	add	x11, x12, x11
	cmp	x11, x20
	csel	x20, x11, x20, lo
.LBB104_5:
	cmp	x20, #21
	b.lo	.LBB104_8
	mov	x0, sp
	mov	w1, wzr
	mov	w2, #768
	mov	x24, sp
	bl	tlsf_memory_set
	add	x0, x22, #8
	mov	x1, sp
	mov	x2, x20
	bl	"tlsf_post::take_end::TakeEnd::take_slice"
	add	x8, x23, x21
	add	x9, x24, #16
	mov	x10, x20
	add	x8, x8, #8
.LBB104_7:
	ldur	d0, [x9, #-8]
	ldr	x11, [x9], #24
	subs	x10, x10, #1
	stur	d0, [x8, #-8]
	str	x11, [x8], #16
	b.ne	.LBB104_7
	b	.LBB104_15
.LBB104_8:
	cmp	x20, #2
	b.lo	.LBB104_11
	movi	v0.2d, #0000000000000000
	mov	x8, sp
	add	x0, x22, #8
	mov	x1, sp
	mov	x2, x20
	add	x24, x8, #16
	stp	q0, q0, [sp]
	stp	q0, q0, [sp, #32]
	stp	q0, q0, [sp, #64]
	stp	q0, q0, [sp, #96]
	stp	q0, q0, [sp, #128]
	stp	q0, q0, [sp, #160]
	stp	q0, q0, [sp, #192]
	stp	q0, q0, [sp, #224]
	stp	q0, q0, [sp, #256]
	stp	q0, q0, [sp, #288]
	stp	q0, q0, [sp, #320]
	stp	q0, q0, [sp, #352]
	stp	q0, q0, [sp, #384]
	stp	q0, q0, [sp, #416]
	stp	q0, q0, [sp, #448]
	bl	"tlsf_post::take_end::TakeEnd::take_slice"
	add	x8, x23, x21
	mov	x9, x20
	add	x8, x8, #8
.LBB104_10:
	ldur	d0, [x24, #-8]
	ldr	x10, [x24], #24
	subs	x9, x9, #1
	stur	d0, [x8, #-8]
	str	x10, [x8], #16
	b.ne	.LBB104_10
	b	.LBB104_15
.LBB104_11:
	cmp	x20, #1
	b.ne	.LBB104_19
	lsl	x11, x9, #1
	subs	x10, x10, x8
	csneg	x11, xzr, x11, hs
	cmp	x10, x11
	b.ne	.LBB104_14
	ldr	x8, [x22, #8]
	add	x8, x8, #128
	ldar	x10, [x8]
	ldp	x9, x8, [x22, #24]
	str	x10, [x22, #40]
	lsl	x11, x9, #1
	subs	x12, x10, x8
	csneg	x11, xzr, x11, hs
	cmp	x12, x11
	b.eq	.LBB104_15
.LBB104_14:
	lsl	x10, x9, #1
	mov	w11, #24
	sub	x10, x10, #1
	cmp	x8, x10
	csinc	x10, xzr, x8, hs
	cmp	x8, x9
	csel	x9, xzr, x9, lo
	sub	x8, x8, x9
	ldr	x9, [x22, #16]
	madd	x8, x8, x11, x9
	ldr	x9, [x22, #8]
	ldr	x11, [x8, #16]
	ldr	d0, [x8, #8]
	stlr	x10, [x9]
	add	x8, x21, x23
	str	x10, [x22, #32]
	str	d0, [x8]
	str	x11, [x8, #8]
.LBB104_15:
	mov	w8, #1
	strb	w8, [x22, #1]
.LBB104_16:
	mov	w0, wzr
	str	x20, [x19]
.LBB104_17:
	add	sp, sp, #768
	.cfi_def_cfa wsp, 80
	ldp	x20, x19, [sp, #64]
	ldr	x28, [sp, #16]
	ldp	x22, x21, [sp, #48]
	ldp	x24, x23, [sp, #32]
	ldp	x29, x30, [sp], #80
	.cfi_def_cfa_offset 0
	.cfi_restore w19
	.cfi_restore w20
	.cfi_restore w21
	.cfi_restore w22
	.cfi_restore w23
	.cfi_restore w24
	.cfi_restore w28
	.cfi_restore w30
	.cfi_restore w29
	ret
.LBB104_18:
	.cfi_restore_state
	mov	w0, wzr
	b	.LBB104_22
.LBB104_19:
	mov	w8, #1
	strb	w8, [x22, #1]
	cbz	x2, .LBB104_16
	mov	w0, #35
	b	.LBB104_17
.LBB104_21:
	mov	w0, #2
.LBB104_22:
	add	sp, sp, #768
	.cfi_def_cfa wsp, 80
	ldp	x20, x19, [sp, #64]
	ldr	x28, [sp, #16]
	ldp	x22, x21, [sp, #48]
	ldp	x24, x23, [sp, #32]
	ldp	x29, x30, [sp], #80
	.cfi_def_cfa_offset 0
	.cfi_restore w19
	.cfi_restore w20
	.cfi_restore w21
	.cfi_restore w22
	.cfi_restore w23
	.cfi_restore w24
	.cfi_restore w28
	.cfi_restore w30
	.cfi_restore w29
	b	"tlsf_c::call_fault::CallFault::refusal"
.Lfunc_end104:
	.size	tlsf_take_all, .Lfunc_end104-tlsf_take_all
	.cfi_endproc
	.section	.text.tlsf_take_close,"ax",@progbits
	.globl	tlsf_take_close
	.p2align	2
	.type	tlsf_take_close,@function
tlsf_take_close:
	.cfi_startproc
	ldrb	w8, [x0, #8]
	cbz	w8, .LBB105_4
	ldr	x8, [x0]
	ldrb	w9, [x8, #1]
	cmp	w9, #1
	b.ne	.LBB105_4
	ldrb	w9, [x8]
	cmp	w9, #1
	b.ne	.LBB105_5
	sub	sp, sp, #128
	.cfi_def_cfa_offset 128
	stp	x29, x30, [sp, #96]
	str	x19, [sp, #112]
	add	x29, sp, #96
	.cfi_def_cfa w29, 32
	.cfi_offset w19, -16
	.cfi_offset w30, -24
	.cfi_offset w29, -32
	strb	wzr, [x8, #1]
	ldr	x8, [x0]
	stp	xzr, xzr, [x0]
	ldur	q0, [x8, #8]
	ldur	q1, [x8, #24]
	ldr	x9, [x8, #40]
	ldrh	w19, [x8]
	mov	x0, x8
	stur	q0, [sp, #8]
	stur	q1, [sp, #24]
	stur	x9, [sp, #40]
	bl	tlsf_memory_dealloc
	ldur	q0, [sp, #8]
	ldur	q1, [sp, #24]
	add	x0, sp, #48
	ldur	x8, [sp, #40]
	str	xzr, [sp, #48]
	strh	w19, [sp, #48]
	stur	q0, [sp, #56]
	stur	q1, [sp, #72]
	str	x8, [sp, #88]
	bl	"tlsf_c::tlsf_c++any_end++AnyEnd+Destruct::drop"
	mov	w0, wzr
	.cfi_def_cfa wsp, 128
	ldp	x29, x30, [sp, #96]
	ldr	x19, [sp, #112]
	add	sp, sp, #128
	.cfi_def_cfa_offset 0
	.cfi_restore w19
	.cfi_restore w30
	.cfi_restore w29
	ret
.LBB105_4:
	mov	w0, #32
	ret
.LBB105_5:
	mov	w0, #40
	ret
.Lfunc_end105:
	.size	tlsf_take_close, .Lfunc_end105-tlsf_take_close
	.cfi_endproc
	.section	.text.tlsf_words,"ax",@progbits
	.globl	tlsf_words
	.p2align	2
	.type	tlsf_words,@function
tlsf_words:
	.cfi_startproc
	mov	w8, #-1
	and	w10, w0, #0xfffffffe
	cmp	x2, x8
	csel	x9, x2, x8, lo
	cmp	w10, #4
	b.ne	.LBB106_6
	cbz	w1, .LBB106_7
	cmp	w0, #4
	b.ne	.LBB106_9
	mov	w8, #65512
	movk	w8, #127, lsl #16
	cmp	x2, x8
	b.hi	.LBB106_21
	cmp	x2, #9
	mov	w8, w1
	b.hs	.LBB106_12
	lsl	x8, x8, #2
	cmp	x8, #256, lsl #12
	b.ls	.LBB106_8
	b	.LBB106_21
.LBB106_6:
	mov	w0, #34
	ret
.LBB106_7:
	mov	w8, #4
.LBB106_8:
	mov	w0, wzr
	str	w8, [x3]
	ret
.LBB106_9:
	mov	w8, #65512
	movk	w8, #2047, lsl #16
	cmp	x2, x8
	b.hi	.LBB106_21
	cmp	x2, #9
	mov	w8, w1
	b.hs	.LBB106_14
	lsl	x8, x8, #2
	b	.LBB106_20
.LBB106_12:
	add	w9, w9, #31
	mov	w11, #27
	lsr	w9, w9, #3
	orr	w10, w9, #0x10
	add	w14, w9, #3
	sub	w9, w9, #1
	clz	w10, w10
	umull	x15, w8, w14
	sub	w10, w11, w10
	lsr	w12, w9, w10
	subs	x9, x15, x14
	add	w13, w12, #1
	csel	x9, xzr, x9, lo
	add	w11, w10, w13, lsr #4
	add	x9, x9, #1
	cbz	w11, .LBB106_16
	and	w10, w13, #0xf
	sub	w12, w11, #1
	mov	w13, #8
	lsl	w10, w10, w12
	lsl	w11, w13, w11
	add	w10, w11, w10
	sub	w10, w10, #1
	b	.LBB106_17
.LBB106_14:
	add	w9, w9, #31
	mov	w11, #26
	lsr	w9, w9, #3
	orr	w10, w9, #0x20
	add	w14, w9, #3
	sub	w9, w9, #1
	clz	w10, w10
	umull	x15, w8, w14
	sub	w10, w11, w10
	lsr	w12, w9, w10
	subs	x9, x15, x14
	add	w13, w12, #1
	csel	x9, xzr, x9, lo
	add	w11, w10, w13, lsr #5
	add	x9, x9, #1
	cbz	w11, .LBB106_18
	and	w10, w13, #0x1f
	sub	w12, w11, #1
	mov	w13, #16
	lsl	w10, w10, w12
	lsl	w11, w13, w11
	add	w10, w11, w10
	sub	w10, w10, #1
	b	.LBB106_19
.LBB106_16:
	add	w10, w12, w10, lsl #4
.LBB106_17:
	umaddl	x8, w8, w10, x9
	mov	w9, #4
	cmp	x8, #4
	csel	x8, x8, x9, hi
	cmp	x8, #256, lsl #12
	b.ls	.LBB106_8
	b	.LBB106_21
.LBB106_18:
	add	w10, w12, w10, lsl #5
.LBB106_19:
	umaddl	x8, w8, w10, x9
	mov	w9, #4
	cmp	x8, #4
	csel	x8, x8, x9, hi
.LBB106_20:
	mov	w9, #16777216
	cmp	x8, x9
	b.ls	.LBB106_8
.LBB106_21:
	mov	w0, #5
	ret
.Lfunc_end106:
	.size	tlsf_words, .Lfunc_end106-tlsf_words
	.cfi_endproc
	.section	.text.tlsf_offsets_report,"ax",@progbits
	.globl	tlsf_offsets_report
	.p2align	2
	.type	tlsf_offsets_report,@function
tlsf_offsets_report:
	.cfi_startproc
	ldrb	w8, [x0, #8]
	cbz	w8, .LBB107_12
	ldr	x8, [x0]
	ldrb	w9, [x8, #1]
	tbz	w9, #0, .LBB107_12
	ldrb	w9, [x8]
	cbnz	w9, .LBB107_13
	ldrb	w9, [x8, #8]
	ldr	w10, [x8, #48]
	strb	wzr, [x8, #1]
	cbz	w9, .LBB107_7
	cbz	w10, .LBB107_10
	ldr	x15, [x8, #40]
	mov	w14, wzr
	mov	w11, wzr
	mov	w12, wzr
	mov	w13, wzr
	mov	w9, wzr
.LBB107_6:
	ldr	x16, [x15, w14, uxtw #3]
	lsr	w17, w16, #2
	cmp	w17, w11
	add	w18, w17, w13
	add	w0, w17, w12
	csel	w2, w17, w11, hi
	tst	w16, #0x1
	add	w14, w17, w14
	cinc	w9, w9, eq
	csel	w13, w18, w13, eq
	csel	w12, w12, w0, eq
	csel	w11, w11, w2, eq
	cmp	w14, w10
	b.lo	.LBB107_6
	b	.LBB107_11
.LBB107_7:
	cbz	w10, .LBB107_10
	ldr	x15, [x8, #40]
	mov	w14, wzr
	mov	w11, wzr
	mov	w12, wzr
	mov	w13, wzr
	mov	w9, wzr
.LBB107_9:
	ldr	x16, [x15, w14, uxtw #3]
	lsr	w17, w16, #2
	cmp	w17, w11
	add	w18, w17, w13
	add	w0, w17, w12
	csel	w2, w17, w11, hi
	tst	w16, #0x1
	add	w14, w17, w14
	cinc	w9, w9, eq
	csel	w13, w18, w13, eq
	csel	w12, w12, w0, eq
	csel	w11, w11, w2, eq
	cmp	w14, w10
	b.lo	.LBB107_9
	b	.LBB107_11
.LBB107_10:
	mov	w9, wzr
	mov	x13, xzr
	mov	x12, xzr
	mov	x11, xzr
.LBB107_11:
	ldr	w14, [x8, #2752]
	mov	w0, wzr
	umull	x10, w13, w14
	mov	w13, #1
	umull	x12, w12, w14
	strb	w13, [x8, #1]
	umull	x11, w11, w14
	stp	w9, wzr, [x1]
	stp	x10, x12, [x1, #8]
	str	x11, [x1, #24]
	ret
.LBB107_12:
	mov	w0, wzr
	b	"tlsf_c::call_fault::CallFault::refusal"
.LBB107_13:
	mov	w0, #2
	b	"tlsf_c::call_fault::CallFault::refusal"
.Lfunc_end107:
	.size	tlsf_offsets_report, .Lfunc_end107-tlsf_offsets_report
	.cfi_endproc
	.section	.text.tlsf_write,"ax",@progbits
	.globl	tlsf_write
	.p2align	2
	.type	tlsf_write,@function
tlsf_write:
	.cfi_startproc
	ldrb	w8, [x0, #8]
	cmp	x4, #0
	mov	w9, #4096
	csel	x10, x9, xzr, eq
	cbz	w8, .LBB108_11
	stp	x29, x30, [sp, #-32]!
	.cfi_def_cfa_offset 32
	str	x19, [sp, #16]
	mov	x29, sp
	.cfi_def_cfa w29, 32
	.cfi_offset w19, -16
	.cfi_offset w30, -24
	.cfi_offset w29, -32
	.cfi_remember_state
	ldr	x19, [x0]
	ldrb	w8, [x19]
	cmp	w8, #1
	b.ne	.LBB108_12
	ldr	w9, [x19, #24]
	ldrb	w11, [x19, #16]
	lsr	x8, x1, #32
	strb	wzr, [x19]
	cmp	w9, w1
	cbz	w11, .LBB108_13
	b.ne	.LBB108_22
	ldr	w9, [x19, #56]
	cmp	w8, w9
	b.hs	.LBB108_20
	lsr	x9, x1, #35
	ldr	x11, [x19, #72]
	and	x9, x9, #0x1ffffff8
	ldr	x9, [x11, x9]
	lsr	x9, x9, x8
	tbz	w9, #0, .LBB108_20
	ldur	x9, [x19, #48]
	add	x9, x9, x8, lsl #3
	ldr	x11, [x9]
	tbnz	w11, #0, .LBB108_20
	ldr	x11, [x9, #8]
	cmp	x11, x2
	b.ne	.LBB108_20
	ldr	w9, [x9, #16]
	add	x11, x5, w3, uxtw
	cmp	x11, x9
	b.hi	.LBB108_19
	add	x0, x19, #48
	mov	w2, w3
	add	x3, x4, x10
	mov	w1, w8
	mov	x4, x5
	bl	"tlsf_heap::region::Region::write::<=5>"
	mov	w0, wzr
.LBB108_10:
	mov	w0, wzr
	mov	w8, #1
	strb	w8, [x19]
	.cfi_def_cfa wsp, 32
	ldr	x19, [sp, #16]
	ldp	x29, x30, [sp], #32
	.cfi_def_cfa_offset 0
	.cfi_restore w19
	.cfi_restore w30
	.cfi_restore w29
	ret
.LBB108_11:
	mov	w0, #32
	ret
.LBB108_12:
	.cfi_restore_state
	.cfi_remember_state
	mov	w0, #32
	.cfi_def_cfa wsp, 32
	ldr	x19, [sp, #16]
	ldp	x29, x30, [sp], #32
	.cfi_def_cfa_offset 0
	.cfi_restore w19
	.cfi_restore w30
	.cfi_restore w29
	ret
.LBB108_13:
	.cfi_restore_state
	b.ne	.LBB108_22
	ldr	w9, [x19, #56]
	cmp	w8, w9
	b.hs	.LBB108_20
	lsr	x9, x1, #35
	ldr	x11, [x19, #72]
	and	x9, x9, #0x1ffffff8
	ldr	x9, [x11, x9]
	lsr	x9, x9, x8
	tbz	w9, #0, .LBB108_20
	ldur	x9, [x19, #48]
	add	x9, x9, x8, lsl #3
	ldr	x11, [x9]
	tbnz	w11, #0, .LBB108_20
	ldr	x11, [x9, #8]
	cmp	x11, x2
	b.ne	.LBB108_20
	ldr	w9, [x9, #16]
	add	x11, x5, w3, uxtw
	cmp	x11, x9
	b.ls	.LBB108_21
.LBB108_19:
	mov	w0, #4
	mov	w8, #1
	tbz	w8, #0, .LBB108_10
	b	.LBB108_23
.LBB108_20:
	mov	w0, w1
	bl	"tlsf_heap::refusal::Refusal::of_name"
	mov	w8, #1
	tbz	w8, #0, .LBB108_10
	b	.LBB108_23
.LBB108_21:
	add	x0, x19, #48
	mov	w2, w3
	add	x3, x4, x10
	mov	w1, w8
	mov	x4, x5
	bl	"tlsf_heap::region::Region::write::<=4>"
	mov	w0, wzr
	b	.LBB108_10
.LBB108_22:
	mov	w0, w1
	mov	w1, w9
	bl	"tlsf_heap::refusal::Refusal::of_name"
	mov	w8, #1
	tbz	w8, #0, .LBB108_10
.LBB108_23:
	and	x8, x0, #0xff
	adrp	x9, .Lswitch.table.tlsf_write
	add	x9, x9, :lo12:.Lswitch.table.tlsf_write
	ldr	w0, [x9, x8, lsl #2]
	mov	w8, #1
	strb	w8, [x19]
	.cfi_def_cfa wsp, 32
	ldr	x19, [sp, #16]
	ldp	x29, x30, [sp], #32
	.cfi_def_cfa_offset 0
	.cfi_restore w19
	.cfi_restore w30
	.cfi_restore w29
	ret
.Lfunc_end108:
	.size	tlsf_write, .Lfunc_end108-tlsf_write
	.cfi_endproc
	.section	.text.tlsf_pools_write,"ax",@progbits
	.globl	tlsf_pools_write
	.p2align	2
	.type	tlsf_pools_write,@function
tlsf_pools_write:
	.cfi_startproc
	stp	x29, x30, [sp, #-32]!
	.cfi_def_cfa_offset 32
	str	x19, [sp, #16]
	mov	x29, sp
	.cfi_def_cfa w29, 32
	.cfi_offset w19, -16
	.cfi_offset w30, -24
	.cfi_offset w29, -32
	.cfi_remember_state
	ldrb	w8, [x0, #8]
	cmp	x4, #0
	mov	w9, #4096
	csel	x10, x9, xzr, eq
	cbz	w8, .LBB109_21
	ldr	x19, [x0]
	ldrb	w8, [x19, #1]
	tbz	w8, #0, .LBB109_21
	ldrb	w8, [x19]
	cmp	w8, #1
	b.ne	.LBB109_24
	ldr	w8, [x19, #16]
	ldr	x11, [x19, #32]
	ldrb	w12, [x19, #8]
	strb	wzr, [x19, #1]
	subs	w9, w1, w8
	csel	w9, wzr, w9, lo
	cmp	w8, w1
	lsr	x8, x1, #32
	ccmp	x11, x9, #0, ls
	cset	w11, hi
	cbz	w12, .LBB109_12
	cbz	w11, .LBB109_20
	mov	w11, #2792
	ldr	x12, [x19, #24]
	umaddl	x11, w9, w11, x12
	ldr	w9, [x11]
	cmp	w9, w1
	b.ne	.LBB109_25
	ldr	w9, [x11, #32]
	cmp	w8, w9
	b.hs	.LBB109_22
	lsr	x9, x1, #35
	ldr	x12, [x11, #48]
	and	x9, x9, #0x1ffffff8
	ldr	x9, [x12, x9]
	lsr	x9, x9, x8
	tbz	w9, #0, .LBB109_22
	ldur	x9, [x11, #24]
	add	x9, x9, x8, lsl #3
	ldr	x12, [x9]
	tbnz	w12, #0, .LBB109_22
	ldr	x12, [x9, #8]
	cmp	x12, x2
	b.ne	.LBB109_22
	ldr	w9, [x9, #16]
	add	x12, x5, w3, uxtw
	cmp	x12, x9
	b.hi	.LBB109_19
	add	x0, x11, #24
	mov	w2, w3
	add	x3, x4, x10
	mov	w1, w8
	mov	x4, x5
	bl	"tlsf_heap::region::Region::write::<=5>"
	mov	w8, #1
	mov	w0, wzr
	strb	w8, [x19, #1]
	.cfi_def_cfa wsp, 32
	ldr	x19, [sp, #16]
	ldp	x29, x30, [sp], #32
	.cfi_def_cfa_offset 0
	.cfi_restore w19
	.cfi_restore w30
	.cfi_restore w29
	ret
.LBB109_12:
	.cfi_restore_state
	.cfi_remember_state
	cbz	w11, .LBB109_20
	mov	w11, #2792
	ldr	x12, [x19, #24]
	umaddl	x11, w9, w11, x12
	ldr	w9, [x11]
	cmp	w9, w1
	b.ne	.LBB109_25
	ldr	w9, [x11, #32]
	cmp	w8, w9
	b.hs	.LBB109_22
	lsr	x9, x1, #35
	ldr	x12, [x11, #48]
	and	x9, x9, #0x1ffffff8
	ldr	x9, [x12, x9]
	lsr	x9, x9, x8
	tbz	w9, #0, .LBB109_22
	ldur	x9, [x11, #24]
	add	x9, x9, x8, lsl #3
	ldr	x12, [x9]
	tbnz	w12, #0, .LBB109_22
	ldr	x12, [x9, #8]
	cmp	x12, x2
	b.ne	.LBB109_22
	ldr	w9, [x9, #16]
	add	x12, x5, w3, uxtw
	cmp	x12, x9
	b.ls	.LBB109_23
.LBB109_19:
	mov	w8, #1
	mov	w0, #7
	strb	w8, [x19, #1]
	.cfi_def_cfa wsp, 32
	ldr	x19, [sp, #16]
	ldp	x29, x30, [sp], #32
	.cfi_def_cfa_offset 0
	.cfi_restore w19
	.cfi_restore w30
	.cfi_restore w29
	ret
.LBB109_20:
	.cfi_restore_state
	.cfi_remember_state
	mov	w8, #1
	mov	w0, #3
	strb	w8, [x19, #1]
	.cfi_def_cfa wsp, 32
	ldr	x19, [sp, #16]
	ldp	x29, x30, [sp], #32
	.cfi_def_cfa_offset 0
	.cfi_restore w19
	.cfi_restore w30
	.cfi_restore w29
	ret
.LBB109_21:
	.cfi_restore_state
	.cfi_remember_state
	mov	w0, wzr
	.cfi_def_cfa wsp, 32
	ldr	x19, [sp, #16]
	ldp	x29, x30, [sp], #32
	.cfi_def_cfa_offset 0
	.cfi_restore w19
	.cfi_restore w30
	.cfi_restore w29
	b	"tlsf_c::call_fault::CallFault::refusal"
.LBB109_22:
	.cfi_restore_state
	.cfi_remember_state
	mov	w0, w1
	b	.LBB109_26
.LBB109_23:
	add	x0, x11, #24
	mov	w2, w3
	add	x3, x4, x10
	mov	w1, w8
	mov	x4, x5
	bl	"tlsf_heap::region::Region::write::<=4>"
	mov	w8, #1
	mov	w0, wzr
	strb	w8, [x19, #1]
	.cfi_def_cfa wsp, 32
	ldr	x19, [sp, #16]
	ldp	x29, x30, [sp], #32
	.cfi_def_cfa_offset 0
	.cfi_restore w19
	.cfi_restore w30
	.cfi_restore w29
	ret
.LBB109_24:
	.cfi_restore_state
	.cfi_remember_state
	mov	w0, #2
	.cfi_def_cfa wsp, 32
	ldr	x19, [sp, #16]
	ldp	x29, x30, [sp], #32
	.cfi_def_cfa_offset 0
	.cfi_restore w19
	.cfi_restore w30
	.cfi_restore w29
	b	"tlsf_c::call_fault::CallFault::refusal"
.LBB109_25:
	.cfi_restore_state
	mov	w0, w1
	mov	w1, w9
.LBB109_26:
	bl	"tlsf_heap::refusal::Refusal::of_name"
	and	w8, w0, #0xff
	mov	w9, #1
	cmp	w8, #3
	mov	w8, #3
	strb	w9, [x19, #1]
	cinc	w0, w8, eq
	.cfi_def_cfa wsp, 32
	ldr	x19, [sp, #16]
	ldp	x29, x30, [sp], #32
	.cfi_def_cfa_offset 0
	.cfi_restore w19
	.cfi_restore w30
	.cfi_restore w29
	ret
.Lfunc_end109:
	.size	tlsf_pools_write, .Lfunc_end109-tlsf_pools_write
	.cfi_endproc
	.type	.Lstatic.0,@object
	.section	.rodata.cst8,"aM",@progbits,8
.Lstatic.0:
	.zero	8
	.size	.Lstatic.0, 8
	.type	.Lswitch.table.tlsf_allocate_aligned,@object
	.section	.rodata..Lswitch.table.tlsf_allocate_aligned,"a",@progbits
	.p2align	3, 0x0
.Lswitch.table.tlsf_allocate_aligned:
	.xword	8589934592
	.xword	12884901888
	.xword	17179869184
	.xword	30064771072
	.xword	42949672960
	.size	.Lswitch.table.tlsf_allocate_aligned, 40
	.type	.Lswitch.table.tlsf_queue_take,@object
	.section	.rodata..Lswitch.table.tlsf_queue_take,"a",@progbits
	.p2align	2, 0x0
.Lswitch.table.tlsf_queue_take:
	.word	32
	.word	36
	.word	40
	.word	5
	.word	6
	.word	33
	.word	34
	.word	8
	.word	35
	.word	37
	.word	38
	.size	.Lswitch.table.tlsf_queue_take, 44
	.type	.Lswitch.table.tlsf_write,@object
	.section	.rodata..Lswitch.table.tlsf_write,"a",@progbits
	.p2align	2, 0x0
.Lswitch.table.tlsf_write:
	.word	1
	.word	2
	.word	3
	.word	4
	.word	7
	.size	.Lswitch.table.tlsf_write, 20
	.ident	"rattle logic=dac8208d650f15bf3e2dc313a14fa4c783a3acf887bdfab66e1714b038d9e11b"
	.section	".note.GNU-stack","",@progbits
/* The calls in C: c/pointers.c. */
	.text
	.globl	tlsf_rounded
	.p2align	2
	.type	tlsf_rounded,@function
tlsf_rounded:
	.cfi_startproc
	add	x8, x0, #7
	cmn	x0, #16
	and	x8, x8, #0xfffffffffffffff0
	orr	x8, x8, #0x8
	csinv	x0, x8, xzr, ls
	ret
.Lp_func_end0:
	.size	tlsf_rounded, .Lp_func_end0-tlsf_rounded
	.cfi_endproc
	.globl	tlsf_place_of
	.p2align	2
	.type	tlsf_place_of,@function
tlsf_place_of:
	.cfi_startproc
	ldr	x8, [x0, #16]
	mov	w9, #-1
	sub	x8, x1, x8
	sub	x8, x8, #24
	ror	x8, x8, #3
	cmp	x8, x9
	csel	x0, x8, x9, lo
	ret
.Lp_func_end1:
	.size	tlsf_place_of, .Lp_func_end1-tlsf_place_of
	.cfi_endproc
	.globl	tlsf_near
	.p2align	2
	.type	tlsf_near,@function
tlsf_near:
	.cfi_startproc
	neg	w8, w0
	and	x8, x8, #0x3f
	add	x0, x0, x8
	prfm	pstl1keep, [x0, #64]
	prfm	pstl1keep, [x0, #128]
	ret
.Lp_func_end2:
	.size	tlsf_near, .Lp_func_end2-tlsf_near
	.cfi_endproc
	.globl	tlsf_base
	.p2align	2
	.type	tlsf_base,@function
tlsf_base:
	.cfi_startproc
	ldrb	w8, [x0, #8]
	cmp	w8, #1
	b.ne	.Lp_BB3_2
	ldr	x0, [x0, #16]
	ret
.Lp_BB3_2:
	mov	x0, xzr
	ret
.Lp_func_end3:
	.size	tlsf_base, .Lp_func_end3-tlsf_base
	.cfi_endproc
	.globl	tlsf_at
	.p2align	2
	.type	tlsf_at,@function
tlsf_at:
	.cfi_startproc
	lsr	x8, x1, #32
	cmp	x0, #0
	add	x8, x0, x8, lsl #3
	add	x8, x8, #24
	csel	x0, xzr, x8, eq
	ret
.Lp_func_end4:
	.size	tlsf_at, .Lp_func_end4-tlsf_at
	.cfi_endproc
	.globl	tlsf_block_size
	.p2align	2
	.type	tlsf_block_size,@function
tlsf_block_size:
	.cfi_startproc
	cbz	x0, .Lp_BB5_2
	ldur	x0, [x0, #-8]
.Lp_BB5_2:
	ret
.Lp_func_end5:
	.size	tlsf_block_size, .Lp_func_end5-tlsf_block_size
	.cfi_endproc
	.globl	tlsf_aligned_alloc
	.p2align	2
	.type	tlsf_aligned_alloc,@function
tlsf_aligned_alloc:
	.cfi_startproc
	sub	x8, x1, #1
	eor	x9, x1, x8
	cmp	x9, x8
	b.ls	.Lp_BB6_6
	stp	x29, x30, [sp, #-32]!
	.cfi_def_cfa_offset 32
	str	x19, [sp, #16]
	mov	x29, sp
	.cfi_def_cfa w29, 32
	.cfi_offset w19, -16
	.cfi_offset w30, -24
	.cfi_offset w29, -32
	.cfi_remember_state
	mov	w8, #134217728
	cmp	x1, x8
	b.hi	.Lp_BB6_9
	mov	w8, #134217728
	cmp	x2, x8
	b.hi	.Lp_BB6_9
	ldrb	w8, [x0, #28]
	cbnz	w8, .Lp_BB6_10
	add	w8, w2, #7
	cmp	x1, #16
	and	x8, x8, #0x1ffffff0
	b.hi	.Lp_BB6_7
	orr	x1, x8, #0x8
	mov	x19, x0
	bl	tlsf_allocate_place
	lsr	x8, x0, #32
	cbz	x8, .Lp_BB6_8
	b	.Lp_BB6_11
.Lp_BB6_6:
	.cfi_def_cfa wsp, 0
	.cfi_same_value w19
	.cfi_same_value w30
	.cfi_same_value w29
	mov	x0, xzr
	ret
.Lp_BB6_7:
	.cfi_restore_state
	ldr	w9, [x0, #16]
	sub	w10, w1, #1
	lsr	x2, x1, #3
	orr	x1, x8, #0x8
	mov	x19, x0
	and	w9, w10, w9
	lsr	w3, w9, #3
	bl	tlsf_allocate_aligned
	lsr	x8, x0, #32
	cbnz	x8, .Lp_BB6_11
.Lp_BB6_8:
	ldr	x8, [x19, #16]
	add	x8, x8, x0, lsl #3
	add	x0, x8, #24
	b	.Lp_BB6_12
.Lp_BB6_9:
	bl	tlsf_too_long
	b	.Lp_BB6_11
.Lp_BB6_10:
	mov	x8, x1
	mov	x1, x2
	mov	x19, x0
	mov	x2, x8
	bl	tlsf_mixed_place
	lsr	x8, x0, #32
	cbz	x8, .Lp_BB6_8
.Lp_BB6_11:
	mov	x0, xzr
.Lp_BB6_12:
	.cfi_def_cfa wsp, 32
	ldr	x19, [sp, #16]
	ldp	x29, x30, [sp], #32
	.cfi_def_cfa_offset 0
	.cfi_restore w19
	.cfi_restore w30
	.cfi_restore w29
	ret
.Lp_func_end6:
	.size	tlsf_aligned_alloc, .Lp_func_end6-tlsf_aligned_alloc
	.cfi_endproc
	.globl	tlsf_malloc
	.p2align	2
	.type	tlsf_malloc,@function
tlsf_malloc:
	.cfi_startproc
	ldrb	w8, [x0, #28]
	cbnz	w8, .Lp_BB7_4
	stp	x29, x30, [sp, #-32]!
	.cfi_def_cfa_offset 32
	str	x19, [sp, #16]
	mov	x29, sp
	.cfi_def_cfa w29, 32
	.cfi_offset w19, -16
	.cfi_offset w30, -24
	.cfi_offset w29, -32
	mov	x19, x0
	bl	tlsf_allocate_payload
	cbz	x0, .Lp_BB7_3
	ldr	x8, [x19, #16]
	add	x0, x8, x0
.Lp_BB7_3:
	.cfi_def_cfa wsp, 32
	ldr	x19, [sp, #16]
	ldp	x29, x30, [sp], #32
	.cfi_def_cfa_offset 0
	.cfi_restore w19
	.cfi_restore w30
	.cfi_restore w29
	ret
.Lp_BB7_4:
	b	tlsf_malloc_mixed
.Lp_func_end7:
	.size	tlsf_malloc, .Lp_func_end7-tlsf_malloc
	.cfi_endproc
	.section	.text.unlikely.,"ax",@progbits
	.p2align	2
	.type	tlsf_malloc_mixed,@function
tlsf_malloc_mixed:
	.cfi_startproc
	stp	x29, x30, [sp, #-32]!
	.cfi_def_cfa_offset 32
	str	x19, [sp, #16]
	mov	x29, sp
	.cfi_def_cfa w29, 32
	.cfi_offset w19, -16
	.cfi_offset w30, -24
	.cfi_offset w29, -32
	.cfi_remember_state
	ldrb	w8, [x0, #29]
	tst	w8, #0xffffffef
	b.ne	.Lp_BB8_6
	mov	x19, x0
	bl	tlsf_allocate_payload
	cbz	x0, .Lp_BB8_4
	ldr	x8, [x19, #16]
	add	x1, x8, x0
	tst	x1, #0xf
	b.eq	.Lp_BB8_5
	mov	x0, x19
	.cfi_def_cfa wsp, 32
	ldr	x19, [sp, #16]
	ldp	x29, x30, [sp], #32
	.cfi_def_cfa_offset 0
	.cfi_restore w19
	.cfi_restore w30
	.cfi_restore w29
	b	tlsf_malloc_again
.Lp_BB8_4:
	.cfi_restore_state
	.cfi_remember_state
	mov	x1, xzr
.Lp_BB8_5:
	mov	x0, x1
	.cfi_def_cfa wsp, 32
	ldr	x19, [sp, #16]
	ldp	x29, x30, [sp], #32
	.cfi_def_cfa_offset 0
	.cfi_restore w19
	.cfi_restore w30
	.cfi_restore w29
	ret
.Lp_BB8_6:
	.cfi_restore_state
	.cfi_def_cfa wsp, 32
	ldr	x19, [sp, #16]
	ldp	x29, x30, [sp], #32
	.cfi_def_cfa_offset 0
	.cfi_restore w19
	.cfi_restore w30
	.cfi_restore w29
	b	tlsf_malloc_own
.Lp_func_end8:
	.size	tlsf_malloc_mixed, .Lp_func_end8-tlsf_malloc_mixed
	.cfi_endproc
	.text
	.globl	tlsf_words_for
	.p2align	2
	.type	tlsf_words_for,@function
tlsf_words_for:
	.cfi_startproc
	cmp	x3, #16
	mov	w8, #16
	mov	w9, #134217728
	csel	x8, x3, x8, hi
	mov	x3, x4
	cmp	x8, x9
	csel	x8, x8, x9, lo
	cmp	x2, x9
	csel	x9, x2, x9, lo
	add	w9, w9, #7
	and	x9, x9, #0x1ffffff0
	add	x8, x9, x8
	add	x2, x8, #40
	b	tlsf_words
.Lp_func_end9:
	.size	tlsf_words_for, .Lp_func_end9-tlsf_words_for
	.cfi_endproc
	.globl	tlsf_calloc
	.p2align	2
	.type	tlsf_calloc,@function
tlsf_calloc:
	.cfi_startproc
	sub	sp, sp, #48
	.cfi_def_cfa_offset 48
	stp	x29, x30, [sp, #16]
	stp	x20, x19, [sp, #32]
	add	x29, sp, #16
	.cfi_def_cfa w29, 32
	.cfi_offset w19, -8
	.cfi_offset w20, -16
	.cfi_offset w30, -24
	.cfi_offset w29, -32
	.cfi_remember_state
	mov	x19, x0
	stp	xzr, xzr, [sp]
	cbz	x2, .Lp_BB10_2
	mov	w8, #134217728
	udiv	x8, x8, x2
	cmp	x1, x8
	b.hi	.Lp_BB10_4
.Lp_BB10_2:
	mul	x20, x2, x1
	ldrb	w8, [x19, #28]
	cbnz	w8, .Lp_BB10_7
	add	x8, x20, #7
	cmn	x20, #16
	mov	x2, sp
	and	x8, x8, #0xfffffffffffffff0
	mov	x0, x19
	orr	x8, x8, #0x8
	csinv	x1, x8, xzr, ls
	bl	tlsf_allocate
	cbz	w0, .Lp_BB10_5
.Lp_BB10_4:
	mov	x0, xzr
	b	.Lp_BB10_6
.Lp_BB10_5:
	ldr	w8, [sp, #4]
	ldr	x9, [x19, #16]
	add	x8, x9, x8, lsl #3
	add	x0, x8, #24
.Lp_BB10_6:
	.cfi_def_cfa wsp, 48
	ldp	x20, x19, [sp, #32]
	ldp	x29, x30, [sp, #16]
	add	sp, sp, #48
	.cfi_def_cfa_offset 0
	.cfi_restore w19
	.cfi_restore w20
	.cfi_restore w30
	.cfi_restore w29
	ret
.Lp_BB10_7:
	.cfi_restore_state
	mov	x0, x19
	mov	x1, x20
	bl	tlsf_malloc_mixed
	cbz	x0, .Lp_BB10_6
	mov	w1, wzr
	mov	x2, x20
	.cfi_def_cfa wsp, 48
	ldp	x20, x19, [sp, #32]
	ldp	x29, x30, [sp, #16]
	add	sp, sp, #48
	.cfi_def_cfa_offset 0
	.cfi_restore w19
	.cfi_restore w20
	.cfi_restore w30
	.cfi_restore w29
	b	memset
.Lp_func_end10:
	.size	tlsf_calloc, .Lp_func_end10-tlsf_calloc
	.cfi_endproc
	.globl	tlsf_free
	.p2align	2
	.type	tlsf_free,@function
tlsf_free:
	.cfi_startproc
	cbz	x1, .Lp_BB11_2
	prfum	pstl1keep, [x1, #-24]
	ldr	x8, [x0, #16]
	mov	w9, #-1
	sub	x8, x1, x8
	sub	x8, x8, #24
	ror	x8, x8, #3
	cmp	x8, x9
	csel	x1, x8, x9, lo
	b	tlsf_release_place
.Lp_BB11_2:
	mov	w0, wzr
	ret
.Lp_func_end11:
	.size	tlsf_free, .Lp_func_end11-tlsf_free
	.cfi_endproc
	.globl	tlsf_usable_size
	.p2align	2
	.type	tlsf_usable_size,@function
tlsf_usable_size:
	.cfi_startproc
	sub	sp, sp, #48
	.cfi_def_cfa_offset 48
	stp	x29, x30, [sp, #32]
	add	x29, sp, #32
	.cfi_def_cfa w29, 16
	.cfi_offset w30, -8
	.cfi_offset w29, -16
	ldr	x8, [x0, #16]
	mov	w9, #-1
	add	x2, sp, #16
	add	x3, sp, #12
	stp	xzr, xzr, [sp, #16]
	sub	x8, x1, x8
	str	wzr, [sp, #12]
	sub	x8, x8, #24
	ror	x8, x8, #3
	cmp	x8, x9
	csel	x1, x8, x9, lo
	bl	tlsf_place
	ldr	w8, [sp, #12]
	cmp	w0, #0
	csel	w0, w8, wzr, eq
	.cfi_def_cfa wsp, 48
	ldp	x29, x30, [sp, #32]
	add	sp, sp, #48
	.cfi_def_cfa_offset 0
	.cfi_restore w30
	.cfi_restore w29
	ret
.Lp_func_end12:
	.size	tlsf_usable_size, .Lp_func_end12-tlsf_usable_size
	.cfi_endproc
	.globl	tlsf_name_at
	.p2align	2
	.type	tlsf_name_at,@function
tlsf_name_at:
	.cfi_startproc
	sub	sp, sp, #48
	.cfi_def_cfa_offset 48
	stp	x29, x30, [sp, #16]
	str	x19, [sp, #32]
	add	x29, sp, #16
	.cfi_def_cfa w29, 32
	.cfi_offset w19, -16
	.cfi_offset w30, -24
	.cfi_offset w29, -32
	ldr	x8, [x0, #16]
	mov	w9, #-1
	mov	x19, x2
	mov	x2, sp
	add	x3, x29, #28
	stp	xzr, xzr, [sp]
	sub	x8, x1, x8
	str	wzr, [x29, #28]
	sub	x8, x8, #24
	ror	x8, x8, #3
	cmp	x8, x9
	csel	x1, x8, x9, lo
	bl	tlsf_place
	cbnz	w0, .Lp_BB13_2
	ldr	q0, [sp]
	str	q0, [x19]
.Lp_BB13_2:
	.cfi_def_cfa wsp, 48
	ldp	x29, x30, [sp, #16]
	ldr	x19, [sp, #32]
	add	sp, sp, #48
	.cfi_def_cfa_offset 0
	.cfi_restore w19
	.cfi_restore w30
	.cfi_restore w29
	ret
.Lp_func_end13:
	.size	tlsf_name_at, .Lp_func_end13-tlsf_name_at
	.cfi_endproc
	.globl	tlsf_realloc
	.p2align	2
	.type	tlsf_realloc,@function
tlsf_realloc:
	.cfi_startproc
	stp	x29, x30, [sp, #-32]!
	.cfi_def_cfa_offset 32
	str	x19, [sp, #16]
	mov	x29, sp
	.cfi_def_cfa w29, 32
	.cfi_offset w19, -16
	.cfi_offset w30, -24
	.cfi_offset w29, -32
	.cfi_remember_state
	cbz	x1, .Lp_BB14_6
	cbz	x2, .Lp_BB14_9
	mov	w8, #134217728
	cmp	x2, x8
	b.hi	.Lp_BB14_5
	ldrb	w8, [x0, #28]
	cbnz	w8, .Lp_BB14_13
	ldr	x8, [x0, #16]
	mov	w9, #-1
	add	x3, x29, #28
	mov	x19, x0
	sub	x8, x1, x8
	sub	x8, x8, #24
	ror	x8, x8, #3
	cmp	x8, x9
	csel	x1, x8, x9, lo
	add	w8, w2, #7
	and	x8, x8, #0x1ffffff0
	str	w1, [x29, #28]
	orr	x2, x8, #0x8
	bl	tlsf_resize_place
	cbz	w0, .Lp_BB14_10
.Lp_BB14_5:
	mov	x0, xzr
	b	.Lp_BB14_11
.Lp_BB14_6:
	ldrb	w8, [x0, #28]
	cbnz	w8, .Lp_BB14_12
	mov	x19, x0
	mov	x1, x2
	bl	tlsf_allocate_payload
	cbz	x0, .Lp_BB14_11
	ldr	x8, [x19, #16]
	add	x0, x8, x0
	b	.Lp_BB14_11
.Lp_BB14_9:
	prfum	pstl1keep, [x1, #-24]
	ldr	x8, [x0, #16]
	mov	w9, #-1
	sub	x8, x1, x8
	sub	x8, x8, #24
	ror	x8, x8, #3
	cmp	x8, x9
	csel	x1, x8, x9, lo
	bl	tlsf_release_place
	mov	x0, xzr
	b	.Lp_BB14_11
.Lp_BB14_10:
	ldr	x8, [x19, #16]
	ldr	w9, [x29, #28]
	add	x8, x8, x9, lsl #3
	add	x0, x8, #24
.Lp_BB14_11:
	.cfi_def_cfa wsp, 32
	ldr	x19, [sp, #16]
	ldp	x29, x30, [sp], #32
	.cfi_def_cfa_offset 0
	.cfi_restore w19
	.cfi_restore w30
	.cfi_restore w29
	ret
.Lp_BB14_12:
	.cfi_restore_state
	.cfi_remember_state
	mov	x1, x2
	.cfi_def_cfa wsp, 32
	ldr	x19, [sp, #16]
	ldp	x29, x30, [sp], #32
	.cfi_def_cfa_offset 0
	.cfi_restore w19
	.cfi_restore w30
	.cfi_restore w29
	b	tlsf_malloc_mixed
.Lp_BB14_13:
	.cfi_restore_state
	.cfi_def_cfa wsp, 32
	ldr	x19, [sp, #16]
	ldp	x29, x30, [sp], #32
	.cfi_def_cfa_offset 0
	.cfi_restore w19
	.cfi_restore w30
	.cfi_restore w29
	b	tlsf_realloc_mixed
.Lp_func_end14:
	.size	tlsf_realloc, .Lp_func_end14-tlsf_realloc
	.cfi_endproc
	.section	.text.unlikely.,"ax",@progbits
	.p2align	2
	.type	tlsf_realloc_mixed,@function
tlsf_realloc_mixed:
	.cfi_startproc
	sub	sp, sp, #112
	.cfi_def_cfa_offset 112
	stp	x29, x30, [sp, #48]
	stp	x24, x23, [sp, #64]
	stp	x22, x21, [sp, #80]
	stp	x20, x19, [sp, #96]
	add	x29, sp, #48
	.cfi_def_cfa w29, 64
	.cfi_offset w19, -8
	.cfi_offset w20, -16
	.cfi_offset w21, -24
	.cfi_offset w22, -32
	.cfi_offset w23, -40
	.cfi_offset w24, -48
	.cfi_offset w30, -56
	.cfi_offset w29, -64
	ldr	x8, [x0, #16]
	mov	w10, #-1
	mov	x21, x2
	mov	x20, x1
	mov	x19, x0
	stp	xzr, xzr, [sp]
	sub	x8, x1, x8
	str	xzr, [sp, #16]
	sub	x8, x8, #24
	ror	x9, x8, #3
	ldrb	w8, [x0, #29]
	cmp	x9, x10
	csel	x22, x9, x10, lo
	tst	w8, #0xffffffef
	b.eq	.Lp_BB15_2
	add	x9, x21, x8
	neg	x10, x8
	add	x9, x9, #23
	and	x9, x9, x10
	sub	x23, x9, #24
	b	.Lp_BB15_3
.Lp_BB15_2:
	add	w9, w21, #7
	and	x9, x9, #0x1ffffff0
	orr	x23, x9, #0x8
.Lp_BB15_3:
	cmp	w8, #8
	b.ne	.Lp_BB15_6
.Lp_BB15_4:
	add	x3, sp, #24
	mov	x0, x19
	mov	w1, w22
	mov	x2, x23
	str	w22, [sp, #24]
	bl	tlsf_resize_place
	cbz	w0, .Lp_BB15_13
	mov	x22, xzr
	b	.Lp_BB15_14
.Lp_BB15_6:
	mov	x2, sp
	mov	x0, x19
	mov	w1, w22
	bl	tlsf_block_at
	cbnz	w0, .Lp_BB15_4
	ldr	w8, [sp, #8]
	cbz	w8, .Lp_BB15_4
	ldr	w8, [sp, #4]
	stp	xzr, xzr, [sp, #24]
	str	xzr, [sp, #40]
	lsl	w9, w8, #3
	sub	w9, w9, #24
	cmp	x23, x9
	csel	x10, x23, x9, lo
	cmp	x21, x9
	csel	x23, x23, x10, hi
	lsr	x9, x23, #3
	add	x24, x9, #3
	cmp	x24, x8
	b.ls	.Lp_BB15_4
	ldr	w9, [sp]
	add	x2, sp, #24
	mov	x0, x19
	add	w1, w9, w8
	bl	tlsf_block_at
	ldr	w8, [sp, #32]
	orr	w8, w0, w8
	cbnz	w8, .Lp_BB15_11
	ldr	w8, [sp, #4]
	ldr	w9, [sp, #28]
	add	w8, w9, w8
	cmp	x24, x8
	b.ls	.Lp_BB15_4
.Lp_BB15_11:
	mov	x0, x19
	mov	x1, x21
	bl	tlsf_malloc
	mov	x22, x0
	cbz	x0, .Lp_BB15_14
	ldr	w8, [sp, #12]
	mov	x0, x22
	mov	x1, x20
	cmp	x21, x8
	csel	x2, x21, x8, lo
	bl	memcpy
	ldr	w1, [sp]
	mov	x0, x19
	bl	tlsf_release_place
	b	.Lp_BB15_14
.Lp_BB15_13:
	ldr	x8, [x19, #16]
	ldr	w9, [sp, #24]
	add	x8, x8, x9, lsl #3
	add	x22, x8, #24
.Lp_BB15_14:
	mov	x0, x22
	.cfi_def_cfa wsp, 112
	ldp	x20, x19, [sp, #96]
	ldp	x22, x21, [sp, #80]
	ldp	x24, x23, [sp, #64]
	ldp	x29, x30, [sp, #48]
	add	sp, sp, #112
	.cfi_def_cfa_offset 0
	.cfi_restore w19
	.cfi_restore w20
	.cfi_restore w21
	.cfi_restore w22
	.cfi_restore w23
	.cfi_restore w24
	.cfi_restore w30
	.cfi_restore w29
	ret
.Lp_func_end15:
	.size	tlsf_realloc_mixed, .Lp_func_end15-tlsf_realloc_mixed
	.cfi_endproc
	.text
	.globl	tlsf_aligned_realloc
	.p2align	2
	.type	tlsf_aligned_realloc,@function
tlsf_aligned_realloc:
	.cfi_startproc
	sub	sp, sp, #128
	.cfi_def_cfa_offset 128
	stp	x29, x30, [sp, #48]
	str	x25, [sp, #64]
	stp	x24, x23, [sp, #80]
	stp	x22, x21, [sp, #96]
	stp	x20, x19, [sp, #112]
	add	x29, sp, #48
	.cfi_def_cfa w29, 80
	.cfi_offset w19, -8
	.cfi_offset w20, -16
	.cfi_offset w21, -24
	.cfi_offset w22, -32
	.cfi_offset w23, -40
	.cfi_offset w24, -48
	.cfi_offset w25, -64
	.cfi_offset w30, -72
	.cfi_offset w29, -80
	.cfi_remember_state
	cbz	x1, .Lp_BB16_5
	cbz	x2, .Lp_BB16_3
	sub	x9, x2, #1
	tst	x2, x9
	b.eq	.Lp_BB16_6
.Lp_BB16_3:
	mov	x0, xzr
.Lp_BB16_4:
	.cfi_def_cfa wsp, 128
	ldp	x20, x19, [sp, #112]
	ldr	x25, [sp, #64]
	ldp	x22, x21, [sp, #96]
	ldp	x24, x23, [sp, #80]
	ldp	x29, x30, [sp, #48]
	add	sp, sp, #128
	.cfi_def_cfa_offset 0
	.cfi_restore w19
	.cfi_restore w20
	.cfi_restore w21
	.cfi_restore w22
	.cfi_restore w23
	.cfi_restore w24
	.cfi_restore w25
	.cfi_restore w30
	.cfi_restore w29
	ret
.Lp_BB16_5:
	.cfi_restore_state
	.cfi_remember_state
	mov	x1, x2
	mov	x2, x3
	.cfi_def_cfa wsp, 128
	ldp	x20, x19, [sp, #112]
	ldr	x25, [sp, #64]
	ldp	x22, x21, [sp, #96]
	ldp	x24, x23, [sp, #80]
	ldp	x29, x30, [sp, #48]
	add	sp, sp, #128
	.cfi_def_cfa_offset 0
	.cfi_restore w19
	.cfi_restore w20
	.cfi_restore w21
	.cfi_restore w22
	.cfi_restore w23
	.cfi_restore w24
	.cfi_restore w25
	.cfi_restore w30
	.cfi_restore w29
	b	tlsf_aligned_alloc
.Lp_BB16_6:
	.cfi_restore_state
	.cfi_remember_state
	cbz	x3, .Lp_BB16_11
	mov	w8, #134217728
	cmp	x3, x8
	b.hi	.Lp_BB16_3
	ldrb	w8, [x0, #29]
	mov	w10, #16
	cmp	w8, #0
	csel	w10, w10, w8, eq
	ands	x25, x9, x1
	b.ne	.Lp_BB16_12
	cmp	x2, x10
	b.hi	.Lp_BB16_12
	mov	x2, x3
	.cfi_def_cfa wsp, 128
	ldp	x20, x19, [sp, #112]
	ldr	x25, [sp, #64]
	ldp	x22, x21, [sp, #96]
	ldp	x24, x23, [sp, #80]
	ldp	x29, x30, [sp, #48]
	add	sp, sp, #128
	.cfi_def_cfa_offset 0
	.cfi_restore w19
	.cfi_restore w20
	.cfi_restore w21
	.cfi_restore w22
	.cfi_restore w23
	.cfi_restore w24
	.cfi_restore w25
	.cfi_restore w30
	.cfi_restore w29
	b	tlsf_realloc
.Lp_BB16_11:
	.cfi_restore_state
	prfum	pstl1keep, [x1, #-24]
	ldr	x8, [x0, #16]
	mov	w9, #-1
	sub	x8, x1, x8
	sub	x8, x8, #24
	ror	x8, x8, #3
	cmp	x8, x9
	csel	x1, x8, x9, lo
	bl	tlsf_release_place
	b	.Lp_BB16_3
.Lp_BB16_12:
	ldr	x9, [x0, #16]
	mov	w10, #-1
	mov	x23, x3
	mov	x24, x2
	mov	x21, x1
	stp	xzr, xzr, [sp]
	sub	x9, x1, x9
	str	xzr, [sp, #16]
	sub	x9, x9, #24
	ror	x9, x9, #3
	cmp	x9, x10
	csel	x20, x9, x10, lo
	tst	w8, #0xffffffef
	b.eq	.Lp_BB16_14
	add	x9, x3, x8
	neg	x8, x8
	add	x9, x9, #23
	and	x8, x9, x8
	sub	x22, x8, #24
	b	.Lp_BB16_15
.Lp_BB16_14:
	add	w8, w3, #7
	and	x8, x8, #0x1ffffff0
	orr	x22, x8, #0x8
.Lp_BB16_15:
	mov	x2, sp
	mov	w1, w20
	mov	x19, x0
	bl	tlsf_block_at
	cbnz	w0, .Lp_BB16_20
	ldr	w8, [sp, #8]
	cbz	w8, .Lp_BB16_20
	ldr	w8, [sp, #4]
	mov	x2, x23
	mov	x0, x19
	mov	x1, x24
	lsl	w9, w8, #3
	sub	w9, w9, #24
	cmp	x22, x9
	csel	x10, x22, x9, lo
	cmp	x23, x9
	csel	x22, x22, x10, hi
	cbz	x25, .Lp_BB16_23
.Lp_BB16_18:
	bl	tlsf_aligned_alloc
	cbz	x0, .Lp_BB16_4
	ldr	w8, [sp, #12]
	mov	x1, x21
	mov	x20, x0
	cmp	x23, x8
	csel	x2, x23, x8, lo
	bl	memcpy
	ldr	w1, [sp]
	mov	x0, x19
	bl	tlsf_release_place
	mov	x0, x20
	b	.Lp_BB16_4
.Lp_BB16_20:
	add	x3, sp, #24
	mov	x0, x19
.Lp_BB16_21:
	mov	w1, w20
	mov	x2, x22
	str	w20, [sp, #24]
	bl	tlsf_resize_place
	cbnz	w0, .Lp_BB16_3
	ldr	x8, [x19, #16]
	ldr	w9, [sp, #24]
	add	x8, x8, x9, lsl #3
	add	x0, x8, #24
	b	.Lp_BB16_4
.Lp_BB16_23:
	lsr	x9, x22, #3
	stp	xzr, xzr, [sp, #24]
	str	xzr, [sp, #40]
	add	x25, x9, #3
	cmp	x25, x8
	b.ls	.Lp_BB16_26
	ldr	w9, [sp]
	add	x2, sp, #24
	add	w1, w9, w8
	bl	tlsf_block_at
	ldr	w8, [sp, #32]
	orr	w8, w0, w8
	cbnz	w8, .Lp_BB16_27
	ldr	w8, [sp, #4]
	ldr	w9, [sp, #28]
	mov	x0, x19
	mov	x2, x23
	mov	x1, x24
	add	w8, w9, w8
	cmp	x25, x8
	b.hi	.Lp_BB16_18
.Lp_BB16_26:
	add	x3, sp, #24
	b	.Lp_BB16_21
.Lp_BB16_27:
	mov	x0, x19
	mov	x2, x23
	mov	x1, x24
	b	.Lp_BB16_18
.Lp_func_end16:
	.size	tlsf_aligned_realloc, .Lp_func_end16-tlsf_aligned_realloc
	.cfi_endproc
	.globl	tlsf_allocate_at
	.p2align	2
	.type	tlsf_allocate_at,@function
tlsf_allocate_at:
	.cfi_startproc
	stp	x29, x30, [sp, #-80]!
	.cfi_def_cfa_offset 80
	str	x25, [sp, #16]
	stp	x24, x23, [sp, #32]
	stp	x22, x21, [sp, #48]
	stp	x20, x19, [sp, #64]
	mov	x29, sp
	.cfi_def_cfa w29, 80
	.cfi_offset w19, -8
	.cfi_offset w20, -16
	.cfi_offset w21, -24
	.cfi_offset w22, -32
	.cfi_offset w23, -40
	.cfi_offset w24, -48
	.cfi_offset w25, -64
	.cfi_offset w30, -72
	.cfi_offset w29, -80
	.cfi_remember_state
	sub	x8, x2, #1
	eor	x9, x2, x8
	cmp	x9, x8
	b.ls	.Lp_BB17_6
	mov	w8, #134217728
	mov	x21, x0
	cmp	x1, x8
	b.hi	.Lp_BB17_15
	mov	w8, #134217728
	cmp	x2, x8
	b.hi	.Lp_BB17_15
	ldrb	w8, [x21, #28]
	mov	x19, x5
	mov	x20, x4
	mov	w22, w3
	cbnz	w8, .Lp_BB17_16
	add	w8, w1, #7
	mov	x23, x1
	cmp	x2, #16
	and	x8, x8, #0x1ffffff0
	b.hi	.Lp_BB17_7
	orr	x1, x8, #0x8
	mov	x0, x21
	bl	tlsf_allocate_place
	lsr	x8, x0, #32
	cbnz	x8, .Lp_BB17_14
	b	.Lp_BB17_8
.Lp_BB17_6:
	mov	w8, #5
	b	.Lp_BB17_14
.Lp_BB17_7:
	ldr	w9, [x21, #16]
	sub	w10, w2, #1
	lsr	x2, x2, #3
	orr	x1, x8, #0x8
	mov	x0, x21
	and	w9, w10, w9
	lsr	w3, w9, #3
	bl	tlsf_allocate_aligned
	lsr	x8, x0, #32
	cbnz	x8, .Lp_BB17_14
.Lp_BB17_8:
	ldr	w24, [x21, #24]
	tbnz	w22, #0, .Lp_BB17_13
	ldr	x8, [x21, #16]
	ldrb	w9, [x21, #29]
	mov	x22, x1
	mov	x25, x0
	add	x8, x8, x0, lsl #3
	tst	w9, #0xffffffef
	b.eq	.Lp_BB17_11
	cmp	x23, #1
	csinc	x10, x23, xzr, hi
	add	x10, x10, x9
	neg	x9, x9
	add	x10, x10, #23
	and	x9, x10, x9
	sub	x2, x9, #24
	b	.Lp_BB17_12
.Lp_BB17_11:
	add	w9, w23, #7
	and	x9, x9, #0x1ffffff0
	orr	x2, x9, #0x8
.Lp_BB17_12:
	add	x0, x8, #24
	mov	w1, wzr
	bl	memset
	mov	x0, x25
	mov	x1, x22
.Lp_BB17_13:
	ldr	x9, [x21, #16]
	mov	w8, wzr
	stp	w24, w0, [x20]
	str	x1, [x20, #8]
	add	x9, x9, x0, lsl #3
	add	x9, x9, #24
	str	x9, [x19]
.Lp_BB17_14:
	mov	w0, w8
	.cfi_def_cfa wsp, 80
	ldp	x20, x19, [sp, #64]
	ldr	x25, [sp, #16]
	ldp	x22, x21, [sp, #48]
	ldp	x24, x23, [sp, #32]
	ldp	x29, x30, [sp], #80
	.cfi_def_cfa_offset 0
	.cfi_restore w19
	.cfi_restore w20
	.cfi_restore w21
	.cfi_restore w22
	.cfi_restore w23
	.cfi_restore w24
	.cfi_restore w25
	.cfi_restore w30
	.cfi_restore w29
	ret
.Lp_BB17_15:
	.cfi_restore_state
	.cfi_remember_state
	mov	x0, x21
	.cfi_def_cfa wsp, 80
	ldp	x20, x19, [sp, #64]
	ldr	x25, [sp, #16]
	ldp	x22, x21, [sp, #48]
	ldp	x24, x23, [sp, #32]
	ldp	x29, x30, [sp], #80
	.cfi_def_cfa_offset 0
	.cfi_restore w19
	.cfi_restore w20
	.cfi_restore w21
	.cfi_restore w22
	.cfi_restore w23
	.cfi_restore w24
	.cfi_restore w25
	.cfi_restore w30
	.cfi_restore w29
	b	tlsf_too_long
.Lp_BB17_16:
	.cfi_restore_state
	mov	x0, x21
	mov	x23, x1
	bl	tlsf_mixed_place
	lsr	x8, x0, #32
	cbnz	x8, .Lp_BB17_14
	b	.Lp_BB17_8
.Lp_func_end17:
	.size	tlsf_allocate_at, .Lp_func_end17-tlsf_allocate_at
	.cfi_endproc
	.globl	tlsf_payload
	.p2align	2
	.type	tlsf_payload,@function
tlsf_payload:
	.cfi_startproc
	sub	sp, sp, #48
	.cfi_def_cfa_offset 48
	stp	x29, x30, [sp, #16]
	stp	x20, x19, [sp, #32]
	add	x29, sp, #16
	.cfi_def_cfa w29, 32
	.cfi_offset w19, -8
	.cfi_offset w20, -16
	.cfi_offset w30, -24
	.cfi_offset w29, -32
	mov	x19, x3
	add	x3, sp, #8
	add	x4, sp, #4
	mov	x20, x1
	str	xzr, [sp, #8]
	str	wzr, [sp, #4]
	bl	tlsf_locate
	mov	w8, w0
	mov	x0, xzr
	cbnz	w8, .Lp_BB18_4
	lsr	x8, x20, #32
	cbz	x19, .Lp_BB18_3
	ldr	w9, [sp, #4]
	str	w9, [x19]
.Lp_BB18_3:
	ldr	x9, [sp, #8]
	add	x8, x9, x8, lsl #3
	add	x0, x8, #24
.Lp_BB18_4:
	.cfi_def_cfa wsp, 48
	ldp	x20, x19, [sp, #32]
	ldp	x29, x30, [sp, #16]
	add	sp, sp, #48
	.cfi_def_cfa_offset 0
	.cfi_restore w19
	.cfi_restore w20
	.cfi_restore w30
	.cfi_restore w29
	ret
.Lp_func_end18:
	.size	tlsf_payload, .Lp_func_end18-tlsf_payload
	.cfi_endproc
	.globl	tlsf_pools_name_at
	.p2align	2
	.type	tlsf_pools_name_at,@function
tlsf_pools_name_at:
	.cfi_startproc
	sub	sp, sp, #96
	.cfi_def_cfa_offset 96
	stp	x29, x30, [sp, #32]
	stp	x24, x23, [sp, #48]
	stp	x22, x21, [sp, #64]
	stp	x20, x19, [sp, #80]
	add	x29, sp, #32
	.cfi_def_cfa w29, 64
	.cfi_offset w19, -8
	.cfi_offset w20, -16
	.cfi_offset w21, -24
	.cfi_offset w22, -32
	.cfi_offset w23, -40
	.cfi_offset w24, -48
	.cfi_offset w30, -56
	.cfi_offset w29, -64
	.cfi_remember_state
	mov	x19, x2
	mov	x21, x1
	add	x2, sp, #16
	sub	x3, x29, #4
	mov	w1, wzr
	mov	x20, x0
	str	wzr, [sp, #12]
	stur	wzr, [x29, #-4]
	str	xzr, [sp, #16]
	bl	tlsf_pools_part
	mov	x24, xzr
	mov	w22, wzr
	cbz	w0, .Lp_BB19_2
.Lp_BB19_1:
	sub	x8, x21, x24
	mov	w9, #-1
	add	x4, sp, #12
	sub	x8, x8, #24
	mov	x0, x20
	mov	w1, w22
	ror	x8, x8, #3
	mov	x3, x19
	cmp	x8, x9
	csel	x2, x8, x9, lo
	bl	tlsf_pools_place
	.cfi_def_cfa wsp, 96
	ldp	x20, x19, [sp, #80]
	ldp	x22, x21, [sp, #64]
	ldp	x24, x23, [sp, #48]
	ldp	x29, x30, [sp, #32]
	add	sp, sp, #96
	.cfi_def_cfa_offset 0
	.cfi_restore w19
	.cfi_restore w20
	.cfi_restore w21
	.cfi_restore w22
	.cfi_restore w23
	.cfi_restore w24
	.cfi_restore w30
	.cfi_restore w29
	ret
.Lp_BB19_2:
	.cfi_restore_state
	mov	w23, wzr
	b	.Lp_BB19_5
.Lp_BB19_3:
	mov	x24, x8
	mov	w22, w23
.Lp_BB19_4:
	add	w23, w23, #1
	add	x2, sp, #16
	sub	x3, x29, #4
	mov	x0, x20
	mov	w1, w23
	bl	tlsf_pools_part
	cbnz	w0, .Lp_BB19_1
.Lp_BB19_5:
	ldr	x8, [sp, #16]
	cbz	w23, .Lp_BB19_3
	sub	x9, x21, x8
	sub	x10, x21, x24
	cmp	x9, x10
	b.ls	.Lp_BB19_3
	b	.Lp_BB19_4
.Lp_func_end19:
	.size	tlsf_pools_name_at, .Lp_func_end19-tlsf_pools_name_at
	.cfi_endproc
	.globl	tlsf_pools_usable_size
	.p2align	2
	.type	tlsf_pools_usable_size,@function
tlsf_pools_usable_size:
	.cfi_startproc
	sub	sp, sp, #96
	.cfi_def_cfa_offset 96
	stp	x29, x30, [sp, #32]
	str	x23, [sp, #48]
	stp	x22, x21, [sp, #64]
	stp	x20, x19, [sp, #80]
	add	x29, sp, #32
	.cfi_def_cfa w29, 64
	.cfi_offset w19, -8
	.cfi_offset w20, -16
	.cfi_offset w21, -24
	.cfi_offset w22, -32
	.cfi_offset w23, -48
	.cfi_offset w30, -56
	.cfi_offset w29, -64
	.cfi_remember_state
	mov	x20, x1
	sub	x2, x29, #8
	add	x3, x29, #28
	mov	w1, wzr
	mov	x19, x0
	stp	xzr, xzr, [sp, #8]
	str	xzr, [x29, #24]
	stur	xzr, [x29, #-8]
	bl	tlsf_pools_part
	mov	x23, xzr
	mov	w21, wzr
	cbz	w0, .Lp_BB20_2
.Lp_BB20_1:
	sub	x8, x20, x23
	mov	w9, #-1
	add	x3, sp, #8
	sub	x8, x8, #24
	add	x4, x29, #24
	mov	x0, x19
	ror	x8, x8, #3
	mov	w1, w21
	cmp	x8, x9
	csel	x2, x8, x9, lo
	bl	tlsf_pools_place
	ldr	w8, [x29, #24]
	cmp	w0, #0
	csel	w0, w8, wzr, eq
	.cfi_def_cfa wsp, 96
	ldp	x20, x19, [sp, #80]
	ldr	x23, [sp, #48]
	ldp	x22, x21, [sp, #64]
	ldp	x29, x30, [sp, #32]
	add	sp, sp, #96
	.cfi_def_cfa_offset 0
	.cfi_restore w19
	.cfi_restore w20
	.cfi_restore w21
	.cfi_restore w22
	.cfi_restore w23
	.cfi_restore w30
	.cfi_restore w29
	ret
.Lp_BB20_2:
	.cfi_restore_state
	mov	w22, wzr
	b	.Lp_BB20_5
.Lp_BB20_3:
	mov	x23, x8
	mov	w21, w22
.Lp_BB20_4:
	add	w22, w22, #1
	sub	x2, x29, #8
	add	x3, x29, #28
	mov	x0, x19
	mov	w1, w22
	bl	tlsf_pools_part
	cbnz	w0, .Lp_BB20_1
.Lp_BB20_5:
	ldur	x8, [x29, #-8]
	cbz	w22, .Lp_BB20_3
	sub	x9, x20, x8
	sub	x10, x20, x23
	cmp	x9, x10
	b.ls	.Lp_BB20_3
	b	.Lp_BB20_4
.Lp_func_end20:
	.size	tlsf_pools_usable_size, .Lp_func_end20-tlsf_pools_usable_size
	.cfi_endproc
	.globl	tlsf_pools_free
	.p2align	2
	.type	tlsf_pools_free,@function
tlsf_pools_free:
	.cfi_startproc
	sub	sp, sp, #96
	.cfi_def_cfa_offset 96
	stp	x29, x30, [sp, #32]
	str	x23, [sp, #48]
	stp	x22, x21, [sp, #64]
	stp	x20, x19, [sp, #80]
	add	x29, sp, #32
	.cfi_def_cfa w29, 64
	.cfi_offset w19, -8
	.cfi_offset w20, -16
	.cfi_offset w21, -24
	.cfi_offset w22, -32
	.cfi_offset w23, -48
	.cfi_offset w30, -56
	.cfi_offset w29, -64
	.cfi_remember_state
	stp	xzr, xzr, [sp, #8]
	cbz	x1, .Lp_BB21_4
	mov	x20, x1
	sub	x2, x29, #8
	add	x3, x29, #28
	mov	w1, wzr
	mov	x19, x0
	str	xzr, [x29, #24]
	stur	xzr, [x29, #-8]
	bl	tlsf_pools_part
	mov	x23, xzr
	mov	w21, wzr
	cbz	w0, .Lp_BB21_6
.Lp_BB21_2:
	sub	x8, x20, x23
	mov	w9, #-1
	add	x3, sp, #8
	sub	x8, x8, #24
	add	x4, x29, #24
	mov	x0, x19
	ror	x8, x8, #3
	mov	w1, w21
	cmp	x8, x9
	csel	x2, x8, x9, lo
	bl	tlsf_pools_place
	cbnz	w0, .Lp_BB21_5
	ldp	x1, x2, [sp, #8]
	mov	x0, x19
	bl	tlsf_pools_release
	b	.Lp_BB21_5
.Lp_BB21_4:
	mov	w0, wzr
.Lp_BB21_5:
	.cfi_def_cfa wsp, 96
	ldp	x20, x19, [sp, #80]
	ldr	x23, [sp, #48]
	ldp	x22, x21, [sp, #64]
	ldp	x29, x30, [sp, #32]
	add	sp, sp, #96
	.cfi_def_cfa_offset 0
	.cfi_restore w19
	.cfi_restore w20
	.cfi_restore w21
	.cfi_restore w22
	.cfi_restore w23
	.cfi_restore w30
	.cfi_restore w29
	ret
.Lp_BB21_6:
	.cfi_restore_state
	mov	w22, wzr
	b	.Lp_BB21_9
.Lp_BB21_7:
	mov	x23, x8
	mov	w21, w22
.Lp_BB21_8:
	add	w22, w22, #1
	sub	x2, x29, #8
	add	x3, x29, #28
	mov	x0, x19
	mov	w1, w22
	bl	tlsf_pools_part
	cbnz	w0, .Lp_BB21_2
.Lp_BB21_9:
	ldur	x8, [x29, #-8]
	cbz	w22, .Lp_BB21_7
	sub	x9, x20, x8
	sub	x10, x20, x23
	cmp	x9, x10
	b.ls	.Lp_BB21_7
	b	.Lp_BB21_8
.Lp_func_end21:
	.size	tlsf_pools_free, .Lp_func_end21-tlsf_pools_free
	.cfi_endproc
	.globl	tlsf_pools_malloc
	.p2align	2
	.type	tlsf_pools_malloc,@function
tlsf_pools_malloc:
	.cfi_startproc
	sub	sp, sp, #64
	.cfi_def_cfa_offset 64
	stp	x29, x30, [sp, #32]
	str	x19, [sp, #48]
	add	x29, sp, #32
	.cfi_def_cfa w29, 32
	.cfi_offset w19, -16
	.cfi_offset w30, -24
	.cfi_offset w29, -32
	.cfi_remember_state
	add	x2, x29, #24
	mov	x19, x0
	str	wzr, [x29, #24]
	bl	tlsf_pools_row
	cbnz	w0, .Lp_BB22_3
	ldr	w1, [x29, #24]
	add	x2, sp, #16
	mov	x0, x19
	stp	xzr, xzr, [sp, #16]
	str	wzr, [x29, #28]
	str	xzr, [sp, #8]
	bl	tlsf_pools_allocate
	cbnz	w0, .Lp_BB22_3
	add	x2, sp, #8
	add	x3, x29, #28
	mov	x0, x19
	mov	w1, wzr
	bl	tlsf_pools_part
	cbz	w0, .Lp_BB22_5
.Lp_BB22_3:
	mov	x0, xzr
.Lp_BB22_4:
	.cfi_def_cfa wsp, 64
	ldp	x29, x30, [sp, #32]
	ldr	x19, [sp, #48]
	add	sp, sp, #64
	.cfi_def_cfa_offset 0
	.cfi_restore w19
	.cfi_restore w30
	.cfi_restore w29
	ret
.Lp_BB22_5:
	.cfi_restore_state
	ldr	w8, [sp, #16]
	ldr	w9, [x29, #28]
	subs	w1, w8, w9
	b.eq	.Lp_BB22_7
	add	x2, sp, #8
	add	x3, x29, #28
	mov	x0, x19
	bl	tlsf_pools_part
	cbnz	w0, .Lp_BB22_3
.Lp_BB22_7:
	ldr	x8, [sp, #8]
	ldr	w9, [sp, #20]
	add	x8, x8, x9, lsl #3
	add	x0, x8, #24
	b	.Lp_BB22_4
.Lp_func_end22:
	.size	tlsf_pools_malloc, .Lp_func_end22-tlsf_pools_malloc
	.cfi_endproc
	.globl	tlsf_pools_realloc
	.p2align	2
	.type	tlsf_pools_realloc,@function
tlsf_pools_realloc:
	.cfi_startproc
	sub	sp, sp, #128
	.cfi_def_cfa_offset 128
	stp	x29, x30, [sp, #64]
	stp	x24, x23, [sp, #80]
	stp	x22, x21, [sp, #96]
	stp	x20, x19, [sp, #112]
	add	x29, sp, #64
	.cfi_def_cfa w29, 64
	.cfi_offset w19, -8
	.cfi_offset w20, -16
	.cfi_offset w21, -24
	.cfi_offset w22, -32
	.cfi_offset w23, -40
	.cfi_offset w24, -48
	.cfi_offset w30, -56
	.cfi_offset w29, -64
	.cfi_remember_state
	mov	x21, x2
	mov	x20, x0
	stp	xzr, xzr, [sp, #16]
	str	xzr, [sp, #8]
	cbz	x1, .Lp_BB23_12
	mov	x19, x1
	cbz	x21, .Lp_BB23_13
	sub	x2, x29, #16
	add	x3, sp, #32
	mov	x0, x20
	mov	w1, wzr
	str	wzr, [sp, #32]
	stur	xzr, [x29, #-16]
	bl	tlsf_pools_part
	mov	x24, xzr
	mov	w22, wzr
	cbz	w0, .Lp_BB23_16
.Lp_BB23_3:
	sub	x8, x19, x24
	mov	w9, #-1
	add	x3, sp, #16
	sub	x8, x8, #24
	add	x4, sp, #12
	mov	x0, x20
	ror	x8, x8, #3
	mov	w1, w22
	cmp	x8, x9
	csel	x2, x8, x9, lo
	bl	tlsf_pools_place
	cbnz	w0, .Lp_BB23_14
	add	x2, sp, #8
	mov	x0, x20
	mov	x1, x21
	bl	tlsf_pools_row
	cbnz	w0, .Lp_BB23_14
	ldp	w1, w8, [sp, #8]
	cmp	x21, x8
	b.hi	.Lp_BB23_7
	cmp	w8, w1
	b.ls	.Lp_BB23_15
.Lp_BB23_7:
	sub	x2, x29, #16
	mov	x0, x20
	stp	xzr, xzr, [x29, #-16]
	stur	wzr, [x29, #-20]
	str	xzr, [sp, #32]
	bl	tlsf_pools_allocate
	cbnz	w0, .Lp_BB23_14
	add	x2, sp, #32
	sub	x3, x29, #20
	mov	x0, x20
	mov	w1, wzr
	bl	tlsf_pools_part
	cbnz	w0, .Lp_BB23_14
	ldp	w9, w8, [x29, #-20]
	subs	w1, w8, w9
	b.eq	.Lp_BB23_11
	add	x2, sp, #32
	sub	x3, x29, #20
	mov	x0, x20
	bl	tlsf_pools_part
	cbnz	w0, .Lp_BB23_14
.Lp_BB23_11:
	ldr	x8, [sp, #32]
	ldur	w9, [x29, #-12]
	mov	x1, x19
	ldr	w10, [sp, #12]
	add	x8, x8, x9, lsl #3
	cmp	x21, x10
	add	x22, x8, #24
	csel	x2, x21, x10, lo
	mov	x0, x22
	bl	memcpy
	ldp	x1, x2, [sp, #16]
	mov	x0, x20
	bl	tlsf_pools_release
	mov	x19, x22
	b	.Lp_BB23_15
.Lp_BB23_12:
	mov	x0, x20
	mov	x1, x21
	.cfi_def_cfa wsp, 128
	ldp	x20, x19, [sp, #112]
	ldp	x22, x21, [sp, #96]
	ldp	x24, x23, [sp, #80]
	ldp	x29, x30, [sp, #64]
	add	sp, sp, #128
	.cfi_def_cfa_offset 0
	.cfi_restore w19
	.cfi_restore w20
	.cfi_restore w21
	.cfi_restore w22
	.cfi_restore w23
	.cfi_restore w24
	.cfi_restore w30
	.cfi_restore w29
	b	tlsf_pools_malloc
.Lp_BB23_13:
	.cfi_restore_state
	.cfi_remember_state
	mov	x0, x20
	mov	x1, x19
	bl	tlsf_pools_free
.Lp_BB23_14:
	mov	x19, xzr
.Lp_BB23_15:
	mov	x0, x19
	.cfi_def_cfa wsp, 128
	ldp	x20, x19, [sp, #112]
	ldp	x22, x21, [sp, #96]
	ldp	x24, x23, [sp, #80]
	ldp	x29, x30, [sp, #64]
	add	sp, sp, #128
	.cfi_def_cfa_offset 0
	.cfi_restore w19
	.cfi_restore w20
	.cfi_restore w21
	.cfi_restore w22
	.cfi_restore w23
	.cfi_restore w24
	.cfi_restore w30
	.cfi_restore w29
	ret
.Lp_BB23_16:
	.cfi_restore_state
	mov	w23, wzr
	b	.Lp_BB23_19
.Lp_BB23_17:
	mov	x24, x8
	mov	w22, w23
.Lp_BB23_18:
	add	w23, w23, #1
	sub	x2, x29, #16
	add	x3, sp, #32
	mov	x0, x20
	mov	w1, w23
	bl	tlsf_pools_part
	cbnz	w0, .Lp_BB23_3
.Lp_BB23_19:
	ldur	x8, [x29, #-16]
	cbz	w23, .Lp_BB23_17
	sub	x9, x19, x8
	sub	x10, x19, x24
	cmp	x9, x10
	b.ls	.Lp_BB23_17
	b	.Lp_BB23_18
.Lp_func_end23:
	.size	tlsf_pools_realloc, .Lp_func_end23-tlsf_pools_realloc
	.cfi_endproc
	.globl	tlsf_text_of
	.p2align	2
	.type	tlsf_text_of,@function
tlsf_text_of:
	.cfi_startproc
	cmp	w0, #40
	b.hi	.Lp_BB24_2
	adrp	x8, .Lp_switch.table.tlsf_text_of.rel
	add	x8, x8, :lo12:.Lp_switch.table.tlsf_text_of.rel
	ldrsw	x9, [x8, w0, uxtw #2]
	add	x0, x8, x9
	ret
.Lp_BB24_2:
	adrp	x0, .L.str.20
	add	x0, x0, :lo12:.L.str.20
	ret
.Lp_func_end24:
	.size	tlsf_text_of, .Lp_func_end24-tlsf_text_of
	.cfi_endproc
	.section	.text.unlikely.,"ax",@progbits
	.p2align	2
	.type	tlsf_too_long,@function
tlsf_too_long:
	.cfi_startproc
	sub	sp, sp, #48
	.cfi_def_cfa_offset 48
	stp	x29, x30, [sp, #32]
	add	x29, sp, #32
	.cfi_def_cfa w29, 16
	.cfi_offset w30, -8
	.cfi_offset w29, -16
	add	x2, sp, #8
	mov	w1, #-1
	stp	xzr, xzr, [sp, #8]
	str	xzr, [sp, #24]
	bl	tlsf_block_at
	cmp	w0, #32
	csinc	w0, w0, wzr, eq
	.cfi_def_cfa wsp, 48
	ldp	x29, x30, [sp, #32]
	add	sp, sp, #48
	.cfi_def_cfa_offset 0
	.cfi_restore w30
	.cfi_restore w29
	ret
.Lp_func_end25:
	.size	tlsf_too_long, .Lp_func_end25-tlsf_too_long
	.cfi_endproc
	.p2align	2
	.type	tlsf_mixed_place,@function
tlsf_mixed_place:
	.cfi_startproc
	stp	x29, x30, [sp, #-48]!
	.cfi_def_cfa_offset 48
	str	x21, [sp, #16]
	stp	x20, x19, [sp, #32]
	mov	x29, sp
	.cfi_def_cfa w29, 48
	.cfi_offset w19, -8
	.cfi_offset w20, -16
	.cfi_offset w21, -32
	.cfi_offset w30, -40
	.cfi_offset w29, -48
	ldrb	w8, [x0, #29]
	mov	w9, #16
	add	w11, w1, #7
	mov	x19, x0
	cmp	w8, #0
	neg	x10, x8
	csel	w21, w9, w8, eq
	cmp	x1, #1
	csinc	x9, x1, xzr, hi
	tst	w8, #0xffffffef
	add	x9, x9, x8
	add	x9, x9, #23
	and	x9, x9, x10
	and	x10, x11, #0x1ffffff0
	sub	x9, x9, #24
	orr	x10, x10, #0x8
	csel	x20, x9, x10, ne
	cmp	x2, x21
	b.hi	.Lp_BB26_4
	mov	x0, x19
	mov	x1, x20
	bl	tlsf_allocate_place
	lsr	x9, x0, #32
	mov	x8, x0
	cbnz	x9, .Lp_BB26_5
	ldr	x9, [x19, #16]
	sub	x10, x21, #1
	add	x9, x9, x8, lsl #3
	add	x9, x9, #24
	tst	x10, x9
	b.eq	.Lp_BB26_5
	mov	x0, x19
	mov	w1, w8
	bl	tlsf_release_place
	mov	x2, x21
.Lp_BB26_4:
	ldr	w8, [x19, #16]
	sub	w9, w2, #1
	lsr	x2, x2, #3
	mov	x0, x19
	mov	x1, x20
	and	w8, w9, w8
	lsr	w3, w8, #3
	bl	tlsf_allocate_aligned
	mov	x8, x0
.Lp_BB26_5:
	mov	x0, x8
	.cfi_def_cfa wsp, 48
	ldp	x20, x19, [sp, #32]
	ldr	x21, [sp, #16]
	ldp	x29, x30, [sp], #48
	.cfi_def_cfa_offset 0
	.cfi_restore w19
	.cfi_restore w20
	.cfi_restore w21
	.cfi_restore w30
	.cfi_restore w29
	ret
.Lp_func_end26:
	.size	tlsf_mixed_place, .Lp_func_end26-tlsf_mixed_place
	.cfi_endproc
	.p2align	2
	.type	tlsf_malloc_own,@function
tlsf_malloc_own:
	.cfi_startproc
	mov	w8, #134217728
	cmp	x1, x8
	b.ls	.Lp_BB27_2
	mov	x0, xzr
	ret
.Lp_BB27_2:
	stp	x29, x30, [sp, #-32]!
	.cfi_def_cfa_offset 32
	str	x19, [sp, #16]
	mov	x29, sp
	.cfi_def_cfa w29, 32
	.cfi_offset w19, -16
	.cfi_offset w30, -24
	.cfi_offset w29, -32
	mov	w2, #1
	mov	x19, x0
	bl	tlsf_mixed_place
	lsr	x8, x0, #32
	cbnz	x8, .Lp_BB27_4
	ldr	x8, [x19, #16]
	add	x8, x8, x0, lsl #3
	add	x0, x8, #24
	b	.Lp_BB27_5
.Lp_BB27_4:
	mov	x0, xzr
.Lp_BB27_5:
	.cfi_def_cfa wsp, 32
	ldr	x19, [sp, #16]
	ldp	x29, x30, [sp], #32
	.cfi_def_cfa_offset 0
	.cfi_restore w19
	.cfi_restore w30
	.cfi_restore w29
	ret
.Lp_func_end27:
	.size	tlsf_malloc_own, .Lp_func_end27-tlsf_malloc_own
	.cfi_endproc
	.p2align	2
	.type	tlsf_malloc_again,@function
tlsf_malloc_again:
	.cfi_startproc
	sub	sp, sp, #64
	.cfi_def_cfa_offset 64
	stp	x29, x30, [sp, #32]
	str	x19, [sp, #48]
	add	x29, sp, #32
	.cfi_def_cfa w29, 32
	.cfi_offset w19, -16
	.cfi_offset w30, -24
	.cfi_offset w29, -32
	ldr	x8, [x0, #16]
	mov	w9, #-1
	add	x2, sp, #8
	mov	x19, x0
	stp	xzr, xzr, [sp, #8]
	sub	x8, x1, x8
	str	xzr, [sp, #24]
	sub	x8, x8, #24
	ror	x8, x8, #3
	cmp	x8, x9
	csel	x1, x8, x9, lo
	bl	tlsf_block_at
	cbnz	w0, .Lp_BB28_3
	ldr	w1, [sp, #8]
	mov	x0, x19
	bl	tlsf_release_place
	ldr	w8, [x19, #16]
	ldr	w1, [sp, #20]
	mov	x0, x19
	mov	w2, #2
	ubfx	w3, w8, #3, #1
	bl	tlsf_allocate_aligned
	lsr	x8, x0, #32
	cbnz	x8, .Lp_BB28_3
	ldr	x8, [x19, #16]
	add	x8, x8, x0, lsl #3
	add	x0, x8, #24
	b	.Lp_BB28_4
.Lp_BB28_3:
	mov	x0, xzr
.Lp_BB28_4:
	.cfi_def_cfa wsp, 64
	ldp	x29, x30, [sp, #32]
	ldr	x19, [sp, #48]
	add	sp, sp, #64
	.cfi_def_cfa_offset 0
	.cfi_restore w19
	.cfi_restore w30
	.cfi_restore w29
	ret
.Lp_func_end28:
	.size	tlsf_malloc_again, .Lp_func_end28-tlsf_malloc_again
	.cfi_endproc
	.type	.L.str,@object
	.section	.rodata,"a",@progbits
.L.str:
	.asciz	"done"
	.size	.L.str, 5
	.type	.L.str.1,@object
.L.str.1:
	.asciz	"no free block fits"
	.size	.L.str.1, 19
	.type	.L.str.2,@object
.L.str.2:
	.asciz	"the ticks or the numbers are used up"
	.size	.L.str.2, 37
	.type	.L.str.3,@object
.L.str.3:
	.asciz	"a name of another heap"
	.size	.L.str.3, 23
	.type	.L.str.4,@object
.L.str.4:
	.asciz	"no live block has that name or address"
	.size	.L.str.4, 39
	.type	.L.str.5,@object
.L.str.5:
	.asciz	"a size out of range"
	.size	.L.str.5, 20
	.type	.L.str.6,@object
.L.str.6:
	.asciz	"no memory"
	.size	.L.str.6, 10
	.type	.L.str.7,@object
.L.str.7:
	.asciz	"bytes past the end of the payload"
	.size	.L.str.7, 34
	.type	.L.str.8,@object
.L.str.8:
	.asciz	"the lane or queue is full"
	.size	.L.str.8, 26
	.type	.L.str.9,@object
.L.str.9:
	.asciz	"no room where the block stands"
	.size	.L.str.9, 31
	.type	.L.str.10,@object
.L.str.10:
	.asciz	"a line was not written"
	.size	.L.str.10, 23
	.type	.L.str.11,@object
.L.str.11:
	.asciz	"the handle is closed"
	.size	.L.str.11, 21
	.type	.L.str.12,@object
.L.str.12:
	.asciz	"the handle is open already"
	.size	.L.str.12, 27
	.type	.L.str.13,@object
.L.str.13:
	.asciz	"a level is 4 or 5"
	.size	.L.str.13, 18
	.type	.L.str.14,@object
.L.str.14:
	.asciz	"the lane or queue is empty"
	.size	.L.str.14, 27
	.type	.L.str.15,@object
.L.str.15:
	.asciz	"a header is damaged"
	.size	.L.str.15, 20
	.type	.L.str.16,@object
.L.str.16:
	.asciz	"another thread is in the way: try again"
	.size	.L.str.16, 40
	.type	.L.str.17,@object
.L.str.17:
	.asciz	"all blocks of that row are held"
	.size	.L.str.17, 32
	.type	.L.str.18,@object
.L.str.18:
	.asciz	"memory that is null, or past the end of the address space"
	.size	.L.str.18, 58
	.type	.L.str.19,@object
.L.str.19:
	.asciz	"the handle holds something of another kind"
	.size	.L.str.19, 43
	.type	.L.str.20,@object
.L.str.20:
	.asciz	"no answer of this library"
	.size	.L.str.20, 26
	.type	.Lp_switch.table.tlsf_text_of.rel,@object
	.p2align	2, 0x0
.Lp_switch.table.tlsf_text_of.rel:
	.word	.L.str-.Lp_switch.table.tlsf_text_of.rel
	.word	.L.str.1-.Lp_switch.table.tlsf_text_of.rel
	.word	.L.str.2-.Lp_switch.table.tlsf_text_of.rel
	.word	.L.str.3-.Lp_switch.table.tlsf_text_of.rel
	.word	.L.str.4-.Lp_switch.table.tlsf_text_of.rel
	.word	.L.str.5-.Lp_switch.table.tlsf_text_of.rel
	.word	.L.str.6-.Lp_switch.table.tlsf_text_of.rel
	.word	.L.str.7-.Lp_switch.table.tlsf_text_of.rel
	.word	.L.str.8-.Lp_switch.table.tlsf_text_of.rel
	.word	.L.str.20-.Lp_switch.table.tlsf_text_of.rel
	.word	.L.str.9-.Lp_switch.table.tlsf_text_of.rel
	.word	.L.str.20-.Lp_switch.table.tlsf_text_of.rel
	.word	.L.str.20-.Lp_switch.table.tlsf_text_of.rel
	.word	.L.str.20-.Lp_switch.table.tlsf_text_of.rel
	.word	.L.str.20-.Lp_switch.table.tlsf_text_of.rel
	.word	.L.str.20-.Lp_switch.table.tlsf_text_of.rel
	.word	.L.str.20-.Lp_switch.table.tlsf_text_of.rel
	.word	.L.str.10-.Lp_switch.table.tlsf_text_of.rel
	.word	.L.str.20-.Lp_switch.table.tlsf_text_of.rel
	.word	.L.str.20-.Lp_switch.table.tlsf_text_of.rel
	.word	.L.str.20-.Lp_switch.table.tlsf_text_of.rel
	.word	.L.str.20-.Lp_switch.table.tlsf_text_of.rel
	.word	.L.str.20-.Lp_switch.table.tlsf_text_of.rel
	.word	.L.str.20-.Lp_switch.table.tlsf_text_of.rel
	.word	.L.str.20-.Lp_switch.table.tlsf_text_of.rel
	.word	.L.str.20-.Lp_switch.table.tlsf_text_of.rel
	.word	.L.str.20-.Lp_switch.table.tlsf_text_of.rel
	.word	.L.str.20-.Lp_switch.table.tlsf_text_of.rel
	.word	.L.str.20-.Lp_switch.table.tlsf_text_of.rel
	.word	.L.str.20-.Lp_switch.table.tlsf_text_of.rel
	.word	.L.str.20-.Lp_switch.table.tlsf_text_of.rel
	.word	.L.str.20-.Lp_switch.table.tlsf_text_of.rel
	.word	.L.str.11-.Lp_switch.table.tlsf_text_of.rel
	.word	.L.str.12-.Lp_switch.table.tlsf_text_of.rel
	.word	.L.str.13-.Lp_switch.table.tlsf_text_of.rel
	.word	.L.str.14-.Lp_switch.table.tlsf_text_of.rel
	.word	.L.str.15-.Lp_switch.table.tlsf_text_of.rel
	.word	.L.str.16-.Lp_switch.table.tlsf_text_of.rel
	.word	.L.str.17-.Lp_switch.table.tlsf_text_of.rel
	.word	.L.str.18-.Lp_switch.table.tlsf_text_of.rel
	.word	.L.str.19-.Lp_switch.table.tlsf_text_of.rel
	.size	.Lp_switch.table.tlsf_text_of.rel, 164
	.ident	"clang version 22.1.8"
	.section	".note.GNU-stack","",@progbits
#endif
/* c/memory.c */
#ifdef TLSF_ONLY_CALLS
#elif defined(TLSF_NO_TLS)
	.text
	.hidden	tlsf_memory_alloc
	.globl	tlsf_memory_alloc
	.p2align	2
	.type	tlsf_memory_alloc,@function
tlsf_memory_alloc:
	.cfi_startproc
	cmp	x1, #8
	b.hi	.Lm_BB0_8
	adrp	x8, near_room
	ldr	x8, [x8, :lo12:near_room]
	cbz	x8, .Lm_BB0_3
	adrp	x9, pieces_first
	ldr	w10, [x9, :lo12:pieces_first]
	sub	w11, w10, #1
	str	w11, [x9, :lo12:pieces_first]
	cbz	w10, .Lm_BB0_7
.Lm_BB0_3:
	adrp	x8, lent
	ldr	x9, [x8, :lo12:lent]
	cbz	x9, .Lm_BB0_8
	mov	w10, #268435456
	cmp	x0, x10
	b.hi	.Lm_BB0_8
	adrp	x10, lent_end
	add	x12, x0, #8
	ldr	x10, [x10, :lo12:lent_end]
	sub	x11, x10, x9
	cmp	x12, x11
	b.hi	.Lm_BB0_8
	adrp	x12, lent_step
	ldr	x12, [x12, :lo12:lent_step]
	str	xzr, [x9]
	add	x13, x0, x12
	add	x13, x13, #7
	udiv	x13, x13, x12
	mul	x12, x13, x12
	add	x13, x9, x12
	cmp	x12, x11
	csel	x10, x13, x10, lo
	str	x10, [x8, :lo12:lent]
	add	x8, x9, #8
	b	.Lm_BB0_9
.Lm_BB0_7:
	cmp	x0, #2776
	b.ls	.Lm_BB0_10
.Lm_BB0_8:
	mov	x8, xzr
.Lm_BB0_9:
	cmp	x8, #0
	adrp	x9, tlsf_memory_alloc.nothing
	add	x9, x9, :lo12:tlsf_memory_alloc.nothing
	cset	w0, ne
	csel	x1, x8, x9, ne
	ret
.Lm_BB0_10:
	str	xzr, [x8], #8
	b	.Lm_BB0_9
.Lm_func_end0:
	.size	tlsf_memory_alloc, .Lm_func_end0-tlsf_memory_alloc
	.cfi_endproc
	.hidden	tlsf_memory_dealloc
	.globl	tlsf_memory_dealloc
	.p2align	2
	.type	tlsf_memory_dealloc,@function
tlsf_memory_dealloc:
	.cfi_startproc
	ret
.Lm_func_end1:
	.size	tlsf_memory_dealloc, .Lm_func_end1-tlsf_memory_dealloc
	.cfi_endproc
	.hidden	tlsf_memory_realloc
	.globl	tlsf_memory_realloc
	.p2align	2
	.type	tlsf_memory_realloc,@function
tlsf_memory_realloc:
	.cfi_startproc
	cmp	x3, #8
	b.ls	.Lm_BB2_3
.Lm_BB2_1:
	mov	x0, xzr
.Lm_BB2_2:
	adrp	x1, tlsf_memory_alloc.nothing
	add	x1, x1, :lo12:tlsf_memory_alloc.nothing
	ret
.Lm_BB2_3:
	adrp	x9, near_room
	mov	x8, x1
	mov	x1, x0
	ldr	x0, [x9, :lo12:near_room]
	cbz	x0, .Lm_BB2_5
	adrp	x9, pieces_first
	ldr	w10, [x9, :lo12:pieces_first]
	sub	w11, w10, #1
	str	w11, [x9, :lo12:pieces_first]
	cbz	w10, .Lm_BB2_9
.Lm_BB2_5:
	adrp	x9, lent
	ldr	x0, [x9, :lo12:lent]
	cbz	x0, .Lm_BB2_2
	mov	w10, #268435456
	cmp	x2, x10
	b.hi	.Lm_BB2_1
	adrp	x10, lent_end
	add	x12, x2, #8
	ldr	x10, [x10, :lo12:lent_end]
	sub	x11, x10, x0
	cmp	x12, x11
	b.hi	.Lm_BB2_1
	adrp	x12, lent_step
	ldr	x12, [x12, :lo12:lent_step]
	add	x13, x2, x12
	add	x13, x13, #7
	udiv	x13, x13, x12
	mul	x12, x13, x12
	add	x13, x0, x12
	cmp	x12, x11
	csel	x10, x13, x10, lo
	str	x10, [x9, :lo12:lent]
	b	.Lm_BB2_10
.Lm_BB2_9:
	cmp	x2, #2776
	b.hi	.Lm_BB2_1
.Lm_BB2_10:
	stp	x29, x30, [sp, #-32]!
	.cfi_def_cfa_offset 32
	str	x19, [sp, #16]
	mov	x29, sp
	.cfi_def_cfa w29, 32
	.cfi_offset w19, -16
	.cfi_offset w30, -24
	.cfi_offset w29, -32
	mov	x2, x8
	str	xzr, [x0], #8
	mov	x19, x0
	bl	memcpy
	mov	w0, #1
	mov	x1, x19
	.cfi_def_cfa wsp, 32
	ldr	x19, [sp, #16]
	ldp	x29, x30, [sp], #32
	.cfi_def_cfa_offset 0
	.cfi_restore w19
	.cfi_restore w30
	.cfi_restore w29
	ret
.Lm_func_end2:
	.size	tlsf_memory_realloc, .Lm_func_end2-tlsf_memory_realloc
	.cfi_endproc
	.hidden	tlsf_memory_set
	.weak	tlsf_memory_set
	.p2align	2
	.type	tlsf_memory_set,@function
tlsf_memory_set:
	.cfi_startproc
	cbnz	w1, .Lm_BB3_15
	cmp	x2, #513
	b.hs	.Lm_BB3_15
	cmp	x2, #257
	b.lo	.Lm_BB3_4
	movi	v0.2d, #0000000000000000
	add	x8, x0, x2
	str	q0, [x0]
	stur	q0, [x8, #-16]
	str	q0, [x0, #16]
	stur	q0, [x8, #-32]
	str	q0, [x0, #32]
	stur	q0, [x8, #-48]
	str	q0, [x0, #48]
	stur	q0, [x8, #-64]
	str	q0, [x0, #64]
	stur	q0, [x8, #-80]
	str	q0, [x0, #80]
	stur	q0, [x8, #-96]
	str	q0, [x0, #96]
	stur	q0, [x8, #-112]
	str	q0, [x0, #112]
	stur	q0, [x8, #-128]
	str	q0, [x0, #128]
	stur	q0, [x8, #-144]
	str	q0, [x0, #144]
	stur	q0, [x8, #-160]
	str	q0, [x0, #160]
	stur	q0, [x8, #-176]
	str	q0, [x0, #176]
	stur	q0, [x8, #-192]
	str	q0, [x0, #192]
	stur	q0, [x8, #-208]
	str	q0, [x0, #208]
	stur	q0, [x8, #-224]
	str	q0, [x0, #224]
	stur	q0, [x8, #-240]
	str	q0, [x0, #240]
	stur	q0, [x8, #-256]
	ret
.Lm_BB3_4:
	cmp	x2, #129
	b.lo	.Lm_BB3_6
	movi	v0.2d, #0000000000000000
	add	x8, x0, x2
	str	q0, [x0]
	stur	q0, [x8, #-16]
	str	q0, [x0, #16]
	stur	q0, [x8, #-32]
	str	q0, [x0, #32]
	stur	q0, [x8, #-48]
	str	q0, [x0, #48]
	stur	q0, [x8, #-64]
	str	q0, [x0, #64]
	stur	q0, [x8, #-80]
	str	q0, [x0, #80]
	stur	q0, [x8, #-96]
	str	q0, [x0, #96]
	stur	q0, [x8, #-112]
	str	q0, [x0, #112]
	stur	q0, [x8, #-128]
	ret
.Lm_BB3_6:
	cmp	x2, #65
	b.lo	.Lm_BB3_8
	movi	v0.2d, #0000000000000000
	add	x8, x0, x2
	str	q0, [x0]
	stur	q0, [x8, #-16]
	str	q0, [x0, #16]
	stur	q0, [x8, #-32]
	str	q0, [x0, #32]
	stur	q0, [x8, #-48]
	str	q0, [x0, #48]
	stur	q0, [x8, #-64]
	ret
.Lm_BB3_8:
	cmp	x2, #33
	b.lo	.Lm_BB3_10
	movi	v0.2d, #0000000000000000
	add	x8, x0, x2
	str	q0, [x0]
	stur	q0, [x8, #-16]
	str	q0, [x0, #16]
	stur	q0, [x8, #-32]
	ret
.Lm_BB3_10:
	cmp	x2, #17
	b.lo	.Lm_BB3_12
	movi	v0.2d, #0000000000000000
	add	x8, x0, x2
	str	q0, [x0]
	stur	q0, [x8, #-16]
	ret
.Lm_BB3_12:
	cmp	x2, #7
	b.hi	.Lm_BB3_14
	mov	w1, wzr
	b	memset
.Lm_BB3_14:
	add	x8, x0, x2
	str	xzr, [x0]
	stur	xzr, [x8, #-8]
	ret
.Lm_BB3_15:
	b	memset
.Lm_func_end3:
	.size	tlsf_memory_set, .Lm_func_end3-tlsf_memory_set
	.cfi_endproc
	.hidden	tlsf_memory_cpy
	.weak	tlsf_memory_cpy
	.p2align	2
	.type	tlsf_memory_cpy,@function
tlsf_memory_cpy:
	.cfi_startproc
	b	memcpy
.Lm_func_end4:
	.size	tlsf_memory_cpy, .Lm_func_end4-tlsf_memory_cpy
	.cfi_endproc
	.hidden	tlsf_memory_move
	.weak	tlsf_memory_move
	.p2align	2
	.type	tlsf_memory_move,@function
tlsf_memory_move:
	.cfi_startproc
	b	memmove
.Lm_func_end5:
	.size	tlsf_memory_move, .Lm_func_end5-tlsf_memory_move
	.cfi_endproc
	.globl	tlsf_bytes
	.p2align	2
	.type	tlsf_bytes,@function
tlsf_bytes:
	.cfi_startproc
	cmp	w1, #4
	b.hs	.Lm_BB6_2
	mov	x0, xzr
	ret
.Lm_BB6_2:
	cmp	w0, #5
	mov	w8, #16777216
	mov	w10, #1048576
	csel	x9, x8, xzr, eq
	cmp	w0, #4
	mov	w8, w1
	csel	x9, x10, x9, eq
	cmp	x9, x8
	b.hs	.Lm_BB6_4
	mov	x0, xzr
	ret
.Lm_BB6_4:
	add	x9, x8, #63
	lsl	x8, x8, #3
	lsr	x9, x9, #3
	add	x8, x8, #23
	add	w9, w9, #16
	and	x8, x8, #0xffffffff0
	and	x9, x9, #0x7ffffff0
	add	x8, x8, x9
	add	x0, x8, #2783
	ret
.Lm_func_end6:
	.size	tlsf_bytes, .Lm_func_end6-tlsf_bytes
	.cfi_endproc
	.globl	tlsf_near_bytes
	.p2align	2
	.type	tlsf_near_bytes,@function
tlsf_near_bytes:
	.cfi_startproc
	cmp	w1, #4
	b.hs	.Lm_BB7_2
	mov	x0, xzr
	ret
.Lm_BB7_2:
	cmp	w0, #5
	mov	w8, #16777216
	mov	w10, #1048576
	csel	x9, x8, xzr, eq
	cmp	w0, #4
	mov	w8, w1
	csel	x9, x10, x9, eq
	cmp	x9, x8
	b.hs	.Lm_BB7_4
	mov	x0, xzr
	ret
.Lm_BB7_4:
	lsl	x9, x8, #3
	add	x8, x8, #63
	lsr	x8, x8, #3
	add	x9, x9, #23
	and	x9, x9, #0xffffffff0
	and	x8, x8, #0x3ffffff8
	add	x8, x9, x8
	add	x0, x8, #23
	ret
.Lm_func_end7:
	.size	tlsf_near_bytes, .Lm_func_end7-tlsf_near_bytes
	.cfi_endproc
	.globl	tlsf_open_in
	.p2align	2
	.type	tlsf_open_in,@function
tlsf_open_in:
	.cfi_startproc
	stp	x29, x30, [sp, #-48]!
	.cfi_def_cfa_offset 48
	str	x21, [sp, #16]
	stp	x20, x19, [sp, #32]
	mov	x29, sp
	.cfi_def_cfa w29, 48
	.cfi_offset w19, -8
	.cfi_offset w20, -16
	.cfi_offset w21, -32
	.cfi_offset w30, -40
	.cfi_offset w29, -48
	ldrb	w9, [x0, #29]
	mov	x19, x0
	cbz	w9, .Lm_BB8_4
	sub	w8, w9, #65
	cmn	w8, #57
	b.lo	.Lm_BB8_3
	add	w8, w9, #127
	cmp	x9, #16
	and	x10, x8, x9
	mov	w8, #16
	csel	x8, x9, x8, hi
	cbz	x10, .Lm_BB8_5
.Lm_BB8_3:
	mov	x10, xzr
	b	.Lm_BB8_6
.Lm_BB8_4:
	mov	w8, #16
.Lm_BB8_5:
	mov	x10, #-32
	sub	x10, x10, x3
	udiv	x11, x10, x8
	msub	x10, x11, x8, x10
.Lm_BB8_6:
	mov	w8, wzr
	mvn	x11, x3
	cbz	x3, .Lm_BB8_14
	cmp	x4, x11
	b.hi	.Lm_BB8_14
	subs	x12, x4, x10
	b.lo	.Lm_BB8_14
	cmp	w1, #5
	mov	w8, #16777216
	mov	w13, #1048576
	csel	x8, x8, xzr, eq
	cmp	w1, #4
	csel	x8, x13, x8, eq
	cmp	x12, #2832
	b.hs	.Lm_BB8_11
	mov	w8, wzr
	b	.Lm_BB8_14
.Lm_BB8_11:
	mov	w13, #268435456
	mov	x14, #1009
	cmp	x12, x13
	movk	x14, #61503, lsl #16
	csel	x12, x12, x13, lo
	mov	w13, #-22400
	movk	x14, #16131, lsl #32
	add	w13, w13, w12, lsl #3
	movk	x14, #1008, lsl #48
	umulh	x13, x13, x14
	lsl	x14, x13, #3
	add	x13, x13, #71
	add	x14, x14, #87
.Lm_BB8_12:
	lsr	x15, x13, #3
	and	x16, x14, #0xfffffffffffffff0
	sub	x13, x13, #1
	sub	x14, x14, #8
	add	x15, x15, #16
	and	x15, x15, #0x3ffffffffffffff0
	add	x15, x16, x15
	add	x15, x15, #2768
	cmp	x15, x12
	b.hi	.Lm_BB8_12
	sub	x12, x13, #62
	cmp	x12, x8
	csel	x8, x12, x8, lo
.Lm_BB8_14:
	cmp	x3, #0
	adrp	x12, begin_behind.nothing
	add	x12, x12, :lo12:begin_behind.nothing
	cset	w13, ne
	cmp	x4, x11
	add	x14, x3, x4
	cset	w11, ls
	cmp	x10, x4
	adrp	x20, lent
	csel	x10, x10, x4, lo
	ands	w21, w13, w11
	adrp	x11, lent_end
	add	x10, x3, x10
	csel	x13, x14, x12, ne
	csel	x10, x10, x12, ne
	str	x13, [x11, :lo12:lent_end]
	adrp	x11, lent_step
	mov	w12, #16
	str	x10, [x20, :lo12:lent]
	str	x12, [x11, :lo12:lent_step]
	cbz	w9, .Lm_BB8_18
	sub	w10, w9, #65
	cmn	w10, #57
	b.lo	.Lm_BB8_17
	add	w10, w9, #127
	tst	w10, w9
	b.eq	.Lm_BB8_18
.Lm_BB8_17:
	mov	w8, wzr
.Lm_BB8_18:
	mov	x0, x19
	mov	w3, w8
	bl	tlsf_open
	cbz	w0, .Lm_BB8_21
	cmp	w0, #5
	str	xzr, [x20, :lo12:lent]
	cset	w8, eq
	bic	w8, w8, w21
	tbz	w8, #0, .Lm_BB8_24
	mov	w0, #39
	b	.Lm_BB8_24
.Lm_BB8_21:
	ldrb	w8, [x19, #29]
	tst	w8, #0xffffffef
	b.eq	.Lm_BB8_23
	mov	w8, #1
	strb	w8, [x19, #28]
.Lm_BB8_23:
	str	xzr, [x20, :lo12:lent]
.Lm_BB8_24:
	.cfi_def_cfa wsp, 48
	ldp	x20, x19, [sp, #32]
	ldr	x21, [sp, #16]
	ldp	x29, x30, [sp], #48
	.cfi_def_cfa_offset 0
	.cfi_restore w19
	.cfi_restore w20
	.cfi_restore w21
	.cfi_restore w30
	.cfi_restore w29
	ret
.Lm_func_end8:
	.size	tlsf_open_in, .Lm_func_end8-tlsf_open_in
	.cfi_endproc
	.globl	tlsf_open_near
	.p2align	2
	.type	tlsf_open_near,@function
tlsf_open_near:
	.cfi_startproc
	stp	x29, x30, [sp, #-32]!
	.cfi_def_cfa_offset 32
	stp	x20, x19, [sp, #16]
	mov	x29, sp
	.cfi_def_cfa w29, 32
	.cfi_offset w19, -8
	.cfi_offset w20, -16
	.cfi_offset w30, -24
	.cfi_offset w29, -32
	neg	w8, w0
	adrp	x20, near_room
	adrp	x9, pieces_first
	and	x8, x8, #0x3f
	mov	w10, #2
	add	x19, x0, x8
	str	w10, [x9, :lo12:pieces_first]
	add	x8, x19, #32
	str	x8, [x20, :lo12:near_room]
	ldrb	w8, [x19, #29]
	cbz	w8, .Lm_BB9_4
	sub	w9, w8, #65
	cmn	w9, #57
	b.lo	.Lm_BB9_3
	add	w9, w8, #127
	tst	w9, w8
	b.eq	.Lm_BB9_4
.Lm_BB9_3:
	mov	w3, wzr
.Lm_BB9_4:
	mov	x0, x19
	bl	tlsf_open
	cbnz	w0, .Lm_BB9_7
	ldrb	w8, [x19, #29]
	tst	w8, #0xffffffef
	b.eq	.Lm_BB9_7
	mov	w8, #1
	strb	w8, [x19, #28]
.Lm_BB9_7:
	str	xzr, [x20, :lo12:near_room]
	.cfi_def_cfa wsp, 32
	ldp	x20, x19, [sp, #16]
	ldp	x29, x30, [sp], #32
	.cfi_def_cfa_offset 0
	.cfi_restore w19
	.cfi_restore w20
	.cfi_restore w30
	.cfi_restore w29
	ret
.Lm_func_end9:
	.size	tlsf_open_near, .Lm_func_end9-tlsf_open_near
	.cfi_endproc
	.globl	tlsf_open_near_in
	.p2align	2
	.type	tlsf_open_near_in,@function
tlsf_open_near_in:
	.cfi_startproc
	stp	x29, x30, [sp, #-48]!
	.cfi_def_cfa_offset 48
	stp	x22, x21, [sp, #16]
	stp	x20, x19, [sp, #32]
	mov	x29, sp
	.cfi_def_cfa w29, 48
	.cfi_offset w19, -8
	.cfi_offset w20, -16
	.cfi_offset w21, -24
	.cfi_offset w22, -32
	.cfi_offset w30, -40
	.cfi_offset w29, -48
	neg	w8, w0
	adrp	x20, near_room
	adrp	x9, pieces_first
	and	x8, x8, #0x3f
	mov	w10, #2
	add	x19, x0, x8
	str	w10, [x9, :lo12:pieces_first]
	add	x8, x19, #32
	str	x8, [x20, :lo12:near_room]
	ldrb	w9, [x19, #29]
	cbz	w9, .Lm_BB10_4
	sub	w8, w9, #65
	cmn	w8, #57
	b.lo	.Lm_BB10_3
	add	w8, w9, #127
	cmp	x9, #16
	and	x10, x8, x9
	mov	w8, #16
	csel	x8, x9, x8, hi
	cbz	x10, .Lm_BB10_5
.Lm_BB10_3:
	mov	x10, xzr
	b	.Lm_BB10_6
.Lm_BB10_4:
	mov	w8, #16
.Lm_BB10_5:
	mov	x10, #-32
	sub	x10, x10, x3
	udiv	x11, x10, x8
	msub	x10, x11, x8, x10
.Lm_BB10_6:
	mov	w8, wzr
	mvn	x11, x3
	cbz	x3, .Lm_BB10_14
	cmp	x4, x11
	b.hi	.Lm_BB10_14
	subs	x12, x4, x10
	b.lo	.Lm_BB10_14
	cmp	w1, #5
	mov	w8, #16777216
	mov	w13, #1048576
	csel	x8, x8, xzr, eq
	cmp	w1, #4
	csel	x8, x13, x8, eq
	cmp	x12, #64
	b.hs	.Lm_BB10_11
	mov	w8, wzr
	b	.Lm_BB10_14
.Lm_BB10_11:
	mov	w13, #268435456
	mov	x14, #1009
	cmp	x12, x13
	movk	x14, #61503, lsl #16
	csel	x12, x12, x13, lo
	movk	x14, #16131, lsl #32
	lsl	w13, w12, #3
	movk	x14, #1008, lsl #48
	sub	w13, w13, #192
	umulh	x13, x13, x14
	lsl	x14, x13, #3
	add	x13, x13, #71
	add	x14, x14, #87
.Lm_BB10_12:
	lsr	x15, x13, #6
	and	x16, x14, #0xfffffffffffffff0
	sub	x13, x13, #1
	sub	x14, x14, #8
	add	x15, x16, x15, lsl #3
	add	x15, x15, #8
	cmp	x15, x12
	b.hi	.Lm_BB10_12
	sub	x12, x13, #62
	cmp	x12, x8
	csel	x8, x12, x8, lo
.Lm_BB10_14:
	cmp	x3, #0
	adrp	x12, begin_behind.nothing
	add	x12, x12, :lo12:begin_behind.nothing
	cset	w13, ne
	cmp	x4, x11
	add	x14, x3, x4
	cset	w11, ls
	cmp	x10, x4
	adrp	x21, lent
	csel	x10, x10, x4, lo
	ands	w22, w13, w11
	adrp	x11, lent_end
	add	x10, x3, x10
	csel	x13, x14, x12, ne
	csel	x10, x10, x12, ne
	str	x13, [x11, :lo12:lent_end]
	adrp	x11, lent_step
	mov	w12, #16
	str	x10, [x21, :lo12:lent]
	str	x12, [x11, :lo12:lent_step]
	cbz	w9, .Lm_BB10_18
	sub	w10, w9, #65
	cmn	w10, #57
	b.lo	.Lm_BB10_17
	add	w10, w9, #127
	tst	w10, w9
	b.eq	.Lm_BB10_18
.Lm_BB10_17:
	mov	w8, wzr
.Lm_BB10_18:
	mov	x0, x19
	mov	w3, w8
	bl	tlsf_open
	cbz	w0, .Lm_BB10_21
	cmp	w0, #5
	str	xzr, [x21, :lo12:lent]
	cset	w8, eq
	bic	w8, w8, w22
	tbz	w8, #0, .Lm_BB10_24
	mov	w0, #39
	b	.Lm_BB10_24
.Lm_BB10_21:
	ldrb	w8, [x19, #29]
	tst	w8, #0xffffffef
	b.eq	.Lm_BB10_23
	mov	w8, #1
	strb	w8, [x19, #28]
.Lm_BB10_23:
	str	xzr, [x21, :lo12:lent]
.Lm_BB10_24:
	str	xzr, [x20, :lo12:near_room]
	.cfi_def_cfa wsp, 48
	ldp	x20, x19, [sp, #32]
	ldp	x22, x21, [sp, #16]
	ldp	x29, x30, [sp], #48
	.cfi_def_cfa_offset 0
	.cfi_restore w19
	.cfi_restore w20
	.cfi_restore w21
	.cfi_restore w22
	.cfi_restore w30
	.cfi_restore w29
	ret
.Lm_func_end10:
	.size	tlsf_open_near_in, .Lm_func_end10-tlsf_open_near_in
	.cfi_endproc
	.globl	tlsf_open_32
	.p2align	2
	.type	tlsf_open_32,@function
tlsf_open_32:
	.cfi_startproc
	stp	x29, x30, [sp, #-32]!
	.cfi_def_cfa_offset 32
	str	x19, [sp, #16]
	mov	x29, sp
	.cfi_def_cfa w29, 32
	.cfi_offset w19, -16
	.cfi_offset w30, -24
	.cfi_offset w29, -32
	ldrb	w8, [x0, #29]
	mov	x19, x0
	cbz	w8, .Lm_BB11_4
	sub	w9, w8, #65
	cmn	w9, #57
	b.lo	.Lm_BB11_3
	add	w9, w8, #127
	tst	w9, w8
	b.eq	.Lm_BB11_4
.Lm_BB11_3:
	mov	w3, wzr
.Lm_BB11_4:
	mov	x0, x19
	bl	tlsf_open
	cbnz	w0, .Lm_BB11_7
	ldrb	w8, [x19, #29]
	tst	w8, #0xffffffef
	b.eq	.Lm_BB11_7
	mov	w8, #1
	strb	w8, [x19, #28]
.Lm_BB11_7:
	.cfi_def_cfa wsp, 32
	ldr	x19, [sp, #16]
	ldp	x29, x30, [sp], #32
	.cfi_def_cfa_offset 0
	.cfi_restore w19
	.cfi_restore w30
	.cfi_restore w29
	ret
.Lm_func_end11:
	.size	tlsf_open_32, .Lm_func_end11-tlsf_open_32
	.cfi_endproc
	.globl	tlsf_open_in_32
	.p2align	2
	.type	tlsf_open_in_32,@function
tlsf_open_in_32:
	.cfi_startproc
	b	tlsf_open_in
.Lm_func_end12:
	.size	tlsf_open_in_32, .Lm_func_end12-tlsf_open_in_32
	.cfi_endproc
	.globl	tlsf_open_near_2880
	.p2align	2
	.type	tlsf_open_near_2880,@function
tlsf_open_near_2880:
	.cfi_startproc
	stp	x29, x30, [sp, #-32]!
	.cfi_def_cfa_offset 32
	stp	x20, x19, [sp, #16]
	mov	x29, sp
	.cfi_def_cfa w29, 32
	.cfi_offset w19, -8
	.cfi_offset w20, -16
	.cfi_offset w30, -24
	.cfi_offset w29, -32
	neg	w8, w0
	adrp	x20, near_room
	adrp	x9, pieces_first
	and	x8, x8, #0x3f
	mov	w10, #2
	add	x19, x0, x8
	str	w10, [x9, :lo12:pieces_first]
	add	x8, x19, #32
	str	x8, [x20, :lo12:near_room]
	ldrb	w8, [x19, #29]
	cbz	w8, .Lm_BB13_4
	sub	w9, w8, #65
	cmn	w9, #57
	b.lo	.Lm_BB13_3
	add	w9, w8, #127
	tst	w9, w8
	b.eq	.Lm_BB13_4
.Lm_BB13_3:
	mov	w3, wzr
.Lm_BB13_4:
	mov	x0, x19
	bl	tlsf_open
	cbnz	w0, .Lm_BB13_7
	ldrb	w8, [x19, #29]
	tst	w8, #0xffffffef
	b.eq	.Lm_BB13_7
	mov	w8, #1
	strb	w8, [x19, #28]
.Lm_BB13_7:
	str	xzr, [x20, :lo12:near_room]
	.cfi_def_cfa wsp, 32
	ldp	x20, x19, [sp, #16]
	ldp	x29, x30, [sp], #32
	.cfi_def_cfa_offset 0
	.cfi_restore w19
	.cfi_restore w20
	.cfi_restore w30
	.cfi_restore w29
	ret
.Lm_func_end13:
	.size	tlsf_open_near_2880, .Lm_func_end13-tlsf_open_near_2880
	.cfi_endproc
	.globl	tlsf_open_near_in_2880
	.p2align	2
	.type	tlsf_open_near_in_2880,@function
tlsf_open_near_in_2880:
	.cfi_startproc
	b	tlsf_open_near_in
.Lm_func_end14:
	.size	tlsf_open_near_in_2880, .Lm_func_end14-tlsf_open_near_in_2880
	.cfi_endproc
	.globl	tlsf_lane_bytes
	.p2align	2
	.type	tlsf_lane_bytes,@function
tlsf_lane_bytes:
	.cfi_startproc
	mov	w8, #24
	mov	w9, #135
	madd	w8, w0, w8, w9
	sub	w9, w0, #1025
	cmn	w9, #1024
	and	w8, w8, #0x1ff80
	add	w8, w8, #895
	csel	w0, wzr, w8, lo
	ret
.Lm_func_end15:
	.size	tlsf_lane_bytes, .Lm_func_end15-tlsf_lane_bytes
	.cfi_endproc
	.globl	tlsf_lane_open_in
	.p2align	2
	.type	tlsf_lane_open_in,@function
tlsf_lane_open_in:
	.cfi_startproc
	cmp	w2, #1025
	b.hs	.Lm_BB16_2
	mov	w8, #24
	mov	w9, #135
	madd	w10, w2, w8, w9
	neg	w8, w3
	mvn	x9, x3
	and	x8, x8, #0x7f
	subs	x11, x4, x8
	and	w10, w10, #0x1ff80
	ccmp	x4, x9, #2, hs
	add	w10, w10, #768
	ccmp	x3, #0, #4, ls
	ccmp	x11, x10, #0, ne
	csel	w2, wzr, w2, lo
	b	.Lm_BB16_3
.Lm_BB16_2:
	neg	w8, w3
	mvn	x9, x3
	and	x8, x8, #0x7f
.Lm_BB16_3:
	stp	x29, x30, [sp, #-32]!
	.cfi_def_cfa_offset 32
	stp	x20, x19, [sp, #16]
	mov	x29, sp
	.cfi_def_cfa w29, 32
	.cfi_offset w19, -8
	.cfi_offset w20, -16
	.cfi_offset w30, -24
	.cfi_offset w29, -32
	cmp	x3, #0
	adrp	x10, begin_behind.nothing
	add	x10, x10, :lo12:begin_behind.nothing
	cset	w11, ne
	cmp	x4, x9
	add	x12, x3, x4
	cset	w9, ls
	cmp	x8, x4
	adrp	x20, lent
	csel	x8, x8, x4, lo
	ands	w19, w11, w9
	adrp	x9, lent_end
	add	x8, x3, x8
	csel	x11, x12, x10, ne
	csel	x8, x8, x10, ne
	str	x11, [x9, :lo12:lent_end]
	adrp	x9, lent_step
	mov	w10, #128
	str	x8, [x20, :lo12:lent]
	str	x10, [x9, :lo12:lent_step]
	bl	tlsf_lane_open
	cmp	w0, #5
	mov	w8, #39
	cset	w9, ne
	orr	w9, w19, w9
	cmp	w9, #0
	csel	w0, w0, w8, ne
	str	xzr, [x20, :lo12:lent]
	.cfi_def_cfa wsp, 32
	ldp	x20, x19, [sp, #16]
	ldp	x29, x30, [sp], #32
	.cfi_def_cfa_offset 0
	.cfi_restore w19
	.cfi_restore w20
	.cfi_restore w30
	.cfi_restore w29
	ret
.Lm_func_end16:
	.size	tlsf_lane_open_in, .Lm_func_end16-tlsf_lane_open_in
	.cfi_endproc
	.globl	tlsf_queue_bytes
	.p2align	2
	.type	tlsf_queue_bytes,@function
tlsf_queue_bytes:
	.cfi_startproc
	mov	w8, #1024
	sub	w9, w8, w0
	sub	w8, w8, w1
	orr	w8, w8, w9
	cmp	w8, #1023
	b.hi	.Lm_BB17_2
	ubfiz	x8, x0, #4, #32
	ubfiz	x9, x1, #3, #32
	ubfiz	x10, x1, #5, #32
	ubfiz	x11, x0, #3, #32
	mov	w12, w0
	add	x8, x8, #135
	add	x9, x9, #519
	add	x10, x10, #135
	and	x8, x8, #0xfffffff80
	add	x11, x11, #135
	and	x9, x9, #0x7ffffff80
	add	x8, x8, x12, lsl #7
	and	x10, x10, #0x1fffffff80
	and	x11, x11, #0x7ffffff80
	add	x9, x9, x10
	add	x8, x8, x11
	add	x8, x8, x9, lsl #1
	add	x0, x8, #383
	ret
.Lm_BB17_2:
	mov	x0, xzr
	ret
.Lm_func_end17:
	.size	tlsf_queue_bytes, .Lm_func_end17-tlsf_queue_bytes
	.cfi_endproc
	.globl	tlsf_queue_open_in
	.p2align	2
	.type	tlsf_queue_open_in,@function
tlsf_queue_open_in:
	.cfi_startproc
	cmp	w1, #1024
	b.hi	.Lm_BB18_3
	cmp	w2, #1025
	b.hs	.Lm_BB18_3
	lsl	w8, w1, #4
	lsl	w9, w2, #3
	lsl	w10, w2, #5
	lsl	w11, w1, #3
	mov	w12, w1
	add	w8, w8, #135
	add	w9, w9, #519
	add	w10, w10, #135
	and	x8, x8, #0xff80
	add	w11, w11, #135
	and	x9, x9, #0x7f80
	add	x8, x8, x12, lsl #7
	and	x10, x10, #0x1ff80
	and	x11, x11, #0x7f80
	neg	w12, w3
	add	x9, x9, x10
	add	x10, x8, x11
	and	x8, x12, #0x7f
	add	x10, x10, x9, lsl #1
	mvn	x9, x3
	subs	x11, x4, x8
	ccmp	x4, x9, #2, hs
	add	x10, x10, #256
	ccmp	x3, #0, #4, ls
	ccmp	x11, x10, #0, ne
	csel	w2, wzr, w2, lo
	b	.Lm_BB18_4
.Lm_BB18_3:
	neg	w8, w3
	mvn	x9, x3
	and	x8, x8, #0x7f
.Lm_BB18_4:
	stp	x29, x30, [sp, #-32]!
	.cfi_def_cfa_offset 32
	stp	x20, x19, [sp, #16]
	mov	x29, sp
	.cfi_def_cfa w29, 32
	.cfi_offset w19, -8
	.cfi_offset w20, -16
	.cfi_offset w30, -24
	.cfi_offset w29, -32
	cmp	x3, #0
	adrp	x10, begin_behind.nothing
	add	x10, x10, :lo12:begin_behind.nothing
	cset	w11, ne
	cmp	x4, x9
	add	x12, x3, x4
	cset	w9, ls
	cmp	x8, x4
	adrp	x20, lent
	csel	x8, x8, x4, lo
	ands	w19, w11, w9
	adrp	x9, lent_end
	add	x8, x3, x8
	csel	x11, x12, x10, ne
	csel	x8, x8, x10, ne
	str	x11, [x9, :lo12:lent_end]
	adrp	x9, lent_step
	mov	w10, #128
	str	x8, [x20, :lo12:lent]
	str	x10, [x9, :lo12:lent_step]
	bl	tlsf_queue_open
	cmp	w0, #5
	mov	w8, #39
	cset	w9, ne
	orr	w9, w19, w9
	cmp	w9, #0
	csel	w0, w0, w8, ne
	str	xzr, [x20, :lo12:lent]
	.cfi_def_cfa wsp, 32
	ldp	x20, x19, [sp, #16]
	ldp	x29, x30, [sp], #32
	.cfi_def_cfa_offset 0
	.cfi_restore w19
	.cfi_restore w20
	.cfi_restore w30
	.cfi_restore w29
	ret
.Lm_func_end18:
	.size	tlsf_queue_open_in, .Lm_func_end18-tlsf_queue_open_in
	.cfi_endproc
	.globl	tlsf_offsets_bytes
	.p2align	2
	.type	tlsf_offsets_bytes,@function
tlsf_offsets_bytes:
	.cfi_startproc
	cmp	w1, #4
	b.hs	.Lm_BB19_2
	mov	x0, xzr
	ret
.Lm_BB19_2:
	cmp	w0, #5
	mov	w8, #16777216
	mov	w10, #1048576
	csel	x9, x8, xzr, eq
	cmp	w0, #4
	mov	w8, w1
	csel	x9, x10, x9, eq
	cmp	x9, x8
	b.hs	.Lm_BB19_4
	mov	x0, xzr
	ret
.Lm_BB19_4:
	add	w9, w8, #63
	lsl	w8, w8, #3
	lsr	w9, w9, #3
	add	w8, w8, #23
	add	w9, w9, #16
	and	x8, x8, #0x1ffffff0
	and	x9, x9, #0xfffff0
	add	x8, x8, x9
	add	x0, x8, #2783
	ret
.Lm_func_end19:
	.size	tlsf_offsets_bytes, .Lm_func_end19-tlsf_offsets_bytes
	.cfi_endproc
	.globl	tlsf_offsets_open_in
	.p2align	2
	.type	tlsf_offsets_open_in,@function
tlsf_offsets_open_in:
	.cfi_startproc
	cmp	w1, #5
	mov	w8, #16777216
	mov	w10, #1048576
	csel	x9, x8, xzr, eq
	cmp	w1, #4
	mov	w8, w4
	csel	x9, x10, x9, eq
	cmp	x9, x8
	b.hs	.Lm_BB20_2
	neg	w8, w5
	mvn	x9, x5
	and	x8, x8, #0xf
	b	.Lm_BB20_3
.Lm_BB20_2:
	lsl	w9, w8, #3
	add	w8, w8, #63
	neg	w10, w5
	lsr	w8, w8, #3
	add	w9, w9, #23
	and	x11, x9, #0x1ffffff0
	add	w9, w8, #16
	and	x8, x10, #0xf
	and	x10, x9, #0xfffff0
	mvn	x9, x5
	subs	x12, x6, x8
	add	x10, x11, x10
	ccmp	x6, x9, #2, hs
	add	x10, x10, #2768
	ccmp	x5, #0, #4, ls
	ccmp	x12, x10, #0, ne
	csel	w4, wzr, w4, lo
.Lm_BB20_3:
	stp	x29, x30, [sp, #-32]!
	.cfi_def_cfa_offset 32
	stp	x20, x19, [sp, #16]
	mov	x29, sp
	.cfi_def_cfa w29, 32
	.cfi_offset w19, -8
	.cfi_offset w20, -16
	.cfi_offset w30, -24
	.cfi_offset w29, -32
	cmp	x5, #0
	adrp	x10, begin_behind.nothing
	add	x10, x10, :lo12:begin_behind.nothing
	cset	w11, ne
	cmp	x6, x9
	add	x12, x5, x6
	cset	w9, ls
	cmp	x8, x6
	adrp	x20, lent
	csel	x8, x8, x6, lo
	ands	w19, w11, w9
	adrp	x9, lent_end
	add	x8, x5, x8
	csel	x11, x12, x10, ne
	csel	x8, x8, x10, ne
	str	x11, [x9, :lo12:lent_end]
	adrp	x9, lent_step
	mov	w10, #16
	str	x8, [x20, :lo12:lent]
	str	x10, [x9, :lo12:lent_step]
	bl	tlsf_offsets_open
	cmp	w0, #5
	mov	w8, #39
	cset	w9, ne
	orr	w9, w19, w9
	cmp	w9, #0
	csel	w0, w0, w8, ne
	str	xzr, [x20, :lo12:lent]
	.cfi_def_cfa wsp, 32
	ldp	x20, x19, [sp, #16]
	ldp	x29, x30, [sp], #32
	.cfi_def_cfa_offset 0
	.cfi_restore w19
	.cfi_restore w20
	.cfi_restore w30
	.cfi_restore w29
	ret
.Lm_func_end20:
	.size	tlsf_offsets_open_in, .Lm_func_end20-tlsf_offsets_open_in
	.cfi_endproc
	.globl	tlsf_pools_bytes
	.p2align	2
	.type	tlsf_pools_bytes,@function
tlsf_pools_bytes:
	.cfi_startproc
	sub	sp, sp, #48
	.cfi_def_cfa_offset 48
	stp	x29, x30, [sp, #16]
	str	x19, [sp, #32]
	add	x29, sp, #16
	.cfi_def_cfa w29, 32
	.cfi_offset w19, -16
	.cfi_offset w30, -24
	.cfi_offset w29, -32
	add	x3, x29, #24
	sub	x4, x29, #4
	mov	x19, x2
	str	xzr, [x29, #24]
	stur	wzr, [x29, #-4]
	bl	tlsf_pools_words
	mov	w8, w0
	mov	x0, xzr
	cbnz	w8, .Lm_BB21_2
	mov	w8, #12
	ldr	x9, [x29, #24]
	ldur	w10, [x29, #-4]
	mul	x8, x19, x8
	mov	w11, #2792
	lsr	x12, x9, #6
	umull	x11, w10, w11
	add	x8, x8, x9, lsl #3
	mov	w9, #80
	add	x8, x8, x12, lsl #3
	umaddl	x8, w10, w9, x8
	add	x9, x11, #23
	and	x9, x9, #0x1ffffffffff0
	add	x8, x8, x9
	add	x0, x8, #2783
.Lm_BB21_2:
	.cfi_def_cfa wsp, 48
	ldp	x29, x30, [sp, #16]
	ldr	x19, [sp, #32]
	add	sp, sp, #48
	.cfi_def_cfa_offset 0
	.cfi_restore w19
	.cfi_restore w30
	.cfi_restore w29
	ret
.Lm_func_end21:
	.size	tlsf_pools_bytes, .Lm_func_end21-tlsf_pools_bytes
	.cfi_endproc
	.globl	tlsf_pools_open_in
	.p2align	2
	.type	tlsf_pools_open_in,@function
tlsf_pools_open_in:
	.cfi_startproc
	stp	x29, x30, [sp, #-32]!
	.cfi_def_cfa_offset 32
	stp	x20, x19, [sp, #16]
	mov	x29, sp
	.cfi_def_cfa w29, 32
	.cfi_offset w19, -8
	.cfi_offset w20, -16
	.cfi_offset w30, -24
	.cfi_offset w29, -32
	neg	w8, w5
	cmp	x5, #0
	mvn	x9, x5
	and	x8, x8, #0xf
	cset	w10, ne
	cmp	x6, x9
	cset	w9, ls
	cmp	x8, x6
	adrp	x11, begin_behind.nothing
	add	x11, x11, :lo12:begin_behind.nothing
	csel	x8, x8, x6, lo
	ands	w19, w10, w9
	add	x8, x5, x8
	adrp	x20, lent
	add	x9, x5, x6
	csel	x8, x8, x11, ne
	str	x8, [x20, :lo12:lent]
	csel	x8, x9, x11, ne
	adrp	x9, lent_end
	str	x8, [x9, :lo12:lent_end]
	adrp	x8, lent_step
	mov	w9, #16
	str	x9, [x8, :lo12:lent_step]
	bl	tlsf_pools_open
	mov	w8, #5
	cmp	w0, #6
	csel	w8, w8, w0, eq
	cmp	w8, #5
	cset	w9, ne
	orr	w9, w19, w9
	cmp	w9, #0
	mov	w9, #39
	csel	w0, w8, w9, ne
	str	xzr, [x20, :lo12:lent]
	.cfi_def_cfa wsp, 32
	ldp	x20, x19, [sp, #16]
	ldp	x29, x30, [sp], #32
	.cfi_def_cfa_offset 0
	.cfi_restore w19
	.cfi_restore w20
	.cfi_restore w30
	.cfi_restore w29
	ret
.Lm_func_end22:
	.size	tlsf_pools_open_in, .Lm_func_end22-tlsf_pools_open_in
	.cfi_endproc
	.globl	tlsf_next_number
	.p2align	2
	.type	tlsf_next_number,@function
tlsf_next_number:
	.cfi_startproc
	adrp	x8, tlsf_next_number.calls
	add	x8, x8, :lo12:tlsf_next_number.calls
.Lm_BB23_1:
	ldxr	x9, [x8]
	add	x10, x9, #1
	stxr	w11, x10, [x8]
	cbnz	w11, .Lm_BB23_1
	lsl	x9, x9, #3
	cmp	x9, w9, sxtw
	b.ne	.Lm_BB23_4
	mov	w10, #-2147483648
	add	x9, x9, x10
	str	w9, [x0]
	mov	w0, wzr
	ret
.Lm_BB23_4:
	mov	w0, #2
	ret
.Lm_func_end23:
	.size	tlsf_next_number, .Lm_func_end23-tlsf_next_number
	.cfi_endproc
	.type	tlsf_memory_alloc.nothing,@object
	.local	tlsf_memory_alloc.nothing
	.comm	tlsf_memory_alloc.nothing,8,8
	.type	near_room,@object
	.local	near_room
	.comm	near_room,8,8
	.type	pieces_first,@object
	.local	pieces_first
	.comm	pieces_first,4,4
	.type	lent,@object
	.local	lent
	.comm	lent,8,8
	.type	tlsf_next_number.calls,@object
	.local	tlsf_next_number.calls
	.comm	tlsf_next_number.calls,8,8
	.type	lent_step,@object
	.local	lent_step
	.comm	lent_step,8,8
	.type	lent_end,@object
	.local	lent_end
	.comm	lent_end,8,8
	.type	begin_behind.nothing,@object
	.local	begin_behind.nothing
	.comm	begin_behind.nothing,1,1
	.ident	"clang version 22.1.8"
	.section	".note.GNU-stack","",@progbits
#elif defined(TLSF_NO_MALLOC)
	.text
	.hidden	tlsf_memory_alloc
	.globl	tlsf_memory_alloc
	.p2align	2
	.type	tlsf_memory_alloc,@function
tlsf_memory_alloc:
	.cfi_startproc
	cmp	x1, #8
	b.ls	.Lm_BB0_2
	mov	x9, xzr
	b	.Lm_BB0_11
.Lm_BB0_2:
	stp	x29, x30, [sp, #-16]!
	.cfi_def_cfa_offset 16
	mov	x29, sp
	.cfi_def_cfa w29, 16
	.cfi_offset w30, -8
	.cfi_offset w29, -16
	.cfi_remember_state
	mov	x8, x0
	adrp	x0, :tlsdesc:near_room
	ldr	x1, [x0, :tlsdesc_lo12:near_room]
	add	x0, x0, :tlsdesc_lo12:near_room
	.tlsdesccall near_room
	blr	x1
	mrs	x10, TPIDR_EL0
	ldr	x9, [x10, x0]
	cbz	x9, .Lm_BB0_4
	adrp	x0, :tlsdesc:pieces_first
	ldr	x1, [x0, :tlsdesc_lo12:pieces_first]
	add	x0, x0, :tlsdesc_lo12:pieces_first
	.tlsdesccall pieces_first
	blr	x1
	ldr	w11, [x10, x0]
	sub	w12, w11, #1
	str	w12, [x10, x0]
	cbz	w11, .Lm_BB0_8
.Lm_BB0_4:
	adrp	x0, :tlsdesc:lent
	ldr	x1, [x0, :tlsdesc_lo12:lent]
	add	x0, x0, :tlsdesc_lo12:lent
	.tlsdesccall lent
	blr	x1
	ldr	x11, [x10, x0]
	cbz	x11, .Lm_BB0_9
	mov	x9, x0
	adrp	x0, :tlsdesc:lent_step
	ldr	x1, [x0, :tlsdesc_lo12:lent_step]
	add	x0, x0, :tlsdesc_lo12:lent_step
	.tlsdesccall lent_step
	blr	x1
	mov	w12, #268435456
	cmp	x8, x12
	b.hi	.Lm_BB0_9
	ldr	x12, [x10, x0]
	add	x15, x8, #8
	adrp	x0, :tlsdesc:lent_end
	ldr	x1, [x0, :tlsdesc_lo12:lent_end]
	add	x0, x0, :tlsdesc_lo12:lent_end
	.tlsdesccall lent_end
	blr	x1
	ldr	x13, [x10, x0]
	sub	x14, x13, x11
	cmp	x15, x14
	b.hi	.Lm_BB0_9
	add	x8, x8, x12
	add	x8, x8, #7
	udiv	x8, x8, x12
	mul	x8, x8, x12
	add	x12, x11, x8
	cmp	x8, x14
	csel	x8, x12, x13, lo
	str	x8, [x10, x9]
	add	x9, x11, #8
	str	xzr, [x11]
	.cfi_def_cfa wsp, 16
	b	.Lm_BB0_10
.Lm_BB0_8:
	.cfi_restore_state
	.cfi_remember_state
	cmp	x8, #2776
	b.ls	.Lm_BB0_12
.Lm_BB0_9:
	mov	x9, xzr
	.cfi_def_cfa wsp, 16
.Lm_BB0_10:
	ldp	x29, x30, [sp], #16
	.cfi_def_cfa_offset 0
	.cfi_restore w30
	.cfi_restore w29
.Lm_BB0_11:
	cmp	x9, #0
	adrp	x8, tlsf_memory_alloc.nothing
	add	x8, x8, :lo12:tlsf_memory_alloc.nothing
	cset	w0, ne
	csel	x1, x9, x8, ne
	ret
.Lm_BB0_12:
	.cfi_restore_state
	str	xzr, [x9], #8
	.cfi_def_cfa wsp, 16
	b	.Lm_BB0_10
.Lm_func_end0:
	.size	tlsf_memory_alloc, .Lm_func_end0-tlsf_memory_alloc
	.cfi_endproc
	.hidden	tlsf_memory_dealloc
	.globl	tlsf_memory_dealloc
	.p2align	2
	.type	tlsf_memory_dealloc,@function
tlsf_memory_dealloc:
	.cfi_startproc
	ret
.Lm_func_end1:
	.size	tlsf_memory_dealloc, .Lm_func_end1-tlsf_memory_dealloc
	.cfi_endproc
	.hidden	tlsf_memory_realloc
	.globl	tlsf_memory_realloc
	.p2align	2
	.type	tlsf_memory_realloc,@function
tlsf_memory_realloc:
	.cfi_startproc
	stp	x29, x30, [sp, #-32]!
	.cfi_def_cfa_offset 32
	str	x19, [sp, #16]
	mov	x29, sp
	.cfi_def_cfa w29, 32
	.cfi_offset w19, -16
	.cfi_offset w30, -24
	.cfi_offset w29, -32
	.cfi_remember_state
	cmp	x3, #8
	b.hi	.Lm_BB2_8
	mov	x9, x1
	mov	x8, x0
	adrp	x0, :tlsdesc:near_room
	ldr	x1, [x0, :tlsdesc_lo12:near_room]
	add	x0, x0, :tlsdesc_lo12:near_room
	.tlsdesccall near_room
	blr	x1
	mrs	x11, TPIDR_EL0
	ldr	x19, [x11, x0]
	cbz	x19, .Lm_BB2_3
	adrp	x0, :tlsdesc:pieces_first
	ldr	x1, [x0, :tlsdesc_lo12:pieces_first]
	add	x0, x0, :tlsdesc_lo12:pieces_first
	.tlsdesccall pieces_first
	blr	x1
	ldr	w10, [x11, x0]
	sub	w12, w10, #1
	str	w12, [x11, x0]
	cbz	w10, .Lm_BB2_7
.Lm_BB2_3:
	adrp	x0, :tlsdesc:lent
	ldr	x1, [x0, :tlsdesc_lo12:lent]
	add	x0, x0, :tlsdesc_lo12:lent
	.tlsdesccall lent
	blr	x1
	ldr	x19, [x11, x0]
	cbz	x19, .Lm_BB2_8
	mov	x10, x0
	adrp	x0, :tlsdesc:lent_step
	ldr	x1, [x0, :tlsdesc_lo12:lent_step]
	add	x0, x0, :tlsdesc_lo12:lent_step
	.tlsdesccall lent_step
	blr	x1
	mov	w12, #268435456
	cmp	x2, x12
	b.hi	.Lm_BB2_8
	ldr	x12, [x11, x0]
	add	x15, x2, #8
	adrp	x0, :tlsdesc:lent_end
	ldr	x1, [x0, :tlsdesc_lo12:lent_end]
	add	x0, x0, :tlsdesc_lo12:lent_end
	.tlsdesccall lent_end
	blr	x1
	ldr	x13, [x11, x0]
	sub	x14, x13, x19
	cmp	x15, x14
	b.hi	.Lm_BB2_8
	add	x15, x2, x12
	add	x15, x15, #7
	udiv	x15, x15, x12
	mul	x12, x15, x12
	add	x15, x19, x12
	cmp	x12, x14
	csel	x12, x15, x13, lo
	str	x12, [x11, x10]
	b	.Lm_BB2_10
.Lm_BB2_7:
	cmp	x2, #2776
	b.ls	.Lm_BB2_10
.Lm_BB2_8:
	mov	x0, xzr
	adrp	x19, tlsf_memory_alloc.nothing
	add	x19, x19, :lo12:tlsf_memory_alloc.nothing
.Lm_BB2_9:
	mov	x1, x19
	.cfi_def_cfa wsp, 32
	ldr	x19, [sp, #16]
	ldp	x29, x30, [sp], #32
	.cfi_def_cfa_offset 0
	.cfi_restore w19
	.cfi_restore w30
	.cfi_restore w29
	ret
.Lm_BB2_10:
	.cfi_restore_state
	str	xzr, [x19], #8
	mov	x0, x19
	mov	x1, x8
	mov	x2, x9
	bl	memcpy
	mov	w0, #1
	b	.Lm_BB2_9
.Lm_func_end2:
	.size	tlsf_memory_realloc, .Lm_func_end2-tlsf_memory_realloc
	.cfi_endproc
	.hidden	tlsf_memory_set
	.weak	tlsf_memory_set
	.p2align	2
	.type	tlsf_memory_set,@function
tlsf_memory_set:
	.cfi_startproc
	cbnz	w1, .Lm_BB3_15
	cmp	x2, #513
	b.hs	.Lm_BB3_15
	cmp	x2, #257
	b.lo	.Lm_BB3_4
	movi	v0.2d, #0000000000000000
	add	x8, x0, x2
	str	q0, [x0]
	stur	q0, [x8, #-16]
	str	q0, [x0, #16]
	stur	q0, [x8, #-32]
	str	q0, [x0, #32]
	stur	q0, [x8, #-48]
	str	q0, [x0, #48]
	stur	q0, [x8, #-64]
	str	q0, [x0, #64]
	stur	q0, [x8, #-80]
	str	q0, [x0, #80]
	stur	q0, [x8, #-96]
	str	q0, [x0, #96]
	stur	q0, [x8, #-112]
	str	q0, [x0, #112]
	stur	q0, [x8, #-128]
	str	q0, [x0, #128]
	stur	q0, [x8, #-144]
	str	q0, [x0, #144]
	stur	q0, [x8, #-160]
	str	q0, [x0, #160]
	stur	q0, [x8, #-176]
	str	q0, [x0, #176]
	stur	q0, [x8, #-192]
	str	q0, [x0, #192]
	stur	q0, [x8, #-208]
	str	q0, [x0, #208]
	stur	q0, [x8, #-224]
	str	q0, [x0, #224]
	stur	q0, [x8, #-240]
	str	q0, [x0, #240]
	stur	q0, [x8, #-256]
	ret
.Lm_BB3_4:
	cmp	x2, #129
	b.lo	.Lm_BB3_6
	movi	v0.2d, #0000000000000000
	add	x8, x0, x2
	str	q0, [x0]
	stur	q0, [x8, #-16]
	str	q0, [x0, #16]
	stur	q0, [x8, #-32]
	str	q0, [x0, #32]
	stur	q0, [x8, #-48]
	str	q0, [x0, #48]
	stur	q0, [x8, #-64]
	str	q0, [x0, #64]
	stur	q0, [x8, #-80]
	str	q0, [x0, #80]
	stur	q0, [x8, #-96]
	str	q0, [x0, #96]
	stur	q0, [x8, #-112]
	str	q0, [x0, #112]
	stur	q0, [x8, #-128]
	ret
.Lm_BB3_6:
	cmp	x2, #65
	b.lo	.Lm_BB3_8
	movi	v0.2d, #0000000000000000
	add	x8, x0, x2
	str	q0, [x0]
	stur	q0, [x8, #-16]
	str	q0, [x0, #16]
	stur	q0, [x8, #-32]
	str	q0, [x0, #32]
	stur	q0, [x8, #-48]
	str	q0, [x0, #48]
	stur	q0, [x8, #-64]
	ret
.Lm_BB3_8:
	cmp	x2, #33
	b.lo	.Lm_BB3_10
	movi	v0.2d, #0000000000000000
	add	x8, x0, x2
	str	q0, [x0]
	stur	q0, [x8, #-16]
	str	q0, [x0, #16]
	stur	q0, [x8, #-32]
	ret
.Lm_BB3_10:
	cmp	x2, #17
	b.lo	.Lm_BB3_12
	movi	v0.2d, #0000000000000000
	add	x8, x0, x2
	str	q0, [x0]
	stur	q0, [x8, #-16]
	ret
.Lm_BB3_12:
	cmp	x2, #7
	b.hi	.Lm_BB3_14
	mov	w1, wzr
	b	memset
.Lm_BB3_14:
	add	x8, x0, x2
	str	xzr, [x0]
	stur	xzr, [x8, #-8]
	ret
.Lm_BB3_15:
	b	memset
.Lm_func_end3:
	.size	tlsf_memory_set, .Lm_func_end3-tlsf_memory_set
	.cfi_endproc
	.hidden	tlsf_memory_cpy
	.weak	tlsf_memory_cpy
	.p2align	2
	.type	tlsf_memory_cpy,@function
tlsf_memory_cpy:
	.cfi_startproc
	b	memcpy
.Lm_func_end4:
	.size	tlsf_memory_cpy, .Lm_func_end4-tlsf_memory_cpy
	.cfi_endproc
	.hidden	tlsf_memory_move
	.weak	tlsf_memory_move
	.p2align	2
	.type	tlsf_memory_move,@function
tlsf_memory_move:
	.cfi_startproc
	b	memmove
.Lm_func_end5:
	.size	tlsf_memory_move, .Lm_func_end5-tlsf_memory_move
	.cfi_endproc
	.globl	tlsf_bytes
	.p2align	2
	.type	tlsf_bytes,@function
tlsf_bytes:
	.cfi_startproc
	cmp	w1, #4
	b.hs	.Lm_BB6_2
	mov	x0, xzr
	ret
.Lm_BB6_2:
	cmp	w0, #5
	mov	w8, #16777216
	mov	w10, #1048576
	csel	x9, x8, xzr, eq
	cmp	w0, #4
	mov	w8, w1
	csel	x9, x10, x9, eq
	cmp	x9, x8
	b.hs	.Lm_BB6_4
	mov	x0, xzr
	ret
.Lm_BB6_4:
	add	x9, x8, #63
	lsl	x8, x8, #3
	lsr	x9, x9, #3
	add	x8, x8, #23
	add	w9, w9, #16
	and	x8, x8, #0xffffffff0
	and	x9, x9, #0x7ffffff0
	add	x8, x8, x9
	add	x0, x8, #2783
	ret
.Lm_func_end6:
	.size	tlsf_bytes, .Lm_func_end6-tlsf_bytes
	.cfi_endproc
	.globl	tlsf_near_bytes
	.p2align	2
	.type	tlsf_near_bytes,@function
tlsf_near_bytes:
	.cfi_startproc
	cmp	w1, #4
	b.hs	.Lm_BB7_2
	mov	x0, xzr
	ret
.Lm_BB7_2:
	cmp	w0, #5
	mov	w8, #16777216
	mov	w10, #1048576
	csel	x9, x8, xzr, eq
	cmp	w0, #4
	mov	w8, w1
	csel	x9, x10, x9, eq
	cmp	x9, x8
	b.hs	.Lm_BB7_4
	mov	x0, xzr
	ret
.Lm_BB7_4:
	lsl	x9, x8, #3
	add	x8, x8, #63
	lsr	x8, x8, #3
	add	x9, x9, #23
	and	x9, x9, #0xffffffff0
	and	x8, x8, #0x3ffffff8
	add	x8, x9, x8
	add	x0, x8, #23
	ret
.Lm_func_end7:
	.size	tlsf_near_bytes, .Lm_func_end7-tlsf_near_bytes
	.cfi_endproc
	.globl	tlsf_open_in
	.p2align	2
	.type	tlsf_open_in,@function
tlsf_open_in:
	.cfi_startproc
	stp	x29, x30, [sp, #-48]!
	.cfi_def_cfa_offset 48
	stp	x22, x21, [sp, #16]
	stp	x20, x19, [sp, #32]
	mov	x29, sp
	.cfi_def_cfa w29, 48
	.cfi_offset w19, -8
	.cfi_offset w20, -16
	.cfi_offset w21, -24
	.cfi_offset w22, -32
	.cfi_offset w30, -40
	.cfi_offset w29, -48
	ldrb	w10, [x0, #29]
	mov	x19, x0
	mov	w8, w1
	cbz	w10, .Lm_BB8_4
	sub	w9, w10, #65
	cmn	w9, #57
	b.lo	.Lm_BB8_3
	add	w9, w10, #127
	cmp	x10, #16
	and	x11, x9, x10
	mov	w9, #16
	csel	x9, x10, x9, hi
	cbz	x11, .Lm_BB8_5
.Lm_BB8_3:
	mov	x11, xzr
	b	.Lm_BB8_6
.Lm_BB8_4:
	mov	w9, #16
.Lm_BB8_5:
	mov	x11, #-32
	sub	x11, x11, x3
	udiv	x12, x11, x9
	msub	x11, x12, x9, x11
.Lm_BB8_6:
	mov	w9, wzr
	mvn	x12, x3
	cbz	x3, .Lm_BB8_14
	cmp	x4, x12
	b.hi	.Lm_BB8_14
	subs	x13, x4, x11
	b.lo	.Lm_BB8_14
	cmp	w8, #5
	mov	w9, #16777216
	mov	w14, #1048576
	csel	x9, x9, xzr, eq
	cmp	w8, #4
	csel	x9, x14, x9, eq
	cmp	x13, #2832
	b.hs	.Lm_BB8_11
	mov	w9, wzr
	b	.Lm_BB8_14
.Lm_BB8_11:
	mov	w14, #268435456
	mov	x15, #1009
	cmp	x13, x14
	movk	x15, #61503, lsl #16
	csel	x13, x13, x14, lo
	mov	w14, #-22400
	movk	x15, #16131, lsl #32
	add	w14, w14, w13, lsl #3
	movk	x15, #1008, lsl #48
	umulh	x14, x14, x15
	lsl	x15, x14, #3
	add	x14, x14, #71
	add	x15, x15, #87
.Lm_BB8_12:
	lsr	x16, x14, #3
	and	x17, x15, #0xfffffffffffffff0
	sub	x14, x14, #1
	sub	x15, x15, #8
	add	x16, x16, #16
	and	x16, x16, #0x3ffffffffffffff0
	add	x16, x17, x16
	add	x16, x16, #2768
	cmp	x16, x13
	b.hi	.Lm_BB8_12
	sub	x13, x14, #62
	cmp	x13, x9
	csel	x9, x13, x9, lo
.Lm_BB8_14:
	cmp	x3, #0
	cset	w13, ne
	cmp	x4, x12
	cset	w12, ls
	cmp	x11, x4
	csel	x11, x11, x4, lo
	adrp	x0, :tlsdesc:lent
	ldr	x1, [x0, :tlsdesc_lo12:lent]
	add	x0, x0, :tlsdesc_lo12:lent
	.tlsdesccall lent
	blr	x1
	ands	w22, w13, w12
	adrp	x12, begin_behind.nothing
	add	x12, x12, :lo12:begin_behind.nothing
	add	x11, x3, x11
	mrs	x21, TPIDR_EL0
	add	x13, x3, x4
	csel	x11, x11, x12, ne
	mov	x20, x0
	str	x11, [x21, x0]
	csel	x11, x13, x12, ne
	adrp	x0, :tlsdesc:lent_end
	ldr	x1, [x0, :tlsdesc_lo12:lent_end]
	add	x0, x0, :tlsdesc_lo12:lent_end
	.tlsdesccall lent_end
	blr	x1
	str	x11, [x21, x0]
	adrp	x0, :tlsdesc:lent_step
	ldr	x1, [x0, :tlsdesc_lo12:lent_step]
	add	x0, x0, :tlsdesc_lo12:lent_step
	.tlsdesccall lent_step
	blr	x1
	mov	w11, #16
	str	x11, [x21, x0]
	cbz	w10, .Lm_BB8_18
	sub	w11, w10, #65
	cmn	w11, #57
	b.lo	.Lm_BB8_17
	add	w11, w10, #127
	tst	w11, w10
	b.eq	.Lm_BB8_18
.Lm_BB8_17:
	mov	w9, wzr
.Lm_BB8_18:
	mov	x0, x19
	mov	w1, w8
	mov	w3, w9
	bl	tlsf_open
	cbz	w0, .Lm_BB8_21
	cmp	w0, #5
	str	xzr, [x21, x20]
	cset	w8, eq
	bic	w8, w8, w22
	tbz	w8, #0, .Lm_BB8_24
	mov	w0, #39
	b	.Lm_BB8_24
.Lm_BB8_21:
	ldrb	w8, [x19, #29]
	tst	w8, #0xffffffef
	b.eq	.Lm_BB8_23
	mov	w8, #1
	strb	w8, [x19, #28]
.Lm_BB8_23:
	str	xzr, [x21, x20]
.Lm_BB8_24:
	.cfi_def_cfa wsp, 48
	ldp	x20, x19, [sp, #32]
	ldp	x22, x21, [sp, #16]
	ldp	x29, x30, [sp], #48
	.cfi_def_cfa_offset 0
	.cfi_restore w19
	.cfi_restore w20
	.cfi_restore w21
	.cfi_restore w22
	.cfi_restore w30
	.cfi_restore w29
	ret
.Lm_func_end8:
	.size	tlsf_open_in, .Lm_func_end8-tlsf_open_in
	.cfi_endproc
	.globl	tlsf_open_near
	.p2align	2
	.type	tlsf_open_near,@function
tlsf_open_near:
	.cfi_startproc
	stp	x29, x30, [sp, #-48]!
	.cfi_def_cfa_offset 48
	str	x21, [sp, #16]
	stp	x20, x19, [sp, #32]
	mov	x29, sp
	.cfi_def_cfa w29, 48
	.cfi_offset w19, -8
	.cfi_offset w20, -16
	.cfi_offset w21, -32
	.cfi_offset w30, -40
	.cfi_offset w29, -48
	neg	w9, w0
	mov	w8, w1
	and	x9, x9, #0x3f
	add	x20, x0, x9
	add	x9, x20, #32
	adrp	x0, :tlsdesc:near_room
	ldr	x1, [x0, :tlsdesc_lo12:near_room]
	add	x0, x0, :tlsdesc_lo12:near_room
	.tlsdesccall near_room
	blr	x1
	mrs	x21, TPIDR_EL0
	mov	x19, x0
	str	x9, [x21, x0]
	adrp	x0, :tlsdesc:pieces_first
	ldr	x1, [x0, :tlsdesc_lo12:pieces_first]
	add	x0, x0, :tlsdesc_lo12:pieces_first
	.tlsdesccall pieces_first
	blr	x1
	mov	w9, #2
	str	w9, [x21, x0]
	ldrb	w9, [x20, #29]
	cbz	w9, .Lm_BB9_4
	sub	w10, w9, #65
	cmn	w10, #57
	b.lo	.Lm_BB9_3
	add	w10, w9, #127
	tst	w10, w9
	b.eq	.Lm_BB9_4
.Lm_BB9_3:
	mov	w3, wzr
.Lm_BB9_4:
	mov	x0, x20
	mov	w1, w8
	bl	tlsf_open
	cbnz	w0, .Lm_BB9_7
	ldrb	w8, [x20, #29]
	tst	w8, #0xffffffef
	b.eq	.Lm_BB9_7
	mov	w8, #1
	strb	w8, [x20, #28]
.Lm_BB9_7:
	str	xzr, [x21, x19]
	.cfi_def_cfa wsp, 48
	ldp	x20, x19, [sp, #32]
	ldr	x21, [sp, #16]
	ldp	x29, x30, [sp], #48
	.cfi_def_cfa_offset 0
	.cfi_restore w19
	.cfi_restore w20
	.cfi_restore w21
	.cfi_restore w30
	.cfi_restore w29
	ret
.Lm_func_end9:
	.size	tlsf_open_near, .Lm_func_end9-tlsf_open_near
	.cfi_endproc
	.globl	tlsf_open_near_in
	.p2align	2
	.type	tlsf_open_near_in,@function
tlsf_open_near_in:
	.cfi_startproc
	stp	x29, x30, [sp, #-64]!
	.cfi_def_cfa_offset 64
	str	x23, [sp, #16]
	stp	x22, x21, [sp, #32]
	stp	x20, x19, [sp, #48]
	mov	x29, sp
	.cfi_def_cfa w29, 64
	.cfi_offset w19, -8
	.cfi_offset w20, -16
	.cfi_offset w21, -24
	.cfi_offset w22, -32
	.cfi_offset w23, -48
	.cfi_offset w30, -56
	.cfi_offset w29, -64
	neg	w9, w0
	mov	w8, w1
	and	x9, x9, #0x3f
	add	x20, x0, x9
	add	x9, x20, #32
	adrp	x0, :tlsdesc:near_room
	ldr	x1, [x0, :tlsdesc_lo12:near_room]
	add	x0, x0, :tlsdesc_lo12:near_room
	.tlsdesccall near_room
	blr	x1
	mrs	x22, TPIDR_EL0
	mov	x19, x0
	str	x9, [x22, x0]
	adrp	x0, :tlsdesc:pieces_first
	ldr	x1, [x0, :tlsdesc_lo12:pieces_first]
	add	x0, x0, :tlsdesc_lo12:pieces_first
	.tlsdesccall pieces_first
	blr	x1
	mov	w9, #2
	str	w9, [x22, x0]
	ldrb	w10, [x20, #29]
	cbz	w10, .Lm_BB10_4
	sub	w9, w10, #65
	cmn	w9, #57
	b.lo	.Lm_BB10_3
	add	w9, w10, #127
	cmp	x10, #16
	and	x11, x9, x10
	mov	w9, #16
	csel	x9, x10, x9, hi
	cbz	x11, .Lm_BB10_5
.Lm_BB10_3:
	mov	x11, xzr
	b	.Lm_BB10_6
.Lm_BB10_4:
	mov	w9, #16
.Lm_BB10_5:
	mov	x11, #-32
	sub	x11, x11, x3
	udiv	x12, x11, x9
	msub	x11, x12, x9, x11
.Lm_BB10_6:
	mov	w9, wzr
	mvn	x12, x3
	cbz	x3, .Lm_BB10_14
	cmp	x4, x12
	b.hi	.Lm_BB10_14
	subs	x13, x4, x11
	b.lo	.Lm_BB10_14
	cmp	w8, #5
	mov	w9, #16777216
	mov	w14, #1048576
	csel	x9, x9, xzr, eq
	cmp	w8, #4
	csel	x9, x14, x9, eq
	cmp	x13, #64
	b.hs	.Lm_BB10_11
	mov	w9, wzr
	b	.Lm_BB10_14
.Lm_BB10_11:
	mov	w14, #268435456
	mov	x15, #1009
	cmp	x13, x14
	movk	x15, #61503, lsl #16
	csel	x13, x13, x14, lo
	movk	x15, #16131, lsl #32
	lsl	w14, w13, #3
	movk	x15, #1008, lsl #48
	sub	w14, w14, #192
	umulh	x14, x14, x15
	lsl	x15, x14, #3
	add	x14, x14, #71
	add	x15, x15, #87
.Lm_BB10_12:
	lsr	x16, x14, #6
	and	x17, x15, #0xfffffffffffffff0
	sub	x14, x14, #1
	sub	x15, x15, #8
	add	x16, x17, x16, lsl #3
	add	x16, x16, #8
	cmp	x16, x13
	b.hi	.Lm_BB10_12
	sub	x13, x14, #62
	cmp	x13, x9
	csel	x9, x13, x9, lo
.Lm_BB10_14:
	cmp	x3, #0
	cset	w13, ne
	cmp	x4, x12
	cset	w12, ls
	cmp	x11, x4
	csel	x11, x11, x4, lo
	adrp	x0, :tlsdesc:lent
	ldr	x1, [x0, :tlsdesc_lo12:lent]
	add	x0, x0, :tlsdesc_lo12:lent
	.tlsdesccall lent
	blr	x1
	ands	w23, w13, w12
	add	x11, x3, x11
	adrp	x12, begin_behind.nothing
	add	x12, x12, :lo12:begin_behind.nothing
	add	x13, x3, x4
	mov	x21, x0
	csel	x11, x11, x12, ne
	str	x11, [x22, x0]
	csel	x11, x13, x12, ne
	adrp	x0, :tlsdesc:lent_end
	ldr	x1, [x0, :tlsdesc_lo12:lent_end]
	add	x0, x0, :tlsdesc_lo12:lent_end
	.tlsdesccall lent_end
	blr	x1
	str	x11, [x22, x0]
	adrp	x0, :tlsdesc:lent_step
	ldr	x1, [x0, :tlsdesc_lo12:lent_step]
	add	x0, x0, :tlsdesc_lo12:lent_step
	.tlsdesccall lent_step
	blr	x1
	mov	w11, #16
	str	x11, [x22, x0]
	cbz	w10, .Lm_BB10_18
	sub	w11, w10, #65
	cmn	w11, #57
	b.lo	.Lm_BB10_17
	add	w11, w10, #127
	tst	w11, w10
	b.eq	.Lm_BB10_18
.Lm_BB10_17:
	mov	w9, wzr
.Lm_BB10_18:
	mov	x0, x20
	mov	w1, w8
	mov	w3, w9
	bl	tlsf_open
	cbz	w0, .Lm_BB10_21
	cmp	w0, #5
	str	xzr, [x22, x21]
	cset	w8, eq
	bic	w8, w8, w23
	tbz	w8, #0, .Lm_BB10_24
	mov	w0, #39
	b	.Lm_BB10_24
.Lm_BB10_21:
	ldrb	w8, [x20, #29]
	tst	w8, #0xffffffef
	b.eq	.Lm_BB10_23
	mov	w8, #1
	strb	w8, [x20, #28]
.Lm_BB10_23:
	str	xzr, [x22, x21]
.Lm_BB10_24:
	str	xzr, [x22, x19]
	.cfi_def_cfa wsp, 64
	ldp	x20, x19, [sp, #48]
	ldr	x23, [sp, #16]
	ldp	x22, x21, [sp, #32]
	ldp	x29, x30, [sp], #64
	.cfi_def_cfa_offset 0
	.cfi_restore w19
	.cfi_restore w20
	.cfi_restore w21
	.cfi_restore w22
	.cfi_restore w23
	.cfi_restore w30
	.cfi_restore w29
	ret
.Lm_func_end10:
	.size	tlsf_open_near_in, .Lm_func_end10-tlsf_open_near_in
	.cfi_endproc
	.globl	tlsf_open_32
	.p2align	2
	.type	tlsf_open_32,@function
tlsf_open_32:
	.cfi_startproc
	stp	x29, x30, [sp, #-32]!
	.cfi_def_cfa_offset 32
	str	x19, [sp, #16]
	mov	x29, sp
	.cfi_def_cfa w29, 32
	.cfi_offset w19, -16
	.cfi_offset w30, -24
	.cfi_offset w29, -32
	ldrb	w8, [x0, #29]
	mov	x19, x0
	cbz	w8, .Lm_BB11_4
	sub	w9, w8, #65
	cmn	w9, #57
	b.lo	.Lm_BB11_3
	add	w9, w8, #127
	tst	w9, w8
	b.eq	.Lm_BB11_4
.Lm_BB11_3:
	mov	w3, wzr
.Lm_BB11_4:
	mov	x0, x19
	bl	tlsf_open
	cbnz	w0, .Lm_BB11_7
	ldrb	w8, [x19, #29]
	tst	w8, #0xffffffef
	b.eq	.Lm_BB11_7
	mov	w8, #1
	strb	w8, [x19, #28]
.Lm_BB11_7:
	.cfi_def_cfa wsp, 32
	ldr	x19, [sp, #16]
	ldp	x29, x30, [sp], #32
	.cfi_def_cfa_offset 0
	.cfi_restore w19
	.cfi_restore w30
	.cfi_restore w29
	ret
.Lm_func_end11:
	.size	tlsf_open_32, .Lm_func_end11-tlsf_open_32
	.cfi_endproc
	.globl	tlsf_open_in_32
	.p2align	2
	.type	tlsf_open_in_32,@function
tlsf_open_in_32:
	.cfi_startproc
	b	tlsf_open_in
.Lm_func_end12:
	.size	tlsf_open_in_32, .Lm_func_end12-tlsf_open_in_32
	.cfi_endproc
	.globl	tlsf_open_near_2880
	.p2align	2
	.type	tlsf_open_near_2880,@function
tlsf_open_near_2880:
	.cfi_startproc
	stp	x29, x30, [sp, #-48]!
	.cfi_def_cfa_offset 48
	str	x21, [sp, #16]
	stp	x20, x19, [sp, #32]
	mov	x29, sp
	.cfi_def_cfa w29, 48
	.cfi_offset w19, -8
	.cfi_offset w20, -16
	.cfi_offset w21, -32
	.cfi_offset w30, -40
	.cfi_offset w29, -48
	neg	w9, w0
	mov	w8, w1
	and	x9, x9, #0x3f
	add	x20, x0, x9
	add	x9, x20, #32
	adrp	x0, :tlsdesc:near_room
	ldr	x1, [x0, :tlsdesc_lo12:near_room]
	add	x0, x0, :tlsdesc_lo12:near_room
	.tlsdesccall near_room
	blr	x1
	mrs	x21, TPIDR_EL0
	mov	x19, x0
	str	x9, [x21, x0]
	adrp	x0, :tlsdesc:pieces_first
	ldr	x1, [x0, :tlsdesc_lo12:pieces_first]
	add	x0, x0, :tlsdesc_lo12:pieces_first
	.tlsdesccall pieces_first
	blr	x1
	mov	w9, #2
	str	w9, [x21, x0]
	ldrb	w9, [x20, #29]
	cbz	w9, .Lm_BB13_4
	sub	w10, w9, #65
	cmn	w10, #57
	b.lo	.Lm_BB13_3
	add	w10, w9, #127
	tst	w10, w9
	b.eq	.Lm_BB13_4
.Lm_BB13_3:
	mov	w3, wzr
.Lm_BB13_4:
	mov	x0, x20
	mov	w1, w8
	bl	tlsf_open
	cbnz	w0, .Lm_BB13_7
	ldrb	w8, [x20, #29]
	tst	w8, #0xffffffef
	b.eq	.Lm_BB13_7
	mov	w8, #1
	strb	w8, [x20, #28]
.Lm_BB13_7:
	str	xzr, [x21, x19]
	.cfi_def_cfa wsp, 48
	ldp	x20, x19, [sp, #32]
	ldr	x21, [sp, #16]
	ldp	x29, x30, [sp], #48
	.cfi_def_cfa_offset 0
	.cfi_restore w19
	.cfi_restore w20
	.cfi_restore w21
	.cfi_restore w30
	.cfi_restore w29
	ret
.Lm_func_end13:
	.size	tlsf_open_near_2880, .Lm_func_end13-tlsf_open_near_2880
	.cfi_endproc
	.globl	tlsf_open_near_in_2880
	.p2align	2
	.type	tlsf_open_near_in_2880,@function
tlsf_open_near_in_2880:
	.cfi_startproc
	b	tlsf_open_near_in
.Lm_func_end14:
	.size	tlsf_open_near_in_2880, .Lm_func_end14-tlsf_open_near_in_2880
	.cfi_endproc
	.globl	tlsf_lane_bytes
	.p2align	2
	.type	tlsf_lane_bytes,@function
tlsf_lane_bytes:
	.cfi_startproc
	mov	w8, #24
	mov	w9, #135
	madd	w8, w0, w8, w9
	sub	w9, w0, #1025
	cmn	w9, #1024
	and	w8, w8, #0x1ff80
	add	w8, w8, #895
	csel	w0, wzr, w8, lo
	ret
.Lm_func_end15:
	.size	tlsf_lane_bytes, .Lm_func_end15-tlsf_lane_bytes
	.cfi_endproc
	.globl	tlsf_lane_open_in
	.p2align	2
	.type	tlsf_lane_open_in,@function
tlsf_lane_open_in:
	.cfi_startproc
	mov	x8, x1
	cmp	w2, #1025
	mov	x9, x0
	b.hs	.Lm_BB16_2
	mov	w10, #24
	mov	w11, #135
	madd	w12, w2, w10, w11
	neg	w10, w3
	mvn	x11, x3
	and	x10, x10, #0x7f
	subs	x13, x4, x10
	and	w12, w12, #0x1ff80
	ccmp	x4, x11, #2, hs
	add	w12, w12, #768
	ccmp	x3, #0, #4, ls
	ccmp	x13, x12, #0, ne
	csel	w2, wzr, w2, lo
	b	.Lm_BB16_3
.Lm_BB16_2:
	neg	w10, w3
	mvn	x11, x3
	and	x10, x10, #0x7f
.Lm_BB16_3:
	stp	x29, x30, [sp, #-48]!
	.cfi_def_cfa_offset 48
	str	x21, [sp, #16]
	stp	x20, x19, [sp, #32]
	mov	x29, sp
	.cfi_def_cfa w29, 48
	.cfi_offset w19, -8
	.cfi_offset w20, -16
	.cfi_offset w21, -32
	.cfi_offset w30, -40
	.cfi_offset w29, -48
	cmp	x3, #0
	adrp	x13, begin_behind.nothing
	add	x13, x13, :lo12:begin_behind.nothing
	cset	w12, ne
	cmp	x4, x11
	cset	w11, ls
	cmp	x10, x4
	csel	x10, x10, x4, lo
	add	x10, x3, x10
	adrp	x0, :tlsdesc:lent
	ldr	x1, [x0, :tlsdesc_lo12:lent]
	add	x0, x0, :tlsdesc_lo12:lent
	.tlsdesccall lent
	blr	x1
	ands	w20, w12, w11
	add	x11, x3, x4
	mov	x19, x0
	mrs	x21, TPIDR_EL0
	csel	x10, x10, x13, ne
	str	x10, [x21, x0]
	csel	x10, x11, x13, ne
	adrp	x0, :tlsdesc:lent_end
	ldr	x1, [x0, :tlsdesc_lo12:lent_end]
	add	x0, x0, :tlsdesc_lo12:lent_end
	.tlsdesccall lent_end
	blr	x1
	str	x10, [x21, x0]
	adrp	x0, :tlsdesc:lent_step
	ldr	x1, [x0, :tlsdesc_lo12:lent_step]
	add	x0, x0, :tlsdesc_lo12:lent_step
	.tlsdesccall lent_step
	blr	x1
	mov	w10, #128
	str	x10, [x21, x0]
	mov	x0, x9
	mov	x1, x8
	bl	tlsf_lane_open
	cmp	w0, #5
	mov	w8, #39
	cset	w9, ne
	orr	w9, w20, w9
	cmp	w9, #0
	csel	w0, w0, w8, ne
	str	xzr, [x21, x19]
	.cfi_def_cfa wsp, 48
	ldp	x20, x19, [sp, #32]
	ldr	x21, [sp, #16]
	ldp	x29, x30, [sp], #48
	.cfi_def_cfa_offset 0
	.cfi_restore w19
	.cfi_restore w20
	.cfi_restore w21
	.cfi_restore w30
	.cfi_restore w29
	ret
.Lm_func_end16:
	.size	tlsf_lane_open_in, .Lm_func_end16-tlsf_lane_open_in
	.cfi_endproc
	.globl	tlsf_queue_bytes
	.p2align	2
	.type	tlsf_queue_bytes,@function
tlsf_queue_bytes:
	.cfi_startproc
	mov	w8, #1024
	sub	w9, w8, w0
	sub	w8, w8, w1
	orr	w8, w8, w9
	cmp	w8, #1023
	b.hi	.Lm_BB17_2
	ubfiz	x8, x0, #4, #32
	ubfiz	x9, x1, #3, #32
	ubfiz	x10, x1, #5, #32
	ubfiz	x11, x0, #3, #32
	mov	w12, w0
	add	x8, x8, #135
	add	x9, x9, #519
	add	x10, x10, #135
	and	x8, x8, #0xfffffff80
	add	x11, x11, #135
	and	x9, x9, #0x7ffffff80
	add	x8, x8, x12, lsl #7
	and	x10, x10, #0x1fffffff80
	and	x11, x11, #0x7ffffff80
	add	x9, x9, x10
	add	x8, x8, x11
	add	x8, x8, x9, lsl #1
	add	x0, x8, #383
	ret
.Lm_BB17_2:
	mov	x0, xzr
	ret
.Lm_func_end17:
	.size	tlsf_queue_bytes, .Lm_func_end17-tlsf_queue_bytes
	.cfi_endproc
	.globl	tlsf_queue_open_in
	.p2align	2
	.type	tlsf_queue_open_in,@function
tlsf_queue_open_in:
	.cfi_startproc
	mov	w8, w1
	cmp	w1, #1024
	mov	x9, x0
	b.hi	.Lm_BB18_3
	cmp	w2, #1025
	b.hs	.Lm_BB18_3
	lsl	w10, w8, #4
	lsl	w11, w2, #3
	lsl	w12, w2, #5
	lsl	w13, w8, #3
	mov	w14, w8
	add	w10, w10, #135
	add	w11, w11, #519
	add	w12, w12, #135
	and	x10, x10, #0xff80
	add	w13, w13, #135
	and	x11, x11, #0x7f80
	add	x10, x10, x14, lsl #7
	and	x12, x12, #0x1ff80
	and	x13, x13, #0x7f80
	neg	w14, w3
	add	x11, x11, x12
	add	x12, x10, x13
	and	x10, x14, #0x7f
	add	x12, x12, x11, lsl #1
	mvn	x11, x3
	subs	x13, x4, x10
	ccmp	x4, x11, #2, hs
	add	x12, x12, #256
	ccmp	x3, #0, #4, ls
	ccmp	x13, x12, #0, ne
	csel	w2, wzr, w2, lo
	b	.Lm_BB18_4
.Lm_BB18_3:
	neg	w10, w3
	mvn	x11, x3
	and	x10, x10, #0x7f
.Lm_BB18_4:
	stp	x29, x30, [sp, #-48]!
	.cfi_def_cfa_offset 48
	str	x21, [sp, #16]
	stp	x20, x19, [sp, #32]
	mov	x29, sp
	.cfi_def_cfa w29, 48
	.cfi_offset w19, -8
	.cfi_offset w20, -16
	.cfi_offset w21, -32
	.cfi_offset w30, -40
	.cfi_offset w29, -48
	cmp	x3, #0
	adrp	x13, begin_behind.nothing
	add	x13, x13, :lo12:begin_behind.nothing
	cset	w12, ne
	cmp	x4, x11
	cset	w11, ls
	cmp	x10, x4
	csel	x10, x10, x4, lo
	add	x10, x3, x10
	adrp	x0, :tlsdesc:lent
	ldr	x1, [x0, :tlsdesc_lo12:lent]
	add	x0, x0, :tlsdesc_lo12:lent
	.tlsdesccall lent
	blr	x1
	ands	w20, w12, w11
	add	x11, x3, x4
	mov	x19, x0
	mrs	x21, TPIDR_EL0
	csel	x10, x10, x13, ne
	str	x10, [x21, x0]
	csel	x10, x11, x13, ne
	adrp	x0, :tlsdesc:lent_end
	ldr	x1, [x0, :tlsdesc_lo12:lent_end]
	add	x0, x0, :tlsdesc_lo12:lent_end
	.tlsdesccall lent_end
	blr	x1
	str	x10, [x21, x0]
	adrp	x0, :tlsdesc:lent_step
	ldr	x1, [x0, :tlsdesc_lo12:lent_step]
	add	x0, x0, :tlsdesc_lo12:lent_step
	.tlsdesccall lent_step
	blr	x1
	mov	w10, #128
	str	x10, [x21, x0]
	mov	x0, x9
	mov	w1, w8
	bl	tlsf_queue_open
	cmp	w0, #5
	mov	w8, #39
	cset	w9, ne
	orr	w9, w20, w9
	cmp	w9, #0
	csel	w0, w0, w8, ne
	str	xzr, [x21, x19]
	.cfi_def_cfa wsp, 48
	ldp	x20, x19, [sp, #32]
	ldr	x21, [sp, #16]
	ldp	x29, x30, [sp], #48
	.cfi_def_cfa_offset 0
	.cfi_restore w19
	.cfi_restore w20
	.cfi_restore w21
	.cfi_restore w30
	.cfi_restore w29
	ret
.Lm_func_end18:
	.size	tlsf_queue_open_in, .Lm_func_end18-tlsf_queue_open_in
	.cfi_endproc
	.globl	tlsf_offsets_bytes
	.p2align	2
	.type	tlsf_offsets_bytes,@function
tlsf_offsets_bytes:
	.cfi_startproc
	cmp	w1, #4
	b.hs	.Lm_BB19_2
	mov	x0, xzr
	ret
.Lm_BB19_2:
	cmp	w0, #5
	mov	w8, #16777216
	mov	w10, #1048576
	csel	x9, x8, xzr, eq
	cmp	w0, #4
	mov	w8, w1
	csel	x9, x10, x9, eq
	cmp	x9, x8
	b.hs	.Lm_BB19_4
	mov	x0, xzr
	ret
.Lm_BB19_4:
	add	w9, w8, #63
	lsl	w8, w8, #3
	lsr	w9, w9, #3
	add	w8, w8, #23
	add	w9, w9, #16
	and	x8, x8, #0x1ffffff0
	and	x9, x9, #0xfffff0
	add	x8, x8, x9
	add	x0, x8, #2783
	ret
.Lm_func_end19:
	.size	tlsf_offsets_bytes, .Lm_func_end19-tlsf_offsets_bytes
	.cfi_endproc
	.globl	tlsf_offsets_open_in
	.p2align	2
	.type	tlsf_offsets_open_in,@function
tlsf_offsets_open_in:
	.cfi_startproc
	cmp	w1, #5
	mov	w9, #16777216
	mov	w11, #1048576
	csel	x9, x9, xzr, eq
	cmp	w1, #4
	mov	w10, w4
	csel	x9, x11, x9, eq
	mov	w8, w1
	cmp	x9, x10
	mov	x9, x0
	b.hs	.Lm_BB20_2
	neg	w10, w5
	mvn	x11, x5
	and	x10, x10, #0xf
	b	.Lm_BB20_3
.Lm_BB20_2:
	lsl	w11, w10, #3
	add	w10, w10, #63
	neg	w12, w5
	lsr	w10, w10, #3
	add	w11, w11, #23
	and	x13, x11, #0x1ffffff0
	add	w11, w10, #16
	and	x10, x12, #0xf
	and	x12, x11, #0xfffff0
	mvn	x11, x5
	subs	x14, x6, x10
	add	x12, x13, x12
	ccmp	x6, x11, #2, hs
	add	x12, x12, #2768
	ccmp	x5, #0, #4, ls
	ccmp	x14, x12, #0, ne
	csel	w4, wzr, w4, lo
.Lm_BB20_3:
	stp	x29, x30, [sp, #-48]!
	.cfi_def_cfa_offset 48
	str	x21, [sp, #16]
	stp	x20, x19, [sp, #32]
	mov	x29, sp
	.cfi_def_cfa w29, 48
	.cfi_offset w19, -8
	.cfi_offset w20, -16
	.cfi_offset w21, -32
	.cfi_offset w30, -40
	.cfi_offset w29, -48
	cmp	x5, #0
	adrp	x13, begin_behind.nothing
	add	x13, x13, :lo12:begin_behind.nothing
	cset	w12, ne
	cmp	x6, x11
	cset	w11, ls
	cmp	x10, x6
	csel	x10, x10, x6, lo
	add	x10, x5, x10
	adrp	x0, :tlsdesc:lent
	ldr	x1, [x0, :tlsdesc_lo12:lent]
	add	x0, x0, :tlsdesc_lo12:lent
	.tlsdesccall lent
	blr	x1
	ands	w20, w12, w11
	add	x11, x5, x6
	mov	x19, x0
	mrs	x21, TPIDR_EL0
	csel	x10, x10, x13, ne
	str	x10, [x21, x0]
	csel	x10, x11, x13, ne
	adrp	x0, :tlsdesc:lent_end
	ldr	x1, [x0, :tlsdesc_lo12:lent_end]
	add	x0, x0, :tlsdesc_lo12:lent_end
	.tlsdesccall lent_end
	blr	x1
	str	x10, [x21, x0]
	adrp	x0, :tlsdesc:lent_step
	ldr	x1, [x0, :tlsdesc_lo12:lent_step]
	add	x0, x0, :tlsdesc_lo12:lent_step
	.tlsdesccall lent_step
	blr	x1
	mov	w10, #16
	str	x10, [x21, x0]
	mov	x0, x9
	mov	w1, w8
	bl	tlsf_offsets_open
	cmp	w0, #5
	mov	w8, #39
	cset	w9, ne
	orr	w9, w20, w9
	cmp	w9, #0
	csel	w0, w0, w8, ne
	str	xzr, [x21, x19]
	.cfi_def_cfa wsp, 48
	ldp	x20, x19, [sp, #32]
	ldr	x21, [sp, #16]
	ldp	x29, x30, [sp], #48
	.cfi_def_cfa_offset 0
	.cfi_restore w19
	.cfi_restore w20
	.cfi_restore w21
	.cfi_restore w30
	.cfi_restore w29
	ret
.Lm_func_end20:
	.size	tlsf_offsets_open_in, .Lm_func_end20-tlsf_offsets_open_in
	.cfi_endproc
	.globl	tlsf_pools_bytes
	.p2align	2
	.type	tlsf_pools_bytes,@function
tlsf_pools_bytes:
	.cfi_startproc
	sub	sp, sp, #48
	.cfi_def_cfa_offset 48
	stp	x29, x30, [sp, #16]
	str	x19, [sp, #32]
	add	x29, sp, #16
	.cfi_def_cfa w29, 32
	.cfi_offset w19, -16
	.cfi_offset w30, -24
	.cfi_offset w29, -32
	add	x3, x29, #24
	sub	x4, x29, #4
	mov	x19, x2
	str	xzr, [x29, #24]
	stur	wzr, [x29, #-4]
	bl	tlsf_pools_words
	mov	w8, w0
	mov	x0, xzr
	cbnz	w8, .Lm_BB21_2
	mov	w8, #12
	ldr	x9, [x29, #24]
	ldur	w10, [x29, #-4]
	mul	x8, x19, x8
	mov	w11, #2792
	lsr	x12, x9, #6
	umull	x11, w10, w11
	add	x8, x8, x9, lsl #3
	mov	w9, #80
	add	x8, x8, x12, lsl #3
	umaddl	x8, w10, w9, x8
	add	x9, x11, #23
	and	x9, x9, #0x1ffffffffff0
	add	x8, x8, x9
	add	x0, x8, #2783
.Lm_BB21_2:
	.cfi_def_cfa wsp, 48
	ldp	x29, x30, [sp, #16]
	ldr	x19, [sp, #32]
	add	sp, sp, #48
	.cfi_def_cfa_offset 0
	.cfi_restore w19
	.cfi_restore w30
	.cfi_restore w29
	ret
.Lm_func_end21:
	.size	tlsf_pools_bytes, .Lm_func_end21-tlsf_pools_bytes
	.cfi_endproc
	.globl	tlsf_pools_open_in
	.p2align	2
	.type	tlsf_pools_open_in,@function
tlsf_pools_open_in:
	.cfi_startproc
	stp	x29, x30, [sp, #-48]!
	.cfi_def_cfa_offset 48
	str	x21, [sp, #16]
	stp	x20, x19, [sp, #32]
	mov	x29, sp
	.cfi_def_cfa w29, 48
	.cfi_offset w19, -8
	.cfi_offset w20, -16
	.cfi_offset w21, -32
	.cfi_offset w30, -40
	.cfi_offset w29, -48
	neg	w10, w5
	cmp	x5, #0
	mvn	x11, x5
	and	x10, x10, #0xf
	cset	w12, ne
	cmp	x6, x11
	cset	w11, ls
	cmp	x10, x6
	mov	w8, w1
	csel	x10, x10, x6, lo
	mov	x9, x0
	adrp	x13, begin_behind.nothing
	add	x13, x13, :lo12:begin_behind.nothing
	add	x10, x5, x10
	adrp	x0, :tlsdesc:lent
	ldr	x1, [x0, :tlsdesc_lo12:lent]
	add	x0, x0, :tlsdesc_lo12:lent
	.tlsdesccall lent
	blr	x1
	ands	w20, w12, w11
	add	x11, x5, x6
	mov	x19, x0
	mrs	x21, TPIDR_EL0
	csel	x10, x10, x13, ne
	str	x10, [x21, x0]
	csel	x10, x11, x13, ne
	adrp	x0, :tlsdesc:lent_end
	ldr	x1, [x0, :tlsdesc_lo12:lent_end]
	add	x0, x0, :tlsdesc_lo12:lent_end
	.tlsdesccall lent_end
	blr	x1
	str	x10, [x21, x0]
	adrp	x0, :tlsdesc:lent_step
	ldr	x1, [x0, :tlsdesc_lo12:lent_step]
	add	x0, x0, :tlsdesc_lo12:lent_step
	.tlsdesccall lent_step
	blr	x1
	mov	w10, #16
	str	x10, [x21, x0]
	mov	x0, x9
	mov	w1, w8
	bl	tlsf_pools_open
	mov	w8, #5
	cmp	w0, #6
	csel	w8, w8, w0, eq
	cmp	w8, #5
	cset	w9, ne
	orr	w9, w20, w9
	cmp	w9, #0
	mov	w9, #39
	csel	w0, w8, w9, ne
	str	xzr, [x21, x19]
	.cfi_def_cfa wsp, 48
	ldp	x20, x19, [sp, #32]
	ldr	x21, [sp, #16]
	ldp	x29, x30, [sp], #48
	.cfi_def_cfa_offset 0
	.cfi_restore w19
	.cfi_restore w20
	.cfi_restore w21
	.cfi_restore w30
	.cfi_restore w29
	ret
.Lm_func_end22:
	.size	tlsf_pools_open_in, .Lm_func_end22-tlsf_pools_open_in
	.cfi_endproc
	.globl	tlsf_next_number
	.p2align	2
	.type	tlsf_next_number,@function
tlsf_next_number:
	.cfi_startproc
	adrp	x8, tlsf_next_number.calls
	add	x8, x8, :lo12:tlsf_next_number.calls
.Lm_BB23_1:
	ldxr	x9, [x8]
	add	x10, x9, #1
	stxr	w11, x10, [x8]
	cbnz	w11, .Lm_BB23_1
	lsl	x9, x9, #3
	cmp	x9, w9, sxtw
	b.ne	.Lm_BB23_4
	mov	w10, #-2147483648
	add	x9, x9, x10
	str	w9, [x0]
	mov	w0, wzr
	ret
.Lm_BB23_4:
	mov	w0, #2
	ret
.Lm_func_end23:
	.size	tlsf_next_number, .Lm_func_end23-tlsf_next_number
	.cfi_endproc
	.type	tlsf_memory_alloc.nothing,@object
	.local	tlsf_memory_alloc.nothing
	.comm	tlsf_memory_alloc.nothing,8,8
	.type	near_room,@object
	.section	.tbss,"awT",@nobits
	.p2align	3, 0x0
near_room:
	.xword	0
	.size	near_room, 8
	.type	pieces_first,@object
	.p2align	2, 0x0
pieces_first:
	.word	0
	.size	pieces_first, 4
	.type	lent,@object
	.p2align	3, 0x0
lent:
	.xword	0
	.size	lent, 8
	.type	tlsf_next_number.calls,@object
	.local	tlsf_next_number.calls
	.comm	tlsf_next_number.calls,8,8
	.type	lent_step,@object
	.p2align	3, 0x0
lent_step:
	.xword	0
	.size	lent_step, 8
	.type	lent_end,@object
	.p2align	3, 0x0
lent_end:
	.xword	0
	.size	lent_end, 8
	.type	begin_behind.nothing,@object
	.local	begin_behind.nothing
	.comm	begin_behind.nothing,1,1
	.ident	"clang version 22.1.8"
	.section	".note.GNU-stack","",@progbits
#else
	.text
	.hidden	tlsf_memory_alloc
	.globl	tlsf_memory_alloc
	.p2align	2
	.type	tlsf_memory_alloc,@function
tlsf_memory_alloc:
	.cfi_startproc
	cmp	x1, #8
	b.ls	.Lm_BB0_2
	mov	x9, xzr
	b	.Lm_BB0_14
.Lm_BB0_2:
	stp	x29, x30, [sp, #-32]!
	.cfi_def_cfa_offset 32
	stp	x20, x19, [sp, #16]
	mov	x29, sp
	.cfi_def_cfa w29, 32
	.cfi_offset w19, -8
	.cfi_offset w20, -16
	.cfi_offset w30, -24
	.cfi_offset w29, -32
	.cfi_remember_state
	mov	x8, x0
	adrp	x0, :tlsdesc:near_room
	ldr	x1, [x0, :tlsdesc_lo12:near_room]
	add	x0, x0, :tlsdesc_lo12:near_room
	.tlsdesccall near_room
	blr	x1
	mrs	x20, TPIDR_EL0
	ldr	x9, [x20, x0]
	cbz	x9, .Lm_BB0_4
	adrp	x0, :tlsdesc:pieces_first
	ldr	x1, [x0, :tlsdesc_lo12:pieces_first]
	add	x0, x0, :tlsdesc_lo12:pieces_first
	.tlsdesccall pieces_first
	blr	x1
	ldr	w10, [x20, x0]
	sub	w11, w10, #1
	str	w11, [x20, x0]
	cbz	w10, .Lm_BB0_11
.Lm_BB0_4:
	adrp	x0, :tlsdesc:lent
	ldr	x1, [x0, :tlsdesc_lo12:lent]
	add	x0, x0, :tlsdesc_lo12:lent
	.tlsdesccall lent
	blr	x1
	ldr	x10, [x20, x0]
	cbz	x10, .Lm_BB0_8
	mov	x9, x0
	adrp	x0, :tlsdesc:lent_step
	ldr	x1, [x0, :tlsdesc_lo12:lent_step]
	add	x0, x0, :tlsdesc_lo12:lent_step
	.tlsdesccall lent_step
	blr	x1
	mov	w11, #268435456
	cmp	x8, x11
	b.hi	.Lm_BB0_12
	ldr	x11, [x20, x0]
	add	x14, x8, #8
	adrp	x0, :tlsdesc:lent_end
	ldr	x1, [x0, :tlsdesc_lo12:lent_end]
	add	x0, x0, :tlsdesc_lo12:lent_end
	.tlsdesccall lent_end
	blr	x1
	ldr	x12, [x20, x0]
	sub	x13, x12, x10
	cmp	x14, x13
	b.hi	.Lm_BB0_12
	add	x8, x8, x11
	str	xzr, [x10]
	add	x8, x8, #7
	udiv	x8, x8, x11
	mul	x8, x8, x11
	add	x11, x10, x8
	cmp	x8, x13
	csel	x8, x11, x12, lo
	str	x8, [x20, x9]
	add	x9, x10, #8
	b	.Lm_BB0_13
.Lm_BB0_8:
	mov	w9, #268435456
	cmp	x8, x9
	b.hi	.Lm_BB0_12
	adrp	x0, :tlsdesc:front
	ldr	x1, [x0, :tlsdesc_lo12:front]
	add	x0, x0, :tlsdesc_lo12:front
	.tlsdesccall front
	blr	x1
	ldr	x9, [x20, x0]
	mov	x19, x0
	add	x8, x8, x9
	add	x8, x8, #135
	orr	x0, x8, #0x7f
	bl	malloc
	cbz	x0, .Lm_BB0_12
	ldr	x8, [x20, x19]
	neg	w9, w0
	str	xzr, [x20, x19]
	and	x9, x9, #0x7f
	add	x8, x0, x8
	add	x9, x8, x9
	str	x0, [x9], #8
	b	.Lm_BB0_13
.Lm_BB0_11:
	cmp	x8, #2776
	b.ls	.Lm_BB0_15
.Lm_BB0_12:
	mov	x9, xzr
.Lm_BB0_13:
	.cfi_def_cfa wsp, 32
	ldp	x20, x19, [sp, #16]
	ldp	x29, x30, [sp], #32
	.cfi_def_cfa_offset 0
	.cfi_restore w19
	.cfi_restore w20
	.cfi_restore w30
	.cfi_restore w29
.Lm_BB0_14:
	cmp	x9, #0
	adrp	x8, tlsf_memory_alloc.nothing
	add	x8, x8, :lo12:tlsf_memory_alloc.nothing
	cset	w0, ne
	csel	x1, x9, x8, ne
	ret
.Lm_BB0_15:
	.cfi_restore_state
	str	xzr, [x9], #8
	b	.Lm_BB0_13
.Lm_func_end0:
	.size	tlsf_memory_alloc, .Lm_func_end0-tlsf_memory_alloc
	.cfi_endproc
	.hidden	tlsf_memory_dealloc
	.globl	tlsf_memory_dealloc
	.p2align	2
	.type	tlsf_memory_dealloc,@function
tlsf_memory_dealloc:
	.cfi_startproc
	ldur	x0, [x0, #-8]
	cbz	x0, .Lm_BB1_2
	b	free
.Lm_BB1_2:
	ret
.Lm_func_end1:
	.size	tlsf_memory_dealloc, .Lm_func_end1-tlsf_memory_dealloc
	.cfi_endproc
	.hidden	tlsf_memory_realloc
	.globl	tlsf_memory_realloc
	.p2align	2
	.type	tlsf_memory_realloc,@function
tlsf_memory_realloc:
	.cfi_startproc
	stp	x29, x30, [sp, #-48]!
	.cfi_def_cfa_offset 48
	stp	x22, x21, [sp, #16]
	stp	x20, x19, [sp, #32]
	mov	x29, sp
	.cfi_def_cfa w29, 48
	.cfi_offset w19, -8
	.cfi_offset w20, -16
	.cfi_offset w21, -24
	.cfi_offset w22, -32
	.cfi_offset w30, -40
	.cfi_offset w29, -48
	mov	x22, x1
	mov	x21, x0
	mov	x0, x2
	mov	x1, x3
	bl	tlsf_memory_alloc
	mov	x19, x0
	mov	x20, x1
	cbz	x0, .Lm_BB2_3
	mov	x0, x20
	mov	x1, x21
	mov	x2, x22
	bl	memcpy
	ldur	x0, [x21, #-8]
	cbz	x0, .Lm_BB2_3
	bl	free
.Lm_BB2_3:
	mov	x0, x19
	mov	x1, x20
	.cfi_def_cfa wsp, 48
	ldp	x20, x19, [sp, #32]
	ldp	x22, x21, [sp, #16]
	ldp	x29, x30, [sp], #48
	.cfi_def_cfa_offset 0
	.cfi_restore w19
	.cfi_restore w20
	.cfi_restore w21
	.cfi_restore w22
	.cfi_restore w30
	.cfi_restore w29
	ret
.Lm_func_end2:
	.size	tlsf_memory_realloc, .Lm_func_end2-tlsf_memory_realloc
	.cfi_endproc
	.hidden	tlsf_memory_set
	.weak	tlsf_memory_set
	.p2align	2
	.type	tlsf_memory_set,@function
tlsf_memory_set:
	.cfi_startproc
	cbnz	w1, .Lm_BB3_15
	cmp	x2, #513
	b.hs	.Lm_BB3_15
	cmp	x2, #257
	b.lo	.Lm_BB3_4
	movi	v0.2d, #0000000000000000
	add	x8, x0, x2
	str	q0, [x0]
	stur	q0, [x8, #-16]
	str	q0, [x0, #16]
	stur	q0, [x8, #-32]
	str	q0, [x0, #32]
	stur	q0, [x8, #-48]
	str	q0, [x0, #48]
	stur	q0, [x8, #-64]
	str	q0, [x0, #64]
	stur	q0, [x8, #-80]
	str	q0, [x0, #80]
	stur	q0, [x8, #-96]
	str	q0, [x0, #96]
	stur	q0, [x8, #-112]
	str	q0, [x0, #112]
	stur	q0, [x8, #-128]
	str	q0, [x0, #128]
	stur	q0, [x8, #-144]
	str	q0, [x0, #144]
	stur	q0, [x8, #-160]
	str	q0, [x0, #160]
	stur	q0, [x8, #-176]
	str	q0, [x0, #176]
	stur	q0, [x8, #-192]
	str	q0, [x0, #192]
	stur	q0, [x8, #-208]
	str	q0, [x0, #208]
	stur	q0, [x8, #-224]
	str	q0, [x0, #224]
	stur	q0, [x8, #-240]
	str	q0, [x0, #240]
	stur	q0, [x8, #-256]
	ret
.Lm_BB3_4:
	cmp	x2, #129
	b.lo	.Lm_BB3_6
	movi	v0.2d, #0000000000000000
	add	x8, x0, x2
	str	q0, [x0]
	stur	q0, [x8, #-16]
	str	q0, [x0, #16]
	stur	q0, [x8, #-32]
	str	q0, [x0, #32]
	stur	q0, [x8, #-48]
	str	q0, [x0, #48]
	stur	q0, [x8, #-64]
	str	q0, [x0, #64]
	stur	q0, [x8, #-80]
	str	q0, [x0, #80]
	stur	q0, [x8, #-96]
	str	q0, [x0, #96]
	stur	q0, [x8, #-112]
	str	q0, [x0, #112]
	stur	q0, [x8, #-128]
	ret
.Lm_BB3_6:
	cmp	x2, #65
	b.lo	.Lm_BB3_8
	movi	v0.2d, #0000000000000000
	add	x8, x0, x2
	str	q0, [x0]
	stur	q0, [x8, #-16]
	str	q0, [x0, #16]
	stur	q0, [x8, #-32]
	str	q0, [x0, #32]
	stur	q0, [x8, #-48]
	str	q0, [x0, #48]
	stur	q0, [x8, #-64]
	ret
.Lm_BB3_8:
	cmp	x2, #33
	b.lo	.Lm_BB3_10
	movi	v0.2d, #0000000000000000
	add	x8, x0, x2
	str	q0, [x0]
	stur	q0, [x8, #-16]
	str	q0, [x0, #16]
	stur	q0, [x8, #-32]
	ret
.Lm_BB3_10:
	cmp	x2, #17
	b.lo	.Lm_BB3_12
	movi	v0.2d, #0000000000000000
	add	x8, x0, x2
	str	q0, [x0]
	stur	q0, [x8, #-16]
	ret
.Lm_BB3_12:
	cmp	x2, #7
	b.hi	.Lm_BB3_14
	mov	w1, wzr
	b	memset
.Lm_BB3_14:
	add	x8, x0, x2
	str	xzr, [x0]
	stur	xzr, [x8, #-8]
	ret
.Lm_BB3_15:
	b	memset
.Lm_func_end3:
	.size	tlsf_memory_set, .Lm_func_end3-tlsf_memory_set
	.cfi_endproc
	.hidden	tlsf_memory_cpy
	.weak	tlsf_memory_cpy
	.p2align	2
	.type	tlsf_memory_cpy,@function
tlsf_memory_cpy:
	.cfi_startproc
	b	memcpy
.Lm_func_end4:
	.size	tlsf_memory_cpy, .Lm_func_end4-tlsf_memory_cpy
	.cfi_endproc
	.hidden	tlsf_memory_move
	.weak	tlsf_memory_move
	.p2align	2
	.type	tlsf_memory_move,@function
tlsf_memory_move:
	.cfi_startproc
	b	memmove
.Lm_func_end5:
	.size	tlsf_memory_move, .Lm_func_end5-tlsf_memory_move
	.cfi_endproc
	.globl	tlsf_bytes
	.p2align	2
	.type	tlsf_bytes,@function
tlsf_bytes:
	.cfi_startproc
	cmp	w1, #4
	b.hs	.Lm_BB6_2
	mov	x0, xzr
	ret
.Lm_BB6_2:
	cmp	w0, #5
	mov	w8, #16777216
	mov	w10, #1048576
	csel	x9, x8, xzr, eq
	cmp	w0, #4
	mov	w8, w1
	csel	x9, x10, x9, eq
	cmp	x9, x8
	b.hs	.Lm_BB6_4
	mov	x0, xzr
	ret
.Lm_BB6_4:
	add	x9, x8, #63
	lsl	x8, x8, #3
	lsr	x9, x9, #3
	add	x8, x8, #23
	add	w9, w9, #16
	and	x8, x8, #0xffffffff0
	and	x9, x9, #0x7ffffff0
	add	x8, x8, x9
	add	x0, x8, #2783
	ret
.Lm_func_end6:
	.size	tlsf_bytes, .Lm_func_end6-tlsf_bytes
	.cfi_endproc
	.globl	tlsf_near_bytes
	.p2align	2
	.type	tlsf_near_bytes,@function
tlsf_near_bytes:
	.cfi_startproc
	cmp	w1, #4
	b.hs	.Lm_BB7_2
	mov	x0, xzr
	ret
.Lm_BB7_2:
	cmp	w0, #5
	mov	w8, #16777216
	mov	w10, #1048576
	csel	x9, x8, xzr, eq
	cmp	w0, #4
	mov	w8, w1
	csel	x9, x10, x9, eq
	cmp	x9, x8
	b.hs	.Lm_BB7_4
	mov	x0, xzr
	ret
.Lm_BB7_4:
	lsl	x9, x8, #3
	add	x8, x8, #63
	lsr	x8, x8, #3
	add	x9, x9, #23
	and	x9, x9, #0xffffffff0
	and	x8, x8, #0x3ffffff8
	add	x8, x9, x8
	add	x0, x8, #23
	ret
.Lm_func_end7:
	.size	tlsf_near_bytes, .Lm_func_end7-tlsf_near_bytes
	.cfi_endproc
	.globl	tlsf_open_in
	.p2align	2
	.type	tlsf_open_in,@function
tlsf_open_in:
	.cfi_startproc
	stp	x29, x30, [sp, #-48]!
	.cfi_def_cfa_offset 48
	stp	x22, x21, [sp, #16]
	stp	x20, x19, [sp, #32]
	mov	x29, sp
	.cfi_def_cfa w29, 48
	.cfi_offset w19, -8
	.cfi_offset w20, -16
	.cfi_offset w21, -24
	.cfi_offset w22, -32
	.cfi_offset w30, -40
	.cfi_offset w29, -48
	ldrb	w10, [x0, #29]
	mov	x19, x0
	mov	w8, w1
	cbz	w10, .Lm_BB8_4
	sub	w9, w10, #65
	cmn	w9, #57
	b.lo	.Lm_BB8_3
	add	w9, w10, #127
	cmp	x10, #16
	and	x11, x9, x10
	mov	w9, #16
	csel	x9, x10, x9, hi
	cbz	x11, .Lm_BB8_5
.Lm_BB8_3:
	mov	x11, xzr
	b	.Lm_BB8_6
.Lm_BB8_4:
	mov	w9, #16
.Lm_BB8_5:
	mov	x11, #-32
	sub	x11, x11, x3
	udiv	x12, x11, x9
	msub	x11, x12, x9, x11
.Lm_BB8_6:
	mov	w9, wzr
	mvn	x12, x3
	cbz	x3, .Lm_BB8_14
	cmp	x4, x12
	b.hi	.Lm_BB8_14
	subs	x13, x4, x11
	b.lo	.Lm_BB8_14
	cmp	w8, #5
	mov	w9, #16777216
	mov	w14, #1048576
	csel	x9, x9, xzr, eq
	cmp	w8, #4
	csel	x9, x14, x9, eq
	cmp	x13, #2832
	b.hs	.Lm_BB8_11
	mov	w9, wzr
	b	.Lm_BB8_14
.Lm_BB8_11:
	mov	w14, #268435456
	mov	x15, #1009
	cmp	x13, x14
	movk	x15, #61503, lsl #16
	csel	x13, x13, x14, lo
	mov	w14, #-22400
	movk	x15, #16131, lsl #32
	add	w14, w14, w13, lsl #3
	movk	x15, #1008, lsl #48
	umulh	x14, x14, x15
	lsl	x15, x14, #3
	add	x14, x14, #71
	add	x15, x15, #87
.Lm_BB8_12:
	lsr	x16, x14, #3
	and	x17, x15, #0xfffffffffffffff0
	sub	x14, x14, #1
	sub	x15, x15, #8
	add	x16, x16, #16
	and	x16, x16, #0x3ffffffffffffff0
	add	x16, x17, x16
	add	x16, x16, #2768
	cmp	x16, x13
	b.hi	.Lm_BB8_12
	sub	x13, x14, #62
	cmp	x13, x9
	csel	x9, x13, x9, lo
.Lm_BB8_14:
	cmp	x3, #0
	cset	w13, ne
	cmp	x4, x12
	cset	w12, ls
	cmp	x11, x4
	csel	x11, x11, x4, lo
	adrp	x0, :tlsdesc:lent
	ldr	x1, [x0, :tlsdesc_lo12:lent]
	add	x0, x0, :tlsdesc_lo12:lent
	.tlsdesccall lent
	blr	x1
	ands	w22, w13, w12
	adrp	x12, begin_behind.nothing
	add	x12, x12, :lo12:begin_behind.nothing
	add	x11, x3, x11
	mrs	x21, TPIDR_EL0
	add	x13, x3, x4
	csel	x11, x11, x12, ne
	mov	x20, x0
	str	x11, [x21, x0]
	csel	x11, x13, x12, ne
	adrp	x0, :tlsdesc:lent_end
	ldr	x1, [x0, :tlsdesc_lo12:lent_end]
	add	x0, x0, :tlsdesc_lo12:lent_end
	.tlsdesccall lent_end
	blr	x1
	str	x11, [x21, x0]
	adrp	x0, :tlsdesc:lent_step
	ldr	x1, [x0, :tlsdesc_lo12:lent_step]
	add	x0, x0, :tlsdesc_lo12:lent_step
	.tlsdesccall lent_step
	blr	x1
	mov	w11, #16
	str	x11, [x21, x0]
	cbz	w10, .Lm_BB8_18
	sub	w11, w10, #65
	cmn	w11, #57
	b.lo	.Lm_BB8_17
	add	w11, w10, #127
	tst	w11, w10
	b.eq	.Lm_BB8_18
.Lm_BB8_17:
	mov	w9, wzr
.Lm_BB8_18:
	mov	x0, x19
	mov	w1, w8
	mov	w3, w9
	bl	tlsf_open
	cbz	w0, .Lm_BB8_21
	cmp	w0, #5
	str	xzr, [x21, x20]
	cset	w8, eq
	bic	w8, w8, w22
	tbz	w8, #0, .Lm_BB8_24
	mov	w0, #39
	b	.Lm_BB8_24
.Lm_BB8_21:
	ldrb	w8, [x19, #29]
	tst	w8, #0xffffffef
	b.eq	.Lm_BB8_23
	mov	w8, #1
	strb	w8, [x19, #28]
.Lm_BB8_23:
	str	xzr, [x21, x20]
.Lm_BB8_24:
	.cfi_def_cfa wsp, 48
	ldp	x20, x19, [sp, #32]
	ldp	x22, x21, [sp, #16]
	ldp	x29, x30, [sp], #48
	.cfi_def_cfa_offset 0
	.cfi_restore w19
	.cfi_restore w20
	.cfi_restore w21
	.cfi_restore w22
	.cfi_restore w30
	.cfi_restore w29
	ret
.Lm_func_end8:
	.size	tlsf_open_in, .Lm_func_end8-tlsf_open_in
	.cfi_endproc
	.globl	tlsf_open_near
	.p2align	2
	.type	tlsf_open_near,@function
tlsf_open_near:
	.cfi_startproc
	stp	x29, x30, [sp, #-48]!
	.cfi_def_cfa_offset 48
	stp	x22, x21, [sp, #16]
	stp	x20, x19, [sp, #32]
	mov	x29, sp
	.cfi_def_cfa w29, 48
	.cfi_offset w19, -8
	.cfi_offset w20, -16
	.cfi_offset w21, -24
	.cfi_offset w22, -32
	.cfi_offset w30, -40
	.cfi_offset w29, -48
	neg	w9, w0
	mov	w8, w1
	and	x9, x9, #0x3f
	add	x20, x0, x9
	add	x9, x20, #32
	adrp	x0, :tlsdesc:near_room
	ldr	x1, [x0, :tlsdesc_lo12:near_room]
	add	x0, x0, :tlsdesc_lo12:near_room
	.tlsdesccall near_room
	blr	x1
	mrs	x22, TPIDR_EL0
	mov	x19, x0
	str	x9, [x22, x0]
	adrp	x0, :tlsdesc:pieces_first
	ldr	x1, [x0, :tlsdesc_lo12:pieces_first]
	add	x0, x0, :tlsdesc_lo12:pieces_first
	.tlsdesccall pieces_first
	blr	x1
	mov	w9, #2
	str	w9, [x22, x0]
	ldrb	w9, [x20, #29]
	tst	w9, #0xff
	b.eq	.Lm_BB9_4
	sub	w10, w9, #65
	and	w10, w10, #0xff
	cmp	w10, #199
	b.lo	.Lm_BB9_3
	add	w10, w9, #127
	and	w10, w10, w9
	tst	w10, #0xff
	b.eq	.Lm_BB9_5
.Lm_BB9_3:
	mov	x9, xzr
	mov	w3, wzr
	b	.Lm_BB9_6
.Lm_BB9_4:
	mov	x9, xzr
	b	.Lm_BB9_6
.Lm_BB9_5:
	and	w9, w9, #0xff
	cmp	w9, #64
	mov	w9, #32
	csel	x9, x9, xzr, eq
.Lm_BB9_6:
	adrp	x0, :tlsdesc:front
	ldr	x1, [x0, :tlsdesc_lo12:front]
	add	x0, x0, :tlsdesc_lo12:front
	.tlsdesccall front
	blr	x1
	mov	x21, x0
	str	x9, [x22, x0]
	mov	x0, x20
	mov	w1, w8
	bl	tlsf_open
	cbnz	w0, .Lm_BB9_9
	ldrb	w8, [x20, #29]
	tst	w8, #0xffffffef
	b.eq	.Lm_BB9_9
	mov	w8, #1
	strb	w8, [x20, #28]
.Lm_BB9_9:
	str	xzr, [x22, x21]
	str	xzr, [x22, x19]
	.cfi_def_cfa wsp, 48
	ldp	x20, x19, [sp, #32]
	ldp	x22, x21, [sp, #16]
	ldp	x29, x30, [sp], #48
	.cfi_def_cfa_offset 0
	.cfi_restore w19
	.cfi_restore w20
	.cfi_restore w21
	.cfi_restore w22
	.cfi_restore w30
	.cfi_restore w29
	ret
.Lm_func_end9:
	.size	tlsf_open_near, .Lm_func_end9-tlsf_open_near
	.cfi_endproc
	.globl	tlsf_open_near_in
	.p2align	2
	.type	tlsf_open_near_in,@function
tlsf_open_near_in:
	.cfi_startproc
	stp	x29, x30, [sp, #-64]!
	.cfi_def_cfa_offset 64
	str	x23, [sp, #16]
	stp	x22, x21, [sp, #32]
	stp	x20, x19, [sp, #48]
	mov	x29, sp
	.cfi_def_cfa w29, 64
	.cfi_offset w19, -8
	.cfi_offset w20, -16
	.cfi_offset w21, -24
	.cfi_offset w22, -32
	.cfi_offset w23, -48
	.cfi_offset w30, -56
	.cfi_offset w29, -64
	neg	w9, w0
	mov	w8, w1
	and	x9, x9, #0x3f
	add	x20, x0, x9
	add	x9, x20, #32
	adrp	x0, :tlsdesc:near_room
	ldr	x1, [x0, :tlsdesc_lo12:near_room]
	add	x0, x0, :tlsdesc_lo12:near_room
	.tlsdesccall near_room
	blr	x1
	mrs	x22, TPIDR_EL0
	mov	x19, x0
	str	x9, [x22, x0]
	adrp	x0, :tlsdesc:pieces_first
	ldr	x1, [x0, :tlsdesc_lo12:pieces_first]
	add	x0, x0, :tlsdesc_lo12:pieces_first
	.tlsdesccall pieces_first
	blr	x1
	mov	w9, #2
	str	w9, [x22, x0]
	ldrb	w10, [x20, #29]
	cbz	w10, .Lm_BB10_4
	sub	w9, w10, #65
	cmn	w9, #57
	b.lo	.Lm_BB10_3
	add	w9, w10, #127
	cmp	x10, #16
	and	x11, x9, x10
	mov	w9, #16
	csel	x9, x10, x9, hi
	cbz	x11, .Lm_BB10_5
.Lm_BB10_3:
	mov	x11, xzr
	b	.Lm_BB10_6
.Lm_BB10_4:
	mov	w9, #16
.Lm_BB10_5:
	mov	x11, #-32
	sub	x11, x11, x3
	udiv	x12, x11, x9
	msub	x11, x12, x9, x11
.Lm_BB10_6:
	mov	w9, wzr
	mvn	x12, x3
	cbz	x3, .Lm_BB10_14
	cmp	x4, x12
	b.hi	.Lm_BB10_14
	subs	x13, x4, x11
	b.lo	.Lm_BB10_14
	cmp	w8, #5
	mov	w9, #16777216
	mov	w14, #1048576
	csel	x9, x9, xzr, eq
	cmp	w8, #4
	csel	x9, x14, x9, eq
	cmp	x13, #64
	b.hs	.Lm_BB10_11
	mov	w9, wzr
	b	.Lm_BB10_14
.Lm_BB10_11:
	mov	w14, #268435456
	mov	x15, #1009
	cmp	x13, x14
	movk	x15, #61503, lsl #16
	csel	x13, x13, x14, lo
	movk	x15, #16131, lsl #32
	lsl	w14, w13, #3
	movk	x15, #1008, lsl #48
	sub	w14, w14, #192
	umulh	x14, x14, x15
	lsl	x15, x14, #3
	add	x14, x14, #71
	add	x15, x15, #87
.Lm_BB10_12:
	lsr	x16, x14, #6
	and	x17, x15, #0xfffffffffffffff0
	sub	x14, x14, #1
	sub	x15, x15, #8
	add	x16, x17, x16, lsl #3
	add	x16, x16, #8
	cmp	x16, x13
	b.hi	.Lm_BB10_12
	sub	x13, x14, #62
	cmp	x13, x9
	csel	x9, x13, x9, lo
.Lm_BB10_14:
	cmp	x3, #0
	cset	w13, ne
	cmp	x4, x12
	cset	w12, ls
	cmp	x11, x4
	csel	x11, x11, x4, lo
	adrp	x0, :tlsdesc:lent
	ldr	x1, [x0, :tlsdesc_lo12:lent]
	add	x0, x0, :tlsdesc_lo12:lent
	.tlsdesccall lent
	blr	x1
	ands	w23, w13, w12
	add	x11, x3, x11
	adrp	x12, begin_behind.nothing
	add	x12, x12, :lo12:begin_behind.nothing
	add	x13, x3, x4
	mov	x21, x0
	csel	x11, x11, x12, ne
	str	x11, [x22, x0]
	csel	x11, x13, x12, ne
	adrp	x0, :tlsdesc:lent_end
	ldr	x1, [x0, :tlsdesc_lo12:lent_end]
	add	x0, x0, :tlsdesc_lo12:lent_end
	.tlsdesccall lent_end
	blr	x1
	str	x11, [x22, x0]
	adrp	x0, :tlsdesc:lent_step
	ldr	x1, [x0, :tlsdesc_lo12:lent_step]
	add	x0, x0, :tlsdesc_lo12:lent_step
	.tlsdesccall lent_step
	blr	x1
	mov	w11, #16
	str	x11, [x22, x0]
	cbz	w10, .Lm_BB10_18
	sub	w11, w10, #65
	cmn	w11, #57
	b.lo	.Lm_BB10_17
	add	w11, w10, #127
	tst	w11, w10
	b.eq	.Lm_BB10_18
.Lm_BB10_17:
	mov	w9, wzr
.Lm_BB10_18:
	mov	x0, x20
	mov	w1, w8
	mov	w3, w9
	bl	tlsf_open
	cbz	w0, .Lm_BB10_21
	cmp	w0, #5
	str	xzr, [x22, x21]
	cset	w8, eq
	bic	w8, w8, w23
	tbz	w8, #0, .Lm_BB10_24
	mov	w0, #39
	b	.Lm_BB10_24
.Lm_BB10_21:
	ldrb	w8, [x20, #29]
	tst	w8, #0xffffffef
	b.eq	.Lm_BB10_23
	mov	w8, #1
	strb	w8, [x20, #28]
.Lm_BB10_23:
	str	xzr, [x22, x21]
.Lm_BB10_24:
	str	xzr, [x22, x19]
	.cfi_def_cfa wsp, 64
	ldp	x20, x19, [sp, #48]
	ldr	x23, [sp, #16]
	ldp	x22, x21, [sp, #32]
	ldp	x29, x30, [sp], #64
	.cfi_def_cfa_offset 0
	.cfi_restore w19
	.cfi_restore w20
	.cfi_restore w21
	.cfi_restore w22
	.cfi_restore w23
	.cfi_restore w30
	.cfi_restore w29
	ret
.Lm_func_end10:
	.size	tlsf_open_near_in, .Lm_func_end10-tlsf_open_near_in
	.cfi_endproc
	.globl	tlsf_open_32
	.p2align	2
	.type	tlsf_open_32,@function
tlsf_open_32:
	.cfi_startproc
	stp	x29, x30, [sp, #-48]!
	.cfi_def_cfa_offset 48
	str	x21, [sp, #16]
	stp	x20, x19, [sp, #32]
	mov	x29, sp
	.cfi_def_cfa w29, 48
	.cfi_offset w19, -8
	.cfi_offset w20, -16
	.cfi_offset w21, -32
	.cfi_offset w30, -40
	.cfi_offset w29, -48
	ldrb	w9, [x0, #29]
	mov	x19, x0
	mov	w8, w1
	tst	w9, #0xff
	b.eq	.Lm_BB11_4
	sub	w10, w9, #65
	and	w10, w10, #0xff
	cmp	w10, #199
	b.lo	.Lm_BB11_3
	add	w10, w9, #127
	and	w10, w10, w9
	tst	w10, #0xff
	b.eq	.Lm_BB11_5
.Lm_BB11_3:
	mov	x9, xzr
	mov	w3, wzr
	b	.Lm_BB11_6
.Lm_BB11_4:
	mov	x9, xzr
	b	.Lm_BB11_6
.Lm_BB11_5:
	and	w9, w9, #0xff
	cmp	w9, #64
	mov	w9, #32
	csel	x9, x9, xzr, eq
.Lm_BB11_6:
	adrp	x0, :tlsdesc:front
	ldr	x1, [x0, :tlsdesc_lo12:front]
	add	x0, x0, :tlsdesc_lo12:front
	.tlsdesccall front
	blr	x1
	mrs	x21, TPIDR_EL0
	mov	x20, x0
	mov	w1, w8
	str	x9, [x21, x0]
	mov	x0, x19
	bl	tlsf_open
	cbnz	w0, .Lm_BB11_9
	ldrb	w8, [x19, #29]
	tst	w8, #0xffffffef
	b.eq	.Lm_BB11_9
	mov	w8, #1
	strb	w8, [x19, #28]
.Lm_BB11_9:
	str	xzr, [x21, x20]
	.cfi_def_cfa wsp, 48
	ldp	x20, x19, [sp, #32]
	ldr	x21, [sp, #16]
	ldp	x29, x30, [sp], #48
	.cfi_def_cfa_offset 0
	.cfi_restore w19
	.cfi_restore w20
	.cfi_restore w21
	.cfi_restore w30
	.cfi_restore w29
	ret
.Lm_func_end11:
	.size	tlsf_open_32, .Lm_func_end11-tlsf_open_32
	.cfi_endproc
	.globl	tlsf_open_in_32
	.p2align	2
	.type	tlsf_open_in_32,@function
tlsf_open_in_32:
	.cfi_startproc
	b	tlsf_open_in
.Lm_func_end12:
	.size	tlsf_open_in_32, .Lm_func_end12-tlsf_open_in_32
	.cfi_endproc
	.globl	tlsf_open_near_2880
	.p2align	2
	.type	tlsf_open_near_2880,@function
tlsf_open_near_2880:
	.cfi_startproc
	stp	x29, x30, [sp, #-48]!
	.cfi_def_cfa_offset 48
	stp	x22, x21, [sp, #16]
	stp	x20, x19, [sp, #32]
	mov	x29, sp
	.cfi_def_cfa w29, 48
	.cfi_offset w19, -8
	.cfi_offset w20, -16
	.cfi_offset w21, -24
	.cfi_offset w22, -32
	.cfi_offset w30, -40
	.cfi_offset w29, -48
	neg	w9, w0
	mov	w8, w1
	and	x9, x9, #0x3f
	add	x20, x0, x9
	add	x9, x20, #32
	adrp	x0, :tlsdesc:near_room
	ldr	x1, [x0, :tlsdesc_lo12:near_room]
	add	x0, x0, :tlsdesc_lo12:near_room
	.tlsdesccall near_room
	blr	x1
	mrs	x22, TPIDR_EL0
	mov	x19, x0
	str	x9, [x22, x0]
	adrp	x0, :tlsdesc:pieces_first
	ldr	x1, [x0, :tlsdesc_lo12:pieces_first]
	add	x0, x0, :tlsdesc_lo12:pieces_first
	.tlsdesccall pieces_first
	blr	x1
	mov	w9, #2
	str	w9, [x22, x0]
	ldrb	w9, [x20, #29]
	tst	w9, #0xff
	b.eq	.Lm_BB13_4
	sub	w10, w9, #65
	and	w10, w10, #0xff
	cmp	w10, #199
	b.lo	.Lm_BB13_3
	add	w10, w9, #127
	and	w10, w10, w9
	tst	w10, #0xff
	b.eq	.Lm_BB13_5
.Lm_BB13_3:
	mov	x9, xzr
	mov	w3, wzr
	b	.Lm_BB13_6
.Lm_BB13_4:
	mov	x9, xzr
	b	.Lm_BB13_6
.Lm_BB13_5:
	and	w9, w9, #0xff
	cmp	w9, #64
	mov	w9, #32
	csel	x9, x9, xzr, eq
.Lm_BB13_6:
	adrp	x0, :tlsdesc:front
	ldr	x1, [x0, :tlsdesc_lo12:front]
	add	x0, x0, :tlsdesc_lo12:front
	.tlsdesccall front
	blr	x1
	mov	x21, x0
	str	x9, [x22, x0]
	mov	x0, x20
	mov	w1, w8
	bl	tlsf_open
	cbnz	w0, .Lm_BB13_9
	ldrb	w8, [x20, #29]
	tst	w8, #0xffffffef
	b.eq	.Lm_BB13_9
	mov	w8, #1
	strb	w8, [x20, #28]
.Lm_BB13_9:
	str	xzr, [x22, x21]
	str	xzr, [x22, x19]
	.cfi_def_cfa wsp, 48
	ldp	x20, x19, [sp, #32]
	ldp	x22, x21, [sp, #16]
	ldp	x29, x30, [sp], #48
	.cfi_def_cfa_offset 0
	.cfi_restore w19
	.cfi_restore w20
	.cfi_restore w21
	.cfi_restore w22
	.cfi_restore w30
	.cfi_restore w29
	ret
.Lm_func_end13:
	.size	tlsf_open_near_2880, .Lm_func_end13-tlsf_open_near_2880
	.cfi_endproc
	.globl	tlsf_open_near_in_2880
	.p2align	2
	.type	tlsf_open_near_in_2880,@function
tlsf_open_near_in_2880:
	.cfi_startproc
	b	tlsf_open_near_in
.Lm_func_end14:
	.size	tlsf_open_near_in_2880, .Lm_func_end14-tlsf_open_near_in_2880
	.cfi_endproc
	.globl	tlsf_lane_bytes
	.p2align	2
	.type	tlsf_lane_bytes,@function
tlsf_lane_bytes:
	.cfi_startproc
	mov	w8, #24
	mov	w9, #135
	madd	w8, w0, w8, w9
	sub	w9, w0, #1025
	cmn	w9, #1024
	and	w8, w8, #0x1ff80
	add	w8, w8, #895
	csel	w0, wzr, w8, lo
	ret
.Lm_func_end15:
	.size	tlsf_lane_bytes, .Lm_func_end15-tlsf_lane_bytes
	.cfi_endproc
	.globl	tlsf_lane_open_in
	.p2align	2
	.type	tlsf_lane_open_in,@function
tlsf_lane_open_in:
	.cfi_startproc
	mov	x8, x1
	cmp	w2, #1025
	mov	x9, x0
	b.hs	.Lm_BB16_2
	mov	w10, #24
	mov	w11, #135
	madd	w12, w2, w10, w11
	neg	w10, w3
	mvn	x11, x3
	and	x10, x10, #0x7f
	subs	x13, x4, x10
	and	w12, w12, #0x1ff80
	ccmp	x4, x11, #2, hs
	add	w12, w12, #768
	ccmp	x3, #0, #4, ls
	ccmp	x13, x12, #0, ne
	csel	w2, wzr, w2, lo
	b	.Lm_BB16_3
.Lm_BB16_2:
	neg	w10, w3
	mvn	x11, x3
	and	x10, x10, #0x7f
.Lm_BB16_3:
	stp	x29, x30, [sp, #-48]!
	.cfi_def_cfa_offset 48
	str	x21, [sp, #16]
	stp	x20, x19, [sp, #32]
	mov	x29, sp
	.cfi_def_cfa w29, 48
	.cfi_offset w19, -8
	.cfi_offset w20, -16
	.cfi_offset w21, -32
	.cfi_offset w30, -40
	.cfi_offset w29, -48
	cmp	x3, #0
	adrp	x13, begin_behind.nothing
	add	x13, x13, :lo12:begin_behind.nothing
	cset	w12, ne
	cmp	x4, x11
	cset	w11, ls
	cmp	x10, x4
	csel	x10, x10, x4, lo
	add	x10, x3, x10
	adrp	x0, :tlsdesc:lent
	ldr	x1, [x0, :tlsdesc_lo12:lent]
	add	x0, x0, :tlsdesc_lo12:lent
	.tlsdesccall lent
	blr	x1
	ands	w20, w12, w11
	add	x11, x3, x4
	mov	x19, x0
	mrs	x21, TPIDR_EL0
	csel	x10, x10, x13, ne
	str	x10, [x21, x0]
	csel	x10, x11, x13, ne
	adrp	x0, :tlsdesc:lent_end
	ldr	x1, [x0, :tlsdesc_lo12:lent_end]
	add	x0, x0, :tlsdesc_lo12:lent_end
	.tlsdesccall lent_end
	blr	x1
	str	x10, [x21, x0]
	adrp	x0, :tlsdesc:lent_step
	ldr	x1, [x0, :tlsdesc_lo12:lent_step]
	add	x0, x0, :tlsdesc_lo12:lent_step
	.tlsdesccall lent_step
	blr	x1
	mov	w10, #128
	str	x10, [x21, x0]
	mov	x0, x9
	mov	x1, x8
	bl	tlsf_lane_open
	cmp	w0, #5
	mov	w8, #39
	cset	w9, ne
	orr	w9, w20, w9
	cmp	w9, #0
	csel	w0, w0, w8, ne
	str	xzr, [x21, x19]
	.cfi_def_cfa wsp, 48
	ldp	x20, x19, [sp, #32]
	ldr	x21, [sp, #16]
	ldp	x29, x30, [sp], #48
	.cfi_def_cfa_offset 0
	.cfi_restore w19
	.cfi_restore w20
	.cfi_restore w21
	.cfi_restore w30
	.cfi_restore w29
	ret
.Lm_func_end16:
	.size	tlsf_lane_open_in, .Lm_func_end16-tlsf_lane_open_in
	.cfi_endproc
	.globl	tlsf_queue_bytes
	.p2align	2
	.type	tlsf_queue_bytes,@function
tlsf_queue_bytes:
	.cfi_startproc
	mov	w8, #1024
	sub	w9, w8, w0
	sub	w8, w8, w1
	orr	w8, w8, w9
	cmp	w8, #1023
	b.hi	.Lm_BB17_2
	ubfiz	x8, x0, #4, #32
	ubfiz	x9, x1, #3, #32
	ubfiz	x10, x1, #5, #32
	ubfiz	x11, x0, #3, #32
	mov	w12, w0
	add	x8, x8, #135
	add	x9, x9, #519
	add	x10, x10, #135
	and	x8, x8, #0xfffffff80
	add	x11, x11, #135
	and	x9, x9, #0x7ffffff80
	add	x8, x8, x12, lsl #7
	and	x10, x10, #0x1fffffff80
	and	x11, x11, #0x7ffffff80
	add	x9, x9, x10
	add	x8, x8, x11
	add	x8, x8, x9, lsl #1
	add	x0, x8, #383
	ret
.Lm_BB17_2:
	mov	x0, xzr
	ret
.Lm_func_end17:
	.size	tlsf_queue_bytes, .Lm_func_end17-tlsf_queue_bytes
	.cfi_endproc
	.globl	tlsf_queue_open_in
	.p2align	2
	.type	tlsf_queue_open_in,@function
tlsf_queue_open_in:
	.cfi_startproc
	mov	w8, w1
	cmp	w1, #1024
	mov	x9, x0
	b.hi	.Lm_BB18_3
	cmp	w2, #1025
	b.hs	.Lm_BB18_3
	lsl	w10, w8, #4
	lsl	w11, w2, #3
	lsl	w12, w2, #5
	lsl	w13, w8, #3
	mov	w14, w8
	add	w10, w10, #135
	add	w11, w11, #519
	add	w12, w12, #135
	and	x10, x10, #0xff80
	add	w13, w13, #135
	and	x11, x11, #0x7f80
	add	x10, x10, x14, lsl #7
	and	x12, x12, #0x1ff80
	and	x13, x13, #0x7f80
	neg	w14, w3
	add	x11, x11, x12
	add	x12, x10, x13
	and	x10, x14, #0x7f
	add	x12, x12, x11, lsl #1
	mvn	x11, x3
	subs	x13, x4, x10
	ccmp	x4, x11, #2, hs
	add	x12, x12, #256
	ccmp	x3, #0, #4, ls
	ccmp	x13, x12, #0, ne
	csel	w2, wzr, w2, lo
	b	.Lm_BB18_4
.Lm_BB18_3:
	neg	w10, w3
	mvn	x11, x3
	and	x10, x10, #0x7f
.Lm_BB18_4:
	stp	x29, x30, [sp, #-48]!
	.cfi_def_cfa_offset 48
	str	x21, [sp, #16]
	stp	x20, x19, [sp, #32]
	mov	x29, sp
	.cfi_def_cfa w29, 48
	.cfi_offset w19, -8
	.cfi_offset w20, -16
	.cfi_offset w21, -32
	.cfi_offset w30, -40
	.cfi_offset w29, -48
	cmp	x3, #0
	adrp	x13, begin_behind.nothing
	add	x13, x13, :lo12:begin_behind.nothing
	cset	w12, ne
	cmp	x4, x11
	cset	w11, ls
	cmp	x10, x4
	csel	x10, x10, x4, lo
	add	x10, x3, x10
	adrp	x0, :tlsdesc:lent
	ldr	x1, [x0, :tlsdesc_lo12:lent]
	add	x0, x0, :tlsdesc_lo12:lent
	.tlsdesccall lent
	blr	x1
	ands	w20, w12, w11
	add	x11, x3, x4
	mov	x19, x0
	mrs	x21, TPIDR_EL0
	csel	x10, x10, x13, ne
	str	x10, [x21, x0]
	csel	x10, x11, x13, ne
	adrp	x0, :tlsdesc:lent_end
	ldr	x1, [x0, :tlsdesc_lo12:lent_end]
	add	x0, x0, :tlsdesc_lo12:lent_end
	.tlsdesccall lent_end
	blr	x1
	str	x10, [x21, x0]
	adrp	x0, :tlsdesc:lent_step
	ldr	x1, [x0, :tlsdesc_lo12:lent_step]
	add	x0, x0, :tlsdesc_lo12:lent_step
	.tlsdesccall lent_step
	blr	x1
	mov	w10, #128
	str	x10, [x21, x0]
	mov	x0, x9
	mov	w1, w8
	bl	tlsf_queue_open
	cmp	w0, #5
	mov	w8, #39
	cset	w9, ne
	orr	w9, w20, w9
	cmp	w9, #0
	csel	w0, w0, w8, ne
	str	xzr, [x21, x19]
	.cfi_def_cfa wsp, 48
	ldp	x20, x19, [sp, #32]
	ldr	x21, [sp, #16]
	ldp	x29, x30, [sp], #48
	.cfi_def_cfa_offset 0
	.cfi_restore w19
	.cfi_restore w20
	.cfi_restore w21
	.cfi_restore w30
	.cfi_restore w29
	ret
.Lm_func_end18:
	.size	tlsf_queue_open_in, .Lm_func_end18-tlsf_queue_open_in
	.cfi_endproc
	.globl	tlsf_offsets_bytes
	.p2align	2
	.type	tlsf_offsets_bytes,@function
tlsf_offsets_bytes:
	.cfi_startproc
	cmp	w1, #4
	b.hs	.Lm_BB19_2
	mov	x0, xzr
	ret
.Lm_BB19_2:
	cmp	w0, #5
	mov	w8, #16777216
	mov	w10, #1048576
	csel	x9, x8, xzr, eq
	cmp	w0, #4
	mov	w8, w1
	csel	x9, x10, x9, eq
	cmp	x9, x8
	b.hs	.Lm_BB19_4
	mov	x0, xzr
	ret
.Lm_BB19_4:
	add	w9, w8, #63
	lsl	w8, w8, #3
	lsr	w9, w9, #3
	add	w8, w8, #23
	add	w9, w9, #16
	and	x8, x8, #0x1ffffff0
	and	x9, x9, #0xfffff0
	add	x8, x8, x9
	add	x0, x8, #2783
	ret
.Lm_func_end19:
	.size	tlsf_offsets_bytes, .Lm_func_end19-tlsf_offsets_bytes
	.cfi_endproc
	.globl	tlsf_offsets_open_in
	.p2align	2
	.type	tlsf_offsets_open_in,@function
tlsf_offsets_open_in:
	.cfi_startproc
	cmp	w1, #5
	mov	w9, #16777216
	mov	w11, #1048576
	csel	x9, x9, xzr, eq
	cmp	w1, #4
	mov	w10, w4
	csel	x9, x11, x9, eq
	mov	w8, w1
	cmp	x9, x10
	mov	x9, x0
	b.hs	.Lm_BB20_2
	neg	w10, w5
	mvn	x11, x5
	and	x10, x10, #0xf
	b	.Lm_BB20_3
.Lm_BB20_2:
	lsl	w11, w10, #3
	add	w10, w10, #63
	neg	w12, w5
	lsr	w10, w10, #3
	add	w11, w11, #23
	and	x13, x11, #0x1ffffff0
	add	w11, w10, #16
	and	x10, x12, #0xf
	and	x12, x11, #0xfffff0
	mvn	x11, x5
	subs	x14, x6, x10
	add	x12, x13, x12
	ccmp	x6, x11, #2, hs
	add	x12, x12, #2768
	ccmp	x5, #0, #4, ls
	ccmp	x14, x12, #0, ne
	csel	w4, wzr, w4, lo
.Lm_BB20_3:
	stp	x29, x30, [sp, #-48]!
	.cfi_def_cfa_offset 48
	str	x21, [sp, #16]
	stp	x20, x19, [sp, #32]
	mov	x29, sp
	.cfi_def_cfa w29, 48
	.cfi_offset w19, -8
	.cfi_offset w20, -16
	.cfi_offset w21, -32
	.cfi_offset w30, -40
	.cfi_offset w29, -48
	cmp	x5, #0
	adrp	x13, begin_behind.nothing
	add	x13, x13, :lo12:begin_behind.nothing
	cset	w12, ne
	cmp	x6, x11
	cset	w11, ls
	cmp	x10, x6
	csel	x10, x10, x6, lo
	add	x10, x5, x10
	adrp	x0, :tlsdesc:lent
	ldr	x1, [x0, :tlsdesc_lo12:lent]
	add	x0, x0, :tlsdesc_lo12:lent
	.tlsdesccall lent
	blr	x1
	ands	w20, w12, w11
	add	x11, x5, x6
	mov	x19, x0
	mrs	x21, TPIDR_EL0
	csel	x10, x10, x13, ne
	str	x10, [x21, x0]
	csel	x10, x11, x13, ne
	adrp	x0, :tlsdesc:lent_end
	ldr	x1, [x0, :tlsdesc_lo12:lent_end]
	add	x0, x0, :tlsdesc_lo12:lent_end
	.tlsdesccall lent_end
	blr	x1
	str	x10, [x21, x0]
	adrp	x0, :tlsdesc:lent_step
	ldr	x1, [x0, :tlsdesc_lo12:lent_step]
	add	x0, x0, :tlsdesc_lo12:lent_step
	.tlsdesccall lent_step
	blr	x1
	mov	w10, #16
	str	x10, [x21, x0]
	mov	x0, x9
	mov	w1, w8
	bl	tlsf_offsets_open
	cmp	w0, #5
	mov	w8, #39
	cset	w9, ne
	orr	w9, w20, w9
	cmp	w9, #0
	csel	w0, w0, w8, ne
	str	xzr, [x21, x19]
	.cfi_def_cfa wsp, 48
	ldp	x20, x19, [sp, #32]
	ldr	x21, [sp, #16]
	ldp	x29, x30, [sp], #48
	.cfi_def_cfa_offset 0
	.cfi_restore w19
	.cfi_restore w20
	.cfi_restore w21
	.cfi_restore w30
	.cfi_restore w29
	ret
.Lm_func_end20:
	.size	tlsf_offsets_open_in, .Lm_func_end20-tlsf_offsets_open_in
	.cfi_endproc
	.globl	tlsf_pools_bytes
	.p2align	2
	.type	tlsf_pools_bytes,@function
tlsf_pools_bytes:
	.cfi_startproc
	sub	sp, sp, #48
	.cfi_def_cfa_offset 48
	stp	x29, x30, [sp, #16]
	str	x19, [sp, #32]
	add	x29, sp, #16
	.cfi_def_cfa w29, 32
	.cfi_offset w19, -16
	.cfi_offset w30, -24
	.cfi_offset w29, -32
	add	x3, x29, #24
	sub	x4, x29, #4
	mov	x19, x2
	str	xzr, [x29, #24]
	stur	wzr, [x29, #-4]
	bl	tlsf_pools_words
	mov	w8, w0
	mov	x0, xzr
	cbnz	w8, .Lm_BB21_2
	mov	w8, #12
	ldr	x9, [x29, #24]
	ldur	w10, [x29, #-4]
	mul	x8, x19, x8
	mov	w11, #2792
	lsr	x12, x9, #6
	umull	x11, w10, w11
	add	x8, x8, x9, lsl #3
	mov	w9, #80
	add	x8, x8, x12, lsl #3
	umaddl	x8, w10, w9, x8
	add	x9, x11, #23
	and	x9, x9, #0x1ffffffffff0
	add	x8, x8, x9
	add	x0, x8, #2783
.Lm_BB21_2:
	.cfi_def_cfa wsp, 48
	ldp	x29, x30, [sp, #16]
	ldr	x19, [sp, #32]
	add	sp, sp, #48
	.cfi_def_cfa_offset 0
	.cfi_restore w19
	.cfi_restore w30
	.cfi_restore w29
	ret
.Lm_func_end21:
	.size	tlsf_pools_bytes, .Lm_func_end21-tlsf_pools_bytes
	.cfi_endproc
	.globl	tlsf_pools_open_in
	.p2align	2
	.type	tlsf_pools_open_in,@function
tlsf_pools_open_in:
	.cfi_startproc
	stp	x29, x30, [sp, #-48]!
	.cfi_def_cfa_offset 48
	str	x21, [sp, #16]
	stp	x20, x19, [sp, #32]
	mov	x29, sp
	.cfi_def_cfa w29, 48
	.cfi_offset w19, -8
	.cfi_offset w20, -16
	.cfi_offset w21, -32
	.cfi_offset w30, -40
	.cfi_offset w29, -48
	neg	w10, w5
	cmp	x5, #0
	mvn	x11, x5
	and	x10, x10, #0xf
	cset	w12, ne
	cmp	x6, x11
	cset	w11, ls
	cmp	x10, x6
	mov	w8, w1
	csel	x10, x10, x6, lo
	mov	x9, x0
	adrp	x13, begin_behind.nothing
	add	x13, x13, :lo12:begin_behind.nothing
	add	x10, x5, x10
	adrp	x0, :tlsdesc:lent
	ldr	x1, [x0, :tlsdesc_lo12:lent]
	add	x0, x0, :tlsdesc_lo12:lent
	.tlsdesccall lent
	blr	x1
	ands	w20, w12, w11
	add	x11, x5, x6
	mov	x19, x0
	mrs	x21, TPIDR_EL0
	csel	x10, x10, x13, ne
	str	x10, [x21, x0]
	csel	x10, x11, x13, ne
	adrp	x0, :tlsdesc:lent_end
	ldr	x1, [x0, :tlsdesc_lo12:lent_end]
	add	x0, x0, :tlsdesc_lo12:lent_end
	.tlsdesccall lent_end
	blr	x1
	str	x10, [x21, x0]
	adrp	x0, :tlsdesc:lent_step
	ldr	x1, [x0, :tlsdesc_lo12:lent_step]
	add	x0, x0, :tlsdesc_lo12:lent_step
	.tlsdesccall lent_step
	blr	x1
	mov	w10, #16
	str	x10, [x21, x0]
	mov	x0, x9
	mov	w1, w8
	bl	tlsf_pools_open
	mov	w8, #5
	cmp	w0, #6
	csel	w8, w8, w0, eq
	cmp	w8, #5
	cset	w9, ne
	orr	w9, w20, w9
	cmp	w9, #0
	mov	w9, #39
	csel	w0, w8, w9, ne
	str	xzr, [x21, x19]
	.cfi_def_cfa wsp, 48
	ldp	x20, x19, [sp, #32]
	ldr	x21, [sp, #16]
	ldp	x29, x30, [sp], #48
	.cfi_def_cfa_offset 0
	.cfi_restore w19
	.cfi_restore w20
	.cfi_restore w21
	.cfi_restore w30
	.cfi_restore w29
	ret
.Lm_func_end22:
	.size	tlsf_pools_open_in, .Lm_func_end22-tlsf_pools_open_in
	.cfi_endproc
	.globl	tlsf_next_number
	.p2align	2
	.type	tlsf_next_number,@function
tlsf_next_number:
	.cfi_startproc
	adrp	x8, tlsf_next_number.calls
	add	x8, x8, :lo12:tlsf_next_number.calls
.Lm_BB23_1:
	ldxr	x9, [x8]
	add	x10, x9, #1
	stxr	w11, x10, [x8]
	cbnz	w11, .Lm_BB23_1
	lsl	x9, x9, #3
	cmp	x9, w9, sxtw
	b.ne	.Lm_BB23_4
	mov	w10, #-2147483648
	add	x9, x9, x10
	str	w9, [x0]
	mov	w0, wzr
	ret
.Lm_BB23_4:
	mov	w0, #2
	ret
.Lm_func_end23:
	.size	tlsf_next_number, .Lm_func_end23-tlsf_next_number
	.cfi_endproc
	.type	tlsf_memory_alloc.nothing,@object
	.local	tlsf_memory_alloc.nothing
	.comm	tlsf_memory_alloc.nothing,8,8
	.type	near_room,@object
	.section	.tbss,"awT",@nobits
	.p2align	3, 0x0
near_room:
	.xword	0
	.size	near_room, 8
	.type	pieces_first,@object
	.p2align	2, 0x0
pieces_first:
	.word	0
	.size	pieces_first, 4
	.type	lent,@object
	.p2align	3, 0x0
lent:
	.xword	0
	.size	lent, 8
	.type	tlsf_next_number.calls,@object
	.local	tlsf_next_number.calls
	.comm	tlsf_next_number.calls,8,8
	.type	lent_step,@object
	.p2align	3, 0x0
lent_step:
	.xword	0
	.size	lent_step, 8
	.type	lent_end,@object
	.p2align	3, 0x0
lent_end:
	.xword	0
	.size	lent_end, 8
	.type	front,@object
	.p2align	3, 0x0
front:
	.xword	0
	.size	front, 8
	.type	begin_behind.nothing,@object
	.local	begin_behind.nothing
	.comm	begin_behind.nothing,1,1
	.ident	"clang version 22.1.8"
	.section	".note.GNU-stack","",@progbits
#endif
