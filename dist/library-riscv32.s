#ifndef TLSF_ONLY_MEMORY
/* The calls in Rattle. */
	.section	.text.unlikely.tlsf_c.call_fault.CallFault.refusal,"ax",@progbits
	.p2align	1
	.type	tlsf_c.call_fault.CallFault.refusal,@function
tlsf_c.call_fault.CallFault.refusal:
	.cfi_sections .debug_frame
	.cfi_startproc
	slli	a0, a0, 2
	ori	a0, a0, 32
	andi	a0, a0, 252
	ret
.Lfunc_end0:
	.size	tlsf_c.call_fault.CallFault.refusal, .Lfunc_end0-tlsf_c.call_fault.CallFault.refusal
	.cfi_endproc
	.section	.text.tlsf_heap.heap.Heap.resize_live.4,"ax",@progbits
	.p2align	1
	.type	tlsf_heap.heap.Heap.resize_live.4,@function
tlsf_heap.heap.Heap.resize_live.4:
	.cfi_startproc
	addi	sp, sp, -32
	.cfi_def_cfa_offset 32
	sw	ra, 28(sp)
	sw	s0, 24(sp)
	sw	s1, 20(sp)
	sw	s2, 16(sp)
	sw	s3, 12(sp)
	.cfi_offset ra, -4
	.cfi_offset s0, -8
	.cfi_offset s1, -12
	.cfi_offset s2, -16
	.cfi_offset s3, -20
	lbu	a3, 4(a1)
	lbu	a4, 5(a1)
	lbu	s1, 6(a1)
	lbu	a1, 7(a1)
	lw	a5, 24(a0)
	slli	a4, a4, 8
	slli	s1, s1, 16
	slli	a1, a1, 24
	or	a3, a3, a4
	or	a1, a1, s1
	or	a1, a1, a3
	slli	s0, a1, 3
	add	a4, a5, s0
	lw	t1, 0(a4)
	lw	a3, 4(a4)
	srli	s3, t1, 2
	addi	t0, a0, 24
	bgeu	s3, a2, .LBB1_5
	andi	a4, t1, 2
	bnez	a4, .LBB1_3
	add	a4, s3, a1
	slli	a4, a4, 3
	add	a5, a5, a4
	lw	a4, 0(a5)
	andi	s1, a4, 1
	bnez	s1, .LBB1_9
.LBB1_3:
	li	a4, 0
	li	a5, 0
	bgeu	s3, a2, .LBB1_10
.LBB1_4:
	li	a0, 1
	li	a1, 5
	j	.LBB1_15
.LBB1_5:
	lw	a5, 8(a0)
	lw	a6, 12(a0)
	and	s0, a5, a6
	li	s1, -1
	beq	s0, s1, .LBB1_14
	addi	s1, a2, 4
	sw	zero, 16(a4)
	sw	zero, 20(a4)
	mv	s0, s3
	bltu	s3, s1, .LBB1_8
	mv	s2, a0
	mv	a0, t0
	mv	s0, a2
	mv	a2, t1
	mv	a4, s0
	call	tlsf_heap.refitting.split_off.4
	mv	a0, s2
.LBB1_8:
	li	a1, 0
	lw	a3, 16(a0)
	lw	a5, 8(a0)
	lw	s1, 12(a0)
	sub	a4, s0, s3
	add	a3, a3, a4
	addi	a5, a5, 1
	seqz	a4, a5
	add	a4, a4, s1
	sw	a5, 8(a0)
	sw	a4, 12(a0)
	sw	a3, 16(a0)
	li	a0, 0
	j	.LBB1_15
.LBB1_9:
	lw	a5, 4(a5)
	srli	s1, a4, 2
	add	s1, s1, s3
	bltu	s1, a2, .LBB1_4
.LBB1_10:
	lw	a7, 8(a0)
	lw	t3, 12(a0)
	and	a6, a7, t3
	li	s1, -1
	beq	a6, s1, .LBB1_14
	mv	s2, a0
	mv	a0, t0
	mv	a6, a2
	mv	a2, t1
	call	tlsf_heap.refitting.recut.4
	mv	a2, s2
	lw	a1, 24(s2)
	add	a1, a1, s0
	sw	zero, 16(a1)
	sw	zero, 20(a1)
	lw	a1, 16(s2)
	lw	a3, 20(s2)
	sub	a1, a1, s3
	add	a0, a0, a1
	sw	a0, 16(s2)
	bgeu	a3, a0, .LBB1_13
	sw	a0, 20(a2)
.LBB1_13:
	li	a1, 0
	li	a0, 0
	lw	a3, 8(a2)
	lw	a4, 12(a2)
	addi	a3, a3, 1
	seqz	a5, a3
	add	a4, a4, a5
	sw	a3, 8(a2)
	sw	a4, 12(a2)
	j	.LBB1_15
.LBB1_14:
	li	a1, 1
	li	a0, 1
.LBB1_15:
	lw	ra, 28(sp)
	lw	s0, 24(sp)
	lw	s1, 20(sp)
	lw	s2, 16(sp)
	lw	s3, 12(sp)
	.cfi_restore ra
	.cfi_restore s0
	.cfi_restore s1
	.cfi_restore s2
	.cfi_restore s3
	addi	sp, sp, 32
	.cfi_def_cfa_offset 0
	ret
.Lfunc_end1:
	.size	tlsf_heap.heap.Heap.resize_live.4, .Lfunc_end1-tlsf_heap.heap.Heap.resize_live.4
	.cfi_endproc
	.section	.text.tlsf_heap.refitting.split_off.4,"ax",@progbits
	.p2align	1
	.type	tlsf_heap.refitting.split_off.4,@function
tlsf_heap.refitting.split_off.4:
	.cfi_startproc
	mv	t3, a6
	mv	a7, a5
	mv	a6, a4
	lw	t1, 0(a0)
	andi	a4, a2, 2
	srli	t0, a2, 2
	bnez	a4, .LBB2_2
	add	a4, t0, a1
	slli	a4, a4, 3
	add	t2, t1, a4
	lw	a4, 0(t2)
	andi	a5, a4, 1
	bnez	a5, .LBB2_7
.LBB2_2:
	addi	sp, sp, -16
	.cfi_def_cfa_offset 16
	sw	s0, 12(sp)
	sw	s1, 8(sp)
	sw	s2, 4(sp)
	.cfi_offset s0, -4
	.cfi_offset s1, -8
	.cfi_offset s2, -12
	.cfi_remember_state
	ori	a2, a2, 1
	add	t2, a6, a1
	slli	t6, a6, 2
	slli	t5, a1, 3
	li	t4, 1
	sub	a4, a2, t6
	add	t5, t5, t1
	slli	t1, t2, 3
	srli	a5, t2, 3
	andi	s0, t2, 63
	sltu	a2, a2, a4
	sub	a3, a3, a2
	sll	s2, t4, t2
	sw	t6, 0(t5)
	sw	a3, 4(t5)
	lw	a3, 0(a0)
	andi	a5, a5, -8
	addi	a2, s0, -32
	sll	t4, t4, s0
	add	a3, a3, t1
	sw	a4, 0(a3)
	sw	a1, 4(a3)
	sw	a7, 8(a3)
	sw	t3, 12(a3)
	lw	a3, 24(a0)
	andi	a4, a4, 2
	srli	a2, a2, 31
	neg	s1, a2
	add	a3, a3, a5
	lw	a5, 0(a3)
	lw	s0, 4(a3)
	addi	a2, a2, -1
	and	s1, s1, s2
	and	a2, a2, t4
	or	a2, a2, s0
	or	a5, a5, s1
	sw	a5, 0(a3)
	sw	a2, 4(a3)
	bnez	a4, .LBB2_4
	lw	a2, 0(a0)
	add	a1, a1, t0
	slli	a1, a1, 3
	add	a1, a1, a2
	sw	t2, 4(a1)
.LBB2_4:
	sub	a1, t0, a6
	lui	a2, 349525
	ori	a3, a1, 16
	addi	a2, a2, 1365
	srli	a4, a3, 1
	or	a3, a3, a4
	srli	a4, a3, 2
	or	a3, a3, a4
	srli	a4, a3, 4
	or	a3, a3, a4
	srli	a4, a3, 8
	or	a3, a3, a4
	srli	a4, a3, 16
	or	a3, a3, a4
	not	a3, a3
	srli	a4, a3, 1
	and	a2, a2, a4
	lui	a4, 209715
	addi	a4, a4, 819
	sub	a3, a3, a2
	and	a2, a3, a4
	srli	a3, a3, 2
	and	a3, a3, a4
	lui	a4, 61681
	add	a2, a2, a3
	srli	a3, a2, 4
	add	a2, a2, a3
	lui	a3, 4112
	addi	a4, a4, -241
	and	a2, a2, a4
	li	a4, 27
	addi	a3, a3, 257
	mul	a2, a2, a3
	srli	a2, a2, 24
	sub	a4, a4, a2
	srl	a1, a1, a4
	slli	a3, a4, 4
	add	a3, a3, a1
	slli	a2, a3, 2
	add	a2, a2, a0
	lw	a4, 144(a2)
	sw	t2, 144(a2)
	lw	a5, 0(a0)
	bltz	a4, .LBB2_6
	add	t1, t1, a5
	li	a0, -1
	slli	a1, a4, 3
	sw	a4, 16(t1)
	sw	a0, 20(t1)
	add	a1, a1, a5
	sw	t2, 20(a1)
	lw	s0, 12(sp)
	lw	s1, 8(sp)
	lw	s2, 4(sp)
	.cfi_restore s0
	.cfi_restore s1
	.cfi_restore s2
	addi	sp, sp, 16
	.cfi_def_cfa_offset 0
	ret
.LBB2_6:
	.cfi_restore_state
	add	a5, a5, t1
	li	a2, -1
	srli	a3, a3, 4
	li	a4, 1
	andi	a1, a1, 15
	sw	a2, 16(a5)
	sw	a2, 20(a5)
	slli	a2, a3, 2
	add	a2, a2, a0
	lw	a5, 56(a0)
	lw	s1, 60(a2)
	sll	a3, a4, a3
	sll	a1, a4, a1
	or	a3, a3, a5
	or	a1, a1, s1
	sw	a3, 56(a0)
	sw	a1, 60(a2)
	lw	s0, 12(sp)
	lw	s1, 8(sp)
	lw	s2, 4(sp)
	.cfi_restore s0
	.cfi_restore s1
	.cfi_restore s2
	addi	sp, sp, 16
	.cfi_def_cfa_offset 0
	ret
.LBB2_7:
	lw	a5, 4(t2)
	tail	tlsf_heap.refitting.recut.4
.Lfunc_end2:
	.size	tlsf_heap.refitting.split_off.4, .Lfunc_end2-tlsf_heap.refitting.split_off.4
	.cfi_endproc
	.section	.text.tlsf_heap.refitting.recut.4,"ax",@progbits
	.p2align	1
	.type	tlsf_heap.refitting.recut.4,@function
tlsf_heap.refitting.recut.4:
	.cfi_startproc
	addi	sp, sp, -48
	.cfi_def_cfa_offset 48
	sw	ra, 44(sp)
	sw	s0, 40(sp)
	sw	s1, 36(sp)
	sw	s2, 32(sp)
	sw	s3, 28(sp)
	sw	s4, 24(sp)
	sw	s5, 20(sp)
	sw	s6, 16(sp)
	sw	s7, 12(sp)
	sw	s8, 8(sp)
	sw	s9, 4(sp)
	.cfi_offset ra, -4
	.cfi_offset s0, -8
	.cfi_offset s1, -12
	.cfi_offset s2, -16
	.cfi_offset s3, -20
	.cfi_offset s4, -24
	.cfi_offset s5, -28
	.cfi_offset s6, -32
	.cfi_offset s7, -36
	.cfi_offset s8, -40
	.cfi_offset s9, -44
	mv	s3, t3
	mv	s4, a7
	mv	s2, a6
	mv	s0, a4
	mv	s7, a3
	mv	s1, a2
	mv	s6, a1
	mv	s5, a0
	lui	s9, 131072
	srli	s8, a4, 2
	srli	a2, a2, 2
	addi	s9, s9, -8
	add	a2, a2, a1
	mv	a1, s8
	call	tlsf_heap.region.Region.remove.4
	add	s1, s1, s0
	addi	a1, s2, 4
	sltu	a2, s1, s0
	srli	a0, s1, 2
	add	s7, s7, a2
	add	a7, a0, s6
	bgeu	a0, a1, .LBB3_4
	sub	a1, a7, s8
	lw	t0, 24(s5)
	lui	a6, 524288
	andi	t1, s1, 2
	srli	s0, a1, 3
	slli	a4, a1, 26
	not	a2, a1
	addi	a6, a6, -1
	and	s0, s0, s9
	srli	a4, a4, 31
	srl	a2, a6, a2
	addi	a3, a4, -2
	addi	a4, a4, -1
	add	t0, t0, s0
	sll	a3, a3, a1
	ori	a4, a4, -2
	lw	s0, 0(t0)
	lw	a5, 4(t0)
	or	a3, a3, a2
	sll	a1, a4, a1
	or	a1, a1, a2
	and	a1, a1, a5
	and	a3, a3, s0
	sw	a3, 0(t0)
	sw	a1, 4(t0)
	bnez	t1, .LBB3_3
	lw	a1, 0(s5)
	slli	a7, a7, 3
	add	a1, a1, a7
	sw	s6, 4(a1)
.LBB3_3:
	seqz	a1, s1
	lw	a2, 0(s5)
	addi	s1, s1, -1
	slli	s6, s6, 3
	sub	a1, s7, a1
	add	a2, a2, s6
	sw	s1, 0(a2)
	sw	a1, 4(a2)
	j	.LBB3_10
.LBB3_4:
	add	t2, s2, s6
	slli	a2, s2, 2
	lw	t1, 0(s5)
	slli	t3, s6, 3
	sub	s0, a7, s8
	lui	a6, 524288
	li	t0, 1
	sub	a2, s1, a2
	srli	a3, s0, 3
	not	a4, s0
	addi	a6, a6, -1
	srl	a4, a6, a4
	srli	a1, t2, 3
	and	t5, a3, s9
	and	t4, a1, s9
	sltu	a5, s1, a2
	sub	a5, s7, a5
	slli	a6, t2, 3
	add	t1, t1, t3
	slli	a1, s0, 26
	sub	s1, s1, a2
	srli	a1, a1, 31
	sw	s1, 0(t1)
	sw	a5, 4(t1)
	addi	a5, a1, -2
	addi	a1, a1, -1
	sll	a5, a5, s0
	lw	s1, 0(s5)
	ori	a1, a1, -2
	sll	a1, a1, s0
	andi	s0, t2, 63
	add	s1, s1, a6
	sw	a2, 0(s1)
	sw	s6, 4(s1)
	sw	s4, 8(s1)
	sw	s3, 12(s1)
	lw	s1, 24(s5)
	sll	t1, t0, t2
	or	a5, a5, a4
	or	a1, a1, a4
	add	t5, t5, s1
	lw	a4, 0(t5)
	lw	s1, 4(t5)
	sll	a3, t0, s0
	addi	s0, s0, -32
	andi	a2, a2, 2
	and	a1, a1, s1
	and	a4, a4, a5
	sw	a4, 0(t5)
	sw	a1, 4(t5)
	lw	a1, 24(s5)
	srli	s0, s0, 31
	addi	a4, s0, -1
	neg	a5, s0
	add	a1, a1, t4
	lw	s1, 0(a1)
	lw	s0, 4(a1)
	and	a3, a3, a4
	and	a4, a5, t1
	or	a4, a4, s1
	or	a3, a3, s0
	sw	a4, 0(a1)
	sw	a3, 4(a1)
	bnez	a2, .LBB3_6
	lw	a1, 0(s5)
	slli	a7, a7, 3
	add	a1, a1, a7
	sw	t2, 4(a1)
.LBB3_6:
	sub	a0, a0, s2
	lui	a1, 349525
	ori	a2, a0, 16
	addi	a1, a1, 1365
	srli	a3, a2, 1
	or	a2, a2, a3
	srli	a3, a2, 2
	or	a2, a2, a3
	srli	a3, a2, 4
	or	a2, a2, a3
	srli	a3, a2, 8
	or	a2, a2, a3
	srli	a3, a2, 16
	or	a2, a2, a3
	not	a2, a2
	srli	a3, a2, 1
	and	a1, a1, a3
	lui	a3, 209715
	addi	a3, a3, 819
	sub	a2, a2, a1
	and	a1, a2, a3
	srli	a2, a2, 2
	and	a2, a2, a3
	lui	a3, 61681
	add	a1, a1, a2
	srli	a2, a1, 4
	add	a1, a1, a2
	lui	a2, 4112
	addi	a3, a3, -241
	and	a1, a1, a3
	li	a3, 27
	addi	a2, a2, 257
	mul	a1, a1, a2
	srli	a1, a1, 24
	sub	a3, a3, a1
	srl	a0, a0, a3
	slli	a2, a3, 4
	add	a2, a2, a0
	slli	a1, a2, 2
	add	a1, a1, s5
	lw	a5, 144(a1)
	sw	t2, 144(a1)
	lw	a4, 0(s5)
	bltz	a5, .LBB3_8
	add	a6, a6, a4
	li	a0, -1
	slli	a1, a5, 3
	sw	a5, 16(a6)
	sw	a0, 20(a6)
	add	a1, a1, a4
	sw	t2, 20(a1)
	j	.LBB3_9
.LBB3_8:
	add	a4, a4, a6
	li	a1, -1
	srli	a2, a2, 4
	li	a3, 1
	andi	a0, a0, 15
	sw	a1, 16(a4)
	sw	a1, 20(a4)
	slli	a1, a2, 2
	add	a1, a1, s5
	lw	a4, 56(s5)
	lw	a5, 60(a1)
	sll	a2, a3, a2
	sll	a0, a3, a0
	or	a2, a2, a4
	or	a0, a0, a5
	sw	a2, 56(s5)
	sw	a0, 60(a1)
.LBB3_9:
	mv	a0, s2
.LBB3_10:
	lw	ra, 44(sp)
	lw	s0, 40(sp)
	lw	s1, 36(sp)
	lw	s2, 32(sp)
	lw	s3, 28(sp)
	lw	s4, 24(sp)
	lw	s5, 20(sp)
	lw	s6, 16(sp)
	lw	s7, 12(sp)
	lw	s8, 8(sp)
	lw	s9, 4(sp)
	.cfi_restore ra
	.cfi_restore s0
	.cfi_restore s1
	.cfi_restore s2
	.cfi_restore s3
	.cfi_restore s4
	.cfi_restore s5
	.cfi_restore s6
	.cfi_restore s7
	.cfi_restore s8
	.cfi_restore s9
	addi	sp, sp, 48
	.cfi_def_cfa_offset 0
	ret
.Lfunc_end3:
	.size	tlsf_heap.refitting.recut.4, .Lfunc_end3-tlsf_heap.refitting.recut.4
	.cfi_endproc
	.section	.text.tlsf_heap.region.Region.remove.4,"ax",@progbits
	.p2align	1
	.type	tlsf_heap.region.Region.remove.4,@function
tlsf_heap.region.Region.remove.4:
	.cfi_startproc
	lw	a3, 0(a0)
	slli	a2, a2, 3
	add	a2, a2, a3
	lw	a4, 20(a2)
	lw	a2, 16(a2)
	bltz	a4, .LBB4_3
	slli	a0, a4, 3
	add	a0, a0, a3
	lw	a1, 20(a0)
	li	a5, -1
	beq	a2, a5, .LBB4_5
	sw	a2, 16(a0)
	sw	a1, 20(a0)
	slli	a2, a2, 3
	slli	a4, a4, 1
	add	a2, a2, a3
	srli	a4, a4, 1
	sw	a4, 20(a2)
	ret
.LBB4_3:
	ori	a6, a1, 16
	lui	a5, 349525
	srli	a4, a6, 1
	addi	a7, a5, 1365
	or	a5, a6, a4
	srli	a4, a5, 2
	or	a4, a4, a5
	srli	a5, a4, 4
	or	a4, a4, a5
	srli	a5, a4, 8
	or	a4, a4, a5
	srli	a5, a4, 16
	or	a4, a4, a5
	not	a4, a4
	srli	a5, a4, 1
	and	a6, a5, a7
	lui	a5, 209715
	addi	a5, a5, 819
	sub	a4, a4, a6
	and	a6, a4, a5
	srli	a4, a4, 2
	and	a4, a4, a5
	lui	a5, 61681
	add	a6, a6, a4
	srli	a4, a6, 4
	add	a4, a4, a6
	lui	a6, 4112
	addi	a5, a5, -241
	and	a4, a4, a5
	li	a7, 27
	addi	a5, a6, 257
	mul	a4, a4, a5
	srli	a4, a4, 24
	sub	a5, a7, a4
	srl	a4, a1, a5
	slli	a5, a5, 4
	li	a1, -1
	add	a5, a5, a4
	beq	a2, a1, .LBB4_6
	slli	a4, a2, 3
	slli	a5, a5, 2
	add	a3, a3, a4
	add	a0, a0, a5
	sw	a1, 20(a3)
	sw	a2, 144(a0)
	ret
.LBB4_5:
	sw	a5, 16(a0)
	sw	a1, 20(a0)
	ret
.LBB4_6:
	slli	a3, a5, 2
	srli	a2, a5, 4
	add	a3, a3, a0
	slli	a5, a2, 2
	sw	a1, 144(a3)
	add	a5, a5, a0
	lw	a3, 60(a5)
	andi	a4, a4, 15
	li	a1, 1
	sll	a4, a1, a4
	not	a4, a4
	and	a3, a3, a4
	sw	a3, 60(a5)
	beqz	a3, .LBB4_8
	ret
.LBB4_8:
	lw	a3, 56(a0)
	sll	a1, a1, a2
	not	a1, a1
	and	a1, a1, a3
	sw	a1, 56(a0)
	ret
.Lfunc_end4:
	.size	tlsf_heap.region.Region.remove.4, .Lfunc_end4-tlsf_heap.region.Region.remove.4
	.cfi_endproc
	.section	.text.tlsf_heap.heap.Heap.release_live.4,"ax",@progbits
	.p2align	1
	.type	tlsf_heap.heap.Heap.release_live.4,@function
tlsf_heap.heap.Heap.release_live.4:
	.cfi_startproc
	lbu	a2, 4(a1)
	lbu	a4, 5(a1)
	lbu	a5, 6(a1)
	lbu	a1, 7(a1)
	lw	a3, 24(a0)
	slli	a4, a4, 8
	slli	a5, a5, 16
	slli	a1, a1, 24
	or	a2, a2, a4
	or	a1, a1, a5
	or	a7, a1, a2
	slli	t1, a7, 3
	add	t5, a3, t1
	lw	t3, 0(t5)
	lw	a1, 16(a0)
	lw	t4, 4(t5)
	srli	t2, t3, 2
	sub	a1, a1, t2
	andi	a2, t3, 2
	sw	a1, 16(a0)
	bnez	a2, .LBB5_2
	add	a1, t2, a7
	slli	a1, a1, 3
	add	a2, a3, a1
	lw	a1, 0(a2)
	lw	a2, 4(a2)
	addi	t0, a0, 24
	bnez	a7, .LBB5_3
	j	.LBB5_4
.LBB5_2:
	li	a1, 0
	li	a2, 0
	addi	t0, a0, 24
	beqz	a7, .LBB5_4
.LBB5_3:
	slli	a4, t4, 3
	add	a4, a4, a3
	lw	a3, 0(a4)
	andi	a5, a3, 1
	bnez	a5, .LBB5_8
.LBB5_4:
	lw	a5, 8(a0)
	lw	a6, 12(a0)
	andi	a3, a1, 1
	bnez	a3, .LBB5_7
	ori	a1, t3, 1
	ori	a2, t2, 16
	lui	a3, 349525
	lui	t0, 209715
	sw	a1, 0(t5)
	sw	t4, 4(t5)
	sw	a5, 8(t5)
	sw	a6, 12(t5)
	srli	a1, a2, 1
	lw	a5, 8(a0)
	lw	a4, 12(a0)
	or	a1, a1, a2
	srli	a2, a1, 2
	or	a1, a1, a2
	srli	a2, a1, 4
	addi	a5, a5, 1
	or	a1, a1, a2
	seqz	a2, a5
	add	a2, a2, a4
	srli	a4, a1, 8
	or	a1, a1, a4
	lui	a4, 61681
	addi	a3, a3, 1365
	sw	a5, 8(a0)
	sw	a2, 12(a0)
	srli	a2, a1, 16
	or	a1, a1, a2
	not	a1, a1
	srli	a2, a1, 1
	and	a2, a2, a3
	lui	a3, 4112
	addi	a5, t0, 819
	sub	a1, a1, a2
	and	a2, a1, a5
	srli	a1, a1, 2
	and	a1, a1, a5
	li	a5, 27
	addi	a4, a4, -241
	addi	a3, a3, 257
	add	a1, a1, a2
	srli	a2, a1, 4
	add	a1, a1, a2
	and	a1, a1, a4
	mul	a1, a1, a3
	srli	a1, a1, 24
	sub	a5, a5, a1
	srl	a1, t2, a5
	slli	a2, a5, 4
	add	a2, a2, a1
	slli	a3, a2, 2
	add	a3, a3, a0
	lw	a4, 168(a3)
	sw	a7, 168(a3)
	lw	a3, 24(a0)
	bltz	a4, .LBB5_9
	add	t1, t1, a3
	li	a0, -1
	slli	a1, a4, 3
	sw	a4, 16(t1)
	sw	a0, 20(t1)
	add	a1, a1, a3
	sw	a7, 20(a1)
	ret
.LBB5_7:
	addi	a3, a5, 1
	seqz	a4, a3
	add	a4, a4, a6
	sw	a3, 8(a0)
	sw	a4, 12(a0)
	mv	a0, t0
	mv	a3, t3
	mv	a4, t4
	tail	tlsf_heap.fitting.merge_next.4
.LBB5_8:
	lw	a5, 8(a0)
	lw	a6, 12(a0)
	lw	a4, 4(a4)
	addi	t1, a5, 1
	seqz	t2, t1
	add	t2, t2, a6
	sw	t1, 8(a0)
	sw	t2, 12(a0)
	mv	a0, t0
	tail	tlsf_heap.fitting.merge_before.4
.LBB5_9:
	add	a3, a3, t1
	li	a4, -1
	srli	a2, a2, 4
	li	a6, 1
	andi	a1, a1, 15
	sw	a4, 16(a3)
	sw	a4, 20(a3)
	slli	a3, a2, 2
	add	a3, a3, a0
	lw	a4, 80(a0)
	lw	a5, 84(a3)
	sll	a2, a6, a2
	sll	a1, a6, a1
	or	a2, a2, a4
	or	a1, a1, a5
	sw	a2, 80(a0)
	sw	a1, 84(a3)
	ret
.Lfunc_end5:
	.size	tlsf_heap.heap.Heap.release_live.4, .Lfunc_end5-tlsf_heap.heap.Heap.release_live.4
	.cfi_endproc
	.section	.text.tlsf_heap.fitting.merge_before.4,"ax",@progbits
	.p2align	1
	.type	tlsf_heap.fitting.merge_before.4,@function
tlsf_heap.fitting.merge_before.4:
	.cfi_startproc
	addi	sp, sp, -48
	.cfi_def_cfa_offset 48
	sw	ra, 44(sp)
	sw	s0, 40(sp)
	sw	s1, 36(sp)
	sw	s2, 32(sp)
	sw	s3, 28(sp)
	sw	s4, 24(sp)
	sw	s5, 20(sp)
	sw	s6, 16(sp)
	sw	s7, 12(sp)
	sw	s8, 8(sp)
	sw	s9, 4(sp)
	.cfi_offset ra, -4
	.cfi_offset s0, -8
	.cfi_offset s1, -12
	.cfi_offset s2, -16
	.cfi_offset s3, -20
	.cfi_offset s4, -24
	.cfi_offset s5, -28
	.cfi_offset s6, -32
	.cfi_offset s7, -36
	.cfi_offset s8, -40
	.cfi_offset s9, -44
	.cfi_remember_state
	andi	s1, a1, 1
	bnez	s1, .LBB6_3
	srli	a1, a3, 2
	ori	a2, t3, 1
	lw	s1, 0(a0)
	add	a2, a2, a3
	sub	s5, a7, a1
	sltu	a3, a2, a3
	seqz	s0, a2
	add	a3, a3, a4
	slli	s2, s5, 3
	add	s1, s1, s2
	lw	a4, 20(s1)
	sub	s4, a3, s0
	lui	s6, 131072
	addi	s6, s6, -8
	addi	s7, a2, -1
	bltz	a4, .LBB6_4
	mv	s0, a7
	mv	s9, a5
	mv	s8, a6
	srli	s3, s7, 2
	j	.LBB6_8
.LBB6_3:
	lw	ra, 44(sp)
	lw	s0, 40(sp)
	lw	s1, 36(sp)
	lw	s2, 32(sp)
	lw	s3, 28(sp)
	lw	s4, 24(sp)
	lw	s5, 20(sp)
	lw	s6, 16(sp)
	lw	s7, 12(sp)
	lw	s8, 8(sp)
	lw	s9, 4(sp)
	.cfi_restore ra
	.cfi_restore s0
	.cfi_restore s1
	.cfi_restore s2
	.cfi_restore s3
	.cfi_restore s4
	.cfi_restore s5
	.cfi_restore s6
	.cfi_restore s7
	.cfi_restore s8
	.cfi_restore s9
	addi	sp, sp, 48
	.cfi_def_cfa_offset 0
	tail	tlsf_heap.fitting.merge_both.4
.LBB6_4:
	.cfi_restore_state
	ori	t3, a1, 16
	lui	t1, 349525
	lui	t2, 209715
	lui	s0, 61681
	lui	a2, 4112
	li	t0, 27
	srli	s3, s7, 2
	srli	a3, t3, 1
	addi	t5, t1, 1365
	addi	a4, t2, 819
	addi	t2, s0, -241
	addi	t1, a2, 257
	ori	t4, s3, 16
	or	s0, t3, a3
	srli	a2, t4, 1
	or	s1, t4, a2
	srli	a3, s0, 2
	or	s0, s0, a3
	srli	a2, s1, 2
	or	s1, s1, a2
	srli	a3, s0, 4
	or	s0, s0, a3
	srli	a2, s1, 4
	or	s1, s1, a2
	srli	a3, s0, 8
	or	s0, s0, a3
	srli	a2, s1, 8
	or	a2, a2, s1
	srli	a3, s0, 16
	or	a3, a3, s0
	srli	s1, a2, 16
	not	a3, a3
	or	a2, a2, s1
	srli	s1, a3, 1
	not	s0, a2
	and	s1, s1, t5
	sub	a3, a3, s1
	srli	a2, s0, 1
	and	a2, a2, t5
	and	s1, a3, a4
	srli	a3, a3, 2
	sub	s0, s0, a2
	and	a3, a3, a4
	and	a2, s0, a4
	srli	s0, s0, 2
	add	a3, a3, s1
	and	a4, a4, s0
	srli	s1, a3, 4
	add	a2, a2, a4
	add	a3, a3, s1
	srli	a4, a2, 4
	and	a3, a3, t2
	add	a2, a2, a4
	mul	a3, a3, t1
	and	a2, a2, t2
	srli	a3, a3, 24
	mul	a2, a2, t1
	sub	a3, t0, a3
	srli	a2, a2, 24
	srl	a4, a1, a3
	slli	a3, a3, 4
	sub	a2, t0, a2
	add	a3, a3, a4
	srl	a4, s3, a2
	slli	a2, a2, 4
	add	a2, a2, a4
	bne	a3, a2, .LBB6_7
	lw	a1, 24(a0)
	srli	a2, a7, 3
	not	a3, a7
	lui	a4, 524288
	srli	s1, a7, 5
	and	a2, a2, s6
	addi	a4, a4, -1
	ori	s0, s1, -2
	addi	s1, s1, -1
	srl	a3, a4, a3
	sll	a4, s0, a7
	ori	s1, s1, -2
	add	a1, a1, a2
	lw	a2, 0(a1)
	lw	s0, 4(a1)
	or	a4, a4, a3
	sll	s1, s1, a7
	or	a3, a3, s1
	and	a3, a3, s0
	and	a2, a2, a4
	sw	a2, 0(a1)
	sw	a3, 4(a1)
	lw	a1, 0(a0)
	andi	a2, s7, 2
	add	a1, a1, s2
	sw	s7, 0(a1)
	sw	s4, 4(a1)
	sw	a5, 8(a1)
	sw	a6, 12(a1)
	bnez	a2, .LBB6_13
	lw	a0, 0(a0)
	add	s3, s3, s5
	slli	s3, s3, 3
	add	a0, a0, s3
	sw	s5, 4(a0)
	j	.LBB6_13
.LBB6_7:
	mv	s0, a7
	mv	s9, a5
	mv	s8, a6
.LBB6_8:
	mv	s1, a0
	mv	a2, s5
	call	tlsf_heap.region.Region.remove.4
	lw	a0, 24(s1)
	srli	a1, s0, 3
	not	a2, s0
	lui	a3, 524288
	srli	a4, s0, 5
	and	a1, a1, s6
	addi	a3, a3, -1
	ori	a5, a4, -2
	addi	a4, a4, -1
	srl	a2, a3, a2
	sll	a3, a5, s0
	ori	a4, a4, -2
	add	a0, a0, a1
	lw	a1, 0(a0)
	lw	a5, 4(a0)
	or	a3, a3, a2
	sll	a4, a4, s0
	or	a2, a2, a4
	and	a2, a2, a5
	and	a1, a1, a3
	sw	a1, 0(a0)
	sw	a2, 4(a0)
	lw	a0, 0(s1)
	andi	a1, s7, 2
	add	a0, a0, s2
	sw	s7, 0(a0)
	sw	s4, 4(a0)
	sw	s9, 8(a0)
	sw	s8, 12(a0)
	bnez	a1, .LBB6_10
	lw	a0, 0(s1)
	add	a1, s3, s5
	slli	a1, a1, 3
	add	a0, a0, a1
	sw	s5, 4(a0)
.LBB6_10:
	ori	a0, s3, 16
	lui	a1, 349525
	srli	a2, a0, 1
	addi	a1, a1, 1365
	or	a0, a0, a2
	srli	a2, a0, 2
	or	a0, a0, a2
	srli	a2, a0, 4
	or	a0, a0, a2
	srli	a2, a0, 8
	or	a0, a0, a2
	srli	a2, a0, 16
	or	a0, a0, a2
	not	a0, a0
	srli	a2, a0, 1
	and	a1, a1, a2
	lui	a2, 209715
	addi	a2, a2, 819
	sub	a0, a0, a1
	and	a1, a0, a2
	srli	a0, a0, 2
	and	a0, a0, a2
	lui	a2, 61681
	add	a0, a0, a1
	srli	a1, a0, 4
	add	a0, a0, a1
	lui	a1, 4112
	addi	a2, a2, -241
	and	a0, a0, a2
	li	a2, 27
	addi	a1, a1, 257
	mul	a0, a0, a1
	srli	a0, a0, 24
	sub	a2, a2, a0
	srl	a0, s3, a2
	slli	a1, a2, 4
	add	a1, a1, a0
	slli	a2, a1, 2
	add	a2, a2, s1
	lw	a3, 144(a2)
	sw	s5, 144(a2)
	lw	a2, 0(s1)
	bltz	a3, .LBB6_12
	add	s2, s2, a2
	li	a0, -1
	slli	a1, a3, 3
	sw	a3, 16(s2)
	sw	a0, 20(s2)
	add	a1, a1, a2
	sw	s5, 20(a1)
	j	.LBB6_13
.LBB6_12:
	add	a2, a2, s2
	li	a3, -1
	srli	a1, a1, 4
	li	a4, 1
	andi	a0, a0, 15
	sw	a3, 16(a2)
	sw	a3, 20(a2)
	slli	a2, a1, 2
	add	a2, a2, s1
	lw	a3, 56(s1)
	lw	a5, 60(a2)
	sll	a1, a4, a1
	sll	a0, a4, a0
	or	a1, a1, a3
	or	a0, a0, a5
	sw	a1, 56(s1)
	sw	a0, 60(a2)
.LBB6_13:
	lw	ra, 44(sp)
	lw	s0, 40(sp)
	lw	s1, 36(sp)
	lw	s2, 32(sp)
	lw	s3, 28(sp)
	lw	s4, 24(sp)
	lw	s5, 20(sp)
	lw	s6, 16(sp)
	lw	s7, 12(sp)
	lw	s8, 8(sp)
	lw	s9, 4(sp)
	.cfi_restore ra
	.cfi_restore s0
	.cfi_restore s1
	.cfi_restore s2
	.cfi_restore s3
	.cfi_restore s4
	.cfi_restore s5
	.cfi_restore s6
	.cfi_restore s7
	.cfi_restore s8
	.cfi_restore s9
	addi	sp, sp, 48
	.cfi_def_cfa_offset 0
	ret
.Lfunc_end6:
	.size	tlsf_heap.fitting.merge_before.4, .Lfunc_end6-tlsf_heap.fitting.merge_before.4
	.cfi_endproc
	.section	.text.tlsf_heap.fitting.merge_both.4,"ax",@progbits
	.p2align	1
	.type	tlsf_heap.fitting.merge_both.4,@function
tlsf_heap.fitting.merge_both.4:
	.cfi_startproc
	addi	sp, sp, -48
	.cfi_def_cfa_offset 48
	sw	ra, 44(sp)
	sw	s0, 40(sp)
	sw	s1, 36(sp)
	sw	s2, 32(sp)
	sw	s3, 28(sp)
	sw	s4, 24(sp)
	sw	s5, 20(sp)
	sw	s6, 16(sp)
	sw	s7, 12(sp)
	sw	s8, 8(sp)
	sw	s9, 4(sp)
	.cfi_offset ra, -4
	.cfi_offset s0, -8
	.cfi_offset s1, -12
	.cfi_offset s2, -16
	.cfi_offset s3, -20
	.cfi_offset s4, -24
	.cfi_offset s5, -28
	.cfi_offset s6, -32
	.cfi_offset s7, -36
	.cfi_offset s8, -40
	.cfi_offset s9, -44
	mv	s9, t3
	mv	s1, a7
	mv	s2, a6
	mv	s3, a5
	mv	s4, a4
	mv	s7, a3
	mv	s0, a1
	mv	s8, a0
	srli	s6, a1, 2
	srli	a2, t3, 2
	add	a2, a2, a7
	mv	a1, s6
	call	tlsf_heap.region.Region.remove.4
	srli	a1, s7, 2
	sub	s5, s1, a1
	mv	a0, s8
	mv	a2, s5
	call	tlsf_heap.region.Region.remove.4
	add	a4, s9, s0
	lw	a7, 24(s8)
	srli	a0, s1, 3
	not	a6, s1
	lui	a3, 524288
	srli	a5, s1, 5
	add	a4, a4, s7
	andi	a0, a0, -8
	addi	a3, a3, -1
	ori	s0, a5, -2
	addi	a5, a5, -1
	addi	t4, a4, -1
	srl	a1, a3, a6
	sll	s0, s0, s1
	ori	a5, a5, -2
	srli	a6, t4, 2
	or	t1, s0, a1
	sll	s1, a5, s1
	add	t0, a6, s5
	add	a0, a0, a7
	or	s1, s1, a1
	lw	t2, 0(a0)
	lw	a5, 4(a0)
	sub	s0, t0, s6
	not	a1, s0
	srl	a1, a3, a1
	slli	a7, s5, 3
	sltu	t3, a4, s7
	and	a5, a5, s1
	srli	s1, s0, 3
	and	a3, t2, t1
	slli	a2, s0, 26
	andi	s1, s1, -8
	srli	a2, a2, 31
	sw	a3, 0(a0)
	sw	a5, 4(a0)
	addi	a0, a2, -2
	addi	a2, a2, -1
	lw	a3, 24(s8)
	sll	a0, a0, s0
	ori	a2, a2, -2
	sll	a2, a2, s0
	add	a3, a3, s1
	lw	a5, 0(a3)
	lw	s1, 4(a3)
	seqz	a4, a4
	or	a0, a0, a1
	or	a1, a1, a2
	and	a1, a1, s1
	and	a0, a0, a5
	sw	a0, 0(a3)
	sw	a1, 4(a3)
	lw	a0, 0(s8)
	add	t3, t3, s4
	andi	a1, t4, 2
	sub	a2, t3, a4
	add	a0, a0, a7
	sw	t4, 0(a0)
	sw	a2, 4(a0)
	sw	s3, 8(a0)
	sw	s2, 12(a0)
	bnez	a1, .LBB7_2
	lw	a0, 0(s8)
	slli	t0, t0, 3
	add	a0, a0, t0
	sw	s5, 4(a0)
.LBB7_2:
	ori	a0, a6, 16
	lui	a1, 349525
	srli	a2, a0, 1
	addi	a1, a1, 1365
	or	a0, a0, a2
	srli	a2, a0, 2
	or	a0, a0, a2
	srli	a2, a0, 4
	or	a0, a0, a2
	srli	a2, a0, 8
	or	a0, a0, a2
	srli	a2, a0, 16
	or	a0, a0, a2
	not	a0, a0
	srli	a2, a0, 1
	and	a1, a1, a2
	lui	a2, 209715
	addi	a2, a2, 819
	sub	a0, a0, a1
	and	a1, a0, a2
	srli	a0, a0, 2
	and	a0, a0, a2
	lui	a2, 61681
	add	a0, a0, a1
	srli	a1, a0, 4
	add	a0, a0, a1
	lui	a1, 4112
	addi	a2, a2, -241
	and	a0, a0, a2
	li	a2, 27
	addi	a1, a1, 257
	mul	a0, a0, a1
	srli	a0, a0, 24
	sub	a2, a2, a0
	srl	a0, a6, a2
	slli	a2, a2, 4
	add	a2, a2, a0
	slli	a1, a2, 2
	add	a1, a1, s8
	lw	a4, 144(a1)
	sw	s5, 144(a1)
	lw	a3, 0(s8)
	bltz	a4, .LBB7_4
	add	a7, a7, a3
	li	a0, -1
	slli	a1, a4, 3
	sw	a4, 16(a7)
	sw	a0, 20(a7)
	add	a1, a1, a3
	sw	s5, 20(a1)
	j	.LBB7_5
.LBB7_4:
	add	a3, a3, a7
	li	a1, -1
	srli	a2, a2, 4
	li	a4, 1
	andi	a0, a0, 15
	sw	a1, 16(a3)
	sw	a1, 20(a3)
	slli	a1, a2, 2
	add	a1, a1, s8
	lw	a3, 56(s8)
	lw	a5, 60(a1)
	sll	a2, a4, a2
	sll	a0, a4, a0
	or	a2, a2, a3
	or	a0, a0, a5
	sw	a2, 56(s8)
	sw	a0, 60(a1)
.LBB7_5:
	lw	ra, 44(sp)
	lw	s0, 40(sp)
	lw	s1, 36(sp)
	lw	s2, 32(sp)
	lw	s3, 28(sp)
	lw	s4, 24(sp)
	lw	s5, 20(sp)
	lw	s6, 16(sp)
	lw	s7, 12(sp)
	lw	s8, 8(sp)
	lw	s9, 4(sp)
	.cfi_restore ra
	.cfi_restore s0
	.cfi_restore s1
	.cfi_restore s2
	.cfi_restore s3
	.cfi_restore s4
	.cfi_restore s5
	.cfi_restore s6
	.cfi_restore s7
	.cfi_restore s8
	.cfi_restore s9
	addi	sp, sp, 48
	.cfi_def_cfa_offset 0
	ret
.Lfunc_end7:
	.size	tlsf_heap.fitting.merge_both.4, .Lfunc_end7-tlsf_heap.fitting.merge_both.4
	.cfi_endproc
	.section	.text.tlsf_heap.fitting.merge_next.4,"ax",@progbits
	.p2align	1
	.type	tlsf_heap.fitting.merge_next.4,@function
tlsf_heap.fitting.merge_next.4:
	.cfi_startproc
	addi	sp, sp, -48
	.cfi_def_cfa_offset 48
	sw	ra, 44(sp)
	sw	s0, 40(sp)
	sw	s1, 36(sp)
	sw	s2, 32(sp)
	sw	s3, 28(sp)
	sw	s4, 24(sp)
	sw	s5, 20(sp)
	sw	s6, 16(sp)
	sw	s7, 12(sp)
	.cfi_offset ra, -4
	.cfi_offset s0, -8
	.cfi_offset s1, -12
	.cfi_offset s2, -16
	.cfi_offset s3, -20
	.cfi_offset s4, -24
	.cfi_offset s5, -28
	.cfi_offset s6, -32
	.cfi_offset s7, -36
	mv	s5, a7
	mv	s2, a6
	mv	s3, a5
	mv	s4, a4
	mv	s0, a3
	mv	s7, a1
	mv	s6, a0
	srli	s1, a1, 2
	srli	a2, a3, 2
	add	a2, a2, a7
	mv	a1, s1
	call	tlsf_heap.region.Region.remove.4
	add	s0, s0, s7
	lw	a1, 24(s6)
	lui	a2, 524288
	srli	a6, s0, 2
	addi	a3, a2, -1
	add	a7, a6, s5
	sub	a4, a7, s1
	srli	a5, a4, 3
	slli	s1, a4, 26
	not	a0, a4
	andi	a5, a5, -8
	srli	s1, s1, 31
	srl	a0, a3, a0
	add	a5, a5, a1
	addi	a1, s1, -2
	addi	s1, s1, -1
	lw	a3, 0(a5)
	lw	a2, 4(a5)
	sll	a1, a1, a4
	ori	s1, s1, -2
	sll	a4, s1, a4
	slli	s1, s5, 3
	or	a1, a1, a0
	or	a0, a0, a4
	and	a0, a0, a2
	and	a1, a1, a3
	sw	a1, 0(a5)
	sw	a0, 4(a5)
	lw	a0, 0(s6)
	sltu	a1, s0, s7
	andi	a2, s0, 2
	add	a1, a1, s4
	add	a0, a0, s1
	sw	s0, 0(a0)
	sw	a1, 4(a0)
	sw	s3, 8(a0)
	sw	s2, 12(a0)
	bnez	a2, .LBB8_2
	lw	a0, 0(s6)
	slli	a7, a7, 3
	add	a0, a0, a7
	sw	s5, 4(a0)
.LBB8_2:
	ori	a0, a6, 16
	lui	a1, 349525
	srli	a2, a0, 1
	addi	a1, a1, 1365
	or	a0, a0, a2
	srli	a2, a0, 2
	or	a0, a0, a2
	srli	a2, a0, 4
	or	a0, a0, a2
	srli	a2, a0, 8
	or	a0, a0, a2
	srli	a2, a0, 16
	or	a0, a0, a2
	not	a0, a0
	srli	a2, a0, 1
	and	a1, a1, a2
	lui	a2, 209715
	addi	a2, a2, 819
	sub	a0, a0, a1
	and	a1, a0, a2
	srli	a0, a0, 2
	and	a0, a0, a2
	lui	a2, 61681
	add	a0, a0, a1
	srli	a1, a0, 4
	add	a0, a0, a1
	lui	a1, 4112
	addi	a2, a2, -241
	and	a0, a0, a2
	li	a2, 27
	addi	a1, a1, 257
	mul	a0, a0, a1
	srli	a0, a0, 24
	sub	a2, a2, a0
	srl	a0, a6, a2
	slli	a2, a2, 4
	add	a2, a2, a0
	slli	a1, a2, 2
	add	a1, a1, s6
	lw	a4, 144(a1)
	sw	s5, 144(a1)
	lw	a3, 0(s6)
	bltz	a4, .LBB8_4
	add	s1, s1, a3
	li	a0, -1
	slli	a1, a4, 3
	sw	a4, 16(s1)
	sw	a0, 20(s1)
	add	a1, a1, a3
	sw	s5, 20(a1)
	j	.LBB8_5
.LBB8_4:
	add	a3, a3, s1
	li	a1, -1
	srli	a2, a2, 4
	li	a4, 1
	andi	a0, a0, 15
	sw	a1, 16(a3)
	sw	a1, 20(a3)
	slli	a1, a2, 2
	add	a1, a1, s6
	lw	a3, 56(s6)
	lw	a5, 60(a1)
	sll	a2, a4, a2
	sll	a0, a4, a0
	or	a2, a2, a3
	or	a0, a0, a5
	sw	a2, 56(s6)
	sw	a0, 60(a1)
.LBB8_5:
	lw	ra, 44(sp)
	lw	s0, 40(sp)
	lw	s1, 36(sp)
	lw	s2, 32(sp)
	lw	s3, 28(sp)
	lw	s4, 24(sp)
	lw	s5, 20(sp)
	lw	s6, 16(sp)
	lw	s7, 12(sp)
	.cfi_restore ra
	.cfi_restore s0
	.cfi_restore s1
	.cfi_restore s2
	.cfi_restore s3
	.cfi_restore s4
	.cfi_restore s5
	.cfi_restore s6
	.cfi_restore s7
	addi	sp, sp, 48
	.cfi_def_cfa_offset 0
	ret
.Lfunc_end8:
	.size	tlsf_heap.fitting.merge_next.4, .Lfunc_end8-tlsf_heap.fitting.merge_next.4
	.cfi_endproc
	.section	.text.tlsf_heap.heap.Heap.resize_live.5,"ax",@progbits
	.p2align	1
	.type	tlsf_heap.heap.Heap.resize_live.5,@function
tlsf_heap.heap.Heap.resize_live.5:
	.cfi_startproc
	addi	sp, sp, -32
	.cfi_def_cfa_offset 32
	sw	ra, 28(sp)
	sw	s0, 24(sp)
	sw	s1, 20(sp)
	sw	s2, 16(sp)
	sw	s3, 12(sp)
	.cfi_offset ra, -4
	.cfi_offset s0, -8
	.cfi_offset s1, -12
	.cfi_offset s2, -16
	.cfi_offset s3, -20
	lbu	a3, 4(a1)
	lbu	a4, 5(a1)
	lbu	s1, 6(a1)
	lbu	a1, 7(a1)
	lw	a5, 24(a0)
	slli	a4, a4, 8
	slli	s1, s1, 16
	slli	a1, a1, 24
	or	a3, a3, a4
	or	a1, a1, s1
	or	a1, a1, a3
	slli	s0, a1, 3
	add	a4, a5, s0
	lw	t1, 0(a4)
	lw	a3, 4(a4)
	srli	s3, t1, 2
	addi	t0, a0, 24
	bgeu	s3, a2, .LBB9_5
	andi	a4, t1, 2
	bnez	a4, .LBB9_3
	add	a4, s3, a1
	slli	a4, a4, 3
	add	a5, a5, a4
	lw	a4, 0(a5)
	andi	s1, a4, 1
	bnez	s1, .LBB9_9
.LBB9_3:
	li	a4, 0
	li	a5, 0
	bgeu	s3, a2, .LBB9_10
.LBB9_4:
	li	a0, 1
	li	a1, 5
	j	.LBB9_15
.LBB9_5:
	lw	a5, 8(a0)
	lw	a6, 12(a0)
	and	s0, a5, a6
	li	s1, -1
	beq	s0, s1, .LBB9_14
	addi	s1, a2, 4
	sw	zero, 16(a4)
	sw	zero, 20(a4)
	mv	s0, s3
	bltu	s3, s1, .LBB9_8
	mv	s2, a0
	mv	a0, t0
	mv	s0, a2
	mv	a2, t1
	mv	a4, s0
	call	tlsf_heap.refitting.split_off.5
	mv	a0, s2
.LBB9_8:
	li	a1, 0
	lw	a3, 16(a0)
	lw	a5, 8(a0)
	lw	s1, 12(a0)
	sub	a4, s0, s3
	add	a3, a3, a4
	addi	a5, a5, 1
	seqz	a4, a5
	add	a4, a4, s1
	sw	a5, 8(a0)
	sw	a4, 12(a0)
	sw	a3, 16(a0)
	li	a0, 0
	j	.LBB9_15
.LBB9_9:
	lw	a5, 4(a5)
	srli	s1, a4, 2
	add	s1, s1, s3
	bltu	s1, a2, .LBB9_4
.LBB9_10:
	lw	a7, 8(a0)
	lw	t3, 12(a0)
	and	a6, a7, t3
	li	s1, -1
	beq	a6, s1, .LBB9_14
	mv	s2, a0
	mv	a0, t0
	mv	a6, a2
	mv	a2, t1
	call	tlsf_heap.refitting.recut.5
	mv	a2, s2
	lw	a1, 24(s2)
	add	a1, a1, s0
	sw	zero, 16(a1)
	sw	zero, 20(a1)
	lw	a1, 16(s2)
	lw	a3, 20(s2)
	sub	a1, a1, s3
	add	a0, a0, a1
	sw	a0, 16(s2)
	bgeu	a3, a0, .LBB9_13
	sw	a0, 20(a2)
.LBB9_13:
	li	a1, 0
	li	a0, 0
	lw	a3, 8(a2)
	lw	a4, 12(a2)
	addi	a3, a3, 1
	seqz	a5, a3
	add	a4, a4, a5
	sw	a3, 8(a2)
	sw	a4, 12(a2)
	j	.LBB9_15
.LBB9_14:
	li	a1, 1
	li	a0, 1
.LBB9_15:
	lw	ra, 28(sp)
	lw	s0, 24(sp)
	lw	s1, 20(sp)
	lw	s2, 16(sp)
	lw	s3, 12(sp)
	.cfi_restore ra
	.cfi_restore s0
	.cfi_restore s1
	.cfi_restore s2
	.cfi_restore s3
	addi	sp, sp, 32
	.cfi_def_cfa_offset 0
	ret
.Lfunc_end9:
	.size	tlsf_heap.heap.Heap.resize_live.5, .Lfunc_end9-tlsf_heap.heap.Heap.resize_live.5
	.cfi_endproc
	.section	.text.tlsf_heap.refitting.split_off.5,"ax",@progbits
	.p2align	1
	.type	tlsf_heap.refitting.split_off.5,@function
tlsf_heap.refitting.split_off.5:
	.cfi_startproc
	mv	t3, a6
	mv	a7, a5
	mv	a6, a4
	lw	t1, 0(a0)
	andi	a4, a2, 2
	srli	t0, a2, 2
	bnez	a4, .LBB10_2
	add	a4, t0, a1
	slli	a4, a4, 3
	add	t2, t1, a4
	lw	a4, 0(t2)
	andi	a5, a4, 1
	bnez	a5, .LBB10_7
.LBB10_2:
	addi	sp, sp, -16
	.cfi_def_cfa_offset 16
	sw	s0, 12(sp)
	sw	s1, 8(sp)
	sw	s2, 4(sp)
	.cfi_offset s0, -4
	.cfi_offset s1, -8
	.cfi_offset s2, -12
	.cfi_remember_state
	ori	a2, a2, 1
	add	t2, a6, a1
	slli	t6, a6, 2
	slli	t5, a1, 3
	li	t4, 1
	sub	a4, a2, t6
	add	t5, t5, t1
	slli	t1, t2, 3
	srli	a5, t2, 3
	andi	s0, t2, 63
	sltu	a2, a2, a4
	sub	a3, a3, a2
	sll	s2, t4, t2
	sw	t6, 0(t5)
	sw	a3, 4(t5)
	lw	a3, 0(a0)
	andi	a5, a5, -8
	addi	a2, s0, -32
	sll	t4, t4, s0
	add	a3, a3, t1
	sw	a4, 0(a3)
	sw	a1, 4(a3)
	sw	a7, 8(a3)
	sw	t3, 12(a3)
	lw	a3, 24(a0)
	andi	a4, a4, 2
	srli	a2, a2, 31
	neg	s1, a2
	add	a3, a3, a5
	lw	a5, 0(a3)
	lw	s0, 4(a3)
	addi	a2, a2, -1
	and	s1, s1, s2
	and	a2, a2, t4
	or	a2, a2, s0
	or	a5, a5, s1
	sw	a5, 0(a3)
	sw	a2, 4(a3)
	bnez	a4, .LBB10_4
	lw	a2, 0(a0)
	add	a1, a1, t0
	slli	a1, a1, 3
	add	a1, a1, a2
	sw	t2, 4(a1)
.LBB10_4:
	sub	a1, t0, a6
	lui	a2, 349525
	ori	a3, a1, 32
	addi	a2, a2, 1365
	srli	a4, a3, 1
	or	a3, a3, a4
	srli	a4, a3, 2
	or	a3, a3, a4
	srli	a4, a3, 4
	or	a3, a3, a4
	srli	a4, a3, 8
	or	a3, a3, a4
	srli	a4, a3, 16
	or	a3, a3, a4
	not	a3, a3
	srli	a4, a3, 1
	and	a2, a2, a4
	lui	a4, 209715
	addi	a4, a4, 819
	sub	a3, a3, a2
	and	a2, a3, a4
	srli	a3, a3, 2
	and	a3, a3, a4
	lui	a4, 61681
	add	a2, a2, a3
	srli	a3, a2, 4
	add	a2, a2, a3
	lui	a3, 4112
	addi	a4, a4, -241
	and	a2, a2, a4
	li	a4, 26
	addi	a3, a3, 257
	mul	a2, a2, a3
	srli	a2, a2, 24
	sub	a4, a4, a2
	srl	a1, a1, a4
	slli	a3, a4, 5
	add	a3, a3, a1
	slli	a2, a3, 2
	add	a2, a2, a0
	lw	a4, 144(a2)
	sw	t2, 144(a2)
	lw	a5, 0(a0)
	bltz	a4, .LBB10_6
	add	t1, t1, a5
	li	a0, -1
	slli	a1, a4, 3
	sw	a4, 16(t1)
	sw	a0, 20(t1)
	add	a1, a1, a5
	sw	t2, 20(a1)
	lw	s0, 12(sp)
	lw	s1, 8(sp)
	lw	s2, 4(sp)
	.cfi_restore s0
	.cfi_restore s1
	.cfi_restore s2
	addi	sp, sp, 16
	.cfi_def_cfa_offset 0
	ret
.LBB10_6:
	.cfi_restore_state
	add	a5, a5, t1
	li	a2, -1
	srli	a3, a3, 5
	li	a4, 1
	sw	a2, 16(a5)
	sw	a2, 20(a5)
	slli	a2, a3, 2
	add	a2, a2, a0
	lw	a5, 56(a0)
	lw	s1, 60(a2)
	sll	a3, a4, a3
	sll	a1, a4, a1
	or	a3, a3, a5
	or	a1, a1, s1
	sw	a3, 56(a0)
	sw	a1, 60(a2)
	lw	s0, 12(sp)
	lw	s1, 8(sp)
	lw	s2, 4(sp)
	.cfi_restore s0
	.cfi_restore s1
	.cfi_restore s2
	addi	sp, sp, 16
	.cfi_def_cfa_offset 0
	ret
.LBB10_7:
	lw	a5, 4(t2)
	tail	tlsf_heap.refitting.recut.5
.Lfunc_end10:
	.size	tlsf_heap.refitting.split_off.5, .Lfunc_end10-tlsf_heap.refitting.split_off.5
	.cfi_endproc
	.section	.text.tlsf_heap.refitting.recut.5,"ax",@progbits
	.p2align	1
	.type	tlsf_heap.refitting.recut.5,@function
tlsf_heap.refitting.recut.5:
	.cfi_startproc
	addi	sp, sp, -48
	.cfi_def_cfa_offset 48
	sw	ra, 44(sp)
	sw	s0, 40(sp)
	sw	s1, 36(sp)
	sw	s2, 32(sp)
	sw	s3, 28(sp)
	sw	s4, 24(sp)
	sw	s5, 20(sp)
	sw	s6, 16(sp)
	sw	s7, 12(sp)
	sw	s8, 8(sp)
	sw	s9, 4(sp)
	.cfi_offset ra, -4
	.cfi_offset s0, -8
	.cfi_offset s1, -12
	.cfi_offset s2, -16
	.cfi_offset s3, -20
	.cfi_offset s4, -24
	.cfi_offset s5, -28
	.cfi_offset s6, -32
	.cfi_offset s7, -36
	.cfi_offset s8, -40
	.cfi_offset s9, -44
	mv	s3, t3
	mv	s4, a7
	mv	s2, a6
	mv	s0, a4
	mv	s7, a3
	mv	s1, a2
	mv	s6, a1
	mv	s5, a0
	lui	s9, 131072
	srli	s8, a4, 2
	srli	a2, a2, 2
	addi	s9, s9, -8
	add	a2, a2, a1
	mv	a1, s8
	call	tlsf_heap.region.Region.remove.5
	add	s1, s1, s0
	addi	a1, s2, 4
	sltu	a2, s1, s0
	srli	a0, s1, 2
	add	s7, s7, a2
	add	a7, a0, s6
	bgeu	a0, a1, .LBB11_4
	sub	a1, a7, s8
	lw	t0, 24(s5)
	lui	a6, 524288
	andi	t1, s1, 2
	srli	s0, a1, 3
	slli	a4, a1, 26
	not	a2, a1
	addi	a6, a6, -1
	and	s0, s0, s9
	srli	a4, a4, 31
	srl	a2, a6, a2
	addi	a3, a4, -2
	addi	a4, a4, -1
	add	t0, t0, s0
	sll	a3, a3, a1
	ori	a4, a4, -2
	lw	s0, 0(t0)
	lw	a5, 4(t0)
	or	a3, a3, a2
	sll	a1, a4, a1
	or	a1, a1, a2
	and	a1, a1, a5
	and	a3, a3, s0
	sw	a3, 0(t0)
	sw	a1, 4(t0)
	bnez	t1, .LBB11_3
	lw	a1, 0(s5)
	slli	a7, a7, 3
	add	a1, a1, a7
	sw	s6, 4(a1)
.LBB11_3:
	seqz	a1, s1
	lw	a2, 0(s5)
	addi	s1, s1, -1
	slli	s6, s6, 3
	sub	a1, s7, a1
	add	a2, a2, s6
	sw	s1, 0(a2)
	sw	a1, 4(a2)
	j	.LBB11_10
.LBB11_4:
	add	t2, s2, s6
	slli	a2, s2, 2
	lw	t1, 0(s5)
	slli	t3, s6, 3
	sub	s0, a7, s8
	lui	a6, 524288
	li	t0, 1
	sub	a2, s1, a2
	srli	a3, s0, 3
	not	a4, s0
	addi	a6, a6, -1
	srl	a4, a6, a4
	srli	a1, t2, 3
	and	t5, a3, s9
	and	t4, a1, s9
	sltu	a5, s1, a2
	sub	a5, s7, a5
	slli	a6, t2, 3
	add	t1, t1, t3
	slli	a1, s0, 26
	sub	s1, s1, a2
	srli	a1, a1, 31
	sw	s1, 0(t1)
	sw	a5, 4(t1)
	addi	a5, a1, -2
	addi	a1, a1, -1
	sll	a5, a5, s0
	lw	s1, 0(s5)
	ori	a1, a1, -2
	sll	a1, a1, s0
	andi	s0, t2, 63
	add	s1, s1, a6
	sw	a2, 0(s1)
	sw	s6, 4(s1)
	sw	s4, 8(s1)
	sw	s3, 12(s1)
	lw	s1, 24(s5)
	sll	t1, t0, t2
	or	a5, a5, a4
	or	a1, a1, a4
	add	t5, t5, s1
	lw	a4, 0(t5)
	lw	s1, 4(t5)
	sll	a3, t0, s0
	addi	s0, s0, -32
	andi	a2, a2, 2
	and	a1, a1, s1
	and	a4, a4, a5
	sw	a4, 0(t5)
	sw	a1, 4(t5)
	lw	a1, 24(s5)
	srli	s0, s0, 31
	addi	a4, s0, -1
	neg	a5, s0
	add	a1, a1, t4
	lw	s1, 0(a1)
	lw	s0, 4(a1)
	and	a3, a3, a4
	and	a4, a5, t1
	or	a4, a4, s1
	or	a3, a3, s0
	sw	a4, 0(a1)
	sw	a3, 4(a1)
	bnez	a2, .LBB11_6
	lw	a1, 0(s5)
	slli	a7, a7, 3
	add	a1, a1, a7
	sw	t2, 4(a1)
.LBB11_6:
	sub	a0, a0, s2
	lui	a1, 349525
	ori	a2, a0, 32
	addi	a1, a1, 1365
	srli	a3, a2, 1
	or	a2, a2, a3
	srli	a3, a2, 2
	or	a2, a2, a3
	srli	a3, a2, 4
	or	a2, a2, a3
	srli	a3, a2, 8
	or	a2, a2, a3
	srli	a3, a2, 16
	or	a2, a2, a3
	not	a2, a2
	srli	a3, a2, 1
	and	a1, a1, a3
	lui	a3, 209715
	addi	a3, a3, 819
	sub	a2, a2, a1
	and	a1, a2, a3
	srli	a2, a2, 2
	and	a2, a2, a3
	lui	a3, 61681
	add	a1, a1, a2
	srli	a2, a1, 4
	add	a1, a1, a2
	lui	a2, 4112
	addi	a3, a3, -241
	and	a1, a1, a3
	li	a3, 26
	addi	a2, a2, 257
	mul	a1, a1, a2
	srli	a1, a1, 24
	sub	a3, a3, a1
	srl	a0, a0, a3
	slli	a2, a3, 5
	add	a2, a2, a0
	slli	a1, a2, 2
	add	a1, a1, s5
	lw	a5, 144(a1)
	sw	t2, 144(a1)
	lw	a4, 0(s5)
	bltz	a5, .LBB11_8
	add	a6, a6, a4
	li	a0, -1
	slli	a1, a5, 3
	sw	a5, 16(a6)
	sw	a0, 20(a6)
	add	a1, a1, a4
	sw	t2, 20(a1)
	j	.LBB11_9
.LBB11_8:
	add	a4, a4, a6
	li	a1, -1
	srli	a2, a2, 5
	li	a3, 1
	sw	a1, 16(a4)
	sw	a1, 20(a4)
	slli	a1, a2, 2
	add	a1, a1, s5
	lw	a4, 56(s5)
	lw	a5, 60(a1)
	sll	a2, a3, a2
	sll	a0, a3, a0
	or	a2, a2, a4
	or	a0, a0, a5
	sw	a2, 56(s5)
	sw	a0, 60(a1)
.LBB11_9:
	mv	a0, s2
.LBB11_10:
	lw	ra, 44(sp)
	lw	s0, 40(sp)
	lw	s1, 36(sp)
	lw	s2, 32(sp)
	lw	s3, 28(sp)
	lw	s4, 24(sp)
	lw	s5, 20(sp)
	lw	s6, 16(sp)
	lw	s7, 12(sp)
	lw	s8, 8(sp)
	lw	s9, 4(sp)
	.cfi_restore ra
	.cfi_restore s0
	.cfi_restore s1
	.cfi_restore s2
	.cfi_restore s3
	.cfi_restore s4
	.cfi_restore s5
	.cfi_restore s6
	.cfi_restore s7
	.cfi_restore s8
	.cfi_restore s9
	addi	sp, sp, 48
	.cfi_def_cfa_offset 0
	ret
.Lfunc_end11:
	.size	tlsf_heap.refitting.recut.5, .Lfunc_end11-tlsf_heap.refitting.recut.5
	.cfi_endproc
	.section	.text.tlsf_heap.region.Region.remove.5,"ax",@progbits
	.p2align	1
	.type	tlsf_heap.region.Region.remove.5,@function
tlsf_heap.region.Region.remove.5:
	.cfi_startproc
	lw	a3, 0(a0)
	slli	a2, a2, 3
	add	a2, a2, a3
	lw	a4, 20(a2)
	lw	a2, 16(a2)
	bltz	a4, .LBB12_3
	slli	a0, a4, 3
	add	a0, a0, a3
	lw	a1, 20(a0)
	li	a5, -1
	beq	a2, a5, .LBB12_5
	sw	a2, 16(a0)
	sw	a1, 20(a0)
	slli	a2, a2, 3
	slli	a4, a4, 1
	add	a2, a2, a3
	srli	a4, a4, 1
	sw	a4, 20(a2)
	ret
.LBB12_3:
	ori	a6, a1, 32
	lui	a5, 349525
	srli	a4, a6, 1
	addi	a7, a5, 1365
	or	a5, a6, a4
	srli	a4, a5, 2
	or	a4, a4, a5
	srli	a5, a4, 4
	or	a4, a4, a5
	srli	a5, a4, 8
	or	a4, a4, a5
	srli	a5, a4, 16
	or	a4, a4, a5
	not	a4, a4
	srli	a5, a4, 1
	and	a6, a5, a7
	lui	a5, 209715
	addi	a5, a5, 819
	sub	a4, a4, a6
	and	a6, a4, a5
	srli	a4, a4, 2
	and	a4, a4, a5
	lui	a5, 61681
	add	a6, a6, a4
	srli	a4, a6, 4
	add	a4, a4, a6
	lui	a6, 4112
	addi	a5, a5, -241
	and	a4, a4, a5
	li	a7, 26
	addi	a5, a6, 257
	mul	a4, a4, a5
	srli	a4, a4, 24
	sub	a5, a7, a4
	srl	a4, a1, a5
	slli	a5, a5, 5
	li	a1, -1
	add	a5, a5, a4
	beq	a2, a1, .LBB12_6
	slli	a4, a2, 3
	slli	a5, a5, 2
	add	a3, a3, a4
	add	a0, a0, a5
	sw	a1, 20(a3)
	sw	a2, 144(a0)
	ret
.LBB12_5:
	sw	a5, 16(a0)
	sw	a1, 20(a0)
	ret
.LBB12_6:
	slli	a3, a5, 2
	srli	a2, a5, 5
	add	a3, a3, a0
	slli	a5, a2, 2
	sw	a1, 144(a3)
	add	a5, a5, a0
	lw	a3, 60(a5)
	li	a1, 1
	sll	a4, a1, a4
	not	a4, a4
	and	a3, a3, a4
	sw	a3, 60(a5)
	beqz	a3, .LBB12_8
	ret
.LBB12_8:
	lw	a3, 56(a0)
	sll	a1, a1, a2
	not	a1, a1
	and	a1, a1, a3
	sw	a1, 56(a0)
	ret
.Lfunc_end12:
	.size	tlsf_heap.region.Region.remove.5, .Lfunc_end12-tlsf_heap.region.Region.remove.5
	.cfi_endproc
	.section	.text.tlsf_heap.heap.Heap.release_live.5,"ax",@progbits
	.p2align	1
	.type	tlsf_heap.heap.Heap.release_live.5,@function
tlsf_heap.heap.Heap.release_live.5:
	.cfi_startproc
	lbu	a2, 4(a1)
	lbu	a4, 5(a1)
	lbu	a5, 6(a1)
	lbu	a1, 7(a1)
	lw	a3, 24(a0)
	slli	a4, a4, 8
	slli	a5, a5, 16
	slli	a1, a1, 24
	or	a2, a2, a4
	or	a1, a1, a5
	or	a7, a1, a2
	slli	t1, a7, 3
	add	t5, a3, t1
	lw	t3, 0(t5)
	lw	a1, 16(a0)
	lw	t4, 4(t5)
	srli	t2, t3, 2
	sub	a1, a1, t2
	andi	a2, t3, 2
	sw	a1, 16(a0)
	bnez	a2, .LBB13_2
	add	a1, t2, a7
	slli	a1, a1, 3
	add	a2, a3, a1
	lw	a1, 0(a2)
	lw	a2, 4(a2)
	addi	t0, a0, 24
	bnez	a7, .LBB13_3
	j	.LBB13_4
.LBB13_2:
	li	a1, 0
	li	a2, 0
	addi	t0, a0, 24
	beqz	a7, .LBB13_4
.LBB13_3:
	slli	a4, t4, 3
	add	a4, a4, a3
	lw	a3, 0(a4)
	andi	a5, a3, 1
	bnez	a5, .LBB13_8
.LBB13_4:
	lw	a5, 8(a0)
	lw	a6, 12(a0)
	andi	a3, a1, 1
	bnez	a3, .LBB13_7
	ori	a1, t3, 1
	ori	a2, t2, 32
	lui	a3, 349525
	lui	t0, 209715
	sw	a1, 0(t5)
	sw	t4, 4(t5)
	sw	a5, 8(t5)
	sw	a6, 12(t5)
	srli	a1, a2, 1
	lw	a5, 8(a0)
	lw	a4, 12(a0)
	or	a1, a1, a2
	srli	a2, a1, 2
	or	a1, a1, a2
	srli	a2, a1, 4
	addi	a5, a5, 1
	or	a1, a1, a2
	seqz	a2, a5
	add	a2, a2, a4
	srli	a4, a1, 8
	or	a1, a1, a4
	lui	a4, 61681
	addi	a3, a3, 1365
	sw	a5, 8(a0)
	sw	a2, 12(a0)
	srli	a2, a1, 16
	or	a1, a1, a2
	not	a1, a1
	srli	a2, a1, 1
	and	a2, a2, a3
	lui	a3, 4112
	addi	a5, t0, 819
	sub	a1, a1, a2
	and	a2, a1, a5
	srli	a1, a1, 2
	and	a1, a1, a5
	li	a5, 26
	addi	a4, a4, -241
	addi	a3, a3, 257
	add	a1, a1, a2
	srli	a2, a1, 4
	add	a1, a1, a2
	and	a1, a1, a4
	mul	a1, a1, a3
	srli	a1, a1, 24
	sub	a5, a5, a1
	srl	a1, t2, a5
	slli	a2, a5, 5
	add	a2, a2, a1
	slli	a3, a2, 2
	add	a3, a3, a0
	lw	a4, 168(a3)
	sw	a7, 168(a3)
	lw	a3, 24(a0)
	bltz	a4, .LBB13_9
	add	t1, t1, a3
	li	a0, -1
	slli	a1, a4, 3
	sw	a4, 16(t1)
	sw	a0, 20(t1)
	add	a1, a1, a3
	sw	a7, 20(a1)
	ret
.LBB13_7:
	addi	a3, a5, 1
	seqz	a4, a3
	add	a4, a4, a6
	sw	a3, 8(a0)
	sw	a4, 12(a0)
	mv	a0, t0
	mv	a3, t3
	mv	a4, t4
	tail	tlsf_heap.fitting.merge_next.5
.LBB13_8:
	lw	a5, 8(a0)
	lw	a6, 12(a0)
	lw	a4, 4(a4)
	addi	t1, a5, 1
	seqz	t2, t1
	add	t2, t2, a6
	sw	t1, 8(a0)
	sw	t2, 12(a0)
	mv	a0, t0
	tail	tlsf_heap.fitting.merge_before.5
.LBB13_9:
	add	a3, a3, t1
	li	a4, -1
	srli	a2, a2, 5
	li	a6, 1
	sw	a4, 16(a3)
	sw	a4, 20(a3)
	slli	a3, a2, 2
	add	a3, a3, a0
	lw	a4, 80(a0)
	lw	a5, 84(a3)
	sll	a2, a6, a2
	sll	a1, a6, a1
	or	a2, a2, a4
	or	a1, a1, a5
	sw	a2, 80(a0)
	sw	a1, 84(a3)
	ret
.Lfunc_end13:
	.size	tlsf_heap.heap.Heap.release_live.5, .Lfunc_end13-tlsf_heap.heap.Heap.release_live.5
	.cfi_endproc
	.section	.text.tlsf_heap.fitting.merge_before.5,"ax",@progbits
	.p2align	1
	.type	tlsf_heap.fitting.merge_before.5,@function
tlsf_heap.fitting.merge_before.5:
	.cfi_startproc
	addi	sp, sp, -48
	.cfi_def_cfa_offset 48
	sw	ra, 44(sp)
	sw	s0, 40(sp)
	sw	s1, 36(sp)
	sw	s2, 32(sp)
	sw	s3, 28(sp)
	sw	s4, 24(sp)
	sw	s5, 20(sp)
	sw	s6, 16(sp)
	sw	s7, 12(sp)
	sw	s8, 8(sp)
	sw	s9, 4(sp)
	.cfi_offset ra, -4
	.cfi_offset s0, -8
	.cfi_offset s1, -12
	.cfi_offset s2, -16
	.cfi_offset s3, -20
	.cfi_offset s4, -24
	.cfi_offset s5, -28
	.cfi_offset s6, -32
	.cfi_offset s7, -36
	.cfi_offset s8, -40
	.cfi_offset s9, -44
	.cfi_remember_state
	andi	s1, a1, 1
	bnez	s1, .LBB14_3
	srli	a1, a3, 2
	ori	a2, t3, 1
	lw	s1, 0(a0)
	add	a2, a2, a3
	sub	s5, a7, a1
	sltu	a3, a2, a3
	seqz	s0, a2
	add	a3, a3, a4
	slli	s2, s5, 3
	add	s1, s1, s2
	lw	a4, 20(s1)
	sub	s4, a3, s0
	lui	s6, 131072
	addi	s6, s6, -8
	addi	s7, a2, -1
	bltz	a4, .LBB14_4
	mv	s0, a7
	mv	s9, a5
	mv	s8, a6
	srli	s3, s7, 2
	j	.LBB14_8
.LBB14_3:
	lw	ra, 44(sp)
	lw	s0, 40(sp)
	lw	s1, 36(sp)
	lw	s2, 32(sp)
	lw	s3, 28(sp)
	lw	s4, 24(sp)
	lw	s5, 20(sp)
	lw	s6, 16(sp)
	lw	s7, 12(sp)
	lw	s8, 8(sp)
	lw	s9, 4(sp)
	.cfi_restore ra
	.cfi_restore s0
	.cfi_restore s1
	.cfi_restore s2
	.cfi_restore s3
	.cfi_restore s4
	.cfi_restore s5
	.cfi_restore s6
	.cfi_restore s7
	.cfi_restore s8
	.cfi_restore s9
	addi	sp, sp, 48
	.cfi_def_cfa_offset 0
	tail	tlsf_heap.fitting.merge_both.5
.LBB14_4:
	.cfi_restore_state
	ori	t3, a1, 32
	lui	t1, 349525
	lui	t2, 209715
	lui	s0, 61681
	lui	a2, 4112
	li	t0, 26
	srli	s3, s7, 2
	srli	a3, t3, 1
	addi	t5, t1, 1365
	addi	a4, t2, 819
	addi	t2, s0, -241
	addi	t1, a2, 257
	ori	t4, s3, 32
	or	s0, t3, a3
	srli	a2, t4, 1
	or	s1, t4, a2
	srli	a3, s0, 2
	or	s0, s0, a3
	srli	a2, s1, 2
	or	s1, s1, a2
	srli	a3, s0, 4
	or	s0, s0, a3
	srli	a2, s1, 4
	or	s1, s1, a2
	srli	a3, s0, 8
	or	s0, s0, a3
	srli	a2, s1, 8
	or	a2, a2, s1
	srli	a3, s0, 16
	or	a3, a3, s0
	srli	s1, a2, 16
	not	a3, a3
	or	a2, a2, s1
	srli	s1, a3, 1
	not	s0, a2
	and	s1, s1, t5
	sub	a3, a3, s1
	srli	a2, s0, 1
	and	a2, a2, t5
	and	s1, a3, a4
	srli	a3, a3, 2
	sub	s0, s0, a2
	and	a3, a3, a4
	and	a2, s0, a4
	srli	s0, s0, 2
	add	a3, a3, s1
	and	a4, a4, s0
	srli	s1, a3, 4
	add	a2, a2, a4
	add	a3, a3, s1
	srli	a4, a2, 4
	and	a3, a3, t2
	add	a2, a2, a4
	mul	a3, a3, t1
	and	a2, a2, t2
	srli	a3, a3, 24
	mul	a2, a2, t1
	sub	a3, t0, a3
	srli	a2, a2, 24
	srl	a4, a1, a3
	slli	a3, a3, 5
	sub	a2, t0, a2
	add	a3, a3, a4
	srl	a4, s3, a2
	slli	a2, a2, 5
	add	a2, a2, a4
	bne	a3, a2, .LBB14_7
	lw	a1, 24(a0)
	srli	a2, a7, 3
	not	a3, a7
	lui	a4, 524288
	srli	s1, a7, 5
	and	a2, a2, s6
	addi	a4, a4, -1
	ori	s0, s1, -2
	addi	s1, s1, -1
	srl	a3, a4, a3
	sll	a4, s0, a7
	ori	s1, s1, -2
	add	a1, a1, a2
	lw	a2, 0(a1)
	lw	s0, 4(a1)
	or	a4, a4, a3
	sll	s1, s1, a7
	or	a3, a3, s1
	and	a3, a3, s0
	and	a2, a2, a4
	sw	a2, 0(a1)
	sw	a3, 4(a1)
	lw	a1, 0(a0)
	andi	a2, s7, 2
	add	a1, a1, s2
	sw	s7, 0(a1)
	sw	s4, 4(a1)
	sw	a5, 8(a1)
	sw	a6, 12(a1)
	bnez	a2, .LBB14_13
	lw	a0, 0(a0)
	add	s3, s3, s5
	slli	s3, s3, 3
	add	a0, a0, s3
	sw	s5, 4(a0)
	j	.LBB14_13
.LBB14_7:
	mv	s0, a7
	mv	s9, a5
	mv	s8, a6
.LBB14_8:
	mv	s1, a0
	mv	a2, s5
	call	tlsf_heap.region.Region.remove.5
	lw	a0, 24(s1)
	srli	a1, s0, 3
	not	a2, s0
	lui	a3, 524288
	srli	a4, s0, 5
	and	a1, a1, s6
	addi	a3, a3, -1
	ori	a5, a4, -2
	addi	a4, a4, -1
	srl	a2, a3, a2
	sll	a3, a5, s0
	ori	a4, a4, -2
	add	a0, a0, a1
	lw	a1, 0(a0)
	lw	a5, 4(a0)
	or	a3, a3, a2
	sll	a4, a4, s0
	or	a2, a2, a4
	and	a2, a2, a5
	and	a1, a1, a3
	sw	a1, 0(a0)
	sw	a2, 4(a0)
	lw	a0, 0(s1)
	andi	a1, s7, 2
	add	a0, a0, s2
	sw	s7, 0(a0)
	sw	s4, 4(a0)
	sw	s9, 8(a0)
	sw	s8, 12(a0)
	bnez	a1, .LBB14_10
	lw	a0, 0(s1)
	add	a1, s3, s5
	slli	a1, a1, 3
	add	a0, a0, a1
	sw	s5, 4(a0)
.LBB14_10:
	ori	a0, s3, 32
	lui	a1, 349525
	srli	a2, a0, 1
	addi	a1, a1, 1365
	or	a0, a0, a2
	srli	a2, a0, 2
	or	a0, a0, a2
	srli	a2, a0, 4
	or	a0, a0, a2
	srli	a2, a0, 8
	or	a0, a0, a2
	srli	a2, a0, 16
	or	a0, a0, a2
	not	a0, a0
	srli	a2, a0, 1
	and	a1, a1, a2
	lui	a2, 209715
	addi	a2, a2, 819
	sub	a0, a0, a1
	and	a1, a0, a2
	srli	a0, a0, 2
	and	a0, a0, a2
	lui	a2, 61681
	add	a0, a0, a1
	srli	a1, a0, 4
	add	a0, a0, a1
	lui	a1, 4112
	addi	a2, a2, -241
	and	a0, a0, a2
	li	a2, 26
	addi	a1, a1, 257
	mul	a0, a0, a1
	srli	a0, a0, 24
	sub	a2, a2, a0
	srl	a0, s3, a2
	slli	a1, a2, 5
	add	a1, a1, a0
	slli	a2, a1, 2
	add	a2, a2, s1
	lw	a3, 144(a2)
	sw	s5, 144(a2)
	lw	a2, 0(s1)
	bltz	a3, .LBB14_12
	add	s2, s2, a2
	li	a0, -1
	slli	a1, a3, 3
	sw	a3, 16(s2)
	sw	a0, 20(s2)
	add	a1, a1, a2
	sw	s5, 20(a1)
	j	.LBB14_13
.LBB14_12:
	add	a2, a2, s2
	li	a3, -1
	srli	a1, a1, 5
	li	a4, 1
	sw	a3, 16(a2)
	sw	a3, 20(a2)
	slli	a2, a1, 2
	add	a2, a2, s1
	lw	a3, 56(s1)
	lw	a5, 60(a2)
	sll	a1, a4, a1
	sll	a0, a4, a0
	or	a1, a1, a3
	or	a0, a0, a5
	sw	a1, 56(s1)
	sw	a0, 60(a2)
.LBB14_13:
	lw	ra, 44(sp)
	lw	s0, 40(sp)
	lw	s1, 36(sp)
	lw	s2, 32(sp)
	lw	s3, 28(sp)
	lw	s4, 24(sp)
	lw	s5, 20(sp)
	lw	s6, 16(sp)
	lw	s7, 12(sp)
	lw	s8, 8(sp)
	lw	s9, 4(sp)
	.cfi_restore ra
	.cfi_restore s0
	.cfi_restore s1
	.cfi_restore s2
	.cfi_restore s3
	.cfi_restore s4
	.cfi_restore s5
	.cfi_restore s6
	.cfi_restore s7
	.cfi_restore s8
	.cfi_restore s9
	addi	sp, sp, 48
	.cfi_def_cfa_offset 0
	ret
.Lfunc_end14:
	.size	tlsf_heap.fitting.merge_before.5, .Lfunc_end14-tlsf_heap.fitting.merge_before.5
	.cfi_endproc
	.section	.text.tlsf_heap.fitting.merge_both.5,"ax",@progbits
	.p2align	1
	.type	tlsf_heap.fitting.merge_both.5,@function
tlsf_heap.fitting.merge_both.5:
	.cfi_startproc
	addi	sp, sp, -48
	.cfi_def_cfa_offset 48
	sw	ra, 44(sp)
	sw	s0, 40(sp)
	sw	s1, 36(sp)
	sw	s2, 32(sp)
	sw	s3, 28(sp)
	sw	s4, 24(sp)
	sw	s5, 20(sp)
	sw	s6, 16(sp)
	sw	s7, 12(sp)
	sw	s8, 8(sp)
	sw	s9, 4(sp)
	.cfi_offset ra, -4
	.cfi_offset s0, -8
	.cfi_offset s1, -12
	.cfi_offset s2, -16
	.cfi_offset s3, -20
	.cfi_offset s4, -24
	.cfi_offset s5, -28
	.cfi_offset s6, -32
	.cfi_offset s7, -36
	.cfi_offset s8, -40
	.cfi_offset s9, -44
	mv	s9, t3
	mv	s1, a7
	mv	s2, a6
	mv	s3, a5
	mv	s4, a4
	mv	s7, a3
	mv	s0, a1
	mv	s8, a0
	srli	s6, a1, 2
	srli	a2, t3, 2
	add	a2, a2, a7
	mv	a1, s6
	call	tlsf_heap.region.Region.remove.5
	srli	a1, s7, 2
	sub	s5, s1, a1
	mv	a0, s8
	mv	a2, s5
	call	tlsf_heap.region.Region.remove.5
	add	a4, s9, s0
	lw	a7, 24(s8)
	srli	a0, s1, 3
	not	a6, s1
	lui	a3, 524288
	srli	a5, s1, 5
	add	a4, a4, s7
	andi	a0, a0, -8
	addi	a3, a3, -1
	ori	s0, a5, -2
	addi	a5, a5, -1
	addi	t4, a4, -1
	srl	a1, a3, a6
	sll	s0, s0, s1
	ori	a5, a5, -2
	srli	a6, t4, 2
	or	t1, s0, a1
	sll	s1, a5, s1
	add	t0, a6, s5
	add	a0, a0, a7
	or	s1, s1, a1
	lw	t2, 0(a0)
	lw	a5, 4(a0)
	sub	s0, t0, s6
	not	a1, s0
	srl	a1, a3, a1
	slli	a7, s5, 3
	sltu	t3, a4, s7
	and	a5, a5, s1
	srli	s1, s0, 3
	and	a3, t2, t1
	slli	a2, s0, 26
	andi	s1, s1, -8
	srli	a2, a2, 31
	sw	a3, 0(a0)
	sw	a5, 4(a0)
	addi	a0, a2, -2
	addi	a2, a2, -1
	lw	a3, 24(s8)
	sll	a0, a0, s0
	ori	a2, a2, -2
	sll	a2, a2, s0
	add	a3, a3, s1
	lw	a5, 0(a3)
	lw	s1, 4(a3)
	seqz	a4, a4
	or	a0, a0, a1
	or	a1, a1, a2
	and	a1, a1, s1
	and	a0, a0, a5
	sw	a0, 0(a3)
	sw	a1, 4(a3)
	lw	a0, 0(s8)
	add	t3, t3, s4
	andi	a1, t4, 2
	sub	a2, t3, a4
	add	a0, a0, a7
	sw	t4, 0(a0)
	sw	a2, 4(a0)
	sw	s3, 8(a0)
	sw	s2, 12(a0)
	bnez	a1, .LBB15_2
	lw	a0, 0(s8)
	slli	t0, t0, 3
	add	a0, a0, t0
	sw	s5, 4(a0)
.LBB15_2:
	ori	a0, a6, 32
	lui	a1, 349525
	srli	a2, a0, 1
	addi	a1, a1, 1365
	or	a0, a0, a2
	srli	a2, a0, 2
	or	a0, a0, a2
	srli	a2, a0, 4
	or	a0, a0, a2
	srli	a2, a0, 8
	or	a0, a0, a2
	srli	a2, a0, 16
	or	a0, a0, a2
	not	a0, a0
	srli	a2, a0, 1
	and	a1, a1, a2
	lui	a2, 209715
	addi	a2, a2, 819
	sub	a0, a0, a1
	and	a1, a0, a2
	srli	a0, a0, 2
	and	a0, a0, a2
	lui	a2, 61681
	add	a0, a0, a1
	srli	a1, a0, 4
	add	a0, a0, a1
	lui	a1, 4112
	addi	a2, a2, -241
	and	a0, a0, a2
	li	a2, 26
	addi	a1, a1, 257
	mul	a0, a0, a1
	srli	a0, a0, 24
	sub	a2, a2, a0
	srl	a0, a6, a2
	slli	a2, a2, 5
	add	a2, a2, a0
	slli	a1, a2, 2
	add	a1, a1, s8
	lw	a4, 144(a1)
	sw	s5, 144(a1)
	lw	a3, 0(s8)
	bltz	a4, .LBB15_4
	add	a7, a7, a3
	li	a0, -1
	slli	a1, a4, 3
	sw	a4, 16(a7)
	sw	a0, 20(a7)
	add	a1, a1, a3
	sw	s5, 20(a1)
	j	.LBB15_5
.LBB15_4:
	add	a3, a3, a7
	li	a1, -1
	srli	a2, a2, 5
	li	a4, 1
	sw	a1, 16(a3)
	sw	a1, 20(a3)
	slli	a1, a2, 2
	add	a1, a1, s8
	lw	a3, 56(s8)
	lw	a5, 60(a1)
	sll	a2, a4, a2
	sll	a0, a4, a0
	or	a2, a2, a3
	or	a0, a0, a5
	sw	a2, 56(s8)
	sw	a0, 60(a1)
.LBB15_5:
	lw	ra, 44(sp)
	lw	s0, 40(sp)
	lw	s1, 36(sp)
	lw	s2, 32(sp)
	lw	s3, 28(sp)
	lw	s4, 24(sp)
	lw	s5, 20(sp)
	lw	s6, 16(sp)
	lw	s7, 12(sp)
	lw	s8, 8(sp)
	lw	s9, 4(sp)
	.cfi_restore ra
	.cfi_restore s0
	.cfi_restore s1
	.cfi_restore s2
	.cfi_restore s3
	.cfi_restore s4
	.cfi_restore s5
	.cfi_restore s6
	.cfi_restore s7
	.cfi_restore s8
	.cfi_restore s9
	addi	sp, sp, 48
	.cfi_def_cfa_offset 0
	ret
.Lfunc_end15:
	.size	tlsf_heap.fitting.merge_both.5, .Lfunc_end15-tlsf_heap.fitting.merge_both.5
	.cfi_endproc
	.section	.text.tlsf_heap.fitting.merge_next.5,"ax",@progbits
	.p2align	1
	.type	tlsf_heap.fitting.merge_next.5,@function
tlsf_heap.fitting.merge_next.5:
	.cfi_startproc
	addi	sp, sp, -48
	.cfi_def_cfa_offset 48
	sw	ra, 44(sp)
	sw	s0, 40(sp)
	sw	s1, 36(sp)
	sw	s2, 32(sp)
	sw	s3, 28(sp)
	sw	s4, 24(sp)
	sw	s5, 20(sp)
	sw	s6, 16(sp)
	sw	s7, 12(sp)
	.cfi_offset ra, -4
	.cfi_offset s0, -8
	.cfi_offset s1, -12
	.cfi_offset s2, -16
	.cfi_offset s3, -20
	.cfi_offset s4, -24
	.cfi_offset s5, -28
	.cfi_offset s6, -32
	.cfi_offset s7, -36
	mv	s5, a7
	mv	s2, a6
	mv	s3, a5
	mv	s4, a4
	mv	s0, a3
	mv	s7, a1
	mv	s6, a0
	srli	s1, a1, 2
	srli	a2, a3, 2
	add	a2, a2, a7
	mv	a1, s1
	call	tlsf_heap.region.Region.remove.5
	add	s0, s0, s7
	lw	a1, 24(s6)
	lui	a2, 524288
	srli	a6, s0, 2
	addi	a3, a2, -1
	add	a7, a6, s5
	sub	a4, a7, s1
	srli	a5, a4, 3
	slli	s1, a4, 26
	not	a0, a4
	andi	a5, a5, -8
	srli	s1, s1, 31
	srl	a0, a3, a0
	add	a5, a5, a1
	addi	a1, s1, -2
	addi	s1, s1, -1
	lw	a3, 0(a5)
	lw	a2, 4(a5)
	sll	a1, a1, a4
	ori	s1, s1, -2
	sll	a4, s1, a4
	slli	s1, s5, 3
	or	a1, a1, a0
	or	a0, a0, a4
	and	a0, a0, a2
	and	a1, a1, a3
	sw	a1, 0(a5)
	sw	a0, 4(a5)
	lw	a0, 0(s6)
	sltu	a1, s0, s7
	andi	a2, s0, 2
	add	a1, a1, s4
	add	a0, a0, s1
	sw	s0, 0(a0)
	sw	a1, 4(a0)
	sw	s3, 8(a0)
	sw	s2, 12(a0)
	bnez	a2, .LBB16_2
	lw	a0, 0(s6)
	slli	a7, a7, 3
	add	a0, a0, a7
	sw	s5, 4(a0)
.LBB16_2:
	ori	a0, a6, 32
	lui	a1, 349525
	srli	a2, a0, 1
	addi	a1, a1, 1365
	or	a0, a0, a2
	srli	a2, a0, 2
	or	a0, a0, a2
	srli	a2, a0, 4
	or	a0, a0, a2
	srli	a2, a0, 8
	or	a0, a0, a2
	srli	a2, a0, 16
	or	a0, a0, a2
	not	a0, a0
	srli	a2, a0, 1
	and	a1, a1, a2
	lui	a2, 209715
	addi	a2, a2, 819
	sub	a0, a0, a1
	and	a1, a0, a2
	srli	a0, a0, 2
	and	a0, a0, a2
	lui	a2, 61681
	add	a0, a0, a1
	srli	a1, a0, 4
	add	a0, a0, a1
	lui	a1, 4112
	addi	a2, a2, -241
	and	a0, a0, a2
	li	a2, 26
	addi	a1, a1, 257
	mul	a0, a0, a1
	srli	a0, a0, 24
	sub	a2, a2, a0
	srl	a0, a6, a2
	slli	a2, a2, 5
	add	a2, a2, a0
	slli	a1, a2, 2
	add	a1, a1, s6
	lw	a4, 144(a1)
	sw	s5, 144(a1)
	lw	a3, 0(s6)
	bltz	a4, .LBB16_4
	add	s1, s1, a3
	li	a0, -1
	slli	a1, a4, 3
	sw	a4, 16(s1)
	sw	a0, 20(s1)
	add	a1, a1, a3
	sw	s5, 20(a1)
	j	.LBB16_5
.LBB16_4:
	add	a3, a3, s1
	li	a1, -1
	srli	a2, a2, 5
	li	a4, 1
	sw	a1, 16(a3)
	sw	a1, 20(a3)
	slli	a1, a2, 2
	add	a1, a1, s6
	lw	a3, 56(s6)
	lw	a5, 60(a1)
	sll	a2, a4, a2
	sll	a0, a4, a0
	or	a2, a2, a3
	or	a0, a0, a5
	sw	a2, 56(s6)
	sw	a0, 60(a1)
.LBB16_5:
	lw	ra, 44(sp)
	lw	s0, 40(sp)
	lw	s1, 36(sp)
	lw	s2, 32(sp)
	lw	s3, 28(sp)
	lw	s4, 24(sp)
	lw	s5, 20(sp)
	lw	s6, 16(sp)
	lw	s7, 12(sp)
	.cfi_restore ra
	.cfi_restore s0
	.cfi_restore s1
	.cfi_restore s2
	.cfi_restore s3
	.cfi_restore s4
	.cfi_restore s5
	.cfi_restore s6
	.cfi_restore s7
	addi	sp, sp, 48
	.cfi_def_cfa_offset 0
	ret
.Lfunc_end16:
	.size	tlsf_heap.fitting.merge_next.5, .Lfunc_end16-tlsf_heap.fitting.merge_next.5
	.cfi_endproc
	.section	.text.tlsf_heap.check.examine,"ax",@progbits
	.p2align	1
	.type	tlsf_heap.check.examine,@function
tlsf_heap.check.examine:
	.cfi_startproc
	lw	t6, 8(a0)
	addi	t5, t6, -4
	bgeu	t5, a1, .LBB17_2
	li	a0, 0
	li	a1, 0
	ret
.LBB17_2:
	addi	sp, sp, -16
	.cfi_def_cfa_offset 16
	sw	s0, 12(sp)
	sw	s1, 8(sp)
	.cfi_offset s0, -4
	.cfi_offset s1, -8
	.cfi_remember_state
	lw	t3, 24(a0)
	srli	a2, a1, 3
	andi	a2, a2, -8
	add	a4, t3, a2
	lw	a2, 4(a4)
	andi	a5, a1, 63
	addi	a3, a5, -32
	bltz	a3, .LBB17_11
	srl	a2, a2, a5
	andi	a2, a2, 1
	beqz	a2, .LBB17_12
.LBB17_4:
	lw	a6, 0(a0)
	slli	t4, a1, 3
	add	t4, t4, a6
	lw	a3, 0(t4)
	li	a0, 16
	li	a2, 0
	bltu	a3, a0, .LBB17_23
	srli	t2, a3, 2
	add	t1, t2, a1
	mv	a0, a2
	bltu	t6, t1, .LBB17_13
	slli	a0, a3, 30
	xor	a2, t1, t6
	srli	a0, a0, 31
	seqz	a2, a2
	bne	a0, a2, .LBB17_36
	lw	a0, 4(t4)
	lui	t0, 131072
	li	a7, 1
	addi	t0, t0, -8
	beqz	a1, .LBB17_14
	bltu	t5, a0, .LBB17_36
	srli	a2, a0, 3
	andi	a4, a0, 63
	sll	a5, a7, a0
	and	a2, a2, t0
	sll	s0, a7, a4
	addi	a4, a4, -32
	add	a2, a2, t3
	srli	s1, a4, 31
	srai	a4, a4, 31
	and	a4, a4, a5
	lw	a5, 0(a2)
	lw	a2, 4(a2)
	addi	s1, s1, -1
	and	s0, s0, s1
	and	a4, a4, a5
	and	a2, a2, s0
	or	a2, a2, a4
	beqz	a2, .LBB17_34
	slli	a2, a0, 3
	add	a2, a2, a6
	lw	a2, 0(a2)
	srli	a2, a2, 2
	add	a0, a0, a2
	beq	a0, a1, .LBB17_15
	j	.LBB17_36
.LBB17_11:
	lw	a3, 0(a4)
	slli	a2, a2, 1
	not	a4, a5
	srl	a3, a3, a1
	sll	a2, a2, a4
	or	a2, a2, a3
	andi	a2, a2, 1
	bnez	a2, .LBB17_4
.LBB17_12:
	li	a0, 0
.LBB17_13:
	lw	s0, 12(sp)
	lw	s1, 8(sp)
	.cfi_restore s0
	.cfi_restore s1
	addi	sp, sp, 16
	.cfi_def_cfa_offset 0
	mv	a1, a2
	ret
.LBB17_14:
	.cfi_restore_state
	.cfi_remember_state
	li	a2, -1
	bne	a0, a2, .LBB17_36
.LBB17_15:
	andi	a3, a3, 1
	bgeu	t1, t6, .LBB17_20
	bltu	t5, t1, .LBB17_36
	srli	a0, t1, 3
	andi	a2, t1, 63
	sll	a4, a7, t1
	and	a0, a0, t0
	sll	a5, a7, a2
	addi	a2, a2, -32
	add	a0, a0, t3
	srli	s1, a2, 31
	srai	a2, a2, 31
	and	a2, a2, a4
	lw	a4, 0(a0)
	lw	a0, 4(a0)
	addi	s1, s1, -1
	and	a5, a5, s1
	and	a2, a2, a4
	and	a0, a0, a5
	or	a0, a0, a2
	beqz	a0, .LBB17_33
	slli	a0, t1, 3
	add	a0, a0, a6
	lw	a4, 4(a0)
	li	a2, 0
	bne	a1, a4, .LBB17_23
	lw	a0, 0(a0)
	and	a4, a3, a0
	mv	a0, a2
	bnez	a4, .LBB17_13
.LBB17_20:
	lw	a2, 16(t4)
	lw	a0, 20(t4)
	bnez	a3, .LBB17_24
	srli	a3, t2, 29
	slli	t2, t2, 3
	addi	a1, t2, -24
	sltu	a4, a1, t2
	add	a3, a3, a4
	addi	a3, a3, -1
	beq	a0, a3, .LBB17_35
	sltu	a0, a3, a0
	bnez	a0, .LBB17_36
	j	.LBB17_38
.LBB17_23:
	mv	a0, a2
	lw	s0, 12(sp)
	lw	s1, 8(sp)
	.cfi_restore s0
	.cfi_restore s1
	addi	sp, sp, 16
	.cfi_def_cfa_offset 0
	mv	a1, a2
	ret
.LBB17_24:
	.cfi_restore_state
	.cfi_remember_state
	li	t2, -1
	beq	a2, t2, .LBB17_29
	bltu	t5, a2, .LBB17_36
	srli	a4, a2, 3
	andi	a5, a2, 63
	sll	s1, a7, a2
	and	a4, a4, t0
	sll	s0, a7, a5
	addi	a5, a5, -32
	add	a4, a4, t3
	srli	a3, a5, 31
	srai	a5, a5, 31
	and	a5, a5, s1
	lw	s1, 0(a4)
	lw	a4, 4(a4)
	addi	a3, a3, -1
	and	a3, a3, s0
	and	a5, a5, s1
	and	a3, a3, a4
	or	a3, a3, a5
	beqz	a3, .LBB17_36
	slli	a2, a2, 3
	add	a2, a2, a6
	lbu	a3, 0(a2)
	andi	a3, a3, 1
	beqz	a3, .LBB17_36
	lw	a2, 20(a2)
	bne	a1, a2, .LBB17_36
.LBB17_29:
	beq	a0, t2, .LBB17_38
	bltu	t5, a0, .LBB17_36
	srli	a2, a0, 3
	andi	a3, a0, 63
	sll	a4, a7, a0
	and	a2, a2, t0
	sll	a5, a7, a3
	addi	a3, a3, -32
	add	a2, a2, t3
	srli	s1, a3, 31
	srai	a3, a3, 31
	lw	s0, 0(a2)
	lw	a2, 4(a2)
	addi	s1, s1, -1
	and	a3, a3, a4
	and	a5, a5, s1
	and	a3, a3, s0
	and	a2, a2, a5
	or	a2, a2, a3
	beqz	a2, .LBB17_34
	slli	a0, a0, 3
	add	a6, a6, a0
	lbu	a0, 0(a6)
	andi	a0, a0, 1
	bnez	a0, .LBB17_37
.LBB17_33:
	lw	s0, 12(sp)
	lw	s1, 8(sp)
	.cfi_restore s0
	.cfi_restore s1
	addi	sp, sp, 16
	.cfi_def_cfa_offset 0
	li	a1, 0
	ret
.LBB17_34:
	.cfi_restore_state
	.cfi_remember_state
	li	a0, 0
	lw	s0, 12(sp)
	lw	s1, 8(sp)
	.cfi_restore s0
	.cfi_restore s1
	addi	sp, sp, 16
	.cfi_def_cfa_offset 0
	mv	a1, a2
	ret
.LBB17_35:
	.cfi_restore_state
	.cfi_remember_state
	sltu	a0, a1, a2
	beqz	a0, .LBB17_38
.LBB17_36:
	li	a0, 0
	lw	s0, 12(sp)
	lw	s1, 8(sp)
	.cfi_restore s0
	.cfi_restore s1
	addi	sp, sp, 16
	.cfi_def_cfa_offset 0
	li	a1, 0
	ret
.LBB17_37:
	.cfi_restore_state
	lw	a0, 16(a6)
	bne	a1, a0, .LBB17_36
.LBB17_38:
	li	a0, 1
	lw	s0, 12(sp)
	lw	s1, 8(sp)
	.cfi_restore s0
	.cfi_restore s1
	addi	sp, sp, 16
	.cfi_def_cfa_offset 0
	mv	a1, t1
	ret
.Lfunc_end17:
	.size	tlsf_heap.check.examine, .Lfunc_end17-tlsf_heap.check.examine
	.cfi_endproc
	.section	.text.tlsf_post.take_end.TakeEnd.take_slice,"ax",@progbits
	.p2align	1
	.type	tlsf_post.take_end.TakeEnd.take_slice,@function
tlsf_post.take_end.TakeEnd.take_slice:
	.cfi_startproc
	addi	sp, sp, -80
	.cfi_def_cfa_offset 80
	sw	ra, 76(sp)
	sw	s0, 72(sp)
	sw	s1, 68(sp)
	sw	s2, 64(sp)
	sw	s3, 60(sp)
	sw	s4, 56(sp)
	sw	s5, 52(sp)
	sw	s6, 48(sp)
	sw	s7, 44(sp)
	sw	s8, 40(sp)
	sw	s9, 36(sp)
	sw	s10, 32(sp)
	sw	s11, 28(sp)
	.cfi_offset ra, -4
	.cfi_offset s0, -8
	.cfi_offset s1, -12
	.cfi_offset s2, -16
	.cfi_offset s3, -20
	.cfi_offset s4, -24
	.cfi_offset s5, -28
	.cfi_offset s6, -32
	.cfi_offset s7, -36
	.cfi_offset s8, -40
	.cfi_offset s9, -44
	.cfi_offset s10, -48
	.cfi_offset s11, -52
	mv	s6, a3
	mv	s2, a2
	mv	s8, a1
	mv	s10, a0
	lw	a0, 32(a0)
	lw	a1, 36(s10)
	lw	s1, 20(s10)
	lw	s5, 24(s10)
	lw	s4, 28(s10)
	lw	s7, 16(s10)
	sltu	a2, a0, s5
	mv	a3, a2
	beq	a1, s4, .LBB18_2
	sltu	a3, a1, s4
.LBB18_2:
	srli	a4, s7, 31
	slli	a5, s1, 1
	or	a4, a4, a5
	slli	a5, s7, 1
	neg	a3, a3
	sub	a1, a1, s4
	sub	a0, a0, s5
	and	a5, a5, a3
	sub	a1, a1, a2
	and	a3, a3, a4
	add	a2, a0, a5
	add	a1, a1, a3
	sltu	a0, a2, a0
	add	a1, a1, a0
	beq	a1, s6, .LBB18_4
	sltu	a0, a1, s6
	bnez	a0, .LBB18_5
	j	.LBB18_12
.LBB18_4:
	sltu	a0, a2, s2
	beqz	a0, .LBB18_12
.LBB18_5:
	lw	a0, 0(s10)
	addi	a0, a0, 128
	li	a1, 5
	call	__atomic_load_8
	lw	s5, 24(s10)
	lw	s1, 20(s10)
	lw	s4, 28(s10)
	lw	s7, 16(s10)
	sltu	a2, a0, s5
	sw	a0, 32(s10)
	sw	a1, 36(s10)
	mv	a3, a2
	beq	a1, s4, .LBB18_7
	sltu	a3, a1, s4
.LBB18_7:
	srli	a4, s7, 31
	slli	a5, s1, 1
	or	a4, a4, a5
	slli	a5, s7, 1
	neg	a3, a3
	sub	a1, a1, s4
	sub	a0, a0, s5
	and	a5, a5, a3
	sub	a1, a1, a2
	and	a4, a4, a3
	add	a3, a0, a5
	add	a1, a1, a4
	sltu	a0, a3, a0
	add	a1, a1, a0
	beq	a1, s6, .LBB18_9
	sltu	a2, a1, s6
	beqz	a2, .LBB18_10
	j	.LBB18_11
.LBB18_9:
	sltu	a2, a3, s2
	bnez	a2, .LBB18_11
.LBB18_10:
	mv	a1, s6
	mv	a3, s2
.LBB18_11:
	mv	s2, a3
	mv	s6, a1
.LBB18_12:
	or	a0, s2, s6
	beqz	a0, .LBB18_37
	beq	s4, s1, .LBB18_15
	sltu	a0, s4, s1
	j	.LBB18_16
.LBB18_15:
	sltu	a0, s5, s7
.LBB18_16:
	addi	a0, a0, -1
	and	a1, a0, s1
	and	a0, a0, s7
	sltu	a2, s5, a0
	sub	a1, s4, a1
	sub	s0, s5, a0
	sub	a0, a1, a2
	sub	a1, s1, a0
	sltu	a2, s7, s0
	sub	s3, a1, a2
	sub	s9, s7, s0
	beq	s3, s6, .LBB18_18
	sltu	a1, s3, s6
	mv	s11, s3
	sw	s9, 12(sp)
	beqz	a1, .LBB18_19
	j	.LBB18_20
.LBB18_18:
	sltu	a1, s9, s2
	mv	s11, s3
	sw	s9, 12(sp)
	bnez	a1, .LBB18_20
.LBB18_19:
	mv	s11, s6
	mv	s9, s2
.LBB18_20:
	sw	s6, 24(sp)
	sw	s2, 20(sp)
	sw	s1, 16(sp)
	xor	a0, a0, s1
	xor	a1, s7, s0
	or	a0, a0, a1
	beqz	a0, .LBB18_25
	li	s2, 0
	li	s6, 0
	j	.LBB18_23
.LBB18_22:
	sltu	a0, s6, s11
	beqz	a0, .LBB18_25
.LBB18_23:
	add	a0, s2, s0
	lw	a1, 8(s10)
	slli	a2, s2, 3
	slli	a3, s2, 4
	add	a2, a2, a3
	slli	a3, a0, 3
	slli	a0, a0, 4
	add	a0, a0, a3
	add	a1, a1, a0
	add	a0, s8, a2
	li	a2, 24
	call	tlsf_memory_move
	addi	s2, s2, 1
	seqz	a0, s2
	add	s6, s6, a0
	bne	s6, s11, .LBB18_22
	sltu	a0, s2, s9
	bnez	a0, .LBB18_23
.LBB18_25:
	lw	a0, 24(sp)
	beq	a0, s3, .LBB18_27
	sltu	a0, s3, a0
	bnez	a0, .LBB18_28
	j	.LBB18_32
.LBB18_27:
	lw	a0, 20(sp)
	lw	a1, 12(sp)
	sltu	a0, a1, a0
	beqz	a0, .LBB18_32
.LBB18_28:
	li	s0, 0
	li	s1, 0
	slli	a0, s9, 3
	slli	a1, s9, 4
	add	a0, a0, a1
	add	s8, s8, a0
	lw	a1, 20(sp)
	sltu	a0, a1, s9
	lw	a2, 24(sp)
	sub	a0, a2, a0
	sub	s2, a0, s11
	sub	s6, a1, s9
	j	.LBB18_30
.LBB18_29:
	sltu	a0, s1, s2
	beqz	a0, .LBB18_32
.LBB18_30:
	lw	a1, 8(s10)
	slli	a0, s0, 3
	slli	a2, s0, 4
	add	a0, a0, a2
	add	a1, a1, a0
	add	a0, a0, s8
	li	a2, 24
	call	tlsf_memory_move
	addi	s0, s0, 1
	seqz	a0, s0
	add	s1, s1, a0
	bne	s1, s2, .LBB18_29
	sltu	a0, s0, s6
	bnez	a0, .LBB18_30
.LBB18_32:
	srli	a0, s7, 31
	lw	a1, 16(sp)
	slli	a1, a1, 1
	slli	s7, s7, 1
	or	a0, a0, a1
	sltu	a1, s7, s5
	sub	a0, a0, s4
	sub	a0, a0, a1
	sub	a1, s7, s5
	lw	s6, 24(sp)
	beq	s6, a0, .LBB18_34
	sltu	a2, s6, a0
	lw	s2, 20(sp)
	beqz	a2, .LBB18_35
	j	.LBB18_36
.LBB18_34:
	lw	s2, 20(sp)
	sltu	a2, s2, a1
	bnez	a2, .LBB18_36
.LBB18_35:
	snez	a2, a1
	neg	a2, a2
	sub	s4, a2, a0
	neg	s5, a1
.LBB18_36:
	add	s1, s5, s2
	lw	a0, 0(s10)
	sltu	a1, s1, s5
	add	s4, s4, s6
	add	s4, s4, a1
	li	a3, 5
	mv	a1, s1
	mv	a2, s4
	call	__atomic_store_8
	mv	s5, s1
.LBB18_37:
	sw	s5, 24(s10)
	sw	s4, 28(s10)
	mv	a0, s2
	mv	a1, s6
	lw	ra, 76(sp)
	lw	s0, 72(sp)
	lw	s1, 68(sp)
	lw	s2, 64(sp)
	lw	s3, 60(sp)
	lw	s4, 56(sp)
	lw	s5, 52(sp)
	lw	s6, 48(sp)
	lw	s7, 44(sp)
	lw	s8, 40(sp)
	lw	s9, 36(sp)
	lw	s10, 32(sp)
	lw	s11, 28(sp)
	.cfi_restore ra
	.cfi_restore s0
	.cfi_restore s1
	.cfi_restore s2
	.cfi_restore s3
	.cfi_restore s4
	.cfi_restore s5
	.cfi_restore s6
	.cfi_restore s7
	.cfi_restore s8
	.cfi_restore s9
	.cfi_restore s10
	.cfi_restore s11
	addi	sp, sp, 80
	.cfi_def_cfa_offset 0
	ret
.Lfunc_end18:
	.size	tlsf_post.take_end.TakeEnd.take_slice, .Lfunc_end18-tlsf_post.take_end.TakeEnd.take_slice
	.cfi_endproc
	.section	.text.tlsf_c.heap_calls.release_named,"ax",@progbits
	.p2align	1
	.type	tlsf_c.heap_calls.release_named,@function
tlsf_c.heap_calls.release_named:
	.cfi_startproc
	addi	sp, sp, -16
	.cfi_def_cfa_offset 16
	sw	ra, 12(sp)
	sw	s0, 8(sp)
	sw	s1, 4(sp)
	.cfi_offset ra, -4
	.cfi_offset s0, -8
	.cfi_offset s1, -12
	.cfi_remember_state
	mv	a7, a4
	lbu	a4, 8(a0)
	beqz	a4, .LBB19_31
	lw	s1, 0(a0)
	lbu	a0, 0(s1)
	beqz	a0, .LBB19_31
	lbu	a0, 16(s1)
	lw	a4, 24(s1)
	sb	zero, 0(s1)
	beqz	a0, .LBB19_7
	bne	a1, a4, .LBB19_25
	lw	a0, 56(s1)
	mv	a4, a1
	bgeu	a7, a0, .LBB19_25
	lw	a5, 72(s1)
	srli	a0, a7, 3
	andi	a0, a0, -8
	add	a5, a5, a0
	lw	a0, 4(a5)
	andi	s0, a7, 63
	addi	a4, s0, -32
	bltz	a4, .LBB19_11
	srl	a0, a0, s0
	andi	a0, a0, 1
	mv	a4, a1
	bnez	a0, .LBB19_12
	j	.LBB19_25
.LBB19_7:
	bne	a1, a4, .LBB19_25
	lw	a0, 56(s1)
	mv	a4, a1
	bgeu	a7, a0, .LBB19_25
	lw	a5, 72(s1)
	srli	a0, a7, 3
	andi	a0, a0, -8
	add	a5, a5, a0
	lw	a0, 4(a5)
	andi	s0, a7, 63
	addi	a4, s0, -32
	bltz	a4, .LBB19_17
	srl	a0, a0, s0
	j	.LBB19_18
.LBB19_11:
	lw	a4, 0(a5)
	slli	a0, a0, 1
	not	a5, s0
	srl	a4, a4, a7
	sll	a0, a0, a5
	or	a0, a0, a4
	andi	a0, a0, 1
	mv	a4, a1
	beqz	a0, .LBB19_25
.LBB19_12:
	addi	a0, s1, 48
	lw	t1, 0(a0)
	slli	t0, a7, 3
	add	s0, t1, t0
	lw	t3, 0(s0)
	andi	a5, t3, 1
	mv	a4, a1
	bnez	a5, .LBB19_25
	lw	a4, 12(s0)
	lw	a5, 8(s0)
	xor	a3, a3, a4
	xor	a2, a2, a5
	or	a2, a2, a3
	mv	a4, a1
	bnez	a2, .LBB19_25
	lw	a5, 32(s1)
	lw	a6, 36(s1)
	and	a1, a5, a6
	li	a2, -1
	beq	a1, a2, .LBB19_24
	lw	a1, 40(s1)
	lw	t4, 4(s0)
	srli	t2, t3, 2
	sub	a1, a1, t2
	andi	a2, t3, 2
	sw	a1, 40(s1)
	bnez	a2, .LBB19_26
	add	a1, t2, a7
	slli	a1, a1, 3
	add	a2, t1, a1
	lw	a1, 0(a2)
	lw	a2, 4(a2)
	bnez	a7, .LBB19_27
	j	.LBB19_28
.LBB19_17:
	lw	a4, 0(a5)
	slli	a0, a0, 1
	not	a5, s0
	srl	a4, a4, a7
	sll	a0, a0, a5
	or	a0, a0, a4
.LBB19_18:
	andi	a0, a0, 1
	mv	a4, a1
	beqz	a0, .LBB19_25
	addi	a0, s1, 48
	lw	s0, 0(a0)
	slli	t0, a7, 3
	add	t1, s0, t0
	lw	t3, 0(t1)
	andi	a5, t3, 1
	mv	a4, a1
	bnez	a5, .LBB19_25
	lw	a4, 12(t1)
	lw	a5, 8(t1)
	xor	a3, a3, a4
	xor	a2, a2, a5
	or	a2, a2, a3
	mv	a4, a1
	bnez	a2, .LBB19_25
	lw	a5, 32(s1)
	lw	a6, 36(s1)
	and	a1, a5, a6
	li	a2, -1
	beq	a1, a2, .LBB19_24
	lw	a1, 40(s1)
	lw	t4, 4(t1)
	srli	t2, t3, 2
	sub	a1, a1, t2
	andi	a2, t3, 2
	sw	a1, 40(s1)
	bnez	a2, .LBB19_34
	add	a1, t2, a7
	slli	a1, a1, 3
	add	a2, s0, a1
	lw	a1, 0(a2)
	lw	a2, 4(a2)
	bnez	a7, .LBB19_35
	j	.LBB19_36
.LBB19_24:
	li	a0, 2
	j	.LBB19_43
.LBB19_25:
	mv	a0, a1
	mv	a1, a4
	call	tlsf_heap.refusal.Refusal.of_name
	zext.b	a0, a0
	addi	a0, a0, -3
	seqz	a0, a0
	addi	a0, a0, 3
	j	.LBB19_43
.LBB19_26:
	li	a1, 0
	li	a2, 0
	beqz	a7, .LBB19_28
.LBB19_27:
	slli	a3, t4, 3
	add	t1, t1, a3
	lw	a3, 0(t1)
	andi	a4, a3, 1
	bnez	a4, .LBB19_33
.LBB19_28:
	andi	a3, a1, 1
	bnez	a3, .LBB19_32
	addi	t3, t3, 1
	ori	a0, t2, 32
	lui	a1, 349525
	lui	a2, 209715
	sw	t3, 0(s0)
	sw	t4, 4(s0)
	sw	a5, 8(s0)
	sw	a6, 12(s0)
	srli	a3, a0, 1
	lw	a4, 32(s1)
	lw	a5, 36(s1)
	or	a0, a0, a3
	srli	a3, a0, 2
	or	a0, a0, a3
	srli	a3, a0, 4
	addi	a4, a4, 1
	or	a0, a0, a3
	seqz	a3, a4
	add	a3, a3, a5
	srli	a5, a0, 8
	or	a0, a0, a5
	lui	a5, 61681
	addi	a1, a1, 1365
	sw	a4, 32(s1)
	sw	a3, 36(s1)
	srli	a3, a0, 16
	or	a0, a0, a3
	not	a0, a0
	srli	a3, a0, 1
	and	a1, a1, a3
	lui	a3, 4112
	addi	a2, a2, 819
	sub	a0, a0, a1
	and	a1, a0, a2
	srli	a0, a0, 2
	and	a0, a0, a2
	li	a2, 26
	addi	a4, a5, -241
	addi	a3, a3, 257
	add	a0, a0, a1
	srli	a1, a0, 4
	add	a0, a0, a1
	and	a0, a0, a4
	mul	a0, a0, a3
	srli	a0, a0, 24
	sub	a2, a2, a0
	srl	a1, t2, a2
	slli	a2, a2, 5
	add	a2, a2, a1
	slli	a0, a2, 2
	add	a0, a0, s1
	lw	a4, 192(a0)
	sw	a7, 192(a0)
	lw	a3, 48(s1)
	bgez	a4, .LBB19_38
	li	a0, 0
	add	a3, a3, t0
	li	a4, -1
	srli	a2, a2, 5
	li	a5, 1
	j	.LBB19_42
.LBB19_31:
	li	a0, 0
	lw	ra, 12(sp)
	lw	s0, 8(sp)
	lw	s1, 4(sp)
	.cfi_restore ra
	.cfi_restore s0
	.cfi_restore s1
	addi	sp, sp, 16
	.cfi_def_cfa_offset 0
	tail	tlsf_c.call_fault.CallFault.refusal
.LBB19_32:
	.cfi_restore_state
	addi	a3, a5, 1
	seqz	a4, a3
	add	a4, a4, a6
	sw	a3, 32(s1)
	sw	a4, 36(s1)
	mv	a3, t3
	mv	a4, t4
	call	tlsf_heap.fitting.merge_next.5
	li	a0, 0
	j	.LBB19_43
.LBB19_33:
	lw	a4, 4(t1)
	addi	t0, a5, 1
	seqz	s0, t0
	add	s0, s0, a6
	sw	t0, 32(s1)
	sw	s0, 36(s1)
	call	tlsf_heap.fitting.merge_before.5
	li	a0, 0
	j	.LBB19_43
.LBB19_34:
	li	a1, 0
	li	a2, 0
	beqz	a7, .LBB19_36
.LBB19_35:
	slli	a3, t4, 3
	add	s0, s0, a3
	lw	a3, 0(s0)
	andi	a4, a3, 1
	bnez	a4, .LBB19_40
.LBB19_36:
	andi	a3, a1, 1
	bnez	a3, .LBB19_39
	addi	t3, t3, 1
	ori	a0, t2, 16
	lui	a1, 349525
	lui	a2, 209715
	sw	t3, 0(t1)
	sw	t4, 4(t1)
	sw	a5, 8(t1)
	sw	a6, 12(t1)
	srli	a3, a0, 1
	lw	a4, 32(s1)
	lw	a5, 36(s1)
	or	a0, a0, a3
	srli	a3, a0, 2
	or	a0, a0, a3
	srli	a3, a0, 4
	addi	a4, a4, 1
	or	a0, a0, a3
	seqz	a3, a4
	add	a3, a3, a5
	srli	a5, a0, 8
	or	a0, a0, a5
	lui	a5, 61681
	addi	a1, a1, 1365
	sw	a4, 32(s1)
	sw	a3, 36(s1)
	srli	a3, a0, 16
	or	a0, a0, a3
	not	a0, a0
	srli	a3, a0, 1
	and	a1, a1, a3
	lui	a3, 4112
	addi	a2, a2, 819
	sub	a0, a0, a1
	and	a1, a0, a2
	srli	a0, a0, 2
	and	a0, a0, a2
	li	a2, 27
	addi	a4, a5, -241
	addi	a3, a3, 257
	add	a0, a0, a1
	srli	a1, a0, 4
	add	a0, a0, a1
	and	a0, a0, a4
	mul	a0, a0, a3
	srli	a0, a0, 24
	sub	a2, a2, a0
	srl	a1, t2, a2
	slli	a2, a2, 4
	add	a2, a2, a1
	slli	a0, a2, 2
	add	a0, a0, s1
	lw	a4, 192(a0)
	sw	a7, 192(a0)
	lw	a3, 48(s1)
	bltz	a4, .LBB19_41
.LBB19_38:
	li	a0, 0
	add	t0, t0, a3
	li	a1, -1
	sw	a4, 16(t0)
	sw	a1, 20(t0)
	slli	a4, a4, 3
	add	a3, a3, a4
	sw	a7, 20(a3)
	j	.LBB19_43
.LBB19_39:
	addi	a3, a5, 1
	seqz	a4, a3
	add	a4, a4, a6
	sw	a3, 32(s1)
	sw	a4, 36(s1)
	mv	a3, t3
	mv	a4, t4
	call	tlsf_heap.fitting.merge_next.4
	li	a0, 0
	j	.LBB19_43
.LBB19_40:
	lw	a4, 4(s0)
	addi	t0, a5, 1
	seqz	s0, t0
	add	s0, s0, a6
	sw	t0, 32(s1)
	sw	s0, 36(s1)
	call	tlsf_heap.fitting.merge_before.4
	li	a0, 0
	j	.LBB19_43
.LBB19_41:
	li	a0, 0
	add	a3, a3, t0
	li	a4, -1
	srli	a2, a2, 4
	li	a5, 1
	andi	a1, a1, 15
.LBB19_42:
	sw	a4, 16(a3)
	sw	a4, 20(a3)
	slli	a3, a2, 2
	add	a3, a3, s1
	lw	a4, 104(s1)
	lw	s0, 108(a3)
	sll	a2, a5, a2
	sll	a1, a5, a1
	or	a2, a2, a4
	or	a1, a1, s0
	sw	a2, 104(s1)
	sw	a1, 108(a3)
.LBB19_43:
	li	a1, 1
	sb	a1, 0(s1)
	lw	ra, 12(sp)
	lw	s0, 8(sp)
	lw	s1, 4(sp)
	.cfi_restore ra
	.cfi_restore s0
	.cfi_restore s1
	addi	sp, sp, 16
	.cfi_def_cfa_offset 0
	ret
.Lfunc_end19:
	.size	tlsf_c.heap_calls.release_named, .Lfunc_end19-tlsf_c.heap_calls.release_named
	.cfi_endproc
	.section	.text.unlikely.tlsf_heap.refusal.Refusal.of_name,"ax",@progbits
	.p2align	1
	.type	tlsf_heap.refusal.Refusal.of_name,@function
tlsf_heap.refusal.Refusal.of_name:
	.cfi_startproc
	xor	a0, a0, a1
	seqz	a0, a0
	addi	a0, a0, 2
	ret
.Lfunc_end20:
	.size	tlsf_heap.refusal.Refusal.of_name, .Lfunc_end20-tlsf_heap.refusal.Refusal.of_name
	.cfi_endproc
	.section	.text.std_alloc.boxed.Box.new.91a8e04f462e8cea,"ax",@progbits
	.p2align	1
	.type	std_alloc.boxed.Box.new.91a8e04f462e8cea,@function
std_alloc.boxed.Box.new.91a8e04f462e8cea:
	.cfi_startproc
	addi	sp, sp, -80
	.cfi_def_cfa_offset 80
	sw	ra, 76(sp)
	sw	s0, 72(sp)
	sw	s1, 68(sp)
	sw	s2, 64(sp)
	sw	s3, 60(sp)
	.cfi_offset ra, -4
	.cfi_offset s0, -8
	.cfi_offset s1, -12
	.cfi_offset s2, -16
	.cfi_offset s3, -20
	mv	s0, a0
	lbu	s2, 0(a1)
	lbu	s3, 1(a1)
	addi	a1, a1, 8
	mv	a0, sp
	li	a2, 40
	call	tlsf_memory_cpy
	addi	a0, sp, 40
	li	a1, 48
	li	a2, 8
	call	tlsf_memory_alloc
	lw	a0, 40(sp)
	andi	a0, a0, 1
	beqz	a0, .LBB21_2
	lw	s1, 48(sp)
	sb	s2, 0(s1)
	sb	s3, 1(s1)
	addi	a0, s1, 8
	mv	a1, sp
	li	a2, 40
	call	tlsf_memory_cpy
	addi	a0, s0, 16
	li	a2, 40
	li	a1, 0
	call	tlsf_memory_set
	li	a0, 0
	j	.LBB21_3
.LBB21_2:
	slli	s3, s3, 8
	or	s1, s3, s2
	addi	a0, s0, 16
	mv	a1, sp
	li	a2, 40
	call	tlsf_memory_cpy
	li	a0, 1
.LBB21_3:
	sb	zero, 4(s0)
	sb	zero, 5(s0)
	sb	zero, 6(s0)
	sb	zero, 7(s0)
	sb	a0, 0(s0)
	sb	zero, 1(s0)
	sb	zero, 2(s0)
	sb	zero, 3(s0)
	srli	a0, s1, 24
	srli	a1, s1, 16
	srli	a2, s1, 8
	sb	s1, 8(s0)
	sb	a2, 9(s0)
	sb	a1, 10(s0)
	sb	a0, 11(s0)
	sb	zero, 12(s0)
	sb	zero, 13(s0)
	sb	zero, 14(s0)
	sb	zero, 15(s0)
	lw	ra, 76(sp)
	lw	s0, 72(sp)
	lw	s1, 68(sp)
	lw	s2, 64(sp)
	lw	s3, 60(sp)
	.cfi_restore ra
	.cfi_restore s0
	.cfi_restore s1
	.cfi_restore s2
	.cfi_restore s3
	addi	sp, sp, 80
	.cfi_def_cfa_offset 0
	ret
.Lfunc_end21:
	.size	std_alloc.boxed.Box.new.91a8e04f462e8cea, .Lfunc_end21-std_alloc.boxed.Box.new.91a8e04f462e8cea
	.cfi_endproc
	.section	.text.rtrb.release.drop_slow.23d795680250cb0d,"ax",@progbits
	.p2align	1
	.type	rtrb.release.drop_slow.23d795680250cb0d,@function
rtrb.release.drop_slow.23d795680250cb0d:
	.cfi_startproc
	addi	sp, sp, -48
	.cfi_def_cfa_offset 48
	sw	ra, 44(sp)
	sw	s0, 40(sp)
	sw	s1, 36(sp)
	sw	s2, 32(sp)
	sw	s3, 28(sp)
	sw	s4, 24(sp)
	sw	s5, 20(sp)
	sw	s6, 16(sp)
	sw	s7, 12(sp)
	.cfi_offset ra, -4
	.cfi_offset s0, -8
	.cfi_offset s1, -12
	.cfi_offset s2, -16
	.cfi_offset s3, -20
	.cfi_offset s4, -24
	.cfi_offset s5, -28
	.cfi_offset s6, -32
	.cfi_offset s7, -36
	.cfi_remember_state
	mv	s7, a3
	mv	s6, a2
	mv	s2, a1
	mv	s3, a0
	li	a1, 5
	call	__atomic_load_8
	mv	s0, a0
	mv	s1, a1
	addi	a0, s3, 128
	li	a1, 5
	call	__atomic_load_8
	mv	s4, a0
	mv	s5, a1
	xor	a0, s1, a1
	xor	a1, s0, s4
	or	a0, a0, a1
	bnez	a0, .LBB22_2
.LBB22_1:
	mv	a0, s2
	call	tlsf_memory_dealloc
	mv	a0, s3
	lw	ra, 44(sp)
	lw	s0, 40(sp)
	lw	s1, 36(sp)
	lw	s2, 32(sp)
	lw	s3, 28(sp)
	lw	s4, 24(sp)
	lw	s5, 20(sp)
	lw	s6, 16(sp)
	lw	s7, 12(sp)
	.cfi_restore ra
	.cfi_restore s0
	.cfi_restore s1
	.cfi_restore s2
	.cfi_restore s3
	.cfi_restore s4
	.cfi_restore s5
	.cfi_restore s6
	.cfi_restore s7
	addi	sp, sp, 48
	.cfi_def_cfa_offset 0
	tail	tlsf_memory_dealloc
.LBB22_2:
	.cfi_restore_state
	srli	a0, s6, 31
	slli	s7, s7, 1
	slli	a1, s6, 1
	or	a0, s7, a0
	seqz	a2, a1
	sub	s6, a0, a2
	addi	s7, a1, -1
	j	.LBB22_5
.LBB22_3:
	sltu	a0, s1, s6
.LBB22_4:
	addi	s0, s0, 1
	neg	a0, a0
	seqz	a1, s0
	add	a1, a1, s1
	and	s1, a0, a1
	and	s0, s0, a0
	li	a3, 5
	mv	a0, s3
	mv	a1, s0
	mv	a2, s1
	call	__atomic_store_8
	xor	a0, s1, s5
	xor	a1, s0, s4
	or	a0, a0, a1
	beqz	a0, .LBB22_1
.LBB22_5:
	bne	s1, s6, .LBB22_3
	sltu	a0, s0, s7
	j	.LBB22_4
.Lfunc_end22:
	.size	rtrb.release.drop_slow.23d795680250cb0d, .Lfunc_end22-rtrb.release.drop_slow.23d795680250cb0d
	.cfi_endproc
	.section	.text.std_alloc.vec.Vec.drop.7ac45d8413b9ad54,"ax",@progbits
	.p2align	1
	.type	std_alloc.vec.Vec.drop.7ac45d8413b9ad54,@function
std_alloc.vec.Vec.drop.7ac45d8413b9ad54:
	.cfi_startproc
	addi	sp, sp, -160
	.cfi_def_cfa_offset 160
	sw	ra, 156(sp)
	sw	s0, 152(sp)
	sw	s1, 148(sp)
	sw	s2, 144(sp)
	sw	s3, 140(sp)
	sw	s4, 136(sp)
	sw	s5, 132(sp)
	sw	s6, 128(sp)
	sw	s7, 124(sp)
	sw	s8, 120(sp)
	sw	s9, 116(sp)
	sw	s10, 112(sp)
	sw	s11, 108(sp)
	.cfi_offset ra, -4
	.cfi_offset s0, -8
	.cfi_offset s1, -12
	.cfi_offset s2, -16
	.cfi_offset s3, -20
	.cfi_offset s4, -24
	.cfi_offset s5, -28
	.cfi_offset s6, -32
	.cfi_offset s7, -36
	.cfi_offset s8, -40
	.cfi_offset s9, -44
	.cfi_offset s10, -48
	.cfi_offset s11, -52
	.cfi_remember_state
	lbu	a1, 0(a0)
	lbu	a2, 1(a0)
	lbu	t0, 2(a0)
	lbu	t1, 3(a0)
	lbu	a6, 12(a0)
	lbu	s1, 13(a0)
	lbu	s0, 14(a0)
	lbu	a5, 15(a0)
	slli	a2, a2, 8
	or	a7, a2, a1
	lbu	a2, 8(a0)
	lbu	a1, 9(a0)
	lbu	a3, 10(a0)
	lbu	a4, 11(a0)
	slli	t0, t0, 16
	slli	t1, t1, 24
	slli	s1, s1, 8
	slli	s0, s0, 16
	slli	a5, a5, 24
	slli	a1, a1, 8
	or	t0, t1, t0
	or	a6, s1, a6
	or	a5, a5, s0
	or	t1, a1, a2
	lbu	a2, 20(a0)
	lbu	s0, 21(a0)
	lbu	s1, 22(a0)
	lbu	a1, 23(a0)
	slli	a3, a3, 16
	slli	a4, a4, 24
	slli	s0, s0, 8
	slli	s1, s1, 16
	slli	a1, a1, 24
	or	a3, a3, a4
	or	a2, a2, s0
	or	a1, a1, s1
	lbu	a4, 17(a0)
	lbu	s1, 16(a0)
	lbu	s0, 18(a0)
	lbu	a0, 19(a0)
	slli	a4, a4, 8
	or	a4, a4, s1
	or	s3, t0, a7
	or	s8, a5, a6
	or	s6, a3, t1
	or	s5, a1, a2
	slli	s0, s0, 16
	slli	a0, a0, 24
	or	a0, a0, s0
	or	a1, s6, s8
	or	s7, a0, a4
	beqz	a1, .LBB23_5
	li	s10, 0
	li	s9, 0
	addi	s4, sp, 16
	addi	s2, sp, 64
	j	.LBB23_3
.LBB23_2:
	sltu	a0, s9, s8
	beqz	a0, .LBB23_5
.LBB23_3:
	slli	a0, s10, 3
	add	a0, a0, s3
	lbu	a1, 1(a0)
	lbu	a2, 2(a0)
	lbu	a3, 3(a0)
	lbu	a0, 0(a0)
	slli	a1, a1, 8
	slli	a2, a2, 16
	slli	a3, a3, 24
	or	a0, a0, a1
	or	a2, a2, a3
	or	s0, a2, a0
	lbu	s1, 0(s0)
	lbu	s11, 1(s0)
	addi	a1, s0, 8
	li	a2, 40
	mv	a0, s4
	call	tlsf_memory_cpy
	mv	a0, s0
	call	tlsf_memory_dealloc
	sw	zero, 56(sp)
	sw	zero, 60(sp)
	sb	s1, 56(sp)
	sb	s11, 57(sp)
	li	a2, 40
	mv	a0, s2
	mv	a1, s4
	call	tlsf_memory_cpy
	addi	a0, sp, 56
	call	tlsf_c.tlsf_c.any_end.AnyEnd.Destruct.drop
	addi	s10, s10, 1
	seqz	a0, s10
	add	s9, s9, a0
	bne	s9, s8, .LBB23_2
	sltu	a0, s10, s6
	bnez	a0, .LBB23_3
.LBB23_5:
	or	a0, s7, s5
	beqz	a0, .LBB23_7
	mv	a0, s3
	lw	ra, 156(sp)
	lw	s0, 152(sp)
	lw	s1, 148(sp)
	lw	s2, 144(sp)
	lw	s3, 140(sp)
	lw	s4, 136(sp)
	lw	s5, 132(sp)
	lw	s6, 128(sp)
	lw	s7, 124(sp)
	lw	s8, 120(sp)
	lw	s9, 116(sp)
	lw	s10, 112(sp)
	lw	s11, 108(sp)
	.cfi_restore ra
	.cfi_restore s0
	.cfi_restore s1
	.cfi_restore s2
	.cfi_restore s3
	.cfi_restore s4
	.cfi_restore s5
	.cfi_restore s6
	.cfi_restore s7
	.cfi_restore s8
	.cfi_restore s9
	.cfi_restore s10
	.cfi_restore s11
	addi	sp, sp, 160
	.cfi_def_cfa_offset 0
	tail	tlsf_memory_dealloc
.LBB23_7:
	.cfi_restore_state
	lw	ra, 156(sp)
	lw	s0, 152(sp)
	lw	s1, 148(sp)
	lw	s2, 144(sp)
	lw	s3, 140(sp)
	lw	s4, 136(sp)
	lw	s5, 132(sp)
	lw	s6, 128(sp)
	lw	s7, 124(sp)
	lw	s8, 120(sp)
	lw	s9, 116(sp)
	lw	s10, 112(sp)
	lw	s11, 108(sp)
	.cfi_restore ra
	.cfi_restore s0
	.cfi_restore s1
	.cfi_restore s2
	.cfi_restore s3
	.cfi_restore s4
	.cfi_restore s5
	.cfi_restore s6
	.cfi_restore s7
	.cfi_restore s8
	.cfi_restore s9
	.cfi_restore s10
	.cfi_restore s11
	addi	sp, sp, 160
	.cfi_def_cfa_offset 0
	ret
.Lfunc_end23:
	.size	std_alloc.vec.Vec.drop.7ac45d8413b9ad54, .Lfunc_end23-std_alloc.vec.Vec.drop.7ac45d8413b9ad54
	.cfi_endproc
	.section	.text.std_alloc.arc.Arc.drop.c4a047e811255370,"ax",@progbits
	.p2align	1
	.type	std_alloc.arc.Arc.drop.c4a047e811255370,@function
std_alloc.arc.Arc.drop.c4a047e811255370:
	.cfi_startproc
	addi	sp, sp, -16
	.cfi_def_cfa_offset 16
	sw	ra, 12(sp)
	sw	s0, 8(sp)
	sw	s1, 4(sp)
	sw	s2, 0(sp)
	.cfi_offset ra, -4
	.cfi_offset s0, -8
	.cfi_offset s1, -12
	.cfi_offset s2, -16
	.cfi_remember_state
	mv	s0, a0
	li	a1, 1
	li	a3, 5
	li	a2, 0
	call	__atomic_fetch_sub_8
	xori	a0, a0, 1
	or	a0, a0, a1
	bnez	a0, .LBB24_2
	lbu	a0, 41(s0)
	lbu	a1, 42(s0)
	lbu	a2, 43(s0)
	lbu	a3, 40(s0)
	slli	a0, a0, 8
	slli	a1, a1, 16
	slli	a2, a2, 24
	or	a0, a0, a3
	or	a1, a1, a2
	lbu	a2, 57(s0)
	lbu	a3, 56(s0)
	lbu	a4, 58(s0)
	lbu	a5, 59(s0)
	slli	a2, a2, 8
	or	a2, a2, a3
	slli	a4, a4, 16
	slli	a5, a5, 24
	or	a4, a4, a5
	or	s1, a1, a0
	or	s2, a4, a2
	mv	a0, s0
	call	tlsf_memory_dealloc
	mv	a0, s1
	call	tlsf_memory_dealloc
	mv	a0, s2
	lw	ra, 12(sp)
	lw	s0, 8(sp)
	lw	s1, 4(sp)
	lw	s2, 0(sp)
	.cfi_restore ra
	.cfi_restore s0
	.cfi_restore s1
	.cfi_restore s2
	addi	sp, sp, 16
	.cfi_def_cfa_offset 0
	tail	tlsf_memory_dealloc
.LBB24_2:
	.cfi_restore_state
	lw	ra, 12(sp)
	lw	s0, 8(sp)
	lw	s1, 4(sp)
	lw	s2, 0(sp)
	.cfi_restore ra
	.cfi_restore s0
	.cfi_restore s1
	.cfi_restore s2
	addi	sp, sp, 16
	.cfi_def_cfa_offset 0
	ret
.Lfunc_end24:
	.size	std_alloc.arc.Arc.drop.c4a047e811255370, .Lfunc_end24-std_alloc.arc.Arc.drop.c4a047e811255370
	.cfi_endproc
	.section	.text.std_alloc.boxed.Box.drop.7d8ec8058c3633cd,"ax",@progbits
	.p2align	1
	.type	std_alloc.boxed.Box.drop.7d8ec8058c3633cd,@function
std_alloc.boxed.Box.drop.7d8ec8058c3633cd:
	.cfi_startproc
	addi	sp, sp, -112
	.cfi_def_cfa_offset 112
	sw	ra, 108(sp)
	sw	s0, 104(sp)
	sw	s1, 100(sp)
	sw	s2, 96(sp)
	.cfi_offset ra, -4
	.cfi_offset s0, -8
	.cfi_offset s1, -12
	.cfi_offset s2, -16
	mv	s0, a0
	lbu	s1, 0(a0)
	lbu	s2, 1(a0)
	addi	a1, a0, 8
	addi	a0, sp, 8
	li	a2, 40
	call	tlsf_memory_cpy
	mv	a0, s0
	call	tlsf_memory_dealloc
	sw	zero, 48(sp)
	sw	zero, 52(sp)
	sb	s1, 48(sp)
	sb	s2, 49(sp)
	addi	a0, sp, 56
	addi	a1, sp, 8
	li	a2, 40
	call	tlsf_memory_cpy
	addi	a0, sp, 48
	call	tlsf_c.tlsf_c.any_end.AnyEnd.Destruct.drop
	lw	ra, 108(sp)
	lw	s0, 104(sp)
	lw	s1, 100(sp)
	lw	s2, 96(sp)
	.cfi_restore ra
	.cfi_restore s0
	.cfi_restore s1
	.cfi_restore s2
	addi	sp, sp, 112
	.cfi_def_cfa_offset 0
	ret
.Lfunc_end25:
	.size	std_alloc.boxed.Box.drop.7d8ec8058c3633cd, .Lfunc_end25-std_alloc.boxed.Box.drop.7d8ec8058c3633cd
	.cfi_endproc
	.section	.text.tlsf_c.tlsf_c.any_end.AnyEnd.Destruct.drop,"ax",@progbits
	.p2align	1
	.type	tlsf_c.tlsf_c.any_end.AnyEnd.Destruct.drop,@function
tlsf_c.tlsf_c.any_end.AnyEnd.Destruct.drop:
	.cfi_startproc
	addi	sp, sp, -160
	.cfi_def_cfa_offset 160
	sw	ra, 156(sp)
	sw	s0, 152(sp)
	sw	s1, 148(sp)
	sw	s2, 144(sp)
	sw	s3, 140(sp)
	sw	s4, 136(sp)
	sw	s5, 132(sp)
	sw	s6, 128(sp)
	sw	s7, 124(sp)
	sw	s8, 120(sp)
	sw	s9, 116(sp)
	sw	s10, 112(sp)
	sw	s11, 108(sp)
	.cfi_offset ra, -4
	.cfi_offset s0, -8
	.cfi_offset s1, -12
	.cfi_offset s2, -16
	.cfi_offset s3, -20
	.cfi_offset s4, -24
	.cfi_offset s5, -28
	.cfi_offset s6, -32
	.cfi_offset s7, -36
	.cfi_offset s8, -40
	.cfi_offset s9, -44
	.cfi_offset s10, -48
	.cfi_offset s11, -52
	.cfi_remember_state
	lbu	a2, 9(a0)
	lbu	a3, 8(a0)
	lbu	a1, 0(a0)
	lbu	a4, 10(a0)
	slli	a2, a2, 8
	or	a2, a2, a3
	lbu	a3, 11(a0)
	lbu	a5, 24(a0)
	lbu	s1, 25(a0)
	lbu	s0, 26(a0)
	slli	a4, a4, 16
	slli	a3, a3, 24
	or	a3, a3, a4
	lbu	a4, 27(a0)
	slli	s1, s1, 8
	or	a5, a5, s1
	slli	s0, s0, 16
	slli	a4, a4, 24
	or	a4, a4, s0
	or	s1, a3, a2
	li	a2, 1
	or	s2, a4, a5
	blt	a2, a1, .LBB26_3
	lbu	a2, 17(a0)
	lbu	a3, 18(a0)
	lbu	a4, 19(a0)
	lbu	a5, 16(a0)
	slli	a2, a2, 8
	slli	a3, a3, 16
	slli	a4, a4, 24
	or	a2, a2, a5
	or	a3, a3, a4
	lbu	a4, 29(a0)
	lbu	a5, 28(a0)
	lbu	s0, 30(a0)
	lbu	a0, 31(a0)
	slli	a4, a4, 8
	or	a4, a4, a5
	slli	s0, s0, 16
	slli	a0, a0, 24
	or	a0, a0, s0
	or	s0, a3, a2
	or	s3, a0, a4
	bnez	a1, .LBB26_12
	addi	a0, s1, 256
	li	a1, 1
	li	a3, 5
	li	a2, 0
	call	__atomic_exchange_8
	or	a0, a0, a1
	bnez	a0, .LBB26_13
	j	.LBB26_17
.LBB26_3:
	li	a2, 2
	bne	a1, a2, .LBB26_14
	lbu	a6, 36(a0)
	lbu	a2, 37(a0)
	lbu	a3, 38(a0)
	lbu	a4, 39(a0)
	lbu	a5, 32(a0)
	lbu	s0, 33(a0)
	lbu	a7, 34(a0)
	lbu	a1, 35(a0)
	slli	a2, a2, 8
	slli	a3, a3, 16
	slli	a4, a4, 24
	slli	s0, s0, 8
	or	a6, a2, a6
	or	t0, a4, a3
	or	a5, a5, s0
	lbu	a4, 44(a0)
	lbu	s0, 45(a0)
	lbu	a2, 46(a0)
	lbu	a3, 47(a0)
	slli	a7, a7, 16
	slli	a1, a1, 24
	slli	s0, s0, 8
	slli	a2, a2, 16
	slli	a3, a3, 24
	or	a1, a1, a7
	or	s6, s0, a4
	or	s7, a3, a2
	lbu	a2, 41(a0)
	lbu	a3, 40(a0)
	lbu	a4, 42(a0)
	lbu	a0, 43(a0)
	slli	a2, a2, 8
	or	s8, a2, a3
	or	s4, t0, a6
	or	s5, a1, a5
	slli	a4, a4, 16
	slli	a0, a0, 24
	or	s9, a0, a4
	li	a1, 1
	li	a3, 5
	mv	a0, s1
	li	a2, 0
	call	__atomic_fetch_sub_8
	xori	a0, a0, 1
	or	a0, a0, a1
	bnez	a0, .LBB26_6
	lbu	a0, 41(s1)
	lbu	a1, 42(s1)
	lbu	a2, 43(s1)
	lbu	a3, 40(s1)
	slli	a0, a0, 8
	slli	a1, a1, 16
	slli	a2, a2, 24
	or	a0, a0, a3
	or	a1, a1, a2
	lbu	a2, 57(s1)
	lbu	a3, 56(s1)
	lbu	a4, 58(s1)
	lbu	a5, 59(s1)
	slli	a2, a2, 8
	or	a2, a2, a3
	slli	a4, a4, 16
	slli	a5, a5, 24
	or	a4, a4, a5
	or	s0, a1, a0
	or	s3, a4, a2
	mv	a0, s1
	call	tlsf_memory_dealloc
	mv	a0, s0
	call	tlsf_memory_dealloc
	mv	a0, s3
	call	tlsf_memory_dealloc
.LBB26_6:
	or	s6, s7, s6
	or	a0, s5, s4
	or	s7, s9, s8
	beqz	a0, .LBB26_11
	li	s10, 0
	li	s9, 0
	addi	s8, sp, 16
	addi	s3, sp, 64
	j	.LBB26_9
.LBB26_8:
	sltu	a0, s9, s4
	beqz	a0, .LBB26_11
.LBB26_9:
	slli	a0, s10, 3
	add	a0, a0, s2
	lbu	a1, 1(a0)
	lbu	a2, 2(a0)
	lbu	a3, 3(a0)
	lbu	a0, 0(a0)
	slli	a1, a1, 8
	slli	a2, a2, 16
	slli	a3, a3, 24
	or	a0, a0, a1
	or	a2, a2, a3
	or	s0, a2, a0
	lbu	s1, 0(s0)
	lbu	s11, 1(s0)
	addi	a1, s0, 8
	li	a2, 40
	mv	a0, s8
	call	tlsf_memory_cpy
	mv	a0, s0
	call	tlsf_memory_dealloc
	sw	zero, 56(sp)
	sw	zero, 60(sp)
	sb	s1, 56(sp)
	sb	s11, 57(sp)
	li	a2, 40
	mv	a0, s3
	mv	a1, s8
	call	tlsf_memory_cpy
	addi	a0, sp, 56
	call	tlsf_c.tlsf_c.any_end.AnyEnd.Destruct.drop
	addi	s10, s10, 1
	seqz	a0, s10
	add	s9, s9, a0
	bne	s9, s4, .LBB26_8
	sltu	a0, s10, s5
	bnez	a0, .LBB26_9
.LBB26_11:
	or	a0, s7, s6
	bnez	a0, .LBB26_16
	j	.LBB26_17
.LBB26_12:
	addi	a0, s1, 256
	li	a1, 1
	li	a3, 5
	li	a2, 0
	call	__atomic_exchange_8
	or	a0, a0, a1
	beqz	a0, .LBB26_17
.LBB26_13:
	mv	a0, s1
	mv	a1, s0
	mv	a2, s2
	mv	a3, s3
	lw	ra, 156(sp)
	lw	s0, 152(sp)
	lw	s1, 148(sp)
	lw	s2, 144(sp)
	lw	s3, 140(sp)
	lw	s4, 136(sp)
	lw	s5, 132(sp)
	lw	s6, 128(sp)
	lw	s7, 124(sp)
	lw	s8, 120(sp)
	lw	s9, 116(sp)
	lw	s10, 112(sp)
	lw	s11, 108(sp)
	.cfi_restore ra
	.cfi_restore s0
	.cfi_restore s1
	.cfi_restore s2
	.cfi_restore s3
	.cfi_restore s4
	.cfi_restore s5
	.cfi_restore s6
	.cfi_restore s7
	.cfi_restore s8
	.cfi_restore s9
	.cfi_restore s10
	.cfi_restore s11
	addi	sp, sp, 160
	.cfi_def_cfa_offset 0
	tail	rtrb.release.drop_slow.23d795680250cb0d
.LBB26_14:
	.cfi_restore_state
	.cfi_remember_state
	li	a1, 1
	li	a3, 5
	mv	a0, s1
	li	a2, 0
	call	__atomic_fetch_sub_8
	xori	a0, a0, 1
	or	a0, a0, a1
	bnez	a0, .LBB26_17
	lbu	a0, 41(s1)
	lbu	a1, 42(s1)
	lbu	a2, 43(s1)
	lbu	a3, 40(s1)
	slli	a0, a0, 8
	slli	a1, a1, 16
	slli	a2, a2, 24
	or	a0, a0, a3
	or	a1, a1, a2
	lbu	a2, 57(s1)
	lbu	a3, 56(s1)
	lbu	a4, 58(s1)
	lbu	a5, 59(s1)
	slli	a2, a2, 8
	or	a2, a2, a3
	slli	a4, a4, 16
	slli	a5, a5, 24
	or	a4, a4, a5
	or	s0, a1, a0
	or	s2, a4, a2
	mv	a0, s1
	call	tlsf_memory_dealloc
	mv	a0, s0
	call	tlsf_memory_dealloc
.LBB26_16:
	mv	a0, s2
	lw	ra, 156(sp)
	lw	s0, 152(sp)
	lw	s1, 148(sp)
	lw	s2, 144(sp)
	lw	s3, 140(sp)
	lw	s4, 136(sp)
	lw	s5, 132(sp)
	lw	s6, 128(sp)
	lw	s7, 124(sp)
	lw	s8, 120(sp)
	lw	s9, 116(sp)
	lw	s10, 112(sp)
	lw	s11, 108(sp)
	.cfi_restore ra
	.cfi_restore s0
	.cfi_restore s1
	.cfi_restore s2
	.cfi_restore s3
	.cfi_restore s4
	.cfi_restore s5
	.cfi_restore s6
	.cfi_restore s7
	.cfi_restore s8
	.cfi_restore s9
	.cfi_restore s10
	.cfi_restore s11
	addi	sp, sp, 160
	.cfi_def_cfa_offset 0
	tail	tlsf_memory_dealloc
.LBB26_17:
	.cfi_restore_state
	lw	ra, 156(sp)
	lw	s0, 152(sp)
	lw	s1, 148(sp)
	lw	s2, 144(sp)
	lw	s3, 140(sp)
	lw	s4, 136(sp)
	lw	s5, 132(sp)
	lw	s6, 128(sp)
	lw	s7, 124(sp)
	lw	s8, 120(sp)
	lw	s9, 116(sp)
	lw	s10, 112(sp)
	lw	s11, 108(sp)
	.cfi_restore ra
	.cfi_restore s0
	.cfi_restore s1
	.cfi_restore s2
	.cfi_restore s3
	.cfi_restore s4
	.cfi_restore s5
	.cfi_restore s6
	.cfi_restore s7
	.cfi_restore s8
	.cfi_restore s9
	.cfi_restore s10
	.cfi_restore s11
	addi	sp, sp, 160
	.cfi_def_cfa_offset 0
	ret
.Lfunc_end26:
	.size	tlsf_c.tlsf_c.any_end.AnyEnd.Destruct.drop, .Lfunc_end26-tlsf_c.tlsf_c.any_end.AnyEnd.Destruct.drop
	.cfi_endproc
	.section	.text.tlsf_c.arena_slot.ArenaSlot.close,"ax",@progbits
	.p2align	1
	.type	tlsf_c.arena_slot.ArenaSlot.close,@function
tlsf_c.arena_slot.ArenaSlot.close:
	.cfi_startproc
	lbu	a1, 8(a0)
	beqz	a1, .LBB27_11
	lw	a1, 0(a0)
	lbu	a2, 1(a1)
	beqz	a2, .LBB27_11
	addi	sp, sp, -176
	.cfi_def_cfa_offset 176
	sw	ra, 172(sp)
	sw	s0, 168(sp)
	sw	s1, 164(sp)
	sw	s2, 160(sp)
	sw	s3, 156(sp)
	sw	s4, 152(sp)
	sw	s5, 148(sp)
	sw	s6, 144(sp)
	sw	s7, 140(sp)
	sw	s8, 136(sp)
	sw	s9, 132(sp)
	sw	s10, 128(sp)
	sw	s11, 124(sp)
	.cfi_offset ra, -4
	.cfi_offset s0, -8
	.cfi_offset s1, -12
	.cfi_offset s2, -16
	.cfi_offset s3, -20
	.cfi_offset s4, -24
	.cfi_offset s5, -28
	.cfi_offset s6, -32
	.cfi_offset s7, -36
	.cfi_offset s8, -40
	.cfi_offset s9, -44
	.cfi_offset s10, -48
	.cfi_offset s11, -52
	sb	zero, 1(a1)
	lbu	a1, 1(a0)
	lbu	a2, 0(a0)
	lbu	a3, 2(a0)
	lbu	a4, 3(a0)
	slli	a1, a1, 8
	or	a1, a1, a2
	slli	a3, a3, 16
	slli	a4, a4, 24
	or	a3, a3, a4
	or	s0, a3, a1
	li	a2, 16
	li	a1, 0
	call	tlsf_memory_set
	lbu	a0, 0(s0)
	sw	a0, 64(sp)
	lbu	a0, 8(s0)
	sw	a0, 68(sp)
	lbu	a6, 16(s0)
	lbu	t1, 17(s0)
	lbu	t3, 18(s0)
	lbu	t6, 19(s0)
	lbu	t4, 20(s0)
	lbu	s7, 21(s0)
	lbu	s8, 22(s0)
	lbu	s1, 23(s0)
	lbu	a7, 24(s0)
	lbu	t5, 25(s0)
	lbu	s2, 26(s0)
	lbu	s5, 27(s0)
	lbu	s4, 28(s0)
	lbu	s11, 29(s0)
	lbu	a1, 30(s0)
	lbu	a0, 31(s0)
	lbu	t0, 32(s0)
	lbu	t2, 33(s0)
	lbu	s9, 34(s0)
	lbu	s3, 35(s0)
	lbu	s10, 36(s0)
	lbu	ra, 37(s0)
	lbu	a2, 38(s0)
	lbu	a3, 39(s0)
	lbu	s6, 40(s0)
	lbu	a5, 41(s0)
	slli	t1, t1, 8
	slli	t3, t3, 16
	slli	t6, t6, 24
	slli	s7, s7, 8
	slli	s8, s8, 16
	slli	s1, s1, 24
	or	a6, t1, a6
	or	t3, t6, t3
	or	t1, s7, t4
	or	t4, s1, s8
	lbu	t6, 42(s0)
	lbu	s7, 43(s0)
	lbu	a4, 44(s0)
	sw	a4, 56(sp)
	lbu	a4, 45(s0)
	sw	a4, 52(sp)
	slli	t5, t5, 8
	slli	s2, s2, 16
	slli	s5, s5, 24
	slli	s11, s11, 8
	slli	a1, a1, 16
	slli	a0, a0, 24
	or	a7, t5, a7
	or	s2, s5, s2
	or	t5, s11, s4
	or	s4, a0, a1
	lbu	a0, 58(s0)
	sw	a0, 40(sp)
	lbu	a0, 59(s0)
	sw	a0, 36(sp)
	lbu	a0, 60(s0)
	sw	a0, 48(sp)
	lbu	a0, 61(s0)
	sw	a0, 32(sp)
	slli	t2, t2, 8
	slli	s9, s9, 16
	slli	s3, s3, 24
	slli	ra, ra, 8
	slli	a2, a2, 16
	slli	a3, a3, 24
	or	a1, t2, t0
	or	a4, s3, s9
	or	s1, ra, s10
	or	a2, a2, a3
	lbu	s9, 46(s0)
	lbu	s10, 47(s0)
	lbu	a0, 56(s0)
	sw	a0, 44(sp)
	lbu	a0, 57(s0)
	sw	a0, 28(sp)
	slli	a5, a5, 8
	slli	t6, t6, 16
	slli	s7, s7, 24
	or	t0, a5, s6
	or	t2, s7, t6
	or	a6, t3, a6
	or	a3, t4, t1
	lbu	a0, 62(s0)
	sw	a0, 12(sp)
	lbu	a0, 63(s0)
	sw	a0, 8(sp)
	lbu	s6, 64(s0)
	lbu	s11, 65(s0)
	or	a5, s2, a7
	or	a0, s4, t5
	or	a1, a1, a4
	or	a2, a2, s1
	lbu	a4, 82(s0)
	sw	a4, 20(sp)
	lbu	a4, 83(s0)
	sw	a4, 16(sp)
	lbu	a4, 84(s0)
	sw	a4, 24(sp)
	lbu	s1, 85(s0)
	sw	a6, 72(sp)
	sw	a3, 76(sp)
	lbu	s5, 86(s0)
	lbu	s3, 87(s0)
	sw	a5, 80(sp)
	sw	a0, 84(sp)
	lbu	s2, 66(s0)
	lbu	s4, 67(s0)
	lbu	s8, 80(s0)
	lbu	s7, 81(s0)
	sw	a1, 88(sp)
	sw	a2, 92(sp)
	or	a0, t2, t0
	sw	a0, 60(sp)
	mv	a0, s0
	call	tlsf_memory_dealloc
	lw	a0, 64(sp)
	beqz	a0, .LBB27_5
	lw	a0, 52(sp)
	slli	a0, a0, 8
	slli	s9, s9, 16
	slli	s10, s10, 24
	lw	a1, 56(sp)
	or	a0, a0, a1
	or	a1, s10, s9
	or	a0, a0, a1
	addi	a1, sp, 80
	lw	a2, 68(sp)
	beqz	a2, .LBB27_9
	lw	a2, 0(a1)
	lw	a3, 4(a1)
	lw	a4, 8(a1)
	lw	a1, 12(a1)
	sw	a2, 96(sp)
	sw	a3, 100(sp)
	sw	a4, 104(sp)
	sw	a1, 108(sp)
	lw	a1, 60(sp)
	sw	a1, 112(sp)
	sw	a0, 116(sp)
	addi	a0, sp, 96
	call	std_alloc.vec.Vec.drop.1d6c342d5cae5f6b
	j	.LBB27_10
.LBB27_5:
	mv	t1, s4
	mv	t0, s2
	mv	a7, s11
	mv	a6, s6
	lw	a0, 32(sp)
	slli	a0, a0, 8
	lw	s11, 12(sp)
	slli	s11, s11, 16
	lw	s6, 8(sp)
	slli	s6, s6, 24
	lw	a1, 28(sp)
	slli	a1, a1, 8
	lw	a2, 40(sp)
	slli	a2, a2, 16
	lw	a3, 36(sp)
	slli	a3, a3, 24
	slli	s1, s1, 8
	slli	s5, s5, 16
	slli	s3, s3, 24
	slli	s7, s7, 8
	lw	s2, 20(sp)
	slli	s2, s2, 16
	lw	s4, 16(sp)
	slli	s4, s4, 24
	lw	a4, 48(sp)
	or	a0, a0, a4
	or	a4, s6, s11
	lw	a5, 44(sp)
	or	a1, a1, a5
	or	a2, a2, a3
	lw	a3, 24(sp)
	or	a3, a3, s1
	or	s0, s3, s5
	or	a5, s7, s8
	or	s1, s4, s2
	or	a0, a0, a4
	or	a1, a1, a2
	or	s0, s0, a3
	or	s1, s1, a5
	lw	a2, 68(sp)
	or	a0, a0, a1
	mv	s2, a6
	mv	s3, a7
	mv	s4, t0
	mv	s5, t1
	beqz	a0, .LBB27_7
	lw	a0, 60(sp)
	call	tlsf_memory_dealloc
.LBB27_7:
	or	s0, s0, s1
	beqz	s0, .LBB27_10
	slli	a0, s3, 8
	slli	a1, s4, 16
	slli	a2, s5, 24
	or	a0, a0, s2
	or	a1, a1, a2
	or	a0, a0, a1
	call	tlsf_memory_dealloc
	j	.LBB27_10
.LBB27_9:
	lw	a2, 0(a1)
	lw	a3, 4(a1)
	lw	a4, 8(a1)
	lw	a1, 12(a1)
	sw	a2, 96(sp)
	sw	a3, 100(sp)
	sw	a4, 104(sp)
	sw	a1, 108(sp)
	lw	a1, 60(sp)
	sw	a1, 112(sp)
	sw	a0, 116(sp)
	addi	a0, sp, 96
	call	std_alloc.vec.Vec.drop.01e19ae241269710
.LBB27_10:
	lw	ra, 172(sp)
	lw	s0, 168(sp)
	lw	s1, 164(sp)
	lw	s2, 160(sp)
	lw	s3, 156(sp)
	lw	s4, 152(sp)
	lw	s5, 148(sp)
	lw	s6, 144(sp)
	lw	s7, 140(sp)
	lw	s8, 136(sp)
	lw	s9, 132(sp)
	lw	s10, 128(sp)
	lw	s11, 124(sp)
	.cfi_restore ra
	.cfi_restore s0
	.cfi_restore s1
	.cfi_restore s2
	.cfi_restore s3
	.cfi_restore s4
	.cfi_restore s5
	.cfi_restore s6
	.cfi_restore s7
	.cfi_restore s8
	.cfi_restore s9
	.cfi_restore s10
	.cfi_restore s11
	addi	sp, sp, 176
	.cfi_def_cfa_offset 0
.LBB27_11:
	ret
.Lfunc_end27:
	.size	tlsf_c.arena_slot.ArenaSlot.close, .Lfunc_end27-tlsf_c.arena_slot.ArenaSlot.close
	.cfi_endproc
	.section	.text.std_alloc.vec.Vec.drop.01e19ae241269710,"ax",@progbits
	.p2align	1
	.type	std_alloc.vec.Vec.drop.01e19ae241269710,@function
std_alloc.vec.Vec.drop.01e19ae241269710:
	.cfi_startproc
	addi	sp, sp, -192
	.cfi_def_cfa_offset 192
	sw	ra, 188(sp)
	sw	s0, 184(sp)
	sw	s1, 180(sp)
	sw	s2, 176(sp)
	sw	s3, 172(sp)
	sw	s4, 168(sp)
	sw	s5, 164(sp)
	sw	s6, 160(sp)
	sw	s7, 156(sp)
	sw	s8, 152(sp)
	sw	s9, 148(sp)
	sw	s10, 144(sp)
	sw	s11, 140(sp)
	.cfi_offset ra, -4
	.cfi_offset s0, -8
	.cfi_offset s1, -12
	.cfi_offset s2, -16
	.cfi_offset s3, -20
	.cfi_offset s4, -24
	.cfi_offset s5, -28
	.cfi_offset s6, -32
	.cfi_offset s7, -36
	.cfi_offset s8, -40
	.cfi_offset s9, -44
	.cfi_offset s10, -48
	.cfi_offset s11, -52
	.cfi_remember_state
	lbu	a1, 0(a0)
	lbu	a2, 1(a0)
	lbu	t0, 2(a0)
	lbu	t1, 3(a0)
	lbu	a6, 12(a0)
	lbu	s1, 13(a0)
	lbu	s0, 14(a0)
	lbu	a5, 15(a0)
	slli	a2, a2, 8
	or	a7, a2, a1
	lbu	a2, 8(a0)
	lbu	a1, 9(a0)
	lbu	a3, 10(a0)
	lbu	a4, 11(a0)
	slli	t0, t0, 16
	slli	t1, t1, 24
	slli	s1, s1, 8
	slli	s0, s0, 16
	slli	a5, a5, 24
	slli	a1, a1, 8
	or	t0, t1, t0
	or	a6, s1, a6
	or	a5, a5, s0
	or	t1, a1, a2
	lbu	a2, 20(a0)
	lbu	s0, 21(a0)
	lbu	s1, 22(a0)
	lbu	a1, 23(a0)
	slli	a3, a3, 16
	slli	a4, a4, 24
	slli	s0, s0, 8
	slli	s1, s1, 16
	slli	a1, a1, 24
	or	a3, a3, a4
	or	a2, a2, s0
	or	a1, a1, s1
	lbu	a4, 17(a0)
	lbu	s1, 16(a0)
	lbu	s0, 18(a0)
	lbu	a0, 19(a0)
	slli	a4, a4, 8
	or	a4, a4, s1
	or	s1, t0, a7
	sw	s1, 32(sp)
	or	a5, a5, a6
	or	a3, a3, t1
	or	a1, a1, a2
	sw	a1, 16(sp)
	slli	s0, s0, 16
	slli	a0, a0, 24
	or	a0, a0, s0
	sw	a3, 20(sp)
	or	a1, a3, a5
	or	a0, a0, a4
	sw	a0, 12(sp)
	beqz	a1, .LBB28_13
	li	a1, 0
	li	a2, 0
	lui	a0, 1
	addi	a0, a0, -1304
	sw	a0, 24(sp)
	sw	a5, 28(sp)
	j	.LBB28_3
.LBB28_2:
	sltu	a0, a2, a5
	beqz	a0, .LBB28_13
.LBB28_3:
	sw	a2, 132(sp)
	sw	a1, 136(sp)
	lw	a0, 24(sp)
	mul	a0, a1, a0
	lw	a1, 32(sp)
	add	a0, a0, a1
	lbu	a6, 44(a0)
	lbu	t0, 45(a0)
	lbu	a3, 46(a0)
	lbu	a4, 47(a0)
	lbu	a7, 40(a0)
	lbu	s1, 41(a0)
	lbu	s0, 42(a0)
	lbu	a1, 43(a0)
	addi	a5, a0, 2047
	lbu	a2, 689(a5)
	sw	a2, 48(sp)
	lbu	a2, 690(a5)
	sw	a2, 36(sp)
	lbu	a2, 691(a5)
	sw	a2, 44(sp)
	lbu	a2, 692(a5)
	sw	a2, 40(sp)
	lbu	a2, 709(a5)
	sw	a2, 100(sp)
	lbu	a2, 710(a5)
	sw	a2, 68(sp)
	lbu	a2, 711(a5)
	sw	a2, 76(sp)
	lbu	a2, 712(a5)
	sw	a2, 72(sp)
	lbu	a2, 705(a5)
	sw	a2, 92(sp)
	lbu	a2, 706(a5)
	sw	a2, 80(sp)
	lbu	a2, 707(a5)
	sw	a2, 88(sp)
	lbu	a2, 708(a5)
	sw	a2, 84(sp)
	lbu	a2, 721(a5)
	sw	a2, 64(sp)
	lbu	a2, 722(a5)
	sw	a2, 52(sp)
	lbu	a2, 723(a5)
	sw	a2, 60(sp)
	lbu	a2, 724(a5)
	sw	a2, 56(sp)
	slli	a2, t0, 8
	slli	a3, a3, 16
	slli	a4, a4, 24
	or	a2, a2, a6
	or	a3, a3, a4
	lbu	a4, 741(a5)
	sw	a4, 128(sp)
	lbu	a4, 742(a5)
	sw	a4, 112(sp)
	lbu	a4, 743(a5)
	sw	a4, 120(sp)
	lbu	a4, 744(a5)
	sw	a4, 116(sp)
	slli	s1, s1, 8
	slli	s0, s0, 16
	slli	a1, a1, 24
	or	a4, s1, a7
	or	a1, a1, s0
	or	a2, a2, a3
	lbu	a3, 737(a5)
	sw	a3, 124(sp)
	lbu	a3, 738(a5)
	sw	a3, 96(sp)
	lbu	a3, 739(a5)
	sw	a3, 108(sp)
	lbu	a3, 740(a5)
	sw	a3, 104(sp)
	lbu	s2, 48(a0)
	lbu	s5, 49(a0)
	lbu	s11, 50(a0)
	lbu	s3, 51(a0)
	lbu	s7, 68(a0)
	lbu	s0, 69(a0)
	lbu	s9, 70(a0)
	lbu	s10, 71(a0)
	lbu	s1, 64(a0)
	lbu	s8, 65(a0)
	lbu	s4, 66(a0)
	lbu	s6, 67(a0)
	or	a1, a1, a4
	or	a1, a1, a2
	beqz	a1, .LBB28_5
	lbu	a1, 25(a0)
	lbu	a2, 24(a0)
	lbu	a3, 26(a0)
	lbu	a0, 27(a0)
	slli	a1, a1, 8
	or	a1, a1, a2
	slli	a3, a3, 16
	slli	a0, a0, 24
	or	a0, a0, a3
	or	a0, a0, a1
	call	tlsf_memory_dealloc
.LBB28_5:
	slli	s0, s0, 8
	slli	s9, s9, 16
	slli	s10, s10, 24
	slli	s8, s8, 8
	slli	s4, s4, 16
	slli	s6, s6, 24
	or	a0, s0, s7
	or	a1, s10, s9
	or	a2, s8, s1
	or	a3, s6, s4
	or	a0, a0, a1
	or	a2, a2, a3
	or	a0, a0, a2
	beqz	a0, .LBB28_7
	slli	s5, s5, 8
	slli	s11, s11, 16
	slli	s3, s3, 24
	or	a0, s5, s2
	or	a1, s3, s11
	or	a0, a0, a1
	call	tlsf_memory_dealloc
.LBB28_7:
	lw	s1, 68(sp)
	slli	s1, s1, 8
	lw	a1, 76(sp)
	slli	a1, a1, 16
	lw	a2, 72(sp)
	slli	a2, a2, 24
	lw	a3, 80(sp)
	slli	a3, a3, 8
	lw	a4, 88(sp)
	slli	a4, a4, 16
	lw	a5, 84(sp)
	slli	a5, a5, 24
	lw	a0, 100(sp)
	or	a0, a0, s1
	or	a1, a1, a2
	lw	a2, 92(sp)
	or	a2, a2, a3
	or	a4, a4, a5
	or	a0, a0, a1
	or	a2, a2, a4
	or	a0, a0, a2
	beqz	a0, .LBB28_9
	lw	a0, 36(sp)
	slli	a0, a0, 8
	lw	a1, 44(sp)
	slli	a1, a1, 16
	lw	a2, 40(sp)
	slli	a2, a2, 24
	lw	a3, 48(sp)
	or	a0, a0, a3
	or	a1, a1, a2
	or	a0, a0, a1
	call	tlsf_memory_dealloc
.LBB28_9:
	lw	s1, 112(sp)
	slli	s1, s1, 8
	lw	a1, 120(sp)
	slli	a1, a1, 16
	lw	a2, 116(sp)
	slli	a2, a2, 24
	lw	a3, 96(sp)
	slli	a3, a3, 8
	lw	a4, 108(sp)
	slli	a4, a4, 16
	lw	a5, 104(sp)
	slli	a5, a5, 24
	lw	a0, 128(sp)
	or	a0, a0, s1
	or	a1, a1, a2
	lw	a2, 124(sp)
	or	a2, a2, a3
	or	a4, a4, a5
	or	a0, a0, a1
	or	a2, a2, a4
	or	a0, a0, a2
	beqz	a0, .LBB28_11
	lw	a0, 52(sp)
	slli	a0, a0, 8
	lw	a1, 60(sp)
	slli	a1, a1, 16
	lw	a2, 56(sp)
	slli	a2, a2, 24
	lw	a3, 64(sp)
	or	a0, a0, a3
	or	a1, a1, a2
	or	a0, a0, a1
	call	tlsf_memory_dealloc
.LBB28_11:
	lw	a1, 136(sp)
	addi	a1, a1, 1
	seqz	a0, a1
	lw	a2, 132(sp)
	add	a2, a2, a0
	lw	a5, 28(sp)
	bne	a2, a5, .LBB28_2
	lw	a0, 20(sp)
	sltu	a0, a1, a0
	bnez	a0, .LBB28_3
.LBB28_13:
	lw	a0, 16(sp)
	lw	a1, 12(sp)
	or	a0, a0, a1
	beqz	a0, .LBB28_15
	lw	a0, 32(sp)
	lw	ra, 188(sp)
	lw	s0, 184(sp)
	lw	s1, 180(sp)
	lw	s2, 176(sp)
	lw	s3, 172(sp)
	lw	s4, 168(sp)
	lw	s5, 164(sp)
	lw	s6, 160(sp)
	lw	s7, 156(sp)
	lw	s8, 152(sp)
	lw	s9, 148(sp)
	lw	s10, 144(sp)
	lw	s11, 140(sp)
	.cfi_restore ra
	.cfi_restore s0
	.cfi_restore s1
	.cfi_restore s2
	.cfi_restore s3
	.cfi_restore s4
	.cfi_restore s5
	.cfi_restore s6
	.cfi_restore s7
	.cfi_restore s8
	.cfi_restore s9
	.cfi_restore s10
	.cfi_restore s11
	addi	sp, sp, 192
	.cfi_def_cfa_offset 0
	tail	tlsf_memory_dealloc
.LBB28_15:
	.cfi_restore_state
	lw	ra, 188(sp)
	lw	s0, 184(sp)
	lw	s1, 180(sp)
	lw	s2, 176(sp)
	lw	s3, 172(sp)
	lw	s4, 168(sp)
	lw	s5, 164(sp)
	lw	s6, 160(sp)
	lw	s7, 156(sp)
	lw	s8, 152(sp)
	lw	s9, 148(sp)
	lw	s10, 144(sp)
	lw	s11, 140(sp)
	.cfi_restore ra
	.cfi_restore s0
	.cfi_restore s1
	.cfi_restore s2
	.cfi_restore s3
	.cfi_restore s4
	.cfi_restore s5
	.cfi_restore s6
	.cfi_restore s7
	.cfi_restore s8
	.cfi_restore s9
	.cfi_restore s10
	.cfi_restore s11
	addi	sp, sp, 192
	.cfi_def_cfa_offset 0
	ret
.Lfunc_end28:
	.size	std_alloc.vec.Vec.drop.01e19ae241269710, .Lfunc_end28-std_alloc.vec.Vec.drop.01e19ae241269710
	.cfi_endproc
	.section	.text.std_alloc.vec.Vec.drop.1d6c342d5cae5f6b,"ax",@progbits
	.p2align	1
	.type	std_alloc.vec.Vec.drop.1d6c342d5cae5f6b,@function
std_alloc.vec.Vec.drop.1d6c342d5cae5f6b:
	.cfi_startproc
	addi	sp, sp, -192
	.cfi_def_cfa_offset 192
	sw	ra, 188(sp)
	sw	s0, 184(sp)
	sw	s1, 180(sp)
	sw	s2, 176(sp)
	sw	s3, 172(sp)
	sw	s4, 168(sp)
	sw	s5, 164(sp)
	sw	s6, 160(sp)
	sw	s7, 156(sp)
	sw	s8, 152(sp)
	sw	s9, 148(sp)
	sw	s10, 144(sp)
	sw	s11, 140(sp)
	.cfi_offset ra, -4
	.cfi_offset s0, -8
	.cfi_offset s1, -12
	.cfi_offset s2, -16
	.cfi_offset s3, -20
	.cfi_offset s4, -24
	.cfi_offset s5, -28
	.cfi_offset s6, -32
	.cfi_offset s7, -36
	.cfi_offset s8, -40
	.cfi_offset s9, -44
	.cfi_offset s10, -48
	.cfi_offset s11, -52
	.cfi_remember_state
	lbu	a1, 0(a0)
	lbu	a2, 1(a0)
	lbu	t0, 2(a0)
	lbu	t1, 3(a0)
	lbu	a6, 12(a0)
	lbu	s1, 13(a0)
	lbu	s0, 14(a0)
	lbu	a5, 15(a0)
	slli	a2, a2, 8
	or	a7, a2, a1
	lbu	a2, 8(a0)
	lbu	a1, 9(a0)
	lbu	a3, 10(a0)
	lbu	a4, 11(a0)
	slli	t0, t0, 16
	slli	t1, t1, 24
	slli	s1, s1, 8
	slli	s0, s0, 16
	slli	a5, a5, 24
	slli	a1, a1, 8
	or	t0, t1, t0
	or	a6, s1, a6
	or	a5, a5, s0
	or	t1, a1, a2
	lbu	a2, 20(a0)
	lbu	s0, 21(a0)
	lbu	s1, 22(a0)
	lbu	a1, 23(a0)
	slli	a3, a3, 16
	slli	a4, a4, 24
	slli	s0, s0, 8
	slli	s1, s1, 16
	slli	a1, a1, 24
	or	a3, a3, a4
	or	a2, a2, s0
	or	a1, a1, s1
	lbu	a4, 17(a0)
	lbu	s1, 16(a0)
	lbu	s0, 18(a0)
	lbu	a0, 19(a0)
	slli	a4, a4, 8
	or	a4, a4, s1
	or	s1, t0, a7
	sw	s1, 32(sp)
	or	a5, a5, a6
	or	a3, a3, t1
	or	a1, a1, a2
	sw	a1, 16(sp)
	slli	s0, s0, 16
	slli	a0, a0, 24
	or	a0, a0, s0
	sw	a3, 20(sp)
	or	a1, a3, a5
	or	a0, a0, a4
	sw	a0, 12(sp)
	beqz	a1, .LBB29_13
	li	a1, 0
	li	a2, 0
	lui	a0, 1
	addi	a0, a0, -1304
	sw	a0, 24(sp)
	sw	a5, 28(sp)
	j	.LBB29_3
.LBB29_2:
	sltu	a0, a2, a5
	beqz	a0, .LBB29_13
.LBB29_3:
	sw	a2, 132(sp)
	sw	a1, 136(sp)
	lw	a0, 24(sp)
	mul	a0, a1, a0
	lw	a1, 32(sp)
	add	a0, a0, a1
	lbu	a6, 44(a0)
	lbu	t0, 45(a0)
	lbu	a3, 46(a0)
	lbu	a4, 47(a0)
	lbu	a7, 40(a0)
	lbu	s1, 41(a0)
	lbu	s0, 42(a0)
	lbu	a1, 43(a0)
	addi	a5, a0, 2047
	lbu	a2, 689(a5)
	sw	a2, 48(sp)
	lbu	a2, 690(a5)
	sw	a2, 36(sp)
	lbu	a2, 691(a5)
	sw	a2, 44(sp)
	lbu	a2, 692(a5)
	sw	a2, 40(sp)
	lbu	a2, 709(a5)
	sw	a2, 100(sp)
	lbu	a2, 710(a5)
	sw	a2, 68(sp)
	lbu	a2, 711(a5)
	sw	a2, 76(sp)
	lbu	a2, 712(a5)
	sw	a2, 72(sp)
	lbu	a2, 705(a5)
	sw	a2, 92(sp)
	lbu	a2, 706(a5)
	sw	a2, 80(sp)
	lbu	a2, 707(a5)
	sw	a2, 88(sp)
	lbu	a2, 708(a5)
	sw	a2, 84(sp)
	lbu	a2, 721(a5)
	sw	a2, 64(sp)
	lbu	a2, 722(a5)
	sw	a2, 52(sp)
	lbu	a2, 723(a5)
	sw	a2, 60(sp)
	lbu	a2, 724(a5)
	sw	a2, 56(sp)
	slli	a2, t0, 8
	slli	a3, a3, 16
	slli	a4, a4, 24
	or	a2, a2, a6
	or	a3, a3, a4
	lbu	a4, 741(a5)
	sw	a4, 128(sp)
	lbu	a4, 742(a5)
	sw	a4, 112(sp)
	lbu	a4, 743(a5)
	sw	a4, 120(sp)
	lbu	a4, 744(a5)
	sw	a4, 116(sp)
	slli	s1, s1, 8
	slli	s0, s0, 16
	slli	a1, a1, 24
	or	a4, s1, a7
	or	a1, a1, s0
	or	a2, a2, a3
	lbu	a3, 737(a5)
	sw	a3, 124(sp)
	lbu	a3, 738(a5)
	sw	a3, 96(sp)
	lbu	a3, 739(a5)
	sw	a3, 108(sp)
	lbu	a3, 740(a5)
	sw	a3, 104(sp)
	lbu	s2, 48(a0)
	lbu	s5, 49(a0)
	lbu	s11, 50(a0)
	lbu	s3, 51(a0)
	lbu	s7, 68(a0)
	lbu	s0, 69(a0)
	lbu	s9, 70(a0)
	lbu	s10, 71(a0)
	lbu	s1, 64(a0)
	lbu	s8, 65(a0)
	lbu	s4, 66(a0)
	lbu	s6, 67(a0)
	or	a1, a1, a4
	or	a1, a1, a2
	beqz	a1, .LBB29_5
	lbu	a1, 25(a0)
	lbu	a2, 24(a0)
	lbu	a3, 26(a0)
	lbu	a0, 27(a0)
	slli	a1, a1, 8
	or	a1, a1, a2
	slli	a3, a3, 16
	slli	a0, a0, 24
	or	a0, a0, a3
	or	a0, a0, a1
	call	tlsf_memory_dealloc
.LBB29_5:
	slli	s0, s0, 8
	slli	s9, s9, 16
	slli	s10, s10, 24
	slli	s8, s8, 8
	slli	s4, s4, 16
	slli	s6, s6, 24
	or	a0, s0, s7
	or	a1, s10, s9
	or	a2, s8, s1
	or	a3, s6, s4
	or	a0, a0, a1
	or	a2, a2, a3
	or	a0, a0, a2
	beqz	a0, .LBB29_7
	slli	s5, s5, 8
	slli	s11, s11, 16
	slli	s3, s3, 24
	or	a0, s5, s2
	or	a1, s3, s11
	or	a0, a0, a1
	call	tlsf_memory_dealloc
.LBB29_7:
	lw	s1, 68(sp)
	slli	s1, s1, 8
	lw	a1, 76(sp)
	slli	a1, a1, 16
	lw	a2, 72(sp)
	slli	a2, a2, 24
	lw	a3, 80(sp)
	slli	a3, a3, 8
	lw	a4, 88(sp)
	slli	a4, a4, 16
	lw	a5, 84(sp)
	slli	a5, a5, 24
	lw	a0, 100(sp)
	or	a0, a0, s1
	or	a1, a1, a2
	lw	a2, 92(sp)
	or	a2, a2, a3
	or	a4, a4, a5
	or	a0, a0, a1
	or	a2, a2, a4
	or	a0, a0, a2
	beqz	a0, .LBB29_9
	lw	a0, 36(sp)
	slli	a0, a0, 8
	lw	a1, 44(sp)
	slli	a1, a1, 16
	lw	a2, 40(sp)
	slli	a2, a2, 24
	lw	a3, 48(sp)
	or	a0, a0, a3
	or	a1, a1, a2
	or	a0, a0, a1
	call	tlsf_memory_dealloc
.LBB29_9:
	lw	s1, 112(sp)
	slli	s1, s1, 8
	lw	a1, 120(sp)
	slli	a1, a1, 16
	lw	a2, 116(sp)
	slli	a2, a2, 24
	lw	a3, 96(sp)
	slli	a3, a3, 8
	lw	a4, 108(sp)
	slli	a4, a4, 16
	lw	a5, 104(sp)
	slli	a5, a5, 24
	lw	a0, 128(sp)
	or	a0, a0, s1
	or	a1, a1, a2
	lw	a2, 124(sp)
	or	a2, a2, a3
	or	a4, a4, a5
	or	a0, a0, a1
	or	a2, a2, a4
	or	a0, a0, a2
	beqz	a0, .LBB29_11
	lw	a0, 52(sp)
	slli	a0, a0, 8
	lw	a1, 60(sp)
	slli	a1, a1, 16
	lw	a2, 56(sp)
	slli	a2, a2, 24
	lw	a3, 64(sp)
	or	a0, a0, a3
	or	a1, a1, a2
	or	a0, a0, a1
	call	tlsf_memory_dealloc
.LBB29_11:
	lw	a1, 136(sp)
	addi	a1, a1, 1
	seqz	a0, a1
	lw	a2, 132(sp)
	add	a2, a2, a0
	lw	a5, 28(sp)
	bne	a2, a5, .LBB29_2
	lw	a0, 20(sp)
	sltu	a0, a1, a0
	bnez	a0, .LBB29_3
.LBB29_13:
	lw	a0, 16(sp)
	lw	a1, 12(sp)
	or	a0, a0, a1
	beqz	a0, .LBB29_15
	lw	a0, 32(sp)
	lw	ra, 188(sp)
	lw	s0, 184(sp)
	lw	s1, 180(sp)
	lw	s2, 176(sp)
	lw	s3, 172(sp)
	lw	s4, 168(sp)
	lw	s5, 164(sp)
	lw	s6, 160(sp)
	lw	s7, 156(sp)
	lw	s8, 152(sp)
	lw	s9, 148(sp)
	lw	s10, 144(sp)
	lw	s11, 140(sp)
	.cfi_restore ra
	.cfi_restore s0
	.cfi_restore s1
	.cfi_restore s2
	.cfi_restore s3
	.cfi_restore s4
	.cfi_restore s5
	.cfi_restore s6
	.cfi_restore s7
	.cfi_restore s8
	.cfi_restore s9
	.cfi_restore s10
	.cfi_restore s11
	addi	sp, sp, 192
	.cfi_def_cfa_offset 0
	tail	tlsf_memory_dealloc
.LBB29_15:
	.cfi_restore_state
	lw	ra, 188(sp)
	lw	s0, 184(sp)
	lw	s1, 180(sp)
	lw	s2, 176(sp)
	lw	s3, 172(sp)
	lw	s4, 168(sp)
	lw	s5, 164(sp)
	lw	s6, 160(sp)
	lw	s7, 156(sp)
	lw	s8, 152(sp)
	lw	s9, 148(sp)
	lw	s10, 144(sp)
	lw	s11, 140(sp)
	.cfi_restore ra
	.cfi_restore s0
	.cfi_restore s1
	.cfi_restore s2
	.cfi_restore s3
	.cfi_restore s4
	.cfi_restore s5
	.cfi_restore s6
	.cfi_restore s7
	.cfi_restore s8
	.cfi_restore s9
	.cfi_restore s10
	.cfi_restore s11
	addi	sp, sp, 192
	.cfi_def_cfa_offset 0
	ret
.Lfunc_end29:
	.size	std_alloc.vec.Vec.drop.1d6c342d5cae5f6b, .Lfunc_end29-std_alloc.vec.Vec.drop.1d6c342d5cae5f6b
	.cfi_endproc
	.section	.text.unlikely.std_alloc.vec.Vec.grow_amortized.1345b5ed95b64201,"ax",@progbits
	.p2align	1
	.type	std_alloc.vec.Vec.grow_amortized.1345b5ed95b64201,@function
std_alloc.vec.Vec.grow_amortized.1345b5ed95b64201:
	.cfi_startproc
	lw	a6, 12(a0)
	lw	t1, 8(a0)
	not	a3, a6
	beq	a2, a3, .LBB30_7
	sltu	a3, a3, a2
	bnez	a3, .LBB30_8
.LBB30_2:
	add	a5, t1, a1
	sltu	a1, a5, t1
	add	a2, a2, a6
	add	a1, a1, a2
	li	a3, 4
	mv	a2, a5
	beqz	a1, .LBB30_9
	bgeu	a3, a5, .LBB30_10
.LBB30_4:
	lw	a7, 16(a0)
	lw	t2, 20(a0)
	bnez	a1, .LBB30_11
.LBB30_5:
	srli	a2, a7, 31
	slli	a4, t2, 1
	or	a4, a4, a2
	slli	t0, a7, 1
	beq	a1, a4, .LBB30_12
.LBB30_6:
	sltu	a3, a4, a1
	j	.LBB30_13
.LBB30_7:
	not	a3, t1
	sltu	a3, a3, a1
	beqz	a3, .LBB30_2
.LBB30_8:
	li	a0, 0
	ret
.LBB30_9:
	li	a2, 4
	bltu	a3, a5, .LBB30_4
.LBB30_10:
	li	a5, 4
	lw	a7, 16(a0)
	lw	t2, 20(a0)
	beqz	a1, .LBB30_5
.LBB30_11:
	mv	a5, a2
	srli	a2, a7, 31
	slli	a4, t2, 1
	or	a4, a4, a2
	slli	t0, a7, 1
	bne	a1, a4, .LBB30_6
.LBB30_12:
	sltu	a3, t0, a5
.LBB30_13:
	addi	sp, sp, -48
	.cfi_def_cfa_offset 48
	sw	ra, 44(sp)
	sw	s0, 40(sp)
	sw	s1, 36(sp)
	sw	s2, 32(sp)
	sw	s3, 28(sp)
	sw	s4, 24(sp)
	.cfi_offset ra, -4
	.cfi_offset s0, -8
	.cfi_offset s1, -12
	.cfi_offset s2, -16
	.cfi_offset s3, -20
	.cfi_offset s4, -24
	srli	s0, t2, 30
	mv	s1, a5
	mv	a2, a1
	beqz	a3, .LBB30_18
	mv	s3, s1
	mv	s4, a2
	bnez	s0, .LBB30_19
.LBB30_15:
	srli	a1, s4, 28
	bnez	a1, .LBB30_20
.LBB30_16:
	or	a1, a7, t2
	beqz	a1, .LBB30_21
	mv	s2, a0
	lw	a1, 0(a0)
	srli	a0, t1, 29
	slli	a6, a6, 3
	slli	t1, t1, 3
	srli	a2, s3, 29
	or	a0, a6, a0
	slli	a3, s4, 3
	or	a2, a2, a3
	slli	a3, s3, 3
	seqz	a0, a0
	seqz	a2, a2
	addi	a0, a0, -1
	addi	a4, a2, -1
	or	a2, a0, t1
	or	a3, a3, a4
	addi	a0, sp, 8
	li	a4, 8
	call	tlsf_memory_realloc
	lw	a0, 8(sp)
	andi	a0, a0, 1
	bnez	a0, .LBB30_22
	j	.LBB30_23
.LBB30_18:
	mv	s1, t0
	mv	a2, a4
	mv	s3, t0
	mv	s4, a4
	beqz	s0, .LBB30_15
.LBB30_19:
	mv	s3, a5
	mv	s4, a1
	srli	a1, a1, 28
	beqz	a1, .LBB30_16
.LBB30_20:
	li	a0, 0
	j	.LBB30_23
.LBB30_21:
	mv	s2, a0
	srli	a0, s1, 29
	slli	a2, a2, 3
	or	a0, a0, a2
	slli	s1, s1, 3
	seqz	a0, a0
	addi	a0, a0, -1
	or	a1, a0, s1
	addi	a0, sp, 8
	li	a2, 8
	call	tlsf_memory_alloc
	lw	a0, 8(sp)
	andi	a0, a0, 1
	beqz	a0, .LBB30_23
.LBB30_22:
	lw	a0, 16(sp)
	sw	a0, 0(s2)
	sw	s3, 16(s2)
	sw	s4, 20(s2)
	li	a0, 1
.LBB30_23:
	lw	ra, 44(sp)
	lw	s0, 40(sp)
	lw	s1, 36(sp)
	lw	s2, 32(sp)
	lw	s3, 28(sp)
	lw	s4, 24(sp)
	.cfi_restore ra
	.cfi_restore s0
	.cfi_restore s1
	.cfi_restore s2
	.cfi_restore s3
	.cfi_restore s4
	addi	sp, sp, 48
	.cfi_def_cfa_offset 0
	ret
.Lfunc_end30:
	.size	std_alloc.vec.Vec.grow_amortized.1345b5ed95b64201, .Lfunc_end30-std_alloc.vec.Vec.grow_amortized.1345b5ed95b64201
	.cfi_endproc
	.section	.text.tlsf_words.words.Words.lengthen,"ax",@progbits
	.p2align	1
	.type	tlsf_words.words.Words.lengthen,@function
tlsf_words.words.Words.lengthen:
	.cfi_startproc
	addi	sp, sp, -48
	.cfi_def_cfa_offset 48
	sw	ra, 44(sp)
	sw	s0, 40(sp)
	sw	s1, 36(sp)
	sw	s2, 32(sp)
	sw	s3, 28(sp)
	sw	s4, 24(sp)
	sw	s5, 20(sp)
	sw	s6, 16(sp)
	sw	s7, 12(sp)
	.cfi_offset ra, -4
	.cfi_offset s0, -8
	.cfi_offset s1, -12
	.cfi_offset s2, -16
	.cfi_offset s3, -20
	.cfi_offset s4, -24
	.cfi_offset s5, -28
	.cfi_offset s6, -32
	.cfi_offset s7, -36
	.cfi_remember_state
	mv	s6, a1
	mv	s1, a0
	lw	a0, 8(a0)
	lw	a1, 12(s1)
	sltu	a2, a0, s6
	seqz	a3, a1
	and	a2, a2, a3
	beqz	a2, .LBB31_5
	sltu	a2, s6, a0
	lw	s4, 16(s1)
	lw	s5, 20(s1)
	neg	a3, a1
	sub	s2, a3, a2
	sltu	a2, s4, a0
	sub	a3, s5, a1
	sub	a2, a3, a2
	sub	s3, s6, a0
	beq	s2, a2, .LBB31_7
	sltu	a2, a2, s2
	bnez	a2, .LBB31_8
.LBB31_3:
	add	s3, s3, a0
	sltu	s0, s3, a0
	add	s2, s2, a1
	add	s0, s0, s2
	beq	a1, s0, .LBB31_10
.LBB31_4:
	sltu	a1, a1, s0
	lw	s2, 0(s1)
	bnez	a1, .LBB31_11
	j	.LBB31_12
.LBB31_5:
	sltu	a0, s6, a0
	snez	a1, a1
	or	a0, a0, a1
	beqz	a0, .LBB31_13
	sw	s6, 8(s1)
	sw	zero, 12(s1)
	j	.LBB31_13
.LBB31_7:
	sub	a2, s4, a0
	sltu	a2, a2, s3
	beqz	a2, .LBB31_3
.LBB31_8:
	mv	a0, s1
	mv	a1, s3
	mv	a2, s2
	call	std_alloc.vec.Vec.grow_amortized.1345b5ed95b64201
	beqz	a0, .LBB31_27
	lw	a0, 8(s1)
	lw	a1, 12(s1)
	lw	s4, 16(s1)
	lw	s5, 20(s1)
	add	s3, s3, a0
	sltu	s0, s3, a0
	add	s2, s2, a1
	add	s0, s0, s2
	bne	a1, s0, .LBB31_4
.LBB31_10:
	sltu	a1, a0, s3
	lw	s2, 0(s1)
	beqz	a1, .LBB31_12
.LBB31_11:
	slli	a1, a0, 3
	sub	a2, s3, a0
	add	a0, s2, a1
	slli	a2, a2, 3
	li	a1, 0
	call	tlsf_memory_set
.LBB31_12:
	sw	s2, 0(s1)
	sw	s3, 8(s1)
	sw	s0, 12(s1)
	sw	s4, 16(s1)
	sw	s5, 20(s1)
.LBB31_13:
	lw	a0, 32(s1)
	lw	a1, 36(s1)
	or	a0, a0, a1
	beqz	a0, .LBB31_15
	sw	zero, 32(s1)
	sw	zero, 36(s1)
.LBB31_15:
	beqz	s6, .LBB31_26
	lw	s3, 40(s1)
	lw	s4, 44(s1)
	srli	s2, s6, 6
	andi	a0, s6, 63
	snez	a0, a0
	add	s2, s2, a0
	beqz	s4, .LBB31_20
	li	a0, 1
	beqz	a0, .LBB31_21
.LBB31_18:
	li	a0, 0
	li	a1, 0
	mv	s0, s2
	sltu	s5, s2, zero
	mv	s5, s5
	bgeu	s2, zero, .LBB31_23
.LBB31_19:
	sltu	a1, a1, s5
	lw	s7, 24(s1)
	bnez	a1, .LBB31_24
	j	.LBB31_25
.LBB31_20:
	sltu	a0, s3, s2
	xori	a0, a0, 1
	bnez	a0, .LBB31_18
.LBB31_21:
	addi	a0, s1, 24
	mv	a1, s2
	li	a2, 0
	call	std_alloc.vec.Vec.grow_amortized.1345b5ed95b64201
	beqz	a0, .LBB31_27
	lw	a0, 32(s1)
	lw	a1, 36(s1)
	lw	s3, 40(s1)
	lw	s4, 44(s1)
	add	s0, a0, s2
	sltu	s5, s0, a0
	add	s5, s5, a1
	bltu	s0, a0, .LBB31_19
.LBB31_23:
	sltu	a1, a0, s0
	lw	s7, 24(s1)
	beqz	a1, .LBB31_25
.LBB31_24:
	slli	a0, a0, 3
	add	a0, a0, s7
	slli	a2, s2, 3
	li	a1, 0
	call	tlsf_memory_set
.LBB31_25:
	sw	s7, 24(s1)
	sw	s0, 32(s1)
	sw	s5, 36(s1)
	sw	s3, 40(s1)
	sw	s4, 44(s1)
.LBB31_26:
	sw	s6, 48(s1)
	lw	ra, 44(sp)
	lw	s0, 40(sp)
	lw	s1, 36(sp)
	lw	s2, 32(sp)
	lw	s3, 28(sp)
	lw	s4, 24(sp)
	lw	s5, 20(sp)
	lw	s6, 16(sp)
	lw	s7, 12(sp)
	.cfi_restore ra
	.cfi_restore s0
	.cfi_restore s1
	.cfi_restore s2
	.cfi_restore s3
	.cfi_restore s4
	.cfi_restore s5
	.cfi_restore s6
	.cfi_restore s7
	addi	sp, sp, 48
	.cfi_def_cfa_offset 0
	ret
.LBB31_27:
	.cfi_restore_state
	unimp
.Lfunc_end31:
	.size	tlsf_words.words.Words.lengthen, .Lfunc_end31-tlsf_words.words.Words.lengthen
	.cfi_endproc
	.section	.text.tlsf_pool.sizes.split.rising_split.4,"ax",@progbits
	.p2align	1
	.type	tlsf_pool.sizes.split.rising_split.4,@function
tlsf_pool.sizes.split.rising_split.4:
	.cfi_startproc
	addi	sp, sp, -1472
	.cfi_def_cfa_offset 1472
	sw	ra, 1468(sp)
	sw	s0, 1464(sp)
	sw	s1, 1460(sp)
	sw	s2, 1456(sp)
	sw	s3, 1452(sp)
	sw	s4, 1448(sp)
	sw	s5, 1444(sp)
	sw	s6, 1440(sp)
	sw	s7, 1436(sp)
	sw	s8, 1432(sp)
	sw	s9, 1428(sp)
	sw	s10, 1424(sp)
	sw	s11, 1420(sp)
	.cfi_offset ra, -4
	.cfi_offset s0, -8
	.cfi_offset s1, -12
	.cfi_offset s2, -16
	.cfi_offset s3, -20
	.cfi_offset s4, -24
	.cfi_offset s5, -28
	.cfi_offset s6, -32
	.cfi_offset s7, -36
	.cfi_offset s8, -40
	.cfi_offset s9, -44
	.cfi_offset s10, -48
	.cfi_offset s11, -52
	.cfi_remember_state
	mv	s0, a3
	mv	s1, a2
	sw	a1, 36(sp)
	sltiu	a1, a2, 2
	seqz	a2, a3
	and	a1, a1, a2
	mv	s2, a0
	bnez	a1, .LBB32_7
	li	a0, 0
	li	a1, 1
	j	.LBB32_3
.LBB32_2:
	sltu	a2, a0, s0
	beqz	a2, .LBB32_6
.LBB32_3:
	slli	a2, a1, 3
	lw	a3, 36(sp)
	add	a2, a2, a3
	lw	a3, -4(a2)
	lw	a2, 4(a2)
	bgeu	a3, a2, .LBB32_56
	addi	a1, a1, 1
	seqz	a2, a1
	add	a0, a0, a2
	bne	a0, s0, .LBB32_2
	sltu	a2, a1, s1
	bnez	a2, .LBB32_3
.LBB32_6:
	addi	a0, sp, 48
	li	a2, 1300
	li	a1, 0
	call	tlsf_memory_set
	j	.LBB32_8
.LBB32_7:
	addi	a0, sp, 48
	li	a2, 1300
	li	a1, 0
	call	tlsf_memory_set
	or	a0, s1, s0
	beqz	a0, .LBB32_57
.LBB32_8:
	sw	s2, 16(sp)
	slli	s4, s1, 2
	slli	a0, s1, 4
	add	s4, s4, a0
	addi	a0, sp, 48
	addi	s2, sp, 48
	li	a1, 0
	mv	a2, s4
	call	tlsf_memory_set
	sw	zero, 20(sp)
	sw	zero, 24(sp)
	add	s4, s4, s2
	li	a5, 1
	addi	s10, sp, 1368
	addi	t3, sp, 1392
	addi	s9, sp, 1372
	lui	a4, 2048
	lui	a0, 349525
	lui	a1, 209715
	lui	a2, 61681
	lui	a3, 4112
	sw	a5, 0(s4)
	sw	zero, 4(s4)
	sw	zero, 8(s4)
	sw	zero, 12(s4)
	sw	zero, 16(s4)
	addi	a4, a4, -23
	addi	s11, a0, 1365
	addi	t5, a1, 819
	addi	ra, a2, -241
	addi	s4, a3, 257
	sw	s0, 32(sp)
	sw	s1, 28(sp)
	j	.LBB32_10
.LBB32_9:
	lw	a1, 20(sp)
	sltiu	a0, a1, 7
	addi	a1, a1, 1
	lw	a5, 24(sp)
	seqz	a2, a5
	seqz	a3, a1
	add	a3, a3, a5
	and	a0, a0, a2
	sw	a1, 20(sp)
	sw	a3, 24(sp)
	beqz	a0, .LBB32_53
.LBB32_10:
	li	s8, 0
	li	a1, 0
	j	.LBB32_12
.LBB32_11:
	sltu	a0, a1, s0
	lw	s1, 28(sp)
	lw	s8, 44(sp)
	beqz	a0, .LBB32_9
.LBB32_12:
	li	t4, 0
	li	t6, 0
	li	t1, 0
	li	t0, 0
	mv	a0, a1
	addi	a2, s8, 1
	sltu	a1, s1, s8
	sub	a3, s0, a0
	sub	s2, s1, s8
	seqz	a5, a2
	sub	a6, a3, a1
	slli	a1, a2, 2
	add	a0, a0, a5
	sw	a0, 40(sp)
	sw	a2, 44(sp)
	slli	a0, a2, 4
	add	a0, a0, a1
	slli	s3, s8, 3
	lw	a1, 36(sp)
	add	s3, s3, a1
	addi	a7, sp, 48
	add	a7, a7, a0
	addi	a0, sp, 1388
	sw	zero, 0(a0)
	sw	zero, 4(a0)
	sw	zero, 8(a0)
	sw	zero, 12(a0)
	j	.LBB32_14
.LBB32_13:
	sltu	a0, t0, a6
	beqz	a0, .LBB32_51
.LBB32_14:
	li	s1, 0
	li	a0, 0
	mv	s0, t0
	mv	a3, t1
	slli	a1, t1, 2
	slli	a5, t1, 4
	addi	t1, t1, 1
	add	a1, a1, a5
	seqz	t0, t1
	add	s5, a7, a1
	add	t0, t0, s0
	j	.LBB32_16
.LBB32_15:
	sltu	a1, a0, s0
	addi	s1, s1, 1
	seqz	a5, s1
	add	a0, a0, a5
	beqz	a1, .LBB32_19
.LBB32_16:
	slli	a1, s1, 3
	add	a1, a1, s3
	lw	a1, 4(a1)
	bgeu	a1, a4, .LBB32_44
	bne	a0, s0, .LBB32_15
	sltu	a1, s1, a3
	addi	s1, s1, 1
	seqz	a5, s1
	add	a0, a0, a5
	bnez	a1, .LBB32_16
.LBB32_19:
	li	a5, 0
	li	s6, 0
	li	a2, 0
	li	s1, 0
	j	.LBB32_22
.LBB32_20:
	sltu	a1, s1, s0
.LBB32_21:
	slli	a0, a2, 3
	add	a0, a0, s3
	lw	s7, 0(a0)
	addi	a2, a2, 1
	add	s7, s7, a5
	sltu	a0, s7, a5
	add	s6, s6, a0
	seqz	a0, a2
	add	s1, s1, a0
	mv	a5, s7
	beqz	a1, .LBB32_24
.LBB32_22:
	bne	s1, s0, .LBB32_20
	sltu	a1, a2, a3
	j	.LBB32_21
.LBB32_24:
	li	a0, 0
	li	s1, 0
	li	t2, 0
	j	.LBB32_26
.LBB32_25:
	sltu	a1, t2, s0
	addi	s1, s1, 1
	seqz	a2, s1
	add	t2, t2, a2
	beqz	a1, .LBB32_32
.LBB32_26:
	slli	a1, s1, 3
	add	a1, a1, s3
	lw	a2, 0(a1)
	beqz	a2, .LBB32_30
	lw	a1, 4(a1)
	bltu	a0, a1, .LBB32_29
	mv	a1, a0
.LBB32_29:
	mv	a0, a1
.LBB32_30:
	bne	t2, s0, .LBB32_25
	sltu	a1, s1, a3
	addi	s1, s1, 1
	seqz	a2, s1
	add	t2, t2, a2
	bnez	a1, .LBB32_26
.LBB32_32:
	seqz	a1, a0
	add	a1, a1, a0
	sltu	a0, a1, a0
	addi	a2, a1, 31
	sltu	a1, a2, a1
	srli	a2, a2, 3
	add	a0, a0, a1
	slli	a0, a0, 29
	or	a0, a0, a2
	ori	a1, a0, 16
	addi	a0, a0, -1
	srli	a2, a1, 1
	or	a1, a1, a2
	srli	a2, a1, 2
	or	a1, a1, a2
	srli	a2, a1, 4
	or	a1, a1, a2
	srli	a2, a1, 8
	or	a1, a1, a2
	srli	a2, a1, 16
	or	a1, a1, a2
	not	a1, a1
	srli	a2, a1, 1
	and	a2, a2, s11
	sub	a1, a1, a2
	and	a2, a1, t5
	srli	a1, a1, 2
	and	a1, a1, t5
	add	a1, a1, a2
	srli	a2, a1, 4
	add	a1, a1, a2
	and	a1, a1, ra
	mul	a1, a1, s4
	srli	a1, a1, 24
	li	a2, 27
	sub	a2, a2, a1
	srl	a1, a0, a2
	addi	a1, a1, 1
	slli	a0, a2, 4
	add	a0, a0, a1
	srli	a3, a0, 4
	beqz	a3, .LBB32_34
	li	a0, 8
	sll	a0, a0, a3
	andi	a1, a1, 15
	addi	a3, a3, -1
	sll	a1, a1, a3
	add	a0, a0, a1
.LBB32_34:
	mulhu	a1, s7, a0
	mul	a2, s6, a0
	mul	a3, s7, a0
	add	a0, a1, a2
	snez	a1, a0
	lui	a2, 256
	sltu	a2, a2, a3
	or	a1, a1, a2
	bnez	a1, .LBB32_44
	lbu	a1, 0(s5)
	li	a2, 1
	bne	a1, a2, .LBB32_44
	li	a5, 4
	mv	a1, a3
	beqz	a0, .LBB32_49
	bgeu	a5, a3, .LBB32_50
.LBB32_38:
	beqz	a0, .LBB32_40
.LBB32_39:
	mv	a3, a1
.LBB32_40:
	lw	a0, 8(s5)
	lw	a1, 12(s5)
	lw	a2, 16(s5)
	lw	a5, 4(s5)
	sw	a0, 1408(sp)
	sw	a1, 1412(sp)
	sw	a2, 1416(sp)
	zext.b	a1, a0
	addi	a0, a0, 1
	add	a3, a3, a5
	addi	a2, sp, 1409
	add	a1, a1, a2
	sb	t1, 0(a1)
	sb	a0, 1408(sp)
	lw	a0, 1408(sp)
	lw	a1, 1412(sp)
	lw	a2, 1416(sp)
	sw	a3, 0(s10)
	sw	a0, 4(s10)
	sw	a1, 8(s10)
	sw	a2, 12(s10)
	lw	a1, 1368(sp)
	mv	a0, s9
	beqz	t4, .LBB32_43
	bltu	a1, t6, .LBB32_43
	mv	a0, t3
	mv	a1, t6
.LBB32_43:
	mv	t6, a1
	li	t4, 1
	j	.LBB32_47
.LBB32_44:
	sw	zero, 1380(sp)
	sw	zero, 1364(sp)
	sw	zero, 1368(sp)
	sw	zero, 1372(sp)
	sw	zero, 1376(sp)
	beqz	t4, .LBB32_46
	li	t4, 1
	mv	a0, t3
	j	.LBB32_47
.LBB32_46:
	li	t6, 0
	mv	a0, s9
.LBB32_47:
	lw	a1, 0(a0)
	lw	a2, 4(a0)
	lw	a0, 8(a0)
	sw	a1, 0(t3)
	sw	a2, 4(t3)
	sw	a0, 8(t3)
	bne	t0, a6, .LBB32_13
	sltu	a0, t1, s2
	bnez	a0, .LBB32_14
	j	.LBB32_51
.LBB32_49:
	li	a1, 4
	bltu	a5, a3, .LBB32_38
.LBB32_50:
	li	a3, 4
	bnez	a0, .LBB32_39
	j	.LBB32_40
.LBB32_51:
	sw	t6, 1388(sp)
	slli	a0, s8, 2
	slli	s8, s8, 4
	addi	a5, sp, 1388
	lw	a1, 0(a5)
	lw	a2, 4(a5)
	lw	a3, 8(a5)
	lw	a5, 12(a5)
	add	a0, a0, s8
	addi	s1, sp, 48
	add	a0, a0, s1
	sw	a1, 1348(sp)
	sw	a2, 1352(sp)
	sw	a3, 1356(sp)
	sw	a5, 1360(sp)
	sw	t4, 0(a0)
	sw	a1, 4(a0)
	sw	a2, 8(a0)
	sw	a3, 12(a0)
	sw	a5, 16(a0)
	lw	s0, 32(sp)
	lw	a1, 40(sp)
	bne	a1, s0, .LBB32_11
	lw	s1, 28(sp)
	lw	s8, 44(sp)
	sltu	a0, s8, s1
	bnez	a0, .LBB32_12
	j	.LBB32_9
.LBB32_53:
	lbu	a3, 48(sp)
	li	a0, 1
	lw	s2, 16(sp)
	bne	a3, a0, .LBB32_55
	lbu	a7, 63(sp)
	lbu	a6, 64(sp)
	lbu	a4, 59(sp)
	lbu	a5, 60(sp)
	lbu	t1, 61(sp)
	lbu	t0, 62(sp)
	lw	a0, 52(sp)
	lbu	a2, 56(sp)
	lbu	a1, 57(sp)
	lbu	s0, 58(sp)
	j	.LBB32_58
.LBB32_55:
	li	a2, 0
	li	a1, 0
	li	s0, 0
	li	a4, 0
	li	a5, 0
	li	t1, 0
	li	t0, 0
	li	a7, 0
	li	a6, 0
	li	a0, 0
	j	.LBB32_59
.LBB32_56:
	li	a2, 88
	mv	a0, s2
	li	a1, 0
	lw	ra, 1468(sp)
	lw	s0, 1464(sp)
	lw	s1, 1460(sp)
	lw	s2, 1456(sp)
	lw	s3, 1452(sp)
	lw	s4, 1448(sp)
	lw	s5, 1444(sp)
	lw	s6, 1440(sp)
	lw	s7, 1436(sp)
	lw	s8, 1432(sp)
	lw	s9, 1428(sp)
	lw	s10, 1424(sp)
	lw	s11, 1420(sp)
	.cfi_restore ra
	.cfi_restore s0
	.cfi_restore s1
	.cfi_restore s2
	.cfi_restore s3
	.cfi_restore s4
	.cfi_restore s5
	.cfi_restore s6
	.cfi_restore s7
	.cfi_restore s8
	.cfi_restore s9
	.cfi_restore s10
	.cfi_restore s11
	addi	sp, sp, 1472
	.cfi_def_cfa_offset 0
	tail	tlsf_memory_set
.LBB32_57:
	.cfi_restore_state
	li	a2, 0
	li	a1, 0
	li	s0, 0
	li	a4, 0
	li	a5, 0
	li	t1, 0
	li	t0, 0
	li	a7, 0
	li	a6, 0
.LBB32_58:
	li	a3, 1
.LBB32_59:
	sb	zero, 4(s2)
	sb	zero, 5(s2)
	sb	zero, 6(s2)
	sb	zero, 7(s2)
	sb	a3, 0(s2)
	sb	zero, 1(s2)
	sb	zero, 2(s2)
	sb	zero, 3(s2)
	sb	zero, 12(s2)
	sb	zero, 13(s2)
	sb	zero, 14(s2)
	sb	zero, 15(s2)
	sb	a2, 8(s2)
	sb	zero, 9(s2)
	sb	zero, 10(s2)
	sb	zero, 11(s2)
	sb	zero, 20(s2)
	sb	zero, 21(s2)
	sb	zero, 22(s2)
	sb	zero, 23(s2)
	sb	a1, 16(s2)
	sb	zero, 17(s2)
	sb	zero, 18(s2)
	sb	zero, 19(s2)
	sb	zero, 28(s2)
	sb	zero, 29(s2)
	sb	zero, 30(s2)
	sb	zero, 31(s2)
	sb	s0, 24(s2)
	sb	zero, 25(s2)
	sb	zero, 26(s2)
	sb	zero, 27(s2)
	sb	zero, 36(s2)
	sb	zero, 37(s2)
	sb	zero, 38(s2)
	sb	zero, 39(s2)
	sb	a4, 32(s2)
	sb	zero, 33(s2)
	sb	zero, 34(s2)
	sb	zero, 35(s2)
	sb	zero, 44(s2)
	sb	zero, 45(s2)
	sb	zero, 46(s2)
	sb	zero, 47(s2)
	sb	a5, 40(s2)
	sb	zero, 41(s2)
	sb	zero, 42(s2)
	sb	zero, 43(s2)
	sb	zero, 52(s2)
	sb	zero, 53(s2)
	sb	zero, 54(s2)
	sb	zero, 55(s2)
	sb	t1, 48(s2)
	sb	zero, 49(s2)
	sb	zero, 50(s2)
	sb	zero, 51(s2)
	sb	zero, 60(s2)
	sb	zero, 61(s2)
	sb	zero, 62(s2)
	sb	zero, 63(s2)
	sb	t0, 56(s2)
	sb	zero, 57(s2)
	sb	zero, 58(s2)
	sb	zero, 59(s2)
	sb	zero, 68(s2)
	sb	zero, 69(s2)
	sb	zero, 70(s2)
	sb	zero, 71(s2)
	sb	a7, 64(s2)
	sb	zero, 65(s2)
	sb	zero, 66(s2)
	sb	zero, 67(s2)
	sb	zero, 76(s2)
	sb	zero, 77(s2)
	sb	zero, 78(s2)
	sb	zero, 79(s2)
	sb	a6, 72(s2)
	sb	zero, 73(s2)
	sb	zero, 74(s2)
	sb	zero, 75(s2)
	sb	zero, 84(s2)
	sb	zero, 85(s2)
	sb	zero, 86(s2)
	sb	zero, 87(s2)
	srli	a1, a0, 24
	srli	a2, a0, 16
	srli	a3, a0, 8
	sb	a0, 80(s2)
	sb	a3, 81(s2)
	sb	a2, 82(s2)
	sb	a1, 83(s2)
	lw	ra, 1468(sp)
	lw	s0, 1464(sp)
	lw	s1, 1460(sp)
	lw	s2, 1456(sp)
	lw	s3, 1452(sp)
	lw	s4, 1448(sp)
	lw	s5, 1444(sp)
	lw	s6, 1440(sp)
	lw	s7, 1436(sp)
	lw	s8, 1432(sp)
	lw	s9, 1428(sp)
	lw	s10, 1424(sp)
	lw	s11, 1420(sp)
	.cfi_restore ra
	.cfi_restore s0
	.cfi_restore s1
	.cfi_restore s2
	.cfi_restore s3
	.cfi_restore s4
	.cfi_restore s5
	.cfi_restore s6
	.cfi_restore s7
	.cfi_restore s8
	.cfi_restore s9
	.cfi_restore s10
	.cfi_restore s11
	addi	sp, sp, 1472
	.cfi_def_cfa_offset 0
	ret
.Lfunc_end32:
	.size	tlsf_pool.sizes.split.rising_split.4, .Lfunc_end32-tlsf_pool.sizes.split.rising_split.4
	.cfi_endproc
	.section	.text.unlikely.std_alloc.vec.Vec.grow_amortized.8f83c87fc5454f35,"ax",@progbits
	.p2align	1
	.type	std_alloc.vec.Vec.grow_amortized.8f83c87fc5454f35,@function
std_alloc.vec.Vec.grow_amortized.8f83c87fc5454f35:
	.cfi_startproc
	addi	sp, sp, -48
	.cfi_def_cfa_offset 48
	sw	ra, 44(sp)
	sw	s0, 40(sp)
	sw	s1, 36(sp)
	sw	s2, 32(sp)
	sw	s3, 28(sp)
	sw	s4, 24(sp)
	.cfi_offset ra, -4
	.cfi_offset s0, -8
	.cfi_offset s1, -12
	.cfi_offset s2, -16
	.cfi_offset s3, -20
	.cfi_offset s4, -24
	.cfi_remember_state
	lw	a2, 8(a0)
	lw	t2, 12(a0)
	addi	a5, a2, 1
	seqz	s1, a5
	add	s1, s1, t2
	or	a1, a5, s1
	beqz	a1, .LBB33_8
	lw	t0, 16(a0)
	lw	t1, 20(a0)
	srli	a1, t0, 31
	slli	s0, t1, 1
	or	s0, s0, a1
	slli	a1, t0, 1
	beq	s1, s0, .LBB33_3
	sltu	a3, s0, s1
	srli	a4, t1, 30
	mv	a6, s1
	mv	a7, a5
	beqz	a3, .LBB33_4
	j	.LBB33_5
.LBB33_3:
	sltu	a3, a1, a5
	srli	a4, t1, 30
	mv	a6, s1
	mv	a7, a5
	bnez	a3, .LBB33_5
.LBB33_4:
	mv	a6, s0
	mv	a7, a1
.LBB33_5:
	mv	s3, a7
	mv	s4, a6
	bnez	a4, .LBB33_10
	lui	a1, 188
	addi	a1, a1, -892
	beq	s4, a1, .LBB33_11
.LBB33_7:
	sltu	a1, a1, s4
	beqz	a1, .LBB33_12
.LBB33_8:
	li	a0, 0
.LBB33_9:
	lw	ra, 44(sp)
	lw	s0, 40(sp)
	lw	s1, 36(sp)
	lw	s2, 32(sp)
	lw	s3, 28(sp)
	lw	s4, 24(sp)
	.cfi_restore ra
	.cfi_restore s0
	.cfi_restore s1
	.cfi_restore s2
	.cfi_restore s3
	.cfi_restore s4
	addi	sp, sp, 48
	.cfi_def_cfa_offset 0
	ret
.LBB33_10:
	.cfi_restore_state
	mv	s3, a5
	mv	s4, s1
	lui	a1, 188
	addi	a1, a1, -892
	bne	s1, a1, .LBB33_7
.LBB33_11:
	lui	a1, 36054
	addi	a1, a1, 774
	sltu	a1, a1, s3
	bnez	a1, .LBB33_8
.LBB33_12:
	lui	a1, 1
	or	a3, t0, t1
	addi	a4, a1, -1304
	beqz	a3, .LBB33_14
	mv	s2, a0
	lw	a1, 0(a0)
	mul	a0, t2, a4
	mulhu	a3, a2, a4
	mul	a2, a2, a4
	mul	a5, s4, a4
	add	a0, a0, a3
	mulhu	a3, s3, a4
	mul	a4, s3, a4
	add	a3, a3, a5
	seqz	a0, a0
	seqz	a3, a3
	addi	a0, a0, -1
	addi	a3, a3, -1
	or	a2, a2, a0
	or	a3, a3, a4
	addi	a0, sp, 8
	li	a4, 8
	call	tlsf_memory_realloc
	lw	a0, 8(sp)
	andi	a0, a0, 1
	beqz	a0, .LBB33_9
	j	.LBB33_15
.LBB33_14:
	mv	s2, a0
	mul	a0, a6, a4
	mulhu	a1, a7, a4
	add	a0, a0, a1
	mul	a1, a7, a4
	seqz	a0, a0
	addi	a0, a0, -1
	or	a1, a1, a0
	addi	a0, sp, 8
	li	a2, 8
	call	tlsf_memory_alloc
	lw	a0, 8(sp)
	andi	a0, a0, 1
	beqz	a0, .LBB33_9
.LBB33_15:
	lw	a0, 16(sp)
	sw	a0, 0(s2)
	sw	s3, 16(s2)
	sw	s4, 20(s2)
	li	a0, 1
	j	.LBB33_9
.Lfunc_end33:
	.size	std_alloc.vec.Vec.grow_amortized.8f83c87fc5454f35, .Lfunc_end33-std_alloc.vec.Vec.grow_amortized.8f83c87fc5454f35
	.cfi_endproc
	.section	.text.tlsf_pool.sizes.split.rising_split.5,"ax",@progbits
	.p2align	1
	.type	tlsf_pool.sizes.split.rising_split.5,@function
tlsf_pool.sizes.split.rising_split.5:
	.cfi_startproc
	addi	sp, sp, -1472
	.cfi_def_cfa_offset 1472
	sw	ra, 1468(sp)
	sw	s0, 1464(sp)
	sw	s1, 1460(sp)
	sw	s2, 1456(sp)
	sw	s3, 1452(sp)
	sw	s4, 1448(sp)
	sw	s5, 1444(sp)
	sw	s6, 1440(sp)
	sw	s7, 1436(sp)
	sw	s8, 1432(sp)
	sw	s9, 1428(sp)
	sw	s10, 1424(sp)
	sw	s11, 1420(sp)
	.cfi_offset ra, -4
	.cfi_offset s0, -8
	.cfi_offset s1, -12
	.cfi_offset s2, -16
	.cfi_offset s3, -20
	.cfi_offset s4, -24
	.cfi_offset s5, -28
	.cfi_offset s6, -32
	.cfi_offset s7, -36
	.cfi_offset s8, -40
	.cfi_offset s9, -44
	.cfi_offset s10, -48
	.cfi_offset s11, -52
	.cfi_remember_state
	mv	s0, a3
	mv	s1, a2
	sw	a1, 36(sp)
	sltiu	a1, a2, 2
	seqz	a2, a3
	and	a1, a1, a2
	mv	s2, a0
	bnez	a1, .LBB34_7
	li	a0, 0
	li	a1, 1
	j	.LBB34_3
.LBB34_2:
	sltu	a2, a0, s0
	beqz	a2, .LBB34_6
.LBB34_3:
	slli	a2, a1, 3
	lw	a3, 36(sp)
	add	a2, a2, a3
	lw	a3, -4(a2)
	lw	a2, 4(a2)
	bgeu	a3, a2, .LBB34_56
	addi	a1, a1, 1
	seqz	a2, a1
	add	a0, a0, a2
	bne	a0, s0, .LBB34_2
	sltu	a2, a1, s1
	bnez	a2, .LBB34_3
.LBB34_6:
	addi	a0, sp, 48
	li	a2, 1300
	li	a1, 0
	call	tlsf_memory_set
	j	.LBB34_8
.LBB34_7:
	addi	a0, sp, 48
	li	a2, 1300
	li	a1, 0
	call	tlsf_memory_set
	or	a0, s1, s0
	beqz	a0, .LBB34_57
.LBB34_8:
	sw	s2, 16(sp)
	slli	s4, s1, 2
	slli	a0, s1, 4
	add	s4, s4, a0
	addi	a0, sp, 48
	addi	s2, sp, 48
	li	a1, 0
	mv	a2, s4
	call	tlsf_memory_set
	sw	zero, 20(sp)
	sw	zero, 24(sp)
	add	s4, s4, s2
	li	a5, 1
	addi	s10, sp, 1368
	addi	t3, sp, 1392
	addi	s9, sp, 1372
	lui	a4, 32768
	lui	a0, 349525
	lui	a1, 209715
	lui	a2, 61681
	lui	a3, 4112
	sw	a5, 0(s4)
	sw	zero, 4(s4)
	sw	zero, 8(s4)
	sw	zero, 12(s4)
	sw	zero, 16(s4)
	addi	a4, a4, -23
	addi	s11, a0, 1365
	addi	t5, a1, 819
	addi	ra, a2, -241
	addi	s4, a3, 257
	sw	s0, 32(sp)
	sw	s1, 28(sp)
	j	.LBB34_10
.LBB34_9:
	lw	a1, 20(sp)
	sltiu	a0, a1, 7
	addi	a1, a1, 1
	lw	a5, 24(sp)
	seqz	a2, a5
	seqz	a3, a1
	add	a3, a3, a5
	and	a0, a0, a2
	sw	a1, 20(sp)
	sw	a3, 24(sp)
	beqz	a0, .LBB34_53
.LBB34_10:
	li	s8, 0
	li	a1, 0
	j	.LBB34_12
.LBB34_11:
	sltu	a0, a1, s0
	lw	s1, 28(sp)
	lw	s8, 44(sp)
	beqz	a0, .LBB34_9
.LBB34_12:
	li	t4, 0
	li	t6, 0
	li	t1, 0
	li	t0, 0
	mv	a0, a1
	addi	a2, s8, 1
	sltu	a1, s1, s8
	sub	a3, s0, a0
	sub	s2, s1, s8
	seqz	a5, a2
	sub	a6, a3, a1
	slli	a1, a2, 2
	add	a0, a0, a5
	sw	a0, 40(sp)
	sw	a2, 44(sp)
	slli	a0, a2, 4
	add	a0, a0, a1
	slli	s3, s8, 3
	lw	a1, 36(sp)
	add	s3, s3, a1
	addi	a7, sp, 48
	add	a7, a7, a0
	addi	a0, sp, 1388
	sw	zero, 0(a0)
	sw	zero, 4(a0)
	sw	zero, 8(a0)
	sw	zero, 12(a0)
	j	.LBB34_14
.LBB34_13:
	sltu	a0, t0, a6
	beqz	a0, .LBB34_51
.LBB34_14:
	li	s1, 0
	li	a0, 0
	mv	s0, t0
	mv	a3, t1
	slli	a1, t1, 2
	slli	a5, t1, 4
	addi	t1, t1, 1
	add	a1, a1, a5
	seqz	t0, t1
	add	s5, a7, a1
	add	t0, t0, s0
	j	.LBB34_16
.LBB34_15:
	sltu	a1, a0, s0
	addi	s1, s1, 1
	seqz	a5, s1
	add	a0, a0, a5
	beqz	a1, .LBB34_19
.LBB34_16:
	slli	a1, s1, 3
	add	a1, a1, s3
	lw	a1, 4(a1)
	bgeu	a1, a4, .LBB34_44
	bne	a0, s0, .LBB34_15
	sltu	a1, s1, a3
	addi	s1, s1, 1
	seqz	a5, s1
	add	a0, a0, a5
	bnez	a1, .LBB34_16
.LBB34_19:
	li	a5, 0
	li	s6, 0
	li	a2, 0
	li	s1, 0
	j	.LBB34_22
.LBB34_20:
	sltu	a1, s1, s0
.LBB34_21:
	slli	a0, a2, 3
	add	a0, a0, s3
	lw	s7, 0(a0)
	addi	a2, a2, 1
	add	s7, s7, a5
	sltu	a0, s7, a5
	add	s6, s6, a0
	seqz	a0, a2
	add	s1, s1, a0
	mv	a5, s7
	beqz	a1, .LBB34_24
.LBB34_22:
	bne	s1, s0, .LBB34_20
	sltu	a1, a2, a3
	j	.LBB34_21
.LBB34_24:
	li	a0, 0
	li	s1, 0
	li	t2, 0
	j	.LBB34_26
.LBB34_25:
	sltu	a1, t2, s0
	addi	s1, s1, 1
	seqz	a2, s1
	add	t2, t2, a2
	beqz	a1, .LBB34_32
.LBB34_26:
	slli	a1, s1, 3
	add	a1, a1, s3
	lw	a2, 0(a1)
	beqz	a2, .LBB34_30
	lw	a1, 4(a1)
	bltu	a0, a1, .LBB34_29
	mv	a1, a0
.LBB34_29:
	mv	a0, a1
.LBB34_30:
	bne	t2, s0, .LBB34_25
	sltu	a1, s1, a3
	addi	s1, s1, 1
	seqz	a2, s1
	add	t2, t2, a2
	bnez	a1, .LBB34_26
.LBB34_32:
	seqz	a1, a0
	add	a1, a1, a0
	sltu	a0, a1, a0
	addi	a2, a1, 31
	sltu	a1, a2, a1
	srli	a2, a2, 3
	add	a0, a0, a1
	slli	a0, a0, 29
	or	a0, a0, a2
	ori	a1, a0, 32
	addi	a0, a0, -1
	srli	a2, a1, 1
	or	a1, a1, a2
	srli	a2, a1, 2
	or	a1, a1, a2
	srli	a2, a1, 4
	or	a1, a1, a2
	srli	a2, a1, 8
	or	a1, a1, a2
	srli	a2, a1, 16
	or	a1, a1, a2
	not	a1, a1
	srli	a2, a1, 1
	and	a2, a2, s11
	sub	a1, a1, a2
	and	a2, a1, t5
	srli	a1, a1, 2
	and	a1, a1, t5
	add	a1, a1, a2
	srli	a2, a1, 4
	add	a1, a1, a2
	and	a1, a1, ra
	mul	a1, a1, s4
	srli	a1, a1, 24
	li	a2, 26
	sub	a2, a2, a1
	srl	a1, a0, a2
	addi	a1, a1, 1
	slli	a0, a2, 5
	add	a0, a0, a1
	srli	a3, a0, 5
	beqz	a3, .LBB34_34
	li	a0, 16
	sll	a0, a0, a3
	andi	a1, a1, 31
	addi	a3, a3, -1
	sll	a1, a1, a3
	add	a0, a0, a1
.LBB34_34:
	mulhu	a1, s7, a0
	mul	a2, s6, a0
	mul	a3, s7, a0
	add	a0, a1, a2
	snez	a1, a0
	lui	a2, 4096
	sltu	a2, a2, a3
	or	a1, a1, a2
	bnez	a1, .LBB34_44
	lbu	a1, 0(s5)
	li	a2, 1
	bne	a1, a2, .LBB34_44
	li	a5, 4
	mv	a1, a3
	beqz	a0, .LBB34_49
	bgeu	a5, a3, .LBB34_50
.LBB34_38:
	beqz	a0, .LBB34_40
.LBB34_39:
	mv	a3, a1
.LBB34_40:
	lw	a0, 8(s5)
	lw	a1, 12(s5)
	lw	a2, 16(s5)
	lw	a5, 4(s5)
	sw	a0, 1408(sp)
	sw	a1, 1412(sp)
	sw	a2, 1416(sp)
	zext.b	a1, a0
	addi	a0, a0, 1
	add	a3, a3, a5
	addi	a2, sp, 1409
	add	a1, a1, a2
	sb	t1, 0(a1)
	sb	a0, 1408(sp)
	lw	a0, 1408(sp)
	lw	a1, 1412(sp)
	lw	a2, 1416(sp)
	sw	a3, 0(s10)
	sw	a0, 4(s10)
	sw	a1, 8(s10)
	sw	a2, 12(s10)
	lw	a1, 1368(sp)
	mv	a0, s9
	beqz	t4, .LBB34_43
	bltu	a1, t6, .LBB34_43
	mv	a0, t3
	mv	a1, t6
.LBB34_43:
	mv	t6, a1
	li	t4, 1
	j	.LBB34_47
.LBB34_44:
	sw	zero, 1380(sp)
	sw	zero, 1364(sp)
	sw	zero, 1368(sp)
	sw	zero, 1372(sp)
	sw	zero, 1376(sp)
	beqz	t4, .LBB34_46
	li	t4, 1
	mv	a0, t3
	j	.LBB34_47
.LBB34_46:
	li	t6, 0
	mv	a0, s9
.LBB34_47:
	lw	a1, 0(a0)
	lw	a2, 4(a0)
	lw	a0, 8(a0)
	sw	a1, 0(t3)
	sw	a2, 4(t3)
	sw	a0, 8(t3)
	bne	t0, a6, .LBB34_13
	sltu	a0, t1, s2
	bnez	a0, .LBB34_14
	j	.LBB34_51
.LBB34_49:
	li	a1, 4
	bltu	a5, a3, .LBB34_38
.LBB34_50:
	li	a3, 4
	bnez	a0, .LBB34_39
	j	.LBB34_40
.LBB34_51:
	sw	t6, 1388(sp)
	slli	a0, s8, 2
	slli	s8, s8, 4
	addi	a5, sp, 1388
	lw	a1, 0(a5)
	lw	a2, 4(a5)
	lw	a3, 8(a5)
	lw	a5, 12(a5)
	add	a0, a0, s8
	addi	s1, sp, 48
	add	a0, a0, s1
	sw	a1, 1348(sp)
	sw	a2, 1352(sp)
	sw	a3, 1356(sp)
	sw	a5, 1360(sp)
	sw	t4, 0(a0)
	sw	a1, 4(a0)
	sw	a2, 8(a0)
	sw	a3, 12(a0)
	sw	a5, 16(a0)
	lw	s0, 32(sp)
	lw	a1, 40(sp)
	bne	a1, s0, .LBB34_11
	lw	s1, 28(sp)
	lw	s8, 44(sp)
	sltu	a0, s8, s1
	bnez	a0, .LBB34_12
	j	.LBB34_9
.LBB34_53:
	lbu	a3, 48(sp)
	li	a0, 1
	lw	s2, 16(sp)
	bne	a3, a0, .LBB34_55
	lbu	a7, 63(sp)
	lbu	a6, 64(sp)
	lbu	a4, 59(sp)
	lbu	a5, 60(sp)
	lbu	t1, 61(sp)
	lbu	t0, 62(sp)
	lw	a0, 52(sp)
	lbu	a2, 56(sp)
	lbu	a1, 57(sp)
	lbu	s0, 58(sp)
	j	.LBB34_58
.LBB34_55:
	li	a2, 0
	li	a1, 0
	li	s0, 0
	li	a4, 0
	li	a5, 0
	li	t1, 0
	li	t0, 0
	li	a7, 0
	li	a6, 0
	li	a0, 0
	j	.LBB34_59
.LBB34_56:
	li	a2, 88
	mv	a0, s2
	li	a1, 0
	lw	ra, 1468(sp)
	lw	s0, 1464(sp)
	lw	s1, 1460(sp)
	lw	s2, 1456(sp)
	lw	s3, 1452(sp)
	lw	s4, 1448(sp)
	lw	s5, 1444(sp)
	lw	s6, 1440(sp)
	lw	s7, 1436(sp)
	lw	s8, 1432(sp)
	lw	s9, 1428(sp)
	lw	s10, 1424(sp)
	lw	s11, 1420(sp)
	.cfi_restore ra
	.cfi_restore s0
	.cfi_restore s1
	.cfi_restore s2
	.cfi_restore s3
	.cfi_restore s4
	.cfi_restore s5
	.cfi_restore s6
	.cfi_restore s7
	.cfi_restore s8
	.cfi_restore s9
	.cfi_restore s10
	.cfi_restore s11
	addi	sp, sp, 1472
	.cfi_def_cfa_offset 0
	tail	tlsf_memory_set
.LBB34_57:
	.cfi_restore_state
	li	a2, 0
	li	a1, 0
	li	s0, 0
	li	a4, 0
	li	a5, 0
	li	t1, 0
	li	t0, 0
	li	a7, 0
	li	a6, 0
.LBB34_58:
	li	a3, 1
.LBB34_59:
	sb	zero, 4(s2)
	sb	zero, 5(s2)
	sb	zero, 6(s2)
	sb	zero, 7(s2)
	sb	a3, 0(s2)
	sb	zero, 1(s2)
	sb	zero, 2(s2)
	sb	zero, 3(s2)
	sb	zero, 12(s2)
	sb	zero, 13(s2)
	sb	zero, 14(s2)
	sb	zero, 15(s2)
	sb	a2, 8(s2)
	sb	zero, 9(s2)
	sb	zero, 10(s2)
	sb	zero, 11(s2)
	sb	zero, 20(s2)
	sb	zero, 21(s2)
	sb	zero, 22(s2)
	sb	zero, 23(s2)
	sb	a1, 16(s2)
	sb	zero, 17(s2)
	sb	zero, 18(s2)
	sb	zero, 19(s2)
	sb	zero, 28(s2)
	sb	zero, 29(s2)
	sb	zero, 30(s2)
	sb	zero, 31(s2)
	sb	s0, 24(s2)
	sb	zero, 25(s2)
	sb	zero, 26(s2)
	sb	zero, 27(s2)
	sb	zero, 36(s2)
	sb	zero, 37(s2)
	sb	zero, 38(s2)
	sb	zero, 39(s2)
	sb	a4, 32(s2)
	sb	zero, 33(s2)
	sb	zero, 34(s2)
	sb	zero, 35(s2)
	sb	zero, 44(s2)
	sb	zero, 45(s2)
	sb	zero, 46(s2)
	sb	zero, 47(s2)
	sb	a5, 40(s2)
	sb	zero, 41(s2)
	sb	zero, 42(s2)
	sb	zero, 43(s2)
	sb	zero, 52(s2)
	sb	zero, 53(s2)
	sb	zero, 54(s2)
	sb	zero, 55(s2)
	sb	t1, 48(s2)
	sb	zero, 49(s2)
	sb	zero, 50(s2)
	sb	zero, 51(s2)
	sb	zero, 60(s2)
	sb	zero, 61(s2)
	sb	zero, 62(s2)
	sb	zero, 63(s2)
	sb	t0, 56(s2)
	sb	zero, 57(s2)
	sb	zero, 58(s2)
	sb	zero, 59(s2)
	sb	zero, 68(s2)
	sb	zero, 69(s2)
	sb	zero, 70(s2)
	sb	zero, 71(s2)
	sb	a7, 64(s2)
	sb	zero, 65(s2)
	sb	zero, 66(s2)
	sb	zero, 67(s2)
	sb	zero, 76(s2)
	sb	zero, 77(s2)
	sb	zero, 78(s2)
	sb	zero, 79(s2)
	sb	a6, 72(s2)
	sb	zero, 73(s2)
	sb	zero, 74(s2)
	sb	zero, 75(s2)
	sb	zero, 84(s2)
	sb	zero, 85(s2)
	sb	zero, 86(s2)
	sb	zero, 87(s2)
	srli	a1, a0, 24
	srli	a2, a0, 16
	srli	a3, a0, 8
	sb	a0, 80(s2)
	sb	a3, 81(s2)
	sb	a2, 82(s2)
	sb	a1, 83(s2)
	lw	ra, 1468(sp)
	lw	s0, 1464(sp)
	lw	s1, 1460(sp)
	lw	s2, 1456(sp)
	lw	s3, 1452(sp)
	lw	s4, 1448(sp)
	lw	s5, 1444(sp)
	lw	s6, 1440(sp)
	lw	s7, 1436(sp)
	lw	s8, 1432(sp)
	lw	s9, 1428(sp)
	lw	s10, 1424(sp)
	lw	s11, 1420(sp)
	.cfi_restore ra
	.cfi_restore s0
	.cfi_restore s1
	.cfi_restore s2
	.cfi_restore s3
	.cfi_restore s4
	.cfi_restore s5
	.cfi_restore s6
	.cfi_restore s7
	.cfi_restore s8
	.cfi_restore s9
	.cfi_restore s10
	.cfi_restore s11
	addi	sp, sp, 1472
	.cfi_def_cfa_offset 0
	ret
.Lfunc_end34:
	.size	tlsf_pool.sizes.split.rising_split.5, .Lfunc_end34-tlsf_pool.sizes.split.rising_split.5
	.cfi_endproc
	.section	.text.unlikely.std_alloc.vec.Vec.grow_amortized.cb831ce0f1fbfa3d,"ax",@progbits
	.p2align	1
	.type	std_alloc.vec.Vec.grow_amortized.cb831ce0f1fbfa3d,@function
std_alloc.vec.Vec.grow_amortized.cb831ce0f1fbfa3d:
	.cfi_startproc
	addi	sp, sp, -48
	.cfi_def_cfa_offset 48
	sw	ra, 44(sp)
	sw	s0, 40(sp)
	sw	s1, 36(sp)
	sw	s2, 32(sp)
	sw	s3, 28(sp)
	sw	s4, 24(sp)
	.cfi_offset ra, -4
	.cfi_offset s0, -8
	.cfi_offset s1, -12
	.cfi_offset s2, -16
	.cfi_offset s3, -20
	.cfi_offset s4, -24
	.cfi_remember_state
	lw	a2, 8(a0)
	lw	t2, 12(a0)
	addi	a5, a2, 1
	seqz	s1, a5
	add	s1, s1, t2
	or	a1, a5, s1
	beqz	a1, .LBB35_8
	lw	t0, 16(a0)
	lw	t1, 20(a0)
	srli	a1, t0, 31
	slli	s0, t1, 1
	or	s0, s0, a1
	slli	a1, t0, 1
	beq	s1, s0, .LBB35_3
	sltu	a3, s0, s1
	srli	a4, t1, 30
	mv	a6, s1
	mv	a7, a5
	beqz	a3, .LBB35_4
	j	.LBB35_5
.LBB35_3:
	sltu	a3, a1, a5
	srli	a4, t1, 30
	mv	a6, s1
	mv	a7, a5
	bnez	a3, .LBB35_5
.LBB35_4:
	mv	a6, s0
	mv	a7, a1
.LBB35_5:
	mv	s3, a7
	mv	s4, a6
	bnez	a4, .LBB35_10
	lui	a1, 188
	addi	a1, a1, -892
	beq	s4, a1, .LBB35_11
.LBB35_7:
	sltu	a1, a1, s4
	beqz	a1, .LBB35_12
.LBB35_8:
	li	a0, 0
.LBB35_9:
	lw	ra, 44(sp)
	lw	s0, 40(sp)
	lw	s1, 36(sp)
	lw	s2, 32(sp)
	lw	s3, 28(sp)
	lw	s4, 24(sp)
	.cfi_restore ra
	.cfi_restore s0
	.cfi_restore s1
	.cfi_restore s2
	.cfi_restore s3
	.cfi_restore s4
	addi	sp, sp, 48
	.cfi_def_cfa_offset 0
	ret
.LBB35_10:
	.cfi_restore_state
	mv	s3, a5
	mv	s4, s1
	lui	a1, 188
	addi	a1, a1, -892
	bne	s1, a1, .LBB35_7
.LBB35_11:
	lui	a1, 36054
	addi	a1, a1, 774
	sltu	a1, a1, s3
	bnez	a1, .LBB35_8
.LBB35_12:
	lui	a1, 1
	or	a3, t0, t1
	addi	a4, a1, -1304
	beqz	a3, .LBB35_14
	mv	s2, a0
	lw	a1, 0(a0)
	mul	a0, t2, a4
	mulhu	a3, a2, a4
	mul	a2, a2, a4
	mul	a5, s4, a4
	add	a0, a0, a3
	mulhu	a3, s3, a4
	mul	a4, s3, a4
	add	a3, a3, a5
	seqz	a0, a0
	seqz	a3, a3
	addi	a0, a0, -1
	addi	a3, a3, -1
	or	a2, a2, a0
	or	a3, a3, a4
	addi	a0, sp, 8
	li	a4, 8
	call	tlsf_memory_realloc
	lw	a0, 8(sp)
	andi	a0, a0, 1
	beqz	a0, .LBB35_9
	j	.LBB35_15
.LBB35_14:
	mv	s2, a0
	mul	a0, a6, a4
	mulhu	a1, a7, a4
	add	a0, a0, a1
	mul	a1, a7, a4
	seqz	a0, a0
	addi	a0, a0, -1
	or	a1, a1, a0
	addi	a0, sp, 8
	li	a2, 8
	call	tlsf_memory_alloc
	lw	a0, 8(sp)
	andi	a0, a0, 1
	beqz	a0, .LBB35_9
.LBB35_15:
	lw	a0, 16(sp)
	sw	a0, 0(s2)
	sw	s3, 16(s2)
	sw	s4, 20(s2)
	li	a0, 1
	j	.LBB35_9
.Lfunc_end35:
	.size	std_alloc.vec.Vec.grow_amortized.cb831ce0f1fbfa3d, .Lfunc_end35-std_alloc.vec.Vec.grow_amortized.cb831ce0f1fbfa3d
	.cfi_endproc
	.section	.text.tlsf_heap.region.Region.read.4,"ax",@progbits
	.p2align	1
	.type	tlsf_heap.region.Region.read.4,@function
tlsf_heap.region.Region.read.4:
	.cfi_startproc
	mv	a6, a1
	slli	a7, a1, 3
	or	a1, a4, a2
	add	t1, a7, a2
	andi	t0, a1, 7
	addi	a1, t1, 24
	beqz	t0, .LBB36_3
	srli	a6, a6, 29
	sltu	a7, t1, a7
	sltiu	t0, a4, 8
	add	a6, a6, a7
	seqz	a2, a5
	and	a7, a2, t0
	sltu	a2, a1, t1
	add	a2, a2, a6
	beqz	a7, .LBB36_8
	tail	tlsf_words.words.Words.read_few
.LBB36_3:
	srli	a6, a4, 3
	slli	a2, a5, 29
	lw	a7, 0(a0)
	andi	a0, a1, -8
	or	a1, a6, a2
	sltiu	a2, a4, 64
	seqz	a6, a5
	and	a2, a6, a2
	add	a0, a0, a7
	beqz	a2, .LBB36_9
	andi	a2, a4, 8
	slli	a7, a1, 3
	bnez	a2, .LBB36_10
	andi	a1, a4, 16
	bnez	a1, .LBB36_11
.LBB36_6:
	sltiu	a1, a4, 25
	and	a1, a6, a1
	beqz	a1, .LBB36_12
.LBB36_7:
	ret
.LBB36_8:
	tail	tlsf_words.words.Words.read_run
.LBB36_9:
	srli	a2, a5, 3
	tail	tlsf_words.cells.unpack_many
.LBB36_10:
	add	a2, a0, a7
	lw	a5, -4(a2)
	lw	a2, -8(a2)
	add	a1, a3, a7
	srli	t0, a5, 24
	srli	t1, a5, 16
	srli	t2, a5, 8
	srli	t3, a2, 24
	srli	t4, a2, 16
	sb	a5, -4(a1)
	sb	t2, -3(a1)
	sb	t1, -2(a1)
	sb	t0, -1(a1)
	srli	a5, a2, 8
	sb	a2, -8(a1)
	sb	a5, -7(a1)
	sb	t4, -6(a1)
	sb	t3, -5(a1)
	andi	a1, a4, 16
	beqz	a1, .LBB36_6
.LBB36_11:
	andi	a1, a7, 32
	add	a7, a0, a1
	lw	a5, 4(a7)
	lw	a2, 0(a7)
	add	a1, a1, a3
	srli	t0, a5, 24
	srli	t1, a5, 16
	srli	t2, a5, 8
	srli	t3, a2, 24
	srli	t4, a2, 16
	srli	t5, a2, 8
	sb	a5, 4(a1)
	sb	t2, 5(a1)
	sb	t1, 6(a1)
	sb	t0, 7(a1)
	sb	a2, 0(a1)
	sb	t5, 1(a1)
	sb	t4, 2(a1)
	sb	t3, 3(a1)
	lw	a2, 12(a7)
	lw	a5, 8(a7)
	srli	a7, a2, 24
	srli	t0, a2, 16
	srli	t1, a2, 8
	srli	t2, a5, 24
	srli	t3, a5, 16
	sb	a2, 12(a1)
	sb	t1, 13(a1)
	sb	t0, 14(a1)
	sb	a7, 15(a1)
	srli	a2, a5, 8
	sb	a5, 8(a1)
	sb	a2, 9(a1)
	sb	t3, 10(a1)
	sb	t2, 11(a1)
	sltiu	a1, a4, 25
	and	a1, a6, a1
	bnez	a1, .LBB36_7
.LBB36_12:
	lw	a1, 4(a0)
	lw	a2, 0(a0)
	srli	a6, a1, 24
	srli	t0, a1, 16
	srli	a4, a1, 8
	srli	a7, a2, 24
	srli	t1, a2, 16
	srli	a5, a2, 8
	sb	a1, 4(a3)
	sb	a4, 5(a3)
	sb	t0, 6(a3)
	sb	a6, 7(a3)
	sb	a2, 0(a3)
	sb	a5, 1(a3)
	sb	t1, 2(a3)
	sb	a7, 3(a3)
	lw	a1, 12(a0)
	lw	a2, 8(a0)
	srli	a6, a1, 24
	srli	t0, a1, 16
	srli	a4, a1, 8
	srli	a7, a2, 24
	srli	t1, a2, 16
	srli	a5, a2, 8
	sb	a1, 12(a3)
	sb	a4, 13(a3)
	sb	t0, 14(a3)
	sb	a6, 15(a3)
	sb	a2, 8(a3)
	sb	a5, 9(a3)
	sb	t1, 10(a3)
	sb	a7, 11(a3)
	lw	a1, 20(a0)
	lw	a2, 16(a0)
	srli	a6, a1, 24
	srli	t0, a1, 16
	srli	a4, a1, 8
	srli	a7, a2, 24
	srli	t1, a2, 16
	srli	a5, a2, 8
	sb	a1, 20(a3)
	sb	a4, 21(a3)
	sb	t0, 22(a3)
	sb	a6, 23(a3)
	sb	a2, 16(a3)
	sb	a5, 17(a3)
	sb	t1, 18(a3)
	sb	a7, 19(a3)
	lw	a1, 28(a0)
	lw	a0, 24(a0)
	srli	a7, a1, 24
	srli	a4, a1, 16
	srli	a5, a1, 8
	srli	a6, a0, 24
	srli	a2, a0, 16
	sb	a1, 28(a3)
	sb	a5, 29(a3)
	sb	a4, 30(a3)
	sb	a7, 31(a3)
	srli	a1, a0, 8
	sb	a0, 24(a3)
	sb	a1, 25(a3)
	sb	a2, 26(a3)
	sb	a6, 27(a3)
	ret
.Lfunc_end36:
	.size	tlsf_heap.region.Region.read.4, .Lfunc_end36-tlsf_heap.region.Region.read.4
	.cfi_endproc
	.section	.text.tlsf_words.cells.unpack_many,"ax",@progbits
	.p2align	1
	.type	tlsf_words.cells.unpack_many,@function
tlsf_words.cells.unpack_many:
	.cfi_startproc
	addi	sp, sp, -32
	.cfi_def_cfa_offset 32
	andi	a7, a1, -4
	andi	a4, a1, 1
	slli	a6, a7, 3
	add	a5, a3, a6
	add	a6, a6, a0
	beqz	a4, .LBB37_2
	slli	a4, a1, 3
	andi	t0, a4, 24
	add	t1, a6, t0
	lw	a4, -4(t1)
	lw	t1, -8(t1)
	add	t0, t0, a5
	srli	t2, a4, 24
	srli	t3, a4, 16
	srli	t4, a4, 8
	srli	t5, t1, 24
	srli	t6, t1, 16
	sb	a4, -4(t0)
	sb	t4, -3(t0)
	sb	t3, -2(t0)
	sb	t2, -1(t0)
	srli	a4, t1, 8
	sb	t1, -8(t0)
	sb	a4, -7(t0)
	sb	t6, -6(t0)
	sb	t5, -5(t0)
.LBB37_2:
	andi	a1, a1, 2
	beqz	a1, .LBB37_4
	lw	a1, 4(a6)
	lw	a4, 0(a6)
	srli	t0, a1, 24
	srli	t1, a1, 16
	srli	t2, a1, 8
	srli	t3, a4, 24
	srli	t4, a4, 16
	srli	t5, a4, 8
	sb	a1, 4(a5)
	sb	t2, 5(a5)
	sb	t1, 6(a5)
	sb	t0, 7(a5)
	sb	a4, 0(a5)
	sb	t5, 1(a5)
	sb	t4, 2(a5)
	sb	t3, 3(a5)
	lw	a1, 12(a6)
	lw	a4, 8(a6)
	srli	a6, a1, 24
	srli	t0, a1, 16
	srli	t1, a1, 8
	srli	t2, a4, 24
	srli	t3, a4, 16
	sb	a1, 12(a5)
	sb	t1, 13(a5)
	sb	t0, 14(a5)
	sb	a6, 15(a5)
	srli	a1, a4, 8
	sb	a4, 8(a5)
	sb	a1, 9(a5)
	sb	t3, 10(a5)
	sb	t2, 11(a5)
.LBB37_4:
	li	t0, 0
	li	a6, 0
	j	.LBB37_6
.LBB37_5:
	sltu	a4, a6, a2
	beqz	a4, .LBB37_8
.LBB37_6:
	slli	a1, t0, 3
	addi	t0, t0, 1
	add	a4, a0, a1
	lw	t1, 0(a4)
	lw	a4, 4(a4)
	add	a1, a1, a3
	seqz	a5, t0
	add	a6, a6, a5
	srli	t2, a4, 24
	srli	t3, a4, 16
	srli	a5, a4, 8
	srli	t4, t1, 24
	srli	t5, t1, 16
	sb	a4, 4(a1)
	sb	a5, 5(a1)
	sb	t3, 6(a1)
	sb	t2, 7(a1)
	srli	a4, t1, 8
	sb	t1, 0(a1)
	sb	a4, 1(a1)
	sb	t5, 2(a1)
	sb	t4, 3(a1)
	bne	a6, a2, .LBB37_5
	sltu	a4, t0, a7
	bnez	a4, .LBB37_6
.LBB37_8:
	addi	sp, sp, 32
	.cfi_def_cfa_offset 0
	ret
.Lfunc_end37:
	.size	tlsf_words.cells.unpack_many, .Lfunc_end37-tlsf_words.cells.unpack_many
	.cfi_endproc
	.section	.text.tlsf_words.words.Words.read_few,"ax",@progbits
	.p2align	1
	.type	tlsf_words.words.Words.read_few,@function
tlsf_words.words.Words.read_few:
	.cfi_startproc
	addi	sp, sp, -48
	.cfi_def_cfa_offset 48
	sw	ra, 44(sp)
	sw	s0, 40(sp)
	sw	s1, 36(sp)
	sw	s2, 32(sp)
	sw	s3, 28(sp)
	sw	s4, 24(sp)
	sw	s5, 20(sp)
	sw	s6, 16(sp)
	sw	s7, 12(sp)
	.cfi_offset ra, -4
	.cfi_offset s0, -8
	.cfi_offset s1, -12
	.cfi_offset s2, -16
	.cfi_offset s3, -20
	.cfi_offset s4, -24
	.cfi_offset s5, -28
	.cfi_offset s6, -32
	.cfi_offset s7, -36
	mv	s0, a5
	mv	s5, a4
	mv	s2, a3
	mv	s3, a0
	andi	a0, a1, 7
	li	a3, 8
	sltiu	s1, a0, 9
	addi	s1, s1, -1
	sub	s6, a3, a0
	beq	s1, a5, .LBB38_2
	sltu	a3, s1, s0
	mv	s4, s6
	beqz	a3, .LBB38_3
	j	.LBB38_4
.LBB38_2:
	sltu	a3, s6, s5
	mv	s4, s6
	bnez	a3, .LBB38_4
.LBB38_3:
	mv	s4, s5
.LBB38_4:
	slli	a2, a2, 29
	srli	a1, a1, 3
	or	a1, a1, a2
	or	a2, s5, s0
	slli	s7, a1, 3
	beqz	a2, .LBB38_6
	lw	a1, 0(s3)
	add	a1, a1, s7
	lw	a2, 0(a1)
	lw	a1, 4(a1)
	mv	a3, sp
	sw	a2, 0(sp)
	sw	a1, 4(sp)
	or	a1, a3, a0
	mv	a0, s2
	mv	a2, s4
	call	tlsf_memory_cpy
.LBB38_6:
	beq	s0, s1, .LBB38_8
	sltu	a0, s1, s0
	bnez	a0, .LBB38_9
	j	.LBB38_10
.LBB38_8:
	sltu	a0, s6, s5
	beqz	a0, .LBB38_10
.LBB38_9:
	lw	a0, 0(s3)
	add	a0, a0, s7
	lw	a1, 8(a0)
	lw	a3, 12(a0)
	sub	a2, s5, s4
	add	a0, s2, s4
	sw	a1, 0(sp)
	sw	a3, 4(sp)
	mv	a1, sp
	call	tlsf_memory_cpy
.LBB38_10:
	lw	ra, 44(sp)
	lw	s0, 40(sp)
	lw	s1, 36(sp)
	lw	s2, 32(sp)
	lw	s3, 28(sp)
	lw	s4, 24(sp)
	lw	s5, 20(sp)
	lw	s6, 16(sp)
	lw	s7, 12(sp)
	.cfi_restore ra
	.cfi_restore s0
	.cfi_restore s1
	.cfi_restore s2
	.cfi_restore s3
	.cfi_restore s4
	.cfi_restore s5
	.cfi_restore s6
	.cfi_restore s7
	addi	sp, sp, 48
	.cfi_def_cfa_offset 0
	ret
.Lfunc_end38:
	.size	tlsf_words.words.Words.read_few, .Lfunc_end38-tlsf_words.words.Words.read_few
	.cfi_endproc
	.section	.text.tlsf_words.words.Words.read_run,"ax",@progbits
	.p2align	1
	.type	tlsf_words.words.Words.read_run,@function
tlsf_words.words.Words.read_run:
	.cfi_startproc
	addi	sp, sp, -16
	.cfi_def_cfa_offset 16
	sw	s0, 12(sp)
	sw	s1, 8(sp)
	sw	s2, 4(sp)
	sw	s3, 0(sp)
	.cfi_offset s0, -4
	.cfi_offset s1, -8
	.cfi_offset s2, -12
	.cfi_offset s3, -16
	.cfi_remember_state
	neg	s0, a1
	addi	a6, a1, 7
	andi	t6, a1, 7
	andi	a7, s0, 7
	sltu	s0, a6, a1
	srli	t0, a6, 3
	sltu	s1, a4, a7
	sub	a6, a4, a7
	add	a2, a2, s0
	sub	t1, a5, s1
	srli	t3, a6, 3
	slli	t2, a2, 29
	andi	a2, a6, -8
	slli	t4, t1, 29
	or	t5, a2, a7
	beqz	t6, .LBB39_5
	lw	a2, 0(a0)
	andi	a1, a1, -8
	add	a2, a2, a1
	lw	s0, 4(a2)
	slli	a1, t6, 3
	addi	s1, a1, -32
	srl	t6, s0, a1
	bltz	s1, .LBB39_3
	mv	a1, t6
	j	.LBB39_4
.LBB39_3:
	lw	a2, 0(a2)
	slli	s0, s0, 1
	srl	a2, a2, a1
	not	a1, a1
	sll	a1, s0, a1
	or	a1, a1, a2
.LBB39_4:
	srai	s1, s1, 31
	srli	s2, a1, 24
	srli	s3, a1, 16
	and	s1, s1, t6
	srli	t6, s1, 24
	srli	s0, s1, 16
	srli	a2, s1, 8
	sb	s1, 4(a3)
	sb	a2, 5(a3)
	sb	s0, 6(a3)
	sb	t6, 7(a3)
	srli	a2, a1, 8
	sb	a1, 0(a3)
	sb	a2, 1(a3)
	sb	s3, 2(a3)
	sb	s2, 3(a3)
.LBB39_5:
	or	a1, t3, t4
	xor	a2, t5, a4
	or	a2, a2, a5
	or	t3, t0, t2
	beqz	a2, .LBB39_13
	sub	t2, t5, a4
	add	a5, a1, t3
	lw	t0, 0(a0)
	add	a4, a4, a3
	slli	a5, a5, 3
	lbu	t4, -8(a4)
	lbu	s0, -7(a4)
	lbu	a2, -6(a4)
	lbu	s1, -5(a4)
	add	t0, t0, a5
	slli	s0, s0, 8
	slli	a2, a2, 16
	slli	s1, s1, 24
	or	t4, s0, t4
	or	t5, s1, a2
	lbu	a2, -3(a4)
	lbu	s0, -4(a4)
	lbu	a5, -2(a4)
	lbu	s1, -1(a4)
	slli	a2, a2, 8
	or	s0, s0, a2
	li	s3, -1
	slli	a2, t2, 3
	slli	a5, a5, 16
	slli	s1, s1, 24
	or	a5, a5, s1
	not	t2, a2
	or	t4, t5, t4
	lw	t6, 0(t0)
	or	s2, a5, s0
	addi	t5, a2, 32
	sll	s1, s3, a2
	bltz	t5, .LBB39_8
	mv	s0, s1
	j	.LBB39_9
.LBB39_8:
	lui	a5, 524288
	addi	a5, a5, -1
	srl	s0, a5, t2
	or	s0, s0, s1
.LBB39_9:
	srai	a5, t5, 31
	not	s0, s0
	and	s1, s1, a5
	and	s2, s2, s0
	not	s0, s1
	and	s0, t4, s0
	sll	s1, t6, a2
	bltz	t5, .LBB39_11
	mv	a2, s1
	j	.LBB39_12
.LBB39_11:
	lw	t0, 4(t0)
	srli	t4, t6, 1
	sll	t0, t0, a2
	srl	a2, t4, t2
	or	a2, t0, a2
.LBB39_12:
	and	a5, a5, s1
	add	s2, s2, a2
	add	a5, a5, s0
	sltu	s1, a5, s0
	srli	t0, a5, 16
	srli	a2, a5, 24
	add	s1, s1, s2
	srli	s0, a5, 8
	sb	a5, -8(a4)
	sb	s0, -7(a4)
	sb	t0, -6(a4)
	sb	a2, -5(a4)
	srli	a2, s1, 16
	srli	a5, s1, 24
	srli	s0, s1, 8
	sb	s1, -4(a4)
	sb	s0, -3(a4)
	sb	a2, -2(a4)
	sb	a5, -1(a4)
.LBB39_13:
	add	a3, a3, a7
	lw	a0, 0(a0)
	slli	t3, t3, 3
	sltiu	a2, a6, 64
	seqz	a4, t1
	and	a2, a2, a4
	add	a0, a0, t3
	beqz	a2, .LBB39_18
	andi	a2, a6, 8
	slli	s1, a1, 3
	bnez	a2, .LBB39_19
	andi	a1, a6, 16
	bnez	a1, .LBB39_20
.LBB39_16:
	sltiu	a1, a6, 32
	and	a1, a1, a4
	beqz	a1, .LBB39_21
.LBB39_17:
	lw	s0, 12(sp)
	lw	s1, 8(sp)
	lw	s2, 4(sp)
	lw	s3, 0(sp)
	.cfi_restore s0
	.cfi_restore s1
	.cfi_restore s2
	.cfi_restore s3
	addi	sp, sp, 16
	.cfi_def_cfa_offset 0
	ret
.LBB39_18:
	.cfi_restore_state
	.cfi_remember_state
	srli	a2, t1, 3
	lw	s0, 12(sp)
	lw	s1, 8(sp)
	lw	s2, 4(sp)
	lw	s3, 0(sp)
	.cfi_restore s0
	.cfi_restore s1
	.cfi_restore s2
	.cfi_restore s3
	addi	sp, sp, 16
	.cfi_def_cfa_offset 0
	tail	tlsf_words.cells.unpack_many
.LBB39_19:
	.cfi_restore_state
	add	a2, a0, s1
	lw	a5, -4(a2)
	lw	a2, -8(a2)
	add	a1, a3, s1
	srli	a7, a5, 24
	srli	t0, a5, 16
	srli	s0, a5, 8
	srli	t1, a2, 24
	srli	t2, a2, 16
	sb	a5, -4(a1)
	sb	s0, -3(a1)
	sb	t0, -2(a1)
	sb	a7, -1(a1)
	srli	a5, a2, 8
	sb	a2, -8(a1)
	sb	a5, -7(a1)
	sb	t2, -6(a1)
	sb	t1, -5(a1)
	andi	a1, a6, 16
	beqz	a1, .LBB39_16
.LBB39_20:
	andi	a1, s1, 32
	add	a2, a0, a1
	lw	a5, 4(a2)
	lw	s1, 0(a2)
	add	a1, a1, a3
	srli	a7, a5, 24
	srli	t0, a5, 16
	srli	t3, a5, 8
	srli	t1, s1, 24
	srli	t2, s1, 16
	srli	s0, s1, 8
	sb	a5, 4(a1)
	sb	t3, 5(a1)
	sb	t0, 6(a1)
	sb	a7, 7(a1)
	sb	s1, 0(a1)
	sb	s0, 1(a1)
	sb	t2, 2(a1)
	sb	t1, 3(a1)
	lw	a5, 12(a2)
	lw	a2, 8(a2)
	srli	a7, a5, 24
	srli	s0, a5, 16
	srli	s1, a5, 8
	srli	t0, a2, 24
	srli	t1, a2, 16
	sb	a5, 12(a1)
	sb	s1, 13(a1)
	sb	s0, 14(a1)
	sb	a7, 15(a1)
	srli	a5, a2, 8
	sb	a2, 8(a1)
	sb	a5, 9(a1)
	sb	t1, 10(a1)
	sb	t0, 11(a1)
	sltiu	a1, a6, 32
	and	a1, a1, a4
	bnez	a1, .LBB39_17
.LBB39_21:
	lw	a1, 4(a0)
	lw	a2, 0(a0)
	srli	a6, a1, 24
	srli	a5, a1, 16
	srli	s1, a1, 8
	srli	a7, a2, 24
	srli	a4, a2, 16
	srli	s0, a2, 8
	sb	a1, 4(a3)
	sb	s1, 5(a3)
	sb	a5, 6(a3)
	sb	a6, 7(a3)
	sb	a2, 0(a3)
	sb	s0, 1(a3)
	sb	a4, 2(a3)
	sb	a7, 3(a3)
	lw	a1, 12(a0)
	lw	a2, 8(a0)
	srli	a6, a1, 24
	srli	a5, a1, 16
	srli	s1, a1, 8
	srli	a7, a2, 24
	srli	a4, a2, 16
	srli	s0, a2, 8
	sb	a1, 12(a3)
	sb	s1, 13(a3)
	sb	a5, 14(a3)
	sb	a6, 15(a3)
	sb	a2, 8(a3)
	sb	s0, 9(a3)
	sb	a4, 10(a3)
	sb	a7, 11(a3)
	lw	a1, 20(a0)
	lw	a2, 16(a0)
	srli	a6, a1, 24
	srli	a5, a1, 16
	srli	s1, a1, 8
	srli	a7, a2, 24
	srli	a4, a2, 16
	srli	s0, a2, 8
	sb	a1, 20(a3)
	sb	s1, 21(a3)
	sb	a5, 22(a3)
	sb	a6, 23(a3)
	sb	a2, 16(a3)
	sb	s0, 17(a3)
	sb	a4, 18(a3)
	sb	a7, 19(a3)
	lw	a1, 28(a0)
	lw	a0, 24(a0)
	srli	a2, a1, 24
	srli	a4, a1, 16
	srli	a5, a1, 8
	srli	s1, a0, 24
	srli	s0, a0, 16
	sb	a1, 28(a3)
	sb	a5, 29(a3)
	sb	a4, 30(a3)
	sb	a2, 31(a3)
	srli	a1, a0, 8
	sb	a0, 24(a3)
	sb	a1, 25(a3)
	sb	s0, 26(a3)
	sb	s1, 27(a3)
	lw	s0, 12(sp)
	lw	s1, 8(sp)
	lw	s2, 4(sp)
	lw	s3, 0(sp)
	.cfi_restore s0
	.cfi_restore s1
	.cfi_restore s2
	.cfi_restore s3
	addi	sp, sp, 16
	.cfi_def_cfa_offset 0
	ret
.Lfunc_end39:
	.size	tlsf_words.words.Words.read_run, .Lfunc_end39-tlsf_words.words.Words.read_run
	.cfi_endproc
	.section	.text.tlsf_heap.region.Region.read.5,"ax",@progbits
	.p2align	1
	.type	tlsf_heap.region.Region.read.5,@function
tlsf_heap.region.Region.read.5:
	.cfi_startproc
	mv	a6, a1
	slli	a7, a1, 3
	or	a1, a4, a2
	add	t1, a7, a2
	andi	t0, a1, 7
	addi	a1, t1, 24
	beqz	t0, .LBB40_3
	srli	a6, a6, 29
	sltu	a7, t1, a7
	sltiu	t0, a4, 8
	add	a6, a6, a7
	seqz	a2, a5
	and	a7, a2, t0
	sltu	a2, a1, t1
	add	a2, a2, a6
	beqz	a7, .LBB40_8
	tail	tlsf_words.words.Words.read_few
.LBB40_3:
	srli	a6, a4, 3
	slli	a2, a5, 29
	lw	a7, 0(a0)
	andi	a0, a1, -8
	or	a1, a6, a2
	sltiu	a2, a4, 64
	seqz	a6, a5
	and	a2, a6, a2
	add	a0, a0, a7
	beqz	a2, .LBB40_9
	andi	a2, a4, 8
	slli	a7, a1, 3
	bnez	a2, .LBB40_10
	andi	a1, a4, 16
	bnez	a1, .LBB40_11
.LBB40_6:
	sltiu	a1, a4, 25
	and	a1, a6, a1
	beqz	a1, .LBB40_12
.LBB40_7:
	ret
.LBB40_8:
	tail	tlsf_words.words.Words.read_run
.LBB40_9:
	srli	a2, a5, 3
	tail	tlsf_words.cells.unpack_many
.LBB40_10:
	add	a2, a0, a7
	lw	a5, -4(a2)
	lw	a2, -8(a2)
	add	a1, a3, a7
	srli	t0, a5, 24
	srli	t1, a5, 16
	srli	t2, a5, 8
	srli	t3, a2, 24
	srli	t4, a2, 16
	sb	a5, -4(a1)
	sb	t2, -3(a1)
	sb	t1, -2(a1)
	sb	t0, -1(a1)
	srli	a5, a2, 8
	sb	a2, -8(a1)
	sb	a5, -7(a1)
	sb	t4, -6(a1)
	sb	t3, -5(a1)
	andi	a1, a4, 16
	beqz	a1, .LBB40_6
.LBB40_11:
	andi	a1, a7, 32
	add	a7, a0, a1
	lw	a5, 4(a7)
	lw	a2, 0(a7)
	add	a1, a1, a3
	srli	t0, a5, 24
	srli	t1, a5, 16
	srli	t2, a5, 8
	srli	t3, a2, 24
	srli	t4, a2, 16
	srli	t5, a2, 8
	sb	a5, 4(a1)
	sb	t2, 5(a1)
	sb	t1, 6(a1)
	sb	t0, 7(a1)
	sb	a2, 0(a1)
	sb	t5, 1(a1)
	sb	t4, 2(a1)
	sb	t3, 3(a1)
	lw	a2, 12(a7)
	lw	a5, 8(a7)
	srli	a7, a2, 24
	srli	t0, a2, 16
	srli	t1, a2, 8
	srli	t2, a5, 24
	srli	t3, a5, 16
	sb	a2, 12(a1)
	sb	t1, 13(a1)
	sb	t0, 14(a1)
	sb	a7, 15(a1)
	srli	a2, a5, 8
	sb	a5, 8(a1)
	sb	a2, 9(a1)
	sb	t3, 10(a1)
	sb	t2, 11(a1)
	sltiu	a1, a4, 25
	and	a1, a6, a1
	bnez	a1, .LBB40_7
.LBB40_12:
	lw	a1, 4(a0)
	lw	a2, 0(a0)
	srli	a6, a1, 24
	srli	t0, a1, 16
	srli	a4, a1, 8
	srli	a7, a2, 24
	srli	t1, a2, 16
	srli	a5, a2, 8
	sb	a1, 4(a3)
	sb	a4, 5(a3)
	sb	t0, 6(a3)
	sb	a6, 7(a3)
	sb	a2, 0(a3)
	sb	a5, 1(a3)
	sb	t1, 2(a3)
	sb	a7, 3(a3)
	lw	a1, 12(a0)
	lw	a2, 8(a0)
	srli	a6, a1, 24
	srli	t0, a1, 16
	srli	a4, a1, 8
	srli	a7, a2, 24
	srli	t1, a2, 16
	srli	a5, a2, 8
	sb	a1, 12(a3)
	sb	a4, 13(a3)
	sb	t0, 14(a3)
	sb	a6, 15(a3)
	sb	a2, 8(a3)
	sb	a5, 9(a3)
	sb	t1, 10(a3)
	sb	a7, 11(a3)
	lw	a1, 20(a0)
	lw	a2, 16(a0)
	srli	a6, a1, 24
	srli	t0, a1, 16
	srli	a4, a1, 8
	srli	a7, a2, 24
	srli	t1, a2, 16
	srli	a5, a2, 8
	sb	a1, 20(a3)
	sb	a4, 21(a3)
	sb	t0, 22(a3)
	sb	a6, 23(a3)
	sb	a2, 16(a3)
	sb	a5, 17(a3)
	sb	t1, 18(a3)
	sb	a7, 19(a3)
	lw	a1, 28(a0)
	lw	a0, 24(a0)
	srli	a7, a1, 24
	srli	a4, a1, 16
	srli	a5, a1, 8
	srli	a6, a0, 24
	srli	a2, a0, 16
	sb	a1, 28(a3)
	sb	a5, 29(a3)
	sb	a4, 30(a3)
	sb	a7, 31(a3)
	srli	a1, a0, 8
	sb	a0, 24(a3)
	sb	a1, 25(a3)
	sb	a2, 26(a3)
	sb	a6, 27(a3)
	ret
.Lfunc_end40:
	.size	tlsf_heap.region.Region.read.5, .Lfunc_end40-tlsf_heap.region.Region.read.5
	.cfi_endproc
	.section	.text.tlsf_c.queue_end.take_once,"ax",@progbits
	.p2align	1
	.type	tlsf_c.queue_end.take_once,@function
tlsf_c.queue_end.take_once:
	.cfi_startproc
	addi	sp, sp, -192
	.cfi_def_cfa_offset 192
	sw	ra, 188(sp)
	sw	s0, 184(sp)
	sw	s1, 180(sp)
	sw	s2, 176(sp)
	sw	s3, 172(sp)
	sw	s4, 168(sp)
	sw	s5, 164(sp)
	sw	s6, 160(sp)
	sw	s7, 156(sp)
	sw	s8, 152(sp)
	sw	s9, 148(sp)
	sw	s10, 144(sp)
	sw	s11, 140(sp)
	.cfi_offset ra, -4
	.cfi_offset s0, -8
	.cfi_offset s1, -12
	.cfi_offset s2, -16
	.cfi_offset s3, -20
	.cfi_offset s4, -24
	.cfi_offset s5, -28
	.cfi_offset s6, -32
	.cfi_offset s7, -36
	.cfi_offset s8, -40
	.cfi_offset s9, -44
	.cfi_offset s10, -48
	.cfi_offset s11, -52
	.cfi_remember_state
	mv	s3, a1
	mv	s4, a0
	sw	zero, 24(sp)
	sw	zero, 28(sp)
	sw	zero, 32(sp)
	sw	zero, 36(sp)
	sw	zero, 8(sp)
	sw	zero, 12(sp)
	sw	zero, 16(sp)
	sw	zero, 20(sp)
	lw	s0, 0(a1)
	sw	zero, 40(sp)
	sw	zero, 44(sp)
	sw	zero, 48(sp)
	sw	zero, 52(sp)
	sw	zero, 72(sp)
	sw	zero, 76(sp)
	sw	zero, 80(sp)
	sw	zero, 84(sp)
	sw	zero, 56(sp)
	sw	zero, 60(sp)
	sw	zero, 64(sp)
	sw	zero, 68(sp)
	lw	a0, 8(s0)
	addi	a0, a0, 256
	li	a1, 5
	call	__atomic_load_8
	mv	s2, a0
	mv	s6, a1
	lw	s1, 80(s0)
	lw	s7, 84(s0)
	lw	a0, 8(s0)
	addi	a1, s1, -1
	and	s8, a1, s2
	slli	s5, s8, 3
	add	a0, a0, s5
	addi	a0, a0, 384
	li	a1, 5
	call	__atomic_load_8
	mv	a2, a0
	srli	a0, s6, 30
	li	a4, 2
	bltu	a4, a0, .LBB41_10
	mv	a3, a1
	addi	a0, s2, 1
	seqz	a1, a0
	add	a1, a1, s6
	xor	a0, a0, a2
	xor	a1, a1, a3
	or	a0, a0, a1
	bnez	a0, .LBB41_10
	seqz	a0, s1
	sw	zero, 104(sp)
	sw	zero, 108(sp)
	sw	zero, 112(sp)
	sw	zero, 116(sp)
	sw	zero, 120(sp)
	sw	zero, 124(sp)
	addi	a1, s8, 1
	lw	a4, 76(s0)
	sub	a0, s7, a0
	seqz	a5, a1
	and	a0, a0, s6
	add	a5, a5, a0
	sw	zero, 88(sp)
	sw	zero, 92(sp)
	sw	zero, 96(sp)
	sw	zero, 100(sp)
	beq	a5, a4, .LBB41_4
	sltu	a1, a5, a4
	beqz	a1, .LBB41_5
	j	.LBB41_6
.LBB41_4:
	lw	a4, 72(s0)
	sltu	a1, a1, a4
	bnez	a1, .LBB41_6
.LBB41_5:
	sltu	a1, s2, s8
	sub	a0, s6, a0
	lw	a2, 80(s0)
	lw	a3, 84(s0)
	sub	a0, a0, a1
	sub	a1, s2, s8
	add	a2, a2, a1
	sltu	a1, a2, a1
	add	a0, a0, a3
	add	a3, a0, a1
.LBB41_6:
	lw	a0, 8(s0)
	sw	s2, 128(sp)
	addi	a0, a0, 256
	sw	s6, 132(sp)
	addi	a1, sp, 128
	li	a4, 5
	li	a5, 5
	call	__atomic_compare_exchange_8
	beqz	a0, .LBB41_9
	lw	a1, 16(s0)
	slli	s8, s8, 5
	add	a1, a1, s8
	addi	a0, a1, 8
	lbu	a2, 15(a1)
	sw	a2, 4(sp)
	lbu	a6, 16(a1)
	lbu	t3, 17(a1)
	lbu	a4, 18(a1)
	lbu	a5, 19(a1)
	lbu	s1, 20(a1)
	lbu	a2, 21(a1)
	lbu	a7, 22(a1)
	lbu	t0, 23(a1)
	lbu	t1, 24(a1)
	lbu	t2, 25(a1)
	lbu	t5, 26(a1)
	slli	t3, t3, 8
	slli	a4, a4, 16
	slli	a5, a5, 24
	slli	a2, a2, 8
	or	a6, t3, a6
	or	t4, a5, a4
	or	t3, a2, s1
	lbu	a5, 27(a1)
	lbu	t6, 28(a1)
	lbu	a2, 29(a1)
	lbu	a4, 30(a1)
	slli	a7, a7, 16
	slli	t0, t0, 24
	or	a7, t0, a7
	lbu	a3, 31(a1)
	slli	t2, t2, 8
	slli	t5, t5, 16
	slli	a5, a5, 24
	slli	a2, a2, 8
	slli	a4, a4, 16
	slli	a3, a3, 24
	or	s1, t2, t1
	or	a5, a5, t5
	or	a2, a2, t6
	or	a3, a3, a4
	lbu	a4, 11(a1)
	sw	a4, 0(sp)
	lbu	s9, 12(a1)
	lbu	s11, 13(a1)
	lbu	s10, 14(a1)
	or	a4, t4, a6
	or	a6, a7, t3
	or	a5, a5, s1
	or	a2, a2, a3
	lbu	s7, 0(a1)
	lbu	s8, 8(a1)
	lbu	s3, 9(a1)
	lbu	s1, 10(a1)
	sb	zero, 4(a1)
	sb	zero, 5(a1)
	sb	zero, 6(a1)
	sb	zero, 7(a1)
	sw	a4, 88(sp)
	sw	a6, 92(sp)
	sw	a5, 96(sp)
	sw	a2, 100(sp)
	sb	zero, 0(a1)
	sb	zero, 1(a1)
	sb	zero, 2(a1)
	sb	zero, 3(a1)
	addi	a1, sp, 104
	li	a2, 24
	call	tlsf_memory_cpy
	lw	a0, 84(s0)
	lw	a2, 80(s0)
	lw	a3, 8(s0)
	add	a0, a0, s6
	add	a1, a2, s2
	add	a3, a3, s5
	sltu	a2, a1, a2
	add	a2, a2, a0
	addi	a0, a3, 384
	li	a3, 5
	call	__atomic_store_8
	li	a0, 1
	bne	s7, a0, .LBB41_12
	li	a0, 0
	li	a7, 0
	slli	s11, s11, 8
	or	a1, s11, s9
	slli	s10, s10, 16
	lw	a2, 4(sp)
	slli	a2, a2, 24
	slli	s3, s3, 8
	slli	s1, s1, 16
	lw	a4, 0(sp)
	slli	a4, a4, 24
	or	a2, a2, s10
	or	a6, s3, s8
	or	a5, a4, s1
	or	a3, a2, a1
	lw	a1, 88(sp)
	lw	s1, 92(sp)
	lw	s0, 96(sp)
	lw	a4, 100(sp)
	or	a5, a5, a6
	sw	s1, 60(sp)
	sw	s0, 64(sp)
	sw	a4, 68(sp)
	sw	a1, 40(sp)
	sw	s1, 44(sp)
	sw	a1, 24(sp)
	sw	s1, 28(sp)
	sw	s0, 32(sp)
	sw	a4, 36(sp)
	addi	a1, sp, 24
	j	.LBB41_11
.LBB41_9:
	sw	zero, 72(sp)
	sw	zero, 76(sp)
	sw	zero, 80(sp)
	sw	zero, 84(sp)
.LBB41_10:
	lw	a0, 72(sp)
	lw	a1, 76(sp)
	lw	a2, 80(sp)
	lw	a3, 84(sp)
	lw	s1, 0(s3)
	sw	a0, 24(sp)
	sw	a1, 28(sp)
	sw	a2, 32(sp)
	sw	a3, 36(sp)
	lw	a0, 8(s1)
	addi	a0, a0, 256
	li	a1, 5
	call	__atomic_load_8
	mv	s2, a0
	mv	s0, a1
	lw	a0, 8(s1)
	addi	a0, a0, 128
	li	a1, 5
	call	__atomic_load_8
	li	a5, 0
	li	a3, 0
	xor	s0, s0, a1
	xor	a0, a0, s2
	addi	a1, sp, 8
	or	a0, a0, s0
	seqz	a0, a0
	xori	a7, a0, 9
	li	a0, 1
.LBB41_11:
	srli	s0, a5, 24
	srli	s1, a5, 16
	srli	a4, a5, 8
	srli	a2, a3, 24
	sb	a0, 0(s4)
	sb	a7, 1(s4)
	sb	a5, 8(s4)
	sb	a4, 9(s4)
	srli	a0, a3, 16
	sb	a0, 14(s4)
	sb	a2, 15(s4)
	srli	a0, a3, 8
	sb	s1, 10(s4)
	sb	s0, 11(s4)
	sb	a3, 12(s4)
	sb	a0, 13(s4)
	addi	a0, s4, 16
	li	a2, 16
	call	tlsf_memory_cpy
	lw	ra, 188(sp)
	lw	s0, 184(sp)
	lw	s1, 180(sp)
	lw	s2, 176(sp)
	lw	s3, 172(sp)
	lw	s4, 168(sp)
	lw	s5, 164(sp)
	lw	s6, 160(sp)
	lw	s7, 156(sp)
	lw	s8, 152(sp)
	lw	s9, 148(sp)
	lw	s10, 144(sp)
	lw	s11, 140(sp)
	.cfi_restore ra
	.cfi_restore s0
	.cfi_restore s1
	.cfi_restore s2
	.cfi_restore s3
	.cfi_restore s4
	.cfi_restore s5
	.cfi_restore s6
	.cfi_restore s7
	.cfi_restore s8
	.cfi_restore s9
	.cfi_restore s10
	.cfi_restore s11
	addi	sp, sp, 192
	.cfi_def_cfa_offset 0
	ret
.LBB41_12:
	.cfi_restore_state
	unimp
.Lfunc_end41:
	.size	tlsf_c.queue_end.take_once, .Lfunc_end41-tlsf_c.queue_end.take_once
	.cfi_endproc
	.section	.text.unlikely.std_alloc.vec.Vec.grow_amortized.94730218a1e37034,"ax",@progbits
	.p2align	1
	.type	std_alloc.vec.Vec.grow_amortized.94730218a1e37034,@function
std_alloc.vec.Vec.grow_amortized.94730218a1e37034:
	.cfi_startproc
	lw	a2, 8(a0)
	lw	a3, 12(a0)
	and	a1, a2, a3
	li	a4, -1
	beq	a1, a4, .LBB42_7
	li	a4, 3
	mv	a1, a2
	beqz	a3, .LBB42_8
	mv	a5, a2
	bgeu	a4, a2, .LBB42_9
.LBB42_3:
	lw	a6, 16(a0)
	lw	a7, 20(a0)
	beqz	a3, .LBB42_5
.LBB42_4:
	mv	a5, a1
.LBB42_5:
	addi	sp, sp, -48
	.cfi_def_cfa_offset 48
	sw	ra, 44(sp)
	sw	s0, 40(sp)
	sw	s1, 36(sp)
	sw	s2, 32(sp)
	sw	s3, 28(sp)
	sw	s4, 24(sp)
	.cfi_offset ra, -4
	.cfi_offset s0, -8
	.cfi_offset s1, -12
	.cfi_offset s2, -16
	.cfi_offset s3, -20
	.cfi_offset s4, -24
	.cfi_remember_state
	addi	a5, a5, 1
	srli	a1, a6, 31
	slli	a4, a7, 1
	seqz	s1, a5
	add	s1, s1, a3
	or	a1, a1, a4
	slli	t0, a6, 1
	beq	s1, a1, .LBB42_10
	sltu	a4, a1, s1
	srli	t1, a7, 30
	mv	t2, s1
	mv	s0, a5
	beqz	a4, .LBB42_11
	j	.LBB42_12
.LBB42_7:
	li	a0, 0
	ret
.LBB42_8:
	li	a1, 3
	mv	a5, a2
	bltu	a4, a2, .LBB42_3
.LBB42_9:
	li	a5, 3
	lw	a6, 16(a0)
	lw	a7, 20(a0)
	bnez	a3, .LBB42_4
	j	.LBB42_5
.LBB42_10:
	.cfi_restore_state
	sltu	a4, t0, a5
	srli	t1, a7, 30
	mv	t2, s1
	mv	s0, a5
	bnez	a4, .LBB42_12
.LBB42_11:
	mv	t2, a1
	mv	s0, t0
.LBB42_12:
	mv	s3, s0
	mv	s4, t2
	bnez	t1, .LBB42_16
	srli	a1, s4, 26
	bnez	a1, .LBB42_17
.LBB42_14:
	or	a1, a6, a7
	beqz	a1, .LBB42_18
	mv	s2, a0
	lw	a1, 0(a0)
	srli	a0, a2, 27
	slli	a3, a3, 5
	slli	a2, a2, 5
	srli	a4, s3, 27
	or	a0, a0, a3
	slli	a3, s4, 5
	or	a3, a3, a4
	slli	a4, s3, 5
	seqz	a0, a0
	seqz	a3, a3
	addi	a0, a0, -1
	addi	a3, a3, -1
	or	a2, a2, a0
	or	a3, a3, a4
	addi	a0, sp, 8
	li	a4, 8
	call	tlsf_memory_realloc
	lw	a0, 8(sp)
	andi	a0, a0, 1
	bnez	a0, .LBB42_19
	j	.LBB42_20
.LBB42_16:
	mv	s3, a5
	mv	s4, s1
	srli	a1, s1, 26
	beqz	a1, .LBB42_14
.LBB42_17:
	li	a0, 0
	j	.LBB42_20
.LBB42_18:
	mv	s2, a0
	srli	a0, s0, 27
	slli	t2, t2, 5
	or	a0, t2, a0
	slli	s0, s0, 5
	seqz	a0, a0
	addi	a0, a0, -1
	or	a1, a0, s0
	addi	a0, sp, 8
	li	a2, 8
	call	tlsf_memory_alloc
	lw	a0, 8(sp)
	andi	a0, a0, 1
	beqz	a0, .LBB42_20
.LBB42_19:
	lw	a0, 16(sp)
	sw	a0, 0(s2)
	sw	s3, 16(s2)
	sw	s4, 20(s2)
	li	a0, 1
.LBB42_20:
	lw	ra, 44(sp)
	lw	s0, 40(sp)
	lw	s1, 36(sp)
	lw	s2, 32(sp)
	lw	s3, 28(sp)
	lw	s4, 24(sp)
	.cfi_restore ra
	.cfi_restore s0
	.cfi_restore s1
	.cfi_restore s2
	.cfi_restore s3
	.cfi_restore s4
	addi	sp, sp, 48
	.cfi_def_cfa_offset 0
	ret
.Lfunc_end42:
	.size	std_alloc.vec.Vec.grow_amortized.94730218a1e37034, .Lfunc_end42-std_alloc.vec.Vec.grow_amortized.94730218a1e37034
	.cfi_endproc
	.section	.text.tlsf_post.mailboxes.send_out,"ax",@progbits
	.p2align	1
	.type	tlsf_post.mailboxes.send_out,@function
tlsf_post.mailboxes.send_out:
	.cfi_startproc
	bgeu	a1, a2, .LBB43_7
	addi	sp, sp, -48
	.cfi_def_cfa_offset 48
	sw	ra, 44(sp)
	sw	s0, 40(sp)
	sw	s1, 36(sp)
	sw	s2, 32(sp)
	sw	s3, 28(sp)
	sw	s4, 24(sp)
	sw	s5, 20(sp)
	sw	s6, 16(sp)
	sw	s7, 12(sp)
	.cfi_offset ra, -4
	.cfi_offset s0, -8
	.cfi_offset s1, -12
	.cfi_offset s2, -16
	.cfi_offset s3, -20
	.cfi_offset s4, -24
	.cfi_offset s5, -28
	.cfi_offset s6, -32
	.cfi_offset s7, -36
	.cfi_remember_state
	mv	s3, a3
	mv	s2, a2
	mv	s6, a1
	mv	s0, a0
	lui	s1, 524288
	srli	s4, a0, 24
	srli	s5, a0, 16
	addi	s1, s1, -1
	srli	s7, a0, 8
.LBB43_2:
	li	a1, 5
	mv	a0, s0
	call	__atomic_load_8
	addi	a2, a0, 1
	beq	a1, s1, .LBB43_4
	srli	a3, a1, 31
	beqz	a3, .LBB43_5
	j	.LBB43_8
.LBB43_4:
	seqz	a3, a2
	bnez	a3, .LBB43_8
.LBB43_5:
	seqz	a3, a2
	add	a3, a3, a1
	sw	a0, 0(sp)
	sw	a1, 4(sp)
	mv	a1, sp
	li	a4, 5
	li	a5, 5
	mv	a0, s0
	call	__atomic_compare_exchange_8
	beqz	a0, .LBB43_2
	lw	a0, 8(s0)
	li	a1, 5
	call	__atomic_load_8
	li	a0, 0
	lw	a1, 0(s3)
	lw	a5, 8(s3)
	srli	a3, s6, 24
	srli	a4, s6, 16
	lw	a6, 12(s3)
	slli	a2, a5, 4
	add	a1, a1, a2
	srli	a2, s6, 8
	sb	s6, 8(a1)
	sb	a2, 9(a1)
	sb	a4, 10(a1)
	sb	a3, 11(a1)
	addi	a5, a5, 1
	sb	s0, 0(a1)
	sb	s7, 1(a1)
	sb	s5, 2(a1)
	sb	s4, 3(a1)
	sb	zero, 4(a1)
	sb	zero, 5(a1)
	sb	zero, 6(a1)
	sb	zero, 7(a1)
	sb	zero, 12(a1)
	sb	zero, 13(a1)
	sb	zero, 14(a1)
	sb	zero, 15(a1)
	seqz	a1, a5
	add	a1, a1, a6
	addi	s6, s6, 1
	sw	a5, 8(s3)
	sw	a1, 12(s3)
	bne	s6, s2, .LBB43_2
	j	.LBB43_9
.LBB43_7:
	li	a0, 0
	ret
.LBB43_8:
	.cfi_restore_state
	li	a0, 1
.LBB43_9:
	lw	ra, 44(sp)
	lw	s0, 40(sp)
	lw	s1, 36(sp)
	lw	s2, 32(sp)
	lw	s3, 28(sp)
	lw	s4, 24(sp)
	lw	s5, 20(sp)
	lw	s6, 16(sp)
	lw	s7, 12(sp)
	.cfi_restore ra
	.cfi_restore s0
	.cfi_restore s1
	.cfi_restore s2
	.cfi_restore s3
	.cfi_restore s4
	.cfi_restore s5
	.cfi_restore s6
	.cfi_restore s7
	addi	sp, sp, 48
	.cfi_def_cfa_offset 0
	ret
.Lfunc_end43:
	.size	tlsf_post.mailboxes.send_out, .Lfunc_end43-tlsf_post.mailboxes.send_out
	.cfi_endproc
	.section	.text.std_alloc.arc.Arc.drop.f29941b0e8355977,"ax",@progbits
	.p2align	1
	.type	std_alloc.arc.Arc.drop.f29941b0e8355977,@function
std_alloc.arc.Arc.drop.f29941b0e8355977:
	.cfi_startproc
	addi	sp, sp, -16
	.cfi_def_cfa_offset 16
	sw	ra, 12(sp)
	sw	s0, 8(sp)
	sw	s1, 4(sp)
	sw	s2, 0(sp)
	.cfi_offset ra, -4
	.cfi_offset s0, -8
	.cfi_offset s1, -12
	.cfi_offset s2, -16
	.cfi_remember_state
	mv	s0, a0
	li	a1, 1
	li	a3, 5
	li	a2, 0
	call	__atomic_fetch_sub_8
	xori	a0, a0, 1
	or	a0, a0, a1
	bnez	a0, .LBB44_2
	lbu	a0, 41(s0)
	lbu	a1, 42(s0)
	lbu	a2, 43(s0)
	lbu	a3, 40(s0)
	slli	a0, a0, 8
	slli	a1, a1, 16
	slli	a2, a2, 24
	or	a0, a0, a3
	or	a1, a1, a2
	lbu	a2, 57(s0)
	lbu	a3, 56(s0)
	lbu	a4, 58(s0)
	lbu	a5, 59(s0)
	slli	a2, a2, 8
	or	a2, a2, a3
	slli	a4, a4, 16
	slli	a5, a5, 24
	or	a4, a4, a5
	or	s1, a1, a0
	or	s2, a4, a2
	mv	a0, s0
	call	tlsf_memory_dealloc
	mv	a0, s1
	call	tlsf_memory_dealloc
	mv	a0, s2
	lw	ra, 12(sp)
	lw	s0, 8(sp)
	lw	s1, 4(sp)
	lw	s2, 0(sp)
	.cfi_restore ra
	.cfi_restore s0
	.cfi_restore s1
	.cfi_restore s2
	addi	sp, sp, 16
	.cfi_def_cfa_offset 0
	tail	tlsf_memory_dealloc
.LBB44_2:
	.cfi_restore_state
	lw	ra, 12(sp)
	lw	s0, 8(sp)
	lw	s1, 4(sp)
	lw	s2, 0(sp)
	.cfi_restore ra
	.cfi_restore s0
	.cfi_restore s1
	.cfi_restore s2
	addi	sp, sp, 16
	.cfi_def_cfa_offset 0
	ret
.Lfunc_end44:
	.size	std_alloc.arc.Arc.drop.f29941b0e8355977, .Lfunc_end44-std_alloc.arc.Arc.drop.f29941b0e8355977
	.cfi_endproc
	.section	.text.std_alloc.vec.Vec.drop.05316b64237a7125,"ax",@progbits
	.p2align	1
	.type	std_alloc.vec.Vec.drop.05316b64237a7125,@function
std_alloc.vec.Vec.drop.05316b64237a7125:
	.cfi_startproc
	addi	sp, sp, -48
	.cfi_def_cfa_offset 48
	sw	ra, 44(sp)
	sw	s0, 40(sp)
	sw	s1, 36(sp)
	sw	s2, 32(sp)
	sw	s3, 28(sp)
	sw	s4, 24(sp)
	sw	s5, 20(sp)
	sw	s6, 16(sp)
	sw	s7, 12(sp)
	sw	s8, 8(sp)
	sw	s9, 4(sp)
	.cfi_offset ra, -4
	.cfi_offset s0, -8
	.cfi_offset s1, -12
	.cfi_offset s2, -16
	.cfi_offset s3, -20
	.cfi_offset s4, -24
	.cfi_offset s5, -28
	.cfi_offset s6, -32
	.cfi_offset s7, -36
	.cfi_offset s8, -40
	.cfi_offset s9, -44
	.cfi_remember_state
	lbu	a1, 0(a0)
	lbu	a2, 1(a0)
	lbu	t0, 2(a0)
	lbu	t1, 3(a0)
	lbu	a6, 12(a0)
	lbu	s1, 13(a0)
	lbu	s0, 14(a0)
	lbu	a5, 15(a0)
	slli	a2, a2, 8
	or	a7, a2, a1
	lbu	a2, 8(a0)
	lbu	a1, 9(a0)
	lbu	a3, 10(a0)
	lbu	a4, 11(a0)
	slli	t0, t0, 16
	slli	t1, t1, 24
	slli	s1, s1, 8
	slli	s0, s0, 16
	slli	a5, a5, 24
	slli	a1, a1, 8
	or	t0, t1, t0
	or	a6, s1, a6
	or	a5, a5, s0
	or	t1, a1, a2
	lbu	a2, 20(a0)
	lbu	s0, 21(a0)
	lbu	s1, 22(a0)
	lbu	a1, 23(a0)
	slli	a3, a3, 16
	slli	a4, a4, 24
	slli	s0, s0, 8
	slli	s1, s1, 16
	slli	a1, a1, 24
	or	a3, a3, a4
	or	a2, a2, s0
	or	a1, a1, s1
	lbu	a4, 17(a0)
	lbu	s1, 16(a0)
	lbu	s0, 18(a0)
	lbu	a0, 19(a0)
	slli	a4, a4, 8
	or	a4, a4, s1
	or	s2, t0, a7
	or	s4, a5, a6
	or	s6, a3, t1
	or	s5, a1, a2
	slli	s0, s0, 16
	slli	a0, a0, 24
	or	a0, a0, s0
	or	a1, s6, s4
	or	s7, a0, a4
	beqz	a1, .LBB45_7
	li	s0, 0
	li	s9, 0
	j	.LBB45_3
.LBB45_2:
	sltu	a0, s9, s4
	beqz	a0, .LBB45_7
.LBB45_3:
	slli	a0, s0, 4
	add	a0, a0, s2
	lbu	a1, 1(a0)
	lbu	a2, 0(a0)
	lbu	a3, 2(a0)
	lbu	a0, 3(a0)
	slli	a1, a1, 8
	or	a1, a1, a2
	slli	a3, a3, 16
	slli	a0, a0, 24
	or	a0, a0, a3
	or	s1, a0, a1
	li	a1, 1
	li	a3, 5
	mv	a0, s1
	li	a2, 0
	call	__atomic_fetch_sub_8
	xori	a0, a0, 1
	or	a0, a0, a1
	bnez	a0, .LBB45_5
	lbu	a0, 41(s1)
	lbu	a1, 42(s1)
	lbu	a2, 43(s1)
	lbu	a3, 40(s1)
	slli	a0, a0, 8
	slli	a1, a1, 16
	slli	a2, a2, 24
	or	a0, a0, a3
	or	a1, a1, a2
	lbu	a2, 57(s1)
	lbu	a3, 56(s1)
	lbu	a4, 58(s1)
	lbu	a5, 59(s1)
	slli	a2, a2, 8
	or	a2, a2, a3
	slli	a4, a4, 16
	slli	a5, a5, 24
	or	a4, a4, a5
	or	s8, a1, a0
	or	s3, a4, a2
	mv	a0, s1
	call	tlsf_memory_dealloc
	mv	a0, s8
	call	tlsf_memory_dealloc
	mv	a0, s3
	call	tlsf_memory_dealloc
.LBB45_5:
	addi	s0, s0, 1
	seqz	a0, s0
	add	s9, s9, a0
	bne	s9, s4, .LBB45_2
	sltu	a0, s0, s6
	bnez	a0, .LBB45_3
.LBB45_7:
	or	a0, s7, s5
	beqz	a0, .LBB45_9
	mv	a0, s2
	lw	ra, 44(sp)
	lw	s0, 40(sp)
	lw	s1, 36(sp)
	lw	s2, 32(sp)
	lw	s3, 28(sp)
	lw	s4, 24(sp)
	lw	s5, 20(sp)
	lw	s6, 16(sp)
	lw	s7, 12(sp)
	lw	s8, 8(sp)
	lw	s9, 4(sp)
	.cfi_restore ra
	.cfi_restore s0
	.cfi_restore s1
	.cfi_restore s2
	.cfi_restore s3
	.cfi_restore s4
	.cfi_restore s5
	.cfi_restore s6
	.cfi_restore s7
	.cfi_restore s8
	.cfi_restore s9
	addi	sp, sp, 48
	.cfi_def_cfa_offset 0
	tail	tlsf_memory_dealloc
.LBB45_9:
	.cfi_restore_state
	lw	ra, 44(sp)
	lw	s0, 40(sp)
	lw	s1, 36(sp)
	lw	s2, 32(sp)
	lw	s3, 28(sp)
	lw	s4, 24(sp)
	lw	s5, 20(sp)
	lw	s6, 16(sp)
	lw	s7, 12(sp)
	lw	s8, 8(sp)
	lw	s9, 4(sp)
	.cfi_restore ra
	.cfi_restore s0
	.cfi_restore s1
	.cfi_restore s2
	.cfi_restore s3
	.cfi_restore s4
	.cfi_restore s5
	.cfi_restore s6
	.cfi_restore s7
	.cfi_restore s8
	.cfi_restore s9
	addi	sp, sp, 48
	.cfi_def_cfa_offset 0
	ret
.Lfunc_end45:
	.size	std_alloc.vec.Vec.drop.05316b64237a7125, .Lfunc_end45-std_alloc.vec.Vec.drop.05316b64237a7125
	.cfi_endproc
	.section	.text.std_alloc.vec.deque.VecDeque.drop.ca3d8856d46a41b8,"ax",@progbits
	.p2align	1
	.type	std_alloc.vec.deque.VecDeque.drop.ca3d8856d46a41b8,@function
std_alloc.vec.deque.VecDeque.drop.ca3d8856d46a41b8:
	.cfi_startproc
	addi	sp, sp, -64
	.cfi_def_cfa_offset 64
	sw	ra, 60(sp)
	sw	s0, 56(sp)
	sw	s1, 52(sp)
	sw	s2, 48(sp)
	sw	s3, 44(sp)
	sw	s4, 40(sp)
	sw	s5, 36(sp)
	sw	s6, 32(sp)
	sw	s7, 28(sp)
	sw	s8, 24(sp)
	sw	s9, 20(sp)
	sw	s10, 16(sp)
	sw	s11, 12(sp)
	.cfi_offset ra, -4
	.cfi_offset s0, -8
	.cfi_offset s1, -12
	.cfi_offset s2, -16
	.cfi_offset s3, -20
	.cfi_offset s4, -24
	.cfi_offset s5, -28
	.cfi_offset s6, -32
	.cfi_offset s7, -36
	.cfi_offset s8, -40
	.cfi_offset s9, -44
	.cfi_offset s10, -48
	.cfi_offset s11, -52
	.cfi_remember_state
	lbu	a6, 0(a0)
	lbu	t1, 1(a0)
	lbu	a3, 2(a0)
	lbu	a4, 3(a0)
	lbu	t2, 12(a0)
	lbu	s1, 13(a0)
	lbu	s0, 14(a0)
	lbu	a1, 15(a0)
	lbu	a7, 8(a0)
	lbu	t0, 9(a0)
	lbu	a2, 10(a0)
	lbu	a5, 11(a0)
	slli	t1, t1, 8
	slli	a3, a3, 16
	slli	a4, a4, 24
	slli	s1, s1, 8
	slli	s0, s0, 16
	slli	a1, a1, 24
	or	a6, t1, a6
	or	t1, a4, a3
	or	t2, s1, t2
	or	t3, a1, s0
	lbu	s1, 20(a0)
	lbu	s0, 21(a0)
	lbu	a3, 22(a0)
	lbu	a4, 23(a0)
	slli	t0, t0, 8
	slli	a2, a2, 16
	slli	a5, a5, 24
	slli	s0, s0, 8
	slli	a3, a3, 16
	slli	a4, a4, 24
	or	a7, t0, a7
	or	a5, a5, a2
	or	s0, s0, s1
	or	a3, a3, a4
	lbu	a2, 17(a0)
	lbu	a4, 16(a0)
	lbu	s1, 18(a0)
	lbu	a1, 19(a0)
	slli	a2, a2, 8
	or	a2, a2, a4
	or	s2, t1, a6
	or	a6, t3, t2
	or	a4, a5, a7
	or	s4, a3, s0
	slli	s1, s1, 16
	slli	a1, a1, 24
	or	a1, a1, s1
	or	a3, a4, a6
	or	s5, a1, a2
	beqz	a3, .LBB46_16
	lbu	a7, 36(a0)
	lbu	a2, 37(a0)
	lbu	a3, 38(a0)
	lbu	a5, 39(a0)
	lbu	s1, 32(a0)
	lbu	s0, 33(a0)
	lbu	t0, 34(a0)
	lbu	a1, 35(a0)
	slli	a2, a2, 8
	slli	a3, a3, 16
	slli	a5, a5, 24
	slli	s0, s0, 8
	or	a7, a2, a7
	or	t1, a5, a3
	or	t2, s0, s1
	lbu	a5, 24(a0)
	lbu	s1, 25(a0)
	lbu	a2, 26(a0)
	lbu	a3, 27(a0)
	slli	t0, t0, 16
	slli	a1, a1, 24
	slli	s1, s1, 8
	slli	a2, a2, 16
	slli	a3, a3, 24
	or	a1, a1, t0
	or	a5, a5, s1
	or	a2, a2, a3
	lbu	a3, 29(a0)
	lbu	s1, 28(a0)
	lbu	s0, 30(a0)
	lbu	a0, 31(a0)
	slli	a3, a3, 8
	or	a3, a3, s1
	slli	s0, s0, 16
	slli	a0, a0, 24
	or	a0, a0, s0
	or	s6, t1, a7
	or	s7, a1, t2
	or	s8, a2, a5
	or	s9, a0, a3
	sltu	a0, a4, s7
	sub	a1, a6, s6
	sub	s10, a4, s7
	sub	a1, a1, a0
	add	s10, s10, s8
	add	a1, a1, s9
	sltu	s11, s10, s8
	add	s11, s11, a1
	beq	s9, s11, .LBB46_3
	sltu	a0, s9, s11
	bnez	a0, .LBB46_5
	j	.LBB46_9
.LBB46_3:
	sltu	a0, s8, s10
	bnez	a0, .LBB46_5
	j	.LBB46_9
.LBB46_4:
	sltu	a0, s9, s11
	beqz	a0, .LBB46_9
.LBB46_5:
	slli	a0, s8, 4
	add	a0, a0, s2
	lbu	a1, 1(a0)
	lbu	a2, 0(a0)
	lbu	a3, 2(a0)
	lbu	a0, 3(a0)
	slli	a1, a1, 8
	or	a1, a1, a2
	slli	a3, a3, 16
	slli	a0, a0, 24
	or	a0, a0, a3
	or	s1, a0, a1
	li	a1, 1
	li	a3, 5
	mv	a0, s1
	li	a2, 0
	call	__atomic_fetch_sub_8
	xori	a0, a0, 1
	or	a0, a0, a1
	bnez	a0, .LBB46_7
	lbu	a0, 41(s1)
	lbu	a1, 42(s1)
	lbu	a2, 43(s1)
	lbu	a3, 40(s1)
	slli	a0, a0, 8
	slli	a1, a1, 16
	slli	a2, a2, 24
	or	a0, a0, a3
	or	a1, a1, a2
	lbu	a2, 57(s1)
	lbu	a3, 56(s1)
	lbu	a4, 58(s1)
	lbu	a5, 59(s1)
	slli	a2, a2, 8
	or	a2, a2, a3
	slli	a4, a4, 16
	slli	a5, a5, 24
	or	a4, a4, a5
	or	s0, a1, a0
	or	s3, a4, a2
	mv	a0, s1
	call	tlsf_memory_dealloc
	mv	a0, s0
	call	tlsf_memory_dealloc
	mv	a0, s3
	call	tlsf_memory_dealloc
.LBB46_7:
	addi	s8, s8, 1
	seqz	a0, s8
	add	s9, s9, a0
	bne	s9, s11, .LBB46_4
	sltu	a0, s8, s10
	bnez	a0, .LBB46_5
.LBB46_9:
	or	a0, s7, s6
	beqz	a0, .LBB46_16
	li	s0, 0
	li	s9, 0
	j	.LBB46_12
.LBB46_11:
	sltu	a0, s9, s6
	beqz	a0, .LBB46_16
.LBB46_12:
	slli	a0, s0, 4
	add	a0, a0, s2
	lbu	a1, 1(a0)
	lbu	a2, 0(a0)
	lbu	a3, 2(a0)
	lbu	a0, 3(a0)
	slli	a1, a1, 8
	or	a1, a1, a2
	slli	a3, a3, 16
	slli	a0, a0, 24
	or	a0, a0, a3
	or	s1, a0, a1
	li	a1, 1
	li	a3, 5
	mv	a0, s1
	li	a2, 0
	call	__atomic_fetch_sub_8
	xori	a0, a0, 1
	or	a0, a0, a1
	bnez	a0, .LBB46_14
	lbu	a0, 41(s1)
	lbu	a1, 42(s1)
	lbu	a2, 43(s1)
	lbu	a3, 40(s1)
	slli	a0, a0, 8
	slli	a1, a1, 16
	slli	a2, a2, 24
	or	a0, a0, a3
	or	a1, a1, a2
	lbu	a2, 57(s1)
	lbu	a3, 56(s1)
	lbu	a4, 58(s1)
	lbu	a5, 59(s1)
	slli	a2, a2, 8
	or	a2, a2, a3
	slli	a4, a4, 16
	slli	a5, a5, 24
	or	a4, a4, a5
	or	s8, a1, a0
	or	s3, a4, a2
	mv	a0, s1
	call	tlsf_memory_dealloc
	mv	a0, s8
	call	tlsf_memory_dealloc
	mv	a0, s3
	call	tlsf_memory_dealloc
.LBB46_14:
	addi	s0, s0, 1
	seqz	a0, s0
	add	s9, s9, a0
	bne	s9, s6, .LBB46_11
	sltu	a0, s0, s7
	bnez	a0, .LBB46_12
.LBB46_16:
	or	a0, s5, s4
	beqz	a0, .LBB46_18
	mv	a0, s2
	lw	ra, 60(sp)
	lw	s0, 56(sp)
	lw	s1, 52(sp)
	lw	s2, 48(sp)
	lw	s3, 44(sp)
	lw	s4, 40(sp)
	lw	s5, 36(sp)
	lw	s6, 32(sp)
	lw	s7, 28(sp)
	lw	s8, 24(sp)
	lw	s9, 20(sp)
	lw	s10, 16(sp)
	lw	s11, 12(sp)
	.cfi_restore ra
	.cfi_restore s0
	.cfi_restore s1
	.cfi_restore s2
	.cfi_restore s3
	.cfi_restore s4
	.cfi_restore s5
	.cfi_restore s6
	.cfi_restore s7
	.cfi_restore s8
	.cfi_restore s9
	.cfi_restore s10
	.cfi_restore s11
	addi	sp, sp, 64
	.cfi_def_cfa_offset 0
	tail	tlsf_memory_dealloc
.LBB46_18:
	.cfi_restore_state
	lw	ra, 60(sp)
	lw	s0, 56(sp)
	lw	s1, 52(sp)
	lw	s2, 48(sp)
	lw	s3, 44(sp)
	lw	s4, 40(sp)
	lw	s5, 36(sp)
	lw	s6, 32(sp)
	lw	s7, 28(sp)
	lw	s8, 24(sp)
	lw	s9, 20(sp)
	lw	s10, 16(sp)
	lw	s11, 12(sp)
	.cfi_restore ra
	.cfi_restore s0
	.cfi_restore s1
	.cfi_restore s2
	.cfi_restore s3
	.cfi_restore s4
	.cfi_restore s5
	.cfi_restore s6
	.cfi_restore s7
	.cfi_restore s8
	.cfi_restore s9
	.cfi_restore s10
	.cfi_restore s11
	addi	sp, sp, 64
	.cfi_def_cfa_offset 0
	ret
.Lfunc_end46:
	.size	std_alloc.vec.deque.VecDeque.drop.ca3d8856d46a41b8, .Lfunc_end46-std_alloc.vec.deque.VecDeque.drop.ca3d8856d46a41b8
	.cfi_endproc
	.section	.text.tlsf_words.cells.copy_run,"ax",@progbits
	.p2align	1
	.type	tlsf_words.cells.copy_run,@function
tlsf_words.cells.copy_run:
	.cfi_startproc
	mv	a7, a2
	srli	t1, a3, 29
	slli	t2, a4, 3
	slli	t0, a3, 3
	srli	t3, a1, 29
	slli	a2, a2, 3
	or	t1, t2, t1
	slli	t2, a1, 3
	or	a2, a2, t3
	srli	t4, a5, 29
	sub	t1, t1, a2
	sltu	a2, t0, t2
	sub	t3, t1, a2
	slli	a2, a6, 3
	or	t1, a2, t4
	slli	a2, a5, 3
	beq	t1, t3, .LBB47_2
	sltu	t3, t3, t1
	beqz	t3, .LBB47_3
	j	.LBB47_25
.LBB47_2:
	sub	t3, t0, t2
	sltu	t3, t3, a2
	bnez	t3, .LBB47_25
.LBB47_3:
	add	t3, a5, a1
	sltu	t4, t3, a5
	add	t5, a6, a7
	add	t4, t4, t5
	beq	t4, a4, .LBB47_8
	sltu	t3, a4, t4
	bnez	t3, .LBB47_9
.LBB47_5:
	add	t0, t0, a0
	add	a1, a0, t2
	sltu	a0, t0, a1
	neg	a0, a0
	beq	a0, t1, .LBB47_11
	sltu	a0, a0, t1
	bnez	a0, .LBB47_12
.LBB47_7:
	mv	a0, t0
	tail	tlsf_memory_move
.LBB47_8:
	sltu	t3, a3, t3
	beqz	t3, .LBB47_5
.LBB47_9:
	add	a3, a3, a5
	sltu	t3, a3, a5
	add	a4, a4, a6
	add	a4, a4, t3
	beq	a4, a7, .LBB47_16
	sltu	a1, a7, a4
	beqz	a1, .LBB47_17
	j	.LBB47_25
.LBB47_11:
	sub	a0, t0, a1
	sltu	a0, a0, a2
	beqz	a0, .LBB47_7
.LBB47_12:
	li	a3, 0
	li	a7, 0
	j	.LBB47_14
.LBB47_13:
	sltu	a4, a3, a5
	beqz	a4, .LBB47_25
.LBB47_14:
	slli	a0, a3, 3
	addi	a3, a3, 1
	add	a4, a1, a0
	seqz	a2, a3
	lw	t1, 0(a4)
	lw	a4, 4(a4)
	add	a7, a7, a2
	add	a0, a0, t0
	sw	t1, 0(a0)
	sw	a4, 4(a0)
	beq	a7, a6, .LBB47_13
	sltu	a4, a7, a6
	bnez	a4, .LBB47_14
	j	.LBB47_25
.LBB47_16:
	sltu	a1, a1, a3
	bnez	a1, .LBB47_25
.LBB47_17:
	add	a1, a0, t2
	add	a0, a0, t0
	sltu	a3, a0, a1
	neg	a3, a3
	beq	a3, t1, .LBB47_20
	sltu	a3, a3, t1
	bnez	a3, .LBB47_21
.LBB47_19:
	tail	tlsf_memory_move
.LBB47_20:
	sub	a3, a0, a1
	sltu	a3, a3, a2
	beqz	a3, .LBB47_19
.LBB47_21:
	li	a3, 0
	li	a7, 0
	j	.LBB47_23
.LBB47_22:
	sltu	a4, a7, a6
	beqz	a4, .LBB47_25
.LBB47_23:
	slli	a2, a3, 3
	addi	a3, a3, 1
	add	a4, a1, a2
	seqz	t0, a3
	lw	t1, 0(a4)
	lw	a4, 4(a4)
	add	a7, a7, t0
	add	a2, a2, a0
	sw	t1, 0(a2)
	sw	a4, 4(a2)
	bne	a7, a6, .LBB47_22
	sltu	a4, a3, a5
	bnez	a4, .LBB47_23
.LBB47_25:
	ret
.Lfunc_end47:
	.size	tlsf_words.cells.copy_run, .Lfunc_end47-tlsf_words.cells.copy_run
	.cfi_endproc
	.section	.text.tlsf_heap.region.Region.write.4,"ax",@progbits
	.p2align	1
	.type	tlsf_heap.region.Region.write.4,@function
tlsf_heap.region.Region.write.4:
	.cfi_startproc
	mv	a6, a1
	slli	a7, a1, 3
	or	a1, a4, a2
	add	t1, a7, a2
	andi	t0, a1, 7
	addi	a1, t1, 24
	beqz	t0, .LBB48_3
	srli	a6, a6, 29
	sltu	a7, t1, a7
	sltiu	t0, a4, 8
	add	a6, a6, a7
	seqz	a2, a5
	and	a7, a2, t0
	sltu	a2, a1, t1
	add	a2, a2, a6
	beqz	a7, .LBB48_8
	tail	tlsf_words.words.Words.write_few
.LBB48_3:
	srli	a6, a4, 3
	slli	a2, a5, 29
	lw	a7, 0(a0)
	andi	a0, a1, -8
	or	a1, a6, a2
	sltiu	a2, a4, 64
	seqz	a6, a5
	and	a2, a6, a2
	add	a0, a0, a7
	beqz	a2, .LBB48_9
	andi	a2, a4, 8
	slli	t3, a1, 3
	bnez	a2, .LBB48_10
	andi	a1, a4, 16
	bnez	a1, .LBB48_11
.LBB48_6:
	sltiu	a1, a4, 25
	and	a1, a6, a1
	beqz	a1, .LBB48_12
.LBB48_7:
	ret
.LBB48_8:
	tail	tlsf_words.words.Words.write_run
.LBB48_9:
	srli	a2, a5, 3
	tail	tlsf_words.cells.pack_many
.LBB48_10:
	add	a2, a3, t3
	lbu	a7, -3(a2)
	lbu	t0, -2(a2)
	lbu	a5, -1(a2)
	lbu	t1, -4(a2)
	slli	a7, a7, 8
	slli	t0, t0, 16
	slli	a5, a5, 24
	or	a7, a7, t1
	or	t0, a5, t0
	lbu	t2, -7(a2)
	lbu	t1, -8(a2)
	lbu	a5, -6(a2)
	lbu	a2, -5(a2)
	slli	t2, t2, 8
	or	t1, t2, t1
	slli	a5, a5, 16
	slli	a2, a2, 24
	or	a2, a2, a5
	or	a5, t0, a7
	add	a1, a0, t3
	or	a2, a2, t1
	sw	a2, -8(a1)
	sw	a5, -4(a1)
	andi	a1, a4, 16
	beqz	a1, .LBB48_6
.LBB48_11:
	andi	a7, t3, 32
	add	a1, a3, a7
	lbu	t0, 5(a1)
	lbu	t1, 6(a1)
	lbu	a5, 7(a1)
	lbu	a2, 4(a1)
	slli	t0, t0, 8
	slli	t1, t1, 16
	slli	a5, a5, 24
	or	t0, t0, a2
	or	t1, a5, t1
	lbu	a2, 1(a1)
	lbu	a5, 0(a1)
	lbu	t2, 2(a1)
	lbu	t3, 3(a1)
	slli	a2, a2, 8
	or	t4, a2, a5
	add	a7, a7, a0
	slli	t2, t2, 16
	slli	t3, t3, 24
	or	a5, t3, t2
	or	a2, t1, t0
	or	a5, a5, t4
	sw	a5, 0(a7)
	sw	a2, 4(a7)
	lbu	t0, 13(a1)
	lbu	t1, 14(a1)
	lbu	a2, 15(a1)
	lbu	a5, 12(a1)
	slli	t0, t0, 8
	slli	t1, t1, 16
	slli	a2, a2, 24
	or	t0, t0, a5
	or	t1, a2, t1
	lbu	a5, 9(a1)
	lbu	t2, 8(a1)
	lbu	a2, 10(a1)
	lbu	a1, 11(a1)
	slli	a5, a5, 8
	or	a5, a5, t2
	slli	a2, a2, 16
	slli	a1, a1, 24
	or	a1, a1, a2
	or	a2, t1, t0
	or	a1, a1, a5
	sw	a1, 8(a7)
	sw	a2, 12(a7)
	sltiu	a1, a4, 25
	and	a1, a6, a1
	bnez	a1, .LBB48_7
.LBB48_12:
	lbu	a1, 5(a3)
	lbu	a2, 4(a3)
	lbu	a7, 6(a3)
	lbu	t0, 7(a3)
	slli	a1, a1, 8
	or	a6, a1, a2
	lbu	t1, 0(a3)
	lbu	a1, 1(a3)
	lbu	a4, 2(a3)
	lbu	a5, 3(a3)
	slli	a7, a7, 16
	slli	t0, t0, 24
	slli	a1, a1, 8
	slli	a4, a4, 16
	slli	a5, a5, 24
	or	a2, t0, a7
	or	a1, a1, t1
	or	a4, a4, a5
	or	a2, a2, a6
	or	a1, a1, a4
	sw	a1, 0(a0)
	sw	a2, 4(a0)
	lbu	a1, 13(a3)
	lbu	a2, 12(a3)
	lbu	a7, 14(a3)
	lbu	t0, 15(a3)
	slli	a1, a1, 8
	or	a6, a1, a2
	lbu	t1, 8(a3)
	lbu	a1, 9(a3)
	lbu	a4, 10(a3)
	lbu	a5, 11(a3)
	slli	a7, a7, 16
	slli	t0, t0, 24
	or	a2, t0, a7
	slli	a1, a1, 8
	slli	a4, a4, 16
	slli	a5, a5, 24
	or	a1, a1, t1
	or	a4, a4, a5
	or	a2, a2, a6
	or	a1, a1, a4
	sw	a1, 8(a0)
	sw	a2, 12(a0)
	lbu	a1, 21(a3)
	lbu	a2, 22(a3)
	lbu	a4, 23(a3)
	lbu	a5, 20(a3)
	slli	a1, a1, 8
	slli	a2, a2, 16
	slli	a4, a4, 24
	or	a6, a1, a5
	or	a7, a4, a2
	lbu	a4, 17(a3)
	lbu	a5, 16(a3)
	lbu	a1, 18(a3)
	lbu	a2, 19(a3)
	slli	a4, a4, 8
	or	a4, a4, a5
	slli	a1, a1, 16
	slli	a2, a2, 24
	or	a1, a1, a2
	or	a2, a7, a6
	or	a1, a1, a4
	sw	a1, 16(a0)
	sw	a2, 20(a0)
	lbu	a1, 29(a3)
	lbu	a2, 30(a3)
	lbu	a4, 31(a3)
	lbu	a5, 28(a3)
	slli	a1, a1, 8
	slli	a2, a2, 16
	slli	a4, a4, 24
	or	a6, a1, a5
	or	a2, a2, a4
	lbu	a4, 25(a3)
	lbu	a5, 24(a3)
	lbu	a1, 26(a3)
	lbu	a3, 27(a3)
	slli	a4, a4, 8
	or	a4, a4, a5
	slli	a1, a1, 16
	slli	a3, a3, 24
	or	a1, a1, a3
	or	a2, a2, a6
	or	a1, a1, a4
	sw	a1, 24(a0)
	sw	a2, 28(a0)
	ret
.Lfunc_end48:
	.size	tlsf_heap.region.Region.write.4, .Lfunc_end48-tlsf_heap.region.Region.write.4
	.cfi_endproc
	.section	.text.tlsf_words.cells.pack_many,"ax",@progbits
	.p2align	1
	.type	tlsf_words.cells.pack_many,@function
tlsf_words.cells.pack_many:
	.cfi_startproc
	andi	a7, a1, -4
	andi	a4, a1, 1
	slli	a5, a7, 3
	add	a6, a0, a5
	add	a5, a5, a3
	beqz	a4, .LBB49_2
	slli	a4, a1, 3
	andi	t0, a4, 24
	add	a4, a5, t0
	lbu	t1, -3(a4)
	lbu	t2, -2(a4)
	lbu	t3, -1(a4)
	lbu	t4, -4(a4)
	slli	t1, t1, 8
	slli	t2, t2, 16
	slli	t3, t3, 24
	or	t1, t1, t4
	or	t2, t3, t2
	lbu	t3, -7(a4)
	lbu	t4, -8(a4)
	lbu	t5, -6(a4)
	lbu	a4, -5(a4)
	slli	t3, t3, 8
	or	t3, t3, t4
	slli	t5, t5, 16
	slli	a4, a4, 24
	or	t4, a4, t5
	add	t0, t0, a6
	or	t1, t2, t1
	or	a4, t4, t3
	sw	a4, -8(t0)
	sw	t1, -4(t0)
.LBB49_2:
	andi	a1, a1, 2
	beqz	a1, .LBB49_4
	lbu	t0, 5(a5)
	lbu	t1, 6(a5)
	lbu	a1, 7(a5)
	lbu	a4, 4(a5)
	slli	t0, t0, 8
	slli	t1, t1, 16
	slli	a1, a1, 24
	or	t0, t0, a4
	or	t1, a1, t1
	lbu	t3, 1(a5)
	lbu	t2, 0(a5)
	lbu	a1, 2(a5)
	lbu	a4, 3(a5)
	slli	t3, t3, 8
	or	t2, t3, t2
	slli	a1, a1, 16
	slli	a4, a4, 24
	or	a1, a1, a4
	or	a4, t1, t0
	or	a1, a1, t2
	sw	a1, 0(a6)
	sw	a4, 4(a6)
	lbu	t0, 13(a5)
	lbu	t1, 14(a5)
	lbu	a1, 15(a5)
	lbu	a4, 12(a5)
	slli	t0, t0, 8
	slli	t1, t1, 16
	slli	a1, a1, 24
	or	t0, t0, a4
	or	t1, a1, t1
	lbu	a4, 9(a5)
	lbu	t2, 8(a5)
	lbu	a1, 10(a5)
	lbu	a5, 11(a5)
	slli	a4, a4, 8
	or	a4, a4, t2
	slli	a1, a1, 16
	slli	a5, a5, 24
	or	a1, a1, a5
	or	a5, t1, t0
	or	a1, a1, a4
	sw	a1, 8(a6)
	sw	a5, 12(a6)
.LBB49_4:
	li	t1, 0
	li	a6, 0
	j	.LBB49_6
.LBB49_5:
	sltu	a4, a6, a2
	beqz	a4, .LBB49_8
.LBB49_6:
	slli	t0, t1, 3
	addi	t1, t1, 1
	add	a4, a3, t0
	seqz	t3, t1
	lbu	t2, 4(a4)
	lbu	a1, 5(a4)
	lbu	a5, 6(a4)
	lbu	t4, 7(a4)
	add	a6, a6, t3
	slli	a1, a1, 8
	slli	a5, a5, 16
	slli	t4, t4, 24
	or	t2, a1, t2
	or	t3, t4, a5
	lbu	a1, 1(a4)
	lbu	a5, 0(a4)
	lbu	t4, 2(a4)
	lbu	a4, 3(a4)
	slli	a1, a1, 8
	or	a1, a1, a5
	slli	t4, t4, 16
	slli	a4, a4, 24
	or	a4, a4, t4
	add	t0, t0, a0
	or	a5, t3, t2
	or	a1, a1, a4
	sw	a1, 0(t0)
	sw	a5, 4(t0)
	bne	a6, a2, .LBB49_5
	sltu	a4, t1, a7
	bnez	a4, .LBB49_6
.LBB49_8:
	ret
.Lfunc_end49:
	.size	tlsf_words.cells.pack_many, .Lfunc_end49-tlsf_words.cells.pack_many
	.cfi_endproc
	.section	.text.tlsf_words.words.Words.write_few,"ax",@progbits
	.p2align	1
	.type	tlsf_words.words.Words.write_few,@function
tlsf_words.words.Words.write_few:
	.cfi_startproc
	addi	sp, sp, -48
	.cfi_def_cfa_offset 48
	sw	ra, 44(sp)
	sw	s0, 40(sp)
	sw	s1, 36(sp)
	sw	s2, 32(sp)
	sw	s3, 28(sp)
	sw	s4, 24(sp)
	sw	s5, 20(sp)
	sw	s6, 16(sp)
	sw	s7, 12(sp)
	sw	s8, 8(sp)
	.cfi_offset ra, -4
	.cfi_offset s0, -8
	.cfi_offset s1, -12
	.cfi_offset s2, -16
	.cfi_offset s3, -20
	.cfi_offset s4, -24
	.cfi_offset s5, -28
	.cfi_offset s6, -32
	.cfi_offset s7, -36
	.cfi_offset s8, -40
	mv	s0, a5
	mv	s5, a4
	mv	s2, a3
	mv	s3, a0
	andi	a0, a1, 7
	li	a3, 8
	sltiu	s1, a0, 9
	addi	s8, s1, -1
	sub	s6, a3, a0
	beq	s8, a5, .LBB50_2
	sltu	a3, s8, s0
	mv	s4, s6
	beqz	a3, .LBB50_3
	j	.LBB50_4
.LBB50_2:
	sltu	a3, s6, s5
	mv	s4, s6
	bnez	a3, .LBB50_4
.LBB50_3:
	mv	s4, s5
.LBB50_4:
	slli	a2, a2, 29
	srli	a1, a1, 3
	or	a1, a1, a2
	or	a2, s5, s0
	slli	s7, a1, 3
	beqz	a2, .LBB50_6
	lw	a1, 0(s3)
	add	s1, a1, s7
	lw	a1, 0(s1)
	lw	a2, 4(s1)
	mv	a3, sp
	sw	a1, 0(sp)
	sw	a2, 4(sp)
	or	a0, a0, a3
	mv	a1, s2
	mv	a2, s4
	call	tlsf_memory_cpy
	lw	a0, 0(sp)
	lw	a1, 4(sp)
	sw	a0, 0(s1)
	sw	a1, 4(s1)
.LBB50_6:
	beq	s0, s8, .LBB50_8
	sltu	a0, s8, s0
	bnez	a0, .LBB50_9
	j	.LBB50_10
.LBB50_8:
	sltu	a0, s6, s5
	beqz	a0, .LBB50_10
.LBB50_9:
	lw	a0, 0(s3)
	add	s7, s7, a0
	lw	a0, 8(s7)
	lw	a3, 12(s7)
	sub	a2, s5, s4
	add	a1, s2, s4
	sw	a0, 0(sp)
	sw	a3, 4(sp)
	mv	a0, sp
	call	tlsf_memory_cpy
	lw	a0, 0(sp)
	lw	a1, 4(sp)
	sw	a0, 8(s7)
	sw	a1, 12(s7)
.LBB50_10:
	lw	ra, 44(sp)
	lw	s0, 40(sp)
	lw	s1, 36(sp)
	lw	s2, 32(sp)
	lw	s3, 28(sp)
	lw	s4, 24(sp)
	lw	s5, 20(sp)
	lw	s6, 16(sp)
	lw	s7, 12(sp)
	lw	s8, 8(sp)
	.cfi_restore ra
	.cfi_restore s0
	.cfi_restore s1
	.cfi_restore s2
	.cfi_restore s3
	.cfi_restore s4
	.cfi_restore s5
	.cfi_restore s6
	.cfi_restore s7
	.cfi_restore s8
	addi	sp, sp, 48
	.cfi_def_cfa_offset 0
	ret
.Lfunc_end50:
	.size	tlsf_words.words.Words.write_few, .Lfunc_end50-tlsf_words.words.Words.write_few
	.cfi_endproc
	.section	.text.tlsf_words.words.Words.write_run,"ax",@progbits
	.p2align	1
	.type	tlsf_words.words.Words.write_run,@function
tlsf_words.words.Words.write_run:
	.cfi_startproc
	addi	sp, sp, -48
	.cfi_def_cfa_offset 48
	sw	s0, 44(sp)
	sw	s1, 40(sp)
	sw	s2, 36(sp)
	sw	s3, 32(sp)
	sw	s4, 28(sp)
	sw	s5, 24(sp)
	sw	s6, 20(sp)
	sw	s7, 16(sp)
	sw	s8, 12(sp)
	sw	s9, 8(sp)
	sw	s10, 4(sp)
	sw	s11, 0(sp)
	.cfi_offset s0, -4
	.cfi_offset s1, -8
	.cfi_offset s2, -12
	.cfi_offset s3, -16
	.cfi_offset s4, -20
	.cfi_offset s5, -24
	.cfi_offset s6, -28
	.cfi_offset s7, -32
	.cfi_offset s8, -36
	.cfi_offset s9, -40
	.cfi_offset s10, -44
	.cfi_offset s11, -48
	.cfi_remember_state
	li	t0, -1
	neg	s1, a1
	addi	a6, a1, 7
	andi	s2, a1, 7
	andi	a7, s1, 7
	sltu	s1, a6, a1
	srli	t2, a6, 3
	sltu	s0, a4, a7
	sub	a6, a4, a7
	add	a2, a2, s1
	sub	t3, a5, s0
	srli	t5, a6, 3
	slli	t4, a2, 29
	andi	a2, a6, -8
	slli	t6, t3, 29
	or	s3, a2, a7
	srli	t1, t0, 1
	beqz	s2, .LBB51_8
	lw	s4, 0(a0)
	andi	s9, a1, -8
	lbu	s6, 0(a3)
	lbu	s1, 1(a3)
	lbu	a2, 2(a3)
	lbu	a1, 3(a3)
	slli	s0, s2, 3
	add	s9, s9, s4
	slli	s1, s1, 8
	slli	a2, a2, 16
	slli	a1, a1, 24
	lw	s5, 0(s9)
	lw	s4, 4(s9)
	or	s1, s1, s6
	or	a1, a1, a2
	or	s6, a1, s1
	sll	a2, t0, s0
	addi	s7, s0, -32
	not	s2, s0
	bltz	s7, .LBB51_3
	mv	s1, a2
	j	.LBB51_4
.LBB51_3:
	srl	s1, t1, s2
	or	s1, s1, a2
.LBB51_4:
	srai	s8, s7, 31
	not	a1, s1
	and	a2, s8, a2
	and	s4, s4, a1
	not	a1, a2
	and	s5, s5, a1
	sll	a2, s6, s0
	bltz	s7, .LBB51_6
	mv	s0, a2
	j	.LBB51_7
.LBB51_6:
	lbu	s7, 4(a3)
	lbu	s1, 5(a3)
	lbu	s11, 6(a3)
	lbu	s10, 7(a3)
	srli	s6, s6, 1
	slli	s1, s1, 8
	slli	s11, s11, 16
	slli	s10, s10, 24
	or	s1, s1, s7
	or	a1, s10, s11
	or	a1, a1, s1
	sll	a1, a1, s0
	srl	s0, s6, s2
	or	s0, s0, a1
.LBB51_7:
	and	a1, s8, a2
	add	s0, s0, s4
	add	s5, s5, a1
	sltu	a1, s5, a1
	add	a1, a1, s0
	sw	s5, 0(s9)
	sw	a1, 4(s9)
.LBB51_8:
	or	a1, t5, t6
	xor	a2, a4, s3
	or	a2, a2, a5
	or	t5, t2, t4
	beqz	a2, .LBB51_16
	sub	s1, a4, s3
	add	t2, a1, t5
	add	a4, a4, a3
	lbu	a2, -3(a4)
	lbu	a5, -4(a4)
	lbu	t4, -2(a4)
	lbu	s0, -1(a4)
	slli	a2, a2, 8
	or	a2, a2, a5
	li	t6, 32
	slli	s1, s1, 3
	slli	t4, t4, 16
	slli	s0, s0, 24
	or	a5, s0, t4
	neg	s0, s1
	or	a5, a5, a2
	sub	a2, t6, s1
	srl	t4, a5, s0
	bltz	a2, .LBB51_11
	mv	s2, t4
	j	.LBB51_12
.LBB51_11:
	lbu	t6, -7(a4)
	lbu	s2, -8(a4)
	lbu	s3, -6(a4)
	lbu	a4, -5(a4)
	slli	t6, t6, 8
	or	t6, t6, s2
	slli	s2, a5, 1
	slli	s3, s3, 16
	slli	a4, a4, 24
	or	a4, a4, s3
	li	a5, 64
	sub	a5, a5, s1
	not	a5, a5
	or	a4, a4, t6
	srl	a4, a4, s0
	sll	a5, s2, a5
	or	s2, a4, a5
.LBB51_12:
	lw	a4, 0(a0)
	srai	a5, a2, 31
	slli	a2, t2, 3
	add	a2, a2, a4
	lw	t6, 0(a2)
	lw	t2, 4(a2)
	and	t4, a5, t4
	addi	s0, s1, -32
	sll	a5, t0, s1
	bltz	s0, .LBB51_14
	mv	t0, a5
	j	.LBB51_15
.LBB51_14:
	not	s1, s1
	srl	s1, t1, s1
	or	t0, a5, s1
.LBB51_15:
	srai	s0, s0, 31
	xor	s1, t6, s2
	xor	a4, t2, t4
	and	a5, a5, s0
	and	a4, a4, t0
	and	a5, a5, s1
	xor	a4, a4, t4
	xor	a5, a5, s2
	sw	a5, 0(a2)
	sw	a4, 4(a2)
.LBB51_16:
	add	a3, a3, a7
	lw	a0, 0(a0)
	slli	t5, t5, 3
	sltiu	a2, a6, 64
	seqz	t1, t3
	and	a2, t1, a2
	add	a0, a0, t5
	beqz	a2, .LBB51_22
	andi	a2, a6, 8
	slli	a4, a1, 3
	bnez	a2, .LBB51_23
	andi	a1, a6, 16
	bnez	a1, .LBB51_24
.LBB51_19:
	sltiu	a1, a6, 32
	and	a1, t1, a1
	bnez	a1, .LBB51_21
.LBB51_20:
	lbu	a1, 5(a3)
	lbu	a2, 4(a3)
	lbu	a4, 6(a3)
	lbu	a5, 7(a3)
	slli	a1, a1, 8
	or	a6, a1, a2
	lbu	a2, 0(a3)
	lbu	s1, 1(a3)
	lbu	s0, 2(a3)
	lbu	a1, 3(a3)
	slli	a4, a4, 16
	slli	a5, a5, 24
	slli	s1, s1, 8
	slli	s0, s0, 16
	slli	a1, a1, 24
	or	a4, a4, a5
	or	a2, a2, s1
	or	a1, a1, s0
	or	a4, a4, a6
	or	a1, a1, a2
	sw	a1, 0(a0)
	sw	a4, 4(a0)
	lbu	a1, 13(a3)
	lbu	a2, 12(a3)
	lbu	a4, 14(a3)
	lbu	a5, 15(a3)
	slli	a1, a1, 8
	or	a6, a1, a2
	lbu	a2, 8(a3)
	lbu	s1, 9(a3)
	lbu	s0, 10(a3)
	lbu	a1, 11(a3)
	slli	a4, a4, 16
	slli	a5, a5, 24
	or	a4, a4, a5
	slli	s1, s1, 8
	slli	s0, s0, 16
	slli	a1, a1, 24
	or	a2, a2, s1
	or	a1, a1, s0
	or	a4, a4, a6
	or	a1, a1, a2
	sw	a1, 8(a0)
	sw	a4, 12(a0)
	lbu	a1, 21(a3)
	lbu	a2, 22(a3)
	lbu	a4, 23(a3)
	lbu	a5, 20(a3)
	slli	a1, a1, 8
	slli	a2, a2, 16
	slli	a4, a4, 24
	or	a1, a1, a5
	or	a2, a2, a4
	lbu	a4, 17(a3)
	lbu	a5, 16(a3)
	lbu	s1, 18(a3)
	lbu	s0, 19(a3)
	slli	a4, a4, 8
	or	a4, a4, a5
	slli	s1, s1, 16
	slli	s0, s0, 24
	or	s0, s0, s1
	or	a1, a1, a2
	or	a4, a4, s0
	sw	a4, 16(a0)
	sw	a1, 20(a0)
	lbu	a1, 29(a3)
	lbu	a2, 30(a3)
	lbu	a4, 31(a3)
	lbu	a5, 28(a3)
	slli	a1, a1, 8
	slli	a2, a2, 16
	slli	a4, a4, 24
	or	a1, a1, a5
	or	a2, a2, a4
	lbu	a4, 25(a3)
	lbu	a5, 24(a3)
	lbu	s1, 26(a3)
	lbu	a3, 27(a3)
	slli	a4, a4, 8
	or	a4, a4, a5
	slli	s1, s1, 16
	slli	a3, a3, 24
	or	a3, a3, s1
	or	a1, a1, a2
	or	a3, a3, a4
	sw	a3, 24(a0)
	sw	a1, 28(a0)
.LBB51_21:
	lw	s0, 44(sp)
	lw	s1, 40(sp)
	lw	s2, 36(sp)
	lw	s3, 32(sp)
	lw	s4, 28(sp)
	lw	s5, 24(sp)
	lw	s6, 20(sp)
	lw	s7, 16(sp)
	lw	s8, 12(sp)
	lw	s9, 8(sp)
	lw	s10, 4(sp)
	lw	s11, 0(sp)
	.cfi_restore s0
	.cfi_restore s1
	.cfi_restore s2
	.cfi_restore s3
	.cfi_restore s4
	.cfi_restore s5
	.cfi_restore s6
	.cfi_restore s7
	.cfi_restore s8
	.cfi_restore s9
	.cfi_restore s10
	.cfi_restore s11
	addi	sp, sp, 48
	.cfi_def_cfa_offset 0
	ret
.LBB51_22:
	.cfi_restore_state
	.cfi_remember_state
	srli	a2, t3, 3
	lw	s0, 44(sp)
	lw	s1, 40(sp)
	lw	s2, 36(sp)
	lw	s3, 32(sp)
	lw	s4, 28(sp)
	lw	s5, 24(sp)
	lw	s6, 20(sp)
	lw	s7, 16(sp)
	lw	s8, 12(sp)
	lw	s9, 8(sp)
	lw	s10, 4(sp)
	lw	s11, 0(sp)
	.cfi_restore s0
	.cfi_restore s1
	.cfi_restore s2
	.cfi_restore s3
	.cfi_restore s4
	.cfi_restore s5
	.cfi_restore s6
	.cfi_restore s7
	.cfi_restore s8
	.cfi_restore s9
	.cfi_restore s10
	.cfi_restore s11
	addi	sp, sp, 48
	.cfi_def_cfa_offset 0
	tail	tlsf_words.cells.pack_many
.LBB51_23:
	.cfi_restore_state
	add	a2, a3, a4
	lbu	a7, -3(a2)
	lbu	s1, -2(a2)
	lbu	s0, -1(a2)
	lbu	a5, -4(a2)
	slli	a7, a7, 8
	slli	s1, s1, 16
	slli	s0, s0, 24
	or	a7, a7, a5
	or	t0, s0, s1
	lbu	s1, -7(a2)
	lbu	a5, -8(a2)
	lbu	s0, -6(a2)
	lbu	a2, -5(a2)
	slli	s1, s1, 8
	or	a5, a5, s1
	slli	s0, s0, 16
	slli	a2, a2, 24
	or	a2, a2, s0
	or	s1, t0, a7
	add	a1, a0, a4
	or	a2, a2, a5
	sw	a2, -8(a1)
	sw	s1, -4(a1)
	andi	a1, a6, 16
	beqz	a1, .LBB51_19
.LBB51_24:
	andi	a2, a4, 32
	add	a1, a3, a2
	lbu	a4, 5(a1)
	lbu	a5, 6(a1)
	lbu	s1, 7(a1)
	lbu	s0, 4(a1)
	slli	a4, a4, 8
	slli	a5, a5, 16
	slli	s1, s1, 24
	or	a7, a4, s0
	or	t0, s1, a5
	lbu	s1, 1(a1)
	lbu	s0, 0(a1)
	lbu	a4, 2(a1)
	lbu	a5, 3(a1)
	slli	s1, s1, 8
	or	s0, s0, s1
	add	a2, a2, a0
	slli	a4, a4, 16
	slli	a5, a5, 24
	or	a4, a4, a5
	or	a5, t0, a7
	or	a4, a4, s0
	sw	a4, 0(a2)
	sw	a5, 4(a2)
	lbu	a4, 13(a1)
	lbu	a5, 14(a1)
	lbu	s1, 15(a1)
	lbu	s0, 12(a1)
	slli	a4, a4, 8
	slli	a5, a5, 16
	slli	s1, s1, 24
	or	a7, a4, s0
	or	a5, a5, s1
	lbu	s1, 9(a1)
	lbu	s0, 8(a1)
	lbu	a4, 10(a1)
	lbu	a1, 11(a1)
	slli	s1, s1, 8
	or	s0, s0, s1
	slli	a4, a4, 16
	slli	a1, a1, 24
	or	a1, a1, a4
	or	a4, a5, a7
	or	a1, a1, s0
	sw	a1, 8(a2)
	sw	a4, 12(a2)
	sltiu	a1, a6, 32
	and	a1, t1, a1
	beqz	a1, .LBB51_20
	j	.LBB51_21
.Lfunc_end51:
	.size	tlsf_words.words.Words.write_run, .Lfunc_end51-tlsf_words.words.Words.write_run
	.cfi_endproc
	.section	.text.tlsf_heap.region.Region.write.5,"ax",@progbits
	.p2align	1
	.type	tlsf_heap.region.Region.write.5,@function
tlsf_heap.region.Region.write.5:
	.cfi_startproc
	mv	a6, a1
	slli	a7, a1, 3
	or	a1, a4, a2
	add	t1, a7, a2
	andi	t0, a1, 7
	addi	a1, t1, 24
	beqz	t0, .LBB52_3
	srli	a6, a6, 29
	sltu	a7, t1, a7
	sltiu	t0, a4, 8
	add	a6, a6, a7
	seqz	a2, a5
	and	a7, a2, t0
	sltu	a2, a1, t1
	add	a2, a2, a6
	beqz	a7, .LBB52_8
	tail	tlsf_words.words.Words.write_few
.LBB52_3:
	srli	a6, a4, 3
	slli	a2, a5, 29
	lw	a7, 0(a0)
	andi	a0, a1, -8
	or	a1, a6, a2
	sltiu	a2, a4, 64
	seqz	a6, a5
	and	a2, a6, a2
	add	a0, a0, a7
	beqz	a2, .LBB52_9
	andi	a2, a4, 8
	slli	t3, a1, 3
	bnez	a2, .LBB52_10
	andi	a1, a4, 16
	bnez	a1, .LBB52_11
.LBB52_6:
	sltiu	a1, a4, 25
	and	a1, a6, a1
	beqz	a1, .LBB52_12
.LBB52_7:
	ret
.LBB52_8:
	tail	tlsf_words.words.Words.write_run
.LBB52_9:
	srli	a2, a5, 3
	tail	tlsf_words.cells.pack_many
.LBB52_10:
	add	a2, a3, t3
	lbu	a7, -3(a2)
	lbu	t0, -2(a2)
	lbu	a5, -1(a2)
	lbu	t1, -4(a2)
	slli	a7, a7, 8
	slli	t0, t0, 16
	slli	a5, a5, 24
	or	a7, a7, t1
	or	t0, a5, t0
	lbu	t2, -7(a2)
	lbu	t1, -8(a2)
	lbu	a5, -6(a2)
	lbu	a2, -5(a2)
	slli	t2, t2, 8
	or	t1, t2, t1
	slli	a5, a5, 16
	slli	a2, a2, 24
	or	a2, a2, a5
	or	a5, t0, a7
	add	a1, a0, t3
	or	a2, a2, t1
	sw	a2, -8(a1)
	sw	a5, -4(a1)
	andi	a1, a4, 16
	beqz	a1, .LBB52_6
.LBB52_11:
	andi	a7, t3, 32
	add	a1, a3, a7
	lbu	t0, 5(a1)
	lbu	t1, 6(a1)
	lbu	a5, 7(a1)
	lbu	a2, 4(a1)
	slli	t0, t0, 8
	slli	t1, t1, 16
	slli	a5, a5, 24
	or	t0, t0, a2
	or	t1, a5, t1
	lbu	a2, 1(a1)
	lbu	a5, 0(a1)
	lbu	t2, 2(a1)
	lbu	t3, 3(a1)
	slli	a2, a2, 8
	or	t4, a2, a5
	add	a7, a7, a0
	slli	t2, t2, 16
	slli	t3, t3, 24
	or	a5, t3, t2
	or	a2, t1, t0
	or	a5, a5, t4
	sw	a5, 0(a7)
	sw	a2, 4(a7)
	lbu	t0, 13(a1)
	lbu	t1, 14(a1)
	lbu	a2, 15(a1)
	lbu	a5, 12(a1)
	slli	t0, t0, 8
	slli	t1, t1, 16
	slli	a2, a2, 24
	or	t0, t0, a5
	or	t1, a2, t1
	lbu	a5, 9(a1)
	lbu	t2, 8(a1)
	lbu	a2, 10(a1)
	lbu	a1, 11(a1)
	slli	a5, a5, 8
	or	a5, a5, t2
	slli	a2, a2, 16
	slli	a1, a1, 24
	or	a1, a1, a2
	or	a2, t1, t0
	or	a1, a1, a5
	sw	a1, 8(a7)
	sw	a2, 12(a7)
	sltiu	a1, a4, 25
	and	a1, a6, a1
	bnez	a1, .LBB52_7
.LBB52_12:
	lbu	a1, 5(a3)
	lbu	a2, 4(a3)
	lbu	a7, 6(a3)
	lbu	t0, 7(a3)
	slli	a1, a1, 8
	or	a6, a1, a2
	lbu	t1, 0(a3)
	lbu	a1, 1(a3)
	lbu	a4, 2(a3)
	lbu	a5, 3(a3)
	slli	a7, a7, 16
	slli	t0, t0, 24
	slli	a1, a1, 8
	slli	a4, a4, 16
	slli	a5, a5, 24
	or	a2, t0, a7
	or	a1, a1, t1
	or	a4, a4, a5
	or	a2, a2, a6
	or	a1, a1, a4
	sw	a1, 0(a0)
	sw	a2, 4(a0)
	lbu	a1, 13(a3)
	lbu	a2, 12(a3)
	lbu	a7, 14(a3)
	lbu	t0, 15(a3)
	slli	a1, a1, 8
	or	a6, a1, a2
	lbu	t1, 8(a3)
	lbu	a1, 9(a3)
	lbu	a4, 10(a3)
	lbu	a5, 11(a3)
	slli	a7, a7, 16
	slli	t0, t0, 24
	or	a2, t0, a7
	slli	a1, a1, 8
	slli	a4, a4, 16
	slli	a5, a5, 24
	or	a1, a1, t1
	or	a4, a4, a5
	or	a2, a2, a6
	or	a1, a1, a4
	sw	a1, 8(a0)
	sw	a2, 12(a0)
	lbu	a1, 21(a3)
	lbu	a2, 22(a3)
	lbu	a4, 23(a3)
	lbu	a5, 20(a3)
	slli	a1, a1, 8
	slli	a2, a2, 16
	slli	a4, a4, 24
	or	a6, a1, a5
	or	a7, a4, a2
	lbu	a4, 17(a3)
	lbu	a5, 16(a3)
	lbu	a1, 18(a3)
	lbu	a2, 19(a3)
	slli	a4, a4, 8
	or	a4, a4, a5
	slli	a1, a1, 16
	slli	a2, a2, 24
	or	a1, a1, a2
	or	a2, a7, a6
	or	a1, a1, a4
	sw	a1, 16(a0)
	sw	a2, 20(a0)
	lbu	a1, 29(a3)
	lbu	a2, 30(a3)
	lbu	a4, 31(a3)
	lbu	a5, 28(a3)
	slli	a1, a1, 8
	slli	a2, a2, 16
	slli	a4, a4, 24
	or	a6, a1, a5
	or	a2, a2, a4
	lbu	a4, 25(a3)
	lbu	a5, 24(a3)
	lbu	a1, 26(a3)
	lbu	a3, 27(a3)
	slli	a4, a4, 8
	or	a4, a4, a5
	slli	a1, a1, 16
	slli	a3, a3, 24
	or	a1, a1, a3
	or	a2, a2, a6
	or	a1, a1, a4
	sw	a1, 24(a0)
	sw	a2, 28(a0)
	ret
.Lfunc_end52:
	.size	tlsf_heap.region.Region.write.5, .Lfunc_end52-tlsf_heap.region.Region.write.5
	.cfi_endproc
	.section	.rodata.cst32,"aM",@progbits,32
.LCPI53_0:
	.ascii	"\000\001\034\002\035\016\030\003\036\026\024\017\031\021\004\b\037\033\r\027\025\023\020\007\032\f\022\006\013\005\n\t"
	.section	.text.tlsf_allocate,"ax",@progbits
	.globl	tlsf_allocate
	.p2align	1
	.type	tlsf_allocate,@function
tlsf_allocate:
	.cfi_startproc
	addi	sp, sp, -32
	.cfi_def_cfa_offset 32
	sw	ra, 28(sp)
	sw	s0, 24(sp)
	sw	s1, 20(sp)
	sw	s2, 16(sp)
	sw	s3, 12(sp)
	sw	s4, 8(sp)
	sw	s5, 4(sp)
	sw	s6, 0(sp)
	.cfi_offset ra, -4
	.cfi_offset s0, -8
	.cfi_offset s1, -12
	.cfi_offset s2, -16
	.cfi_offset s3, -20
	.cfi_offset s4, -24
	.cfi_offset s5, -28
	.cfi_offset s6, -32
	.cfi_remember_state
	lbu	a3, 8(a0)
	beqz	a3, .LBB53_12
	lw	s6, 0(a0)
	lbu	a3, 0(s6)
	beqz	a3, .LBB53_12
	sb	zero, 0(s6)
	lbu	a3, 16(s6)
	seqz	a4, a1
	add	a4, a4, a1
	sltu	a5, a4, a1
	addi	s0, a4, 31
	sltu	a4, s0, a4
	add	a4, a4, a5
	slli	a4, a4, 29
	srli	s0, s0, 3
	or	t5, s0, a4
	beqz	a3, .LBB53_6
	lui	a3, 4096
	bltu	a3, t5, .LBB53_7
	ori	s0, t5, 32
	lui	a4, 349525
	lui	a5, 209715
	lui	a6, 61681
	srli	a3, s0, 1
	addi	a4, a4, 1365
	or	s0, s0, a3
	srli	a3, s0, 2
	or	s0, s0, a3
	srli	a3, s0, 4
	or	s0, s0, a3
	srli	a3, s0, 8
	or	s0, s0, a3
	srli	a3, s0, 16
	or	a3, a3, s0
	not	s0, a3
	srli	a3, s0, 1
	and	a3, a3, a4
	lui	a7, 4112
	addi	a5, a5, 819
	sub	s0, s0, a3
	and	a3, s0, a5
	srli	s0, s0, 2
	and	a5, a5, s0
	li	t0, 26
	add	a3, a3, a5
	srli	a5, a3, 4
	add	a3, a3, a5
	addi	a5, t5, -1
	addi	a4, a6, -241
	addi	s0, a7, 257
	and	a3, a3, a4
	mul	a3, a3, s0
	srli	a3, a3, 24
	sub	a3, t0, a3
	srl	s0, a5, a3
	slli	a3, a3, 5
	add	a3, a3, s0
	addi	a4, a3, 1
	seqz	s1, a4
	srli	a5, a3, 5
	slli	a4, s1, 27
	sub	a5, a5, a4
	slli	a4, a5, 2
	add	a4, a4, s6
	lw	a4, 108(a4)
	srl	s0, a4, s0
	andi	s0, s0, -2
	beqz	s0, .LBB53_13
	neg	a4, s0
	and	a4, a4, s0
	lui	a5, 30667
	addi	a5, a5, 1329
	mul	a4, a4, a5
	lui	a5, %hi(.LCPI53_0)
	addi	a5, a5, %lo(.LCPI53_0)
	srli	a4, a4, 27
	add	a4, a4, a5
	lbu	a4, 0(a4)
	neg	a5, s1
	add	a4, a4, a3
	sltu	a3, a4, a3
	add	a3, a3, a5
	srli	a5, a4, 5
	slli	a3, a3, 27
	or	t0, a5, a3
	lw	t3, 32(s6)
	lw	t2, 36(s6)
	and	a3, t3, t2
	li	t1, -1
	bne	a3, t1, .LBB53_21
	j	.LBB53_43
.LBB53_6:
	lui	a3, 256
	bgeu	a3, t5, .LBB53_10
.LBB53_7:
	lw	a2, 8(s6)
	lw	a0, 12(s6)
	addi	a2, a2, 1
	snez	a3, a2
	addi	a3, a3, -1
	or	a2, a2, a3
	sw	a2, 8(s6)
	bltu	a0, a1, .LBB53_9
	mv	a1, a0
.LBB53_9:
	sw	a1, 12(s6)
	li	a0, 1
	j	.LBB53_44
.LBB53_10:
	ori	s0, t5, 16
	lui	a4, 349525
	lui	a5, 209715
	lui	a6, 61681
	srli	a3, s0, 1
	addi	a4, a4, 1365
	or	s0, s0, a3
	srli	a3, s0, 2
	or	s0, s0, a3
	srli	a3, s0, 4
	or	s0, s0, a3
	srli	a3, s0, 8
	or	s0, s0, a3
	srli	a3, s0, 16
	or	a3, a3, s0
	not	s0, a3
	srli	a3, s0, 1
	and	a3, a3, a4
	lui	a7, 4112
	addi	a5, a5, 819
	sub	s0, s0, a3
	and	a3, s0, a5
	srli	s0, s0, 2
	and	a5, a5, s0
	li	t0, 27
	add	a3, a3, a5
	srli	a5, a3, 4
	add	a3, a3, a5
	addi	a5, t5, -1
	addi	a4, a6, -241
	addi	s0, a7, 257
	and	a3, a3, a4
	mul	a3, a3, s0
	srli	a3, a3, 24
	sub	a3, t0, a3
	srl	a4, a5, a3
	slli	a3, a3, 4
	add	a3, a3, a4
	addi	a5, a3, 1
	seqz	a6, a5
	srli	a5, a3, 4
	slli	s0, a6, 28
	sub	s0, a5, s0
	slli	a5, s0, 2
	add	a5, a5, s6
	lw	a5, 108(a5)
	andi	a4, a4, 15
	srl	a4, a5, a4
	andi	a4, a4, -2
	beqz	a4, .LBB53_16
	neg	a5, a4
	and	a4, a4, a5
	lui	a5, 30667
	addi	a5, a5, 1329
	mul	a4, a4, a5
	lui	a5, %hi(.LCPI53_0)
	addi	a5, a5, %lo(.LCPI53_0)
	srli	a4, a4, 27
	add	a4, a4, a5
	lbu	a5, 0(a4)
	neg	a4, a6
	add	a5, a5, a3
	sltu	a3, a5, a3
	add	a3, a3, a4
	srli	a4, a5, 4
	slli	a3, a3, 28
	or	t0, a4, a3
	lw	t3, 32(s6)
	lw	t2, 36(s6)
	and	a3, t3, t2
	li	t1, -1
	bne	a3, t1, .LBB53_41
	j	.LBB53_43
.LBB53_12:
	li	a0, 0
	lw	ra, 28(sp)
	lw	s0, 24(sp)
	lw	s1, 20(sp)
	lw	s2, 16(sp)
	lw	s3, 12(sp)
	lw	s4, 8(sp)
	lw	s5, 4(sp)
	lw	s6, 0(sp)
	.cfi_restore ra
	.cfi_restore s0
	.cfi_restore s1
	.cfi_restore s2
	.cfi_restore s3
	.cfi_restore s4
	.cfi_restore s5
	.cfi_restore s6
	addi	sp, sp, 32
	.cfi_def_cfa_offset 0
	tail	tlsf_c.call_fault.CallFault.refusal
.LBB53_13:
	.cfi_restore_state
	.cfi_remember_state
	lw	a3, 104(s6)
	li	a4, -2
	sll	a4, a4, a5
	and	a3, a3, a4
	beqz	a3, .LBB53_7
	neg	a4, a3
	lui	a5, 30667
	and	a3, a3, a4
	addi	a4, a5, 1329
	mul	a3, a3, a4
	srli	a3, a3, 27
	lui	a5, %hi(.LCPI53_0)
	addi	a5, a5, %lo(.LCPI53_0)
	add	a3, a3, a5
	lbu	s1, 0(a3)
	slli	a3, s1, 2
	add	a3, a3, s6
	lw	s0, 108(a3)
	beqz	s0, .LBB53_19
	neg	a3, s0
	and	a3, a3, s0
	mul	a3, a3, a4
	srli	a3, a3, 27
	add	a3, a3, a5
	lbu	a4, 0(a3)
	j	.LBB53_20
.LBB53_16:
	lw	a3, 104(s6)
	li	a4, -2
	sll	a4, a4, s0
	and	a3, a3, a4
	beqz	a3, .LBB53_7
	neg	a4, a3
	lui	a5, 30667
	and	a3, a3, a4
	addi	a4, a5, 1329
	mul	a3, a3, a4
	srli	a3, a3, 27
	lui	a6, %hi(.LCPI53_0)
	addi	a6, a6, %lo(.LCPI53_0)
	add	a3, a3, a6
	lbu	a5, 0(a3)
	slli	a3, a5, 2
	add	a3, a3, s6
	lw	s0, 108(a3)
	beqz	s0, .LBB53_39
	neg	a3, s0
	and	a3, a3, s0
	mul	a3, a3, a4
	srli	a3, a3, 27
	add	a3, a3, a6
	lbu	a3, 0(a3)
	j	.LBB53_40
.LBB53_19:
	li	a4, 32
.LBB53_20:
	slli	s1, s1, 5
	add	a4, a4, s1
	srli	t0, a4, 5
	lw	t3, 32(s6)
	lw	t2, 36(s6)
	and	a3, t3, t2
	li	t1, -1
	beq	a3, t1, .LBB53_43
.LBB53_21:
	slli	a3, a4, 2
	add	a3, a3, s6
	lw	a7, 192(a3)
	lw	t6, 48(s6)
	slli	a6, a7, 3
	add	a5, t6, a6
	lw	a5, 16(a5)
	beq	a5, t1, .LBB53_23
	slli	a4, a5, 3
	add	a4, a4, t6
	li	s1, -1
	sw	s1, 20(a4)
	lw	t6, 48(s6)
	sw	a5, 192(a3)
	j	.LBB53_25
.LBB53_23:
	li	a5, -1
	slli	s1, t0, 2
	sw	a5, 192(a3)
	add	s1, s1, s6
	lw	a5, 108(s1)
	li	a3, 1
	sll	a4, a3, a4
	not	a4, a4
	and	a4, a4, a5
	sw	a4, 108(s1)
	bnez	a4, .LBB53_25
	lw	a4, 104(s6)
	sll	a3, a3, t0
	not	a3, a3
	and	a3, a3, a4
	sw	a3, 104(s6)
.LBB53_25:
	add	a4, t6, a6
	lw	a5, 0(a4)
	slli	a3, t5, 2
	lw	t4, 4(a4)
	sub	a3, a5, a3
	li	s1, 15
	bltu	s1, a3, .LBB53_27
	seqz	a3, a5
	addi	a5, a5, -1
	sw	a1, 16(a4)
	sw	zero, 20(a4)
	sub	a1, t4, a3
	sw	a5, 0(a4)
	sw	a1, 4(a4)
	sw	t3, 8(a4)
	sw	t2, 12(a4)
	srli	a1, a5, 2
	lw	a3, 40(s6)
	lw	a4, 44(s6)
	add	a1, a1, a3
	sw	a1, 40(s6)
	bltu	a4, a1, .LBB53_31
	j	.LBB53_32
.LBB53_27:
	srli	t1, a3, 2
	add	t0, a7, t5
	sltu	s0, a5, a3
	sub	s3, a5, a3
	sw	a1, 16(a4)
	sw	zero, 20(a4)
	li	s2, 1
	andi	s4, a3, 2
	sub	s0, t4, s0
	slli	t4, t0, 3
	srli	a1, t0, 3
	andi	a5, t0, 63
	sll	s5, s2, t0
	sw	s3, 0(a4)
	sw	s0, 4(a4)
	sw	t3, 8(a4)
	sw	t2, 12(a4)
	add	t6, t6, t4
	andi	a1, a1, -8
	sll	a4, s2, a5
	addi	a5, a5, -32
	sw	a3, 0(t6)
	sw	a7, 4(t6)
	sw	t3, 8(t6)
	sw	t2, 12(t6)
	lw	a3, 72(s6)
	srli	s0, a5, 31
	srai	a5, a5, 31
	addi	s0, s0, -1
	add	a1, a1, a3
	lw	a3, 0(a1)
	lw	s1, 4(a1)
	and	a5, a5, s5
	and	a4, a4, s0
	or	a3, a3, a5
	or	a4, a4, s1
	sw	a3, 0(a1)
	sw	a4, 4(a1)
	bnez	s4, .LBB53_29
	lw	a1, 48(s6)
	add	a3, t1, t0
	slli	a3, a3, 3
	add	a1, a1, a3
	sw	t0, 4(a1)
.LBB53_29:
	ori	a1, t1, 32
	lui	a3, 349525
	srli	a4, a1, 1
	addi	a3, a3, 1365
	or	a1, a1, a4
	srli	a4, a1, 2
	or	a1, a1, a4
	srli	a4, a1, 4
	or	a1, a1, a4
	srli	a4, a1, 8
	or	a1, a1, a4
	srli	a4, a1, 16
	or	a1, a1, a4
	not	a1, a1
	srli	a4, a1, 1
	and	a3, a3, a4
	lui	a4, 209715
	addi	a4, a4, 819
	sub	a1, a1, a3
	and	a3, a1, a4
	srli	a1, a1, 2
	and	a1, a1, a4
	lui	a4, 61681
	add	a1, a1, a3
	srli	a3, a1, 4
	add	a1, a1, a3
	lui	a3, 4112
	addi	a4, a4, -241
	and	a1, a1, a4
	li	a4, 26
	addi	a3, a3, 257
	mul	a1, a1, a3
	srli	a1, a1, 24
	sub	a4, a4, a1
	srl	a3, t1, a4
	slli	a4, a4, 5
	add	a4, a4, a3
	slli	a1, a4, 2
	add	a5, s6, a1
	lw	a1, 192(a5)
	sw	t0, 192(a5)
	lw	a5, 48(s6)
	bltz	a1, .LBB53_38
	add	t4, t4, a5
	li	a3, -1
	slli	a4, a1, 3
	sw	a1, 16(t4)
	sw	a3, 20(t4)
	add	a4, a4, a5
	sw	t0, 20(a4)
	lw	a3, 40(s6)
	lw	a4, 44(s6)
	add	a1, a3, t5
	sw	a1, 40(s6)
	bgeu	a4, a1, .LBB53_32
.LBB53_31:
	sw	a1, 44(s6)
.LBB53_32:
	lw	a3, 32(s6)
	lw	a4, 36(s6)
	lw	a1, 24(s6)
	addi	a3, a3, 1
	seqz	a5, a3
	add	a4, a4, a5
	andi	a5, t5, 1
	sw	a3, 32(s6)
	sw	a4, 36(s6)
	beqz	a5, .LBB53_35
	lbu	a3, 28(a0)
	bnez	a3, .LBB53_35
	li	a3, 1
	sb	a3, 28(a0)
.LBB53_35:
	srli	t0, a1, 24
	srli	a3, a1, 16
	srli	a4, a1, 8
	srli	t4, a7, 24
	srli	s1, a7, 16
	srli	s0, a7, 8
	srli	t1, t3, 24
	srli	a0, t3, 16
	srli	a5, t3, 8
	srli	t6, t2, 24
	sb	a1, 0(a2)
	sb	a4, 1(a2)
	sb	a3, 2(a2)
	sb	t0, 3(a2)
	srli	a1, t2, 16
	sb	a7, 4(a2)
	sb	s0, 5(a2)
	sb	s1, 6(a2)
	sb	t4, 7(a2)
	srli	a3, t2, 8
	addi	t5, t5, -3
	sb	t3, 8(a2)
	sb	a5, 9(a2)
	sb	a0, 10(a2)
	sb	t1, 11(a2)
	sb	t2, 12(a2)
	sb	a3, 13(a2)
	sb	a1, 14(a2)
	sb	t6, 15(a2)
	beqz	t5, .LBB53_37
.LBB53_36:
	lw	a0, 48(s6)
	add	a0, a0, a6
	addi	a0, a0, 24
	slli	a2, t5, 3
	li	a1, 0
	call	tlsf_memory_set
.LBB53_37:
	li	a0, 0
	j	.LBB53_44
.LBB53_38:
	add	a5, a5, t4
	li	a1, -1
	srli	a4, a4, 5
	li	s1, 1
	sw	a1, 16(a5)
	sw	a1, 20(a5)
	slli	a1, a4, 2
	add	a1, a1, s6
	lw	a5, 104(s6)
	lw	s0, 108(a1)
	sll	a4, s1, a4
	sll	a3, s1, a3
	or	a4, a4, a5
	or	a3, a3, s0
	sw	a4, 104(s6)
	sw	a3, 108(a1)
	lw	a3, 40(s6)
	lw	a4, 44(s6)
	add	a1, a3, t5
	sw	a1, 40(s6)
	bgeu	a4, a1, .LBB53_32
	j	.LBB53_31
.LBB53_39:
	li	a3, 32
.LBB53_40:
	slli	a5, a5, 4
	add	a5, a5, a3
	srli	t0, a5, 4
	lw	t3, 32(s6)
	lw	t2, 36(s6)
	and	a3, t3, t2
	li	t1, -1
	beq	a3, t1, .LBB53_43
.LBB53_41:
	slli	a3, a5, 2
	add	a3, a3, s6
	lw	a7, 192(a3)
	lw	t6, 48(s6)
	slli	a6, a7, 3
	add	a4, t6, a6
	lw	a4, 16(a4)
	beq	a4, t1, .LBB53_45
	slli	a5, a4, 3
	add	a5, a5, t6
	li	s0, -1
	sw	s0, 20(a5)
	lw	t6, 48(s6)
	sw	a4, 192(a3)
	j	.LBB53_47
.LBB53_43:
	li	a0, 2
.LBB53_44:
	li	a1, 1
	sb	a1, 0(s6)
	lw	ra, 28(sp)
	lw	s0, 24(sp)
	lw	s1, 20(sp)
	lw	s2, 16(sp)
	lw	s3, 12(sp)
	lw	s4, 8(sp)
	lw	s5, 4(sp)
	lw	s6, 0(sp)
	.cfi_restore ra
	.cfi_restore s0
	.cfi_restore s1
	.cfi_restore s2
	.cfi_restore s3
	.cfi_restore s4
	.cfi_restore s5
	.cfi_restore s6
	addi	sp, sp, 32
	.cfi_def_cfa_offset 0
	ret
.LBB53_45:
	.cfi_restore_state
	li	a4, -1
	slli	s0, t0, 2
	sw	a4, 192(a3)
	add	s0, s0, s6
	lw	a4, 108(s0)
	andi	a5, a5, 15
	li	a3, 1
	sll	a5, a3, a5
	not	a5, a5
	and	a4, a4, a5
	sw	a4, 108(s0)
	bnez	a4, .LBB53_47
	lw	a4, 104(s6)
	sll	a3, a3, t0
	not	a3, a3
	and	a3, a3, a4
	sw	a3, 104(s6)
.LBB53_47:
	add	a5, t6, a6
	lw	a4, 0(a5)
	slli	a3, t5, 2
	lw	t4, 4(a5)
	sub	a3, a4, a3
	li	s0, 15
	bltu	s0, a3, .LBB53_49
	seqz	a3, a4
	addi	a4, a4, -1
	sw	a1, 16(a5)
	sw	zero, 20(a5)
	sub	a1, t4, a3
	sw	a4, 0(a5)
	sw	a1, 4(a5)
	sw	t3, 8(a5)
	sw	t2, 12(a5)
	srli	a1, a4, 2
	lw	a3, 40(s6)
	lw	a4, 44(s6)
	add	a1, a1, a3
	sw	a1, 40(s6)
	bltu	a4, a1, .LBB53_55
	j	.LBB53_56
.LBB53_49:
	srli	t1, a3, 2
	add	t0, a7, t5
	sltu	s0, a4, a3
	sub	s3, a4, a3
	sw	a1, 16(a5)
	sw	zero, 20(a5)
	li	s2, 1
	andi	s4, a3, 2
	sub	s0, t4, s0
	slli	t4, t0, 3
	srli	a4, t0, 3
	andi	a1, t0, 63
	sll	s5, s2, t0
	sw	s3, 0(a5)
	sw	s0, 4(a5)
	sw	t3, 8(a5)
	sw	t2, 12(a5)
	add	t6, t6, t4
	andi	a4, a4, -8
	sll	s2, s2, a1
	addi	a1, a1, -32
	sw	a3, 0(t6)
	sw	a7, 4(t6)
	sw	t3, 8(t6)
	sw	t2, 12(t6)
	lw	a3, 72(s6)
	srli	s0, a1, 31
	srai	a1, a1, 31
	addi	s0, s0, -1
	add	a3, a3, a4
	lw	a4, 0(a3)
	lw	a5, 4(a3)
	and	a1, a1, s5
	and	s0, s0, s2
	or	a1, a1, a4
	or	a5, a5, s0
	sw	a1, 0(a3)
	sw	a5, 4(a3)
	bnez	s4, .LBB53_51
	lw	a1, 48(s6)
	add	a3, t1, t0
	slli	a3, a3, 3
	add	a1, a1, a3
	sw	t0, 4(a1)
.LBB53_51:
	ori	a1, t1, 16
	lui	a3, 349525
	srli	a4, a1, 1
	addi	a3, a3, 1365
	or	a1, a1, a4
	srli	a4, a1, 2
	or	a1, a1, a4
	srli	a4, a1, 4
	or	a1, a1, a4
	srli	a4, a1, 8
	or	a1, a1, a4
	srli	a4, a1, 16
	or	a1, a1, a4
	not	a1, a1
	srli	a4, a1, 1
	and	a3, a3, a4
	lui	a4, 209715
	addi	a4, a4, 819
	sub	a1, a1, a3
	and	a3, a1, a4
	srli	a1, a1, 2
	and	a1, a1, a4
	lui	a4, 61681
	add	a1, a1, a3
	srli	a3, a1, 4
	add	a1, a1, a3
	lui	a3, 4112
	addi	a4, a4, -241
	and	a1, a1, a4
	li	a4, 27
	addi	a3, a3, 257
	mul	a1, a1, a3
	srli	a1, a1, 24
	sub	a4, a4, a1
	srl	a3, t1, a4
	slli	a4, a4, 4
	add	a4, a4, a3
	slli	a1, a4, 2
	add	a5, s6, a1
	lw	a1, 192(a5)
	sw	t0, 192(a5)
	lw	a5, 48(s6)
	bltz	a1, .LBB53_53
	add	t4, t4, a5
	li	a3, -1
	slli	a4, a1, 3
	sw	a1, 16(t4)
	sw	a3, 20(t4)
	add	a4, a4, a5
	sw	t0, 20(a4)
	j	.LBB53_54
.LBB53_53:
	add	a5, a5, t4
	li	a1, -1
	srli	a4, a4, 4
	li	t0, 1
	andi	a3, a3, 15
	sw	a1, 16(a5)
	sw	a1, 20(a5)
	slli	a1, a4, 2
	add	a1, a1, s6
	lw	a5, 104(s6)
	lw	s0, 108(a1)
	sll	a4, t0, a4
	sll	a3, t0, a3
	or	a4, a4, a5
	or	a3, a3, s0
	sw	a4, 104(s6)
	sw	a3, 108(a1)
.LBB53_54:
	lw	a3, 40(s6)
	lw	a4, 44(s6)
	add	a1, a3, t5
	sw	a1, 40(s6)
	bgeu	a4, a1, .LBB53_56
.LBB53_55:
	sw	a1, 44(s6)
.LBB53_56:
	lw	a3, 32(s6)
	lw	a4, 36(s6)
	lw	a1, 24(s6)
	addi	a3, a3, 1
	seqz	a5, a3
	add	a4, a4, a5
	andi	a5, t5, 1
	sw	a3, 32(s6)
	sw	a4, 36(s6)
	beqz	a5, .LBB53_59
	lbu	a3, 28(a0)
	bnez	a3, .LBB53_59
	li	a3, 1
	sb	a3, 28(a0)
.LBB53_59:
	srli	t0, a1, 24
	srli	t6, a1, 16
	srli	a4, a1, 8
	srli	t4, a7, 24
	srli	s0, a7, 16
	srli	a0, a7, 8
	srli	t1, t3, 24
	srli	a5, t3, 16
	srli	a3, t3, 8
	srli	s2, t2, 24
	sb	a1, 0(a2)
	sb	a4, 1(a2)
	sb	t6, 2(a2)
	sb	t0, 3(a2)
	srli	a1, t2, 16
	sb	a7, 4(a2)
	sb	a0, 5(a2)
	sb	s0, 6(a2)
	sb	t4, 7(a2)
	srli	a0, t2, 8
	addi	t5, t5, -3
	sb	t3, 8(a2)
	sb	a3, 9(a2)
	sb	a5, 10(a2)
	sb	t1, 11(a2)
	sb	t2, 12(a2)
	sb	a0, 13(a2)
	sb	a1, 14(a2)
	sb	s2, 15(a2)
	bnez	t5, .LBB53_36
	j	.LBB53_37
.Lfunc_end53:
	.size	tlsf_allocate, .Lfunc_end53-tlsf_allocate
	.cfi_endproc
	.section	.rodata.cst32,"aM",@progbits,32
.LCPI54_0:
	.ascii	"\000\001\034\002\035\016\030\003\036\026\024\017\031\021\004\b\037\033\r\027\025\023\020\007\032\f\022\006\013\005\n\t"
	.section	.text.tlsf_allocate_aligned,"ax",@progbits
	.globl	tlsf_allocate_aligned
	.p2align	1
	.type	tlsf_allocate_aligned,@function
tlsf_allocate_aligned:
	.cfi_startproc
	addi	sp, sp, -80
	.cfi_def_cfa_offset 80
	sw	ra, 76(sp)
	sw	s0, 72(sp)
	sw	s1, 68(sp)
	sw	s2, 64(sp)
	sw	s3, 60(sp)
	sw	s4, 56(sp)
	sw	s5, 52(sp)
	sw	s6, 48(sp)
	sw	s7, 44(sp)
	sw	s8, 40(sp)
	sw	s9, 36(sp)
	sw	s10, 32(sp)
	sw	s11, 28(sp)
	.cfi_offset ra, -4
	.cfi_offset s0, -8
	.cfi_offset s1, -12
	.cfi_offset s2, -16
	.cfi_offset s3, -20
	.cfi_offset s4, -24
	.cfi_offset s5, -28
	.cfi_offset s6, -32
	.cfi_offset s7, -36
	.cfi_offset s8, -40
	.cfi_offset s9, -44
	.cfi_offset s10, -48
	.cfi_offset s11, -52
	.cfi_remember_state
	lbu	a5, 8(a1)
	beqz	a5, .LBB54_14
	lw	s0, 0(a1)
	lbu	a1, 0(s0)
	beqz	a1, .LBB54_14
	lbu	a1, 16(s0)
	lw	s7, 32(s0)
	lw	s8, 36(s0)
	sb	zero, 0(s0)
	addi	s3, s0, 24
	beqz	a1, .LBB54_8
	sltiu	a1, s7, -4
	sltiu	a5, s8, -1
	or	a1, a1, a5
	beqz	a1, .LBB54_9
	lui	a1, 4096
	bltu	a1, a3, .LBB54_66
	seqz	t0, a3
	seqz	a5, a2
	add	t0, t0, a3
	add	a5, a5, a2
	sltu	a3, a5, a2
	addi	s1, a5, 31
	sltu	a5, s1, a5
	add	a3, a3, a5
	slli	a3, a3, 29
	srli	s1, s1, 3
	or	s4, s1, a3
	add	t2, t0, s4
	addi	t2, t2, 4
	bltu	a1, t2, .LBB54_66
	ori	s1, t2, 32
	lui	a3, 349525
	lui	a6, 209715
	lui	a7, 61681
	lui	t1, 4112
	srli	a1, s1, 1
	addi	a3, a3, 1365
	or	s1, s1, a1
	srli	a1, s1, 2
	or	s1, s1, a1
	srli	a1, s1, 4
	or	s1, s1, a1
	srli	a1, s1, 8
	or	s1, s1, a1
	srli	a1, s1, 16
	or	a1, a1, s1
	not	s1, a1
	srli	a1, s1, 1
	and	a1, a1, a3
	li	t3, 26
	addi	a5, a6, 819
	sub	s1, s1, a1
	and	a1, s1, a5
	srli	s1, s1, 2
	and	a5, a5, s1
	addi	a6, t2, -1
	addi	a3, a7, -241
	addi	s1, t1, 257
	add	a1, a1, a5
	srli	a5, a1, 4
	add	a1, a1, a5
	and	a1, a1, a3
	mul	a1, a1, s1
	srli	a1, a1, 24
	sub	a1, t3, a1
	srl	s1, a6, a1
	slli	a1, a1, 5
	add	a1, a1, s1
	addi	a3, a1, 1
	seqz	a6, a3
	srli	a5, a1, 5
	slli	a3, a6, 27
	sub	a5, a5, a3
	slli	a3, a5, 2
	add	a3, a3, s0
	lw	a3, 108(a3)
	lw	s11, 44(s0)
	srl	s1, a3, s1
	andi	s1, s1, -2
	beqz	s1, .LBB54_15
	neg	a3, s1
	and	a3, a3, s1
	lui	a5, 30667
	addi	a5, a5, 1329
	mul	a3, a3, a5
	lui	a5, %hi(.LCPI54_0)
	addi	a5, a5, %lo(.LCPI54_0)
	srli	a3, a3, 27
	add	a3, a3, a5
	lbu	a3, 0(a3)
	neg	a5, a6
	add	a3, a3, a1
	sltu	a1, a3, a1
	add	a1, a1, a5
	srli	a5, a3, 5
	slli	a1, a1, 27
	or	a6, a5, a1
	j	.LBB54_23
.LBB54_8:
	sltiu	a1, s7, -4
	sltiu	a5, s8, -1
	or	a1, a1, a5
	bnez	a1, .LBB54_10
.LBB54_9:
	li	s5, 0
	li	s7, 0
	li	s8, 0
	li	a1, 1
	sb	a1, 0(s0)
	li	a1, 2
	j	.LBB54_69
.LBB54_10:
	lui	a1, 256
	bltu	a1, a3, .LBB54_66
	seqz	t0, a3
	seqz	a5, a2
	add	t0, t0, a3
	add	a5, a5, a2
	sltu	a3, a5, a2
	addi	s1, a5, 31
	sltu	a5, s1, a5
	add	a3, a3, a5
	slli	a3, a3, 29
	srli	s1, s1, 3
	or	s2, s1, a3
	add	t2, t0, s2
	addi	t2, t2, 4
	bltu	a1, t2, .LBB54_66
	ori	s1, t2, 16
	lui	a3, 349525
	lui	a6, 209715
	lui	a7, 61681
	lui	t1, 4112
	srli	a1, s1, 1
	addi	a3, a3, 1365
	or	s1, s1, a1
	srli	a1, s1, 2
	or	s1, s1, a1
	srli	a1, s1, 4
	or	s1, s1, a1
	srli	a1, s1, 8
	or	s1, s1, a1
	srli	a1, s1, 16
	or	a1, a1, s1
	not	s1, a1
	srli	a1, s1, 1
	and	a1, a1, a3
	li	t3, 27
	addi	a5, a6, 819
	sub	s1, s1, a1
	and	a1, s1, a5
	srli	s1, s1, 2
	and	a5, a5, s1
	addi	a6, t2, -1
	addi	a3, a7, -241
	addi	s1, t1, 257
	add	a1, a1, a5
	srli	a5, a1, 4
	add	a1, a1, a5
	and	a1, a1, a3
	mul	a1, a1, s1
	srli	a1, a1, 24
	sub	a1, t3, a1
	srl	s1, a6, a1
	slli	a1, a1, 4
	add	a1, a1, s1
	addi	a3, a1, 1
	seqz	a6, a3
	srli	a5, a1, 4
	slli	a3, a6, 28
	sub	a5, a5, a3
	slli	a3, a5, 2
	add	a3, a3, s0
	lw	a3, 108(a3)
	lw	s11, 44(s0)
	andi	s1, s1, 15
	srl	s1, a3, s1
	andi	s1, s1, -2
	beqz	s1, .LBB54_18
	neg	a3, s1
	and	a3, a3, s1
	lui	a5, 30667
	addi	a5, a5, 1329
	mul	a3, a3, a5
	lui	a5, %hi(.LCPI54_0)
	addi	a5, a5, %lo(.LCPI54_0)
	srli	a3, a3, 27
	add	a3, a3, a5
	lbu	a3, 0(a3)
	neg	a5, a6
	add	a3, a3, a1
	sltu	a1, a3, a1
	add	a1, a1, a5
	srli	a5, a3, 4
	slli	a1, a1, 28
	or	a6, a5, a1
	j	.LBB54_44
.LBB54_14:
	mv	s0, a0
	li	a0, 0
	call	tlsf_c.call_fault.CallFault.refusal
	mv	a1, a0
	mv	a0, s0
	li	s5, 0
	li	s7, 0
	li	s8, 0
	j	.LBB54_69
.LBB54_15:
	lw	a1, 104(s0)
	li	a3, -2
	sll	a3, a3, a5
	and	a1, a1, a3
	beqz	a1, .LBB54_66
	neg	a3, a1
	lui	a5, 30667
	and	a1, a1, a3
	addi	a3, a5, 1329
	mul	a1, a1, a3
	srli	a1, a1, 27
	lui	a6, %hi(.LCPI54_0)
	addi	a6, a6, %lo(.LCPI54_0)
	add	a1, a1, a6
	lbu	a5, 0(a1)
	slli	a1, a5, 2
	add	a1, a1, s0
	lw	s1, 108(a1)
	beqz	s1, .LBB54_21
	neg	a1, s1
	and	a1, a1, s1
	mul	a1, a1, a3
	srli	a1, a1, 27
	add	a1, a1, a6
	lbu	a3, 0(a1)
	j	.LBB54_22
.LBB54_18:
	lw	a1, 104(s0)
	li	a3, -2
	sll	a3, a3, a5
	and	a1, a1, a3
	beqz	a1, .LBB54_66
	neg	a3, a1
	lui	a5, 30667
	and	a1, a1, a3
	addi	a3, a5, 1329
	mul	a1, a1, a3
	srli	a1, a1, 27
	lui	a6, %hi(.LCPI54_0)
	addi	a6, a6, %lo(.LCPI54_0)
	add	a1, a1, a6
	lbu	a5, 0(a1)
	slli	a1, a5, 2
	add	a1, a1, s0
	lw	s1, 108(a1)
	beqz	s1, .LBB54_42
	neg	a1, s1
	and	a1, a1, s1
	mul	a1, a1, a3
	srli	a1, a1, 27
	add	a1, a1, a6
	lbu	a3, 0(a1)
	j	.LBB54_43
.LBB54_21:
	li	a3, 32
.LBB54_22:
	slli	a5, a5, 5
	add	a3, a3, a5
	srli	a6, a3, 5
.LBB54_23:
	slli	a1, a3, 2
	add	a1, a1, s0
	lw	s5, 192(a1)
	lw	t3, 48(s0)
	slli	s6, s5, 3
	add	a5, t3, s6
	lw	s1, 16(a5)
	li	a5, -1
	addi	s2, s0, 48
	beq	s1, a5, .LBB54_25
	slli	a3, s1, 3
	add	a3, a3, t3
	sw	a5, 20(a3)
	lw	t3, 0(s2)
	sw	s1, 192(a1)
	j	.LBB54_27
.LBB54_25:
	sw	a5, 192(a1)
	slli	a1, a6, 2
	add	a5, s0, a1
	lw	s1, 108(a5)
	li	a1, 1
	sll	a3, a1, a3
	not	a3, a3
	and	a3, a3, s1
	sw	a3, 108(a5)
	bnez	a3, .LBB54_27
	lw	a3, 104(s0)
	sll	a1, a1, a6
	not	a1, a1
	and	a1, a1, a3
	sw	a1, 104(s0)
.LBB54_27:
	add	a3, t3, s6
	lw	s1, 0(a3)
	slli	a1, t2, 2
	lw	a7, 4(a3)
	sub	a1, s1, a1
	li	a5, 15
	bltu	a5, a1, .LBB54_29
	seqz	a1, s1
	addi	s1, s1, -1
	sw	zero, 16(a3)
	sw	zero, 20(a3)
	sub	a1, a7, a1
	sw	s1, 0(a3)
	sw	a1, 4(a3)
	sw	s7, 8(a3)
	sw	s8, 12(a3)
	srli	t2, s1, 2
	j	.LBB54_34
.LBB54_29:
	srli	a6, a1, 2
	add	t1, s5, t2
	sltu	a5, s1, a1
	sub	t5, s1, a1
	sw	zero, 16(a3)
	sw	zero, 20(a3)
	li	t4, 1
	andi	t6, a1, 2
	sub	a5, a7, a5
	slli	a7, t1, 3
	srli	s9, t1, 3
	andi	s1, t1, 63
	sll	s10, t4, t1
	sw	t5, 0(a3)
	sw	a5, 4(a3)
	sw	s7, 8(a3)
	sw	s8, 12(a3)
	add	t3, t3, a7
	andi	a3, s9, -8
	sll	t4, t4, s1
	addi	s1, s1, -32
	sw	a1, 0(t3)
	sw	s5, 4(t3)
	sw	s7, 8(t3)
	sw	s8, 12(t3)
	lw	a1, 72(s0)
	srli	a5, s1, 31
	srai	s1, s1, 31
	addi	t3, a5, -1
	add	a1, a1, a3
	lw	t5, 0(a1)
	lw	a5, 4(a1)
	and	s1, s1, s10
	and	a3, t3, t4
	or	s1, t5, s1
	or	a3, a3, a5
	sw	s1, 0(a1)
	sw	a3, 4(a1)
	bnez	t6, .LBB54_31
	lw	a1, 0(s2)
	add	a3, a6, t1
	slli	a3, a3, 3
	add	a1, a1, a3
	sw	t1, 4(a1)
.LBB54_31:
	ori	a1, a6, 32
	lui	a3, 349525
	srli	a5, a1, 1
	addi	a3, a3, 1365
	or	a1, a1, a5
	srli	a5, a1, 2
	or	a1, a1, a5
	srli	a5, a1, 4
	or	a1, a1, a5
	srli	a5, a1, 8
	or	a1, a1, a5
	srli	a5, a1, 16
	or	a1, a1, a5
	not	a1, a1
	srli	a5, a1, 1
	and	a3, a3, a5
	lui	a5, 209715
	addi	a5, a5, 819
	sub	a1, a1, a3
	and	a3, a1, a5
	srli	a1, a1, 2
	and	a1, a1, a5
	lui	a5, 61681
	add	a1, a1, a3
	srli	a3, a1, 4
	add	a1, a1, a3
	lui	a3, 4112
	addi	a5, a5, -241
	and	a1, a1, a5
	li	a5, 26
	addi	a3, a3, 257
	mul	a1, a1, a3
	srli	a1, a1, 24
	sub	a5, a5, a1
	srl	a1, a6, a5
	slli	a3, a5, 5
	add	a3, a3, a1
	slli	a5, a3, 2
	add	a5, a5, s0
	lw	s1, 192(a5)
	sw	t1, 192(a5)
	lw	a5, 0(s2)
	bltz	s1, .LBB54_33
	add	a7, a7, a5
	li	a1, -1
	slli	a3, s1, 3
	sw	s1, 16(a7)
	sw	a1, 20(a7)
	add	a3, a3, a5
	sw	t1, 20(a3)
	j	.LBB54_34
.LBB54_33:
	add	a5, a5, a7
	li	s1, -1
	srli	a3, a3, 5
	li	a6, 1
	sw	s1, 16(a5)
	sw	s1, 20(a5)
	slli	a5, a3, 2
	add	a5, a5, s0
	lw	s1, 104(s0)
	lw	a7, 108(a5)
	sll	a3, a6, a3
	sll	a1, a6, a1
	or	a3, a3, s1
	or	a1, a7, a1
	sw	a3, 104(s0)
	sw	a1, 108(a5)
.LBB54_34:
	lw	a1, 40(s0)
	lw	a3, 44(s0)
	add	t2, t2, a1
	sw	t2, 40(s0)
	bgeu	a3, t2, .LBB54_36
	sw	t2, 44(s0)
.LBB54_36:
	mv	s9, a2
	mv	s10, a0
	remu	a0, a4, t0
	add	a0, a0, s5
	addi	a0, a0, 3
	remu	a1, a0, t0
	lw	a2, 32(s0)
	lw	a3, 36(s0)
	lw	a0, 24(s0)
	addi	a2, a2, 1
	seqz	a4, a2
	add	a3, a3, a4
	sw	a2, 32(s0)
	sw	a3, 36(s0)
	beqz	a1, .LBB54_41
	slli	a2, t0, 2
	add	a2, a2, t0
	sub	a2, a2, a1
	addi	a2, a2, -4
	remu	s6, a2, t0
	addi	s6, s6, 4
	sw	a0, 8(sp)
	sw	s5, 12(sp)
	sw	s7, 16(sp)
	sw	s8, 20(sp)
	addi	a1, sp, 8
	mv	a0, s3
	mv	a2, s6
	call	tlsf_heap.heap.Heap.resize_live.5
	zext.b	a0, a0
	bnez	a0, .LBB54_64
	lw	a2, 56(s0)
	add	s5, s5, s6
	li	a1, 3
	mv	a0, s10
	bgeu	s5, a2, .LBB54_87
	lw	a4, 72(s0)
	srli	a2, s5, 3
	andi	a2, a2, -8
	add	a4, a4, a2
	lw	a2, 4(a4)
	andi	a3, s5, 63
	addi	a5, a3, -32
	bltz	a5, .LBB54_70
	srl	a2, a2, a3
	j	.LBB54_71
.LBB54_41:
	sw	a0, 8(sp)
	sw	s5, 12(sp)
	sw	s7, 16(sp)
	sw	s8, 20(sp)
	addi	a1, sp, 8
	mv	a0, s3
	mv	a2, s4
	call	tlsf_heap.heap.Heap.resize_live.5
	j	.LBB54_63
.LBB54_42:
	li	a3, 32
.LBB54_43:
	slli	a5, a5, 4
	add	a3, a3, a5
	srli	a6, a3, 4
.LBB54_44:
	slli	a1, a3, 2
	add	a1, a1, s0
	lw	s5, 192(a1)
	lw	t3, 48(s0)
	slli	s6, s5, 3
	add	a5, t3, s6
	lw	a5, 16(a5)
	li	s1, -1
	addi	s4, s0, 48
	beq	a5, s1, .LBB54_46
	slli	a3, a5, 3
	add	a3, a3, t3
	sw	s1, 20(a3)
	lw	t3, 0(s4)
	sw	a5, 192(a1)
	j	.LBB54_48
.LBB54_46:
	sw	s1, 192(a1)
	slli	a1, a6, 2
	add	a5, s0, a1
	lw	s1, 108(a5)
	andi	a3, a3, 15
	li	a1, 1
	sll	a3, a1, a3
	not	a3, a3
	and	a3, a3, s1
	sw	a3, 108(a5)
	bnez	a3, .LBB54_48
	lw	a3, 104(s0)
	sll	a1, a1, a6
	not	a1, a1
	and	a1, a1, a3
	sw	a1, 104(s0)
.LBB54_48:
	add	a3, t3, s6
	lw	a5, 0(a3)
	slli	a1, t2, 2
	lw	a7, 4(a3)
	sub	a1, a5, a1
	li	s1, 15
	bltu	s1, a1, .LBB54_50
	seqz	a1, a5
	addi	a5, a5, -1
	sw	zero, 16(a3)
	sw	zero, 20(a3)
	sub	a1, a7, a1
	sw	a5, 0(a3)
	sw	a1, 4(a3)
	sw	s7, 8(a3)
	sw	s8, 12(a3)
	srli	t2, a5, 2
	j	.LBB54_55
.LBB54_50:
	srli	a6, a1, 2
	add	t1, s5, t2
	sltu	s1, a5, a1
	sub	t5, a5, a1
	sw	zero, 16(a3)
	sw	zero, 20(a3)
	li	t4, 1
	andi	t6, a1, 2
	sub	s1, a7, s1
	slli	a7, t1, 3
	srli	s9, t1, 3
	andi	a5, t1, 63
	sll	s10, t4, t1
	sw	t5, 0(a3)
	sw	s1, 4(a3)
	sw	s7, 8(a3)
	sw	s8, 12(a3)
	add	t3, t3, a7
	andi	a3, s9, -8
	sll	t4, t4, a5
	addi	a5, a5, -32
	sw	a1, 0(t3)
	sw	s5, 4(t3)
	sw	s7, 8(t3)
	sw	s8, 12(t3)
	lw	a1, 72(s0)
	srli	s1, a5, 31
	srai	t3, a5, 31
	addi	t5, s1, -1
	add	a1, a1, a3
	lw	s9, 0(a1)
	lw	a5, 4(a1)
	and	s1, t3, s10
	and	a3, t5, t4
	or	s1, s9, s1
	or	a3, a3, a5
	sw	s1, 0(a1)
	sw	a3, 4(a1)
	bnez	t6, .LBB54_52
	lw	a1, 0(s4)
	add	a3, a6, t1
	slli	a3, a3, 3
	add	a1, a1, a3
	sw	t1, 4(a1)
.LBB54_52:
	ori	a1, a6, 16
	lui	a3, 349525
	srli	a5, a1, 1
	addi	a3, a3, 1365
	or	a1, a1, a5
	srli	a5, a1, 2
	or	a1, a1, a5
	srli	a5, a1, 4
	or	a1, a1, a5
	srli	a5, a1, 8
	or	a1, a1, a5
	srli	a5, a1, 16
	or	a1, a1, a5
	not	a1, a1
	srli	a5, a1, 1
	and	a3, a3, a5
	lui	a5, 209715
	addi	a5, a5, 819
	sub	a1, a1, a3
	and	a3, a1, a5
	srli	a1, a1, 2
	and	a1, a1, a5
	lui	a5, 61681
	add	a1, a1, a3
	srli	a3, a1, 4
	add	a1, a1, a3
	lui	a3, 4112
	addi	a5, a5, -241
	and	a1, a1, a5
	li	a5, 27
	addi	a3, a3, 257
	mul	a1, a1, a3
	srli	a1, a1, 24
	sub	a5, a5, a1
	srl	a1, a6, a5
	slli	a3, a5, 4
	add	a3, a3, a1
	slli	a5, a3, 2
	add	a5, a5, s0
	lw	s1, 192(a5)
	sw	t1, 192(a5)
	lw	a5, 0(s4)
	bltz	s1, .LBB54_54
	add	a7, a7, a5
	li	a1, -1
	slli	a3, s1, 3
	sw	s1, 16(a7)
	sw	a1, 20(a7)
	add	a3, a3, a5
	sw	t1, 20(a3)
	j	.LBB54_55
.LBB54_54:
	add	a5, a5, a7
	li	a6, -1
	srli	a3, a3, 4
	li	a7, 1
	andi	t1, a1, 15
	sw	a6, 16(a5)
	sw	a6, 20(a5)
	slli	a5, a3, 2
	add	a5, a5, s0
	lw	s1, 104(s0)
	lw	a6, 108(a5)
	sll	a3, a7, a3
	sll	a1, a7, t1
	or	a3, a3, s1
	or	a1, a6, a1
	sw	a3, 104(s0)
	sw	a1, 108(a5)
.LBB54_55:
	lw	a1, 40(s0)
	lw	a3, 44(s0)
	add	t2, t2, a1
	sw	t2, 40(s0)
	bgeu	a3, t2, .LBB54_57
	sw	t2, 44(s0)
.LBB54_57:
	mv	s9, a2
	mv	s10, a0
	remu	a0, a4, t0
	add	a0, a0, s5
	addi	a0, a0, 3
	remu	a1, a0, t0
	lw	a2, 32(s0)
	lw	a3, 36(s0)
	lw	a0, 24(s0)
	addi	a2, a2, 1
	seqz	a4, a2
	add	a3, a3, a4
	sw	a2, 32(s0)
	sw	a3, 36(s0)
	beqz	a1, .LBB54_62
	slli	a2, t0, 2
	add	a2, a2, t0
	sub	a2, a2, a1
	addi	a2, a2, -4
	remu	s6, a2, t0
	addi	s6, s6, 4
	sw	a0, 8(sp)
	sw	s5, 12(sp)
	sw	s7, 16(sp)
	sw	s8, 20(sp)
	addi	a1, sp, 8
	mv	a0, s3
	mv	a2, s6
	call	tlsf_heap.heap.Heap.resize_live.4
	zext.b	a0, a0
	bnez	a0, .LBB54_64
	lw	a2, 56(s0)
	add	s5, s5, s6
	li	a1, 3
	mv	a0, s10
	bgeu	s5, a2, .LBB54_93
	lw	a4, 72(s0)
	srli	a2, s5, 3
	andi	a2, a2, -8
	add	a4, a4, a2
	lw	a2, 4(a4)
	andi	a3, s5, 63
	addi	a5, a3, -32
	bltz	a5, .LBB54_75
	srl	a2, a2, a3
	j	.LBB54_76
.LBB54_62:
	sw	a0, 8(sp)
	sw	s5, 12(sp)
	sw	s7, 16(sp)
	sw	s8, 20(sp)
	addi	a1, sp, 8
	mv	a0, s3
	mv	a2, s2
	call	tlsf_heap.heap.Heap.resize_live.4
.LBB54_63:
	zext.b	a0, a0
	beqz	a0, .LBB54_110
.LBB54_64:
	mv	a0, s10
	mv	a2, s9
	zext.b	a3, a1
	beqz	a3, .LBB54_66
	li	s5, 0
	li	s7, 0
	li	s8, 0
	zext.b	a1, a1
	slli	a1, a1, 2
	lui	a2, %hi(.LJTI54_0)
	addi	a2, a2, %lo(.LJTI54_0)
	add	a1, a1, a2
	lw	a2, -4(a1)
	li	a1, 1
	sb	a1, 0(s0)
	li	a1, 2
	jr	a2
.LBB54_66:
	lw	a3, 8(s0)
	lw	a1, 12(s0)
	addi	a3, a3, 1
	snez	a4, a3
	addi	a4, a4, -1
	or	a3, a3, a4
	sw	a3, 8(s0)
	bltu	a1, a2, .LBB54_68
	mv	a2, a1
.LBB54_68:
	li	s5, 0
	li	s7, 0
	li	s8, 0
	li	a1, 1
	sb	a1, 0(s0)
	sw	a2, 12(s0)
.LBB54_69:
	sw	s5, 0(a0)
	sw	a1, 4(a0)
	sw	s7, 8(a0)
	sw	s8, 12(a0)
	lw	ra, 76(sp)
	lw	s0, 72(sp)
	lw	s1, 68(sp)
	lw	s2, 64(sp)
	lw	s3, 60(sp)
	lw	s4, 56(sp)
	lw	s5, 52(sp)
	lw	s6, 48(sp)
	lw	s7, 44(sp)
	lw	s8, 40(sp)
	lw	s9, 36(sp)
	lw	s10, 32(sp)
	lw	s11, 28(sp)
	.cfi_restore ra
	.cfi_restore s0
	.cfi_restore s1
	.cfi_restore s2
	.cfi_restore s3
	.cfi_restore s4
	.cfi_restore s5
	.cfi_restore s6
	.cfi_restore s7
	.cfi_restore s8
	.cfi_restore s9
	.cfi_restore s10
	.cfi_restore s11
	addi	sp, sp, 80
	.cfi_def_cfa_offset 0
	ret
.LBB54_70:
	.cfi_restore_state
	lw	a4, 0(a4)
	slli	a2, a2, 1
	not	a3, a3
	srl	a4, a4, s5
	sll	a2, a2, a3
	or	a2, a2, a4
.LBB54_71:
	andi	a2, a2, 1
	beqz	a2, .LBB54_87
	sw	s11, 4(sp)
	lw	a2, 0(s2)
	slli	s6, s5, 3
	add	a2, a2, s6
	lw	s11, 0(a2)
	andi	a3, s11, 1
	beqz	a3, .LBB54_87
	srli	a1, s11, 2
	bgeu	a1, s4, .LBB54_80
	li	a1, 5
	j	.LBB54_87
.LBB54_75:
	lw	a4, 0(a4)
	slli	a2, a2, 1
	not	a3, a3
	srl	a4, a4, s5
	sll	a2, a2, a3
	or	a2, a2, a4
.LBB54_76:
	andi	a2, a2, 1
	beqz	a2, .LBB54_93
	sw	s11, 4(sp)
	lw	a2, 0(s4)
	slli	s6, s5, 3
	add	a2, a2, s6
	lw	s11, 0(a2)
	andi	a3, s11, 1
	beqz	a3, .LBB54_93
	srli	a1, s11, 2
	bgeu	a1, s2, .LBB54_83
	li	a1, 5
	j	.LBB54_93
.LBB54_80:
	lw	a3, 32(s0)
	lw	a4, 36(s0)
	and	a3, a3, a4
	li	a4, -1
	beq	a3, a4, .LBB54_86
	lw	s1, 4(a2)
	mv	a0, s2
	mv	a2, s5
	call	tlsf_heap.region.Region.remove.5
	lw	s7, 32(s0)
	lw	s8, 36(s0)
	slli	a0, s4, 2
	sub	a3, s11, a0
	li	a0, 15
	bltu	a0, a3, .LBB54_88
	lw	a0, 0(s2)
	seqz	a1, s11
	addi	s11, s11, -1
	sub	a1, s1, a1
	add	a0, a0, s6
	sw	s11, 0(a0)
	sw	a1, 4(a0)
	sw	s7, 8(a0)
	sw	s8, 12(a0)
	sw	zero, 16(a0)
	sw	zero, 20(a0)
	srli	s4, s11, 2
	lw	s11, 4(sp)
	j	.LBB54_103
.LBB54_83:
	lw	a3, 32(s0)
	lw	a4, 36(s0)
	and	a3, a3, a4
	li	a4, -1
	beq	a3, a4, .LBB54_92
	lw	s1, 4(a2)
	mv	a0, s4
	mv	a2, s5
	call	tlsf_heap.region.Region.remove.4
	lw	s7, 32(s0)
	lw	s8, 36(s0)
	slli	a0, s2, 2
	sub	a3, s11, a0
	li	a0, 15
	bltu	a0, a3, .LBB54_98
	lw	a0, 0(s4)
	seqz	a1, s11
	addi	s11, s11, -1
	sub	a1, s1, a1
	add	a0, a0, s6
	sw	s11, 0(a0)
	sw	a1, 4(a0)
	sw	s7, 8(a0)
	sw	s8, 12(a0)
	sw	zero, 16(a0)
	sw	zero, 20(a0)
	srli	s2, s11, 2
	lw	s11, 4(sp)
	j	.LBB54_107
.LBB54_86:
	li	a1, 1
.LBB54_87:
	li	s5, 0
	li	s7, 0
	li	s8, 0
	zext.b	a1, a1
	slli	a1, a1, 2
	lui	a2, %hi(.LJTI54_0)
	addi	a2, a2, %lo(.LJTI54_0)
	add	a1, a1, a2
	lw	a2, -4(a1)
	li	a1, 1
	sb	a1, 0(s0)
	li	a1, 2
	jr	a2
.LBB54_88:
	lui	a2, 131072
	li	a6, 1
	srli	a7, a3, 2
	add	t4, s5, s4
	sltu	a5, s11, a3
	sub	t1, s11, a3
	mv	a0, s1
	lw	s1, 48(s0)
	andi	t2, a3, 2
	addi	a2, a2, -8
	sub	a5, a0, a5
	slli	t0, t4, 3
	srli	a0, t4, 3
	andi	a1, t4, 63
	sll	t3, a6, t4
	and	a0, a0, a2
	sll	a2, a6, a1
	addi	a1, a1, -32
	add	a4, s1, s6
	add	s1, s1, t0
	sw	t1, 0(a4)
	sw	a5, 4(a4)
	sw	s7, 8(a4)
	sw	s8, 12(a4)
	sw	zero, 16(a4)
	sw	zero, 20(a4)
	sw	a3, 0(s1)
	sw	s5, 4(s1)
	sw	s7, 8(s1)
	sw	s8, 12(s1)
	lw	a3, 72(s0)
	srli	a4, a1, 31
	srai	a1, a1, 31
	addi	a4, a4, -1
	add	a0, a0, a3
	lw	a3, 0(a0)
	lw	a5, 4(a0)
	and	a1, a1, t3
	and	a2, a2, a4
	or	a1, a1, a3
	or	a2, a2, a5
	sw	a1, 0(a0)
	sw	a2, 4(a0)
	bnez	t2, .LBB54_90
	lw	a0, 0(s2)
	add	a1, a7, t4
	slli	a1, a1, 3
	add	a0, a0, a1
	sw	t4, 4(a0)
.LBB54_90:
	ori	a0, a7, 32
	lui	a1, 349525
	srli	a2, a0, 1
	addi	a1, a1, 1365
	or	a0, a0, a2
	srli	a2, a0, 2
	or	a0, a0, a2
	srli	a2, a0, 4
	or	a0, a0, a2
	srli	a2, a0, 8
	or	a0, a0, a2
	srli	a2, a0, 16
	or	a0, a0, a2
	not	a0, a0
	srli	a2, a0, 1
	and	a1, a1, a2
	lui	a2, 209715
	addi	a2, a2, 819
	sub	a0, a0, a1
	and	a1, a0, a2
	srli	a0, a0, 2
	and	a0, a0, a2
	lui	a2, 61681
	add	a0, a0, a1
	srli	a1, a0, 4
	add	a0, a0, a1
	lui	a1, 4112
	addi	a2, a2, -241
	and	a0, a0, a2
	li	a2, 26
	addi	a1, a1, 257
	mul	a0, a0, a1
	srli	a0, a0, 24
	sub	a2, a2, a0
	srl	a1, a7, a2
	slli	a2, a2, 5
	add	a3, a1, a2
	slli	a0, a3, 2
	add	a0, a0, s0
	lw	a5, 192(a0)
	sw	t4, 192(a0)
	lw	a4, 0(s2)
	lw	s11, 4(sp)
	bltz	a5, .LBB54_102
	add	t0, t0, a4
	li	a0, -1
	slli	a1, a5, 3
	sw	a5, 16(t0)
	sw	a0, 20(t0)
	add	a1, a1, a4
	sw	t4, 20(a1)
	j	.LBB54_103
.LBB54_92:
	li	a1, 1
.LBB54_93:
	li	s5, 0
	li	s7, 0
	li	s8, 0
	zext.b	a1, a1
	slli	a1, a1, 2
	lui	a2, %hi(.LJTI54_0)
	addi	a2, a2, %lo(.LJTI54_0)
	add	a1, a1, a2
	lw	a2, -4(a1)
	li	a1, 1
	sb	a1, 0(s0)
	li	a1, 2
	jr	a2
.LBB54_94:
	li	s5, 0
	li	s7, 0
	li	s8, 0
	li	a1, 3
	j	.LBB54_69
.LBB54_95:
	li	s5, 0
	li	s7, 0
	li	s8, 0
	li	a1, 10
	j	.LBB54_69
.LBB54_96:
	li	s5, 0
	li	s7, 0
	li	s8, 0
	li	a1, 4
	j	.LBB54_69
.LBB54_97:
	li	s5, 0
	li	s7, 0
	li	s8, 0
	li	a1, 7
	j	.LBB54_69
.LBB54_98:
	lui	a2, 131072
	li	a6, 1
	srli	a7, a3, 2
	add	t4, s5, s2
	sltu	a5, s11, a3
	sub	t1, s11, a3
	mv	a0, s1
	lw	s1, 48(s0)
	andi	t2, a3, 2
	addi	a2, a2, -8
	sub	a5, a0, a5
	slli	t0, t4, 3
	srli	a0, t4, 3
	andi	a1, t4, 63
	sll	t3, a6, t4
	and	a0, a0, a2
	sll	a2, a6, a1
	addi	a1, a1, -32
	add	a4, s1, s6
	add	s1, s1, t0
	sw	t1, 0(a4)
	sw	a5, 4(a4)
	sw	s7, 8(a4)
	sw	s8, 12(a4)
	sw	zero, 16(a4)
	sw	zero, 20(a4)
	sw	a3, 0(s1)
	sw	s5, 4(s1)
	sw	s7, 8(s1)
	sw	s8, 12(s1)
	lw	a3, 72(s0)
	srli	a4, a1, 31
	srai	a1, a1, 31
	addi	a4, a4, -1
	add	a0, a0, a3
	lw	a3, 0(a0)
	lw	a5, 4(a0)
	and	a1, a1, t3
	and	a2, a2, a4
	or	a1, a1, a3
	or	a2, a2, a5
	sw	a1, 0(a0)
	sw	a2, 4(a0)
	bnez	t2, .LBB54_100
	lw	a0, 0(s4)
	add	a1, a7, t4
	slli	a1, a1, 3
	add	a0, a0, a1
	sw	t4, 4(a0)
.LBB54_100:
	ori	a0, a7, 16
	lui	a1, 349525
	srli	a2, a0, 1
	addi	a1, a1, 1365
	or	a0, a0, a2
	srli	a2, a0, 2
	or	a0, a0, a2
	srli	a2, a0, 4
	or	a0, a0, a2
	srli	a2, a0, 8
	or	a0, a0, a2
	srli	a2, a0, 16
	or	a0, a0, a2
	not	a0, a0
	srli	a2, a0, 1
	and	a1, a1, a2
	lui	a2, 209715
	addi	a2, a2, 819
	sub	a0, a0, a1
	and	a1, a0, a2
	srli	a0, a0, 2
	and	a0, a0, a2
	lui	a2, 61681
	add	a0, a0, a1
	srli	a1, a0, 4
	add	a0, a0, a1
	lui	a1, 4112
	addi	a2, a2, -241
	and	a0, a0, a2
	li	a2, 27
	addi	a1, a1, 257
	mul	a0, a0, a1
	srli	a0, a0, 24
	sub	a2, a2, a0
	srl	a1, a7, a2
	slli	a2, a2, 4
	add	a3, a1, a2
	slli	a0, a3, 2
	add	a0, a0, s0
	lw	a5, 192(a0)
	sw	t4, 192(a0)
	lw	a4, 0(s4)
	lw	s11, 4(sp)
	bltz	a5, .LBB54_106
	add	t0, t0, a4
	li	a0, -1
	slli	a1, a5, 3
	sw	a5, 16(t0)
	sw	a0, 20(t0)
	add	a1, a1, a4
	sw	t4, 20(a1)
	j	.LBB54_107
.LBB54_102:
	add	a4, a4, t0
	li	a0, -1
	srli	a3, a3, 5
	li	a2, 1
	sw	a0, 16(a4)
	sw	a0, 20(a4)
	slli	a0, a3, 2
	add	a0, a0, s0
	lw	a4, 104(s0)
	lw	a5, 108(a0)
	sll	a3, a2, a3
	sll	a1, a2, a1
	or	a3, a3, a4
	or	a1, a1, a5
	sw	a3, 104(s0)
	sw	a1, 108(a0)
.LBB54_103:
	lw	a0, 40(s0)
	lw	a1, 44(s0)
	add	s4, s4, a0
	sw	s4, 40(s0)
	bgeu	a1, s4, .LBB54_105
	sw	s4, 44(s0)
.LBB54_105:
	addi	a0, s7, 1
	seqz	a1, a0
	add	a1, a1, s8
	sw	a0, 32(s0)
	sw	a1, 36(s0)
	addi	a1, sp, 8
	mv	a0, s3
	call	tlsf_heap.heap.Heap.release_live.5
	j	.LBB54_110
.LBB54_106:
	add	a4, a4, t0
	li	a0, -1
	srli	a3, a3, 4
	li	a2, 1
	andi	a1, a1, 15
	sw	a0, 16(a4)
	sw	a0, 20(a4)
	slli	a0, a3, 2
	add	a0, a0, s0
	lw	a4, 104(s0)
	lw	a5, 108(a0)
	sll	a3, a2, a3
	sll	a1, a2, a1
	or	a3, a3, a4
	or	a1, a1, a5
	sw	a3, 104(s0)
	sw	a1, 108(a0)
.LBB54_107:
	lw	a0, 40(s0)
	lw	a1, 44(s0)
	add	s2, s2, a0
	sw	s2, 40(s0)
	bgeu	a1, s2, .LBB54_109
	sw	s2, 44(s0)
.LBB54_109:
	addi	a0, s7, 1
	seqz	a1, a0
	add	a1, a1, s8
	sw	a0, 32(s0)
	sw	a1, 36(s0)
	addi	a1, sp, 8
	mv	a0, s3
	call	tlsf_heap.heap.Heap.release_live.4
.LBB54_110:
	lw	a1, 40(s0)
	mv	a0, s10
	bltu	s11, a1, .LBB54_112
	mv	a1, s11
.LBB54_112:
	lw	a2, 48(s0)
	sw	a1, 44(s0)
	add	s6, s6, a2
	li	a1, 0
	sw	s9, 16(s6)
	sw	zero, 20(s6)
	li	a2, 1
	sb	a2, 0(s0)
	j	.LBB54_69
.Lfunc_end54:
	.size	tlsf_allocate_aligned, .Lfunc_end54-tlsf_allocate_aligned
	.cfi_endproc
	.section	.rodata.tlsf_allocate_aligned,"a",@progbits
	.p2align	2, 0x0
.LJTI54_0:
	.word	.LBB54_69
	.word	.LBB54_94
	.word	.LBB54_96
	.word	.LBB54_97
	.word	.LBB54_95
	.section	.rodata.cst32,"aM",@progbits,32
.LCPI55_0:
	.ascii	"\000\001\034\002\035\016\030\003\036\026\024\017\031\021\004\b\037\033\r\027\025\023\020\007\032\f\022\006\013\005\n\t"
	.section	.text.tlsf_allocate_payload,"ax",@progbits
	.globl	tlsf_allocate_payload
	.p2align	1
	.type	tlsf_allocate_payload,@function
tlsf_allocate_payload:
	.cfi_startproc
	lbu	a2, 8(a0)
	beqz	a2, .LBB55_7
	addi	sp, sp, -16
	.cfi_def_cfa_offset 16
	sw	s0, 12(sp)
	sw	s1, 8(sp)
	sw	s2, 4(sp)
	sw	s3, 0(sp)
	.cfi_offset s0, -4
	.cfi_offset s1, -8
	.cfi_offset s2, -12
	.cfi_offset s3, -16
	.cfi_remember_state
	lw	a2, 0(a0)
	lbu	a3, 0(a2)
	li	a0, 0
	beqz	a3, .LBB55_13
	lui	a3, 32768
	bltu	a3, a1, .LBB55_13
	lui	t3, 131072
	addi	a1, a1, 7
	sb	zero, 0(a2)
	lbu	a3, 16(a2)
	addi	t3, t3, -8
	addi	a0, t3, -8
	and	a0, a0, a1
	addi	s2, a0, 8
	addi	a1, a0, 39
	srli	t1, a1, 3
	beqz	a3, .LBB55_8
	lui	a1, 32768
	addi	a1, a1, -32
	bltu	a1, a0, .LBB55_9
	ori	a0, t1, 32
	lui	a1, 349525
	lui	a3, 209715
	lui	a4, 61681
	srli	a5, a0, 1
	addi	a1, a1, 1365
	or	a0, a0, a5
	srli	a5, a0, 2
	or	a0, a0, a5
	srli	a5, a0, 4
	or	a0, a0, a5
	srli	a5, a0, 8
	or	a0, a0, a5
	srli	a5, a0, 16
	or	a0, a0, a5
	not	a0, a0
	srli	a5, a0, 1
	and	a1, a1, a5
	lui	a5, 4112
	addi	a3, a3, 819
	sub	a0, a0, a1
	and	a1, a0, a3
	srli	a0, a0, 2
	and	a0, a0, a3
	li	a3, 26
	add	a0, a0, a1
	srli	a1, a0, 4
	add	a0, a0, a1
	addi	a1, t1, -1
	addi	a4, a4, -241
	addi	a5, a5, 257
	and	a0, a0, a4
	mul	a0, a0, a5
	srli	a0, a0, 24
	sub	a3, a3, a0
	srl	a4, a1, a3
	slli	a0, a3, 5
	add	a0, a0, a4
	addi	a1, a0, 1
	seqz	a1, a1
	srli	a3, a0, 5
	slli	a5, a1, 27
	sub	a3, a3, a5
	slli	a5, a3, 2
	add	a5, a5, a2
	lw	a5, 108(a5)
	srl	a4, a5, a4
	andi	a4, a4, -2
	beqz	a4, .LBB55_16
	neg	a3, a4
	and	a3, a3, a4
	lui	a4, 30667
	addi	a4, a4, 1329
	mul	a3, a3, a4
	lui	a4, %hi(.LCPI55_0)
	addi	a4, a4, %lo(.LCPI55_0)
	srli	a3, a3, 27
	add	a3, a3, a4
	lbu	a3, 0(a3)
	neg	a1, a1
	add	a3, a3, a0
	sltu	a0, a3, a0
	add	a0, a0, a1
	srli	a1, a3, 5
	slli	a0, a0, 27
	or	a1, a1, a0
	lw	t6, 32(a2)
	lw	t5, 36(a2)
	and	a0, t6, t5
	li	a4, -1
	bne	a0, a4, .LBB55_24
	j	.LBB55_12
.LBB55_7:
	li	a0, 0
	ret
.LBB55_8:
	.cfi_restore_state
	.cfi_remember_state
	lui	a1, 2048
	addi	a1, a1, -32
	bgeu	a1, a0, .LBB55_14
.LBB55_9:
	lw	a1, 8(a2)
	lw	a0, 12(a2)
	addi	a1, a1, 1
	snez	a3, a1
	addi	a3, a3, -1
	or	a1, a1, a3
	sw	a1, 8(a2)
	bltu	a0, s2, .LBB55_11
	mv	s2, a0
.LBB55_11:
	sw	s2, 12(a2)
.LBB55_12:
	li	a0, 0
	li	a1, 1
	sb	a1, 0(a2)
.LBB55_13:
	lw	s0, 12(sp)
	lw	s1, 8(sp)
	lw	s2, 4(sp)
	lw	s3, 0(sp)
	.cfi_restore s0
	.cfi_restore s1
	.cfi_restore s2
	.cfi_restore s3
	addi	sp, sp, 16
	.cfi_def_cfa_offset 0
	ret
.LBB55_14:
	.cfi_restore_state
	ori	a0, t1, 16
	lui	a1, 349525
	lui	a3, 209715
	lui	a4, 61681
	srli	a5, a0, 1
	addi	a1, a1, 1365
	or	a0, a0, a5
	srli	a5, a0, 2
	or	a0, a0, a5
	srli	a5, a0, 4
	or	a0, a0, a5
	srli	a5, a0, 8
	or	a0, a0, a5
	srli	a5, a0, 16
	or	a0, a0, a5
	not	a0, a0
	srli	a5, a0, 1
	and	a1, a1, a5
	lui	a5, 4112
	addi	a3, a3, 819
	sub	a0, a0, a1
	and	a1, a0, a3
	srli	a0, a0, 2
	and	a0, a0, a3
	li	a3, 27
	add	a0, a0, a1
	srli	a1, a0, 4
	add	a0, a0, a1
	addi	a1, t1, -1
	addi	a4, a4, -241
	addi	a5, a5, 257
	and	a0, a0, a4
	mul	a0, a0, a5
	srli	a0, a0, 24
	sub	a3, a3, a0
	srl	a4, a1, a3
	slli	a0, a3, 4
	add	a0, a0, a4
	addi	a1, a0, 1
	seqz	a1, a1
	srli	a3, a0, 4
	slli	a5, a1, 28
	sub	a3, a3, a5
	slli	a5, a3, 2
	add	a5, a5, a2
	lw	a5, 108(a5)
	andi	a4, a4, 15
	srl	a4, a5, a4
	andi	a4, a4, -2
	beqz	a4, .LBB55_19
	neg	a3, a4
	and	a3, a3, a4
	lui	a4, 30667
	addi	a4, a4, 1329
	mul	a3, a3, a4
	lui	a4, %hi(.LCPI55_0)
	addi	a4, a4, %lo(.LCPI55_0)
	srli	a3, a3, 27
	add	a3, a3, a4
	lbu	a3, 0(a3)
	neg	a1, a1
	add	a3, a3, a0
	sltu	a0, a3, a0
	add	a0, a0, a1
	srli	a1, a3, 4
	slli	a0, a0, 28
	or	a6, a1, a0
	lw	t6, 32(a2)
	lw	t5, 36(a2)
	and	a0, t6, t5
	li	a4, -1
	bne	a0, a4, .LBB55_36
	j	.LBB55_12
.LBB55_16:
	lw	a0, 104(a2)
	li	a1, -2
	sll	a1, a1, a3
	and	a0, a0, a1
	beqz	a0, .LBB55_9
	neg	a1, a0
	lui	a3, 30667
	and	a0, a0, a1
	addi	a1, a3, 1329
	mul	a0, a0, a1
	srli	a0, a0, 27
	lui	a3, %hi(.LCPI55_0)
	addi	a3, a3, %lo(.LCPI55_0)
	add	a0, a0, a3
	lbu	a0, 0(a0)
	slli	a4, a0, 2
	add	a4, a4, a2
	lw	a4, 108(a4)
	beqz	a4, .LBB55_22
	neg	a5, a4
	and	a4, a4, a5
	mul	a1, a4, a1
	srli	a1, a1, 27
	add	a1, a1, a3
	lbu	a3, 0(a1)
	j	.LBB55_23
.LBB55_19:
	lw	a0, 104(a2)
	li	a1, -2
	sll	a1, a1, a3
	and	a0, a0, a1
	beqz	a0, .LBB55_9
	neg	a1, a0
	lui	a3, 30667
	and	a0, a0, a1
	addi	a1, a3, 1329
	mul	a0, a0, a1
	srli	a0, a0, 27
	lui	a3, %hi(.LCPI55_0)
	addi	a3, a3, %lo(.LCPI55_0)
	add	a0, a0, a3
	lbu	a0, 0(a0)
	slli	a4, a0, 2
	add	a4, a4, a2
	lw	a4, 108(a4)
	beqz	a4, .LBB55_34
	neg	a5, a4
	and	a4, a4, a5
	mul	a1, a4, a1
	srli	a1, a1, 27
	add	a1, a1, a3
	lbu	a3, 0(a1)
	j	.LBB55_35
.LBB55_22:
	li	a3, 32
.LBB55_23:
	slli	a0, a0, 5
	add	a3, a3, a0
	srli	a1, a3, 5
	lw	t6, 32(a2)
	lw	t5, 36(a2)
	and	a0, t6, t5
	li	a4, -1
	beq	a0, a4, .LBB55_12
.LBB55_24:
	slli	a0, a3, 2
	add	a0, a0, a2
	lw	t2, 192(a0)
	lw	s1, 48(a2)
	slli	a7, t2, 3
	add	a5, s1, a7
	lw	s0, 16(a5)
	beq	s0, a4, .LBB55_26
	slli	a1, s0, 3
	add	a1, a1, s1
	li	a3, -1
	sw	a3, 20(a1)
	lw	s1, 48(a2)
	sw	s0, 192(a0)
	j	.LBB55_28
.LBB55_26:
	li	a4, -1
	slli	a5, a1, 2
	sw	a4, 192(a0)
	add	a5, a5, a2
	lw	a4, 108(a5)
	li	a0, 1
	sll	a3, a0, a3
	not	a3, a3
	and	a3, a3, a4
	sw	a3, 108(a5)
	bnez	a3, .LBB55_28
	lw	a3, 104(a2)
	sll	a0, a0, a1
	not	a0, a0
	and	a0, a0, a3
	sw	a0, 104(a2)
.LBB55_28:
	add	a3, s1, a7
	lw	a0, 0(a3)
	slli	a1, t1, 2
	lw	t4, 4(a3)
	sub	a1, a0, a1
	li	a4, 15
	bltu	a4, a1, .LBB55_30
	seqz	a1, a0
	addi	a0, a0, -1
	sw	s2, 16(a3)
	sw	zero, 20(a3)
	sub	a1, t4, a1
	sw	a0, 0(a3)
	sw	a1, 4(a3)
	sw	t6, 8(a3)
	sw	t5, 12(a3)
	srli	t1, a0, 2
	j	.LBB55_48
.LBB55_30:
	srli	a6, a1, 2
	add	t0, t2, t1
	sltu	a4, a0, a1
	sub	a0, a0, a1
	sw	s2, 16(a3)
	sw	zero, 20(a3)
	li	s2, 1
	andi	s3, a1, 2
	sub	a4, t4, a4
	slli	t4, t0, 3
	srli	a5, t0, 3
	sw	a0, 0(a3)
	sw	a4, 4(a3)
	sw	t6, 8(a3)
	sw	t5, 12(a3)
	andi	a0, t0, 63
	and	a3, a5, t3
	sll	a4, s2, t0
	add	s1, s1, t4
	sll	a5, s2, a0
	addi	a0, a0, -32
	sw	a1, 0(s1)
	sw	t2, 4(s1)
	sw	t6, 8(s1)
	sw	t5, 12(s1)
	lw	a1, 72(a2)
	srli	s1, a0, 31
	srai	a0, a0, 31
	addi	s1, s1, -1
	add	a1, a1, a3
	lw	a3, 0(a1)
	lw	s0, 4(a1)
	and	a0, a0, a4
	and	a5, a5, s1
	or	a0, a0, a3
	or	a5, a5, s0
	sw	a0, 0(a1)
	sw	a5, 4(a1)
	bnez	s3, .LBB55_32
	lw	a0, 48(a2)
	add	a1, a6, t0
	slli	a1, a1, 3
	add	a0, a0, a1
	sw	t0, 4(a0)
.LBB55_32:
	ori	a0, a6, 32
	lui	a1, 349525
	srli	a3, a0, 1
	addi	a1, a1, 1365
	or	a0, a0, a3
	srli	a3, a0, 2
	or	a0, a0, a3
	srli	a3, a0, 4
	or	a0, a0, a3
	srli	a3, a0, 8
	or	a0, a0, a3
	srli	a3, a0, 16
	or	a0, a0, a3
	not	a0, a0
	srli	a3, a0, 1
	and	a1, a1, a3
	lui	a3, 209715
	addi	a3, a3, 819
	sub	a0, a0, a1
	and	a1, a0, a3
	srli	a0, a0, 2
	and	a0, a0, a3
	lui	a3, 61681
	add	a0, a0, a1
	srli	a1, a0, 4
	add	a0, a0, a1
	lui	a1, 4112
	addi	a3, a3, -241
	and	a0, a0, a3
	li	a3, 26
	addi	a1, a1, 257
	mul	a0, a0, a1
	srli	a0, a0, 24
	sub	a3, a3, a0
	srl	a0, a6, a3
	slli	a1, a3, 5
	add	a1, a1, a0
	slli	a3, a1, 2
	add	a3, a3, a2
	lw	a5, 192(a3)
	sw	t0, 192(a3)
	lw	a3, 48(a2)
	bgez	a5, .LBB55_45
	add	a3, a3, t4
	li	a4, -1
	srli	a1, a1, 5
	li	a5, 1
	j	.LBB55_47
.LBB55_34:
	li	a3, 32
.LBB55_35:
	slli	a0, a0, 4
	add	a3, a3, a0
	srli	a6, a3, 4
	lw	t6, 32(a2)
	lw	t5, 36(a2)
	and	a0, t6, t5
	li	a4, -1
	beq	a0, a4, .LBB55_12
.LBB55_36:
	slli	a5, a3, 2
	add	a5, a5, a2
	lw	t2, 192(a5)
	lw	a0, 48(a2)
	slli	a7, t2, 3
	add	a1, a0, a7
	lw	a1, 16(a1)
	beq	a1, a4, .LBB55_38
	slli	a3, a1, 3
	add	a0, a0, a3
	li	a3, -1
	sw	a3, 20(a0)
	lw	a0, 48(a2)
	sw	a1, 192(a5)
	j	.LBB55_40
.LBB55_38:
	li	a1, -1
	slli	a4, a6, 2
	sw	a1, 192(a5)
	add	a4, a4, a2
	lw	a5, 108(a4)
	andi	a3, a3, 15
	li	a1, 1
	sll	a3, a1, a3
	not	a3, a3
	and	a3, a3, a5
	sw	a3, 108(a4)
	bnez	a3, .LBB55_40
	lw	a3, 104(a2)
	sll	a1, a1, a6
	not	a1, a1
	and	a1, a1, a3
	sw	a1, 104(a2)
.LBB55_40:
	add	a3, a0, a7
	lw	a5, 0(a3)
	slli	a1, t1, 2
	lw	t4, 4(a3)
	sub	a1, a5, a1
	li	a4, 15
	bltu	a4, a1, .LBB55_42
	seqz	a0, a5
	addi	a5, a5, -1
	sw	s2, 16(a3)
	sw	zero, 20(a3)
	sub	a0, t4, a0
	sw	a5, 0(a3)
	sw	a0, 4(a3)
	sw	t6, 8(a3)
	sw	t5, 12(a3)
	srli	t1, a5, 2
	j	.LBB55_48
.LBB55_42:
	srli	a6, a1, 2
	add	t0, t2, t1
	sltu	a4, a5, a1
	sub	a5, a5, a1
	sw	s2, 16(a3)
	sw	zero, 20(a3)
	li	s2, 1
	andi	s3, a1, 2
	sub	a4, t4, a4
	slli	t4, t0, 3
	srli	s0, t0, 3
	sw	a5, 0(a3)
	sw	a4, 4(a3)
	sw	t6, 8(a3)
	sw	t5, 12(a3)
	andi	a3, t0, 63
	and	a4, s0, t3
	sll	a5, s2, t0
	add	a0, a0, t4
	sll	s0, s2, a3
	addi	a3, a3, -32
	sw	a1, 0(a0)
	sw	t2, 4(a0)
	sw	t6, 8(a0)
	sw	t5, 12(a0)
	lw	a0, 72(a2)
	srli	a1, a3, 31
	srai	a3, a3, 31
	addi	a1, a1, -1
	add	a0, a0, a4
	lw	a4, 0(a0)
	lw	s1, 4(a0)
	and	a3, a3, a5
	and	a1, a1, s0
	or	a3, a3, a4
	or	a1, a1, s1
	sw	a3, 0(a0)
	sw	a1, 4(a0)
	bnez	s3, .LBB55_44
	lw	a0, 48(a2)
	add	a1, a6, t0
	slli	a1, a1, 3
	add	a0, a0, a1
	sw	t0, 4(a0)
.LBB55_44:
	ori	a0, a6, 16
	lui	a1, 349525
	srli	a3, a0, 1
	addi	a1, a1, 1365
	or	a0, a0, a3
	srli	a3, a0, 2
	or	a0, a0, a3
	srli	a3, a0, 4
	or	a0, a0, a3
	srli	a3, a0, 8
	or	a0, a0, a3
	srli	a3, a0, 16
	or	a0, a0, a3
	not	a0, a0
	srli	a3, a0, 1
	and	a1, a1, a3
	lui	a3, 209715
	addi	a3, a3, 819
	sub	a0, a0, a1
	and	a1, a0, a3
	srli	a0, a0, 2
	and	a0, a0, a3
	lui	a3, 61681
	add	a0, a0, a1
	srli	a1, a0, 4
	add	a0, a0, a1
	lui	a1, 4112
	addi	a3, a3, -241
	and	a0, a0, a3
	li	a3, 27
	addi	a1, a1, 257
	mul	a0, a0, a1
	srli	a0, a0, 24
	sub	a3, a3, a0
	srl	a0, a6, a3
	slli	a1, a3, 4
	add	a1, a1, a0
	slli	a3, a1, 2
	add	a3, a3, a2
	lw	a5, 192(a3)
	sw	t0, 192(a3)
	lw	a3, 48(a2)
	bltz	a5, .LBB55_46
.LBB55_45:
	add	t4, t4, a3
	li	a0, -1
	slli	a1, a5, 3
	sw	a5, 16(t4)
	sw	a0, 20(t4)
	add	a1, a1, a3
	sw	t0, 20(a1)
	j	.LBB55_48
.LBB55_46:
	add	a3, a3, t4
	li	a4, -1
	srli	a1, a1, 4
	li	a5, 1
	andi	a0, a0, 15
.LBB55_47:
	sw	a4, 16(a3)
	sw	a4, 20(a3)
	slli	a3, a1, 2
	add	a3, a3, a2
	lw	a4, 104(a2)
	lw	s1, 108(a3)
	sll	a1, a5, a1
	sll	a0, a5, a0
	or	a1, a1, a4
	or	a0, a0, s1
	sw	a1, 104(a2)
	sw	a0, 108(a3)
.LBB55_48:
	lw	a0, 40(a2)
	lw	a1, 44(a2)
	add	t1, t1, a0
	sw	t1, 40(a2)
	bgeu	a1, t1, .LBB55_50
	sw	t1, 44(a2)
.LBB55_50:
	lw	a0, 32(a2)
	lw	a1, 36(a2)
	addi	a0, a0, 1
	seqz	a3, a0
	add	a1, a1, a3
	sw	a0, 32(a2)
	sw	a1, 36(a2)
	li	a0, 1
	sb	a0, 0(a2)
	addi	a0, a7, 24
	lw	s0, 12(sp)
	lw	s1, 8(sp)
	lw	s2, 4(sp)
	lw	s3, 0(sp)
	.cfi_restore s0
	.cfi_restore s1
	.cfi_restore s2
	.cfi_restore s3
	addi	sp, sp, 16
	.cfi_def_cfa_offset 0
	ret
.Lfunc_end55:
	.size	tlsf_allocate_payload, .Lfunc_end55-tlsf_allocate_payload
	.cfi_endproc
	.section	.rodata.cst32,"aM",@progbits,32
.LCPI56_0:
	.ascii	"\000\001\034\002\035\016\030\003\036\026\024\017\031\021\004\b\037\033\r\027\025\023\020\007\032\f\022\006\013\005\n\t"
	.section	.text.tlsf_allocate_place,"ax",@progbits
	.globl	tlsf_allocate_place
	.p2align	1
	.type	tlsf_allocate_place,@function
tlsf_allocate_place:
	.cfi_startproc
	lbu	a4, 8(a1)
	li	a3, 32
	beqz	a4, .LBB56_6
	addi	sp, sp, -32
	.cfi_def_cfa_offset 32
	sw	s0, 28(sp)
	sw	s1, 24(sp)
	sw	s2, 20(sp)
	sw	s3, 16(sp)
	sw	s4, 12(sp)
	sw	s5, 8(sp)
	.cfi_offset s0, -4
	.cfi_offset s1, -8
	.cfi_offset s2, -12
	.cfi_offset s3, -16
	.cfi_offset s4, -20
	.cfi_offset s5, -24
	.cfi_remember_state
	lw	s0, 0(a1)
	lbu	a1, 0(s0)
	beqz	a1, .LBB56_7
	sb	zero, 0(s0)
	lbu	a1, 16(s0)
	seqz	a3, a2
	add	a3, a3, a2
	sltu	a4, a3, a2
	addi	a5, a3, 31
	sltu	a3, a5, a3
	add	a3, a3, a4
	slli	a3, a3, 29
	srli	a5, a5, 3
	or	a6, a5, a3
	beqz	a1, .LBB56_8
	lui	a1, 4096
	bltu	a1, a6, .LBB56_9
	ori	s1, a6, 32
	lui	a3, 349525
	lui	a4, 209715
	lui	a5, 61681
	srli	a1, s1, 1
	addi	a3, a3, 1365
	or	s1, s1, a1
	srli	a1, s1, 2
	or	s1, s1, a1
	srli	a1, s1, 4
	or	s1, s1, a1
	srli	a1, s1, 8
	or	s1, s1, a1
	srli	a1, s1, 16
	or	a1, a1, s1
	not	s1, a1
	srli	a1, s1, 1
	and	a1, a1, a3
	lui	a3, 4112
	addi	a4, a4, 819
	sub	s1, s1, a1
	and	a1, s1, a4
	srli	s1, s1, 2
	and	a4, a4, s1
	li	s1, 26
	add	a1, a1, a4
	srli	a4, a1, 4
	add	a1, a1, a4
	addi	a4, a6, -1
	addi	a5, a5, -241
	addi	a3, a3, 257
	and	a1, a1, a5
	mul	a1, a1, a3
	srli	a1, a1, 24
	sub	s1, s1, a1
	srl	a1, a4, s1
	slli	a4, s1, 5
	add	a4, a4, a1
	addi	a3, a4, 1
	seqz	s1, a3
	srli	a5, a4, 5
	slli	a3, s1, 27
	sub	a5, a5, a3
	slli	a3, a5, 2
	add	a3, a3, s0
	lw	a3, 108(a3)
	srl	a1, a3, a1
	andi	a1, a1, -2
	beqz	a1, .LBB56_14
	neg	a3, a1
	and	a1, a1, a3
	lui	a3, 30667
	addi	a3, a3, 1329
	mul	a1, a1, a3
	lui	a3, %hi(.LCPI56_0)
	addi	a3, a3, %lo(.LCPI56_0)
	srli	a1, a1, 27
	add	a1, a1, a3
	lbu	a3, 0(a1)
	neg	a1, s1
	add	a3, a3, a4
	sltu	a4, a3, a4
	add	a1, a1, a4
	srli	a4, a3, 5
	slli	a1, a1, 27
	or	a7, a4, a1
	lw	t5, 32(s0)
	lw	t6, 36(s0)
	and	a1, t5, t6
	li	t3, -1
	bne	a1, t3, .LBB56_22
	j	.LBB56_35
.LBB56_6:
	sw	zero, 0(a0)
	sw	a3, 4(a0)
	sw	zero, 8(a0)
	sw	zero, 12(a0)
	ret
.LBB56_7:
	.cfi_restore_state
	li	t2, 0
	li	t5, 0
	li	t6, 0
	j	.LBB56_50
.LBB56_8:
	lui	a1, 256
	bgeu	a1, a6, .LBB56_12
.LBB56_9:
	lw	a1, 8(s0)
	lw	a3, 12(s0)
	addi	a1, a1, 1
	snez	a4, a1
	addi	a4, a4, -1
	or	a1, a1, a4
	sw	a1, 8(s0)
	bltu	a3, a2, .LBB56_11
	mv	a2, a3
.LBB56_11:
	li	t2, 0
	li	t5, 0
	li	t6, 0
	sw	a2, 12(s0)
	li	a3, 1
	j	.LBB56_49
.LBB56_12:
	ori	a5, a6, 16
	lui	a3, 349525
	lui	a4, 209715
	lui	a7, 61681
	srli	a1, a5, 1
	addi	a3, a3, 1365
	or	a1, a1, a5
	srli	a5, a1, 2
	or	a1, a1, a5
	srli	a5, a1, 4
	or	a1, a1, a5
	srli	a5, a1, 8
	or	a1, a1, a5
	srli	a5, a1, 16
	or	a1, a1, a5
	not	a1, a1
	srli	a5, a1, 1
	and	a3, a3, a5
	lui	t0, 4112
	addi	a4, a4, 819
	sub	a1, a1, a3
	and	a3, a1, a4
	srli	a1, a1, 2
	and	a1, a1, a4
	li	t1, 27
	add	a1, a1, a3
	srli	a3, a1, 4
	add	a1, a1, a3
	addi	a3, a6, -1
	addi	a5, a7, -241
	addi	a4, t0, 257
	and	a1, a1, a5
	mul	a1, a1, a4
	srli	a1, a1, 24
	sub	a1, t1, a1
	srl	a3, a3, a1
	slli	a1, a1, 4
	add	a4, a3, a1
	addi	a1, a4, 1
	seqz	a7, a1
	srli	a1, a4, 4
	slli	a5, a7, 28
	sub	a5, a1, a5
	slli	a1, a5, 2
	add	a1, a1, s0
	lw	a1, 108(a1)
	andi	a3, a3, 15
	srl	a3, a1, a3
	andi	a3, a3, -2
	beqz	a3, .LBB56_17
	neg	a1, a3
	and	a1, a1, a3
	lui	a3, 30667
	addi	a3, a3, 1329
	mul	a1, a1, a3
	lui	a3, %hi(.LCPI56_0)
	addi	a3, a3, %lo(.LCPI56_0)
	srli	a1, a1, 27
	add	a1, a1, a3
	lbu	a3, 0(a1)
	neg	a1, a7
	add	a3, a3, a4
	sltu	a4, a3, a4
	add	a1, a1, a4
	srli	a4, a3, 4
	slli	a1, a1, 28
	or	a7, a4, a1
	lw	t5, 32(s0)
	lw	t6, 36(s0)
	and	a1, t5, t6
	li	t4, -1
	bne	a1, t4, .LBB56_33
	j	.LBB56_35
.LBB56_14:
	lw	a1, 104(s0)
	li	a3, -2
	sll	a3, a3, a5
	and	a3, a3, a1
	beqz	a3, .LBB56_9
	neg	a1, a3
	lui	a4, 30667
	and	a1, a1, a3
	addi	a4, a4, 1329
	mul	a1, a1, a4
	srli	a1, a1, 27
	lui	a5, %hi(.LCPI56_0)
	addi	a5, a5, %lo(.LCPI56_0)
	add	a1, a1, a5
	lbu	a3, 0(a1)
	slli	a1, a3, 2
	add	a1, a1, s0
	lw	a1, 108(a1)
	beqz	a1, .LBB56_20
	neg	s1, a1
	and	a1, a1, s1
	mul	a1, a1, a4
	srli	a1, a1, 27
	add	a1, a1, a5
	lbu	a4, 0(a1)
	j	.LBB56_21
.LBB56_17:
	lw	a1, 104(s0)
	li	a3, -2
	sll	a3, a3, a5
	and	a3, a3, a1
	beqz	a3, .LBB56_9
	neg	a1, a3
	lui	a4, 30667
	and	a1, a1, a3
	addi	a4, a4, 1329
	mul	a1, a1, a4
	srli	a1, a1, 27
	lui	a7, %hi(.LCPI56_0)
	addi	a7, a7, %lo(.LCPI56_0)
	add	a1, a1, a7
	lbu	a3, 0(a1)
	slli	a1, a3, 2
	add	a1, a1, s0
	lw	a1, 108(a1)
	beqz	a1, .LBB56_31
	neg	a5, a1
	and	a1, a1, a5
	mul	a1, a1, a4
	srli	a1, a1, 27
	add	a1, a1, a7
	lbu	a4, 0(a1)
	j	.LBB56_32
.LBB56_20:
	li	a4, 32
.LBB56_21:
	slli	a3, a3, 5
	add	a3, a3, a4
	srli	a7, a3, 5
	lw	t5, 32(s0)
	lw	t6, 36(s0)
	and	a1, t5, t6
	li	t3, -1
	beq	a1, t3, .LBB56_35
.LBB56_22:
	slli	a4, a3, 2
	add	a4, a4, s0
	lw	t2, 192(a4)
	lw	t1, 48(s0)
	slli	t0, t2, 3
	add	a1, t1, t0
	lw	a5, 16(a1)
	beq	a5, t3, .LBB56_24
	slli	a1, a5, 3
	add	a1, a1, t1
	li	a3, -1
	sw	a3, 20(a1)
	lw	t1, 48(s0)
	sw	a5, 192(a4)
	j	.LBB56_26
.LBB56_24:
	li	a1, -1
	slli	a5, a7, 2
	sw	a1, 192(a4)
	add	a5, a5, s0
	lw	a1, 108(a5)
	li	a4, 1
	sll	a3, a4, a3
	not	a3, a3
	and	a1, a1, a3
	sw	a1, 108(a5)
	bnez	a1, .LBB56_26
	lw	a1, 104(s0)
	sll	a3, a4, a7
	not	a3, a3
	and	a1, a1, a3
	sw	a1, 104(s0)
.LBB56_26:
	add	a3, t1, t0
	lw	a4, 0(a3)
	slli	a1, a6, 2
	lw	t3, 4(a3)
	sub	t4, a4, a1
	li	a1, 15
	bgeu	a1, t4, .LBB56_39
	srli	t0, t4, 2
	add	a7, t2, a6
	sltu	a1, a4, t4
	sub	s3, a4, t4
	sw	a2, 16(a3)
	sw	zero, 20(a3)
	li	s2, 1
	andi	s4, t4, 2
	sub	a1, t3, a1
	slli	t3, a7, 3
	srli	s1, a7, 3
	andi	a2, a7, 63
	sll	s5, s2, a7
	sw	s3, 0(a3)
	sw	a1, 4(a3)
	sw	t5, 8(a3)
	sw	t6, 12(a3)
	add	t1, t1, t3
	andi	s1, s1, -8
	sll	a1, s2, a2
	addi	a2, a2, -32
	sw	t4, 0(t1)
	sw	t2, 4(t1)
	sw	t5, 8(t1)
	sw	t6, 12(t1)
	lw	a3, 72(s0)
	srli	a5, a2, 31
	srai	a2, a2, 31
	addi	a5, a5, -1
	add	a3, a3, s1
	lw	s1, 0(a3)
	lw	a4, 4(a3)
	and	a2, a2, s5
	and	a1, a1, a5
	or	a2, a2, s1
	or	a1, a1, a4
	sw	a2, 0(a3)
	sw	a1, 4(a3)
	bnez	s4, .LBB56_29
	lw	a1, 48(s0)
	add	a2, t0, a7
	slli	a2, a2, 3
	add	a1, a1, a2
	sw	a7, 4(a1)
.LBB56_29:
	ori	a1, t0, 32
	lui	a2, 349525
	srli	a3, a1, 1
	addi	a2, a2, 1365
	or	a1, a1, a3
	srli	a3, a1, 2
	or	a1, a1, a3
	srli	a3, a1, 4
	or	a1, a1, a3
	srli	a3, a1, 8
	or	a1, a1, a3
	srli	a3, a1, 16
	or	a1, a1, a3
	not	a1, a1
	srli	a3, a1, 1
	and	a2, a2, a3
	lui	a3, 209715
	addi	a3, a3, 819
	sub	a1, a1, a2
	and	a2, a1, a3
	srli	a1, a1, 2
	and	a1, a1, a3
	lui	a3, 61681
	add	a1, a1, a2
	srli	a2, a1, 4
	add	a1, a1, a2
	lui	a2, 4112
	addi	a3, a3, -241
	and	a1, a1, a3
	li	a3, 26
	addi	a2, a2, 257
	mul	a1, a1, a2
	srli	a1, a1, 24
	sub	a3, a3, a1
	srl	t0, t0, a3
	slli	a3, a3, 5
	add	a4, t0, a3
	slli	a1, a4, 2
	add	a1, a1, s0
	lw	a3, 192(a1)
	sw	a7, 192(a1)
	lw	a2, 48(s0)
	bgez	a3, .LBB56_43
	add	a2, a2, t3
	li	a1, -1
	srli	a4, a4, 5
	li	a3, 1
	sw	a1, 16(a2)
	sw	a1, 20(a2)
	slli	a1, a4, 2
	add	a1, a1, s0
	lw	a2, 104(s0)
	lw	a5, 108(a1)
	sll	a4, a3, a4
	sll	a3, a3, t0
	or	a2, a2, a4
	or	a3, a3, a5
	j	.LBB56_45
.LBB56_31:
	li	a4, 32
.LBB56_32:
	slli	a3, a3, 4
	add	a3, a3, a4
	srli	a7, a3, 4
	lw	t5, 32(s0)
	lw	t6, 36(s0)
	and	a1, t5, t6
	li	t4, -1
	beq	a1, t4, .LBB56_35
.LBB56_33:
	slli	t3, a3, 2
	add	t3, t3, s0
	lw	t2, 192(t3)
	lw	t1, 48(s0)
	slli	t0, t2, 3
	add	a1, t1, t0
	lw	a4, 16(a1)
	beq	a4, t4, .LBB56_36
	slli	a1, a4, 3
	add	a1, a1, t1
	li	a3, -1
	sw	a3, 20(a1)
	lw	t1, 48(s0)
	sw	a4, 192(t3)
	j	.LBB56_38
.LBB56_35:
	li	t2, 0
	li	t5, 0
	li	t6, 0
	li	a3, 2
	j	.LBB56_49
.LBB56_36:
	li	a1, -1
	slli	a4, a7, 2
	sw	a1, 192(t3)
	add	a4, a4, s0
	lw	a1, 108(a4)
	andi	a5, a3, 15
	li	a3, 1
	sll	a5, a3, a5
	not	a5, a5
	and	a1, a1, a5
	sw	a1, 108(a4)
	bnez	a1, .LBB56_38
	lw	a1, 104(s0)
	sll	a3, a3, a7
	not	a3, a3
	and	a1, a1, a3
	sw	a1, 104(s0)
.LBB56_38:
	add	a3, t1, t0
	lw	a4, 0(a3)
	slli	a1, a6, 2
	lw	t3, 4(a3)
	sub	t4, a4, a1
	li	a1, 15
	bltu	a1, t4, .LBB56_40
.LBB56_39:
	seqz	a1, a4
	addi	a4, a4, -1
	sw	a2, 16(a3)
	sw	zero, 20(a3)
	sub	a1, t3, a1
	sw	a4, 0(a3)
	sw	a1, 4(a3)
	sw	t5, 8(a3)
	sw	t6, 12(a3)
	srli	a6, a4, 2
	j	.LBB56_46
.LBB56_40:
	srli	t0, t4, 2
	add	a7, t2, a6
	sltu	a1, a4, t4
	sub	s3, a4, t4
	sw	a2, 16(a3)
	sw	zero, 20(a3)
	li	s2, 1
	andi	s4, t4, 2
	sub	a1, t3, a1
	slli	t3, a7, 3
	srli	s1, a7, 3
	andi	a2, a7, 63
	sll	s5, s2, a7
	sw	s3, 0(a3)
	sw	a1, 4(a3)
	sw	t5, 8(a3)
	sw	t6, 12(a3)
	add	t1, t1, t3
	andi	s1, s1, -8
	sll	a1, s2, a2
	addi	a2, a2, -32
	sw	t4, 0(t1)
	sw	t2, 4(t1)
	sw	t5, 8(t1)
	sw	t6, 12(t1)
	lw	a3, 72(s0)
	srli	a5, a2, 31
	srai	a2, a2, 31
	addi	a5, a5, -1
	add	a3, a3, s1
	lw	s1, 0(a3)
	lw	a4, 4(a3)
	and	a2, a2, s5
	and	a1, a1, a5
	or	a2, a2, s1
	or	a1, a1, a4
	sw	a2, 0(a3)
	sw	a1, 4(a3)
	bnez	s4, .LBB56_42
	lw	a1, 48(s0)
	add	a2, t0, a7
	slli	a2, a2, 3
	add	a1, a1, a2
	sw	a7, 4(a1)
.LBB56_42:
	ori	a1, t0, 16
	lui	a2, 349525
	srli	a3, a1, 1
	addi	a2, a2, 1365
	or	a1, a1, a3
	srli	a3, a1, 2
	or	a1, a1, a3
	srli	a3, a1, 4
	or	a1, a1, a3
	srli	a3, a1, 8
	or	a1, a1, a3
	srli	a3, a1, 16
	or	a1, a1, a3
	not	a1, a1
	srli	a3, a1, 1
	and	a2, a2, a3
	lui	a3, 209715
	addi	a3, a3, 819
	sub	a1, a1, a2
	and	a2, a1, a3
	srli	a1, a1, 2
	and	a1, a1, a3
	lui	a3, 61681
	add	a1, a1, a2
	srli	a2, a1, 4
	add	a1, a1, a2
	lui	a2, 4112
	addi	a3, a3, -241
	and	a1, a1, a3
	li	a3, 27
	addi	a2, a2, 257
	mul	a1, a1, a2
	srli	a1, a1, 24
	sub	a3, a3, a1
	srl	t0, t0, a3
	slli	a3, a3, 4
	add	a4, t0, a3
	slli	a1, a4, 2
	add	a1, a1, s0
	lw	a3, 192(a1)
	sw	a7, 192(a1)
	lw	a2, 48(s0)
	bltz	a3, .LBB56_44
.LBB56_43:
	add	t3, t3, a2
	li	a1, -1
	slli	a4, a3, 3
	sw	a3, 16(t3)
	sw	a1, 20(t3)
	add	a2, a2, a4
	sw	a7, 20(a2)
	j	.LBB56_46
.LBB56_44:
	add	a2, a2, t3
	li	a1, -1
	srli	a4, a4, 4
	li	a3, 1
	andi	a5, t0, 15
	sw	a1, 16(a2)
	sw	a1, 20(a2)
	slli	a1, a4, 2
	add	a1, a1, s0
	lw	a2, 104(s0)
	lw	s1, 108(a1)
	sll	a4, a3, a4
	sll	a3, a3, a5
	or	a2, a2, a4
	or	a3, a3, s1
.LBB56_45:
	sw	a2, 104(s0)
	sw	a3, 108(a1)
.LBB56_46:
	lw	a1, 40(s0)
	lw	a2, 44(s0)
	add	a6, a6, a1
	sw	a6, 40(s0)
	bgeu	a2, a6, .LBB56_48
	sw	a6, 44(s0)
.LBB56_48:
	li	a3, 0
	lw	a1, 32(s0)
	lw	a2, 36(s0)
	addi	a1, a1, 1
	seqz	a4, a1
	add	a2, a2, a4
	sw	a1, 32(s0)
	sw	a2, 36(s0)
.LBB56_49:
	li	a1, 1
	sb	a1, 0(s0)
.LBB56_50:
	lw	s0, 28(sp)
	lw	s1, 24(sp)
	lw	s2, 20(sp)
	lw	s3, 16(sp)
	lw	s4, 12(sp)
	lw	s5, 8(sp)
	.cfi_restore s0
	.cfi_restore s1
	.cfi_restore s2
	.cfi_restore s3
	.cfi_restore s4
	.cfi_restore s5
	addi	sp, sp, 32
	.cfi_def_cfa_offset 0
	sw	t2, 0(a0)
	sw	a3, 4(a0)
	sw	t5, 8(a0)
	sw	t6, 12(a0)
	ret
.Lfunc_end56:
	.size	tlsf_allocate_place, .Lfunc_end56-tlsf_allocate_place
	.cfi_endproc
	.section	.text.tlsf_block_at,"ax",@progbits
	.globl	tlsf_block_at
	.p2align	1
	.type	tlsf_block_at,@function
tlsf_block_at:
	.cfi_startproc
	lbu	a3, 8(a0)
	beqz	a3, .LBB57_11
	lw	a3, 0(a0)
	lbu	a0, 0(a3)
	beqz	a0, .LBB57_11
	lbu	a4, 16(a3)
	lw	a0, 56(a3)
	sb	zero, 0(a3)
	bgeu	a1, a0, .LBB57_8
	lw	a5, 72(a3)
	srli	a0, a1, 3
	andi	a0, a0, -8
	add	a5, a5, a0
	lw	a6, 4(a5)
	andi	a0, a1, 63
	addi	a4, a0, -32
	bltz	a4, .LBB57_7
	srl	a0, a6, a0
	andi	a0, a0, 1
	beqz	a0, .LBB57_8
.LBB57_5:
	lw	a0, 48(a3)
	slli	a4, a1, 3
	add	a0, a0, a4
	lw	a4, 0(a0)
	lw	t0, 8(a0)
	lw	a6, 12(a0)
	andi	a5, a4, 1
	srli	a4, a4, 2
	bnez	a5, .LBB57_9
	lw	a5, 16(a0)
	li	a7, 1
	j	.LBB57_10
.LBB57_7:
	lw	a4, 0(a5)
	slli	a6, a6, 1
	not	a0, a0
	srl	a4, a4, a1
	sll	a0, a6, a0
	or	a0, a0, a4
	andi	a0, a0, 1
	bnez	a0, .LBB57_5
.LBB57_8:
	li	a0, 1
	sb	a0, 0(a3)
	li	a0, 4
	ret
.LBB57_9:
	li	a7, 0
	li	a5, 0
.LBB57_10:
	addi	sp, sp, -32
	.cfi_def_cfa_offset 32
	sw	s0, 28(sp)
	sw	s1, 24(sp)
	sw	s2, 20(sp)
	sw	s3, 16(sp)
	sw	s4, 12(sp)
	.cfi_offset s0, -4
	.cfi_offset s1, -8
	.cfi_offset s2, -12
	.cfi_offset s3, -16
	.cfi_offset s4, -20
	li	a0, 0
	li	t1, 1
	srli	t2, a1, 24
	srli	t3, a1, 16
	srli	t4, a1, 8
	srli	t5, a4, 24
	srli	t6, a4, 16
	srli	s2, a4, 8
	srli	s3, a5, 24
	srli	s0, a5, 16
	srli	s1, a5, 8
	srli	s4, t0, 24
	sb	t1, 0(a3)
	srli	t1, t0, 16
	srli	a3, t0, 8
	sb	a1, 0(a2)
	sb	t4, 1(a2)
	sb	t3, 2(a2)
	sb	t2, 3(a2)
	srli	a1, a6, 24
	sb	a4, 4(a2)
	sb	s2, 5(a2)
	sb	t6, 6(a2)
	sb	t5, 7(a2)
	srli	a4, a6, 16
	sb	a5, 12(a2)
	sb	s1, 13(a2)
	sb	s0, 14(a2)
	sb	s3, 15(a2)
	srli	a5, a6, 8
	sb	a7, 8(a2)
	sb	zero, 9(a2)
	sb	zero, 10(a2)
	sb	zero, 11(a2)
	sb	t0, 16(a2)
	sb	a3, 17(a2)
	sb	t1, 18(a2)
	sb	s4, 19(a2)
	sb	a6, 20(a2)
	sb	a5, 21(a2)
	sb	a4, 22(a2)
	sb	a1, 23(a2)
	lw	s0, 28(sp)
	lw	s1, 24(sp)
	lw	s2, 20(sp)
	lw	s3, 16(sp)
	lw	s4, 12(sp)
	.cfi_restore s0
	.cfi_restore s1
	.cfi_restore s2
	.cfi_restore s3
	.cfi_restore s4
	addi	sp, sp, 32
	.cfi_def_cfa_offset 0
	ret
.LBB57_11:
	li	a0, 0
	tail	tlsf_c.call_fault.CallFault.refusal
.Lfunc_end57:
	.size	tlsf_block_at, .Lfunc_end57-tlsf_block_at
	.cfi_endproc
	.section	.text.tlsf_check,"ax",@progbits
	.globl	tlsf_check
	.p2align	1
	.type	tlsf_check,@function
tlsf_check:
	.cfi_startproc
	addi	sp, sp, -48
	.cfi_def_cfa_offset 48
	sw	ra, 44(sp)
	sw	s0, 40(sp)
	sw	s1, 36(sp)
	sw	s2, 32(sp)
	sw	s3, 28(sp)
	sw	s4, 24(sp)
	sw	s5, 20(sp)
	sw	s6, 16(sp)
	sw	s7, 12(sp)
	.cfi_offset ra, -4
	.cfi_offset s0, -8
	.cfi_offset s1, -12
	.cfi_offset s2, -16
	.cfi_offset s3, -20
	.cfi_offset s4, -24
	.cfi_offset s5, -28
	.cfi_offset s6, -32
	.cfi_offset s7, -36
	mv	s0, a2
	mv	a2, a0
	lbu	a5, 8(a0)
	li	a0, 32
	beqz	a5, .LBB58_28
	lw	s7, 0(a2)
	lbu	a2, 0(s7)
	beqz	a2, .LBB58_28
	lbu	a2, 16(s7)
	lw	s3, 56(s7)
	sb	zero, 0(s7)
	addi	s2, s7, 48
	addi	a0, s3, -4
	beqz	a2, .LBB58_6
	bltu	a0, a1, .LBB58_22
	lw	a5, 72(s7)
	srli	a0, a1, 3
	andi	a0, a0, -8
	add	a5, a5, a0
	lw	a0, 4(a5)
	andi	s1, a1, 63
	addi	a2, s1, -32
	bltz	a2, .LBB58_9
	srl	a0, a0, s1
	andi	a0, a0, 1
	bnez	a0, .LBB58_10
	j	.LBB58_22
.LBB58_6:
	bltu	a0, a1, .LBB58_22
	lw	a5, 72(s7)
	srli	a0, a1, 3
	andi	a0, a0, -8
	add	a5, a5, a0
	lw	a0, 4(a5)
	andi	s1, a1, 63
	addi	a2, s1, -32
	bltz	a2, .LBB58_15
	srl	a0, a0, s1
	andi	a0, a0, 1
	bnez	a0, .LBB58_16
	j	.LBB58_22
.LBB58_9:
	lw	a2, 0(a5)
	slli	a0, a0, 1
	not	a5, s1
	srl	a2, a2, a1
	sll	a0, a0, a5
	or	a0, a0, a2
	andi	a0, a0, 1
	beqz	a0, .LBB58_22
.LBB58_10:
	beqz	s0, .LBB58_23
	mv	s5, a4
	mv	s4, a3
	li	s6, 1
.LBB58_12:
	mv	a0, s2
	mv	s1, a1
	call	tlsf_heap.check.examine
	zext.b	a0, a0
	bne	a0, s6, .LBB58_24
	mv	a2, a1
	beq	a1, s3, .LBB58_25
	addi	s0, s0, -1
	mv	a1, a2
	bnez	s0, .LBB58_12
	j	.LBB58_21
.LBB58_15:
	lw	a2, 0(a5)
	slli	a0, a0, 1
	not	a5, s1
	srl	a2, a2, a1
	sll	a0, a0, a5
	or	a0, a0, a2
	andi	a0, a0, 1
	beqz	a0, .LBB58_22
.LBB58_16:
	beqz	s0, .LBB58_23
	mv	s5, a4
	mv	s4, a3
	li	s6, 1
.LBB58_18:
	mv	a0, s2
	mv	s1, a1
	call	tlsf_heap.check.examine
	zext.b	a0, a0
	bne	a0, s6, .LBB58_24
	mv	a2, a1
	beq	a1, s3, .LBB58_25
	addi	s0, s0, -1
	mv	a1, a2
	bnez	s0, .LBB58_18
.LBB58_21:
	li	a0, 0
	mv	a1, a2
	j	.LBB58_26
.LBB58_22:
	li	a0, 1
	sb	a0, 0(s7)
	li	a0, 4
	j	.LBB58_28
.LBB58_23:
	li	a0, 0
	j	.LBB58_27
.LBB58_24:
	li	a0, 36
	mv	a3, s5
	mv	a1, s1
	j	.LBB58_27
.LBB58_25:
	li	a1, 0
	li	a0, 0
.LBB58_26:
	mv	a3, s4
.LBB58_27:
	li	a2, 1
	sb	a2, 0(s7)
	sw	a1, 0(a3)
.LBB58_28:
	lw	ra, 44(sp)
	lw	s0, 40(sp)
	lw	s1, 36(sp)
	lw	s2, 32(sp)
	lw	s3, 28(sp)
	lw	s4, 24(sp)
	lw	s5, 20(sp)
	lw	s6, 16(sp)
	lw	s7, 12(sp)
	.cfi_restore ra
	.cfi_restore s0
	.cfi_restore s1
	.cfi_restore s2
	.cfi_restore s3
	.cfi_restore s4
	.cfi_restore s5
	.cfi_restore s6
	.cfi_restore s7
	addi	sp, sp, 48
	.cfi_def_cfa_offset 0
	ret
.Lfunc_end58:
	.size	tlsf_check, .Lfunc_end58-tlsf_check
	.cfi_endproc
	.section	.text.tlsf_check_around,"ax",@progbits
	.globl	tlsf_check_around
	.p2align	1
	.type	tlsf_check_around,@function
tlsf_check_around:
	.cfi_startproc
	mv	a3, a0
	lbu	a4, 8(a0)
	li	a0, 32
	beqz	a4, .LBB59_27
	addi	sp, sp, -32
	.cfi_def_cfa_offset 32
	sw	ra, 28(sp)
	sw	s0, 24(sp)
	sw	s1, 20(sp)
	sw	s2, 16(sp)
	sw	s3, 12(sp)
	sw	s4, 8(sp)
	sw	s5, 4(sp)
	.cfi_offset ra, -4
	.cfi_offset s0, -8
	.cfi_offset s1, -12
	.cfi_offset s2, -16
	.cfi_offset s3, -20
	.cfi_offset s4, -24
	.cfi_offset s5, -28
	lw	s1, 0(a3)
	lbu	a3, 0(s1)
	beqz	a3, .LBB59_26
	lbu	a3, 16(s1)
	lw	s0, 56(s1)
	sb	zero, 0(s1)
	addi	s3, s1, 48
	addi	a0, s0, -4
	beqz	a3, .LBB59_6
	bltu	a0, a1, .LBB59_22
	lw	a4, 72(s1)
	srli	a0, a1, 3
	andi	a0, a0, -8
	add	a4, a4, a0
	lw	a0, 4(a4)
	andi	a3, a1, 63
	addi	a5, a3, -32
	bltz	a5, .LBB59_9
	srl	a0, a0, a3
	andi	a0, a0, 1
	bnez	a0, .LBB59_10
	j	.LBB59_22
.LBB59_6:
	bltu	a0, a1, .LBB59_22
	lw	a4, 72(s1)
	srli	a0, a1, 3
	andi	a0, a0, -8
	add	a4, a4, a0
	lw	a0, 4(a4)
	andi	a3, a1, 63
	addi	a5, a3, -32
	bltz	a5, .LBB59_15
	srl	a0, a0, a3
	andi	a0, a0, 1
	bnez	a0, .LBB59_16
	j	.LBB59_22
.LBB59_9:
	lw	a4, 0(a4)
	slli	a0, a0, 1
	not	a3, a3
	srl	a4, a4, a1
	sll	a0, a0, a3
	or	a0, a0, a4
	andi	a0, a0, 1
	beqz	a0, .LBB59_22
.LBB59_10:
	mv	s5, a2
	mv	a0, s3
	mv	s2, a1
	call	tlsf_heap.check.examine
	zext.b	a0, a0
	li	a2, 1
	bne	a0, a2, .LBB59_23
	mv	s4, a1
	mv	a2, s5
	beqz	s2, .LBB59_13
	lw	a0, 0(s3)
	slli	s2, s2, 3
	add	a0, a0, s2
	lw	s2, 4(a0)
	mv	a0, s3
	mv	a1, s2
	call	tlsf_heap.check.examine
	mv	a2, s5
	zext.b	a0, a0
	li	a1, 1
	bne	a0, a1, .LBB59_24
.LBB59_13:
	bne	s4, s0, .LBB59_20
.LBB59_14:
	li	a0, 0
	li	a1, 1
	sb	a1, 0(s1)
	j	.LBB59_26
.LBB59_15:
	lw	a4, 0(a4)
	slli	a0, a0, 1
	not	a3, a3
	srl	a4, a4, a1
	sll	a0, a0, a3
	or	a0, a0, a4
	andi	a0, a0, 1
	beqz	a0, .LBB59_22
.LBB59_16:
	mv	s5, a2
	mv	a0, s3
	mv	s2, a1
	call	tlsf_heap.check.examine
	zext.b	a0, a0
	li	a2, 1
	bne	a0, a2, .LBB59_23
	mv	s4, a1
	mv	a2, s5
	beqz	s2, .LBB59_19
	lw	a0, 0(s3)
	slli	s2, s2, 3
	add	a0, a0, s2
	lw	s2, 4(a0)
	mv	a0, s3
	mv	a1, s2
	call	tlsf_heap.check.examine
	mv	a2, s5
	zext.b	a0, a0
	li	a1, 1
	bne	a0, a1, .LBB59_24
.LBB59_19:
	beq	s4, s0, .LBB59_14
.LBB59_20:
	mv	a0, s3
	mv	a1, s4
	mv	s0, a2
	call	tlsf_heap.check.examine
	mv	a2, s0
	zext.b	a0, a0
	li	a1, 1
	sb	a1, 0(s1)
	mv	s2, s4
	bne	a0, a1, .LBB59_25
	li	a0, 0
	j	.LBB59_26
.LBB59_22:
	li	a0, 1
	sb	a0, 0(s1)
	li	a0, 4
	j	.LBB59_26
.LBB59_23:
	mv	a2, s5
.LBB59_24:
	li	a0, 1
	sb	a0, 0(s1)
.LBB59_25:
	sw	s2, 0(a2)
	li	a0, 36
.LBB59_26:
	lw	ra, 28(sp)
	lw	s0, 24(sp)
	lw	s1, 20(sp)
	lw	s2, 16(sp)
	lw	s3, 12(sp)
	lw	s4, 8(sp)
	lw	s5, 4(sp)
	.cfi_restore ra
	.cfi_restore s0
	.cfi_restore s1
	.cfi_restore s2
	.cfi_restore s3
	.cfi_restore s4
	.cfi_restore s5
	addi	sp, sp, 32
	.cfi_def_cfa_offset 0
.LBB59_27:
	ret
.Lfunc_end59:
	.size	tlsf_check_around, .Lfunc_end59-tlsf_check_around
	.cfi_endproc
	.section	.rodata.cst32,"aM",@progbits,32
.LCPI60_0:
	.ascii	"\000\001\034\002\035\016\030\003\036\026\024\017\031\021\004\b\037\033\r\027\025\023\020\007\032\f\022\006\013\005\n\t"
	.section	.text.tlsf_check_request,"ax",@progbits
	.globl	tlsf_check_request
	.p2align	1
	.type	tlsf_check_request,@function
tlsf_check_request:
	.cfi_startproc
	mv	a3, a0
	lbu	a4, 8(a0)
	li	a0, 32
	beqz	a4, .LBB60_33
	addi	sp, sp, -32
	.cfi_def_cfa_offset 32
	sw	ra, 28(sp)
	sw	s0, 24(sp)
	sw	s1, 20(sp)
	sw	s2, 16(sp)
	sw	s3, 12(sp)
	sw	s4, 8(sp)
	sw	s5, 4(sp)
	sw	s6, 0(sp)
	.cfi_offset ra, -4
	.cfi_offset s0, -8
	.cfi_offset s1, -12
	.cfi_offset s2, -16
	.cfi_offset s3, -20
	.cfi_offset s4, -24
	.cfi_offset s5, -28
	.cfi_offset s6, -32
	.cfi_remember_state
	lw	s1, 0(a3)
	lbu	a3, 0(s1)
	beqz	a3, .LBB60_32
	sb	zero, 0(s1)
	lbu	a3, 16(s1)
	seqz	a0, a1
	add	a0, a0, a1
	sltu	a1, a0, a1
	addi	a4, a0, 31
	sltu	a0, a4, a0
	add	a0, a0, a1
	slli	a0, a0, 29
	srli	a4, a4, 3
	or	a0, a0, a4
	beqz	a3, .LBB60_8
	lui	a1, 4096
	bltu	a1, a0, .LBB60_18
	ori	a1, a0, 32
	lui	a3, 349525
	lui	a4, 209715
	srli	a5, a1, 1
	addi	a3, a3, 1365
	or	a1, a1, a5
	srli	a5, a1, 2
	or	a1, a1, a5
	srli	a5, a1, 4
	or	a1, a1, a5
	srli	a5, a1, 8
	or	a1, a1, a5
	srli	a5, a1, 16
	or	a1, a1, a5
	not	a1, a1
	srli	a5, a1, 1
	and	a3, a3, a5
	lui	a5, 61681
	addi	a4, a4, 819
	sub	a1, a1, a3
	and	a3, a1, a4
	srli	a1, a1, 2
	and	a1, a1, a4
	lui	a4, 4112
	add	a1, a1, a3
	srli	a3, a1, 4
	add	a1, a1, a3
	li	a3, 26
	addi	a5, a5, -241
	and	a1, a1, a5
	addi	a5, a0, -1
	addi	a4, a4, 257
	mul	a1, a1, a4
	srli	a1, a1, 24
	sub	a3, a3, a1
	srl	a4, a5, a3
	slli	a1, a3, 5
	add	a1, a1, a4
	addi	a3, a1, 1
	seqz	a3, a3
	srli	a5, a1, 5
	slli	a3, a3, 27
	sub	a3, a5, a3
	slli	a5, a3, 2
	add	a5, a5, s1
	lw	a5, 108(a5)
	srl	a4, a5, a4
	andi	a4, a4, -2
	bnez	a4, .LBB60_10
	lw	a1, 104(s1)
	li	a4, -2
	sll	a3, a4, a3
	and	a1, a1, a3
	beqz	a1, .LBB60_18
	neg	a3, a1
	lui	a4, 30667
	and	a1, a1, a3
	addi	a3, a4, 1329
	mul	a1, a1, a3
	srli	a1, a1, 27
	lui	a4, %hi(.LCPI60_0)
	addi	a4, a4, %lo(.LCPI60_0)
	add	a1, a1, a4
	lbu	a1, 0(a1)
	slli	a5, a1, 2
	add	a5, a5, s1
	lw	a5, 108(a5)
	beqz	a5, .LBB60_28
	neg	s0, a5
	and	a5, a5, s0
	mul	a3, a5, a3
	srli	a3, a3, 27
	add	a3, a3, a4
	lbu	a3, 0(a3)
	slli	a1, a1, 5
	j	.LBB60_11
.LBB60_8:
	lui	a1, 256
	bltu	a1, a0, .LBB60_18
	ori	a1, a0, 16
	lui	a3, 349525
	lui	a4, 209715
	srli	a5, a1, 1
	addi	a3, a3, 1365
	or	a1, a1, a5
	srli	a5, a1, 2
	or	a1, a1, a5
	srli	a5, a1, 4
	or	a1, a1, a5
	srli	a5, a1, 8
	or	a1, a1, a5
	srli	a5, a1, 16
	or	a1, a1, a5
	not	a1, a1
	srli	a5, a1, 1
	and	a3, a3, a5
	lui	a5, 61681
	addi	a4, a4, 819
	sub	a1, a1, a3
	and	a3, a1, a4
	srli	a1, a1, 2
	and	a1, a1, a4
	lui	a4, 4112
	add	a1, a1, a3
	srli	a3, a1, 4
	add	a1, a1, a3
	li	a3, 27
	addi	a5, a5, -241
	and	a1, a1, a5
	addi	a5, a0, -1
	addi	a4, a4, 257
	mul	a1, a1, a4
	srli	a1, a1, 24
	sub	a3, a3, a1
	srl	a4, a5, a3
	slli	a1, a3, 4
	add	a1, a1, a4
	addi	a3, a1, 1
	seqz	a3, a3
	srli	a5, a1, 4
	slli	a3, a3, 28
	sub	a3, a5, a3
	slli	a5, a3, 2
	add	a5, a5, s1
	lw	a5, 108(a5)
	andi	a4, a4, 15
	srl	a4, a5, a4
	andi	a4, a4, -2
	beqz	a4, .LBB60_15
.LBB60_10:
	neg	a3, a4
	and	a3, a3, a4
	lui	a4, 30667
	addi	a4, a4, 1329
	mul	a3, a3, a4
	srli	a3, a3, 27
	lui	a4, %hi(.LCPI60_0)
	addi	a4, a4, %lo(.LCPI60_0)
	add	a3, a3, a4
	lbu	a3, 0(a3)
.LBB60_11:
	add	a1, a1, a3
	slli	a1, a1, 2
	add	a1, a1, s1
	lw	s0, 192(a1)
	li	a1, -1
	beq	s0, a1, .LBB60_18
	lw	s5, 56(s1)
	addi	a1, s5, -4
	bltu	a1, s0, .LBB60_30
	lw	a4, 72(s1)
	srli	a1, s0, 3
	andi	a1, a1, -8
	add	a4, a4, a1
	lw	a1, 4(a4)
	andi	a3, s0, 63
	addi	a5, a3, -32
	bltz	a5, .LBB60_19
	srl	a1, a1, a3
	j	.LBB60_20
.LBB60_15:
	lw	a1, 104(s1)
	li	a4, -2
	sll	a3, a4, a3
	and	a1, a1, a3
	beqz	a1, .LBB60_18
	neg	a3, a1
	lui	a4, 30667
	and	a1, a1, a3
	addi	a3, a4, 1329
	mul	a1, a1, a3
	srli	a1, a1, 27
	lui	a4, %hi(.LCPI60_0)
	addi	a4, a4, %lo(.LCPI60_0)
	add	a1, a1, a4
	lbu	a1, 0(a1)
	slli	a5, a1, 2
	add	a5, a5, s1
	lw	a5, 108(a5)
	beqz	a5, .LBB60_34
	neg	s0, a5
	and	a5, a5, s0
	mul	a3, a5, a3
	srli	a3, a3, 27
	add	a3, a3, a4
	lbu	a3, 0(a3)
	j	.LBB60_35
.LBB60_18:
	li	a0, 1
	sb	a0, 0(s1)
	j	.LBB60_32
.LBB60_19:
	lw	a4, 0(a4)
	slli	a1, a1, 1
	not	a3, a3
	srl	a4, a4, s0
	sll	a1, a1, a3
	or	a1, a1, a4
.LBB60_20:
	andi	a1, a1, 1
	beqz	a1, .LBB60_30
	addi	s2, s1, 48
	lw	a1, 0(s2)
	slli	a3, s0, 3
	add	a1, a1, a3
	lw	a3, 0(a1)
	andi	a4, a3, 1
	beqz	a4, .LBB60_30
	srli	a3, a3, 2
	bltu	a3, a0, .LBB60_30
	mv	s6, a2
	lw	s3, 4(a1)
	mv	a0, s2
	mv	a1, s0
	call	tlsf_heap.check.examine
	zext.b	a0, a0
	li	a2, 1
	bne	a0, a2, .LBB60_29
	mv	s4, a1
	beqz	s0, .LBB60_26
	mv	a0, s2
	mv	a1, s3
	call	tlsf_heap.check.examine
	mv	a2, s6
	zext.b	a0, a0
	li	a1, 1
	mv	s0, s3
	bne	a0, a1, .LBB60_30
.LBB60_26:
	bne	s4, s5, .LBB60_36
	li	a0, 0
	li	a1, 1
	sb	a1, 0(s1)
	j	.LBB60_32
.LBB60_28:
	li	a3, 32
	slli	a1, a1, 5
	j	.LBB60_11
.LBB60_29:
	mv	a2, s6
.LBB60_30:
	li	a0, 1
	sb	a0, 0(s1)
	mv	s4, s0
.LBB60_31:
	sw	s4, 0(a2)
	li	a0, 36
.LBB60_32:
	lw	ra, 28(sp)
	lw	s0, 24(sp)
	lw	s1, 20(sp)
	lw	s2, 16(sp)
	lw	s3, 12(sp)
	lw	s4, 8(sp)
	lw	s5, 4(sp)
	lw	s6, 0(sp)
	.cfi_restore ra
	.cfi_restore s0
	.cfi_restore s1
	.cfi_restore s2
	.cfi_restore s3
	.cfi_restore s4
	.cfi_restore s5
	.cfi_restore s6
	addi	sp, sp, 32
	.cfi_def_cfa_offset 0
.LBB60_33:
	ret
.LBB60_34:
	.cfi_restore_state
	li	a3, 32
.LBB60_35:
	slli	a1, a1, 4
	j	.LBB60_11
.LBB60_36:
	mv	a0, s2
	mv	a1, s4
	call	tlsf_heap.check.examine
	mv	a2, s6
	zext.b	a0, a0
	li	a1, 1
	sb	a1, 0(s1)
	bne	a0, a1, .LBB60_31
	li	a0, 0
	j	.LBB60_32
.Lfunc_end60:
	.size	tlsf_check_request, .Lfunc_end60-tlsf_check_request
	.cfi_endproc
	.section	.text.tlsf_close,"ax",@progbits
	.globl	tlsf_close
	.p2align	1
	.type	tlsf_close,@function
tlsf_close:
	.cfi_startproc
	lbu	a2, 8(a0)
	li	a1, 32
	beqz	a2, .LBB61_8
	addi	sp, sp, -48
	.cfi_def_cfa_offset 48
	sw	ra, 44(sp)
	sw	s0, 40(sp)
	sw	s1, 36(sp)
	sw	s2, 32(sp)
	sw	s3, 28(sp)
	sw	s4, 24(sp)
	sw	s5, 20(sp)
	sw	s6, 16(sp)
	sw	s7, 12(sp)
	sw	s8, 8(sp)
	sw	s9, 4(sp)
	.cfi_offset ra, -4
	.cfi_offset s0, -8
	.cfi_offset s1, -12
	.cfi_offset s2, -16
	.cfi_offset s3, -20
	.cfi_offset s4, -24
	.cfi_offset s5, -28
	.cfi_offset s6, -32
	.cfi_offset s7, -36
	.cfi_offset s8, -40
	.cfi_offset s9, -44
	lw	a2, 0(a0)
	lbu	a3, 0(a2)
	beqz	a3, .LBB61_7
	sb	zero, 8(a0)
	sb	zero, 0(a2)
	sb	zero, 4(a0)
	sb	zero, 5(a0)
	sb	zero, 6(a0)
	sb	zero, 7(a0)
	lbu	a1, 0(a0)
	lbu	a2, 1(a0)
	lbu	a3, 2(a0)
	lbu	a4, 3(a0)
	sb	zero, 0(a0)
	sb	zero, 1(a0)
	sb	zero, 2(a0)
	sb	zero, 3(a0)
	slli	a2, a2, 8
	slli	a3, a3, 16
	slli	a4, a4, 24
	or	a1, a1, a2
	or	a0, a4, a3
	or	a0, a0, a1
	lbu	s5, 16(a0)
	lbu	t0, 48(a0)
	lbu	a2, 49(a0)
	lbu	a3, 50(a0)
	lbu	a6, 67(a0)
	lbu	t1, 68(a0)
	lbu	s1, 69(a0)
	lbu	t2, 70(a0)
	lbu	a4, 51(a0)
	lbu	a7, 64(a0)
	lbu	t4, 65(a0)
	lbu	t5, 66(a0)
	lbu	s0, 71(a0)
	lbu	s2, 72(a0)
	lbu	s4, 73(a0)
	lbu	s3, 74(a0)
	slli	a2, a2, 8
	slli	a3, a3, 16
	slli	a4, a4, 24
	or	t0, a2, t0
	or	t3, a4, a3
	lbu	t6, 91(a0)
	lbu	a2, 92(a0)
	lbu	a3, 93(a0)
	lbu	s7, 94(a0)
	slli	s1, s1, 8
	or	t1, s1, t1
	lbu	a5, 95(a0)
	slli	t2, t2, 16
	slli	s0, s0, 24
	slli	t4, t4, 8
	slli	t5, t5, 16
	slli	a6, a6, 24
	slli	a3, a3, 8
	or	s1, s0, t2
	or	a7, t4, a7
	or	s0, a6, t5
	or	a2, a2, a3
	lbu	s6, 75(a0)
	lbu	a3, 88(a0)
	lbu	a1, 89(a0)
	lbu	a4, 90(a0)
	slli	s7, s7, 16
	slli	a5, a5, 24
	or	a5, a5, s7
	slli	a1, a1, 8
	or	a1, a1, a3
	slli	a4, a4, 16
	slli	t6, t6, 24
	or	a3, t6, a4
	or	s7, t3, t0
	or	s1, s1, t1
	or	s0, s0, a7
	or	s8, a5, a2
	or	s9, a3, a1
	call	tlsf_memory_dealloc
	or	s0, s0, s1
	beqz	s0, .LBB61_4
	mv	a0, s7
	call	tlsf_memory_dealloc
.LBB61_4:
	or	a0, s9, s8
	beqz	a0, .LBB61_6
	slli	s4, s4, 8
	slli	s3, s3, 16
	slli	s6, s6, 24
	or	a0, s4, s2
	or	a1, s6, s3
	or	a0, a0, a1
	call	tlsf_memory_dealloc
.LBB61_6:
	li	a1, 0
.LBB61_7:
	lw	ra, 44(sp)
	lw	s0, 40(sp)
	lw	s1, 36(sp)
	lw	s2, 32(sp)
	lw	s3, 28(sp)
	lw	s4, 24(sp)
	lw	s5, 20(sp)
	lw	s6, 16(sp)
	lw	s7, 12(sp)
	lw	s8, 8(sp)
	lw	s9, 4(sp)
	.cfi_restore ra
	.cfi_restore s0
	.cfi_restore s1
	.cfi_restore s2
	.cfi_restore s3
	.cfi_restore s4
	.cfi_restore s5
	.cfi_restore s6
	.cfi_restore s7
	.cfi_restore s8
	.cfi_restore s9
	addi	sp, sp, 48
	.cfi_def_cfa_offset 0
.LBB61_8:
	mv	a0, a1
	ret
.Lfunc_end61:
	.size	tlsf_close, .Lfunc_end61-tlsf_close
	.cfi_endproc
	.section	.text.tlsf_counts,"ax",@progbits
	.globl	tlsf_counts
	.p2align	1
	.type	tlsf_counts,@function
tlsf_counts:
	.cfi_startproc
	lbu	a2, 8(a0)
	beqz	a2, .LBB62_3
	lw	a0, 0(a0)
	lbu	a2, 0(a0)
	beqz	a2, .LBB62_3
	lw	a2, 40(a0)
	lw	a3, 8(a0)
	lw	a4, 12(a0)
	lw	a0, 44(a0)
	srli	a6, a2, 24
	srli	a7, a2, 16
	srli	t2, a2, 8
	srli	t0, a0, 24
	srli	t1, a0, 16
	srli	t5, a0, 8
	srli	t3, a3, 24
	srli	t4, a3, 16
	srli	a5, a3, 8
	srli	t6, a4, 24
	sb	a2, 0(a1)
	sb	t2, 1(a1)
	sb	a7, 2(a1)
	sb	a6, 3(a1)
	srli	a2, a4, 16
	sb	a0, 4(a1)
	sb	t5, 5(a1)
	sb	t1, 6(a1)
	sb	t0, 7(a1)
	srli	a0, a4, 8
	sb	a3, 8(a1)
	sb	a5, 9(a1)
	sb	t4, 10(a1)
	sb	t3, 11(a1)
	sb	a4, 12(a1)
	sb	a0, 13(a1)
	sb	a2, 14(a1)
	sb	t6, 15(a1)
	li	a0, 0
	ret
.LBB62_3:
	li	a0, 0
	tail	tlsf_c.call_fault.CallFault.refusal
.Lfunc_end62:
	.size	tlsf_counts, .Lfunc_end62-tlsf_counts
	.cfi_endproc
	.section	.text.tlsf_drain,"ax",@progbits
	.globl	tlsf_drain
	.p2align	1
	.type	tlsf_drain,@function
tlsf_drain:
	.cfi_startproc
	addi	sp, sp, -832
	.cfi_def_cfa_offset 832
	sw	ra, 828(sp)
	sw	s0, 824(sp)
	sw	s1, 820(sp)
	sw	s2, 816(sp)
	sw	s3, 812(sp)
	sw	s4, 808(sp)
	sw	s5, 804(sp)
	sw	s6, 800(sp)
	sw	s7, 796(sp)
	sw	s8, 792(sp)
	sw	s9, 788(sp)
	sw	s10, 784(sp)
	sw	s11, 780(sp)
	.cfi_offset ra, -4
	.cfi_offset s0, -8
	.cfi_offset s1, -12
	.cfi_offset s2, -16
	.cfi_offset s3, -20
	.cfi_offset s4, -24
	.cfi_offset s5, -28
	.cfi_offset s6, -32
	.cfi_offset s7, -36
	.cfi_offset s8, -40
	.cfi_offset s9, -44
	.cfi_offset s10, -48
	.cfi_offset s11, -52
	.cfi_remember_state
	mv	s6, a0
	lbu	a0, 8(a0)
	beqz	a0, .LBB63_17
	lw	a0, 0(s6)
	lbu	a0, 0(a0)
	beqz	a0, .LBB63_17
	lbu	a0, 8(a1)
	beqz	a0, .LBB63_17
	lw	s7, 0(a1)
	lbu	a0, 1(s7)
	beqz	a0, .LBB63_17
	lbu	a0, 0(s7)
	li	a1, 1
	bne	a0, a1, .LBB63_19
	mv	s2, a3
	mv	s5, a2
	sb	zero, 1(s7)
	addi	a0, sp, 8
	li	a2, 768
	addi	s9, sp, 8
	li	a1, 0
	call	tlsf_memory_set
	li	s8, 0
	beqz	s5, .LBB63_16
	addi	s3, s7, 8
.LBB63_7:
	li	a0, 32
	mv	s4, s5
	bltu	s5, a0, .LBB63_9
	li	s4, 32
.LBB63_9:
	addi	a1, sp, 8
	mv	a0, s3
	mv	a2, s4
	li	a3, 0
	call	tlsf_post.take_end.TakeEnd.take_slice
	mv	s10, a0
	mv	s11, a1
	or	a0, a0, a1
	beqz	a0, .LBB63_14
	li	s1, 0
	li	s0, 0
	j	.LBB63_12
.LBB63_11:
	sltu	a0, s0, s11
	beqz	a0, .LBB63_14
.LBB63_12:
	slli	a0, s1, 3
	slli	a1, s1, 4
	add	a0, a0, a1
	add	a0, a0, s9
	lw	a1, 8(a0)
	lw	a4, 12(a0)
	lw	a2, 16(a0)
	lw	a3, 20(a0)
	mv	a0, s6
	call	tlsf_c.heap_calls.release_named
	addi	s1, s1, 1
	seqz	a0, s1
	add	s0, s0, a0
	bne	s0, s11, .LBB63_11
	sltu	a0, s1, s10
	bnez	a0, .LBB63_12
.LBB63_14:
	sltu	a0, s10, s4
	seqz	a1, s11
	and	a0, a0, a1
	add	s8, s8, s10
	bnez	a0, .LBB63_16
	sub	s5, s5, s10
	bnez	s5, .LBB63_7
.LBB63_16:
	sw	s8, 0(s2)
	li	a0, 1
	sb	a0, 1(s7)
	li	a0, 0
	lw	ra, 828(sp)
	lw	s0, 824(sp)
	lw	s1, 820(sp)
	lw	s2, 816(sp)
	lw	s3, 812(sp)
	lw	s4, 808(sp)
	lw	s5, 804(sp)
	lw	s6, 800(sp)
	lw	s7, 796(sp)
	lw	s8, 792(sp)
	lw	s9, 788(sp)
	lw	s10, 784(sp)
	lw	s11, 780(sp)
	.cfi_restore ra
	.cfi_restore s0
	.cfi_restore s1
	.cfi_restore s2
	.cfi_restore s3
	.cfi_restore s4
	.cfi_restore s5
	.cfi_restore s6
	.cfi_restore s7
	.cfi_restore s8
	.cfi_restore s9
	.cfi_restore s10
	.cfi_restore s11
	addi	sp, sp, 832
	.cfi_def_cfa_offset 0
	ret
.LBB63_17:
	.cfi_restore_state
	.cfi_remember_state
	li	a0, 0
.LBB63_18:
	lw	ra, 828(sp)
	lw	s0, 824(sp)
	lw	s1, 820(sp)
	lw	s2, 816(sp)
	lw	s3, 812(sp)
	lw	s4, 808(sp)
	lw	s5, 804(sp)
	lw	s6, 800(sp)
	lw	s7, 796(sp)
	lw	s8, 792(sp)
	lw	s9, 788(sp)
	lw	s10, 784(sp)
	lw	s11, 780(sp)
	.cfi_restore ra
	.cfi_restore s0
	.cfi_restore s1
	.cfi_restore s2
	.cfi_restore s3
	.cfi_restore s4
	.cfi_restore s5
	.cfi_restore s6
	.cfi_restore s7
	.cfi_restore s8
	.cfi_restore s9
	.cfi_restore s10
	.cfi_restore s11
	addi	sp, sp, 832
	.cfi_def_cfa_offset 0
	tail	tlsf_c.call_fault.CallFault.refusal
.LBB63_19:
	.cfi_restore_state
	li	a0, 2
	j	.LBB63_18
.Lfunc_end63:
	.size	tlsf_drain, .Lfunc_end63-tlsf_drain
	.cfi_endproc
	.section	.text.tlsf_lane_open,"ax",@progbits
	.globl	tlsf_lane_open
	.p2align	1
	.type	tlsf_lane_open,@function
tlsf_lane_open:
	.cfi_startproc
	addi	sp, sp, -176
	.cfi_def_cfa_offset 176
	sw	ra, 172(sp)
	sw	s0, 168(sp)
	sw	s1, 164(sp)
	sw	s2, 160(sp)
	sw	s3, 156(sp)
	sw	s4, 152(sp)
	sw	s5, 148(sp)
	sw	s6, 144(sp)
	.cfi_offset ra, -4
	.cfi_offset s0, -8
	.cfi_offset s1, -12
	.cfi_offset s2, -16
	.cfi_offset s3, -20
	.cfi_offset s4, -24
	.cfi_offset s5, -28
	.cfi_offset s6, -32
	mv	s1, a2
	mv	s3, a1
	mv	s0, a0
	addi	a0, sp, 72
	li	a2, 56
	li	a1, 0
	call	tlsf_memory_set
	addi	a0, sp, 24
	li	a2, 48
	li	a1, 0
	call	tlsf_memory_set
	lbu	a1, 8(s0)
	sw	zero, 0(sp)
	sw	zero, 4(sp)
	sw	zero, 8(sp)
	sw	zero, 12(sp)
	sw	zero, 16(sp)
	sw	zero, 20(sp)
	li	a0, 33
	bnez	a1, .LBB64_25
	lbu	a1, 8(s3)
	bnez	a1, .LBB64_25
	addi	a0, s1, -1025
	li	a1, -1024
	bgeu	a0, a1, .LBB64_4
	li	a0, 5
	j	.LBB64_25
.LBB64_4:
	addi	a0, sp, 128
	li	a1, 384
	li	a2, 8
	call	tlsf_memory_alloc
	lw	a0, 128(sp)
	andi	a1, a0, 1
	li	a0, 6
	beqz	a1, .LBB64_25
	lw	s4, 136(sp)
	slli	a1, s1, 3
	slli	a0, s1, 4
	add	a1, a1, a0
	addi	a0, sp, 128
	li	a2, 8
	call	tlsf_memory_alloc
	lw	a0, 128(sp)
	andi	a0, a0, 1
	beqz	a0, .LBB64_11
	lw	s5, 136(sp)
	sw	zero, 0(s4)
	sw	zero, 4(s4)
	sw	zero, 128(s4)
	sw	zero, 132(s4)
	sw	zero, 256(s4)
	sw	zero, 260(s4)
	addi	a0, sp, 128
	li	a1, 48
	li	a2, 8
	call	tlsf_memory_alloc
	lw	a0, 128(sp)
	andi	a0, a0, 1
	beqz	a0, .LBB64_12
	lw	s2, 136(sp)
	li	s6, 1
	srli	a6, s4, 24
	srli	a1, s4, 16
	srli	a2, s4, 8
	srli	a3, s5, 24
	srli	a4, s5, 16
	srli	a5, s5, 8
	srli	a0, s1, 24
	sb	zero, 0(s2)
	sb	s6, 1(s2)
	sb	s4, 8(s2)
	sb	a2, 9(s2)
	srli	a2, s1, 16
	sb	zero, 14(s2)
	sb	zero, 15(s2)
	sb	s5, 16(s2)
	sb	a5, 17(s2)
	srli	a5, s1, 8
	sb	a1, 10(s2)
	sb	a6, 11(s2)
	sb	zero, 12(s2)
	sb	zero, 13(s2)
	sb	a4, 18(s2)
	sb	a3, 19(s2)
	sb	zero, 20(s2)
	sb	zero, 21(s2)
	sb	zero, 30(s2)
	sb	zero, 31(s2)
	sb	a2, 26(s2)
	sb	a0, 27(s2)
	sb	zero, 28(s2)
	sb	zero, 29(s2)
	sb	zero, 22(s2)
	sb	zero, 23(s2)
	sb	s1, 24(s2)
	sb	a5, 25(s2)
	addi	a0, s2, 32
	li	a2, 16
	li	a1, 0
	call	tlsf_memory_set
	li	a0, 257
	sw	zero, 44(sp)
	sw	s1, 48(sp)
	sw	zero, 52(sp)
	sw	zero, 56(sp)
	sh	a0, 24(sp)
	sw	s4, 32(sp)
	sw	zero, 36(sp)
	sw	s5, 40(sp)
	sw	zero, 60(sp)
	sw	zero, 64(sp)
	sw	zero, 68(sp)
	addi	a0, sp, 72
	addi	a1, sp, 24
	call	std_alloc.boxed.Box.new.91a8e04f462e8cea
	lbu	a0, 72(sp)
	beqz	a0, .LBB64_16
	lbu	a0, 80(sp)
	lw	s0, 88(sp)
	lw	s1, 104(sp)
	lw	s3, 108(sp)
	blt	s6, a0, .LBB64_17
	lw	s4, 96(sp)
	bnez	a0, .LBB64_19
	addi	a0, s0, 256
	li	a1, 1
	li	a3, 5
	li	a2, 0
	call	__atomic_exchange_8
	j	.LBB64_20
.LBB64_11:
	mv	a0, s4
	call	tlsf_memory_dealloc
	j	.LBB64_24
.LBB64_12:
	addi	s0, s4, 256
	li	a1, 1
	li	a3, 5
	mv	a0, s0
	li	a2, 0
	call	__atomic_exchange_8
	or	a0, a0, a1
	beqz	a0, .LBB64_14
	mv	a0, s4
	mv	a1, s5
	mv	a2, s1
	li	a3, 0
	call	rtrb.release.drop_slow.23d795680250cb0d
.LBB64_14:
	li	a1, 1
	li	a3, 5
	mv	a0, s0
	li	a2, 0
	call	__atomic_exchange_8
	or	a0, a0, a1
	beqz	a0, .LBB64_24
	mv	a0, s4
	mv	a1, s5
	mv	a2, s1
	li	a3, 0
	call	rtrb.release.drop_slow.23d795680250cb0d
	j	.LBB64_24
.LBB64_16:
	lw	a1, 80(sp)
	srli	a2, s2, 24
	srli	a3, s2, 16
	srli	a4, s2, 8
	sb	zero, 4(s0)
	sb	zero, 5(s0)
	sb	zero, 6(s0)
	sb	zero, 7(s0)
	sb	s6, 8(s0)
	sb	zero, 9(s0)
	sb	zero, 10(s0)
	sb	zero, 11(s0)
	sb	zero, 12(s0)
	sb	zero, 13(s0)
	sb	zero, 14(s0)
	sb	zero, 15(s0)
	sb	s2, 0(s0)
	sb	a4, 1(s0)
	sb	a3, 2(s0)
	sb	a2, 3(s0)
	sb	zero, 4(s3)
	sb	zero, 5(s3)
	sb	zero, 6(s3)
	sb	zero, 7(s3)
	sb	s6, 8(s3)
	sb	zero, 9(s3)
	sb	zero, 10(s3)
	sb	zero, 11(s3)
	srli	a2, a1, 16
	srli	a3, a1, 24
	srli	a4, a1, 8
	sb	a1, 0(s3)
	sb	a4, 1(s3)
	sb	a2, 2(s3)
	sb	a3, 3(s3)
	sb	zero, 12(s3)
	sb	zero, 13(s3)
	sb	zero, 14(s3)
	sb	zero, 15(s3)
	j	.LBB64_25
.LBB64_17:
	li	a1, 2
	bne	a0, a1, .LBB64_22
	mv	a0, s0
	call	std_alloc.arc.Arc.drop.c4a047e811255370
	lw	a0, 112(sp)
	lw	a1, 116(sp)
	lw	a2, 120(sp)
	lw	a3, 124(sp)
	sw	s1, 0(sp)
	sw	s3, 4(sp)
	sw	a0, 8(sp)
	sw	a1, 12(sp)
	sw	a2, 16(sp)
	sw	a3, 20(sp)
	mv	a0, sp
	call	std_alloc.vec.Vec.drop.7ac45d8413b9ad54
	j	.LBB64_23
.LBB64_19:
	addi	a0, s0, 256
	li	a1, 1
	li	a3, 5
	li	a2, 0
	call	__atomic_exchange_8
.LBB64_20:
	or	a0, a0, a1
	beqz	a0, .LBB64_23
	mv	a0, s0
	mv	a1, s4
	mv	a2, s1
	mv	a3, s3
	call	rtrb.release.drop_slow.23d795680250cb0d
	j	.LBB64_23
.LBB64_22:
	mv	a0, s0
	call	std_alloc.arc.Arc.drop.c4a047e811255370
.LBB64_23:
	mv	a0, s2
	call	std_alloc.boxed.Box.drop.7d8ec8058c3633cd
.LBB64_24:
	li	a0, 6
.LBB64_25:
	lw	ra, 172(sp)
	lw	s0, 168(sp)
	lw	s1, 164(sp)
	lw	s2, 160(sp)
	lw	s3, 156(sp)
	lw	s4, 152(sp)
	lw	s5, 148(sp)
	lw	s6, 144(sp)
	.cfi_restore ra
	.cfi_restore s0
	.cfi_restore s1
	.cfi_restore s2
	.cfi_restore s3
	.cfi_restore s4
	.cfi_restore s5
	.cfi_restore s6
	addi	sp, sp, 176
	.cfi_def_cfa_offset 0
	ret
.Lfunc_end64:
	.size	tlsf_lane_open, .Lfunc_end64-tlsf_lane_open
	.cfi_endproc
	.section	.text.tlsf_locate,"ax",@progbits
	.globl	tlsf_locate
	.p2align	1
	.type	tlsf_locate,@function
tlsf_locate:
	.cfi_startproc
	addi	sp, sp, -16
	.cfi_def_cfa_offset 16
	sw	ra, 12(sp)
	sw	s0, 8(sp)
	sw	s1, 4(sp)
	sw	s2, 0(sp)
	.cfi_offset ra, -4
	.cfi_offset s0, -8
	.cfi_offset s1, -12
	.cfi_offset s2, -16
	lbu	a4, 8(a0)
	lw	s2, 0(a2)
	beqz	a4, .LBB65_11
	lw	s1, 0(a0)
	lbu	a0, 0(s1)
	beqz	a0, .LBB65_11
	lw	a0, 0(a1)
	lw	a4, 4(a1)
	lw	a6, 8(a1)
	lw	a7, 12(a1)
	lbu	a5, 16(s1)
	lw	a1, 24(s1)
	sb	zero, 0(s1)
	bne	a1, a0, .LBB65_10
	lw	a5, 56(s1)
	mv	a1, a0
	bgeu	a4, a5, .LBB65_10
	lw	a5, 72(s1)
	srli	a1, a4, 3
	andi	a1, a1, -8
	add	a5, a5, a1
	lw	t0, 4(a5)
	andi	a1, a4, 63
	addi	s0, a1, -32
	bltz	s0, .LBB65_6
	srl	a1, t0, a1
	andi	a5, a1, 1
	mv	a1, a0
	bnez	a5, .LBB65_7
	j	.LBB65_10
.LBB65_6:
	lw	a5, 0(a5)
	slli	t0, t0, 1
	not	a1, a1
	srl	a5, a5, a4
	sll	a1, t0, a1
	or	a1, a1, a5
	andi	a5, a1, 1
	mv	a1, a0
	beqz	a5, .LBB65_10
.LBB65_7:
	lw	s0, 48(s1)
	slli	a4, a4, 3
	add	a4, a4, s0
	lbu	a1, 0(a4)
	andi	a5, a1, 1
	mv	a1, a0
	bnez	a5, .LBB65_10
	lw	a1, 12(a4)
	lw	a5, 8(a4)
	xor	a1, a1, a7
	xor	a5, a5, a6
	or	a5, a5, a1
	mv	a1, a0
	bnez	a5, .LBB65_10
	li	a0, 0
	lw	a1, 16(a4)
	li	a4, 1
	sb	a4, 0(s1)
	sw	a1, 0(a3)
	mv	s2, s0
	j	.LBB65_12
.LBB65_10:
	mv	s0, a2
	call	tlsf_heap.refusal.Refusal.of_name
	mv	a2, s0
	zext.b	a0, a0
	li	a1, 1
	sb	a1, 0(s1)
	addi	a0, a0, -3
	seqz	a0, a0
	addi	a0, a0, 3
	j	.LBB65_12
.LBB65_11:
	li	a0, 0
	mv	s0, a2
	call	tlsf_c.call_fault.CallFault.refusal
	mv	a2, s0
.LBB65_12:
	sw	s2, 0(a2)
	lw	ra, 12(sp)
	lw	s0, 8(sp)
	lw	s1, 4(sp)
	lw	s2, 0(sp)
	.cfi_restore ra
	.cfi_restore s0
	.cfi_restore s1
	.cfi_restore s2
	addi	sp, sp, 16
	.cfi_def_cfa_offset 0
	ret
.Lfunc_end65:
	.size	tlsf_locate, .Lfunc_end65-tlsf_locate
	.cfi_endproc
	.section	.rodata.cst32,"aM",@progbits,32
.LCPI66_0:
	.ascii	"\000\001\034\002\035\016\030\003\036\026\024\017\031\021\004\b\037\033\r\027\025\023\020\007\032\f\022\006\013\005\n\t"
	.section	.text.tlsf_offsets_allocate,"ax",@progbits
	.globl	tlsf_offsets_allocate
	.p2align	1
	.type	tlsf_offsets_allocate,@function
tlsf_offsets_allocate:
	.cfi_startproc
	addi	sp, sp, -32
	.cfi_def_cfa_offset 32
	sw	ra, 28(sp)
	sw	s0, 24(sp)
	sw	s1, 20(sp)
	sw	s2, 16(sp)
	sw	s3, 12(sp)
	sw	s4, 8(sp)
	sw	s5, 4(sp)
	sw	s6, 0(sp)
	.cfi_offset ra, -4
	.cfi_offset s0, -8
	.cfi_offset s1, -12
	.cfi_offset s2, -16
	.cfi_offset s3, -20
	.cfi_offset s4, -24
	.cfi_offset s5, -28
	.cfi_offset s6, -32
	.cfi_remember_state
	mv	s3, a2
	lbu	a2, 8(a0)
	beqz	a2, .LBB66_24
	lw	s4, 0(a0)
	lbu	a0, 1(s4)
	beqz	a0, .LBB66_24
	lbu	a0, 0(s4)
	bnez	a0, .LBB66_32
	mv	s2, a3
	mv	s1, a1
	lbu	a0, 8(s4)
	addi	s5, s4, 2047
	lw	s0, 705(s5)
	sb	zero, 1(s4)
	beqz	a0, .LBB66_9
	beqz	s0, .LBB66_68
	mv	a0, s1
	mv	a1, s3
	mv	a2, s0
	li	a3, 0
	call	__udivdi3
	mul	a2, a1, s0
	mulhu	a3, a0, s0
	mul	a4, a0, s0
	add	a2, a2, a3
	sltu	a3, s1, a4
	sub	a2, s3, a2
	sub	a2, a2, a3
	sub	s1, s1, a4
	or	a2, a2, s1
	snez	a2, a2
	add	a2, a2, a0
	sltu	a0, a2, a0
	add	a1, a1, a0
	li	a3, 4
	mv	a0, a2
	beqz	a1, .LBB66_14
	bgeu	a3, a2, .LBB66_15
.LBB66_7:
	bnez	a1, .LBB66_16
.LBB66_8:
	seqz	a0, a1
	addi	a0, a0, -1
	or	a0, a0, a2
	lui	a1, 4096
	bgeu	a1, a0, .LBB66_17
	j	.LBB66_31
.LBB66_9:
	beqz	s0, .LBB66_68
	mv	a0, s1
	mv	a1, s3
	mv	a2, s0
	li	a3, 0
	call	__udivdi3
	mul	a2, a1, s0
	mulhu	a3, a0, s0
	mul	a4, a0, s0
	add	a2, a2, a3
	sltu	a3, s1, a4
	sub	a2, s3, a2
	sub	a2, a2, a3
	sub	s1, s1, a4
	or	a2, a2, s1
	snez	a2, a2
	add	a2, a2, a0
	sltu	a0, a2, a0
	add	a1, a1, a0
	li	a3, 4
	mv	a0, a2
	beqz	a1, .LBB66_19
	bgeu	a3, a2, .LBB66_20
.LBB66_12:
	bnez	a1, .LBB66_21
.LBB66_13:
	seqz	a0, a1
	addi	a0, a0, -1
	or	t4, a0, a2
	lui	a1, 256
	bgeu	a1, t4, .LBB66_22
	j	.LBB66_31
.LBB66_14:
	li	a0, 4
	bltu	a3, a2, .LBB66_7
.LBB66_15:
	li	a2, 4
	beqz	a1, .LBB66_8
.LBB66_16:
	mv	a2, a0
	seqz	a0, a1
	addi	a0, a0, -1
	or	a0, a0, a2
	lui	a1, 4096
	bltu	a1, a0, .LBB66_31
.LBB66_17:
	ori	a1, a0, 32
	lui	a2, 349525
	lui	a3, 209715
	lui	a4, 61681
	srli	a5, a1, 1
	addi	a2, a2, 1365
	or	a1, a1, a5
	srli	a5, a1, 2
	or	a1, a1, a5
	srli	a5, a1, 4
	or	a1, a1, a5
	srli	a5, a1, 8
	or	a1, a1, a5
	srli	a5, a1, 16
	or	a1, a1, a5
	not	a1, a1
	srli	a5, a1, 1
	and	a2, a2, a5
	lui	a5, 4112
	addi	a3, a3, 819
	sub	a1, a1, a2
	and	a2, a1, a3
	srli	a1, a1, 2
	and	a1, a1, a3
	li	a3, 26
	add	a1, a1, a2
	srli	a2, a1, 4
	add	a1, a1, a2
	addi	a2, a0, -1
	addi	a4, a4, -241
	addi	a5, a5, 257
	and	a1, a1, a4
	mul	a1, a1, a5
	srli	a1, a1, 24
	sub	a3, a3, a1
	srl	a4, a2, a3
	slli	a1, a3, 5
	add	a1, a1, a4
	addi	a2, a1, 1
	seqz	a2, a2
	srli	a3, a1, 5
	slli	a5, a2, 27
	sub	a3, a3, a5
	slli	a5, a3, 2
	add	a5, a5, s4
	lw	a5, 100(a5)
	srl	a4, a5, a4
	andi	a4, a4, -2
	beqz	a4, .LBB66_25
	neg	a3, a4
	and	a3, a3, a4
	lui	a4, 30667
	addi	a4, a4, 1329
	mul	a3, a3, a4
	lui	a4, %hi(.LCPI66_0)
	addi	a4, a4, %lo(.LCPI66_0)
	srli	a3, a3, 27
	add	a3, a3, a4
	lbu	a4, 0(a3)
	neg	a2, a2
	add	a4, a4, a1
	sltu	a1, a4, a1
	add	a1, a1, a2
	srli	a2, a4, 5
	slli	a1, a1, 27
	or	a1, a1, a2
	lw	t2, 24(s4)
	lw	t3, 28(s4)
	and	a3, t2, t3
	li	a2, -1
	bne	a3, a2, .LBB66_36
	j	.LBB66_53
.LBB66_19:
	li	a0, 4
	bltu	a3, a2, .LBB66_12
.LBB66_20:
	li	a2, 4
	beqz	a1, .LBB66_13
.LBB66_21:
	mv	a2, a0
	seqz	a0, a1
	addi	a0, a0, -1
	or	t4, a0, a2
	lui	a1, 256
	bltu	a1, t4, .LBB66_31
.LBB66_22:
	ori	a1, t4, 16
	lui	a2, 349525
	lui	a3, 209715
	lui	a4, 61681
	srli	a5, a1, 1
	addi	a2, a2, 1365
	or	a1, a1, a5
	srli	a5, a1, 2
	or	a1, a1, a5
	srli	a5, a1, 4
	or	a1, a1, a5
	srli	a5, a1, 8
	or	a1, a1, a5
	srli	a5, a1, 16
	or	a1, a1, a5
	not	a1, a1
	srli	a5, a1, 1
	and	a2, a2, a5
	lui	a5, 4112
	addi	a3, a3, 819
	sub	a1, a1, a2
	and	a2, a1, a3
	srli	a1, a1, 2
	and	a1, a1, a3
	li	a3, 27
	add	a1, a1, a2
	srli	a2, a1, 4
	add	a1, a1, a2
	addi	a2, t4, -1
	addi	a4, a4, -241
	addi	a5, a5, 257
	and	a1, a1, a4
	mul	a1, a1, a5
	srli	a1, a1, 24
	sub	a3, a3, a1
	srl	a4, a2, a3
	slli	a1, a3, 4
	add	a1, a1, a4
	addi	a2, a1, 1
	seqz	a2, a2
	srli	a3, a1, 4
	slli	a5, a2, 28
	sub	a3, a3, a5
	slli	a5, a3, 2
	add	a5, a5, s4
	lw	a5, 100(a5)
	andi	a4, a4, 15
	srl	a4, a5, a4
	andi	a4, a4, -2
	beqz	a4, .LBB66_28
	neg	a3, a4
	and	a3, a3, a4
	lui	a4, 30667
	addi	a4, a4, 1329
	mul	a3, a3, a4
	lui	a4, %hi(.LCPI66_0)
	addi	a4, a4, %lo(.LCPI66_0)
	srli	a3, a3, 27
	add	a3, a3, a4
	lbu	a4, 0(a3)
	neg	a2, a2
	add	a4, a4, a1
	sltu	a1, a4, a1
	add	a1, a1, a2
	srli	a2, a4, 4
	slli	a1, a1, 28
	or	a1, a1, a2
	lw	t2, 24(s4)
	lw	t3, 28(s4)
	and	a3, t2, t3
	li	a2, -1
	bne	a3, a2, .LBB66_51
	j	.LBB66_53
.LBB66_24:
	li	a0, 0
	j	.LBB66_33
.LBB66_25:
	lw	a1, 96(s4)
	li	a2, -2
	sll	a2, a2, a3
	and	a1, a1, a2
	beqz	a1, .LBB66_31
	neg	a2, a1
	lui	a3, 30667
	and	a1, a1, a2
	addi	a2, a3, 1329
	mul	a1, a1, a2
	srli	a1, a1, 27
	lui	a3, %hi(.LCPI66_0)
	addi	a3, a3, %lo(.LCPI66_0)
	add	a1, a1, a3
	lbu	a1, 0(a1)
	slli	a4, a1, 2
	add	a4, a4, s4
	lw	a4, 100(a4)
	beqz	a4, .LBB66_34
	neg	a5, a4
	and	a4, a4, a5
	mul	a2, a4, a2
	srli	a2, a2, 27
	add	a2, a2, a3
	lbu	a4, 0(a2)
	j	.LBB66_35
.LBB66_28:
	lw	a1, 96(s4)
	li	a2, -2
	sll	a2, a2, a3
	and	a1, a1, a2
	beqz	a1, .LBB66_31
	neg	a2, a1
	lui	a3, 30667
	and	a1, a1, a2
	addi	a2, a3, 1329
	mul	a1, a1, a2
	srli	a1, a1, 27
	lui	a3, %hi(.LCPI66_0)
	addi	a3, a3, %lo(.LCPI66_0)
	add	a1, a1, a3
	lbu	a1, 0(a1)
	slli	a4, a1, 2
	add	a4, a4, s4
	lw	a4, 100(a4)
	beqz	a4, .LBB66_49
	neg	a5, a4
	and	a4, a4, a5
	mul	a2, a4, a2
	srli	a2, a2, 27
	add	a2, a2, a3
	lbu	a4, 0(a2)
	j	.LBB66_50
.LBB66_31:
	li	a0, 1
	sb	a0, 1(s4)
	j	.LBB66_67
.LBB66_32:
	li	a0, 2
.LBB66_33:
	lw	ra, 28(sp)
	lw	s0, 24(sp)
	lw	s1, 20(sp)
	lw	s2, 16(sp)
	lw	s3, 12(sp)
	lw	s4, 8(sp)
	lw	s5, 4(sp)
	lw	s6, 0(sp)
	.cfi_restore ra
	.cfi_restore s0
	.cfi_restore s1
	.cfi_restore s2
	.cfi_restore s3
	.cfi_restore s4
	.cfi_restore s5
	.cfi_restore s6
	addi	sp, sp, 32
	.cfi_def_cfa_offset 0
	tail	tlsf_c.call_fault.CallFault.refusal
.LBB66_34:
	.cfi_restore_state
	.cfi_remember_state
	li	a4, 32
.LBB66_35:
	slli	a1, a1, 5
	add	a4, a4, a1
	srli	a1, a4, 5
	lw	t2, 24(s4)
	lw	t3, 28(s4)
	and	a3, t2, t3
	li	a2, -1
	beq	a3, a2, .LBB66_53
.LBB66_36:
	slli	a5, a4, 2
	add	a5, a5, s4
	lw	s6, 184(a5)
	lw	a3, 40(s4)
	slli	t0, s6, 3
	add	s1, a3, t0
	lw	s0, 16(s1)
	beq	s0, a2, .LBB66_38
	slli	a1, s0, 3
	add	a1, a1, a3
	li	a2, -1
	sw	a2, 20(a1)
	lw	a3, 40(s4)
	sw	s0, 184(a5)
	j	.LBB66_40
.LBB66_38:
	li	a2, -1
	slli	s1, a1, 2
	sw	a2, 184(a5)
	add	s1, s1, s4
	lw	a5, 100(s1)
	li	a2, 1
	sll	a4, a2, a4
	not	a4, a4
	and	a4, a4, a5
	sw	a4, 100(s1)
	bnez	a4, .LBB66_40
	lw	a4, 96(s4)
	sll	a1, a2, a1
	not	a1, a1
	and	a1, a1, a4
	sw	a1, 96(s4)
.LBB66_40:
	add	a4, a3, t0
	lw	a2, 0(a4)
	slli	a1, a0, 2
	lw	s0, 4(a4)
	sub	a1, a2, a1
	li	a5, 15
	bltu	a5, a1, .LBB66_42
	seqz	a0, a2
	addi	a2, a2, -1
	sw	zero, 16(a4)
	sw	zero, 20(a4)
	sub	s0, s0, a0
	sw	a2, 0(a4)
	sw	s0, 4(a4)
	sw	t2, 8(a4)
	sw	t3, 12(a4)
	srli	a0, a2, 2
	lw	a1, 32(s4)
	lw	a2, 36(s4)
	add	a0, a0, a1
	sw	a0, 32(s4)
	bltu	a2, a0, .LBB66_46
	j	.LBB66_47
.LBB66_42:
	srli	a6, a1, 2
	add	t5, s6, a0
	sltu	s1, a2, a1
	sub	t4, a2, a1
	sw	zero, 16(a4)
	sw	zero, 20(a4)
	li	t1, 1
	andi	t6, a1, 2
	sub	s0, s0, s1
	slli	a7, t5, 3
	srli	a5, t5, 3
	andi	s1, t5, 63
	sll	a2, t1, t5
	sw	t4, 0(a4)
	sw	s0, 4(a4)
	sw	t2, 8(a4)
	sw	t3, 12(a4)
	add	a3, a3, a7
	andi	a5, a5, -8
	sll	a4, t1, s1
	addi	s1, s1, -32
	sw	a1, 0(a3)
	sw	s6, 4(a3)
	sw	t2, 8(a3)
	sw	t3, 12(a3)
	lw	a1, 64(s4)
	srli	a3, s1, 31
	srai	s1, s1, 31
	addi	a3, a3, -1
	add	a1, a1, a5
	lw	a5, 0(a1)
	lw	s0, 4(a1)
	and	a2, a2, s1
	and	a3, a3, a4
	or	a2, a2, a5
	or	a3, a3, s0
	sw	a2, 0(a1)
	sw	a3, 4(a1)
	bnez	t6, .LBB66_44
	lw	a1, 40(s4)
	add	a2, a6, t5
	slli	a2, a2, 3
	add	a1, a1, a2
	sw	t5, 4(a1)
.LBB66_44:
	ori	a1, a6, 32
	lui	a2, 349525
	srli	a3, a1, 1
	addi	a2, a2, 1365
	or	a1, a1, a3
	srli	a3, a1, 2
	or	a1, a1, a3
	srli	a3, a1, 4
	or	a1, a1, a3
	srli	a3, a1, 8
	or	a1, a1, a3
	srli	a3, a1, 16
	or	a1, a1, a3
	not	a1, a1
	srli	a3, a1, 1
	and	a2, a2, a3
	lui	a3, 209715
	addi	a3, a3, 819
	sub	a1, a1, a2
	and	a2, a1, a3
	srli	a1, a1, 2
	and	a1, a1, a3
	lui	a3, 61681
	add	a1, a1, a2
	srli	a2, a1, 4
	add	a1, a1, a2
	lui	a2, 4112
	addi	a3, a3, -241
	and	a1, a1, a3
	li	a3, 26
	addi	a2, a2, 257
	mul	a1, a1, a2
	srli	a1, a1, 24
	sub	a3, a3, a1
	srl	a1, a6, a3
	slli	a2, a3, 5
	add	a2, a2, a1
	slli	a3, a2, 2
	add	a3, a3, s4
	lw	s1, 184(a3)
	sw	t5, 184(a3)
	lw	a4, 40(s4)
	bltz	s1, .LBB66_48
	add	a7, a7, a4
	li	a1, -1
	slli	a2, s1, 3
	sw	s1, 16(a7)
	sw	a1, 20(a7)
	add	a2, a2, a4
	sw	t5, 20(a2)
	lw	a1, 32(s4)
	lw	a2, 36(s4)
	add	a0, a0, a1
	sw	a0, 32(s4)
	bgeu	a2, a0, .LBB66_47
.LBB66_46:
	sw	a0, 36(s4)
.LBB66_47:
	lw	a0, 24(s4)
	lw	a5, 16(s4)
	lw	a1, 28(s4)
	lw	a2, 40(s4)
	addi	a0, a0, 1
	seqz	a3, a0
	add	a1, a1, a3
	j	.LBB66_66
.LBB66_48:
	add	a4, a4, a7
	li	a3, -1
	srli	a2, a2, 5
	li	a5, 1
	sw	a3, 16(a4)
	sw	a3, 20(a4)
	slli	a3, a2, 2
	add	a3, a3, s4
	lw	a4, 96(s4)
	lw	s1, 100(a3)
	sll	a2, a5, a2
	sll	a1, a5, a1
	or	a2, a2, a4
	or	a1, a1, s1
	sw	a2, 96(s4)
	sw	a1, 100(a3)
	lw	a1, 32(s4)
	lw	a2, 36(s4)
	add	a0, a0, a1
	sw	a0, 32(s4)
	bltu	a2, a0, .LBB66_46
	j	.LBB66_47
.LBB66_49:
	li	a4, 32
.LBB66_50:
	slli	a1, a1, 4
	add	a4, a4, a1
	srli	a1, a4, 4
	lw	t2, 24(s4)
	lw	t3, 28(s4)
	and	a3, t2, t3
	li	a2, -1
	beq	a3, a2, .LBB66_53
.LBB66_51:
	slli	a5, a4, 2
	add	a5, a5, s4
	lw	s6, 184(a5)
	lw	a0, 40(s4)
	slli	t0, s6, 3
	add	s1, a0, t0
	lw	s0, 16(s1)
	beq	s0, a2, .LBB66_54
	slli	a1, s0, 3
	add	a0, a0, a1
	li	a1, -1
	sw	a1, 20(a0)
	lw	a0, 40(s4)
	sw	s0, 184(a5)
	j	.LBB66_56
.LBB66_53:
	li	a0, 1
	sb	a0, 1(s4)
	li	a0, 2
	j	.LBB66_67
.LBB66_54:
	li	a2, -1
	slli	s1, a1, 2
	sw	a2, 184(a5)
	add	s1, s1, s4
	lw	a5, 100(s1)
	andi	a4, a4, 15
	li	a2, 1
	sll	a4, a2, a4
	not	a4, a4
	and	a4, a4, a5
	sw	a4, 100(s1)
	bnez	a4, .LBB66_56
	lw	a4, 96(s4)
	sll	a1, a2, a1
	not	a1, a1
	and	a1, a1, a4
	sw	a1, 96(s4)
.LBB66_56:
	add	a4, a0, t0
	lw	a1, 0(a4)
	slli	a2, t4, 2
	lw	s0, 4(a4)
	sub	a5, a1, a2
	li	a2, 15
	bltu	a2, a5, .LBB66_58
	seqz	a0, a1
	addi	a1, a1, -1
	sw	zero, 16(a4)
	sw	zero, 20(a4)
	sub	s0, s0, a0
	sw	a1, 0(a4)
	sw	s0, 4(a4)
	sw	t2, 8(a4)
	sw	t3, 12(a4)
	srli	t4, a1, 2
	j	.LBB66_63
.LBB66_58:
	srli	a6, a5, 2
	add	t1, s6, t4
	sltu	a2, a1, a5
	sub	t6, a1, a5
	sw	zero, 16(a4)
	sw	zero, 20(a4)
	li	t5, 1
	andi	s3, a5, 2
	sub	s0, s0, a2
	slli	a7, t1, 3
	srli	a2, t1, 3
	andi	a1, t1, 63
	sll	s1, t5, t1
	sw	t6, 0(a4)
	sw	s0, 4(a4)
	sw	t2, 8(a4)
	sw	t3, 12(a4)
	add	a0, a0, a7
	andi	a2, a2, -8
	sll	a4, t5, a1
	addi	a1, a1, -32
	sw	a5, 0(a0)
	sw	s6, 4(a0)
	sw	t2, 8(a0)
	sw	t3, 12(a0)
	lw	a0, 64(s4)
	srli	a5, a1, 31
	srai	a1, a1, 31
	addi	a5, a5, -1
	add	a0, a0, a2
	lw	a2, 0(a0)
	lw	s0, 4(a0)
	and	a1, a1, s1
	and	a4, a4, a5
	or	a1, a1, a2
	or	a4, a4, s0
	sw	a1, 0(a0)
	sw	a4, 4(a0)
	bnez	s3, .LBB66_60
	lw	a0, 40(s4)
	add	a1, a6, t1
	slli	a1, a1, 3
	add	a0, a0, a1
	sw	t1, 4(a0)
.LBB66_60:
	ori	a0, a6, 16
	lui	a1, 349525
	srli	a2, a0, 1
	addi	a1, a1, 1365
	or	a0, a0, a2
	srli	a2, a0, 2
	or	a0, a0, a2
	srli	a2, a0, 4
	or	a0, a0, a2
	srli	a2, a0, 8
	or	a0, a0, a2
	srli	a2, a0, 16
	or	a0, a0, a2
	not	a0, a0
	srli	a2, a0, 1
	and	a1, a1, a2
	lui	a2, 209715
	addi	a2, a2, 819
	sub	a0, a0, a1
	and	a1, a0, a2
	srli	a0, a0, 2
	and	a0, a0, a2
	lui	a2, 61681
	add	a0, a0, a1
	srli	a1, a0, 4
	add	a0, a0, a1
	lui	a1, 4112
	addi	a2, a2, -241
	and	a0, a0, a2
	li	a2, 27
	addi	a1, a1, 257
	mul	a0, a0, a1
	srli	a0, a0, 24
	sub	a2, a2, a0
	srl	a1, a6, a2
	slli	a2, a2, 4
	add	a2, a2, a1
	slli	a0, a2, 2
	add	a0, a0, s4
	lw	a5, 184(a0)
	sw	t1, 184(a0)
	lw	a4, 40(s4)
	bltz	a5, .LBB66_62
	add	a7, a7, a4
	li	a0, -1
	slli	a1, a5, 3
	sw	a5, 16(a7)
	sw	a0, 20(a7)
	add	a1, a1, a4
	sw	t1, 20(a1)
	j	.LBB66_63
.LBB66_62:
	add	a4, a4, a7
	li	a0, -1
	srli	a2, a2, 4
	li	a5, 1
	andi	a1, a1, 15
	sw	a0, 16(a4)
	sw	a0, 20(a4)
	slli	a0, a2, 2
	add	a0, a0, s4
	lw	a4, 96(s4)
	lw	s1, 100(a0)
	sll	a2, a5, a2
	sll	a1, a5, a1
	or	a2, a2, a4
	or	a1, a1, s1
	sw	a2, 96(s4)
	sw	a1, 100(a0)
.LBB66_63:
	lw	a0, 32(s4)
	lw	a1, 36(s4)
	add	a0, a0, t4
	sw	a0, 32(s4)
	bgeu	a1, a0, .LBB66_65
	sw	a0, 36(s4)
.LBB66_65:
	lw	a0, 24(s4)
	lw	a5, 16(s4)
	lw	a1, 28(s4)
	lw	a2, 40(s4)
	addi	a0, a0, 1
	seqz	a4, a0
	add	a1, a1, a4
.LBB66_66:
	add	a2, a2, t0
	sw	a0, 24(s4)
	sw	a1, 28(s4)
	sw	zero, 24(a2)
	sw	zero, 28(a2)
	lw	a0, 40(s4)
	add	t0, t0, a0
	li	a0, 0
	lw	a7, 0(t0)
	lw	a2, 705(s5)
	li	a6, 1
	srli	t0, a5, 24
	srli	t5, a5, 16
	srli	s0, a5, 8
	srli	t1, s6, 24
	srli	t6, s6, 16
	srli	a4, s6, 8
	srli	t4, t3, 24
	srli	a3, t3, 16
	sb	a6, 1(s4)
	srli	s1, t3, 8
	srli	a1, t2, 24
	sb	a5, 0(s2)
	sb	s0, 1(s2)
	sb	t5, 2(s2)
	sb	t0, 3(s2)
	srli	a5, t2, 16
	sb	s6, 4(s2)
	sb	a4, 5(s2)
	sb	t6, 6(s2)
	sb	t1, 7(s2)
	srli	a4, t2, 8
	sb	t3, 12(s2)
	sb	s1, 13(s2)
	sb	a3, 14(s2)
	sb	t4, 15(s2)
	sb	t2, 8(s2)
	sb	a4, 9(s2)
	sb	a5, 10(s2)
	sb	a1, 11(s2)
	srli	a1, a7, 2
	mul	a3, a2, s6
	mulhu	a4, a2, s6
	mul	a5, a1, a2
	mulhu	a1, a1, a2
	srli	a6, a4, 24
	srli	t0, a4, 16
	srli	s0, a4, 8
	srli	a7, a3, 24
	srli	a2, a3, 16
	srli	s1, a3, 8
	sb	a4, 20(s2)
	sb	s0, 21(s2)
	sb	t0, 22(s2)
	sb	a6, 23(s2)
	sb	a3, 16(s2)
	sb	s1, 17(s2)
	sb	a2, 18(s2)
	sb	a7, 19(s2)
	srli	a6, a1, 24
	srli	a3, a1, 16
	srli	a4, a1, 8
	srli	s1, a5, 24
	srli	s0, a5, 16
	srli	a2, a5, 8
	sb	a1, 28(s2)
	sb	a4, 29(s2)
	sb	a3, 30(s2)
	sb	a6, 31(s2)
	sb	a5, 24(s2)
	sb	a2, 25(s2)
	sb	s0, 26(s2)
	sb	s1, 27(s2)
.LBB66_67:
	lw	ra, 28(sp)
	lw	s0, 24(sp)
	lw	s1, 20(sp)
	lw	s2, 16(sp)
	lw	s3, 12(sp)
	lw	s4, 8(sp)
	lw	s5, 4(sp)
	lw	s6, 0(sp)
	.cfi_restore ra
	.cfi_restore s0
	.cfi_restore s1
	.cfi_restore s2
	.cfi_restore s3
	.cfi_restore s4
	.cfi_restore s5
	.cfi_restore s6
	addi	sp, sp, 32
	.cfi_def_cfa_offset 0
	ret
.LBB66_68:
	.cfi_restore_state
	unimp
.Lfunc_end66:
	.size	tlsf_offsets_allocate, .Lfunc_end66-tlsf_offsets_allocate
	.cfi_endproc
	.section	.text.tlsf_offsets_close,"ax",@progbits
	.globl	tlsf_offsets_close
	.p2align	1
	.type	tlsf_offsets_close,@function
tlsf_offsets_close:
	.cfi_startproc
	mv	a1, a0
	lbu	a2, 8(a0)
	li	a0, 32
	beqz	a2, .LBB67_5
	lw	a2, 0(a1)
	lbu	a3, 1(a2)
	beqz	a3, .LBB67_5
	lbu	a0, 0(a2)
	beqz	a0, .LBB67_4
	li	a0, 40
	ret
.LBB67_4:
	addi	sp, sp, -16
	.cfi_def_cfa_offset 16
	sw	ra, 12(sp)
	.cfi_offset ra, -4
	mv	a0, a1
	call	tlsf_c.arena_slot.ArenaSlot.close
	li	a0, 0
	lw	ra, 12(sp)
	.cfi_restore ra
	addi	sp, sp, 16
	.cfi_def_cfa_offset 0
.LBB67_5:
	ret
.Lfunc_end67:
	.size	tlsf_offsets_close, .Lfunc_end67-tlsf_offsets_close
	.cfi_endproc
	.section	.text.tlsf_offsets_open,"ax",@progbits
	.globl	tlsf_offsets_open
	.p2align	1
	.type	tlsf_offsets_open,@function
tlsf_offsets_open:
	.cfi_startproc
	lbu	a5, 8(a0)
	beqz	a5, .LBB68_2
	li	a0, 33
	ret
.LBB68_2:
	addi	sp, sp, -80
	.cfi_def_cfa_offset 80
	sw	ra, 76(sp)
	sw	s0, 72(sp)
	sw	s1, 68(sp)
	sw	s2, 64(sp)
	sw	s3, 60(sp)
	sw	s4, 56(sp)
	sw	s5, 52(sp)
	sw	s6, 48(sp)
	sw	s7, 44(sp)
	sw	s8, 40(sp)
	sw	s9, 36(sp)
	sw	s10, 32(sp)
	sw	s11, 28(sp)
	.cfi_offset ra, -4
	.cfi_offset s0, -8
	.cfi_offset s1, -12
	.cfi_offset s2, -16
	.cfi_offset s3, -20
	.cfi_offset s4, -24
	.cfi_offset s5, -28
	.cfi_offset s6, -32
	.cfi_offset s7, -36
	.cfi_offset s8, -40
	.cfi_offset s9, -44
	.cfi_offset s10, -48
	.cfi_offset s11, -52
	.cfi_remember_state
	addi	a5, a1, -6
	li	s1, -2
	bgeu	a5, s1, .LBB68_5
	li	a0, 34
.LBB68_4:
	lw	ra, 76(sp)
	lw	s0, 72(sp)
	lw	s1, 68(sp)
	lw	s2, 64(sp)
	lw	s3, 60(sp)
	lw	s4, 56(sp)
	lw	s5, 52(sp)
	lw	s6, 48(sp)
	lw	s7, 44(sp)
	lw	s8, 40(sp)
	lw	s9, 36(sp)
	lw	s10, 32(sp)
	lw	s11, 28(sp)
	.cfi_restore ra
	.cfi_restore s0
	.cfi_restore s1
	.cfi_restore s2
	.cfi_restore s3
	.cfi_restore s4
	.cfi_restore s5
	.cfi_restore s6
	.cfi_restore s7
	.cfi_restore s8
	.cfi_restore s9
	.cfi_restore s10
	.cfi_restore s11
	addi	sp, sp, 80
	.cfi_def_cfa_offset 0
	ret
.LBB68_5:
	.cfi_restore_state
	mv	s4, a0
	li	a0, 4
	bne	a1, a0, .LBB68_12
	li	a0, 5
	beqz	a3, .LBB68_4
	lui	s1, 1048320
	addi	a5, s1, -1
	add	a5, a5, a4
	addi	s1, s1, 3
	bltu	a5, s1, .LBB68_4
	mv	s2, a2
	mv	s8, a3
	mv	s7, a1
	mv	s3, a4
	slli	a1, a4, 3
	addi	a0, sp, 8
	li	a2, 8
	call	tlsf_memory_alloc
	lw	a0, 8(sp)
	andi	a1, a0, 1
	li	a0, 6
	beqz	a1, .LBB68_4
	lw	s1, 16(sp)
	addi	a0, s3, 63
	srli	s10, a0, 6
	sw	zero, 16(s1)
	sw	zero, 20(s1)
	sw	zero, 24(s1)
	sw	zero, 28(s1)
	sw	zero, 0(s1)
	sw	zero, 4(s1)
	sw	zero, 8(s1)
	sw	zero, 12(s1)
	slli	a1, s10, 3
	addi	a0, sp, 8
	li	a2, 8
	call	tlsf_memory_alloc
	lw	a0, 8(sp)
	andi	a0, a0, 1
	beqz	a0, .LBB68_21
	lw	s5, 16(sp)
	li	a0, 19
	li	a1, -1
	sw	zero, 0(s5)
	sw	zero, 4(s5)
	sw	a0, 0(s1)
	sw	a1, 4(s1)
	sw	zero, 8(s1)
	sw	zero, 12(s1)
	lw	a0, 0(s5)
	ori	a0, a0, 1
	sw	a0, 0(s5)
	sw	a1, 16(s1)
	sw	a1, 20(s1)
	lui	a1, 1
	addi	a0, sp, 8
	addi	a1, a1, -1336
	li	a2, 8
	call	tlsf_memory_alloc
	lw	a0, 8(sp)
	andi	a0, a0, 1
	beqz	a0, .LBB68_22
	lw	s0, 16(sp)
	li	a6, 0
	j	.LBB68_18
.LBB68_12:
	li	a0, 5
	beqz	a3, .LBB68_4
	lui	s1, 1044480
	addi	a5, s1, -1
	add	a5, a5, a4
	addi	s1, s1, 3
	bltu	a5, s1, .LBB68_4
	mv	s2, a2
	mv	s8, a3
	mv	s7, a1
	mv	s3, a4
	slli	a1, a4, 3
	addi	a0, sp, 8
	li	a2, 8
	call	tlsf_memory_alloc
	lw	a0, 8(sp)
	andi	a1, a0, 1
	li	a0, 6
	beqz	a1, .LBB68_4
	lw	s1, 16(sp)
	addi	a0, s3, 63
	srli	s10, a0, 6
	sw	zero, 16(s1)
	sw	zero, 20(s1)
	sw	zero, 24(s1)
	sw	zero, 28(s1)
	sw	zero, 0(s1)
	sw	zero, 4(s1)
	sw	zero, 8(s1)
	sw	zero, 12(s1)
	slli	a1, s10, 3
	addi	a0, sp, 8
	li	a2, 8
	call	tlsf_memory_alloc
	lw	a0, 8(sp)
	andi	a0, a0, 1
	beqz	a0, .LBB68_21
	lw	s5, 16(sp)
	li	a0, 19
	li	a1, -1
	sw	zero, 0(s5)
	sw	zero, 4(s5)
	sw	a0, 0(s1)
	sw	a1, 4(s1)
	sw	zero, 8(s1)
	sw	zero, 12(s1)
	lw	a0, 0(s5)
	ori	a0, a0, 1
	sw	a0, 0(s5)
	sw	a1, 16(s1)
	sw	a1, 20(s1)
	lui	a1, 1
	addi	a0, sp, 8
	addi	a1, a1, -1336
	li	a2, 8
	call	tlsf_memory_alloc
	lw	a0, 8(sp)
	andi	a0, a0, 1
	beqz	a0, .LBB68_22
	lw	s0, 16(sp)
	li	a6, 1
.LBB68_18:
	li	s9, -1
	li	a7, 1
	sb	zero, 10(s0)
	sb	zero, 11(s0)
	sb	zero, 12(s0)
	sb	zero, 13(s0)
	mv	a2, s2
	srli	t0, s2, 24
	srli	t1, s2, 16
	srli	t4, s2, 8
	sb	zero, 26(s0)
	sb	zero, 27(s0)
	sb	zero, 28(s0)
	sb	zero, 29(s0)
	sb	zero, 30(s0)
	sb	zero, 31(s0)
	sb	zero, 32(s0)
	sb	zero, 33(s0)
	sb	zero, 34(s0)
	sb	zero, 35(s0)
	sb	zero, 36(s0)
	sb	zero, 37(s0)
	addi	s2, s0, 40
	srli	t2, s1, 24
	srli	t3, s1, 16
	srli	a1, s1, 8
	sb	zero, 50(s0)
	sb	zero, 51(s0)
	sb	zero, 52(s0)
	sb	zero, 53(s0)
	li	s11, 4
	srli	t5, s3, 24
	srli	t6, s3, 16
	srli	a4, s3, 8
	srli	ra, s5, 24
	srli	a5, s5, 16
	srli	a3, s5, 8
	sb	zero, 74(s0)
	sb	zero, 75(s0)
	sb	zero, 76(s0)
	sb	zero, 77(s0)
	srli	a0, s10, 24
	sb	zero, 14(s0)
	sb	zero, 15(s0)
	sb	a2, 16(s0)
	sb	t4, 17(s0)
	srli	a2, s10, 16
	sb	zero, 38(s0)
	sb	zero, 39(s0)
	sb	s1, 40(s0)
	sb	a1, 41(s0)
	srli	a1, s10, 8
	sb	zero, 90(s0)
	sb	zero, 91(s0)
	sb	zero, 92(s0)
	sb	zero, 93(s0)
	sb	zero, 54(s0)
	sb	zero, 55(s0)
	sb	s3, 56(s0)
	sb	a4, 57(s0)
	addi	s6, s0, 96
	sb	zero, 102(s0)
	sb	zero, 103(s0)
	sb	zero, 62(s0)
	sb	zero, 63(s0)
	sb	s5, 64(s0)
	sb	a3, 65(s0)
	li	a3, 16
	sb	zero, 0(s0)
	sb	a7, 1(s0)
	sb	a6, 8(s0)
	sb	zero, 9(s0)
	sb	t1, 18(s0)
	sb	t0, 19(s0)
	sb	a7, 24(s0)
	sb	zero, 25(s0)
	sb	t3, 42(s0)
	sb	t2, 43(s0)
	sb	zero, 44(s0)
	sb	zero, 45(s0)
	sb	zero, 46(s0)
	sb	zero, 47(s0)
	sb	s11, 48(s0)
	sb	zero, 49(s0)
	sb	t6, 58(s0)
	sb	t5, 59(s0)
	sb	zero, 60(s0)
	sb	zero, 61(s0)
	sb	a5, 66(s0)
	sb	ra, 67(s0)
	sb	zero, 68(s0)
	sb	zero, 69(s0)
	sb	zero, 70(s0)
	sb	zero, 71(s0)
	sb	a7, 72(s0)
	sb	zero, 73(s0)
	sb	a2, 82(s0)
	sb	a0, 83(s0)
	sb	zero, 84(s0)
	sb	zero, 85(s0)
	sb	zero, 78(s0)
	sb	zero, 79(s0)
	sb	s10, 80(s0)
	sb	a1, 81(s0)
	sb	zero, 86(s0)
	sb	zero, 87(s0)
	sb	s11, 88(s0)
	sb	zero, 89(s0)
	sb	zero, 94(s0)
	sb	zero, 95(s0)
	sb	a7, 96(s0)
	sb	zero, 97(s0)
	sb	zero, 98(s0)
	sb	zero, 99(s0)
	sb	a3, 100(s0)
	sb	zero, 101(s0)
	addi	a0, s0, 104
	li	a2, 80
	li	a1, 0
	call	tlsf_memory_set
	addi	s1, s0, 184
	li	a1, 255
	li	a2, 16
	mv	a0, s1
	call	tlsf_memory_set
	sb	zero, 200(s0)
	sb	zero, 201(s0)
	sb	zero, 202(s0)
	sb	zero, 203(s0)
	addi	a0, s0, 204
	lui	a2, 1
	addi	a2, a2, -1552
	li	a1, 255
	call	tlsf_memory_set
	addi	a0, s0, 2047
	srli	a1, s8, 24
	srli	a2, s8, 16
	srli	a3, s8, 8
	sb	s8, 705(a0)
	sb	a3, 706(a0)
	sb	a2, 707(a0)
	sb	a1, 708(a0)
	mv	a0, s2
	mv	a1, s3
	call	tlsf_words.words.Words.lengthen
	sw	s9, 200(s0)
	li	a2, 88
	mv	a0, s6
	li	a1, 0
	call	tlsf_memory_set
	lw	a0, 48(s0)
	lw	a1, 40(s0)
	slli	a2, a0, 2
	addi	a2, a2, 3
	sw	a2, 0(a1)
	sw	s9, 4(a1)
	sw	zero, 8(a1)
	sw	zero, 12(a1)
	lw	a1, 64(s0)
	lw	a2, 0(a1)
	ori	a2, a2, 1
	sw	a2, 0(a1)
	bne	s7, s11, .LBB68_24
	ori	a1, a0, 16
	lui	a2, 349525
	srli	a3, a1, 1
	addi	a2, a2, 1365
	or	a1, a1, a3
	srli	a3, a1, 2
	or	a1, a1, a3
	srli	a3, a1, 4
	or	a1, a1, a3
	srli	a3, a1, 8
	or	a1, a1, a3
	srli	a3, a1, 16
	or	a1, a1, a3
	not	a1, a1
	srli	a3, a1, 1
	and	a2, a2, a3
	lui	a3, 209715
	addi	a3, a3, 819
	sub	a1, a1, a2
	and	a2, a1, a3
	srli	a1, a1, 2
	and	a1, a1, a3
	lui	a3, 61681
	add	a1, a1, a2
	srli	a2, a1, 4
	add	a1, a1, a2
	lui	a2, 4112
	addi	a3, a3, -241
	and	a1, a1, a3
	li	a3, 27
	addi	a2, a2, 257
	mul	a1, a1, a2
	srli	a1, a1, 24
	sub	a3, a3, a1
	srl	a0, a0, a3
	slli	a2, a3, 4
	add	a2, a2, a0
	slli	a1, a2, 2
	add	a1, a1, s1
	lw	a3, 0(a1)
	sw	zero, 0(a1)
	lw	a1, 0(s2)
	bgez	a3, .LBB68_25
	li	a3, -1
	srli	a2, a2, 4
	li	a4, 1
	andi	a0, a0, 15
	j	.LBB68_27
.LBB68_21:
	mv	a0, s1
	j	.LBB68_23
.LBB68_22:
	mv	a0, s1
	call	tlsf_memory_dealloc
	mv	a0, s5
.LBB68_23:
	call	tlsf_memory_dealloc
	li	a0, 6
	j	.LBB68_4
.LBB68_24:
	ori	a1, a0, 32
	lui	a2, 349525
	srli	a3, a1, 1
	addi	a2, a2, 1365
	or	a1, a1, a3
	srli	a3, a1, 2
	or	a1, a1, a3
	srli	a3, a1, 4
	or	a1, a1, a3
	srli	a3, a1, 8
	or	a1, a1, a3
	srli	a3, a1, 16
	or	a1, a1, a3
	not	a1, a1
	srli	a3, a1, 1
	and	a2, a2, a3
	lui	a3, 209715
	addi	a3, a3, 819
	sub	a1, a1, a2
	and	a2, a1, a3
	srli	a1, a1, 2
	and	a1, a1, a3
	lui	a3, 61681
	add	a1, a1, a2
	srli	a2, a1, 4
	add	a1, a1, a2
	lui	a2, 4112
	addi	a3, a3, -241
	and	a1, a1, a3
	li	a3, 26
	addi	a2, a2, 257
	mul	a1, a1, a2
	srli	a1, a1, 24
	sub	a3, a3, a1
	srl	a0, a0, a3
	slli	a2, a3, 5
	add	a2, a2, a0
	slli	a1, a2, 2
	add	a1, a1, s1
	lw	a3, 0(a1)
	sw	zero, 0(a1)
	lw	a1, 0(s2)
	bltz	a3, .LBB68_26
.LBB68_25:
	sw	a3, 16(a1)
	sw	s9, 20(a1)
	slli	a3, a3, 3
	add	a1, a1, a3
	sw	zero, 20(a1)
	j	.LBB68_28
.LBB68_26:
	li	a3, -1
	srli	a2, a2, 5
	li	a4, 1
.LBB68_27:
	sw	a3, 16(a1)
	sw	a3, 20(a1)
	slli	a1, a2, 2
	sll	a2, a4, a2
	lw	a3, 0(s6)
	add	a1, a1, s0
	lw	a5, 100(a1)
	sll	a0, a4, a0
	or	a2, a2, a3
	sw	a2, 0(s6)
	or	a0, a0, a5
	sw	a0, 100(a1)
.LBB68_28:
	li	a0, 0
	srli	a1, s0, 24
	srli	a2, s0, 16
	srli	a3, s0, 8
	sb	zero, 4(s4)
	sb	zero, 5(s4)
	sb	zero, 6(s4)
	sb	zero, 7(s4)
	sb	s0, 0(s4)
	sb	a3, 1(s4)
	sb	a2, 2(s4)
	sb	a1, 3(s4)
	li	a1, 1
	sb	a1, 8(s4)
	sb	zero, 9(s4)
	sb	zero, 10(s4)
	sb	zero, 11(s4)
	sb	zero, 12(s4)
	sb	zero, 13(s4)
	sb	zero, 14(s4)
	sb	zero, 15(s4)
	j	.LBB68_4
.Lfunc_end68:
	.size	tlsf_offsets_open, .Lfunc_end68-tlsf_offsets_open
	.cfi_endproc
	.section	.text.tlsf_offsets_release,"ax",@progbits
	.globl	tlsf_offsets_release
	.p2align	1
	.type	tlsf_offsets_release,@function
tlsf_offsets_release:
	.cfi_startproc
	addi	sp, sp, -16
	.cfi_def_cfa_offset 16
	sw	ra, 12(sp)
	sw	s0, 8(sp)
	.cfi_offset ra, -4
	.cfi_offset s0, -8
	.cfi_remember_state
	lbu	a2, 8(a0)
	beqz	a2, .LBB69_32
	lw	s0, 0(a0)
	lbu	a0, 1(s0)
	beqz	a0, .LBB69_32
	lbu	a0, 0(s0)
	bnez	a0, .LBB69_40
	lw	a0, 0(a1)
	lw	a7, 4(a1)
	lw	a6, 8(a1)
	lw	a5, 12(a1)
	lbu	a3, 8(s0)
	lw	a1, 16(s0)
	sb	zero, 1(s0)
	beqz	a3, .LBB69_8
	bne	a1, a0, .LBB69_26
	lw	a2, 48(s0)
	mv	a1, a0
	bgeu	a7, a2, .LBB69_26
	lw	a4, 64(s0)
	srli	a1, a7, 3
	andi	a1, a1, -8
	add	a4, a4, a1
	lw	a1, 4(a4)
	andi	a3, a7, 63
	addi	a2, a3, -32
	bltz	a2, .LBB69_12
	srl	a1, a1, a3
	andi	a2, a1, 1
	mv	a1, a0
	bnez	a2, .LBB69_13
	j	.LBB69_26
.LBB69_8:
	bne	a1, a0, .LBB69_26
	lw	a3, 48(s0)
	mv	a1, a0
	bgeu	a7, a3, .LBB69_26
	lw	a4, 64(s0)
	srli	a1, a7, 3
	andi	a1, a1, -8
	add	a4, a4, a1
	lw	a1, 4(a4)
	andi	a2, a7, 63
	addi	a3, a2, -32
	bltz	a3, .LBB69_18
	srl	a1, a1, a2
	j	.LBB69_19
.LBB69_12:
	lw	a2, 0(a4)
	slli	a1, a1, 1
	not	a3, a3
	srl	a2, a2, a7
	sll	a1, a1, a3
	or	a1, a1, a2
	andi	a2, a1, 1
	mv	a1, a0
	beqz	a2, .LBB69_26
.LBB69_13:
	addi	t0, s0, 40
	lw	a3, 0(t0)
	slli	t1, a7, 3
	add	a4, a3, t1
	lw	t3, 0(a4)
	andi	a2, t3, 1
	mv	a1, a0
	bnez	a2, .LBB69_26
	lw	a1, 12(a4)
	lw	a2, 8(a4)
	xor	a1, a1, a5
	xor	a2, a2, a6
	or	a2, a2, a1
	mv	a1, a0
	bnez	a2, .LBB69_26
	lw	a5, 24(s0)
	lw	a6, 28(s0)
	and	a0, a5, a6
	li	a1, -1
	beq	a0, a1, .LBB69_25
	lw	a0, 32(s0)
	lw	t4, 4(a4)
	srli	t2, t3, 2
	sub	a0, a0, t2
	andi	a1, t3, 2
	sw	a0, 32(s0)
	bnez	a1, .LBB69_27
	add	a0, t2, a7
	slli	a0, a0, 3
	add	a0, a0, a3
	lw	a1, 0(a0)
	lw	a2, 4(a0)
	bnez	a7, .LBB69_28
	j	.LBB69_29
.LBB69_18:
	lw	a3, 0(a4)
	slli	a1, a1, 1
	not	a2, a2
	srl	a3, a3, a7
	sll	a1, a1, a2
	or	a1, a1, a3
.LBB69_19:
	andi	a2, a1, 1
	mv	a1, a0
	beqz	a2, .LBB69_26
	addi	t0, s0, 40
	lw	t2, 0(t0)
	slli	t1, a7, 3
	add	a4, t2, t1
	lw	t3, 0(a4)
	andi	a2, t3, 1
	mv	a1, a0
	bnez	a2, .LBB69_26
	lw	a1, 12(a4)
	lw	a2, 8(a4)
	xor	a1, a1, a5
	xor	a2, a2, a6
	or	a2, a2, a1
	mv	a1, a0
	bnez	a2, .LBB69_26
	lw	a5, 24(s0)
	lw	a6, 28(s0)
	and	a0, a5, a6
	li	a1, -1
	beq	a0, a1, .LBB69_25
	lw	a1, 32(s0)
	lw	t4, 4(a4)
	srli	t5, t3, 2
	sub	a1, a1, t5
	andi	a2, t3, 2
	sw	a1, 32(s0)
	bnez	a2, .LBB69_35
	add	a1, t5, a7
	slli	a1, a1, 3
	add	a2, t2, a1
	lw	a1, 0(a2)
	lw	a2, 4(a2)
	bnez	a7, .LBB69_36
	j	.LBB69_37
.LBB69_25:
	li	a0, 1
	sb	a0, 1(s0)
	li	a0, 2
	lw	ra, 12(sp)
	lw	s0, 8(sp)
	.cfi_restore ra
	.cfi_restore s0
	addi	sp, sp, 16
	.cfi_def_cfa_offset 0
	ret
.LBB69_26:
	.cfi_restore_state
	.cfi_remember_state
	call	tlsf_heap.refusal.Refusal.of_name
	zext.b	a0, a0
	li	a1, 1
	sb	a1, 1(s0)
	addi	a0, a0, -3
	seqz	a0, a0
	addi	a0, a0, 3
	lw	ra, 12(sp)
	lw	s0, 8(sp)
	.cfi_restore ra
	.cfi_restore s0
	addi	sp, sp, 16
	.cfi_def_cfa_offset 0
	ret
.LBB69_27:
	.cfi_restore_state
	.cfi_remember_state
	li	a1, 0
	li	a2, 0
	beqz	a7, .LBB69_29
.LBB69_28:
	slli	a0, t4, 3
	add	t5, a3, a0
	lw	a3, 0(t5)
	andi	a0, a3, 1
	bnez	a0, .LBB69_34
.LBB69_29:
	andi	a0, a1, 1
	bnez	a0, .LBB69_33
	addi	t3, t3, 1
	ori	a0, t2, 32
	lui	a1, 349525
	lui	a2, 209715
	sw	t3, 0(a4)
	sw	t4, 4(a4)
	sw	a5, 8(a4)
	sw	a6, 12(a4)
	srli	a3, a0, 1
	lw	a4, 24(s0)
	lw	a5, 28(s0)
	or	a0, a0, a3
	srli	a3, a0, 2
	or	a0, a0, a3
	srli	a3, a0, 4
	addi	a4, a4, 1
	or	a0, a0, a3
	seqz	a3, a4
	add	a3, a3, a5
	srli	a5, a0, 8
	or	a0, a0, a5
	lui	a5, 61681
	addi	a1, a1, 1365
	sw	a4, 24(s0)
	sw	a3, 28(s0)
	srli	a3, a0, 16
	or	a0, a0, a3
	not	a0, a0
	srli	a3, a0, 1
	and	a1, a1, a3
	lui	a3, 4112
	addi	a2, a2, 819
	sub	a0, a0, a1
	and	a1, a0, a2
	srli	a0, a0, 2
	and	a0, a0, a2
	li	a2, 26
	addi	a4, a5, -241
	addi	a3, a3, 257
	add	a0, a0, a1
	srli	a1, a0, 4
	add	a0, a0, a1
	and	a0, a0, a4
	mul	a0, a0, a3
	srli	a0, a0, 24
	sub	a2, a2, a0
	srl	a0, t2, a2
	slli	a1, a2, 5
	add	a1, a1, a0
	slli	a2, a1, 2
	add	a2, a2, s0
	lw	a3, 184(a2)
	sw	a7, 184(a2)
	lw	a2, 40(s0)
	bgez	a3, .LBB69_39
	add	a2, a2, t1
	li	a3, -1
	srli	a1, a1, 5
	li	a4, 1
	j	.LBB69_44
.LBB69_32:
	li	a0, 0
	lw	ra, 12(sp)
	lw	s0, 8(sp)
	.cfi_restore ra
	.cfi_restore s0
	addi	sp, sp, 16
	.cfi_def_cfa_offset 0
	tail	tlsf_c.call_fault.CallFault.refusal
.LBB69_33:
	.cfi_restore_state
	.cfi_remember_state
	addi	a0, a5, 1
	seqz	a3, a0
	add	a3, a3, a6
	sw	a0, 24(s0)
	sw	a3, 28(s0)
	mv	a0, t0
	mv	a3, t3
	mv	a4, t4
	call	tlsf_heap.fitting.merge_next.5
	j	.LBB69_45
.LBB69_34:
	lw	a4, 4(t5)
	addi	t1, a5, 1
	seqz	a0, t1
	add	a0, a0, a6
	sw	t1, 24(s0)
	sw	a0, 28(s0)
	mv	a0, t0
	call	tlsf_heap.fitting.merge_before.5
	j	.LBB69_45
.LBB69_35:
	li	a1, 0
	li	a2, 0
	beqz	a7, .LBB69_37
.LBB69_36:
	slli	a3, t4, 3
	add	t2, t2, a3
	lw	a3, 0(t2)
	andi	a0, a3, 1
	bnez	a0, .LBB69_42
.LBB69_37:
	andi	a0, a1, 1
	bnez	a0, .LBB69_41
	addi	t3, t3, 1
	ori	a0, t5, 16
	lui	a1, 349525
	lui	a2, 209715
	sw	t3, 0(a4)
	sw	t4, 4(a4)
	sw	a5, 8(a4)
	sw	a6, 12(a4)
	srli	a3, a0, 1
	lw	a4, 24(s0)
	lw	a5, 28(s0)
	or	a0, a0, a3
	srli	a3, a0, 2
	or	a0, a0, a3
	srli	a3, a0, 4
	addi	a4, a4, 1
	or	a0, a0, a3
	seqz	a3, a4
	add	a3, a3, a5
	srli	a5, a0, 8
	or	a0, a0, a5
	lui	a5, 61681
	addi	a1, a1, 1365
	sw	a4, 24(s0)
	sw	a3, 28(s0)
	srli	a3, a0, 16
	or	a0, a0, a3
	not	a0, a0
	srli	a3, a0, 1
	and	a1, a1, a3
	lui	a3, 4112
	addi	a2, a2, 819
	sub	a0, a0, a1
	and	a1, a0, a2
	srli	a0, a0, 2
	and	a0, a0, a2
	li	a2, 27
	addi	a4, a5, -241
	addi	a3, a3, 257
	add	a0, a0, a1
	srli	a1, a0, 4
	add	a0, a0, a1
	and	a0, a0, a4
	mul	a0, a0, a3
	srli	a0, a0, 24
	sub	a2, a2, a0
	srl	a0, t5, a2
	slli	a1, a2, 4
	add	a1, a1, a0
	slli	a2, a1, 2
	add	a2, a2, s0
	lw	a3, 184(a2)
	sw	a7, 184(a2)
	lw	a2, 40(s0)
	bltz	a3, .LBB69_43
.LBB69_39:
	add	t1, t1, a2
	li	a0, -1
	slli	a1, a3, 3
	sw	a3, 16(t1)
	sw	a0, 20(t1)
	add	a1, a1, a2
	sw	a7, 20(a1)
	j	.LBB69_45
.LBB69_40:
	li	a0, 2
	lw	ra, 12(sp)
	lw	s0, 8(sp)
	.cfi_restore ra
	.cfi_restore s0
	addi	sp, sp, 16
	.cfi_def_cfa_offset 0
	tail	tlsf_c.call_fault.CallFault.refusal
.LBB69_41:
	.cfi_restore_state
	addi	a0, a5, 1
	seqz	a3, a0
	add	a3, a3, a6
	sw	a0, 24(s0)
	sw	a3, 28(s0)
	mv	a0, t0
	mv	a3, t3
	mv	a4, t4
	call	tlsf_heap.fitting.merge_next.4
	j	.LBB69_45
.LBB69_42:
	lw	a4, 4(t2)
	addi	t1, a5, 1
	seqz	a0, t1
	add	a0, a0, a6
	sw	t1, 24(s0)
	sw	a0, 28(s0)
	mv	a0, t0
	call	tlsf_heap.fitting.merge_before.4
	j	.LBB69_45
.LBB69_43:
	add	a2, a2, t1
	li	a3, -1
	srli	a1, a1, 4
	li	a4, 1
	andi	a0, a0, 15
.LBB69_44:
	sw	a3, 16(a2)
	sw	a3, 20(a2)
	slli	a2, a1, 2
	add	a2, a2, s0
	lw	a3, 96(s0)
	lw	a5, 100(a2)
	sll	a1, a4, a1
	sll	a0, a4, a0
	or	a1, a1, a3
	or	a0, a0, a5
	sw	a1, 96(s0)
	sw	a0, 100(a2)
.LBB69_45:
	li	a0, 0
	li	a1, 1
	sb	a1, 1(s0)
	lw	ra, 12(sp)
	lw	s0, 8(sp)
	.cfi_restore ra
	.cfi_restore s0
	addi	sp, sp, 16
	.cfi_def_cfa_offset 0
	ret
.Lfunc_end69:
	.size	tlsf_offsets_release, .Lfunc_end69-tlsf_offsets_release
	.cfi_endproc
	.section	.text.tlsf_offsets_resize,"ax",@progbits
	.globl	tlsf_offsets_resize
	.p2align	1
	.type	tlsf_offsets_resize,@function
tlsf_offsets_resize:
	.cfi_startproc
	addi	sp, sp, -64
	.cfi_def_cfa_offset 64
	sw	ra, 60(sp)
	sw	s0, 56(sp)
	sw	s1, 52(sp)
	sw	s2, 48(sp)
	sw	s3, 44(sp)
	sw	s4, 40(sp)
	sw	s5, 36(sp)
	sw	s6, 32(sp)
	sw	s7, 28(sp)
	sw	s8, 24(sp)
	sw	s9, 20(sp)
	sw	s10, 16(sp)
	sw	s11, 12(sp)
	.cfi_offset ra, -4
	.cfi_offset s0, -8
	.cfi_offset s1, -12
	.cfi_offset s2, -16
	.cfi_offset s3, -20
	.cfi_offset s4, -24
	.cfi_offset s5, -28
	.cfi_offset s6, -32
	.cfi_offset s7, -36
	.cfi_offset s8, -40
	.cfi_offset s9, -44
	.cfi_offset s10, -48
	.cfi_offset s11, -52
	.cfi_remember_state
	mv	s5, a2
	lbu	a2, 8(a0)
	beqz	a2, .LBB70_50
	lw	s6, 0(a0)
	lbu	a0, 1(s6)
	beqz	a0, .LBB70_50
	lbu	a0, 0(s6)
	bnez	a0, .LBB70_51
	mv	s3, a3
	mv	s0, a1
	sb	zero, 1(s6)
	lbu	a0, 0(a1)
	lbu	a1, 1(a1)
	lbu	a2, 2(s0)
	lbu	a3, 3(s0)
	lbu	a6, 4(s0)
	lbu	a5, 5(s0)
	lbu	s1, 6(s0)
	lbu	a4, 7(s0)
	slli	a1, a1, 8
	slli	a2, a2, 16
	slli	a3, a3, 24
	or	a7, a1, a0
	or	t0, a3, a2
	lbu	a1, 12(s0)
	lbu	a3, 13(s0)
	lbu	a0, 14(s0)
	lbu	a2, 15(s0)
	slli	a5, a5, 8
	slli	s1, s1, 16
	slli	a4, a4, 24
	slli	a3, a3, 8
	slli	a0, a0, 16
	slli	a2, a2, 24
	or	a6, a5, a6
	or	a4, a4, s1
	or	a1, a1, a3
	or	a0, a0, a2
	lbu	a2, 9(s0)
	lbu	a3, 8(s0)
	lbu	s1, 10(s0)
	lbu	a5, 11(s0)
	slli	a2, a2, 8
	or	a2, a2, a3
	lbu	a3, 8(s6)
	slli	s1, s1, 16
	slli	a5, a5, 24
	or	a5, a5, s1
	addi	s9, s6, 2047
	or	s2, t0, a7
	lw	s1, 705(s9)
	or	s4, a4, a6
	or	s8, a0, a1
	or	s7, a5, a2
	beqz	a3, .LBB70_9
	beqz	s1, .LBB70_66
	mv	a0, s5
	mv	a1, s3
	mv	a2, s1
	li	a3, 0
	call	__udivdi3
	mul	a2, a1, s1
	mulhu	a3, a0, s1
	mul	a4, a0, s1
	add	a2, a2, a3
	sltu	a3, s5, a4
	sub	a2, s3, a2
	sub	a2, a2, a3
	sub	a3, s5, a4
	or	a2, a2, a3
	snez	a4, a2
	add	a4, a4, a0
	sltu	a0, a4, a0
	add	a0, a0, a1
	li	a2, 4
	mv	a1, a4
	beqz	a0, .LBB70_14
	bgeu	a2, a4, .LBB70_15
.LBB70_7:
	bnez	a0, .LBB70_16
.LBB70_8:
	lw	a1, 16(s6)
	beq	s2, a1, .LBB70_17
	j	.LBB70_44
.LBB70_9:
	beqz	s1, .LBB70_66
	mv	a0, s5
	mv	a1, s3
	mv	a2, s1
	li	a3, 0
	call	__udivdi3
	mul	a2, a1, s1
	mulhu	a3, a0, s1
	mul	a4, a0, s1
	add	a2, a2, a3
	sltu	a3, s5, a4
	sub	a2, s3, a2
	sub	a2, a2, a3
	sub	a3, s5, a4
	or	a2, a2, a3
	snez	a4, a2
	add	a4, a4, a0
	sltu	a0, a4, a0
	add	a0, a0, a1
	li	a2, 4
	mv	a1, a4
	beqz	a0, .LBB70_30
	bgeu	a2, a4, .LBB70_31
.LBB70_12:
	bnez	a0, .LBB70_32
.LBB70_13:
	lw	a1, 16(s6)
	beq	s2, a1, .LBB70_33
	j	.LBB70_44
.LBB70_14:
	li	a1, 4
	bltu	a2, a4, .LBB70_7
.LBB70_15:
	li	a4, 4
	beqz	a0, .LBB70_8
.LBB70_16:
	mv	a4, a1
	lw	a1, 16(s6)
	bne	s2, a1, .LBB70_44
.LBB70_17:
	lw	a2, 48(s6)
	mv	a1, s2
	bgeu	s4, a2, .LBB70_44
	lw	a3, 64(s6)
	srli	a1, s4, 3
	andi	a1, a1, -8
	add	a3, a3, a1
	lw	a1, 4(a3)
	andi	a2, s4, 63
	addi	a5, a2, -32
	bltz	a5, .LBB70_20
	srl	a1, a1, a2
	andi	a2, a1, 1
	mv	a1, s2
	bnez	a2, .LBB70_21
	j	.LBB70_44
.LBB70_20:
	lw	a3, 0(a3)
	slli	a1, a1, 1
	not	a2, a2
	srl	a3, a3, s4
	sll	a1, a1, a2
	or	a1, a1, a3
	andi	a2, a1, 1
	mv	a1, s2
	beqz	a2, .LBB70_44
.LBB70_21:
	addi	s3, s6, 40
	lw	a5, 0(s3)
	slli	s5, s4, 3
	add	s1, a5, s5
	lw	a2, 0(s1)
	andi	a3, a2, 1
	mv	a1, s2
	bnez	a3, .LBB70_44
	lw	a1, 12(s1)
	lw	a3, 8(s1)
	xor	a1, a1, s8
	xor	a3, a3, s7
	or	a3, a3, a1
	mv	a1, s2
	bnez	a3, .LBB70_44
	seqz	a0, a0
	lw	a3, 4(s1)
	addi	a0, a0, -1
	or	s11, a0, a4
	srli	s10, a2, 2
	bgeu	s10, s11, .LBB70_27
	andi	a0, a2, 2
	bnez	a0, .LBB70_26
	add	a0, s10, s4
	slli	a0, a0, 3
	add	a5, a5, a0
	lw	a4, 0(a5)
	andi	a0, a4, 1
	bnez	a0, .LBB70_53
.LBB70_26:
	li	a4, 0
	li	a5, 0
	bgeu	s10, s11, .LBB70_54
	j	.LBB70_57
.LBB70_27:
	lw	a5, 24(s6)
	lw	a6, 28(s6)
	and	a0, a5, a6
	li	a1, -1
	beq	a0, a1, .LBB70_64
	addi	a1, s11, 4
	sw	zero, 16(s1)
	sw	zero, 20(s1)
	mv	a0, s10
	bltu	s10, a1, .LBB70_49
	mv	a0, s3
	mv	a1, s4
	mv	a4, s11
	call	tlsf_heap.refitting.split_off.5
	j	.LBB70_48
.LBB70_30:
	li	a1, 4
	bltu	a2, a4, .LBB70_12
.LBB70_31:
	li	a4, 4
	beqz	a0, .LBB70_13
.LBB70_32:
	mv	a4, a1
	lw	a1, 16(s6)
	bne	s2, a1, .LBB70_44
.LBB70_33:
	lw	a2, 48(s6)
	mv	a1, s2
	bgeu	s4, a2, .LBB70_44
	lw	a3, 64(s6)
	srli	a1, s4, 3
	andi	a1, a1, -8
	add	a3, a3, a1
	lw	a1, 4(a3)
	andi	a2, s4, 63
	addi	a5, a2, -32
	bltz	a5, .LBB70_36
	srl	a1, a1, a2
	j	.LBB70_37
.LBB70_36:
	lw	a3, 0(a3)
	slli	a1, a1, 1
	not	a2, a2
	srl	a3, a3, s4
	sll	a1, a1, a2
	or	a1, a1, a3
.LBB70_37:
	andi	a2, a1, 1
	mv	a1, s2
	beqz	a2, .LBB70_44
	addi	s3, s6, 40
	lw	a5, 0(s3)
	slli	s5, s4, 3
	add	s1, a5, s5
	lw	a2, 0(s1)
	andi	a3, a2, 1
	mv	a1, s2
	bnez	a3, .LBB70_44
	lw	a1, 12(s1)
	lw	a3, 8(s1)
	xor	a1, a1, s8
	xor	a3, a3, s7
	or	a3, a3, a1
	mv	a1, s2
	bnez	a3, .LBB70_44
	seqz	a0, a0
	lw	a3, 4(s1)
	addi	a0, a0, -1
	or	s11, a0, a4
	srli	s10, a2, 2
	bgeu	s10, s11, .LBB70_45
	andi	a0, a2, 2
	bnez	a0, .LBB70_43
	add	a0, s10, s4
	slli	a0, a0, 3
	add	a5, a5, a0
	lw	a4, 0(a5)
	andi	a0, a4, 1
	bnez	a0, .LBB70_56
.LBB70_43:
	li	a4, 0
	li	a5, 0
	bltu	s10, s11, .LBB70_57
	j	.LBB70_58
.LBB70_44:
	mv	a0, s2
	call	tlsf_heap.refusal.Refusal.of_name
	zext.b	a0, a0
	li	a1, 1
	sb	a1, 1(s6)
	addi	a0, a0, -3
	seqz	a0, a0
	addi	a0, a0, 3
	j	.LBB70_65
.LBB70_45:
	lw	a5, 24(s6)
	lw	a6, 28(s6)
	and	a0, a5, a6
	li	a1, -1
	beq	a0, a1, .LBB70_64
	addi	a1, s11, 4
	sw	zero, 16(s1)
	sw	zero, 20(s1)
	mv	a0, s10
	bltu	s10, a1, .LBB70_49
	mv	a0, s3
	mv	a1, s4
	mv	a4, s11
	call	tlsf_heap.refitting.split_off.4
.LBB70_48:
	mv	a0, s11
.LBB70_49:
	lw	a1, 32(s6)
	lw	a2, 24(s6)
	lw	a3, 28(s6)
	sub	a0, a0, s10
	add	a0, a0, a1
	addi	a2, a2, 1
	seqz	a1, a2
	add	a1, a1, a3
	sw	a2, 24(s6)
	sw	a1, 28(s6)
	sw	a0, 32(s6)
	j	.LBB70_63
.LBB70_50:
	li	a0, 0
	j	.LBB70_52
.LBB70_51:
	li	a0, 2
.LBB70_52:
	lw	ra, 60(sp)
	lw	s0, 56(sp)
	lw	s1, 52(sp)
	lw	s2, 48(sp)
	lw	s3, 44(sp)
	lw	s4, 40(sp)
	lw	s5, 36(sp)
	lw	s6, 32(sp)
	lw	s7, 28(sp)
	lw	s8, 24(sp)
	lw	s9, 20(sp)
	lw	s10, 16(sp)
	lw	s11, 12(sp)
	.cfi_restore ra
	.cfi_restore s0
	.cfi_restore s1
	.cfi_restore s2
	.cfi_restore s3
	.cfi_restore s4
	.cfi_restore s5
	.cfi_restore s6
	.cfi_restore s7
	.cfi_restore s8
	.cfi_restore s9
	.cfi_restore s10
	.cfi_restore s11
	addi	sp, sp, 64
	.cfi_def_cfa_offset 0
	tail	tlsf_c.call_fault.CallFault.refusal
.LBB70_53:
	.cfi_restore_state
	.cfi_remember_state
	lw	a5, 4(a5)
	srli	a0, a4, 2
	add	a0, a0, s10
	bltu	a0, s11, .LBB70_57
.LBB70_54:
	lw	a7, 24(s6)
	lw	t3, 28(s6)
	and	a0, a7, t3
	li	a1, -1
	beq	a0, a1, .LBB70_64
	mv	a0, s3
	mv	a1, s4
	mv	a6, s11
	call	tlsf_heap.refitting.recut.5
	j	.LBB70_60
.LBB70_56:
	lw	a5, 4(a5)
	srli	a0, a4, 2
	add	a0, a0, s10
	bgeu	a0, s11, .LBB70_58
.LBB70_57:
	li	a0, 1
	sb	a0, 1(s6)
	li	a0, 10
	j	.LBB70_65
.LBB70_58:
	lw	a7, 24(s6)
	lw	t3, 28(s6)
	and	a0, a7, t3
	li	a1, -1
	beq	a0, a1, .LBB70_64
	mv	a0, s3
	mv	a1, s4
	mv	a6, s11
	call	tlsf_heap.refitting.recut.4
.LBB70_60:
	lw	a1, 40(s6)
	add	a1, a1, s5
	sw	zero, 16(a1)
	sw	zero, 20(a1)
	lw	a1, 32(s6)
	lw	a2, 36(s6)
	sub	a1, a1, s10
	add	a0, a0, a1
	sw	a0, 32(s6)
	bgeu	a2, a0, .LBB70_62
	sw	a0, 36(s6)
.LBB70_62:
	lw	a0, 24(s6)
	lw	a1, 28(s6)
	addi	a0, a0, 1
	seqz	a2, a0
	add	a1, a1, a2
	sw	a0, 24(s6)
	sw	a1, 28(s6)
.LBB70_63:
	lw	a0, 0(s3)
	add	s5, s5, a0
	li	a0, 0
	lw	a7, 0(s5)
	lw	a2, 705(s9)
	li	a6, 1
	srli	t0, s2, 24
	srli	t3, s2, 16
	srli	s1, s2, 8
	srli	t1, s4, 24
	srli	t4, s4, 16
	srli	a4, s4, 8
	srli	t2, s8, 24
	srli	a3, s8, 16
	sb	a6, 1(s6)
	srli	a5, s8, 8
	srli	a1, s7, 24
	sb	s2, 0(s0)
	sb	s1, 1(s0)
	sb	t3, 2(s0)
	sb	t0, 3(s0)
	srli	s1, s7, 16
	sb	s4, 4(s0)
	sb	a4, 5(s0)
	sb	t4, 6(s0)
	sb	t1, 7(s0)
	srli	a4, s7, 8
	sb	s8, 12(s0)
	sb	a5, 13(s0)
	sb	a3, 14(s0)
	sb	t2, 15(s0)
	sb	s7, 8(s0)
	sb	a4, 9(s0)
	sb	s1, 10(s0)
	sb	a1, 11(s0)
	srli	a1, a7, 2
	mul	a3, a2, s4
	mulhu	a4, a2, s4
	mul	a5, a1, a2
	mulhu	a1, a1, a2
	srli	a6, a4, 24
	srli	t0, a4, 16
	srli	a2, a4, 8
	srli	a7, a3, 24
	srli	t1, a3, 16
	srli	s1, a3, 8
	sb	a4, 20(s0)
	sb	a2, 21(s0)
	sb	t0, 22(s0)
	sb	a6, 23(s0)
	sb	a3, 16(s0)
	sb	s1, 17(s0)
	sb	t1, 18(s0)
	sb	a7, 19(s0)
	srli	a6, a1, 24
	srli	a3, a1, 16
	srli	a4, a1, 8
	srli	a7, a5, 24
	srli	a2, a5, 16
	srli	s1, a5, 8
	sb	a1, 28(s0)
	sb	a4, 29(s0)
	sb	a3, 30(s0)
	sb	a6, 31(s0)
	sb	a5, 24(s0)
	sb	s1, 25(s0)
	sb	a2, 26(s0)
	sb	a7, 27(s0)
	j	.LBB70_65
.LBB70_64:
	li	a0, 1
	sb	a0, 1(s6)
	li	a0, 2
.LBB70_65:
	lw	ra, 60(sp)
	lw	s0, 56(sp)
	lw	s1, 52(sp)
	lw	s2, 48(sp)
	lw	s3, 44(sp)
	lw	s4, 40(sp)
	lw	s5, 36(sp)
	lw	s6, 32(sp)
	lw	s7, 28(sp)
	lw	s8, 24(sp)
	lw	s9, 20(sp)
	lw	s10, 16(sp)
	lw	s11, 12(sp)
	.cfi_restore ra
	.cfi_restore s0
	.cfi_restore s1
	.cfi_restore s2
	.cfi_restore s3
	.cfi_restore s4
	.cfi_restore s5
	.cfi_restore s6
	.cfi_restore s7
	.cfi_restore s8
	.cfi_restore s9
	.cfi_restore s10
	.cfi_restore s11
	addi	sp, sp, 64
	.cfi_def_cfa_offset 0
	ret
.LBB70_66:
	.cfi_restore_state
	unimp
.Lfunc_end70:
	.size	tlsf_offsets_resize, .Lfunc_end70-tlsf_offsets_resize
	.cfi_endproc
	.section	.text.tlsf_open,"ax",@progbits
	.globl	tlsf_open
	.p2align	1
	.type	tlsf_open,@function
tlsf_open:
	.cfi_startproc
	addi	sp, sp, -80
	.cfi_def_cfa_offset 80
	sw	ra, 76(sp)
	sw	s0, 72(sp)
	sw	s1, 68(sp)
	sw	s2, 64(sp)
	sw	s3, 60(sp)
	sw	s4, 56(sp)
	sw	s5, 52(sp)
	sw	s6, 48(sp)
	sw	s7, 44(sp)
	sw	s8, 40(sp)
	sw	s9, 36(sp)
	sw	s10, 32(sp)
	sw	s11, 28(sp)
	.cfi_offset ra, -4
	.cfi_offset s0, -8
	.cfi_offset s1, -12
	.cfi_offset s2, -16
	.cfi_offset s3, -20
	.cfi_offset s4, -24
	.cfi_offset s5, -28
	.cfi_offset s6, -32
	.cfi_offset s7, -36
	.cfi_offset s8, -40
	.cfi_offset s9, -44
	.cfi_offset s10, -48
	.cfi_offset s11, -52
	lbu	a4, 8(a0)
	beqz	a4, .LBB71_2
	li	a0, 33
	j	.LBB71_27
.LBB71_2:
	addi	a4, a1, -6
	li	a5, -2
	bgeu	a4, a5, .LBB71_4
	li	a0, 34
	j	.LBB71_27
.LBB71_4:
	li	a4, 4
	bne	a1, a4, .LBB71_10
	lui	a4, 1048320
	addi	a5, a4, -1
	add	a5, a5, a3
	addi	a4, a4, 3
	bltu	a5, a4, .LBB71_11
	mv	s8, a1
	mv	s5, a0
	mv	s4, a2
	mv	s3, a3
	slli	a1, a3, 3
	addi	a0, sp, 8
	li	a2, 8
	call	tlsf_memory_alloc
	lw	a0, 8(sp)
	andi	a1, a0, 1
	li	a0, 6
	beqz	a1, .LBB71_27
	lw	s0, 16(sp)
	addi	a0, s3, 63
	srli	s10, a0, 6
	sw	zero, 16(s0)
	sw	zero, 20(s0)
	sw	zero, 24(s0)
	sw	zero, 28(s0)
	sw	zero, 0(s0)
	sw	zero, 4(s0)
	sw	zero, 8(s0)
	sw	zero, 12(s0)
	slli	a1, s10, 3
	addi	a0, sp, 8
	li	a2, 8
	call	tlsf_memory_alloc
	lw	a0, 8(sp)
	andi	a0, a0, 1
	beqz	a0, .LBB71_19
	lw	s6, 16(sp)
	li	a0, 19
	li	a1, -1
	sw	zero, 0(s6)
	sw	zero, 4(s6)
	sw	a0, 0(s0)
	sw	a1, 4(s0)
	sw	zero, 8(s0)
	sw	zero, 12(s0)
	lw	a0, 0(s6)
	ori	a0, a0, 1
	sw	a0, 0(s6)
	sw	a1, 16(s0)
	sw	a1, 20(s0)
	lui	a1, 1
	addi	a0, sp, 8
	addi	a1, a1, -1336
	li	a2, 8
	call	tlsf_memory_alloc
	lw	a0, 8(sp)
	andi	a0, a0, 1
	beqz	a0, .LBB71_20
	lw	s1, 16(sp)
	li	a0, 1
	sb	a0, 0(s1)
	addi	a0, s1, 8
	li	a2, 16
	li	a1, 0
	call	tlsf_memory_set
	srli	a1, s4, 24
	srli	a2, s4, 16
	srli	a3, s4, 8
	sb	s4, 24(s1)
	sb	a3, 25(s1)
	sb	a2, 26(s1)
	sb	a1, 27(s1)
	j	.LBB71_16
.LBB71_10:
	lui	a4, 1044480
	addi	a5, a4, -1
	add	a5, a5, a3
	addi	a4, a4, 3
	bgeu	a5, a4, .LBB71_12
.LBB71_11:
	li	a0, 5
	j	.LBB71_27
.LBB71_12:
	mv	s8, a1
	mv	s5, a0
	mv	s4, a2
	mv	s3, a3
	slli	a1, a3, 3
	addi	a0, sp, 8
	li	a2, 8
	call	tlsf_memory_alloc
	lw	a0, 8(sp)
	andi	a1, a0, 1
	li	a0, 6
	beqz	a1, .LBB71_27
	lw	s0, 16(sp)
	addi	a0, s3, 63
	srli	s10, a0, 6
	sw	zero, 16(s0)
	sw	zero, 20(s0)
	sw	zero, 24(s0)
	sw	zero, 28(s0)
	sw	zero, 0(s0)
	sw	zero, 4(s0)
	sw	zero, 8(s0)
	sw	zero, 12(s0)
	slli	a1, s10, 3
	addi	a0, sp, 8
	li	a2, 8
	call	tlsf_memory_alloc
	lw	a0, 8(sp)
	andi	a0, a0, 1
	beqz	a0, .LBB71_19
	lw	s6, 16(sp)
	li	a0, 19
	li	a1, -1
	sw	zero, 0(s6)
	sw	zero, 4(s6)
	sw	a0, 0(s0)
	sw	a1, 4(s0)
	sw	zero, 8(s0)
	sw	zero, 12(s0)
	lw	a0, 0(s6)
	ori	a0, a0, 1
	sw	a0, 0(s6)
	sw	a1, 16(s0)
	sw	a1, 20(s0)
	lui	a1, 1
	addi	a0, sp, 8
	addi	a1, a1, -1336
	li	a2, 8
	call	tlsf_memory_alloc
	lw	a0, 8(sp)
	andi	a0, a0, 1
	beqz	a0, .LBB71_20
	lw	s1, 16(sp)
	li	a0, 1
	srli	a2, s4, 24
	srli	a3, s4, 16
	sb	a2, 27(s1)
	srli	a2, s4, 8
	sb	zero, 11(s1)
	sb	zero, 12(s1)
	sb	zero, 13(s1)
	sb	zero, 14(s1)
	sb	a0, 0(s1)
	sb	zero, 8(s1)
	sb	zero, 9(s1)
	sb	zero, 10(s1)
	sb	zero, 19(s1)
	sb	zero, 20(s1)
	sb	zero, 21(s1)
	sb	zero, 22(s1)
	sb	zero, 15(s1)
	sb	a0, 16(s1)
	sb	zero, 17(s1)
	sb	zero, 18(s1)
	sb	zero, 23(s1)
	sb	s4, 24(s1)
	sb	a2, 25(s1)
	sb	a3, 26(s1)
.LBB71_16:
	li	s9, -1
	sb	zero, 36(s1)
	sb	zero, 37(s1)
	sb	zero, 38(s1)
	sb	zero, 39(s1)
	li	a6, 1
	sb	zero, 40(s1)
	sb	zero, 41(s1)
	sb	zero, 42(s1)
	sb	zero, 43(s1)
	sb	zero, 44(s1)
	sb	zero, 45(s1)
	sb	zero, 46(s1)
	sb	zero, 47(s1)
	addi	s2, s1, 48
	srli	a7, s0, 24
	srli	t0, s0, 16
	srli	t1, s0, 8
	sb	zero, 52(s1)
	sb	zero, 53(s1)
	sb	zero, 54(s1)
	sb	zero, 55(s1)
	sb	zero, 60(s1)
	sb	zero, 61(s1)
	sb	zero, 62(s1)
	sb	zero, 63(s1)
	li	s11, 4
	sb	zero, 68(s1)
	sb	zero, 69(s1)
	sb	zero, 70(s1)
	sb	zero, 71(s1)
	srli	t2, s3, 24
	srli	a0, s3, 16
	srli	a2, s3, 8
	srli	t3, s6, 24
	srli	a1, s6, 16
	srli	a3, s6, 8
	sb	zero, 76(s1)
	sb	zero, 77(s1)
	sb	zero, 78(s1)
	sb	zero, 79(s1)
	sb	zero, 84(s1)
	sb	zero, 85(s1)
	sb	zero, 86(s1)
	sb	zero, 87(s1)
	sb	zero, 92(s1)
	sb	zero, 93(s1)
	sb	zero, 94(s1)
	sb	zero, 95(s1)
	srli	a4, s10, 24
	srli	a5, s10, 16
	sb	s0, 48(s1)
	sb	t1, 49(s1)
	sb	t0, 50(s1)
	sb	a7, 51(s1)
	srli	s0, s10, 8
	sb	zero, 100(s1)
	sb	zero, 101(s1)
	sb	zero, 102(s1)
	sb	zero, 103(s1)
	sb	s3, 64(s1)
	sb	a2, 65(s1)
	sb	a0, 66(s1)
	sb	t2, 67(s1)
	addi	s7, s1, 104
	sb	s6, 72(s1)
	sb	a3, 73(s1)
	sb	a1, 74(s1)
	sb	t3, 75(s1)
	li	a0, 16
	sb	a6, 32(s1)
	sb	zero, 33(s1)
	sb	zero, 34(s1)
	sb	zero, 35(s1)
	sb	s11, 56(s1)
	sb	zero, 57(s1)
	sb	zero, 58(s1)
	sb	zero, 59(s1)
	sb	a6, 80(s1)
	sb	zero, 81(s1)
	sb	zero, 82(s1)
	sb	zero, 83(s1)
	sb	s10, 88(s1)
	sb	s0, 89(s1)
	sb	a5, 90(s1)
	sb	a4, 91(s1)
	sb	s11, 96(s1)
	sb	zero, 97(s1)
	sb	zero, 98(s1)
	sb	zero, 99(s1)
	sb	a6, 104(s1)
	sb	zero, 105(s1)
	sb	zero, 106(s1)
	sb	zero, 107(s1)
	sb	a0, 108(s1)
	sb	zero, 109(s1)
	sb	zero, 110(s1)
	sb	zero, 111(s1)
	addi	a0, s1, 112
	li	a2, 80
	li	a1, 0
	call	tlsf_memory_set
	addi	s0, s1, 192
	li	a1, 255
	li	a2, 16
	mv	a0, s0
	call	tlsf_memory_set
	sb	zero, 208(s1)
	sb	zero, 209(s1)
	sb	zero, 210(s1)
	sb	zero, 211(s1)
	addi	a0, s1, 212
	lui	a2, 1
	addi	a2, a2, -1552
	li	a1, 255
	call	tlsf_memory_set
	mv	a0, s2
	mv	a1, s3
	call	tlsf_words.words.Words.lengthen
	sw	s9, 208(s1)
	li	a2, 88
	mv	a0, s7
	li	a1, 0
	call	tlsf_memory_set
	lw	a0, 56(s1)
	lw	a1, 48(s1)
	slli	a2, a0, 2
	addi	a2, a2, 3
	sw	a2, 0(a1)
	sw	s9, 4(a1)
	sw	zero, 8(a1)
	sw	zero, 12(a1)
	lw	a1, 72(s1)
	lw	a2, 0(a1)
	ori	a2, a2, 1
	sw	a2, 0(a1)
	bne	s8, s11, .LBB71_22
	ori	a1, a0, 16
	lui	a2, 349525
	srli	a3, a1, 1
	addi	a2, a2, 1365
	or	a1, a1, a3
	srli	a3, a1, 2
	or	a1, a1, a3
	srli	a3, a1, 4
	or	a1, a1, a3
	srli	a3, a1, 8
	or	a1, a1, a3
	srli	a3, a1, 16
	or	a1, a1, a3
	not	a1, a1
	srli	a3, a1, 1
	and	a2, a2, a3
	lui	a3, 209715
	addi	a3, a3, 819
	sub	a1, a1, a2
	and	a2, a1, a3
	srli	a1, a1, 2
	and	a1, a1, a3
	lui	a3, 61681
	add	a1, a1, a2
	srli	a2, a1, 4
	add	a1, a1, a2
	lui	a2, 4112
	addi	a3, a3, -241
	and	a1, a1, a3
	li	a3, 27
	addi	a2, a2, 257
	mul	a1, a1, a2
	srli	a1, a1, 24
	sub	a3, a3, a1
	srl	a0, a0, a3
	slli	a2, a3, 4
	add	a2, a2, a0
	slli	a1, a2, 2
	add	a1, a1, s0
	lw	a3, 0(a1)
	sw	zero, 0(a1)
	lw	a1, 0(s2)
	bgez	a3, .LBB71_23
	li	a3, -1
	srli	a2, a2, 4
	li	a4, 1
	andi	a0, a0, 15
	j	.LBB71_25
.LBB71_19:
	mv	a0, s0
	j	.LBB71_21
.LBB71_20:
	mv	a0, s0
	call	tlsf_memory_dealloc
	mv	a0, s6
.LBB71_21:
	call	tlsf_memory_dealloc
	li	a0, 6
	j	.LBB71_27
.LBB71_22:
	ori	a1, a0, 32
	lui	a2, 349525
	srli	a3, a1, 1
	addi	a2, a2, 1365
	or	a1, a1, a3
	srli	a3, a1, 2
	or	a1, a1, a3
	srli	a3, a1, 4
	or	a1, a1, a3
	srli	a3, a1, 8
	or	a1, a1, a3
	srli	a3, a1, 16
	or	a1, a1, a3
	not	a1, a1
	srli	a3, a1, 1
	and	a2, a2, a3
	lui	a3, 209715
	addi	a3, a3, 819
	sub	a1, a1, a2
	and	a2, a1, a3
	srli	a1, a1, 2
	and	a1, a1, a3
	lui	a3, 61681
	add	a1, a1, a2
	srli	a2, a1, 4
	add	a1, a1, a2
	lui	a2, 4112
	addi	a3, a3, -241
	and	a1, a1, a3
	li	a3, 26
	addi	a2, a2, 257
	mul	a1, a1, a2
	srli	a1, a1, 24
	sub	a3, a3, a1
	srl	a0, a0, a3
	slli	a2, a3, 5
	add	a2, a2, a0
	slli	a1, a2, 2
	add	a1, a1, s0
	lw	a3, 0(a1)
	sw	zero, 0(a1)
	lw	a1, 0(s2)
	bltz	a3, .LBB71_24
.LBB71_23:
	sw	a3, 16(a1)
	sw	s9, 20(a1)
	slli	a3, a3, 3
	add	a1, a1, a3
	sw	zero, 20(a1)
	j	.LBB71_26
.LBB71_24:
	li	a3, -1
	srli	a2, a2, 5
	li	a4, 1
.LBB71_25:
	sw	a3, 16(a1)
	sw	a3, 20(a1)
	slli	a1, a2, 2
	sll	a2, a4, a2
	lw	a3, 0(s7)
	add	a1, a1, s1
	lw	a5, 108(a1)
	sll	a0, a4, a0
	or	a2, a2, a3
	sw	a2, 0(s7)
	or	a0, a0, a5
	sw	a0, 108(a1)
.LBB71_26:
	li	a0, 0
	lw	a1, 48(s1)
	li	a2, 1
	sw	s1, 0(s5)
	sw	zero, 4(s5)
	sb	a2, 8(s5)
	sw	a1, 16(s5)
	sw	s4, 24(s5)
	sb	zero, 28(s5)
.LBB71_27:
	lw	ra, 76(sp)
	lw	s0, 72(sp)
	lw	s1, 68(sp)
	lw	s2, 64(sp)
	lw	s3, 60(sp)
	lw	s4, 56(sp)
	lw	s5, 52(sp)
	lw	s6, 48(sp)
	lw	s7, 44(sp)
	lw	s8, 40(sp)
	lw	s9, 36(sp)
	lw	s10, 32(sp)
	lw	s11, 28(sp)
	.cfi_restore ra
	.cfi_restore s0
	.cfi_restore s1
	.cfi_restore s2
	.cfi_restore s3
	.cfi_restore s4
	.cfi_restore s5
	.cfi_restore s6
	.cfi_restore s7
	.cfi_restore s8
	.cfi_restore s9
	.cfi_restore s10
	.cfi_restore s11
	addi	sp, sp, 80
	.cfi_def_cfa_offset 0
	ret
.Lfunc_end71:
	.size	tlsf_open, .Lfunc_end71-tlsf_open
	.cfi_endproc
	.section	.text.tlsf_place,"ax",@progbits
	.globl	tlsf_place
	.p2align	1
	.type	tlsf_place,@function
tlsf_place:
	.cfi_startproc
	lbu	a4, 8(a0)
	beqz	a4, .LBB72_9
	lw	a4, 0(a0)
	lbu	a0, 0(a4)
	beqz	a0, .LBB72_9
	lbu	a5, 16(a4)
	lw	a6, 24(a4)
	lw	a0, 56(a4)
	sb	zero, 0(a4)
	bgeu	a1, a0, .LBB72_8
	lw	a0, 72(a4)
	srli	a5, a1, 3
	andi	a5, a5, -8
	add	t0, a0, a5
	lw	a7, 4(t0)
	andi	a0, a1, 63
	addi	a5, a0, -32
	bltz	a5, .LBB72_5
	srl	a0, a7, a0
	andi	a0, a0, 1
	bnez	a0, .LBB72_6
	j	.LBB72_8
.LBB72_5:
	lw	a5, 0(t0)
	slli	a7, a7, 1
	not	a0, a0
	srl	a5, a5, a1
	sll	a0, a7, a0
	or	a0, a0, a5
	andi	a0, a0, 1
	beqz	a0, .LBB72_8
.LBB72_6:
	lw	a5, 48(a4)
	slli	a0, a1, 3
	add	a5, a5, a0
	lbu	a0, 0(a5)
	andi	a0, a0, 1
	bnez	a0, .LBB72_8
	li	a0, 0
	lw	a7, 8(a5)
	lw	t0, 12(a5)
	lw	t1, 16(a5)
	li	t2, 1
	srli	t3, a6, 24
	srli	t4, a6, 16
	srli	a5, a6, 8
	srli	t5, a1, 24
	sb	t2, 0(a4)
	srli	t2, a1, 16
	srli	a4, a1, 8
	sb	a6, 0(a2)
	sb	a5, 1(a2)
	sb	t4, 2(a2)
	sb	t3, 3(a2)
	sb	a1, 4(a2)
	sb	a4, 5(a2)
	sb	t2, 6(a2)
	sb	t5, 7(a2)
	srli	a6, t0, 24
	srli	t3, t0, 16
	srli	a5, t0, 8
	srli	t2, a7, 24
	srli	a1, a7, 16
	srli	a4, a7, 8
	sb	t0, 12(a2)
	sb	a5, 13(a2)
	sb	t3, 14(a2)
	sb	a6, 15(a2)
	sb	a7, 8(a2)
	sb	a4, 9(a2)
	sb	a1, 10(a2)
	sb	t2, 11(a2)
	sw	t1, 0(a3)
	ret
.LBB72_8:
	li	a0, 1
	sb	a0, 0(a4)
	li	a0, 4
	ret
.LBB72_9:
	li	a0, 0
	tail	tlsf_c.call_fault.CallFault.refusal
.Lfunc_end72:
	.size	tlsf_place, .Lfunc_end72-tlsf_place
	.cfi_endproc
	.section	.rodata.cst32,"aM",@progbits,32
.LCPI73_0:
	.ascii	"\000\001\034\002\035\016\030\003\036\026\024\017\031\021\004\b\037\033\r\027\025\023\020\007\032\f\022\006\013\005\n\t"
	.section	.text.tlsf_pools_allocate,"ax",@progbits
	.globl	tlsf_pools_allocate
	.p2align	1
	.type	tlsf_pools_allocate,@function
tlsf_pools_allocate:
	.cfi_startproc
	addi	sp, sp, -48
	.cfi_def_cfa_offset 48
	sw	ra, 44(sp)
	sw	s0, 40(sp)
	sw	s1, 36(sp)
	sw	s2, 32(sp)
	sw	s3, 28(sp)
	sw	s4, 24(sp)
	sw	s5, 20(sp)
	sw	s6, 16(sp)
	sw	s7, 12(sp)
	sw	s8, 8(sp)
	.cfi_offset ra, -4
	.cfi_offset s0, -8
	.cfi_offset s1, -12
	.cfi_offset s2, -16
	.cfi_offset s3, -20
	.cfi_offset s4, -24
	.cfi_offset s5, -28
	.cfi_offset s6, -32
	.cfi_offset s7, -36
	.cfi_offset s8, -40
	.cfi_remember_state
	lbu	a3, 8(a0)
	beqz	a3, .LBB73_34
	lw	s6, 0(a0)
	lbu	a0, 1(s6)
	beqz	a0, .LBB73_34
	lbu	a0, 0(s6)
	li	a3, 1
	bne	a0, a3, .LBB73_40
	lbu	a0, 8(s6)
	lw	t2, 24(s6)
	lw	a6, 32(s6)
	lw	t3, 36(s6)
	sb	zero, 1(s6)
	beqz	a0, .LBB73_13
	or	a0, a6, t3
	beqz	a0, .LBB73_28
	li	t5, 0
	li	t4, 0
	lui	a7, 1
	addi	a7, a7, -1304
.LBB73_6:
	mul	t1, t5, a7
	add	t1, t1, t2
	addi	s5, t1, 2047
	lw	a5, 697(s5)
	lw	a4, 701(s5)
	or	a0, a5, a4
	beqz	a0, .LBB73_10
	lw	t0, 689(s5)
	addi	a3, t0, 4
	mv	a0, a5
	mv	s1, a4
.LBB73_8:
	lw	s0, 0(a3)
	bgeu	s0, a1, .LBB73_22
	seqz	s0, a0
	sub	s1, s1, s0
	addi	a0, a0, -1
	or	s0, a0, s1
	addi	a3, a3, 8
	bnez	s0, .LBB73_8
.LBB73_10:
	addi	t5, t5, 1
	seqz	a0, t5
	add	t4, t4, a0
	beq	t4, t3, .LBB73_12
	sltu	a0, t4, t3
	bnez	a0, .LBB73_6
	j	.LBB73_28
.LBB73_12:
	sltu	a0, t5, a6
	bnez	a0, .LBB73_6
	j	.LBB73_28
.LBB73_13:
	or	a0, a6, t3
	beqz	a0, .LBB73_28
	li	t5, 0
	li	t4, 0
	lui	a7, 1
	addi	a7, a7, -1304
.LBB73_15:
	mul	t0, t5, a7
	add	t0, t0, t2
	addi	s5, t0, 2047
	lw	s0, 697(s5)
	lw	s1, 701(s5)
	or	a3, s0, s1
	beqz	a3, .LBB73_19
	lw	t1, 689(s5)
	addi	a3, t1, 4
	mv	a5, s0
	mv	a4, s1
.LBB73_17:
	lw	a0, 0(a3)
	bgeu	a0, a1, .LBB73_25
	seqz	a0, a5
	sub	a4, a4, a0
	addi	a5, a5, -1
	or	a0, a5, a4
	addi	a3, a3, 8
	bnez	a0, .LBB73_17
.LBB73_19:
	addi	t5, t5, 1
	seqz	a0, t5
	add	t4, t4, a0
	beq	t4, t3, .LBB73_21
	sltu	a3, t4, t3
	bnez	a3, .LBB73_15
	j	.LBB73_28
.LBB73_21:
	sltu	a3, t5, a6
	bnez	a3, .LBB73_15
	j	.LBB73_28
.LBB73_22:
	li	s0, 0
	addi	a3, t0, 4
.LBB73_23:
	lw	a0, 0(a3)
	bgeu	a0, a1, .LBB73_30
	seqz	a0, a5
	addi	a5, a5, -1
	sub	a4, a4, a0
	or	a0, a5, a4
	addi	a3, a3, 8
	addi	s0, s0, 4
	bnez	a0, .LBB73_23
	j	.LBB73_28
.LBB73_25:
	li	s8, 0
	addi	a0, t1, 4
.LBB73_26:
	lw	a3, 0(a0)
	bgeu	a3, a1, .LBB73_35
	seqz	a3, s0
	addi	s0, s0, -1
	sub	s1, s1, a3
	or	a3, s0, s1
	addi	a0, a0, 8
	addi	s8, s8, 4
	bnez	a3, .LBB73_26
.LBB73_28:
	li	a0, 1
	sb	a0, 1(s6)
	li	a0, 5
.LBB73_29:
	lw	ra, 44(sp)
	lw	s0, 40(sp)
	lw	s1, 36(sp)
	lw	s2, 32(sp)
	lw	s3, 28(sp)
	lw	s4, 24(sp)
	lw	s5, 20(sp)
	lw	s6, 16(sp)
	lw	s7, 12(sp)
	lw	s8, 8(sp)
	.cfi_restore ra
	.cfi_restore s0
	.cfi_restore s1
	.cfi_restore s2
	.cfi_restore s3
	.cfi_restore s4
	.cfi_restore s5
	.cfi_restore s6
	.cfi_restore s7
	.cfi_restore s8
	addi	sp, sp, 48
	.cfi_def_cfa_offset 0
	ret
.LBB73_30:
	.cfi_restore_state
	.cfi_remember_state
	lw	a0, 721(s5)
	add	a0, a0, s0
	lw	a0, 0(a0)
	lw	a3, -4(a3)
	bgeu	a0, a3, .LBB73_39
	lw	t3, 713(s5)
	lui	a0, 4096
	bltu	a0, t3, .LBB73_71
	ori	s1, t3, 32
	lui	a3, 349525
	lui	a4, 209715
	lui	a5, 61681
	srli	a0, s1, 1
	addi	a3, a3, 1365
	or	s1, s1, a0
	srli	a0, s1, 2
	or	s1, s1, a0
	srli	a0, s1, 4
	or	s1, s1, a0
	srli	a0, s1, 8
	or	s1, s1, a0
	srli	a0, s1, 16
	or	a0, a0, s1
	not	s1, a0
	srli	a0, s1, 1
	and	a0, a0, a3
	lui	a3, 4112
	addi	a4, a4, 819
	sub	s1, s1, a0
	and	a0, s1, a4
	srli	s1, s1, 2
	and	a4, a4, s1
	li	s1, 26
	add	a0, a0, a4
	srli	a4, a0, 4
	add	a0, a0, a4
	addi	a4, t3, -1
	addi	a5, a5, -241
	addi	a3, a3, 257
	and	a0, a0, a5
	mul	a0, a0, a3
	srli	a0, a0, 24
	sub	s1, s1, a0
	srl	a3, a4, s1
	slli	a0, s1, 5
	add	a0, a0, a3
	addi	a4, a0, 1
	seqz	s1, a4
	srli	a5, a0, 5
	slli	a4, s1, 27
	sub	a5, a5, a4
	slli	a4, a5, 2
	add	a4, a4, t1
	lw	a4, 84(a4)
	srl	a3, a4, a3
	andi	a3, a3, -2
	beqz	a3, .LBB73_42
	neg	a4, a3
	and	a3, a3, a4
	lui	a4, 30667
	addi	a4, a4, 1329
	mul	a3, a3, a4
	lui	a4, %hi(.LCPI73_0)
	addi	a4, a4, %lo(.LCPI73_0)
	srli	a3, a3, 27
	add	a3, a3, a4
	lbu	a4, 0(a3)
	neg	a3, s1
	add	a4, a4, a0
	sltu	a0, a4, a0
	add	a0, a0, a3
	srli	a3, a4, 5
	slli	a0, a0, 27
	or	a6, a3, a0
	lw	s4, 8(t1)
	lw	s2, 12(t1)
	and	a0, s4, s2
	li	s1, -1
	bne	a0, s1, .LBB73_50
	j	.LBB73_71
.LBB73_34:
	li	a0, 0
	j	.LBB73_41
.LBB73_35:
	lw	a3, 721(s5)
	add	a3, a3, s8
	lw	a3, 0(a3)
	lw	a0, -4(a0)
	bgeu	a3, a0, .LBB73_39
	lw	t2, 713(s5)
	lui	a0, 256
	bltu	a0, t2, .LBB73_71
	ori	s0, t2, 16
	lui	a4, 349525
	lui	a5, 209715
	lui	s1, 61681
	srli	a0, s0, 1
	addi	a4, a4, 1365
	or	s0, s0, a0
	srli	a0, s0, 2
	or	s0, s0, a0
	srli	a0, s0, 4
	or	s0, s0, a0
	srli	a0, s0, 8
	or	s0, s0, a0
	srli	a0, s0, 16
	or	a0, a0, s0
	not	s0, a0
	srli	a0, s0, 1
	and	a0, a0, a4
	lui	a4, 4112
	addi	a5, a5, 819
	sub	s0, s0, a0
	and	a0, s0, a5
	srli	s0, s0, 2
	and	a5, a5, s0
	li	s0, 27
	add	a0, a0, a5
	srli	a5, a0, 4
	add	a0, a0, a5
	addi	a5, t2, -1
	addi	s1, s1, -241
	addi	a4, a4, 257
	and	a0, a0, s1
	mul	a0, a0, a4
	srli	a0, a0, 24
	sub	s0, s0, a0
	srl	a0, a5, s0
	slli	a4, s0, 4
	add	a4, a4, a0
	addi	a3, a4, 1
	seqz	s0, a3
	srli	a5, a4, 4
	slli	a3, s0, 28
	sub	a5, a5, a3
	slli	a3, a5, 2
	add	a3, a3, t0
	lw	a3, 84(a3)
	andi	a0, a0, 15
	srl	s1, a3, a0
	andi	s1, s1, -2
	beqz	s1, .LBB73_45
	neg	a0, s1
	and	a0, a0, s1
	lui	a3, 30667
	addi	a3, a3, 1329
	mul	a0, a0, a3
	lui	a3, %hi(.LCPI73_0)
	addi	a3, a3, %lo(.LCPI73_0)
	srli	a0, a0, 27
	add	a0, a0, a3
	lbu	a3, 0(a0)
	neg	a0, s0
	add	a3, a3, a4
	sltu	a4, a3, a4
	add	a0, a0, a4
	srli	a4, a3, 4
	slli	a0, a0, 28
	or	a6, a4, a0
	j	.LBB73_68
.LBB73_39:
	li	a0, 1
	sb	a0, 1(s6)
	li	a0, 38
	j	.LBB73_29
.LBB73_40:
	li	a0, 2
.LBB73_41:
	lw	ra, 44(sp)
	lw	s0, 40(sp)
	lw	s1, 36(sp)
	lw	s2, 32(sp)
	lw	s3, 28(sp)
	lw	s4, 24(sp)
	lw	s5, 20(sp)
	lw	s6, 16(sp)
	lw	s7, 12(sp)
	lw	s8, 8(sp)
	.cfi_restore ra
	.cfi_restore s0
	.cfi_restore s1
	.cfi_restore s2
	.cfi_restore s3
	.cfi_restore s4
	.cfi_restore s5
	.cfi_restore s6
	.cfi_restore s7
	.cfi_restore s8
	addi	sp, sp, 48
	.cfi_def_cfa_offset 0
	tail	tlsf_c.call_fault.CallFault.refusal
.LBB73_42:
	.cfi_restore_state
	lw	a0, 80(t1)
	addi	a5, a5, 1
	srl	a0, a0, a5
	sll	a0, a0, a5
	beqz	a0, .LBB73_71
	neg	a3, a0
	lui	a4, 30667
	and	a0, a0, a3
	addi	a4, a4, 1329
	mul	a0, a0, a4
	srli	a0, a0, 27
	lui	a5, %hi(.LCPI73_0)
	addi	a5, a5, %lo(.LCPI73_0)
	add	a0, a0, a5
	lbu	a0, 0(a0)
	slli	a3, a0, 2
	add	a3, a3, t1
	lw	a3, 84(a3)
	beqz	a3, .LBB73_48
	neg	s1, a3
	and	a3, a3, s1
	mul	a3, a3, a4
	srli	a3, a3, 27
	add	a3, a3, a5
	lbu	a4, 0(a3)
	j	.LBB73_49
.LBB73_45:
	lw	a0, 80(t0)
	addi	a5, a5, 1
	srl	a0, a0, a5
	sll	a0, a0, a5
	beqz	a0, .LBB73_71
	neg	a3, a0
	lui	a4, 30667
	and	a0, a0, a3
	addi	a4, a4, 1329
	mul	a0, a0, a4
	srli	a0, a0, 27
	lui	a5, %hi(.LCPI73_0)
	addi	a5, a5, %lo(.LCPI73_0)
	add	a0, a0, a5
	lbu	a0, 0(a0)
	slli	a3, a0, 2
	add	a3, a3, t0
	lw	s1, 84(a3)
	beqz	s1, .LBB73_66
	neg	a3, s1
	and	a3, a3, s1
	mul	a3, a3, a4
	srli	a3, a3, 27
	add	a3, a3, a5
	lbu	a4, 0(a3)
	j	.LBB73_67
.LBB73_48:
	li	a4, 32
.LBB73_49:
	slli	a0, a0, 5
	add	a4, a4, a0
	srli	a6, a4, 5
	lw	s4, 8(t1)
	lw	s2, 12(t1)
	and	a0, s4, s2
	li	s1, -1
	beq	a0, s1, .LBB73_71
.LBB73_50:
	slli	a5, a4, 2
	add	a5, a5, t1
	lw	s3, 168(a5)
	lw	a0, 24(t1)
	slli	t0, s3, 3
	add	a3, a0, t0
	lw	a3, 16(a3)
	beq	a3, s1, .LBB73_52
	slli	a4, a3, 3
	add	a0, a0, a4
	li	a4, -1
	sw	a4, 20(a0)
	sw	a3, 168(a5)
	j	.LBB73_54
.LBB73_52:
	li	a0, -1
	slli	a3, a6, 2
	sw	a0, 168(a5)
	add	a3, a3, t1
	lw	a0, 84(a3)
	li	a5, 1
	sll	a4, a5, a4
	not	a4, a4
	and	a0, a0, a4
	sw	a0, 84(a3)
	bnez	a0, .LBB73_54
	lw	a0, 80(t1)
	sll	a3, a5, a6
	not	a3, a3
	and	a0, a0, a3
	sw	a0, 80(t1)
.LBB73_54:
	lw	s7, 24(t1)
	add	a4, s7, t0
	lw	s1, 0(a4)
	slli	a3, t3, 2
	lw	a7, 4(a4)
	sub	a5, s1, a3
	li	a3, 15
	bltu	a3, a5, .LBB73_56
	seqz	a0, s1
	addi	s1, s1, -1
	sw	a1, 16(a4)
	sw	zero, 20(a4)
	sub	a0, a7, a0
	sw	s1, 0(a4)
	sw	a0, 4(a4)
	sw	s4, 8(a4)
	sw	s2, 12(a4)
	srli	t3, s1, 2
	j	.LBB73_61
.LBB73_56:
	srli	a6, a5, 2
	add	t2, s3, t3
	sltu	a3, s1, a5
	sub	t5, s1, a5
	sw	a1, 16(a4)
	sw	zero, 20(a4)
	li	t4, 1
	andi	t6, a5, 2
	sub	a3, a7, a3
	slli	a7, t2, 3
	srli	s1, t2, 3
	andi	a0, t2, 63
	sll	s8, t4, t2
	sw	t5, 0(a4)
	sw	a3, 4(a4)
	sw	s4, 8(a4)
	sw	s2, 12(a4)
	add	s7, s7, a7
	andi	s1, s1, -8
	sll	t4, t4, a0
	addi	a0, a0, -32
	sw	a5, 0(s7)
	sw	s3, 4(s7)
	sw	s4, 8(s7)
	sw	s2, 12(s7)
	lw	a4, 48(t1)
	srli	a5, a0, 31
	srai	a0, a0, 31
	addi	a5, a5, -1
	add	a4, a4, s1
	lw	s1, 0(a4)
	lw	a3, 4(a4)
	and	a0, a0, s8
	and	a5, a5, t4
	or	a0, a0, s1
	or	a3, a3, a5
	sw	a0, 0(a4)
	sw	a3, 4(a4)
	bnez	t6, .LBB73_58
	lw	a0, 24(t1)
	add	a3, a6, t2
	slli	a3, a3, 3
	add	a0, a0, a3
	sw	t2, 4(a0)
.LBB73_58:
	ori	a0, a6, 32
	lui	a3, 349525
	srli	a4, a0, 1
	addi	a3, a3, 1365
	or	a0, a0, a4
	srli	a4, a0, 2
	or	a0, a0, a4
	srli	a4, a0, 4
	or	a0, a0, a4
	srli	a4, a0, 8
	or	a0, a0, a4
	srli	a4, a0, 16
	or	a0, a0, a4
	not	a0, a0
	srli	a4, a0, 1
	and	a3, a3, a4
	lui	a4, 209715
	addi	a4, a4, 819
	sub	a0, a0, a3
	and	a3, a0, a4
	srli	a0, a0, 2
	and	a0, a0, a4
	lui	a4, 61681
	add	a0, a0, a3
	srli	a3, a0, 4
	add	a0, a0, a3
	lui	a3, 4112
	addi	a4, a4, -241
	and	a0, a0, a4
	li	a4, 26
	addi	a3, a3, 257
	mul	a0, a0, a3
	srli	a0, a0, 24
	sub	a4, a4, a0
	srl	a0, a6, a4
	slli	a4, a4, 5
	add	a4, a4, a0
	slli	a3, a4, 2
	add	a3, a3, t1
	lw	s1, 168(a3)
	sw	t2, 168(a3)
	lw	a5, 24(t1)
	bltz	s1, .LBB73_60
	add	a7, a7, a5
	li	a0, -1
	slli	a3, s1, 3
	sw	s1, 16(a7)
	sw	a0, 20(a7)
	add	a3, a3, a5
	sw	t2, 20(a3)
	j	.LBB73_61
.LBB73_60:
	add	a5, a5, a7
	li	a3, -1
	srli	a4, a4, 5
	li	a6, 1
	sw	a3, 16(a5)
	sw	a3, 20(a5)
	slli	a3, a4, 2
	add	a3, a3, t1
	lw	a5, 80(t1)
	lw	s1, 84(a3)
	sll	a4, a6, a4
	sll	a0, a6, a0
	or	a4, a4, a5
	or	a0, a0, s1
	sw	a4, 80(t1)
	sw	a0, 84(a3)
.LBB73_61:
	lw	a0, 16(t1)
	lw	a3, 20(t1)
	add	t3, t3, a0
	sw	t3, 16(t1)
	bgeu	a3, t3, .LBB73_63
	sw	t3, 20(t1)
.LBB73_63:
	lw	s7, 0(t1)
	lw	a0, 8(t1)
	lw	a3, 12(t1)
	seqz	a4, a1
	add	a4, a4, a1
	sltu	a1, a4, a1
	addi	a5, a4, 31
	sltu	a4, a5, a4
	addi	a0, a0, 1
	add	a1, a1, a4
	seqz	a4, a0
	add	a4, a4, a3
	srli	a5, a5, 3
	slli	a1, a1, 29
	or	a1, a1, a5
	addi	a3, a1, -3
	sw	a0, 8(t1)
	sw	a4, 12(t1)
	beqz	a3, .LBB73_65
	lw	a0, 24(t1)
	add	a0, a0, t0
	addi	a0, a0, 24
	slli	a3, a3, 3
	li	a1, 0
	mv	s1, a2
	mv	a2, a3
	call	tlsf_memory_set
	mv	a2, s1
.LBB73_65:
	lw	a0, 721(s5)
	add	a0, a0, s0
	j	.LBB73_86
.LBB73_66:
	li	a4, 32
.LBB73_67:
	slli	a0, a0, 4
	add	a3, a4, a0
	srli	a6, a3, 4
.LBB73_68:
	lw	s4, 8(t0)
	lw	s2, 12(t0)
	and	a0, s4, s2
	li	s1, -1
	beq	a0, s1, .LBB73_71
	slli	a5, a3, 2
	add	a5, a5, t0
	lw	s3, 168(a5)
	lw	s0, 24(t0)
	slli	a7, s3, 3
	add	a0, s0, a7
	lw	a0, 16(a0)
	beq	a0, s1, .LBB73_72
	slli	a3, a0, 3
	add	a3, a3, s0
	li	a4, -1
	sw	a4, 20(a3)
	sw	a0, 168(a5)
	j	.LBB73_74
.LBB73_71:
	li	a0, 1
	sb	a0, 1(s6)
	li	a0, 2
	j	.LBB73_29
.LBB73_72:
	li	a0, -1
	slli	a4, a6, 2
	sw	a0, 168(a5)
	add	a0, t0, a4
	lw	a5, 84(a0)
	andi	a3, a3, 15
	li	a4, 1
	sll	a3, a4, a3
	not	a3, a3
	and	a3, a3, a5
	sw	a3, 84(a0)
	bnez	a3, .LBB73_74
	lw	a0, 80(t0)
	sll	a3, a4, a6
	not	a3, a3
	and	a0, a0, a3
	sw	a0, 80(t0)
.LBB73_74:
	lw	a0, 24(t0)
	add	a4, a0, a7
	lw	s1, 0(a4)
	slli	a3, t2, 2
	lw	s0, 4(a4)
	sub	a5, s1, a3
	li	a3, 15
	bltu	a3, a5, .LBB73_76
	seqz	a0, s1
	addi	s1, s1, -1
	sw	a1, 16(a4)
	sw	zero, 20(a4)
	sub	s0, s0, a0
	sw	s1, 0(a4)
	sw	s0, 4(a4)
	sw	s4, 8(a4)
	sw	s2, 12(a4)
	srli	t2, s1, 2
	j	.LBB73_81
.LBB73_76:
	srli	a6, a5, 2
	add	t1, s3, t2
	sltu	a3, s1, a5
	sub	t4, s1, a5
	sw	a1, 16(a4)
	sw	zero, 20(a4)
	li	t3, 1
	andi	t6, a5, 2
	sub	a3, s0, a3
	slli	t5, t1, 3
	srli	s0, t1, 3
	andi	s1, t1, 63
	sll	s7, t3, t1
	sw	t4, 0(a4)
	sw	a3, 4(a4)
	sw	s4, 8(a4)
	sw	s2, 12(a4)
	add	a0, a0, t5
	andi	s0, s0, -8
	sll	a3, t3, s1
	addi	s1, s1, -32
	sw	a5, 0(a0)
	sw	s3, 4(a0)
	sw	s4, 8(a0)
	sw	s2, 12(a0)
	lw	a0, 48(t0)
	srli	a4, s1, 31
	srai	s1, s1, 31
	addi	a4, a4, -1
	add	a0, a0, s0
	lw	a5, 0(a0)
	lw	s0, 4(a0)
	and	s1, s1, s7
	and	a3, a3, a4
	or	a5, a5, s1
	or	a3, a3, s0
	sw	a5, 0(a0)
	sw	a3, 4(a0)
	bnez	t6, .LBB73_78
	lw	a0, 24(t0)
	add	a3, a6, t1
	slli	a3, a3, 3
	add	a0, a0, a3
	sw	t1, 4(a0)
.LBB73_78:
	ori	a0, a6, 16
	lui	a3, 349525
	srli	a4, a0, 1
	addi	a3, a3, 1365
	or	a0, a0, a4
	srli	a4, a0, 2
	or	a0, a0, a4
	srli	a4, a0, 4
	or	a0, a0, a4
	srli	a4, a0, 8
	or	a0, a0, a4
	srli	a4, a0, 16
	or	a0, a0, a4
	not	a0, a0
	srli	a4, a0, 1
	and	a3, a3, a4
	lui	a4, 209715
	addi	a4, a4, 819
	sub	a0, a0, a3
	and	a3, a0, a4
	srli	a0, a0, 2
	and	a0, a0, a4
	lui	a4, 61681
	add	a0, a0, a3
	srli	a3, a0, 4
	add	a0, a0, a3
	lui	a3, 4112
	addi	a4, a4, -241
	and	a0, a0, a4
	li	a4, 27
	addi	a3, a3, 257
	mul	a0, a0, a3
	srli	a0, a0, 24
	sub	a4, a4, a0
	srl	a0, a6, a4
	slli	a4, a4, 4
	add	a4, a4, a0
	slli	a3, a4, 2
	add	a3, a3, t0
	lw	s1, 168(a3)
	sw	t1, 168(a3)
	lw	a5, 24(t0)
	bltz	s1, .LBB73_80
	add	t5, t5, a5
	li	a0, -1
	slli	a3, s1, 3
	sw	s1, 16(t5)
	sw	a0, 20(t5)
	add	a3, a3, a5
	sw	t1, 20(a3)
	j	.LBB73_81
.LBB73_80:
	add	a5, a5, t5
	li	a3, -1
	srli	a4, a4, 4
	li	s1, 1
	andi	a0, a0, 15
	sw	a3, 16(a5)
	sw	a3, 20(a5)
	slli	a3, a4, 2
	add	a3, a3, t0
	lw	a5, 80(t0)
	lw	s0, 84(a3)
	sll	a4, s1, a4
	sll	a0, s1, a0
	or	a4, a4, a5
	or	a0, a0, s0
	sw	a4, 80(t0)
	sw	a0, 84(a3)
.LBB73_81:
	lw	a3, 16(t0)
	lw	a0, 20(t0)
	add	a3, a3, t2
	sw	a3, 16(t0)
	bgeu	a0, a3, .LBB73_83
	sw	a3, 20(t0)
.LBB73_83:
	lw	s7, 0(t0)
	lw	a0, 8(t0)
	lw	a3, 12(t0)
	seqz	a4, a1
	add	a4, a4, a1
	sltu	a1, a4, a1
	addi	a5, a4, 31
	sltu	a4, a5, a4
	addi	a0, a0, 1
	add	a1, a1, a4
	seqz	a4, a0
	add	a4, a4, a3
	srli	a5, a5, 3
	slli	a1, a1, 29
	or	a1, a1, a5
	addi	a3, a1, -3
	sw	a0, 8(t0)
	sw	a4, 12(t0)
	beqz	a3, .LBB73_85
	lw	a0, 24(t0)
	add	a0, a0, a7
	addi	a0, a0, 24
	slli	a3, a3, 3
	li	a1, 0
	mv	s0, a2
	mv	a2, a3
	call	tlsf_memory_set
	mv	a2, s0
.LBB73_85:
	lw	a0, 721(s5)
	add	a0, a0, s8
.LBB73_86:
	lw	a1, 0(a0)
	addi	a1, a1, 1
	sw	a1, 0(a0)
	li	a0, 0
	li	a6, 1
	srli	a7, s7, 24
	srli	t2, s7, 16
	srli	a5, s7, 8
	srli	t0, s3, 24
	srli	s0, s3, 16
	srli	a1, s3, 8
	srli	t1, s4, 24
	srli	s1, s4, 16
	sb	a6, 1(s6)
	srli	a3, s4, 8
	srli	a4, s2, 24
	sb	s7, 0(a2)
	sb	a5, 1(a2)
	sb	t2, 2(a2)
	sb	a7, 3(a2)
	srli	a5, s2, 16
	sb	s3, 4(a2)
	sb	a1, 5(a2)
	sb	s0, 6(a2)
	sb	t0, 7(a2)
	srli	a1, s2, 8
	sb	s4, 8(a2)
	sb	a3, 9(a2)
	sb	s1, 10(a2)
	sb	t1, 11(a2)
	sb	s2, 12(a2)
	sb	a1, 13(a2)
	sb	a5, 14(a2)
	sb	a4, 15(a2)
	j	.LBB73_29
.Lfunc_end73:
	.size	tlsf_pools_allocate, .Lfunc_end73-tlsf_pools_allocate
	.cfi_endproc
	.section	.text.tlsf_pools_check,"ax",@progbits
	.globl	tlsf_pools_check
	.p2align	1
	.type	tlsf_pools_check,@function
tlsf_pools_check:
	.cfi_startproc
	addi	sp, sp, -48
	.cfi_def_cfa_offset 48
	sw	ra, 44(sp)
	sw	s0, 40(sp)
	sw	s1, 36(sp)
	sw	s2, 32(sp)
	sw	s3, 28(sp)
	sw	s4, 24(sp)
	sw	s5, 20(sp)
	sw	s6, 16(sp)
	sw	s7, 12(sp)
	.cfi_offset ra, -4
	.cfi_offset s0, -8
	.cfi_offset s1, -12
	.cfi_offset s2, -16
	.cfi_offset s3, -20
	.cfi_offset s4, -24
	.cfi_offset s5, -28
	.cfi_offset s6, -32
	.cfi_offset s7, -36
	.cfi_remember_state
	mv	s3, a2
	lbu	a2, 8(a0)
	beqz	a2, .LBB74_12
	lw	s0, 0(a0)
	lbu	a0, 1(s0)
	beqz	a0, .LBB74_12
	lbu	a0, 0(s0)
	li	a2, 1
	bne	a0, a2, .LBB74_19
	mv	s1, a3
	lbu	a3, 8(s0)
	lw	a2, 32(s0)
	lw	a0, 36(s0)
	sb	zero, 1(s0)
	sltu	a2, a1, a2
	snez	a0, a0
	or	a0, a0, a2
	beqz	a3, .LBB74_8
	beqz	a0, .LBB74_28
	lw	s2, 24(s0)
	lui	a0, 1
	addi	a0, a0, -1304
	mul	a0, a1, a0
	add	s2, s2, a0
	lw	s4, 32(s2)
	addi	a0, s4, -4
	bltu	a0, s3, .LBB74_28
	lw	a2, 48(s2)
	srli	a0, s3, 3
	andi	a0, a0, -8
	add	a2, a2, a0
	lw	a0, 4(a2)
	andi	a1, s3, 63
	addi	a3, a1, -32
	bltz	a3, .LBB74_13
	srl	a0, a0, a1
	andi	a0, a0, 1
	bnez	a0, .LBB74_14
	j	.LBB74_28
.LBB74_8:
	beqz	a0, .LBB74_28
	lw	s2, 24(s0)
	lui	a0, 1
	addi	a0, a0, -1304
	mul	a0, a1, a0
	add	s2, s2, a0
	lw	s4, 32(s2)
	addi	a0, s4, -4
	bltu	a0, s3, .LBB74_28
	lw	a2, 48(s2)
	srli	a0, s3, 3
	andi	a0, a0, -8
	add	a2, a2, a0
	lw	a0, 4(a2)
	andi	a1, s3, 63
	addi	a3, a1, -32
	bltz	a3, .LBB74_21
	srl	a0, a0, a1
	andi	a0, a0, 1
	bnez	a0, .LBB74_22
	j	.LBB74_28
.LBB74_12:
	li	a0, 0
	j	.LBB74_20
.LBB74_13:
	lw	a2, 0(a2)
	slli	a0, a0, 1
	not	a1, a1
	srl	a2, a2, s3
	sll	a0, a0, a1
	or	a0, a0, a2
	andi	a0, a0, 1
	beqz	a0, .LBB74_28
.LBB74_14:
	beqz	s1, .LBB74_30
	mv	s6, a5
	mv	s5, a4
	addi	s2, s2, 24
	li	s7, 1
.LBB74_16:
	mv	a0, s2
	mv	a1, s3
	call	tlsf_heap.check.examine
	zext.b	a0, a0
	bne	a0, s7, .LBB74_31
	beq	a1, s4, .LBB74_32
	addi	s1, s1, -1
	mv	s3, a1
	bnez	s1, .LBB74_16
	j	.LBB74_27
.LBB74_19:
	li	a0, 2
.LBB74_20:
	lw	ra, 44(sp)
	lw	s0, 40(sp)
	lw	s1, 36(sp)
	lw	s2, 32(sp)
	lw	s3, 28(sp)
	lw	s4, 24(sp)
	lw	s5, 20(sp)
	lw	s6, 16(sp)
	lw	s7, 12(sp)
	.cfi_restore ra
	.cfi_restore s0
	.cfi_restore s1
	.cfi_restore s2
	.cfi_restore s3
	.cfi_restore s4
	.cfi_restore s5
	.cfi_restore s6
	.cfi_restore s7
	addi	sp, sp, 48
	.cfi_def_cfa_offset 0
	tail	tlsf_c.call_fault.CallFault.refusal
.LBB74_21:
	.cfi_restore_state
	.cfi_remember_state
	lw	a2, 0(a2)
	slli	a0, a0, 1
	not	a1, a1
	srl	a2, a2, s3
	sll	a0, a0, a1
	or	a0, a0, a2
	andi	a0, a0, 1
	beqz	a0, .LBB74_28
.LBB74_22:
	beqz	s1, .LBB74_30
	mv	s6, a5
	mv	s5, a4
	addi	s2, s2, 24
	li	s7, 1
.LBB74_24:
	mv	a0, s2
	mv	a1, s3
	call	tlsf_heap.check.examine
	zext.b	a0, a0
	bne	a0, s7, .LBB74_31
	beq	a1, s4, .LBB74_32
	addi	s1, s1, -1
	mv	s3, a1
	bnez	s1, .LBB74_24
.LBB74_27:
	li	a0, 0
	mv	s3, a1
	j	.LBB74_33
.LBB74_28:
	li	a0, 1
	sb	a0, 1(s0)
	li	a0, 4
.LBB74_29:
	lw	ra, 44(sp)
	lw	s0, 40(sp)
	lw	s1, 36(sp)
	lw	s2, 32(sp)
	lw	s3, 28(sp)
	lw	s4, 24(sp)
	lw	s5, 20(sp)
	lw	s6, 16(sp)
	lw	s7, 12(sp)
	.cfi_restore ra
	.cfi_restore s0
	.cfi_restore s1
	.cfi_restore s2
	.cfi_restore s3
	.cfi_restore s4
	.cfi_restore s5
	.cfi_restore s6
	.cfi_restore s7
	addi	sp, sp, 48
	.cfi_def_cfa_offset 0
	ret
.LBB74_30:
	.cfi_restore_state
	li	a0, 0
	j	.LBB74_34
.LBB74_31:
	li	a0, 36
	mv	a4, s6
	j	.LBB74_34
.LBB74_32:
	li	s3, 0
	li	a0, 0
.LBB74_33:
	mv	a4, s5
.LBB74_34:
	li	a1, 1
	sb	a1, 1(s0)
	sw	s3, 0(a4)
	j	.LBB74_29
.Lfunc_end74:
	.size	tlsf_pools_check, .Lfunc_end74-tlsf_pools_check
	.cfi_endproc
	.section	.text.tlsf_pools_close,"ax",@progbits
	.globl	tlsf_pools_close
	.p2align	1
	.type	tlsf_pools_close,@function
tlsf_pools_close:
	.cfi_startproc
	mv	a1, a0
	lbu	a2, 8(a0)
	li	a0, 32
	beqz	a2, .LBB75_4
	lw	a2, 0(a1)
	lbu	a3, 1(a2)
	beqz	a3, .LBB75_4
	lbu	a0, 0(a2)
	li	a2, 1
	bne	a0, a2, .LBB75_5
	addi	sp, sp, -16
	.cfi_def_cfa_offset 16
	sw	ra, 12(sp)
	.cfi_offset ra, -4
	mv	a0, a1
	call	tlsf_c.arena_slot.ArenaSlot.close
	li	a0, 0
	lw	ra, 12(sp)
	.cfi_restore ra
	addi	sp, sp, 16
	.cfi_def_cfa_offset 0
.LBB75_4:
	ret
.LBB75_5:
	li	a0, 40
	ret
.Lfunc_end75:
	.size	tlsf_pools_close, .Lfunc_end75-tlsf_pools_close
	.cfi_endproc
	.section	.text.tlsf_pools_counts,"ax",@progbits
	.globl	tlsf_pools_counts
	.p2align	1
	.type	tlsf_pools_counts,@function
tlsf_pools_counts:
	.cfi_startproc
	addi	sp, sp, -16
	.cfi_def_cfa_offset 16
	sw	s0, 12(sp)
	.cfi_offset s0, -4
	.cfi_remember_state
	lbu	a4, 8(a0)
	beqz	a4, .LBB76_23
	lw	a6, 0(a0)
	lbu	a0, 1(a6)
	beqz	a0, .LBB76_23
	lbu	a0, 0(a6)
	li	a4, 1
	bne	a0, a4, .LBB76_28
	lbu	a0, 8(a6)
	lw	t0, 24(a6)
	lw	a7, 32(a6)
	lw	t1, 36(a6)
	sb	zero, 1(a6)
	beqz	a0, .LBB76_12
	or	a0, a7, t1
	beqz	a0, .LBB76_20
	li	t6, 0
	li	t5, 0
	li	a0, 0
	lui	t2, 1
	addi	t2, t2, -1304
	j	.LBB76_7
.LBB76_6:
	sltu	t3, t5, t1
	sltu	s0, a1, a5
	sub	a0, a0, a4
	sub	a0, a0, s0
	sub	a1, a1, a5
	beqz	t3, .LBB76_20
.LBB76_7:
	mul	t3, t6, t2
	add	t3, t3, t0
	addi	t4, t3, 2047
	lw	a4, 701(t4)
	lw	a5, 697(t4)
	beq	a0, a4, .LBB76_9
	sltu	s0, a0, a4
	beqz	s0, .LBB76_10
	j	.LBB76_21
.LBB76_9:
	sltu	s0, a1, a5
	bnez	s0, .LBB76_21
.LBB76_10:
	addi	t6, t6, 1
	seqz	s0, t6
	add	t5, t5, s0
	bne	t5, t1, .LBB76_6
	sltu	t3, t6, a7
	sltu	s0, a1, a5
	sub	a0, a0, a4
	sub	a0, a0, s0
	sub	a1, a1, a5
	bnez	t3, .LBB76_7
	j	.LBB76_20
.LBB76_12:
	or	a0, a7, t1
	beqz	a0, .LBB76_20
	li	t6, 0
	li	t2, 0
	li	a0, 0
	lui	t4, 1
	addi	t4, t4, -1304
	j	.LBB76_15
.LBB76_14:
	sltu	t3, t2, t1
	sltu	s0, a1, a5
	sub	a0, a0, a4
	sub	a0, a0, s0
	sub	a1, a1, a5
	beqz	t3, .LBB76_20
.LBB76_15:
	mul	t3, t6, t4
	add	t3, t3, t0
	addi	t5, t3, 2047
	lw	a4, 701(t5)
	lw	a5, 697(t5)
	beq	a0, a4, .LBB76_17
	sltu	s0, a0, a4
	beqz	s0, .LBB76_18
	j	.LBB76_24
.LBB76_17:
	sltu	s0, a1, a5
	bnez	s0, .LBB76_24
.LBB76_18:
	addi	t6, t6, 1
	seqz	s0, t6
	add	t2, t2, s0
	bne	t2, t1, .LBB76_14
	sltu	t3, t6, a7
	sltu	s0, a1, a5
	sub	a0, a0, a4
	sub	a0, a0, s0
	sub	a1, a1, a5
	bnez	t3, .LBB76_15
.LBB76_20:
	li	a0, 1
	sb	a0, 1(a6)
	li	a0, 4
	lw	s0, 12(sp)
	.cfi_restore s0
	addi	sp, sp, 16
	.cfi_def_cfa_offset 0
	ret
.LBB76_21:
	.cfi_restore_state
	.cfi_remember_state
	lw	a4, 733(t4)
	beq	a0, a4, .LBB76_26
	sltu	a0, a0, a4
	bnez	a0, .LBB76_27
	j	.LBB76_32
.LBB76_23:
	li	a0, 0
	lw	s0, 12(sp)
	.cfi_restore s0
	addi	sp, sp, 16
	.cfi_def_cfa_offset 0
	tail	tlsf_c.call_fault.CallFault.refusal
.LBB76_24:
	.cfi_restore_state
	.cfi_remember_state
	lw	a4, 733(t5)
	beq	a0, a4, .LBB76_29
	sltu	a0, a0, a4
	bnez	a0, .LBB76_30
	j	.LBB76_32
.LBB76_26:
	lw	a0, 729(t4)
	sltu	a0, a1, a0
	beqz	a0, .LBB76_32
.LBB76_27:
	lw	a0, 721(t4)
	j	.LBB76_31
.LBB76_28:
	li	a0, 2
	lw	s0, 12(sp)
	.cfi_restore s0
	addi	sp, sp, 16
	.cfi_def_cfa_offset 0
	tail	tlsf_c.call_fault.CallFault.refusal
.LBB76_29:
	.cfi_restore_state
	lw	a0, 729(t5)
	sltu	a0, a1, a0
	beqz	a0, .LBB76_32
.LBB76_30:
	lw	a0, 721(t5)
.LBB76_31:
	slli	a4, a1, 2
	add	a0, a0, a4
	lw	a4, 0(a0)
	j	.LBB76_33
.LBB76_32:
	li	a4, 0
.LBB76_33:
	li	a0, 0
	addi	a5, t3, 2047
	lw	a5, 689(a5)
	slli	a1, a1, 3
	add	a1, a1, a5
	lw	a1, 0(a1)
	li	a5, 1
	sb	a5, 1(a6)
	sw	a4, 0(a2)
	sw	a1, 0(a3)
	lw	s0, 12(sp)
	.cfi_restore s0
	addi	sp, sp, 16
	.cfi_def_cfa_offset 0
	ret
.Lfunc_end76:
	.size	tlsf_pools_counts, .Lfunc_end76-tlsf_pools_counts
	.cfi_endproc
	.section	.text.tlsf_pools_open,"ax",@progbits
	.globl	tlsf_pools_open
	.p2align	1
	.type	tlsf_pools_open,@function
tlsf_pools_open:
	.cfi_startproc
	addi	sp, sp, -1072
	.cfi_def_cfa_offset 1072
	sw	ra, 1068(sp)
	sw	s0, 1064(sp)
	sw	s1, 1060(sp)
	sw	s2, 1056(sp)
	sw	s3, 1052(sp)
	sw	s4, 1048(sp)
	sw	s5, 1044(sp)
	sw	s6, 1040(sp)
	sw	s7, 1036(sp)
	sw	s8, 1032(sp)
	sw	s9, 1028(sp)
	sw	s10, 1024(sp)
	sw	s11, 1020(sp)
	.cfi_offset ra, -4
	.cfi_offset s0, -8
	.cfi_offset s1, -12
	.cfi_offset s2, -16
	.cfi_offset s3, -20
	.cfi_offset s4, -24
	.cfi_offset s5, -28
	.cfi_offset s6, -32
	.cfi_offset s7, -36
	.cfi_offset s8, -40
	.cfi_offset s9, -44
	.cfi_offset s10, -48
	.cfi_offset s11, -52
	.cfi_remember_state
	sw	zero, 156(sp)
	lbu	a5, 8(a0)
	sw	zero, 140(sp)
	sw	zero, 144(sp)
	sw	zero, 148(sp)
	sw	zero, 152(sp)
	beqz	a5, .LBB77_2
	li	a0, 33
	j	.LBB77_219
.LBB77_2:
	addi	a5, a1, -6
	li	s1, -2
	bgeu	a5, s1, .LBB77_4
	li	a0, 34
	j	.LBB77_219
.LBB77_4:
	mv	a5, a0
	li	s1, -8
	li	a0, 5
	bgeu	s1, a2, .LBB77_5
	j	.LBB77_219
.LBB77_5:
	li	s1, 64
	bgeu	s1, a4, .LBB77_6
	j	.LBB77_219
.LBB77_6:
	mv	s1, a3
	sw	a1, 136(sp)
	sw	a2, 132(sp)
	sw	a5, 124(sp)
	sw	zero, 672(sp)
	sw	zero, 676(sp)
	sw	zero, 680(sp)
	sw	zero, 684(sp)
	sw	zero, 688(sp)
	addi	a0, sp, 160
	li	a2, 512
	addi	s3, sp, 160
	li	a1, 0
	mv	s2, a4
	call	tlsf_memory_set
	beqz	s2, .LBB77_9
	mv	a7, s2
	li	a1, 0
	li	s0, 0
	seqz	a3, s1
	slli	a3, a3, 12
	add	a6, s1, a3
.LBB77_8:
	slli	a4, a1, 4
	slli	t0, a1, 3
	addi	a1, a1, 1
	add	a4, a4, a6
	seqz	a2, a1
	sltu	s1, a1, a7
	lbu	a3, 0(a4)
	lbu	a0, 1(a4)
	lbu	a5, 2(a4)
	lbu	t1, 3(a4)
	add	s0, s0, a2
	seqz	a2, s0
	and	t2, a2, s1
	slli	a0, a0, 8
	or	t3, a0, a3
	lbu	a3, 8(a4)
	lbu	s1, 9(a4)
	lbu	a2, 10(a4)
	lbu	a0, 11(a4)
	slli	a5, a5, 16
	slli	t1, t1, 24
	slli	s1, s1, 8
	slli	a2, a2, 16
	slli	a0, a0, 24
	or	a5, t1, a5
	or	t1, s1, a3
	or	a0, a0, a2
	lbu	a2, 13(a4)
	lbu	s1, 12(a4)
	lbu	a3, 14(a4)
	lbu	a4, 15(a4)
	slli	a2, a2, 8
	or	a2, a2, s1
	slli	a3, a3, 16
	slli	a4, a4, 24
	or	a3, a3, a4
	or	a4, a5, t3
	or	a0, a0, t1
	or	a2, a2, a3
	add	t0, t0, s3
	seqz	a2, a2
	addi	a2, a2, -1
	or	a0, a0, a2
	sw	a4, 0(t0)
	sw	a0, 4(t0)
	bnez	t2, .LBB77_8
.LBB77_9:
	sw	zero, 720(sp)
	sw	zero, 724(sp)
	sw	zero, 728(sp)
	sw	zero, 732(sp)
	sw	zero, 736(sp)
	sw	zero, 740(sp)
	sw	zero, 744(sp)
	sw	zero, 692(sp)
	sw	zero, 696(sp)
	sw	zero, 700(sp)
	sw	zero, 704(sp)
	li	a1, 4
	sw	zero, 708(sp)
	sw	zero, 712(sp)
	sw	zero, 716(sp)
	lw	a0, 136(sp)
	bne	a0, a1, .LBB77_14
	addi	a0, sp, 808
	li	a2, 88
	li	a1, 0
	call	tlsf_memory_set
	sw	zero, 776(sp)
	sw	zero, 780(sp)
	sw	zero, 784(sp)
	sw	zero, 788(sp)
	sw	zero, 792(sp)
	sw	zero, 796(sp)
	sw	zero, 800(sp)
	sh	zero, 804(sp)
	sw	zero, 748(sp)
	sw	zero, 752(sp)
	sw	zero, 756(sp)
	sw	zero, 760(sp)
	sw	zero, 764(sp)
	sw	zero, 768(sp)
	sw	zero, 772(sp)
	addi	a0, sp, 808
	addi	a1, sp, 160
	mv	a2, s2
	li	a3, 0
	call	tlsf_pool.sizes.split.rising_split.4
	lbu	a0, 808(sp)
	li	a1, 1
	li	s0, 0
	beq	a0, a1, .LBB77_11
	j	.LBB77_218
.LBB77_11:
	addi	a1, sp, 816
	addi	a0, sp, 896
	li	a2, 80
	call	tlsf_memory_cpy
	lw	s7, 896(sp)
	lw	s11, 900(sp)
	sw	zero, 992(sp)
	sw	zero, 996(sp)
	or	a0, s7, s11
	sw	zero, 976(sp)
	sw	zero, 980(sp)
	sw	zero, 984(sp)
	sw	zero, 988(sp)
	beqz	a0, .LBB77_18
	lui	a0, 188
	addi	a0, a0, -892
	beq	s11, a0, .LBB77_26
	sltu	a0, a0, s11
	j	.LBB77_27
.LBB77_14:
	addi	a0, sp, 808
	li	a2, 88
	li	a1, 0
	call	tlsf_memory_set
	sw	zero, 776(sp)
	sw	zero, 780(sp)
	sw	zero, 784(sp)
	sw	zero, 788(sp)
	sw	zero, 792(sp)
	sw	zero, 796(sp)
	sw	zero, 800(sp)
	sh	zero, 804(sp)
	sw	zero, 748(sp)
	sw	zero, 752(sp)
	sw	zero, 756(sp)
	sw	zero, 760(sp)
	sw	zero, 764(sp)
	sw	zero, 768(sp)
	sw	zero, 772(sp)
	addi	a0, sp, 808
	addi	a1, sp, 160
	mv	a2, s2
	li	a3, 0
	call	tlsf_pool.sizes.split.rising_split.5
	lbu	a0, 808(sp)
	li	a1, 1
	li	s0, 0
	beq	a0, a1, .LBB77_15
	j	.LBB77_218
.LBB77_15:
	addi	a1, sp, 816
	addi	a0, sp, 896
	li	a2, 80
	call	tlsf_memory_cpy
	lw	s4, 896(sp)
	lw	s7, 900(sp)
	sw	zero, 992(sp)
	sw	zero, 996(sp)
	or	a0, s4, s7
	sw	zero, 976(sp)
	sw	zero, 980(sp)
	sw	zero, 984(sp)
	sw	zero, 988(sp)
	beqz	a0, .LBB77_20
	lui	a0, 188
	addi	a0, a0, -892
	beq	s7, a0, .LBB77_103
	sltu	a0, a0, s7
	j	.LBB77_104
.LBB77_18:
	addi	a0, sp, 1016
	sw	a0, 976(sp)
	sw	zero, 984(sp)
	sw	zero, 988(sp)
	sw	zero, 992(sp)
	sw	zero, 996(sp)
.LBB77_19:
	addi	s0, sp, 782
	addi	a1, sp, 976
	li	a2, 24
	mv	a0, s0
	call	tlsf_memory_cpy
	addi	a0, sp, 752
	li	a2, 24
	mv	a1, s0
	call	tlsf_memory_cpy
	li	s2, 0
	lw	a0, 748(sp)
	lw	a1, 752(sp)
	lw	a2, 756(sp)
	lw	a3, 760(sp)
	lw	a4, 764(sp)
	lw	a5, 768(sp)
	lw	s1, 772(sp)
	sw	a0, 720(sp)
	sw	a1, 724(sp)
	sw	a2, 728(sp)
	sw	a3, 732(sp)
	sw	a4, 736(sp)
	sw	a5, 740(sp)
	sw	s1, 744(sp)
	addi	a0, sp, 720
	j	.LBB77_22
.LBB77_20:
	addi	a0, sp, 1016
	sw	a0, 976(sp)
	sw	zero, 984(sp)
	sw	zero, 988(sp)
	sw	zero, 992(sp)
	sw	zero, 996(sp)
.LBB77_21:
	addi	s0, sp, 782
	addi	a1, sp, 976
	li	a2, 24
	mv	a0, s0
	call	tlsf_memory_cpy
	addi	a0, sp, 752
	li	a2, 24
	mv	a1, s0
	call	tlsf_memory_cpy
	lw	a0, 748(sp)
	lw	a1, 752(sp)
	lw	a2, 756(sp)
	lw	a3, 760(sp)
	lw	a4, 764(sp)
	lw	a5, 768(sp)
	lw	s1, 772(sp)
	sw	a0, 692(sp)
	sw	a1, 696(sp)
	sw	a2, 700(sp)
	sw	a3, 704(sp)
	li	s2, 1
	sw	a4, 708(sp)
	sw	a5, 712(sp)
	sw	s1, 716(sp)
	addi	a0, sp, 692
.LBB77_22:
	lw	a1, 0(a0)
	lw	a2, 4(a0)
	lw	a3, 8(a0)
	lw	a4, 12(a0)
	lw	a5, 16(a0)
	lw	s1, 20(a0)
	lw	s4, 24(a0)
	sw	a3, 680(sp)
	sw	a4, 684(sp)
	sw	a5, 688(sp)
	sw	a1, 140(sp)
	sw	a2, 144(sp)
	sw	a3, 148(sp)
	sw	a4, 152(sp)
	sw	a5, 156(sp)
	lui	a1, 1
	addi	a0, sp, 896
	addi	a1, a1, -1336
	li	a2, 8
	call	tlsf_memory_alloc
	lw	a0, 896(sp)
	andi	a0, a0, 1
	beqz	a0, .LBB77_24
	lw	s0, 904(sp)
	li	s3, 1
	lw	a0, 132(sp)
	srli	a1, a0, 24
	srli	a2, a0, 16
	sb	a2, 18(s0)
	sb	a1, 19(s0)
	srli	a1, a0, 8
	sb	zero, 10(s0)
	sb	zero, 11(s0)
	sb	zero, 12(s0)
	sb	zero, 13(s0)
	sb	s3, 0(s0)
	sb	s3, 1(s0)
	sb	s2, 8(s0)
	sb	zero, 9(s0)
	sb	zero, 14(s0)
	sb	zero, 15(s0)
	sb	a0, 16(s0)
	sb	a1, 17(s0)
	addi	a0, s0, 20
	addi	a1, sp, 140
	li	a2, 20
	call	tlsf_memory_cpy
	li	a0, 0
	srli	a6, s1, 24
	srli	a2, s1, 16
	srli	a3, s1, 8
	srli	a4, s4, 24
	srli	a5, s4, 16
	srli	a1, s4, 8
	srli	a7, s0, 24
	sb	s1, 40(s0)
	sb	a3, 41(s0)
	sb	a2, 42(s0)
	sb	a6, 43(s0)
	srli	a2, s0, 16
	sb	s4, 44(s0)
	sb	a1, 45(s0)
	sb	a5, 46(s0)
	sb	a4, 47(s0)
	srli	a1, s0, 8
	lw	a3, 124(sp)
	sb	s0, 0(a3)
	sb	a1, 1(a3)
	sb	a2, 2(a3)
	sb	a7, 3(a3)
	sb	zero, 4(a3)
	sb	zero, 5(a3)
	sb	zero, 6(a3)
	sb	zero, 7(a3)
	sb	s3, 8(a3)
	sb	zero, 9(a3)
	sb	zero, 10(a3)
	sb	zero, 11(a3)
	sb	zero, 12(a3)
	sb	zero, 13(a3)
	sb	zero, 14(a3)
	sb	zero, 15(a3)
	j	.LBB77_219
.LBB77_24:
	li	a2, 4
	addi	a0, sp, 144
	lw	a1, 136(sp)
	beq	a1, a2, .LBB77_25
	j	.LBB77_180
.LBB77_25:
	lw	a1, 0(a0)
	lw	a2, 4(a0)
	lw	a3, 8(a0)
	lw	a0, 12(a0)
	sw	a1, 160(sp)
	sw	a2, 164(sp)
	sw	a3, 168(sp)
	sw	a0, 172(sp)
	sw	s1, 176(sp)
	sw	s4, 180(sp)
	addi	a0, sp, 160
	call	std_alloc.vec.Vec.drop.01e19ae241269710
	li	a0, 6
	j	.LBB77_219
.LBB77_26:
	lui	a0, 36054
	addi	a0, a0, 774
	sltu	a0, a0, s7
.LBB77_27:
	li	s0, 2
	beqz	a0, .LBB77_28
	j	.LBB77_218
.LBB77_28:
	lui	a2, 1
	addi	a2, a2, -1304
	mul	a0, s11, a2
	mulhu	a1, s7, a2
	add	a0, a0, a1
	sw	a2, 24(sp)
	mul	a1, s7, a2
	seqz	a0, a0
	addi	a0, a0, -1
	or	a1, a1, a0
	addi	a0, sp, 1000
	li	a2, 8
	call	tlsf_memory_alloc
	lw	a0, 1000(sp)
	andi	a0, a0, 1
	bnez	a0, .LBB77_29
	j	.LBB77_218
.LBB77_29:
	sw	zero, 28(sp)
	li	s10, 0
	li	a7, 0
	li	s3, 0
	li	a6, 0
	lw	a4, 1008(sp)
	sw	s7, 992(sp)
	sw	s11, 996(sp)
	addi	s6, sp, 160
	lui	a0, 349525
	lui	a1, 209715
	lui	a2, 61681
	lui	a3, 4112
	lui	a5, 2048
	addi	a0, a0, 1365
	sw	a0, 116(sp)
	addi	a0, a1, 819
	sw	a0, 112(sp)
	addi	a0, a2, -241
	sw	a0, 108(sp)
	addi	a0, a3, 257
	sw	a0, 104(sp)
	sw	a4, 92(sp)
	sw	a4, 976(sp)
	sw	zero, 980(sp)
	sw	zero, 984(sp)
	sw	zero, 988(sp)
	addi	s0, a5, -23
	sw	s7, 60(sp)
	sw	s11, 56(sp)
	sw	s0, 64(sp)
	j	.LBB77_32
.LBB77_30:
	sltu	a1, a6, s11
.LBB77_31:
	lw	s2, 120(sp)
	lw	a2, 84(sp)
	lw	s0, 64(sp)
	slli	a0, s9, 3
	sub	a2, a2, s5
	sltu	a3, s2, s9
	add	s6, s6, a0
	sub	a7, a2, a3
	sub	s2, s2, s9
	lw	a0, 72(sp)
	sw	a0, 28(sp)
	beqz	a1, .LBB77_19
.LBB77_32:
	not	a0, s3
	add	a0, a0, s7
	slli	a0, a0, 3
	addi	a1, sp, 904
	add	a0, a0, a1
	lw	a1, 4(a0)
	lw	a0, 0(a0)
	beq	a7, a1, .LBB77_34
	sltu	a2, a7, a1
	j	.LBB77_35
.LBB77_34:
	sltu	a2, s2, a0
.LBB77_35:
	mv	s5, a7
	mv	s9, s2
	bnez	a2, .LBB77_37
	mv	s5, a1
	mv	s9, a0
.LBB77_37:
	or	t0, s9, s5
	beqz	t0, .LBB77_56
	li	a1, 0
	li	a2, 0
	j	.LBB77_40
.LBB77_39:
	sltu	a0, a1, s9
	beqz	a0, .LBB77_43
.LBB77_40:
	slli	a0, a1, 3
	add	a0, a0, s6
	lw	a0, 4(a0)
	bltu	a0, s0, .LBB77_41
	j	.LBB77_222
.LBB77_41:
	addi	a1, a1, 1
	seqz	a0, a1
	add	a2, a2, a0
	beq	a2, s5, .LBB77_39
	sltu	a0, a2, s5
	bnez	a0, .LBB77_40
.LBB77_43:
	li	a3, 0
	li	a1, 0
	li	a5, 0
	li	a4, 0
	j	.LBB77_46
.LBB77_44:
	sltu	a0, a4, s5
.LBB77_45:
	slli	a5, a5, 3
	add	a5, a5, s6
	lw	a2, 0(a5)
	add	a2, a2, a3
	sltu	a3, a2, a3
	add	a1, a1, a3
	mv	a3, a2
	mv	a5, s1
	beqz	a0, .LBB77_48
.LBB77_46:
	addi	s1, a5, 1
	seqz	a0, s1
	add	a4, a4, a0
	bne	a4, s5, .LBB77_44
	sltu	a0, s1, s9
	j	.LBB77_45
.LBB77_48:
	li	a3, 0
	li	a4, 0
	li	a5, 0
	j	.LBB77_50
.LBB77_49:
	sltu	a0, a5, s5
	beqz	a0, .LBB77_57
.LBB77_50:
	slli	a0, a4, 3
	add	a0, a0, s6
	lw	s1, 0(a0)
	beqz	s1, .LBB77_54
	lw	a0, 4(a0)
	bltu	a3, a0, .LBB77_53
	mv	a0, a3
.LBB77_53:
	mv	a3, a0
.LBB77_54:
	addi	a4, a4, 1
	seqz	a0, a4
	add	a5, a5, a0
	bne	a5, s5, .LBB77_49
	sltu	a0, a4, s9
	bnez	a0, .LBB77_50
	j	.LBB77_57
.LBB77_56:
	li	a2, 0
	li	a1, 0
	li	a3, 0
.LBB77_57:
	seqz	a0, a3
	add	a0, a0, a3
	sltu	a3, a0, a3
	addi	a4, a0, 31
	sltu	a0, a4, a0
	srli	a4, a4, 3
	add	a0, a0, a3
	slli	a0, a0, 29
	or	a0, a0, a4
	ori	a3, a0, 16
	addi	a0, a0, -1
	srli	a4, a3, 1
	or	a3, a3, a4
	srli	a4, a3, 2
	or	a3, a3, a4
	srli	a4, a3, 4
	or	a3, a3, a4
	srli	a4, a3, 8
	or	a3, a3, a4
	srli	a4, a3, 16
	or	a3, a3, a4
	not	a3, a3
	srli	a4, a3, 1
	lw	a5, 116(sp)
	and	a4, a4, a5
	sub	a3, a3, a4
	lw	a5, 112(sp)
	and	a4, a3, a5
	srli	a3, a3, 2
	and	a3, a3, a5
	add	a3, a3, a4
	srli	a4, a3, 4
	add	a3, a3, a4
	lw	a4, 108(sp)
	and	a3, a3, a4
	lw	a4, 104(sp)
	mul	a3, a3, a4
	srli	a3, a3, 24
	li	a4, 27
	sub	a4, a4, a3
	srl	a3, a0, a4
	addi	a3, a3, 1
	slli	a0, a4, 4
	add	a0, a0, a3
	srli	a4, a0, 4
	beqz	a4, .LBB77_59
	li	a0, 8
	sll	a0, a0, a4
	andi	a3, a3, 15
	addi	a4, a4, -1
	sll	a3, a3, a4
	add	a0, a0, a3
.LBB77_59:
	mulhu	s8, a2, a0
	mul	a1, a1, a0
	add	s4, s8, a1
	mul	s1, a2, a0
	li	a1, 4
	mv	a0, s1
	bnez	s4, .LBB77_63
	li	a0, 4
	mv	a3, s1
	bgeu	a1, s1, .LBB77_64
.LBB77_61:
	beqz	s4, .LBB77_65
.LBB77_62:
	mv	a3, a0
	snez	a0, s4
	lui	a1, 256
	sltu	a1, a1, s1
	or	a0, a0, a1
	beqz	a0, .LBB77_66
	j	.LBB77_222
.LBB77_63:
	mv	a3, s1
	bltu	a1, s1, .LBB77_61
.LBB77_64:
	li	a3, 4
	bnez	s4, .LBB77_62
.LBB77_65:
	snez	a0, s4
	lui	a1, 256
	sltu	a1, a1, s1
	or	a0, a0, a1
	beqz	a0, .LBB77_66
	j	.LBB77_222
.LBB77_66:
	lui	a0, 256
	bgeu	a0, a3, .LBB77_67
	j	.LBB77_183
.LBB77_67:
	mv	s8, t0
	sw	a7, 84(sp)
	sw	a6, 88(sp)
	sw	s2, 120(sp)
	slli	a1, a3, 3
	addi	a0, sp, 1000
	li	a2, 8
	mv	s0, a3
	call	tlsf_memory_alloc
	lw	a0, 1000(sp)
	andi	a0, a0, 1
	li	a1, 2
	sw	a1, 16(sp)
	bnez	a0, .LBB77_68
	j	.LBB77_187
.LBB77_68:
	sw	s1, 76(sp)
	sw	s3, 96(sp)
	lw	s3, 1008(sp)
	sw	s0, 100(sp)
	addi	s1, s0, 63
	srli	s1, s1, 6
	sw	zero, 16(s3)
	sw	zero, 20(s3)
	sw	zero, 24(s3)
	sw	zero, 28(s3)
	sw	zero, 0(s3)
	sw	zero, 4(s3)
	sw	zero, 8(s3)
	sw	zero, 12(s3)
	slli	a1, s1, 3
	addi	a0, sp, 1000
	li	a2, 8
	call	tlsf_memory_alloc
	lw	a0, 1000(sp)
	andi	a0, a0, 1
	bnez	a0, .LBB77_69
	j	.LBB77_186
.LBB77_69:
	lw	s11, 1008(sp)
	lw	a0, 992(sp)
	lw	a1, 996(sp)
	sw	zero, 0(s11)
	sw	zero, 4(s11)
	li	a2, 19
	sw	a2, 0(s3)
	li	a3, -1
	sw	a3, 4(s3)
	sw	zero, 8(s3)
	sw	zero, 12(s3)
	lw	a2, 0(s11)
	lw	s7, 28(sp)
	xor	a0, a0, s7
	xor	a1, a1, s10
	or	a0, a0, a1
	ori	a1, a2, 1
	sw	a1, 0(s11)
	sw	a3, 16(s3)
	sw	a3, 20(s3)
	beqz	a0, .LBB77_101
.LBB77_70:
	sw	s10, 128(sp)
	lw	a2, 132(sp)
	lw	a1, 96(sp)
	add	a1, a1, a2
	seqz	a0, s8
	sw	a0, 80(sp)
	lui	s2, 1
	addi	a0, s2, -1304
	mul	s10, s7, a0
	srli	t4, s3, 24
	srli	a4, s3, 16
	srli	a5, s3, 8
	srli	t0, s4, 24
	srli	t2, s4, 16
	srli	t5, s4, 8
	lw	s0, 100(sp)
	srli	t1, s0, 24
	srli	t3, s0, 16
	srli	t6, s0, 8
	srli	a6, s11, 24
	srli	a7, s11, 16
	lw	a0, 92(sp)
	add	s10, s10, a0
	srli	a2, a1, 24
	srli	a3, a1, 16
	srli	a0, a1, 8
	sb	a1, 0(s10)
	sb	a0, 1(s10)
	sb	a3, 2(s10)
	sb	a2, 3(s10)
	srli	a2, s11, 8
	sb	s3, 24(s10)
	sb	a5, 25(s10)
	sb	a4, 26(s10)
	sb	t4, 27(s10)
	srli	a3, s1, 24
	sb	s4, 44(s10)
	sb	t5, 45(s10)
	sb	t2, 46(s10)
	sb	t0, 47(s10)
	srli	a4, s1, 16
	sb	s0, 40(s10)
	sb	t6, 41(s10)
	sb	t3, 42(s10)
	sb	t1, 43(s10)
	srli	a0, s1, 8
	sb	zero, 12(s10)
	sb	zero, 13(s10)
	sb	zero, 14(s10)
	sb	zero, 15(s10)
	li	a1, 1
	sb	a1, 8(s10)
	sb	zero, 9(s10)
	sb	zero, 10(s10)
	sb	zero, 11(s10)
	sb	zero, 16(s10)
	sb	zero, 17(s10)
	sb	zero, 18(s10)
	sb	zero, 19(s10)
	sb	zero, 20(s10)
	sb	zero, 21(s10)
	sb	zero, 22(s10)
	sb	zero, 23(s10)
	sb	zero, 28(s10)
	sb	zero, 29(s10)
	sb	zero, 30(s10)
	sb	zero, 31(s10)
	sb	zero, 36(s10)
	sb	zero, 37(s10)
	sb	zero, 38(s10)
	sb	zero, 39(s10)
	mv	s0, s7
	li	s7, 4
	sb	s7, 32(s10)
	sb	zero, 33(s10)
	sb	zero, 34(s10)
	sb	zero, 35(s10)
	sb	s11, 48(s10)
	sb	a2, 49(s10)
	sb	a7, 50(s10)
	sb	a6, 51(s10)
	sb	zero, 52(s10)
	sb	zero, 53(s10)
	sb	zero, 54(s10)
	sb	zero, 55(s10)
	sb	zero, 60(s10)
	sb	zero, 61(s10)
	sb	zero, 62(s10)
	sb	zero, 63(s10)
	sb	a1, 56(s10)
	sb	zero, 57(s10)
	sb	zero, 58(s10)
	sb	zero, 59(s10)
	sb	zero, 68(s10)
	sb	zero, 69(s10)
	sb	zero, 70(s10)
	sb	zero, 71(s10)
	sb	s1, 64(s10)
	sb	a0, 65(s10)
	sb	a4, 66(s10)
	sb	a3, 67(s10)
	sb	s7, 72(s10)
	sb	zero, 73(s10)
	sb	zero, 74(s10)
	sb	zero, 75(s10)
	sb	zero, 76(s10)
	sb	zero, 77(s10)
	sb	zero, 78(s10)
	sb	zero, 79(s10)
	sb	a1, 80(s10)
	sb	zero, 81(s10)
	sb	zero, 82(s10)
	sb	zero, 83(s10)
	li	a0, 16
	sb	a0, 84(s10)
	sb	zero, 85(s10)
	sb	zero, 86(s10)
	sb	zero, 87(s10)
	addi	a0, s10, 88
	li	a2, 80
	li	a1, 0
	call	tlsf_memory_set
	addi	a0, s10, 168
	li	a1, 255
	li	a2, 16
	call	tlsf_memory_set
	sb	zero, 184(s10)
	sb	zero, 185(s10)
	sb	zero, 186(s10)
	sb	zero, 187(s10)
	addi	a0, s10, 188
	addi	a2, s2, -1552
	li	a1, 255
	call	tlsf_memory_set
	addi	s1, s10, 2047
	addi	s3, sp, 1016
	srli	s2, s3, 24
	srli	s10, s3, 16
	srli	s11, s3, 8
	sb	s3, 689(s1)
	sb	s11, 690(s1)
	sb	s10, 691(s1)
	sb	s2, 692(s1)
	addi	a0, s1, 693
	li	a2, 20
	li	a1, 0
	call	tlsf_memory_set
	sb	s7, 713(s1)
	sb	zero, 714(s1)
	sb	zero, 715(s1)
	sb	zero, 716(s1)
	sb	zero, 717(s1)
	sb	zero, 718(s1)
	sb	zero, 719(s1)
	sb	zero, 720(s1)
	sb	s3, 721(s1)
	sb	s11, 722(s1)
	sb	s10, 723(s1)
	lw	s10, 128(sp)
	sb	s2, 724(s1)
	addi	a0, s1, 725
	addi	s7, s0, 1
	seqz	a1, s7
	add	s10, s10, a1
	li	a2, 20
	li	a1, 0
	call	tlsf_memory_set
	sw	s7, 984(sp)
	sw	s10, 988(sp)
	lw	a0, 80(sp)
	sw	s10, 128(sp)
	sw	s7, 72(sp)
	bnez	a0, .LBB77_75
	srli	a0, s5, 28
	beqz	a0, .LBB77_72
	j	.LBB77_181
.LBB77_72:
	slli	s2, s9, 3
	srli	a0, s9, 29
	slli	s1, s5, 3
	or	s1, s1, a0
	seqz	a0, s1
	addi	a0, a0, -1
	or	a1, a0, s2
	addi	a0, sp, 1000
	li	a2, 4
	call	tlsf_memory_alloc
	lw	a0, 1000(sp)
	andi	a0, a0, 1
	bnez	a0, .LBB77_73
	j	.LBB77_181
.LBB77_73:
	lw	s3, 1008(sp)
	sltu	a0, s3, s6
	neg	a0, a0
	beq	a0, s1, .LBB77_76
	sltu	a0, a0, s1
	j	.LBB77_77
.LBB77_75:
	li	s10, 0
	li	s11, 0
	li	a0, 0
	addi	s2, sp, 1016
	lw	a5, 100(sp)
	j	.LBB77_90
.LBB77_76:
	sub	a0, s3, s6
	sltu	a0, a0, s2
.LBB77_77:
	mv	a0, s3
	mv	a1, s6
	mv	a2, s2
	call	tlsf_memory_cpy
	srli	a0, s9, 30
	slli	a1, s5, 2
	or	a0, a0, a1
	slli	s1, s9, 2
	seqz	a0, a0
	addi	a0, a0, -1
	or	a1, a0, s1
	addi	a0, sp, 1000
	li	a2, 4
	call	tlsf_memory_alloc
	lw	a0, 1000(sp)
	andi	a0, a0, 1
	bnez	a0, .LBB77_78
	j	.LBB77_185
.LBB77_78:
	lw	s2, 1008(sp)
	seqz	a0, s9
	sub	s11, s5, a0
	addi	s10, s9, -1
	or	a0, s10, s11
	beqz	a0, .LBB77_80
	addi	a2, s1, -4
	mv	a0, s2
	li	a1, 0
	call	tlsf_memory_set
	j	.LBB77_81
.LBB77_80:
	li	s10, 0
	li	s11, 0
.LBB77_81:
	lw	a5, 100(sp)
	li	a0, 0
	li	a1, 0
	li	a2, 0
	slli	a3, s10, 2
	add	a3, a3, s2
	sw	zero, 0(a3)
	j	.LBB77_83
.LBB77_82:
	sltu	a3, a2, s5
	beqz	a3, .LBB77_89
.LBB77_83:
	slli	a3, a1, 3
	add	a3, a3, s6
	lw	a4, 0(a3)
	beqz	a4, .LBB77_87
	lw	a3, 4(a3)
	bltu	a0, a3, .LBB77_86
	mv	a3, a0
.LBB77_86:
	mv	a0, a3
.LBB77_87:
	addi	a1, a1, 1
	seqz	a3, a1
	add	a2, a2, a3
	bne	a2, s5, .LBB77_82
	sltu	a3, a1, s9
	bnez	a3, .LBB77_83
.LBB77_89:
	addi	s10, s10, 1
	seqz	a1, s10
	add	s11, s11, a1
.LBB77_90:
	seqz	a1, a0
	add	a1, a1, a0
	sltu	a0, a1, a0
	addi	a2, a1, 31
	sltu	a1, a2, a1
	srli	a2, a2, 3
	add	a0, a0, a1
	slli	a0, a0, 29
	or	a0, a0, a2
	ori	a1, a0, 16
	addi	a0, a0, -1
	srli	a2, a1, 1
	or	a1, a1, a2
	srli	a2, a1, 2
	or	a1, a1, a2
	srli	a2, a1, 4
	or	a1, a1, a2
	srli	a2, a1, 8
	or	a1, a1, a2
	srli	a2, a1, 16
	or	a1, a1, a2
	not	a1, a1
	srli	a2, a1, 1
	lw	a3, 116(sp)
	and	a2, a2, a3
	sub	a1, a1, a2
	lw	a3, 112(sp)
	and	a2, a1, a3
	srli	a1, a1, 2
	and	a1, a1, a3
	add	a1, a1, a2
	srli	a2, a1, 4
	add	a1, a1, a2
	lw	a2, 108(sp)
	and	a1, a1, a2
	lw	a2, 104(sp)
	mul	a1, a1, a2
	srli	a1, a1, 24
	li	a2, 27
	sub	a1, a2, a1
	srl	a0, a0, a1
	addi	a0, a0, 1
	slli	a1, a1, 4
	add	s7, a0, a1
	srli	a1, s7, 4
	beqz	a1, .LBB77_92
	li	a2, 8
	sll	s7, a2, a1
	andi	a0, a0, 15
	addi	a1, a1, -1
	sll	a0, a0, a1
	add	s7, s7, a0
.LBB77_92:
	seqz	a0, s4
	lui	a1, 256
	addi	a1, a1, 1
	lui	a2, 1
	addi	a2, a2, -1304
	lw	a3, 28(sp)
	mul	s1, a3, a2
	lw	a2, 76(sp)
	sltu	a1, a2, a1
	lw	a2, 92(sp)
	add	s1, s1, a2
	and	a0, a0, a1
	lw	s8, 8(s1)
	lw	a2, 12(s1)
	neg	a0, a0
	and	a1, a0, a5
	seqz	a0, s8
	addi	s8, s8, -1
	sub	s4, a2, a0
	addi	a0, s1, 24
	call	tlsf_words.words.Words.lengthen
	addi	a0, s1, 80
	li	a1, -1
	sw	a1, 184(s1)
	li	a2, 88
	li	a1, 0
	call	tlsf_memory_set
	li	a6, -1
	lw	a0, 32(s1)
	lw	a1, 24(s1)
	ori	a2, a0, 16
	slli	a3, a0, 2
	srli	a4, a2, 1
	or	a2, a2, a4
	srli	a4, a2, 2
	or	a2, a2, a4
	addi	a4, a3, 3
	sltu	a3, a4, a3
	add	a3, a3, a6
	sw	a4, 0(a1)
	sw	a3, 4(a1)
	sw	s8, 8(a1)
	sw	s4, 12(a1)
	srli	a1, a2, 4
	lw	a3, 48(s1)
	or	a1, a1, a2
	srli	a2, a1, 8
	or	a1, a1, a2
	srli	a2, a1, 16
	lw	a4, 0(a3)
	or	a1, a1, a2
	not	a1, a1
	srli	a2, a1, 1
	lw	a5, 116(sp)
	and	a2, a2, a5
	ori	a4, a4, 1
	sub	a1, a1, a2
	sw	a4, 0(a3)
	lw	a3, 112(sp)
	and	a2, a1, a3
	srli	a1, a1, 2
	and	a1, a1, a3
	add	a1, a1, a2
	srli	a2, a1, 4
	add	a1, a1, a2
	lw	a2, 108(sp)
	and	a1, a1, a2
	lw	a2, 104(sp)
	mul	a1, a1, a2
	srli	a1, a1, 24
	li	a2, 27
	sub	a1, a2, a1
	srl	a0, a0, a1
	slli	a1, a1, 4
	add	a1, a1, a0
	slli	a2, a1, 2
	add	a2, a2, s1
	lw	a3, 168(a2)
	sw	zero, 168(a2)
	lw	a2, 24(s1)
	bltz	a3, .LBB77_94
	sw	a3, 16(a2)
	sw	a6, 20(a2)
	slli	a3, a3, 3
	add	a2, a2, a3
	sw	zero, 20(a2)
	j	.LBB77_95
.LBB77_94:
	sw	a6, 16(a2)
	sw	a6, 20(a2)
	srli	a1, a1, 4
	andi	a0, a0, 15
	slli	a2, a1, 2
	add	a2, a2, s1
	lw	a3, 80(s1)
	lw	a4, 84(a2)
	li	a5, 1
	sll	a1, a5, a1
	sll	a0, a5, a0
	or	a1, a1, a3
	or	a0, a0, a4
	sw	a1, 80(s1)
	sw	a0, 84(a2)
.LBB77_95:
	addi	a0, s1, 2047
	srli	t3, s3, 16
	srli	t2, s3, 24
	srli	t4, s3, 8
	srli	t5, s5, 16
	srli	t6, s5, 8
	srli	a1, s9, 24
	srli	a2, s9, 16
	srli	a3, s9, 8
	srli	ra, s7, 24
	srli	a5, s7, 16
	srli	s1, s7, 8
	srli	s4, s2, 16
	srli	s8, s2, 24
	lbu	a4, 689(a0)
	sw	a4, 68(sp)
	lbu	t1, 690(a0)
	lbu	a7, 691(a0)
	lbu	t0, 692(a0)
	sb	s3, 689(a0)
	srli	s3, s2, 8
	sb	t4, 690(a0)
	srli	t4, s11, 24
	sb	t3, 691(a0)
	srli	t3, s11, 16
	sb	t2, 692(a0)
	srli	t2, s11, 8
	sb	s7, 713(a0)
	sb	s1, 714(a0)
	sb	a5, 715(a0)
	sb	ra, 716(a0)
	lbu	s0, 721(a0)
	lbu	a4, 722(a0)
	sw	a4, 76(sp)
	lbu	a4, 723(a0)
	sw	a4, 100(sp)
	lbu	a4, 724(a0)
	sw	a4, 80(sp)
	sb	s2, 721(a0)
	srli	a5, s10, 24
	sb	s3, 722(a0)
	srli	s1, s10, 16
	sb	s4, 723(a0)
	srli	a4, s10, 8
	sb	s8, 724(a0)
	sb	s10, 729(a0)
	sb	s11, 733(a0)
	lbu	s8, 710(a0)
	lbu	ra, 711(a0)
	lbu	a6, 712(a0)
	sb	t2, 734(a0)
	sb	t3, 735(a0)
	sb	t4, 736(a0)
	lbu	t2, 706(a0)
	lbu	t3, 707(a0)
	lbu	t4, 708(a0)
	sb	a4, 730(a0)
	sb	s1, 731(a0)
	sb	a5, 732(a0)
	lbu	s11, 738(a0)
	lbu	s2, 739(a0)
	lbu	s10, 740(a0)
	sb	a3, 698(a0)
	sb	a2, 699(a0)
	sb	a1, 700(a0)
	sb	a3, 706(a0)
	sb	a2, 707(a0)
	sb	a1, 708(a0)
	sb	a3, 738(a0)
	sb	a2, 739(a0)
	sb	a1, 740(a0)
	lbu	s7, 742(a0)
	lbu	s3, 743(a0)
	lbu	s4, 744(a0)
	sb	t6, 702(a0)
	sb	t6, 710(a0)
	sb	t6, 742(a0)
	srli	a1, s5, 24
	sb	t5, 703(a0)
	sb	t5, 711(a0)
	sb	t5, 743(a0)
	lbu	a2, 709(a0)
	sb	a1, 704(a0)
	sb	a1, 712(a0)
	sb	a1, 744(a0)
	slli	s8, s8, 8
	or	a1, s8, a2
	lbu	a2, 705(a0)
	slli	ra, ra, 16
	slli	a6, a6, 24
	or	a3, a6, ra
	slli	t2, t2, 8
	or	a2, t2, a2
	slli	t3, t3, 16
	slli	t4, t4, 24
	or	a4, t4, t3
	or	a1, a1, a3
	or	a2, a2, a4
	lbu	s1, 741(a0)
	or	a1, a1, a2
	lbu	s8, 737(a0)
	sb	s9, 697(a0)
	sb	s5, 701(a0)
	sb	s9, 705(a0)
	sb	s5, 709(a0)
	sb	s9, 737(a0)
	sb	s5, 741(a0)
	sb	zero, 693(a0)
	sb	zero, 694(a0)
	sb	zero, 695(a0)
	sb	zero, 696(a0)
	sb	zero, 717(a0)
	sb	zero, 718(a0)
	sb	zero, 719(a0)
	sb	zero, 720(a0)
	sb	zero, 725(a0)
	sb	zero, 726(a0)
	sb	zero, 727(a0)
	sb	zero, 728(a0)
	beqz	a1, .LBB77_97
	slli	t1, t1, 8
	slli	a7, a7, 16
	slli	t0, t0, 24
	lw	a0, 68(sp)
	or	a0, t1, a0
	or	a1, t0, a7
	or	a0, a0, a1
	call	tlsf_memory_dealloc
.LBB77_97:
	slli	s7, s7, 8
	slli	s3, s3, 16
	slli	s4, s4, 24
	slli	s11, s11, 8
	slli	s2, s2, 16
	slli	s10, s10, 24
	or	a0, s7, s1
	or	a1, s4, s3
	or	a2, s11, s8
	or	a3, s10, s2
	or	a0, a0, a1
	or	a2, a2, a3
	or	a0, a0, a2
	beqz	a0, .LBB77_99
	lw	a0, 76(sp)
	slli	a0, a0, 8
	lw	a1, 100(sp)
	slli	a1, a1, 16
	lw	a2, 80(sp)
	slli	a2, a2, 24
	or	a0, a0, s0
	or	a1, a1, a2
	or	a0, a0, a1
	call	tlsf_memory_dealloc
.LBB77_99:
	lw	s3, 96(sp)
	addi	s3, s3, 1
	seqz	a0, s3
	lw	a6, 88(sp)
	add	a6, a6, a0
	lw	s10, 128(sp)
	lw	s7, 60(sp)
	lw	s11, 56(sp)
	bne	a6, s11, .LBB77_30
	sltu	a1, s3, s7
	j	.LBB77_31
.LBB77_101:
	addi	a0, sp, 976
	call	std_alloc.vec.Vec.grow_amortized.8f83c87fc5454f35
	bnez	a0, .LBB77_102
	j	.LBB77_221
.LBB77_102:
	lw	a0, 976(sp)
	sw	a0, 92(sp)
	lw	s7, 984(sp)
	lw	s10, 988(sp)
	j	.LBB77_70
.LBB77_103:
	lui	a0, 36054
	addi	a0, a0, 774
	sltu	a0, a0, s4
.LBB77_104:
	li	s0, 2
	beqz	a0, .LBB77_105
	j	.LBB77_218
.LBB77_105:
	lui	a2, 1
	addi	a2, a2, -1304
	mul	a0, s7, a2
	mulhu	a1, s4, a2
	add	a0, a0, a1
	sw	a2, 24(sp)
	mul	a1, s4, a2
	seqz	a0, a0
	addi	a0, a0, -1
	or	a1, a1, a0
	addi	a0, sp, 1000
	li	a2, 8
	call	tlsf_memory_alloc
	lw	a0, 1000(sp)
	andi	a0, a0, 1
	bnez	a0, .LBB77_106
	j	.LBB77_218
.LBB77_106:
	sw	zero, 28(sp)
	li	s10, 0
	li	a7, 0
	li	s3, 0
	li	a6, 0
	lw	a4, 1008(sp)
	sw	s4, 992(sp)
	sw	s7, 996(sp)
	addi	s6, sp, 160
	lui	a0, 349525
	lui	a1, 209715
	lui	a2, 61681
	lui	a3, 4112
	lui	a5, 32768
	addi	a0, a0, 1365
	sw	a0, 116(sp)
	addi	a0, a1, 819
	sw	a0, 112(sp)
	addi	a0, a2, -241
	sw	a0, 108(sp)
	addi	a0, a3, 257
	sw	a0, 104(sp)
	sw	a4, 92(sp)
	sw	a4, 976(sp)
	sw	zero, 980(sp)
	sw	zero, 984(sp)
	sw	zero, 988(sp)
	addi	s0, a5, -23
	sw	s4, 60(sp)
	sw	s7, 56(sp)
	sw	s0, 64(sp)
	j	.LBB77_109
.LBB77_107:
	sltu	a1, a6, s7
.LBB77_108:
	lw	s2, 120(sp)
	lw	a2, 84(sp)
	lw	s0, 64(sp)
	slli	a0, s9, 3
	sub	a2, a2, s11
	sltu	a3, s2, s9
	add	s6, s6, a0
	sub	a7, a2, a3
	sub	s2, s2, s9
	lw	a0, 72(sp)
	sw	a0, 28(sp)
	beqz	a1, .LBB77_21
.LBB77_109:
	not	a0, s3
	add	a0, a0, s4
	slli	a0, a0, 3
	addi	a1, sp, 904
	add	a0, a0, a1
	lw	a1, 4(a0)
	lw	a0, 0(a0)
	beq	a7, a1, .LBB77_111
	sltu	a2, a7, a1
	j	.LBB77_112
.LBB77_111:
	sltu	a2, s2, a0
.LBB77_112:
	mv	s11, a7
	mv	s9, s2
	bnez	a2, .LBB77_114
	mv	s11, a1
	mv	s9, a0
.LBB77_114:
	or	t0, s9, s11
	beqz	t0, .LBB77_133
	li	a1, 0
	li	a2, 0
	j	.LBB77_117
.LBB77_116:
	sltu	a0, a1, s9
	beqz	a0, .LBB77_120
.LBB77_117:
	slli	a0, a1, 3
	add	a0, a0, s6
	lw	a0, 4(a0)
	bgeu	a0, s0, .LBB77_222
	addi	a1, a1, 1
	seqz	a0, a1
	add	a2, a2, a0
	beq	a2, s11, .LBB77_116
	sltu	a0, a2, s11
	bnez	a0, .LBB77_117
.LBB77_120:
	li	a3, 0
	li	a1, 0
	li	a5, 0
	li	a4, 0
	j	.LBB77_123
.LBB77_121:
	sltu	a0, a4, s11
.LBB77_122:
	slli	a5, a5, 3
	add	a5, a5, s6
	lw	a2, 0(a5)
	add	a2, a2, a3
	sltu	a3, a2, a3
	add	a1, a1, a3
	mv	a3, a2
	mv	a5, s1
	beqz	a0, .LBB77_125
.LBB77_123:
	addi	s1, a5, 1
	seqz	a0, s1
	add	a4, a4, a0
	bne	a4, s11, .LBB77_121
	sltu	a0, s1, s9
	j	.LBB77_122
.LBB77_125:
	li	a3, 0
	li	a4, 0
	li	a5, 0
	j	.LBB77_127
.LBB77_126:
	sltu	a0, a5, s11
	beqz	a0, .LBB77_134
.LBB77_127:
	slli	a0, a4, 3
	add	a0, a0, s6
	lw	s1, 0(a0)
	beqz	s1, .LBB77_131
	lw	a0, 4(a0)
	bltu	a3, a0, .LBB77_130
	mv	a0, a3
.LBB77_130:
	mv	a3, a0
.LBB77_131:
	addi	a4, a4, 1
	seqz	a0, a4
	add	a5, a5, a0
	bne	a5, s11, .LBB77_126
	sltu	a0, a4, s9
	bnez	a0, .LBB77_127
	j	.LBB77_134
.LBB77_133:
	li	a2, 0
	li	a1, 0
	li	a3, 0
.LBB77_134:
	seqz	a0, a3
	add	a0, a0, a3
	sltu	a3, a0, a3
	addi	a4, a0, 31
	sltu	a0, a4, a0
	srli	a4, a4, 3
	add	a0, a0, a3
	slli	a0, a0, 29
	or	a0, a0, a4
	ori	a3, a0, 32
	addi	a0, a0, -1
	srli	a4, a3, 1
	or	a3, a3, a4
	srli	a4, a3, 2
	or	a3, a3, a4
	srli	a4, a3, 4
	or	a3, a3, a4
	srli	a4, a3, 8
	or	a3, a3, a4
	srli	a4, a3, 16
	or	a3, a3, a4
	not	a3, a3
	srli	a4, a3, 1
	lw	a5, 116(sp)
	and	a4, a4, a5
	sub	a3, a3, a4
	lw	a5, 112(sp)
	and	a4, a3, a5
	srli	a3, a3, 2
	and	a3, a3, a5
	add	a3, a3, a4
	srli	a4, a3, 4
	add	a3, a3, a4
	lw	a4, 108(sp)
	and	a3, a3, a4
	lw	a4, 104(sp)
	mul	a3, a3, a4
	srli	a3, a3, 24
	li	a4, 26
	sub	a4, a4, a3
	srl	a3, a0, a4
	addi	a3, a3, 1
	slli	a0, a4, 5
	add	a0, a0, a3
	srli	a4, a0, 5
	beqz	a4, .LBB77_136
	li	a0, 16
	sll	a0, a0, a4
	andi	a3, a3, 31
	addi	a4, a4, -1
	sll	a3, a3, a4
	add	a0, a0, a3
.LBB77_136:
	mulhu	s8, a2, a0
	mul	a1, a1, a0
	add	s5, s8, a1
	mul	s1, a2, a0
	li	a1, 4
	mv	a0, s1
	bnez	s5, .LBB77_140
	li	a0, 4
	mv	a3, s1
	bgeu	a1, s1, .LBB77_141
.LBB77_138:
	beqz	s5, .LBB77_142
.LBB77_139:
	mv	a3, a0
	snez	a0, s5
	lui	a1, 4096
	sltu	a1, a1, s1
	or	a0, a0, a1
	beqz	a0, .LBB77_143
	j	.LBB77_222
.LBB77_140:
	mv	a3, s1
	bltu	a1, s1, .LBB77_138
.LBB77_141:
	li	a3, 4
	bnez	s5, .LBB77_139
.LBB77_142:
	snez	a0, s5
	lui	a1, 4096
	sltu	a1, a1, s1
	or	a0, a0, a1
	bnez	a0, .LBB77_222
.LBB77_143:
	lui	a0, 4096
	bltu	a0, a3, .LBB77_184
	mv	s8, t0
	sw	a7, 84(sp)
	sw	a6, 88(sp)
	sw	s2, 120(sp)
	slli	a1, a3, 3
	addi	a0, sp, 1000
	li	a2, 8
	mv	s0, a3
	call	tlsf_memory_alloc
	lw	a0, 1000(sp)
	andi	a0, a0, 1
	li	a1, 2
	sw	a1, 16(sp)
	beqz	a0, .LBB77_202
	sw	s1, 76(sp)
	sw	s3, 96(sp)
	lw	s3, 1008(sp)
	sw	s0, 100(sp)
	addi	s1, s0, 63
	srli	s1, s1, 6
	sw	zero, 16(s3)
	sw	zero, 20(s3)
	sw	zero, 24(s3)
	sw	zero, 28(s3)
	sw	zero, 0(s3)
	sw	zero, 4(s3)
	sw	zero, 8(s3)
	sw	zero, 12(s3)
	slli	a1, s1, 3
	addi	a0, sp, 1000
	li	a2, 8
	call	tlsf_memory_alloc
	lw	a0, 1000(sp)
	andi	a0, a0, 1
	beqz	a0, .LBB77_201
	lw	s4, 1008(sp)
	lw	a0, 992(sp)
	lw	a1, 996(sp)
	sw	zero, 0(s4)
	sw	zero, 4(s4)
	li	a2, 19
	sw	a2, 0(s3)
	li	a3, -1
	sw	a3, 4(s3)
	sw	zero, 8(s3)
	sw	zero, 12(s3)
	lw	a2, 0(s4)
	lw	a4, 28(sp)
	xor	a0, a0, a4
	xor	a1, a1, s10
	or	a0, a0, a1
	ori	a1, a2, 1
	sw	a1, 0(s4)
	sw	a3, 16(s3)
	sw	a3, 20(s3)
	mv	a3, a4
	beqz	a0, .LBB77_178
.LBB77_147:
	sw	s10, 128(sp)
	lw	a2, 132(sp)
	lw	a1, 96(sp)
	add	a1, a1, a2
	seqz	a0, s8
	sw	a0, 80(sp)
	lui	s2, 1
	addi	a0, s2, -1304
	mul	s10, a3, a0
	srli	t4, s3, 24
	srli	a4, s3, 16
	srli	a5, s3, 8
	mv	s8, s5
	srli	t0, s5, 24
	srli	t2, s5, 16
	srli	t5, s5, 8
	lw	s0, 100(sp)
	srli	t1, s0, 24
	srli	t3, s0, 16
	srli	t6, s0, 8
	srli	a6, s4, 24
	srli	a7, s4, 16
	lw	a0, 92(sp)
	add	s10, s10, a0
	srli	a2, a1, 24
	mv	s5, a3
	srli	a3, a1, 16
	srli	a0, a1, 8
	sb	a1, 0(s10)
	sb	a0, 1(s10)
	sb	a3, 2(s10)
	sb	a2, 3(s10)
	srli	a2, s4, 8
	sb	s3, 24(s10)
	sb	a5, 25(s10)
	sb	a4, 26(s10)
	sb	t4, 27(s10)
	srli	a3, s1, 24
	sb	s8, 44(s10)
	sb	t5, 45(s10)
	sb	t2, 46(s10)
	sb	t0, 47(s10)
	srli	a4, s1, 16
	sb	s0, 40(s10)
	sb	t6, 41(s10)
	sb	t3, 42(s10)
	sb	t1, 43(s10)
	srli	a0, s1, 8
	sb	zero, 12(s10)
	sb	zero, 13(s10)
	sb	zero, 14(s10)
	sb	zero, 15(s10)
	li	a1, 1
	sb	a1, 8(s10)
	sb	zero, 9(s10)
	sb	zero, 10(s10)
	sb	zero, 11(s10)
	sb	zero, 16(s10)
	sb	zero, 17(s10)
	sb	zero, 18(s10)
	sb	zero, 19(s10)
	sb	zero, 20(s10)
	sb	zero, 21(s10)
	sb	zero, 22(s10)
	sb	zero, 23(s10)
	sb	zero, 28(s10)
	sb	zero, 29(s10)
	sb	zero, 30(s10)
	sb	zero, 31(s10)
	sb	zero, 36(s10)
	sb	zero, 37(s10)
	sb	zero, 38(s10)
	sb	zero, 39(s10)
	li	s7, 4
	sb	s7, 32(s10)
	sb	zero, 33(s10)
	sb	zero, 34(s10)
	sb	zero, 35(s10)
	sb	s4, 48(s10)
	sb	a2, 49(s10)
	sb	a7, 50(s10)
	sb	a6, 51(s10)
	sb	zero, 52(s10)
	sb	zero, 53(s10)
	sb	zero, 54(s10)
	sb	zero, 55(s10)
	sb	zero, 60(s10)
	sb	zero, 61(s10)
	sb	zero, 62(s10)
	sb	zero, 63(s10)
	sb	a1, 56(s10)
	sb	zero, 57(s10)
	sb	zero, 58(s10)
	sb	zero, 59(s10)
	sb	zero, 68(s10)
	sb	zero, 69(s10)
	sb	zero, 70(s10)
	sb	zero, 71(s10)
	sb	s1, 64(s10)
	sb	a0, 65(s10)
	sb	a4, 66(s10)
	sb	a3, 67(s10)
	sb	s7, 72(s10)
	sb	zero, 73(s10)
	sb	zero, 74(s10)
	sb	zero, 75(s10)
	sb	zero, 76(s10)
	sb	zero, 77(s10)
	sb	zero, 78(s10)
	sb	zero, 79(s10)
	sb	a1, 80(s10)
	sb	zero, 81(s10)
	sb	zero, 82(s10)
	sb	zero, 83(s10)
	li	a0, 16
	sb	a0, 84(s10)
	sb	zero, 85(s10)
	sb	zero, 86(s10)
	sb	zero, 87(s10)
	addi	a0, s10, 88
	li	a2, 80
	li	a1, 0
	call	tlsf_memory_set
	addi	a0, s10, 168
	li	a1, 255
	li	a2, 16
	call	tlsf_memory_set
	sb	zero, 184(s10)
	sb	zero, 185(s10)
	sb	zero, 186(s10)
	sb	zero, 187(s10)
	addi	a0, s10, 188
	addi	a2, s2, -1552
	li	a1, 255
	call	tlsf_memory_set
	addi	s1, s10, 2047
	addi	s3, sp, 1016
	srli	s2, s3, 24
	srli	s4, s3, 16
	srli	s10, s3, 8
	sb	s3, 689(s1)
	sb	s10, 690(s1)
	sb	s4, 691(s1)
	sb	s2, 692(s1)
	addi	a0, s1, 693
	li	a2, 20
	li	a1, 0
	call	tlsf_memory_set
	sb	s7, 713(s1)
	sb	zero, 714(s1)
	sb	zero, 715(s1)
	sb	zero, 716(s1)
	sb	zero, 717(s1)
	sb	zero, 718(s1)
	sb	zero, 719(s1)
	sb	zero, 720(s1)
	sb	s3, 721(s1)
	sb	s10, 722(s1)
	lw	s10, 128(sp)
	sb	s4, 723(s1)
	sb	s2, 724(s1)
	addi	a0, s1, 725
	addi	s4, s5, 1
	seqz	a1, s4
	add	s10, s10, a1
	li	a2, 20
	li	a1, 0
	call	tlsf_memory_set
	sw	s4, 984(sp)
	sw	s10, 988(sp)
	lw	a0, 80(sp)
	sw	s10, 128(sp)
	sw	s4, 72(sp)
	bnez	a0, .LBB77_152
	srli	a0, s11, 28
	bnez	a0, .LBB77_182
	slli	s2, s9, 3
	srli	a0, s9, 29
	slli	s1, s11, 3
	or	s1, s1, a0
	seqz	a0, s1
	addi	a0, a0, -1
	or	a1, a0, s2
	addi	a0, sp, 1000
	li	a2, 4
	call	tlsf_memory_alloc
	lw	a0, 1000(sp)
	andi	a0, a0, 1
	beqz	a0, .LBB77_182
	lw	s3, 1008(sp)
	sltu	a0, s3, s6
	neg	a0, a0
	beq	a0, s1, .LBB77_153
	sltu	a0, a0, s1
	j	.LBB77_154
.LBB77_152:
	li	s10, 0
	li	s4, 0
	li	a0, 0
	addi	s2, sp, 1016
	lw	a5, 100(sp)
	j	.LBB77_167
.LBB77_153:
	sub	a0, s3, s6
	sltu	a0, a0, s2
.LBB77_154:
	mv	a0, s3
	mv	a1, s6
	mv	a2, s2
	call	tlsf_memory_cpy
	srli	a0, s9, 30
	slli	a1, s11, 2
	or	a0, a0, a1
	slli	s1, s9, 2
	seqz	a0, a0
	addi	a0, a0, -1
	or	a1, a0, s1
	addi	a0, sp, 1000
	li	a2, 4
	call	tlsf_memory_alloc
	lw	a0, 1000(sp)
	andi	a0, a0, 1
	beqz	a0, .LBB77_200
	lw	s2, 1008(sp)
	seqz	a0, s9
	sub	s4, s11, a0
	addi	s10, s9, -1
	or	a0, s10, s4
	beqz	a0, .LBB77_157
	addi	a2, s1, -4
	mv	a0, s2
	li	a1, 0
	call	tlsf_memory_set
	j	.LBB77_158
.LBB77_157:
	li	s10, 0
	li	s4, 0
.LBB77_158:
	lw	a5, 100(sp)
	li	a0, 0
	li	a1, 0
	li	a2, 0
	slli	a3, s10, 2
	add	a3, a3, s2
	sw	zero, 0(a3)
	j	.LBB77_160
.LBB77_159:
	sltu	a3, a2, s11
	beqz	a3, .LBB77_166
.LBB77_160:
	slli	a3, a1, 3
	add	a3, a3, s6
	lw	a4, 0(a3)
	beqz	a4, .LBB77_164
	lw	a3, 4(a3)
	bltu	a0, a3, .LBB77_163
	mv	a3, a0
.LBB77_163:
	mv	a0, a3
.LBB77_164:
	addi	a1, a1, 1
	seqz	a3, a1
	add	a2, a2, a3
	bne	a2, s11, .LBB77_159
	sltu	a3, a1, s9
	bnez	a3, .LBB77_160
.LBB77_166:
	addi	s10, s10, 1
	seqz	a1, s10
	add	s4, s4, a1
.LBB77_167:
	seqz	a1, a0
	add	a1, a1, a0
	sltu	a0, a1, a0
	addi	a2, a1, 31
	sltu	a1, a2, a1
	srli	a2, a2, 3
	add	a0, a0, a1
	slli	a0, a0, 29
	or	a0, a0, a2
	ori	a1, a0, 32
	addi	a0, a0, -1
	srli	a2, a1, 1
	or	a1, a1, a2
	srli	a2, a1, 2
	or	a1, a1, a2
	srli	a2, a1, 4
	or	a1, a1, a2
	srli	a2, a1, 8
	or	a1, a1, a2
	srli	a2, a1, 16
	or	a1, a1, a2
	not	a1, a1
	srli	a2, a1, 1
	lw	a3, 116(sp)
	and	a2, a2, a3
	sub	a1, a1, a2
	lw	a3, 112(sp)
	and	a2, a1, a3
	srli	a1, a1, 2
	and	a1, a1, a3
	add	a1, a1, a2
	srli	a2, a1, 4
	add	a1, a1, a2
	lw	a2, 108(sp)
	and	a1, a1, a2
	lw	a2, 104(sp)
	mul	a1, a1, a2
	srli	a1, a1, 24
	li	a2, 26
	sub	a1, a2, a1
	srl	a0, a0, a1
	addi	a0, a0, 1
	slli	a1, a1, 5
	add	s7, a0, a1
	srli	a1, s7, 5
	beqz	a1, .LBB77_169
	li	a2, 16
	sll	s7, a2, a1
	andi	a0, a0, 31
	addi	a1, a1, -1
	sll	a0, a0, a1
	add	s7, s7, a0
.LBB77_169:
	seqz	a0, s8
	lui	a1, 4096
	addi	a1, a1, 1
	lui	a2, 1
	addi	a2, a2, -1304
	lw	a3, 28(sp)
	mul	s1, a3, a2
	lw	a2, 76(sp)
	sltu	a1, a2, a1
	lw	a2, 92(sp)
	add	s1, s1, a2
	and	a0, a0, a1
	lw	s8, 8(s1)
	lw	a2, 12(s1)
	neg	a0, a0
	and	a1, a0, a5
	seqz	a0, s8
	addi	s8, s8, -1
	sub	s5, a2, a0
	addi	a0, s1, 24
	call	tlsf_words.words.Words.lengthen
	addi	a0, s1, 80
	li	a1, -1
	sw	a1, 184(s1)
	li	a2, 88
	li	a1, 0
	call	tlsf_memory_set
	li	a6, -1
	lw	a0, 32(s1)
	lw	a1, 24(s1)
	ori	a2, a0, 32
	slli	a3, a0, 2
	srli	a4, a2, 1
	or	a2, a2, a4
	srli	a4, a2, 2
	or	a2, a2, a4
	addi	a4, a3, 3
	sltu	a3, a4, a3
	add	a3, a3, a6
	sw	a4, 0(a1)
	sw	a3, 4(a1)
	sw	s8, 8(a1)
	sw	s5, 12(a1)
	srli	a1, a2, 4
	lw	a3, 48(s1)
	or	a1, a1, a2
	srli	a2, a1, 8
	or	a1, a1, a2
	srli	a2, a1, 16
	lw	a4, 0(a3)
	or	a1, a1, a2
	not	a1, a1
	srli	a2, a1, 1
	lw	a5, 116(sp)
	and	a2, a2, a5
	ori	a4, a4, 1
	sub	a1, a1, a2
	sw	a4, 0(a3)
	lw	a3, 112(sp)
	and	a2, a1, a3
	srli	a1, a1, 2
	and	a1, a1, a3
	add	a1, a1, a2
	srli	a2, a1, 4
	add	a1, a1, a2
	lw	a2, 108(sp)
	and	a1, a1, a2
	lw	a2, 104(sp)
	mul	a1, a1, a2
	srli	a1, a1, 24
	li	a2, 26
	sub	a1, a2, a1
	srl	a0, a0, a1
	slli	a1, a1, 5
	add	a1, a1, a0
	slli	a2, a1, 2
	add	a2, a2, s1
	lw	a3, 168(a2)
	sw	zero, 168(a2)
	lw	a2, 24(s1)
	bltz	a3, .LBB77_171
	sw	a3, 16(a2)
	sw	a6, 20(a2)
	slli	a3, a3, 3
	add	a2, a2, a3
	sw	zero, 20(a2)
	j	.LBB77_172
.LBB77_171:
	sw	a6, 16(a2)
	sw	a6, 20(a2)
	srli	a1, a1, 5
	slli	a2, a1, 2
	add	a2, a2, s1
	lw	a3, 80(s1)
	lw	a4, 84(a2)
	li	a5, 1
	sll	a0, a5, a0
	sll	a1, a5, a1
	or	a1, a1, a3
	or	a0, a0, a4
	sw	a1, 80(s1)
	sw	a0, 84(a2)
.LBB77_172:
	addi	a0, s1, 2047
	srli	t3, s3, 16
	srli	t2, s3, 24
	srli	t4, s3, 8
	srli	t5, s11, 16
	srli	t6, s11, 8
	srli	a1, s9, 24
	srli	a2, s9, 16
	srli	a3, s9, 8
	srli	ra, s7, 24
	srli	a5, s7, 16
	srli	s1, s7, 8
	srli	s5, s2, 16
	srli	s8, s2, 24
	lbu	a4, 689(a0)
	sw	a4, 68(sp)
	lbu	t1, 690(a0)
	lbu	a7, 691(a0)
	lbu	t0, 692(a0)
	sb	s3, 689(a0)
	srli	s3, s2, 8
	sb	t4, 690(a0)
	srli	t4, s4, 24
	sb	t3, 691(a0)
	srli	t3, s4, 16
	sb	t2, 692(a0)
	srli	t2, s4, 8
	sb	s7, 713(a0)
	sb	s1, 714(a0)
	sb	a5, 715(a0)
	sb	ra, 716(a0)
	lbu	s0, 721(a0)
	lbu	a4, 722(a0)
	sw	a4, 76(sp)
	lbu	a4, 723(a0)
	sw	a4, 100(sp)
	lbu	a4, 724(a0)
	sw	a4, 80(sp)
	sb	s2, 721(a0)
	srli	a5, s10, 24
	sb	s3, 722(a0)
	srli	s1, s10, 16
	sb	s5, 723(a0)
	srli	a4, s10, 8
	sb	s8, 724(a0)
	sb	s10, 729(a0)
	sb	s4, 733(a0)
	lbu	s8, 710(a0)
	lbu	ra, 711(a0)
	lbu	a6, 712(a0)
	sb	t2, 734(a0)
	sb	t3, 735(a0)
	sb	t4, 736(a0)
	lbu	t2, 706(a0)
	lbu	t3, 707(a0)
	lbu	t4, 708(a0)
	sb	a4, 730(a0)
	sb	s1, 731(a0)
	sb	a5, 732(a0)
	lbu	s10, 738(a0)
	lbu	s2, 739(a0)
	lbu	s4, 740(a0)
	sb	a3, 698(a0)
	sb	a2, 699(a0)
	sb	a1, 700(a0)
	sb	a3, 706(a0)
	sb	a2, 707(a0)
	sb	a1, 708(a0)
	sb	a3, 738(a0)
	sb	a2, 739(a0)
	sb	a1, 740(a0)
	lbu	s7, 742(a0)
	lbu	s3, 743(a0)
	lbu	s5, 744(a0)
	sb	t6, 702(a0)
	sb	t6, 710(a0)
	sb	t6, 742(a0)
	srli	a1, s11, 24
	sb	t5, 703(a0)
	sb	t5, 711(a0)
	sb	t5, 743(a0)
	lbu	a2, 709(a0)
	sb	a1, 704(a0)
	sb	a1, 712(a0)
	sb	a1, 744(a0)
	slli	s8, s8, 8
	or	a1, s8, a2
	lbu	a2, 705(a0)
	slli	ra, ra, 16
	slli	a6, a6, 24
	or	a3, a6, ra
	slli	t2, t2, 8
	or	a2, t2, a2
	slli	t3, t3, 16
	slli	t4, t4, 24
	or	a4, t4, t3
	or	a1, a1, a3
	or	a2, a2, a4
	lbu	s1, 741(a0)
	or	a1, a1, a2
	lbu	s8, 737(a0)
	sb	s9, 697(a0)
	sb	s11, 701(a0)
	sb	s9, 705(a0)
	sb	s11, 709(a0)
	sb	s9, 737(a0)
	sb	s11, 741(a0)
	sb	zero, 693(a0)
	sb	zero, 694(a0)
	sb	zero, 695(a0)
	sb	zero, 696(a0)
	sb	zero, 717(a0)
	sb	zero, 718(a0)
	sb	zero, 719(a0)
	sb	zero, 720(a0)
	sb	zero, 725(a0)
	sb	zero, 726(a0)
	sb	zero, 727(a0)
	sb	zero, 728(a0)
	beqz	a1, .LBB77_174
	slli	t1, t1, 8
	slli	a7, a7, 16
	slli	t0, t0, 24
	lw	a0, 68(sp)
	or	a0, t1, a0
	or	a1, t0, a7
	or	a0, a0, a1
	call	tlsf_memory_dealloc
.LBB77_174:
	slli	s7, s7, 8
	slli	s3, s3, 16
	slli	s5, s5, 24
	slli	s10, s10, 8
	slli	s2, s2, 16
	slli	s4, s4, 24
	or	a0, s7, s1
	or	a1, s5, s3
	or	a2, s10, s8
	or	a3, s4, s2
	or	a0, a0, a1
	or	a2, a2, a3
	or	a0, a0, a2
	beqz	a0, .LBB77_176
	lw	a0, 76(sp)
	slli	a0, a0, 8
	lw	a1, 100(sp)
	slli	a1, a1, 16
	lw	a2, 80(sp)
	slli	a2, a2, 24
	or	a0, a0, s0
	or	a1, a1, a2
	or	a0, a0, a1
	call	tlsf_memory_dealloc
.LBB77_176:
	lw	s3, 96(sp)
	addi	s3, s3, 1
	seqz	a0, s3
	lw	a6, 88(sp)
	add	a6, a6, a0
	lw	s10, 128(sp)
	lw	s4, 60(sp)
	lw	s7, 56(sp)
	bne	a6, s7, .LBB77_107
	sltu	a1, s3, s4
	j	.LBB77_108
.LBB77_178:
	addi	a0, sp, 976
	call	std_alloc.vec.Vec.grow_amortized.cb831ce0f1fbfa3d
	beqz	a0, .LBB77_220
	lw	a0, 976(sp)
	sw	a0, 92(sp)
	lw	a3, 984(sp)
	lw	s10, 988(sp)
	j	.LBB77_147
.LBB77_180:
	lw	a1, 0(a0)
	lw	a2, 4(a0)
	lw	a3, 8(a0)
	lw	a0, 12(a0)
	sw	a1, 808(sp)
	sw	a2, 812(sp)
	sw	a3, 816(sp)
	sw	a0, 820(sp)
	sw	s1, 824(sp)
	sw	s4, 828(sp)
	addi	a0, sp, 808
	call	std_alloc.vec.Vec.drop.1d6c342d5cae5f6b
	li	a0, 6
	j	.LBB77_219
.LBB77_181:
	sw	s7, 28(sp)
	j	.LBB77_187
.LBB77_182:
	sw	s4, 28(sp)
	j	.LBB77_202
.LBB77_183:
	sw	zero, 16(sp)
	j	.LBB77_187
.LBB77_184:
	sw	zero, 16(sp)
	j	.LBB77_202
.LBB77_185:
	sw	s7, 28(sp)
	lw	s10, 128(sp)
.LBB77_186:
	mv	a0, s3
	call	tlsf_memory_dealloc
.LBB77_187:
	lw	a0, 976(sp)
	sw	a0, 20(sp)
	lw	a0, 992(sp)
	sw	a0, 12(sp)
	lw	a0, 996(sp)
	sw	a0, 8(sp)
	lw	a0, 28(sp)
	or	a0, a0, s10
	beqz	a0, .LBB77_215
	li	a1, 0
	li	a2, 0
	sw	s10, 128(sp)
	j	.LBB77_190
.LBB77_189:
	lw	a0, 28(sp)
	sltu	a0, a1, a0
	beqz	a0, .LBB77_215
.LBB77_190:
	sw	a2, 132(sp)
	lw	a0, 24(sp)
	sw	a1, 136(sp)
	mul	a0, a1, a0
	lw	a1, 20(sp)
	add	a0, a0, a1
	lbu	a6, 44(a0)
	lbu	t0, 45(a0)
	lbu	a3, 46(a0)
	lbu	a4, 47(a0)
	lbu	a7, 40(a0)
	lbu	s1, 41(a0)
	lbu	s0, 42(a0)
	lbu	a1, 43(a0)
	addi	a5, a0, 2047
	lbu	a2, 689(a5)
	sw	a2, 44(sp)
	lbu	a2, 690(a5)
	sw	a2, 32(sp)
	lbu	a2, 691(a5)
	sw	a2, 40(sp)
	lbu	a2, 692(a5)
	sw	a2, 36(sp)
	lbu	a2, 709(a5)
	sw	a2, 96(sp)
	lbu	a2, 710(a5)
	sw	a2, 64(sp)
	lbu	a2, 711(a5)
	sw	a2, 72(sp)
	lbu	a2, 712(a5)
	sw	a2, 68(sp)
	lbu	a2, 705(a5)
	sw	a2, 88(sp)
	lbu	a2, 706(a5)
	sw	a2, 76(sp)
	lbu	a2, 707(a5)
	sw	a2, 84(sp)
	lbu	a2, 708(a5)
	sw	a2, 80(sp)
	lbu	a2, 721(a5)
	sw	a2, 60(sp)
	lbu	a2, 722(a5)
	sw	a2, 48(sp)
	lbu	a2, 723(a5)
	sw	a2, 56(sp)
	lbu	a2, 724(a5)
	sw	a2, 52(sp)
	slli	a2, t0, 8
	slli	a3, a3, 16
	slli	a4, a4, 24
	or	a2, a2, a6
	or	a3, a3, a4
	lbu	a4, 741(a5)
	sw	a4, 124(sp)
	lbu	a4, 742(a5)
	sw	a4, 108(sp)
	lbu	a4, 743(a5)
	sw	a4, 116(sp)
	lbu	a4, 744(a5)
	sw	a4, 112(sp)
	slli	s1, s1, 8
	slli	s0, s0, 16
	slli	a1, a1, 24
	or	a4, s1, a7
	or	a1, a1, s0
	or	a2, a2, a3
	lbu	a3, 737(a5)
	sw	a3, 120(sp)
	lbu	a3, 738(a5)
	sw	a3, 92(sp)
	lbu	a3, 739(a5)
	sw	a3, 104(sp)
	lbu	a3, 740(a5)
	sw	a3, 100(sp)
	lbu	s9, 48(a0)
	lbu	s4, 49(a0)
	lbu	s10, 50(a0)
	lbu	s3, 51(a0)
	lbu	s2, 68(a0)
	lbu	s1, 69(a0)
	lbu	s7, 70(a0)
	lbu	s8, 71(a0)
	lbu	s5, 64(a0)
	lbu	s6, 65(a0)
	lbu	s11, 66(a0)
	lbu	s0, 67(a0)
	or	a1, a1, a4
	or	a1, a1, a2
	beqz	a1, .LBB77_192
	lbu	a1, 25(a0)
	lbu	a2, 24(a0)
	lbu	a3, 26(a0)
	lbu	a0, 27(a0)
	slli	a1, a1, 8
	or	a1, a1, a2
	slli	a3, a3, 16
	slli	a0, a0, 24
	or	a0, a0, a3
	or	a0, a0, a1
	call	tlsf_memory_dealloc
.LBB77_192:
	slli	s1, s1, 8
	slli	s7, s7, 16
	slli	s8, s8, 24
	slli	s6, s6, 8
	slli	s11, s11, 16
	slli	s0, s0, 24
	or	a0, s1, s2
	or	a1, s8, s7
	or	a2, s6, s5
	or	a3, s0, s11
	or	a0, a0, a1
	or	a2, a2, a3
	or	a0, a0, a2
	beqz	a0, .LBB77_194
	slli	s4, s4, 8
	slli	s10, s10, 16
	slli	s3, s3, 24
	or	a0, s4, s9
	or	a1, s3, s10
	or	a0, a0, a1
	call	tlsf_memory_dealloc
.LBB77_194:
	lw	s1, 64(sp)
	slli	s1, s1, 8
	lw	a1, 72(sp)
	slli	a1, a1, 16
	lw	a2, 68(sp)
	slli	a2, a2, 24
	lw	a3, 76(sp)
	slli	a3, a3, 8
	lw	a4, 84(sp)
	slli	a4, a4, 16
	lw	a5, 80(sp)
	slli	a5, a5, 24
	lw	a0, 96(sp)
	or	a0, a0, s1
	or	a1, a1, a2
	lw	a2, 88(sp)
	or	a2, a2, a3
	or	a4, a4, a5
	or	a0, a0, a1
	or	a2, a2, a4
	or	a0, a0, a2
	beqz	a0, .LBB77_196
	lw	a0, 32(sp)
	slli	a0, a0, 8
	lw	a1, 40(sp)
	slli	a1, a1, 16
	lw	a2, 36(sp)
	slli	a2, a2, 24
	lw	a3, 44(sp)
	or	a0, a0, a3
	or	a1, a1, a2
	or	a0, a0, a1
	call	tlsf_memory_dealloc
.LBB77_196:
	lw	s1, 108(sp)
	slli	s1, s1, 8
	lw	a1, 116(sp)
	slli	a1, a1, 16
	lw	a2, 112(sp)
	slli	a2, a2, 24
	lw	a3, 92(sp)
	slli	a3, a3, 8
	lw	a4, 104(sp)
	slli	a4, a4, 16
	lw	a5, 100(sp)
	slli	a5, a5, 24
	lw	a0, 124(sp)
	or	a0, a0, s1
	or	a1, a1, a2
	lw	a2, 120(sp)
	or	a2, a2, a3
	or	a4, a4, a5
	or	a0, a0, a1
	or	a2, a2, a4
	or	a0, a0, a2
	lw	s10, 128(sp)
	beqz	a0, .LBB77_198
	lw	a0, 48(sp)
	slli	a0, a0, 8
	lw	a1, 56(sp)
	slli	a1, a1, 16
	lw	a2, 52(sp)
	slli	a2, a2, 24
	lw	a3, 60(sp)
	or	a0, a0, a3
	or	a1, a1, a2
	or	a0, a0, a1
	call	tlsf_memory_dealloc
.LBB77_198:
	lw	a1, 136(sp)
	addi	a1, a1, 1
	seqz	a0, a1
	lw	a2, 132(sp)
	add	a2, a2, a0
	beq	a2, s10, .LBB77_189
	sltu	a0, a2, s10
	bnez	a0, .LBB77_190
	j	.LBB77_215
.LBB77_200:
	sw	s4, 28(sp)
	lw	s10, 128(sp)
.LBB77_201:
	mv	a0, s3
	call	tlsf_memory_dealloc
.LBB77_202:
	lw	a0, 976(sp)
	sw	a0, 20(sp)
	lw	a0, 992(sp)
	sw	a0, 12(sp)
	lw	a0, 996(sp)
	sw	a0, 8(sp)
	lw	a0, 28(sp)
	or	a0, a0, s10
	beqz	a0, .LBB77_215
	li	a1, 0
	li	a2, 0
	sw	s10, 128(sp)
	j	.LBB77_205
.LBB77_204:
	sltu	a0, a2, s10
	beqz	a0, .LBB77_215
.LBB77_205:
	sw	a2, 132(sp)
	lw	a0, 24(sp)
	sw	a1, 136(sp)
	mul	a0, a1, a0
	lw	a1, 20(sp)
	add	a0, a0, a1
	lbu	a6, 44(a0)
	lbu	t0, 45(a0)
	lbu	a3, 46(a0)
	lbu	a4, 47(a0)
	lbu	a7, 40(a0)
	lbu	s1, 41(a0)
	lbu	s0, 42(a0)
	lbu	a1, 43(a0)
	addi	a5, a0, 2047
	lbu	a2, 689(a5)
	sw	a2, 44(sp)
	lbu	a2, 690(a5)
	sw	a2, 32(sp)
	lbu	a2, 691(a5)
	sw	a2, 40(sp)
	lbu	a2, 692(a5)
	sw	a2, 36(sp)
	lbu	a2, 709(a5)
	sw	a2, 96(sp)
	lbu	a2, 710(a5)
	sw	a2, 64(sp)
	lbu	a2, 711(a5)
	sw	a2, 72(sp)
	lbu	a2, 712(a5)
	sw	a2, 68(sp)
	lbu	a2, 705(a5)
	sw	a2, 88(sp)
	lbu	a2, 706(a5)
	sw	a2, 76(sp)
	lbu	a2, 707(a5)
	sw	a2, 84(sp)
	lbu	a2, 708(a5)
	sw	a2, 80(sp)
	lbu	a2, 721(a5)
	sw	a2, 60(sp)
	lbu	a2, 722(a5)
	sw	a2, 48(sp)
	lbu	a2, 723(a5)
	sw	a2, 56(sp)
	lbu	a2, 724(a5)
	sw	a2, 52(sp)
	slli	a2, t0, 8
	slli	a3, a3, 16
	slli	a4, a4, 24
	or	a2, a2, a6
	or	a3, a3, a4
	lbu	a4, 741(a5)
	sw	a4, 124(sp)
	lbu	a4, 742(a5)
	sw	a4, 108(sp)
	lbu	a4, 743(a5)
	sw	a4, 116(sp)
	lbu	a4, 744(a5)
	sw	a4, 112(sp)
	slli	s1, s1, 8
	slli	s0, s0, 16
	slli	a1, a1, 24
	or	a4, s1, a7
	or	a1, a1, s0
	or	a2, a2, a3
	lbu	a3, 737(a5)
	sw	a3, 120(sp)
	lbu	a3, 738(a5)
	sw	a3, 92(sp)
	lbu	a3, 739(a5)
	sw	a3, 104(sp)
	lbu	a3, 740(a5)
	sw	a3, 100(sp)
	lbu	s9, 48(a0)
	lbu	s4, 49(a0)
	lbu	s10, 50(a0)
	lbu	s3, 51(a0)
	lbu	s2, 68(a0)
	lbu	s1, 69(a0)
	lbu	s7, 70(a0)
	lbu	s8, 71(a0)
	lbu	s5, 64(a0)
	lbu	s6, 65(a0)
	lbu	s11, 66(a0)
	lbu	s0, 67(a0)
	or	a1, a1, a4
	or	a1, a1, a2
	beqz	a1, .LBB77_207
	lbu	a1, 25(a0)
	lbu	a2, 24(a0)
	lbu	a3, 26(a0)
	lbu	a0, 27(a0)
	slli	a1, a1, 8
	or	a1, a1, a2
	slli	a3, a3, 16
	slli	a0, a0, 24
	or	a0, a0, a3
	or	a0, a0, a1
	call	tlsf_memory_dealloc
.LBB77_207:
	slli	s1, s1, 8
	slli	s7, s7, 16
	slli	s8, s8, 24
	slli	s6, s6, 8
	slli	s11, s11, 16
	slli	s0, s0, 24
	or	a0, s1, s2
	or	a1, s8, s7
	or	a2, s6, s5
	or	a3, s0, s11
	or	a0, a0, a1
	or	a2, a2, a3
	or	a0, a0, a2
	beqz	a0, .LBB77_209
	slli	s4, s4, 8
	slli	s10, s10, 16
	slli	s3, s3, 24
	or	a0, s4, s9
	or	a1, s3, s10
	or	a0, a0, a1
	call	tlsf_memory_dealloc
.LBB77_209:
	lw	s1, 64(sp)
	slli	s1, s1, 8
	lw	a1, 72(sp)
	slli	a1, a1, 16
	lw	a2, 68(sp)
	slli	a2, a2, 24
	lw	a3, 76(sp)
	slli	a3, a3, 8
	lw	a4, 84(sp)
	slli	a4, a4, 16
	lw	a5, 80(sp)
	slli	a5, a5, 24
	lw	a0, 96(sp)
	or	a0, a0, s1
	or	a1, a1, a2
	lw	a2, 88(sp)
	or	a2, a2, a3
	or	a4, a4, a5
	or	a0, a0, a1
	or	a2, a2, a4
	or	a0, a0, a2
	beqz	a0, .LBB77_211
	lw	a0, 32(sp)
	slli	a0, a0, 8
	lw	a1, 40(sp)
	slli	a1, a1, 16
	lw	a2, 36(sp)
	slli	a2, a2, 24
	lw	a3, 44(sp)
	or	a0, a0, a3
	or	a1, a1, a2
	or	a0, a0, a1
	call	tlsf_memory_dealloc
.LBB77_211:
	lw	s1, 108(sp)
	slli	s1, s1, 8
	lw	a1, 116(sp)
	slli	a1, a1, 16
	lw	a2, 112(sp)
	slli	a2, a2, 24
	lw	a3, 92(sp)
	slli	a3, a3, 8
	lw	a4, 104(sp)
	slli	a4, a4, 16
	lw	a5, 100(sp)
	slli	a5, a5, 24
	lw	a0, 124(sp)
	or	a0, a0, s1
	or	a1, a1, a2
	lw	a2, 120(sp)
	or	a2, a2, a3
	or	a4, a4, a5
	or	a0, a0, a1
	or	a2, a2, a4
	or	a0, a0, a2
	lw	s10, 128(sp)
	beqz	a0, .LBB77_213
	lw	a0, 48(sp)
	slli	a0, a0, 8
	lw	a1, 56(sp)
	slli	a1, a1, 16
	lw	a2, 52(sp)
	slli	a2, a2, 24
	lw	a3, 60(sp)
	or	a0, a0, a3
	or	a1, a1, a2
	or	a0, a0, a1
	call	tlsf_memory_dealloc
.LBB77_213:
	lw	a1, 136(sp)
	addi	a1, a1, 1
	seqz	a0, a1
	lw	a2, 132(sp)
	add	a2, a2, a0
	bne	a2, s10, .LBB77_204
	lw	a0, 28(sp)
	sltu	a0, a1, a0
	bnez	a0, .LBB77_205
.LBB77_215:
	lw	a0, 12(sp)
	lw	a1, 8(sp)
	or	a0, a0, a1
	beqz	a0, .LBB77_217
	lw	a0, 20(sp)
	call	tlsf_memory_dealloc
.LBB77_217:
	lw	s0, 16(sp)
.LBB77_218:
	snez	a0, s0
	addi	a0, a0, 5
.LBB77_219:
	lw	ra, 1068(sp)
	lw	s0, 1064(sp)
	lw	s1, 1060(sp)
	lw	s2, 1056(sp)
	lw	s3, 1052(sp)
	lw	s4, 1048(sp)
	lw	s5, 1044(sp)
	lw	s6, 1040(sp)
	lw	s7, 1036(sp)
	lw	s8, 1032(sp)
	lw	s9, 1028(sp)
	lw	s10, 1024(sp)
	lw	s11, 1020(sp)
	.cfi_restore ra
	.cfi_restore s0
	.cfi_restore s1
	.cfi_restore s2
	.cfi_restore s3
	.cfi_restore s4
	.cfi_restore s5
	.cfi_restore s6
	.cfi_restore s7
	.cfi_restore s8
	.cfi_restore s9
	.cfi_restore s10
	.cfi_restore s11
	addi	sp, sp, 1072
	.cfi_def_cfa_offset 0
	ret
.LBB77_220:
	.cfi_restore_state
	mv	a0, s3
	call	tlsf_memory_dealloc
	lw	a0, 984(sp)
	sw	a0, 28(sp)
	lw	s10, 988(sp)
	mv	s3, s4
	j	.LBB77_201
.LBB77_221:
	mv	a0, s3
	call	tlsf_memory_dealloc
	lw	a0, 984(sp)
	sw	a0, 28(sp)
	lw	s10, 988(sp)
	mv	s3, s11
	j	.LBB77_186
.LBB77_222:
	unimp
.Lfunc_end77:
	.size	tlsf_pools_open, .Lfunc_end77-tlsf_pools_open
	.cfi_endproc
	.section	.text.tlsf_pools_part,"ax",@progbits
	.globl	tlsf_pools_part
	.p2align	1
	.type	tlsf_pools_part,@function
tlsf_pools_part:
	.cfi_startproc
	addi	sp, sp, -16
	.cfi_def_cfa_offset 16
	sw	ra, 12(sp)
	sw	s0, 8(sp)
	sw	s1, 4(sp)
	.cfi_offset ra, -4
	.cfi_offset s0, -8
	.cfi_offset s1, -12
	.cfi_remember_state
	lbu	a4, 8(a0)
	lw	s0, 0(a2)
	beqz	a4, .LBB78_6
	lw	a4, 0(a0)
	lbu	a0, 1(a4)
	beqz	a0, .LBB78_6
	lbu	a0, 0(a4)
	li	a5, 1
	bne	a0, a5, .LBB78_7
	lw	a0, 32(a4)
	lw	a5, 36(a4)
	sltu	a0, a1, a0
	snez	a5, a5
	or	a0, a0, a5
	sb	zero, 1(a4)
	beqz	a0, .LBB78_5
	li	a0, 0
	lw	a5, 24(a4)
	lui	s1, 1
	addi	s1, s1, -1304
	mul	a1, a1, s1
	add	a1, a1, a5
	lw	a5, 0(a1)
	lw	s0, 24(a1)
	li	a1, 1
	sb	a1, 1(a4)
	sw	a5, 0(a3)
	sw	s0, 0(a2)
	lw	ra, 12(sp)
	lw	s0, 8(sp)
	lw	s1, 4(sp)
	.cfi_restore ra
	.cfi_restore s0
	.cfi_restore s1
	addi	sp, sp, 16
	.cfi_def_cfa_offset 0
	ret
.LBB78_5:
	.cfi_restore_state
	.cfi_remember_state
	li	a0, 1
	sb	a0, 1(a4)
	li	a0, 4
	sw	s0, 0(a2)
	lw	ra, 12(sp)
	lw	s0, 8(sp)
	lw	s1, 4(sp)
	.cfi_restore ra
	.cfi_restore s0
	.cfi_restore s1
	addi	sp, sp, 16
	.cfi_def_cfa_offset 0
	ret
.LBB78_6:
	.cfi_restore_state
	li	a0, 0
	j	.LBB78_8
.LBB78_7:
	li	a0, 2
.LBB78_8:
	mv	s1, a2
	call	tlsf_c.call_fault.CallFault.refusal
	sw	s0, 0(s1)
	lw	ra, 12(sp)
	lw	s0, 8(sp)
	lw	s1, 4(sp)
	.cfi_restore ra
	.cfi_restore s0
	.cfi_restore s1
	addi	sp, sp, 16
	.cfi_def_cfa_offset 0
	ret
.Lfunc_end78:
	.size	tlsf_pools_part, .Lfunc_end78-tlsf_pools_part
	.cfi_endproc
	.section	.text.tlsf_pools_place,"ax",@progbits
	.globl	tlsf_pools_place
	.p2align	1
	.type	tlsf_pools_place,@function
tlsf_pools_place:
	.cfi_startproc
	lbu	a5, 8(a0)
	beqz	a5, .LBB79_7
	lw	t1, 0(a0)
	lbu	a0, 1(t1)
	beqz	a0, .LBB79_7
	lbu	a0, 0(t1)
	li	a5, 1
	bne	a0, a5, .LBB79_12
	lw	a0, 32(t1)
	lw	a5, 36(t1)
	sltu	a0, a1, a0
	snez	a5, a5
	or	a0, a0, a5
	sb	zero, 1(t1)
	beqz	a0, .LBB79_11
	lbu	a7, 8(t1)
	lw	a0, 24(t1)
	lui	a5, 1
	addi	a5, a5, -1304
	mul	a1, a1, a5
	add	a0, a0, a1
	lw	a6, 0(a0)
	lw	a1, 32(a0)
	bgeu	a2, a1, .LBB79_11
	lw	t0, 48(a0)
	srli	a1, a2, 3
	andi	a1, a1, -8
	add	t0, t0, a1
	lw	a7, 4(t0)
	andi	a1, a2, 63
	addi	a5, a1, -32
	bltz	a5, .LBB79_8
	srl	a1, a7, a1
	andi	a1, a1, 1
	bnez	a1, .LBB79_9
	j	.LBB79_11
.LBB79_7:
	li	a0, 0
	tail	tlsf_c.call_fault.CallFault.refusal
.LBB79_8:
	lw	a5, 0(t0)
	slli	a7, a7, 1
	not	a1, a1
	srl	a5, a5, a2
	sll	a1, a7, a1
	or	a1, a1, a5
	andi	a1, a1, 1
	beqz	a1, .LBB79_11
.LBB79_9:
	lw	a1, 24(a0)
	slli	a0, a2, 3
	add	a1, a1, a0
	lbu	a0, 0(a1)
	andi	a0, a0, 1
	bnez	a0, .LBB79_11
	li	a0, 0
	lw	a7, 8(a1)
	lw	a5, 12(a1)
	lw	t0, 16(a1)
	li	t2, 1
	srli	t3, a6, 24
	srli	t4, a6, 16
	srli	t6, a6, 8
	srli	t5, a2, 24
	sb	t2, 1(t1)
	srli	t1, a2, 16
	srli	a1, a2, 8
	sb	a6, 0(a3)
	sb	t6, 1(a3)
	sb	t4, 2(a3)
	sb	t3, 3(a3)
	sb	a2, 4(a3)
	sb	a1, 5(a3)
	sb	t1, 6(a3)
	sb	t5, 7(a3)
	srli	a6, a5, 24
	srli	t2, a5, 16
	srli	a1, a5, 8
	srli	t1, a7, 24
	srli	t3, a7, 16
	srli	a2, a7, 8
	sb	a5, 12(a3)
	sb	a1, 13(a3)
	sb	t2, 14(a3)
	sb	a6, 15(a3)
	sb	a7, 8(a3)
	sb	a2, 9(a3)
	sb	t3, 10(a3)
	sb	t1, 11(a3)
	sw	t0, 0(a4)
	ret
.LBB79_11:
	li	a0, 1
	sb	a0, 1(t1)
	li	a0, 4
	ret
.LBB79_12:
	li	a0, 2
	tail	tlsf_c.call_fault.CallFault.refusal
.Lfunc_end79:
	.size	tlsf_pools_place, .Lfunc_end79-tlsf_pools_place
	.cfi_endproc
	.section	.text.tlsf_pools_read,"ax",@progbits
	.globl	tlsf_pools_read
	.p2align	1
	.type	tlsf_pools_read,@function
tlsf_pools_read:
	.cfi_startproc
	addi	sp, sp, -16
	.cfi_def_cfa_offset 16
	sw	ra, 12(sp)
	sw	s0, 8(sp)
	sw	s1, 4(sp)
	sw	s2, 0(sp)
	.cfi_offset ra, -4
	.cfi_offset s0, -8
	.cfi_offset s1, -12
	.cfi_offset s2, -16
	.cfi_remember_state
	lbu	s0, 8(a0)
	beqz	s0, .LBB80_17
	lw	s2, 0(a0)
	lbu	a0, 1(s2)
	beqz	a0, .LBB80_17
	mv	a5, a1
	lbu	a0, 0(s2)
	li	a1, 1
	bne	a0, a1, .LBB80_24
	lw	a0, 0(a5)
	lw	a1, 4(a5)
	lw	a7, 8(a5)
	lw	t0, 12(a5)
	seqz	s0, a3
	lbu	s1, 8(s2)
	lw	a5, 16(s2)
	lw	a6, 24(s2)
	slli	s0, s0, 12
	add	a3, a3, s0
	sb	zero, 1(s2)
	beqz	s1, .LBB80_10
	bltu	a0, a5, .LBB80_16
	lw	s1, 32(s2)
	lw	s0, 36(s2)
	sub	a5, a0, a5
	sltu	s1, a5, s1
	snez	s0, s0
	or	s0, s0, s1
	beqz	s0, .LBB80_16
	lui	s1, 1
	addi	s1, s1, -1304
	mul	a5, a5, s1
	add	a6, a6, a5
	lw	a5, 0(a6)
	bne	a5, a0, .LBB80_31
	lw	s1, 32(a6)
	mv	a5, a0
	bgeu	a1, s1, .LBB80_31
	lw	t2, 48(a6)
	srli	a5, a1, 3
	andi	a5, a5, -8
	add	t2, t2, a5
	lw	t1, 4(t2)
	andi	s1, a1, 63
	addi	a5, s1, -32
	bltz	a5, .LBB80_18
	srl	a5, t1, s1
	j	.LBB80_19
.LBB80_10:
	bltu	a0, a5, .LBB80_16
	lw	s1, 32(s2)
	lw	s0, 36(s2)
	sub	a5, a0, a5
	sltu	s1, a5, s1
	snez	s0, s0
	or	s0, s0, s1
	beqz	s0, .LBB80_16
	lui	s1, 1
	addi	s1, s1, -1304
	mul	a5, a5, s1
	add	a6, a6, a5
	lw	a5, 0(a6)
	bne	a5, a0, .LBB80_31
	lw	s1, 32(a6)
	mv	a5, a0
	bgeu	a1, s1, .LBB80_31
	lw	t2, 48(a6)
	srli	a5, a1, 3
	andi	a5, a5, -8
	add	t2, t2, a5
	lw	t1, 4(t2)
	andi	s1, a1, 63
	addi	a5, s1, -32
	bltz	a5, .LBB80_25
	srl	a5, t1, s1
	j	.LBB80_26
.LBB80_16:
	li	a0, 1
	sb	a0, 1(s2)
	li	a0, 3
	lw	ra, 12(sp)
	lw	s0, 8(sp)
	lw	s1, 4(sp)
	lw	s2, 0(sp)
	.cfi_restore ra
	.cfi_restore s0
	.cfi_restore s1
	.cfi_restore s2
	addi	sp, sp, 16
	.cfi_def_cfa_offset 0
	ret
.LBB80_17:
	.cfi_restore_state
	.cfi_remember_state
	li	a0, 0
	lw	ra, 12(sp)
	lw	s0, 8(sp)
	lw	s1, 4(sp)
	lw	s2, 0(sp)
	.cfi_restore ra
	.cfi_restore s0
	.cfi_restore s1
	.cfi_restore s2
	addi	sp, sp, 16
	.cfi_def_cfa_offset 0
	tail	tlsf_c.call_fault.CallFault.refusal
.LBB80_18:
	.cfi_restore_state
	.cfi_remember_state
	lw	a5, 0(t2)
	slli	t1, t1, 1
	not	s1, s1
	srl	s0, a5, a1
	sll	a5, t1, s1
	or	a5, a5, s0
.LBB80_19:
	andi	s1, a5, 1
	mv	a5, a0
	beqz	s1, .LBB80_31
	addi	a6, a6, 24
	lw	t1, 0(a6)
	slli	a5, a1, 3
	add	t1, t1, a5
	lbu	a5, 0(t1)
	andi	s1, a5, 1
	mv	a5, a0
	bnez	s1, .LBB80_31
	lw	a5, 12(t1)
	lw	s1, 8(t1)
	xor	a5, a5, t0
	xor	s1, s1, a7
	or	s1, s1, a5
	mv	a5, a0
	bnez	s1, .LBB80_31
	lw	a0, 16(t1)
	add	a5, a4, a2
	sltu	s1, a5, a4
	sltu	a0, a0, a5
	or	a0, a0, s1
	bnez	a0, .LBB80_30
	mv	a0, a6
	li	a5, 0
	call	tlsf_heap.region.Region.read.5
	j	.LBB80_33
.LBB80_24:
	li	a0, 2
	lw	ra, 12(sp)
	lw	s0, 8(sp)
	lw	s1, 4(sp)
	lw	s2, 0(sp)
	.cfi_restore ra
	.cfi_restore s0
	.cfi_restore s1
	.cfi_restore s2
	addi	sp, sp, 16
	.cfi_def_cfa_offset 0
	tail	tlsf_c.call_fault.CallFault.refusal
.LBB80_25:
	.cfi_restore_state
	.cfi_remember_state
	lw	a5, 0(t2)
	slli	t1, t1, 1
	not	s1, s1
	srl	s0, a5, a1
	sll	a5, t1, s1
	or	a5, a5, s0
.LBB80_26:
	andi	s1, a5, 1
	mv	a5, a0
	beqz	s1, .LBB80_31
	addi	a6, a6, 24
	lw	t1, 0(a6)
	slli	a5, a1, 3
	add	t1, t1, a5
	lbu	a5, 0(t1)
	andi	s1, a5, 1
	mv	a5, a0
	bnez	s1, .LBB80_31
	lw	a5, 12(t1)
	lw	s1, 8(t1)
	xor	a5, a5, t0
	xor	s1, s1, a7
	or	s1, s1, a5
	mv	a5, a0
	bnez	s1, .LBB80_31
	lw	a0, 16(t1)
	add	a5, a4, a2
	sltu	s1, a5, a4
	sltu	a0, a0, a5
	or	a0, a0, s1
	beqz	a0, .LBB80_32
.LBB80_30:
	li	a0, 1
	sb	a0, 1(s2)
	li	a0, 7
	lw	ra, 12(sp)
	lw	s0, 8(sp)
	lw	s1, 4(sp)
	lw	s2, 0(sp)
	.cfi_restore ra
	.cfi_restore s0
	.cfi_restore s1
	.cfi_restore s2
	addi	sp, sp, 16
	.cfi_def_cfa_offset 0
	ret
.LBB80_31:
	.cfi_restore_state
	.cfi_remember_state
	mv	a1, a5
	call	tlsf_heap.refusal.Refusal.of_name
	zext.b	a0, a0
	li	a1, 1
	sb	a1, 1(s2)
	addi	a0, a0, -3
	seqz	a0, a0
	addi	a0, a0, 3
	lw	ra, 12(sp)
	lw	s0, 8(sp)
	lw	s1, 4(sp)
	lw	s2, 0(sp)
	.cfi_restore ra
	.cfi_restore s0
	.cfi_restore s1
	.cfi_restore s2
	addi	sp, sp, 16
	.cfi_def_cfa_offset 0
	ret
.LBB80_32:
	.cfi_restore_state
	mv	a0, a6
	li	a5, 0
	call	tlsf_heap.region.Region.read.4
.LBB80_33:
	li	a0, 0
	li	a1, 1
	sb	a1, 1(s2)
	lw	ra, 12(sp)
	lw	s0, 8(sp)
	lw	s1, 4(sp)
	lw	s2, 0(sp)
	.cfi_restore ra
	.cfi_restore s0
	.cfi_restore s1
	.cfi_restore s2
	addi	sp, sp, 16
	.cfi_def_cfa_offset 0
	ret
.Lfunc_end80:
	.size	tlsf_pools_read, .Lfunc_end80-tlsf_pools_read
	.cfi_endproc
	.section	.text.tlsf_pools_release,"ax",@progbits
	.globl	tlsf_pools_release
	.p2align	1
	.type	tlsf_pools_release,@function
tlsf_pools_release:
	.cfi_startproc
	addi	sp, sp, -32
	.cfi_def_cfa_offset 32
	sw	ra, 28(sp)
	sw	s0, 24(sp)
	sw	s1, 20(sp)
	sw	s2, 16(sp)
	sw	s3, 12(sp)
	.cfi_offset ra, -4
	.cfi_offset s0, -8
	.cfi_offset s1, -12
	.cfi_offset s2, -16
	.cfi_offset s3, -20
	.cfi_remember_state
	lbu	a2, 8(a0)
	beqz	a2, .LBB81_18
	lw	s0, 0(a0)
	lbu	a0, 1(s0)
	beqz	a0, .LBB81_18
	lbu	a0, 0(s0)
	li	a2, 1
	bne	a0, a2, .LBB81_26
	lw	a0, 0(a1)
	lw	a7, 4(a1)
	lw	a2, 8(a1)
	lw	a3, 12(a1)
	lbu	a4, 8(s0)
	lw	a1, 16(s0)
	lw	s1, 24(s0)
	sb	zero, 1(s0)
	beqz	a4, .LBB81_10
	bltu	a0, a1, .LBB81_16
	lw	a4, 32(s0)
	lw	a5, 36(s0)
	sub	a1, a0, a1
	sltu	a4, a1, a4
	snez	a5, a5
	or	a4, a4, a5
	beqz	a4, .LBB81_16
	lui	a4, 1
	addi	a4, a4, -1304
	mul	a1, a1, a4
	add	s3, s1, a1
	lw	a1, 0(s3)
	bne	a1, a0, .LBB81_36
	lw	a4, 32(s3)
	mv	a1, a0
	bgeu	a7, a4, .LBB81_36
	lw	a5, 48(s3)
	srli	a1, a7, 3
	andi	a1, a1, -8
	add	a5, a5, a1
	lw	a1, 4(a5)
	andi	s1, a7, 63
	addi	a4, s1, -32
	bltz	a4, .LBB81_19
	srl	a1, a1, s1
	j	.LBB81_20
.LBB81_10:
	bltu	a0, a1, .LBB81_16
	lw	a4, 32(s0)
	lw	a5, 36(s0)
	sub	a1, a0, a1
	sltu	a4, a1, a4
	snez	a5, a5
	or	a4, a4, a5
	beqz	a4, .LBB81_16
	lui	a4, 1
	addi	a4, a4, -1304
	mul	a1, a1, a4
	add	s3, s1, a1
	lw	a1, 0(s3)
	bne	a1, a0, .LBB81_36
	lw	a4, 32(s3)
	mv	a1, a0
	bgeu	a7, a4, .LBB81_36
	lw	a5, 48(s3)
	srli	a1, a7, 3
	andi	a1, a1, -8
	add	a5, a5, a1
	lw	a1, 4(a5)
	andi	s1, a7, 63
	addi	a4, s1, -32
	bltz	a4, .LBB81_28
	srl	a1, a1, s1
	j	.LBB81_29
.LBB81_16:
	li	a0, 1
	sb	a0, 1(s0)
	li	a0, 3
.LBB81_17:
	lw	ra, 28(sp)
	lw	s0, 24(sp)
	lw	s1, 20(sp)
	lw	s2, 16(sp)
	lw	s3, 12(sp)
	.cfi_restore ra
	.cfi_restore s0
	.cfi_restore s1
	.cfi_restore s2
	.cfi_restore s3
	addi	sp, sp, 32
	.cfi_def_cfa_offset 0
	ret
.LBB81_18:
	.cfi_restore_state
	.cfi_remember_state
	li	a0, 0
	j	.LBB81_27
.LBB81_19:
	lw	a4, 0(a5)
	slli	a1, a1, 1
	not	a5, s1
	srl	a4, a4, a7
	sll	a1, a1, a5
	or	a1, a1, a4
.LBB81_20:
	andi	a4, a1, 1
	mv	a1, a0
	beqz	a4, .LBB81_36
	addi	t0, s3, 24
	lw	t2, 0(t0)
	slli	t1, a7, 3
	add	a4, t2, t1
	lw	t3, 0(a4)
	andi	a5, t3, 1
	mv	a1, a0
	bnez	a5, .LBB81_36
	lw	a1, 12(a4)
	lw	a5, 8(a4)
	xor	a1, a1, a3
	xor	a2, a2, a5
	or	a2, a2, a1
	mv	a1, a0
	bnez	a2, .LBB81_36
	lw	a5, 8(s3)
	lw	a6, 12(s3)
	and	a0, a5, a6
	li	a1, -1
	beq	a0, a1, .LBB81_35
	lw	a1, 16(s3)
	lw	t4, 4(a4)
	lw	s2, 16(a4)
	srli	a0, t3, 2
	sub	a1, a1, a0
	andi	a2, t3, 2
	sw	a1, 16(s3)
	bnez	a2, .LBB81_37
	add	a1, a0, a7
	slli	a1, a1, 3
	add	a2, t2, a1
	lw	a1, 0(a2)
	lw	a2, 4(a2)
	bnez	a7, .LBB81_38
	j	.LBB81_39
.LBB81_26:
	li	a0, 2
.LBB81_27:
	lw	ra, 28(sp)
	lw	s0, 24(sp)
	lw	s1, 20(sp)
	lw	s2, 16(sp)
	lw	s3, 12(sp)
	.cfi_restore ra
	.cfi_restore s0
	.cfi_restore s1
	.cfi_restore s2
	.cfi_restore s3
	addi	sp, sp, 32
	.cfi_def_cfa_offset 0
	tail	tlsf_c.call_fault.CallFault.refusal
.LBB81_28:
	.cfi_restore_state
	lw	a4, 0(a5)
	slli	a1, a1, 1
	not	a5, s1
	srl	a4, a4, a7
	sll	a1, a1, a5
	or	a1, a1, a4
.LBB81_29:
	andi	a4, a1, 1
	mv	a1, a0
	beqz	a4, .LBB81_36
	addi	t0, s3, 24
	lw	t2, 0(t0)
	slli	t1, a7, 3
	add	a4, t2, t1
	lw	t3, 0(a4)
	andi	a5, t3, 1
	mv	a1, a0
	bnez	a5, .LBB81_36
	lw	a1, 12(a4)
	lw	a5, 8(a4)
	xor	a1, a1, a3
	xor	a2, a2, a5
	or	a2, a2, a1
	mv	a1, a0
	bnez	a2, .LBB81_36
	lw	a5, 8(s3)
	lw	a6, 12(s3)
	and	a0, a5, a6
	li	a1, -1
	beq	a0, a1, .LBB81_35
	lw	a1, 16(s3)
	lw	t4, 4(a4)
	lw	s2, 16(a4)
	srli	a0, t3, 2
	sub	a1, a1, a0
	andi	a2, t3, 2
	sw	a1, 16(s3)
	bnez	a2, .LBB81_44
	add	a1, a0, a7
	slli	a1, a1, 3
	add	a2, t2, a1
	lw	a1, 0(a2)
	lw	a2, 4(a2)
	j	.LBB81_45
.LBB81_35:
	li	a0, 1
	sb	a0, 1(s0)
	li	a0, 2
	j	.LBB81_17
.LBB81_36:
	call	tlsf_heap.refusal.Refusal.of_name
	zext.b	a0, a0
	li	a1, 1
	sb	a1, 1(s0)
	addi	a0, a0, -3
	seqz	a0, a0
	addi	a0, a0, 3
	j	.LBB81_17
.LBB81_37:
	li	a1, 0
	li	a2, 0
	beqz	a7, .LBB81_39
.LBB81_38:
	slli	a3, t4, 3
	add	t2, t2, a3
	lw	a3, 0(t2)
	andi	s1, a3, 1
	bnez	s1, .LBB81_43
.LBB81_39:
	andi	a3, a1, 1
	bnez	a3, .LBB81_42
	addi	t3, t3, 1
	ori	a1, a0, 32
	lui	a2, 349525
	lui	t0, 209715
	sw	t3, 0(a4)
	sw	t4, 4(a4)
	sw	a5, 8(a4)
	sw	a6, 12(a4)
	srli	a4, a1, 1
	lw	a5, 8(s3)
	lw	s1, 12(s3)
	or	a1, a1, a4
	srli	a4, a1, 2
	or	a1, a1, a4
	srli	a4, a1, 4
	addi	a5, a5, 1
	or	a3, a1, a4
	seqz	a4, a5
	add	a4, a4, s1
	srli	a1, a3, 8
	or	a1, a1, a3
	lui	a3, 61681
	addi	a2, a2, 1365
	sw	a5, 8(s3)
	sw	a4, 12(s3)
	srli	a4, a1, 16
	or	a1, a1, a4
	not	a1, a1
	srli	a4, a1, 1
	and	a2, a2, a4
	lui	a4, 4112
	addi	a5, t0, 819
	sub	a1, a1, a2
	and	a2, a1, a5
	srli	a1, a1, 2
	and	a1, a1, a5
	li	a5, 26
	addi	a3, a3, -241
	addi	a4, a4, 257
	add	a1, a1, a2
	srli	a2, a1, 4
	add	a1, a1, a2
	and	a1, a1, a3
	mul	a1, a1, a4
	srli	a1, a1, 24
	sub	a5, a5, a1
	srl	a0, a0, a5
	slli	a1, a5, 5
	add	a1, a1, a0
	slli	a2, a1, 2
	add	a2, a2, s3
	lw	a3, 168(a2)
	sw	a7, 168(a2)
	lw	a2, 24(s3)
	bltz	a3, .LBB81_52
	add	t1, t1, a2
	li	a0, -1
	slli	a1, a3, 3
	sw	a3, 16(t1)
	sw	a0, 20(t1)
	add	a1, a1, a2
	sw	a7, 20(a1)
	j	.LBB81_53
.LBB81_42:
	addi	a0, a5, 1
	seqz	a3, a0
	add	a3, a3, a6
	sw	a0, 8(s3)
	sw	a3, 12(s3)
	mv	a0, t0
	mv	a3, t3
	mv	a4, t4
	call	tlsf_heap.fitting.merge_next.5
	j	.LBB81_53
.LBB81_43:
	lw	a4, 4(t2)
	addi	a0, a5, 1
	seqz	s1, a0
	add	s1, s1, a6
	sw	a0, 8(s3)
	sw	s1, 12(s3)
	mv	a0, t0
	call	tlsf_heap.fitting.merge_before.5
	j	.LBB81_53
.LBB81_44:
	li	a1, 0
	li	a2, 0
.LBB81_45:
	beqz	a7, .LBB81_47
	slli	a3, t4, 3
	add	t2, t2, a3
	lw	a3, 0(t2)
	andi	s1, a3, 1
	bnez	s1, .LBB81_51
.LBB81_47:
	andi	a3, a1, 1
	bnez	a3, .LBB81_50
	addi	t3, t3, 1
	ori	a1, a0, 16
	lui	a2, 349525
	lui	t0, 209715
	sw	t3, 0(a4)
	sw	t4, 4(a4)
	sw	a5, 8(a4)
	sw	a6, 12(a4)
	srli	a4, a1, 1
	lw	a5, 8(s3)
	lw	s1, 12(s3)
	or	a1, a1, a4
	srli	a4, a1, 2
	or	a1, a1, a4
	srli	a4, a1, 4
	addi	a5, a5, 1
	or	a3, a1, a4
	seqz	a4, a5
	add	a4, a4, s1
	srli	a1, a3, 8
	or	a1, a1, a3
	lui	a3, 61681
	addi	a2, a2, 1365
	sw	a5, 8(s3)
	sw	a4, 12(s3)
	srli	a4, a1, 16
	or	a1, a1, a4
	not	a1, a1
	srli	a4, a1, 1
	and	a2, a2, a4
	lui	a4, 4112
	addi	a5, t0, 819
	sub	a1, a1, a2
	and	a2, a1, a5
	srli	a1, a1, 2
	and	a1, a1, a5
	li	a5, 27
	addi	a3, a3, -241
	addi	a4, a4, 257
	add	a1, a1, a2
	srli	a2, a1, 4
	add	a1, a1, a2
	and	a1, a1, a3
	mul	a1, a1, a4
	srli	a1, a1, 24
	sub	a5, a5, a1
	srl	a0, a0, a5
	slli	a1, a5, 4
	add	a1, a1, a0
	slli	a2, a1, 2
	add	a2, a2, s3
	lw	a3, 168(a2)
	sw	a7, 168(a2)
	lw	a2, 24(s3)
	bltz	a3, .LBB81_57
	add	t1, t1, a2
	li	a0, -1
	slli	a1, a3, 3
	sw	a3, 16(t1)
	sw	a0, 20(t1)
	add	a1, a1, a2
	sw	a7, 20(a1)
	j	.LBB81_58
.LBB81_50:
	addi	a0, a5, 1
	seqz	a3, a0
	add	a3, a3, a6
	sw	a0, 8(s3)
	sw	a3, 12(s3)
	mv	a0, t0
	mv	a3, t3
	mv	a4, t4
	call	tlsf_heap.fitting.merge_next.4
	j	.LBB81_58
.LBB81_51:
	lw	a4, 4(t2)
	addi	a0, a5, 1
	seqz	s1, a0
	add	s1, s1, a6
	sw	a0, 8(s3)
	sw	s1, 12(s3)
	mv	a0, t0
	call	tlsf_heap.fitting.merge_before.4
	j	.LBB81_58
.LBB81_52:
	add	a2, a2, t1
	li	a3, -1
	srli	a1, a1, 5
	li	a4, 1
	sw	a3, 16(a2)
	sw	a3, 20(a2)
	slli	a2, a1, 2
	add	a2, a2, s3
	lw	a3, 80(s3)
	lw	a5, 84(a2)
	sll	a1, a4, a1
	sll	a0, a4, a0
	or	a1, a1, a3
	or	a0, a0, a5
	sw	a1, 80(s3)
	sw	a0, 84(a2)
.LBB81_53:
	addi	a1, s3, 2047
	lw	a2, 697(a1)
	lw	a3, 701(a1)
	or	a0, a2, a3
	beqz	a0, .LBB81_63
	li	a0, 0
	lw	a4, 689(a1)
	lw	a1, 721(a1)
	addi	a4, a4, 4
.LBB81_55:
	lw	a5, 0(a4)
	bgeu	a5, s2, .LBB81_62
	seqz	a5, a2
	addi	a2, a2, -1
	sub	a3, a3, a5
	addi	a0, a0, 1
	or	a5, a2, a3
	addi	a4, a4, 8
	bnez	a5, .LBB81_55
	j	.LBB81_63
.LBB81_57:
	add	a2, a2, t1
	li	a3, -1
	srli	a1, a1, 4
	li	a4, 1
	andi	a0, a0, 15
	sw	a3, 16(a2)
	sw	a3, 20(a2)
	slli	a2, a1, 2
	add	a2, a2, s3
	lw	a3, 80(s3)
	lw	a5, 84(a2)
	sll	a1, a4, a1
	sll	a0, a4, a0
	or	a1, a1, a3
	or	a0, a0, a5
	sw	a1, 80(s3)
	sw	a0, 84(a2)
.LBB81_58:
	addi	a1, s3, 2047
	lw	a2, 697(a1)
	lw	a3, 701(a1)
	or	a0, a2, a3
	beqz	a0, .LBB81_63
	li	a0, 0
	lw	a4, 689(a1)
	lw	a1, 721(a1)
	addi	a4, a4, 4
.LBB81_60:
	lw	a5, 0(a4)
	bgeu	a5, s2, .LBB81_62
	seqz	a5, a2
	addi	a2, a2, -1
	sub	a3, a3, a5
	addi	a0, a0, 1
	or	a5, a2, a3
	addi	a4, a4, 8
	bnez	a5, .LBB81_60
	j	.LBB81_63
.LBB81_62:
	slli	a0, a0, 2
	add	a0, a0, a1
	lw	a1, 0(a0)
	addi	a1, a1, -1
	sw	a1, 0(a0)
.LBB81_63:
	li	a0, 0
	li	a1, 1
	sb	a1, 1(s0)
	j	.LBB81_17
.Lfunc_end81:
	.size	tlsf_pools_release, .Lfunc_end81-tlsf_pools_release
	.cfi_endproc
	.section	.text.tlsf_pools_report,"ax",@progbits
	.globl	tlsf_pools_report
	.p2align	1
	.type	tlsf_pools_report,@function
tlsf_pools_report:
	.cfi_startproc
	addi	sp, sp, -64
	.cfi_def_cfa_offset 64
	sw	ra, 60(sp)
	sw	s0, 56(sp)
	sw	s1, 52(sp)
	sw	s2, 48(sp)
	sw	s3, 44(sp)
	sw	s4, 40(sp)
	sw	s5, 36(sp)
	sw	s6, 32(sp)
	sw	s7, 28(sp)
	sw	s8, 24(sp)
	sw	s9, 20(sp)
	sw	s10, 16(sp)
	sw	s11, 12(sp)
	.cfi_offset ra, -4
	.cfi_offset s0, -8
	.cfi_offset s1, -12
	.cfi_offset s2, -16
	.cfi_offset s3, -20
	.cfi_offset s4, -24
	.cfi_offset s5, -28
	.cfi_offset s6, -32
	.cfi_offset s7, -36
	.cfi_offset s8, -40
	.cfi_offset s9, -44
	.cfi_offset s10, -48
	.cfi_offset s11, -52
	.cfi_remember_state
	lbu	a3, 8(a0)
	beqz	a3, .LBB82_39
	lw	s2, 0(a0)
	lbu	a0, 1(s2)
	beqz	a0, .LBB82_39
	lbu	a0, 0(s2)
	li	a3, 1
	bne	a0, a3, .LBB82_45
	lbu	a4, 8(s2)
	lw	a3, 32(s2)
	lw	a0, 36(s2)
	sb	zero, 1(s2)
	sltu	a3, a1, a3
	snez	a0, a0
	or	a0, a0, a3
	beqz	a4, .LBB82_21
	beqz	a0, .LBB82_38
	lw	a0, 24(s2)
	lui	a3, 1
	addi	a3, a3, -1304
	mul	a1, a1, a3
	add	a0, a0, a1
	lw	t0, 12(a0)
	lw	a6, 32(a0)
	lw	s7, 8(a0)
	beqz	a6, .LBB82_40
	li	a1, 0
	li	s9, 0
	li	s5, 0
	li	s3, 0
	li	s4, 0
	li	s11, 0
	li	s6, 0
	lw	a0, 24(a0)
	mv	s8, s7
	mv	s10, t0
	j	.LBB82_8
.LBB82_7:
	lw	a3, 16(a3)
	addi	s6, s6, 1
	add	s11, s11, a4
	add	s4, s4, a3
	add	a1, a1, a4
	bgeu	a1, a6, .LBB82_16
.LBB82_8:
	slli	a3, a1, 3
	add	a3, a3, a0
	lw	a4, 0(a3)
	andi	a5, a4, 1
	srli	a4, a4, 2
	beqz	a5, .LBB82_7
	mv	a5, a4
	bltu	s9, a4, .LBB82_11
	mv	a5, s9
.LBB82_11:
	lw	s0, 12(a3)
	lw	s1, 8(a3)
	beq	s0, s10, .LBB82_13
	sltu	a3, s0, s10
	beqz	a3, .LBB82_14
	j	.LBB82_15
.LBB82_13:
	sltu	a3, s1, s8
	bnez	a3, .LBB82_15
.LBB82_14:
	mv	s0, s10
	mv	s1, s8
.LBB82_15:
	addi	s3, s3, 1
	add	s5, s5, a4
	mv	s9, a5
	mv	s8, s1
	mv	s10, s0
	add	a1, a1, a4
	bltu	a1, a6, .LBB82_8
.LBB82_16:
	beqz	s9, .LBB82_41
	ori	a0, s9, 32
	lui	a1, 349525
	srli	a3, a0, 1
	addi	a1, a1, 1365
	or	a0, a0, a3
	srli	a3, a0, 2
	or	a0, a0, a3
	srli	a3, a0, 4
	or	a0, a0, a3
	srli	a3, a0, 8
	or	a0, a0, a3
	srli	a3, a0, 16
	or	a0, a0, a3
	not	a0, a0
	srli	a3, a0, 1
	and	a1, a1, a3
	lui	a3, 209715
	addi	a3, a3, 819
	sub	a0, a0, a1
	and	a1, a0, a3
	srli	a0, a0, 2
	and	a0, a0, a3
	lui	a3, 61681
	add	a0, a0, a1
	srli	a1, a0, 4
	add	a0, a0, a1
	lui	a1, 4112
	addi	a3, a3, -241
	and	a0, a0, a3
	li	a3, 26
	addi	a1, a1, 257
	mul	a0, a0, a1
	srli	a0, a0, 24
	sub	a3, a3, a0
	srl	a0, s9, a3
	slli	a3, a3, 5
	add	a3, a3, a0
	srli	a1, a3, 5
	beqz	a1, .LBB82_19
	li	a3, 16
	andi	a0, a0, 31
	sll	a3, a3, a1
	addi	a1, a1, -1
	sll	a0, a0, a1
	add	a3, a3, a0
.LBB82_19:
	slli	a3, a3, 3
	addi	t5, a3, -24
	beqz	s5, .LBB82_42
.LBB82_20:
	li	a1, 1000
	mul	a0, s9, a1
	mulhu	a1, s9, a1
	sw	a2, 8(sp)
	mv	a2, s5
	li	a3, 0
	mv	s1, t5
	mv	s0, t0
	call	__udivdi3
	mv	t0, s0
	mv	t5, s1
	lw	a2, 8(sp)
	li	a5, 1000
	sub	a5, a5, a0
	j	.LBB82_43
.LBB82_21:
	beqz	a0, .LBB82_38
	lw	a0, 24(s2)
	lui	a3, 1
	addi	a3, a3, -1304
	mul	a1, a1, a3
	add	a0, a0, a1
	lw	t0, 12(a0)
	lw	a6, 32(a0)
	lw	s7, 8(a0)
	beqz	a6, .LBB82_44
	li	a1, 0
	li	s9, 0
	li	s5, 0
	li	s3, 0
	li	s4, 0
	li	s11, 0
	li	s6, 0
	lw	a0, 24(a0)
	mv	s10, s7
	mv	s8, t0
	j	.LBB82_25
.LBB82_24:
	lw	a3, 16(a3)
	addi	s6, s6, 1
	add	s11, s11, a4
	add	s4, s4, a3
	add	a1, a1, a4
	bgeu	a1, a6, .LBB82_33
.LBB82_25:
	slli	a3, a1, 3
	add	a3, a3, a0
	lw	a4, 0(a3)
	andi	a5, a4, 1
	srli	a4, a4, 2
	beqz	a5, .LBB82_24
	mv	a5, a4
	bltu	s9, a4, .LBB82_28
	mv	a5, s9
.LBB82_28:
	lw	s1, 12(a3)
	lw	s0, 8(a3)
	beq	s1, s8, .LBB82_30
	sltu	a3, s1, s8
	beqz	a3, .LBB82_31
	j	.LBB82_32
.LBB82_30:
	sltu	a3, s0, s10
	bnez	a3, .LBB82_32
.LBB82_31:
	mv	s1, s8
	mv	s0, s10
.LBB82_32:
	addi	s3, s3, 1
	add	s5, s5, a4
	mv	s9, a5
	mv	s10, s0
	mv	s8, s1
	add	a1, a1, a4
	bltu	a1, a6, .LBB82_25
.LBB82_33:
	beqz	s9, .LBB82_47
	ori	a0, s9, 16
	lui	a1, 349525
	srli	a3, a0, 1
	addi	a1, a1, 1365
	or	a0, a0, a3
	srli	a3, a0, 2
	or	a0, a0, a3
	srli	a3, a0, 4
	or	a0, a0, a3
	srli	a3, a0, 8
	or	a0, a0, a3
	srli	a3, a0, 16
	or	a0, a0, a3
	not	a0, a0
	srli	a3, a0, 1
	and	a1, a1, a3
	lui	a3, 209715
	addi	a3, a3, 819
	sub	a0, a0, a1
	and	a1, a0, a3
	srli	a0, a0, 2
	and	a0, a0, a3
	lui	a3, 61681
	add	a0, a0, a1
	srli	a1, a0, 4
	add	a0, a0, a1
	lui	a1, 4112
	addi	a3, a3, -241
	and	a0, a0, a3
	li	a3, 27
	addi	a1, a1, 257
	mul	a0, a0, a1
	srli	a0, a0, 24
	sub	a3, a3, a0
	srl	a0, s9, a3
	slli	a3, a3, 4
	add	a3, a3, a0
	srli	a1, a3, 4
	beqz	a1, .LBB82_36
	li	a3, 8
	andi	a0, a0, 15
	sll	a3, a3, a1
	addi	a1, a1, -1
	sll	a0, a0, a1
	add	a3, a3, a0
.LBB82_36:
	slli	a3, a3, 3
	addi	t5, a3, -24
	beqz	s5, .LBB82_48
.LBB82_37:
	li	a1, 1000
	mul	a0, s9, a1
	mulhu	a1, s9, a1
	sw	a2, 8(sp)
	mv	a2, s5
	li	a3, 0
	mv	s1, t5
	mv	s0, t0
	call	__udivdi3
	mv	t0, s0
	mv	t5, s1
	lw	a2, 8(sp)
	li	a5, 1000
	sub	a5, a5, a0
	j	.LBB82_49
.LBB82_38:
	li	a0, 1
	sb	a0, 1(s2)
	li	a0, 4
	j	.LBB82_51
.LBB82_39:
	li	a0, 0
	j	.LBB82_46
.LBB82_40:
	li	t5, 0
	li	s6, 0
	li	s11, 0
	li	s4, 0
	li	s3, 0
	li	s5, 0
	li	s9, 0
	li	a5, 0
	mv	s8, s7
	mv	s10, t0
	j	.LBB82_43
.LBB82_41:
	li	t5, 0
	bnez	s5, .LBB82_20
.LBB82_42:
	li	a5, 0
.LBB82_43:
	slli	a0, s11, 3
	sltu	a1, s7, s8
	sub	a3, t0, s10
	sub	t0, a0, s4
	sub	ra, a3, a1
	sub	a7, s7, s8
	j	.LBB82_50
.LBB82_44:
	li	t5, 0
	li	s6, 0
	li	s11, 0
	li	s4, 0
	li	s3, 0
	li	s5, 0
	li	s9, 0
	li	a5, 0
	mv	s10, s7
	mv	s8, t0
	j	.LBB82_49
.LBB82_45:
	li	a0, 2
.LBB82_46:
	lw	ra, 60(sp)
	lw	s0, 56(sp)
	lw	s1, 52(sp)
	lw	s2, 48(sp)
	lw	s3, 44(sp)
	lw	s4, 40(sp)
	lw	s5, 36(sp)
	lw	s6, 32(sp)
	lw	s7, 28(sp)
	lw	s8, 24(sp)
	lw	s9, 20(sp)
	lw	s10, 16(sp)
	lw	s11, 12(sp)
	.cfi_restore ra
	.cfi_restore s0
	.cfi_restore s1
	.cfi_restore s2
	.cfi_restore s3
	.cfi_restore s4
	.cfi_restore s5
	.cfi_restore s6
	.cfi_restore s7
	.cfi_restore s8
	.cfi_restore s9
	.cfi_restore s10
	.cfi_restore s11
	addi	sp, sp, 64
	.cfi_def_cfa_offset 0
	tail	tlsf_c.call_fault.CallFault.refusal
.LBB82_47:
	.cfi_restore_state
	li	t5, 0
	bnez	s5, .LBB82_37
.LBB82_48:
	li	a5, 0
.LBB82_49:
	slli	a0, s11, 3
	sltu	a1, s7, s10
	sub	a3, t0, s8
	sub	t0, a0, s4
	sub	ra, a3, a1
	sub	a7, s7, s10
.LBB82_50:
	li	a0, 0
	li	t3, 1
	srli	a1, s6, 24
	srli	s0, s6, 16
	srli	s1, s6, 8
	srli	s10, s11, 24
	srli	a3, s11, 16
	srli	s7, s11, 8
	srli	s8, s4, 24
	srli	a6, s4, 16
	srli	t2, s4, 8
	srli	a4, s3, 24
	sw	a4, 8(sp)
	srli	t1, s3, 16
	srli	t4, s3, 8
	srli	a4, s5, 24
	sb	t3, 1(s2)
	srli	t3, s5, 16
	srli	t6, s5, 8
	sb	s6, 0(a2)
	srli	s2, s9, 24
	sb	s1, 1(a2)
	srli	s6, s9, 16
	sb	s0, 2(a2)
	srli	s0, s9, 8
	sb	a1, 3(a2)
	mv	a1, t5
	srli	t5, t5, 24
	sb	s11, 4(a2)
	srli	s11, a1, 16
	sb	s7, 5(a2)
	srli	s1, a1, 8
	sb	a3, 6(a2)
	srli	s7, a5, 24
	sb	s10, 7(a2)
	srli	s10, a5, 16
	sb	s4, 8(a2)
	srli	s4, a5, 8
	sb	t2, 9(a2)
	srli	t2, t0, 24
	sb	a6, 10(a2)
	srli	a6, t0, 16
	sb	s8, 11(a2)
	srli	s8, t0, 8
	sb	s3, 12(a2)
	srli	s3, a7, 24
	sb	t4, 13(a2)
	sb	t1, 14(a2)
	lw	a3, 8(sp)
	sb	a3, 15(a2)
	srli	a3, a7, 16
	sb	s5, 16(a2)
	sb	t6, 17(a2)
	sb	t3, 18(a2)
	sb	a4, 19(a2)
	srli	a4, a7, 8
	sb	s9, 20(a2)
	sb	s0, 21(a2)
	sb	s6, 22(a2)
	sb	s2, 23(a2)
	srli	s0, ra, 24
	sb	a1, 24(a2)
	sb	s1, 25(a2)
	sb	s11, 26(a2)
	sb	t5, 27(a2)
	srli	s1, ra, 16
	sb	a5, 28(a2)
	sb	s4, 29(a2)
	sb	s10, 30(a2)
	sb	s7, 31(a2)
	srli	a1, ra, 8
	sb	t0, 32(a2)
	sb	s8, 33(a2)
	sb	a6, 34(a2)
	sb	t2, 35(a2)
	sb	zero, 36(a2)
	sb	zero, 37(a2)
	sb	zero, 38(a2)
	sb	zero, 39(a2)
	sb	a7, 40(a2)
	sb	a4, 41(a2)
	sb	a3, 42(a2)
	sb	s3, 43(a2)
	sb	ra, 44(a2)
	sb	a1, 45(a2)
	sb	s1, 46(a2)
	sb	s0, 47(a2)
.LBB82_51:
	lw	ra, 60(sp)
	lw	s0, 56(sp)
	lw	s1, 52(sp)
	lw	s2, 48(sp)
	lw	s3, 44(sp)
	lw	s4, 40(sp)
	lw	s5, 36(sp)
	lw	s6, 32(sp)
	lw	s7, 28(sp)
	lw	s8, 24(sp)
	lw	s9, 20(sp)
	lw	s10, 16(sp)
	lw	s11, 12(sp)
	.cfi_restore ra
	.cfi_restore s0
	.cfi_restore s1
	.cfi_restore s2
	.cfi_restore s3
	.cfi_restore s4
	.cfi_restore s5
	.cfi_restore s6
	.cfi_restore s7
	.cfi_restore s8
	.cfi_restore s9
	.cfi_restore s10
	.cfi_restore s11
	addi	sp, sp, 64
	.cfi_def_cfa_offset 0
	ret
.Lfunc_end82:
	.size	tlsf_pools_report, .Lfunc_end82-tlsf_pools_report
	.cfi_endproc
	.section	.text.tlsf_pools_row,"ax",@progbits
	.globl	tlsf_pools_row
	.p2align	1
	.type	tlsf_pools_row,@function
tlsf_pools_row:
	.cfi_startproc
	addi	sp, sp, -16
	.cfi_def_cfa_offset 16
	sw	s0, 12(sp)
	.cfi_offset s0, -4
	.cfi_remember_state
	lbu	a3, 8(a0)
	beqz	a3, .LBB83_30
	lw	t2, 0(a0)
	lbu	a0, 1(t2)
	beqz	a0, .LBB83_30
	lbu	a0, 0(t2)
	li	a3, 1
	bne	a0, a3, .LBB83_31
	lbu	a0, 8(t2)
	lw	a7, 24(t2)
	lw	a6, 32(t2)
	lw	t3, 36(t2)
	sb	zero, 1(t2)
	beqz	a0, .LBB83_13
	or	a0, a6, t3
	beqz	a0, .LBB83_28
	li	t6, 0
	li	t4, 0
	lui	t1, 1
	addi	t1, t1, -1304
.LBB83_6:
	mul	a0, t6, t1
	add	a0, a0, a7
	addi	a0, a0, 2047
	lw	a4, 697(a0)
	lw	t5, 701(a0)
	or	a3, a4, t5
	beqz	a3, .LBB83_10
	lw	t0, 689(a0)
	addi	a5, t0, 4
	mv	a3, a4
	mv	a0, t5
.LBB83_8:
	lw	s0, 0(a5)
	bgeu	s0, a1, .LBB83_22
	seqz	s0, a3
	sub	a0, a0, s0
	addi	a3, a3, -1
	or	s0, a3, a0
	addi	a5, a5, 8
	bnez	s0, .LBB83_8
.LBB83_10:
	addi	t6, t6, 1
	seqz	a0, t6
	add	t4, t4, a0
	beq	t4, t3, .LBB83_12
	sltu	a0, t4, t3
	bnez	a0, .LBB83_6
	j	.LBB83_28
.LBB83_12:
	sltu	a0, t6, a6
	bnez	a0, .LBB83_6
	j	.LBB83_28
.LBB83_13:
	or	a0, a6, t3
	beqz	a0, .LBB83_28
	li	t6, 0
	li	t1, 0
	lui	t4, 1
	addi	t4, t4, -1304
.LBB83_15:
	mul	a0, t6, t4
	add	a0, a0, a7
	addi	a0, a0, 2047
	lw	a3, 697(a0)
	lw	t5, 701(a0)
	or	a4, a3, t5
	beqz	a4, .LBB83_19
	lw	t0, 689(a0)
	addi	a5, t0, 4
	mv	a4, a3
	mv	a0, t5
.LBB83_17:
	lw	s0, 0(a5)
	bgeu	s0, a1, .LBB83_25
	seqz	s0, a4
	sub	a0, a0, s0
	addi	a4, a4, -1
	or	s0, a4, a0
	addi	a5, a5, 8
	bnez	s0, .LBB83_17
.LBB83_19:
	addi	t6, t6, 1
	seqz	a0, t6
	add	t1, t1, a0
	beq	t1, t3, .LBB83_21
	sltu	a0, t1, t3
	bnez	a0, .LBB83_15
	j	.LBB83_28
.LBB83_21:
	sltu	a0, t6, a6
	bnez	a0, .LBB83_15
	j	.LBB83_28
.LBB83_22:
	li	a5, 0
	addi	a0, t0, 4
.LBB83_23:
	lw	a3, 0(a0)
	bgeu	a3, a1, .LBB83_29
	seqz	a3, a4
	addi	a4, a4, -1
	sub	t5, t5, a3
	addi	a5, a5, 1
	or	a3, a4, t5
	addi	a0, a0, 8
	bnez	a3, .LBB83_23
	j	.LBB83_28
.LBB83_25:
	li	a5, 0
	addi	a0, t0, 4
.LBB83_26:
	lw	a4, 0(a0)
	bgeu	a4, a1, .LBB83_29
	seqz	a4, a3
	addi	a3, a3, -1
	sub	t5, t5, a4
	addi	a5, a5, 1
	or	a4, a3, t5
	addi	a0, a0, 8
	bnez	a4, .LBB83_26
.LBB83_28:
	li	a0, 1
	sb	a0, 1(t2)
	li	a0, 5
	lw	s0, 12(sp)
	.cfi_restore s0
	addi	sp, sp, 16
	.cfi_def_cfa_offset 0
	ret
.LBB83_29:
	.cfi_restore_state
	.cfi_remember_state
	li	a0, 0
	slli	a5, a5, 3
	add	a5, a5, t0
	lw	a1, 4(a5)
	li	a3, 1
	sb	a3, 1(t2)
	sw	a1, 0(a2)
	lw	s0, 12(sp)
	.cfi_restore s0
	addi	sp, sp, 16
	.cfi_def_cfa_offset 0
	ret
.LBB83_30:
	.cfi_restore_state
	.cfi_remember_state
	li	a0, 0
	lw	s0, 12(sp)
	.cfi_restore s0
	addi	sp, sp, 16
	.cfi_def_cfa_offset 0
	tail	tlsf_c.call_fault.CallFault.refusal
.LBB83_31:
	.cfi_restore_state
	li	a0, 2
	lw	s0, 12(sp)
	.cfi_restore s0
	addi	sp, sp, 16
	.cfi_def_cfa_offset 0
	tail	tlsf_c.call_fault.CallFault.refusal
.Lfunc_end83:
	.size	tlsf_pools_row, .Lfunc_end83-tlsf_pools_row
	.cfi_endproc
	.section	.text.tlsf_pools_words,"ax",@progbits
	.globl	tlsf_pools_words
	.p2align	1
	.type	tlsf_pools_words,@function
tlsf_pools_words:
	.cfi_startproc
	addi	sp, sp, -640
	.cfi_def_cfa_offset 640
	sw	ra, 636(sp)
	sw	s0, 632(sp)
	sw	s1, 628(sp)
	sw	s2, 624(sp)
	sw	s3, 620(sp)
	sw	s4, 616(sp)
	sw	s5, 612(sp)
	sw	s6, 608(sp)
	.cfi_offset ra, -4
	.cfi_offset s0, -8
	.cfi_offset s1, -12
	.cfi_offset s2, -16
	.cfi_offset s3, -20
	.cfi_offset s4, -24
	.cfi_offset s5, -28
	.cfi_offset s6, -32
	mv	a5, a0
	addi	a0, a0, -6
	li	s1, -2
	bgeu	a0, s1, .LBB84_2
	li	a0, 34
	j	.LBB84_10
.LBB84_2:
	li	s1, 64
	li	a0, 5
	bltu	s1, a2, .LBB84_10
	mv	s5, a1
	mv	s4, a5
	mv	s2, a3
	mv	s3, a4
	addi	a0, sp, 8
	mv	s0, a2
	li	a2, 88
	li	a1, 0
	call	tlsf_memory_set
	addi	a0, sp, 96
	li	a2, 512
	addi	s6, sp, 96
	li	a1, 0
	call	tlsf_memory_set
	mv	a2, s0
	beqz	s0, .LBB84_6
	li	a0, 0
	li	s0, 0
	seqz	a3, s5
	slli	a3, a3, 12
	add	s5, s5, a3
.LBB84_5:
	slli	a4, a0, 4
	slli	a6, a0, 3
	addi	a0, a0, 1
	add	a4, a4, s5
	seqz	a1, a0
	sltu	s1, a0, a2
	lbu	a3, 0(a4)
	lbu	a5, 1(a4)
	lbu	a7, 2(a4)
	lbu	t0, 3(a4)
	add	s0, s0, a1
	seqz	a1, s0
	and	t1, a1, s1
	slli	a5, a5, 8
	or	t2, a5, a3
	lbu	a5, 8(a4)
	lbu	s1, 9(a4)
	lbu	a1, 10(a4)
	lbu	a3, 11(a4)
	slli	a7, a7, 16
	slli	t0, t0, 24
	slli	s1, s1, 8
	slli	a1, a1, 16
	slli	a3, a3, 24
	or	a7, t0, a7
	or	t0, s1, a5
	or	a1, a1, a3
	lbu	a3, 13(a4)
	lbu	s1, 12(a4)
	lbu	a5, 14(a4)
	lbu	a4, 15(a4)
	slli	a3, a3, 8
	or	a3, a3, s1
	slli	a5, a5, 16
	slli	a4, a4, 24
	or	a4, a4, a5
	or	a5, a7, t2
	or	a1, a1, t0
	or	a3, a3, a4
	add	a6, a6, s6
	seqz	a3, a3
	addi	a3, a3, -1
	or	a1, a1, a3
	sw	a5, 0(a6)
	sw	a1, 4(a6)
	bnez	t1, .LBB84_5
.LBB84_6:
	li	a0, 4
	bne	s4, a0, .LBB84_8
	addi	a0, sp, 8
	addi	a1, sp, 96
	li	a3, 0
	call	tlsf_pool.sizes.split.rising_split.4
	lbu	a1, 8(sp)
	li	a0, 5
	bnez	a1, .LBB84_9
	j	.LBB84_10
.LBB84_8:
	addi	a0, sp, 8
	addi	a1, sp, 96
	li	a3, 0
	call	tlsf_pool.sizes.split.rising_split.5
	lbu	a1, 8(sp)
	li	a0, 5
	beqz	a1, .LBB84_10
.LBB84_9:
	li	a0, 0
	lw	a1, 88(sp)
	lw	a2, 92(sp)
	lw	a3, 16(sp)
	sw	a1, 0(s2)
	sw	a2, 4(s2)
	sw	a3, 0(s3)
.LBB84_10:
	lw	ra, 636(sp)
	lw	s0, 632(sp)
	lw	s1, 628(sp)
	lw	s2, 624(sp)
	lw	s3, 620(sp)
	lw	s4, 616(sp)
	lw	s5, 612(sp)
	lw	s6, 608(sp)
	.cfi_restore ra
	.cfi_restore s0
	.cfi_restore s1
	.cfi_restore s2
	.cfi_restore s3
	.cfi_restore s4
	.cfi_restore s5
	.cfi_restore s6
	addi	sp, sp, 640
	.cfi_def_cfa_offset 0
	ret
.Lfunc_end84:
	.size	tlsf_pools_words, .Lfunc_end84-tlsf_pools_words
	.cfi_endproc
	.section	.text.tlsf_post_close,"ax",@progbits
	.globl	tlsf_post_close
	.p2align	1
	.type	tlsf_post_close,@function
tlsf_post_close:
	.cfi_startproc
	lbu	a2, 8(a0)
	li	a1, 32
	beqz	a2, .LBB85_5
	lw	a2, 0(a0)
	lbu	a3, 1(a2)
	beqz	a3, .LBB85_5
	lbu	a1, 0(a2)
	beqz	a1, .LBB85_4
	li	a0, 40
	ret
.LBB85_4:
	addi	sp, sp, -128
	.cfi_def_cfa_offset 128
	sw	ra, 124(sp)
	sw	s0, 120(sp)
	sw	s1, 116(sp)
	sw	s2, 112(sp)
	sw	s3, 108(sp)
	.cfi_offset ra, -4
	.cfi_offset s0, -8
	.cfi_offset s1, -12
	.cfi_offset s2, -16
	.cfi_offset s3, -20
	sb	zero, 1(a2)
	lbu	a1, 1(a0)
	lbu	a2, 0(a0)
	lbu	a3, 2(a0)
	lbu	a4, 3(a0)
	slli	a1, a1, 8
	or	a1, a1, a2
	slli	a3, a3, 16
	slli	a4, a4, 24
	or	a3, a3, a4
	or	s0, a3, a1
	li	a2, 16
	li	a1, 0
	call	tlsf_memory_set
	lbu	s1, 0(s0)
	lbu	s3, 1(s0)
	addi	a1, s0, 8
	addi	s2, sp, 16
	li	a2, 40
	mv	a0, s2
	call	tlsf_memory_cpy
	mv	a0, s0
	call	tlsf_memory_dealloc
	sw	zero, 56(sp)
	sw	zero, 60(sp)
	sb	s1, 56(sp)
	sb	s3, 57(sp)
	addi	a0, sp, 64
	li	a2, 40
	mv	a1, s2
	call	tlsf_memory_cpy
	addi	a0, sp, 56
	call	tlsf_c.tlsf_c.any_end.AnyEnd.Destruct.drop
	li	a1, 0
	lw	ra, 124(sp)
	lw	s0, 120(sp)
	lw	s1, 116(sp)
	lw	s2, 112(sp)
	lw	s3, 108(sp)
	.cfi_restore ra
	.cfi_restore s0
	.cfi_restore s1
	.cfi_restore s2
	.cfi_restore s3
	addi	sp, sp, 128
	.cfi_def_cfa_offset 0
.LBB85_5:
	mv	a0, a1
	ret
.Lfunc_end85:
	.size	tlsf_post_close, .Lfunc_end85-tlsf_post_close
	.cfi_endproc
	.section	.text.tlsf_poster_close,"ax",@progbits
	.globl	tlsf_poster_close
	.p2align	1
	.type	tlsf_poster_close,@function
tlsf_poster_close:
	.cfi_startproc
	lbu	a2, 8(a0)
	li	a1, 32
	beqz	a2, .LBB86_4
	lw	a2, 0(a0)
	lbu	a3, 1(a2)
	beqz	a3, .LBB86_4
	lbu	a1, 0(a2)
	li	a3, 3
	bne	a1, a3, .LBB86_5
	addi	sp, sp, -128
	.cfi_def_cfa_offset 128
	sw	ra, 124(sp)
	sw	s0, 120(sp)
	sw	s1, 116(sp)
	sw	s2, 112(sp)
	sw	s3, 108(sp)
	.cfi_offset ra, -4
	.cfi_offset s0, -8
	.cfi_offset s1, -12
	.cfi_offset s2, -16
	.cfi_offset s3, -20
	sb	zero, 1(a2)
	lbu	a1, 1(a0)
	lbu	a2, 0(a0)
	lbu	a3, 2(a0)
	lbu	a4, 3(a0)
	slli	a1, a1, 8
	or	a1, a1, a2
	slli	a3, a3, 16
	slli	a4, a4, 24
	or	a3, a3, a4
	or	s0, a3, a1
	li	a2, 16
	li	a1, 0
	call	tlsf_memory_set
	lbu	s1, 0(s0)
	lbu	s3, 1(s0)
	addi	a1, s0, 8
	addi	s2, sp, 16
	li	a2, 40
	mv	a0, s2
	call	tlsf_memory_cpy
	mv	a0, s0
	call	tlsf_memory_dealloc
	sw	zero, 56(sp)
	sw	zero, 60(sp)
	sb	s1, 56(sp)
	sb	s3, 57(sp)
	addi	a0, sp, 64
	li	a2, 40
	mv	a1, s2
	call	tlsf_memory_cpy
	addi	a0, sp, 56
	call	tlsf_c.tlsf_c.any_end.AnyEnd.Destruct.drop
	li	a1, 0
	lw	ra, 124(sp)
	lw	s0, 120(sp)
	lw	s1, 116(sp)
	lw	s2, 112(sp)
	lw	s3, 108(sp)
	.cfi_restore ra
	.cfi_restore s0
	.cfi_restore s1
	.cfi_restore s2
	.cfi_restore s3
	addi	sp, sp, 128
	.cfi_def_cfa_offset 0
.LBB86_4:
	mv	a0, a1
	ret
.LBB86_5:
	li	a0, 40
	ret
.Lfunc_end86:
	.size	tlsf_poster_close, .Lfunc_end86-tlsf_poster_close
	.cfi_endproc
	.section	.text.tlsf_poster_open,"ax",@progbits
	.globl	tlsf_poster_open
	.p2align	1
	.type	tlsf_poster_open,@function
tlsf_poster_open:
	.cfi_startproc
	lbu	a2, 8(a0)
	beqz	a2, .LBB87_10
	lw	a2, 0(a0)
	lbu	a0, 1(a2)
	beqz	a0, .LBB87_10
	lbu	a3, 8(a1)
	lbu	a0, 0(a2)
	beqz	a3, .LBB87_5
	li	a1, 2
	beq	a0, a1, .LBB87_8
	li	a0, 40
	ret
.LBB87_5:
	li	a3, 2
	bne	a0, a3, .LBB87_11
	lw	a4, 32(a2)
	lw	a3, 36(a2)
	or	a0, a4, a3
	sb	zero, 1(a2)
	beqz	a0, .LBB87_9
	li	a0, 0
	seqz	a5, a4
	slli	a6, a4, 3
	addi	a7, a4, -1
	lw	a4, 24(a2)
	sub	a3, a3, a5
	li	t0, 1
	sw	a7, 32(a2)
	sw	a3, 36(a2)
	add	a4, a4, a6
	lbu	a3, -8(a4)
	lbu	a5, -7(a4)
	lbu	a6, -6(a4)
	lbu	a4, -5(a4)
	sb	t0, 1(a2)
	sb	zero, 4(a1)
	sb	zero, 5(a1)
	sb	zero, 6(a1)
	sb	zero, 7(a1)
	sb	t0, 8(a1)
	sb	zero, 9(a1)
	sb	zero, 10(a1)
	sb	zero, 11(a1)
	sb	a3, 0(a1)
	sb	a5, 1(a1)
	sb	a6, 2(a1)
	sb	a4, 3(a1)
	sb	zero, 12(a1)
	sb	zero, 13(a1)
	sb	zero, 14(a1)
	sb	zero, 15(a1)
	ret
.LBB87_8:
	li	a0, 33
	ret
.LBB87_9:
	li	a0, 1
	sb	a0, 1(a2)
	li	a0, 35
	ret
.LBB87_10:
	li	a0, 0
	tail	tlsf_c.call_fault.CallFault.refusal
.LBB87_11:
	li	a0, 2
	tail	tlsf_c.call_fault.CallFault.refusal
.Lfunc_end87:
	.size	tlsf_poster_open, .Lfunc_end87-tlsf_poster_open
	.cfi_endproc
	.section	.text.tlsf_put,"ax",@progbits
	.globl	tlsf_put
	.p2align	1
	.type	tlsf_put,@function
tlsf_put:
	.cfi_startproc
	addi	sp, sp, -48
	.cfi_def_cfa_offset 48
	sw	ra, 44(sp)
	sw	s0, 40(sp)
	sw	s1, 36(sp)
	sw	s2, 32(sp)
	sw	s3, 28(sp)
	sw	s4, 24(sp)
	sw	s5, 20(sp)
	sw	s6, 16(sp)
	sw	s7, 12(sp)
	.cfi_offset ra, -4
	.cfi_offset s0, -8
	.cfi_offset s1, -12
	.cfi_offset s2, -16
	.cfi_offset s3, -20
	.cfi_offset s4, -24
	.cfi_offset s5, -28
	.cfi_offset s6, -32
	.cfi_offset s7, -36
	.cfi_remember_state
	lbu	a2, 8(a0)
	beqz	a2, .LBB88_20
	lw	s0, 0(a0)
	lbu	a0, 1(s0)
	beqz	a0, .LBB88_20
	lbu	a0, 0(s0)
	bnez	a0, .LBB88_21
	lw	a7, 24(s0)
	lw	a6, 28(s0)
	lw	a2, 32(s0)
	lw	a0, 36(s0)
	lw	t0, 40(s0)
	lw	a5, 44(s0)
	lw	s7, 0(a1)
	lw	s6, 4(a1)
	lw	s3, 8(a1)
	lw	s4, 12(a1)
	sb	zero, 1(s0)
	beq	a0, a5, .LBB88_5
	sltu	a1, a5, a0
	j	.LBB88_6
.LBB88_5:
	sltu	a1, t0, a2
.LBB88_6:
	srli	s1, a7, 31
	slli	a3, a6, 1
	slli	t1, a7, 1
	neg	a1, a1
	add	a0, a0, a6
	add	a4, a2, a7
	or	a3, a3, s1
	and	s1, a1, t1
	sltu	a2, a4, a2
	sub	a0, a0, a5
	add	a0, a0, a2
	sltu	a2, a4, t0
	sub	a4, a4, t0
	and	a1, a1, a3
	sub	a0, a0, a2
	xor	a0, a0, a1
	xor	a4, a4, s1
	or	a0, a0, a4
	bnez	a0, .LBB88_12
	lw	a0, 8(s0)
	li	a1, 5
	call	__atomic_load_8
	lw	a7, 24(s0)
	lw	a6, 28(s0)
	lw	a5, 44(s0)
	lw	t0, 40(s0)
	sw	a0, 32(s0)
	sw	a1, 36(s0)
	beq	a1, a5, .LBB88_9
	sltu	a4, a5, a1
	j	.LBB88_10
.LBB88_9:
	sltu	a4, t0, a0
.LBB88_10:
	srli	a2, a7, 31
	slli	a3, a6, 1
	slli	t1, a7, 1
	neg	a4, a4
	add	a1, a1, a6
	add	a0, a0, a7
	or	a3, a3, a2
	and	a2, a4, t1
	sltu	s1, a0, a7
	sub	a1, a1, a5
	add	a1, a1, s1
	sltu	s1, a0, t0
	sub	a0, a0, t0
	and	a4, a4, a3
	sub	a1, a1, s1
	xor	a0, a0, a2
	xor	a1, a1, a4
	or	a0, a0, a1
	bnez	a0, .LBB88_12
	li	a0, 1
	sb	a0, 1(s0)
	li	a0, 8
	j	.LBB88_19
.LBB88_12:
	seqz	a0, t1
	sub	a0, a3, a0
	beq	a5, a0, .LBB88_14
	sltu	a0, a5, a0
	j	.LBB88_15
.LBB88_14:
	addi	t1, t1, -1
	sltu	a0, t0, t1
.LBB88_15:
	addi	a1, t0, 1
	neg	a0, a0
	seqz	a2, a1
	add	a2, a2, a5
	and	s2, a0, a1
	and	s5, a0, a2
	beq	a5, a6, .LBB88_17
	sltu	a0, a5, a6
	j	.LBB88_18
.LBB88_17:
	sltu	a0, t0, a7
.LBB88_18:
	addi	a0, a0, -1
	lw	a6, 16(s0)
	srli	t2, s7, 24
	srli	a3, s7, 16
	srli	a4, s7, 8
	srli	t3, s6, 24
	srli	s1, s6, 16
	srli	a1, s6, 8
	srli	t1, s4, 24
	and	a0, a0, a7
	srli	a7, s4, 16
	sub	a0, t0, a0
	slli	a2, a0, 3
	slli	a0, a0, 4
	add	a0, a0, a2
	srli	a2, s4, 8
	add	a0, a0, a6
	srli	a5, s3, 24
	sb	s7, 8(a0)
	sb	a4, 9(a0)
	sb	a3, 10(a0)
	sb	t2, 11(a0)
	srli	a3, s3, 16
	sb	s6, 12(a0)
	sb	a1, 13(a0)
	sb	s1, 14(a0)
	sb	t3, 15(a0)
	srli	a1, s3, 8
	sb	zero, 0(a0)
	sb	zero, 1(a0)
	sb	zero, 2(a0)
	sb	zero, 3(a0)
	sb	zero, 4(a0)
	sb	zero, 5(a0)
	sb	zero, 6(a0)
	sb	zero, 7(a0)
	sb	s4, 20(a0)
	sb	a2, 21(a0)
	sb	a7, 22(a0)
	sb	t1, 23(a0)
	sb	s3, 16(a0)
	sb	a1, 17(a0)
	sb	a3, 18(a0)
	sb	a5, 19(a0)
	lw	a0, 8(s0)
	addi	a0, a0, 128
	li	a3, 5
	mv	a1, s2
	mv	a2, s5
	call	__atomic_store_8
	li	a0, 0
	li	a1, 1
	sb	a1, 1(s0)
	sw	s2, 40(s0)
	sw	s5, 44(s0)
.LBB88_19:
	lw	ra, 44(sp)
	lw	s0, 40(sp)
	lw	s1, 36(sp)
	lw	s2, 32(sp)
	lw	s3, 28(sp)
	lw	s4, 24(sp)
	lw	s5, 20(sp)
	lw	s6, 16(sp)
	lw	s7, 12(sp)
	.cfi_restore ra
	.cfi_restore s0
	.cfi_restore s1
	.cfi_restore s2
	.cfi_restore s3
	.cfi_restore s4
	.cfi_restore s5
	.cfi_restore s6
	.cfi_restore s7
	addi	sp, sp, 48
	.cfi_def_cfa_offset 0
	ret
.LBB88_20:
	.cfi_restore_state
	li	a0, 0
	j	.LBB88_22
.LBB88_21:
	li	a0, 2
.LBB88_22:
	lw	ra, 44(sp)
	lw	s0, 40(sp)
	lw	s1, 36(sp)
	lw	s2, 32(sp)
	lw	s3, 28(sp)
	lw	s4, 24(sp)
	lw	s5, 20(sp)
	lw	s6, 16(sp)
	lw	s7, 12(sp)
	.cfi_restore ra
	.cfi_restore s0
	.cfi_restore s1
	.cfi_restore s2
	.cfi_restore s3
	.cfi_restore s4
	.cfi_restore s5
	.cfi_restore s6
	.cfi_restore s7
	addi	sp, sp, 48
	.cfi_def_cfa_offset 0
	tail	tlsf_c.call_fault.CallFault.refusal
.Lfunc_end88:
	.size	tlsf_put, .Lfunc_end88-tlsf_put
	.cfi_endproc
	.section	.text.tlsf_put_all,"ax",@progbits
	.globl	tlsf_put_all
	.p2align	1
	.type	tlsf_put_all,@function
tlsf_put_all:
	.cfi_startproc
	addi	sp, sp, -880
	.cfi_def_cfa_offset 880
	sw	ra, 876(sp)
	sw	s0, 872(sp)
	sw	s1, 868(sp)
	sw	s2, 864(sp)
	sw	s3, 860(sp)
	sw	s4, 856(sp)
	sw	s5, 852(sp)
	sw	s6, 848(sp)
	sw	s7, 844(sp)
	sw	s8, 840(sp)
	sw	s9, 836(sp)
	sw	s10, 832(sp)
	sw	s11, 828(sp)
	.cfi_offset ra, -4
	.cfi_offset s0, -8
	.cfi_offset s1, -12
	.cfi_offset s2, -16
	.cfi_offset s3, -20
	.cfi_offset s4, -24
	.cfi_offset s5, -28
	.cfi_offset s6, -32
	.cfi_offset s7, -36
	.cfi_offset s8, -40
	.cfi_offset s9, -44
	.cfi_offset s10, -48
	.cfi_offset s11, -52
	.cfi_remember_state
	mv	s7, a2
	lbu	a2, 8(a0)
	lw	a4, 0(a3)
	beqz	a2, .LBB89_47
	lw	s11, 0(a0)
	lbu	a0, 1(s11)
	beqz	a0, .LBB89_47
	lbu	a0, 0(s11)
	bnez	a0, .LBB89_48
	sb	zero, 1(s11)
	beqz	s7, .LBB89_44
	sw	a3, 12(sp)
	li	s0, 0
	li	s2, 0
	seqz	a0, a1
	addi	s8, sp, 56
	slli	a0, a0, 12
	add	a0, a0, a1
	sw	a0, 24(sp)
	sw	s7, 20(sp)
.LBB89_5:
	sub	a0, s7, s0
	sltu	a1, s7, s0
	sw	s2, 52(sp)
	add	a1, a1, s2
	seqz	a1, a1
	addi	a1, a1, -1
	or	s5, a1, a0
	li	a0, 32
	bltu	s5, a0, .LBB89_7
	li	s5, 32
.LBB89_7:
	mv	s2, s0
	slli	s1, s0, 4
	lw	s3, 24(sp)
	add	s3, s3, s1
	addi	a0, sp, 56
	li	a2, 768
	li	a1, 0
	call	tlsf_memory_set
	li	t6, 0
	li	a0, 0
	li	t0, 0
.LBB89_8:
	slli	a2, a0, 4
	slli	a3, a0, 3
	addi	a0, a0, 1
	add	a4, s3, a2
	add	a6, a2, a3
	seqz	a3, a0
	sltu	a5, a0, s5
	lbu	a7, 0(a4)
	lbu	s1, 1(a4)
	lbu	a2, 2(a4)
	lbu	s0, 3(a4)
	lbu	t1, 4(a4)
	lbu	a1, 5(a4)
	lbu	t2, 6(a4)
	lbu	t3, 7(a4)
	add	t0, t0, a3
	seqz	a3, t0
	and	t4, a3, a5
	slli	s1, s1, 8
	slli	a2, a2, 16
	slli	s0, s0, 24
	slli	a1, a1, 8
	or	a7, s1, a7
	or	t5, s0, a2
	or	t1, a1, t1
	lbu	s1, 8(a4)
	lbu	s0, 9(a4)
	lbu	a3, 10(a4)
	lbu	a5, 11(a4)
	slli	t2, t2, 16
	slli	t3, t3, 24
	slli	s0, s0, 8
	slli	a3, a3, 16
	slli	a5, a5, 24
	or	a1, t3, t2
	or	s0, s0, s1
	or	a3, a3, a5
	lbu	a5, 13(a4)
	lbu	s1, 12(a4)
	lbu	a2, 14(a4)
	lbu	a4, 15(a4)
	slli	a5, a5, 8
	or	a5, a5, s1
	slli	a2, a2, 16
	slli	a4, a4, 24
	or	a2, a2, a4
	or	a4, t5, a7
	or	a1, a1, t1
	or	a3, a3, s0
	add	a6, a6, s8
	or	a2, a2, a5
	sw	zero, 0(a6)
	sw	zero, 4(a6)
	sw	a4, 8(a6)
	sw	a1, 12(a6)
	sw	a3, 16(a6)
	sw	a2, 20(a6)
	bnez	t4, .LBB89_8
	lw	s9, 24(s11)
	lw	s3, 28(s11)
	lw	a0, 32(s11)
	lw	a1, 36(s11)
	lw	s6, 44(s11)
	lw	s10, 40(s11)
	beq	a1, s6, .LBB89_11
	sltu	a2, s6, a1
	j	.LBB89_12
.LBB89_11:
	sltu	a2, s10, a0
.LBB89_12:
	srli	a3, s9, 31
	slli	a4, s3, 1
	or	a3, a3, a4
	slli	a4, s9, 1
	neg	a2, a2
	add	a5, a1, s3
	and	a1, a2, a4
	and	a2, a2, a3
	add	a3, a0, s9
	sltu	a0, a3, a0
	sub	a4, a5, s6
	add	a4, a4, a0
	sltu	a5, a3, s10
	sub	a0, a3, s10
	sub	a4, a4, a5
	sub	a4, a4, a2
	sltu	a2, a0, a1
	sub	a4, a4, a2
	beqz	a4, .LBB89_17
	li	a0, 1
	mv	s0, s2
	beqz	a0, .LBB89_18
.LBB89_14:
	mv	s4, s5
	or	a0, s5, t6
	beqz	a0, .LBB89_40
.LBB89_15:
	sw	s0, 44(sp)
	beq	s6, s3, .LBB89_20
	sltu	a0, s6, s3
	j	.LBB89_21
.LBB89_17:
	sub	a0, a0, a1
	sltu	a0, a0, s5
	xori	a0, a0, 1
	mv	s0, s2
	bnez	a0, .LBB89_14
.LBB89_18:
	lw	a0, 8(s11)
	li	a1, 5
	call	__atomic_load_8
	lw	s6, 44(s11)
	lw	s10, 40(s11)
	sw	a0, 32(s11)
	sw	a1, 36(s11)
	beq	a1, s6, .LBB89_36
	sltu	a2, s6, a1
	j	.LBB89_37
.LBB89_20:
	sltu	a0, s10, s9
.LBB89_21:
	addi	a0, a0, -1
	and	a1, a0, s3
	and	a6, a0, s9
	sltu	a2, s10, a6
	sub	a3, s6, a1
	sub	a1, s10, a6
	sub	a7, a3, a2
	sub	a3, s3, a7
	sltu	a4, s9, a1
	sub	s2, a3, a4
	sub	s0, s9, a1
	beq	s2, t6, .LBB89_23
	sltu	a3, s2, t6
	mv	s7, s0
	beqz	a3, .LBB89_24
	j	.LBB89_25
.LBB89_23:
	sltu	a3, s0, s4
	mv	s7, s0
	bnez	a3, .LBB89_25
.LBB89_24:
	mv	s7, s4
.LBB89_25:
	slli	a3, s7, 3
	slli	a4, s7, 4
	lbu	a5, 16(s11)
	lbu	s1, 17(s11)
	lbu	a0, 18(s11)
	lbu	a2, 19(s11)
	add	a4, a4, a3
	slli	s1, s1, 8
	or	a5, a5, s1
	lbu	a3, 8(s11)
	sw	a3, 40(sp)
	lbu	a3, 9(s11)
	sw	a3, 28(sp)
	lbu	a3, 10(s11)
	sw	a3, 36(sp)
	lbu	a3, 11(s11)
	sw	a3, 32(sp)
	xor	a3, s3, a7
	xor	a1, s9, a1
	slli	a0, a0, 16
	slli	a2, a2, 24
	or	a0, a0, a2
	or	a1, a1, a3
	or	s1, a0, a5
	sw	t6, 48(sp)
	beqz	a1, .LBB89_27
	slli	a0, s10, 3
	slli	a1, s10, 4
	add	a0, a0, a1
	li	a1, -24
	mul	a1, a6, a1
	add	a0, a0, s1
	add	a0, a0, a1
	addi	a1, sp, 56
	mv	a2, a4
	sw	a4, 16(sp)
	call	tlsf_memory_cpy
	lw	a4, 16(sp)
	lw	t6, 48(sp)
.LBB89_27:
	beq	t6, s2, .LBB89_29
	sltu	a0, s2, t6
	lw	s0, 44(sp)
	bnez	a0, .LBB89_30
	j	.LBB89_31
.LBB89_29:
	sltu	a0, s0, s4
	lw	s0, 44(sp)
	beqz	a0, .LBB89_31
.LBB89_30:
	add	a1, s8, a4
	sub	a0, s4, s7
	slli	a2, a0, 3
	slli	a0, a0, 4
	add	a2, a2, a0
	mv	a0, s1
	call	tlsf_memory_cpy
	lw	t6, 48(sp)
.LBB89_31:
	lw	a0, 28(sp)
	slli	a0, a0, 8
	lw	a1, 36(sp)
	slli	a1, a1, 16
	lw	a2, 32(sp)
	slli	a2, a2, 24
	sb	zero, 12(s11)
	sb	zero, 13(s11)
	sb	zero, 14(s11)
	sb	zero, 15(s11)
	srli	a3, s1, 24
	srli	a4, s1, 16
	lw	a5, 40(sp)
	or	a0, a0, a5
	srli	a5, s1, 8
	sb	zero, 20(s11)
	sb	zero, 21(s11)
	sb	zero, 22(s11)
	sb	zero, 23(s11)
	or	a1, a1, a2
	srli	a2, s9, 31
	slli	s3, s3, 1
	slli	s9, s9, 1
	sb	s1, 16(s11)
	sb	a5, 17(s11)
	sb	a4, 18(s11)
	sb	a3, 19(s11)
	or	a2, s3, a2
	sltu	a3, s9, s10
	or	a0, a0, a1
	sub	a1, a2, s6
	srli	a2, a0, 24
	srli	a4, a0, 16
	srli	a5, a0, 8
	sub	a1, a1, a3
	sb	a0, 8(s11)
	sb	a5, 9(s11)
	sb	a4, 10(s11)
	sb	a2, 11(s11)
	sub	a2, s9, s10
	beq	t6, a1, .LBB89_33
	sltu	a3, t6, a1
	lw	s7, 20(sp)
	lw	s3, 52(sp)
	beqz	a3, .LBB89_34
	j	.LBB89_35
.LBB89_33:
	sltu	a3, s4, a2
	lw	s7, 20(sp)
	lw	s3, 52(sp)
	bnez	a3, .LBB89_35
.LBB89_34:
	snez	a3, a2
	neg	a3, a3
	sub	s6, a3, a1
	neg	s10, a2
.LBB89_35:
	add	s1, s10, s4
	sltu	a1, s1, s10
	add	s6, s6, t6
	add	s6, s6, a1
	addi	a0, a0, 128
	li	a3, 5
	mv	a1, s1
	mv	a2, s6
	call	__atomic_store_8
	lw	t6, 48(sp)
	mv	s10, s1
	j	.LBB89_41
.LBB89_36:
	sltu	a2, s10, a0
.LBB89_37:
	lw	s9, 24(s11)
	lw	s3, 28(s11)
	neg	a2, a2
	srli	a3, s9, 31
	slli	a4, s3, 1
	slli	a5, s9, 1
	add	a1, a1, s3
	add	a0, a0, s9
	or	a3, a3, a4
	and	a5, a5, a2
	sltu	a4, a0, s9
	sub	a1, a1, s6
	and	a2, a2, a3
	sub	s0, a0, s10
	add	a1, a1, a4
	sltu	a3, s0, a5
	sub	s4, s0, a5
	sltu	a0, a0, s10
	sub	a1, a1, a0
	sub	a0, a1, a2
	sub	a0, a0, a3
	seqz	a1, a0
	sltu	a2, s4, s5
	and	a1, a1, a2
	bnez	a1, .LBB89_39
	mv	s4, s5
.LBB89_39:
	neg	a1, a1
	and	t6, a1, a0
	mv	s0, s2
	or	a0, s4, t6
	bnez	a0, .LBB89_15
.LBB89_40:
	lw	s3, 52(sp)
.LBB89_41:
	sw	s10, 40(s11)
	sw	s6, 44(s11)
	sltu	a0, s4, s5
	seqz	a1, t6
	and	a0, a0, a1
	add	s0, s0, s4
	bnez	a0, .LBB89_43
	sltu	a0, s0, s4
	add	s2, t6, s3
	add	s2, s2, a0
	sltu	a0, s0, s7
	seqz	a1, s2
	and	a0, a0, a1
	bnez	a0, .LBB89_5
.LBB89_43:
	lw	a3, 12(sp)
	j	.LBB89_45
.LBB89_44:
	li	s0, 0
.LBB89_45:
	li	a0, 0
	li	a1, 1
	sb	a1, 1(s11)
.LBB89_46:
	sw	s0, 0(a3)
	lw	ra, 876(sp)
	lw	s0, 872(sp)
	lw	s1, 868(sp)
	lw	s2, 864(sp)
	lw	s3, 860(sp)
	lw	s4, 856(sp)
	lw	s5, 852(sp)
	lw	s6, 848(sp)
	lw	s7, 844(sp)
	lw	s8, 840(sp)
	lw	s9, 836(sp)
	lw	s10, 832(sp)
	lw	s11, 828(sp)
	.cfi_restore ra
	.cfi_restore s0
	.cfi_restore s1
	.cfi_restore s2
	.cfi_restore s3
	.cfi_restore s4
	.cfi_restore s5
	.cfi_restore s6
	.cfi_restore s7
	.cfi_restore s8
	.cfi_restore s9
	.cfi_restore s10
	.cfi_restore s11
	addi	sp, sp, 880
	.cfi_def_cfa_offset 0
	ret
.LBB89_47:
	.cfi_restore_state
	li	a0, 0
	j	.LBB89_49
.LBB89_48:
	li	a0, 2
.LBB89_49:
	mv	s1, a4
	mv	s0, a3
	call	tlsf_c.call_fault.CallFault.refusal
	mv	a3, s0
	mv	s0, s1
	j	.LBB89_46
.Lfunc_end89:
	.size	tlsf_put_all, .Lfunc_end89-tlsf_put_all
	.cfi_endproc
	.section	.text.tlsf_queue_close,"ax",@progbits
	.globl	tlsf_queue_close
	.p2align	1
	.type	tlsf_queue_close,@function
tlsf_queue_close:
	.cfi_startproc
	lbu	a2, 8(a0)
	li	a1, 32
	beqz	a2, .LBB90_4
	lw	a2, 0(a0)
	lbu	a3, 1(a2)
	beqz	a3, .LBB90_4
	lbu	a1, 0(a2)
	li	a3, 2
	bne	a1, a3, .LBB90_5
	addi	sp, sp, -128
	.cfi_def_cfa_offset 128
	sw	ra, 124(sp)
	sw	s0, 120(sp)
	sw	s1, 116(sp)
	sw	s2, 112(sp)
	sw	s3, 108(sp)
	.cfi_offset ra, -4
	.cfi_offset s0, -8
	.cfi_offset s1, -12
	.cfi_offset s2, -16
	.cfi_offset s3, -20
	sb	zero, 1(a2)
	lbu	a1, 1(a0)
	lbu	a2, 0(a0)
	lbu	a3, 2(a0)
	lbu	a4, 3(a0)
	slli	a1, a1, 8
	or	a1, a1, a2
	slli	a3, a3, 16
	slli	a4, a4, 24
	or	a3, a3, a4
	or	s0, a3, a1
	li	a2, 16
	li	a1, 0
	call	tlsf_memory_set
	lbu	s1, 0(s0)
	lbu	s3, 1(s0)
	addi	a1, s0, 8
	addi	s2, sp, 16
	li	a2, 40
	mv	a0, s2
	call	tlsf_memory_cpy
	mv	a0, s0
	call	tlsf_memory_dealloc
	sw	zero, 56(sp)
	sw	zero, 60(sp)
	sb	s1, 56(sp)
	sb	s3, 57(sp)
	addi	a0, sp, 64
	li	a2, 40
	mv	a1, s2
	call	tlsf_memory_cpy
	addi	a0, sp, 56
	call	tlsf_c.tlsf_c.any_end.AnyEnd.Destruct.drop
	li	a1, 0
	lw	ra, 124(sp)
	lw	s0, 120(sp)
	lw	s1, 116(sp)
	lw	s2, 112(sp)
	lw	s3, 108(sp)
	.cfi_restore ra
	.cfi_restore s0
	.cfi_restore s1
	.cfi_restore s2
	.cfi_restore s3
	addi	sp, sp, 128
	.cfi_def_cfa_offset 0
.LBB90_4:
	mv	a0, a1
	ret
.LBB90_5:
	li	a0, 40
	ret
.Lfunc_end90:
	.size	tlsf_queue_close, .Lfunc_end90-tlsf_queue_close
	.cfi_endproc
	.section	.text.tlsf_queue_drain,"ax",@progbits
	.globl	tlsf_queue_drain
	.p2align	1
	.type	tlsf_queue_drain,@function
tlsf_queue_drain:
	.cfi_startproc
	addi	sp, sp, -64
	.cfi_def_cfa_offset 64
	sw	ra, 60(sp)
	sw	s0, 56(sp)
	sw	s1, 52(sp)
	sw	s2, 48(sp)
	sw	s3, 44(sp)
	sw	s4, 40(sp)
	sw	s5, 36(sp)
	.cfi_offset ra, -4
	.cfi_offset s0, -8
	.cfi_offset s1, -12
	.cfi_offset s2, -16
	.cfi_offset s3, -20
	.cfi_offset s4, -24
	.cfi_offset s5, -28
	.cfi_remember_state
	mv	s0, a0
	lbu	a0, 8(a0)
	beqz	a0, .LBB91_11
	lw	a0, 0(s0)
	lbu	a0, 0(a0)
	beqz	a0, .LBB91_11
	lbu	a0, 8(a1)
	beqz	a0, .LBB91_11
	lw	s4, 0(a1)
	lbu	a0, 1(s4)
	beqz	a0, .LBB91_11
	lbu	a0, 0(s4)
	li	a1, 2
	bne	a0, a1, .LBB91_13
	mv	s2, a3
	mv	s5, a2
	sb	zero, 1(s4)
	li	s1, 0
	beqz	a2, .LBB91_10
	addi	s3, s4, 8
.LBB91_7:
	sw	zero, 16(sp)
	sw	zero, 20(sp)
	sw	zero, 24(sp)
	sw	zero, 28(sp)
	sw	zero, 0(sp)
	sw	zero, 4(sp)
	sw	zero, 8(sp)
	sw	zero, 12(sp)
	mv	a0, sp
	mv	a1, s3
	call	tlsf_c.queue_end.take_once
	lbu	a0, 0(sp)
	bnez	a0, .LBB91_10
	lw	a1, 16(sp)
	lw	a4, 20(sp)
	lw	a2, 24(sp)
	lw	a3, 28(sp)
	mv	a0, s0
	call	tlsf_c.heap_calls.release_named
	addi	s1, s1, 1
	bne	s5, s1, .LBB91_7
	mv	s1, s5
.LBB91_10:
	sw	s1, 0(s2)
	li	a0, 1
	sb	a0, 1(s4)
	li	a0, 0
	lw	ra, 60(sp)
	lw	s0, 56(sp)
	lw	s1, 52(sp)
	lw	s2, 48(sp)
	lw	s3, 44(sp)
	lw	s4, 40(sp)
	lw	s5, 36(sp)
	.cfi_restore ra
	.cfi_restore s0
	.cfi_restore s1
	.cfi_restore s2
	.cfi_restore s3
	.cfi_restore s4
	.cfi_restore s5
	addi	sp, sp, 64
	.cfi_def_cfa_offset 0
	ret
.LBB91_11:
	.cfi_restore_state
	.cfi_remember_state
	li	a0, 0
.LBB91_12:
	lw	ra, 60(sp)
	lw	s0, 56(sp)
	lw	s1, 52(sp)
	lw	s2, 48(sp)
	lw	s3, 44(sp)
	lw	s4, 40(sp)
	lw	s5, 36(sp)
	.cfi_restore ra
	.cfi_restore s0
	.cfi_restore s1
	.cfi_restore s2
	.cfi_restore s3
	.cfi_restore s4
	.cfi_restore s5
	addi	sp, sp, 64
	.cfi_def_cfa_offset 0
	tail	tlsf_c.call_fault.CallFault.refusal
.LBB91_13:
	.cfi_restore_state
	li	a0, 2
	j	.LBB91_12
.Lfunc_end91:
	.size	tlsf_queue_drain, .Lfunc_end91-tlsf_queue_drain
	.cfi_endproc
	.section	.text.tlsf_queue_open,"ax",@progbits
	.globl	tlsf_queue_open
	.p2align	1
	.type	tlsf_queue_open,@function
tlsf_queue_open:
	.cfi_startproc
	addi	sp, sp, -288
	.cfi_def_cfa_offset 288
	sw	ra, 284(sp)
	sw	s0, 280(sp)
	sw	s1, 276(sp)
	sw	s2, 272(sp)
	sw	s3, 268(sp)
	sw	s4, 264(sp)
	sw	s5, 260(sp)
	sw	s6, 256(sp)
	sw	s7, 252(sp)
	sw	s8, 248(sp)
	sw	s9, 244(sp)
	sw	s10, 240(sp)
	sw	s11, 236(sp)
	.cfi_offset ra, -4
	.cfi_offset s0, -8
	.cfi_offset s1, -12
	.cfi_offset s2, -16
	.cfi_offset s3, -20
	.cfi_offset s4, -24
	.cfi_offset s5, -28
	.cfi_offset s6, -32
	.cfi_offset s7, -36
	.cfi_offset s8, -40
	.cfi_offset s9, -44
	.cfi_offset s10, -48
	.cfi_offset s11, -52
	.cfi_remember_state
	mv	s2, a1
	sw	zero, 48(sp)
	sw	zero, 52(sp)
	lbu	a1, 8(a0)
	sw	zero, 32(sp)
	sw	zero, 36(sp)
	sw	zero, 40(sp)
	sw	zero, 44(sp)
	beqz	a1, .LBB92_2
	li	a0, 33
	j	.LBB92_54
.LBB92_2:
	mv	s6, a2
	li	a1, 1024
	sub	a2, a1, s2
	sub	a3, a1, s6
	or	a2, a2, a3
	bgeu	a2, a1, .LBB92_9
	sw	a0, 28(sp)
	slli	a1, s2, 4
	addi	a0, sp, 184
	li	a2, 8
	call	tlsf_memory_alloc
	lw	a0, 184(sp)
	andi	a0, a0, 1
	beqz	a0, .LBB92_53
	lw	s4, 192(sp)
	sw	s2, 72(sp)
	sw	zero, 76(sp)
	addi	s7, s6, 48
	sw	s4, 56(sp)
	sw	zero, 60(sp)
	sw	zero, 64(sp)
	sw	zero, 68(sp)
	slli	s3, s7, 3
	addi	a0, sp, 184
	li	a2, 8
	mv	a1, s3
	call	tlsf_memory_alloc
	lw	a0, 184(sp)
	andi	a0, a0, 1
	beqz	a0, .LBB92_51
	addi	s5, s2, 1
	srli	a0, s6, 1
	lui	a1, 349525
	lui	a2, 209715
	lui	a3, 61681
	or	a0, s6, a0
	addi	a1, a1, 1365
	srli	a4, a0, 2
	or	a0, a0, a4
	srli	a4, a0, 4
	or	a0, a0, a4
	srli	a4, a0, 8
	or	a0, a0, a4
	srli	a4, a0, 16
	or	a0, a0, a4
	not	a0, a0
	srli	a4, a0, 1
	and	a1, a1, a4
	lui	a4, 4112
	addi	a2, a2, 819
	sub	a0, a0, a1
	and	a1, a0, a2
	srli	a0, a0, 2
	and	a0, a0, a2
	li	a2, 1
	add	a0, a0, a1
	srli	a1, a0, 4
	add	a0, a0, a1
	sltu	s10, s7, s6
	addi	a1, a3, -241
	addi	a3, a4, 257
	and	a0, a0, a1
	mul	a0, a0, a3
	srli	a0, a0, 24
	neg	a1, a0
	neg	a0, a0
	sll	a3, a2, a0
	srli	a0, a0, 31
	sll	a1, a2, a1
	addi	a2, a0, -1
	and	s9, a2, a3
	lw	s11, 192(sp)
	neg	a0, a0
	and	s0, a0, a1
	addi	a2, s3, -8
	mv	a0, s11
	li	a1, 0
	call	tlsf_memory_set
	li	a0, 0
	li	a1, 0
	add	a2, s11, s3
	sw	zero, -8(a2)
	sw	zero, -4(a2)
.LBB92_6:
	slli	a2, a0, 3
	add	a2, a2, s11
	sw	a0, 384(a2)
	sw	a1, 388(a2)
	addi	a0, a0, 1
	seqz	a2, a0
	add	a1, a1, a2
	sltu	a2, a0, s6
	seqz	a3, a1
	and	a2, a2, a3
	bnez	a2, .LBB92_6
	sw	zero, 112(sp)
	sw	zero, 116(sp)
	sw	zero, 96(sp)
	sw	zero, 100(sp)
	sw	zero, 104(sp)
	sw	zero, 108(sp)
	slli	a1, s6, 5
	addi	a0, sp, 136
	li	a2, 8
	call	tlsf_memory_alloc
	lw	a0, 136(sp)
	andi	a0, a0, 1
	beqz	a0, .LBB92_43
	sw	s0, 20(sp)
	li	s2, 0
	li	s8, 0
	li	s1, 0
	li	s0, 0
	lw	s4, 144(sp)
	addi	a0, sp, 232
	sw	s4, 184(sp)
	sw	zero, 188(sp)
	sw	zero, 192(sp)
	sw	zero, 196(sp)
	sw	s6, 200(sp)
	sw	zero, 204(sp)
	sw	a0, 208(sp)
	sw	zero, 212(sp)
	j	.LBB92_12
.LBB92_9:
	li	a0, 5
	j	.LBB92_54
.LBB92_10:
	lw	s4, 184(sp)
	lw	s2, 192(sp)
	lw	s8, 196(sp)
.LBB92_11:
	slli	a0, s2, 5
	add	a0, a0, s4
	sb	zero, 4(a0)
	sb	zero, 5(a0)
	sb	zero, 6(a0)
	sb	zero, 7(a0)
	sb	zero, 0(a0)
	sb	zero, 1(a0)
	sb	zero, 2(a0)
	sb	zero, 3(a0)
	addi	a0, a0, 8
	addi	a1, sp, 136
	li	a2, 24
	call	tlsf_memory_cpy
	addi	s2, s2, 1
	addi	s1, s1, 1
	seqz	a0, s2
	seqz	a1, s1
	add	s8, s8, a0
	sltu	a0, s1, s6
	add	s0, s0, a1
	seqz	a1, s0
	and	a0, a0, a1
	sw	s2, 192(sp)
	sw	s8, 196(sp)
	beqz	a0, .LBB92_17
.LBB92_12:
	lw	a0, 112(sp)
	lw	a1, 116(sp)
	lw	a2, 200(sp)
	lw	a3, 204(sp)
	sw	a0, 152(sp)
	sw	a1, 156(sp)
	xor	a0, a2, s2
	xor	a1, a3, s8
	or	a0, a0, a1
	lw	a1, 96(sp)
	lw	a2, 100(sp)
	lw	a3, 104(sp)
	lw	a4, 108(sp)
	sw	a1, 136(sp)
	sw	a2, 140(sp)
	sw	a3, 144(sp)
	sw	a4, 148(sp)
	bnez	a0, .LBB92_11
	addi	a0, sp, 184
	call	std_alloc.vec.Vec.grow_amortized.94730218a1e37034
	bnez	a0, .LBB92_10
	lw	a1, 204(sp)
	lw	a0, 184(sp)
	lw	s1, 192(sp)
	lw	a4, 196(sp)
	lw	a3, 200(sp)
.LBB92_15:
	or	a5, s1, a4
	beqz	a5, .LBB92_64
	seqz	a5, s1
	addi	s1, s1, -1
	slli	a2, s1, 5
	add	a2, a2, a0
	lbu	a2, 0(a2)
	sub	a4, a4, a5
	beqz	a2, .LBB92_15
	j	.LBB92_39
.LBB92_17:
	sw	s9, 16(sp)
	sw	s5, 24(sp)
	lw	s5, 184(sp)
	lw	s0, 200(sp)
	lw	s9, 204(sp)
	addi	a0, sp, 184
	li	a2, 8
	mv	a1, s3
	call	tlsf_memory_alloc
	lw	a0, 184(sp)
	andi	a0, a0, 1
	beqz	a0, .LBB92_37
	lw	s3, 192(sp)
	srli	a0, s2, 27
	slli	a1, s8, 5
	or	a0, a0, a1
	bltz	a0, .LBB92_36
	slli	a1, s2, 5
	seqz	a0, a0
	addi	a0, a0, -1
	or	a1, a1, a0
	addi	a0, sp, 184
	li	a2, 8
	call	tlsf_memory_alloc
	lw	a0, 184(sp)
	andi	a0, a0, 1
	beqz	a0, .LBB92_36
	sw	s0, 12(sp)
	li	a0, 0
	lw	s4, 192(sp)
	li	a1, 0
	j	.LBB92_22
.LBB92_21:
	sltu	a2, a1, s10
	beqz	a2, .LBB92_24
.LBB92_22:
	slli	a2, a0, 3
	addi	a0, a0, 1
	add	a3, s11, a2
	seqz	a4, a0
	lw	a5, 0(a3)
	lw	a3, 4(a3)
	add	a1, a1, a4
	add	a2, a2, s3
	sw	a5, 0(a2)
	sw	a3, 4(a2)
	bne	a1, s10, .LBB92_21
	sltu	a2, a0, s7
	bnez	a2, .LBB92_22
.LBB92_24:
	or	a0, s2, s8
	beqz	a0, .LBB92_27
	mv	s1, s2
	mv	s0, s8
.LBB92_26:
	seqz	a7, s1
	addi	s1, s1, -1
	slli	a1, s1, 5
	add	a2, s5, a1
	lbu	a4, 31(a2)
	lbu	a5, 29(a2)
	lbu	a0, 30(a2)
	lbu	a6, 0(a2)
	lbu	a3, 28(a2)
	slli	a5, a5, 8
	slli	a0, a0, 16
	slli	a4, a4, 24
	or	a3, a3, a5
	or	a0, a0, a4
	or	a0, a0, a3
	sw	a0, 204(sp)
	lbu	a0, 25(a2)
	lbu	a3, 26(a2)
	lbu	a4, 27(a2)
	lbu	a5, 24(a2)
	slli	a0, a0, 8
	slli	a3, a3, 16
	slli	a4, a4, 24
	or	a0, a0, a5
	or	a3, a3, a4
	or	a0, a0, a3
	sw	a0, 200(sp)
	lbu	a0, 21(a2)
	lbu	a3, 22(a2)
	lbu	a4, 23(a2)
	lbu	a5, 20(a2)
	slli	a0, a0, 8
	slli	a3, a3, 16
	slli	a4, a4, 24
	or	a0, a0, a5
	or	a3, a3, a4
	or	a0, a0, a3
	sw	a0, 196(sp)
	lbu	a0, 16(a2)
	lbu	a3, 17(a2)
	lbu	a4, 18(a2)
	lbu	a5, 19(a2)
	sub	s0, s0, a7
	slli	a3, a3, 8
	slli	a4, a4, 16
	slli	a5, a5, 24
	or	a0, a0, a3
	or	a4, a4, a5
	or	a0, a0, a4
	sw	a0, 192(sp)
	lbu	a0, 13(a2)
	lbu	a3, 12(a2)
	lbu	a4, 14(a2)
	lbu	a5, 15(a2)
	slli	a0, a0, 8
	or	a0, a0, a3
	slli	a4, a4, 16
	slli	a5, a5, 24
	or	a4, a4, a5
	or	a0, a0, a4
	sw	a0, 188(sp)
	lbu	a0, 8(a2)
	lbu	a3, 9(a2)
	lbu	a4, 10(a2)
	lbu	a2, 11(a2)
	add	a1, a1, s4
	slli	a3, a3, 8
	slli	a4, a4, 16
	slli	a2, a2, 24
	or	a0, a0, a3
	or	a2, a2, a4
	or	a0, a0, a2
	sw	a0, 184(sp)
	sb	zero, 4(a1)
	sb	zero, 5(a1)
	sb	zero, 6(a1)
	sb	zero, 7(a1)
	sb	a6, 0(a1)
	sb	zero, 1(a1)
	sb	zero, 2(a1)
	sb	zero, 3(a1)
	addi	a0, a1, 8
	addi	a1, sp, 184
	li	a2, 24
	call	tlsf_memory_cpy
	or	a0, s1, s0
	bnez	a0, .LBB92_26
.LBB92_27:
	lw	a0, 12(sp)
	or	a0, a0, s9
	beqz	a0, .LBB92_29
	mv	a0, s5
	call	tlsf_memory_dealloc
.LBB92_29:
	mv	a0, s11
	call	tlsf_memory_dealloc
	lw	s0, 24(sp)
.LBB92_30:
	li	a1, 5
	mv	a0, s3
	call	__atomic_load_8
	addi	s0, s0, -1
	bnez	s0, .LBB92_30
	mv	s0, s6
.LBB92_32:
	li	a1, 5
	mv	a0, s3
	call	__atomic_load_8
	addi	s0, s0, -1
	bnez	s0, .LBB92_32
	addi	a0, sp, 184
	li	a1, 88
	li	a2, 8
	call	tlsf_memory_alloc
	lw	a0, 184(sp)
	andi	a0, a0, 1
	beqz	a0, .LBB92_55
	lw	s5, 192(sp)
	srli	a1, s3, 24
	srli	a0, s3, 16
	srli	a5, s3, 8
	srli	a7, s4, 24
	srli	t0, s4, 16
	srli	t3, s4, 8
	srli	a3, s7, 24
	srli	a4, s7, 16
	srli	s1, s7, 8
	srli	t6, s2, 24
	srli	s11, s2, 16
	srli	s0, s2, 8
	srli	s9, s8, 24
	srli	ra, s8, 16
	srli	a6, s8, 8
	srli	t1, s6, 24
	srli	t2, s6, 16
	srli	t4, s6, 8
	sb	a5, 9(s5)
	sb	a5, 41(s5)
	lw	a2, 20(sp)
	srli	t5, a2, 24
	sb	a0, 10(s5)
	sb	a0, 42(s5)
	srli	a0, a2, 16
	sb	s3, 8(s5)
	sb	a1, 11(s5)
	sb	s3, 40(s5)
	sb	a1, 43(s5)
	srli	a5, a2, 8
	sb	s7, 24(s5)
	sb	s7, 48(s5)
	lw	a1, 16(sp)
	srli	s7, a1, 24
	sb	s1, 25(s5)
	sb	s1, 49(s5)
	srli	s1, a1, 16
	sb	a4, 26(s5)
	sb	a3, 27(s5)
	sb	a4, 50(s5)
	sb	a3, 51(s5)
	srli	a3, a1, 8
	sb	zero, 4(s5)
	sb	zero, 5(s5)
	sb	zero, 6(s5)
	sb	zero, 7(s5)
	li	a4, 1
	sb	a4, 0(s5)
	sb	zero, 1(s5)
	sb	zero, 2(s5)
	sb	zero, 3(s5)
	sb	zero, 12(s5)
	sb	zero, 13(s5)
	sb	zero, 14(s5)
	sb	zero, 15(s5)
	sb	s4, 16(s5)
	sb	t3, 17(s5)
	sb	t0, 18(s5)
	sb	a7, 19(s5)
	sb	zero, 20(s5)
	sb	zero, 21(s5)
	sb	zero, 22(s5)
	sb	zero, 23(s5)
	sb	s10, 28(s5)
	sb	zero, 29(s5)
	sb	zero, 30(s5)
	sb	zero, 31(s5)
	sb	s2, 32(s5)
	sb	s0, 33(s5)
	sb	s11, 34(s5)
	sb	t6, 35(s5)
	sb	s8, 36(s5)
	sb	a6, 37(s5)
	sb	ra, 38(s5)
	sb	s9, 39(s5)
	sb	zero, 44(s5)
	sb	zero, 45(s5)
	sb	zero, 46(s5)
	sb	zero, 47(s5)
	sb	s10, 52(s5)
	sb	zero, 53(s5)
	sb	zero, 54(s5)
	sb	zero, 55(s5)
	sb	s4, 56(s5)
	sb	t3, 57(s5)
	sb	t0, 58(s5)
	sb	a7, 59(s5)
	sb	zero, 60(s5)
	sb	zero, 61(s5)
	sb	zero, 62(s5)
	sb	zero, 63(s5)
	sb	s2, 64(s5)
	sb	s0, 65(s5)
	sb	s11, 66(s5)
	sb	t6, 67(s5)
	sb	s8, 68(s5)
	sb	a6, 69(s5)
	sb	ra, 70(s5)
	sb	s9, 71(s5)
	sb	zero, 76(s5)
	sb	zero, 77(s5)
	sb	zero, 78(s5)
	sb	zero, 79(s5)
	sb	s6, 72(s5)
	sb	t4, 73(s5)
	sb	t2, 74(s5)
	sb	t1, 75(s5)
	sb	a2, 80(s5)
	sb	a5, 81(s5)
	sb	a0, 82(s5)
	sb	t5, 83(s5)
	sb	a1, 84(s5)
	sb	a3, 85(s5)
	sb	s1, 86(s5)
	sb	s7, 87(s5)
	li	a1, 5
	mv	a0, s3
	call	__atomic_load_8
	li	a1, 1
	addi	a3, sp, 56
	mv	a0, s5
	lw	a2, 24(sp)
	call	tlsf_post.mailboxes.send_out
	zext.b	a0, a0
	beqz	a0, .LBB92_65
	mv	a0, s5
	call	std_alloc.arc.Arc.drop.f29941b0e8355977
	addi	a0, sp, 56
	call	std_alloc.vec.Vec.drop.05316b64237a7125
	j	.LBB92_53
.LBB92_36:
	mv	a0, s3
	call	tlsf_memory_dealloc
.LBB92_37:
	or	a0, s2, s8
	beqz	a0, .LBB92_40
	seqz	a0, s2
	addi	s2, s2, -1
	slli	a1, s2, 5
	add	a1, a1, s5
	lbu	a1, 0(a1)
	sub	s8, s8, a0
	beqz	a1, .LBB92_37
.LBB92_39:
	unimp
.LBB92_40:
	or	a0, s9, s0
	beqz	a0, .LBB92_43
	mv	a0, s5
.LBB92_42:
	call	tlsf_memory_dealloc
.LBB92_43:
	mv	a0, s11
	call	tlsf_memory_dealloc
	lw	s3, 76(sp)
	lw	s5, 64(sp)
	lw	s6, 68(sp)
	lw	s4, 56(sp)
	lw	s7, 72(sp)
	or	a0, s5, s6
	beqz	a0, .LBB92_50
	li	s0, 0
	li	s9, 0
	j	.LBB92_46
.LBB92_45:
	sltu	a0, s9, s6
	beqz	a0, .LBB92_50
.LBB92_46:
	slli	a0, s0, 4
	add	a0, a0, s4
	lbu	a1, 1(a0)
	lbu	a2, 0(a0)
	lbu	a3, 2(a0)
	lbu	a0, 3(a0)
	slli	a1, a1, 8
	or	a1, a1, a2
	slli	a3, a3, 16
	slli	a0, a0, 24
	or	a0, a0, a3
	or	s1, a0, a1
	li	a1, 1
	li	a3, 5
	mv	a0, s1
	li	a2, 0
	call	__atomic_fetch_sub_8
	xori	a0, a0, 1
	or	a0, a0, a1
	bnez	a0, .LBB92_48
	lbu	a0, 41(s1)
	lbu	a1, 42(s1)
	lbu	a2, 43(s1)
	lbu	a3, 40(s1)
	slli	a0, a0, 8
	slli	a1, a1, 16
	slli	a2, a2, 24
	or	a0, a0, a3
	or	a1, a1, a2
	lbu	a2, 57(s1)
	lbu	a3, 56(s1)
	lbu	a4, 58(s1)
	lbu	a5, 59(s1)
	slli	a2, a2, 8
	or	a2, a2, a3
	slli	a4, a4, 16
	slli	a5, a5, 24
	or	a4, a4, a5
	or	s8, a1, a0
	or	s2, a4, a2
	mv	a0, s1
	call	tlsf_memory_dealloc
	mv	a0, s8
	call	tlsf_memory_dealloc
	mv	a0, s2
	call	tlsf_memory_dealloc
.LBB92_48:
	addi	s0, s0, 1
	seqz	a0, s0
	add	s9, s9, a0
	bne	s9, s6, .LBB92_45
	sltu	a0, s0, s5
	bnez	a0, .LBB92_46
.LBB92_50:
	or	a0, s7, s3
	beqz	a0, .LBB92_53
.LBB92_51:
	mv	a0, s4
.LBB92_52:
	call	tlsf_memory_dealloc
.LBB92_53:
	li	a0, 6
.LBB92_54:
	lw	ra, 284(sp)
	lw	s0, 280(sp)
	lw	s1, 276(sp)
	lw	s2, 272(sp)
	lw	s3, 268(sp)
	lw	s4, 264(sp)
	lw	s5, 260(sp)
	lw	s6, 256(sp)
	lw	s7, 252(sp)
	lw	s8, 248(sp)
	lw	s9, 244(sp)
	lw	s10, 240(sp)
	lw	s11, 236(sp)
	.cfi_restore ra
	.cfi_restore s0
	.cfi_restore s1
	.cfi_restore s2
	.cfi_restore s3
	.cfi_restore s4
	.cfi_restore s5
	.cfi_restore s6
	.cfi_restore s7
	.cfi_restore s8
	.cfi_restore s9
	.cfi_restore s10
	.cfi_restore s11
	addi	sp, sp, 288
	.cfi_def_cfa_offset 0
	ret
.LBB92_55:
	.cfi_restore_state
	mv	a0, s3
	call	tlsf_memory_dealloc
	mv	a0, s4
	call	tlsf_memory_dealloc
	lw	s4, 76(sp)
	lw	s5, 64(sp)
	lw	s6, 68(sp)
	lw	s2, 56(sp)
	lw	s7, 72(sp)
	or	a0, s5, s6
	beqz	a0, .LBB92_62
	li	s0, 0
	li	s9, 0
	j	.LBB92_58
.LBB92_57:
	sltu	a0, s9, s6
	beqz	a0, .LBB92_62
.LBB92_58:
	slli	a0, s0, 4
	add	a0, a0, s2
	lbu	a1, 1(a0)
	lbu	a2, 0(a0)
	lbu	a3, 2(a0)
	lbu	a0, 3(a0)
	slli	a1, a1, 8
	or	a1, a1, a2
	slli	a3, a3, 16
	slli	a0, a0, 24
	or	a0, a0, a3
	or	s1, a0, a1
	li	a1, 1
	li	a3, 5
	mv	a0, s1
	li	a2, 0
	call	__atomic_fetch_sub_8
	xori	a0, a0, 1
	or	a0, a0, a1
	bnez	a0, .LBB92_60
	lbu	a0, 41(s1)
	lbu	a1, 42(s1)
	lbu	a2, 43(s1)
	lbu	a3, 40(s1)
	slli	a0, a0, 8
	slli	a1, a1, 16
	slli	a2, a2, 24
	or	a0, a0, a3
	or	a1, a1, a2
	lbu	a2, 57(s1)
	lbu	a3, 56(s1)
	lbu	a4, 58(s1)
	lbu	a5, 59(s1)
	slli	a2, a2, 8
	or	a2, a2, a3
	slli	a4, a4, 16
	slli	a5, a5, 24
	or	a4, a4, a5
	or	s8, a1, a0
	or	s3, a4, a2
	mv	a0, s1
	call	tlsf_memory_dealloc
	mv	a0, s8
	call	tlsf_memory_dealloc
	mv	a0, s3
	call	tlsf_memory_dealloc
.LBB92_60:
	addi	s0, s0, 1
	seqz	a0, s0
	add	s9, s9, a0
	bne	s9, s6, .LBB92_57
	sltu	a0, s0, s5
	bnez	a0, .LBB92_58
.LBB92_62:
	or	a0, s7, s4
	beqz	a0, .LBB92_53
	mv	a0, s2
	j	.LBB92_52
.LBB92_64:
	or	a1, a1, a3
	bnez	a1, .LBB92_42
	j	.LBB92_43
.LBB92_65:
	lw	s2, 76(sp)
	lw	s8, 56(sp)
	lw	s7, 64(sp)
	lw	s10, 68(sp)
	lw	s9, 72(sp)
	addi	a0, sp, 96
	li	a2, 40
	li	a1, 0
	call	tlsf_memory_set
	addi	a0, sp, 56
	li	a2, 40
	li	a1, 0
	call	tlsf_memory_set
	or	a0, s7, s10
	beqz	a0, .LBB92_82
	srli	a0, s10, 28
	bnez	a0, .LBB92_72
	srli	a0, s7, 29
	slli	a1, s10, 3
	or	a0, a0, a1
	slli	a1, s7, 3
	seqz	a0, a0
	addi	a0, a0, -1
	or	a1, a1, a0
	addi	a0, sp, 184
	li	a2, 8
	call	tlsf_memory_alloc
	lw	a0, 184(sp)
	andi	a0, a0, 1
	beqz	a0, .LBB92_72
	sw	s9, 12(sp)
	sw	s2, 16(sp)
	li	s11, 0
	li	s1, 0
	lw	s6, 192(sp)
	sw	s7, 8(sp)
	sw	s10, 4(sp)
	mv	s4, s10
	sw	s6, 24(sp)
	sw	s8, 20(sp)
.LBB92_69:
	addi	s10, s11, 1
	seqz	a0, s7
	slli	a1, s11, 4
	add	a1, a1, s8
	lbu	a2, 0(a1)
	lbu	a3, 1(a1)
	lbu	a4, 2(a1)
	lbu	a5, 3(a1)
	sub	s4, s4, a0
	slli	a3, a3, 8
	slli	a4, a4, 16
	slli	a5, a5, 24
	or	a2, a2, a3
	or	a4, a4, a5
	lbu	s9, 8(a1)
	lbu	s8, 9(a1)
	lbu	s0, 10(a1)
	lbu	s2, 11(a1)
	or	s6, a4, a2
	seqz	s3, s10
	add	s3, s3, s1
	addi	s7, s7, -1
	addi	a0, sp, 184
	li	a1, 48
	li	a2, 8
	call	tlsf_memory_alloc
	lw	a0, 184(sp)
	andi	a0, a0, 1
	beqz	a0, .LBB92_86
	slli	s8, s8, 8
	slli	a0, s0, 16
	slli	s2, s2, 24
	lw	s0, 192(sp)
	srli	a1, s6, 24
	srli	a2, s6, 16
	or	a3, s8, s9
	srli	a4, s6, 8
	slli	s11, s11, 3
	or	a0, s2, a0
	or	a0, a0, a3
	srli	a3, a0, 24
	srli	a5, a0, 16
	li	s1, 3
	sb	s1, 0(s0)
	li	s1, 1
	sb	s1, 1(s0)
	sb	s6, 8(s0)
	sb	a4, 9(s0)
	srli	a4, a0, 8
	sb	a2, 10(s0)
	sb	a1, 11(s0)
	sb	zero, 12(s0)
	sb	zero, 13(s0)
	sb	zero, 22(s0)
	sb	zero, 23(s0)
	sb	a5, 18(s0)
	sb	a3, 19(s0)
	sb	zero, 20(s0)
	sb	zero, 21(s0)
	sb	zero, 14(s0)
	sb	zero, 15(s0)
	sb	a0, 16(s0)
	sb	a4, 17(s0)
	addi	a0, s0, 24
	lw	s6, 24(sp)
	add	s11, s11, s6
	li	a2, 24
	li	a1, 0
	call	tlsf_memory_set
	srli	a0, s0, 24
	srli	a1, s0, 16
	srli	a2, s0, 8
	or	a3, s7, s4
	sb	s0, 0(s11)
	sb	a2, 1(s11)
	sb	a1, 2(s11)
	sb	a0, 3(s11)
	sb	zero, 4(s11)
	sb	zero, 5(s11)
	sb	zero, 6(s11)
	sb	zero, 7(s11)
	mv	s11, s10
	mv	s1, s3
	lw	s8, 20(sp)
	bnez	a3, .LBB92_69
	lw	s7, 8(sp)
	lw	s2, 16(sp)
	lw	s9, 12(sp)
	lw	s10, 4(sp)
	j	.LBB92_83
.LBB92_72:
	li	s0, 0
	li	s6, 0
	j	.LBB92_74
.LBB92_73:
	sltu	a0, s6, s10
	beqz	a0, .LBB92_78
.LBB92_74:
	slli	a0, s0, 4
	add	a0, a0, s8
	lbu	a1, 1(a0)
	lbu	a2, 0(a0)
	lbu	a3, 2(a0)
	lbu	a0, 3(a0)
	slli	a1, a1, 8
	or	a1, a1, a2
	slli	a3, a3, 16
	slli	a0, a0, 24
	or	a0, a0, a3
	or	s1, a0, a1
	li	a1, 1
	li	a3, 5
	mv	a0, s1
	li	a2, 0
	call	__atomic_fetch_sub_8
	xori	a0, a0, 1
	or	a0, a0, a1
	bnez	a0, .LBB92_76
	lbu	a0, 41(s1)
	lbu	a1, 42(s1)
	lbu	a2, 43(s1)
	lbu	a3, 40(s1)
	slli	a0, a0, 8
	slli	a1, a1, 16
	slli	a2, a2, 24
	or	a0, a0, a3
	or	a1, a1, a2
	lbu	a2, 57(s1)
	lbu	a3, 56(s1)
	lbu	a4, 58(s1)
	lbu	a5, 59(s1)
	slli	a2, a2, 8
	or	a2, a2, a3
	slli	a4, a4, 16
	slli	a5, a5, 24
	or	a4, a4, a5
	or	s4, a1, a0
	or	s3, a4, a2
	mv	a0, s1
	call	tlsf_memory_dealloc
	mv	a0, s4
	call	tlsf_memory_dealloc
	mv	a0, s3
	call	tlsf_memory_dealloc
.LBB92_76:
	addi	s0, s0, 1
	seqz	a0, s0
	add	s6, s6, a0
	bne	s6, s10, .LBB92_73
	sltu	a0, s0, s7
	bnez	a0, .LBB92_74
.LBB92_78:
	or	a0, s9, s2
	beqz	a0, .LBB92_80
.LBB92_79:
	mv	a0, s8
	call	tlsf_memory_dealloc
.LBB92_80:
	li	a1, 1
	li	a3, 5
	mv	a0, s5
	li	a2, 0
	call	__atomic_fetch_sub_8
	xori	a0, a0, 1
	or	a1, a1, a0
	li	a0, 6
	bnez	a1, .LBB92_54
	lbu	a0, 41(s5)
	lbu	a1, 42(s5)
	lbu	a2, 43(s5)
	lbu	a3, 40(s5)
	slli	a0, a0, 8
	slli	a1, a1, 16
	slli	a2, a2, 24
	or	a0, a0, a3
	or	a1, a1, a2
	lbu	a2, 57(s5)
	lbu	a3, 56(s5)
	lbu	a4, 58(s5)
	lbu	a5, 59(s5)
	slli	a2, a2, 8
	or	a2, a2, a3
	slli	a4, a4, 16
	slli	a5, a5, 24
	or	a4, a4, a5
	or	s0, a1, a0
	or	s1, a4, a2
	mv	a0, s5
	call	tlsf_memory_dealloc
	mv	a0, s0
	call	tlsf_memory_dealloc
	mv	a0, s1
	j	.LBB92_52
.LBB92_82:
	addi	s6, sp, 232
.LBB92_83:
	sw	s8, 56(sp)
	sw	zero, 60(sp)
	sw	zero, 64(sp)
	sw	zero, 68(sp)
	sw	s9, 72(sp)
	sw	s2, 76(sp)
	sw	s7, 80(sp)
	sw	s10, 84(sp)
	sw	zero, 88(sp)
	sw	zero, 92(sp)
	addi	a0, sp, 56
	call	std_alloc.vec.deque.VecDeque.drop.ca3d8856d46a41b8
	addi	a0, sp, 184
	li	a1, 48
	li	a2, 8
	call	tlsf_memory_alloc
	lw	a0, 184(sp)
	andi	a0, a0, 1
	beqz	a0, .LBB92_85
	li	a0, 0
	lw	a2, 192(sp)
	li	a7, 2
	li	a6, 1
	srli	t0, s5, 24
	srli	t1, s5, 16
	srli	t4, s5, 8
	srli	t2, s6, 24
	srli	t3, s6, 16
	srli	a3, s6, 8
	srli	t5, s7, 24
	srli	a5, s7, 16
	srli	s0, s7, 8
	srli	a1, s10, 24
	sb	a7, 0(a2)
	sb	a6, 1(a2)
	sb	s5, 8(a2)
	sb	t4, 9(a2)
	srli	a4, s10, 16
	sb	zero, 22(a2)
	sb	zero, 23(a2)
	sb	s6, 24(a2)
	sb	a3, 25(a2)
	srli	a3, s10, 8
	sb	t1, 10(a2)
	sb	t0, 11(a2)
	sb	zero, 12(a2)
	sb	zero, 13(a2)
	sb	zero, 18(a2)
	sb	zero, 19(a2)
	sb	zero, 20(a2)
	sb	zero, 21(a2)
	sb	zero, 14(a2)
	sb	zero, 15(a2)
	sb	zero, 16(a2)
	sb	zero, 17(a2)
	sb	t3, 26(a2)
	sb	t2, 27(a2)
	sb	zero, 28(a2)
	sb	zero, 29(a2)
	sb	zero, 30(a2)
	sb	zero, 31(a2)
	sb	s7, 32(a2)
	sb	s0, 33(a2)
	sb	a5, 34(a2)
	sb	t5, 35(a2)
	sb	s10, 36(a2)
	sb	a3, 37(a2)
	sb	a4, 38(a2)
	sb	a1, 39(a2)
	sb	s7, 40(a2)
	sb	s0, 41(a2)
	sb	a4, 46(a2)
	sb	a1, 47(a2)
	sb	a5, 42(a2)
	sb	t5, 43(a2)
	sb	s10, 44(a2)
	sb	a3, 45(a2)
	srli	a1, a2, 24
	srli	a3, a2, 16
	srli	a4, a2, 8
	lw	a5, 28(sp)
	sb	zero, 4(a5)
	sb	zero, 5(a5)
	sb	zero, 6(a5)
	sb	zero, 7(a5)
	sb	zero, 12(a5)
	sb	zero, 13(a5)
	sb	zero, 14(a5)
	sb	zero, 15(a5)
	sb	a2, 0(a5)
	sb	a4, 1(a5)
	sb	a3, 2(a5)
	sb	a1, 3(a5)
	sb	a6, 8(a5)
	sb	zero, 9(a5)
	sb	zero, 10(a5)
	sb	zero, 11(a5)
	j	.LBB92_54
.LBB92_85:
	mv	a0, s5
	call	std_alloc.arc.Arc.drop.c4a047e811255370
	sw	s6, 32(sp)
	sw	zero, 36(sp)
	sw	s7, 40(sp)
	sw	s10, 44(sp)
	sw	s7, 48(sp)
	sw	s10, 52(sp)
	addi	a0, sp, 32
	call	std_alloc.vec.Vec.drop.7ac45d8413b9ad54
	j	.LBB92_53
.LBB92_86:
	mv	s2, s10
	mv	s10, s1
	li	a1, 1
	li	a3, 5
	mv	a0, s6
	li	a2, 0
	call	__atomic_fetch_sub_8
	xori	a0, a0, 1
	or	a0, a0, a1
	bnez	a0, .LBB92_88
	lbu	a0, 41(s6)
	lbu	a1, 42(s6)
	lbu	a2, 43(s6)
	lbu	a3, 40(s6)
	slli	a0, a0, 8
	slli	a1, a1, 16
	slli	a2, a2, 24
	or	a0, a0, a3
	or	a1, a1, a2
	lbu	a2, 57(s6)
	lbu	a3, 56(s6)
	lbu	a4, 58(s6)
	lbu	a5, 59(s6)
	slli	a2, a2, 8
	or	a2, a2, a3
	slli	a4, a4, 16
	slli	a5, a5, 24
	or	a4, a4, a5
	or	s9, a1, a0
	or	s0, a4, a2
	mv	a0, s6
	call	tlsf_memory_dealloc
	mv	a0, s9
	call	tlsf_memory_dealloc
	mv	a0, s0
	call	tlsf_memory_dealloc
.LBB92_88:
	lw	a0, 20(sp)
	sw	a0, 96(sp)
	sw	zero, 100(sp)
	sw	s7, 104(sp)
	sw	s4, 108(sp)
	lw	a0, 12(sp)
	sw	a0, 112(sp)
	lw	a0, 16(sp)
	sw	a0, 116(sp)
	sw	s2, 120(sp)
	sw	s3, 124(sp)
	sw	zero, 128(sp)
	sw	zero, 132(sp)
	addi	a0, sp, 96
	call	std_alloc.vec.deque.VecDeque.drop.ca3d8856d46a41b8
	or	a0, s11, s10
	beqz	a0, .LBB92_93
	li	s6, 0
	li	s4, 0
	addi	s3, sp, 142
	addi	s2, sp, 192
	lw	s8, 24(sp)
	j	.LBB92_91
.LBB92_90:
	sltu	a0, s4, s10
	beqz	a0, .LBB92_79
.LBB92_91:
	slli	a0, s6, 3
	add	a0, a0, s8
	lbu	a1, 1(a0)
	lbu	a2, 2(a0)
	lbu	a3, 3(a0)
	lbu	a0, 0(a0)
	slli	a1, a1, 8
	slli	a2, a2, 16
	slli	a3, a3, 24
	or	a0, a0, a1
	or	a2, a2, a3
	or	s0, a2, a0
	lbu	s1, 0(s0)
	lbu	s7, 1(s0)
	addi	a1, s0, 8
	li	a2, 40
	mv	a0, s3
	call	tlsf_memory_cpy
	mv	a0, s0
	call	tlsf_memory_dealloc
	sw	zero, 184(sp)
	sw	zero, 188(sp)
	sb	s1, 184(sp)
	sb	s7, 185(sp)
	li	a2, 40
	mv	a0, s2
	mv	a1, s3
	call	tlsf_memory_cpy
	addi	a0, sp, 184
	call	tlsf_c.tlsf_c.any_end.AnyEnd.Destruct.drop
	addi	s6, s6, 1
	seqz	a0, s6
	add	s4, s4, a0
	bne	s4, s10, .LBB92_90
	sltu	a0, s6, s11
	bnez	a0, .LBB92_91
	j	.LBB92_79
.LBB92_93:
	lw	s8, 24(sp)
	j	.LBB92_79
.Lfunc_end92:
	.size	tlsf_queue_open, .Lfunc_end92-tlsf_queue_open
	.cfi_endproc
	.section	.text.tlsf_queue_post,"ax",@progbits
	.globl	tlsf_queue_post
	.p2align	1
	.type	tlsf_queue_post,@function
tlsf_queue_post:
	.cfi_startproc
	addi	sp, sp, -80
	.cfi_def_cfa_offset 80
	sw	ra, 76(sp)
	sw	s0, 72(sp)
	sw	s1, 68(sp)
	sw	s2, 64(sp)
	sw	s3, 60(sp)
	sw	s4, 56(sp)
	sw	s5, 52(sp)
	sw	s6, 48(sp)
	sw	s7, 44(sp)
	sw	s8, 40(sp)
	sw	s9, 36(sp)
	sw	s10, 32(sp)
	sw	s11, 28(sp)
	.cfi_offset ra, -4
	.cfi_offset s0, -8
	.cfi_offset s1, -12
	.cfi_offset s2, -16
	.cfi_offset s3, -20
	.cfi_offset s4, -24
	.cfi_offset s5, -28
	.cfi_offset s6, -32
	.cfi_offset s7, -36
	.cfi_offset s8, -40
	.cfi_offset s9, -44
	.cfi_offset s10, -48
	.cfi_offset s11, -52
	.cfi_remember_state
	lbu	a2, 8(a0)
	beqz	a2, .LBB93_19
	lw	s2, 0(a0)
	lbu	a0, 1(s2)
	beqz	a0, .LBB93_19
	lbu	a0, 0(s2)
	li	a2, 3
	bne	a0, a2, .LBB93_20
	lw	s1, 8(s2)
	lw	s8, 0(a1)
	lw	s7, 4(a1)
	lw	a0, 8(a1)
	sw	a0, 12(sp)
	lw	s5, 12(a1)
	sb	zero, 1(s2)
	lw	s9, 16(s2)
	lw	a0, 8(s1)
	addi	a0, a0, 128
	li	a1, 5
	call	__atomic_load_8
	mv	s3, a0
	mv	s10, a1
	lw	s4, 80(s1)
	lw	s11, 84(s1)
	lw	a0, 8(s1)
	addi	a1, s4, -1
	and	s0, a1, s3
	slli	s6, s0, 3
	add	a0, a0, s6
	addi	a0, a0, 384
	li	a1, 5
	call	__atomic_load_8
	srli	a2, s10, 30
	li	a3, 2
	bltu	a3, a2, .LBB93_13
	xor	a0, a0, s3
	xor	a1, a1, s10
	or	a0, a0, a1
	bnez	a0, .LBB93_13
	seqz	a0, s4
	addi	a1, s0, 1
	lw	a2, 76(s1)
	sub	a0, s11, a0
	and	a0, a0, s10
	seqz	a3, a1
	add	a3, a3, a0
	beq	a3, a2, .LBB93_8
	sltu	a1, a3, a2
	bnez	a1, .LBB93_9
.LBB93_7:
	sltu	a1, s3, s0
	sub	a0, s10, a0
	lw	a2, 80(s1)
	lw	a3, 84(s1)
	sub	a0, a0, a1
	sub	a1, s3, s0
	add	a2, a2, a1
	sltu	a1, a2, a1
	add	a0, a0, a3
	add	a3, a0, a1
	j	.LBB93_10
.LBB93_8:
	lw	a2, 72(s1)
	sltu	a1, a1, a2
	beqz	a1, .LBB93_7
.LBB93_9:
	addi	a2, s3, 1
	seqz	a3, a2
	add	a3, a3, s10
.LBB93_10:
	lw	a0, 8(s1)
	sw	s3, 16(sp)
	addi	a0, a0, 128
	sw	s10, 20(sp)
	addi	a1, sp, 16
	li	a4, 5
	li	a5, 5
	call	__atomic_compare_exchange_8
	beqz	a0, .LBB93_13
	lw	a6, 16(s1)
	slli	a7, s0, 5
	li	s4, 1
	srli	t0, s9, 24
	srli	t1, s9, 16
	srli	a4, s9, 8
	srli	t4, s8, 24
	srli	s0, s8, 16
	srli	a5, s8, 8
	srli	a1, s7, 24
	srli	a2, s7, 16
	srli	a3, s7, 8
	srli	t2, s5, 24
	srli	t3, s5, 16
	add	a6, a6, a7
	srli	a7, s5, 8
	sb	s9, 8(a6)
	sb	a4, 9(a6)
	sb	t1, 10(a6)
	sb	t0, 11(a6)
	lw	a0, 12(sp)
	srli	a4, a0, 24
	sb	s8, 16(a6)
	sb	a5, 17(a6)
	sb	s0, 18(a6)
	sb	t4, 19(a6)
	srli	a5, a0, 16
	sb	s7, 20(a6)
	sb	a3, 21(a6)
	sb	a2, 22(a6)
	sb	a1, 23(a6)
	lbu	a1, 0(a6)
	sb	zero, 4(a6)
	sb	zero, 5(a6)
	sb	zero, 6(a6)
	sb	zero, 7(a6)
	sb	s4, 0(a6)
	sb	zero, 1(a6)
	sb	zero, 2(a6)
	sb	zero, 3(a6)
	sb	zero, 12(a6)
	sb	zero, 13(a6)
	sb	zero, 14(a6)
	sb	zero, 15(a6)
	sb	s5, 28(a6)
	sb	a7, 29(a6)
	sb	t3, 30(a6)
	sb	t2, 31(a6)
	srli	a2, a0, 8
	sb	a0, 24(a6)
	sb	a2, 25(a6)
	sb	a5, 26(a6)
	sb	a4, 27(a6)
	bnez	a1, .LBB93_22
	addi	a1, s3, 1
	lw	a0, 8(s1)
	seqz	a2, a1
	add	a2, a2, s10
	add	a0, a0, s6
	addi	a0, a0, 384
	li	a3, 5
	call	__atomic_store_8
	li	a0, 0
	sb	s4, 1(s2)
	j	.LBB93_18
.LBB93_13:
	lw	s0, 8(s2)
	lw	a0, 8(s0)
	addi	a0, a0, 128
	li	a1, 5
	call	__atomic_load_8
	mv	s3, a0
	mv	s1, a1
	lw	a0, 8(s0)
	addi	a0, a0, 256
	li	a1, 5
	call	__atomic_load_8
	lw	a3, 80(s0)
	lw	a5, 84(s0)
	sltu	a4, s3, a3
	mv	a2, a4
	beq	s1, a5, .LBB93_15
	sltu	a2, s1, a5
.LBB93_15:
	sub	s1, s1, a5
	sub	a3, s3, a3
	sub	s1, s1, a4
	xor	a0, a0, a3
	xor	a1, a1, s1
	or	a0, a0, a1
	snez	a0, a0
	or	a0, a0, a2
	li	a1, 1
	sb	a1, 1(s2)
	beqz	a0, .LBB93_17
	li	a0, 37
	j	.LBB93_18
.LBB93_17:
	li	a0, 8
.LBB93_18:
	lw	ra, 76(sp)
	lw	s0, 72(sp)
	lw	s1, 68(sp)
	lw	s2, 64(sp)
	lw	s3, 60(sp)
	lw	s4, 56(sp)
	lw	s5, 52(sp)
	lw	s6, 48(sp)
	lw	s7, 44(sp)
	lw	s8, 40(sp)
	lw	s9, 36(sp)
	lw	s10, 32(sp)
	lw	s11, 28(sp)
	.cfi_restore ra
	.cfi_restore s0
	.cfi_restore s1
	.cfi_restore s2
	.cfi_restore s3
	.cfi_restore s4
	.cfi_restore s5
	.cfi_restore s6
	.cfi_restore s7
	.cfi_restore s8
	.cfi_restore s9
	.cfi_restore s10
	.cfi_restore s11
	addi	sp, sp, 80
	.cfi_def_cfa_offset 0
	ret
.LBB93_19:
	.cfi_restore_state
	.cfi_remember_state
	li	a0, 0
	j	.LBB93_21
.LBB93_20:
	li	a0, 2
.LBB93_21:
	lw	ra, 76(sp)
	lw	s0, 72(sp)
	lw	s1, 68(sp)
	lw	s2, 64(sp)
	lw	s3, 60(sp)
	lw	s4, 56(sp)
	lw	s5, 52(sp)
	lw	s6, 48(sp)
	lw	s7, 44(sp)
	lw	s8, 40(sp)
	lw	s9, 36(sp)
	lw	s10, 32(sp)
	lw	s11, 28(sp)
	.cfi_restore ra
	.cfi_restore s0
	.cfi_restore s1
	.cfi_restore s2
	.cfi_restore s3
	.cfi_restore s4
	.cfi_restore s5
	.cfi_restore s6
	.cfi_restore s7
	.cfi_restore s8
	.cfi_restore s9
	.cfi_restore s10
	.cfi_restore s11
	addi	sp, sp, 80
	.cfi_def_cfa_offset 0
	tail	tlsf_c.call_fault.CallFault.refusal
.LBB93_22:
	.cfi_restore_state
	unimp
.Lfunc_end93:
	.size	tlsf_queue_post, .Lfunc_end93-tlsf_queue_post
	.cfi_endproc
	.section	.text.tlsf_queue_take,"ax",@progbits
	.globl	tlsf_queue_take
	.p2align	1
	.type	tlsf_queue_take,@function
tlsf_queue_take:
	.cfi_startproc
	addi	sp, sp, -48
	.cfi_def_cfa_offset 48
	sw	ra, 44(sp)
	sw	s0, 40(sp)
	sw	s1, 36(sp)
	.cfi_offset ra, -4
	.cfi_offset s0, -8
	.cfi_offset s1, -12
	.cfi_remember_state
	lbu	a2, 8(a0)
	beqz	a2, .LBB94_7
	lw	s1, 0(a0)
	lbu	a0, 1(s1)
	beqz	a0, .LBB94_7
	mv	s0, a1
	lbu	a0, 0(s1)
	li	a1, 2
	bne	a0, a1, .LBB94_8
	addi	a1, s1, 8
	sb	zero, 1(s1)
	sw	zero, 16(sp)
	sw	zero, 20(sp)
	sw	zero, 24(sp)
	sw	zero, 28(sp)
	sw	zero, 0(sp)
	sw	zero, 4(sp)
	sw	zero, 8(sp)
	sw	zero, 12(sp)
	mv	a0, sp
	call	tlsf_c.queue_end.take_once
	lbu	a0, 0(sp)
	beqz	a0, .LBB94_5
	lbu	a0, 1(sp)
	slli	a0, a0, 2
	lui	a1, %hi(.Lswitch.table.tlsf_queue_take)
	addi	a1, a1, %lo(.Lswitch.table.tlsf_queue_take)
	add	a0, a0, a1
	lw	a0, 0(a0)
	j	.LBB94_6
.LBB94_5:
	lw	a1, 16(sp)
	lw	a2, 20(sp)
	lw	a3, 24(sp)
	lw	a4, 28(sp)
	srli	a6, a1, 24
	srli	a7, a1, 16
	srli	t2, a1, 8
	srli	t0, a2, 24
	srli	t1, a2, 16
	srli	t5, a2, 8
	srli	t3, a4, 24
	srli	t4, a4, 16
	srli	a5, a4, 8
	sb	a1, 0(s0)
	sb	t2, 1(s0)
	sb	a7, 2(s0)
	sb	a6, 3(s0)
	srli	a1, a3, 24
	sb	a2, 4(s0)
	sb	t5, 5(s0)
	sb	t1, 6(s0)
	sb	t0, 7(s0)
	srli	a2, a3, 16
	sb	a4, 12(s0)
	sb	a5, 13(s0)
	sb	t4, 14(s0)
	sb	t3, 15(s0)
	srli	a4, a3, 8
	sb	a3, 8(s0)
	sb	a4, 9(s0)
	sb	a2, 10(s0)
	sb	a1, 11(s0)
.LBB94_6:
	li	a1, 1
	sb	a1, 1(s1)
	lw	ra, 44(sp)
	lw	s0, 40(sp)
	lw	s1, 36(sp)
	.cfi_restore ra
	.cfi_restore s0
	.cfi_restore s1
	addi	sp, sp, 48
	.cfi_def_cfa_offset 0
	ret
.LBB94_7:
	.cfi_restore_state
	.cfi_remember_state
	li	a0, 0
	lw	ra, 44(sp)
	lw	s0, 40(sp)
	lw	s1, 36(sp)
	.cfi_restore ra
	.cfi_restore s0
	.cfi_restore s1
	addi	sp, sp, 48
	.cfi_def_cfa_offset 0
	tail	tlsf_c.call_fault.CallFault.refusal
.LBB94_8:
	.cfi_restore_state
	li	a0, 2
	lw	ra, 44(sp)
	lw	s0, 40(sp)
	lw	s1, 36(sp)
	.cfi_restore ra
	.cfi_restore s0
	.cfi_restore s1
	addi	sp, sp, 48
	.cfi_def_cfa_offset 0
	tail	tlsf_c.call_fault.CallFault.refusal
.Lfunc_end94:
	.size	tlsf_queue_take, .Lfunc_end94-tlsf_queue_take
	.cfi_endproc
	.section	.text.tlsf_read,"ax",@progbits
	.globl	tlsf_read
	.p2align	1
	.type	tlsf_read,@function
tlsf_read:
	.cfi_startproc
	addi	sp, sp, -16
	.cfi_def_cfa_offset 16
	sw	ra, 12(sp)
	sw	s0, 8(sp)
	sw	s1, 4(sp)
	sw	s2, 0(sp)
	.cfi_offset ra, -4
	.cfi_offset s0, -8
	.cfi_offset s1, -12
	.cfi_offset s2, -16
	.cfi_remember_state
	mv	a5, a0
	lbu	s1, 8(a0)
	li	a0, 32
	beqz	s1, .LBB95_27
	lw	s2, 0(a5)
	lbu	a5, 0(s2)
	beqz	a5, .LBB95_27
	lw	a0, 0(a1)
	mv	a5, a1
	lw	a1, 4(a1)
	lw	a7, 8(a5)
	lw	t0, 12(a5)
	seqz	s0, a3
	lbu	s1, 16(s2)
	lw	a5, 24(s2)
	slli	s0, s0, 12
	add	a3, a3, s0
	sb	zero, 0(s2)
	beqz	s1, .LBB95_7
	bne	a5, a0, .LBB95_24
	lw	s1, 56(s2)
	mv	a5, a0
	bgeu	a1, s1, .LBB95_24
	lw	a5, 72(s2)
	srli	s1, a1, 3
	andi	s1, s1, -8
	add	a5, a5, s1
	lw	a6, 4(a5)
	andi	s1, a1, 63
	addi	s0, s1, -32
	bltz	s0, .LBB95_11
	srl	a5, a6, s1
	j	.LBB95_12
.LBB95_7:
	bne	a5, a0, .LBB95_24
	lw	s1, 56(s2)
	mv	a5, a0
	bgeu	a1, s1, .LBB95_24
	lw	a5, 72(s2)
	srli	s1, a1, 3
	andi	s1, s1, -8
	add	a5, a5, s1
	lw	a6, 4(a5)
	andi	s1, a1, 63
	addi	s0, s1, -32
	bltz	s0, .LBB95_17
	srl	a5, a6, s1
	j	.LBB95_18
.LBB95_11:
	lw	a5, 0(a5)
	slli	a6, a6, 1
	not	s1, s1
	srl	s0, a5, a1
	sll	a5, a6, s1
	or	a5, a5, s0
.LBB95_12:
	andi	s1, a5, 1
	mv	a5, a0
	beqz	s1, .LBB95_24
	addi	a6, s2, 48
	lw	s0, 0(a6)
	slli	a5, a1, 3
	add	s0, s0, a5
	lbu	a5, 0(s0)
	andi	s1, a5, 1
	mv	a5, a0
	bnez	s1, .LBB95_24
	lw	a5, 12(s0)
	lw	s1, 8(s0)
	xor	a5, a5, t0
	xor	s1, s1, a7
	or	s1, s1, a5
	mv	a5, a0
	bnez	s1, .LBB95_24
	lw	a0, 16(s0)
	add	a5, a4, a2
	sltu	s1, a5, a4
	sltu	a0, a0, a5
	or	a0, a0, s1
	bnez	a0, .LBB95_22
	mv	a0, a6
	li	a5, 0
	call	tlsf_heap.region.Region.read.5
	li	a0, 0
	j	.LBB95_25
.LBB95_17:
	lw	a5, 0(a5)
	slli	a6, a6, 1
	not	s1, s1
	srl	s0, a5, a1
	sll	a5, a6, s1
	or	a5, a5, s0
.LBB95_18:
	andi	s1, a5, 1
	mv	a5, a0
	beqz	s1, .LBB95_24
	addi	a6, s2, 48
	lw	t1, 0(a6)
	slli	a5, a1, 3
	add	t1, t1, a5
	lbu	a5, 0(t1)
	andi	s1, a5, 1
	mv	a5, a0
	bnez	s1, .LBB95_24
	lw	a5, 12(t1)
	lw	s1, 8(t1)
	xor	a5, a5, t0
	xor	s1, s1, a7
	or	s1, s1, a5
	mv	a5, a0
	bnez	s1, .LBB95_24
	lw	a0, 16(t1)
	add	a5, a4, a2
	sltu	s1, a5, a4
	sltu	a0, a0, a5
	or	a0, a0, s1
	beqz	a0, .LBB95_28
.LBB95_22:
	li	a0, 4
	li	a1, 1
	andi	a1, a1, 1
	beqz	a1, .LBB95_25
.LBB95_23:
	zext.b	a0, a0
	slli	a0, a0, 2
	lui	a1, %hi(.Lswitch.table.tlsf_write)
	addi	a1, a1, %lo(.Lswitch.table.tlsf_write)
	add	a0, a0, a1
	lw	a0, 0(a0)
	j	.LBB95_26
.LBB95_24:
	mv	a1, a5
	call	tlsf_heap.refusal.Refusal.of_name
	li	a1, 1
	andi	a1, a1, 1
	bnez	a1, .LBB95_23
.LBB95_25:
	li	a0, 0
.LBB95_26:
	li	a1, 1
	sb	a1, 0(s2)
.LBB95_27:
	lw	ra, 12(sp)
	lw	s0, 8(sp)
	lw	s1, 4(sp)
	lw	s2, 0(sp)
	.cfi_restore ra
	.cfi_restore s0
	.cfi_restore s1
	.cfi_restore s2
	addi	sp, sp, 16
	.cfi_def_cfa_offset 0
	ret
.LBB95_28:
	.cfi_restore_state
	mv	a0, a6
	li	a5, 0
	call	tlsf_heap.region.Region.read.4
	li	a0, 0
	j	.LBB95_25
.Lfunc_end95:
	.size	tlsf_read, .Lfunc_end95-tlsf_read
	.cfi_endproc
	.section	.rodata.cst32,"aM",@progbits,32
.LCPI96_0:
	.ascii	"\000\001\034\002\035\016\030\003\036\026\024\017\031\021\004\b\037\033\r\027\025\023\020\007\032\f\022\006\013\005\n\t"
	.section	.text.tlsf_reallocate,"ax",@progbits
	.globl	tlsf_reallocate
	.p2align	1
	.type	tlsf_reallocate,@function
tlsf_reallocate:
	.cfi_startproc
	lbu	a4, 8(a0)
	li	a3, 32
	bnez	a4, .LBB96_1
	j	.LBB96_135
.LBB96_1:
	addi	sp, sp, -112
	.cfi_def_cfa_offset 112
	sw	ra, 108(sp)
	sw	s0, 104(sp)
	sw	s1, 100(sp)
	sw	s2, 96(sp)
	sw	s3, 92(sp)
	sw	s4, 88(sp)
	sw	s5, 84(sp)
	sw	s6, 80(sp)
	sw	s7, 76(sp)
	sw	s8, 72(sp)
	sw	s9, 68(sp)
	sw	s10, 64(sp)
	sw	s11, 60(sp)
	.cfi_offset ra, -4
	.cfi_offset s0, -8
	.cfi_offset s1, -12
	.cfi_offset s2, -16
	.cfi_offset s3, -20
	.cfi_offset s4, -24
	.cfi_offset s5, -28
	.cfi_offset s6, -32
	.cfi_offset s7, -36
	.cfi_offset s8, -40
	.cfi_offset s9, -44
	.cfi_offset s10, -48
	.cfi_offset s11, -52
	lw	s2, 0(a0)
	lbu	a4, 0(s2)
	bnez	a4, .LBB96_2
	j	.LBB96_134
.LBB96_2:
	sb	zero, 0(s2)
	lbu	t0, 0(a1)
	lbu	a4, 1(a1)
	lbu	a5, 2(a1)
	lbu	s0, 3(a1)
	lbu	a6, 4(a1)
	lbu	a7, 5(a1)
	lbu	t2, 6(a1)
	lbu	a3, 7(a1)
	slli	a4, a4, 8
	slli	a5, a5, 16
	slli	s0, s0, 24
	or	t0, a4, t0
	or	t1, s0, a5
	lbu	s0, 12(a1)
	lbu	a4, 13(a1)
	lbu	a5, 14(a1)
	lbu	s1, 15(a1)
	slli	a7, a7, 8
	slli	t2, t2, 16
	slli	a3, a3, 24
	slli	a4, a4, 8
	slli	a5, a5, 16
	slli	s1, s1, 24
	or	a6, a7, a6
	or	a3, a3, t2
	or	a7, a4, s0
	or	t2, s1, a5
	lbu	s1, 9(a1)
	lbu	s0, 8(a1)
	lbu	a4, 10(a1)
	lbu	a5, 11(a1)
	slli	s1, s1, 8
	or	s0, s0, s1
	slli	a4, a4, 16
	slli	a5, a5, 24
	or	a4, a4, a5
	or	s8, t1, t0
	or	s5, a3, a6
	lbu	a5, 16(s2)
	lw	a3, 24(s2)
	or	s1, t2, a7
	sw	s1, 20(sp)
	or	s4, a4, s0
	addi	s9, s2, 24
	beqz	a5, .LBB96_7
	bne	s8, a3, .LBB96_44
	lw	a4, 56(s2)
	mv	a3, s8
	bgeu	s5, a4, .LBB96_44
	lw	a5, 72(s2)
	srli	a3, s5, 3
	andi	a3, a3, -8
	add	a5, a5, a3
	lw	a3, 4(a5)
	andi	s1, s5, 63
	addi	a4, s1, -32
	bltz	a4, .LBB96_11
	srl	a3, a3, s1
	j	.LBB96_12
.LBB96_7:
	bne	s8, a3, .LBB96_44
	lw	a4, 56(s2)
	mv	a3, s8
	bgeu	s5, a4, .LBB96_44
	lw	a5, 72(s2)
	srli	a3, s5, 3
	andi	a3, a3, -8
	add	a5, a5, a3
	lw	a3, 4(a5)
	andi	s0, s5, 63
	addi	a4, s0, -32
	bltz	a4, .LBB96_31
	srl	a3, a3, s0
	j	.LBB96_32
.LBB96_11:
	lw	a4, 0(a5)
	slli	a3, a3, 1
	not	a5, s1
	srl	a4, a4, s5
	sll	a3, a3, a5
	or	a3, a3, a4
.LBB96_12:
	andi	a4, a3, 1
	mv	a3, s8
	beqz	a4, .LBB96_44
	addi	s10, s2, 48
	lw	a6, 0(s10)
	slli	t0, s5, 3
	add	a4, a6, t0
	lw	s0, 0(a4)
	andi	a5, s0, 1
	mv	a3, s8
	bnez	a5, .LBB96_44
	lw	s1, 12(a4)
	lw	a5, 8(a4)
	lw	a3, 20(sp)
	xor	a3, a3, s1
	xor	a5, a5, s4
	or	a5, a5, a3
	mv	a3, s8
	bnez	a5, .LBB96_44
	lw	t1, 4(a4)
	seqz	s6, a2
	add	a3, a2, s6
	sltu	a5, a3, a2
	addi	s1, a3, 31
	sltu	a3, s1, a3
	srli	s1, s1, 3
	add	a3, a3, a5
	slli	a3, a3, 29
	or	ra, s1, a3
	srli	s11, s0, 2
	bgeu	s11, ra, .LBB96_23
	andi	a3, s0, 2
	bnez	a3, .LBB96_18
	add	a3, s11, s5
	slli	a3, a3, 3
	add	a3, a3, a6
	lw	a4, 0(a3)
	andi	a5, a4, 1
	bnez	a5, .LBB96_55
.LBB96_18:
	li	a4, 0
	li	a5, 0
	bgeu	s11, ra, .LBB96_56
.LBB96_19:
	sw	s4, 32(sp)
	lw	a3, 20(sp)
	sw	a3, 36(sp)
	lw	a3, 36(s2)
	lw	s3, 32(s2)
	sw	a3, 20(sp)
	sltiu	a3, a3, -1
	sltiu	a4, s3, -2
	or	a3, a3, a4
	sw	s8, 24(sp)
	sw	s5, 28(sp)
	beqz	a3, .LBB96_73
	lui	a3, 4096
	bltu	a3, ra, .LBB96_41
	ori	s0, ra, 32
	lui	a4, 349525
	lui	a5, 209715
	lui	s1, 61681
	srli	a3, s0, 1
	addi	a4, a4, 1365
	or	s0, s0, a3
	srli	a3, s0, 2
	or	s0, s0, a3
	srli	a3, s0, 4
	or	s0, s0, a3
	srli	a3, s0, 8
	or	s0, s0, a3
	srli	a3, s0, 16
	or	a3, a3, s0
	not	s0, a3
	srli	a3, s0, 1
	and	a3, a3, a4
	lui	a4, 4112
	addi	a5, a5, 819
	sub	s0, s0, a3
	and	a3, s0, a5
	srli	s0, s0, 2
	and	a5, a5, s0
	li	s0, 26
	add	a3, a3, a5
	srli	a5, a3, 4
	add	a3, a3, a5
	addi	a5, ra, -1
	addi	s1, s1, -241
	addi	a4, a4, 257
	and	a3, a3, s1
	mul	a3, a3, a4
	srli	a3, a3, 24
	sub	s0, s0, a3
	srl	a3, a5, s0
	slli	a4, s0, 5
	add	a4, a4, a3
	addi	a5, a4, 1
	seqz	a7, a5
	srli	a5, a4, 5
	slli	s1, a7, 27
	sub	s1, a5, s1
	slli	a5, s1, 2
	add	a5, a5, s2
	lw	a5, 108(a5)
	srl	s0, a5, a3
	andi	s0, s0, -2
	beqz	s0, .LBB96_76
	sw	s6, 12(sp)
	neg	a3, s0
	and	a3, a3, s0
	lui	a5, 30667
	addi	a5, a5, 1329
	mul	a3, a3, a5
	lui	a5, %hi(.LCPI96_0)
	addi	a5, a5, %lo(.LCPI96_0)
	srli	a3, a3, 27
	add	a3, a3, a5
	lbu	s1, 0(a3)
	neg	a3, a7
	add	s1, s1, a4
	sltu	a4, s1, a4
	add	a3, a3, a4
	srli	a4, s1, 5
	slli	a3, a3, 27
	or	a7, a4, a3
	j	.LBB96_84
.LBB96_23:
	lw	s1, 32(s2)
	lw	s7, 36(s2)
	and	a3, s1, s7
	li	a5, -1
	beq	a3, a5, .LBB96_73
	lw	s3, 16(a4)
	sw	a2, 16(a4)
	sw	zero, 20(a4)
	bgeu	s3, a2, .LBB96_29
	andi	s9, s3, 7
	sw	s6, 12(sp)
	beqz	s9, .LBB96_27
	lw	a3, 0(s10)
	add	a4, t0, s3
	lui	a6, %hi(.Lstatic.0)
	addi	a6, a6, %lo(.Lstatic.0)
	li	a7, 8
	addi	t0, sp, 24
	addi	a4, a4, 24
	andi	a4, a4, -8
	sw	s4, 8(sp)
	add	s4, a3, a4
	lw	a5, 0(s4)
	lw	a3, 4(s4)
	add	a6, a6, s9
	sub	a4, a7, s9
	sw	a5, 24(sp)
	sw	a3, 28(sp)
	or	a5, t0, s9
	sw	a0, 16(sp)
	mv	a0, a5
	sw	a1, 4(sp)
	mv	a1, a6
	sw	a2, 0(sp)
	mv	a2, a4
	mv	s6, ra
	mv	s10, t1
	call	tlsf_memory_cpy
	mv	t1, s10
	mv	ra, s6
	lw	s6, 12(sp)
	lw	a0, 16(sp)
	lw	a2, 0(sp)
	addi	s10, s2, 48
	lw	a1, 4(sp)
	lw	a3, 24(sp)
	lw	a4, 28(sp)
	sw	a3, 0(s4)
	sw	a4, 4(s4)
	lw	s4, 8(sp)
.LBB96_27:
	srli	a3, s3, 3
	snez	a4, s9
	srli	a5, a2, 3
	add	a3, a3, a4
	andi	a4, a2, 7
	snez	a4, a4
	add	a4, a4, a5
	beq	a4, a3, .LBB96_29
	lw	a5, 0(s10)
	sub	a4, a4, a3
	add	a3, a3, s5
	slli	a3, a3, 3
	add	a3, a3, a5
	addi	a3, a3, 24
	slli	a4, a4, 3
	mv	s3, a0
	mv	a0, a3
	sw	s5, 8(sp)
	mv	s6, s4
	mv	s4, a1
	li	a1, 0
	mv	s9, a2
	mv	a2, a4
	mv	s10, ra
	mv	s5, t1
	call	tlsf_memory_set
	mv	t1, s5
	mv	ra, s10
	mv	a0, s3
	mv	a2, s9
	mv	a1, s4
	mv	s4, s6
	lw	s6, 12(sp)
	lw	s5, 8(sp)
	addi	s10, s2, 48
.LBB96_29:
	addi	a4, ra, 4
	mv	a3, s11
	bltu	s11, a4, .LBB96_54
	mv	s3, a0
	mv	a0, s10
	mv	s9, a1
	mv	a1, s5
	sw	s5, 8(sp)
	mv	s10, a2
	mv	a2, s0
	mv	a3, t1
	mv	a4, ra
	mv	a5, s1
	mv	a6, s7
	mv	s0, ra
	call	tlsf_heap.refitting.split_off.5
	mv	a0, s3
	mv	a2, s10
	lw	s5, 8(sp)
	mv	a1, s9
	j	.LBB96_53
.LBB96_31:
	lw	a4, 0(a5)
	slli	a3, a3, 1
	not	a5, s0
	srl	a4, a4, s5
	sll	a3, a3, a5
	or	a3, a3, a4
.LBB96_32:
	andi	a4, a3, 1
	mv	a3, s8
	beqz	a4, .LBB96_44
	addi	a3, s2, 48
	lw	a6, 0(a3)
	slli	s10, s5, 3
	add	a4, a6, s10
	lw	s0, 0(a4)
	andi	a5, s0, 1
	mv	a3, s8
	bnez	a5, .LBB96_44
	lw	s1, 12(a4)
	lw	a5, 8(a4)
	lw	a3, 20(sp)
	xor	a3, a3, s1
	xor	a5, a5, s4
	or	a5, a5, a3
	mv	a3, s8
	bnez	a5, .LBB96_44
	lw	t0, 4(a4)
	seqz	s6, a2
	add	a3, a2, s6
	sltu	a5, a3, a2
	addi	s1, a3, 31
	sltu	a3, s1, a3
	srli	s1, s1, 3
	add	a3, a3, a5
	slli	a3, a3, 29
	or	ra, s1, a3
	srli	s11, s0, 2
	bgeu	s11, ra, .LBB96_45
	andi	a3, s0, 2
	bnez	a3, .LBB96_38
	add	a3, s11, s5
	slli	a3, a3, 3
	add	a3, a3, a6
	lw	a4, 0(a3)
	andi	a5, a4, 1
	bnez	a5, .LBB96_62
.LBB96_38:
	li	a4, 0
	li	a5, 0
	bgeu	s11, ra, .LBB96_63
.LBB96_39:
	sw	s4, 32(sp)
	lw	a3, 20(sp)
	sw	a3, 36(sp)
	lw	a3, 36(s2)
	lw	s3, 32(s2)
	sw	a3, 20(sp)
	sltiu	a3, a3, -1
	sltiu	a4, s3, -2
	or	a3, a3, a4
	sw	s8, 24(sp)
	sw	s5, 28(sp)
	beqz	a3, .LBB96_73
	lui	a3, 256
	bgeu	a3, ra, .LBB96_74
.LBB96_41:
	lw	a1, 8(s2)
	lw	a0, 12(s2)
	addi	a1, a1, 1
	snez	a3, a1
	addi	a3, a3, -1
	or	a1, a1, a3
	sw	a1, 8(s2)
	bltu	a0, a2, .LBB96_43
	mv	a2, a0
.LBB96_43:
	li	a3, 1
	sb	a3, 0(s2)
	sw	a2, 12(s2)
	j	.LBB96_134
.LBB96_44:
	mv	a0, s8
	mv	a1, a3
	call	tlsf_heap.refusal.Refusal.of_name
	zext.b	a0, a0
	li	a1, 1
	sb	a1, 0(s2)
	addi	a0, a0, -3
	seqz	a3, a0
	addi	a3, a3, 3
	j	.LBB96_134
.LBB96_45:
	lw	s1, 32(s2)
	lw	s7, 36(s2)
	and	a3, s1, s7
	li	a5, -1
	beq	a3, a5, .LBB96_73
	lw	s3, 16(a4)
	sw	a2, 16(a4)
	sw	zero, 20(a4)
	bgeu	s3, a2, .LBB96_51
	sw	s4, 8(sp)
	andi	s4, s3, 7
	sw	a0, 16(sp)
	beqz	s4, .LBB96_49
	addi	a3, s2, 48
	lw	a3, 0(a3)
	add	a4, s10, s3
	lui	a6, %hi(.Lstatic.0)
	addi	a6, a6, %lo(.Lstatic.0)
	li	a7, 8
	sw	t0, 12(sp)
	addi	t0, sp, 24
	addi	a4, a4, 24
	andi	a4, a4, -8
	add	s10, a3, a4
	lw	a5, 0(s10)
	lw	a3, 4(s10)
	add	a6, a6, s4
	sub	a4, a7, s4
	sw	a5, 24(sp)
	sw	a3, 28(sp)
	or	a0, t0, s4
	sw	a1, 4(sp)
	mv	a1, a6
	sw	a2, 0(sp)
	mv	a2, a4
	mv	s9, ra
	call	tlsf_memory_cpy
	lw	t0, 12(sp)
	mv	ra, s9
	lw	a0, 16(sp)
	lw	a2, 0(sp)
	lw	a1, 4(sp)
	lw	a3, 24(sp)
	lw	a4, 28(sp)
	sw	a3, 0(s10)
	sw	a4, 4(s10)
.LBB96_49:
	srli	a3, s3, 3
	snez	a4, s4
	srli	a5, a2, 3
	add	a3, a3, a4
	andi	a4, a2, 7
	snez	a4, a4
	add	a4, a4, a5
	lw	s4, 8(sp)
	beq	a4, a3, .LBB96_51
	addi	a5, s2, 48
	lw	a5, 0(a5)
	sub	a4, a4, a3
	add	a3, a3, s5
	slli	a3, a3, 3
	add	a3, a3, a5
	addi	a0, a3, 24
	slli	a4, a4, 3
	mv	s4, a1
	li	a1, 0
	mv	s9, a2
	mv	a2, a4
	mv	s10, ra
	mv	s3, t0
	call	tlsf_memory_set
	mv	t0, s3
	mv	ra, s10
	lw	a0, 16(sp)
	mv	a2, s9
	mv	a1, s4
	lw	s4, 8(sp)
.LBB96_51:
	addi	a4, ra, 4
	mv	a3, s11
	bltu	s11, a4, .LBB96_54
	mv	s3, a0
	addi	a0, s2, 48
	mv	s10, s6
	mv	s6, s4
	mv	s4, a1
	mv	a1, s5
	mv	s9, a2
	mv	a2, s0
	mv	a3, t0
	mv	a4, ra
	mv	a5, s1
	mv	a6, s7
	mv	s0, ra
	call	tlsf_heap.refitting.split_off.4
	mv	a0, s3
	mv	a2, s9
	mv	a1, s4
	mv	s4, s6
	mv	s6, s10
.LBB96_53:
	mv	a3, s0
.LBB96_54:
	lw	a4, 40(s2)
	lw	a5, 32(s2)
	lw	s1, 36(s2)
	sub	a3, a3, s11
	add	a3, a3, a4
	addi	a5, a5, 1
	seqz	a4, a5
	add	a4, a4, s1
	sw	a5, 32(s2)
	sw	a4, 36(s2)
	sw	a3, 40(s2)
	li	a3, 1
	add	a2, a2, s6
	addi	a2, a2, -1
	andi	a2, a2, 8
	sb	a3, 0(s2)
	bnez	a2, .LBB96_131
	j	.LBB96_133
.LBB96_55:
	lw	a5, 4(a3)
	srli	a3, a4, 2
	add	a3, a3, s11
	bltu	a3, ra, .LBB96_19
.LBB96_56:
	lw	a7, 32(s2)
	lw	t3, 36(s2)
	and	a3, a7, t3
	li	s1, -1
	beq	a3, s1, .LBB96_73
	sw	a0, 16(sp)
	mv	a0, s10
	mv	s7, a1
	mv	a1, s5
	mv	s9, a2
	mv	a2, s0
	mv	a3, t1
	mv	a6, ra
	mv	s0, t0
	call	tlsf_heap.refitting.recut.5
	mv	a4, s0
	mv	a2, s9
	mv	a1, s7
	mv	s3, a0
	lw	a0, 16(sp)
	lw	a3, 0(s10)
	add	a3, a3, s0
	lw	s0, 16(a3)
	sw	s9, 16(a3)
	sw	zero, 20(a3)
	bgeu	s0, s9, .LBB96_70
	sw	s6, 12(sp)
	mv	s6, s4
	andi	s4, s0, 7
	beqz	s4, .LBB96_60
	lw	a0, 0(s10)
	add	a1, a4, s0
	lui	a2, %hi(.Lstatic.0)
	addi	a2, a2, %lo(.Lstatic.0)
	li	a3, 8
	addi	a4, sp, 24
	addi	a1, a1, 24
	andi	a1, a1, -8
	add	s1, a0, a1
	lw	a0, 0(s1)
	lw	a5, 4(s1)
	add	a1, a2, s4
	sub	a2, a3, s4
	sw	a0, 24(sp)
	sw	a5, 28(sp)
	or	a0, a4, s4
	call	tlsf_memory_cpy
	lw	a0, 16(sp)
	mv	a2, s9
	mv	a1, s7
	lw	a3, 24(sp)
	lw	a4, 28(sp)
	sw	a3, 0(s1)
	sw	a4, 4(s1)
.LBB96_60:
	srli	a3, s0, 3
	snez	a4, s4
	srli	a5, a2, 3
	add	a3, a3, a4
	andi	a4, a2, 7
	snez	a4, a4
	add	a4, a4, a5
	mv	s4, s6
	lw	s6, 12(sp)
	beq	a4, a3, .LBB96_70
	lw	a0, 0(s10)
	j	.LBB96_69
.LBB96_62:
	lw	a5, 4(a3)
	srli	a3, a4, 2
	add	a3, a3, s11
	bltu	a3, ra, .LBB96_39
.LBB96_63:
	lw	a7, 32(s2)
	lw	t3, 36(s2)
	and	a3, a7, t3
	li	s1, -1
	beq	a3, s1, .LBB96_73
	sw	a0, 16(sp)
	addi	s1, s2, 48
	mv	a0, s1
	mv	s7, a1
	mv	a1, s5
	mv	s9, a2
	mv	a2, s0
	mv	a3, t0
	mv	a6, ra
	call	tlsf_heap.refitting.recut.4
	mv	a2, s9
	mv	a1, s7
	mv	s3, a0
	lw	a0, 16(sp)
	lw	a3, 0(s1)
	add	a3, a3, s10
	lw	s0, 16(a3)
	sw	s9, 16(a3)
	sw	zero, 20(a3)
	bgeu	s0, s9, .LBB96_70
	sw	s6, 12(sp)
	mv	s6, s4
	andi	s4, s0, 7
	beqz	s4, .LBB96_67
	addi	a0, s2, 48
	lw	a0, 0(a0)
	add	a1, s10, s0
	lui	a2, %hi(.Lstatic.0)
	addi	a2, a2, %lo(.Lstatic.0)
	li	a3, 8
	addi	a4, sp, 24
	addi	a1, a1, 24
	andi	a1, a1, -8
	add	s1, a0, a1
	lw	a0, 0(s1)
	lw	a5, 4(s1)
	add	a1, a2, s4
	sub	a2, a3, s4
	sw	a0, 24(sp)
	sw	a5, 28(sp)
	or	a0, a4, s4
	call	tlsf_memory_cpy
	lw	a0, 16(sp)
	mv	a2, s9
	mv	a1, s7
	lw	a3, 24(sp)
	lw	a4, 28(sp)
	sw	a3, 0(s1)
	sw	a4, 4(s1)
.LBB96_67:
	srli	a3, s0, 3
	snez	a4, s4
	srli	a5, a2, 3
	add	a3, a3, a4
	andi	a4, a2, 7
	snez	a4, a4
	add	a4, a4, a5
	mv	s4, s6
	lw	s6, 12(sp)
	beq	a4, a3, .LBB96_70
	addi	a0, s2, 48
	lw	a0, 0(a0)
.LBB96_69:
	sub	a2, a4, a3
	add	a3, a3, s5
	slli	a3, a3, 3
	add	a0, a0, a3
	addi	a0, a0, 24
	slli	a2, a2, 3
	li	a1, 0
	call	tlsf_memory_set
	lw	a0, 16(sp)
	mv	a2, s9
	mv	a1, s7
.LBB96_70:
	lw	a3, 40(s2)
	lw	a4, 44(s2)
	sub	a5, s3, s11
	add	a3, a3, a5
	sw	a3, 40(s2)
	bgeu	a4, a3, .LBB96_72
	sw	a3, 44(s2)
.LBB96_72:
	lw	a3, 32(s2)
	lw	a4, 36(s2)
	addi	a3, a3, 1
	seqz	a5, a3
	add	a4, a4, a5
	sw	a3, 32(s2)
	sw	a4, 36(s2)
	li	a3, 1
	add	a2, a2, s6
	addi	a2, a2, -1
	andi	a2, a2, 8
	sb	a3, 0(s2)
	bnez	a2, .LBB96_131
	j	.LBB96_133
.LBB96_73:
	li	a0, 1
	sb	a0, 0(s2)
	li	a3, 2
	j	.LBB96_134
.LBB96_74:
	ori	s0, ra, 16
	lui	a4, 349525
	lui	a5, 209715
	lui	s1, 61681
	srli	a3, s0, 1
	addi	a4, a4, 1365
	or	s0, s0, a3
	srli	a3, s0, 2
	or	s0, s0, a3
	srli	a3, s0, 4
	or	s0, s0, a3
	srli	a3, s0, 8
	or	s0, s0, a3
	srli	a3, s0, 16
	or	a3, a3, s0
	not	s0, a3
	srli	a3, s0, 1
	and	a3, a3, a4
	lui	a4, 4112
	addi	a5, a5, 819
	sub	s0, s0, a3
	and	a3, s0, a5
	srli	s0, s0, 2
	and	a5, a5, s0
	li	s0, 27
	add	a3, a3, a5
	srli	a5, a3, 4
	add	a3, a3, a5
	addi	a5, ra, -1
	addi	s1, s1, -241
	addi	a4, a4, 257
	and	a3, a3, s1
	mul	a3, a3, a4
	srli	a3, a3, 24
	sub	s0, s0, a3
	srl	a3, a5, s0
	slli	a4, s0, 4
	add	a4, a4, a3
	addi	a5, a4, 1
	seqz	a7, a5
	srli	a5, a4, 4
	slli	s1, a7, 28
	sub	s1, a5, s1
	slli	a5, s1, 2
	add	a5, a5, s2
	lw	a5, 108(a5)
	andi	a3, a3, 15
	srl	s0, a5, a3
	andi	s0, s0, -2
	beqz	s0, .LBB96_79
	sw	s6, 12(sp)
	neg	a3, s0
	and	a3, a3, s0
	lui	a5, 30667
	addi	a5, a5, 1329
	mul	a3, a3, a5
	lui	a5, %hi(.LCPI96_0)
	addi	a5, a5, %lo(.LCPI96_0)
	srli	a3, a3, 27
	add	a3, a3, a5
	lbu	s1, 0(a3)
	neg	a3, a7
	add	s1, s1, a4
	sltu	a4, s1, a4
	add	a3, a3, a4
	srli	a4, s1, 4
	slli	a3, a3, 28
	or	a7, a4, a3
	j	.LBB96_108
.LBB96_76:
	lw	a3, 104(s2)
	li	a4, -2
	sll	a4, a4, s1
	and	a3, a3, a4
	beqz	a3, .LBB96_41
	neg	a4, a3
	lui	a5, 30667
	and	a3, a3, a4
	addi	a4, a5, 1329
	mul	a3, a3, a4
	srli	a3, a3, 27
	lui	a5, %hi(.LCPI96_0)
	addi	a5, a5, %lo(.LCPI96_0)
	add	a3, a3, a5
	lbu	s1, 0(a3)
	slli	a3, s1, 2
	add	a3, a3, s2
	lw	s0, 108(a3)
	beqz	s0, .LBB96_82
	neg	a3, s0
	and	a3, a3, s0
	mul	a3, a3, a4
	srli	a3, a3, 27
	add	a3, a3, a5
	lbu	a4, 0(a3)
	j	.LBB96_83
.LBB96_79:
	lw	a3, 104(s2)
	li	a4, -2
	sll	a4, a4, s1
	and	a3, a3, a4
	beqz	a3, .LBB96_41
	neg	a4, a3
	lui	a5, 30667
	and	a3, a3, a4
	addi	a4, a5, 1329
	mul	a3, a3, a4
	srli	a3, a3, 27
	lui	a5, %hi(.LCPI96_0)
	addi	a5, a5, %lo(.LCPI96_0)
	add	a3, a3, a5
	lbu	s1, 0(a3)
	slli	a3, s1, 2
	add	a3, a3, s2
	lw	s0, 108(a3)
	beqz	s0, .LBB96_106
	neg	a3, s0
	and	a3, a3, s0
	mul	a3, a3, a4
	srli	a3, a3, 27
	add	a3, a3, a5
	lbu	a4, 0(a3)
	j	.LBB96_107
.LBB96_82:
	li	a4, 32
.LBB96_83:
	sw	s6, 12(sp)
	slli	s1, s1, 5
	add	s1, s1, a4
	srli	a7, s1, 5
.LBB96_84:
	slli	a5, s1, 2
	add	a5, a5, s2
	lw	s6, 192(a5)
	sw	s6, 4(sp)
	slli	s6, s6, 3
	add	a3, a6, s6
	lw	s0, 16(a3)
	li	a3, -1
	beq	s0, a3, .LBB96_86
	slli	a4, s0, 3
	add	a4, a4, a6
	sw	a3, 20(a4)
	lw	a6, 0(s10)
	sw	s0, 192(a5)
	j	.LBB96_88
.LBB96_86:
	sw	a3, 192(a5)
	slli	a3, a7, 2
	add	a3, a3, s2
	lw	a4, 108(a3)
	li	a5, 1
	sll	s1, a5, s1
	not	s1, s1
	and	a4, a4, s1
	sw	a4, 108(a3)
	bnez	a4, .LBB96_88
	lw	a3, 104(s2)
	sll	a4, a5, a7
	not	a4, a4
	and	a3, a3, a4
	sw	a3, 104(s2)
.LBB96_88:
	add	s0, a6, s6
	lw	a3, 0(s0)
	slli	a4, ra, 2
	lw	a5, 4(s0)
	sub	a4, a3, a4
	li	s1, 15
	bltu	s1, a4, .LBB96_90
	seqz	a4, a3
	addi	a3, a3, -1
	sw	a2, 16(s0)
	sw	zero, 20(s0)
	sub	a5, a5, a4
	sw	a3, 0(s0)
	sw	a5, 4(s0)
	sw	s3, 8(s0)
	lw	a4, 20(sp)
	sw	a4, 12(s0)
	srli	a3, a3, 2
	j	.LBB96_96
.LBB96_90:
	mv	s4, t0
	lui	t1, 131072
	li	t2, 1
	srli	a7, a4, 2
	lw	s7, 4(sp)
	add	t0, s7, ra
	sltu	t4, a3, a4
	sub	t3, a3, a4
	sw	a2, 16(s0)
	sw	zero, 20(s0)
	andi	t5, a4, 2
	addi	t6, t1, -8
	sub	a5, a5, t4
	slli	t1, t0, 3
	srli	a3, t0, 3
	andi	s1, t0, 63
	sw	t3, 0(s0)
	sw	a5, 4(s0)
	sw	s3, 8(s0)
	lw	a5, 20(sp)
	sw	a5, 12(s0)
	sll	t3, t2, t0
	add	a6, a6, t1
	and	a3, a3, t6
	sll	t2, t2, s1
	addi	s1, s1, -32
	sw	a4, 0(a6)
	sw	s7, 4(a6)
	sw	s3, 8(a6)
	sw	a5, 12(a6)
	lw	a4, 72(s2)
	srli	a5, s1, 31
	srai	s1, s1, 31
	addi	a5, a5, -1
	add	a3, a3, a4
	lw	a4, 0(a3)
	lw	s0, 4(a3)
	and	s1, s1, t3
	and	a5, a5, t2
	or	a4, a4, s1
	or	a5, a5, s0
	sw	a4, 0(a3)
	sw	a5, 4(a3)
	bnez	t5, .LBB96_92
	lw	a3, 0(s10)
	add	a4, a7, t0
	slli	a4, a4, 3
	add	a3, a3, a4
	sw	t0, 4(a3)
.LBB96_92:
	ori	a3, a7, 32
	lui	a4, 349525
	srli	a5, a3, 1
	addi	a4, a4, 1365
	or	a3, a3, a5
	srli	a5, a3, 2
	or	a3, a3, a5
	srli	a5, a3, 4
	or	a3, a3, a5
	srli	a5, a3, 8
	or	a3, a3, a5
	srli	a5, a3, 16
	or	a3, a3, a5
	not	a3, a3
	srli	a5, a3, 1
	and	a4, a4, a5
	lui	a5, 209715
	addi	a5, a5, 819
	sub	a3, a3, a4
	and	a4, a3, a5
	srli	a3, a3, 2
	and	a3, a3, a5
	lui	a5, 61681
	add	a3, a3, a4
	srli	a4, a3, 4
	add	a3, a3, a4
	lui	a4, 4112
	addi	a5, a5, -241
	and	a3, a3, a5
	li	a5, 26
	addi	a4, a4, 257
	mul	a3, a3, a4
	srli	a3, a3, 24
	sub	a5, a5, a3
	srl	a4, a7, a5
	slli	a3, a5, 5
	add	a3, a3, a4
	slli	a5, a3, 2
	add	a5, a5, s2
	lw	s1, 192(a5)
	sw	t0, 192(a5)
	lw	s0, 0(s10)
	bltz	s1, .LBB96_94
	add	t1, t1, s0
	li	a3, -1
	slli	a4, s1, 3
	sw	s1, 16(t1)
	sw	a3, 20(t1)
	add	a4, a4, s0
	sw	t0, 20(a4)
	j	.LBB96_95
.LBB96_94:
	add	t1, t1, s0
	li	a5, -1
	srli	a3, a3, 5
	li	a6, 1
	sw	a5, 16(t1)
	sw	a5, 20(t1)
	slli	a5, a3, 2
	add	a5, a5, s2
	lw	s0, 104(s2)
	lw	s1, 108(a5)
	sll	a3, a6, a3
	sll	a4, a6, a4
	or	a3, a3, s0
	or	a4, a4, s1
	sw	a3, 104(s2)
	sw	a4, 108(a5)
.LBB96_95:
	mv	a3, ra
	mv	t0, s4
.LBB96_96:
	sw	s3, 8(sp)
	lw	a4, 40(s2)
	lw	a5, 44(s2)
	add	a3, a3, a4
	sw	a3, 40(s2)
	bgeu	a5, a3, .LBB96_98
	sw	a3, 44(s2)
.LBB96_98:
	lw	a3, 32(s2)
	lw	a4, 36(s2)
	lw	s8, 24(s2)
	addi	a3, a3, 1
	seqz	a5, a3
	add	a5, a5, a4
	addi	a4, ra, -3
	sw	a3, 32(s2)
	sw	a5, 36(s2)
	beqz	a4, .LBB96_100
	lw	a3, 0(s10)
	add	a3, a3, s6
	addi	a3, a3, 24
	slli	a4, a4, 3
	mv	s3, a0
	mv	a0, a3
	mv	s4, a1
	li	a1, 0
	mv	s0, a2
	mv	a2, a4
	mv	s1, t0
	call	tlsf_memory_set
	mv	t0, s1
	mv	a0, s3
	mv	a2, s0
	mv	a1, s4
.LBB96_100:
	lw	a3, 0(s10)
	add	a4, a3, t0
	add	s6, s6, a3
	lw	a4, 16(a4)
	lw	s0, 16(s6)
	bltu	s0, a4, .LBB96_102
	mv	s0, a4
.LBB96_102:
	mv	s3, a0
	mv	s11, a2
	mv	s7, a1
	addi	a1, s5, 3
	lw	s1, 4(sp)
	addi	s4, s1, 3
	andi	s6, s0, 7
	sltu	a2, a1, s5
	sltu	a4, s4, s1
	srli	s0, s0, 3
	beqz	s6, .LBB96_104
	add	a0, s0, a1
	slli	a0, a0, 3
	add	a0, a0, a3
	lw	a5, 0(a0)
	lw	a0, 4(a0)
	sw	a5, 40(sp)
	sw	a0, 44(sp)
	mv	a0, a3
	mv	a3, s4
	mv	a5, s0
	li	a6, 0
	call	tlsf_words.cells.copy_run
	lw	a0, 0(s10)
	add	s0, s0, s4
	slli	s0, s0, 3
	add	s0, s0, a0
	lw	a0, 0(s0)
	lw	a1, 4(s0)
	sw	a0, 48(sp)
	sw	a1, 52(sp)
	addi	a0, sp, 48
	addi	a1, sp, 40
	mv	a2, s6
	call	tlsf_memory_cpy
	lw	a0, 48(sp)
	lw	a1, 52(sp)
	sw	a0, 0(s0)
	sw	a1, 4(s0)
	j	.LBB96_105
.LBB96_104:
	mv	a0, a3
	mv	a3, s4
	mv	a5, s0
	li	a6, 0
	call	tlsf_words.cells.copy_run
.LBB96_105:
	lw	s6, 12(sp)
	addi	a1, sp, 24
	mv	a0, s9
	call	tlsf_heap.heap.Heap.release_live.5
	j	.LBB96_130
.LBB96_106:
	li	a4, 32
.LBB96_107:
	sw	s6, 12(sp)
	slli	s1, s1, 4
	add	s1, s1, a4
	srli	a7, s1, 4
.LBB96_108:
	slli	a5, s1, 2
	add	a5, a5, s2
	lw	s6, 192(a5)
	sw	s6, 4(sp)
	slli	s6, s6, 3
	add	a3, a6, s6
	lw	s0, 16(a3)
	li	a3, -1
	beq	s0, a3, .LBB96_110
	slli	a4, s0, 3
	add	a4, a4, a6
	sw	a3, 20(a4)
	addi	a3, s2, 48
	lw	a6, 0(a3)
	sw	s0, 192(a5)
	j	.LBB96_112
.LBB96_110:
	sw	a3, 192(a5)
	slli	a3, a7, 2
	add	a3, a3, s2
	lw	a5, 108(a3)
	andi	s1, s1, 15
	li	a4, 1
	sll	s1, a4, s1
	not	s1, s1
	and	a5, a5, s1
	sw	a5, 108(a3)
	bnez	a5, .LBB96_112
	lw	a3, 104(s2)
	sll	a4, a4, a7
	not	a4, a4
	and	a3, a3, a4
	sw	a3, 104(s2)
.LBB96_112:
	add	s0, a6, s6
	lw	a3, 0(s0)
	slli	a4, ra, 2
	lw	a5, 4(s0)
	sub	a4, a3, a4
	li	s1, 15
	bltu	s1, a4, .LBB96_114
	seqz	a4, a3
	addi	a3, a3, -1
	sw	a2, 16(s0)
	sw	zero, 20(s0)
	sub	a5, a5, a4
	sw	a3, 0(s0)
	sw	a5, 4(s0)
	sw	s3, 8(s0)
	lw	a4, 20(sp)
	sw	a4, 12(s0)
	srli	a3, a3, 2
	j	.LBB96_120
.LBB96_114:
	lui	t1, 131072
	li	t2, 1
	srli	a7, a4, 2
	lw	s4, 4(sp)
	add	t0, s4, ra
	sltu	t4, a3, a4
	sub	t3, a3, a4
	sw	a2, 16(s0)
	sw	zero, 20(s0)
	andi	t5, a4, 2
	addi	t6, t1, -8
	sub	a5, a5, t4
	slli	t1, t0, 3
	srli	a3, t0, 3
	andi	s1, t0, 63
	sw	t3, 0(s0)
	sw	a5, 4(s0)
	sw	s3, 8(s0)
	lw	a5, 20(sp)
	sw	a5, 12(s0)
	sll	t3, t2, t0
	add	a6, a6, t1
	and	a3, a3, t6
	sll	t2, t2, s1
	addi	s1, s1, -32
	sw	a4, 0(a6)
	sw	s4, 4(a6)
	sw	s3, 8(a6)
	sw	a5, 12(a6)
	lw	a4, 72(s2)
	srli	a5, s1, 31
	srai	s1, s1, 31
	addi	a5, a5, -1
	add	a3, a3, a4
	lw	a4, 0(a3)
	lw	s0, 4(a3)
	and	s1, s1, t3
	and	a5, a5, t2
	or	a4, a4, s1
	or	a5, a5, s0
	sw	a4, 0(a3)
	sw	a5, 4(a3)
	bnez	t5, .LBB96_116
	addi	a3, s2, 48
	lw	a3, 0(a3)
	add	a4, a7, t0
	slli	a4, a4, 3
	add	a3, a3, a4
	sw	t0, 4(a3)
.LBB96_116:
	ori	a3, a7, 16
	lui	a4, 349525
	srli	a5, a3, 1
	addi	a4, a4, 1365
	or	a3, a3, a5
	srli	a5, a3, 2
	or	a3, a3, a5
	srli	a5, a3, 4
	or	a3, a3, a5
	srli	a5, a3, 8
	or	a3, a3, a5
	srli	a5, a3, 16
	or	a3, a3, a5
	not	a3, a3
	srli	a5, a3, 1
	and	a4, a4, a5
	lui	a5, 209715
	addi	a5, a5, 819
	sub	a3, a3, a4
	and	a4, a3, a5
	srli	a3, a3, 2
	and	a3, a3, a5
	lui	a5, 61681
	add	a3, a3, a4
	srli	a4, a3, 4
	add	a3, a3, a4
	lui	a4, 4112
	addi	a5, a5, -241
	and	a3, a3, a5
	li	a5, 27
	addi	a4, a4, 257
	mul	a3, a3, a4
	srli	a3, a3, 24
	sub	a5, a5, a3
	srl	a4, a7, a5
	slli	a3, a5, 4
	add	a3, a3, a4
	slli	a5, a3, 2
	add	a5, a5, s2
	lw	s1, 192(a5)
	sw	t0, 192(a5)
	addi	a5, s2, 48
	lw	s0, 0(a5)
	bltz	s1, .LBB96_118
	add	t1, t1, s0
	li	a3, -1
	slli	a4, s1, 3
	sw	s1, 16(t1)
	sw	a3, 20(t1)
	add	a4, a4, s0
	sw	t0, 20(a4)
	j	.LBB96_119
.LBB96_118:
	add	t1, t1, s0
	li	a5, -1
	srli	a3, a3, 4
	li	a6, 1
	andi	a4, a4, 15
	sw	a5, 16(t1)
	sw	a5, 20(t1)
	slli	a5, a3, 2
	add	a5, a5, s2
	lw	s0, 104(s2)
	lw	s1, 108(a5)
	sll	a3, a6, a3
	sll	a4, a6, a4
	or	a3, a3, s0
	or	a4, a4, s1
	sw	a3, 104(s2)
	sw	a4, 108(a5)
.LBB96_119:
	mv	a3, ra
.LBB96_120:
	sw	s3, 8(sp)
	lw	a4, 40(s2)
	lw	a5, 44(s2)
	add	a3, a3, a4
	sw	a3, 40(s2)
	bgeu	a5, a3, .LBB96_122
	sw	a3, 44(s2)
.LBB96_122:
	lw	a3, 32(s2)
	lw	a4, 36(s2)
	lw	s8, 24(s2)
	addi	a3, a3, 1
	seqz	a5, a3
	add	a5, a5, a4
	addi	a4, ra, -3
	sw	a3, 32(s2)
	sw	a5, 36(s2)
	beqz	a4, .LBB96_124
	addi	a3, s2, 48
	lw	a3, 0(a3)
	add	a3, a3, s6
	addi	a3, a3, 24
	slli	a4, a4, 3
	mv	s3, a0
	mv	a0, a3
	mv	s4, a1
	li	a1, 0
	mv	s0, a2
	mv	a2, a4
	call	tlsf_memory_set
	mv	a0, s3
	mv	a2, s0
	mv	a1, s4
.LBB96_124:
	addi	a3, s2, 48
	lw	a3, 0(a3)
	add	a4, a3, s10
	add	s6, s6, a3
	lw	a4, 16(a4)
	lw	s0, 16(s6)
	bltu	s0, a4, .LBB96_126
	mv	s0, a4
.LBB96_126:
	mv	s3, a0
	mv	s11, a2
	mv	s7, a1
	addi	a1, s5, 3
	lw	s1, 4(sp)
	addi	s4, s1, 3
	andi	s6, s0, 7
	sltu	a2, a1, s5
	sltu	a4, s4, s1
	srli	s0, s0, 3
	beqz	s6, .LBB96_128
	add	a0, s0, a1
	slli	a0, a0, 3
	add	a0, a0, a3
	lw	a5, 0(a0)
	lw	a0, 4(a0)
	sw	a5, 40(sp)
	sw	a0, 44(sp)
	mv	a0, a3
	mv	a3, s4
	mv	a5, s0
	li	a6, 0
	call	tlsf_words.cells.copy_run
	addi	a0, s2, 48
	lw	a0, 0(a0)
	add	s0, s0, s4
	slli	s0, s0, 3
	add	s0, s0, a0
	lw	a0, 0(s0)
	lw	a1, 4(s0)
	sw	a0, 48(sp)
	sw	a1, 52(sp)
	addi	a0, sp, 48
	addi	a1, sp, 40
	mv	a2, s6
	call	tlsf_memory_cpy
	lw	a0, 48(sp)
	lw	a1, 52(sp)
	sw	a0, 0(s0)
	sw	a1, 4(s0)
	j	.LBB96_129
.LBB96_128:
	mv	a0, a3
	mv	a3, s4
	mv	a5, s0
	li	a6, 0
	call	tlsf_words.cells.copy_run
.LBB96_129:
	lw	s6, 12(sp)
	addi	a1, sp, 24
	mv	a0, s9
	call	tlsf_heap.heap.Heap.release_live.4
.LBB96_130:
	mv	s5, s1
	mv	a1, s7
	mv	a0, s3
	lw	s4, 8(sp)
	li	a3, 1
	add	a2, s11, s6
	addi	a2, a2, -1
	andi	a2, a2, 8
	sb	a3, 0(s2)
	beqz	a2, .LBB96_133
.LBB96_131:
	lbu	a2, 28(a0)
	bnez	a2, .LBB96_133
	li	a2, 1
	sb	a2, 28(a0)
.LBB96_133:
	li	a3, 0
	srli	a6, s8, 24
	srli	a2, s8, 16
	srli	a4, s8, 8
	srli	a7, s5, 24
	srli	t1, s5, 16
	srli	s0, s5, 8
	srli	t0, s4, 24
	srli	a5, s4, 16
	srli	s1, s4, 8
	sb	s8, 0(a1)
	sb	a4, 1(a1)
	sb	a2, 2(a1)
	sb	a6, 3(a1)
	lw	a0, 20(sp)
	srli	a2, a0, 24
	sb	s5, 4(a1)
	sb	s0, 5(a1)
	sb	t1, 6(a1)
	sb	a7, 7(a1)
	srli	a4, a0, 16
	sb	s4, 8(a1)
	sb	s1, 9(a1)
	sb	a5, 10(a1)
	sb	t0, 11(a1)
	srli	a5, a0, 8
	sb	a0, 12(a1)
	sb	a5, 13(a1)
	sb	a4, 14(a1)
	sb	a2, 15(a1)
.LBB96_134:
	lw	ra, 108(sp)
	lw	s0, 104(sp)
	lw	s1, 100(sp)
	lw	s2, 96(sp)
	lw	s3, 92(sp)
	lw	s4, 88(sp)
	lw	s5, 84(sp)
	lw	s6, 80(sp)
	lw	s7, 76(sp)
	lw	s8, 72(sp)
	lw	s9, 68(sp)
	lw	s10, 64(sp)
	lw	s11, 60(sp)
	.cfi_restore ra
	.cfi_restore s0
	.cfi_restore s1
	.cfi_restore s2
	.cfi_restore s3
	.cfi_restore s4
	.cfi_restore s5
	.cfi_restore s6
	.cfi_restore s7
	.cfi_restore s8
	.cfi_restore s9
	.cfi_restore s10
	.cfi_restore s11
	addi	sp, sp, 112
	.cfi_def_cfa_offset 0
.LBB96_135:
	mv	a0, a3
	ret
.Lfunc_end96:
	.size	tlsf_reallocate, .Lfunc_end96-tlsf_reallocate
	.cfi_endproc
	.section	.text.tlsf_release,"ax",@progbits
	.globl	tlsf_release
	.p2align	1
	.type	tlsf_release,@function
tlsf_release:
	.cfi_startproc
	lw	a5, 0(a1)
	lw	a4, 4(a1)
	lw	a2, 8(a1)
	lw	a3, 12(a1)
	mv	a1, a5
	tail	tlsf_c.heap_calls.release_named
.Lfunc_end97:
	.size	tlsf_release, .Lfunc_end97-tlsf_release
	.cfi_endproc
	.section	.text.tlsf_release_all,"ax",@progbits
	.globl	tlsf_release_all
	.p2align	1
	.type	tlsf_release_all,@function
tlsf_release_all:
	.cfi_startproc
	addi	sp, sp, -64
	.cfi_def_cfa_offset 64
	sw	ra, 60(sp)
	sw	s0, 56(sp)
	sw	s1, 52(sp)
	sw	s2, 48(sp)
	sw	s3, 44(sp)
	sw	s4, 40(sp)
	sw	s5, 36(sp)
	sw	s6, 32(sp)
	sw	s7, 28(sp)
	sw	s8, 24(sp)
	sw	s9, 20(sp)
	sw	s10, 16(sp)
	sw	s11, 12(sp)
	.cfi_offset ra, -4
	.cfi_offset s0, -8
	.cfi_offset s1, -12
	.cfi_offset s2, -16
	.cfi_offset s3, -20
	.cfi_offset s4, -24
	.cfi_offset s5, -28
	.cfi_offset s6, -32
	.cfi_offset s7, -36
	.cfi_offset s8, -40
	.cfi_offset s9, -44
	.cfi_offset s10, -48
	.cfi_offset s11, -52
	.cfi_remember_state
	lbu	a3, 8(a0)
	beqz	a3, .LBB98_7
	lw	s4, 0(a0)
	lbu	a0, 0(s4)
	beqz	a0, .LBB98_7
	lbu	a0, 16(s4)
	seqz	a3, a1
	slli	a3, a3, 12
	add	s3, a1, a3
	sb	zero, 0(s4)
	beqz	a0, .LBB98_5
	beqz	a2, .LBB98_44
	li	s0, 0
	li	s1, 0
	li	s5, 1
	lui	s7, 131072
	addi	s2, s4, 48
	li	s6, -1
	lui	a0, 349525
	lui	a1, 209715
	lui	a3, 61681
	lui	a4, 4112
	addi	s7, s7, -8
	addi	s8, a0, 1365
	addi	s9, a1, 819
	addi	s10, a3, -241
	addi	s11, a4, 257
	li	ra, 26
	j	.LBB98_11
.LBB98_5:
	beqz	a2, .LBB98_44
	li	s1, 0
	li	s0, 0
	li	s5, 1
	lui	s7, 131072
	addi	s2, s4, 48
	li	s6, -1
	lui	a0, 349525
	lui	a1, 209715
	lui	a3, 61681
	lui	a4, 4112
	addi	s7, s7, -8
	addi	s8, a0, 1365
	addi	s9, a1, 819
	addi	s10, a3, -241
	addi	s11, a4, 257
	li	ra, 27
	j	.LBB98_29
.LBB98_7:
	li	a0, 0
	lw	ra, 60(sp)
	lw	s0, 56(sp)
	lw	s1, 52(sp)
	lw	s2, 48(sp)
	lw	s3, 44(sp)
	lw	s4, 40(sp)
	lw	s5, 36(sp)
	lw	s6, 32(sp)
	lw	s7, 28(sp)
	lw	s8, 24(sp)
	lw	s9, 20(sp)
	lw	s10, 16(sp)
	lw	s11, 12(sp)
	.cfi_restore ra
	.cfi_restore s0
	.cfi_restore s1
	.cfi_restore s2
	.cfi_restore s3
	.cfi_restore s4
	.cfi_restore s5
	.cfi_restore s6
	.cfi_restore s7
	.cfi_restore s8
	.cfi_restore s9
	.cfi_restore s10
	.cfi_restore s11
	addi	sp, sp, 64
	.cfi_def_cfa_offset 0
	tail	tlsf_c.call_fault.CallFault.refusal
.LBB98_8:
	.cfi_restore_state
	addi	a0, a5, 1
	seqz	a3, a0
	add	a3, a3, a6
	sw	a0, 32(s4)
	sw	a3, 36(s4)
	mv	a0, s2
	mv	s6, s10
	mv	s10, s8
	mv	s8, a2
	mv	a2, t0
	mv	a3, t3
	mv	a4, t4
	call	tlsf_heap.fitting.merge_next.5
.LBB98_9:
	li	ra, 26
	mv	a2, s8
	mv	s8, s10
	mv	s10, s6
	li	s6, -1
.LBB98_10:
	addi	s0, s0, 1
	seqz	a0, s0
	add	s1, s1, a0
	sltu	a0, s0, a2
	seqz	a1, s1
	and	a0, a0, a1
	beqz	a0, .LBB98_44
.LBB98_11:
	slli	a1, s0, 4
	add	a1, a1, s3
	lbu	a0, 1(a1)
	lbu	a3, 0(a1)
	lbu	a4, 2(a1)
	lbu	a5, 3(a1)
	slli	a0, a0, 8
	or	a0, a0, a3
	lw	a3, 24(s4)
	slli	a4, a4, 16
	slli	a5, a5, 24
	or	a4, a4, a5
	or	a0, a0, a4
	bne	a0, a3, .LBB98_10
	lbu	a0, 5(a1)
	lbu	a3, 4(a1)
	lbu	a4, 6(a1)
	lbu	a5, 7(a1)
	slli	a0, a0, 8
	or	a0, a0, a3
	lw	a3, 56(s4)
	slli	a4, a4, 16
	slli	a5, a5, 24
	or	a4, a4, a5
	or	a7, a4, a0
	bgeu	a7, a3, .LBB98_10
	lw	a6, 72(s4)
	andi	a0, a7, 63
	sll	a4, s5, a7
	addi	a3, a0, -32
	srai	a5, a3, 31
	and	t0, a5, a4
	srli	a5, a7, 3
	and	a5, a5, s7
	sll	a0, s5, a0
	srli	a3, a3, 31
	add	a5, a5, a6
	lw	a4, 0(a5)
	lw	a5, 4(a5)
	addi	a3, a3, -1
	and	a0, a0, a3
	and	a3, a4, t0
	and	a0, a0, a5
	or	a0, a0, a3
	beqz	a0, .LBB98_10
	lw	t2, 0(s2)
	slli	t5, a7, 3
	add	t6, t2, t5
	lw	t3, 0(t6)
	andi	a5, t3, 1
	bnez	a5, .LBB98_10
	lbu	a5, 13(a1)
	lbu	a0, 12(a1)
	lbu	t0, 14(a1)
	lbu	a4, 15(a1)
	slli	a5, a5, 8
	or	a6, a5, a0
	lbu	a5, 8(a1)
	lbu	a0, 9(a1)
	lbu	t1, 10(a1)
	lbu	a1, 11(a1)
	slli	t0, t0, 16
	slli	a4, a4, 24
	slli	a0, a0, 8
	or	a4, a4, t0
	or	a0, a0, a5
	lw	a5, 8(t6)
	lw	a3, 12(t6)
	slli	t1, t1, 16
	slli	a1, a1, 24
	or	a1, a1, t1
	or	a4, a4, a6
	or	a0, a0, a1
	xor	a3, a3, a4
	xor	a0, a0, a5
	or	a0, a0, a3
	bnez	a0, .LBB98_10
	lw	a5, 32(s4)
	lw	a6, 36(s4)
	and	a0, a5, a6
	beq	a0, s6, .LBB98_10
	lw	a0, 40(s4)
	lw	t4, 4(t6)
	srli	t1, t3, 2
	sub	a0, a0, t1
	andi	a1, t3, 2
	sw	a0, 40(s4)
	bnez	a1, .LBB98_19
	add	a0, t1, a7
	slli	a0, a0, 3
	add	a0, a0, t2
	lw	a1, 0(a0)
	lw	t0, 4(a0)
	bnez	a7, .LBB98_20
	j	.LBB98_21
.LBB98_19:
	li	a1, 0
	li	t0, 0
	beqz	a7, .LBB98_21
.LBB98_20:
	slli	a0, t4, 3
	add	t2, t2, a0
	lw	a3, 0(t2)
	andi	a0, a3, 1
	bnez	a0, .LBB98_24
.LBB98_21:
	andi	a0, a1, 1
	bnez	a0, .LBB98_8
	addi	t3, t3, 1
	ori	a0, t1, 32
	sw	t3, 0(t6)
	sw	t4, 4(t6)
	sw	a5, 8(t6)
	sw	a6, 12(t6)
	srli	a1, a0, 1
	lw	a3, 32(s4)
	lw	a4, 36(s4)
	or	a0, a0, a1
	srli	a1, a0, 2
	or	a0, a0, a1
	srli	a1, a0, 4
	addi	a3, a3, 1
	or	a0, a0, a1
	seqz	a1, a3
	srli	a5, a0, 8
	add	a1, a1, a4
	or	a0, a0, a5
	sw	a3, 32(s4)
	sw	a1, 36(s4)
	srli	a1, a0, 16
	or	a0, a0, a1
	not	a0, a0
	srli	a1, a0, 1
	and	a1, a1, s8
	sub	a0, a0, a1
	and	a1, a0, s9
	srli	a0, a0, 2
	and	a0, a0, s9
	add	a0, a0, a1
	srli	a1, a0, 4
	add	a0, a0, a1
	and	a0, a0, s10
	mul	a0, a0, s11
	srli	a0, a0, 24
	sub	a0, ra, a0
	srl	a1, t1, a0
	slli	a0, a0, 5
	add	a3, a1, a0
	slli	a0, a3, 2
	add	a0, a0, s4
	lw	a4, 192(a0)
	sw	a7, 192(a0)
	lw	a5, 48(s4)
	add	a0, a5, t5
	bltz	a4, .LBB98_25
	sw	a4, 16(a0)
	sw	s6, 20(a0)
	slli	a4, a4, 3
	add	a4, a4, a5
	sw	a7, 20(a4)
	j	.LBB98_10
.LBB98_24:
	lw	a4, 4(t2)
	addi	t1, a5, 1
	seqz	a0, t1
	add	a0, a0, a6
	sw	t1, 32(s4)
	sw	a0, 36(s4)
	mv	a0, s2
	mv	s6, s10
	mv	s10, s8
	mv	s8, a2
	mv	a2, t0
	call	tlsf_heap.fitting.merge_before.5
	j	.LBB98_9
.LBB98_25:
	sw	s6, 16(a0)
	sw	s6, 20(a0)
	srli	a3, a3, 5
	slli	a0, a3, 2
	add	a0, a0, s4
	lw	a4, 104(s4)
	lw	a5, 108(a0)
	sll	a1, s5, a1
	sll	a3, s5, a3
	or	a3, a3, a4
	or	a1, a1, a5
	sw	a3, 104(s4)
	sw	a1, 108(a0)
	j	.LBB98_10
.LBB98_26:
	addi	a0, a5, 1
	seqz	a3, a0
	add	a3, a3, a6
	sw	a0, 32(s4)
	sw	a3, 36(s4)
	mv	a0, s2
	mv	s6, s10
	mv	s10, s8
	mv	s8, a2
	mv	a2, t0
	mv	a3, t3
	mv	a4, t4
	call	tlsf_heap.fitting.merge_next.4
.LBB98_27:
	li	ra, 27
	mv	a2, s8
	mv	s8, s10
	mv	s10, s6
	li	s6, -1
.LBB98_28:
	addi	s1, s1, 1
	seqz	a0, s1
	add	s0, s0, a0
	sltu	a0, s1, a2
	seqz	a1, s0
	and	a0, a0, a1
	beqz	a0, .LBB98_44
.LBB98_29:
	slli	a1, s1, 4
	add	a1, a1, s3
	lbu	a0, 1(a1)
	lbu	a3, 0(a1)
	lbu	a4, 2(a1)
	lbu	a5, 3(a1)
	slli	a0, a0, 8
	or	a0, a0, a3
	lw	a3, 24(s4)
	slli	a4, a4, 16
	slli	a5, a5, 24
	or	a4, a4, a5
	or	a0, a0, a4
	bne	a0, a3, .LBB98_28
	lbu	a0, 5(a1)
	lbu	a3, 4(a1)
	lbu	a4, 6(a1)
	lbu	a5, 7(a1)
	slli	a0, a0, 8
	or	a0, a0, a3
	lw	a3, 56(s4)
	slli	a4, a4, 16
	slli	a5, a5, 24
	or	a4, a4, a5
	or	a7, a4, a0
	bgeu	a7, a3, .LBB98_28
	lw	a6, 72(s4)
	andi	a0, a7, 63
	sll	a4, s5, a7
	addi	a3, a0, -32
	srai	a5, a3, 31
	and	t0, a5, a4
	srli	a5, a7, 3
	and	a5, a5, s7
	sll	a0, s5, a0
	srli	a3, a3, 31
	add	a5, a5, a6
	lw	a4, 0(a5)
	lw	a5, 4(a5)
	addi	a3, a3, -1
	and	a0, a0, a3
	and	a3, a4, t0
	and	a0, a0, a5
	or	a0, a0, a3
	beqz	a0, .LBB98_28
	lw	t2, 0(s2)
	slli	t5, a7, 3
	add	t6, t2, t5
	lw	t3, 0(t6)
	andi	a5, t3, 1
	bnez	a5, .LBB98_28
	lbu	a5, 13(a1)
	lbu	a0, 12(a1)
	lbu	t0, 14(a1)
	lbu	a4, 15(a1)
	slli	a5, a5, 8
	or	a6, a5, a0
	lbu	a5, 8(a1)
	lbu	a0, 9(a1)
	lbu	t1, 10(a1)
	lbu	a1, 11(a1)
	slli	t0, t0, 16
	slli	a4, a4, 24
	slli	a0, a0, 8
	or	a4, a4, t0
	or	a0, a0, a5
	lw	a5, 8(t6)
	lw	a3, 12(t6)
	slli	t1, t1, 16
	slli	a1, a1, 24
	or	a1, a1, t1
	or	a4, a4, a6
	or	a0, a0, a1
	xor	a3, a3, a4
	xor	a0, a0, a5
	or	a0, a0, a3
	bnez	a0, .LBB98_28
	lw	a5, 32(s4)
	lw	a6, 36(s4)
	and	a0, a5, a6
	beq	a0, s6, .LBB98_28
	lw	a0, 40(s4)
	lw	t4, 4(t6)
	srli	t1, t3, 2
	sub	a0, a0, t1
	andi	a1, t3, 2
	sw	a0, 40(s4)
	bnez	a1, .LBB98_37
	add	a0, t1, a7
	slli	a0, a0, 3
	add	a0, a0, t2
	lw	a1, 0(a0)
	lw	t0, 4(a0)
	bnez	a7, .LBB98_38
	j	.LBB98_39
.LBB98_37:
	li	a1, 0
	li	t0, 0
	beqz	a7, .LBB98_39
.LBB98_38:
	slli	a0, t4, 3
	add	t2, t2, a0
	lw	a3, 0(t2)
	andi	a0, a3, 1
	bnez	a0, .LBB98_42
.LBB98_39:
	andi	a0, a1, 1
	bnez	a0, .LBB98_26
	addi	t3, t3, 1
	ori	a0, t1, 16
	sw	t3, 0(t6)
	sw	t4, 4(t6)
	sw	a5, 8(t6)
	sw	a6, 12(t6)
	srli	a1, a0, 1
	lw	a3, 32(s4)
	lw	a4, 36(s4)
	or	a0, a0, a1
	srli	a1, a0, 2
	or	a0, a0, a1
	srli	a1, a0, 4
	addi	a3, a3, 1
	or	a0, a0, a1
	seqz	a1, a3
	srli	a5, a0, 8
	add	a1, a1, a4
	or	a0, a0, a5
	sw	a3, 32(s4)
	sw	a1, 36(s4)
	srli	a1, a0, 16
	or	a0, a0, a1
	not	a0, a0
	srli	a1, a0, 1
	and	a1, a1, s8
	sub	a0, a0, a1
	and	a1, a0, s9
	srli	a0, a0, 2
	and	a0, a0, s9
	add	a0, a0, a1
	srli	a1, a0, 4
	add	a0, a0, a1
	and	a0, a0, s10
	mul	a0, a0, s11
	srli	a0, a0, 24
	sub	a0, ra, a0
	srl	a1, t1, a0
	slli	a0, a0, 4
	add	a3, a1, a0
	slli	a0, a3, 2
	add	a0, a0, s4
	lw	a4, 192(a0)
	sw	a7, 192(a0)
	lw	a5, 48(s4)
	add	a0, a5, t5
	bltz	a4, .LBB98_43
	sw	a4, 16(a0)
	sw	s6, 20(a0)
	slli	a4, a4, 3
	add	a4, a4, a5
	sw	a7, 20(a4)
	j	.LBB98_28
.LBB98_42:
	lw	a4, 4(t2)
	addi	t1, a5, 1
	seqz	a0, t1
	add	a0, a0, a6
	sw	t1, 32(s4)
	sw	a0, 36(s4)
	mv	a0, s2
	mv	s6, s10
	mv	s10, s8
	mv	s8, a2
	mv	a2, t0
	call	tlsf_heap.fitting.merge_before.4
	j	.LBB98_27
.LBB98_43:
	sw	s6, 16(a0)
	sw	s6, 20(a0)
	srli	a3, a3, 4
	andi	a1, a1, 15
	slli	a0, a3, 2
	add	a0, a0, s4
	lw	a4, 104(s4)
	lw	a5, 108(a0)
	sll	a3, s5, a3
	sll	a1, s5, a1
	or	a3, a3, a4
	or	a1, a1, a5
	sw	a3, 104(s4)
	sw	a1, 108(a0)
	j	.LBB98_28
.LBB98_44:
	li	a0, 1
	sb	a0, 0(s4)
	li	a0, 0
	lw	ra, 60(sp)
	lw	s0, 56(sp)
	lw	s1, 52(sp)
	lw	s2, 48(sp)
	lw	s3, 44(sp)
	lw	s4, 40(sp)
	lw	s5, 36(sp)
	lw	s6, 32(sp)
	lw	s7, 28(sp)
	lw	s8, 24(sp)
	lw	s9, 20(sp)
	lw	s10, 16(sp)
	lw	s11, 12(sp)
	.cfi_restore ra
	.cfi_restore s0
	.cfi_restore s1
	.cfi_restore s2
	.cfi_restore s3
	.cfi_restore s4
	.cfi_restore s5
	.cfi_restore s6
	.cfi_restore s7
	.cfi_restore s8
	.cfi_restore s9
	.cfi_restore s10
	.cfi_restore s11
	addi	sp, sp, 64
	.cfi_def_cfa_offset 0
	ret
.Lfunc_end98:
	.size	tlsf_release_all, .Lfunc_end98-tlsf_release_all
	.cfi_endproc
	.section	.text.tlsf_release_place,"ax",@progbits
	.globl	tlsf_release_place
	.p2align	1
	.type	tlsf_release_place,@function
tlsf_release_place:
	.cfi_startproc
	addi	sp, sp, -16
	.cfi_def_cfa_offset 16
	sw	ra, 12(sp)
	sw	s0, 8(sp)
	sw	s1, 4(sp)
	.cfi_offset ra, -4
	.cfi_offset s0, -8
	.cfi_offset s1, -12
	.cfi_remember_state
	lbu	a2, 8(a0)
	beqz	a2, .LBB99_27
	lw	s1, 0(a0)
	lbu	a0, 0(s1)
	beqz	a0, .LBB99_27
	mv	a7, a1
	lbu	a2, 16(s1)
	lw	a1, 56(s1)
	sb	zero, 0(s1)
	addi	a0, s1, 48
	beqz	a2, .LBB99_6
	bgeu	a7, a1, .LBB99_21
	lw	a3, 72(s1)
	srli	a1, a7, 3
	andi	a1, a1, -8
	add	a3, a3, a1
	lw	a1, 4(a3)
	andi	a2, a7, 63
	addi	a4, a2, -32
	bltz	a4, .LBB99_9
	srl	a1, a1, a2
	andi	a1, a1, 1
	bnez	a1, .LBB99_10
	j	.LBB99_21
.LBB99_6:
	bgeu	a7, a1, .LBB99_21
	lw	a3, 72(s1)
	srli	a1, a7, 3
	andi	a1, a1, -8
	add	a3, a3, a1
	lw	a1, 4(a3)
	andi	a2, a7, 63
	addi	a4, a2, -32
	bltz	a4, .LBB99_14
	srl	a1, a1, a2
	j	.LBB99_15
.LBB99_9:
	lw	a3, 0(a3)
	slli	a1, a1, 1
	not	a2, a2
	srl	a3, a3, a7
	sll	a1, a1, a2
	or	a1, a1, a3
	andi	a1, a1, 1
	beqz	a1, .LBB99_21
.LBB99_10:
	lw	a3, 0(a0)
	slli	t0, a7, 3
	add	a4, a3, t0
	lw	t3, 0(a4)
	andi	a1, t3, 1
	bnez	a1, .LBB99_21
	lw	a5, 32(s1)
	lw	a6, 36(s1)
	and	a1, a5, a6
	li	a2, -1
	beq	a1, a2, .LBB99_20
	lw	a1, 40(s1)
	lw	t4, 4(a4)
	srli	t1, t3, 2
	sub	a1, a1, t1
	andi	a2, t3, 2
	sw	a1, 40(s1)
	bnez	a2, .LBB99_22
	add	a1, t1, a7
	slli	a1, a1, 3
	add	a2, a3, a1
	lw	a1, 0(a2)
	lw	a2, 4(a2)
	bnez	a7, .LBB99_23
	j	.LBB99_24
.LBB99_14:
	lw	a3, 0(a3)
	slli	a1, a1, 1
	not	a2, a2
	srl	a3, a3, a7
	sll	a1, a1, a2
	or	a1, a1, a3
.LBB99_15:
	andi	a1, a1, 1
	beqz	a1, .LBB99_21
	lw	a3, 0(a0)
	slli	t0, a7, 3
	add	t5, a3, t0
	lw	t3, 0(t5)
	andi	a1, t3, 1
	bnez	a1, .LBB99_21
	lw	a5, 32(s1)
	lw	a6, 36(s1)
	and	a1, a5, a6
	li	a2, -1
	beq	a1, a2, .LBB99_20
	lw	a1, 40(s1)
	lw	t4, 4(t5)
	srli	t1, t3, 2
	sub	a1, a1, t1
	andi	a2, t3, 2
	sw	a1, 40(s1)
	bnez	a2, .LBB99_30
	add	a1, t1, a7
	slli	a1, a1, 3
	add	a2, a3, a1
	lw	a1, 0(a2)
	lw	a2, 4(a2)
	bnez	a7, .LBB99_31
	j	.LBB99_32
.LBB99_20:
	li	a0, 2
	j	.LBB99_39
.LBB99_21:
	lw	a0, 24(s1)
	mv	a1, a0
	call	tlsf_heap.refusal.Refusal.of_name
	zext.b	a0, a0
	addi	a0, a0, -3
	seqz	a0, a0
	addi	a0, a0, 3
	j	.LBB99_39
.LBB99_22:
	li	a1, 0
	li	a2, 0
	beqz	a7, .LBB99_24
.LBB99_23:
	slli	t2, t4, 3
	add	t2, t2, a3
	lw	a3, 0(t2)
	andi	s0, a3, 1
	bnez	s0, .LBB99_29
.LBB99_24:
	andi	a3, a1, 1
	bnez	a3, .LBB99_28
	addi	t3, t3, 1
	ori	a0, t1, 32
	lui	a1, 349525
	lui	a2, 209715
	sw	t3, 0(a4)
	sw	t4, 4(a4)
	sw	a5, 8(a4)
	sw	a6, 12(a4)
	srli	a3, a0, 1
	lw	a4, 32(s1)
	lw	a5, 36(s1)
	or	a0, a0, a3
	srli	a3, a0, 2
	or	a0, a0, a3
	srli	a3, a0, 4
	addi	a4, a4, 1
	or	a0, a0, a3
	seqz	a3, a4
	add	a3, a3, a5
	srli	a5, a0, 8
	or	a0, a0, a5
	lui	a5, 61681
	addi	a1, a1, 1365
	sw	a4, 32(s1)
	sw	a3, 36(s1)
	srli	a3, a0, 16
	or	a0, a0, a3
	not	a0, a0
	srli	a3, a0, 1
	and	a1, a1, a3
	lui	a3, 4112
	addi	a2, a2, 819
	sub	a0, a0, a1
	and	a1, a0, a2
	srli	a0, a0, 2
	and	a0, a0, a2
	li	a2, 26
	addi	a4, a5, -241
	addi	a3, a3, 257
	add	a0, a0, a1
	srli	a1, a0, 4
	add	a0, a0, a1
	and	a0, a0, a4
	mul	a0, a0, a3
	srli	a0, a0, 24
	sub	a2, a2, a0
	srl	a1, t1, a2
	slli	a2, a2, 5
	add	a2, a2, a1
	slli	a0, a2, 2
	add	a0, a0, s1
	lw	a4, 192(a0)
	sw	a7, 192(a0)
	lw	a3, 48(s1)
	bgez	a4, .LBB99_34
	li	a0, 0
	add	a3, a3, t0
	li	a4, -1
	srli	a2, a2, 5
	li	a5, 1
	j	.LBB99_38
.LBB99_27:
	li	a0, 0
	lw	ra, 12(sp)
	lw	s0, 8(sp)
	lw	s1, 4(sp)
	.cfi_restore ra
	.cfi_restore s0
	.cfi_restore s1
	addi	sp, sp, 16
	.cfi_def_cfa_offset 0
	tail	tlsf_c.call_fault.CallFault.refusal
.LBB99_28:
	.cfi_restore_state
	addi	a3, a5, 1
	seqz	a4, a3
	add	a4, a4, a6
	sw	a3, 32(s1)
	sw	a4, 36(s1)
	mv	a3, t3
	mv	a4, t4
	call	tlsf_heap.fitting.merge_next.5
	li	a0, 0
	j	.LBB99_39
.LBB99_29:
	lw	a4, 4(t2)
	addi	t0, a5, 1
	seqz	s0, t0
	add	s0, s0, a6
	sw	t0, 32(s1)
	sw	s0, 36(s1)
	call	tlsf_heap.fitting.merge_before.5
	li	a0, 0
	j	.LBB99_39
.LBB99_30:
	li	a1, 0
	li	a2, 0
	beqz	a7, .LBB99_32
.LBB99_31:
	slli	t2, t4, 3
	add	t2, t2, a3
	lw	a3, 0(t2)
	andi	a4, a3, 1
	bnez	a4, .LBB99_36
.LBB99_32:
	andi	a3, a1, 1
	bnez	a3, .LBB99_35
	addi	t3, t3, 1
	ori	a0, t1, 16
	lui	a1, 349525
	lui	a2, 209715
	sw	t3, 0(t5)
	sw	t4, 4(t5)
	sw	a5, 8(t5)
	sw	a6, 12(t5)
	srli	a3, a0, 1
	lw	a4, 32(s1)
	lw	a5, 36(s1)
	or	a0, a0, a3
	srli	a3, a0, 2
	or	a0, a0, a3
	srli	a3, a0, 4
	addi	a4, a4, 1
	or	a0, a0, a3
	seqz	a3, a4
	add	a3, a3, a5
	srli	a5, a0, 8
	or	a0, a0, a5
	lui	a5, 61681
	addi	a1, a1, 1365
	sw	a4, 32(s1)
	sw	a3, 36(s1)
	srli	a3, a0, 16
	or	a0, a0, a3
	not	a0, a0
	srli	a3, a0, 1
	and	a1, a1, a3
	lui	a3, 4112
	addi	a2, a2, 819
	sub	a0, a0, a1
	and	a1, a0, a2
	srli	a0, a0, 2
	and	a0, a0, a2
	li	a2, 27
	addi	a4, a5, -241
	addi	a3, a3, 257
	add	a0, a0, a1
	srli	a1, a0, 4
	add	a0, a0, a1
	and	a0, a0, a4
	mul	a0, a0, a3
	srli	a0, a0, 24
	sub	a2, a2, a0
	srl	a1, t1, a2
	slli	a2, a2, 4
	add	a2, a2, a1
	slli	a0, a2, 2
	add	a0, a0, s1
	lw	a4, 192(a0)
	sw	a7, 192(a0)
	lw	a3, 48(s1)
	bltz	a4, .LBB99_37
.LBB99_34:
	li	a0, 0
	add	t0, t0, a3
	li	a1, -1
	sw	a4, 16(t0)
	sw	a1, 20(t0)
	slli	a4, a4, 3
	add	a3, a3, a4
	sw	a7, 20(a3)
	j	.LBB99_39
.LBB99_35:
	addi	a3, a5, 1
	seqz	a4, a3
	add	a4, a4, a6
	sw	a3, 32(s1)
	sw	a4, 36(s1)
	mv	a3, t3
	mv	a4, t4
	call	tlsf_heap.fitting.merge_next.4
	li	a0, 0
	j	.LBB99_39
.LBB99_36:
	lw	a4, 4(t2)
	addi	t0, a5, 1
	seqz	s0, t0
	add	s0, s0, a6
	sw	t0, 32(s1)
	sw	s0, 36(s1)
	call	tlsf_heap.fitting.merge_before.4
	li	a0, 0
	j	.LBB99_39
.LBB99_37:
	li	a0, 0
	add	a3, a3, t0
	li	a4, -1
	srli	a2, a2, 4
	li	a5, 1
	andi	a1, a1, 15
.LBB99_38:
	sw	a4, 16(a3)
	sw	a4, 20(a3)
	slli	a3, a2, 2
	add	a3, a3, s1
	lw	a4, 104(s1)
	lw	s0, 108(a3)
	sll	a2, a5, a2
	sll	a1, a5, a1
	or	a2, a2, a4
	or	a1, a1, s0
	sw	a2, 104(s1)
	sw	a1, 108(a3)
.LBB99_39:
	li	a1, 1
	sb	a1, 0(s1)
	lw	ra, 12(sp)
	lw	s0, 8(sp)
	lw	s1, 4(sp)
	.cfi_restore ra
	.cfi_restore s0
	.cfi_restore s1
	addi	sp, sp, 16
	.cfi_def_cfa_offset 0
	ret
.Lfunc_end99:
	.size	tlsf_release_place, .Lfunc_end99-tlsf_release_place
	.cfi_endproc
	.section	.text.tlsf_report,"ax",@progbits
	.globl	tlsf_report
	.p2align	1
	.type	tlsf_report,@function
tlsf_report:
	.cfi_startproc
	mv	a2, a0
	lbu	a3, 8(a0)
	li	a0, 32
	beqz	a3, .LBB100_39
	lw	a3, 0(a2)
	lbu	a2, 0(a3)
	beqz	a2, .LBB100_39
	addi	sp, sp, -64
	.cfi_def_cfa_offset 64
	sw	ra, 60(sp)
	sw	s0, 56(sp)
	sw	s1, 52(sp)
	sw	s2, 48(sp)
	sw	s3, 44(sp)
	sw	s4, 40(sp)
	sw	s5, 36(sp)
	sw	s6, 32(sp)
	sw	s7, 28(sp)
	sw	s8, 24(sp)
	sw	s9, 20(sp)
	sw	s10, 16(sp)
	sw	s11, 12(sp)
	.cfi_offset ra, -4
	.cfi_offset s0, -8
	.cfi_offset s1, -12
	.cfi_offset s2, -16
	.cfi_offset s3, -20
	.cfi_offset s4, -24
	.cfi_offset s5, -28
	.cfi_offset s6, -32
	.cfi_offset s7, -36
	.cfi_offset s8, -40
	.cfi_offset s9, -44
	.cfi_offset s10, -48
	.cfi_offset s11, -52
	lbu	a0, 16(a3)
	lw	s2, 32(a3)
	lw	a4, 36(a3)
	lw	a7, 56(a3)
	sb	zero, 0(a3)
	sw	a3, 8(sp)
	beqz	a0, .LBB100_17
	beqz	a7, .LBB100_34
	li	a2, 0
	li	s6, 0
	li	s7, 0
	li	s3, 0
	li	s4, 0
	li	s9, 0
	li	s8, 0
	lw	a0, 48(a3)
	mv	s10, s2
	sw	a4, 4(sp)
	mv	s5, a4
	j	.LBB100_6
.LBB100_5:
	lw	a3, 16(a3)
	addi	s8, s8, 1
	add	s9, s9, a4
	add	s4, s4, a3
	add	a2, a2, a4
	bgeu	a2, a7, .LBB100_14
.LBB100_6:
	slli	a3, a2, 3
	add	a3, a3, a0
	lw	a4, 0(a3)
	andi	a5, a4, 1
	srli	a4, a4, 2
	beqz	a5, .LBB100_5
	mv	a5, a4
	bltu	s6, a4, .LBB100_9
	mv	a5, s6
.LBB100_9:
	lw	s0, 12(a3)
	lw	s1, 8(a3)
	beq	s0, s5, .LBB100_11
	sltu	a3, s0, s5
	beqz	a3, .LBB100_12
	j	.LBB100_13
.LBB100_11:
	sltu	a3, s1, s10
	bnez	a3, .LBB100_13
.LBB100_12:
	mv	s0, s5
	mv	s1, s10
.LBB100_13:
	addi	s3, s3, 1
	add	s7, s7, a4
	mv	s6, a5
	mv	s10, s1
	mv	s5, s0
	add	a2, a2, a4
	bltu	a2, a7, .LBB100_6
.LBB100_14:
	beqz	s6, .LBB100_35
	ori	a0, s6, 32
	lui	a2, 349525
	srli	a3, a0, 1
	addi	a2, a2, 1365
	or	a0, a0, a3
	srli	a3, a0, 2
	or	a0, a0, a3
	srli	a3, a0, 4
	or	a0, a0, a3
	srli	a3, a0, 8
	or	a0, a0, a3
	srli	a3, a0, 16
	or	a0, a0, a3
	not	a0, a0
	srli	a3, a0, 1
	and	a2, a2, a3
	lui	a3, 209715
	addi	a3, a3, 819
	sub	a0, a0, a2
	and	a2, a0, a3
	srli	a0, a0, 2
	and	a0, a0, a3
	lui	a3, 61681
	add	a0, a0, a2
	srli	a2, a0, 4
	add	a0, a0, a2
	lui	a2, 4112
	addi	a3, a3, -241
	and	a0, a0, a3
	li	a3, 26
	addi	a2, a2, 257
	mul	a0, a0, a2
	srli	a0, a0, 24
	sub	a3, a3, a0
	srl	a0, s6, a3
	slli	a3, a3, 5
	add	a3, a3, a0
	srli	a2, a3, 5
	beqz	a2, .LBB100_32
	li	a3, 16
	andi	a0, a0, 31
	j	.LBB100_31
.LBB100_17:
	beqz	a7, .LBB100_34
	li	a2, 0
	li	s6, 0
	li	s7, 0
	li	s3, 0
	li	s4, 0
	li	s9, 0
	li	s8, 0
	lw	a6, 48(a3)
	mv	s10, s2
	sw	a4, 4(sp)
	mv	s5, a4
	j	.LBB100_20
.LBB100_19:
	lw	a0, 16(a3)
	addi	s8, s8, 1
	add	s9, s9, a4
	add	s4, s4, a0
	add	a2, a2, a4
	bgeu	a2, a7, .LBB100_28
.LBB100_20:
	slli	a3, a2, 3
	add	a3, a3, a6
	lw	a4, 0(a3)
	andi	a0, a4, 1
	srli	a4, a4, 2
	beqz	a0, .LBB100_19
	mv	a5, a4
	bltu	s6, a4, .LBB100_23
	mv	a5, s6
.LBB100_23:
	lw	s0, 12(a3)
	lw	s1, 8(a3)
	beq	s0, s5, .LBB100_25
	sltu	a0, s0, s5
	beqz	a0, .LBB100_26
	j	.LBB100_27
.LBB100_25:
	sltu	a0, s1, s10
	bnez	a0, .LBB100_27
.LBB100_26:
	mv	s0, s5
	mv	s1, s10
.LBB100_27:
	addi	s3, s3, 1
	add	s7, s7, a4
	mv	s6, a5
	mv	s10, s1
	mv	s5, s0
	add	a2, a2, a4
	bltu	a2, a7, .LBB100_20
.LBB100_28:
	beqz	s6, .LBB100_35
	ori	a0, s6, 16
	lui	a2, 349525
	srli	a3, a0, 1
	addi	a2, a2, 1365
	or	a0, a0, a3
	srli	a3, a0, 2
	or	a0, a0, a3
	srli	a3, a0, 4
	or	a0, a0, a3
	srli	a3, a0, 8
	or	a0, a0, a3
	srli	a3, a0, 16
	or	a0, a0, a3
	not	a0, a0
	srli	a3, a0, 1
	and	a2, a2, a3
	lui	a3, 209715
	addi	a3, a3, 819
	sub	a0, a0, a2
	and	a2, a0, a3
	srli	a0, a0, 2
	and	a0, a0, a3
	lui	a3, 61681
	add	a0, a0, a2
	srli	a2, a0, 4
	add	a0, a0, a2
	lui	a2, 4112
	addi	a3, a3, -241
	and	a0, a0, a3
	li	a3, 27
	addi	a2, a2, 257
	mul	a0, a0, a2
	srli	a0, a0, 24
	sub	a3, a3, a0
	srl	a0, s6, a3
	slli	a3, a3, 4
	add	a3, a3, a0
	srli	a2, a3, 4
	beqz	a2, .LBB100_32
	li	a3, 8
	andi	a0, a0, 15
.LBB100_31:
	sll	a3, a3, a2
	addi	a2, a2, -1
	sll	a0, a0, a2
	add	a3, a3, a0
.LBB100_32:
	mv	s0, a1
	slli	a3, a3, 3
	addi	t2, a3, -24
	beqz	s7, .LBB100_36
.LBB100_33:
	mv	s11, t2
	li	s1, 1000
	mul	a0, s6, s1
	mulhu	a1, s6, s1
	mv	a2, s7
	li	a3, 0
	call	__udivdi3
	sub	ra, s1, a0
	mv	a1, s0
	mv	t2, s11
	j	.LBB100_37
.LBB100_34:
	li	s9, 0
	li	s4, 0
	li	s8, 0
	li	s3, 0
	li	s7, 0
	li	s6, 0
	li	t2, 0
	li	ra, 0
	mv	s10, s2
	mv	s5, a4
	j	.LBB100_38
.LBB100_35:
	mv	s0, a1
	li	t2, 0
	bnez	s7, .LBB100_33
.LBB100_36:
	li	ra, 0
	mv	a1, s0
.LBB100_37:
	lw	a4, 4(sp)
.LBB100_38:
	li	a0, 0
	slli	t6, s9, 3
	sltu	a6, s2, s10
	sub	a4, a4, s5
	sub	a3, s2, s10
	srli	a5, s8, 8
	sb	s8, 0(a1)
	srli	t0, s8, 24
	srli	t5, s8, 16
	srli	s1, s9, 8
	sb	s9, 4(a1)
	srli	t4, s9, 24
	srli	s0, s9, 16
	srli	s8, s4, 24
	srli	s9, s4, 16
	srli	s10, s4, 8
	srli	s2, s3, 24
	srli	s11, s3, 16
	srli	t1, s3, 8
	srli	t3, s7, 24
	srli	s5, s7, 16
	srli	a7, s7, 8
	sub	a4, a4, a6
	srli	a2, s6, 24
	sw	a2, 4(sp)
	sb	a5, 1(a1)
	srli	a6, s6, 16
	sb	t5, 2(a1)
	srli	a2, s6, 8
	sb	t0, 3(a1)
	srli	t0, t2, 24
	sb	s1, 5(a1)
	mv	a5, t2
	srli	t2, t2, 16
	sb	s0, 6(a1)
	srli	t5, a5, 8
	sb	t4, 7(a1)
	srli	t4, ra, 24
	sub	t6, t6, s4
	sb	s4, 8(a1)
	sb	s10, 9(a1)
	sb	s9, 10(a1)
	sb	s8, 11(a1)
	srli	s1, ra, 16
	sb	s3, 12(a1)
	sb	t1, 13(a1)
	sb	s11, 14(a1)
	sb	s2, 15(a1)
	srli	s0, ra, 8
	sb	zero, 36(a1)
	sb	zero, 37(a1)
	sb	zero, 38(a1)
	sb	zero, 39(a1)
	sb	s7, 16(a1)
	sb	a7, 17(a1)
	sb	s5, 18(a1)
	sb	t3, 19(a1)
	li	a7, 1
	sb	s6, 20(a1)
	sb	a2, 21(a1)
	sb	a6, 22(a1)
	lw	a2, 4(sp)
	sb	a2, 23(a1)
	sb	a5, 24(a1)
	sb	t5, 25(a1)
	sb	t2, 26(a1)
	sb	t0, 27(a1)
	sb	ra, 28(a1)
	sb	s0, 29(a1)
	sb	s1, 30(a1)
	sb	t4, 31(a1)
	srli	a2, a3, 24
	srli	s1, a3, 16
	srli	s0, a3, 8
	srli	a6, t6, 24
	srli	t0, t6, 16
	srli	a5, t6, 8
	sb	a3, 40(a1)
	sb	s0, 41(a1)
	sb	s1, 42(a1)
	sb	a2, 43(a1)
	srli	a2, a4, 24
	srli	a3, a4, 16
	srli	s1, a4, 8
	sb	t6, 32(a1)
	sb	a5, 33(a1)
	sb	t0, 34(a1)
	sb	a6, 35(a1)
	sb	a4, 44(a1)
	sb	s1, 45(a1)
	sb	a3, 46(a1)
	sb	a2, 47(a1)
	lw	a1, 8(sp)
	sb	a7, 0(a1)
	lw	ra, 60(sp)
	lw	s0, 56(sp)
	lw	s1, 52(sp)
	lw	s2, 48(sp)
	lw	s3, 44(sp)
	lw	s4, 40(sp)
	lw	s5, 36(sp)
	lw	s6, 32(sp)
	lw	s7, 28(sp)
	lw	s8, 24(sp)
	lw	s9, 20(sp)
	lw	s10, 16(sp)
	lw	s11, 12(sp)
	.cfi_restore ra
	.cfi_restore s0
	.cfi_restore s1
	.cfi_restore s2
	.cfi_restore s3
	.cfi_restore s4
	.cfi_restore s5
	.cfi_restore s6
	.cfi_restore s7
	.cfi_restore s8
	.cfi_restore s9
	.cfi_restore s10
	.cfi_restore s11
	addi	sp, sp, 64
	.cfi_def_cfa_offset 0
.LBB100_39:
	ret
.Lfunc_end100:
	.size	tlsf_report, .Lfunc_end100-tlsf_report
	.cfi_endproc
	.section	.text.tlsf_reset,"ax",@progbits
	.globl	tlsf_reset
	.p2align	1
	.type	tlsf_reset,@function
tlsf_reset:
	.cfi_startproc
	mv	a1, a0
	lbu	a2, 8(a0)
	li	a0, 32
	beqz	a2, .LBB101_19
	addi	sp, sp, -32
	.cfi_def_cfa_offset 32
	sw	ra, 28(sp)
	sw	s0, 24(sp)
	sw	s1, 20(sp)
	sw	s2, 16(sp)
	sw	s3, 12(sp)
	sw	s4, 8(sp)
	sw	s5, 4(sp)
	.cfi_offset ra, -4
	.cfi_offset s0, -8
	.cfi_offset s1, -12
	.cfi_offset s2, -16
	.cfi_offset s3, -20
	.cfi_offset s4, -24
	.cfi_offset s5, -28
	lw	s0, 0(a1)
	lbu	a1, 0(s0)
	beqz	a1, .LBB101_18
	lbu	a0, 16(s0)
	lw	s1, 32(s0)
	lw	s4, 36(s0)
	sb	zero, 0(s0)
	beqz	a0, .LBB101_8
	and	a0, s1, s4
	li	a1, -1
	beq	a0, a1, .LBB101_13
	lw	a2, 80(s0)
	lw	a0, 84(s0)
	or	a0, a0, a2
	beqz	a0, .LBB101_6
	lw	a0, 72(s0)
	slli	a2, a2, 3
	li	a1, 0
	call	tlsf_memory_set
.LBB101_6:
	li	s5, -1
	addi	s3, s0, 104
	addi	s2, s0, 192
	lui	a2, 1
	addi	a2, a2, -1532
	li	a1, 255
	mv	a0, s2
	call	tlsf_memory_set
	li	a2, 88
	mv	a0, s3
	li	a1, 0
	call	tlsf_memory_set
	lw	a0, 56(s0)
	lw	a1, 48(s0)
	slli	a2, a0, 2
	addi	a2, a2, 3
	sw	a2, 0(a1)
	sw	s5, 4(a1)
	sw	s1, 8(a1)
	sw	s4, 12(a1)
	lw	a1, 72(s0)
	lui	a2, 349525
	lw	a3, 0(a1)
	lui	a4, 209715
	lui	a5, 61681
	addi	a2, a2, 1365
	ori	a3, a3, 1
	sw	a3, 0(a1)
	ori	a1, a0, 32
	srli	a3, a1, 1
	or	a1, a1, a3
	srli	a3, a1, 2
	or	a1, a1, a3
	srli	a3, a1, 4
	or	a1, a1, a3
	srli	a3, a1, 8
	or	a1, a1, a3
	srli	a3, a1, 16
	or	a1, a1, a3
	not	a1, a1
	srli	a3, a1, 1
	and	a2, a2, a3
	lui	a3, 4112
	addi	a4, a4, 819
	sub	a1, a1, a2
	and	a2, a1, a4
	srli	a1, a1, 2
	and	a1, a1, a4
	li	a4, 26
	addi	a5, a5, -241
	addi	a3, a3, 257
	add	a1, a1, a2
	srli	a2, a1, 4
	add	a1, a1, a2
	and	a1, a1, a5
	mul	a1, a1, a3
	srli	a1, a1, 24
	sub	a4, a4, a1
	srl	a0, a0, a4
	slli	a1, a4, 5
	add	a1, a1, a0
	slli	a2, a1, 2
	add	a2, a2, s2
	lw	a3, 0(a2)
	sw	zero, 0(a2)
	lw	a2, 48(s0)
	bgez	a3, .LBB101_12
	sw	s5, 16(a2)
	sw	s5, 20(a2)
	srli	a1, a1, 5
	li	a2, 1
	j	.LBB101_15
.LBB101_8:
	and	a0, s1, s4
	li	a1, -1
	beq	a0, a1, .LBB101_13
	lw	a2, 80(s0)
	lw	a0, 84(s0)
	or	a0, a0, a2
	beqz	a0, .LBB101_11
	lw	a0, 72(s0)
	slli	a2, a2, 3
	li	a1, 0
	call	tlsf_memory_set
.LBB101_11:
	li	s5, -1
	addi	s3, s0, 104
	addi	s2, s0, 192
	lui	a2, 1
	addi	a2, a2, -1532
	li	a1, 255
	mv	a0, s2
	call	tlsf_memory_set
	li	a2, 88
	mv	a0, s3
	li	a1, 0
	call	tlsf_memory_set
	lw	a0, 56(s0)
	lw	a1, 48(s0)
	slli	a2, a0, 2
	addi	a2, a2, 3
	sw	a2, 0(a1)
	sw	s5, 4(a1)
	sw	s1, 8(a1)
	sw	s4, 12(a1)
	lw	a1, 72(s0)
	lui	a2, 349525
	lw	a3, 0(a1)
	lui	a4, 209715
	lui	a5, 61681
	addi	a2, a2, 1365
	ori	a3, a3, 1
	sw	a3, 0(a1)
	ori	a1, a0, 16
	srli	a3, a1, 1
	or	a1, a1, a3
	srli	a3, a1, 2
	or	a1, a1, a3
	srli	a3, a1, 4
	or	a1, a1, a3
	srli	a3, a1, 8
	or	a1, a1, a3
	srli	a3, a1, 16
	or	a1, a1, a3
	not	a1, a1
	srli	a3, a1, 1
	and	a2, a2, a3
	lui	a3, 4112
	addi	a4, a4, 819
	sub	a1, a1, a2
	and	a2, a1, a4
	srli	a1, a1, 2
	and	a1, a1, a4
	li	a4, 27
	addi	a5, a5, -241
	addi	a3, a3, 257
	add	a1, a1, a2
	srli	a2, a1, 4
	add	a1, a1, a2
	and	a1, a1, a5
	mul	a1, a1, a3
	srli	a1, a1, 24
	sub	a4, a4, a1
	srl	a0, a0, a4
	slli	a1, a4, 4
	add	a1, a1, a0
	slli	a2, a1, 2
	add	a2, a2, s2
	lw	a3, 0(a2)
	sw	zero, 0(a2)
	lw	a2, 48(s0)
	bltz	a3, .LBB101_14
.LBB101_12:
	sw	a3, 16(a2)
	sw	s5, 20(a2)
	slli	a3, a3, 3
	add	a2, a2, a3
	sw	zero, 20(a2)
	j	.LBB101_16
.LBB101_13:
	li	a0, 2
	j	.LBB101_17
.LBB101_14:
	sw	s5, 16(a2)
	sw	s5, 20(a2)
	srli	a1, a1, 4
	li	a2, 1
	andi	a0, a0, 15
.LBB101_15:
	slli	a3, a1, 2
	add	a3, a3, s0
	lw	a4, 104(s0)
	lw	a5, 108(a3)
	sll	a1, a2, a1
	sll	a0, a2, a0
	or	a1, a1, a4
	or	a0, a0, a5
	sw	a1, 104(s0)
	sw	a0, 108(a3)
.LBB101_16:
	li	a0, 0
	lw	a1, 32(s0)
	lw	a2, 36(s0)
	addi	a1, a1, 1
	seqz	a3, a1
	add	a2, a2, a3
	sw	a1, 32(s0)
	sw	a2, 36(s0)
	sw	zero, 40(s0)
.LBB101_17:
	li	a1, 1
	sb	a1, 0(s0)
.LBB101_18:
	lw	ra, 28(sp)
	lw	s0, 24(sp)
	lw	s1, 20(sp)
	lw	s2, 16(sp)
	lw	s3, 12(sp)
	lw	s4, 8(sp)
	lw	s5, 4(sp)
	.cfi_restore ra
	.cfi_restore s0
	.cfi_restore s1
	.cfi_restore s2
	.cfi_restore s3
	.cfi_restore s4
	.cfi_restore s5
	addi	sp, sp, 32
	.cfi_def_cfa_offset 0
.LBB101_19:
	ret
.Lfunc_end101:
	.size	tlsf_reset, .Lfunc_end101-tlsf_reset
	.cfi_endproc
	.section	.text.tlsf_resize,"ax",@progbits
	.globl	tlsf_resize
	.p2align	1
	.type	tlsf_resize,@function
tlsf_resize:
	.cfi_startproc
	addi	sp, sp, -80
	.cfi_def_cfa_offset 80
	sw	ra, 76(sp)
	sw	s0, 72(sp)
	sw	s1, 68(sp)
	sw	s2, 64(sp)
	sw	s3, 60(sp)
	sw	s4, 56(sp)
	sw	s5, 52(sp)
	sw	s6, 48(sp)
	sw	s7, 44(sp)
	sw	s8, 40(sp)
	sw	s9, 36(sp)
	sw	s10, 32(sp)
	sw	s11, 28(sp)
	.cfi_offset ra, -4
	.cfi_offset s0, -8
	.cfi_offset s1, -12
	.cfi_offset s2, -16
	.cfi_offset s3, -20
	.cfi_offset s4, -24
	.cfi_offset s5, -28
	.cfi_offset s6, -32
	.cfi_offset s7, -36
	.cfi_offset s8, -40
	.cfi_offset s9, -44
	.cfi_offset s10, -48
	.cfi_offset s11, -52
	.cfi_remember_state
	mv	s4, a0
	lbu	a0, 8(a0)
	beqz	a0, .LBB102_45
	lw	s1, 0(s4)
	lbu	a0, 0(s1)
	beqz	a0, .LBB102_45
	lw	a0, 0(a1)
	lw	s8, 4(a1)
	lw	a6, 8(a1)
	lw	a4, 12(a1)
	sb	zero, 0(s1)
	seqz	a1, a2
	add	a1, a1, a2
	sltu	a5, a1, a2
	addi	s0, a1, 31
	sltu	a1, s0, a1
	add	a5, a5, a1
	lbu	a3, 16(s1)
	lw	a1, 24(s1)
	slli	a5, a5, 29
	srli	s0, s0, 3
	or	s2, s0, a5
	beqz	a3, .LBB102_7
	bne	a1, a0, .LBB102_34
	lw	a3, 56(s1)
	mv	a1, a0
	bgeu	s8, a3, .LBB102_34
	lw	s0, 72(s1)
	srli	a1, s8, 3
	andi	a1, a1, -8
	add	s0, s0, a1
	lw	a1, 4(s0)
	andi	a5, s8, 63
	addi	a3, a5, -32
	bltz	a3, .LBB102_11
	srl	a1, a1, a5
	andi	a3, a1, 1
	mv	a1, a0
	bnez	a3, .LBB102_12
	j	.LBB102_34
.LBB102_7:
	bne	a1, a0, .LBB102_34
	lw	a3, 56(s1)
	mv	a1, a0
	bgeu	s8, a3, .LBB102_34
	lw	s0, 72(s1)
	srli	a1, s8, 3
	andi	a1, a1, -8
	add	s0, s0, a1
	lw	a1, 4(s0)
	andi	a5, s8, 63
	addi	a3, a5, -32
	bltz	a3, .LBB102_26
	srl	a1, a1, a5
	j	.LBB102_27
.LBB102_11:
	lw	a3, 0(s0)
	slli	a1, a1, 1
	not	a5, a5
	srl	a3, a3, s8
	sll	a1, a1, a5
	or	a1, a1, a3
	andi	a3, a1, 1
	mv	a1, a0
	beqz	a3, .LBB102_34
.LBB102_12:
	addi	t0, s1, 48
	lw	s0, 0(t0)
	slli	s10, s8, 3
	add	a5, s0, s10
	lw	s5, 0(a5)
	andi	a3, s5, 1
	mv	a1, a0
	bnez	a3, .LBB102_34
	lw	a1, 12(a5)
	lw	a3, 8(a5)
	xor	a1, a1, a4
	xor	a3, a3, a6
	or	a3, a3, a1
	mv	a1, a0
	bnez	a3, .LBB102_34
	lw	a3, 4(a5)
	srli	s9, s5, 2
	bgeu	s9, s2, .LBB102_18
	andi	a0, s5, 2
	bnez	a0, .LBB102_17
	add	a0, s9, s8
	slli	a0, a0, 3
	add	s0, s0, a0
	lw	a4, 0(s0)
	andi	a0, a4, 1
	bnez	a0, .LBB102_46
.LBB102_17:
	li	a4, 0
	li	a5, 0
	bgeu	s9, s2, .LBB102_47
	j	.LBB102_50
.LBB102_18:
	lw	s6, 32(s1)
	lw	s7, 36(s1)
	and	a0, s6, s7
	li	a1, -1
	beq	a0, a1, .LBB102_63
	lw	s11, 16(a5)
	sw	a2, 16(a5)
	sw	zero, 20(a5)
	bgeu	s11, a2, .LBB102_24
	sw	a3, 12(sp)
	andi	s3, s11, 7
	beqz	s3, .LBB102_22
	lw	a0, 0(t0)
	add	s10, s10, s11
	lui	a1, %hi(.Lstatic.0)
	addi	a1, a1, %lo(.Lstatic.0)
	li	a3, 8
	addi	a4, sp, 16
	addi	s10, s10, 24
	andi	a5, s10, -8
	add	s0, a0, a5
	lw	a0, 0(s0)
	lw	a5, 4(s0)
	add	a1, a1, s3
	sub	a3, a3, s3
	sw	a0, 16(sp)
	sw	a5, 20(sp)
	or	a0, a4, s3
	mv	s10, a2
	mv	a2, a3
	call	tlsf_memory_cpy
	addi	t0, s1, 48
	mv	a2, s10
	lw	a0, 16(sp)
	lw	a1, 20(sp)
	sw	a0, 0(s0)
	sw	a1, 4(s0)
.LBB102_22:
	srli	a0, s11, 3
	snez	a1, s3
	add	a0, a0, a1
	srli	a1, a2, 3
	andi	a2, a2, 7
	snez	a2, a2
	add	a1, a1, a2
	lw	a3, 12(sp)
	beq	a1, a0, .LBB102_24
	lw	a2, 0(t0)
	sub	a1, a1, a0
	add	a0, a0, s8
	slli	a0, a0, 3
	add	a0, a0, a2
	addi	a0, a0, 24
	slli	a2, a1, 3
	li	a1, 0
	mv	s3, t0
	mv	s0, a3
	call	tlsf_memory_set
	mv	a3, s0
	mv	t0, s3
.LBB102_24:
	addi	a1, s2, 4
	mv	a0, s9
	bltu	s9, a1, .LBB102_44
	mv	a0, t0
	mv	a1, s8
	mv	a2, s5
	mv	a4, s2
	mv	a5, s6
	mv	a6, s7
	call	tlsf_heap.refitting.split_off.5
	j	.LBB102_43
.LBB102_26:
	lw	a3, 0(s0)
	slli	a1, a1, 1
	not	a5, a5
	srl	a3, a3, s8
	sll	a1, a1, a5
	or	a1, a1, a3
.LBB102_27:
	andi	a3, a1, 1
	mv	a1, a0
	beqz	a3, .LBB102_34
	addi	t0, s1, 48
	lw	s0, 0(t0)
	slli	s10, s8, 3
	add	a5, s0, s10
	lw	s5, 0(a5)
	andi	a3, s5, 1
	mv	a1, a0
	bnez	a3, .LBB102_34
	lw	a1, 12(a5)
	lw	a3, 8(a5)
	xor	a1, a1, a4
	xor	a3, a3, a6
	or	a3, a3, a1
	mv	a1, a0
	bnez	a3, .LBB102_34
	lw	a3, 4(a5)
	srli	s9, s5, 2
	bgeu	s9, s2, .LBB102_35
	andi	a0, s5, 2
	bnez	a0, .LBB102_33
	add	a0, s9, s8
	slli	a0, a0, 3
	add	s0, s0, a0
	lw	a4, 0(s0)
	andi	a0, a4, 1
	bnez	a0, .LBB102_49
.LBB102_33:
	li	a4, 0
	li	a5, 0
	bltu	s9, s2, .LBB102_50
	j	.LBB102_51
.LBB102_34:
	call	tlsf_heap.refusal.Refusal.of_name
	zext.b	a0, a0
	li	a1, 1
	sb	a1, 0(s1)
	addi	a0, a0, -3
	seqz	a0, a0
	addi	a0, a0, 3
	j	.LBB102_65
.LBB102_35:
	lw	s6, 32(s1)
	lw	s7, 36(s1)
	and	a0, s6, s7
	li	a1, -1
	beq	a0, a1, .LBB102_63
	lw	s11, 16(a5)
	sw	a2, 16(a5)
	sw	zero, 20(a5)
	bgeu	s11, a2, .LBB102_41
	sw	a3, 12(sp)
	andi	s3, s11, 7
	beqz	s3, .LBB102_39
	lw	a0, 0(t0)
	add	s10, s10, s11
	lui	a1, %hi(.Lstatic.0)
	addi	a1, a1, %lo(.Lstatic.0)
	li	a3, 8
	addi	a4, sp, 16
	addi	s10, s10, 24
	andi	a5, s10, -8
	add	s0, a0, a5
	lw	a0, 0(s0)
	lw	a5, 4(s0)
	add	a1, a1, s3
	sub	a3, a3, s3
	sw	a0, 16(sp)
	sw	a5, 20(sp)
	or	a0, a4, s3
	mv	s10, a2
	mv	a2, a3
	call	tlsf_memory_cpy
	addi	t0, s1, 48
	mv	a2, s10
	lw	a0, 16(sp)
	lw	a1, 20(sp)
	sw	a0, 0(s0)
	sw	a1, 4(s0)
.LBB102_39:
	srli	a0, s11, 3
	snez	a1, s3
	add	a0, a0, a1
	srli	a1, a2, 3
	andi	a2, a2, 7
	snez	a2, a2
	add	a1, a1, a2
	lw	a3, 12(sp)
	beq	a1, a0, .LBB102_41
	lw	a2, 0(t0)
	sub	a1, a1, a0
	add	a0, a0, s8
	slli	a0, a0, 3
	add	a0, a0, a2
	addi	a0, a0, 24
	slli	a2, a1, 3
	li	a1, 0
	mv	s3, t0
	mv	s0, a3
	call	tlsf_memory_set
	mv	a3, s0
	mv	t0, s3
.LBB102_41:
	addi	a1, s2, 4
	mv	a0, s9
	bltu	s9, a1, .LBB102_44
	mv	a0, t0
	mv	a1, s8
	mv	a2, s5
	mv	a4, s2
	mv	a5, s6
	mv	a6, s7
	call	tlsf_heap.refitting.split_off.4
.LBB102_43:
	mv	a0, s2
.LBB102_44:
	lw	a1, 40(s1)
	lw	a2, 32(s1)
	lw	a3, 36(s1)
	sub	a0, a0, s9
	add	a0, a0, a1
	addi	a2, a2, 1
	seqz	a1, a2
	add	a1, a1, a3
	sw	a2, 32(s1)
	sw	a1, 36(s1)
	sw	a0, 40(s1)
	li	a0, 1
	andi	a1, s2, 1
	sb	a0, 0(s1)
	bnez	a1, .LBB102_61
	j	.LBB102_62
.LBB102_45:
	li	a0, 0
	lw	ra, 76(sp)
	lw	s0, 72(sp)
	lw	s1, 68(sp)
	lw	s2, 64(sp)
	lw	s3, 60(sp)
	lw	s4, 56(sp)
	lw	s5, 52(sp)
	lw	s6, 48(sp)
	lw	s7, 44(sp)
	lw	s8, 40(sp)
	lw	s9, 36(sp)
	lw	s10, 32(sp)
	lw	s11, 28(sp)
	.cfi_restore ra
	.cfi_restore s0
	.cfi_restore s1
	.cfi_restore s2
	.cfi_restore s3
	.cfi_restore s4
	.cfi_restore s5
	.cfi_restore s6
	.cfi_restore s7
	.cfi_restore s8
	.cfi_restore s9
	.cfi_restore s10
	.cfi_restore s11
	addi	sp, sp, 80
	.cfi_def_cfa_offset 0
	tail	tlsf_c.call_fault.CallFault.refusal
.LBB102_46:
	.cfi_restore_state
	lw	a5, 4(s0)
	srli	a0, a4, 2
	add	a0, a0, s9
	bltu	a0, s2, .LBB102_50
.LBB102_47:
	lw	a7, 32(s1)
	lw	t3, 36(s1)
	and	a0, a7, t3
	li	a1, -1
	beq	a0, a1, .LBB102_63
	mv	a0, t0
	mv	a1, s8
	mv	s6, a2
	mv	a2, s5
	mv	a6, s2
	mv	s11, t0
	call	tlsf_heap.refitting.recut.5
	j	.LBB102_53
.LBB102_49:
	lw	a5, 4(s0)
	srli	a0, a4, 2
	add	a0, a0, s9
	bgeu	a0, s2, .LBB102_51
.LBB102_50:
	li	a0, 1
	sb	a0, 0(s1)
	li	a0, 10
	j	.LBB102_65
.LBB102_51:
	lw	a7, 32(s1)
	lw	t3, 36(s1)
	and	a0, a7, t3
	li	a1, -1
	beq	a0, a1, .LBB102_63
	mv	a0, t0
	mv	a1, s8
	mv	s6, a2
	mv	a2, s5
	mv	a6, s2
	mv	s11, t0
	call	tlsf_heap.refitting.recut.4
.LBB102_53:
	mv	s5, a0
	lw	a0, 0(s11)
	add	a0, a0, s10
	lw	s0, 16(a0)
	sw	s6, 16(a0)
	sw	zero, 20(a0)
	bgeu	s0, s6, .LBB102_58
	mv	a3, s11
	mv	a1, s6
	andi	s3, s0, 7
	beqz	s3, .LBB102_56
	lw	a0, 0(a3)
	add	s10, s10, s0
	lui	a1, %hi(.Lstatic.0)
	addi	a1, a1, %lo(.Lstatic.0)
	li	a2, 8
	addi	a3, sp, 16
	addi	s10, s10, 24
	andi	a4, s10, -8
	add	s7, a0, a4
	lw	a0, 0(s7)
	lw	a4, 4(s7)
	add	a1, a1, s3
	sub	a2, a2, s3
	sw	a0, 16(sp)
	sw	a4, 20(sp)
	or	a0, a3, s3
	call	tlsf_memory_cpy
	mv	a3, s11
	mv	a1, s6
	lw	a0, 16(sp)
	lw	a2, 20(sp)
	sw	a0, 0(s7)
	sw	a2, 4(s7)
.LBB102_56:
	srli	a0, s0, 3
	snez	a2, s3
	add	a0, a0, a2
	srli	a2, a1, 3
	andi	a1, a1, 7
	snez	a1, a1
	add	a1, a1, a2
	beq	a1, a0, .LBB102_58
	lw	a2, 0(a3)
	sub	a1, a1, a0
	add	a0, a0, s8
	slli	a0, a0, 3
	add	a0, a0, a2
	addi	a0, a0, 24
	slli	a2, a1, 3
	li	a1, 0
	call	tlsf_memory_set
.LBB102_58:
	lw	a0, 40(s1)
	lw	a1, 44(s1)
	sub	a2, s5, s9
	add	a0, a0, a2
	sw	a0, 40(s1)
	bgeu	a1, a0, .LBB102_60
	sw	a0, 44(s1)
.LBB102_60:
	lw	a0, 32(s1)
	lw	a1, 36(s1)
	addi	a0, a0, 1
	seqz	a2, a0
	add	a1, a1, a2
	sw	a0, 32(s1)
	sw	a1, 36(s1)
	li	a0, 1
	andi	a1, s2, 1
	sb	a0, 0(s1)
	beqz	a1, .LBB102_62
.LBB102_61:
	lbu	a0, 28(s4)
	beqz	a0, .LBB102_64
.LBB102_62:
	li	a0, 0
	j	.LBB102_65
.LBB102_63:
	li	a0, 1
	sb	a0, 0(s1)
	li	a0, 2
	j	.LBB102_65
.LBB102_64:
	li	a1, 1
	sb	a1, 28(s4)
.LBB102_65:
	lw	ra, 76(sp)
	lw	s0, 72(sp)
	lw	s1, 68(sp)
	lw	s2, 64(sp)
	lw	s3, 60(sp)
	lw	s4, 56(sp)
	lw	s5, 52(sp)
	lw	s6, 48(sp)
	lw	s7, 44(sp)
	lw	s8, 40(sp)
	lw	s9, 36(sp)
	lw	s10, 32(sp)
	lw	s11, 28(sp)
	.cfi_restore ra
	.cfi_restore s0
	.cfi_restore s1
	.cfi_restore s2
	.cfi_restore s3
	.cfi_restore s4
	.cfi_restore s5
	.cfi_restore s6
	.cfi_restore s7
	.cfi_restore s8
	.cfi_restore s9
	.cfi_restore s10
	.cfi_restore s11
	addi	sp, sp, 80
	.cfi_def_cfa_offset 0
	ret
.Lfunc_end102:
	.size	tlsf_resize, .Lfunc_end102-tlsf_resize
	.cfi_endproc
	.section	.rodata.cst32,"aM",@progbits,32
.LCPI103_0:
	.ascii	"\000\001\034\002\035\016\030\003\036\026\024\017\031\021\004\b\037\033\r\027\025\023\020\007\032\f\022\006\013\005\n\t"
	.section	.text.tlsf_resize_place,"ax",@progbits
	.globl	tlsf_resize_place
	.p2align	1
	.type	tlsf_resize_place,@function
tlsf_resize_place:
	.cfi_startproc
	addi	sp, sp, -80
	.cfi_def_cfa_offset 80
	sw	ra, 76(sp)
	sw	s0, 72(sp)
	sw	s1, 68(sp)
	sw	s2, 64(sp)
	sw	s3, 60(sp)
	sw	s4, 56(sp)
	sw	s5, 52(sp)
	sw	s6, 48(sp)
	sw	s7, 44(sp)
	sw	s8, 40(sp)
	sw	s9, 36(sp)
	.cfi_offset ra, -4
	.cfi_offset s0, -8
	.cfi_offset s1, -12
	.cfi_offset s2, -16
	.cfi_offset s3, -20
	.cfi_offset s4, -24
	.cfi_offset s5, -28
	.cfi_offset s6, -32
	.cfi_offset s7, -36
	.cfi_offset s8, -40
	.cfi_offset s9, -44
	.cfi_remember_state
	lbu	a4, 8(a0)
	beqz	a4, .LBB103_21
	lw	s1, 0(a0)
	lbu	a0, 0(s1)
	beqz	a0, .LBB103_21
	lbu	a4, 16(s1)
	lw	a0, 56(s1)
	sb	zero, 0(s1)
	addi	s2, s1, 24
	addi	s5, s1, 48
	beqz	a4, .LBB103_6
	bgeu	a1, a0, .LBB103_30
	lw	a5, 72(s1)
	srli	a0, a1, 3
	andi	a0, a0, -8
	add	a5, a5, a0
	lw	a0, 4(a5)
	andi	s0, a1, 63
	addi	a4, s0, -32
	bltz	a4, .LBB103_9
	srl	a0, a0, s0
	andi	a0, a0, 1
	bnez	a0, .LBB103_10
	j	.LBB103_30
.LBB103_6:
	bgeu	a1, a0, .LBB103_30
	lw	a5, 72(s1)
	srli	a0, a1, 3
	andi	a0, a0, -8
	add	a5, a5, a0
	lw	a0, 4(a5)
	andi	s0, a1, 63
	addi	a4, s0, -32
	bltz	a4, .LBB103_22
	srl	a0, a0, s0
	andi	a0, a0, 1
	bnez	a0, .LBB103_23
	j	.LBB103_30
.LBB103_9:
	lw	a4, 0(a5)
	slli	a0, a0, 1
	not	a5, s0
	srl	a4, a4, a1
	sll	a0, a0, a5
	or	a0, a0, a4
	andi	a0, a0, 1
	beqz	a0, .LBB103_30
.LBB103_10:
	lw	t1, 0(s5)
	slli	s4, a1, 3
	add	a0, t1, s4
	lw	t2, 0(a0)
	andi	a4, t2, 1
	bnez	a4, .LBB103_30
	lw	a4, 16(a0)
	mv	s7, a2
	bltu	a2, a4, .LBB103_13
	mv	s7, a4
.LBB103_13:
	lw	t0, 4(a0)
	seqz	a4, a2
	add	a4, a4, a2
	sltu	a5, a4, a2
	addi	s0, a4, 31
	sltu	a4, s0, a4
	srli	s0, s0, 3
	add	a4, a4, a5
	slli	a4, a4, 29
	or	s3, s0, a4
	srli	s6, t2, 2
	bgeu	s6, s3, .LBB103_32
	andi	a4, t2, 2
	bnez	a4, .LBB103_16
	add	a4, s6, a1
	slli	a4, a4, 3
	add	a5, t1, a4
	lw	a4, 0(a5)
	andi	s0, a4, 1
	bnez	s0, .LBB103_40
.LBB103_16:
	li	a4, 0
	li	a5, 0
	bgeu	s6, s3, .LBB103_41
.LBB103_17:
	lw	t3, 36(s1)
	lw	t4, 32(s1)
	lw	a4, 0(s2)
	sltiu	a5, t3, -1
	sltiu	s0, t4, -2
	or	a5, a5, s0
	lw	s0, 8(a0)
	lw	a0, 12(a0)
	sw	a4, 0(sp)
	sw	a1, 4(sp)
	sw	s0, 8(sp)
	sw	a0, 12(sp)
	beqz	a5, .LBB103_57
	lui	a0, 4096
	bltu	a0, s3, .LBB103_47
	ori	s0, s3, 32
	lui	a4, 349525
	lui	a5, 209715
	lui	a6, 61681
	srli	a0, s0, 1
	addi	a4, a4, 1365
	or	s0, s0, a0
	srli	a0, s0, 2
	or	s0, s0, a0
	srli	a0, s0, 4
	or	s0, s0, a0
	srli	a0, s0, 8
	or	s0, s0, a0
	srli	a0, s0, 16
	or	a0, a0, s0
	not	s0, a0
	srli	a0, s0, 1
	and	a0, a0, a4
	lui	a7, 4112
	addi	a5, a5, 819
	sub	s0, s0, a0
	and	a0, s0, a5
	srli	s0, s0, 2
	and	a5, a5, s0
	li	t0, 26
	add	a0, a0, a5
	srli	a5, a0, 4
	add	a0, a0, a5
	addi	a5, s3, -1
	addi	a4, a6, -241
	addi	s0, a7, 257
	and	a0, a0, a4
	mul	a0, a0, s0
	srli	a0, a0, 24
	sub	a0, t0, a0
	srl	a5, a5, a0
	slli	a0, a0, 5
	add	a0, a0, a5
	addi	a4, a0, 1
	seqz	a6, a4
	srli	a4, a0, 5
	slli	s0, a6, 27
	sub	s0, a4, s0
	slli	a4, s0, 2
	add	a4, a4, s1
	lw	a4, 108(a4)
	srl	a5, a4, a5
	andi	a5, a5, -2
	beqz	a5, .LBB103_60
	neg	a4, a5
	and	a4, a4, a5
	lui	a5, 30667
	addi	a5, a5, 1329
	mul	a4, a4, a5
	lui	a5, %hi(.LCPI103_0)
	addi	a5, a5, %lo(.LCPI103_0)
	srli	a4, a4, 27
	add	a4, a4, a5
	lbu	s0, 0(a4)
	neg	a4, a6
	add	s0, s0, a0
	sltu	a0, s0, a0
	add	a0, a0, a4
	srli	a4, s0, 5
	slli	a0, a0, 27
	or	a7, a4, a0
	j	.LBB103_68
.LBB103_21:
	li	a0, 0
	lw	ra, 76(sp)
	lw	s0, 72(sp)
	lw	s1, 68(sp)
	lw	s2, 64(sp)
	lw	s3, 60(sp)
	lw	s4, 56(sp)
	lw	s5, 52(sp)
	lw	s6, 48(sp)
	lw	s7, 44(sp)
	lw	s8, 40(sp)
	lw	s9, 36(sp)
	.cfi_restore ra
	.cfi_restore s0
	.cfi_restore s1
	.cfi_restore s2
	.cfi_restore s3
	.cfi_restore s4
	.cfi_restore s5
	.cfi_restore s6
	.cfi_restore s7
	.cfi_restore s8
	.cfi_restore s9
	addi	sp, sp, 80
	.cfi_def_cfa_offset 0
	tail	tlsf_c.call_fault.CallFault.refusal
.LBB103_22:
	.cfi_restore_state
	.cfi_remember_state
	lw	a4, 0(a5)
	slli	a0, a0, 1
	not	a5, s0
	srl	a4, a4, a1
	sll	a0, a0, a5
	or	a0, a0, a4
	andi	a0, a0, 1
	beqz	a0, .LBB103_30
.LBB103_23:
	lw	t1, 0(s5)
	slli	s4, a1, 3
	add	a0, t1, s4
	lw	t2, 0(a0)
	andi	a4, t2, 1
	bnez	a4, .LBB103_30
	lw	a4, 16(a0)
	mv	s7, a2
	bltu	a2, a4, .LBB103_26
	mv	s7, a4
.LBB103_26:
	lw	t0, 4(a0)
	seqz	a4, a2
	add	a4, a4, a2
	sltu	a5, a4, a2
	addi	s0, a4, 31
	sltu	a4, s0, a4
	srli	s0, s0, 3
	add	a4, a4, a5
	slli	a4, a4, 29
	or	s3, s0, a4
	srli	s6, t2, 2
	bgeu	s6, s3, .LBB103_35
	andi	a4, t2, 2
	bnez	a4, .LBB103_29
	add	a4, s6, a1
	slli	a4, a4, 3
	add	a5, t1, a4
	lw	a4, 0(a5)
	andi	s0, a4, 1
	bnez	s0, .LBB103_43
.LBB103_29:
	li	a4, 0
	li	a5, 0
	j	.LBB103_44
.LBB103_30:
	li	a0, 1
	sb	a0, 0(s1)
	li	a0, 4
.LBB103_31:
	lw	ra, 76(sp)
	lw	s0, 72(sp)
	lw	s1, 68(sp)
	lw	s2, 64(sp)
	lw	s3, 60(sp)
	lw	s4, 56(sp)
	lw	s5, 52(sp)
	lw	s6, 48(sp)
	lw	s7, 44(sp)
	lw	s8, 40(sp)
	lw	s9, 36(sp)
	.cfi_restore ra
	.cfi_restore s0
	.cfi_restore s1
	.cfi_restore s2
	.cfi_restore s3
	.cfi_restore s4
	.cfi_restore s5
	.cfi_restore s6
	.cfi_restore s7
	.cfi_restore s8
	.cfi_restore s9
	addi	sp, sp, 80
	.cfi_def_cfa_offset 0
	ret
.LBB103_32:
	.cfi_restore_state
	lw	a5, 32(s1)
	lw	a6, 36(s1)
	and	a4, a5, a6
	li	s0, -1
	beq	a4, s0, .LBB103_57
	addi	a4, s3, 4
	sw	s7, 16(a0)
	sw	zero, 20(a0)
	mv	a0, s6
	bltu	s6, a4, .LBB103_39
	mv	a0, s5
	mv	s2, a1
	mv	s7, a2
	mv	a2, t2
	mv	s0, a3
	mv	a3, t0
	mv	a4, s3
	call	tlsf_heap.refitting.split_off.5
	j	.LBB103_38
.LBB103_35:
	lw	a5, 32(s1)
	lw	a6, 36(s1)
	and	a4, a5, a6
	li	s0, -1
	beq	a4, s0, .LBB103_57
	addi	a4, s3, 4
	sw	s7, 16(a0)
	sw	zero, 20(a0)
	mv	a0, s6
	bltu	s6, a4, .LBB103_39
	mv	a0, s5
	mv	s2, a1
	mv	s7, a2
	mv	a2, t2
	mv	s0, a3
	mv	a3, t0
	mv	a4, s3
	call	tlsf_heap.refitting.split_off.4
.LBB103_38:
	mv	a2, s7
	mv	a1, s2
	mv	a3, s0
	mv	a0, s3
.LBB103_39:
	lw	a4, 40(s1)
	lw	a5, 32(s1)
	lw	s0, 36(s1)
	sub	a0, a0, s6
	add	a0, a0, a4
	addi	a5, a5, 1
	seqz	a4, a5
	add	a4, a4, s0
	sw	a5, 32(s1)
	sw	a4, 36(s1)
	sw	a0, 40(s1)
	j	.LBB103_55
.LBB103_40:
	lw	a5, 4(a5)
	srli	s0, a4, 2
	add	s0, s0, s6
	bltu	s0, s3, .LBB103_17
.LBB103_41:
	lw	a7, 32(s1)
	lw	t3, 36(s1)
	and	a0, a7, t3
	li	s0, -1
	beq	a0, s0, .LBB103_57
	mv	s2, a2
	mv	s8, a3
	mv	a0, s5
	mv	s9, a1
	mv	a2, t2
	mv	a3, t0
	mv	a6, s3
	call	tlsf_heap.refitting.recut.5
	j	.LBB103_52
.LBB103_43:
	lw	a5, 4(a5)
.LBB103_44:
	srli	s0, a4, 2
	add	s0, s0, s6
	bgeu	s0, s3, .LBB103_50
	lw	t3, 36(s1)
	lw	t4, 32(s1)
	lw	a4, 0(s2)
	sltiu	a5, t3, -1
	sltiu	s0, t4, -2
	or	a5, a5, s0
	lw	s0, 8(a0)
	lw	a0, 12(a0)
	sw	a4, 0(sp)
	sw	a1, 4(sp)
	sw	s0, 8(sp)
	sw	a0, 12(sp)
	beqz	a5, .LBB103_57
	lui	a0, 256
	bgeu	a0, s3, .LBB103_58
.LBB103_47:
	lw	a1, 8(s1)
	lw	a0, 12(s1)
	addi	a1, a1, 1
	snez	a3, a1
	addi	a3, a3, -1
	or	a1, a1, a3
	sw	a1, 8(s1)
	bltu	a0, a2, .LBB103_49
	mv	a2, a0
.LBB103_49:
	li	a0, 1
	sb	a0, 0(s1)
	sw	a2, 12(s1)
	j	.LBB103_31
.LBB103_50:
	lw	a7, 32(s1)
	lw	t3, 36(s1)
	and	a0, a7, t3
	li	s0, -1
	beq	a0, s0, .LBB103_57
	mv	s2, a2
	mv	s8, a3
	mv	a0, s5
	mv	s9, a1
	mv	a2, t2
	mv	a3, t0
	mv	a6, s3
	call	tlsf_heap.refitting.recut.4
.LBB103_52:
	lw	a1, 48(s1)
	add	a1, a1, s4
	sw	s7, 16(a1)
	sw	zero, 20(a1)
	lw	a1, 40(s1)
	lw	a2, 44(s1)
	sub	a1, a1, s6
	add	a0, a0, a1
	sw	a0, 40(s1)
	bgeu	a2, a0, .LBB103_54
	sw	a0, 44(s1)
.LBB103_54:
	lw	a0, 32(s1)
	lw	a1, 36(s1)
	addi	a0, a0, 1
	seqz	a2, a0
	add	a1, a1, a2
	sw	a0, 32(s1)
	sw	a1, 36(s1)
	mv	a3, s8
	mv	a1, s9
	mv	a2, s2
.LBB103_55:
	lw	a0, 0(s5)
	add	a0, a0, s4
	sw	a2, 16(a0)
	sw	zero, 20(a0)
.LBB103_56:
	li	a0, 0
	li	a2, 1
	sb	a2, 0(s1)
	sw	a1, 0(a3)
	j	.LBB103_31
.LBB103_57:
	li	a0, 1
	sb	a0, 0(s1)
	li	a0, 2
	j	.LBB103_31
.LBB103_58:
	ori	s0, s3, 16
	lui	a4, 349525
	lui	a5, 209715
	lui	a6, 61681
	srli	a0, s0, 1
	addi	a4, a4, 1365
	or	s0, s0, a0
	srli	a0, s0, 2
	or	s0, s0, a0
	srli	a0, s0, 4
	or	s0, s0, a0
	srli	a0, s0, 8
	or	s0, s0, a0
	srli	a0, s0, 16
	or	a0, a0, s0
	not	s0, a0
	srli	a0, s0, 1
	and	a0, a0, a4
	lui	a7, 4112
	addi	a5, a5, 819
	sub	s0, s0, a0
	and	a0, s0, a5
	srli	s0, s0, 2
	and	a5, a5, s0
	li	t0, 27
	add	a0, a0, a5
	srli	a5, a0, 4
	add	a0, a0, a5
	addi	a5, s3, -1
	addi	a4, a6, -241
	addi	s0, a7, 257
	and	a0, a0, a4
	mul	a0, a0, s0
	srli	a0, a0, 24
	sub	a0, t0, a0
	srl	a5, a5, a0
	slli	a0, a0, 4
	add	a0, a0, a5
	addi	a4, a0, 1
	seqz	a6, a4
	srli	a4, a0, 4
	slli	s0, a6, 28
	sub	s0, a4, s0
	slli	a4, s0, 2
	add	a4, a4, s1
	lw	a4, 108(a4)
	andi	a5, a5, 15
	srl	a5, a4, a5
	andi	a5, a5, -2
	beqz	a5, .LBB103_63
	neg	a4, a5
	and	a4, a4, a5
	lui	a5, 30667
	addi	a5, a5, 1329
	mul	a4, a4, a5
	lui	a5, %hi(.LCPI103_0)
	addi	a5, a5, %lo(.LCPI103_0)
	srli	a4, a4, 27
	add	a4, a4, a5
	lbu	s0, 0(a4)
	neg	a4, a6
	add	s0, s0, a0
	sltu	a0, s0, a0
	add	a0, a0, a4
	srli	a4, s0, 4
	slli	a0, a0, 28
	or	a7, a4, a0
	j	.LBB103_89
.LBB103_60:
	lw	a0, 104(s1)
	li	a4, -2
	sll	a4, a4, s0
	and	a0, a0, a4
	beqz	a0, .LBB103_47
	neg	a4, a0
	lui	a5, 30667
	and	a0, a0, a4
	addi	a4, a5, 1329
	mul	a0, a0, a4
	srli	a0, a0, 27
	lui	a6, %hi(.LCPI103_0)
	addi	a6, a6, %lo(.LCPI103_0)
	add	a0, a0, a6
	lbu	a0, 0(a0)
	slli	a5, a0, 2
	add	a5, a5, s1
	lw	a5, 108(a5)
	beqz	a5, .LBB103_66
	neg	s0, a5
	and	a5, a5, s0
	mul	a4, a5, a4
	srli	a4, a4, 27
	add	a4, a4, a6
	lbu	s0, 0(a4)
	j	.LBB103_67
.LBB103_63:
	lw	a0, 104(s1)
	li	a4, -2
	sll	a4, a4, s0
	and	a0, a0, a4
	beqz	a0, .LBB103_47
	neg	a4, a0
	lui	a5, 30667
	and	a0, a0, a4
	addi	a4, a5, 1329
	mul	a0, a0, a4
	srli	a0, a0, 27
	lui	a6, %hi(.LCPI103_0)
	addi	a6, a6, %lo(.LCPI103_0)
	add	a0, a0, a6
	lbu	a0, 0(a0)
	slli	a5, a0, 2
	add	a5, a5, s1
	lw	a5, 108(a5)
	beqz	a5, .LBB103_87
	neg	s0, a5
	and	a5, a5, s0
	mul	a4, a5, a4
	srli	a4, a4, 27
	add	a4, a4, a6
	lbu	s0, 0(a4)
	j	.LBB103_88
.LBB103_66:
	li	s0, 32
.LBB103_67:
	slli	a0, a0, 5
	add	s0, s0, a0
	srli	a7, s0, 5
.LBB103_68:
	slli	a4, s0, 2
	add	a4, a4, s1
	lw	s6, 192(a4)
	slli	a6, s6, 3
	add	a0, t1, a6
	lw	a5, 16(a0)
	li	t0, -1
	beq	a5, t0, .LBB103_70
	slli	a0, a5, 3
	add	a0, a0, t1
	sw	t0, 20(a0)
	lw	t1, 0(s5)
	sw	a5, 192(a4)
	j	.LBB103_72
.LBB103_70:
	sw	t0, 192(a4)
	slli	a0, a7, 2
	add	a4, s1, a0
	lw	a5, 108(a4)
	li	a0, 1
	sll	s0, a0, s0
	not	s0, s0
	and	a5, a5, s0
	sw	a5, 108(a4)
	bnez	a5, .LBB103_72
	lw	a4, 104(s1)
	sll	a0, a0, a7
	not	a0, a0
	and	a0, a0, a4
	sw	a0, 104(s1)
.LBB103_72:
	add	a0, t1, a6
	lw	a4, 0(a0)
	slli	a5, s3, 2
	lw	t2, 4(a0)
	sub	s0, a4, a5
	li	a5, 15
	bltu	a5, s0, .LBB103_74
	seqz	a5, a4
	addi	a4, a4, -1
	sw	a2, 16(a0)
	sw	zero, 20(a0)
	sub	a2, t2, a5
	sw	a4, 0(a0)
	sw	a2, 4(a0)
	sw	t4, 8(a0)
	sw	t3, 12(a0)
	srli	s3, a4, 2
	j	.LBB103_79
.LBB103_74:
	lui	t5, 131072
	li	t6, 1
	srli	a7, s0, 2
	add	t0, s6, s3
	sltu	a5, a4, s0
	sub	s7, a4, s0
	sw	a2, 16(a0)
	sw	zero, 20(a0)
	andi	s8, s0, 2
	addi	t5, t5, -8
	sub	a5, t2, a5
	slli	t2, t0, 3
	srli	a4, t0, 3
	andi	a2, t0, 63
	sw	s7, 0(a0)
	sw	a5, 4(a0)
	sw	t4, 8(a0)
	sw	t3, 12(a0)
	sll	s7, t6, t0
	add	t1, t1, t2
	and	a4, a4, t5
	sll	t5, t6, a2
	addi	a2, a2, -32
	sw	s0, 0(t1)
	sw	s6, 4(t1)
	sw	t4, 8(t1)
	sw	t3, 12(t1)
	lw	s0, 72(s1)
	srli	a0, a2, 31
	srai	a2, a2, 31
	addi	a0, a0, -1
	add	a4, a4, s0
	lw	s0, 0(a4)
	lw	a5, 4(a4)
	and	a2, a2, s7
	and	a0, a0, t5
	or	a2, a2, s0
	or	a0, a0, a5
	sw	a2, 0(a4)
	sw	a0, 4(a4)
	bnez	s8, .LBB103_76
	lw	a0, 0(s5)
	add	a2, a7, t0
	slli	a2, a2, 3
	add	a0, a0, a2
	sw	t0, 4(a0)
.LBB103_76:
	ori	a0, a7, 32
	lui	a2, 349525
	srli	a4, a0, 1
	addi	a2, a2, 1365
	or	a0, a0, a4
	srli	a4, a0, 2
	or	a0, a0, a4
	srli	a4, a0, 4
	or	a0, a0, a4
	srli	a4, a0, 8
	or	a0, a0, a4
	srli	a4, a0, 16
	or	a0, a0, a4
	not	a0, a0
	srli	a4, a0, 1
	and	a2, a2, a4
	lui	a4, 209715
	addi	a4, a4, 819
	sub	a0, a0, a2
	and	a2, a0, a4
	srli	a0, a0, 2
	and	a0, a0, a4
	lui	a4, 61681
	add	a0, a0, a2
	srli	a2, a0, 4
	add	a0, a0, a2
	lui	a2, 4112
	addi	a4, a4, -241
	and	a0, a0, a4
	li	a4, 26
	addi	a2, a2, 257
	mul	a0, a0, a2
	srli	a0, a0, 24
	sub	a4, a4, a0
	srl	a0, a7, a4
	slli	a4, a4, 5
	add	a4, a4, a0
	slli	a2, a4, 2
	add	a2, a2, s1
	lw	s0, 192(a2)
	sw	t0, 192(a2)
	lw	a5, 0(s5)
	bltz	s0, .LBB103_78
	add	t2, t2, a5
	li	a0, -1
	slli	a2, s0, 3
	sw	s0, 16(t2)
	sw	a0, 20(t2)
	add	a2, a2, a5
	sw	t0, 20(a2)
	j	.LBB103_79
.LBB103_78:
	add	a5, a5, t2
	li	a2, -1
	srli	a4, a4, 5
	li	a7, 1
	sw	a2, 16(a5)
	sw	a2, 20(a5)
	slli	a2, a4, 2
	add	a2, a2, s1
	lw	a5, 104(s1)
	lw	s0, 108(a2)
	sll	a4, a7, a4
	sll	a0, a7, a0
	or	a4, a4, a5
	or	a0, a0, s0
	sw	a4, 104(s1)
	sw	a0, 108(a2)
.LBB103_79:
	lw	a0, 40(s1)
	lw	a2, 44(s1)
	add	s3, s3, a0
	sw	s3, 40(s1)
	bgeu	a2, s3, .LBB103_81
	sw	s3, 44(s1)
.LBB103_81:
	lw	a2, 32(s1)
	lw	a4, 36(s1)
	lw	a0, 48(s1)
	addi	a2, a2, 1
	seqz	a5, a2
	add	a4, a4, a5
	add	s4, s4, a0
	add	a6, a6, a0
	sw	a2, 32(s1)
	sw	a4, 36(s1)
	lw	a2, 16(s4)
	lw	s0, 16(a6)
	bltu	s0, a2, .LBB103_83
	mv	s0, a2
.LBB103_83:
	mv	s7, a3
	addi	a3, a1, 3
	addi	s3, s6, 3
	andi	s4, s0, 7
	sltu	a2, a3, a1
	sltu	a4, s3, s6
	srli	s0, s0, 3
	beqz	s4, .LBB103_85
	add	a1, s0, a3
	slli	a1, a1, 3
	add	a1, a1, a0
	lw	a5, 0(a1)
	lw	a1, 4(a1)
	sw	a5, 16(sp)
	sw	a1, 20(sp)
	mv	a1, a3
	mv	a3, s3
	mv	a5, s0
	li	a6, 0
	call	tlsf_words.cells.copy_run
	lw	a0, 0(s5)
	add	s0, s0, s3
	slli	s0, s0, 3
	add	s0, s0, a0
	lw	a0, 0(s0)
	lw	a1, 4(s0)
	sw	a0, 24(sp)
	sw	a1, 28(sp)
	addi	a0, sp, 24
	addi	a1, sp, 16
	mv	a2, s4
	call	tlsf_memory_cpy
	lw	a0, 24(sp)
	lw	a1, 28(sp)
	sw	a0, 0(s0)
	sw	a1, 4(s0)
	j	.LBB103_86
.LBB103_85:
	mv	a1, a3
	mv	a3, s3
	mv	a5, s0
	li	a6, 0
	call	tlsf_words.cells.copy_run
.LBB103_86:
	mv	a1, sp
	mv	a0, s2
	call	tlsf_heap.heap.Heap.release_live.5
	j	.LBB103_108
.LBB103_87:
	li	s0, 32
.LBB103_88:
	slli	a0, a0, 4
	add	s0, s0, a0
	srli	a7, s0, 4
.LBB103_89:
	slli	a4, s0, 2
	add	a4, a4, s1
	lw	s6, 192(a4)
	slli	a6, s6, 3
	add	a0, t1, a6
	lw	a5, 16(a0)
	li	t0, -1
	beq	a5, t0, .LBB103_91
	slli	a0, a5, 3
	add	a0, a0, t1
	sw	t0, 20(a0)
	lw	t1, 0(s5)
	sw	a5, 192(a4)
	j	.LBB103_93
.LBB103_91:
	sw	t0, 192(a4)
	slli	a0, a7, 2
	add	a4, s1, a0
	lw	a5, 108(a4)
	andi	s0, s0, 15
	li	a0, 1
	sll	s0, a0, s0
	not	s0, s0
	and	a5, a5, s0
	sw	a5, 108(a4)
	bnez	a5, .LBB103_93
	lw	a4, 104(s1)
	sll	a0, a0, a7
	not	a0, a0
	and	a0, a0, a4
	sw	a0, 104(s1)
.LBB103_93:
	add	a0, t1, a6
	lw	a4, 0(a0)
	slli	a5, s3, 2
	lw	t2, 4(a0)
	sub	s0, a4, a5
	li	a5, 15
	bltu	a5, s0, .LBB103_95
	seqz	a5, a4
	addi	a4, a4, -1
	sw	a2, 16(a0)
	sw	zero, 20(a0)
	sub	a2, t2, a5
	sw	a4, 0(a0)
	sw	a2, 4(a0)
	sw	t4, 8(a0)
	sw	t3, 12(a0)
	srli	s3, a4, 2
	j	.LBB103_100
.LBB103_95:
	lui	t5, 131072
	li	t6, 1
	srli	a7, s0, 2
	add	t0, s6, s3
	sltu	a5, a4, s0
	sub	s7, a4, s0
	sw	a2, 16(a0)
	sw	zero, 20(a0)
	andi	s8, s0, 2
	addi	t5, t5, -8
	sub	a5, t2, a5
	slli	t2, t0, 3
	srli	a4, t0, 3
	andi	a2, t0, 63
	sw	s7, 0(a0)
	sw	a5, 4(a0)
	sw	t4, 8(a0)
	sw	t3, 12(a0)
	sll	s7, t6, t0
	add	t1, t1, t2
	and	a4, a4, t5
	sll	t5, t6, a2
	addi	a2, a2, -32
	sw	s0, 0(t1)
	sw	s6, 4(t1)
	sw	t4, 8(t1)
	sw	t3, 12(t1)
	lw	s0, 72(s1)
	srli	a0, a2, 31
	srai	a2, a2, 31
	addi	a0, a0, -1
	add	a4, a4, s0
	lw	s0, 0(a4)
	lw	a5, 4(a4)
	and	a2, a2, s7
	and	a0, a0, t5
	or	a2, a2, s0
	or	a0, a0, a5
	sw	a2, 0(a4)
	sw	a0, 4(a4)
	bnez	s8, .LBB103_97
	lw	a0, 0(s5)
	add	a2, a7, t0
	slli	a2, a2, 3
	add	a0, a0, a2
	sw	t0, 4(a0)
.LBB103_97:
	ori	a0, a7, 16
	lui	a2, 349525
	srli	a4, a0, 1
	addi	a2, a2, 1365
	or	a0, a0, a4
	srli	a4, a0, 2
	or	a0, a0, a4
	srli	a4, a0, 4
	or	a0, a0, a4
	srli	a4, a0, 8
	or	a0, a0, a4
	srli	a4, a0, 16
	or	a0, a0, a4
	not	a0, a0
	srli	a4, a0, 1
	and	a2, a2, a4
	lui	a4, 209715
	addi	a4, a4, 819
	sub	a0, a0, a2
	and	a2, a0, a4
	srli	a0, a0, 2
	and	a0, a0, a4
	lui	a4, 61681
	add	a0, a0, a2
	srli	a2, a0, 4
	add	a0, a0, a2
	lui	a2, 4112
	addi	a4, a4, -241
	and	a0, a0, a4
	li	a4, 27
	addi	a2, a2, 257
	mul	a0, a0, a2
	srli	a0, a0, 24
	sub	a4, a4, a0
	srl	a0, a7, a4
	slli	a4, a4, 4
	add	a4, a4, a0
	slli	a2, a4, 2
	add	a2, a2, s1
	lw	s0, 192(a2)
	sw	t0, 192(a2)
	lw	a5, 0(s5)
	bltz	s0, .LBB103_99
	add	t2, t2, a5
	li	a0, -1
	slli	a2, s0, 3
	sw	s0, 16(t2)
	sw	a0, 20(t2)
	add	a2, a2, a5
	sw	t0, 20(a2)
	j	.LBB103_100
.LBB103_99:
	add	a5, a5, t2
	li	a2, -1
	srli	a4, a4, 4
	li	a7, 1
	andi	a0, a0, 15
	sw	a2, 16(a5)
	sw	a2, 20(a5)
	slli	a2, a4, 2
	add	a2, a2, s1
	lw	a5, 104(s1)
	lw	s0, 108(a2)
	sll	a4, a7, a4
	sll	a0, a7, a0
	or	a4, a4, a5
	or	a0, a0, s0
	sw	a4, 104(s1)
	sw	a0, 108(a2)
.LBB103_100:
	lw	a0, 40(s1)
	lw	a2, 44(s1)
	add	s3, s3, a0
	sw	s3, 40(s1)
	bgeu	a2, s3, .LBB103_102
	sw	s3, 44(s1)
.LBB103_102:
	lw	a2, 32(s1)
	lw	a4, 36(s1)
	lw	a0, 48(s1)
	addi	a2, a2, 1
	seqz	a5, a2
	add	a4, a4, a5
	add	s4, s4, a0
	add	a6, a6, a0
	sw	a2, 32(s1)
	sw	a4, 36(s1)
	lw	a2, 16(s4)
	lw	s0, 16(a6)
	bltu	s0, a2, .LBB103_104
	mv	s0, a2
.LBB103_104:
	mv	s7, a3
	addi	a3, a1, 3
	addi	s3, s6, 3
	andi	s4, s0, 7
	sltu	a2, a3, a1
	sltu	a4, s3, s6
	srli	s0, s0, 3
	beqz	s4, .LBB103_106
	add	a1, s0, a3
	slli	a1, a1, 3
	add	a1, a1, a0
	lw	a5, 0(a1)
	lw	a1, 4(a1)
	sw	a5, 16(sp)
	sw	a1, 20(sp)
	mv	a1, a3
	mv	a3, s3
	mv	a5, s0
	li	a6, 0
	call	tlsf_words.cells.copy_run
	lw	a0, 0(s5)
	add	s0, s0, s3
	slli	s0, s0, 3
	add	s0, s0, a0
	lw	a0, 0(s0)
	lw	a1, 4(s0)
	sw	a0, 24(sp)
	sw	a1, 28(sp)
	addi	a0, sp, 24
	addi	a1, sp, 16
	mv	a2, s4
	call	tlsf_memory_cpy
	lw	a0, 24(sp)
	lw	a1, 28(sp)
	sw	a0, 0(s0)
	sw	a1, 4(s0)
	j	.LBB103_107
.LBB103_106:
	mv	a1, a3
	mv	a3, s3
	mv	a5, s0
	li	a6, 0
	call	tlsf_words.cells.copy_run
.LBB103_107:
	mv	a1, sp
	mv	a0, s2
	call	tlsf_heap.heap.Heap.release_live.4
.LBB103_108:
	mv	a1, s6
	mv	a3, s7
	j	.LBB103_56
.Lfunc_end103:
	.size	tlsf_resize_place, .Lfunc_end103-tlsf_resize_place
	.cfi_endproc
	.section	.text.tlsf_take,"ax",@progbits
	.globl	tlsf_take
	.p2align	1
	.type	tlsf_take,@function
tlsf_take:
	.cfi_startproc
	addi	sp, sp, -96
	.cfi_def_cfa_offset 96
	sw	ra, 92(sp)
	sw	s0, 88(sp)
	sw	s1, 84(sp)
	sw	s2, 80(sp)
	sw	s3, 76(sp)
	sw	s4, 72(sp)
	sw	s5, 68(sp)
	sw	s6, 64(sp)
	sw	s7, 60(sp)
	sw	s8, 56(sp)
	sw	s9, 52(sp)
	sw	s10, 48(sp)
	sw	s11, 44(sp)
	.cfi_offset ra, -4
	.cfi_offset s0, -8
	.cfi_offset s1, -12
	.cfi_offset s2, -16
	.cfi_offset s3, -20
	.cfi_offset s4, -24
	.cfi_offset s5, -28
	.cfi_offset s6, -32
	.cfi_offset s7, -36
	.cfi_offset s8, -40
	.cfi_offset s9, -44
	.cfi_offset s10, -48
	.cfi_offset s11, -52
	.cfi_remember_state
	lbu	a2, 8(a0)
	beqz	a2, .LBB104_18
	lw	s1, 0(a0)
	lbu	a0, 1(s1)
	beqz	a0, .LBB104_18
	mv	s4, a1
	lbu	a0, 0(s1)
	li	a1, 1
	bne	a0, a1, .LBB104_19
	lw	a0, 40(s1)
	lw	a1, 44(s1)
	lw	a7, 28(s1)
	lw	t0, 32(s1)
	lw	a5, 36(s1)
	lw	t1, 24(s1)
	sltu	a2, a0, t0
	sb	zero, 1(s1)
	mv	a4, a2
	beq	a1, a5, .LBB104_5
	sltu	a4, a1, a5
.LBB104_5:
	srli	a3, t1, 31
	slli	s0, a7, 1
	or	a3, a3, s0
	slli	s0, t1, 1
	neg	a4, a4
	sub	a1, a1, a5
	sub	a0, a0, t0
	and	s0, s0, a4
	sub	a1, a1, a2
	and	a3, a3, a4
	snez	a2, s0
	neg	a4, s0
	neg	a3, a3
	sub	a3, a3, a2
	xor	a1, a1, a3
	xor	a0, a0, a4
	or	a0, a0, a1
	bnez	a0, .LBB104_10
	lw	a0, 8(s1)
	addi	a0, a0, 128
	li	a1, 5
	call	__atomic_load_8
	lw	t0, 32(s1)
	lw	a7, 28(s1)
	lw	a5, 36(s1)
	lw	t1, 24(s1)
	sltu	a6, a0, t0
	sw	a0, 40(s1)
	sw	a1, 44(s1)
	mv	a4, a6
	beq	a1, a5, .LBB104_8
	sltu	a4, a1, a5
.LBB104_8:
	srli	a2, t1, 31
	slli	a3, a7, 1
	or	a2, a2, a3
	slli	a3, t1, 1
	neg	a4, a4
	sub	a1, a1, a5
	sub	a0, a0, t0
	and	a3, a3, a4
	sub	a1, a1, a6
	and	a2, a2, a4
	snez	a4, a3
	neg	a3, a3
	neg	a2, a2
	sub	a2, a2, a4
	xor	a1, a1, a2
	xor	a0, a0, a3
	or	a0, a0, a1
	bnez	a0, .LBB104_10
	li	a0, 35
	j	.LBB104_17
.LBB104_10:
	srli	a1, t1, 31
	slli	a2, a7, 1
	slli	a0, t1, 1
	or	a1, a1, a2
	seqz	a2, a0
	sub	a1, a1, a2
	beq	a5, a1, .LBB104_12
	sltu	a0, a5, a1
	j	.LBB104_13
.LBB104_12:
	addi	a0, a0, -1
	sltu	a0, t0, a0
.LBB104_13:
	addi	a1, t0, 1
	neg	a0, a0
	seqz	a2, a1
	add	a2, a2, a5
	and	s3, a0, a1
	and	s2, a0, a2
	beq	a5, a7, .LBB104_15
	sltu	a0, a5, a7
	j	.LBB104_16
.LBB104_15:
	sltu	a0, t0, t1
.LBB104_16:
	addi	a1, a0, -1
	lw	a0, 8(s1)
	lw	a2, 16(s1)
	and	a1, a1, t1
	sub	a1, t0, a1
	slli	a3, a1, 3
	slli	a1, a1, 4
	add	a1, a1, a3
	add	a1, a1, a2
	lbu	s0, 8(a1)
	lbu	s5, 9(a1)
	lbu	s6, 10(a1)
	lbu	s7, 11(a1)
	lbu	a2, 12(a1)
	sw	a2, 24(sp)
	lbu	a2, 13(a1)
	sw	a2, 20(sp)
	lbu	a2, 14(a1)
	sw	a2, 16(sp)
	lbu	a2, 15(a1)
	sw	a2, 12(sp)
	lbu	a2, 16(a1)
	sw	a2, 40(sp)
	lbu	a2, 17(a1)
	sw	a2, 36(sp)
	lbu	a2, 18(a1)
	sw	a2, 32(sp)
	lbu	a2, 19(a1)
	sw	a2, 28(sp)
	lbu	s8, 20(a1)
	lbu	s9, 21(a1)
	lbu	s10, 22(a1)
	lbu	s11, 23(a1)
	li	a3, 5
	mv	a1, s3
	mv	a2, s2
	call	__atomic_store_8
	li	a0, 0
	sw	s3, 32(s1)
	sw	s2, 36(s1)
	sb	s0, 0(s4)
	sb	s5, 1(s4)
	sb	s6, 2(s4)
	sb	s7, 3(s4)
	lw	a1, 24(sp)
	sb	a1, 4(s4)
	lw	a1, 20(sp)
	sb	a1, 5(s4)
	lw	a1, 16(sp)
	sb	a1, 6(s4)
	lw	a1, 12(sp)
	sb	a1, 7(s4)
	sb	s8, 12(s4)
	sb	s9, 13(s4)
	sb	s10, 14(s4)
	sb	s11, 15(s4)
	lw	a1, 40(sp)
	sb	a1, 8(s4)
	lw	a1, 36(sp)
	sb	a1, 9(s4)
	lw	a1, 32(sp)
	sb	a1, 10(s4)
	lw	a1, 28(sp)
	sb	a1, 11(s4)
.LBB104_17:
	li	a1, 1
	sb	a1, 1(s1)
	lw	ra, 92(sp)
	lw	s0, 88(sp)
	lw	s1, 84(sp)
	lw	s2, 80(sp)
	lw	s3, 76(sp)
	lw	s4, 72(sp)
	lw	s5, 68(sp)
	lw	s6, 64(sp)
	lw	s7, 60(sp)
	lw	s8, 56(sp)
	lw	s9, 52(sp)
	lw	s10, 48(sp)
	lw	s11, 44(sp)
	.cfi_restore ra
	.cfi_restore s0
	.cfi_restore s1
	.cfi_restore s2
	.cfi_restore s3
	.cfi_restore s4
	.cfi_restore s5
	.cfi_restore s6
	.cfi_restore s7
	.cfi_restore s8
	.cfi_restore s9
	.cfi_restore s10
	.cfi_restore s11
	addi	sp, sp, 96
	.cfi_def_cfa_offset 0
	ret
.LBB104_18:
	.cfi_restore_state
	li	a0, 0
	j	.LBB104_20
.LBB104_19:
	li	a0, 2
.LBB104_20:
	lw	ra, 92(sp)
	lw	s0, 88(sp)
	lw	s1, 84(sp)
	lw	s2, 80(sp)
	lw	s3, 76(sp)
	lw	s4, 72(sp)
	lw	s5, 68(sp)
	lw	s6, 64(sp)
	lw	s7, 60(sp)
	lw	s8, 56(sp)
	lw	s9, 52(sp)
	lw	s10, 48(sp)
	lw	s11, 44(sp)
	.cfi_restore ra
	.cfi_restore s0
	.cfi_restore s1
	.cfi_restore s2
	.cfi_restore s3
	.cfi_restore s4
	.cfi_restore s5
	.cfi_restore s6
	.cfi_restore s7
	.cfi_restore s8
	.cfi_restore s9
	.cfi_restore s10
	.cfi_restore s11
	addi	sp, sp, 96
	.cfi_def_cfa_offset 0
	tail	tlsf_c.call_fault.CallFault.refusal
.Lfunc_end104:
	.size	tlsf_take, .Lfunc_end104-tlsf_take
	.cfi_endproc
	.section	.text.tlsf_take_all,"ax",@progbits
	.globl	tlsf_take_all
	.p2align	1
	.type	tlsf_take_all,@function
tlsf_take_all:
	.cfi_startproc
	addi	sp, sp, -864
	.cfi_def_cfa_offset 864
	sw	ra, 860(sp)
	sw	s0, 856(sp)
	sw	s1, 852(sp)
	sw	s2, 848(sp)
	sw	s3, 844(sp)
	sw	s4, 840(sp)
	sw	s5, 836(sp)
	sw	s6, 832(sp)
	sw	s7, 828(sp)
	sw	s8, 824(sp)
	sw	s9, 820(sp)
	sw	s10, 816(sp)
	sw	s11, 812(sp)
	.cfi_offset ra, -4
	.cfi_offset s0, -8
	.cfi_offset s1, -12
	.cfi_offset s2, -16
	.cfi_offset s3, -20
	.cfi_offset s4, -24
	.cfi_offset s5, -28
	.cfi_offset s6, -32
	.cfi_offset s7, -36
	.cfi_offset s8, -40
	.cfi_offset s9, -44
	.cfi_offset s10, -48
	.cfi_offset s11, -52
	mv	s2, a3
	mv	s3, a2
	lbu	a2, 8(a0)
	lw	s7, 0(a3)
	beqz	a2, .LBB105_34
	lw	s5, 0(a0)
	lbu	a0, 1(s5)
	beqz	a0, .LBB105_34
	mv	s4, a1
	lbu	a0, 0(s5)
	li	a1, 1
	bne	a0, a1, .LBB105_37
	li	a0, 32
	sb	zero, 1(s5)
	mv	s9, s3
	bltu	s3, a0, .LBB105_5
	li	s9, 32
.LBB105_5:
	lw	a0, 40(s5)
	lw	a1, 44(s5)
	lw	a6, 28(s5)
	lw	a7, 32(s5)
	lw	t1, 36(s5)
	lw	t0, 24(s5)
	sltu	s0, a0, a7
	mv	a4, s0
	beq	a1, t1, .LBB105_7
	sltu	a4, a1, t1
.LBB105_7:
	srli	a3, t0, 31
	slli	a2, a6, 1
	slli	s1, t0, 1
	neg	a5, a4
	or	a2, a2, a3
	sub	a3, a1, t1
	sub	a3, a3, s0
	sub	a4, a0, a7
	and	s1, s1, a5
	and	a5, a5, a2
	add	a2, a4, s1
	add	a3, a3, a5
	sltu	a4, a2, a4
	add	a3, a3, a4
	seqz	s8, s4
	beqz	a3, .LBB105_15
	li	a4, 1
	slli	s8, s8, 12
	beqz	a4, .LBB105_16
.LBB105_9:
	li	s10, 0
	mv	s6, s9
	add	s8, s8, s4
	sltiu	a2, s9, 21
	li	a4, 1
	and	a2, a2, a4
	addi	s4, s5, 8
	beqz	a2, .LBB105_21
.LBB105_10:
	sltiu	a2, s6, 2
	and	a2, a2, a4
	bnez	a2, .LBB105_25
	addi	a0, sp, 40
	li	a2, 480
	addi	s3, sp, 40
	li	a1, 0
	call	tlsf_memory_set
	addi	a1, sp, 40
	mv	a0, s4
	mv	a2, s6
	mv	a3, s10
	call	tlsf_post.take_end.TakeEnd.take_slice
	li	a7, 0
	li	a6, 0
	j	.LBB105_13
.LBB105_12:
	sltu	a2, a7, s6
	beqz	a2, .LBB105_43
.LBB105_13:
	slli	a2, a7, 3
	slli	a3, a7, 4
	addi	a7, a7, 1
	add	a2, a2, a3
	add	a3, a3, s8
	seqz	a4, a7
	add	a2, a2, s3
	add	a6, a6, a4
	lw	a4, 8(a2)
	lw	a5, 12(a2)
	lw	s1, 16(a2)
	lw	a2, 20(a2)
	srli	t2, a4, 24
	srli	a1, a4, 16
	srli	a0, a4, 8
	srli	t0, a5, 24
	srli	t1, a5, 16
	srli	s0, a5, 8
	srli	t3, a2, 24
	srli	t4, a2, 16
	srli	t5, a2, 8
	srli	t6, s1, 24
	sb	a4, 0(a3)
	sb	a0, 1(a3)
	sb	a1, 2(a3)
	sb	t2, 3(a3)
	srli	a0, s1, 16
	sb	a5, 4(a3)
	sb	s0, 5(a3)
	sb	t1, 6(a3)
	sb	t0, 7(a3)
	srli	a1, s1, 8
	sb	a2, 12(a3)
	sb	t5, 13(a3)
	sb	t4, 14(a3)
	sb	t3, 15(a3)
	sb	s1, 8(a3)
	sb	a1, 9(a3)
	sb	a0, 10(a3)
	sb	t6, 11(a3)
	beq	a6, s10, .LBB105_12
	sltu	a2, a6, s10
	bnez	a2, .LBB105_13
	j	.LBB105_43
.LBB105_15:
	sltu	a2, a2, s9
	xori	a4, a2, 1
	slli	s8, s8, 12
	bnez	a4, .LBB105_9
.LBB105_16:
	lw	a0, 8(s5)
	addi	a0, a0, 128
	li	a1, 5
	call	__atomic_load_8
	lw	a7, 32(s5)
	lw	a6, 28(s5)
	lw	t1, 36(s5)
	lw	t0, 24(s5)
	sltu	s0, a0, a7
	sw	a0, 40(s5)
	sw	a1, 44(s5)
	mv	a4, s0
	beq	a1, t1, .LBB105_18
	sltu	a4, a1, t1
.LBB105_18:
	srli	a2, t0, 31
	slli	a3, a6, 1
	or	a2, a2, a3
	sub	a3, a1, t1
	sub	a3, a3, s0
	slli	a5, t0, 1
	neg	a4, a4
	and	a5, a5, a4
	and	a2, a2, a4
	sub	a4, a0, a7
	add	s6, a4, a5
	add	a2, a2, a3
	sltu	a4, s6, a4
	add	a4, a4, a2
	seqz	a2, a4
	sltu	a3, s6, s9
	and	a2, a2, a3
	neg	s0, a2
	bnez	a2, .LBB105_20
	mv	s6, s9
.LBB105_20:
	and	s10, s0, a4
	add	s8, s8, s4
	sltiu	a2, s6, 21
	seqz	a4, s10
	and	a2, a2, a4
	addi	s4, s5, 8
	bnez	a2, .LBB105_10
.LBB105_21:
	addi	a0, sp, 40
	li	a2, 768
	addi	s3, sp, 40
	li	a1, 0
	call	tlsf_memory_set
	addi	a1, sp, 40
	mv	a0, s4
	mv	a2, s6
	mv	a3, s10
	call	tlsf_post.take_end.TakeEnd.take_slice
	li	a7, 0
	li	a6, 0
	j	.LBB105_23
.LBB105_22:
	sltu	a2, a7, s6
	beqz	a2, .LBB105_43
.LBB105_23:
	slli	a2, a7, 3
	slli	a3, a7, 4
	addi	a7, a7, 1
	add	a2, a2, a3
	add	a3, a3, s8
	seqz	a4, a7
	add	a2, a2, s3
	add	a6, a6, a4
	lw	a4, 8(a2)
	lw	a5, 12(a2)
	lw	s1, 16(a2)
	lw	a2, 20(a2)
	srli	t2, a4, 24
	srli	a1, a4, 16
	srli	a0, a4, 8
	srli	t0, a5, 24
	srli	t1, a5, 16
	srli	s0, a5, 8
	srli	t3, a2, 24
	srli	t4, a2, 16
	srli	t5, a2, 8
	srli	t6, s1, 24
	sb	a4, 0(a3)
	sb	a0, 1(a3)
	sb	a1, 2(a3)
	sb	t2, 3(a3)
	srli	a0, s1, 16
	sb	a5, 4(a3)
	sb	s0, 5(a3)
	sb	t1, 6(a3)
	sb	t0, 7(a3)
	srli	a1, s1, 8
	sb	a2, 12(a3)
	sb	t5, 13(a3)
	sb	t4, 14(a3)
	sb	t3, 15(a3)
	sb	s1, 8(a3)
	sb	a1, 9(a3)
	sb	a0, 10(a3)
	sb	t6, 11(a3)
	beq	a6, s10, .LBB105_22
	sltu	a2, a6, s10
	bnez	a2, .LBB105_23
	j	.LBB105_43
.LBB105_25:
	xori	a2, s6, 1
	or	a2, a2, s10
	bnez	a2, .LBB105_35
	sltu	s1, a0, a7
	mv	a4, s1
	beq	a1, t1, .LBB105_28
	sltu	a4, a1, t1
.LBB105_28:
	srli	a2, t0, 31
	slli	a3, a6, 1
	or	a2, a2, a3
	slli	a3, t0, 1
	neg	a4, a4
	sub	a1, a1, t1
	sub	a0, a0, a7
	and	a3, a3, a4
	sub	a1, a1, s1
	and	a2, a2, a4
	snez	a4, a3
	neg	a3, a3
	neg	a2, a2
	sub	a2, a2, a4
	xor	a1, a1, a2
	xor	a0, a0, a3
	or	a0, a0, a1
	bnez	a0, .LBB105_32
	lw	a0, 8(s5)
	addi	a0, a0, 128
	li	a1, 5
	call	__atomic_load_8
	lw	a7, 32(s5)
	lw	a6, 28(s5)
	lw	t1, 36(s5)
	lw	t0, 24(s5)
	sltu	s1, a0, a7
	sw	a0, 40(s5)
	sw	a1, 44(s5)
	mv	a4, s1
	beq	a1, t1, .LBB105_31
	sltu	a4, a1, t1
.LBB105_31:
	srli	a2, t0, 31
	slli	a3, a6, 1
	or	a2, a2, a3
	slli	a3, t0, 1
	neg	a4, a4
	sub	a1, a1, t1
	sub	a0, a0, a7
	and	a3, a3, a4
	sub	a1, a1, s1
	and	a2, a2, a4
	snez	a4, a3
	neg	a3, a3
	neg	a2, a2
	sub	a2, a2, a4
	xor	a1, a1, a2
	xor	a0, a0, a3
	or	a0, a0, a1
	beqz	a0, .LBB105_43
.LBB105_32:
	srli	a1, t0, 31
	slli	a2, a6, 1
	slli	a0, t0, 1
	or	a1, a1, a2
	seqz	a2, a0
	sub	a1, a1, a2
	beq	t1, a1, .LBB105_38
	sltu	a0, t1, a1
	j	.LBB105_39
.LBB105_34:
	li	a0, 0
	call	tlsf_c.call_fault.CallFault.refusal
	j	.LBB105_45
.LBB105_35:
	li	a0, 1
	sb	a0, 1(s5)
	beqz	s3, .LBB105_44
	li	a0, 35
	j	.LBB105_45
.LBB105_37:
	li	a0, 2
	call	tlsf_c.call_fault.CallFault.refusal
	j	.LBB105_45
.LBB105_38:
	addi	a0, a0, -1
	sltu	a0, a7, a0
.LBB105_39:
	addi	a1, a7, 1
	neg	a0, a0
	seqz	a2, a1
	add	a2, a2, t1
	and	s0, a0, a1
	and	s3, a0, a2
	beq	t1, a6, .LBB105_41
	sltu	a0, t1, a6
	j	.LBB105_42
.LBB105_41:
	sltu	a0, a7, t0
.LBB105_42:
	addi	a1, a0, -1
	lw	a0, 8(s5)
	lw	a2, 16(s5)
	and	a1, a1, t0
	sub	a1, a7, a1
	slli	a3, a1, 3
	slli	a1, a1, 4
	add	a1, a1, a3
	add	a1, a1, a2
	lbu	s1, 8(a1)
	lbu	s4, 9(a1)
	lbu	s7, 10(a1)
	lbu	s9, 11(a1)
	lbu	a2, 12(a1)
	sw	a2, 20(sp)
	lbu	a2, 13(a1)
	sw	a2, 16(sp)
	lbu	a2, 14(a1)
	sw	a2, 12(sp)
	lbu	a2, 15(a1)
	sw	a2, 8(sp)
	lbu	a2, 16(a1)
	sw	a2, 36(sp)
	lbu	a2, 17(a1)
	sw	a2, 32(sp)
	lbu	a2, 18(a1)
	sw	a2, 28(sp)
	lbu	a2, 19(a1)
	sw	a2, 24(sp)
	lbu	s10, 20(a1)
	lbu	s11, 21(a1)
	lbu	a2, 22(a1)
	sw	a2, 4(sp)
	lbu	a1, 23(a1)
	sw	a1, 0(sp)
	li	a3, 5
	mv	a1, s0
	mv	a2, s3
	call	__atomic_store_8
	sw	s0, 32(s5)
	sw	s3, 36(s5)
	sb	s1, 0(s8)
	sb	s4, 1(s8)
	sb	s7, 2(s8)
	sb	s9, 3(s8)
	lw	a0, 20(sp)
	sb	a0, 4(s8)
	lw	a0, 16(sp)
	sb	a0, 5(s8)
	lw	a0, 12(sp)
	sb	a0, 6(s8)
	lw	a0, 8(sp)
	sb	a0, 7(s8)
	sb	s10, 12(s8)
	sb	s11, 13(s8)
	lw	a0, 4(sp)
	sb	a0, 14(s8)
	lw	a0, 0(sp)
	sb	a0, 15(s8)
	lw	a0, 36(sp)
	sb	a0, 8(s8)
	lw	a0, 32(sp)
	sb	a0, 9(s8)
	lw	a0, 28(sp)
	sb	a0, 10(s8)
	lw	a0, 24(sp)
	sb	a0, 11(s8)
.LBB105_43:
	li	a0, 1
	sb	a0, 1(s5)
.LBB105_44:
	li	a0, 0
	mv	s7, s6
.LBB105_45:
	sw	s7, 0(s2)
	lw	ra, 860(sp)
	lw	s0, 856(sp)
	lw	s1, 852(sp)
	lw	s2, 848(sp)
	lw	s3, 844(sp)
	lw	s4, 840(sp)
	lw	s5, 836(sp)
	lw	s6, 832(sp)
	lw	s7, 828(sp)
	lw	s8, 824(sp)
	lw	s9, 820(sp)
	lw	s10, 816(sp)
	lw	s11, 812(sp)
	.cfi_restore ra
	.cfi_restore s0
	.cfi_restore s1
	.cfi_restore s2
	.cfi_restore s3
	.cfi_restore s4
	.cfi_restore s5
	.cfi_restore s6
	.cfi_restore s7
	.cfi_restore s8
	.cfi_restore s9
	.cfi_restore s10
	.cfi_restore s11
	addi	sp, sp, 864
	.cfi_def_cfa_offset 0
	ret
.Lfunc_end105:
	.size	tlsf_take_all, .Lfunc_end105-tlsf_take_all
	.cfi_endproc
	.section	.text.tlsf_take_close,"ax",@progbits
	.globl	tlsf_take_close
	.p2align	1
	.type	tlsf_take_close,@function
tlsf_take_close:
	.cfi_startproc
	lbu	a2, 8(a0)
	li	a1, 32
	beqz	a2, .LBB106_4
	lw	a2, 0(a0)
	lbu	a3, 1(a2)
	beqz	a3, .LBB106_4
	lbu	a1, 0(a2)
	li	a3, 1
	bne	a1, a3, .LBB106_5
	addi	sp, sp, -128
	.cfi_def_cfa_offset 128
	sw	ra, 124(sp)
	sw	s0, 120(sp)
	sw	s1, 116(sp)
	sw	s2, 112(sp)
	sw	s3, 108(sp)
	.cfi_offset ra, -4
	.cfi_offset s0, -8
	.cfi_offset s1, -12
	.cfi_offset s2, -16
	.cfi_offset s3, -20
	sb	zero, 1(a2)
	lbu	a1, 1(a0)
	lbu	a2, 0(a0)
	lbu	a3, 2(a0)
	lbu	a4, 3(a0)
	slli	a1, a1, 8
	or	a1, a1, a2
	slli	a3, a3, 16
	slli	a4, a4, 24
	or	a3, a3, a4
	or	s0, a3, a1
	li	a2, 16
	li	a1, 0
	call	tlsf_memory_set
	lbu	s1, 0(s0)
	lbu	s3, 1(s0)
	addi	a1, s0, 8
	addi	s2, sp, 16
	li	a2, 40
	mv	a0, s2
	call	tlsf_memory_cpy
	mv	a0, s0
	call	tlsf_memory_dealloc
	sw	zero, 56(sp)
	sw	zero, 60(sp)
	sb	s1, 56(sp)
	sb	s3, 57(sp)
	addi	a0, sp, 64
	li	a2, 40
	mv	a1, s2
	call	tlsf_memory_cpy
	addi	a0, sp, 56
	call	tlsf_c.tlsf_c.any_end.AnyEnd.Destruct.drop
	li	a1, 0
	lw	ra, 124(sp)
	lw	s0, 120(sp)
	lw	s1, 116(sp)
	lw	s2, 112(sp)
	lw	s3, 108(sp)
	.cfi_restore ra
	.cfi_restore s0
	.cfi_restore s1
	.cfi_restore s2
	.cfi_restore s3
	addi	sp, sp, 128
	.cfi_def_cfa_offset 0
.LBB106_4:
	mv	a0, a1
	ret
.LBB106_5:
	li	a0, 40
	ret
.Lfunc_end106:
	.size	tlsf_take_close, .Lfunc_end106-tlsf_take_close
	.cfi_endproc
	.section	.text.tlsf_words,"ax",@progbits
	.globl	tlsf_words
	.p2align	1
	.type	tlsf_words,@function
tlsf_words:
	.cfi_startproc
	andi	a5, a0, -2
	li	a4, 4
	bne	a5, a4, .LBB107_6
	beqz	a1, .LBB107_34
	li	a4, 4
	bne	a0, a4, .LBB107_7
	lui	a0, 2048
	addi	a4, a0, -24
	li	a0, 5
	bltu	a4, a2, .LBB107_35
	li	a4, 9
	bgeu	a2, a4, .LBB107_10
	srli	a2, a1, 30
	slli	a1, a1, 2
	j	.LBB107_21
.LBB107_6:
	li	a0, 34
	ret
.LBB107_7:
	lui	a0, 32768
	addi	a4, a0, -24
	li	a0, 5
	bltu	a4, a2, .LBB107_35
	li	a4, 9
	bgeu	a2, a4, .LBB107_12
	srli	a2, a1, 30
	slli	a1, a1, 2
	j	.LBB107_29
.LBB107_10:
	addi	a2, a2, 31
	lui	a6, 349525
	lui	a7, 209715
	lui	t0, 61681
	lui	t2, 4112
	li	t1, 27
	srli	a2, a2, 3
	addi	t3, a6, 1365
	addi	t4, a7, 819
	addi	a6, t0, -241
	addi	t2, t2, 257
	addi	a4, a2, 3
	ori	a5, a2, 16
	addi	t5, a2, -1
	srli	a2, a5, 1
	or	a2, a2, a5
	srli	a5, a2, 2
	or	a2, a2, a5
	srli	a5, a2, 4
	or	a2, a2, a5
	srli	a5, a2, 8
	or	a2, a2, a5
	srli	a5, a2, 16
	or	a2, a2, a5
	not	a2, a2
	srli	a5, a2, 1
	and	a5, a5, t3
	mulhu	a7, a4, a1
	sub	a2, a2, a5
	and	t0, a2, t4
	srli	a2, a2, 2
	and	a5, a2, t4
	mul	a2, a4, a1
	add	t0, t0, a5
	srli	a5, t0, 4
	add	a5, a5, t0
	sub	t0, a2, a4
	and	a5, a5, a6
	sltu	t4, a2, a4
	mul	a5, a5, t2
	srli	a5, a5, 24
	sub	t3, t1, a5
	srl	a6, t5, t3
	addi	t1, a6, 1
	srli	t2, t1, 4
	add	t2, t2, t3
	sub	a5, a7, t4
	bgeu	a2, a4, .LBB107_14
	sltu	a2, a7, a5
	j	.LBB107_15
.LBB107_12:
	addi	a2, a2, 31
	lui	a6, 349525
	lui	a7, 209715
	lui	t0, 61681
	lui	t2, 4112
	li	t1, 26
	srli	a2, a2, 3
	addi	t3, a6, 1365
	addi	t4, a7, 819
	addi	a6, t0, -241
	addi	t2, t2, 257
	addi	a4, a2, 3
	ori	a5, a2, 32
	addi	t5, a2, -1
	srli	a2, a5, 1
	or	a2, a2, a5
	srli	a5, a2, 2
	or	a2, a2, a5
	srli	a5, a2, 4
	or	a2, a2, a5
	srli	a5, a2, 8
	or	a2, a2, a5
	srli	a5, a2, 16
	or	a2, a2, a5
	not	a2, a2
	srli	a5, a2, 1
	and	a5, a5, t3
	mulhu	a7, a4, a1
	sub	a2, a2, a5
	and	t0, a2, t4
	srli	a2, a2, 2
	and	a5, a2, t4
	mul	a2, a4, a1
	add	t0, t0, a5
	srli	a5, t0, 4
	add	a5, a5, t0
	sub	t0, a2, a4
	and	a5, a5, a6
	sltu	t4, a2, a4
	mul	a5, a5, t2
	srli	a5, a5, 24
	sub	t3, t1, a5
	srl	a6, t5, t3
	addi	t1, a6, 1
	srli	t2, t1, 5
	add	t2, t2, t3
	sub	a5, a7, t4
	bgeu	a2, a4, .LBB107_17
	sltu	a2, a7, a5
	j	.LBB107_18
.LBB107_14:
	sltu	a2, a2, t0
.LBB107_15:
	addi	a2, a2, -1
	and	a5, a5, a2
	and	a2, a2, t0
	addi	a2, a2, 1
	seqz	a7, a2
	add	a7, a7, a5
	beqz	t2, .LBB107_20
	andi	a4, t1, 15
	addi	a5, t2, -1
	sll	a4, a4, a5
	li	a5, 8
	sll	a5, a5, t2
	add	a4, a4, a5
	addi	a4, a4, -1
	mulhu	a5, a4, a1
	mul	a4, a4, a1
	add	a1, a4, a2
	sltu	a2, a1, a4
	add	a5, a5, a7
	add	a2, a2, a5
	j	.LBB107_21
.LBB107_17:
	sltu	a2, a2, t0
.LBB107_18:
	addi	a2, a2, -1
	and	a5, a5, a2
	and	a2, a2, t0
	addi	a2, a2, 1
	seqz	a7, a2
	add	a7, a7, a5
	beqz	t2, .LBB107_28
	andi	a4, t1, 31
	addi	a5, t2, -1
	sll	a4, a4, a5
	li	a5, 16
	sll	a5, a5, t2
	add	a4, a4, a5
	addi	a4, a4, -1
	mulhu	a5, a4, a1
	mul	a4, a4, a1
	add	a1, a4, a2
	sltu	a2, a1, a4
	add	a5, a5, a7
	add	a2, a2, a5
	j	.LBB107_29
.LBB107_20:
	slli	t3, t3, 4
	add	a6, a6, t3
	mulhu	a4, a6, a1
	mul	a5, a6, a1
	add	a1, a5, a2
	sltu	a2, a1, a5
	add	a4, a4, a7
	add	a2, a2, a4
.LBB107_21:
	li	a6, 4
	mv	a5, a1
	beqz	a2, .LBB107_25
	mv	a4, a1
	bgeu	a6, a1, .LBB107_26
.LBB107_23:
	bnez	a2, .LBB107_27
.LBB107_24:
	lui	a5, 256
	sltu	a1, a5, a1
	snez	a2, a2
	or	a1, a1, a2
	beqz	a1, .LBB107_34
	j	.LBB107_35
.LBB107_25:
	li	a5, 4
	mv	a4, a1
	bltu	a6, a1, .LBB107_23
.LBB107_26:
	li	a4, 4
	beqz	a2, .LBB107_24
.LBB107_27:
	mv	a4, a5
	lui	a5, 256
	sltu	a1, a5, a1
	snez	a2, a2
	or	a1, a1, a2
	beqz	a1, .LBB107_34
	j	.LBB107_35
.LBB107_28:
	slli	t3, t3, 5
	add	a6, a6, t3
	mulhu	a4, a6, a1
	mul	a5, a6, a1
	add	a1, a5, a2
	sltu	a2, a1, a5
	add	a4, a4, a7
	add	a2, a2, a4
.LBB107_29:
	li	a6, 4
	mv	a5, a1
	beqz	a2, .LBB107_36
	mv	a4, a1
	bgeu	a6, a1, .LBB107_37
.LBB107_31:
	beqz	a2, .LBB107_33
.LBB107_32:
	mv	a4, a5
.LBB107_33:
	seqz	a2, a2
	lui	a5, 4096
	addi	a5, a5, 1
	sltu	a1, a1, a5
	and	a1, a1, a2
	beqz	a1, .LBB107_35
.LBB107_34:
	li	a0, 0
	sw	a4, 0(a3)
.LBB107_35:
	ret
.LBB107_36:
	li	a5, 4
	mv	a4, a1
	bltu	a6, a1, .LBB107_31
.LBB107_37:
	li	a4, 4
	bnez	a2, .LBB107_32
	j	.LBB107_33
.Lfunc_end107:
	.size	tlsf_words, .Lfunc_end107-tlsf_words
	.cfi_endproc
	.section	.text.tlsf_offsets_report,"ax",@progbits
	.globl	tlsf_offsets_report
	.p2align	1
	.type	tlsf_offsets_report,@function
tlsf_offsets_report:
	.cfi_startproc
	lbu	a2, 8(a0)
	beqz	a2, .LBB108_20
	lw	a6, 0(a0)
	lbu	a0, 1(a6)
	beqz	a0, .LBB108_20
	lbu	a0, 0(a6)
	bnez	a0, .LBB108_21
	addi	sp, sp, -32
	.cfi_def_cfa_offset 32
	sw	s0, 28(sp)
	sw	s1, 24(sp)
	sw	s2, 20(sp)
	sw	s3, 16(sp)
	sw	s4, 12(sp)
	sw	s5, 8(sp)
	sw	s6, 4(sp)
	.cfi_offset s0, -4
	.cfi_offset s1, -8
	.cfi_offset s2, -12
	.cfi_offset s3, -16
	.cfi_offset s4, -20
	.cfi_offset s5, -24
	.cfi_offset s6, -28
	lbu	a0, 8(a6)
	lw	t2, 48(a6)
	sb	zero, 1(a6)
	beqz	a0, .LBB108_11
	beqz	t2, .LBB108_18
	li	a2, 0
	li	t3, 0
	li	a7, 0
	li	t1, 0
	lw	a3, 40(a6)
	li	a0, 0
	j	.LBB108_7
.LBB108_6:
	addi	a0, a0, 1
	add	t1, t1, a5
	add	a2, a2, a5
	bgeu	a2, t2, .LBB108_19
.LBB108_7:
	slli	a4, a2, 3
	add	a4, a4, a3
	lw	a5, 0(a4)
	andi	a4, a5, 1
	srli	a5, a5, 2
	beqz	a4, .LBB108_6
	mv	a4, a5
	bltu	t3, a5, .LBB108_10
	mv	a4, t3
.LBB108_10:
	add	a7, a7, a5
	mv	t3, a4
	add	a2, a2, a5
	bltu	a2, t2, .LBB108_7
	j	.LBB108_19
.LBB108_11:
	beqz	t2, .LBB108_18
	li	a2, 0
	li	t3, 0
	li	a7, 0
	li	t1, 0
	lw	t0, 40(a6)
	li	a0, 0
	j	.LBB108_14
.LBB108_13:
	addi	a0, a0, 1
	add	t1, t1, a3
	add	a2, a2, a3
	bgeu	a2, t2, .LBB108_19
.LBB108_14:
	slli	a3, a2, 3
	add	a3, a3, t0
	lw	a3, 0(a3)
	andi	a4, a3, 1
	srli	a3, a3, 2
	beqz	a4, .LBB108_13
	mv	a5, a3
	bltu	t3, a3, .LBB108_17
	mv	a5, t3
.LBB108_17:
	add	a7, a7, a3
	mv	t3, a5
	add	a2, a2, a3
	bltu	a2, t2, .LBB108_14
	j	.LBB108_19
.LBB108_18:
	li	t1, 0
	li	a7, 0
	li	t3, 0
	li	a0, 0
.LBB108_19:
	addi	t0, a6, 2047
	li	t2, 1
	srli	a3, a0, 24
	srli	a5, a0, 16
	srli	a2, a0, 8
	lw	a4, 705(t0)
	sb	t2, 1(a6)
	sb	a0, 0(a1)
	sb	a2, 1(a1)
	sb	a5, 2(a1)
	sb	a3, 3(a1)
	sb	zero, 4(a1)
	sb	zero, 5(a1)
	sb	zero, 6(a1)
	sb	zero, 7(a1)
	mul	a5, a4, t1
	mulhu	a0, a4, t1
	mul	a3, a4, a7
	mulhu	a2, a4, a7
	mul	a6, a4, t3
	mulhu	a4, a4, t3
	srli	a7, a0, 24
	srli	t0, a0, 16
	srli	t1, a0, 8
	srli	t2, a5, 24
	srli	t3, a5, 16
	srli	t4, a5, 8
	srli	t5, a2, 24
	srli	t6, a2, 16
	srli	s5, a2, 8
	srli	s2, a3, 24
	srli	s3, a3, 16
	srli	s6, a3, 8
	srli	s4, a4, 24
	srli	s0, a4, 16
	srli	s1, a4, 8
	sb	a0, 12(a1)
	sb	t1, 13(a1)
	sb	t0, 14(a1)
	sb	a7, 15(a1)
	srli	a0, a6, 24
	sb	a5, 8(a1)
	sb	t4, 9(a1)
	sb	t3, 10(a1)
	sb	t2, 11(a1)
	srli	a5, a6, 16
	sb	a2, 20(a1)
	sb	s5, 21(a1)
	sb	t6, 22(a1)
	sb	t5, 23(a1)
	srli	a2, a6, 8
	sb	a3, 16(a1)
	sb	s6, 17(a1)
	sb	s3, 18(a1)
	sb	s2, 19(a1)
	sb	a4, 28(a1)
	sb	s1, 29(a1)
	sb	s0, 30(a1)
	sb	s4, 31(a1)
	sb	a6, 24(a1)
	sb	a2, 25(a1)
	sb	a5, 26(a1)
	sb	a0, 27(a1)
	li	a0, 0
	lw	s0, 28(sp)
	lw	s1, 24(sp)
	lw	s2, 20(sp)
	lw	s3, 16(sp)
	lw	s4, 12(sp)
	lw	s5, 8(sp)
	lw	s6, 4(sp)
	.cfi_restore s0
	.cfi_restore s1
	.cfi_restore s2
	.cfi_restore s3
	.cfi_restore s4
	.cfi_restore s5
	.cfi_restore s6
	addi	sp, sp, 32
	.cfi_def_cfa_offset 0
	ret
.LBB108_20:
	li	a0, 0
	tail	tlsf_c.call_fault.CallFault.refusal
.LBB108_21:
	li	a0, 2
	tail	tlsf_c.call_fault.CallFault.refusal
.Lfunc_end108:
	.size	tlsf_offsets_report, .Lfunc_end108-tlsf_offsets_report
	.cfi_endproc
	.section	.text.tlsf_write,"ax",@progbits
	.globl	tlsf_write
	.p2align	1
	.type	tlsf_write,@function
tlsf_write:
	.cfi_startproc
	addi	sp, sp, -16
	.cfi_def_cfa_offset 16
	sw	ra, 12(sp)
	sw	s0, 8(sp)
	sw	s1, 4(sp)
	sw	s2, 0(sp)
	.cfi_offset ra, -4
	.cfi_offset s0, -8
	.cfi_offset s1, -12
	.cfi_offset s2, -16
	.cfi_remember_state
	mv	a5, a0
	lbu	s1, 8(a0)
	li	a0, 32
	beqz	s1, .LBB109_27
	lw	s2, 0(a5)
	lbu	a5, 0(s2)
	beqz	a5, .LBB109_27
	lw	a0, 0(a1)
	mv	a5, a1
	lw	a1, 4(a1)
	lw	a7, 8(a5)
	lw	t0, 12(a5)
	seqz	s0, a3
	lbu	s1, 16(s2)
	lw	a5, 24(s2)
	slli	s0, s0, 12
	add	a3, a3, s0
	sb	zero, 0(s2)
	beqz	s1, .LBB109_7
	bne	a5, a0, .LBB109_24
	lw	s1, 56(s2)
	mv	a5, a0
	bgeu	a1, s1, .LBB109_24
	lw	a5, 72(s2)
	srli	s1, a1, 3
	andi	s1, s1, -8
	add	a5, a5, s1
	lw	a6, 4(a5)
	andi	s1, a1, 63
	addi	s0, s1, -32
	bltz	s0, .LBB109_11
	srl	a5, a6, s1
	j	.LBB109_12
.LBB109_7:
	bne	a5, a0, .LBB109_24
	lw	s1, 56(s2)
	mv	a5, a0
	bgeu	a1, s1, .LBB109_24
	lw	a5, 72(s2)
	srli	s1, a1, 3
	andi	s1, s1, -8
	add	a5, a5, s1
	lw	a6, 4(a5)
	andi	s1, a1, 63
	addi	s0, s1, -32
	bltz	s0, .LBB109_17
	srl	a5, a6, s1
	j	.LBB109_18
.LBB109_11:
	lw	a5, 0(a5)
	slli	a6, a6, 1
	not	s1, s1
	srl	s0, a5, a1
	sll	a5, a6, s1
	or	a5, a5, s0
.LBB109_12:
	andi	s1, a5, 1
	mv	a5, a0
	beqz	s1, .LBB109_24
	addi	a6, s2, 48
	lw	s0, 0(a6)
	slli	a5, a1, 3
	add	s0, s0, a5
	lbu	a5, 0(s0)
	andi	s1, a5, 1
	mv	a5, a0
	bnez	s1, .LBB109_24
	lw	a5, 12(s0)
	lw	s1, 8(s0)
	xor	a5, a5, t0
	xor	s1, s1, a7
	or	s1, s1, a5
	mv	a5, a0
	bnez	s1, .LBB109_24
	lw	a0, 16(s0)
	add	a5, a4, a2
	sltu	s1, a5, a4
	sltu	a0, a0, a5
	or	a0, a0, s1
	bnez	a0, .LBB109_22
	mv	a0, a6
	li	a5, 0
	call	tlsf_heap.region.Region.write.5
	li	a0, 0
	j	.LBB109_25
.LBB109_17:
	lw	a5, 0(a5)
	slli	a6, a6, 1
	not	s1, s1
	srl	s0, a5, a1
	sll	a5, a6, s1
	or	a5, a5, s0
.LBB109_18:
	andi	s1, a5, 1
	mv	a5, a0
	beqz	s1, .LBB109_24
	addi	a6, s2, 48
	lw	t1, 0(a6)
	slli	a5, a1, 3
	add	t1, t1, a5
	lbu	a5, 0(t1)
	andi	s1, a5, 1
	mv	a5, a0
	bnez	s1, .LBB109_24
	lw	a5, 12(t1)
	lw	s1, 8(t1)
	xor	a5, a5, t0
	xor	s1, s1, a7
	or	s1, s1, a5
	mv	a5, a0
	bnez	s1, .LBB109_24
	lw	a0, 16(t1)
	add	a5, a4, a2
	sltu	s1, a5, a4
	sltu	a0, a0, a5
	or	a0, a0, s1
	beqz	a0, .LBB109_28
.LBB109_22:
	li	a0, 4
	li	a1, 1
	andi	a1, a1, 1
	beqz	a1, .LBB109_25
.LBB109_23:
	zext.b	a0, a0
	slli	a0, a0, 2
	lui	a1, %hi(.Lswitch.table.tlsf_write)
	addi	a1, a1, %lo(.Lswitch.table.tlsf_write)
	add	a0, a0, a1
	lw	a0, 0(a0)
	j	.LBB109_26
.LBB109_24:
	mv	a1, a5
	call	tlsf_heap.refusal.Refusal.of_name
	li	a1, 1
	andi	a1, a1, 1
	bnez	a1, .LBB109_23
.LBB109_25:
	li	a0, 0
.LBB109_26:
	li	a1, 1
	sb	a1, 0(s2)
.LBB109_27:
	lw	ra, 12(sp)
	lw	s0, 8(sp)
	lw	s1, 4(sp)
	lw	s2, 0(sp)
	.cfi_restore ra
	.cfi_restore s0
	.cfi_restore s1
	.cfi_restore s2
	addi	sp, sp, 16
	.cfi_def_cfa_offset 0
	ret
.LBB109_28:
	.cfi_restore_state
	mv	a0, a6
	li	a5, 0
	call	tlsf_heap.region.Region.write.4
	li	a0, 0
	j	.LBB109_25
.Lfunc_end109:
	.size	tlsf_write, .Lfunc_end109-tlsf_write
	.cfi_endproc
	.section	.text.tlsf_pools_write,"ax",@progbits
	.globl	tlsf_pools_write
	.p2align	1
	.type	tlsf_pools_write,@function
tlsf_pools_write:
	.cfi_startproc
	addi	sp, sp, -16
	.cfi_def_cfa_offset 16
	sw	ra, 12(sp)
	sw	s0, 8(sp)
	sw	s1, 4(sp)
	sw	s2, 0(sp)
	.cfi_offset ra, -4
	.cfi_offset s0, -8
	.cfi_offset s1, -12
	.cfi_offset s2, -16
	.cfi_remember_state
	lbu	s0, 8(a0)
	beqz	s0, .LBB110_17
	lw	s2, 0(a0)
	lbu	a0, 1(s2)
	beqz	a0, .LBB110_17
	mv	a5, a1
	lbu	a0, 0(s2)
	li	a1, 1
	bne	a0, a1, .LBB110_24
	lw	a0, 0(a5)
	lw	a1, 4(a5)
	lw	a7, 8(a5)
	lw	t0, 12(a5)
	seqz	s0, a3
	lbu	s1, 8(s2)
	lw	a5, 16(s2)
	lw	a6, 24(s2)
	slli	s0, s0, 12
	add	a3, a3, s0
	sb	zero, 1(s2)
	beqz	s1, .LBB110_10
	bltu	a0, a5, .LBB110_16
	lw	s1, 32(s2)
	lw	s0, 36(s2)
	sub	a5, a0, a5
	sltu	s1, a5, s1
	snez	s0, s0
	or	s0, s0, s1
	beqz	s0, .LBB110_16
	lui	s1, 1
	addi	s1, s1, -1304
	mul	a5, a5, s1
	add	a6, a6, a5
	lw	a5, 0(a6)
	bne	a5, a0, .LBB110_31
	lw	s1, 32(a6)
	mv	a5, a0
	bgeu	a1, s1, .LBB110_31
	lw	t2, 48(a6)
	srli	a5, a1, 3
	andi	a5, a5, -8
	add	t2, t2, a5
	lw	t1, 4(t2)
	andi	s1, a1, 63
	addi	a5, s1, -32
	bltz	a5, .LBB110_18
	srl	a5, t1, s1
	j	.LBB110_19
.LBB110_10:
	bltu	a0, a5, .LBB110_16
	lw	s1, 32(s2)
	lw	s0, 36(s2)
	sub	a5, a0, a5
	sltu	s1, a5, s1
	snez	s0, s0
	or	s0, s0, s1
	beqz	s0, .LBB110_16
	lui	s1, 1
	addi	s1, s1, -1304
	mul	a5, a5, s1
	add	a6, a6, a5
	lw	a5, 0(a6)
	bne	a5, a0, .LBB110_31
	lw	s1, 32(a6)
	mv	a5, a0
	bgeu	a1, s1, .LBB110_31
	lw	t2, 48(a6)
	srli	a5, a1, 3
	andi	a5, a5, -8
	add	t2, t2, a5
	lw	t1, 4(t2)
	andi	s1, a1, 63
	addi	a5, s1, -32
	bltz	a5, .LBB110_25
	srl	a5, t1, s1
	j	.LBB110_26
.LBB110_16:
	li	a0, 1
	sb	a0, 1(s2)
	li	a0, 3
	lw	ra, 12(sp)
	lw	s0, 8(sp)
	lw	s1, 4(sp)
	lw	s2, 0(sp)
	.cfi_restore ra
	.cfi_restore s0
	.cfi_restore s1
	.cfi_restore s2
	addi	sp, sp, 16
	.cfi_def_cfa_offset 0
	ret
.LBB110_17:
	.cfi_restore_state
	.cfi_remember_state
	li	a0, 0
	lw	ra, 12(sp)
	lw	s0, 8(sp)
	lw	s1, 4(sp)
	lw	s2, 0(sp)
	.cfi_restore ra
	.cfi_restore s0
	.cfi_restore s1
	.cfi_restore s2
	addi	sp, sp, 16
	.cfi_def_cfa_offset 0
	tail	tlsf_c.call_fault.CallFault.refusal
.LBB110_18:
	.cfi_restore_state
	.cfi_remember_state
	lw	a5, 0(t2)
	slli	t1, t1, 1
	not	s1, s1
	srl	s0, a5, a1
	sll	a5, t1, s1
	or	a5, a5, s0
.LBB110_19:
	andi	s1, a5, 1
	mv	a5, a0
	beqz	s1, .LBB110_31
	addi	a6, a6, 24
	lw	t1, 0(a6)
	slli	a5, a1, 3
	add	t1, t1, a5
	lbu	a5, 0(t1)
	andi	s1, a5, 1
	mv	a5, a0
	bnez	s1, .LBB110_31
	lw	a5, 12(t1)
	lw	s1, 8(t1)
	xor	a5, a5, t0
	xor	s1, s1, a7
	or	s1, s1, a5
	mv	a5, a0
	bnez	s1, .LBB110_31
	lw	a0, 16(t1)
	add	a5, a4, a2
	sltu	s1, a5, a4
	sltu	a0, a0, a5
	or	a0, a0, s1
	bnez	a0, .LBB110_30
	mv	a0, a6
	li	a5, 0
	call	tlsf_heap.region.Region.write.5
	j	.LBB110_33
.LBB110_24:
	li	a0, 2
	lw	ra, 12(sp)
	lw	s0, 8(sp)
	lw	s1, 4(sp)
	lw	s2, 0(sp)
	.cfi_restore ra
	.cfi_restore s0
	.cfi_restore s1
	.cfi_restore s2
	addi	sp, sp, 16
	.cfi_def_cfa_offset 0
	tail	tlsf_c.call_fault.CallFault.refusal
.LBB110_25:
	.cfi_restore_state
	.cfi_remember_state
	lw	a5, 0(t2)
	slli	t1, t1, 1
	not	s1, s1
	srl	s0, a5, a1
	sll	a5, t1, s1
	or	a5, a5, s0
.LBB110_26:
	andi	s1, a5, 1
	mv	a5, a0
	beqz	s1, .LBB110_31
	addi	a6, a6, 24
	lw	t1, 0(a6)
	slli	a5, a1, 3
	add	t1, t1, a5
	lbu	a5, 0(t1)
	andi	s1, a5, 1
	mv	a5, a0
	bnez	s1, .LBB110_31
	lw	a5, 12(t1)
	lw	s1, 8(t1)
	xor	a5, a5, t0
	xor	s1, s1, a7
	or	s1, s1, a5
	mv	a5, a0
	bnez	s1, .LBB110_31
	lw	a0, 16(t1)
	add	a5, a4, a2
	sltu	s1, a5, a4
	sltu	a0, a0, a5
	or	a0, a0, s1
	beqz	a0, .LBB110_32
.LBB110_30:
	li	a0, 1
	sb	a0, 1(s2)
	li	a0, 7
	lw	ra, 12(sp)
	lw	s0, 8(sp)
	lw	s1, 4(sp)
	lw	s2, 0(sp)
	.cfi_restore ra
	.cfi_restore s0
	.cfi_restore s1
	.cfi_restore s2
	addi	sp, sp, 16
	.cfi_def_cfa_offset 0
	ret
.LBB110_31:
	.cfi_restore_state
	.cfi_remember_state
	mv	a1, a5
	call	tlsf_heap.refusal.Refusal.of_name
	zext.b	a0, a0
	li	a1, 1
	sb	a1, 1(s2)
	addi	a0, a0, -3
	seqz	a0, a0
	addi	a0, a0, 3
	lw	ra, 12(sp)
	lw	s0, 8(sp)
	lw	s1, 4(sp)
	lw	s2, 0(sp)
	.cfi_restore ra
	.cfi_restore s0
	.cfi_restore s1
	.cfi_restore s2
	addi	sp, sp, 16
	.cfi_def_cfa_offset 0
	ret
.LBB110_32:
	.cfi_restore_state
	mv	a0, a6
	li	a5, 0
	call	tlsf_heap.region.Region.write.4
.LBB110_33:
	li	a0, 0
	li	a1, 1
	sb	a1, 1(s2)
	lw	ra, 12(sp)
	lw	s0, 8(sp)
	lw	s1, 4(sp)
	lw	s2, 0(sp)
	.cfi_restore ra
	.cfi_restore s0
	.cfi_restore s1
	.cfi_restore s2
	addi	sp, sp, 16
	.cfi_def_cfa_offset 0
	ret
.Lfunc_end110:
	.size	tlsf_pools_write, .Lfunc_end110-tlsf_pools_write
	.cfi_endproc
	.type	.Lstatic.0,@object
	.section	.rodata.cst8,"aM",@progbits,8
.Lstatic.0:
	.zero	8
	.size	.Lstatic.0, 8
	.type	.Lswitch.table.tlsf_queue_take,@object
	.section	.rodata..Lswitch.table.tlsf_queue_take,"a",@progbits
	.p2align	2, 0x0
.Lswitch.table.tlsf_queue_take:
	.word	32
	.word	36
	.word	40
	.word	5
	.word	6
	.word	33
	.word	34
	.word	8
	.word	35
	.word	37
	.word	38
	.size	.Lswitch.table.tlsf_queue_take, 44
	.type	.Lswitch.table.tlsf_write,@object
	.section	.rodata..Lswitch.table.tlsf_write,"a",@progbits
	.p2align	2, 0x0
.Lswitch.table.tlsf_write:
	.word	1
	.word	2
	.word	3
	.word	4
	.word	7
	.size	.Lswitch.table.tlsf_write, 20
	.ident	"rattle logic=dac8208d650f15bf3e2dc313a14fa4c783a3acf887bdfab66e1714b038d9e11b"
	.section	".note.GNU-stack","",@progbits
/* The calls in C: c/pointers.c. */
	.section	.text.tlsf_rounded,"ax",@progbits
	.globl	tlsf_rounded
	.p2align	1
	.type	tlsf_rounded,@function
tlsf_rounded:
	.cfi_sections .debug_frame
	.cfi_startproc
	sltiu	a1, a0, -15
	addi	a0, a0, 7
	andi	a0, a0, -16
	addi	a1, a1, -1
	or	a0, a0, a1
	ori	a0, a0, 8
	ret
.Lp_func_end0:
	.size	tlsf_rounded, .Lp_func_end0-tlsf_rounded
	.cfi_endproc
	.section	.text.tlsf_place_of,"ax",@progbits
	.globl	tlsf_place_of
	.p2align	1
	.type	tlsf_place_of,@function
tlsf_place_of:
	.cfi_startproc
	lw	a0, 16(a0)
	sub	a1, a1, a0
	addi	a1, a1, -24
	srli	a0, a1, 3
	slli	a1, a1, 29
	seqz	a1, a1
	addi	a1, a1, -1
	or	a0, a0, a1
	ret
.Lp_func_end1:
	.size	tlsf_place_of, .Lp_func_end1-tlsf_place_of
	.cfi_endproc
	.section	.text.tlsf_near,"ax",@progbits
	.globl	tlsf_near
	.p2align	1
	.type	tlsf_near,@function
tlsf_near:
	.cfi_startproc
	neg	a1, a0
	andi	a1, a1, 63
	add	a0, a0, a1
	ret
.Lp_func_end2:
	.size	tlsf_near, .Lp_func_end2-tlsf_near
	.cfi_endproc
	.section	.text.tlsf_base,"ax",@progbits
	.globl	tlsf_base
	.p2align	1
	.type	tlsf_base,@function
tlsf_base:
	.cfi_startproc
	lbu	a1, 8(a0)
	beqz	a1, .Lp_BB3_2
	lw	a0, 16(a0)
	ret
.Lp_BB3_2:
	li	a0, 0
	ret
.Lp_func_end3:
	.size	tlsf_base, .Lp_func_end3-tlsf_base
	.cfi_endproc
	.section	.text.tlsf_at,"ax",@progbits
	.globl	tlsf_at
	.p2align	1
	.type	tlsf_at,@function
tlsf_at:
	.cfi_startproc
	beqz	a0, .Lp_BB4_2
	lw	a1, 4(a1)
	slli	a1, a1, 3
	add	a0, a0, a1
	addi	a0, a0, 24
.Lp_BB4_2:
	ret
.Lp_func_end4:
	.size	tlsf_at, .Lp_func_end4-tlsf_at
	.cfi_endproc
	.section	.text.tlsf_block_size,"ax",@progbits
	.globl	tlsf_block_size
	.p2align	1
	.type	tlsf_block_size,@function
tlsf_block_size:
	.cfi_startproc
	beqz	a0, .Lp_BB5_2
	lbu	a1, -7(a0)
	lbu	a2, -8(a0)
	lbu	a3, -6(a0)
	lbu	a0, -5(a0)
	slli	a1, a1, 8
	or	a1, a1, a2
	slli	a3, a3, 16
	slli	a0, a0, 24
	or	a0, a0, a3
	or	a0, a0, a1
.Lp_BB5_2:
	ret
.Lp_func_end5:
	.size	tlsf_block_size, .Lp_func_end5-tlsf_block_size
	.cfi_endproc
	.section	.text.tlsf_aligned_alloc,"ax",@progbits
	.globl	tlsf_aligned_alloc
	.p2align	1
	.type	tlsf_aligned_alloc,@function
tlsf_aligned_alloc:
	.cfi_startproc
	addi	sp, sp, -32
	.cfi_def_cfa_offset 32
	sw	ra, 28(sp)
	sw	s0, 24(sp)
	.cfi_offset ra, -4
	.cfi_offset s0, -8
	.cfi_remember_state
	mv	a3, a1
	addi	a1, a1, -1
	xor	a4, a3, a1
	mv	s0, a0
	bgeu	a1, a4, .Lp_BB6_6
	lui	a0, 32768
	bltu	a0, a3, .Lp_BB6_13
	addi	a0, a0, 1
	bgeu	a2, a0, .Lp_BB6_13
	lbu	a0, 28(s0)
	bnez	a0, .Lp_BB6_14
	addi	a2, a2, 7
	lui	a0, 131072
	addi	a0, a0, -16
	and	a0, a0, a2
	li	a4, 16
	addi	a2, a0, 8
	bltu	a4, a3, .Lp_BB6_8
	addi	a0, sp, 8
	mv	a1, s0
	call	tlsf_allocate_place
	j	.Lp_BB6_9
.Lp_BB6_6:
	li	a0, 5
.Lp_BB6_7:
	sw	zero, 8(sp)
	sw	a0, 12(sp)
	j	.Lp_BB6_9
.Lp_BB6_8:
	lw	a0, 16(s0)
	srli	a3, a3, 3
	and	a0, a0, a1
	srli	a4, a0, 3
	addi	a0, sp, 8
	mv	a1, s0
	call	tlsf_allocate_aligned
.Lp_BB6_9:
	lw	a0, 12(sp)
	beqz	a0, .Lp_BB6_11
	li	a0, 0
	j	.Lp_BB6_12
.Lp_BB6_11:
	lw	a0, 8(sp)
	lw	a1, 16(s0)
	slli	a0, a0, 3
	add	a0, a0, a1
	addi	a0, a0, 24
.Lp_BB6_12:
	lw	ra, 28(sp)
	lw	s0, 24(sp)
	.cfi_restore ra
	.cfi_restore s0
	addi	sp, sp, 32
	.cfi_def_cfa_offset 0
	ret
.Lp_BB6_13:
	.cfi_restore_state
	mv	a0, s0
	call	tlsf_too_long
	j	.Lp_BB6_7
.Lp_BB6_14:
	addi	a0, sp, 8
	mv	a1, s0
	call	tlsf_mixed_place
	j	.Lp_BB6_9
.Lp_func_end6:
	.size	tlsf_aligned_alloc, .Lp_func_end6-tlsf_aligned_alloc
	.cfi_endproc
	.section	.text.tlsf_malloc,"ax",@progbits
	.globl	tlsf_malloc
	.p2align	1
	.type	tlsf_malloc,@function
tlsf_malloc:
	.cfi_startproc
	lbu	a2, 28(a0)
	bnez	a2, .Lp_BB7_4
	addi	sp, sp, -16
	.cfi_def_cfa_offset 16
	sw	ra, 12(sp)
	sw	s0, 8(sp)
	.cfi_offset ra, -4
	.cfi_offset s0, -8
	mv	s0, a0
	call	tlsf_allocate_payload
	beqz	a0, .Lp_BB7_3
	lw	a1, 16(s0)
	add	a0, a0, a1
.Lp_BB7_3:
	lw	ra, 12(sp)
	lw	s0, 8(sp)
	.cfi_restore ra
	.cfi_restore s0
	addi	sp, sp, 16
	.cfi_def_cfa_offset 0
	ret
.Lp_BB7_4:
	tail	tlsf_malloc_mixed
.Lp_func_end7:
	.size	tlsf_malloc, .Lp_func_end7-tlsf_malloc
	.cfi_endproc
	.section	.text.unlikely.tlsf_malloc_mixed,"ax",@progbits
	.p2align	1
	.type	tlsf_malloc_mixed,@function
tlsf_malloc_mixed:
	.cfi_startproc
	tail	tlsf_malloc_own
.Lp_func_end8:
	.size	tlsf_malloc_mixed, .Lp_func_end8-tlsf_malloc_mixed
	.cfi_endproc
	.section	.text.tlsf_words_for,"ax",@progbits
	.globl	tlsf_words_for
	.p2align	1
	.type	tlsf_words_for,@function
tlsf_words_for:
	.cfi_startproc
	li	a5, 16
	bltu	a5, a3, .Lp_BB9_2
	li	a3, 16
.Lp_BB9_2:
	lui	a5, 32768
	bltu	a3, a5, .Lp_BB9_4
	lui	a3, 32768
.Lp_BB9_4:
	bltu	a2, a5, .Lp_BB9_6
	lui	a2, 32768
.Lp_BB9_6:
	addi	a2, a2, 7
	lui	a5, 131072
	addi	a5, a5, -16
	and	a2, a2, a5
	add	a2, a2, a3
	addi	a2, a2, 40
	mv	a3, a4
	tail	tlsf_words
.Lp_func_end9:
	.size	tlsf_words_for, .Lp_func_end9-tlsf_words_for
	.cfi_endproc
	.section	.text.tlsf_calloc,"ax",@progbits
	.globl	tlsf_calloc
	.p2align	1
	.type	tlsf_calloc,@function
tlsf_calloc:
	.cfi_startproc
	addi	sp, sp, -32
	.cfi_def_cfa_offset 32
	sw	ra, 28(sp)
	sw	s0, 24(sp)
	sw	s1, 20(sp)
	.cfi_offset ra, -4
	.cfi_offset s0, -8
	.cfi_offset s1, -12
	.cfi_remember_state
	mv	s0, a0
	sw	zero, 0(sp)
	sw	zero, 4(sp)
	sw	zero, 8(sp)
	sw	zero, 12(sp)
	beqz	a2, .Lp_BB10_2
	lui	a0, 32768
	divu	a0, a0, a2
	bltu	a0, a1, .Lp_BB10_6
.Lp_BB10_2:
	lbu	a0, 28(s0)
	mul	s1, a2, a1
	beqz	a0, .Lp_BB10_5
	mv	a0, s0
	mv	a1, s1
	call	tlsf_malloc
	beqz	a0, .Lp_BB10_7
	li	a1, 0
	mv	a2, s1
	lw	ra, 28(sp)
	lw	s0, 24(sp)
	lw	s1, 20(sp)
	.cfi_restore ra
	.cfi_restore s0
	.cfi_restore s1
	addi	sp, sp, 32
	.cfi_def_cfa_offset 0
	tail	memset
.Lp_BB10_5:
	.cfi_restore_state
	.cfi_remember_state
	sltiu	a0, s1, -15
	addi	s1, s1, 7
	andi	s1, s1, -16
	addi	a0, a0, -1
	or	a0, a0, s1
	ori	a1, a0, 8
	mv	a2, sp
	mv	a0, s0
	call	tlsf_allocate
	beqz	a0, .Lp_BB10_8
.Lp_BB10_6:
	li	a0, 0
.Lp_BB10_7:
	lw	ra, 28(sp)
	lw	s0, 24(sp)
	lw	s1, 20(sp)
	.cfi_restore ra
	.cfi_restore s0
	.cfi_restore s1
	addi	sp, sp, 32
	.cfi_def_cfa_offset 0
	ret
.Lp_BB10_8:
	.cfi_restore_state
	lw	a0, 4(sp)
	lw	a1, 16(s0)
	slli	a0, a0, 3
	add	a0, a0, a1
	addi	a0, a0, 24
	j	.Lp_BB10_7
.Lp_func_end10:
	.size	tlsf_calloc, .Lp_func_end10-tlsf_calloc
	.cfi_endproc
	.section	.text.tlsf_free,"ax",@progbits
	.globl	tlsf_free
	.p2align	1
	.type	tlsf_free,@function
tlsf_free:
	.cfi_startproc
	beqz	a1, .Lp_BB11_2
	lw	a2, 16(a0)
	sub	a1, a1, a2
	addi	a1, a1, -24
	srli	a2, a1, 3
	slli	a1, a1, 29
	seqz	a1, a1
	addi	a1, a1, -1
	or	a1, a1, a2
	tail	tlsf_release_place
.Lp_BB11_2:
	li	a0, 0
	ret
.Lp_func_end11:
	.size	tlsf_free, .Lp_func_end11-tlsf_free
	.cfi_endproc
	.section	.text.tlsf_usable_size,"ax",@progbits
	.globl	tlsf_usable_size
	.p2align	1
	.type	tlsf_usable_size,@function
tlsf_usable_size:
	.cfi_startproc
	addi	sp, sp, -32
	.cfi_def_cfa_offset 32
	sw	ra, 28(sp)
	.cfi_offset ra, -4
	lw	a2, 16(a0)
	sw	zero, 8(sp)
	sw	zero, 12(sp)
	sw	zero, 16(sp)
	sw	zero, 20(sp)
	sw	zero, 4(sp)
	sub	a1, a1, a2
	addi	a1, a1, -24
	srli	a2, a1, 3
	slli	a1, a1, 29
	seqz	a1, a1
	addi	a1, a1, -1
	or	a1, a1, a2
	addi	a2, sp, 8
	addi	a3, sp, 4
	call	tlsf_place
	lw	a1, 4(sp)
	snez	a0, a0
	addi	a0, a0, -1
	and	a0, a0, a1
	lw	ra, 28(sp)
	.cfi_restore ra
	addi	sp, sp, 32
	.cfi_def_cfa_offset 0
	ret
.Lp_func_end12:
	.size	tlsf_usable_size, .Lp_func_end12-tlsf_usable_size
	.cfi_endproc
	.section	.text.tlsf_name_at,"ax",@progbits
	.globl	tlsf_name_at
	.p2align	1
	.type	tlsf_name_at,@function
tlsf_name_at:
	.cfi_startproc
	addi	sp, sp, -32
	.cfi_def_cfa_offset 32
	sw	ra, 28(sp)
	sw	s0, 24(sp)
	.cfi_offset ra, -4
	.cfi_offset s0, -8
	mv	s0, a2
	lw	a2, 16(a0)
	sw	zero, 8(sp)
	sw	zero, 12(sp)
	sw	zero, 16(sp)
	sw	zero, 20(sp)
	sw	zero, 4(sp)
	sub	a1, a1, a2
	addi	a1, a1, -24
	srli	a2, a1, 3
	slli	a1, a1, 29
	seqz	a1, a1
	addi	a1, a1, -1
	or	a1, a1, a2
	addi	a2, sp, 8
	addi	a3, sp, 4
	call	tlsf_place
	bnez	a0, .Lp_BB13_2
	lw	a1, 8(sp)
	lw	a2, 12(sp)
	lw	a3, 16(sp)
	lw	a4, 20(sp)
	sw	a1, 0(s0)
	sw	a2, 4(s0)
	sw	a3, 8(s0)
	sw	a4, 12(s0)
.Lp_BB13_2:
	lw	ra, 28(sp)
	lw	s0, 24(sp)
	.cfi_restore ra
	.cfi_restore s0
	addi	sp, sp, 32
	.cfi_def_cfa_offset 0
	ret
.Lp_func_end13:
	.size	tlsf_name_at, .Lp_func_end13-tlsf_name_at
	.cfi_endproc
	.section	.text.tlsf_realloc,"ax",@progbits
	.globl	tlsf_realloc
	.p2align	1
	.type	tlsf_realloc,@function
tlsf_realloc:
	.cfi_startproc
	addi	sp, sp, -16
	.cfi_def_cfa_offset 16
	sw	ra, 12(sp)
	sw	s0, 8(sp)
	.cfi_offset ra, -4
	.cfi_offset s0, -8
	.cfi_remember_state
	mv	s0, a0
	beqz	a1, .Lp_BB14_6
	beqz	a2, .Lp_BB14_7
	lui	a0, 32768
	bltu	a0, a2, .Lp_BB14_8
	lbu	a0, 28(s0)
	bnez	a0, .Lp_BB14_10
	lw	a0, 16(s0)
	addi	a2, a2, 7
	lui	a3, 131072
	addi	a3, a3, -16
	and	a2, a2, a3
	sub	a1, a1, a0
	addi	a1, a1, -24
	srli	a0, a1, 3
	slli	a1, a1, 29
	seqz	a1, a1
	addi	a1, a1, -1
	or	a1, a1, a0
	addi	a2, a2, 8
	sw	a1, 4(sp)
	addi	a3, sp, 4
	mv	a0, s0
	call	tlsf_resize_place
	bnez	a0, .Lp_BB14_8
	lw	a0, 4(sp)
	lw	a1, 16(s0)
	slli	a0, a0, 3
	add	a0, a0, a1
	addi	a0, a0, 24
	j	.Lp_BB14_9
.Lp_BB14_6:
	mv	a0, s0
	mv	a1, a2
	lw	ra, 12(sp)
	lw	s0, 8(sp)
	.cfi_restore ra
	.cfi_restore s0
	addi	sp, sp, 16
	.cfi_def_cfa_offset 0
	tail	tlsf_malloc
.Lp_BB14_7:
	.cfi_restore_state
	.cfi_remember_state
	lw	a0, 16(s0)
	sub	a1, a1, a0
	addi	a1, a1, -24
	srli	a0, a1, 3
	slli	a1, a1, 29
	seqz	a1, a1
	addi	a1, a1, -1
	or	a1, a1, a0
	mv	a0, s0
	call	tlsf_release_place
.Lp_BB14_8:
	li	a0, 0
.Lp_BB14_9:
	lw	ra, 12(sp)
	lw	s0, 8(sp)
	.cfi_restore ra
	.cfi_restore s0
	addi	sp, sp, 16
	.cfi_def_cfa_offset 0
	ret
.Lp_BB14_10:
	.cfi_restore_state
	mv	a0, s0
	lw	ra, 12(sp)
	lw	s0, 8(sp)
	.cfi_restore ra
	.cfi_restore s0
	addi	sp, sp, 16
	.cfi_def_cfa_offset 0
	tail	tlsf_realloc_mixed
.Lp_func_end14:
	.size	tlsf_realloc, .Lp_func_end14-tlsf_realloc
	.cfi_endproc
	.section	.text.unlikely.tlsf_realloc_mixed,"ax",@progbits
	.p2align	1
	.type	tlsf_realloc_mixed,@function
tlsf_realloc_mixed:
	.cfi_startproc
	addi	sp, sp, -80
	.cfi_def_cfa_offset 80
	sw	ra, 76(sp)
	sw	s0, 72(sp)
	sw	s1, 68(sp)
	sw	s2, 64(sp)
	sw	s3, 60(sp)
	sw	s4, 56(sp)
	sw	s5, 52(sp)
	sw	s6, 48(sp)
	.cfi_offset ra, -4
	.cfi_offset s0, -8
	.cfi_offset s1, -12
	.cfi_offset s2, -16
	.cfi_offset s3, -20
	.cfi_offset s4, -24
	.cfi_offset s5, -28
	.cfi_offset s6, -32
	mv	s3, a2
	mv	s2, a1
	mv	s0, a0
	mv	a0, sp
	li	a2, 24
	li	a1, 0
	call	memset
	lw	a1, 16(s0)
	lbu	a0, 29(s0)
	sub	a1, s2, a1
	addi	a2, a1, -24
	srli	a1, a2, 3
	slli	a2, a2, 29
	seqz	s1, a2
	addi	s1, s1, -1
	bnez	a0, .Lp_BB15_2
	li	a0, 16
.Lp_BB15_2:
	or	s1, s1, a1
	add	a1, s3, a0
	neg	a2, a0
	addi	a1, a1, 23
	and	a1, a1, a2
	li	a2, 8
	addi	s4, a1, -24
	bne	a0, a2, .Lp_BB15_5
.Lp_BB15_3:
	sw	s1, 24(sp)
	addi	a3, sp, 24
	mv	a0, s0
	mv	a1, s1
	mv	a2, s4
	call	tlsf_resize_place
	beqz	a0, .Lp_BB15_16
.Lp_BB15_4:
	li	s1, 0
	j	.Lp_BB15_17
.Lp_BB15_5:
	mv	a2, sp
	mv	a0, s0
	mv	a1, s1
	call	tlsf_block_at
	bnez	a0, .Lp_BB15_3
	lw	a0, 8(sp)
	beqz	a0, .Lp_BB15_3
	lw	s6, 4(sp)
	slli	a0, s6, 3
	addi	a0, a0, -24
	sltu	a1, a0, s3
	neg	a1, a1
	or	a0, a0, a1
	bltu	s4, a0, .Lp_BB15_9
	mv	s4, a0
.Lp_BB15_9:
	srli	s5, s4, 3
	addi	s5, s5, 3
	addi	a0, sp, 24
	li	a2, 24
	li	a1, 0
	call	memset
	bgeu	s6, s5, .Lp_BB15_3
	lw	a1, 0(sp)
	add	a1, a1, s6
	addi	a2, sp, 24
	mv	a0, s0
	call	tlsf_block_at
	lw	a1, 32(sp)
	or	a0, a0, a1
	bnez	a0, .Lp_BB15_12
	lw	a0, 4(sp)
	lw	a1, 28(sp)
	add	a0, a0, a1
	bgeu	a0, s5, .Lp_BB15_3
.Lp_BB15_12:
	mv	a0, s0
	mv	a1, s3
	call	tlsf_malloc
	beqz	a0, .Lp_BB15_4
	mv	s1, a0
	lw	a2, 12(sp)
	bltu	a2, s3, .Lp_BB15_15
	mv	a2, s3
.Lp_BB15_15:
	mv	a0, s1
	mv	a1, s2
	call	memcpy
	lw	a1, 0(sp)
	mv	a0, s0
	call	tlsf_release_place
	j	.Lp_BB15_17
.Lp_BB15_16:
	lw	a0, 24(sp)
	lw	a1, 16(s0)
	slli	a0, a0, 3
	add	a0, a0, a1
	addi	s1, a0, 24
.Lp_BB15_17:
	mv	a0, s1
	lw	ra, 76(sp)
	lw	s0, 72(sp)
	lw	s1, 68(sp)
	lw	s2, 64(sp)
	lw	s3, 60(sp)
	lw	s4, 56(sp)
	lw	s5, 52(sp)
	lw	s6, 48(sp)
	.cfi_restore ra
	.cfi_restore s0
	.cfi_restore s1
	.cfi_restore s2
	.cfi_restore s3
	.cfi_restore s4
	.cfi_restore s5
	.cfi_restore s6
	addi	sp, sp, 80
	.cfi_def_cfa_offset 0
	ret
.Lp_func_end15:
	.size	tlsf_realloc_mixed, .Lp_func_end15-tlsf_realloc_mixed
	.cfi_endproc
	.section	.text.tlsf_aligned_realloc,"ax",@progbits
	.globl	tlsf_aligned_realloc
	.p2align	1
	.type	tlsf_aligned_realloc,@function
tlsf_aligned_realloc:
	.cfi_startproc
	addi	sp, sp, -96
	.cfi_def_cfa_offset 96
	sw	ra, 92(sp)
	sw	s0, 88(sp)
	sw	s1, 84(sp)
	sw	s2, 80(sp)
	sw	s3, 76(sp)
	sw	s4, 72(sp)
	sw	s5, 68(sp)
	sw	s6, 64(sp)
	sw	s7, 60(sp)
	.cfi_offset ra, -4
	.cfi_offset s0, -8
	.cfi_offset s1, -12
	.cfi_offset s2, -16
	.cfi_offset s3, -20
	.cfi_offset s4, -24
	.cfi_offset s5, -28
	.cfi_offset s6, -32
	.cfi_offset s7, -36
	.cfi_remember_state
	mv	s3, a3
	mv	s0, a2
	mv	s2, a0
	beqz	a1, .Lp_BB16_5
	beqz	s0, .Lp_BB16_4
	mv	s1, a1
	addi	a0, s0, -1
	and	a1, s0, a0
	beqz	a1, .Lp_BB16_6
.Lp_BB16_3:
	li	s0, 0
.Lp_BB16_4:
	mv	a0, s0
	lw	ra, 92(sp)
	lw	s0, 88(sp)
	lw	s1, 84(sp)
	lw	s2, 80(sp)
	lw	s3, 76(sp)
	lw	s4, 72(sp)
	lw	s5, 68(sp)
	lw	s6, 64(sp)
	lw	s7, 60(sp)
	.cfi_restore ra
	.cfi_restore s0
	.cfi_restore s1
	.cfi_restore s2
	.cfi_restore s3
	.cfi_restore s4
	.cfi_restore s5
	.cfi_restore s6
	.cfi_restore s7
	addi	sp, sp, 96
	.cfi_def_cfa_offset 0
	ret
.Lp_BB16_5:
	.cfi_restore_state
	.cfi_remember_state
	mv	a0, s2
	mv	a1, s0
	mv	a2, s3
	lw	ra, 92(sp)
	lw	s0, 88(sp)
	lw	s1, 84(sp)
	lw	s2, 80(sp)
	lw	s3, 76(sp)
	lw	s4, 72(sp)
	lw	s5, 68(sp)
	lw	s6, 64(sp)
	lw	s7, 60(sp)
	.cfi_restore ra
	.cfi_restore s0
	.cfi_restore s1
	.cfi_restore s2
	.cfi_restore s3
	.cfi_restore s4
	.cfi_restore s5
	.cfi_restore s6
	.cfi_restore s7
	addi	sp, sp, 96
	.cfi_def_cfa_offset 0
	tail	tlsf_aligned_alloc
.Lp_BB16_6:
	.cfi_restore_state
	.cfi_remember_state
	beqz	s3, .Lp_BB16_13
	lui	a1, 32768
	bltu	a1, s3, .Lp_BB16_3
	lbu	s4, 29(s2)
	bnez	s4, .Lp_BB16_10
	li	s4, 16
.Lp_BB16_10:
	and	s6, a0, s1
	bnez	s6, .Lp_BB16_14
	bltu	s4, s0, .Lp_BB16_14
	mv	a0, s2
	mv	a1, s1
	mv	a2, s3
	lw	ra, 92(sp)
	lw	s0, 88(sp)
	lw	s1, 84(sp)
	lw	s2, 80(sp)
	lw	s3, 76(sp)
	lw	s4, 72(sp)
	lw	s5, 68(sp)
	lw	s6, 64(sp)
	lw	s7, 60(sp)
	.cfi_restore ra
	.cfi_restore s0
	.cfi_restore s1
	.cfi_restore s2
	.cfi_restore s3
	.cfi_restore s4
	.cfi_restore s5
	.cfi_restore s6
	.cfi_restore s7
	addi	sp, sp, 96
	.cfi_def_cfa_offset 0
	tail	tlsf_realloc
.Lp_BB16_13:
	.cfi_restore_state
	lw	a0, 16(s2)
	sub	s1, s1, a0
	addi	s1, s1, -24
	srli	a0, s1, 3
	slli	s1, s1, 29
	seqz	a1, s1
	addi	a1, a1, -1
	or	a1, a1, a0
	mv	a0, s2
	call	tlsf_release_place
	j	.Lp_BB16_3
.Lp_BB16_14:
	addi	a0, sp, 8
	li	a2, 24
	li	a1, 0
	call	memset
	lw	a0, 16(s2)
	add	a1, s3, s4
	neg	a2, s4
	addi	a1, a1, 23
	and	a1, a1, a2
	sub	a0, s1, a0
	addi	a0, a0, -24
	srli	a2, a0, 3
	slli	a0, a0, 29
	seqz	a0, a0
	addi	a0, a0, -1
	or	s4, a0, a2
	addi	s5, a1, -24
	addi	a2, sp, 8
	mv	a0, s2
	mv	a1, s4
	call	tlsf_block_at
	bnez	a0, .Lp_BB16_26
	lw	a0, 16(sp)
	beqz	a0, .Lp_BB16_26
	lw	s7, 12(sp)
	slli	a0, s7, 3
	addi	a0, a0, -24
	sltu	a1, a0, s3
	neg	a1, a1
	or	a0, a0, a1
	bltu	s5, a0, .Lp_BB16_18
	mv	s5, a0
.Lp_BB16_18:
	beqz	s6, .Lp_BB16_23
.Lp_BB16_19:
	mv	a0, s2
	mv	a1, s0
	mv	a2, s3
	call	tlsf_aligned_alloc
	beqz	a0, .Lp_BB16_3
	mv	s0, a0
	lw	a2, 20(sp)
	bltu	a2, s3, .Lp_BB16_22
	mv	a2, s3
.Lp_BB16_22:
	mv	a0, s0
	mv	a1, s1
	call	memcpy
	lw	a1, 8(sp)
	mv	a0, s2
	call	tlsf_release_place
	j	.Lp_BB16_4
.Lp_BB16_23:
	srli	s6, s5, 3
	addi	s6, s6, 3
	addi	a0, sp, 32
	li	a2, 24
	li	a1, 0
	call	memset
	bgeu	s7, s6, .Lp_BB16_26
	lw	a1, 8(sp)
	add	a1, a1, s7
	addi	a2, sp, 32
	mv	a0, s2
	call	tlsf_block_at
	lw	a1, 40(sp)
	or	a0, a0, a1
	bnez	a0, .Lp_BB16_19
	lw	a0, 12(sp)
	lw	a1, 36(sp)
	add	a0, a0, a1
	bltu	a0, s6, .Lp_BB16_19
.Lp_BB16_26:
	sw	s4, 32(sp)
	addi	a3, sp, 32
	mv	a0, s2
	mv	a1, s4
	mv	a2, s5
	call	tlsf_resize_place
	bnez	a0, .Lp_BB16_3
	lw	a0, 32(sp)
	lw	a1, 16(s2)
	slli	a0, a0, 3
	add	a0, a0, a1
	addi	s0, a0, 24
	j	.Lp_BB16_4
.Lp_func_end16:
	.size	tlsf_aligned_realloc, .Lp_func_end16-tlsf_aligned_realloc
	.cfi_endproc
	.section	.text.tlsf_allocate_at,"ax",@progbits
	.globl	tlsf_allocate_at
	.p2align	1
	.type	tlsf_allocate_at,@function
tlsf_allocate_at:
	.cfi_startproc
	addi	sp, sp, -64
	.cfi_def_cfa_offset 64
	sw	ra, 60(sp)
	sw	s0, 56(sp)
	sw	s1, 52(sp)
	sw	s2, 48(sp)
	sw	s3, 44(sp)
	sw	s4, 40(sp)
	sw	s5, 36(sp)
	sw	s6, 32(sp)
	sw	s7, 28(sp)
	sw	s8, 24(sp)
	sw	s9, 20(sp)
	.cfi_offset ra, -4
	.cfi_offset s0, -8
	.cfi_offset s1, -12
	.cfi_offset s2, -16
	.cfi_offset s3, -20
	.cfi_offset s4, -24
	.cfi_offset s5, -28
	.cfi_offset s6, -32
	.cfi_offset s7, -36
	.cfi_offset s8, -40
	.cfi_offset s9, -44
	.cfi_remember_state
	mv	s2, a5
	mv	s3, a4
	mv	s4, a3
	mv	a3, a2
	mv	s5, a1
	addi	a1, a2, -1
	xor	a2, a2, a1
	mv	s0, a0
	bgeu	a1, a2, .Lp_BB17_6
	lui	a0, 32768
	bltu	a0, s5, .Lp_BB17_16
	addi	a0, a0, 1
	bgeu	a3, a0, .Lp_BB17_16
	lbu	a0, 28(s0)
	bnez	a0, .Lp_BB17_17
	addi	a0, s5, 7
	lui	a2, 131072
	addi	a2, a2, -16
	and	a0, a0, a2
	li	a4, 16
	addi	a2, a0, 8
	bltu	a4, a3, .Lp_BB17_8
	mv	a0, sp
	mv	a1, s0
	call	tlsf_allocate_place
	j	.Lp_BB17_9
.Lp_BB17_6:
	li	a0, 5
.Lp_BB17_7:
	sw	zero, 0(sp)
	sw	a0, 4(sp)
	sw	zero, 8(sp)
	sw	zero, 12(sp)
	j	.Lp_BB17_9
.Lp_BB17_8:
	lw	a0, 16(s0)
	srli	a3, a3, 3
	and	a0, a0, a1
	srli	a4, a0, 3
	mv	a0, sp
	mv	a1, s0
	call	tlsf_allocate_aligned
.Lp_BB17_9:
	lw	s1, 4(sp)
	bnez	s1, .Lp_BB17_15
	lw	s6, 24(s0)
	lw	s7, 0(sp)
	lw	s8, 8(sp)
	lw	s9, 12(sp)
	andi	a1, s4, 1
	mv	a0, s7
	bnez	a1, .Lp_BB17_14
	lw	a0, 16(s0)
	lbu	a1, 29(s0)
	slli	a2, s7, 3
	add	a0, a0, a2
	addi	a0, a0, 24
	bnez	a1, .Lp_BB17_13
	li	a1, 16
.Lp_BB17_13:
	seqz	a2, s5
	add	a2, a2, s5
	add	a2, a2, a1
	addi	a2, a2, 23
	neg	a1, a1
	and	a1, a1, a2
	addi	a2, a1, -24
	li	a1, 0
	call	memset
	lw	a0, 0(sp)
.Lp_BB17_14:
	lw	a1, 16(s0)
	sw	s6, 0(s3)
	sw	s7, 4(s3)
	sw	s8, 8(s3)
	sw	s9, 12(s3)
	slli	a0, a0, 3
	add	a0, a0, a1
	addi	a0, a0, 24
	sw	a0, 0(s2)
.Lp_BB17_15:
	mv	a0, s1
	lw	ra, 60(sp)
	lw	s0, 56(sp)
	lw	s1, 52(sp)
	lw	s2, 48(sp)
	lw	s3, 44(sp)
	lw	s4, 40(sp)
	lw	s5, 36(sp)
	lw	s6, 32(sp)
	lw	s7, 28(sp)
	lw	s8, 24(sp)
	lw	s9, 20(sp)
	.cfi_restore ra
	.cfi_restore s0
	.cfi_restore s1
	.cfi_restore s2
	.cfi_restore s3
	.cfi_restore s4
	.cfi_restore s5
	.cfi_restore s6
	.cfi_restore s7
	.cfi_restore s8
	.cfi_restore s9
	addi	sp, sp, 64
	.cfi_def_cfa_offset 0
	ret
.Lp_BB17_16:
	.cfi_restore_state
	mv	a0, s0
	call	tlsf_too_long
	j	.Lp_BB17_7
.Lp_BB17_17:
	mv	a0, sp
	mv	a1, s0
	mv	a2, s5
	call	tlsf_mixed_place
	j	.Lp_BB17_9
.Lp_func_end17:
	.size	tlsf_allocate_at, .Lp_func_end17-tlsf_allocate_at
	.cfi_endproc
	.section	.text.tlsf_payload,"ax",@progbits
	.globl	tlsf_payload
	.p2align	1
	.type	tlsf_payload,@function
tlsf_payload:
	.cfi_startproc
	addi	sp, sp, -48
	.cfi_def_cfa_offset 48
	sw	ra, 44(sp)
	sw	s0, 40(sp)
	sw	s1, 36(sp)
	.cfi_offset ra, -4
	.cfi_offset s0, -8
	.cfi_offset s1, -12
	mv	s1, a2
	mv	s0, a1
	sw	zero, 32(sp)
	sw	zero, 28(sp)
	lw	a1, 0(a1)
	lw	a2, 4(s0)
	lw	a3, 8(s0)
	lw	a4, 12(s0)
	sw	a1, 8(sp)
	sw	a2, 12(sp)
	sw	a3, 16(sp)
	sw	a4, 20(sp)
	addi	a1, sp, 8
	addi	a2, sp, 32
	addi	a3, sp, 28
	call	tlsf_locate
	mv	a1, a0
	li	a0, 0
	bnez	a1, .Lp_BB18_4
	beqz	s1, .Lp_BB18_3
	lw	a0, 28(sp)
	sw	a0, 0(s1)
.Lp_BB18_3:
	lw	a0, 4(s0)
	lw	a1, 32(sp)
	slli	a0, a0, 3
	add	a0, a0, a1
	addi	a0, a0, 24
.Lp_BB18_4:
	lw	ra, 44(sp)
	lw	s0, 40(sp)
	lw	s1, 36(sp)
	.cfi_restore ra
	.cfi_restore s0
	.cfi_restore s1
	addi	sp, sp, 48
	.cfi_def_cfa_offset 0
	ret
.Lp_func_end18:
	.size	tlsf_payload, .Lp_func_end18-tlsf_payload
	.cfi_endproc
	.section	.text.tlsf_pools_name_at,"ax",@progbits
	.globl	tlsf_pools_name_at
	.p2align	1
	.type	tlsf_pools_name_at,@function
tlsf_pools_name_at:
	.cfi_startproc
	addi	sp, sp, -48
	.cfi_def_cfa_offset 48
	sw	ra, 44(sp)
	sw	s0, 40(sp)
	sw	s1, 36(sp)
	sw	s2, 32(sp)
	sw	s3, 28(sp)
	sw	s4, 24(sp)
	sw	s5, 20(sp)
	.cfi_offset ra, -4
	.cfi_offset s0, -8
	.cfi_offset s1, -12
	.cfi_offset s2, -16
	.cfi_offset s3, -20
	.cfi_offset s4, -24
	.cfi_offset s5, -28
	mv	s2, a2
	mv	s5, a1
	mv	s4, a0
	sw	zero, 8(sp)
	sw	zero, 16(sp)
	sw	zero, 12(sp)
	addi	a2, sp, 12
	addi	a3, sp, 16
	li	a1, 0
	call	tlsf_pools_part
	li	s0, 0
	li	s3, 0
	bnez	a0, .Lp_BB19_6
	li	s0, 0
	li	s3, 0
	li	s1, 0
.Lp_BB19_2:
	lw	a0, 12(sp)
	beqz	s1, .Lp_BB19_4
	sub	a1, s5, a0
	sub	a2, s5, s0
	bltu	a2, a1, .Lp_BB19_5
.Lp_BB19_4:
	mv	s0, a0
	mv	s3, s1
.Lp_BB19_5:
	addi	s1, s1, 1
	addi	a2, sp, 12
	addi	a3, sp, 16
	mv	a0, s4
	mv	a1, s1
	call	tlsf_pools_part
	beqz	a0, .Lp_BB19_2
.Lp_BB19_6:
	sub	a0, s5, s0
	addi	a0, a0, -24
	srli	a1, a0, 3
	slli	a0, a0, 29
	seqz	a0, a0
	addi	a0, a0, -1
	or	a2, a0, a1
	addi	a4, sp, 8
	mv	a0, s4
	mv	a1, s3
	mv	a3, s2
	call	tlsf_pools_place
	lw	ra, 44(sp)
	lw	s0, 40(sp)
	lw	s1, 36(sp)
	lw	s2, 32(sp)
	lw	s3, 28(sp)
	lw	s4, 24(sp)
	lw	s5, 20(sp)
	.cfi_restore ra
	.cfi_restore s0
	.cfi_restore s1
	.cfi_restore s2
	.cfi_restore s3
	.cfi_restore s4
	.cfi_restore s5
	addi	sp, sp, 48
	.cfi_def_cfa_offset 0
	ret
.Lp_func_end19:
	.size	tlsf_pools_name_at, .Lp_func_end19-tlsf_pools_name_at
	.cfi_endproc
	.section	.text.tlsf_pools_usable_size,"ax",@progbits
	.globl	tlsf_pools_usable_size
	.p2align	1
	.type	tlsf_pools_usable_size,@function
tlsf_pools_usable_size:
	.cfi_startproc
	addi	sp, sp, -64
	.cfi_def_cfa_offset 64
	sw	ra, 60(sp)
	sw	s0, 56(sp)
	sw	s1, 52(sp)
	sw	s2, 48(sp)
	sw	s3, 44(sp)
	sw	s4, 40(sp)
	.cfi_offset ra, -4
	.cfi_offset s0, -8
	.cfi_offset s1, -12
	.cfi_offset s2, -16
	.cfi_offset s3, -20
	.cfi_offset s4, -24
	mv	s4, a1
	mv	s3, a0
	sw	zero, 16(sp)
	sw	zero, 20(sp)
	sw	zero, 24(sp)
	sw	zero, 28(sp)
	sw	zero, 12(sp)
	sw	zero, 36(sp)
	sw	zero, 32(sp)
	addi	a2, sp, 32
	addi	a3, sp, 36
	li	a1, 0
	call	tlsf_pools_part
	li	s1, 0
	li	s2, 0
	bnez	a0, .Lp_BB20_6
	li	s1, 0
	li	s2, 0
	li	s0, 0
.Lp_BB20_2:
	lw	a0, 32(sp)
	beqz	s0, .Lp_BB20_4
	sub	a1, s4, a0
	sub	a2, s4, s1
	bltu	a2, a1, .Lp_BB20_5
.Lp_BB20_4:
	mv	s1, a0
	mv	s2, s0
.Lp_BB20_5:
	addi	s0, s0, 1
	addi	a2, sp, 32
	addi	a3, sp, 36
	mv	a0, s3
	mv	a1, s0
	call	tlsf_pools_part
	beqz	a0, .Lp_BB20_2
.Lp_BB20_6:
	sub	a0, s4, s1
	addi	a0, a0, -24
	srli	a1, a0, 3
	slli	a0, a0, 29
	seqz	a0, a0
	addi	a0, a0, -1
	or	a2, a0, a1
	addi	a3, sp, 16
	addi	a4, sp, 12
	mv	a0, s3
	mv	a1, s2
	call	tlsf_pools_place
	lw	a1, 12(sp)
	snez	a0, a0
	addi	a0, a0, -1
	and	a0, a0, a1
	lw	ra, 60(sp)
	lw	s0, 56(sp)
	lw	s1, 52(sp)
	lw	s2, 48(sp)
	lw	s3, 44(sp)
	lw	s4, 40(sp)
	.cfi_restore ra
	.cfi_restore s0
	.cfi_restore s1
	.cfi_restore s2
	.cfi_restore s3
	.cfi_restore s4
	addi	sp, sp, 64
	.cfi_def_cfa_offset 0
	ret
.Lp_func_end20:
	.size	tlsf_pools_usable_size, .Lp_func_end20-tlsf_pools_usable_size
	.cfi_endproc
	.section	.text.tlsf_pools_free,"ax",@progbits
	.globl	tlsf_pools_free
	.p2align	1
	.type	tlsf_pools_free,@function
tlsf_pools_free:
	.cfi_startproc
	addi	sp, sp, -48
	.cfi_def_cfa_offset 48
	sw	ra, 44(sp)
	sw	s0, 40(sp)
	.cfi_offset ra, -4
	.cfi_offset s0, -8
	sw	zero, 24(sp)
	sw	zero, 28(sp)
	sw	zero, 32(sp)
	sw	zero, 36(sp)
	beqz	a1, .Lp_BB21_3
	mv	s0, a0
	addi	a2, sp, 24
	call	tlsf_pools_name_at
	bnez	a0, .Lp_BB21_4
	lw	a0, 24(sp)
	lw	a1, 28(sp)
	lw	a2, 32(sp)
	lw	a3, 36(sp)
	sw	a0, 8(sp)
	sw	a1, 12(sp)
	sw	a2, 16(sp)
	sw	a3, 20(sp)
	addi	a1, sp, 8
	mv	a0, s0
	call	tlsf_pools_release
	j	.Lp_BB21_4
.Lp_BB21_3:
	li	a0, 0
.Lp_BB21_4:
	lw	ra, 44(sp)
	lw	s0, 40(sp)
	.cfi_restore ra
	.cfi_restore s0
	addi	sp, sp, 48
	.cfi_def_cfa_offset 0
	ret
.Lp_func_end21:
	.size	tlsf_pools_free, .Lp_func_end21-tlsf_pools_free
	.cfi_endproc
	.section	.text.tlsf_pools_malloc,"ax",@progbits
	.globl	tlsf_pools_malloc
	.p2align	1
	.type	tlsf_pools_malloc,@function
tlsf_pools_malloc:
	.cfi_startproc
	addi	sp, sp, -48
	.cfi_def_cfa_offset 48
	sw	ra, 44(sp)
	sw	s0, 40(sp)
	.cfi_offset ra, -4
	.cfi_offset s0, -8
	.cfi_remember_state
	mv	s0, a0
	sw	zero, 12(sp)
	addi	a2, sp, 12
	call	tlsf_pools_row
	mv	a1, a0
	li	a0, 0
	bnez	a1, .Lp_BB22_4
	lw	a1, 12(sp)
	sw	zero, 24(sp)
	sw	zero, 28(sp)
	sw	zero, 32(sp)
	sw	zero, 36(sp)
	sw	zero, 20(sp)
	sw	zero, 16(sp)
	addi	a2, sp, 24
	mv	a0, s0
	call	tlsf_pools_allocate
	bnez	a0, .Lp_BB22_3
	addi	a2, sp, 16
	addi	a3, sp, 20
	mv	a0, s0
	li	a1, 0
	call	tlsf_pools_part
	beqz	a0, .Lp_BB22_5
.Lp_BB22_3:
	li	a0, 0
.Lp_BB22_4:
	lw	ra, 44(sp)
	lw	s0, 40(sp)
	.cfi_restore ra
	.cfi_restore s0
	addi	sp, sp, 48
	.cfi_def_cfa_offset 0
	ret
.Lp_BB22_5:
	.cfi_restore_state
	lw	a0, 24(sp)
	lw	a1, 20(sp)
	beq	a0, a1, .Lp_BB22_7
	sub	a1, a0, a1
	addi	a2, sp, 16
	addi	a3, sp, 20
	mv	a0, s0
	call	tlsf_pools_part
	bnez	a0, .Lp_BB22_3
.Lp_BB22_7:
	lw	a0, 28(sp)
	lw	a1, 16(sp)
	slli	a0, a0, 3
	add	a0, a0, a1
	addi	a0, a0, 24
	j	.Lp_BB22_4
.Lp_func_end22:
	.size	tlsf_pools_malloc, .Lp_func_end22-tlsf_pools_malloc
	.cfi_endproc
	.section	.text.tlsf_pools_realloc,"ax",@progbits
	.globl	tlsf_pools_realloc
	.p2align	1
	.type	tlsf_pools_realloc,@function
tlsf_pools_realloc:
	.cfi_startproc
	addi	sp, sp, -80
	.cfi_def_cfa_offset 80
	sw	ra, 76(sp)
	sw	s0, 72(sp)
	sw	s1, 68(sp)
	sw	s2, 64(sp)
	sw	s3, 60(sp)
	sw	s4, 56(sp)
	sw	s5, 52(sp)
	.cfi_offset ra, -4
	.cfi_offset s0, -8
	.cfi_offset s1, -12
	.cfi_offset s2, -16
	.cfi_offset s3, -20
	.cfi_offset s4, -24
	.cfi_offset s5, -28
	.cfi_remember_state
	mv	s2, a2
	mv	s3, a0
	sw	zero, 8(sp)
	sw	zero, 12(sp)
	sw	zero, 16(sp)
	sw	zero, 20(sp)
	sw	zero, 4(sp)
	sw	zero, 0(sp)
	beqz	a1, .Lp_BB23_13
	mv	s4, a1
	beqz	s2, .Lp_BB23_14
	sw	zero, 32(sp)
	sw	zero, 28(sp)
	addi	a2, sp, 28
	addi	a3, sp, 32
	mv	a0, s3
	li	a1, 0
	call	tlsf_pools_part
	li	s1, 0
	li	s5, 0
	bnez	a0, .Lp_BB23_8
	li	s1, 0
	li	s5, 0
	li	s0, 0
.Lp_BB23_4:
	lw	a0, 28(sp)
	beqz	s0, .Lp_BB23_6
	sub	a1, s4, a0
	sub	a2, s4, s1
	bltu	a2, a1, .Lp_BB23_7
.Lp_BB23_6:
	mv	s1, a0
	mv	s5, s0
.Lp_BB23_7:
	addi	s0, s0, 1
	addi	a2, sp, 28
	addi	a3, sp, 32
	mv	a0, s3
	mv	a1, s0
	call	tlsf_pools_part
	beqz	a0, .Lp_BB23_4
.Lp_BB23_8:
	sub	a0, s4, s1
	addi	a0, a0, -24
	srli	a1, a0, 3
	slli	a0, a0, 29
	seqz	a0, a0
	addi	a0, a0, -1
	or	a2, a0, a1
	addi	a3, sp, 8
	addi	a4, sp, 4
	mv	a0, s3
	mv	a1, s5
	call	tlsf_pools_place
	bnez	a0, .Lp_BB23_15
	mv	a2, sp
	mv	a0, s3
	mv	a1, s2
	call	tlsf_pools_row
	bnez	a0, .Lp_BB23_15
	lw	a0, 4(sp)
	lw	a1, 0(sp)
	bltu	a0, s2, .Lp_BB23_17
	bltu	a1, a0, .Lp_BB23_17
	mv	s0, s4
	j	.Lp_BB23_16
.Lp_BB23_13:
	mv	a0, s3
	mv	a1, s2
	lw	ra, 76(sp)
	lw	s0, 72(sp)
	lw	s1, 68(sp)
	lw	s2, 64(sp)
	lw	s3, 60(sp)
	lw	s4, 56(sp)
	lw	s5, 52(sp)
	.cfi_restore ra
	.cfi_restore s0
	.cfi_restore s1
	.cfi_restore s2
	.cfi_restore s3
	.cfi_restore s4
	.cfi_restore s5
	addi	sp, sp, 80
	.cfi_def_cfa_offset 0
	tail	tlsf_pools_malloc
.Lp_BB23_14:
	.cfi_restore_state
	.cfi_remember_state
	mv	a0, s3
	mv	a1, s4
	call	tlsf_pools_free
.Lp_BB23_15:
	li	s0, 0
.Lp_BB23_16:
	mv	a0, s0
	lw	ra, 76(sp)
	lw	s0, 72(sp)
	lw	s1, 68(sp)
	lw	s2, 64(sp)
	lw	s3, 60(sp)
	lw	s4, 56(sp)
	lw	s5, 52(sp)
	.cfi_restore ra
	.cfi_restore s0
	.cfi_restore s1
	.cfi_restore s2
	.cfi_restore s3
	.cfi_restore s4
	.cfi_restore s5
	addi	sp, sp, 80
	.cfi_def_cfa_offset 0
	ret
.Lp_BB23_17:
	.cfi_restore_state
	sw	zero, 32(sp)
	sw	zero, 36(sp)
	sw	zero, 40(sp)
	sw	zero, 44(sp)
	sw	zero, 28(sp)
	sw	zero, 24(sp)
	addi	a2, sp, 32
	mv	a0, s3
	call	tlsf_pools_allocate
	bnez	a0, .Lp_BB23_15
	addi	a2, sp, 24
	addi	a3, sp, 28
	mv	a0, s3
	li	a1, 0
	call	tlsf_pools_part
	bnez	a0, .Lp_BB23_15
	lw	a0, 32(sp)
	lw	a1, 28(sp)
	beq	a0, a1, .Lp_BB23_21
	sub	a1, a0, a1
	addi	a2, sp, 24
	addi	a3, sp, 28
	mv	a0, s3
	call	tlsf_pools_part
	bnez	a0, .Lp_BB23_15
.Lp_BB23_21:
	lw	a0, 36(sp)
	lw	a1, 24(sp)
	lw	a2, 4(sp)
	slli	a0, a0, 3
	add	a0, a0, a1
	addi	s0, a0, 24
	bltu	a2, s2, .Lp_BB23_23
	mv	a2, s2
.Lp_BB23_23:
	mv	a0, s0
	mv	a1, s4
	call	memcpy
	lw	a0, 8(sp)
	lw	a1, 12(sp)
	lw	a2, 16(sp)
	lw	a3, 20(sp)
	sw	a0, 32(sp)
	sw	a1, 36(sp)
	sw	a2, 40(sp)
	sw	a3, 44(sp)
	addi	a1, sp, 32
	mv	a0, s3
	call	tlsf_pools_release
	j	.Lp_BB23_16
.Lp_func_end23:
	.size	tlsf_pools_realloc, .Lp_func_end23-tlsf_pools_realloc
	.cfi_endproc
	.section	.text.tlsf_text_of,"ax",@progbits
	.globl	tlsf_text_of
	.p2align	1
	.type	tlsf_text_of,@function
tlsf_text_of:
	.cfi_startproc
	li	a1, 40
	bltu	a1, a0, .Lp_BB24_2
	slli	a0, a0, 2
	lui	a1, %hi(.Lp_switch.table.tlsf_text_of)
	addi	a1, a1, %lo(.Lp_switch.table.tlsf_text_of)
	add	a0, a0, a1
	lw	a0, 0(a0)
	ret
.Lp_BB24_2:
	lui	a0, %hi(.L.str.20)
	addi	a0, a0, %lo(.L.str.20)
	ret
.Lp_func_end24:
	.size	tlsf_text_of, .Lp_func_end24-tlsf_text_of
	.cfi_endproc
	.section	.text.unlikely.tlsf_too_long,"ax",@progbits
	.p2align	1
	.type	tlsf_too_long,@function
tlsf_too_long:
	.cfi_startproc
	addi	sp, sp, -32
	.cfi_def_cfa_offset 32
	sw	ra, 28(sp)
	sw	s0, 24(sp)
	.cfi_offset ra, -4
	.cfi_offset s0, -8
	mv	s0, a0
	mv	a0, sp
	li	a2, 24
	li	a1, 0
	call	memset
	li	a1, -1
	mv	a2, sp
	mv	a0, s0
	call	tlsf_block_at
	li	a1, 32
	beq	a0, a1, .Lp_BB25_2
	li	a1, 1
.Lp_BB25_2:
	mv	a0, a1
	lw	ra, 28(sp)
	lw	s0, 24(sp)
	.cfi_restore ra
	.cfi_restore s0
	addi	sp, sp, 32
	.cfi_def_cfa_offset 0
	ret
.Lp_func_end25:
	.size	tlsf_too_long, .Lp_func_end25-tlsf_too_long
	.cfi_endproc
	.section	.text.unlikely.tlsf_mixed_place,"ax",@progbits
	.p2align	1
	.type	tlsf_mixed_place,@function
tlsf_mixed_place:
	.cfi_startproc
	addi	sp, sp, -48
	.cfi_def_cfa_offset 48
	sw	ra, 44(sp)
	sw	s0, 40(sp)
	sw	s1, 36(sp)
	sw	s2, 32(sp)
	sw	s3, 28(sp)
	sw	s4, 24(sp)
	.cfi_offset ra, -4
	.cfi_offset s0, -8
	.cfi_offset s1, -12
	.cfi_offset s2, -16
	.cfi_offset s3, -20
	.cfi_offset s4, -24
	.cfi_remember_state
	mv	s1, a1
	lbu	s0, 29(a1)
	mv	s3, a0
	bnez	s0, .Lp_BB26_2
	li	s0, 16
.Lp_BB26_2:
	seqz	a0, a2
	add	a0, a0, a2
	add	a0, a0, s0
	addi	a0, a0, 23
	neg	a1, s0
	and	a0, a0, a1
	addi	s2, a0, -24
	bgeu	s0, a3, .Lp_BB26_5
	lw	a0, 16(s1)
	srli	a5, a3, 3
	addi	a3, a3, -1
	and	a0, a0, a3
	srli	a4, a0, 3
	mv	a0, s3
	mv	a1, s1
	mv	a2, s2
	mv	a3, a5
.Lp_BB26_4:
	call	tlsf_allocate_aligned
	j	.Lp_BB26_7
.Lp_BB26_5:
	addi	a0, sp, 8
	mv	a1, s1
	mv	a2, s2
	call	tlsf_allocate_place
	lw	a0, 12(sp)
	beqz	a0, .Lp_BB26_8
.Lp_BB26_6:
	lw	a0, 8(sp)
	lw	a1, 12(sp)
	lw	a2, 16(sp)
	lw	a3, 20(sp)
	sw	a0, 0(s3)
	sw	a1, 4(s3)
	sw	a2, 8(s3)
	sw	a3, 12(s3)
.Lp_BB26_7:
	lw	ra, 44(sp)
	lw	s0, 40(sp)
	lw	s1, 36(sp)
	lw	s2, 32(sp)
	lw	s3, 28(sp)
	lw	s4, 24(sp)
	.cfi_restore ra
	.cfi_restore s0
	.cfi_restore s1
	.cfi_restore s2
	.cfi_restore s3
	.cfi_restore s4
	addi	sp, sp, 48
	.cfi_def_cfa_offset 0
	ret
.Lp_BB26_8:
	.cfi_restore_state
	lw	a1, 8(sp)
	lw	a0, 16(s1)
	slli	a2, a1, 3
	add	a0, a0, a2
	addi	a0, a0, 24
	addi	s4, s0, -1
	and	a0, s4, a0
	beqz	a0, .Lp_BB26_6
	mv	a0, s1
	call	tlsf_release_place
	lw	a0, 16(s1)
	srli	a3, s0, 3
	and	a4, s4, a0
	srli	a4, a4, 3
	mv	a0, s3
	mv	a1, s1
	mv	a2, s2
	j	.Lp_BB26_4
.Lp_func_end26:
	.size	tlsf_mixed_place, .Lp_func_end26-tlsf_mixed_place
	.cfi_endproc
	.section	.text.unlikely.tlsf_malloc_own,"ax",@progbits
	.p2align	1
	.type	tlsf_malloc_own,@function
tlsf_malloc_own:
	.cfi_startproc
	mv	a2, a1
	lui	a1, 32768
	bgeu	a1, a2, .Lp_BB27_2
	li	a0, 0
	ret
.Lp_BB27_2:
	addi	sp, sp, -32
	.cfi_def_cfa_offset 32
	sw	ra, 28(sp)
	sw	s0, 24(sp)
	.cfi_offset ra, -4
	.cfi_offset s0, -8
	mv	s0, a0
	addi	a0, sp, 8
	li	a3, 1
	mv	a1, s0
	call	tlsf_mixed_place
	lw	a0, 12(sp)
	beqz	a0, .Lp_BB27_4
	li	a0, 0
	j	.Lp_BB27_5
.Lp_BB27_4:
	lw	a0, 8(sp)
	lw	a1, 16(s0)
	slli	a0, a0, 3
	add	a0, a0, a1
	addi	a0, a0, 24
.Lp_BB27_5:
	lw	ra, 28(sp)
	lw	s0, 24(sp)
	.cfi_restore ra
	.cfi_restore s0
	addi	sp, sp, 32
	.cfi_def_cfa_offset 0
	ret
.Lp_func_end27:
	.size	tlsf_malloc_own, .Lp_func_end27-tlsf_malloc_own
	.cfi_endproc
	.type	.L.str,@object
	.section	.rodata.str1.1,"aMS",@progbits,1
.L.str:
	.asciz	"done"
	.size	.L.str, 5
	.type	.L.str.1,@object
.L.str.1:
	.asciz	"no free block fits"
	.size	.L.str.1, 19
	.type	.L.str.2,@object
.L.str.2:
	.asciz	"the ticks or the numbers are used up"
	.size	.L.str.2, 37
	.type	.L.str.3,@object
.L.str.3:
	.asciz	"a name of another heap"
	.size	.L.str.3, 23
	.type	.L.str.4,@object
.L.str.4:
	.asciz	"no live block has that name or address"
	.size	.L.str.4, 39
	.type	.L.str.5,@object
.L.str.5:
	.asciz	"a size out of range"
	.size	.L.str.5, 20
	.type	.L.str.6,@object
.L.str.6:
	.asciz	"no memory"
	.size	.L.str.6, 10
	.type	.L.str.7,@object
.L.str.7:
	.asciz	"bytes past the end of the payload"
	.size	.L.str.7, 34
	.type	.L.str.8,@object
.L.str.8:
	.asciz	"the lane or queue is full"
	.size	.L.str.8, 26
	.type	.L.str.9,@object
.L.str.9:
	.asciz	"no room where the block stands"
	.size	.L.str.9, 31
	.type	.L.str.10,@object
.L.str.10:
	.asciz	"a line was not written"
	.size	.L.str.10, 23
	.type	.L.str.11,@object
.L.str.11:
	.asciz	"the handle is closed"
	.size	.L.str.11, 21
	.type	.L.str.12,@object
.L.str.12:
	.asciz	"the handle is open already"
	.size	.L.str.12, 27
	.type	.L.str.13,@object
.L.str.13:
	.asciz	"a level is 4 or 5"
	.size	.L.str.13, 18
	.type	.L.str.14,@object
.L.str.14:
	.asciz	"the lane or queue is empty"
	.size	.L.str.14, 27
	.type	.L.str.15,@object
.L.str.15:
	.asciz	"a header is damaged"
	.size	.L.str.15, 20
	.type	.L.str.16,@object
.L.str.16:
	.asciz	"another thread is in the way: try again"
	.size	.L.str.16, 40
	.type	.L.str.17,@object
.L.str.17:
	.asciz	"all blocks of that row are held"
	.size	.L.str.17, 32
	.type	.L.str.18,@object
.L.str.18:
	.asciz	"memory that is null, or past the end of the address space"
	.size	.L.str.18, 58
	.type	.L.str.19,@object
.L.str.19:
	.asciz	"the handle holds something of another kind"
	.size	.L.str.19, 43
	.type	.L.str.20,@object
.L.str.20:
	.asciz	"no answer of this library"
	.size	.L.str.20, 26
	.type	.Lp_switch.table.tlsf_text_of,@object
	.section	.rodata..Lswitch.table.tlsf_text_of,"a",@progbits
	.p2align	2, 0x0
.Lp_switch.table.tlsf_text_of:
	.word	.L.str
	.word	.L.str.1
	.word	.L.str.2
	.word	.L.str.3
	.word	.L.str.4
	.word	.L.str.5
	.word	.L.str.6
	.word	.L.str.7
	.word	.L.str.8
	.word	.L.str.20
	.word	.L.str.9
	.word	.L.str.20
	.word	.L.str.20
	.word	.L.str.20
	.word	.L.str.20
	.word	.L.str.20
	.word	.L.str.20
	.word	.L.str.10
	.word	.L.str.20
	.word	.L.str.20
	.word	.L.str.20
	.word	.L.str.20
	.word	.L.str.20
	.word	.L.str.20
	.word	.L.str.20
	.word	.L.str.20
	.word	.L.str.20
	.word	.L.str.20
	.word	.L.str.20
	.word	.L.str.20
	.word	.L.str.20
	.word	.L.str.20
	.word	.L.str.11
	.word	.L.str.12
	.word	.L.str.13
	.word	.L.str.14
	.word	.L.str.15
	.word	.L.str.16
	.word	.L.str.17
	.word	.L.str.18
	.word	.L.str.19
	.size	.Lp_switch.table.tlsf_text_of, 164
	.ident	"clang version 22.1.8"
	.section	".note.GNU-stack","",@progbits
/* What lanes, queues and tlsf_next_number call: c/atomics64.c. */
	.section	.text.__atomic_load_8,"ax",@progbits
	.weak	__atomic_load_8
	.p2align	1
	.type	__atomic_load_8,@function
__atomic_load_8:
	.cfi_sections .debug_frame
	.cfi_startproc
	.insn i 115, 7, a2, s0, 768
	lw	a1, 4(a0)
	lw	a0, 0(a0)
	andi	a2, a2, 8
	.insn i 115, 2, zero, a2, 768
	ret
.La_func_end0:
	.size	__atomic_load_8, .La_func_end0-__atomic_load_8
	.cfi_endproc
	.section	.text.__atomic_store_8,"ax",@progbits
	.weak	__atomic_store_8
	.p2align	1
	.type	__atomic_store_8,@function
__atomic_store_8:
	.cfi_startproc
	.insn i 115, 7, a3, s0, 768
	sw	a2, 4(a0)
	sw	a1, 0(a0)
	andi	a3, a3, 8
	.insn i 115, 2, zero, a3, 768
	ret
.La_func_end1:
	.size	__atomic_store_8, .La_func_end1-__atomic_store_8
	.cfi_endproc
	.section	.text.__atomic_exchange_8,"ax",@progbits
	.weak	__atomic_exchange_8
	.p2align	1
	.type	__atomic_exchange_8,@function
__atomic_exchange_8:
	.cfi_startproc
	.insn i 115, 7, a5, s0, 768
	lw	a3, 4(a0)
	lw	a4, 0(a0)
	sw	a2, 4(a0)
	sw	a1, 0(a0)
	andi	a5, a5, 8
	.insn i 115, 2, zero, a5, 768
	mv	a0, a4
	mv	a1, a3
	ret
.La_func_end2:
	.size	__atomic_exchange_8, .La_func_end2-__atomic_exchange_8
	.cfi_endproc
	.section	.text.__atomic_fetch_add_8,"ax",@progbits
	.weak	__atomic_fetch_add_8
	.p2align	1
	.type	__atomic_fetch_add_8,@function
__atomic_fetch_add_8:
	.cfi_startproc
	.insn i 115, 7, a5, s0, 768
	lw	a3, 0(a0)
	lw	a4, 4(a0)
	andi	a6, a5, 8
	add	a1, a1, a3
	add	a2, a2, a4
	sltu	a5, a1, a3
	add	a2, a2, a5
	sw	a1, 0(a0)
	sw	a2, 4(a0)
	.insn i 115, 2, zero, a6, 768
	mv	a0, a3
	mv	a1, a4
	ret
.La_func_end3:
	.size	__atomic_fetch_add_8, .La_func_end3-__atomic_fetch_add_8
	.cfi_endproc
	.section	.text.__atomic_fetch_sub_8,"ax",@progbits
	.weak	__atomic_fetch_sub_8
	.p2align	1
	.type	__atomic_fetch_sub_8,@function
__atomic_fetch_sub_8:
	.cfi_startproc
	neg	a4, a1
	snez	a1, a1
	neg	a2, a2
	sub	a2, a2, a1
	mv	a1, a4
	tail	__atomic_fetch_add_8
.La_func_end4:
	.size	__atomic_fetch_sub_8, .La_func_end4-__atomic_fetch_sub_8
	.cfi_endproc
	.section	.text.__atomic_compare_exchange_8,"ax",@progbits
	.weak	__atomic_compare_exchange_8
	.p2align	1
	.type	__atomic_compare_exchange_8,@function
__atomic_compare_exchange_8:
	.cfi_startproc
	mv	a4, a0
	lw	t0, 0(a1)
	lw	a0, 4(a1)
	.insn i 115, 7, a6, s0, 768
	lw	t1, 0(a4)
	lw	a7, 4(a4)
	xor	a0, a7, a0
	xor	a5, t1, t0
	or	a5, a5, a0
	seqz	a0, a5
	bnez	a5, .La_BB5_2
	sw	a2, 0(a4)
	sw	a3, 4(a4)
	andi	a1, a6, 8
	.insn i 115, 2, zero, a1, 768
	ret
.La_BB5_2:
	andi	a2, a6, 8
	.insn i 115, 2, zero, a2, 768
	sw	t1, 0(a1)
	sw	a7, 4(a1)
	ret
.La_func_end5:
	.size	__atomic_compare_exchange_8, .La_func_end5-__atomic_compare_exchange_8
	.cfi_endproc
	.ident	"clang version 22.1.8"
	.section	".note.GNU-stack","",@progbits
#endif
/* c/memory.c */
#ifndef TLSF_ONLY_CALLS
	.section	.text.tlsf_memory_alloc,"ax",@progbits
	.hidden	tlsf_memory_alloc
	.globl	tlsf_memory_alloc
	.p2align	1
	.type	tlsf_memory_alloc,@function
tlsf_memory_alloc:
	.cfi_sections .debug_frame
	.cfi_startproc
	li	a4, 8
	lui	a3, %hi(.Lm__MergedGlobals)
	addi	a3, a3, %lo(.Lm__MergedGlobals)
	bltu	a4, a2, .Lm_BB0_10
	lui	a2, %hi(.Lm__MergedGlobals)
	lw	a2, %lo(.Lm__MergedGlobals+4)(a2)
	beqz	a2, .Lm_BB0_3
	lw	a4, 8(a3)
	addi	a5, a4, -1
	sw	a5, 8(a3)
	beqz	a4, .Lm_BB0_9
.Lm_BB0_3:
	lw	a2, 12(a3)
	beqz	a2, .Lm_BB0_10
	lui	a4, 65536
	bltu	a4, a1, .Lm_BB0_10
	lw	a4, 20(a3)
	addi	a6, a1, 8
	sub	a5, a4, a2
	bltu	a5, a6, .Lm_BB0_10
	lw	a6, 16(a3)
	add	a1, a1, a6
	addi	a7, a1, 7
	remu	a1, a7, a6
	sub	a1, a7, a1
	bgeu	a1, a5, .Lm_BB0_8
	add	a4, a2, a1
.Lm_BB0_8:
	addi	a1, a2, 8
	sw	a4, 12(a3)
	sw	zero, 0(a2)
	sw	zero, 4(a2)
	j	.Lm_BB0_11
.Lm_BB0_9:
	lui	a4, 1
	addi	a4, a4, -1320
	bgeu	a4, a1, .Lm_BB0_14
.Lm_BB0_10:
	li	a1, 0
.Lm_BB0_11:
	snez	a2, a1
	sw	a2, 0(a0)
	sw	zero, 4(a0)
	bnez	a1, .Lm_BB0_13
	addi	a1, a3, 24
.Lm_BB0_13:
	sw	a1, 8(a0)
	sw	zero, 12(a0)
	ret
.Lm_BB0_14:
	sw	zero, 0(a2)
	sw	zero, 4(a2)
	addi	a1, a2, 8
	j	.Lm_BB0_11
.Lm_func_end0:
	.size	tlsf_memory_alloc, .Lm_func_end0-tlsf_memory_alloc
	.cfi_endproc
	.section	.text.tlsf_memory_dealloc,"ax",@progbits
	.hidden	tlsf_memory_dealloc
	.globl	tlsf_memory_dealloc
	.p2align	1
	.type	tlsf_memory_dealloc,@function
tlsf_memory_dealloc:
	.cfi_startproc
	ret
.Lm_func_end1:
	.size	tlsf_memory_dealloc, .Lm_func_end1-tlsf_memory_dealloc
	.cfi_endproc
	.section	.text.tlsf_memory_realloc,"ax",@progbits
	.hidden	tlsf_memory_realloc
	.globl	tlsf_memory_realloc
	.p2align	1
	.type	tlsf_memory_realloc,@function
tlsf_memory_realloc:
	.cfi_startproc
	addi	sp, sp, -16
	.cfi_def_cfa_offset 16
	sw	ra, 12(sp)
	sw	s0, 8(sp)
	sw	s1, 4(sp)
	sw	s2, 0(sp)
	.cfi_offset ra, -4
	.cfi_offset s0, -8
	.cfi_offset s1, -12
	.cfi_offset s2, -16
	mv	s2, a2
	mv	s1, a1
	mv	s0, a0
	mv	a1, a3
	mv	a2, a4
	call	tlsf_memory_alloc
	lw	a0, 0(s0)
	lw	a1, 4(s0)
	or	a0, a0, a1
	beqz	a0, .Lm_BB2_2
	lw	a0, 8(s0)
	mv	a1, s1
	mv	a2, s2
	call	memcpy
.Lm_BB2_2:
	lw	ra, 12(sp)
	lw	s0, 8(sp)
	lw	s1, 4(sp)
	lw	s2, 0(sp)
	.cfi_restore ra
	.cfi_restore s0
	.cfi_restore s1
	.cfi_restore s2
	addi	sp, sp, 16
	.cfi_def_cfa_offset 0
	ret
.Lm_func_end2:
	.size	tlsf_memory_realloc, .Lm_func_end2-tlsf_memory_realloc
	.cfi_endproc
	.section	.text.tlsf_memory_set,"ax",@progbits
	.hidden	tlsf_memory_set
	.weak	tlsf_memory_set
	.p2align	1
	.type	tlsf_memory_set,@function
tlsf_memory_set:
	.cfi_startproc
	tail	memset
.Lm_func_end3:
	.size	tlsf_memory_set, .Lm_func_end3-tlsf_memory_set
	.cfi_endproc
	.section	.text.tlsf_memory_cpy,"ax",@progbits
	.hidden	tlsf_memory_cpy
	.weak	tlsf_memory_cpy
	.p2align	1
	.type	tlsf_memory_cpy,@function
tlsf_memory_cpy:
	.cfi_startproc
	tail	memcpy
.Lm_func_end4:
	.size	tlsf_memory_cpy, .Lm_func_end4-tlsf_memory_cpy
	.cfi_endproc
	.section	.text.tlsf_memory_move,"ax",@progbits
	.hidden	tlsf_memory_move
	.weak	tlsf_memory_move
	.p2align	1
	.type	tlsf_memory_move,@function
tlsf_memory_move:
	.cfi_startproc
	tail	memmove
.Lm_func_end5:
	.size	tlsf_memory_move, .Lm_func_end5-tlsf_memory_move
	.cfi_endproc
	.section	.text.tlsf_bytes,"ax",@progbits
	.globl	tlsf_bytes
	.p2align	1
	.type	tlsf_bytes,@function
tlsf_bytes:
	.cfi_startproc
	li	a2, 4
	bltu	a1, a2, .Lm_BB6_5
	bne	a0, a2, .Lm_BB6_4
	lui	a0, 256
	bltu	a0, a1, .Lm_BB6_5
.Lm_BB6_3:
	slli	a0, a1, 3
	addi	a1, a1, 63
	srli	a1, a1, 3
	addi	a1, a1, 16
	andi	a1, a1, -16
	add	a0, a0, a1
	addi	a0, a0, 2047
	addi	a0, a0, 744
	ori	a0, a0, 15
	ret
.Lm_BB6_4:
	addi	a0, a0, -5
	seqz	a0, a0
	slli	a0, a0, 24
	bgeu	a0, a1, .Lm_BB6_3
.Lm_BB6_5:
	li	a0, 0
	ret
.Lm_func_end6:
	.size	tlsf_bytes, .Lm_func_end6-tlsf_bytes
	.cfi_endproc
	.section	.text.heap_bytes,"ax",@progbits
	.p2align	1
	.type	heap_bytes,@function
heap_bytes:
	.cfi_startproc
	slli	a1, a0, 3
	addi	a0, a0, 63
	addi	a1, a1, 23
	srli	a0, a0, 3
	andi	a1, a1, -16
	addi	a0, a0, 16
	andi	a0, a0, -16
	add	a0, a0, a1
	addi	a0, a0, 2047
	addi	a0, a0, 721
	ret
.Lm_func_end7:
	.size	heap_bytes, .Lm_func_end7-heap_bytes
	.cfi_endproc
	.section	.text.tlsf_near_bytes,"ax",@progbits
	.globl	tlsf_near_bytes
	.p2align	1
	.type	tlsf_near_bytes,@function
tlsf_near_bytes:
	.cfi_startproc
	li	a2, 4
	bltu	a1, a2, .Lm_BB8_5
	bne	a0, a2, .Lm_BB8_4
	lui	a0, 256
	bltu	a0, a1, .Lm_BB8_5
.Lm_BB8_3:
	slli	a0, a1, 3
	addi	a1, a1, 63
	addi	a0, a0, 23
	srli	a1, a1, 3
	andi	a0, a0, -16
	andi	a1, a1, -8
	add	a0, a0, a1
	addi	a0, a0, 23
	ret
.Lm_BB8_4:
	addi	a0, a0, -5
	seqz	a0, a0
	slli	a0, a0, 24
	bgeu	a0, a1, .Lm_BB8_3
.Lm_BB8_5:
	li	a0, 0
	ret
.Lm_func_end8:
	.size	tlsf_near_bytes, .Lm_func_end8-tlsf_near_bytes
	.cfi_endproc
	.section	.text.near_bytes,"ax",@progbits
	.p2align	1
	.type	near_bytes,@function
near_bytes:
	.cfi_startproc
	slli	a1, a0, 3
	addi	a0, a0, 63
	addi	a1, a1, 23
	srli	a0, a0, 3
	andi	a1, a1, -16
	andi	a0, a0, -8
	add	a0, a0, a1
	addi	a0, a0, 8
	ret
.Lm_func_end9:
	.size	near_bytes, .Lm_func_end9-near_bytes
	.cfi_endproc
	.section	.text.tlsf_open_in,"ax",@progbits
	.globl	tlsf_open_in
	.p2align	1
	.type	tlsf_open_in,@function
tlsf_open_in:
	.cfi_startproc
	lui	a5, %hi(heap_bytes)
	addi	a5, a5, %lo(heap_bytes)
	tail	open_in
.Lm_func_end10:
	.size	tlsf_open_in, .Lm_func_end10-tlsf_open_in
	.cfi_endproc
	.section	.text.open_in,"ax",@progbits
	.p2align	1
	.type	open_in,@function
open_in:
	.cfi_startproc
	addi	sp, sp, -48
	.cfi_def_cfa_offset 48
	sw	ra, 44(sp)
	sw	s0, 40(sp)
	sw	s1, 36(sp)
	sw	s2, 32(sp)
	sw	s3, 28(sp)
	sw	s4, 24(sp)
	sw	s5, 20(sp)
	sw	s6, 16(sp)
	sw	s7, 12(sp)
	sw	s8, 8(sp)
	sw	s9, 4(sp)
	sw	s10, 0(sp)
	.cfi_offset ra, -4
	.cfi_offset s0, -8
	.cfi_offset s1, -12
	.cfi_offset s2, -16
	.cfi_offset s3, -20
	.cfi_offset s4, -24
	.cfi_offset s5, -28
	.cfi_offset s6, -32
	.cfi_offset s7, -36
	.cfi_offset s8, -40
	.cfi_offset s9, -44
	.cfi_offset s10, -48
	mv	s9, a5
	mv	s6, a4
	mv	s5, a3
	mv	s2, a2
	mv	s4, a0
	lbu	a0, 29(a0)
	mv	s3, a1
	beqz	a0, .Lm_BB11_6
	addi	a1, a0, -65
	li	a2, -57
	bltu	a1, a2, .Lm_BB11_5
	addi	a1, a0, 127
	li	a2, 16
	and	a1, a1, a0
	bltu	a2, a0, .Lm_BB11_4
	li	a0, 16
.Lm_BB11_4:
	beqz	a1, .Lm_BB11_7
.Lm_BB11_5:
	li	s7, 0
	j	.Lm_BB11_8
.Lm_BB11_6:
	li	a0, 16
.Lm_BB11_7:
	li	a1, -32
	sub	a1, a1, s5
	remu	s7, a1, a0
.Lm_BB11_8:
	li	s0, 0
	not	s8, s5
	beqz	s5, .Lm_BB11_22
	bltu	s8, s6, .Lm_BB11_22
	bltu	s6, s7, .Lm_BB11_22
	li	a0, 4
	sub	s1, s6, s7
	bne	s3, a0, .Lm_BB11_13
	lui	s10, 256
	j	.Lm_BB11_14
.Lm_BB11_13:
	addi	a0, s3, -5
	seqz	s10, a0
	slli	s10, s10, 24
.Lm_BB11_14:
	li	a0, 4
	jalr	s9
	bgeu	s1, a0, .Lm_BB11_16
	li	s0, 0
	j	.Lm_BB11_22
.Lm_BB11_16:
	lui	a0, 65536
	bltu	s1, a0, .Lm_BB11_18
	lui	s1, 65536
.Lm_BB11_18:
	li	a0, 0
	jalr	s9
	sub	a0, s1, a0
	lui	a1, 1032444
	slli	a0, a0, 3
	addi	a1, a1, 253
	mulhu	a0, a0, a1
	srli	a0, a0, 6
	addi	s0, a0, 9
.Lm_BB11_19:
	addi	s0, s0, -1
	mv	a0, s0
	jalr	s9
	bltu	s1, a0, .Lm_BB11_19
	bltu	s0, s10, .Lm_BB11_22
	mv	s0, s10
.Lm_BB11_22:
	snez	a0, s5
	sltu	a1, s8, s6
	xori	s1, a1, 1
	and	s1, s1, a0
	bltu	s7, s6, .Lm_BB11_24
	mv	s7, s6
.Lm_BB11_24:
	lui	s8, %hi(.Lm__MergedGlobals)
	addi	s8, s8, %lo(.Lm__MergedGlobals)
	bnez	s1, .Lm_BB11_26
	mv	s7, s8
	j	.Lm_BB11_27
.Lm_BB11_26:
	add	s7, s7, s5
.Lm_BB11_27:
	sw	s7, 12(s8)
	bnez	s1, .Lm_BB11_29
	mv	s5, s8
	j	.Lm_BB11_30
.Lm_BB11_29:
	add	s5, s5, s6
.Lm_BB11_30:
	li	a0, 16
	sw	a0, 16(s8)
	sw	s5, 20(s8)
	mv	a0, s4
	mv	a1, s3
	mv	a2, s2
	mv	a3, s0
	call	open_noted
	addi	a1, a0, -5
	snez	a1, a1
	or	a1, a1, s1
	sw	zero, 12(s8)
	bnez	a1, .Lm_BB11_32
	li	a0, 39
.Lm_BB11_32:
	lw	ra, 44(sp)
	lw	s0, 40(sp)
	lw	s1, 36(sp)
	lw	s2, 32(sp)
	lw	s3, 28(sp)
	lw	s4, 24(sp)
	lw	s5, 20(sp)
	lw	s6, 16(sp)
	lw	s7, 12(sp)
	lw	s8, 8(sp)
	lw	s9, 4(sp)
	lw	s10, 0(sp)
	.cfi_restore ra
	.cfi_restore s0
	.cfi_restore s1
	.cfi_restore s2
	.cfi_restore s3
	.cfi_restore s4
	.cfi_restore s5
	.cfi_restore s6
	.cfi_restore s7
	.cfi_restore s8
	.cfi_restore s9
	.cfi_restore s10
	addi	sp, sp, 48
	.cfi_def_cfa_offset 0
	ret
.Lm_func_end11:
	.size	open_in, .Lm_func_end11-open_in
	.cfi_endproc
	.section	.text.tlsf_open_near,"ax",@progbits
	.globl	tlsf_open_near
	.p2align	1
	.type	tlsf_open_near,@function
tlsf_open_near:
	.cfi_startproc
	addi	sp, sp, -16
	.cfi_def_cfa_offset 16
	sw	ra, 12(sp)
	sw	s0, 8(sp)
	.cfi_offset ra, -4
	.cfi_offset s0, -8
	neg	a4, a0
	lui	s0, %hi(.Lm__MergedGlobals)
	addi	s0, s0, %lo(.Lm__MergedGlobals)
	li	a5, 2
	andi	a4, a4, 63
	add	a0, a0, a4
	addi	a4, a0, 32
	sw	a4, 4(s0)
	sw	a5, 8(s0)
	call	open_noted
	sw	zero, 4(s0)
	lw	ra, 12(sp)
	lw	s0, 8(sp)
	.cfi_restore ra
	.cfi_restore s0
	addi	sp, sp, 16
	.cfi_def_cfa_offset 0
	ret
.Lm_func_end12:
	.size	tlsf_open_near, .Lm_func_end12-tlsf_open_near
	.cfi_endproc
	.section	.text.tlsf_open_near_in,"ax",@progbits
	.globl	tlsf_open_near_in
	.p2align	1
	.type	tlsf_open_near_in,@function
tlsf_open_near_in:
	.cfi_startproc
	addi	sp, sp, -16
	.cfi_def_cfa_offset 16
	sw	ra, 12(sp)
	sw	s0, 8(sp)
	.cfi_offset ra, -4
	.cfi_offset s0, -8
	neg	a5, a0
	lui	s0, %hi(.Lm__MergedGlobals)
	addi	s0, s0, %lo(.Lm__MergedGlobals)
	li	a6, 2
	andi	a5, a5, 63
	add	a0, a0, a5
	addi	a5, a0, 32
	sw	a5, 4(s0)
	sw	a6, 8(s0)
	lui	a5, %hi(near_bytes)
	addi	a5, a5, %lo(near_bytes)
	call	open_in
	sw	zero, 4(s0)
	lw	ra, 12(sp)
	lw	s0, 8(sp)
	.cfi_restore ra
	.cfi_restore s0
	addi	sp, sp, 16
	.cfi_def_cfa_offset 0
	ret
.Lm_func_end13:
	.size	tlsf_open_near_in, .Lm_func_end13-tlsf_open_near_in
	.cfi_endproc
	.section	.text.tlsf_open_32,"ax",@progbits
	.globl	tlsf_open_32
	.p2align	1
	.type	tlsf_open_32,@function
tlsf_open_32:
	.cfi_startproc
	tail	open_noted
.Lm_func_end14:
	.size	tlsf_open_32, .Lm_func_end14-tlsf_open_32
	.cfi_endproc
	.section	.text.tlsf_open_in_32,"ax",@progbits
	.globl	tlsf_open_in_32
	.p2align	1
	.type	tlsf_open_in_32,@function
tlsf_open_in_32:
	.cfi_startproc
	lui	a5, %hi(heap_bytes)
	addi	a5, a5, %lo(heap_bytes)
	tail	open_in
.Lm_func_end15:
	.size	tlsf_open_in_32, .Lm_func_end15-tlsf_open_in_32
	.cfi_endproc
	.section	.text.tlsf_open_near_2880,"ax",@progbits
	.globl	tlsf_open_near_2880
	.p2align	1
	.type	tlsf_open_near_2880,@function
tlsf_open_near_2880:
	.cfi_startproc
	addi	sp, sp, -16
	.cfi_def_cfa_offset 16
	sw	ra, 12(sp)
	sw	s0, 8(sp)
	.cfi_offset ra, -4
	.cfi_offset s0, -8
	neg	a4, a0
	lui	s0, %hi(.Lm__MergedGlobals)
	addi	s0, s0, %lo(.Lm__MergedGlobals)
	li	a5, 2
	andi	a4, a4, 63
	add	a0, a0, a4
	addi	a4, a0, 32
	sw	a4, 4(s0)
	sw	a5, 8(s0)
	call	open_noted
	sw	zero, 4(s0)
	lw	ra, 12(sp)
	lw	s0, 8(sp)
	.cfi_restore ra
	.cfi_restore s0
	addi	sp, sp, 16
	.cfi_def_cfa_offset 0
	ret
.Lm_func_end16:
	.size	tlsf_open_near_2880, .Lm_func_end16-tlsf_open_near_2880
	.cfi_endproc
	.section	.text.tlsf_open_near_in_2880,"ax",@progbits
	.globl	tlsf_open_near_in_2880
	.p2align	1
	.type	tlsf_open_near_in_2880,@function
tlsf_open_near_in_2880:
	.cfi_startproc
	addi	sp, sp, -16
	.cfi_def_cfa_offset 16
	sw	ra, 12(sp)
	sw	s0, 8(sp)
	.cfi_offset ra, -4
	.cfi_offset s0, -8
	neg	a5, a0
	lui	s0, %hi(.Lm__MergedGlobals)
	addi	s0, s0, %lo(.Lm__MergedGlobals)
	li	a6, 2
	andi	a5, a5, 63
	add	a0, a0, a5
	addi	a5, a0, 32
	sw	a5, 4(s0)
	sw	a6, 8(s0)
	lui	a5, %hi(near_bytes)
	addi	a5, a5, %lo(near_bytes)
	call	open_in
	sw	zero, 4(s0)
	lw	ra, 12(sp)
	lw	s0, 8(sp)
	.cfi_restore ra
	.cfi_restore s0
	addi	sp, sp, 16
	.cfi_def_cfa_offset 0
	ret
.Lm_func_end17:
	.size	tlsf_open_near_in_2880, .Lm_func_end17-tlsf_open_near_in_2880
	.cfi_endproc
	.section	.text.tlsf_lane_bytes,"ax",@progbits
	.globl	tlsf_lane_bytes
	.p2align	1
	.type	tlsf_lane_bytes,@function
tlsf_lane_bytes:
	.cfi_startproc
	addi	a1, a0, -1025
	slli	a2, a0, 3
	slli	a0, a0, 4
	add	a0, a0, a2
	lui	a2, 32
	sltiu	a1, a1, -1024
	addi	a2, a2, -128
	addi	a0, a0, 135
	and	a0, a0, a2
	addi	a0, a0, 895
	addi	a1, a1, -1
	and	a0, a0, a1
	ret
.Lm_func_end18:
	.size	tlsf_lane_bytes, .Lm_func_end18-tlsf_lane_bytes
	.cfi_endproc
	.section	.text.tlsf_lane_open_in,"ax",@progbits
	.globl	tlsf_lane_open_in
	.p2align	1
	.type	tlsf_lane_open_in,@function
tlsf_lane_open_in:
	.cfi_startproc
	addi	sp, sp, -16
	.cfi_def_cfa_offset 16
	sw	ra, 12(sp)
	sw	s0, 8(sp)
	sw	s1, 4(sp)
	.cfi_offset ra, -4
	.cfi_offset s0, -8
	.cfi_offset s1, -12
	li	a5, 1025
	bgeu	a2, a5, .Lm_BB19_2
	slli	a7, a2, 3
	slli	t0, a2, 4
	lui	a6, 32
	neg	a5, a3
	seqz	t1, a3
	not	s1, a3
	add	a7, a7, t0
	addi	a6, a6, -128
	andi	t2, a5, 127
	sltu	s0, s1, a4
	addi	a7, a7, 135
	or	t0, s0, t1
	sltu	s0, a4, t2
	and	a6, a7, a6
	or	a7, t0, s0
	addi	a6, a6, 768
	sub	s0, a4, t2
	sltu	s0, s0, a6
	or	s0, a7, s0
	addi	s0, s0, -1
	and	a2, a2, s0
	j	.Lm_BB19_3
.Lm_BB19_2:
	neg	a5, a3
	andi	t2, a5, 127
	not	s1, a3
.Lm_BB19_3:
	snez	a5, a3
	sltu	s1, s1, a4
	xori	s0, s1, 1
	and	s0, s0, a5
	bltu	t2, a4, .Lm_BB19_5
	mv	t2, a4
.Lm_BB19_5:
	lui	s1, %hi(.Lm__MergedGlobals)
	addi	s1, s1, %lo(.Lm__MergedGlobals)
	bnez	s0, .Lm_BB19_7
	mv	a5, s1
	j	.Lm_BB19_8
.Lm_BB19_7:
	add	a5, a3, t2
.Lm_BB19_8:
	sw	a5, 12(s1)
	bnez	s0, .Lm_BB19_10
	mv	a3, s1
	j	.Lm_BB19_11
.Lm_BB19_10:
	add	a3, a3, a4
.Lm_BB19_11:
	li	a4, 128
	sw	a4, 16(s1)
	sw	a3, 20(s1)
	call	tlsf_lane_open
	addi	a1, a0, -5
	snez	a1, a1
	or	a1, a1, s0
	sw	zero, 12(s1)
	bnez	a1, .Lm_BB19_13
	li	a0, 39
.Lm_BB19_13:
	lw	ra, 12(sp)
	lw	s0, 8(sp)
	lw	s1, 4(sp)
	.cfi_restore ra
	.cfi_restore s0
	.cfi_restore s1
	addi	sp, sp, 16
	.cfi_def_cfa_offset 0
	ret
.Lm_func_end19:
	.size	tlsf_lane_open_in, .Lm_func_end19-tlsf_lane_open_in
	.cfi_endproc
	.section	.text.tlsf_queue_bytes,"ax",@progbits
	.globl	tlsf_queue_bytes
	.p2align	1
	.type	tlsf_queue_bytes,@function
tlsf_queue_bytes:
	.cfi_startproc
	li	a2, 1024
	sub	a3, a2, a0
	sub	a4, a2, a1
	or	a3, a3, a4
	bgeu	a3, a2, .Lm_BB20_2
	slli	a2, a0, 4
	slli	a3, a1, 3
	slli	a1, a1, 5
	addi	a3, a3, 519
	addi	a1, a1, 135
	andi	a3, a3, -128
	andi	a1, a1, -128
	add	a1, a1, a3
	slli	a3, a0, 3
	slli	a0, a0, 7
	addi	a2, a2, 135
	addi	a3, a3, 135
	andi	a2, a2, -128
	andi	a3, a3, -128
	add	a0, a0, a2
	slli	a1, a1, 1
	add	a0, a0, a3
	add	a0, a0, a1
	addi	a0, a0, 383
	ret
.Lm_BB20_2:
	li	a0, 0
	ret
.Lm_func_end20:
	.size	tlsf_queue_bytes, .Lm_func_end20-tlsf_queue_bytes
	.cfi_endproc
	.section	.text.tlsf_queue_open_in,"ax",@progbits
	.globl	tlsf_queue_open_in
	.p2align	1
	.type	tlsf_queue_open_in,@function
tlsf_queue_open_in:
	.cfi_startproc
	addi	sp, sp, -16
	.cfi_def_cfa_offset 16
	sw	ra, 12(sp)
	sw	s0, 8(sp)
	sw	s1, 4(sp)
	.cfi_offset ra, -4
	.cfi_offset s0, -8
	.cfi_offset s1, -12
	li	a5, 1024
	bltu	a5, a1, .Lm_BB21_3
	li	a5, 1025
	bgeu	a2, a5, .Lm_BB21_3
	slli	a5, a1, 4
	lui	a7, 16
	slli	t1, a2, 3
	lui	a6, 8
	slli	t2, a2, 5
	lui	t0, 32
	slli	t3, a1, 3
	addi	a5, a5, 135
	addi	s0, a7, -128
	and	a7, a5, s0
	seqz	t4, a3
	addi	s0, t2, 135
	addi	s1, t0, -128
	and	t0, s0, s1
	not	s0, a3
	addi	t1, t1, 519
	addi	s1, a6, -128
	addi	a5, t3, 135
	and	a6, t1, s1
	and	t1, a5, s1
	sltu	a5, s0, a4
	or	t2, a5, t4
	slli	s1, a1, 7
	add	a6, a6, t0
	neg	a5, a3
	andi	a5, a5, 127
	add	a7, a7, s1
	sltu	s1, a4, a5
	or	t0, t2, s1
	slli	a6, a6, 1
	add	a7, a7, t1
	add	a6, a6, a7
	addi	a6, a6, 256
	sub	s1, a4, a5
	sltu	s1, s1, a6
	or	s1, t0, s1
	addi	s1, s1, -1
	and	a2, a2, s1
	j	.Lm_BB21_4
.Lm_BB21_3:
	neg	a5, a3
	andi	a5, a5, 127
	not	s0, a3
.Lm_BB21_4:
	snez	s1, a3
	sltu	s0, s0, a4
	xori	s0, s0, 1
	and	s0, s0, s1
	bltu	a5, a4, .Lm_BB21_6
	mv	a5, a4
.Lm_BB21_6:
	lui	s1, %hi(.Lm__MergedGlobals)
	addi	s1, s1, %lo(.Lm__MergedGlobals)
	bnez	s0, .Lm_BB21_8
	mv	a5, s1
	j	.Lm_BB21_9
.Lm_BB21_8:
	add	a5, a5, a3
.Lm_BB21_9:
	sw	a5, 12(s1)
	bnez	s0, .Lm_BB21_11
	mv	a3, s1
	j	.Lm_BB21_12
.Lm_BB21_11:
	add	a3, a3, a4
.Lm_BB21_12:
	li	a4, 128
	sw	a4, 16(s1)
	sw	a3, 20(s1)
	call	tlsf_queue_open
	addi	a1, a0, -5
	snez	a1, a1
	or	a1, a1, s0
	sw	zero, 12(s1)
	bnez	a1, .Lm_BB21_14
	li	a0, 39
.Lm_BB21_14:
	lw	ra, 12(sp)
	lw	s0, 8(sp)
	lw	s1, 4(sp)
	.cfi_restore ra
	.cfi_restore s0
	.cfi_restore s1
	addi	sp, sp, 16
	.cfi_def_cfa_offset 0
	ret
.Lm_func_end21:
	.size	tlsf_queue_open_in, .Lm_func_end21-tlsf_queue_open_in
	.cfi_endproc
	.section	.text.tlsf_offsets_bytes,"ax",@progbits
	.globl	tlsf_offsets_bytes
	.p2align	1
	.type	tlsf_offsets_bytes,@function
tlsf_offsets_bytes:
	.cfi_startproc
	li	a2, 4
	bltu	a1, a2, .Lm_BB22_5
	bne	a0, a2, .Lm_BB22_4
	lui	a0, 256
	bltu	a0, a1, .Lm_BB22_5
.Lm_BB22_3:
	slli	a0, a1, 3
	lui	a2, 131072
	addi	a1, a1, 63
	addi	a0, a0, 23
	addi	a2, a2, -16
	and	a0, a0, a2
	lui	a2, 4096
	srli	a1, a1, 3
	addi	a1, a1, 16
	addi	a2, a2, -16
	and	a1, a1, a2
	add	a0, a0, a1
	addi	a0, a0, 2047
	addi	a0, a0, 736
	ret
.Lm_BB22_4:
	addi	a0, a0, -5
	seqz	a0, a0
	slli	a0, a0, 24
	bgeu	a0, a1, .Lm_BB22_3
.Lm_BB22_5:
	li	a0, 0
	ret
.Lm_func_end22:
	.size	tlsf_offsets_bytes, .Lm_func_end22-tlsf_offsets_bytes
	.cfi_endproc
	.section	.text.tlsf_offsets_open_in,"ax",@progbits
	.globl	tlsf_offsets_open_in
	.p2align	1
	.type	tlsf_offsets_open_in,@function
tlsf_offsets_open_in:
	.cfi_startproc
	addi	sp, sp, -16
	.cfi_def_cfa_offset 16
	sw	ra, 12(sp)
	sw	s0, 8(sp)
	sw	s1, 4(sp)
	sw	s2, 0(sp)
	.cfi_offset ra, -4
	.cfi_offset s0, -8
	.cfi_offset s1, -12
	.cfi_offset s2, -16
	li	s1, 4
	bne	a1, s1, .Lm_BB23_3
	lui	s1, 256
	bltu	s1, a4, .Lm_BB23_4
.Lm_BB23_2:
	slli	t2, a4, 3
	lui	a7, 131072
	addi	t0, a4, 63
	lui	t1, 4096
	seqz	t3, a5
	not	t4, a5
	addi	t2, t2, 23
	addi	a7, a7, -16
	and	a7, t2, a7
	sltu	s1, t4, a6
	or	t2, s1, t3
	neg	s1, a5
	srli	t0, t0, 3
	addi	t1, t1, -16
	andi	t3, s1, 15
	addi	t0, t0, 16
	and	t0, t0, t1
	sltu	s0, a6, t3
	or	t1, t2, s0
	add	a7, a7, t0
	addi	s0, a7, 2047
	addi	a7, s0, 721
	sub	s0, a6, t3
	sltu	s0, s0, a7
	or	s0, t1, s0
	addi	s0, s0, -1
	and	a4, a4, s0
	j	.Lm_BB23_5
.Lm_BB23_3:
	addi	s1, a1, -5
	seqz	s1, s1
	slli	s1, s1, 24
	bgeu	s1, a4, .Lm_BB23_2
.Lm_BB23_4:
	neg	s1, a5
	andi	t3, s1, 15
	not	t4, a5
.Lm_BB23_5:
	snez	a7, a5
	sltu	s1, t4, a6
	xori	s0, s1, 1
	and	s0, a7, s0
	bltu	t3, a6, .Lm_BB23_7
	mv	t3, a6
.Lm_BB23_7:
	lui	s2, %hi(.Lm__MergedGlobals)
	addi	s2, s2, %lo(.Lm__MergedGlobals)
	bnez	s0, .Lm_BB23_9
	mv	s1, s2
	j	.Lm_BB23_10
.Lm_BB23_9:
	add	s1, a5, t3
.Lm_BB23_10:
	sw	s1, 12(s2)
	bnez	s0, .Lm_BB23_12
	mv	a5, s2
	j	.Lm_BB23_13
.Lm_BB23_12:
	add	a5, a5, a6
.Lm_BB23_13:
	li	s1, 16
	sw	s1, 16(s2)
	sw	a5, 20(s2)
	call	tlsf_offsets_open
	addi	a1, a0, -5
	snez	a1, a1
	or	a1, a1, s0
	sw	zero, 12(s2)
	bnez	a1, .Lm_BB23_15
	li	a0, 39
.Lm_BB23_15:
	lw	ra, 12(sp)
	lw	s0, 8(sp)
	lw	s1, 4(sp)
	lw	s2, 0(sp)
	.cfi_restore ra
	.cfi_restore s0
	.cfi_restore s1
	.cfi_restore s2
	addi	sp, sp, 16
	.cfi_def_cfa_offset 0
	ret
.Lm_func_end23:
	.size	tlsf_offsets_open_in, .Lm_func_end23-tlsf_offsets_open_in
	.cfi_endproc
	.section	.text.tlsf_pools_bytes,"ax",@progbits
	.globl	tlsf_pools_bytes
	.p2align	1
	.type	tlsf_pools_bytes,@function
tlsf_pools_bytes:
	.cfi_startproc
	addi	sp, sp, -32
	.cfi_def_cfa_offset 32
	sw	ra, 28(sp)
	sw	s0, 24(sp)
	.cfi_offset ra, -4
	.cfi_offset s0, -8
	mv	s0, a2
	sw	zero, 16(sp)
	sw	zero, 20(sp)
	sw	zero, 12(sp)
	addi	a3, sp, 16
	addi	a4, sp, 12
	call	tlsf_pools_words
	mv	a1, a0
	li	a0, 0
	bnez	a1, .Lm_BB24_2
	lw	a0, 16(sp)
	lw	a1, 12(sp)
	lui	a2, 1
	slli	a3, s0, 2
	slli	s0, s0, 3
	addi	a2, a2, -1313
	add	a3, a3, s0
	addi	a4, a2, 9
	mul	a4, a1, a4
	slli	a5, a0, 3
	srli	a0, a0, 3
	slli	s0, a1, 4
	slli	a1, a1, 6
	addi	a4, a4, 23
	andi	a0, a0, -8
	add	a1, a1, s0
	add	a3, a3, a5
	andi	a4, a4, -16
	add	a1, a1, a3
	add	a0, a0, a1
	add	a2, a2, a4
	add	a0, a0, a2
.Lm_BB24_2:
	lw	ra, 28(sp)
	lw	s0, 24(sp)
	.cfi_restore ra
	.cfi_restore s0
	addi	sp, sp, 32
	.cfi_def_cfa_offset 0
	ret
.Lm_func_end24:
	.size	tlsf_pools_bytes, .Lm_func_end24-tlsf_pools_bytes
	.cfi_endproc
	.section	.text.tlsf_pools_open_in,"ax",@progbits
	.globl	tlsf_pools_open_in
	.p2align	1
	.type	tlsf_pools_open_in,@function
tlsf_pools_open_in:
	.cfi_startproc
	addi	sp, sp, -16
	.cfi_def_cfa_offset 16
	sw	ra, 12(sp)
	sw	s0, 8(sp)
	sw	s1, 4(sp)
	sw	s2, 0(sp)
	.cfi_offset ra, -4
	.cfi_offset s0, -8
	.cfi_offset s1, -12
	.cfi_offset s2, -16
	neg	s1, a5
	snez	t0, a5
	not	a7, a5
	andi	s1, s1, 15
	sltu	s0, a7, a6
	xori	s0, s0, 1
	and	s0, t0, s0
	bltu	s1, a6, .Lm_BB25_2
	mv	s1, a6
.Lm_BB25_2:
	lui	s2, %hi(.Lm__MergedGlobals)
	addi	s2, s2, %lo(.Lm__MergedGlobals)
	bnez	s0, .Lm_BB25_4
	mv	s1, s2
	j	.Lm_BB25_5
.Lm_BB25_4:
	add	s1, s1, a5
.Lm_BB25_5:
	sw	s1, 12(s2)
	bnez	s0, .Lm_BB25_7
	mv	a5, s2
	j	.Lm_BB25_8
.Lm_BB25_7:
	add	a5, a5, a6
.Lm_BB25_8:
	li	s1, 16
	sw	s1, 16(s2)
	sw	a5, 20(s2)
	call	tlsf_pools_open
	li	a1, 6
	bne	a0, a1, .Lm_BB25_10
	li	a0, 5
.Lm_BB25_10:
	addi	a1, a0, -5
	snez	a1, a1
	or	a1, a1, s0
	sw	zero, 12(s2)
	bnez	a1, .Lm_BB25_12
	li	a0, 39
.Lm_BB25_12:
	lw	ra, 12(sp)
	lw	s0, 8(sp)
	lw	s1, 4(sp)
	lw	s2, 0(sp)
	.cfi_restore ra
	.cfi_restore s0
	.cfi_restore s1
	.cfi_restore s2
	addi	sp, sp, 16
	.cfi_def_cfa_offset 0
	ret
.Lm_func_end25:
	.size	tlsf_pools_open_in, .Lm_func_end25-tlsf_pools_open_in
	.cfi_endproc
	.section	.text.tlsf_next_number,"ax",@progbits
	.globl	tlsf_next_number
	.p2align	1
	.type	tlsf_next_number,@function
tlsf_next_number:
	.cfi_startproc
	addi	sp, sp, -16
	.cfi_def_cfa_offset 16
	sw	ra, 12(sp)
	sw	s0, 8(sp)
	.cfi_offset ra, -4
	.cfi_offset s0, -8
	mv	s0, a0
	lui	a0, %hi(tlsf_next_number.calls)
	addi	a0, a0, %lo(tlsf_next_number.calls)
	li	a1, 1
	li	a2, 0
	li	a3, 0
	call	__atomic_fetch_add_8
	srli	a2, a0, 29
	slli	a3, a1, 3
	slli	a1, a0, 3
	or	a2, a2, a3
	srai	a0, a1, 31
	bne	a0, a2, .Lm_BB26_2
	li	a0, 0
	lui	a2, 524288
	add	a1, a1, a2
	sw	a1, 0(s0)
	j	.Lm_BB26_3
.Lm_BB26_2:
	li	a0, 2
.Lm_BB26_3:
	lw	ra, 12(sp)
	lw	s0, 8(sp)
	.cfi_restore ra
	.cfi_restore s0
	addi	sp, sp, 16
	.cfi_def_cfa_offset 0
	ret
.Lm_func_end26:
	.size	tlsf_next_number, .Lm_func_end26-tlsf_next_number
	.cfi_endproc
	.section	.text.open_noted,"ax",@progbits
	.p2align	1
	.type	open_noted,@function
open_noted:
	.cfi_startproc
	addi	sp, sp, -16
	.cfi_def_cfa_offset 16
	sw	ra, 12(sp)
	sw	s0, 8(sp)
	.cfi_offset ra, -4
	.cfi_offset s0, -8
	mv	s0, a0
	lbu	a0, 29(a0)
	beqz	a0, .Lm_BB27_4
	addi	a4, a0, -65
	li	a5, -57
	bgeu	a4, a5, .Lm_BB27_3
	li	a3, 0
	j	.Lm_BB27_4
.Lm_BB27_3:
	addi	a4, a0, 127
	and	a0, a0, a4
	snez	a0, a0
	addi	a0, a0, -1
	and	a3, a3, a0
.Lm_BB27_4:
	mv	a0, s0
	call	tlsf_open
	bnez	a0, .Lm_BB27_7
	lbu	a1, 29(s0)
	ori	a1, a1, 16
	li	a2, 16
	beq	a1, a2, .Lm_BB27_7
	li	a1, 1
	sb	a1, 28(s0)
.Lm_BB27_7:
	lw	ra, 12(sp)
	lw	s0, 8(sp)
	.cfi_restore ra
	.cfi_restore s0
	addi	sp, sp, 16
	.cfi_def_cfa_offset 0
	ret
.Lm_func_end27:
	.size	open_noted, .Lm_func_end27-open_noted
	.cfi_endproc
	.type	tlsf_next_number.calls,@object
	.section	.bss.tlsf_next_number.calls,"aw",@nobits
	.p2align	3, 0x0
tlsf_next_number.calls:
	.quad	0
	.size	tlsf_next_number.calls, 8
	.type	.Lm__MergedGlobals,@object
	.section	.bss..L_MergedGlobals,"aw",@nobits
	.p2align	3, 0x0
.Lm__MergedGlobals:
	.zero	32
	.size	.Lm__MergedGlobals, 32
begin_behind.nothing = .Lm__MergedGlobals
	.size	begin_behind.nothing, 1
near_room = .Lm__MergedGlobals+4
	.size	near_room, 4
pieces_first = .Lm__MergedGlobals+8
	.size	pieces_first, 4
lent = .Lm__MergedGlobals+12
	.size	lent, 4
lent_step = .Lm__MergedGlobals+16
	.size	lent_step, 4
lent_end = .Lm__MergedGlobals+20
	.size	lent_end, 4
tlsf_memory_alloc.nothing = .Lm__MergedGlobals+24
	.size	tlsf_memory_alloc.nothing, 8
	.ident	"clang version 22.1.8"
	.section	".note.GNU-stack","",@progbits
#endif
